; The entry of a driver: it makes thunks of the three functions of its driver binding, which are
; in data/binding, and installs the binding on the handle of its image. R4 is then the boot services,
; and R1 is 0.
; 22 instructions and InstallProtocolInterface: 30 units.
        MOVqw R4, @R0[0x0018]           ; the system table, the second argument
        MOVqw R4, @R4[0x0060]           ; its boot services
        MOVRELd R5, =services
        MOVqw @R5, R4
        MOVqw R6, @R0[0x0010]           ; the handle of the image, the first argument
        MOVRELd R5, =binding
        MOVqw R7, R5
        BREAK 5                         ; a thunk of supported
        MOVqw R7, R5[0x0008]
        BREAK 5                         ; of start
        MOVqw R7, R5[0x0010]
        BREAK 5                         ; of stop
        MOVqw @R5[0x0020], R6           ; ImageHandle
        MOVqw @R5[0x0028], R6           ; DriverBindingHandle
        MOVRELd R2, =binding_protocol
        MOVqw R3, R0[0x0010]            ; where the handle is
        PUSHn R5                        ; the interface
        PUSHn R1                        ; EFI_NATIVE_INTERFACE
        PUSHn R2
        PUSHn R3
        CALL32EXa @R4[0x00000080]       ; InstallProtocolInterface
        MOVqw R0, R0[0x0020]
