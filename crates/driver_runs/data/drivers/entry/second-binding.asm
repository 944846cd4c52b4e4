; A new handle gets the driver binding too, and is its handle from then on. R4 is the boot services,
; R1 is 0, and R3 is where the new handle is then.
; 10 instructions and InstallProtocolInterface: 18 units.
        MOVRELd R5, =binding
        MOVRELd R2, =binding_protocol
        MOVRELd R3, =second_device      ; 0, for a new handle, whose number is stored here
        PUSHn R5
        PUSHn R1
        PUSHn R2
        PUSHn R3
        CALL32EXa @R4[0x00000080]       ; InstallProtocolInterface
        MOVqw R0, R0[0x0020]
        MOVqw @R5[0x0028], @R3          ; DriverBindingHandle
