; Makes as many handles that have the protocol of the device as `count` says. R4 is the boot services,
; and R1 is 0.
; 10 instructions, and for each handle 5 and InstallProtocolInterface: 10 units, and 13 for each.
        MOVRELd R2, =device_protocol
        MOVRELd R3, =device
        PUSHn R1                        ; the interface
        PUSHn R1                        ; EFI_NATIVE_INTERFACE
        PUSHn R2
        PUSHn R3
        MOVRELd R5, =count
        MOVqw R5, @R5
        MOVIqw R6, 1
next_handle:
        MOVqw @R3, R1                   ; 0, for a new handle
        CALL32EXa @R4[0x00000080]       ; InstallProtocolInterface
        SUB64 R5, R6
        CMPI64weq R5, 0
        JMP8cc =next_handle
        MOVqw R0, R0[0x0020]
