; An entry that connects the root bridge, handle 3, and then fails.
; 11 instructions and ConnectController: 12 units.
        MOVqw R4, @R0[0x0018]
        MOVqw R4, @R4[0x0060]
        MOVIqw R6, 3
        PUSHn R1                        ; not recursive
        PUSHn R1                        ; no remaining device path
        PUSHn R1                        ; no driver image handles
        PUSHn R6
        CALL32EXa @R4[0x00000108]       ; ConnectController
        MOVqw R0, R0[0x0020]
        MOVIqq R7, -9223372036854775801 ; EFI_DEVICE_ERROR
        RET
