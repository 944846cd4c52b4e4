; Supported connects its controller twice and refuses it.
; With the jump of the binding 13 instructions and ConnectController twice: 143 units, and those of the drivers.
supported:
        MOVRELd R4, =services
        MOVqw R4, @R4
        MOVqw R6, @R0[0x0018]           ; the controller
        PUSHn R1                        ; Recursive
        PUSHn R1                        ; RemainingDevicePath
        PUSHn R1                        ; DriverImageHandle
        PUSHn R6                        ; ControllerHandle
        CALL32EXa @R4[0x00000108]       ; ConnectController
        CALL32EXa @R4[0x00000108]       ; ConnectController
        MOVqw R0, R0[0x0020]
        MOVIqq R7, -9223372036854775805 ; EFI_UNSUPPORTED
        RET
