; Stop uninstalls the driver binding.
; 12 instructions and UninstallProtocolInterface: 20 units.
stop:
        MOVRELd R4, =services
        MOVqw R4, @R4
        MOVRELd R5, =binding
        MOVqw R6, @R5[0x0028]
        MOVRELd R2, =binding_protocol
        PUSHn R5
        PUSHn R2
        PUSHn R6
        CALL32EXa @R4[0x00000090]       ; UninstallProtocolInterface
        MOVqw R0, R0[0x0018]
        RET
