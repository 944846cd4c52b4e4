; The handler uninstalls the driver binding from the handle of the image, and answers the status.
; With its jump 12 instructions, and UninstallProtocolInterface: 20 units.
unload:
        MOVRELd R4, =services
        MOVqw R4, @R4
        MOVRELd R5, =binding
        MOVRELd R2, =binding_protocol
        MOVqw R3, @R0[0x0010]           ; the handle of the image
        PUSHn R5
        PUSHn R2
        PUSHn R3
        CALL32EXa @R4[0x00000090]       ; UninstallProtocolInterface
        MOVqw R0, R0[0x0018]
        RET
