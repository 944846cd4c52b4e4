; Gets the interface of the protocol of handle 4, and uninstalls it.
; 12 instructions, HandleProtocol and UninstallProtocolInterface: 28 units.
        MOVRELd R2, =device_protocol
        MOVRELd R3, =interface
        MOVIqw R6, 4
        PUSHn R3
        PUSHn R2
        PUSHn R6
        CALL32EXa @R4[0x00000098]       ; HandleProtocol
        PUSHn @R3                       ; the interface
        PUSHn R2
        PUSHn R6
        CALL32EXa @R4[0x00000090]       ; UninstallProtocolInterface
        MOVqw R0, R0[0x0030]
