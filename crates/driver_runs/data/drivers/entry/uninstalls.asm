; Uninstalls the protocol of the device, handle 4.
; 8 instructions and UninstallProtocolInterface: 16 units.
        MOVRELd R2, =device_protocol
        MOVIqw R5, 5
        MOVIqw R6, 4
        PUSHn R5
        PUSHn R2
        PUSHn R6
        CALL32EXa @R4[0x00000090]       ; UninstallProtocolInterface
        MOVqw R0, R0[0x0018]
