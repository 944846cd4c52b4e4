; Uninstalls the driver binding of the PCI bus driver, handle 2.
; 8 instructions and UninstallProtocolInterface: 16 units.
        MOVRELd R2, =binding_protocol
        MOVIqd R5, 77824                ; 0x13000
        MOVIqw R6, 2
        PUSHn R5
        PUSHn R2
        PUSHn R6
        CALL32EXa @R4[0x00000090]       ; UninstallProtocolInterface
        MOVqw R0, R0[0x0018]
