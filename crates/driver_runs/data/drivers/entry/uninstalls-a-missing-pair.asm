; Uninstalls the protocol of the device, handle 4, and then with an interface that is not there.
; 12 instructions and UninstallMultipleProtocolInterfaces: 28 units.
        MOVRELd R2, =device_protocol
        MOVIqw R3, 6
        MOVIqw R5, 5
        MOVIqw R6, 4
        PUSHn R1                        ; the end of the list
        PUSHn R3
        PUSHn R2
        PUSHn R5
        PUSHn R2
        PUSHn R6
        CALL32EXa @R4[0x00000150]       ; UninstallMultipleProtocolInterfaces
        MOVqw R0, R0[0x0030]
