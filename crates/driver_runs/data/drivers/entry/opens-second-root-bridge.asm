; Opens the protocol of handle 4 with BY_CHILD_CONTROLLER, for the PCI bus driver and for handle 5.
; 14 instructions and OpenProtocol: 22 units.
        MOVRELd R2, =device_protocol
        MOVRELd R3, =interface
        MOVIqw R6, 4
        MOVIqw R7, 8                    ; BY_CHILD_CONTROLLER
        PUSHn R7
        MOVIqw R7, 5
        PUSHn R7                        ; the child
        MOVIqw R7, 2
        PUSHn R7                        ; the agent
        PUSHn R3
        PUSHn R2
        PUSHn R6
        CALL32EXa @R4[0x00000118]       ; OpenProtocol
        MOVqw R0, R0[0x0030]
