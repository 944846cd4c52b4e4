; Start opens the device, with BY_DRIVER for itself and with BY_CHILD_CONTROLLER for both children.
; 17 instructions, `open` and OpenProtocol twice: 58 units.
start:
        CALL64 =open                    ; R2 to R6 are then the protocol, the place for the
        MOVIqw R1, 8                    ; interface, the services, the agent and the controller
        PUSHn R1                        ; BY_CHILD_CONTROLLER
        MOVRELd R1, =second_device
        PUSHn @R1                       ; the first child
        PUSHn R5
        PUSHn R3
        PUSHn R2
        PUSHn R6
        CALL32EXa @R4[0x00000118]       ; OpenProtocol
        MOVRELd R1, =third_device
        MOVqw R1, @R1
        MOVqw @R0[0x0020], R1           ; the second child in its place
        CALL32EXa @R4[0x00000118]       ; OpenProtocol
        MOVqw R0, R0[0x0030]
        RET
