; Stop closes the device, and opens it with BY_DRIVER for handle 2.
; With the jump of the binding 14 instructions, `close` and OpenProtocol: 43 units.
stop:
        CALL64 =close                   ; R2, R4 and R6 are then the protocol, the services and the
        MOVRELd R3, =interface          ; controller
        MOVIqw R5, 2
        MOVIqw R1, 16                   ; BY_DRIVER
        PUSHn R1
        PUSHn R6                        ; the controller
        PUSHn R5                        ; the agent
        PUSHn R3
        PUSHn R2
        PUSHn R6
        CALL32EXa @R4[0x00000118]       ; OpenProtocol
        MOVqw R0, R0[0x0030]
        RET
