; Opens the second device with GET_PROTOCOL, for the image, whose handle is in R6, and for the device
; as the controller. R2 is the protocol, and R3 is where the handle of the second device is.
; 11 instructions and OpenProtocol: 19 units.
        MOVRELd R5, =device
        MOVIqw R7, 2                    ; GET_PROTOCOL
        PUSHn R7
        PUSHn @R5                       ; the controller
        PUSHn R6                        ; the agent
        MOVRELd R7, =interface
        PUSHn R7
        PUSHn R2
        PUSHn @R3
        CALL32EXa @R4[0x00000118]       ; OpenProtocol
        MOVqw R0, R0[0x0030]
