; Opens the device, handle 4, with GET_PROTOCOL, for the image and for no controller.
; 13 instructions and OpenProtocol: 21 units.
        MOVqw R5, @R0[0x0010]           ; the handle of the image
        MOVRELd R2, =device_protocol
        MOVRELd R3, =interface
        MOVIqw R6, 4
        MOVIqw R7, 2                    ; GET_PROTOCOL
        PUSHn R7
        PUSHn R1                        ; no controller
        PUSHn R5                        ; the agent
        PUSHn R3
        PUSHn R2
        PUSHn R6
        CALL32EXa @R4[0x00000118]       ; OpenProtocol
        MOVqw R0, R0[0x0030]
