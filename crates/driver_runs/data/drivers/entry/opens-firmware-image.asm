; Opens the loaded image of the firmware with GET_PROTOCOL, for handle 4 and for no controller.
; 13 instructions and OpenProtocol: 21 units.
        MOVRELd R2, =loaded_image_protocol
        MOVRELd R3, =interface
        MOVIqw R5, 1
        MOVIqw R6, 4
        MOVIqw R7, 2                    ; GET_PROTOCOL
        PUSHn R7
        PUSHn R1                        ; no controller
        PUSHn R6                        ; the agent
        PUSHn R3
        PUSHn R2
        PUSHn R5
        CALL32EXa @R4[0x00000118]       ; OpenProtocol
        MOVqw R0, R0[0x0030]
