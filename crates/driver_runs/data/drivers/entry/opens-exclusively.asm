; Opens the device, handle 4, with BY_DRIVER and EXCLUSIVE, for the image.
; 13 instructions and OpenProtocol: 21 units.
        MOVqw R5, @R0[0x0010]           ; the handle of the image
        MOVRELd R2, =device_protocol
        MOVRELd R3, =interface
        MOVIqw R6, 4
        MOVIqw R7, 48                   ; BY_DRIVER and EXCLUSIVE
        PUSHn R7
        PUSHn R6                        ; the controller
        PUSHn R5                        ; the agent
        PUSHn R3
        PUSHn R2
        PUSHn R6
        CALL32EXa @R4[0x00000118]       ; OpenProtocol
        MOVqw R0, R0[0x0030]
