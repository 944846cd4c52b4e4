; Opens the device, handle 4, with EXCLUSIVE, for the image and for handle 5 as the controller.
; 14 instructions and OpenProtocol: 22 units.
        MOVqw R5, @R0[0x0010]           ; the handle of the image
        MOVRELd R2, =device_protocol
        MOVRELd R3, =interface
        MOVIqw R6, 4
        MOVIqw R7, 32                   ; EXCLUSIVE
        PUSHn R7
        MOVIqw R7, 5
        PUSHn R7                        ; the controller
        PUSHn R5                        ; the agent
        PUSHn R3
        PUSHn R2
        PUSHn R6
        CALL32EXa @R4[0x00000118]       ; OpenProtocol
        MOVqw R0, R0[0x0030]
