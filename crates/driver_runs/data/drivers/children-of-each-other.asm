; An entry that makes two handles and opens each for the other with BY_CHILD_CONTROLLER.
; 29 instructions, InstallProtocolInterface twice and OpenProtocol twice: 61 units.
        MOVqw R4, @R0[0x0018]
        MOVqw R4, @R4[0x0060]
        MOVqw R6, @R0[0x0010]           ; the handle of the image, which is the agent
        MOVRELd R2, =device_protocol
        MOVRELd R3, =first
        PUSHn R1
        PUSHn R1
        PUSHn R2
        PUSHn R3
        CALL32EXa @R4[0x00000080]       ; InstallProtocolInterface
        MOVRELd R5, =second
        MOVqw @R0, R5
        CALL32EXa @R4[0x00000080]       ; InstallProtocolInterface
        MOVqw R3, @R3
        MOVqw R5, @R5
        MOVRELd R7, =out
        MOVIqw R1, 8
        PUSHn R1                        ; BY_CHILD_CONTROLLER
        PUSHn R5
        PUSHn R6
        PUSHn R7
        PUSHn R2
        PUSHn R3
        CALL32EXa @R4[0x00000118]       ; OpenProtocol
        MOVqw @R0[0x0020], R3
        MOVqw @R0, R5
        CALL32EXa @R4[0x00000118]       ; OpenProtocol
        MOVqw R0, R0[0x0050]
        RET
first:
        .byte 0, 0, 0, 0, 0, 0, 0, 0
second:
        .byte 0, 0, 0, 0, 0, 0, 0, 0
out:
        .byte 0, 0, 0, 0, 0, 0, 0, 0
