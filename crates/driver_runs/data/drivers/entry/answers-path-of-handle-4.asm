; Gets the device path of handle 4, and answers 8 bytes of it, from the byte `offset` on.
; 13 instructions and HandleProtocol: 21 units.
        MOVRELd R2, =device_protocol
        MOVRELd R3, =interface
        MOVIqw R6, 4
        PUSHn R3
        PUSHn R2
        PUSHn R6
        CALL32EXa @R4[0x00000098]       ; HandleProtocol
        MOVqw R0, R0[0x0018]
        MOVqw R5, @R3                   ; the device path
        MOVRELd R2, =offset
        ADD64 R5, @R2
        MOVqw R7, @R5
        RET
