; Makes room for 64 handles on the stack, to which R2 points, and fills it with handles that are not
; there, none of them 0.
; 9 instructions and SetMem of 512 bytes: 74 units.
        MOVIqw R5, 512
        SUB64 R0, R5
        MOVqw R2, R0
        MOVIqw R3, 1
        PUSHn R3                        ; the byte
        PUSHn R5
        PUSHn R2
        CALL32EXa @R4[0x00000168]       ; SetMem
        MOVqw R0, R0[0x0018]
