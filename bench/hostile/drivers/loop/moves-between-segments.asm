; Moves a number from the image to a block of 8 bytes, so that each access is to another segment of memory than the one
; before. R4 is the boot services, and R1 is 0.
; 9 instructions and AllocatePool (2), and each turn 3.
        MOVRELd R3, =number
        MOVRELd R5, =block
        MOVIqw R6, 8
        PUSHn R5                        ; Buffer
        PUSHn R6                        ; Size
        PUSHn R1                        ; PoolType
        CALL32EXa @R4[0x00000040]       ; AllocatePool
        MOVqw R0, R0[0x0018]
        MOVqw R5, @R5
move_again:
        MOVqw R2, @R3
        MOVqw @R5, R2
        JMP8 =move_again
number:
        .byte 0, 0, 0, 0, 0, 0, 0, 0
block:
        .byte 0, 0, 0, 0, 0, 0, 0, 0
