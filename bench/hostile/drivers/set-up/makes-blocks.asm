; Makes BLOCKS blocks of no bytes. R4 is the boot services, and R1 is 0. The status is in R7.
; 6 instructions, and for each block 6 and AllocatePool (1): 7 units.
        MOVRELd R2, =block
        MOVIqd R5, BLOCKS
        PUSHn R2                        ; Buffer
        PUSHn R1                        ; Size
        PUSHn R1                        ; PoolType
next_block:
        CALL32EXa @R4[0x00000040]       ; AllocatePool
        CMPI64weq R7, 0
        JMP8cc =blocks_end
        ADD64 R5, R1{-1}
        CMPI64weq R5, 0
        JMP8cc =next_block
blocks_end:
        MOVqw R0, R0[0x0018]
