; Allocates blocks of no bytes. R4 is the boot services, and R1 is 0.
; 4 instructions, and each turn 2 and AllocatePool (1): 3 units.
        MOVRELd R2, =block
        PUSHn R2                        ; Buffer: where the address is stored
        PUSHn R1                        ; Size
        PUSHn R1                        ; PoolType
allocate_again:
        CALL32EXa @R4[0x00000040]       ; AllocatePool
        JMP8 =allocate_again
block:
        .byte 0, 0, 0, 0, 0, 0, 0, 0
