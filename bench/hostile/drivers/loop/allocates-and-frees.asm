; Allocates a block of no bytes and frees it. R4 is the boot services, and R1 is 0.
; 6 instructions, and each turn 5, AllocatePool (1) and FreePool (4): 10 units.
        PUSHn R1                        ; Buffer of FreePool, where AllocatePool stores the address
        MOVqw R6, R0
        PUSHn R6                        ; Buffer
        PUSHn R1                        ; Size
        PUSHn R1                        ; PoolType
        MOVqw R5, R0
allocate_again:
        CALL32EXa @R4[0x00000040]       ; AllocatePool
        MOVqw R0, R6
        CALL32EXa @R4[0x00000048]       ; FreePool
        MOVqw R0, R5
        JMP8 =allocate_again
