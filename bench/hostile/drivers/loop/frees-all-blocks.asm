; Frees the BLOCKS blocks that set-up/makes-blocks made, from the first on. R4 is the boot services, and R1 is 0. The
; first image's loaded image block is before them, and each has 16 addresses.
; 4 instructions, and for each block 6 and FreePool (4): 10 units.
        MOVIqq R3, 4294967392           ; 0x100000060
        MOVIqd R5, BLOCKS
        PUSHn R3                        ; Buffer
free_next:
        CALL32EXa @R4[0x00000048]       ; FreePool
        MOVqw R3, R3[0x0010]
        MOVqw @R0, R3
        ADD64 R5, R1{-1}
        CMPI64weq R5, 0
        JMP8cc =free_next
        MOVqw R0, R0[0x0008]
