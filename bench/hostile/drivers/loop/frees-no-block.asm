; Frees an address at which no block begins. R4 is the boot services.
; 2 instructions, and each turn 2 and FreePool (4): 6 units.
        MOVIqq R5, 4295098376           ; 0x100020008, in the middle of the blocks
        PUSHn R5                        ; Buffer
free_again:
        CALL32EXa @R4[0x00000048]       ; FreePool
        JMP8 =free_again
