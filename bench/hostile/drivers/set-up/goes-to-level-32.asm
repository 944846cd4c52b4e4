; Goes on at level 32, the last: a thunk calls itself up to there, and then what follows is done. R4 is the boot
; services here and there, and R1 is 0.
; 6 instructions at level 1, 9 at each of the 30 levels after it, 8 at level 32, and 31 calls (64): 2,268 units.
        MOVRELd R2, =level_services
        MOVqw @R2, R4
        MOVRELd R7, =level_thunk
        BREAK 5
        MOVqw R7, @R7
        CALL32EXa R7
level_services:
        .byte 0, 0, 0, 0, 0, 0, 0, 0
level_count:
        .byte 0, 0, 0, 0, 0, 0, 0, 0
level_thunk:
        .byte 4, 0, 0, 0, 0, 0, 0, 0    ; the function follows
        MOVRELd R2, =level_count
        MOVqw R3, @R2
        MOVqw R3, R3[0x0001]
        MOVqw @R2, R3
        CMPI64weq R3, 31
        JMP8cs =last_level
        MOVRELd R7, =level_thunk
        MOVqw R7, @R7
        CALL32EXa R7
last_level:
        MOVRELd R2, =level_services
        MOVqw R4, @R2
