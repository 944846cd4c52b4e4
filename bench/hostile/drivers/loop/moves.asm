; Moves a number from memory and back.
; 1 instruction, and 3 each turn.
        MOVRELd R1, =number
move_again:
        MOVqw R2, @R1
        MOVqw @R1, R2
        JMP8 =move_again
number:
        .byte 0, 0, 0, 0, 0, 0, 0, 0
