; Makes a thunk of a function that returns, and calls it.
; 3 instructions, and each turn 3 and the call (64): 67 units.
        MOVRELd R7, =place
        BREAK 5
        MOVqw R5, @R7
call_again:
        CALL32EXa R5
        JMP8 =call_again
place:
        .byte 4, 0, 0, 0, 0, 0, 0, 0    ; the function follows
        RET
