; An entry that calls a thunk, which calls itself.
; The entry's 4 instructions come up to the call, and the thunk's 3.
        MOVRELd R7, =place
        BREAK 5
        MOVqw R7, @R7
        CALL32EXa R7
        RET
place:
        .byte 4, 0, 0, 0, 0, 0, 0, 0    ; the code of the thunk follows
        MOVRELd R7, =place
        MOVqw R7, @R7
        CALL32EXa R7
        RET
