; Makes THUNKS thunks of a function. R1 is 0, and R7 is 0 then.
; 3 instructions, and for each thunk 5.
        MOVRELd R7, =thunk_place
        MOVIqd R5, THUNKS
next_thunk:
        MOVIdw @R7, 4                   ; the distance to the function
        BREAK 5
        ADD64 R5, R1{-1}
        CMPI64weq R5, 0
        JMP8cc =next_thunk
        MOVqw R7, R1
