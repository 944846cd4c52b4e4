; The handler adds 1 to the counter and answers it as an error: LOAD_ERROR is 1.
; 8 units.
unload:
        MOVRELd R5, =counter
        MOVqw R7, @R5
        MOVqw R7, R7[0x0001]
        MOVqw @R5, R7
        MOVIqq R6, -9223372036854775808
        OR64 R7, R6
        RET
