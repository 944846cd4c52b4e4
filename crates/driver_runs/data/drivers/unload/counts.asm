; The handler adds 1 to the counter and answers it, which is a success.
; 6 units.
unload:
        MOVRELd R5, =counter
        MOVqw R7, @R5
        MOVqw R7, R7[0x0001]
        MOVqw @R5, R7
        RET
