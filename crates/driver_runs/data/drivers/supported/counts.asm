; Supported adds 1 to the counter and succeeds.
; 6 units.
supported:
        MOVRELd R5, =counter
        MOVqw R6, @R5
        MOVqw R6, R6[0x0001]
        MOVqw @R5, R6
        RET
