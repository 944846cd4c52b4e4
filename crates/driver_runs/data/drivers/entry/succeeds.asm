; The entry succeeds, whatever the last service answered. R1 is still 0.
; 2 units.
        MOVqw R7, R1
        RET
