; R6 points to the return address of the entry.
; 1 unit.
        MOVqw R6, R0
