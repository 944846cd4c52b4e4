; R7 is a recursion.
; 1 unit.
        MOVIqw R7, 257
