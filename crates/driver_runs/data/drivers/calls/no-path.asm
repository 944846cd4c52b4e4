; There is no remaining device path.
; 1 unit.
        MOVqw R3, R1
