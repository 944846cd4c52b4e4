; R7 is no recursion: a BOOLEAN is the lowest 8 bits.
; 1 unit.
        MOVIqw R7, 256
