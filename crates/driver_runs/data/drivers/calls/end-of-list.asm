; The last of the 64 handles becomes 0.
; 1 unit.
        MOVqw @R2[0x01F8], R1
