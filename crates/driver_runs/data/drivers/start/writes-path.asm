; Start writes a 0 to the remaining device path, the third argument.
; 4 units.
start:
        MOVqw R5, @R0[0x0020]
        MOVbw @R5, R1
        RET
