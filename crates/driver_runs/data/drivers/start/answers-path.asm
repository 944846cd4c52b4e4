; Start answers 8 bytes of the remaining device path, the third argument, from its third byte on.
; 4 units.
start:
        MOVqw R5, @R0[0x0020]
        MOVqw R7, @R5[0x0002]
        RET
