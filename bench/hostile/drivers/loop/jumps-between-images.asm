; Jumps to the last two bytes of the first image's code, which data/jumps-back has, and is sent back here.
; 2 instructions, and each turn 3.
        MOVIqd R5, 33554948             ; 0x2000204: the code is at 0x200 of the image, and 4 bytes are before the jump
        MOVRELd R3, =jump_back
jump_again:
        JMP32a R5
jump_back:
        JMP8 =jump_again
