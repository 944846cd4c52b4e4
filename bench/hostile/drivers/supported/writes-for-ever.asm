; Supported writes 8 bytes of its image until its units are spent.
; With the jump of the binding 2 instructions, and each turn 2.
supported:
        MOVRELd R5, =interface
write_again:
        MOVqw @R5, R1
        JMP8 =write_again
