; An entry that reads where the path of a command is while the command runs.
; 3 units.
        MOVIqd R5, 86016                ; 0x15000
        MOVbw R7, @R5
        RET
