; Connects the firmware, with the list to which R2 points, the path to which R3 points, and R7 for
; the recursion.
; 6 instructions and ConnectController: 7 units.
        MOVIqw R5, 1
        PUSHn R7
        PUSHn R3
        PUSHn R2
        PUSHn R5
        CALL32EXa @R4[0x00000108]       ; ConnectController
