; Disconnects the firmware from driver 9, which is not there.
; 6 instructions and DisconnectController: 7 units.
        MOVIqw R5, 9
        PUSHn R1                        ; no child
        PUSHn R5
        MOVIqw R5, 1
        PUSHn R5
        CALL32EXa @R4[0x00000110]       ; DisconnectController
