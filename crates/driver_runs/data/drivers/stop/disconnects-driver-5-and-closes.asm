; Stop disconnects its controller from driver 5, and closes the device.
; 12 instructions, DisconnectController and `close`: 34 units.
stop:
        MOVRELd R4, =services
        MOVqw R4, @R4
        MOVqw R6, @R0[0x0018]
        MOVIqw R5, 5
        PUSHn R1                        ; no child
        PUSHn R5
        PUSHn R6
        CALL32EXa @R4[0x00000110]       ; DisconnectController
        MOVqw R0, R0[0x0018]
        CALL64 =close
        RET
