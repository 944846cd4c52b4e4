; Stop connects its controller, and closes the device.
; 12 instructions, ConnectController and `close`: 34 units.
stop:
        MOVRELd R4, =services
        MOVqw R4, @R4
        MOVqw R6, @R0[0x0018]
        PUSHn R1
        PUSHn R1
        PUSHn R1
        PUSHn R6
        CALL32EXa @R4[0x00000108]       ; ConnectController
        MOVqw R0, R0[0x0020]
        CALL64 =close
        RET
