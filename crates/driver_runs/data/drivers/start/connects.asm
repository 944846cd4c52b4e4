; Start connects its own controller and succeeds.
; Up to the call 9 instructions and ConnectController, after it 3: 13 units.
start:
        MOVRELd R4, =services
        MOVqw R4, @R4
        MOVqw R6, @R0[0x0018]
        PUSHn R1                        ; not recursive
        PUSHn R1                        ; no remaining device path
        PUSHn R1                        ; no driver image handles
        PUSHn R6
        CALL32EXa @R4[0x00000108]       ; ConnectController
        MOVqw R0, R0[0x0020]
        MOVIqw R7, 0
        RET
