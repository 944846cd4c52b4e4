; An entry that calls a thunk, which calls itself 29 times. The last call is at level 31, and connects the
; root bridge, handle 3, so that Start of the PCI bus driver is at level 32. The entry answers the status.
; 9 instructions of the entry. The thunk takes 10 units 29 times, and the last time 16 instructions and
; ConnectController: 17. Each call of it costs 64.
        MOVqw R4, @R0[0x0018]
        MOVqw R4, @R4[0x0060]
        MOVRELd R6, =services
        MOVqw @R6, R4
        MOVRELd R7, =place
        BREAK 5
        MOVqw R7, @R7
        CALL32EXa R7
        RET
place:
        .byte 4, 0, 0, 0, 0, 0, 0, 0    ; the code of the thunk follows
        MOVRELd R5, =calls
        MOVqw R6, @R5
        MOVqw R6, R6[0x0001]
        MOVqw @R5, R6
        CMPI64weq R6, 30
        JMP8cs =at_level_31
        MOVRELd R7, =place
        MOVqw R7, @R7
        CALL32EXa R7
        RET
at_level_31:
        MOVRELd R4, =services
        MOVqw R4, @R4
        MOVIqw R6, 3
        PUSHn R1                        ; not recursive
        PUSHn R1                        ; no remaining device path
        PUSHn R1                        ; no driver image handles
        PUSHn R6
        CALL32EXa @R4[0x00000108]       ; ConnectController
        MOVqw R0, R0[0x0020]
        RET
services:
        .byte 0, 0, 0, 0, 0, 0, 0, 0
calls:
        .byte 0, 0, 0, 0, 0, 0, 0, 0
