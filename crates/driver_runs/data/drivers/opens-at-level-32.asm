; An entry that calls a thunk, which calls itself 30 times. The last call is at level 32, and opens and
; uninstalls the device, handle 4. The entry answers both statuses, without their bit 63, and the byte
; at `interface`: the status of the open is the highest of the three bytes.
; 15 instructions of the entry. The thunk takes 10 units 30 times, and the last time 32 instructions,
; OpenProtocol and UninstallProtocolInterface: 48. Each call of it costs 64.
        MOVRELd R6, =agent
        MOVqw @R6, @R0[0x0010]          ; the handle of the image
        MOVqw R4, @R0[0x0018]
        MOVqw R4, @R4[0x0060]
        MOVRELd R6, =services
        MOVqw @R6, R4
        MOVRELd R7, =place
        BREAK 5
        MOVqw R7, @R7
        CALL32EXa R7
        MOVRELd R3, =interface
        MOVIqw R6, 8
        SHL64 R7, R6
        OR64 R7, @R3
        RET
place:
        .byte 4, 0, 0, 0, 0, 0, 0, 0    ; the code of the thunk follows
        MOVRELd R5, =calls
        MOVqw R6, @R5
        MOVqw R6, R6[0x0001]
        MOVqw @R5, R6
        CMPI64weq R6, 31
        JMP8cs =at_level_32
        MOVRELd R7, =place
        MOVqw R7, @R7
        CALL32EXa R7
        RET
at_level_32:
        MOVRELd R4, =services
        MOVqw R4, @R4
        MOVRELd R5, =agent
        MOVqw R5, @R5
        MOVRELd R2, =device_protocol
        MOVRELd R3, =interface
        MOVIqw R6, 4
        MOVIqw R7, 48                   ; BY_DRIVER and EXCLUSIVE
        PUSHn R7
        PUSHn R6                        ; the controller
        PUSHn R5                        ; the agent
        PUSHn R3
        PUSHn R2
        PUSHn R6
        CALL32EXa @R4[0x00000118]       ; OpenProtocol
        MOVqw R3, R7
        MOVIqw R5, 5
        PUSHn R5
        PUSHn R2
        PUSHn R6
        CALL32EXa @R4[0x00000090]       ; UninstallProtocolInterface
        MOVqw R0, R0[0x0048]
        MOVIqw R5, 8
        SHL64 R3, R5
        OR64 R7, R3
        RET
agent:
        .byte 0, 0, 0, 0, 0, 0, 0, 0
services:
        .byte 0, 0, 0, 0, 0, 0, 0, 0
calls:
        .byte 0, 0, 0, 0, 0, 0, 0, 0
interface:
        .byte 9, 0, 0, 0, 0, 0, 0, 0
