; Opens the protocol of handle 4 with GET_PROTOCOL for handle 300 and closes it, TURNS times. R4 is the boot services,
; and R1 is 0.
; 19 instructions, and each turn 7, OpenProtocol (8) and CloseProtocol (8): 23 units.
        MOVRELd R2, =device_protocol
        MOVRELd R3, =interface
        MOVIqw R5, 300
        MOVIqw R6, 4
        MOVIqw R7, 2
        PUSHn R5                        ; ControllerHandle
        PUSHn R6                        ; AgentHandle
        PUSHn R2                        ; Protocol
        PUSHn R6                        ; Handle
        PUSHn R7                        ; Attributes: GET_PROTOCOL
        PUSHn R5                        ; ControllerHandle
        PUSHn R6                        ; AgentHandle
        PUSHn R3                        ; Interface
        PUSHn R2                        ; Protocol
        PUSHn R6                        ; Handle
        MOVIqd R5, TURNS
        MOVqw R6, R0
open_next:
        MOVqw R0, R6
        CALL32EXa @R4[0x00000118]       ; OpenProtocol
        MOVqw R0, R0[0x0030]
        CALL32EXa @R4[0x00000120]       ; CloseProtocol
        ADD64 R5, R1{-1}
        CMPI64weq R5, 0
        JMP8cc =open_next
        MOVqw R0, R0[0x0020]
