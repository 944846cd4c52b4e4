; Opens the protocol of handle 4 with ATTRIBUTES for handle 300, and closes it. R4 is the boot services.
; 17 instructions, and each turn 5, OpenProtocol (8) and CloseProtocol (8): 21 units.
        MOVRELd R2, =device_protocol
        MOVRELd R3, =interface
        MOVIqw R5, 300
        MOVIqw R6, 4
        PUSHn R5                        ; ControllerHandle
        PUSHn R6                        ; AgentHandle
        PUSHn R2                        ; Protocol
        PUSHn R6                        ; Handle
        MOVIqw R7, ATTRIBUTES
        PUSHn R7                        ; Attributes
        PUSHn R5                        ; ControllerHandle
        PUSHn R6                        ; AgentHandle
        PUSHn R3                        ; Interface
        PUSHn R2                        ; Protocol
        PUSHn R6                        ; Handle
        MOVqw R5, R0
        MOVqw R6, R0[0x0030]
open_again:
        CALL32EXa @R4[0x00000118]       ; OpenProtocol
        MOVqw R0, R6
        CALL32EXa @R4[0x00000120]       ; CloseProtocol
        MOVqw R0, R5
        JMP8 =open_again
