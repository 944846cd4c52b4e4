; Opens the protocol of handle 4 as the last of RECORDS opens was made by set-up/opens-one-interface, which the same
; record counts. R4 is the boot services.
; 15 instructions, and each turn 2 and OpenProtocol (8): 10 units.
        MOVRELd R2, =device_protocol
        MOVRELd R3, =interface
        MOVIqd R5, RECORDS
        MOVIqw R6, 250
        DIVU64 R5, R6
        MOVqw R5, R5[0x0003]
        MOVIqw R6, 253
        MOVIqw R7, 2
        PUSHn R7                        ; Attributes: GET_PROTOCOL
        PUSHn R6                        ; ControllerHandle
        PUSHn R5                        ; AgentHandle: one for 250 records, from 4 on
        MOVIqw R6, 4
        PUSHn R3                        ; Interface
        PUSHn R2                        ; Protocol
        PUSHn R6                        ; Handle
open_again:
        CALL32EXa @R4[0x00000118]       ; OpenProtocol
        JMP8 =open_again
