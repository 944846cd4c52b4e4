; Opens the first 31 protocols of data/64-protocols on the handle OPENED with GET_PROTOCOL, RECORDS times each: for the
; handles from 4 on as agents, and that handle itself as controller. R4 is the boot services, and R1 is 0. The status of
; the last open is in R7.
; 12 instructions, for each record 6 and OpenProtocol (8), and 7 more for each agent: 14 units.
        MOVIqd R5, RECORDS
        MOVRELd R3, =interface
        MOVIqw R6, 4
        MOVIqw R7, 2
        PUSHn R7                        ; Attributes: GET_PROTOCOL
        MOVIqw R7, OPENED
        PUSHn R7                        ; ControllerHandle
        PUSHn R6                        ; AgentHandle
        PUSHn R3                        ; Interface
        PUSHn R3                        ; Protocol
        PUSHn R7                        ; Handle
next_agent:
        MOVqw @R0[0x0018], R6
        MOVRELd R2, =protocols
        MOVIqw R3, 31
next_opened:
        MOVqw @R0[0x0008], R2
        CALL32EXa @R4[0x00000118]       ; OpenProtocol
        MOVqw R2, R2[0x0001]            ; the next protocol
        ADD64 R3, R1{-1}
        CMPI64weq R3, 0
        JMP8cc =next_opened
        MOVqw R6, R6[0x0001]
        ADD64 R5, R1{-1}
        CMPI64weq R5, 0
        JMP8cc =next_agent
        MOVqw R0, R0[0x0030]
