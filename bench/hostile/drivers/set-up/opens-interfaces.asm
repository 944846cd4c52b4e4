; Opens the protocols of the handles from FIRST on and before END with GET_PROTOCOL, and after these again for the next
; agent: RECORDS times in all. The agents are the handles from AGENT on, and the controller is AGENT. R4 is the boot
; services, and R1 is 0. The status of the last open is in R7.
; 13 instructions, for each record 8 and OpenProtocol (8), and 4 more for each agent: 16 units.
        MOVRELd R2, =device_protocol
        MOVRELd R3, =interface
        MOVIqd R5, RECORDS
        MOVIqw R6, AGENT
        MOVIqw R7, 2
        PUSHn R7                        ; Attributes: GET_PROTOCOL
        PUSHn R6                        ; ControllerHandle
        PUSHn R6                        ; AgentHandle
        PUSHn R3                        ; Interface
        PUSHn R2                        ; Protocol
        PUSHn R6                        ; Handle
        MOVIqw R6, FIRST
next_record:
        MOVqw @R0, R6
        CALL32EXa @R4[0x00000118]       ; OpenProtocol
        MOVqw R6, R6[0x0001]
        CMPI64weq R6, END
        JMP8cc =same_agent
        MOVIqw R6, FIRST
        MOVqw R3, @R0[0x0018]
        MOVqw R3, R3[0x0001]
        MOVqw @R0[0x0018], R3
same_agent:
        ADD64 R5, R1{-1}
        CMPI64weq R5, 0
        JMP8cc =next_record
        MOVqw R0, R0[0x0030]
