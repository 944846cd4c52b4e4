; Closes all RECORDS opens that set-up/opens-one-interface made of handle 4, from the first on. R4 is the boot services,
; and R1 is 0.
; 8 instructions, for each record 8 and CloseProtocol (8), and 4 more after each 250: 16 units.
        MOVRELd R2, =device_protocol
        MOVIqd R5, RECORDS
        MOVIqw R6, 4
        PUSHn R6                        ; ControllerHandle
        PUSHn R6                        ; AgentHandle
        PUSHn R2                        ; Protocol
        PUSHn R6                        ; Handle
close_next:
        MOVqw @R0[0x0018], R6
        CALL32EXa @R4[0x00000120]       ; CloseProtocol
        MOVqw R6, R6[0x0001]
        CMPI64weq R6, 254
        JMP8cc =same_agent
        MOVIqw R6, 4
        MOVqw R3, @R0[0x0010]
        MOVqw R3, R3[0x0001]
        MOVqw @R0[0x0010], R3
same_agent:
        ADD64 R5, R1{-1}
        CMPI64weq R5, 0
        JMP8cc =close_next
        MOVqw R0, R0[0x0020]
