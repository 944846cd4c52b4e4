; Closes the protocol of handle 4 for handle 300, for which handle 4 does not have it open. R4 is the boot services.
; 7 instructions, and each turn 2 and CloseProtocol (8): 10 units.
        MOVRELd R2, =device_protocol
        MOVIqw R5, 300
        MOVIqw R6, 4
        PUSHn R5                        ; ControllerHandle
        PUSHn R6                        ; AgentHandle
        PUSHn R2                        ; Protocol
        PUSHn R6                        ; Handle
close_again:
        CALL32EXa @R4[0x00000120]       ; CloseProtocol
        JMP8 =close_again
