; Opens the protocol of handle 4 with GET_PROTOCOL for handle 300, asks for its open records, frees the block that is
; answered, and closes the open. R4 is the boot services, and R1 is 0.
; 24 instructions, and each turn 9, OpenProtocol (8), OpenProtocolInformation (16), FreePool (4) and CloseProtocol (8):
; 45 units.
        MOVRELd R2, =device_protocol
        MOVRELd R3, =interface
        MOVRELd R5, =record_count
        MOVIqw R6, 4
        MOVIqw R7, 2
        PUSHn R1                        ; Buffer of FreePool, where the address of the block is stored
        MOVqw R1, R0
        PUSHn R5                        ; EntryCount
        PUSHn R1                        ; EntryBuffer
        PUSHn R2                        ; Protocol
        PUSHn R6                        ; Handle
        MOVIqw R5, 300
        PUSHn R5                        ; ControllerHandle
        PUSHn R6                        ; AgentHandle
        PUSHn R2                        ; Protocol
        PUSHn R6                        ; Handle
        PUSHn R7                        ; Attributes
        PUSHn R5                        ; ControllerHandle
        PUSHn R6                        ; AgentHandle
        PUSHn R3                        ; Interface
        PUSHn R2                        ; Protocol
        PUSHn R6                        ; Handle
        MOVqw R5, R0
        MOVqw R6, R0[0x0030]
open_again:
        CALL32EXa @R4[0x00000118]       ; OpenProtocol
        MOVqw R0, R6[0x0020]
        CALL32EXa @R4[0x00000128]       ; OpenProtocolInformation
        MOVqw R0, R1
        CALL32EXa @R4[0x00000048]       ; FreePool
        MOVqw R0, R6
        CALL32EXa @R4[0x00000120]       ; CloseProtocol
        MOVqw R0, R5
        JMP8 =open_again
record_count:
        .byte 0, 0, 0, 0, 0, 0, 0, 0
