; Asks for the open records of handle 4, and frees the block that is answered. R4 is the boot services, and R1 is 0.
; 10 instructions, and each turn 5, OpenProtocolInformation (16) and FreePool (4): 25 units.
        MOVRELd R2, =device_protocol
        MOVRELd R5, =record_count
        MOVIqw R3, 4
        PUSHn R1                        ; Buffer of FreePool, where the address of the block is stored
        MOVqw R6, R0
        PUSHn R5                        ; EntryCount
        PUSHn R6                        ; EntryBuffer
        PUSHn R2                        ; Protocol
        PUSHn R3                        ; Handle
        MOVqw R5, R0
ask_again:
        CALL32EXa @R4[0x00000128]       ; OpenProtocolInformation
        MOVqw R0, R6
        CALL32EXa @R4[0x00000048]       ; FreePool
        MOVqw R0, R5
        JMP8 =ask_again
record_count:
        .byte 0, 0, 0, 0, 0, 0, 0, 0
