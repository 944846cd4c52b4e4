; Asks for the open records of handle 4, and keeps each block that is answered. R4 is the boot services.
; 8 instructions, and each turn 2 and OpenProtocolInformation (16): 18 units.
        MOVRELd R2, =device_protocol
        MOVRELd R3, =records
        MOVRELd R5, =record_count
        MOVIqw R6, 4
        PUSHn R5                        ; EntryCount
        PUSHn R3                        ; EntryBuffer
        PUSHn R2                        ; Protocol
        PUSHn R6                        ; Handle
ask_again:
        CALL32EXa @R4[0x00000128]       ; OpenProtocolInformation
        JMP8 =ask_again
records:
        .byte 0, 0, 0, 0, 0, 0, 0, 0
record_count:
        .byte 0, 0, 0, 0, 0, 0, 0, 0
