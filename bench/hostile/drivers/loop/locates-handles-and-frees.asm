; Asks for a block with all handles that have the protocol of the device, and frees it. R4 is the boot services, and R1
; is 0.
; 11 instructions, and each turn 5, LocateHandleBuffer (16) and FreePool (4): 25 units.
        MOVRELd R2, =device_protocol
        MOVRELd R5, =handle_count
        MOVIqw R3, 2
        PUSHn R1                        ; Buffer of FreePool, where the address of the block is stored
        MOVqw R6, R0
        PUSHn R6                        ; Buffer
        PUSHn R5                        ; NoHandles
        PUSHn R1                        ; SearchKey
        PUSHn R2                        ; Protocol
        PUSHn R3                        ; SearchType: ByProtocol
        MOVqw R5, R0
locate_again:
        CALL32EXa @R4[0x00000138]       ; LocateHandleBuffer
        MOVqw R0, R6
        CALL32EXa @R4[0x00000048]       ; FreePool
        MOVqw R0, R5
        JMP8 =locate_again
handle_count:
        .byte 0, 0, 0, 0, 0, 0, 0, 0
