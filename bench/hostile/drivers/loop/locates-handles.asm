; Asks for all handles that have the protocol of the device, with a buffer for 4,096 handles. R4 is the boot services,
; and R1 is 0.
; 16 instructions and AllocatePool (513), and each turn 2 and LocateHandle (16): 18 units.
        MOVRELd R2, =device_protocol
        MOVRELd R3, =byte_count
        MOVRELd R6, =handles
        MOVIqd R5, 32768
        MOVqw @R3, R5
        PUSHn R6                        ; Buffer
        PUSHn R5                        ; Size
        PUSHn R1                        ; PoolType
        CALL32EXa @R4[0x00000040]       ; AllocatePool
        MOVqw R0, R0[0x0018]
        MOVIqw R5, 2
        PUSHn @R6                       ; Buffer
        PUSHn R3                        ; BufferSize
        PUSHn R1                        ; SearchKey
        PUSHn R2                        ; Protocol
        PUSHn R5                        ; SearchType: ByProtocol
locate_again:
        CALL32EXa @R4[0x000000B0]       ; LocateHandle
        JMP8 =locate_again
handles:
        .byte 0, 0, 0, 0, 0, 0, 0, 0
byte_count:
        .byte 0, 0, 0, 0, 0, 0, 0, 0
