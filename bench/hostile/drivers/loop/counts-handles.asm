; Asks how many bytes all handles take, with a size of 0, which is too small. R4 is the boot services, and R1 is 0.
; 6 instructions, and each turn 3 and LocateHandle (16): 19 units.
        MOVRELd R3, =byte_count
        PUSHn R3                        ; Buffer
        PUSHn R3                        ; BufferSize
        PUSHn R1                        ; SearchKey
        PUSHn R1                        ; Protocol
        PUSHn R1                        ; SearchType: AllHandles
count_again:
        MOVqw @R3, R1
        CALL32EXa @R4[0x000000B0]       ; LocateHandle
        JMP8 =count_again
byte_count:
        .byte 0, 0, 0, 0, 0, 0, 0, 0
