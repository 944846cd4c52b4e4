; Start opens PCI I/O, reads the first byte of BAR 0, and answers it, which is a success.
; 48 units.
start:
        CALL64 =open
        MOVRELd R3, =interface
        MOVqw R5, @R3                   ; PCI I/O
        MOVRELd R2, =value
        PUSHn R2                        ; the buffer
        MOVIqw R1, 1
        PUSHn R1                        ; one number
        MOVIqw R1, 0
        PUSHn R1                        ; from the first byte on
        PUSHn R1                        ; of BAR 0
        PUSHn R1                        ; of 8 bits
        PUSHn R5
        CALL32EXa @R5[0x00000010]       ; Mem.Read
        MOVqw R0, R0[0x0030]
        MOVRELd R2, =value
        MOVqw R7, @R2
        RET
