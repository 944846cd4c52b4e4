; Start opens PCI I/O, and answers the bus, the device and the function of its device, a byte each.
; With the jump of the binding, `open` and GetLocation: 52 units.
start:
        CALL64 =open
        MOVRELd R3, =interface
        MOVqw R5, @R3                   ; PCI I/O
        MOVRELd R2, =location
        MOVqw R6, R2[0x0018]
        PUSHn R6                        ; where the function is stored
        MOVqw R6, R2[0x0010]
        PUSHn R6                        ; the device
        MOVqw R6, R2[0x0008]
        PUSHn R6                        ; the bus
        PUSHn R2                        ; the segment
        PUSHn R5
        CALL32EXa @R5[0x00000070]       ; GetLocation
        MOVqw R0, R0[0x0028]
        MOVRELd R2, =location
        MOVqw R7, @R2[0x0008]
        MOVIqw R6, 8
        SHL64 R7, R6
        OR64 R7, @R2[0x0010]
        SHL64 R7, R6
        OR64 R7, @R2[0x0018]
        RET
