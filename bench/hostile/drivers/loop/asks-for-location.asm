; Asks PCI I/O of the handle CONTROLLER where its function is. R4 is the boot services.
; 13 instructions and HandleProtocol (8), and each turn 2 and GetLocation (4): 6 units.
        MOVRELd R2, =device_protocol
        MOVRELd R3, =interface
        MOVIqd R5, CONTROLLER
        PUSHn R3                        ; Interface
        PUSHn R2                        ; Protocol
        PUSHn R5                        ; Handle
        CALL32EXa @R4[0x00000098]       ; HandleProtocol
        MOVqw R5, @R3                   ; PCI I/O
        PUSHn R3                        ; FunctionNumber
        PUSHn R3                        ; DeviceNumber
        PUSHn R3                        ; BusNumber
        PUSHn R3                        ; SegmentNumber
        PUSHn R5                        ; This
ask_again:
        CALL32EXa @R5[0x00000070]       ; GetLocation
        JMP8 =ask_again
