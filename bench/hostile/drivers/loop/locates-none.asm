; Asks for an interface of the protocol of the device, which no handle has. R4 is the boot services, and R1 is 0.
; 5 instructions, and each turn 2 and LocateProtocol (16): 18 units.
        MOVRELd R2, =device_protocol
        MOVRELd R3, =interface
        PUSHn R3                        ; Interface
        PUSHn R1                        ; Registration
        PUSHn R2                        ; Protocol
locate_again:
        CALL32EXa @R4[0x00000140]       ; LocateProtocol
        JMP8 =locate_again
