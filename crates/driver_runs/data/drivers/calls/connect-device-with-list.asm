; Connects the device, with the list of the PCI bus driver alone, and the path to which R3 points.
; 10 instructions and ConnectController: 11 units.
        PUSHn R1                        ; the end of the list
        MOVIqw R5, 2
        PUSHn R5
        MOVqw R2, R0
        MOVRELd R5, =device
        PUSHn R1                        ; not recursive
        PUSHn R3
        PUSHn R2
        PUSHn @R5
        CALL32EXa @R4[0x00000108]       ; ConnectController
