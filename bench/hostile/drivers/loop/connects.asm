; Connects the device that entry/device made. R4 is the boot services, and R1 is 0.
; 5 instructions, and each turn 2 and ConnectController (65): 67 units, and those of the drivers.
        MOVRELd R3, =device
        PUSHn R1                        ; Recursive
        PUSHn R1                        ; RemainingDevicePath
        PUSHn R1                        ; DriverImageHandle
        PUSHn @R3                       ; ControllerHandle
connect_again:
        CALL32EXa @R4[0x00000108]       ; ConnectController
        JMP8 =connect_again
