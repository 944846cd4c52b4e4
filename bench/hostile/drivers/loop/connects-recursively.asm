; Connects the handle CONTROLLER and its children. R4 is the boot services, and R1 is 0.
; 6 instructions, and each turn 2 and ConnectController (65): 67 units, and those of the drivers.
        MOVIqd R3, CONTROLLER
        MOVIqw R5, 1
        PUSHn R5                        ; Recursive: TRUE
        PUSHn R1                        ; RemainingDevicePath
        PUSHn R1                        ; DriverImageHandle
        PUSHn R3                        ; ControllerHandle
connect_again:
        CALL32EXa @R4[0x00000108]       ; ConnectController
        JMP8 =connect_again
