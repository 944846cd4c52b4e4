; Connects the handle CONTROLLER and disconnects it. R4 is the boot services, and R1 is 0.
; 5 instructions, and each turn 3, ConnectController (65) and DisconnectController (65): 133 units, and those of the
; drivers.
        MOVIqd R3, CONTROLLER
        PUSHn R1                        ; Recursive
        PUSHn R1                        ; RemainingDevicePath, or ChildHandle
        PUSHn R1                        ; DriverImageHandle
        PUSHn R3                        ; ControllerHandle
connect_again:
        CALL32EXa @R4[0x00000108]       ; ConnectController
        CALL32EXa @R4[0x00000110]       ; DisconnectController
        JMP8 =connect_again
