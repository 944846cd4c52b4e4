; Disconnects the handle CONTROLLER. R4 is the boot services, and R1 is 0.
; 4 instructions, and each turn 2 and DisconnectController (65): 67 units, and those of the drivers.
        MOVIqd R3, CONTROLLER
        PUSHn R1                        ; ChildHandle
        PUSHn R1                        ; DriverImageHandle
        PUSHn R3                        ; ControllerHandle
disconnect_again:
        CALL32EXa @R4[0x00000110]       ; DisconnectController
        JMP8 =disconnect_again
