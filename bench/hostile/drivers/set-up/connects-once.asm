; Connects the device that entry/device made, once, and succeeds whatever that answers. R4 is the boot services, and R1
; is 0.
; 8 instructions and ConnectController (65): 73 units, and those of the drivers.
        MOVRELd R3, =device
        PUSHn R1                        ; Recursive
        PUSHn R1                        ; RemainingDevicePath
        PUSHn R1                        ; DriverImageHandle
        PUSHn @R3                       ; ControllerHandle
        CALL32EXa @R4[0x00000108]       ; ConnectController
        MOVqw R0, R0[0x0020]
        MOVqw R7, R1
