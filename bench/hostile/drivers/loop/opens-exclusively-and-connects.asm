; Opens the protocol of the handle CONTROLLER with EXCLUSIVE, which disconnects its driver, closes it, and connects the
; driver again. R4 is the boot services, and R1 is 0.
; 22 instructions, and each turn 7, OpenProtocol (8 and 64), CloseProtocol (8) and ConnectController (65): 152 units,
; and those of the driver.
        MOVqw R5, @R0[0x0010]           ; the handle of the image
        MOVRELd R2, =device_protocol
        MOVRELd R3, =interface
        MOVIqd R6, CONTROLLER
        MOVIqw R7, 32
        PUSHn R1                        ; Recursive
        PUSHn R1                        ; RemainingDevicePath
        PUSHn R1                        ; DriverImageHandle
        PUSHn R6                        ; ControllerHandle
        PUSHn R1                        ; ControllerHandle
        PUSHn R5                        ; AgentHandle
        PUSHn R2                        ; Protocol
        PUSHn R6                        ; Handle
        PUSHn R7                        ; Attributes: EXCLUSIVE
        PUSHn R1                        ; ControllerHandle
        PUSHn R5                        ; AgentHandle
        PUSHn R3                        ; Interface
        PUSHn R2                        ; Protocol
        PUSHn R6                        ; Handle
        MOVqw R2, R0
        MOVqw R5, R0[0x0030]
        MOVqw R6, R0[0x0050]
open_again:
        CALL32EXa @R4[0x00000118]       ; OpenProtocol
        MOVqw R0, R5
        CALL32EXa @R4[0x00000120]       ; CloseProtocol
        MOVqw R0, R6
        CALL32EXa @R4[0x00000108]       ; ConnectController
        MOVqw R0, R2
        JMP8 =open_again
