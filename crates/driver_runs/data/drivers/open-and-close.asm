; Opens the protocol of the device on the controller, with BY_DRIVER, for the handle of the driver.
; A function of the binding calls this before it has changed R0, so its second argument is 0x28
; above R0. The status is in R7.
; 17 instructions and OpenProtocol: 25 units.
open:
        MOVRELd R4, =services
        MOVqw R4, @R4
        MOVRELd R5, =binding
        MOVqw R5, @R5[0x0028]
        MOVRELd R2, =device_protocol
        MOVRELd R3, =interface
        MOVqw R6, @R0[0x0028]
        MOVIqw R1, 16                   ; BY_DRIVER
        PUSHn R1
        PUSHn R6                        ; the controller
        PUSHn R5                        ; the agent
        PUSHn R3
        PUSHn R2
        PUSHn R6
        CALL32EXa @R4[0x00000118]       ; OpenProtocol
        MOVqw R0, R0[0x0030]
        RET
; Closes it again.
; 13 instructions and CloseProtocol: 21 units.
close:
        MOVRELd R4, =services
        MOVqw R4, @R4
        MOVRELd R5, =binding
        MOVqw R5, @R5[0x0028]
        MOVRELd R2, =device_protocol
        MOVqw R6, @R0[0x0028]
        PUSHn R6                        ; the controller
        PUSHn R5                        ; the agent
        PUSHn R2
        PUSHn R6
        CALL32EXa @R4[0x00000120]       ; CloseProtocol
        MOVqw R0, R0[0x0020]
        RET
