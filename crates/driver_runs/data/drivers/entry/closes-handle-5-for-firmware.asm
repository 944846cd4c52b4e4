; Closes the protocol of handle 5, for the firmware as the agent and as the controller.
; 9 instructions and CloseProtocol: 17 units.
        MOVRELd R2, =device_protocol
        MOVIqw R5, 1
        MOVIqw R6, 5
        PUSHn R5                        ; the controller
        PUSHn R5                        ; the agent
        PUSHn R2
        PUSHn R6
        CALL32EXa @R4[0x00000120]       ; CloseProtocol
        MOVqw R0, R0[0x0020]
