; Start closes the record that the image with handle 5 has on the device for the child 2, uninstalls the
; protocol of the device, the only one of the controller, and then fails.
; With the jump of the binding 19 instructions, CloseProtocol and UninstallProtocolInterface: 35 units.
start:
        MOVRELd R4, =services
        MOVqw R4, @R4
        MOVqw R6, @R0[0x0018]
        MOVRELd R2, =device_protocol
        MOVIqw R5, 2
        PUSHn R5                        ; the child
        MOVIqw R5, 5
        PUSHn R5                        ; the agent
        PUSHn R2
        PUSHn R6
        CALL32EXa @R4[0x00000120]       ; CloseProtocol
        PUSHn R5                        ; the interface, which is 5 too
        PUSHn R2
        PUSHn R6
        CALL32EXa @R4[0x00000090]       ; UninstallProtocolInterface
        MOVqw R0, R0[0x0038]
        MOVIqq R7, -9223372036854775801 ; DEVICE_ERROR
        RET
