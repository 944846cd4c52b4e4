; Stop closes the device, and uninstalls the protocol of the device.
; With the jump of the binding 13 instructions, `close` and UninstallProtocolInterface: 42 units.
stop:
        CALL64 =close
        MOVRELd R4, =services
        MOVqw R4, @R4
        MOVqw R6, @R0[0x0018]
        MOVRELd R2, =device_protocol
        MOVIqw R5, 5
        PUSHn R5
        PUSHn R2
        PUSHn R6
        CALL32EXa @R4[0x00000090]       ; UninstallProtocolInterface
        MOVqw R0, R0[0x0018]
        RET
