; Stop closes the device, and uninstalls the protocol of the second device, the only one that it has.
; With the jump of the binding 10 instructions, `close` and UninstallProtocolInterface: 39 units.
stop:
        CALL64 =close                   ; R2 and R4 are then the protocol and the services
        MOVRELd R6, =second_device
        MOVqw R6, @R6
        PUSHn R1                        ; its interface, 0
        PUSHn R2
        PUSHn R6
        CALL32EXa @R4[0x00000090]       ; UninstallProtocolInterface
        MOVqw R0, R0[0x0018]
        RET
