; The handler uninstalls the driver binding from the second handle that has it, and answers the status.
; With its jump 12 instructions, and UninstallProtocolInterface: 20 units.
unload:
        MOVRELd R4, =services
        MOVqw R4, @R4
        MOVRELd R5, =binding
        MOVRELd R2, =binding_protocol
        MOVRELd R3, =second_device
        PUSHn R5
        PUSHn R2
        PUSHn @R3
        CALL32EXa @R4[0x00000090]       ; UninstallProtocolInterface
        MOVqw R0, R0[0x0018]
        RET
