; Uninstalls the only protocol of the handle CONTROLLER by two pairs that are the same: the second is refused, since the
; handle is gone then, and so the handle is back. R4 is the boot services, and R1 is 0.
; 8 instructions, and each turn 2 and UninstallMultipleProtocolInterfaces (16): 18 units.
        MOVRELd R2, =device_protocol
        MOVIqd R5, CONTROLLER
        PUSHn R1                        ; the end of the list
        PUSHn R1                        ; the interface and the protocol of the second pair
        PUSHn R2
        PUSHn R1                        ; and of the first
        PUSHn R2
        PUSHn R5                        ; Handle
uninstall_again:
        CALL32EXa @R4[0x00000150]       ; UninstallMultipleProtocolInterfaces
        JMP8 =uninstall_again
