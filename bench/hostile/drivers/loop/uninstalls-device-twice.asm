; Uninstalls the protocol of a device, the only one of the handle CONTROLLER, by two pairs that are the same. The driver
; that manages the handle is disconnected first. The second pair is refused, since the handle is gone then, and so the
; handle is back, with its driver. R4 is the boot services, and R1 is 0.
; 9 instructions, and each turn 2, UninstallMultipleProtocolInterfaces (16) and DisconnectController (64): 82 units, and
; those of Stop (64) and of its driver.
        MOVRELd R2, =device_protocol
        MOVIqd R5, CONTROLLER
        MOVIqw R6, 5
        PUSHn R1                        ; the end of the list
        PUSHn R6                        ; the interface and the protocol of the second pair
        PUSHn R2
        PUSHn R6                        ; and of the first
        PUSHn R2
        PUSHn R5                        ; Handle
uninstall_again:
        CALL32EXa @R4[0x00000150]       ; UninstallMultipleProtocolInterfaces
        JMP8 =uninstall_again
