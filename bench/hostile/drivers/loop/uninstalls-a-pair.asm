; Uninstalls the protocol of the device from the handle CONTROLLER by a list of one pair. An open record for a child
; stays: that is refused, the handle is connected again, and the other records are back. R4 is the boot services, and R1
; is 0.
; 6 instructions, and each turn 2, UninstallMultipleProtocolInterfaces (16) and ConnectController (64): 82 units, and
; those of the drivers and of the child. At level 32 there are none.
        MOVRELd R2, =device_protocol
        MOVIqd R5, CONTROLLER
        PUSHn R1                        ; the end of the list
        PUSHn R1                        ; the interface and the protocol of the pair
        PUSHn R2
        PUSHn R5                        ; Handle
uninstall_again:
        CALL32EXa @R4[0x00000150]       ; UninstallMultipleProtocolInterfaces
        JMP8 =uninstall_again
