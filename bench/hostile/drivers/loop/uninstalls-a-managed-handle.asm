; Uninstalls from the handle CONTROLLER the protocol of a device, the first 30 protocols of data/64-protocols, and the
; protocol of the device once more. The driver that manages the handle by it is disconnected first. The last pair is
; refused, and so the 31 before it are back, with the driver. R4 is the boot services, and R1 is 0.
; 12 instructions, for each protocol 6, and each turn 2, UninstallMultipleProtocolInterfaces (16) and
; DisconnectController (64): 82 units, and those of Stop (64) and of its driver.
        MOVIqd R5, CONTROLLER
        MOVRELd R7, =device_protocol
        MOVIqw R6, 5
        MOVRELd R2, =protocols
        MOVIqw R3, 30
        PUSHn R1                        ; the end of the list
        PUSHn R6                        ; the interface and the protocol of pair 32
        PUSHn R7
next_pair:
        PUSHn R1                        ; the interface and the protocol of a pair
        PUSHn R2
        MOVqw R2, R2[0x0001]            ; the next protocol
        ADD64 R3, R1{-1}
        CMPI64weq R3, 0
        JMP8cc =next_pair
        PUSHn R6                        ; the interface and the protocol of the first pair
        PUSHn R7
        PUSHn R5                        ; Handle
uninstall_again:
        CALL32EXa @R4[0x00000150]       ; UninstallMultipleProtocolInterfaces
        JMP8 =uninstall_again
