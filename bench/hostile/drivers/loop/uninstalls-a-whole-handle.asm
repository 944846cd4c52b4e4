; Uninstalls from the handle CONTROLLER all that it has, the first 31 protocols of data/64-protocols, and the first of these
; once more: that pair is refused, since the handle is gone then, and so the handle is back. R4 is the boot services, and
; R1 is 0.
; 7 instructions, for each protocol 6, and each turn 2 and UninstallMultipleProtocolInterfaces (16): 18 units.
        MOVIqd R5, CONTROLLER
        MOVRELd R2, =protocols
        MOVIqw R3, 31
        PUSHn R1                        ; the end of the list
        PUSHn R1                        ; the interface and the protocol of pair 32
        PUSHn R2
next_pair:
        PUSHn R1                        ; the interface and the protocol of a pair
        PUSHn R2
        MOVqw R2, R2[0x0001]            ; the next protocol
        ADD64 R3, R1{-1}
        CMPI64weq R3, 0
        JMP8cc =next_pair
        PUSHn R5                        ; Handle
uninstall_again:
        CALL32EXa @R4[0x00000150]       ; UninstallMultipleProtocolInterfaces
        JMP8 =uninstall_again
