; Uninstalls from the handle of the image CONTROLLER the first 31 protocols of data/64-protocols and the loaded image
; block, which is the firmware's: the last pair is refused, and so the 31 before it are back. R4 is the boot services,
; and R1 is 0.
; 14 instructions and HandleProtocol (8), for each protocol 6, and each turn 2 and UninstallMultipleProtocolInterfaces
; (16): 18 units.
        MOVRELd R2, =loaded_image_protocol
        MOVRELd R3, =loaded_image
        MOVIqd R5, CONTROLLER
        PUSHn R3                        ; Interface
        PUSHn R2                        ; Protocol
        PUSHn R5                        ; Handle
        CALL32EXa @R4[0x00000098]       ; HandleProtocol
        MOVqw R0, R0[0x0018]
        PUSHn R1                        ; the end of the list
        PUSHn @R3                       ; the interface and the protocol of pair 32
        PUSHn R2
        MOVIqw R3, 31
        MOVRELd R2, =protocols
next_pair:
        PUSHn R1                        ; the interface and the protocol of a pair
        PUSHn R2
        MOVqw R2, R2[0x0001]            ; the next protocol
        ADD64 R3, R1{-1}
        CMPI64weq R3, 0
        JMP8cc =next_pair
        PUSHn R5                        ; Handle
uninstall_again:
        CALL32EXa @R4[0x00000150]       ; UninstallMultipleProtocolInterfaces
        JMP8 =uninstall_again
loaded_image:
        .byte 0, 0, 0, 0, 0, 0, 0, 0
loaded_image_protocol:                  ; EFI_LOADED_IMAGE_PROTOCOL
        .byte 0xa1, 0x31, 0x1b, 0x5b, 0x62, 0x95, 0xd2, 0x11
        .byte 0x8e, 0x3f, 0x00, 0xa0, 0xc9, 0x69, 0x72, 0x3b
