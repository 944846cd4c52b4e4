; Uninstalls the protocol of the device from the handle of the image CONTROLLER, and its loaded image block, which is
; the firmware's: that is refused, and so the protocol is back with its open records. R4 is the boot services, and R1
; is 0.
; 15 instructions and HandleProtocol (8), and each turn 2 and UninstallMultipleProtocolInterfaces (16): 18 units.
        MOVRELd R2, =loaded_image_protocol
        MOVRELd R3, =loaded_image
        MOVIqd R5, CONTROLLER
        PUSHn R3                        ; Interface
        PUSHn R2                        ; Protocol
        PUSHn R5                        ; Handle
        CALL32EXa @R4[0x00000098]       ; HandleProtocol
        MOVqw R0, R0[0x0018]
        PUSHn R1                        ; the end of the list
        PUSHn @R3                       ; the interface and the protocol of the second pair
        PUSHn R2
        MOVRELd R2, =device_protocol
        PUSHn R1                        ; and of the first
        PUSHn R2
        PUSHn R5                        ; Handle
uninstall_again:
        CALL32EXa @R4[0x00000150]       ; UninstallMultipleProtocolInterfaces
        JMP8 =uninstall_again
loaded_image:
        .byte 0, 0, 0, 0, 0, 0, 0, 0
loaded_image_protocol:                  ; EFI_LOADED_IMAGE_PROTOCOL
        .byte 0xa1, 0x31, 0x1b, 0x5b, 0x62, 0x95, 0xd2, 0x11
        .byte 0x8e, 0x3f, 0x00, 0xa0, 0xc9, 0x69, 0x72, 0x3b
