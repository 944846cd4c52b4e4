; The handler of the image, of which entry/names-handler makes a thunk. The first 4 bytes are the
; distance to its jump, which is one more unit of each call.
handler:
        .byte 4, 0, 0, 0, 0, 0, 0, 0
        JMP64 =unload
loaded_image:
        .byte 0, 0, 0, 0, 0, 0, 0, 0
loaded_image_protocol:                  ; EFI_LOADED_IMAGE_PROTOCOL
        .byte 0xa1, 0x31, 0x1b, 0x5b, 0x62, 0x95, 0xd2, 0x11
        .byte 0x8e, 0x3f, 0x00, 0xa0, 0xc9, 0x69, 0x72, 0x3b
