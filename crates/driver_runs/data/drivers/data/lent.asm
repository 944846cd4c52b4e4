; The function that is lent to another driver. The first 4 bytes are the distance to its jump, which is
; one more unit of each call.
lent:
        .byte 4, 0, 0, 0, 0, 0, 0, 0
        JMP64 =supported
interface:
        .byte 0, 0, 0, 0, 0, 0, 0, 0
binding_protocol:                       ; EFI_DRIVER_BINDING_PROTOCOL
        .byte 0xab, 0x31, 0xa0, 0x18, 0x43, 0xb4, 0x1a, 0x4d
        .byte 0xa5, 0xc0, 0x0c, 0x09, 0x26, 0x1e, 0x9f, 0x71
