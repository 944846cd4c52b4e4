; The bus specific driver override of a device.
block:
        .byte 0, 0, 0, 0, 0, 0, 0, 0
handle_4:
        .byte 4, 0, 0, 0, 0, 0, 0, 0
override_protocol:                      ; EFI_BUS_SPECIFIC_DRIVER_OVERRIDE_PROTOCOL
        .byte 0x85, 0xb2, 0xc1, 0x3b, 0x15, 0x8a, 0x82, 0x4a
        .byte 0xaa, 0xbf, 0x4d, 0x7d, 0x13, 0xfb, 0x32, 0x65
