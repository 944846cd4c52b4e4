; What is written to a device.
value:
        .byte 5, 0, 0, 0, 0, 0, 0, 0
; The protocol of the child, which other drivers have as that of their devices (data/device-protocol).
child_protocol:                         ; 11111111-2222-3333-4444-555555555555
        .byte 0x11, 0x11, 0x11, 0x11, 0x22, 0x22, 0x33, 0x33
        .byte 0x44, 0x44, 0x55, 0x55, 0x55, 0x55, 0x55, 0x55
