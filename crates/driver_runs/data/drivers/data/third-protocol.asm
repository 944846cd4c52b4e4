; The protocol of the devices of these drivers, which is neither that of data/device-protocol nor
; that of data/second-protocol.
device_protocol:                        ; bbbbbbbb-7777-8888-9999-bbbbbbbbbbbb
        .byte 0xbb, 0xbb, 0xbb, 0xbb, 0x77, 0x77, 0x88, 0x88
        .byte 0x99, 0x99, 0xbb, 0xbb, 0xbb, 0xbb, 0xbb, 0xbb
