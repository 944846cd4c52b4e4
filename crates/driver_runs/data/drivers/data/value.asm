; What is read from a device.
value:
        .byte 0, 0, 0, 0, 0, 0, 0, 0
