; The first byte of a device path that is answered.
offset:
        .byte 14, 0, 0, 0, 0, 0, 0, 0
