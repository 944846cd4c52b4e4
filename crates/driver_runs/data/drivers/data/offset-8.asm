; The first byte of a device path that is answered.
offset:
        .byte 8, 0, 0, 0, 0, 0, 0, 0
