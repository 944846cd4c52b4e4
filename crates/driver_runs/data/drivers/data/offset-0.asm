; The first byte of a device path that is answered.
offset:
        .byte 0, 0, 0, 0, 0, 0, 0, 0
