; The place of the handle of the device.
device:
        .byte 0, 0, 0, 0, 0, 0, 0, 0
