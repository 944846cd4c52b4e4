; The vendor and the device of the functions of this driver, and those of a controller.
own_function:
        .byte 0xf4, 0x1a, 0x01, 0x10, 0, 0, 0, 0
found_function:
        .byte 0, 0, 0, 0, 0, 0, 0, 0
