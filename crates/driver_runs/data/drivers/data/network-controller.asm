; The vendor and the device of the functions of this driver, and those of a controller.
own_function:
        .byte 0x86, 0x80, 0x0e, 0x10, 0, 0, 0, 0
found_function:
        .byte 0, 0, 0, 0, 0, 0, 0, 0
