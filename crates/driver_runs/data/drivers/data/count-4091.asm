; How many handles are made: 4,091.
count:
        .byte 0xfb, 0x0f, 0, 0, 0, 0, 0, 0
