; How many handles are made: 256.
count:
        .byte 0, 1, 0, 0, 0, 0, 0, 0
