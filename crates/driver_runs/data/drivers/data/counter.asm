; A counter.
counter:
        .byte 0, 0, 0, 0, 0, 0, 0, 0
