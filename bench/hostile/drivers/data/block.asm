; The place of the address of a block.
block:
        .byte 0, 0, 0, 0, 0, 0, 0, 0
