; A protocol whose first 8 bytes change.
falling_protocol:
        .byte 0, 0, 0, 0, 0, 0, 0, 0
        .byte 0, 0, 0, 0, 0, 0, 0, 0
