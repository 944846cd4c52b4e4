; The place of a new handle.
new_handle:
        .byte 0, 0, 0, 0, 0, 0, 0, 0
