; The handle HANDLE, below 256, in the place of a new one.
new_handle:
        .byte HANDLE, 0, 0, 0, 0, 0, 0, 0
