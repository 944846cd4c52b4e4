; The place of a thunk, and its function.
thunk_place:
        .byte 0, 0, 0, 0, 0, 0, 0, 0
        RET
