; The place of an interface that is opened: 9 until one is stored.
interface:
        .byte 9, 0, 0, 0, 0, 0, 0, 0
