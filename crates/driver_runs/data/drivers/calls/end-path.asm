; The remaining device path is an End node, on the stack.
; 3 units.
        MOVIqd R5, 327551               ; 7F FF 04 00
        PUSHn R5
        MOVqw R3, R0
