; The handler does nothing and succeeds: R7 is 0.
; 2 units.
unload:
        RET
