; Start does nothing and succeeds.
; 2 units.
start:
        RET
