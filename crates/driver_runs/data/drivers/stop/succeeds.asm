; Stop does nothing and succeeds.
; 2 units.
stop:
        RET
