; Supported succeeds for every controller: R7 is 0.
; 2 units.
supported:
        RET
