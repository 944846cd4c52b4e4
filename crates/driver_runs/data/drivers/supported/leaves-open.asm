; Supported opens the device and does not close it.
; 28 units.
supported:
        CALL64 =open
        RET
