; Start opens the device.
; 28 units.
start:
        CALL64 =open
        RET
