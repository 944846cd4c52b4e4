; Start opens the device and then fails.
; 29 units.
start:
        CALL64 =open
        MOVIqq R7, -9223372036854775801 ; DEVICE_ERROR
        RET
