; Stop closes the device and then fails.
; 25 units.
stop:
        CALL64 =close
        MOVIqq R7, -9223372036854775801 ; DEVICE_ERROR
        RET
