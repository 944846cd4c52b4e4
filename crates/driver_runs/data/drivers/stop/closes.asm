; Stop closes the device.
; 24 units.
stop:
        CALL64 =close
        RET
