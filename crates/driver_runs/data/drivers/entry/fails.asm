; The entry fails.
; 2 units.
        MOVIqq R7, -9223372036854775801 ; EFI_DEVICE_ERROR
        RET
