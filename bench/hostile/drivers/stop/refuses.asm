; Stop does nothing and fails.
; With the jump of the binding 3 units.
stop:
        MOVIqq R7, -9223372036854775801 ; EFI_DEVICE_ERROR
        RET
