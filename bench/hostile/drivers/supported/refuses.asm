; Supported refuses each controller.
; With the jump of the binding 3 units.
supported:
        MOVIqq R7, -9223372036854775805 ; EFI_UNSUPPORTED
        RET
