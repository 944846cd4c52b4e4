; Supported adds 1 to a byte of its image and refuses its controller. The status has the number of the byte before that
; added to it: a write of an earlier call that was not undone gives another error.
; With the jump of the binding 8 units.
supported:
        MOVRELd R5, =interface
        MOVbw R6, @R5
        MOVIqq R7, -9223372036854775805 ; EFI_UNSUPPORTED
        ADD64 R7, R6
        ADD64 R6, R1{1}
        MOVbw @R5, R6
        RET
