; The entry succeeds. Its value is the status of the last service, 8 bits to the left, which has no
; bit 63 then, and the byte at `interface`.
; 5 units.
        MOVRELd R3, =interface
        MOVIqw R6, 8
        SHL64 R7, R6
        OR64 R7, @R3
        RET
