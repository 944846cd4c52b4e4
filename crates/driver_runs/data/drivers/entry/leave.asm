; The entry ends with the status of the last service. R6 points to the return address.
; 2 units.
        MOVqw R0, R6
        RET
