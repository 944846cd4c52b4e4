; The entry ends with the status of the last service.
; 1 unit.
        RET
