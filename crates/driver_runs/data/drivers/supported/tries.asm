; Supported answers what opening the device answers, and closes it again.
; With the jump of the binding 52 units if it was opened, and 30 if not.
supported:
        CALL64 =open
        CMPI64weq R7, 0
        JMP8cc =refused
        CALL64 =close
refused:
        RET
