; Supported opens PCI I/O of the controller, reads the vendor and the device out of configuration space, closes it
; again, and answers UNSUPPORTED if they are not those of `own_function`.
; With the jump of the binding, `open`, Pci.Read and `close`: 76 units if they are, 77 if not, and 30 if it can't be opened.
supported:
        CALL64 =open
        CMPI64weq R7, 0
        JMP8cc =refused
        MOVRELd R3, =interface
        MOVqw R5, @R3                   ; PCI I/O
        MOVRELd R2, =found_function
        MOVIqw R6, 1
        PUSHn R2                        ; the buffer
        PUSHn R6                        ; one number
        MOVIqw R6, 0
        PUSHn R6                        ; from the first byte on
        MOVIqw R6, 2
        PUSHn R6                        ; of 32 bits
        PUSHn R5
        CALL32EXa @R5[0x00000030]       ; Pci.Read
        MOVqw R0, R0[0x0028]
        CALL64 =close
        MOVRELd R2, =found_function
        MOVqw R5, @R2
        MOVRELd R2, =own_function
        MOVqw R6, @R2
        CMP64eq R6, R5
        JMP8cs =refused                 ; R7 is then 0
        MOVIqq R7, -9223372036854775805 ; EFI_UNSUPPORTED
refused:
        RET
