; Installs the first 31 protocols of data/64-protocols on a new handle, with the interface 0. R4 is the boot services, and
; R1 is 0.
; 7 instructions, for each protocol 6, and InstallMultipleProtocolInterfaces (16).
        MOVRELd R6, =new_handle
        MOVRELd R2, =protocols
        MOVIqw R3, 31
        PUSHn R1                        ; the end of the list
next_installed:
        PUSHn R1                        ; the interface and the protocol of a pair
        PUSHn R2
        MOVqw R2, R2[0x0001]            ; the next protocol
        ADD64 R3, R1{-1}
        CMPI64weq R3, 0
        JMP8cc =next_installed
        PUSHn R6                        ; Handle
        CALL32EXa @R4[0x00000148]       ; InstallMultipleProtocolInterfaces
        MOVqw R0, R0[0x0200]
