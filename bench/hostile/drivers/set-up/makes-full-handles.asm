; Makes HANDLES handles that have 64 protocols each. R4 is the boot services, and R1 is 0. The status is in R7.
; 7 instructions, for each of 64 pairs 8, 2 more between the lists, and for each handle 10 and
; InstallMultipleProtocolInterfaces (16) twice: 42 units.
        MOVIqd R5, HANDLES
        MOVRELd R6, =new_handle
        MOVRELd R2, =protocols
        MOVIqw R3, 64
        PUSHn R1                        ; the end of the second list
next_pair:
        PUSHn R1                        ; the interface
        PUSHn R2                        ; the protocol: the 16 bytes from here on
        MOVqw R2, R2[0x0001]
        ADD64 R3, R1{-1}
        CMPI64weq R3, 32
        JMP8cc =same_list
        PUSHn R6                        ; Handle, of the second list
        PUSHn R1                        ; the end of the first list
same_list:
        CMPI64weq R3, 0
        JMP8cc =next_pair
        PUSHn R6                        ; Handle, of the first list
next_handle:
        MOVqw @R6, R1                   ; 0, for a new handle
        CALL32EXa @R4[0x00000148]       ; InstallMultipleProtocolInterfaces
        MOVqw R0, R0[0x0210]
        CALL32EXa @R4[0x00000148]       ; InstallMultipleProtocolInterfaces
        MOVqw R0, R0[0x8210]
        CMPI64weq R7, 0
        JMP8cc =handles_end
        ADD64 R5, R1{-1}
        CMPI64weq R5, 0
        JMP8cc =next_handle
handles_end:
        MOVqw R0, R0[0x0420]
