; Makes BINDINGS handles that have the driver binding of data/binding. R4 is the boot services, and R1 is 0. The status
; is in R7.
; 9 instructions, and for each handle 7 and InstallProtocolInterface (8): 15 units.
        MOVRELd R2, =binding_protocol
        MOVRELd R3, =new_handle
        MOVRELd R6, =binding
        MOVIqd R5, BINDINGS
        PUSHn R6                        ; Interface
        PUSHn R1                        ; InterfaceType
        PUSHn R2                        ; Protocol
        PUSHn R3                        ; Handle
next_binding:
        MOVqw @R3, R1                   ; 0, for a new handle
        CALL32EXa @R4[0x00000080]       ; InstallProtocolInterface
        CMPI64weq R7, 0
        JMP8cc =bindings_end
        ADD64 R5, R1{-1}
        CMPI64weq R5, 0
        JMP8cc =next_binding
bindings_end:
        MOVqw R0, R0[0x0020]
