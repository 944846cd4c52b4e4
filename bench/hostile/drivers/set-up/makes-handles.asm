; Makes HANDLES handles that have the protocol of the device. R4 is the boot services, and R1 is 0. The status is in
; R7.
; 8 instructions, and for each handle 7 and InstallProtocolInterface (8): 15 units.
        MOVRELd R2, =device_protocol
        MOVRELd R3, =new_handle
        MOVIqd R5, HANDLES
        PUSHn R1                        ; Interface
        PUSHn R1                        ; InterfaceType
        PUSHn R2                        ; Protocol
        PUSHn R3                        ; Handle
next_handle:
        MOVqw @R3, R1                   ; 0, for a new handle
        CALL32EXa @R4[0x00000080]       ; InstallProtocolInterface
        CMPI64weq R7, 0
        JMP8cc =handles_end
        ADD64 R5, R1{-1}
        CMPI64weq R5, 0
        JMP8cc =next_handle
handles_end:
        MOVqw R0, R0[0x0020]
