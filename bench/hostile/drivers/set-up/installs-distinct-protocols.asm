; Installs INTERFACES protocols, each with a GUID of its own, and 60 on a handle. The first 8 bytes of the GUID are a
; number that falls. R4 is the boot services, and R1 is 0. The status of the last installation is in R7.
; 9 instructions, for each protocol 8 and InstallProtocolInterface (8), and 2 more for each handle: 16 units.
        MOVIqd R5, INTERFACES
        MOVRELd R2, =falling_protocol
        MOVRELd R3, =new_handle
        MOVIqw R6, 60
        PUSHn R1                        ; Interface
        PUSHn R1                        ; InterfaceType
        PUSHn R2                        ; Protocol
        PUSHn R3                        ; Handle
next_protocol:
        MOVqw @R2, R5
        CALL32EXa @R4[0x00000080]       ; InstallProtocolInterface
        ADD64 R6, R1{-1}
        CMPI64weq R6, 0
        JMP8cc =same_handle
        MOVIqw R6, 60
        MOVqw @R3, R1                   ; 0, for a new handle
same_handle:
        ADD64 R5, R1{-1}
        CMPI64weq R5, 0
        JMP8cc =next_protocol
        MOVqw R0, R0[0x0020]
