; The device gets another protocol, with the interface 7. R3 is where its handle is, and R1 is 0.
; 8 instructions and InstallProtocolInterface: 16 units.
        MOVRELd R2, =another_protocol
        MOVIqw R5, 7
        PUSHn R5
        PUSHn R1
        PUSHn R2
        PUSHn R3
        CALL32EXa @R4[0x00000080]       ; InstallProtocolInterface
        MOVqw R0, R0[0x0020]
