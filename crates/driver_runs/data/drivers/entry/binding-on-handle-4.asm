; Handle 4 gets the driver binding too. R4 is the boot services, and R1 is 0.
; 10 instructions and InstallProtocolInterface: 18 units.
        MOVRELd R5, =binding
        MOVRELd R2, =binding_protocol
        MOVRELd R3, =second_device
        MOVIqw @R3, 4
        PUSHn R5
        PUSHn R1
        PUSHn R2
        PUSHn R3
        CALL32EXa @R4[0x00000080]       ; InstallProtocolInterface
        MOVqw R0, R0[0x0020]
