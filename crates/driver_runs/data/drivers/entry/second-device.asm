; Makes another handle that has the protocol of the device.
; 8 instructions and InstallProtocolInterface: 16 units.
        MOVRELd R2, =device_protocol
        MOVRELd R3, =second_device
        PUSHn R1
        PUSHn R1
        PUSHn R2
        PUSHn R3
        CALL32EXa @R4[0x00000080]       ; InstallProtocolInterface
        MOVqw R0, R0[0x0020]
