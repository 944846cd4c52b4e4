; Makes two handles that have another protocol than the device.
; 11 instructions and InstallProtocolInterface twice: 27 units.
        MOVRELd R2, =child_protocol
        MOVRELd R3, =second_device
        PUSHn R1
        PUSHn R1
        PUSHn R2
        PUSHn R3
        CALL32EXa @R4[0x00000080]       ; InstallProtocolInterface
        MOVRELd R3, =third_device
        MOVqw @R0, R3
        CALL32EXa @R4[0x00000080]       ; InstallProtocolInterface
        MOVqw R0, R0[0x0020]
