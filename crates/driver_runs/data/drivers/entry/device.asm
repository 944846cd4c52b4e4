; Makes a handle that has the protocol `device_protocol` with the interface 5.
; 9 instructions and InstallProtocolInterface: 17 units.
        MOVRELd R2, =device_protocol
        MOVRELd R3, =device             ; 0, for a new handle, whose number is stored here
        MOVIqw R5, 5
        PUSHn R5
        PUSHn R1
        PUSHn R2
        PUSHn R3
        CALL32EXa @R4[0x00000080]       ; InstallProtocolInterface
        MOVqw R0, R0[0x0020]
