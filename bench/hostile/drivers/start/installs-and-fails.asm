; Start installs a protocol on a new handle and fails.
; With the jump of the binding 13 instructions and InstallProtocolInterface (8): 21 units.
start:
        MOVRELd R4, =services
        MOVqw R4, @R4
        MOVRELd R2, =device_protocol
        MOVRELd R3, =second_device      ; 0, for a new handle
        PUSHn R1                        ; Interface
        PUSHn R1                        ; InterfaceType
        PUSHn R2                        ; Protocol
        PUSHn R3                        ; Handle
        CALL32EXa @R4[0x00000080]       ; InstallProtocolInterface
        MOVqw R0, R0[0x0020]
        MOVIqq R7, -9223372036854775801 ; EFI_DEVICE_ERROR
        RET
