; Makes a block of 8 bytes, which handle 4 gets as a bus specific driver override. R4 is the boot
; services, and R1 is 0.
; 16 instructions, AllocatePool (2) and InstallProtocolInterface: 26 units.
        MOVRELd R3, =block
        MOVIqw R6, 8
        PUSHn R3                        ; where the address of the block is stored
        PUSHn R6
        PUSHn R1
        CALL32EXa @R4[0x00000040]       ; AllocatePool
        MOVqw R0, R0[0x0018]
        MOVqw R5, @R3
        MOVRELd R2, =override_protocol
        MOVRELd R3, =handle_4
        PUSHn R5
        PUSHn R1
        PUSHn R2
        PUSHn R3
        CALL32EXa @R4[0x00000080]       ; InstallProtocolInterface
        MOVqw R0, R0[0x0020]
