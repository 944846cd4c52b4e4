; Start installs the protocol of data/second-protocol on the controller.
; 13 instructions and InstallProtocolInterface: 21 units.
start:
        MOVRELd R4, =services
        MOVqw R4, @R4
        MOVqw R3, R0[0x0018]            ; where the controller is, the second argument
        MOVRELd R2, =added_protocol
        MOVIqw R5, 7
        PUSHn R5
        PUSHn R1
        PUSHn R2
        PUSHn R3
        CALL32EXa @R4[0x00000080]       ; InstallProtocolInterface
        MOVqw R0, R0[0x0020]
        RET
added_protocol:                         ; 66666666-7777-8888-9999-aaaaaaaaaaaa
        .byte 0x66, 0x66, 0x66, 0x66, 0x77, 0x77, 0x88, 0x88
        .byte 0x99, 0x99, 0xaa, 0xaa, 0xaa, 0xaa, 0xaa, 0xaa
