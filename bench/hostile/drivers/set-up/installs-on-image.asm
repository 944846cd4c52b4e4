; Installs the protocol of the device on the handle of the image, with the interface 0. R4 is the boot services, and R1
; is 0.
; 8 instructions and InstallProtocolInterface (8): 16 units.
        MOVRELd R2, =device_protocol
        MOVqw R3, R0[0x0010]            ; where the handle is
        PUSHn R1                        ; Interface
        PUSHn R1                        ; InterfaceType
        PUSHn R2                        ; Protocol
        PUSHn R3                        ; Handle
        CALL32EXa @R4[0x00000080]       ; InstallProtocolInterface
        MOVqw R0, R0[0x0020]
