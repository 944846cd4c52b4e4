; Uninstalls three protocols of the device, handle 4.
; 15 instructions and UninstallMultipleProtocolInterfaces: 31 units.
        MOVRELd R2, =device_protocol
        MOVRELd R3, =second_protocol
        MOVRELd R6, =third_protocol
        MOVIqw R5, 5                    ; the interface of each
        MOVIqw R7, 4
        PUSHn R1                        ; the end of the list
        PUSHn R5
        PUSHn R6
        PUSHn R5
        PUSHn R3
        PUSHn R5
        PUSHn R2
        PUSHn R7
        CALL32EXa @R4[0x00000150]       ; UninstallMultipleProtocolInterfaces
        MOVqw R0, R0[0x0040]
