; Start opens PCI I/O, makes a handle with the child's protocol, opens PCI I/O for it with BY_CHILD_CONTROLLER, connects
; it, writes the value to the first byte of BAR 0, and answers DEVICE_ERROR.
; 93 units, and those of the connect.
start:
        CALL64 =open                    ; R3 to R6 are then the place for the interface, the
        MOVIqw R1, 0                    ; services, the agent and the controller
        MOVRELd R2, =child_protocol
        MOVRELd R3, =second_device      ; 0, for a new handle, whose number is stored here
        PUSHn R6                        ; an interface
        PUSHn R1                        ; EFI_NATIVE_INTERFACE
        PUSHn R2
        PUSHn R3
        CALL32EXa @R4[0x00000080]       ; InstallProtocolInterface
        MOVqw R0, R0[0x0020]
        MOVIqw R1, 8                    ; BY_CHILD_CONTROLLER
        MOVRELd R2, =second_device
        MOVRELd R3, =interface
        PUSHn R1
        PUSHn @R2                       ; the child
        PUSHn R5
        PUSHn R3
        MOVRELd R2, =device_protocol
        PUSHn R2
        PUSHn R6
        CALL32EXa @R4[0x00000118]       ; OpenProtocol
        MOVqw R0, R0[0x0030]
        MOVIqw R1, 0
        PUSHn R1                        ; not recursive
        PUSHn R1                        ; no remaining device path
        PUSHn R1                        ; no driver image handles
        MOVRELd R2, =second_device
        PUSHn @R2
        CALL32EXa @R4[0x00000108]       ; ConnectController
        MOVqw R0, R0[0x0020]
        MOVRELd R3, =interface
        MOVqw R5, @R3                   ; PCI I/O
        MOVRELd R2, =value
        PUSHn R2                        ; the buffer
        MOVIqw R1, 1
        PUSHn R1                        ; one number
        MOVIqw R1, 0
        PUSHn R1                        ; from the first byte on
        PUSHn R1                        ; of BAR 0
        PUSHn R1                        ; of 8 bits
        PUSHn R5
        CALL32EXa @R5[0x00000018]       ; Mem.Write
        MOVqw R0, R0[0x0030]
        MOVIqq R7, -9223372036854775801 ; EFI_DEVICE_ERROR
        RET
