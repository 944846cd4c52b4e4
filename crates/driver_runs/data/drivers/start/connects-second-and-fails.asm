; Start opens its controller, except for the device. For that it connects the second device and fails.
; For the device 17 instructions and ConnectController: 18 units. For another controller 8
; instructions and `open`: 33 units.
start:
        MOVqw R6, @R0[0x0018]
        MOVRELd R5, =device
        MOVqw R5, @R5
        CMP64eq R6, R5
        JMP8cs =device_itself
        CALL64 =open
        RET
device_itself:
        MOVRELd R4, =services
        MOVqw R4, @R4
        MOVRELd R5, =second_device
        PUSHn R1
        PUSHn R1
        PUSHn R1
        PUSHn @R5
        CALL32EXa @R4[0x00000108]       ; ConnectController
        MOVqw R0, R0[0x0020]
        MOVIqq R7, -9223372036854775801 ; DEVICE_ERROR
        RET
