; Start opens the device with BY_CHILD_CONTROLLER: for the second device if its controller is the
; device, and for the third one otherwise.
; For the device 23 instructions and OpenProtocol: 31 units. For another controller 32 units.
start:
        MOVRELd R4, =services
        MOVqw R4, @R4
        MOVqw R6, @R0[0x0018]
        MOVRELd R5, =device
        MOVqw R5, @R5
        MOVRELd R3, =second_device
        CMP64eq R6, R5
        JMP8cs =opens_child
        MOVRELd R3, =third_device
opens_child:
        MOVRELd R2, =device_protocol
        MOVRELd R1, =binding
        MOVqw R1, @R1[0x0028]
        MOVIqw R6, 8
        PUSHn R6                        ; BY_CHILD_CONTROLLER
        PUSHn @R3                       ; the child
        PUSHn R1                        ; the agent
        MOVRELd R3, =interface
        PUSHn R3
        PUSHn R2
        PUSHn R5                        ; the device
        CALL32EXa @R4[0x00000118]       ; OpenProtocol
        MOVqw R0, R0[0x0030]
        RET
