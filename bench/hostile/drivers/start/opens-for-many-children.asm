; Start opens the device with BY_DRIVER, and with BY_CHILD_CONTROLLER for the handles 4 to LAST_CHILD.
; With the jump of the binding 14 instructions and `open` (25), and for each child 5 and OpenProtocol (8): 13 units.
start:
        CALL64 =open                    ; R2 to R6 are then the protocol, the place for the interface, the
        MOVIqw R1, 8                    ; services, the agent and the controller
        MOVIqw R7, 4
        PUSHn R1                        ; Attributes: BY_CHILD_CONTROLLER
        PUSHn R7                        ; ControllerHandle
        PUSHn R5                        ; AgentHandle
        PUSHn R3                        ; Interface
        PUSHn R2                        ; Protocol
        PUSHn R6                        ; Handle
        MOVIqd R3, LAST_CHILD
        MOVIqw R1, 4
next_child:
        MOVqw @R0[0x0020], R1
        CALL32EXa @R4[0x00000118]       ; OpenProtocol
        MOVqw R1, R1[0x0001]
        CMP64lte R1, R3
        JMP8cs =next_child
        MOVqw R0, R0[0x0030]
        RET
