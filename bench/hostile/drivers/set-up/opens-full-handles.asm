; Opens each of the 64 protocols of the handles from FIRST on and before END with TEST_PROTOCOL, for the handle AGENT as
; agent and as controller. R4 is the boot services, and R1 is 0. The status of the last open is in R7.
; 10 instructions, for each protocol 6 and OpenProtocol (8), and 6 more for each handle: 14 units.
        MOVIqw R3, FIRST
        MOVIqw R6, AGENT
        MOVIqw R5, 4
        PUSHn R5                        ; Attributes: TEST_PROTOCOL
        PUSHn R6                        ; ControllerHandle
        PUSHn R6                        ; AgentHandle
        PUSHn R6                        ; Interface, which is not looked at
        PUSHn R6                        ; Protocol
        PUSHn R3                        ; Handle
open_handle:
        MOVRELd R2, =protocols
        MOVIqw R5, 64
open_next:
        MOVqw @R0[0x0008], R2
        CALL32EXa @R4[0x00000118]       ; OpenProtocol
        MOVqw R2, R2[0x0001]            ; the next protocol
        ADD64 R5, R1{-1}
        CMPI64weq R5, 0
        JMP8cc =open_next
        MOVqw R3, R3[0x0001]
        MOVqw @R0, R3
        CMPI64weq R3, END
        JMP8cc =open_handle
        MOVqw R0, R0[0x0030]
