; Opens the protocol of each of the handles 5 to 260 with GET_PROTOCOL, for each of the handles 1 to 256 as
; the agent, and for the firmware as the controller. R4 is the boot services, and R1 is 0.
; 12 instructions, 5 for each handle, and 5 and OpenProtocol for each of the 65,536 opens: 853,260 units.
        MOVRELd R2, =device_protocol
        MOVRELd R3, =interface
        MOVIqw R5, 1
        MOVIqw R7, 2                    ; GET_PROTOCOL
        PUSHn R7
        PUSHn R5                        ; the controller
        PUSHn R1                        ; the place of the agent
        PUSHn R3
        PUSHn R2
        PUSHn R1                        ; the place of the handle
        MOVIqw R2, 5
next_device:
        MOVqw @R0, R2
        MOVIqw R3, 256
next_agent:
        MOVqw @R0[0x0018], R3
        CALL32EXa @R4[0x00000118]       ; OpenProtocol
        SUB64 R3, R5
        CMPI64weq R3, 0
        JMP8cc =next_agent
        ADD64 R2, R5
        CMPI64weq R2, 261
        JMP8cc =next_device
        MOVqw R0, R0[0x0030]
