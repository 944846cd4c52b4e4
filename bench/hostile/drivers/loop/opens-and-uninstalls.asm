; Installs a protocol on a new handle, opens it with GET_PROTOCOL for the handles from 4 on and before END as
; controllers, and uninstalls it, so that the handle is gone. R4 is the boot services, and R1 is 0.
; 21 instructions, and each turn 11, InstallProtocolInterface (8) and UninstallProtocolInterface (8), and for each
; controller 5 and OpenProtocol (8): 27 units and 13 for each controller.
        MOVRELd R2, =device_protocol
        MOVRELd R3, =interface
        MOVRELd R5, =new_handle
        MOVIqw R6, 4
        MOVIqw R7, 2
        PUSHn R7                        ; Attributes: GET_PROTOCOL
        PUSHn R6                        ; ControllerHandle
        PUSHn R6                        ; AgentHandle
        PUSHn R3                        ; Interface, where its address is stored
        PUSHn R2                        ; Protocol
        PUSHn R6                        ; Handle
        PUSHn R1                        ; Interface
        PUSHn R2                        ; Protocol
        PUSHn R6                        ; Handle
        MOVqw R3, R0
        PUSHn R1                        ; Interface
        PUSHn R1                        ; InterfaceType
        PUSHn R2                        ; Protocol
        PUSHn R5                        ; Handle, where the new handle is stored
        MOVqw R2, R0
install_again:
        MOVqw @R5, R1                   ; 0, for a new handle
        CALL32EXa @R4[0x00000080]       ; InstallProtocolInterface
        MOVqw R0, R3
        MOVqw @R0, @R5
        MOVqw R0, R0[0x0018]
        MOVqw @R0, @R5
        MOVIqw R6, 4
open_next:
        MOVqw @R0[0x0020], R6
        CALL32EXa @R4[0x00000118]       ; OpenProtocol
        MOVqw R6, R6[0x0001]
        CMPI64weq R6, END
        JMP8cc =open_next
        MOVqw R0, R3
        CALL32EXa @R4[0x00000090]       ; UninstallProtocolInterface
        MOVqw R0, R2
        JMP8 =install_again
