; Installs a protocol on a new handle and uninstalls it, so that the handle is gone. R4 is the boot services, and R1
; is 0.
; 10 instructions, and each turn 6, InstallProtocolInterface (8) and UninstallProtocolInterface (8): 22 units.
        MOVRELd R2, =device_protocol
        PUSHn R1                        ; Interface
        PUSHn R2                        ; Protocol
        PUSHn R1                        ; Handle, where the new handle is stored
        MOVqw R6, R0
        PUSHn R1                        ; Interface
        PUSHn R1                        ; InterfaceType
        PUSHn R2                        ; Protocol
        PUSHn R6                        ; Handle
        MOVqw R5, R0
install_again:
        CALL32EXa @R4[0x00000080]       ; InstallProtocolInterface
        MOVqw R0, R6
        CALL32EXa @R4[0x00000090]       ; UninstallProtocolInterface
        MOVqw @R0, R1                   ; 0, for a new handle
        MOVqw R0, R5
        JMP8 =install_again
