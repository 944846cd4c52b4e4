; Supported uninstalls the only protocol of each of the handles from FIRST on and before END, and refuses its
; controller. So the handles go with their open records, and are back after it.
; With the jump of the binding 11 instructions, and for each handle 5 and UninstallProtocolInterface (8): 13 units.
supported:
        MOVRELd R4, =services
        MOVqw R4, @R4
        MOVRELd R2, =device_protocol
        MOVIqw R6, FIRST
        PUSHn R1                        ; Interface
        PUSHn R2                        ; Protocol
        PUSHn R6                        ; Handle
uninstall_next:
        MOVqw @R0, R6
        CALL32EXa @R4[0x00000090]       ; UninstallProtocolInterface
        MOVqw R6, R6[0x0001]
        CMPI64weq R6, END
        JMP8cc =uninstall_next
        MOVqw R0, R0[0x0018]
        MOVIqq R7, -9223372036854775805 ; EFI_UNSUPPORTED
        RET
