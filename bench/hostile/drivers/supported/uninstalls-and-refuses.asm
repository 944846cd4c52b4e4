; Supported uninstalls the protocol of handle 4, which takes its open records with it, and refuses its controller. If
; the protocol is not there, the status says so.
; With the jump of the binding 14 instructions and UninstallProtocolInterface (8): 22 units.
supported:
        MOVRELd R4, =services
        MOVqw R4, @R4
        MOVRELd R2, =device_protocol
        MOVIqw R6, 4
        PUSHn R1                        ; Interface
        PUSHn R2                        ; Protocol
        PUSHn R6                        ; Handle
        CALL32EXa @R4[0x00000090]       ; UninstallProtocolInterface
        MOVqw R0, R0[0x0018]
        CMPI64weq R7, 0
        JMP8cc =supported_ends
        MOVIqq R7, -9223372036854775805 ; EFI_UNSUPPORTED
supported_ends:
        RET
