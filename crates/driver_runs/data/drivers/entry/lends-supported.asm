; The driver binding of handle 3 gets a thunk of `supported` of this image, which data/lent has. R4 is
; the boot services.
; 12 instructions and HandleProtocol: 20 units.
        MOVIqw R5, 3
        MOVRELd R2, =binding_protocol
        MOVRELd R3, =interface
        PUSHn R3
        PUSHn R2
        PUSHn R5
        CALL32EXa @R4[0x00000098]       ; HandleProtocol
        MOVqw R0, R0[0x0018]
        MOVqw R5, @R3
        MOVRELd R7, =lent
        BREAK 5                         ; a thunk of supported
        MOVqw @R5, @R7                  ; Supported
