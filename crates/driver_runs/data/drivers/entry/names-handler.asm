; The loaded image block of the image gets a thunk of `unload`, which data/handler has, as the handler
; that it names. R4 is the boot services, and R5 points to the block then.
; 12 instructions and HandleProtocol: 20 units.
        MOVqw R5, @R0[0x0010]           ; the handle of the image
        MOVRELd R2, =loaded_image_protocol
        MOVRELd R3, =loaded_image
        PUSHn R3
        PUSHn R2
        PUSHn R5
        CALL32EXa @R4[0x00000098]       ; HandleProtocol
        MOVqw R0, R0[0x0018]
        MOVqw R5, @R3
        MOVRELd R7, =handler
        BREAK 5                         ; a thunk of unload
        MOVqw @R5[0x0058], @R7          ; Unload
