; Stop closes the device, and frees the block at 0x1000000c0. Blocks begin at 0x100000000, and those of
; two loaded images come first, 96 bytes each.
; With the jump of the binding 7 instructions, `close` and FreePool (4): 32 units.
stop:
        CALL64 =close                   ; R4 is then the services
        MOVIqq R5, 4294967488           ; 0x1000000c0
        PUSHn R5
        CALL32EXa @R4[0x00000048]       ; FreePool
        MOVqw R0, R0[0x0008]
        RET
