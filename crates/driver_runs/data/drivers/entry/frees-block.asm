; Frees the block at 0x100000130. Blocks begin at 0x100000000: the device path of a root bridge takes 16
; bytes, that of a child 32, its PCI I/O 160, and a loaded image 96.
; 4 instructions and FreePool (4): 8 units.
        MOVIqq R5, 4294967600           ; 0x100000130
        PUSHn R5
        CALL32EXa @R4[0x00000048]       ; FreePool
        MOVqw R0, R0[0x0008]
