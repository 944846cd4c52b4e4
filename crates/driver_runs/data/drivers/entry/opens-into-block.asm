; Makes a block of 8 bytes, and opens the device, handle 4, with BY_DRIVER and EXCLUSIVE, for the
; image. The interface is to be stored in the block.
; 20 instructions, AllocatePool (2) and OpenProtocol: 30 units.
        MOVqw R5, @R0[0x0010]           ; the handle of the image
        MOVRELd R3, =interface
        MOVIqw R6, 8
        PUSHn R3                        ; where the address of the block is stored
        PUSHn R6
        PUSHn R1
        CALL32EXa @R4[0x00000040]       ; AllocatePool
        MOVqw R0, R0[0x0018]
        MOVqw R3, @R3
        MOVRELd R2, =device_protocol
        MOVIqw R6, 4
        MOVIqw R7, 48                   ; BY_DRIVER and EXCLUSIVE
        PUSHn R7
        PUSHn R6                        ; the controller
        PUSHn R5                        ; the agent
        PUSHn R3
        PUSHn R2
        PUSHn R6
        CALL32EXa @R4[0x00000118]       ; OpenProtocol
        MOVqw R0, R0[0x0030]
