; The Version of the driver binding becomes 0x20, which is above that of the other drivers.
; 2 units.
        MOVRELd R5, =binding
        MOVIdw @R5[0x0018], 32
