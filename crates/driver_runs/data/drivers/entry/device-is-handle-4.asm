; The device is handle 4, which another driver made.
; 2 units.
        MOVRELd R3, =device
        MOVIqw @R3, 4
