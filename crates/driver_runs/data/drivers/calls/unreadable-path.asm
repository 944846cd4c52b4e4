; The remaining device path is at 8, where nothing is mapped.
; 1 unit.
        MOVIqw R3, 8
