; The list of driver image handles is at 8, where nothing is mapped.
; 1 unit.
        MOVIqw R2, 8
