; Stop reads at 8, where nothing is mapped.
; With the jump of the binding 3 units.
stop:
        MOVIqw R2, 8
        MOVqw R2, @R2
        RET
