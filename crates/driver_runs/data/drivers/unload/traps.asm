; The handler reads at 8, where nothing is mapped.
; With its jump 3 units.
unload:
        MOVIqw R2, 8
        MOVqw R2, @R2
        RET
