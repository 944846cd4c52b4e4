; The binding's Supported becomes the address of EBC code instead of a thunk of it.
; 3 units.
        MOVRELd R5, =binding
        MOVRELd R6, =supported
        MOVqw @R5, R6
