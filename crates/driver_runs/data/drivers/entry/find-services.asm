; The entry of an image that only calls services: R4 becomes the boot services.
; 2 units.
        MOVqw R4, @R0[0x0018]
        MOVqw R4, @R4[0x0060]
