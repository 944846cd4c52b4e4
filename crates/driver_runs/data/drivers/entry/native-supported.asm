; The binding's Supported becomes 0x22000, that of the PCI bus driver.
; 2 units.
        MOVRELd R5, =binding
        MOVIqd @R5, 139264
