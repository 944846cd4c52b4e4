; The handler becomes 0x22000, the Supported of the PCI bus driver. R5 points to the loaded image
; block.
; 1 unit.
        MOVIqd @R5[0x0058], 139264
