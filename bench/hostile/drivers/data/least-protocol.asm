; The protocol of the devices of these drivers is the GUID of zeros.
device_protocol:
        .byte 0, 0, 0, 0, 0, 0, 0, 0
        .byte 0, 0, 0, 0, 0, 0, 0, 0
