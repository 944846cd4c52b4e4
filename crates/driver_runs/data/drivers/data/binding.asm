; The driver binding, of which entry/install-binding makes thunks and fills in the handles, and the other data of
; a driver. The first 4 bytes of each function are the distance to its jump, which is one more unit
; of each call.
binding:
        .byte 44, 0, 0, 0, 0, 0, 0, 0   ; Supported
        .byte 46, 0, 0, 0, 0, 0, 0, 0   ; Start
        .byte 48, 0, 0, 0, 0, 0, 0, 0   ; Stop
        .byte 16, 0, 0, 0, 0, 0, 0, 0   ; Version 0x10
        .byte 0, 0, 0, 0, 0, 0, 0, 0    ; ImageHandle
        .byte 0, 0, 0, 0, 0, 0, 0, 0    ; DriverBindingHandle
        JMP64 =supported
        JMP64 =start
        JMP64 =stop
services:
        .byte 0, 0, 0, 0, 0, 0, 0, 0
device:
        .byte 0, 0, 0, 0, 0, 0, 0, 0
second_device:
        .byte 0, 0, 0, 0, 0, 0, 0, 0
third_device:
        .byte 0, 0, 0, 0, 0, 0, 0, 0
interface:
        .byte 0, 0, 0, 0, 0, 0, 0, 0
binding_protocol:                       ; EFI_DRIVER_BINDING_PROTOCOL
        .byte 0xab, 0x31, 0xa0, 0x18, 0x43, 0xb4, 0x1a, 0x4d
        .byte 0xa5, 0xc0, 0x0c, 0x09, 0x26, 0x1e, 0x9f, 0x71
