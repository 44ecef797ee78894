# Shows: services are listed by their numbers, labels may stand on either side, and data is padded with zeros.
.byte 1
.align 2
b: .byte -1, 255, 3
.align 2
main: la a0, b
la t6, far
j b
.align 5
.byte 1
far: .service 9, b
.service 2, main
