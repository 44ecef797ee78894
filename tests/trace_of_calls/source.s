# Shows: calls that are answered at once, each refusal of create and print, a number that is no call, a line of no bytes, and halt.
main:
  li a7, 2             # self
  ecall
  li a7, 3             # node
  ecall
  li a7, 4             # nodes
  ecall
  li a7, 5             # yield
  ecall
  li a7, 99            # no call: -1
  ecall
  la a0, main
  addi a0, a0, 2
  li a2, 3
  li a7, 6             # not a multiple of 4: -1
  ecall
  li a0, 0x200000
  li a7, 6             # outside the image: -1
  ecall
  la a0, main
  li a2, 8
  li a7, 6             # no such priority: -1
  ecall
  la a0, main
  li a2, 3
  li a7, 6             # no slot: -4
  ecall
  la a0, main
  li a1, 257
  li a7, 16            # too long: -7
  ecall
  li a0, 0
  li a1, 1
  li a7, 16            # not readable: -1
  ecall
  li a0, 0
  li a1, 0
  li a7, 16            # no bytes
  ecall
  li a7, 25            # halt
  ecall
