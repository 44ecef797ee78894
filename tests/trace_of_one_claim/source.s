# Shows: main has the one slot that there is. Each claim waits for the node's turn, and is answered there that there are no slots; a block longer than all slots claims none.
main:
  la a0, main
  li a1, 0
  li a2, 3
  li a7, 6             # create: -4
  ecall
  li a0, 65536
  li a7, 12            # isomalloc, of as many bytes as a slot has: -4
  ecall
  li a0, 65537
  li a7, 12            # of one more: -7, at once
  ecall
  ret
