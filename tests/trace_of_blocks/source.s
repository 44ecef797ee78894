# Shows: slots and blocks on two nodes: slots that are taken and given, a block on the node to which the thread has moved, each refusal of isomalloc and isofree, and what an end gives back.
main:
  li a0, 0
  li a7, 12            # no bytes: -1
  ecall
  li a0, 0x80001
  li a7, 12            # more than all slots: -7
  ecall
  li a0, 0x80000
  li a7, 12            # more than are free: -4
  ecall
  li a0, 100
  li a7, 12
  ecall
  mv s0, a0
  li a0, 100
  li a7, 12            # beside the first, without a slot more
  ecall
  mv s1, a0
  addi a0, s0, 16
  li a7, 13            # no block begins there: -2
  ecall
  mv a0, s0
  li a7, 13            # the slot has the other block yet
  ecall
  li a0, 1
  li a7, 14
  ecall
  mv a0, s1
  li a7, 13            # its slot goes to node 1
  ecall
  mv a0, s1
  li a7, 13            # freed twice: -2
  ecall
  li a0, 100
  li a7, 12            # the lowest slot of node 1
  ecall
  li a0, 0
  ret
