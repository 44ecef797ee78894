# Shows: on two nodes, where two blocks of 100 bytes go. The second is freed, but none at an address between them; after a move to
# node 1 the first is freed there, once. The slot is node 1's then, whose lowest one is 1.
main:
  li s0, 0x100020000
  jal take
  bne a0, s0, wrong
  jal take
  addi t0, s0, 112
  bne a0, t0, wrong
  jal give
  bnez a0, wrong
  addi a0, s0, 16
  jal give
  li s1, -2
  bne a0, s1, wrong
  li a0, 1
  li a7, 14
  ecall
  bnez a0, wrong
  mv a0, s0
  jal give
  bnez a0, wrong
  mv a0, s0
  jal give
  bne a0, s1, wrong
  jal take
  li t0, 0x100010000
  bne a0, t0, wrong
  li a7, 1
  ecall
take:
  li a0, 100
  li a7, 12
  ecall
  ret
give:
  li a7, 13
  ecall
  ret
wrong:
  ebreak
