# Shows: where blocks go on two nodes, and a block that is freed after a move: its slot goes to the node where the thread is.
main:
  li s10, 0x100020000        # slot 0 is the stack, slot 1 is node 1's
  jal take
  bne a0, s10, wrong
  jal take
  addi t0, s10, 112
  bne a0, t0, wrong          # 100 is rounded to 112
  la a0, placed
  li a1, 6
  jal say
  addi a0, s10, 112
  jal give
  bnez a0, wrong
  addi a0, s10, 16
  jal give
  li t0, -2
  bne a0, t0, wrong          # no block starts there
  li a0, 1
  li a7, 14                  # migrate_self
  ecall
  bnez a0, wrong
  la a0, moved
  li a1, 5
  jal say
  mv a0, s10
  jal give
  bnez a0, wrong
  mv a0, s10
  jal give
  li t0, -2
  bne a0, t0, wrong
  jal take
  li t0, 0x100010000         # the lowest of node 1's slots
  bne a0, t0, wrong
  la a0, freed
  li a1, 5
  jal say
  li a0, 0
  li a7, 1                   # exit
  ecall
take:
  li a0, 100
  li a7, 12                  # isomalloc
  ecall
  ret
give:
  li a7, 13                  # isofree
  ecall
  ret
say:
  li a7, 16                  # print
  ecall
  ret
wrong:
  ebreak
placed:
  .ascii "placed"
moved:
  .ascii "moved"
freed:
  .ascii "freed"
