# Shows: a block whose slot was given back and taken again reads zeros; and what isomalloc and isofree answer at their limits.
main:
  li s0, 0x100010000         # the first address of the heap
  li t0, 65528
  add s1, s0, t0             # the last word of the first slot
  li a0, 65536
  jal take
  bne a0, s0, wrong
  li t0, -1
  sd t0, 0(s1)
  mv a0, s0
  jal give
  bnez a0, wrong
  li a0, 65536
  jal take
  bne a0, s0, wrong
  ld t0, 0(s1)
  bnez t0, wrong
  la a0, zeros
  li a1, 11
  jal say
  li a0, 0
  jal take
  li t0, -1
  bne a0, t0, wrong
  li a0, -1
  jal take
  li t0, -7
  bne a0, t0, wrong
  li a0, 0x40001             # one byte more than the four slots have
  jal take
  bne a0, t0, wrong
  li a0, 0x40000             # as many as they have, but two of them are the thread's
  jal take
  li t0, -4
  bne a0, t0, wrong
  li a0, -16
  jal give
  li t0, -2
  bne a0, t0, wrong
  la a0, limits
  li a1, 6
  jal say
  li a0, 0
  li a7, 1                   # exit
  ecall
take:
  li a7, 12                  # isomalloc
  ecall
  ret
give:
  li a7, 13                  # isofree
  ecall
  ret
say:
  li a7, 16                  # print
  ecall
  ret
wrong:
  ebreak
zeros:
  .ascii "zeros again"
limits:
  .ascii "limits"
