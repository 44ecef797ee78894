# Shows: blocks of the heap that are freed in another order than they were allocated, and where later ones go.
main:
  li s10, 0x100010000
  li a0, 100
  jal take
  bne a0, s10, wrong         # the first address of the heap
  mv s0, a0
  li a0, 100
  jal take
  addi t0, s10, 112
  bne a0, t0, wrong          # behind it, since 100 is rounded to 112
  mv s1, a0
  li a0, 65536
  jal take
  addi t0, s10, 224
  bne a0, t0, wrong          # over the end of slot 1 into slot 2, which it takes
  mv s2, a0
  la a0, placed
  li a1, 6
  jal say
  mv a0, s0
  jal give
  bnez a0, wrong
  li a0, 16
  jal take
  bne a0, s10, wrong         # the lowest address again
  mv s0, a0
  addi a0, s10, 16
  jal give
  li t0, -2
  bne a0, t0, wrong          # no block starts there
  la a0, reused
  li a1, 6
  jal say
  mv a0, s2
  jal give
  bnez a0, wrong             # and slot 2 goes back
  mv a0, s0
  jal give
  bnez a0, wrong
  mv a0, s1
  jal give
  bnez a0, wrong             # and slot 1 goes back
  mv a0, s1
  jal give
  li t0, -2
  bne a0, t0, wrong
  li a0, 0
  jal take
  li t0, -1
  bne a0, t0, wrong
  la a0, freed
  li a1, 5
  jal say
  li ra, 0x10000
  li a0, 0
  ret
take:
  li a7, 12                  # isomalloc
  ecall
  ret
give:
  li a7, 13                  # isofree
  ecall
  ret
say:
  li a7, 16                  # print
  ecall
  ret
wrong:
  ebreak
placed: .ascii "placed"
reused: .ascii "reused"
freed:  .ascii "freed"
