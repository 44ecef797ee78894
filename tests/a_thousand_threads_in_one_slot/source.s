# Shows: a thousand threads, one after another in one slot. Each reads zeros where the one before has written.
main:
  li s0, 1000
next:
  la a0, child
  li a1, 0
  li a2, 3
  li a7, 6           # create(entry, argument, priority)
  ecall
  bltz a0, wrong
  li a7, 7           # join(name): the value comes in a1
  ecall
  bnez a0, wrong
  bnez a1, wrong     # it has read something else
  addi s0, s0, -1
  bnez s0, next
  la a0, text
  li a1, 14
  li a7, 16          # print
  ecall
  ret
wrong:
  ebreak
child:
  li t0, -65536
  add t0, sp, t0
  ld a0, 0(t0)       # the first word of its slot
  ld t1, -8(sp)      # and the last
  or a0, a0, t1
  li t1, -1
  sd t1, 0(t0)
  sd t1, -8(sp)
  ret
text:
  .ascii "all read zeros"
