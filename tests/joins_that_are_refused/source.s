# Shows: a join of a thread that wasn't born is answered -2, one of the thread itself -1, and a create where no slot is free -4.
main:
  li a0, 5           # a name of this home that no thread has
  li a7, 7           # join(name)
  ecall
  addi s0, a0, 2     # 0 after -2
  li a0, 0           # its own name
  ecall
  addi s1, a0, 1
  or s0, s0, s1
  la a0, main
  li a1, 0
  li a2, 3
  li a7, 6           # create: the only slot is this thread's stack
  ecall
  addi s1, a0, 4
  or s0, s0, s1
  bnez s0, wrong
  la a0, text
  li a1, 7
  li a7, 16          # print
  ecall
  ret
wrong:
  ebreak
text:
  .ascii "refused"
