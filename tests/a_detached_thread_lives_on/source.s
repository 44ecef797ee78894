# Shows: a detached thread outlives its creator: it waits for its end, and then prints.
main:
  li a7, 2             # self
  ecall
  mv a1, a0
  la a0, child
  li a2, 3
  li a7, 6
  ecall
  mv s0, a0
  li a7, 8             # detach: 0
  ecall
  bnez a0, wrong
  mv a0, s0
  li a7, 7             # nobody joins it any more: -2
  ecall
  addi a0, a0, 2
  bnez a0, wrong
  la a0, ends
  li a1, 9
  li a7, 16
  ecall
  li a0, 5
  ret
child:
  mv s0, a0
  li a7, 7             # its creator has ended with 5
  ecall
  bnez a0, wrong
  addi a1, a1, -5
  bnez a1, wrong
  mv a0, s0
  li a7, 8             # it was joined to its end: -2
  ecall
  addi a0, a0, 2
  bnez a0, wrong
  la a0, lives
  li a1, 10
  li a7, 16
  ecall
  ret
wrong:
  ebreak
ends:
  .ascii "main ends"
lives:
  .ascii "still here"
