# Shows: a thread that runs into a zero word is joined; a print of no bytes is an empty line; both faults are told in their order.
main:
  la a0, child
  li a2, 3
  li a7, 6
  ecall
  li a7, 7
  ecall
  li a0, 0
  li a1, 0
  li a7, 16
  ecall
  ebreak
child:
  nop
  .word 0
