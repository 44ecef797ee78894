# Shows: every answer of a join: of oneself, of a node that isn't there, of a thread that wasn't born, of one that another waits for, of one that has ended with a value or with a fault, and again.
main:
  li a0, 0
  li a7, 7             # join oneself: -1
  ecall
  li a0, 9
  slli a0, a0, 32
  li a7, 7             # node 9: -2
  ecall
  li a0, 77
  li a7, 7             # not born: -2
  ecall
  la a0, slow
  li a1, 7
  li a2, 2
  li a7, 6             # 0.1 runs when nobody else can
  ecall
  la a0, waits
  li a1, 1             # 0.2 joins 0.1
  li a2, 3
  li a7, 6
  ecall
  li a7, 5
  ecall
  li a0, 1
  li a7, 7             # another waits for it: -5
  ecall
  la a0, fails
  li a1, 0
  li a2, 3
  li a7, 6
  ecall
  li a7, 7             # a fault: 1, and its number
  ecall
  li a0, 2
  li a7, 7             # the value of 0.2, which is that of 0.1
  ecall
  li a0, 2
  li a7, 7             # joined to its end: -2
  ecall
  ret
waits:
  li a7, 7
  ecall
  mv a0, a1
  ret
slow:
  ret
fails:
  .word 0
