# Shows: main and seven threads have the eight slots, and each of the seven claims one more. The node has seven turns, one behind the other, and each answers the first of those that wait.
main:
  li s0, 7
more:
  la a0, job
  li a1, 0
  li a2, 0             # it runs once main waits
  li a7, 6
  ecall
  addi s0, s0, -1
  bnez s0, more
  li a0, 1
  li a7, 7             # join(0.1)
  ecall
  ret
job:
  la a0, job
  li a1, 0
  li a2, 0
  li a7, 6             # create: -4
  ecall
  ret
