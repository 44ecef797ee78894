# Shows: the summary counts faults, also the main thread's, and a trace that isn't done is written too.
main:
  la a0, other
  li a1, 0
  li a2, 3
  li a7, 6
  ecall
  .word 0
other:
  li a7, 5
  ecall
  j other
