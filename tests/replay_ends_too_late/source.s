# Shows: a replay stops at the first act that is not possible, here one more than the program has, and its trace is written.
main:
  la a0, text
  li a1, 2
  li a7, 16
  ecall
  ret
text:
  .ascii "hi"
