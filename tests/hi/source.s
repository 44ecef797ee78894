# Shows: a thread prints and returns.
main:
  la a0, text
  li a1, 2
  li a7, 16
  ecall
  ret
text:
  .ascii "hi"
