# Shows: the summary behind the lines, and the whole trace and its acts in files of their own.
main:
  la a0, text
  li a1, 2
  li a7, 16
  ecall
  ret
text:
  .ascii "hi"
