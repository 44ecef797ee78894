# Shows: a schedule with a bad line is told by its first one; nothing runs, and no file is written.
main:
  la a0, text
  li a1, 2
  li a7, 16
  ecall
  ret
text:
  .ascii "hi"
