# Shows: where the trace can't be written, the lines and the summary are there already, and no schedule is written.
main:
  la a0, text
  li a1, 2
  li a7, 16
  ecall
  ret
text:
  .ascii "hi"
