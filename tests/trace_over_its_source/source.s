# Shows: a trace may go to the very file of the source, which was read whole before the run.
main:
  la a0, text
  li a1, 2
  li a7, 16
  ecall
  ret
text:
  .ascii "hi"
