# Shows: where the schedule can't be written, the trace is there already.
main:
  la a0, text
  li a1, 2
  li a7, 16
  ecall
  ret
text:
  .ascii "hi"
