# Shows: a replay does the acts of its file in their order, and the program is done after the last one.
main:
  la a0, text
  li a1, 2
  li a7, 16
  ecall
  ret
text:
  .ascii "hi"
