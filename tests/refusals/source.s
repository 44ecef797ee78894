# Shows: refused calls. A print of too many bytes is answered -7, one of bytes that aren't the thread's -1, an unknown call -1.
main:
  la a0, main
  li a1, 257
  li a7, 16
  ecall
  addi s0, a0, 7     # 0 after -7
  li a0, 0
  li a1, 1
  ecall
  addi s1, a0, 1
  or s0, s0, s1
  li a7, 99
  ecall
  addi s1, a0, 1
  or s0, s0, s1
  bnez s0, bad
  la a0, text
  li a1, 7
  li a7, 16
  ecall
  ret
bad:
  ebreak
text:
  .ascii "refused"
