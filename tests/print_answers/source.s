# Shows: a byte at 0 isn't readable, -1; 257 bytes are too long, -7; there is no call 99, -1; no bytes are an empty line, 0.
main:
  li a0, 0
  li a1, 1
  li a7, 16
  ecall
  mv s0, a0
  lui a0, 16
  li a1, 257
  ecall
  add s0, s0, a0
  li a7, 99
  ecall
  add s0, s0, a0
  li a1, 0
  li a7, 16
  ecall
  addi s0, s0, 9
  beqz s0, good
  ebreak
good:
  ret
