# The loop of multiplications and divisions that bench/instructions counts.
main:
  li t0, 50000000
  li a0, 1
again:
  mul a1, a0, t0
  mulhu a2, a1, t0
  div a3, a1, t0
  rem a4, a1, t0
  add a0, a1, a2
  add a0, a0, a3
  xor a0, a0, a4
  addi t0, t0, -1
  bnez t0, again
  li a7, 1
  ecall
