# Shows: a function with a stack frame that calls itself, and a number written in decimal on the stack.
main:
  addi sp, sp, -32
  sd ra, 24(sp)
  li a0, 100
  call sum
  mv t0, a0
  addi t1, sp, 20    # the digits end here
  mv a0, t1
  li t2, 10
digit:               # t0 is divided by ten, by taking tens away
  li t3, 0
tens:
  blt t0, t2, store
  addi t0, t0, -10
  addi t3, t3, 1
  j tens
store:
  addi a0, a0, -1
  addi t0, t0, 48
  sb t0, 0(a0)
  mv t0, t3
  bnez t0, digit
  sub a1, t1, a0
  li a7, 16
  ecall
  ld ra, 24(sp)
  addi sp, sp, 32
  ret

sum:                 # a0 + (a0 - 1) + .. + 1
  beqz a0, none
  addi sp, sp, -16
  sd ra, 8(sp)
  sd a0, 0(sp)
  addi a0, a0, -1
  call sum
  ld t0, 0(sp)
  add a0, a0, t0
  ld ra, 8(sp)
  addi sp, sp, 16
none:
  ret
