# Shows: a thread for each fault, each joined: 1, and the number of its fault.
main:
  la s0, table
  li s1, 6
next:
  lw a0, 0(s0)
  la t0, main
  add a0, a0, t0
  li a1, 0
  li a2, 3
  li a7, 6
  ecall
  li a7, 7
  ecall
  addi s0, s0, 4
  addi s1, s1, -1
  bnez s1, next
  ret
illegal:
  .word 0
break:
  ebreak
misaligned:
  addi t0, ra, 2
  jr t0
fetch:
  jr zero
load:
  ld a0, -4(zero)
store:
  sd a0, -4(sp)
table:
  .word 68, 72, 76, 84, 88, 92
