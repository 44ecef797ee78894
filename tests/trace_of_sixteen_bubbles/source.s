# Shows: a bubble of bubbles, sixteen deep, on four groups of four processors. Their priorities go round from 0 to 7, their bursting depths from 0 to 2, and the thread in the innermost prints.
main:
  li s0, 16
  li s1, 0             # the next bubble's priority, its number mod 8
  li s2, 0             # its bursting depth, its number mod 3
make:
  mv a0, s1
  mv a1, s2
  li a7, 17            # bubble_new(priority, depth)
  ecall
  addi s1, s1, 1
  andi s1, s1, 7
  addi s2, s2, 1
  li t0, 3
  bne s2, t0, deep
  li s2, 0
deep:
  addi s0, s0, -1
  bnez s0, make
  mv s0, a0            # the last one: 15
  la a1, says
  li a2, 0
  li a3, 3
  li a7, 21            # create_in(15, says, 0, 3): 0.1
  ecall
fill:
  mv a1, s0
  addi s0, s0, -1
  mv a0, s0
  li a7, 18            # bubble_insert(14, 15), and so on to bubble_insert(0, 1)
  ecall
  bnez s0, fill
  li a0, 0
  li a7, 19            # bubble_wake(0)
  ecall
  ret
says:
  la a0, text
  li a1, 9
  li a7, 16            # print
  ecall
  ret
text:
  .ascii "innermost"
