# Shows: its settings: how many nodes there are; whether it is moved to another one; and where there is one node, how many slots it can have.
main:
  li a7, 4             # nodes
  ecall
  mv s0, a0
  la a1, nodes
  jal say
  li s1, 300
wait:
  li a7, 3             # node
  ecall
  bnez a0, moved
  addi s1, s1, -1
  bnez s1, wait
  la a0, stays
  li a1, 5
  li a7, 16            # print
  ecall
  li t0, 1
  bne s0, t0, over
  li s1, 1             # its stack's slot
more:
  li a0, 65536
  li a7, 12            # isomalloc
  ecall
  bltz a0, full
  addi s1, s1, 1
  j more
full:
  mv a0, s1
  la a1, slots
  jal say
over:
  li a0, 0
  li a7, 1             # exit
  ecall
moved:
  la a0, moves
  li a1, 5
  li a7, 16
  ecall
  j over
say:                   # shows the six bytes at a1, and behind them the number in a0, which is from 1 to 9999
  ld t0, 0(a1)
  addi sp, sp, -16
  sd t0, 0(sp)
  addi t1, sp, 6
  la t2, powers
digit:
  lw t3, 0(t2)
  beqz t3, shown
  addi t2, t2, 4
  li t4, 0
less:
  blt a0, t3, put
  sub a0, a0, t3
  addi t4, t4, 1
  j less
put:
  addi t5, sp, 6
  bne t1, t5, write
  beqz t4, digit       # no zero in front
write:
  addi t4, t4, 48
  sb t4, 0(t1)
  addi t1, t1, 1
  j digit
shown:
  mv a0, sp
  sub a1, t1, sp
  li a7, 16
  ecall
  addi sp, sp, 16
  ret
powers:
  .word 1000, 100, 10, 1, 0
nodes:
  .ascii "nodes   "
slots:
  .ascii "slots   "
stays:
  .ascii "stays"
moves:
  .ascii "moves"
