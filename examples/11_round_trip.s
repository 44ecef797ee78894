# Shows: a thread that walks round all nodes and comes home, with a number on its stack, one on its heap and one in a register.
main:
  addi sp, sp, -32
  sd zero, 0(sp)             # on the stack: how often it has moved
  li a7, 4                   # nodes
  ecall
  mv s0, a0
  li a0, 16
  li a7, 12                  # isomalloc
  ecall
  mv s1, a0
  sd zero, 0(s1)             # on the heap: the sum of the nodes that it came to
  li s2, 0                   # in a register: the node that it goes to
step:
  addi s2, s2, 1
  blt s2, s0, go
  li s2, 0                   # from the last node home
go:
  mv a0, s2
  li a7, 14                  # migrate_self
  ecall
  bnez a0, wrong
  li a7, 3                   # node
  ecall
  bne a0, s2, wrong
  ld t0, 0(s1)
  add t0, t0, a0
  sd t0, 0(s1)
  ld t0, 0(sp)
  addi t0, t0, 1
  sd t0, 0(sp)
  li t0, 0x2065646f6e207461  # "at node "
  sd t0, 8(sp)
  addi a0, a0, 48
  sb a0, 16(sp)
  addi a0, sp, 8
  li a1, 9
  li a7, 16                  # print
  ecall
  bnez s2, step
  li t1, 0
  li t2, 0
sum:
  bge t2, s0, home
  add t1, t1, t2
  addi t2, t2, 1
  j sum
home:
  ld t0, 0(s1)
  bne t0, t1, wrong          # it has been on each node once
  ld t0, 0(sp)
  bne t0, s0, wrong
  la a0, text
  li a1, 10
  li a7, 16
  ecall
  addi sp, sp, 32
  li a0, 0
  ret
wrong:
  ebreak
text:
  .ascii "home again"
