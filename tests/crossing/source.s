# Shows: two threads that go to and fro between two nodes and cross on the way, each with ten cells on its heap.
main:
  la a0, worker
  li a1, 1                   # the first goes to node 1
  li a2, 3
  li a7, 6                   # create
  ecall
  mv s0, a0
  la a0, worker
  li a1, 0                   # the second begins where it is
  li a2, 3
  li a7, 6
  ecall
  mv s1, a0
  mv a0, s0
  jal await
  la a0, first
  li a1, 30
  li a7, 16                  # print
  ecall
  mv a0, s1
  jal await
  la a0, second
  li a1, 31
  li a7, 16
  ecall
  li a0, 0
  li a7, 1                   # exit
  ecall
await:
  li a7, 7                   # join
  ecall
  bnez a0, wrong
  li t0, 55
  bne a1, t0, wrong
  ret
wrong:
  ebreak
worker:
  mv s0, a0                  # the node that it goes to
  li s1, 0                   # its cells
  li s2, 10
build:
  li a0, 16
  li a7, 12                  # isomalloc
  ecall
  sd s1, 0(a0)               # the next cell
  sd s2, 8(a0)               # its number
  mv s1, a0
  addi s2, s2, -1
  bnez s2, build
  li s3, 20
move:
  mv a0, s0
  li a7, 14                  # migrate_self
  ecall
  bnez a0, lost
  li a7, 3                   # node
  ecall
  bne a0, s0, lost
  li t0, 0
  mv t1, s1
sum:
  beqz t1, summed
  ld t2, 8(t1)
  add t0, t0, t2
  ld t1, 0(t1)
  j sum
summed:
  li t2, 55
  bne t0, t2, lost
  xori s0, s0, 1
  addi s3, s3, -1
  bnez s3, move
  mv a0, t0
  ret
lost:
  li a0, 0
  ret
first:
  .ascii "the first has all of its cells"
second:
  .ascii "the second has all of its cells"
