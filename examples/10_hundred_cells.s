# Shows: a list of 100 cells on the heap of a thread, printed cell by cell; at cell 50 the thread asks to move to node 1.
main:
  addi sp, sp, -16
  li t0, 0x6c6c6563          # "cell"
  sw t0, 0(sp)
  li t0, 32
  sb t0, 4(sp)
  li s0, 0                   # the first cell
  li s1, 100
build:
  li a0, 16
  li a7, 12                  # isomalloc
  ecall
  sd s0, 0(a0)               # the next cell
  sd s1, 8(a0)               # its number
  mv s0, a0
  addi s1, s1, -1
  bnez s1, build
walk:
  beqz s0, over
  ld t1, 8(s0)
  li t0, 50
  bne t1, t0, show
  li a0, 1
  li a7, 14                  # migrate_self: where there is no node 1 it changes nothing
  ecall
  ld t1, 8(s0)
show:
  li t2, 48
hundreds:
  li t0, 100
  blt t1, t0, two
  addi t1, t1, -100
  addi t2, t2, 1
  j hundreds
two:
  sb t2, 5(sp)
  li t2, 48
tens:
  li t0, 10
  blt t1, t0, one
  addi t1, t1, -10
  addi t2, t2, 1
  j tens
one:
  sb t2, 6(sp)
  addi t1, t1, 48
  sb t1, 7(sp)
  mv a0, sp
  li a1, 8
  li a7, 16                  # print
  ecall
  ld s0, 0(s0)
  j walk
over:
  addi sp, sp, 16
  li a0, 0
  ret
