# Shows: freed bytes that touch are one hole, and a slot that no block meets goes back: the next thread has it, and reads zeros.
main:
  li a0, 65536
  jal take               # the whole of slot 1
  mv s0, a0
  jal show
  li t0, -1
  li t1, 65528
  add t1, t1, s0
  sd t0, 0(s0)
  sd t0, 0(t1)
  li a0, 32
  jal take               # four blocks in slot 2
  mv s1, a0
  jal show
  li a0, 32
  jal take
  mv s2, a0
  jal show
  li a0, 32
  jal take
  mv s3, a0
  jal show
  li a0, 32
  jal take
  jal show
  mv a0, s1
  jal give
  mv a0, s3
  jal give
  mv a0, s2              # the one between two holes
  jal give
  li a0, 96
  jal take               # it fits where the three were
  jal show
  mv a0, s0
  jal give               # slot 1 goes back
  jal show
  mv a0, s0
  jal give               # no block starts there any more
  jal show
  la a0, other
  li a1, 0
  li a2, 0
  li a7, 6               # create
  ecall
  li a7, 7               # join
  ecall
  jal show
  mv a0, a1
  li a7, 1               # exit
  ecall

other:                   # its stack is slot 1
  li t0, -65536
  add t0, t0, sp
  ld s0, 0(t0)           # the first and the last of its bytes
  ld t1, -8(sp)
  or s0, s0, t1
  mv a0, sp
  jal show
  mv a0, s0
  jal show
  li a0, 0
  li a7, 1
  ecall

take:
  li a7, 12              # isomalloc
  ecall
  ret
give:
  li a7, 13              # isofree
  ecall
  ret

show:                    # prints a0 in sixteen digits
  addi sp, sp, -16
  addi t0, sp, 16
digit:
  andi t1, a0, 15
  addi t1, t1, 48
  li t2, 58
  blt t1, t2, store
  addi t1, t1, 39        # from a to f
store:
  addi t0, t0, -1
  sb t1, 0(t0)
  srli a0, a0, 4
  bne t0, sp, digit
  mv a0, sp
  li a1, 16
  li a7, 16              # print
  ecall
  addi sp, sp, 16
  ret
