# Shows: threads' names as numbers, the value of an end, and replies that refuse a call, each as a0 has it.
main:
  li a7, 2               # self: 0.0
  ecall
  jal show
  la a0, job
  li a1, 7
  li a2, 0
  jal create             # 0.1
  mv s0, a0
  jal show
  mv a0, s0
  jal join               # 0, and the value in a1
  mv s1, a1
  jal show
  mv a0, s1
  jal show
  mv a0, s0
  jal join               # it was joined: no such thread
  jal show
  li a0, 0
  jal join               # itself: a bad argument
  jal show
  li a0, 0x200000000
  jal join               # 2.0: there is no node 2
  jal show
  la a0, job
  addi a0, a0, 2
  li a1, 0
  li a2, 0
  jal create             # not at an instruction
  jal show
  la a0, job
  li a1, 0
  li a2, 8
  jal create             # no such priority
  jal show
  li a0, 1
  li a7, 14              # migrate_self
  ecall
  jal show
  li a7, 3               # node
  ecall
  jal show
  la a0, job
  li a1, 0
  li a2, 0
  jal create             # 1.0
  mv s0, a0
  jal show
  mv a0, s0
  jal join
  jal show
  li a0, 2
  li a7, 14              # there is no node 2
  ecall
  jal show
  li a0, 0
  jal take               # of no bytes
  jal show
  li a0, 262144
  jal take               # four slots: full, since one is the stack
  jal show
  li a0, 262145
  jal take               # longer than all slots
  jal show
  li a0, 0
  li a7, 1               # exit
  ecall

job:                     # ends with its argument as its value
  ret

create:
  li a7, 6
  ecall
  ret
join:
  li a7, 7
  ecall
  ret
take:
  li a7, 12              # isomalloc
  ecall
  ret

show:                    # prints a0 in sixteen digits
  addi sp, sp, -16
  addi t0, sp, 16
digit:
  andi t1, a0, 15
  addi t1, t1, 48
  li t2, 58
  blt t1, t2, store
  addi t1, t1, 39        # from a to f
store:
  addi t0, t0, -1
  sb t1, 0(t0)
  srli a0, a0, 4
  bne t0, sp, digit
  mv a0, sp
  li a1, 16
  li a7, 16              # print
  ecall
  addi sp, sp, 16
  ret
