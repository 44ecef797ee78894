# Shows: a slot's edge. The stack is a slot of 65,536 bytes; its first and its last bytes are the thread's, the next one isn't.
main:
  li t0, 0x100000000 # slot 0
  li t1, 65528
  add t1, t0, t1
  li t2, 0x6b6f
  sh t2, 0(t0)
  sh t2, 6(t1)
  mv a0, t0
  li a1, 2
  li a7, 16
  ecall
  addi a0, t1, 6
  ecall
  lb t3, 8(t1)       # one byte past the slot
  ret
