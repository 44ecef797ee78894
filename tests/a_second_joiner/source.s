# Shows: two threads join a third one. The first has its value; the second is answered -5, since that thread is taken.
main:
  la a0, first
  li a1, 0           # the main thread's name is 0
  li a2, 7           # the greatest priority: both ask before the main thread ends
  li a7, 6           # create(entry, argument, priority)
  ecall
  la a0, second
  li a1, 0
  li a2, 7
  ecall
  li a0, 5
  ret
first:
  li a7, 7           # join(name): the value comes in a1
  ecall
  bnez a0, wrong
  li t0, 5
  bne a1, t0, wrong
  la a0, value
  li a1, 9
  j show
second:
  li a7, 7
  ecall
  li t0, -5
  bne a0, t0, wrong
  la a0, taken
  li a1, 5
show:
  li a7, 16          # print
  ecall
  ret
wrong:
  ebreak
value:
  .ascii "its value"
taken:
  .ascii "taken"
