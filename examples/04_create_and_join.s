# Shows: a thread that is created and joined; where there is no thread to be had, the program says so.
main:
  la a0, child
  li a1, 3
  li a2, 3
  li a7, 6           # create(entry, argument, priority)
  ecall
  bltz a0, alone
  li a7, 7           # join(name): the value comes in a1
  ecall
  li t0, 7
  bne a1, t0, alone
  la a0, joined
  li a1, 6
  j show
alone:
  la a0, no_thread
  li a1, 9
show:
  li a7, 16
  ecall
  ret
child:
  addi a0, a0, 4
  li a7, 1           # exit(value)
  ecall
joined:
  .ascii "joined"
no_thread:
  .ascii "no thread"
