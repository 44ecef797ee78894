# Shows: two threads that join each other. Neither ends, so nothing can go on: the program is stalled, status 3.
main:
  la a0, child
  li a1, 0           # the main thread's name is 0
  li a2, 3
  li a7, 6           # create(entry, argument, priority): the child's name is in a0
  ecall
  li a7, 7           # join(name)
  ecall
  ret
child:               # its argument, the main thread's name, is in a0
  li a7, 7
  ecall
  ret
