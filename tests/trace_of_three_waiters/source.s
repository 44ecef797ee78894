# Shows: three threads wait for a semaphore and it is raised once: the first goes on, before main does, and the two others wait for ever. Before that, what a semaphore's value can't be, and what is no semaphore.
main:
  li a0, 1
  slli a0, a0, 31
  li a7, 9             # sem_new(2^31): -1
  ecall
  li a0, 0
  li a7, 9             # the name 0
  ecall
  li a0, 2147483647
  li a7, 9             # the name 1
  ecall
  li a7, 11            # sem_v: it can't rise, -1
  ecall
  li a0, 1
  li a7, 10            # sem_p: 0
  ecall
  li a0, 1
  li a7, 11            # sem_v: 0
  ecall
  li a0, 2
  li a7, 10            # no such semaphore: -2
  ecall
  li a0, 2
  li a7, 11            # -2
  ecall
  li a0, 1
  slli a0, a0, 32
  li a7, 10            # no such node: -2
  ecall
  li s0, 3
more:
  la a0, waiter
  li a1, 0
  li a2, 7             # it runs before main does
  li a7, 6
  ecall
  addi s0, s0, -1
  bnez s0, more
  li a0, 0
  li a7, 11            # sem_v
  ecall
  ret
waiter:
  li a7, 10            # sem_p(0)
  ecall
  ret
