# Shows: a semaphore of value 1 as a lock. Eight threads on all nodes each print two lines while they have it, and no line of another stands between.
main:
  li a0, 1
  li a7, 9             # sem_new(1): the lock's name is in a0
  ecall
  mv s0, a0
  li s1, 8
more:
  la a0, enters
  mv a1, s0            # each thread gets the lock's name
  li a2, 3
  li a7, 6             # create(entry, argument, priority)
  ecall
  addi s1, s1, -1
  bnez s1, more
  ret
enters:
  mv s0, a0
  li a7, 2             # self()
  ecall
  mv s1, a0
  li a7, 4             # nodes()
  ecall
  remu a0, s1, a0      # the eight are spread over the nodes
  li a7, 14            # migrate_self(node)
  ecall
  mv a0, s0
  li a7, 10            # sem_p(name): takes the lock, or waits until it is free
  ecall
  la a0, in
  li a1, 2
  li a7, 16            # print(address, bytes)
  ecall
  la a0, out
  li a1, 3
  li a7, 16
  ecall
  mv a0, s0
  li a7, 11            # sem_v(name): who waits longest has it now
  ecall
  ret
in:
  .ascii "in"
out:
  .ascii "out"
