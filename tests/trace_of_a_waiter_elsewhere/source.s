# Shows: a thread on node 1 waits for a semaphore of node 0. Who raises it there has the waiter's reply judged first, and is told in the same entry; the waiter is told on its own node.
main:
  li a0, 0
  li a7, 9             # sem_new
  ecall
  la a0, other
  li a1, 0
  li a2, 3
  li a7, 6             # 0.1
  ecall
  li a0, 0
  li a7, 11            # sem_v
  ecall
  li a0, 1
  slli a0, a0, 32
  li a7, 10            # sem_p of a semaphore that node 1 never made: -2
  ecall
  li a7, 11            # sem_v of what is no name at all: -2
  ecall
  ret
other:
  li a0, 0
  li a7, 10            # sem_p
  ecall
  ret
