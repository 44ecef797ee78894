# Shows: migrate sends a ready thread away, but not twice. From node 1 main raises and lowers semaphores of node 0, by packets; then it waits, and the other thread on node 1 wakes it.
main:
  li a0, 0
  li a7, 9             # sem_new: the name 0
  ecall
  li a0, 2147483647
  li a7, 9             # the greatest value: the name 1
  ecall
  la a0, other
  li a1, 0
  li a2, 2
  li a7, 6             # 0.1 runs when main can't
  ecall
  li a1, 1
  li a7, 15            # migrate(1, 1): it leaves
  ecall
  li a0, 1
  li a7, 15            # it isn't here: -3
  ecall
  li a0, 1
  li a7, 14            # main goes to node 1 too
  ecall
  li a0, 0
  li a7, 11            # sem_v: the value is 1
  ecall
  li a0, 1
  slli a0, a0, 33
  li a7, 11            # there is no node 2: -2, and no packet
  ecall
  li a0, 1
  li a7, 11            # it has the greatest value: -1
  ecall
  li a0, 2
  li a7, 11            # node 0 has made two alone: -2
  ecall
  li a0, 0
  li a7, 10            # sem_p: the value is 0
  ecall
  li a7, 10            # it waits
  ecall
  ret
other:
  li a0, 0
  li a7, 11            # sem_v: main goes on
  ecall
  ret
