# Shows: every answer of migrate: to a node that isn't there, of oneself, of a ready thread, of one that waits, that has ended, that was never born or that is on another node; and that a thread which is to go where it is stays.
main:
  li a0, 0
  li a1, 2
  li a7, 15            # of itself, to node 2: -1
  ecall
  li a0, 0
  li a1, 0
  li a7, 15            # of itself, to where it is: 0
  ecall
  la a0, slow
  li a1, 0
  li a2, 2
  li a7, 6             # 0.1 runs when nobody else can
  ecall
  li a1, 0
  li a7, 15            # to where it is: 0
  ecall
  li a0, 1
  li a1, 2
  li a7, 15            # to node 2: -1
  ecall
  li a0, 0
  li a7, 9             # semaphore 0
  ecall
  la a0, waits
  li a1, 0
  li a2, 7
  li a7, 6             # 0.2 waits for the semaphore before main goes on
  ecall
  li a1, 1
  li a7, 15            # it waits: -3
  ecall
  la a0, slow
  li a1, 0
  li a2, 7
  li a7, 6             # 0.3 has ended before main goes on
  ecall
  li a1, 1
  li a7, 15            # it has ended: -3
  ecall
  li a0, 77
  li a7, 15            # it was never born: -3
  ecall
  li a0, 1
  slli a0, a0, 40
  addi a0, a0, 1
  li a7, 15            # its home would be node 256, whose low byte is 0: -3, and 0.1 stays
  ecall
  li a0, 1
  li a7, 15            # 0.1 leaves for node 1: 0
  ecall
  li a0, 1
  li a7, 15            # it is there: -3
  ecall
  li a0, 0
  li a7, 15            # main goes there, too: 0
  ecall
  li a0, 1
  li a1, 0
  li a7, 15            # 0.1 goes home: 0
  ecall
  li a0, 0
  li a7, 11            # sem_v: 0.2 goes on
  ecall
  ret
waits:
  li a7, 10
  ecall
  ret
slow:
  ret
