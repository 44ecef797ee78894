# Shows: every answer of a detach: of a node that isn't there, of a thread that wasn't born, of one that another waits for, of one that lives, again, of one that has ended, of oneself; and that nobody joins a detached thread.
main:
  li a0, 9
  slli a0, a0, 32
  li a7, 8             # node 9: -2, at once
  ecall
  li a0, 77
  li a7, 8             # not born: -2
  ecall
  la a0, slow
  li a1, 7
  li a2, 2
  li a7, 6             # 0.1 runs when nobody else can
  ecall
  la a0, waits
  li a1, 1             # 0.2 joins 0.1
  li a2, 7
  li a7, 6
  ecall
  li a0, 1
  li a7, 8             # another waits for it: -5
  ecall
  la a0, slow
  li a1, 0
  li a2, 2
  li a7, 6             # 0.3
  ecall
  li a7, 8             # it lives: 0
  ecall
  li a0, 3
  li a7, 8             # again: -2
  ecall
  li a0, 3
  li a7, 7             # a join of it: -2
  ecall
  la a0, slow
  li a1, 0
  li a2, 7
  li a7, 6             # 0.4 has ended before main goes on
  ecall
  li a0, 4
  li a7, 8             # its end is known: 0
  ecall
  li a0, 4
  li a7, 7             # a join of it: -2
  ecall
  li a0, 1
  li a7, 14            # main goes to node 1
  ecall
  li a0, 0
  li a7, 8             # it detaches itself: its home answers 0
  ecall
  li a0, 4
  li a7, 8             # joined or detached to its end: -2
  ecall
  ret
waits:
  li a7, 7
  ecall
  mv a0, a1
  ret
slow:
  ret
