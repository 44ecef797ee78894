# Shows: two threads claim slots, and before their node has its turn two others end. What these give serves nobody before the turn, which serves both: by a birth, and by a run that is taken.
main:
  la a0, creates
  li a1, 0
  li a2, 0             # the four run once main waits
  li a7, 6             # 0.1
  ecall
  la a0, allocates
  li a7, 6             # 0.2
  ecall
  la a0, last
  li a7, 6             # 0.3
  ecall
  la a0, last
  li a7, 6             # 0.4
  ecall
  li a0, 1
  li a7, 7             # join(0.1)
  ecall
  ret
creates:
  la a0, last
  li a1, 0
  li a2, 0
  li a7, 6             # 0.5, in the turn
  ecall
  ret
allocates:
  li a0, 1
  li a7, 12            # a block, in the turn
  ecall
  ret
last:
  ret
