# Shows: the acts from which is drawn where nodes have several processors: for each node a run of each processor that has a pick, then takes, then moves.
main:
  li a0, 3
  li a1, 2
  li a7, 17            # bubble_new(3, 2): bubble 0
  ecall
  la a1, works
  li a2, 0
  li a3, 3
  li a7, 21            # create_in(0, works, 0, 3): 0.1
  ecall
  li a0, 0
  la a1, works
  ecall                # create_in(0, works, 0, 3): 0.2
  la a0, works
  li a1, 0
  li a2, 3
  li a7, 6             # create(works, 0, 3): 0.3
  ecall
  li a0, 0
  li a7, 19            # bubble_wake(0)
  ecall
works:
  li s0, 4
again:
  li a7, 5             # yield
  ecall
  addi s0, s0, -1
  bnez s0, again
  ret
