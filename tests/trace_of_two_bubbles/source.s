# Shows: a bubble in a bubble on a tree of two groups of two processors. It goes down to its group and bursts there; the inner one goes down to a processor once its turn comes, since it ties with main and is deeper.
main:
  li a0, 5
  li a1, 1
  li a7, 17            # bubble_new(5, 1): bubble 0 is of priority 5 and bursts at depth 1
  ecall
  li a0, 3
  li a1, 2
  ecall                # bubble_new(3, 2): bubble 1
  li a0, 1
  la a1, over
  li a2, 0
  li a3, 4
  li a7, 21            # create_in(1, over, 0, 4): 0.1
  ecall
  li a0, 0
  li a1, 1
  li a7, 18            # bubble_insert(0, 1)
  ecall
  li a0, 0
  la a1, over
  li a3, 6
  li a7, 21            # create_in(0, over, 0, 6): 0.2
  ecall
  li a0, 0
  la a1, over
  li a3, 5
  ecall                # create_in(0, over, 0, 5): 0.3
  li a0, 0
  li a7, 19            # bubble_wake(0)
  ecall
over:
  ret
