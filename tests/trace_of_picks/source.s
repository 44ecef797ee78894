# Shows: which thread a processor picks: the greatest priority before the deepest list, the deepest list before who came first. A thread comes back to the list from which it was picked, also after a quantum; on another node it begins on the root.
main:
  li a0, 3
  li a1, 2
  li a7, 17            # bubble_new(3, 2): bubble 0
  ecall
  la a1, yields
  li a2, 0
  li a3, 3
  li a7, 21            # create_in(0, yields, 0, 3): 0.1
  ecall
  li a0, 0
  la a1, counts
  li a3, 3
  ecall                # create_in(0, counts, 0, 3): 0.2
  li a0, 0
  li a7, 19            # bubble_wake(0)
  ecall
  la a0, over
  li a1, 0
  li a2, 7
  li a7, 6             # create(over, 0, 7): 0.3, which goes first although it is on the root
  ecall
  la a0, over
  li a2, 0
  ecall                # create(over, 0, 0): 0.4 goes last
  li a0, 0
  li a1, 0
  li a7, 17            # bubble_new(0, 0): bubble 1 of priority 0, and in it a thread of priority 7
  ecall
  li a0, 1
  la a1, over
  li a2, 0
  li a3, 7
  li a7, 21            # create_in(1, over, 0, 7): 0.5
  ecall
  li a0, 1
  li a7, 19            # bubble_wake(1)
  ecall
over:
  li a0, 0
  ret
yields:
  li s0, 6
again:
  li a7, 5             # yield
  ecall
  addi s0, s0, -1
  bnez s0, again
  ret
counts:
  li s0, 100
more:
  addi s0, s0, -1
  bnez s0, more
  ret
