# Shows: threads that nobody wakes, in a bubble that is filling and in one that it holds: the program is stalled.
main:
  li a0, 3
  li a1, 0
  li a7, 17            # bubble_new(3, 0): bubble 0
  ecall
  li a0, 3
  li a1, 0
  ecall                # bubble_new(3, 0): bubble 1
  li a0, 1
  la a1, over
  li a2, 0
  li a3, 3
  li a7, 21            # create_in(1, over, 0, 3): 0.1
  ecall
  li a0, 0
  li a1, 1
  li a7, 18            # bubble_insert(0, 1)
  ecall
  li a0, 0
  la a1, over
  li a7, 21            # create_in(0, over, 0, 3): 0.2
  ecall
over:
  ret
