# Shows: two bubbles, one in the other, that burst on the root. While main waits for the thread in them, the lists have a bubble alone, and nothing is under way: the program isn't stalled.
main:
  li a0, 2
  li a1, 0
  li a7, 17            # bubble_new(2, 0): bubble 0
  ecall
  li a0, 2
  li a1, 0
  ecall                # bubble_new(2, 0): bubble 1
  li a0, 1
  la a1, over
  li a2, 0
  li a3, 2
  li a7, 21            # create_in(1, over, 0, 2): 0.1
  ecall
  li a0, 0
  li a1, 1
  li a7, 18            # bubble_insert(0, 1)
  ecall
  li a0, 0
  li a7, 19            # bubble_wake(0)
  ecall
  li a0, 1
  li a7, 7             # join(0.1)
  ecall
over:
  ret
