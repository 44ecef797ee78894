# Shows: main asks for a thread in a bubble, and waits for a slot. When there is one, another thread has woken the bubble: the new thread arrives on the root, and it is no member, although its birth names the bubble.
main:
  li a0, 3
  li a1, 0
  li a7, 17            # bubble_new(3, 0): bubble 0
  ecall
  la a1, over
  li a2, 0
  li a3, 1
  li a7, 21            # create_in(0, over, 0, 1): 0.1
  ecall
  la a0, wakes
  li a1, 0
  li a2, 2
  li a7, 6             # create(wakes, 0, 2): 0.2, which has the last slot
  ecall
  li a0, 0
  la a1, over
  li a2, 0
  li a3, 1
  li a7, 21            # create_in(0, over, 0, 1): 0.3, at the turn
  ecall
  li a0, 0
  li a7, 20            # bubble_gather(0): 1, of 0.1 and 0.3, which are on the root, the first
  ecall
  li a0, 0
  li a7, 19            # bubble_wake(0)
  ecall
over:
  ret
wakes:
  li a0, 0
  li a7, 19            # bubble_wake(0)
  ecall
  ret
