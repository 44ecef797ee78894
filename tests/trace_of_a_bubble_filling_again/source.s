# Shows: main asks for a thread in a bubble, and waits for a slot. Meanwhile the bubble has been woken, has burst, and is gathered: when there is a slot it is filling, so the new thread is its last member.
main:
  li a0, 3
  li a1, 0
  li a7, 17            # bubble_new(3, 0): bubble 0
  ecall
  la a1, over
  li a2, 0
  li a3, 1
  li a7, 21            # create_in(0, over, 0, 1): 0.1
  ecall
  la a0, gathers
  li a1, 0
  li a2, 2
  li a7, 6             # create(gathers, 0, 2): 0.2, which has the last slot
  ecall
  li a0, 0
  la a1, over
  li a2, 0
  li a3, 1
  li a7, 21            # create_in(0, over, 0, 1): 0.3, at the turn
  ecall
  li a0, 0
  li a7, 19            # bubble_wake(0)
  ecall
over:
  ret
gathers:
  li a0, 0
  li a7, 19            # bubble_wake(0)
  ecall
  li a0, 0
  li a7, 20            # bubble_gather(0): 1
  ecall
  ret
