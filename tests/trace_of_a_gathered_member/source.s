# Shows: bubble_gather of a burst bubble that is a member of a burst one: it leaves that one, and can be put into it again, or the other way round.
main:
  li a0, 4
  li a1, 0
  li a7, 17            # bubble_new(4, 0): bubble 0
  ecall
  li a0, 4
  li a1, 0
  ecall                # bubble_new(4, 0): bubble 1
  li a0, 1
  la a1, over
  li a2, 0
  li a3, 2
  li a7, 21            # create_in(1, over, 0, 2): 0.1
  ecall
  li a0, 0
  li a1, 1
  li a7, 18            # bubble_insert(0, 1)
  ecall
  li a0, 0
  la a1, over
  li a7, 21            # create_in(0, over, 0, 2): 0.2
  ecall
  li a0, 0
  li a7, 19            # bubble_wake(0): both burst on the root before main runs again
  ecall
  li a0, 1
  li a7, 20            # bubble_gather(1): 1, 0.1; and it leaves bubble 0
  ecall
  li a0, 0
  ecall                # bubble_gather(0): 1, 0.2
  li a0, 0
  li a1, 1
  li a7, 18            # bubble_insert(0, 1): it stands behind 0.2 now
  ecall
  li a0, 0
  li a7, 19            # bubble_wake(0): both burst
  ecall
  li a0, 0
  li a7, 20            # bubble_gather(0): 1, 0.2; bubble 1 is burst, and leaves
  ecall
  li a0, 1
  ecall                # bubble_gather(1): 1, 0.1
  li a0, 1
  li a1, 0
  li a7, 18            # bubble_insert(1, 0)
  ecall
  li a0, 0
  li a7, 19            # bubble_wake(0): -5, it is held
  ecall
  li a0, 1
  ecall                # bubble_wake(1): both burst
over:
  li a0, 0
  ret
