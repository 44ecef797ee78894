# Shows: rounds with three processors. In a pass a node takes a packet, and then each processor runs that has a pick when its place comes, until nothing is left to do or the round has 64 entries.
main:
  li a0, 3
  li a1, 1
  li a7, 17            # bubble_new(3, 1): bubble 0
  ecall
  la a1, works
  li a2, 0
  li a3, 3
  li a7, 21            # create_in(0, works, 0, 3): 0.1
  ecall
  li a0, 0
  la a1, works
  ecall                # create_in(0, works, 0, 3): 0.2
  la a0, says
  li a1, 0
  li a2, 3
  li a7, 6             # create(says, 0, 3): 0.3
  ecall
  la a0, works
  li a1, 0
  ecall                # create(works, 0, 3): 0.4
  li a0, 0
  li a7, 19            # bubble_wake(0): its threads are processor 0's, the others have what is on the root
  ecall
works:
  li s0, 24
again:
  li a7, 5             # yield
  ecall
  addi s0, s0, -1
  bnez s0, again
  ret
says:
  la a0, text
  li a1, 4
  li a7, 16            # print
  ecall
  ret
text:
  .ascii "here"
