# Shows: each refusal of the calls on bubbles: names of no node, of another one and of nothing, a bubble into itself, and bubbles that are empty, held, queued and burst; migrate of a thread inside a bubble.
main:
  li s0, 2
  slli s0, s0, 32      # a name of a node that isn't there
  li s1, 1
  slli s1, s1, 32      # a name of node 1
  li s2, 9             # a name that node 0 hasn't made
  la s3, over
  li a0, 8
  li a1, 0
  li a7, 17            # bubble_new: the priority, -1; the depth, -1; both at their ends, 0, 1, and one more, 2
  ecall
  li a0, 0
  li a1, 3
  ecall
  li a0, 0
  li a1, 2
  ecall
  li a0, 7
  li a1, 0
  ecall
  li a0, 1
  li a1, 1
  ecall
# Names, and bubbles that are empty.
  li a0, 0
  li a1, 0
  li a7, 18            # bubble_insert of a bubble into itself, -1; also of one that isn't there, -1
  ecall
  mv a0, s2
  mv a1, s2
  ecall
  mv a0, s0            # the first: -2, -3, -2
  li a1, 0
  ecall
  mv a0, s1
  li a1, 0
  ecall
  mv a0, s2
  li a1, 0
  ecall
  li a0, 0             # the second: -2, -3, -2
  mv a1, s0
  ecall
  li a0, 0
  mv a1, s1
  ecall
  li a0, 0
  mv a1, s2
  ecall
  li a0, 0             # an empty one: -1
  li a1, 1
  ecall
  mv a0, s0
  li a7, 19            # bubble_wake: -2, -3, -2, and an empty one, -1
  ecall
  mv a0, s1
  ecall
  mv a0, s2
  ecall
  li a0, 0
  ecall
  mv a0, s0
  li a7, 20            # bubble_gather: -2, -3, -2, and one that is filling, -5
  ecall
  mv a0, s1
  ecall
  mv a0, s2
  ecall
  li a0, 0
  ecall
  mv a0, s2
  addi a1, s3, 2
  li a2, 0
  li a3, 0
  li a7, 21            # create_in: the entry, -1, -1; the priority, -1, all before the name; the name, -2, -3, -2
  ecall
  mv a0, s2
  li a1, 0
  ecall
  mv a0, s2
  mv a1, s3
  li a3, 8
  ecall
  mv a0, s0
  li a3, 0
  ecall
  mv a0, s1
  ecall
  mv a0, s2
  ecall
# A thread in bubble 1, which bubble 0 holds: 0.1, of the greatest priority.
  li a0, 1
  li a3, 7
  ecall
  li a0, 0
  li a1, 1
  li a7, 18
  ecall
  li a0, 1             # into the held one, an empty one and its holder: -5, -5; the held one once more, and into another: -5, -5
  li a1, 2
  ecall
  li a0, 1
  li a1, 0
  ecall
  li a0, 0
  li a1, 1
  ecall
  li a0, 2
  li a1, 1
  ecall
  li a0, 1
  li a7, 19            # the held one is woken, gathered, and gets a thread: -5 each
  ecall
  li a0, 1
  li a7, 20
  ecall
  li a0, 1
  mv a1, s3
  li a7, 21
  ecall
  li a0, 1
  li a1, 1
  li a7, 15            # migrate of 0.1, which is inside a bubble: -3
  ecall
# Bubble 0 of priority 0 is queued.
  li a0, 0
  li a7, 19            # 0
  ecall
  li a0, 0             # it is woken again, gathered, gets a bubble, is one's member, gets a thread: -5 each
  ecall
  li a0, 0
  li a7, 20
  ecall
  li a0, 0
  li a1, 2
  li a7, 18
  ecall
  li a0, 2
  li a1, 0
  ecall
  li a0, 0
  mv a1, s3
  li a7, 21
  ecall
  li a0, 1
  li a1, 1
  li a7, 15            # 0.1 still is inside a bubble: -3
  ecall
  li a0, 1
  li a7, 7             # join(0.1): both burst, and it ends
  ecall
# Both are burst.
  li a0, 0
  li a7, 19            # bubble 0 is woken, gets a bubble, is one's member, gets a thread: -5 each
  ecall
  li a0, 0
  li a1, 2
  li a7, 18
  ecall
  li a0, 2
  li a1, 0
  ecall
  li a0, 0
  mv a1, s3
  li a7, 21
  ecall
  li a0, 0
  li a7, 20            # bubble_gather(0): 0, since bubble 1 is burst; then it is filling, -5
  ecall
  li a0, 0
  ecall
  li a0, 1
  ecall                # bubble_gather(1): 0, since 0.1 has ended
  li a0, 0
  li a1, 1
  li a7, 18            # bubble 1 is empty again: -1
  ecall
  li a0, 0
  li a7, 19            # and bubble 0: -1
  ecall
over:
  li a0, 0
  ret
