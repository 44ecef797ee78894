# Shows: who leaves a burst bubble: a member that ends, one that goes to another node, one that is sent there, and at bubble_gather one that waits, the one that gathers, and a burst bubble. A ready thread and a queued bubble are held again.
main:
  li a0, 4
  li a1, 0
  li a7, 17            # bubble_new(4, 0): bubble 0
  ecall
  li a0, 5
  li a1, 0
  ecall                # bubble_new(5, 0): bubble 1
  li a0, 1
  li a1, 0
  ecall                # bubble_new(1, 0): bubble 2
  li a0, 0
  la a1, over
  li a2, 0
  li a3, 5
  li a7, 21            # create_in(0, over, 0, 5): 0.1 ends
  ecall
  li a0, 0
  la a1, goes
  ecall                # create_in(0, goes, 0, 5): 0.2 goes to node 1
  li a0, 0
  la a1, waits
  ecall                # create_in(0, waits, 0, 5): 0.3 waits for main's end
  li a0, 0
  la a1, gathers
  li a3, 4
  ecall                # create_in(0, gathers, 0, 4): 0.4 gathers the bubble
  li a0, 0
  la a1, over
  li a3, 2
  ecall                # create_in(0, over, 0, 2): 0.5 stays on the list
  li a0, 0
  la a1, over
  ecall                # create_in(0, over, 0, 2): 0.6 is moved to node 1
  li a0, 1
  la a1, over
  ecall                # create_in(1, over, 0, 2): 0.7
  li a0, 2
  la a1, over
  ecall                # create_in(2, over, 0, 2): 0.8
  li a0, 0
  li a1, 1
  li a7, 18            # bubble_insert(0, 1): it bursts
  ecall
  li a0, 0
  li a1, 2
  ecall                # bubble_insert(0, 2): it stays on the list
  li a0, 0
  li a7, 19            # bubble_wake(0)
  ecall
  li a0, 0
  ecall                # bubble_wake(0) once more, of 0.5 and bubble 2
over:
  li a0, 0
  ret
goes:
  li a0, 1
  li a7, 14            # migrate_self(1)
  ecall
  ret
waits:
  li a0, 0
  li a7, 7             # join(0.0)
  ecall
  ret
gathers:
  li a0, 0
  li a7, 20            # bubble_gather(0): 2
  ecall
  ret
