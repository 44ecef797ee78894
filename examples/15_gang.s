# Shows: a gang, three threads in a bubble that bursts on the run list of a group of processors. They hand a turn round, so their lines stand in the same order on each tree.
#
# With `--tree 2x2` each node has these run lists. The bubble arrives on the root. The first processor that picks it takes it down one level, to
# the list of its group, and there it bursts: from then on the gang runs on the two processors of that group alone.
#
#   list 0, the root: all four processors        main
#     list 1: processors 0 and 1                 the gang, if 0 or 1 picks its bubble
#       list 3: processor 0
#       list 4: processor 1
#     list 2: processors 2 and 3                 the gang, if 2 or 3 picks it
#       list 5: processor 2
#       list 6: processor 3
main:
  li a0, 1
  li a7, 9             # sem_new(1): it is the first one's turn
  ecall
  mv s0, a0
  li a0, 0
  ecall                # sem_new(0): the second one's, of the next name
  li a0, 0
  ecall                # sem_new(0): the third one's
  li a0, 5
  li a1, 1
  li a7, 17            # bubble_new(priority, depth): it bursts one level below the root
  ecall
  mv s1, a0
  la a1, first
  mv a2, s0            # each thread gets the first semaphore's name
  li a3, 5
  li a7, 21            # create_in(bubble, entry, argument, priority)
  ecall
  mv s2, a0
  mv a0, s1
  la a1, second
  ecall
  mv s3, a0
  mv a0, s1
  la a1, third
  ecall
  mv s4, a0
  mv a0, s1
  li a7, 19            # bubble_wake(bubble): until now none of the three could run
  ecall
  mv a0, s2
  li a7, 7             # join
  ecall
  mv a0, s3
  ecall
  mv a0, s4
  ecall
  la a0, done
  li a1, 20
  li a7, 16            # print(address, bytes)
  ecall
  ret
first:
  mv s0, a0            # one's own semaphore
  addi s1, a0, 1       # the next one's
  la s2, texts
  li s3, 5             # the text's bytes
  j plays
second:
  addi s0, a0, 1
  addi s1, a0, 2
  la s2, texts
  addi s2, s2, 5
  li s3, 6
  j plays
third:
  addi s0, a0, 2
  mv s1, a0
  la s2, texts
  addi s2, s2, 11
  li s3, 5
plays:
  li s4, 2
again:
  mv a0, s0
  li a7, 10            # sem_p(name): waits for one's turn
  ecall
  mv a0, s2
  mv a1, s3
  li a7, 16            # print
  ecall
  mv a0, s1
  li a7, 11            # sem_v(name): the next one's turn
  ecall
  addi s4, s4, -1
  bnez s4, again
  ret
texts:
  .ascii "firstsecondthird"
done:
  .ascii "all three have ended"
