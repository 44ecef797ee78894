# Shows: a barrier of semaphores. Four threads on all nodes walk three steps, and nobody begins a step before all have ended the one before.
main:                  # counts who has come to the barrier, and lets all go on
  li a0, 0
  li a7, 9             # sem_new(0): who comes raises it
  ecall
  mv s0, a0
  li a0, 0
  li a7, 9             # sem_new(0): here they wait behind the first step, and the third
  ecall
  mv s1, a0
  li a0, 0
  li a7, 9             # and here behind the second: who is fast takes nothing that is meant for who is slow
  ecall
  mv s2, a0
  addi t0, s0, 2       # of one node, the names follow one another
  bne s2, t0, main     # main was moved between the calls: once more
  li s3, 4
births:
  la a0, walks
  mv a1, s0            # so each thread is told the first name alone
  li a2, 3
  li a7, 6             # create(entry, argument, priority)
  ecall
  addi s3, s3, -1
  bnez s3, births
  li s4, 3
steps:
  li s3, 4
comes:
  mv a0, s0
  li a7, 10            # sem_p(name): one more has come
  ecall
  addi s3, s3, -1
  bnez s3, comes
  li s3, 4
goes:
  mv a0, s1
  li a7, 11            # sem_v(name): one more goes on
  ecall
  addi s3, s3, -1
  bnez s3, goes
  mv t0, s1            # behind the next step they wait at the other one
  mv s1, s2
  mv s2, t0
  addi s4, s4, -1
  bnez s4, steps
  ret
walks:
  mv s0, a0
  addi s1, a0, 1
  addi s2, a0, 2
  li a7, 2             # self()
  ecall
  mv s3, a0
  li a7, 4             # nodes()
  ecall
  remu a0, s3, a0
  li a7, 14            # migrate_self(node)
  ecall
  la s3, texts
  li s4, 3
walk:
  mv a0, s3
  li a1, 6
  li a7, 16            # print(address, bytes)
  ecall
  mv a0, s0
  li a7, 11            # sem_v(name): it has come to the barrier
  ecall
  mv a0, s1
  li a7, 10            # sem_p(name): it waits until all have
  ecall
  mv t0, s1
  mv s1, s2
  mv s2, t0
  addi s3, s3, 6
  addi s4, s4, -1
  bnez s4, walk
  ret
texts:
  .ascii "step 1step 2step 3"
