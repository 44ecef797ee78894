# Shows: two threads that take turns. Each waits for its own semaphore before it prints and raises the other's after that, so the lines alternate in every order of events.
main:
  li a0, 1
  li a7, 9             # sem_new(1): it is main's turn first
  ecall
  mv s0, a0
  li a0, 0
  li a7, 9             # sem_new(0): and not yet the other's
  ecall
  mv s1, a0
  addi t0, s0, 1       # of one node, the names follow one another
  bne s1, t0, main     # main was moved between the two calls: once more
  la a0, other
  mv a1, s0            # so the other is told the first name alone
  li a2, 3
  li a7, 6             # create(entry, argument, priority)
  ecall
  la s2, ping
  j begin
other:
  mv s1, a0
  addi s0, a0, 1
  li a7, 4             # nodes()
  ecall
  addi a0, a0, -1
  li a7, 14            # migrate_self(node): to the last node
  ecall
  la s2, pong
begin:                 # s0 is one's own semaphore, s1 the other's, s2 the text
  li s3, 3
again:
  mv a0, s0
  li a7, 10            # sem_p(name): waits for one's turn
  ecall
  mv a0, s2
  li a1, 4
  li a7, 16            # print(address, bytes)
  ecall
  mv a0, s1
  li a7, 11            # sem_v(name): the other's turn
  ecall
  addi s3, s3, -1
  bnez s3, again
  ret
ping:
  .ascii "ping"
pong:
  .ascii "pong"
