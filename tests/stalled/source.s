# Shows: a thread creates one that joins it, and joins that one. Both wait for ever, after just so many events.
main:
  la a0, child
  li a1, 0
  li a2, 3
  li a7, 6
  ecall
  li a7, 7
  ecall
  ret
child:
  li a7, 7
  ecall
  ret
