# Shows: threads that move by their own call and by acts: what a thread prints on another node goes to node 0 and back, its end goes home, and the answer of a join goes where the joiner is.
main:
  la a0, walker
  li a1, 3
  li a2, 3
  li a7, 6
  ecall
  mv s0, a0
  li a0, 1
  li a7, 14            # main goes to node 1
  ecall
  mv a0, s0
  li a7, 7
  ecall
  mv a0, a1
  ret
walker:
  li a0, 9
  li a7, 14            # no such node: -1
  ecall
  li a0, 0
  li a7, 14            # it is there
  ecall
  la a0, text
  li a1, 4
  li a7, 16
  ecall
  li a0, 5
  ret
text:
  .ascii "here"
