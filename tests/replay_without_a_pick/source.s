# Shows: a processor has no pick where the lists that cover it have nothing, although a thread is ready elsewhere on the node.
main:
  li a0, 3
  li a1, 2
  li a7, 17            # bubble_new(3, 2): bubble 0
  ecall
  la a1, says
  li a2, 0
  li a3, 3
  li a7, 21            # create_in(0, says, 0, 3): 0.1
  ecall
  li a0, 0
  li a7, 19            # bubble_wake(0)
  ecall
  ret
says:
  la a0, text
  li a1, 4
  li a7, 16            # print
  ecall
  ret
text:
  .ascii "here"
