# Shows: two threads race to print. Which line comes first is the schedule's choice, and a kept schedule brings it back.
main:
  la a0, other
  li a1, 0
  li a2, 3
  li a7, 6             # create(other, 0, 3)
  ecall
  la a0, first
  li a1, 4
  li a7, 16            # print
  ecall
  ret
other:
  la a0, second
  li a1, 5
  li a7, 16
  ecall
  ret
first:
  .ascii "main"
second:
  .ascii "other"
