# Shows: three threads that print. Each seed draws an order of their lines; each thread's own lines are the same in all.
main:
  la a0, speak
  la a1, red
  li a2, 3
  li a7, 6           # create(entry, argument, priority)
  ecall
  la a0, speak
  la a1, tan
  li a2, 3
  li a7, 6
  ecall
  la a0, sky
speak:               # yields as often as the byte at a0 says and prints the three bytes behind it, twice
  mv s0, a0
  li s1, 2
again:
  lbu s2, 0(s0)
waits:
  beqz s2, prints
  li a7, 5           # yield()
  ecall
  addi s2, s2, -1
  j waits
prints:
  addi a0, s0, 1
  li a1, 3
  li a7, 16          # print(a0, a1)
  ecall
  addi s1, s1, -1
  bnez s1, again
  ret
sky:
  .byte 0
  .ascii "sky"
red:
  .byte 1
  .ascii "red"
tan:
  .byte 2
  .ascii "tan"
