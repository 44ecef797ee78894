# Shows: a thread that calls halt ends the program, though another one could run and print.
main:
  la a0, halting
  li a1, 7
  li a7, 16          # print
  ecall
  la a0, other
  li a1, 0
  li a2, 0           # the least priority: the main thread runs first
  li a7, 6           # create(entry, argument, priority)
  ecall
  bltz a0, wrong
  li a7, 25          # halt
  ecall
wrong:
  ebreak
other:
  la a0, late
  li a1, 4
  li a7, 16
  ecall
  ret
halting:
  .ascii "halting"
late:
  .ascii "late"
