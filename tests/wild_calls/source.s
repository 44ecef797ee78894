# Shows: calls whose arguments no program means: bytes over the end of the stack and of all memory, a block of all there can be, names of nobody, entries beside a word and at the stub, numbers of no call.
main:
  addi a0, sp, -8    # print of the stack's last 8 bytes and of 8 behind it: -1
  li a1, 16
  li a7, 16
  ecall
  li a0, -1          # print of the last byte of all, and of the first: -1
  li a1, 2
  ecall
  li a0, -1          # isomalloc: -7
  li a7, 12
  ecall
  li a0, -16         # isofree: -2
  li a7, 13
  ecall
  li a0, -1          # join on a node that isn't there: -2
  li a7, 7
  ecall
  li a0, 1           # join of a thread that wasn't born: heard, and -2
  ecall
  li a0, 0x10002     # create in the midst of a word: -1
  li a1, 9
  li a2, 3
  li a7, 6
  ecall
  li a0, 0x10000     # create at the stub: a thread that exits with its argument
  ecall
  li a7, 7           # join of it: 0, and 9
  ecall
  mv s0, a1
  li a7, 26          # no call: -1
  ecall
  li a7, -1          # no call: -1
  ecall
  mv a0, s0
  ret
