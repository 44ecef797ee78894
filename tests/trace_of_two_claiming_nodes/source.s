# Shows: a thread on each of two nodes claims two slots in a row, which neither node has. The second to ask has its turn once that of the first is over; in the other order again.
main:
  la a0, twice
  li a1, 0
  li a2, 3
  li a7, 6             # 0.1, which is sent to node 1
  ecall
twice:
  li a0, 65537
  li a7, 12            # isomalloc: -4
  ecall
  li a0, 65537
  li a7, 12            # -4
  ecall
  ret
