# Shows: of two claims the first is for three slots in a row, which the node doesn't have: that is decided, and its turn is over. The second waits for the next turn, though there is a slot for it.
main:
  la a0, long
  li a1, 0
  li a2, 0             # the three run once main waits
  li a7, 6             # 0.1
  ecall
  la a0, creates
  li a7, 6             # 0.2
  ecall
  la a0, last
  li a7, 6             # 0.3
  ecall
  li a0, 2
  li a7, 7             # join(0.2)
  ecall
  ret
long:
  li a0, 196608
  li a7, 12            # three slots: -4
  ecall
  ret
creates:
  la a0, last
  li a1, 0
  li a2, 0
  li a7, 6             # 0.4, in the second turn
  ecall
last:
  ret
