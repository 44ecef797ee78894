# Shows: a block longer than all slots but one waits for the turn of its node, where there are none for it; a thread that asks meanwhile for what the node has is served at once.
main:
  la a0, long
  li a1, 0
  li a2, 3
  li a7, 6             # 0.1
  ecall
  la a0, last
  li a7, 6             # 0.2, though 0.1 waits
  ecall
  li a0, 1
  li a7, 12            # a block, though 0.1 waits
  ecall
last:
  ret
long:
  li a0, 262144
  li a7, 12            # four slots, of which main has one: -4
  ecall
  ret
