# Shows: li has as many instructions as its number wants, by one rule for all numbers.
main:
  li a0, 0x12345678
  li a0, 0x100000000
  li a0, 0x7fffffff
  li a0, -2048
  li a0, 2048
  li a0, 0x7fffffffffffffff
