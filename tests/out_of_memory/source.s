# Shows: a program that never stops, in 20,000 KB of memory: the trace outgrows them, and the program says so.
main:
  li a7, 5             # yield
  ecall
  j main
