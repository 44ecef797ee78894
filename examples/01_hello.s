# Shows: a print of bytes that stand in the program, and the return that ends the main thread.
main:
  la a0, text
  li a1, 12
  li a7, 16          # print(a0, a1)
  ecall
  ret
text:
  .ascii "hello, world"
