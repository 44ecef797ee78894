# Shows: a text behind a program, and the listing of both behind the two words of the stub.
main:
  la a0, text
  li a1, 2
  li a7, 16
  ecall
  ret
text:
  .ascii "hi"
