# Shows: a fault. The image can be read and not written: the store ends the thread, and nothing of it is done.
main:
  la t0, text
  li t1, 72
  sb t1, 0(t0)
  la a0, text        # it doesn't come to this
  li a1, 3
  li a7, 16
  ecall
  ret
text:
  .ascii "hi!"
