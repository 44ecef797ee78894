# Shows: a thread that stores into the image faults, and the image is as it was.
main:
  la a0, job
  li a1, 0
  li a2, 3
  li a7, 6
  ecall
  li a7, 7
  ecall              # 1, and 6: a store
  mv s0, a1
  la a0, text
  li a1, 2
  li a7, 16
  ecall
  mv a0, s0
  ret
job:
  la t0, text
  sb zero, 0(t0)
  ret
text:
  .ascii "hi"
