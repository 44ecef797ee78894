# Shows: data. Bytes, words, double words, text with escapes, and zeros up to a multiple.
main:
  la t0, table
  ld a0, 8(t0)       # the address of the text, from the table
  lbu a1, 0(t0)      # its length
  li a7, 16
  ecall
  lw t1, 16(t0)
  li t2, -2
  bne t1, t2, bad
  ret
bad:
  ebreak
  .align 3
table:
  .byte 11
  .align 3
  .dword text
  .word 0xfffffffe
text:
  .ascii "tab\tquote\"\\"
