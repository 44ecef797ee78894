# Shows: instructions and pseudo instructions with the words that LLVM's assembler gives them.
main:
  addi sp, sp, -16
  sd ra, 8(sp)
  ld x1, 0x8(x2)
  lui a0, 0x12345
  srai a0, a0, 63
  sraiw a0, a0, 31
  fence
  ecall
  ebreak
  nop
  mv a0, s1
  not a0, a1
  neg a0, a1
  negw a0, a1
  sext.w a0, a1
  seqz a0, a1
  snez a0, a1
  sltz a0, a1
  sgtz a0, a1
  jr ra
  jalr ra
  jalr zero, 0(ra)
  ret
  auipc t6, 0xFfFff
again: blt a0, a1, again
  bgtu a0, a1, again
  jal again
  fence
  bgt a0, a1, done
done:
