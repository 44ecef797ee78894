# Shows: a join of oneself, of a thread that another waits for, of a detached one, of one that ended with 7 on another node, of that again, and of one that ran into a word that is no instruction.
main:
  li a7, 7
  li a0, 0
  ecall                # of oneself: -1
  addi s0, a0, 1
  la a0, slow
  li a1, 0
  li a2, 2
  li a7, 6             # 0.1 runs when nobody else can
  ecall
  la a0, joins
  li a1, 1
  li a2, 7
  li a7, 6             # 0.2 joins it before main does
  ecall
  li a0, 1
  li a7, 7
  ecall                # another waits: -5
  addi a0, a0, 5
  or s0, s0, a0
  la a0, slow
  li a1, 0
  li a2, 2
  li a7, 6             # 0.3
  ecall
  li a7, 8             # detach: 0
  ecall
  or s0, s0, a0
  li a0, 3
  li a7, 7
  ecall                # -2
  addi a0, a0, 2
  or s0, s0, a0
  la a0, goes
  li a1, 0
  li a2, 3
  li a7, 6             # 0.4
  ecall
  li a7, 7
  ecall                # 0, and 7
  or s0, s0, a0
  addi a1, a1, -7
  or s0, s0, a1
  li a0, 4
  ecall                # again: -2
  addi a0, a0, 2
  or s0, s0, a0
  la a0, fails
  li a1, 0
  li a2, 3
  li a7, 6             # 0.5
  ecall
  li a7, 7
  ecall                # 1, and 1
  addi a0, a0, -1
  or s0, s0, a0
  addi a1, a1, -1
  or s0, s0, a1
  bnez s0, wrong
  la a0, text
  li a1, 15
  li a7, 16
  ecall
  ret
wrong:
  ebreak
joins:
  li a7, 7
  ecall
slow:
  ret
goes:
  li a0, 1
  li a7, 14
  ecall
  li a0, 7
  ret
fails:
  .word 0
text:
  .ascii "as they must be"
