# Shows: the forms of multiplications and divisions, and their words: those of the manual's table, in its R format.
main:
  mul a0, a0, a1
  mulh a0, a0, a1
  mulhsu a0, a0, a1
  mulhu a0, a0, a1
  div a0, a0, a1
  divu a0, a0, a1
  rem a0, a0, a1
  remu a0, a0, a1
  mulw a0, a0, a1
  divw a0, a0, a1
  divuw a0, a0, a1
  remw a0, a0, a1
  remuw a0, a0, a1
  mul t6, ra, sp
  remu zero, t0, t6
  remuw ra, zero, a7
