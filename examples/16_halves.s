# Shows: divide and conquer: the numbers from 1 to 400 are added up by four threads, with a bubble for the whole, one for each half and one for each quarter. The halves go to different groups of processors where both are there to pick them.
#
# Main puts the bubbles into each other before it wakes the outermost one:
#
#   the whole, bursts at depth 0
#     the left half, bursts at depth 1
#       the quarter 1 to 100, bursts at depth 2        a thread
#       the quarter 101 to 200                         a thread
#     the right half
#       the quarter 201 to 300                         a thread
#       the quarter 301 to 400                         a thread
#
# With `--tree 2x2` they fall through the run lists like this, where processor 0 picks first and then processor 2 does:
#
#   list 0, the root: all four processors        the whole bursts: both halves stand here
#     list 1: processors 0 and 1                 the left half goes down and bursts: two quarters stand here
#       list 3: processor 0                      the first quarter goes down and bursts: its thread runs here alone
#       list 4: processor 1                      the second quarter, if processor 1 picks it
#     list 2: processors 2 and 3                 the right half goes down and bursts
#       list 5: processor 2                      the third quarter
#       list 6: processor 3                      the fourth quarter, if processor 3 picks it
#
# A processor that finds nothing on the lists that cover it takes nothing from another's.
main:
  addi sp, sp, -32
  mv s0, sp            # where the threads' names go
  li a0, 1
  li a1, 401
  li a2, 0
  jal build
  li a7, 19            # bubble_wake(the whole)
  ecall
  mv s0, sp
  jal half
  mv s1, a0
  jal half
  add a0, a0, s1
  jal show
  li a0, 0
  li a7, 1             # exit
  ecall
build:                 # makes a bubble for the numbers from a0 to below a1, at depth a2, and all that is in it; its name comes in a0
  addi sp, sp, -48
  sd ra, 0(sp)
  sd s1, 8(sp)
  sd s2, 16(sp)
  sd s3, 24(sp)
  sd s4, 32(sp)
  mv s1, a0
  mv s2, a1
  mv s3, a2
  li a0, 4
  mv a1, s3
  li a7, 17            # bubble_new(priority, depth)
  ecall
  mv s4, a0
  li t0, 2
  beq s3, t0, quarter
  mv a0, s1
  add a1, s1, s2
  srli a1, a1, 1
  addi a2, s3, 1
  jal build
  mv a1, a0
  mv a0, s4
  li a7, 18            # bubble_insert(bubble, its left part)
  ecall
  add a0, s1, s2
  srli a0, a0, 1
  mv a1, s2
  addi a2, s3, 1
  jal build
  mv a1, a0
  mv a0, s4
  li a7, 18            # bubble_insert(bubble, its right part)
  ecall
  j built
quarter:
  mv a0, s4
  la a1, adds
  slli a2, s1, 32      # both ends in one argument
  or a2, a2, s2
  li a3, 4
  li a7, 21            # create_in(bubble, entry, argument, priority)
  ecall
  sd a0, 0(s0)
  addi s0, s0, 8
built:
  mv a0, s4
  ld s4, 32(sp)
  ld s3, 24(sp)
  ld s2, 16(sp)
  ld s1, 8(sp)
  ld ra, 0(sp)
  addi sp, sp, 48
  ret
adds:                  # what a thread does: it adds up its quarter and exits with the sum
  srli t0, a0, 32
  slli t1, a0, 32
  srli t1, t1, 32
  li a0, 0
more:
  add a0, a0, t0
  addi t0, t0, 1
  bne t0, t1, more
  ret
half:                  # joins the next two threads and shows the sum of what they found
  addi sp, sp, -16
  sd ra, 0(sp)
  ld a0, 0(s0)
  li a7, 7             # join: the value comes in a1
  ecall
  mv s2, a1
  ld a0, 8(s0)
  ecall
  addi s0, s0, 16
  add a0, a1, s2
  jal show
  ld ra, 0(sp)
  addi sp, sp, 16
  ret
show:                  # prints the number in a0, of five digits, and leaves it there
  mv t4, a0
  addi sp, sp, -16
  li t0, 10
  li t2, 5
digit:
  remu t1, a0, t0
  divu a0, a0, t0
  addi t1, t1, 48
  add t3, sp, t2
  sb t1, -1(t3)
  addi t2, t2, -1
  bnez t2, digit
  mv a0, sp
  li a1, 5
  li a7, 16            # print(address, bytes)
  ecall
  mv a0, t4
  addi sp, sp, 16
  ret
