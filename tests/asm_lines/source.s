# Shows: what a line may be: nothing, blanks, a comment, a label, a statement, or a label and a statement; and the bytes of data.
.text
.globl main
main: .word 0x00000517, 0x6968
.dword main, -2
.ascii "\0\n\\\""

 	 
a:
b : nop # b
add: nop # é
jal ra
ra:
lw a0 , 8 ( sp )
li a0, 18446744073709551615
a1234567890123456789012345678901234567890123456789012345678901_.:
.globl nowhere
.service 255, add

 .byte -1,0x10
.ascii "a\t#\0"
.byte-5
.ascii"x"
.ascii "# \n\t\\\"\0"
.byte -128, 255
.dword 1, main, -9223372036854775808
