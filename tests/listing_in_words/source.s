# Shows: what `asm` writes of the same image, word by word.
main:
.word 0x00000517
.word 0x01850513
.word 0x00200593
.word 0x01000893
.word 0x00000073
.word 0x00008067
.word 0x00006968
