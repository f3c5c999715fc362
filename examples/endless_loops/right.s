g:
.L2:
addq $1,%rax
jmp .L2
