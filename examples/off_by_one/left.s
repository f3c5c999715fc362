f:
movq %rdi,%rax
addq $1,%rax
ret
