g:
movq %rdi,%rax
addq $2,%rax
ret
