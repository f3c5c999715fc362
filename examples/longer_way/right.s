g:
addq %rdi,%rdi
addq %rdi,%rdi
movq %rdi,%rax
subq $-2147483648,%rax
addq $-2147483648,%rax
ret
