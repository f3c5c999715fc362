f:
movq %rdi,%rax
addq %rdi,%rax
addq %rdi,%rax
addq %rdi,%rax
ret
