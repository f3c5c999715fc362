f:
movq %rdi,%rax
ret
