f:
movq %rdi,%rax
addq %rsi,%rax
ret
