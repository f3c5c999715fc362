g:
movq %rsi,%rax
addq %rdi,%rax
ret
