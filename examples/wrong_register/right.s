g:
movq %rsi,%rax
ret
