f:
.L1:
jmp .L1
