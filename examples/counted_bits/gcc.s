	.file	"bits.c"
	.text
	.globl	f
	.type	f, @function
f:
.LFB0:
	.cfi_startproc
	testq	%rsi, %rsi
	je	.L6
	movq	%rdi, %r8
	leaq	(%rdi,%rsi,4), %rsi
	movl	$0, %edx
.L5:
	movl	(%r8), %eax
	testl	%eax, %eax
	je	.L3
.L4:
	movl	%eax, %ecx
	andl	$1, %ecx
	addl	%ecx, %edx
	shrl	%eax
	jne	.L4
.L3:
	addq	$4, %r8
	cmpq	%rsi, %r8
	jne	.L5
.L1:
	movl	%edx, %eax
	ret
.L6:
	movl	$0, %edx
	jmp	.L1
	.cfi_endproc
.LFE0:
	.size	f, .-f
	.ident	"GCC: (Debian 12.2.0-14+deb12u1) 12.2.0"
	.section	.note.GNU-stack,"",@progbits
