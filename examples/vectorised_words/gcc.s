	.file	"sum.c"
	.text
	.p2align 4
	.globl	f
	.type	f, @function
f:
.LFB0:
	.cfi_startproc
	movq	%rsi, %rdx
	testq	%rsi, %rsi
	je	.L7
	leaq	-1(%rsi), %rax
	cmpq	$6, %rax
	jbe	.L8
	movq	%rsi, %rcx
	movq	%rdi, %rax
	vpxor	%xmm1, %xmm1, %xmm1
	shrq	$3, %rcx
	salq	$5, %rcx
	addq	%rdi, %rcx
	.p2align 4,,10
	.p2align 3
.L4:
	vpaddd	(%rax), %ymm1, %ymm1
	addq	$32, %rax
	cmpq	%rcx, %rax
	jne	.L4
	vmovdqa	%xmm1, %xmm0
	vextracti128	$0x1, %ymm1, %xmm1
	movq	%rdx, %rcx
	vpaddd	%xmm1, %xmm0, %xmm0
	andq	$-8, %rcx
	vpsrldq	$8, %xmm0, %xmm1
	vpaddd	%xmm1, %xmm0, %xmm0
	vpsrldq	$4, %xmm0, %xmm1
	vpaddd	%xmm1, %xmm0, %xmm0
	vmovd	%xmm0, %eax
	testb	$7, %dl
	je	.L15
	vzeroupper
.L3:
	leaq	1(%rcx), %r8
	leaq	0(,%rcx,4), %rsi
	addl	(%rdi,%rcx,4), %eax
	cmpq	%rdx, %r8
	jnb	.L1
	leaq	2(%rcx), %r8
	addl	4(%rdi,%rsi), %eax
	cmpq	%rdx, %r8
	jnb	.L1
	leaq	3(%rcx), %r8
	addl	8(%rdi,%rsi), %eax
	cmpq	%rdx, %r8
	jnb	.L1
	leaq	4(%rcx), %r8
	addl	12(%rdi,%rsi), %eax
	cmpq	%rdx, %r8
	jnb	.L1
	leaq	5(%rcx), %r8
	addl	16(%rdi,%rsi), %eax
	cmpq	%rdx, %r8
	jnb	.L1
	addq	$6, %rcx
	addl	20(%rdi,%rsi), %eax
	cmpq	%rdx, %rcx
	jnb	.L1
	addl	24(%rdi,%rsi), %eax
	ret
	.p2align 4,,10
	.p2align 3
.L7:
	xorl	%eax, %eax
.L1:
	ret
	.p2align 4,,10
	.p2align 3
.L15:
	vzeroupper
	ret
.L8:
	xorl	%ecx, %ecx
	xorl	%eax, %eax
	jmp	.L3
	.cfi_endproc
.LFE0:
	.size	f, .-f
	.ident	"GCC: (Debian 12.2.0-14+deb12u1) 12.2.0"
	.section	.note.GNU-stack,"",@progbits
