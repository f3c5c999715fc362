"""Texts that the grammar refuses, or that an assembler reads otherwise than the grammar.

REFUSED lists statements by the reason for which the grammar refuses them; READ_OTHERWISE lists texts that the grammar
takes, with what an assembler is known to do with them: `refuses`, `other code` or `same code`.
"""
import re

REFUSED = {
    "a suffix left out": [
        "mov %rax,%rbx", "add $1,%eax", "xor %eax,%eax", "lea (%rdi),%rax", "push %rax", "pop %rbx", "shl $2,%rax",
        "test %al,%al", "movzb %al,%eax", "inc %rax", "imul %rcx,%rax", "mov (%rdi),%eax", "movabs $5,%rax",
        "movzx %al,%eax", "movsx %al,%eax",
    ],
    "letters of the other case": [
        "MOVQ %rax,%rbx", "movq %RAX,%rbx", "Ret", "addl $0X10,%eax", "movq %rax,%Rbx",
    ],
    "numbers in other forms": [
        "addl $010,%eax", "addl $08,%eax", "addl $0b11,%eax", "addl $'a,%eax", "addl $+5,%eax", "addl $ 5,%eax",
        "addl $- 5,%eax", "addl $1+2,%eax", "addl $(3),%eax", "addl $~0,%eax", "addl $--1,%eax", "addl $5.,%eax",
        "addl $0x,%eax", "addl $,%eax", "addl $1f,%eax", "addl $1e3,%eax", "addl $0x1p3,%eax", "addl 5,%eax",
        "addl $00,%eax",
    ],
    "an immediate out of its range": [
        "addb $256,%al", "addb $-129,%al", "addw $65536,%ax", "addw $-32769,%ax", "addl $4294967296,%eax",
        "addl $-2147483649,%eax", "addq $2147483648,%rax", "addq $-2147483649,%rax",
        "addq $0xffffffffffffffff,%rax", "movq $2147483648,%rax", "movq $4294967295,%rax",
        "movq $18446744073709551615,%rax", "movabsq $18446744073709551616,%rax",
        "movabsq $-9223372036854775809,%rax", "addl $18446744073709551615,%eax", "pshufd $256,%xmm0,%xmm1",
        "pshufd $-1,%xmm0,%xmm1", "pslld $256,%xmm0", "pslld $-1,%xmm0", "vpermq $256,%ymm0,%ymm1",
        "imulw $65536,%ax", "testb $-129,(%rdi)",
    ],
    "a count of a shift out of its range": [
        "shlq $0,%rax", "shlq $64,%rax", "shll $32,%eax", "shlb $8,%al", "shrw $16,%ax", "sarl $255,%eax",
        "sarl $256,%eax", "sarl $-1,%eax",
    ],
    "a shift by a register": [
        "shlq %cl,%rax", "sarl %cl,(%rdi)", "shrq %rcx,%rax", "psllw %xmm1,%xmm2", "vpslld %xmm1,%ymm2,%ymm3",
        "pslld (%rdi),%xmm2",
    ],
    "a displacement or an address that is an expression": [
        "movl 4+4(%rdi),%eax", "movl foo(%rdi),%eax", "movl (4)(%rdi),%eax", "movl 8-4(%rdi),%eax",
        "movl 4 (%rdi),%eax", "movl - 4(%rdi),%eax", "movl +4(%rdi),%eax", "movl 010(%rdi),%eax",
    ],
    "a displacement out of its range": [
        "movl 2147483648(%rdi),%eax", "movl 4294967295(%rdi),%eax", "movl -2147483649(%rdi),%eax",
        "movl 0xffffffffffffffff(%rdi),%eax", "movl 18446744073709551616(%rdi),%eax",
    ],
    "a scale in other forms": [
        "movl (%rdi,%rcx,3),%eax", "movl (%rdi,%rcx,0x4),%eax", "movl (%rdi,%rcx,),%eax",
        "movl (%rdi,%rcx,04),%eax", "movl (%rdi,%rcx,2+2),%eax", "movl (%rdi,%rcx,16),%eax",
        "movl (%rdi,%rcx,0),%eax", "movl (%rdi,,1),%eax", "movl (,,4),%eax", "movl (%rdi,4),%eax",
        "movl (%rdi,%rcx,-1),%eax",
    ],
    "parts of an address missing or too many": [
        "movl (),%eax", "movl (%rdi,),%eax", "movl 8,%eax", "movl 0x10,%eax", "movl (8),%eax",
        "movl (%rdi,%rcx,4,1),%eax", "movl (%rdi %rcx),%eax", "movl (%rdi)(%rcx),%eax", "movl ((%rdi)),%eax",
        "movl (%rdi,%eax", "movl %rdi),%eax", "movl 4(%rdi,%rcx,4)4,%eax", "movl [%rdi],%eax",
    ],
    "an address of other registers": [
        "movl (%edi),%eax", "movl (%rdi,%ecx,4),%eax", "movl (%rdi,%rsp,1),%eax", "movl (%rsp,%rsp),%eax",
        "movl (%xmm0),%eax", "movl (%rdi,%xmm1,4),%eax", "movl (%di),%eax", "movl (%rip),%eax", "movl 8(%rip),%eax",
        "movl (%rdi,%rip),%eax", "movl (%rdi,%riz,1),%eax", "movl (%eip),%eax",
    ],
    "a segment": [
        "movq %fs:(%rdi),%rax", "movq %fs:40,%rax", "movq %ds:(%rax),%rbx", "movq %es:8(%rdi),%rax",
        "fs movq (%rdi),%rax",
    ],
    "a symbol": [
        "movl foo,%eax", "movq $foo,%rax", "leaq foo,%rax", "movl arr(,%rax,4),%eax", "jmp elsewhere", "jne printf",
        "leaq foo@GOTPCREL(%rip),%rax", "movq $f,%rax", "addq $.Lnowhere,%rax",
    ],
    "a constant of the pool": [
        "movl .LC0(%rip),%eax", "paddd .LC0(%rip),%xmm0", "vpand .LC0+16(%rip),%ymm0,%ymm1", "leaq .LC0(%rip),%rax",
        "movl foo+4( %rip ),%eax", "movl .LC0-4(%rip),%eax",
    ],
    "a symbol with (%rip) in other forms": [
        "movl foo+04(%rip),%eax", "movl foo + 4(%rip),%eax", "movl foo (%rip),%eax", "movl foo+0x4(%rip),%eax",
        "movl foo+4+4(%rip),%eax", "movl 4+foo(%rip),%eax", "movl \"foo\"(%rip),%eax",
    ],
    "a high byte": [
        "movb %ah,%al", "addb $1,%ah", "movzbl %bh,%eax", "setne %ch", "testb $4,%dh",
    ],
    "registers of another width": [
        "movq %eax,%rbx", "movl %rax,%ebx", "addw %ax,%ebx", "movb %ax,%bl", "movzbl %ax,%ecx", "movslq %ax,%rcx",
        "movsbl %eax,%ecx", "cmovneq %eax,%ebx", "cmovne %ax,%ebx", "cmovne %al,%bl", "cmovneb %al,%bl",
        "leal (%rdi),%ax", "leaw (%rdi),%ax", "sete %eax", "pushq %eax", "pushl %eax", "pushw %ax", "popl %eax",
        "imulb %al,%bl", "cmovne %eax,(%rdi)", "movzbl %al,%cx", "movzlq %eax,%rax", "movsbb %al,%bl",
        "movsll %eax,%ebx", "movzwl %al,%eax",
    ],
    "an immediate or memory where none stands": [
        "movq %rax,$5", "addl $1,$2", "movl (%rdi),(%rsi)", "addq (%rdi),8(%rsi)", "cmpl %eax,$5", "testl %eax,$5",
        "pushq $5", "pushq (%rdi)", "popq (%rdi)", "imulq %rax,(%rdi)", "movzbl %al,(%rdi)", "movzbl $5,%eax",
        "leaq %rax,%rbx", "leaq $5,%rbx", "cmovneq $5,%rax", "setne $1", "movabsq %rax,%rbx", "movabsq (%rdi),%rax",
        "movabsq 0x1122334455667788,%rax", "incl $5", "shll $1,$2", "imull $3,$4,%eax", "imull $3,%eax,(%rdi)",
        "imulq (%rdi)", "imulq %rcx", "movabsq $5,(%rdi)",
    ],
    "a number of operands": [
        "movq %rax", "movq", "addl $1", "addl $1,%eax,%ebx", "ret $8", "ret %rax", "retq $0", "nop %eax",
        "nop (%rax)", "cltq %rax", "endbr64 %rax", "incl %eax,%ebx", "incl", "jmp", "jne", "pushq", "paddd %xmm0",
        "paddd %xmm0,%xmm1,%xmm2", "vpaddd %xmm0,%xmm1", "vzeroupper %ymm0", "movq %rax,%rbx,%rcx", "movq ,%rax",
        "movq %rax,", "movq %rax,,%rbx", "shlq", "shlq $1", "shlq $1,%rax,%rbx", "movl %eax %ebx",
        "vpermq $1,%ymm0", "imulq", "negl", "setne",
    ],
    "blanks and other bytes": [
        "movq % rax,%rbx", "movq %rax, % rbx", "mov q %rax,%rbx", "movq\x0b%rax,%rbx", "movq\x0c%rax,%rbx",
        "movq %rax,%rbx\x0b", "movq %rax,\r%rbx", "movq %rax,%rbx\r\t", "movq\u00a0%rax,%rbx", "movq %rax,%rbx\x00",
        "movq rax,%rbx", "movq %%rax,%rbx",
    ],
    "two statements on one line": [
        "incq %rax; incq %rbx", "incq %rax ;", "; incq %rax", "ret; ret", "incq %rax \\",
    ],
    "comments of another kind": [
        "/ a comment", "incq %rax /* a comment */", "/* a comment */ incq %rax", "// a comment",
        "incq %rax // a comment", "incq %rax ! a comment",
    ],
    "labels of another kind": [
        "x : incq %rax", "1: incq %rax", "\"x\": incq %rax", "x = 5", "x == 5", "$5 = 6", "jmp 1f\n1:", "1: jmp 1b",
        "L\u00e4: incq %rax", "jmp .", "jmp .+2", "jmp *%rax", "jmp *(%rax)", "jmp 5", "jmp $5", "jmp %rax",
        "jmp (%rax)", "jmp f+0", "jmp .Lf-0",
    ],
    "prefixes": [
        "rep retq", "repz ret", "rep ret $8", "rep movsb", "rep nop", "lock incl (%rdi)", "data16 nop",
        "{vex3} vpaddd %xmm0,%xmm1,%xmm2", "{disp32} movl (%rdi),%eax", "{load} movl %eax,%ebx", "notrack jmp f",
        "bnd ret", "rep", "rex.W addl %eax,%ebx", "cs nop", "addr32 movl (%rdi),%eax",
    ],
    "hints and suffixes of jumps": [
        "jmpq f", "jne,pt f", "jne,pn f", "jeq f", "retl", "retw", "lret", "nopw (%rax)", "nopl 8(%rax)", "nopw",
        "jrcxz f", "loop f", "jmp.d32 f", "jmpl f", "setneb %al",
    ],
    "instructions that are left out": [
        "mulq %rcx", "divl %ecx", "idivq %rcx", "adcl $1,%eax", "sbbl %eax,%eax", "cqto", "cltd", "cwtl",
        "btl $3,%eax", "bswap %eax", "popcntl %eax,%ebx", "xchgl %eax,%ebx", "leave", "call f", "callq f", "movsq",
        "stosl", "cmc", "stc", "hlt", "ud2", "pause", "rolq $3,%rax", "rorl $3,%eax", "shldq $3,%rax,%rbx",
        "bsfl %eax,%ebx", "tzcnt %eax,%ebx", "movbel (%rdi),%eax", "cmpxchgl %eax,(%rdi)", "xaddl %eax,(%rdi)",
        "lahf", "pushfq", "shlxl %eax,%ebx,%ecx", "andnl %eax,%ebx,%ecx", "prefetcht0 (%rdi)", "mfence", "xlatb",
    ],
    "vectors that are left out": [
        "addps %xmm0,%xmm1", "addsd %xmm0,%xmm1", "cvtdq2ps %xmm0,%xmm1", "movss (%rdi),%xmm0", "pabsd %xmm0,%xmm1",
        "pshufb %xmm0,%xmm1", "pmulld %xmm0,%xmm1", "pminsd %xmm0,%xmm1", "pmovzxbw %xmm0,%xmm1",
        "ptest %xmm0,%xmm1", "pinsrw $1,%eax,%xmm0", "pextrw $1,%xmm0,%eax", "movhps (%rdi),%xmm0",
        "movlps %xmm0,(%rdi)", "shufps $1,%xmm0,%xmm1", "lddqu (%rdi),%xmm0", "movntdq %xmm0,(%rdi)",
        "vpblendd $1,%ymm0,%ymm1,%ymm2", "vpermd %ymm0,%ymm1,%ymm2", "vpalignr $1,%ymm0,%ymm1,%ymm2",
        "vpsllvd %ymm0,%ymm1,%ymm2", "vpgatherdd %ymm0,(%rdi,%ymm1,4),%ymm2", "vmaskmovps %ymm0,%ymm1,(%rdi)",
        "vpmaskmovd %ymm0,%ymm1,(%rdi)", "vpcmpeqq %ymm0,%ymm1,%ymm2", "vpmuldq %ymm0,%ymm1,%ymm2",
        "vpackusdw %ymm0,%ymm1,%ymm2", "vpmovzxbq %xmm0,%ymm1", "vpmovzxwq %xmm0,%ymm1",
        "vbroadcasti128 (%rdi),%ymm0", "vzeroall", "vpermpd $1,%ymm0,%ymm1", "movapd %xmm0,%xmm1",
        "andpd %xmm0,%xmm1", "xorpd %xmm0,%xmm1", "movupd (%rdi),%xmm0", "vphaddd %ymm0,%ymm1,%ymm2",
        "vpsignd %ymm0,%ymm1,%ymm2", "movnti %eax,(%rdi)", "emms",
    ],
    "vectors of other widths": [
        "paddd %ymm0,%ymm1", "vpaddd %xmm0,%ymm1,%ymm2", "vpaddd %ymm0,%ymm1,%xmm2", "vpaddd %zmm0,%zmm1,%zmm2",
        "vpaddd %xmm16,%xmm1,%xmm2", "paddd %mm0,%mm1", "paddd %xmm16,%xmm0", "movd %rax,%xmm0", "movd %xmm0,%rax",
        "vmovd %rax,%xmm0", "vmovd %xmm0,%rax", "movd %eax,%mm0", "movq %eax,%xmm0", "movd %eax,%ymm0",
        "vmovq %rax,%ymm0", "vmovq %ymm0,%rax", "movd %xmm0,%xmm1", "vpbroadcastd %ymm0,%ymm1",
        "vpbroadcastd %eax,%ymm1", "vpmovzxbw %ymm0,%ymm1", "vpmovzxbw %ymm0,%xmm1", "vextracti128 $1,%xmm0,%xmm1",
        "vextracti128 $1,%ymm0,%ymm1", "vinserti128 $1,%ymm0,%ymm1,%ymm2", "vinserti128 $1,%xmm0,%xmm1,%xmm2",
        "vperm2i128 $1,%xmm0,%xmm1,%xmm2", "vpermq $1,%xmm0,%xmm1", "pmovmskb %xmm0,%rax", "pmovmskb (%rdi),%eax",
        "vpmovmskb %ymm0,%rax", "movdqa (%rdi),(%rsi)", "movq $5,%xmm0", "movdqa %xmm0,%rax", "paddd %xmm0,(%rdi)",
        "vpaddd %ymm0,(%rdi),%ymm1", "vpslld $1,(%rdi),%ymm0", "pslld $1,(%rdi)", "pslldq $1,(%rdi)",
        "vpabsd %ymm0,%xmm1", "vpshufd $1,%ymm0,%xmm1", "movq (%rdi),%ymm0", "movd (%rdi),%ymm0", "pxor $1,%xmm0",
        "movdqa %ymm0,%ymm1",
    ],
}

# reason, text of f, what an assembler does
READ_OTHERWISE = [
    ("`;` behind a directive", "f:\n\t.p2align 0; incq %rax\n\tret\n", "other code"),
    ("`;` behind a directive", "f:\n\t.loc_is_no_directive = 5; incq %rax\n\tret\n", "other code"),
    ("a blank between a label that begins with `.` and its colon", "f:\n\t.L1 : incq %rax\n\tret\n", "other code"),
    ("a block comment that begins behind a directive",
     "f:\n\t.p2align 0 /* a\n\tincq %rax\n\t.text */\n\tret\n", "other code"),
    ("a string of a directive that goes on behind its line",
     "f:\n\t.ident \"a\n\tincq %rax\n\t.ident b\"\n\tret\n", "other code"),
    ("a `#` inside a string of a directive", "f:\n\t.ident \"a # b\"; incq %rax\n\tret\n", "other code"),
    ("`.rept` and `.endr`", "f:\n\t.rept 3\n\tincq %rax\n\t.endr\n\tret\n", "other code"),
    ("`.irp`", "f:\n\t.irp x, 1, 2\n\tincq %rax\n\t.endr\n\tret\n", "other code"),
    ("`.irpc`", "f:\n\t.irpc x, 12\n\tincq %rax\n\t.endr\n\tret\n", "other code"),
    ("`.if` and its like", "f:\n\t.if 0\n\tincq %rax\n\t.endif\n\tret\n", "other code"),
    ("`.if` and its like", "f:\n\t.ifdef nothing\n\tincq %rax\n\t.endif\n\tret\n", "other code"),
    ("`.macro`", "f:\n\t.macro m\n\tincq %rax\n\t.endm\n\tret\n", "other code"),
    ("`.macro`", "\t.macro incq x\n\tdecq \\x\n\t.endm\nf:\n\tincq %rax\n\tret\n", "other code"),
    ("`.include`", "f:\n\t.include \"incq.s\"\n\tret\n", "other code"),
    ("`.incbin`", "f:\n\t.incbin \"incq.s\"\n\tret\n", "other code"),
    ("`.end`", "f:\n\tincq %rax\n\t.end\n\tret\n", "other code"),
    ("`.org`", "f:\n\tincq %rax\n\t.org f+9\n\tret\n", "other code"),
    ("`.section` and its like in a body", "f:\n\tincq %rax\n\t.section .data\n\tret\n", "other code"),
    ("`.section` and its like in a body", "f:\n\tincq %rax\n\t.data\n\tret\n", "other code"),
    ("`.section` and its like in a body", "f:\n\tincq %rax\n\t.pushsection .rodata\n\tret\n", "other code"),
    ("`.section` and its like in a body",
     "f:\n\tincq %rax\n\t.subsection 1\n\tincq %rbx\n\t.subsection 0\n\tret\n", "other code"),
    ("`.section` and its like in a body", "f:\n\tincq %rax\n\t.bss\n\tincq %rbx\n\t.text\n\tret\n", "other code"),
    ("`.section` and its like in a body",
     "f:\n\tincq %rax\n\t.text 1\n\tincq %rbx\n\t.text 0\n\tret\n", "other code"),
    ("`.struct`", "f:\n\tincq %rax\n\t.struct 0\n\tincq %rbx\n\tret\n", "other code"),
    ("`.intel_syntax`", "f:\n\t.intel_syntax noprefix\n\tmovq %rsi,%rax\n\tret\n", "other code"),
    ("`.intel_syntax`", "f:\n\t.intel_syntax noprefix\n\tmovq (%rsi),%rax\n\tret\n", "other code"),
    ("`.sse_check` and `.operand_check`", "f:\n\t.sse_check error\n\tpaddd %xmm0,%xmm1\n\tret\n", "refuses"),
    ("`.att_syntax noprefix`", "rax:\nf:\n\t.att_syntax noprefix\n\tjmp f\n\tret\n", "same code"),
    ("`.code32`", "f:\n\t.code32\n\tincl (%rdi)\n\tret\n", "refuses"),
    ("`.code32`", "f:\n\t.code32\n\tmovl %eax,%ebx\n\tincl %eax\n\tret\n", "other code"),
    ("`.code16`", "f:\n\t.code16\n\tmovl %eax,%ebx\n\tret\n", "other code"),
    ("`.arch`", "f:\n\t.arch .noavx2\n\tvpaddd %ymm0,%ymm1,%ymm2\n\tret\n", "refuses"),
    ("`.equ`, `.set` and `=` of a label", "f:\n\tjmp .L1\n\t.set .L1, f\n.L1:\n\tret\n", "other code"),
    ("`.equ`, `.set` and `=` of a label", "f:\n\tjmp .L1\n\tincq %rax\n\t.L1 = f\n.L1:\n\tret\n", "other code"),
    ("`.reloc`", "f:\n\tincq %rax\n\t.reloc ., R_X86_64_NONE\n\tret\n", "same code"),
    ("`.bundle_align_mode`",
     "f:\n\t.bundle_align_mode 4\n\tmovabsq $5,%rax\n\tmovabsq $5,%rax\n\tmovabsq $5,%rax\n\tret\n", "other code"),
    ("`.err`, `.error`, `.abort`, `.print`, `.warning`", "f:\n\t.err\n\tret\n", "refuses"),
    ("`.err`, `.error`, `.abort`, `.print`, `.warning`", "f:\n\t.error \"no\"\n\tret\n", "refuses"),
    ("`.err`, `.error`, `.abort`, `.print`, `.warning`", "f:\n\t.abort\n\tret\n", "refuses"),
    ("`.err`, `.error`, `.abort`, `.print`, `.warning`", "f:\n\t.print \"yes\"\n\tret\n", "same code"),
    ("a directive that there is not", "f:\n\t.no_such_directive 5\n\tret\n", "refuses"),
    ("a directive that there is not", "f:\n\t.5\n\tret\n", "refuses"),
    ("a directive that there is not", "f:\n\t.\n\tret\n", "refuses"),
    ("a directive's operands that are none", "f:\n\t.p2align x y z\n\tret\n", "refuses"),
    ("a directive's operands that are none", "f:\n\t.type\n\tret\n", "refuses"),
    ("a directive of unwinding outside of its block", "f:\n\t.cfi_def_cfa_offset 16\n\tret\n", "refuses"),
    ("a directive of unwinding outside of its block", "f:\n\tret\n\t.cfi_endproc\n", "refuses"),
    ("a block of unwinding that is not closed", "f:\n\t.cfi_startproc\n\tret\n", "refuses"),
    ("a label that stands in two functions of a text",
     "f:\n.L1:\n\tret\n\t.size f,.-f\ng:\n.L1:\n\tret\n", "refuses"),
    ("a function that stands twice in a text", "f:\n\tret\nf:\n\tret\n", "refuses"),
    ("text outside of the function", "bogus\nf:\n\tret\n", "refuses"),
    ("text outside of the function", "f:\n\tret\n\t.size f,.-f\n\tbogus\n", "refuses"),
    ("text outside of the function", "\t.intel_syntax noprefix\nf:\n\tmovq %rsi,%rax\n\tret\n", "other code"),
    ("text outside of the function", "\t.data\nf:\n\tincq %rax\n\tret\n", "other code"),
    ("text outside of the function", "\t.if 0\n\t.endif\n\t.code32\nf:\n\tincl %eax\n\tret\n", "other code"),
    ("a block comment outside of the function", "/*\nf:\n\tincq %rax\n\tret\n\t.size f,.-f\n*/\n", "other code"),
    ("a carriage return in a comment", "f:\n\tincq %rax # a \r\tincq %rbx\n\tret\n", "same code"),
    ("a carriage return in a directive", "f:\n\t.text\r\tincq %rbx\n\tret\n", "refuses"),
    ("another blank in a comment", "f:\n\tincq %rax # a \x0c\x0b\u2028\tincq %rbx\n\tret\n", "same code"),
    ("a label with other letters", "f:\n\tjmp .L$a.b_C\n.L$a.b_C:\n\tret\n", "same code"),
    ("a first line `#NO_APP`", "#NO_APP\nf:\n\tincq %rax # a comment\n\tret\n", "refuses"),
    ("a first line `#NO_APP`", "#NO_APP\nf:\n\tmovq  ( %rax ) , %rbx\n\tret\n", "refuses"),
    ("a line number of a comment", "# 5 \"a.c\"\nf:\n\tret\n", "same code"),
    ("a byte 0 in a comment", "f:\n\tincq %rax # a\x00b\n\tret\n", "same code"),
    ("padding and alignment", "f:\n\tincq %rax\n\t.p2align 4\n\tret\n", "other code"),
    ("padding by other bytes than `nop`", "f:\n\tincq %rax\n\t.p2align 4,0xf4\n\tret\n", "other code"),
    ("padding by other bytes than `nop`", "f:\n\tincq %rax\n\t.balignl 8,0x12345678\n\tret\n", "refuses"),
    ("a bit of debugging", "f:\n\t.loc 5 5\n\tret\n", "refuses"),
]
# directives of data that the grammar skips
DATA = [
    ".2byte 5", ".4byte 5", ".8byte 5", ".hword 5", ".uleb128 5", ".sleb128 5", ".nops 4", ".dc.b 5", ".dc.w 5",
    ".dc.l 5", ".dc.d 5", ".dcb.b 4,5", ".ds.b 4,5", ".single 5.0", ".tfloat 5.0", ".bfloat16 5.0",
    ".string8 \"a\"", ".string16 \"a\"", ".string32 \"a\"", ".string64 \"a\"", ".slong 5", ".dc 5", ".dcb 4,5",
    ".ds 4", ".hfloat 5.0",
]
READ_OTHERWISE += [("data in a body by a directive that is skipped", f"f:\n\t{directive}\n\tret\n", "other code")
                   for directive in DATA]
# reason, name, text, what an assembler does
OTHER_NAMES = [
    ("a function whose name begins with `$`", "$foo", "$foo:\n\tincq %rax\n\tjmp $foo\n", "refuses"),
    ("a function named `.`", ".", ".:\n\tincq %rax\n\tjmp .\n", "other code"),
    ("a function with a name of a register", "rax", "rax:\n\tincq %rax\n\tjmp rax\n", "same code"),
    ("`.att_syntax noprefix`", "rax", "rax:\n\t.att_syntax noprefix\n\tincq %rax\n\tjmp rax\n", "other code"),
    ("a function with a name of a mnemonic", "incq", "incq:\n\tincq %rax\n\tjmp incq\n", "same code"),
    ("a function whose name begins with `.L`", ".Lf", ".Lf:\n\tincq %rax\n\tjmp .Lf\n", "same code"),
    ("a jump to a global function", "f", "\t.globl f\nf:\n\tincq %rax\n\tjmp f\n", "same code"),
]

# mutations

TOKENS = ["%rax", "%eax", "%ax", "%al", "%ah", "%xmm1", "%ymm2", "%rsp", "%r9d", "%spl", "(%rdi)", "8(%rdi,%rcx,4)",
          "$5", "$-1", "$256", "$65536", "$2147483648", "$4294967296", "$foo", ".LC0(%rip)", "(%edi)", "5", "foo", ""]
EDGES = [0, 1, 7, 8, 15, 16, 31, 32, 63, 64, 127, 128, 255, 256, -1, -128, -129, -32768, -32769, 65535, 65536,
         2**31 - 1, 2**31, 2**32 - 1, 2**32, -2**31, -2**31 - 1, 2**63 - 1, 2**63, 2**64 - 1, 2**64, -2**63, -2**63 - 1]


def with_byte(draw, text):
    """The text with one character changed, put in or taken out."""
    at = draw.randrange(len(text) + 1)
    new = draw.choice(list("%$(),.:;#+-*/ \t\r0129xaqlbwL_\"'\\") + ["", "", "\u00e4", "\x00", "\x0c"])
    return text[:at] + new + text[at + draw.choice((0, 1)):]


LINES = [".L1:", ".L1 :", "x:", "x: ret", "1:", "\tjmp .L1", "\tjne .Lf_0", ".Lf_0:", "\tret", "f:", "#", "", "\tnop",
         "\t.size f, .-f", "\t.long 5", "\t.cfi_endproc", "\t.zero 0", "\trep  ret", "bogus"]


def changed_line(draw, line):
    """A line with a random change, and its kind: a character, the line away or twice, or another one."""
    kind = draw.choice(("byte", "byte", "byte", "gone", "twice", "other"))
    if kind == "byte":
        return with_byte(draw, line), kind
    other = draw.choice(LINES)
    return {"gone": "", "twice": line + "\n" + line, "other": other}[kind], kind


def mutated(draw, statement):
    """A statement with one or two changes, and the kind of the last one."""
    for _ in range(draw.choice((1, 1, 1, 2))):
        word, _, rest = statement.partition(" ")
        operands = re.findall(r"(?:[^,(]|\([^)]*\))+", rest)
        kind = draw.choice(("operand", "operand", "order", "fewer", "more", "mnemonic", "byte", "byte",
                            "number"))
        if kind == "operand" and operands:
            operands[draw.randrange(len(operands))] = draw.choice(TOKENS)
            statement = word + " " + ",".join(operands)
        elif kind == "order":
            draw.shuffle(operands)
            statement = word + " " + ",".join(operands)
        elif kind == "fewer" and operands:
            del operands[draw.randrange(len(operands))]
            statement = word + " " + ",".join(operands)
        elif kind == "more":
            operands.insert(draw.randrange(len(operands) + 1), draw.choice(TOKENS))
            statement = word + " " + ",".join(operands)
        elif kind == "mnemonic":
            words = (word[:-1], word + "q", word + "l", "v" + word, word[1:], word.upper())
            statement = draw.choice(words) + " " + rest
        elif kind == "number":
            statement = re.sub(r"-?\d+(?=[,(]|$)", lambda _: str(draw.choice(EDGES)), statement)
        else:
            statement = with_byte(draw, statement)
    return statement.strip(" \t"), kind
