/*
 * The proved program on x86_64, as the kit's compiler (LLVM) makes it.  Written by ./build --assembly.
 *
 * sources: 70918e926125a2df7210c131392c6dfc93db3571a18b046c9a8fc485c70c7a73
 * kit:     rattle-kit-13f logic dac8208d650f15bf
 * proof:   logic=proved functions=69 axioms=6 target=x86_64-unknown-linux-gnu threads=_exit,abort,free,malloc,pthread_attr_destroy,pthread_attr_init,pthread_attr_setguardsize,pthread_attr_setstacksize,pthread_create,pthread_detach,pthread_join,pthread_self,sched_yield,syscall main=Threads+Wait may-wait=7 sum=dac8208d650f15bf
 */
	.section	.text.unlikely.std_alloc__vec__Vec__grow_amortized____35f1ce62ed723168_,"ax",@progbits
	.p2align	4
	.type	std_alloc__vec__Vec__grow_amortized____35f1ce62ed723168_,@function
std_alloc__vec__Vec__grow_amortized____35f1ce62ed723168_:
	movq	%rsi, %rax
	movq	8(%rdi), %rsi
	addq	%rsi, %rax
	jae	.LBB0_2
	xorl	%eax, %eax
	retq
.LBB0_2:
	pushq	%r14
	pushq	%rbx
	pushq	%rax
	cmpq	$9, %rax
	movl	$8, %ebx
	cmovaeq	%rax, %rbx
	movq	16(%rdi), %rcx
	movq	%rcx, %rdx
	shrq	$62, %rdx
	leaq	(%rcx,%rcx), %rax
	cmpq	%rax, %rbx
	cmovaq	%rbx, %rax
	testq	%rdx, %rdx
	cmoveq	%rax, %rbx
	testq	%rbx, %rbx
	js	.LBB0_6
	testq	%rcx, %rcx
	je	.LBB0_8
	movq	%rdi, %r14
	movq	(%rdi), %rdi
	movl	$1, %ecx
	movq	%rbx, %rdx
	callq	rattle_realloc@PLT
	testb	$1, %al
	je	.LBB0_6
.LBB0_9:
	movq	%rdx, (%r14)
	movq	%rbx, 16(%r14)
	movb	$1, %al
	addq	$8, %rsp
	popq	%rbx
	popq	%r14
	retq
.LBB0_8:
	movq	%rdi, %r14
	movl	$1, %esi
	movq	%rax, %rdi
	callq	rattle_alloc@PLT
	testb	$1, %al
	jne	.LBB0_9
.LBB0_6:
	xorl	%eax, %eax
	addq	$8, %rsp
	popq	%rbx
	popq	%r14
	retq
.Lfunc_end0:
	.size	std_alloc__vec__Vec__grow_amortized____35f1ce62ed723168_, .Lfunc_end0-std_alloc__vec__Vec__grow_amortized____35f1ce62ed723168_

	.section	.rodata.cst16,"aM",@progbits,16
	.p2align	4, 0x0
.LCPI1_0:
	.zero	16,34
.LCPI1_1:
	.zero	16,92
.LCPI1_2:
	.zero	16,31
.LCPI1_3:
	.zero	16,198
.LCPI1_4:
	.zero	16,245
	.section	.text.ww_run__run__text_of____f7400dcd187a4b89_,"ax",@progbits
	.p2align	4
	.type	ww_run__run__text_of____f7400dcd187a4b89_,@function
ww_run__run__text_of____f7400dcd187a4b89_:
	pushq	%rbp
	pushq	%r15
	pushq	%r14
	pushq	%r13
	pushq	%r12
	pushq	%rbx
	subq	$3072, %rsp
	movq	$0, (%rsp)
	subq	$3072, %rsp
	movq	$0, (%rsp)
	subq	$3072, %rsp
	movq	$0, (%rsp)
	subq	$3072, %rsp
	movq	$0, (%rsp)
	subq	$3072, %rsp
	movq	$0, (%rsp)
	subq	$2568, %rsp
	movq	%rdi, %rbp
	pxor	%xmm0, %xmm0
	movdqu	%xmm0, 1357(%rsp)
	movdqa	%xmm0, 1344(%rsp)
	movl	$0, 720(%rsp)
	movb	$0, 724(%rsp)
	movdqa	%xmm0, 1088(%rsp)
	movq	$0, 1104(%rsp)
	movdqa	%xmm0, 928(%rsp)
	movdqu	%xmm0, 941(%rsp)
	movdqa	%xmm0, 1248(%rsp)
	movdqa	%xmm0, 1264(%rsp)
	movdqa	%xmm0, 1280(%rsp)
	movdqa	%xmm0, 1296(%rsp)
	movdqa	%xmm0, 1312(%rsp)
	movdqa	%xmm0, 1328(%rsp)
	movdqa	%xmm0, 992(%rsp)
	movdqa	%xmm0, 976(%rsp)
	movdqa	%xmm0, 960(%rsp)
	movq	$0, 1008(%rsp)
	movdqu	%xmm0, 1471(%rsp)
	movdqa	%xmm0, 1456(%rsp)
	movdqa	%xmm0, 1024(%rsp)
	movdqu	%xmm0, 1039(%rsp)
	movdqa	%xmm0, 1056(%rsp)
	movq	$0, 1072(%rsp)
	movl	$0, 104(%rsp)
	movb	$0, 108(%rsp)
	movdqa	%xmm0, 736(%rsp)
	movq	$0, 752(%rsp)
	movdqa	%xmm0, 768(%rsp)
	movdqa	%xmm0, 784(%rsp)
	movb	$7, %bl
	cmpq	$1048576, %rcx
	ja	.LBB1_200
	movq	%rsi, %r15
	movdqa	%xmm0, 1184(%rsp)
	movdqa	%xmm0, 1200(%rsp)
	movdqa	%xmm0, 1376(%rsp)
	movdqa	%xmm0, 1392(%rsp)
	movdqa	%xmm0, 1408(%rsp)
	movdqa	%xmm0, 1424(%rsp)
	movdqa	%xmm0, 1440(%rsp)
	leaq	1184(%rsp), %rdi
	movq	%rdx, %r14
	movq	%rdx, %rsi
	movq	%rcx, %rbx
	movq	%rcx, %rdx
	callq	simdutf8__compat__from_utf8
	cmpb	$0, 1184(%rsp)
	jne	.LBB1_40
	movq	%r15, 144(%rsp)
	movq	1192(%rsp), %rax
	movq	%rax, 56(%rsp)
	movq	1200(%rsp), %r12
	leaq	48(%rsp), %rbx
	movq	%rbx, 1488(%rsp)
	leaq	1496(%rsp), %rdi
	xorl	%r13d, %r13d
	movl	$16400, %edx
	xorl	%esi, %esi
	callq	memset@PLT
	movq	%rbx, 17896(%rsp)
	pxor	%xmm0, %xmm0
	movdqu	%xmm0, 17904(%rsp)
	movdqa	%xmm0, 160(%rsp)
	movdqa	%xmm0, 176(%rsp)
	movdqa	%xmm0, 192(%rsp)
	movdqa	%xmm0, 208(%rsp)
	movdqa	%xmm0, 224(%rsp)
	movdqa	%xmm0, 240(%rsp)
	movdqa	%xmm0, 256(%rsp)
	movdqa	%xmm0, 496(%rsp)
	movdqa	%xmm0, 512(%rsp)
	movdqa	%xmm0, 528(%rsp)
	movdqa	%xmm0, 544(%rsp)
	movdqa	%xmm0, 560(%rsp)
	movdqa	%xmm0, 816(%rsp)
	movdqa	%xmm0, 832(%rsp)
	movdqa	%xmm0, 848(%rsp)
	movdqa	%xmm0, 864(%rsp)
	movdqa	%xmm0, 880(%rsp)
	movdqa	%xmm0, 1120(%rsp)
	movq	$0, 1136(%rsp)
	testq	%r12, %r12
	movq	%rbp, 136(%rsp)
	jne	.LBB1_41
	movq	56(%rsp), %rbp
.LBB1_4:
	leaq	1512(%rsp), %r15
	movdqa	%xmm0, 16(%rsp)
	movdqa	%xmm0, 32(%rsp)
	movw	$0, 432(%rsp)
	movb	$0, 434(%rsp)
	leaq	16(%rsp), %rdi
	leaq	432(%rsp), %r9
	movq	%rbp, %rsi
	movq	%r12, %rdx
	movq	%r15, %rcx
	xorl	%r8d, %r8d
	callq	json__index__refill
	movl	1512(%rsp), %r14d
	addq	16(%rsp), %r14
	cmpq	$0, 24(%rsp)
	cmoveq	%r12, %r14
	movdqa	16(%rsp), %xmm0
	movdqa	32(%rsp), %xmm1
	movdqa	%xmm1, 1232(%rsp)
	movdqa	%xmm0, 1216(%rsp)
	movq	%rbp, 160(%rsp)
	movq	%r12, 168(%rsp)
	movq	%rbp, 176(%rsp)
	movq	%r12, 184(%rsp)
	movq	%r15, 192(%rsp)
	movq	$0, 200(%rsp)
	movdqa	%xmm0, 208(%rsp)
	movdqa	%xmm1, 224(%rsp)
	movq	%r14, 240(%rsp)
	movq	%rbx, 248(%rsp)
	movq	%r13, 256(%rsp)
	movb	$1, 264(%rsp)
	movl	$0, 268(%rsp)
	movl	$0, 265(%rsp)
	pxor	%xmm0, %xmm0
	movdqa	%xmm0, 1152(%rsp)
	movq	$0, 1168(%rsp)
	movdqa	%xmm0, 432(%rsp)
	movdqa	%xmm0, 448(%rsp)
	movdqa	%xmm0, 896(%rsp)
	movdqa	%xmm0, 912(%rsp)
	movq	%r12, %rax
	subq	%r14, %rax
	jbe	.LBB1_38
	movzbl	(%rbp,%r14), %edx
	movl	%edx, %ecx
	andb	$-33, %cl
	cmpb	$93, %cl
	je	.LBB1_67
	leaq	(%r14,%rbp), %r15
	movb	$3, %r10b
	leal	-9(%rdx), %ecx
	cmpl	$114, %ecx
	ja	.LBB1_30
	leaq	.LJTI1_0(%rip), %rsi
	movslq	(%rsi,%rcx,4), %rcx
	addq	%rsi, %rcx
	jmpq	*%rcx
.LBB1_8:
	leaq	1(%r14), %r15
	movq	%r12, %rax
	subq	%r15, %rax
	movq	%r15, %rdx
	cmpq	$32, %rax
	jb	.LBB1_13
	notq	%r14
	leaq	(%r15,%rbp), %rax
	.p2align	4
.LBB1_10:
	movdqu	(%rax), %xmm0
	movdqu	16(%rax), %xmm1
	movdqa	.LCPI1_0(%rip), %xmm2
	movdqa	%xmm1, %xmm3
	movdqa	.LCPI1_2(%rip), %xmm4
	movdqa	%xmm0, %xmm5
	pminub	%xmm4, %xmm5
	pminub	%xmm1, %xmm4
	pcmpeqb	%xmm1, %xmm4
	pcmpeqb	%xmm2, %xmm1
	movdqa	.LCPI1_1(%rip), %xmm6
	pcmpeqb	%xmm6, %xmm3
	por	%xmm1, %xmm3
	pcmpeqb	%xmm0, %xmm2
	pcmpeqb	%xmm0, %xmm6
	por	%xmm2, %xmm6
	pcmpeqb	%xmm0, %xmm5
	por	%xmm6, %xmm5
	por	%xmm3, %xmm4
	pmovmskb	%xmm5, %edx
	pmovmskb	%xmm4, %ecx
	shll	$16, %ecx
	orl	%edx, %ecx
	jne	.LBB1_71
	leaq	(%r12,%r14), %rcx
	addq	$-32, %rcx
	addq	$-32, %r14
	addq	$32, %rax
	cmpq	$31, %rcx
	ja	.LBB1_10
	negq	%r14
	movq	%r14, %rdx
.LBB1_13:
	movq	%rbp, %rdi
	movq	%r12, %rsi
	callq	json__run__plain_end_16
	movq	%rax, %rbp
	cmpq	%r12, %rbp
	jb	.LBB1_72
	jmp	.LBB1_14
.LBB1_18:
	movb	$32, %cl
	cmpq	$4, %rax
	jae	.LBB1_45
	xorl	%edx, %edx
	jmp	.LBB1_47
.LBB1_20:
	movdqa	%xmm0, 32(%rsp)
	movdqa	%xmm0, 16(%rsp)
	movq	$1, 200(%rsp)
	cmpq	$1, 216(%rsp)
	jne	.LBB1_50
	movq	224(%rsp), %r8
	leaq	1240(%rsp), %r9
	leaq	16(%rsp), %rdi
	movq	%rbp, %rsi
	movq	%r12, %rdx
	leaq	1512(%rsp), %rcx
	callq	json__index__refill
	movdqa	16(%rsp), %xmm0
	movdqa	32(%rsp), %xmm1
	leaq	208(%rsp), %rax
	movdqu	%xmm1, 16(%rax)
	movdqu	%xmm0, (%rax)
	movq	$0, 200(%rsp)
	cmpq	$0, 24(%rsp)
	movq	%r12, %rax
	je	.LBB1_51
	movl	1512(%rsp), %eax
	addq	16(%rsp), %rax
	jmp	.LBB1_51
.LBB1_23:
	movb	$32, %cl
	cmpq	$4, %rax
	jae	.LBB1_53
	xorl	%edx, %edx
	jmp	.LBB1_55
.LBB1_25:
	movb	$32, %cl
	cmpq	$5, %rax
	jae	.LBB1_58
	xorl	%edx, %edx
	jmp	.LBB1_60
.LBB1_27:
	movdqa	%xmm0, 32(%rsp)
	movdqa	%xmm0, 16(%rsp)
	movq	$1, 200(%rsp)
	cmpq	$1, 216(%rsp)
	jne	.LBB1_64
	movq	224(%rsp), %r8
	leaq	1240(%rsp), %r9
	leaq	16(%rsp), %rdi
	movq	%rbp, %rsi
	movq	%r12, %rdx
	leaq	1512(%rsp), %rcx
	callq	json__index__refill
	movdqa	16(%rsp), %xmm0
	movdqa	32(%rsp), %xmm1
	leaq	208(%rsp), %rax
	movdqu	%xmm1, 16(%rax)
	movdqu	%xmm0, (%rax)
	movq	$0, 200(%rsp)
	cmpq	$0, 24(%rsp)
	movq	%r12, %rax
	je	.LBB1_65
	movl	1512(%rsp), %eax
	addq	16(%rsp), %rax
	jmp	.LBB1_65
.LBB1_30:
	xorl	%ecx, %ecx
	cmpl	$45, %edx
	sete	%cl
	leaq	(%r14,%rcx), %r13
	movq	%r12, %rsi
	subq	%r13, %rsi
	jbe	.LBB1_33
	cmpb	$48, (%rbp,%r13)
	jne	.LBB1_33
	incq	%r13
	movq	%r13, %rbx
	jmp	.LBB1_79
.LBB1_33:
	movq	%r13, %rdx
	cmpq	$16, %rsi
	jb	.LBB1_37
	subq	%rcx, %rax
	movq	%r13, %rdx
	.p2align	4
.LBB1_35:
	movdqu	(%rbp,%rdx), %xmm0
	paddb	.LCPI1_3(%rip), %xmm0
	movdqa	.LCPI1_4(%rip), %xmm1
	pminub	%xmm0, %xmm1
	pcmpeqb	%xmm0, %xmm1
	pmovmskb	%xmm1, %ecx
	testl	%ecx, %ecx
	jne	.LBB1_78
	addq	$16, %rdx
	addq	$-16, %rax
	cmpq	$15, %rax
	ja	.LBB1_35
.LBB1_37:
	movq	%rbp, %rdi
	movq	%r12, %rsi
	callq	json__run__digits_end_slowly
	movb	$3, %r10b
	movq	%rax, %rbx
	cmpq	%r13, %rbx
	jne	.LBB1_79
	jmp	.LBB1_177
.LBB1_38:
	movb	$1, 264(%rsp)
	xorl	%r14d, %r14d
.LBB1_39:
	movq	56(%rsp), %rbp
	jmp	.LBB1_178
.LBB1_40:
	movq	1192(%rsp), %r8
	leaq	1376(%rsp), %rdi
	xorl	%esi, %esi
	movq	%r14, %rdx
	movq	%rbx, %rcx
	callq	serde_json__error__Error__at
	movzbl	1376(%rsp), %r15d
	jmp	.LBB1_191
.LBB1_41:
	leaq	1488(%rsp), %rdi
	movq	%r12, %rsi
	callq	std_alloc__vec__Vec__grow_amortized____08710997ffb5faad_
	testb	%al, %al
	je	.LBB1_70
	movq	1488(%rsp), %rbx
	movq	1496(%rsp), %rdi
	movq	1504(%rsp), %r14
	leaq	(%rdi,%r12), %r13
	cmpq	%r13, %rdi
	jae	.LBB1_44
	addq	%rbx, %rdi
	xorl	%esi, %esi
	movq	%r12, %rdx
	callq	memset@PLT
.LBB1_44:
	movq	%rbx, 1488(%rsp)
	movq	%r13, 1496(%rsp)
	movq	%r14, 1504(%rsp)
	movq	56(%rsp), %rbp
	pxor	%xmm0, %xmm0
	jmp	.LBB1_4
.LBB1_45:
	movzbl	3(%r15), %edx
	xorb	$108, %dl
	movzbl	1(%r15), %esi
	movzbl	2(%r15), %edi
	xorb	$108, %dil
	orb	%dl, %dil
	xorb	$117, %sil
	orb	%dil, %sil
	sete	%dl
	cmpq	$4, %rax
	je	.LBB1_47
	movzbl	4(%r15), %ecx
.LBB1_47:
	movl	%ecx, %eax
	andb	$-33, %al
	addb	$-91, %al
	testb	$-3, %al
	sete	%dil
	cmpb	$58, %cl
	sete	%r8b
	cmpb	$44, %cl
	sete	%al
	cmpb	$32, %cl
	sete	%sil
	leal	-9(%rcx), %r9d
	cmpb	$2, %r9b
	setb	%r9b
	cmpb	$13, %cl
	sete	%cl
	testb	%dl, %dl
	je	.LBB1_177
	orb	%r8b, %al
	orb	%dil, %al
	orb	%cl, %sil
	orb	%r9b, %sil
	orb	%al, %sil
	je	.LBB1_177
	movb	$8, %bpl
	jmp	.LBB1_63
.LBB1_50:
	movl	1516(%rsp), %eax
	addq	208(%rsp), %rax
.LBB1_51:
	movq	%rax, 240(%rsp)
	movb	$1, 264(%rsp)
	leaq	896(%rsp), %rdi
	leaq	160(%rsp), %rsi
	movl	$126, %edx
	callq	serde_json__de__read_members
	cmpb	$0, 896(%rsp)
	jne	.LBB1_160
	movq	912(%rsp), %rbp
	movq	920(%rsp), %rax
	movq	%rax, 8(%rsp)
	movzbl	904(%rsp), %r15d
	movb	$5, %al
	movq	%rax, 72(%rsp)
	xorl	%r13d, %r13d
	jmp	.LBB1_139
.LBB1_53:
	movzbl	3(%r15), %edx
	xorb	$101, %dl
	movzbl	1(%r15), %esi
	movzbl	2(%r15), %edi
	xorb	$117, %dil
	orb	%dl, %dil
	xorb	$114, %sil
	orb	%dil, %sil
	sete	%dl
	cmpq	$4, %rax
	je	.LBB1_55
	movzbl	4(%r15), %ecx
.LBB1_55:
	movl	%ecx, %eax
	andb	$-33, %al
	addb	$-91, %al
	testb	$-3, %al
	sete	%dil
	cmpb	$58, %cl
	sete	%r8b
	cmpb	$44, %cl
	sete	%al
	cmpb	$32, %cl
	sete	%sil
	leal	-9(%rcx), %r9d
	cmpb	$2, %r9b
	setb	%r9b
	cmpb	$13, %cl
	sete	%cl
	testb	%dl, %dl
	je	.LBB1_177
	orb	%r8b, %al
	orb	%dil, %al
	orb	%cl, %sil
	orb	%r9b, %sil
	orb	%al, %sil
	je	.LBB1_177
	movb	$7, %bpl
	movb	$1, %r13b
	xorl	%ebx, %ebx
	xorl	%r15d, %r15d
	jmp	.LBB1_120
.LBB1_58:
	cmpl	$1702063201, 1(%r15)
	sete	%dl
	cmpq	$5, %rax
	je	.LBB1_60
	movzbl	5(%r15), %ecx
.LBB1_60:
	movl	%ecx, %eax
	andb	$-33, %al
	addb	$-91, %al
	testb	$-3, %al
	sete	%dil
	cmpb	$58, %cl
	sete	%r8b
	cmpb	$44, %cl
	sete	%al
	cmpb	$32, %cl
	sete	%sil
	leal	-9(%rcx), %r9d
	cmpb	$2, %r9b
	setb	%r9b
	cmpb	$13, %cl
	sete	%cl
	testb	%dl, %dl
	je	.LBB1_177
	orb	%r8b, %al
	orb	%dil, %al
	orb	%cl, %sil
	orb	%r9b, %sil
	orb	%al, %sil
	je	.LBB1_177
	movb	$7, %bpl
.LBB1_63:
	xorl	%ebx, %ebx
	xorl	%r15d, %r15d
	jmp	.LBB1_119
.LBB1_64:
	movl	1516(%rsp), %eax
	addq	208(%rsp), %rax
.LBB1_65:
	movq	%rax, 240(%rsp)
	movb	$1, 264(%rsp)
	leaq	432(%rsp), %rdi
	leaq	160(%rsp), %rsi
	movl	$126, %edx
	callq	serde_json__de__read_items
	cmpb	$0, 432(%rsp)
	jne	.LBB1_161
	movq	440(%rsp), %r15
	movq	448(%rsp), %rbp
	movb	$4, %al
	movq	%rax, 72(%rsp)
	movq	456(%rsp), %rax
	movq	%rax, 8(%rsp)
	xorl	%r13d, %r13d
	jmp	.LBB1_139
.LBB1_67:
	movdqa	%xmm0, 32(%rsp)
	movdqa	%xmm0, 16(%rsp)
	movq	$1, 200(%rsp)
	cmpq	$1, 216(%rsp)
	jne	.LBB1_77
	movq	224(%rsp), %r8
	leaq	1240(%rsp), %r9
	leaq	16(%rsp), %rdi
	movq	%rbp, %rsi
	movq	%r12, %rdx
	leaq	1512(%rsp), %rcx
	callq	json__index__refill
	movdqa	16(%rsp), %xmm0
	movdqa	32(%rsp), %xmm1
	leaq	208(%rsp), %rax
	movdqu	%xmm1, 16(%rax)
	movdqu	%xmm0, (%rax)
	movq	$0, 200(%rsp)
	cmpq	$0, 24(%rsp)
	jne	.LBB1_91
	movq	%r12, 240(%rsp)
	movb	$2, %r10b
	jmp	.LBB1_177
.LBB1_70:
	movb	$2, %r15b
	xorl	%r14d, %r14d
	xorl	%r13d, %r13d
	xorl	%r12d, %r12d
	xorl	%ebx, %ebx
	xorl	%ebp, %ebp
	movq	$0, 8(%rsp)
	cmpq	$0, 1504(%rsp)
	jne	.LBB1_179
	jmp	.LBB1_180
.LBB1_71:
	rep		bsfl	%ecx, %ebp
	subq	%r14, %rbp
	cmpq	%r12, %rbp
	jae	.LBB1_14
.LBB1_72:
	movq	56(%rsp), %rax
	cmpb	$34, (%rax,%rbp)
	jne	.LBB1_14
	pxor	%xmm0, %xmm0
	movdqa	%xmm0, 32(%rsp)
	movdqa	%xmm0, 16(%rsp)
	movq	$1, 200(%rsp)
	cmpq	$1, 216(%rsp)
	jne	.LBB1_90
	movq	224(%rsp), %r8
	leaq	1240(%rsp), %r9
	leaq	16(%rsp), %rdi
	movq	56(%rsp), %rsi
	movq	%r12, %rdx
	leaq	1512(%rsp), %rcx
	callq	json__index__refill
	movdqa	16(%rsp), %xmm0
	movdqa	32(%rsp), %xmm1
	leaq	208(%rsp), %rax
	movdqu	%xmm1, 16(%rax)
	movdqu	%xmm0, (%rax)
	movq	$0, 200(%rsp)
	cmpq	$0, 24(%rsp)
	je	.LBB1_163
	movl	1512(%rsp), %r8d
	addq	16(%rsp), %r8
	xorl	%eax, %eax
	jmp	.LBB1_164
.LBB1_14:
	leaq	48(%rsp), %rax
	movq	%rax, 248(%rsp)
	movq	$0, 256(%rsp)
	movq	56(%rsp), %rdi
	movq	%r12, %rsi
	movq	%r15, %rdx
	movq	%rbx, %rcx
	movq	%r13, %r8
	callq	json__unescape__unescape
	cmpb	$1, %al
	jne	.LBB1_174
	movq	%rdx, %rbp
	leaq	(%rbx,%rdx), %rax
	subq	%rdx, %r13
	movq	%rax, 248(%rsp)
	movq	%r13, 256(%rsp)
	pxor	%xmm0, %xmm0
	movdqa	%xmm0, 16(%rsp)
	movdqa	%xmm0, 32(%rsp)
	movq	192(%rsp), %rcx
	movq	200(%rsp), %rdx
	leaq	1(%rdx), %rax
	movq	%rax, 200(%rsp)
	cmpq	216(%rsp), %rax
	jne	.LBB1_76
	movq	176(%rsp), %rsi
	movq	184(%rsp), %rdx
	movq	224(%rsp), %r8
	movzwl	232(%rsp), %eax
	movw	%ax, 92(%rsp)
	movzbl	234(%rsp), %eax
	movb	%al, 94(%rsp)
	leaq	16(%rsp), %rdi
	leaq	92(%rsp), %r9
	callq	json__index__refill
	movdqa	16(%rsp), %xmm0
	movdqa	32(%rsp), %xmm1
	leaq	208(%rsp), %rax
	movdqu	%xmm1, 16(%rax)
	movdqu	%xmm0, (%rax)
	movq	$0, 200(%rsp)
	movq	192(%rsp), %rcx
	cmpq	$0, 24(%rsp)
	je	.LBB1_87
	movl	(%rcx), %r8d
	addq	16(%rsp), %r8
	jmp	.LBB1_88
.LBB1_76:
	movl	4(%rcx,%rdx,4), %r8d
	addq	208(%rsp), %r8
	jmp	.LBB1_89
.LBB1_77:
	movl	1516(%rsp), %ecx
	addq	208(%rsp), %rcx
	movl	$2, %eax
	jmp	.LBB1_92
.LBB1_78:
	rep		bsfl	%ecx, %ebx
	addq	%rdx, %rbx
	cmpq	%r13, %rbx
	je	.LBB1_177
.LBB1_79:
	cmpq	%r12, %rbx
	jae	.LBB1_99
	cmpb	$46, (%rbp,%rbx)
	jne	.LBB1_99
	leaq	1(%rbx), %r13
	movq	%r12, %rax
	subq	%r13, %rax
	movq	%r13, %rdx
	cmpq	$16, %rax
	jb	.LBB1_86
	notq	%rbx
	movq	%rbp, %rax
	addq	%r13, %rax
.LBB1_83:
	movdqu	(%rax), %xmm0
	paddb	.LCPI1_3(%rip), %xmm0
	movdqa	.LCPI1_4(%rip), %xmm1
	pminub	%xmm0, %xmm1
	pcmpeqb	%xmm0, %xmm1
	pmovmskb	%xmm1, %ecx
	testl	%ecx, %ecx
	jne	.LBB1_97
	leaq	(%r12,%rbx), %rcx
	addq	$-16, %rcx
	addq	$-16, %rbx
	addq	$16, %rax
	cmpq	$15, %rcx
	ja	.LBB1_83
	negq	%rbx
	movq	%rbx, %rdx
.LBB1_86:
	movq	%rbp, %rdi
	movq	%r12, %rsi
	callq	json__run__digits_end_slowly
	movb	$3, %r10b
	jmp	.LBB1_98
.LBB1_87:
	movq	184(%rsp), %r8
.LBB1_88:
	xorl	%eax, %eax
.LBB1_89:
	movq	%r8, 240(%rsp)
	movq	160(%rsp), %rdx
	movq	168(%rsp), %rdi
	movb	$2, %sil
	cmpq	%rdi, %r8
	jb	.LBB1_165
	jmp	.LBB1_452
.LBB1_90:
	movl	1516(%rsp), %r8d
	addq	208(%rsp), %r8
	movl	$1, %eax
	jmp	.LBB1_164
.LBB1_91:
	movl	1512(%rsp), %ecx
	addq	16(%rsp), %rcx
	movl	$1, %eax
.LBB1_92:
	movq	%rcx, 240(%rsp)
	movb	$2, %r10b
	cmpq	%r12, %rcx
	jae	.LBB1_177
	cmpb	$44, (%rbp,%rcx)
	jne	.LBB1_177
	pxor	%xmm0, %xmm0
	movdqa	%xmm0, 32(%rsp)
	movdqa	%xmm0, 16(%rsp)
	movq	%rax, 200(%rsp)
	cmpq	216(%rsp), %rax
	jne	.LBB1_175
	movq	224(%rsp), %r8
	leaq	232(%rsp), %r9
	leaq	16(%rsp), %rdi
	movq	%rbp, %rsi
	movq	%r12, %rdx
	leaq	1512(%rsp), %rcx
	callq	json__index__refill
	movdqa	16(%rsp), %xmm0
	movdqa	32(%rsp), %xmm1
	leaq	208(%rsp), %rax
	movdqu	%xmm1, 16(%rax)
	movdqu	%xmm0, (%rax)
	movq	$0, 200(%rsp)
	cmpq	$0, 24(%rsp)
	movq	%r12, %rax
	je	.LBB1_176
	movl	1512(%rsp), %eax
	addq	16(%rsp), %rax
	jmp	.LBB1_176
.LBB1_97:
	rep		bsfl	%ecx, %eax
	subq	%rbx, %rax
.LBB1_98:
	movq	%rax, %rbx
	cmpq	%r13, %rax
	je	.LBB1_177
.LBB1_99:
	cmpq	%r12, %rbx
	jae	.LBB1_113
	movzbl	(%rbp,%rbx), %eax
	andb	$-33, %al
	cmpb	$69, %al
	jne	.LBB1_113
	leaq	1(%rbx), %r13
	cmpq	%r12, %r13
	jae	.LBB1_105
	movzbl	(%rbp,%r13), %eax
	cmpl	$45, %eax
	je	.LBB1_104
	cmpl	$43, %eax
	jne	.LBB1_105
.LBB1_104:
	addq	$2, %rbx
	movq	%rbx, %r13
.LBB1_105:
	movq	%r12, %rax
	subq	%r13, %rax
	movq	%r13, %rdx
	cmpq	$16, %rax
	jb	.LBB1_110
	movq	%r13, %rdx
	negq	%rdx
	movq	%rbp, %rax
	addq	%r13, %rax
.LBB1_107:
	movdqu	(%rax), %xmm0
	paddb	.LCPI1_3(%rip), %xmm0
	movdqa	.LCPI1_4(%rip), %xmm1
	pminub	%xmm0, %xmm1
	pcmpeqb	%xmm0, %xmm1
	pmovmskb	%xmm1, %ecx
	testl	%ecx, %ecx
	jne	.LBB1_111
	leaq	(%r12,%rdx), %rcx
	addq	$-16, %rcx
	addq	$-16, %rdx
	addq	$16, %rax
	cmpq	$15, %rcx
	ja	.LBB1_107
	negq	%rdx
.LBB1_110:
	movq	%rbp, %rdi
	movq	%r12, %rsi
	callq	json__run__digits_end_slowly
	movb	$3, %r10b
	movq	%rax, %rbx
	jmp	.LBB1_112
.LBB1_111:
	rep		bsfl	%ecx, %ebx
	subq	%rdx, %rbx
.LBB1_112:
	cmpq	%r13, %rbx
	je	.LBB1_177
.LBB1_113:
	cmpq	%r12, %rbx
	jae	.LBB1_118
	movzbl	(%rbp,%rbx), %eax
	cmpq	$58, %rax
	ja	.LBB1_116
	movabsq	$288247972632733184, %rcx
	btq	%rax, %rcx
	jb	.LBB1_118
.LBB1_116:
	addl	$-91, %eax
	cmpl	$34, %eax
	ja	.LBB1_177
	movabsq	$21474836485, %rcx
	btq	%rax, %rcx
	jae	.LBB1_177
.LBB1_118:
	subq	%r14, %rbx
	movb	$6, %bpl
.LBB1_119:
	xorl	%r13d, %r13d
.LBB1_120:
	pxor	%xmm0, %xmm0
	movdqa	%xmm0, 32(%rsp)
	movdqa	%xmm0, 16(%rsp)
	movq	$1, 200(%rsp)
	cmpq	$1, 216(%rsp)
	jne	.LBB1_123
	movq	224(%rsp), %r8
	leaq	1240(%rsp), %r9
	leaq	16(%rsp), %rdi
	movq	56(%rsp), %rsi
	movq	%r12, %rdx
	leaq	1512(%rsp), %rcx
	callq	json__index__refill
	movdqa	16(%rsp), %xmm0
	movdqa	32(%rsp), %xmm1
	leaq	208(%rsp), %rax
	movdqu	%xmm1, 16(%rax)
	movdqu	%xmm0, (%rax)
	movq	$0, 200(%rsp)
	cmpq	$0, 24(%rsp)
	je	.LBB1_128
	movl	1512(%rsp), %ecx
	addq	16(%rsp), %rcx
	movl	$1, %eax
	movq	%rcx, 240(%rsp)
	movb	$2, %dl
	cmpq	%r12, %rcx
	jb	.LBB1_124
	jmp	.LBB1_129
.LBB1_123:
	movl	1516(%rsp), %ecx
	addq	208(%rsp), %rcx
	movl	$2, %eax
	movq	%rcx, 240(%rsp)
	movb	$2, %dl
	cmpq	%r12, %rcx
	jae	.LBB1_129
.LBB1_124:
	movq	56(%rsp), %rsi
	cmpb	$44, (%rsi,%rcx)
	jne	.LBB1_129
	pxor	%xmm0, %xmm0
	movdqa	%xmm0, 32(%rsp)
	movdqa	%xmm0, 16(%rsp)
	movq	%rax, 200(%rsp)
	cmpq	216(%rsp), %rax
	jne	.LBB1_134
	movq	224(%rsp), %r8
	leaq	232(%rsp), %r9
	leaq	16(%rsp), %rdi
	movq	56(%rsp), %rsi
	movq	%r12, %rdx
	leaq	1512(%rsp), %rcx
	callq	json__index__refill
	movdqa	16(%rsp), %xmm0
	movdqa	32(%rsp), %xmm1
	leaq	208(%rsp), %rax
	movdqu	%xmm1, 16(%rax)
	movdqu	%xmm0, (%rax)
	movq	$0, 200(%rsp)
	cmpq	$0, 24(%rsp)
	movq	%r12, %rax
	je	.LBB1_135
	movl	1512(%rsp), %eax
	addq	16(%rsp), %rax
	jmp	.LBB1_135
.LBB1_128:
	movq	%r12, 240(%rsp)
	movb	$2, %dl
.LBB1_129:
	movb	%dl, 264(%rsp)
	cmpb	$6, %bpl
	je	.LBB1_136
.LBB1_130:
	movzbl	%bpl, %eax
	cmpl	$7, %eax
	jne	.LBB1_132
	movb	$1, %al
	movq	%rax, 72(%rsp)
	jmp	.LBB1_133
.LBB1_132:
	movq	$0, 72(%rsp)
	xorl	%r13d, %r13d
.LBB1_133:
	xorl	%r15d, %r15d
	xorl	%ebp, %ebp
	jmp	.LBB1_138
.LBB1_134:
	movl	1512(%rsp,%rax,4), %eax
	addq	208(%rsp), %rax
.LBB1_135:
	movq	%rax, 240(%rsp)
	xorl	%edx, %edx
	movb	%dl, 264(%rsp)
	cmpb	$6, %bpl
	jne	.LBB1_130
.LBB1_136:
	leaq	1152(%rsp), %rdi
	movq	%r15, %rsi
	movq	%rbx, %rdx
	callq	serde_json__number__Number__parse
	cmpb	$1, 1152(%rsp)
	jne	.LBB1_159
	movzbl	1160(%rsp), %r15d
	movb	$2, %al
	movq	%rax, 72(%rsp)
	movq	1168(%rsp), %rbp
	xorl	%r13d, %r13d
.LBB1_138:
	movq	$0, 8(%rsp)
.LBB1_139:
	movq	240(%rsp), %r8
	movzbl	264(%rsp), %eax
	movq	168(%rsp), %rbx
	movq	%rbx, %rsi
	subq	%r8, %rsi
	jbe	.LBB1_145
	movq	160(%rsp), %r14
	movzbl	(%r14,%r8), %ecx
	movl	%ecx, %edx
	andb	$-33, %dl
	cmpb	$93, %dl
	jne	.LBB1_143
	leal	-1(%rax), %ecx
	cmpb	$1, %cl
	jbe	.LBB1_156
.LBB1_142:
	movb	$3, 264(%rsp)
	cmpb	$3, %al
	je	.LBB1_146
	jmp	.LBB1_1073
.LBB1_143:
	cmpl	$32, %ecx
	ja	.LBB1_147
	movl	%ecx, %edx
	movabsq	$4294977024, %rdi
	btq	%rdx, %rdi
	jae	.LBB1_147
.LBB1_145:
	leal	-3(%rax), %ecx
	leal	-4(%rax), %edx
	cmpb	$-2, %cl
	movzbl	%al, %eax
	movl	$3, %ecx
	cmovael	%eax, %ecx
	movb	%cl, 264(%rsp)
	cmpb	$-3, %dl
	jb	.LBB1_1073
.LBB1_146:
	movq	%r15, %rbx
	shrq	$8, %rbx
	movb	$1, %r14b
	movl	%r15d, %r12d
	movq	72(%rsp), %r15
	cmpq	$0, 1504(%rsp)
	je	.LBB1_180
.LBB1_179:
	movq	1488(%rsp), %rdi
	callq	rattle_dealloc@PLT
.LBB1_180:
	cmpq	$0, 17912(%rsp)
	je	.LBB1_182
	movq	17896(%rsp), %rdi
	callq	rattle_dealloc@PLT
.LBB1_182:
	testb	%r14b, %r14b
	je	.LBB1_190
	shlq	$8, %rbx
	movzbl	%r12b, %r14d
	orq	%rbx, %r14
	movb	%r15b, 768(%rsp)
	movb	%r13b, 769(%rsp)
	movq	%r14, 776(%rsp)
	movq	%rbp, 784(%rsp)
	movq	8(%rsp), %rax
	movq	%rax, 792(%rsp)
	cmpb	$5, %r15b
	jne	.LBB1_192
	leaq	.Lstatic.20(%rip), %rdi
	leaq	768(%rsp), %rdx
	movl	$7, %esi
	callq	serde_json__index__RefStrIndex__index_into
	cmpb	$1, %al
	jne	.LBB1_194
	movb	$8, %bl
	cmpb	$2, (%rdx)
	jne	.LBB1_195
	movb	$5, %bl
	cmpb	$0, 8(%rdx)
	jne	.LBB1_195
	movq	16(%rdx), %rax
	cmpq	$1, %rax
	je	.LBB1_423
	cmpq	$2, %rax
	jne	.LBB1_195
	movb	$1, %r13b
	movb	$8, %al
	movq	%rax, 128(%rsp)
	jmp	.LBB1_424
.LBB1_190:
	movq	136(%rsp), %rbp
.LBB1_191:
	xorl	%eax, %eax
	cmpb	$2, %r15b
	movl	$6, %ebx
	cmovnel	%eax, %ebx
	jmp	.LBB1_200
.LBB1_192:
	movb	$0, 108(%rsp)
	movl	$0, 104(%rsp)
	pxor	%xmm0, %xmm0
	movdqa	%xmm0, 736(%rsp)
	movq	$0, 752(%rsp)
	movq	%r15, %rax
	movb	$1, %r15b
	movb	$8, %bl
	cmpb	$3, %al
	jae	.LBB1_208
.LBB1_193:
	xorl	%ecx, %ecx
	xorl	%r13d, %r13d
	xorl	%esi, %esi
	xorl	%r10d, %r10d
	xorl	%r12d, %r12d
	xorl	%r14d, %r14d
	xorl	%edx, %edx
	movq	136(%rsp), %rbp
	jmp	.LBB1_199
.LBB1_194:
	movl	%eax, %ebx
	notb	%bl
	andb	$1, %bl
.LBB1_195:
	movb	$0, 108(%rsp)
	movl	$0, 104(%rsp)
.LBB1_196:
	pxor	%xmm0, %xmm0
	movdqa	%xmm0, 736(%rsp)
	movq	$0, 752(%rsp)
	movb	$1, %r15b
	xorl	%edx, %edx
	xorl	%r14d, %r14d
	movq	$0, 56(%rsp)
	xorl	%r10d, %r10d
	xorl	%esi, %esi
	xorl	%r13d, %r13d
	xorl	%ecx, %ecx
	cmpb	$1, %r12b
	jne	.LBB1_198
.LBB1_197:
	movq	%rbp, %rdi
	movq	%rcx, %r12
	movq	%rsi, %rbp
	movl	%r15d, 72(%rsp)
	movq	%r14, 8(%rsp)
	movq	%r10, %r14
	movq	%rdx, %r15
	callq	std_collections__btree__node__Node__destroy____c5f5f6176bb236a5_
	movq	%r15, %rdx
	movq	%r14, %r10
	movq	8(%rsp), %r14
	movl	72(%rsp), %r15d
	movq	%rbp, %rsi
	movq	%r12, %rcx
.LBB1_198:
	movq	136(%rsp), %rbp
	movq	56(%rsp), %r12
.LBB1_199:
	movzbl	108(%rsp), %eax
	movb	%al, 724(%rsp)
	movl	104(%rsp), %eax
	movl	%eax, 720(%rsp)
	movdqa	736(%rsp), %xmm0
	movdqa	%xmm0, 1088(%rsp)
	movq	752(%rsp), %rax
	movq	%rax, 1104(%rsp)
	testb	%r15b, %r15b
	je	.LBB1_203
.LBB1_200:
	movw	$1, (%rbp)
	movb	%bl, 2(%rbp)
.LBB1_201:
	pxor	%xmm0, %xmm0
	movdqu	%xmm0, 8(%rbp)
	movq	$0, 24(%rbp)
.LBB1_202:
	addq	$17928, %rsp
	popq	%rbx
	popq	%r12
	popq	%r13
	popq	%r14
	popq	%r15
	popq	%rbp
	retq
.LBB1_203:
	testb	%dl, %dl
	je	.LBB1_212
	movq	%r14, 8(%rsp)
	movq	%r13, 64(%rsp)
	pxor	%xmm0, %xmm0
	movdqa	%xmm0, 816(%rsp)
	movdqu	%xmm0, 831(%rsp)
	movdqa	%xmm0, 496(%rsp)
	movdqa	%xmm0, 512(%rsp)
	movdqa	%xmm0, 528(%rsp)
	movdqa	%xmm0, 544(%rsp)
	movdqa	%xmm0, 560(%rsp)
	movdqa	%xmm0, 576(%rsp)
	movdqa	%xmm0, 592(%rsp)
	movdqa	%xmm0, 608(%rsp)
	movdqa	%xmm0, 624(%rsp)
	movdqa	%xmm0, 640(%rsp)
	movdqa	%xmm0, 656(%rsp)
	movdqa	%xmm0, 672(%rsp)
	movdqa	%xmm0, 688(%rsp)
	movq	$0, 704(%rsp)
	movdqa	%xmm0, 432(%rsp)
	movq	$0, 448(%rsp)
	leaq	48(%rsp), %r13
	movq	%r13, 16(%rsp)
	movdqu	%xmm0, 24(%rsp)
	movdqa	%xmm0, 1504(%rsp)
	movdqa	%xmm0, 1488(%rsp)
	movzbl	%r10b, %r14d
	testb	%r14b, %r14b
	movq	%rsi, 72(%rsp)
	movq	%rcx, 96(%rsp)
	je	.LBB1_220
	movq	%r10, %r15
	leal	(,%r14,8), %ebx
	movl	$8, %esi
	movq	%rbx, %rdi
	callq	rattle_alloc@PLT
	testb	$1, %al
	je	.LBB1_1051
	movq	%r14, 144(%rsp)
	cmpb	$1, %r15b
	jne	.LBB1_357
	xorl	%eax, %eax
	jmp	.LBB1_358
.LBB1_208:
	movzbl	%al, %eax
	cmpl	$3, %eax
	jne	.LBB1_215
	cmpq	$0, 8(%rsp)
	movq	136(%rsp), %rbp
	je	.LBB1_211
	movq	%r14, %rdi
	callq	rattle_dealloc@PLT
.LBB1_211:
	xorl	%ecx, %ecx
	xorl	%r13d, %r13d
	xorl	%esi, %esi
	xorl	%r10d, %r10d
	xorl	%r12d, %r12d
	xorl	%r14d, %r14d
	xorl	%edx, %edx
	jmp	.LBB1_199
.LBB1_212:
	movb	%r14b, 960(%rsp)
	movb	%r12b, 961(%rsp)
	movb	%r10b, 962(%rsp)
	movl	720(%rsp), %eax
	movl	%eax, 963(%rsp)
	movzbl	724(%rsp), %eax
	movb	%al, 967(%rsp)
	movq	%rsi, 968(%rsp)
	movq	%r13, 976(%rsp)
	movq	%rcx, 984(%rsp)
	movdqa	1088(%rsp), %xmm0
	movdqa	%xmm0, 992(%rsp)
	movq	1104(%rsp), %rax
	movq	%rax, 1008(%rsp)
	leaq	1248(%rsp), %rdi
	leaq	960(%rsp), %rdx
	movq	144(%rsp), %rsi
	callq	ww_run__workers__run_scripts____59e099481e3f78dd_
	cmpb	$0, .Lstatic.0(%rip)
	jne	.LBB1_1327
	cmpb	$0, 1248(%rsp)
	je	.LBB1_221
	movzbl	1249(%rsp), %eax
	movw	$257, (%rbp)
	movb	%al, 2(%rbp)
	jmp	.LBB1_201
.LBB1_215:
	testq	%rbp, %rbp
	leaq	1496(%rsp), %r13
	je	.LBB1_218
	movq	%r14, %r12
	.p2align	4
.LBB1_217:
	movzwl	(%r12), %eax
	movq	$0, 1488(%rsp)
	movw	%ax, 1488(%rsp)
	movq	24(%r12), %rax
	movq	%rax, 16(%r13)
	movdqu	8(%r12), %xmm0
	movdqu	%xmm0, (%r13)
	leaq	1488(%rsp), %rdi
	callq	ww_script__serde_json__value__Value_Destruct__drop
	addq	$32, %r12
	decq	%rbp
	jne	.LBB1_217
.LBB1_218:
	cmpq	$0, 8(%rsp)
	je	.LBB1_193
	movq	%r14, %rdi
	callq	rattle_dealloc@PLT
	jmp	.LBB1_193
.LBB1_220:
	movq	%r14, 144(%rsp)
	xorl	%edx, %edx
	movq	%r13, 112(%rsp)
	movq	%r13, %r14
	xorl	%edi, %edi
	jmp	.LBB1_403
.LBB1_147:
	cmpb	$2, %al
	jae	.LBB1_142
	movb	$3, %r9b
	leal	-34(%rcx), %eax
	cmpl	$89, %eax
	ja	.LBB1_1117
	leaq	(%r14,%r8), %rdi
	leaq	.LJTI1_1(%rip), %rdx
	movslq	(%rdx,%rax,4), %rax
	addq	%rdx, %rax
	jmpq	*%rax
.LBB1_1111:
	movq	%r8, %rbx
	pxor	%xmm0, %xmm0
	movdqa	%xmm0, 16(%rsp)
	movdqa	%xmm0, 32(%rsp)
	movq	192(%rsp), %rcx
	movq	200(%rsp), %rax
	leaq	1(%rax), %rdx
	movq	%rdx, 200(%rsp)
	cmpq	216(%rsp), %rdx
	jne	.LBB1_1115
	movq	176(%rsp), %rsi
	movq	184(%rsp), %rdx
	movq	224(%rsp), %r8
	movzwl	232(%rsp), %eax
	movw	%ax, 432(%rsp)
	movzbl	234(%rsp), %eax
	movb	%al, 434(%rsp)
	leaq	16(%rsp), %rdi
	leaq	432(%rsp), %r9
	callq	json__index__refill
	movdqa	16(%rsp), %xmm0
	movdqa	32(%rsp), %xmm1
	leaq	208(%rsp), %rax
	movdqu	%xmm1, 16(%rax)
	movdqu	%xmm0, (%rax)
	movq	$0, 200(%rsp)
	cmpq	$0, 24(%rsp)
	jne	.LBB1_1113
	movq	184(%rsp), %rax
	jmp	.LBB1_1116
.LBB1_221:
	movq	1256(%rsp), %r15
	movq	1264(%rsp), %rcx
	movq	1272(%rsp), %rax
	movq	%rax, 424(%rsp)
	movzbl	1280(%rsp), %eax
	movb	%al, 80(%rsp)
	movq	1288(%rsp), %rax
	movq	%rax, 472(%rsp)
	movq	1296(%rsp), %rax
	movq	%rax, 128(%rsp)
	movq	1304(%rsp), %rax
	movq	%rax, 488(%rsp)
	movzbl	1312(%rsp), %eax
	movq	%rax, 64(%rsp)
	movq	1320(%rsp), %rax
	movq	%rax, 480(%rsp)
	movzbl	1328(%rsp), %eax
	movq	%rax, 120(%rsp)
	movq	1336(%rsp), %rax
	movq	%rax, 112(%rsp)
	leaq	48(%rsp), %rbx
	movq	%rbx, 160(%rsp)
	pxor	%xmm0, %xmm0
	movdqu	%xmm0, 168(%rsp)
	movq	%rcx, 8(%rsp)
	testq	%rcx, %rcx
	movq	%r15, 72(%rsp)
	je	.LBB1_379
	xorl	%r14d, %r14d
	xorl	%ebp, %ebp
	xorl	%esi, %esi
	jmp	.LBB1_224
.LBB1_223:
	incq	%rsi
	cmpq	8(%rsp), %rsi
	movq	72(%rsp), %r15
	je	.LBB1_379
.LBB1_224:
	leaq	(%rsi,%rsi,2), %rax
	movq	8(%r15,%rax,8), %rcx
	movq	%rcx, 96(%rsp)
	testq	%rcx, %rcx
	je	.LBB1_223
	movq	(%r15,%rax,8), %rax
	movq	%rax, 144(%rsp)
	xorl	%r15d, %r15d
	movq	%rsi, 56(%rsp)
.LBB1_226:
	pxor	%xmm0, %xmm0
	movdqa	%xmm0, 1504(%rsp)
	movdqa	%xmm0, 1488(%rsp)
	movq	$0, 1520(%rsp)
	movq	%r14, %rax
	subq	%rbp, %rax
	cmpq	$5, %rax
	jbe	.LBB1_274
.LBB1_227:
	leaq	(%rbx,%rbp), %rax
	leaq	.Lstatic.59(%rip), %rcx
	movq	%rax, %rdx
	subq	%rcx, %rdx
	cmpq	$5, %rdx
	ja	.LBB1_229
	movl	$1819305330, (%rax)
	movw	$8313, 4(%rax)
	jmp	.LBB1_230
.LBB1_229:
	movw	$8313, 4(%rax)
	movl	$1819305330, (%rax)
.LBB1_230:
	addq	$6, %rbp
	movq	%rbx, 160(%rsp)
	movq	%rbp, 168(%rsp)
	movq	%r14, 176(%rsp)
	movl	$40, %r13d
	movabsq	$3777893186295716171, %r12
	movq	%rsi, %rdx
	cmpq	$10000, %rsi
	jb	.LBB1_233
	movq	%rsi, %rcx
	.p2align	4
.LBB1_232:
	movq	%rcx, %rax
	mulq	%r12
	shrq	$11, %rdx
	imull	$10000, %edx, %eax
	movl	%ecx, %esi
	subl	%eax, %esi
	imull	$5243, %esi, %eax
	shrl	$19, %eax
	imull	$100, %eax, %edi
	subl	%edi, %esi
	movzwl	%si, %esi
	leaq	.Lstatic.62(%rip), %rdi
	movzwl	(%rdi,%rsi,2), %esi
	movw	%si, 1486(%rsp,%r13)
	movzwl	(%rdi,%rax,2), %eax
	movw	%ax, 1484(%rsp,%r13)
	addq	$-4, %r13
	cmpq	$99999999, %rcx
	movq	%rdx, %rcx
	ja	.LBB1_232
.LBB1_233:
	cmpq	$99, %rdx
	ja	.LBB1_236
	cmpq	$9, %rdx
	ja	.LBB1_238
	orb	$48, %dl
	movb	%dl, 1487(%rsp,%r13)
	decq	%r13
	jmp	.LBB1_240
.LBB1_236:
	movl	%edx, %eax
	shrl	$2, %eax
	movzwl	%ax, %eax
	imull	$5243, %eax, %eax
	shrl	$17, %eax
	imull	$100, %eax, %ecx
	movl	%edx, %esi
	subl	%ecx, %esi
	movzwl	%si, %esi
	leaq	.Lstatic.62(%rip), %rcx
	movzwl	(%rcx,%rsi,2), %esi
	movw	%si, 1486(%rsp,%r13)
	cmpq	$999, %rdx
	ja	.LBB1_239
	orb	$48, %al
	movb	%al, 1485(%rsp,%r13)
	addq	$-3, %r13
	jmp	.LBB1_240
.LBB1_238:
	leaq	.Lstatic.62(%rip), %rax
	movzwl	(%rax,%rdx,2), %eax
	movw	%ax, 1486(%rsp,%r13)
	addq	$-2, %r13
	jmp	.LBB1_240
.LBB1_239:
	movzwl	%ax, %eax
	movzwl	(%rcx,%rax,2), %eax
	movw	%ax, 1484(%rsp,%r13)
	addq	$-4, %r13
.LBB1_240:
	movl	$40, %edx
	subq	%r13, %rdx
	movq	%r14, %rax
	subq	%rbp, %rax
	cmpq	%rax, %rdx
	ja	.LBB1_276
.LBB1_241:
	leaq	(%rsp,%r13), %rsi
	addq	$1488, %rsi
	leaq	(%rbx,%rbp), %rdi
	addq	%rdx, %rbp
	callq	memcpy@PLT
	movq	%rbx, 160(%rsp)
	movq	%rbp, 168(%rsp)
	movq	%r14, 176(%rsp)
	pxor	%xmm0, %xmm0
	movdqa	%xmm0, 1504(%rsp)
	movdqa	%xmm0, 1488(%rsp)
	movq	$0, 1520(%rsp)
	cmpq	%rbp, %r14
	je	.LBB1_278
.LBB1_242:
	movb	$32, (%rbx,%rbp)
	incq	%rbp
	movq	%rbx, 160(%rsp)
	movq	%rbp, 168(%rsp)
	movq	%r14, 176(%rsp)
	movl	$40, %r13d
	movq	%r15, %rdx
	cmpq	$10000, %r15
	jb	.LBB1_245
	movq	%r15, %rcx
	.p2align	4
.LBB1_244:
	movq	%rcx, %rax
	mulq	%r12
	shrq	$11, %rdx
	imull	$10000, %edx, %eax
	movl	%ecx, %esi
	subl	%eax, %esi
	imull	$5243, %esi, %eax
	shrl	$19, %eax
	imull	$100, %eax, %edi
	subl	%edi, %esi
	movzwl	%si, %esi
	leaq	.Lstatic.62(%rip), %rdi
	movzwl	(%rdi,%rsi,2), %esi
	movw	%si, 1486(%rsp,%r13)
	movzwl	(%rdi,%rax,2), %eax
	movw	%ax, 1484(%rsp,%r13)
	addq	$-4, %r13
	cmpq	$99999999, %rcx
	movq	%rdx, %rcx
	ja	.LBB1_244
.LBB1_245:
	cmpq	$99, %rdx
	ja	.LBB1_248
	cmpq	$9, %rdx
	ja	.LBB1_250
	orb	$48, %dl
	movb	%dl, 1487(%rsp,%r13)
	decq	%r13
	jmp	.LBB1_252
.LBB1_248:
	movl	%edx, %eax
	shrl	$2, %eax
	movzwl	%ax, %eax
	imull	$5243, %eax, %eax
	shrl	$17, %eax
	imull	$100, %eax, %ecx
	movl	%edx, %esi
	subl	%ecx, %esi
	movzwl	%si, %esi
	leaq	.Lstatic.62(%rip), %rcx
	movzwl	(%rcx,%rsi,2), %esi
	movw	%si, 1486(%rsp,%r13)
	cmpq	$999, %rdx
	ja	.LBB1_251
	orb	$48, %al
	movb	%al, 1485(%rsp,%r13)
	addq	$-3, %r13
	jmp	.LBB1_252
.LBB1_250:
	leaq	.Lstatic.62(%rip), %rax
	movzwl	(%rax,%rdx,2), %eax
	movw	%ax, 1486(%rsp,%r13)
	addq	$-2, %r13
	jmp	.LBB1_252
.LBB1_251:
	movzwl	%ax, %eax
	movzwl	(%rcx,%rax,2), %eax
	movw	%ax, 1484(%rsp,%r13)
	addq	$-4, %r13
.LBB1_252:
	movl	$40, %edx
	subq	%r13, %rdx
	movq	%r14, %rax
	subq	%rbp, %rax
	cmpq	%rax, %rdx
	ja	.LBB1_280
.LBB1_253:
	leaq	(%rsp,%r13), %rsi
	addq	$1488, %rsi
	leaq	(%rbx,%rbp), %rdi
	addq	%rdx, %rbp
	callq	memcpy@PLT
	movq	%rbx, 160(%rsp)
	movq	%rbp, 168(%rsp)
	movq	%r14, 176(%rsp)
	cmpq	%rbp, %r14
	je	.LBB1_282
.LBB1_254:
	movq	%r15, %rax
	shlq	$4, %rax
	leaq	(%rax,%rax,2), %r13
	movb	$32, (%rbx,%rbp)
	incq	%rbp
	movq	%rbx, 160(%rsp)
	movq	%rbp, 168(%rsp)
	movq	%r14, 176(%rsp)
	movq	144(%rsp), %rsi
	movzbl	(%rsi,%r13), %eax
	leaq	.LJTI1_5(%rip), %rcx
	movslq	(%rcx,%rax,4), %rax
	addq	%rcx, %rax
	jmpq	*%rax
.LBB1_255:
	movzbl	16(%rsi,%r13), %eax
	leaq	.LJTI1_6(%rip), %rcx
	movslq	(%rcx,%rax,4), %rax
	addq	%rcx, %rax
	jmpq	*%rax
.LBB1_256:
	movq	%r14, %rax
	subq	%rbp, %rax
	cmpq	$5, %rax
	jbe	.LBB1_345
.LBB1_257:
	leaq	(%rbx,%rbp), %rax
	leaq	.Lstatic.67(%rip), %rcx
	movq	%rax, %rdx
	subq	%rcx, %rdx
	cmpq	$5, %rdx
	movq	56(%rsp), %rsi
	ja	.LBB1_315
	movl	$1970037110, (%rax)
	movw	$29541, 4(%rax)
	jmp	.LBB1_316
.LBB1_259:
	movzbl	1(%rsi,%r13), %ecx
	leaq	.Lstatic.64(%rip), %rsi
	leaq	160(%rsp), %rdi
	movl	$12, %edx
	jmp	.LBB1_264
.LBB1_260:
	movq	%r14, %rax
	subq	%rbp, %rax
	cmpb	$1, 1(%rsi,%r13)
	jne	.LBB1_270
	cmpq	$8, %rax
	movq	56(%rsp), %rsi
	jbe	.LBB1_331
.LBB1_262:
	leaq	(%rbx,%rbp), %rax
	leaq	.Lstatic.65(%rip), %rcx
	movq	%rax, %rdx
	subq	%rcx, %rdx
	movabsq	$7308335478031147363, %rcx
	cmpq	$8, %rdx
	movq	%rcx, (%rax)
	movb	$100, 8(%rax)
	addq	$9, %rbp
	jmp	.LBB1_310
.LBB1_263:
	movzbl	1(%rsi,%r13), %ecx
	leaq	.Lstatic.63(%rip), %rsi
	leaq	160(%rsp), %rdi
	movl	$8, %edx
.LBB1_264:
	callq	ww_json__pieces__push_number____d61698437832fad8_
.LBB1_265:
	testb	%al, %al
	movq	56(%rsp), %rsi
	je	.LBB1_311
	jmp	.LBB1_266
.LBB1_270:
	cmpq	$6, %rax
	movq	56(%rsp), %rsi
	jbe	.LBB1_333
.LBB1_271:
	leaq	(%rbx,%rbp), %rax
	leaq	.Lstatic.66(%rip), %rcx
	movq	%rax, %rdx
	subq	%rcx, %rdx
	cmpq	$6, %rdx
	ja	.LBB1_273
	movl	$1684956528, (%rax)
	movw	$28265, 4(%rax)
	movb	$103, 6(%rax)
	addq	$7, %rbp
	jmp	.LBB1_310
.LBB1_273:
	movl	$1735289188, 3(%rax)
	movl	$1684956528, (%rax)
	addq	$7, %rbp
	jmp	.LBB1_310
.LBB1_274:
	leaq	160(%rsp), %rdi
	movl	$6, %esi
	callq	std_alloc__vec__Vec__grow_amortized____08710997ffb5faad_
	testb	%al, %al
	je	.LBB1_266
	movq	160(%rsp), %rbx
	movq	168(%rsp), %rbp
	movq	176(%rsp), %r14
	movq	56(%rsp), %rsi
	jmp	.LBB1_227
.LBB1_276:
	leaq	160(%rsp), %rdi
	movq	%rdx, 152(%rsp)
	movq	%rdx, %rsi
	callq	std_alloc__vec__Vec__grow_amortized____08710997ffb5faad_
	testb	%al, %al
	je	.LBB1_266
	movq	160(%rsp), %rbx
	movq	168(%rsp), %rbp
	movq	176(%rsp), %r14
	movq	152(%rsp), %rdx
	jmp	.LBB1_241
.LBB1_278:
	leaq	160(%rsp), %rdi
	movl	$1, %esi
	callq	std_alloc__vec__Vec__grow_amortized____08710997ffb5faad_
	testb	%al, %al
	je	.LBB1_266
	movq	160(%rsp), %rbx
	movq	168(%rsp), %rbp
	movq	176(%rsp), %r14
	jmp	.LBB1_242
.LBB1_280:
	leaq	160(%rsp), %rdi
	movq	%rdx, 152(%rsp)
	movq	%rdx, %rsi
	callq	std_alloc__vec__Vec__grow_amortized____08710997ffb5faad_
	testb	%al, %al
	je	.LBB1_266
	movq	160(%rsp), %rbx
	movq	168(%rsp), %rbp
	movq	176(%rsp), %r14
	movq	152(%rsp), %rdx
	jmp	.LBB1_253
.LBB1_282:
	leaq	160(%rsp), %rdi
	movl	$1, %esi
	callq	std_alloc__vec__Vec__grow_amortized____08710997ffb5faad_
	testb	%al, %al
	je	.LBB1_266
	movq	160(%rsp), %rbx
	movq	168(%rsp), %rbp
	movq	176(%rsp), %r14
	jmp	.LBB1_254
.LBB1_284:
	movq	%r14, %rax
	subq	%rbp, %rax
	cmpq	$3, %rax
	jbe	.LBB1_339
.LBB1_285:
	movl	$1819047270, (%rbx,%rbp)
	jmp	.LBB1_295
.LBB1_286:
	movq	%r14, %rax
	subq	%rbp, %rax
	cmpq	$4, %rax
	jbe	.LBB1_341
.LBB1_287:
	leaq	(%rbx,%rbp), %rax
	leaq	.Lstatic.69(%rip), %rcx
	movq	%rax, %rdx
	subq	%rcx, %rdx
	cmpq	$4, %rdx
	movq	56(%rsp), %rsi
	ja	.LBB1_307
	movl	$1702260589, (%rax)
	movb	$100, 4(%rax)
	jmp	.LBB1_309
.LBB1_289:
	movq	%r14, %rax
	subq	%rbp, %rax
	cmpq	$4, %rax
	jbe	.LBB1_343
.LBB1_290:
	leaq	(%rbx,%rbp), %rax
	leaq	.Lstatic.70(%rip), %rcx
	movq	%rax, %rdx
	subq	%rcx, %rdx
	cmpq	$4, %rdx
	movq	56(%rsp), %rsi
	ja	.LBB1_308
	movl	$1919903859, (%rax)
	movb	$116, 4(%rax)
	jmp	.LBB1_309
.LBB1_292:
	movzbl	17(%rsi,%r13), %ecx
	leaq	.Lstatic.74(%rip), %rsi
	leaq	160(%rsp), %rdi
	movl	$4, %edx
	jmp	.LBB1_264
.LBB1_293:
	movq	%r14, %rax
	subq	%rbp, %rax
	cmpq	$3, %rax
	jbe	.LBB1_347
.LBB1_294:
	movl	$1701736292, (%rbx,%rbp)
.LBB1_295:
	addq	$4, %rbp
	movq	%rbx, 160(%rsp)
	movq	%rbp, 168(%rsp)
	movq	%r14, 176(%rsp)
	movq	56(%rsp), %rsi
	jmp	.LBB1_311
.LBB1_296:
	movq	%r14, %rax
	subq	%rbp, %rax
	cmpq	$2, %rax
	jbe	.LBB1_349
.LBB1_297:
	leaq	(%rbx,%rbp), %rax
	leaq	.Lstatic.72(%rip), %rcx
	movq	%rax, %rdx
	subq	%rcx, %rdx
	cmpq	$2, %rdx
	ja	.LBB1_320
	movw	$24951, (%rax)
	movb	$115, 2(%rax)
	jmp	.LBB1_321
.LBB1_299:
	movzbl	17(%rsi,%r13), %ecx
	leaq	.Lstatic.73(%rip), %rsi
	leaq	160(%rsp), %rdi
	movl	$4, %edx
	callq	ww_json__pieces__push_number____d61698437832fad8_
	testb	%al, %al
	jne	.LBB1_266
	movq	144(%rsp), %rax
	movq	32(%rax,%r13), %rbx
	movq	40(%rax,%r13), %r13
	pxor	%xmm0, %xmm0
	movdqa	%xmm0, 1504(%rsp)
	movdqa	%xmm0, 1488(%rsp)
	movq	$0, 1520(%rsp)
	movq	168(%rsp), %r14
	movq	176(%rsp), %r9
	cmpq	%r14, %r9
	je	.LBB1_351
.LBB1_301:
	movq	160(%rsp), %r10
	movb	$32, (%r10,%r14)
	incq	%r14
	movq	%r10, 160(%rsp)
	movq	%r14, 168(%rsp)
	movq	%r9, 176(%rsp)
	movl	$40, %ebp
	testq	%r13, %r13
	je	.LBB1_305
	movq	%r13, %rdi
.LBB1_303:
	movq	%r13, %rcx
	shldq	$63, %rbx, %rcx
	shrq	%rdi
	movq	%rcx, %rsi
	addq	%rdi, %rsi
	adcq	$0, %rsi
	movabsq	$-3689348814741910323, %r8
	movq	%rsi, %rax
	mulq	%r8
	shrq	$2, %rdx
	leaq	(%rdx,%rdx,4), %rax
	subq	%rax, %rsi
	subq	%rsi, %rcx
	sbbq	$0, %rdi
	movq	%rcx, %rax
	mulq	%r8
	leaq	(%rax,%rax), %rsi
	leaq	(%rsi,%rsi,4), %rsi
	subl	%esi, %ebx
	orb	$48, %bl
	movb	%bl, 1487(%rsp,%rbp)
	decq	%rbp
	movabsq	$-3689348814741910324, %rsi
	imulq	%rcx, %rsi
	addq	%rsi, %rdx
	imulq	%r8, %rdi
	addq	%rdx, %rdi
	movq	%rax, %rbx
	cmpq	$9, %r13
	movq	%rdi, %r13
	ja	.LBB1_303
	movq	%rax, %rbx
.LBB1_305:
	cmpq	$10000, %rbx
	jb	.LBB1_323
.LBB1_306:
	movq	%rbx, %rax
	mulq	%r12
	shrq	$11, %rdx
	imull	$10000, %edx, %eax
	movl	%ebx, %ecx
	subl	%eax, %ecx
	imull	$5243, %ecx, %eax
	shrl	$19, %eax
	imull	$100, %eax, %esi
	subl	%esi, %ecx
	movzwl	%cx, %ecx
	leaq	.Lstatic.62(%rip), %rsi
	movzwl	(%rsi,%rcx,2), %ecx
	movw	%cx, 1486(%rsp,%rbp)
	movzwl	(%rsi,%rax,2), %eax
	movw	%ax, 1484(%rsp,%rbp)
	addq	$-4, %rbp
	cmpq	$99999999, %rbx
	movq	%rdx, %rbx
	ja	.LBB1_306
	jmp	.LBB1_324
.LBB1_307:
	movb	$100, 4(%rax)
	movl	$1702260589, (%rax)
	jmp	.LBB1_309
.LBB1_308:
	movb	$116, 4(%rax)
	movl	$1919903859, (%rax)
.LBB1_309:
	addq	$5, %rbp
.LBB1_310:
	movq	%rbx, 160(%rsp)
	movq	%rbp, 168(%rsp)
	movq	%r14, 176(%rsp)
.LBB1_311:
	movq	168(%rsp), %rbp
	movq	176(%rsp), %r14
	cmpq	%rbp, %r14
	je	.LBB1_313
.LBB1_312:
	movq	160(%rsp), %rbx
	movb	$10, (%rbx,%rbp)
	incq	%rbp
	movq	%rbx, 160(%rsp)
	movq	%rbp, 168(%rsp)
	movq	%r14, 176(%rsp)
	incq	%r15
	cmpq	96(%rsp), %r15
	jne	.LBB1_226
	jmp	.LBB1_223
.LBB1_313:
	leaq	160(%rsp), %rdi
	movl	$1, %esi
	callq	std_alloc__vec__Vec__grow_amortized____08710997ffb5faad_
	movq	56(%rsp), %rsi
	testb	%al, %al
	je	.LBB1_266
	movq	168(%rsp), %rbp
	movq	176(%rsp), %r14
	jmp	.LBB1_312
.LBB1_315:
	movw	$29541, 4(%rax)
	movl	$1970037110, (%rax)
.LBB1_316:
	addq	$6, %rbp
	movq	%rbx, 160(%rsp)
	movq	%rbp, 168(%rsp)
	movq	%r14, 176(%rsp)
	movq	144(%rsp), %rax
	movq	32(%rax,%r13), %rbx
	testq	%rbx, %rbx
	je	.LBB1_311
	movq	144(%rsp), %rax
	movq	24(%rax,%r13), %r14
	xorl	%r12d, %r12d
.LBB1_318:
	movq	(%r14,%r12,8), %rcx
	leaq	.Lstatic.60(%rip), %rsi
	leaq	160(%rsp), %rdi
	movl	$1, %edx
	callq	ww_json__pieces__push_number____4d4e20cb341597a4_
	movq	56(%rsp), %rsi
	testb	%al, %al
	jne	.LBB1_266
	incq	%r12
	cmpq	%r12, %rbx
	jne	.LBB1_318
	jmp	.LBB1_311
.LBB1_320:
	movb	$115, 2(%rax)
	movw	$24951, (%rax)
.LBB1_321:
	addq	$3, %rbp
	movq	%rbx, 160(%rsp)
	movq	%rbp, 168(%rsp)
	movq	%r14, 176(%rsp)
	cmpb	$0, 17(%rsi,%r13)
	je	.LBB1_329
	movzbl	18(%rsi,%r13), %ecx
	leaq	.Lstatic.60(%rip), %rsi
	leaq	160(%rsp), %rdi
	movl	$1, %edx
	jmp	.LBB1_264
.LBB1_323:
	movq	%rbx, %rdx
.LBB1_324:
	cmpq	$99, %rdx
	ja	.LBB1_327
	cmpq	$9, %rdx
	ja	.LBB1_335
	orb	$48, %dl
	movb	%dl, 1487(%rsp,%rbp)
	decq	%rbp
	jmp	.LBB1_337
.LBB1_327:
	movl	%edx, %eax
	shrl	$2, %eax
	movzwl	%ax, %eax
	imull	$5243, %eax, %eax
	shrl	$17, %eax
	imull	$100, %eax, %ecx
	movl	%edx, %esi
	subl	%ecx, %esi
	movzwl	%si, %esi
	leaq	.Lstatic.62(%rip), %rcx
	movzwl	(%rcx,%rsi,2), %esi
	movw	%si, 1486(%rsp,%rbp)
	cmpq	$999, %rdx
	ja	.LBB1_336
	orb	$48, %al
	movb	%al, 1485(%rsp,%rbp)
	addq	$-3, %rbp
	jmp	.LBB1_337
.LBB1_329:
	movq	%r14, %rax
	subq	%rbp, %rax
	cmpq	$1, %rax
	jbe	.LBB1_355
.LBB1_330:
	leaq	(%rbx,%rbp), %rax
	leaq	.Lstatic.75(%rip), %rcx
	movq	%rax, %rdx
	subq	%rcx, %rdx
	cmpq	$1, %rdx
	movq	56(%rsp), %rsi
	movw	$11552, (%rax)
	addq	$2, %rbp
	jmp	.LBB1_310
.LBB1_331:
	leaq	160(%rsp), %rdi
	movl	$9, %esi
	callq	std_alloc__vec__Vec__grow_amortized____08710997ffb5faad_
	movq	56(%rsp), %rsi
	testb	%al, %al
	je	.LBB1_266
	movq	160(%rsp), %rbx
	movq	168(%rsp), %rbp
	movq	176(%rsp), %r14
	jmp	.LBB1_262
.LBB1_333:
	leaq	160(%rsp), %rdi
	movl	$7, %esi
	callq	std_alloc__vec__Vec__grow_amortized____08710997ffb5faad_
	movq	56(%rsp), %rsi
	testb	%al, %al
	je	.LBB1_266
	movq	160(%rsp), %rbx
	movq	168(%rsp), %rbp
	movq	176(%rsp), %r14
	jmp	.LBB1_271
.LBB1_335:
	leaq	.Lstatic.62(%rip), %rax
	movzwl	(%rax,%rdx,2), %eax
	movw	%ax, 1486(%rsp,%rbp)
	addq	$-2, %rbp
	jmp	.LBB1_337
.LBB1_336:
	movzwl	%ax, %eax
	movzwl	(%rcx,%rax,2), %eax
	movw	%ax, 1484(%rsp,%rbp)
	addq	$-4, %rbp
.LBB1_337:
	movl	$40, %edx
	subq	%rbp, %rdx
	movq	%r9, %rax
	subq	%r14, %rax
	cmpq	%rax, %rdx
	ja	.LBB1_353
.LBB1_338:
	leaq	(%rsp,%rbp), %rsi
	addq	$1488, %rsi
	leaq	(%r10,%r14), %rdi
	addq	%rdx, %r14
	movq	%r9, %rbx
	movq	%r10, %r12
	callq	memcpy@PLT
	movq	%r12, 160(%rsp)
	movq	%r14, 168(%rsp)
	movq	%rbx, 176(%rsp)
	xorl	%eax, %eax
	jmp	.LBB1_265
.LBB1_339:
	leaq	160(%rsp), %rdi
	movl	$4, %esi
	callq	std_alloc__vec__Vec__grow_amortized____08710997ffb5faad_
	testb	%al, %al
	je	.LBB1_266
	movq	160(%rsp), %rbx
	movq	168(%rsp), %rbp
	movq	176(%rsp), %r14
	jmp	.LBB1_285
.LBB1_341:
	leaq	160(%rsp), %rdi
	movl	$5, %esi
	callq	std_alloc__vec__Vec__grow_amortized____08710997ffb5faad_
	testb	%al, %al
	je	.LBB1_266
	movq	160(%rsp), %rbx
	movq	168(%rsp), %rbp
	movq	176(%rsp), %r14
	jmp	.LBB1_287
.LBB1_343:
	leaq	160(%rsp), %rdi
	movl	$5, %esi
	callq	std_alloc__vec__Vec__grow_amortized____08710997ffb5faad_
	testb	%al, %al
	je	.LBB1_266
	movq	160(%rsp), %rbx
	movq	168(%rsp), %rbp
	movq	176(%rsp), %r14
	jmp	.LBB1_290
.LBB1_345:
	leaq	160(%rsp), %rdi
	movl	$6, %esi
	callq	std_alloc__vec__Vec__grow_amortized____08710997ffb5faad_
	testb	%al, %al
	je	.LBB1_266
	movq	160(%rsp), %rbx
	movq	168(%rsp), %rbp
	movq	176(%rsp), %r14
	jmp	.LBB1_257
.LBB1_347:
	leaq	160(%rsp), %rdi
	movl	$4, %esi
	callq	std_alloc__vec__Vec__grow_amortized____08710997ffb5faad_
	testb	%al, %al
	je	.LBB1_266
	movq	160(%rsp), %rbx
	movq	168(%rsp), %rbp
	movq	176(%rsp), %r14
	jmp	.LBB1_294
.LBB1_349:
	leaq	160(%rsp), %rdi
	movl	$3, %esi
	callq	std_alloc__vec__Vec__grow_amortized____08710997ffb5faad_
	testb	%al, %al
	je	.LBB1_266
	movq	160(%rsp), %rbx
	movq	168(%rsp), %rbp
	movq	176(%rsp), %r14
	movq	144(%rsp), %rsi
	jmp	.LBB1_297
.LBB1_351:
	leaq	160(%rsp), %rdi
	movl	$1, %esi
	callq	std_alloc__vec__Vec__grow_amortized____08710997ffb5faad_
	movl	%eax, %ecx
	movb	$1, %al
	testb	%cl, %cl
	je	.LBB1_265
	movq	168(%rsp), %r14
	movq	176(%rsp), %r9
	jmp	.LBB1_301
.LBB1_353:
	leaq	160(%rsp), %rdi
	movq	%rdx, %rbx
	movq	%rdx, %rsi
	callq	std_alloc__vec__Vec__grow_amortized____08710997ffb5faad_
	movl	%eax, %ecx
	movb	$1, %al
	testb	%cl, %cl
	je	.LBB1_265
	movq	160(%rsp), %r10
	movq	168(%rsp), %r14
	movq	176(%rsp), %r9
	movq	%rbx, %rdx
	jmp	.LBB1_338
.LBB1_355:
	leaq	160(%rsp), %rdi
	movl	$2, %esi
	callq	std_alloc__vec__Vec__grow_amortized____08710997ffb5faad_
	testb	%al, %al
	je	.LBB1_266
	movq	160(%rsp), %rbx
	movq	168(%rsp), %rbp
	movq	176(%rsp), %r14
	jmp	.LBB1_330
.LBB1_357:
	movq	%rdx, %rdi
	leaq	-8(%rbx), %rdx
	xorl	%esi, %esi
	movq	%rdi, %r14
	callq	memset@PLT
	movq	%r14, %rdx
	movq	144(%rsp), %rax
	decq	%rax
.LBB1_358:
	movq	%rax, 80(%rsp)
	movq	$0, (%rdx,%rax,8)
	movl	$8, %esi
	movq	%rbx, %rdi
	movq	%rdx, %r14
	callq	rattle_alloc@PLT
	testb	$1, %al
	je	.LBB1_361
	movq	%r14, 112(%rsp)
	movq	%r15, %r10
	cmpb	$1, %r10b
	jne	.LBB1_401
	xorl	%edi, %edi
	movq	72(%rsp), %rsi
	movq	%rdx, %r14
	jmp	.LBB1_402
.LBB1_361:
	movq	%r14, %rdi
	jmp	.LBB1_1050
.LBB1_266:
	cmpq	$0, 176(%rsp)
	movq	136(%rsp), %rbp
	movq	72(%rsp), %r15
	je	.LBB1_268
.LBB1_267:
	movq	160(%rsp), %rdi
	callq	rattle_dealloc@PLT
.LBB1_268:
	cmpq	$0, 8(%rsp)
	je	.LBB1_372
	xorl	%r14d, %r14d
	jmp	.LBB1_363
	.p2align	4
.LBB1_362:
	incq	%r14
	cmpq	8(%rsp), %r14
	movq	72(%rsp), %r15
	je	.LBB1_372
.LBB1_363:
	leaq	(%r14,%r14,2), %rax
	movq	(%r15,%rax,8), %rbx
	movq	8(%r15,%rax,8), %r12
	movq	16(%r15,%rax,8), %r15
	testq	%r12, %r12
	je	.LBB1_370
	leaq	40(%rbx), %r13
	jmp	.LBB1_366
	.p2align	4
.LBB1_365:
	addq	$48, %r13
	decq	%r12
	je	.LBB1_370
.LBB1_366:
	cmpb	$0, -40(%r13)
	jne	.LBB1_365
	cmpb	$0, -24(%r13)
	jne	.LBB1_365
	cmpq	$0, (%r13)
	je	.LBB1_365
	movq	-16(%r13), %rdi
	callq	rattle_dealloc@PLT
	jmp	.LBB1_365
	.p2align	4
.LBB1_370:
	testq	%r15, %r15
	je	.LBB1_362
	movq	%rbx, %rdi
	callq	rattle_dealloc@PLT
	jmp	.LBB1_362
.LBB1_372:
	cmpq	$0, 424(%rsp)
	je	.LBB1_374
	movq	%r15, %rdi
	callq	rattle_dealloc@PLT
.LBB1_374:
	cmpb	$1, 80(%rsp)
	setne	%al
	cmpq	$0, 488(%rsp)
	sete	%cl
	orb	%al, %cl
	jne	.LBB1_376
	movq	472(%rsp), %rdi
	callq	rattle_dealloc@PLT
.LBB1_376:
	cmpq	$0, 112(%rsp)
	je	.LBB1_378
	movq	480(%rsp), %rdi
	callq	rattle_dealloc@PLT
.LBB1_378:
	movw	$257, (%rbp)
	movb	$0, 2(%rbp)
	jmp	.LBB1_201
.LBB1_156:
	pxor	%xmm0, %xmm0
	movdqa	%xmm0, 16(%rsp)
	movdqa	%xmm0, 32(%rsp)
	movq	192(%rsp), %rcx
	movq	200(%rsp), %rax
	leaq	1(%rax), %rdx
	movq	%rdx, 200(%rsp)
	cmpq	216(%rsp), %rdx
	jne	.LBB1_162
	movq	%r8, %rbx
	movq	176(%rsp), %rsi
	movq	184(%rsp), %rdx
	movq	224(%rsp), %r8
	movzwl	232(%rsp), %eax
	movw	%ax, 432(%rsp)
	movzbl	234(%rsp), %eax
	movb	%al, 434(%rsp)
	leaq	16(%rsp), %rdi
	leaq	432(%rsp), %r9
	callq	json__index__refill
	movdqa	16(%rsp), %xmm0
	movdqa	32(%rsp), %xmm1
	leaq	208(%rsp), %rax
	movdqu	%xmm1, 16(%rax)
	movdqu	%xmm0, (%rax)
	movq	$0, 200(%rsp)
	movq	192(%rsp), %rcx
	movl	$1, %eax
	cmpq	$0, 24(%rsp)
	jne	.LBB1_503
	movq	184(%rsp), %rdx
	jmp	.LBB1_504
.LBB1_379:
	cmpb	$1, 80(%rsp)
	setne	%al
	cmpq	$0, 128(%rsp)
	sete	%cl
	orb	%al, %cl
	je	.LBB1_442
.LBB1_380:
	cmpq	$0, 120(%rsp)
	movq	136(%rsp), %rbp
	je	.LBB1_393
	cmpq	$0, 64(%rsp)
	je	.LBB1_1057
	xorl	%ebx, %ebx
.LBB1_383:
	leaq	(%rbx,%rbx,2), %rax
	movq	480(%rsp), %rdx
	movq	16(%rdx,%rax,8), %rcx
	movq	%rcx, 1504(%rsp)
	movdqu	(%rdx,%rax,8), %xmm0
	movdqa	%xmm0, 1488(%rsp)
	leaq	.Lstatic.77(%rip), %rsi
	leaq	160(%rsp), %rdi
	movl	$5, %edx
	movl	%ebx, %ecx
	callq	ww_json__pieces__push_number____d61698437832fad8_
	testb	%al, %al
	jne	.LBB1_1064
	movq	1488(%rsp), %rcx
	leaq	.Lstatic.60(%rip), %rsi
	leaq	160(%rsp), %rdi
	movl	$1, %edx
	callq	ww_json__pieces__push_number____4d4e20cb341597a4_
	testb	%al, %al
	jne	.LBB1_1064
	xorl	%r14d, %r14d
	jmp	.LBB1_388
.LBB1_386:
	movzbl	1497(%rsp,%r14,2), %ecx
	leaq	.Lstatic.60(%rip), %rsi
	leaq	160(%rsp), %rdi
	movl	$1, %edx
	callq	ww_json__pieces__push_number____d61698437832fad8_
	testb	%al, %al
	jne	.LBB1_1064
	incq	%r14
	cmpq	%r14, 64(%rsp)
	je	.LBB1_391
.LBB1_388:
	cmpb	$0, 1496(%rsp,%r14,2)
	jne	.LBB1_386
	movq	168(%rsp), %rax
	movq	176(%rsp), %rcx
	movq	%rcx, %rdx
	subq	%rax, %rdx
	cmpq	$1, %rdx
	jbe	.LBB1_397
.LBB1_390:
	movq	160(%rsp), %rdx
	leaq	(%rdx,%rax), %rsi
	leaq	.Lstatic.75(%rip), %rdi
	movq	%rsi, %r8
	subq	%rdi, %r8
	cmpq	$1, %r8
	movw	$11552, (%rsi)
	addq	$2, %rax
	movq	%rdx, 160(%rsp)
	movq	%rax, 168(%rsp)
	movq	%rcx, 176(%rsp)
	incq	%r14
	cmpq	%r14, 64(%rsp)
	jne	.LBB1_388
	jmp	.LBB1_391
.LBB1_397:
	leaq	160(%rsp), %rdi
	movl	$2, %esi
	callq	std_alloc__vec__Vec__grow_amortized____08710997ffb5faad_
	testb	%al, %al
	je	.LBB1_1064
	movq	168(%rsp), %rax
	movq	176(%rsp), %rcx
	jmp	.LBB1_390
.LBB1_391:
	movq	168(%rsp), %rax
	movq	176(%rsp), %rcx
	cmpq	%rax, %rcx
	je	.LBB1_399
.LBB1_392:
	movq	160(%rsp), %rdx
	movb	$10, (%rdx,%rax)
	incq	%rax
	movq	%rdx, 160(%rsp)
	movq	%rax, 168(%rsp)
	movq	%rcx, 176(%rsp)
	incq	%rbx
	cmpq	120(%rsp), %rbx
	jne	.LBB1_383
	jmp	.LBB1_393
.LBB1_399:
	leaq	160(%rsp), %rdi
	movl	$1, %esi
	callq	std_alloc__vec__Vec__grow_amortized____08710997ffb5faad_
	testb	%al, %al
	je	.LBB1_1064
	movq	168(%rsp), %rax
	movq	176(%rsp), %rcx
	jmp	.LBB1_392
.LBB1_401:
	addq	$-8, %rbx
	movq	%rdx, %r14
	movq	%rdx, %rdi
	xorl	%esi, %esi
	movq	%rbx, %rdx
	callq	memset@PLT
	movq	%r15, %r10
	movq	144(%rsp), %rax
	leaq	-1(%rax), %rdi
	movq	72(%rsp), %rsi
.LBB1_402:
	movq	80(%rsp), %rdx
	incq	%rdx
	movq	$0, (%r14,%rdi,8)
	incq	%rdi
.LBB1_403:
	movzbl	%r12b, %r15d
	testb	%r15b, %r15b
	movq	%r10, 128(%rsp)
	movq	%rdx, 80(%rsp)
	movq	%rdi, 488(%rsp)
	je	.LBB1_407
	leal	(%r15,%r15), %ebp
	movl	$1, %esi
	movq	%rbp, %rdi
	callq	rattle_alloc@PLT
	testb	$1, %al
	je	.LBB1_489
	movq	%rdx, %rbx
	cmpb	$1, %r12b
	jne	.LBB1_411
	xorl	%r13d, %r13d
	jmp	.LBB1_412
.LBB1_407:
	movq	%r12, 56(%rsp)
	xorl	%r12d, %r12d
	xorl	%r11d, %r11d
	movq	%r13, %rbx
	movq	$0, 472(%rsp)
	movq	%r13, 424(%rsp)
	movq	%r13, %r8
	xorl	%r9d, %r9d
	xorl	%eax, %eax
	movq	%rax, 1176(%rsp)
	testb	%r10b, %r10b
	je	.LBB1_512
.LBB1_408:
	movq	%r11, 152(%rsp)
	movq	%r9, 728(%rsp)
	movq	%r8, 120(%rsp)
	movl	$1, %esi
	movq	144(%rsp), %rdi
	callq	rattle_alloc@PLT
	testb	$1, %al
	je	.LBB1_416
	movq	%rdx, %rbp
	movq	%r15, 480(%rsp)
	cmpb	$1, 128(%rsp)
	movq	%r14, 808(%rsp)
	jne	.LBB1_491
	xorl	%r15d, %r15d
	movq	144(%rsp), %r14
	jmp	.LBB1_492
.LBB1_411:
	leaq	-2(%rbp), %rdx
	movq	%rbx, %rdi
	xorl	%esi, %esi
	callq	memset@PLT
	leaq	-1(%r15), %r13
.LBB1_412:
	movw	$0, (%rbx,%r13,2)
	movl	$1, %esi
	movq	%r15, %rdi
	callq	rattle_alloc@PLT
	testb	$1, %al
	je	.LBB1_415
	cmpb	$1, %r12b
	movq	%rdx, 120(%rsp)
	movq	%r12, 56(%rsp)
	movq	%rbx, 424(%rsp)
	jne	.LBB1_475
	xorl	%ebx, %ebx
	jmp	.LBB1_476
.LBB1_415:
	movq	%rbx, %rdi
	jmp	.LBB1_488
.LBB1_416:
	movq	%r14, %r15
	movq	56(%rsp), %r14
	testb	%r14b, %r14b
	movq	136(%rsp), %rbp
	je	.LBB1_418
	movq	%r13, %rdi
	callq	rattle_dealloc@PLT
.LBB1_418:
	cmpq	$0, 152(%rsp)
	je	.LBB1_420
	movq	%rbx, %rdi
	callq	rattle_dealloc@PLT
.LBB1_420:
	testb	%r14b, %r14b
	je	.LBB1_422
	movq	120(%rsp), %rdi
	callq	rattle_dealloc@PLT
	movq	424(%rsp), %rdi
	callq	rattle_dealloc@PLT
.LBB1_422:
	movq	%r15, %rdi
	jmp	.LBB1_500
.LBB1_159:
	movb	$1, %r14b
	jmp	.LBB1_39
.LBB1_423:
	movb	$4, %al
	movq	%rax, 128(%rsp)
	xorl	%r13d, %r13d
.LBB1_424:
	leaq	.Lstatic.19(%rip), %rdi
	leaq	768(%rsp), %rdx
	movl	$6, %esi
	callq	serde_json__index__RefStrIndex__index_into
	testb	$1, %al
	je	.LBB1_431
	movq	%rdx, %r13
	pxor	%xmm0, %xmm0
	movdqa	%xmm0, 1504(%rsp)
	movdqa	%xmm0, 1488(%rsp)
	leaq	.Lstatic.21(%rip), %rdi
	leaq	768(%rsp), %rdx
	movl	$4, %esi
	callq	serde_json__index__RefStrIndex__index_into
	cmpb	$1, %al
	jne	.LBB1_440
	movq	%rdx, %r15
	leaq	.Lstatic.22(%rip), %rdi
	leaq	768(%rsp), %rdx
	movl	$5, %esi
	callq	serde_json__index__RefStrIndex__index_into
	cmpb	$1, %al
	jne	.LBB1_440
	movq	%rdx, 56(%rsp)
	leaq	.Lstatic.23(%rip), %rdi
	leaq	768(%rsp), %rdx
	movl	$5, %esi
	callq	serde_json__index__RefStrIndex__index_into
	cmpb	$1, %al
	jne	.LBB1_440
	movb	$1, %bl
	cmpq	$5, 8(%rsp)
	jne	.LBB1_441
	movq	%rdx, 8(%rsp)
	movq	%r15, %rdi
	callq	ww_json__kinds__kind_of
	testb	%al, %al
	jne	.LBB1_430
	movb	$8, %bl
	movq	56(%rsp), %rax
	cmpb	$2, (%rax)
	jne	.LBB1_441
	cmpb	$0, 8(%rax)
	je	.LBB1_1195
.LBB1_1130:
	movb	$2, %bl
	jmp	.LBB1_441
.LBB1_431:
	pxor	%xmm0, %xmm0
	movdqa	%xmm0, 1488(%rsp)
	movdqa	%xmm0, 1504(%rsp)
	movdqa	%xmm0, 160(%rsp)
	movdqa	%xmm0, 176(%rsp)
	leaq	.Lstatic.21(%rip), %rdi
	leaq	768(%rsp), %rdx
	movl	$4, %esi
	callq	serde_json__index__RefStrIndex__index_into
	cmpb	$1, %al
	jne	.LBB1_440
	movq	%rdx, %r14
	leaq	.Lstatic.43(%rip), %rdi
	leaq	768(%rsp), %rdx
	movl	$7, %esi
	callq	serde_json__index__RefStrIndex__index_into
	cmpb	$1, %al
	jne	.LBB1_440
	movq	%rdx, %r15
	leaq	.Lstatic.44(%rip), %rdi
	leaq	768(%rsp), %rdx
	movl	$5, %esi
	callq	serde_json__index__RefStrIndex__index_into
	cmpb	$1, %al
	jne	.LBB1_440
	movq	%rdx, 72(%rsp)
	leaq	.Lstatic.45(%rip), %rdi
	leaq	768(%rsp), %rdx
	movl	$7, %esi
	callq	serde_json__index__RefStrIndex__index_into
	cmpb	$1, %al
	jne	.LBB1_440
	movq	%rdx, 64(%rsp)
	movb	$1, %bl
	cmpq	$5, 8(%rsp)
	jne	.LBB1_441
	movq	%r14, %rdi
	callq	ww_json__kinds__kind_of
	testb	%al, %al
	je	.LBB1_437
.LBB1_430:
	movl	%edx, %ebx
	jmp	.LBB1_441
.LBB1_440:
	movl	%eax, %ebx
	notb	%bl
	andb	$1, %bl
.LBB1_441:
	movl	$0, 104(%rsp)
	movb	$0, 108(%rsp)
	jmp	.LBB1_196
.LBB1_160:
	movzbl	897(%rsp), %r14d
	jmp	.LBB1_39
.LBB1_161:
	movzbl	433(%rsp), %r14d
	jmp	.LBB1_39
.LBB1_162:
	movl	4(%rcx,%rax,4), %edx
	addq	208(%rsp), %rdx
	addq	$2, %rax
	jmp	.LBB1_505
.LBB1_163:
	xorl	%eax, %eax
	movq	%r12, %r8
.LBB1_164:
	movq	%r8, 240(%rsp)
	movq	56(%rsp), %rdx
	leaq	(%rdx,%r15), %rbx
	subq	%r15, %rbp
	movq	%r12, %rdi
	leaq	1512(%rsp), %rcx
	movb	$2, %sil
	cmpq	%rdi, %r8
	jae	.LBB1_452
.LBB1_165:
	movzbl	(%rdx,%r8), %edx
	cmpl	$44, %edx
	je	.LBB1_170
	cmpl	$58, %edx
	jne	.LBB1_452
	pxor	%xmm0, %xmm0
	movdqa	%xmm0, 16(%rsp)
	movdqa	%xmm0, 32(%rsp)
	leaq	1(%rax), %rdx
	movq	%rdx, 200(%rsp)
	cmpq	216(%rsp), %rdx
	jne	.LBB1_1066
	movq	176(%rsp), %rsi
	movq	184(%rsp), %rdx
	movq	224(%rsp), %r8
	movzwl	232(%rsp), %eax
	movw	%ax, 92(%rsp)
	movzbl	234(%rsp), %eax
	movb	%al, 94(%rsp)
	leaq	16(%rsp), %rdi
	leaq	92(%rsp), %r9
	callq	json__index__refill
	movdqa	16(%rsp), %xmm0
	movdqa	32(%rsp), %xmm1
	leaq	208(%rsp), %rax
	movdqu	%xmm1, 16(%rax)
	movdqu	%xmm0, (%rax)
	movq	$0, 200(%rsp)
	cmpq	$0, 24(%rsp)
	movq	56(%rsp), %rbp
	jne	.LBB1_1090
	movq	184(%rsp), %rax
	jmp	.LBB1_1091
.LBB1_170:
	pxor	%xmm0, %xmm0
	movdqa	%xmm0, 16(%rsp)
	movdqa	%xmm0, 32(%rsp)
	leaq	1(%rax), %rdx
	movq	%rdx, 200(%rsp)
	cmpq	216(%rsp), %rdx
	jne	.LBB1_173
	movq	176(%rsp), %rsi
	movq	184(%rsp), %rdx
	movq	224(%rsp), %r8
	movzwl	232(%rsp), %eax
	movw	%ax, 92(%rsp)
	movzbl	234(%rsp), %eax
	movb	%al, 94(%rsp)
	leaq	16(%rsp), %rdi
	leaq	92(%rsp), %r9
	callq	json__index__refill
	movdqa	16(%rsp), %xmm0
	movdqa	32(%rsp), %xmm1
	leaq	208(%rsp), %rax
	movdqu	%xmm1, 16(%rax)
	movdqu	%xmm0, (%rax)
	movq	$0, 200(%rsp)
	cmpq	$0, 24(%rsp)
	je	.LBB1_450
	movq	192(%rsp), %rax
	movl	(%rax), %eax
	addq	16(%rsp), %rax
	jmp	.LBB1_451
.LBB1_173:
	movl	4(%rcx,%rax,4), %eax
	addq	208(%rsp), %rax
	jmp	.LBB1_451
.LBB1_442:
	movq	472(%rsp), %rax
	leaq	8(%rax), %r14
	xorl	%ebx, %ebx
.LBB1_443:
	movzbl	-8(%r14), %ebp
	movq	(%r14), %r13
	leaq	.Lstatic.76(%rip), %rsi
	leaq	160(%rsp), %rdi
	movl	$3, %edx
	movq	%rbx, %rcx
	callq	ww_json__pieces__push_number____cac10c478f68bd12_
	testb	%al, %al
	jne	.LBB1_501
	movzbl	%bpl, %ecx
	leaq	.Lstatic.60(%rip), %rsi
	leaq	160(%rsp), %rdi
	movl	$1, %edx
	callq	ww_json__pieces__push_number____d61698437832fad8_
	testb	%al, %al
	jne	.LBB1_501
	leaq	.Lstatic.60(%rip), %rsi
	leaq	160(%rsp), %rdi
	movl	$1, %edx
	movq	%r13, %rcx
	callq	ww_json__pieces__push_number____4d4e20cb341597a4_
	testb	%al, %al
	jne	.LBB1_501
	movq	168(%rsp), %rax
	movq	176(%rsp), %rcx
	cmpq	%rax, %rcx
	je	.LBB1_448
.LBB1_447:
	movq	160(%rsp), %rdx
	movb	$10, (%rdx,%rax)
	incq	%rax
	movq	%rdx, 160(%rsp)
	movq	%rax, 168(%rsp)
	movq	%rcx, 176(%rsp)
	incq	%rbx
	addq	$16, %r14
	cmpq	%rbx, 128(%rsp)
	jne	.LBB1_443
	jmp	.LBB1_380
.LBB1_448:
	leaq	160(%rsp), %rdi
	movl	$1, %esi
	callq	std_alloc__vec__Vec__grow_amortized____08710997ffb5faad_
	testb	%al, %al
	je	.LBB1_501
	movq	168(%rsp), %rax
	movq	176(%rsp), %rcx
	jmp	.LBB1_447
.LBB1_174:
	movq	%rbx, 248(%rsp)
	movq	%r13, 256(%rsp)
	movq	56(%rsp), %rbp
	movb	$3, %r10b
	jmp	.LBB1_177
.LBB1_175:
	movl	1512(%rsp,%rax,4), %eax
	addq	208(%rsp), %rax
.LBB1_176:
	movq	%rax, 240(%rsp)
	xorl	%r10d, %r10d
.LBB1_177:
	movb	%r10b, 264(%rsp)
	xorl	%r14d, %r14d
.LBB1_178:
	movq	240(%rsp), %r8
	movzbl	%r14b, %esi
	leaq	496(%rsp), %rdi
	movq	%rbp, %rdx
	movq	%r12, %rcx
	callq	serde_json__error__Error__at
	movzbl	496(%rsp), %r15d
	movzbl	497(%rsp), %r13d
	movzbl	504(%rsp), %r12d
	movzbl	511(%rsp), %eax
	shll	$16, %eax
	movzwl	509(%rsp), %ecx
	orl	%eax, %ecx
	shlq	$32, %rcx
	movl	505(%rsp), %ebx
	orq	%rcx, %rbx
	movq	512(%rsp), %rbp
	xorl	%r14d, %r14d
	movq	520(%rsp), %rax
	movq	%rax, 8(%rsp)
	cmpq	$0, 1504(%rsp)
	jne	.LBB1_179
	jmp	.LBB1_180
.LBB1_450:
	movq	184(%rsp), %rax
.LBB1_451:
	movq	%rax, 240(%rsp)
	xorl	%esi, %esi
.LBB1_452:
	movb	%sil, 264(%rsp)
	testq	%rbp, %rbp
	je	.LBB1_460
	movb	$2, %r14b
	js	.LBB1_39
	movl	$1, %esi
	movq	%rbp, %rdi
	callq	rattle_alloc@PLT
	testb	$1, %al
	je	.LBB1_39
	movq	%rdx, %r15
	movq	%r15, %rcx
	subq	%rbx, %rcx
	cmpq	%rbp, %rcx
	jae	.LBB1_461
.LBB1_456:
	xorl	%eax, %eax
	cmpq	$4, %rbp
	jb	.LBB1_469
	cmpq	$32, %rcx
	jb	.LBB1_469
	cmpq	$32, %rbp
	jae	.LBB1_462
	xorl	%eax, %eax
	jmp	.LBB1_466
.LBB1_460:
	leaq	48(%rsp), %r15
	movq	%r15, %rcx
	subq	%rbx, %rcx
	cmpq	%rbp, %rcx
	jb	.LBB1_456
.LBB1_461:
	movq	%r15, %rdi
	movq	%rbx, %rsi
	movq	%rbp, %rdx
	callq	memmove@PLT
	jmp	.LBB1_474
.LBB1_462:
	movq	%rbp, %rax
	andq	$-32, %rax
	xorl	%ecx, %ecx
.LBB1_463:
	movdqu	(%rbx,%rcx), %xmm0
	movdqu	16(%rbx,%rcx), %xmm1
	movdqu	%xmm0, (%r15,%rcx)
	movdqu	%xmm1, 16(%r15,%rcx)
	addq	$32, %rcx
	cmpq	%rcx, %rax
	jne	.LBB1_463
	cmpq	%rax, %rbp
	je	.LBB1_474
	testb	$28, %bpl
	je	.LBB1_469
.LBB1_466:
	movq	%rax, %rcx
	movq	%rbp, %rax
	andq	$-4, %rax
	.p2align	4
.LBB1_467:
	movl	(%rbx,%rcx), %edx
	movl	%edx, (%r15,%rcx)
	addq	$4, %rcx
	cmpq	%rcx, %rax
	jne	.LBB1_467
	cmpq	%rax, %rbp
	je	.LBB1_474
.LBB1_469:
	movq	%rbp, %rdx
	movq	%rax, %rcx
	andq	$3, %rdx
	je	.LBB1_472
	movq	%rax, %rcx
	.p2align	4
.LBB1_471:
	movzbl	(%rbx,%rcx), %esi
	movb	%sil, (%r15,%rcx)
	incq	%rcx
	decq	%rdx
	jne	.LBB1_471
.LBB1_472:
	subq	%rbp, %rax
	cmpq	$-4, %rax
	ja	.LBB1_474
	.p2align	4
.LBB1_473:
	movzbl	(%rbx,%rcx), %eax
	movb	%al, (%r15,%rcx)
	movzbl	1(%rbx,%rcx), %eax
	movb	%al, 1(%r15,%rcx)
	movzbl	2(%rbx,%rcx), %eax
	movb	%al, 2(%r15,%rcx)
	movzbl	3(%rbx,%rcx), %eax
	movb	%al, 3(%r15,%rcx)
	addq	$4, %rcx
	cmpq	%rcx, %rbp
	jne	.LBB1_473
.LBB1_474:
	movb	$3, %al
	movq	%rax, 72(%rsp)
	xorl	%r13d, %r13d
	movq	%rbp, 8(%rsp)
	jmp	.LBB1_139
.LBB1_475:
	leaq	-1(%r15), %rbx
	movq	%rdx, %rdi
	xorl	%esi, %esi
	movq	%rbx, %rdx
	callq	memset@PLT
	movq	120(%rsp), %rdx
.LBB1_476:
	incq	%r13
	movb	$0, (%rdx,%rbx)
	incq	%rbx
	movq	%rbx, 728(%rsp)
	leaq	48(%rsp), %rbx
	movq	%rbx, 160(%rsp)
	pxor	%xmm0, %xmm0
	movdqu	%xmm0, 168(%rsp)
	xorl	%r12d, %r12d
	movq	%r15, 480(%rsp)
	jmp	.LBB1_478
.LBB1_477:
	movq	%r12, %rax
	shlq	$8, %rax
	leaq	(%rax,%r12,8), %rdi
	addq	%rbx, %rdi
	movl	$264, %edx
	xorl	%esi, %esi
	callq	memset@PLT
	incq	%r12
	movq	%r12, 168(%rsp)
	decq	%r15
	je	.LBB1_481
.LBB1_478:
	cmpq	%r12, 176(%rsp)
	jne	.LBB1_477
	leaq	160(%rsp), %rdi
	callq	std_alloc__vec__Vec__grow_amortized____a42e910ec7d6d888_
	testb	%al, %al
	je	.LBB1_1083
	movq	160(%rsp), %rbx
	movq	168(%rsp), %r12
	jmp	.LBB1_477
.LBB1_481:
	movq	%r13, 472(%rsp)
	movq	176(%rsp), %r15
	movl	$1, %esi
	movq	%rbp, %rdi
	callq	rattle_alloc@PLT
	testb	$1, %al
	je	.LBB1_484
	movq	%rdx, %r13
	movq	%r15, 152(%rsp)
	cmpb	$1, 56(%rsp)
	jne	.LBB1_510
	xorl	%eax, %eax
	movq	72(%rsp), %rsi
	movq	128(%rsp), %r10
	movq	480(%rsp), %r15
	jmp	.LBB1_511
.LBB1_484:
	testq	%r15, %r15
	je	.LBB1_487
	movq	%rbx, %rdi
.LBB1_486:
	callq	rattle_dealloc@PLT
.LBB1_487:
	movq	120(%rsp), %rdi
	callq	rattle_dealloc@PLT
	movq	424(%rsp), %rdi
.LBB1_488:
	callq	rattle_dealloc@PLT
.LBB1_489:
	cmpb	$0, 128(%rsp)
	movq	136(%rsp), %rbp
	movq	112(%rsp), %rbx
	je	.LBB1_1051
	movq	%r14, %rdi
	callq	rattle_dealloc@PLT
	movq	%rbx, %rdi
	jmp	.LBB1_1050
.LBB1_491:
	movq	144(%rsp), %r14
	leaq	-1(%r14), %r15
	movq	%rbp, %rdi
	xorl	%esi, %esi
	movq	%r15, %rdx
	callq	memset@PLT
.LBB1_492:
	movb	$0, (%rbp,%r15)
	leaq	1488(%rsp), %rdi
	movq	%r14, %rsi
	callq	std_alloc__vec__Vec__from_elem____f8fbc0fa5651f44e_
	cmpb	$0, 1488(%rsp)
	je	.LBB1_502
	movq	%rbp, %rdi
	callq	rattle_dealloc@PLT
	movq	56(%rsp), %r14
	testb	%r14b, %r14b
	je	.LBB1_495
	movq	%r13, %rdi
	callq	rattle_dealloc@PLT
.LBB1_495:
	cmpq	$0, 152(%rsp)
	movq	136(%rsp), %rbp
	je	.LBB1_497
	movq	%rbx, %rdi
	callq	rattle_dealloc@PLT
.LBB1_497:
	testb	%r14b, %r14b
	je	.LBB1_499
	movq	120(%rsp), %rdi
	callq	rattle_dealloc@PLT
	movq	424(%rsp), %rdi
	callq	rattle_dealloc@PLT
.LBB1_499:
	movq	808(%rsp), %rdi
.LBB1_500:
	callq	rattle_dealloc@PLT
	movq	112(%rsp), %rdi
	jmp	.LBB1_1050
.LBB1_501:
	cmpq	$0, 176(%rsp)
	movq	136(%rsp), %rbp
	jne	.LBB1_267
	jmp	.LBB1_268
.LBB1_502:
	movq	%r14, 144(%rsp)
	incq	%r15
	movq	72(%rsp), %rsi
	movq	808(%rsp), %r14
	movq	80(%rsp), %rdx
	movq	488(%rsp), %rdi
	movq	120(%rsp), %r8
	movq	728(%rsp), %r9
	movq	152(%rsp), %r11
	jmp	.LBB1_513
.LBB1_503:
	movl	(%rcx), %edx
	addq	16(%rsp), %rdx
.LBB1_504:
	movq	%rbx, %r8
.LBB1_505:
	movq	%rdx, 240(%rsp)
	movb	$2, %r9b
	cmpq	168(%rsp), %rdx
	jae	.LBB1_1072
	movq	160(%rsp), %rsi
	cmpb	$44, (%rsi,%rdx)
	jne	.LBB1_1072
	pxor	%xmm0, %xmm0
	movdqa	%xmm0, 16(%rsp)
	movdqa	%xmm0, 32(%rsp)
	movq	%rax, 200(%rsp)
	cmpq	216(%rsp), %rax
	jne	.LBB1_1065
	movq	%r8, %rbx
	movq	176(%rsp), %rsi
	movq	184(%rsp), %rdx
	movq	224(%rsp), %r8
	movzwl	232(%rsp), %eax
	movw	%ax, 432(%rsp)
	movzbl	234(%rsp), %eax
	movb	%al, 434(%rsp)
	leaq	16(%rsp), %rdi
	leaq	432(%rsp), %r9
	callq	json__index__refill
	movdqa	16(%rsp), %xmm0
	movdqa	32(%rsp), %xmm1
	leaq	208(%rsp), %rax
	movdqu	%xmm1, 16(%rax)
	movdqu	%xmm0, (%rax)
	movq	$0, 200(%rsp)
	cmpq	$0, 24(%rsp)
	jne	.LBB1_1069
	movq	184(%rsp), %rax
	jmp	.LBB1_1070
.LBB1_510:
	addq	$-2, %rbp
	movq	%r13, %rdi
	xorl	%esi, %esi
	movq	%rbp, %rdx
	callq	memset@PLT
	movq	480(%rsp), %r15
	leaq	-1(%r15), %rax
	movq	72(%rsp), %rsi
	movq	128(%rsp), %r10
.LBB1_511:
	movq	80(%rsp), %rdx
	movq	488(%rsp), %rdi
	movq	120(%rsp), %r8
	movq	728(%rsp), %r9
	movq	152(%rsp), %r11
	movw	$0, (%r13,%rax,2)
	incq	%rax
	movq	%rax, 1176(%rsp)
	testb	%r10b, %r10b
	jne	.LBB1_408
.LBB1_512:
	movq	%r15, 480(%rsp)
	movb	$0, 1488(%rsp)
	leaq	48(%rsp), %rbp
	movq	%rbp, 1496(%rsp)
	pxor	%xmm0, %xmm0
	movdqa	%xmm0, 1504(%rsp)
	xorl	%r15d, %r15d
.LBB1_513:
	movq	1512(%rsp), %rax
	movq	%rax, 448(%rsp)
	movq	1496(%rsp), %rax
	movq	%rax, 432(%rsp)
	movq	1504(%rsp), %rax
	movq	%rax, 440(%rsp)
	movzbl	8(%rsp), %eax
	movq	%rax, 496(%rsp)
	pxor	%xmm0, %xmm0
	movdqu	%xmm0, 504(%rsp)
	movq	112(%rsp), %rax
	movq	%rax, 520(%rsp)
	movq	%rdx, 528(%rsp)
	movq	144(%rsp), %rcx
	movq	%rcx, 536(%rsp)
	movq	%r14, 544(%rsp)
	movq	%rdi, 552(%rsp)
	movq	%rcx, 560(%rsp)
	movq	424(%rsp), %rax
	movq	%rax, 568(%rsp)
	movq	472(%rsp), %rax
	movq	%rax, 576(%rsp)
	movq	480(%rsp), %rax
	movq	%rax, 584(%rsp)
	movq	%r8, 592(%rsp)
	movq	%r9, 600(%rsp)
	movq	%rax, 608(%rsp)
	movq	%rbx, 616(%rsp)
	movq	%r12, 624(%rsp)
	movq	%r11, 632(%rsp)
	movq	%r13, 640(%rsp)
	movq	1176(%rsp), %rdx
	movq	%rdx, 648(%rsp)
	movq	%rax, 656(%rsp)
	movq	%rbp, 664(%rsp)
	movq	%r15, 672(%rsp)
	movq	%rcx, 680(%rsp)
	movq	448(%rsp), %rax
	movq	%rax, 704(%rsp)
	movdqa	432(%rsp), %xmm0
	movdqa	%xmm0, 688(%rsp)
	cmpq	$0, 64(%rsp)
	je	.LBB1_999
	xorl	%ebp, %ebp
.LBB1_515:
	leaq	(,%rbp,2), %rax
	addq	%rbp, %rax
	movzbl	(%rsi,%rax), %ecx
	movzbl	1(%rsi,%rax), %r14d
	movzbl	%r14b, %r11d
	movzbl	2(%rsi,%rax), %r9d
	leaq	.LJTI1_3(%rip), %rax
	movslq	(%rax,%rcx,4), %rcx
	addq	%rax, %rcx
	movq	%r9, 8(%rsp)
	jmpq	*%rcx
.LBB1_516:
	cmpq	%r11, 528(%rsp)
	jbe	.LBB1_533
	movq	%r11, %r8
	movq	640(%rsp), %rax
	movq	648(%rsp), %rcx
	xorl	%edx, %edx
.LBB1_518:
	cmpq	%rdx, %rcx
	je	.LBB1_702
	movq	%rdx, %rsi
	incq	%rdx
	cmpb	$1, (%rax,%rsi,2)
	jne	.LBB1_518
	cmpb	%r14b, 1(%rax,%rsi,2)
	jne	.LBB1_518
	jmp	.LBB1_533
.LBB1_521:
	cmpq	%r9, 648(%rsp)
	jbe	.LBB1_533
	movq	640(%rsp), %rax
	movq	8(%rsp), %rcx
	cmpb	$1, (%rax,%rcx,2)
	jne	.LBB1_533
	movq	8(%rsp), %rcx
	cmpb	%r14b, 1(%rax,%rcx,2)
	jne	.LBB1_533
	movq	8(%rsp), %rax
	cmpq	%rax, 576(%rsp)
	jbe	.LBB1_533
	cmpq	%r11, 528(%rsp)
	jbe	.LBB1_533
	movq	8(%rsp), %rdx
	cmpq	%rdx, 624(%rsp)
	jbe	.LBB1_738
	movq	616(%rsp), %rcx
	movl	%edx, %eax
	shll	$8, %eax
	leaq	(%rax,%rdx,8), %rdx
	leaq	(%rcx,%rdx), %rax
	movq	256(%rcx,%rdx), %rcx
	jmp	.LBB1_739
.LBB1_528:
	movq	528(%rsp), %rax
	cmpq	%r11, %rax
	jbe	.LBB1_533
	movq	640(%rsp), %rcx
	movq	648(%rsp), %rdx
	xorl	%esi, %esi
.LBB1_530:
	cmpq	%rsi, %rdx
	je	.LBB1_653
	movq	%rsi, %rdi
	incq	%rsi
	cmpb	$1, (%rcx,%rdi,2)
	jne	.LBB1_530
	cmpb	%r14b, 1(%rcx,%rdi,2)
	jne	.LBB1_530
	jmp	.LBB1_533
.LBB1_536:
	cmpq	%r9, 648(%rsp)
	jbe	.LBB1_533
	movq	640(%rsp), %r15
	movq	8(%rsp), %rax
	cmpb	$1, (%r15,%rax,2)
	jne	.LBB1_533
	movq	8(%rsp), %rax
	cmpb	%r14b, 1(%r15,%rax,2)
	jne	.LBB1_533
	movq	8(%rsp), %rax
	cmpq	%rax, 576(%rsp)
	jbe	.LBB1_533
	movq	%r11, %r12
	cmpq	%r11, 528(%rsp)
	jbe	.LBB1_533
	movq	8(%rsp), %rdx
	cmpq	%rdx, 624(%rsp)
	jbe	.LBB1_748
	movq	616(%rsp), %rcx
	movl	%edx, %eax
	shll	$8, %eax
	leaq	(%rax,%rdx,8), %rdx
	leaq	(%rcx,%rdx), %rax
	movq	256(%rcx,%rdx), %rcx
	jmp	.LBB1_749
.LBB1_543:
	movq	528(%rsp), %rcx
	cmpq	%r11, %rcx
	jbe	.LBB1_642
	movq	520(%rsp), %rax
	cmpq	$0, (%rax,%r11,8)
	je	.LBB1_642
.LBB1_545:
	movb	$1, %al
	cmpq	%r11, 552(%rsp)
	jbe	.LBB1_647
	movq	544(%rsp), %rdx
	cmpq	$0, (%rdx,%r11,8)
	je	.LBB1_647
	movq	568(%rsp), %rdx
	movq	576(%rsp), %rsi
	xorl	%edi, %edi
.LBB1_548:
	cmpq	%rdi, %rsi
	setne	%al
	je	.LBB1_647
	movq	%rdi, %r8
	incq	%rdi
	cmpb	$1, (%rdx,%r8,2)
	jne	.LBB1_548
	cmpb	%r14b, 1(%rdx,%r8,2)
	jne	.LBB1_548
	jmp	.LBB1_647
.LBB1_551:
	cmpq	%r11, 528(%rsp)
	jbe	.LBB1_533
	movq	640(%rsp), %rax
	movq	648(%rsp), %rcx
	xorl	%edx, %edx
.LBB1_553:
	cmpq	%rdx, %rcx
	je	.LBB1_663
	movq	%rdx, %rsi
	incq	%rdx
	cmpb	$1, (%rax,%rsi,2)
	jne	.LBB1_553
	cmpb	%r14b, 1(%rax,%rsi,2)
	jne	.LBB1_553
	jmp	.LBB1_533
.LBB1_556:
	cmpq	%r9, 648(%rsp)
	jbe	.LBB1_533
	movq	640(%rsp), %rax
	movq	8(%rsp), %rcx
	cmpb	$1, (%rax,%rcx,2)
	jne	.LBB1_533
	movq	8(%rsp), %rcx
	cmpb	%r14b, 1(%rax,%rcx,2)
	jne	.LBB1_533
	movq	8(%rsp), %rax
	cmpq	%rax, 576(%rsp)
	jbe	.LBB1_533
	cmpq	%r11, 528(%rsp)
	jbe	.LBB1_533
	movq	568(%rsp), %rax
	movq	8(%rsp), %rcx
	movzwl	(%rax,%rcx,2), %ecx
	cmpb	$1, %cl
	jne	.LBB1_533
	shrl	$8, %ecx
	cmpb	%cl, %r14b
	jne	.LBB1_533
	movq	8(%rsp), %rsi
	cmpq	%rsi, 600(%rsp)
	jbe	.LBB1_860
	movq	592(%rsp), %rdx
	movq	624(%rsp), %rcx
	cmpb	$1, (%rdx,%rsi)
	jne	.LBB1_861
	cmpq	%rsi, %rcx
	jbe	.LBB1_533
	movq	616(%rsp), %rsi
	movq	8(%rsp), %rdi
	movl	%edi, %edx
	shll	$8, %edx
	leaq	(%rdx,%rdi,8), %rdi
	movb	$1, %dl
	cmpq	$0, 256(%rsi,%rdi)
	jne	.LBB1_862
	jmp	.LBB1_533
.LBB1_567:
	cmpq	%r11, 528(%rsp)
	jbe	.LBB1_533
	movq	%r11, %r9
	movq	640(%rsp), %rax
	movq	648(%rsp), %rcx
	xorl	%edx, %edx
.LBB1_569:
	cmpq	%rdx, %rcx
	je	.LBB1_675
	movq	%rdx, %rsi
	incq	%rdx
	cmpb	$1, (%rax,%rsi,2)
	jne	.LBB1_569
	cmpb	%r14b, 1(%rax,%rsi,2)
	jne	.LBB1_569
	jmp	.LBB1_533
.LBB1_572:
	cmpq	%r9, 648(%rsp)
	jbe	.LBB1_533
	movq	640(%rsp), %rax
	movq	8(%rsp), %rcx
	cmpb	$1, (%rax,%rcx,2)
	jne	.LBB1_533
	movq	8(%rsp), %rcx
	cmpb	%r14b, 1(%rax,%rcx,2)
	jne	.LBB1_533
	movq	8(%rsp), %rax
	cmpq	%rax, 576(%rsp)
	jbe	.LBB1_533
	cmpq	%r11, 528(%rsp)
	jbe	.LBB1_533
	movq	8(%rsp), %rdx
	cmpq	%rdx, 624(%rsp)
	jbe	.LBB1_766
	movq	616(%rsp), %rcx
	movl	%edx, %eax
	shll	$8, %eax
	leaq	(%rax,%rdx,8), %rdx
	leaq	(%rcx,%rdx), %rax
	movq	256(%rcx,%rdx), %rcx
	jmp	.LBB1_767
.LBB1_579:
	cmpq	%r11, 528(%rsp)
	jbe	.LBB1_533
	movq	640(%rsp), %rax
	movq	648(%rsp), %rcx
	xorl	%edx, %edx
.LBB1_581:
	cmpq	%rdx, %rcx
	je	.LBB1_688
	movq	%rdx, %rsi
	incq	%rdx
	cmpb	$1, (%rax,%rsi,2)
	jne	.LBB1_581
	cmpb	%r14b, 1(%rax,%rsi,2)
	jne	.LBB1_581
	jmp	.LBB1_533
.LBB1_584:
	cmpq	%r9, 648(%rsp)
	jbe	.LBB1_533
	movq	640(%rsp), %rax
	movq	8(%rsp), %rcx
	cmpb	$1, (%rax,%rcx,2)
	jne	.LBB1_533
	movq	8(%rsp), %rcx
	cmpb	%r14b, 1(%rax,%rcx,2)
	jne	.LBB1_533
	movq	576(%rsp), %rcx
	cmpq	8(%rsp), %rcx
	jbe	.LBB1_533
	cmpq	%r11, 528(%rsp)
	jbe	.LBB1_533
	movq	520(%rsp), %rax
	cmpq	$0, (%rax,%r11,8)
	je	.LBB1_831
.LBB1_590:
	cmpq	%r11, 552(%rsp)
	jbe	.LBB1_814
	movq	544(%rsp), %rdx
	movq	568(%rsp), %rax
	cmpq	$0, (%rdx,%r11,8)
	je	.LBB1_815
	xorl	%edx, %edx
.LBB1_593:
	cmpq	%rdx, %rcx
	je	.LBB1_533
	movq	%rdx, %rsi
	incq	%rdx
	cmpb	$1, (%rax,%rsi,2)
	jne	.LBB1_593
	cmpb	%r14b, 1(%rax,%rsi,2)
	jne	.LBB1_593
	jmp	.LBB1_815
.LBB1_596:
	cmpq	%r11, 528(%rsp)
	jbe	.LBB1_533
	movq	%r11, %rbx
	movq	520(%rsp), %rax
	cmpq	$0, (%rax,%r11,8)
	je	.LBB1_533
	movq	640(%rsp), %rax
	movq	648(%rsp), %rcx
	xorl	%edx, %edx
.LBB1_599:
	cmpq	%rdx, %rcx
	je	.LBB1_728
	movq	%rdx, %rsi
	incq	%rdx
	cmpb	$1, (%rax,%rsi,2)
	jne	.LBB1_599
	cmpb	%r14b, 1(%rax,%rsi,2)
	jne	.LBB1_599
.LBB1_602:
	testq	%rcx, %rcx
	je	.LBB1_835
	cmpq	$1, %rcx
	jne	.LBB1_836
	xorl	%edx, %edx
	xorl	%esi, %esi
	jmp	.LBB1_839
.LBB1_605:
	cmpq	%r9, 648(%rsp)
	jbe	.LBB1_533
	movq	640(%rsp), %rax
	movq	8(%rsp), %rcx
	cmpb	$1, (%rax,%rcx,2)
	jne	.LBB1_533
	movq	8(%rsp), %rcx
	cmpb	%r14b, 1(%rax,%rcx,2)
	jne	.LBB1_533
	movq	576(%rsp), %rcx
	cmpq	8(%rsp), %rcx
	jbe	.LBB1_533
	cmpq	%r11, 528(%rsp)
	jbe	.LBB1_533
	movq	8(%rsp), %rsi
	cmpq	%rsi, 624(%rsp)
	jbe	.LBB1_790
	movq	616(%rsp), %rdx
	movl	%esi, %eax
	shll	$8, %eax
	leaq	(%rax,%rsi,8), %rsi
	leaq	(%rdx,%rsi), %rax
	movq	256(%rdx,%rsi), %rdx
	jmp	.LBB1_791
.LBB1_612:
	cmpq	%r11, 528(%rsp)
	jbe	.LBB1_533
	movq	%r11, %r8
	movq	640(%rsp), %rax
	movq	648(%rsp), %rcx
	xorl	%edx, %edx
.LBB1_614:
	cmpq	%rdx, %rcx
	je	.LBB1_713
	movq	%rdx, %rsi
	incq	%rdx
	cmpb	$1, (%rax,%rsi,2)
	jne	.LBB1_614
	cmpb	%r14b, 1(%rax,%rsi,2)
	jne	.LBB1_614
	jmp	.LBB1_533
.LBB1_617:
	movq	648(%rsp), %r12
	testq	%r12, %r12
	je	.LBB1_533
	movq	640(%rsp), %r15
	movq	%r12, %rax
	decq	%rax
	movq	%rax, 80(%rsp)
	je	.LBB1_801
	movq	%r12, %rdx
	andq	$-2, %rdx
	xorl	%ecx, %ecx
	xorl	%eax, %eax
.LBB1_620:
	movzbl	(%r15,%rax,2), %esi
	xorb	$1, %sil
	movzbl	1(%r15,%rax,2), %edi
	xorb	%r14b, %dil
	orb	%sil, %dil
	movzbl	%cl, %esi
	cmovel	%eax, %esi
	movzbl	2(%r15,%rax,2), %ecx
	xorb	$1, %cl
	movzbl	3(%r15,%rax,2), %edi
	xorb	%r14b, %dil
	leal	1(%rax), %r8d
	orb	%cl, %dil
	movzbl	%r8b, %ecx
	cmovnel	%esi, %ecx
	addq	$2, %rax
	cmpq	%rdx, %rax
	jne	.LBB1_620
	testb	$1, %r12b
	jne	.LBB1_802
	jmp	.LBB1_803
.LBB1_622:
	cmpq	%r9, 648(%rsp)
	jbe	.LBB1_533
	movq	640(%rsp), %rax
	movq	8(%rsp), %rcx
	cmpb	$1, (%rax,%rcx,2)
	jne	.LBB1_533
	movq	8(%rsp), %rcx
	cmpb	%r14b, 1(%rax,%rcx,2)
	jne	.LBB1_533
	movq	8(%rsp), %rax
	cmpq	%rax, 576(%rsp)
	jbe	.LBB1_533
	movq	%r11, %rsi
	cmpq	%r11, 528(%rsp)
	jbe	.LBB1_533
	movq	8(%rsp), %rdx
	cmpq	%rdx, 624(%rsp)
	jbe	.LBB1_777
	movq	616(%rsp), %rcx
	movl	%edx, %eax
	shll	$8, %eax
	leaq	(%rax,%rdx,8), %rdx
	leaq	(%rcx,%rdx), %rax
	movq	256(%rcx,%rdx), %rcx
	jmp	.LBB1_778
.LBB1_629:
	cmpq	%r9, 648(%rsp)
	jbe	.LBB1_533
	movq	640(%rsp), %rax
	movq	8(%rsp), %rcx
	cmpb	$1, (%rax,%rcx,2)
	jne	.LBB1_533
	movq	8(%rsp), %rcx
	cmpb	%r14b, 1(%rax,%rcx,2)
	jne	.LBB1_533
	movq	8(%rsp), %rax
	cmpq	%rax, 576(%rsp)
	jbe	.LBB1_533
	cmpq	%r11, 528(%rsp)
	jbe	.LBB1_533
	movq	8(%rsp), %rax
	cmpq	%rax, 624(%rsp)
	jbe	.LBB1_533
	movq	616(%rsp), %rax
	movq	8(%rsp), %rdx
	movl	%edx, %ecx
	shll	$8, %ecx
	leaq	(%rcx,%rdx,8), %rcx
	cmpq	$0, 256(%rax,%rcx)
	je	.LBB1_533
	cmpb	%r14b, 8(%rax,%rcx)
	jne	.LBB1_533
	movq	568(%rsp), %rax
	movq	8(%rsp), %rcx
	movzwl	(%rax,%rcx,2), %eax
	cmpb	$1, %al
	jne	.LBB1_533
	shrl	$8, %eax
	cmpb	%al, %r14b
	je	.LBB1_533
	movq	592(%rsp), %rax
	movq	8(%rsp), %rcx
	cmpq	%rcx, 600(%rsp)
	jbe	.LBB1_641
	movq	8(%rsp), %rcx
	cmpb	$0, (%rax,%rcx)
	jne	.LBB1_533
.LBB1_641:
	movq	8(%rsp), %rcx
	movb	$1, (%rax,%rcx)
	movb	$1, %r12b
	jmp	.LBB1_935
.LBB1_642:
	movq	568(%rsp), %rax
	movq	576(%rsp), %rdx
	xorl	%esi, %esi
.LBB1_643:
	cmpq	%rsi, %rdx
	je	.LBB1_545
	movq	%rsi, %rdi
	incq	%rsi
	cmpb	$1, (%rax,%rdi,2)
	jne	.LBB1_643
	cmpb	%r14b, 1(%rax,%rdi,2)
	jne	.LBB1_643
	xorl	%eax, %eax
.LBB1_647:
	cmpq	%r11, %rcx
	jbe	.LBB1_533
	movq	8(%rsp), %rcx
	cmpq	%rcx, 576(%rsp)
	jbe	.LBB1_533
	movq	640(%rsp), %rcx
	movq	648(%rsp), %rdx
	xorl	%esi, %esi
.LBB1_650:
	cmpq	%rsi, %rdx
	je	.LBB1_724
	movq	%rsi, %rdi
	incq	%rsi
	cmpb	$1, (%rcx,%rdi,2)
	jne	.LBB1_650
	cmpb	%r14b, 1(%rcx,%rdi,2)
	jne	.LBB1_650
	jmp	.LBB1_533
.LBB1_653:
	movq	624(%rsp), %rcx
	testq	%rcx, %rcx
	je	.LBB1_659
	movq	616(%rsp), %rdx
	leaq	8(%rdx), %rsi
.LBB1_655:
	decq	%rcx
	movq	256(%rdx), %rdi
	addq	$264, %rdx
	incq	%rdi
	movq	%rsi, %r8
.LBB1_656:
	decq	%rdi
	je	.LBB1_658
	cmpb	%r14b, (%r8)
	leaq	16(%r8), %r8
	jne	.LBB1_656
	jmp	.LBB1_533
.LBB1_658:
	addq	$264, %rsi
	testq	%rcx, %rcx
	jne	.LBB1_655
.LBB1_659:
	cmpq	8(%rsp), %rax
	jbe	.LBB1_533
	movq	664(%rsp), %rax
	movq	8(%rsp), %rcx
	cmpq	%rcx, 672(%rsp)
	jbe	.LBB1_662
	movq	8(%rsp), %rcx
	cmpb	$0, (%rax,%rcx)
	jne	.LBB1_533
.LBB1_662:
	incb	%r14b
	movq	8(%rsp), %rcx
	movb	%r14b, (%rax,%rcx)
	movb	$1, %r12b
	jmp	.LBB1_935
.LBB1_663:
	movq	624(%rsp), %rax
	testq	%rax, %rax
	je	.LBB1_669
	movq	616(%rsp), %rcx
	leaq	8(%rcx), %rdx
.LBB1_665:
	decq	%rax
	movq	256(%rcx), %rsi
	addq	$264, %rcx
	incq	%rsi
	movq	%rdx, %rdi
.LBB1_666:
	decq	%rsi
	je	.LBB1_668
	cmpb	%r14b, (%rdi)
	leaq	16(%rdi), %rdi
	jne	.LBB1_666
	jmp	.LBB1_533
.LBB1_668:
	addq	$264, %rdx
	testq	%rax, %rax
	jne	.LBB1_665
.LBB1_669:
	movq	568(%rsp), %rax
	movq	576(%rsp), %rcx
	xorl	%edx, %edx
.LBB1_670:
	cmpq	%rdx, %rcx
	je	.LBB1_533
	movq	%rdx, %rsi
	incq	%rdx
	cmpb	$1, (%rax,%rsi,2)
	jne	.LBB1_670
	cmpb	%r14b, 1(%rax,%rsi,2)
	jne	.LBB1_670
	movq	512(%rsp), %rbx
	cmpq	$-1, %rbx
	je	.LBB1_533
	leaq	1(%rbx), %rax
	movq	%rax, 512(%rsp)
	movb	$7, %r12b
	jmp	.LBB1_936
.LBB1_675:
	movq	624(%rsp), %rax
	testq	%rax, %rax
	je	.LBB1_681
	movq	616(%rsp), %rcx
	leaq	8(%rcx), %rdx
	movq	%rax, %rsi
.LBB1_677:
	decq	%rsi
	movq	256(%rcx), %rdi
	addq	$264, %rcx
	incq	%rdi
	movq	%rdx, %r8
.LBB1_678:
	decq	%rdi
	je	.LBB1_680
	cmpb	%r14b, (%r8)
	leaq	16(%r8), %r8
	jne	.LBB1_678
	jmp	.LBB1_533
.LBB1_680:
	addq	$264, %rdx
	testq	%rsi, %rsi
	jne	.LBB1_677
.LBB1_681:
	movq	520(%rsp), %rcx
	cmpq	$0, (%rcx,%r9,8)
	je	.LBB1_925
.LBB1_682:
	cmpq	%r9, 552(%rsp)
	jbe	.LBB1_917
	movq	544(%rsp), %rdx
	movq	576(%rsp), %rcx
	cmpq	$0, (%rdx,%r9,8)
	je	.LBB1_918
	movq	568(%rsp), %rdx
	xorl	%esi, %esi
.LBB1_685:
	cmpq	%rsi, %rcx
	je	.LBB1_533
	movq	%rsi, %rdi
	incq	%rsi
	cmpb	$1, (%rdx,%rdi,2)
	jne	.LBB1_685
	cmpb	%r14b, 1(%rdx,%rdi,2)
	jne	.LBB1_685
	jmp	.LBB1_918
.LBB1_688:
	movq	624(%rsp), %rax
	testq	%rax, %rax
	je	.LBB1_694
	movq	616(%rsp), %rcx
	leaq	8(%rcx), %rdx
	movq	%rax, %rsi
.LBB1_690:
	decq	%rsi
	movq	256(%rcx), %rdi
	addq	$264, %rcx
	incq	%rdi
	movq	%rdx, %r8
.LBB1_691:
	decq	%rdi
	je	.LBB1_693
	cmpb	%r14b, (%r8)
	leaq	16(%r8), %r8
	jne	.LBB1_691
	jmp	.LBB1_533
.LBB1_693:
	addq	$264, %rdx
	testq	%rsi, %rsi
	jne	.LBB1_690
.LBB1_694:
	movq	8(%rsp), %rcx
	cmpq	%rcx, 576(%rsp)
	jbe	.LBB1_533
	movq	568(%rsp), %rcx
	movq	8(%rsp), %rdx
	movzwl	(%rcx,%rdx,2), %edx
	cmpb	$1, %dl
	jne	.LBB1_533
	shrl	$8, %edx
	cmpb	%dl, %r14b
	jne	.LBB1_533
	cmpq	8(%rsp), %rax
	jbe	.LBB1_699
	movq	616(%rsp), %rax
	movq	8(%rsp), %rsi
	movl	%esi, %edx
	shll	$8, %edx
	leaq	(%rdx,%rsi,8), %rdx
	cmpq	$0, 256(%rax,%rdx)
	jne	.LBB1_533
.LBB1_699:
	movq	8(%rsp), %rax
	cmpq	%rax, 600(%rsp)
	jbe	.LBB1_701
	movq	592(%rsp), %rax
	movq	8(%rsp), %rdx
	cmpb	$0, (%rax,%rdx)
	jne	.LBB1_533
.LBB1_701:
	movq	8(%rsp), %rax
	movw	$0, (%rcx,%rax,2)
	movb	$1, %r12b
	jmp	.LBB1_935
.LBB1_702:
	movq	624(%rsp), %rax
	testq	%rax, %rax
	je	.LBB1_708
	movq	616(%rsp), %rcx
	leaq	8(%rcx), %rdx
.LBB1_704:
	decq	%rax
	movq	256(%rcx), %rsi
	addq	$264, %rcx
	incq	%rsi
	movq	%rdx, %rdi
.LBB1_705:
	decq	%rsi
	je	.LBB1_707
	cmpb	%r14b, (%rdi)
	leaq	16(%rdi), %rdi
	jne	.LBB1_705
	jmp	.LBB1_533
.LBB1_707:
	addq	$264, %rdx
	testq	%rax, %rax
	jne	.LBB1_704
.LBB1_708:
	movq	520(%rsp), %rax
	cmpq	$0, (%rax,%r8,8)
	jne	.LBB1_533
	movq	568(%rsp), %rcx
	movq	576(%rsp), %rdx
	xorl	%esi, %esi
.LBB1_710:
	cmpq	%rsi, %rdx
	je	.LBB1_912
	movq	%rsi, %rdi
	incq	%rsi
	cmpb	$1, (%rcx,%rdi,2)
	jne	.LBB1_710
	cmpb	%r14b, 1(%rcx,%rdi,2)
	jne	.LBB1_710
	jmp	.LBB1_533
.LBB1_713:
	movq	624(%rsp), %rax
	testq	%rax, %rax
	je	.LBB1_719
	movq	616(%rsp), %rcx
	leaq	8(%rcx), %rdx
.LBB1_715:
	decq	%rax
	movq	256(%rcx), %rsi
	addq	$264, %rcx
	incq	%rsi
	movq	%rdx, %rdi
.LBB1_716:
	decq	%rsi
	je	.LBB1_718
	cmpb	%r14b, (%rdi)
	leaq	16(%rdi), %rdi
	jne	.LBB1_716
	jmp	.LBB1_533
.LBB1_718:
	addq	$264, %rdx
	testq	%rax, %rax
	jne	.LBB1_715
.LBB1_719:
	movq	520(%rsp), %rax
	cmpq	$0, (%rax,%r8,8)
	je	.LBB1_533
	movq	568(%rsp), %rcx
	movq	576(%rsp), %rdx
	xorl	%esi, %esi
.LBB1_721:
	cmpq	%rsi, %rdx
	je	.LBB1_914
	movq	%rsi, %rdi
	incq	%rsi
	cmpb	$1, (%rcx,%rdi,2)
	jne	.LBB1_721
	cmpb	%r14b, 1(%rcx,%rdi,2)
	jne	.LBB1_721
	jmp	.LBB1_533
.LBB1_724:
	cmpq	8(%rsp), %rdx
	jbe	.LBB1_726
	movq	8(%rsp), %rdx
	cmpb	$1, (%rcx,%rdx,2)
	je	.LBB1_533
.LBB1_726:
	movq	616(%rsp), %rdx
	movq	624(%rsp), %rsi
	movq	8(%rsp), %r9
	cmpq	%r9, %rsi
	jbe	.LBB1_847
	movl	%r9d, %edi
	shll	$8, %edi
	leaq	(%rdi,%r9,8), %r8
	leaq	(%rdx,%r8), %rdi
	movq	256(%rdx,%r8), %r8
	jmp	.LBB1_848
.LBB1_728:
	movq	624(%rsp), %rdx
	testq	%rdx, %rdx
	je	.LBB1_734
	movq	616(%rsp), %rsi
	leaq	8(%rsi), %rdi
.LBB1_730:
	decq	%rdx
	movq	256(%rsi), %r8
	addq	$264, %rsi
	incq	%r8
	movq	%rdi, %r9
.LBB1_731:
	decq	%r8
	je	.LBB1_733
	cmpb	%r14b, (%r9)
	leaq	16(%r9), %r9
	jne	.LBB1_731
	jmp	.LBB1_602
.LBB1_733:
	addq	$264, %rdi
	testq	%rdx, %rdx
	jne	.LBB1_730
.LBB1_734:
	movq	568(%rsp), %rdx
	movq	576(%rsp), %rsi
	xorl	%edi, %edi
.LBB1_735:
	cmpq	%rdi, %rsi
	je	.LBB1_846
	movq	%rdi, %r8
	incq	%rdi
	cmpb	$1, (%rdx,%r8,2)
	jne	.LBB1_735
	cmpb	%r14b, 1(%rdx,%r8,2)
	jne	.LBB1_735
	jmp	.LBB1_602
.LBB1_738:
	leaq	.Lstatic.79(%rip), %rax
	xorl	%ecx, %ecx
.LBB1_739:
	addq	$8, %rax
	incq	%rcx
.LBB1_740:
	decq	%rcx
	je	.LBB1_533
	cmpb	%r14b, (%rax)
	leaq	16(%rax), %rax
	jne	.LBB1_740
	cmpq	%r11, 696(%rsp)
	jbe	.LBB1_533
	movq	688(%rsp), %rax
	movzbl	(%rax,%r11), %r15d
	testb	%r15b, %r15b
	je	.LBB1_533
	decb	%r15b
	movb	$0, (%rax,%r11)
	movq	616(%rsp), %rax
	movq	8(%rsp), %rsi
	movl	%esi, %ecx
	shll	$8, %ecx
	leaq	(%rcx,%rsi,8), %rdx
	movq	256(%rax,%rdx), %rcx
	testq	%rcx, %rcx
	je	.LBB1_978
	leaq	(%rax,%rdx), %rsi
	addq	%rdx, %rax
	addq	$64, %rax
	xorl	%r13d, %r13d
	movq	%rsi, 80(%rsp)
	movq	%rsi, %rdx
	movq	%rcx, %rsi
.LBB1_746:
	cmpb	%r14b, 8(%rdx)
	je	.LBB1_900
	addq	$16, %rdx
	incq	%r13
	addq	$16, %rax
	xorl	%ebx, %ebx
	movb	$8, %r12b
	decq	%rsi
	jne	.LBB1_746
	jmp	.LBB1_937
.LBB1_748:
	leaq	.Lstatic.79(%rip), %rax
	xorl	%ecx, %ecx
.LBB1_749:
	addq	$8, %rax
	incq	%rcx
.LBB1_750:
	decq	%rcx
	je	.LBB1_754
	cmpb	%r14b, (%rax)
	leaq	16(%rax), %rax
	jne	.LBB1_750
	movq	568(%rsp), %rax
	movq	8(%rsp), %rcx
	movzwl	(%rax,%rcx,2), %eax
	testb	%al, %al
	je	.LBB1_533
	shrl	$8, %eax
	cmpb	%al, %r14b
	je	.LBB1_533
.LBB1_754:
	cmpq	%r12, 696(%rsp)
	jbe	.LBB1_756
	movq	688(%rsp), %rax
	cmpb	$0, (%rax,%r12)
	jne	.LBB1_533
.LBB1_756:
	leaq	1488(%rsp), %rbx
	movl	$264, %edx
	movq	%rbx, %rdi
	xorl	%esi, %esi
	callq	memset@PLT
	leaq	496(%rsp), %rsi
	movq	%rbx, %rdi
	movl	%r12d, %edx
	movq	8(%rsp), %r14
	movl	%r14d, %ecx
	callq	ww_model__state__Core__owes
	movq	1744(%rsp), %rax
	testq	%rax, %rax
	je	.LBB1_761
	movq	544(%rsp), %rcx
	movq	552(%rsp), %rdx
.LBB1_758:
	movzbl	(%rbx), %esi
	cmpq	%rsi, %rdx
	jbe	.LBB1_533
	cmpq	$0, (%rcx,%rsi,8)
	je	.LBB1_533
	addq	$16, %rbx
	decq	%rax
	jne	.LBB1_758
.LBB1_761:
	cmpb	$0, 496(%rsp)
	je	.LBB1_765
	leaq	496(%rsp), %rdi
	movl	%r12d, %esi
	movl	%r14d, %edx
	callq	ww_model__state__Core__dies
	cmpb	$1, %al
	je	.LBB1_533
	cmpq	%r12, 552(%rsp)
	jbe	.LBB1_765
	movq	544(%rsp), %rax
	cmpq	$0, (%rax,%r12,8)
	jne	.LBB1_533
.LBB1_765:
	movq	8(%rsp), %rax
	movw	$0, (%r15,%rax,2)
	movb	$1, %r12b
	jmp	.LBB1_935
.LBB1_860:
	movq	624(%rsp), %rcx
.LBB1_861:
	xorl	%edx, %edx
.LBB1_862:
	movq	8(%rsp), %r8
	cmpq	%r8, %rcx
	jbe	.LBB1_865
	movq	616(%rsp), %rcx
	movl	%r8d, %esi
	shll	$8, %esi
	leaq	(%rsi,%r8,8), %rsi
	cmpq	$0, 256(%rcx,%rsi)
	setne	%dil
	testb	%dil, %dl
	je	.LBB1_865
	movzbl	8(%rcx,%rsi), %r15d
	movb	$2, (%rax,%r8,2)
	movb	%r15b, 1(%rax,%r8,2)
	movq	592(%rsp), %rax
	movb	$0, (%rax,%r8)
	movb	$4, %r12b
	xorl	%ebx, %ebx
	jmp	.LBB1_937
.LBB1_865:
	movw	$0, (%rax,%r8,2)
	movq	592(%rsp), %rax
	movb	$0, (%rax,%r8)
	movb	$5, %r12b
	jmp	.LBB1_935
.LBB1_766:
	leaq	.Lstatic.79(%rip), %rax
	xorl	%ecx, %ecx
.LBB1_767:
	addq	$8, %rax
	incq	%rcx
.LBB1_768:
	decq	%rcx
	je	.LBB1_533
	cmpb	%r14b, (%rax)
	leaq	16(%rax), %rax
	jne	.LBB1_768
	movq	568(%rsp), %rax
	movq	8(%rsp), %rcx
	movzwl	(%rax,%rcx,2), %eax
	testb	%al, %al
	je	.LBB1_533
	shrl	$8, %eax
	cmpb	%al, %r14b
	je	.LBB1_533
	cmpq	%r11, 672(%rsp)
	jbe	.LBB1_533
	movq	664(%rsp), %rcx
	movzbl	(%rcx,%r11), %eax
	testb	%al, %al
	je	.LBB1_533
	cmpq	%r11, 696(%rsp)
	jbe	.LBB1_776
	movq	688(%rsp), %rdx
	cmpb	$0, (%rdx,%r11)
	jne	.LBB1_533
.LBB1_776:
	movb	$0, (%rcx,%r11)
	movq	688(%rsp), %rcx
	movb	%al, (%rcx,%r11)
	movb	$1, %r12b
	jmp	.LBB1_935
.LBB1_777:
	leaq	.Lstatic.79(%rip), %rax
	xorl	%ecx, %ecx
.LBB1_778:
	addq	$8, %rax
	incq	%rcx
.LBB1_779:
	decq	%rcx
	je	.LBB1_533
	cmpb	%r14b, (%rax)
	leaq	16(%rax), %rax
	jne	.LBB1_779
	movq	568(%rsp), %rax
	movq	8(%rsp), %rcx
	movzwl	(%rax,%rcx,2), %eax
	testb	%al, %al
	je	.LBB1_533
	shrl	$8, %eax
	cmpb	%al, %r14b
	je	.LBB1_533
	cmpq	%rsi, 696(%rsp)
	jbe	.LBB1_785
	movq	688(%rsp), %rax
	cmpb	$0, (%rax,%rsi)
	jne	.LBB1_533
.LBB1_785:
	leaq	496(%rsp), %rdi
	movq	8(%rsp), %rdx
	callq	ww_model__state__Core__dies
	cmpb	$1, %al
	jne	.LBB1_533
	movq	%rdx, %rbx
	movq	616(%rsp), %rax
	movq	8(%rsp), %rsi
	movl	%esi, %ecx
	shll	$8, %ecx
	leaq	(%rcx,%rsi,8), %rdx
	movq	256(%rax,%rdx), %rcx
	testq	%rcx, %rcx
	je	.LBB1_984
	leaq	(%rax,%rdx), %rsi
	addq	%rdx, %rax
	addq	$64, %rax
	xorl	%r13d, %r13d
	movq	%rsi, 80(%rsp)
	movq	%rsi, %rdx
	movq	%rcx, %rsi
.LBB1_788:
	cmpb	%r14b, 8(%rdx)
	je	.LBB1_906
	addq	$16, %rdx
	incq	%r13
	addq	$16, %rax
	xorl	%r15d, %r15d
	movb	$6, %r12b
	decq	%rsi
	jne	.LBB1_788
	jmp	.LBB1_937
.LBB1_790:
	leaq	.Lstatic.79(%rip), %rax
	xorl	%edx, %edx
.LBB1_791:
	addq	$8, %rax
	incq	%rdx
.LBB1_792:
	decq	%rdx
	je	.LBB1_794
	cmpb	%r14b, (%rax)
	leaq	16(%rax), %rax
	jne	.LBB1_792
	jmp	.LBB1_533
.LBB1_794:
	movq	520(%rsp), %rax
	movq	(%rax,%r11,8), %rax
	testq	%rax, %rax
	je	.LBB1_880
.LBB1_795:
	cmpq	%r11, 552(%rsp)
	jbe	.LBB1_872
	movq	544(%rsp), %rsi
	movq	568(%rsp), %rdx
	cmpq	$0, (%rsi,%r11,8)
	je	.LBB1_873
	xorl	%esi, %esi
.LBB1_798:
	cmpq	%rsi, %rcx
	je	.LBB1_533
	movq	%rsi, %rdi
	incq	%rsi
	cmpb	$1, (%rdx,%rdi,2)
	jne	.LBB1_798
	cmpb	%r14b, 1(%rdx,%rdi,2)
	jne	.LBB1_798
	jmp	.LBB1_873
.LBB1_801:
	xorl	%ecx, %ecx
	xorl	%eax, %eax
.LBB1_802:
	movzbl	(%r15,%rax,2), %edx
	xorb	$1, %dl
	movzbl	1(%r15,%rax,2), %esi
	xorb	%r14b, %sil
	orb	%dl, %sil
	movzbl	%cl, %ecx
	cmovel	%eax, %ecx
.LBB1_803:
	movzbl	%cl, %eax
	cmpq	%rax, %r12
	jbe	.LBB1_533
	cmpb	$1, (%r15,%rax,2)
	jne	.LBB1_533
	cmpb	%r14b, 1(%r15,%rax,2)
	jne	.LBB1_533
	cmpq	%rax, 576(%rsp)
	jbe	.LBB1_533
	cmpq	%r11, 528(%rsp)
	jbe	.LBB1_533
	cmpq	%r9, 552(%rsp)
	jbe	.LBB1_810
	movq	544(%rsp), %rax
	cmpq	$0, (%rax,%r9,8)
	jne	.LBB1_533
.LBB1_810:
	movq	%r11, 112(%rsp)
	leaq	160(%rsp), %rbx
	xorl	%r13d, %r13d
	movl	$264, %edx
	movq	%rbx, %rdi
	xorl	%esi, %esi
	callq	memset@PLT
	cmpq	$0, 80(%rsp)
	je	.LBB1_822
	movq	%r12, %rcx
	andq	$-2, %rcx
	xorl	%r13d, %r13d
	xorl	%eax, %eax
.LBB1_812:
	movzbl	(%r15,%rax,2), %edx
	xorb	$1, %dl
	movzbl	1(%r15,%rax,2), %esi
	xorb	%r14b, %sil
	orb	%dl, %sil
	movzbl	%r13b, %edx
	cmovel	%eax, %edx
	movzbl	2(%r15,%rax,2), %esi
	xorb	$1, %sil
	movzbl	3(%r15,%rax,2), %edi
	xorb	%r14b, %dil
	leal	1(%rax), %r8d
	orb	%sil, %dil
	movzbl	%r8b, %r13d
	cmovnel	%edx, %r13d
	addq	$2, %rax
	cmpq	%rcx, %rax
	jne	.LBB1_812
	testb	$1, %r12b
	jne	.LBB1_823
	jmp	.LBB1_824
.LBB1_814:
	movq	568(%rsp), %rax
.LBB1_815:
	movq	8(%rsp), %rcx
	movzwl	(%rax,%rcx,2), %ecx
	testb	%cl, %cl
	je	.LBB1_818
	movzbl	%cl, %edx
	cmpl	$2, %edx
	jne	.LBB1_533
	shrl	$8, %ecx
	cmpb	%cl, %r14b
	jne	.LBB1_533
.LBB1_818:
	movq	616(%rsp), %rcx
	movq	8(%rsp), %r8
	movl	%r8d, %edx
	shll	$8, %edx
	leaq	(%rdx,%r8,8), %rsi
	movq	256(%rcx,%rsi), %rdx
	testq	%rdx, %rdx
	je	.LBB1_933
	leaq	(%rcx,%rsi), %rbx
	addq	%rsi, %rcx
	addq	$64, %rcx
	xorl	%r15d, %r15d
	movq	%rbx, %rsi
	movq	%rdx, %rdi
.LBB1_820:
	cmpb	%r14b, 8(%rsi)
	je	.LBB1_866
	addq	$16, %rsi
	incq	%r15
	addq	$16, %rcx
	decq	%rdi
	jne	.LBB1_820
	jmp	.LBB1_933
.LBB1_822:
	xorl	%eax, %eax
.LBB1_823:
	movzbl	(%r15,%rax,2), %ecx
	xorb	$1, %cl
	movzbl	1(%r15,%rax,2), %edx
	xorb	%r14b, %dl
	orb	%cl, %dl
	movzbl	%r13b, %r13d
	cmovel	%eax, %r13d
.LBB1_824:
	movzbl	%r13b, %ecx
	leaq	496(%rsp), %rsi
	movq	%rbx, %rdi
	movq	112(%rsp), %rdx
	callq	ww_model__state__Core__owes
	movq	416(%rsp), %rax
	incq	%rax
	movq	8(%rsp), %rcx
.LBB1_825:
	decq	%rax
	je	.LBB1_533
	cmpb	%cl, (%rbx)
	leaq	16(%rbx), %rbx
	jne	.LBB1_825
	leaq	1488(%rsp), %rbx
	xorl	%r13d, %r13d
	movl	$264, %edx
	movq	%rbx, %rdi
	xorl	%esi, %esi
	callq	memset@PLT
	cmpq	$0, 80(%rsp)
	je	.LBB1_884
	movq	%r12, %rcx
	andq	$-2, %rcx
	xorl	%r13d, %r13d
	xorl	%eax, %eax
.LBB1_829:
	movzbl	(%r15,%rax,2), %edx
	xorb	$1, %dl
	movzbl	1(%r15,%rax,2), %esi
	xorb	%r14b, %sil
	orb	%dl, %sil
	movzbl	%r13b, %edx
	cmovel	%eax, %edx
	movzbl	2(%r15,%rax,2), %esi
	xorb	$1, %sil
	movzbl	3(%r15,%rax,2), %edi
	xorb	%r14b, %dil
	leal	1(%rax), %r8d
	orb	%sil, %dil
	movzbl	%r8b, %r13d
	cmovnel	%edx, %r13d
	addq	$2, %rax
	cmpq	%rcx, %rax
	jne	.LBB1_829
	testb	$1, %r12b
	jne	.LBB1_885
	jmp	.LBB1_886
.LBB1_831:
	movq	568(%rsp), %rax
	xorl	%edx, %edx
.LBB1_832:
	cmpq	%rdx, %rcx
	je	.LBB1_590
	movq	%rdx, %rsi
	incq	%rdx
	cmpb	$1, (%rax,%rsi,2)
	jne	.LBB1_832
	cmpb	%r14b, 1(%rax,%rsi,2)
	jne	.LBB1_832
	jmp	.LBB1_533
.LBB1_835:
	xorl	%edx, %edx
	jmp	.LBB1_840
.LBB1_836:
	movq	%rcx, %rdi
	andq	$-2, %rdi
	xorl	%edx, %edx
	xorl	%esi, %esi
.LBB1_837:
	movzbl	(%rax,%rsi,2), %r8d
	xorb	$1, %r8b
	movzbl	1(%rax,%rsi,2), %r9d
	xorb	%r14b, %r9b
	orb	%r8b, %r9b
	movzbl	%dl, %r8d
	cmovel	%esi, %r8d
	movzbl	2(%rax,%rsi,2), %edx
	xorb	$1, %dl
	movzbl	3(%rax,%rsi,2), %r9d
	xorb	%r14b, %r9b
	leal	1(%rsi), %r10d
	orb	%dl, %r9b
	movzbl	%r10b, %edx
	cmovnel	%r8d, %edx
	addq	$2, %rsi
	cmpq	%rdi, %rsi
	jne	.LBB1_837
	testb	$1, %cl
	je	.LBB1_840
.LBB1_839:
	movzbl	(%rax,%rsi,2), %edi
	xorb	$1, %dil
	movzbl	1(%rax,%rsi,2), %r8d
	xorb	%r14b, %r8b
	orb	%dil, %r8b
	movzbl	%dl, %edx
	cmovel	%esi, %edx
.LBB1_840:
	cmpb	$0, 496(%rsp)
	je	.LBB1_533
	movzbl	%dl, %edx
	cmpq	%rdx, %rcx
	jbe	.LBB1_533
	cmpb	$1, (%rax,%rdx,2)
	jne	.LBB1_533
	cmpb	%r14b, 1(%rax,%rdx,2)
	jne	.LBB1_533
	cmpq	%rdx, 576(%rsp)
	jbe	.LBB1_533
	leaq	496(%rsp), %rdi
	movl	%ebx, %esi
	callq	ww_model__state__Core__dies
	cmpb	$1, %al
	je	.LBB1_533
.LBB1_846:
	movq	544(%rsp), %rax
	movq	$0, (%rax,%rbx,8)
	movb	$1, %r12b
	jmp	.LBB1_935
.LBB1_847:
	leaq	.Lstatic.79(%rip), %rdi
	xorl	%r8d, %r8d
.LBB1_848:
	addq	$8, %rdi
	incq	%r8
.LBB1_849:
	decq	%r8
	je	.LBB1_852
	cmpb	%r14b, (%rdi)
	leaq	16(%rdi), %rdi
	jne	.LBB1_849
	addl	%r9d, %r9d
	jmp	.LBB1_859
.LBB1_852:
	testq	%rsi, %rsi
	je	.LBB1_858
	leaq	8(%rdx), %rdi
.LBB1_854:
	decq	%rsi
	movq	256(%rdx), %r8
	addq	$264, %rdx
	incq	%r8
	movq	%rdi, %r9
.LBB1_855:
	decq	%r8
	je	.LBB1_857
	cmpb	%r14b, (%r9)
	leaq	16(%r9), %r9
	jne	.LBB1_855
	jmp	.LBB1_533
.LBB1_857:
	addq	$264, %rdi
	testq	%rsi, %rsi
	jne	.LBB1_854
.LBB1_858:
	movq	568(%rsp), %rdx
	movq	8(%rsp), %rsi
	addl	%esi, %esi
	movq	%rsi, %r9
	movzwl	(%rdx,%rsi), %edx
	movl	%edx, %esi
	shrl	$8, %esi
	xorb	$1, %dl
	xorb	%r14b, %sil
	orb	%dl, %sil
	sete	%dl
	orb	%dl, %al
	je	.LBB1_533
.LBB1_859:
	movb	$1, (%rcx,%r9)
	movb	%r14b, 1(%rcx,%r9)
	movb	$1, %r12b
	jmp	.LBB1_935
.LBB1_866:
	movq	%rdx, %r12
	subq	%r15, %r12
	cmpq	$1, %r12
	je	.LBB1_932
	shlq	$4, %r15
	addq	%rbx, %r15
	decq	%r12
	movdqu	(%r15), %xmm0
	movdqa	%xmm0, 1488(%rsp)
	xorl	%eax, %eax
	cmpq	$129, %r12
	jb	.LBB1_929
.LBB1_868:
	xorl	%edx, %edx
.LBB1_869:
	movdqu	-48(%rcx,%rdx), %xmm0
	movdqu	-32(%rcx,%rdx), %xmm1
	movdqu	-16(%rcx,%rdx), %xmm2
	movdqu	(%rcx,%rdx), %xmm3
	movdqu	%xmm0, -64(%rcx,%rdx)
	movdqu	%xmm1, -48(%rcx,%rdx)
	movdqu	%xmm2, -32(%rcx,%rdx)
	movdqu	%xmm3, -16(%rcx,%rdx)
	addq	$64, %rdx
	cmpq	$2048, %rdx
	jne	.LBB1_869
	subq	$-128, %rax
	movq	%r12, %rdx
	subq	%rax, %rdx
	addq	$2048, %rcx
	cmpq	$128, %rdx
	ja	.LBB1_868
	cmpq	%rax, %r12
	jne	.LBB1_930
	jmp	.LBB1_931
.LBB1_872:
	movq	568(%rsp), %rdx
.LBB1_873:
	movq	8(%rsp), %rsi
	movzwl	(%rdx,%rsi,2), %esi
	testb	%sil, %sil
	je	.LBB1_533
	shrl	$8, %esi
	cmpb	%sil, %r14b
	je	.LBB1_533
	xorl	%esi, %esi
.LBB1_876:
	cmpq	%rsi, %rcx
	je	.LBB1_892
	movq	%rsi, %rdi
	incq	%rsi
	cmpb	$1, (%rdx,%rdi,2)
	jne	.LBB1_876
	cmpb	%r14b, 1(%rdx,%rdi,2)
	jne	.LBB1_876
	movl	$256, %ecx
	jmp	.LBB1_893
.LBB1_880:
	movq	568(%rsp), %rdx
	xorl	%esi, %esi
.LBB1_881:
	cmpq	%rsi, %rcx
	je	.LBB1_795
	movq	%rsi, %rdi
	incq	%rsi
	cmpb	$1, (%rdx,%rdi,2)
	jne	.LBB1_881
	cmpb	%r14b, 1(%rdx,%rdi,2)
	jne	.LBB1_881
	jmp	.LBB1_533
.LBB1_884:
	xorl	%eax, %eax
.LBB1_885:
	movzbl	(%r15,%rax,2), %ecx
	xorb	$1, %cl
	xorb	1(%r15,%rax,2), %r14b
	orb	%cl, %r14b
	movzbl	%r13b, %r13d
	cmovel	%eax, %r13d
.LBB1_886:
	movzbl	%r13b, %ecx
	leaq	496(%rsp), %rsi
	movq	%rbx, %rdi
	movq	112(%rsp), %rdx
	callq	ww_model__state__Core__owes
	movq	1744(%rsp), %rax
	incq	%rax
	movq	8(%rsp), %rdx
.LBB1_887:
	decq	%rax
	je	.LBB1_890
	leaq	16(%rbx), %rcx
	cmpb	%dl, (%rbx)
	movq	%rcx, %rbx
	jne	.LBB1_887
	movq	-8(%rcx), %rbx
	jmp	.LBB1_891
.LBB1_890:
	xorl	%ebx, %ebx
.LBB1_891:
	movq	64(%rsp), %r14
	movq	544(%rsp), %rax
	movq	%rbx, (%rax,%rdx,8)
	movb	$3, %r12b
	xorl	%r15d, %r15d
	jmp	.LBB1_938
.LBB1_892:
	xorl	%ecx, %ecx
.LBB1_893:
	movq	616(%rsp), %rsi
	movq	8(%rsp), %rdi
	movl	%edi, %edx
	shll	$8, %edx
	leaq	(%rdx,%rdi,8), %rdi
	leaq	(%rsi,%rdi), %rdx
	movq	256(%rsi,%rdi), %rsi
	movq	%rsi, %rdi
	testq	%rax, %rax
	je	.LBB1_899
	movq	%rsi, %rdi
	testq	%rsi, %rsi
	je	.LBB1_899
	xorl	%edi, %edi
	movq	%rdx, %r8
.LBB1_896:
	cmpq	(%r8), %rax
	jb	.LBB1_899
	addq	$16, %r8
	incq	%rdi
	cmpq	%rdi, %rsi
	jne	.LBB1_896
	movq	%rsi, %rdi
.LBB1_899:
	orq	%r11, %rcx
	movq	%rsi, %r8
	shlq	$4, %r8
	movq	%rax, (%rdx,%r8)
	movq	%rcx, 8(%rdx,%r8)
	incq	%rsi
	movq	%rsi, 256(%rdx)
	subq	%rdi, %rsi
	shlq	$4, %rdi
	addq	%rdx, %rdi
	leaq	-1(%rsi), %rdx
	callq	core__slice__edits__slice_T__rotate_left___22_ww_queue__entry__Entry_
	movb	$1, %r12b
	jmp	.LBB1_935
.LBB1_900:
	movq	%rcx, %rbx
	subq	%r13, %rbx
	cmpq	$1, %rbx
	je	.LBB1_977
	shlq	$4, %r13
	addq	80(%rsp), %r13
	decq	%rbx
	movdqu	(%r13), %xmm0
	movdqa	%xmm0, 1488(%rsp)
	xorl	%ecx, %ecx
	cmpq	$129, %rbx
	jb	.LBB1_974
.LBB1_902:
	xorl	%edx, %edx
.LBB1_903:
	movdqu	-48(%rax,%rdx), %xmm0
	movdqu	-32(%rax,%rdx), %xmm1
	movdqu	-16(%rax,%rdx), %xmm2
	movdqu	(%rax,%rdx), %xmm3
	movdqu	%xmm0, -64(%rax,%rdx)
	movdqu	%xmm1, -48(%rax,%rdx)
	movdqu	%xmm2, -32(%rax,%rdx)
	movdqu	%xmm3, -16(%rax,%rdx)
	addq	$64, %rdx
	cmpq	$2048, %rdx
	jne	.LBB1_903
	subq	$-128, %rcx
	movq	%rbx, %rdx
	subq	%rcx, %rdx
	addq	$2048, %rax
	cmpq	$128, %rdx
	ja	.LBB1_902
	cmpq	%rcx, %rbx
	jne	.LBB1_975
	jmp	.LBB1_976
.LBB1_906:
	movq	%rcx, %r14
	subq	%r13, %r14
	cmpq	$1, %r14
	je	.LBB1_983
	shlq	$4, %r13
	addq	80(%rsp), %r13
	decq	%r14
	movdqu	(%r13), %xmm0
	movdqa	%xmm0, 1488(%rsp)
	xorl	%ecx, %ecx
	cmpq	$129, %r14
	jb	.LBB1_980
.LBB1_908:
	xorl	%edx, %edx
.LBB1_909:
	movdqu	-48(%rax,%rdx), %xmm0
	movdqu	-32(%rax,%rdx), %xmm1
	movdqu	-16(%rax,%rdx), %xmm2
	movdqu	(%rax,%rdx), %xmm3
	movdqu	%xmm0, -64(%rax,%rdx)
	movdqu	%xmm1, -48(%rax,%rdx)
	movdqu	%xmm2, -32(%rax,%rdx)
	movdqu	%xmm3, -16(%rax,%rdx)
	addq	$64, %rdx
	cmpq	$2048, %rdx
	jne	.LBB1_909
	subq	$-128, %rcx
	movq	%r14, %rdx
	subq	%rcx, %rdx
	addq	$2048, %rax
	cmpq	$128, %rdx
	ja	.LBB1_908
	cmpq	%rcx, %r14
	jne	.LBB1_981
	jmp	.LBB1_982
.LBB1_912:
	movq	504(%rsp), %rcx
	movabsq	$72057594037927934, %rdx
	cmpq	%rdx, %rcx
	ja	.LBB1_533
	incq	%rcx
	movq	%rcx, 504(%rsp)
	movq	%rcx, (%rax,%r8,8)
	xorl	%r15d, %r15d
	movq	504(%rsp), %rbx
	xorl	%r12d, %r12d
	jmp	.LBB1_937
.LBB1_914:
	cmpq	%r8, 552(%rsp)
	jbe	.LBB1_916
	movq	544(%rsp), %rcx
	cmpq	$0, (%rcx,%r8,8)
	jne	.LBB1_533
.LBB1_916:
	movq	$0, (%rax,%r8,8)
	movb	$1, %r12b
	jmp	.LBB1_935
.LBB1_917:
	movq	576(%rsp), %rcx
.LBB1_918:
	cmpq	8(%rsp), %rcx
	jbe	.LBB1_533
	movq	568(%rsp), %rcx
	movq	8(%rsp), %rdx
	cmpb	$0, (%rcx,%rdx,2)
	jne	.LBB1_533
	cmpq	8(%rsp), %rax
	jbe	.LBB1_922
	movq	616(%rsp), %rax
	movq	8(%rsp), %rsi
	movl	%esi, %edx
	shll	$8, %edx
	leaq	(%rdx,%rsi,8), %rdx
	cmpq	$0, 256(%rax,%rdx)
	jne	.LBB1_533
.LBB1_922:
	movq	8(%rsp), %rax
	cmpq	%rax, 600(%rsp)
	jbe	.LBB1_924
	movq	592(%rsp), %rax
	movq	8(%rsp), %rdx
	cmpb	$0, (%rax,%rdx)
	jne	.LBB1_533
.LBB1_924:
	movq	8(%rsp), %rax
	movb	$1, (%rcx,%rax,2)
	movb	%r14b, 1(%rcx,%rax,2)
	jmp	.LBB1_934
.LBB1_925:
	movq	568(%rsp), %rcx
	movq	576(%rsp), %rdx
	xorl	%esi, %esi
.LBB1_926:
	cmpq	%rsi, %rdx
	je	.LBB1_682
	movq	%rsi, %rdi
	incq	%rsi
	cmpb	$1, (%rcx,%rdi,2)
	jne	.LBB1_926
	cmpb	%r14b, 1(%rcx,%rdi,2)
	jne	.LBB1_926
	jmp	.LBB1_533
.LBB1_929:
	movq	%r12, %rdx
.LBB1_930:
	shlq	$4, %rax
	leaq	(%r15,%rax), %rdi
	leaq	(%r15,%rax), %rsi
	addq	$16, %rsi
	shlq	$4, %rdx
	callq	memmove@PLT
.LBB1_931:
	shlq	$4, %r12
	movdqa	1488(%rsp), %xmm0
	movdqu	%xmm0, (%r15,%r12)
	movq	256(%rbx), %rdx
	movq	8(%rsp), %r8
.LBB1_932:
	decq	%rdx
	movq	%rdx, 256(%rbx)
	shlq	$4, %rdx
	pxor	%xmm0, %xmm0
	movdqu	%xmm0, (%rbx,%rdx)
	movq	568(%rsp), %rax
.LBB1_933:
	movb	$1, (%rax,%r8,2)
	movb	%r14b, 1(%rax,%r8,2)
	movq	592(%rsp), %rax
	movb	$0, (%rax,%r8)
.LBB1_934:
	movb	$2, %r12b
.LBB1_935:
	xorl	%ebx, %ebx
.LBB1_936:
	xorl	%r15d, %r15d
.LBB1_937:
	movq	64(%rsp), %r14
.LBB1_938:
	leaq	.Lstatic.80(%rip), %rsi
	leaq	16(%rsp), %rdi
	movl	$6, %edx
	movq	%rbp, %rcx
	callq	ww_json__pieces__push_number____cac10c478f68bd12_
	testb	%al, %al
	jne	.LBB1_1034
	movq	24(%rsp), %rax
	movq	32(%rsp), %rcx
	cmpq	%rax, %rcx
	je	.LBB1_959
.LBB1_940:
	movq	16(%rsp), %rdx
	movb	$32, (%rdx,%rax)
	incq	%rax
	movq	%rdx, 16(%rsp)
	movq	%rax, 24(%rsp)
	movq	%rcx, 32(%rsp)
	movzbl	%r12b, %esi
	leaq	.LJTI1_4(%rip), %rdi
	movslq	(%rdi,%rsi,4), %rsi
	addq	%rdi, %rsi
	jmpq	*%rsi
.LBB1_941:
	leaq	.Lstatic.81(%rip), %rsi
	jmp	.LBB1_948
.LBB1_942:
	movzbl	%r15b, %ecx
	leaq	.Lstatic.85(%rip), %rsi
	leaq	16(%rsp), %rdi
	movl	$7, %edx
	jmp	.LBB1_956
.LBB1_943:
	movq	%rcx, %rsi
	subq	%rax, %rsi
	cmpq	$5, %rsi
	jbe	.LBB1_968
.LBB1_944:
	leaq	(%rdx,%rax), %rsi
	leaq	.Lstatic.83(%rip), %rdi
	movq	%rsi, %r8
	subq	%rdi, %r8
	cmpq	$5, %r8
	ja	.LBB1_961
	movl	$1801678700, (%rsi)
	movw	$25701, 4(%rsi)
	jmp	.LBB1_962
.LBB1_946:
	leaq	.Lstatic.84(%rip), %rsi
	leaq	16(%rsp), %rdi
	movl	$4, %edx
	jmp	.LBB1_954
.LBB1_947:
	leaq	.Lstatic.88(%rip), %rsi
.LBB1_948:
	leaq	16(%rsp), %rdi
	movl	$6, %edx
	jmp	.LBB1_954
.LBB1_949:
	movq	%rcx, %rsi
	subq	%rax, %rsi
	cmpq	$1, %rsi
	jbe	.LBB1_970
.LBB1_950:
	leaq	(%rdx,%rax), %rsi
	leaq	.Lstatic.82(%rip), %rdi
	movq	%rsi, %r8
	subq	%rdi, %r8
	cmpq	$1, %r8
	movw	$27503, (%rsi)
	addq	$2, %rax
	jmp	.LBB1_963
.LBB1_951:
	movq	%rcx, %rsi
	subq	%rax, %rsi
	cmpq	$3, %rsi
	jbe	.LBB1_972
.LBB1_952:
	movl	$1701147238, (%rdx,%rax)
	addq	$4, %rax
	jmp	.LBB1_963
.LBB1_953:
	leaq	.Lstatic.87(%rip), %rsi
	leaq	16(%rsp), %rdi
	movl	$7, %edx
.LBB1_954:
	movq	%rbx, %rcx
	callq	ww_json__pieces__push_number____4d4e20cb341597a4_
	jmp	.LBB1_957
.LBB1_955:
	movzbl	%r15b, %ecx
	leaq	.Lstatic.64(%rip), %rsi
	leaq	16(%rsp), %rdi
	movl	$12, %edx
.LBB1_956:
	callq	ww_json__pieces__push_number____d61698437832fad8_
.LBB1_957:
	testb	%al, %al
	jne	.LBB1_1034
	movq	24(%rsp), %rax
	movq	32(%rsp), %rcx
	jmp	.LBB1_964
.LBB1_959:
	leaq	16(%rsp), %rdi
	movl	$1, %esi
	callq	std_alloc__vec__Vec__grow_amortized____08710997ffb5faad_
	testb	%al, %al
	je	.LBB1_1034
	movq	24(%rsp), %rax
	movq	32(%rsp), %rcx
	jmp	.LBB1_940
.LBB1_961:
	movw	$25701, 4(%rsi)
	movl	$1801678700, (%rsi)
.LBB1_962:
	addq	$6, %rax
.LBB1_963:
	movq	%rdx, 16(%rsp)
	movq	%rax, 24(%rsp)
	movq	%rcx, 32(%rsp)
.LBB1_964:
	cmpq	%rax, %rcx
	je	.LBB1_966
.LBB1_965:
	movq	16(%rsp), %rdx
	movb	$10, (%rdx,%rax)
	incq	%rax
	movq	%rdx, 16(%rsp)
	movq	%rax, 24(%rsp)
	movq	%rcx, 32(%rsp)
	incq	%rbp
	cmpq	%r14, %rbp
	movq	72(%rsp), %rsi
	jne	.LBB1_515
	jmp	.LBB1_999
.LBB1_966:
	leaq	16(%rsp), %rdi
	movl	$1, %esi
	callq	std_alloc__vec__Vec__grow_amortized____08710997ffb5faad_
	testb	%al, %al
	je	.LBB1_1034
	movq	24(%rsp), %rax
	movq	32(%rsp), %rcx
	jmp	.LBB1_965
.LBB1_968:
	leaq	16(%rsp), %rdi
	movl	$6, %esi
	callq	std_alloc__vec__Vec__grow_amortized____08710997ffb5faad_
	testb	%al, %al
	je	.LBB1_1034
	movq	16(%rsp), %rdx
	movq	24(%rsp), %rax
	movq	32(%rsp), %rcx
	jmp	.LBB1_944
.LBB1_970:
	leaq	16(%rsp), %rdi
	movl	$2, %esi
	callq	std_alloc__vec__Vec__grow_amortized____08710997ffb5faad_
	testb	%al, %al
	je	.LBB1_1034
	movq	16(%rsp), %rdx
	movq	24(%rsp), %rax
	movq	32(%rsp), %rcx
	jmp	.LBB1_950
.LBB1_972:
	leaq	16(%rsp), %rdi
	movl	$4, %esi
	callq	std_alloc__vec__Vec__grow_amortized____08710997ffb5faad_
	testb	%al, %al
	je	.LBB1_1034
	movq	16(%rsp), %rdx
	movq	24(%rsp), %rax
	movq	32(%rsp), %rcx
	jmp	.LBB1_952
.LBB1_974:
	movq	%rbx, %rdx
.LBB1_975:
	shlq	$4, %rcx
	leaq	(%rcx,%r13), %rdi
	leaq	(%rcx,%r13), %rsi
	addq	$16, %rsi
	shlq	$4, %rdx
	callq	memmove@PLT
.LBB1_976:
	shlq	$4, %rbx
	movdqa	1488(%rsp), %xmm0
	movdqu	%xmm0, (%r13,%rbx)
	movq	80(%rsp), %rax
	movq	256(%rax), %rcx
.LBB1_977:
	decq	%rcx
	movq	80(%rsp), %rax
	movq	%rcx, 256(%rax)
	shlq	$4, %rcx
	pxor	%xmm0, %xmm0
	movdqu	%xmm0, (%rax,%rcx)
	cmpq	$0, 256(%rax)
	movq	8(%rsp), %rsi
	jne	.LBB1_979
.LBB1_978:
	movq	592(%rsp), %rax
	movb	$0, (%rax,%rsi)
.LBB1_979:
	movb	$8, %r12b
	xorl	%ebx, %ebx
	jmp	.LBB1_937
.LBB1_980:
	movq	%r14, %rdx
.LBB1_981:
	shlq	$4, %rcx
	leaq	(%rcx,%r13), %rdi
	leaq	(%rcx,%r13), %rsi
	addq	$16, %rsi
	shlq	$4, %rdx
	callq	memmove@PLT
.LBB1_982:
	shlq	$4, %r14
	movdqa	1488(%rsp), %xmm0
	movdqu	%xmm0, (%r13,%r14)
	movq	80(%rsp), %rax
	movq	256(%rax), %rcx
.LBB1_983:
	decq	%rcx
	movq	80(%rsp), %rax
	movq	%rcx, 256(%rax)
	shlq	$4, %rcx
	pxor	%xmm0, %xmm0
	movdqu	%xmm0, (%rax,%rcx)
	cmpq	$0, 256(%rax)
	movq	8(%rsp), %rsi
	jne	.LBB1_985
.LBB1_984:
	movq	592(%rsp), %rax
	movb	$0, (%rax,%rsi)
.LBB1_985:
	movb	$6, %r12b
	jmp	.LBB1_936
.LBB1_533:
	movq	24(%rsp), %rbx
	movdqu	16(%rsp), %xmm0
	movdqa	%xmm0, 1488(%rsp)
	movq	32(%rsp), %r15
	movq	%r15, 1504(%rsp)
	pxor	%xmm0, %xmm0
	movdqa	%xmm0, 1536(%rsp)
	movl	$32, 1512(%rsp)
	movq	$0, 1516(%rsp)
	movl	$0, 1524(%rsp)
	movq	$-1, 1528(%rsp)
	movq	1496(%rsp), %r12
	movq	%r15, %rax
	subq	%r12, %rax
	cmpq	$10, %rax
	jbe	.LBB1_1085
.LBB1_534:
	leaq	1516(%rsp), %r14
	movq	1488(%rsp), %rdi
	leaq	(%rdi,%r12), %rax
	addq	$11, %r12
	leaq	.Lstatic.78(%rip), %rcx
	movq	%rax, %rdx
	subq	%rcx, %rdx
	movabsq	$7091326027899628905, %rcx
	cmpq	$10, %rdx
	ja	.LBB1_986
	movq	%rcx, (%rax)
	movw	$25964, 8(%rax)
	movb	$32, 10(%rax)
	jmp	.LBB1_987
.LBB1_986:
	movq	%rcx, (%rax)
	movl	$543517794, 7(%rax)
.LBB1_987:
	movq	%r12, 1496(%rsp)
	movq	%r15, 1504(%rsp)
	movl	$32, 1512(%rsp)
	movl	$0, 8(%r14)
	movq	$0, (%r14)
	movq	$-1, 1528(%rsp)
	pxor	%xmm0, %xmm0
	movdqa	%xmm0, 160(%rsp)
	movq	$0, 176(%rsp)
	movl	$24, %ecx
	cmpq	$100, %rbp
	jb	.LBB1_989
.LBB1_988:
	movq	%rbp, %rax
	shrq	$2, %rax
	movabsq	$2951479051793528259, %rdx
	mulq	%rdx
	shrq	$2, %rdx
	imull	$100, %edx, %eax
	movl	%ebp, %esi
	subl	%eax, %esi
	movzbl	%sil, %eax
	imull	$205, %eax, %esi
	shrl	$11, %esi
	leal	(%rsi,%rsi), %r8d
	leal	(%r8,%r8,4), %r8d
	subb	%r8b, %al
	orb	$48, %al
	movb	%al, 159(%rsp,%rcx)
	orb	$48, %sil
	movb	%sil, 158(%rsp,%rcx)
	addq	$-2, %rcx
	cmpq	$9999, %rbp
	movq	%rdx, %rbp
	ja	.LBB1_988
	jmp	.LBB1_990
.LBB1_989:
	movq	%rbp, %rdx
.LBB1_990:
	cmpq	$10, %rdx
	jb	.LBB1_992
	movzbl	%dl, %eax
	imull	$205, %eax, %eax
	shrl	$11, %eax
	leal	(%rax,%rax), %esi
	leal	(%rsi,%rsi,4), %esi
	subb	%sil, %dl
	orb	$48, %dl
	movb	%dl, 159(%rsp,%rcx)
	orb	$48, %al
	movb	%al, 158(%rsp,%rcx)
	addq	$-2, %rcx
	jmp	.LBB1_993
.LBB1_992:
	orb	$48, %dl
	movb	%dl, 159(%rsp,%rcx)
	decq	%rcx
.LBB1_993:
	leaq	(%rsp,%rcx), %rsi
	addq	$160, %rsi
	movb	$45, 159(%rsp,%rcx)
	movl	$24, %edx
	subq	%rcx, %rdx
	cmpq	$0, 1536(%rsp)
	jne	.LBB1_1094
	movq	%r15, %rax
	subq	%r12, %rax
	cmpq	%rax, %rdx
	ja	.LBB1_1087
.LBB1_995:
	addq	%r12, %rdi
	addq	%rdx, %r12
	callq	memcpy@PLT
	movq	%r12, 1496(%rsp)
	movq	%r15, 1504(%rsp)
.LBB1_996:
	movl	$32, 1512(%rsp)
	movl	$0, 8(%r14)
	movq	$0, (%r14)
	movq	$-1, 1528(%rsp)
	cmpq	$0, 1536(%rsp)
	jne	.LBB1_1089
	movq	1496(%rsp), %rcx
	movq	1504(%rsp), %rax
	cmpq	%rcx, %rax
	je	.LBB1_1092
.LBB1_998:
	movq	1488(%rsp), %rdx
	movb	$10, (%rdx,%rcx)
	incq	%rcx
	movq	%rcx, 1496(%rsp)
	movq	1488(%rsp), %rcx
	movq	1496(%rsp), %rdx
	movq	%rax, 32(%rsp)
	movq	%rcx, 16(%rsp)
	movq	%rdx, 24(%rsp)
.LBB1_999:
	movzbl	528(%rsp), %edi
	testb	%dil, %dil
	je	.LBB1_1029
	movq	576(%rsp), %r8
	movq	%r8, %r15
	andq	$255, %r15
	je	.LBB1_1029
	movq	624(%rsp), %r12
	movq	568(%rsp), %r9
	movq	616(%rsp), %rbp
	movq	648(%rsp), %rbx
	movq	640(%rsp), %r13
	xorl	%r10d, %r10d
	movb	%dil, 80(%rsp)
	movq	%r8, 112(%rsp)
	movq	%r9, 488(%rsp)
.LBB1_1002:
	pxor	%xmm0, %xmm0
	movdqa	%xmm0, 1488(%rsp)
	xorl	%esi, %esi
	movl	%r10d, %r14d
.LBB1_1003:
	movl	%r14d, %eax
	movb	%r14b, 1488(%rsp,%rsi)
	incq	%rsi
	movq	%rsi, 1504(%rsp)
	xorl	%ecx, %ecx
	jmp	.LBB1_1007
	.p2align	4
.LBB1_1005:
	leaq	(%rcx,%rcx), %rdx
	movzwl	(%r9,%rdx), %edx
	movl	%edx, %r14d
	shrl	$8, %r14d
	testb	%dl, %dl
	setne	%dl
	cmpb	%r14b, %al
	setne	%r11b
	testb	%r11b, %dl
	jne	.LBB1_1016
.LBB1_1006:
	incq	%rcx
	cmpq	%r15, %rcx
	je	.LBB1_1027
.LBB1_1007:
	cmpq	%rcx, %r12
	jbe	.LBB1_1009
	movq	%rcx, %rdx
	shlq	$8, %rdx
	leaq	(%rdx,%rcx,8), %r11
	leaq	(%r11,%rbp), %rdx
	movq	256(%rbp,%r11), %r11
	jmp	.LBB1_1010
	.p2align	4
.LBB1_1009:
	leaq	.Lstatic.79(%rip), %rdx
	xorl	%r11d, %r11d
.LBB1_1010:
	addq	$8, %rdx
	incq	%r11
	.p2align	4
.LBB1_1011:
	decq	%r11
	je	.LBB1_1006
	cmpb	%al, (%rdx)
	leaq	16(%rdx), %rdx
	jne	.LBB1_1011
	cmpq	%rcx, %rbx
	jbe	.LBB1_1004
	movzbl	(%r13,%rcx,2), %edx
	xorb	$1, %dl
	movzbl	1(%r13,%rcx,2), %r11d
	xorb	%al, %r11b
	orb	%dl, %r11b
	setne	%dl
	cmpq	%rcx, %r8
	jbe	.LBB1_1006
	testb	%dl, %dl
	jne	.LBB1_1005
	jmp	.LBB1_1006
	.p2align	4
.LBB1_1004:
	cmpq	%rcx, %r8
	jbe	.LBB1_1006
	jmp	.LBB1_1005
.LBB1_1016:
	movb	%r14b, 896(%rsp)
	leaq	1488(%rsp), %rdi
	leaq	896(%rsp), %rdx
	movl	%r10d, 8(%rsp)
	movq	%rsi, 64(%rsp)
	callq	core__slice__reads__slice_T__contains___i8_31_core__cmp__numbers__U8PartialEq___
	movq	64(%rsp), %rsi
	movl	8(%rsp), %r10d
	movq	488(%rsp), %r9
	movq	112(%rsp), %r8
	movzbl	80(%rsp), %edi
	testb	%al, %al
	je	.LBB1_1003
	cmpb	%r14b, %r10b
	jne	.LBB1_1028
	jmp	.LBB1_1018
.LBB1_1027:
	pxor	%xmm0, %xmm0
	movdqa	%xmm0, 160(%rsp)
	movq	$0, 176(%rsp)
.LBB1_1028:
	incb	%r10b
	cmpb	%dil, %r10b
	jne	.LBB1_1002
.LBB1_1029:
	movq	24(%rsp), %rax
	movq	32(%rsp), %rcx
	movq	%rcx, %rdx
	subq	%rax, %rdx
	cmpq	$6, %rdx
	jbe	.LBB1_1067
.LBB1_1030:
	movq	16(%rsp), %rdx
	leaq	(%rdx,%rax), %rsi
	addq	$7, %rax
	leaq	.Lstatic.92(%rip), %rdi
	movq	%rsi, %r8
	subq	%rdi, %r8
	cmpq	$6, %r8
	ja	.LBB1_1032
	movl	$1735289202, (%rsi)
	movw	$11552, 4(%rsi)
	movb	$10, 6(%rsi)
	jmp	.LBB1_1033
.LBB1_1032:
	movl	$170729575, 3(%rsi)
	movl	$1735289202, (%rsi)
.LBB1_1033:
	movq	%rdx, 16(%rsp)
	movq	%rax, 24(%rsp)
	movq	%rcx, 32(%rsp)
	leaq	16(%rsp), %rdi
	xorl	%esi, %esi
	xorl	%edx, %edx
	callq	ww_schedule__replay__push_condemned_line
	testb	%al, %al
	je	.LBB1_1225
.LBB1_1034:
	cmpq	$0, 536(%rsp)
	je	.LBB1_1036
	movq	520(%rsp), %rdi
	callq	rattle_dealloc@PLT
.LBB1_1036:
	cmpq	$0, 560(%rsp)
	movq	136(%rsp), %rbp
	je	.LBB1_1038
	movq	544(%rsp), %rdi
	callq	rattle_dealloc@PLT
.LBB1_1038:
	cmpq	$0, 584(%rsp)
	je	.LBB1_1040
	movq	568(%rsp), %rdi
	callq	rattle_dealloc@PLT
.LBB1_1040:
	cmpq	$0, 608(%rsp)
	je	.LBB1_1042
	movq	592(%rsp), %rdi
	callq	rattle_dealloc@PLT
.LBB1_1042:
	cmpq	$0, 632(%rsp)
	je	.LBB1_1044
	movq	616(%rsp), %rdi
	callq	rattle_dealloc@PLT
.LBB1_1044:
	cmpq	$0, 656(%rsp)
	je	.LBB1_1046
	movq	640(%rsp), %rdi
	callq	rattle_dealloc@PLT
.LBB1_1046:
	cmpq	$0, 680(%rsp)
	je	.LBB1_1048
	movq	664(%rsp), %rdi
	callq	rattle_dealloc@PLT
.LBB1_1048:
	cmpq	$0, 704(%rsp)
	je	.LBB1_1051
	movq	688(%rsp), %rdi
.LBB1_1050:
	callq	rattle_dealloc@PLT
.LBB1_1051:
	cmpq	$0, 32(%rsp)
	je	.LBB1_1053
	movq	16(%rsp), %rdi
	callq	rattle_dealloc@PLT
.LBB1_1053:
	pxor	%xmm0, %xmm0
	movdqu	%xmm0, 1031(%rsp)
	movq	$0, 1047(%rsp)
	leaq	1349(%rsp), %rbx
	movdqu	%xmm0, 1349(%rsp)
	movq	$0, 1365(%rsp)
	cmpq	$0, 96(%rsp)
	movq	72(%rsp), %rdi
	je	.LBB1_1055
	callq	rattle_dealloc@PLT
.LBB1_1055:
	movw	$257, (%rbp)
	movb	$0, 2(%rbp)
	movdqu	(%rbx), %xmm0
	movdqu	%xmm0, 8(%rbp)
	movq	16(%rbx), %rax
.LBB1_1056:
	movq	%rax, 24(%rbp)
	jmp	.LBB1_202
.LBB1_1057:
	xorl	%ebx, %ebx
	movq	480(%rsp), %r14
.LBB1_1058:
	movq	16(%r14), %rax
	movq	%rax, 1504(%rsp)
	movdqu	(%r14), %xmm0
	movdqa	%xmm0, 1488(%rsp)
	leaq	.Lstatic.77(%rip), %rsi
	leaq	160(%rsp), %rdi
	movl	$5, %edx
	movl	%ebx, %ecx
	callq	ww_json__pieces__push_number____d61698437832fad8_
	testb	%al, %al
	jne	.LBB1_1064
	movq	1488(%rsp), %rcx
	leaq	.Lstatic.60(%rip), %rsi
	leaq	160(%rsp), %rdi
	movl	$1, %edx
	callq	ww_json__pieces__push_number____4d4e20cb341597a4_
	testb	%al, %al
	jne	.LBB1_1064
	movq	168(%rsp), %rax
	movq	176(%rsp), %rcx
	cmpq	%rax, %rcx
	je	.LBB1_1062
.LBB1_1061:
	movq	160(%rsp), %rdx
	movb	$10, (%rdx,%rax)
	incq	%rax
	movq	%rdx, 160(%rsp)
	movq	%rax, 168(%rsp)
	movq	%rcx, 176(%rsp)
	incq	%rbx
	addq	$24, %r14
	cmpq	%rbx, 120(%rsp)
	jne	.LBB1_1058
	jmp	.LBB1_393
.LBB1_1062:
	leaq	160(%rsp), %rdi
	movl	$1, %esi
	callq	std_alloc__vec__Vec__grow_amortized____08710997ffb5faad_
	testb	%al, %al
	je	.LBB1_1064
	movq	168(%rsp), %rax
	movq	176(%rsp), %rcx
	jmp	.LBB1_1061
.LBB1_1064:
	cmpq	$0, 176(%rsp)
	jne	.LBB1_267
	jmp	.LBB1_268
.LBB1_393:
	cmpb	$1, 80(%rsp)
	setne	%bl
	movups	160(%rsp), %xmm0
	movups	%xmm0, 1463(%rsp)
	movq	176(%rsp), %rax
	movq	%rax, 1479(%rsp)
	movups	%xmm0, 933(%rsp)
	movq	%rax, 949(%rsp)
	movq	%r15, 1056(%rsp)
	movq	8(%rsp), %rax
	movq	%rax, 1064(%rsp)
	movq	424(%rsp), %rax
	movq	%rax, 1072(%rsp)
	leaq	1056(%rsp), %rdi
	callq	std_alloc__vec__Vec__drop____a0e4aaa8ef000d5b_
	cmpq	$0, 488(%rsp)
	sete	%al
	orb	%bl, %al
	jne	.LBB1_395
	movq	472(%rsp), %rdi
	callq	rattle_dealloc@PLT
.LBB1_395:
	cmpq	$0, 112(%rsp)
	je	.LBB1_1283
	movq	480(%rsp), %rdi
	jmp	.LBB1_1282
.LBB1_1065:
	movl	(%rcx,%rax,4), %eax
	addq	208(%rsp), %rax
	jmp	.LBB1_1071
.LBB1_1066:
	movl	4(%rcx,%rax,4), %eax
	addq	208(%rsp), %rax
	movq	56(%rsp), %rbp
	jmp	.LBB1_1091
.LBB1_1067:
	leaq	16(%rsp), %rdi
	movl	$7, %esi
	callq	std_alloc__vec__Vec__grow_amortized____08710997ffb5faad_
	testb	%al, %al
	je	.LBB1_1034
	movq	24(%rsp), %rax
	movq	32(%rsp), %rcx
	jmp	.LBB1_1030
.LBB1_1069:
	movq	192(%rsp), %rax
	movl	(%rax), %eax
	addq	16(%rsp), %rax
.LBB1_1070:
	movq	%rbx, %r8
.LBB1_1071:
	movq	%rax, 240(%rsp)
	xorl	%r9d, %r9d
.LBB1_1072:
	movb	%r9b, 264(%rsp)
.LBB1_1073:
	leaq	816(%rsp), %rdi
	xorl	%r14d, %r14d
	xorl	%esi, %esi
	movq	56(%rsp), %rdx
	movq	%r12, %rcx
	callq	serde_json__error__Error__at
	movzbl	816(%rsp), %edi
	movzbl	817(%rsp), %r13d
	movzbl	824(%rsp), %r12d
	movzbl	831(%rsp), %eax
	shll	$16, %eax
	movzwl	829(%rsp), %ecx
	orl	%eax, %ecx
	shlq	$32, %rcx
	movl	825(%rsp), %ebx
	orq	%rcx, %rbx
	movq	832(%rsp), %rsi
	movq	840(%rsp), %rdx
	movzbl	72(%rsp), %eax
	leaq	.LJTI1_2(%rip), %rcx
	movslq	(%rcx,%rax,4), %rax
	addq	%rcx, %rax
	jmpq	*%rax
.LBB1_1074:
	cmpq	$0, 8(%rsp)
	je	.LBB1_1081
	movl	%edi, %ebp
	movq	%r15, %rdi
	movq	%rdx, 56(%rsp)
	movq	%rsi, 8(%rsp)
	callq	rattle_dealloc@PLT
	xorl	%r14d, %r14d
	movl	%ebp, %r15d
	movq	8(%rsp), %rbp
	jmp	.LBB1_1080
.LBB1_1076:
	cmpb	$1, %r15b
	jne	.LBB1_1081
	movl	%edi, %r15d
	movq	%rbp, %rdi
	movq	%rdx, 56(%rsp)
	movq	%rsi, %rbp
	callq	std_collections__btree__node__Node__destroy____bfff14f77ed39624_
	jmp	.LBB1_1079
.LBB1_1078:
	movq	%r15, 1120(%rsp)
	movq	%rbp, 1128(%rsp)
	movq	8(%rsp), %rax
	movq	%rax, 1136(%rsp)
	movl	%edi, %r15d
	leaq	1120(%rsp), %rdi
	movq	%rdx, 56(%rsp)
	movq	%rsi, %rbp
	callq	std_alloc__vec__Vec__drop____a7912ed1c0a9e771_
.LBB1_1079:
	xorl	%r14d, %r14d
.LBB1_1080:
	movq	56(%rsp), %rax
	movq	%rax, 8(%rsp)
	cmpq	$0, 1504(%rsp)
	jne	.LBB1_179
	jmp	.LBB1_180
.LBB1_1081:
	xorl	%r14d, %r14d
.LBB1_1082:
	movl	%edi, %r15d
	movq	%rsi, %rbp
	movq	%rdx, 8(%rsp)
	cmpq	$0, 1504(%rsp)
	jne	.LBB1_179
	jmp	.LBB1_180
.LBB1_1083:
	cmpq	$0, 176(%rsp)
	je	.LBB1_487
	movq	160(%rsp), %rdi
	jmp	.LBB1_486
.LBB1_1085:
	leaq	1488(%rsp), %rdi
	movl	$11, %esi
	callq	std_alloc__vec__Vec__grow_amortized____08710997ffb5faad_
	testb	%al, %al
	je	.LBB1_1095
	movq	1496(%rsp), %r12
	movq	1504(%rsp), %r15
	jmp	.LBB1_534
.LBB1_1094:
	leaq	1488(%rsp), %rdi
	callq	core__fmt__formatter__Formatter__write_indented____cf0c1ea6a19dc359_
	testb	%al, %al
	jne	.LBB1_1095
	jmp	.LBB1_996
.LBB1_1087:
	movq	%rsi, %r13
	leaq	1488(%rsp), %rdi
	movq	%rdx, %rbp
	movq	%rdx, %rsi
	callq	std_alloc__vec__Vec__grow_amortized____08710997ffb5faad_
	testb	%al, %al
	je	.LBB1_1095
	movq	1488(%rsp), %rdi
	movq	1496(%rsp), %r12
	movq	1504(%rsp), %r15
	movq	%r13, %rsi
	movq	%rbp, %rdx
	jmp	.LBB1_995
.LBB1_1089:
	leaq	.Lstatic.61(%rip), %rsi
	leaq	1488(%rsp), %rdi
	movl	$1, %edx
	callq	core__fmt__formatter__Formatter__write_indented____cf0c1ea6a19dc359_
	movq	1504(%rsp), %rcx
	movq	%rcx, 1392(%rsp)
	movaps	1488(%rsp), %xmm0
	movaps	%xmm0, 16(%rsp)
	movq	%rcx, 32(%rsp)
	testb	%al, %al
	jne	.LBB1_1096
	jmp	.LBB1_999
.LBB1_1090:
	movq	192(%rsp), %rax
	movl	(%rax), %eax
	addq	16(%rsp), %rax
.LBB1_1091:
	movq	%rax, 240(%rsp)
	movb	$1, %r10b
	jmp	.LBB1_177
.LBB1_1092:
	leaq	1488(%rsp), %rdi
	movl	$1, %esi
	callq	std_alloc__vec__Vec__grow_amortized____08710997ffb5faad_
	testb	%al, %al
	je	.LBB1_1095
	movq	1496(%rsp), %rcx
	movq	1504(%rsp), %rax
	jmp	.LBB1_998
.LBB1_1095:
	movq	1504(%rsp), %rax
	movaps	1488(%rsp), %xmm0
	movaps	%xmm0, 16(%rsp)
	movq	%rax, 32(%rsp)
.LBB1_1096:
	movq	24(%rsp), %rax
	testq	%rbx, %rbx
	je	.LBB1_1101
	cmpq	%rax, %rbx
	je	.LBB1_1101
	cmpq	%rbx, %rax
	jb	.LBB1_1034
	jbe	.LBB1_1034
	movq	16(%rsp), %rax
	cmpb	$-65, (%rax,%rbx)
	jg	.LBB1_1102
	jmp	.LBB1_1034
.LBB1_1101:
	cmpq	%rbx, %rax
	jbe	.LBB1_1034
.LBB1_1102:
	movq	%rbx, 24(%rsp)
	jmp	.LBB1_1034
.LBB1_1103:
	movq	%r8, %rbx
	cmpq	$4, %rsi
	ja	.LBB1_1136
	leaq	.Lstatic.8(%rip), %rdx
	movl	$5, %ecx
	jmp	.LBB1_1110
.LBB1_1105:
	movq	%r8, %rbx
	cmpq	$3, %rsi
	ja	.LBB1_1138
	leaq	.Lstatic.9(%rip), %rdx
	jmp	.LBB1_1109
.LBB1_1107:
	movq	%r8, %rbx
	cmpq	$3, %rsi
	ja	.LBB1_1139
	leaq	.Lstatic.7(%rip), %rdx
.LBB1_1109:
	movl	$4, %ecx
.LBB1_1110:
	callq	core__slice__reads__slice_T__starts_with___i8_31_core__cmp__numbers__U8PartialEq___
	movb	$32, %cl
	jmp	.LBB1_1142
.LBB1_150:
	movq	%r8, 96(%rsp)
	leaq	1(%r8), %rdx
	movq	%rbx, %rax
	subq	%rdx, %rax
	movq	%rdx, %r13
	cmpq	$32, %rax
	jb	.LBB1_155
	movq	96(%rsp), %rdx
	notq	%rdx
	leaq	(%r14,%r13), %rax
.LBB1_152:
	movdqu	(%rax), %xmm0
	movdqu	16(%rax), %xmm1
	movdqa	.LCPI1_0(%rip), %xmm2
	movdqa	%xmm1, %xmm3
	movdqa	.LCPI1_2(%rip), %xmm4
	movdqa	%xmm0, %xmm5
	pminub	%xmm4, %xmm5
	pminub	%xmm1, %xmm4
	pcmpeqb	%xmm1, %xmm4
	pcmpeqb	%xmm2, %xmm1
	movdqa	.LCPI1_1(%rip), %xmm6
	pcmpeqb	%xmm6, %xmm3
	por	%xmm1, %xmm3
	pcmpeqb	%xmm0, %xmm2
	pcmpeqb	%xmm0, %xmm6
	por	%xmm2, %xmm6
	pcmpeqb	%xmm0, %xmm5
	por	%xmm6, %xmm5
	por	%xmm3, %xmm4
	pmovmskb	%xmm5, %esi
	pmovmskb	%xmm4, %ecx
	shll	$16, %ecx
	orl	%esi, %ecx
	jne	.LBB1_1156
	leaq	(%rbx,%rdx), %rcx
	addq	$-32, %rcx
	addq	$-32, %rdx
	addq	$32, %rax
	cmpq	$31, %rcx
	ja	.LBB1_152
	negq	%rdx
.LBB1_155:
	movq	%r14, %rdi
	movq	%rbx, %rsi
	callq	json__run__plain_end_16
	jmp	.LBB1_1157
.LBB1_1115:
	movl	4(%rcx,%rax,4), %eax
	addq	208(%rsp), %rax
	jmp	.LBB1_1116
.LBB1_1117:
	xorl	%eax, %eax
	cmpl	$45, %ecx
	sete	%al
	movq	%r8, 96(%rsp)
	leaq	(%r8,%rax), %r13
	movq	%rbx, %rcx
	subq	%r13, %rcx
	jbe	.LBB1_1131
	cmpb	$48, (%r14,%r13)
	jne	.LBB1_1131
	incq	%r13
	movq	%r13, %rax
	jmp	.LBB1_1120
.LBB1_1131:
	movq	%r13, %rdx
	cmpq	$16, %rcx
	jb	.LBB1_1135
	subq	%rax, %rsi
	movq	%r13, %rdx
.LBB1_1133:
	movdqu	(%r14,%rdx), %xmm0
	paddb	.LCPI1_3(%rip), %xmm0
	movdqa	.LCPI1_4(%rip), %xmm1
	pminub	%xmm0, %xmm1
	pcmpeqb	%xmm0, %xmm1
	pmovmskb	%xmm1, %eax
	testl	%eax, %eax
	jne	.LBB1_1167
	addq	$16, %rdx
	addq	$-16, %rsi
	cmpq	$15, %rsi
	ja	.LBB1_1133
.LBB1_1135:
	movq	%r14, %rdi
	movq	%rbx, %rsi
	callq	json__run__digits_end_slowly
	jmp	.LBB1_1168
.LBB1_1136:
	cmpl	$1702063201, 1(%rdi)
	sete	%al
	movb	$32, %cl
	cmpq	$5, %rsi
	je	.LBB1_1142
	movzbl	5(%rdi), %ecx
	jmp	.LBB1_1142
.LBB1_1138:
	movzbl	3(%rdi), %eax
	xorb	$108, %al
	movzbl	1(%rdi), %ecx
	movzbl	2(%rdi), %edx
	xorb	$108, %dl
	orb	%al, %dl
	xorb	$117, %cl
	jmp	.LBB1_1140
.LBB1_1139:
	movzbl	3(%rdi), %eax
	xorb	$101, %al
	movzbl	1(%rdi), %ecx
	movzbl	2(%rdi), %edx
	xorb	$117, %dl
	orb	%al, %dl
	xorb	$114, %cl
.LBB1_1140:
	orb	%dl, %cl
	sete	%al
	movb	$32, %cl
	cmpq	$4, %rsi
	je	.LBB1_1142
	movzbl	4(%rdi), %ecx
.LBB1_1142:
	movl	%ecx, %edx
	andb	$-33, %dl
	addb	$-91, %dl
	testb	$-3, %dl
	sete	%dil
	cmpb	$58, %cl
	sete	%r8b
	cmpb	$44, %cl
	sete	%dl
	cmpb	$32, %cl
	sete	%sil
	leal	-9(%rcx), %r9d
	cmpb	$2, %r9b
	setb	%r9b
	cmpb	$13, %cl
	sete	%cl
	testb	%al, %al
	je	.LBB1_1148
	orb	%r8b, %dl
	orb	%dil, %dl
	orb	%cl, %sil
	orb	%r9b, %sil
	orb	%dl, %sil
	movq	%rbx, %r8
	movb	$3, %r9b
	je	.LBB1_1072
.LBB1_1144:
	pxor	%xmm0, %xmm0
	movdqa	%xmm0, 16(%rsp)
	movdqa	%xmm0, 32(%rsp)
	movq	192(%rsp), %rcx
	movq	200(%rsp), %rax
	leaq	1(%rax), %rdx
	movq	%rdx, 200(%rsp)
	cmpq	216(%rsp), %rdx
	jne	.LBB1_1147
	movq	%r8, %rbx
	movq	176(%rsp), %rsi
	movq	184(%rsp), %rdx
	movq	224(%rsp), %r8
	movzwl	232(%rsp), %eax
	movw	%ax, 432(%rsp)
	movzbl	234(%rsp), %eax
	movb	%al, 434(%rsp)
	leaq	16(%rsp), %rdi
	leaq	432(%rsp), %r9
	callq	json__index__refill
	movdqa	16(%rsp), %xmm0
	movdqa	32(%rsp), %xmm1
	leaq	208(%rsp), %rax
	movdqu	%xmm1, 16(%rax)
	movdqu	%xmm0, (%rax)
	movq	$0, 200(%rsp)
	movq	192(%rsp), %rcx
	movl	$1, %eax
	cmpq	$0, 24(%rsp)
	jne	.LBB1_1149
	movq	184(%rsp), %rdx
	jmp	.LBB1_1150
.LBB1_1147:
	movl	4(%rcx,%rax,4), %edx
	addq	208(%rsp), %rdx
	addq	$2, %rax
	jmp	.LBB1_1151
.LBB1_1148:
	movq	%rbx, %r8
	movb	$3, %r9b
	jmp	.LBB1_1072
.LBB1_1113:
	movq	192(%rsp), %rax
	movl	(%rax), %eax
	addq	16(%rsp), %rax
.LBB1_1116:
	movq	%rax, 240(%rsp)
	movb	$1, %r9b
.LBB1_1214:
	movq	%rbx, %r8
	jmp	.LBB1_1072
.LBB1_1149:
	movl	(%rcx), %edx
	addq	16(%rsp), %rdx
.LBB1_1150:
	movq	%rbx, %r8
.LBB1_1151:
	movq	%rdx, 240(%rsp)
	movb	$2, %r9b
	cmpq	168(%rsp), %rdx
	jae	.LBB1_1072
	movq	160(%rsp), %rsi
	cmpb	$44, (%rsi,%rdx)
	jne	.LBB1_1072
	movq	%r8, %rbx
	pxor	%xmm0, %xmm0
	movdqa	%xmm0, 16(%rsp)
	movdqa	%xmm0, 32(%rsp)
	movq	%rax, 200(%rsp)
	cmpq	216(%rsp), %rax
	jne	.LBB1_1166
	movq	176(%rsp), %rsi
	movq	184(%rsp), %rdx
	movq	224(%rsp), %r8
	movzwl	232(%rsp), %eax
	movw	%ax, 432(%rsp)
	movzbl	234(%rsp), %eax
	movb	%al, 434(%rsp)
	leaq	16(%rsp), %rdi
	leaq	432(%rsp), %r9
	callq	json__index__refill
	movdqa	16(%rsp), %xmm0
	movdqa	32(%rsp), %xmm1
	leaq	208(%rsp), %rax
	movdqu	%xmm1, 16(%rax)
	movdqu	%xmm0, (%rax)
	movq	$0, 200(%rsp)
	cmpq	$0, 24(%rsp)
	jne	.LBB1_1212
	movq	184(%rsp), %rax
	jmp	.LBB1_1213
.LBB1_437:
	movb	$8, %bl
	cmpb	$1, (%r15)
	jne	.LBB1_441
	movq	%rdx, %r14
	movzbl	1(%r15), %eax
	movq	%rax, 56(%rsp)
	movzbl	%r13b, %esi
	leaq	1488(%rsp), %rdi
	movq	72(%rsp), %rdx
	callq	ww_script_parts__scripts__graph_of
	cmpb	$0, 1488(%rsp)
	je	.LBB1_1218
.LBB1_439:
	movzbl	1489(%rsp), %ebx
	jmp	.LBB1_441
.LBB1_1156:
	rep		bsfl	%ecx, %eax
	subq	%rdx, %rax
.LBB1_1157:
	cmpq	%rbx, %rax
	jae	.LBB1_1159
	cmpb	$34, (%r14,%rax)
	je	.LBB1_1161
.LBB1_1159:
	movq	248(%rsp), %rdx
	movq	256(%rsp), %rcx
	leaq	48(%rsp), %rax
	movq	%rax, 248(%rsp)
	movq	$0, 256(%rsp)
	movq	%r14, %rdi
	movq	%rdx, %r14
	movq	%rbx, %rsi
	movq	%rcx, %rbx
	movq	%r13, %rdx
	movq	%r14, %rcx
	movq	%rbx, %r8
	callq	json__unescape__unescape
	cmpb	$1, %al
	jne	.LBB1_1164
	addq	%rdx, %r14
	subq	%rdx, %rbx
	movq	%r14, 248(%rsp)
	movq	%rbx, 256(%rsp)
.LBB1_1161:
	pxor	%xmm0, %xmm0
	movdqa	%xmm0, 16(%rsp)
	movdqa	%xmm0, 32(%rsp)
	movq	192(%rsp), %rcx
	movq	200(%rsp), %rdx
	leaq	1(%rdx), %rax
	movq	%rax, 200(%rsp)
	cmpq	216(%rsp), %rax
	jne	.LBB1_1165
	movq	176(%rsp), %rsi
	movq	184(%rsp), %rdx
	movq	224(%rsp), %r8
	movzwl	232(%rsp), %eax
	movw	%ax, 432(%rsp)
	movzbl	234(%rsp), %eax
	movb	%al, 434(%rsp)
	leaq	16(%rsp), %rdi
	leaq	432(%rsp), %r9
	callq	json__index__refill
	movdqa	16(%rsp), %xmm0
	movdqa	32(%rsp), %xmm1
	leaq	208(%rsp), %rax
	movdqu	%xmm1, 16(%rax)
	movdqu	%xmm0, (%rax)
	movq	$0, 200(%rsp)
	movq	192(%rsp), %rcx
	cmpq	$0, 24(%rsp)
	jne	.LBB1_1203
	movq	184(%rsp), %rdx
	jmp	.LBB1_1204
.LBB1_1164:
	movq	%r14, 248(%rsp)
	movq	%rbx, 256(%rsp)
	jmp	.LBB1_1169
.LBB1_1165:
	movl	4(%rcx,%rdx,4), %edx
	addq	208(%rsp), %rdx
	jmp	.LBB1_1205
.LBB1_1166:
	movl	(%rcx,%rax,4), %eax
	addq	208(%rsp), %rax
	jmp	.LBB1_1213
.LBB1_1167:
	rep		bsfl	%eax, %eax
	addq	%rdx, %rax
.LBB1_1168:
	cmpq	%r13, %rax
	jne	.LBB1_1120
.LBB1_1169:
	movq	96(%rsp), %r8
	movb	$3, %r9b
	jmp	.LBB1_1072
.LBB1_1120:
	cmpq	%rbx, %rax
	jae	.LBB1_1298
	cmpb	$46, (%r14,%rax)
	jne	.LBB1_1298
	leaq	1(%rax), %r13
	movq	%rbx, %rcx
	subq	%r13, %rcx
	movq	%r13, %rdx
	cmpq	$16, %rcx
	jb	.LBB1_1127
	notq	%rax
	leaq	(%r14,%r13), %rcx
.LBB1_1124:
	movdqu	(%rcx), %xmm0
	paddb	.LCPI1_3(%rip), %xmm0
	movdqa	.LCPI1_4(%rip), %xmm1
	pminub	%xmm0, %xmm1
	pcmpeqb	%xmm0, %xmm1
	pmovmskb	%xmm1, %edx
	testl	%edx, %edx
	jne	.LBB1_1296
	leaq	(%rbx,%rax), %rdx
	addq	$-16, %rdx
	addq	$-16, %rax
	addq	$16, %rcx
	cmpq	$15, %rdx
	ja	.LBB1_1124
	negq	%rax
	movq	%rax, %rdx
.LBB1_1127:
	movq	%r14, %rdi
	movq	%rbx, %rsi
	callq	json__run__digits_end_slowly
	jmp	.LBB1_1297
.LBB1_1018:
	movq	1504(%rsp), %rax
	movdqa	1488(%rsp), %xmm0
	movdqa	%xmm0, 1376(%rsp)
	movq	%rax, 64(%rsp)
	movq	%rax, 1392(%rsp)
	movq	24(%rsp), %rax
	movq	32(%rsp), %rcx
	movq	%rcx, %rdx
	subq	%rax, %rdx
	cmpq	$3, %rdx
	jbe	.LBB1_1323
.LBB1_1019:
	movq	16(%rsp), %rdx
	movl	$1735289202, (%rdx,%rax)
	addq	$4, %rax
	movq	%rdx, 16(%rsp)
	movq	%rax, 24(%rsp)
	movq	%rcx, 32(%rsp)
	cmpq	$0, 64(%rsp)
	je	.LBB1_1024
	xorl	%ebx, %ebx
	movq	64(%rsp), %r14
.LBB1_1021:
	movzbl	1376(%rsp,%rbx), %ecx
	leaq	.Lstatic.60(%rip), %rsi
	leaq	16(%rsp), %rdi
	movl	$1, %edx
	callq	ww_json__pieces__push_number____d61698437832fad8_
	testb	%al, %al
	jne	.LBB1_1034
	incq	%rbx
	cmpq	%rbx, %r14
	jne	.LBB1_1021
	movq	24(%rsp), %rax
	movq	32(%rsp), %rcx
.LBB1_1024:
	cmpq	%rax, %rcx
	je	.LBB1_1325
.LBB1_1025:
	leaq	1(%rax), %rdx
	movq	16(%rsp), %rsi
	movb	$10, (%rsi,%rax)
	movq	%rsi, 16(%rsp)
	movq	%rdx, 24(%rsp)
	movq	%rcx, 32(%rsp)
	cmpq	$0, 64(%rsp)
	je	.LBB1_1223
	movq	544(%rsp), %rax
	movq	%rax, 80(%rsp)
	movq	552(%rsp), %rdx
	movq	568(%rsp), %rbp
	movq	576(%rsp), %r12
	movzbl	%r12b, %r13d
	movq	624(%rsp), %rax
	movq	%rax, 112(%rsp)
	movq	616(%rsp), %rax
	movq	%rax, 488(%rsp)
	movq	648(%rsp), %rax
	movq	%rax, 424(%rsp)
	movq	640(%rsp), %rax
	movq	%rax, 8(%rsp)
	movq	$0, 152(%rsp)
	movl	$0, 472(%rsp)
	xorl	%r15d, %r15d
	movq	64(%rsp), %rax
	movq	%rdx, 120(%rsp)
	jmp	.LBB1_1172
.LBB1_1170:
	movq	64(%rsp), %rax
	movq	120(%rsp), %rdx
.LBB1_1171:
	incq	%r15
	cmpq	%rax, %r15
	je	.LBB1_1224
.LBB1_1172:
	movzbl	1376(%rsp,%r15), %ebx
	cmpq	%rbx, %rdx
	jbe	.LBB1_1171
	movq	80(%rsp), %rcx
	cmpq	$0, (%rcx,%rbx,8)
	je	.LBB1_1171
	xorl	%eax, %eax
.LBB1_1175:
	cmpq	%rax, %r12
	je	.LBB1_1170
	movq	%rax, %rcx
	incq	%rax
	cmpb	$1, (%rbp,%rcx,2)
	jne	.LBB1_1175
	cmpb	%bl, 1(%rbp,%rcx,2)
	jne	.LBB1_1175
	testq	%r13, %r13
	je	.LBB1_1170
	xorl	%r14d, %r14d
	movq	112(%rsp), %rdx
	movq	488(%rsp), %rsi
	movq	424(%rsp), %rdi
	jmp	.LBB1_1181
.LBB1_1180:
	incq	%r14
	cmpq	%r13, %r14
	je	.LBB1_1170
.LBB1_1181:
	cmpq	%r14, %rdx
	jbe	.LBB1_1183
	movq	%r14, %rax
	shlq	$8, %rax
	leaq	(%rax,%r14,8), %rcx
	leaq	(%rsi,%rcx), %rax
	movq	256(%rsi,%rcx), %rcx
	jmp	.LBB1_1184
.LBB1_1183:
	leaq	.Lstatic.79(%rip), %rax
	xorl	%ecx, %ecx
.LBB1_1184:
	addq	$8, %rax
	incq	%rcx
.LBB1_1185:
	decq	%rcx
	je	.LBB1_1180
	cmpb	%bl, (%rax)
	leaq	16(%rax), %rax
	jne	.LBB1_1185
	cmpq	%r14, %rdi
	jbe	.LBB1_1190
	movq	8(%rsp), %rcx
	movzbl	(%rcx,%r14,2), %eax
	xorb	$1, %al
	movzbl	1(%rcx,%r14,2), %ecx
	xorb	%bl, %cl
	orb	%al, %cl
	setne	%al
	cmpq	%r14, %r12
	jbe	.LBB1_1180
	testb	%al, %al
	jne	.LBB1_1191
	jmp	.LBB1_1180
.LBB1_1190:
	cmpq	%r14, %r12
	jbe	.LBB1_1180
.LBB1_1191:
	leaq	(%r14,%r14), %rax
	movzwl	(%rbp,%rax), %eax
	testb	%al, %al
	je	.LBB1_1180
	shrl	$8, %eax
	cmpb	%al, %bl
	je	.LBB1_1180
	leaq	496(%rsp), %rdi
	movl	%ebx, %esi
	movl	%r14d, %edx
	callq	ww_model__state__Core__dies
	movq	424(%rsp), %rdi
	movq	488(%rsp), %rsi
	movq	112(%rsp), %rdx
	testb	$1, %al
	je	.LBB1_1180
	movl	472(%rsp), %eax
	movzbl	%al, %eax
	cmpb	%al, %bl
	cmovbl	%ebx, %eax
	testb	$1, 152(%rsp)
	cmovel	%ebx, %eax
	movl	%eax, 472(%rsp)
	movb	$1, %al
	movq	%rax, 152(%rsp)
	jmp	.LBB1_1170
.LBB1_1195:
	movq	56(%rsp), %rax
	movq	16(%rax), %rcx
	movq	%rcx, 56(%rsp)
	testq	%rcx, %rcx
	je	.LBB1_1130
	cmpq	$64, 56(%rsp)
	ja	.LBB1_1130
	movq	8(%rsp), %rax
	cmpb	$2, (%rax)
	jne	.LBB1_441
	cmpb	$0, 8(%rax)
	jne	.LBB1_1130
	movq	8(%rsp), %rax
	movq	16(%rax), %rcx
	movq	%rcx, 128(%rsp)
	movb	$2, %bl
	testq	%rcx, %rcx
	je	.LBB1_441
	cmpq	$16, 128(%rsp)
	ja	.LBB1_441
	movq	%rdx, %r14
	movzbl	128(%rsp), %esi
	movzbl	56(%rsp), %edx
	leaq	1488(%rsp), %rdi
	movq	%r13, %rcx
	callq	ww_schedule__schedules__events_of
	cmpb	$0, 1488(%rsp)
	jne	.LBB1_439
	movq	1496(%rsp), %rax
	movq	%rax, 72(%rsp)
	movq	1504(%rsp), %r13
	movq	1512(%rsp), %rax
	movq	%rax, 96(%rsp)
	movl	$0, 816(%rsp)
	movb	$0, 820(%rsp)
	pxor	%xmm0, %xmm0
	movdqa	%xmm0, 496(%rsp)
	movq	$0, 512(%rsp)
	movb	$1, %dl
	jmp	.LBB1_1318
.LBB1_1203:
	movl	(%rcx), %edx
	addq	16(%rsp), %rdx
.LBB1_1204:
	xorl	%eax, %eax
.LBB1_1205:
	movq	%rdx, 240(%rsp)
	cmpq	168(%rsp), %rdx
	jae	.LBB1_1211
	movq	160(%rsp), %rsi
	movzbl	(%rsi,%rdx), %edx
	cmpl	$44, %edx
	je	.LBB1_1215
	cmpl	$58, %edx
	movq	96(%rsp), %r8
	movb	$2, %r9b
	jne	.LBB1_1072
	pxor	%xmm0, %xmm0
	movdqa	%xmm0, 16(%rsp)
	movdqa	%xmm0, 32(%rsp)
	leaq	1(%rax), %rdx
	movq	%rdx, 200(%rsp)
	cmpq	216(%rsp), %rdx
	jne	.LBB1_1221
	movq	176(%rsp), %rsi
	movq	184(%rsp), %rdx
	movq	224(%rsp), %r8
	movzwl	232(%rsp), %eax
	movw	%ax, 432(%rsp)
	movzbl	234(%rsp), %eax
	movb	%al, 434(%rsp)
	leaq	16(%rsp), %rdi
	leaq	432(%rsp), %r9
	callq	json__index__refill
	movdqa	16(%rsp), %xmm0
	movdqa	32(%rsp), %xmm1
	leaq	208(%rsp), %rax
	movdqu	%xmm1, 16(%rax)
	movdqu	%xmm0, (%rax)
	movq	$0, 200(%rsp)
	cmpq	$0, 24(%rsp)
	jne	.LBB1_1319
	movq	184(%rsp), %rax
	jmp	.LBB1_1320
.LBB1_1211:
	movq	96(%rsp), %r8
	movb	$2, %r9b
	jmp	.LBB1_1072
.LBB1_1212:
	movq	192(%rsp), %rax
	movl	(%rax), %eax
	addq	16(%rsp), %rax
.LBB1_1213:
	movq	%rax, 240(%rsp)
	xorl	%r9d, %r9d
	jmp	.LBB1_1214
.LBB1_1215:
	pxor	%xmm0, %xmm0
	movdqa	%xmm0, 16(%rsp)
	movdqa	%xmm0, 32(%rsp)
	leaq	1(%rax), %rdx
	movq	%rdx, 200(%rsp)
	cmpq	216(%rsp), %rdx
	jne	.LBB1_1222
	movq	176(%rsp), %rsi
	movq	184(%rsp), %rdx
	movq	224(%rsp), %r8
	movzwl	232(%rsp), %eax
	movw	%ax, 432(%rsp)
	movzbl	234(%rsp), %eax
	movb	%al, 434(%rsp)
	leaq	16(%rsp), %rdi
	leaq	432(%rsp), %r9
	callq	json__index__refill
	movdqa	16(%rsp), %xmm0
	movdqa	32(%rsp), %xmm1
	leaq	208(%rsp), %rax
	movdqu	%xmm1, 16(%rax)
	movdqu	%xmm0, (%rax)
	movq	$0, 200(%rsp)
	cmpq	$0, 24(%rsp)
	jne	.LBB1_1321
	movq	184(%rsp), %rax
	jmp	.LBB1_1322
.LBB1_1218:
	movq	1496(%rsp), %rax
	movq	%rax, 72(%rsp)
	movq	1504(%rsp), %rsi
	movq	1512(%rsp), %rax
	movq	%rax, 96(%rsp)
	movzbl	128(%rsp), %edx
	leaq	160(%rsp), %rdi
	movq	%rsi, %r13
	movq	64(%rsp), %rcx
	callq	ww_script_parts__scripts__all_scripts_of
	cmpb	$0, 160(%rsp)
	je	.LBB1_1317
	movzbl	161(%rsp), %ebx
	cmpq	$0, 96(%rsp)
	je	.LBB1_441
	movq	72(%rsp), %rdi
	callq	rattle_dealloc@PLT
	jmp	.LBB1_441
.LBB1_1221:
	movl	4(%rcx,%rax,4), %eax
	addq	208(%rsp), %rax
	jmp	.LBB1_1320
.LBB1_1222:
	movl	4(%rcx,%rax,4), %eax
	addq	208(%rsp), %rax
	jmp	.LBB1_1322
.LBB1_1223:
	movl	$0, 472(%rsp)
	movq	$0, 152(%rsp)
.LBB1_1224:
	movzbl	152(%rsp), %esi
	movzbl	472(%rsp), %edx
	leaq	16(%rsp), %rdi
	callq	ww_schedule__replay__push_condemned_line
	testb	%al, %al
	jne	.LBB1_1034
.LBB1_1225:
	cmpb	$0, 56(%rsp)
	je	.LBB1_1257
	movl	$9, %eax
	movq	%rax, 56(%rsp)
	xorl	%ebx, %ebx
.LBB1_1227:
	movq	568(%rsp), %rax
	movzbl	(%rax,%rbx,2), %r14d
	movzbl	1(%rax,%rbx,2), %r15d
	movq	%r14, %r12
	testl	%r14d, %r14d
	je	.LBB1_1229
	cmpl	$2, %r14d
	movq	520(%rsp), %rax
	movq	(%rax,%r15,8), %r12
.LBB1_1229:
	movq	616(%rsp), %r13
	movq	%rbx, %rax
	shlq	$8, %rax
	leaq	(%rax,%rbx,8), %rax
	movq	256(%r13,%rax), %rbp
	leaq	.Lstatic.95(%rip), %rsi
	leaq	16(%rsp), %rdi
	movl	$5, %edx
	movl	%ebx, %ecx
	callq	ww_json__pieces__push_number____d61698437832fad8_
	testb	%al, %al
	jne	.LBB1_1034
	movq	24(%rsp), %rax
	movq	32(%rsp), %rcx
	cmpq	%rax, %rcx
	je	.LBB1_1284
.LBB1_1231:
	movq	16(%rsp), %rdx
	movb	$32, (%rdx,%rax)
	incq	%rax
	movq	%rdx, 16(%rsp)
	movq	%rax, 24(%rsp)
	movq	%rcx, 32(%rsp)
	cmpq	$2, %r14
	je	.LBB1_1236
	cmpl	$1, %r14d
	jne	.LBB1_1240
	leaq	.Lstatic.79(%rip), %rsi
	leaq	16(%rsp), %rdi
	xorl	%edx, %edx
	movl	%r15d, %ecx
	callq	ww_json__pieces__push_number____d61698437832fad8_
	testb	%al, %al
	jne	.LBB1_1034
	leaq	.Lstatic.98(%rip), %rsi
	leaq	16(%rsp), %rdi
	movl	$1, %edx
	movq	%r12, %rcx
	callq	ww_json__pieces__push_number____4d4e20cb341597a4_
	testb	%al, %al
	jne	.LBB1_1034
	movq	24(%rsp), %rax
	movq	32(%rsp), %rcx
	jmp	.LBB1_1243
.LBB1_1236:
	leaq	.Lstatic.79(%rip), %rsi
	leaq	16(%rsp), %rdi
	xorl	%edx, %edx
	movl	%r15d, %ecx
	callq	ww_json__pieces__push_number____d61698437832fad8_
	testb	%al, %al
	jne	.LBB1_1034
	leaq	.Lstatic.98(%rip), %rsi
	leaq	16(%rsp), %rdi
	movl	$1, %edx
	movq	%r12, %rcx
	callq	ww_json__pieces__push_number____4d4e20cb341597a4_
	testb	%al, %al
	jne	.LBB1_1034
	movq	24(%rsp), %rax
	movq	32(%rsp), %rcx
	cmpq	%rax, %rcx
	je	.LBB1_1292
.LBB1_1239:
	movq	16(%rsp), %rdx
	movb	$104, (%rdx,%rax)
	jmp	.LBB1_1242
.LBB1_1240:
	cmpq	%rax, %rcx
	je	.LBB1_1290
.LBB1_1241:
	movb	$45, (%rdx,%rax)
.LBB1_1242:
	incq	%rax
	movq	%rdx, 16(%rsp)
	movq	%rax, 24(%rsp)
	movq	%rcx, 32(%rsp)
.LBB1_1243:
	movq	%rcx, %rdx
	subq	%rax, %rdx
	cmpq	$1, %rdx
	jbe	.LBB1_1286
.LBB1_1244:
	movq	16(%rsp), %rdx
	leaq	(%rdx,%rax), %rsi
	leaq	.Lstatic.96(%rip), %rdi
	movq	%rsi, %r8
	subq	%rdi, %r8
	cmpq	$1, %r8
	movw	$14880, (%rsi)
	addq	$2, %rax
	movq	%rdx, 16(%rsp)
	movq	%rax, 24(%rsp)
	movq	%rcx, 32(%rsp)
	testq	%rbp, %rbp
	je	.LBB1_1255
	addq	56(%rsp), %r13
	jmp	.LBB1_1248
.LBB1_1246:
	movq	16(%rsp), %rdx
	movb	$43, (%rdx,%rax)
	incq	%rax
	movq	%rdx, 16(%rsp)
	movq	%rax, 24(%rsp)
	movq	%rcx, 32(%rsp)
.LBB1_1247:
	addq	$16, %r13
	decq	%rbp
	je	.LBB1_1254
.LBB1_1248:
	movq	-9(%r13), %r14
	movzbl	-1(%r13), %ecx
	leaq	.Lstatic.60(%rip), %rsi
	leaq	16(%rsp), %rdi
	movl	$1, %edx
	callq	ww_json__pieces__push_number____d61698437832fad8_
	testb	%al, %al
	jne	.LBB1_1034
	leaq	.Lstatic.98(%rip), %rsi
	leaq	16(%rsp), %rdi
	movl	$1, %edx
	movq	%r14, %rcx
	callq	ww_json__pieces__push_number____4d4e20cb341597a4_
	testb	%al, %al
	jne	.LBB1_1034
	cmpb	$1, (%r13)
	jne	.LBB1_1247
	movq	24(%rsp), %rax
	movq	32(%rsp), %rcx
	cmpq	%rax, %rcx
	jne	.LBB1_1246
	leaq	16(%rsp), %rdi
	movl	$1, %esi
	callq	std_alloc__vec__Vec__grow_amortized____08710997ffb5faad_
	testb	%al, %al
	je	.LBB1_1034
	movq	24(%rsp), %rax
	movq	32(%rsp), %rcx
	jmp	.LBB1_1246
.LBB1_1254:
	movq	24(%rsp), %rax
	movq	32(%rsp), %rcx
.LBB1_1255:
	cmpq	%rax, %rcx
	je	.LBB1_1288
.LBB1_1256:
	movq	16(%rsp), %rdx
	movb	$10, (%rdx,%rax)
	incq	%rax
	movq	%rdx, 16(%rsp)
	movq	%rax, 24(%rsp)
	movq	%rcx, 32(%rsp)
	incq	%rbx
	addq	$264, 56(%rsp)
	cmpq	480(%rsp), %rbx
	jne	.LBB1_1227
	jmp	.LBB1_1257
.LBB1_1284:
	leaq	16(%rsp), %rdi
	movl	$1, %esi
	callq	std_alloc__vec__Vec__grow_amortized____08710997ffb5faad_
	testb	%al, %al
	je	.LBB1_1034
	movq	24(%rsp), %rax
	movq	32(%rsp), %rcx
	jmp	.LBB1_1231
.LBB1_1286:
	leaq	16(%rsp), %rdi
	movl	$2, %esi
	callq	std_alloc__vec__Vec__grow_amortized____08710997ffb5faad_
	testb	%al, %al
	je	.LBB1_1034
	movq	24(%rsp), %rax
	movq	32(%rsp), %rcx
	jmp	.LBB1_1244
.LBB1_1288:
	leaq	16(%rsp), %rdi
	movl	$1, %esi
	callq	std_alloc__vec__Vec__grow_amortized____08710997ffb5faad_
	testb	%al, %al
	je	.LBB1_1034
	movq	24(%rsp), %rax
	movq	32(%rsp), %rcx
	jmp	.LBB1_1256
.LBB1_1290:
	leaq	16(%rsp), %rdi
	movl	$1, %esi
	callq	std_alloc__vec__Vec__grow_amortized____08710997ffb5faad_
	testb	%al, %al
	je	.LBB1_1034
	movq	16(%rsp), %rdx
	movq	24(%rsp), %rax
	movq	32(%rsp), %rcx
	jmp	.LBB1_1241
.LBB1_1292:
	leaq	16(%rsp), %rdi
	movl	$1, %esi
	callq	std_alloc__vec__Vec__grow_amortized____08710997ffb5faad_
	testb	%al, %al
	je	.LBB1_1034
	movq	24(%rsp), %rax
	movq	32(%rsp), %rcx
	jmp	.LBB1_1239
.LBB1_1257:
	cmpb	$0, 128(%rsp)
	je	.LBB1_1264
	xorl	%ebx, %ebx
.LBB1_1259:
	movq	520(%rsp), %rax
	movq	544(%rsp), %rcx
	movq	(%rax,%rbx,8), %r15
	movq	(%rcx,%rbx,8), %r14
	leaq	.Lstatic.99(%rip), %rsi
	leaq	16(%rsp), %rdi
	movl	$5, %edx
	movl	%ebx, %ecx
	callq	ww_json__pieces__push_number____d61698437832fad8_
	testb	%al, %al
	jne	.LBB1_1034
	leaq	.Lstatic.60(%rip), %rsi
	leaq	16(%rsp), %rdi
	movl	$1, %edx
	movq	%r15, %rcx
	callq	ww_json__pieces__push_number____4d4e20cb341597a4_
	testb	%al, %al
	jne	.LBB1_1034
	leaq	.Lstatic.60(%rip), %rsi
	leaq	16(%rsp), %rdi
	movl	$1, %edx
	movq	%r14, %rcx
	callq	ww_json__pieces__push_number____4d4e20cb341597a4_
	testb	%al, %al
	jne	.LBB1_1034
	movq	24(%rsp), %rax
	movq	32(%rsp), %rcx
	cmpq	%rax, %rcx
	je	.LBB1_1294
.LBB1_1263:
	movq	16(%rsp), %rdx
	movb	$10, (%rdx,%rax)
	incq	%rax
	movq	%rdx, 16(%rsp)
	movq	%rax, 24(%rsp)
	movq	%rcx, 32(%rsp)
	incq	%rbx
	cmpq	%rbx, 144(%rsp)
	jne	.LBB1_1259
	jmp	.LBB1_1264
.LBB1_1294:
	leaq	16(%rsp), %rdi
	movl	$1, %esi
	callq	std_alloc__vec__Vec__grow_amortized____08710997ffb5faad_
	testb	%al, %al
	je	.LBB1_1034
	movq	24(%rsp), %rax
	movq	32(%rsp), %rcx
	jmp	.LBB1_1263
.LBB1_1264:
	movq	32(%rsp), %rax
	movq	%rax, 839(%rsp)
	movq	16(%rsp), %rax
	movq	%rax, 823(%rsp)
	movq	24(%rsp), %rax
	movq	%rax, 831(%rsp)
	cmpq	$0, 536(%rsp)
	je	.LBB1_1266
	movq	520(%rsp), %rdi
	callq	rattle_dealloc@PLT
.LBB1_1266:
	cmpq	$0, 560(%rsp)
	movq	136(%rsp), %rbp
	je	.LBB1_1268
	movq	544(%rsp), %rdi
	callq	rattle_dealloc@PLT
.LBB1_1268:
	cmpq	$0, 584(%rsp)
	je	.LBB1_1270
	movq	568(%rsp), %rdi
	callq	rattle_dealloc@PLT
.LBB1_1270:
	cmpq	$0, 608(%rsp)
	je	.LBB1_1272
	movq	592(%rsp), %rdi
	callq	rattle_dealloc@PLT
.LBB1_1272:
	cmpq	$0, 632(%rsp)
	je	.LBB1_1274
	movq	616(%rsp), %rdi
	callq	rattle_dealloc@PLT
.LBB1_1274:
	cmpq	$0, 656(%rsp)
	je	.LBB1_1276
	movq	640(%rsp), %rdi
	callq	rattle_dealloc@PLT
.LBB1_1276:
	cmpq	$0, 680(%rsp)
	je	.LBB1_1278
	movq	664(%rsp), %rdi
	callq	rattle_dealloc@PLT
.LBB1_1278:
	leaq	823(%rsp), %rbx
	cmpq	$0, 704(%rsp)
	je	.LBB1_1280
	movq	688(%rsp), %rdi
	callq	rattle_dealloc@PLT
.LBB1_1280:
	movq	16(%rbx), %rax
	movq	%rax, 1047(%rsp)
	movups	(%rbx), %xmm0
	movups	%xmm0, 1031(%rsp)
	movups	%xmm0, 933(%rsp)
	movq	%rax, 949(%rsp)
	cmpq	$0, 96(%rsp)
	je	.LBB1_1283
	movq	72(%rsp), %rdi
.LBB1_1282:
	callq	rattle_dealloc@PLT
.LBB1_1283:
	movw	$0, (%rbp)
	movb	$0, 2(%rbp)
	movdqu	933(%rsp), %xmm0
	movdqu	%xmm0, 8(%rbp)
	movq	949(%rsp), %rax
	jmp	.LBB1_1056
.LBB1_1296:
	rep		bsfl	%edx, %ecx
	subq	%rax, %rcx
	movq	%rcx, %rax
.LBB1_1297:
	cmpq	%r13, %rax
	je	.LBB1_1169
.LBB1_1298:
	cmpq	%rbx, %rax
	jae	.LBB1_1312
	movzbl	(%r14,%rax), %ecx
	andb	$-33, %cl
	cmpb	$69, %cl
	jne	.LBB1_1312
	leaq	1(%rax), %r13
	cmpq	%rbx, %r13
	jae	.LBB1_1304
	movzbl	(%r14,%r13), %ecx
	cmpl	$45, %ecx
	je	.LBB1_1303
	cmpl	$43, %ecx
	jne	.LBB1_1304
.LBB1_1303:
	addq	$2, %rax
	movq	%rax, %r13
.LBB1_1304:
	movq	%rbx, %rax
	subq	%r13, %rax
	movq	%r13, %rdx
	cmpq	$16, %rax
	jb	.LBB1_1309
	movq	%r13, %rdx
	negq	%rdx
	leaq	(%r14,%r13), %rax
.LBB1_1306:
	movdqu	(%rax), %xmm0
	paddb	.LCPI1_3(%rip), %xmm0
	movdqa	.LCPI1_4(%rip), %xmm1
	pminub	%xmm0, %xmm1
	pcmpeqb	%xmm0, %xmm1
	pmovmskb	%xmm1, %ecx
	testl	%ecx, %ecx
	jne	.LBB1_1310
	leaq	(%rbx,%rdx), %rcx
	addq	$-16, %rcx
	addq	$-16, %rdx
	addq	$16, %rax
	cmpq	$15, %rcx
	ja	.LBB1_1306
	negq	%rdx
.LBB1_1309:
	movq	%r14, %rdi
	movq	%rbx, %rsi
	callq	json__run__digits_end_slowly
	jmp	.LBB1_1311
.LBB1_1310:
	rep		bsfl	%ecx, %eax
	subq	%rdx, %rax
.LBB1_1311:
	cmpq	%r13, %rax
	je	.LBB1_1169
.LBB1_1312:
	cmpq	%rbx, %rax
	movq	96(%rsp), %r8
	jae	.LBB1_1144
	movzbl	(%r14,%rax), %eax
	cmpq	$58, %rax
	ja	.LBB1_1315
	movabsq	$288247972632733184, %rcx
	btq	%rax, %rcx
	jb	.LBB1_1144
.LBB1_1315:
	addl	$-91, %eax
	cmpl	$34, %eax
	ja	.LBB1_1169
	movabsq	$21474836485, %rcx
	btq	%rax, %rcx
	movq	96(%rsp), %r8
	movb	$3, %r9b
	jb	.LBB1_1144
	jmp	.LBB1_1072
.LBB1_1317:
	movq	184(%rsp), %rax
	movq	%rax, 512(%rsp)
	movdqu	168(%rsp), %xmm0
	movdqa	%xmm0, 496(%rsp)
	movl	$0, 816(%rsp)
	movb	$0, 820(%rsp)
	xorl	%edx, %edx
.LBB1_1318:
	movzbl	820(%rsp), %eax
	movb	%al, 108(%rsp)
	movl	816(%rsp), %eax
	movl	%eax, 104(%rsp)
	movdqa	496(%rsp), %xmm0
	movdqa	%xmm0, 736(%rsp)
	movq	512(%rsp), %rax
	movq	%rax, 752(%rsp)
	xorl	%r15d, %r15d
	xorl	%ebx, %ebx
	movq	96(%rsp), %rcx
	movq	72(%rsp), %rsi
	movq	128(%rsp), %r10
	cmpb	$1, %r12b
	je	.LBB1_197
	jmp	.LBB1_198
.LBB1_1319:
	movq	192(%rsp), %rax
	movl	(%rax), %eax
	addq	16(%rsp), %rax
.LBB1_1320:
	movq	%rax, 240(%rsp)
	movb	$1, %r9b
	movq	96(%rsp), %r8
	jmp	.LBB1_1072
.LBB1_1321:
	movq	192(%rsp), %rax
	movl	(%rax), %eax
	addq	16(%rsp), %rax
.LBB1_1322:
	movq	%rax, 240(%rsp)
	xorl	%r9d, %r9d
	movq	96(%rsp), %r8
	jmp	.LBB1_1072
.LBB1_1323:
	leaq	16(%rsp), %rdi
	movl	$4, %esi
	callq	std_alloc__vec__Vec__grow_amortized____08710997ffb5faad_
	testb	%al, %al
	je	.LBB1_1034
	movq	24(%rsp), %rax
	movq	32(%rsp), %rcx
	jmp	.LBB1_1019
.LBB1_1325:
	leaq	16(%rsp), %rdi
	movl	$1, %esi
	callq	std_alloc__vec__Vec__grow_amortized____08710997ffb5faad_
	testb	%al, %al
	je	.LBB1_1034
	movq	24(%rsp), %rax
	movq	32(%rsp), %rcx
	jmp	.LBB1_1025
.LBB1_1327:
	ud2
.Lfunc_end1:
	.size	ww_run__run__text_of____f7400dcd187a4b89_, .Lfunc_end1-ww_run__run__text_of____f7400dcd187a4b89_
	.section	.rodata.ww_run__run__text_of____f7400dcd187a4b89_,"a",@progbits
	.p2align	2, 0x0
.LJTI1_0:
	.long	.LBB1_38-.LJTI1_0
	.long	.LBB1_38-.LJTI1_0
	.long	.LBB1_30-.LJTI1_0
	.long	.LBB1_30-.LJTI1_0
	.long	.LBB1_38-.LJTI1_0
	.long	.LBB1_30-.LJTI1_0
	.long	.LBB1_30-.LJTI1_0
	.long	.LBB1_30-.LJTI1_0
	.long	.LBB1_30-.LJTI1_0
	.long	.LBB1_30-.LJTI1_0
	.long	.LBB1_30-.LJTI1_0
	.long	.LBB1_30-.LJTI1_0
	.long	.LBB1_30-.LJTI1_0
	.long	.LBB1_30-.LJTI1_0
	.long	.LBB1_30-.LJTI1_0
	.long	.LBB1_30-.LJTI1_0
	.long	.LBB1_30-.LJTI1_0
	.long	.LBB1_30-.LJTI1_0
	.long	.LBB1_30-.LJTI1_0
	.long	.LBB1_30-.LJTI1_0
	.long	.LBB1_30-.LJTI1_0
	.long	.LBB1_30-.LJTI1_0
	.long	.LBB1_30-.LJTI1_0
	.long	.LBB1_38-.LJTI1_0
	.long	.LBB1_30-.LJTI1_0
	.long	.LBB1_8-.LJTI1_0
	.long	.LBB1_30-.LJTI1_0
	.long	.LBB1_30-.LJTI1_0
	.long	.LBB1_30-.LJTI1_0
	.long	.LBB1_30-.LJTI1_0
	.long	.LBB1_30-.LJTI1_0
	.long	.LBB1_30-.LJTI1_0
	.long	.LBB1_30-.LJTI1_0
	.long	.LBB1_30-.LJTI1_0
	.long	.LBB1_30-.LJTI1_0
	.long	.LBB1_177-.LJTI1_0
	.long	.LBB1_30-.LJTI1_0
	.long	.LBB1_30-.LJTI1_0
	.long	.LBB1_30-.LJTI1_0
	.long	.LBB1_30-.LJTI1_0
	.long	.LBB1_30-.LJTI1_0
	.long	.LBB1_30-.LJTI1_0
	.long	.LBB1_30-.LJTI1_0
	.long	.LBB1_30-.LJTI1_0
	.long	.LBB1_30-.LJTI1_0
	.long	.LBB1_30-.LJTI1_0
	.long	.LBB1_30-.LJTI1_0
	.long	.LBB1_30-.LJTI1_0
	.long	.LBB1_30-.LJTI1_0
	.long	.LBB1_177-.LJTI1_0
	.long	.LBB1_30-.LJTI1_0
	.long	.LBB1_30-.LJTI1_0
	.long	.LBB1_30-.LJTI1_0
	.long	.LBB1_30-.LJTI1_0
	.long	.LBB1_30-.LJTI1_0
	.long	.LBB1_30-.LJTI1_0
	.long	.LBB1_30-.LJTI1_0
	.long	.LBB1_30-.LJTI1_0
	.long	.LBB1_30-.LJTI1_0
	.long	.LBB1_30-.LJTI1_0
	.long	.LBB1_30-.LJTI1_0
	.long	.LBB1_30-.LJTI1_0
	.long	.LBB1_30-.LJTI1_0
	.long	.LBB1_30-.LJTI1_0
	.long	.LBB1_30-.LJTI1_0
	.long	.LBB1_30-.LJTI1_0
	.long	.LBB1_30-.LJTI1_0
	.long	.LBB1_30-.LJTI1_0
	.long	.LBB1_30-.LJTI1_0
	.long	.LBB1_30-.LJTI1_0
	.long	.LBB1_30-.LJTI1_0
	.long	.LBB1_30-.LJTI1_0
	.long	.LBB1_30-.LJTI1_0
	.long	.LBB1_30-.LJTI1_0
	.long	.LBB1_30-.LJTI1_0
	.long	.LBB1_30-.LJTI1_0
	.long	.LBB1_30-.LJTI1_0
	.long	.LBB1_30-.LJTI1_0
	.long	.LBB1_30-.LJTI1_0
	.long	.LBB1_30-.LJTI1_0
	.long	.LBB1_30-.LJTI1_0
	.long	.LBB1_30-.LJTI1_0
	.long	.LBB1_27-.LJTI1_0
	.long	.LBB1_177-.LJTI1_0
	.long	.LBB1_30-.LJTI1_0
	.long	.LBB1_30-.LJTI1_0
	.long	.LBB1_30-.LJTI1_0
	.long	.LBB1_30-.LJTI1_0
	.long	.LBB1_30-.LJTI1_0
	.long	.LBB1_30-.LJTI1_0
	.long	.LBB1_30-.LJTI1_0
	.long	.LBB1_30-.LJTI1_0
	.long	.LBB1_30-.LJTI1_0
	.long	.LBB1_25-.LJTI1_0
	.long	.LBB1_30-.LJTI1_0
	.long	.LBB1_30-.LJTI1_0
	.long	.LBB1_30-.LJTI1_0
	.long	.LBB1_30-.LJTI1_0
	.long	.LBB1_30-.LJTI1_0
	.long	.LBB1_30-.LJTI1_0
	.long	.LBB1_30-.LJTI1_0
	.long	.LBB1_18-.LJTI1_0
	.long	.LBB1_30-.LJTI1_0
	.long	.LBB1_30-.LJTI1_0
	.long	.LBB1_30-.LJTI1_0
	.long	.LBB1_30-.LJTI1_0
	.long	.LBB1_30-.LJTI1_0
	.long	.LBB1_23-.LJTI1_0
	.long	.LBB1_30-.LJTI1_0
	.long	.LBB1_30-.LJTI1_0
	.long	.LBB1_30-.LJTI1_0
	.long	.LBB1_30-.LJTI1_0
	.long	.LBB1_30-.LJTI1_0
	.long	.LBB1_30-.LJTI1_0
	.long	.LBB1_20-.LJTI1_0
.LJTI1_1:
	.long	.LBB1_150-.LJTI1_1
	.long	.LBB1_1117-.LJTI1_1
	.long	.LBB1_1117-.LJTI1_1
	.long	.LBB1_1117-.LJTI1_1
	.long	.LBB1_1117-.LJTI1_1
	.long	.LBB1_1117-.LJTI1_1
	.long	.LBB1_1117-.LJTI1_1
	.long	.LBB1_1117-.LJTI1_1
	.long	.LBB1_1117-.LJTI1_1
	.long	.LBB1_1117-.LJTI1_1
	.long	.LBB1_1072-.LJTI1_1
	.long	.LBB1_1117-.LJTI1_1
	.long	.LBB1_1117-.LJTI1_1
	.long	.LBB1_1117-.LJTI1_1
	.long	.LBB1_1117-.LJTI1_1
	.long	.LBB1_1117-.LJTI1_1
	.long	.LBB1_1117-.LJTI1_1
	.long	.LBB1_1117-.LJTI1_1
	.long	.LBB1_1117-.LJTI1_1
	.long	.LBB1_1117-.LJTI1_1
	.long	.LBB1_1117-.LJTI1_1
	.long	.LBB1_1117-.LJTI1_1
	.long	.LBB1_1117-.LJTI1_1
	.long	.LBB1_1117-.LJTI1_1
	.long	.LBB1_1072-.LJTI1_1
	.long	.LBB1_1117-.LJTI1_1
	.long	.LBB1_1117-.LJTI1_1
	.long	.LBB1_1117-.LJTI1_1
	.long	.LBB1_1117-.LJTI1_1
	.long	.LBB1_1117-.LJTI1_1
	.long	.LBB1_1117-.LJTI1_1
	.long	.LBB1_1117-.LJTI1_1
	.long	.LBB1_1117-.LJTI1_1
	.long	.LBB1_1117-.LJTI1_1
	.long	.LBB1_1117-.LJTI1_1
	.long	.LBB1_1117-.LJTI1_1
	.long	.LBB1_1117-.LJTI1_1
	.long	.LBB1_1117-.LJTI1_1
	.long	.LBB1_1117-.LJTI1_1
	.long	.LBB1_1117-.LJTI1_1
	.long	.LBB1_1117-.LJTI1_1
	.long	.LBB1_1117-.LJTI1_1
	.long	.LBB1_1117-.LJTI1_1
	.long	.LBB1_1117-.LJTI1_1
	.long	.LBB1_1117-.LJTI1_1
	.long	.LBB1_1117-.LJTI1_1
	.long	.LBB1_1117-.LJTI1_1
	.long	.LBB1_1117-.LJTI1_1
	.long	.LBB1_1117-.LJTI1_1
	.long	.LBB1_1117-.LJTI1_1
	.long	.LBB1_1117-.LJTI1_1
	.long	.LBB1_1117-.LJTI1_1
	.long	.LBB1_1117-.LJTI1_1
	.long	.LBB1_1117-.LJTI1_1
	.long	.LBB1_1117-.LJTI1_1
	.long	.LBB1_1117-.LJTI1_1
	.long	.LBB1_1117-.LJTI1_1
	.long	.LBB1_1111-.LJTI1_1
	.long	.LBB1_1072-.LJTI1_1
	.long	.LBB1_1117-.LJTI1_1
	.long	.LBB1_1117-.LJTI1_1
	.long	.LBB1_1117-.LJTI1_1
	.long	.LBB1_1117-.LJTI1_1
	.long	.LBB1_1117-.LJTI1_1
	.long	.LBB1_1117-.LJTI1_1
	.long	.LBB1_1117-.LJTI1_1
	.long	.LBB1_1117-.LJTI1_1
	.long	.LBB1_1117-.LJTI1_1
	.long	.LBB1_1103-.LJTI1_1
	.long	.LBB1_1117-.LJTI1_1
	.long	.LBB1_1117-.LJTI1_1
	.long	.LBB1_1117-.LJTI1_1
	.long	.LBB1_1117-.LJTI1_1
	.long	.LBB1_1117-.LJTI1_1
	.long	.LBB1_1117-.LJTI1_1
	.long	.LBB1_1117-.LJTI1_1
	.long	.LBB1_1105-.LJTI1_1
	.long	.LBB1_1117-.LJTI1_1
	.long	.LBB1_1117-.LJTI1_1
	.long	.LBB1_1117-.LJTI1_1
	.long	.LBB1_1117-.LJTI1_1
	.long	.LBB1_1117-.LJTI1_1
	.long	.LBB1_1107-.LJTI1_1
	.long	.LBB1_1117-.LJTI1_1
	.long	.LBB1_1117-.LJTI1_1
	.long	.LBB1_1117-.LJTI1_1
	.long	.LBB1_1117-.LJTI1_1
	.long	.LBB1_1117-.LJTI1_1
	.long	.LBB1_1117-.LJTI1_1
	.long	.LBB1_1111-.LJTI1_1
.LJTI1_2:
	.long	.LBB1_1082-.LJTI1_2
	.long	.LBB1_1082-.LJTI1_2
	.long	.LBB1_1082-.LJTI1_2
	.long	.LBB1_1074-.LJTI1_2
	.long	.LBB1_1078-.LJTI1_2
	.long	.LBB1_1076-.LJTI1_2
.LJTI1_3:
	.long	.LBB1_516-.LJTI1_3
	.long	.LBB1_596-.LJTI1_3
	.long	.LBB1_567-.LJTI1_3
	.long	.LBB1_579-.LJTI1_3
	.long	.LBB1_543-.LJTI1_3
	.long	.LBB1_605-.LJTI1_3
	.long	.LBB1_617-.LJTI1_3
	.long	.LBB1_584-.LJTI1_3
	.long	.LBB1_629-.LJTI1_3
	.long	.LBB1_556-.LJTI1_3
	.long	.LBB1_622-.LJTI1_3
	.long	.LBB1_536-.LJTI1_3
	.long	.LBB1_551-.LJTI1_3
	.long	.LBB1_612-.LJTI1_3
	.long	.LBB1_528-.LJTI1_3
	.long	.LBB1_572-.LJTI1_3
	.long	.LBB1_521-.LJTI1_3
.LJTI1_4:
	.long	.LBB1_941-.LJTI1_4
	.long	.LBB1_949-.LJTI1_4
	.long	.LBB1_943-.LJTI1_4
	.long	.LBB1_946-.LJTI1_4
	.long	.LBB1_942-.LJTI1_4
	.long	.LBB1_951-.LJTI1_4
	.long	.LBB1_953-.LJTI1_4
	.long	.LBB1_947-.LJTI1_4
	.long	.LBB1_955-.LJTI1_4
.LJTI1_5:
	.long	.LBB1_255-.LJTI1_5
	.long	.LBB1_263-.LJTI1_5
	.long	.LBB1_259-.LJTI1_5
	.long	.LBB1_260-.LJTI1_5
.LJTI1_6:
	.long	.LBB1_256-.LJTI1_6
	.long	.LBB1_293-.LJTI1_6
	.long	.LBB1_286-.LJTI1_6
	.long	.LBB1_289-.LJTI1_6
	.long	.LBB1_284-.LJTI1_6
	.long	.LBB1_296-.LJTI1_6
	.long	.LBB1_299-.LJTI1_6
	.long	.LBB1_292-.LJTI1_6

	.section	.rodata.cst16,"aM",@progbits,16
	.p2align	4, 0x0
.LCPI2_0:
	.byte	2
	.byte	2
	.byte	2
	.byte	2
	.byte	2
	.byte	2
	.byte	2
	.byte	2
	.byte	128
	.byte	128
	.byte	128
	.byte	128
	.byte	33
	.byte	1
	.byte	21
	.byte	73
.LCPI2_1:
	.zero	16,15
.LCPI2_2:
	.byte	231
	.byte	163
	.byte	131
	.byte	131
	.byte	139
	.byte	203
	.byte	203
	.byte	203
	.byte	203
	.byte	203
	.byte	203
	.byte	203
	.byte	203
	.byte	219
	.byte	203
	.byte	203
.LCPI2_3:
	.byte	1
	.byte	1
	.byte	1
	.byte	1
	.byte	1
	.byte	1
	.byte	1
	.byte	1
	.byte	230
	.byte	174
	.byte	186
	.byte	186
	.byte	1
	.byte	1
	.byte	1
	.byte	1
.LCPI2_4:
	.zero	16,96
.LCPI2_5:
	.zero	16,112
.LCPI2_6:
	.zero	16,128
.LCPI2_7:
	.byte	255
	.byte	255
	.byte	255
	.byte	255
	.byte	255
	.byte	255
	.byte	255
	.byte	255
	.byte	255
	.byte	255
	.byte	255
	.byte	255
	.byte	255
	.byte	239
	.byte	223
	.byte	191
	.section	.text.simdutf8__compat__from_utf8,"ax",@progbits
	.p2align	4
	.type	simdutf8__compat__from_utf8,@function
simdutf8__compat__from_utf8:
	pushq	%rbp
	pushq	%r15
	pushq	%r14
	pushq	%r13
	pushq	%r12
	pushq	%rbx
	subq	$2072, %rsp
	movq	%rdi, 2040(%rsp)
	movq	%rdx, 872(%rsp)
	cmpq	$64, %rdx
	movq	%rsi, 864(%rsp)
	jb	.LBB2_14
	movl	$64, %edi
	movq	872(%rsp), %r15
	subq	%r15, %rdi
	.p2align	4
.LBB2_2:
	movdqu	(%rsi), %xmm0
	movdqu	16(%rsi), %xmm1
	por	%xmm0, %xmm1
	movdqu	32(%rsi), %xmm0
	movdqu	48(%rsi), %xmm2
	por	%xmm0, %xmm2
	por	%xmm1, %xmm2
	pmovmskb	%xmm2, %eax
	testl	%eax, %eax
	jne	.LBB2_5
	addq	$64, %rsi
	addq	$-64, %r15
	addq	$64, %rdi
	cmpq	$63, %r15
	ja	.LBB2_2
	pxor	%xmm0, %xmm0
	movdqa	%xmm0, 512(%rsp)
	xorl	%r14d, %r14d
	movdqa	%xmm0, 816(%rsp)
	movdqa	%xmm0, 848(%rsp)
	movdqa	%xmm0, 832(%rsp)
	movdqa	%xmm0, 336(%rsp)
	movdqa	%xmm0, 288(%rsp)
	movdqa	%xmm0, 320(%rsp)
	movdqa	%xmm0, 352(%rsp)
	movdqa	%xmm0, 448(%rsp)
	jmp	.LBB2_11
.LBB2_5:
	pxor	%xmm9, %xmm9
	movdqa	%xmm9, 2016(%rsp)
	movdqa	%xmm9, 2000(%rsp)
	movdqa	%xmm9, 1984(%rsp)
	movdqa	%xmm9, 1968(%rsp)
	negq	%rdi
	xorl	%r14d, %r14d
	movq	%rsi, %r8
	pxor	%xmm15, %xmm15
	pxor	%xmm10, %xmm10
	pxor	%xmm14, %xmm14
	pxor	%xmm8, %xmm8
	pxor	%xmm0, %xmm0
	pxor	%xmm7, %xmm7
	pxor	%xmm3, %xmm3
	pxor	%xmm4, %xmm4
	movq	%r15, 1928(%rsp)
	movq	%rsi, 1920(%rsp)
	movq	%rdi, 1912(%rsp)
	jmp	.LBB2_8
	.p2align	4
.LBB2_6:
	movdqa	%xmm5, %xmm1
	pslldq	$1, %xmm1
	movdqa	%xmm9, %xmm8
	psrldq	$15, %xmm8
	por	%xmm1, %xmm8
	movdqa	%xmm5, %xmm1
	psrldq	$15, %xmm1
	movdqa	%xmm7, 816(%rsp)
	movdqa	%xmm11, %xmm7
	pslldq	$1, %xmm7
	por	%xmm1, %xmm7
	movdqa	%xmm11, %xmm1
	psrldq	$15, %xmm1
	movdqa	%xmm6, %xmm2
	movdqa	%xmm6, 336(%rsp)
	pslldq	$1, %xmm6
	por	%xmm1, %xmm6
	movdqa	%xmm2, %xmm1
	psrldq	$15, %xmm1
	movdqa	%xmm5, 352(%rsp)
	movdqa	%xmm12, %xmm5
	pslldq	$1, %xmm5
	por	%xmm1, %xmm5
	movaps	.LCPI2_0(%rip), %xmm1
	movaps	%xmm1, 48(%rsp)
	movaps	%xmm1, 32(%rsp)
	movaps	%xmm1, 16(%rsp)
	movaps	%xmm1, (%rsp)
	movdqa	%xmm9, 320(%rsp)
	movdqa	%xmm5, %xmm9
	psrlw	$4, %xmm9
	movdqa	%xmm4, 832(%rsp)
	movdqa	.LCPI2_1(%rip), %xmm4
	movdqa	%xmm9, %xmm10
	pand	%xmm4, %xmm10
	movdqa	%xmm6, %xmm1
	psrlw	$4, %xmm1
	movdqa	%xmm1, %xmm2
	pand	%xmm4, %xmm2
	movdqa	%xmm11, 288(%rsp)
	movdqa	%xmm7, %xmm11
	psrlw	$4, %xmm11
	movdqa	%xmm12, 448(%rsp)
	movdqa	%xmm11, %xmm12
	pand	%xmm4, %xmm12
	movdqa	%xmm3, 848(%rsp)
	movdqa	%xmm8, %xmm3
	psrlw	$4, %xmm3
	movdqa	%xmm3, %xmm13
	pand	%xmm4, %xmm13
	movdqa	%xmm13, 1872(%rsp)
	movzbl	1872(%rsp), %eax
	movq	%rax, 464(%rsp)
	movdqa	%xmm3, 1808(%rsp)
	movzbl	1809(%rsp), %eax
	movq	%rax, 264(%rsp)
	movq	%rsp, %rcx
	movzbl	1874(%rsp), %eax
	movq	%rax, 88(%rsp)
	movzbl	1811(%rsp), %r13d
	movzbl	1876(%rsp), %eax
	movq	%rax, 72(%rsp)
	movzbl	1813(%rsp), %r12d
	movzbl	1878(%rsp), %eax
	movq	%rax, 384(%rsp)
	movzbl	1815(%rsp), %r10d
	movzbl	1880(%rsp), %eax
	movq	%rax, 200(%rsp)
	movzbl	1817(%rsp), %r9d
	movzbl	1882(%rsp), %eax
	movq	%rax, 160(%rsp)
	movzbl	1819(%rsp), %edi
	movzbl	1884(%rsp), %eax
	movq	%rax, 376(%rsp)
	movzbl	1823(%rsp), %eax
	orq	%rcx, %rax
	movq	%r14, 312(%rsp)
	movzbl	1821(%rsp), %edx
	movzbl	1886(%rsp), %esi
	movq	%rsi, 368(%rsp)
	movdqa	%xmm12, 1744(%rsp)
	movzbl	1744(%rsp), %esi
	movq	%rsi, 128(%rsp)
	movdqa	%xmm11, 1712(%rsp)
	movzbl	1713(%rsp), %esi
	movq	%rsi, 192(%rsp)
	movzbl	1746(%rsp), %esi
	movq	%rsi, 184(%rsp)
	movzbl	1715(%rsp), %esi
	movq	%rsi, 112(%rsp)
	movzbl	1748(%rsp), %esi
	movq	%rsi, 416(%rsp)
	movzbl	1717(%rsp), %esi
	movq	%rsi, 96(%rsp)
	movzbl	1750(%rsp), %esi
	movq	%rsi, 248(%rsp)
	movzbl	1719(%rsp), %esi
	movq	%rsi, 224(%rsp)
	movzbl	1752(%rsp), %esi
	movq	%rsi, 216(%rsp)
	movzbl	1721(%rsp), %r14d
	movzbl	1754(%rsp), %esi
	movq	%rsi, 168(%rsp)
	movzbl	1723(%rsp), %r11d
	movzbl	1756(%rsp), %esi
	movq	%rsi, 208(%rsp)
	movq	%r8, 304(%rsp)
	movzbl	1725(%rsp), %r8d
	movzbl	1758(%rsp), %esi
	movq	%rsi, 280(%rsp)
	movzbl	1727(%rsp), %esi
	movdqa	%xmm2, 1824(%rsp)
	movzbl	1824(%rsp), %ebx
	movq	%rbx, 152(%rsp)
	movdqa	%xmm1, 1776(%rsp)
	movzbl	1777(%rsp), %ebx
	movq	%rbx, 512(%rsp)
	movzbl	1826(%rsp), %ebx
	movq	%rbx, 144(%rsp)
	movzbl	1779(%rsp), %ebx
	movq	%rbx, 400(%rsp)
	movzbl	1828(%rsp), %ebx
	movq	%rbx, 136(%rsp)
	movzbl	1781(%rsp), %ebx
	movq	%rbx, 272(%rsp)
	movzbl	1830(%rsp), %ebx
	movq	%rbx, 496(%rsp)
	movzbl	1783(%rsp), %ebx
	movq	%rbx, 256(%rsp)
	movzbl	1832(%rsp), %ebx
	movq	%rbx, 120(%rsp)
	movzbl	1785(%rsp), %ebx
	movq	%rbx, 80(%rsp)
	movzbl	1834(%rsp), %ebx
	movq	%rbx, 104(%rsp)
	movzbl	1787(%rsp), %ebx
	movq	%rbx, 240(%rsp)
	movzbl	1836(%rsp), %ebx
	movq	%rbx, 232(%rsp)
	movzbl	1789(%rsp), %r15d
	movzbl	1838(%rsp), %ebx
	movq	%rbx, 176(%rsp)
	movzbl	1791(%rsp), %ebx
	movdqa	%xmm10, 1888(%rsp)
	movzbl	1888(%rsp), %ebp
	movq	%rbp, 480(%rsp)
	movdqa	%xmm9, 1856(%rsp)
	movzbl	(%rax), %eax
	movd	%eax, %xmm3
	movq	368(%rsp), %rax
	movzbl	(%rsp,%rax), %eax
	movd	%eax, %xmm2
	orq	%rcx, %rdx
	movzbl	(%rdx), %eax
	movd	%eax, %xmm10
	movq	376(%rsp), %rax
	movzbl	(%rsp,%rax), %eax
	movd	%eax, %xmm9
	orq	%rcx, %rdi
	movzbl	(%rdi), %eax
	movd	%eax, %xmm12
	movq	160(%rsp), %rax
	movzbl	(%rsp,%rax), %eax
	movd	%eax, %xmm11
	orq	%rcx, %r9
	movzbl	(%r9), %eax
	movd	%eax, %xmm13
	movq	200(%rsp), %rax
	movzbl	(%rsp,%rax), %eax
	movd	%eax, %xmm1
	orq	%rcx, %r10
	punpcklbw	%xmm3, %xmm2
	movzbl	(%r10), %eax
	movd	%eax, %xmm14
	punpcklbw	%xmm10, %xmm9
	movq	384(%rsp), %rax
	movzbl	(%rsp,%rax), %eax
	movd	%eax, %xmm10
	orq	%rcx, %r12
	punpcklwd	%xmm2, %xmm9
	movzbl	(%r12), %eax
	movd	%eax, %xmm15
	punpcklbw	%xmm12, %xmm11
	movq	72(%rsp), %rax
	movzbl	(%rsp,%rax), %eax
	movd	%eax, %xmm2
	orq	%rcx, %r13
	punpcklbw	%xmm13, %xmm1
	movzbl	(%r13), %eax
	movd	%eax, %xmm12
	punpcklwd	%xmm11, %xmm1
	movq	88(%rsp), %rax
	movzbl	(%rsp,%rax), %eax
	movd	%eax, %xmm3
	movq	264(%rsp), %rax
	orq	%rcx, %rax
	punpckldq	%xmm9, %xmm1
	movzbl	(%rax), %eax
	movd	%eax, %xmm13
	punpcklbw	%xmm14, %xmm10
	movq	464(%rsp), %rax
	movzbl	(%rsp,%rax), %eax
	movd	%eax, %xmm9
	orq	%rcx, %rsi
	punpcklbw	%xmm15, %xmm2
	movzbl	16(%rsi), %eax
	movd	%eax, %xmm14
	punpcklwd	%xmm10, %xmm2
	movq	280(%rsp), %rax
	movzbl	16(%rsp,%rax), %eax
	movd	%eax, %xmm11
	orq	%rcx, %r8
	punpcklbw	%xmm12, %xmm3
	movzbl	16(%r8), %eax
	movd	%eax, %xmm12
	punpcklbw	%xmm13, %xmm9
	movq	208(%rsp), %rax
	movzbl	16(%rsp,%rax), %eax
	movd	%eax, %xmm10
	orq	%rcx, %r11
	punpcklwd	%xmm3, %xmm9
	movzbl	16(%r11), %eax
	movd	%eax, %xmm13
	punpckldq	%xmm2, %xmm9
	movq	168(%rsp), %rax
	movzbl	16(%rsp,%rax), %eax
	movd	%eax, %xmm3
	orq	%rcx, %r14
	punpcklqdq	%xmm1, %xmm9
	movzbl	16(%r14), %eax
	movd	%eax, %xmm2
	punpcklbw	%xmm14, %xmm11
	movq	216(%rsp), %rax
	movzbl	16(%rsp,%rax), %eax
	movd	%eax, %xmm1
	movq	224(%rsp), %rax
	orq	%rcx, %rax
	punpcklbw	%xmm12, %xmm10
	movzbl	16(%rax), %eax
	movd	%eax, %xmm12
	punpcklwd	%xmm11, %xmm10
	movq	248(%rsp), %rax
	movzbl	16(%rsp,%rax), %eax
	movd	%eax, %xmm11
	movq	96(%rsp), %rax
	orq	%rcx, %rax
	punpcklbw	%xmm13, %xmm3
	movzbl	16(%rax), %eax
	movd	%eax, %xmm13
	punpcklbw	%xmm2, %xmm1
	movq	416(%rsp), %rax
	movzbl	16(%rsp,%rax), %eax
	movd	%eax, %xmm2
	movq	112(%rsp), %rax
	orq	%rcx, %rax
	punpcklwd	%xmm3, %xmm1
	movzbl	16(%rax), %eax
	movd	%eax, %xmm14
	punpckldq	%xmm10, %xmm1
	movq	184(%rsp), %rax
	movzbl	16(%rsp,%rax), %eax
	movd	%eax, %xmm3
	movq	192(%rsp), %rax
	orq	%rcx, %rax
	punpcklbw	%xmm12, %xmm11
	movzbl	16(%rax), %eax
	movd	%eax, %xmm15
	punpcklbw	%xmm13, %xmm2
	movq	128(%rsp), %rax
	movzbl	16(%rsp,%rax), %eax
	movd	%eax, %xmm10
	orq	%rcx, %rbx
	punpcklwd	%xmm11, %xmm2
	movzbl	32(%rbx), %eax
	movd	%eax, %xmm13
	punpcklbw	%xmm14, %xmm3
	movq	176(%rsp), %rax
	movzbl	32(%rsp,%rax), %eax
	movd	%eax, %xmm12
	orq	%rcx, %r15
	punpcklbw	%xmm15, %xmm10
	movzbl	32(%r15), %eax
	movd	%eax, %xmm14
	movq	512(%rsp), %r12
	orq	%rcx, %r12
	movq	400(%rsp), %r14
	orq	%rcx, %r14
	movq	272(%rsp), %r11
	orq	%rcx, %r11
	movq	256(%rsp), %r10
	orq	%rcx, %r10
	movq	80(%rsp), %rdi
	orq	%rcx, %rdi
	movq	240(%rsp), %rdx
	orq	%rcx, %rdx
	punpcklwd	%xmm3, %xmm10
	movq	232(%rsp), %rax
	movzbl	32(%rsp,%rax), %eax
	movd	%eax, %xmm11
	movzbl	1857(%rsp), %eax
	orq	%rcx, %rax
	movq	%rcx, %rsi
	punpckldq	%xmm2, %xmm10
	movzbl	32(%rdx), %ecx
	movd	%ecx, %xmm3
	movzbl	1890(%rsp), %ecx
	punpcklqdq	%xmm1, %xmm10
	movq	104(%rsp), %rdx
	movzbl	32(%rsp,%rdx), %edx
	movd	%edx, %xmm2
	movzbl	1859(%rsp), %edx
	movq	%rsi, %r8
	orq	%rsi, %rdx
	punpcklbw	%xmm13, %xmm12
	movzbl	32(%rdi), %esi
	movd	%esi, %xmm13
	movzbl	1892(%rsp), %esi
	punpcklbw	%xmm14, %xmm11
	movq	120(%rsp), %rdi
	movzbl	32(%rsp,%rdi), %edi
	movd	%edi, %xmm1
	movzbl	1861(%rsp), %edi
	orq	%r8, %rdi
	movq	%r8, %r9
	punpcklwd	%xmm12, %xmm11
	movzbl	32(%r10), %r8d
	movd	%r8d, %xmm12
	movzbl	1894(%rsp), %r8d
	punpcklbw	%xmm3, %xmm2
	movq	496(%rsp), %r10
	movzbl	32(%rsp,%r10), %r10d
	movd	%r10d, %xmm3
	movzbl	1863(%rsp), %r10d
	orq	%r9, %r10
	punpcklbw	%xmm13, %xmm1
	movzbl	32(%r11), %r11d
	movd	%r11d, %xmm13
	movzbl	1896(%rsp), %r11d
	punpcklwd	%xmm2, %xmm1
	movq	136(%rsp), %rbx
	movzbl	32(%rsp,%rbx), %ebx
	movd	%ebx, %xmm2
	movzbl	1865(%rsp), %ebx
	orq	%r9, %rbx
	punpckldq	%xmm11, %xmm1
	movzbl	32(%r14), %ebp
	movd	%ebp, %xmm14
	movzbl	1898(%rsp), %r14d
	punpcklbw	%xmm12, %xmm3
	movq	144(%rsp), %r15
	movzbl	32(%rsp,%r15), %ebp
	movd	%ebp, %xmm12
	movzbl	1867(%rsp), %r15d
	orq	%r9, %r15
	punpcklbw	%xmm13, %xmm2
	movzbl	32(%r12), %ebp
	movd	%ebp, %xmm13
	movzbl	1900(%rsp), %r12d
	punpcklwd	%xmm3, %xmm2
	movq	152(%rsp), %r13
	movzbl	32(%rsp,%r13), %ebp
	movd	%ebp, %xmm11
	movzbl	1871(%rsp), %r13d
	orq	%r9, %r13
	punpcklbw	%xmm14, %xmm12
	movzbl	48(%r13), %ebp
	movd	%ebp, %xmm3
	movzbl	1902(%rsp), %r13d
	punpcklbw	%xmm13, %xmm11
	movzbl	48(%rsp,%r13), %ebp
	movd	%ebp, %xmm13
	movzbl	1869(%rsp), %r13d
	orq	%r9, %r13
	punpcklwd	%xmm12, %xmm11
	punpckldq	%xmm2, %xmm11
	punpcklqdq	%xmm1, %xmm11
	punpcklbw	%xmm3, %xmm13
	movzbl	48(%r13), %ebp
	movd	%ebp, %xmm1
	movzbl	48(%rsp,%r12), %ebp
	movd	%ebp, %xmm2
	punpcklbw	%xmm1, %xmm2
	punpcklwd	%xmm13, %xmm2
	movzbl	48(%r15), %ebp
	movd	%ebp, %xmm1
	movzbl	48(%rsp,%r14), %ebp
	movd	%ebp, %xmm3
	punpcklbw	%xmm1, %xmm3
	movzbl	48(%rbx), %ebx
	movd	%ebx, %xmm1
	movzbl	48(%rsp,%r11), %r11d
	movd	%r11d, %xmm12
	punpcklbw	%xmm1, %xmm12
	punpcklwd	%xmm3, %xmm12
	punpckldq	%xmm2, %xmm12
	movzbl	48(%r10), %r10d
	movd	%r10d, %xmm1
	movzbl	48(%rsp,%r8), %r8d
	movd	%r8d, %xmm14
	punpcklbw	%xmm1, %xmm14
	movzbl	48(%rdi), %edi
	movd	%edi, %xmm15
	movzbl	48(%rsp,%rsi), %esi
	movd	%esi, %xmm13
	movzbl	48(%rdx), %edx
	movzbl	48(%rsp,%rcx), %ecx
	movzbl	48(%rax), %r14d
	movq	480(%rsp), %rax
	movzbl	48(%rsp,%rax), %eax
	movaps	.LCPI2_2(%rip), %xmm1
	movaps	%xmm1, 48(%rsp)
	movaps	%xmm1, 32(%rsp)
	movaps	%xmm1, 16(%rsp)
	movaps	%xmm1, (%rsp)
	movd	%edx, %xmm1
	pand	%xmm4, %xmm8
	movdqa	%xmm8, 752(%rsp)
	movd	%ecx, %xmm8
	pand	%xmm4, %xmm7
	movzbl	752(%rsp), %ecx
	movq	%rcx, 80(%rsp)
	movzbl	753(%rsp), %ecx
	movq	%rcx, 232(%rsp)
	movzbl	754(%rsp), %ecx
	movq	%rcx, 216(%rsp)
	movzbl	755(%rsp), %ecx
	movq	%rcx, 384(%rsp)
	movzbl	756(%rsp), %ecx
	movq	%rcx, 208(%rsp)
	movzbl	757(%rsp), %ecx
	movq	%rcx, 160(%rsp)
	movzbl	758(%rsp), %ebp
	movzbl	759(%rsp), %r12d
	movzbl	760(%rsp), %ebx
	movzbl	761(%rsp), %r11d
	movzbl	762(%rsp), %r10d
	movzbl	763(%rsp), %r8d
	movzbl	764(%rsp), %edi
	movzbl	765(%rsp), %esi
	movzbl	766(%rsp), %edx
	movzbl	767(%rsp), %ecx
	movdqa	%xmm7, 720(%rsp)
	movd	%r14d, %xmm2
	pand	%xmm4, %xmm6
	movzbl	720(%rsp), %r9d
	movzbl	721(%rsp), %r14d
	movq	%r14, 112(%rsp)
	movzbl	722(%rsp), %r14d
	movq	%r14, 464(%rsp)
	movzbl	723(%rsp), %r14d
	movq	%r14, 416(%rsp)
	movzbl	724(%rsp), %r14d
	movq	%r14, 272(%rsp)
	movzbl	725(%rsp), %r14d
	movq	%r14, 96(%rsp)
	movzbl	726(%rsp), %r14d
	movq	%r14, 256(%rsp)
	movzbl	727(%rsp), %r14d
	movq	%r14, 88(%rsp)
	movzbl	728(%rsp), %r14d
	movq	%r14, 72(%rsp)
	movzbl	729(%rsp), %r14d
	movq	%r14, 176(%rsp)
	movzbl	730(%rsp), %r14d
	movq	%r14, 168(%rsp)
	movzbl	731(%rsp), %r14d
	movq	%r14, 200(%rsp)
	movzbl	732(%rsp), %r14d
	movq	%r14, 280(%rsp)
	movzbl	733(%rsp), %r13d
	movzbl	734(%rsp), %r15d
	movzbl	735(%rsp), %r14d
	movdqa	%xmm6, 736(%rsp)
	movd	%eax, %xmm7
	pand	%xmm4, %xmm5
	movzbl	736(%rsp), %eax
	movq	%rax, 480(%rsp)
	movzbl	737(%rsp), %eax
	movq	%rax, 152(%rsp)
	movzbl	738(%rsp), %eax
	movq	%rax, 144(%rsp)
	movzbl	739(%rsp), %eax
	movq	%rax, 136(%rsp)
	movzbl	740(%rsp), %eax
	movq	%rax, 128(%rsp)
	movzbl	741(%rsp), %eax
	movq	%rax, 496(%rsp)
	movzbl	742(%rsp), %eax
	movq	%rax, 192(%rsp)
	movzbl	743(%rsp), %eax
	movq	%rax, 184(%rsp)
	movzbl	744(%rsp), %eax
	movq	%rax, 120(%rsp)
	movzbl	745(%rsp), %eax
	movq	%rax, 512(%rsp)
	movzbl	746(%rsp), %eax
	movq	%rax, 400(%rsp)
	movzbl	747(%rsp), %eax
	movq	%rax, 104(%rsp)
	movzbl	748(%rsp), %eax
	movq	%rax, 264(%rsp)
	movzbl	749(%rsp), %eax
	movq	%rax, 248(%rsp)
	movzbl	750(%rsp), %eax
	movq	%rax, 240(%rsp)
	movzbl	751(%rsp), %eax
	movq	%rax, 224(%rsp)
	movdqa	%xmm5, 768(%rsp)
	movzbl	(%rsp,%rcx), %eax
	movd	%eax, %xmm6
	punpcklbw	%xmm15, %xmm13
	movzbl	(%rsp,%rdx), %eax
	movd	%eax, %xmm15
	punpcklwd	%xmm14, %xmm13
	movzbl	(%rsp,%rsi), %eax
	movd	%eax, %xmm14
	punpcklbw	%xmm1, %xmm8
	movzbl	(%rsp,%rdi), %eax
	movd	%eax, %xmm5
	punpcklbw	%xmm2, %xmm7
	movzbl	(%rsp,%r8), %eax
	movd	%eax, %xmm2
	punpcklwd	%xmm8, %xmm7
	movzbl	(%rsp,%r10), %eax
	movd	%eax, %xmm3
	punpckldq	%xmm13, %xmm7
	movzbl	(%rsp,%r11), %eax
	movd	%eax, %xmm8
	punpcklqdq	%xmm12, %xmm7
	movzbl	(%rsp,%rbx), %eax
	movd	%eax, %xmm1
	punpcklbw	%xmm6, %xmm15
	movzbl	(%rsp,%r12), %eax
	movd	%eax, %xmm12
	punpcklbw	%xmm14, %xmm5
	movzbl	(%rsp,%rbp), %eax
	movd	%eax, %xmm6
	punpcklwd	%xmm15, %xmm5
	movq	160(%rsp), %rax
	movzbl	(%rsp,%rax), %eax
	movd	%eax, %xmm13
	punpcklbw	%xmm2, %xmm3
	movq	208(%rsp), %rax
	movzbl	(%rsp,%rax), %eax
	movd	%eax, %xmm2
	punpcklbw	%xmm8, %xmm1
	movq	384(%rsp), %rax
	movzbl	(%rsp,%rax), %eax
	movd	%eax, %xmm14
	punpcklwd	%xmm3, %xmm1
	movq	216(%rsp), %rax
	movzbl	(%rsp,%rax), %eax
	movd	%eax, %xmm3
	punpckldq	%xmm5, %xmm1
	movq	232(%rsp), %rax
	movzbl	(%rsp,%rax), %eax
	movd	%eax, %xmm15
	punpcklbw	%xmm12, %xmm6
	movq	80(%rsp), %rax
	movzbl	(%rsp,%rax), %eax
	movd	%eax, %xmm5
	punpcklbw	%xmm13, %xmm2
	movzbl	16(%rsp,%r14), %eax
	movd	%eax, %xmm12
	punpcklwd	%xmm6, %xmm2
	movzbl	16(%rsp,%r15), %eax
	movd	%eax, %xmm8
	punpcklbw	%xmm14, %xmm3
	movzbl	16(%rsp,%r13), %eax
	movd	%eax, %xmm13
	punpcklbw	%xmm15, %xmm5
	movq	280(%rsp), %rax
	movzbl	16(%rsp,%rax), %eax
	movd	%eax, %xmm6
	punpcklwd	%xmm3, %xmm5
	movq	200(%rsp), %rax
	movzbl	16(%rsp,%rax), %eax
	movd	%eax, %xmm14
	punpckldq	%xmm2, %xmm5
	movq	168(%rsp), %rax
	movzbl	16(%rsp,%rax), %eax
	movd	%eax, %xmm3
	punpcklqdq	%xmm1, %xmm5
	movq	176(%rsp), %rax
	movzbl	16(%rsp,%rax), %eax
	movd	%eax, %xmm15
	pand	%xmm9, %xmm5
	movq	72(%rsp), %rax
	movzbl	16(%rsp,%rax), %eax
	movd	%eax, %xmm1
	punpcklbw	%xmm12, %xmm8
	movq	88(%rsp), %rax
	movzbl	16(%rsp,%rax), %eax
	movd	%eax, %xmm9
	punpcklbw	%xmm13, %xmm6
	movq	256(%rsp), %rax
	movzbl	16(%rsp,%rax), %eax
	movd	%eax, %xmm2
	punpcklwd	%xmm8, %xmm6
	movq	96(%rsp), %rax
	movzbl	16(%rsp,%rax), %eax
	movd	%eax, %xmm12
	punpcklbw	%xmm14, %xmm3
	movq	272(%rsp), %rax
	movzbl	16(%rsp,%rax), %eax
	movd	%eax, %xmm8
	punpcklbw	%xmm15, %xmm1
	movq	416(%rsp), %rax
	movzbl	16(%rsp,%rax), %eax
	movd	%eax, %xmm14
	punpcklwd	%xmm3, %xmm1
	movq	464(%rsp), %rax
	movzbl	16(%rsp,%rax), %eax
	movd	%eax, %xmm13
	punpckldq	%xmm6, %xmm1
	movq	112(%rsp), %rax
	movzbl	16(%rsp,%rax), %eax
	movd	%eax, %xmm15
	punpcklbw	%xmm9, %xmm2
	movzbl	16(%rsp,%r9), %eax
	movd	%eax, %xmm6
	punpcklbw	%xmm12, %xmm8
	movq	224(%rsp), %rax
	movzbl	32(%rsp,%rax), %eax
	movd	%eax, %xmm3
	punpcklwd	%xmm2, %xmm8
	movq	240(%rsp), %rax
	movzbl	32(%rsp,%rax), %eax
	movd	%eax, %xmm12
	punpcklbw	%xmm14, %xmm13
	movq	248(%rsp), %rax
	movzbl	32(%rsp,%rax), %eax
	movd	%eax, %xmm9
	movzbl	768(%rsp), %eax
	movq	%rax, 112(%rsp)
	punpcklbw	%xmm15, %xmm6
	movq	264(%rsp), %rax
	movzbl	32(%rsp,%rax), %eax
	movd	%eax, %xmm2
	movzbl	769(%rsp), %r9d
	punpcklwd	%xmm13, %xmm6
	movq	104(%rsp), %rax
	movzbl	32(%rsp,%rax), %eax
	movd	%eax, %xmm13
	movzbl	770(%rsp), %esi
	punpckldq	%xmm8, %xmm6
	movq	400(%rsp), %rax
	movzbl	32(%rsp,%rax), %ecx
	movd	%ecx, %xmm8
	movzbl	771(%rsp), %edx
	punpcklqdq	%xmm1, %xmm6
	movq	512(%rsp), %rax
	movzbl	32(%rsp,%rax), %edi
	movd	%edi, %xmm14
	movzbl	772(%rsp), %edi
	pand	%xmm10, %xmm6
	movq	120(%rsp), %rax
	movzbl	32(%rsp,%rax), %r8d
	movd	%r8d, %xmm1
	movzbl	773(%rsp), %r8d
	punpcklbw	%xmm3, %xmm12
	movq	184(%rsp), %rax
	movzbl	32(%rsp,%rax), %r10d
	movd	%r10d, %xmm3
	movzbl	774(%rsp), %r10d
	punpcklbw	%xmm9, %xmm2
	movq	192(%rsp), %rax
	movzbl	32(%rsp,%rax), %r11d
	movd	%r11d, %xmm9
	movzbl	775(%rsp), %r11d
	punpcklwd	%xmm12, %xmm2
	movq	496(%rsp), %rax
	movzbl	32(%rsp,%rax), %ebx
	movd	%ebx, %xmm15
	movzbl	776(%rsp), %ebx
	punpcklbw	%xmm13, %xmm8
	movq	128(%rsp), %rax
	movzbl	32(%rsp,%rax), %ebp
	movd	%ebp, %xmm10
	movzbl	777(%rsp), %r14d
	punpcklbw	%xmm14, %xmm1
	movq	136(%rsp), %rax
	movzbl	32(%rsp,%rax), %ebp
	movd	%ebp, %xmm12
	movzbl	778(%rsp), %r15d
	punpcklwd	%xmm8, %xmm1
	movq	144(%rsp), %rax
	movzbl	32(%rsp,%rax), %ebp
	movd	%ebp, %xmm13
	movzbl	779(%rsp), %r12d
	punpckldq	%xmm2, %xmm1
	movq	152(%rsp), %rax
	movzbl	32(%rsp,%rax), %ebp
	movd	%ebp, %xmm2
	movzbl	780(%rsp), %r13d
	punpcklbw	%xmm3, %xmm9
	movq	480(%rsp), %rax
	movzbl	32(%rsp,%rax), %ebp
	movd	%ebp, %xmm8
	movzbl	783(%rsp), %ebp
	punpcklbw	%xmm15, %xmm10
	movzbl	48(%rsp,%rbp), %ebp
	movd	%ebp, %xmm3
	movzbl	782(%rsp), %ebp
	punpcklwd	%xmm9, %xmm10
	movzbl	48(%rsp,%rbp), %ebp
	movd	%ebp, %xmm9
	movzbl	781(%rsp), %ebp
	punpcklbw	%xmm12, %xmm13
	punpcklbw	%xmm2, %xmm8
	punpcklwd	%xmm13, %xmm8
	punpckldq	%xmm10, %xmm8
	punpcklqdq	%xmm1, %xmm8
	pand	%xmm11, %xmm8
	punpcklbw	%xmm3, %xmm9
	movzbl	48(%rsp,%rbp), %ebp
	movd	%ebp, %xmm1
	movzbl	48(%rsp,%r13), %ebp
	movd	%ebp, %xmm2
	punpcklbw	%xmm1, %xmm2
	punpcklwd	%xmm9, %xmm2
	movzbl	48(%rsp,%r12), %ebp
	movd	%ebp, %xmm1
	movzbl	48(%rsp,%r15), %ebp
	movd	%ebp, %xmm3
	punpcklbw	%xmm1, %xmm3
	movzbl	48(%rsp,%r14), %ebp
	movd	%ebp, %xmm1
	movzbl	48(%rsp,%rbx), %ebx
	movd	%ebx, %xmm9
	punpcklbw	%xmm1, %xmm9
	punpcklwd	%xmm3, %xmm9
	punpckldq	%xmm2, %xmm9
	movzbl	48(%rsp,%r11), %r11d
	movzbl	48(%rsp,%r10), %r10d
	movzbl	48(%rsp,%r8), %eax
	movzbl	48(%rsp,%rdi), %ecx
	movzbl	48(%rsp,%rdx), %r12d
	movzbl	48(%rsp,%rsi), %ebp
	movzbl	48(%rsp,%r9), %edx
	movl	%edx, 168(%rsp)
	movq	112(%rsp), %rdx
	movzbl	48(%rsp,%rdx), %edx
	movl	%edx, 176(%rsp)
	movaps	.LCPI2_3(%rip), %xmm1
	movaps	%xmm1, 48(%rsp)
	movaps	%xmm1, 32(%rsp)
	movaps	%xmm1, 16(%rsp)
	movaps	%xmm1, (%rsp)
	movdqa	448(%rsp), %xmm12
	psrlw	$4, %xmm12
	movdqa	%xmm12, %xmm14
	pand	%xmm4, %xmm14
	movdqa	336(%rsp), %xmm1
	psrlw	$4, %xmm1
	movdqa	%xmm1, %xmm2
	pand	%xmm4, %xmm2
	movdqa	288(%rsp), %xmm11
	psrlw	$4, %xmm11
	movdqa	%xmm11, %xmm13
	pand	%xmm4, %xmm13
	movdqa	352(%rsp), %xmm3
	psrlw	$4, %xmm3
	pand	%xmm3, %xmm4
	movdqa	%xmm4, 1664(%rsp)
	movd	%r11d, %xmm10
	movzbl	1664(%rsp), %edx
	movq	%rdx, 464(%rsp)
	movdqa	%xmm3, 1648(%rsp)
	movd	%r10d, %xmm4
	movzbl	1649(%rsp), %edx
	movq	%rdx, 480(%rsp)
	movzbl	1666(%rsp), %esi
	movq	%rsi, 416(%rsp)
	movzbl	1651(%rsp), %edx
	movq	%rdx, 144(%rsp)
	movzbl	1668(%rsp), %r10d
	movq	%r10, 400(%rsp)
	movzbl	1653(%rsp), %edx
	movq	%rdx, 136(%rsp)
	movzbl	1670(%rsp), %r11d
	movq	%r11, 104(%rsp)
	movzbl	1655(%rsp), %edx
	movq	%rdx, 184(%rsp)
	movzbl	1672(%rsp), %ebx
	movq	%rbx, 272(%rsp)
	movzbl	1657(%rsp), %edx
	movq	%rdx, 128(%rsp)
	movzbl	1674(%rsp), %ebx
	movq	%rbx, 96(%rsp)
	movzbl	1659(%rsp), %edx
	movq	%rdx, 496(%rsp)
	movzbl	1676(%rsp), %ebx
	movq	%rbx, 264(%rsp)
	movzbl	1661(%rsp), %edx
	movq	%rdx, 192(%rsp)
	movzbl	1678(%rsp), %ebx
	movq	%rbx, 256(%rsp)
	movzbl	1663(%rsp), %edx
	movq	%rdx, 120(%rsp)
	movdqa	%xmm13, 1696(%rsp)
	movd	%eax, %xmm13
	movzbl	1696(%rsp), %ebx
	movq	%rbx, 248(%rsp)
	movdqa	%xmm11, 1680(%rsp)
	movd	%ecx, %xmm11
	movzbl	1681(%rsp), %eax
	movq	%rax, 112(%rsp)
	movzbl	1698(%rsp), %ebx
	movq	%rbx, 88(%rsp)
	movzbl	1683(%rsp), %ebx
	movq	%rbx, 152(%rsp)
	movzbl	1700(%rsp), %ebx
	movq	%rbx, 80(%rsp)
	movzbl	1685(%rsp), %r15d
	movzbl	1702(%rsp), %r9d
	movq	%r9, 240(%rsp)
	movzbl	1687(%rsp), %r14d
	movzbl	1704(%rsp), %r9d
	movq	%r9, 512(%rsp)
	movzbl	1689(%rsp), %r11d
	movzbl	1706(%rsp), %r9d
	movq	%r9, 232(%rsp)
	movzbl	1691(%rsp), %r10d
	movzbl	1708(%rsp), %r9d
	movq	%r9, 224(%rsp)
	movzbl	1693(%rsp), %r8d
	movzbl	1710(%rsp), %r9d
	movq	%r9, 72(%rsp)
	movzbl	1695(%rsp), %edi
	movdqa	%xmm2, 1760(%rsp)
	movd	%r12d, %xmm15
	movzbl	1760(%rsp), %r9d
	movq	%r9, 216(%rsp)
	movdqa	%xmm1, 1728(%rsp)
	movd	%ebp, %xmm1
	movzbl	1729(%rsp), %esi
	movzbl	1762(%rsp), %r9d
	movq	%r9, 384(%rsp)
	movzbl	1731(%rsp), %edx
	movzbl	1764(%rsp), %r9d
	movq	%r9, 200(%rsp)
	movzbl	1733(%rsp), %ecx
	movzbl	1766(%rsp), %r9d
	movq	%r9, 280(%rsp)
	movzbl	1735(%rsp), %eax
	movzbl	1768(%rsp), %r9d
	movq	%r9, 440(%rsp)
	movzbl	1737(%rsp), %ebp
	movzbl	1770(%rsp), %r9d
	movq	%r9, 800(%rsp)
	movzbl	1739(%rsp), %r13d
	movzbl	1772(%rsp), %r9d
	movq	%r9, 792(%rsp)
	movzbl	1741(%rsp), %r12d
	movzbl	1774(%rsp), %r9d
	movq	%r9, 1952(%rsp)
	movzbl	1743(%rsp), %ebx
	movdqa	%xmm14, 1840(%rsp)
	movd	168(%rsp), %xmm2
	movzbl	1840(%rsp), %r9d
	movq	%r9, 1936(%rsp)
	movdqa	%xmm12, 1792(%rsp)
	movd	176(%rsp), %xmm12
	movq	%rsp, %r9
	orq	%r9, 480(%rsp)
	orq	%r9, 144(%rsp)
	orq	%r9, 136(%rsp)
	orq	%r9, 184(%rsp)
	orq	%r9, 128(%rsp)
	orq	%r9, 496(%rsp)
	orq	%r9, 192(%rsp)
	orq	%r9, 120(%rsp)
	orq	%r9, 112(%rsp)
	orq	%r9, 152(%rsp)
	orq	%r9, %r15
	movq	%r15, 176(%rsp)
	orq	%r9, %r14
	movq	%r14, 168(%rsp)
	orq	%r9, %r11
	movq	%r11, 208(%rsp)
	orq	%r9, %r10
	movq	%r10, 160(%rsp)
	orq	%r9, %r8
	movq	%r8, 376(%rsp)
	orq	%r9, %rdi
	movq	%rdi, 368(%rsp)
	orq	%r9, %rsi
	movq	%rsi, 808(%rsp)
	orq	%r9, %rdx
	movq	%rdx, 1960(%rsp)
	orq	%r9, %rcx
	movq	%rcx, 784(%rsp)
	orq	%r9, %rax
	movq	%rax, 1944(%rsp)
	orq	%r9, %rbp
	orq	%r9, %r13
	orq	%r9, %r12
	orq	%r9, %rbx
	movq	%r9, %rsi
	movzbl	1793(%rsp), %r11d
	orq	%r9, %r11
	movzbl	1795(%rsp), %r10d
	orq	%r9, %r10
	movzbl	1797(%rsp), %r9d
	orq	%rsi, %r9
	movzbl	1799(%rsp), %r8d
	orq	%rsi, %r8
	movzbl	1801(%rsp), %edi
	orq	%rsi, %rdi
	movzbl	1803(%rsp), %edx
	orq	%rsi, %rdx
	movzbl	1805(%rsp), %ecx
	orq	%rsi, %rcx
	movzbl	1807(%rsp), %eax
	orq	%rsi, %rax
	punpcklbw	%xmm10, %xmm4
	movzbl	48(%rax), %eax
	movd	%eax, %xmm14
	punpcklbw	%xmm13, %xmm11
	movzbl	1854(%rsp), %eax
	movzbl	48(%rsp,%rax), %eax
	movd	%eax, %xmm10
	punpcklwd	%xmm4, %xmm11
	movzbl	48(%rcx), %eax
	movq	312(%rsp), %r14
	movd	%eax, %xmm3
	punpcklbw	%xmm15, %xmm1
	movzbl	1852(%rsp), %eax
	movzbl	48(%rsp,%rax), %eax
	movd	%eax, %xmm4
	punpcklbw	%xmm2, %xmm12
	movzbl	48(%rdx), %eax
	movq	1928(%rsp), %r15
	movd	%eax, %xmm15
	punpcklwd	%xmm1, %xmm12
	movzbl	1850(%rsp), %eax
	movzbl	48(%rsp,%rax), %eax
	movd	%eax, %xmm13
	punpckldq	%xmm11, %xmm12
	movzbl	48(%rdi), %eax
	movq	1920(%rsp), %rsi
	movd	%eax, %xmm11
	punpcklqdq	%xmm9, %xmm12
	movzbl	1848(%rsp), %eax
	movzbl	48(%rsp,%rax), %eax
	movd	%eax, %xmm1
	pand	%xmm7, %xmm12
	movzbl	48(%r8), %eax
	movq	1912(%rsp), %rdi
	movd	%eax, %xmm9
	punpcklbw	%xmm14, %xmm10
	movzbl	1846(%rsp), %eax
	movzbl	48(%rsp,%rax), %eax
	movd	%eax, %xmm7
	punpcklbw	%xmm3, %xmm4
	movzbl	48(%r9), %eax
	movq	304(%rsp), %r8
	movd	%eax, %xmm3
	punpcklwd	%xmm10, %xmm4
	movzbl	1844(%rsp), %eax
	movzbl	48(%rsp,%rax), %eax
	movd	%eax, %xmm2
	punpcklbw	%xmm15, %xmm13
	movzbl	48(%r10), %eax
	movd	%eax, %xmm14
	punpcklbw	%xmm11, %xmm1
	movzbl	1842(%rsp), %eax
	movzbl	48(%rsp,%rax), %eax
	movd	%eax, %xmm10
	punpcklwd	%xmm13, %xmm1
	movzbl	48(%r11), %eax
	movd	%eax, %xmm13
	punpckldq	%xmm4, %xmm1
	movq	1936(%rsp), %rax
	movzbl	48(%rsp,%rax), %eax
	movd	%eax, %xmm4
	punpcklbw	%xmm9, %xmm7
	movzbl	32(%rbx), %eax
	movd	%eax, %xmm11
	punpcklbw	%xmm3, %xmm2
	movq	1952(%rsp), %rax
	movzbl	32(%rsp,%rax), %eax
	movd	%eax, %xmm9
	punpcklwd	%xmm7, %xmm2
	movzbl	32(%r12), %eax
	movd	%eax, %xmm3
	punpcklbw	%xmm14, %xmm10
	movq	792(%rsp), %rax
	movzbl	32(%rsp,%rax), %eax
	movd	%eax, %xmm7
	punpcklbw	%xmm13, %xmm4
	movzbl	32(%r13), %eax
	movd	%eax, %xmm13
	punpcklwd	%xmm10, %xmm4
	movq	800(%rsp), %rax
	movzbl	32(%rsp,%rax), %eax
	movd	%eax, %xmm10
	punpckldq	%xmm2, %xmm4
	movzbl	32(%rbp), %eax
	movd	%eax, %xmm14
	punpcklqdq	%xmm1, %xmm4
	movq	440(%rsp), %rax
	movzbl	32(%rsp,%rax), %eax
	movd	%eax, %xmm1
	pand	%xmm12, %xmm4
	movq	1944(%rsp), %rax
	movzbl	32(%rax), %eax
	movd	%eax, %xmm12
	punpcklbw	%xmm11, %xmm9
	movq	280(%rsp), %rax
	movzbl	32(%rsp,%rax), %eax
	movd	%eax, %xmm2
	punpcklbw	%xmm3, %xmm7
	movq	784(%rsp), %rax
	movzbl	32(%rax), %eax
	movd	%eax, %xmm3
	punpcklwd	%xmm9, %xmm7
	movq	200(%rsp), %rax
	movzbl	32(%rsp,%rax), %eax
	movd	%eax, %xmm9
	punpcklbw	%xmm13, %xmm10
	movq	1960(%rsp), %rax
	movzbl	32(%rax), %eax
	movd	%eax, %xmm13
	punpcklbw	%xmm14, %xmm1
	movq	384(%rsp), %rax
	movzbl	32(%rsp,%rax), %eax
	movd	%eax, %xmm11
	punpcklwd	%xmm10, %xmm1
	movq	808(%rsp), %rax
	movzbl	32(%rax), %eax
	movd	%eax, %xmm14
	punpckldq	%xmm7, %xmm1
	movq	216(%rsp), %rax
	movzbl	32(%rsp,%rax), %eax
	movd	%eax, %xmm7
	punpcklbw	%xmm12, %xmm2
	movq	368(%rsp), %rax
	movzbl	16(%rax), %eax
	movd	%eax, %xmm12
	punpcklbw	%xmm3, %xmm9
	movq	72(%rsp), %rax
	movzbl	16(%rsp,%rax), %eax
	movd	%eax, %xmm10
	punpcklwd	%xmm2, %xmm9
	movq	376(%rsp), %rax
	movzbl	16(%rax), %eax
	movd	%eax, %xmm3
	punpcklbw	%xmm13, %xmm11
	movq	224(%rsp), %rax
	movzbl	16(%rsp,%rax), %eax
	movd	%eax, %xmm2
	punpcklbw	%xmm14, %xmm7
	movq	160(%rsp), %rax
	movzbl	16(%rax), %eax
	movd	%eax, %xmm14
	punpcklwd	%xmm11, %xmm7
	movq	232(%rsp), %rax
	movzbl	16(%rsp,%rax), %eax
	movd	%eax, %xmm13
	punpckldq	%xmm9, %xmm7
	movq	208(%rsp), %rax
	movzbl	16(%rax), %eax
	movd	%eax, %xmm15
	punpcklqdq	%xmm1, %xmm7
	movq	512(%rsp), %rax
	movzbl	16(%rsp,%rax), %eax
	movd	%eax, %xmm1
	pand	%xmm8, %xmm7
	movq	168(%rsp), %rax
	movzbl	16(%rax), %eax
	movdqa	%xmm0, 512(%rsp)
	movd	%eax, %xmm0
	punpcklbw	%xmm12, %xmm10
	movq	240(%rsp), %rax
	movzbl	16(%rsp,%rax), %eax
	movd	%eax, %xmm11
	punpcklbw	%xmm3, %xmm2
	movq	176(%rsp), %rax
	movzbl	16(%rax), %eax
	movd	%eax, %xmm3
	punpcklwd	%xmm10, %xmm2
	movq	80(%rsp), %rax
	movzbl	16(%rsp,%rax), %eax
	movd	%eax, %xmm9
	punpcklbw	%xmm14, %xmm13
	movq	152(%rsp), %rax
	movzbl	16(%rax), %eax
	movd	%eax, %xmm14
	punpcklbw	%xmm15, %xmm1
	movq	88(%rsp), %rax
	movzbl	16(%rsp,%rax), %eax
	movd	%eax, %xmm12
	punpcklwd	%xmm13, %xmm1
	movq	112(%rsp), %rax
	movzbl	16(%rax), %eax
	movd	%eax, %xmm13
	punpckldq	%xmm2, %xmm1
	movq	248(%rsp), %rax
	movzbl	16(%rsp,%rax), %eax
	movd	%eax, %xmm8
	punpcklbw	%xmm0, %xmm11
	movq	120(%rsp), %rax
	movzbl	(%rax), %eax
	movd	%eax, %xmm0
	punpcklbw	%xmm3, %xmm9
	punpcklwd	%xmm11, %xmm9
	movq	256(%rsp), %rax
	movzbl	(%rsp,%rax), %eax
	movd	%eax, %xmm10
	punpcklbw	%xmm14, %xmm12
	movq	192(%rsp), %rax
	movzbl	(%rax), %eax
	movd	%eax, %xmm11
	punpcklbw	%xmm13, %xmm8
	movq	264(%rsp), %rax
	movzbl	(%rsp,%rax), %eax
	movd	%eax, %xmm2
	punpcklwd	%xmm12, %xmm8
	movq	496(%rsp), %rax
	movzbl	(%rax), %eax
	movd	%eax, %xmm12
	punpckldq	%xmm9, %xmm8
	movq	96(%rsp), %rax
	movzbl	(%rsp,%rax), %eax
	movd	%eax, %xmm3
	punpcklqdq	%xmm1, %xmm8
	movq	128(%rsp), %rax
	movzbl	(%rax), %eax
	movd	%eax, %xmm1
	pand	%xmm6, %xmm8
	movq	272(%rsp), %rax
	movzbl	(%rsp,%rax), %eax
	movd	%eax, %xmm6
	punpcklbw	%xmm0, %xmm10
	movq	184(%rsp), %rax
	movzbl	(%rax), %eax
	movd	%eax, %xmm0
	punpcklbw	%xmm11, %xmm2
	movq	104(%rsp), %rax
	movzbl	(%rsp,%rax), %eax
	movd	%eax, %xmm9
	punpcklwd	%xmm10, %xmm2
	movq	136(%rsp), %rax
	movzbl	(%rax), %eax
	movd	%eax, %xmm10
	punpcklbw	%xmm12, %xmm3
	movq	400(%rsp), %rax
	movzbl	(%rsp,%rax), %eax
	movd	%eax, %xmm11
	punpcklbw	%xmm1, %xmm6
	movq	144(%rsp), %rax
	movzbl	(%rax), %eax
	movd	%eax, %xmm12
	punpcklwd	%xmm3, %xmm6
	movq	416(%rsp), %rax
	movzbl	(%rsp,%rax), %eax
	movd	%eax, %xmm3
	punpckldq	%xmm2, %xmm6
	movq	480(%rsp), %rax
	movzbl	(%rax), %eax
	movd	%eax, %xmm2
	punpcklbw	%xmm0, %xmm9
	movq	464(%rsp), %rax
	movzbl	(%rsp,%rax), %eax
	movd	%eax, %xmm1
	punpcklbw	%xmm10, %xmm11
	punpcklwd	%xmm9, %xmm11
	punpcklbw	%xmm12, %xmm3
	punpcklbw	%xmm2, %xmm1
	punpcklwd	%xmm3, %xmm1
	punpckldq	%xmm11, %xmm1
	punpcklqdq	%xmm6, %xmm1
	pand	%xmm5, %xmm1
	movdqa	336(%rsp), %xmm14
	movdqa	%xmm14, %xmm0
	psrldq	$14, %xmm0
	movdqa	448(%rsp), %xmm9
	pslldq	$2, %xmm9
	por	%xmm0, %xmm9
	movdqa	288(%rsp), %xmm3
	movdqa	%xmm3, %xmm0
	psrldq	$14, %xmm0
	movdqa	%xmm14, %xmm10
	pslldq	$2, %xmm10
	por	%xmm0, %xmm10
	movdqa	352(%rsp), %xmm15
	movdqa	%xmm15, %xmm0
	psrldq	$14, %xmm0
	movdqa	%xmm3, %xmm11
	pslldq	$2, %xmm11
	por	%xmm0, %xmm11
	movdqa	%xmm15, %xmm0
	pslldq	$2, %xmm0
	movdqa	320(%rsp), %xmm12
	psrldq	$14, %xmm12
	por	%xmm0, %xmm12
	movdqa	.LCPI2_4(%rip), %xmm0
	psubusb	%xmm0, %xmm12
	psubusb	%xmm0, %xmm11
	psubusb	%xmm0, %xmm10
	psubusb	%xmm0, %xmm9
	movdqa	%xmm14, %xmm0
	psrldq	$13, %xmm0
	movdqa	448(%rsp), %xmm2
	pslldq	$3, %xmm2
	por	%xmm0, %xmm2
	movdqa	%xmm3, %xmm0
	psrldq	$13, %xmm0
	movdqa	%xmm14, %xmm5
	pslldq	$3, %xmm5
	por	%xmm0, %xmm5
	movdqa	%xmm15, %xmm0
	psrldq	$13, %xmm0
	movdqa	%xmm3, %xmm6
	pslldq	$3, %xmm6
	por	%xmm0, %xmm6
	movdqa	%xmm15, %xmm0
	pslldq	$3, %xmm0
	movdqa	320(%rsp), %xmm13
	psrldq	$13, %xmm13
	movdqa	%xmm13, 320(%rsp)
	movdqa	320(%rsp), %xmm13
	por	%xmm0, %xmm13
	movdqa	%xmm13, 320(%rsp)
	movdqa	.LCPI2_5(%rip), %xmm0
	movdqa	320(%rsp), %xmm13
	psubusb	%xmm0, %xmm13
	movdqa	%xmm13, 320(%rsp)
	movdqa	320(%rsp), %xmm13
	por	%xmm12, %xmm13
	movdqa	%xmm13, 320(%rsp)
	movdqa	448(%rsp), %xmm12
	psubusb	%xmm0, %xmm6
	por	%xmm11, %xmm6
	psubusb	%xmm0, %xmm5
	por	%xmm10, %xmm5
	psubusb	%xmm0, %xmm2
	por	%xmm9, %xmm2
	movdqa	320(%rsp), %xmm9
	movdqa	.LCPI2_6(%rip), %xmm0
	pand	%xmm0, %xmm9
	pxor	%xmm1, %xmm9
	pand	%xmm0, %xmm6
	pxor	%xmm8, %xmm6
	pand	%xmm0, %xmm5
	pxor	%xmm7, %xmm5
	movdqa	816(%rsp), %xmm7
	pand	%xmm0, %xmm2
	pxor	%xmm4, %xmm2
	movdqa	832(%rsp), %xmm4
	pcmpeqd	%xmm0, %xmm0
	psubusb	%xmm0, %xmm15
	psubusb	%xmm0, %xmm3
	movdqa	%xmm12, %xmm8
	psubusb	.LCPI2_7(%rip), %xmm8
	psubusb	%xmm0, %xmm14
	movdqa	512(%rsp), %xmm0
	movdqa	%xmm3, %xmm10
	movdqa	848(%rsp), %xmm3
.LBB2_7:
	por	%xmm2, %xmm4
	por	%xmm5, %xmm3
	por	%xmm6, %xmm7
	por	%xmm9, %xmm0
	addq	$64, %r8
	leaq	(%rdi,%r14), %rax
	addq	$-64, %r14
	movdqa	%xmm12, %xmm9
	cmpq	$63, %rax
	jbe	.LBB2_10
.LBB2_8:
	movdqu	(%r8), %xmm5
	movdqu	16(%r8), %xmm11
	movdqu	32(%r8), %xmm6
	movdqu	48(%r8), %xmm12
	movdqa	%xmm11, %xmm1
	por	%xmm5, %xmm1
	movdqa	%xmm6, %xmm2
	por	%xmm12, %xmm2
	por	%xmm1, %xmm2
	pmovmskb	%xmm2, %eax
	testl	%eax, %eax
	jne	.LBB2_6
	movdqa	%xmm15, %xmm9
	movdqa	%xmm10, %xmm6
	movdqa	%xmm14, %xmm5
	movdqa	%xmm8, %xmm2
	pxor	%xmm15, %xmm15
	pxor	%xmm10, %xmm10
	pxor	%xmm14, %xmm14
	pxor	%xmm8, %xmm8
	jmp	.LBB2_7
.LBB2_10:
	movdqa	%xmm10, 288(%rsp)
	movdqa	%xmm15, 336(%rsp)
	movdqa	%xmm8, 352(%rsp)
	movdqa	%xmm14, 320(%rsp)
	movdqa	%xmm12, 448(%rsp)
	movdqa	%xmm7, 816(%rsp)
	movdqa	%xmm4, 832(%rsp)
	movdqa	%xmm3, 848(%rsp)
	movdqa	%xmm0, 512(%rsp)
	negq	%r14
.LBB2_11:
	leaq	1968(%rsp), %rdi
	movq	%r15, %rdx
	movq	%r14, %rcx
	callq	simdutf8__last_block
	movdqa	1968(%rsp), %xmm5
	movdqa	1984(%rsp), %xmm0
	movdqa	2000(%rsp), %xmm4
	movdqa	2016(%rsp), %xmm3
	movdqa	%xmm0, %xmm1
	por	%xmm5, %xmm1
	movdqa	%xmm4, %xmm2
	por	%xmm3, %xmm2
	por	%xmm1, %xmm2
	pmovmskb	%xmm2, %eax
	testl	%eax, %eax
	movdqa	320(%rsp), %xmm14
	movdqa	352(%rsp), %xmm1
	movdqa	336(%rsp), %xmm9
	movdqa	288(%rsp), %xmm2
	je	.LBB2_13
	movdqa	%xmm5, %xmm1
	pslldq	$1, %xmm1
	movdqa	448(%rsp), %xmm8
	psrldq	$15, %xmm8
	por	%xmm1, %xmm8
	movdqa	%xmm5, %xmm1
	psrldq	$15, %xmm1
	movdqa	%xmm0, %xmm7
	pslldq	$1, %xmm7
	por	%xmm1, %xmm7
	movdqa	%xmm0, %xmm1
	psrldq	$15, %xmm1
	movdqa	%xmm4, 480(%rsp)
	movdqa	%xmm4, %xmm6
	pslldq	$1, %xmm6
	por	%xmm1, %xmm6
	movdqa	%xmm4, %xmm1
	psrldq	$15, %xmm1
	movdqa	%xmm5, 320(%rsp)
	movdqa	%xmm3, %xmm5
	movdqa	%xmm3, 496(%rsp)
	pslldq	$1, %xmm5
	por	%xmm1, %xmm5
	movaps	.LCPI2_0(%rip), %xmm1
	movaps	%xmm1, 48(%rsp)
	movaps	%xmm1, 32(%rsp)
	movaps	%xmm1, 16(%rsp)
	movaps	%xmm1, (%rsp)
	movdqa	%xmm5, %xmm9
	psrlw	$4, %xmm9
	movdqa	.LCPI2_1(%rip), %xmm4
	movdqa	%xmm9, %xmm10
	pand	%xmm4, %xmm10
	movdqa	%xmm6, %xmm11
	psrlw	$4, %xmm11
	movdqa	%xmm11, %xmm12
	pand	%xmm4, %xmm12
	movdqa	%xmm8, %xmm2
	psrlw	$4, %xmm2
	movdqa	%xmm2, %xmm1
	pand	%xmm4, %xmm1
	movdqa	%xmm1, 1616(%rsp)
	movdqa	%xmm7, %xmm1
	psrlw	$4, %xmm1
	movzbl	1616(%rsp), %eax
	movq	%rax, 312(%rsp)
	movdqa	%xmm2, 1552(%rsp)
	movdqa	%xmm1, %xmm2
	pand	%xmm4, %xmm2
	movzbl	1553(%rsp), %eax
	movq	%rax, 104(%rsp)
	movzbl	1618(%rsp), %eax
	movq	%rax, 96(%rsp)
	movzbl	1555(%rsp), %eax
	movq	%rax, 248(%rsp)
	movzbl	1620(%rsp), %eax
	movq	%rax, 232(%rsp)
	movzbl	1557(%rsp), %r15d
	movzbl	1622(%rsp), %eax
	movq	%rax, 216(%rsp)
	movzbl	1559(%rsp), %ebx
	movzbl	1624(%rsp), %eax
	movq	%rax, 168(%rsp)
	movzbl	1561(%rsp), %edi
	movzbl	1626(%rsp), %eax
	movq	%rax, 200(%rsp)
	movzbl	1563(%rsp), %edx
	movzbl	1628(%rsp), %eax
	movq	%rax, 160(%rsp)
	movzbl	1565(%rsp), %ecx
	movzbl	1630(%rsp), %eax
	movq	%rax, 280(%rsp)
	movzbl	1567(%rsp), %eax
	movdqa	%xmm2, 1488(%rsp)
	movzbl	1488(%rsp), %esi
	movq	%rsi, 144(%rsp)
	movdqa	%xmm1, 1456(%rsp)
	movzbl	1457(%rsp), %esi
	movq	%rsi, 128(%rsp)
	movzbl	1490(%rsp), %esi
	movq	%rsi, 192(%rsp)
	movzbl	1459(%rsp), %esi
	movq	%rsi, 112(%rsp)
	movzbl	1492(%rsp), %esi
	movq	%rsi, 464(%rsp)
	movzbl	1461(%rsp), %esi
	movq	%rsi, 400(%rsp)
	movzbl	1494(%rsp), %esi
	movq	%rsi, 272(%rsp)
	movzbl	1463(%rsp), %esi
	movq	%rsi, 256(%rsp)
	movzbl	1496(%rsp), %esi
	movq	%rsi, 80(%rsp)
	movzbl	1465(%rsp), %r12d
	movzbl	1498(%rsp), %esi
	movq	%rsi, 72(%rsp)
	movzbl	1467(%rsp), %r14d
	movzbl	1500(%rsp), %esi
	movq	%rsi, 384(%rsp)
	movzbl	1469(%rsp), %r10d
	movzbl	1502(%rsp), %esi
	movq	%rsi, 208(%rsp)
	movzbl	1471(%rsp), %r9d
	movdqa	%xmm12, 1568(%rsp)
	movzbl	1568(%rsp), %esi
	movq	%rsi, 352(%rsp)
	movdqa	%xmm11, 1520(%rsp)
	movzbl	1521(%rsp), %esi
	movq	%rsi, 288(%rsp)
	movzbl	1570(%rsp), %esi
	movq	%rsi, 336(%rsp)
	movzbl	1523(%rsp), %esi
	movq	%rsi, 152(%rsp)
	movzbl	1572(%rsp), %esi
	movq	%rsi, 136(%rsp)
	movzbl	1525(%rsp), %esi
	movq	%rsi, 120(%rsp)
	movzbl	1574(%rsp), %esi
	movq	%rsi, 184(%rsp)
	movzbl	1527(%rsp), %esi
	movq	%rsi, 304(%rsp)
	movzbl	1576(%rsp), %esi
	movq	%rsi, 416(%rsp)
	movzbl	1529(%rsp), %esi
	movq	%rsi, 88(%rsp)
	movzbl	1578(%rsp), %esi
	movq	%rsi, 264(%rsp)
	movzbl	1531(%rsp), %esi
	movq	%rsi, 224(%rsp)
	movzbl	1580(%rsp), %esi
	movq	%rsi, 240(%rsp)
	movzbl	1533(%rsp), %r13d
	movzbl	1582(%rsp), %esi
	movq	%rsi, 176(%rsp)
	movzbl	1535(%rsp), %esi
	movdqa	%xmm10, 1632(%rsp)
	movzbl	1632(%rsp), %r8d
	movdqa	%xmm9, 1600(%rsp)
	movq	%rsp, %r11
	movzbl	1615(%rsp), %ebp
	orq	%r11, %rbp
	movzbl	48(%rbp), %ebp
	movd	%ebp, %xmm10
	movzbl	1646(%rsp), %ebp
	movzbl	48(%rsp,%rbp), %ebp
	movd	%ebp, %xmm2
	movzbl	1613(%rsp), %ebp
	orq	%r11, %rbp
	movzbl	48(%rbp), %ebp
	movd	%ebp, %xmm11
	movzbl	1644(%rsp), %ebp
	movzbl	48(%rsp,%rbp), %ebp
	movd	%ebp, %xmm1
	movzbl	1611(%rsp), %ebp
	orq	%r11, %rbp
	movzbl	48(%rbp), %ebp
	movd	%ebp, %xmm12
	movzbl	1642(%rsp), %ebp
	movzbl	48(%rsp,%rbp), %ebp
	movd	%ebp, %xmm9
	movzbl	1609(%rsp), %ebp
	orq	%r11, %rbp
	punpcklbw	%xmm10, %xmm2
	movzbl	48(%rbp), %ebp
	movd	%ebp, %xmm13
	punpcklbw	%xmm11, %xmm1
	movzbl	1640(%rsp), %ebp
	movzbl	48(%rsp,%rbp), %ebp
	movd	%ebp, %xmm10
	movzbl	1607(%rsp), %ebp
	orq	%r11, %rbp
	punpcklwd	%xmm2, %xmm1
	movzbl	48(%rbp), %ebp
	movd	%ebp, %xmm11
	punpcklbw	%xmm12, %xmm9
	movzbl	1638(%rsp), %ebp
	movzbl	48(%rsp,%rbp), %ebp
	movd	%ebp, %xmm12
	movzbl	1605(%rsp), %ebp
	orq	%r11, %rbp
	punpcklbw	%xmm13, %xmm10
	movzbl	48(%rbp), %ebp
	movd	%ebp, %xmm13
	punpcklwd	%xmm9, %xmm10
	movzbl	1636(%rsp), %ebp
	movzbl	48(%rsp,%rbp), %ebp
	movd	%ebp, %xmm2
	movzbl	1603(%rsp), %ebp
	orq	%r11, %rbp
	punpckldq	%xmm1, %xmm10
	movzbl	48(%rbp), %ebp
	movd	%ebp, %xmm1
	punpcklbw	%xmm11, %xmm12
	movzbl	1634(%rsp), %ebp
	movzbl	48(%rsp,%rbp), %ebp
	movd	%ebp, %xmm11
	movzbl	1601(%rsp), %ebp
	orq	%r11, %rbp
	punpcklbw	%xmm13, %xmm2
	movzbl	48(%rbp), %ebp
	movd	%ebp, %xmm13
	punpcklwd	%xmm12, %xmm2
	movzbl	48(%rsp,%r8), %r8d
	movd	%r8d, %xmm9
	orq	%r11, %rax
	punpcklbw	%xmm1, %xmm11
	movzbl	(%rax), %eax
	movd	%eax, %xmm12
	punpcklbw	%xmm13, %xmm9
	movq	280(%rsp), %rax
	movzbl	(%rsp,%rax), %eax
	movd	%eax, %xmm13
	orq	%r11, %rcx
	punpcklwd	%xmm11, %xmm9
	movzbl	(%rcx), %eax
	movd	%eax, %xmm11
	punpckldq	%xmm2, %xmm9
	movq	160(%rsp), %rax
	movzbl	(%rsp,%rax), %eax
	movd	%eax, %xmm1
	orq	%r11, %rdx
	punpcklqdq	%xmm10, %xmm9
	movzbl	(%rdx), %eax
	movd	%eax, %xmm2
	punpcklbw	%xmm12, %xmm13
	movq	200(%rsp), %rax
	movzbl	(%rsp,%rax), %eax
	movd	%eax, %xmm10
	orq	%r11, %rdi
	punpcklbw	%xmm11, %xmm1
	movzbl	(%rdi), %eax
	movd	%eax, %xmm12
	punpcklwd	%xmm13, %xmm1
	movq	168(%rsp), %rax
	movzbl	(%rsp,%rax), %eax
	movd	%eax, %xmm11
	orq	%r11, %rbx
	punpcklbw	%xmm2, %xmm10
	movzbl	(%rbx), %eax
	movd	%eax, %xmm2
	punpcklbw	%xmm12, %xmm11
	movq	216(%rsp), %rax
	movzbl	(%rsp,%rax), %eax
	movd	%eax, %xmm12
	orq	%r11, %r15
	punpcklwd	%xmm10, %xmm11
	movzbl	(%r15), %eax
	movd	%eax, %xmm10
	punpckldq	%xmm1, %xmm11
	movq	232(%rsp), %rax
	movzbl	(%rsp,%rax), %eax
	movd	%eax, %xmm1
	movq	248(%rsp), %rax
	orq	%r11, %rax
	punpcklbw	%xmm2, %xmm12
	movzbl	(%rax), %eax
	movd	%eax, %xmm2
	punpcklbw	%xmm10, %xmm1
	movq	96(%rsp), %rax
	movzbl	(%rsp,%rax), %eax
	movd	%eax, %xmm13
	movq	104(%rsp), %rax
	orq	%r11, %rax
	punpcklwd	%xmm12, %xmm1
	movzbl	(%rax), %eax
	movd	%eax, %xmm12
	punpcklbw	%xmm2, %xmm13
	movq	312(%rsp), %rax
	movzbl	(%rsp,%rax), %eax
	movd	%eax, %xmm10
	orq	%r11, %r9
	punpcklbw	%xmm12, %xmm10
	movzbl	16(%r9), %eax
	movd	%eax, %xmm12
	punpcklwd	%xmm13, %xmm10
	movq	208(%rsp), %rax
	movzbl	16(%rsp,%rax), %eax
	movd	%eax, %xmm13
	orq	%r11, %r10
	punpckldq	%xmm1, %xmm10
	movzbl	16(%r10), %eax
	movd	%eax, %xmm1
	punpcklqdq	%xmm11, %xmm10
	movq	384(%rsp), %rax
	movzbl	16(%rsp,%rax), %eax
	movd	%eax, %xmm2
	orq	%r11, %r14
	punpcklbw	%xmm12, %xmm13
	movzbl	16(%r14), %eax
	movd	%eax, %xmm11
	punpcklbw	%xmm1, %xmm2
	movq	72(%rsp), %rax
	movzbl	16(%rsp,%rax), %eax
	movd	%eax, %xmm12
	orq	%r11, %r12
	punpcklwd	%xmm13, %xmm2
	movzbl	16(%r12), %eax
	movd	%eax, %xmm13
	punpcklbw	%xmm11, %xmm12
	movq	80(%rsp), %rax
	movzbl	16(%rsp,%rax), %eax
	movd	%eax, %xmm1
	movq	256(%rsp), %rax
	orq	%r11, %rax
	punpcklbw	%xmm13, %xmm1
	movzbl	16(%rax), %eax
	movd	%eax, %xmm11
	punpcklwd	%xmm12, %xmm1
	movq	272(%rsp), %rax
	movzbl	16(%rsp,%rax), %eax
	movd	%eax, %xmm12
	movq	400(%rsp), %rax
	orq	%r11, %rax
	punpckldq	%xmm2, %xmm1
	movzbl	16(%rax), %eax
	movd	%eax, %xmm2
	punpcklbw	%xmm11, %xmm12
	movq	464(%rsp), %rax
	movzbl	16(%rsp,%rax), %eax
	movd	%eax, %xmm13
	movq	112(%rsp), %rax
	orq	%r11, %rax
	punpcklbw	%xmm2, %xmm13
	movzbl	16(%rax), %eax
	movd	%eax, %xmm2
	punpcklwd	%xmm12, %xmm13
	movq	192(%rsp), %rax
	movzbl	16(%rsp,%rax), %eax
	movd	%eax, %xmm12
	movq	128(%rsp), %rax
	orq	%r11, %rax
	punpcklbw	%xmm2, %xmm12
	movzbl	16(%rax), %eax
	movd	%eax, %xmm2
	movq	144(%rsp), %rax
	movzbl	16(%rsp,%rax), %eax
	movd	%eax, %xmm11
	punpcklbw	%xmm2, %xmm11
	orq	%r11, %rsi
	punpcklwd	%xmm12, %xmm11
	movzbl	32(%rsi), %eax
	movd	%eax, %xmm2
	punpckldq	%xmm13, %xmm11
	movq	176(%rsp), %rax
	movzbl	32(%rsp,%rax), %eax
	movd	%eax, %xmm12
	movq	88(%rsp), %rcx
	orq	%r11, %rcx
	movq	224(%rsp), %rdx
	orq	%r11, %rdx
	orq	%r11, %r13
	punpcklqdq	%xmm1, %xmm11
	punpcklbw	%xmm2, %xmm12
	movzbl	32(%r13), %eax
	movd	%eax, %xmm1
	movq	240(%rsp), %rax
	movzbl	32(%rsp,%rax), %eax
	movd	%eax, %xmm2
	punpcklbw	%xmm1, %xmm2
	punpcklwd	%xmm12, %xmm2
	movzbl	32(%rdx), %eax
	movd	%eax, %xmm1
	movq	264(%rsp), %rax
	movzbl	32(%rsp,%rax), %eax
	movd	%eax, %xmm13
	punpcklbw	%xmm1, %xmm13
	movzbl	32(%rcx), %eax
	movd	%eax, %xmm1
	movq	416(%rsp), %rax
	movzbl	32(%rsp,%rax), %eax
	movd	%eax, %xmm12
	punpcklbw	%xmm1, %xmm12
	movq	120(%rsp), %rcx
	orq	%r11, %rcx
	movq	304(%rsp), %rax
	orq	%r11, %rax
	punpcklwd	%xmm13, %xmm12
	punpckldq	%xmm2, %xmm12
	movzbl	32(%rax), %eax
	movd	%eax, %xmm1
	movq	184(%rsp), %rax
	movzbl	32(%rsp,%rax), %eax
	movd	%eax, %xmm2
	punpcklbw	%xmm1, %xmm2
	movzbl	32(%rcx), %eax
	movd	%eax, %xmm1
	movq	136(%rsp), %rax
	movzbl	32(%rsp,%rax), %eax
	movd	%eax, %xmm13
	punpcklbw	%xmm1, %xmm13
	movq	288(%rsp), %rax
	orq	%r11, %rax
	movq	152(%rsp), %rcx
	orq	%r11, %rcx
	punpcklwd	%xmm2, %xmm13
	movzbl	32(%rcx), %edx
	movq	336(%rsp), %rcx
	movzbl	32(%rsp,%rcx), %ecx
	movzbl	32(%rax), %r14d
	movq	352(%rsp), %rax
	movzbl	32(%rsp,%rax), %eax
	movaps	.LCPI2_2(%rip), %xmm1
	movaps	%xmm1, 48(%rsp)
	movaps	%xmm1, 32(%rsp)
	movaps	%xmm1, 16(%rsp)
	movaps	%xmm1, (%rsp)
	movd	%edx, %xmm14
	pand	%xmm4, %xmm8
	movdqa	%xmm8, 688(%rsp)
	movd	%ecx, %xmm8
	pand	%xmm4, %xmm7
	movzbl	688(%rsp), %ecx
	movq	%rcx, 88(%rsp)
	movzbl	689(%rsp), %ecx
	movq	%rcx, 240(%rsp)
	movzbl	690(%rsp), %ecx
	movq	%rcx, 72(%rsp)
	movzbl	691(%rsp), %ecx
	movq	%rcx, 176(%rsp)
	movzbl	692(%rsp), %ecx
	movq	%rcx, 168(%rsp)
	movzbl	693(%rsp), %ecx
	movq	%rcx, 200(%rsp)
	movzbl	694(%rsp), %ebp
	movzbl	695(%rsp), %r12d
	movzbl	696(%rsp), %ebx
	movzbl	697(%rsp), %r9d
	movzbl	698(%rsp), %r10d
	movzbl	699(%rsp), %edi
	movzbl	700(%rsp), %r8d
	movzbl	701(%rsp), %esi
	movzbl	702(%rsp), %edx
	movzbl	703(%rsp), %ecx
	movdqa	%xmm7, 656(%rsp)
	movd	%r14d, %xmm15
	pand	%xmm4, %xmm6
	movzbl	656(%rsp), %r14d
	movq	%r14, 192(%rsp)
	movzbl	657(%rsp), %r14d
	movq	%r14, 120(%rsp)
	movzbl	658(%rsp), %r14d
	movq	%r14, 312(%rsp)
	movzbl	659(%rsp), %r14d
	movq	%r14, 464(%rsp)
	movzbl	660(%rsp), %r14d
	movq	%r14, 104(%rsp)
	movzbl	661(%rsp), %r14d
	movq	%r14, 272(%rsp)
	movzbl	662(%rsp), %r14d
	movq	%r14, 256(%rsp)
	movzbl	663(%rsp), %r14d
	movq	%r14, 248(%rsp)
	movzbl	664(%rsp), %r14d
	movq	%r14, 224(%rsp)
	movzbl	665(%rsp), %r14d
	movq	%r14, 216(%rsp)
	movzbl	666(%rsp), %r14d
	movq	%r14, 384(%rsp)
	movzbl	667(%rsp), %r14d
	movq	%r14, 208(%rsp)
	movzbl	668(%rsp), %r14d
	movq	%r14, 160(%rsp)
	movzbl	669(%rsp), %r13d
	movzbl	670(%rsp), %r15d
	movzbl	671(%rsp), %r14d
	movdqa	%xmm6, 672(%rsp)
	movd	%eax, %xmm7
	pand	%xmm4, %xmm5
	movzbl	672(%rsp), %eax
	movq	%rax, 352(%rsp)
	movzbl	673(%rsp), %eax
	movq	%rax, 336(%rsp)
	movzbl	674(%rsp), %eax
	movq	%rax, 288(%rsp)
	movzbl	675(%rsp), %eax
	movq	%rax, 152(%rsp)
	movzbl	676(%rsp), %eax
	movq	%rax, 144(%rsp)
	movzbl	677(%rsp), %eax
	movq	%rax, 136(%rsp)
	movzbl	678(%rsp), %eax
	movq	%rax, 128(%rsp)
	movzbl	679(%rsp), %eax
	movq	%rax, 184(%rsp)
	movzbl	680(%rsp), %eax
	movq	%rax, 112(%rsp)
	movzbl	681(%rsp), %eax
	movq	%rax, 304(%rsp)
	movzbl	682(%rsp), %eax
	movq	%rax, 416(%rsp)
	movzbl	683(%rsp), %eax
	movq	%rax, 400(%rsp)
	movzbl	684(%rsp), %eax
	movq	%rax, 96(%rsp)
	movzbl	685(%rsp), %eax
	movq	%rax, 264(%rsp)
	movzbl	686(%rsp), %eax
	movq	%rax, 80(%rsp)
	movzbl	687(%rsp), %eax
	movq	%rax, 232(%rsp)
	movdqa	%xmm5, 704(%rsp)
	movzbl	719(%rsp), %eax
	movzbl	48(%rsp,%rax), %eax
	movd	%eax, %xmm5
	punpcklbw	%xmm14, %xmm8
	movzbl	718(%rsp), %eax
	movzbl	48(%rsp,%rax), %eax
	movd	%eax, %xmm2
	punpcklbw	%xmm15, %xmm7
	movzbl	717(%rsp), %eax
	movzbl	48(%rsp,%rax), %eax
	movd	%eax, %xmm6
	punpcklwd	%xmm8, %xmm7
	movzbl	716(%rsp), %eax
	movzbl	48(%rsp,%rax), %eax
	movd	%eax, %xmm1
	punpckldq	%xmm13, %xmm7
	movzbl	715(%rsp), %eax
	movzbl	48(%rsp,%rax), %eax
	movd	%eax, %xmm8
	punpcklqdq	%xmm12, %xmm7
	movzbl	714(%rsp), %eax
	movzbl	48(%rsp,%rax), %eax
	movd	%eax, %xmm12
	punpcklbw	%xmm5, %xmm2
	movzbl	713(%rsp), %eax
	movzbl	48(%rsp,%rax), %eax
	movd	%eax, %xmm5
	punpcklbw	%xmm6, %xmm1
	movzbl	712(%rsp), %eax
	movzbl	48(%rsp,%rax), %eax
	movd	%eax, %xmm6
	punpcklwd	%xmm2, %xmm1
	movzbl	711(%rsp), %eax
	movzbl	48(%rsp,%rax), %eax
	movd	%eax, %xmm13
	punpcklbw	%xmm8, %xmm12
	movzbl	710(%rsp), %eax
	movzbl	48(%rsp,%rax), %eax
	movd	%eax, %xmm8
	punpcklbw	%xmm5, %xmm6
	movzbl	709(%rsp), %eax
	movzbl	48(%rsp,%rax), %eax
	movd	%eax, %xmm5
	punpcklwd	%xmm12, %xmm6
	movzbl	708(%rsp), %eax
	movzbl	48(%rsp,%rax), %eax
	movd	%eax, %xmm2
	punpckldq	%xmm1, %xmm6
	movzbl	707(%rsp), %eax
	movzbl	48(%rsp,%rax), %eax
	movd	%eax, %xmm1
	punpcklbw	%xmm13, %xmm8
	movzbl	706(%rsp), %eax
	movzbl	48(%rsp,%rax), %eax
	movd	%eax, %xmm12
	punpcklbw	%xmm5, %xmm2
	movzbl	705(%rsp), %eax
	movzbl	48(%rsp,%rax), %eax
	movd	%eax, %xmm13
	punpcklwd	%xmm8, %xmm2
	movzbl	704(%rsp), %eax
	movzbl	48(%rsp,%rax), %eax
	movd	%eax, %xmm5
	punpcklbw	%xmm1, %xmm12
	movzbl	(%rsp,%rcx), %eax
	movd	%eax, %xmm1
	punpcklbw	%xmm13, %xmm5
	movzbl	(%rsp,%rdx), %eax
	movd	%eax, %xmm13
	punpcklwd	%xmm12, %xmm5
	movzbl	(%rsp,%rsi), %eax
	movd	%eax, %xmm8
	punpckldq	%xmm2, %xmm5
	movzbl	(%rsp,%r8), %eax
	movd	%eax, %xmm2
	punpcklqdq	%xmm6, %xmm5
	movzbl	(%rsp,%rdi), %eax
	movd	%eax, %xmm6
	pand	%xmm9, %xmm5
	movzbl	(%rsp,%r10), %eax
	movd	%eax, %xmm9
	punpcklbw	%xmm1, %xmm13
	movzbl	(%rsp,%r9), %eax
	movd	%eax, %xmm1
	punpcklbw	%xmm8, %xmm2
	movzbl	(%rsp,%rbx), %eax
	movd	%eax, %xmm8
	punpcklwd	%xmm13, %xmm2
	movzbl	(%rsp,%r12), %eax
	movd	%eax, %xmm12
	punpcklbw	%xmm6, %xmm9
	movzbl	(%rsp,%rbp), %eax
	movd	%eax, %xmm6
	punpcklbw	%xmm1, %xmm8
	movq	200(%rsp), %rax
	movzbl	(%rsp,%rax), %eax
	movd	%eax, %xmm13
	punpcklwd	%xmm9, %xmm8
	movq	168(%rsp), %rax
	movzbl	(%rsp,%rax), %eax
	movd	%eax, %xmm1
	punpckldq	%xmm2, %xmm8
	movq	176(%rsp), %rax
	movzbl	(%rsp,%rax), %eax
	movd	%eax, %xmm2
	punpcklbw	%xmm12, %xmm6
	movq	72(%rsp), %rax
	movzbl	(%rsp,%rax), %eax
	movd	%eax, %xmm9
	punpcklbw	%xmm13, %xmm1
	movq	240(%rsp), %rax
	movzbl	(%rsp,%rax), %eax
	movd	%eax, %xmm12
	punpcklwd	%xmm6, %xmm1
	movq	88(%rsp), %rax
	movzbl	(%rsp,%rax), %eax
	movd	%eax, %xmm6
	punpcklbw	%xmm2, %xmm9
	movzbl	16(%rsp,%r14), %eax
	movd	%eax, %xmm13
	punpcklbw	%xmm12, %xmm6
	movzbl	16(%rsp,%r15), %eax
	movd	%eax, %xmm12
	punpcklwd	%xmm9, %xmm6
	movzbl	16(%rsp,%r13), %eax
	movd	%eax, %xmm9
	punpckldq	%xmm1, %xmm6
	movq	160(%rsp), %rax
	movzbl	16(%rsp,%rax), %eax
	movd	%eax, %xmm2
	punpcklqdq	%xmm8, %xmm6
	movq	208(%rsp), %rax
	movzbl	16(%rsp,%rax), %eax
	movd	%eax, %xmm8
	pand	%xmm10, %xmm6
	movq	384(%rsp), %rax
	movzbl	16(%rsp,%rax), %eax
	movd	%eax, %xmm10
	punpcklbw	%xmm13, %xmm12
	movq	216(%rsp), %rax
	movzbl	16(%rsp,%rax), %eax
	movd	%eax, %xmm13
	punpcklbw	%xmm9, %xmm2
	movq	224(%rsp), %rax
	movzbl	16(%rsp,%rax), %eax
	movd	%eax, %xmm1
	punpcklwd	%xmm12, %xmm2
	movq	248(%rsp), %rax
	movzbl	16(%rsp,%rax), %eax
	movd	%eax, %xmm12
	punpcklbw	%xmm8, %xmm10
	movq	256(%rsp), %rax
	movzbl	16(%rsp,%rax), %eax
	movd	%eax, %xmm8
	punpcklbw	%xmm13, %xmm1
	movq	272(%rsp), %rax
	movzbl	16(%rsp,%rax), %eax
	movd	%eax, %xmm13
	punpcklwd	%xmm10, %xmm1
	movq	104(%rsp), %rax
	movzbl	16(%rsp,%rax), %eax
	movd	%eax, %xmm9
	punpckldq	%xmm2, %xmm1
	movq	464(%rsp), %rax
	movzbl	16(%rsp,%rax), %eax
	movd	%eax, %xmm2
	punpcklbw	%xmm12, %xmm8
	movq	312(%rsp), %rax
	movzbl	16(%rsp,%rax), %eax
	movd	%eax, %xmm10
	punpcklbw	%xmm13, %xmm9
	movq	120(%rsp), %rax
	movzbl	16(%rsp,%rax), %eax
	movd	%eax, %xmm12
	punpcklwd	%xmm8, %xmm9
	movq	192(%rsp), %rax
	movzbl	16(%rsp,%rax), %eax
	movd	%eax, %xmm8
	punpcklbw	%xmm2, %xmm10
	movq	232(%rsp), %rax
	movzbl	32(%rsp,%rax), %eax
	movd	%eax, %xmm2
	punpcklbw	%xmm12, %xmm8
	movq	80(%rsp), %rax
	movzbl	32(%rsp,%rax), %eax
	movd	%eax, %xmm12
	punpcklwd	%xmm10, %xmm8
	punpckldq	%xmm9, %xmm8
	punpcklqdq	%xmm1, %xmm8
	pand	%xmm11, %xmm8
	punpcklbw	%xmm2, %xmm12
	movq	264(%rsp), %rax
	movzbl	32(%rsp,%rax), %eax
	movd	%eax, %xmm1
	movq	96(%rsp), %rax
	movzbl	32(%rsp,%rax), %eax
	movd	%eax, %xmm2
	punpcklbw	%xmm1, %xmm2
	punpcklwd	%xmm12, %xmm2
	movq	400(%rsp), %rax
	movzbl	32(%rsp,%rax), %eax
	movd	%eax, %xmm1
	movq	416(%rsp), %rax
	movzbl	32(%rsp,%rax), %eax
	movd	%eax, %xmm10
	punpcklbw	%xmm1, %xmm10
	movq	304(%rsp), %rax
	movzbl	32(%rsp,%rax), %eax
	movd	%eax, %xmm1
	movq	112(%rsp), %rax
	movzbl	32(%rsp,%rax), %eax
	movd	%eax, %xmm9
	punpcklbw	%xmm1, %xmm9
	punpcklwd	%xmm10, %xmm9
	punpckldq	%xmm2, %xmm9
	movq	184(%rsp), %rax
	movzbl	32(%rsp,%rax), %eax
	movd	%eax, %xmm1
	movq	128(%rsp), %rax
	movzbl	32(%rsp,%rax), %eax
	movd	%eax, %xmm11
	punpcklbw	%xmm1, %xmm11
	movq	136(%rsp), %rax
	movzbl	32(%rsp,%rax), %eax
	movd	%eax, %xmm1
	movq	144(%rsp), %rax
	movzbl	32(%rsp,%rax), %eax
	movd	%eax, %xmm10
	punpcklbw	%xmm1, %xmm10
	movq	152(%rsp), %rax
	movzbl	32(%rsp,%rax), %ecx
	movq	288(%rsp), %rax
	movzbl	32(%rsp,%rax), %eax
	movq	336(%rsp), %rdx
	movzbl	32(%rsp,%rdx), %ebp
	movq	352(%rsp), %rdx
	movzbl	32(%rsp,%rdx), %edx
	movl	%edx, 104(%rsp)
	movaps	.LCPI2_3(%rip), %xmm1
	movaps	%xmm1, 48(%rsp)
	movaps	%xmm1, 32(%rsp)
	movaps	%xmm1, 16(%rsp)
	movaps	%xmm1, (%rsp)
	movdqa	%xmm3, %xmm12
	psrlw	$4, %xmm12
	movdqa	%xmm12, %xmm13
	pand	%xmm4, %xmm13
	movdqa	480(%rsp), %xmm15
	psrlw	$4, %xmm15
	movdqa	%xmm15, %xmm14
	pand	%xmm4, %xmm14
	movdqa	%xmm0, %xmm1
	psrlw	$4, %xmm1
	movdqa	%xmm1, %xmm2
	pand	%xmm4, %xmm2
	movdqa	320(%rsp), %xmm3
	psrlw	$4, %xmm3
	pand	%xmm3, %xmm4
	movdqa	%xmm4, 1408(%rsp)
	movzbl	1408(%rsp), %edx
	movq	%rdx, 192(%rsp)
	movdqa	%xmm3, 1392(%rsp)
	movzbl	1393(%rsp), %edx
	movq	%rdx, 336(%rsp)
	movzbl	1410(%rsp), %edx
	movq	%rdx, 184(%rsp)
	movzbl	1395(%rsp), %edx
	movq	%rdx, 288(%rsp)
	movzbl	1412(%rsp), %edx
	movq	%rdx, 120(%rsp)
	movzbl	1397(%rsp), %edx
	movq	%rdx, 352(%rsp)
	movzbl	1414(%rsp), %edx
	movq	%rdx, 112(%rsp)
	movzbl	1399(%rsp), %r15d
	movzbl	1416(%rsp), %edx
	movq	%rdx, 312(%rsp)
	movzbl	1401(%rsp), %edx
	movq	%rdx, 152(%rsp)
	movzbl	1418(%rsp), %edx
	movq	%rdx, 464(%rsp)
	movzbl	1403(%rsp), %edx
	movq	%rdx, 144(%rsp)
	movzbl	1420(%rsp), %edx
	movq	%rdx, 416(%rsp)
	movzbl	1405(%rsp), %r14d
	movzbl	1422(%rsp), %edx
	movq	%rdx, 400(%rsp)
	movzbl	1407(%rsp), %edx
	movq	%rdx, 136(%rsp)
	movdqa	%xmm2, 1440(%rsp)
	movzbl	1440(%rsp), %edx
	movq	%rdx, 272(%rsp)
	movdqa	%xmm1, 1424(%rsp)
	movzbl	1425(%rsp), %ebx
	movzbl	1442(%rsp), %edx
	movq	%rdx, 264(%rsp)
	movzbl	1427(%rsp), %r8d
	movzbl	1444(%rsp), %esi
	movq	%rsi, 256(%rsp)
	movzbl	1429(%rsp), %edi
	movzbl	1446(%rsp), %esi
	movq	%rsi, 248(%rsp)
	movzbl	1431(%rsp), %edx
	movq	%rdx, 128(%rsp)
	movzbl	1448(%rsp), %esi
	movq	%rsi, 232(%rsp)
	movzbl	1433(%rsp), %r12d
	movzbl	1450(%rsp), %esi
	movq	%rsi, 224(%rsp)
	movzbl	1435(%rsp), %edx
	movq	%rdx, 96(%rsp)
	movzbl	1452(%rsp), %esi
	movq	%rsi, 176(%rsp)
	movzbl	1437(%rsp), %edx
	movq	%rdx, 88(%rsp)
	movzbl	1454(%rsp), %esi
	movq	%rsi, 384(%rsp)
	movzbl	1439(%rsp), %edx
	movq	%rdx, 80(%rsp)
	movdqa	%xmm14, 1504(%rsp)
	movd	%ecx, %xmm14
	movzbl	1504(%rsp), %ecx
	movq	%rcx, 200(%rsp)
	movdqa	%xmm15, 1472(%rsp)
	movd	%eax, %xmm4
	movzbl	1473(%rsp), %eax
	movq	%rax, 72(%rsp)
	movzbl	1506(%rsp), %eax
	movq	%rax, 280(%rsp)
	movzbl	1475(%rsp), %esi
	movzbl	1508(%rsp), %ecx
	movq	%rcx, 376(%rsp)
	movzbl	1477(%rsp), %edx
	movzbl	1510(%rsp), %ecx
	movq	%rcx, 440(%rsp)
	movzbl	1479(%rsp), %r9d
	movzbl	1512(%rsp), %eax
	movq	%rax, 808(%rsp)
	movzbl	1481(%rsp), %r13d
	movzbl	1514(%rsp), %eax
	movq	%rax, 800(%rsp)
	movzbl	1483(%rsp), %r11d
	movzbl	1516(%rsp), %eax
	movq	%rax, 792(%rsp)
	movzbl	1485(%rsp), %r10d
	movzbl	1518(%rsp), %eax
	movq	%rax, 784(%rsp)
	movzbl	1487(%rsp), %ecx
	movdqa	%xmm13, 1584(%rsp)
	movd	%ebp, %xmm13
	movzbl	1584(%rsp), %ebp
	movq	%rbp, 304(%rsp)
	movdqa	%xmm12, 1536(%rsp)
	movd	104(%rsp), %xmm12
	movq	%rsp, %rax
	orq	%rax, 336(%rsp)
	orq	%rax, 288(%rsp)
	orq	%rax, 352(%rsp)
	orq	%rax, %r15
	movq	%r15, 240(%rsp)
	orq	%rax, 152(%rsp)
	orq	%rax, 144(%rsp)
	orq	%rax, %r14
	movq	%r14, 216(%rsp)
	orq	%rax, 136(%rsp)
	orq	%rax, %rbx
	movq	%rbx, 168(%rsp)
	orq	%rax, %r8
	movq	%r8, 208(%rsp)
	orq	%rax, %rdi
	movq	%rdi, 160(%rsp)
	orq	%rax, 128(%rsp)
	orq	%rax, %r12
	movq	%r12, 368(%rsp)
	movq	96(%rsp), %rbp
	orq	%rax, %rbp
	movq	88(%rsp), %r14
	orq	%rax, %r14
	movq	80(%rsp), %r12
	orq	%rax, %r12
	movq	72(%rsp), %rbx
	orq	%rax, %rbx
	orq	%rax, %rsi
	orq	%rax, %rdx
	orq	%rax, %r9
	orq	%rax, %r13
	orq	%rax, %r11
	orq	%rax, %r10
	orq	%rax, %rcx
	movzbl	1537(%rsp), %r8d
	orq	%rax, %r8
	movq	%r8, 104(%rsp)
	movzbl	1539(%rsp), %edi
	orq	%rax, %rdi
	movq	%rdi, 80(%rsp)
	movzbl	1541(%rsp), %r8d
	orq	%rax, %r8
	movq	%r8, 96(%rsp)
	movzbl	1543(%rsp), %edi
	orq	%rax, %rdi
	movzbl	1545(%rsp), %r8d
	orq	%rax, %r8
	movq	%r8, 88(%rsp)
	movzbl	1547(%rsp), %r8d
	orq	%rax, %r8
	movq	%r8, 72(%rsp)
	movzbl	1549(%rsp), %r15d
	orq	%rax, %r15
	movzbl	1551(%rsp), %r8d
	orq	%rax, %r8
	punpcklwd	%xmm11, %xmm10
	movzbl	32(%rcx), %eax
	movd	%eax, %xmm3
	punpcklbw	%xmm14, %xmm4
	movq	784(%rsp), %rax
	movzbl	32(%rsp,%rax), %eax
	movd	%eax, %xmm2
	punpcklbw	%xmm13, %xmm12
	movzbl	32(%r10), %eax
	movd	%eax, %xmm11
	punpcklwd	%xmm4, %xmm12
	movq	792(%rsp), %rax
	movzbl	32(%rsp,%rax), %eax
	movd	%eax, %xmm1
	punpckldq	%xmm10, %xmm12
	movzbl	32(%r11), %eax
	movd	%eax, %xmm4
	punpcklqdq	%xmm9, %xmm12
	movq	800(%rsp), %rax
	movzbl	32(%rsp,%rax), %eax
	movd	%eax, %xmm9
	pand	%xmm7, %xmm12
	movzbl	32(%r13), %eax
	movd	%eax, %xmm10
	punpcklbw	%xmm3, %xmm2
	movq	808(%rsp), %rax
	movzbl	32(%rsp,%rax), %eax
	movd	%eax, %xmm7
	punpcklbw	%xmm11, %xmm1
	movzbl	32(%r9), %eax
	movd	%eax, %xmm3
	punpcklwd	%xmm2, %xmm1
	movq	440(%rsp), %rax
	movzbl	32(%rsp,%rax), %eax
	movd	%eax, %xmm11
	punpcklbw	%xmm4, %xmm9
	movzbl	32(%rdx), %eax
	movd	%eax, %xmm4
	punpcklbw	%xmm10, %xmm7
	movq	376(%rsp), %rax
	movzbl	32(%rsp,%rax), %eax
	movd	%eax, %xmm2
	punpcklwd	%xmm9, %xmm7
	movzbl	32(%rsi), %eax
	movd	%eax, %xmm9
	punpckldq	%xmm1, %xmm7
	movq	280(%rsp), %rax
	movzbl	32(%rsp,%rax), %eax
	movd	%eax, %xmm1
	punpcklbw	%xmm3, %xmm11
	movzbl	32(%rbx), %eax
	movd	%eax, %xmm3
	punpcklbw	%xmm4, %xmm2
	movq	200(%rsp), %rax
	movzbl	32(%rsp,%rax), %eax
	movd	%eax, %xmm4
	punpcklwd	%xmm11, %xmm2
	movzbl	16(%r12), %eax
	movd	%eax, %xmm11
	punpcklbw	%xmm9, %xmm1
	movq	384(%rsp), %rax
	movzbl	16(%rsp,%rax), %eax
	movd	%eax, %xmm10
	punpcklbw	%xmm3, %xmm4
	movzbl	16(%r14), %eax
	movd	%eax, %xmm3
	punpcklwd	%xmm1, %xmm4
	movq	176(%rsp), %rax
	movzbl	16(%rsp,%rax), %eax
	movd	%eax, %xmm1
	punpckldq	%xmm2, %xmm4
	movzbl	16(%rbp), %eax
	movd	%eax, %xmm2
	punpcklqdq	%xmm7, %xmm4
	movq	224(%rsp), %rax
	movzbl	16(%rsp,%rax), %eax
	movd	%eax, %xmm7
	pand	%xmm12, %xmm4
	movq	368(%rsp), %rax
	movzbl	16(%rax), %eax
	movd	%eax, %xmm12
	punpcklbw	%xmm11, %xmm10
	movq	232(%rsp), %rax
	movzbl	16(%rsp,%rax), %eax
	movd	%eax, %xmm9
	punpcklbw	%xmm3, %xmm1
	movq	128(%rsp), %rax
	movzbl	16(%rax), %eax
	movd	%eax, %xmm3
	punpcklwd	%xmm10, %xmm1
	movq	248(%rsp), %rax
	movzbl	16(%rsp,%rax), %eax
	movd	%eax, %xmm10
	punpcklbw	%xmm2, %xmm7
	movq	160(%rsp), %rax
	movzbl	16(%rax), %eax
	movd	%eax, %xmm11
	punpcklbw	%xmm12, %xmm9
	movq	256(%rsp), %rax
	movzbl	16(%rsp,%rax), %eax
	movd	%eax, %xmm2
	punpcklwd	%xmm7, %xmm9
	movq	208(%rsp), %rax
	movzbl	16(%rax), %eax
	movd	%eax, %xmm12
	punpckldq	%xmm1, %xmm9
	movq	264(%rsp), %rax
	movzbl	16(%rsp,%rax), %eax
	movd	%eax, %xmm13
	punpcklbw	%xmm3, %xmm10
	movq	168(%rsp), %rax
	movzbl	16(%rax), %eax
	movd	%eax, %xmm3
	punpcklbw	%xmm11, %xmm2
	movq	272(%rsp), %rax
	movzbl	16(%rsp,%rax), %eax
	movd	%eax, %xmm7
	punpcklwd	%xmm10, %xmm2
	movq	136(%rsp), %rax
	movzbl	(%rax), %eax
	movd	%eax, %xmm11
	punpcklbw	%xmm12, %xmm13
	movq	400(%rsp), %rax
	movzbl	(%rsp,%rax), %eax
	movd	%eax, %xmm1
	punpcklbw	%xmm3, %xmm7
	movq	216(%rsp), %rax
	movzbl	(%rax), %eax
	movd	%eax, %xmm3
	punpcklwd	%xmm13, %xmm7
	movq	416(%rsp), %rax
	movzbl	(%rsp,%rax), %eax
	movd	%eax, %xmm10
	punpckldq	%xmm2, %xmm7
	movq	144(%rsp), %rax
	movzbl	(%rax), %eax
	movd	%eax, %xmm2
	punpcklqdq	%xmm9, %xmm7
	movq	464(%rsp), %rax
	movzbl	(%rsp,%rax), %eax
	movd	%eax, %xmm12
	pand	%xmm8, %xmm7
	movq	152(%rsp), %rax
	movzbl	(%rax), %eax
	movd	%eax, %xmm8
	punpcklbw	%xmm11, %xmm1
	movq	312(%rsp), %rax
	movzbl	(%rsp,%rax), %eax
	movd	%eax, %xmm9
	punpcklbw	%xmm3, %xmm10
	movq	240(%rsp), %rax
	movzbl	(%rax), %eax
	movd	%eax, %xmm3
	punpcklwd	%xmm1, %xmm10
	movq	112(%rsp), %rax
	movzbl	(%rsp,%rax), %eax
	movd	%eax, %xmm11
	punpcklbw	%xmm2, %xmm12
	punpcklbw	%xmm8, %xmm9
	movq	352(%rsp), %rax
	movzbl	(%rax), %eax
	movd	%eax, %xmm2
	punpcklwd	%xmm12, %xmm9
	movq	120(%rsp), %rax
	movzbl	(%rsp,%rax), %eax
	movd	%eax, %xmm1
	punpckldq	%xmm10, %xmm9
	movq	288(%rsp), %rax
	movzbl	(%rax), %eax
	movd	%eax, %xmm10
	punpcklbw	%xmm3, %xmm11
	movq	184(%rsp), %rax
	movzbl	(%rsp,%rax), %eax
	movd	%eax, %xmm3
	punpcklbw	%xmm2, %xmm1
	movq	336(%rsp), %rax
	movzbl	(%rax), %eax
	movd	%eax, %xmm2
	punpcklwd	%xmm11, %xmm1
	movq	192(%rsp), %rax
	movzbl	(%rsp,%rax), %eax
	movd	%eax, %xmm8
	punpcklbw	%xmm10, %xmm3
	movzbl	48(%r8), %eax
	movd	%eax, %xmm10
	movzbl	1598(%rsp), %eax
	punpcklbw	%xmm2, %xmm8
	movzbl	48(%rsp,%rax), %eax
	movd	%eax, %xmm11
	punpcklwd	%xmm3, %xmm8
	movzbl	48(%r15), %eax
	movd	%eax, %xmm3
	movzbl	1596(%rsp), %eax
	punpckldq	%xmm1, %xmm8
	movzbl	48(%rsp,%rax), %eax
	movd	%eax, %xmm2
	punpcklqdq	%xmm9, %xmm8
	movq	72(%rsp), %rax
	movzbl	48(%rax), %eax
	movd	%eax, %xmm9
	movzbl	1594(%rsp), %eax
	pand	%xmm6, %xmm8
	movzbl	48(%rsp,%rax), %eax
	movd	%eax, %xmm6
	punpcklbw	%xmm10, %xmm11
	movq	88(%rsp), %rax
	movzbl	48(%rax), %eax
	movd	%eax, %xmm10
	movzbl	1592(%rsp), %eax
	punpcklbw	%xmm3, %xmm2
	movzbl	48(%rsp,%rax), %eax
	movd	%eax, %xmm1
	punpcklwd	%xmm11, %xmm2
	movzbl	48(%rdi), %eax
	movd	%eax, %xmm3
	movzbl	1590(%rsp), %eax
	punpcklbw	%xmm9, %xmm6
	movzbl	48(%rsp,%rax), %eax
	movd	%eax, %xmm9
	punpcklbw	%xmm10, %xmm1
	movq	96(%rsp), %rax
	movzbl	48(%rax), %eax
	movd	%eax, %xmm10
	movzbl	1588(%rsp), %eax
	punpcklwd	%xmm6, %xmm1
	movzbl	48(%rsp,%rax), %eax
	movd	%eax, %xmm11
	punpckldq	%xmm2, %xmm1
	movq	80(%rsp), %rax
	movzbl	48(%rax), %eax
	movd	%eax, %xmm2
	movzbl	1586(%rsp), %eax
	punpcklbw	%xmm3, %xmm9
	movzbl	48(%rsp,%rax), %eax
	movd	%eax, %xmm3
	punpcklbw	%xmm10, %xmm11
	movq	104(%rsp), %rax
	movzbl	48(%rax), %eax
	movd	%eax, %xmm10
	punpcklwd	%xmm9, %xmm11
	movq	304(%rsp), %rax
	movzbl	48(%rsp,%rax), %eax
	movd	%eax, %xmm6
	punpcklbw	%xmm2, %xmm3
	punpcklbw	%xmm10, %xmm6
	punpcklwd	%xmm3, %xmm6
	punpckldq	%xmm11, %xmm6
	punpcklqdq	%xmm1, %xmm6
	pand	%xmm5, %xmm6
	movdqa	%xmm0, %xmm1
	psrldq	$14, %xmm1
	movdqa	480(%rsp), %xmm9
	movdqa	%xmm9, %xmm5
	pslldq	$2, %xmm5
	por	%xmm1, %xmm5
	movdqa	320(%rsp), %xmm13
	movdqa	%xmm13, %xmm2
	psrldq	$14, %xmm2
	movdqa	%xmm0, %xmm1
	pslldq	$2, %xmm1
	por	%xmm2, %xmm1
	movdqa	%xmm13, %xmm3
	pslldq	$2, %xmm3
	movdqa	448(%rsp), %xmm12
	movdqa	%xmm12, %xmm2
	psrldq	$14, %xmm2
	por	%xmm3, %xmm2
	movdqa	%xmm9, %xmm3
	movdqa	%xmm9, %xmm10
	psrldq	$14, %xmm3
	movdqa	496(%rsp), %xmm11
	movdqa	%xmm11, %xmm9
	pslldq	$2, %xmm9
	por	%xmm3, %xmm9
	movdqa	.LCPI2_4(%rip), %xmm3
	psubusb	%xmm3, %xmm9
	psubusb	%xmm3, %xmm2
	psubusb	%xmm3, %xmm1
	psubusb	%xmm3, %xmm5
	movdqa	%xmm0, %xmm3
	psrldq	$13, %xmm3
	movdqa	%xmm10, %xmm14
	pslldq	$3, %xmm14
	por	%xmm3, %xmm14
	movdqa	%xmm13, %xmm3
	psrldq	$13, %xmm3
	pslldq	$3, %xmm0
	por	%xmm3, %xmm0
	pslldq	$3, %xmm13
	psrldq	$13, %xmm12
	por	%xmm13, %xmm12
	psrldq	$13, %xmm10
	movdqa	%xmm11, %xmm3
	pslldq	$3, %xmm3
	por	%xmm10, %xmm3
	movdqa	.LCPI2_5(%rip), %xmm10
	psubusb	%xmm10, %xmm3
	por	%xmm9, %xmm3
	movdqa	%xmm12, %xmm9
	psubusb	%xmm10, %xmm9
	por	%xmm2, %xmm9
	psubusb	%xmm10, %xmm0
	por	%xmm1, %xmm0
	psubusb	%xmm10, %xmm14
	por	%xmm5, %xmm14
	movdqa	.LCPI2_6(%rip), %xmm1
	pand	%xmm1, %xmm3
	pxor	%xmm6, %xmm3
	pand	%xmm1, %xmm9
	pxor	%xmm8, %xmm9
	pand	%xmm1, %xmm0
	pxor	%xmm7, %xmm0
	pand	%xmm1, %xmm14
	pxor	%xmm4, %xmm14
	movdqa	%xmm11, %xmm1
	psubusb	.LCPI2_7(%rip), %xmm1
	por	%xmm3, %xmm1
	movdqa	%xmm0, %xmm2
.LBB2_13:
	por	816(%rsp), %xmm2
	por	512(%rsp), %xmm9
	por	%xmm2, %xmm9
	por	848(%rsp), %xmm14
	por	832(%rsp), %xmm1
	por	%xmm14, %xmm1
	por	%xmm9, %xmm1
	pxor	%xmm0, %xmm0
	pcmpeqb	%xmm1, %xmm0
	pmovmskb	%xmm0, %eax
	cmpl	$65535, %eax
	movq	864(%rsp), %rsi
	je	.LBB2_38
.LBB2_14:
	xorl	%ecx, %ecx
	jmp	.LBB2_16
	.p2align	4
.LBB2_15:
	por	816(%rsp), %xmm2
	por	848(%rsp), %xmm1
	por	%xmm2, %xmm1
	por	832(%rsp), %xmm11
	movdqa	288(%rsp), %xmm2
	por	512(%rsp), %xmm2
	por	%xmm11, %xmm2
	por	%xmm1, %xmm2
	pxor	%xmm0, %xmm0
	pcmpeqb	%xmm2, %xmm0
	pmovmskb	%xmm0, %eax
	cmpl	$65535, %eax
	movq	864(%rsp), %rsi
	movq	2064(%rsp), %rax
	movq	2056(%rsp), %rcx
	jne	.LBB2_35
.LBB2_16:
	movq	%rcx, %rax
	movq	872(%rsp), %rcx
	subq	%rax, %rcx
	movq	%rcx, 2048(%rsp)
	cmpq	$1025, %rcx
	jb	.LBB2_35
	leaq	1024(%rax), %r9
	xorl	%ecx, %ecx
	cmpb	$-64, 1024(%rsi,%rax)
	setl	%cl
	subq	%rcx, %r9
	xorl	%edx, %edx
	cmpb	$-64, (%rsi,%r9)
	setl	%dl
	subq	%rdx, %r9
	xorl	%edi, %edi
	cmpb	$-64, (%rsi,%r9)
	setl	%dil
	subq	%rdi, %r9
	movq	%rax, %r8
	addq	%rsi, %rax
	movq	%r9, 2056(%rsp)
	movq	%r8, 2064(%rsp)
	subq	%r8, %r9
	cmpq	$64, %r9
	jb	.LBB2_22
	negq	%rcx
	negq	%rdx
	negq	%rdi
	addq	%rcx, %rdx
	addq	%rdi, %rdx
	addq	$960, %rdx
	xorl	%ecx, %ecx
	movq	%rax, %rsi
	.p2align	4
.LBB2_19:
	movdqu	(%rsi), %xmm0
	movdqu	16(%rsi), %xmm1
	por	%xmm0, %xmm1
	movdqu	32(%rsi), %xmm0
	movdqu	48(%rsi), %xmm2
	por	%xmm0, %xmm2
	por	%xmm1, %xmm2
	pmovmskb	%xmm2, %edi
	testl	%edi, %edi
	jne	.LBB2_27
	addq	$64, %rcx
	leaq	-64(%rdx), %rdi
	addq	$64, %rsi
	addq	$-64, %r9
	cmpq	$63, %rdx
	movq	%rdi, %rdx
	ja	.LBB2_19
	addq	$64, %rdi
	movq	%rdi, %r9
	jmp	.LBB2_23
	.p2align	4
.LBB2_22:
	xorl	%ecx, %ecx
.LBB2_23:
	addq	%rcx, %rax
	pxor	%xmm0, %xmm0
	movdqa	%xmm0, 848(%rsp)
	xorl	%ecx, %ecx
	movq	%rax, %rsi
	movq	%r9, %rdx
	movdqa	%xmm0, 816(%rsp)
	movdqa	%xmm0, 832(%rsp)
	movdqa	%xmm0, 512(%rsp)
.LBB2_24:
	movdqa	%xmm0, 320(%rsp)
	movdqa	%xmm0, 352(%rsp)
	movdqa	%xmm0, 336(%rsp)
	movdqa	%xmm0, 288(%rsp)
	movdqa	%xmm0, 448(%rsp)
.LBB2_25:
	leaq	1968(%rsp), %rdi
	callq	simdutf8__last_block
	movdqa	1968(%rsp), %xmm5
	movdqa	1984(%rsp), %xmm0
	movdqa	2000(%rsp), %xmm4
	movdqa	2016(%rsp), %xmm3
	movdqa	%xmm0, %xmm1
	por	%xmm5, %xmm1
	movdqa	%xmm4, %xmm2
	por	%xmm3, %xmm2
	por	%xmm1, %xmm2
	pmovmskb	%xmm2, %eax
	testl	%eax, %eax
	movdqa	336(%rsp), %xmm11
	movdqa	320(%rsp), %xmm1
	movdqa	352(%rsp), %xmm2
	je	.LBB2_15
	movdqa	%xmm5, %xmm1
	pslldq	$1, %xmm1
	movdqa	448(%rsp), %xmm8
	psrldq	$15, %xmm8
	por	%xmm1, %xmm8
	movdqa	%xmm5, %xmm1
	psrldq	$15, %xmm1
	movdqa	%xmm0, %xmm7
	pslldq	$1, %xmm7
	por	%xmm1, %xmm7
	movdqa	%xmm0, %xmm1
	psrldq	$15, %xmm1
	movdqa	%xmm4, 480(%rsp)
	movdqa	%xmm4, %xmm6
	pslldq	$1, %xmm6
	por	%xmm1, %xmm6
	movdqa	%xmm4, %xmm1
	psrldq	$15, %xmm1
	movdqa	%xmm5, 320(%rsp)
	movdqa	%xmm3, %xmm5
	movdqa	%xmm3, 496(%rsp)
	pslldq	$1, %xmm5
	por	%xmm1, %xmm5
	movaps	.LCPI2_0(%rip), %xmm1
	movaps	%xmm1, 48(%rsp)
	movaps	%xmm1, 32(%rsp)
	movaps	%xmm1, 16(%rsp)
	movaps	%xmm1, (%rsp)
	movdqa	%xmm5, %xmm9
	psrlw	$4, %xmm9
	movdqa	.LCPI2_1(%rip), %xmm4
	movdqa	%xmm9, %xmm10
	pand	%xmm4, %xmm10
	movdqa	%xmm6, %xmm11
	psrlw	$4, %xmm11
	movdqa	%xmm11, %xmm12
	pand	%xmm4, %xmm12
	movdqa	%xmm8, %xmm2
	psrlw	$4, %xmm2
	movdqa	%xmm2, %xmm1
	pand	%xmm4, %xmm1
	movdqa	%xmm1, 1104(%rsp)
	movdqa	%xmm7, %xmm1
	psrlw	$4, %xmm1
	movzbl	1104(%rsp), %eax
	movq	%rax, 312(%rsp)
	movdqa	%xmm2, 1040(%rsp)
	movdqa	%xmm1, %xmm2
	pand	%xmm4, %xmm2
	movzbl	1041(%rsp), %eax
	movq	%rax, 104(%rsp)
	movzbl	1106(%rsp), %eax
	movq	%rax, 96(%rsp)
	movzbl	1043(%rsp), %eax
	movq	%rax, 248(%rsp)
	movzbl	1108(%rsp), %eax
	movq	%rax, 232(%rsp)
	movzbl	1045(%rsp), %r15d
	movzbl	1110(%rsp), %eax
	movq	%rax, 216(%rsp)
	movzbl	1047(%rsp), %ebx
	movzbl	1112(%rsp), %eax
	movq	%rax, 168(%rsp)
	movzbl	1049(%rsp), %edi
	movzbl	1114(%rsp), %eax
	movq	%rax, 200(%rsp)
	movzbl	1051(%rsp), %edx
	movzbl	1116(%rsp), %eax
	movq	%rax, 160(%rsp)
	movzbl	1053(%rsp), %ecx
	movzbl	1118(%rsp), %eax
	movq	%rax, 280(%rsp)
	movzbl	1055(%rsp), %eax
	movdqa	%xmm2, 976(%rsp)
	movzbl	976(%rsp), %esi
	movq	%rsi, 144(%rsp)
	movdqa	%xmm1, 944(%rsp)
	movzbl	945(%rsp), %esi
	movq	%rsi, 128(%rsp)
	movzbl	978(%rsp), %esi
	movq	%rsi, 192(%rsp)
	movzbl	947(%rsp), %esi
	movq	%rsi, 112(%rsp)
	movzbl	980(%rsp), %esi
	movq	%rsi, 464(%rsp)
	movzbl	949(%rsp), %esi
	movq	%rsi, 400(%rsp)
	movzbl	982(%rsp), %esi
	movq	%rsi, 272(%rsp)
	movzbl	951(%rsp), %esi
	movq	%rsi, 256(%rsp)
	movzbl	984(%rsp), %esi
	movq	%rsi, 80(%rsp)
	movzbl	953(%rsp), %r12d
	movzbl	986(%rsp), %esi
	movq	%rsi, 72(%rsp)
	movzbl	955(%rsp), %r14d
	movzbl	988(%rsp), %esi
	movq	%rsi, 384(%rsp)
	movzbl	957(%rsp), %r10d
	movzbl	990(%rsp), %esi
	movq	%rsi, 208(%rsp)
	movzbl	959(%rsp), %r9d
	movdqa	%xmm12, 1056(%rsp)
	movzbl	1056(%rsp), %esi
	movq	%rsi, 352(%rsp)
	movdqa	%xmm11, 1008(%rsp)
	movzbl	1009(%rsp), %esi
	movq	%rsi, 288(%rsp)
	movzbl	1058(%rsp), %esi
	movq	%rsi, 336(%rsp)
	movzbl	1011(%rsp), %esi
	movq	%rsi, 152(%rsp)
	movzbl	1060(%rsp), %esi
	movq	%rsi, 136(%rsp)
	movzbl	1013(%rsp), %esi
	movq	%rsi, 120(%rsp)
	movzbl	1062(%rsp), %esi
	movq	%rsi, 184(%rsp)
	movzbl	1015(%rsp), %esi
	movq	%rsi, 304(%rsp)
	movzbl	1064(%rsp), %esi
	movq	%rsi, 416(%rsp)
	movzbl	1017(%rsp), %esi
	movq	%rsi, 88(%rsp)
	movzbl	1066(%rsp), %esi
	movq	%rsi, 264(%rsp)
	movzbl	1019(%rsp), %esi
	movq	%rsi, 224(%rsp)
	movzbl	1068(%rsp), %esi
	movq	%rsi, 240(%rsp)
	movzbl	1021(%rsp), %r13d
	movzbl	1070(%rsp), %esi
	movq	%rsi, 176(%rsp)
	movzbl	1023(%rsp), %esi
	movdqa	%xmm10, 1120(%rsp)
	movzbl	1120(%rsp), %r8d
	movdqa	%xmm9, 1088(%rsp)
	movq	%rsp, %r11
	movzbl	1103(%rsp), %ebp
	orq	%r11, %rbp
	movzbl	48(%rbp), %ebp
	movd	%ebp, %xmm10
	movzbl	1134(%rsp), %ebp
	movzbl	48(%rsp,%rbp), %ebp
	movd	%ebp, %xmm2
	movzbl	1101(%rsp), %ebp
	orq	%r11, %rbp
	movzbl	48(%rbp), %ebp
	movd	%ebp, %xmm11
	movzbl	1132(%rsp), %ebp
	movzbl	48(%rsp,%rbp), %ebp
	movd	%ebp, %xmm1
	movzbl	1099(%rsp), %ebp
	orq	%r11, %rbp
	movzbl	48(%rbp), %ebp
	movd	%ebp, %xmm12
	movzbl	1130(%rsp), %ebp
	movzbl	48(%rsp,%rbp), %ebp
	movd	%ebp, %xmm9
	movzbl	1097(%rsp), %ebp
	orq	%r11, %rbp
	punpcklbw	%xmm10, %xmm2
	movzbl	48(%rbp), %ebp
	movd	%ebp, %xmm13
	punpcklbw	%xmm11, %xmm1
	movzbl	1128(%rsp), %ebp
	movzbl	48(%rsp,%rbp), %ebp
	movd	%ebp, %xmm10
	movzbl	1095(%rsp), %ebp
	orq	%r11, %rbp
	punpcklwd	%xmm2, %xmm1
	movzbl	48(%rbp), %ebp
	movd	%ebp, %xmm11
	punpcklbw	%xmm12, %xmm9
	movzbl	1126(%rsp), %ebp
	movzbl	48(%rsp,%rbp), %ebp
	movd	%ebp, %xmm12
	movzbl	1093(%rsp), %ebp
	orq	%r11, %rbp
	punpcklbw	%xmm13, %xmm10
	movzbl	48(%rbp), %ebp
	movd	%ebp, %xmm13
	punpcklwd	%xmm9, %xmm10
	movzbl	1124(%rsp), %ebp
	movzbl	48(%rsp,%rbp), %ebp
	movd	%ebp, %xmm2
	movzbl	1091(%rsp), %ebp
	orq	%r11, %rbp
	punpckldq	%xmm1, %xmm10
	movzbl	48(%rbp), %ebp
	movd	%ebp, %xmm1
	punpcklbw	%xmm11, %xmm12
	movzbl	1122(%rsp), %ebp
	movzbl	48(%rsp,%rbp), %ebp
	movd	%ebp, %xmm11
	movzbl	1089(%rsp), %ebp
	orq	%r11, %rbp
	punpcklbw	%xmm13, %xmm2
	movzbl	48(%rbp), %ebp
	movd	%ebp, %xmm13
	punpcklwd	%xmm12, %xmm2
	movzbl	48(%rsp,%r8), %r8d
	movd	%r8d, %xmm9
	orq	%r11, %rax
	punpcklbw	%xmm1, %xmm11
	movzbl	(%rax), %eax
	movd	%eax, %xmm12
	punpcklbw	%xmm13, %xmm9
	movq	280(%rsp), %rax
	movzbl	(%rsp,%rax), %eax
	movd	%eax, %xmm13
	orq	%r11, %rcx
	punpcklwd	%xmm11, %xmm9
	movzbl	(%rcx), %eax
	movd	%eax, %xmm11
	punpckldq	%xmm2, %xmm9
	movq	160(%rsp), %rax
	movzbl	(%rsp,%rax), %eax
	movd	%eax, %xmm1
	orq	%r11, %rdx
	punpcklqdq	%xmm10, %xmm9
	movzbl	(%rdx), %eax
	movd	%eax, %xmm2
	punpcklbw	%xmm12, %xmm13
	movq	200(%rsp), %rax
	movzbl	(%rsp,%rax), %eax
	movd	%eax, %xmm10
	orq	%r11, %rdi
	punpcklbw	%xmm11, %xmm1
	movzbl	(%rdi), %eax
	movd	%eax, %xmm12
	punpcklwd	%xmm13, %xmm1
	movq	168(%rsp), %rax
	movzbl	(%rsp,%rax), %eax
	movd	%eax, %xmm11
	orq	%r11, %rbx
	punpcklbw	%xmm2, %xmm10
	movzbl	(%rbx), %eax
	movd	%eax, %xmm2
	punpcklbw	%xmm12, %xmm11
	movq	216(%rsp), %rax
	movzbl	(%rsp,%rax), %eax
	movd	%eax, %xmm12
	orq	%r11, %r15
	punpcklwd	%xmm10, %xmm11
	movzbl	(%r15), %eax
	movd	%eax, %xmm10
	punpckldq	%xmm1, %xmm11
	movq	232(%rsp), %rax
	movzbl	(%rsp,%rax), %eax
	movd	%eax, %xmm1
	movq	248(%rsp), %rax
	orq	%r11, %rax
	punpcklbw	%xmm2, %xmm12
	movzbl	(%rax), %eax
	movd	%eax, %xmm2
	punpcklbw	%xmm10, %xmm1
	movq	96(%rsp), %rax
	movzbl	(%rsp,%rax), %eax
	movd	%eax, %xmm13
	movq	104(%rsp), %rax
	orq	%r11, %rax
	punpcklwd	%xmm12, %xmm1
	movzbl	(%rax), %eax
	movd	%eax, %xmm12
	punpcklbw	%xmm2, %xmm13
	movq	312(%rsp), %rax
	movzbl	(%rsp,%rax), %eax
	movd	%eax, %xmm10
	orq	%r11, %r9
	punpcklbw	%xmm12, %xmm10
	movzbl	16(%r9), %eax
	movd	%eax, %xmm12
	punpcklwd	%xmm13, %xmm10
	movq	208(%rsp), %rax
	movzbl	16(%rsp,%rax), %eax
	movd	%eax, %xmm13
	orq	%r11, %r10
	punpckldq	%xmm1, %xmm10
	movzbl	16(%r10), %eax
	movd	%eax, %xmm1
	punpcklqdq	%xmm11, %xmm10
	movq	384(%rsp), %rax
	movzbl	16(%rsp,%rax), %eax
	movd	%eax, %xmm2
	orq	%r11, %r14
	punpcklbw	%xmm12, %xmm13
	movzbl	16(%r14), %eax
	movd	%eax, %xmm11
	punpcklbw	%xmm1, %xmm2
	movq	72(%rsp), %rax
	movzbl	16(%rsp,%rax), %eax
	movd	%eax, %xmm12
	orq	%r11, %r12
	punpcklwd	%xmm13, %xmm2
	movzbl	16(%r12), %eax
	movd	%eax, %xmm13
	punpcklbw	%xmm11, %xmm12
	movq	80(%rsp), %rax
	movzbl	16(%rsp,%rax), %eax
	movd	%eax, %xmm1
	movq	256(%rsp), %rax
	orq	%r11, %rax
	punpcklbw	%xmm13, %xmm1
	movzbl	16(%rax), %eax
	movd	%eax, %xmm11
	punpcklwd	%xmm12, %xmm1
	movq	272(%rsp), %rax
	movzbl	16(%rsp,%rax), %eax
	movd	%eax, %xmm12
	movq	400(%rsp), %rax
	orq	%r11, %rax
	punpckldq	%xmm2, %xmm1
	movzbl	16(%rax), %eax
	movd	%eax, %xmm2
	punpcklbw	%xmm11, %xmm12
	movq	464(%rsp), %rax
	movzbl	16(%rsp,%rax), %eax
	movd	%eax, %xmm13
	movq	112(%rsp), %rax
	orq	%r11, %rax
	punpcklbw	%xmm2, %xmm13
	movzbl	16(%rax), %eax
	movd	%eax, %xmm2
	punpcklwd	%xmm12, %xmm13
	movq	192(%rsp), %rax
	movzbl	16(%rsp,%rax), %eax
	movd	%eax, %xmm12
	movq	128(%rsp), %rax
	orq	%r11, %rax
	punpcklbw	%xmm2, %xmm12
	movzbl	16(%rax), %eax
	movd	%eax, %xmm2
	movq	144(%rsp), %rax
	movzbl	16(%rsp,%rax), %eax
	movd	%eax, %xmm11
	punpcklbw	%xmm2, %xmm11
	orq	%r11, %rsi
	punpcklwd	%xmm12, %xmm11
	movzbl	32(%rsi), %eax
	movd	%eax, %xmm2
	punpckldq	%xmm13, %xmm11
	movq	176(%rsp), %rax
	movzbl	32(%rsp,%rax), %eax
	movd	%eax, %xmm12
	movq	88(%rsp), %rcx
	orq	%r11, %rcx
	movq	224(%rsp), %rdx
	orq	%r11, %rdx
	orq	%r11, %r13
	punpcklqdq	%xmm1, %xmm11
	punpcklbw	%xmm2, %xmm12
	movzbl	32(%r13), %eax
	movd	%eax, %xmm1
	movq	240(%rsp), %rax
	movzbl	32(%rsp,%rax), %eax
	movd	%eax, %xmm2
	punpcklbw	%xmm1, %xmm2
	punpcklwd	%xmm12, %xmm2
	movzbl	32(%rdx), %eax
	movd	%eax, %xmm1
	movq	264(%rsp), %rax
	movzbl	32(%rsp,%rax), %eax
	movd	%eax, %xmm13
	punpcklbw	%xmm1, %xmm13
	movzbl	32(%rcx), %eax
	movd	%eax, %xmm1
	movq	416(%rsp), %rax
	movzbl	32(%rsp,%rax), %eax
	movd	%eax, %xmm12
	punpcklbw	%xmm1, %xmm12
	movq	120(%rsp), %rcx
	orq	%r11, %rcx
	movq	304(%rsp), %rax
	orq	%r11, %rax
	punpcklwd	%xmm13, %xmm12
	punpckldq	%xmm2, %xmm12
	movzbl	32(%rax), %eax
	movd	%eax, %xmm1
	movq	184(%rsp), %rax
	movzbl	32(%rsp,%rax), %eax
	movd	%eax, %xmm2
	punpcklbw	%xmm1, %xmm2
	movzbl	32(%rcx), %eax
	movd	%eax, %xmm1
	movq	136(%rsp), %rax
	movzbl	32(%rsp,%rax), %eax
	movd	%eax, %xmm13
	punpcklbw	%xmm1, %xmm13
	movq	288(%rsp), %rax
	orq	%r11, %rax
	movq	152(%rsp), %rcx
	orq	%r11, %rcx
	punpcklwd	%xmm2, %xmm13
	movzbl	32(%rcx), %edx
	movq	336(%rsp), %rcx
	movzbl	32(%rsp,%rcx), %ecx
	movzbl	32(%rax), %r14d
	movq	352(%rsp), %rax
	movzbl	32(%rsp,%rax), %eax
	movaps	.LCPI2_2(%rip), %xmm1
	movaps	%xmm1, 48(%rsp)
	movaps	%xmm1, 32(%rsp)
	movaps	%xmm1, 16(%rsp)
	movaps	%xmm1, (%rsp)
	movd	%edx, %xmm14
	pand	%xmm4, %xmm8
	movdqa	%xmm8, 560(%rsp)
	movd	%ecx, %xmm8
	pand	%xmm4, %xmm7
	movzbl	560(%rsp), %ecx
	movq	%rcx, 88(%rsp)
	movzbl	561(%rsp), %ecx
	movq	%rcx, 240(%rsp)
	movzbl	562(%rsp), %ecx
	movq	%rcx, 72(%rsp)
	movzbl	563(%rsp), %ecx
	movq	%rcx, 176(%rsp)
	movzbl	564(%rsp), %ecx
	movq	%rcx, 168(%rsp)
	movzbl	565(%rsp), %ecx
	movq	%rcx, 200(%rsp)
	movzbl	566(%rsp), %ebp
	movzbl	567(%rsp), %r12d
	movzbl	568(%rsp), %ebx
	movzbl	569(%rsp), %r9d
	movzbl	570(%rsp), %r10d
	movzbl	571(%rsp), %edi
	movzbl	572(%rsp), %r8d
	movzbl	573(%rsp), %esi
	movzbl	574(%rsp), %edx
	movzbl	575(%rsp), %ecx
	movdqa	%xmm7, 528(%rsp)
	movd	%r14d, %xmm15
	pand	%xmm4, %xmm6
	movzbl	528(%rsp), %r14d
	movq	%r14, 192(%rsp)
	movzbl	529(%rsp), %r14d
	movq	%r14, 120(%rsp)
	movzbl	530(%rsp), %r14d
	movq	%r14, 312(%rsp)
	movzbl	531(%rsp), %r14d
	movq	%r14, 464(%rsp)
	movzbl	532(%rsp), %r14d
	movq	%r14, 104(%rsp)
	movzbl	533(%rsp), %r14d
	movq	%r14, 272(%rsp)
	movzbl	534(%rsp), %r14d
	movq	%r14, 256(%rsp)
	movzbl	535(%rsp), %r14d
	movq	%r14, 248(%rsp)
	movzbl	536(%rsp), %r14d
	movq	%r14, 224(%rsp)
	movzbl	537(%rsp), %r14d
	movq	%r14, 216(%rsp)
	movzbl	538(%rsp), %r14d
	movq	%r14, 384(%rsp)
	movzbl	539(%rsp), %r14d
	movq	%r14, 208(%rsp)
	movzbl	540(%rsp), %r14d
	movq	%r14, 160(%rsp)
	movzbl	541(%rsp), %r13d
	movzbl	542(%rsp), %r15d
	movzbl	543(%rsp), %r14d
	movdqa	%xmm6, 544(%rsp)
	movd	%eax, %xmm7
	pand	%xmm4, %xmm5
	movzbl	544(%rsp), %eax
	movq	%rax, 352(%rsp)
	movzbl	545(%rsp), %eax
	movq	%rax, 336(%rsp)
	movzbl	546(%rsp), %eax
	movq	%rax, 288(%rsp)
	movzbl	547(%rsp), %eax
	movq	%rax, 152(%rsp)
	movzbl	548(%rsp), %eax
	movq	%rax, 144(%rsp)
	movzbl	549(%rsp), %eax
	movq	%rax, 136(%rsp)
	movzbl	550(%rsp), %eax
	movq	%rax, 128(%rsp)
	movzbl	551(%rsp), %eax
	movq	%rax, 184(%rsp)
	movzbl	552(%rsp), %eax
	movq	%rax, 112(%rsp)
	movzbl	553(%rsp), %eax
	movq	%rax, 304(%rsp)
	movzbl	554(%rsp), %eax
	movq	%rax, 416(%rsp)
	movzbl	555(%rsp), %eax
	movq	%rax, 400(%rsp)
	movzbl	556(%rsp), %eax
	movq	%rax, 96(%rsp)
	movzbl	557(%rsp), %eax
	movq	%rax, 264(%rsp)
	movzbl	558(%rsp), %eax
	movq	%rax, 80(%rsp)
	movzbl	559(%rsp), %eax
	movq	%rax, 232(%rsp)
	movdqa	%xmm5, 576(%rsp)
	movzbl	591(%rsp), %eax
	movzbl	48(%rsp,%rax), %eax
	movd	%eax, %xmm5
	punpcklbw	%xmm14, %xmm8
	movzbl	590(%rsp), %eax
	movzbl	48(%rsp,%rax), %eax
	movd	%eax, %xmm2
	punpcklbw	%xmm15, %xmm7
	movzbl	589(%rsp), %eax
	movzbl	48(%rsp,%rax), %eax
	movd	%eax, %xmm6
	punpcklwd	%xmm8, %xmm7
	movzbl	588(%rsp), %eax
	movzbl	48(%rsp,%rax), %eax
	movd	%eax, %xmm1
	punpckldq	%xmm13, %xmm7
	movzbl	587(%rsp), %eax
	movzbl	48(%rsp,%rax), %eax
	movd	%eax, %xmm8
	punpcklqdq	%xmm12, %xmm7
	movzbl	586(%rsp), %eax
	movzbl	48(%rsp,%rax), %eax
	movd	%eax, %xmm12
	punpcklbw	%xmm5, %xmm2
	movzbl	585(%rsp), %eax
	movzbl	48(%rsp,%rax), %eax
	movd	%eax, %xmm5
	punpcklbw	%xmm6, %xmm1
	movzbl	584(%rsp), %eax
	movzbl	48(%rsp,%rax), %eax
	movd	%eax, %xmm6
	punpcklwd	%xmm2, %xmm1
	movzbl	583(%rsp), %eax
	movzbl	48(%rsp,%rax), %eax
	movd	%eax, %xmm13
	punpcklbw	%xmm8, %xmm12
	movzbl	582(%rsp), %eax
	movzbl	48(%rsp,%rax), %eax
	movd	%eax, %xmm8
	punpcklbw	%xmm5, %xmm6
	movzbl	581(%rsp), %eax
	movzbl	48(%rsp,%rax), %eax
	movd	%eax, %xmm5
	punpcklwd	%xmm12, %xmm6
	movzbl	580(%rsp), %eax
	movzbl	48(%rsp,%rax), %eax
	movd	%eax, %xmm2
	punpckldq	%xmm1, %xmm6
	movzbl	579(%rsp), %eax
	movzbl	48(%rsp,%rax), %eax
	movd	%eax, %xmm1
	punpcklbw	%xmm13, %xmm8
	movzbl	578(%rsp), %eax
	movzbl	48(%rsp,%rax), %eax
	movd	%eax, %xmm12
	punpcklbw	%xmm5, %xmm2
	movzbl	577(%rsp), %eax
	movzbl	48(%rsp,%rax), %eax
	movd	%eax, %xmm13
	punpcklwd	%xmm8, %xmm2
	movzbl	576(%rsp), %eax
	movzbl	48(%rsp,%rax), %eax
	movd	%eax, %xmm5
	punpcklbw	%xmm1, %xmm12
	movzbl	(%rsp,%rcx), %eax
	movd	%eax, %xmm1
	punpcklbw	%xmm13, %xmm5
	movzbl	(%rsp,%rdx), %eax
	movd	%eax, %xmm13
	punpcklwd	%xmm12, %xmm5
	movzbl	(%rsp,%rsi), %eax
	movd	%eax, %xmm8
	punpckldq	%xmm2, %xmm5
	movzbl	(%rsp,%r8), %eax
	movd	%eax, %xmm2
	punpcklqdq	%xmm6, %xmm5
	movzbl	(%rsp,%rdi), %eax
	movd	%eax, %xmm6
	pand	%xmm9, %xmm5
	movzbl	(%rsp,%r10), %eax
	movd	%eax, %xmm9
	punpcklbw	%xmm1, %xmm13
	movzbl	(%rsp,%r9), %eax
	movd	%eax, %xmm1
	punpcklbw	%xmm8, %xmm2
	movzbl	(%rsp,%rbx), %eax
	movd	%eax, %xmm8
	punpcklwd	%xmm13, %xmm2
	movzbl	(%rsp,%r12), %eax
	movd	%eax, %xmm12
	punpcklbw	%xmm6, %xmm9
	movzbl	(%rsp,%rbp), %eax
	movd	%eax, %xmm6
	punpcklbw	%xmm1, %xmm8
	movq	200(%rsp), %rax
	movzbl	(%rsp,%rax), %eax
	movd	%eax, %xmm13
	punpcklwd	%xmm9, %xmm8
	movq	168(%rsp), %rax
	movzbl	(%rsp,%rax), %eax
	movd	%eax, %xmm1
	punpckldq	%xmm2, %xmm8
	movq	176(%rsp), %rax
	movzbl	(%rsp,%rax), %eax
	movd	%eax, %xmm2
	punpcklbw	%xmm12, %xmm6
	movq	72(%rsp), %rax
	movzbl	(%rsp,%rax), %eax
	movd	%eax, %xmm9
	punpcklbw	%xmm13, %xmm1
	movq	240(%rsp), %rax
	movzbl	(%rsp,%rax), %eax
	movd	%eax, %xmm12
	punpcklwd	%xmm6, %xmm1
	movq	88(%rsp), %rax
	movzbl	(%rsp,%rax), %eax
	movd	%eax, %xmm6
	punpcklbw	%xmm2, %xmm9
	movzbl	16(%rsp,%r14), %eax
	movd	%eax, %xmm13
	punpcklbw	%xmm12, %xmm6
	movzbl	16(%rsp,%r15), %eax
	movd	%eax, %xmm12
	punpcklwd	%xmm9, %xmm6
	movzbl	16(%rsp,%r13), %eax
	movd	%eax, %xmm9
	punpckldq	%xmm1, %xmm6
	movq	160(%rsp), %rax
	movzbl	16(%rsp,%rax), %eax
	movd	%eax, %xmm2
	punpcklqdq	%xmm8, %xmm6
	movq	208(%rsp), %rax
	movzbl	16(%rsp,%rax), %eax
	movd	%eax, %xmm8
	pand	%xmm10, %xmm6
	movq	384(%rsp), %rax
	movzbl	16(%rsp,%rax), %eax
	movd	%eax, %xmm10
	punpcklbw	%xmm13, %xmm12
	movq	216(%rsp), %rax
	movzbl	16(%rsp,%rax), %eax
	movd	%eax, %xmm13
	punpcklbw	%xmm9, %xmm2
	movq	224(%rsp), %rax
	movzbl	16(%rsp,%rax), %eax
	movd	%eax, %xmm1
	punpcklwd	%xmm12, %xmm2
	movq	248(%rsp), %rax
	movzbl	16(%rsp,%rax), %eax
	movd	%eax, %xmm12
	punpcklbw	%xmm8, %xmm10
	movq	256(%rsp), %rax
	movzbl	16(%rsp,%rax), %eax
	movd	%eax, %xmm8
	punpcklbw	%xmm13, %xmm1
	movq	272(%rsp), %rax
	movzbl	16(%rsp,%rax), %eax
	movd	%eax, %xmm13
	punpcklwd	%xmm10, %xmm1
	movq	104(%rsp), %rax
	movzbl	16(%rsp,%rax), %eax
	movd	%eax, %xmm9
	punpckldq	%xmm2, %xmm1
	movq	464(%rsp), %rax
	movzbl	16(%rsp,%rax), %eax
	movd	%eax, %xmm2
	punpcklbw	%xmm12, %xmm8
	movq	312(%rsp), %rax
	movzbl	16(%rsp,%rax), %eax
	movd	%eax, %xmm10
	punpcklbw	%xmm13, %xmm9
	movq	120(%rsp), %rax
	movzbl	16(%rsp,%rax), %eax
	movd	%eax, %xmm12
	punpcklwd	%xmm8, %xmm9
	movq	192(%rsp), %rax
	movzbl	16(%rsp,%rax), %eax
	movd	%eax, %xmm8
	punpcklbw	%xmm2, %xmm10
	movq	232(%rsp), %rax
	movzbl	32(%rsp,%rax), %eax
	movd	%eax, %xmm2
	punpcklbw	%xmm12, %xmm8
	movq	80(%rsp), %rax
	movzbl	32(%rsp,%rax), %eax
	movd	%eax, %xmm12
	punpcklwd	%xmm10, %xmm8
	punpckldq	%xmm9, %xmm8
	punpcklqdq	%xmm1, %xmm8
	pand	%xmm11, %xmm8
	punpcklbw	%xmm2, %xmm12
	movq	264(%rsp), %rax
	movzbl	32(%rsp,%rax), %eax
	movd	%eax, %xmm1
	movq	96(%rsp), %rax
	movzbl	32(%rsp,%rax), %eax
	movd	%eax, %xmm2
	punpcklbw	%xmm1, %xmm2
	punpcklwd	%xmm12, %xmm2
	movq	400(%rsp), %rax
	movzbl	32(%rsp,%rax), %eax
	movd	%eax, %xmm1
	movq	416(%rsp), %rax
	movzbl	32(%rsp,%rax), %eax
	movd	%eax, %xmm10
	punpcklbw	%xmm1, %xmm10
	movq	304(%rsp), %rax
	movzbl	32(%rsp,%rax), %eax
	movd	%eax, %xmm1
	movq	112(%rsp), %rax
	movzbl	32(%rsp,%rax), %eax
	movd	%eax, %xmm9
	punpcklbw	%xmm1, %xmm9
	punpcklwd	%xmm10, %xmm9
	punpckldq	%xmm2, %xmm9
	movq	184(%rsp), %rax
	movzbl	32(%rsp,%rax), %eax
	movd	%eax, %xmm1
	movq	128(%rsp), %rax
	movzbl	32(%rsp,%rax), %eax
	movd	%eax, %xmm11
	punpcklbw	%xmm1, %xmm11
	movq	136(%rsp), %rax
	movzbl	32(%rsp,%rax), %eax
	movd	%eax, %xmm1
	movq	144(%rsp), %rax
	movzbl	32(%rsp,%rax), %eax
	movd	%eax, %xmm10
	punpcklbw	%xmm1, %xmm10
	movq	152(%rsp), %rax
	movzbl	32(%rsp,%rax), %ecx
	movq	288(%rsp), %rax
	movzbl	32(%rsp,%rax), %eax
	movq	336(%rsp), %rdx
	movzbl	32(%rsp,%rdx), %ebp
	movq	352(%rsp), %rdx
	movzbl	32(%rsp,%rdx), %edx
	movl	%edx, 104(%rsp)
	movaps	.LCPI2_3(%rip), %xmm1
	movaps	%xmm1, 48(%rsp)
	movaps	%xmm1, 32(%rsp)
	movaps	%xmm1, 16(%rsp)
	movaps	%xmm1, (%rsp)
	movdqa	%xmm3, %xmm12
	psrlw	$4, %xmm12
	movdqa	%xmm12, %xmm13
	pand	%xmm4, %xmm13
	movdqa	480(%rsp), %xmm15
	psrlw	$4, %xmm15
	movdqa	%xmm15, %xmm14
	pand	%xmm4, %xmm14
	movdqa	%xmm0, %xmm1
	psrlw	$4, %xmm1
	movdqa	%xmm1, %xmm2
	pand	%xmm4, %xmm2
	movdqa	320(%rsp), %xmm3
	psrlw	$4, %xmm3
	pand	%xmm3, %xmm4
	movdqa	%xmm4, 896(%rsp)
	movzbl	896(%rsp), %edx
	movq	%rdx, 192(%rsp)
	movdqa	%xmm3, 880(%rsp)
	movzbl	881(%rsp), %edx
	movq	%rdx, 336(%rsp)
	movzbl	898(%rsp), %edx
	movq	%rdx, 184(%rsp)
	movzbl	883(%rsp), %edx
	movq	%rdx, 288(%rsp)
	movzbl	900(%rsp), %edx
	movq	%rdx, 120(%rsp)
	movzbl	885(%rsp), %edx
	movq	%rdx, 352(%rsp)
	movzbl	902(%rsp), %edx
	movq	%rdx, 112(%rsp)
	movzbl	887(%rsp), %r15d
	movzbl	904(%rsp), %edx
	movq	%rdx, 312(%rsp)
	movzbl	889(%rsp), %edx
	movq	%rdx, 152(%rsp)
	movzbl	906(%rsp), %edx
	movq	%rdx, 464(%rsp)
	movzbl	891(%rsp), %edx
	movq	%rdx, 144(%rsp)
	movzbl	908(%rsp), %edx
	movq	%rdx, 416(%rsp)
	movzbl	893(%rsp), %r14d
	movzbl	910(%rsp), %edx
	movq	%rdx, 400(%rsp)
	movzbl	895(%rsp), %edx
	movq	%rdx, 136(%rsp)
	movdqa	%xmm2, 928(%rsp)
	movzbl	928(%rsp), %edx
	movq	%rdx, 272(%rsp)
	movdqa	%xmm1, 912(%rsp)
	movzbl	913(%rsp), %ebx
	movzbl	930(%rsp), %edx
	movq	%rdx, 264(%rsp)
	movzbl	915(%rsp), %r8d
	movzbl	932(%rsp), %esi
	movq	%rsi, 256(%rsp)
	movzbl	917(%rsp), %edi
	movzbl	934(%rsp), %esi
	movq	%rsi, 248(%rsp)
	movzbl	919(%rsp), %edx
	movq	%rdx, 128(%rsp)
	movzbl	936(%rsp), %esi
	movq	%rsi, 232(%rsp)
	movzbl	921(%rsp), %r12d
	movzbl	938(%rsp), %esi
	movq	%rsi, 224(%rsp)
	movzbl	923(%rsp), %edx
	movq	%rdx, 96(%rsp)
	movzbl	940(%rsp), %esi
	movq	%rsi, 176(%rsp)
	movzbl	925(%rsp), %edx
	movq	%rdx, 88(%rsp)
	movzbl	942(%rsp), %esi
	movq	%rsi, 384(%rsp)
	movzbl	927(%rsp), %edx
	movq	%rdx, 80(%rsp)
	movdqa	%xmm14, 992(%rsp)
	movd	%ecx, %xmm14
	movzbl	992(%rsp), %ecx
	movq	%rcx, 200(%rsp)
	movdqa	%xmm15, 960(%rsp)
	movd	%eax, %xmm4
	movzbl	961(%rsp), %eax
	movq	%rax, 72(%rsp)
	movzbl	994(%rsp), %eax
	movq	%rax, 280(%rsp)
	movzbl	963(%rsp), %esi
	movzbl	996(%rsp), %ecx
	movq	%rcx, 376(%rsp)
	movzbl	965(%rsp), %edx
	movzbl	998(%rsp), %ecx
	movq	%rcx, 440(%rsp)
	movzbl	967(%rsp), %r9d
	movzbl	1000(%rsp), %eax
	movq	%rax, 808(%rsp)
	movzbl	969(%rsp), %r13d
	movzbl	1002(%rsp), %eax
	movq	%rax, 800(%rsp)
	movzbl	971(%rsp), %r11d
	movzbl	1004(%rsp), %eax
	movq	%rax, 792(%rsp)
	movzbl	973(%rsp), %r10d
	movzbl	1006(%rsp), %eax
	movq	%rax, 784(%rsp)
	movzbl	975(%rsp), %ecx
	movdqa	%xmm13, 1072(%rsp)
	movd	%ebp, %xmm13
	movzbl	1072(%rsp), %ebp
	movq	%rbp, 304(%rsp)
	movdqa	%xmm12, 1024(%rsp)
	movd	104(%rsp), %xmm12
	movq	%rsp, %rax
	orq	%rax, 336(%rsp)
	orq	%rax, 288(%rsp)
	orq	%rax, 352(%rsp)
	orq	%rax, %r15
	movq	%r15, 240(%rsp)
	orq	%rax, 152(%rsp)
	orq	%rax, 144(%rsp)
	orq	%rax, %r14
	movq	%r14, 216(%rsp)
	orq	%rax, 136(%rsp)
	orq	%rax, %rbx
	movq	%rbx, 168(%rsp)
	orq	%rax, %r8
	movq	%r8, 208(%rsp)
	orq	%rax, %rdi
	movq	%rdi, 160(%rsp)
	orq	%rax, 128(%rsp)
	orq	%rax, %r12
	movq	%r12, 368(%rsp)
	movq	96(%rsp), %rbp
	orq	%rax, %rbp
	movq	88(%rsp), %r14
	orq	%rax, %r14
	movq	80(%rsp), %r12
	orq	%rax, %r12
	movq	72(%rsp), %rbx
	orq	%rax, %rbx
	orq	%rax, %rsi
	orq	%rax, %rdx
	orq	%rax, %r9
	orq	%rax, %r13
	orq	%rax, %r11
	orq	%rax, %r10
	orq	%rax, %rcx
	movzbl	1025(%rsp), %r8d
	orq	%rax, %r8
	movq	%r8, 104(%rsp)
	movzbl	1027(%rsp), %edi
	orq	%rax, %rdi
	movq	%rdi, 80(%rsp)
	movzbl	1029(%rsp), %r8d
	orq	%rax, %r8
	movq	%r8, 96(%rsp)
	movzbl	1031(%rsp), %edi
	orq	%rax, %rdi
	movzbl	1033(%rsp), %r8d
	orq	%rax, %r8
	movq	%r8, 88(%rsp)
	movzbl	1035(%rsp), %r8d
	orq	%rax, %r8
	movq	%r8, 72(%rsp)
	movzbl	1037(%rsp), %r15d
	orq	%rax, %r15
	movzbl	1039(%rsp), %r8d
	orq	%rax, %r8
	punpcklwd	%xmm11, %xmm10
	movzbl	32(%rcx), %eax
	movd	%eax, %xmm3
	punpcklbw	%xmm14, %xmm4
	movq	784(%rsp), %rax
	movzbl	32(%rsp,%rax), %eax
	movd	%eax, %xmm2
	punpcklbw	%xmm13, %xmm12
	movzbl	32(%r10), %eax
	movd	%eax, %xmm11
	punpcklwd	%xmm4, %xmm12
	movq	792(%rsp), %rax
	movzbl	32(%rsp,%rax), %eax
	movd	%eax, %xmm1
	punpckldq	%xmm10, %xmm12
	movzbl	32(%r11), %eax
	movd	%eax, %xmm4
	punpcklqdq	%xmm9, %xmm12
	movq	800(%rsp), %rax
	movzbl	32(%rsp,%rax), %eax
	movd	%eax, %xmm9
	pand	%xmm7, %xmm12
	movzbl	32(%r13), %eax
	movd	%eax, %xmm10
	punpcklbw	%xmm3, %xmm2
	movq	808(%rsp), %rax
	movzbl	32(%rsp,%rax), %eax
	movd	%eax, %xmm7
	punpcklbw	%xmm11, %xmm1
	movzbl	32(%r9), %eax
	movd	%eax, %xmm3
	punpcklwd	%xmm2, %xmm1
	movq	440(%rsp), %rax
	movzbl	32(%rsp,%rax), %eax
	movd	%eax, %xmm11
	punpcklbw	%xmm4, %xmm9
	movzbl	32(%rdx), %eax
	movd	%eax, %xmm4
	punpcklbw	%xmm10, %xmm7
	movq	376(%rsp), %rax
	movzbl	32(%rsp,%rax), %eax
	movd	%eax, %xmm2
	punpcklwd	%xmm9, %xmm7
	movzbl	32(%rsi), %eax
	movd	%eax, %xmm9
	punpckldq	%xmm1, %xmm7
	movq	280(%rsp), %rax
	movzbl	32(%rsp,%rax), %eax
	movd	%eax, %xmm1
	punpcklbw	%xmm3, %xmm11
	movzbl	32(%rbx), %eax
	movd	%eax, %xmm3
	punpcklbw	%xmm4, %xmm2
	movq	200(%rsp), %rax
	movzbl	32(%rsp,%rax), %eax
	movd	%eax, %xmm4
	punpcklwd	%xmm11, %xmm2
	movzbl	16(%r12), %eax
	movd	%eax, %xmm11
	punpcklbw	%xmm9, %xmm1
	movq	384(%rsp), %rax
	movzbl	16(%rsp,%rax), %eax
	movd	%eax, %xmm10
	punpcklbw	%xmm3, %xmm4
	movzbl	16(%r14), %eax
	movd	%eax, %xmm3
	punpcklwd	%xmm1, %xmm4
	movq	176(%rsp), %rax
	movzbl	16(%rsp,%rax), %eax
	movd	%eax, %xmm1
	punpckldq	%xmm2, %xmm4
	movzbl	16(%rbp), %eax
	movd	%eax, %xmm2
	punpcklqdq	%xmm7, %xmm4
	movq	224(%rsp), %rax
	movzbl	16(%rsp,%rax), %eax
	movd	%eax, %xmm7
	pand	%xmm12, %xmm4
	movq	368(%rsp), %rax
	movzbl	16(%rax), %eax
	movd	%eax, %xmm12
	punpcklbw	%xmm11, %xmm10
	movq	232(%rsp), %rax
	movzbl	16(%rsp,%rax), %eax
	movd	%eax, %xmm9
	punpcklbw	%xmm3, %xmm1
	movq	128(%rsp), %rax
	movzbl	16(%rax), %eax
	movd	%eax, %xmm3
	punpcklwd	%xmm10, %xmm1
	movq	248(%rsp), %rax
	movzbl	16(%rsp,%rax), %eax
	movd	%eax, %xmm10
	punpcklbw	%xmm2, %xmm7
	movq	160(%rsp), %rax
	movzbl	16(%rax), %eax
	movd	%eax, %xmm11
	punpcklbw	%xmm12, %xmm9
	movq	256(%rsp), %rax
	movzbl	16(%rsp,%rax), %eax
	movd	%eax, %xmm2
	punpcklwd	%xmm7, %xmm9
	movq	208(%rsp), %rax
	movzbl	16(%rax), %eax
	movd	%eax, %xmm12
	punpckldq	%xmm1, %xmm9
	movq	264(%rsp), %rax
	movzbl	16(%rsp,%rax), %eax
	movd	%eax, %xmm13
	punpcklbw	%xmm3, %xmm10
	movq	168(%rsp), %rax
	movzbl	16(%rax), %eax
	movd	%eax, %xmm3
	punpcklbw	%xmm11, %xmm2
	movq	272(%rsp), %rax
	movzbl	16(%rsp,%rax), %eax
	movd	%eax, %xmm7
	punpcklwd	%xmm10, %xmm2
	movq	136(%rsp), %rax
	movzbl	(%rax), %eax
	movd	%eax, %xmm11
	punpcklbw	%xmm12, %xmm13
	movq	400(%rsp), %rax
	movzbl	(%rsp,%rax), %eax
	movd	%eax, %xmm1
	punpcklbw	%xmm3, %xmm7
	movq	216(%rsp), %rax
	movzbl	(%rax), %eax
	movd	%eax, %xmm3
	punpcklwd	%xmm13, %xmm7
	movq	416(%rsp), %rax
	movzbl	(%rsp,%rax), %eax
	movd	%eax, %xmm10
	punpckldq	%xmm2, %xmm7
	movq	144(%rsp), %rax
	movzbl	(%rax), %eax
	movd	%eax, %xmm2
	punpcklqdq	%xmm9, %xmm7
	movq	464(%rsp), %rax
	movzbl	(%rsp,%rax), %eax
	movd	%eax, %xmm12
	pand	%xmm8, %xmm7
	movq	152(%rsp), %rax
	movzbl	(%rax), %eax
	movd	%eax, %xmm8
	punpcklbw	%xmm11, %xmm1
	movq	312(%rsp), %rax
	movzbl	(%rsp,%rax), %eax
	movd	%eax, %xmm9
	punpcklbw	%xmm3, %xmm10
	movq	240(%rsp), %rax
	movzbl	(%rax), %eax
	movd	%eax, %xmm3
	punpcklwd	%xmm1, %xmm10
	movq	112(%rsp), %rax
	movzbl	(%rsp,%rax), %eax
	movd	%eax, %xmm11
	punpcklbw	%xmm2, %xmm12
	punpcklbw	%xmm8, %xmm9
	movq	352(%rsp), %rax
	movzbl	(%rax), %eax
	movd	%eax, %xmm2
	punpcklwd	%xmm12, %xmm9
	movq	120(%rsp), %rax
	movzbl	(%rsp,%rax), %eax
	movd	%eax, %xmm1
	punpckldq	%xmm10, %xmm9
	movq	288(%rsp), %rax
	movzbl	(%rax), %eax
	movd	%eax, %xmm10
	punpcklbw	%xmm3, %xmm11
	movq	184(%rsp), %rax
	movzbl	(%rsp,%rax), %eax
	movd	%eax, %xmm3
	punpcklbw	%xmm2, %xmm1
	movq	336(%rsp), %rax
	movzbl	(%rax), %eax
	movd	%eax, %xmm2
	punpcklwd	%xmm11, %xmm1
	movq	192(%rsp), %rax
	movzbl	(%rsp,%rax), %eax
	movd	%eax, %xmm8
	punpcklbw	%xmm10, %xmm3
	movzbl	48(%r8), %eax
	movd	%eax, %xmm10
	movzbl	1086(%rsp), %eax
	punpcklbw	%xmm2, %xmm8
	movzbl	48(%rsp,%rax), %eax
	movd	%eax, %xmm11
	punpcklwd	%xmm3, %xmm8
	movzbl	48(%r15), %eax
	movd	%eax, %xmm3
	movzbl	1084(%rsp), %eax
	punpckldq	%xmm1, %xmm8
	movzbl	48(%rsp,%rax), %eax
	movd	%eax, %xmm2
	punpcklqdq	%xmm9, %xmm8
	movq	72(%rsp), %rax
	movzbl	48(%rax), %eax
	movd	%eax, %xmm9
	movzbl	1082(%rsp), %eax
	pand	%xmm6, %xmm8
	movzbl	48(%rsp,%rax), %eax
	movd	%eax, %xmm6
	punpcklbw	%xmm10, %xmm11
	movq	88(%rsp), %rax
	movzbl	48(%rax), %eax
	movd	%eax, %xmm10
	movzbl	1080(%rsp), %eax
	punpcklbw	%xmm3, %xmm2
	movzbl	48(%rsp,%rax), %eax
	movd	%eax, %xmm1
	punpcklwd	%xmm11, %xmm2
	movzbl	48(%rdi), %eax
	movd	%eax, %xmm3
	movzbl	1078(%rsp), %eax
	punpcklbw	%xmm9, %xmm6
	movzbl	48(%rsp,%rax), %eax
	movd	%eax, %xmm9
	punpcklbw	%xmm10, %xmm1
	movq	96(%rsp), %rax
	movzbl	48(%rax), %eax
	movd	%eax, %xmm10
	movzbl	1076(%rsp), %eax
	punpcklwd	%xmm6, %xmm1
	movzbl	48(%rsp,%rax), %eax
	movd	%eax, %xmm11
	punpckldq	%xmm2, %xmm1
	movq	80(%rsp), %rax
	movzbl	48(%rax), %eax
	movd	%eax, %xmm2
	movzbl	1074(%rsp), %eax
	punpcklbw	%xmm3, %xmm9
	movzbl	48(%rsp,%rax), %eax
	movd	%eax, %xmm3
	punpcklbw	%xmm10, %xmm11
	movq	104(%rsp), %rax
	movzbl	48(%rax), %eax
	movd	%eax, %xmm10
	punpcklwd	%xmm9, %xmm11
	movq	304(%rsp), %rax
	movzbl	48(%rsp,%rax), %eax
	movd	%eax, %xmm6
	punpcklbw	%xmm2, %xmm3
	punpcklbw	%xmm10, %xmm6
	punpcklwd	%xmm3, %xmm6
	punpckldq	%xmm11, %xmm6
	punpcklqdq	%xmm1, %xmm6
	pand	%xmm5, %xmm6
	movdqa	%xmm0, %xmm1
	psrldq	$14, %xmm1
	movdqa	480(%rsp), %xmm10
	movdqa	%xmm10, %xmm5
	pslldq	$2, %xmm5
	por	%xmm1, %xmm5
	movdqa	320(%rsp), %xmm14
	movdqa	%xmm14, %xmm2
	psrldq	$14, %xmm2
	movdqa	%xmm0, %xmm1
	pslldq	$2, %xmm1
	por	%xmm2, %xmm1
	movdqa	%xmm14, %xmm3
	pslldq	$2, %xmm3
	movdqa	448(%rsp), %xmm13
	movdqa	%xmm13, %xmm2
	psrldq	$14, %xmm2
	por	%xmm3, %xmm2
	movdqa	%xmm10, %xmm3
	psrldq	$14, %xmm3
	movdqa	496(%rsp), %xmm12
	movdqa	%xmm12, %xmm9
	pslldq	$2, %xmm9
	por	%xmm3, %xmm9
	movdqa	.LCPI2_4(%rip), %xmm3
	psubusb	%xmm3, %xmm9
	psubusb	%xmm3, %xmm2
	psubusb	%xmm3, %xmm1
	psubusb	%xmm3, %xmm5
	movdqa	%xmm0, %xmm3
	psrldq	$13, %xmm3
	movdqa	%xmm10, %xmm11
	pslldq	$3, %xmm11
	por	%xmm3, %xmm11
	movdqa	%xmm14, %xmm3
	psrldq	$13, %xmm3
	pslldq	$3, %xmm0
	por	%xmm3, %xmm0
	pslldq	$3, %xmm14
	psrldq	$13, %xmm13
	por	%xmm14, %xmm13
	psrldq	$13, %xmm10
	movdqa	%xmm12, %xmm3
	pslldq	$3, %xmm3
	por	%xmm10, %xmm3
	movdqa	.LCPI2_5(%rip), %xmm10
	psubusb	%xmm10, %xmm3
	por	%xmm9, %xmm3
	movdqa	%xmm13, %xmm9
	psubusb	%xmm10, %xmm9
	por	%xmm2, %xmm9
	movdqa	%xmm9, %xmm2
	psubusb	%xmm10, %xmm0
	por	%xmm1, %xmm0
	psubusb	%xmm10, %xmm11
	por	%xmm5, %xmm11
	movdqa	.LCPI2_6(%rip), %xmm1
	pand	%xmm1, %xmm3
	pxor	%xmm6, %xmm3
	pand	%xmm1, %xmm2
	pxor	%xmm8, %xmm2
	pand	%xmm1, %xmm0
	pxor	%xmm7, %xmm0
	pand	%xmm1, %xmm11
	pxor	%xmm4, %xmm11
	movdqa	%xmm12, %xmm1
	psubusb	.LCPI2_7(%rip), %xmm1
	por	%xmm3, %xmm1
	movdqa	%xmm1, %xmm3
	movdqa	%xmm2, %xmm1
	movdqa	%xmm0, %xmm2
	movdqa	%xmm3, 288(%rsp)
	jmp	.LBB2_15
	.p2align	4
.LBB2_27:
	pxor	%xmm0, %xmm0
	movdqa	%xmm0, 2016(%rsp)
	movdqa	%xmm0, 2000(%rsp)
	movdqa	%xmm0, 1984(%rsp)
	movdqa	%xmm0, 1968(%rsp)
	addq	$64, %rdx
	cmpq	$64, %rdx
	jb	.LBB2_33
	pxor	%xmm15, %xmm15
	xorl	%ecx, %ecx
	pxor	%xmm6, %xmm6
	pxor	%xmm3, %xmm3
	pxor	%xmm2, %xmm2
	pxor	%xmm7, %xmm7
	pxor	%xmm9, %xmm9
	pxor	%xmm8, %xmm8
	pxor	%xmm5, %xmm5
	movq	%rdx, 1920(%rsp)
	movq	%rsi, 1912(%rsp)
	jmp	.LBB2_31
	.p2align	4
.LBB2_29:
	movdqa	%xmm10, %xmm0
	pslldq	$1, %xmm0
	movdqa	%xmm5, 512(%rsp)
	movdqa	%xmm15, %xmm5
	psrldq	$15, %xmm5
	por	%xmm0, %xmm5
	movdqa	%xmm10, %xmm0
	psrldq	$15, %xmm0
	movdqa	%xmm13, 352(%rsp)
	movdqa	%xmm15, 464(%rsp)
	movdqa	352(%rsp), %xmm15
	pslldq	$1, %xmm15
	por	%xmm0, %xmm15
	movdqa	352(%rsp), %xmm0
	psrldq	$15, %xmm0
	movdqa	%xmm12, %xmm1
	pslldq	$1, %xmm1
	por	%xmm0, %xmm1
	movdqa	%xmm1, 480(%rsp)
	movdqa	%xmm12, %xmm0
	psrldq	$15, %xmm0
	movdqa	%xmm11, %xmm6
	pslldq	$1, %xmm6
	por	%xmm0, %xmm6
	movdqa	%xmm6, 288(%rsp)
	movaps	.LCPI2_0(%rip), %xmm0
	movaps	%xmm0, 48(%rsp)
	movaps	%xmm0, 32(%rsp)
	movaps	%xmm0, 16(%rsp)
	movaps	%xmm0, (%rsp)
	psrlw	$4, %xmm6
	movdqa	.LCPI2_1(%rip), %xmm3
	movdqa	%xmm7, 848(%rsp)
	movdqa	%xmm6, %xmm7
	pand	%xmm3, %xmm7
	movdqa	%xmm1, %xmm0
	psrlw	$4, %xmm0
	movdqa	%xmm8, 832(%rsp)
	movdqa	%xmm0, %xmm8
	pand	%xmm3, %xmm8
	movdqa	%xmm9, 816(%rsp)
	movdqa	%xmm15, %xmm9
	psrlw	$4, %xmm9
	movdqa	%xmm10, 320(%rsp)
	movdqa	%xmm9, %xmm10
	pand	%xmm3, %xmm10
	movdqa	%xmm5, %xmm1
	psrlw	$4, %xmm1
	movdqa	%xmm1, %xmm2
	pand	%xmm3, %xmm2
	movdqa	%xmm2, 1360(%rsp)
	movzbl	1360(%rsp), %eax
	movq	%rax, 400(%rsp)
	movdqa	%xmm1, 1296(%rsp)
	movzbl	1297(%rsp), %eax
	movq	%rax, 248(%rsp)
	movq	%rsp, %r10
	movzbl	1362(%rsp), %eax
	movq	%rax, 240(%rsp)
	movzbl	1299(%rsp), %eax
	movq	%rax, 176(%rsp)
	movzbl	1364(%rsp), %eax
	movq	%rax, 384(%rsp)
	movq	%r9, 312(%rsp)
	movzbl	1301(%rsp), %r9d
	movzbl	1366(%rsp), %eax
	movq	%rax, 200(%rsp)
	movzbl	1303(%rsp), %edi
	movzbl	1368(%rsp), %eax
	movq	%rax, 336(%rsp)
	movzbl	1305(%rsp), %r15d
	movzbl	1370(%rsp), %eax
	movq	%rax, 448(%rsp)
	movzbl	1307(%rsp), %ebx
	movzbl	1372(%rsp), %eax
	movq	%rax, 368(%rsp)
	movq	%rcx, 304(%rsp)
	movzbl	1311(%rsp), %ecx
	orq	%r10, %rcx
	movzbl	1309(%rsp), %r8d
	movzbl	1374(%rsp), %eax
	movq	%rax, 440(%rsp)
	movdqa	%xmm10, 1232(%rsp)
	movzbl	1232(%rsp), %eax
	movq	%rax, 496(%rsp)
	movdqa	%xmm9, 1200(%rsp)
	movzbl	1201(%rsp), %eax
	movq	%rax, 184(%rsp)
	movzbl	1234(%rsp), %eax
	movq	%rax, 120(%rsp)
	movzbl	1203(%rsp), %eax
	movq	%rax, 416(%rsp)
	movzbl	1236(%rsp), %eax
	movq	%rax, 104(%rsp)
	movzbl	1205(%rsp), %eax
	movq	%rax, 256(%rsp)
	movzbl	1238(%rsp), %eax
	movq	%rax, 80(%rsp)
	movzbl	1207(%rsp), %eax
	movq	%rax, 216(%rsp)
	movzbl	1240(%rsp), %eax
	movq	%rax, 168(%rsp)
	movzbl	1209(%rsp), %r11d
	movzbl	1242(%rsp), %eax
	movq	%rax, 160(%rsp)
	movzbl	1211(%rsp), %ebp
	movzbl	1244(%rsp), %eax
	movq	%rax, 280(%rsp)
	movzbl	1213(%rsp), %r14d
	movzbl	1246(%rsp), %eax
	movq	%rax, 376(%rsp)
	movzbl	1215(%rsp), %r12d
	movdqa	%xmm8, 1312(%rsp)
	movzbl	1312(%rsp), %eax
	movq	%rax, 144(%rsp)
	movdqa	%xmm0, 1264(%rsp)
	movzbl	1265(%rsp), %r13d
	movzbl	1314(%rsp), %eax
	movq	%rax, 136(%rsp)
	movzbl	1267(%rsp), %eax
	movq	%rax, 272(%rsp)
	movzbl	1316(%rsp), %eax
	movq	%rax, 128(%rsp)
	movzbl	1269(%rsp), %eax
	movq	%rax, 264(%rsp)
	movzbl	1318(%rsp), %eax
	movq	%rax, 192(%rsp)
	movzbl	1271(%rsp), %eax
	movq	%rax, 88(%rsp)
	movzbl	1320(%rsp), %eax
	movq	%rax, 112(%rsp)
	movzbl	1273(%rsp), %eax
	movq	%rax, 232(%rsp)
	movzbl	1322(%rsp), %eax
	movq	%rax, 96(%rsp)
	movzbl	1275(%rsp), %eax
	movq	%rax, 224(%rsp)
	movzbl	1324(%rsp), %eax
	movq	%rax, 72(%rsp)
	movzbl	1277(%rsp), %esi
	movzbl	1326(%rsp), %eax
	movq	%rax, 208(%rsp)
	movzbl	1279(%rsp), %eax
	movdqa	%xmm7, 1376(%rsp)
	movzbl	1376(%rsp), %edx
	movq	%rdx, 152(%rsp)
	movdqa	%xmm6, 1344(%rsp)
	movzbl	(%rcx), %ecx
	movd	%ecx, %xmm0
	movq	440(%rsp), %rcx
	movzbl	(%rsp,%rcx), %ecx
	movd	%ecx, %xmm7
	orq	%r10, %r8
	movzbl	(%r8), %ecx
	movd	%ecx, %xmm10
	movq	368(%rsp), %rcx
	movzbl	(%rsp,%rcx), %ecx
	movd	%ecx, %xmm8
	orq	%r10, %rbx
	movzbl	(%rbx), %ecx
	movd	%ecx, %xmm3
	movq	448(%rsp), %rcx
	movzbl	(%rsp,%rcx), %ecx
	movdqa	%xmm11, 448(%rsp)
	movd	%ecx, %xmm11
	orq	%r10, %r15
	movzbl	(%r15), %ecx
	movd	%ecx, %xmm2
	movq	336(%rsp), %rcx
	movzbl	(%rsp,%rcx), %ecx
	movd	%ecx, %xmm6
	orq	%r10, %rdi
	movzbl	(%rdi), %ecx
	movdqa	%xmm12, 336(%rsp)
	movd	%ecx, %xmm12
	movq	200(%rsp), %rcx
	movzbl	(%rsp,%rcx), %ecx
	movd	%ecx, %xmm9
	orq	%r10, %r9
	punpcklbw	%xmm0, %xmm7
	movzbl	(%r9), %ecx
	movd	%ecx, %xmm1
	punpcklbw	%xmm10, %xmm8
	movq	384(%rsp), %rcx
	movzbl	(%rsp,%rcx), %ecx
	movd	%ecx, %xmm0
	movq	176(%rsp), %rcx
	orq	%r10, %rcx
	punpcklwd	%xmm7, %xmm8
	movzbl	(%rcx), %ecx
	movd	%ecx, %xmm13
	punpcklbw	%xmm3, %xmm11
	movq	240(%rsp), %rcx
	movzbl	(%rsp,%rcx), %ecx
	movd	%ecx, %xmm10
	movq	248(%rsp), %rcx
	orq	%r10, %rcx
	punpcklbw	%xmm2, %xmm6
	movzbl	(%rcx), %ecx
	movd	%ecx, %xmm3
	punpcklwd	%xmm11, %xmm6
	movq	400(%rsp), %rcx
	movzbl	(%rsp,%rcx), %ecx
	movd	%ecx, %xmm7
	orq	%r10, %r12
	punpckldq	%xmm8, %xmm6
	movzbl	16(%r12), %ecx
	movd	%ecx, %xmm11
	punpcklbw	%xmm12, %xmm9
	movq	376(%rsp), %rcx
	movzbl	16(%rsp,%rcx), %ecx
	movd	%ecx, %xmm8
	orq	%r10, %r14
	punpcklbw	%xmm1, %xmm0
	movzbl	16(%r14), %ecx
	movd	%ecx, %xmm2
	punpcklwd	%xmm9, %xmm0
	movq	280(%rsp), %rcx
	movzbl	16(%rsp,%rcx), %ecx
	movd	%ecx, %xmm9
	orq	%r10, %rbp
	punpcklbw	%xmm13, %xmm10
	movzbl	16(%rbp), %ecx
	movd	%ecx, %xmm14
	punpcklbw	%xmm3, %xmm7
	movq	160(%rsp), %rcx
	movzbl	16(%rsp,%rcx), %ecx
	movd	%ecx, %xmm13
	orq	%r10, %r11
	punpcklwd	%xmm10, %xmm7
	movzbl	16(%r11), %ecx
	movd	%ecx, %xmm10
	punpckldq	%xmm0, %xmm7
	movq	168(%rsp), %rcx
	movzbl	16(%rsp,%rcx), %ecx
	movd	%ecx, %xmm0
	movq	216(%rsp), %rcx
	orq	%r10, %rcx
	punpcklqdq	%xmm6, %xmm7
	movzbl	16(%rcx), %ecx
	movd	%ecx, %xmm1
	punpcklbw	%xmm11, %xmm8
	movq	80(%rsp), %rcx
	movzbl	16(%rsp,%rcx), %ecx
	movd	%ecx, %xmm12
	movq	256(%rsp), %rcx
	orq	%r10, %rcx
	punpcklbw	%xmm2, %xmm9
	movzbl	16(%rcx), %ecx
	movd	%ecx, %xmm3
	punpcklwd	%xmm8, %xmm9
	movq	104(%rsp), %rcx
	movzbl	16(%rsp,%rcx), %ecx
	movd	%ecx, %xmm8
	movq	416(%rsp), %rcx
	orq	%r10, %rcx
	punpcklbw	%xmm14, %xmm13
	movzbl	16(%rcx), %ecx
	movd	%ecx, %xmm4
	punpcklbw	%xmm10, %xmm0
	movq	120(%rsp), %rcx
	movzbl	16(%rsp,%rcx), %ecx
	movd	%ecx, %xmm11
	movq	184(%rsp), %rcx
	orq	%r10, %rcx
	punpcklwd	%xmm13, %xmm0
	movzbl	16(%rcx), %ecx
	movd	%ecx, %xmm2
	punpckldq	%xmm9, %xmm0
	movq	496(%rsp), %rcx
	movzbl	16(%rsp,%rcx), %ecx
	movd	%ecx, %xmm6
	orq	%r10, %rax
	punpcklbw	%xmm1, %xmm12
	movzbl	32(%rax), %eax
	movd	%eax, %xmm14
	punpcklbw	%xmm3, %xmm8
	movq	208(%rsp), %rax
	movzbl	32(%rsp,%rax), %eax
	movd	%eax, %xmm10
	orq	%r10, %rsi
	punpcklwd	%xmm12, %xmm8
	movzbl	32(%rsi), %eax
	movd	%eax, %xmm13
	orq	%r10, %r13
	movq	272(%rsp), %rdi
	orq	%r10, %rdi
	movq	264(%rsp), %rbx
	orq	%r10, %rbx
	movq	88(%rsp), %r11
	orq	%r10, %r11
	movq	232(%rsp), %rsi
	orq	%r10, %rsi
	movq	224(%rsp), %rcx
	orq	%r10, %rcx
	punpcklbw	%xmm4, %xmm11
	movq	72(%rsp), %rax
	movzbl	32(%rsp,%rax), %eax
	movd	%eax, %xmm9
	movzbl	1345(%rsp), %eax
	orq	%r10, %rax
	punpcklbw	%xmm2, %xmm6
	movzbl	32(%rcx), %ecx
	movd	%ecx, %xmm1
	movzbl	1378(%rsp), %ecx
	punpcklwd	%xmm11, %xmm6
	movq	96(%rsp), %rdx
	movzbl	32(%rsp,%rdx), %edx
	movd	%edx, %xmm12
	movzbl	1347(%rsp), %r8d
	orq	%r10, %r8
	punpckldq	%xmm8, %xmm6
	movzbl	32(%rsi), %edx
	movd	%edx, %xmm2
	movzbl	1380(%rsp), %edx
	punpcklqdq	%xmm0, %xmm6
	movq	112(%rsp), %rsi
	movzbl	32(%rsp,%rsi), %esi
	movd	%esi, %xmm0
	movzbl	1349(%rsp), %r9d
	orq	%r10, %r9
	punpcklbw	%xmm14, %xmm10
	movzbl	32(%r11), %esi
	movd	%esi, %xmm3
	movzbl	1382(%rsp), %r12d
	punpcklbw	%xmm13, %xmm9
	movq	192(%rsp), %rsi
	movzbl	32(%rsp,%rsi), %esi
	movd	%esi, %xmm11
	movzbl	1351(%rsp), %r11d
	orq	%r10, %r11
	punpcklwd	%xmm10, %xmm9
	movzbl	32(%rbx), %esi
	movd	%esi, %xmm4
	movzbl	1384(%rsp), %esi
	punpcklbw	%xmm1, %xmm12
	movq	128(%rsp), %rbx
	movzbl	32(%rsp,%rbx), %ebx
	movd	%ebx, %xmm10
	movzbl	1353(%rsp), %ebx
	orq	%r10, %rbx
	punpcklbw	%xmm2, %xmm0
	movzbl	32(%rdi), %ebp
	movd	%ebp, %xmm1
	movzbl	1386(%rsp), %r14d
	punpcklwd	%xmm12, %xmm0
	movq	136(%rsp), %rdi
	movzbl	32(%rsp,%rdi), %ebp
	movd	%ebp, %xmm2
	movzbl	1355(%rsp), %r15d
	orq	%r10, %r15
	punpckldq	%xmm9, %xmm0
	movzbl	32(%r13), %ebp
	movd	%ebp, %xmm9
	movzbl	1388(%rsp), %r13d
	punpcklbw	%xmm3, %xmm11
	movq	144(%rsp), %rdi
	movzbl	32(%rsp,%rdi), %ebp
	movd	%ebp, %xmm8
	movzbl	1359(%rsp), %ebp
	orq	%r10, %rbp
	punpcklbw	%xmm4, %xmm10
	movzbl	48(%rbp), %ebp
	movd	%ebp, %xmm3
	movzbl	1390(%rsp), %ebp
	punpcklwd	%xmm11, %xmm10
	movzbl	48(%rsp,%rbp), %ebp
	movd	%ebp, %xmm4
	movzbl	1357(%rsp), %ebp
	orq	%r10, %rbp
	punpcklbw	%xmm1, %xmm2
	punpcklbw	%xmm9, %xmm8
	punpcklwd	%xmm2, %xmm8
	punpckldq	%xmm10, %xmm8
	punpcklqdq	%xmm0, %xmm8
	punpcklbw	%xmm3, %xmm4
	movzbl	48(%rbp), %ebp
	movd	%ebp, %xmm0
	movzbl	48(%rsp,%r13), %ebp
	movd	%ebp, %xmm10
	punpcklbw	%xmm0, %xmm10
	punpcklwd	%xmm4, %xmm10
	movzbl	48(%r15), %ebp
	movd	%ebp, %xmm0
	movzbl	48(%rsp,%r14), %ebp
	movd	%ebp, %xmm1
	punpcklbw	%xmm0, %xmm1
	movzbl	48(%rbx), %ebx
	movd	%ebx, %xmm0
	movzbl	48(%rsp,%rsi), %esi
	movd	%esi, %xmm9
	punpcklbw	%xmm0, %xmm9
	punpcklwd	%xmm1, %xmm9
	movzbl	48(%r11), %esi
	movd	%esi, %xmm0
	movdqa	%xmm0, 384(%rsp)
	movzbl	48(%rsp,%r12), %esi
	movd	%esi, %xmm12
	movzbl	48(%r9), %esi
	movd	%esi, %xmm14
	movzbl	48(%rsp,%rdx), %edx
	movd	%edx, %xmm11
	movzbl	48(%r8), %edx
	movzbl	48(%rsp,%rcx), %ecx
	movzbl	48(%rax), %ebp
	movq	152(%rsp), %rax
	movzbl	48(%rsp,%rax), %eax
	movaps	.LCPI2_2(%rip), %xmm0
	movaps	%xmm0, 48(%rsp)
	movaps	%xmm0, 32(%rsp)
	movaps	%xmm0, 16(%rsp)
	movaps	%xmm0, (%rsp)
	movd	%edx, %xmm13
	movdqa	.LCPI2_1(%rip), %xmm1
	pand	%xmm1, %xmm5
	movdqa	%xmm5, 624(%rsp)
	movd	%ecx, %xmm5
	pand	%xmm1, %xmm15
	movzbl	624(%rsp), %ecx
	movq	%rcx, 240(%rsp)
	movzbl	625(%rsp), %ecx
	movq	%rcx, 224(%rsp)
	movzbl	626(%rsp), %ecx
	movq	%rcx, 176(%rsp)
	movzbl	627(%rsp), %ecx
	movq	%rcx, 208(%rsp)
	movzbl	628(%rsp), %ecx
	movq	%rcx, 160(%rsp)
	movzbl	629(%rsp), %ecx
	movq	%rcx, 376(%rsp)
	movzbl	630(%rsp), %ecx
	movq	%rcx, 440(%rsp)
	movzbl	631(%rsp), %esi
	movzbl	632(%rsp), %r14d
	movzbl	633(%rsp), %ebx
	movzbl	634(%rsp), %r11d
	movzbl	635(%rsp), %r12d
	movzbl	636(%rsp), %r9d
	movzbl	637(%rsp), %r8d
	movzbl	638(%rsp), %edx
	movzbl	639(%rsp), %ecx
	movdqa	%xmm15, 592(%rsp)
	movd	%ebp, %xmm3
	movdqa	480(%rsp), %xmm0
	pand	%xmm1, %xmm0
	movzbl	592(%rsp), %edi
	movzbl	593(%rsp), %r15d
	movq	%r15, 120(%rsp)
	movzbl	594(%rsp), %r15d
	movq	%r15, 400(%rsp)
	movzbl	595(%rsp), %r15d
	movq	%r15, 104(%rsp)
	movzbl	596(%rsp), %r15d
	movq	%r15, 264(%rsp)
	movzbl	597(%rsp), %r15d
	movq	%r15, 256(%rsp)
	movzbl	598(%rsp), %r15d
	movq	%r15, 88(%rsp)
	movzbl	599(%rsp), %r15d
	movq	%r15, 416(%rsp)
	movzbl	600(%rsp), %r15d
	movq	%r15, 216(%rsp)
	movzbl	601(%rsp), %r15d
	movq	%r15, 168(%rsp)
	movzbl	602(%rsp), %r15d
	movq	%r15, 200(%rsp)
	movzbl	603(%rsp), %r15d
	movq	%r15, 280(%rsp)
	movzbl	604(%rsp), %r15d
	movq	%r15, 368(%rsp)
	movzbl	605(%rsp), %ebp
	movzbl	606(%rsp), %r13d
	movzbl	607(%rsp), %r15d
	movdqa	%xmm0, 608(%rsp)
	movd	%eax, %xmm4
	movdqa	288(%rsp), %xmm0
	pand	%xmm1, %xmm0
	movzbl	608(%rsp), %eax
	movq	%rax, 288(%rsp)
	movzbl	609(%rsp), %eax
	movq	%rax, 480(%rsp)
	movzbl	610(%rsp), %eax
	movq	%rax, 152(%rsp)
	movzbl	611(%rsp), %eax
	movq	%rax, 144(%rsp)
	movzbl	612(%rsp), %eax
	movq	%rax, 136(%rsp)
	movzbl	613(%rsp), %eax
	movq	%rax, 128(%rsp)
	movzbl	614(%rsp), %eax
	movq	%rax, 496(%rsp)
	movzbl	615(%rsp), %eax
	movq	%rax, 192(%rsp)
	movzbl	616(%rsp), %eax
	movq	%rax, 184(%rsp)
	movzbl	617(%rsp), %eax
	movq	%rax, 112(%rsp)
	movzbl	618(%rsp), %eax
	movq	%rax, 272(%rsp)
	movzbl	619(%rsp), %eax
	movq	%rax, 96(%rsp)
	movzbl	620(%rsp), %eax
	movq	%rax, 248(%rsp)
	movzbl	621(%rsp), %eax
	movq	%rax, 80(%rsp)
	movzbl	622(%rsp), %eax
	movq	%rax, 232(%rsp)
	movzbl	623(%rsp), %eax
	movq	%rax, 72(%rsp)
	movdqa	%xmm0, 640(%rsp)
	movzbl	(%rsp,%rcx), %eax
	movd	%eax, %xmm0
	punpckldq	%xmm10, %xmm9
	movzbl	(%rsp,%rdx), %eax
	movd	%eax, %xmm2
	punpcklbw	384(%rsp), %xmm12
	movzbl	(%rsp,%r8), %eax
	movd	%eax, %xmm1
	punpcklbw	%xmm14, %xmm11
	movzbl	(%rsp,%r9), %eax
	movd	%eax, %xmm10
	punpcklwd	%xmm12, %xmm11
	movzbl	(%rsp,%r12), %eax
	movd	%eax, %xmm14
	punpcklbw	%xmm13, %xmm5
	movzbl	(%rsp,%r11), %eax
	movd	%eax, %xmm12
	punpcklbw	%xmm3, %xmm4
	movzbl	(%rsp,%rbx), %eax
	movd	%eax, %xmm15
	punpcklwd	%xmm5, %xmm4
	movzbl	(%rsp,%r14), %eax
	movd	%eax, %xmm3
	punpckldq	%xmm11, %xmm4
	movzbl	(%rsp,%rsi), %eax
	movd	%eax, %xmm11
	punpcklqdq	%xmm9, %xmm4
	movq	440(%rsp), %rax
	movzbl	(%rsp,%rax), %eax
	movd	%eax, %xmm5
	punpcklbw	%xmm0, %xmm2
	movq	376(%rsp), %rax
	movzbl	(%rsp,%rax), %eax
	movd	%eax, %xmm9
	punpcklbw	%xmm1, %xmm10
	movq	160(%rsp), %rax
	movzbl	(%rsp,%rax), %eax
	movd	%eax, %xmm0
	punpcklwd	%xmm2, %xmm10
	movq	208(%rsp), %rax
	movzbl	(%rsp,%rax), %eax
	movd	%eax, %xmm2
	punpcklbw	%xmm14, %xmm12
	movq	176(%rsp), %rax
	movzbl	(%rsp,%rax), %eax
	movd	%eax, %xmm13
	punpcklbw	%xmm15, %xmm3
	movq	224(%rsp), %rax
	movzbl	(%rsp,%rax), %eax
	movd	%eax, %xmm14
	punpcklwd	%xmm12, %xmm3
	movq	240(%rsp), %rax
	movzbl	(%rsp,%rax), %eax
	movd	%eax, %xmm15
	punpckldq	%xmm10, %xmm3
	movzbl	16(%rsp,%r15), %eax
	movd	%eax, %xmm12
	punpcklbw	%xmm11, %xmm5
	movzbl	16(%rsp,%r13), %eax
	movd	%eax, %xmm10
	punpcklbw	%xmm9, %xmm0
	movzbl	16(%rsp,%rbp), %eax
	movd	%eax, %xmm1
	punpcklwd	%xmm5, %xmm0
	movq	368(%rsp), %rax
	movzbl	16(%rsp,%rax), %eax
	movd	%eax, %xmm9
	punpcklbw	%xmm2, %xmm13
	movq	280(%rsp), %rax
	movzbl	16(%rsp,%rax), %eax
	movd	%eax, %xmm2
	punpcklbw	%xmm14, %xmm15
	movq	200(%rsp), %rax
	movzbl	16(%rsp,%rax), %eax
	movd	%eax, %xmm11
	punpcklwd	%xmm13, %xmm15
	movq	168(%rsp), %rax
	movzbl	16(%rsp,%rax), %eax
	movd	%eax, %xmm13
	punpckldq	%xmm0, %xmm15
	movq	216(%rsp), %rax
	movzbl	16(%rsp,%rax), %eax
	movd	%eax, %xmm0
	punpcklqdq	%xmm3, %xmm15
	movq	416(%rsp), %rax
	movzbl	16(%rsp,%rax), %eax
	movd	%eax, %xmm14
	pand	%xmm7, %xmm15
	movdqa	%xmm15, 416(%rsp)
	movq	88(%rsp), %rax
	movzbl	16(%rsp,%rax), %eax
	movd	%eax, %xmm7
	punpcklbw	%xmm12, %xmm10
	movq	256(%rsp), %rax
	movzbl	16(%rsp,%rax), %eax
	movd	%eax, %xmm3
	punpcklbw	%xmm1, %xmm9
	movq	264(%rsp), %rax
	movzbl	16(%rsp,%rax), %eax
	movd	%eax, %xmm5
	punpcklwd	%xmm10, %xmm9
	movq	104(%rsp), %rax
	movzbl	16(%rsp,%rax), %eax
	movd	%eax, %xmm1
	punpcklbw	%xmm2, %xmm11
	movq	400(%rsp), %rax
	movzbl	16(%rsp,%rax), %eax
	movd	%eax, %xmm12
	punpcklbw	%xmm13, %xmm0
	movq	120(%rsp), %rax
	movzbl	16(%rsp,%rax), %eax
	movd	%eax, %xmm2
	punpcklwd	%xmm11, %xmm0
	movzbl	16(%rsp,%rdi), %eax
	movd	%eax, %xmm11
	punpckldq	%xmm9, %xmm0
	movq	72(%rsp), %rax
	movzbl	32(%rsp,%rax), %eax
	movd	%eax, %xmm13
	punpcklbw	%xmm14, %xmm7
	movq	232(%rsp), %rax
	movzbl	32(%rsp,%rax), %eax
	movd	%eax, %xmm10
	punpcklbw	%xmm3, %xmm5
	movq	80(%rsp), %rax
	movzbl	32(%rsp,%rax), %eax
	movd	%eax, %xmm14
	movzbl	640(%rsp), %eax
	movq	%rax, 120(%rsp)
	punpcklwd	%xmm7, %xmm5
	movq	248(%rsp), %rax
	movzbl	32(%rsp,%rax), %eax
	movd	%eax, %xmm9
	movzbl	641(%rsp), %r9d
	punpcklbw	%xmm1, %xmm12
	movq	96(%rsp), %rax
	movzbl	32(%rsp,%rax), %eax
	movd	%eax, %xmm15
	movzbl	642(%rsp), %edi
	movdqa	%xmm11, %xmm3
	punpcklbw	%xmm2, %xmm3
	movq	272(%rsp), %rax
	movzbl	32(%rsp,%rax), %edx
	movd	%edx, %xmm11
	movzbl	643(%rsp), %r8d
	punpcklwd	%xmm12, %xmm3
	movq	112(%rsp), %rax
	movzbl	32(%rsp,%rax), %edx
	movd	%edx, %xmm1
	movzbl	644(%rsp), %edx
	punpckldq	%xmm5, %xmm3
	movq	184(%rsp), %rax
	movzbl	32(%rsp,%rax), %esi
	movd	%esi, %xmm7
	movzbl	645(%rsp), %r12d
	punpcklqdq	%xmm0, %xmm3
	movq	192(%rsp), %rax
	movzbl	32(%rsp,%rax), %esi
	movd	%esi, %xmm12
	movzbl	646(%rsp), %r11d
	pand	%xmm6, %xmm3
	movdqa	%xmm3, 400(%rsp)
	movq	496(%rsp), %rax
	movzbl	32(%rsp,%rax), %esi
	movd	%esi, %xmm0
	movzbl	647(%rsp), %ebx
	punpcklbw	%xmm13, %xmm10
	movq	128(%rsp), %rax
	movzbl	32(%rsp,%rax), %esi
	movd	%esi, %xmm13
	movzbl	648(%rsp), %r14d
	punpcklbw	%xmm14, %xmm9
	movq	136(%rsp), %rax
	movzbl	32(%rsp,%rax), %esi
	movd	%esi, %xmm6
	movzbl	649(%rsp), %esi
	punpcklwd	%xmm10, %xmm9
	movq	144(%rsp), %rax
	movzbl	32(%rsp,%rax), %ebp
	movd	%ebp, %xmm2
	movzbl	650(%rsp), %r15d
	punpcklbw	%xmm15, %xmm11
	movq	152(%rsp), %rax
	movzbl	32(%rsp,%rax), %ebp
	movd	%ebp, %xmm3
	movzbl	651(%rsp), %r13d
	punpcklbw	%xmm1, %xmm7
	movq	480(%rsp), %rax
	movzbl	32(%rsp,%rax), %ebp
	movd	%ebp, %xmm1
	movzbl	652(%rsp), %ebp
	punpcklwd	%xmm11, %xmm7
	movq	288(%rsp), %rax
	movzbl	32(%rsp,%rax), %ecx
	movd	%ecx, %xmm5
	movzbl	655(%rsp), %ecx
	punpckldq	%xmm9, %xmm7
	movzbl	48(%rsp,%rcx), %ecx
	movd	%ecx, %xmm9
	movzbl	654(%rsp), %ecx
	punpcklbw	%xmm12, %xmm0
	movzbl	48(%rsp,%rcx), %ecx
	movd	%ecx, %xmm10
	movzbl	653(%rsp), %ecx
	punpcklbw	%xmm13, %xmm6
	punpcklwd	%xmm0, %xmm6
	punpcklbw	%xmm2, %xmm3
	punpcklbw	%xmm1, %xmm5
	punpcklwd	%xmm3, %xmm5
	punpckldq	%xmm6, %xmm5
	punpcklqdq	%xmm7, %xmm5
	pand	%xmm8, %xmm5
	punpcklbw	%xmm9, %xmm10
	movzbl	48(%rsp,%rcx), %ecx
	movd	%ecx, %xmm0
	movzbl	48(%rsp,%rbp), %ecx
	movd	%ecx, %xmm7
	punpcklbw	%xmm0, %xmm7
	punpcklwd	%xmm10, %xmm7
	movzbl	48(%rsp,%r13), %ecx
	movd	%ecx, %xmm0
	movzbl	48(%rsp,%r15), %ecx
	movd	%ecx, %xmm8
	punpcklbw	%xmm0, %xmm8
	movzbl	48(%rsp,%rsi), %ecx
	movd	%ecx, %xmm0
	movzbl	48(%rsp,%r14), %ecx
	movd	%ecx, %xmm6
	punpcklbw	%xmm0, %xmm6
	movzbl	48(%rsp,%rbx), %ebx
	movzbl	48(%rsp,%r11), %esi
	movzbl	48(%rsp,%r12), %eax
	movzbl	48(%rsp,%rdx), %r14d
	movzbl	48(%rsp,%r8), %r11d
	movzbl	48(%rsp,%rdi), %edx
	movzbl	48(%rsp,%r9), %ecx
	movl	%ecx, 280(%rsp)
	movq	120(%rsp), %rcx
	movzbl	48(%rsp,%rcx), %ecx
	movl	%ecx, 160(%rsp)
	movaps	.LCPI2_3(%rip), %xmm0
	movaps	%xmm0, 48(%rsp)
	movaps	%xmm0, 32(%rsp)
	movaps	%xmm0, 16(%rsp)
	movaps	%xmm0, (%rsp)
	movdqa	448(%rsp), %xmm11
	psrlw	$4, %xmm11
	movdqa	%xmm11, %xmm13
	movdqa	.LCPI2_1(%rip), %xmm1
	pand	%xmm1, %xmm13
	movdqa	336(%rsp), %xmm0
	psrlw	$4, %xmm0
	movdqa	%xmm0, %xmm14
	pand	%xmm1, %xmm14
	movdqa	352(%rsp), %xmm10
	psrlw	$4, %xmm10
	movdqa	%xmm10, %xmm12
	pand	%xmm1, %xmm12
	movdqa	320(%rsp), %xmm2
	psrlw	$4, %xmm2
	pand	%xmm2, %xmm1
	movdqa	%xmm1, 1152(%rsp)
	movd	%ebx, %xmm1
	movzbl	1152(%rsp), %ecx
	movq	%rcx, 104(%rsp)
	movdqa	%xmm2, 1136(%rsp)
	movd	%esi, %xmm9
	movzbl	1137(%rsp), %ecx
	movq	%rcx, 288(%rsp)
	movzbl	1154(%rsp), %esi
	movq	%rsi, 272(%rsp)
	movzbl	1139(%rsp), %ecx
	movq	%rcx, 496(%rsp)
	movzbl	1156(%rsp), %edi
	movq	%rdi, 96(%rsp)
	movzbl	1141(%rsp), %ecx
	movq	%rcx, 480(%rsp)
	movzbl	1158(%rsp), %r9d
	movq	%r9, 264(%rsp)
	movzbl	1143(%rsp), %ecx
	movq	%rcx, 152(%rsp)
	movzbl	1160(%rsp), %r9d
	movq	%r9, 256(%rsp)
	movzbl	1145(%rsp), %ecx
	movq	%rcx, 144(%rsp)
	movzbl	1162(%rsp), %r9d
	movq	%r9, 248(%rsp)
	movzbl	1147(%rsp), %ecx
	movq	%rcx, 136(%rsp)
	movzbl	1164(%rsp), %r9d
	movq	%r9, 88(%rsp)
	movzbl	1149(%rsp), %ecx
	movq	%rcx, 128(%rsp)
	movzbl	1166(%rsp), %r9d
	movq	%r9, 80(%rsp)
	movzbl	1151(%rsp), %ecx
	movq	%rcx, 192(%rsp)
	movdqa	%xmm12, 1184(%rsp)
	movd	%eax, %xmm12
	movzbl	1184(%rsp), %r9d
	movq	%r9, 240(%rsp)
	movdqa	%xmm10, 1168(%rsp)
	movd	%r14d, %xmm10
	movzbl	1169(%rsp), %eax
	movq	%rax, 184(%rsp)
	movzbl	1186(%rsp), %r9d
	movq	%r9, 232(%rsp)
	movzbl	1171(%rsp), %eax
	movq	%rax, 112(%rsp)
	movzbl	1188(%rsp), %r9d
	movq	%r9, 224(%rsp)
	movzbl	1173(%rsp), %eax
	movq	%rax, 120(%rsp)
	movzbl	1190(%rsp), %r9d
	movq	%r9, 72(%rsp)
	movzbl	1175(%rsp), %r13d
	movzbl	1192(%rsp), %r9d
	movq	%r9, 216(%rsp)
	movzbl	1177(%rsp), %r12d
	movzbl	1194(%rsp), %r9d
	movq	%r9, 176(%rsp)
	movzbl	1179(%rsp), %r8d
	movzbl	1196(%rsp), %r9d
	movq	%r9, 384(%rsp)
	movzbl	1181(%rsp), %edi
	movzbl	1198(%rsp), %r9d
	movq	%r9, 168(%rsp)
	movzbl	1183(%rsp), %esi
	movdqa	%xmm14, 1248(%rsp)
	movd	%r11d, %xmm15
	movzbl	1248(%rsp), %r9d
	movq	%r9, 208(%rsp)
	movdqa	%xmm0, 1216(%rsp)
	movd	%edx, %xmm14
	movzbl	1217(%rsp), %edx
	movzbl	1250(%rsp), %r9d
	movq	%r9, 200(%rsp)
	movzbl	1219(%rsp), %ecx
	movzbl	1252(%rsp), %r9d
	movq	%r9, 376(%rsp)
	movzbl	1221(%rsp), %ebp
	movzbl	1254(%rsp), %r9d
	movq	%r9, 440(%rsp)
	movzbl	1223(%rsp), %r15d
	movzbl	1256(%rsp), %r9d
	movq	%r9, 792(%rsp)
	movzbl	1225(%rsp), %r14d
	movzbl	1258(%rsp), %r9d
	movq	%r9, 784(%rsp)
	movzbl	1227(%rsp), %ebx
	movzbl	1260(%rsp), %r9d
	movq	%r9, 1952(%rsp)
	movzbl	1229(%rsp), %r11d
	movzbl	1262(%rsp), %r9d
	movq	%r9, 1936(%rsp)
	movzbl	1231(%rsp), %eax
	movdqa	%xmm13, 1328(%rsp)
	movd	280(%rsp), %xmm0
	movzbl	1328(%rsp), %r9d
	movq	%r9, 1928(%rsp)
	movdqa	%xmm11, 1280(%rsp)
	movd	160(%rsp), %xmm11
	orq	%r10, 288(%rsp)
	orq	%r10, 496(%rsp)
	orq	%r10, 480(%rsp)
	orq	%r10, 152(%rsp)
	orq	%r10, 144(%rsp)
	orq	%r10, 136(%rsp)
	orq	%r10, 128(%rsp)
	orq	%r10, 192(%rsp)
	orq	%r10, 184(%rsp)
	orq	%r10, 112(%rsp)
	orq	%r10, 120(%rsp)
	orq	%r10, %r13
	movq	%r13, 160(%rsp)
	orq	%r10, %r12
	movq	%r12, 280(%rsp)
	orq	%r10, %r8
	movq	%r8, 368(%rsp)
	orq	%r10, %rdi
	movq	%rdi, 808(%rsp)
	orq	%r10, %rsi
	movq	%rsi, 800(%rsp)
	orq	%r10, %rdx
	movq	%rdx, 1960(%rsp)
	orq	%r10, %rcx
	movq	%rcx, 1944(%rsp)
	orq	%r10, %rbp
	orq	%r10, %r15
	orq	%r10, %r14
	orq	%r10, %rbx
	orq	%r10, %r11
	orq	%r10, %rax
	movq	%rax, %r9
	movq	%r10, %rcx
	movzbl	1281(%rsp), %r8d
	orq	%r10, %r8
	movzbl	1283(%rsp), %edi
	orq	%r10, %rdi
	movzbl	1285(%rsp), %esi
	orq	%r10, %rsi
	movzbl	1287(%rsp), %edx
	orq	%r10, %rdx
	movzbl	1289(%rsp), %r13d
	orq	%r10, %r13
	movzbl	1291(%rsp), %r12d
	orq	%r10, %r12
	movzbl	1293(%rsp), %r10d
	orq	%rcx, %r10
	movzbl	1295(%rsp), %eax
	orq	%rcx, %rax
	punpcklwd	%xmm8, %xmm6
	movzbl	48(%rax), %eax
	movd	%eax, %xmm13
	punpckldq	%xmm7, %xmm6
	movzbl	1342(%rsp), %eax
	movzbl	48(%rsp,%rax), %eax
	movd	%eax, %xmm8
	punpcklbw	%xmm1, %xmm9
	movzbl	48(%r10), %eax
	movd	%eax, %xmm1
	punpcklbw	%xmm12, %xmm10
	movzbl	1340(%rsp), %eax
	movzbl	48(%rsp,%rax), %eax
	movd	%eax, %xmm7
	punpcklwd	%xmm9, %xmm10
	movzbl	48(%r12), %eax
	movd	%eax, %xmm12
	punpcklbw	%xmm15, %xmm14
	movzbl	1338(%rsp), %eax
	movzbl	48(%rsp,%rax), %eax
	movd	%eax, %xmm9
	punpcklbw	%xmm0, %xmm11
	movzbl	48(%r13), %eax
	movd	%eax, %xmm15
	punpcklwd	%xmm14, %xmm11
	movzbl	1336(%rsp), %eax
	movzbl	48(%rsp,%rax), %eax
	movd	%eax, %xmm0
	punpckldq	%xmm10, %xmm11
	movzbl	48(%rdx), %eax
	movq	304(%rsp), %rcx
	movd	%eax, %xmm10
	punpcklqdq	%xmm6, %xmm11
	movzbl	1334(%rsp), %eax
	movzbl	48(%rsp,%rax), %eax
	movd	%eax, %xmm6
	pand	%xmm4, %xmm11
	movzbl	48(%rsi), %eax
	movd	%eax, %xmm14
	punpcklbw	%xmm13, %xmm8
	movzbl	1332(%rsp), %eax
	movzbl	48(%rsp,%rax), %eax
	movd	%eax, %xmm4
	punpcklbw	%xmm1, %xmm7
	movzbl	48(%rdi), %eax
	movd	%eax, %xmm13
	punpcklwd	%xmm8, %xmm7
	movzbl	1330(%rsp), %eax
	movzbl	48(%rsp,%rax), %eax
	movd	%eax, %xmm8
	punpcklbw	%xmm12, %xmm9
	movzbl	48(%r8), %eax
	movd	%eax, %xmm2
	punpcklbw	%xmm15, %xmm0
	movq	1928(%rsp), %rax
	movzbl	48(%rsp,%rax), %eax
	movd	%eax, %xmm1
	punpcklwd	%xmm9, %xmm0
	movzbl	32(%r9), %eax
	movq	312(%rsp), %r9
	movd	%eax, %xmm12
	punpckldq	%xmm7, %xmm0
	movq	1936(%rsp), %rax
	movzbl	32(%rsp,%rax), %eax
	movd	%eax, %xmm9
	punpcklbw	%xmm10, %xmm6
	movzbl	32(%r11), %eax
	movd	%eax, %xmm10
	punpcklbw	%xmm14, %xmm4
	movq	1952(%rsp), %rax
	movzbl	32(%rsp,%rax), %eax
	movd	%eax, %xmm7
	punpcklwd	%xmm6, %xmm4
	movzbl	32(%rbx), %eax
	movq	1912(%rsp), %rsi
	movq	1920(%rsp), %rdx
	movd	%eax, %xmm3
	punpcklbw	%xmm13, %xmm8
	movq	784(%rsp), %rax
	movzbl	32(%rsp,%rax), %eax
	movd	%eax, %xmm13
	punpcklbw	%xmm2, %xmm1
	movzbl	32(%r14), %eax
	movd	%eax, %xmm2
	punpcklwd	%xmm8, %xmm1
	movq	792(%rsp), %rax
	movzbl	32(%rsp,%rax), %eax
	movd	%eax, %xmm6
	punpckldq	%xmm4, %xmm1
	movzbl	32(%r15), %eax
	movd	%eax, %xmm14
	punpcklqdq	%xmm0, %xmm1
	movq	440(%rsp), %rax
	movzbl	32(%rsp,%rax), %eax
	movd	%eax, %xmm0
	pand	%xmm11, %xmm1
	movzbl	32(%rbp), %eax
	movd	%eax, %xmm15
	punpcklbw	%xmm12, %xmm9
	movq	376(%rsp), %rax
	movzbl	32(%rsp,%rax), %eax
	movd	%eax, %xmm8
	punpcklbw	%xmm10, %xmm7
	movq	1944(%rsp), %rax
	movzbl	32(%rax), %eax
	movd	%eax, %xmm12
	punpcklwd	%xmm9, %xmm7
	movq	200(%rsp), %rax
	movzbl	32(%rsp,%rax), %eax
	movd	%eax, %xmm10
	punpcklbw	%xmm3, %xmm13
	movq	1960(%rsp), %rax
	movzbl	32(%rax), %eax
	movd	%eax, %xmm3
	punpcklbw	%xmm2, %xmm6
	movq	208(%rsp), %rax
	movzbl	32(%rsp,%rax), %eax
	movd	%eax, %xmm4
	punpcklwd	%xmm13, %xmm6
	movq	800(%rsp), %rax
	movzbl	16(%rax), %eax
	movd	%eax, %xmm11
	punpckldq	%xmm7, %xmm6
	movq	168(%rsp), %rax
	movzbl	16(%rsp,%rax), %eax
	movd	%eax, %xmm9
	punpcklbw	%xmm14, %xmm0
	movq	808(%rsp), %rax
	movzbl	16(%rax), %eax
	movd	%eax, %xmm2
	punpcklbw	%xmm15, %xmm8
	movq	384(%rsp), %rax
	movzbl	16(%rsp,%rax), %eax
	movd	%eax, %xmm7
	punpcklwd	%xmm0, %xmm8
	movq	368(%rsp), %rax
	movzbl	16(%rax), %eax
	movd	%eax, %xmm13
	punpcklbw	%xmm12, %xmm10
	movq	176(%rsp), %rax
	movzbl	16(%rsp,%rax), %eax
	movd	%eax, %xmm12
	punpcklbw	%xmm3, %xmm4
	movq	280(%rsp), %rax
	movzbl	16(%rax), %eax
	movd	%eax, %xmm3
	punpcklwd	%xmm10, %xmm4
	movq	216(%rsp), %rax
	movzbl	16(%rsp,%rax), %eax
	movd	%eax, %xmm0
	punpckldq	%xmm8, %xmm4
	movq	160(%rsp), %rax
	movzbl	16(%rax), %eax
	movd	%eax, %xmm8
	punpcklqdq	%xmm6, %xmm4
	movq	72(%rsp), %rax
	movzbl	16(%rsp,%rax), %eax
	movd	%eax, %xmm10
	pand	%xmm5, %xmm4
	movq	120(%rsp), %rax
	movzbl	16(%rax), %eax
	movd	%eax, %xmm14
	punpcklbw	%xmm11, %xmm9
	movq	224(%rsp), %rax
	movzbl	16(%rsp,%rax), %eax
	movd	%eax, %xmm6
	punpcklbw	%xmm2, %xmm7
	movq	112(%rsp), %rax
	movzbl	16(%rax), %eax
	movd	%eax, %xmm15
	punpcklwd	%xmm9, %xmm7
	movq	232(%rsp), %rax
	movzbl	16(%rsp,%rax), %eax
	movd	%eax, %xmm9
	punpcklbw	%xmm13, %xmm12
	movq	184(%rsp), %rax
	movzbl	16(%rax), %eax
	movd	%eax, %xmm13
	punpcklbw	%xmm3, %xmm0
	movq	240(%rsp), %rax
	movzbl	16(%rsp,%rax), %eax
	movd	%eax, %xmm5
	punpcklwd	%xmm12, %xmm0
	movdqa	336(%rsp), %xmm12
	movq	192(%rsp), %rax
	movzbl	(%rax), %eax
	movd	%eax, %xmm11
	punpckldq	%xmm7, %xmm0
	punpcklbw	%xmm8, %xmm10
	punpcklbw	%xmm14, %xmm6
	punpcklwd	%xmm10, %xmm6
	movq	80(%rsp), %rax
	movzbl	(%rsp,%rax), %eax
	movd	%eax, %xmm2
	punpcklbw	%xmm15, %xmm9
	movdqa	352(%rsp), %xmm14
	movq	128(%rsp), %rax
	movzbl	(%rax), %eax
	movd	%eax, %xmm8
	punpcklbw	%xmm13, %xmm5
	movq	88(%rsp), %rax
	movzbl	(%rsp,%rax), %eax
	movd	%eax, %xmm7
	punpcklwd	%xmm9, %xmm5
	movq	136(%rsp), %rax
	movzbl	(%rax), %eax
	movd	%eax, %xmm9
	punpckldq	%xmm6, %xmm5
	movq	248(%rsp), %rax
	movzbl	(%rsp,%rax), %eax
	movd	%eax, %xmm6
	punpcklqdq	%xmm0, %xmm5
	movq	144(%rsp), %rax
	movzbl	(%rax), %eax
	movd	%eax, %xmm0
	pand	400(%rsp), %xmm5
	movq	256(%rsp), %rax
	movzbl	(%rsp,%rax), %eax
	movd	%eax, %xmm3
	punpcklbw	%xmm11, %xmm2
	movq	152(%rsp), %rax
	movzbl	(%rax), %eax
	movd	%eax, %xmm10
	punpcklbw	%xmm8, %xmm7
	movq	264(%rsp), %rax
	movzbl	(%rsp,%rax), %eax
	movd	%eax, %xmm8
	punpcklwd	%xmm2, %xmm7
	movq	480(%rsp), %rax
	movzbl	(%rax), %eax
	movd	%eax, %xmm2
	punpcklbw	%xmm9, %xmm6
	movq	96(%rsp), %rax
	movzbl	(%rsp,%rax), %eax
	movd	%eax, %xmm9
	punpcklbw	%xmm0, %xmm3
	movq	496(%rsp), %rax
	movzbl	(%rax), %eax
	movd	%eax, %xmm11
	punpcklwd	%xmm6, %xmm3
	movq	272(%rsp), %rax
	movzbl	(%rsp,%rax), %eax
	movd	%eax, %xmm6
	punpckldq	%xmm7, %xmm3
	movq	288(%rsp), %rax
	movzbl	(%rax), %eax
	movd	%eax, %xmm7
	punpcklbw	%xmm10, %xmm8
	movq	104(%rsp), %rax
	movzbl	(%rsp,%rax), %eax
	movd	%eax, %xmm0
	punpcklbw	%xmm2, %xmm9
	punpcklwd	%xmm8, %xmm9
	punpcklbw	%xmm11, %xmm6
	punpcklbw	%xmm7, %xmm0
	punpcklwd	%xmm6, %xmm0
	punpckldq	%xmm9, %xmm0
	punpcklqdq	%xmm3, %xmm0
	pand	416(%rsp), %xmm0
	movdqa	%xmm12, %xmm2
	psrldq	$14, %xmm2
	movdqa	448(%rsp), %xmm7
	pslldq	$2, %xmm7
	por	%xmm2, %xmm7
	movdqa	%xmm14, %xmm2
	psrldq	$14, %xmm2
	movdqa	%xmm12, %xmm8
	pslldq	$2, %xmm8
	por	%xmm2, %xmm8
	movdqa	320(%rsp), %xmm2
	psrldq	$14, %xmm2
	movdqa	%xmm14, %xmm9
	pslldq	$2, %xmm9
	por	%xmm2, %xmm9
	movdqa	320(%rsp), %xmm2
	pslldq	$2, %xmm2
	movdqa	464(%rsp), %xmm13
	movdqa	%xmm13, %xmm10
	psrldq	$14, %xmm10
	por	%xmm2, %xmm10
	movdqa	.LCPI2_4(%rip), %xmm2
	psubusb	%xmm2, %xmm10
	psubusb	%xmm2, %xmm9
	psubusb	%xmm2, %xmm8
	psubusb	%xmm2, %xmm7
	movdqa	%xmm12, %xmm3
	psrldq	$13, %xmm3
	movdqa	448(%rsp), %xmm2
	pslldq	$3, %xmm2
	por	%xmm3, %xmm2
	movdqa	%xmm14, %xmm6
	psrldq	$13, %xmm6
	movdqa	%xmm12, %xmm3
	pslldq	$3, %xmm3
	por	%xmm6, %xmm3
	movdqa	320(%rsp), %xmm11
	psrldq	$13, %xmm11
	movdqa	%xmm14, %xmm6
	pslldq	$3, %xmm6
	por	%xmm11, %xmm6
	movdqa	320(%rsp), %xmm11
	pslldq	$3, %xmm11
	psrldq	$13, %xmm13
	por	%xmm11, %xmm13
	movdqa	.LCPI2_5(%rip), %xmm11
	psubusb	%xmm11, %xmm13
	por	%xmm10, %xmm13
	movdqa	320(%rsp), %xmm10
	psubusb	%xmm11, %xmm6
	por	%xmm9, %xmm6
	movdqa	816(%rsp), %xmm9
	psubusb	%xmm11, %xmm3
	por	%xmm8, %xmm3
	movdqa	832(%rsp), %xmm8
	psubusb	%xmm11, %xmm2
	movdqa	448(%rsp), %xmm11
	por	%xmm7, %xmm2
	movdqa	.LCPI2_6(%rip), %xmm7
	pand	%xmm7, %xmm13
	pxor	%xmm0, %xmm13
	pand	%xmm7, %xmm6
	pxor	%xmm5, %xmm6
	movdqa	512(%rsp), %xmm5
	pand	%xmm7, %xmm3
	pxor	%xmm4, %xmm3
	pand	%xmm7, %xmm2
	movdqa	848(%rsp), %xmm7
	pxor	%xmm1, %xmm2
	pcmpeqd	%xmm0, %xmm0
	psubusb	%xmm0, %xmm10
	psubusb	%xmm0, %xmm14
	psubusb	%xmm0, %xmm12
	movdqa	%xmm11, %xmm1
	psubusb	.LCPI2_7(%rip), %xmm1
	movdqa	%xmm13, %xmm0
.LBB2_30:
	por	%xmm2, %xmm5
	por	%xmm3, %xmm8
	por	%xmm6, %xmm9
	por	%xmm0, %xmm7
	addq	$64, %rcx
	addq	$-64, %r9
	movdqa	%xmm11, %xmm15
	movdqa	%xmm10, %xmm0
	movdqa	%xmm14, %xmm6
	movdqa	%xmm12, %xmm3
	movdqa	%xmm1, %xmm2
	cmpq	$63, %r9
	jbe	.LBB2_34
.LBB2_31:
	movdqu	(%rsi,%rcx), %xmm10
	movdqu	16(%rsi,%rcx), %xmm13
	movdqu	32(%rsi,%rcx), %xmm12
	movdqu	48(%rsi,%rcx), %xmm11
	movdqa	%xmm13, %xmm1
	por	%xmm10, %xmm1
	movdqa	%xmm12, %xmm4
	por	%xmm11, %xmm4
	por	%xmm1, %xmm4
	pmovmskb	%xmm4, %eax
	testl	%eax, %eax
	jne	.LBB2_29
	pxor	%xmm10, %xmm10
	pxor	%xmm14, %xmm14
	pxor	%xmm12, %xmm12
	pxor	%xmm1, %xmm1
	jmp	.LBB2_30
.LBB2_33:
	movdqa	%xmm0, 512(%rsp)
	xorl	%ecx, %ecx
	movdqa	%xmm0, 848(%rsp)
	movdqa	%xmm0, 816(%rsp)
	movdqa	%xmm0, 832(%rsp)
	jmp	.LBB2_24
.LBB2_34:
	movdqa	%xmm1, 288(%rsp)
	movdqa	%xmm14, 352(%rsp)
	movdqa	%xmm10, 320(%rsp)
	movdqa	%xmm12, 336(%rsp)
	movdqa	%xmm11, 448(%rsp)
	movdqa	%xmm9, 816(%rsp)
	movdqa	%xmm8, 832(%rsp)
	movdqa	%xmm7, 848(%rsp)
	movdqa	%xmm5, 512(%rsp)
	jmp	.LBB2_25
.LBB2_35:
	pxor	%xmm0, %xmm0
	movdqa	%xmm0, (%rsp)
	movq	$0, 16(%rsp)
	addq	%rax, %rsi
	movq	%rsp, %rdi
	movq	2048(%rsp), %rdx
	movq	%rax, %rbx
	callq	core__str__utf8__from_utf8
	movzbl	(%rsp), %eax
	testq	%rax, %rax
	je	.LBB2_39
	addq	8(%rsp), %rbx
	xorl	%ecx, %ecx
	xorl	%edx, %edx
	cmpb	$1, 16(%rsp)
	sete	%dl
	movq	%rdx, 872(%rsp)
	movzbl	17(%rsp), %edx
	cmovnel	%ecx, %edx
	movzbl	%dl, %ecx
	movq	%rbx, 864(%rsp)
	jmp	.LBB2_40
.LBB2_38:
	xorl	%eax, %eax
.LBB2_39:
	xorl	%ecx, %ecx
.LBB2_40:
	movq	2040(%rsp), %rdx
	movq	%rax, (%rdx)
	movq	864(%rsp), %rax
	movq	%rax, 8(%rdx)
	movq	872(%rsp), %rax
	movq	%rax, 16(%rdx)
	movq	%rcx, 24(%rdx)
	addq	$2072, %rsp
	popq	%rbx
	popq	%r12
	popq	%r13
	popq	%r14
	popq	%r15
	popq	%rbp
	retq
.Lfunc_end2:
	.size	simdutf8__compat__from_utf8, .Lfunc_end2-simdutf8__compat__from_utf8

	.section	.text.simdutf8__last_block,"ax",@progbits
	.p2align	4
	.type	simdutf8__last_block,@function
simdutf8__last_block:
	pushq	%rbp
	movq	%rsp, %rbp
	pushq	%rbx
	andq	$-64, %rsp
	subq	$128, %rsp
	movq	%rdi, %rbx
	addq	%rcx, %rsi
	subq	%rcx, %rdx
	xorps	%xmm0, %xmm0
	movaps	%xmm0, 48(%rsp)
	movaps	%xmm0, 32(%rsp)
	movaps	%xmm0, 16(%rsp)
	movaps	%xmm0, (%rsp)
	movq	%rsp, %rdi
	callq	memcpy@PLT
	movaps	(%rsp), %xmm0
	movaps	16(%rsp), %xmm1
	movaps	32(%rsp), %xmm2
	movaps	48(%rsp), %xmm3
	movups	%xmm2, 32(%rbx)
	movups	%xmm3, 48(%rbx)
	movups	%xmm0, (%rbx)
	movups	%xmm1, 16(%rbx)
	leaq	-8(%rbp), %rsp
	popq	%rbx
	popq	%rbp
	retq
.Lfunc_end3:
	.size	simdutf8__last_block, .Lfunc_end3-simdutf8__last_block

	.section	.text.core__str__utf8__from_utf8,"ax",@progbits
	.p2align	4
	.type	core__str__utf8__from_utf8,@function
core__str__utf8__from_utf8:
	pushq	%r15
	pushq	%r14
	pushq	%r13
	pushq	%r12
	pushq	%rbx
	subq	$16, %rsp
	movq	%rdx, %r15
	movq	%rsi, %r14
	movq	%rdi, %rbx
	testq	%rdx, %rdx
	je	.LBB4_57
	movabsq	$-9187201950435737472, %r12
	leaq	-8(%r15), %r13
	xorl	%ecx, %ecx
	jmp	.LBB4_5
.LBB4_25:
	movl	$1, %edi
.LBB4_3:
	addq	%rcx, %rdi
.LBB4_4:
	movq	%rdi, %rcx
	cmpq	%r15, %rdi
	jae	.LBB4_57
.LBB4_5:
	movzbl	(%r14,%rcx), %esi
	testb	%sil, %sil
	sets	%dl
	movq	%r15, %rax
	subq	%rcx, %rax
	cmpq	$2, %rax
	setb	%dil
	orb	%dl, %dil
	jne	.LBB4_2
	cmpb	$0, 1(%r14,%rcx)
	js	.LBB4_25
	movq	%r14, (%rsp)
	movq	%r15, 8(%rsp)
	cmpq	$7, %rax
	ja	.LBB4_26
	cmpb	$0, (%r14,%rcx)
	js	.LBB4_36
	leaq	1(%rcx), %rdi
	cmpq	%r15, %rdi
	je	.LBB4_57
	cmpb	$0, (%r14,%rdi)
	js	.LBB4_4
	leaq	2(%rcx), %rdi
	cmpq	%r15, %rdi
	je	.LBB4_57
	cmpb	$0, (%r14,%rdi)
	js	.LBB4_4
	leaq	3(%rcx), %rdi
	cmpq	%r15, %rdi
	je	.LBB4_57
	cmpb	$0, (%r14,%rdi)
	js	.LBB4_4
	leaq	4(%rcx), %rdi
	cmpq	%r15, %rdi
	je	.LBB4_57
	cmpb	$0, (%r14,%rdi)
	js	.LBB4_4
	leaq	5(%rcx), %rdi
	cmpq	%r15, %rdi
	je	.LBB4_57
	cmpb	$0, (%r14,%rdi)
	js	.LBB4_4
	addq	$6, %rcx
	cmpq	%r15, %rcx
	je	.LBB4_57
	cmpb	$0, (%r14,%rcx)
	movq	%rcx, %rdi
	js	.LBB4_4
	jmp	.LBB4_57
	.p2align	4
.LBB4_2:
	movl	$1, %edi
	testb	%sil, %sil
	jns	.LBB4_3
	movl	$257, %edx
	cmpb	$-62, %sil
	jb	.LBB4_66
	cmpb	$-33, %sil
	ja	.LBB4_29
	cmpq	$2, %rax
	jb	.LBB4_58
	movzbl	1(%r14,%rcx), %r8d
	movl	$2, %edi
	cmpb	$-65, %r8b
	jle	.LBB4_3
	jmp	.LBB4_60
.LBB4_26:
	movq	(%r14,%rcx), %rax
	andq	%r12, %rax
	je	.LBB4_37
	rep		bsfq	%rax, %rax
	shrl	$3, %eax
	addq	%rcx, %rax
	addq	$8, %rcx
	movq	%rax, %rdi
	cmpq	%rcx, %rax
	jb	.LBB4_4
	movq	%r15, %rcx
	subq	%rax, %rcx
	cmpq	$32, %rcx
	jae	.LBB4_38
	jmp	.LBB4_40
.LBB4_29:
	cmpb	$-17, %sil
	ja	.LBB4_48
	cmpq	$3, %rax
	jb	.LBB4_55
	movzbl	1(%r14,%rcx), %r8d
	cmpb	$-65, %r8b
	jg	.LBB4_60
	cmpb	$-65, 2(%r14,%rcx)
	jg	.LBB4_60
	movzbl	%r8b, %edi
	movl	%esi, %r9d
	shll	$6, %r9d
	addl	%edi, %r9d
	addl	$-14464, %r9d
	cmpl	$32, %r9d
	jb	.LBB4_60
	xorl	%r8d, %r8d
	cmpl	$896, %r9d
	setae	%r10b
	movl	$3, %edi
	cmpl	$864, %r9d
	jb	.LBB4_3
	movb	%r10b, %r8b
	leaq	(%r8,%r8,2), %rdi
	testq	%rdi, %rdi
	jne	.LBB4_3
	jmp	.LBB4_54
.LBB4_36:
	movq	%rcx, %rdi
	jmp	.LBB4_4
.LBB4_37:
	addq	$8, %rcx
	movq	%rcx, %rax
	movq	%r15, %rcx
	subq	%rax, %rcx
	cmpq	$32, %rcx
	jb	.LBB4_40
	.p2align	4
.LBB4_38:
	movdqu	(%r14,%rax), %xmm0
	movdqu	16(%r14,%rax), %xmm1
	por	%xmm0, %xmm1
	pshufd	$238, %xmm1, %xmm0
	por	%xmm1, %xmm0
	movq	%xmm0, %rcx
	testq	%r12, %rcx
	jne	.LBB4_40
	addq	$32, %rax
	movq	%rsp, %rdi
	movq	%rax, %rsi
	movq	%r15, %rdx
	callq	core__slice__words__skip_far____52f9edcae2f82f51_
	movq	%r15, %rcx
	subq	%rax, %rcx
	cmpq	$31, %rcx
	ja	.LBB4_38
.LBB4_40:
	movq	%r15, %rcx
	subq	%rax, %rcx
	jmp	.LBB4_43
	.p2align	4
.LBB4_41:
	rep		bsfq	%rdx, %rdi
	shrl	$3, %edi
	addq	%rax, %rdi
	addq	$8, %rax
	addq	$-8, %rcx
	cmpq	%rax, %rdi
	jb	.LBB4_4
.LBB4_43:
	cmpq	$9, %rcx
	jb	.LBB4_46
	movq	(%r14,%rax), %rdx
	andq	%r12, %rdx
	jne	.LBB4_41
	leaq	8(%rax), %rdi
	addq	$8, %rax
	addq	$-8, %rcx
	cmpq	%rax, %rdi
	jae	.LBB4_43
	jmp	.LBB4_4
.LBB4_46:
	movq	(%r14,%r13), %rax
	andq	%r12, %rax
	je	.LBB4_57
	rep		bsfq	%rax, %rdi
	shrl	$3, %edi
	addq	%r13, %rdi
	jmp	.LBB4_4
.LBB4_48:
	cmpq	$4, %rax
	jb	.LBB4_54
	movzbl	1(%r14,%rcx), %edi
	cmpb	$-65, %dil
	jg	.LBB4_54
	cmpb	$-65, 2(%r14,%rcx)
	jg	.LBB4_54
	cmpb	$-65, 3(%r14,%rcx)
	jg	.LBB4_54
	movl	%esi, %r8d
	shll	$6, %r8d
	leal	(%r8,%rdi), %r9d
	addl	$-15488, %r9d
	xorl	%edi, %edi
	cmpl	$272, %r9d
	setb	%r8b
	cmpl	$16, %r9d
	jb	.LBB4_54
	movb	%r8b, %dil
	shll	$2, %edi
	testq	%rdi, %rdi
	jne	.LBB4_3
.LBB4_54:
	cmpb	$-12, %sil
	ja	.LBB4_66
.LBB4_55:
	cmpq	$2, %rax
	jb	.LBB4_58
	movzbl	1(%r14,%rcx), %r8d
.LBB4_60:
	cmpl	$240, %esi
	sete	%dil
	shlb	$4, %dil
	orb	$-128, %dil
	cmpl	$224, %esi
	movzbl	%dil, %edi
	movl	$160, %r9d
	cmovnel	%edi, %r9d
	cmpl	$244, %esi
	movl	$143, %edi
	movl	$191, %r10d
	cmovel	%edi, %r10d
	cmpl	$237, %esi
	movl	$159, %esi
	cmovnel	%r10d, %esi
	cmpb	%r8b, %r9b
	ja	.LBB4_66
	cmpb	%sil, %r8b
	ja	.LBB4_66
	cmpq	$2, %rax
	jne	.LBB4_64
.LBB4_58:
	xorl	%edx, %edx
.LBB4_66:
	movq	$1, (%rbx)
	movq	%rcx, 8(%rbx)
	movq	%rdx, 16(%rbx)
	jmp	.LBB4_67
.LBB4_57:
	movq	$0, (%rbx)
	movq	%r14, 8(%rbx)
	movq	%r15, 16(%rbx)
.LBB4_67:
	addq	$16, %rsp
	popq	%rbx
	popq	%r12
	popq	%r13
	popq	%r14
	popq	%r15
	retq
.LBB4_64:
	movl	$513, %edx
	cmpb	$-65, 2(%r14,%rcx)
	jg	.LBB4_66
	xorl	%esi, %esi
	cmpq	$4, %rax
	movl	$769, %edx
	cmovbq	%rsi, %rdx
	jmp	.LBB4_66
.Lfunc_end4:
	.size	core__str__utf8__from_utf8, .Lfunc_end4-core__str__utf8__from_utf8

	.section	.text.core__slice__words__skip_far____52f9edcae2f82f51_,"ax",@progbits
	.p2align	4
	.type	core__slice__words__skip_far____52f9edcae2f82f51_,@function
core__slice__words__skip_far____52f9edcae2f82f51_:
	movq	%rsi, %rax
	subq	%rsi, %rdx
	cmpq	$64, %rdx
	jb	.LBB5_4
	movq	(%rdi), %rcx
	.p2align	4
.LBB5_2:
	movdqu	(%rcx,%rax), %xmm0
	movdqu	16(%rcx,%rax), %xmm1
	movdqu	32(%rcx,%rax), %xmm2
	por	%xmm0, %xmm2
	movdqu	48(%rcx,%rax), %xmm0
	por	%xmm1, %xmm0
	por	%xmm2, %xmm0
	pshufd	$238, %xmm0, %xmm1
	por	%xmm0, %xmm1
	movq	%xmm1, %rsi
	movabsq	$-9187201950435737472, %rdi
	testq	%rdi, %rsi
	jne	.LBB5_4
	addq	$64, %rax
	addq	$-64, %rdx
	cmpq	$63, %rdx
	ja	.LBB5_2
.LBB5_4:
	retq
.Lfunc_end5:
	.size	core__slice__words__skip_far____52f9edcae2f82f51_, .Lfunc_end5-core__slice__words__skip_far____52f9edcae2f82f51_

	.section	.rodata.cst16,"aM",@progbits,16
	.p2align	4, 0x0
.LCPI6_0:
	.zero	16,32
.LCPI6_1:
	.zero	16,123
.LCPI6_2:
	.zero	16,125
.LCPI6_3:
	.zero	16,58
.LCPI6_4:
	.zero	16,44
.LCPI6_5:
	.zero	16,10
.LCPI6_6:
	.zero	16,251
.LCPI6_7:
	.zero	16,9
.LCPI6_8:
	.zero	16,92
.LCPI6_9:
	.zero	16,34
	.section	.text.json__index__refill,"ax",@progbits
	.p2align	4
	.type	json__index__refill,@function
json__index__refill:
	pushq	%rbp
	movq	%rsp, %rbp
	pushq	%r15
	pushq	%r14
	pushq	%r13
	pushq	%r12
	pushq	%rbx
	andq	$-64, %rsp
	subq	$192, %rsp
	movq	%rcx, 24(%rsp)
	movq	%rsi, 40(%rsp)
	movq	%rdi, 56(%rsp)
	movzbl	(%r9), %eax
	movzbl	1(%r9), %r13d
	movzbl	2(%r9), %r12d
	movb	$0, 20(%rsp)
	movl	$0, 16(%rsp)
	movq	%rdx, 32(%rsp)
	cmpq	%rdx, %r8
	movl	%eax, 12(%rsp)
	jae	.LBB6_1
	movabsq	$6148914691236517205, %r10
	movq	%r8, %r14
	.p2align	4
.LBB6_3:
	movq	%r14, %r8
	xorl	%eax, %eax
	xorl	%ebx, %ebx
	movq	%r14, 48(%rsp)
	jmp	.LBB6_4
	.p2align	4
.LBB6_12:
	shrq	$63, %rdx
	movl	%edx, %r13d
	shrq	$63, %r8
	movl	%r8d, %r12d
	addq	%rcx, %rbx
	leaq	64(%rax), %r15
	cmpq	$4032, %rax
	movq	%r15, %rax
	movq	48(%rsp), %r8
	movabsq	$6148914691236517205, %r10
	jae	.LBB6_13
.LBB6_4:
	leaq	(%rax,%r8), %r14
	movq	32(%rsp), %rcx
	subq	%r14, %rcx
	movabsq	$1085102592571150095, %r15
	movabsq	$72340172838076673, %r11
	cmpq	$64, %rcx
	jb	.LBB6_5
	movq	40(%rsp), %rcx
	movdqu	(%rcx,%r14), %xmm3
	movdqu	16(%rcx,%r14), %xmm2
	movdqu	32(%rcx,%r14), %xmm1
	movdqu	48(%rcx,%r14), %xmm0
	movdqa	.LCPI6_0(%rip), %xmm4
	movdqa	%xmm0, %xmm5
	por	%xmm4, %xmm5
	movdqa	%xmm1, %xmm6
	por	%xmm4, %xmm6
	movdqa	%xmm2, %xmm7
	por	%xmm4, %xmm7
	movdqa	%xmm3, %xmm8
	por	%xmm4, %xmm8
	movdqa	.LCPI6_1(%rip), %xmm9
	movdqa	%xmm8, %xmm10
	pcmpeqb	%xmm9, %xmm10
	movdqa	%xmm7, %xmm11
	pcmpeqb	%xmm9, %xmm11
	movdqa	%xmm6, %xmm12
	pcmpeqb	%xmm9, %xmm12
	pcmpeqb	%xmm5, %xmm9
	movdqa	.LCPI6_2(%rip), %xmm13
	pcmpeqb	%xmm13, %xmm8
	por	%xmm10, %xmm8
	pcmpeqb	%xmm13, %xmm7
	por	%xmm11, %xmm7
	pcmpeqb	%xmm13, %xmm6
	por	%xmm12, %xmm6
	pcmpeqb	%xmm13, %xmm5
	por	%xmm9, %xmm5
	movdqa	.LCPI6_3(%rip), %xmm10
	movdqa	%xmm0, %xmm11
	pcmpeqb	%xmm10, %xmm11
	movdqa	%xmm1, %xmm12
	pcmpeqb	%xmm10, %xmm12
	movdqa	%xmm2, %xmm13
	pcmpeqb	%xmm10, %xmm13
	pcmpeqb	%xmm3, %xmm10
	movdqa	.LCPI6_4(%rip), %xmm9
	movdqa	%xmm3, %xmm14
	pcmpeqb	%xmm9, %xmm14
	por	%xmm10, %xmm14
	por	%xmm8, %xmm14
	movdqa	%xmm2, %xmm8
	pcmpeqb	%xmm9, %xmm8
	por	%xmm13, %xmm8
	por	%xmm7, %xmm8
	movdqa	%xmm1, %xmm7
	pcmpeqb	%xmm9, %xmm7
	por	%xmm12, %xmm7
	por	%xmm6, %xmm7
	pcmpeqb	%xmm0, %xmm9
	por	%xmm11, %xmm9
	por	%xmm5, %xmm9
	pmovmskb	%xmm14, %ecx
	pmovmskb	%xmm8, %edx
	shll	$16, %edx
	orl	%ecx, %edx
	pmovmskb	%xmm7, %esi
	shlq	$32, %rsi
	orq	%rdx, %rsi
	pmovmskb	%xmm9, %ecx
	shlq	$48, %rcx
	orq	%rsi, %rcx
	movdqa	%xmm0, %xmm6
	pcmpeqb	%xmm4, %xmm6
	movdqa	%xmm1, %xmm7
	pcmpeqb	%xmm4, %xmm7
	movdqa	%xmm2, %xmm8
	pcmpeqb	%xmm4, %xmm8
	pcmpeqb	%xmm3, %xmm4
	movdqa	.LCPI6_5(%rip), %xmm9
	movdqa	%xmm0, %xmm5
	pcmpeqb	%xmm9, %xmm5
	por	%xmm6, %xmm5
	movdqa	%xmm1, %xmm6
	pcmpeqb	%xmm9, %xmm6
	por	%xmm7, %xmm6
	movdqa	%xmm2, %xmm7
	pcmpeqb	%xmm9, %xmm7
	por	%xmm8, %xmm7
	pcmpeqb	%xmm3, %xmm9
	por	%xmm4, %xmm9
	movdqa	.LCPI6_6(%rip), %xmm8
	movdqa	%xmm0, %xmm4
	pand	%xmm8, %xmm4
	movdqa	%xmm1, %xmm10
	pand	%xmm8, %xmm10
	movdqa	%xmm2, %xmm11
	pand	%xmm8, %xmm11
	pand	%xmm3, %xmm8
	movdqa	.LCPI6_7(%rip), %xmm12
	pcmpeqb	%xmm12, %xmm8
	por	%xmm9, %xmm8
	pcmpeqb	%xmm12, %xmm11
	por	%xmm7, %xmm11
	pcmpeqb	%xmm12, %xmm10
	por	%xmm6, %xmm10
	pcmpeqb	%xmm12, %xmm4
	por	%xmm5, %xmm4
	pmovmskb	%xmm8, %edx
	pmovmskb	%xmm11, %esi
	shll	$16, %esi
	orl	%edx, %esi
	pmovmskb	%xmm10, %edx
	shlq	$32, %rdx
	orq	%rsi, %rdx
	pmovmskb	%xmm4, %esi
	shlq	$48, %rsi
	orq	%rdx, %rsi
	orq	%rcx, %rsi
	notq	%rsi
	movdqa	.LCPI6_8(%rip), %xmm4
	movdqa	%xmm0, %xmm5
	pcmpeqb	%xmm4, %xmm5
	movdqa	%xmm1, %xmm6
	pcmpeqb	%xmm4, %xmm6
	movdqa	%xmm2, %xmm7
	pcmpeqb	%xmm4, %xmm7
	pcmpeqb	%xmm3, %xmm4
	pmovmskb	%xmm4, %edx
	pmovmskb	%xmm7, %edi
	shll	$16, %edi
	orl	%edx, %edi
	pmovmskb	%xmm6, %r8d
	shlq	$32, %r8
	orq	%rdi, %r8
	pmovmskb	%xmm5, %edx
	shlq	$48, %rdx
	movl	12(%rsp), %edi
	andb	$1, %dil
	orq	%r8, %rdx
	movzbl	%dil, %edi
	je	.LBB6_7
	movq	%rdi, %r8
	notq	%r8
	andq	%rdx, %r8
	leaq	(%rdi,%r8,2), %r9
	movabsq	$-6148914691236517206, %rdi
	andq	%rdi, %rdx
	movq	%r9, %rdi
	notq	%rdi
	andq	%rdx, %rdi
	addq	%r8, %rdi
	setb	%dl
	movl	%edx, 12(%rsp)
	addq	%rdi, %rdi
	xorq	%r10, %rdi
	andq	%r9, %rdi
	jmp	.LBB6_9
	.p2align	4
.LBB6_7:
	movl	$0, 12(%rsp)
.LBB6_9:
	movdqa	.LCPI6_9(%rip), %xmm4
	pcmpeqb	%xmm4, %xmm0
	pcmpeqb	%xmm4, %xmm1
	pcmpeqb	%xmm4, %xmm2
	pcmpeqb	%xmm4, %xmm3
	pmovmskb	%xmm3, %edx
	pmovmskb	%xmm2, %r8d
	shll	$16, %r8d
	orl	%edx, %r8d
	pmovmskb	%xmm1, %edx
	shlq	$32, %rdx
	orq	%r8, %rdx
	pmovmskb	%xmm0, %r8d
	shlq	$48, %r8
	orq	%rdx, %r8
	notq	%rdi
	andq	%r8, %rdi
	leaq	(%rdi,%rdi), %rdx
	xorq	%rdi, %rdx
	leaq	(,%rdx,4), %r8
	xorq	%rdx, %r8
	movq	%r8, %rdx
	shlq	$4, %rdx
	xorq	%r8, %rdx
	movq	%rdx, %r8
	shlq	$8, %r8
	xorq	%rdx, %r8
	movq	%r8, %rdx
	shlq	$16, %rdx
	xorq	%r8, %rdx
	andb	$1, %r13b
	movzbl	%r13b, %r8d
	negq	%r8
	xorq	%rdx, %r8
	shlq	$32, %rdx
	xorq	%r8, %rdx
	notq	%rdi
	movq	%rdi, %r8
	andq	%rsi, %r8
	andb	$1, %r12b
	movzbl	%r12b, %r9d
	leaq	(%r9,%r8,2), %r9
	notq	%r9
	andq	%rsi, %r9
	orq	%rcx, %r9
	xorq	%rdx, %rdi
	andq	%r9, %rdi
	movq	%rdi, %rcx
	shrq	%rcx
	andq	%r10, %rcx
	movq	%rdi, %rsi
	subq	%rcx, %rsi
	movq	%rsi, %rcx
	movabsq	$3689348814741910323, %r9
	andq	%r9, %rcx
	shrq	$2, %rsi
	andq	%r9, %rsi
	addq	%rcx, %rsi
	movq	%rsi, %rcx
	shrq	$4, %rcx
	addq	%rsi, %rcx
	andq	%r15, %rcx
	imulq	%r11, %rcx
	shrq	$56, %rcx
	movl	$64, %esi
	movl	$64, %r9d
	rep		bsfq	%rdi, %r9
	addl	%eax, %r9d
	movq	24(%rsp), %r11
	movl	%r9d, (%r11,%rbx,4)
	leaq	-1(%rdi), %r9
	andq	%rdi, %r9
	movl	$64, %edi
	rep		bsfq	%r9, %rdi
	addl	%eax, %edi
	movl	%edi, 4(%r11,%rbx,4)
	leaq	-1(%r9), %r10
	andq	%r9, %r10
	movl	$64, %edi
	rep		bsfq	%r10, %rdi
	addl	%eax, %edi
	movl	%edi, 8(%r11,%rbx,4)
	leaq	-1(%r10), %rdi
	andq	%r10, %rdi
	rep		bsfq	%rdi, %rsi
	addl	%eax, %esi
	movl	%esi, 12(%r11,%rbx,4)
	cmpq	$5, %rcx
	jb	.LBB6_12
	leaq	-1(%rdi), %r10
	andq	%rdi, %r10
	movq	24(%rsp), %rsi
	leaq	(%rsi,%rbx,4), %rsi
	movl	$4, %edi
	.p2align	4
.LBB6_11:
	movl	$64, %r9d
	movl	$64, %r11d
	rep		bsfq	%r10, %r11
	addl	%eax, %r11d
	movl	%r11d, (%rsi,%rdi,4)
	leaq	-1(%r10), %r11
	andq	%r10, %r11
	movl	$64, %r10d
	rep		bsfq	%r11, %r10
	addl	%eax, %r10d
	movl	%r10d, 4(%rsi,%rdi,4)
	leaq	-1(%r11), %r10
	andq	%r11, %r10
	movl	$64, %r11d
	rep		bsfq	%r10, %r11
	addl	%eax, %r11d
	movl	%r11d, 8(%rsi,%rdi,4)
	leaq	-1(%r10), %r11
	andq	%r10, %r11
	rep		bsfq	%r11, %r9
	addl	%eax, %r9d
	movl	%r9d, 12(%rsi,%rdi,4)
	leaq	-1(%r11), %r10
	andq	%r11, %r10
	addq	$4, %rdi
	cmpq	%rcx, %rdi
	jb	.LBB6_11
	jmp	.LBB6_12
	.p2align	4
.LBB6_5:
	movq	%rax, %r15
	jmp	.LBB6_15
	.p2align	4
.LBB6_13:
	cmpq	$4096, %r15
	jne	.LBB6_14
	leaq	4096(%r8), %r14
	movb	$0, 20(%rsp)
	movl	$0, 16(%rsp)
	testq	%rbx, %rbx
	je	.LBB6_26
	jmp	.LBB6_27
	.p2align	4
.LBB6_14:
	leaq	(%r15,%r8), %r14
	movabsq	$72340172838076673, %r11
.LBB6_15:
	movdqa	.LCPI6_0(%rip), %xmm14
	movdqa	%xmm14, 112(%rsp)
	movdqa	%xmm14, 96(%rsp)
	movdqa	%xmm14, 80(%rsp)
	movdqa	%xmm14, 64(%rsp)
	movq	32(%rsp), %rdx
	subq	%r14, %rdx
	jne	.LBB6_17
	movdqa	%xmm14, %xmm2
	movdqa	%xmm14, %xmm3
	movdqa	%xmm14, %xmm1
	movdqa	%xmm14, %xmm0
	jmp	.LBB6_18
	.p2align	4
.LBB6_17:
	movq	40(%rsp), %rax
	leaq	(%rax,%r14), %rsi
	leaq	64(%rsp), %rdi
	callq	memcpy@PLT
	movdqa	.LCPI6_0(%rip), %xmm14
	movabsq	$72340172838076673, %r11
	movabsq	$6148914691236517205, %r10
	movq	48(%rsp), %r8
	movdqa	64(%rsp), %xmm2
	movdqa	80(%rsp), %xmm3
	movdqa	96(%rsp), %xmm1
	movdqa	112(%rsp), %xmm0
.LBB6_18:
	movdqa	%xmm0, %xmm4
	por	%xmm14, %xmm4
	movdqa	%xmm1, %xmm5
	por	%xmm14, %xmm5
	movdqa	%xmm3, %xmm6
	por	%xmm14, %xmm6
	movdqa	%xmm2, %xmm7
	por	%xmm14, %xmm7
	movdqa	.LCPI6_1(%rip), %xmm8
	movdqa	%xmm7, %xmm9
	pcmpeqb	%xmm8, %xmm9
	movdqa	%xmm6, %xmm10
	pcmpeqb	%xmm8, %xmm10
	movdqa	%xmm5, %xmm11
	pcmpeqb	%xmm8, %xmm11
	pcmpeqb	%xmm4, %xmm8
	movdqa	.LCPI6_2(%rip), %xmm12
	pcmpeqb	%xmm12, %xmm7
	por	%xmm9, %xmm7
	pcmpeqb	%xmm12, %xmm6
	por	%xmm10, %xmm6
	pcmpeqb	%xmm12, %xmm5
	por	%xmm11, %xmm5
	pcmpeqb	%xmm12, %xmm4
	por	%xmm8, %xmm4
	movdqa	.LCPI6_3(%rip), %xmm9
	movdqa	%xmm0, %xmm10
	pcmpeqb	%xmm9, %xmm10
	movdqa	%xmm1, %xmm11
	pcmpeqb	%xmm9, %xmm11
	movdqa	%xmm3, %xmm12
	pcmpeqb	%xmm9, %xmm12
	pcmpeqb	%xmm2, %xmm9
	movdqa	.LCPI6_4(%rip), %xmm8
	movdqa	%xmm2, %xmm13
	pcmpeqb	%xmm8, %xmm13
	por	%xmm9, %xmm13
	por	%xmm7, %xmm13
	movdqa	%xmm3, %xmm7
	pcmpeqb	%xmm8, %xmm7
	por	%xmm12, %xmm7
	por	%xmm6, %xmm7
	movdqa	%xmm1, %xmm6
	pcmpeqb	%xmm8, %xmm6
	por	%xmm11, %xmm6
	por	%xmm5, %xmm6
	pcmpeqb	%xmm0, %xmm8
	por	%xmm10, %xmm8
	por	%xmm4, %xmm8
	pmovmskb	%xmm13, %eax
	pmovmskb	%xmm7, %ecx
	shll	$16, %ecx
	orl	%eax, %ecx
	pmovmskb	%xmm6, %edx
	shlq	$32, %rdx
	orq	%rcx, %rdx
	pmovmskb	%xmm8, %eax
	shlq	$48, %rax
	orq	%rdx, %rax
	movdqa	%xmm0, %xmm5
	pcmpeqb	%xmm14, %xmm5
	movdqa	%xmm1, %xmm7
	pcmpeqb	%xmm14, %xmm7
	movdqa	%xmm3, %xmm8
	pcmpeqb	%xmm14, %xmm8
	pcmpeqb	%xmm2, %xmm14
	movdqa	.LCPI6_5(%rip), %xmm9
	movdqa	%xmm0, %xmm4
	pcmpeqb	%xmm9, %xmm4
	por	%xmm5, %xmm4
	movdqa	%xmm1, %xmm6
	pcmpeqb	%xmm9, %xmm6
	por	%xmm7, %xmm6
	movdqa	%xmm3, %xmm7
	pcmpeqb	%xmm9, %xmm7
	por	%xmm8, %xmm7
	pcmpeqb	%xmm2, %xmm9
	por	%xmm14, %xmm9
	movdqa	.LCPI6_6(%rip), %xmm8
	movdqa	%xmm0, %xmm5
	pand	%xmm8, %xmm5
	movdqa	%xmm1, %xmm10
	pand	%xmm8, %xmm10
	movdqa	%xmm3, %xmm11
	pand	%xmm8, %xmm11
	pand	%xmm2, %xmm8
	movdqa	.LCPI6_7(%rip), %xmm12
	pcmpeqb	%xmm12, %xmm8
	por	%xmm9, %xmm8
	pcmpeqb	%xmm12, %xmm11
	por	%xmm7, %xmm11
	pcmpeqb	%xmm12, %xmm10
	por	%xmm6, %xmm10
	pcmpeqb	%xmm12, %xmm5
	por	%xmm4, %xmm5
	pmovmskb	%xmm8, %ecx
	pmovmskb	%xmm11, %edx
	shll	$16, %edx
	orl	%ecx, %edx
	pmovmskb	%xmm10, %ecx
	shlq	$32, %rcx
	orq	%rdx, %rcx
	pmovmskb	%xmm5, %esi
	shlq	$48, %rsi
	orq	%rcx, %rsi
	orq	%rax, %rsi
	notq	%rsi
	movdqa	.LCPI6_8(%rip), %xmm4
	movdqa	%xmm0, %xmm5
	pcmpeqb	%xmm4, %xmm5
	movdqa	%xmm1, %xmm6
	pcmpeqb	%xmm4, %xmm6
	movdqa	%xmm3, %xmm7
	pcmpeqb	%xmm4, %xmm7
	pcmpeqb	%xmm2, %xmm4
	pmovmskb	%xmm4, %ecx
	pmovmskb	%xmm7, %edx
	shll	$16, %edx
	orl	%ecx, %edx
	pmovmskb	%xmm6, %edi
	shlq	$32, %rdi
	orq	%rdx, %rdi
	pmovmskb	%xmm5, %ecx
	shlq	$48, %rcx
	movl	12(%rsp), %edx
	andb	$1, %dl
	orq	%rdi, %rcx
	movzbl	%dl, %edi
	je	.LBB6_19
	movq	%rdi, %rdx
	notq	%rdx
	andq	%rcx, %rdx
	leaq	(%rdi,%rdx,2), %r9
	movabsq	$-6148914691236517206, %rdi
	andq	%rdi, %rcx
	movq	%r9, %rdi
	notq	%rdi
	andq	%rcx, %rdi
	addq	%rdx, %rdi
	setb	%cl
	movl	%ecx, 12(%rsp)
	addq	%rdi, %rdi
	xorq	%r10, %rdi
	andq	%r9, %rdi
	jmp	.LBB6_21
	.p2align	4
.LBB6_19:
	movl	$0, 12(%rsp)
.LBB6_21:
	movdqa	.LCPI6_9(%rip), %xmm4
	pcmpeqb	%xmm4, %xmm0
	pcmpeqb	%xmm4, %xmm1
	pcmpeqb	%xmm4, %xmm3
	pcmpeqb	%xmm4, %xmm2
	pmovmskb	%xmm2, %ecx
	pmovmskb	%xmm3, %edx
	shll	$16, %edx
	orl	%ecx, %edx
	pmovmskb	%xmm1, %ecx
	shlq	$32, %rcx
	orq	%rdx, %rcx
	pmovmskb	%xmm0, %edx
	shlq	$48, %rdx
	orq	%rcx, %rdx
	notq	%rdi
	andq	%rdx, %rdi
	leaq	(%rdi,%rdi), %rcx
	xorq	%rdi, %rcx
	leaq	(,%rcx,4), %rdx
	xorq	%rcx, %rdx
	movq	%rdx, %rcx
	shlq	$4, %rcx
	xorq	%rdx, %rcx
	movq	%rcx, %rdx
	shlq	$8, %rdx
	xorq	%rcx, %rdx
	movq	%rdx, %rcx
	shlq	$16, %rcx
	xorq	%rdx, %rcx
	andb	$1, %r13b
	movzbl	%r13b, %edx
	negq	%rdx
	xorq	%rcx, %rdx
	shlq	$32, %rcx
	xorq	%rdx, %rcx
	notq	%rdi
	movq	%rdi, %rdx
	andq	%rsi, %rdx
	andb	$1, %r12b
	movzbl	%r12b, %r9d
	leaq	(%r9,%rdx,2), %r9
	notq	%r9
	andq	%rsi, %r9
	orq	%rax, %r9
	xorq	%rcx, %rdi
	andq	%r9, %rdi
	movq	%rdi, %rax
	shrq	%rax
	andq	%r10, %rax
	movq	%rdi, %rsi
	subq	%rax, %rsi
	movq	%rsi, %rax
	movabsq	$3689348814741910323, %r9
	andq	%r9, %rax
	shrq	$2, %rsi
	andq	%r9, %rsi
	addq	%rax, %rsi
	movq	%rsi, %rax
	shrq	$4, %rax
	addq	%rsi, %rax
	movabsq	$1085102592571150095, %rsi
	andq	%rsi, %rax
	imulq	%r11, %rax
	shrq	$56, %rax
	movl	$64, %esi
	movl	$64, %r9d
	rep		bsfq	%rdi, %r9
	addl	%r15d, %r9d
	movq	24(%rsp), %r11
	movl	%r9d, (%r11,%rbx,4)
	leaq	-1(%rdi), %r10
	andq	%rdi, %r10
	movl	$64, %edi
	rep		bsfq	%r10, %rdi
	addl	%r15d, %edi
	movl	%edi, 4(%r11,%rbx,4)
	leaq	-1(%r10), %r9
	andq	%r10, %r9
	movl	$64, %edi
	rep		bsfq	%r9, %rdi
	addl	%r15d, %edi
	movl	%edi, 8(%r11,%rbx,4)
	leaq	-1(%r9), %rdi
	andq	%r9, %rdi
	rep		bsfq	%rdi, %rsi
	addl	%r15d, %esi
	movl	%esi, 12(%r11,%rbx,4)
	cmpq	$5, %rax
	jb	.LBB6_24
	leaq	-1(%rdi), %r9
	andq	%rdi, %r9
	movq	24(%rsp), %rsi
	leaq	(%rsi,%rbx,4), %rsi
	movl	$4, %edi
	.p2align	4
.LBB6_23:
	movl	$64, %r11d
	movl	$64, %r10d
	rep		bsfq	%r9, %r10
	addl	%r15d, %r10d
	movl	%r10d, (%rsi,%rdi,4)
	leaq	-1(%r9), %r10
	andq	%r9, %r10
	movl	$64, %r9d
	rep		bsfq	%r10, %r9
	addl	%r15d, %r9d
	movl	%r9d, 4(%rsi,%rdi,4)
	leaq	-1(%r10), %r9
	andq	%r10, %r9
	movl	$64, %r10d
	rep		bsfq	%r9, %r10
	addl	%r15d, %r10d
	movl	%r10d, 8(%rsi,%rdi,4)
	leaq	-1(%r9), %r10
	andq	%r9, %r10
	rep		bsfq	%r10, %r11
	addl	%r15d, %r11d
	movl	%r11d, 12(%rsi,%rdi,4)
	leaq	-1(%r10), %r9
	andq	%r10, %r9
	addq	$4, %rdi
	cmpq	%rax, %rdi
	jb	.LBB6_23
.LBB6_24:
	shrq	$63, %rcx
	shrq	$63, %rdx
	addq	%rax, %rbx
	addq	$64, %r14
	movb	$0, 20(%rsp)
	movl	$0, 16(%rsp)
	movl	%ecx, %r13d
	movl	%edx, %r12d
	movabsq	$6148914691236517205, %r10
	testq	%rbx, %rbx
	jne	.LBB6_27
.LBB6_26:
	cmpq	32(%rsp), %r14
	jb	.LBB6_3
	jmp	.LBB6_27
.LBB6_1:
	xorl	%ebx, %ebx
	movq	%r8, %r14
.LBB6_27:
	movq	56(%rsp), %rcx
	movq	%r8, (%rcx)
	movq	%rbx, 8(%rcx)
	movq	%r14, 16(%rcx)
	movl	12(%rsp), %eax
	movb	%al, 24(%rcx)
	movb	%r13b, 25(%rcx)
	movb	%r12b, 26(%rcx)
	movl	16(%rsp), %eax
	movl	%eax, 27(%rcx)
	movzbl	20(%rsp), %eax
	movb	%al, 31(%rcx)
	leaq	-40(%rbp), %rsp
	popq	%rbx
	popq	%r12
	popq	%r13
	popq	%r14
	popq	%r15
	popq	%rbp
	retq
.Lfunc_end6:
	.size	json__index__refill, .Lfunc_end6-json__index__refill

	.section	.rodata.cst8,"aM",@progbits,8
	.p2align	3, 0x0
.LCPI7_0:
	.quad	0x7ff0000000000000
	.section	.text.serde_json__number__Number__parse,"ax",@progbits
	.p2align	4
	.type	serde_json__number__Number__parse,@function
serde_json__number__Number__parse:
	pushq	%rbp
	pushq	%r15
	pushq	%r14
	pushq	%r13
	pushq	%r12
	pushq	%rbx
	subq	$632, %rsp
	movq	%rdi, 24(%rsp)
	testq	%rdx, %rdx
	je	.LBB7_20
	cmpb	$45, (%rsi)
	jne	.LBB7_11
	leaq	1(%rsi), %rax
	movq	%rax, 8(%rsp)
	leaq	-1(%rdx), %rbp
	cmpq	$8, %rbp
	movq	%rbp, 16(%rsp)
	jb	.LBB7_27
	movabsq	$-9187201950435737472, %rcx
	movabsq	$9187201950435737470, %r9
	movabsq	$8536140394893047414, %r10
	movabsq	$3472328296227680304, %rbx
	movabsq	$4294967296000100, %r15
	movabsq	$42949672960001, %r12
	movabsq	$1095216660735, %r13
	xorl	%r11d, %r11d
	xorl	%r14d, %r14d
	.p2align	4
.LBB7_4:
	leaq	1(%rsi), %rax
	movq	(%rax,%r11), %r8
	movq	%r8, %rax
	xorq	%rbx, %rax
	movq	%rax, %rdi
	andq	%r9, %rdi
	addq	%r10, %rdi
	orq	%r8, %rdi
	testq	%rcx, %rdi
	jne	.LBB7_6
	leaq	(%rax,%rax,4), %rdi
	shrq	$8, %rax
	leaq	(%rax,%rdi,2), %rax
	movq	%rax, %rdi
	andq	%r13, %rdi
	imulq	%r15, %rdi
	shrq	$16, %rax
	andq	%r13, %rax
	imulq	%r12, %rax
	addq	%rdi, %rax
	shrq	$32, %rax
	imulq	$100000000, %r14, %r14
	addq	%rax, %r14
	addq	$8, %r11
	addq	$-8, %rbp
	cmpq	$7, %rbp
	ja	.LBB7_4
.LBB7_6:
	movb	$1, %r9b
	leaq	-1(%rdx), %rbp
	cmpq	%rbp, %r11
	jae	.LBB7_28
.LBB7_7:
	leaq	-1(%rdx), %rcx
	leaq	1(%rsi), %rdi
	.p2align	4
.LBB7_8:
	movzbl	1(%rsi,%r11), %eax
	leal	-48(%rax), %r10d
	cmpb	$9, %r10b
	ja	.LBB7_29
	leaq	(%r14,%r14,4), %rax
	movzbl	%r10b, %r8d
	leaq	(%r8,%rax,2), %r14
	incq	%r11
	cmpq	%r11, %rcx
	jne	.LBB7_8
	xorl	%r12d, %r12d
	movq	%rbp, %r11
	xorl	%r15d, %r15d
	xorl	%ecx, %ecx
	leaq	.Lstatic.79(%rip), %r10
	testq	%r11, %r11
	jne	.LBB7_65
	jmp	.LBB7_178
.LBB7_11:
	cmpq	$8, %rdx
	jb	.LBB7_20
	movabsq	$-9187201950435737472, %rax
	movabsq	$9187201950435737470, %rcx
	movabsq	$8536140394893047414, %r9
	movabsq	$3472328296227680304, %r10
	movabsq	$4294967296000100, %r11
	movabsq	$42949672960001, %r14
	movabsq	$1095216660735, %r15
	xorl	%r8d, %r8d
	movq	%rdx, %r12
	xorl	%ebx, %ebx
	.p2align	4
.LBB7_13:
	movq	(%rsi,%r8), %r13
	movq	%r13, %rdi
	xorq	%r10, %rdi
	movq	%rdi, %rbp
	andq	%rcx, %rbp
	addq	%r9, %rbp
	orq	%r13, %rbp
	testq	%rax, %rbp
	jne	.LBB7_15
	leaq	(%rdi,%rdi,4), %r13
	shrq	$8, %rdi
	leaq	(%rdi,%r13,2), %rdi
	movq	%rdi, %r13
	andq	%r15, %r13
	imulq	%r11, %r13
	shrq	$16, %rdi
	andq	%r15, %rdi
	imulq	%r14, %rdi
	addq	%r13, %rdi
	shrq	$32, %rdi
	imulq	$100000000, %rbx, %rbx
	addq	%rdi, %rbx
	addq	$8, %r8
	addq	$-8, %r12
	cmpq	$7, %r12
	ja	.LBB7_13
.LBB7_15:
	movb	$1, %cl
	cmpq	%rdx, %r8
	jae	.LBB7_21
.LBB7_16:
	movq	%r8, %rax
	.p2align	4
.LBB7_17:
	movzbl	(%rsi,%rax), %edi
	leal	-48(%rdi), %r8d
	cmpb	$9, %r8b
	ja	.LBB7_22
	leaq	(%rbx,%rbx,4), %rdi
	movzbl	%r8b, %r8d
	leaq	(%r8,%rdi,2), %rbx
	incq	%rax
	cmpq	%rax, %rdx
	jne	.LBB7_17
	xorl	%r15d, %r15d
	movq	%rdx, %r8
	xorl	%r11d, %r11d
	testq	%r8, %r8
	jne	.LBB7_89
	jmp	.LBB7_92
.LBB7_20:
	xorl	%ebx, %ebx
	xorl	%r8d, %r8d
	movb	$1, %cl
	cmpq	%rdx, %r8
	jb	.LBB7_16
.LBB7_21:
	xorl	%r15d, %r15d
	xorl	%r11d, %r11d
	testq	%r8, %r8
	jne	.LBB7_89
	jmp	.LBB7_92
.LBB7_22:
	cmpl	$46, %edi
	je	.LBB7_44
	cmpl	$69, %edi
	je	.LBB7_25
	cmpl	$101, %edi
	jne	.LBB7_43
.LBB7_25:
	leaq	1(%rax), %r8
	cmpq	%rdx, %r8
	jae	.LBB7_34
	movzbl	1(%rsi,%rax), %edi
	jmp	.LBB7_35
.LBB7_27:
	xorl	%r14d, %r14d
	xorl	%r11d, %r11d
	movb	$1, %r9b
	leaq	-1(%rdx), %rbp
	cmpq	%rbp, %r11
	jb	.LBB7_7
.LBB7_28:
	xorl	%r12d, %r12d
	xorl	%r15d, %r15d
	movq	8(%rsp), %rdi
	xorl	%ecx, %ecx
	leaq	.Lstatic.79(%rip), %r10
	testq	%r11, %r11
	jne	.LBB7_65
	jmp	.LBB7_178
.LBB7_29:
	cmpl	$46, %eax
	je	.LBB7_73
	cmpl	$69, %eax
	je	.LBB7_32
	cmpl	$101, %eax
	jne	.LBB7_63
.LBB7_32:
	leaq	1(%r11), %rcx
	cmpq	%rbp, %rcx
	jae	.LBB7_54
	movzbl	2(%rsi,%r11), %eax
	jmp	.LBB7_55
.LBB7_34:
	xorl	%edi, %edi
.LBB7_35:
	leaq	2(%rax), %r9
	addb	$-43, %dil
	testb	$-3, %dil
	cmovneq	%r8, %r9
	cmpq	%rdx, %r9
	jae	.LBB7_43
	xorl	%r11d, %r11d
	movl	$0, %r15d
	testq	%r9, %r9
	je	.LBB7_88
	movzbl	(%rsi,%r9), %edi
	addb	$-58, %dil
	cmpb	$-10, %dil
	jb	.LBB7_88
	movabsq	$1844674407370955162, %r10
	xorl	%r11d, %r11d
	movq	%r9, %rcx
	jmp	.LBB7_40
	.p2align	4
.LBB7_39:
	incq	%rcx
	movq	%rdi, %r11
	cmpq	%rcx, %rdx
	je	.LBB7_83
.LBB7_40:
	movzbl	(%rsi,%rcx), %ebp
	addb	$-48, %bpl
	cmpb	$9, %bpl
	ja	.LBB7_84
	movq	$-1, %rdi
	cmpq	%r10, %r11
	jae	.LBB7_39
	addq	%r11, %r11
	leaq	(%r11,%r11,4), %rdi
	movzbl	%bpl, %r11d
	addq	%rdi, %r11
	movq	$-1, %rdi
	cmovaeq	%r11, %rdi
	jmp	.LBB7_39
.LBB7_43:
	xorl	%r15d, %r15d
	movq	%rax, %r8
	xorl	%r11d, %r11d
	testq	%r8, %r8
	jne	.LBB7_89
	jmp	.LBB7_92
.LBB7_44:
	movabsq	$-9187201950435737472, %r12
	movabsq	$9187201950435737470, %r15
	movabsq	$8536140394893047414, %r13
	movabsq	$3472328296227680304, %r14
	movabsq	$4294967296000100, %r11
	movabsq	$42949672960001, %rdi
	movabsq	$1095216660735, %r10
	leaq	1(%rax), %r8
	jmp	.LBB7_47
	.p2align	4
.LBB7_45:
	rep		bsfq	%rcx, %rcx
	movl	%ecx, %ebp
	shrl	$3, %ebp
	notb	%cl
	andb	$56, %cl
	shlq	%cl, %r9
	imulq	$2561, %r9, %rcx
	movq	%rcx, %r9
	andq	%r10, %r9
	imulq	%r11, %r9
	shrq	$16, %rcx
	andq	%r10, %rcx
	imulq	%rdi, %rcx
	addq	%r9, %rcx
.LBB7_46:
	leaq	.Lstatic.5(%rip), %r9
	imulq	(%r9,%rbp,8), %rbx
	shrq	$32, %rcx
	addq	%rcx, %rbx
	addq	%rbp, %r8
	cmpq	$8, %rbp
	jb	.LBB7_114
.LBB7_47:
	movq	%rdx, %rcx
	subq	%r8, %rcx
	cmpq	$8, %rcx
	jb	.LBB7_50
	movq	(%rsi,%r8), %rbp
	movq	%rbp, %r9
	xorq	%r14, %r9
	movq	%r9, %rcx
	andq	%r15, %rcx
	addq	%r13, %rcx
	orq	%rbp, %rcx
	andq	%r12, %rcx
	jne	.LBB7_45
	leaq	(%r9,%r9,4), %rcx
	shrq	$8, %r9
	leaq	(%r9,%rcx,2), %rcx
	movq	%rcx, %r9
	andq	%r10, %r9
	imulq	%r11, %r9
	shrq	$16, %rcx
	andq	%r10, %rcx
	imulq	%rdi, %rcx
	addq	%r9, %rcx
	movl	$8, %ebp
	jmp	.LBB7_46
.LBB7_50:
	cmpq	$12, %rdx
	jb	.LBB7_79
	cmpq	%r8, %rdx
	jbe	.LBB7_79
	leaq	-8(%rdx), %r9
	movq	-8(%rsi,%rdx), %rbp
	movl	%r8d, %ecx
	subl	%r9d, %ecx
	shll	$3, %ecx
	shrq	%cl, %rbp
	xorq	%rbp, %r14
	andq	%r14, %r15
	addq	%r13, %r15
	orq	%rbp, %r15
	andq	%r12, %r15
	je	.LBB7_112
	rep		bsfq	%r15, %rcx
	movl	%ecx, %r15d
	shrl	$3, %r15d
	notb	%cl
	andb	$56, %cl
	shlq	%cl, %r14
	imulq	$2561, %r14, %rcx
	movq	%rcx, %r9
	andq	%r10, %r9
	imulq	%r11, %r9
	shrq	$16, %rcx
	andq	%r10, %rcx
	imulq	%rdi, %rcx
	addq	%r9, %rcx
	jmp	.LBB7_113
.LBB7_54:
	xorl	%eax, %eax
.LBB7_55:
	leaq	2(%r11), %rdx
	addb	$-43, %al
	testb	$-3, %al
	cmovneq	%rcx, %rdx
	cmpq	%rbp, %rdx
	jae	.LBB7_63
	xorl	%r15d, %r15d
	movl	$0, %r12d
	testq	%rdx, %rdx
	je	.LBB7_64
	movzbl	(%rdi,%rdx), %eax
	addb	$-58, %al
	cmpb	$-10, %al
	jb	.LBB7_64
	movabsq	$1844674407370955162, %r10
	xorl	%r15d, %r15d
	movq	%rdx, %r9
	jmp	.LBB7_60
.LBB7_59:
	incq	%r9
	movq	%rax, %r15
	cmpq	%r9, %rbp
	je	.LBB7_106
.LBB7_60:
	movzbl	(%rdi,%r9), %ebx
	addb	$-48, %bl
	cmpb	$9, %bl
	ja	.LBB7_107
	movq	$-1, %rax
	cmpq	%r10, %r15
	jae	.LBB7_59
	addq	%r15, %r15
	leaq	(%r15,%r15,4), %rax
	movzbl	%bl, %r8d
	addq	%rax, %r8
	movq	$-1, %rax
	cmovaeq	%r8, %rax
	jmp	.LBB7_59
.LBB7_63:
	xorl	%r12d, %r12d
	xorl	%r15d, %r15d
.LBB7_64:
	xorl	%ecx, %ecx
	leaq	.Lstatic.79(%rip), %r10
	testq	%r11, %r11
	je	.LBB7_178
.LBB7_65:
	testb	%r9b, %r9b
	je	.LBB7_178
	cmpq	$20, %r11
	jb	.LBB7_70
	leaq	.Lstatic.79(%rip), %r10
	movq	%r10, %rsi
	subq	%r11, %rsi
	xorl	%eax, %eax
	xorl	%ebx, %ebx
	xorl	%r9d, %r9d
	.p2align	4
.LBB7_68:
	movl	$10, %ecx
	mulq	%rcx
	movq	%rax, %rcx
	addq	%rbx, %rbx
	cmpq	%r11, %r9
	movq	%rsi, %rax
	cmovbq	%rdi, %rax
	movzbl	(%rax,%r9), %eax
	addb	$-48, %al
	movzbl	%al, %r8d
	leaq	(%rbx,%rbx,4), %r13
	xorl	%eax, %eax
	addq	%rcx, %r8
	adcq	%rdx, %r13
	movl	$1, %ebx
	cmoveq	%r13, %rbx
	cmoveq	%r8, %rax
	incq	%r9
	cmpq	%r9, %r11
	jne	.LBB7_68
	testq	%r13, %r13
	jne	.LBB7_111
.LBB7_70:
	movabsq	$-9223372036854775807, %rax
	cmpq	%rax, %r14
	setb	%al
	movq	%r14, %rbx
	negq	%rbx
	sets	%cl
	testb	%cl, %al
	je	.LBB7_72
	movl	$1, %eax
	movb	$1, %r9b
	jmp	.LBB7_202
.LBB7_72:
	leaq	.Lstatic.79(%rip), %r10
	xorl	%ecx, %ecx
	movq	%r11, %rax
	jmp	.LBB7_179
.LBB7_73:
	movabsq	$9187201950435737470, %r13
	movabsq	$8536140394893047414, %r10
	movabsq	$3472328296227680304, %r12
	movabsq	$42949672960001, %r8
	movabsq	$1095216660735, %rbx
	leaq	1(%r11), %r9
	jmp	.LBB7_76
.LBB7_74:
	leaq	(,%rbp,4), %rax
	addq	%rbp, %rax
	shrq	$8, %rbp
	leaq	(,%rax,2), %rcx
	addq	%rbp, %rcx
	movq	%rcx, %rax
	andq	%rbx, %rax
	movabsq	$4294967296000100, %rdi
	imulq	%rdi, %rax
	shrq	$16, %rcx
	andq	%rbx, %rcx
	imulq	%r8, %rcx
	addq	%rax, %rcx
	movl	$8, %r15d
.LBB7_75:
	leaq	.Lstatic.5(%rip), %rax
	imulq	(%rax,%r15,8), %r14
	shrq	$32, %rcx
	addq	%rcx, %r14
	addq	%r15, %r9
	cmpq	$8, %r15
	leaq	1(%rsi), %rdi
	leaq	-1(%rdx), %rbp
	jb	.LBB7_153
.LBB7_76:
	movq	%rbp, %rax
	subq	%r9, %rax
	cmpq	$8, %rax
	jb	.LBB7_97
	movq	(%rdi,%r9), %rax
	movq	%rax, %rbp
	xorq	%r12, %rbp
	movq	%rbp, %rcx
	andq	%r13, %rcx
	addq	%r10, %rcx
	orq	%rax, %rcx
	movabsq	$-9187201950435737472, %rax
	andq	%rax, %rcx
	je	.LBB7_74
	rep		bsfq	%rcx, %rcx
	movl	%ecx, %r15d
	shrl	$3, %r15d
	notb	%cl
	andb	$56, %cl
	shlq	%cl, %rbp
	imulq	$2561, %rbp, %rcx
	movq	%rcx, %rax
	andq	%rbx, %rax
	movabsq	$4294967296000100, %rdi
	imulq	%rdi, %rax
	shrq	$16, %rcx
	andq	%rbx, %rcx
	imulq	%r8, %rcx
	addq	%rax, %rcx
	jmp	.LBB7_75
.LBB7_79:
	cmpq	%r8, %rdx
	jbe	.LBB7_114
.LBB7_80:
	movzbl	(%rsi,%r8), %ecx
	addb	$-48, %cl
	cmpb	$9, %cl
	ja	.LBB7_114
	leaq	(%rbx,%rbx,4), %rdi
	movzbl	%cl, %ecx
	leaq	(%rcx,%rdi,2), %rbx
	incq	%r8
	cmpq	%r8, %rdx
	jne	.LBB7_80
	leaq	(%rsi,%rax), %r10
	incq	%r10
	movq	%rax, %rcx
	notq	%rcx
	addq	%rdx, %rcx
	jmp	.LBB7_118
.LBB7_83:
	movq	%rdi, %r11
	movq	%rdx, %rcx
.LBB7_84:
	cmpq	%rdx, %r8
	jae	.LBB7_86
	cmpb	$45, 1(%rsi,%rax)
	sete	%r15b
	jmp	.LBB7_87
.LBB7_86:
	xorl	%r15d, %r15d
.LBB7_87:
	cmpq	%r9, %rcx
	sete	%cl
.LBB7_88:
	movq	%rax, %r8
	testq	%r8, %r8
	je	.LBB7_92
.LBB7_89:
	testb	%cl, %cl
	je	.LBB7_92
	movb	$1, %r9b
	cmpq	$20, %r8
	jb	.LBB7_91
	leaq	.Lstatic.79(%rip), %r10
	movq	%r10, %r14
	subq	%r8, %r14
	xorl	%eax, %eax
	xorl	%r13d, %r13d
	xorl	%r12d, %r12d
	.p2align	4
.LBB7_94:
	movl	$10, %ecx
	mulq	%rcx
	movq	%rax, %rcx
	addq	%r13, %r13
	cmpq	%r8, %r12
	movq	%r14, %rax
	cmovbq	%rsi, %rax
	movzbl	(%rax,%r12), %eax
	addb	$-48, %al
	movzbl	%al, %ebp
	leaq	(,%r13,4), %rdi
	addq	%r13, %rdi
	xorl	%eax, %eax
	addq	%rcx, %rbp
	adcq	%rdx, %rdi
	movl	$1, %r13d
	cmoveq	%rdi, %r13
	cmoveq	%rbp, %rax
	incq	%r12
	cmpq	%r12, %r8
	jne	.LBB7_94
	testq	%rdi, %rdi
	jne	.LBB7_101
.LBB7_91:
	xorl	%eax, %eax
	jmp	.LBB7_202
.LBB7_92:
	leaq	.Lstatic.79(%rip), %r10
	xorl	%ecx, %ecx
	movq	%r8, %rax
	movl	$0, %r14d
	movq	%r8, %rdx
	movq	%r11, %r9
	testb	%r15b, %r15b
	je	.LBB7_120
	jmp	.LBB7_121
.LBB7_97:
	cmpq	$12, %rbp
	jb	.LBB7_102
	cmpq	%r9, %rbp
	jbe	.LBB7_102
	movq	%r8, %r15
	leaq	-9(%rdx), %rax
	movq	-9(%rdi,%rdx), %r8
	movl	%r9d, %ecx
	subl	%eax, %ecx
	shll	$3, %ecx
	shrq	%cl, %r8
	xorq	%r8, %r12
	andq	%r12, %r13
	addq	%r10, %r13
	orq	%r8, %r13
	movabsq	$-9187201950435737472, %rax
	andq	%rax, %r13
	je	.LBB7_151
	rep		bsfq	%r13, %rcx
	movl	%ecx, %r10d
	shrl	$3, %r10d
	notb	%cl
	andb	$56, %cl
	shlq	%cl, %r12
	imulq	$2561, %r12, %rcx
	movq	%rcx, %rax
	andq	%rbx, %rax
	movabsq	$4294967296000100, %r8
	imulq	%r8, %rax
	shrq	$16, %rcx
	andq	%rbx, %rcx
	imulq	%r15, %rcx
	addq	%rax, %rcx
	jmp	.LBB7_152
.LBB7_101:
	xorl	%ecx, %ecx
	testb	%r15b, %r15b
	movq	%r11, %r14
	cmovneq	%rcx, %r14
	cmoveq	%rcx, %r11
	movq	%r11, %r9
	jmp	.LBB7_165
.LBB7_102:
	cmpq	%r9, %rbp
	jbe	.LBB7_153
.LBB7_103:
	movzbl	(%rdi,%r9), %ecx
	addb	$-48, %cl
	cmpb	$9, %cl
	ja	.LBB7_153
	leaq	(%r14,%r14,4), %rax
	movzbl	%cl, %ecx
	leaq	(%rcx,%rax,2), %r14
	incq	%r9
	cmpq	%r9, %rbp
	jne	.LBB7_103
	leaq	(%rsi,%r11), %r10
	addq	$2, %r10
	subq	%r11, %rdx
	addq	$-2, %rdx
	xorl	%r15d, %r15d
	xorl	%r12d, %r12d
	movq	%rdx, %rcx
	leaq	(%rdx,%r11), %rax
	jmp	.LBB7_179
.LBB7_106:
	movq	%rax, %r15
	movq	%rbp, %r9
.LBB7_107:
	cmpq	%rbp, %rcx
	jae	.LBB7_109
	cmpb	$45, 2(%rsi,%r11)
	sete	%r12b
	jmp	.LBB7_110
.LBB7_109:
	xorl	%r12d, %r12d
.LBB7_110:
	cmpq	%rdx, %r9
	sete	%r9b
	xorl	%ecx, %ecx
	leaq	.Lstatic.79(%rip), %r10
	testq	%r11, %r11
	jne	.LBB7_65
	jmp	.LBB7_178
.LBB7_111:
	xorl	%ecx, %ecx
	testb	%r12b, %r12b
	movq	%r15, %rbx
	cmovneq	%rcx, %rbx
	cmoveq	%rcx, %r15
	movq	%r15, %r9
	jmp	.LBB7_196
.LBB7_112:
	leaq	(%r14,%r14,4), %rcx
	shrq	$8, %r14
	leaq	(%r14,%rcx,2), %rcx
	movq	%rcx, %r9
	andq	%r10, %r9
	imulq	%r11, %r9
	shrq	$16, %rcx
	andq	%r10, %rcx
	imulq	%rdi, %rcx
	addq	%r9, %rcx
	movl	$8, %r15d
.LBB7_113:
	shrq	$32, %rcx
	addq	%r15, %r8
	leaq	.Lstatic.5(%rip), %rdi
	imulq	(%rdi,%r15,8), %rbx
	addq	%rcx, %rbx
.LBB7_114:
	leaq	(%rsi,%rax), %r10
	incq	%r10
	movq	%rax, %rcx
	notq	%rcx
	addq	%r8, %rcx
	cmpq	%rdx, %r8
	jae	.LBB7_118
	movzbl	(%rsi,%r8), %edi
	orl	$32, %edi
	cmpl	$101, %edi
	jne	.LBB7_118
	leaq	1(%r8), %r9
	cmpq	%rdx, %r9
	jae	.LBB7_140
	movzbl	(%rsi,%r9), %edi
	jmp	.LBB7_141
.LBB7_118:
	xorl	%r11d, %r11d
.LBB7_119:
	leaq	(%rcx,%rax), %r8
.LBB7_120:
	movq	%r8, %rdx
	xorl	%r9d, %r9d
	movq	%r11, %r14
	movq	%rax, %r8
.LBB7_121:
	cmpq	$19, %rdx
	ja	.LBB7_165
.LBB7_122:
	shrq	$32, %r11
	jne	.LBB7_165
	xorpd	%xmm0, %xmm0
	testq	%rbx, %rbx
	je	.LBB7_166
	addq	%rcx, %r9
	movabsq	$9007199254740992, %rax
	movq	%r9, %r15
	subq	%r14, %r15
	jbe	.LBB7_128
	cmpq	%rax, %rbx
	ja	.LBB7_131
	cmpq	$22, %r15
	ja	.LBB7_131
	xorps	%xmm0, %xmm0
	cvtsi2sd	%rbx, %xmm0
	leaq	.Lstatic.6(%rip), %rax
	divsd	(%rax,%r15,8), %xmm0
	jmp	.LBB7_166
.LBB7_128:
	subq	%r9, %r14
	cmpq	%rax, %rbx
	ja	.LBB7_136
	cmpq	$22, %r14
	ja	.LBB7_136
	xorps	%xmm0, %xmm0
	cvtsi2sd	%rbx, %xmm0
	leaq	.Lstatic.6(%rip), %rax
	mulsd	(%rax,%r14,8), %xmm0
	jmp	.LBB7_166
.LBB7_131:
	cmpq	$342, %r15
	ja	.LBB7_166
	movl	$342, %r8d
	subq	%r15, %r8
	bsrq	%rbx, %rsi
	xorq	$63, %rsi
	movq	%rbx, %rax
	movl	%esi, %ecx
	shlq	%cl, %rax
	imull	$217706, %r8d, %edi
	movl	%r8d, %ecx
	shll	$4, %ecx
	leaq	.Lstatic.4(%rip), %rdx
	mulq	8(%rcx,%rdx)
	movq	%rdx, %rcx
	shrq	$63, %rcx
	addl	$58980, %edi
	shrl	$16, %edi
	leaq	(%rdi,%rcx), %r14
	addq	$1139, %r14
	addq	$1191, %rsi
	cmpq	%rsi, %r14
	jb	.LBB7_149
	movl	$-1024, %r9d
	shll	%cl, %r9d
	notl	%r9d
	movl	%edx, %eax
	movl	$512, %edi
	shlq	%cl, %rdi
	andl	%r9d, %eax
	movq	%rdi, %r9
	subq	%rax, %r9
	cmpq	$2, %r9
	jb	.LBB7_149
	orb	$10, %cl
	shrq	%cl, %rdx
	subl	%esi, %r14d
	shlq	$52, %r14
	cmpl	%eax, %edi
	adcq	%rdx, %r14
.LBB7_135:
	movq	%r14, %xmm0
	jmp	.LBB7_166
.LBB7_136:
	cmpq	$308, %r14
	jbe	.LBB7_138
	movsd	.LCPI7_0(%rip), %xmm0
	jmp	.LBB7_166
.LBB7_138:
	bsrq	%rbx, %rsi
	xorq	$63, %rsi
	movq	%rbx, %rax
	movl	%esi, %ecx
	shlq	%cl, %rax
	leaq	342(%r14), %r8
	movq	%r8, %rcx
	shlq	$4, %rcx
	leaq	.Lstatic.4(%rip), %rdx
	mulq	8(%rcx,%rdx)
	movq	%rdx, %rax
	shrq	$63, %rax
	movl	$-1024, %edi
	movl	%eax, %ecx
	shll	%cl, %edi
	notl	%edi
	movl	%edx, %r9d
	movl	$512, %r10d
	shlq	%cl, %r10
	andl	%edi, %r9d
	movq	%r10, %rcx
	subq	%r9, %rcx
	cmpq	$1, %rcx
	jbe	.LBB7_167
	leal	10(%rax), %ecx
	shrq	%cl, %rdx
	imull	$217706, %r8d, %ecx
	addl	$58980, %ecx
	shrl	$16, %ecx
	subl	%esi, %ecx
	leal	(%rcx,%rax), %r15d
	addl	$-52, %r15d
	shlq	$52, %r15
	cmpl	%r9d, %r10d
	adcq	%rdx, %r15
	movabsq	$9218868437227405312, %rax
	cmpq	%rax, %r15
	cmovaeq	%rax, %r15
	movq	%r15, %xmm0
	jmp	.LBB7_166
.LBB7_140:
	xorl	%edi, %edi
.LBB7_141:
	addq	$2, %r8
	addb	$-43, %dil
	testb	$-3, %dil
	cmovneq	%r9, %r8
	xorl	%r11d, %r11d
	cmpq	%rdx, %r8
	jae	.LBB7_119
	testq	%r8, %r8
	je	.LBB7_119
	movzbl	(%rsi,%r8), %edi
	addb	$-58, %dil
	cmpb	$-10, %dil
	jb	.LBB7_119
	movabsq	$1844674407370955162, %r14
	xorl	%edi, %edi
	jmp	.LBB7_146
.LBB7_145:
	incq	%r8
	movq	%r11, %rdi
	cmpq	%r8, %rdx
	je	.LBB7_162
.LBB7_146:
	movzbl	(%rsi,%r8), %ebp
	addb	$-48, %bpl
	cmpb	$9, %bpl
	ja	.LBB7_161
	movq	$-1, %r11
	cmpq	%r14, %rdi
	jae	.LBB7_145
	addq	%rdi, %rdi
	leaq	(%rdi,%rdi,4), %rdi
	movzbl	%bpl, %r15d
	addq	%rdi, %r15
	cmovaeq	%r15, %r11
	jmp	.LBB7_145
.LBB7_149:
	leaq	32(%rsp), %rdi
	movq	%rbx, %rsi
	xorl	%edx, %edx
	movq	%r8, %rcx
	callq	core__dec2flt__lemire__eisel_lemire_wide____1d521972340cebc2_
	movq	40(%rsp), %r14
	cmpb	$0, 32(%rsp)
	je	.LBB7_135
	movq	48(%rsp), %r12
	movq	%rbx, 32(%rsp)
	leaq	40(%rsp), %rdi
	movl	$584, %edx
	xorl	%esi, %esi
	callq	memset@PLT
	movq	$1, 624(%rsp)
	leaq	32(%rsp), %rdi
	xorl	%esi, %esi
	xorl	%edx, %edx
	movq	%r15, %rcx
	movq	%r14, %r8
	movq	%r12, %r9
	callq	core__dec2flt__decimal__break_tie____1d521972340cebc2_
	movq	%rax, %r14
	jmp	.LBB7_135
.LBB7_151:
	leaq	(%r12,%r12,4), %rax
	shrq	$8, %r12
	leaq	(%r12,%rax,2), %rcx
	movq	%rcx, %rax
	andq	%rbx, %rax
	movabsq	$4294967296000100, %r8
	imulq	%r8, %rax
	shrq	$16, %rcx
	andq	%rbx, %rcx
	imulq	%r15, %rcx
	addq	%rax, %rcx
	movl	$8, %r10d
.LBB7_152:
	shrq	$32, %rcx
	addq	%r10, %r9
	leaq	.Lstatic.5(%rip), %rax
	imulq	(%rax,%r10,8), %r14
	addq	%rcx, %r14
.LBB7_153:
	leaq	(%rsi,%r11), %r10
	addq	$2, %r10
	movq	%r11, %rcx
	notq	%rcx
	addq	%r9, %rcx
	cmpq	%rbp, %r9
	jae	.LBB7_160
	movzbl	(%rdi,%r9), %eax
	orl	$32, %eax
	cmpl	$101, %eax
	jne	.LBB7_160
	leaq	1(%r9), %rbx
	cmpq	%rbp, %rbx
	jae	.LBB7_157
	movzbl	(%rdi,%rbx), %eax
	jmp	.LBB7_158
.LBB7_157:
	xorl	%eax, %eax
.LBB7_158:
	addq	$2, %r9
	addb	$-43, %al
	testb	$-3, %al
	cmovneq	%rbx, %r9
	cmpq	%rbp, %r9
	jae	.LBB7_160
	movzbl	(%rdi,%r9), %eax
	addb	$-58, %al
	cmpb	$-10, %al
	jae	.LBB7_169
.LBB7_160:
	xorl	%r15d, %r15d
	xorl	%r12d, %r12d
.LBB7_178:
	leaq	(%rcx,%r11), %rax
.LBB7_179:
	xorl	%r9d, %r9d
	testb	%r12b, %r12b
	movq	%r15, %rbx
	cmovneq	%r9, %rbx
	cmovneq	%r15, %r9
	cmpq	$19, %rax
	ja	.LBB7_196
	shrq	$32, %r15
	jne	.LBB7_196
	xorpd	%xmm0, %xmm0
	testq	%r14, %r14
	je	.LBB7_200
	addq	%rcx, %r9
	movabsq	$9007199254740992, %rax
	movq	%r9, %r15
	subq	%rbx, %r15
	jbe	.LBB7_186
	cmpq	%rax, %r14
	ja	.LBB7_189
	cmpq	$22, %r15
	ja	.LBB7_189
	xorps	%xmm0, %xmm0
	cvtsi2sd	%r14, %xmm0
	leaq	.Lstatic.6(%rip), %rax
	divsd	(%rax,%r15,8), %xmm0
	jmp	.LBB7_200
.LBB7_186:
	subq	%r9, %rbx
	cmpq	%rax, %r14
	ja	.LBB7_194
	cmpq	$22, %rbx
	ja	.LBB7_194
	xorps	%xmm0, %xmm0
	cvtsi2sd	%r14, %xmm0
	leaq	.Lstatic.6(%rip), %rax
	mulsd	(%rax,%rbx,8), %xmm0
	jmp	.LBB7_200
.LBB7_189:
	cmpq	$342, %r15
	ja	.LBB7_200
	movl	$342, %r8d
	subq	%r15, %r8
	bsrq	%r14, %rsi
	xorq	$63, %rsi
	movq	%r14, %rax
	movl	%esi, %ecx
	shlq	%cl, %rax
	imull	$217706, %r8d, %edi
	movl	%r8d, %ecx
	shll	$4, %ecx
	leaq	.Lstatic.4(%rip), %rdx
	mulq	8(%rcx,%rdx)
	movq	%rdx, %rcx
	shrq	$63, %rcx
	addl	$58980, %edi
	shrl	$16, %edi
	leaq	(%rdi,%rcx), %rbx
	addq	$1139, %rbx
	addq	$1191, %rsi
	cmpq	%rsi, %rbx
	jb	.LBB7_203
	movl	$-1024, %r9d
	shll	%cl, %r9d
	notl	%r9d
	movl	%edx, %eax
	movl	$512, %edi
	shlq	%cl, %rdi
	andl	%r9d, %eax
	movq	%rdi, %r9
	subq	%rax, %r9
	cmpq	$2, %r9
	jb	.LBB7_203
	orb	$10, %cl
	shrq	%cl, %rdx
	subl	%esi, %ebx
	shlq	$52, %rbx
	cmpl	%eax, %edi
	adcq	%rdx, %rbx
.LBB7_193:
	movq	%rbx, %xmm0
	jmp	.LBB7_200
.LBB7_194:
	cmpq	$308, %rbx
	jbe	.LBB7_197
	movsd	.LCPI7_0(%rip), %xmm0
	jmp	.LBB7_200
.LBB7_196:
	movq	%r11, %rsi
	movq	%r10, %rdx
	movq	%rbx, %r8
	callq	core__dec2flt__long__from_long____1d521972340cebc2_
	movq	%rax, %xmm0
	jmp	.LBB7_200
.LBB7_197:
	bsrq	%r14, %rsi
	xorq	$63, %rsi
	movq	%r14, %rax
	movl	%esi, %ecx
	shlq	%cl, %rax
	leaq	342(%rbx), %r8
	movq	%r8, %rcx
	shlq	$4, %rcx
	leaq	.Lstatic.4(%rip), %rdx
	mulq	8(%rcx,%rdx)
	movq	%rdx, %rax
	shrq	$63, %rax
	movl	$-1024, %edi
	movl	%eax, %ecx
	shll	%cl, %edi
	notl	%edi
	movl	%edx, %r9d
	movl	$512, %r10d
	shlq	%cl, %r10
	andl	%edi, %r9d
	movq	%r10, %rcx
	subq	%r9, %rcx
	cmpq	$1, %rcx
	jbe	.LBB7_205
	leal	10(%rax), %ecx
	shrq	%cl, %rdx
	imull	$217706, %r8d, %ecx
	addl	$58980, %ecx
	shrl	$16, %ecx
	subl	%esi, %ecx
	leal	(%rcx,%rax), %r15d
	addl	$-52, %r15d
	shlq	$52, %r15
	cmpl	%r9d, %r10d
	adcq	%rdx, %r15
	movabsq	$9218868437227405312, %rax
	cmpq	%rax, %r15
	cmovaeq	%rax, %r15
.LBB7_199:
	movq	%r15, %xmm0
.LBB7_200:
	movq	%xmm0, %rax
	subsd	%xmm0, %xmm0
	xorps	%xmm1, %xmm1
	movapd	%xmm0, %xmm2
	cmpeqsd	%xmm1, %xmm2
	movq	%xmm2, %r9
	andl	$1, %r9d
	movabsq	$-9223372036854775808, %rbx
	xorq	%rax, %rbx
	jmp	.LBB7_201
.LBB7_203:
	leaq	32(%rsp), %rdi
	movq	%r14, %rsi
	xorl	%edx, %edx
	movq	%r8, %rcx
	callq	core__dec2flt__lemire__eisel_lemire_wide____1d521972340cebc2_
	movq	40(%rsp), %rbx
	cmpb	$0, 32(%rsp)
	je	.LBB7_193
	movq	48(%rsp), %r12
	movq	%r14, 32(%rsp)
	leaq	40(%rsp), %rdi
	movl	$584, %edx
	xorl	%esi, %esi
	callq	memset@PLT
	movq	$1, 624(%rsp)
	leaq	32(%rsp), %rdi
	xorl	%esi, %esi
	xorl	%edx, %edx
	movq	%r15, %rcx
	movq	%rbx, %r8
	movq	%r12, %r9
	callq	core__dec2flt__decimal__break_tie____1d521972340cebc2_
	movq	%rax, %rbx
	jmp	.LBB7_193
.LBB7_161:
	movq	%rdi, %r11
.LBB7_162:
	cmpq	%rdx, %r9
	jae	.LBB7_119
	leaq	(%rcx,%rax), %rdx
	cmpb	$45, (%rsi,%r9)
	jne	.LBB7_174
	xorl	%r14d, %r14d
	movq	%rax, %r8
	movq	%r11, %r9
	cmpq	$19, %rdx
	jbe	.LBB7_122
.LBB7_165:
	movq	%rsi, %rdi
	movq	%r8, %rsi
	movq	%r10, %rdx
	movq	%r14, %r8
	callq	core__dec2flt__long__from_long____1d521972340cebc2_
	movq	%rax, %xmm0
.LBB7_166:
	movq	%xmm0, %rbx
	subsd	%xmm0, %xmm0
	xorps	%xmm1, %xmm1
	movapd	%xmm0, %xmm2
	cmpeqsd	%xmm1, %xmm2
	movq	%xmm2, %r9
	andl	$1, %r9d
.LBB7_201:
	xorl	%eax, %eax
	ucomisd	%xmm1, %xmm0
	cmovneq	%rax, %rbx
	cmovpq	%rax, %rbx
	movl	%r9d, %eax
	addl	%eax, %eax
.LBB7_202:
	movzbl	%r9b, %ecx
	movq	24(%rsp), %rdx
	movq	%rcx, (%rdx)
	movq	%rax, 8(%rdx)
	movq	%rbx, 16(%rdx)
	addq	$632, %rsp
	popq	%rbx
	popq	%r12
	popq	%r13
	popq	%r14
	popq	%r15
	popq	%rbp
	retq
.LBB7_167:
	leaq	32(%rsp), %rdi
	movq	%rbx, %rsi
	xorl	%edx, %edx
	movq	%r8, %rcx
	callq	core__dec2flt__lemire__eisel_lemire_wide____1d521972340cebc2_
	movq	40(%rsp), %r15
	cmpb	$0, 32(%rsp)
	jne	.LBB7_208
.LBB7_168:
	movq	%r15, %xmm0
	jmp	.LBB7_166
.LBB7_169:
	movabsq	$1844674407370955162, %r12
	incq	%r9
	xorl	%edi, %edi
	jmp	.LBB7_171
.LBB7_170:
	incq	%r9
	movq	%r15, %rdi
	cmpq	%r9, %rdx
	je	.LBB7_176
.LBB7_171:
	movzbl	(%rsi,%r9), %ebp
	addb	$-48, %bpl
	cmpb	$9, %bpl
	ja	.LBB7_175
	movq	$-1, %r15
	cmpq	%r12, %rdi
	jae	.LBB7_170
	addq	%rdi, %rdi
	leaq	(%rdi,%rdi,4), %rax
	movzbl	%bpl, %edi
	addq	%rax, %rdi
	cmovaeq	%rdi, %r15
	jmp	.LBB7_170
.LBB7_205:
	leaq	32(%rsp), %rdi
	movq	%r14, %rsi
	xorl	%edx, %edx
	movq	%r8, %rcx
	callq	core__dec2flt__lemire__eisel_lemire_wide____1d521972340cebc2_
	movq	40(%rsp), %r15
	cmpb	$0, 32(%rsp)
	je	.LBB7_199
	movq	48(%rsp), %r12
	movq	%r14, 32(%rsp)
	leaq	40(%rsp), %rdi
	movl	$584, %edx
	xorl	%esi, %esi
	callq	memset@PLT
	movq	$1, 624(%rsp)
	leaq	32(%rsp), %rdi
	xorl	%esi, %esi
	movq	%rbx, %rdx
	xorl	%ecx, %ecx
	movq	%r15, %r8
	movq	%r12, %r9
	callq	core__dec2flt__decimal__break_tie____1d521972340cebc2_
	movq	%rax, %r15
	jmp	.LBB7_199
.LBB7_174:
	movq	%rdx, %r8
	jmp	.LBB7_120
.LBB7_175:
	movq	%rdi, %r15
.LBB7_176:
	cmpq	16(%rsp), %rbx
	jae	.LBB7_207
	movq	8(%rsp), %rdi
	cmpb	$45, (%rdi,%rbx)
	sete	%r12b
	jmp	.LBB7_178
.LBB7_207:
	xorl	%r12d, %r12d
	movq	8(%rsp), %rdi
	jmp	.LBB7_178
.LBB7_208:
	movq	48(%rsp), %r12
	movq	%rbx, 32(%rsp)
	leaq	40(%rsp), %rdi
	movl	$584, %edx
	xorl	%esi, %esi
	callq	memset@PLT
	movq	$1, 624(%rsp)
	leaq	32(%rsp), %rdi
	xorl	%esi, %esi
	movq	%r14, %rdx
	xorl	%ecx, %ecx
	movq	%r15, %r8
	movq	%r12, %r9
	callq	core__dec2flt__decimal__break_tie____1d521972340cebc2_
	movq	%rax, %r15
	jmp	.LBB7_168
.Lfunc_end7:
	.size	serde_json__number__Number__parse, .Lfunc_end7-serde_json__number__Number__parse

	.section	.text.unlikely.core__dec2flt__long__from_long____1d521972340cebc2_,"ax",@progbits
	.p2align	4
	.type	core__dec2flt__long__from_long____1d521972340cebc2_,@function
core__dec2flt__long__from_long____1d521972340cebc2_:
	pushq	%rbp
	pushq	%r15
	pushq	%r14
	pushq	%r13
	pushq	%r12
	pushq	%rbx
	subq	$1304, %rsp
	movq	%rcx, %r12
	addq	%rsi, %r12
	je	.LBB8_1
	movq	%rdx, %r11
	subq	%rsi, %r11
	xorl	%eax, %eax
	.p2align	4
.LBB8_7:
	cmpq	%rsi, %rax
	movq	%r11, %r10
	cmovbq	%rdi, %r10
	cmpb	$48, (%r10,%rax)
	jne	.LBB8_2
	incq	%rax
	cmpq	%rax, %r12
	jne	.LBB8_7
	jmp	.LBB8_9
.LBB8_1:
	xorl	%eax, %eax
.LBB8_2:
	movq	%r12, %r14
	subq	%rax, %r14
	je	.LBB8_9
	xorl	%r13d, %r13d
	addq	%rcx, %r9
	setb	%r13b
	cmpq	$19, %r14
	movl	$19, %ebp
	cmovbq	%r14, %rbp
	movq	%r14, %r10
	subq	%rbp, %r10
	xorl	%r11d, %r11d
	addq	%r8, %r10
	setb	%r11b
	addq	$342, %r10
	adcq	$0, %r11
	cmpq	%r9, %r10
	movq	%r11, %rbx
	sbbq	%r13, %rbx
	jae	.LBB8_4
.LBB8_9:
	xorl	%eax, %eax
.LBB8_10:
	addq	$1304, %rsp
	popq	%rbx
	popq	%r12
	popq	%r13
	popq	%r14
	popq	%r15
	popq	%rbp
	retq
.LBB8_4:
	subq	%r9, %r10
	sbbq	%r13, %r11
	xorl	%ebx, %ebx
	movl	$650, %r15d
	cmpq	%r10, %r15
	sbbq	%r11, %rbx
	jae	.LBB8_11
	movabsq	$9218868437227405312, %rax
	jmp	.LBB8_10
.LBB8_11:
	movq	%r8, 24(%rsp)
	movq	%r9, 32(%rsp)
	movq	%r13, 64(%rsp)
	cmpq	$1, %r14
	movq	%rcx, 72(%rsp)
	jne	.LBB8_13
	xorl	%r15d, %r15d
	xorl	%r11d, %r11d
	jmp	.LBB8_16
.LBB8_13:
	movq	%rbp, %r9
	andl	$30, %ebp
	movq	%rax, %r13
	subq	%rsi, %r13
	addq	%rdx, %r13
	leaq	(%rdi,%rax), %rbx
	xorl	%r15d, %r15d
	xorl	%r11d, %r11d
	.p2align	4
.LBB8_14:
	leaq	(%r11,%r11,4), %r11
	leaq	(%rax,%r15), %r8
	cmpq	%rsi, %r8
	movq	%r13, %r8
	cmovbq	%rbx, %r8
	movzbl	(%r8,%r15), %r8d
	addb	$-48, %r8b
	movzbl	%r8b, %r8d
	leaq	(%r8,%r11,2), %r8
	leaq	(%r8,%r8,4), %r8
	leaq	(%rax,%r15), %r11
	incq	%r11
	cmpq	%rsi, %r11
	movq	%r13, %r11
	cmovbq	%rbx, %r11
	movzbl	1(%r11,%r15), %r11d
	addb	$-48, %r11b
	movzbl	%r11b, %r11d
	leaq	(%r11,%r8,2), %r11
	addq	$2, %r15
	cmpq	%r15, %rbp
	jne	.LBB8_14
	testb	$1, %r9b
	je	.LBB8_17
.LBB8_16:
	leaq	(%r11,%r11,4), %rcx
	addq	%rax, %r15
	leaq	(%rdi,%r15), %rax
	subq	%rsi, %r15
	leaq	(%rdx,%r15), %r8
	cmovbq	%rax, %r8
	movzbl	(%r8), %eax
	addb	$-48, %al
	movzbl	%al, %eax
	leaq	(%rax,%rcx,2), %r11
.LBB8_17:
	movq	%rdx, 8(%rsp)
	xorl	%ebx, %ebx
	cmpq	$20, %r14
	setae	%bl
	movl	$127, %ecx
	bsrq	%r11, %rcx
	xorq	$63, %rcx
	movq	%r11, %rax
	shlq	%cl, %rax
	movq	%r10, %rdx
	shlq	$4, %rdx
	leaq	.Lstatic.4(%rip), %r8
	mulq	8(%rdx,%r8)
	movq	%rdx, %r14
	shrq	$63, %r14
	imulq	$217706, %r10, %rax
	addq	$58980, %rax
	shrq	$16, %rax
	addq	%r14, %rax
	addq	$1139, %rax
	leaq	1191(%rcx), %r15
	cmpq	%r15, %rax
	jb	.LBB8_20
	movq	%rbx, %r9
	shlq	%cl, %r9
	movl	$-1024, %ebp
	movl	%r14d, %ecx
	shll	%cl, %ebp
	addq	$2, %r9
	notl	%ebp
	movl	%edx, %r8d
	movl	$512, %r13d
	shlq	%cl, %r13
	andl	%ebp, %r8d
	movq	%r13, %rcx
	subq	%r8, %rcx
	cmpq	%r9, %rcx
	jb	.LBB8_20
	orb	$10, %r14b
	movl	%r14d, %ecx
	shrq	%cl, %rdx
	subl	%r15d, %eax
	shlq	$52, %rax
	cmpl	%r8d, %r13d
	adcq	%rdx, %rax
	movabsq	$9218868437227405312, %rcx
	cmpq	%rcx, %rax
	cmovaeq	%rcx, %rax
	jmp	.LBB8_10
.LBB8_20:
	movq	24(%rsp), %r15
	movq	32(%rsp), %r14
	movq	%rdi, 48(%rsp)
	movq	%rsi, 40(%rsp)
	leaq	80(%rsp), %rdi
	movq	%r11, %rsi
	movq	%rbx, %rdx
	movq	%r10, %rcx
	callq	core__dec2flt__lemire__eisel_lemire_wide____1d521972340cebc2_
	movq	88(%rsp), %rax
	cmpb	$0, 80(%rsp)
	je	.LBB8_10
	movq	96(%rsp), %r9
	xorl	%r8d, %r8d
	movl	$1075, %ecx
	subq	%r9, %rcx
	cmovaeq	%rcx, %r8
	xorl	%edx, %edx
	movq	%r8, %rsi
	addq	%r15, %rsi
	setb	%dl
	cmpq	%r14, %rsi
	movq	%rdx, %rdi
	movq	64(%rsp), %rbp
	sbbq	%rbp, %rdi
	movq	%rax, 16(%rsp)
	movq	%r9, 56(%rsp)
	jae	.LBB8_22
	movq	%r14, %rcx
	movq	%r8, 24(%rsp)
	subq	%rsi, %rcx
	sbbq	%rdx, %rbp
	xorl	%edx, %edx
	movq	%r12, %rbx
	subq	%rcx, %rbx
	movl	$0, %eax
	sbbq	%rbp, %rax
	cmovbq	%rdx, %rbx
	cmpq	%rbx, %r12
	jbe	.LBB8_47
	cmpq	%r12, %rcx
	movq	%rbp, %r8
	movq	%rbp, %rax
	sbbq	$0, %rax
	movq	%r12, %rax
	cmovbq	%rcx, %rax
	movq	72(%rsp), %rbp
	subq	%rax, %rbp
	addq	8(%rsp), %rbp
	movq	%rbx, %rax
	movq	40(%rsp), %rdx
	movq	48(%rsp), %rsi
.LBB8_43:
	leaq	(%rsi,%rax), %rdi
	cmpq	%rdx, %rax
	cmovaeq	%rbp, %rdi
	cmpb	$48, (%rdi)
	jne	.LBB8_46
	incq	%rax
	incq	%rbp
	cmpq	%r12, %rax
	jb	.LBB8_43
	movq	%r12, %rax
.LBB8_46:
	cmpq	%r12, %rax
	setb	%dl
	movq	%r8, %rbp
.LBB8_47:
	movq	%rdx, 32(%rsp)
	leaq	704(%rsp), %rdi
	movl	$600, %edx
	xorl	%esi, %esi
	movq	%rcx, %r14
	callq	memset@PLT
	cmpq	%r12, %r14
	sbbq	$0, %rbp
	movq	8(%rsp), %rsi
	movq	40(%rsp), %r9
	movq	48(%rsp), %r10
	movq	16(%rsp), %r8
	jae	.LBB8_65
	movq	%rsi, %r15
	subq	%r9, %r15
	xorl	%r12d, %r12d
	jmp	.LBB8_49
.LBB8_64:
	addq	%r13, %r12
	cmpq	%rbx, %r12
	jae	.LBB8_65
.LBB8_49:
	movq	%rbx, %rax
	subq	%r12, %rax
	cmpq	$19, %rax
	movl	$19, %r13d
	cmovbq	%rax, %r13
	cmpq	$1, %rax
	jne	.LBB8_51
	xorl	%eax, %eax
	xorl	%r14d, %r14d
	jmp	.LBB8_54
.LBB8_51:
	movl	%r13d, %ecx
	andl	$30, %ecx
	leaq	(%r15,%r12), %rdx
	leaq	(%r10,%r12), %rdi
	xorl	%eax, %eax
	xorl	%r14d, %r14d
	.p2align	4
.LBB8_52:
	leaq	(%r14,%r14,4), %r11
	leaq	(%r12,%rax), %r14
	cmpq	%r9, %r14
	movq	%rdx, %r14
	cmovbq	%rdi, %r14
	movzbl	(%r14,%rax), %ebp
	addb	$-48, %bpl
	movzbl	%bpl, %r14d
	leaq	(%r14,%r11,2), %r11
	leaq	(%r11,%r11,4), %r11
	leaq	(%r12,%rax), %r14
	incq	%r14
	cmpq	%r9, %r14
	movq	%rdx, %r14
	cmovbq	%rdi, %r14
	movzbl	1(%r14,%rax), %ebp
	addb	$-48, %bpl
	movzbl	%bpl, %r14d
	leaq	(%r14,%r11,2), %r14
	addq	$2, %rax
	cmpq	%rax, %rcx
	jne	.LBB8_52
	testb	$1, %r13b
	je	.LBB8_55
.LBB8_54:
	leaq	(%r14,%r14,4), %rcx
	addq	%r12, %rax
	leaq	(%r10,%rax), %rdx
	subq	%r9, %rax
	leaq	(%rsi,%rax), %rax
	cmovbq	%rdx, %rax
	movzbl	(%rax), %eax
	addb	$-48, %al
	movzbl	%al, %eax
	leaq	(%rax,%rcx,2), %r14
.LBB8_55:
	movq	1296(%rsp), %rbp
	testq	%rbp, %rbp
	je	.LBB8_62
	movl	%r13d, %eax
	leaq	.Lstatic.5(%rip), %rcx
	movq	(%rcx,%rax,8), %rcx
	cmpq	$1, %rbp
	jne	.LBB8_58
	xorl	%r11d, %r11d
	jmp	.LBB8_61
.LBB8_58:
	movq	%rbp, %r8
	andq	$-2, %r8
	xorl	%r11d, %r11d
	.p2align	4
.LBB8_59:
	movq	%rcx, %rax
	mulq	704(%rsp,%r11,8)
	movq	%rdx, %rsi
	movq	%rax, %rdi
	movq	%rcx, %rax
	mulq	712(%rsp,%r11,8)
	addq	%r14, %rdi
	adcq	%rsi, %rax
	movq	%rdx, %r14
	adcq	$0, %r14
	movq	%rdi, 704(%rsp,%r11,8)
	movq	%rax, 712(%rsp,%r11,8)
	addq	$2, %r11
	cmpq	%r11, %r8
	jne	.LBB8_59
	testb	$1, %bpl
	movq	8(%rsp), %rsi
	movq	16(%rsp), %r8
	je	.LBB8_62
.LBB8_61:
	movq	%rcx, %rax
	mulq	704(%rsp,%r11,8)
	movq	16(%rsp), %r8
	addq	%r14, %rax
	movq	8(%rsp), %rsi
	adcq	$0, %rdx
	movq	%rax, 704(%rsp,%r11,8)
	movq	%rdx, %r14
.LBB8_62:
	testq	%r14, %r14
	je	.LBB8_64
	movq	%r14, 704(%rsp,%rbp,8)
	incq	%rbp
	movq	%rbp, 1296(%rsp)
	jmp	.LBB8_64
.LBB8_22:
	leaq	104(%rsp), %rdi
	movl	$600, %edx
	xorl	%esi, %esi
	callq	memset@PLT
	movq	16(%rsp), %r8
	testq	%r12, %r12
	movq	8(%rsp), %rdi
	movq	40(%rsp), %r10
	movq	48(%rsp), %r11
	jne	.LBB8_23
.LBB8_40:
	xorl	%eax, %eax
	movq	24(%rsp), %r9
	movq	%r9, %rdx
	movq	32(%rsp), %rcx
	subq	%rcx, %rdx
	movl	$0, %edi
	movq	64(%rsp), %rsi
	sbbq	%rsi, %rdi
	cmovbq	%rax, %rdx
	subq	%r9, %rcx
	sbbq	$0, %rsi
	cmovbq	%rax, %rcx
	leaq	104(%rsp), %rdi
	xorl	%esi, %esi
	jmp	.LBB8_66
.LBB8_65:
	movzbl	32(%rsp), %esi
	leaq	704(%rsp), %rdi
	xorl	%edx, %edx
	movq	24(%rsp), %rcx
.LBB8_66:
	movq	56(%rsp), %r9
	callq	core__dec2flt__decimal__break_tie____1d521972340cebc2_
	jmp	.LBB8_10
.LBB8_23:
	movq	%rdi, %r13
	subq	%r10, %r13
	xorl	%r14d, %r14d
	jmp	.LBB8_24
.LBB8_39:
	addq	%r9, %r14
	cmpq	%r12, %r14
	jae	.LBB8_40
.LBB8_24:
	movq	%r12, %rax
	subq	%r14, %rax
	cmpq	$19, %rax
	movl	$19, %r9d
	cmovbq	%rax, %r9
	cmpq	$1, %rax
	jne	.LBB8_26
	xorl	%eax, %eax
	xorl	%ebp, %ebp
	jmp	.LBB8_29
.LBB8_26:
	movl	%r9d, %ecx
	andl	$30, %ecx
	leaq	(%r14,%r13), %rdx
	leaq	(%r11,%r14), %rsi
	xorl	%eax, %eax
	xorl	%ebp, %ebp
	.p2align	4
.LBB8_27:
	leaq	(,%rbp,4), %rbx
	addq	%rbp, %rbx
	leaq	(%r14,%rax), %r15
	cmpq	%r10, %r15
	movq	%rdx, %r15
	cmovbq	%rsi, %r15
	movzbl	(%r15,%rax), %ebp
	addb	$-48, %bpl
	movzbl	%bpl, %r15d
	leaq	(%r15,%rbx,2), %rbx
	leaq	(%rbx,%rbx,4), %rbx
	leaq	(%r14,%rax), %r15
	incq	%r15
	cmpq	%r10, %r15
	movq	%rdx, %r15
	cmovbq	%rsi, %r15
	movzbl	1(%r15,%rax), %ebp
	addb	$-48, %bpl
	movzbl	%bpl, %r15d
	leaq	(%r15,%rbx,2), %rbp
	addq	$2, %rax
	cmpq	%rax, %rcx
	jne	.LBB8_27
	testb	$1, %r9b
	je	.LBB8_30
.LBB8_29:
	leaq	(,%rbp,4), %rcx
	addq	%rbp, %rcx
	addq	%r14, %rax
	leaq	(%r11,%rax), %rdx
	subq	%r10, %rax
	leaq	(%rdi,%rax), %rax
	cmovbq	%rdx, %rax
	movzbl	(%rax), %eax
	addb	$-48, %al
	movzbl	%al, %eax
	leaq	(%rax,%rcx,2), %rbp
.LBB8_30:
	movq	696(%rsp), %rbx
	testq	%rbx, %rbx
	je	.LBB8_37
	movl	%r9d, %eax
	leaq	.Lstatic.5(%rip), %rcx
	movq	(%rcx,%rax,8), %rsi
	cmpq	$1, %rbx
	jne	.LBB8_33
	xorl	%ecx, %ecx
	jmp	.LBB8_36
.LBB8_33:
	movq	%rbx, %r15
	andq	$-2, %r15
	xorl	%ecx, %ecx
	.p2align	4
.LBB8_34:
	movq	%rsi, %rax
	mulq	104(%rsp,%rcx,8)
	movq	%rdx, %rdi
	movq	%rax, %r8
	movq	%rsi, %rax
	mulq	112(%rsp,%rcx,8)
	addq	%rbp, %r8
	adcq	%rdi, %rax
	movq	%rdx, %rbp
	adcq	$0, %rbp
	movq	%r8, 104(%rsp,%rcx,8)
	movq	%rax, 112(%rsp,%rcx,8)
	addq	$2, %rcx
	cmpq	%rcx, %r15
	jne	.LBB8_34
	testb	$1, %bl
	movq	8(%rsp), %rdi
	movq	16(%rsp), %r8
	je	.LBB8_37
.LBB8_36:
	movq	%rsi, %rax
	mulq	104(%rsp,%rcx,8)
	movq	16(%rsp), %r8
	addq	%rbp, %rax
	movq	8(%rsp), %rdi
	adcq	$0, %rdx
	movq	%rax, 104(%rsp,%rcx,8)
	movq	%rdx, %rbp
.LBB8_37:
	testq	%rbp, %rbp
	je	.LBB8_39
	movq	%rbp, 104(%rsp,%rbx,8)
	incq	%rbx
	movq	%rbx, 696(%rsp)
	jmp	.LBB8_39
.Lfunc_end8:
	.size	core__dec2flt__long__from_long____1d521972340cebc2_, .Lfunc_end8-core__dec2flt__long__from_long____1d521972340cebc2_

	.section	.text.unlikely.core__dec2flt__lemire__eisel_lemire_wide____1d521972340cebc2_,"ax",@progbits
	.p2align	4
	.type	core__dec2flt__lemire__eisel_lemire_wide____1d521972340cebc2_,@function
core__dec2flt__lemire__eisel_lemire_wide____1d521972340cebc2_:
	pushq	%r14
	pushq	%rbx
	movq	%rcx, %r9
	movq	%rsi, %r10
	movl	$127, %ecx
	bsrq	%rsi, %rcx
	xorq	$63, %rcx
	shlq	%cl, %r10
	movq	%rdx, %rsi
	movq	%r9, %rbx
	shlq	$4, %rbx
	leaq	.Lstatic.4(%rip), %r14
	movq	%r10, %rax
	mulq	8(%rbx,%r14)
	movq	%rdx, %r8
	movq	%rax, %r11
	movq	%r10, %rax
	mulq	(%rbx,%r14)
	addq	%r11, %rdx
	adcq	$0, %r8
	movq	%r8, %r11
	shrq	$63, %r11
	imulq	$217706, %r9, %rax
	addq	$58980, %rax
	shrq	$16, %rax
	addq	%r11, %rax
	addq	$1139, %rax
	movq	%rcx, %r9
	addq	$1191, %r9
	shlq	%cl, %rsi
	xorl	%r10d, %r10d
	movq	%r9, %rcx
	subq	%rax, %rcx
	cmovbq	%r10, %rcx
	subq	%r9, %rax
	cmovbq	%r10, %rax
	addq	%r11, %rcx
	addq	$72, %rcx
	movl	$0, %r9d
	movl	$0, %r11d
	cmpq	$127, %rcx
	ja	.LBB9_7
	shrdq	$2, %r8, %rdx
	shrq	$2, %r8
	movq	%rdx, %r10
	shrdq	%cl, %r8, %r10
	movq	%r8, %r9
	shrq	%cl, %r9
	movq	$-1, %r11
	shlq	%cl, %r11
	xorl	%r14d, %r14d
	testb	$64, %cl
	cmoveq	%r10, %r9
	movq	$-1, %r10
	movq	%r11, %rbx
	cmovneq	%r14, %rbx
	cmoveq	%r10, %r11
	notq	%rbx
	andq	%rdx, %rbx
	decb	%cl
	movl	$1, %r10d
	xorl	%edx, %edx
	shldq	%cl, %r10, %rdx
	notq	%r11
	andq	%r8, %r11
	movl	$1, %r8d
	shlq	%cl, %r8
	testb	$64, %cl
	cmovneq	%r8, %rdx
	cmovneq	%r14, %r8
	cmpq	%rbx, %r8
	movq	%rdx, %rcx
	sbbq	%r11, %rcx
	jae	.LBB9_3
	shlq	$52, %rax
	addq	%r9, %rax
	incq	%rax
	movabsq	$9218868437227405312, %r9
	cmpq	%r9, %rax
	cmovbq	%rax, %r9
	xorl	%r10d, %r10d
	jmp	.LBB9_6
.LBB9_3:
	movq	%rsi, %rcx
	shrq	$2, %rcx
	shlq	$62, %rsi
	orq	$2, %rsi
	subq	%rbx, %r8
	sbbq	%r11, %rdx
	cmpq	%rsi, %r8
	sbbq	%rcx, %rdx
	jae	.LBB9_5
	movq	%rax, %r11
	jmp	.LBB9_7
.LBB9_5:
	shlq	$52, %rax
	addq	%r9, %rax
	movabsq	$9218868437227405312, %rcx
	cmpq	%rcx, %rax
	cmovaeq	%rcx, %rax
	xorl	%r10d, %r10d
	movq	%rax, %r9
.LBB9_6:
	xorl	%r11d, %r11d
.LBB9_7:
	movq	%r10, (%rdi)
	movq	%r9, 8(%rdi)
	movq	%r11, 16(%rdi)
	popq	%rbx
	popq	%r14
	retq
.Lfunc_end9:
	.size	core__dec2flt__lemire__eisel_lemire_wide____1d521972340cebc2_, .Lfunc_end9-core__dec2flt__lemire__eisel_lemire_wide____1d521972340cebc2_

	.section	.text.unlikely.core__dec2flt__decimal__break_tie____1d521972340cebc2_,"ax",@progbits
	.p2align	4
	.type	core__dec2flt__decimal__break_tie____1d521972340cebc2_,@function
core__dec2flt__decimal__break_tie____1d521972340cebc2_:
	pushq	%rbp
	pushq	%r15
	pushq	%r14
	pushq	%r13
	pushq	%r12
	pushq	%rbx
	subq	$1208, %rsp
	movq	%r9, %rbx
	movq	%r8, %r14
	movq	%rcx, %r15
	movq	%rdx, %r12
	movl	%esi, %ebp
	movq	%rdi, %rsi
	leaq	608(%rsp), %rdi
	movl	$600, %edx
	callq	memcpy@PLT
	cmpq	$20, %r12
	jb	.LBB10_14
	movq	1200(%rsp), %r8
	testq	%r8, %r8
	jne	.LBB10_4
	addq	$-20, %r12
	movabsq	$-2912643801112034465, %rcx
	movq	%r12, %rax
	mulq	%rcx
	shrq	$4, %rdx
	leaq	(%rdx,%rdx,8), %rax
	leaq	(%rdx,%rax,2), %rax
	subq	%rax, %r12
	incq	%r12
	jmp	.LBB10_14
	.p2align	4
.LBB10_3:
	movq	1200(%rsp), %r8
.LBB10_4:
	testq	%r8, %r8
	je	.LBB10_13
	cmpq	$1, %r8
	jne	.LBB10_7
	xorl	%r9d, %r9d
	xorl	%r10d, %r10d
	jmp	.LBB10_10
	.p2align	4
.LBB10_7:
	movq	%r8, %r11
	andq	$-2, %r11
	xorl	%r9d, %r9d
	xorl	%r10d, %r10d
	.p2align	4
.LBB10_8:
	movabsq	$-8446744073709551616, %rcx
	movq	%rcx, %rax
	mulq	608(%rsp,%r10,8)
	movq	%rdx, %rsi
	movq	%rax, %rdi
	movq	%rcx, %rax
	mulq	616(%rsp,%r10,8)
	addq	%r9, %rdi
	adcq	%rsi, %rax
	movq	%rdx, %r9
	adcq	$0, %r9
	movq	%rdi, 608(%rsp,%r10,8)
	movq	%rax, 616(%rsp,%r10,8)
	addq	$2, %r10
	cmpq	%r10, %r11
	jne	.LBB10_8
	testb	$1, %r8b
	je	.LBB10_11
.LBB10_10:
	movabsq	$-8446744073709551616, %rax
	mulq	608(%rsp,%r10,8)
	addq	%r9, %rax
	adcq	$0, %rdx
	movq	%rax, 608(%rsp,%r10,8)
	movq	%rdx, %r9
.LBB10_11:
	testq	%r9, %r9
	je	.LBB10_13
	movq	%r9, 608(%rsp,%r8,8)
	incq	%r8
	movq	%r8, 1200(%rsp)
.LBB10_13:
	addq	$-19, %r12
	cmpq	$19, %r12
	ja	.LBB10_3
.LBB10_14:
	movq	1200(%rsp), %r8
	testq	%r8, %r8
	je	.LBB10_45
	leaq	.Lstatic.5(%rip), %rax
	movq	(%rax,%r12,8), %rcx
	cmpq	$1, %r8
	jne	.LBB10_17
	xorl	%r9d, %r9d
	xorl	%r10d, %r10d
	jmp	.LBB10_20
.LBB10_17:
	movq	%r8, %r11
	andq	$-2, %r11
	xorl	%r9d, %r9d
	xorl	%r10d, %r10d
	.p2align	4
.LBB10_18:
	movq	%rcx, %rax
	mulq	608(%rsp,%r10,8)
	movq	%rdx, %rsi
	movq	%rax, %rdi
	movq	%rcx, %rax
	mulq	616(%rsp,%r10,8)
	addq	%r9, %rdi
	adcq	%rsi, %rax
	movq	%rdx, %r9
	adcq	$0, %r9
	movq	%rdi, 608(%rsp,%r10,8)
	movq	%rax, 616(%rsp,%r10,8)
	addq	$2, %r10
	cmpq	%r10, %r11
	jne	.LBB10_18
	testb	$1, %r8b
	je	.LBB10_21
.LBB10_20:
	movq	%rcx, %rax
	mulq	608(%rsp,%r10,8)
	addq	%r9, %rax
	adcq	$0, %rdx
	movq	%rax, 608(%rsp,%r10,8)
	movq	%rdx, %r9
.LBB10_21:
	testq	%r9, %r9
	je	.LBB10_23
	movq	%r9, 608(%rsp,%r8,8)
	incq	%r8
	movq	%r8, 1200(%rsp)
	jmp	.LBB10_24
.LBB10_23:
	movq	1200(%rsp), %r8
.LBB10_24:
	xorl	%ecx, %ecx
	movl	$1075, %eax
	subq	%rbx, %rax
	cmovaeq	%rax, %rcx
	cmpq	$64, %rcx
	jb	.LBB10_36
	testq	%r8, %r8
	jne	.LBB10_27
	jmp	.LBB10_45
	.p2align	4
.LBB10_26:
	addq	$-63, %rcx
	movq	1200(%rsp), %r8
	cmpq	$63, %rcx
	jbe	.LBB10_36
.LBB10_27:
	testq	%r8, %r8
	je	.LBB10_26
	cmpq	$1, %r8
	jne	.LBB10_30
	xorl	%eax, %eax
	xorl	%edx, %edx
	jmp	.LBB10_33
	.p2align	4
.LBB10_30:
	movq	%r8, %rsi
	andq	$-2, %rsi
	xorl	%eax, %eax
	xorl	%edx, %edx
	.p2align	4
.LBB10_31:
	movq	608(%rsp,%rdx,8), %rdi
	movq	%rdi, %r9
	shlq	$63, %r9
	orq	%rax, %r9
	movq	616(%rsp,%rdx,8), %rax
	movq	%r9, 608(%rsp,%rdx,8)
	shrdq	$1, %rax, %rdi
	movq	%rdi, 616(%rsp,%rdx,8)
	shrq	%rax
	addq	$2, %rdx
	cmpq	%rdx, %rsi
	jne	.LBB10_31
	testb	$1, %r8b
	je	.LBB10_34
.LBB10_33:
	movq	608(%rsp,%rdx,8), %rsi
	movq	%rsi, %rdi
	shlq	$63, %rdi
	orq	%rax, %rdi
	movq	%rdi, 608(%rsp,%rdx,8)
	shrq	%rsi
	movq	%rsi, %rax
.LBB10_34:
	testq	%rax, %rax
	je	.LBB10_26
	movq	%rax, 608(%rsp,%r8,8)
	incq	%r8
	movq	%r8, 1200(%rsp)
	jmp	.LBB10_26
.LBB10_36:
	testq	%r8, %r8
	je	.LBB10_45
	cmpq	$1, %r8
	jne	.LBB10_39
	xorl	%eax, %eax
	xorl	%edx, %edx
	jmp	.LBB10_42
.LBB10_39:
	movq	%r8, %rsi
	andq	$-2, %rsi
	xorl	%eax, %eax
	xorl	%edx, %edx
	.p2align	4
.LBB10_40:
	movq	616(%rsp,%rdx,8), %r9
	movq	%r9, %r10
	shlq	%cl, %r10
	xorl	%edi, %edi
	testb	$64, %cl
	movq	%r10, %r11
	cmovneq	%rdi, %r11
	xorl	%r12d, %r12d
	shldq	%cl, %r9, %r12
	movq	608(%rsp,%rdx,8), %r9
	testb	$64, %cl
	cmovneq	%r10, %r12
	movq	%r9, %r10
	shlq	%cl, %r10
	testb	$64, %cl
	movq	%r10, %r13
	cmovneq	%rdi, %r13
	shldq	%cl, %r9, %rdi
	testb	$64, %cl
	cmovneq	%r10, %rdi
	addq	%rax, %r13
	adcq	$0, %rdi
	addq	%r11, %rdi
	movq	%r12, %rax
	adcq	$0, %rax
	movq	%r13, 608(%rsp,%rdx,8)
	movq	%rdi, 616(%rsp,%rdx,8)
	addq	$2, %rdx
	cmpq	%rdx, %rsi
	jne	.LBB10_40
	testb	$1, %r8b
	je	.LBB10_43
.LBB10_42:
	movq	608(%rsp,%rdx,8), %rsi
	xorl	%edi, %edi
	shldq	%cl, %rsi, %rdi
	shlq	%cl, %rsi
	xorl	%r9d, %r9d
	testb	$64, %cl
	cmovneq	%rsi, %rdi
	cmovneq	%r9, %rsi
	addq	%rax, %rsi
	adcq	$0, %rdi
	movq	%rsi, 608(%rsp,%rdx,8)
	movq	%rdi, %rax
.LBB10_43:
	testq	%rax, %rax
	je	.LBB10_45
	movq	%rax, 608(%rsp,%r8,8)
	incq	%r8
	movq	%r8, 1200(%rsp)
.LBB10_45:
	leaq	1(,%r14,2), %rax
	movq	%rax, 8(%rsp)
	leaq	16(%rsp), %rdi
	movl	$584, %edx
	xorl	%esi, %esi
	callq	memset@PLT
	movq	$1, 600(%rsp)
	movl	$1, %r8d
	cmpq	$20, %r15
	jae	.LBB10_47
	jmp	.LBB10_57
	.p2align	4
.LBB10_46:
	addq	$-19, %r15
	movq	600(%rsp), %r8
	cmpq	$19, %r15
	jbe	.LBB10_56
.LBB10_47:
	testq	%r8, %r8
	je	.LBB10_46
	cmpq	$1, %r8
	jne	.LBB10_50
	xorl	%r9d, %r9d
	xorl	%r10d, %r10d
	jmp	.LBB10_53
	.p2align	4
.LBB10_50:
	movq	%r8, %r11
	andq	$-2, %r11
	xorl	%r9d, %r9d
	xorl	%r10d, %r10d
	.p2align	4
.LBB10_51:
	movabsq	$-8446744073709551616, %rcx
	movq	%rcx, %rax
	mulq	8(%rsp,%r10,8)
	movq	%rdx, %rsi
	movq	%rax, %rdi
	movq	%rcx, %rax
	mulq	16(%rsp,%r10,8)
	addq	%r9, %rdi
	adcq	%rsi, %rax
	movq	%rdx, %r9
	adcq	$0, %r9
	movq	%rdi, 8(%rsp,%r10,8)
	movq	%rax, 16(%rsp,%r10,8)
	addq	$2, %r10
	cmpq	%r10, %r11
	jne	.LBB10_51
	testb	$1, %r8b
	je	.LBB10_54
.LBB10_53:
	movabsq	$-8446744073709551616, %rax
	mulq	8(%rsp,%r10,8)
	addq	%r9, %rax
	adcq	$0, %rdx
	movq	%rax, 8(%rsp,%r10,8)
	movq	%rdx, %r9
.LBB10_54:
	testq	%r9, %r9
	je	.LBB10_46
	movq	%r9, 8(%rsp,%r8,8)
	incq	%r8
	movq	%r8, 600(%rsp)
	jmp	.LBB10_46
.LBB10_56:
	testq	%r8, %r8
	je	.LBB10_89
.LBB10_57:
	leaq	.Lstatic.5(%rip), %rax
	movq	(%rax,%r15,8), %rcx
	cmpq	$1, %r8
	jne	.LBB10_59
	xorl	%r9d, %r9d
	xorl	%r10d, %r10d
	jmp	.LBB10_62
.LBB10_59:
	movq	%r8, %r11
	andq	$-2, %r11
	xorl	%r9d, %r9d
	xorl	%r10d, %r10d
	.p2align	4
.LBB10_60:
	movq	%rcx, %rax
	mulq	8(%rsp,%r10,8)
	movq	%rdx, %rsi
	movq	%rax, %rdi
	movq	%rcx, %rax
	mulq	16(%rsp,%r10,8)
	addq	%r9, %rdi
	adcq	%rsi, %rax
	movq	%rdx, %r9
	adcq	$0, %r9
	movq	%rdi, 8(%rsp,%r10,8)
	movq	%rax, 16(%rsp,%r10,8)
	addq	$2, %r10
	cmpq	%r10, %r11
	jne	.LBB10_60
	testb	$1, %r8b
	je	.LBB10_63
.LBB10_62:
	movq	%rcx, %rax
	mulq	8(%rsp,%r10,8)
	addq	%r9, %rax
	adcq	$0, %rdx
	movq	%rax, 8(%rsp,%r10,8)
	movq	%rdx, %r9
.LBB10_63:
	testq	%r9, %r9
	je	.LBB10_65
	movq	%r9, 8(%rsp,%r8,8)
	incq	%r8
	movq	%r8, 600(%rsp)
	jmp	.LBB10_66
.LBB10_65:
	movq	600(%rsp), %r8
.LBB10_66:
	xorl	%ecx, %ecx
	movq	%rbx, %rax
	subq	$1075, %rax
	cmovaeq	%rax, %rcx
	cmpq	$64, %rcx
	jb	.LBB10_79
	testq	%r8, %r8
	jne	.LBB10_70
	jmp	.LBB10_89
	.p2align	4
.LBB10_69:
	addq	$-63, %rcx
	movq	600(%rsp), %r8
	cmpq	$63, %rcx
	jbe	.LBB10_79
.LBB10_70:
	testq	%r8, %r8
	je	.LBB10_69
	cmpq	$1, %r8
	jne	.LBB10_73
	xorl	%eax, %eax
	xorl	%edx, %edx
	jmp	.LBB10_76
	.p2align	4
.LBB10_73:
	movq	%r8, %rsi
	andq	$-2, %rsi
	xorl	%eax, %eax
	xorl	%edx, %edx
	.p2align	4
.LBB10_74:
	movq	8(%rsp,%rdx,8), %rdi
	movq	%rdi, %r9
	shlq	$63, %r9
	orq	%rax, %r9
	movq	16(%rsp,%rdx,8), %rax
	movq	%r9, 8(%rsp,%rdx,8)
	shrdq	$1, %rax, %rdi
	movq	%rdi, 16(%rsp,%rdx,8)
	shrq	%rax
	addq	$2, %rdx
	cmpq	%rdx, %rsi
	jne	.LBB10_74
	testb	$1, %r8b
	je	.LBB10_77
.LBB10_76:
	movq	8(%rsp,%rdx,8), %rsi
	movq	%rsi, %rdi
	shlq	$63, %rdi
	orq	%rax, %rdi
	movq	%rdi, 8(%rsp,%rdx,8)
	shrq	%rsi
	movq	%rsi, %rax
.LBB10_77:
	testq	%rax, %rax
	je	.LBB10_69
	movq	%rax, 8(%rsp,%r8,8)
	incq	%r8
	movq	%r8, 600(%rsp)
	jmp	.LBB10_69
.LBB10_79:
	testq	%r8, %r8
	je	.LBB10_89
	cmpq	$1, %r8
	jne	.LBB10_83
	xorl	%eax, %eax
	xorl	%edx, %edx
	jmp	.LBB10_86
.LBB10_89:
	xorl	%r8d, %r8d
	jmp	.LBB10_91
.LBB10_83:
	movq	%r8, %rsi
	andq	$-2, %rsi
	xorl	%eax, %eax
	xorl	%edx, %edx
	.p2align	4
.LBB10_84:
	movq	16(%rsp,%rdx,8), %r9
	movq	%r9, %r10
	shlq	%cl, %r10
	xorl	%edi, %edi
	testb	$64, %cl
	movq	%r10, %r11
	cmovneq	%rdi, %r11
	xorl	%r15d, %r15d
	shldq	%cl, %r9, %r15
	movq	8(%rsp,%rdx,8), %r9
	testb	$64, %cl
	cmovneq	%r10, %r15
	movq	%r9, %r10
	shlq	%cl, %r10
	testb	$64, %cl
	movq	%r10, %r12
	cmovneq	%rdi, %r12
	shldq	%cl, %r9, %rdi
	testb	$64, %cl
	cmovneq	%r10, %rdi
	addq	%rax, %r12
	adcq	$0, %rdi
	addq	%r11, %rdi
	movq	%r15, %rax
	adcq	$0, %rax
	movq	%r12, 8(%rsp,%rdx,8)
	movq	%rdi, 16(%rsp,%rdx,8)
	addq	$2, %rdx
	cmpq	%rdx, %rsi
	jne	.LBB10_84
	testb	$1, %r8b
	je	.LBB10_87
.LBB10_86:
	movq	8(%rsp,%rdx,8), %rsi
	xorl	%edi, %edi
	shldq	%cl, %rsi, %rdi
	shlq	%cl, %rsi
	xorl	%r9d, %r9d
	testb	$64, %cl
	cmovneq	%rsi, %rdi
	cmovneq	%r9, %rsi
	addq	%rax, %rsi
	adcq	$0, %rdi
	movq	%rsi, 8(%rsp,%rdx,8)
	movq	%rdi, %rax
.LBB10_87:
	testq	%rax, %rax
	je	.LBB10_90
	movq	%rax, 8(%rsp,%r8,8)
	incq	%r8
	movq	%r8, 600(%rsp)
	jmp	.LBB10_91
.LBB10_90:
	movq	600(%rsp), %r8
.LBB10_91:
	movq	1200(%rsp), %rax
	cmpq	%rax, %r8
	cmovaq	%r8, %rax
	.p2align	4
.LBB10_92:
	subq	$1, %rax
	jb	.LBB10_95
	movq	608(%rsp,%rax,8), %rcx
	movq	8(%rsp,%rax,8), %rdx
	cmpq	%rdx, %rcx
	jb	.LBB10_97
	jbe	.LBB10_92
	jmp	.LBB10_96
.LBB10_95:
	testb	%bpl, %bpl
	je	.LBB10_98
.LBB10_96:
	shlq	$52, %rbx
	leaq	(%r14,%rbx), %rcx
	incq	%rcx
	movabsq	$9218868437227405312, %rax
	cmpq	%rax, %rcx
	cmovbq	%rcx, %rax
	jmp	.LBB10_100
.LBB10_97:
	shlq	$52, %rbx
	addq	%r14, %rbx
	jmp	.LBB10_99
.LBB10_98:
	movl	%r14d, %eax
	andl	$1, %eax
	addq	%r14, %rax
	shlq	$52, %rbx
	addq	%rax, %rbx
.LBB10_99:
	movabsq	$9218868437227405312, %rax
	cmpq	%rax, %rbx
	cmovaeq	%rax, %rbx
	movq	%rbx, %rax
.LBB10_100:
	addq	$1208, %rsp
	popq	%rbx
	popq	%r12
	popq	%r13
	popq	%r14
	popq	%r15
	popq	%rbp
	retq
.Lfunc_end10:
	.size	core__dec2flt__decimal__break_tie____1d521972340cebc2_, .Lfunc_end10-core__dec2flt__decimal__break_tie____1d521972340cebc2_

	.section	.rodata.cst16,"aM",@progbits,16
	.p2align	4, 0x0
.LCPI11_0:
	.zero	16,34
.LCPI11_1:
	.zero	16,92
.LCPI11_2:
	.zero	16,31
.LCPI11_3:
	.zero	16,198
.LCPI11_4:
	.zero	16,245
	.section	.text.serde_json__de__read_items,"ax",@progbits
	.p2align	4
	.type	serde_json__de__read_items,@function
serde_json__de__read_items:
	pushq	%rbp
	pushq	%r15
	pushq	%r14
	pushq	%r13
	pushq	%r12
	pushq	%rbx
	subq	$248, %rsp
	movq	%rsi, %r10
	movq	%rdi, 152(%rsp)
	leaq	48(%rsp), %rax
	movq	%rax, 88(%rsp)
	pxor	%xmm0, %xmm0
	movdqu	%xmm0, 96(%rsp)
	leaq	48(%rsi), %rax
	movq	%rax, 8(%rsp)
	leaq	72(%rsi), %rax
	movq	%rax, 64(%rsp)
	movq	%rdx, 168(%rsp)
	leaq	-1(%rdx), %rax
	movq	%rax, 160(%rsp)
	movq	%rsi, 56(%rsp)
	jmp	.LBB11_5
.LBB11_1:
	movq	120(%rsp), %rbx
	movq	128(%rsp), %r15
	movb	$4, %r14b
	movq	136(%rsp), %r13
.LBB11_2:
	xorl	%ebp, %ebp
	movq	56(%rsp), %r10
.LBB11_3:
	movq	96(%rsp), %rax
	cmpq	%rax, 104(%rsp)
	je	.LBB11_23
.LBB11_4:
	movq	88(%rsp), %rcx
	movq	%rax, %rdx
	shlq	$5, %rdx
	movb	%r14b, (%rcx,%rdx)
	movb	%bpl, 1(%rcx,%rdx)
	movq	%rbx, 8(%rcx,%rdx)
	movq	%r15, 16(%rcx,%rdx)
	movq	%r13, 24(%rcx,%rdx)
	incq	%rax
	movq	%rax, 96(%rsp)
.LBB11_5:
	movq	8(%r10), %rbx
	movq	80(%r10), %r15
	movq	%rbx, %rax
	movzbl	104(%r10), %ecx
	subq	%r15, %rax
	jbe	.LBB11_12
	movq	(%r10), %r12
	cmpb	$93, (%r12,%r15)
	setne	%sil
	leal	-1(%rcx), %edx
	cmpb	$2, %dl
	setae	%dil
	pxor	%xmm0, %xmm0
	orb	%sil, %dil
	je	.LBB11_210
	movdqa	%xmm0, 176(%rsp)
	movq	$0, 192(%rsp)
	movdqa	%xmm0, 112(%rsp)
	movdqa	%xmm0, 128(%rsp)
	movdqa	%xmm0, 208(%rsp)
	movdqa	%xmm0, 224(%rsp)
	movzbl	(%r12,%r15), %r13d
	movl	%r13d, %esi
	andb	$-33, %sil
	cmpb	$93, %sil
	jne	.LBB11_13
	cmpb	$1, %dl
	ja	.LBB11_20
	movdqa	%xmm0, 16(%rsp)
	movdqa	%xmm0, 32(%rsp)
	movq	32(%r10), %rcx
	movq	40(%r10), %rax
	leaq	1(%rax), %rdx
	movq	%rdx, 40(%r10)
	cmpq	56(%r10), %rdx
	jne	.LBB11_22
	movq	16(%r10), %rsi
	movq	24(%r10), %rdx
	movq	64(%r10), %r8
	movq	64(%rsp), %rdi
	movzbl	2(%rdi), %eax
	movb	%al, 6(%rsp)
	movzwl	(%rdi), %eax
	movw	%ax, 4(%rsp)
	leaq	16(%rsp), %rdi
	leaq	4(%rsp), %r9
	callq	json__index__refill
	movq	56(%rsp), %r10
	movdqa	16(%rsp), %xmm0
	movdqa	32(%rsp), %xmm1
	movq	8(%rsp), %rax
	movdqu	%xmm1, 16(%rax)
	movdqu	%xmm0, (%rax)
	movq	$0, 40(%r10)
	movq	32(%r10), %rcx
	movl	$1, %eax
	cmpq	$0, 24(%rsp)
	je	.LBB11_29
	movl	(%rcx), %edx
	addq	16(%rsp), %rdx
	movq	%rdx, 80(%r10)
	movb	$2, %sil
	cmpq	8(%r10), %rdx
	jb	.LBB11_30
	jmp	.LBB11_37
	.p2align	4
.LBB11_12:
	pxor	%xmm0, %xmm0
	movdqa	%xmm0, 176(%rsp)
	movq	$0, 192(%rsp)
	movdqa	%xmm0, 112(%rsp)
	movdqa	%xmm0, 128(%rsp)
	movdqa	%xmm0, 208(%rsp)
	movdqa	%xmm0, 224(%rsp)
	jmp	.LBB11_15
	.p2align	4
.LBB11_13:
	cmpl	$32, %r13d
	ja	.LBB11_25
	movl	%r13d, %edx
	movabsq	$4294977024, %rsi
	btq	%rdx, %rsi
	jae	.LBB11_25
.LBB11_15:
	xorl	%eax, %eax
	movl	%ecx, %edx
	subb	$3, %dl
	setne	%al
	leal	-4(%rcx), %esi
	xorl	%edi, %edi
	cmpb	$-2, %dl
	leal	(%rax,%rax,8), %eax
	cmovael	%edi, %eax
	movzbl	%cl, %ecx
	movl	$3, %edx
	cmovael	%ecx, %edx
	movb	%dl, 104(%r10)
	cmpb	$-3, %sil
	jae	.LBB11_201
.LBB11_16:
	xorl	%r11d, %r11d
	xorl	%r8d, %r8d
	xorl	%ebx, %ebx
	movzbl	%al, %eax
	leaq	.LJTI11_1(%rip), %rcx
	movslq	(%rcx,%rax,4), %rax
	addq	%rcx, %rax
	xorl	%r15d, %r15d
	xorl	%r13d, %r13d
	xorl	%r14d, %r14d
	xorl	%ebp, %ebp
	xorl	%r12d, %r12d
	jmpq	*%rax
.LBB11_17:
	cmpq	$0, 168(%rsp)
	je	.LBB11_201
	leaq	208(%rsp), %rdi
	movq	%r10, %rsi
	movq	160(%rsp), %rdx
	callq	serde_json__de__read_members
	cmpb	$0, 208(%rsp)
	jne	.LBB11_215
	movq	224(%rsp), %r15
	movq	232(%rsp), %r13
	movzbl	216(%rsp), %ebx
	movb	$5, %r14b
	jmp	.LBB11_2
.LBB11_22:
	movl	4(%rcx,%rax,4), %edx
	movq	8(%rsp), %rsi
	addq	(%rsi), %rdx
	addq	$2, %rax
	movq	%rdx, 80(%r10)
	movb	$2, %sil
	cmpq	8(%r10), %rdx
	jb	.LBB11_30
	jmp	.LBB11_37
.LBB11_23:
	leaq	88(%rsp), %rdi
	callq	std_alloc__vec__Vec__grow_amortized____532ece4be0a526ce_
	testb	%al, %al
	je	.LBB11_222
	movq	96(%rsp), %rax
	movq	56(%rsp), %r10
	jmp	.LBB11_4
.LBB11_25:
	cmpb	$2, %cl
	jae	.LBB11_20
	leaq	(%r12,%r15), %r9
	movb	$3, %bpl
	movb	$9, %r14b
	leal	-34(%r13), %ecx
	cmpl	$89, %ecx
	ja	.LBB11_59
	leaq	.LJTI11_0(%rip), %rdx
	movslq	(%rdx,%rcx,4), %rcx
	addq	%rdx, %rcx
	jmpq	*%rcx
.LBB11_28:
	xorl	%r8d, %r8d
	xorl	%r11d, %r11d
	xorl	%edi, %edi
	jmp	.LBB11_169
.LBB11_20:
	xorl	%edi, %edi
	movb	$3, 104(%r10)
	cmpb	$3, %cl
	je	.LBB11_201
	movb	$9, %al
	jmp	.LBB11_16
.LBB11_29:
	movq	24(%r10), %rdx
	movq	%rdx, 80(%r10)
	movb	$2, %sil
	cmpq	8(%r10), %rdx
	jae	.LBB11_37
.LBB11_30:
	movq	(%r10), %rdi
	cmpb	$44, (%rdi,%rdx)
	jne	.LBB11_37
	pxor	%xmm0, %xmm0
	movdqa	%xmm0, 16(%rsp)
	movdqa	%xmm0, 32(%rsp)
	movq	%rax, 40(%r10)
	cmpq	56(%r10), %rax
	jne	.LBB11_34
	movq	16(%r10), %rsi
	movq	24(%r10), %rdx
	movq	64(%r10), %r8
	movq	64(%rsp), %rdi
	movzbl	2(%rdi), %eax
	movb	%al, 6(%rsp)
	movzwl	(%rdi), %eax
	movw	%ax, 4(%rsp)
	leaq	16(%rsp), %rdi
	leaq	4(%rsp), %r9
	callq	json__index__refill
	movq	56(%rsp), %r10
	movdqa	16(%rsp), %xmm0
	movdqa	32(%rsp), %xmm1
	movq	8(%rsp), %rax
	movdqu	%xmm1, 16(%rax)
	movdqu	%xmm0, (%rax)
	movq	$0, 40(%r10)
	cmpq	$0, 24(%rsp)
	je	.LBB11_35
	movq	32(%r10), %rax
	movl	(%rax), %eax
	addq	16(%rsp), %rax
	jmp	.LBB11_36
.LBB11_34:
	movl	(%rcx,%rax,4), %eax
	movq	8(%rsp), %rcx
	addq	(%rcx), %rax
	jmp	.LBB11_36
.LBB11_35:
	movq	24(%r10), %rax
.LBB11_36:
	movq	%rax, 80(%r10)
	xorl	%esi, %esi
.LBB11_37:
	cmpl	$125, %r13d
	setne	%al
	addb	%al, %al
	incb	%al
	xorl	%r8d, %r8d
	movb	%sil, 104(%r10)
	xorl	%ebx, %ebx
	movzbl	%al, %eax
	leaq	.LJTI11_1(%rip), %rcx
	movslq	(%rcx,%rax,4), %rax
	addq	%rcx, %rax
	xorl	%r11d, %r11d
	xorl	%edi, %edi
	xorl	%r15d, %r15d
	xorl	%r13d, %r13d
	xorl	%r14d, %r14d
	xorl	%ebp, %ebp
	xorl	%r12d, %r12d
	jmpq	*%rax
.LBB11_38:
	cmpq	$0, 168(%rsp)
	je	.LBB11_201
	leaq	112(%rsp), %rdi
	movq	%r10, %rsi
	movq	160(%rsp), %rdx
	callq	serde_json__de__read_items
	cmpb	$0, 112(%rsp)
	je	.LBB11_1
	jmp	.LBB11_40
.LBB11_41:
	movb	$32, %dl
	cmpq	$5, %rax
	jae	.LBB11_75
	xorl	%ecx, %ecx
	jmp	.LBB11_77
.LBB11_43:
	leaq	1(%r15), %r13
	movq	%rbx, %rax
	subq	%r13, %rax
	movq	%r13, %rdx
	cmpq	$32, %rax
	jb	.LBB11_48
	leaq	(%r12,%r15), %rax
	incq	%rax
	notq	%r15
	.p2align	4
.LBB11_45:
	movdqu	(%rax), %xmm0
	movdqu	16(%rax), %xmm1
	movdqa	.LCPI11_0(%rip), %xmm2
	movdqa	%xmm1, %xmm3
	movdqa	.LCPI11_2(%rip), %xmm4
	movdqa	%xmm0, %xmm5
	pminub	%xmm4, %xmm5
	pminub	%xmm1, %xmm4
	pcmpeqb	%xmm1, %xmm4
	pcmpeqb	%xmm2, %xmm1
	movdqa	.LCPI11_1(%rip), %xmm6
	pcmpeqb	%xmm6, %xmm3
	por	%xmm1, %xmm3
	pcmpeqb	%xmm0, %xmm2
	pcmpeqb	%xmm0, %xmm6
	por	%xmm2, %xmm6
	pcmpeqb	%xmm0, %xmm5
	por	%xmm6, %xmm5
	por	%xmm3, %xmm4
	pmovmskb	%xmm5, %edx
	pmovmskb	%xmm4, %ecx
	shll	$16, %ecx
	orl	%edx, %ecx
	jne	.LBB11_92
	addq	$32, %rax
	leaq	(%rbx,%r15), %rcx
	addq	$-32, %rcx
	addq	$-32, %r15
	cmpq	$31, %rcx
	ja	.LBB11_45
	negq	%r15
	movq	%r15, %rdx
.LBB11_48:
	movq	%r12, %rdi
	movq	%rbx, %rsi
	callq	json__run__plain_end_16
	movq	56(%rsp), %r10
	movq	%rax, %r11
	jmp	.LBB11_93
.LBB11_49:
	movb	$32, %cl
	cmpq	$4, %rax
	jae	.LBB11_79
	xorl	%edx, %edx
	jmp	.LBB11_81
.LBB11_51:
	movb	$32, %cl
	cmpq	$4, %rax
	jae	.LBB11_84
	xorl	%edx, %edx
	jmp	.LBB11_86
.LBB11_53:
	movdqa	%xmm0, 16(%rsp)
	movdqa	%xmm0, 32(%rsp)
	movq	32(%r10), %rcx
	movq	40(%r10), %rax
	leaq	1(%rax), %rdx
	movq	%rdx, 40(%r10)
	cmpq	56(%r10), %rdx
	jne	.LBB11_90
	movq	16(%r10), %rsi
	movq	24(%r10), %rdx
	movq	64(%r10), %r8
	movq	64(%rsp), %rdi
	movzbl	2(%rdi), %eax
	movb	%al, 6(%rsp)
	movzwl	(%rdi), %eax
	movw	%ax, 4(%rsp)
	leaq	16(%rsp), %rdi
	leaq	4(%rsp), %r9
	callq	json__index__refill
	movq	56(%rsp), %r10
	movdqa	16(%rsp), %xmm0
	movdqa	32(%rsp), %xmm1
	movq	8(%rsp), %rax
	movdqu	%xmm1, 16(%rax)
	movdqu	%xmm0, (%rax)
	movq	$0, 40(%r10)
	cmpq	$0, 24(%rsp)
	je	.LBB11_108
	movq	32(%r10), %rax
	movl	(%rax), %eax
	addq	16(%rsp), %rax
	jmp	.LBB11_109
.LBB11_56:
	movdqa	%xmm0, 16(%rsp)
	movdqa	%xmm0, 32(%rsp)
	movq	32(%r10), %rcx
	movq	40(%r10), %rax
	leaq	1(%rax), %rdx
	movq	%rdx, 40(%r10)
	cmpq	56(%r10), %rdx
	jne	.LBB11_91
	movq	16(%r10), %rsi
	movq	24(%r10), %rdx
	movq	64(%r10), %r8
	movq	64(%rsp), %rdi
	movzbl	2(%rdi), %eax
	movb	%al, 6(%rsp)
	movzwl	(%rdi), %eax
	movw	%ax, 4(%rsp)
	leaq	16(%rsp), %rdi
	leaq	4(%rsp), %r9
	callq	json__index__refill
	movq	56(%rsp), %r10
	movdqa	16(%rsp), %xmm0
	movdqa	32(%rsp), %xmm1
	movq	8(%rsp), %rax
	movdqu	%xmm1, 16(%rax)
	movdqu	%xmm0, (%rax)
	movq	$0, 40(%r10)
	cmpq	$0, 24(%rsp)
	je	.LBB11_110
	movq	32(%r10), %rax
	movl	(%rax), %eax
	addq	16(%rsp), %rax
	jmp	.LBB11_111
.LBB11_59:
	xorl	%ecx, %ecx
	cmpl	$45, %r13d
	sete	%cl
	leaq	(%r15,%rcx), %r14
	movq	%rbx, %rsi
	subq	%r14, %rsi
	jbe	.LBB11_70
	cmpb	$48, (%r12,%r14)
	jne	.LBB11_70
	incq	%r14
	movq	%r14, %rax
	jmp	.LBB11_62
.LBB11_70:
	movq	%r14, %rdx
	cmpq	$16, %rsi
	jb	.LBB11_74
	subq	%rcx, %rax
	movq	%r14, %rdx
.LBB11_72:
	movdqu	(%r12,%rdx), %xmm0
	paddb	.LCPI11_3(%rip), %xmm0
	movdqa	.LCPI11_4(%rip), %xmm1
	pminub	%xmm0, %xmm1
	pcmpeqb	%xmm0, %xmm1
	pmovmskb	%xmm1, %ecx
	testl	%ecx, %ecx
	jne	.LBB11_103
	addq	$16, %rdx
	addq	$-16, %rax
	cmpq	$15, %rax
	ja	.LBB11_72
.LBB11_74:
	movq	%r12, %rdi
	movq	%rbx, %rsi
	movq	%r9, %r13
	callq	json__run__digits_end_slowly
	movq	%r13, %r9
	movq	56(%rsp), %r10
	jmp	.LBB11_104
.LBB11_75:
	cmpl	$1702063201, 1(%r9)
	sete	%cl
	cmpq	$5, %rax
	je	.LBB11_77
	movzbl	5(%r9), %edx
.LBB11_77:
	movl	%edx, %eax
	andb	$-33, %al
	addb	$-91, %al
	testb	$-3, %al
	sete	%dil
	cmpb	$58, %dl
	sete	%r8b
	cmpb	$44, %dl
	sete	%al
	cmpb	$32, %dl
	sete	%sil
	leal	-9(%rdx), %r9d
	cmpb	$2, %r9b
	setb	%r9b
	cmpb	$13, %dl
	sete	%dl
	xorl	%r11d, %r11d
	testb	%cl, %cl
	je	.LBB11_89
	orb	%r8b, %al
	orb	%dil, %al
	orb	%dl, %sil
	orb	%r9b, %sil
	orb	%al, %sil
	movb	$7, %bl
	jmp	.LBB11_83
.LBB11_79:
	movzbl	3(%r9), %edx
	xorb	$108, %dl
	movzbl	1(%r9), %esi
	movzbl	2(%r9), %edi
	xorb	$108, %dil
	orb	%dl, %dil
	xorb	$117, %sil
	orb	%dil, %sil
	sete	%dl
	cmpq	$4, %rax
	je	.LBB11_81
	movzbl	4(%r9), %ecx
.LBB11_81:
	movl	%ecx, %eax
	andb	$-33, %al
	addb	$-91, %al
	testb	$-3, %al
	sete	%dil
	cmpb	$58, %cl
	sete	%r8b
	cmpb	$44, %cl
	sete	%al
	cmpb	$32, %cl
	sete	%sil
	leal	-9(%rcx), %r9d
	cmpb	$2, %r9b
	setb	%r9b
	cmpb	$13, %cl
	sete	%cl
	xorl	%r11d, %r11d
	testb	%dl, %dl
	je	.LBB11_89
	orb	%r8b, %al
	orb	%dil, %al
	orb	%cl, %sil
	orb	%r9b, %sil
	orb	%al, %sil
	movb	$8, %bl
.LBB11_83:
	movl	$0, %r9d
	movl	$0, %r8d
	movl	$0, %edi
	jne	.LBB11_153
	jmp	.LBB11_169
.LBB11_84:
	movzbl	3(%r9), %edx
	xorb	$101, %dl
	movzbl	1(%r9), %esi
	movzbl	2(%r9), %edi
	xorb	$117, %dil
	orb	%dl, %dil
	xorb	$114, %sil
	orb	%dil, %sil
	sete	%dl
	cmpq	$4, %rax
	je	.LBB11_86
	movzbl	4(%r9), %ecx
.LBB11_86:
	movl	%ecx, %eax
	andb	$-33, %al
	addb	$-91, %al
	testb	$-3, %al
	sete	%dil
	cmpb	$58, %cl
	sete	%r8b
	cmpb	$44, %cl
	sete	%al
	cmpb	$32, %cl
	sete	%sil
	leal	-9(%rcx), %r9d
	cmpb	$2, %r9b
	setb	%r9b
	cmpb	$13, %cl
	sete	%cl
	xorl	%r11d, %r11d
	testb	%dl, %dl
	je	.LBB11_89
	orb	%r8b, %al
	orb	%dil, %al
	orb	%cl, %sil
	orb	%r9b, %sil
	orb	%al, %sil
	je	.LBB11_89
	movb	$7, %bl
	movb	$1, %dil
	xorl	%r9d, %r9d
	jmp	.LBB11_153
.LBB11_89:
	xorl	%r8d, %r8d
	xorl	%edi, %edi
	jmp	.LBB11_169
.LBB11_90:
	movl	4(%rcx,%rax,4), %eax
	movq	8(%rsp), %rcx
	addq	(%rcx), %rax
	jmp	.LBB11_109
.LBB11_91:
	movl	4(%rcx,%rax,4), %eax
	movq	8(%rsp), %rcx
	addq	(%rcx), %rax
	jmp	.LBB11_111
.LBB11_92:
	rep		bsfl	%ecx, %r11d
	subq	%r15, %r11
.LBB11_93:
	cmpq	%rbx, %r11
	jae	.LBB11_98
	cmpb	$34, (%r12,%r11)
	jne	.LBB11_98
	pxor	%xmm0, %xmm0
	movdqa	%xmm0, 16(%rsp)
	movdqa	%xmm0, 32(%rsp)
	movq	32(%r10), %rcx
	movq	40(%r10), %rdx
	leaq	1(%rdx), %rax
	movq	%rax, 40(%r10)
	cmpq	56(%r10), %rax
	jne	.LBB11_112
	movq	%r11, %rbx
	movq	16(%r10), %rsi
	movq	24(%r10), %rdx
	movq	64(%r10), %r8
	movq	64(%rsp), %rdi
	movzbl	2(%rdi), %eax
	movb	%al, 6(%rsp)
	movzwl	(%rdi), %eax
	movw	%ax, 4(%rsp)
	leaq	16(%rsp), %rdi
	leaq	4(%rsp), %r9
	callq	json__index__refill
	movq	56(%rsp), %r10
	movdqa	16(%rsp), %xmm0
	movdqa	32(%rsp), %xmm1
	movq	8(%rsp), %rax
	movdqu	%xmm1, 16(%rax)
	movdqu	%xmm0, (%rax)
	movq	$0, 40(%r10)
	movq	32(%r10), %rcx
	cmpq	$0, 24(%rsp)
	je	.LBB11_115
	movl	(%rcx), %edx
	addq	16(%rsp), %rdx
	jmp	.LBB11_116
.LBB11_98:
	movq	88(%r10), %r14
	movq	96(%r10), %r15
	leaq	48(%rsp), %rax
	movq	%rax, 88(%r10)
	movq	$0, 96(%r10)
	movq	%r12, %rdi
	movq	%rbx, %rsi
	movq	%r13, %rdx
	movq	%r14, %rcx
	movq	%r15, %r8
	movq	%r10, %rbx
	callq	json__unescape__unescape
	cmpb	$1, %al
	jne	.LBB11_102
	movq	%rdx, %r11
	leaq	(%r14,%rdx), %rax
	subq	%rdx, %r15
	movq	%rax, 88(%rbx)
	movq	%r15, 96(%rbx)
	pxor	%xmm0, %xmm0
	movdqa	%xmm0, 16(%rsp)
	movdqa	%xmm0, 32(%rsp)
	movq	32(%rbx), %rcx
	movq	40(%rbx), %rdx
	leaq	1(%rdx), %rax
	movq	%rax, 40(%rbx)
	cmpq	56(%rbx), %rax
	movq	%rbx, %r10
	movq	%r14, %r8
	jne	.LBB11_107
	movq	%r8, %r14
	movq	%r11, %rbx
	movq	16(%r10), %rsi
	movq	24(%r10), %rdx
	movq	64(%r10), %r8
	movq	64(%rsp), %rdi
	movzbl	2(%rdi), %eax
	movb	%al, 6(%rsp)
	movzwl	(%rdi), %eax
	movw	%ax, 4(%rsp)
	leaq	16(%rsp), %rdi
	leaq	4(%rsp), %r9
	callq	json__index__refill
	movq	56(%rsp), %r10
	movdqa	16(%rsp), %xmm0
	movdqa	32(%rsp), %xmm1
	movq	8(%rsp), %rax
	movdqu	%xmm1, 16(%rax)
	movdqu	%xmm0, (%rax)
	movq	$0, 40(%r10)
	movq	32(%r10), %rcx
	cmpq	$0, 24(%rsp)
	je	.LBB11_113
	movl	(%rcx), %edx
	addq	16(%rsp), %rdx
	jmp	.LBB11_114
.LBB11_102:
	movq	%r14, 88(%rbx)
	movq	%r15, 96(%rbx)
	movb	$3, %al
	movb	$9, %cl
	xorl	%r8d, %r8d
	movb	%al, 104(%rbx)
	movq	%rbx, %r10
	xorl	%ebx, %ebx
	movzbl	%cl, %eax
	leaq	.LJTI11_1(%rip), %rcx
	movslq	(%rcx,%rax,4), %rax
	addq	%rcx, %rax
	xorl	%r11d, %r11d
	xorl	%edi, %edi
	xorl	%r15d, %r15d
	xorl	%r13d, %r13d
	xorl	%r14d, %r14d
	xorl	%ebp, %ebp
	xorl	%r12d, %r12d
	jmpq	*%rax
.LBB11_103:
	rep		bsfl	%ecx, %eax
	addq	%rdx, %rax
.LBB11_104:
	xorl	%r11d, %r11d
	cmpq	%r14, %rax
	cmoveq	%r11, %rax
	jne	.LBB11_62
.LBB11_105:
	xorl	%r8d, %r8d
.LBB11_106:
	xorl	%edi, %edi
	movb	$9, %r14b
	jmp	.LBB11_169
.LBB11_62:
	cmpq	%rbx, %rax
	jae	.LBB11_132
	cmpb	$46, (%r12,%rax)
	jne	.LBB11_132
	leaq	1(%rax), %r14
	movq	%rbx, %rcx
	subq	%r14, %rcx
	movq	%r14, %rdx
	cmpq	$16, %rcx
	jb	.LBB11_69
	leaq	(%r12,%rax), %rcx
	incq	%rcx
	notq	%rax
.LBB11_66:
	movdqu	(%rcx), %xmm0
	paddb	.LCPI11_3(%rip), %xmm0
	movdqa	.LCPI11_4(%rip), %xmm1
	pminub	%xmm0, %xmm1
	pcmpeqb	%xmm0, %xmm1
	pmovmskb	%xmm1, %edx
	testl	%edx, %edx
	jne	.LBB11_130
	addq	$16, %rcx
	leaq	(%rbx,%rax), %rdx
	addq	$-16, %rdx
	addq	$-16, %rax
	cmpq	$15, %rdx
	ja	.LBB11_66
	negq	%rax
	movq	%rax, %rdx
.LBB11_69:
	movq	%r12, %rdi
	movq	%rbx, %rsi
	movq	%r9, %r13
	callq	json__run__digits_end_slowly
	movq	%r13, %r9
	movq	56(%rsp), %r10
	jmp	.LBB11_131
.LBB11_107:
	movl	4(%rcx,%rdx,4), %edx
	movq	8(%rsp), %rsi
	addq	(%rsi), %rdx
	movq	%rdx, 80(%r10)
	jmp	.LBB11_118
.LBB11_108:
	movq	24(%r10), %rax
.LBB11_109:
	movq	%rax, 80(%r10)
	movb	$1, %al
	movb	$2, %cl
	xorl	%r8d, %r8d
	movb	%al, 104(%r10)
	xorl	%ebx, %ebx
	movzbl	%cl, %eax
	leaq	.LJTI11_1(%rip), %rcx
	movslq	(%rcx,%rax,4), %rax
	addq	%rcx, %rax
	xorl	%r11d, %r11d
	xorl	%edi, %edi
	xorl	%r15d, %r15d
	xorl	%r13d, %r13d
	xorl	%r14d, %r14d
	xorl	%ebp, %ebp
	xorl	%r12d, %r12d
	jmpq	*%rax
.LBB11_110:
	movq	24(%r10), %rax
.LBB11_111:
	movq	%rax, 80(%r10)
	movb	$1, %al
	xorl	%r8d, %r8d
	movb	%al, 104(%r10)
	xorl	%ebx, %ebx
	movzbl	%r8b, %edi
	leaq	.LJTI11_1(%rip), %rax
	movslq	(%rax,%rdi,4), %rcx
	addq	%rax, %rcx
	xorl	%r11d, %r11d
	xorl	%r15d, %r15d
	xorl	%r13d, %r13d
	xorl	%r14d, %r14d
	xorl	%ebp, %ebp
	xorl	%r12d, %r12d
	jmpq	*%rcx
.LBB11_112:
	movl	4(%rcx,%rdx,4), %edx
	movq	8(%rsp), %rsi
	addq	(%rsi), %rdx
	jmp	.LBB11_117
.LBB11_113:
	movq	24(%r10), %rdx
.LBB11_114:
	xorl	%eax, %eax
	movq	%rbx, %r11
	movq	%r14, %r8
	movq	%rdx, 80(%r10)
	jmp	.LBB11_118
.LBB11_115:
	movq	24(%r10), %rdx
.LBB11_116:
	xorl	%eax, %eax
	movq	%rbx, %r11
.LBB11_117:
	movq	%rdx, 80(%r10)
	addq	%r13, %r12
	subq	%r13, %r11
	movq	%r12, %r8
.LBB11_118:
	movb	$2, %bpl
	movb	$5, %r14b
	cmpq	8(%r10), %rdx
	jae	.LBB11_127
	movq	(%r10), %rsi
	movzbl	(%rsi,%rdx), %edx
	cmpl	$44, %edx
	je	.LBB11_124
	cmpl	$58, %edx
	jne	.LBB11_127
	pxor	%xmm0, %xmm0
	movdqa	%xmm0, 16(%rsp)
	movdqa	%xmm0, 32(%rsp)
	leaq	1(%rax), %rdx
	movq	%rdx, 40(%r10)
	cmpq	56(%r10), %rdx
	jne	.LBB11_128
	movq	%r8, 72(%rsp)
	movq	%r11, 80(%rsp)
	movq	16(%r10), %rsi
	movq	24(%r10), %rdx
	movq	64(%r10), %r8
	movq	64(%rsp), %rdi
	movzbl	2(%rdi), %eax
	movb	%al, 6(%rsp)
	movzwl	(%rdi), %eax
	movw	%ax, 4(%rsp)
	leaq	16(%rsp), %rdi
	leaq	4(%rsp), %r9
	callq	json__index__refill
	movq	56(%rsp), %r10
	movdqa	16(%rsp), %xmm0
	movdqa	32(%rsp), %xmm1
	movq	8(%rsp), %rax
	movdqu	%xmm1, 16(%rax)
	movdqu	%xmm0, (%rax)
	movq	$0, 40(%r10)
	cmpq	$0, 24(%rsp)
	je	.LBB11_193
	movq	32(%r10), %rax
	movl	(%rax), %eax
	addq	16(%rsp), %rax
	movq	%rax, 80(%r10)
	movb	$1, %al
	movb	$4, %cl
	xorl	%edi, %edi
	movb	%al, 104(%r10)
	xorl	%ebx, %ebx
	movzbl	%cl, %eax
	leaq	.LJTI11_1(%rip), %rcx
	movslq	(%rcx,%rax,4), %rax
	addq	%rcx, %rax
	xorl	%r15d, %r15d
	xorl	%r13d, %r13d
	xorl	%r14d, %r14d
	xorl	%ebp, %ebp
	xorl	%r12d, %r12d
	movq	80(%rsp), %r11
	movq	72(%rsp), %r8
	jmpq	*%rax
.LBB11_127:
	xorl	%edi, %edi
	jmp	.LBB11_169
.LBB11_124:
	pxor	%xmm0, %xmm0
	movdqa	%xmm0, 16(%rsp)
	movdqa	%xmm0, 32(%rsp)
	leaq	1(%rax), %rdx
	movq	%rdx, 40(%r10)
	cmpq	56(%r10), %rdx
	jne	.LBB11_129
	movq	%r8, 72(%rsp)
	movq	%r11, 80(%rsp)
	movq	16(%r10), %rsi
	movq	24(%r10), %rdx
	movq	64(%r10), %r8
	movq	64(%rsp), %rdi
	movzbl	2(%rdi), %eax
	movb	%al, 6(%rsp)
	movzwl	(%rdi), %eax
	movw	%ax, 4(%rsp)
	leaq	16(%rsp), %rdi
	leaq	4(%rsp), %r9
	callq	json__index__refill
	movq	56(%rsp), %r10
	movdqa	16(%rsp), %xmm0
	movdqa	32(%rsp), %xmm1
	movq	8(%rsp), %rax
	movdqu	%xmm1, 16(%rax)
	movdqu	%xmm0, (%rax)
	movq	$0, 40(%r10)
	cmpq	$0, 24(%rsp)
	je	.LBB11_195
	movq	32(%r10), %rax
	movl	(%rax), %eax
	addq	16(%rsp), %rax
	movq	%rax, 80(%r10)
	movb	$5, %al
	xorl	%edi, %edi
	movb	%dil, 104(%r10)
	xorl	%ebx, %ebx
	movzbl	%al, %eax
	leaq	.LJTI11_1(%rip), %rcx
	movslq	(%rcx,%rax,4), %rax
	addq	%rcx, %rax
	xorl	%r15d, %r15d
	xorl	%r13d, %r13d
	xorl	%r14d, %r14d
	xorl	%ebp, %ebp
	xorl	%r12d, %r12d
	movq	80(%rsp), %r11
	movq	72(%rsp), %r8
	jmpq	*%rax
.LBB11_128:
	movl	4(%rcx,%rax,4), %eax
	movq	8(%rsp), %rcx
	addq	(%rcx), %rax
	jmp	.LBB11_194
.LBB11_129:
	movl	4(%rcx,%rax,4), %eax
	movq	8(%rsp), %rcx
	addq	(%rcx), %rax
	jmp	.LBB11_196
.LBB11_130:
	rep		bsfl	%edx, %ecx
	subq	%rax, %rcx
	movq	%rcx, %rax
.LBB11_131:
	xorl	%r11d, %r11d
	cmpq	%r14, %rax
	cmoveq	%r11, %rax
	je	.LBB11_105
.LBB11_132:
	cmpq	%rbx, %rax
	jae	.LBB11_147
	movzbl	(%r12,%rax), %ecx
	andb	$-33, %cl
	cmpb	$69, %cl
	jne	.LBB11_147
	leaq	1(%rax), %r14
	cmpq	%rbx, %r14
	jae	.LBB11_138
	movzbl	(%r12,%r14), %ecx
	cmpl	$45, %ecx
	je	.LBB11_137
	cmpl	$43, %ecx
	jne	.LBB11_138
.LBB11_137:
	addq	$2, %rax
	movq	%rax, %r14
.LBB11_138:
	movq	%rbx, %rax
	subq	%r14, %rax
	movq	%r14, %rdx
	cmpq	$16, %rax
	jb	.LBB11_143
	movq	%r14, %rdx
	negq	%rdx
	leaq	(%r12,%r14), %rax
.LBB11_140:
	movdqu	(%rax), %xmm0
	paddb	.LCPI11_3(%rip), %xmm0
	movdqa	.LCPI11_4(%rip), %xmm1
	pminub	%xmm0, %xmm1
	pcmpeqb	%xmm0, %xmm1
	pmovmskb	%xmm1, %ecx
	testl	%ecx, %ecx
	jne	.LBB11_144
	addq	$16, %rax
	leaq	(%rbx,%rdx), %rcx
	addq	$-16, %rcx
	addq	$-16, %rdx
	cmpq	$15, %rcx
	ja	.LBB11_140
	negq	%rdx
.LBB11_143:
	movq	%r12, %rdi
	movq	%rbx, %rsi
	movq	%r9, %r13
	callq	json__run__digits_end_slowly
	movq	%r13, %r9
	movq	56(%rsp), %r10
	jmp	.LBB11_145
.LBB11_144:
	rep		bsfl	%ecx, %eax
	subq	%rdx, %rax
.LBB11_145:
	cmpq	%r14, %rax
	jne	.LBB11_147
	xorl	%r8d, %r8d
	xorl	%r11d, %r11d
	jmp	.LBB11_106
.LBB11_147:
	cmpq	%rbx, %rax
	movb	$9, %r14b
	jae	.LBB11_152
	movzbl	(%r12,%rax), %ecx
	cmpq	$58, %rcx
	ja	.LBB11_150
	movabsq	$288247972632733184, %rdx
	btq	%rcx, %rdx
	jb	.LBB11_152
.LBB11_150:
	xorl	%r8d, %r8d
	xorl	%edi, %edi
	addl	$-91, %ecx
	cmpl	$34, %ecx
	ja	.LBB11_200
	movabsq	$21474836485, %rdx
	btq	%rcx, %rdx
	movl	$0, %r11d
	jae	.LBB11_169
.LBB11_152:
	subq	%r15, %rax
	movb	$6, %bl
	xorl	%edi, %edi
	movq	%rax, %r11
.LBB11_153:
	pxor	%xmm0, %xmm0
	movdqa	%xmm0, 16(%rsp)
	movdqa	%xmm0, 32(%rsp)
	movq	32(%r10), %rcx
	movq	40(%r10), %rax
	leaq	1(%rax), %rdx
	movq	%rdx, 40(%r10)
	cmpq	56(%r10), %rdx
	jne	.LBB11_156
	movq	%r9, %r12
	movq	%rdi, %r15
	movq	%r11, %r14
	movq	16(%r10), %rsi
	movq	24(%r10), %rdx
	movq	64(%r10), %r8
	movq	64(%rsp), %rdi
	movzbl	2(%rdi), %eax
	movb	%al, 6(%rsp)
	movzwl	(%rdi), %eax
	movw	%ax, 4(%rsp)
	leaq	16(%rsp), %rdi
	leaq	4(%rsp), %r9
	callq	json__index__refill
	movq	56(%rsp), %r10
	movdqa	16(%rsp), %xmm0
	movdqa	32(%rsp), %xmm1
	movq	8(%rsp), %rax
	movdqu	%xmm1, 16(%rax)
	movdqu	%xmm0, (%rax)
	movq	$0, 40(%r10)
	movq	32(%r10), %rcx
	movl	$1, %eax
	cmpq	$0, 24(%rsp)
	je	.LBB11_157
	movl	(%rcx), %edx
	addq	16(%rsp), %rdx
	jmp	.LBB11_158
.LBB11_156:
	movl	4(%rcx,%rax,4), %edx
	movq	8(%rsp), %rsi
	addq	(%rsi), %rdx
	addq	$2, %rax
	jmp	.LBB11_159
.LBB11_157:
	movq	24(%r10), %rdx
.LBB11_158:
	movq	%r14, %r11
	movq	%r15, %rdi
	movq	%r12, %r9
.LBB11_159:
	movq	%rdx, 80(%r10)
	movb	$2, %bpl
	cmpq	8(%r10), %rdx
	jae	.LBB11_168
	movq	(%r10), %rsi
	cmpb	$44, (%rsi,%rdx)
	jne	.LBB11_168
	pxor	%xmm0, %xmm0
	movdqa	%xmm0, 16(%rsp)
	movdqa	%xmm0, 32(%rsp)
	movq	%rax, 40(%r10)
	cmpq	56(%r10), %rax
	jne	.LBB11_164
	movq	%r9, %r12
	movq	%rdi, %r15
	movq	%r11, %r14
	movq	16(%r10), %rsi
	movq	24(%r10), %rdx
	movq	64(%r10), %r8
	movq	64(%rsp), %rdi
	movzbl	2(%rdi), %eax
	movb	%al, 6(%rsp)
	movzwl	(%rdi), %eax
	movw	%ax, 4(%rsp)
	leaq	16(%rsp), %rdi
	leaq	4(%rsp), %r9
	callq	json__index__refill
	movq	56(%rsp), %r10
	movdqa	16(%rsp), %xmm0
	movdqa	32(%rsp), %xmm1
	movq	8(%rsp), %rax
	movdqu	%xmm1, 16(%rax)
	movdqu	%xmm0, (%rax)
	movq	$0, 40(%r10)
	cmpq	$0, 24(%rsp)
	je	.LBB11_165
	movq	32(%r10), %rax
	movl	(%rax), %eax
	addq	16(%rsp), %rax
	jmp	.LBB11_166
.LBB11_164:
	movl	(%rcx,%rax,4), %eax
	movq	8(%rsp), %rcx
	addq	(%rcx), %rax
	jmp	.LBB11_167
.LBB11_165:
	movq	24(%r10), %rax
.LBB11_166:
	movq	%r14, %r11
	movq	%r15, %rdi
	movq	%r12, %r9
.LBB11_167:
	movq	%rax, 80(%r10)
	xorl	%ebp, %ebp
.LBB11_168:
	movq	%r9, %r8
	movl	%ebx, %r14d
.LBB11_169:
	movb	%bpl, 104(%r10)
	xorl	%ebx, %ebx
	movzbl	%r14b, %eax
	leaq	.LJTI11_1(%rip), %rcx
	movslq	(%rcx,%rax,4), %rax
	addq	%rcx, %rax
	xorl	%r15d, %r15d
	xorl	%r13d, %r13d
	xorl	%r14d, %r14d
	xorl	%ebp, %ebp
	xorl	%r12d, %r12d
	jmpq	*%rax
.LBB11_170:
	leaq	48(%rsp), %rbx
	testq	%r11, %r11
	je	.LBB11_174
	movb	$2, %r12b
	js	.LBB11_202
	movl	$1, %esi
	movq	%r11, %rdi
	movq	%r11, %rbx
	movq	%r8, %r14
	callq	rattle_alloc@PLT
	movq	56(%rsp), %r10
	testb	$1, %al
	je	.LBB11_202
	movq	%r14, %r8
	movq	%rbx, %r11
	movq	%rdx, %rbx
.LBB11_174:
	movq	%rbx, %rcx
	subq	%r8, %rcx
	cmpq	%r11, %rcx
	jae	.LBB11_179
	xorl	%eax, %eax
	cmpq	$4, %r11
	jb	.LBB11_187
	cmpq	$32, %rcx
	jb	.LBB11_187
	cmpq	$32, %r11
	jae	.LBB11_180
	xorl	%eax, %eax
	jmp	.LBB11_184
.LBB11_179:
	movq	%rbx, %rdi
	movq	%r8, %rsi
	movq	%r11, %rdx
	movq	%r11, %r14
	callq	memmove@PLT
	movq	%r14, %r11
	movq	56(%rsp), %r10
	jmp	.LBB11_192
.LBB11_180:
	movq	%r11, %rax
	andq	$-32, %rax
	xorl	%ecx, %ecx
	.p2align	4
.LBB11_181:
	movdqu	(%r8,%rcx), %xmm0
	movdqu	16(%r8,%rcx), %xmm1
	movdqu	%xmm0, (%rbx,%rcx)
	movdqu	%xmm1, 16(%rbx,%rcx)
	addq	$32, %rcx
	cmpq	%rcx, %rax
	jne	.LBB11_181
	cmpq	%rax, %r11
	je	.LBB11_192
	testb	$28, %r11b
	je	.LBB11_187
.LBB11_184:
	movq	%rax, %rcx
	movq	%r11, %rax
	andq	$-4, %rax
	.p2align	4
.LBB11_185:
	movl	(%r8,%rcx), %edx
	movl	%edx, (%rbx,%rcx)
	addq	$4, %rcx
	cmpq	%rcx, %rax
	jne	.LBB11_185
	cmpq	%rax, %r11
	je	.LBB11_192
.LBB11_187:
	movq	%r11, %rdx
	movq	%rax, %rcx
	andq	$3, %rdx
	je	.LBB11_190
	movq	%rax, %rcx
	.p2align	4
.LBB11_189:
	movzbl	(%r8,%rcx), %esi
	movb	%sil, (%rbx,%rcx)
	incq	%rcx
	decq	%rdx
	jne	.LBB11_189
.LBB11_190:
	subq	%r11, %rax
	cmpq	$-4, %rax
	ja	.LBB11_192
	.p2align	4
.LBB11_191:
	movzbl	(%r8,%rcx), %eax
	movb	%al, (%rbx,%rcx)
	movzbl	1(%r8,%rcx), %eax
	movb	%al, 1(%rbx,%rcx)
	movzbl	2(%r8,%rcx), %eax
	movb	%al, 2(%rbx,%rcx)
	movzbl	3(%r8,%rcx), %eax
	movb	%al, 3(%rbx,%rcx)
	addq	$4, %rcx
	cmpq	%rcx, %r11
	jne	.LBB11_191
.LBB11_192:
	movb	$3, %r14b
	xorl	%ebp, %ebp
	movq	%r11, %r15
	movq	%r11, %r13
	jmp	.LBB11_3
.LBB11_193:
	movq	24(%r10), %rax
	movq	80(%rsp), %r11
	movq	72(%rsp), %r8
.LBB11_194:
	movq	%rax, 80(%r10)
	movb	$1, %al
	movb	$4, %cl
	xorl	%edi, %edi
	movb	%al, 104(%r10)
	xorl	%ebx, %ebx
	movzbl	%cl, %eax
	leaq	.LJTI11_1(%rip), %rcx
	movslq	(%rcx,%rax,4), %rax
	addq	%rcx, %rax
	xorl	%r15d, %r15d
	xorl	%r13d, %r13d
	xorl	%r14d, %r14d
	xorl	%ebp, %ebp
	xorl	%r12d, %r12d
	jmpq	*%rax
.LBB11_195:
	movq	24(%r10), %rax
	movq	80(%rsp), %r11
	movq	72(%rsp), %r8
.LBB11_196:
	movq	%rax, 80(%r10)
	movb	$5, %al
	xorl	%edi, %edi
	movb	%dil, 104(%r10)
	xorl	%ebx, %ebx
	movzbl	%al, %eax
	leaq	.LJTI11_1(%rip), %rcx
	movslq	(%rcx,%rax,4), %rax
	addq	%rcx, %rax
	xorl	%r15d, %r15d
	xorl	%r13d, %r13d
	xorl	%r14d, %r14d
	xorl	%ebp, %ebp
	xorl	%r12d, %r12d
	jmpq	*%rax
.LBB11_197:
	leaq	176(%rsp), %rdi
	movq	%r8, %rsi
	movq	%r11, %rdx
	callq	serde_json__number__Number__parse
	cmpb	$1, 176(%rsp)
	jne	.LBB11_214
	movzbl	184(%rsp), %ebx
	movb	$2, %r14b
	movq	192(%rsp), %r15
	xorl	%r13d, %r13d
	jmp	.LBB11_2
.LBB11_199:
	movb	$1, %r14b
	xorl	%ebx, %ebx
	xorl	%r15d, %r15d
	xorl	%r13d, %r13d
	movl	%edi, %ebp
	jmp	.LBB11_3
.LBB11_200:
	xorl	%r11d, %r11d
	jmp	.LBB11_169
.LBB11_201:
	xorl	%r12d, %r12d
.LBB11_202:
	movq	88(%rsp), %rbx
	movq	96(%rsp), %r15
	movq	104(%rsp), %r14
	testq	%r15, %r15
	je	.LBB11_205
	leaq	24(%rsp), %r13
	movq	%rbx, %rbp
	.p2align	4
.LBB11_204:
	movzwl	(%rbp), %eax
	movq	$0, 16(%rsp)
	movw	%ax, 16(%rsp)
	movq	24(%rbp), %rax
	movq	%rax, 16(%r13)
	movdqu	8(%rbp), %xmm0
	movdqu	%xmm0, (%r13)
	leaq	16(%rsp), %rdi
	callq	serde_json__serde_json__value__Value_Destruct__drop
	addq	$32, %rbp
	decq	%r15
	jne	.LBB11_204
.LBB11_205:
	testq	%r14, %r14
	je	.LBB11_207
	movq	%rbx, %rdi
	callq	rattle_dealloc@PLT
.LBB11_207:
	movq	152(%rsp), %rax
	movb	$1, (%rax)
	movb	%r12b, 1(%rax)
.LBB11_208:
	pxor	%xmm0, %xmm0
	movdqu	%xmm0, 8(%rax)
	movq	$0, 24(%rax)
.LBB11_209:
	addq	$248, %rsp
	popq	%rbx
	popq	%r12
	popq	%r13
	popq	%r14
	popq	%r15
	popq	%rbp
	retq
.LBB11_210:
	movdqa	%xmm0, 16(%rsp)
	movdqa	%xmm0, 32(%rsp)
	movq	32(%r10), %rcx
	movq	40(%r10), %rax
	leaq	1(%rax), %rdx
	movq	%rdx, 40(%r10)
	cmpq	56(%r10), %rdx
	jne	.LBB11_213
	movq	16(%r10), %rsi
	movq	24(%r10), %rdx
	movq	64(%r10), %r8
	movq	64(%rsp), %rdi
	movzbl	2(%rdi), %eax
	movb	%al, 114(%rsp)
	movzwl	(%rdi), %eax
	movw	%ax, 112(%rsp)
	leaq	16(%rsp), %rdi
	leaq	112(%rsp), %r9
	callq	json__index__refill
	movq	56(%rsp), %r10
	movdqa	16(%rsp), %xmm0
	movdqa	32(%rsp), %xmm1
	movq	8(%rsp), %rax
	movdqu	%xmm1, 16(%rax)
	movdqu	%xmm0, (%rax)
	movq	$0, 40(%r10)
	movq	32(%r10), %rcx
	movl	$1, %eax
	cmpq	$0, 24(%rsp)
	je	.LBB11_216
	movl	(%rcx), %edx
	addq	16(%rsp), %rdx
	movq	%rdx, 80(%r10)
	movb	$2, %sil
	cmpq	8(%r10), %rdx
	jb	.LBB11_217
	jmp	.LBB11_231
.LBB11_213:
	movl	4(%rcx,%rax,4), %edx
	movq	8(%rsp), %rsi
	addq	(%rsi), %rdx
	addq	$2, %rax
	movq	%rdx, 80(%r10)
	movb	$2, %sil
	cmpq	8(%r10), %rdx
	jb	.LBB11_217
	jmp	.LBB11_231
.LBB11_214:
	movb	$1, %r12b
	jmp	.LBB11_202
.LBB11_215:
	movzbl	209(%rsp), %r12d
	jmp	.LBB11_202
.LBB11_40:
	movzbl	113(%rsp), %r12d
	jmp	.LBB11_202
.LBB11_216:
	movq	24(%r10), %rdx
	movq	%rdx, 80(%r10)
	movb	$2, %sil
	cmpq	8(%r10), %rdx
	jae	.LBB11_231
.LBB11_217:
	movq	(%r10), %rdi
	cmpb	$44, (%rdi,%rdx)
	jne	.LBB11_231
	pxor	%xmm0, %xmm0
	movdqa	%xmm0, 16(%rsp)
	movdqa	%xmm0, 32(%rsp)
	movq	%rax, 40(%r10)
	cmpq	56(%r10), %rax
	jne	.LBB11_221
	movq	16(%r10), %rsi
	movq	24(%r10), %rdx
	movq	64(%r10), %r8
	movq	64(%rsp), %rdi
	movzbl	2(%rdi), %eax
	movb	%al, 114(%rsp)
	movzwl	(%rdi), %eax
	movw	%ax, 112(%rsp)
	leaq	16(%rsp), %rdi
	leaq	112(%rsp), %r9
	callq	json__index__refill
	movq	56(%rsp), %r10
	movdqa	16(%rsp), %xmm0
	movdqa	32(%rsp), %xmm1
	movq	8(%rsp), %rax
	movdqu	%xmm1, 16(%rax)
	movdqu	%xmm0, (%rax)
	movq	$0, 40(%r10)
	cmpq	$0, 24(%rsp)
	je	.LBB11_229
	movq	32(%r10), %rax
	movl	(%rax), %eax
	addq	16(%rsp), %rax
	jmp	.LBB11_230
.LBB11_221:
	movl	(%rcx,%rax,4), %eax
	movq	8(%rsp), %rcx
	addq	(%rcx), %rax
	jmp	.LBB11_230
.LBB11_222:
	movq	$0, 16(%rsp)
	movb	%r14b, 16(%rsp)
	movb	%bpl, 17(%rsp)
	movq	%rbx, 24(%rsp)
	movq	%r15, 32(%rsp)
	movq	%r13, 40(%rsp)
	leaq	16(%rsp), %rdi
	callq	serde_json__serde_json__value__Value_Destruct__drop
	movq	88(%rsp), %rbx
	movq	96(%rsp), %r15
	movq	104(%rsp), %r14
	testq	%r15, %r15
	je	.LBB11_225
	leaq	24(%rsp), %r12
	movq	%rbx, %r13
	.p2align	4
.LBB11_224:
	movzwl	(%r13), %eax
	movq	$0, 16(%rsp)
	movw	%ax, 16(%rsp)
	movq	24(%r13), %rax
	movq	%rax, 16(%r12)
	movdqu	8(%r13), %xmm0
	movdqu	%xmm0, (%r12)
	leaq	16(%rsp), %rdi
	callq	serde_json__serde_json__value__Value_Destruct__drop
	addq	$32, %r13
	decq	%r15
	jne	.LBB11_224
.LBB11_225:
	testq	%r14, %r14
	je	.LBB11_227
	movq	%rbx, %rdi
	callq	rattle_dealloc@PLT
.LBB11_227:
	movq	152(%rsp), %rax
	movw	$513, (%rax)
	jmp	.LBB11_208
.LBB11_229:
	movq	24(%r10), %rax
.LBB11_230:
	movq	%rax, 80(%r10)
	xorl	%esi, %esi
.LBB11_231:
	movb	%sil, 104(%r10)
	movq	152(%rsp), %rcx
	movw	$0, (%rcx)
	movdqu	88(%rsp), %xmm0
	movdqu	%xmm0, 8(%rcx)
	movq	104(%rsp), %rax
	movq	%rax, 24(%rcx)
	jmp	.LBB11_209
.Lfunc_end11:
	.size	serde_json__de__read_items, .Lfunc_end11-serde_json__de__read_items
	.section	.rodata.serde_json__de__read_items,"a",@progbits
	.p2align	2, 0x0
.LJTI11_0:
	.long	.LBB11_43-.LJTI11_0
	.long	.LBB11_59-.LJTI11_0
	.long	.LBB11_59-.LJTI11_0
	.long	.LBB11_59-.LJTI11_0
	.long	.LBB11_59-.LJTI11_0
	.long	.LBB11_59-.LJTI11_0
	.long	.LBB11_59-.LJTI11_0
	.long	.LBB11_59-.LJTI11_0
	.long	.LBB11_59-.LJTI11_0
	.long	.LBB11_59-.LJTI11_0
	.long	.LBB11_28-.LJTI11_0
	.long	.LBB11_59-.LJTI11_0
	.long	.LBB11_59-.LJTI11_0
	.long	.LBB11_59-.LJTI11_0
	.long	.LBB11_59-.LJTI11_0
	.long	.LBB11_59-.LJTI11_0
	.long	.LBB11_59-.LJTI11_0
	.long	.LBB11_59-.LJTI11_0
	.long	.LBB11_59-.LJTI11_0
	.long	.LBB11_59-.LJTI11_0
	.long	.LBB11_59-.LJTI11_0
	.long	.LBB11_59-.LJTI11_0
	.long	.LBB11_59-.LJTI11_0
	.long	.LBB11_59-.LJTI11_0
	.long	.LBB11_28-.LJTI11_0
	.long	.LBB11_59-.LJTI11_0
	.long	.LBB11_59-.LJTI11_0
	.long	.LBB11_59-.LJTI11_0
	.long	.LBB11_59-.LJTI11_0
	.long	.LBB11_59-.LJTI11_0
	.long	.LBB11_59-.LJTI11_0
	.long	.LBB11_59-.LJTI11_0
	.long	.LBB11_59-.LJTI11_0
	.long	.LBB11_59-.LJTI11_0
	.long	.LBB11_59-.LJTI11_0
	.long	.LBB11_59-.LJTI11_0
	.long	.LBB11_59-.LJTI11_0
	.long	.LBB11_59-.LJTI11_0
	.long	.LBB11_59-.LJTI11_0
	.long	.LBB11_59-.LJTI11_0
	.long	.LBB11_59-.LJTI11_0
	.long	.LBB11_59-.LJTI11_0
	.long	.LBB11_59-.LJTI11_0
	.long	.LBB11_59-.LJTI11_0
	.long	.LBB11_59-.LJTI11_0
	.long	.LBB11_59-.LJTI11_0
	.long	.LBB11_59-.LJTI11_0
	.long	.LBB11_59-.LJTI11_0
	.long	.LBB11_59-.LJTI11_0
	.long	.LBB11_59-.LJTI11_0
	.long	.LBB11_59-.LJTI11_0
	.long	.LBB11_59-.LJTI11_0
	.long	.LBB11_59-.LJTI11_0
	.long	.LBB11_59-.LJTI11_0
	.long	.LBB11_59-.LJTI11_0
	.long	.LBB11_59-.LJTI11_0
	.long	.LBB11_59-.LJTI11_0
	.long	.LBB11_53-.LJTI11_0
	.long	.LBB11_28-.LJTI11_0
	.long	.LBB11_59-.LJTI11_0
	.long	.LBB11_59-.LJTI11_0
	.long	.LBB11_59-.LJTI11_0
	.long	.LBB11_59-.LJTI11_0
	.long	.LBB11_59-.LJTI11_0
	.long	.LBB11_59-.LJTI11_0
	.long	.LBB11_59-.LJTI11_0
	.long	.LBB11_59-.LJTI11_0
	.long	.LBB11_59-.LJTI11_0
	.long	.LBB11_41-.LJTI11_0
	.long	.LBB11_59-.LJTI11_0
	.long	.LBB11_59-.LJTI11_0
	.long	.LBB11_59-.LJTI11_0
	.long	.LBB11_59-.LJTI11_0
	.long	.LBB11_59-.LJTI11_0
	.long	.LBB11_59-.LJTI11_0
	.long	.LBB11_59-.LJTI11_0
	.long	.LBB11_49-.LJTI11_0
	.long	.LBB11_59-.LJTI11_0
	.long	.LBB11_59-.LJTI11_0
	.long	.LBB11_59-.LJTI11_0
	.long	.LBB11_59-.LJTI11_0
	.long	.LBB11_59-.LJTI11_0
	.long	.LBB11_51-.LJTI11_0
	.long	.LBB11_59-.LJTI11_0
	.long	.LBB11_59-.LJTI11_0
	.long	.LBB11_59-.LJTI11_0
	.long	.LBB11_59-.LJTI11_0
	.long	.LBB11_59-.LJTI11_0
	.long	.LBB11_59-.LJTI11_0
	.long	.LBB11_56-.LJTI11_0
.LJTI11_1:
	.long	.LBB11_17-.LJTI11_1
	.long	.LBB11_202-.LJTI11_1
	.long	.LBB11_38-.LJTI11_1
	.long	.LBB11_202-.LJTI11_1
	.long	.LBB11_202-.LJTI11_1
	.long	.LBB11_170-.LJTI11_1
	.long	.LBB11_197-.LJTI11_1
	.long	.LBB11_199-.LJTI11_1
	.long	.LBB11_3-.LJTI11_1
	.long	.LBB11_202-.LJTI11_1

	.section	.text.unlikely.std_alloc__vec__Vec__grow_amortized____532ece4be0a526ce_,"ax",@progbits
	.p2align	4
	.type	std_alloc__vec__Vec__grow_amortized____532ece4be0a526ce_,@function
std_alloc__vec__Vec__grow_amortized____532ece4be0a526ce_:
	movq	8(%rdi), %rsi
	cmpq	$-1, %rsi
	je	.LBB12_5
	pushq	%r14
	pushq	%rbx
	pushq	%rax
	movq	16(%rdi), %rcx
	cmpq	$4, %rsi
	movl	$3, %ebx
	cmovaeq	%rsi, %rbx
	incq	%rbx
	movq	%rcx, %rdx
	shrq	$62, %rdx
	leaq	(%rcx,%rcx), %rax
	cmpq	%rax, %rbx
	cmovaq	%rbx, %rax
	testq	%rdx, %rdx
	cmoveq	%rax, %rbx
	movq	%rbx, %rdx
	shrq	$58, %rdx
	jne	.LBB12_6
	testq	%rcx, %rcx
	je	.LBB12_8
	movq	%rdi, %r14
	movq	(%rdi), %rdi
	shlq	$5, %rsi
	movq	%rbx, %rdx
	shlq	$5, %rdx
	movl	$8, %ecx
	callq	rattle_realloc@PLT
	testb	$1, %al
	je	.LBB12_6
.LBB12_9:
	movq	%rdx, (%r14)
	movq	%rbx, 16(%r14)
	movb	$1, %al
	addq	$8, %rsp
	popq	%rbx
	popq	%r14
	retq
.LBB12_5:
	xorl	%eax, %eax
	retq
.LBB12_8:
	movq	%rdi, %r14
	shlq	$5, %rax
	movl	$8, %esi
	movq	%rax, %rdi
	callq	rattle_alloc@PLT
	testb	$1, %al
	jne	.LBB12_9
.LBB12_6:
	xorl	%eax, %eax
	addq	$8, %rsp
	popq	%rbx
	popq	%r14
	retq
.Lfunc_end12:
	.size	std_alloc__vec__Vec__grow_amortized____532ece4be0a526ce_, .Lfunc_end12-std_alloc__vec__Vec__grow_amortized____532ece4be0a526ce_

	.section	.text.serde_json__serde_json__value__Value_Destruct__drop,"ax",@progbits
	.p2align	4
	.type	serde_json__serde_json__value__Value_Destruct__drop,@function
serde_json__serde_json__value__Value_Destruct__drop:
	pushq	%r15
	pushq	%r14
	pushq	%r13
	pushq	%r12
	pushq	%rbx
	subq	$32, %rsp
	movzbl	(%rdi), %eax
	movq	8(%rdi), %rbx
	movq	16(%rdi), %r14
	movq	24(%rdi), %r15
	leaq	.LJTI13_0(%rip), %rcx
	movslq	(%rcx,%rax,4), %rax
	addq	%rcx, %rax
	jmpq	*%rax
.LBB13_7:
	addq	$32, %rsp
	popq	%rbx
	popq	%r12
	popq	%r13
	popq	%r14
	popq	%r15
	retq
.LBB13_6:
	cmpb	$1, %bl
	jne	.LBB13_7
	movq	%r14, %rdi
	addq	$32, %rsp
	popq	%rbx
	popq	%r12
	popq	%r13
	popq	%r14
	popq	%r15
	jmp	std_collections__btree__node__Node__destroy____bfff14f77ed39624_
.LBB13_3:
	testq	%r14, %r14
	je	.LBB13_1
	leaq	8(%rsp), %r12
	movq	%rbx, %r13
	.p2align	4
.LBB13_5:
	movzwl	(%r13), %eax
	movq	$0, (%rsp)
	movw	%ax, (%rsp)
	movq	24(%r13), %rax
	movq	%rax, 16(%r12)
	movups	8(%r13), %xmm0
	movups	%xmm0, (%r12)
	movq	%rsp, %rdi
	callq	serde_json__serde_json__value__Value_Destruct__drop
	addq	$32, %r13
	decq	%r14
	jne	.LBB13_5
.LBB13_1:
	testq	%r15, %r15
	je	.LBB13_7
	movq	%rbx, %rdi
	addq	$32, %rsp
	popq	%rbx
	popq	%r12
	popq	%r13
	popq	%r14
	popq	%r15
	jmp	rattle_dealloc@PLT
.Lfunc_end13:
	.size	serde_json__serde_json__value__Value_Destruct__drop, .Lfunc_end13-serde_json__serde_json__value__Value_Destruct__drop
	.section	.rodata.serde_json__serde_json__value__Value_Destruct__drop,"a",@progbits
	.p2align	2, 0x0
.LJTI13_0:
	.long	.LBB13_7-.LJTI13_0
	.long	.LBB13_7-.LJTI13_0
	.long	.LBB13_7-.LJTI13_0
	.long	.LBB13_1-.LJTI13_0
	.long	.LBB13_3-.LJTI13_0
	.long	.LBB13_6-.LJTI13_0

	.section	.rodata.cst16,"aM",@progbits,16
	.p2align	4, 0x0
.LCPI14_0:
	.zero	16,34
.LCPI14_1:
	.zero	16,92
.LCPI14_2:
	.zero	16,31
.LCPI14_3:
	.zero	16,198
.LCPI14_4:
	.zero	16,245
	.section	.text.serde_json__de__read_members,"ax",@progbits
	.p2align	4
	.type	serde_json__de__read_members,@function
serde_json__de__read_members:
	pushq	%rbp
	pushq	%r15
	pushq	%r14
	pushq	%r13
	pushq	%r12
	pushq	%rbx
	subq	$744, %rsp
	movq	%rdi, 336(%rsp)
	movw	$0, 188(%rsp)
	movl	$0, 184(%rsp)
	movq	$0, 168(%rsp)
	leaq	48(%rsi), %rax
	movq	%rax, 8(%rsp)
	leaq	72(%rsi), %rax
	movq	%rax, 40(%rsp)
	movq	%rdx, 424(%rsp)
	leaq	-1(%rdx), %rax
	movq	%rax, 416(%rsp)
	xorl	%ebp, %ebp
	movq	$0, 128(%rsp)
	movq	$0, 368(%rsp)
	movq	%rsi, 24(%rsp)
.LBB14_2:
	movzbl	104(%rsi), %ecx
	movq	8(%rsi), %r12
	movq	80(%rsi), %r14
	movq	%r12, %rax
	subq	%r14, %rax
	movq	%rsi, %rdi
	jbe	.LBB14_10
	movq	(%rdi), %r15
	movzbl	(%r15,%r14), %ebx
	movl	%ebx, %edx
	andb	$-33, %dl
	cmpb	$93, %dl
	jne	.LBB14_8
	leal	-1(%rcx), %eax
	cmpb	$1, %al
	ja	.LBB14_59
	pxor	%xmm0, %xmm0
	movdqa	%xmm0, 48(%rsp)
	movdqa	%xmm0, 64(%rsp)
	movq	24(%rsp), %r14
	movq	32(%r14), %rcx
	movq	40(%r14), %rax
	leaq	1(%rax), %rdx
	movq	%rdx, 40(%r14)
	cmpq	56(%r14), %rdx
	jne	.LBB14_49
	movq	16(%r14), %rsi
	movq	24(%r14), %rdx
	movq	64(%r14), %r8
	movq	40(%rsp), %rdi
	movzbl	2(%rdi), %eax
	movb	%al, 258(%rsp)
	movzwl	(%rdi), %eax
	movw	%ax, 256(%rsp)
	leaq	48(%rsp), %rdi
	leaq	256(%rsp), %r9
	callq	json__index__refill
	movdqa	48(%rsp), %xmm0
	movdqa	64(%rsp), %xmm1
	movq	8(%rsp), %rax
	movdqu	%xmm1, 16(%rax)
	movdqu	%xmm0, (%rax)
	movq	$0, 40(%r14)
	movq	32(%r14), %rcx
	movl	$1, %eax
	cmpq	$0, 56(%rsp)
	je	.LBB14_66
	movl	(%rcx), %edx
	addq	48(%rsp), %rdx
	movq	%rdx, 80(%r14)
	movb	$2, %r10b
	cmpq	8(%r14), %rdx
	jb	.LBB14_67
	jmp	.LBB14_82
	.p2align	4
.LBB14_8:
	cmpl	$32, %ebx
	movq	24(%rsp), %rdi
	ja	.LBB14_50
	movl	%ebx, %edx
	movabsq	$4294977024, %rsi
	btq	%rdx, %rsi
	jae	.LBB14_50
.LBB14_10:
	xorl	%eax, %eax
	movl	%ecx, %edx
	subb	$3, %dl
	setne	%al
	leal	-4(%rcx), %esi
	xorl	%r9d, %r9d
	cmpb	$-2, %dl
	leal	(%rax,%rax,8), %r13d
	cmovael	%r9d, %r13d
	movzbl	%cl, %eax
	movl	$3, %ecx
	cmovael	%eax, %ecx
	movb	%cl, 104(%rdi)
	cmpb	$-3, %sil
	jae	.LBB14_507
	movq	%rdi, %r15
	xorl	%ebx, %ebx
	cmpb	$4, %r13b
	jne	.LBB14_505
.LBB14_12:
	testq	%r9, %r9
	movq	%r9, (%rsp)
	je	.LBB14_20
	js	.LBB14_510
	movl	$1, %esi
	movq	%r9, %rdi
	callq	rattle_alloc@PLT
	movq	(%rsp), %r9
	testb	$1, %al
	je	.LBB14_510
	movq	%rdx, %r12
	movq	%r12, %rcx
	subq	%rbx, %rcx
	cmpq	%r9, %rcx
	jae	.LBB14_21
.LBB14_16:
	xorl	%eax, %eax
	cmpq	$4, %r9
	jb	.LBB14_29
	cmpq	$32, %rcx
	jb	.LBB14_29
	cmpq	$32, %r9
	jae	.LBB14_22
	xorl	%eax, %eax
	jmp	.LBB14_26
	.p2align	4
.LBB14_20:
	leaq	23(%rsp), %r12
	movq	%r12, %rcx
	subq	%rbx, %rcx
	cmpq	%r9, %rcx
	jb	.LBB14_16
.LBB14_21:
	movq	%r12, %rdi
	movq	%rbx, %rsi
	movq	%r9, %rdx
	callq	memmove@PLT
	movq	(%rsp), %r9
	jmp	.LBB14_34
.LBB14_22:
	movq	%r9, %rax
	andq	$-32, %rax
	xorl	%ecx, %ecx
	.p2align	4
.LBB14_23:
	movdqu	(%rbx,%rcx), %xmm0
	movdqu	16(%rbx,%rcx), %xmm1
	movdqu	%xmm0, (%r12,%rcx)
	movdqu	%xmm1, 16(%r12,%rcx)
	addq	$32, %rcx
	cmpq	%rcx, %rax
	jne	.LBB14_23
	cmpq	%rax, %r9
	je	.LBB14_34
	testb	$28, %r9b
	je	.LBB14_29
.LBB14_26:
	movq	%rax, %rcx
	movq	%r9, %rax
	andq	$-4, %rax
	.p2align	4
.LBB14_27:
	movl	(%rbx,%rcx), %edx
	movl	%edx, (%r12,%rcx)
	addq	$4, %rcx
	cmpq	%rcx, %rax
	jne	.LBB14_27
	cmpq	%rax, %r9
	je	.LBB14_34
.LBB14_29:
	movq	%r9, %rdx
	movq	%rax, %rcx
	andq	$3, %rdx
	je	.LBB14_32
	movq	%rax, %rcx
	.p2align	4
.LBB14_31:
	movzbl	(%rbx,%rcx), %esi
	movb	%sil, (%r12,%rcx)
	incq	%rcx
	decq	%rdx
	jne	.LBB14_31
.LBB14_32:
	subq	%r9, %rax
	cmpq	$-4, %rax
	ja	.LBB14_34
	.p2align	4
.LBB14_33:
	movzbl	(%rbx,%rcx), %eax
	movb	%al, (%r12,%rcx)
	movzbl	1(%rbx,%rcx), %eax
	movb	%al, 1(%r12,%rcx)
	movzbl	2(%rbx,%rcx), %eax
	movb	%al, 2(%r12,%rcx)
	movzbl	3(%rbx,%rcx), %eax
	movb	%al, 3(%r12,%rcx)
	addq	$4, %rcx
	cmpq	%rcx, %r9
	jne	.LBB14_33
	.p2align	4
.LBB14_34:
	pxor	%xmm0, %xmm0
	movdqa	%xmm0, 480(%rsp)
	movq	$0, 496(%rsp)
	movdqa	%xmm0, 256(%rsp)
	movdqa	%xmm0, 272(%rsp)
	movdqa	%xmm0, 384(%rsp)
	movdqa	%xmm0, 400(%rsp)
	movzbl	104(%r15), %ecx
	movq	8(%r15), %r13
	movq	80(%r15), %r14
	movq	%r13, %rax
	subq	%r14, %rax
	jbe	.LBB14_42
	movq	(%r15), %rdi
	movzbl	(%rdi,%r14), %ebx
	movl	%ebx, %edx
	andb	$-33, %dl
	cmpb	$93, %dl
	jne	.LBB14_40
	leal	-1(%rcx), %eax
	cmpb	$1, %al
	ja	.LBB14_47
	movdqa	%xmm0, 48(%rsp)
	movdqa	%xmm0, 64(%rsp)
	movq	32(%r15), %rcx
	movq	40(%r15), %rax
	leaq	1(%rax), %rdx
	movq	%rdx, 40(%r15)
	cmpq	56(%r15), %rdx
	jne	.LBB14_61
	movq	16(%r15), %rsi
	movq	24(%r15), %rdx
	movq	64(%r15), %r8
	movq	40(%rsp), %rdi
	movzbl	2(%rdi), %eax
	movb	%al, 194(%rsp)
	movzwl	(%rdi), %eax
	movw	%ax, 192(%rsp)
	leaq	48(%rsp), %rdi
	leaq	192(%rsp), %r9
	callq	json__index__refill
	movdqa	48(%rsp), %xmm0
	movdqa	64(%rsp), %xmm1
	movq	8(%rsp), %rax
	movdqu	%xmm1, 16(%rax)
	movdqu	%xmm0, (%rax)
	movq	$0, 40(%r15)
	movq	32(%r15), %rcx
	movl	$1, %eax
	cmpq	$0, 56(%rsp)
	je	.LBB14_72
	movl	(%rcx), %edx
	addq	48(%rsp), %rdx
	jmp	.LBB14_73
.LBB14_40:
	cmpl	$32, %ebx
	ja	.LBB14_62
	movl	%ebx, %edx
	movabsq	$4294977024, %rsi
	btq	%rdx, %rsi
	jae	.LBB14_62
.LBB14_42:
	xorl	%eax, %eax
	movl	%ecx, %edx
	subb	$3, %dl
	setne	%al
	leal	-4(%rcx), %esi
	xorl	%r13d, %r13d
	cmpb	$-2, %dl
	leal	(%rax,%rax,8), %eax
	cmovael	%r13d, %eax
	movzbl	%cl, %ecx
	movl	$3, %edx
	cmovael	%ecx, %edx
	movb	%dl, 104(%r15)
	cmpb	$-3, %sil
	jae	.LBB14_514
.LBB14_43:
	xorl	%r15d, %r15d
	xorl	%ebx, %ebx
	movq	$0, 152(%rsp)
	movzbl	%al, %eax
	leaq	.LJTI14_2(%rip), %rcx
	movslq	(%rcx,%rax,4), %rax
	addq	%rcx, %rax
	xorl	%edx, %edx
	xorl	%esi, %esi
	movq	$0, 144(%rsp)
	movq	$0, 136(%rsp)
	xorl	%r14d, %r14d
	jmpq	*%rax
.LBB14_44:
	cmpq	$0, 424(%rsp)
	je	.LBB14_514
	leaq	384(%rsp), %rdi
	movq	24(%rsp), %rsi
	movq	416(%rsp), %rdx
	callq	serde_json__de__read_members
	cmpb	$0, 384(%rsp)
	jne	.LBB14_526
	movq	400(%rsp), %rdx
	movq	408(%rsp), %rsi
	movzbl	392(%rsp), %eax
	movq	%rax, 152(%rsp)
	movb	$5, %al
	movq	%rax, 144(%rsp)
	jmp	.LBB14_380
.LBB14_47:
	xorl	%r13d, %r13d
	movb	$3, 104(%r15)
	cmpb	$3, %cl
	je	.LBB14_529
.LBB14_48:
	movb	$9, %al
	jmp	.LBB14_43
.LBB14_49:
	movl	4(%rcx,%rax,4), %edx
	movq	8(%rsp), %rsi
	addq	(%rsi), %rdx
	addq	$2, %rax
	movq	%rdx, 80(%r14)
	movb	$2, %r10b
	cmpq	8(%r14), %rdx
	jb	.LBB14_67
	jmp	.LBB14_82
.LBB14_50:
	cmpb	$2, %cl
	jae	.LBB14_59
	leaq	(%r15,%r14), %r8
	movb	$3, %r10b
	movb	$9, %r13b
	leal	-34(%rbx), %ecx
	cmpl	$89, %ecx
	ja	.LBB14_105
	leaq	.LJTI14_0(%rip), %rdx
	movslq	(%rdx,%rcx,4), %rcx
	addq	%rdx, %rcx
	jmpq	*%rcx
.LBB14_53:
	leaq	1(%r14), %r8
	movq	%r12, %rax
	subq	%r8, %rax
	movq	%r8, %rdx
	cmpq	$32, %rax
	jb	.LBB14_58
	leaq	(%r15,%r14), %rax
	incq	%rax
	notq	%r14
.LBB14_55:
	movdqu	(%rax), %xmm0
	movdqu	16(%rax), %xmm1
	movdqa	.LCPI14_0(%rip), %xmm2
	movdqa	%xmm1, %xmm3
	movdqa	.LCPI14_2(%rip), %xmm4
	movdqa	%xmm0, %xmm5
	pminub	%xmm4, %xmm5
	pminub	%xmm1, %xmm4
	pcmpeqb	%xmm1, %xmm4
	pcmpeqb	%xmm2, %xmm1
	movdqa	.LCPI14_1(%rip), %xmm6
	pcmpeqb	%xmm6, %xmm3
	por	%xmm1, %xmm3
	pcmpeqb	%xmm0, %xmm2
	pcmpeqb	%xmm0, %xmm6
	por	%xmm2, %xmm6
	pcmpeqb	%xmm0, %xmm5
	por	%xmm6, %xmm5
	por	%xmm3, %xmm4
	pmovmskb	%xmm5, %edx
	pmovmskb	%xmm4, %ecx
	shll	$16, %ecx
	orl	%edx, %ecx
	jne	.LBB14_172
	addq	$32, %rax
	leaq	(%r12,%r14), %rcx
	addq	$-32, %rcx
	addq	$-32, %r14
	cmpq	$31, %rcx
	ja	.LBB14_55
	negq	%r14
	movq	%r14, %rdx
.LBB14_58:
	movq	%r15, %rdi
	movq	%r12, %rsi
	movq	%r8, %rbx
	callq	json__run__plain_end_16
	movq	%rbx, %r8
	movq	%rax, %r9
	jmp	.LBB14_173
.LBB14_59:
	movq	24(%rsp), %r15
	movb	$3, 104(%r15)
	cmpb	$3, %cl
	je	.LBB14_507
	xorl	%r9d, %r9d
	movb	$9, %r13b
	xorl	%ebx, %ebx
	cmpb	$4, %r13b
	je	.LBB14_12
	jmp	.LBB14_505
.LBB14_61:
	movl	4(%rcx,%rax,4), %edx
	movq	8(%rsp), %rsi
	addq	(%rsi), %rdx
	addq	$2, %rax
	movq	%rdx, 80(%r15)
	movb	$2, %sil
	cmpq	8(%r15), %rdx
	jb	.LBB14_74
	jmp	.LBB14_89
.LBB14_62:
	cmpb	$2, %cl
	jae	.LBB14_71
	leaq	(%rdi,%r14), %r8
	movb	$3, %r10b
	movb	$9, %r11b
	leal	-34(%rbx), %ecx
	cmpl	$89, %ecx
	ja	.LBB14_131
	leaq	.LJTI14_1(%rip), %rdx
	movslq	(%rdx,%rcx,4), %rcx
	addq	%rdx, %rcx
	jmpq	*%rcx
.LBB14_65:
	xorl	%ebx, %ebx
	xorl	%r15d, %r15d
	xorl	%r13d, %r13d
	jmp	.LBB14_344
.LBB14_66:
	movq	24(%r14), %rdx
	movq	%rdx, 80(%r14)
	movb	$2, %r10b
	cmpq	8(%r14), %rdx
	jae	.LBB14_82
.LBB14_67:
	movq	(%r14), %rsi
	cmpb	$44, (%rsi,%rdx)
	jne	.LBB14_82
	pxor	%xmm0, %xmm0
	movdqa	%xmm0, 48(%rsp)
	movdqa	%xmm0, 64(%rsp)
	movq	%rax, 40(%r14)
	cmpq	56(%r14), %rax
	jne	.LBB14_78
	movq	16(%r14), %rsi
	movq	24(%r14), %rdx
	movq	64(%r14), %r8
	movq	40(%rsp), %rdi
	movzbl	2(%rdi), %eax
	movb	%al, 258(%rsp)
	movzwl	(%rdi), %eax
	movw	%ax, 256(%rsp)
	leaq	48(%rsp), %rdi
	leaq	256(%rsp), %r9
	callq	json__index__refill
	movdqa	48(%rsp), %xmm0
	movdqa	64(%rsp), %xmm1
	movq	8(%rsp), %rax
	movdqu	%xmm1, 16(%rax)
	movdqu	%xmm0, (%rax)
	movq	$0, 40(%r14)
	cmpq	$0, 56(%rsp)
	je	.LBB14_80
	movq	32(%r14), %rax
	movl	(%rax), %eax
	addq	48(%rsp), %rax
	jmp	.LBB14_81
.LBB14_71:
	xorl	%r13d, %r13d
	movb	$3, 104(%r15)
	cmpb	$3, %cl
	jne	.LBB14_48
	jmp	.LBB14_514
.LBB14_72:
	movq	24(%r15), %rdx
.LBB14_73:
	movq	(%rsp), %r9
	movq	%rdx, 80(%r15)
	movb	$2, %sil
	cmpq	8(%r15), %rdx
	jae	.LBB14_89
.LBB14_74:
	movq	(%r15), %rdi
	cmpb	$44, (%rdi,%rdx)
	jne	.LBB14_89
	pxor	%xmm0, %xmm0
	movdqa	%xmm0, 48(%rsp)
	movdqa	%xmm0, 64(%rsp)
	movq	%rax, 40(%r15)
	cmpq	56(%r15), %rax
	jne	.LBB14_79
	movq	16(%r15), %rsi
	movq	24(%r15), %rdx
	movq	64(%r15), %r8
	movq	40(%rsp), %rdi
	movzbl	2(%rdi), %eax
	movb	%al, 194(%rsp)
	movzwl	(%rdi), %eax
	movw	%ax, 192(%rsp)
	leaq	48(%rsp), %rdi
	leaq	192(%rsp), %r9
	callq	json__index__refill
	movdqa	48(%rsp), %xmm0
	movdqa	64(%rsp), %xmm1
	movq	8(%rsp), %rax
	movdqu	%xmm1, 16(%rax)
	movdqu	%xmm0, (%rax)
	movq	$0, 40(%r15)
	cmpq	$0, 56(%rsp)
	je	.LBB14_86
	movq	32(%r15), %rax
	movl	(%rax), %eax
	addq	48(%rsp), %rax
	jmp	.LBB14_87
.LBB14_78:
	movl	(%rcx,%rax,4), %eax
	movq	8(%rsp), %rcx
	addq	(%rcx), %rax
	jmp	.LBB14_81
.LBB14_79:
	movl	(%rcx,%rax,4), %eax
	movq	8(%rsp), %rcx
	addq	(%rcx), %rax
	jmp	.LBB14_88
.LBB14_80:
	movq	24(%r14), %rax
.LBB14_81:
	movq	%rax, 80(%r14)
	xorl	%r10d, %r10d
.LBB14_82:
	cmpl	$125, %ebx
	setne	%r13b
	addb	%r13b, %r13b
	incb	%r13b
.LBB14_83:
	xorl	%ebx, %ebx
.LBB14_84:
	xorl	%r9d, %r9d
.LBB14_85:
	movq	24(%rsp), %r15
	movb	%r10b, 104(%r15)
	cmpb	$4, %r13b
	je	.LBB14_12
	jmp	.LBB14_505
.LBB14_86:
	movq	24(%r15), %rax
.LBB14_87:
	movq	(%rsp), %r9
.LBB14_88:
	movq	%rax, 80(%r15)
	xorl	%esi, %esi
.LBB14_89:
	cmpl	$125, %ebx
	setne	%al
	addb	%al, %al
	incb	%al
	xorl	%ebx, %ebx
	movb	%sil, 104(%r15)
	movq	$0, 152(%rsp)
	movzbl	%al, %eax
	leaq	.LJTI14_2(%rip), %rcx
	movslq	(%rcx,%rax,4), %rax
	addq	%rcx, %rax
	xorl	%r15d, %r15d
	xorl	%r13d, %r13d
	xorl	%edx, %edx
	xorl	%esi, %esi
	movq	$0, 144(%rsp)
	movq	$0, 136(%rsp)
	xorl	%r14d, %r14d
	jmpq	*%rax
.LBB14_90:
	cmpq	$0, 424(%rsp)
	je	.LBB14_514
	leaq	256(%rsp), %rdi
	movq	24(%rsp), %rsi
	movq	416(%rsp), %rdx
	callq	serde_json__de__read_items
	cmpb	$0, 256(%rsp)
	jne	.LBB14_527
	movq	264(%rsp), %rax
	movq	%rax, 152(%rsp)
	movq	272(%rsp), %rdx
	movb	$4, %al
	movq	%rax, 144(%rsp)
	movq	280(%rsp), %rsi
	jmp	.LBB14_380
.LBB14_93:
	movb	$32, %dl
	cmpq	$5, %rax
	jae	.LBB14_139
	xorl	%ecx, %ecx
	jmp	.LBB14_141
.LBB14_95:
	movb	$32, %cl
	cmpq	$4, %rax
	jae	.LBB14_143
	xorl	%edx, %edx
	jmp	.LBB14_145
.LBB14_97:
	movb	$32, %cl
	cmpq	$4, %rax
	jae	.LBB14_147
	xorl	%edx, %edx
	jmp	.LBB14_149
.LBB14_99:
	pxor	%xmm0, %xmm0
	movdqa	%xmm0, 48(%rsp)
	movdqa	%xmm0, 64(%rsp)
	movq	24(%rsp), %rbx
	movq	32(%rbx), %rcx
	movq	40(%rbx), %rax
	leaq	1(%rax), %rdx
	movq	%rdx, 40(%rbx)
	cmpq	56(%rbx), %rdx
	jne	.LBB14_153
	movq	16(%rbx), %rsi
	movq	24(%rbx), %rdx
	movq	64(%rbx), %r8
	movq	40(%rsp), %rdi
	movzbl	2(%rdi), %eax
	movb	%al, 258(%rsp)
	movzwl	(%rdi), %eax
	movw	%ax, 256(%rsp)
	leaq	48(%rsp), %rdi
	leaq	256(%rsp), %r9
	callq	json__index__refill
	movdqa	48(%rsp), %xmm0
	movdqa	64(%rsp), %xmm1
	movq	8(%rsp), %rax
	movdqu	%xmm1, 16(%rax)
	movdqu	%xmm0, (%rax)
	movq	$0, 40(%rbx)
	cmpq	$0, 56(%rsp)
	je	.LBB14_208
	movq	32(%rbx), %rax
	movl	(%rax), %eax
	addq	48(%rsp), %rax
	jmp	.LBB14_209
.LBB14_102:
	pxor	%xmm0, %xmm0
	movdqa	%xmm0, 48(%rsp)
	movdqa	%xmm0, 64(%rsp)
	movq	24(%rsp), %rbx
	movq	32(%rbx), %rcx
	movq	40(%rbx), %rax
	leaq	1(%rax), %rdx
	movq	%rdx, 40(%rbx)
	cmpq	56(%rbx), %rdx
	jne	.LBB14_154
	movq	16(%rbx), %rsi
	movq	24(%rbx), %rdx
	movq	64(%rbx), %r8
	movq	40(%rsp), %rdi
	movzbl	2(%rdi), %eax
	movb	%al, 258(%rsp)
	movzwl	(%rdi), %eax
	movw	%ax, 256(%rsp)
	leaq	48(%rsp), %rdi
	leaq	256(%rsp), %r9
	callq	json__index__refill
	movdqa	48(%rsp), %xmm0
	movdqa	64(%rsp), %xmm1
	movq	8(%rsp), %rax
	movdqu	%xmm1, 16(%rax)
	movdqu	%xmm0, (%rax)
	movq	$0, 40(%rbx)
	cmpq	$0, 56(%rsp)
	je	.LBB14_210
	movq	32(%rbx), %rax
	movl	(%rax), %eax
	addq	48(%rsp), %rax
	jmp	.LBB14_211
.LBB14_105:
	xorl	%ecx, %ecx
	cmpl	$45, %ebx
	sete	%cl
	leaq	(%r14,%rcx), %rdi
	movq	%r12, %rsi
	subq	%rdi, %rsi
	jbe	.LBB14_108
	cmpb	$48, (%r15,%rdi)
	jne	.LBB14_108
	incq	%rdi
	movq	%rdi, %rax
	jmp	.LBB14_186
.LBB14_108:
	movq	%rdi, %rdx
	cmpq	$16, %rsi
	jb	.LBB14_112
	subq	%rcx, %rax
	movq	%rdi, %rdx
.LBB14_110:
	movdqu	(%r15,%rdx), %xmm0
	paddb	.LCPI14_3(%rip), %xmm0
	movdqa	.LCPI14_4(%rip), %xmm1
	pminub	%xmm0, %xmm1
	pcmpeqb	%xmm0, %xmm1
	pmovmskb	%xmm1, %ecx
	testl	%ecx, %ecx
	jne	.LBB14_183
	addq	$16, %rdx
	addq	$-16, %rax
	cmpq	$15, %rax
	ja	.LBB14_110
.LBB14_112:
	movq	%rdi, %rbx
	movq	%r15, %rdi
	movq	%r12, %rsi
	callq	json__run__digits_end_slowly
	movq	%rbx, %rdi
	leaq	(%r15,%r14), %r8
	movb	$3, %r10b
	jmp	.LBB14_184
.LBB14_113:
	movb	$32, %dl
	cmpq	$5, %rax
	jae	.LBB14_155
	xorl	%ecx, %ecx
	jmp	.LBB14_157
.LBB14_115:
	movb	$32, %cl
	cmpq	$4, %rax
	jae	.LBB14_159
	xorl	%edx, %edx
	jmp	.LBB14_161
.LBB14_117:
	movb	$32, %cl
	cmpq	$4, %rax
	jae	.LBB14_164
	xorl	%edx, %edx
	jmp	.LBB14_166
.LBB14_119:
	leaq	1(%r14), %r8
	movq	%r13, %rax
	subq	%r8, %rax
	movq	%r8, %rdx
	cmpq	$32, %rax
	jb	.LBB14_124
	leaq	(%rdi,%r14), %rax
	incq	%rax
	notq	%r14
.LBB14_121:
	movdqu	(%rax), %xmm0
	movdqu	16(%rax), %xmm1
	movdqa	.LCPI14_0(%rip), %xmm2
	movdqa	%xmm1, %xmm3
	movdqa	.LCPI14_2(%rip), %xmm4
	movdqa	%xmm0, %xmm5
	pminub	%xmm4, %xmm5
	pminub	%xmm1, %xmm4
	pcmpeqb	%xmm1, %xmm4
	pcmpeqb	%xmm2, %xmm1
	movdqa	.LCPI14_1(%rip), %xmm6
	pcmpeqb	%xmm6, %xmm3
	por	%xmm1, %xmm3
	pcmpeqb	%xmm0, %xmm2
	pcmpeqb	%xmm0, %xmm6
	por	%xmm2, %xmm6
	pcmpeqb	%xmm0, %xmm5
	por	%xmm6, %xmm5
	por	%xmm3, %xmm4
	pmovmskb	%xmm5, %edx
	pmovmskb	%xmm4, %ecx
	shll	$16, %ecx
	orl	%edx, %ecx
	jne	.LBB14_212
	addq	$32, %rax
	leaq	(%r14,%r13), %rcx
	addq	$-32, %rcx
	addq	$-32, %r14
	cmpq	$31, %rcx
	ja	.LBB14_121
	negq	%r14
	movq	%r14, %rdx
.LBB14_124:
	movq	%rdi, %rbx
	movq	%r13, %rsi
	movq	%r8, %r14
	callq	json__run__plain_end_16
	movq	%r14, %r8
	movq	%rbx, %rdi
	movq	%rax, %r15
	jmp	.LBB14_213
.LBB14_125:
	movdqa	%xmm0, 48(%rsp)
	movdqa	%xmm0, 64(%rsp)
	movq	32(%r15), %rcx
	movq	40(%r15), %rax
	leaq	1(%rax), %rdx
	movq	%rdx, 40(%r15)
	cmpq	56(%r15), %rdx
	jne	.LBB14_170
	movq	16(%r15), %rsi
	movq	24(%r15), %rdx
	movq	64(%r15), %r8
	movq	40(%rsp), %rdi
	movzbl	2(%rdi), %eax
	movb	%al, 194(%rsp)
	movzwl	(%rdi), %eax
	movw	%ax, 192(%rsp)
	leaq	48(%rsp), %rdi
	leaq	192(%rsp), %r9
	callq	json__index__refill
	movdqa	48(%rsp), %xmm0
	movdqa	64(%rsp), %xmm1
	movq	8(%rsp), %rax
	movdqu	%xmm1, 16(%rax)
	movdqu	%xmm0, (%rax)
	movq	$0, 40(%r15)
	cmpq	$0, 56(%rsp)
	je	.LBB14_235
	movq	32(%r15), %rax
	movl	(%rax), %eax
	addq	48(%rsp), %rax
	jmp	.LBB14_236
.LBB14_128:
	movdqa	%xmm0, 48(%rsp)
	movdqa	%xmm0, 64(%rsp)
	movq	32(%r15), %rcx
	movq	40(%r15), %rax
	leaq	1(%rax), %rdx
	movq	%rdx, 40(%r15)
	cmpq	56(%r15), %rdx
	jne	.LBB14_171
	movq	16(%r15), %rsi
	movq	24(%r15), %rdx
	movq	64(%r15), %r8
	movq	40(%rsp), %rdi
	movzbl	2(%rdi), %eax
	movb	%al, 194(%rsp)
	movzwl	(%rdi), %eax
	movw	%ax, 192(%rsp)
	leaq	48(%rsp), %rdi
	leaq	192(%rsp), %r9
	callq	json__index__refill
	movdqa	48(%rsp), %xmm0
	movdqa	64(%rsp), %xmm1
	movq	8(%rsp), %rax
	movdqu	%xmm1, 16(%rax)
	movdqu	%xmm0, (%rax)
	movq	$0, 40(%r15)
	cmpq	$0, 56(%rsp)
	je	.LBB14_238
	movq	32(%r15), %rax
	movl	(%rax), %eax
	addq	48(%rsp), %rax
	jmp	.LBB14_239
.LBB14_131:
	xorl	%ecx, %ecx
	cmpl	$45, %ebx
	sete	%cl
	leaq	(%r14,%rcx), %rbx
	movq	%r13, %rsi
	subq	%rbx, %rsi
	jbe	.LBB14_134
	cmpb	$48, (%rdi,%rbx)
	jne	.LBB14_134
	incq	%rbx
	movq	%rbx, %rax
	jmp	.LBB14_226
.LBB14_134:
	movq	%rbx, %rdx
	cmpq	$16, %rsi
	jb	.LBB14_138
	subq	%rcx, %rax
	movq	%rbx, %rdx
.LBB14_136:
	movdqu	(%rdi,%rdx), %xmm0
	paddb	.LCPI14_3(%rip), %xmm0
	movdqa	.LCPI14_4(%rip), %xmm1
	pminub	%xmm0, %xmm1
	pcmpeqb	%xmm0, %xmm1
	pmovmskb	%xmm1, %ecx
	testl	%ecx, %ecx
	jne	.LBB14_223
	addq	$16, %rdx
	addq	$-16, %rax
	cmpq	$15, %rax
	ja	.LBB14_136
.LBB14_138:
	movq	%rdi, %r15
	movq	%r13, %rsi
	movq	%r8, 32(%rsp)
	callq	json__run__digits_end_slowly
	movq	%r15, %rdi
	movq	32(%rsp), %r8
	movb	$9, %r11b
	movb	$3, %r10b
	movq	(%rsp), %r9
	jmp	.LBB14_224
.LBB14_139:
	cmpl	$1702063201, 1(%r8)
	sete	%cl
	cmpq	$5, %rax
	je	.LBB14_141
	movzbl	5(%r8), %edx
.LBB14_141:
	movl	%edx, %eax
	andb	$-33, %al
	addb	$-91, %al
	testb	$-3, %al
	sete	%dil
	cmpb	$58, %dl
	sete	%r8b
	cmpb	$44, %dl
	sete	%al
	cmpb	$32, %dl
	sete	%sil
	leal	-9(%rdx), %r9d
	cmpb	$2, %r9b
	setb	%r9b
	cmpb	$13, %dl
	sete	%dl
	testb	%cl, %cl
	je	.LBB14_83
	orb	%r8b, %al
	orb	%dil, %al
	orb	%dl, %sil
	jmp	.LBB14_151
.LBB14_143:
	movzbl	3(%r8), %edx
	xorb	$108, %dl
	movzbl	1(%r8), %esi
	movzbl	2(%r8), %edi
	xorb	$108, %dil
	orb	%dl, %dil
	xorb	$117, %sil
	orb	%dil, %sil
	sete	%dl
	cmpq	$4, %rax
	je	.LBB14_145
	movzbl	4(%r8), %ecx
.LBB14_145:
	movl	%ecx, %eax
	andb	$-33, %al
	addb	$-91, %al
	testb	$-3, %al
	sete	%dil
	cmpb	$58, %cl
	sete	%r8b
	cmpb	$44, %cl
	sete	%al
	cmpb	$32, %cl
	sete	%sil
	leal	-9(%rcx), %r9d
	cmpb	$2, %r9b
	setb	%r9b
	cmpb	$13, %cl
	sete	%cl
	testb	%dl, %dl
	je	.LBB14_83
	orb	%r8b, %al
	orb	%dil, %al
	orb	%cl, %sil
	orb	%r9b, %sil
	orb	%al, %sil
	movb	$8, %r14b
	jmp	.LBB14_152
.LBB14_147:
	movzbl	3(%r8), %edx
	xorb	$101, %dl
	movzbl	1(%r8), %esi
	movzbl	2(%r8), %edi
	xorb	$117, %dil
	orb	%dl, %dil
	xorb	$114, %sil
	orb	%dil, %sil
	sete	%dl
	cmpq	$4, %rax
	je	.LBB14_149
	movzbl	4(%r8), %ecx
.LBB14_149:
	movl	%ecx, %eax
	andb	$-33, %al
	addb	$-91, %al
	testb	$-3, %al
	sete	%dil
	cmpb	$58, %cl
	sete	%r8b
	cmpb	$44, %cl
	sete	%al
	cmpb	$32, %cl
	sete	%sil
	leal	-9(%rcx), %r9d
	cmpb	$2, %r9b
	setb	%r9b
	cmpb	$13, %cl
	sete	%cl
	testb	%dl, %dl
	je	.LBB14_83
	orb	%r8b, %al
	orb	%dil, %al
	orb	%cl, %sil
.LBB14_151:
	orb	%r9b, %sil
	orb	%al, %sil
	movb	$7, %r14b
.LBB14_152:
	movl	$0, %r8d
	movl	$0, %ebx
	movl	$0, %r9d
	jne	.LBB14_274
	jmp	.LBB14_85
.LBB14_153:
	movl	4(%rcx,%rax,4), %eax
	movq	8(%rsp), %rcx
	addq	(%rcx), %rax
	jmp	.LBB14_209
.LBB14_154:
	movl	4(%rcx,%rax,4), %eax
	movq	8(%rsp), %rcx
	addq	(%rcx), %rax
	jmp	.LBB14_211
.LBB14_155:
	cmpl	$1702063201, 1(%r8)
	sete	%cl
	cmpq	$5, %rax
	je	.LBB14_157
	movzbl	5(%r8), %edx
.LBB14_157:
	movl	%edx, %eax
	andb	$-33, %al
	addb	$-91, %al
	testb	$-3, %al
	sete	%dil
	cmpb	$58, %dl
	sete	%r8b
	cmpb	$44, %dl
	sete	%al
	cmpb	$32, %dl
	sete	%sil
	leal	-9(%rdx), %r9d
	cmpb	$2, %r9b
	setb	%r9b
	cmpb	$13, %dl
	sete	%dl
	xorl	%r15d, %r15d
	xorl	%r13d, %r13d
	testb	%cl, %cl
	je	.LBB14_169
	orb	%r8b, %al
	orb	%dil, %al
	orb	%dl, %sil
	orb	%r9b, %sil
	orb	%al, %sil
	movb	$7, %dil
	jmp	.LBB14_163
.LBB14_159:
	movzbl	3(%r8), %edx
	xorb	$108, %dl
	movzbl	1(%r8), %esi
	movzbl	2(%r8), %edi
	xorb	$108, %dil
	orb	%dl, %dil
	xorb	$117, %sil
	orb	%dil, %sil
	sete	%dl
	cmpq	$4, %rax
	je	.LBB14_161
	movzbl	4(%r8), %ecx
.LBB14_161:
	movl	%ecx, %eax
	andb	$-33, %al
	addb	$-91, %al
	testb	$-3, %al
	sete	%dil
	cmpb	$58, %cl
	sete	%r8b
	cmpb	$44, %cl
	sete	%al
	cmpb	$32, %cl
	sete	%sil
	leal	-9(%rcx), %r9d
	cmpb	$2, %r9b
	setb	%r9b
	cmpb	$13, %cl
	sete	%cl
	xorl	%r15d, %r15d
	xorl	%r13d, %r13d
	testb	%dl, %dl
	je	.LBB14_169
	orb	%r8b, %al
	orb	%dil, %al
	orb	%cl, %sil
	orb	%r9b, %sil
	orb	%al, %sil
	movb	$8, %dil
.LBB14_163:
	movl	$0, %r8d
	movl	$0, %ebx
	movq	(%rsp), %r9
	jne	.LBB14_328
	jmp	.LBB14_344
.LBB14_164:
	movzbl	3(%r8), %edx
	xorb	$101, %dl
	movzbl	1(%r8), %esi
	movzbl	2(%r8), %edi
	xorb	$117, %dil
	orb	%dl, %dil
	xorb	$114, %sil
	orb	%dil, %sil
	sete	%dl
	cmpq	$4, %rax
	je	.LBB14_166
	movzbl	4(%r8), %ecx
.LBB14_166:
	movl	%ecx, %eax
	andb	$-33, %al
	addb	$-91, %al
	testb	$-3, %al
	sete	%dil
	cmpb	$58, %cl
	sete	%r8b
	cmpb	$44, %cl
	sete	%al
	cmpb	$32, %cl
	sete	%sil
	leal	-9(%rcx), %r9d
	cmpb	$2, %r9b
	setb	%r9b
	cmpb	$13, %cl
	sete	%cl
	xorl	%r15d, %r15d
	xorl	%r13d, %r13d
	testb	%dl, %dl
	je	.LBB14_169
	orb	%r8b, %al
	orb	%dil, %al
	orb	%cl, %sil
	orb	%r9b, %sil
	orb	%al, %sil
	je	.LBB14_169
	movb	$7, %dil
	movb	$1, %r13b
	xorl	%r8d, %r8d
	movq	(%rsp), %r9
	jmp	.LBB14_328
.LBB14_169:
	xorl	%ebx, %ebx
	movq	(%rsp), %r9
	jmp	.LBB14_344
.LBB14_170:
	movl	4(%rcx,%rax,4), %eax
	movq	8(%rsp), %rcx
	addq	(%rcx), %rax
	jmp	.LBB14_237
.LBB14_171:
	movl	4(%rcx,%rax,4), %eax
	movq	8(%rsp), %rcx
	addq	(%rcx), %rax
	jmp	.LBB14_240
.LBB14_172:
	rep		bsfl	%ecx, %r9d
	subq	%r14, %r9
.LBB14_173:
	cmpq	%r12, %r9
	jae	.LBB14_178
	cmpb	$34, (%r15,%r9)
	jne	.LBB14_178
	pxor	%xmm0, %xmm0
	movdqa	%xmm0, 48(%rsp)
	movdqa	%xmm0, 64(%rsp)
	movq	24(%rsp), %rbx
	movq	32(%rbx), %rcx
	movq	40(%rbx), %rdx
	leaq	1(%rdx), %rax
	movq	%rax, 40(%rbx)
	cmpq	56(%rbx), %rax
	jne	.LBB14_241
	movq	%r8, %r12
	movq	%r9, %r14
	movq	16(%rbx), %rsi
	movq	24(%rbx), %rdx
	movq	64(%rbx), %r8
	movq	40(%rsp), %rdi
	movzbl	2(%rdi), %eax
	movb	%al, 258(%rsp)
	movzwl	(%rdi), %eax
	movw	%ax, 256(%rsp)
	leaq	48(%rsp), %rdi
	leaq	256(%rsp), %r9
	callq	json__index__refill
	movdqa	48(%rsp), %xmm0
	movdqa	64(%rsp), %xmm1
	movq	8(%rsp), %rax
	movdqu	%xmm1, 16(%rax)
	movdqu	%xmm0, (%rax)
	movq	$0, 40(%rbx)
	movq	32(%rbx), %rcx
	cmpq	$0, 56(%rsp)
	je	.LBB14_248
	movl	(%rcx), %edx
	addq	48(%rsp), %rdx
	jmp	.LBB14_249
.LBB14_178:
	movq	24(%rsp), %r14
	movq	88(%r14), %rbx
	movq	96(%r14), %rcx
	leaq	23(%rsp), %rax
	movq	%rax, 88(%r14)
	movq	$0, 96(%r14)
	movq	%r15, %rdi
	movq	%rcx, %r15
	movq	%r12, %rsi
	movq	%r8, %rdx
	movq	%rbx, %rcx
	movq	%r15, %r8
	callq	json__unescape__unescape
	cmpb	$1, %al
	jne	.LBB14_182
	movq	%rdx, %r9
	leaq	(%rbx,%rdx), %rax
	subq	%rdx, %r15
	movq	%rax, 88(%r14)
	movq	%r15, 96(%r14)
	pxor	%xmm0, %xmm0
	movdqa	%xmm0, 48(%rsp)
	movdqa	%xmm0, 64(%rsp)
	movq	32(%r14), %rcx
	movq	40(%r14), %rdx
	leaq	1(%rdx), %rax
	movq	%rax, 40(%r14)
	cmpq	56(%r14), %rax
	jne	.LBB14_207
	movq	%r9, %r15
	movq	16(%r14), %rsi
	movq	24(%r14), %rdx
	movq	64(%r14), %r8
	movq	40(%rsp), %rdi
	movzbl	2(%rdi), %eax
	movb	%al, 258(%rsp)
	movzwl	(%rdi), %eax
	movw	%ax, 256(%rsp)
	leaq	48(%rsp), %rdi
	leaq	256(%rsp), %r9
	callq	json__index__refill
	movdqa	48(%rsp), %xmm0
	movdqa	64(%rsp), %xmm1
	movq	8(%rsp), %rax
	movdqu	%xmm1, 16(%rax)
	movdqu	%xmm0, (%rax)
	movq	$0, 40(%r14)
	movq	32(%r14), %rcx
	cmpq	$0, 56(%rsp)
	je	.LBB14_243
	movl	(%rcx), %edx
	addq	48(%rsp), %rdx
	jmp	.LBB14_244
.LBB14_182:
	movq	%rbx, 88(%r14)
	movq	%r15, 96(%r14)
	xorl	%ebx, %ebx
	xorl	%r9d, %r9d
	movb	$3, %r10b
	jmp	.LBB14_85
.LBB14_183:
	rep		bsfl	%ecx, %eax
	addq	%rdx, %rax
.LBB14_184:
	xorl	%ebx, %ebx
	cmpq	%rdi, %rax
	cmoveq	%rbx, %rax
	je	.LBB14_84
.LBB14_186:
	cmpq	%r12, %rax
	jae	.LBB14_194
	cmpb	$46, (%r15,%rax)
	jne	.LBB14_194
	leaq	1(%rax), %rsi
	movq	%r12, %rcx
	subq	%rsi, %rcx
	movq	%rsi, %rdx
	cmpq	$16, %rcx
	jb	.LBB14_193
	leaq	(%r15,%rax), %rcx
	incq	%rcx
	notq	%rax
.LBB14_190:
	movdqu	(%rcx), %xmm0
	paddb	.LCPI14_3(%rip), %xmm0
	movdqa	.LCPI14_4(%rip), %xmm1
	pminub	%xmm0, %xmm1
	pcmpeqb	%xmm0, %xmm1
	pmovmskb	%xmm1, %edx
	testl	%edx, %edx
	jne	.LBB14_262
	addq	$16, %rcx
	leaq	(%r12,%rax), %rdx
	addq	$-16, %rdx
	addq	$-16, %rax
	cmpq	$15, %rdx
	ja	.LBB14_190
	negq	%rax
	movq	%rax, %rdx
.LBB14_193:
	movq	%r15, %rdi
	movq	%rsi, (%rsp)
	movq	%r12, %rsi
	movq	%r8, %rbx
	callq	json__run__digits_end_slowly
	movq	(%rsp), %rsi
	movq	%rbx, %r8
	movb	$3, %r10b
	jmp	.LBB14_263
.LBB14_194:
	movq	128(%rsp), %rcx
.LBB14_195:
	cmpq	%r12, %rax
	movq	%rcx, 128(%rsp)
	jae	.LBB14_268
	movzbl	(%r15,%rax), %ecx
	andb	$-33, %cl
	cmpb	$69, %cl
	jne	.LBB14_268
	leaq	1(%rax), %rsi
	cmpq	%r12, %rsi
	jae	.LBB14_201
	movzbl	(%r15,%rsi), %ecx
	cmpl	$45, %ecx
	je	.LBB14_200
	cmpl	$43, %ecx
	jne	.LBB14_201
.LBB14_200:
	addq	$2, %rax
	movq	%rax, %rsi
.LBB14_201:
	movq	%r12, %rax
	subq	%rsi, %rax
	movq	%rsi, %rdx
	cmpq	$16, %rax
	jb	.LBB14_206
	movq	%rsi, %rdx
	negq	%rdx
	leaq	(%r15,%rsi), %rax
.LBB14_203:
	movdqu	(%rax), %xmm0
	paddb	.LCPI14_3(%rip), %xmm0
	movdqa	.LCPI14_4(%rip), %xmm1
	pminub	%xmm0, %xmm1
	pcmpeqb	%xmm0, %xmm1
	pmovmskb	%xmm1, %ecx
	testl	%ecx, %ecx
	jne	.LBB14_265
	addq	$16, %rax
	leaq	(%r12,%rdx), %rcx
	addq	$-16, %rcx
	addq	$-16, %rdx
	cmpq	$15, %rcx
	ja	.LBB14_203
	negq	%rdx
.LBB14_206:
	movq	%r15, %rdi
	movq	%rsi, (%rsp)
	movq	%r12, %rsi
	movq	%r8, %rbx
	callq	json__run__digits_end_slowly
	movq	(%rsp), %rsi
	movq	%rbx, %r8
	movb	$3, %r10b
	jmp	.LBB14_266
.LBB14_207:
	movl	4(%rcx,%rdx,4), %edx
	movq	8(%rsp), %rsi
	addq	(%rsi), %rdx
	movq	%rdx, 80(%r14)
	jmp	.LBB14_251
.LBB14_208:
	movq	24(%rbx), %rax
.LBB14_209:
	movq	%rax, 80(%rbx)
	movb	$1, %r10b
	movb	$2, %r13b
	jmp	.LBB14_83
.LBB14_210:
	movq	24(%rbx), %rax
.LBB14_211:
	movq	%rax, 80(%rbx)
	movb	$1, %r10b
	xorl	%ebx, %ebx
	xorl	%r9d, %r9d
	xorl	%r13d, %r13d
	jmp	.LBB14_85
.LBB14_212:
	rep		bsfl	%ecx, %r15d
	subq	%r14, %r15
.LBB14_213:
	cmpq	%r13, %r15
	jae	.LBB14_218
	cmpb	$34, (%rdi,%r15)
	jne	.LBB14_218
	pxor	%xmm0, %xmm0
	movdqa	%xmm0, 48(%rsp)
	movdqa	%xmm0, 64(%rsp)
	movq	24(%rsp), %rbx
	movq	32(%rbx), %rcx
	movq	40(%rbx), %rdx
	leaq	1(%rdx), %rax
	movq	%rax, 40(%rbx)
	cmpq	56(%rbx), %rax
	jne	.LBB14_242
	movq	%r8, %r13
	movq	%rdi, %r14
	movq	16(%rbx), %rsi
	movq	24(%rbx), %rdx
	movq	64(%rbx), %r8
	movq	40(%rsp), %rdi
	movzbl	2(%rdi), %eax
	movb	%al, 194(%rsp)
	movzwl	(%rdi), %eax
	movw	%ax, 192(%rsp)
	leaq	48(%rsp), %rdi
	leaq	192(%rsp), %r9
	callq	json__index__refill
	movdqa	48(%rsp), %xmm0
	movdqa	64(%rsp), %xmm1
	movq	8(%rsp), %rax
	movdqu	%xmm1, 16(%rax)
	movdqu	%xmm0, (%rax)
	movq	$0, 40(%rbx)
	movq	32(%rbx), %rcx
	cmpq	$0, 56(%rsp)
	je	.LBB14_290
	movl	(%rcx), %edx
	addq	48(%rsp), %rdx
	jmp	.LBB14_291
.LBB14_218:
	movq	24(%rsp), %r14
	movq	88(%r14), %rbx
	movq	96(%r14), %rcx
	leaq	23(%rsp), %rax
	movq	%rax, 88(%r14)
	movq	$0, 96(%r14)
	movq	%r13, %rsi
	movq	%rcx, %r13
	movq	%r8, %rdx
	movq	%rbx, %rcx
	movq	%r13, %r8
	callq	json__unescape__unescape
	cmpb	$1, %al
	jne	.LBB14_222
	movq	%rdx, %r15
	leaq	(%rbx,%rdx), %rax
	subq	%rdx, %r13
	movq	%rax, 88(%r14)
	movq	%r13, 96(%r14)
	pxor	%xmm0, %xmm0
	movdqa	%xmm0, 48(%rsp)
	movdqa	%xmm0, 64(%rsp)
	movq	32(%r14), %rcx
	movq	40(%r14), %rdx
	leaq	1(%rdx), %rax
	movq	%rax, 40(%r14)
	cmpq	56(%r14), %rax
	jne	.LBB14_234
	movq	16(%r14), %rsi
	movq	24(%r14), %rdx
	movq	64(%r14), %r8
	movq	40(%rsp), %rdi
	movzbl	2(%rdi), %eax
	movb	%al, 194(%rsp)
	movzwl	(%rdi), %eax
	movw	%ax, 192(%rsp)
	leaq	48(%rsp), %rdi
	leaq	192(%rsp), %r9
	callq	json__index__refill
	movdqa	48(%rsp), %xmm0
	movdqa	64(%rsp), %xmm1
	movq	8(%rsp), %rax
	movdqu	%xmm1, 16(%rax)
	movdqu	%xmm0, (%rax)
	movq	$0, 40(%r14)
	movq	32(%r14), %rcx
	cmpq	$0, 56(%rsp)
	je	.LBB14_245
	movl	(%rcx), %edx
	addq	48(%rsp), %rdx
	jmp	.LBB14_246
.LBB14_222:
	movq	%rbx, 88(%r14)
	movq	%r13, 96(%r14)
	movb	$3, %al
	movb	$9, %cl
	xorl	%ebx, %ebx
	movb	%al, 104(%r14)
	movq	$0, 152(%rsp)
	movzbl	%cl, %eax
	leaq	.LJTI14_2(%rip), %rcx
	movslq	(%rcx,%rax,4), %rax
	addq	%rcx, %rax
	xorl	%r15d, %r15d
	xorl	%r13d, %r13d
	xorl	%edx, %edx
	xorl	%esi, %esi
	movq	$0, 144(%rsp)
	movq	$0, 136(%rsp)
	xorl	%r14d, %r14d
	movq	(%rsp), %r9
	jmpq	*%rax
.LBB14_223:
	rep		bsfl	%ecx, %eax
	addq	%rdx, %rax
.LBB14_224:
	xorl	%r15d, %r15d
	cmpq	%rbx, %rax
	cmoveq	%r15, %rax
	jne	.LBB14_226
.LBB14_225:
	xorl	%ebx, %ebx
	xorl	%r13d, %r13d
	jmp	.LBB14_344
.LBB14_226:
	cmpq	%r13, %rax
	jae	.LBB14_308
	cmpb	$46, (%rdi,%rax)
	jne	.LBB14_308
	leaq	1(%rax), %rsi
	movq	%r13, %rcx
	subq	%rsi, %rcx
	movq	%rsi, %rdx
	cmpq	$16, %rcx
	jb	.LBB14_233
	leaq	(%rdi,%rax), %rcx
	incq	%rcx
	notq	%rax
.LBB14_230:
	movdqu	(%rcx), %xmm0
	paddb	.LCPI14_3(%rip), %xmm0
	movdqa	.LCPI14_4(%rip), %xmm1
	pminub	%xmm0, %xmm1
	pcmpeqb	%xmm0, %xmm1
	pmovmskb	%xmm1, %edx
	testl	%edx, %edx
	jne	.LBB14_306
	addq	$16, %rcx
	leaq	(%rax,%r13), %rdx
	addq	$-16, %rdx
	addq	$-16, %rax
	cmpq	$15, %rdx
	ja	.LBB14_230
	negq	%rax
	movq	%rax, %rdx
.LBB14_233:
	movq	%rdi, %rbx
	movq	%rsi, 32(%rsp)
	movq	%r13, %rsi
	movq	%r8, %r15
	callq	json__run__digits_end_slowly
	movq	32(%rsp), %rsi
	movq	%rbx, %rdi
	movq	%r15, %r8
	movb	$9, %r11b
	movb	$3, %r10b
	movq	(%rsp), %r9
	jmp	.LBB14_307
.LBB14_234:
	movl	4(%rcx,%rdx,4), %edx
	movq	8(%rsp), %rsi
	addq	(%rsi), %rdx
	jmp	.LBB14_247
.LBB14_235:
	movq	24(%r15), %rax
.LBB14_236:
	movq	(%rsp), %r9
.LBB14_237:
	movq	%rax, 80(%r15)
	movb	$1, %al
	movb	$2, %cl
	xorl	%ebx, %ebx
	movb	%al, 104(%r15)
	movq	$0, 152(%rsp)
	movzbl	%cl, %eax
	leaq	.LJTI14_2(%rip), %rcx
	movslq	(%rcx,%rax,4), %rax
	addq	%rcx, %rax
	xorl	%r15d, %r15d
	xorl	%r13d, %r13d
	xorl	%edx, %edx
	xorl	%esi, %esi
	movq	$0, 144(%rsp)
	movq	$0, 136(%rsp)
	xorl	%r14d, %r14d
	jmpq	*%rax
.LBB14_238:
	movq	24(%r15), %rax
.LBB14_239:
	movq	(%rsp), %r9
.LBB14_240:
	movq	%rax, 80(%r15)
	movb	$1, %al
	xorl	%ebx, %ebx
	movb	%al, 104(%r15)
	movq	$0, 152(%rsp)
	movzbl	%bl, %r13d
	leaq	.LJTI14_2(%rip), %rax
	movslq	(%rax,%r13,4), %rcx
	addq	%rax, %rcx
	xorl	%r15d, %r15d
	xorl	%edx, %edx
	xorl	%esi, %esi
	movq	$0, 144(%rsp)
	movq	$0, 136(%rsp)
	xorl	%r14d, %r14d
	jmpq	*%rcx
.LBB14_241:
	movl	4(%rcx,%rdx,4), %edx
	movq	8(%rsp), %rsi
	addq	(%rsi), %rdx
	jmp	.LBB14_250
.LBB14_242:
	movl	4(%rcx,%rdx,4), %edx
	movq	8(%rsp), %rsi
	addq	(%rsi), %rdx
	movq	(%rsp), %r9
	jmp	.LBB14_292
.LBB14_243:
	movq	24(%r14), %rdx
.LBB14_244:
	xorl	%eax, %eax
	movq	%r15, %r9
	movq	%rdx, 80(%r14)
	jmp	.LBB14_251
.LBB14_245:
	movq	24(%rsp), %rax
	movq	24(%rax), %rdx
.LBB14_246:
	xorl	%eax, %eax
.LBB14_247:
	movq	(%rsp), %r9
	movq	24(%rsp), %rsi
	movq	%rdx, 80(%rsi)
	jmp	.LBB14_293
.LBB14_248:
	movq	24(%rsp), %rax
	movq	24(%rax), %rdx
.LBB14_249:
	xorl	%eax, %eax
	movq	%r14, %r9
	movq	%r12, %r8
.LBB14_250:
	movq	24(%rsp), %r14
	movq	%rdx, 80(%r14)
	addq	%r8, %r15
	subq	%r8, %r9
	movq	%r15, %rbx
.LBB14_251:
	movb	$2, %r10b
	movb	$5, %r13b
	cmpq	8(%r14), %rdx
	jae	.LBB14_85
	movq	(%r14), %rsi
	movzbl	(%rsi,%rdx), %edx
	cmpl	$44, %edx
	je	.LBB14_257
	cmpl	$58, %edx
	jne	.LBB14_85
	pxor	%xmm0, %xmm0
	movdqa	%xmm0, 48(%rsp)
	movdqa	%xmm0, 64(%rsp)
	leaq	1(%rax), %rdx
	movq	%rdx, 40(%r14)
	cmpq	56(%r14), %rdx
	jne	.LBB14_260
	movq	%r9, %r15
	movq	16(%r14), %rsi
	movq	24(%r14), %rdx
	movq	64(%r14), %r8
	movq	40(%rsp), %rdi
	movzbl	2(%rdi), %eax
	movb	%al, 258(%rsp)
	movzwl	(%rdi), %eax
	movw	%ax, 256(%rsp)
	leaq	48(%rsp), %rdi
	leaq	256(%rsp), %r9
	callq	json__index__refill
	movdqa	48(%rsp), %xmm0
	movdqa	64(%rsp), %xmm1
	movq	8(%rsp), %rax
	movdqu	%xmm1, 16(%rax)
	movdqu	%xmm0, (%rax)
	movq	$0, 40(%r14)
	cmpq	$0, 56(%rsp)
	je	.LBB14_368
	movq	32(%r14), %rax
	movl	(%rax), %eax
	addq	48(%rsp), %rax
	jmp	.LBB14_369
.LBB14_257:
	pxor	%xmm0, %xmm0
	movdqa	%xmm0, 48(%rsp)
	movdqa	%xmm0, 64(%rsp)
	leaq	1(%rax), %rdx
	movq	%rdx, 40(%r14)
	cmpq	56(%r14), %rdx
	jne	.LBB14_261
	movq	%r9, %r15
	movq	16(%r14), %rsi
	movq	24(%r14), %rdx
	movq	64(%r14), %r8
	movq	40(%rsp), %rdi
	movzbl	2(%rdi), %eax
	movb	%al, 258(%rsp)
	movzwl	(%rdi), %eax
	movw	%ax, 256(%rsp)
	leaq	48(%rsp), %rdi
	leaq	256(%rsp), %r9
	callq	json__index__refill
	movdqa	48(%rsp), %xmm0
	movdqa	64(%rsp), %xmm1
	movq	8(%rsp), %rax
	movdqu	%xmm1, 16(%rax)
	movdqu	%xmm0, (%rax)
	movq	$0, 40(%r14)
	cmpq	$0, 56(%rsp)
	je	.LBB14_371
	movq	32(%r14), %rax
	movl	(%rax), %eax
	addq	48(%rsp), %rax
	jmp	.LBB14_372
.LBB14_260:
	movl	4(%rcx,%rax,4), %eax
	movq	8(%rsp), %rcx
	addq	(%rcx), %rax
	jmp	.LBB14_370
.LBB14_261:
	movl	4(%rcx,%rax,4), %eax
	movq	8(%rsp), %rcx
	addq	(%rcx), %rax
	jmp	.LBB14_373
.LBB14_262:
	rep		bsfl	%edx, %ecx
	subq	%rax, %rcx
	movq	%rcx, %rax
.LBB14_263:
	xorl	%ebx, %ebx
	cmpq	%rsi, %rax
	cmoveq	%rbx, %rax
	movq	128(%rsp), %rcx
	jne	.LBB14_195
	movq	%rcx, 128(%rsp)
	jmp	.LBB14_84
.LBB14_265:
	rep		bsfl	%ecx, %eax
	subq	%rdx, %rax
.LBB14_266:
	xorl	%ebx, %ebx
	cmpq	%rsi, %rax
	je	.LBB14_84
.LBB14_268:
	cmpq	%r12, %rax
	jae	.LBB14_273
	movzbl	(%r15,%rax), %ecx
	cmpq	$58, %rcx
	ja	.LBB14_271
	movabsq	$288247972632733184, %rdx
	btq	%rcx, %rdx
	jb	.LBB14_273
.LBB14_271:
	xorl	%ebx, %ebx
	addl	$-91, %ecx
	cmpl	$34, %ecx
	ja	.LBB14_84
	movabsq	$21474836485, %rdx
	btq	%rcx, %rdx
	movl	$0, %r9d
	jae	.LBB14_85
.LBB14_273:
	subq	%r14, %rax
	movb	$6, %r14b
	movq	%rax, %r9
.LBB14_274:
	pxor	%xmm0, %xmm0
	movdqa	%xmm0, 48(%rsp)
	movdqa	%xmm0, 64(%rsp)
	movq	24(%rsp), %rbx
	movq	32(%rbx), %rcx
	movq	40(%rbx), %rax
	leaq	1(%rax), %rdx
	movq	%rdx, 40(%rbx)
	cmpq	56(%rbx), %rdx
	jne	.LBB14_277
	movq	%r8, %r12
	movq	%r9, %r15
	movq	16(%rbx), %rsi
	movq	24(%rbx), %rdx
	movq	64(%rbx), %r8
	movq	40(%rsp), %rdi
	movzbl	2(%rdi), %eax
	movb	%al, 258(%rsp)
	movzwl	(%rdi), %eax
	movw	%ax, 256(%rsp)
	leaq	48(%rsp), %rdi
	leaq	256(%rsp), %r9
	callq	json__index__refill
	movdqa	48(%rsp), %xmm0
	movdqa	64(%rsp), %xmm1
	movq	8(%rsp), %rax
	movdqu	%xmm1, 16(%rax)
	movdqu	%xmm0, (%rax)
	movq	$0, 40(%rbx)
	movq	32(%rbx), %rcx
	movl	$1, %eax
	cmpq	$0, 56(%rsp)
	je	.LBB14_278
	movl	(%rcx), %edx
	addq	48(%rsp), %rdx
	jmp	.LBB14_279
.LBB14_277:
	movl	4(%rcx,%rax,4), %edx
	movq	8(%rsp), %rsi
	addq	(%rsi), %rdx
	addq	$2, %rax
	jmp	.LBB14_280
.LBB14_278:
	movq	24(%rbx), %rdx
.LBB14_279:
	movq	%r15, %r9
	movq	%r12, %r8
.LBB14_280:
	movq	%rdx, 80(%rbx)
	movb	$2, %r10b
	cmpq	8(%rbx), %rdx
	jae	.LBB14_289
	movq	(%rbx), %rsi
	cmpb	$44, (%rsi,%rdx)
	jne	.LBB14_289
	pxor	%xmm0, %xmm0
	movdqa	%xmm0, 48(%rsp)
	movdqa	%xmm0, 64(%rsp)
	movq	%rax, 40(%rbx)
	cmpq	56(%rbx), %rax
	jne	.LBB14_285
	movq	%r8, %r12
	movq	%r9, %r15
	movq	16(%rbx), %rsi
	movq	24(%rbx), %rdx
	movq	64(%rbx), %r8
	movq	40(%rsp), %rdi
	movzbl	2(%rdi), %eax
	movb	%al, 258(%rsp)
	movzwl	(%rdi), %eax
	movw	%ax, 256(%rsp)
	leaq	48(%rsp), %rdi
	leaq	256(%rsp), %r9
	callq	json__index__refill
	movdqa	48(%rsp), %xmm0
	movdqa	64(%rsp), %xmm1
	movq	8(%rsp), %rax
	movdqu	%xmm1, 16(%rax)
	movdqu	%xmm0, (%rax)
	movq	$0, 40(%rbx)
	cmpq	$0, 56(%rsp)
	je	.LBB14_286
	movq	32(%rbx), %rax
	movl	(%rax), %eax
	addq	48(%rsp), %rax
	jmp	.LBB14_287
.LBB14_285:
	movl	(%rcx,%rax,4), %eax
	movq	8(%rsp), %rcx
	addq	(%rcx), %rax
	jmp	.LBB14_288
.LBB14_286:
	movq	24(%rbx), %rax
.LBB14_287:
	movq	%r15, %r9
	movq	%r12, %r8
.LBB14_288:
	movq	%rax, 80(%rbx)
	xorl	%r10d, %r10d
.LBB14_289:
	movq	%r8, %rbx
	movl	%r14d, %r13d
	jmp	.LBB14_85
.LBB14_290:
	movq	24(%rsp), %rax
	movq	24(%rax), %rdx
.LBB14_291:
	xorl	%eax, %eax
	movq	(%rsp), %r9
	movq	%r14, %rdi
	movq	%r13, %r8
.LBB14_292:
	movq	24(%rsp), %rsi
	movq	%rdx, 80(%rsi)
	addq	%r8, %rdi
	subq	%r8, %r15
	movq	%rdi, %rbx
.LBB14_293:
	movb	$2, %r10b
	movb	$5, %r11b
	cmpq	8(%rsi), %rdx
	jae	.LBB14_299
	movq	(%rsi), %rsi
	movzbl	(%rsi,%rdx), %edx
	cmpl	$44, %edx
	je	.LBB14_300
	cmpl	$58, %edx
	jne	.LBB14_299
	pxor	%xmm0, %xmm0
	movdqa	%xmm0, 48(%rsp)
	movdqa	%xmm0, 64(%rsp)
	leaq	1(%rax), %rdx
	movq	24(%rsp), %r14
	movq	%rdx, 40(%r14)
	cmpq	56(%r14), %rdx
	jne	.LBB14_304
	movq	16(%r14), %rsi
	movq	24(%r14), %rdx
	movq	64(%r14), %r8
	movq	40(%rsp), %rdi
	movzbl	2(%rdi), %eax
	movb	%al, 194(%rsp)
	movzwl	(%rdi), %eax
	movw	%ax, 192(%rsp)
	leaq	48(%rsp), %rdi
	leaq	192(%rsp), %r9
	callq	json__index__refill
	movdqa	48(%rsp), %xmm0
	movdqa	64(%rsp), %xmm1
	movq	8(%rsp), %rax
	movdqu	%xmm1, 16(%rax)
	movdqu	%xmm0, (%rax)
	movq	$0, 40(%r14)
	cmpq	$0, 56(%rsp)
	je	.LBB14_374
	movq	32(%r14), %rax
	movl	(%rax), %eax
	addq	48(%rsp), %rax
	movq	%rax, 80(%r14)
	movb	$1, %al
	movb	$4, %cl
	xorl	%r13d, %r13d
	movb	%al, 104(%r14)
	movq	$0, 152(%rsp)
	movzbl	%cl, %eax
	leaq	.LJTI14_2(%rip), %rcx
	movslq	(%rcx,%rax,4), %rax
	addq	%rcx, %rax
	xorl	%edx, %edx
	xorl	%esi, %esi
	movq	$0, 144(%rsp)
	movq	$0, 136(%rsp)
	xorl	%r14d, %r14d
	movq	(%rsp), %r9
	jmpq	*%rax
.LBB14_299:
	xorl	%r13d, %r13d
	jmp	.LBB14_344
.LBB14_300:
	pxor	%xmm0, %xmm0
	movdqa	%xmm0, 48(%rsp)
	movdqa	%xmm0, 64(%rsp)
	leaq	1(%rax), %rdx
	movq	24(%rsp), %r14
	movq	%rdx, 40(%r14)
	cmpq	56(%r14), %rdx
	jne	.LBB14_305
	movq	16(%r14), %rsi
	movq	24(%r14), %rdx
	movq	64(%r14), %r8
	movq	40(%rsp), %rdi
	movzbl	2(%rdi), %eax
	movb	%al, 194(%rsp)
	movzwl	(%rdi), %eax
	movw	%ax, 192(%rsp)
	leaq	48(%rsp), %rdi
	leaq	192(%rsp), %r9
	callq	json__index__refill
	movdqa	48(%rsp), %xmm0
	movdqa	64(%rsp), %xmm1
	movq	8(%rsp), %rax
	movdqu	%xmm1, 16(%rax)
	movdqu	%xmm0, (%rax)
	movq	$0, 40(%r14)
	cmpq	$0, 56(%rsp)
	je	.LBB14_376
	movq	32(%r14), %rax
	movl	(%rax), %eax
	addq	48(%rsp), %rax
	movq	%rax, 80(%r14)
	movb	$5, %al
	xorl	%r13d, %r13d
	movb	%r13b, 104(%r14)
	movq	$0, 152(%rsp)
	movzbl	%al, %eax
	leaq	.LJTI14_2(%rip), %rcx
	movslq	(%rcx,%rax,4), %rax
	addq	%rcx, %rax
	xorl	%edx, %edx
	xorl	%esi, %esi
	movq	$0, 144(%rsp)
	movq	$0, 136(%rsp)
	xorl	%r14d, %r14d
	movq	(%rsp), %r9
	jmpq	*%rax
.LBB14_304:
	movl	4(%rcx,%rax,4), %eax
	movq	8(%rsp), %rcx
	addq	(%rcx), %rax
	jmp	.LBB14_375
.LBB14_305:
	movl	4(%rcx,%rax,4), %eax
	movq	8(%rsp), %rcx
	addq	(%rcx), %rax
	jmp	.LBB14_377
.LBB14_306:
	rep		bsfl	%edx, %ecx
	subq	%rax, %rcx
	movq	%rcx, %rax
.LBB14_307:
	xorl	%r15d, %r15d
	cmpq	%rsi, %rax
	cmoveq	%r15, %rax
	je	.LBB14_225
.LBB14_308:
	cmpq	%r13, %rax
	jae	.LBB14_322
	movzbl	(%rdi,%rax), %ecx
	andb	$-33, %cl
	cmpb	$69, %cl
	jne	.LBB14_322
	leaq	1(%rax), %rbx
	cmpq	%r13, %rbx
	jae	.LBB14_314
	movzbl	(%rdi,%rbx), %ecx
	cmpl	$45, %ecx
	je	.LBB14_313
	cmpl	$43, %ecx
	jne	.LBB14_314
.LBB14_313:
	addq	$2, %rax
	movq	%rax, %rbx
.LBB14_314:
	movq	%r13, %rax
	subq	%rbx, %rax
	movq	%rbx, %rdx
	cmpq	$16, %rax
	jb	.LBB14_319
	movq	%rbx, %rdx
	negq	%rdx
	leaq	(%rdi,%rbx), %rax
.LBB14_316:
	movdqu	(%rax), %xmm0
	paddb	.LCPI14_3(%rip), %xmm0
	movdqa	.LCPI14_4(%rip), %xmm1
	pminub	%xmm0, %xmm1
	pcmpeqb	%xmm0, %xmm1
	pmovmskb	%xmm1, %ecx
	testl	%ecx, %ecx
	jne	.LBB14_320
	addq	$16, %rax
	leaq	(%rdx,%r13), %rcx
	addq	$-16, %rcx
	addq	$-16, %rdx
	cmpq	$15, %rcx
	ja	.LBB14_316
	negq	%rdx
.LBB14_319:
	movq	%rdi, %r15
	movq	%r13, %rsi
	movq	%r8, 32(%rsp)
	callq	json__run__digits_end_slowly
	movq	%r15, %rdi
	movq	32(%rsp), %r8
	movb	$9, %r11b
	movb	$3, %r10b
	movq	(%rsp), %r9
	jmp	.LBB14_321
.LBB14_320:
	rep		bsfl	%ecx, %eax
	subq	%rdx, %rax
.LBB14_321:
	cmpq	%rbx, %rax
	je	.LBB14_65
.LBB14_322:
	cmpq	%r13, %rax
	jae	.LBB14_327
	movzbl	(%rdi,%rax), %ecx
	cmpq	$58, %rcx
	ja	.LBB14_325
	movabsq	$288247972632733184, %rdx
	btq	%rcx, %rdx
	jb	.LBB14_327
.LBB14_325:
	xorl	%ebx, %ebx
	xorl	%r13d, %r13d
	addl	$-91, %ecx
	cmpl	$34, %ecx
	ja	.LBB14_504
	movabsq	$21474836485, %rdx
	btq	%rcx, %rdx
	movl	$0, %r15d
	jae	.LBB14_344
.LBB14_327:
	subq	%r14, %rax
	movb	$6, %dil
	xorl	%r13d, %r13d
	movq	%rax, %r15
.LBB14_328:
	pxor	%xmm0, %xmm0
	movdqa	%xmm0, 48(%rsp)
	movdqa	%xmm0, 64(%rsp)
	movq	24(%rsp), %rbx
	movq	32(%rbx), %rcx
	movq	40(%rbx), %rax
	leaq	1(%rax), %rdx
	movq	%rdx, 40(%rbx)
	cmpq	56(%rbx), %rdx
	jne	.LBB14_331
	movb	%dil, 32(%rsp)
	movq	%r8, %r14
	movq	16(%rbx), %rsi
	movq	24(%rbx), %rdx
	movq	64(%rbx), %r8
	movq	40(%rsp), %rdi
	movzbl	2(%rdi), %eax
	movb	%al, 194(%rsp)
	movzwl	(%rdi), %eax
	movw	%ax, 192(%rsp)
	leaq	48(%rsp), %rdi
	leaq	192(%rsp), %r9
	callq	json__index__refill
	movdqa	48(%rsp), %xmm0
	movdqa	64(%rsp), %xmm1
	movq	8(%rsp), %rax
	movdqu	%xmm1, 16(%rax)
	movdqu	%xmm0, (%rax)
	movq	$0, 40(%rbx)
	movq	32(%rbx), %rcx
	movl	$1, %eax
	cmpq	$0, 56(%rsp)
	je	.LBB14_332
	movl	(%rcx), %edx
	addq	48(%rsp), %rdx
	jmp	.LBB14_333
.LBB14_331:
	movl	4(%rcx,%rax,4), %edx
	movq	8(%rsp), %rsi
	addq	(%rsi), %rdx
	addq	$2, %rax
	jmp	.LBB14_334
.LBB14_332:
	movq	24(%rbx), %rdx
.LBB14_333:
	movq	(%rsp), %r9
	movq	%r14, %r8
	movzbl	32(%rsp), %edi
.LBB14_334:
	movq	24(%rsp), %rbx
	movq	%rdx, 80(%rbx)
	movb	$2, %r10b
	cmpq	8(%rbx), %rdx
	jae	.LBB14_343
	movq	(%rbx), %rsi
	cmpb	$44, (%rsi,%rdx)
	jne	.LBB14_343
	pxor	%xmm0, %xmm0
	movdqa	%xmm0, 48(%rsp)
	movdqa	%xmm0, 64(%rsp)
	movq	%rax, 40(%rbx)
	cmpq	56(%rbx), %rax
	jne	.LBB14_339
	movb	%dil, 32(%rsp)
	movq	%r8, %r14
	movq	16(%rbx), %rsi
	movq	24(%rbx), %rdx
	movq	64(%rbx), %r8
	movq	40(%rsp), %rdi
	movzbl	2(%rdi), %eax
	movb	%al, 194(%rsp)
	movzwl	(%rdi), %eax
	movw	%ax, 192(%rsp)
	leaq	48(%rsp), %rdi
	leaq	192(%rsp), %r9
	callq	json__index__refill
	movdqa	48(%rsp), %xmm0
	movdqa	64(%rsp), %xmm1
	movq	8(%rsp), %rax
	movdqu	%xmm1, 16(%rax)
	movdqu	%xmm0, (%rax)
	movq	$0, 40(%rbx)
	cmpq	$0, 56(%rsp)
	je	.LBB14_340
	movq	32(%rbx), %rax
	movl	(%rax), %eax
	addq	48(%rsp), %rax
	jmp	.LBB14_341
.LBB14_339:
	movl	(%rcx,%rax,4), %eax
	movq	8(%rsp), %rcx
	addq	(%rcx), %rax
	jmp	.LBB14_342
.LBB14_340:
	movq	24(%rbx), %rax
.LBB14_341:
	movq	(%rsp), %r9
	movq	%r14, %r8
	movzbl	32(%rsp), %edi
.LBB14_342:
	movq	%rax, 80(%rbx)
	xorl	%r10d, %r10d
.LBB14_343:
	movq	%r8, %rbx
	movl	%edi, %r11d
.LBB14_344:
	movq	24(%rsp), %rax
	movb	%r10b, 104(%rax)
	movq	$0, 152(%rsp)
	movzbl	%r11b, %eax
	leaq	.LJTI14_2(%rip), %rcx
	movslq	(%rcx,%rax,4), %rax
	addq	%rcx, %rax
	xorl	%edx, %edx
	xorl	%esi, %esi
	movq	$0, 144(%rsp)
	movq	$0, 136(%rsp)
	xorl	%r14d, %r14d
	jmpq	*%rax
.LBB14_345:
	testq	%r15, %r15
	je	.LBB14_353
	movb	$2, %r14b
	js	.LBB14_530
	movl	$1, %esi
	movq	%r15, %rdi
	callq	rattle_alloc@PLT
	movq	(%rsp), %r9
	testb	$1, %al
	je	.LBB14_530
	movq	%rdx, %r14
	movq	%r14, %rcx
	subq	%rbx, %rcx
	cmpq	%r15, %rcx
	jae	.LBB14_354
.LBB14_349:
	xorl	%eax, %eax
	cmpq	$4, %r15
	jb	.LBB14_362
	cmpq	$32, %rcx
	jb	.LBB14_362
	cmpq	$32, %r15
	jae	.LBB14_355
	xorl	%eax, %eax
	jmp	.LBB14_359
.LBB14_353:
	leaq	23(%rsp), %r14
	movq	%r14, %rcx
	subq	%rbx, %rcx
	cmpq	%r15, %rcx
	jb	.LBB14_349
.LBB14_354:
	movq	%r14, %rdi
	movq	%rbx, %rsi
	movq	%r15, %rdx
	callq	memmove@PLT
	movq	(%rsp), %r9
	jmp	.LBB14_367
.LBB14_355:
	movq	%r15, %rax
	andq	$-32, %rax
	xorl	%ecx, %ecx
	.p2align	4
.LBB14_356:
	movdqu	(%rbx,%rcx), %xmm0
	movdqu	16(%rbx,%rcx), %xmm1
	movdqu	%xmm0, (%r14,%rcx)
	movdqu	%xmm1, 16(%r14,%rcx)
	addq	$32, %rcx
	cmpq	%rcx, %rax
	jne	.LBB14_356
	cmpq	%rax, %r15
	je	.LBB14_367
	testb	$28, %r15b
	je	.LBB14_362
.LBB14_359:
	movq	%rax, %rcx
	movq	%r15, %rax
	andq	$-4, %rax
	.p2align	4
.LBB14_360:
	movl	(%rbx,%rcx), %edx
	movl	%edx, (%r14,%rcx)
	addq	$4, %rcx
	cmpq	%rcx, %rax
	jne	.LBB14_360
	cmpq	%rax, %r15
	je	.LBB14_367
.LBB14_362:
	movq	%r15, %rdx
	movq	%rax, %rcx
	andq	$3, %rdx
	je	.LBB14_365
	movq	%rax, %rcx
	.p2align	4
.LBB14_364:
	movzbl	(%rbx,%rcx), %esi
	movb	%sil, (%r14,%rcx)
	incq	%rcx
	decq	%rdx
	jne	.LBB14_364
.LBB14_365:
	subq	%r15, %rax
	cmpq	$-4, %rax
	ja	.LBB14_367
	.p2align	4
.LBB14_366:
	movzbl	(%rbx,%rcx), %eax
	movb	%al, (%r14,%rcx)
	movzbl	1(%rbx,%rcx), %eax
	movb	%al, 1(%r14,%rcx)
	movzbl	2(%rbx,%rcx), %eax
	movb	%al, 2(%r14,%rcx)
	movzbl	3(%rbx,%rcx), %eax
	movb	%al, 3(%r14,%rcx)
	addq	$4, %rcx
	cmpq	%rcx, %r15
	jne	.LBB14_366
.LBB14_367:
	movq	%r14, 152(%rsp)
	movb	$3, %al
	movq	%rax, 144(%rsp)
	movq	$0, 136(%rsp)
	movq	%r15, %rdx
	movq	%r15, %rsi
	jmp	.LBB14_382
.LBB14_368:
	movq	24(%r14), %rax
.LBB14_369:
	movq	%r15, %r9
.LBB14_370:
	movq	%rax, 80(%r14)
	movb	$1, %r10b
	movb	$4, %r13b
	jmp	.LBB14_85
.LBB14_371:
	movq	24(%r14), %rax
.LBB14_372:
	movq	%r15, %r9
.LBB14_373:
	movq	%rax, 80(%r14)
	xorl	%r10d, %r10d
	jmp	.LBB14_85
.LBB14_374:
	movq	24(%r14), %rax
	movq	(%rsp), %r9
.LBB14_375:
	movq	24(%rsp), %rdx
	movq	%rax, 80(%rdx)
	movb	$1, %al
	movb	$4, %cl
	xorl	%r13d, %r13d
	movb	%al, 104(%rdx)
	movq	$0, 152(%rsp)
	movzbl	%cl, %eax
	leaq	.LJTI14_2(%rip), %rcx
	movslq	(%rcx,%rax,4), %rax
	addq	%rcx, %rax
	xorl	%edx, %edx
	xorl	%esi, %esi
	movq	$0, 144(%rsp)
	movq	$0, 136(%rsp)
	xorl	%r14d, %r14d
	jmpq	*%rax
.LBB14_376:
	movq	24(%r14), %rax
	movq	(%rsp), %r9
.LBB14_377:
	movq	24(%rsp), %rcx
	movq	%rax, 80(%rcx)
	movb	$5, %al
	xorl	%r13d, %r13d
	movb	%r13b, 104(%rcx)
	movq	$0, 152(%rsp)
	movzbl	%al, %eax
	leaq	.LJTI14_2(%rip), %rcx
	movslq	(%rcx,%rax,4), %rax
	addq	%rcx, %rax
	xorl	%edx, %edx
	xorl	%esi, %esi
	movq	$0, 144(%rsp)
	movq	$0, 136(%rsp)
	xorl	%r14d, %r14d
	jmpq	*%rax
.LBB14_378:
	leaq	480(%rsp), %rdi
	movq	%rbx, %rsi
	movq	%r15, %rdx
	callq	serde_json__number__Number__parse
	cmpb	$1, 480(%rsp)
	jne	.LBB14_523
	movzbl	488(%rsp), %eax
	movq	%rax, 152(%rsp)
	movb	$2, %al
	movq	%rax, 144(%rsp)
	movq	496(%rsp), %rdx
	xorl	%esi, %esi
.LBB14_380:
	movq	$0, 136(%rsp)
	movq	(%rsp), %r9
	jmp	.LBB14_382
.LBB14_381:
	movb	$1, %al
	movq	%rax, 144(%rsp)
	movq	$0, 152(%rsp)
	xorl	%edx, %edx
	xorl	%esi, %esi
	movq	%r13, 136(%rsp)
	.p2align	4
.LBB14_382:
	movq	%rsi, 248(%rsp)
	movq	%rdx, 376(%rsp)
	movl	$0, 240(%rsp)
	movw	$0, 244(%rsp)
	movl	$0, 352(%rsp)
	movw	$0, 356(%rsp)
	cmpb	$1, 128(%rsp)
	jne	.LBB14_384
	movq	168(%rsp), %rax
	movq	%rax, 176(%rsp)
	movzwl	2(%rax), %eax
	jmp	.LBB14_386
	.p2align	4
.LBB14_384:
	movl	$848, %edi
	movl	$8, %esi
	callq	rattle_alloc@PLT
	movq	%rdx, 176(%rsp)
	testb	$1, %al
	je	.LBB14_515
	movq	176(%rsp), %rax
	movl	$0, (%rax)
	movq	%rax, 168(%rsp)
	xorl	%eax, %eax
	movq	(%rsp), %r9
.LBB14_386:
	movzwl	%ax, %eax
	movl	$15, %r13d
	subq	%rax, %r13
	movq	%rax, 344(%rsp)
	movl	%eax, %edx
	negb	%dl
	xorl	%r15d, %r15d
	movq	176(%rsp), %rax
	movq	%rax, %rsi
	movq	$0, 32(%rsp)
	movq	%rax, %rdi
	movq	%r13, 360(%rsp)
	xorl	%ebx, %ebx
	movq	%rsi, %rcx
	movzwl	(%rsi), %esi
	testq	%rsi, %rsi
	je	.LBB14_414
	.p2align	4
.LBB14_387:
	movb	%dl, 128(%rsp)
	movq	%r15, 224(%rsp)
	movq	%rdi, %rdx
	xorl	%eax, %eax
	jmp	.LBB14_391
.LBB14_388:
	movzbl	(%r12,%r11), %edi
	cmpb	(%r8,%r11), %dil
	.p2align	4
.LBB14_389:
	movq	(%rsp), %r9
	jb	.LBB14_416
.LBB14_390:
	incq	%rax
	cmpq	%rsi, %rax
	je	.LBB14_415
.LBB14_391:
	leaq	(%rax,%rax,2), %rdi
	movq	8(%rcx,%rdi,8), %r8
	movq	16(%rcx,%rdi,8), %rdi
	cmpq	%r9, %rdi
	cmovbq	%rdi, %r9
	cmpq	$7, %r9
	ja	.LBB14_394
	cmpq	$4, %r9
	jb	.LBB14_395
	movl	(%r12), %r11d
	movl	-4(%r12,%r9), %r10d
	shlq	$32, %r10
	orq	%r11, %r10
	bswapq	%r10
	movl	(%r8), %r14d
	movl	-4(%r8,%r9), %r11d
	shlq	$32, %r11
	orq	%r14, %r11
	bswapq	%r11
	cmpq	%r11, %r10
	jne	.LBB14_389
	jmp	.LBB14_397
	.p2align	4
.LBB14_394:
	movq	(%r12), %r10
	leaq	-8(%r9), %r11
	cmpq	$8, %r11
	movl	$8, %r14d
	cmovbq	%r11, %r14
	movq	(%r8), %r11
	movq	(%r12,%r14), %r15
	bswapq	%r15
	movq	(%r8,%r14), %r14
	bswapq	%r14
	cmpq	%r11, %r10
	bswapq	%r11
	bswapq	%r10
	cmoveq	%r15, %r10
	cmoveq	%r14, %r11
	cmpq	%r11, %r10
	jne	.LBB14_389
	jmp	.LBB14_397
	.p2align	4
.LBB14_395:
	testq	%r9, %r9
	je	.LBB14_412
	movzbl	(%r12), %r10d
	movq	%r9, %r11
	shrq	%r11
	movzbl	(%r12,%r11), %r14d
	shll	$16, %r10d
	shll	$8, %r14d
	orl	%r10d, %r14d
	movzbl	-1(%r12,%r9), %r10d
	orq	%r14, %r10
	movzbl	(%r8), %r14d
	movzbl	(%r8,%r11), %r15d
	shll	$16, %r14d
	shll	$8, %r15d
	orl	%r14d, %r15d
	movzbl	-1(%r8,%r9), %r11d
	orq	%r15, %r11
	cmpq	%r11, %r10
	jne	.LBB14_389
	.p2align	4
.LBB14_397:
	cmpq	$16, %r9
	ja	.LBB14_398
.LBB14_412:
	movq	(%rsp), %r9
	cmpq	%rdi, %r9
	je	.LBB14_419
	cmpq	%rdi, %r9
	jae	.LBB14_390
	jmp	.LBB14_416
	.p2align	4
.LBB14_398:
	leaq	-16(%r9), %r10
	cmpq	$79, %r10
	ja	.LBB14_402
	movl	$16, %r11d
	movq	%r10, %r14
	.p2align	4
.LBB14_400:
	cmpq	$17, %r14
	jb	.LBB14_411
	movdqu	(%r12,%r11), %xmm0
	movdqu	(%r8,%r11), %xmm1
	pcmpeqb	%xmm0, %xmm1
	pmovmskb	%xmm1, %r15d
	notl	%r15d
	rep		bsfl	%r15d, %r15d
	leaq	(%r15,%r11), %rbp
	addq	$16, %r11
	addq	$-16, %r14
	cmpq	%r11, %rbp
	jae	.LBB14_400
	jmp	.LBB14_410
.LBB14_402:
	movdqu	16(%r12), %xmm0
	movdqu	16(%r8), %xmm1
	pcmpeqb	%xmm0, %xmm1
	pmovmskb	%xmm1, %r11d
	notl	%r11d
	rep		bsfl	%r11d, %r11d
	cmpw	$16, %r11w
	jae	.LBB14_404
	addl	$16, %r11d
	cmpq	%r9, %r11
	jb	.LBB14_388
	jmp	.LBB14_412
.LBB14_404:
	leaq	-32(%r9), %r14
	movl	$32, %r11d
	.p2align	4
.LBB14_405:
	movdqu	(%r12,%r11), %xmm0
	movdqu	16(%r12,%r11), %xmm1
	movdqu	32(%r12,%r11), %xmm2
	movdqu	48(%r12,%r11), %xmm3
	movdqu	(%r8,%r11), %xmm4
	pcmpeqb	%xmm0, %xmm4
	movdqu	16(%r8,%r11), %xmm0
	pcmpeqb	%xmm1, %xmm0
	pand	%xmm4, %xmm0
	movdqu	32(%r8,%r11), %xmm1
	pcmpeqb	%xmm2, %xmm1
	movdqu	48(%r8,%r11), %xmm2
	pcmpeqb	%xmm3, %xmm2
	pand	%xmm1, %xmm2
	pand	%xmm0, %xmm2
	pmovmskb	%xmm2, %ebp
	cmpl	$65535, %ebp
	jne	.LBB14_407
	addq	$64, %r11
	addq	$-64, %r14
	cmpq	$63, %r14
	ja	.LBB14_405
.LBB14_407:
	movq	%r9, %r14
	subq	%r11, %r14
	.p2align	4
.LBB14_408:
	cmpq	$17, %r14
	jb	.LBB14_411
	movdqu	(%r12,%r11), %xmm0
	movdqu	(%r8,%r11), %xmm1
	pcmpeqb	%xmm0, %xmm1
	pmovmskb	%xmm1, %ebp
	notl	%ebp
	rep		bsfl	%ebp, %r15d
	leaq	(%r15,%r11), %rbp
	addq	$16, %r11
	addq	$-16, %r14
	cmpq	%r11, %rbp
	jae	.LBB14_408
.LBB14_410:
	movzwl	%r15w, %r10d
	addq	%r10, %r11
	addq	$-16, %r11
	cmpq	%r9, %r11
	jb	.LBB14_388
	jmp	.LBB14_412
.LBB14_411:
	movdqu	(%r12,%r10), %xmm0
	movdqu	(%r8,%r10), %xmm1
	pcmpeqb	%xmm0, %xmm1
	pmovmskb	%xmm1, %r11d
	notl	%r11d
	rep		bsfl	%r11d, %r11d
	addq	%r10, %r11
	cmpq	%r9, %r11
	jb	.LBB14_388
	jmp	.LBB14_412
	.p2align	4
.LBB14_415:
	movq	%rsi, %rax
.LBB14_416:
	movq	%rdx, %rdi
	movq	224(%rsp), %r15
	movzbl	128(%rsp), %edx
	jmp	.LBB14_417
	.p2align	4
.LBB14_414:
	xorl	%eax, %eax
.LBB14_417:
	shlq	$4, %rbx
	addq	%rax, %rbx
	incq	%r13
	cmpw	$0, 2(%rcx)
	je	.LBB14_424
	movq	848(%rcx,%rax,8), %rsi
	incq	%r15
	incb	%dl
	movq	%rax, 32(%rsp)
	movq	%rcx, %rdi
	movq	%rsi, %rcx
	movzwl	(%rsi), %esi
	testq	%rsi, %rsi
	jne	.LBB14_387
	jmp	.LBB14_414
	.p2align	4
.LBB14_419:
	andl	$15, %eax
	addq	344(%rsp), %r13
	cmpq	$15, %r13
	movq	32(%rsp), %rcx
	leaq	848(%rdx,%rcx,8), %rcx
	leaq	168(%rsp), %rdx
	cmovneq	%rcx, %rdx
	movq	(%rdx), %rcx
	movzwl	(%rcx), %edx
	cmpq	%rdx, %rax
	jae	.LBB14_538
	shll	$5, %eax
	movzbl	368(%rcx,%rax), %esi
	movzbl	369(%rcx,%rax), %r15d
	movq	376(%rcx,%rax), %r13
	movzbl	384(%rcx,%rax), %r14d
	movzbl	385(%rcx,%rax), %ebx
	movzwl	390(%rcx,%rax), %edx
	movw	%dx, 244(%rsp)
	movl	386(%rcx,%rax), %edx
	movl	%edx, 240(%rsp)
	movq	392(%rcx,%rax), %rbp
	movq	144(%rsp), %rdx
	movb	%dl, 368(%rcx,%rax)
	movq	136(%rsp), %rdx
	movb	%dl, 369(%rcx,%rax)
	movq	152(%rsp), %rdx
	movq	%rdx, 376(%rcx,%rax)
	movq	376(%rsp), %rdx
	movq	%rdx, 384(%rcx,%rax)
	movq	248(%rsp), %rdx
	movq	%rdx, 392(%rcx,%rax)
	testq	%r9, %r9
	je	.LBB14_422
	movq	%r12, %rdi
	movq	%rsi, %r12
	callq	rattle_dealloc@PLT
	movq	%r12, %rsi
.LBB14_422:
	movzwl	244(%rsp), %eax
	movw	%ax, 188(%rsp)
	movl	240(%rsp), %eax
	movl	%eax, 184(%rsp)
	xorl	%eax, %eax
	movq	$0, 48(%rsp)
	testb	%al, %al
	jne	.LBB14_1
.LBB14_423:
	movb	%sil, 48(%rsp)
	movb	%r15b, 49(%rsp)
	movq	%r13, 56(%rsp)
	movb	%r14b, 64(%rsp)
	movb	%bl, 65(%rsp)
	movzwl	188(%rsp), %eax
	leaq	56(%rsp), %rcx
	movw	%ax, 14(%rcx)
	movl	184(%rsp), %eax
	movl	%eax, 10(%rcx)
	movq	%rbp, 72(%rsp)
	leaq	48(%rsp), %rdi
	callq	serde_json__serde_json__value__Value_Destruct__drop
.LBB14_1:
	movb	$1, %bpl
	movb	$1, %al
	movq	%rax, 128(%rsp)
	movq	24(%rsp), %rsi
	jmp	.LBB14_2
.LBB14_424:
	movabsq	$9223372036854775806, %rax
	cmpq	%rax, 368(%rsp)
	ja	.LBB14_519
	movb	%dl, 128(%rsp)
	movq	%r13, %rcx
	movq	360(%rsp), %rsi
	subq	%rsi, %rcx
	cmpq	$1, %rcx
	movq	32(%rsp), %rdx
	leaq	848(%rdi,%rdx,8), %rax
	leaq	168(%rsp), %rbp
	cmoveq	%rbp, %rax
	movq	(%rax), %rax
	cmpw	$15, (%rax)
	jae	.LBB14_427
	shlq	$3, %rdx
	jmp	.LBB14_502
.LBB14_427:
	movb	$1, %al
	movl	%eax, 236(%rsp)
	movq	176(%rsp), %rax
	cmpw	$15, (%rax)
	movq	%rsi, %rax
	jb	.LBB14_431
	cmpw	$10, 344(%rsp)
	ja	.LBB14_520
	movq	%rdi, %r14
	movl	$976, %edi
	movl	$8, %esi
	callq	rattle_alloc@PLT
	movq	(%rsp), %r9
	movq	176(%rsp), %rcx
	testb	$1, %al
	je	.LBB14_520
	movq	%r14, %rdi
	movq	344(%rsp), %rsi
	leal	1(%rsi), %eax
	movw	%ax, 2(%rdx)
	movq	%rcx, 848(%rdx)
	movw	$0, (%rdx)
	movq	%rdx, 168(%rsp)
	movl	$14, %eax
	subq	%rsi, %rax
	movq	%rdx, 176(%rsp)
.LBB14_431:
	pxor	%xmm0, %xmm0
	movdqa	%xmm0, 48(%rsp)
	movq	%r13, %rcx
	subq	%rax, %rcx
	movq	%rcx, 464(%rsp)
	jbe	.LBB14_437
	movl	%r13d, %ecx
	subl	%eax, %ecx
	testb	$3, %cl
	je	.LBB14_435
	movzbl	128(%rsp), %ecx
	subb	%al, %cl
	movzbl	%cl, %ecx
	andl	$3, %ecx
	.p2align	4
.LBB14_434:
	movl	%ebx, %esi
	andb	$15, %sil
	movb	%sil, 47(%rsp,%r13)
	decq	%r13
	shrq	$4, %rbx
	decq	%rcx
	jne	.LBB14_434
.LBB14_435:
	addq	360(%rsp), %r15
	subq	%rax, %r15
	cmpq	$3, %r15
	jb	.LBB14_437
	.p2align	4
.LBB14_436:
	movl	%ebx, %ecx
	andb	$15, %cl
	movb	%cl, 47(%rsp,%r13)
	movl	%ebx, %ecx
	shrb	$4, %cl
	movb	%cl, 46(%rsp,%r13)
	movl	%ebx, %ecx
	shrl	$8, %ecx
	andb	$15, %cl
	movb	%cl, 45(%rsp,%r13)
	movl	%ebx, %ecx
	shrl	$12, %ecx
	andb	$15, %cl
	movb	%cl, 44(%rsp,%r13)
	addq	$-4, %r13
	shrq	$16, %rbx
	cmpq	%r13, %rax
	jb	.LBB14_436
.LBB14_437:
	movdqa	48(%rsp), %xmm0
	movdqa	%xmm0, 640(%rsp)
	movl	$16, %r13d
	subq	%rax, %r13
	cmpq	$2, %r13
	jb	.LBB14_500
	leaq	(%rsp,%rax), %rbx
	addq	$640, %rbx
	jmp	.LBB14_442
	.p2align	4
.LBB14_439:
	movq	472(%rsp), %rcx
	incl	%ecx
	movb	%cl, (%rbx)
	addb	$-8, %al
	movb	%al, 1(%rbx)
.LBB14_440:
	movq	(%rsp), %r9
	movq	224(%rsp), %r13
.LBB14_441:
	movzbl	%cl, %ecx
	leaq	(%rdi,%rcx,8), %rbp
	addq	$848, %rbp
	incq	%rbx
	cmpq	$2, %r13
	leaq	-1(%r13), %r13
	jbe	.LBB14_499
.LBB14_442:
	movzbl	(%rbx), %edx
	movl	%edx, %ecx
	movq	(%rbp), %rdi
	movq	848(%rdi,%rdx,8), %rax
	cmpw	$15, (%rax)
	jb	.LBB14_441
	movq	%rdx, 128(%rsp)
	movq	%rcx, 472(%rsp)
	movzwl	2(%rdi), %r14d
	decq	%r14
	movq	%r13, 224(%rsp)
	je	.LBB14_445
	movl	$976, %edi
	movl	$8, %esi
	callq	rattle_alloc@PLT
	testb	$1, %al
	jne	.LBB14_446
	jmp	.LBB14_516
.LBB14_445:
	movl	$848, %edi
	movl	$8, %esi
	callq	rattle_alloc@PLT
	testb	$1, %al
	je	.LBB14_516
.LBB14_446:
	movq	%rdx, %r15
	movw	%r14w, 2(%rdx)
	leaq	8(%rdx), %rdi
	leaq	368(%rdx), %r14
	movq	(%rbp), %rcx
	pxor	%xmm0, %xmm0
	movdqa	%xmm0, 512(%rsp)
	movq	$0, 528(%rsp)
	movdqa	%xmm0, 656(%rsp)
	movdqu	%xmm0, 670(%rsp)
	movzwl	(%rcx), %edx
	xorl	%eax, %eax
	xorl	%esi, %esi
	cmpw	$0, 2(%rcx)
	leaq	1(%rdx), %r8
	setne	%sil
	cmoveq	%rax, %r8
	shll	$4, %esi
	leaq	848(%rcx), %r11
	leaq	368(%rcx), %r9
	leaq	8(%rcx), %r10
	movq	%r10, 256(%rsp)
	movq	%rdx, 264(%rsp)
	movq	$15, 272(%rsp)
	movq	%r9, 280(%rsp)
	movq	%rdx, 288(%rsp)
	movq	$15, 296(%rsp)
	movq	%r11, 344(%rsp)
	movq	%r11, 304(%rsp)
	movq	%r8, 312(%rsp)
	movq	%rsi, 320(%rsp)
	movq	%rcx, 328(%rsp)
	movdqa	%xmm0, 432(%rsp)
	movq	$0, 448(%rsp)
	movdqa	%xmm0, 576(%rsp)
	movdqu	%xmm0, 590(%rsp)
	movq	128(%rsp), %rdx
	movq	848(%rcx,%rdx,8), %r13
	movdqa	%xmm0, 720(%rsp)
	movq	$0, 736(%rsp)
	movdqa	%xmm0, 608(%rsp)
	movdqu	%xmm0, 622(%rsp)
	leaq	56(%rsp), %rcx
	movdqu	%xmm0, 16(%rcx)
	movdqu	%xmm0, (%rcx)
	movdqu	%xmm0, 206(%rsp)
	movdqa	%xmm0, 192(%rsp)
	movdqa	%xmm0, 688(%rsp)
	movdqu	%xmm0, 702(%rsp)
	movzwl	2(%r13), %r8d
	movzwl	(%r13), %ecx
	leaq	1(%rcx), %rdx
	xorl	%esi, %esi
	movw	%r8w, 360(%rsp)
	testw	%r8w, %r8w
	cmoveq	%rax, %rdx
	setne	%sil
	shll	$4, %esi
	leaq	848(%r13), %rax
	leaq	368(%r13), %r8
	leaq	8(%r13), %r9
	movq	%r9, 48(%rsp)
	movq	$15, 64(%rsp)
	movq	%r8, 72(%rsp)
	movq	$15, 88(%rsp)
	movq	%rax, 96(%rsp)
	movq	%rdx, 104(%rsp)
	movq	%rsi, 112(%rsp)
	movq	%r13, 120(%rsp)
	leaq	-8(%rcx), %r8
	leaq	200(%r13), %rsi
	leaq	-64(,%rcx,8), %rax
	leaq	(%rax,%rax,2), %rdx
	movq	%rdi, %rax
	subq	%rsi, %rax
	cmpq	%rdx, %rax
	movq	%r8, 32(%rsp)
	movq	%rbp, 176(%rsp)
	jae	.LBB14_450
	testq	%r8, %r8
	je	.LBB14_451
	movl	%ecx, %eax
	andl	$7, %eax
	addl	$-9, %ecx
	cmpw	$7, %cx
	jae	.LBB14_452
	xorl	%ecx, %ecx
	jmp	.LBB14_455
	.p2align	4
.LBB14_450:
	callq	memmove@PLT
	movq	32(%rsp), %r8
	jmp	.LBB14_457
.LBB14_451:
	movq	$8, 56(%rsp)
	addq	$624, %r13
	xorl	%edx, %edx
	jmp	.LBB14_461
.LBB14_452:
	movq	%r8, %rdx
	andq	$-8, %rdx
	xorl	%ecx, %ecx
	xorl	%r8d, %r8d
	.p2align	4
.LBB14_453:
	movups	(%rsi,%r8), %xmm0
	movq	16(%rsi,%r8), %r9
	movq	%r9, 16(%rdi,%r8)
	movups	%xmm0, (%rdi,%r8)
	movups	24(%rsi,%r8), %xmm0
	movq	40(%rsi,%r8), %r9
	movq	%r9, 40(%rdi,%r8)
	movups	%xmm0, 24(%rdi,%r8)
	movups	48(%rsi,%r8), %xmm0
	movq	64(%rsi,%r8), %r9
	movq	%r9, 64(%rdi,%r8)
	movups	%xmm0, 48(%rdi,%r8)
	movups	72(%rsi,%r8), %xmm0
	movq	88(%rsi,%r8), %r9
	movq	%r9, 88(%rdi,%r8)
	movups	%xmm0, 72(%rdi,%r8)
	movups	96(%rsi,%r8), %xmm0
	movq	112(%rsi,%r8), %r9
	movq	%r9, 112(%rdi,%r8)
	movups	%xmm0, 96(%rdi,%r8)
	movups	120(%rsi,%r8), %xmm0
	movq	136(%rsi,%r8), %r9
	movq	%r9, 136(%rdi,%r8)
	movups	%xmm0, 120(%rdi,%r8)
	movups	144(%rsi,%r8), %xmm0
	movq	160(%rsi,%r8), %r9
	movq	%r9, 160(%rdi,%r8)
	movups	%xmm0, 144(%rdi,%r8)
	movdqu	168(%rsi,%r8), %xmm0
	movq	184(%rsi,%r8), %r9
	movq	%r9, 184(%rdi,%r8)
	movdqu	%xmm0, 168(%rdi,%r8)
	addq	$8, %rcx
	addq	$192, %r8
	cmpq	%rcx, %rdx
	jne	.LBB14_453
	testq	%rax, %rax
	movq	32(%rsp), %r8
	je	.LBB14_457
.LBB14_455:
	shlq	$3, %rcx
	leaq	(%rcx,%rcx,2), %rdx
	leaq	(%rdx,%r13), %rcx
	addq	$200, %rcx
	addq	%r15, %rdx
	addq	$8, %rdx
	shll	$3, %eax
	leaq	(%rax,%rax,2), %rax
	xorl	%esi, %esi
	.p2align	4
.LBB14_456:
	movdqu	(%rcx,%rsi), %xmm0
	movq	16(%rcx,%rsi), %rdi
	movq	%rdi, 16(%rdx,%rsi)
	movdqu	%xmm0, (%rdx,%rsi)
	addq	$24, %rsi
	cmpq	%rsi, %rax
	jne	.LBB14_456
.LBB14_457:
	movq	$8, 56(%rsp)
	addq	$624, %r13
	movq	%r8, %rdx
	shlq	$5, %rdx
	movq	%r14, %rax
	subq	%r13, %rax
	cmpq	%rdx, %rax
	jae	.LBB14_461
	testq	%r8, %r8
	leaq	390(%rsp), %rdi
	je	.LBB14_462
	xorl	%eax, %eax
	movq	32(%rsp), %rcx
	.p2align	4
.LBB14_460:
	movzwl	(%r13,%rax), %edx
	movups	8(%r13,%rax), %xmm0
	movups	%xmm0, (%rdi)
	movq	24(%r13,%rax), %rsi
	movq	%rsi, 16(%rdi)
	movw	%dx, (%r14,%rax)
	movdqu	(%rdi), %xmm0
	movdqu	%xmm0, 8(%r14,%rax)
	movq	16(%rdi), %rdx
	movq	%rdx, 24(%r14,%rax)
	addq	$32, %rax
	decq	%rcx
	jne	.LBB14_460
	jmp	.LBB14_462
	.p2align	4
.LBB14_461:
	movq	%r14, %rdi
	movq	%r13, %rsi
	callq	memmove@PLT
	leaq	390(%rsp), %rdi
.LBB14_462:
	movq	$8, 80(%rsp)
	pxor	%xmm0, %xmm0
	movdqa	%xmm0, 544(%rsp)
	movq	$0, 560(%rsp)
	movq	%rdi, %rbp
	leaq	544(%rsp), %rdi
	leaq	48(%rsp), %rsi
	movl	$7, %r14d
	movl	$7, %edx
	callq	std_alloc__vec__Vec__remove____992c4ce9cbd9eb37_
	movq	72(%rsp), %rax
	movq	80(%rsp), %rcx
	movzbl	224(%rax), %edx
	movb	%dl, 167(%rsp)
	movzbl	225(%rax), %r13d
	movq	248(%rax), %rdx
	movq	%rdx, 16(%rbp)
	movdqu	232(%rax), %xmm0
	movdqu	%xmm0, (%rbp)
	leaq	-1(%rcx), %rsi
	leaq	-8(%rcx), %rdx
	movl	$224, %edi
	cmpq	$65, %rdx
	jb	.LBB14_469
	leaq	296(%rax), %r8
	leaq	-72(%rcx), %r9
	movl	$7, %r14d
	.p2align	4
.LBB14_464:
	movq	%r9, %rdi
	xorl	%edx, %edx
	.p2align	4
.LBB14_465:
	movzwl	-40(%r8,%rdx), %r9d
	movw	%r9w, -72(%r8,%rdx)
	movups	-32(%r8,%rdx), %xmm0
	movups	%xmm0, -64(%r8,%rdx)
	movq	-16(%r8,%rdx), %r9
	movq	%r9, -48(%r8,%rdx)
	movzwl	-8(%r8,%rdx), %r9d
	movw	%r9w, -40(%r8,%rdx)
	movdqu	(%r8,%rdx), %xmm0
	movdqu	%xmm0, -32(%r8,%rdx)
	movq	16(%r8,%rdx), %r9
	movq	%r9, -16(%r8,%rdx)
	addq	$64, %rdx
	cmpq	$2048, %rdx
	jne	.LBB14_465
	addq	$64, %r14
	movq	%rsi, %rdx
	subq	%r14, %rdx
	addq	$2048, %r8
	leaq	-64(%rdi), %r9
	cmpq	$64, %rdx
	ja	.LBB14_464
	cmpq	$-1, %r14
	je	.LBB14_476
	movq	%r14, %rdi
	shlq	$5, %rdi
.LBB14_469:
	cmpq	%r14, %rsi
	je	.LBB14_479
	cmpq	$1, %rdx
	jne	.LBB14_472
	xorl	%ecx, %ecx
	jmp	.LBB14_475
.LBB14_472:
	movl	%edx, %esi
	andl	$126, %esi
	leaq	(%rax,%rdi), %r8
	addq	$72, %r8
	xorl	%ecx, %ecx
	.p2align	4
.LBB14_473:
	movzwl	-40(%r8), %r9d
	movw	%r9w, -72(%r8)
	movups	-32(%r8), %xmm0
	movups	%xmm0, -64(%r8)
	movq	-16(%r8), %r9
	movq	%r9, -48(%r8)
	movzwl	-8(%r8), %r9d
	movw	%r9w, -40(%r8)
	movdqu	(%r8), %xmm0
	movdqu	%xmm0, -32(%r8)
	movq	16(%r8), %r9
	movq	%r9, -16(%r8)
	addq	$2, %rcx
	addq	$64, %r8
	cmpq	%rcx, %rsi
	jne	.LBB14_473
	testb	$1, %dl
	je	.LBB14_479
.LBB14_475:
	leaq	(%rax,%rdi), %rdx
	addq	%rdi, %rax
	addq	$32, %rax
	shlq	$5, %rcx
	movzwl	32(%rdx,%rcx), %esi
	movw	%si, (%rdx,%rcx)
	movdqu	8(%rax,%rcx), %xmm0
	movdqu	%xmm0, 8(%rdx,%rcx)
	movq	24(%rax,%rcx), %rax
	movq	%rax, 24(%rdx,%rcx)
	jmp	.LBB14_479
.LBB14_476:
	testq	%rcx, %rcx
	je	.LBB14_479
	shlq	$5, %rcx
	addq	%rcx, %rax
	addq	$-24, %rax
	.p2align	4
.LBB14_478:
	movzwl	-8(%rax), %ecx
	movw	%cx, -40(%rax)
	movdqu	(%rax), %xmm0
	movdqu	%xmm0, -32(%rax)
	movq	16(%rax), %rcx
	movq	%rcx, -16(%rax)
	addq	$-32, %rax
	decq	%rdi
	jne	.LBB14_478
	.p2align	4
.LBB14_479:
	leaq	390(%rsp), %rcx
	movq	16(%rcx), %rax
	leaq	486(%rsp), %rdx
	movq	%rax, 16(%rdx)
	movq	16(%rdx), %rax
	leaq	198(%rsp), %rsi
	movq	%rax, 16(%rsi)
	movups	(%rcx), %xmm0
	movups	%xmm0, (%rdx)
	movdqu	(%rdx), %xmm0
	movdqu	%xmm0, (%rsi)
	cmpw	$0, 360(%rsp)
	je	.LBB14_495
	leaq	848(%r15), %rdi
	movq	96(%rsp), %rax
	movq	104(%rsp), %r8
	leaq	64(%rax), %rsi
	leaq	-64(,%r8,8), %rdx
	movq	%rdi, %rcx
	subq	%rsi, %rcx
	cmpq	%rdx, %rcx
	jae	.LBB14_484
	movq	%r8, %rcx
	addq	$-8, %rcx
	je	.LBB14_495
	cmpq	$4, %rcx
	jb	.LBB14_483
	movq	%r15, %rdx
	subq	%rax, %rdx
	addq	$784, %rdx
	cmpq	$32, %rdx
	jae	.LBB14_487
.LBB14_483:
	xorl	%edx, %edx
.LBB14_490:
	movq	%r8, %r10
	movq	%rdx, %r9
	andq	$3, %r10
	je	.LBB14_493
	movq	%rdx, %r9
	.p2align	4
.LBB14_492:
	movq	(%rsi,%r9,8), %r11
	movq	%r11, (%rdi,%r9,8)
	incq	%r9
	decq	%r10
	jne	.LBB14_492
.LBB14_493:
	subq	%rdx, %r8
	addq	$-9, %r8
	cmpq	$3, %r8
	jb	.LBB14_495
	.p2align	4
.LBB14_494:
	movq	64(%rax,%r9,8), %rdx
	movq	%rdx, 848(%r15,%r9,8)
	movq	72(%rax,%r9,8), %rdx
	movq	%rdx, 856(%r15,%r9,8)
	movq	80(%rax,%r9,8), %rdx
	movq	%rdx, 864(%r15,%r9,8)
	movq	88(%rax,%r9,8), %rdx
	movq	%rdx, 872(%r15,%r9,8)
	addq	$4, %r9
	cmpq	%r9, %rcx
	jne	.LBB14_494
	jmp	.LBB14_495
.LBB14_484:
	callq	memmove@PLT
.LBB14_495:
	movzwl	56(%rsp), %eax
	movq	120(%rsp), %rcx
	movw	%ax, (%rcx)
	movq	32(%rsp), %rax
	movw	%ax, (%r15)
	leaq	198(%rsp), %rdx
	movq	16(%rdx), %rax
	leaq	694(%rsp), %rsi
	movq	%rax, 16(%rsi)
	movups	(%rdx), %xmm0
	movups	%xmm0, (%rsi)
	movq	560(%rsp), %rax
	movaps	544(%rsp), %xmm0
	movaps	688(%rsp), %xmm1
	movaps	%xmm1, 608(%rsp)
	movdqu	702(%rsp), %xmm1
	movdqu	%xmm1, 622(%rsp)
	movaps	%xmm0, 432(%rsp)
	movq	%rax, 448(%rsp)
	movaps	608(%rsp), %xmm0
	movaps	%xmm0, 576(%rsp)
	movups	622(%rsp), %xmm0
	movups	%xmm0, 590(%rsp)
	movq	128(%rsp), %rbp
	movq	344(%rsp), %rax
	movq	%rcx, (%rax,%rbp,8)
	movq	448(%rsp), %rax
	movq	%rax, 528(%rsp)
	movaps	432(%rsp), %xmm0
	movaps	%xmm0, 512(%rsp)
	movaps	576(%rsp), %xmm0
	movaps	%xmm0, 656(%rsp)
	movups	590(%rsp), %xmm0
	movups	%xmm0, 670(%rsp)
	movq	$0, 48(%rsp)
	leaq	256(%rsp), %rdi
	leaq	512(%rsp), %rdx
	movq	%rbp, %rsi
	callq	std_alloc__vec__lodged__Vec_T_Lodged__insert_reserved____483ec8513fd57e54_
	movzbl	167(%rsp), %eax
	movb	%al, 48(%rsp)
	movb	%r13b, 49(%rsp)
	leaq	662(%rsp), %rdx
	movq	16(%rdx), %rax
	leaq	56(%rsp), %rcx
	movq	%rax, 16(%rcx)
	movdqu	(%rdx), %xmm0
	movdqu	%xmm0, (%rcx)
	leaq	48(%rsp), %rdx
	leaq	280(%rsp), %rdi
	movq	%rbp, %rsi
	callq	std_alloc__vec__lodged__Vec_T_Lodged__insert_reserved___24_serde_json__value__Value_
	incq	%rbp
	movq	304(%rsp), %r14
	movq	312(%rsp), %rdx
	leal	(,%rbp,8), %r13d
	subq	%rbp, %rdx
	je	.LBB14_497
	leaq	(%r14,%r13), %rsi
	leaq	(%r14,%r13), %rdi
	addq	$8, %rdi
	shlq	$3, %rdx
	callq	memmove@PLT
.LBB14_497:
	movq	%r15, (%r14,%r13)
	movzwl	264(%rsp), %eax
	movq	328(%rsp), %rdi
	movw	%ax, (%rdi)
	movq	176(%rsp), %rax
	movq	%rdi, (%rax)
	movzbl	1(%rbx), %eax
	cmpb	$7, %al
	ja	.LBB14_439
	movzbl	(%rbx), %ecx
	jmp	.LBB14_440
.LBB14_487:
	movq	%rcx, %rdx
	andq	$-4, %rdx
	xorl	%r9d, %r9d
	.p2align	4
.LBB14_488:
	movdqu	64(%rax,%r9,8), %xmm0
	movdqu	80(%rax,%r9,8), %xmm1
	movdqu	%xmm0, 848(%r15,%r9,8)
	movdqu	%xmm1, 864(%r15,%r9,8)
	addq	$4, %r9
	cmpq	%r9, %rdx
	jne	.LBB14_488
	cmpq	%rdx, %rcx
	je	.LBB14_495
	jmp	.LBB14_490
.LBB14_499:
	movq	%rcx, 32(%rsp)
	movq	168(%rsp), %rax
	movq	%rax, 176(%rsp)
.LBB14_500:
	movq	176(%rsp), %rax
	cmpw	$0, (%rax)
	je	.LBB14_517
	movzbl	655(%rsp), %ebx
	movq	32(%rsp), %rdx
	shlq	$3, %rdx
	movq	464(%rsp), %rcx
.LBB14_502:
	cmpq	$1, %rcx
	leaq	848(%rdi,%rdx), %rax
	leaq	168(%rsp), %r15
	cmovneq	%rax, %r15
	andl	$15, %ebx
	movq	%r12, 384(%rsp)
	movq	%r9, 392(%rsp)
	movq	%r9, 400(%rsp)
	movq	(%r15), %rax
	movzwl	(%rax), %ecx
	leaq	1(%rcx), %rdx
	xorl	%ebp, %ebp
	xorl	%esi, %esi
	cmpw	$0, 2(%rax)
	cmoveq	%rbp, %rdx
	setne	%sil
	shll	$4, %esi
	leaq	848(%rax), %rdi
	leaq	368(%rax), %r8
	leaq	8(%rax), %r9
	movq	%r9, 48(%rsp)
	movq	%rcx, 56(%rsp)
	movq	$15, 64(%rsp)
	movq	%r8, 72(%rsp)
	movq	%rcx, 80(%rsp)
	movq	$15, 88(%rsp)
	movq	%rdi, 96(%rsp)
	movq	%rdx, 104(%rsp)
	movq	%rsi, 112(%rsp)
	movq	%rax, 120(%rsp)
	movq	$0, 256(%rsp)
	leaq	48(%rsp), %rdi
	leaq	384(%rsp), %rdx
	movq	%rbx, %rsi
	callq	std_alloc__vec__lodged__Vec_T_Lodged__insert_reserved____483ec8513fd57e54_
	movq	144(%rsp), %rax
	movb	%al, 256(%rsp)
	movq	136(%rsp), %rax
	movb	%al, 257(%rsp)
	movq	152(%rsp), %rax
	movq	%rax, 264(%rsp)
	movq	376(%rsp), %rax
	movq	%rax, 272(%rsp)
	movq	248(%rsp), %rax
	movq	%rax, 280(%rsp)
	leaq	256(%rsp), %rdx
	leaq	72(%rsp), %rdi
	movq	%rbx, %rsi
	callq	std_alloc__vec__lodged__Vec_T_Lodged__insert_reserved___24_serde_json__value__Value_
	movzwl	56(%rsp), %eax
	movq	120(%rsp), %rcx
	movw	%ax, (%rcx)
	movq	%rcx, (%r15)
	incq	368(%rsp)
	movzwl	356(%rsp), %eax
	movw	%ax, 188(%rsp)
	movl	352(%rsp), %eax
	movl	%eax, 184(%rsp)
	movb	$1, %al
	xorl	%esi, %esi
	xorl	%r15d, %r15d
	xorl	%r13d, %r13d
	xorl	%r14d, %r14d
	xorl	%ebx, %ebx
	movq	$0, 48(%rsp)
	testb	%al, %al
	jne	.LBB14_1
	jmp	.LBB14_423
.LBB14_504:
	xorl	%r15d, %r15d
	jmp	.LBB14_344
.LBB14_505:
	movzbl	%r13b, %eax
	movl	$1005, %ecx
	btl	%eax, %ecx
	jae	.LBB14_513
	movb	$3, 104(%r15)
.LBB14_507:
	testb	$1, %bpl
	je	.LBB14_509
	movq	168(%rsp), %rdi
	callq	std_collections__btree__node__Node__destroy____bfff14f77ed39624_
.LBB14_509:
	movq	336(%rsp), %rax
	movw	$1, (%rax)
	jmp	.LBB14_535
.LBB14_510:
	testb	$1, %bpl
	je	.LBB14_512
.LBB14_511:
	movq	168(%rsp), %rdi
	callq	std_collections__btree__node__Node__destroy____bfff14f77ed39624_
.LBB14_512:
	movq	336(%rsp), %rax
	movw	$513, (%rax)
	jmp	.LBB14_535
.LBB14_513:
	movzbl	128(%rsp), %eax
	movq	168(%rsp), %rcx
	movq	336(%rsp), %rdx
	movw	$0, (%rdx)
	movq	%rax, 8(%rdx)
	movq	%rcx, 16(%rdx)
	movq	368(%rsp), %rax
	movq	%rax, 24(%rdx)
	jmp	.LBB14_536
.LBB14_514:
	xorl	%r14d, %r14d
	testq	%r9, %r9
	jne	.LBB14_531
	jmp	.LBB14_532
.LBB14_515:
	movl	$0, 236(%rsp)
	movq	(%rsp), %r9
	jmp	.LBB14_520
.LBB14_516:
	movq	168(%rsp), %rax
	movq	%rax, 176(%rsp)
	cmpw	$0, (%rax)
	movq	(%rsp), %r9
	jne	.LBB14_520
.LBB14_517:
	movq	176(%rsp), %rax
	cmpw	$0, 2(%rax)
	je	.LBB14_520
	movq	176(%rsp), %rdi
	movq	848(%rdi), %rbx
	callq	rattle_dealloc@PLT
	movq	(%rsp), %r9
	movq	%rbx, 168(%rsp)
	jmp	.LBB14_520
.LBB14_519:
	movb	$1, %al
	movl	%eax, 236(%rsp)
.LBB14_520:
	movq	248(%rsp), %rcx
	movq	$0, 48(%rsp)
	testq	%r9, %r9
	movq	152(%rsp), %rbx
	je	.LBB14_522
	movq	%r12, %rdi
	callq	rattle_dealloc@PLT
	movq	248(%rsp), %rcx
.LBB14_522:
	movq	144(%rsp), %rax
	movb	%al, 48(%rsp)
	movq	136(%rsp), %rax
	movb	%al, 49(%rsp)
	movq	%rbx, 56(%rsp)
	movq	376(%rsp), %rax
	movq	%rax, 64(%rsp)
	movq	%rcx, 72(%rsp)
	leaq	48(%rsp), %rdi
	callq	serde_json__serde_json__value__Value_Destruct__drop
	cmpb	$0, 236(%rsp)
	jne	.LBB14_511
	jmp	.LBB14_512
.LBB14_523:
	movb	$1, %r14b
	jmp	.LBB14_528
.LBB14_526:
	movzbl	385(%rsp), %r14d
	jmp	.LBB14_528
.LBB14_527:
	movzbl	257(%rsp), %r14d
.LBB14_528:
	movq	(%rsp), %r9
	testq	%r9, %r9
	jne	.LBB14_531
	jmp	.LBB14_532
.LBB14_529:
	xorl	%r14d, %r14d
.LBB14_530:
	testq	%r9, %r9
	je	.LBB14_532
.LBB14_531:
	movq	%r12, %rdi
	callq	rattle_dealloc@PLT
.LBB14_532:
	testb	$1, %bpl
	je	.LBB14_534
	movq	168(%rsp), %rdi
	callq	std_collections__btree__node__Node__destroy____bfff14f77ed39624_
.LBB14_534:
	movq	336(%rsp), %rax
	movb	$1, (%rax)
	movb	%r14b, 1(%rax)
.LBB14_535:
	pxor	%xmm0, %xmm0
	movdqu	%xmm0, 8(%rax)
	movq	$0, 24(%rax)
.LBB14_536:
	addq	$744, %rsp
	popq	%rbx
	popq	%r12
	popq	%r13
	popq	%r14
	popq	%r15
	popq	%rbp
	retq
.LBB14_538:
	ud2
.Lfunc_end14:
	.size	serde_json__de__read_members, .Lfunc_end14-serde_json__de__read_members
	.section	.rodata.serde_json__de__read_members,"a",@progbits
	.p2align	2, 0x0
.LJTI14_0:
	.long	.LBB14_53-.LJTI14_0
	.long	.LBB14_105-.LJTI14_0
	.long	.LBB14_105-.LJTI14_0
	.long	.LBB14_105-.LJTI14_0
	.long	.LBB14_105-.LJTI14_0
	.long	.LBB14_105-.LJTI14_0
	.long	.LBB14_105-.LJTI14_0
	.long	.LBB14_105-.LJTI14_0
	.long	.LBB14_105-.LJTI14_0
	.long	.LBB14_105-.LJTI14_0
	.long	.LBB14_83-.LJTI14_0
	.long	.LBB14_105-.LJTI14_0
	.long	.LBB14_105-.LJTI14_0
	.long	.LBB14_105-.LJTI14_0
	.long	.LBB14_105-.LJTI14_0
	.long	.LBB14_105-.LJTI14_0
	.long	.LBB14_105-.LJTI14_0
	.long	.LBB14_105-.LJTI14_0
	.long	.LBB14_105-.LJTI14_0
	.long	.LBB14_105-.LJTI14_0
	.long	.LBB14_105-.LJTI14_0
	.long	.LBB14_105-.LJTI14_0
	.long	.LBB14_105-.LJTI14_0
	.long	.LBB14_105-.LJTI14_0
	.long	.LBB14_83-.LJTI14_0
	.long	.LBB14_105-.LJTI14_0
	.long	.LBB14_105-.LJTI14_0
	.long	.LBB14_105-.LJTI14_0
	.long	.LBB14_105-.LJTI14_0
	.long	.LBB14_105-.LJTI14_0
	.long	.LBB14_105-.LJTI14_0
	.long	.LBB14_105-.LJTI14_0
	.long	.LBB14_105-.LJTI14_0
	.long	.LBB14_105-.LJTI14_0
	.long	.LBB14_105-.LJTI14_0
	.long	.LBB14_105-.LJTI14_0
	.long	.LBB14_105-.LJTI14_0
	.long	.LBB14_105-.LJTI14_0
	.long	.LBB14_105-.LJTI14_0
	.long	.LBB14_105-.LJTI14_0
	.long	.LBB14_105-.LJTI14_0
	.long	.LBB14_105-.LJTI14_0
	.long	.LBB14_105-.LJTI14_0
	.long	.LBB14_105-.LJTI14_0
	.long	.LBB14_105-.LJTI14_0
	.long	.LBB14_105-.LJTI14_0
	.long	.LBB14_105-.LJTI14_0
	.long	.LBB14_105-.LJTI14_0
	.long	.LBB14_105-.LJTI14_0
	.long	.LBB14_105-.LJTI14_0
	.long	.LBB14_105-.LJTI14_0
	.long	.LBB14_105-.LJTI14_0
	.long	.LBB14_105-.LJTI14_0
	.long	.LBB14_105-.LJTI14_0
	.long	.LBB14_105-.LJTI14_0
	.long	.LBB14_105-.LJTI14_0
	.long	.LBB14_105-.LJTI14_0
	.long	.LBB14_99-.LJTI14_0
	.long	.LBB14_83-.LJTI14_0
	.long	.LBB14_105-.LJTI14_0
	.long	.LBB14_105-.LJTI14_0
	.long	.LBB14_105-.LJTI14_0
	.long	.LBB14_105-.LJTI14_0
	.long	.LBB14_105-.LJTI14_0
	.long	.LBB14_105-.LJTI14_0
	.long	.LBB14_105-.LJTI14_0
	.long	.LBB14_105-.LJTI14_0
	.long	.LBB14_105-.LJTI14_0
	.long	.LBB14_93-.LJTI14_0
	.long	.LBB14_105-.LJTI14_0
	.long	.LBB14_105-.LJTI14_0
	.long	.LBB14_105-.LJTI14_0
	.long	.LBB14_105-.LJTI14_0
	.long	.LBB14_105-.LJTI14_0
	.long	.LBB14_105-.LJTI14_0
	.long	.LBB14_105-.LJTI14_0
	.long	.LBB14_95-.LJTI14_0
	.long	.LBB14_105-.LJTI14_0
	.long	.LBB14_105-.LJTI14_0
	.long	.LBB14_105-.LJTI14_0
	.long	.LBB14_105-.LJTI14_0
	.long	.LBB14_105-.LJTI14_0
	.long	.LBB14_97-.LJTI14_0
	.long	.LBB14_105-.LJTI14_0
	.long	.LBB14_105-.LJTI14_0
	.long	.LBB14_105-.LJTI14_0
	.long	.LBB14_105-.LJTI14_0
	.long	.LBB14_105-.LJTI14_0
	.long	.LBB14_105-.LJTI14_0
	.long	.LBB14_102-.LJTI14_0
.LJTI14_1:
	.long	.LBB14_119-.LJTI14_1
	.long	.LBB14_131-.LJTI14_1
	.long	.LBB14_131-.LJTI14_1
	.long	.LBB14_131-.LJTI14_1
	.long	.LBB14_131-.LJTI14_1
	.long	.LBB14_131-.LJTI14_1
	.long	.LBB14_131-.LJTI14_1
	.long	.LBB14_131-.LJTI14_1
	.long	.LBB14_131-.LJTI14_1
	.long	.LBB14_131-.LJTI14_1
	.long	.LBB14_65-.LJTI14_1
	.long	.LBB14_131-.LJTI14_1
	.long	.LBB14_131-.LJTI14_1
	.long	.LBB14_131-.LJTI14_1
	.long	.LBB14_131-.LJTI14_1
	.long	.LBB14_131-.LJTI14_1
	.long	.LBB14_131-.LJTI14_1
	.long	.LBB14_131-.LJTI14_1
	.long	.LBB14_131-.LJTI14_1
	.long	.LBB14_131-.LJTI14_1
	.long	.LBB14_131-.LJTI14_1
	.long	.LBB14_131-.LJTI14_1
	.long	.LBB14_131-.LJTI14_1
	.long	.LBB14_131-.LJTI14_1
	.long	.LBB14_65-.LJTI14_1
	.long	.LBB14_131-.LJTI14_1
	.long	.LBB14_131-.LJTI14_1
	.long	.LBB14_131-.LJTI14_1
	.long	.LBB14_131-.LJTI14_1
	.long	.LBB14_131-.LJTI14_1
	.long	.LBB14_131-.LJTI14_1
	.long	.LBB14_131-.LJTI14_1
	.long	.LBB14_131-.LJTI14_1
	.long	.LBB14_131-.LJTI14_1
	.long	.LBB14_131-.LJTI14_1
	.long	.LBB14_131-.LJTI14_1
	.long	.LBB14_131-.LJTI14_1
	.long	.LBB14_131-.LJTI14_1
	.long	.LBB14_131-.LJTI14_1
	.long	.LBB14_131-.LJTI14_1
	.long	.LBB14_131-.LJTI14_1
	.long	.LBB14_131-.LJTI14_1
	.long	.LBB14_131-.LJTI14_1
	.long	.LBB14_131-.LJTI14_1
	.long	.LBB14_131-.LJTI14_1
	.long	.LBB14_131-.LJTI14_1
	.long	.LBB14_131-.LJTI14_1
	.long	.LBB14_131-.LJTI14_1
	.long	.LBB14_131-.LJTI14_1
	.long	.LBB14_131-.LJTI14_1
	.long	.LBB14_131-.LJTI14_1
	.long	.LBB14_131-.LJTI14_1
	.long	.LBB14_131-.LJTI14_1
	.long	.LBB14_131-.LJTI14_1
	.long	.LBB14_131-.LJTI14_1
	.long	.LBB14_131-.LJTI14_1
	.long	.LBB14_131-.LJTI14_1
	.long	.LBB14_125-.LJTI14_1
	.long	.LBB14_65-.LJTI14_1
	.long	.LBB14_131-.LJTI14_1
	.long	.LBB14_131-.LJTI14_1
	.long	.LBB14_131-.LJTI14_1
	.long	.LBB14_131-.LJTI14_1
	.long	.LBB14_131-.LJTI14_1
	.long	.LBB14_131-.LJTI14_1
	.long	.LBB14_131-.LJTI14_1
	.long	.LBB14_131-.LJTI14_1
	.long	.LBB14_131-.LJTI14_1
	.long	.LBB14_113-.LJTI14_1
	.long	.LBB14_131-.LJTI14_1
	.long	.LBB14_131-.LJTI14_1
	.long	.LBB14_131-.LJTI14_1
	.long	.LBB14_131-.LJTI14_1
	.long	.LBB14_131-.LJTI14_1
	.long	.LBB14_131-.LJTI14_1
	.long	.LBB14_131-.LJTI14_1
	.long	.LBB14_115-.LJTI14_1
	.long	.LBB14_131-.LJTI14_1
	.long	.LBB14_131-.LJTI14_1
	.long	.LBB14_131-.LJTI14_1
	.long	.LBB14_131-.LJTI14_1
	.long	.LBB14_131-.LJTI14_1
	.long	.LBB14_117-.LJTI14_1
	.long	.LBB14_131-.LJTI14_1
	.long	.LBB14_131-.LJTI14_1
	.long	.LBB14_131-.LJTI14_1
	.long	.LBB14_131-.LJTI14_1
	.long	.LBB14_131-.LJTI14_1
	.long	.LBB14_131-.LJTI14_1
	.long	.LBB14_128-.LJTI14_1
.LJTI14_2:
	.long	.LBB14_44-.LJTI14_2
	.long	.LBB14_530-.LJTI14_2
	.long	.LBB14_90-.LJTI14_2
	.long	.LBB14_530-.LJTI14_2
	.long	.LBB14_530-.LJTI14_2
	.long	.LBB14_345-.LJTI14_2
	.long	.LBB14_378-.LJTI14_2
	.long	.LBB14_381-.LJTI14_2
	.long	.LBB14_382-.LJTI14_2
	.long	.LBB14_530-.LJTI14_2

	.section	.text.std_alloc__vec__Vec__remove____992c4ce9cbd9eb37_,"ax",@progbits
	.p2align	4
	.type	std_alloc__vec__Vec__remove____992c4ce9cbd9eb37_,@function
std_alloc__vec__Vec__remove____992c4ce9cbd9eb37_:
	pushq	%r14
	pushq	%rbx
	movq	(%rsi), %rax
	movq	8(%rsi), %r11
	movq	16(%rsi), %rcx
	xorps	%xmm0, %xmm0
	movups	%xmm0, 8(%rsi)
	leaq	(,%rdx,8), %r8
	leaq	(%r8,%r8,2), %r9
	movq	16(%rax,%r9), %r8
	movq	%r8, -8(%rsp)
	movups	(%rax,%r9), %xmm0
	movaps	%xmm0, -24(%rsp)
	leaq	-1(%r11), %r8
	movq	%r8, %r10
	subq	%rdx, %r10
	cmpq	$86, %r10
	jb	.LBB15_5
	xorl	%ebx, %ebx
	.p2align	4
.LBB15_2:
	movq	40(%rax,%r9), %r14
	movq	%r14, 16(%rax,%r9)
	movups	24(%rax,%r9), %xmm0
	movups	%xmm0, (%rax,%r9)
	movups	48(%rax,%r9), %xmm0
	movups	%xmm0, 24(%rax,%r9)
	movq	64(%rax,%r9), %r14
	movq	%r14, 40(%rax,%r9)
	movups	72(%rax,%r9), %xmm0
	movups	%xmm0, 48(%rax,%r9)
	movq	88(%rax,%r9), %r14
	movq	%r14, 64(%rax,%r9)
	movups	96(%rax,%r9), %xmm0
	movups	%xmm0, 72(%rax,%r9)
	movq	112(%rax,%r9), %r14
	movq	%r14, 88(%rax,%r9)
	movq	136(%rax,%r9), %r14
	movq	%r14, 112(%rax,%r9)
	movups	120(%rax,%r9), %xmm0
	movups	%xmm0, 96(%rax,%r9)
	movq	160(%rax,%r9), %r14
	movq	%r14, 136(%rax,%r9)
	movups	144(%rax,%r9), %xmm0
	movups	%xmm0, 120(%rax,%r9)
	movq	184(%rax,%r9), %r14
	movq	%r14, 160(%rax,%r9)
	movups	168(%rax,%r9), %xmm0
	movups	%xmm0, 144(%rax,%r9)
	movq	208(%rax,%r9), %r14
	movq	%r14, 184(%rax,%r9)
	movups	192(%rax,%r9), %xmm0
	movups	%xmm0, 168(%rax,%r9)
	movq	232(%rax,%r9), %r14
	movq	%r14, 208(%rax,%r9)
	movups	216(%rax,%r9), %xmm0
	movups	%xmm0, 192(%rax,%r9)
	movq	256(%rax,%r9), %r14
	movq	%r14, 232(%rax,%r9)
	movups	240(%rax,%r9), %xmm0
	movups	%xmm0, 216(%rax,%r9)
	movq	280(%rax,%r9), %r14
	movq	%r14, 256(%rax,%r9)
	movups	264(%rax,%r9), %xmm0
	movups	%xmm0, 240(%rax,%r9)
	movq	304(%rax,%r9), %r14
	movq	%r14, 280(%rax,%r9)
	movups	288(%rax,%r9), %xmm0
	movups	%xmm0, 264(%rax,%r9)
	movq	328(%rax,%r9), %r14
	movq	%r14, 304(%rax,%r9)
	movups	312(%rax,%r9), %xmm0
	movups	%xmm0, 288(%rax,%r9)
	movq	352(%rax,%r9), %r14
	movq	%r14, 328(%rax,%r9)
	movups	336(%rax,%r9), %xmm0
	movups	%xmm0, 312(%rax,%r9)
	movq	376(%rax,%r9), %r14
	movq	%r14, 352(%rax,%r9)
	movups	360(%rax,%r9), %xmm0
	movups	%xmm0, 336(%rax,%r9)
	movq	400(%rax,%r9), %r14
	movq	%r14, 376(%rax,%r9)
	movups	384(%rax,%r9), %xmm0
	movups	%xmm0, 360(%rax,%r9)
	movq	424(%rax,%r9), %r14
	movq	%r14, 400(%rax,%r9)
	movups	408(%rax,%r9), %xmm0
	movups	%xmm0, 384(%rax,%r9)
	movq	448(%rax,%r9), %r14
	movq	%r14, 424(%rax,%r9)
	movups	432(%rax,%r9), %xmm0
	movups	%xmm0, 408(%rax,%r9)
	movq	472(%rax,%r9), %r14
	movq	%r14, 448(%rax,%r9)
	movups	456(%rax,%r9), %xmm0
	movups	%xmm0, 432(%rax,%r9)
	movq	496(%rax,%r9), %r14
	movq	%r14, 472(%rax,%r9)
	movups	480(%rax,%r9), %xmm0
	movups	%xmm0, 456(%rax,%r9)
	movq	520(%rax,%r9), %r14
	movq	%r14, 496(%rax,%r9)
	movups	504(%rax,%r9), %xmm0
	movups	%xmm0, 480(%rax,%r9)
	movq	544(%rax,%r9), %r14
	movq	%r14, 520(%rax,%r9)
	movups	528(%rax,%r9), %xmm0
	movups	%xmm0, 504(%rax,%r9)
	movq	568(%rax,%r9), %r14
	movq	%r14, 544(%rax,%r9)
	movups	552(%rax,%r9), %xmm0
	movups	%xmm0, 528(%rax,%r9)
	movq	592(%rax,%r9), %r14
	movq	%r14, 568(%rax,%r9)
	movups	576(%rax,%r9), %xmm0
	movups	%xmm0, 552(%rax,%r9)
	movq	616(%rax,%r9), %r14
	movq	%r14, 592(%rax,%r9)
	movups	600(%rax,%r9), %xmm0
	movups	%xmm0, 576(%rax,%r9)
	movq	640(%rax,%r9), %r14
	movq	%r14, 616(%rax,%r9)
	movups	624(%rax,%r9), %xmm0
	movups	%xmm0, 600(%rax,%r9)
	movq	664(%rax,%r9), %r14
	movq	%r14, 640(%rax,%r9)
	movups	648(%rax,%r9), %xmm0
	movups	%xmm0, 624(%rax,%r9)
	movq	688(%rax,%r9), %r14
	movq	%r14, 664(%rax,%r9)
	movups	672(%rax,%r9), %xmm0
	movups	%xmm0, 648(%rax,%r9)
	movq	712(%rax,%r9), %r14
	movq	%r14, 688(%rax,%r9)
	movups	696(%rax,%r9), %xmm0
	movups	%xmm0, 672(%rax,%r9)
	movq	736(%rax,%r9), %r14
	movq	%r14, 712(%rax,%r9)
	movups	720(%rax,%r9), %xmm0
	movups	%xmm0, 696(%rax,%r9)
	movq	760(%rax,%r9), %r14
	movq	%r14, 736(%rax,%r9)
	movups	744(%rax,%r9), %xmm0
	movups	%xmm0, 720(%rax,%r9)
	movq	784(%rax,%r9), %r14
	movq	%r14, 760(%rax,%r9)
	movups	768(%rax,%r9), %xmm0
	movups	%xmm0, 744(%rax,%r9)
	movq	808(%rax,%r9), %r14
	movq	%r14, 784(%rax,%r9)
	movups	792(%rax,%r9), %xmm0
	movups	%xmm0, 768(%rax,%r9)
	movq	832(%rax,%r9), %r14
	movq	%r14, 808(%rax,%r9)
	movups	816(%rax,%r9), %xmm0
	movups	%xmm0, 792(%rax,%r9)
	movq	856(%rax,%r9), %r14
	movq	%r14, 832(%rax,%r9)
	movups	840(%rax,%r9), %xmm0
	movups	%xmm0, 816(%rax,%r9)
	movq	880(%rax,%r9), %r14
	movq	%r14, 856(%rax,%r9)
	movups	864(%rax,%r9), %xmm0
	movups	%xmm0, 840(%rax,%r9)
	movq	904(%rax,%r9), %r14
	movq	%r14, 880(%rax,%r9)
	movups	888(%rax,%r9), %xmm0
	movups	%xmm0, 864(%rax,%r9)
	movq	928(%rax,%r9), %r14
	movq	%r14, 904(%rax,%r9)
	movups	912(%rax,%r9), %xmm0
	movups	%xmm0, 888(%rax,%r9)
	movq	952(%rax,%r9), %r14
	movq	%r14, 928(%rax,%r9)
	movups	936(%rax,%r9), %xmm0
	movups	%xmm0, 912(%rax,%r9)
	movq	976(%rax,%r9), %r14
	movq	%r14, 952(%rax,%r9)
	movups	960(%rax,%r9), %xmm0
	movups	%xmm0, 936(%rax,%r9)
	movq	1000(%rax,%r9), %r14
	movq	%r14, 976(%rax,%r9)
	movups	984(%rax,%r9), %xmm0
	movups	%xmm0, 960(%rax,%r9)
	movq	1024(%rax,%r9), %r14
	movq	%r14, 1000(%rax,%r9)
	movups	1008(%rax,%r9), %xmm0
	movups	%xmm0, 984(%rax,%r9)
	movq	1048(%rax,%r9), %r14
	movq	%r14, 1024(%rax,%r9)
	movups	1032(%rax,%r9), %xmm0
	movups	%xmm0, 1008(%rax,%r9)
	movq	1072(%rax,%r9), %r14
	movq	%r14, 1048(%rax,%r9)
	movups	1056(%rax,%r9), %xmm0
	movups	%xmm0, 1032(%rax,%r9)
	movq	1096(%rax,%r9), %r14
	movq	%r14, 1072(%rax,%r9)
	movups	1080(%rax,%r9), %xmm0
	movups	%xmm0, 1056(%rax,%r9)
	movq	1120(%rax,%r9), %r14
	movq	%r14, 1096(%rax,%r9)
	movups	1104(%rax,%r9), %xmm0
	movups	%xmm0, 1080(%rax,%r9)
	movq	1144(%rax,%r9), %r14
	movq	%r14, 1120(%rax,%r9)
	movups	1128(%rax,%r9), %xmm0
	movups	%xmm0, 1104(%rax,%r9)
	movq	1168(%rax,%r9), %r14
	movq	%r14, 1144(%rax,%r9)
	movups	1152(%rax,%r9), %xmm0
	movups	%xmm0, 1128(%rax,%r9)
	movq	1192(%rax,%r9), %r14
	movq	%r14, 1168(%rax,%r9)
	movups	1176(%rax,%r9), %xmm0
	movups	%xmm0, 1152(%rax,%r9)
	movq	1216(%rax,%r9), %r14
	movq	%r14, 1192(%rax,%r9)
	movups	1200(%rax,%r9), %xmm0
	movups	%xmm0, 1176(%rax,%r9)
	movq	1240(%rax,%r9), %r14
	movq	%r14, 1216(%rax,%r9)
	movups	1224(%rax,%r9), %xmm0
	movups	%xmm0, 1200(%rax,%r9)
	movq	1264(%rax,%r9), %r14
	movq	%r14, 1240(%rax,%r9)
	movups	1248(%rax,%r9), %xmm0
	movups	%xmm0, 1224(%rax,%r9)
	movq	1288(%rax,%r9), %r14
	movq	%r14, 1264(%rax,%r9)
	movups	1272(%rax,%r9), %xmm0
	movups	%xmm0, 1248(%rax,%r9)
	movq	1312(%rax,%r9), %r14
	movq	%r14, 1288(%rax,%r9)
	movups	1296(%rax,%r9), %xmm0
	movups	%xmm0, 1272(%rax,%r9)
	movq	1336(%rax,%r9), %r14
	movq	%r14, 1312(%rax,%r9)
	movups	1320(%rax,%r9), %xmm0
	movups	%xmm0, 1296(%rax,%r9)
	movq	1360(%rax,%r9), %r14
	movq	%r14, 1336(%rax,%r9)
	movups	1344(%rax,%r9), %xmm0
	movups	%xmm0, 1320(%rax,%r9)
	movq	1384(%rax,%r9), %r14
	movq	%r14, 1360(%rax,%r9)
	movups	1368(%rax,%r9), %xmm0
	movups	%xmm0, 1344(%rax,%r9)
	movq	1408(%rax,%r9), %r14
	movq	%r14, 1384(%rax,%r9)
	movups	1392(%rax,%r9), %xmm0
	movups	%xmm0, 1368(%rax,%r9)
	movq	1432(%rax,%r9), %r14
	movq	%r14, 1408(%rax,%r9)
	movups	1416(%rax,%r9), %xmm0
	movups	%xmm0, 1392(%rax,%r9)
	movq	1456(%rax,%r9), %r14
	movq	%r14, 1432(%rax,%r9)
	movups	1440(%rax,%r9), %xmm0
	movups	%xmm0, 1416(%rax,%r9)
	movq	1480(%rax,%r9), %r14
	movq	%r14, 1456(%rax,%r9)
	movups	1464(%rax,%r9), %xmm0
	movups	%xmm0, 1440(%rax,%r9)
	movq	1504(%rax,%r9), %r14
	movq	%r14, 1480(%rax,%r9)
	movups	1488(%rax,%r9), %xmm0
	movups	%xmm0, 1464(%rax,%r9)
	movq	1528(%rax,%r9), %r14
	movq	%r14, 1504(%rax,%r9)
	movups	1512(%rax,%r9), %xmm0
	movups	%xmm0, 1488(%rax,%r9)
	movq	1552(%rax,%r9), %r14
	movq	%r14, 1528(%rax,%r9)
	movups	1536(%rax,%r9), %xmm0
	movups	%xmm0, 1512(%rax,%r9)
	movq	1576(%rax,%r9), %r14
	movq	%r14, 1552(%rax,%r9)
	movups	1560(%rax,%r9), %xmm0
	movups	%xmm0, 1536(%rax,%r9)
	movq	1600(%rax,%r9), %r14
	movq	%r14, 1576(%rax,%r9)
	movups	1584(%rax,%r9), %xmm0
	movups	%xmm0, 1560(%rax,%r9)
	movq	1624(%rax,%r9), %r14
	movq	%r14, 1600(%rax,%r9)
	movups	1608(%rax,%r9), %xmm0
	movups	%xmm0, 1584(%rax,%r9)
	movq	1648(%rax,%r9), %r14
	movq	%r14, 1624(%rax,%r9)
	movups	1632(%rax,%r9), %xmm0
	movups	%xmm0, 1608(%rax,%r9)
	movq	1672(%rax,%r9), %r14
	movq	%r14, 1648(%rax,%r9)
	movups	1656(%rax,%r9), %xmm0
	movups	%xmm0, 1632(%rax,%r9)
	movq	1696(%rax,%r9), %r14
	movq	%r14, 1672(%rax,%r9)
	movups	1680(%rax,%r9), %xmm0
	movups	%xmm0, 1656(%rax,%r9)
	movq	1720(%rax,%r9), %r14
	movq	%r14, 1696(%rax,%r9)
	movups	1704(%rax,%r9), %xmm0
	movups	%xmm0, 1680(%rax,%r9)
	movq	1744(%rax,%r9), %r14
	movq	%r14, 1720(%rax,%r9)
	movups	1728(%rax,%r9), %xmm0
	movups	%xmm0, 1704(%rax,%r9)
	movq	1768(%rax,%r9), %r14
	movq	%r14, 1744(%rax,%r9)
	movups	1752(%rax,%r9), %xmm0
	movups	%xmm0, 1728(%rax,%r9)
	movq	1792(%rax,%r9), %r14
	movq	%r14, 1768(%rax,%r9)
	movups	1776(%rax,%r9), %xmm0
	movups	%xmm0, 1752(%rax,%r9)
	movq	1816(%rax,%r9), %r14
	movq	%r14, 1792(%rax,%r9)
	movups	1800(%rax,%r9), %xmm0
	movups	%xmm0, 1776(%rax,%r9)
	movq	1840(%rax,%r9), %r14
	movq	%r14, 1816(%rax,%r9)
	movups	1824(%rax,%r9), %xmm0
	movups	%xmm0, 1800(%rax,%r9)
	movq	1864(%rax,%r9), %r14
	movq	%r14, 1840(%rax,%r9)
	movups	1848(%rax,%r9), %xmm0
	movups	%xmm0, 1824(%rax,%r9)
	movq	1888(%rax,%r9), %r14
	movq	%r14, 1864(%rax,%r9)
	movups	1872(%rax,%r9), %xmm0
	movups	%xmm0, 1848(%rax,%r9)
	movq	1912(%rax,%r9), %r14
	movq	%r14, 1888(%rax,%r9)
	movups	1896(%rax,%r9), %xmm0
	movups	%xmm0, 1872(%rax,%r9)
	movq	1936(%rax,%r9), %r14
	movq	%r14, 1912(%rax,%r9)
	movups	1920(%rax,%r9), %xmm0
	movups	%xmm0, 1896(%rax,%r9)
	movq	1960(%rax,%r9), %r14
	movq	%r14, 1936(%rax,%r9)
	movups	1944(%rax,%r9), %xmm0
	movups	%xmm0, 1920(%rax,%r9)
	movq	1984(%rax,%r9), %r14
	movq	%r14, 1960(%rax,%r9)
	movups	1968(%rax,%r9), %xmm0
	movups	%xmm0, 1944(%rax,%r9)
	movq	2008(%rax,%r9), %r14
	movq	%r14, 1984(%rax,%r9)
	movups	1992(%rax,%r9), %xmm0
	movups	%xmm0, 1968(%rax,%r9)
	movq	2032(%rax,%r9), %r14
	movq	%r14, 2008(%rax,%r9)
	movups	2016(%rax,%r9), %xmm0
	movups	%xmm0, 1992(%rax,%r9)
	movq	2056(%rax,%r9), %r14
	movq	%r14, 2032(%rax,%r9)
	movups	2040(%rax,%r9), %xmm0
	movups	%xmm0, 2016(%rax,%r9)
	addq	$2040, %r9
	leaq	(%r10,%rbx), %r14
	addq	$-85, %r14
	addq	$-85, %rbx
	cmpq	$85, %r14
	ja	.LBB15_2
	leaq	1(%rdx), %r14
	subq	%rbx, %rdx
	cmpq	%rbx, %r14
	jne	.LBB15_4
	testq	%r11, %r11
	je	.LBB15_16
	addq	$-85, %rdx
	leaq	(%r11,%r11,2), %r9
	addq	$-86, %r11
	leaq	(%rax,%r9,8), %r9
	addq	$-24, %r9
	.p2align	4
.LBB15_15:
	movq	16(%r9), %r10
	movq	%r10, -8(%r9)
	movups	(%r9), %xmm0
	movups	%xmm0, -24(%r9)
	addq	$-24, %r9
	decq	%r11
	cmpq	%r11, %rdx
	jne	.LBB15_15
	jmp	.LBB15_16
.LBB15_4:
	addq	%rbx, %r10
.LBB15_5:
	cmpq	%rdx, %r8
	je	.LBB15_16
	leaq	-1(%r10), %r11
	movl	%r10d, %edx
	andl	$3, %edx
	cmpq	$3, %r11
	jae	.LBB15_8
	xorl	%r11d, %r11d
	jmp	.LBB15_11
.LBB15_8:
	andl	$124, %r10d
	leaq	(%rax,%r9), %rbx
	xorl	%r11d, %r11d
	.p2align	4
.LBB15_9:
	movq	40(%rbx), %r14
	movq	%r14, 16(%rbx)
	movups	24(%rbx), %xmm0
	movups	%xmm0, (%rbx)
	movups	48(%rbx), %xmm0
	movups	%xmm0, 24(%rbx)
	movq	64(%rbx), %r14
	movq	%r14, 40(%rbx)
	movups	72(%rbx), %xmm0
	movups	%xmm0, 48(%rbx)
	movq	88(%rbx), %r14
	movq	%r14, 64(%rbx)
	movups	96(%rbx), %xmm0
	movups	%xmm0, 72(%rbx)
	movq	112(%rbx), %r14
	movq	%r14, 88(%rbx)
	addq	$96, %rbx
	addq	$4, %r11
	cmpq	%r11, %r10
	jne	.LBB15_9
	testq	%rdx, %rdx
	je	.LBB15_16
.LBB15_11:
	leaq	(%r11,%r11,2), %r10
	leaq	(%r9,%r10,8), %r9
	addq	%rax, %r9
	shll	$3, %edx
	leaq	(%rdx,%rdx,2), %rdx
	xorl	%r10d, %r10d
	.p2align	4
.LBB15_12:
	movq	40(%r9,%r10), %r11
	movq	%r11, 16(%r9,%r10)
	movups	24(%r9,%r10), %xmm0
	movups	%xmm0, (%r9,%r10)
	addq	$24, %r10
	cmpq	%r10, %rdx
	jne	.LBB15_12
.LBB15_16:
	movq	%rax, (%rsi)
	movq	%r8, 8(%rsi)
	movq	%rcx, 16(%rsi)
	movq	-8(%rsp), %rax
	movq	%rax, 16(%rdi)
	movaps	-24(%rsp), %xmm0
	movups	%xmm0, (%rdi)
	popq	%rbx
	popq	%r14
	retq
.Lfunc_end15:
	.size	std_alloc__vec__Vec__remove____992c4ce9cbd9eb37_, .Lfunc_end15-std_alloc__vec__Vec__remove____992c4ce9cbd9eb37_

	.section	.rodata.cst16,"aM",@progbits,16
	.p2align	4, 0x0
.LCPI16_0:
	.long	1
	.long	0
	.long	0
	.long	0
	.section	.text.std_alloc__vec__lodged__Vec_T_Lodged__insert_reserved____483ec8513fd57e54_,"ax",@progbits
	.p2align	4
	.type	std_alloc__vec__lodged__Vec_T_Lodged__insert_reserved____483ec8513fd57e54_,@function
std_alloc__vec__lodged__Vec_T_Lodged__insert_reserved____483ec8513fd57e54_:
	pushq	%r14
	pushq	%rbx
	movq	16(%rdx), %rax
	movq	%rax, -8(%rsp)
	movups	(%rdx), %xmm0
	movaps	%xmm0, -24(%rsp)
	movq	(%rdi), %rax
	movq	8(%rdi), %rcx
	movdqu	8(%rdi), %xmm0
	xorps	%xmm1, %xmm1
	movups	%xmm1, 8(%rdi)
	movq	%rsi, %r10
	incq	%r10
	je	.LBB16_1
	cmpq	%rsi, %rcx
	je	.LBB16_27
	movq	%rcx, %rdx
	subq	%rsi, %rdx
	leaq	(%rsi,%rsi,2), %r8
	leaq	(%rax,%r8,8), %r8
	leaq	(%r10,%r10,2), %r9
	leaq	(%rax,%r9,8), %r9
	cmpq	%r10, %rcx
	jne	.LBB16_23
	xorl	%ecx, %ecx
	jmp	.LBB16_26
.LBB16_1:
	leaq	1(%rcx), %rdx
	cmpq	$86, %rdx
	jb	.LBB16_12
	xorl	%r10d, %r10d
	movq	%rax, %r9
	jmp	.LBB16_3
	.p2align	4
.LBB16_7:
	leaq	(%r8,%r8,2), %r10
	leaq	(%rax,%r10,8), %r10
	movq	-8(%r10), %r11
	movq	%r11, 16(%r10)
	movups	-24(%r10), %xmm1
	movups	%xmm1, (%r10)
	movq	-8(%r10), %r11
	movq	%r11, 40(%r10)
	movups	-24(%r10), %xmm1
	movups	%xmm1, 24(%r10)
	movq	-8(%r10), %r11
	movq	%r11, 64(%r10)
	movups	-24(%r10), %xmm1
	movups	%xmm1, 48(%r10)
	movq	-8(%r10), %r11
	movq	%r11, 88(%r10)
	movups	-24(%r10), %xmm1
	movups	%xmm1, 72(%r10)
	movq	-8(%r10), %r11
	movq	%r11, 112(%r10)
	movups	-24(%r10), %xmm1
	movups	%xmm1, 96(%r10)
	movups	-24(%r10), %xmm1
	movups	%xmm1, 120(%r10)
	movq	-8(%r10), %r11
	movq	%r11, 136(%r10)
	movups	-24(%r10), %xmm1
	movups	%xmm1, 144(%r10)
	movq	-8(%r10), %r11
	movq	%r11, 160(%r10)
	movq	-8(%r10), %r11
	movq	%r11, 184(%r10)
	movups	-24(%r10), %xmm1
	movups	%xmm1, 168(%r10)
	movups	-24(%r10), %xmm1
	movups	%xmm1, 192(%r10)
	movq	-8(%r10), %r11
	movq	%r11, 208(%r10)
	movups	-24(%r10), %xmm1
	movups	%xmm1, 216(%r10)
	movq	-8(%r10), %r11
	movq	%r11, 232(%r10)
	movq	-8(%r10), %r11
	movq	%r11, 256(%r10)
	movups	-24(%r10), %xmm1
	movups	%xmm1, 240(%r10)
	movq	-8(%r10), %r11
	movq	%r11, 280(%r10)
	movups	-24(%r10), %xmm1
	movups	%xmm1, 264(%r10)
	movups	-24(%r10), %xmm1
	movups	%xmm1, 288(%r10)
	movq	-8(%r10), %r11
	movq	%r11, 304(%r10)
	movups	-24(%r10), %xmm1
	movups	%xmm1, 312(%r10)
	movq	-8(%r10), %r11
	movq	%r11, 328(%r10)
	movups	-24(%r10), %xmm1
	movups	%xmm1, 336(%r10)
	movq	-8(%r10), %r11
	movq	%r11, 352(%r10)
	movq	-8(%r10), %r11
	movq	%r11, 376(%r10)
	movups	-24(%r10), %xmm1
	movups	%xmm1, 360(%r10)
	movups	-24(%r10), %xmm1
	movups	%xmm1, 384(%r10)
	movq	-8(%r10), %r11
	movq	%r11, 400(%r10)
	movups	-24(%r10), %xmm1
	movups	%xmm1, 408(%r10)
	movq	-8(%r10), %r11
	movq	%r11, 424(%r10)
	movups	-24(%r10), %xmm1
	movups	%xmm1, 432(%r10)
	movq	-8(%r10), %r11
	movq	%r11, 448(%r10)
	movq	-8(%r10), %r11
	movq	%r11, 472(%r10)
	movups	-24(%r10), %xmm1
	movups	%xmm1, 456(%r10)
	movups	-24(%r10), %xmm1
	movups	%xmm1, 480(%r10)
	movq	-8(%r10), %r11
	movq	%r11, 496(%r10)
	movups	-24(%r10), %xmm1
	movups	%xmm1, 504(%r10)
	movq	-8(%r10), %r11
	movq	%r11, 520(%r10)
	movups	-24(%r10), %xmm1
	movups	%xmm1, 528(%r10)
	movq	-8(%r10), %r11
	movq	%r11, 544(%r10)
	movq	-8(%r10), %r11
	movq	%r11, 568(%r10)
	movups	-24(%r10), %xmm1
	movups	%xmm1, 552(%r10)
	movups	-24(%r10), %xmm1
	movups	%xmm1, 576(%r10)
	movq	-8(%r10), %r11
	movq	%r11, 592(%r10)
	movups	-24(%r10), %xmm1
	movups	%xmm1, 600(%r10)
	movq	-8(%r10), %r11
	movq	%r11, 616(%r10)
	movups	-24(%r10), %xmm1
	movups	%xmm1, 624(%r10)
	movq	-8(%r10), %r11
	movq	%r11, 640(%r10)
	movq	-8(%r10), %r11
	movq	%r11, 664(%r10)
	movups	-24(%r10), %xmm1
	movups	%xmm1, 648(%r10)
	movups	-24(%r10), %xmm1
	movups	%xmm1, 672(%r10)
	movq	-8(%r10), %r11
	movq	%r11, 688(%r10)
	movups	-24(%r10), %xmm1
	movups	%xmm1, 696(%r10)
	movq	-8(%r10), %r11
	movq	%r11, 712(%r10)
	movups	-24(%r10), %xmm1
	movups	%xmm1, 720(%r10)
	movq	-8(%r10), %r11
	movq	%r11, 736(%r10)
	movq	-8(%r10), %r11
	movq	%r11, 760(%r10)
	movups	-24(%r10), %xmm1
	movups	%xmm1, 744(%r10)
	movups	-24(%r10), %xmm1
	movups	%xmm1, 768(%r10)
	movq	-8(%r10), %r11
	movq	%r11, 784(%r10)
	movups	-24(%r10), %xmm1
	movups	%xmm1, 792(%r10)
	movq	-8(%r10), %r11
	movq	%r11, 808(%r10)
	movups	-24(%r10), %xmm1
	movups	%xmm1, 816(%r10)
	movq	-8(%r10), %r11
	movq	%r11, 832(%r10)
	movq	-8(%r10), %r11
	movq	%r11, 856(%r10)
	movups	-24(%r10), %xmm1
	movups	%xmm1, 840(%r10)
	movups	-24(%r10), %xmm1
	movups	%xmm1, 864(%r10)
	movq	-8(%r10), %r11
	movq	%r11, 880(%r10)
	movups	-24(%r10), %xmm1
	movups	%xmm1, 888(%r10)
	movq	-8(%r10), %r11
	movq	%r11, 904(%r10)
	movups	-24(%r10), %xmm1
	movups	%xmm1, 912(%r10)
	movq	-8(%r10), %r11
	movq	%r11, 928(%r10)
	movq	-8(%r10), %r11
	movq	%r11, 952(%r10)
	movups	-24(%r10), %xmm1
	movups	%xmm1, 936(%r10)
	movups	-24(%r10), %xmm1
	movups	%xmm1, 960(%r10)
	movq	-8(%r10), %r11
	movq	%r11, 976(%r10)
	movups	-24(%r10), %xmm1
	movups	%xmm1, 984(%r10)
	movq	-8(%r10), %r11
	movq	%r11, 1000(%r10)
	movups	-24(%r10), %xmm1
	movups	%xmm1, 1008(%r10)
	movq	-8(%r10), %r11
	movq	%r11, 1024(%r10)
	movq	-8(%r10), %r11
	movq	%r11, 1048(%r10)
	movups	-24(%r10), %xmm1
	movups	%xmm1, 1032(%r10)
	movups	-24(%r10), %xmm1
	movups	%xmm1, 1056(%r10)
	movq	-8(%r10), %r11
	movq	%r11, 1072(%r10)
	movups	-24(%r10), %xmm1
	movups	%xmm1, 1080(%r10)
	movq	-8(%r10), %r11
	movq	%r11, 1096(%r10)
	movups	-24(%r10), %xmm1
	movups	%xmm1, 1104(%r10)
	movq	-8(%r10), %r11
	movq	%r11, 1120(%r10)
	movq	-8(%r10), %r11
	movq	%r11, 1144(%r10)
	movups	-24(%r10), %xmm1
	movups	%xmm1, 1128(%r10)
	movups	-24(%r10), %xmm1
	movups	%xmm1, 1152(%r10)
	movq	-8(%r10), %r11
	movq	%r11, 1168(%r10)
	movups	-24(%r10), %xmm1
	movups	%xmm1, 1176(%r10)
	movq	-8(%r10), %r11
	movq	%r11, 1192(%r10)
	movups	-24(%r10), %xmm1
	movups	%xmm1, 1200(%r10)
	movq	-8(%r10), %r11
	movq	%r11, 1216(%r10)
	movq	-8(%r10), %r11
	movq	%r11, 1240(%r10)
	movups	-24(%r10), %xmm1
	movups	%xmm1, 1224(%r10)
	movups	-24(%r10), %xmm1
	movups	%xmm1, 1248(%r10)
	movq	-8(%r10), %r11
	movq	%r11, 1264(%r10)
	movups	-24(%r10), %xmm1
	movups	%xmm1, 1272(%r10)
	movq	-8(%r10), %r11
	movq	%r11, 1288(%r10)
	movups	-24(%r10), %xmm1
	movups	%xmm1, 1296(%r10)
	movq	-8(%r10), %r11
	movq	%r11, 1312(%r10)
	movq	-8(%r10), %r11
	movq	%r11, 1336(%r10)
	movups	-24(%r10), %xmm1
	movups	%xmm1, 1320(%r10)
	movups	-24(%r10), %xmm1
	movups	%xmm1, 1344(%r10)
	movq	-8(%r10), %r11
	movq	%r11, 1360(%r10)
	movups	-24(%r10), %xmm1
	movups	%xmm1, 1368(%r10)
	movq	-8(%r10), %r11
	movq	%r11, 1384(%r10)
	movups	-24(%r10), %xmm1
	movups	%xmm1, 1392(%r10)
	movq	-8(%r10), %r11
	movq	%r11, 1408(%r10)
	movq	-8(%r10), %r11
	movq	%r11, 1432(%r10)
	movups	-24(%r10), %xmm1
	movups	%xmm1, 1416(%r10)
	movups	-24(%r10), %xmm1
	movups	%xmm1, 1440(%r10)
	movq	-8(%r10), %r11
	movq	%r11, 1456(%r10)
	movups	-24(%r10), %xmm1
	movups	%xmm1, 1464(%r10)
	movq	-8(%r10), %r11
	movq	%r11, 1480(%r10)
	movups	-24(%r10), %xmm1
	movups	%xmm1, 1488(%r10)
	movq	-8(%r10), %r11
	movq	%r11, 1504(%r10)
	movq	-8(%r10), %r11
	movq	%r11, 1528(%r10)
	movups	-24(%r10), %xmm1
	movups	%xmm1, 1512(%r10)
	movups	-24(%r10), %xmm1
	movups	%xmm1, 1536(%r10)
	movq	-8(%r10), %r11
	movq	%r11, 1552(%r10)
	movups	-24(%r10), %xmm1
	movups	%xmm1, 1560(%r10)
	movq	-8(%r10), %r11
	movq	%r11, 1576(%r10)
	movups	-24(%r10), %xmm1
	movups	%xmm1, 1584(%r10)
	movq	-8(%r10), %r11
	movq	%r11, 1600(%r10)
	movq	-8(%r10), %r11
	movq	%r11, 1624(%r10)
	movups	-24(%r10), %xmm1
	movups	%xmm1, 1608(%r10)
	movups	-24(%r10), %xmm1
	movups	%xmm1, 1632(%r10)
	movq	-8(%r10), %r11
	movq	%r11, 1648(%r10)
	movups	-24(%r10), %xmm1
	movups	%xmm1, 1656(%r10)
	movq	-8(%r10), %r11
	movq	%r11, 1672(%r10)
	movups	-24(%r10), %xmm1
	movups	%xmm1, 1680(%r10)
	movq	-8(%r10), %r11
	movq	%r11, 1696(%r10)
	movq	-8(%r10), %r11
	movq	%r11, 1720(%r10)
	movups	-24(%r10), %xmm1
	movups	%xmm1, 1704(%r10)
	movups	-24(%r10), %xmm1
	movups	%xmm1, 1728(%r10)
	movq	-8(%r10), %r11
	movq	%r11, 1744(%r10)
	movups	-24(%r10), %xmm1
	movups	%xmm1, 1752(%r10)
	movq	-8(%r10), %r11
	movq	%r11, 1768(%r10)
	movups	-24(%r10), %xmm1
	movups	%xmm1, 1776(%r10)
	movq	-8(%r10), %r11
	movq	%r11, 1792(%r10)
	movq	-8(%r10), %r11
	movq	%r11, 1816(%r10)
	movups	-24(%r10), %xmm1
	movups	%xmm1, 1800(%r10)
	movups	-24(%r10), %xmm1
	movups	%xmm1, 1824(%r10)
	movq	-8(%r10), %r11
	movq	%r11, 1840(%r10)
	movups	-24(%r10), %xmm1
	movups	%xmm1, 1848(%r10)
	movq	-8(%r10), %r11
	movq	%r11, 1864(%r10)
	movups	-24(%r10), %xmm1
	movups	%xmm1, 1872(%r10)
	movq	-8(%r10), %r11
	movq	%r11, 1888(%r10)
	movq	-8(%r10), %r11
	movq	%r11, 1912(%r10)
	movups	-24(%r10), %xmm1
	movups	%xmm1, 1896(%r10)
	movups	-24(%r10), %xmm1
	movups	%xmm1, 1920(%r10)
	movq	-8(%r10), %r11
	movq	%r11, 1936(%r10)
	movups	-24(%r10), %xmm1
	movups	%xmm1, 1944(%r10)
	movq	-8(%r10), %r11
	movq	%r11, 1960(%r10)
	movups	-24(%r10), %xmm1
	movups	%xmm1, 1968(%r10)
	movq	-8(%r10), %r11
	movq	%r11, 1984(%r10)
	movq	-8(%r10), %r11
	movq	%r11, 2008(%r10)
	movups	-24(%r10), %xmm1
	movups	%xmm1, 1992(%r10)
	movups	-24(%r10), %xmm1
	movups	%xmm1, 2016(%r10)
	movq	-8(%r10), %r11
	movq	%r11, 2032(%r10)
.LBB16_8:
	leaq	85(%r8), %r10
	movq	%rdx, %r11
	subq	%r10, %r11
	addq	$2040, %r9
	cmpq	$85, %r11
	jbe	.LBB16_9
.LBB16_3:
	movq	%r10, %r8
	testq	%r10, %r10
	je	.LBB16_7
	movl	$2016, %r10d
	.p2align	4
.LBB16_5:
	movq	-8(%r9,%r10), %r11
	movq	%r11, 16(%r9,%r10)
	movups	-24(%r9,%r10), %xmm1
	movups	%xmm1, (%r9,%r10)
	testq	%r10, %r10
	je	.LBB16_8
	movq	-32(%r9,%r10), %r11
	movq	%r11, -8(%r9,%r10)
	movups	-48(%r9,%r10), %xmm1
	movups	%xmm1, -24(%r9,%r10)
	addq	$-48, %r10
	jmp	.LBB16_5
.LBB16_12:
	testq	%rdx, %rdx
	je	.LBB16_27
	movl	%edx, %r8d
	andl	$3, %r8d
	cmpq	$3, %rcx
	jae	.LBB16_15
	xorl	%ecx, %ecx
	jmp	.LBB16_18
.LBB16_9:
	cmpq	%r10, %rdx
	je	.LBB16_27
	leaq	(%rcx,%rcx,2), %rdx
	subq	%r8, %rcx
	addq	$-84, %rcx
	leaq	(%rax,%rdx,8), %rdx
	.p2align	4
.LBB16_11:
	movq	-8(%rdx), %r8
	movq	%r8, 16(%rdx)
	movups	-24(%rdx), %xmm1
	movups	%xmm1, (%rdx)
	addq	$-24, %rdx
	decq	%rcx
	jne	.LBB16_11
	jmp	.LBB16_27
.LBB16_23:
	movq	%rdx, %r10
	andq	$-2, %r10
	leaq	(%rcx,%rcx,2), %rcx
	leaq	(%rax,%rcx,8), %r11
	xorl	%ecx, %ecx
	.p2align	4
.LBB16_24:
	movq	-8(%r11), %rbx
	movq	%rbx, 16(%r11)
	movups	-24(%r11), %xmm1
	movups	%xmm1, (%r11)
	movabsq	$2305843009213693950, %rbx
	xorq	%rcx, %rbx
	addq	%rdx, %rbx
	shlq	$3, %rbx
	leaq	(%rbx,%rbx,2), %rbx
	movq	16(%r8,%rbx), %r14
	movq	%r14, 16(%r9,%rbx)
	movups	(%r8,%rbx), %xmm1
	movups	%xmm1, (%r9,%rbx)
	addq	$2, %rcx
	addq	$-48, %r11
	cmpq	%rcx, %r10
	jne	.LBB16_24
	testb	$1, %dl
	je	.LBB16_27
.LBB16_26:
	notq	%rcx
	addq	%rcx, %rdx
	shlq	$3, %rdx
	leaq	(%rdx,%rdx,2), %rcx
	movq	16(%r8,%rcx), %rdx
	movq	%rdx, 16(%r9,%rcx)
	movups	(%r8,%rcx), %xmm1
	movups	%xmm1, (%r9,%rcx)
	jmp	.LBB16_27
.LBB16_15:
	andl	$124, %edx
	leaq	(,%rsi,8), %rcx
	leaq	(%rcx,%rcx,2), %r9
	xorl	%ecx, %ecx
	movq	%rax, %r10
	.p2align	4
.LBB16_16:
	movq	16(%r10,%r9), %r11
	movq	%r11, 16(%r10)
	movups	(%r10,%r9), %xmm1
	movups	%xmm1, (%r10)
	movq	40(%r10,%r9), %r11
	movq	%r11, 40(%r10)
	movups	24(%r10,%r9), %xmm1
	movups	%xmm1, 24(%r10)
	movq	64(%r10,%r9), %r11
	movq	%r11, 64(%r10)
	movups	48(%r10,%r9), %xmm1
	movups	%xmm1, 48(%r10)
	movups	72(%r10,%r9), %xmm1
	movups	%xmm1, 72(%r10)
	movq	88(%r10,%r9), %r11
	movq	%r11, 88(%r10)
	addq	$4, %rcx
	addq	$96, %r10
	cmpq	%rcx, %rdx
	jne	.LBB16_16
	testq	%r8, %r8
	je	.LBB16_27
.LBB16_18:
	shlq	$3, %rcx
	leaq	(%rcx,%rcx,2), %rcx
	leaq	(%rsi,%rsi,2), %rdx
	leaq	(%rcx,%rdx,8), %rdx
	addq	%rax, %rdx
	addq	%rax, %rcx
	shll	$3, %r8d
	leaq	(%r8,%r8,2), %r8
	xorl	%r9d, %r9d
	.p2align	4
.LBB16_19:
	movq	16(%rdx,%r9), %r10
	movq	%r10, 16(%rcx,%r9)
	movups	(%rdx,%r9), %xmm1
	movups	%xmm1, (%rcx,%r9)
	addq	$24, %r9
	cmpq	%r9, %r8
	jne	.LBB16_19
.LBB16_27:
	leaq	(%rsi,%rsi,2), %rcx
	movq	-8(%rsp), %rdx
	movq	%rdx, 16(%rax,%rcx,8)
	movaps	-24(%rsp), %xmm1
	movups	%xmm1, (%rax,%rcx,8)
	movq	%rax, (%rdi)
	paddq	.LCPI16_0(%rip), %xmm0
	movdqu	%xmm0, 8(%rdi)
	popq	%rbx
	popq	%r14
	retq
.Lfunc_end16:
	.size	std_alloc__vec__lodged__Vec_T_Lodged__insert_reserved____483ec8513fd57e54_, .Lfunc_end16-std_alloc__vec__lodged__Vec_T_Lodged__insert_reserved____483ec8513fd57e54_

	.section	.text.std_alloc__vec__lodged__Vec_T_Lodged__insert_reserved___24_serde_json__value__Value_,"ax",@progbits
	.p2align	4
	.type	std_alloc__vec__lodged__Vec_T_Lodged__insert_reserved___24_serde_json__value__Value_,@function
std_alloc__vec__lodged__Vec_T_Lodged__insert_reserved___24_serde_json__value__Value_:
	pushq	%rbp
	pushq	%r15
	pushq	%r14
	pushq	%r13
	pushq	%r12
	pushq	%rbx
	movzbl	(%rdx), %ecx
	movzbl	1(%rdx), %r8d
	leaq	-24(%rsp), %r13
	movq	24(%rdx), %r9
	movq	%r9, -8(%rsp)
	movups	8(%rdx), %xmm0
	movups	%xmm0, -24(%rsp)
	movq	(%rdi), %rdx
	movq	8(%rdi), %r11
	movq	16(%rdi), %r9
	xorps	%xmm0, %xmm0
	movups	%xmm0, 8(%rdi)
	cmpq	$-1, %rsi
	je	.LBB17_1
	cmpq	%rsi, %r11
	je	.LBB17_28
	movq	%r11, %r10
	subq	%rsi, %r10
	movq	%rsi, %r14
	shlq	$5, %r14
	leaq	(%rdx,%r14), %rbx
	addq	%rdx, %r14
	addq	$32, %r14
	leaq	1(%rsi), %r15
	cmpq	%r15, %r11
	jne	.LBB17_24
	xorl	%r15d, %r15d
	jmp	.LBB17_27
.LBB17_1:
	leaq	1(%r11), %r10
	movq	%rdx, %rbx
	movq	%r10, %r12
	cmpq	$65, %r10
	jb	.LBB17_11
	xorl	%ebx, %ebx
	movq	%rdx, %r15
	jmp	.LBB17_3
	.p2align	4
.LBB17_8:
	leaq	64(%r14), %rbx
	movq	%r10, %r12
	subq	%rbx, %r12
	addq	$2048, %r15
	cmpq	$64, %r12
	jbe	.LBB17_9
.LBB17_3:
	movq	%rbx, %r14
	testq	%rbx, %rbx
	je	.LBB17_6
	movl	$1952, %ebx
	.p2align	4
.LBB17_5:
	movzwl	32(%r15,%rbx), %ebp
	movw	%bp, 64(%r15,%rbx)
	movups	40(%r15,%rbx), %xmm0
	movups	%xmm0, 72(%r15,%rbx)
	movq	56(%r15,%rbx), %r12
	movq	%r12, 88(%r15,%rbx)
	movzwl	(%r15,%rbx), %ebp
	movw	%bp, 32(%r15,%rbx)
	movups	8(%r15,%rbx), %xmm0
	movups	%xmm0, 40(%r15,%rbx)
	movq	24(%r15,%rbx), %r12
	movq	%r12, 56(%r15,%rbx)
	addq	$-64, %rbx
	cmpq	$-96, %rbx
	jne	.LBB17_5
	jmp	.LBB17_8
	.p2align	4
.LBB17_6:
	xorl	%ebx, %ebx
	.p2align	4
.LBB17_7:
	movzwl	-32(%r15,%rbx), %ebp
	movw	%bp, (%r15,%rbx)
	movups	-24(%r15,%rbx), %xmm0
	movups	%xmm0, 8(%r15,%rbx)
	movq	-8(%r15,%rbx), %r12
	movq	%r12, 24(%r15,%rbx)
	movw	%bp, 32(%r15,%rbx)
	movups	%xmm0, 40(%r15,%rbx)
	movq	%r12, 56(%r15,%rbx)
	addq	$64, %rbx
	cmpq	$2048, %rbx
	jne	.LBB17_7
	jmp	.LBB17_8
.LBB17_9:
	testq	%rbx, %rbx
	je	.LBB17_10
	cmpq	%rbx, %r10
	je	.LBB17_29
	movq	%r11, %rbx
	subq	%r14, %rbx
	addq	$-63, %rbx
	shlq	$5, %r11
	addq	%rdx, %r11
	.p2align	4
.LBB17_20:
	movzwl	-32(%r11), %ebp
	movw	%bp, (%r11)
	movups	-24(%r11), %xmm0
	movups	%xmm0, 8(%r11)
	movq	-8(%r11), %r14
	movq	%r14, 24(%r11)
	addq	$-32, %r11
	decq	%rbx
	jne	.LBB17_20
	jmp	.LBB17_29
.LBB17_24:
	movq	%r10, %r12
	andq	$-2, %r12
	movq	%r11, %r13
	shlq	$5, %r13
	addq	%rdx, %r13
	xorl	%r15d, %r15d
	.p2align	4
.LBB17_25:
	movzwl	-32(%r13), %ebp
	movw	%bp, (%r13)
	movq	-8(%r13), %rbp
	movq	%rbp, 24(%r13)
	movups	-24(%r13), %xmm0
	movups	%xmm0, 8(%r13)
	movabsq	$576460752303423486, %rbp
	xorq	%r15, %rbp
	addq	%r10, %rbp
	shlq	$5, %rbp
	movzwl	(%rbx,%rbp), %eax
	movw	%ax, 32(%rbx,%rbp)
	movups	8(%rbx,%rbp), %xmm0
	movups	%xmm0, 8(%r14,%rbp)
	movq	24(%rbx,%rbp), %rax
	movq	%rax, 24(%r14,%rbp)
	addq	$2, %r15
	addq	$-64, %r13
	cmpq	%r15, %r12
	jne	.LBB17_25
	testb	$1, %r10b
	leaq	-24(%rsp), %r13
	je	.LBB17_28
.LBB17_27:
	notq	%r15
	addq	%r15, %r10
	shlq	$5, %r10
	movzwl	(%rbx,%r10), %eax
	movw	%ax, 32(%rbx,%r10)
	movq	24(%rbx,%r10), %rax
	movq	%rax, 24(%r14,%r10)
	movups	8(%rbx,%r10), %xmm0
	movups	%xmm0, 8(%r14,%r10)
.LBB17_28:
	incq	%r11
	movq	%r11, %r10
.LBB17_29:
	shlq	$5, %rsi
	movb	%cl, (%rdx,%rsi)
	movb	%r8b, 1(%rdx,%rsi)
	movups	(%r13), %xmm0
	movups	%xmm0, 8(%rdx,%rsi)
	movq	16(%r13), %rax
	movq	%rax, 24(%rdx,%rsi)
	movq	%rdx, (%rdi)
	movq	%r10, 8(%rdi)
	movq	%r9, 16(%rdi)
	popq	%rbx
	popq	%r12
	popq	%r13
	popq	%r14
	popq	%r15
	popq	%rbp
	retq
.LBB17_10:
	shlq	$5, %rbx
	addq	%rdx, %rbx
.LBB17_11:
	testq	%r10, %r10
	je	.LBB17_29
	cmpq	$1, %r12
	jne	.LBB17_14
	xorl	%r11d, %r11d
	jmp	.LBB17_17
.LBB17_14:
	movq	%r13, %rax
	movl	%r12d, %r14d
	andl	$126, %r14d
	xorl	%r11d, %r11d
	movq	%rbx, %r15
	.p2align	4
.LBB17_15:
	movzwl	-32(%r15), %ebp
	movw	%bp, (%r15)
	movups	-24(%r15), %xmm0
	movups	%xmm0, 8(%r15)
	movq	-8(%r15), %r13
	movq	%r13, 24(%r15)
	movw	%bp, 32(%r15)
	movups	%xmm0, 40(%r15)
	movq	%r13, 56(%r15)
	addq	$2, %r11
	addq	$64, %r15
	cmpq	%r11, %r14
	jne	.LBB17_15
	testb	$1, %r12b
	movq	%rax, %r13
	je	.LBB17_29
.LBB17_17:
	leaq	-32(%rbx), %rax
	shlq	$5, %r11
	movzwl	-32(%rbx,%r11), %ebp
	movw	%bp, (%rbx,%r11)
	movups	8(%rax,%r11), %xmm0
	movups	%xmm0, 8(%rbx,%r11)
	movq	24(%rax,%r11), %rax
	movq	%rax, 24(%rbx,%r11)
	jmp	.LBB17_29
.Lfunc_end17:
	.size	std_alloc__vec__lodged__Vec_T_Lodged__insert_reserved___24_serde_json__value__Value_, .Lfunc_end17-std_alloc__vec__lodged__Vec_T_Lodged__insert_reserved___24_serde_json__value__Value_

	.section	.rodata.cst16,"aM",@progbits,16
	.p2align	4, 0x0
.LCPI18_0:
	.zero	16,34
.LCPI18_1:
	.zero	16,92
.LCPI18_2:
	.zero	16,31
.LCPI18_3:
	.byte	34
	.byte	34
	.byte	34
	.byte	34
	.byte	34
	.byte	34
	.byte	34
	.byte	34
	.zero	1
	.zero	1
	.zero	1
	.zero	1
	.zero	1
	.zero	1
	.zero	1
	.zero	1
.LCPI18_4:
	.byte	92
	.byte	92
	.byte	92
	.byte	92
	.byte	92
	.byte	92
	.byte	92
	.byte	92
	.zero	1
	.zero	1
	.zero	1
	.zero	1
	.zero	1
	.zero	1
	.zero	1
	.zero	1
.LCPI18_5:
	.byte	32
	.byte	32
	.byte	32
	.byte	32
	.byte	32
	.byte	32
	.byte	32
	.byte	32
	.zero	1
	.zero	1
	.zero	1
	.zero	1
	.zero	1
	.zero	1
	.zero	1
	.zero	1
	.section	.text.json__run__plain_end_16,"ax",@progbits
	.p2align	4
	.type	json__run__plain_end_16,@function
json__run__plain_end_16:
	movq	%rdx, %rax
	movq	%rsi, %rcx
	subq	%rdx, %rcx
	cmpq	$16, %rcx
	jae	.LBB18_8
	cmpq	$7, %rcx
	ja	.LBB18_16
	cmpq	%rax, %rsi
	jbe	.LBB18_19
	.p2align	4
.LBB18_3:
	movzbl	(%rdi,%rax), %ecx
	cmpl	$34, %ecx
	je	.LBB18_19
	cmpl	$92, %ecx
	je	.LBB18_19
	cmpb	$32, %cl
	jb	.LBB18_19
	incq	%rax
	cmpq	%rax, %rsi
	jne	.LBB18_3
	movq	%rsi, %rax
	retq
.LBB18_8:
	movdqu	(%rdi,%rax), %xmm0
	movdqa	.LCPI18_0(%rip), %xmm1
	pcmpeqb	%xmm0, %xmm1
	movdqa	.LCPI18_1(%rip), %xmm2
	pcmpeqb	%xmm0, %xmm2
	por	%xmm1, %xmm2
	movdqa	.LCPI18_2(%rip), %xmm1
	pminub	%xmm0, %xmm1
	pcmpeqb	%xmm0, %xmm1
	por	%xmm2, %xmm1
	pmovmskb	%xmm1, %ecx
	testl	%ecx, %ecx
	jne	.LBB18_18
	leaq	16(%rax), %rcx
	movq	%rsi, %rdx
	subq	%rcx, %rdx
	cmpq	$7, %rdx
	ja	.LBB18_20
	cmpq	%rcx, %rsi
	jbe	.LBB18_28
	.p2align	4
.LBB18_11:
	movzbl	(%rdi,%rcx), %eax
	cmpl	$34, %eax
	je	.LBB18_28
	cmpl	$92, %eax
	je	.LBB18_28
	cmpb	$32, %al
	jb	.LBB18_28
	incq	%rcx
	cmpq	%rcx, %rsi
	jne	.LBB18_11
	movq	%rsi, %rax
	retq
.LBB18_16:
	movq	(%rdi,%rax), %xmm0
	movdqa	.LCPI18_3(%rip), %xmm1
	pcmpeqb	%xmm0, %xmm1
	movdqa	.LCPI18_4(%rip), %xmm2
	pcmpeqb	%xmm0, %xmm2
	por	%xmm1, %xmm2
	movdqa	.LCPI18_5(%rip), %xmm1
	pmaxub	%xmm0, %xmm1
	pcmpeqb	%xmm0, %xmm1
	pcmpeqd	%xmm0, %xmm0
	pxor	%xmm1, %xmm0
	por	%xmm2, %xmm0
	pmovmskb	%xmm0, %ecx
	testb	%cl, %cl
	je	.LBB18_22
	movzbl	%cl, %ecx
.LBB18_18:
	rep		bsfl	%ecx, %ecx
	addq	%rcx, %rax
.LBB18_19:
	retq
.LBB18_20:
	movq	(%rdi,%rcx), %xmm0
	movdqa	.LCPI18_3(%rip), %xmm1
	pcmpeqb	%xmm0, %xmm1
	movdqa	.LCPI18_4(%rip), %xmm2
	pcmpeqb	%xmm0, %xmm2
	por	%xmm1, %xmm2
	movdqa	.LCPI18_5(%rip), %xmm1
	pmaxub	%xmm0, %xmm1
	pcmpeqb	%xmm0, %xmm1
	pcmpeqd	%xmm0, %xmm0
	pxor	%xmm1, %xmm0
	por	%xmm2, %xmm0
	pmovmskb	%xmm0, %edx
	testb	%dl, %dl
	je	.LBB18_29
	movzbl	%dl, %eax
	rep		bsfl	%eax, %eax
	addq	%rax, %rcx
	movq	%rcx, %rax
	retq
.LBB18_22:
	addq	$8, %rax
	cmpq	%rsi, %rax
	jae	.LBB18_19
	.p2align	4
.LBB18_23:
	movzbl	(%rdi,%rax), %ecx
	cmpl	$34, %ecx
	je	.LBB18_19
	cmpl	$92, %ecx
	je	.LBB18_19
	cmpb	$32, %cl
	jb	.LBB18_19
	incq	%rax
	cmpq	%rax, %rsi
	jne	.LBB18_23
	movq	%rsi, %rax
	retq
.LBB18_28:
	movq	%rcx, %rax
	retq
.LBB18_29:
	addq	$24, %rax
	cmpq	%rsi, %rax
	jae	.LBB18_19
.LBB18_30:
	movzbl	(%rdi,%rax), %ecx
	cmpl	$34, %ecx
	je	.LBB18_19
	cmpl	$92, %ecx
	je	.LBB18_19
	cmpb	$32, %cl
	jb	.LBB18_19
	incq	%rax
	cmpq	%rax, %rsi
	jne	.LBB18_30
	movq	%rsi, %rax
	retq
.Lfunc_end18:
	.size	json__run__plain_end_16, .Lfunc_end18-json__run__plain_end_16

	.section	.rodata.cst16,"aM",@progbits,16
	.p2align	4, 0x0
.LCPI19_0:
	.zero	16,34
.LCPI19_1:
	.zero	16,92
.LCPI19_2:
	.zero	16,31
	.section	.text.json__unescape__unescape,"ax",@progbits
	.p2align	4
	.type	json__unescape__unescape,@function
json__unescape__unescape:
	pushq	%rbp
	pushq	%r15
	pushq	%r14
	pushq	%r13
	pushq	%r12
	pushq	%rbx
	subq	$40, %rsp
	movq	%r8, 32(%rsp)
	movq	%rdx, %r13
	movq	%rsi, %r15
	movq	%rdi, %r12
	movq	%rcx, 16(%rsp)
	leaq	16(%rcx), %rax
	movq	%rax, 24(%rsp)
	xorl	%ebx, %ebx
	.p2align	4
.LBB19_1:
	movq	%r15, %rax
	subq	%r13, %rax
	movq	%r13, %rdx
	cmpq	$32, %rax
	jb	.LBB19_7
	movq	%r13, %rdx
	negq	%rdx
	leaq	(%r12,%r13), %rax
	.p2align	4
.LBB19_3:
	movdqu	(%rax), %xmm0
	movdqu	16(%rax), %xmm1
	movdqa	.LCPI19_0(%rip), %xmm2
	movdqa	%xmm1, %xmm3
	movdqa	.LCPI19_2(%rip), %xmm4
	movdqa	%xmm0, %xmm5
	pminub	%xmm4, %xmm5
	pminub	%xmm1, %xmm4
	pcmpeqb	%xmm1, %xmm4
	pcmpeqb	%xmm2, %xmm1
	movdqa	.LCPI19_1(%rip), %xmm6
	pcmpeqb	%xmm6, %xmm3
	por	%xmm1, %xmm3
	pcmpeqb	%xmm0, %xmm2
	pcmpeqb	%xmm0, %xmm6
	por	%xmm2, %xmm6
	pcmpeqb	%xmm0, %xmm5
	por	%xmm6, %xmm5
	por	%xmm3, %xmm4
	pmovmskb	%xmm5, %esi
	pmovmskb	%xmm4, %ecx
	shll	$16, %ecx
	orl	%esi, %ecx
	jne	.LBB19_4
	addq	$32, %rax
	leaq	(%r15,%rdx), %rcx
	addq	$-32, %rcx
	addq	$-32, %rdx
	cmpq	$31, %rcx
	ja	.LBB19_3
	negq	%rdx
.LBB19_7:
	movq	%r12, %rdi
	movq	%r15, %rsi
	callq	json__run__plain_end_16
	movq	%rax, %r14
	movq	%r15, %rax
	subq	%r14, %rax
	jne	.LBB19_11
	jmp	.LBB19_9
	.p2align	4
.LBB19_4:
	rep		bsfl	%ecx, %r14d
	subq	%rdx, %r14
	movq	%r15, %rax
	subq	%r14, %rax
	je	.LBB19_9
.LBB19_11:
	cmpb	$32, (%r12,%r14)
	jb	.LBB19_9
	movq	%r14, %rbp
	subq	%r13, %rbp
	cmpq	$32, %rax
	jb	.LBB19_17
	movq	32(%rsp), %rcx
	subq	%rbx, %rcx
	subq	%rbp, %rcx
	cmpq	$32, %rcx
	jae	.LBB19_14
.LBB19_17:
	leaq	(%r12,%r13), %rsi
	movq	16(%rsp), %rax
	leaq	(%rax,%rbx), %rdi
	movq	%rdi, %rax
	subq	%rsi, %rax
	cmpq	%rbp, %rax
	jae	.LBB19_60
	cmpq	$4, %rbp
	jb	.LBB19_19
	cmpq	$32, %rax
	jae	.LBB19_22
.LBB19_19:
	xorl	%eax, %eax
	jmp	.LBB19_20
	.p2align	4
.LBB19_60:
	movq	%rbp, %rdx
	callq	memmove@PLT
	jmp	.LBB19_31
	.p2align	4
.LBB19_14:
	cmpq	%r13, %r14
	je	.LBB19_31
	addq	%r12, %r13
	movq	16(%rsp), %rax
	addq	%rbx, %rax
	xorl	%ecx, %ecx
	.p2align	4
.LBB19_16:
	movdqu	(%r13,%rcx), %xmm0
	movdqu	16(%r13,%rcx), %xmm1
	movdqu	%xmm1, 16(%rax,%rcx)
	movdqu	%xmm0, (%rax,%rcx)
	addq	$32, %rcx
	cmpq	%rbp, %rcx
	jb	.LBB19_16
	jmp	.LBB19_31
.LBB19_22:
	cmpq	$32, %rbp
	jae	.LBB19_24
	xorl	%eax, %eax
	jmp	.LBB19_28
.LBB19_24:
	movq	%rbp, %rax
	andq	$-32, %rax
	leaq	16(%r12), %rcx
	addq	%rcx, %r13
	movq	24(%rsp), %rcx
	addq	%rbx, %rcx
	xorl	%edx, %edx
	.p2align	4
.LBB19_25:
	movdqu	-16(%r13,%rdx), %xmm0
	movdqu	(%r13,%rdx), %xmm1
	movdqu	%xmm0, -16(%rcx,%rdx)
	movdqu	%xmm1, (%rcx,%rdx)
	addq	$32, %rdx
	cmpq	%rdx, %rax
	jne	.LBB19_25
	cmpq	%rax, %rbp
	je	.LBB19_31
	testb	$28, %bpl
	je	.LBB19_20
.LBB19_28:
	movq	%rax, %rcx
	movq	%rbp, %rax
	andq	$-4, %rax
	.p2align	4
.LBB19_29:
	movl	(%rsi,%rcx), %edx
	movl	%edx, (%rdi,%rcx)
	addq	$4, %rcx
	cmpq	%rcx, %rax
	jne	.LBB19_29
	jmp	.LBB19_30
	.p2align	4
.LBB19_20:
	movzbl	(%rsi,%rax), %ecx
	movb	%cl, (%rdi,%rax)
	incq	%rax
.LBB19_30:
	cmpq	%rax, %rbp
	jne	.LBB19_20
.LBB19_31:
	addq	%rbx, %rbp
	cmpb	$34, (%r12,%r14)
	je	.LBB19_32
	leaq	1(%r14), %rax
	cmpq	%r15, %rax
	je	.LBB19_9
	movzbl	(%r12,%rax), %ecx
	xorl	%edx, %edx
	xorl	%eax, %eax
	leal	-34(%rcx), %esi
	cmpl	$83, %esi
	ja	.LBB19_10
	leaq	.LJTI19_0(%rip), %rdi
	movslq	(%rdi,%rsi,4), %rsi
	addq	%rdi, %rsi
	jmpq	*%rsi
.LBB19_50:
	movb	$8, %cl
	jmp	.LBB19_55
.LBB19_51:
	movb	$12, %cl
	jmp	.LBB19_55
.LBB19_36:
	leaq	2(%r14), %rsi
	movq	%r15, %rax
	subq	%rsi, %rax
	cmpq	$4, %rax
	jb	.LBB19_9
	movq	%r12, %rdi
	callq	json__unescape__hex4
	cmpb	$1, %al
	jne	.LBB19_9
	movl	%edx, %ebx
	movl	%edx, %eax
	andl	$-1024, %eax
	cmpl	$55296, %eax
	jne	.LBB19_46
	leaq	6(%r14), %rcx
	movq	%r15, %rax
	subq	%rcx, %rax
	cmpq	$6, %rax
	jb	.LBB19_9
	xorl	%edx, %edx
	cmpb	$92, (%r12,%rcx)
	movl	$0, %eax
	jne	.LBB19_10
	cmpb	$117, 1(%r12,%rcx)
	jne	.LBB19_10
	leaq	8(%r14), %rsi
	movq	%r12, %rdi
	callq	json__unescape__hex4
	movl	%eax, %esi
	movl	%edx, %ecx
	xorl	%edx, %edx
	movl	$0, %eax
	cmpb	$1, %sil
	jne	.LBB19_10
	movl	%ecx, %esi
	andl	$-1024, %esi
	cmpl	$56320, %esi
	jne	.LBB19_10
	shll	$10, %ebx
	addl	%ecx, %ebx
	addl	$-56613888, %ebx
	addq	$12, %r14
.LBB19_45:
	movl	%ebx, %eax
	shrl	$18, %eax
	addb	$-16, %al
	movb	%al, 12(%rsp)
	movl	%ebx, %eax
	shrl	$12, %eax
	andb	$63, %al
	orb	$-128, %al
	movb	%al, 13(%rsp)
	movl	%ebx, %eax
	shrl	$6, %eax
	andb	$63, %al
	orb	$-128, %al
	movb	%al, 14(%rsp)
	andb	$63, %bl
	orb	$-128, %bl
	movb	%bl, 15(%rsp)
	movl	$4, %ebx
	jmp	.LBB19_59
.LBB19_53:
	movb	$13, %cl
	jmp	.LBB19_55
.LBB19_52:
	movb	$10, %cl
	jmp	.LBB19_55
.LBB19_54:
	movb	$9, %cl
	.p2align	4
.LBB19_55:
	movzbl	%cl, %ebx
	addq	$2, %r14
	movl	$0, 12(%rsp)
.LBB19_56:
	movb	%bl, 12(%rsp)
	movl	$1, %ebx
.LBB19_59:
	movq	16(%rsp), %rax
	leaq	(%rax,%rbp), %rdi
	leaq	12(%rsp), %rsi
	movq	%rbx, %rdx
	callq	memcpy@PLT
	addq	%rbp, %rbx
	movq	%r14, %r13
	jmp	.LBB19_1
.LBB19_46:
	cmpl	$55296, %ebx
	setb	%al
	leal	-57344(%rbx), %ecx
	cmpl	$1056768, %ecx
	setb	%cl
	orb	%al, %cl
	je	.LBB19_9
	addq	$6, %r14
	movl	$0, 12(%rsp)
	cmpl	$127, %ebx
	jbe	.LBB19_56
	cmpl	$2047, %ebx
	ja	.LBB19_57
	movl	%ebx, %eax
	shrl	$6, %eax
	orb	$-64, %al
	movb	%al, 12(%rsp)
	andb	$63, %bl
	orb	$-128, %bl
	movb	%bl, 13(%rsp)
	movl	$2, %ebx
	jmp	.LBB19_59
.LBB19_57:
	cmpl	$65535, %ebx
	ja	.LBB19_45
	movl	%ebx, %eax
	shrl	$12, %eax
	orb	$-32, %al
	movb	%al, 12(%rsp)
	movl	%ebx, %eax
	shrl	$6, %eax
	andb	$63, %al
	orb	$-128, %al
	movb	%al, 13(%rsp)
	andb	$63, %bl
	orb	$-128, %bl
	movb	%bl, 14(%rsp)
	movl	$3, %ebx
	jmp	.LBB19_59
.LBB19_9:
	xorl	%edx, %edx
	xorl	%eax, %eax
	jmp	.LBB19_10
.LBB19_32:
	movb	$1, %al
	movq	%rbp, %rdx
.LBB19_10:
	addq	$40, %rsp
	popq	%rbx
	popq	%r12
	popq	%r13
	popq	%r14
	popq	%r15
	popq	%rbp
	retq
.Lfunc_end19:
	.size	json__unescape__unescape, .Lfunc_end19-json__unescape__unescape
	.section	.rodata.json__unescape__unescape,"a",@progbits
	.p2align	2, 0x0
.LJTI19_0:
	.long	.LBB19_55-.LJTI19_0
	.long	.LBB19_10-.LJTI19_0
	.long	.LBB19_10-.LJTI19_0
	.long	.LBB19_10-.LJTI19_0
	.long	.LBB19_10-.LJTI19_0
	.long	.LBB19_10-.LJTI19_0
	.long	.LBB19_10-.LJTI19_0
	.long	.LBB19_10-.LJTI19_0
	.long	.LBB19_10-.LJTI19_0
	.long	.LBB19_10-.LJTI19_0
	.long	.LBB19_10-.LJTI19_0
	.long	.LBB19_10-.LJTI19_0
	.long	.LBB19_10-.LJTI19_0
	.long	.LBB19_55-.LJTI19_0
	.long	.LBB19_10-.LJTI19_0
	.long	.LBB19_10-.LJTI19_0
	.long	.LBB19_10-.LJTI19_0
	.long	.LBB19_10-.LJTI19_0
	.long	.LBB19_10-.LJTI19_0
	.long	.LBB19_10-.LJTI19_0
	.long	.LBB19_10-.LJTI19_0
	.long	.LBB19_10-.LJTI19_0
	.long	.LBB19_10-.LJTI19_0
	.long	.LBB19_10-.LJTI19_0
	.long	.LBB19_10-.LJTI19_0
	.long	.LBB19_10-.LJTI19_0
	.long	.LBB19_10-.LJTI19_0
	.long	.LBB19_10-.LJTI19_0
	.long	.LBB19_10-.LJTI19_0
	.long	.LBB19_10-.LJTI19_0
	.long	.LBB19_10-.LJTI19_0
	.long	.LBB19_10-.LJTI19_0
	.long	.LBB19_10-.LJTI19_0
	.long	.LBB19_10-.LJTI19_0
	.long	.LBB19_10-.LJTI19_0
	.long	.LBB19_10-.LJTI19_0
	.long	.LBB19_10-.LJTI19_0
	.long	.LBB19_10-.LJTI19_0
	.long	.LBB19_10-.LJTI19_0
	.long	.LBB19_10-.LJTI19_0
	.long	.LBB19_10-.LJTI19_0
	.long	.LBB19_10-.LJTI19_0
	.long	.LBB19_10-.LJTI19_0
	.long	.LBB19_10-.LJTI19_0
	.long	.LBB19_10-.LJTI19_0
	.long	.LBB19_10-.LJTI19_0
	.long	.LBB19_10-.LJTI19_0
	.long	.LBB19_10-.LJTI19_0
	.long	.LBB19_10-.LJTI19_0
	.long	.LBB19_10-.LJTI19_0
	.long	.LBB19_10-.LJTI19_0
	.long	.LBB19_10-.LJTI19_0
	.long	.LBB19_10-.LJTI19_0
	.long	.LBB19_10-.LJTI19_0
	.long	.LBB19_10-.LJTI19_0
	.long	.LBB19_10-.LJTI19_0
	.long	.LBB19_10-.LJTI19_0
	.long	.LBB19_10-.LJTI19_0
	.long	.LBB19_55-.LJTI19_0
	.long	.LBB19_10-.LJTI19_0
	.long	.LBB19_10-.LJTI19_0
	.long	.LBB19_10-.LJTI19_0
	.long	.LBB19_10-.LJTI19_0
	.long	.LBB19_10-.LJTI19_0
	.long	.LBB19_50-.LJTI19_0
	.long	.LBB19_10-.LJTI19_0
	.long	.LBB19_10-.LJTI19_0
	.long	.LBB19_10-.LJTI19_0
	.long	.LBB19_51-.LJTI19_0
	.long	.LBB19_10-.LJTI19_0
	.long	.LBB19_10-.LJTI19_0
	.long	.LBB19_10-.LJTI19_0
	.long	.LBB19_10-.LJTI19_0
	.long	.LBB19_10-.LJTI19_0
	.long	.LBB19_10-.LJTI19_0
	.long	.LBB19_10-.LJTI19_0
	.long	.LBB19_52-.LJTI19_0
	.long	.LBB19_10-.LJTI19_0
	.long	.LBB19_10-.LJTI19_0
	.long	.LBB19_10-.LJTI19_0
	.long	.LBB19_53-.LJTI19_0
	.long	.LBB19_10-.LJTI19_0
	.long	.LBB19_54-.LJTI19_0
	.long	.LBB19_36-.LJTI19_0

	.section	.text.json__unescape__hex4,"ax",@progbits
	.p2align	4
	.type	json__unescape__hex4,@function
json__unescape__hex4:
	movzbl	(%rdi,%rsi), %eax
	movl	$36, %ecx
	movl	$36, %r8d
	cmpl	$48, %eax
	jb	.LBB20_9
	cmpb	$57, %al
	ja	.LBB20_3
	addb	$-48, %al
	movzbl	%al, %r8d
	jmp	.LBB20_9
.LBB20_3:
	cmpb	$65, %al
	jb	.LBB20_9
	cmpb	$90, %al
	ja	.LBB20_6
	addl	$-55, %eax
	jmp	.LBB20_8
.LBB20_6:
	leal	-97(%rax), %edx
	cmpb	$25, %dl
	ja	.LBB20_9
	addl	$-87, %eax
.LBB20_8:
	movl	%eax, %r8d
.LBB20_9:
	movzbl	1(%rdi,%rsi), %eax
	cmpl	$48, %eax
	jb	.LBB20_18
	cmpb	$57, %al
	ja	.LBB20_12
	addb	$-48, %al
	movzbl	%al, %ecx
	jmp	.LBB20_18
.LBB20_12:
	cmpb	$65, %al
	jb	.LBB20_18
	cmpb	$90, %al
	ja	.LBB20_15
	addl	$-55, %eax
	jmp	.LBB20_17
.LBB20_15:
	leal	-97(%rax), %edx
	cmpb	$25, %dl
	ja	.LBB20_18
	addl	$-87, %eax
.LBB20_17:
	movl	%eax, %ecx
.LBB20_18:
	movzbl	2(%rdi,%rsi), %eax
	movl	$36, %r9d
	movl	$36, %r10d
	cmpl	$48, %eax
	jb	.LBB20_27
	cmpb	$57, %al
	ja	.LBB20_21
	addb	$-48, %al
	movzbl	%al, %r10d
	jmp	.LBB20_27
.LBB20_21:
	cmpb	$65, %al
	jb	.LBB20_27
	cmpb	$90, %al
	ja	.LBB20_24
	addl	$-55, %eax
	jmp	.LBB20_26
.LBB20_24:
	leal	-97(%rax), %edx
	cmpb	$25, %dl
	ja	.LBB20_27
	addl	$-87, %eax
.LBB20_26:
	movl	%eax, %r10d
.LBB20_27:
	movzbl	3(%rdi,%rsi), %eax
	cmpl	$48, %eax
	jb	.LBB20_36
	cmpb	$57, %al
	ja	.LBB20_30
	addb	$-48, %al
	movzbl	%al, %r9d
	jmp	.LBB20_36
.LBB20_30:
	cmpb	$65, %al
	jb	.LBB20_36
	cmpb	$90, %al
	ja	.LBB20_33
	addl	$-55, %eax
	jmp	.LBB20_35
.LBB20_33:
	leal	-97(%rax), %edx
	cmpb	$25, %dl
	ja	.LBB20_36
	addl	$-87, %eax
.LBB20_35:
	movl	%eax, %r9d
.LBB20_36:
	movl	%ecx, %eax
	orl	%r8d, %eax
	movl	%r10d, %esi
	orl	%r9d, %esi
	orl	%eax, %esi
	xorl	%edx, %edx
	movl	$0, %eax
	cmpl	$15, %esi
	ja	.LBB20_38
	shll	$12, %r8d
	shll	$8, %ecx
	addl	%r8d, %ecx
	shll	$4, %r10d
	addl	%ecx, %r10d
	orl	%r9d, %r10d
	movb	$1, %al
	movl	%r10d, %edx
.LBB20_38:
	retq
.Lfunc_end20:
	.size	json__unescape__hex4, .Lfunc_end20-json__unescape__hex4

	.section	.text.core__slice__reads__slice_T__starts_with___i8_31_core__cmp__numbers__U8PartialEq___,"ax",@progbits
	.p2align	4
	.type	core__slice__reads__slice_T__starts_with___i8_31_core__cmp__numbers__U8PartialEq___,@function
core__slice__reads__slice_T__starts_with___i8_31_core__cmp__numbers__U8PartialEq___:
	cmpq	%rcx, %rsi
	jae	.LBB21_3
	xorl	%eax, %eax
	retq
.LBB21_3:
	cmpq	$3, %rcx
	ja	.LBB21_7
	testq	%rcx, %rcx
	je	.LBB21_5
	movzbl	(%rdx), %eax
	xorb	(%rdi), %al
	movq	%rcx, %rsi
	shrq	%rsi
	movzbl	(%rdx,%rsi), %r8d
	xorb	(%rdi,%rsi), %r8b
	orb	%al, %r8b
	movzbl	-1(%rdx,%rcx), %eax
	xorb	-1(%rdi,%rcx), %al
	orb	%r8b, %al
	jmp	.LBB21_24
.LBB21_7:
	cmpq	$8, %rcx
	ja	.LBB21_9
	movd	-4(%rdx,%rcx), %xmm0
	movd	(%rdx), %xmm1
	punpckldq	%xmm0, %xmm1
	movd	-4(%rdi,%rcx), %xmm0
	movd	(%rdi), %xmm2
	punpckldq	%xmm0, %xmm2
	movq	%xmm1, %rax
	movq	%xmm2, %rcx
	cmpq	%rcx, %rax
	jmp	.LBB21_24
.LBB21_9:
	cmpq	$32, %rcx
	ja	.LBB21_11
	leaq	-8(%rcx), %rax
	cmpq	$8, %rax
	movl	$8, %esi
	cmovbq	%rax, %rsi
	cmpq	$16, %rax
	movl	$16, %r8d
	cmovbq	%rax, %r8
	movq	(%rdx,%rsi), %xmm0
	movq	(%rdx), %xmm1
	punpcklqdq	%xmm0, %xmm1
	movq	(%rdx,%r8), %xmm0
	movq	-8(%rdx,%rcx), %xmm2
	punpcklqdq	%xmm2, %xmm0
	movq	(%rdi,%rsi), %xmm2
	movq	(%rdi), %xmm3
	punpcklqdq	%xmm2, %xmm3
	pcmpeqb	%xmm1, %xmm3
	movq	(%rdi,%r8), %xmm1
	movq	-8(%rdi,%rcx), %xmm2
	punpcklqdq	%xmm2, %xmm1
	pcmpeqb	%xmm0, %xmm1
	pand	%xmm3, %xmm1
	pmovmskb	%xmm1, %eax
	jmp	.LBB21_23
.LBB21_5:
	xorl	%eax, %eax
	xorb	$1, %al
	retq
.LBB21_11:
	cmpq	$65, %rcx
	jae	.LBB21_12
	movdqu	(%rdx), %xmm0
	movdqu	16(%rdx), %xmm1
	movdqu	(%rdi), %xmm2
	pcmpeqb	%xmm0, %xmm2
	movdqu	16(%rdi), %xmm0
	pcmpeqb	%xmm1, %xmm0
	movdqu	-32(%rdx,%rcx), %xmm1
	movdqu	-16(%rdx,%rcx), %xmm3
	movdqu	-32(%rdi,%rcx), %xmm4
	pcmpeqb	%xmm1, %xmm4
	pand	%xmm2, %xmm4
	movdqu	-16(%rdi,%rcx), %xmm1
	pcmpeqb	%xmm3, %xmm1
	pand	%xmm0, %xmm1
	pand	%xmm4, %xmm1
	pmovmskb	%xmm1, %eax
	jmp	.LBB21_23
.LBB21_12:
	xorl	%eax, %eax
	movq	%rcx, %rsi
	.p2align	4
.LBB21_13:
	movdqu	(%rdx,%rax), %xmm0
	movdqu	16(%rdx,%rax), %xmm1
	movdqu	32(%rdx,%rax), %xmm2
	movdqu	48(%rdx,%rax), %xmm3
	movdqu	(%rdi,%rax), %xmm4
	pcmpeqb	%xmm0, %xmm4
	movdqu	16(%rdi,%rax), %xmm0
	pcmpeqb	%xmm1, %xmm0
	movdqu	32(%rdi,%rax), %xmm1
	pcmpeqb	%xmm2, %xmm1
	pand	%xmm4, %xmm1
	movdqu	48(%rdi,%rax), %xmm2
	pcmpeqb	%xmm3, %xmm2
	pand	%xmm0, %xmm2
	pand	%xmm1, %xmm2
	pmovmskb	%xmm2, %r8d
	cmpl	$65535, %r8d
	jne	.LBB21_15
	addq	$64, %rax
	addq	$-64, %rsi
	cmpq	$63, %rsi
	ja	.LBB21_13
.LBB21_15:
	cmpq	$32, %rsi
	jb	.LBB21_22
	movq	%rcx, %rsi
	subq	%rax, %rsi
	.p2align	4
.LBB21_17:
	movdqu	(%rdx,%rax), %xmm0
	movdqu	16(%rdx,%rax), %xmm1
	movdqu	(%rdi,%rax), %xmm2
	pcmpeqb	%xmm0, %xmm2
	movdqu	16(%rdi,%rax), %xmm0
	pcmpeqb	%xmm1, %xmm0
	pand	%xmm2, %xmm0
	pmovmskb	%xmm0, %r8d
	xorl	$65535, %r8d
	jne	.LBB21_21
	addq	$32, %rax
	addq	$-32, %rsi
	cmpq	$32, %rsi
	jae	.LBB21_17
	jmp	.LBB21_22
.LBB21_21:
	movb	$1, %al
	cmpq	$31, %rsi
	ja	.LBB21_25
.LBB21_22:
	movdqu	-32(%rdx,%rcx), %xmm0
	movdqu	-16(%rdx,%rcx), %xmm1
	movdqu	-32(%rdi,%rcx), %xmm2
	pcmpeqb	%xmm0, %xmm2
	movdqu	-16(%rdi,%rcx), %xmm0
	pcmpeqb	%xmm1, %xmm0
	pand	%xmm2, %xmm0
	pmovmskb	%xmm0, %eax
.LBB21_23:
	xorl	$65535, %eax
.LBB21_24:
	setne	%al
.LBB21_25:
	xorb	$1, %al
	retq
.Lfunc_end21:
	.size	core__slice__reads__slice_T__starts_with___i8_31_core__cmp__numbers__U8PartialEq___, .Lfunc_end21-core__slice__reads__slice_T__starts_with___i8_31_core__cmp__numbers__U8PartialEq___

	.section	.text.json__run__digits_end_slowly,"ax",@progbits
	.p2align	4
	.type	json__run__digits_end_slowly,@function
json__run__digits_end_slowly:
	movq	%rdx, %rax
	cmpq	%rsi, %rdx
	jae	.LBB22_4
	.p2align	4
.LBB22_1:
	movzbl	(%rdi,%rax), %ecx
	addb	$-48, %cl
	cmpb	$9, %cl
	ja	.LBB22_4
	incq	%rax
	cmpq	%rax, %rsi
	jne	.LBB22_1
	movq	%rsi, %rax
.LBB22_4:
	retq
.Lfunc_end22:
	.size	json__run__digits_end_slowly, .Lfunc_end22-json__run__digits_end_slowly

	.section	.text.std_alloc__vec__Vec__drop____a7912ed1c0a9e771_,"ax",@progbits
	.p2align	4
	.type	std_alloc__vec__Vec__drop____a7912ed1c0a9e771_,@function
std_alloc__vec__Vec__drop____a7912ed1c0a9e771_:
	pushq	%r15
	pushq	%r14
	pushq	%r13
	pushq	%r12
	pushq	%rbx
	subq	$32, %rsp
	movq	(%rdi), %rbx
	movq	8(%rdi), %r15
	movq	16(%rdi), %r14
	testq	%r15, %r15
	je	.LBB23_3
	leaq	8(%rsp), %r12
	movq	%rbx, %r13
	.p2align	4
.LBB23_2:
	movzwl	(%r13), %eax
	movq	$0, (%rsp)
	movw	%ax, (%rsp)
	movq	24(%r13), %rax
	movq	%rax, 16(%r12)
	movups	8(%r13), %xmm0
	movups	%xmm0, (%r12)
	movq	%rsp, %rdi
	callq	serde_json__serde_json__value__Value_Destruct__drop
	addq	$32, %r13
	decq	%r15
	jne	.LBB23_2
.LBB23_3:
	testq	%r14, %r14
	je	.LBB23_4
	movq	%rbx, %rdi
	addq	$32, %rsp
	popq	%rbx
	popq	%r12
	popq	%r13
	popq	%r14
	popq	%r15
	jmp	rattle_dealloc@PLT
.LBB23_4:
	addq	$32, %rsp
	popq	%rbx
	popq	%r12
	popq	%r13
	popq	%r14
	popq	%r15
	retq
.Lfunc_end23:
	.size	std_alloc__vec__Vec__drop____a7912ed1c0a9e771_, .Lfunc_end23-std_alloc__vec__Vec__drop____a7912ed1c0a9e771_

	.section	.text.std_collections__btree__node__Node__destroy____bfff14f77ed39624_,"ax",@progbits
	.p2align	4
	.type	std_collections__btree__node__Node__destroy____bfff14f77ed39624_,@function
std_collections__btree__node__Node__destroy____bfff14f77ed39624_:
	pushq	%rbp
	pushq	%r15
	pushq	%r14
	pushq	%r13
	pushq	%r12
	pushq	%rbx
	subq	$168, %rsp
	movzwl	(%rdi), %r14d
	movzwl	2(%rdi), %ecx
	xorl	%edx, %edx
	testw	%cx, %cx
	setne	%dl
	leaq	1(%r14), %rsi
	shll	$4, %edx
	leaq	848(%rdi), %rax
	leaq	368(%rdi), %r10
	leaq	8(%rdi), %r8
	xorl	%r9d, %r9d
	testw	%cx, %cx
	cmovneq	%rsi, %r9
	movq	%r8, 48(%rsp)
	movq	%r14, 56(%rsp)
	movq	$15, 64(%rsp)
	movq	%r10, 72(%rsp)
	movq	%r14, 80(%rsp)
	movq	$15, 88(%rsp)
	movq	%rax, 96(%rsp)
	movq	%r9, 104(%rsp)
	movq	%rdx, 112(%rsp)
	movq	%rdi, 120(%rsp)
	je	.LBB24_3
	testq	%r14, %r14
	je	.LBB24_2
	leaq	22(%rsp), %r15
	jmp	.LBB24_11
	.p2align	4
.LBB24_38:
	cmpq	$0, 56(%rsp)
	je	.LBB24_39
.LBB24_11:
	movq	96(%rsp), %rax
	movq	104(%rsp), %r14
	movq	(%rax), %rbx
	decq	%r14
	cmpq	$257, %r14
	jb	.LBB24_12
	leaq	56(%rax), %rsi
	xorl	%ecx, %ecx
	.p2align	4
.LBB24_14:
	xorl	%edx, %edx
	.p2align	4
.LBB24_15:
	movups	-48(%rsi,%rdx,8), %xmm0
	movups	-32(%rsi,%rdx,8), %xmm1
	movups	-16(%rsi,%rdx,8), %xmm2
	movups	(%rsi,%rdx,8), %xmm3
	movups	%xmm0, -56(%rsi,%rdx,8)
	movups	%xmm1, -40(%rsi,%rdx,8)
	movups	%xmm2, -24(%rsi,%rdx,8)
	movups	%xmm3, -8(%rsi,%rdx,8)
	addq	$8, %rdx
	cmpq	$256, %rdx
	jne	.LBB24_15
	addq	$256, %rcx
	movq	%r14, %rdx
	subq	%rcx, %rdx
	addq	$2048, %rsi
	cmpq	$256, %rdx
	ja	.LBB24_14
	cmpq	%rcx, %r14
	je	.LBB24_19
.LBB24_18:
	leaq	(%rax,%rcx,8), %rdi
	leaq	(%rax,%rcx,8), %rsi
	addq	$8, %rsi
	shlq	$3, %rdx
	callq	memmove@PLT
.LBB24_19:
	movq	%r14, 104(%rsp)
	movq	%rbx, %rdi
	callq	std_collections__btree__node__Node__destroy____bfff14f77ed39624_
	xorps	%xmm0, %xmm0
	movaps	%xmm0, 128(%rsp)
	movq	$0, 144(%rsp)
	xorl	%r13d, %r13d
	leaq	128(%rsp), %rdi
	leaq	48(%rsp), %rsi
	xorl	%edx, %edx
	callq	std_alloc__vec__Vec__remove____992c4ce9cbd9eb37_
	movq	72(%rsp), %rcx
	movq	80(%rsp), %rax
	movzbl	(%rcx), %ebp
	movq	8(%rcx), %rbx
	movq	16(%rcx), %r14
	movq	24(%rcx), %r12
	decq	%rax
	movq	%rcx, %rdi
	movq	%rax, %rdx
	movl	$0, %esi
	cmpq	$65, %rax
	jb	.LBB24_25
	leaq	72(%rcx), %rdi
	xorl	%esi, %esi
	.p2align	4
.LBB24_21:
	xorl	%edx, %edx
	.p2align	4
.LBB24_22:
	movzwl	-40(%rdi,%rdx), %r8d
	movw	%r8w, -72(%rdi,%rdx)
	movups	-32(%rdi,%rdx), %xmm0
	movups	%xmm0, -64(%rdi,%rdx)
	movq	-16(%rdi,%rdx), %r8
	movq	%r8, -48(%rdi,%rdx)
	movzwl	-8(%rdi,%rdx), %r8d
	movw	%r8w, -40(%rdi,%rdx)
	movups	(%rdi,%rdx), %xmm0
	movups	%xmm0, -32(%rdi,%rdx)
	movq	16(%rdi,%rdx), %r8
	movq	%r8, -16(%rdi,%rdx)
	addq	$64, %rdx
	cmpq	$2048, %rdx
	jne	.LBB24_22
	addq	$64, %rsi
	movq	%rax, %rdx
	subq	%rsi, %rdx
	addq	$2048, %rdi
	cmpq	$64, %rdx
	ja	.LBB24_21
	movq	%rsi, %r13
	shlq	$5, %r13
	leaq	(%rcx,%r13), %rdi
.LBB24_25:
	cmpq	%rsi, %rax
	je	.LBB24_28
	addq	$32, %rdi
	addq	%r13, %rcx
	xorl	%esi, %esi
	.p2align	4
.LBB24_27:
	movzwl	(%rdi,%rsi), %r8d
	movups	8(%rdi,%rsi), %xmm0
	movups	%xmm0, (%r15)
	movq	24(%rdi,%rsi), %r9
	movq	%r9, 16(%r15)
	movw	%r8w, (%rcx,%rsi)
	movups	(%r15), %xmm0
	movups	%xmm0, 8(%rcx,%rsi)
	movq	16(%r15), %r8
	movq	%r8, 24(%rcx,%rsi)
	addq	$32, %rsi
	decq	%rdx
	jne	.LBB24_27
.LBB24_28:
	movq	%rax, 80(%rsp)
	cmpq	$0, 144(%rsp)
	je	.LBB24_30
	movq	128(%rsp), %rdi
	callq	rattle_dealloc@PLT
.LBB24_30:
	movl	%ebp, %eax
	leaq	.LJTI24_0(%rip), %rcx
	movslq	(%rcx,%rax,4), %rax
	addq	%rcx, %rax
	jmpq	*%rax
.LBB24_33:
	testq	%r14, %r14
	je	.LBB24_31
	movq	%rbx, %r13
	.p2align	4
.LBB24_35:
	movzwl	(%r13), %eax
	movq	$0, 16(%rsp)
	movw	%ax, 16(%rsp)
	movq	24(%r13), %rax
	movq	%rax, 18(%r15)
	movups	8(%r13), %xmm0
	movups	%xmm0, 2(%r15)
	leaq	16(%rsp), %rdi
	callq	serde_json__serde_json__value__Value_Destruct__drop
	addq	$32, %r13
	decq	%r14
	jne	.LBB24_35
.LBB24_31:
	testq	%r12, %r12
	je	.LBB24_38
	movq	%rbx, %rdi
	callq	rattle_dealloc@PLT
	jmp	.LBB24_38
	.p2align	4
.LBB24_12:
	xorl	%ecx, %ecx
	movq	%r14, %rdx
	cmpq	%rcx, %r14
	jne	.LBB24_18
	jmp	.LBB24_19
.LBB24_36:
	cmpb	$1, %bl
	jne	.LBB24_38
	movq	%r14, %rdi
	callq	std_collections__btree__node__Node__destroy____bfff14f77ed39624_
	jmp	.LBB24_38
.LBB24_39:
	movq	96(%rsp), %rcx
	movq	104(%rsp), %rax
	decq	%rax
	movq	(%rcx), %rdi
	cmpq	$257, %rax
	jb	.LBB24_40
	leaq	56(%rcx), %r8
	xorl	%esi, %esi
	.p2align	4
.LBB24_42:
	xorl	%edx, %edx
	.p2align	4
.LBB24_43:
	movups	-48(%r8,%rdx,8), %xmm0
	movups	-32(%r8,%rdx,8), %xmm1
	movups	-16(%r8,%rdx,8), %xmm2
	movups	(%r8,%rdx,8), %xmm3
	movups	%xmm0, -56(%r8,%rdx,8)
	movups	%xmm1, -40(%r8,%rdx,8)
	movups	%xmm2, -24(%r8,%rdx,8)
	movups	%xmm3, -8(%r8,%rdx,8)
	addq	$8, %rdx
	cmpq	$256, %rdx
	jne	.LBB24_43
	addq	$256, %rsi
	movq	%rax, %rdx
	subq	%rsi, %rdx
	addq	$2048, %r8
	cmpq	$256, %rdx
	ja	.LBB24_42
	cmpq	%rsi, %rax
	jne	.LBB24_46
	jmp	.LBB24_47
.LBB24_3:
	movq	%rdi, 8(%rsp)
	leaq	48(%rsp), %rdi
	callq	std_collections__btree__row__Row__reverse____dd2386031c731943_
	testq	%r14, %r14
	je	.LBB24_8
	leaq	134(%rsp), %r15
	leaq	(%r14,%r14,2), %rax
	movq	8(%rsp), %rcx
	leaq	(%rcx,%rax,8), %r13
	shll	$5, %r14d
	leaq	336(%rcx), %rbp
	jmp	.LBB24_5
	.p2align	4
.LBB24_7:
	movb	%bl, 16(%rsp)
	movb	%r12b, 17(%rsp)
	movq	16(%r15), %rax
	leaq	24(%rsp), %rcx
	movq	%rax, 16(%rcx)
	movups	(%r15), %xmm0
	movups	%xmm0, (%rcx)
	leaq	16(%rsp), %rdi
	callq	serde_json__serde_json__value__Value_Destruct__drop
	addq	$-24, %r13
	addq	$-32, %r14
	je	.LBB24_8
.LBB24_5:
	movq	-16(%r13), %rdi
	movzbl	(%rbp,%r14), %ebx
	movzbl	1(%rbp,%r14), %r12d
	cmpq	$0, (%r13)
	movq	24(%rbp,%r14), %rax
	movq	%rax, 16(%r15)
	movups	8(%rbp,%r14), %xmm0
	movups	%xmm0, (%r15)
	movq	$0, 16(%rsp)
	je	.LBB24_7
	callq	rattle_dealloc@PLT
	jmp	.LBB24_7
.LBB24_8:
	movq	8(%rsp), %rdi
	jmp	.LBB24_9
.LBB24_2:
	movq	(%rax), %rdi
	jmp	.LBB24_47
.LBB24_40:
	xorl	%esi, %esi
	movq	%rax, %rdx
	cmpq	%rsi, %rax
	je	.LBB24_47
.LBB24_46:
	leaq	(%rcx,%rsi,8), %rax
	leaq	(%rcx,%rsi,8), %rsi
	addq	$8, %rsi
	shlq	$3, %rdx
	movq	%rdi, %rbx
	movq	%rax, %rdi
	callq	memmove@PLT
	movq	%rbx, %rdi
.LBB24_47:
	callq	std_collections__btree__node__Node__destroy____bfff14f77ed39624_
	movq	120(%rsp), %rdi
.LBB24_9:
	addq	$168, %rsp
	popq	%rbx
	popq	%r12
	popq	%r13
	popq	%r14
	popq	%r15
	popq	%rbp
	jmp	rattle_dealloc@PLT
.Lfunc_end24:
	.size	std_collections__btree__node__Node__destroy____bfff14f77ed39624_, .Lfunc_end24-std_collections__btree__node__Node__destroy____bfff14f77ed39624_
	.section	.rodata.std_collections__btree__node__Node__destroy____bfff14f77ed39624_,"a",@progbits
	.p2align	2, 0x0
.LJTI24_0:
	.long	.LBB24_38-.LJTI24_0
	.long	.LBB24_38-.LJTI24_0
	.long	.LBB24_38-.LJTI24_0
	.long	.LBB24_31-.LJTI24_0
	.long	.LBB24_33-.LJTI24_0
	.long	.LBB24_36-.LJTI24_0

	.section	.text.std_collections__btree__row__Row__reverse____dd2386031c731943_,"ax",@progbits
	.p2align	4
	.type	std_collections__btree__row__Row__reverse____dd2386031c731943_,@function
std_collections__btree__row__Row__reverse____dd2386031c731943_:
	pushq	%rbx
	subq	$32, %rsp
	movq	%rdi, %rbx
	movq	(%rdi), %rdi
	movq	8(%rbx), %rax
	cmpq	$15, %rax
	jbe	.LBB25_1
	movq	%rax, %rdx
	shrq	%rdx
	subq	%rdx, %rax
	leaq	(%rax,%rax,2), %rax
	leaq	(%rdi,%rax,8), %rsi
	callq	core__slice__edits__mirror____483ec8513fd57e54_
	jmp	.LBB25_34
.LBB25_1:
	cmpq	$2, %rax
	jb	.LBB25_34
	leaq	-2(%rax), %rdx
	movq	%rdx, %rcx
	shrq	%rcx
	movq	%rax, %rsi
	decq	%rsi
	je	.LBB25_4
	leaq	(%rsi,%rsi,2), %rsi
	movq	16(%rdi), %r8
	movq	%r8, 16(%rsp)
	movups	(%rdi), %xmm0
	movaps	%xmm0, (%rsp)
	movq	16(%rdi,%rsi,8), %r8
	movups	(%rdi,%rsi,8), %xmm0
	movups	%xmm0, (%rdi)
	movq	%r8, 16(%rdi)
	movq	16(%rsp), %r8
	movq	%r8, 16(%rdi,%rsi,8)
	movaps	(%rsp), %xmm0
	movups	%xmm0, (%rdi,%rsi,8)
.LBB25_4:
	testq	%rcx, %rcx
	je	.LBB25_34
	cmpq	$1, %rdx
	jbe	.LBB25_6
	leaq	(%rdx,%rdx,2), %rdx
	movq	40(%rdi), %rsi
	movq	%rsi, 16(%rsp)
	movups	24(%rdi), %xmm0
	movaps	%xmm0, (%rsp)
	movq	16(%rdi,%rdx,8), %rsi
	movups	(%rdi,%rdx,8), %xmm0
	movups	%xmm0, 24(%rdi)
	movq	%rsi, 40(%rdi)
	movq	16(%rsp), %rsi
	movq	%rsi, 16(%rdi,%rdx,8)
	movaps	(%rsp), %xmm0
	movups	%xmm0, (%rdi,%rdx,8)
	jmp	.LBB25_9
.LBB25_6:
	testq	%rdx, %rdx
	jne	.LBB25_9
	leaq	(%rdx,%rdx,2), %rdx
	movq	16(%rdi,%rdx,8), %rsi
	movq	%rsi, 16(%rsp)
	movups	(%rdi,%rdx,8), %xmm0
	movaps	%xmm0, (%rsp)
	movq	40(%rdi), %rsi
	movups	24(%rdi), %xmm0
	movups	%xmm0, (%rdi,%rdx,8)
	movq	%rsi, 16(%rdi,%rdx,8)
	movq	16(%rsp), %rdx
	movq	%rdx, 40(%rdi)
	movaps	(%rsp), %xmm0
	movups	%xmm0, 24(%rdi)
.LBB25_9:
	cmpq	$1, %rcx
	je	.LBB25_34
	leaq	-3(%rax), %rdx
	cmpq	$2, %rdx
	jbe	.LBB25_11
	leaq	(%rdx,%rdx,2), %rdx
	movq	64(%rdi), %rsi
	movq	%rsi, 16(%rsp)
	movups	48(%rdi), %xmm0
	movaps	%xmm0, (%rsp)
	movq	16(%rdi,%rdx,8), %rsi
	movups	(%rdi,%rdx,8), %xmm0
	movups	%xmm0, 48(%rdi)
	movq	%rsi, 64(%rdi)
	movq	16(%rsp), %rsi
	movq	%rsi, 16(%rdi,%rdx,8)
	movaps	(%rsp), %xmm0
	movups	%xmm0, (%rdi,%rdx,8)
	jmp	.LBB25_14
.LBB25_11:
	je	.LBB25_14
	leaq	(%rdx,%rdx,2), %rdx
	movq	16(%rdi,%rdx,8), %rsi
	movq	%rsi, 16(%rsp)
	movups	(%rdi,%rdx,8), %xmm0
	movaps	%xmm0, (%rsp)
	movq	64(%rdi), %rsi
	movups	48(%rdi), %xmm0
	movups	%xmm0, (%rdi,%rdx,8)
	movq	%rsi, 16(%rdi,%rdx,8)
	movq	16(%rsp), %rdx
	movq	%rdx, 64(%rdi)
	movaps	(%rsp), %xmm0
	movups	%xmm0, 48(%rdi)
.LBB25_14:
	cmpq	$2, %rcx
	je	.LBB25_34
	leaq	-4(%rax), %rdx
	cmpq	$3, %rdx
	jbe	.LBB25_16
	leaq	(%rdx,%rdx,2), %rdx
	movq	88(%rdi), %rsi
	movq	%rsi, 16(%rsp)
	movups	72(%rdi), %xmm0
	movaps	%xmm0, (%rsp)
	movq	16(%rdi,%rdx,8), %rsi
	movups	(%rdi,%rdx,8), %xmm0
	movups	%xmm0, 72(%rdi)
	movq	%rsi, 88(%rdi)
	movq	16(%rsp), %rsi
	movq	%rsi, 16(%rdi,%rdx,8)
	movaps	(%rsp), %xmm0
	movups	%xmm0, (%rdi,%rdx,8)
	jmp	.LBB25_19
.LBB25_16:
	je	.LBB25_19
	leaq	(%rdx,%rdx,2), %rdx
	movq	16(%rdi,%rdx,8), %rsi
	movq	%rsi, 16(%rsp)
	movups	(%rdi,%rdx,8), %xmm0
	movaps	%xmm0, (%rsp)
	movq	88(%rdi), %rsi
	movups	72(%rdi), %xmm0
	movups	%xmm0, (%rdi,%rdx,8)
	movq	%rsi, 16(%rdi,%rdx,8)
	movq	16(%rsp), %rdx
	movq	%rdx, 88(%rdi)
	movaps	(%rsp), %xmm0
	movups	%xmm0, 72(%rdi)
.LBB25_19:
	cmpq	$3, %rcx
	je	.LBB25_34
	leaq	-5(%rax), %rdx
	cmpq	$4, %rdx
	jbe	.LBB25_21
	leaq	(%rdx,%rdx,2), %rdx
	movq	112(%rdi), %rsi
	movq	%rsi, 16(%rsp)
	movups	96(%rdi), %xmm0
	movaps	%xmm0, (%rsp)
	movq	16(%rdi,%rdx,8), %rsi
	movups	(%rdi,%rdx,8), %xmm0
	movups	%xmm0, 96(%rdi)
	movq	%rsi, 112(%rdi)
	movq	16(%rsp), %rsi
	movq	%rsi, 16(%rdi,%rdx,8)
	movaps	(%rsp), %xmm0
	movups	%xmm0, (%rdi,%rdx,8)
	jmp	.LBB25_24
.LBB25_21:
	je	.LBB25_24
	leaq	(%rdx,%rdx,2), %rdx
	movq	16(%rdi,%rdx,8), %rsi
	movq	%rsi, 16(%rsp)
	movups	(%rdi,%rdx,8), %xmm0
	movaps	%xmm0, (%rsp)
	movq	112(%rdi), %rsi
	movups	96(%rdi), %xmm0
	movups	%xmm0, (%rdi,%rdx,8)
	movq	%rsi, 16(%rdi,%rdx,8)
	movq	16(%rsp), %rdx
	movq	%rdx, 112(%rdi)
	movaps	(%rsp), %xmm0
	movups	%xmm0, 96(%rdi)
.LBB25_24:
	cmpq	$4, %rcx
	je	.LBB25_34
	leaq	-6(%rax), %rdx
	cmpq	$5, %rdx
	jbe	.LBB25_26
	leaq	(%rdx,%rdx,2), %rdx
	movq	136(%rdi), %rsi
	movq	%rsi, 16(%rsp)
	movups	120(%rdi), %xmm0
	movaps	%xmm0, (%rsp)
	movq	16(%rdi,%rdx,8), %rsi
	movups	(%rdi,%rdx,8), %xmm0
	movups	%xmm0, 120(%rdi)
	movq	%rsi, 136(%rdi)
	movq	16(%rsp), %rsi
	movq	%rsi, 16(%rdi,%rdx,8)
	movaps	(%rsp), %xmm0
	movups	%xmm0, (%rdi,%rdx,8)
	jmp	.LBB25_29
.LBB25_26:
	je	.LBB25_29
	leaq	(%rdx,%rdx,2), %rdx
	movq	16(%rdi,%rdx,8), %rsi
	movq	%rsi, 16(%rsp)
	movups	(%rdi,%rdx,8), %xmm0
	movaps	%xmm0, (%rsp)
	movq	136(%rdi), %rsi
	movups	120(%rdi), %xmm0
	movups	%xmm0, (%rdi,%rdx,8)
	movq	%rsi, 16(%rdi,%rdx,8)
	movq	16(%rsp), %rdx
	movq	%rdx, 136(%rdi)
	movaps	(%rsp), %xmm0
	movups	%xmm0, 120(%rdi)
.LBB25_29:
	cmpq	$5, %rcx
	je	.LBB25_34
	addq	$-7, %rax
	cmpq	$6, %rax
	jbe	.LBB25_31
	leaq	(%rax,%rax,2), %rax
	movq	160(%rdi), %rcx
	movq	%rcx, 16(%rsp)
	movups	144(%rdi), %xmm0
	movaps	%xmm0, (%rsp)
	movq	16(%rdi,%rax,8), %rcx
	movups	(%rdi,%rax,8), %xmm0
	movups	%xmm0, 144(%rdi)
	movq	%rcx, 160(%rdi)
	movq	16(%rsp), %rcx
	movq	%rcx, 16(%rdi,%rax,8)
	movaps	(%rsp), %xmm0
	movups	%xmm0, (%rdi,%rax,8)
	jmp	.LBB25_34
.LBB25_31:
	je	.LBB25_34
	leaq	(%rax,%rax,2), %rax
	movq	16(%rdi,%rax,8), %rcx
	movq	%rcx, 16(%rsp)
	movups	(%rdi,%rax,8), %xmm0
	movaps	%xmm0, (%rsp)
	movq	160(%rdi), %rcx
	movups	144(%rdi), %xmm0
	movups	%xmm0, (%rdi,%rax,8)
	movq	%rcx, 16(%rdi,%rax,8)
	movq	16(%rsp), %rax
	movq	%rax, 160(%rdi)
	movaps	(%rsp), %xmm0
	movups	%xmm0, 144(%rdi)
.LBB25_34:
	movq	24(%rbx), %rdi
	movq	32(%rbx), %rsi
	cmpq	$15, %rsi
	jbe	.LBB25_35
	movq	%rsi, %rdx
	shrq	%rdx
	subq	%rdx, %rsi
	shlq	$5, %rsi
	addq	%rdi, %rsi
	addq	$32, %rsp
	popq	%rbx
	jmp	core__slice__edits__mirror___24_serde_json__value__Value_
.LBB25_35:
	cmpq	$2, %rsi
	jb	.LBB25_42
	leaq	6(%rsp), %rax
	leaq	-2(%rsi), %rcx
	shrq	%rcx
	incq	%rcx
	movq	%rsi, %rdx
	shlq	$5, %rdx
	addq	%rdi, %rdx
	addq	$-32, %rdx
	decq	%rsi
	xorl	%r8d, %r8d
	jmp	.LBB25_37
	.p2align	4
.LBB25_38:
	movzwl	(%rdi), %r9d
	movups	8(%rdi), %xmm0
	movups	%xmm0, (%rax)
	movq	24(%rdi), %r10
	movq	%r10, 16(%rax)
	movzwl	(%rdx), %r10d
	movw	%r10w, (%rdi)
	movups	8(%rdx), %xmm0
	movq	24(%rdx), %r10
	movq	%r10, 24(%rdi)
	movups	%xmm0, 8(%rdi)
	movw	%r9w, (%rdx)
	movups	(%rax), %xmm0
	movups	%xmm0, 8(%rdx)
	movq	16(%rax), %r9
	movq	%r9, 24(%rdx)
.LBB25_41:
	incq	%r8
	addq	$32, %rdi
	addq	$-32, %rdx
	decq	%rsi
	cmpq	%r8, %rcx
	je	.LBB25_42
.LBB25_37:
	cmpq	%rsi, %r8
	jb	.LBB25_38
	jbe	.LBB25_41
	movzwl	(%rdx), %r9d
	movups	8(%rdx), %xmm0
	movups	%xmm0, (%rax)
	movq	24(%rdx), %r10
	movq	%r10, 16(%rax)
	movzwl	(%rdi), %r10d
	movw	%r10w, (%rdx)
	movups	8(%rdi), %xmm0
	movq	24(%rdi), %r10
	movq	%r10, 24(%rdx)
	movups	%xmm0, 8(%rdx)
	movw	%r9w, (%rdi)
	movups	(%rax), %xmm0
	movups	%xmm0, 8(%rdi)
	movq	16(%rax), %r9
	movq	%r9, 24(%rdi)
	jmp	.LBB25_41
.LBB25_42:
	addq	$32, %rsp
	popq	%rbx
	retq
.Lfunc_end25:
	.size	std_collections__btree__row__Row__reverse____dd2386031c731943_, .Lfunc_end25-std_collections__btree__row__Row__reverse____dd2386031c731943_

	.section	.text.core__slice__edits__mirror____483ec8513fd57e54_,"ax",@progbits
	.p2align	4
	.type	core__slice__edits__mirror____483ec8513fd57e54_,@function
core__slice__edits__mirror____483ec8513fd57e54_:
	leaq	(%rdx,%rdx,2), %rax
	leaq	(%rsi,%rax,8), %rax
	addq	$-24, %rax
	.p2align	4
.LBB26_1:
	movq	16(%rdi), %rcx
	movq	%rcx, -8(%rsp)
	movups	(%rdi), %xmm0
	movaps	%xmm0, -24(%rsp)
	movq	16(%rax), %rcx
	movups	(%rax), %xmm0
	movups	%xmm0, (%rdi)
	movq	%rcx, 16(%rdi)
	movq	-8(%rsp), %rcx
	movq	%rcx, 16(%rax)
	movaps	-24(%rsp), %xmm0
	movups	%xmm0, (%rax)
	addq	$24, %rdi
	addq	$-24, %rax
	decq	%rdx
	jne	.LBB26_1
	retq
.Lfunc_end26:
	.size	core__slice__edits__mirror____483ec8513fd57e54_, .Lfunc_end26-core__slice__edits__mirror____483ec8513fd57e54_

	.section	.text.core__slice__edits__mirror___24_serde_json__value__Value_,"ax",@progbits
	.p2align	4
	.type	core__slice__edits__mirror___24_serde_json__value__Value_,@function
core__slice__edits__mirror___24_serde_json__value__Value_:
	leaq	-24(%rsp), %rax
	leaq	-54(%rsp), %rcx
	movq	%rdx, %r8
	shlq	$5, %r8
	addq	%r8, %rsi
	addq	$-32, %rsi
	.p2align	4
.LBB27_1:
	movzwl	(%rdi), %r8d
	movups	8(%rdi), %xmm0
	movups	%xmm0, (%rax)
	movq	24(%rdi), %r9
	movq	%r9, 16(%rax)
	movzwl	(%rsi), %r9d
	movups	8(%rsi), %xmm0
	movups	%xmm0, (%rcx)
	movq	24(%rsi), %r10
	movq	%r10, 16(%rcx)
	movw	%r9w, (%rdi)
	movups	(%rcx), %xmm0
	movups	%xmm0, 8(%rdi)
	movq	16(%rcx), %r9
	movq	%r9, 24(%rdi)
	movw	%r8w, (%rsi)
	movups	(%rax), %xmm0
	movups	%xmm0, 8(%rsi)
	movq	16(%rax), %r8
	movq	%r8, 24(%rsi)
	addq	$32, %rdi
	addq	$-32, %rsi
	decq	%rdx
	jne	.LBB27_1
	retq
.Lfunc_end27:
	.size	core__slice__edits__mirror___24_serde_json__value__Value_, .Lfunc_end27-core__slice__edits__mirror___24_serde_json__value__Value_

	.section	.text.unlikely.serde_json__error__Error__at,"ax",@progbits
	.p2align	4
	.type	serde_json__error__Error__at,@function
serde_json__error__Error__at:
	pushq	%rbp
	pushq	%r15
	pushq	%r14
	pushq	%r13
	pushq	%r12
	pushq	%rbx
	subq	$56, %rsp
	movb	$0, 4(%rsp)
	movl	$0, (%rsp)
	cmpq	%r8, %rcx
	movq	%r8, %rax
	cmovbq	%rcx, %rax
	movl	$1, %ebx
	xorl	%r14d, %r14d
	testq	%rax, %rax
	je	.LBB28_6
	xorl	%r9d, %r9d
	jmp	.LBB28_2
	.p2align	4
.LBB28_3:
	incq	%rbx
	movq	$-1, %r10
	cmoveq	%r10, %rbx
	xorl	%r14d, %r14d
	incq	%r9
	cmpq	%r9, %rax
	je	.LBB28_6
.LBB28_2:
	cmpb	$10, (%rdx,%r9)
	je	.LBB28_3
	incq	%r14
	movq	$-1, %r10
	cmoveq	%r10, %r14
	incq	%r9
	cmpq	%r9, %rax
	jne	.LBB28_2
.LBB28_6:
	testb	%sil, %sil
	je	.LBB28_8
	xorl	%eax, %eax
.LBB28_9:
	xorl	%edx, %edx
	cmpq	%r8, %rcx
	seta	%dl
	addq	%r14, %rdx
	movq	$-1, %rcx
	cmovaeq	%rdx, %rcx
	xorps	%xmm0, %xmm0
	movups	%xmm0, 37(%rsp)
	movups	%xmm0, 21(%rsp)
	movups	%xmm0, 5(%rsp)
	movb	%sil, (%rdi)
	movw	$0, 1(%rdi)
	movups	(%rsp), %xmm0
	movups	16(%rsp), %xmm1
	movups	32(%rsp), %xmm2
	movups	%xmm0, 3(%rdi)
	movups	%xmm1, 19(%rdi)
	movups	%xmm2, 35(%rdi)
	movq	45(%rsp), %rdx
	movq	%rdx, 48(%rdi)
	movb	%al, 56(%rdi)
	movl	$0, 57(%rdi)
	movl	$0, 60(%rdi)
	movq	%rbx, 64(%rdi)
	movq	%rcx, 72(%rdi)
	addq	$56, %rsp
	popq	%rbx
	popq	%r12
	popq	%r13
	popq	%r14
	popq	%r15
	popq	%rbp
	retq
.LBB28_8:
	movq	%rdi, %r15
	movq	%rdx, %rdi
	movl	%esi, %ebp
	movq	%rcx, %rsi
	movq	%r8, %r12
	movq	%rcx, %r13
	callq	serde_json__cut__is_cut_short
	movq	%r13, %rcx
	movq	%r12, %r8
	movl	%ebp, %esi
	movq	%r15, %rdi
	jmp	.LBB28_9
.Lfunc_end28:
	.size	serde_json__error__Error__at, .Lfunc_end28-serde_json__error__Error__at

	.section	.text.unlikely.serde_json__cut__is_cut_short,"ax",@progbits
	.p2align	4
	.type	serde_json__cut__is_cut_short,@function
serde_json__cut__is_cut_short:
	pushq	%rbp
	pushq	%r15
	pushq	%r14
	pushq	%r13
	pushq	%r12
	pushq	%rbx
	subq	$56, %rsp
	testq	%rsi, %rsi
	je	.LBB29_75
	leaq	-1(%rsi), %r12
	xorl	%r11d, %r11d
	xorl	%r13d, %r13d
	xorl	%ebp, %ebp
	xorl	%eax, %eax
	xorl	%ebx, %ebx
	xorl	%ecx, %ecx
.LBB29_2:
	leaq	2(%rbx), %r14
	movq	%r12, %r15
	subq	%rbx, %r15
	jmp	.LBB29_4
	.p2align	4
.LBB29_3:
	incq	%rbx
	incq	%r14
	decq	%r15
	cmpq	%rsi, %rbx
	jae	.LBB29_76
.LBB29_4:
	cmpq	%rax, %rbx
	jb	.LBB29_3
	movzbl	(%rdi,%rbx), %r8d
	cmpl	$13, %r8d
	je	.LBB29_3
	cmpl	$32, %r8d
	je	.LBB29_3
	leal	-9(%r8), %edx
	cmpb	$1, %dl
	jbe	.LBB29_3
	testb	%cl, %cl
	movq	%r11, 40(%rsp)
	movq	%r13, 32(%rsp)
	je	.LBB29_10
	cmpb	$1, %cl
	sete	%dl
	movb	$1, %r9b
	cmpb	$2, %cl
	jne	.LBB29_11
	jmp	.LBB29_12
.LBB29_10:
	movb	$1, %dl
.LBB29_11:
	cmpb	$3, %cl
	sete	%r9b
.LBB29_12:
	movb	%r9b, 14(%rsp)
	testl	%ebp, %ebp
	setne	%r10b
	cmpb	$5, %cl
	sete	%r9b
	cmpl	$123, %r8d
	sete	%r11b
	cmpl	$91, %r8d
	sete	%r13b
	orb	%r11b, %r13b
	cmpl	$127, %ebp
	setb	%r11b
	andb	%dl, %r11b
	andb	%r13b, %r11b
	cmpb	$1, %r11b
	jne	.LBB29_14
	xorl	%ecx, %ecx
	cmpl	$123, %r8d
	sete	%cl
	movq	40(%rsp), %r11
	movq	32(%rsp), %r13
	shldq	$1, %r11, %r13
	leaq	(%rcx,%r11,2), %r11
	incl	%ebp
	addb	%cl, %cl
	incb	%cl
	jmp	.LBB29_73
.LBB29_14:
	andb	%r10b, %r9b
	testl	%ebp, %ebp
	movq	40(%rsp), %r11
	movq	32(%rsp), %r13
	je	.LBB29_19
	cmpl	$93, %r8d
	je	.LBB29_24
	cmpl	$125, %r8d
	jne	.LBB29_19
	cmpb	$3, %cl
	je	.LBB29_33
	andb	%r11b, %r9b
	je	.LBB29_26
	jmp	.LBB29_33
.LBB29_19:
	cmpl	$44, %r8d
	sete	%r10b
	andb	%r9b, %r10b
	cmpb	$1, %r10b
	jne	.LBB29_21
	movl	%r11d, %ecx
	andb	$1, %cl
	addb	%cl, %cl
	jmp	.LBB29_73
.LBB29_21:
	cmpl	$58, %r8d
	jne	.LBB29_26
	cmpb	$4, %cl
	jne	.LBB29_26
	xorl	%ecx, %ecx
	jmp	.LBB29_73
.LBB29_24:
	cmpb	$1, %cl
	je	.LBB29_33
	movl	%r11d, %ecx
	xorb	$1, %cl
	andb	%cl, %r9b
	jne	.LBB29_33
.LBB29_26:
	cmpl	$34, %r8d
	sete	%al
	movzbl	14(%rsp), %r9d
	andb	%r9b, %al
	orb	%al, %dl
	testb	$1, %dl
	je	.LBB29_84
	leaq	(%rdi,%rbx), %rdx
	xorl	%ecx, %ecx
	movq	%rsi, %rax
	subq	%rbx, %rax
	cmovaeq	%rax, %rcx
	cmpl	$109, %r8d
	jg	.LBB29_34
	cmpl	$34, %r8d
	je	.LBB29_48
	movq	%rbx, %r14
	cmpl	$102, %r8d
	jne	.LBB29_41
	cmpq	$5, %rcx
	jb	.LBB29_82
	cmpl	$1702063201, 1(%rdi,%rbx)
	jne	.LBB29_82
	movq	%rbx, %rax
	addq	$5, %rax
	jmp	.LBB29_68
.LBB29_33:
	shrdq	$1, %r13, %r11
	shrq	%r13
	decl	%ebp
	movb	$5, %cl
	jmp	.LBB29_73
.LBB29_34:
	cmpl	$110, %r8d
	je	.LBB29_63
	movq	%rbx, %r14
	cmpl	$116, %r8d
	jne	.LBB29_41
	cmpq	$4, %rcx
	jb	.LBB29_79
	cmpb	$114, 1(%rdi,%rbx)
	jne	.LBB29_79
	cmpb	$117, 2(%rdi,%rbx)
	jne	.LBB29_79
	cmpb	$101, 3(%rdi,%rbx)
	je	.LBB29_67
	jmp	.LBB29_79
.LBB29_40:
	incq	%r14
	cmpq	%r14, %rsi
	je	.LBB29_69
.LBB29_41:
	movzbl	(%rdi,%r14), %eax
	leal	-43(%rax), %ecx
	cmpl	$58, %ecx
	ja	.LBB29_43
	movabsq	$288230376218820609, %r8
	btq	%rcx, %r8
	jb	.LBB29_40
.LBB29_43:
	cmpb	$45, %al
	jb	.LBB29_47
	cmpb	$47, %al
	jb	.LBB29_40
	je	.LBB29_47
	cmpb	$57, %al
	jbe	.LBB29_40
.LBB29_47:
	movq	%r12, 16(%rsp)
	movq	%rdi, 24(%rsp)
	jmp	.LBB29_70
.LBB29_48:
	movq	%r12, 16(%rsp)
	leaq	1(%rbx), %rax
	cmpq	%rsi, %rax
	jae	.LBB29_78
	xorl	%eax, %eax
	xorl	%ecx, %ecx
	movq	%rsi, 48(%rsp)
	movq	%rdi, 24(%rsp)
	jmp	.LBB29_52
.LBB29_50:
	decb	%cl
.LBB29_51:
	incq	%r14
	decq	%r15
	je	.LBB29_78
.LBB29_52:
	movzbl	-1(%rdi,%r14), %r13d
	movb	%r13b, 15(%rsp)
	testb	%cl, %cl
	je	.LBB29_55
	leal	-48(%r13), %edx
	cmpb	$10, %dl
	jb	.LBB29_50
	andb	$-33, %r13b
	addb	$-65, %r13b
	cmpb	$5, %r13b
	jbe	.LBB29_50
	jmp	.LBB29_84
.LBB29_55:
	testb	$1, %al
	je	.LBB29_60
	leaq	.Lstatic.16(%rip), %rdi
	leaq	15(%rsp), %rdx
	movl	$9, %esi
	callq	core__slice__reads__slice_T__contains___i8_31_core__cmp__numbers__U8PartialEq___
	movzbl	14(%rsp), %r9d
	movq	24(%rsp), %rdi
	movq	48(%rsp), %rsi
	testb	%al, %al
	je	.LBB29_84
	cmpq	$4, %r15
	ja	.LBB29_59
	cmpb	$117, %r13b
	je	.LBB29_78
.LBB29_59:
	cmpb	$117, %r13b
	sete	%cl
	shlb	$2, %cl
	xorl	%eax, %eax
	jmp	.LBB29_51
.LBB29_60:
	cmpb	$34, %r13b
	je	.LBB29_74
	cmpb	$32, %r13b
	jb	.LBB29_84
	cmpb	$92, %r13b
	sete	%al
	xorl	%ecx, %ecx
	jmp	.LBB29_51
.LBB29_63:
	cmpq	$4, %rcx
	jb	.LBB29_80
	cmpb	$117, 1(%rdi,%rbx)
	jne	.LBB29_80
	cmpb	$108, 2(%rdi,%rbx)
	jne	.LBB29_80
	cmpb	$108, 3(%rdi,%rbx)
	jne	.LBB29_80
.LBB29_67:
	movq	%rbx, %rax
	addq	$4, %rax
.LBB29_68:
	movq	$-1, %r14
	cmovaeq	%rax, %r14
	jmp	.LBB29_72
.LBB29_69:
	movq	%r12, 16(%rsp)
	movq	%rdi, 24(%rsp)
	movq	%rsi, %r14
.LBB29_70:
	movq	%r14, %rax
	subq	%rbx, %rax
	setae	%cl
	movq	%rsi, %r13
	cmpq	%r14, %rsi
	setae	%sil
	leaq	.Lstatic.79(%rip), %r12
	xorl	%r15d, %r15d
	testb	%sil, %cl
	cmovneq	%rdx, %r12
	cmovneq	%rax, %r15
	movq	%r12, %rdi
	movq	%r15, %rsi
	callq	serde_json__cut__is_number
	testb	%al, %al
	je	.LBB29_85
	movq	%r13, %rsi
	movq	24(%rsp), %rdi
	movq	16(%rsp), %r12
	movq	40(%rsp), %r11
	movq	32(%rsp), %r13
	movzbl	14(%rsp), %r9d
.LBB29_72:
	xorb	$5, %r9b
	movl	%r9d, %ecx
	movq	%r14, %rax
.LBB29_73:
	incq	%rbx
	cmpq	%rsi, %rbx
	jb	.LBB29_2
	jmp	.LBB29_76
.LBB29_74:
	movq	16(%rsp), %r12
	movq	40(%rsp), %r11
	movq	32(%rsp), %r13
	jmp	.LBB29_72
.LBB29_75:
	xorl	%ecx, %ecx
	xorl	%ebp, %ebp
.LBB29_76:
	testl	%ebp, %ebp
	setne	%dl
	cmpb	$5, %cl
	setne	%al
	orb	%dl, %al
.LBB29_77:
	addq	$56, %rsp
	popq	%rbx
	popq	%r12
	popq	%r13
	popq	%r14
	popq	%r15
	popq	%rbp
	retq
.LBB29_79:
	leaq	.Lstatic.7(%rip), %rdi
	jmp	.LBB29_81
.LBB29_80:
	leaq	.Lstatic.9(%rip), %rdi
.LBB29_81:
	movl	$4, %esi
	jmp	.LBB29_83
.LBB29_82:
	leaq	.Lstatic.8(%rip), %rdi
	movl	$5, %esi
.LBB29_83:
	callq	core__slice__reads__slice_T__starts_with___i8_31_core__cmp__numbers__U8PartialEq___
	movl	%eax, %ecx
	movb	$1, %al
	testb	%cl, %cl
	jne	.LBB29_77
.LBB29_84:
	xorl	%eax, %eax
	jmp	.LBB29_77
.LBB29_85:
	cmpq	%r13, %r14
	jne	.LBB29_84
	testq	%r15, %r15
	je	.LBB29_84
	movq	%r15, %r14
	cmpq	$1, %r15
	jne	.LBB29_91
	movzbl	(%r12), %eax
	cmpl	$68, %eax
	jg	.LBB29_95
	cmpl	$45, %eax
	je	.LBB29_78
	cmpl	$46, %eax
	je	.LBB29_97
	jmp	.LBB29_84
.LBB29_91:
	movzbl	-1(%r12,%r14), %ecx
	leal	-43(%rcx), %eax
	cmpl	$26, %eax
	ja	.LBB29_101
	leaq	.LJTI29_0(%rip), %rcx
	movslq	(%rcx,%rax,4), %rax
	addq	%rcx, %rax
	jmpq	*%rax
.LBB29_93:
	movzbl	-2(%r12,%r14), %eax
	orl	$32, %eax
	cmpl	$101, %eax
	jne	.LBB29_84
	addq	$-2, %r14
	jmp	.LBB29_103
.LBB29_95:
	cmpl	$69, %eax
	je	.LBB29_102
	cmpl	$101, %eax
	je	.LBB29_102
	jmp	.LBB29_84
.LBB29_97:
	decq	%r14
	movq	%r12, %rdi
	movq	%r14, %rsi
	callq	serde_json__cut__is_number
	testb	%al, %al
	je	.LBB29_84
	xorl	%eax, %eax
.LBB29_99:
	cmpq	%rax, %r14
	je	.LBB29_78
	movzbl	(%r12,%rax), %ecx
	cmpb	$45, %cl
	sete	%dl
	addb	$-48, %cl
	cmpb	$10, %cl
	setb	%cl
	orb	%dl, %cl
	incq	%rax
	testb	%cl, %cl
	jne	.LBB29_99
	jmp	.LBB29_84
.LBB29_78:
	movb	$1, %al
	jmp	.LBB29_77
.LBB29_101:
	cmpl	$101, %ecx
	jne	.LBB29_84
.LBB29_102:
	decq	%r14
.LBB29_103:
	movq	%r12, %rdi
	movq	%r14, %rsi
	callq	serde_json__cut__is_number
	testb	%al, %al
	je	.LBB29_84
	leaq	.Lstatic.17(%rip), %rdx
	movq	%r12, %rdi
	movq	%r14, %rsi
	callq	core__slice__reads__slice_T__contains___i8_31_core__cmp__numbers__U8PartialEq___
	testb	%al, %al
	jne	.LBB29_84
	leaq	.Lstatic.18(%rip), %rdx
	movq	%r12, %rdi
	movq	%r14, %rsi
	callq	core__slice__reads__slice_T__contains___i8_31_core__cmp__numbers__U8PartialEq___
	movl	%eax, %ecx
	movb	$1, %al
	testb	%cl, %cl
	je	.LBB29_77
	jmp	.LBB29_84
.Lfunc_end29:
	.size	serde_json__cut__is_cut_short, .Lfunc_end29-serde_json__cut__is_cut_short
	.section	.rodata.unlikely.serde_json__cut__is_cut_short,"a",@progbits
	.p2align	2, 0x0
.LJTI29_0:
	.long	.LBB29_93-.LJTI29_0
	.long	.LBB29_84-.LJTI29_0
	.long	.LBB29_93-.LJTI29_0
	.long	.LBB29_97-.LJTI29_0
	.long	.LBB29_84-.LJTI29_0
	.long	.LBB29_84-.LJTI29_0
	.long	.LBB29_84-.LJTI29_0
	.long	.LBB29_84-.LJTI29_0
	.long	.LBB29_84-.LJTI29_0
	.long	.LBB29_84-.LJTI29_0
	.long	.LBB29_84-.LJTI29_0
	.long	.LBB29_84-.LJTI29_0
	.long	.LBB29_84-.LJTI29_0
	.long	.LBB29_84-.LJTI29_0
	.long	.LBB29_84-.LJTI29_0
	.long	.LBB29_84-.LJTI29_0
	.long	.LBB29_84-.LJTI29_0
	.long	.LBB29_84-.LJTI29_0
	.long	.LBB29_84-.LJTI29_0
	.long	.LBB29_84-.LJTI29_0
	.long	.LBB29_84-.LJTI29_0
	.long	.LBB29_84-.LJTI29_0
	.long	.LBB29_84-.LJTI29_0
	.long	.LBB29_84-.LJTI29_0
	.long	.LBB29_84-.LJTI29_0
	.long	.LBB29_84-.LJTI29_0
	.long	.LBB29_102-.LJTI29_0

	.section	.text.core__slice__reads__slice_T__contains___i8_31_core__cmp__numbers__U8PartialEq___,"ax",@progbits
	.p2align	4
	.type	core__slice__reads__slice_T__contains___i8_31_core__cmp__numbers__U8PartialEq___,@function
core__slice__reads__slice_T__contains___i8_31_core__cmp__numbers__U8PartialEq___:
	cmpq	$3, %rsi
	ja	.LBB30_3
	testq	%rsi, %rsi
	je	.LBB30_2
	movzbl	(%rdx), %eax
	cmpb	%al, (%rdi)
	sete	%cl
	movq	%rsi, %rdx
	shrq	%rdx
	cmpb	%al, (%rdi,%rdx)
	sete	%dl
	cmpb	%al, -1(%rdi,%rsi)
	sete	%al
	orb	%cl, %al
	orb	%dl, %al
.LBB30_21:
	retq
.LBB30_3:
	cmpq	$8, %rsi
	ja	.LBB30_5
	movd	-4(%rdi,%rsi), %xmm0
	movd	(%rdi), %xmm1
	punpckldq	%xmm0, %xmm1
	movzbl	(%rdx), %eax
	movd	%eax, %xmm0
	punpcklbw	%xmm0, %xmm0
	pshuflw	$0, %xmm0, %xmm0
	pcmpeqb	%xmm1, %xmm0
	pmovmskb	%xmm0, %eax
	testb	%al, %al
	setne	%al
	retq
.LBB30_5:
	cmpq	$32, %rsi
	ja	.LBB30_7
	leaq	-8(%rsi), %rax
	cmpq	$8, %rax
	movl	$8, %ecx
	cmovbq	%rax, %rcx
	cmpq	$16, %rax
	movl	$16, %r8d
	cmovbq	%rax, %r8
	movq	(%rdi,%rcx), %xmm0
	movq	(%rdi), %xmm1
	punpcklqdq	%xmm0, %xmm1
	movq	(%rdi,%r8), %xmm0
	movq	-8(%rdi,%rsi), %xmm2
	punpcklqdq	%xmm2, %xmm0
	movzbl	(%rdx), %eax
	movd	%eax, %xmm2
	punpcklbw	%xmm2, %xmm2
	pshuflw	$0, %xmm2, %xmm2
	pshufd	$68, %xmm2, %xmm2
	pcmpeqb	%xmm2, %xmm0
	pcmpeqb	%xmm2, %xmm1
	jmp	.LBB30_16
.LBB30_2:
	xorl	%eax, %eax
	retq
.LBB30_7:
	movzbl	(%rdx), %eax
	cmpq	$65, %rsi
	jae	.LBB30_8
	movdqu	(%rdi), %xmm0
	movdqu	16(%rdi), %xmm1
	movdqu	-32(%rdi,%rsi), %xmm2
	movdqu	-16(%rdi,%rsi), %xmm3
	movzbl	%al, %eax
	movd	%eax, %xmm4
	punpcklbw	%xmm4, %xmm4
	pshuflw	$0, %xmm4, %xmm4
	pshufd	$68, %xmm4, %xmm4
	pcmpeqb	%xmm4, %xmm2
	pcmpeqb	%xmm4, %xmm0
	por	%xmm2, %xmm0
	pcmpeqb	%xmm4, %xmm3
	pcmpeqb	%xmm4, %xmm1
	por	%xmm3, %xmm1
.LBB30_16:
	por	%xmm0, %xmm1
	pmovmskb	%xmm1, %eax
	testl	%eax, %eax
	setne	%al
	retq
.LBB30_8:
	movzbl	%al, %eax
	movd	%eax, %xmm0
	punpcklbw	%xmm0, %xmm0
	pshuflw	$0, %xmm0, %xmm0
	pshufd	$68, %xmm0, %xmm0
	xorl	%eax, %eax
	movq	%rsi, %rcx
	.p2align	4
.LBB30_9:
	movdqu	(%rdi,%rax), %xmm1
	movdqu	16(%rdi,%rax), %xmm2
	movdqu	32(%rdi,%rax), %xmm3
	movdqu	48(%rdi,%rax), %xmm4
	pcmpeqb	%xmm0, %xmm2
	pcmpeqb	%xmm0, %xmm4
	por	%xmm2, %xmm4
	pcmpeqb	%xmm0, %xmm1
	pcmpeqb	%xmm0, %xmm3
	por	%xmm1, %xmm3
	por	%xmm4, %xmm3
	pmovmskb	%xmm3, %r8d
	testl	%r8d, %r8d
	jne	.LBB30_11
	addq	$64, %rax
	addq	$-64, %rcx
	cmpq	$63, %rcx
	ja	.LBB30_9
.LBB30_11:
	cmpq	$32, %rcx
	jb	.LBB30_19
	movzbl	(%rdx), %ecx
	movd	%ecx, %xmm0
	punpcklbw	%xmm0, %xmm0
	pshuflw	$0, %xmm0, %xmm0
	pshufd	$68, %xmm0, %xmm0
	movq	%rsi, %rcx
	subq	%rax, %rcx
	addq	%rdi, %rax
	.p2align	4
.LBB30_13:
	movdqu	(%rax), %xmm1
	movdqu	16(%rax), %xmm2
	pcmpeqb	%xmm0, %xmm2
	pcmpeqb	%xmm0, %xmm1
	por	%xmm2, %xmm1
	pmovmskb	%xmm1, %r8d
	testl	%r8d, %r8d
	jne	.LBB30_18
	addq	$-32, %rcx
	addq	$32, %rax
	cmpq	$31, %rcx
	ja	.LBB30_13
	jmp	.LBB30_19
.LBB30_18:
	movb	$1, %al
	cmpq	$31, %rcx
	ja	.LBB30_21
.LBB30_19:
	movdqu	-32(%rdi,%rsi), %xmm0
	movdqu	-16(%rdi,%rsi), %xmm1
	movzbl	(%rdx), %eax
	movd	%eax, %xmm2
	punpcklbw	%xmm2, %xmm2
	pshuflw	$0, %xmm2, %xmm2
	pshufd	$68, %xmm2, %xmm2
	pcmpeqb	%xmm2, %xmm1
	pcmpeqb	%xmm2, %xmm0
	por	%xmm1, %xmm0
	pmovmskb	%xmm0, %eax
	testl	%eax, %eax
	setne	%al
	retq
.Lfunc_end30:
	.size	core__slice__reads__slice_T__contains___i8_31_core__cmp__numbers__U8PartialEq___, .Lfunc_end30-core__slice__reads__slice_T__contains___i8_31_core__cmp__numbers__U8PartialEq___

	.section	.rodata.cst16,"aM",@progbits,16
	.p2align	4, 0x0
.LCPI31_0:
	.zero	16,198
.LCPI31_1:
	.zero	16,245
	.section	.text.serde_json__cut__is_number,"ax",@progbits
	.p2align	4
	.type	serde_json__cut__is_number,@function
serde_json__cut__is_number:
	pushq	%r15
	pushq	%r14
	pushq	%rbx
	subq	$32, %rsp
	movq	%rsi, %rdx
	movq	%rdi, %rsi
	pxor	%xmm0, %xmm0
	movdqa	%xmm0, (%rsp)
	movq	$0, 16(%rsp)
	movq	%rsp, %rdi
	callq	core__str__utf8__from_utf8
	cmpb	$0, (%rsp)
	je	.LBB31_2
	xorl	%eax, %eax
	jmp	.LBB31_41
.LBB31_2:
	movq	8(%rsp), %r14
	movq	16(%rsp), %rbx
	xorl	%r15d, %r15d
	testq	%rbx, %rbx
	je	.LBB31_4
	cmpb	$45, (%r14)
	sete	%r15b
.LBB31_4:
	movq	%rbx, %rax
	subq	%r15, %rax
	jbe	.LBB31_13
	cmpb	$48, (%r14,%r15)
	jne	.LBB31_13
	incq	%r15
	movq	%r15, %rax
	jmp	.LBB31_7
.LBB31_13:
	movq	%r15, %rdx
	cmpq	$16, %rax
	jb	.LBB31_19
	movq	%r15, %rdx
	negq	%rdx
	leaq	(%r14,%r15), %rax
	.p2align	4
.LBB31_15:
	movdqu	(%rax), %xmm0
	paddb	.LCPI31_0(%rip), %xmm0
	movdqa	.LCPI31_1(%rip), %xmm1
	pminub	%xmm0, %xmm1
	pcmpeqb	%xmm0, %xmm1
	pmovmskb	%xmm1, %ecx
	testl	%ecx, %ecx
	jne	.LBB31_16
	leaq	(%rbx,%rdx), %rcx
	addq	$-16, %rcx
	addq	$-16, %rdx
	addq	$16, %rax
	cmpq	$15, %rcx
	ja	.LBB31_15
	negq	%rdx
.LBB31_19:
	movq	%r14, %rdi
	movq	%rbx, %rsi
	callq	json__run__digits_end_slowly
	cmpq	%r15, %rax
	jne	.LBB31_7
	jmp	.LBB31_21
.LBB31_16:
	rep		bsfl	%ecx, %eax
	subq	%rdx, %rax
	cmpq	%r15, %rax
	je	.LBB31_21
.LBB31_7:
	cmpq	%rbx, %rax
	jae	.LBB31_26
	cmpb	$46, (%r14,%rax)
	jne	.LBB31_26
	leaq	1(%rax), %r15
	movq	%rbx, %rcx
	subq	%r15, %rcx
	movq	%r15, %rdx
	cmpq	$16, %rcx
	jb	.LBB31_24
	notq	%rax
	leaq	(%r14,%r15), %rcx
	.p2align	4
.LBB31_11:
	movdqu	(%rcx), %xmm0
	paddb	.LCPI31_0(%rip), %xmm0
	movdqa	.LCPI31_1(%rip), %xmm1
	pminub	%xmm0, %xmm1
	pcmpeqb	%xmm0, %xmm1
	pmovmskb	%xmm1, %edx
	testl	%edx, %edx
	jne	.LBB31_12
	leaq	(%rbx,%rax), %rdx
	addq	$-16, %rdx
	addq	$-16, %rax
	addq	$16, %rcx
	cmpq	$15, %rdx
	ja	.LBB31_11
	negq	%rax
	movq	%rax, %rdx
.LBB31_24:
	movq	%r14, %rdi
	movq	%rbx, %rsi
	callq	json__run__digits_end_slowly
	cmpq	%r15, %rax
	jne	.LBB31_26
.LBB31_21:
	xorl	%eax, %eax
	xorl	%edx, %edx
	jmp	.LBB31_40
.LBB31_12:
	rep		bsfl	%edx, %ecx
	subq	%rax, %rcx
	movq	%rcx, %rax
	cmpq	%r15, %rax
	je	.LBB31_21
.LBB31_26:
	movb	$1, %dl
	cmpq	%rbx, %rax
	jae	.LBB31_40
	movzbl	(%r14,%rax), %ecx
	andb	$-33, %cl
	cmpb	$69, %cl
	jne	.LBB31_40
	leaq	1(%rax), %r15
	cmpq	%rbx, %r15
	jae	.LBB31_32
	movzbl	(%r14,%r15), %ecx
	cmpl	$45, %ecx
	je	.LBB31_31
	cmpl	$43, %ecx
	jne	.LBB31_32
.LBB31_31:
	addq	$2, %rax
	movq	%rax, %r15
.LBB31_32:
	movq	%rbx, %rax
	subq	%r15, %rax
	movq	%r15, %rdx
	cmpq	$16, %rax
	jb	.LBB31_38
	movq	%r15, %rdx
	negq	%rdx
	leaq	(%r14,%r15), %rax
	.p2align	4
.LBB31_34:
	movdqu	(%rax), %xmm0
	paddb	.LCPI31_0(%rip), %xmm0
	movdqa	.LCPI31_1(%rip), %xmm1
	pminub	%xmm0, %xmm1
	pcmpeqb	%xmm0, %xmm1
	pmovmskb	%xmm1, %ecx
	testl	%ecx, %ecx
	jne	.LBB31_35
	leaq	(%rbx,%rdx), %rcx
	addq	$-16, %rcx
	addq	$-16, %rdx
	addq	$16, %rax
	cmpq	$15, %rcx
	ja	.LBB31_34
	negq	%rdx
.LBB31_38:
	movq	%r14, %rdi
	movq	%rbx, %rsi
	callq	json__run__digits_end_slowly
	movq	%rax, %rcx
	jmp	.LBB31_39
.LBB31_35:
	rep		bsfl	%ecx, %ecx
	subq	%rdx, %rcx
.LBB31_39:
	xorl	%eax, %eax
	cmpq	%r15, %rcx
	setne	%dl
	cmovneq	%rcx, %rax
.LBB31_40:
	cmpq	%rbx, %rax
	sete	%al
	andb	%dl, %al
.LBB31_41:
	addq	$32, %rsp
	popq	%rbx
	popq	%r14
	popq	%r15
	retq
.Lfunc_end31:
	.size	serde_json__cut__is_number, .Lfunc_end31-serde_json__cut__is_number

	.section	.text.serde_json__index__RefStrIndex__index_into,"ax",@progbits
	.p2align	4
	.type	serde_json__index__RefStrIndex__index_into,@function
serde_json__index__RefStrIndex__index_into:
	cmpb	$5, (%rdx)
	jne	.LBB32_1
	cmpb	$1, 8(%rdx)
	jne	.LBB32_1
	pushq	%rbp
	pushq	%r15
	pushq	%r14
	pushq	%r12
	pushq	%rbx
	addq	$16, %rdx
	.p2align	4
.LBB32_5:
	movq	(%rdx), %rax
	movzwl	(%rax), %edx
	xorl	%ecx, %ecx
	testq	%rdx, %rdx
	jne	.LBB32_6
	cmpw	$0, 2(%rax)
	jne	.LBB32_38
	jmp	.LBB32_37
	.p2align	4
.LBB32_13:
	jb	.LBB32_35
.LBB32_33:
	incq	%rcx
	cmpq	%rdx, %rcx
	je	.LBB32_34
.LBB32_6:
	leaq	(%rcx,%rcx,2), %r8
	movq	8(%rax,%r8,8), %r9
	movq	16(%rax,%r8,8), %r8
	cmpq	%rsi, %r8
	movq	%rsi, %r10
	cmovbq	%r8, %r10
	cmpq	$7, %r10
	ja	.LBB32_11
	cmpq	$4, %r10
	jb	.LBB32_9
	movl	(%rdi), %ebx
	movl	-4(%rdi,%r10), %r11d
	shlq	$32, %r11
	orq	%rbx, %r11
	bswapq	%r11
	movl	(%r9), %r14d
	movl	-4(%r9,%r10), %ebx
	shlq	$32, %rbx
	orq	%r14, %rbx
	bswapq	%rbx
	cmpq	%rbx, %r11
	jne	.LBB32_13
	jmp	.LBB32_14
	.p2align	4
.LBB32_11:
	movq	(%rdi), %r11
	leaq	-8(%r10), %rbx
	cmpq	$8, %rbx
	movl	$8, %r14d
	cmovbq	%rbx, %r14
	movq	(%r9), %rbx
	movq	(%rdi,%r14), %r15
	bswapq	%r15
	movq	(%r9,%r14), %r14
	bswapq	%r14
	cmpq	%rbx, %r11
	bswapq	%rbx
	bswapq	%r11
	cmoveq	%r15, %r11
	cmoveq	%r14, %rbx
	cmpq	%rbx, %r11
	jne	.LBB32_13
	jmp	.LBB32_14
	.p2align	4
.LBB32_9:
	testq	%r10, %r10
	je	.LBB32_31
	movzbl	(%rdi), %r11d
	movq	%r10, %rbx
	shrq	%rbx
	movzbl	(%rdi,%rbx), %r14d
	shll	$16, %r11d
	shll	$8, %r14d
	orl	%r11d, %r14d
	movzbl	-1(%rdi,%r10), %r11d
	orq	%r14, %r11
	movzbl	(%r9), %ebp
	movzbl	(%r9,%rbx), %r14d
	shll	$16, %ebp
	shll	$8, %r14d
	orl	%ebp, %r14d
	movzbl	-1(%r9,%r10), %ebx
	orq	%r14, %rbx
	cmpq	%rbx, %r11
	jne	.LBB32_13
	.p2align	4
.LBB32_14:
	cmpq	$16, %r10
	jbe	.LBB32_31
	leaq	-16(%r10), %r11
	cmpq	$79, %r11
	ja	.LBB32_19
	movl	$16, %ebx
	movq	%r11, %r14
	.p2align	4
.LBB32_17:
	cmpq	$17, %r14
	jb	.LBB32_28
	movdqu	(%rdi,%rbx), %xmm0
	movdqu	(%r9,%rbx), %xmm1
	pcmpeqb	%xmm0, %xmm1
	pmovmskb	%xmm1, %ebp
	notl	%ebp
	rep		bsfl	%ebp, %r15d
	leaq	(%r15,%rbx), %r12
	addq	$16, %rbx
	addq	$-16, %r14
	cmpq	%rbx, %r12
	jae	.LBB32_17
	jmp	.LBB32_27
.LBB32_19:
	movdqu	16(%rdi), %xmm0
	movdqu	16(%r9), %xmm1
	pcmpeqb	%xmm0, %xmm1
	pmovmskb	%xmm1, %ebx
	notl	%ebx
	rep		bsfl	%ebx, %ebx
	cmpw	$16, %bx
	jae	.LBB32_21
	addl	$16, %ebx
	cmpq	%r10, %rbx
	jae	.LBB32_31
	jmp	.LBB32_30
.LBB32_21:
	leaq	-32(%r10), %r14
	movl	$32, %ebx
	.p2align	4
.LBB32_22:
	movdqu	(%rdi,%rbx), %xmm0
	movdqu	16(%rdi,%rbx), %xmm1
	movdqu	32(%rdi,%rbx), %xmm2
	movdqu	48(%rdi,%rbx), %xmm3
	movdqu	(%r9,%rbx), %xmm4
	pcmpeqb	%xmm0, %xmm4
	movdqu	16(%r9,%rbx), %xmm0
	pcmpeqb	%xmm1, %xmm0
	pand	%xmm4, %xmm0
	movdqu	32(%r9,%rbx), %xmm1
	pcmpeqb	%xmm2, %xmm1
	movdqu	48(%r9,%rbx), %xmm2
	pcmpeqb	%xmm3, %xmm2
	pand	%xmm1, %xmm2
	pand	%xmm0, %xmm2
	pmovmskb	%xmm2, %ebp
	cmpl	$65535, %ebp
	jne	.LBB32_24
	addq	$64, %rbx
	addq	$-64, %r14
	cmpq	$63, %r14
	ja	.LBB32_22
.LBB32_24:
	movq	%r10, %r14
	subq	%rbx, %r14
	.p2align	4
.LBB32_25:
	cmpq	$17, %r14
	jb	.LBB32_28
	movdqu	(%rdi,%rbx), %xmm0
	movdqu	(%r9,%rbx), %xmm1
	pcmpeqb	%xmm0, %xmm1
	pmovmskb	%xmm1, %ebp
	notl	%ebp
	rep		bsfl	%ebp, %r15d
	leaq	(%r15,%rbx), %r12
	addq	$16, %rbx
	addq	$-16, %r14
	cmpq	%rbx, %r12
	jae	.LBB32_25
.LBB32_27:
	movzwl	%r15w, %r11d
	addq	%r11, %rbx
	addq	$-16, %rbx
	cmpq	%r10, %rbx
	jb	.LBB32_30
	.p2align	4
.LBB32_31:
	cmpq	%r8, %rsi
	je	.LBB32_39
	cmpq	%r8, %rsi
	jae	.LBB32_33
	jmp	.LBB32_35
.LBB32_28:
	movdqu	(%rdi,%r11), %xmm0
	movdqu	(%r9,%r11), %xmm1
	pcmpeqb	%xmm0, %xmm1
	pmovmskb	%xmm1, %ebx
	notl	%ebx
	rep		bsfl	%ebx, %ebx
	addq	%r11, %rbx
	cmpq	%r10, %rbx
	jae	.LBB32_31
.LBB32_30:
	movzbl	(%rdi,%rbx), %r8d
	cmpb	(%r9,%rbx), %r8b
	jae	.LBB32_33
	jmp	.LBB32_35
	.p2align	4
.LBB32_34:
	movq	%rdx, %rcx
.LBB32_35:
	shlq	$3, %rcx
	cmpw	$0, 2(%rax)
	je	.LBB32_37
.LBB32_38:
	leaq	(%rax,%rcx), %rdx
	addq	$848, %rdx
	jmp	.LBB32_5
.LBB32_1:
	xorl	%eax, %eax
	xorl	%edx, %edx
	retq
.LBB32_39:
	shlq	$5, %rcx
	leaq	(%rax,%rcx), %rdx
	addq	$368, %rdx
	movb	$1, %al
.LBB32_40:
	popq	%rbx
	popq	%r12
	popq	%r14
	popq	%r15
	popq	%rbp
	retq
.LBB32_37:
	xorl	%eax, %eax
	xorl	%edx, %edx
	jmp	.LBB32_40
.Lfunc_end32:
	.size	serde_json__index__RefStrIndex__index_into, .Lfunc_end32-serde_json__index__RefStrIndex__index_into

	.section	.text.ww_json__kinds__kind_of,"ax",@progbits
	.p2align	4
	.type	ww_json__kinds__kind_of,@function
ww_json__kinds__kind_of:
	movb	$1, %al
	movb	$8, %dl
	cmpb	$3, (%rdi)
	jne	.LBB33_8
	movq	8(%rdi), %rcx
	movq	16(%rdi), %rdx
	cmpq	$8, %rdx
	je	.LBB33_6
	cmpq	$10, %rdx
	jne	.LBB33_7
	movabsq	$7023132053280747383, %rdx
	cmpq	%rdx, (%rcx)
	jne	.LBB33_7
	movabsq	$8388342945444818549, %rdx
	cmpq	%rdx, 2(%rcx)
	jne	.LBB33_7
	xorl	%edx, %edx
	xorl	%eax, %eax
	retq
.LBB33_7:
	movb	$4, %dl
.LBB33_8:
	retq
.LBB33_6:
	movabsq	$7307482016774709623, %rdx
	xorl	%eax, %eax
	cmpq	%rdx, (%rcx)
	setne	%al
	leal	(%rax,%rax,2), %edx
	incl	%edx
	retq
.Lfunc_end33:
	.size	ww_json__kinds__kind_of, .Lfunc_end33-ww_json__kinds__kind_of

	.section	.text.core__lang__str_eq,"ax",@progbits
	.p2align	4
	.type	core__lang__str_eq,@function
core__lang__str_eq:
	cmpq	%rcx, %rsi
	jne	.LBB34_1
	cmpq	$7, %rsi
	ja	.LBB34_7
	cmpq	$4, %rsi
	jb	.LBB34_5
	movl	(%rdi), %ecx
	movl	-4(%rdi,%rsi), %eax
	shlq	$32, %rax
	orq	%rcx, %rax
	bswapq	%rax
	movl	(%rdx), %edi
	movl	-4(%rdx,%rsi), %ecx
	shlq	$32, %rcx
	orq	%rdi, %rcx
	bswapq	%rcx
	cmpq	%rcx, %rax
	sete	%al
	retq
.LBB34_1:
	xorl	%eax, %eax
	retq
.LBB34_7:
	movq	(%rdi), %rax
	xorq	(%rdx), %rax
	movq	-8(%rdi,%rsi), %rcx
	xorq	-8(%rdx,%rsi), %rcx
	orq	%rax, %rcx
	sete	%al
	retq
.LBB34_5:
	movzbl	(%rdi), %eax
	movzbl	1(%rdi), %ecx
	shll	$16, %eax
	shll	$8, %ecx
	orl	%eax, %ecx
	movzbl	2(%rdi), %eax
	orq	%rcx, %rax
	movzbl	(%rdx), %ecx
	movzbl	1(%rdx), %esi
	shll	$16, %ecx
	shll	$8, %esi
	orl	%ecx, %esi
	movzbl	2(%rdx), %ecx
	orq	%rsi, %rcx
	cmpq	%rcx, %rax
	sete	%al
	retq
.Lfunc_end34:
	.size	core__lang__str_eq, .Lfunc_end34-core__lang__str_eq

	.section	.text.ww_schedule__schedules__events_of,"ax",@progbits
	.p2align	4
	.type	ww_schedule__schedules__events_of,@function
ww_schedule__schedules__events_of:
	pushq	%rbp
	pushq	%r15
	pushq	%r14
	pushq	%r13
	pushq	%r12
	pushq	%rbx
	subq	$104, %rsp
	movq	%rdi, %rbx
	xorps	%xmm0, %xmm0
	movups	%xmm0, 78(%rsp)
	movaps	%xmm0, 64(%rsp)
	movb	$8, %al
	cmpb	$4, (%rcx)
	jne	.LBB35_201
	movq	16(%rcx), %r12
	movb	$2, %al
	cmpq	$10000, %r12
	ja	.LBB35_201
	movq	8(%rcx), %r15
	movaps	%xmm0, 32(%rsp)
	movq	$0, 48(%rsp)
	testq	%r12, %r12
	je	.LBB35_202
	movl	%esi, %r14d
	movl	%edx, %ebp
	leaq	(%r12,%r12,2), %rdi
	movl	$1, %esi
	callq	rattle_alloc@PLT
	testb	$1, %al
	je	.LBB35_211
	movq	%rdx, %r9
	movq	%rdx, 32(%rsp)
	movq	$0, 40(%rsp)
	movq	%r12, 48(%rsp)
	movzbl	%r14b, %eax
	movq	%rax, 8(%rsp)
	movzbl	%bpl, %eax
	movq	%rax, 16(%rsp)
	addq	$16, %r15
	xorl	%r10d, %r10d
	movq	%r12, %r14
	movq	%rbx, 96(%rsp)
	.p2align	4
.LBB35_5:
	movb	$8, %dil
	cmpb	$4, -16(%r15)
	jne	.LBB35_206
	movq	(%r15), %rbp
	testq	%rbp, %rbp
	je	.LBB35_204
	movq	-8(%r15), %r11
	cmpb	$3, (%r11)
	jne	.LBB35_206
	movq	8(%r11), %rdi
	movq	16(%r11), %rsi
	decq	%rbp
	leaq	32(%r11), %r12
	leaq	-3(%rsi), %rax
	cmpq	$6, %rax
	ja	.LBB35_78
	leaq	.LJTI35_0(%rip), %rdx
	movslq	(%rdx,%rax,4), %rax
	addq	%rdx, %rax
	jmpq	*%rax
.LBB35_10:
	movzbl	(%rdi), %eax
	movzbl	1(%rdi), %edx
	shll	$16, %eax
	shll	$8, %edx
	orl	%eax, %edx
	movzbl	2(%rdi), %eax
	orq	%rdx, %rax
	cmpq	$6647396, %rax
	je	.LBB35_111
	cmpl	$6580581, %eax
	je	.LBB35_103
	cmpl	$6386539, %eax
	jne	.LBB35_78
	cmpq	$2, %rbp
	jne	.LBB35_152
	movb	$1, %al
	cmpb	$2, (%r12)
	jne	.LBB35_172
	movw	$2, %dx
	cmpb	$0, 40(%r11)
	jne	.LBB35_173
	movq	48(%r11), %rsi
	cmpq	8(%rsp), %rsi
	jae	.LBB35_173
	cmpb	$2, 64(%r11)
	jne	.LBB35_172
	cmpb	$0, 72(%r11)
	jne	.LBB35_173
	movq	80(%r11), %rcx
	cmpq	16(%rsp), %rcx
	jae	.LBB35_173
	xorl	%eax, %eax
	movl	%ecx, %edx
	jmp	.LBB35_153
.LBB35_21:
	movl	(%rdi), %edx
	movl	1(%rdi), %eax
	shlq	$32, %rax
	orq	%rdx, %rax
	movabsq	$7237954708195865959, %rdx
	cmpq	%rdx, %rax
	je	.LBB35_93
	movabsq	$8241980309229628515, %rdx
	cmpq	%rdx, %rax
	je	.LBB35_88
	movabsq	$7956003901984433506, %rdx
	cmpq	%rdx, %rax
	jne	.LBB35_78
	movb	$4, %dl
	movb	$1, %al
	cmpq	$1, %rbp
	jne	.LBB35_28
	movb	$8, %dl
	cmpb	$2, (%r12)
	jne	.LBB35_28
	movb	$2, %dl
	cmpb	$0, 40(%r11)
	jne	.LBB35_28
	movq	48(%r11), %rcx
	cmpq	8(%rsp), %rcx
	setae	%al
	movl	$2, %edx
	cmovbl	%ecx, %edx
.LBB35_28:
	movzbl	%dl, %ebp
	xorl	%esi, %esi
	testb	%al, %al
	movl	$0, %edi
	jmp	.LBB35_116
.LBB35_29:
	movabsq	$8532464413955023206, %rax
	cmpq	%rax, (%rdi)
	jne	.LBB35_78
	movabsq	$7311146936947733345, %rax
	cmpq	%rax, 1(%rdi)
	jne	.LBB35_78
	cmpq	$2, %rbp
	jne	.LBB35_101
	movb	$1, %al
	cmpb	$2, (%r12)
	jne	.LBB35_148
	movw	$2, %dx
	cmpb	$0, 40(%r11)
	jne	.LBB35_149
	movq	48(%r11), %rsi
	cmpq	8(%rsp), %rsi
	jae	.LBB35_149
	cmpb	$2, 64(%r11)
	jne	.LBB35_148
	cmpb	$0, 72(%r11)
	jne	.LBB35_149
	movq	80(%r11), %rcx
	cmpq	16(%rsp), %rcx
	jae	.LBB35_149
	xorl	%eax, %eax
	movl	%ecx, %edx
	jmp	.LBB35_102
.LBB35_39:
	movl	(%rdi), %edx
	movq	%rdx, %rax
	shlq	$32, %rax
	orq	%rdx, %rax
	movabsq	$7955443211267697010, %rdx
	cmpq	%rdx, %rax
	jg	.LBB35_67
	movabsq	$7234299875475940712, %rdx
	cmpq	%rdx, %rax
	je	.LBB35_121
	movabsq	$7308041972884398452, %rdx
	cmpq	%rdx, %rax
	je	.LBB35_130
	movabsq	$7311146937887385959, %rdx
	cmpq	%rdx, %rax
	jne	.LBB35_78
	cmpq	$2, %rbp
	jne	.LBB35_160
	movb	$1, %al
	cmpb	$2, (%r12)
	jne	.LBB35_176
	movw	$2, %dx
	cmpb	$0, 40(%r11)
	jne	.LBB35_177
	movq	48(%r11), %rsi
	cmpq	8(%rsp), %rsi
	jae	.LBB35_177
	cmpb	$2, 64(%r11)
	jne	.LBB35_176
	cmpb	$0, 72(%r11)
	jne	.LBB35_177
	movq	80(%r11), %rcx
	cmpq	16(%rsp), %rcx
	jae	.LBB35_177
	xorl	%eax, %eax
	movl	%ecx, %edx
	jmp	.LBB35_161
.LBB35_51:
	movl	(%rdi), %edx
	movl	2(%rdi), %eax
	shlq	$32, %rax
	orq	%rdx, %rax
	movabsq	$7810758454509724003, %rdx
	cmpq	%rdx, %rax
	je	.LBB35_80
	movabsq	$8388356097709010787, %rdx
	cmpq	%rdx, %rax
	jne	.LBB35_78
	movb	$4, %dl
	movb	$1, %al
	cmpq	$1, %rbp
	jne	.LBB35_57
	movb	$8, %dl
	cmpb	$2, (%r12)
	jne	.LBB35_57
	movb	$2, %dl
	cmpb	$0, 40(%r11)
	jne	.LBB35_57
	movq	48(%r11), %rcx
	cmpq	8(%rsp), %rcx
	setae	%al
	movl	$2, %edx
	cmovbl	%ecx, %edx
.LBB35_57:
	movzbl	%dl, %ebp
	xorl	%esi, %esi
	testb	%al, %al
	movl	$12, %edi
	jmp	.LBB35_116
.LBB35_58:
	movl	(%rdi), %eax
	movl	3(%rdi), %edx
	shlq	$32, %rdx
	orq	%rax, %rdx
	movabsq	$7237954708246589045, %rax
	cmpq	%rax, %rdx
	jne	.LBB35_78
	cmpq	$2, %rbp
	jne	.LBB35_117
	movb	$1, %al
	cmpb	$2, (%r12)
	jne	.LBB35_154
	movw	$2, %dx
	cmpb	$0, 40(%r11)
	jne	.LBB35_155
	movq	48(%r11), %rsi
	cmpq	8(%rsp), %rsi
	jae	.LBB35_155
	cmpb	$2, 64(%r11)
	jne	.LBB35_154
	cmpb	$0, 72(%r11)
	jne	.LBB35_155
	movq	80(%r11), %rcx
	cmpq	16(%rsp), %rcx
	jae	.LBB35_155
	xorl	%eax, %eax
	movl	%ecx, %edx
	jmp	.LBB35_118
.LBB35_67:
	movabsq	$7955443211267697011, %rdx
	cmpq	%rdx, %rax
	je	.LBB35_122
	movabsq	$7956012719636311914, %rdx
	cmpq	%rdx, %rax
	je	.LBB35_138
	movabsq	$8391157623389643110, %rdx
	cmpq	%rdx, %rax
	jne	.LBB35_78
	cmpq	$2, %rbp
	jne	.LBB35_162
	movb	$1, %al
	cmpb	$2, (%r12)
	jne	.LBB35_178
	movw	$2, %dx
	cmpb	$0, 40(%r11)
	jne	.LBB35_179
	movq	48(%r11), %rsi
	cmpq	8(%rsp), %rsi
	jae	.LBB35_179
	cmpb	$2, 64(%r11)
	jne	.LBB35_178
	cmpb	$0, 72(%r11)
	jne	.LBB35_179
	movq	80(%r11), %rcx
	cmpq	16(%rsp), %rcx
	jae	.LBB35_179
	xorl	%eax, %eax
	movl	%ecx, %edx
	jmp	.LBB35_163
.LBB35_78:
	movq	%r10, %r13
	movq	%r15, %rbx
	movq	%r9, %r15
	leaq	.Lstatic.42(%rip), %rdx
	movl	$5, %ecx
	callq	core__lang__str_eq
	testb	%al, %al
	je	.LBB35_205
	leaq	25(%rsp), %rdi
	movq	8(%rsp), %rsi
	movq	16(%rsp), %rdx
	movq	%r12, %rcx
	movq	%rbp, %r8
	callq	ww_schedule__events__both_of
	movzbl	25(%rsp), %eax
	xorl	%ecx, %ecx
	testb	%al, %al
	movzbl	26(%rsp), %ebp
	movl	$16, %edi
	cmovnel	%ebp, %edi
	cmovnel	%ecx, %ebp
	movzbl	27(%rsp), %esi
	cmovnel	%ecx, %esi
	movq	%r15, %r9
	movq	%rbx, %r15
	movq	96(%rsp), %rbx
	movq	%r13, %r10
	jmp	.LBB35_185
.LBB35_80:
	cmpq	$2, %rbp
	jne	.LBB35_119
	movb	$1, %al
	cmpb	$2, (%r12)
	jne	.LBB35_156
	movw	$2, %dx
	cmpb	$0, 40(%r11)
	jne	.LBB35_157
	movq	48(%r11), %rsi
	cmpq	8(%rsp), %rsi
	jae	.LBB35_157
	cmpb	$2, 64(%r11)
	jne	.LBB35_156
	cmpb	$0, 72(%r11)
	jne	.LBB35_157
	movq	80(%r11), %rcx
	cmpq	8(%rsp), %rcx
	jae	.LBB35_157
	xorl	%eax, %eax
	movl	%ecx, %edx
	jmp	.LBB35_120
.LBB35_88:
	movb	$4, %dl
	movb	$1, %al
	cmpq	$1, %rbp
	jne	.LBB35_92
	movb	$8, %dl
	cmpb	$2, (%r12)
	jne	.LBB35_92
	movb	$2, %dl
	cmpb	$0, 40(%r11)
	jne	.LBB35_92
	movq	48(%r11), %rcx
	cmpq	8(%rsp), %rcx
	setae	%al
	movl	$2, %edx
	cmovbl	%ecx, %edx
.LBB35_92:
	movzbl	%dl, %ebp
	xorl	%esi, %esi
	testb	%al, %al
	movl	$1, %edi
	jmp	.LBB35_116
.LBB35_93:
	cmpq	$2, %rbp
	jne	.LBB35_146
	movb	$1, %al
	cmpb	$2, (%r12)
	jne	.LBB35_168
	movw	$2, %dx
	cmpb	$0, 40(%r11)
	jne	.LBB35_169
	movq	48(%r11), %rsi
	cmpq	8(%rsp), %rsi
	jae	.LBB35_169
	cmpb	$2, 64(%r11)
	jne	.LBB35_168
	cmpb	$0, 72(%r11)
	jne	.LBB35_169
	movq	80(%r11), %rcx
	cmpq	16(%rsp), %rcx
	jae	.LBB35_169
	xorl	%eax, %eax
	movl	%ecx, %edx
	jmp	.LBB35_147
.LBB35_101:
	movw	$4, %si
	movb	$1, %al
	xorl	%edx, %edx
.LBB35_102:
	movzbl	%sil, %ecx
	shll	$8, %edx
	orl	%ecx, %edx
	jmp	.LBB35_149
.LBB35_103:
	cmpq	$2, %rbp
	jne	.LBB35_150
	movb	$1, %al
	cmpb	$2, (%r12)
	jne	.LBB35_170
	movw	$2, %dx
	cmpb	$0, 40(%r11)
	jne	.LBB35_171
	movq	48(%r11), %rsi
	cmpq	8(%rsp), %rsi
	jae	.LBB35_171
	cmpb	$2, 64(%r11)
	jne	.LBB35_170
	cmpb	$0, 72(%r11)
	jne	.LBB35_171
	movq	80(%r11), %rcx
	cmpq	16(%rsp), %rcx
	jae	.LBB35_171
	xorl	%eax, %eax
	movl	%ecx, %edx
	jmp	.LBB35_151
.LBB35_111:
	movb	$4, %dl
	movb	$1, %al
	cmpq	$1, %rbp
	jne	.LBB35_115
	movb	$8, %dl
	cmpb	$2, (%r12)
	jne	.LBB35_115
	movb	$2, %dl
	cmpb	$0, 40(%r11)
	jne	.LBB35_115
	movq	48(%r11), %rcx
	cmpq	8(%rsp), %rcx
	setae	%al
	movl	$2, %edx
	cmovbl	%ecx, %edx
.LBB35_115:
	movzbl	%dl, %ebp
	xorl	%esi, %esi
	testb	%al, %al
	movl	$13, %edi
.LBB35_116:
	cmovnel	%ebp, %edi
	cmovnel	%esi, %ebp
	jmp	.LBB35_185
.LBB35_117:
	movw	$4, %si
	movb	$1, %al
	xorl	%edx, %edx
.LBB35_118:
	movzbl	%sil, %ecx
	shll	$8, %edx
	orl	%ecx, %edx
	jmp	.LBB35_155
.LBB35_119:
	movw	$4, %si
	movb	$1, %al
	xorl	%edx, %edx
.LBB35_120:
	movzbl	%sil, %ecx
	shll	$8, %edx
	orl	%ecx, %edx
	jmp	.LBB35_157
.LBB35_121:
	leaq	28(%rsp), %rdi
	movq	8(%rsp), %rsi
	movq	16(%rsp), %rdx
	movq	%r12, %rcx
	movq	%rbp, %r8
	movq	%rbx, %r12
	movq	%r15, %rbx
	movq	%r9, %r15
	movq	%r10, %r13
	callq	ww_schedule__events__both_of
	movq	%r13, %r10
	movq	%r15, %r9
	movq	%rbx, %r15
	movq	%r12, %rbx
	movzbl	28(%rsp), %eax
	xorl	%ecx, %ecx
	testb	%al, %al
	movzbl	29(%rsp), %ebp
	movl	$15, %edi
	cmovnel	%ebp, %edi
	cmovnel	%ecx, %ebp
	movzbl	30(%rsp), %esi
	cmovnel	%ecx, %esi
	jmp	.LBB35_185
.LBB35_122:
	cmpq	$2, %rbp
	jne	.LBB35_158
	movb	$1, %al
	cmpb	$2, (%r12)
	jne	.LBB35_174
	movw	$2, %dx
	cmpb	$0, 40(%r11)
	jne	.LBB35_175
	movq	48(%r11), %rsi
	cmpq	8(%rsp), %rsi
	jae	.LBB35_175
	cmpb	$2, 64(%r11)
	jne	.LBB35_174
	cmpb	$0, 72(%r11)
	jne	.LBB35_175
	movq	80(%r11), %rcx
	cmpq	8(%rsp), %rcx
	jae	.LBB35_175
	xorl	%eax, %eax
	movl	%ecx, %edx
	jmp	.LBB35_159
.LBB35_130:
	cmpq	$2, %rbp
	jne	.LBB35_164
	movb	$1, %al
	cmpb	$2, (%r12)
	jne	.LBB35_180
	movw	$2, %dx
	cmpb	$0, 40(%r11)
	jne	.LBB35_181
	movq	48(%r11), %rsi
	cmpq	8(%rsp), %rsi
	jae	.LBB35_181
	cmpb	$2, 64(%r11)
	jne	.LBB35_180
	cmpb	$0, 72(%r11)
	jne	.LBB35_181
	movq	80(%r11), %rcx
	cmpq	16(%rsp), %rcx
	jae	.LBB35_181
	xorl	%eax, %eax
	movl	%ecx, %edx
	jmp	.LBB35_165
.LBB35_138:
	cmpq	$2, %rbp
	jne	.LBB35_166
	movb	$1, %al
	cmpb	$2, (%r12)
	jne	.LBB35_182
	movw	$2, %dx
	cmpb	$0, 40(%r11)
	jne	.LBB35_183
	movq	48(%r11), %rsi
	cmpq	8(%rsp), %rsi
	jae	.LBB35_183
	cmpb	$2, 64(%r11)
	jne	.LBB35_182
	cmpb	$0, 72(%r11)
	jne	.LBB35_183
	movq	80(%r11), %rcx
	cmpq	16(%rsp), %rcx
	jae	.LBB35_183
	xorl	%eax, %eax
	movl	%ecx, %edx
	jmp	.LBB35_167
.LBB35_148:
	movw	$8, %dx
.LBB35_149:
	movzwl	%dx, %esi
	movl	%esi, %ecx
	shrl	$8, %esi
	xorl	%edx, %edx
	testb	%al, %al
	movl	$3, %edi
	jmp	.LBB35_184
.LBB35_154:
	movw	$8, %dx
.LBB35_155:
	movzwl	%dx, %esi
	movl	%esi, %ecx
	shrl	$8, %esi
	xorl	%edx, %edx
	testb	%al, %al
	movl	$11, %edi
	jmp	.LBB35_184
.LBB35_146:
	movw	$4, %si
	movb	$1, %al
	xorl	%edx, %edx
.LBB35_147:
	movzbl	%sil, %ecx
	shll	$8, %edx
	orl	%ecx, %edx
	jmp	.LBB35_169
.LBB35_150:
	movw	$4, %si
	movb	$1, %al
	xorl	%edx, %edx
.LBB35_151:
	movzbl	%sil, %ecx
	shll	$8, %edx
	orl	%ecx, %edx
	jmp	.LBB35_171
.LBB35_152:
	movw	$4, %si
	movb	$1, %al
	xorl	%edx, %edx
.LBB35_153:
	movzbl	%sil, %ecx
	shll	$8, %edx
	orl	%ecx, %edx
	jmp	.LBB35_173
.LBB35_156:
	movw	$8, %dx
.LBB35_157:
	movzwl	%dx, %esi
	movl	%esi, %ecx
	shrl	$8, %esi
	xorl	%edx, %edx
	testb	%al, %al
	movl	$14, %edi
	jmp	.LBB35_184
.LBB35_158:
	movw	$4, %si
	movb	$1, %al
	xorl	%edx, %edx
.LBB35_159:
	movzbl	%sil, %ecx
	shll	$8, %edx
	orl	%ecx, %edx
	jmp	.LBB35_175
.LBB35_160:
	movw	$4, %si
	movb	$1, %al
	xorl	%edx, %edx
.LBB35_161:
	movzbl	%sil, %ecx
	shll	$8, %edx
	orl	%ecx, %edx
	jmp	.LBB35_177
.LBB35_162:
	movw	$4, %si
	movb	$1, %al
	xorl	%edx, %edx
.LBB35_163:
	movzbl	%sil, %ecx
	shll	$8, %edx
	orl	%ecx, %edx
	jmp	.LBB35_179
.LBB35_164:
	movw	$4, %si
	movb	$1, %al
	xorl	%edx, %edx
.LBB35_165:
	movzbl	%sil, %ecx
	shll	$8, %edx
	orl	%ecx, %edx
	jmp	.LBB35_181
.LBB35_166:
	movw	$4, %si
	movb	$1, %al
	xorl	%edx, %edx
.LBB35_167:
	movzbl	%sil, %ecx
	shll	$8, %edx
	orl	%ecx, %edx
	jmp	.LBB35_183
.LBB35_168:
	movw	$8, %dx
.LBB35_169:
	movzwl	%dx, %esi
	movl	%esi, %ecx
	shrl	$8, %esi
	xorl	%edx, %edx
	testb	%al, %al
	movl	$4, %edi
	jmp	.LBB35_184
.LBB35_170:
	movw	$8, %dx
.LBB35_171:
	movzwl	%dx, %esi
	movl	%esi, %ecx
	shrl	$8, %esi
	xorl	%edx, %edx
	testb	%al, %al
	movl	$10, %edi
	jmp	.LBB35_184
.LBB35_172:
	movw	$8, %dx
.LBB35_173:
	movzwl	%dx, %esi
	movl	%esi, %ecx
	shrl	$8, %esi
	xorl	%edx, %edx
	testb	%al, %al
	movl	$8, %edi
	jmp	.LBB35_184
.LBB35_174:
	movw	$8, %dx
.LBB35_175:
	movzwl	%dx, %esi
	movl	%esi, %ecx
	shrl	$8, %esi
	xorl	%edx, %edx
	testb	%al, %al
	movl	$6, %edi
	jmp	.LBB35_184
.LBB35_176:
	movw	$8, %dx
.LBB35_177:
	movzwl	%dx, %esi
	movl	%esi, %ecx
	shrl	$8, %esi
	xorl	%edx, %edx
	testb	%al, %al
	movl	$9, %edi
	jmp	.LBB35_184
.LBB35_178:
	movw	$8, %dx
.LBB35_179:
	movzwl	%dx, %esi
	movl	%esi, %ecx
	shrl	$8, %esi
	xorl	%edx, %edx
	testb	%al, %al
	movl	$2, %edi
	jmp	.LBB35_184
.LBB35_180:
	movw	$8, %dx
.LBB35_181:
	movzwl	%dx, %esi
	movl	%esi, %ecx
	shrl	$8, %esi
	xorl	%edx, %edx
	testb	%al, %al
	movl	$7, %edi
	jmp	.LBB35_184
.LBB35_182:
	movw	$8, %dx
.LBB35_183:
	movzwl	%dx, %esi
	movl	%esi, %ecx
	shrl	$8, %esi
	xorl	%edx, %edx
	testb	%al, %al
	movl	$5, %edi
.LBB35_184:
	cmovnel	%ecx, %edi
	movl	$0, %ebp
	cmovel	%ecx, %ebp
	cmovnel	%edx, %esi
.LBB35_185:
	testb	%al, %al
	jne	.LBB35_206
	cmpq	%r10, 48(%rsp)
	je	.LBB35_188
.LBB35_187:
	leaq	(%r10,%r10,2), %rax
	movb	%dil, (%r9,%rax)
	movb	%bpl, 1(%r9,%rax)
	movb	%sil, 2(%r9,%rax)
	incq	%r10
	movq	%r10, 40(%rsp)
	addq	$32, %r15
	decq	%r14
	jne	.LBB35_5
	jmp	.LBB35_203
.LBB35_188:
	movl	%edi, %r13d
	movl	%esi, %r12d
	leaq	32(%rsp), %rdi
	callq	std_alloc__vec__Vec__grow_amortized____d0b01af7953c0ba8_
	testb	%al, %al
	je	.LBB35_209
	movq	32(%rsp), %r9
	movq	40(%rsp), %r10
	movl	%r12d, %esi
	movl	%r13d, %edi
	jmp	.LBB35_187
.LBB35_201:
	movb	$1, (%rbx)
	movb	%al, 1(%rbx)
	movups	%xmm0, 8(%rbx)
	movq	$0, 24(%rbx)
	jmp	.LBB35_214
.LBB35_202:
	leaq	31(%rsp), %rax
	movq	%rax, 32(%rsp)
.LBB35_203:
	movq	48(%rsp), %rax
	movq	%rax, 86(%rsp)
	movq	32(%rsp), %rax
	movq	%rax, 70(%rsp)
	movq	40(%rsp), %rax
	movq	%rax, 78(%rsp)
	xorl	%eax, %eax
	xorl	%edi, %edi
	jmp	.LBB35_213
.LBB35_204:
	movb	$4, %dil
	jmp	.LBB35_206
.LBB35_205:
	movb	$4, %dil
	movq	96(%rsp), %rbx
.LBB35_206:
	cmpq	$0, 48(%rsp)
	je	.LBB35_208
	movl	%edi, %ebp
	movq	32(%rsp), %rdi
	callq	rattle_dealloc@PLT
	movl	%ebp, %edi
.LBB35_208:
	xorps	%xmm0, %xmm0
	movups	%xmm0, 70(%rsp)
	movq	$0, 86(%rsp)
	jmp	.LBB35_212
.LBB35_209:
	cmpq	$0, 48(%rsp)
	je	.LBB35_211
	movq	32(%rsp), %rdi
	callq	rattle_dealloc@PLT
.LBB35_211:
	xorps	%xmm0, %xmm0
	movups	%xmm0, 70(%rsp)
	movq	$0, 86(%rsp)
	movb	$6, %dil
.LBB35_212:
	movb	$1, %al
.LBB35_213:
	movb	%al, (%rbx)
	movb	%dil, 1(%rbx)
	movq	70(%rsp), %rax
	movq	%rax, 8(%rbx)
	movq	78(%rsp), %rax
	movq	%rax, 16(%rbx)
	movq	86(%rsp), %rax
	movq	%rax, 24(%rbx)
.LBB35_214:
	addq	$104, %rsp
	popq	%rbx
	popq	%r12
	popq	%r13
	popq	%r14
	popq	%r15
	popq	%rbp
	retq
.Lfunc_end35:
	.size	ww_schedule__schedules__events_of, .Lfunc_end35-ww_schedule__schedules__events_of
	.section	.rodata.ww_schedule__schedules__events_of,"a",@progbits
	.p2align	2, 0x0
.LJTI35_0:
	.long	.LBB35_10-.LJTI35_0
	.long	.LBB35_39-.LJTI35_0
	.long	.LBB35_21-.LJTI35_0
	.long	.LBB35_51-.LJTI35_0
	.long	.LBB35_58-.LJTI35_0
	.long	.LBB35_78-.LJTI35_0
	.long	.LBB35_29-.LJTI35_0

	.section	.text.ww_schedule__events__both_of,"ax",@progbits
	.p2align	4
	.type	ww_schedule__events__both_of,@function
ww_schedule__events__both_of:
	cmpq	$2, %r8
	jne	.LBB36_1
	movw	$8, %r8w
	cmpb	$2, (%rcx)
	jne	.LBB36_10
	movw	$2, %r8w
	cmpb	$0, 8(%rcx)
	jne	.LBB36_10
	movq	16(%rcx), %rax
	movzbl	%sil, %esi
	cmpq	%rsi, %rax
	jae	.LBB36_10
	movw	$8, %si
	cmpb	$2, 32(%rcx)
	jne	.LBB36_12
	movw	$2, %si
	cmpb	$0, 40(%rcx)
	jne	.LBB36_12
	movq	48(%rcx), %rcx
	movzbl	%dl, %edx
	cmpq	%rdx, %rcx
	jae	.LBB36_12
	xorl	%edx, %edx
	jmp	.LBB36_2
.LBB36_1:
	movw	$4, %ax
	movb	$1, %dl
	xorl	%ecx, %ecx
.LBB36_2:
	movzbl	%al, %eax
	shll	$8, %ecx
	orl	%eax, %ecx
	movb	%dl, (%rdi)
	movw	%cx, 1(%rdi)
	retq
.LBB36_10:
	movb	$1, (%rdi)
	movw	%r8w, 1(%rdi)
	retq
.LBB36_12:
	movb	$1, (%rdi)
	movw	%si, 1(%rdi)
	retq
.Lfunc_end36:
	.size	ww_schedule__events__both_of, .Lfunc_end36-ww_schedule__events__both_of

	.section	.text.unlikely.std_alloc__vec__Vec__grow_amortized____d0b01af7953c0ba8_,"ax",@progbits
	.p2align	4
	.type	std_alloc__vec__Vec__grow_amortized____d0b01af7953c0ba8_,@function
std_alloc__vec__Vec__grow_amortized____d0b01af7953c0ba8_:
	movq	8(%rdi), %rax
	cmpq	$-1, %rax
	je	.LBB37_5
	pushq	%r14
	pushq	%rbx
	pushq	%rax
	movq	16(%rdi), %rcx
	cmpq	$4, %rax
	movl	$3, %ebx
	cmovaeq	%rax, %rbx
	incq	%rbx
	movq	%rcx, %rsi
	shrq	$62, %rsi
	leaq	(%rcx,%rcx), %rdx
	cmpq	%rdx, %rbx
	cmovaq	%rbx, %rdx
	testq	%rsi, %rsi
	cmoveq	%rdx, %rbx
	movabsq	$3074457345618258602, %rsi
	cmpq	%rsi, %rbx
	ja	.LBB37_6
	testq	%rcx, %rcx
	je	.LBB37_8
	movq	%rdi, %r14
	movq	(%rdi), %rdi
	leaq	(%rax,%rax,2), %rsi
	leaq	(%rbx,%rbx,2), %rdx
	movl	$1, %ecx
	callq	rattle_realloc@PLT
	testb	$1, %al
	je	.LBB37_6
.LBB37_9:
	movq	%rdx, (%r14)
	movq	%rbx, 16(%r14)
	movb	$1, %al
	addq	$8, %rsp
	popq	%rbx
	popq	%r14
	retq
.LBB37_5:
	xorl	%eax, %eax
	retq
.LBB37_8:
	movq	%rdi, %r14
	leaq	(%rdx,%rdx,2), %rdi
	movl	$1, %esi
	callq	rattle_alloc@PLT
	testb	$1, %al
	jne	.LBB37_9
.LBB37_6:
	xorl	%eax, %eax
	addq	$8, %rsp
	popq	%rbx
	popq	%r14
	retq
.Lfunc_end37:
	.size	std_alloc__vec__Vec__grow_amortized____d0b01af7953c0ba8_, .Lfunc_end37-std_alloc__vec__Vec__grow_amortized____d0b01af7953c0ba8_

	.section	.text.ww_script_parts__scripts__graph_of,"ax",@progbits
	.p2align	4
	.type	ww_script_parts__scripts__graph_of,@function
ww_script_parts__scripts__graph_of:
	pushq	%rbp
	pushq	%r15
	pushq	%r14
	pushq	%r13
	pushq	%r12
	pushq	%rbx
	subq	$280, %rsp
	xorps	%xmm0, %xmm0
	movaps	%xmm0, 144(%rsp)
	movaps	%xmm0, 128(%rsp)
	movq	$0, 160(%rsp)
	movaps	%xmm0, 176(%rsp)
	movq	$0, 192(%rsp)
	movaps	%xmm0, 208(%rsp)
	movups	%xmm0, 222(%rsp)
	movaps	%xmm0, 240(%rsp)
	movups	%xmm0, 254(%rsp)
	movups	%xmm0, 62(%rsp)
	movaps	%xmm0, 48(%rsp)
	movb	$8, %bl
	cmpb	$4, (%rdx)
	jne	.LBB38_38
	movq	16(%rdx), %r13
	leaq	-1(%r13), %rax
	movb	$2, %bl
	cmpq	$63, %rax
	ja	.LBB38_38
	movl	%esi, %ebx
	movq	%rdi, (%rsp)
	movq	8(%rdx), %r14
	leaq	(,%r13,8), %rax
	leaq	(%rax,%rax,2), %rdi
	movl	$8, %esi
	callq	rattle_alloc@PLT
	testb	$1, %al
	je	.LBB38_37
	movq	%rdx, 8(%rsp)
	movq	$0, 16(%rsp)
	movq	%r13, 24(%rsp)
	xorl	%eax, %eax
	testb	%bl, %bl
	setne	%al
	leaq	4(,%rax,4), %r12
	xorl	%eax, %eax
	xorl	%edi, %edi
	movq	%r14, 96(%rsp)
.LBB38_4:
	movq	%rax, %r15
	shlq	$5, %r15
	movb	$8, %bl
	cmpb	$5, (%r14,%r15)
	jne	.LBB38_31
	movq	%rdi, 112(%rsp)
	movq	%rax, 104(%rsp)
	movq	%rdx, 120(%rsp)
	addq	%r14, %r15
	movq	24(%r15), %rbp
	leaq	.Lstatic.46(%rip), %rdi
	movl	$5, %esi
	movq	%r15, %rdx
	callq	serde_json__index__RefStrIndex__index_into
	cmpb	$1, %al
	jne	.LBB38_30
	movq	%rdx, %r14
	leaq	.Lstatic.47(%rip), %rdi
	movl	$5, %esi
	movq	%r15, %rdx
	callq	serde_json__index__RefStrIndex__index_into
	cmpb	$1, %al
	jne	.LBB38_30
	cmpq	$2, %rbp
	movq	(%rsp), %rdi
	jne	.LBB38_8
	cmpb	$2, (%r14)
	jne	.LBB38_32
	cmpb	$0, 8(%r14)
	jne	.LBB38_11
	cmpb	$4, (%rdx)
	jne	.LBB38_32
	movb	$2, %bl
	cmpq	%r12, 16(%rdx)
	jne	.LBB38_32
	movq	16(%r14), %r14
	movq	8(%rdx), %rax
	xorps	%xmm0, %xmm0
	movaps	%xmm0, 32(%rsp)
	addq	$16, %rax
	xorl	%ecx, %ecx
	jmp	.LBB38_15
	.p2align	4
.LBB38_22:
	movb	%sil, 32(%rsp,%rcx,2)
	movb	%dl, 33(%rsp,%rcx,2)
	incq	%rcx
	addq	$32, %rax
	cmpq	%rcx, %r12
	je	.LBB38_23
.LBB38_15:
	movzbl	-16(%rax), %esi
	movl	%esi, %edx
	testl	%esi, %esi
	je	.LBB38_22
	cmpl	$2, %esi
	jne	.LBB38_17
	movb	$2, %bl
	cmpb	$0, -8(%rax)
	jne	.LBB38_32
	movq	(%rax), %rdx
	cmpq	$63, %rdx
	ja	.LBB38_32
	cmpq	%rdx, %r13
	jbe	.LBB38_29
	movb	$1, %sil
	jmp	.LBB38_22
.LBB38_23:
	movzbl	32(%rsp), %ebx
	leaq	33(%rsp), %rcx
	movq	(%rcx), %rax
	movq	7(%rcx), %rcx
	movq	%rcx, 87(%rsp)
	movq	%rax, 80(%rsp)
	movq	112(%rsp), %rdi
	cmpq	%rdi, 24(%rsp)
	movq	120(%rsp), %rdx
	je	.LBB38_24
.LBB38_26:
	leaq	(%rdi,%rdi,2), %rax
	movq	%r14, (%rdx,%rax,8)
	movb	%bl, 8(%rdx,%rax,8)
	movq	80(%rsp), %rcx
	movq	87(%rsp), %rsi
	movq	%rcx, 9(%rdx,%rax,8)
	movq	%rsi, 16(%rdx,%rax,8)
	incq	%rdi
	movq	%rdi, 16(%rsp)
	movq	104(%rsp), %rax
	incq	%rax
	cmpq	%r13, %rax
	movq	96(%rsp), %r14
	jne	.LBB38_4
	jmp	.LBB38_27
.LBB38_24:
	leaq	8(%rsp), %rdi
	callq	std_alloc__vec__Vec__grow_amortized____43b2465df0c940d2_
	testb	%al, %al
	je	.LBB38_35
	movq	8(%rsp), %rdx
	movq	16(%rsp), %rdi
	jmp	.LBB38_26
.LBB38_17:
	movb	$8, %bl
	jmp	.LBB38_32
.LBB38_29:
	movb	$3, %bl
	jmp	.LBB38_32
.LBB38_30:
	notb	%al
	andb	$1, %al
	movl	%eax, %ebx
.LBB38_31:
	movq	(%rsp), %rdi
	jmp	.LBB38_32
.LBB38_8:
	movb	$1, %bl
	jmp	.LBB38_32
.LBB38_11:
	movb	$2, %bl
.LBB38_32:
	cmpq	$0, 24(%rsp)
	je	.LBB38_34
	movq	8(%rsp), %rdi
	callq	rattle_dealloc@PLT
	movq	(%rsp), %rdi
.LBB38_34:
	xorps	%xmm0, %xmm0
	movups	%xmm0, 54(%rsp)
	movq	$0, 70(%rsp)
	jmp	.LBB38_38
.LBB38_27:
	movq	24(%rsp), %rax
	movups	8(%rsp), %xmm0
	movups	%xmm0, 214(%rsp)
	movq	%rax, 230(%rsp)
	movaps	%xmm0, 176(%rsp)
	movq	%rax, 192(%rsp)
	leaq	128(%rsp), %rdi
	leaq	176(%rsp), %rsi
	callq	ww_plain__graph__Graph__new
	movzbl	128(%rsp), %eax
	testb	%al, %al
	je	.LBB38_28
	leaq	246(%rsp), %rbx
	cmpb	$1, %al
	jne	.LBB38_42
	cmpq	$0, 152(%rsp)
	je	.LBB38_42
	movq	136(%rsp), %rdi
	callq	rattle_dealloc@PLT
.LBB38_42:
	movq	(%rsp), %rax
	movw	$769, (%rax)
	movups	(%rbx), %xmm0
	movups	%xmm0, 8(%rax)
	movq	16(%rbx), %rcx
	jmp	.LBB38_43
.LBB38_28:
	movq	(%rsp), %rax
	movw	$0, (%rax)
	movups	136(%rsp), %xmm0
	movups	%xmm0, 8(%rax)
	movq	152(%rsp), %rcx
.LBB38_43:
	movq	%rcx, 24(%rax)
	jmp	.LBB38_44
.LBB38_35:
	cmpq	$0, 24(%rsp)
	je	.LBB38_37
	movq	8(%rsp), %rdi
	callq	rattle_dealloc@PLT
.LBB38_37:
	xorps	%xmm0, %xmm0
	movups	%xmm0, 54(%rsp)
	movq	$0, 70(%rsp)
	movb	$6, %bl
	movq	(%rsp), %rdi
.LBB38_38:
	movb	$1, (%rdi)
	movb	%bl, 1(%rdi)
	movups	%xmm0, 8(%rdi)
	movq	$0, 24(%rdi)
.LBB38_44:
	addq	$280, %rsp
	popq	%rbx
	popq	%r12
	popq	%r13
	popq	%r14
	popq	%r15
	popq	%rbp
	retq
.Lfunc_end38:
	.size	ww_script_parts__scripts__graph_of, .Lfunc_end38-ww_script_parts__scripts__graph_of

	.section	.text.ww_plain__graph__Graph__new,"ax",@progbits
	.p2align	4
	.type	ww_plain__graph__Graph__new,@function
ww_plain__graph__Graph__new:
	movq	(%rsi), %rdx
	movq	8(%rsi), %rcx
	movq	16(%rsi), %rax
	movl	$0, -5(%rsp)
	movl	$0, -8(%rsp)
	leaq	-65(%rcx), %rsi
	cmpq	$-64, %rsi
	jae	.LBB39_2
	movq	$1, (%rdi)
	movq	%rdx, 8(%rdi)
	movq	%rcx, 16(%rdi)
	movq	%rax, 24(%rdi)
	movq	$0, 32(%rdi)
	retq
.LBB39_2:
	leaq	23(%rdx), %rsi
	movq	%rcx, %r8
	jmp	.LBB39_4
	.p2align	4
.LBB39_3:
	decq	%r8
	addq	$24, %rsi
	testq	%r8, %r8
	je	.LBB39_21
.LBB39_4:
	cmpb	$1, -15(%rsi)
	jne	.LBB39_6
	cmpb	%cl, -14(%rsi)
	jae	.LBB39_28
.LBB39_6:
	cmpb	$1, -13(%rsi)
	jne	.LBB39_8
	cmpb	%cl, -12(%rsi)
	jae	.LBB39_28
.LBB39_8:
	cmpb	$1, -11(%rsi)
	jne	.LBB39_10
	cmpb	%cl, -10(%rsi)
	jae	.LBB39_28
.LBB39_10:
	cmpb	$1, -9(%rsi)
	jne	.LBB39_12
	cmpb	%cl, -8(%rsi)
	jae	.LBB39_28
.LBB39_12:
	cmpb	$1, -7(%rsi)
	jne	.LBB39_14
	cmpb	%cl, -6(%rsi)
	jae	.LBB39_28
.LBB39_14:
	cmpb	$1, -5(%rsi)
	jne	.LBB39_16
	cmpb	%cl, -4(%rsi)
	jae	.LBB39_28
.LBB39_16:
	cmpb	$1, -3(%rsi)
	jne	.LBB39_18
	cmpb	%cl, -2(%rsi)
	jae	.LBB39_28
.LBB39_18:
	cmpb	$1, -1(%rsi)
	jne	.LBB39_3
	cmpb	%cl, (%rsi)
	jb	.LBB39_3
.LBB39_28:
	movb	$1, %sil
.LBB39_29:
	movzbl	%sil, %esi
	movq	%rsi, (%rdi)
	movq	%rdx, 8(%rdi)
	movq	%rcx, 16(%rdi)
	movq	%rax, 24(%rdi)
	movb	%sil, 32(%rdi)
	movl	-8(%rsp), %eax
	movl	-5(%rsp), %ecx
	movl	%eax, 33(%rdi)
	movl	%ecx, 36(%rdi)
	retq
.LBB39_21:
	xorl	%esi, %esi
	jmp	.LBB39_29
.Lfunc_end39:
	.size	ww_plain__graph__Graph__new, .Lfunc_end39-ww_plain__graph__Graph__new

	.section	.text.ww_script_parts__scripts__all_scripts_of,"ax",@progbits
	.p2align	4
	.type	ww_script_parts__scripts__all_scripts_of,@function
ww_script_parts__scripts__all_scripts_of:
	pushq	%rbp
	pushq	%r15
	pushq	%r14
	pushq	%r13
	pushq	%r12
	pushq	%rbx
	subq	$360, %rsp
	movq	%rdi, %rbx
	pxor	%xmm0, %xmm0
	movdqu	%xmm0, 142(%rsp)
	movdqa	%xmm0, 128(%rsp)
	movb	$8, %al
	cmpb	$4, (%rcx)
	jne	.LBB40_54
	movq	16(%rcx), %r13
	leaq	-1(%r13), %rdi
	movb	$2, %al
	cmpq	$15, %rdi
	ja	.LBB40_54
	movl	%edx, %r12d
	movl	%esi, %r15d
	movq	8(%rcx), %rbp
	movdqa	%xmm0, 304(%rsp)
	movdqu	%xmm0, 318(%rsp)
	movdqa	%xmm0, 272(%rsp)
	movdqu	%xmm0, 286(%rsp)
	leaq	(,%r13,8), %rax
	leaq	(%rax,%rax,2), %rdi
	movl	$8, %esi
	callq	rattle_alloc@PLT
	testb	$1, %al
	je	.LBB40_84
	movq	%rdx, %r14
	movq	%rdx, 72(%rsp)
	movq	$0, 80(%rsp)
	movq	%r13, 88(%rsp)
	pxor	%xmm0, %xmm0
	movdqu	%xmm0, 174(%rsp)
	movdqa	%xmm0, 160(%rsp)
	cmpb	$4, (%rbp)
	jne	.LBB40_55
	movq	%rbp, %rcx
	movq	16(%rbp), %rbp
	cmpq	$10000, %rbp
	ja	.LBB40_57
	movzbl	%r12b, %eax
	shll	$8, %eax
	movzbl	%r15b, %edx
	movq	%rdx, 256(%rsp)
	orl	%edx, %eax
	movl	%eax, 4(%rsp)
	leaq	278(%rsp), %r12
	xorl	%r15d, %r15d
	movq	$0, 200(%rsp)
	movq	%rcx, %rax
	movq	%rcx, 264(%rsp)
	movq	%r13, 56(%rsp)
.LBB40_6:
	movq	8(%rax), %r13
	pxor	%xmm0, %xmm0
	movdqa	%xmm0, 96(%rsp)
	movq	$0, 112(%rsp)
	testq	%rbp, %rbp
	je	.LBB40_46
	leaq	(,%rbp,8), %rax
	leaq	(%rax,%rax,4), %rdi
	movl	$8, %esi
	callq	rattle_alloc@PLT
	testb	$1, %al
	je	.LBB40_78
	movq	%rdx, %r10
	movq	%rdx, 96(%rsp)
	movq	$0, 104(%rsp)
	movq	%rbp, 112(%rsp)
	addq	$16, %r13
	xorl	%r15d, %r15d
.LBB40_9:
	cmpb	$4, -16(%r13)
	jne	.LBB40_60
	movq	(%r13), %r9
	movb	$4, %r12b
	testq	%r9, %r9
	je	.LBB40_61
	movq	-8(%r13), %rax
	cmpb	$3, (%rax)
	jne	.LBB40_60
	movq	8(%rax), %rdx
	movq	16(%rax), %rcx
	decq	%r9
	leaq	32(%rax), %r8
	cmpq	$13, %rcx
	je	.LBB40_20
	cmpq	$6, %rcx
	jne	.LBB40_29
	movl	(%rdx), %esi
	movl	2(%rdx), %edi
	shlq	$32, %rdi
	orq	%rsi, %rdi
	movabsq	$7810758454509724003, %rsi
	cmpq	%rsi, %rdi
	jne	.LBB40_28
	cmpq	$1, %r9
	jne	.LBB40_61
	cmpb	$2, (%r8)
	movb	$8, %r12b
	jne	.LBB40_61
	movb	$2, %r12b
	cmpb	$0, 40(%rax)
	jne	.LBB40_61
	movq	48(%rax), %r14
	cmpq	56(%rsp), %r14
	jae	.LBB40_61
	xorps	%xmm1, %xmm1
	pxor	%xmm0, %xmm0
	movb	$2, %r12b
	xorl	%ecx, %ecx
	xorl	%r8d, %r8d
	jmp	.LBB40_38
.LBB40_20:
	movabsq	$8103508940177043049, %rsi
	cmpq	%rsi, (%rdx)
	jne	.LBB40_28
	movabsq	$7308324500380087666, %rsi
	cmpq	%rsi, 5(%rdx)
	jne	.LBB40_28
	cmpq	$1, %r9
	jne	.LBB40_61
	pxor	%xmm0, %xmm0
	movdqa	%xmm0, 16(%rsp)
	movdqa	%xmm0, 32(%rsp)
	movq	$0, 48(%rsp)
	cmpb	$4, (%r8)
	jne	.LBB40_60
	movq	48(%rax), %r9
	testq	%r9, %r9
	je	.LBB40_61
	movq	40(%rax), %r8
	movl	4(%rsp), %eax
	movw	%ax, 224(%rsp)
	movq	56(%rsp), %rax
	movb	%al, 226(%rsp)
	cmpb	$3, (%r8)
	jne	.LBB40_60
	movq	%r10, 208(%rsp)
	movq	8(%r8), %rdx
	movq	16(%r8), %rcx
	decq	%r9
	addq	$32, %r8
	leaq	16(%rsp), %rdi
	leaq	224(%rsp), %rsi
	callq	ww_script_parts__transactions__locking_worded
	cmpb	$0, 16(%rsp)
	jne	.LBB40_70
	movzbl	24(%rsp), %r8d
	movd	25(%rsp), %xmm0
	movq	32(%rsp), %rcx
	movups	40(%rsp), %xmm1
	xorl	%r14d, %r14d
	movb	$1, %r12b
	movq	208(%rsp), %r10
	jmp	.LBB40_38
.LBB40_28:
	movl	4(%rsp), %eax
	movw	%ax, (%rsp)
	movq	56(%rsp), %rax
	movb	%al, 2(%rsp)
	pxor	%xmm0, %xmm0
	movdqa	%xmm0, 16(%rsp)
	movdqa	%xmm0, 32(%rsp)
	movq	$0, 48(%rsp)
	jmp	.LBB40_36
.LBB40_29:
	movl	4(%rsp), %esi
	movw	%si, (%rsp)
	movq	56(%rsp), %rsi
	movb	%sil, 2(%rsp)
	pxor	%xmm0, %xmm0
	movdqa	%xmm0, 16(%rsp)
	movdqa	%xmm0, 32(%rsp)
	movq	$0, 48(%rsp)
	cmpq	$4, %rcx
	jne	.LBB40_36
	movl	(%rdx), %esi
	movq	%rsi, %rdi
	shlq	$32, %rdi
	orq	%rsi, %rdi
	movabsq	$7738703068218615152, %rsi
	cmpq	%rsi, %rdi
	jne	.LBB40_36
	movdqu	%xmm0, 235(%rsp)
	movdqa	%xmm0, 224(%rsp)
	cmpq	$1, %r9
	jne	.LBB40_42
	movb	$8, %r12b
	cmpb	$2, (%r8)
	jne	.LBB40_44
	movb	$2, %r12b
	cmpb	$0, 40(%rax)
	jne	.LBB40_44
	movq	48(%rax), %rcx
	cmpq	256(%rsp), %rcx
	jae	.LBB40_44
	leaq	227(%rsp), %rax
	movdqu	%xmm0, (%rax)
	movq	$0, 16(%rax)
	movb	$6, %r8b
	xorl	%r12d, %r12d
	xorl	%eax, %eax
	jmp	.LBB40_43
.LBB40_36:
	leaq	16(%rsp), %rdi
	movq	%rsp, %rsi
	movq	%r10, %r14
	callq	ww_script_parts__transactions__locking_worded
	movq	%r14, %r10
	movzbl	16(%rsp), %eax
	movzbl	17(%rsp), %r12d
	movzbl	24(%rsp), %r8d
	movd	25(%rsp), %xmm0
	testb	%al, %al
	jne	.LBB40_61
.LBB40_37:
	movq	32(%rsp), %rcx
	movups	40(%rsp), %xmm1
	xorl	%r12d, %r12d
	xorl	%r14d, %r14d
.LBB40_38:
	cmpq	%r15, 112(%rsp)
	je	.LBB40_40
.LBB40_39:
	leaq	(%r15,%r15,4), %rax
	movb	%r12b, (%r10,%rax,8)
	movb	%r14b, 1(%r10,%rax,8)
	movb	%r8b, 8(%r10,%rax,8)
	movd	%xmm0, 9(%r10,%rax,8)
	movq	%rcx, 16(%r10,%rax,8)
	movups	%xmm1, 24(%r10,%rax,8)
	incq	%r15
	movq	%r15, 104(%rsp)
	addq	$32, %r13
	decq	%rbp
	jne	.LBB40_9
	jmp	.LBB40_51
.LBB40_40:
	movaps	%xmm1, 208(%rsp)
	movdqa	%xmm0, 336(%rsp)
	movq	%rcx, 64(%rsp)
	movl	%r8d, 12(%rsp)
	leaq	96(%rsp), %rdi
	callq	std_alloc__vec__Vec__grow_amortized____2423f5a3228d8d71_
	testb	%al, %al
	je	.LBB40_72
	movq	96(%rsp), %r10
	movq	104(%rsp), %r15
	movl	12(%rsp), %r8d
	movq	64(%rsp), %rcx
	movdqa	336(%rsp), %xmm0
	movaps	208(%rsp), %xmm1
	jmp	.LBB40_39
.LBB40_42:
	movb	$1, %al
	movb	$4, %r12b
	xorl	%r8d, %r8d
	xorl	%ecx, %ecx
.LBB40_43:
	leaq	227(%rsp), %rdi
	movq	16(%rdi), %rdx
	leaq	32(%rsp), %rsi
	movq	%rdx, 16(%rsi)
	movdqu	(%rdi), %xmm0
	movdqu	%xmm0, (%rsi)
	jmp	.LBB40_45
.LBB40_44:
	leaq	32(%rsp), %rax
	movdqu	%xmm0, (%rax)
	movq	$0, 16(%rax)
	movb	$1, %al
	xorl	%ecx, %ecx
	xorl	%r8d, %r8d
.LBB40_45:
	movzbl	%cl, %ecx
	movd	%ecx, %xmm0
	testb	%al, %al
	je	.LBB40_37
	jmp	.LBB40_61
.LBB40_46:
	leaq	8(%rsp), %rax
	movq	%rax, 96(%rsp)
.LBB40_47:
	movq	112(%rsp), %rax
	leaq	166(%rsp), %rcx
	movq	%rax, 16(%rcx)
	movq	96(%rsp), %rax
	movq	%rax, (%rcx)
	movq	104(%rsp), %rax
	movq	%rax, 8(%rcx)
	movq	16(%rcx), %rax
	movq	%rax, 16(%r12)
	movq	(%rcx), %rax
	movq	%rax, (%r12)
	movq	8(%rcx), %rax
	movq	%rax, 8(%r12)
	cmpq	%r15, 88(%rsp)
	movq	56(%rsp), %r13
	movq	200(%rsp), %rbp
	je	.LBB40_52
.LBB40_48:
	movq	72(%rsp), %r14
	leaq	(%r15,%r15,2), %rax
	movq	16(%r12), %rcx
	movq	%rcx, 16(%r14,%rax,8)
	movdqu	(%r12), %xmm0
	movdqu	%xmm0, (%r14,%rax,8)
	incq	%r15
	movq	%r15, 80(%rsp)
	incq	%rbp
	cmpq	%r13, %rbp
	je	.LBB40_69
	movq	%rbp, %rax
	shlq	$5, %rax
	pxor	%xmm0, %xmm0
	movdqu	%xmm0, 174(%rsp)
	movdqa	%xmm0, 160(%rsp)
	movq	264(%rsp), %rcx
	cmpb	$4, (%rcx,%rax)
	jne	.LBB40_56
	movq	%rbp, 200(%rsp)
	addq	%rcx, %rax
	movq	16(%rax), %rbp
	cmpq	$10000, %rbp
	jbe	.LBB40_6
	jmp	.LBB40_58
.LBB40_51:
	movq	80(%rsp), %r15
	leaq	278(%rsp), %r12
	jmp	.LBB40_47
.LBB40_52:
	leaq	72(%rsp), %rdi
	callq	std_alloc__vec__Vec__grow_amortized____43b2465df0c940d2_
	testb	%al, %al
	je	.LBB40_79
	movq	80(%rsp), %r15
	jmp	.LBB40_48
.LBB40_54:
	movb	$1, (%rbx)
	movb	%al, 1(%rbx)
	movdqu	%xmm0, 8(%rbx)
	movq	$0, 24(%rbx)
	jmp	.LBB40_87
.LBB40_55:
	xorl	%r15d, %r15d
.LBB40_56:
	movb	$8, %bpl
	jmp	.LBB40_59
.LBB40_57:
	xorl	%r15d, %r15d
.LBB40_58:
	movb	$2, %bpl
.LBB40_59:
	movdqu	%xmm0, 278(%rsp)
	movq	$0, 294(%rsp)
	jmp	.LBB40_63
.LBB40_60:
	movb	$8, %r12b
.LBB40_61:
	leaq	96(%rsp), %rdi
	callq	std_alloc__vec__Vec__drop____98a5c0865d4d3e5d_
	pxor	%xmm0, %xmm0
	movdqu	%xmm0, 166(%rsp)
	movq	$0, 182(%rsp)
.LBB40_62:
	leaq	166(%rsp), %rdx
	movq	16(%rdx), %rax
	leaq	278(%rsp), %rcx
	movq	%rax, 16(%rcx)
	movups	(%rdx), %xmm0
	movups	%xmm0, (%rcx)
	movq	72(%rsp), %r14
	movq	80(%rsp), %r15
	movl	%r12d, %ebp
.LBB40_63:
	pxor	%xmm0, %xmm0
	movdqu	%xmm0, 310(%rsp)
	movq	$0, 326(%rsp)
	movq	88(%rsp), %r12
	testq	%r15, %r15
	je	.LBB40_66
	movq	%r14, %r13
	.p2align	4
.LBB40_65:
	movq	16(%r13), %rax
	movq	%rax, 32(%rsp)
	movdqu	(%r13), %xmm0
	movdqa	%xmm0, 16(%rsp)
	leaq	16(%rsp), %rdi
	callq	std_alloc__vec__Vec__drop____98a5c0865d4d3e5d_
	addq	$24, %r13
	decq	%r15
	jne	.LBB40_65
.LBB40_66:
	leaq	310(%rsp), %r15
	testq	%r12, %r12
	je	.LBB40_68
	movq	%r14, %rdi
	callq	rattle_dealloc@PLT
.LBB40_68:
	movq	16(%r15), %rax
	movq	%rax, 150(%rsp)
	movdqu	(%r15), %xmm0
	movdqu	%xmm0, 134(%rsp)
	jmp	.LBB40_85
.LBB40_69:
	movq	88(%rsp), %rax
	movq	%rax, 150(%rsp)
	movq	72(%rsp), %rax
	movq	%rax, 134(%rsp)
	movq	80(%rsp), %rax
	movq	%rax, 142(%rsp)
	xorl	%eax, %eax
	xorl	%ebp, %ebp
	jmp	.LBB40_86
.LBB40_70:
	movzbl	17(%rsp), %r12d
	jmp	.LBB40_61
.LBB40_72:
	pshufd	$238, 208(%rsp), %xmm0
	movq	%xmm0, %rax
	testb	%r12b, %r12b
	je	.LBB40_74
	movzbl	%r12b, %ecx
	cmpl	$1, %ecx
	jne	.LBB40_77
.LBB40_74:
	movzbl	12(%rsp), %ecx
	leal	-2(%rcx), %edx
	cmpl	$5, %edx
	jb	.LBB40_77
	cmpl	$1, %ecx
	testq	%rax, %rax
	je	.LBB40_77
	movq	64(%rsp), %rdi
	callq	rattle_dealloc@PLT
.LBB40_77:
	leaq	96(%rsp), %rdi
	callq	std_alloc__vec__Vec__drop____98a5c0865d4d3e5d_
.LBB40_78:
	pxor	%xmm0, %xmm0
	movdqu	%xmm0, 166(%rsp)
	movq	$0, 182(%rsp)
	movb	$6, %r12b
	jmp	.LBB40_62
.LBB40_79:
	movq	16(%r12), %rax
	movq	%rax, 32(%rsp)
	movdqu	(%r12), %xmm0
	movdqa	%xmm0, 16(%rsp)
	leaq	16(%rsp), %rdi
	callq	std_alloc__vec__Vec__drop____98a5c0865d4d3e5d_
	movq	72(%rsp), %r14
	movq	80(%rsp), %r12
	movq	88(%rsp), %r15
	testq	%r12, %r12
	je	.LBB40_82
	movq	%r14, %r13
.LBB40_81:
	movq	16(%r13), %rax
	movq	%rax, 32(%rsp)
	movdqu	(%r13), %xmm0
	movdqa	%xmm0, 16(%rsp)
	leaq	16(%rsp), %rdi
	callq	std_alloc__vec__Vec__drop____98a5c0865d4d3e5d_
	addq	$24, %r13
	decq	%r12
	jne	.LBB40_81
.LBB40_82:
	testq	%r15, %r15
	je	.LBB40_84
	movq	%r14, %rdi
	callq	rattle_dealloc@PLT
.LBB40_84:
	pxor	%xmm0, %xmm0
	movdqu	%xmm0, 134(%rsp)
	movq	$0, 150(%rsp)
	movb	$6, %bpl
.LBB40_85:
	movb	$1, %al
.LBB40_86:
	movb	%al, (%rbx)
	movb	%bpl, 1(%rbx)
	movq	134(%rsp), %rax
	movq	%rax, 8(%rbx)
	movq	142(%rsp), %rax
	movq	%rax, 16(%rbx)
	movq	150(%rsp), %rax
	movq	%rax, 24(%rbx)
.LBB40_87:
	addq	$360, %rsp
	popq	%rbx
	popq	%r12
	popq	%r13
	popq	%r14
	popq	%r15
	popq	%rbp
	retq
.Lfunc_end40:
	.size	ww_script_parts__scripts__all_scripts_of, .Lfunc_end40-ww_script_parts__scripts__all_scripts_of

	.section	.text.ww_script_parts__transactions__locking_worded,"ax",@progbits
	.p2align	4
	.type	ww_script_parts__transactions__locking_worded,@function
ww_script_parts__transactions__locking_worded:
	pushq	%rbp
	pushq	%r15
	pushq	%r14
	pushq	%r13
	pushq	%r12
	pushq	%rbx
	subq	$152, %rsp
	movzbl	(%rsi), %r15d
	movzbl	1(%rsi), %r10d
	xorps	%xmm0, %xmm0
	movaps	%xmm0, 32(%rsp)
	movaps	%xmm0, 16(%rsp)
	movq	$0, 48(%rsp)
	movb	$1, %al
	movb	$4, %bpl
	cmpq	$7, %rcx
	je	.LBB41_24
	cmpq	$4, %rcx
	je	.LBB41_12
	cmpq	$3, %rcx
	jne	.LBB41_50
	movzbl	(%rdx), %ecx
	movzbl	1(%rdx), %esi
	shll	$16, %ecx
	shll	$8, %esi
	orl	%ecx, %esi
	movzbl	2(%rdx), %ecx
	orq	%rsi, %rcx
	cmpq	$6382692, %rcx
	je	.LBB41_53
	cmpl	$7566701, %ecx
	je	.LBB41_39
	cmpl	$6776180, %ecx
	jne	.LBB41_50
	movaps	%xmm0, 80(%rsp)
	movups	%xmm0, 91(%rsp)
	cmpq	$2, %r9
	jne	.LBB41_65
	movb	$8, %bpl
	cmpb	$3, (%r8)
	jne	.LBB41_114
	movq	8(%r8), %rax
	movq	16(%r8), %rcx
	movb	$4, %bpl
	cmpq	$5, %rcx
	je	.LBB41_83
	cmpq	$4, %rcx
	jne	.LBB41_114
	movl	(%rax), %eax
	movq	%rax, %rcx
	shlq	$32, %rcx
	orq	%rax, %rcx
	movabsq	$8391166445252471148, %rax
	cmpq	%rax, %rcx
	jne	.LBB41_114
	xorl	%r14d, %r14d
	jmp	.LBB41_84
.LBB41_12:
	movl	(%rdx), %edx
	movq	%rdx, %rcx
	shlq	$32, %rcx
	orq	%rdx, %rcx
	movabsq	$7741240723876243820, %rdx
	cmpq	%rdx, %rcx
	je	.LBB41_26
	movabsq	$7311153560726957933, %rdx
	cmpq	%rdx, %rcx
	jne	.LBB41_50
	cmpq	$3, %r9
	jne	.LBB41_59
	movb	$8, %bpl
	cmpb	$2, (%r8)
	jne	.LBB41_38
	movb	$2, %bpl
	cmpb	$0, 8(%r8)
	jne	.LBB41_38
	movq	16(%r8), %r14
	cmpq	%r15, %r14
	jae	.LBB41_38
	movb	$8, %bpl
	cmpb	$2, 32(%r8)
	jne	.LBB41_38
	movb	$2, %bpl
	cmpb	$0, 40(%r8)
	jne	.LBB41_38
	movq	48(%r8), %rcx
	cmpq	%r15, %rcx
	jae	.LBB41_38
	movb	$8, %bpl
	cmpb	$2, 64(%r8)
	jne	.LBB41_38
	movb	$2, %bpl
	cmpb	$0, 72(%r8)
	jne	.LBB41_38
	movq	80(%r8), %rdx
	movb	$2, %sil
	xorl	%ebp, %ebp
	xorl	%eax, %eax
	jmp	.LBB41_60
.LBB41_24:
	movl	(%rdx), %ecx
	movl	3(%rdx), %edx
	shlq	$32, %rdx
	orq	%rcx, %rdx
	movabsq	$7310312399971968370, %rcx
	cmpq	%rcx, %rdx
	jne	.LBB41_50
	leaq	16(%rsp), %rax
	movq	%rdi, %rbx
	movq	%rax, %rdi
	movq	%r8, %rdx
	movq	%r9, %rcx
	callq	ww_script_parts__transactions__reverse_of
	movq	%rbx, %rdi
	movzbl	16(%rsp), %eax
	movzbl	17(%rsp), %ebp
	movzbl	24(%rsp), %esi
	movzbl	25(%rsp), %r14d
	movzbl	26(%rsp), %ecx
	movzbl	27(%rsp), %r9d
	movzbl	28(%rsp), %edx
	jmp	.LBB41_52
.LBB41_26:
	movups	%xmm0, 123(%rsp)
	movaps	%xmm0, 112(%rsp)
	cmpq	$3, %r9
	jne	.LBB41_61
	movb	$8, %bpl
	cmpb	$2, (%r8)
	jne	.LBB41_38
	movb	$2, %bpl
	cmpb	$0, 8(%r8)
	jne	.LBB41_38
	movq	16(%r8), %r14
	cmpq	%r15, %r14
	jae	.LBB41_38
	movb	$8, %bpl
	cmpb	$2, 32(%r8)
	jne	.LBB41_38
	movb	$2, %bpl
	cmpb	$0, 40(%r8)
	jne	.LBB41_38
	movq	48(%r8), %rcx
	cmpq	%r10, %rcx
	jae	.LBB41_38
	movzbl	64(%r8), %r9d
	testl	%r9d, %r9d
	je	.LBB41_99
	movb	$8, %bpl
	cmpl	$2, %r9d
	jne	.LBB41_38
	movb	$2, %bpl
	cmpb	$0, 72(%r8)
	jne	.LBB41_38
	movq	80(%r8), %rdx
	cmpq	%r15, %rdx
	jae	.LBB41_38
	movb	$1, %r9b
	jmp	.LBB41_100
.LBB41_38:
	movaps	%xmm0, 32(%rsp)
	movq	$0, 48(%rsp)
	movb	$1, %al
	jmp	.LBB41_50
.LBB41_39:
	movb	$4, %bpl
	cmpq	$3, %r9
	jne	.LBB41_49
	movb	$8, %bpl
	cmpb	$2, (%r8)
	jne	.LBB41_49
	cmpb	$0, 8(%r8)
	jne	.LBB41_48
	movq	16(%r8), %r14
	cmpq	%r15, %r14
	jae	.LBB41_48
	cmpb	$2, 32(%r8)
	jne	.LBB41_49
	cmpb	$0, 40(%r8)
	jne	.LBB41_48
	movq	48(%r8), %rcx
	cmpq	%r10, %rcx
	jae	.LBB41_48
	cmpb	$2, 64(%r8)
	jne	.LBB41_49
	cmpb	$0, 72(%r8)
	je	.LBB41_107
.LBB41_48:
	movb	$2, %bpl
.LBB41_49:
	movaps	%xmm0, 32(%rsp)
	movq	$0, 48(%rsp)
.LBB41_50:
	xorl	%edx, %edx
	xorl	%r9d, %r9d
	xorl	%ecx, %ecx
	xorl	%r14d, %r14d
.LBB41_51:
	xorl	%esi, %esi
.LBB41_52:
	movb	%al, (%rdi)
	movb	%bpl, 1(%rdi)
	movb	%sil, 8(%rdi)
	movb	%r14b, 9(%rdi)
	movb	%cl, 10(%rdi)
	movb	%r9b, 11(%rdi)
	movb	%dl, 12(%rdi)
	movaps	32(%rsp), %xmm0
	movups	%xmm0, 16(%rdi)
	movq	48(%rsp), %rax
	movq	%rax, 32(%rdi)
	addq	$152, %rsp
	popq	%rbx
	popq	%r12
	popq	%r13
	popq	%r14
	popq	%r15
	popq	%rbp
	retq
.LBB41_53:
	movaps	%xmm0, 80(%rsp)
	movups	%xmm0, 91(%rsp)
	cmpq	$2, %r9
	jne	.LBB41_63
	movb	$8, %bpl
	cmpb	$3, (%r8)
	jne	.LBB41_120
	movq	8(%r8), %rax
	movq	16(%r8), %rcx
	movb	$4, %bpl
	cmpq	$5, %rcx
	je	.LBB41_67
	cmpq	$4, %rcx
	jne	.LBB41_120
	movl	(%rax), %eax
	movq	%rax, %rcx
	shlq	$32, %rcx
	orq	%rax, %rcx
	movabsq	$8391166445252471148, %rax
	cmpq	%rax, %rcx
	jne	.LBB41_120
	xorl	%r14d, %r14d
	jmp	.LBB41_68
.LBB41_59:
	movb	$1, %al
	movb	$4, %bpl
	xorl	%r14d, %r14d
	xorl	%ecx, %ecx
	xorl	%edx, %edx
	xorl	%esi, %esi
.LBB41_60:
	movq	%rdx, 32(%rsp)
	movups	%xmm0, 40(%rsp)
	xorl	%edx, %edx
	xorl	%r9d, %r9d
	jmp	.LBB41_52
.LBB41_61:
	movb	$4, %bpl
	movb	$1, %al
	xorl	%esi, %esi
	xorl	%r14d, %r14d
	xorl	%ecx, %ecx
	xorl	%r9d, %r9d
	xorl	%edx, %edx
.LBB41_62:
	movq	131(%rsp), %r8
	movq	%r8, 48(%rsp)
	movups	115(%rsp), %xmm0
	movaps	%xmm0, 32(%rsp)
	jmp	.LBB41_52
.LBB41_63:
	movb	$4, %bpl
	movb	$1, %al
	xorl	%esi, %esi
	xorl	%r14d, %r14d
.LBB41_64:
	movq	99(%rsp), %rcx
	movq	%rcx, 48(%rsp)
	movups	83(%rsp), %xmm0
	movaps	%xmm0, 32(%rsp)
	jmp	.LBB41_121
.LBB41_65:
	movb	$4, %bpl
	movb	$1, %al
	xorl	%r14d, %r14d
.LBB41_66:
	movq	99(%rsp), %rcx
	movq	%rcx, 48(%rsp)
	movups	83(%rsp), %xmm0
	movaps	%xmm0, 32(%rsp)
	jmp	.LBB41_115
.LBB41_67:
	movl	(%rax), %ecx
	movl	1(%rax), %eax
	shlq	$32, %rax
	orq	%rcx, %rax
	movb	$1, %r14b
	movabsq	$8243105135461692015, %rcx
	cmpq	%rcx, %rax
	jne	.LBB41_120
.LBB41_68:
	movb	$8, %bpl
	cmpb	$4, 32(%r8)
	jne	.LBB41_120
	movq	48(%r8), %r12
	leaq	-1(%r12), %rax
	movb	$2, %bpl
	cmpq	$64, %rax
	jae	.LBB41_120
	movq	%rdi, 8(%rsp)
	movq	40(%r8), %r13
	movq	%r12, %rdi
	shlq	$4, %rdi
	movl	$8, %esi
	callq	rattle_alloc@PLT
	testb	$1, %al
	je	.LBB41_118
	movq	%rdx, 56(%rsp)
	movq	$0, 64(%rsp)
	movq	%r12, 72(%rsp)
	addq	$16, %r13
	xorl	%eax, %eax
.LBB41_72:
	movb	$8, %bpl
	cmpb	$4, -16(%r13)
	jne	.LBB41_104
	cmpq	$2, (%r13)
	jne	.LBB41_101
	movq	-8(%r13), %rcx
	cmpb	$2, (%rcx)
	jne	.LBB41_104
	cmpb	$0, 8(%rcx)
	jne	.LBB41_103
	movq	16(%rcx), %rbx
	cmpq	%r15, %rbx
	jae	.LBB41_103
	cmpb	$2, 32(%rcx)
	jne	.LBB41_104
	cmpb	$0, 40(%rcx)
	movb	$2, %bpl
	jne	.LBB41_104
	movq	48(%rcx), %rbp
	cmpq	%rax, 72(%rsp)
	je	.LBB41_81
.LBB41_80:
	movq	%rax, %rcx
	shlq	$4, %rcx
	movb	%bl, (%rdx,%rcx)
	movl	$0, 1(%rdx,%rcx)
	movl	$0, 4(%rdx,%rcx)
	movq	%rbp, 8(%rdx,%rcx)
	incq	%rax
	movq	%rax, 64(%rsp)
	addq	$32, %r13
	decq	%r12
	jne	.LBB41_72
	jmp	.LBB41_106
.LBB41_81:
	leaq	56(%rsp), %rdi
	callq	std_alloc__vec__Vec__grow_amortized____1361f7250aa6eb72_
	testb	%al, %al
	je	.LBB41_116
	movq	56(%rsp), %rdx
	movq	64(%rsp), %rax
	jmp	.LBB41_80
.LBB41_83:
	movl	(%rax), %ecx
	movl	1(%rax), %eax
	shlq	$32, %rax
	orq	%rcx, %rax
	movb	$1, %r14b
	movabsq	$8243105135461692015, %rcx
	cmpq	%rcx, %rax
	jne	.LBB41_114
.LBB41_84:
	movb	$8, %bpl
	cmpb	$4, 32(%r8)
	jne	.LBB41_114
	movq	48(%r8), %rbx
	leaq	-1(%rbx), %rax
	movb	$2, %bpl
	cmpq	$64, %rax
	jae	.LBB41_114
	movq	%rdi, 8(%rsp)
	movq	40(%r8), %r13
	movl	$1, %esi
	movq	%rbx, %rdi
	callq	rattle_alloc@PLT
	testb	$1, %al
	je	.LBB41_111
	movq	%rdx, 56(%rsp)
	movq	$0, 64(%rsp)
	movq	%rbx, 72(%rsp)
	addq	$16, %r13
	xorl	%eax, %eax
	movq	8(%rsp), %rdi
.LBB41_88:
	cmpb	$2, -16(%r13)
	jne	.LBB41_95
	movb	$2, %bpl
	cmpb	$0, -8(%r13)
	jne	.LBB41_96
	movq	(%r13), %r12
	cmpq	%r15, %r12
	jae	.LBB41_96
	cmpq	%rax, 72(%rsp)
	je	.LBB41_93
.LBB41_92:
	movb	%r12b, (%rdx,%rax)
	incq	%rax
	movq	%rax, 64(%rsp)
	addq	$32, %r13
	decq	%rbx
	jne	.LBB41_88
	jmp	.LBB41_98
.LBB41_93:
	leaq	56(%rsp), %rdi
	callq	std_alloc__vec__Vec__grow_amortized____81c925a80d233215_
	testb	%al, %al
	je	.LBB41_109
	movq	56(%rsp), %rdx
	movq	64(%rsp), %rax
	movq	8(%rsp), %rdi
	jmp	.LBB41_92
.LBB41_95:
	movb	$8, %bpl
.LBB41_96:
	cmpq	$0, 72(%rsp)
	je	.LBB41_113
	movq	%rdx, %rdi
	callq	rattle_dealloc@PLT
	jmp	.LBB41_112
.LBB41_103:
	movb	$2, %bpl
	jmp	.LBB41_104
.LBB41_98:
	movq	72(%rsp), %rax
	movq	%rax, 134(%rsp)
	movups	56(%rsp), %xmm0
	movups	%xmm0, 118(%rsp)
	movups	%xmm0, 83(%rsp)
	movq	%rax, 99(%rsp)
	xorl	%eax, %eax
	xorl	%ebp, %ebp
	jmp	.LBB41_66
.LBB41_99:
	movl	%r9d, %edx
.LBB41_100:
	movups	%xmm0, 115(%rsp)
	movq	$0, 131(%rsp)
	movb	$3, %sil
	xorl	%eax, %eax
	xorl	%ebp, %ebp
	jmp	.LBB41_62
.LBB41_101:
	movb	$4, %bpl
.LBB41_104:
	cmpq	$0, 72(%rsp)
	je	.LBB41_119
	movq	%rdx, %rdi
	callq	rattle_dealloc@PLT
	jmp	.LBB41_119
.LBB41_106:
	movq	72(%rsp), %rax
	movq	%rax, 134(%rsp)
	movups	56(%rsp), %xmm0
	movups	%xmm0, 118(%rsp)
	movups	%xmm0, 83(%rsp)
	movq	%rax, 99(%rsp)
	movb	$1, %sil
	xorl	%eax, %eax
	xorl	%ebp, %ebp
	movq	8(%rsp), %rdi
	jmp	.LBB41_64
.LBB41_107:
	movq	80(%r8), %r9
	leaq	-1(%r9), %rdx
	movb	$2, %bpl
	cmpq	$63, %rdx
	ja	.LBB41_49
	movaps	%xmm0, 32(%rsp)
	movq	$0, 48(%rsp)
	movb	$4, %sil
	xorl	%edx, %edx
	xorl	%ebp, %ebp
	xorl	%eax, %eax
	jmp	.LBB41_52
.LBB41_109:
	cmpq	$0, 72(%rsp)
	je	.LBB41_111
	movq	56(%rsp), %rdi
	callq	rattle_dealloc@PLT
.LBB41_111:
	movb	$6, %bpl
.LBB41_112:
	movq	8(%rsp), %rdi
.LBB41_113:
	xorps	%xmm0, %xmm0
.LBB41_114:
	movaps	%xmm0, 32(%rsp)
	movq	$0, 48(%rsp)
	movb	$1, %al
	xorl	%r14d, %r14d
.LBB41_115:
	xorl	%edx, %edx
	xorl	%r9d, %r9d
	xorl	%ecx, %ecx
	jmp	.LBB41_51
.LBB41_116:
	cmpq	$0, 72(%rsp)
	je	.LBB41_118
	movq	56(%rsp), %rdi
	callq	rattle_dealloc@PLT
.LBB41_118:
	movb	$6, %bpl
.LBB41_119:
	movq	8(%rsp), %rdi
	xorps	%xmm0, %xmm0
.LBB41_120:
	movaps	%xmm0, 32(%rsp)
	movq	$0, 48(%rsp)
	movb	$1, %al
	xorl	%r14d, %r14d
	xorl	%esi, %esi
.LBB41_121:
	xorl	%edx, %edx
	xorl	%r9d, %r9d
	xorl	%ecx, %ecx
	jmp	.LBB41_52
.Lfunc_end41:
	.size	ww_script_parts__transactions__locking_worded, .Lfunc_end41-ww_script_parts__transactions__locking_worded

	.section	.text.unlikely.std_alloc__vec__Vec__grow_amortized____81c925a80d233215_,"ax",@progbits
	.p2align	4
	.type	std_alloc__vec__Vec__grow_amortized____81c925a80d233215_,@function
std_alloc__vec__Vec__grow_amortized____81c925a80d233215_:
	movq	8(%rdi), %rsi
	cmpq	$-1, %rsi
	je	.LBB42_5
	pushq	%r14
	pushq	%rbx
	pushq	%rax
	movq	16(%rdi), %rcx
	cmpq	$8, %rsi
	movl	$7, %ebx
	cmovaeq	%rsi, %rbx
	incq	%rbx
	movq	%rcx, %rdx
	shrq	$62, %rdx
	leaq	(%rcx,%rcx), %rax
	cmpq	%rax, %rbx
	cmovaq	%rbx, %rax
	testq	%rdx, %rdx
	cmoveq	%rax, %rbx
	testq	%rbx, %rbx
	js	.LBB42_6
	testq	%rcx, %rcx
	je	.LBB42_8
	movq	%rdi, %r14
	movq	(%rdi), %rdi
	movl	$1, %ecx
	movq	%rbx, %rdx
	callq	rattle_realloc@PLT
	testb	$1, %al
	je	.LBB42_6
.LBB42_9:
	movq	%rdx, (%r14)
	movq	%rbx, 16(%r14)
	movb	$1, %al
	addq	$8, %rsp
	popq	%rbx
	popq	%r14
	retq
.LBB42_5:
	xorl	%eax, %eax
	retq
.LBB42_8:
	movq	%rdi, %r14
	movl	$1, %esi
	movq	%rax, %rdi
	callq	rattle_alloc@PLT
	testb	$1, %al
	jne	.LBB42_9
.LBB42_6:
	xorl	%eax, %eax
	addq	$8, %rsp
	popq	%rbx
	popq	%r14
	retq
.Lfunc_end42:
	.size	std_alloc__vec__Vec__grow_amortized____81c925a80d233215_, .Lfunc_end42-std_alloc__vec__Vec__grow_amortized____81c925a80d233215_

	.section	.text.unlikely.std_alloc__vec__Vec__grow_amortized____1361f7250aa6eb72_,"ax",@progbits
	.p2align	4
	.type	std_alloc__vec__Vec__grow_amortized____1361f7250aa6eb72_,@function
std_alloc__vec__Vec__grow_amortized____1361f7250aa6eb72_:
	movq	8(%rdi), %rsi
	cmpq	$-1, %rsi
	je	.LBB43_5
	pushq	%r14
	pushq	%rbx
	pushq	%rax
	movq	16(%rdi), %rcx
	cmpq	$4, %rsi
	movl	$3, %ebx
	cmovaeq	%rsi, %rbx
	incq	%rbx
	movq	%rcx, %rdx
	shrq	$62, %rdx
	leaq	(%rcx,%rcx), %rax
	cmpq	%rax, %rbx
	cmovaq	%rbx, %rax
	testq	%rdx, %rdx
	cmoveq	%rax, %rbx
	movq	%rbx, %rdx
	shrq	$59, %rdx
	jne	.LBB43_6
	testq	%rcx, %rcx
	je	.LBB43_8
	movq	%rdi, %r14
	movq	(%rdi), %rdi
	shlq	$4, %rsi
	movq	%rbx, %rdx
	shlq	$4, %rdx
	movl	$8, %ecx
	callq	rattle_realloc@PLT
	testb	$1, %al
	je	.LBB43_6
.LBB43_9:
	movq	%rdx, (%r14)
	movq	%rbx, 16(%r14)
	movb	$1, %al
	addq	$8, %rsp
	popq	%rbx
	popq	%r14
	retq
.LBB43_5:
	xorl	%eax, %eax
	retq
.LBB43_8:
	movq	%rdi, %r14
	shlq	$4, %rax
	movl	$8, %esi
	movq	%rax, %rdi
	callq	rattle_alloc@PLT
	testb	$1, %al
	jne	.LBB43_9
.LBB43_6:
	xorl	%eax, %eax
	addq	$8, %rsp
	popq	%rbx
	popq	%r14
	retq
.Lfunc_end43:
	.size	std_alloc__vec__Vec__grow_amortized____1361f7250aa6eb72_, .Lfunc_end43-std_alloc__vec__Vec__grow_amortized____1361f7250aa6eb72_

	.section	.text.ww_script_parts__transactions__reverse_of,"ax",@progbits
	.p2align	4
	.type	ww_script_parts__transactions__reverse_of,@function
ww_script_parts__transactions__reverse_of:
	movb	$4, %al
	cmpq	$3, %rcx
	jne	.LBB44_4
	movb	$8, %al
	cmpb	$2, (%rdx)
	jne	.LBB44_4
	cmpb	$0, 8(%rdx)
	jne	.LBB44_3
	movzbl	(%rsi), %r8d
	movq	16(%rdx), %rcx
	cmpq	%r8, %rcx
	jae	.LBB44_3
	cmpb	$2, 32(%rdx)
	jne	.LBB44_4
	cmpb	$0, 40(%rdx)
	jne	.LBB44_3
	movzbl	1(%rsi), %r8d
	movq	48(%rdx), %rsi
	cmpq	%r8, %rsi
	jae	.LBB44_3
	cmpb	$2, 64(%rdx)
	jne	.LBB44_4
	cmpb	$0, 72(%rdx)
	je	.LBB44_11
.LBB44_3:
	movb	$2, %al
.LBB44_4:
	movb	$1, (%rdi)
	movb	%al, 1(%rdi)
	movl	$0, 8(%rdi)
.LBB44_13:
	movb	$0, 12(%rdi)
	xorps	%xmm0, %xmm0
	movups	%xmm0, 16(%rdi)
	movq	$0, 32(%rdi)
	retq
.LBB44_11:
	movq	80(%rdx), %rdx
	leaq	-1(%rdx), %r8
	movb	$2, %al
	cmpq	$63, %r8
	ja	.LBB44_4
	movw	$0, (%rdi)
	movb	$5, 8(%rdi)
	movb	%cl, 9(%rdi)
	movb	%sil, 10(%rdi)
	movb	%dl, 11(%rdi)
	jmp	.LBB44_13
.Lfunc_end44:
	.size	ww_script_parts__transactions__reverse_of, .Lfunc_end44-ww_script_parts__transactions__reverse_of

	.section	.text.unlikely.std_alloc__vec__Vec__grow_amortized____43b2465df0c940d2_,"ax",@progbits
	.p2align	4
	.type	std_alloc__vec__Vec__grow_amortized____43b2465df0c940d2_,@function
std_alloc__vec__Vec__grow_amortized____43b2465df0c940d2_:
	movq	8(%rdi), %rax
	cmpq	$-1, %rax
	je	.LBB45_5
	pushq	%r14
	pushq	%rbx
	pushq	%rax
	movq	16(%rdi), %rcx
	cmpq	$4, %rax
	movl	$3, %ebx
	cmovaeq	%rax, %rbx
	incq	%rbx
	movq	%rcx, %rsi
	shrq	$62, %rsi
	leaq	(%rcx,%rcx), %rdx
	cmpq	%rdx, %rbx
	cmovaq	%rbx, %rdx
	testq	%rsi, %rsi
	cmoveq	%rdx, %rbx
	movabsq	$384307168202282325, %rsi
	cmpq	%rsi, %rbx
	ja	.LBB45_6
	testq	%rcx, %rcx
	je	.LBB45_8
	movq	%rdi, %r14
	movq	(%rdi), %rdi
	shlq	$3, %rax
	leaq	(%rax,%rax,2), %rsi
	leaq	(,%rbx,8), %rax
	leaq	(%rax,%rax,2), %rdx
	movl	$8, %ecx
	callq	rattle_realloc@PLT
	testb	$1, %al
	je	.LBB45_6
.LBB45_9:
	movq	%rdx, (%r14)
	movq	%rbx, 16(%r14)
	movb	$1, %al
	addq	$8, %rsp
	popq	%rbx
	popq	%r14
	retq
.LBB45_5:
	xorl	%eax, %eax
	retq
.LBB45_8:
	movq	%rdi, %r14
	shlq	$3, %rdx
	leaq	(%rdx,%rdx,2), %rdi
	movl	$8, %esi
	callq	rattle_alloc@PLT
	testb	$1, %al
	jne	.LBB45_9
.LBB45_6:
	xorl	%eax, %eax
	addq	$8, %rsp
	popq	%rbx
	popq	%r14
	retq
.Lfunc_end45:
	.size	std_alloc__vec__Vec__grow_amortized____43b2465df0c940d2_, .Lfunc_end45-std_alloc__vec__Vec__grow_amortized____43b2465df0c940d2_

	.section	.text.ww_script__serde_json__value__Value_Destruct__drop,"ax",@progbits
	.p2align	4
	.type	ww_script__serde_json__value__Value_Destruct__drop,@function
ww_script__serde_json__value__Value_Destruct__drop:
	pushq	%r15
	pushq	%r14
	pushq	%r13
	pushq	%r12
	pushq	%rbx
	subq	$32, %rsp
	movzbl	(%rdi), %eax
	movq	8(%rdi), %rbx
	movq	16(%rdi), %r14
	movq	24(%rdi), %r15
	leaq	.LJTI46_0(%rip), %rcx
	movslq	(%rcx,%rax,4), %rax
	addq	%rcx, %rax
	jmpq	*%rax
.LBB46_7:
	addq	$32, %rsp
	popq	%rbx
	popq	%r12
	popq	%r13
	popq	%r14
	popq	%r15
	retq
.LBB46_6:
	cmpb	$1, %bl
	jne	.LBB46_7
	movq	%r14, %rdi
	addq	$32, %rsp
	popq	%rbx
	popq	%r12
	popq	%r13
	popq	%r14
	popq	%r15
	jmp	std_collections__btree__node__Node__destroy____c5f5f6176bb236a5_
.LBB46_3:
	testq	%r14, %r14
	je	.LBB46_1
	leaq	8(%rsp), %r12
	movq	%rbx, %r13
	.p2align	4
.LBB46_5:
	movzwl	(%r13), %eax
	movq	$0, (%rsp)
	movw	%ax, (%rsp)
	movq	24(%r13), %rax
	movq	%rax, 16(%r12)
	movups	8(%r13), %xmm0
	movups	%xmm0, (%r12)
	movq	%rsp, %rdi
	callq	ww_script__serde_json__value__Value_Destruct__drop
	addq	$32, %r13
	decq	%r14
	jne	.LBB46_5
.LBB46_1:
	testq	%r15, %r15
	je	.LBB46_7
	movq	%rbx, %rdi
	addq	$32, %rsp
	popq	%rbx
	popq	%r12
	popq	%r13
	popq	%r14
	popq	%r15
	jmp	rattle_dealloc@PLT
.Lfunc_end46:
	.size	ww_script__serde_json__value__Value_Destruct__drop, .Lfunc_end46-ww_script__serde_json__value__Value_Destruct__drop
	.section	.rodata.ww_script__serde_json__value__Value_Destruct__drop,"a",@progbits
	.p2align	2, 0x0
.LJTI46_0:
	.long	.LBB46_7-.LJTI46_0
	.long	.LBB46_7-.LJTI46_0
	.long	.LBB46_7-.LJTI46_0
	.long	.LBB46_1-.LJTI46_0
	.long	.LBB46_3-.LJTI46_0
	.long	.LBB46_6-.LJTI46_0

	.section	.text.std_collections__btree__node__Node__destroy____c5f5f6176bb236a5_,"ax",@progbits
	.p2align	4
	.type	std_collections__btree__node__Node__destroy____c5f5f6176bb236a5_,@function
std_collections__btree__node__Node__destroy____c5f5f6176bb236a5_:
	pushq	%rbp
	pushq	%r15
	pushq	%r14
	pushq	%r13
	pushq	%r12
	pushq	%rbx
	subq	$264, %rsp
	xorps	%xmm0, %xmm0
	movups	%xmm0, 174(%rsp)
	movaps	%xmm0, 160(%rsp)
	movzwl	(%rdi), %r14d
	movzwl	2(%rdi), %ecx
	xorl	%edx, %edx
	testw	%cx, %cx
	setne	%dl
	leaq	1(%r14), %rsi
	shll	$4, %edx
	leaq	848(%rdi), %rax
	leaq	368(%rdi), %r10
	leaq	8(%rdi), %r8
	xorl	%r9d, %r9d
	testw	%cx, %cx
	cmovneq	%rsi, %r9
	movq	%r8, 16(%rsp)
	movq	%r14, 24(%rsp)
	movq	$15, 32(%rsp)
	movq	%r10, 40(%rsp)
	movq	%r14, 48(%rsp)
	movq	$15, 56(%rsp)
	movq	%rax, 64(%rsp)
	movq	%r9, 72(%rsp)
	movq	%rdx, 80(%rsp)
	movq	%rdi, 88(%rsp)
	je	.LBB47_5
	testq	%r14, %r14
	je	.LBB47_31
	leaq	102(%rsp), %r15
	leaq	240(%rsp), %r12
	leaq	166(%rsp), %r13
	jmp	.LBB47_3
	.p2align	4
.LBB47_29:
	movb	%bl, 96(%rsp)
	movb	%bpl, 97(%rsp)
	movq	16(%r13), %rax
	movq	%rax, 18(%r15)
	movups	(%r13), %xmm0
	movups	%xmm0, 2(%r15)
	leaq	96(%rsp), %rdi
	callq	ww_script__serde_json__value__Value_Destruct__drop
	cmpq	$0, 24(%rsp)
	je	.LBB47_30
.LBB47_3:
	movq	64(%rsp), %rax
	movq	72(%rsp), %rbp
	movq	(%rax), %rbx
	decq	%rbp
	cmpq	$257, %rbp
	jb	.LBB47_4
	leaq	56(%rax), %rsi
	xorl	%ecx, %ecx
	.p2align	4
.LBB47_13:
	xorl	%edx, %edx
	.p2align	4
.LBB47_14:
	movups	-48(%rsi,%rdx,8), %xmm0
	movups	-32(%rsi,%rdx,8), %xmm1
	movups	-16(%rsi,%rdx,8), %xmm2
	movups	(%rsi,%rdx,8), %xmm3
	movups	%xmm0, -56(%rsi,%rdx,8)
	movups	%xmm1, -40(%rsi,%rdx,8)
	movups	%xmm2, -24(%rsi,%rdx,8)
	movups	%xmm3, -8(%rsi,%rdx,8)
	addq	$8, %rdx
	cmpq	$256, %rdx
	jne	.LBB47_14
	addq	$256, %rcx
	movq	%rbp, %rdx
	subq	%rcx, %rdx
	addq	$2048, %rsi
	cmpq	$256, %rdx
	ja	.LBB47_13
	movq	80(%rsp), %r14
	cmpq	%rcx, %rbp
	je	.LBB47_18
.LBB47_17:
	leaq	(%rax,%rcx,8), %rdi
	leaq	(%rax,%rcx,8), %rsi
	addq	$8, %rsi
	shlq	$3, %rdx
	callq	memmove@PLT
.LBB47_18:
	movq	%rbp, 72(%rsp)
	movq	%r14, 80(%rsp)
	movq	%rbx, %rdi
	callq	std_collections__btree__node__Node__destroy____c5f5f6176bb236a5_
	xorps	%xmm0, %xmm0
	movaps	%xmm0, 128(%rsp)
	movq	$0, 144(%rsp)
	xorl	%r14d, %r14d
	leaq	128(%rsp), %rdi
	leaq	16(%rsp), %rsi
	xorl	%edx, %edx
	callq	std_alloc__vec__Vec__remove____992c4ce9cbd9eb37_
	movq	40(%rsp), %rdx
	movq	48(%rsp), %rcx
	movq	56(%rsp), %rax
	movzbl	(%rdx), %ebx
	movzbl	1(%rdx), %ebp
	movq	24(%rdx), %rsi
	leaq	210(%rsp), %rdi
	movq	%rsi, 16(%rdi)
	movups	8(%rdx), %xmm0
	movups	%xmm0, (%rdi)
	decq	%rcx
	movq	%rdx, %r8
	movq	%rcx, %rsi
	movl	$0, %edi
	cmpq	$65, %rcx
	jb	.LBB47_24
	leaq	72(%rdx), %r8
	xorl	%edi, %edi
	.p2align	4
.LBB47_20:
	xorl	%esi, %esi
	.p2align	4
.LBB47_21:
	movzwl	-40(%r8,%rsi), %r9d
	movw	%r9w, -72(%r8,%rsi)
	movups	-32(%r8,%rsi), %xmm0
	movups	%xmm0, -64(%r8,%rsi)
	movq	-16(%r8,%rsi), %r9
	movq	%r9, -48(%r8,%rsi)
	movzwl	-8(%r8,%rsi), %r9d
	movw	%r9w, -40(%r8,%rsi)
	movups	(%r8,%rsi), %xmm0
	movups	%xmm0, -32(%r8,%rsi)
	movq	16(%r8,%rsi), %r9
	movq	%r9, -16(%r8,%rsi)
	addq	$64, %rsi
	cmpq	$2048, %rsi
	jne	.LBB47_21
	addq	$64, %rdi
	movq	%rcx, %rsi
	subq	%rdi, %rsi
	addq	$2048, %r8
	cmpq	$64, %rsi
	ja	.LBB47_20
	movq	%rdi, %r14
	shlq	$5, %r14
	leaq	(%rdx,%r14), %r8
.LBB47_24:
	cmpq	%rdi, %rcx
	je	.LBB47_27
	addq	$32, %r8
	addq	%r14, %rdx
	xorl	%edi, %edi
	.p2align	4
.LBB47_26:
	movzwl	(%r8,%rdi), %r9d
	movups	8(%r8,%rdi), %xmm0
	movups	%xmm0, (%r15)
	movq	24(%r8,%rdi), %r10
	movq	%r10, 16(%r15)
	movw	%r9w, (%rdx,%rdi)
	movups	(%r15), %xmm0
	movups	%xmm0, 8(%rdx,%rdi)
	movq	16(%r15), %r9
	movq	%r9, 24(%rdx,%rdi)
	addq	$32, %rdi
	decq	%rsi
	jne	.LBB47_26
.LBB47_27:
	movq	%rcx, 48(%rsp)
	movq	%rax, 56(%rsp)
	leaq	210(%rsp), %rcx
	movq	16(%rcx), %rax
	movq	%rax, 16(%r12)
	movups	(%rcx), %xmm0
	movups	%xmm0, (%r12)
	movq	128(%rsp), %rdi
	movq	16(%r12), %rax
	cmpq	$0, 144(%rsp)
	movq	%rax, 16(%r13)
	movups	(%r12), %xmm0
	movups	%xmm0, (%r13)
	movq	$0, 96(%rsp)
	je	.LBB47_29
	callq	rattle_dealloc@PLT
	jmp	.LBB47_29
	.p2align	4
.LBB47_4:
	xorl	%ecx, %ecx
	movq	%rbp, %rdx
	movq	80(%rsp), %r14
	cmpq	%rcx, %rbp
	jne	.LBB47_17
	jmp	.LBB47_18
.LBB47_30:
	movq	64(%rsp), %rax
	movq	72(%rsp), %r14
	decq	%r14
.LBB47_31:
	movq	(%rax), %rbx
	cmpq	$257, %r14
	jb	.LBB47_32
	leaq	56(%rax), %rsi
	xorl	%ecx, %ecx
	.p2align	4
.LBB47_34:
	xorl	%edx, %edx
	.p2align	4
.LBB47_35:
	movups	-48(%rsi,%rdx,8), %xmm0
	movups	-32(%rsi,%rdx,8), %xmm1
	movups	-16(%rsi,%rdx,8), %xmm2
	movups	(%rsi,%rdx,8), %xmm3
	movups	%xmm0, -56(%rsi,%rdx,8)
	movups	%xmm1, -40(%rsi,%rdx,8)
	movups	%xmm2, -24(%rsi,%rdx,8)
	movups	%xmm3, -8(%rsi,%rdx,8)
	addq	$8, %rdx
	cmpq	$256, %rdx
	jne	.LBB47_35
	addq	$256, %rcx
	movq	%r14, %rdx
	subq	%rcx, %rdx
	addq	$2048, %rsi
	cmpq	$256, %rdx
	ja	.LBB47_34
	cmpq	%rcx, %r14
	je	.LBB47_39
.LBB47_38:
	leaq	(%rax,%rcx,8), %rdi
	leaq	(%rax,%rcx,8), %rsi
	addq	$8, %rsi
	shlq	$3, %rdx
	callq	memmove@PLT
.LBB47_39:
	movq	%rbx, %rdi
	callq	std_collections__btree__node__Node__destroy____c5f5f6176bb236a5_
	movq	88(%rsp), %rdi
	jmp	.LBB47_11
.LBB47_5:
	movq	%rdi, 8(%rsp)
	leaq	16(%rsp), %rdi
	callq	std_collections__btree__row__Row__reverse____dd2386031c731943_
	testq	%r14, %r14
	je	.LBB47_10
	leaq	210(%rsp), %r15
	leaq	(%r14,%r14,2), %rax
	movq	8(%rsp), %rcx
	leaq	(%rcx,%rax,8), %r13
	shll	$5, %r14d
	leaq	336(%rcx), %rbp
	jmp	.LBB47_7
	.p2align	4
.LBB47_9:
	movb	%bl, 96(%rsp)
	movb	%r12b, 97(%rsp)
	movq	16(%r15), %rax
	leaq	104(%rsp), %rcx
	movq	%rax, 16(%rcx)
	movups	(%r15), %xmm0
	movups	%xmm0, (%rcx)
	leaq	96(%rsp), %rdi
	callq	ww_script__serde_json__value__Value_Destruct__drop
	addq	$-24, %r13
	addq	$-32, %r14
	je	.LBB47_10
.LBB47_7:
	movq	-16(%r13), %rdi
	movzbl	(%rbp,%r14), %ebx
	movzbl	1(%rbp,%r14), %r12d
	cmpq	$0, (%r13)
	movq	24(%rbp,%r14), %rax
	movq	%rax, 16(%r15)
	movups	8(%rbp,%r14), %xmm0
	movups	%xmm0, (%r15)
	movq	$0, 96(%rsp)
	je	.LBB47_9
	callq	rattle_dealloc@PLT
	jmp	.LBB47_9
.LBB47_10:
	movq	8(%rsp), %rdi
.LBB47_11:
	addq	$264, %rsp
	popq	%rbx
	popq	%r12
	popq	%r13
	popq	%r14
	popq	%r15
	popq	%rbp
	jmp	rattle_dealloc@PLT
.LBB47_32:
	xorl	%ecx, %ecx
	movq	%r14, %rdx
	cmpq	%rcx, %r14
	jne	.LBB47_38
	jmp	.LBB47_39
.Lfunc_end47:
	.size	std_collections__btree__node__Node__destroy____c5f5f6176bb236a5_, .Lfunc_end47-std_collections__btree__node__Node__destroy____c5f5f6176bb236a5_

	.section	.text.ww_run__workers__run_scripts____59e099481e3f78dd_,"ax",@progbits
	.p2align	4
	.type	ww_run__workers__run_scripts____59e099481e3f78dd_,@function
ww_run__workers__run_scripts____59e099481e3f78dd_:
	pushq	%rbp
	pushq	%r15
	pushq	%r14
	pushq	%r13
	pushq	%r12
	pushq	%rbx
	subq	$2920, %rsp
	movq	%rsi, 56(%rsp)
	movq	%rdi, %r15
	movzbl	(%rdx), %eax
	movb	%al, 80(%rsp)
	movzbl	1(%rdx), %r14d
	movzbl	2(%rdx), %ebp
	movq	8(%rdx), %r9
	movq	16(%rdx), %rax
	movq	%rax, 16(%rsp)
	movq	24(%rdx), %r10
	movq	32(%rdx), %r12
	movq	40(%rdx), %rbx
	movq	48(%rdx), %rax
	xorps	%xmm0, %xmm0
	movups	%xmm0, 1678(%rsp)
	movaps	%xmm0, 1664(%rsp)
	movaps	%xmm0, 1632(%rsp)
	movq	$0, 1648(%rsp)
	movl	$0, 504(%rsp)
	movl	$0, 507(%rsp)
	movaps	%xmm0, 560(%rsp)
	movaps	%xmm0, 576(%rsp)
	movaps	%xmm0, 592(%rsp)
	movaps	%xmm0, 608(%rsp)
	movaps	%xmm0, 624(%rsp)
	movaps	%xmm0, 640(%rsp)
	movq	$0, 656(%rsp)
	movaps	%xmm0, 672(%rsp)
	movq	$0, 688(%rsp)
	movl	$0, 248(%rsp)
	movw	$0, 252(%rsp)
	movaps	%xmm0, 1600(%rsp)
	movq	$0, 1616(%rsp)
	movaps	%xmm0, 800(%rsp)
	movq	$0, 816(%rsp)
	movaps	%xmm0, 1568(%rsp)
	movaps	%xmm0, 1584(%rsp)
	movl	$0, 496(%rsp)
	movl	$0, 499(%rsp)
	movaps	%xmm0, 1504(%rsp)
	movq	$0, 1520(%rsp)
	movaps	%xmm0, 1472(%rsp)
	movq	$0, 1488(%rsp)
	movaps	%xmm0, 768(%rsp)
	movq	$0, 784(%rsp)
	movaps	%xmm0, 736(%rsp)
	movq	$0, 752(%rsp)
	testq	%rbx, %rbx
	movq	%rax, 64(%rsp)
	je	.LBB48_3
	movl	%ebx, %eax
	andl	$3, %eax
	cmpq	$4, %rbx
	jae	.LBB48_4
	movl	$1, %r13d
	xorl	%ecx, %ecx
	jmp	.LBB48_15
.LBB48_3:
	movl	$1, %r13d
	jmp	.LBB48_17
.LBB48_4:
	movq	%rbx, %rdx
	andq	$-4, %rdx
	leaq	80(%r12), %rsi
	movl	$1, %r13d
	xorl	%ecx, %ecx
	jmp	.LBB48_6
	.p2align	4
.LBB48_5:
	addq	$4, %rcx
	addq	$96, %rsi
	cmpq	%rcx, %rdx
	je	.LBB48_14
.LBB48_6:
	movq	-72(%rsi), %rdi
	cmpq	%r13, %rdi
	ja	.LBB48_7
	movq	%r13, %rdi
	movq	-48(%rsi), %r8
	cmpq	%rdi, %r8
	jbe	.LBB48_11
.LBB48_8:
	movq	-24(%rsi), %rdi
	cmpq	%r8, %rdi
	ja	.LBB48_9
.LBB48_12:
	movq	%r8, %rdi
	movq	(%rsi), %r13
	cmpq	%rdi, %r13
	ja	.LBB48_5
	jmp	.LBB48_13
	.p2align	4
.LBB48_7:
	movq	-48(%rsi), %r8
	cmpq	%rdi, %r8
	ja	.LBB48_8
.LBB48_11:
	movq	%rdi, %r8
	movq	-24(%rsi), %rdi
	cmpq	%r8, %rdi
	jbe	.LBB48_12
.LBB48_9:
	movq	(%rsi), %r13
	cmpq	%rdi, %r13
	ja	.LBB48_5
.LBB48_13:
	movq	%rdi, %r13
	jmp	.LBB48_5
.LBB48_14:
	testq	%rax, %rax
	je	.LBB48_17
.LBB48_15:
	leaq	(%rcx,%rcx,2), %rcx
	leaq	(%r12,%rcx,8), %rcx
	addq	$8, %rcx
	shll	$3, %eax
	leaq	(%rax,%rax,2), %rax
	xorl	%edx, %edx
	.p2align	4
.LBB48_16:
	movq	(%rcx,%rdx), %rsi
	cmpq	%r13, %rsi
	cmovaq	%rsi, %r13
	addq	$24, %rdx
	cmpq	%rdx, %rax
	jne	.LBB48_16
.LBB48_17:
	movaps	%xmm0, 704(%rsp)
	movq	$0, 720(%rsp)
	movl	$0, 256(%rsp)
	movw	$0, 260(%rsp)
	movaps	%xmm0, 336(%rsp)
	movups	%xmm0, 351(%rsp)
	movl	$0, 376(%rsp)
	movw	$0, 380(%rsp)
	movaps	%xmm0, 864(%rsp)
	movq	$0, 880(%rsp)
	movaps	%xmm0, 2528(%rsp)
	movaps	%xmm0, 2544(%rsp)
	movaps	%xmm0, 2560(%rsp)
	movaps	%xmm0, 2576(%rsp)
	movaps	%xmm0, 832(%rsp)
	movq	$0, 848(%rsp)
	leal	-17(%rbx), %eax
	cmpb	$-16, %al
	jb	.LBB48_63
	testl	%r13d, %r13d
	je	.LBB48_63
	movzbl	%bl, %eax
	movq	%rax, 96(%rsp)
	leal	(,%rax,8), %edi
	movl	$8, %esi
	movq	%r9, 24(%rsp)
	movq	%r10, 32(%rsp)
	callq	rattle_alloc@PLT
	movq	32(%rsp), %r10
	movq	24(%rsp), %r9
	testb	$1, %al
	je	.LBB48_63
	movq	%rdx, 104(%rsp)
	movq	%r12, 72(%rsp)
	movb	%r14b, 126(%rsp)
	movb	%bpl, 127(%rsp)
	movq	%r15, 112(%rsp)
	movabsq	$576460752303423480, %rcx
	movq	%rsp, %rax
	movq	%rax, 1008(%rsp)
	xorps	%xmm0, %xmm0
	movups	%xmm0, 1016(%rsp)
	movq	%rax, 2128(%rsp)
	movups	%xmm0, 2136(%rsp)
	movq	16(%rsp), %rdx
	leaq	(,%rdx,8), %rax
	leaq	(%rax,%rax,2), %rax
	movq	%rax, 88(%rsp)
	movl	%edx, %eax
	andl	$7, %eax
	movq	%rcx, 328(%rsp)
	andq	%rcx, %rdx
	movq	%rdx, 152(%rsp)
	movq	%rax, 136(%rsp)
	leal	(,%rax,8), %eax
	leaq	(%rax,%rax,2), %rax
	movq	%rax, 184(%rsp)
	xorl	%r15d, %r15d
.LBB48_21:
	movl	$8, %edi
	movl	$8, %esi
	callq	rattle_alloc@PLT
	movq	%rax, %r12
	testb	$1, %r12b
	je	.LBB48_61
	movq	%rdx, %r14
	movl	$1, %esi
	xorl	%edi, %edi
	callq	rattle_alloc@PLT
	testb	$1, %al
	je	.LBB48_113
	movq	%rdx, %rbp
	movl	%r15d, 40(%rsp)
	movq	$0, (%r14)
	movl	$72, %edi
	movl	$8, %esi
	callq	rattle_alloc@PLT
	testb	$1, %al
	je	.LBB48_75
	movq	%rdx, %r15
	andl	$1, %r12d
	movq	$1, (%rdx)
	movq	%r14, 8(%rdx)
	movq	%rbp, 16(%rdx)
	movq	%r12, 24(%rdx)
	movq	$0, 32(%rdx)
	movq	%r14, 40(%rdx)
	movq	%r12, 48(%rdx)
	movq	%rbp, 56(%rdx)
	movq	$0, 64(%rdx)
	movl	$16, %edi
	movl	$8, %esi
	callq	rattle_alloc@PLT
	testb	$1, %al
	je	.LBB48_76
	movq	%rdx, %r12
	movq	$1, (%rdx)
	movq	$0, 8(%rdx)
	movq	16(%rsp), %rbp
	testq	%rbp, %rbp
	je	.LBB48_31
	movabsq	$384307168202282326, %rax
	cmpq	%rax, %rbp
	jae	.LBB48_72
	movl	$8, %esi
	movq	88(%rsp), %rdi
	callq	rattle_alloc@PLT
	movq	88(%rsp), %rcx
	testb	$1, %al
	je	.LBB48_72
	movq	%rdx, %r14
	movq	%rdx, %rax
	movq	24(%rsp), %rsi
	subq	%rsi, %rax
	movq	%rcx, %rdx
	cmpq	%rcx, %rax
	jae	.LBB48_32
	xorl	%eax, %eax
	cmpq	$8, %rbp
	jae	.LBB48_33
	movabsq	$9223372036854775806, %rdi
	movq	184(%rsp), %r9
	jmp	.LBB48_36
.LBB48_31:
	xorl	%edx, %edx
	movq	%rsp, %r14
	movq	24(%rsp), %rsi
.LBB48_32:
	movq	%r14, %rdi
	callq	memmove@PLT
	movabsq	$9223372036854775806, %rdi
	jmp	.LBB48_38
.LBB48_33:
	xorl	%ecx, %ecx
	movabsq	$9223372036854775806, %rdi
	movq	152(%rsp), %r8
	movq	184(%rsp), %r9
	.p2align	4
.LBB48_34:
	movups	(%rsi,%rcx), %xmm0
	movq	16(%rsi,%rcx), %rdx
	movq	%rdx, 16(%r14,%rcx)
	movups	%xmm0, (%r14,%rcx)
	movups	24(%rsi,%rcx), %xmm0
	movq	40(%rsi,%rcx), %rdx
	movq	%rdx, 40(%r14,%rcx)
	movups	%xmm0, 24(%r14,%rcx)
	movups	48(%rsi,%rcx), %xmm0
	movq	64(%rsi,%rcx), %rdx
	movq	%rdx, 64(%r14,%rcx)
	movups	%xmm0, 48(%r14,%rcx)
	movups	72(%rsi,%rcx), %xmm0
	movq	88(%rsi,%rcx), %rdx
	movq	%rdx, 88(%r14,%rcx)
	movups	%xmm0, 72(%r14,%rcx)
	movups	96(%rsi,%rcx), %xmm0
	movq	112(%rsi,%rcx), %rdx
	movq	%rdx, 112(%r14,%rcx)
	movups	%xmm0, 96(%r14,%rcx)
	movups	120(%rsi,%rcx), %xmm0
	movq	136(%rsi,%rcx), %rdx
	movq	%rdx, 136(%r14,%rcx)
	movups	%xmm0, 120(%r14,%rcx)
	movups	144(%rsi,%rcx), %xmm0
	movq	160(%rsi,%rcx), %rdx
	movq	%rdx, 160(%r14,%rcx)
	movups	%xmm0, 144(%r14,%rcx)
	movups	168(%rsi,%rcx), %xmm0
	movq	184(%rsi,%rcx), %rdx
	movq	%rdx, 184(%r14,%rcx)
	movups	%xmm0, 168(%r14,%rcx)
	addq	$8, %rax
	addq	$192, %rcx
	cmpq	%rax, %r8
	jne	.LBB48_34
	cmpq	$0, 136(%rsp)
	je	.LBB48_38
.LBB48_36:
	shlq	$3, %rax
	leaq	(%rax,%rax,2), %rax
	leaq	(%rsi,%rax), %rcx
	addq	%r14, %rax
	xorl	%edx, %edx
	.p2align	4
.LBB48_37:
	movups	(%rcx,%rdx), %xmm0
	movq	16(%rcx,%rdx), %rsi
	movq	%rsi, 16(%rax,%rdx)
	movups	%xmm0, (%rax,%rdx)
	addq	$24, %rdx
	cmpq	%rdx, %r9
	jne	.LBB48_37
	.p2align	4
.LBB48_38:
	#APP
	#NO_APP
	movq	(%r15), %rax
	#APP
	#NO_APP
	cmpq	%rdi, %rax
	ja	.LBB48_54
	leaq	1(%rax), %rcx
	#APP
	#NO_APP
	lock		cmpxchgq	%rcx, (%r15)
	#APP
	#NO_APP
	jne	.LBB48_38
	.p2align	4
.LBB48_40:
	#APP
	#NO_APP
	movq	(%r12), %rax
	#APP
	#NO_APP
	cmpq	%rdi, %rax
	ja	.LBB48_52
	leaq	1(%rax), %rcx
	#APP
	#NO_APP
	lock		cmpxchgq	%rcx, (%r12)
	#APP
	#NO_APP
	jne	.LBB48_40
	movq	2136(%rsp), %r9
	movq	2144(%rsp), %rbp
	cmpq	%rbp, %r9
	jb	.LBB48_44
	je	.LBB48_50
.LBB48_44:
	movq	2128(%rsp), %rsi
	testq	%r9, %r9
	je	.LBB48_46
.LBB48_45:
	leaq	16(%rsi), %rdi
	movq	%r9, %rdx
	shlq	$4, %rdx
	movq	%rbp, 144(%rsp)
	movq	%rsi, %rbp
	movq	%r9, 128(%rsp)
	callq	memmove@PLT
	movq	128(%rsp), %r9
	movq	%rbp, %rsi
	movq	144(%rsp), %rbp
.LBB48_46:
	movq	%r15, (%rsi)
	movq	%r12, 8(%rsi)
	leaq	1(%r9), %rdi
	movq	%rdi, 2136(%rsp)
	movq	%rbp, 2144(%rsp)
	movq	1016(%rsp), %rax
	cmpq	%rax, 1024(%rsp)
	movl	40(%rsp), %r10d
	je	.LBB48_48
.LBB48_47:
	movq	1008(%rsp), %rcx
	imulq	$88, %rax, %rdx
	movq	%r15, (%rcx,%rdx)
	movq	%r12, 8(%rcx,%rdx)
	xorps	%xmm0, %xmm0
	movups	%xmm0, 16(%rcx,%rdx)
	movups	%xmm0, 32(%rcx,%rdx)
	movups	%xmm0, 48(%rcx,%rdx)
	movq	%r14, 64(%rcx,%rdx)
	movq	16(%rsp), %r8
	movq	%r8, 72(%rcx,%rdx)
	movq	%r8, 80(%rcx,%rdx)
	incq	%rax
	movq	%rax, 1016(%rsp)
	incb	%r10b
	cmpb	%bl, %r10b
	movl	%r10d, %r15d
	jne	.LBB48_21
	jmp	.LBB48_78
.LBB48_48:
	movq	%r9, 128(%rsp)
	movq	%rsi, 240(%rsp)
	leaq	1008(%rsp), %rdi
	callq	std_alloc__vec__Vec__grow_amortized____6c845662c72cf959_
	testb	%al, %al
	je	.LBB48_101
	movq	1016(%rsp), %rax
	movq	240(%rsp), %rsi
	movq	128(%rsp), %r9
	leaq	1(%r9), %rdi
	movl	40(%rsp), %r10d
	jmp	.LBB48_47
.LBB48_50:
	leaq	2128(%rsp), %rdi
	callq	std_alloc__vec__Vec__grow_amortized____1361f7250aa6eb72_
	testb	%al, %al
	je	.LBB48_104
	movq	2136(%rsp), %r9
	movq	2144(%rsp), %rbp
	movq	2128(%rsp), %rsi
	testq	%r9, %r9
	jne	.LBB48_45
	jmp	.LBB48_46
.LBB48_52:
	#APP
	#NO_APP
	lock		decq	(%r15)
	#APP
	#NO_APP
	jne	.LBB48_54
	movq	40(%r15), %rbp
	movq	56(%r15), %r13
	movq	%r15, %rdi
	callq	rattle_dealloc@PLT
	movq	%rbp, %rdi
	movq	16(%rsp), %rbp
	callq	rattle_dealloc@PLT
	movq	%r13, %rdi
	callq	rattle_dealloc@PLT
.LBB48_54:
	testq	%rbp, %rbp
	je	.LBB48_56
	movq	%r14, %rdi
	callq	rattle_dealloc@PLT
.LBB48_56:
	#APP
	#NO_APP
	lock		decq	(%r15)
	#APP
	#NO_APP
	jne	.LBB48_58
	movq	40(%r15), %r14
	movq	56(%r15), %rbp
	movq	%r15, %rdi
	callq	rattle_dealloc@PLT
	movq	%r14, %rdi
	callq	rattle_dealloc@PLT
	movq	%rbp, %rdi
	callq	rattle_dealloc@PLT
.LBB48_58:
	#APP
	#NO_APP
	lock		decq	(%r12)
	#APP
	#NO_APP
	jne	.LBB48_61
.LBB48_59:
	movq	%r12, %rdi
.LBB48_60:
	callq	rattle_dealloc@PLT
.LBB48_61:
	leaq	2128(%rsp), %rdi
	callq	std_alloc__vec__Vec__drop____03f4bc90732ccbc3_
	leaq	1008(%rsp), %rdi
	callq	std_alloc__vec__Vec__drop____d990c0914ddb23de_
	movq	112(%rsp), %r15
	movq	72(%rsp), %r12
	testb	%bl, %bl
	movq	104(%rsp), %rdi
	movq	24(%rsp), %r9
	movq	32(%rsp), %r10
	je	.LBB48_63
	callq	rattle_dealloc@PLT
	movq	32(%rsp), %r10
	movq	24(%rsp), %r9
.LBB48_63:
	testq	%r10, %r10
	je	.LBB48_65
.LBB48_64:
	movq	%r9, %rdi
	callq	rattle_dealloc@PLT
.LBB48_65:
	testq	%rbx, %rbx
	je	.LBB48_68
	movq	%r12, %r14
	.p2align	4
.LBB48_67:
	movq	16(%r14), %rax
	movq	%rax, 1024(%rsp)
	movups	(%r14), %xmm0
	movaps	%xmm0, 1008(%rsp)
	leaq	1008(%rsp), %rdi
	callq	std_alloc__vec__Vec__drop____98a5c0865d4d3e5d_
	addq	$24, %r14
	decq	%rbx
	jne	.LBB48_67
.LBB48_68:
	cmpq	$0, 64(%rsp)
	je	.LBB48_70
	movq	%r12, %rdi
	callq	rattle_dealloc@PLT
.LBB48_70:
	movw	$1, (%r15)
	movups	1670(%rsp), %xmm0
	movups	%xmm0, 8(%r15)
	movq	1686(%rsp), %rax
	movq	%rax, 24(%r15)
	movq	$0, 32(%r15)
	movaps	1632(%rsp), %xmm0
	movups	%xmm0, 40(%r15)
	movq	1648(%rsp), %rax
	movq	%rax, 56(%r15)
	movb	$0, 64(%r15)
	movl	504(%rsp), %eax
	movl	507(%rsp), %ecx
	movl	%eax, 65(%r15)
	movl	%ecx, 68(%r15)
	xorps	%xmm0, %xmm0
	movups	%xmm0, 72(%r15)
	movq	$0, 88(%r15)
.LBB48_71:
	addq	$2920, %rsp
	popq	%rbx
	popq	%r12
	popq	%r13
	popq	%r14
	popq	%r15
	popq	%rbp
	retq
.LBB48_72:
	#APP
	#NO_APP
	lock		decq	(%r15)
	#APP
	#NO_APP
	jne	.LBB48_74
	movq	40(%r15), %r14
	movq	56(%r15), %rbp
	movq	%r15, %rdi
	callq	rattle_dealloc@PLT
	movq	%r14, %rdi
	callq	rattle_dealloc@PLT
	movq	%rbp, %rdi
	callq	rattle_dealloc@PLT
.LBB48_74:
	#APP
	#NO_APP
	lock		decq	(%r12)
	#APP
	#NO_APP
	je	.LBB48_59
	jmp	.LBB48_61
.LBB48_75:
	movq	%r14, %rdi
	callq	rattle_dealloc@PLT
	movq	%rbp, %rdi
	jmp	.LBB48_60
.LBB48_76:
	#APP
	#NO_APP
	lock		decq	(%r15)
	#APP
	#NO_APP
	jne	.LBB48_61
	movq	40(%r15), %r14
	movq	56(%r15), %r12
	movq	%r15, %rdi
	callq	rattle_dealloc@PLT
	movq	%r14, %rdi
	callq	rattle_dealloc@PLT
	jmp	.LBB48_59
.LBB48_78:
	movq	%r9, 128(%rsp)
	movq	%rdi, 88(%rsp)
	movq	%rsi, 240(%rsp)
	movq	%rbp, 144(%rsp)
	movq	1024(%rsp), %rax
	movq	%rax, 359(%rsp)
	movups	1008(%rsp), %xmm0
	movups	%xmm0, 343(%rsp)
	movaps	%xmm0, 704(%rsp)
	movq	%rax, 720(%rsp)
	movw	$0, 196(%rsp)
	movl	$0, 192(%rsp)
	movw	$0, 388(%rsp)
	movl	$0, 384(%rsp)
	movq	96(%rsp), %r14
	imulq	$392, %r14, %rdi
	movl	$8, %esi
	callq	rattle_alloc@PLT
	testb	$1, %al
	movq	112(%rsp), %r15
	movq	72(%rsp), %r12
	je	.LBB48_124
	movq	%rdx, %rbp
	movw	$0, 1732(%rsp)
	movl	$0, 1728(%rsp)
	leal	(%r14,%r14), %edi
	movl	$2, %esi
	callq	rattle_alloc@PLT
	testb	$1, %al
	je	.LBB48_123
	movq	%rdx, 40(%rsp)
	movzbl	%bl, %ecx
	cmpw	$17, %cx
	movl	$16, %eax
	movl	%ecx, 136(%rsp)
	cmovael	%ecx, %eax
	movl	%eax, 184(%rsp)
	movl	$5120, %edi
	movl	$8, %esi
	callq	rattle_alloc@PLT
	testb	$1, %al
	je	.LBB48_86
	movq	%rdx, %r14
	movzbl	16(%rsp), %eax
	movq	24(%rsp), %rcx
	addq	$8, %rcx
	addq	$32, %rdx
	xorl	%esi, %esi
	jmp	.LBB48_84
.LBB48_82:
	xorps	%xmm0, %xmm0
	movaps	%xmm0, 1008(%rsp)
	xorl	%r8d, %r8d
	xorl	%edi, %edi
.LBB48_83:
	movaps	1008(%rsp), %xmm0
	movaps	%xmm0, 2128(%rsp)
	movq	%r8, -32(%rdx)
	movq	%rdi, -24(%rdx)
	movaps	2128(%rsp), %xmm0
	movups	%xmm0, -16(%rdx)
	movq	$0, (%rdx)
	incq	%rsi
	addq	$24, %rcx
	addq	$40, %rdx
	cmpq	$128, %rsi
	je	.LBB48_87
.LBB48_84:
	cmpq	%rax, %rsi
	jae	.LBB48_82
	movq	-8(%rcx), %rdi
	movups	(%rcx), %xmm0
	movaps	%xmm0, 1008(%rsp)
	movl	$1, %r8d
	jmp	.LBB48_83
.LBB48_86:
	movq	40(%rsp), %rdi
	callq	rattle_dealloc@PLT
	jmp	.LBB48_123
.LBB48_87:
	movzwl	184(%rsp), %eax
	leal	528(,%rax,8), %eax
	movq	%rax, 696(%rsp)
	leal	(,%rax,8), %r12d
	movl	$8, %esi
	movq	%r12, %rdi
	callq	rattle_alloc@PLT
	testb	$1, %al
	je	.LBB48_93
	movq	%rdx, %r15
	movq	%rbp, 224(%rsp)
	leaq	-8(%r12), %rdx
	movq	%r15, %rdi
	xorl	%esi, %esi
	callq	memset@PLT
	movq	$0, -8(%r15,%r12)
	movl	$8, %esi
	movq	%r12, %rdi
	callq	rattle_alloc@PLT
	testb	$1, %al
	je	.LBB48_115
	movq	%rdx, %r12
	movl	$5120, %edi
	movl	$8, %esi
	callq	rattle_alloc@PLT
	movq	%rdx, 488(%rsp)
	testb	$1, %al
	je	.LBB48_114
	movq	%r12, 264(%rsp)
	subq	%r15, %r12
	movzbl	%bl, %ecx
	cmpq	$32, %r12
	jae	.LBB48_128
	cmpq	$17, %rcx
	movl	$16, %eax
	cmovaeq	%rcx, %rax
	shll	$6, %eax
	addq	$4224, %rax
	xorl	%ecx, %ecx
	movq	264(%rsp), %rsi
.LBB48_92:
	movq	(%r15,%rcx), %rdx
	movq	%rdx, (%rsi,%rcx)
	movq	8(%r15,%rcx), %rdx
	movq	%rdx, 8(%rsi,%rcx)
	movq	16(%r15,%rcx), %rdx
	movq	%rdx, 16(%rsi,%rcx)
	movq	24(%r15,%rcx), %rdx
	movq	%rdx, 24(%rsi,%rcx)
	addq	$32, %rcx
	cmpq	%rcx, %rax
	jne	.LBB48_92
	jmp	.LBB48_130
.LBB48_93:
	xorl	%r15d, %r15d
	jmp	.LBB48_95
.LBB48_94:
	incq	%r15
	cmpq	$128, %r15
	je	.LBB48_100
.LBB48_95:
	leaq	(,%r15,8), %rax
	leaq	(%rax,%rax,4), %rax
	cmpb	$0, (%r14,%rax)
	jne	.LBB48_94
	cmpb	$0, 8(%r14,%rax)
	je	.LBB48_94
	movq	32(%r14,%rax), %r12
	testq	%r12, %r12
	je	.LBB48_94
	movq	16(%r14,%rax), %rdi
.LBB48_99:
	movq	(%rdi), %r13
	callq	rattle_dealloc@PLT
	movq	%r13, %rdi
	decq	%r12
	jne	.LBB48_99
	jmp	.LBB48_94
.LBB48_100:
	movq	%r14, %rdi
	callq	rattle_dealloc@PLT
	movq	40(%rsp), %rdi
	callq	rattle_dealloc@PLT
	movq	112(%rsp), %r15
	movq	72(%rsp), %r12
	jmp	.LBB48_123
.LBB48_101:
	#APP
	#NO_APP
	lock		decq	(%r15)
	#APP
	#NO_APP
	jne	.LBB48_102
	movq	40(%r15), %rbp
	movq	56(%r15), %r13
	movq	%r15, %rdi
	callq	rattle_dealloc@PLT
	movq	%rbp, %rdi
	callq	rattle_dealloc@PLT
	movq	%r13, %rdi
	callq	rattle_dealloc@PLT
	#APP
	#NO_APP
	lock		decq	(%r12)
	#APP
	#NO_APP
	je	.LBB48_112
.LBB48_103:
	cmpq	$0, 16(%rsp)
	jne	.LBB48_113
	jmp	.LBB48_61
.LBB48_102:
	#APP
	#NO_APP
	lock		decq	(%r12)
	#APP
	#NO_APP
	jne	.LBB48_103
.LBB48_112:
	movq	%r12, %rdi
	callq	rattle_dealloc@PLT
	cmpq	$0, 16(%rsp)
	je	.LBB48_61
.LBB48_113:
	movq	%r14, %rdi
	jmp	.LBB48_60
.LBB48_104:
	#APP
	#NO_APP
	lock		decq	(%r15)
	#APP
	#NO_APP
	jne	.LBB48_105
	movq	40(%r15), %rbp
	movq	56(%r15), %r13
	movq	%r15, %rdi
	callq	rattle_dealloc@PLT
	movq	%rbp, %rdi
	callq	rattle_dealloc@PLT
	movq	%r13, %rdi
	callq	rattle_dealloc@PLT
	#APP
	#NO_APP
	lock		decq	(%r12)
	#APP
	#NO_APP
	je	.LBB48_127
.LBB48_106:
	cmpq	$0, 16(%rsp)
	je	.LBB48_108
.LBB48_107:
	movq	%r14, %rdi
	callq	rattle_dealloc@PLT
.LBB48_108:
	#APP
	#NO_APP
	lock		decq	(%r15)
	#APP
	#NO_APP
	jne	.LBB48_110
	movq	40(%r15), %r14
	movq	56(%r15), %rbp
	movq	%r15, %rdi
	callq	rattle_dealloc@PLT
	movq	%r14, %rdi
	callq	rattle_dealloc@PLT
	movq	%rbp, %rdi
	callq	rattle_dealloc@PLT
.LBB48_110:
	#APP
	#NO_APP
	lock		decq	(%r12)
	#APP
	#NO_APP
	je	.LBB48_59
	jmp	.LBB48_61
.LBB48_105:
	#APP
	#NO_APP
	lock		decq	(%r12)
	#APP
	#NO_APP
	jne	.LBB48_106
.LBB48_127:
	movq	%r12, %rdi
	callq	rattle_dealloc@PLT
	cmpq	$0, 16(%rsp)
	jne	.LBB48_107
	jmp	.LBB48_108
.LBB48_114:
	movq	%r12, %rdi
	callq	rattle_dealloc@PLT
.LBB48_115:
	xorl	%r12d, %r12d
	jmp	.LBB48_117
.LBB48_116:
	incq	%r12
	cmpq	$128, %r12
	je	.LBB48_122
.LBB48_117:
	leaq	(,%r12,8), %rax
	leaq	(%rax,%rax,4), %rax
	cmpb	$0, (%r14,%rax)
	jne	.LBB48_116
	cmpb	$0, 8(%r14,%rax)
	je	.LBB48_116
	movq	32(%r14,%rax), %r13
	testq	%r13, %r13
	je	.LBB48_116
	movq	16(%r14,%rax), %rdi
.LBB48_121:
	movq	(%rdi), %rbp
	callq	rattle_dealloc@PLT
	movq	%rbp, %rdi
	decq	%r13
	jne	.LBB48_121
	jmp	.LBB48_116
.LBB48_122:
	movq	%r14, %rdi
	callq	rattle_dealloc@PLT
	movq	%r15, %rdi
	callq	rattle_dealloc@PLT
	movq	40(%rsp), %rdi
	callq	rattle_dealloc@PLT
	movq	112(%rsp), %r15
	movq	72(%rsp), %r12
	movq	224(%rsp), %rbp
.LBB48_123:
	movq	%rbp, %rdi
	callq	rattle_dealloc@PLT
.LBB48_124:
	movq	240(%rsp), %rax
	movq	%rax, 864(%rsp)
	movq	88(%rsp), %rax
	movq	%rax, 872(%rsp)
	movq	144(%rsp), %rax
	movq	%rax, 880(%rsp)
	leaq	864(%rsp), %rdi
	callq	std_alloc__vec__Vec__drop____03f4bc90732ccbc3_
	leaq	704(%rsp), %rdi
	callq	std_alloc__vec__Vec__drop____d990c0914ddb23de_
	movq	104(%rsp), %rdi
	callq	rattle_dealloc@PLT
.LBB48_125:
	movq	24(%rsp), %r9
	movq	32(%rsp), %r10
	testq	%r10, %r10
	jne	.LBB48_64
	jmp	.LBB48_65
.LBB48_128:
	cmpq	$17, %rcx
	movl	$16, %eax
	cmovaeq	%rcx, %rax
	shll	$6, %eax
	addq	$4224, %rax
	xorl	%ecx, %ecx
	movq	264(%rsp), %rdx
.LBB48_129:
	movups	(%r15,%rcx), %xmm0
	movups	16(%r15,%rcx), %xmm1
	movups	%xmm0, (%rdx,%rcx)
	movups	%xmm1, 16(%rdx,%rcx)
	addq	$32, %rcx
	cmpq	%rcx, %rax
	jne	.LBB48_129
.LBB48_130:
	movl	$5040, %eax
	movq	488(%rsp), %rdx
.LBB48_131:
	movzbl	40(%r14,%rax), %ecx
	movups	48(%r14,%rax), %xmm0
	movups	64(%r14,%rax), %xmm1
	movaps	%xmm1, 1024(%rsp)
	movaps	%xmm0, 1008(%rsp)
	movq	%rcx, 40(%rdx,%rax)
	movaps	1008(%rsp), %xmm0
	movaps	1024(%rsp), %xmm1
	movups	%xmm0, 48(%rdx,%rax)
	movups	%xmm1, 64(%rdx,%rax)
	movzbl	(%r14,%rax), %ecx
	movups	8(%r14,%rax), %xmm0
	movups	24(%r14,%rax), %xmm1
	movaps	%xmm1, 1024(%rsp)
	movaps	%xmm0, 1008(%rsp)
	movq	%rcx, (%rdx,%rax)
	movaps	1008(%rsp), %xmm0
	movaps	1024(%rsp), %xmm1
	movups	%xmm0, 8(%rdx,%rax)
	movups	%xmm1, 24(%rdx,%rax)
	addq	$-80, %rax
	cmpq	$-80, %rax
	jne	.LBB48_131
	movq	%r14, %rdi
	callq	rattle_dealloc@PLT
	movl	136(%rsp), %eax
	decw	%ax
	movl	%eax, 136(%rsp)
	je	.LBB48_136
	movzwl	136(%rsp), %edi
	xorl	%eax, %eax
	movq	264(%rsp), %rdx
	movq	40(%rsp), %rsi
.LBB48_134:
	#APP
	#NO_APP
	movq	(%rdx), %rcx
	#APP
	#NO_APP
	movw	%ax, (%rsi,%rax,2)
	incq	%rax
	cmpq	%rax, %rdi
	jne	.LBB48_134
	movq	%rdi, 152(%rsp)
	jmp	.LBB48_137
.LBB48_136:
	movq	$0, 152(%rsp)
.LBB48_137:
	movq	40(%rsp), %rax
	movl	136(%rsp), %ecx
	movq	152(%rsp), %rdx
	movw	%cx, (%rax,%rdx,2)
	movq	%r15, %rdi
	callq	rattle_dealloc@PLT
	movzbl	16(%rsp), %eax
	movl	%eax, 556(%rsp)
	movzwl	1732(%rsp), %eax
	movw	%ax, 388(%rsp)
	movl	1728(%rsp), %eax
	movl	%eax, 384(%rsp)
	cmpb	$17, %bl
	movabsq	$562949953421311, %rax
	movabsq	$72057594037927935, %rcx
	cmovaeq	%rax, %rcx
	movq	%rcx, 16(%rsp)
	movq	$-1, %rbp
	movq	224(%rsp), %r15
.LBB48_138:
	movq	40(%rsp), %rax
	movzwl	2(%rax,%rbp,2), %r12d
	movl	$40, %edi
	movl	$8, %esi
	callq	rattle_alloc@PLT
	testb	$1, %al
	je	.LBB48_164
	movq	%rdx, %r14
	movzwl	%r12w, %eax
	movq	%rdx, (%rdx)
	movq	%rdx, 8(%rdx)
	xorps	%xmm0, %xmm0
	movups	%xmm0, 16(%rdx)
	leal	(,%rax,8), %ecx
	leaq	7(%rcx), %rdx
	cmpw	$16, %ax
	leaq	8(,%rax,8), %rsi
	movl	$256, %edi
	movl	$32768, %r8d
	cmovbq	%rdi, %r8
	cmovaeq	%rdx, %rsi
	movq	$0, 32(%r14)
	addq	$528, %rcx
	movzbl	80(%rsp), %edx
	movb	%dl, (%r15)
	movb	$0, 1(%r15)
	movw	%ax, 2(%r15)
	movl	$64, 4(%r15)
	movl	184(%rsp), %eax
	movw	%ax, 8(%r15)
	movl	$0, 10(%r15)
	movw	$0, 14(%r15)
	movq	16(%rsp), %rax
	movq	%rax, 16(%r15)
	movq	%rcx, 24(%r15)
	movq	$0, 32(%r15)
	movq	%rsi, 40(%r15)
	movq	%r8, 48(%r15)
	movq	%rsi, 56(%r15)
	leaq	64(%r15), %rdi
	movl	$272, %edx
	xorl	%esi, %esi
	callq	memset@PLT
	movq	%rsp, %rax
	movq	%rax, 336(%r15)
	xorps	%xmm0, %xmm0
	movups	%xmm0, 344(%r15)
	movq	$1, 360(%r15)
	movq	%r14, 368(%r15)
	movq	%r14, 376(%r15)
	movq	$1, 384(%r15)
	incq	%rbp
	addq	$392, %r15
	cmpq	%rbp, 152(%rsp)
	jne	.LBB48_138
	movq	%rbp, 152(%rsp)
	movq	%rax, 456(%rsp)
	movq	40(%rsp), %rdi
	callq	rattle_dealloc@PLT
	movzwl	388(%rsp), %eax
	movw	%ax, 196(%rsp)
	movl	384(%rsp), %eax
	movl	%eax, 192(%rsp)
	cmpq	$0, 32(%rsp)
	je	.LBB48_142
	movq	24(%rsp), %rdi
	callq	rattle_dealloc@PLT
.LBB48_142:
	movq	152(%rsp), %rax
	incq	%rax
	movq	%rax, 136(%rsp)
	movzwl	196(%rsp), %eax
	movw	%ax, 380(%rsp)
	movl	192(%rsp), %ecx
	movl	%ecx, 376(%rsp)
	movl	%ecx, 256(%rsp)
	movw	%ax, 260(%rsp)
	movq	704(%rsp), %rax
	movq	%rax, 472(%rsp)
	movq	712(%rsp), %rax
	movq	%rax, 16(%rsp)
	movq	720(%rsp), %rax
	movq	%rax, 520(%rsp)
	xorps	%xmm0, %xmm0
	movaps	%xmm0, 1536(%rsp)
	movq	$0, 1552(%rsp)
	movaps	%xmm0, 272(%rsp)
	movups	%xmm0, 287(%rsp)
	movaps	%xmm0, 1728(%rsp)
	movaps	%xmm0, 1744(%rsp)
	movaps	%xmm0, 1760(%rsp)
	movaps	%xmm0, 1776(%rsp)
	movq	$0, 1792(%rsp)
	movaps	%xmm0, 960(%rsp)
	movq	$0, 976(%rsp)
	movaps	%xmm0, 928(%rsp)
	movq	$0, 944(%rsp)
	movaps	%xmm0, 896(%rsp)
	movq	$0, 912(%rsp)
	addq	$8, 328(%rsp)
	movq	128(%rsp), %rax
	incq	%rax
	shlq	$4, %rax
	movq	%rax, 992(%rsp)
	movq	72(%rsp), %rax
	addq	$24, %rax
	movq	224(%rsp), %rcx
	addq	$392, %rcx
	movq	%rcx, 464(%rsp)
	movq	$0, 40(%rsp)
.LBB48_143:
	movq	40(%rsp), %rcx
	movq	%rax, 232(%rsp)
	movq	%rcx, 80(%rsp)
	imulq	$392, %rcx, %r14
	movq	224(%rsp), %r15
	movq	(%r15,%r14), %rax
	movq	%rax, 1000(%rsp)
	movq	336(%r15,%r14), %rax
	movq	%rax, 304(%rsp)
	leaq	8(%r15,%r14), %rsi
	movq	344(%r15,%r14), %r12
	movq	352(%r15,%r14), %rax
	movq	%rax, 544(%rsp)
	movzbl	360(%r15,%r14), %eax
	movb	%al, 55(%rsp)
	movq	368(%r15,%r14), %rax
	movq	%rax, 480(%rsp)
	movq	384(%r15,%r14), %rax
	movq	%rax, 528(%rsp)
	movups	376(%r15,%r14), %xmm0
	movaps	%xmm0, 1712(%rsp)
	leaq	2128(%rsp), %rdi
	movl	$328, %edx
	callq	memcpy@PLT
	movl	361(%r15,%r14), %eax
	movl	364(%r15,%r14), %ecx
	movl	%eax, 512(%rsp)
	movl	%ecx, 515(%rsp)
	cmpq	$0, 16(%rsp)
	je	.LBB48_589
	movq	80(%rsp), %rax
	incq	%rax
	movq	%rax, 40(%rsp)
	movq	136(%rsp), %rax
	decq	%rax
	movq	%rax, 536(%rsp)
	movq	16(%rsp), %rax
	decq	%rax
	movq	%rax, 16(%rsp)
	imulq	$88, %rax, %rax
	movq	472(%rsp), %rdx
	movq	(%rdx,%rax), %rcx
	movq	%rcx, 312(%rsp)
	movq	8(%rdx,%rax), %rcx
	movq	%rcx, 320(%rsp)
	movq	64(%rdx,%rax), %rcx
	movq	%rcx, 24(%rsp)
	movq	80(%rdx,%rax), %rcx
	movq	%rcx, 32(%rsp)
	movups	72(%rdx,%rax), %xmm0
	movaps	%xmm0, 1696(%rsp)
	movups	48(%rdx,%rax), %xmm0
	movaps	%xmm0, 416(%rsp)
	movups	32(%rdx,%rax), %xmm0
	movaps	%xmm0, 400(%rsp)
	movups	16(%rdx,%rax), %xmm0
	movaps	%xmm0, 384(%rsp)
	xorps	%xmm0, %xmm0
	movaps	%xmm0, 192(%rsp)
	movups	%xmm0, 207(%rsp)
	movaps	%xmm0, 160(%rsp)
	movq	$0, 176(%rsp)
	movq	128(%rsp), %rax
	incq	%rax
	testq	%rax, %rax
	je	.LBB48_158
	movq	128(%rsp), %rax
	incq	%rax
	cmpq	328(%rsp), %rax
	jae	.LBB48_177
	movl	$8, %esi
	movq	992(%rsp), %rdi
	callq	rattle_alloc@PLT
	testb	$1, %al
	je	.LBB48_177
	movq	%rdx, 160(%rsp)
	movq	$0, 168(%rsp)
	movq	128(%rsp), %rax
	incq	%rax
	movq	%rax, 176(%rsp)
	xorl	%ebp, %ebp
.LBB48_148:
	movq	%rbp, %rcx
	shlq	$4, %rcx
	movq	240(%rsp), %rax
	movq	(%rax,%rcx), %r15
	movabsq	$9223372036854775806, %rsi
.LBB48_149:
	#APP
	#NO_APP
	movq	(%r15), %rax
	#APP
	#NO_APP
	cmpq	%rsi, %rax
	ja	.LBB48_176
	leaq	1(%rax), %rdx
	#APP
	#NO_APP
	lock		cmpxchgq	%rdx, (%r15)
	#APP
	#NO_APP
	jne	.LBB48_149
	movq	8(%r15), %rax
	#APP
	#NO_APP
	movq	(%rax), %rax
	#APP
	#NO_APP
	movq	240(%rsp), %rax
	movq	8(%rax,%rcx), %r14
.LBB48_152:
	#APP
	#NO_APP
	movq	(%r14), %rax
	#APP
	#NO_APP
	cmpq	%rsi, %rax
	ja	.LBB48_174
	leaq	1(%rax), %rcx
	#APP
	#NO_APP
	lock		cmpxchgq	%rcx, (%r14)
	#APP
	#NO_APP
	jne	.LBB48_152
	movq	168(%rsp), %rax
	cmpq	%rax, 176(%rsp)
	je	.LBB48_156
.LBB48_155:
	movq	160(%rsp), %rcx
	movq	%rax, %rdx
	shlq	$4, %rdx
	movq	%r15, (%rcx,%rdx)
	movq	%r14, 8(%rcx,%rdx)
	incq	%rax
	movq	%rax, 168(%rsp)
	cmpq	128(%rsp), %rbp
	leaq	1(%rbp), %rbp
	jne	.LBB48_148
	jmp	.LBB48_159
.LBB48_156:
	leaq	160(%rsp), %rdi
	callq	std_alloc__vec__Vec__grow_amortized____1361f7250aa6eb72_
	testb	%al, %al
	je	.LBB48_454
	movq	168(%rsp), %rax
	jmp	.LBB48_155
.LBB48_158:
	movq	%rsp, %rax
	movq	%rax, 160(%rsp)
.LBB48_159:
	movq	176(%rsp), %rax
	leaq	279(%rsp), %rdx
	movq	%rax, 16(%rdx)
	movq	160(%rsp), %rax
	movq	%rax, (%rdx)
	movq	168(%rsp), %rax
	movq	%rax, 8(%rdx)
	movaps	384(%rsp), %xmm0
	movaps	400(%rsp), %xmm1
	movaps	416(%rsp), %xmm2
	movaps	%xmm2, 1040(%rsp)
	movaps	%xmm1, 1024(%rsp)
	movaps	%xmm0, 1008(%rsp)
	movq	16(%rdx), %rax
	leaq	1056(%rsp), %rcx
	movq	%rax, 16(%rcx)
	movq	(%rdx), %rax
	movq	%rax, (%rcx)
	movq	8(%rdx), %rax
	movq	%rax, 8(%rcx)
	movl	$576, %edi
	movl	$8, %esi
	callq	rattle_alloc@PLT
	testb	$1, %al
	je	.LBB48_224
	movq	%rdx, %rdi
	movq	%rdx, %r14
	movq	1000(%rsp), %rax
	movq	%rax, (%rdi)
	addq	$8, %rdi
	leaq	2128(%rsp), %rsi
	movl	$328, %edx
	callq	memcpy@PLT
	movq	304(%rsp), %rax
	movq	%rax, 336(%r14)
	movq	%r12, 344(%r14)
	movq	544(%rsp), %rax
	movq	%rax, 352(%r14)
	movzbl	55(%rsp), %eax
	movb	%al, 360(%r14)
	movl	512(%rsp), %eax
	movl	515(%rsp), %ecx
	movl	%eax, 361(%r14)
	movl	%ecx, 364(%r14)
	movq	480(%rsp), %rax
	movq	%rax, 368(%r14)
	movaps	1712(%rsp), %xmm0
	movups	%xmm0, 376(%r14)
	movl	%r13d, 392(%r14)
	xorps	%xmm4, %xmm4
	movups	%xmm4, 396(%r14)
	movups	%xmm4, 412(%r14)
	movups	%xmm4, 428(%r14)
	movups	%xmm4, 444(%r14)
	movl	$0, 460(%r14)
	movq	24(%rsp), %rax
	movq	%rax, 464(%r14)
	movaps	1696(%rsp), %xmm0
	movups	%xmm0, 472(%r14)
	movq	312(%rsp), %rax
	movq	%rax, 488(%r14)
	movq	320(%rsp), %rax
	movq	%rax, 496(%r14)
	movaps	1008(%rsp), %xmm0
	movaps	1024(%rsp), %xmm1
	movaps	1040(%rsp), %xmm2
	movaps	1056(%rsp), %xmm3
	movups	%xmm0, 504(%r14)
	movups	%xmm1, 520(%r14)
	movups	%xmm2, 536(%r14)
	movups	%xmm3, 552(%r14)
	movq	1072(%rsp), %rax
	movq	%rax, 568(%r14)
	movaps	%xmm4, 1776(%rsp)
	movaps	%xmm4, 1760(%rsp)
	movaps	%xmm4, 1744(%rsp)
	movaps	%xmm4, 1728(%rsp)
	movq	$0, 1792(%rsp)
	movq	104(%rsp), %rax
	movq	80(%rsp), %rcx
	movq	%r14, (%rax,%rcx,8)
	movq	232(%rsp), %rax
	addq	$24, %rax
	decq	152(%rsp)
	addq	$392, 464(%rsp)
	movq	536(%rsp), %rcx
	movq	%rcx, 136(%rsp)
	testq	%rcx, %rcx
	jne	.LBB48_143
	movabsq	$1152921504606846975, %r14
	movq	224(%rsp), %rdi
	callq	rattle_dealloc@PLT
	movq	472(%rsp), %rax
	movq	%rax, 896(%rsp)
	movq	16(%rsp), %rax
	movq	%rax, 904(%rsp)
	movq	520(%rsp), %rax
	movq	%rax, 912(%rsp)
	leaq	896(%rsp), %rdi
	callq	std_alloc__vec__Vec__drop____d990c0914ddb23de_
	movl	256(%rsp), %eax
	movl	%eax, 248(%rsp)
	movzwl	260(%rsp), %eax
	movw	%ax, 252(%rsp)
	movq	264(%rsp), %rax
	movq	%rax, 560(%rsp)
	movq	488(%rsp), %rcx
	movq	%rcx, 568(%rsp)
	movq	696(%rsp), %rdx
	movq	%rdx, 576(%rsp)
	movq	$128, 584(%rsp)
	movq	%rax, 592(%rsp)
	movq	%rdx, 600(%rsp)
	movq	%rcx, 608(%rsp)
	movq	$128, 616(%rsp)
	movl	556(%rsp), %eax
	movl	%eax, 624(%rsp)
	movl	$64, 628(%rsp)
	movl	184(%rsp), %eax
	movw	%ax, 632(%rsp)
	movzwl	252(%rsp), %eax
	movw	%ax, 638(%rsp)
	movl	248(%rsp), %eax
	movl	%eax, 634(%rsp)
	movq	240(%rsp), %rax
	movq	%rax, 640(%rsp)
	movq	88(%rsp), %rax
	movq	%rax, 648(%rsp)
	movq	144(%rsp), %rax
	movq	%rax, 656(%rsp)
	movq	$1, 160(%rsp)
	movq	$0, 168(%rsp)
	xorps	%xmm0, %xmm0
	movaps	%xmm0, 192(%rsp)
	movq	$0, 208(%rsp)
	movaps	%xmm0, 272(%rsp)
	movq	$0, 288(%rsp)
	movaps	%xmm0, 336(%rsp)
	movq	$0, 352(%rsp)
	cmpq	%r14, 80(%rsp)
	jae	.LBB48_247
	movq	40(%rsp), %rax
	leaq	(,%rax,8), %rdi
	movl	$8, %esi
	callq	rattle_alloc@PLT
	movq	%rdx, 16(%rsp)
	testb	$1, %al
	je	.LBB48_247
	movq	$0, 32(%rsp)
	xorl	%eax, %eax
	movq	40(%rsp), %rbp
	movq	%rbx, %r15
	movq	$0, 24(%rsp)
	jmp	.LBB48_203
.LBB48_164:
	movq	40(%rsp), %rdi
	callq	rattle_dealloc@PLT
	incq	%rbp
	je	.LBB48_166
	movq	224(%rsp), %rdi
	xorl	%esi, %esi
	movq	%rbp, %rdx
	callq	std_alloc__vec__opened__drop_run____7e9ec3e13b399dfa_
.LBB48_166:
	movq	224(%rsp), %rdi
	callq	rattle_dealloc@PLT
	xorl	%r14d, %r14d
	movq	488(%rsp), %r13
	jmp	.LBB48_168
.LBB48_167:
	incq	%r14
	cmpq	$128, %r14
	je	.LBB48_173
.LBB48_168:
	leaq	(,%r14,8), %rax
	leaq	(%rax,%rax,4), %rax
	cmpb	$0, (%r13,%rax)
	jne	.LBB48_167
	cmpb	$0, 8(%r13,%rax)
	je	.LBB48_167
	movq	32(%r13,%rax), %r15
	testq	%r15, %r15
	je	.LBB48_167
	movq	16(%r13,%rax), %rdi
.LBB48_172:
	movq	(%rdi), %r12
	callq	rattle_dealloc@PLT
	movq	%r12, %rdi
	decq	%r15
	jne	.LBB48_172
	jmp	.LBB48_167
.LBB48_173:
	movq	264(%rsp), %rdi
	callq	rattle_dealloc@PLT
	movq	%r13, %rdi
	callq	rattle_dealloc@PLT
	movq	112(%rsp), %r15
	movq	72(%rsp), %r12
	jmp	.LBB48_124
.LBB48_174:
	#APP
	#NO_APP
	lock		decq	(%r15)
	#APP
	#NO_APP
	jne	.LBB48_176
	movq	40(%r15), %r14
	movq	56(%r15), %r13
	movq	%r15, %rdi
	callq	rattle_dealloc@PLT
	movq	%r14, %rdi
	callq	rattle_dealloc@PLT
	movq	%r13, %rdi
	callq	rattle_dealloc@PLT
.LBB48_176:
	leaq	160(%rsp), %rdi
	callq	std_alloc__vec__Vec__drop____03f4bc90732ccbc3_
.LBB48_177:
	xorps	%xmm0, %xmm0
	movups	%xmm0, 279(%rsp)
	movq	$0, 295(%rsp)
.LBB48_178:
	#APP
	#NO_APP
	movq	312(%rsp), %rax
	lock		decq	(%rax)
	#APP
	#NO_APP
	jne	.LBB48_180
	movq	312(%rsp), %rdi
	movq	40(%rdi), %r14
	movq	56(%rdi), %r15
	callq	rattle_dealloc@PLT
	movq	%r14, %rdi
	callq	rattle_dealloc@PLT
	movq	%r15, %rdi
	callq	rattle_dealloc@PLT
.LBB48_180:
	#APP
	#NO_APP
	movq	320(%rsp), %rax
	lock		decq	(%rax)
	#APP
	#NO_APP
	jne	.LBB48_182
	movq	320(%rsp), %rdi
	callq	rattle_dealloc@PLT
.LBB48_182:
	testq	%r12, %r12
	je	.LBB48_191
	movq	304(%rsp), %rax
	leaq	88(%rax), %r15
	jmp	.LBB48_185
.LBB48_184:
	addq	$96, %r15
	decq	%r12
	je	.LBB48_191
.LBB48_185:
	movzbl	-56(%r15), %eax
	movzbl	-24(%r15), %ebp
	movq	-16(%r15), %r14
	movq	(%r15), %r13
	leal	-2(%rax), %ecx
	cmpl	$5, %ecx
	jb	.LBB48_188
	movq	-48(%r15), %rdi
	movq	-32(%r15), %rcx
	cmpl	$1, %eax
	testq	%rcx, %rcx
	je	.LBB48_188
	callq	rattle_dealloc@PLT
.LBB48_188:
	testb	%bpl, %bpl
	jne	.LBB48_184
	testq	%r13, %r13
	je	.LBB48_184
	movq	%r14, %rdi
	callq	rattle_dealloc@PLT
	jmp	.LBB48_184
.LBB48_191:
	cmpq	$0, 544(%rsp)
	je	.LBB48_193
	movq	304(%rsp), %rdi
	callq	rattle_dealloc@PLT
.LBB48_193:
	cmpb	$1, 55(%rsp)
	setne	%al
	movq	528(%rsp), %r15
	testq	%r15, %r15
	sete	%cl
	orb	%al, %cl
	movq	480(%rsp), %rdi
	jne	.LBB48_195
.LBB48_194:
	movq	(%rdi), %r14
	callq	rattle_dealloc@PLT
	movq	%r14, %rdi
	decq	%r15
	jne	.LBB48_194
.LBB48_195:
	cmpq	$0, 536(%rsp)
	movq	152(%rsp), %r15
	movq	464(%rsp), %r12
	je	.LBB48_198
	movq	136(%rsp), %rax
	addq	80(%rsp), %rax
	cmpq	%rax, 40(%rsp)
	jae	.LBB48_198
.LBB48_197:
	leaq	1008(%rsp), %r14
	movl	$392, %edx
	movq	%r14, %rdi
	movq	%r12, %rsi
	callq	memcpy@PLT
	movq	%r14, %rdi
	callq	ww_lock__ww_table__seat__Stepper_Destruct__drop
	addq	$392, %r12
	decq	%r15
	jne	.LBB48_197
.LBB48_198:
	movq	224(%rsp), %rdi
	callq	rattle_dealloc@PLT
	cmpq	$0, 80(%rsp)
	je	.LBB48_200
	movq	104(%rsp), %rdi
	xorl	%esi, %esi
	movq	80(%rsp), %rdx
	callq	std_alloc__vec__opened__drop_run____5f92be1e663750e6_
.LBB48_200:
	movq	104(%rsp), %rdi
	callq	rattle_dealloc@PLT
	movq	472(%rsp), %rax
	movq	%rax, 960(%rsp)
	movq	16(%rsp), %rax
	movq	%rax, 968(%rsp)
	movq	520(%rsp), %rax
	movq	%rax, 976(%rsp)
	leaq	960(%rsp), %rdi
.LBB48_201:
	callq	std_alloc__vec__Vec__drop____d990c0914ddb23de_
	movq	264(%rsp), %rax
	movq	%rax, 2528(%rsp)
	movq	488(%rsp), %rcx
	movq	%rcx, 2536(%rsp)
	movq	696(%rsp), %rdx
	movq	%rdx, 2544(%rsp)
	movq	$128, 2552(%rsp)
	movq	%rax, 2560(%rsp)
	movq	%rdx, 2568(%rsp)
	movq	%rcx, 2576(%rsp)
	movq	$128, 2584(%rsp)
	leaq	2528(%rsp), %rdi
	callq	atomic_table__owned__Table__drop____27ef4311ae2151e3_
	movq	240(%rsp), %rax
	movq	%rax, 832(%rsp)
	movq	88(%rsp), %rax
	movq	%rax, 840(%rsp)
	movq	144(%rsp), %rax
	movq	%rax, 848(%rsp)
	leaq	832(%rsp), %rdi
	callq	std_alloc__vec__Vec__drop____03f4bc90732ccbc3_
	movq	112(%rsp), %r15
	movq	72(%rsp), %r12
	jmp	.LBB48_125
.LBB48_202:
	movq	%r14, %rdi
	callq	std_alloc__boxed__Box__drop____519f02485a0b0db1_
	leaq	192(%rsp), %rdi
	callq	std_alloc__vec__Vec__drop____98a5c0865d4d3e5d_
	movb	$1, %al
	movq	%rax, 32(%rsp)
	movq	%r12, %rax
	testq	%rbp, %rbp
	je	.LBB48_297
.LBB48_203:
	subq	$1, %r15
	jb	.LBB48_589
	leaq	1(%rax), %r12
	decq	%rbp
	movq	104(%rsp), %rcx
	movq	(%rcx,%rax,8), %r14
	leaq	(%rax,%rax,2), %rax
	xorps	%xmm0, %xmm0
	movaps	%xmm0, 384(%rsp)
	movq	$0, 400(%rsp)
	movq	72(%rsp), %rdx
	movq	16(%rdx,%rax,8), %rcx
	movq	%rcx, 2144(%rsp)
	movups	(%rdx,%rax,8), %xmm1
	movaps	%xmm1, 2128(%rsp)
	movaps	%xmm0, 1728(%rsp)
	movq	$0, 1744(%rsp)
	movaps	%xmm0, 2528(%rsp)
	movq	$0, 2544(%rsp)
.LBB48_205:
	#APP
	#NO_APP
	movq	160(%rsp), %rax
	#APP
	#NO_APP
	movabsq	$9223372036854775806, %rcx
	incq	%rcx
	cmpq	%rcx, %rax
	jae	.LBB48_211
	leaq	1(%rax), %rcx
	#APP
	#NO_APP
	lock		cmpxchgq	%rcx, 160(%rsp)
	#APP
	#NO_APP
	jne	.LBB48_205
	movl	$80, %edi
	callq	malloc@PLT
	testq	%rax, %rax
	je	.LBB48_214
	movq	%rax, %r13
	movq	56(%rsp), %rax
	movq	%rax, 16(%r13)
	leaq	560(%rsp), %rax
	movq	%rax, 24(%r13)
	movq	%r14, 32(%r13)
	leaq	.Lstatic.79(%rip), %rax
	movq	%rax, 40(%r13)
	movaps	2128(%rsp), %xmm0
	movups	%xmm0, 48(%r13)
	movq	2144(%rsp), %rax
	movq	%rax, 64(%r13)
	leaq	160(%rsp), %rax
	movq	%rax, 72(%r13)
	movq	$0, 8(%r13)
	xorps	%xmm0, %xmm0
	movaps	%xmm0, 1056(%rsp)
	movaps	%xmm0, 1040(%rsp)
	movaps	%xmm0, 1024(%rsp)
	movaps	%xmm0, 1008(%rsp)
	leaq	1008(%rsp), %rdi
	callq	pthread_attr_init@PLT
	testl	%eax, %eax
	jne	.LBB48_213
	leaq	1008(%rsp), %rdi
	movl	$65536, %esi
	callq	pthread_attr_setguardsize@PLT
	testl	%eax, %eax
	je	.LBB48_212
	leaq	1008(%rsp), %rdi
	callq	pthread_attr_destroy@PLT
	jmp	.LBB48_213
.LBB48_211:
	movq	2144(%rsp), %rax
	movq	%rax, 400(%rsp)
	movaps	2128(%rsp), %xmm0
	jmp	.LBB48_218
.LBB48_212:
	leaq	core__scope__entry____639418b959b61a12__thread_called_by_C_0(%rip), %rdx
	leaq	1008(%rsp), %rsi
	movq	%r13, %rdi
	movq	%r13, %rcx
	callq	pthread_create@PLT
	movl	%eax, 88(%rsp)
	leaq	1008(%rsp), %rdi
	callq	pthread_attr_destroy@PLT
	cmpl	$0, 88(%rsp)
	je	.LBB48_222
.LBB48_213:
	movq	%r13, %rdi
	callq	free@PLT
.LBB48_214:
	cmpb	$0, .Lstatic.0(%rip)
	jne	.LBB48_589
	movq	2144(%rsp), %rax
	movq	%rax, 1744(%rsp)
	movaps	2128(%rsp), %xmm0
	movaps	%xmm0, 1728(%rsp)
	#APP
	#NO_APP
	lock		decq	160(%rsp)
	#APP
	#NO_APP
	jne	.LBB48_217
	#APP
	#NO_APP
	movl	$1, %eax
	xchgq	%rax, 168(%rsp)
	#APP
	#NO_APP
	movl	$202, %edi
	movl	$129, %edx
	movl	$1, %ecx
	leaq	168(%rsp), %rsi
	xorl	%r8d, %r8d
	xorl	%eax, %eax
	callq	syscall@PLT
.LBB48_217:
	movq	1744(%rsp), %rax
	movq	%rax, 400(%rsp)
	movaps	1728(%rsp), %xmm0
.LBB48_218:
	movaps	%xmm0, 384(%rsp)
	xorl	%eax, %eax
	movq	56(%rsp), %r13
	cmpb	$0, .Lstatic.0(%rip)
	jne	.LBB48_589
.LBB48_219:
	movq	400(%rsp), %rcx
	movq	%rcx, 208(%rsp)
	movaps	384(%rsp), %xmm0
	movaps	%xmm0, 192(%rsp)
	cmpb	$0, .Lstatic.0(%rip)
	jne	.LBB48_589
	testb	%al, %al
	je	.LBB48_202
	movq	24(%rsp), %rax
	movq	16(%rsp), %rcx
	movq	%r13, (%rcx,%rax,8)
	incq	%rax
	movq	%rax, 24(%rsp)
	movq	%r12, %rax
	testq	%rbp, %rbp
	jne	.LBB48_203
	jmp	.LBB48_297
.LBB48_222:
	cmpb	$0, .Lstatic.0(%rip)
	jne	.LBB48_589
	movq	2544(%rsp), %rax
	movq	%rax, 400(%rsp)
	movaps	2528(%rsp), %xmm0
	movaps	%xmm0, 384(%rsp)
	movb	$1, %al
	xorl	%r14d, %r14d
	cmpb	$0, .Lstatic.0(%rip)
	je	.LBB48_219
	jmp	.LBB48_589
.LBB48_224:
	movq	1072(%rsp), %rax
	movq	%rax, 1792(%rsp)
	movaps	1008(%rsp), %xmm0
	movaps	1024(%rsp), %xmm1
	movaps	1040(%rsp), %xmm2
	movaps	1056(%rsp), %xmm3
	movaps	%xmm3, 1776(%rsp)
	movaps	%xmm2, 1760(%rsp)
	movaps	%xmm1, 1744(%rsp)
	movaps	%xmm0, 1728(%rsp)
	movaps	%xmm3, 1536(%rsp)
	movq	%rax, 1552(%rsp)
	testq	%r12, %r12
	je	.LBB48_233
	movq	304(%rsp), %rax
	leaq	88(%rax), %r15
	jmp	.LBB48_227
.LBB48_226:
	addq	$96, %r15
	decq	%r12
	je	.LBB48_233
.LBB48_227:
	movzbl	-56(%r15), %eax
	movzbl	-24(%r15), %ebp
	movq	-16(%r15), %r14
	movq	(%r15), %r13
	leal	-2(%rax), %ecx
	cmpl	$5, %ecx
	jb	.LBB48_230
	movq	-48(%r15), %rdi
	movq	-32(%r15), %rcx
	cmpl	$1, %eax
	testq	%rcx, %rcx
	je	.LBB48_230
	callq	rattle_dealloc@PLT
.LBB48_230:
	testb	%bpl, %bpl
	jne	.LBB48_226
	testq	%r13, %r13
	je	.LBB48_226
	movq	%r14, %rdi
	callq	rattle_dealloc@PLT
	jmp	.LBB48_226
.LBB48_233:
	cmpq	$0, 544(%rsp)
	je	.LBB48_235
	movq	304(%rsp), %rdi
	callq	rattle_dealloc@PLT
.LBB48_235:
	cmpb	$1, 55(%rsp)
	setne	%al
	cmpq	$0, 528(%rsp)
	sete	%cl
	orb	%al, %cl
	jne	.LBB48_237
.LBB48_236:
	movq	480(%rsp), %rdi
	movq	(%rdi), %r14
	callq	rattle_dealloc@PLT
	movq	%r14, 480(%rsp)
	decq	528(%rsp)
	jne	.LBB48_236
.LBB48_237:
	#APP
	#NO_APP
	movq	312(%rsp), %rax
	lock		decq	(%rax)
	#APP
	#NO_APP
	jne	.LBB48_239
	movq	312(%rsp), %rdi
	movq	40(%rdi), %r14
	movq	56(%rdi), %r12
	callq	rattle_dealloc@PLT
	movq	%r14, %rdi
	callq	rattle_dealloc@PLT
	movq	%r12, %rdi
	callq	rattle_dealloc@PLT
.LBB48_239:
	#APP
	#NO_APP
	movq	320(%rsp), %rax
	lock		decq	(%rax)
	#APP
	#NO_APP
	jne	.LBB48_241
	movq	320(%rsp), %rdi
	callq	rattle_dealloc@PLT
.LBB48_241:
	leaq	1536(%rsp), %rdi
	callq	std_alloc__vec__Vec__drop____03f4bc90732ccbc3_
	cmpq	$0, 536(%rsp)
	je	.LBB48_244
	movq	136(%rsp), %rax
	addq	80(%rsp), %rax
	cmpq	%rax, 40(%rsp)
	jae	.LBB48_244
.LBB48_243:
	leaq	1008(%rsp), %r14
	movl	$392, %edx
	movq	%r14, %rdi
	movq	464(%rsp), %r15
	movq	%r15, %rsi
	callq	memcpy@PLT
	movq	%r14, %rdi
	callq	ww_lock__ww_table__seat__Stepper_Destruct__drop
	addq	$392, %r15
	movq	%r15, 464(%rsp)
	decq	152(%rsp)
	jne	.LBB48_243
.LBB48_244:
	movq	224(%rsp), %rdi
	callq	rattle_dealloc@PLT
	cmpq	$0, 80(%rsp)
	je	.LBB48_246
	movq	104(%rsp), %rdi
	xorl	%esi, %esi
	movq	80(%rsp), %rdx
	callq	std_alloc__vec__opened__drop_run____5f92be1e663750e6_
.LBB48_246:
	movq	104(%rsp), %rdi
	callq	rattle_dealloc@PLT
	movq	472(%rsp), %rax
	movq	%rax, 928(%rsp)
	movq	16(%rsp), %rax
	movq	%rax, 936(%rsp)
	movq	520(%rsp), %rax
	movq	%rax, 944(%rsp)
	leaq	928(%rsp), %rdi
	jmp	.LBB48_201
.LBB48_247:
	movq	$-1, %r14
.LBB48_248:
	movq	104(%rsp), %rax
	movq	8(%rax,%r14,8), %rdi
	callq	std_alloc__boxed__Box__drop____519f02485a0b0db1_
	incq	%r14
	cmpq	%r14, 80(%rsp)
	jne	.LBB48_248
	cmpq	$0, 96(%rsp)
	je	.LBB48_251
	movq	104(%rsp), %rdi
	callq	rattle_dealloc@PLT
	jmp	.LBB48_252
.LBB48_251:
	testq	%rbx, %rbx
	je	.LBB48_254
.LBB48_252:
	movq	72(%rsp), %r14
.LBB48_253:
	movq	16(%r14), %rax
	movq	%rax, 1024(%rsp)
	movups	(%r14), %xmm0
	movaps	%xmm0, 1008(%rsp)
	leaq	1008(%rsp), %rdi
	callq	std_alloc__vec__Vec__drop____98a5c0865d4d3e5d_
	addq	$24, %r14
	decq	%rbx
	jne	.LBB48_253
.LBB48_254:
	cmpq	$0, 64(%rsp)
	je	.LBB48_256
	movq	72(%rsp), %rdi
	callq	rattle_dealloc@PLT
.LBB48_256:
	xorl	%r14d, %r14d
	movq	$0, 32(%rsp)
.LBB48_257:
	movq	$0, 56(%rsp)
	movq	$0, 24(%rsp)
	movq	$0, 16(%rsp)
	cmpb	$0, .Lstatic.0(%rip)
	jne	.LBB48_589
.LBB48_258:
	cmpb	$0, .Lstatic.0(%rip)
	jne	.LBB48_589
	#APP
	#NO_APP
	lock		decq	160(%rsp)
	#APP
	#NO_APP
	jne	.LBB48_261
	#APP
	#NO_APP
	movl	$1, %eax
	xchgq	%rax, 168(%rsp)
	#APP
	#NO_APP
	movl	$202, %edi
	movl	$129, %edx
	movl	$1, %ecx
	leaq	168(%rsp), %rsi
	xorl	%r8d, %r8d
	xorl	%eax, %eax
	callq	syscall@PLT
.LBB48_261:
	movabsq	$9223372036854775806, %rax
	incq	%rax
	movq	%rax, %rbx
	movq	%rax, 1008(%rsp)
	movq	$0, 1016(%rsp)
	leaq	1008(%rsp), %r8
	movl	$202, %edi
	movl	$128, %edx
	leaq	168(%rsp), %rsi
	xorl	%ecx, %ecx
	xorl	%eax, %eax
	callq	syscall@PLT
	cmpb	$0, .Lstatic.0(%rip)
	jne	.LBB48_589
	cmpb	$0, .Lstatic.0(%rip)
	jne	.LBB48_589
	movq	%rbx, 1008(%rsp)
	movq	$0, 1016(%rsp)
	leaq	1008(%rsp), %r8
	movl	$202, %edi
	movl	$128, %edx
	leaq	168(%rsp), %rsi
	xorl	%ecx, %ecx
	xorl	%eax, %eax
	callq	syscall@PLT
	cmpb	$0, .Lstatic.0(%rip)
	je	.LBB48_265
	jmp	.LBB48_589
.LBB48_264:
	callq	sched_yield@PLT
.LBB48_265:
	cmpb	$0, .Lstatic.0(%rip)
	jne	.LBB48_589
.LBB48_266:
	#APP
	#NO_APP
	movq	168(%rsp), %rax
	#APP
	#NO_APP
	testq	%rax, %rax
	je	.LBB48_264
	#APP
	#NO_APP
	xorl	%ecx, %ecx
	lock		cmpxchgq	%rcx, 168(%rsp)
	#APP
	#NO_APP
	jne	.LBB48_266
	cmpb	$0, .Lstatic.0(%rip)
	jne	.LBB48_589
	cmpb	$0, .Lstatic.0(%rip)
	jne	.LBB48_589
	cmpb	$0, .Lstatic.0(%rip)
	jne	.LBB48_589
	cmpb	$0, .Lstatic.0(%rip)
	jne	.LBB48_589
	cmpb	$0, .Lstatic.0(%rip)
	jne	.LBB48_589
	testb	%r14b, %r14b
	je	.LBB48_288
	xorps	%xmm0, %xmm0
	movaps	%xmm0, 192(%rsp)
	movq	$0, 208(%rsp)
	movaps	%xmm0, 272(%rsp)
	movq	$0, 288(%rsp)
	movaps	%xmm0, 336(%rsp)
	movq	$0, 352(%rsp)
	movaps	%xmm0, 160(%rsp)
	movq	$0, 176(%rsp)
	movaps	%xmm0, 1008(%rsp)
	movaps	%xmm0, 1024(%rsp)
	movq	$0, 1040(%rsp)
	movaps	%xmm0, 2128(%rsp)
	movaps	%xmm0, 2144(%rsp)
	movq	$0, 2160(%rsp)
	movaps	%xmm0, 1744(%rsp)
	movaps	%xmm0, 1728(%rsp)
	movq	$0, 1760(%rsp)
	movaps	%xmm0, 2544(%rsp)
	movaps	%xmm0, 2528(%rsp)
	movq	$0, 2560(%rsp)
	cmpq	$0, 24(%rsp)
	je	.LBB48_313
	movabsq	$1152921504606846975, %rax
	incq	%rax
	cmpq	%rax, 24(%rsp)
	jae	.LBB48_312
	movq	24(%rsp), %rax
	leaq	(,%rax,8), %r14
	movl	$8, %esi
	movq	%r14, %rdi
	callq	rattle_alloc@PLT
	movq	%rdx, 32(%rsp)
	testb	$1, %al
	je	.LBB48_312
	movq	32(%rsp), %rax
	movq	%rax, 384(%rsp)
	movq	$0, 392(%rsp)
	movq	24(%rsp), %rcx
	movq	%rcx, 400(%rsp)
	movabsq	$384307168202282326, %rax
	cmpq	%rax, %rcx
	jae	.LBB48_386
	leaq	(%r14,%r14,2), %rdi
	movl	$8, %esi
	callq	rattle_alloc@PLT
	movq	%rdx, 72(%rsp)
	testb	$1, %al
	je	.LBB48_386
	movq	72(%rsp), %rax
	movq	%rax, 192(%rsp)
	movq	$0, 200(%rsp)
	movq	24(%rsp), %rax
	movq	%rax, 208(%rsp)
	movq	56(%rsp), %rax
	leaq	32(%rax), %r14
	xorl	%ebx, %ebx
	xorl	%r12d, %r12d
	xorl	%r15d, %r15d
.LBB48_280:
	movq	-32(%r14), %r13
	movzbl	-24(%r14), %ebp
	movq	-16(%r14), %rax
	movq	%rax, 88(%rsp)
	movq	-8(%r14), %rax
	movq	%rax, 80(%rsp)
	movq	(%r14), %rax
	movq	%rax, 96(%rsp)
	movq	%rbx, 64(%rsp)
	cmpq	%rbx, 400(%rsp)
	je	.LBB48_284
.LBB48_281:
	movq	64(%rsp), %rax
	movq	32(%rsp), %rcx
	movq	%r13, (%rcx,%rax,8)
	leaq	1(%rax), %rbx
	movq	%rbx, 392(%rsp)
	testb	%bpl, %bpl
	jne	.LBB48_520
	movq	200(%rsp), %r12
	cmpq	%r12, 208(%rsp)
	je	.LBB48_286
.LBB48_283:
	incq	%r15
	movq	192(%rsp), %rcx
	leaq	(%r12,%r12,2), %rax
	movq	88(%rsp), %rdx
	movq	%rdx, (%rcx,%rax,8)
	movq	80(%rsp), %rdx
	movq	%rdx, 8(%rcx,%rax,8)
	movq	%rcx, 72(%rsp)
	movq	96(%rsp), %rdx
	movq	%rdx, 16(%rcx,%rax,8)
	incq	%r12
	movq	%r12, 200(%rsp)
	addq	$40, %r14
	cmpq	%r15, 24(%rsp)
	jne	.LBB48_280
	jmp	.LBB48_539
.LBB48_284:
	leaq	384(%rsp), %rdi
	callq	std_alloc__vec__Vec__grow_amortized____e5b8391671a86b88_
	testb	%al, %al
	je	.LBB48_542
	movq	384(%rsp), %rax
	movq	%rax, 32(%rsp)
	movq	392(%rsp), %rax
	movq	%rax, 64(%rsp)
	jmp	.LBB48_281
.LBB48_286:
	leaq	192(%rsp), %rdi
	callq	std_alloc__vec__Vec__grow_amortized____43b2465df0c940d2_
	testb	%al, %al
	je	.LBB48_562
	movq	200(%rsp), %r12
	jmp	.LBB48_283
.LBB48_288:
	movq	584(%rsp), %r12
	movq	592(%rsp), %r15
	movq	608(%rsp), %rax
	movq	%rax, 64(%rsp)
	testq	%r12, %r12
	je	.LBB48_296
	movq	568(%rsp), %r13
	xorl	%ebp, %ebp
	jmp	.LBB48_291
.LBB48_290:
	incq	%rbp
	cmpq	%r12, %rbp
	je	.LBB48_296
.LBB48_291:
	leaq	(,%rbp,8), %rax
	leaq	(%rax,%rax,4), %rax
	cmpb	$0, (%r13,%rax)
	jne	.LBB48_290
	cmpb	$0, 8(%r13,%rax)
	je	.LBB48_290
	movq	32(%r13,%rax), %rbx
	testq	%rbx, %rbx
	je	.LBB48_290
	movq	16(%r13,%rax), %rdi
.LBB48_295:
	movq	(%rdi), %r14
	callq	rattle_dealloc@PLT
	movq	%r14, %rdi
	decq	%rbx
	jne	.LBB48_295
	jmp	.LBB48_290
.LBB48_296:
	movq	%r15, %rdi
	callq	rattle_dealloc@PLT
	movq	64(%rsp), %rdi
	callq	rattle_dealloc@PLT
	leaq	640(%rsp), %rcx
	movq	16(%rcx), %rax
	movq	%rax, 1520(%rsp)
	movups	(%rcx), %xmm0
	movaps	%xmm0, 1504(%rsp)
	leaq	1504(%rsp), %rdi
	callq	std_alloc__vec__Vec__drop____03f4bc90732ccbc3_
	movq	112(%rsp), %rax
	movb	$1, (%rax)
	movq	32(%rsp), %rcx
	movb	%cl, 1(%rax)
	jmp	.LBB48_519
.LBB48_297:
	cmpq	$0, 96(%rsp)
	je	.LBB48_299
	movq	104(%rsp), %rdi
	callq	rattle_dealloc@PLT
.LBB48_299:
	xorps	%xmm0, %xmm0
	movaps	%xmm0, 1008(%rsp)
	movq	$0, 1024(%rsp)
	cmpq	$0, 24(%rsp)
	je	.LBB48_318
	movabsq	$230584300921369395, %rax
	cmpq	%rax, 24(%rsp)
	ja	.LBB48_317
	movq	24(%rsp), %rax
	leaq	(,%rax,8), %rax
	leaq	(%rax,%rax,4), %rdi
	movl	$8, %esi
	callq	rattle_alloc@PLT
	testb	$1, %al
	je	.LBB48_317
	movq	%rdx, 1008(%rsp)
	movq	$0, 1016(%rsp)
	movq	24(%rsp), %rax
	movq	%rax, 1024(%rsp)
	xorl	%r14d, %r14d
	jmp	.LBB48_304
.LBB48_303:
	incq	%r14
	movq	1008(%rsp), %rdx
	leaq	(,%rbp,4), %rax
	addq	%rbp, %rax
	movq	%r13, (%rdx,%rax,8)
	movb	%r15b, 8(%rdx,%rax,8)
	movq	56(%rsp), %rcx
	movq	%rcx, 16(%rdx,%rax,8)
	movq	%r12, 24(%rdx,%rax,8)
	movq	%rdx, 56(%rsp)
	movq	88(%rsp), %rcx
	movq	%rcx, 32(%rdx,%rax,8)
	incq	%rbp
	movq	%rbp, 1016(%rsp)
	cmpq	%r14, 24(%rsp)
	je	.LBB48_319
.LBB48_304:
	movq	16(%rsp), %rax
	movq	(%rax,%r14,8), %rbp
	movq	(%rbp), %rdi
	xorl	%esi, %esi
	callq	pthread_join@PLT
	cmpb	$0, .Lstatic.0(%rip)
	jne	.LBB48_589
	testl	%eax, %eax
	jne	.LBB48_588
	#APP
	#NO_APP
	movq	8(%rbp), %rax
	#APP
	#NO_APP
	cmpq	$1, %rax
	jne	.LBB48_588
	movq	16(%rbp), %r13
	movzbl	24(%rbp), %r15d
	movq	32(%rbp), %rax
	movq	%rax, 56(%rsp)
	movq	40(%rbp), %r12
	movq	48(%rbp), %rax
	movq	%rax, 88(%rsp)
	movq	%rbp, %rdi
	callq	free@PLT
	cmpb	$0, .Lstatic.0(%rip)
	jne	.LBB48_589
	cmpb	$0, .Lstatic.0(%rip)
	jne	.LBB48_589
	movq	1016(%rsp), %rbp
	cmpq	%rbp, 1024(%rsp)
	jne	.LBB48_303
	leaq	1008(%rsp), %rdi
	callq	std_alloc__vec__Vec__grow_amortized____2423f5a3228d8d71_
	testb	%al, %al
	je	.LBB48_590
	movq	1016(%rsp), %rbp
	jmp	.LBB48_303
.LBB48_312:
	movq	56(%rsp), %rax
	movq	%rax, 272(%rsp)
	movq	24(%rsp), %rax
	movq	%rax, 280(%rsp)
	movq	16(%rsp), %rax
	movq	%rax, 288(%rsp)
	leaq	272(%rsp), %rdi
	jmp	.LBB48_387
.LBB48_313:
	movq	%rsp, %r12
	movq	%r12, 192(%rsp)
	movb	$1, 184(%rsp)
	xorl	%ebx, %ebx
.LBB48_314:
	movq	56(%rsp), %rax
	movq	%rax, 2528(%rsp)
	movq	$0, 2536(%rsp)
	movq	16(%rsp), %rax
	movq	%rax, 2544(%rsp)
	movq	24(%rsp), %rax
	movq	%rax, 2552(%rsp)
	movq	$0, 2560(%rsp)
	leaq	2528(%rsp), %rdi
	callq	std_alloc__vec__deque__VecDeque__drop____aaf6d4b903e51382_
	movq	208(%rsp), %rax
	movq	%rax, 1616(%rsp)
	movaps	192(%rsp), %xmm0
	movaps	%xmm0, 1600(%rsp)
	movaps	%xmm0, 672(%rsp)
	movq	%rax, 688(%rsp)
	movq	560(%rsp), %rax
	movq	%rax, 80(%rsp)
	movq	568(%rsp), %rax
	movq	%rax, 64(%rsp)
	movq	584(%rsp), %rax
	movq	%rax, 24(%rsp)
	movq	592(%rsp), %rax
	movq	%rax, 152(%rsp)
	movq	608(%rsp), %rax
	movq	%rax, 136(%rsp)
	movzbl	624(%rsp), %eax
	movq	%rax, 40(%rsp)
	movl	628(%rsp), %eax
	movq	%rax, 32(%rsp)
	movq	640(%rsp), %rax
	movq	%rax, 128(%rsp)
	movq	648(%rsp), %rcx
	movq	656(%rsp), %rax
	movq	%rax, 328(%rsp)
	xorps	%xmm0, %xmm0
	movaps	%xmm0, 336(%rsp)
	movq	$0, 352(%rsp)
	movaps	%xmm0, 272(%rsp)
	movq	$0, 288(%rsp)
	movq	%rcx, 104(%rsp)
	testb	%cl, %cl
	je	.LBB48_361
	cmpb	$1, 104(%rsp)
	jne	.LBB48_347
	xorl	%ecx, %ecx
	xorl	%eax, %eax
	jmp	.LBB48_356
.LBB48_317:
	xorl	%eax, %eax
	movq	16(%rsp), %rcx
	movq	%rcx, 56(%rsp)
	movq	40(%rsp), %rcx
	movq	%rcx, 16(%rsp)
	jmp	.LBB48_323
.LBB48_318:
	movq	%rsp, %rax
	movq	%rax, 56(%rsp)
	xorl	%ebp, %ebp
.LBB48_319:
	cmpb	$0, .Lstatic.0(%rip)
	jne	.LBB48_589
	cmpb	$0, .Lstatic.0(%rip)
	jne	.LBB48_589
	movq	16(%rsp), %rdi
	callq	rattle_dealloc@PLT
	cmpb	$0, .Lstatic.0(%rip)
	jne	.LBB48_589
	movb	$1, %al
	movq	1024(%rsp), %rcx
	movq	%rcx, 16(%rsp)
	movq	%rbp, 24(%rsp)
.LBB48_323:
	cmpb	$0, .Lstatic.0(%rip)
	jne	.LBB48_589
	testb	$1, 32(%rsp)
	je	.LBB48_327
	testb	%al, %al
	je	.LBB48_334
	movq	56(%rsp), %rax
	movq	%rax, 272(%rsp)
	movq	24(%rsp), %rax
	movq	%rax, 280(%rsp)
	movq	16(%rsp), %rax
	movq	%rax, 288(%rsp)
	leaq	272(%rsp), %rdi
	callq	std_alloc__vec__Vec__drop____aaf6d4b903e51382_
	jmp	.LBB48_335
.LBB48_327:
	testb	%al, %al
	je	.LBB48_341
	cmpq	%rbx, 40(%rsp)
	jae	.LBB48_331
	movq	80(%rsp), %rax
	notq	%rax
	addq	%rbx, %rax
	movq	%rax, %rbx
.LBB48_330:
	movq	232(%rsp), %r14
	movq	16(%r14), %rax
	movq	%rax, 1024(%rsp)
	movups	(%r14), %xmm0
	movaps	%xmm0, 1008(%rsp)
	leaq	1008(%rsp), %rdi
	callq	std_alloc__vec__Vec__drop____98a5c0865d4d3e5d_
	addq	$24, %r14
	movq	%r14, 232(%rsp)
	decq	%rbx
	jne	.LBB48_330
.LBB48_331:
	movb	$1, %r14b
	cmpq	$0, 64(%rsp)
	je	.LBB48_333
	movq	72(%rsp), %rdi
	callq	rattle_dealloc@PLT
.LBB48_333:
	movq	$0, 32(%rsp)
	cmpb	$0, .Lstatic.0(%rip)
	je	.LBB48_258
	jmp	.LBB48_589
.LBB48_334:
	movq	56(%rsp), %rax
	movq	%rax, 336(%rsp)
	movq	24(%rsp), %rax
	movq	%rax, 344(%rsp)
	movq	16(%rsp), %rax
	movq	%rax, 352(%rsp)
	leaq	336(%rsp), %rdi
	callq	std_alloc__vec__Vec__drop____9c2c29123848c3af_
	cmpb	$0, .Lstatic.0(%rip)
	jne	.LBB48_589
.LBB48_335:
	cmpq	%rbx, 40(%rsp)
	jae	.LBB48_338
	movq	80(%rsp), %rax
	notq	%rax
	addq	%rbx, %rax
	movq	%rax, %rbx
.LBB48_337:
	movq	232(%rsp), %r14
	movq	16(%r14), %rax
	movq	%rax, 1024(%rsp)
	movups	(%r14), %xmm0
	movaps	%xmm0, 1008(%rsp)
	leaq	1008(%rsp), %rdi
	callq	std_alloc__vec__Vec__drop____98a5c0865d4d3e5d_
	addq	$24, %r14
	movq	%r14, 232(%rsp)
	decq	%rbx
	jne	.LBB48_337
.LBB48_338:
	movb	$1, %al
	movq	%rax, 32(%rsp)
	cmpq	$0, 64(%rsp)
	je	.LBB48_340
	movq	72(%rsp), %rdi
	callq	rattle_dealloc@PLT
.LBB48_340:
	xorl	%r14d, %r14d
	jmp	.LBB48_257
.LBB48_341:
	movq	56(%rsp), %rax
	movq	%rax, 1008(%rsp)
	movq	24(%rsp), %rax
	movq	%rax, 1016(%rsp)
	movq	16(%rsp), %rax
	movq	%rax, 1024(%rsp)
	leaq	1008(%rsp), %rdi
	callq	std_alloc__vec__Vec__drop____9c2c29123848c3af_
	cmpb	$0, .Lstatic.0(%rip)
	jne	.LBB48_589
	cmpb	$0, .Lstatic.0(%rip)
	jne	.LBB48_589
	cmpb	$0, .Lstatic.0(%rip)
	jne	.LBB48_589
	cmpq	%rbx, 40(%rsp)
	jae	.LBB48_254
	movq	80(%rsp), %rax
	notq	%rax
	addq	%rbx, %rax
	movq	%rax, %rbx
.LBB48_346:
	movq	232(%rsp), %r14
	movq	16(%r14), %rax
	movq	%rax, 1024(%rsp)
	movups	(%r14), %xmm0
	movaps	%xmm0, 1008(%rsp)
	leaq	1008(%rsp), %rdi
	callq	std_alloc__vec__Vec__drop____98a5c0865d4d3e5d_
	addq	$24, %r14
	movq	%r14, 232(%rsp)
	decq	%rbx
	jne	.LBB48_346
	jmp	.LBB48_254
.LBB48_347:
	movq	104(%rsp), %rax
	movl	%eax, %edx
	andb	$-2, %dl
	xorl	%ecx, %ecx
	xorl	%eax, %eax
	jmp	.LBB48_349
.LBB48_348:
	cmpq	%rdi, %rbx
	sete	%sil
	addb	%sil, %al
	addb	$2, %cl
	cmpb	%dl, %cl
	je	.LBB48_355
.LBB48_349:
	xorl	%edi, %edi
.LBB48_350:
	movq	%rdi, %rsi
	cmpq	%rdi, %rbx
	je	.LBB48_352
	movq	(%r12,%rsi,8), %r8
	leaq	1(%rsi), %rdi
	cmpb	2(%r8), %cl
	jne	.LBB48_350
.LBB48_352:
	cmpq	%rsi, %rbx
	sete	%sil
	addb	%sil, %al
	movl	%ecx, %esi
	orb	$1, %sil
	xorl	%r8d, %r8d
.LBB48_353:
	movq	%r8, %rdi
	cmpq	%r8, %rbx
	je	.LBB48_348
	movq	(%r12,%rdi,8), %r9
	leaq	1(%rdi), %r8
	cmpb	2(%r9), %sil
	jne	.LBB48_353
	jmp	.LBB48_348
.LBB48_355:
	testb	$1, 104(%rsp)
	je	.LBB48_360
.LBB48_356:
	xorl	%esi, %esi
.LBB48_357:
	movq	%rsi, %rdx
	cmpq	%rsi, %rbx
	je	.LBB48_359
	movq	(%r12,%rdx,8), %rdi
	leaq	1(%rdx), %rsi
	cmpb	2(%rdi), %cl
	jne	.LBB48_357
.LBB48_359:
	cmpq	%rdx, %rbx
	sete	%cl
	addb	%cl, %al
.LBB48_360:
	testb	%al, %al
	jne	.LBB48_589
.LBB48_361:
	movb	$1, %bpl
	xorl	%r13d, %r13d
	testq	%rbx, %rbx
	je	.LBB48_385
	xorl	%eax, %eax
	jmp	.LBB48_364
.LBB48_363:
	incq	%rax
	cmpq	%rbx, %rax
	je	.LBB48_380
.LBB48_364:
	movq	(%r12,%rax,8), %rcx
	movq	344(%rcx), %rdi
	testq	%rdi, %rdi
	je	.LBB48_363
	movq	336(%rcx), %rcx
	movl	%edi, %edx
	andl	$3, %edx
	cmpq	$4, %rdi
	jae	.LBB48_367
	xorl	%esi, %esi
	jmp	.LBB48_378
.LBB48_367:
	andq	$-4, %rdi
	xorl	%esi, %esi
	movq	%rcx, %r8
	jmp	.LBB48_369
.LBB48_368:
	addq	$4, %rsi
	addq	$384, %r8
	cmpq	%rsi, %rdi
	je	.LBB48_377
.LBB48_369:
	movq	(%r8), %r9
	incq	%r9
	cmpq	%r13, %r9
	ja	.LBB48_370
	movq	%r13, %r9
	movq	96(%r8), %r10
	incq	%r10
	cmpq	%r9, %r10
	jbe	.LBB48_374
.LBB48_371:
	movq	192(%r8), %r9
	incq	%r9
	cmpq	%r10, %r9
	ja	.LBB48_372
.LBB48_375:
	movq	%r10, %r9
	movq	288(%r8), %r13
	incq	%r13
	cmpq	%r9, %r13
	ja	.LBB48_368
	jmp	.LBB48_376
.LBB48_370:
	movq	96(%r8), %r10
	incq	%r10
	cmpq	%r9, %r10
	ja	.LBB48_371
.LBB48_374:
	movq	%r9, %r10
	movq	192(%r8), %r9
	incq	%r9
	cmpq	%r10, %r9
	jbe	.LBB48_375
.LBB48_372:
	movq	288(%r8), %r13
	incq	%r13
	cmpq	%r9, %r13
	ja	.LBB48_368
.LBB48_376:
	movq	%r9, %r13
	jmp	.LBB48_368
.LBB48_377:
	testq	%rdx, %rdx
	je	.LBB48_363
.LBB48_378:
	leaq	(%rsi,%rsi,2), %rsi
	shlq	$5, %rsi
	addq	%rsi, %rcx
	shll	$5, %edx
	leaq	(%rdx,%rdx,2), %rdx
	xorl	%esi, %esi
.LBB48_379:
	movq	%r13, %rdi
	movq	(%rcx,%rsi), %r13
	incq	%r13
	cmpq	%rdi, %r13
	cmovbeq	%rdi, %r13
	addq	$96, %rsi
	cmpq	%rsi, %rdx
	jne	.LBB48_379
	jmp	.LBB48_363
.LBB48_380:
	testq	%r13, %r13
	je	.LBB48_397
	movabsq	$96076792050570581, %rax
	cmpq	%rax, %r13
	ja	.LBB48_491
	movq	%r13, %rax
	shlq	$5, %rax
	leaq	(%rax,%rax,2), %r14
	movl	$16, %esi
	movq	%r14, %rdi
	callq	rattle_alloc@PLT
	movq	%rdx, 16(%rsp)
	testb	$1, %al
	je	.LBB48_491
	movq	16(%rsp), %rdi
	xorl	%esi, %esi
	movq	%r14, %rdx
	callq	memset@PLT
	movq	%r13, %rax
	shlq	$4, %rax
	leaq	(%rax,%rax,4), %rdi
	movl	$16, %esi
	callq	rattle_alloc@PLT
	movq	%rdx, 96(%rsp)
	testb	$1, %al
	je	.LBB48_480
	xorl	%ebp, %ebp
	jmp	.LBB48_399
.LBB48_385:
	movq	%rsp, %rax
	jmp	.LBB48_398
.LBB48_386:
	movq	32(%rsp), %rdi
	callq	rattle_dealloc@PLT
	movq	56(%rsp), %rax
	movq	%rax, 336(%rsp)
	movq	24(%rsp), %rax
	movq	%rax, 344(%rsp)
	movq	16(%rsp), %rax
	movq	%rax, 352(%rsp)
	leaq	336(%rsp), %rdi
.LBB48_387:
	callq	std_alloc__vec__Vec__drop____aaf6d4b903e51382_
.LBB48_388:
	movq	584(%rsp), %rbx
	movq	592(%rsp), %r15
	movq	608(%rsp), %rax
	movq	%rax, 64(%rsp)
	testq	%rbx, %rbx
	je	.LBB48_396
	movq	568(%rsp), %r12
	xorl	%r13d, %r13d
	jmp	.LBB48_391
.LBB48_390:
	incq	%r13
	cmpq	%rbx, %r13
	je	.LBB48_396
.LBB48_391:
	leaq	(,%r13,8), %rax
	leaq	(%rax,%rax,4), %rax
	cmpb	$0, (%r12,%rax)
	jne	.LBB48_390
	cmpb	$0, 8(%r12,%rax)
	je	.LBB48_390
	movq	32(%r12,%rax), %rbp
	testq	%rbp, %rbp
	je	.LBB48_390
	movq	16(%r12,%rax), %rdi
.LBB48_395:
	movq	(%rdi), %r14
	callq	rattle_dealloc@PLT
	movq	%r14, %rdi
	decq	%rbp
	jne	.LBB48_395
	jmp	.LBB48_390
.LBB48_396:
	movq	%r15, %rdi
	callq	rattle_dealloc@PLT
	movq	64(%rsp), %rdi
	callq	rattle_dealloc@PLT
	leaq	640(%rsp), %rcx
	movq	16(%rcx), %rax
	movq	%rax, 1488(%rsp)
	movups	(%rcx), %xmm0
	movaps	%xmm0, 1472(%rsp)
	leaq	1472(%rsp), %rdi
	callq	std_alloc__vec__Vec__drop____03f4bc90732ccbc3_
	jmp	.LBB48_518
.LBB48_397:
	movq	%rsp, %rax
	xorl	%r13d, %r13d
.LBB48_398:
	movq	%rax, 16(%rsp)
	movq	%rax, 96(%rsp)
.LBB48_399:
	cmpq	$0, 40(%rsp)
	je	.LBB48_401
	movq	40(%rsp), %rax
	leal	(,%rax,8), %eax
	leaq	(%rax,%rax,2), %rdi
	movl	$8, %esi
	callq	rattle_alloc@PLT
	movq	%rdx, 456(%rsp)
	testb	$1, %al
	je	.LBB48_422
.LBB48_401:
	testq	%rbx, %rbx
	je	.LBB48_432
	movabsq	$23529010298098917, %rax
	cmpq	%rax, %rbx
	ja	.LBB48_412
	imulq	$392, %rbx, %rdi
	movl	$8, %esi
	callq	rattle_alloc@PLT
	movq	%rdx, 144(%rsp)
	testb	$1, %al
	je	.LBB48_412
	leaq	2528(%rsp), %rdi
	xorl	%r14d, %r14d
	movl	$392, %edx
	xorl	%esi, %esi
	callq	memset@PLT
	movq	144(%rsp), %rax
	movq	%rax, 56(%rsp)
	jmp	.LBB48_406
.LBB48_405:
	incq	%r14
	leaq	192(%rsp), %rdi
	callq	std_alloc__vec__Vec__drop____03f4bc90732ccbc3_
	leaq	1728(%rsp), %r15
	leaq	2128(%rsp), %rsi
	movl	$392, %edx
	movq	%r15, %rdi
	callq	memcpy@PLT
	leaq	2528(%rsp), %rbp
	movl	$392, %edx
	movq	%rbp, %rdi
	movq	%r15, %rsi
	callq	memcpy@PLT
	movl	$392, %edx
	movq	56(%rsp), %r15
	movq	%r15, %rdi
	movq	%rbp, %rsi
	callq	memcpy@PLT
	addq	$392, %r15
	movq	%r15, 56(%rsp)
	cmpq	%r14, %rbx
	je	.LBB48_433
.LBB48_406:
	movq	(%r12,%r14,8), %rbp
	leaq	1728(%rsp), %rdi
	movl	$392, %edx
	xorl	%esi, %esi
	callq	memset@PLT
	leaq	1008(%rsp), %rdi
	movl	$464, %edx
	movq	%rbp, %rsi
	callq	memcpy@PLT
	movq	464(%rbp), %rax
	movq	%rax, 72(%rsp)
	movq	488(%rbp), %r15
	movq	496(%rbp), %rax
	movq	%rax, 24(%rsp)
	movq	568(%rbp), %rax
	movq	480(%rbp), %rcx
	movq	%rcx, 88(%rsp)
	movq	%rax, 448(%rsp)
	movups	552(%rbp), %xmm0
	movaps	%xmm0, 432(%rsp)
	movups	536(%rbp), %xmm0
	movaps	%xmm0, 416(%rsp)
	movups	520(%rbp), %xmm0
	movaps	%xmm0, 400(%rsp)
	movups	504(%rbp), %xmm0
	movaps	%xmm0, 384(%rsp)
	movq	%rbp, %rdi
	callq	rattle_dealloc@PLT
	leaq	432(%rsp), %rcx
	movq	16(%rcx), %rax
	movq	%rax, 208(%rsp)
	movups	(%rcx), %xmm0
	movaps	%xmm0, 192(%rsp)
	leaq	2128(%rsp), %rdi
	movl	$392, %edx
	leaq	1008(%rsp), %rsi
	callq	memcpy@PLT
	cmpq	$0, 88(%rsp)
	je	.LBB48_408
	movq	72(%rsp), %rdi
	callq	rattle_dealloc@PLT
.LBB48_408:
	#APP
	#NO_APP
	lock		decq	(%r15)
	#APP
	#NO_APP
	jne	.LBB48_410
	movq	40(%r15), %rbp
	movq	56(%r15), %rax
	movq	%rax, 88(%rsp)
	movq	%r15, %rdi
	callq	rattle_dealloc@PLT
	movq	%rbp, %rdi
	callq	rattle_dealloc@PLT
	movq	88(%rsp), %rdi
	callq	rattle_dealloc@PLT
.LBB48_410:
	#APP
	#NO_APP
	movq	24(%rsp), %rax
	lock		decq	(%rax)
	#APP
	#NO_APP
	jne	.LBB48_405
	movq	24(%rsp), %rdi
	callq	rattle_dealloc@PLT
	jmp	.LBB48_405
.LBB48_412:
	testq	%r13, %r13
	je	.LBB48_460
	movq	16(%rsp), %rax
	leaq	88(%rax), %rbp
	jmp	.LBB48_415
.LBB48_414:
	addq	$96, %rbp
	decq	%r13
	je	.LBB48_459
.LBB48_415:
	cmpb	$0, -88(%rbp)
	je	.LBB48_414
	movzbl	-24(%rbp), %r14d
	movq	-16(%rbp), %rax
	movq	%rax, 32(%rsp)
	movq	(%rbp), %r15
	movzbl	-56(%rbp), %eax
	leal	-2(%rax), %ecx
	cmpl	$5, %ecx
	jae	.LBB48_420
.LBB48_417:
	testb	%r14b, %r14b
	jne	.LBB48_414
	testq	%r15, %r15
	je	.LBB48_414
	movq	32(%rsp), %rdi
	callq	rattle_dealloc@PLT
	jmp	.LBB48_414
.LBB48_420:
	movq	-48(%rbp), %rdi
	movq	-32(%rbp), %rcx
	cmpl	$1, %eax
	testq	%rcx, %rcx
	je	.LBB48_417
	callq	rattle_dealloc@PLT
	jmp	.LBB48_417
.LBB48_422:
	testb	%bpl, %bpl
	jne	.LBB48_491
	movq	96(%rsp), %rdi
	callq	rattle_dealloc@PLT
	movq	16(%rsp), %rax
	leaq	88(%rax), %rbp
	jmp	.LBB48_425
.LBB48_424:
	addq	$96, %rbp
	decq	%r13
	je	.LBB48_489
.LBB48_425:
	cmpb	$0, -88(%rbp)
	je	.LBB48_424
	movzbl	-24(%rbp), %r14d
	movq	-16(%rbp), %rax
	movq	%rax, 32(%rsp)
	movq	(%rbp), %r15
	movzbl	-56(%rbp), %eax
	leal	-2(%rax), %ecx
	cmpl	$5, %ecx
	jb	.LBB48_429
	movq	-48(%rbp), %rdi
	movq	-32(%rbp), %rcx
	cmpl	$1, %eax
	testq	%rcx, %rcx
	je	.LBB48_429
	callq	rattle_dealloc@PLT
.LBB48_429:
	testb	%r14b, %r14b
	jne	.LBB48_424
	testq	%r15, %r15
	je	.LBB48_424
	movq	32(%rsp), %rdi
	callq	rattle_dealloc@PLT
	jmp	.LBB48_424
.LBB48_432:
	movq	%rsp, %rax
	movq	%rax, 144(%rsp)
.LBB48_433:
	cmpb	$0, 184(%rsp)
	jne	.LBB48_435
	movq	%r12, %rdi
	callq	rattle_dealloc@PLT
.LBB48_435:
	xorps	%xmm0, %xmm0
	movaps	%xmm0, 1728(%rsp)
	movaps	%xmm0, 1744(%rsp)
	movq	$0, 1760(%rsp)
	movaps	%xmm0, 2528(%rsp)
	movq	$0, 2544(%rsp)
	testq	%rbx, %rbx
	je	.LBB48_589
	decq	%rbx
	imulq	$392, %rbx, %rsi
	addq	144(%rsp), %rsi
	leaq	2128(%rsp), %r14
	movl	$392, %edx
	movq	%r14, %rdi
	callq	memcpy@PLT
	movq	%r14, %rdi
	movq	16(%rsp), %rsi
	callq	ww_table__close__come
	testq	%rbx, %rbx
	je	.LBB48_439
	movq	144(%rsp), %r14
.LBB48_438:
	leaq	1008(%rsp), %r15
	movl	$392, %edx
	movq	%r15, %rdi
	movq	%r14, %rsi
	callq	memcpy@PLT
	movq	%r15, %rdi
	movq	16(%rsp), %rsi
	callq	ww_table__close__come
	addq	$392, %r14
	#APP
	#NO_APP
	movq	80(%rsp), %rax
	movq	(%rax), %rax
	#APP
	#NO_APP
	decq	%rbx
	jne	.LBB48_438
.LBB48_439:
	movq	144(%rsp), %rdi
	callq	rattle_dealloc@PLT
	addq	$64, 32(%rsp)
	cmpb	$0, 40(%rsp)
	je	.LBB48_444
	movq	40(%rsp), %rax
	leal	(,%rax,8), %eax
	leaq	(%rax,%rax,4), %rax
	movq	64(%rsp), %rcx
	addq	$8, %rcx
	xorl	%edx, %edx
	movq	456(%rsp), %rsi
.LBB48_441:
	cmpb	$1, -8(%rcx,%rdx)
	jne	.LBB48_589
	movups	(%rcx,%rdx), %xmm0
	movq	16(%rcx,%rdx), %rdi
	movq	%rdi, 16(%rsi)
	movups	%xmm0, (%rsi)
	addq	$40, %rdx
	addq	$24, %rsi
	cmpq	%rdx, %rax
	jne	.LBB48_441
	movq	32(%rsp), %rax
	cmpq	40(%rsp), %rax
	jbe	.LBB48_451
.LBB48_444:
	movq	40(%rsp), %rbx
	jmp	.LBB48_446
.LBB48_445:
	incq	%rbx
	cmpq	32(%rsp), %rbx
	je	.LBB48_451
.LBB48_446:
	leaq	(,%rbx,8), %rax
	leaq	(%rax,%rax,4), %rax
	movq	64(%rsp), %rcx
	cmpb	$0, (%rcx,%rax)
	jne	.LBB48_445
	movq	64(%rsp), %rcx
	cmpb	$0, 8(%rcx,%rax)
	je	.LBB48_445
	movq	64(%rsp), %rcx
	movq	32(%rcx,%rax), %r14
	testq	%r14, %r14
	je	.LBB48_445
	movq	64(%rsp), %rcx
	movq	16(%rcx,%rax), %rdi
.LBB48_450:
	movq	(%rdi), %r15
	callq	rattle_dealloc@PLT
	movq	%r15, %rdi
	decq	%r14
	jne	.LBB48_450
	jmp	.LBB48_445
.LBB48_451:
	movq	152(%rsp), %rdi
	callq	rattle_dealloc@PLT
	movq	136(%rsp), %rdi
	callq	rattle_dealloc@PLT
	testq	%r13, %r13
	je	.LBB48_462
	cmpq	$1, %r13
	jne	.LBB48_463
	xorl	%eax, %eax
	xorl	%r14d, %r14d
	jmp	.LBB48_470
.LBB48_454:
	xorps	%xmm0, %xmm0
	movups	%xmm0, 1023(%rsp)
	movaps	%xmm0, 1008(%rsp)
	#APP
	#NO_APP
	lock		decq	(%r15)
	#APP
	#NO_APP
	jne	.LBB48_456
	movq	40(%r15), %r13
	movq	56(%r15), %rbp
	movq	%r15, %rdi
	callq	rattle_dealloc@PLT
	movq	%r13, %rdi
	callq	rattle_dealloc@PLT
	movq	%rbp, %rdi
	callq	rattle_dealloc@PLT
.LBB48_456:
	#APP
	#NO_APP
	lock		decq	(%r14)
	#APP
	#NO_APP
	jne	.LBB48_458
	movq	%r14, %rdi
	callq	rattle_dealloc@PLT
.LBB48_458:
	movq	1031(%rsp), %rax
	movq	%rax, 215(%rsp)
	movups	1015(%rsp), %xmm0
	movups	%xmm0, 199(%rsp)
	leaq	160(%rsp), %rdi
	callq	std_alloc__vec__Vec__drop____03f4bc90732ccbc3_
	movq	215(%rsp), %rax
	leaq	279(%rsp), %rcx
	movq	%rax, 16(%rcx)
	movups	199(%rsp), %xmm0
	movups	%xmm0, (%rcx)
	jmp	.LBB48_178
.LBB48_459:
	movq	16(%rsp), %rdi
	callq	rattle_dealloc@PLT
	movq	96(%rsp), %rdi
	callq	rattle_dealloc@PLT
.LBB48_460:
	cmpb	$0, 40(%rsp)
	je	.LBB48_491
	movq	456(%rsp), %rdi
	jmp	.LBB48_490
.LBB48_462:
	xorl	%r14d, %r14d
	jmp	.LBB48_473
.LBB48_463:
	movabsq	$144115188075855870, %rcx
	andq	%r13, %rcx
	movq	16(%rsp), %rax
	leaq	112(%rax), %rdx
	xorl	%eax, %eax
	xorl	%r14d, %r14d
	jmp	.LBB48_465
.LBB48_464:
	addq	$2, %rax
	addq	$192, %rdx
	cmpq	%rax, %rcx
	je	.LBB48_469
.LBB48_465:
	cmpb	$1, -112(%rdx)
	jne	.LBB48_466
	leaq	(%r14,%r14,4), %rsi
	shlq	$4, %rsi
	movups	-96(%rdx), %xmm0
	movups	-80(%rdx), %xmm1
	movups	-64(%rdx), %xmm2
	movups	-48(%rdx), %xmm3
	movups	-32(%rdx), %xmm4
	movq	96(%rsp), %rdi
	movups	%xmm4, 64(%rdi,%rsi)
	movups	%xmm3, 48(%rdi,%rsi)
	movups	%xmm2, 32(%rdi,%rsi)
	movups	%xmm1, 16(%rdi,%rsi)
	movups	%xmm0, (%rdi,%rsi)
	incq	%r14
	cmpb	$1, -16(%rdx)
	jne	.LBB48_464
	jmp	.LBB48_468
.LBB48_466:
	cmpb	$1, -16(%rdx)
	jne	.LBB48_464
.LBB48_468:
	leaq	(%r14,%r14,4), %rsi
	shlq	$4, %rsi
	movups	(%rdx), %xmm0
	movups	16(%rdx), %xmm1
	movups	32(%rdx), %xmm2
	movups	48(%rdx), %xmm3
	movups	64(%rdx), %xmm4
	movq	96(%rsp), %rdi
	movups	%xmm4, 64(%rdi,%rsi)
	movups	%xmm3, 48(%rdi,%rsi)
	movups	%xmm2, 32(%rdi,%rsi)
	movups	%xmm1, 16(%rdi,%rsi)
	movups	%xmm0, (%rdi,%rsi)
	incq	%r14
	jmp	.LBB48_464
.LBB48_469:
	testb	$1, %r13b
	je	.LBB48_472
.LBB48_470:
	leaq	(%rax,%rax,2), %rax
	shlq	$5, %rax
	movq	16(%rsp), %rcx
	cmpb	$1, (%rcx,%rax)
	jne	.LBB48_472
	addq	16(%rsp), %rax
	leaq	(%r14,%r14,4), %rcx
	shlq	$4, %rcx
	movups	16(%rax), %xmm0
	movups	32(%rax), %xmm1
	movups	48(%rax), %xmm2
	movups	64(%rax), %xmm3
	movups	80(%rax), %xmm4
	movq	96(%rsp), %rax
	movups	%xmm4, 64(%rax,%rcx)
	movups	%xmm3, 48(%rax,%rcx)
	movups	%xmm2, 32(%rax,%rcx)
	movups	%xmm1, 16(%rax,%rcx)
	movups	%xmm0, (%rax,%rcx)
	incq	%r14
.LBB48_472:
	movq	16(%rsp), %rdi
	callq	rattle_dealloc@PLT
.LBB48_473:
	movq	456(%rsp), %rax
	movq	%rax, 2528(%rsp)
	movq	40(%rsp), %rax
	movq	%rax, 2536(%rsp)
	movq	%rax, 2544(%rsp)
	leaq	1728(%rsp), %rdi
	leaq	2528(%rsp), %rsi
	callq	ww_plain__graph__Graph__new
	cmpb	$0, 1728(%rsp)
	jne	.LBB48_594
	movq	1736(%rsp), %r15
	movq	1744(%rsp), %r12
	movq	1752(%rsp), %rbx
	movq	128(%rsp), %rax
	movq	%rax, 272(%rsp)
	movq	104(%rsp), %rax
	movq	%rax, 280(%rsp)
	movq	328(%rsp), %rax
	movq	%rax, 288(%rsp)
	leaq	272(%rsp), %rdi
	callq	std_alloc__vec__Vec__drop____03f4bc90732ccbc3_
	testb	$1, 126(%rsp)
	je	.LBB48_479
	leaq	1568(%rsp), %rdi
	movq	96(%rsp), %rsi
	movq	%r14, %rdx
	callq	ww_run__workers__places
	cmpb	$0, 1568(%rsp)
	je	.LBB48_540
	movq	96(%rsp), %rax
	movq	%rax, 768(%rsp)
	movq	%r14, 776(%rsp)
	movq	%r13, 784(%rsp)
	leaq	768(%rsp), %rdi
	callq	std_alloc__vec__Vec__drop____b004eca8d6036835_
	testq	%rbx, %rbx
	je	.LBB48_478
	movq	%r15, %rdi
	callq	rattle_dealloc@PLT
.LBB48_478:
	leaq	672(%rsp), %rdi
	callq	std_alloc__vec__Vec__drop____a0e4aaa8ef000d5b_
	jmp	.LBB48_518
.LBB48_479:
	xorl	%ebp, %ebp
	jmp	.LBB48_541
.LBB48_480:
	movq	16(%rsp), %rax
	leaq	88(%rax), %rbp
	jmp	.LBB48_482
.LBB48_481:
	addq	$96, %rbp
	decq	%r13
	je	.LBB48_489
.LBB48_482:
	cmpb	$0, -88(%rbp)
	je	.LBB48_481
	movzbl	-24(%rbp), %r15d
	movq	-16(%rbp), %rax
	movq	%rax, 32(%rsp)
	movq	(%rbp), %r14
	movzbl	-56(%rbp), %eax
	leal	-2(%rax), %ecx
	cmpl	$5, %ecx
	jb	.LBB48_486
	movq	-48(%rbp), %rdi
	movq	-32(%rbp), %rcx
	cmpl	$1, %eax
	testq	%rcx, %rcx
	je	.LBB48_486
	callq	rattle_dealloc@PLT
.LBB48_486:
	testb	%r15b, %r15b
	jne	.LBB48_481
	testq	%r14, %r14
	je	.LBB48_481
	movq	32(%rsp), %rdi
	callq	rattle_dealloc@PLT
	jmp	.LBB48_481
.LBB48_489:
	movq	16(%rsp), %rdi
.LBB48_490:
	callq	rattle_dealloc@PLT
.LBB48_491:
	cmpq	$0, 24(%rsp)
	je	.LBB48_499
	xorl	%r14d, %r14d
	jmp	.LBB48_494
.LBB48_493:
	incq	%r14
	cmpq	24(%rsp), %r14
	je	.LBB48_499
.LBB48_494:
	leaq	(,%r14,8), %rax
	leaq	(%rax,%rax,4), %rax
	movq	64(%rsp), %rcx
	cmpb	$0, (%rcx,%rax)
	jne	.LBB48_493
	movq	64(%rsp), %rcx
	cmpb	$0, 8(%rcx,%rax)
	je	.LBB48_493
	movq	64(%rsp), %rcx
	movq	32(%rcx,%rax), %r15
	testq	%r15, %r15
	je	.LBB48_493
	movq	64(%rsp), %rcx
	movq	16(%rcx,%rax), %rdi
.LBB48_498:
	movq	(%rdi), %r13
	callq	rattle_dealloc@PLT
	movq	%r13, %rdi
	decq	%r15
	jne	.LBB48_498
	jmp	.LBB48_493
.LBB48_499:
	movq	152(%rsp), %rdi
	callq	rattle_dealloc@PLT
	movq	136(%rsp), %rdi
	callq	rattle_dealloc@PLT
	movq	128(%rsp), %rax
	movq	%rax, 336(%rsp)
	movq	104(%rsp), %rax
	movq	%rax, 344(%rsp)
	movq	328(%rsp), %rax
	movq	%rax, 352(%rsp)
	leaq	336(%rsp), %rdi
	callq	std_alloc__vec__Vec__drop____03f4bc90732ccbc3_
	testq	%rbx, %rbx
	je	.LBB48_502
	xorl	%r14d, %r14d
.LBB48_501:
	movq	(%r12,%r14,8), %rdi
	callq	std_alloc__boxed__Box__drop____519f02485a0b0db1_
	incq	%r14
	cmpq	%r14, %rbx
	jne	.LBB48_501
.LBB48_502:
	cmpb	$0, 184(%rsp)
	jne	.LBB48_504
	movq	%r12, %rdi
	callq	rattle_dealloc@PLT
.LBB48_504:
	movq	672(%rsp), %r14
	movq	680(%rsp), %rcx
	movq	688(%rsp), %rax
	movq	%rax, 24(%rsp)
	movq	%rcx, 64(%rsp)
	testq	%rcx, %rcx
	je	.LBB48_516
	xorl	%r13d, %r13d
	jmp	.LBB48_507
.LBB48_506:
	incq	%r13
	cmpq	64(%rsp), %r13
	je	.LBB48_516
.LBB48_507:
	leaq	(,%r13,2), %rax
	addq	%r13, %rax
	movq	(%r14,%rax,8), %r15
	movq	8(%r14,%rax,8), %rbx
	movq	16(%r14,%rax,8), %rbp
	testq	%rbx, %rbx
	je	.LBB48_514
	leaq	40(%r15), %r12
	jmp	.LBB48_510
.LBB48_509:
	addq	$48, %r12
	decq	%rbx
	je	.LBB48_514
.LBB48_510:
	cmpb	$0, -40(%r12)
	jne	.LBB48_509
	cmpb	$0, -24(%r12)
	jne	.LBB48_509
	cmpq	$0, (%r12)
	je	.LBB48_509
	movq	-16(%r12), %rdi
	callq	rattle_dealloc@PLT
	jmp	.LBB48_509
.LBB48_514:
	testq	%rbp, %rbp
	je	.LBB48_506
	movq	%r15, %rdi
	callq	rattle_dealloc@PLT
	jmp	.LBB48_506
.LBB48_516:
	cmpq	$0, 24(%rsp)
	je	.LBB48_518
	movq	%r14, %rdi
	callq	rattle_dealloc@PLT
.LBB48_518:
	movq	112(%rsp), %rax
	movw	$1, (%rax)
.LBB48_519:
	xorps	%xmm0, %xmm0
	movups	%xmm0, 8(%rax)
	movups	%xmm0, 24(%rax)
	movups	%xmm0, 40(%rax)
	movups	%xmm0, 56(%rax)
	movups	%xmm0, 72(%rax)
	movq	$0, 88(%rax)
	jmp	.LBB48_71
.LBB48_520:
	movq	56(%rsp), %rax
	movq	%rax, 2128(%rsp)
	movq	%r15, %rax
	notq	%rax
	addq	24(%rsp), %rax
	movq	%rax, 2136(%rsp)
	movq	16(%rsp), %rax
	movq	%rax, 2144(%rsp)
	incq	%r15
	movq	%r15, 2152(%rsp)
	movq	$0, 2160(%rsp)
	leaq	2128(%rsp), %rdi
	callq	std_alloc__vec__deque__VecDeque__drop____aaf6d4b903e51382_
	movq	192(%rsp), %rax
	movq	%rax, 24(%rsp)
	movq	200(%rsp), %rcx
	movq	208(%rsp), %rax
	movq	%rax, 32(%rsp)
	movq	%rcx, 16(%rsp)
	testq	%rcx, %rcx
	je	.LBB48_532
	xorl	%ebp, %ebp
	jmp	.LBB48_523
.LBB48_522:
	incq	%rbp
	cmpq	16(%rsp), %rbp
	je	.LBB48_532
.LBB48_523:
	leaq	(,%rbp,2), %rax
	addq	%rbp, %rax
	movq	24(%rsp), %rcx
	movq	(%rcx,%rax,8), %r15
	movq	8(%rcx,%rax,8), %r13
	movq	16(%rcx,%rax,8), %r12
	testq	%r13, %r13
	je	.LBB48_530
	leaq	40(%r15), %r14
	jmp	.LBB48_526
.LBB48_525:
	addq	$48, %r14
	decq	%r13
	je	.LBB48_530
.LBB48_526:
	cmpb	$0, -40(%r14)
	jne	.LBB48_525
	cmpb	$0, -24(%r14)
	jne	.LBB48_525
	cmpq	$0, (%r14)
	je	.LBB48_525
	movq	-16(%r14), %rdi
	callq	rattle_dealloc@PLT
	jmp	.LBB48_525
.LBB48_530:
	testq	%r12, %r12
	je	.LBB48_522
	movq	%r15, %rdi
	callq	rattle_dealloc@PLT
	jmp	.LBB48_522
.LBB48_532:
	cmpq	$0, 32(%rsp)
	je	.LBB48_534
	movq	24(%rsp), %rdi
	callq	rattle_dealloc@PLT
.LBB48_534:
	movq	384(%rsp), %r14
	movq	400(%rsp), %r15
	testq	%rbx, %rbx
	je	.LBB48_537
	incq	64(%rsp)
	xorl	%ebx, %ebx
.LBB48_536:
	movq	(%r14,%rbx,8), %rdi
	callq	std_alloc__boxed__Box__drop____519f02485a0b0db1_
	incq	%rbx
	cmpq	%rbx, 64(%rsp)
	jne	.LBB48_536
.LBB48_537:
	testq	%r15, %r15
	je	.LBB48_388
.LBB48_538:
	movq	%r14, %rdi
	callq	rattle_dealloc@PLT
	jmp	.LBB48_388
.LBB48_539:
	movq	384(%rsp), %r12
	cmpq	$0, 400(%rsp)
	sete	184(%rsp)
	jmp	.LBB48_314
.LBB48_540:
	movq	1592(%rsp), %rax
	movq	%rax, 816(%rsp)
	movups	1576(%rsp), %xmm0
	movaps	%xmm0, 800(%rsp)
	movl	$1, %ebp
.LBB48_541:
	movq	96(%rsp), %rax
	movq	%rax, 736(%rsp)
	movq	%r14, 744(%rsp)
	movq	%r13, 752(%rsp)
	leaq	736(%rsp), %rdi
	callq	std_alloc__vec__Vec__drop____b004eca8d6036835_
	movq	112(%rsp), %rdx
	movw	$0, (%rdx)
	movaps	672(%rsp), %xmm0
	movups	%xmm0, 8(%rdx)
	movq	688(%rsp), %rax
	movq	%rax, 24(%rdx)
	movq	%rbp, 32(%rdx)
	movaps	800(%rsp), %xmm0
	movups	%xmm0, 40(%rdx)
	movq	816(%rsp), %rax
	movq	%rax, 56(%rdx)
	movzbl	127(%rsp), %eax
	movb	%al, 64(%rdx)
	movl	496(%rsp), %eax
	movl	499(%rsp), %ecx
	movl	%eax, 65(%rdx)
	movl	%ecx, 68(%rdx)
	movq	%r15, 72(%rdx)
	movq	%r12, 80(%rdx)
	movq	%rbx, 88(%rdx)
	jmp	.LBB48_71
.LBB48_542:
	movq	%r13, %rdi
	callq	std_alloc__boxed__Box__drop____519f02485a0b0db1_
	leaq	1(%r15), %rbx
	notq	%r15
	addq	24(%rsp), %r15
	testb	%bpl, %bpl
	jne	.LBB48_544
	movq	88(%rsp), %rax
	movq	%rax, 160(%rsp)
	movq	80(%rsp), %rax
	movq	%rax, 168(%rsp)
	movq	96(%rsp), %rax
	movq	%rax, 176(%rsp)
	leaq	160(%rsp), %rdi
	callq	std_alloc__vec__Vec__drop____9778082442c5cfa1_
.LBB48_544:
	movq	56(%rsp), %rax
	movq	%rax, 1008(%rsp)
	movq	%r15, 1016(%rsp)
	movq	16(%rsp), %rax
	movq	%rax, 1024(%rsp)
	movq	%rbx, 1032(%rsp)
	movq	$0, 1040(%rsp)
	leaq	1008(%rsp), %rdi
	callq	std_alloc__vec__deque__VecDeque__drop____aaf6d4b903e51382_
	movq	208(%rsp), %rax
	movq	%rax, 64(%rsp)
	testq	%r12, %r12
	je	.LBB48_556
	xorl	%r14d, %r14d
	jmp	.LBB48_547
.LBB48_546:
	incq	%r14
	cmpq	%r12, %r14
	je	.LBB48_556
.LBB48_547:
	leaq	(%r14,%r14,2), %rax
	movq	72(%rsp), %rcx
	movq	(%rcx,%rax,8), %r15
	movq	8(%rcx,%rax,8), %rbp
	movq	16(%rcx,%rax,8), %r13
	testq	%rbp, %rbp
	je	.LBB48_554
	leaq	40(%r15), %rbx
	jmp	.LBB48_550
.LBB48_549:
	addq	$48, %rbx
	decq	%rbp
	je	.LBB48_554
.LBB48_550:
	cmpb	$0, -40(%rbx)
	jne	.LBB48_549
	cmpb	$0, -24(%rbx)
	jne	.LBB48_549
	cmpq	$0, (%rbx)
	je	.LBB48_549
	movq	-16(%rbx), %rdi
	callq	rattle_dealloc@PLT
	jmp	.LBB48_549
.LBB48_554:
	testq	%r13, %r13
	je	.LBB48_546
	movq	%r15, %rdi
	callq	rattle_dealloc@PLT
	jmp	.LBB48_546
.LBB48_556:
	cmpq	$0, 64(%rsp)
	je	.LBB48_558
	movq	72(%rsp), %rdi
	callq	rattle_dealloc@PLT
.LBB48_558:
	movq	384(%rsp), %r14
	movq	392(%rsp), %r15
	movq	400(%rsp), %rbx
	testq	%r15, %r15
	je	.LBB48_561
	xorl	%r12d, %r12d
.LBB48_560:
	movq	(%r14,%r12,8), %rdi
	callq	std_alloc__boxed__Box__drop____519f02485a0b0db1_
	incq	%r12
	cmpq	%r12, %r15
	jne	.LBB48_560
.LBB48_561:
	testq	%rbx, %rbx
	jne	.LBB48_538
	jmp	.LBB48_388
.LBB48_562:
	movq	%r15, %r14
	notq	%r14
	cmpq	$0, 80(%rsp)
	je	.LBB48_569
	movq	88(%rsp), %rax
	leaq	40(%rax), %r12
	jmp	.LBB48_565
.LBB48_564:
	addq	$48, %r12
	decq	80(%rsp)
	je	.LBB48_569
.LBB48_565:
	cmpb	$0, -40(%r12)
	jne	.LBB48_564
	cmpb	$0, -24(%r12)
	jne	.LBB48_564
	cmpq	$0, (%r12)
	je	.LBB48_564
	movq	-16(%r12), %rdi
	callq	rattle_dealloc@PLT
	jmp	.LBB48_564
.LBB48_569:
	incq	%r15
	addq	24(%rsp), %r14
	cmpq	$0, 96(%rsp)
	je	.LBB48_571
	movq	88(%rsp), %rdi
	callq	rattle_dealloc@PLT
.LBB48_571:
	movq	56(%rsp), %rax
	movq	%rax, 1728(%rsp)
	movq	%r14, 1736(%rsp)
	movq	16(%rsp), %rax
	movq	%rax, 1744(%rsp)
	movq	%r15, 1752(%rsp)
	movq	$0, 1760(%rsp)
	leaq	1728(%rsp), %rdi
	callq	std_alloc__vec__deque__VecDeque__drop____aaf6d4b903e51382_
	movq	192(%rsp), %rax
	movq	%rax, 24(%rsp)
	movq	200(%rsp), %rcx
	movq	208(%rsp), %rax
	movq	%rax, 32(%rsp)
	movq	%rcx, 16(%rsp)
	testq	%rcx, %rcx
	je	.LBB48_583
	xorl	%ebp, %ebp
	jmp	.LBB48_574
.LBB48_573:
	incq	%rbp
	cmpq	16(%rsp), %rbp
	je	.LBB48_583
.LBB48_574:
	leaq	(,%rbp,2), %rax
	addq	%rbp, %rax
	movq	24(%rsp), %rcx
	movq	(%rcx,%rax,8), %r15
	movq	8(%rcx,%rax,8), %r13
	movq	16(%rcx,%rax,8), %r12
	testq	%r13, %r13
	je	.LBB48_581
	leaq	40(%r15), %r14
	jmp	.LBB48_577
.LBB48_576:
	addq	$48, %r14
	decq	%r13
	je	.LBB48_581
.LBB48_577:
	cmpb	$0, -40(%r14)
	jne	.LBB48_576
	cmpb	$0, -24(%r14)
	jne	.LBB48_576
	cmpq	$0, (%r14)
	je	.LBB48_576
	movq	-16(%r14), %rdi
	callq	rattle_dealloc@PLT
	jmp	.LBB48_576
.LBB48_581:
	testq	%r12, %r12
	je	.LBB48_573
	movq	%r15, %rdi
	callq	rattle_dealloc@PLT
	jmp	.LBB48_573
.LBB48_583:
	cmpq	$0, 32(%rsp)
	je	.LBB48_585
	movq	24(%rsp), %rdi
	callq	rattle_dealloc@PLT
.LBB48_585:
	movq	384(%rsp), %r14
	movq	400(%rsp), %r15
	testq	%rbx, %rbx
	je	.LBB48_537
	incq	64(%rsp)
	xorl	%ebx, %ebx
.LBB48_587:
	movq	(%r14,%rbx,8), %rdi
	callq	std_alloc__boxed__Box__drop____519f02485a0b0db1_
	incq	%rbx
	cmpq	%rbx, 64(%rsp)
	jne	.LBB48_587
	jmp	.LBB48_537
.LBB48_588:
	callq	abort@PLT
	movzbl	.Lstatic.0(%rip), %eax
.LBB48_589:
	ud2
.LBB48_590:
	movq	%r13, %rdi
	callq	std_alloc__boxed__Box__drop____519f02485a0b0db1_
	testb	%r15b, %r15b
	jne	.LBB48_589
	testq	%r12, %r12
	jne	.LBB48_595
.LBB48_592:
	cmpq	$0, 88(%rsp)
	je	.LBB48_589
	movq	56(%rsp), %rdi
	callq	rattle_dealloc@PLT
	ud2
.LBB48_594:
	leaq	1736(%rsp), %rdi
	callq	std_alloc__vec__Vec__drop____4db64ec543250c9c_
	ud2
.LBB48_595:
	movq	56(%rsp), %rax
	leaq	40(%rax), %rbx
	jmp	.LBB48_597
.LBB48_596:
	addq	$48, %rbx
	decq	%r12
	je	.LBB48_592
.LBB48_597:
	cmpb	$0, -40(%rbx)
	jne	.LBB48_596
	cmpb	$0, -24(%rbx)
	jne	.LBB48_596
	cmpq	$0, (%rbx)
	je	.LBB48_596
	movq	-16(%rbx), %rdi
	callq	rattle_dealloc@PLT
	jmp	.LBB48_596
.Lfunc_end48:
	.size	ww_run__workers__run_scripts____59e099481e3f78dd_, .Lfunc_end48-ww_run__workers__run_scripts____59e099481e3f78dd_

	.section	.text.unlikely.std_alloc__vec__Vec__grow_amortized____6c845662c72cf959_,"ax",@progbits
	.p2align	4
	.type	std_alloc__vec__Vec__grow_amortized____6c845662c72cf959_,@function
std_alloc__vec__Vec__grow_amortized____6c845662c72cf959_:
	movq	8(%rdi), %rax
	cmpq	$-1, %rax
	je	.LBB49_5
	pushq	%r14
	pushq	%rbx
	pushq	%rax
	movq	16(%rdi), %rcx
	cmpq	$4, %rax
	movl	$3, %ebx
	cmovaeq	%rax, %rbx
	incq	%rbx
	movq	%rcx, %rsi
	shrq	$62, %rsi
	leaq	(%rcx,%rcx), %rdx
	cmpq	%rdx, %rbx
	cmovaq	%rbx, %rdx
	testq	%rsi, %rsi
	cmoveq	%rdx, %rbx
	movabsq	$104811045873349725, %rsi
	cmpq	%rsi, %rbx
	ja	.LBB49_6
	testq	%rcx, %rcx
	je	.LBB49_8
	movq	%rdi, %r14
	movq	(%rdi), %rdi
	imulq	$88, %rax, %rsi
	imulq	$88, %rbx, %rdx
	movl	$8, %ecx
	callq	rattle_realloc@PLT
	testb	$1, %al
	je	.LBB49_6
.LBB49_9:
	movq	%rdx, (%r14)
	movq	%rbx, 16(%r14)
	movb	$1, %al
	addq	$8, %rsp
	popq	%rbx
	popq	%r14
	retq
.LBB49_5:
	xorl	%eax, %eax
	retq
.LBB49_8:
	movq	%rdi, %r14
	imulq	$88, %rdx, %rdi
	movl	$8, %esi
	callq	rattle_alloc@PLT
	testb	$1, %al
	jne	.LBB49_9
.LBB49_6:
	xorl	%eax, %eax
	addq	$8, %rsp
	popq	%rbx
	popq	%r14
	retq
.Lfunc_end49:
	.size	std_alloc__vec__Vec__grow_amortized____6c845662c72cf959_, .Lfunc_end49-std_alloc__vec__Vec__grow_amortized____6c845662c72cf959_

	.section	.text.std_alloc__vec__opened__drop_run____7e9ec3e13b399dfa_,"ax",@progbits
	.p2align	4
	.type	std_alloc__vec__opened__drop_run____7e9ec3e13b399dfa_,@function
std_alloc__vec__opened__drop_run____7e9ec3e13b399dfa_:
	pushq	%rbp
	pushq	%r15
	pushq	%r14
	pushq	%r13
	pushq	%r12
	pushq	%rbx
	subq	$56, %rsp
	movq	%rdi, 24(%rsp)
	movq	%rdx, 32(%rsp)
	cmpq	%rdx, %rsi
	jb	.LBB50_1
.LBB50_16:
	addq	$56, %rsp
	popq	%rbx
	popq	%r12
	popq	%r13
	popq	%r14
	popq	%r15
	popq	%rbp
	retq
	.p2align	4
.LBB50_15:
	movq	48(%rsp), %rsi
	incq	%rsi
	cmpq	32(%rsp), %rsi
	je	.LBB50_16
.LBB50_1:
	movq	%rsi, 48(%rsp)
	imulq	$392, %rsi, %rax
	movq	24(%rsp), %rcx
	movq	336(%rcx,%rax), %rdx
	movq	%rdx, 16(%rsp)
	movq	344(%rcx,%rax), %rbx
	movq	352(%rcx,%rax), %rdx
	movq	%rdx, 40(%rsp)
	movzbl	360(%rcx,%rax), %edx
	movb	%dl, 7(%rsp)
	movq	368(%rcx,%rax), %r12
	movq	384(%rcx,%rax), %rbp
	testq	%rbx, %rbx
	je	.LBB50_10
	movq	16(%rsp), %rax
	leaq	88(%rax), %r13
	jmp	.LBB50_3
	.p2align	4
.LBB50_9:
	addq	$96, %r13
	decq	%rbx
	je	.LBB50_10
.LBB50_3:
	movzbl	-56(%r13), %ecx
	movzbl	-24(%r13), %r14d
	movq	-16(%r13), %rdi
	movq	(%r13), %r15
	leal	-2(%rcx), %eax
	cmpl	$5, %eax
	jb	.LBB50_6
	movq	-48(%r13), %rax
	movq	-32(%r13), %rdx
	cmpl	$1, %ecx
	testq	%rdx, %rdx
	je	.LBB50_6
	movq	%rdi, 8(%rsp)
	movq	%rax, %rdi
	callq	rattle_dealloc@PLT
	movq	8(%rsp), %rdi
	.p2align	4
.LBB50_6:
	testb	%r14b, %r14b
	jne	.LBB50_9
	testq	%r15, %r15
	je	.LBB50_9
	callq	rattle_dealloc@PLT
	jmp	.LBB50_9
	.p2align	4
.LBB50_10:
	cmpq	$0, 40(%rsp)
	je	.LBB50_12
	movq	16(%rsp), %rdi
	callq	rattle_dealloc@PLT
.LBB50_12:
	cmpb	$0, 7(%rsp)
	je	.LBB50_15
	testq	%rbp, %rbp
	je	.LBB50_15
	.p2align	4
.LBB50_14:
	movq	(%r12), %rbx
	movq	%r12, %rdi
	callq	rattle_dealloc@PLT
	movq	%rbx, %r12
	decq	%rbp
	jne	.LBB50_14
	jmp	.LBB50_15
.Lfunc_end50:
	.size	std_alloc__vec__opened__drop_run____7e9ec3e13b399dfa_, .Lfunc_end50-std_alloc__vec__opened__drop_run____7e9ec3e13b399dfa_

	.section	.text.std_alloc__vec__Vec__drop____4db64ec543250c9c_,"ax",@progbits
	.p2align	4
	.type	std_alloc__vec__Vec__drop____4db64ec543250c9c_,@function
std_alloc__vec__Vec__drop____4db64ec543250c9c_:
	cmpq	$0, 16(%rdi)
	je	.LBB51_1
	movq	(%rdi), %rdi
	jmp	rattle_dealloc@PLT
.LBB51_1:
	retq
.Lfunc_end51:
	.size	std_alloc__vec__Vec__drop____4db64ec543250c9c_, .Lfunc_end51-std_alloc__vec__Vec__drop____4db64ec543250c9c_

	.section	.text.std_alloc__vec__Vec__drop____d990c0914ddb23de_,"ax",@progbits
	.p2align	4
	.type	std_alloc__vec__Vec__drop____d990c0914ddb23de_,@function
std_alloc__vec__Vec__drop____d990c0914ddb23de_:
	pushq	%rbp
	pushq	%r15
	pushq	%r14
	pushq	%r13
	pushq	%r12
	pushq	%rbx
	subq	$24, %rsp
	movq	(%rdi), %rax
	movq	%rax, (%rsp)
	movq	8(%rdi), %rbp
	movq	16(%rdi), %rax
	movq	%rax, 8(%rsp)
	testq	%rbp, %rbp
	je	.LBB52_9
	movq	(%rsp), %rbx
	jmp	.LBB52_2
	.p2align	4
.LBB52_8:
	addq	$88, %rbx
	decq	%rbp
	je	.LBB52_9
.LBB52_2:
	movq	(%rbx), %rdi
	movq	8(%rbx), %r15
	movq	64(%rbx), %r13
	movq	80(%rbx), %r14
	#APP
	#NO_APP
	lock		decq	(%rdi)
	#APP
	#NO_APP
	je	.LBB52_3
	#APP
	#NO_APP
	lock		decq	(%r15)
	#APP
	#NO_APP
	je	.LBB52_5
.LBB52_6:
	testq	%r14, %r14
	jne	.LBB52_7
	jmp	.LBB52_8
	.p2align	4
.LBB52_3:
	movq	40(%rdi), %r12
	movq	56(%rdi), %rax
	movq	%rax, 16(%rsp)
	callq	rattle_dealloc@PLT
	movq	%r12, %rdi
	callq	rattle_dealloc@PLT
	movq	16(%rsp), %rdi
	callq	rattle_dealloc@PLT
	#APP
	#NO_APP
	lock		decq	(%r15)
	#APP
	#NO_APP
	jne	.LBB52_6
.LBB52_5:
	movq	%r15, %rdi
	callq	rattle_dealloc@PLT
	testq	%r14, %r14
	je	.LBB52_8
.LBB52_7:
	movq	%r13, %rdi
	callq	rattle_dealloc@PLT
	jmp	.LBB52_8
.LBB52_9:
	cmpq	$0, 8(%rsp)
	je	.LBB52_10
	movq	(%rsp), %rdi
	addq	$24, %rsp
	popq	%rbx
	popq	%r12
	popq	%r13
	popq	%r14
	popq	%r15
	popq	%rbp
	jmp	rattle_dealloc@PLT
.LBB52_10:
	addq	$24, %rsp
	popq	%rbx
	popq	%r12
	popq	%r13
	popq	%r14
	popq	%r15
	popq	%rbp
	retq
.Lfunc_end52:
	.size	std_alloc__vec__Vec__drop____d990c0914ddb23de_, .Lfunc_end52-std_alloc__vec__Vec__drop____d990c0914ddb23de_

	.section	.text.std_alloc__vec__opened__drop_run____5f92be1e663750e6_,"ax",@progbits
	.p2align	4
	.type	std_alloc__vec__opened__drop_run____5f92be1e663750e6_,@function
std_alloc__vec__opened__drop_run____5f92be1e663750e6_:
	pushq	%rbp
	pushq	%r15
	pushq	%r14
	pushq	%r13
	pushq	%r12
	pushq	%rbx
	subq	$584, %rsp
	movq	%rdi, (%rsp)
	movq	%rdx, 8(%rsp)
	cmpq	%rdx, %rsi
	jae	.LBB53_9
	movq	%rsi, %r14
	jmp	.LBB53_2
	.p2align	4
.LBB53_8:
	leaq	16(%rsp), %rdi
	callq	std_alloc__vec__Vec__drop____03f4bc90732ccbc3_
	incq	%r14
	cmpq	%r14, 8(%rsp)
	je	.LBB53_9
.LBB53_2:
	movq	(%rsp), %rax
	movq	(%rax,%r14,8), %rbx
	leaq	120(%rsp), %rdi
	movl	$464, %edx
	movq	%rbx, %rsi
	callq	memcpy@PLT
	movq	464(%rbx), %rbp
	movq	488(%rbx), %r13
	movq	496(%rbx), %r12
	movq	568(%rbx), %rax
	movq	480(%rbx), %r15
	movq	%rax, 112(%rsp)
	movups	552(%rbx), %xmm0
	movaps	%xmm0, 96(%rsp)
	movups	536(%rbx), %xmm0
	movaps	%xmm0, 80(%rsp)
	movups	520(%rbx), %xmm0
	movaps	%xmm0, 64(%rsp)
	movups	504(%rbx), %xmm0
	movaps	%xmm0, 48(%rsp)
	movq	%rbx, %rdi
	callq	rattle_dealloc@PLT
	leaq	96(%rsp), %rcx
	movq	16(%rcx), %rax
	movq	%rax, 32(%rsp)
	movups	(%rcx), %xmm0
	movaps	%xmm0, 16(%rsp)
	leaq	120(%rsp), %rdi
	callq	ww_lock__ww_table__seat__Stepper_Destruct__drop
	testq	%r15, %r15
	je	.LBB53_4
	movq	%rbp, %rdi
	callq	rattle_dealloc@PLT
.LBB53_4:
	#APP
	#NO_APP
	lock		decq	(%r13)
	#APP
	#NO_APP
	jne	.LBB53_6
	movq	40(%r13), %rbx
	movq	56(%r13), %r15
	movq	%r13, %rdi
	callq	rattle_dealloc@PLT
	movq	%rbx, %rdi
	callq	rattle_dealloc@PLT
	movq	%r15, %rdi
	callq	rattle_dealloc@PLT
.LBB53_6:
	#APP
	#NO_APP
	lock		decq	(%r12)
	#APP
	#NO_APP
	jne	.LBB53_8
	movq	%r12, %rdi
	callq	rattle_dealloc@PLT
	jmp	.LBB53_8
.LBB53_9:
	addq	$584, %rsp
	popq	%rbx
	popq	%r12
	popq	%r13
	popq	%r14
	popq	%r15
	popq	%rbp
	retq
.Lfunc_end53:
	.size	std_alloc__vec__opened__drop_run____5f92be1e663750e6_, .Lfunc_end53-std_alloc__vec__opened__drop_run____5f92be1e663750e6_

	.section	.text.ww_lock__ww_table__seat__Stepper_Destruct__drop,"ax",@progbits
	.p2align	4
	.type	ww_lock__ww_table__seat__Stepper_Destruct__drop,@function
ww_lock__ww_table__seat__Stepper_Destruct__drop:
	pushq	%rbp
	pushq	%r15
	pushq	%r14
	pushq	%r13
	pushq	%r12
	pushq	%rbx
	subq	$40, %rsp
	movq	336(%rdi), %rax
	movq	%rax, 24(%rsp)
	movq	344(%rdi), %r13
	movq	352(%rdi), %rax
	movq	%rax, 32(%rsp)
	movzbl	360(%rdi), %eax
	movb	%al, 15(%rsp)
	movq	368(%rdi), %rbx
	movq	384(%rdi), %r15
	testq	%r13, %r13
	je	.LBB54_9
	movq	24(%rsp), %rax
	leaq	88(%rax), %rbp
	jmp	.LBB54_2
	.p2align	4
.LBB54_8:
	addq	$96, %rbp
	decq	%r13
	je	.LBB54_9
.LBB54_2:
	movzbl	-56(%rbp), %ecx
	movzbl	-24(%rbp), %r14d
	movq	-16(%rbp), %rdi
	movq	(%rbp), %r12
	leal	-2(%rcx), %eax
	cmpl	$5, %eax
	jb	.LBB54_5
	movq	-48(%rbp), %rax
	movq	-32(%rbp), %rdx
	cmpl	$1, %ecx
	testq	%rdx, %rdx
	je	.LBB54_5
	movq	%rdi, 16(%rsp)
	movq	%rax, %rdi
	callq	rattle_dealloc@PLT
	movq	16(%rsp), %rdi
	.p2align	4
.LBB54_5:
	testb	%r14b, %r14b
	jne	.LBB54_8
	testq	%r12, %r12
	je	.LBB54_8
	callq	rattle_dealloc@PLT
	jmp	.LBB54_8
.LBB54_9:
	cmpq	$0, 32(%rsp)
	je	.LBB54_11
	movq	24(%rsp), %rdi
	callq	rattle_dealloc@PLT
.LBB54_11:
	cmpb	$0, 15(%rsp)
	je	.LBB54_14
	testq	%r15, %r15
	je	.LBB54_14
	.p2align	4
.LBB54_13:
	movq	(%rbx), %r14
	movq	%rbx, %rdi
	callq	rattle_dealloc@PLT
	movq	%r14, %rbx
	decq	%r15
	jne	.LBB54_13
.LBB54_14:
	addq	$40, %rsp
	popq	%rbx
	popq	%r12
	popq	%r13
	popq	%r14
	popq	%r15
	popq	%rbp
	retq
.Lfunc_end54:
	.size	ww_lock__ww_table__seat__Stepper_Destruct__drop, .Lfunc_end54-ww_lock__ww_table__seat__Stepper_Destruct__drop

	.section	.text.std_alloc__vec__Vec__drop____03f4bc90732ccbc3_,"ax",@progbits
	.p2align	4
	.type	std_alloc__vec__Vec__drop____03f4bc90732ccbc3_,@function
std_alloc__vec__Vec__drop____03f4bc90732ccbc3_:
	pushq	%rbp
	pushq	%r15
	pushq	%r14
	pushq	%r13
	pushq	%r12
	pushq	%rbx
	pushq	%rax
	movq	(%rdi), %rbx
	movq	8(%rdi), %rbp
	movq	16(%rdi), %rax
	movq	%rax, (%rsp)
	testq	%rbp, %rbp
	je	.LBB55_7
	leaq	8(%rbx), %r13
	jmp	.LBB55_2
	.p2align	4
.LBB55_6:
	addq	$16, %r13
	decq	%rbp
	je	.LBB55_7
.LBB55_2:
	movq	-8(%r13), %rdi
	movq	(%r13), %r14
	#APP
	#NO_APP
	lock		decq	(%rdi)
	#APP
	#NO_APP
	je	.LBB55_3
	#APP
	#NO_APP
	lock		decq	(%r14)
	#APP
	#NO_APP
	jne	.LBB55_6
	jmp	.LBB55_5
	.p2align	4
.LBB55_3:
	movq	40(%rdi), %r15
	movq	56(%rdi), %r12
	callq	rattle_dealloc@PLT
	movq	%r15, %rdi
	callq	rattle_dealloc@PLT
	movq	%r12, %rdi
	callq	rattle_dealloc@PLT
	#APP
	#NO_APP
	lock		decq	(%r14)
	#APP
	#NO_APP
	jne	.LBB55_6
.LBB55_5:
	movq	%r14, %rdi
	callq	rattle_dealloc@PLT
	jmp	.LBB55_6
.LBB55_7:
	cmpq	$0, (%rsp)
	je	.LBB55_8
	movq	%rbx, %rdi
	addq	$8, %rsp
	popq	%rbx
	popq	%r12
	popq	%r13
	popq	%r14
	popq	%r15
	popq	%rbp
	jmp	rattle_dealloc@PLT
.LBB55_8:
	addq	$8, %rsp
	popq	%rbx
	popq	%r12
	popq	%r13
	popq	%r14
	popq	%r15
	popq	%rbp
	retq
.Lfunc_end55:
	.size	std_alloc__vec__Vec__drop____03f4bc90732ccbc3_, .Lfunc_end55-std_alloc__vec__Vec__drop____03f4bc90732ccbc3_

	.section	.text.atomic_table__owned__Table__drop____27ef4311ae2151e3_,"ax",@progbits
	.p2align	4
	.type	atomic_table__owned__Table__drop____27ef4311ae2151e3_,@function
atomic_table__owned__Table__drop____27ef4311ae2151e3_:
	pushq	%rbp
	pushq	%r15
	pushq	%r14
	pushq	%r13
	pushq	%r12
	pushq	%rbx
	pushq	%rax
	movq	24(%rdi), %r15
	movq	32(%rdi), %r14
	movq	48(%rdi), %rax
	movq	%rax, (%rsp)
	testq	%r15, %r15
	je	.LBB56_8
	movq	8(%rdi), %r12
	xorl	%r13d, %r13d
	jmp	.LBB56_2
	.p2align	4
.LBB56_7:
	incq	%r13
	cmpq	%r15, %r13
	je	.LBB56_8
.LBB56_2:
	leaq	(,%r13,8), %rax
	leaq	(%rax,%rax,4), %rax
	cmpb	$0, (%r12,%rax)
	jne	.LBB56_7
	cmpb	$0, 8(%r12,%rax)
	je	.LBB56_7
	movq	32(%r12,%rax), %rbp
	testq	%rbp, %rbp
	je	.LBB56_7
	movq	16(%r12,%rax), %rdi
	.p2align	4
.LBB56_6:
	movq	(%rdi), %rbx
	callq	rattle_dealloc@PLT
	movq	%rbx, %rdi
	decq	%rbp
	jne	.LBB56_6
	jmp	.LBB56_7
.LBB56_8:
	movq	%r14, %rdi
	callq	rattle_dealloc@PLT
	movq	(%rsp), %rdi
	addq	$8, %rsp
	popq	%rbx
	popq	%r12
	popq	%r13
	popq	%r14
	popq	%r15
	popq	%rbp
	jmp	rattle_dealloc@PLT
.Lfunc_end56:
	.size	atomic_table__owned__Table__drop____27ef4311ae2151e3_, .Lfunc_end56-atomic_table__owned__Table__drop____27ef4311ae2151e3_

	.section	.text.std_alloc__vec__Vec__drop____98a5c0865d4d3e5d_,"ax",@progbits
	.p2align	4
	.type	std_alloc__vec__Vec__drop____98a5c0865d4d3e5d_,@function
std_alloc__vec__Vec__drop____98a5c0865d4d3e5d_:
	pushq	%r15
	pushq	%r14
	pushq	%r12
	pushq	%rbx
	pushq	%rax
	movq	(%rdi), %rbx
	movq	8(%rdi), %r15
	movq	16(%rdi), %r14
	testq	%r15, %r15
	je	.LBB57_7
	leaq	32(%rbx), %r12
	jmp	.LBB57_2
	.p2align	4
.LBB57_6:
	addq	$40, %r12
	decq	%r15
	je	.LBB57_7
.LBB57_2:
	movzbl	-32(%r12), %edx
	cmpl	$2, %edx
	je	.LBB57_6
	movzbl	-24(%r12), %ecx
	movq	-16(%r12), %rdi
	movq	(%r12), %rax
	cmpl	$1, %edx
	leal	-2(%rcx), %edx
	cmpl	$5, %edx
	jb	.LBB57_6
	cmpl	$1, %ecx
	testq	%rax, %rax
	je	.LBB57_6
	callq	rattle_dealloc@PLT
	jmp	.LBB57_6
.LBB57_7:
	testq	%r14, %r14
	je	.LBB57_8
	movq	%rbx, %rdi
	addq	$8, %rsp
	popq	%rbx
	popq	%r12
	popq	%r14
	popq	%r15
	jmp	rattle_dealloc@PLT
.LBB57_8:
	addq	$8, %rsp
	popq	%rbx
	popq	%r12
	popq	%r14
	popq	%r15
	retq
.Lfunc_end57:
	.size	std_alloc__vec__Vec__drop____98a5c0865d4d3e5d_, .Lfunc_end57-std_alloc__vec__Vec__drop____98a5c0865d4d3e5d_

	.section	.text.unlikely.ww_seat__patience__Patience__rest,"ax",@progbits
	.p2align	4
	.type	ww_seat__patience__Patience__rest,@function
ww_seat__patience__Patience__rest:
	cmpb	$0, 24(%rdi)
	je	.LBB58_1
	movb	$0, 24(%rdi)
	movl	20(%rdi), %eax
	cmpl	$12, %eax
	movl	$12, %ecx
	cmovbl	%eax, %ecx
	movl	$8, %eax
	shll	%cl, %eax
	.p2align	4
.LBB58_5:
	pause
	pause
	pause
	pause
	pause
	pause
	pause
	pause
	addl	$-8, %eax
	jne	.LBB58_5
.LBB58_3:
	retq
.LBB58_1:
	movl	20(%rdi), %eax
	movl	28(%rdi), %ecx
	incl	%ecx
	movl	$-1, %edx
	cmovnel	%ecx, %edx
	movl	%edx, 28(%rdi)
	cmpl	$4, %eax
	setae	%cl
	cmpl	$4, %edx
	setb	%dl
	testb	%cl, %dl
	jne	.LBB58_3
	movl	$0, 28(%rdi)
	cmpl	$1, %eax
	adcl	$-1, %eax
	movl	%eax, 20(%rdi)
	retq
.Lfunc_end58:
	.size	ww_seat__patience__Patience__rest, .Lfunc_end58-ww_seat__patience__Patience__rest

	.section	.text.unlikely.ww_lock__hand__Hand__wait_for____553c7e4ebf26217f_,"ax",@progbits
	.p2align	4
	.type	ww_lock__hand__Hand__wait_for____553c7e4ebf26217f_,@function
ww_lock__hand__Hand__wait_for____553c7e4ebf26217f_:
	pushq	%r15
	pushq	%r14
	pushq	%rbx
	subq	$48, %rsp
	movq	%rsi, %r14
	movq	%rdi, %rbx
	xorps	%xmm0, %xmm0
	movaps	%xmm0, 32(%rsp)
	movaps	%xmm0, 16(%rsp)
	movzbl	%cl, %r15d
	leaq	488(%rsi), %r9
	movups	552(%rsi), %xmm0
	movups	%xmm0, (%rsp)
	leaq	16(%rsp), %rdi
	movl	%r15d, %ecx
	callq	ww_seat__seats__Seat__wait_for____553c7e4ebf26217f_
	cmpb	$0, .Lstatic.0(%rip)
	jne	.LBB59_5
	movzwl	24(%rsp), %edx
	movzwl	26(%rsp), %ecx
	movq	32(%rsp), %rax
	cmpb	$0, 16(%rsp)
	je	.LBB59_2
	movzbl	%dl, %esi
	movb	$1, %dl
	jmp	.LBB59_3
.LBB59_2:
	movq	40(%rsp), %rsi
	movl	28(%rsp), %edi
	movq	464(%r14), %r8
	leaq	(%r15,%r15,2), %r9
	movw	%dx, (%r8,%r9,8)
	movw	%cx, 2(%r8,%r9,8)
	movl	%edi, 4(%r8,%r9,8)
	movq	%rax, 8(%r8,%r9,8)
	movq	%rsi, 16(%r8,%r9,8)
	movb	$1, 396(%r14,%r15)
	xorl	%edx, %edx
	xorl	%esi, %esi
	xorl	%ecx, %ecx
	xorl	%eax, %eax
.LBB59_3:
	movb	%dl, (%rbx)
	movw	%si, 8(%rbx)
	movw	%cx, 10(%rbx)
	movq	%rax, 16(%rbx)
	addq	$48, %rsp
	popq	%rbx
	popq	%r14
	popq	%r15
	retq
.LBB59_5:
	ud2
.Lfunc_end59:
	.size	ww_lock__hand__Hand__wait_for____553c7e4ebf26217f_, .Lfunc_end59-ww_lock__hand__Hand__wait_for____553c7e4ebf26217f_

	.section	.text.unlikely.ww_seat__seats__Seat__wait_for____553c7e4ebf26217f_,"ax",@progbits
	.p2align	4
	.type	ww_seat__seats__Seat__wait_for____553c7e4ebf26217f_,@function
ww_seat__seats__Seat__wait_for____553c7e4ebf26217f_:
	pushq	%rbp
	pushq	%r15
	pushq	%r14
	pushq	%r13
	pushq	%r12
	pushq	%rbx
	subq	$168, %rsp
	movl	%r8d, 68(%rsp)
	movq	%rdx, %r15
	movq	%rdi, 80(%rsp)
	xorps	%xmm0, %xmm0
	movaps	%xmm0, 144(%rsp)
	movaps	%xmm0, 128(%rsp)
	cmpb	$0, 24(%r9)
	jne	.LBB60_2
	movb	$1, 24(%r9)
	movl	$0, 28(%r9)
	movl	20(%r9), %eax
	incl	%eax
	movl	$-1, %edx
	cmovnel	%eax, %edx
	cmpl	$12, %edx
	movl	$12, %eax
	cmovbl	%edx, %eax
	movl	%eax, 20(%r9)
.LBB60_2:
	movq	32(%r9), %rax
	incq	%rax
	movq	$-1, %rdx
	cmovneq	%rax, %rdx
	movq	%r9, 56(%rsp)
	movq	%rdx, 32(%r9)
	movq	%rsi, 88(%rsp)
	movq	328(%rsi), %rax
	movq	%rax, 96(%rsp)
	movl	%ecx, 72(%rsp)
	movl	%ecx, %eax
	movq	%rax, 104(%rsp)
	movb	$16, %r12b
	movl	$12416, %r10d
	xorl	%r13d, %r13d
	xorl	%r11d, %r11d
	xorl	%eax, %eax
	movq	$0, 40(%rsp)
	movl	$0, 24(%rsp)
	movl	$0, 28(%rsp)
	movq	$0, 32(%rsp)
	xorl	%ebp, %ebp
	movl	$0, 20(%rsp)
	xorl	%ebx, %ebx
	.p2align	4
.LBB60_3:
	movq	(%r15), %rdx
	cmpl	$65, 68(%r15)
	setb	%cl
	addb	%cl, %cl
	incb	%cl
	movq	104(%rsp), %rsi
	shlq	%cl, %rsi
	#APP
	#NO_APP
	movq	128(%rdx,%rsi,8), %rdx
	#APP
	#NO_APP
	movl	%edx, %edi
	andb	$7, %dil
	movl	%edx, %ecx
	shrl	$3, %ecx
	cmpb	$5, %dil
	ja	.LBB60_12
	movl	%edx, %esi
	andl	$7, %esi
	movl	$43, %r8d
	btl	%esi, %r8d
	jae	.LBB60_12
	xorl	%esi, %esi
	andl	$31, %ecx
	setne	%sil
	movl	%ecx, %r8d
	subl	%esi, %r8d
	movq	%rdx, %rsi
	shrq	$8, %rsi
	testl	%ecx, %ecx
	movl	%r8d, %ecx
	je	.LBB60_8
	cmpw	$16, %cx
	setb	%r8b
	movq	%rdx, %r9
	shrq	$57, %r9
	sete	%r9b
	orb	%r8b, %r9b
	je	.LBB60_65
	cmpb	$2, %dil
	jae	.LBB60_13
	jmp	.LBB60_15
	.p2align	4
.LBB60_8:
	testq	%rsi, %rsi
	jne	.LBB60_65
	cmpb	$1, %dil
	ja	.LBB60_65
	cmpq	$8, %rdx
	jae	.LBB60_65
	cmpb	$1, %bl
	setne	%dl
	xorl	%r8d, %r8d
	xorl	%esi, %esi
	movb	$1, %dil
	cmpb	$2, %bl
	jne	.LBB60_24
	jmp	.LBB60_22
.LBB60_12:
	andl	$4095, %ecx
	movq	%rdx, %rsi
	shrq	$15, %rsi
	xorb	$7, %dil
	cmpb	$2, %dil
	jb	.LBB60_15
.LBB60_13:
	cmpb	$5, %dil
	je	.LBB60_15
	movzbl	%dil, %r8d
	cmpl	$3, %r8d
	jne	.LBB60_65
.LBB60_15:
	cmpw	$15, %cx
	ja	.LBB60_17
	movzbl	%dil, %edi
	movswl	%cx, %r8d
	andl	$8191, %r8d
	movq	%rsi, %r9
	shlq	$8, %r9
	orq	%rdi, %r9
	leaq	(%r9,%r8,8), %rdi
	addq	$8, %rdi
	jmp	.LBB60_18
	.p2align	4
.LBB60_17:
	xorb	$7, %dil
	movzbl	%dil, %r8d
	movzwl	%cx, %edi
	movq	%rsi, %r9
	shlq	$15, %r9
	leaq	(%r9,%rdi,8), %rdi
	orq	%r8, %rdi
.LBB60_18:
	cmpq	%rdx, %rdi
	jne	.LBB60_65
	xorl	%edx, %edx
	movq	%rsi, %rdi
	subq	%rax, %rdi
	cmovaeq	%rdi, %rdx
	movb	$1, %r8b
	testq	%rax, %rax
	cmoveq	%rsi, %rax
	je	.LBB60_23
	cmpq	$4095, %rdx
	jbe	.LBB60_23
	movb	$1, %dl
	movb	$1, %dil
	cmpb	$2, %bl
	jne	.LBB60_24
.LBB60_22:
	movl	28(%rsp), %ecx
	decb	%r12b
	sete	%sil
	orb	%sil, %dl
	je	.LBB60_40
	jmp	.LBB60_62
	.p2align	4
.LBB60_23:
	movl	%ebx, %edx
	xorb	$2, %dl
	orb	20(%rsp), %dl
	sete	%dl
	movb	$1, %dil
	cmpb	$2, %bl
	je	.LBB60_22
.LBB60_24:
	movzbl	%bl, %r9d
	cmpl	$1, %r9d
	jne	.LBB60_30
	testq	%rsi, %rsi
	je	.LBB60_37
	cmpb	$1, %bpl
	jne	.LBB60_36
	cmpw	%cx, 28(%rsp)
	sete	%cl
	andb	%cl, %r8b
	cmpb	$1, %r8b
	jne	.LBB60_37
	cmpq	%rsi, 40(%rsp)
	jne	.LBB60_37
.LBB60_29:
	movq	56(%rsp), %r8
	movl	16(%r8), %esi
	cmpl	$1, %esi
	adcl	$-1, %esi
	cmpl	$10, %esi
	movl	$10, %ecx
	cmovbl	%esi, %ecx
	movl	$8, %ebp
	shll	%cl, %ebp
	movl	%esi, 16(%r8)
	cmpl	$1024, %ebp
	movl	$1024, %ecx
	movl	$1024, 24(%rsp)
	cmovael	%ecx, %ebp
	movl	%ebp, %ecx
	andl	$1792, %ecx
	movq	%rcx, 32(%rsp)
	movb	$7, %cl
	movl	%ecx, 20(%rsp)
	movb	$2, %bl
	jmp	.LBB60_32
	.p2align	4
.LBB60_30:
	cmpq	$0, 96(%rsp)
	je	.LBB60_34
	movl	$32, 24(%rsp)
	movq	$0, 32(%rsp)
	movb	$1, %dil
	movb	$12, %cl
	movl	%ecx, 20(%rsp)
	movb	$2, %bl
	movb	$1, %bpl
.LBB60_32:
	xorl	%ecx, %ecx
	jmp	.LBB60_33
.LBB60_34:
	xorl	%edi, %edi
	movb	$1, %bl
	testb	%r8b, %r8b
	je	.LBB60_38
	movl	$0, 20(%rsp)
	movb	$1, %bpl
	jmp	.LBB60_39
.LBB60_36:
	cmpq	%rsi, 40(%rsp)
	setne	%cl
	orb	%cl, %r8b
	je	.LBB60_29
.LBB60_37:
	movq	56(%rsp), %r8
	movl	16(%r8), %ecx
	incl	%ecx
	movl	$-1, %esi
	cmovnel	%ecx, %esi
	cmpl	$10, %esi
	movl	$10, %ecx
	cmovbl	%esi, %ecx
	movl	$8, %ebp
	shll	%cl, %ebp
	movl	%ecx, 16(%r8)
	cmpl	$6144, %ebp
	movl	$6144, %ecx
	movl	$6144, 24(%rsp)
	cmovael	%ecx, %ebp
	movl	%ebp, %ecx
	andl	$7936, %ecx
	movq	%rcx, 32(%rsp)
	movb	$2, %bl
	xorl	%ecx, %ecx
	movb	$2, %sil
	movl	%esi, 20(%rsp)
.LBB60_33:
	movq	$0, 40(%rsp)
	decb	%r12b
	sete	%sil
	orb	%sil, %dl
	jne	.LBB60_62
.LBB60_40:
	movq	32(%rsp), %rsi
	andl	$65280, %esi
	movzbl	%bpl, %edx
	orl	%esi, %edx
	movl	%ecx, %r14d
	shll	$16, %r14d
	orl	%edx, %r14d
	testb	%dil, %dil
	movq	%r11, 120(%rsp)
	movq	%rbx, 112(%rsp)
	je	.LBB60_42
	movl	20(%rsp), %ecx
	cmpb	$1, %cl
	adcb	$-1, %cl
	movl	%ecx, 20(%rsp)
	leal	(%r14,%r14), %ecx
	movl	24(%rsp), %edx
	cmpl	%edx, %ecx
	cmovael	%edx, %ecx
	movl	$0, 28(%rsp)
	movl	%ecx, 52(%rsp)
	movq	%rcx, 32(%rsp)
	jmp	.LBB60_43
	.p2align	4
.LBB60_42:
	movl	%ebp, 52(%rsp)
	movq	%r14, 32(%rsp)
	movl	%ecx, 28(%rsp)
	movl	$12, %r14d
.LBB60_43:
	cmpl	%r14d, %r10d
	movl	%r10d, 76(%rsp)
	cmovbl	%r10d, %r14d
	movl	%r14d, %ebp
	shrl	$6, %ebp
	je	.LBB60_53
	movq	%rax, %rbx
	jmp	.LBB60_47
	.p2align	4
.LBB60_45:
	movq	%rbx, %rax
.LBB60_46:
	subb	%cl, %r12b
	movq	%rax, %rbx
	decl	%ebp
	je	.LBB60_53
.LBB60_47:
	pause
	pause
	pause
	pause
	pause
	pause
	pause
	pause
	pause
	pause
	pause
	pause
	pause
	pause
	pause
	pause
	pause
	pause
	pause
	pause
	pause
	pause
	pause
	pause
	pause
	pause
	pause
	pause
	pause
	pause
	pause
	pause
	pause
	pause
	pause
	pause
	pause
	pause
	pause
	pause
	pause
	pause
	pause
	pause
	pause
	pause
	pause
	pause
	pause
	pause
	pause
	pause
	pause
	pause
	pause
	pause
	pause
	pause
	pause
	pause
	pause
	pause
	pause
	pause
	callq	sched_yield@PLT
	cmpb	$0, .Lstatic.0(%rip)
	jne	.LBB60_65
	cmpb	$0, .Lstatic.0(%rip)
	jne	.LBB60_65
	cmpb	$0, .Lstatic.0(%rip)
	jne	.LBB60_65
	movl	%r13d, %eax
	incl	%eax
	movl	$-1, %r13d
	cmovnel	%eax, %r13d
	leal	-1(%r13), %eax
	testl	%eax, %r13d
	sete	%al
	cmpb	$2, %r12b
	setae	%cl
	andb	%al, %cl
	je	.LBB60_45
	movq	(%r15), %rax
	#APP
	#NO_APP
	movq	(%rax), %rax
	xorl	%edx, %edx
	movq	%rax, %rsi
	subq	%rbx, %rsi
	cmovaeq	%rsi, %rdx
	#APP
	#NO_APP
	testq	%rbx, %rbx
	cmovneq	%rbx, %rax
	je	.LBB60_46
	cmpq	$4095, %rdx
	jbe	.LBB60_46
	jmp	.LBB60_61
	.p2align	4
.LBB60_53:
	movl	%r14d, %edx
	andl	$63, %edx
	movl	76(%rsp), %r10d
	movq	120(%rsp), %r11
	movq	112(%rsp), %rbx
	movl	52(%rsp), %ebp
	je	.LBB60_59
	movl	%r14d, %ecx
	andl	$7, %ecx
	cmpl	$8, %edx
	jb	.LBB60_58
	movl	%r14d, %edx
	andl	$56, %edx
	.p2align	4
.LBB60_56:
	pause
	pause
	pause
	pause
	pause
	pause
	pause
	pause
	addl	$-8, %edx
	jne	.LBB60_56
	testl	%ecx, %ecx
	je	.LBB60_59
	.p2align	4
.LBB60_58:
	pause
	decl	%ecx
	jne	.LBB60_58
.LBB60_59:
	cmpb	$0, .Lstatic.0(%rip)
	jne	.LBB60_65
	subl	%r14d, %r10d
	incb	%r11b
	cmpb	$16, %r11b
	jne	.LBB60_3
	jmp	.LBB60_62
.LBB60_38:
	movq	56(%rsp), %r9
	movl	16(%r9), %edi
	incl	%edi
	movl	$-1, %r8d
	cmovnel	%edi, %r8d
	cmpl	$10, %r8d
	movl	$10, %edi
	cmovbl	%r8d, %edi
	movl	%edi, 16(%r9)
	xorl	%edi, %edi
	movl	$0, 20(%rsp)
	xorl	%ebp, %ebp
.LBB60_39:
	movq	$0, 32(%rsp)
	movl	$0, 24(%rsp)
	movq	%rsi, 40(%rsp)
	decb	%r12b
	sete	%sil
	orb	%sil, %dl
	je	.LBB60_40
	jmp	.LBB60_62
.LBB60_61:
	cmpb	$0, .Lstatic.0(%rip)
	jne	.LBB60_65
.LBB60_62:
	cmpb	$0, .Lstatic.0(%rip)
	jne	.LBB60_65
	movq	232(%rsp), %rax
	movq	%rax, 8(%rsp)
	movq	224(%rsp), %rax
	movq	%rax, (%rsp)
	movzbl	68(%rsp), %r8d
	leaq	128(%rsp), %rdi
	movq	88(%rsp), %rsi
	movq	%r15, %rdx
	movl	72(%rsp), %ecx
	movq	56(%rsp), %r9
	callq	ww_seat__seats__Seat__wait____553c7e4ebf26217f_
	cmpb	$0, .Lstatic.0(%rip)
	jne	.LBB60_65
	movzbl	128(%rsp), %eax
	movq	80(%rsp), %rcx
	movq	%rax, (%rcx)
	movups	136(%rsp), %xmm0
	movups	%xmm0, 8(%rcx)
	movq	152(%rsp), %rax
	movq	%rax, 24(%rcx)
	addq	$168, %rsp
	popq	%rbx
	popq	%r12
	popq	%r13
	popq	%r14
	popq	%r15
	popq	%rbp
	retq
.LBB60_65:
	ud2
.Lfunc_end60:
	.size	ww_seat__seats__Seat__wait_for____553c7e4ebf26217f_, .Lfunc_end60-ww_seat__seats__Seat__wait_for____553c7e4ebf26217f_

	.section	.text.unlikely.ww_seat__seats__Seat__wait____553c7e4ebf26217f_,"ax",@progbits
	.p2align	4
	.type	ww_seat__seats__Seat__wait____553c7e4ebf26217f_,@function
ww_seat__seats__Seat__wait____553c7e4ebf26217f_:
	pushq	%rbp
	pushq	%r15
	pushq	%r14
	pushq	%r13
	pushq	%r12
	pushq	%rbx
	subq	$88, %rsp
	movq	%r9, %r14
	movl	%r8d, %r12d
	movl	%ecx, 28(%rsp)
	movq	%rdx, 64(%rsp)
	movq	%rsi, %r13
	movq	%rdi, %rbx
	xorps	%xmm0, %xmm0
	movaps	%xmm0, 48(%rsp)
	movaps	%xmm0, 32(%rsp)
	movq	$-1, %rbp
	xorl	%r15d, %r15d
.LBB61_1:
	subq	$1, %rbp
	jae	.LBB61_3
	callq	core__atomic__block____553c7e4ebf26217f_
	cmpb	$0, .Lstatic.0(%rip)
	jne	.LBB61_26
.LBB61_3:
	cmpb	$0, .Lstatic.0(%rip)
	jne	.LBB61_26
	movq	40(%r14), %rax
	incq	%rax
	movq	$-1, %rcx
	cmovneq	%rax, %rcx
	movq	%rcx, 40(%r14)
	movq	152(%rsp), %rax
	movq	%rax, 8(%rsp)
	movq	144(%rsp), %rax
	movq	%rax, (%rsp)
	movzbl	%r15b, %r8d
	movzbl	%r12b, %r9d
	leaq	32(%rsp), %rdi
	movq	%r13, %rsi
	movq	64(%rsp), %rdx
	movl	28(%rsp), %ecx
	callq	ww_seat__seats__Seat__visit____553c7e4ebf26217f_
	cmpb	$0, .Lstatic.0(%rip)
	jne	.LBB61_26
	movzbl	32(%rsp), %eax
	leaq	.LJTI61_0(%rip), %rcx
	movslq	(%rcx,%rax,4), %rax
	addq	%rcx, %rax
	jmpq	*%rax
.LBB61_10:
	movl	%r12d, 24(%rsp)
	movq	48(%r14), %rax
	incq	%rax
	movq	$-1, %rcx
	cmovneq	%rax, %rcx
	movq	%rcx, 48(%r14)
	movl	$256, %eax
	.p2align	4
.LBB61_11:
	movq	8(%r14), %rcx
	#APP
	#NO_APP
	movq	8(%rcx), %rcx
	#APP
	#NO_APP
	testq	%rcx, %rcx
	jne	.LBB61_13
	pause
	pause
	pause
	pause
	pause
	pause
	pause
	pause
	decl	%eax
	jne	.LBB61_11
.LBB61_13:
	movq	8(%r14), %rax
	#APP
	#NO_APP
	xorl	%ecx, %ecx
	xchgq	%rcx, 8(%rax)
	#APP
	#NO_APP
	movq	(%r14), %r15
	movq	8(%r15), %rcx
	#APP
	#NO_APP
	movl	$1, %r12d
	xorl	%eax, %eax
	lock		cmpxchgq	%r12, (%rcx)
	#APP
	#NO_APP
	.p2align	4
.LBB61_14:
	testq	%r12, %r12
	je	.LBB61_15
.LBB61_16:
	cmpb	$0, .Lstatic.0(%rip)
	jne	.LBB61_26
	movq	8(%r15), %rcx
	#APP
	#NO_APP
	xorl	%edx, %edx
	movl	$2, %eax
	lock		cmpxchgq	%rdx, (%rcx)
	#APP
	#NO_APP
	je	.LBB61_23
	movq	8(%r15), %rsi
	movabsq	$9223372036854775807, %rax
	movq	%rax, 72(%rsp)
	movq	$0, 80(%rsp)
	leaq	72(%rsp), %r8
	movl	$202, %edi
	movl	$128, %edx
	movl	$1, %ecx
	xorl	%eax, %eax
	callq	syscall@PLT
	cmpb	$0, .Lstatic.0(%rip)
	jne	.LBB61_26
	cmpb	$0, .Lstatic.0(%rip)
	jne	.LBB61_26
	cmpb	$0, .Lstatic.0(%rip)
	jne	.LBB61_26
	cmpb	$0, .Lstatic.0(%rip)
	jne	.LBB61_26
	incq	%r12
	cmpb	$0, .Lstatic.0(%rip)
	je	.LBB61_14
	jmp	.LBB61_26
.LBB61_15:
	callq	core__atomic__block____553c7e4ebf26217f_
	cmpb	$0, .Lstatic.0(%rip)
	je	.LBB61_16
	jmp	.LBB61_26
	.p2align	4
.LBB61_23:
	cmpb	$0, .Lstatic.0(%rip)
	jne	.LBB61_26
	cmpb	$0, .Lstatic.0(%rip)
	movl	24(%rsp), %r12d
	jne	.LBB61_26
	movb	$2, %r15b
	cmpb	$0, .Lstatic.0(%rip)
	je	.LBB61_1
.LBB61_26:
	ud2
.LBB61_8:
	movzwl	34(%rsp), %eax
	movq	$1, (%rbx)
	movw	$1, 8(%rbx)
	movw	%ax, 10(%rbx)
	xorps	%xmm0, %xmm0
	movups	%xmm0, 12(%rbx)
	movl	$0, 28(%rbx)
	jmp	.LBB61_9
.LBB61_6:
	movl	44(%rsp), %eax
	movq	$0, (%rbx)
	movl	40(%rsp), %ecx
	movl	%ecx, 8(%rbx)
	movl	%eax, 12(%rbx)
	movaps	48(%rsp), %xmm0
	movups	%xmm0, 16(%rbx)
	jmp	.LBB61_9
.LBB61_7:
	movq	40(%rsp), %rax
	movq	56(%r14), %rcx
	incq	%rcx
	movq	$-1, %rdx
	cmovneq	%rcx, %rdx
	movq	%rdx, 56(%r14)
	movq	$1, (%rbx)
	movq	$0, 8(%rbx)
	movq	%rax, 16(%rbx)
	movq	$0, 24(%rbx)
.LBB61_9:
	addq	$88, %rsp
	popq	%rbx
	popq	%r12
	popq	%r13
	popq	%r14
	popq	%r15
	popq	%rbp
	retq
.Lfunc_end61:
	.size	ww_seat__seats__Seat__wait____553c7e4ebf26217f_, .Lfunc_end61-ww_seat__seats__Seat__wait____553c7e4ebf26217f_
	.section	.rodata.unlikely.ww_seat__seats__Seat__wait____553c7e4ebf26217f_,"a",@progbits
	.p2align	2, 0x0
.LJTI61_0:
	.long	.LBB61_6-.LJTI61_0
	.long	.LBB61_7-.LJTI61_0
	.long	.LBB61_8-.LJTI61_0
	.long	.LBB61_10-.LJTI61_0

	.section	.text.unlikely.core__atomic__block____553c7e4ebf26217f_,"ax",@progbits
	.p2align	4
	.type	core__atomic__block____553c7e4ebf26217f_,@function
core__atomic__block____553c7e4ebf26217f_:
	pushq	%rbx
	subq	$32, %rsp
	movq	$-1, %rbx
	.p2align	4
.LBB62_2:
	movq	$0, 8(%rsp)
	movabsq	$9223372036854775807, %rax
	movq	%rax, 16(%rsp)
	movq	$0, 24(%rsp)
	leaq	8(%rsp), %rsi
	leaq	16(%rsp), %r8
	movl	$202, %edi
	movl	$128, %edx
	xorl	%ecx, %ecx
	xorl	%eax, %eax
	callq	syscall@PLT
	cmpb	$0, .Lstatic.0(%rip)
	jne	.LBB62_11
	cmpb	$0, .Lstatic.0(%rip)
	jne	.LBB62_11
	cmpb	$0, .Lstatic.0(%rip)
	jne	.LBB62_11
	decq	%rbx
	jne	.LBB62_2
	movq	$0, (%rsp)
	jmp	.LBB62_6
	.p2align	4
.LBB62_10:
	callq	sched_yield@PLT
	cmpb	$0, .Lstatic.0(%rip)
	jne	.LBB62_11
.LBB62_6:
	#APP
	#NO_APP
	movq	(%rsp), %rax
	#APP
	#NO_APP
	testq	%rax, %rax
	je	.LBB62_10
	#APP
	#NO_APP
	xorl	%ecx, %ecx
	lock		cmpxchgq	%rcx, (%rsp)
	#APP
	#NO_APP
	jne	.LBB62_6
	cmpb	$0, .Lstatic.0(%rip)
	jne	.LBB62_11
	addq	$32, %rsp
	popq	%rbx
	retq
.LBB62_11:
	ud2
.Lfunc_end62:
	.size	core__atomic__block____553c7e4ebf26217f_, .Lfunc_end62-core__atomic__block____553c7e4ebf26217f_

	.section	.text.unlikely.ww_seat__seats__Seat__visit____553c7e4ebf26217f_,"ax",@progbits
	.p2align	4
	.type	ww_seat__seats__Seat__visit____553c7e4ebf26217f_,@function
ww_seat__seats__Seat__visit____553c7e4ebf26217f_:
	pushq	%rbp
	pushq	%r15
	pushq	%r14
	pushq	%r13
	pushq	%r12
	pushq	%rbx
	subq	$424, %rsp
	movl	%r9d, 204(%rsp)
	movq	%r8, 56(%rsp)
	movl	%ecx, %r14d
	movq	%rdx, %r13
	movq	%rsi, %r12
	movq	%rdi, 296(%rsp)
	xorps	%xmm0, %xmm0
	movaps	%xmm0, 320(%rsp)
	movq	328(%rsi), %rbx
	movq	%rsi, %rdi
	movq	%rdx, %rsi
	movl	%ecx, %edx
	callq	ww_seat__seats__Seat__spin_into_wanted____553c7e4ebf26217f_
	cmpb	$0, .Lstatic.0(%rip)
	jne	.LBB63_222
	xorl	%eax, %eax
	testq	%rbx, %rbx
	setne	%al
	movq	%rax, 304(%rsp)
	movq	$0, 192(%rsp)
	xorps	%xmm0, %xmm0
	movaps	%xmm0, 240(%rsp)
	movl	%r14d, %edi
	leal	64(%r14), %r9d
	leaq	(,%rdi,8), %rax
	leaq	2560(%rax,%rax,4), %r11
	leaq	(%rax,%rax,4), %rax
	movq	%rax, 312(%rsp)
	movq	$-1, %r8
	movq	%rdi, 24(%rsp)
	movl	%r9d, 16(%rsp)
	movq	%r14, %r10
	movq	%r14, 40(%rsp)
	movq	%r11, 32(%rsp)
	jmp	.LBB63_5
	.p2align	4
.LBB63_2:
	xorl	%eax, %eax
	xorl	%r14d, %r14d
.LBB63_3:
	movaps	336(%rsp), %xmm0
	movaps	%xmm0, 224(%rsp)
	xorl	%ebp, %ebp
.LBB63_4:
	movaps	224(%rsp), %xmm0
	movaps	%xmm0, 240(%rsp)
	testb	%al, %al
	jne	.LBB63_194
.LBB63_5:
	subq	$1, %r8
	jb	.LBB63_116
.LBB63_6:
	cmpb	$0, .Lstatic.0(%rip)
	jne	.LBB63_222
	xorps	%xmm0, %xmm0
	movaps	%xmm0, 224(%rsp)
	movaps	%xmm0, 208(%rsp)
	movaps	%xmm0, 368(%rsp)
	movaps	%xmm0, 336(%rsp)
	movaps	%xmm0, 352(%rsp)
	movq	(%r13), %rax
	cmpl	$65, 68(%r13)
	setb	%cl
	addb	%cl, %cl
	incb	%cl
	movq	%rdi, %rdx
	shlq	%cl, %rdx
	#APP
	#NO_APP
	movq	128(%rax,%rdx,8), %rax
	#APP
	#NO_APP
	movl	%eax, %r14d
	andb	$7, %r14b
	movl	%eax, %ebx
	shrl	$3, %ebx
	cmpb	$5, %r14b
	ja	.LBB63_16
	movl	%eax, %ecx
	andl	$7, %ecx
	movl	$43, %edx
	btl	%ecx, %edx
	jae	.LBB63_16
	xorl	%ecx, %ecx
	andl	$31, %ebx
	setne	%cl
	movl	%ebx, %edx
	subl	%ecx, %edx
	movq	%rax, %rbp
	shrq	$8, %rbp
	testl	%ebx, %ebx
	movl	%edx, %ebx
	je	.LBB63_12
	cmpw	$16, %bx
	setb	%cl
	movq	%rax, %rdx
	shrq	$57, %rdx
	sete	%dl
	orb	%cl, %dl
	je	.LBB63_222
	cmpb	$2, %r14b
	jae	.LBB63_17
	jmp	.LBB63_19
	.p2align	4
.LBB63_12:
	testq	%rbp, %rbp
	jne	.LBB63_222
	cmpb	$1, %r14b
	ja	.LBB63_222
	cmpq	$8, %rax
	jae	.LBB63_222
	xorl	%ebp, %ebp
	movb	$1, %r15b
	jmp	.LBB63_25
.LBB63_16:
	andl	$4095, %ebx
	movq	%rax, %rbp
	shrq	$15, %rbp
	xorb	$7, %r14b
	cmpb	$2, %r14b
	jb	.LBB63_19
.LBB63_17:
	cmpb	$5, %r14b
	je	.LBB63_19
	movzbl	%r14b, %ecx
	cmpl	$3, %ecx
	jne	.LBB63_222
.LBB63_19:
	cmpw	$15, %bx
	ja	.LBB63_21
	movzbl	%r14b, %ecx
	movswl	%bx, %edx
	andl	$8191, %edx
	movq	%rbp, %rsi
	shlq	$8, %rsi
	orq	%rcx, %rsi
	leaq	(%rsi,%rdx,8), %rcx
	addq	$8, %rcx
	jmp	.LBB63_22
	.p2align	4
.LBB63_21:
	movl	%r14d, %ecx
	xorb	$7, %cl
	movzbl	%cl, %edx
	movzwl	%bx, %ecx
	movq	%rbp, %rsi
	shlq	$15, %rsi
	leaq	(%rsi,%rcx,8), %rcx
	orq	%rdx, %rcx
.LBB63_22:
	cmpq	%rax, %rcx
	jne	.LBB63_222
	cmpw	2(%r12), %bx
	jne	.LBB63_31
	xorl	%r15d, %r15d
.LBB63_25:
	movaps	%xmm0, 128(%rsp)
	movq	$0, 144(%rsp)
	movaps	%xmm0, 272(%rsp)
	movzbl	64(%r13), %eax
	cmpl	%eax, %r10d
	jae	.LBB63_43
	movaps	%xmm0, 96(%rsp)
	movq	$0, 112(%rsp)
	movaps	%xmm0, 64(%rsp)
	movaps	%xmm0, 80(%rsp)
	movaps	%xmm0, 160(%rsp)
	movaps	%xmm0, 176(%rsp)
	movq	328(%r12), %rax
	cmpl	%r9d, 60(%r12,%rax,4)
	jne	.LBB63_118
	movq	8(%r13), %rax
	cmpb	$0, (%rax,%r11)
	jne	.LBB63_222
.LBB63_28:
	movzwl	2(%r12), %ecx
	cmpb	$0, 8(%rax,%r11)
	je	.LBB63_50
	movq	32(%rax,%r11), %rdx
	testq	%rdx, %rdx
	je	.LBB63_50
	movq	16(%rax,%r11), %rax
	cmpq	$1, %rdx
	setne	%sil
	cmpw	%cx, 16(%rax)
	setne	%dl
	orb	%sil, %dl
	testb	%r15b, %r15b
	jne	.LBB63_51
.LBB63_55:
	cmpw	$15, %bx
	ja	.LBB63_58
	movzbl	%r14b, %eax
	movswl	%bx, %esi
	andl	$8191, %esi
	shlq	$8, %rbp
	orq	%rax, %rbp
	leaq	8(,%rsi,8), %rax
	addq	%rbp, %rax
	movq	32(%r12), %rsi
	cmpw	$15, %cx
	ja	.LBB63_57
	jmp	.LBB63_59
	.p2align	4
.LBB63_31:
	movq	56(%rsp), %rax
	testb	%al, %al
	je	.LBB63_48
.LBB63_32:
	cmpb	$2, %al
	sete	%sil
	cmpb	$1, 204(%rsp)
	jne	.LBB63_34
	movzwl	2(%r12), %eax
	movl	4(%r12), %edx
	cmpq	$65, %rdx
	setb	%cl
	addb	%cl, %cl
	incb	%cl
	shlq	%cl, %rdx
	shll	$6, %eax
	addq	(%r13), %rax
	#APP
	#NO_APP
	xorl	%r15d, %r15d
	xchgq	%r15, 136(%rax,%rdx,8)
	movq	56(%rsp), %rax
	#APP
	#NO_APP
	testq	%r15, %r15
	jne	.LBB63_201
.LBB63_34:
	xorps	%xmm0, %xmm0
	movaps	%xmm0, 272(%rsp)
	movaps	%xmm0, 128(%rsp)
	movq	$0, 144(%rsp)
	movaps	%xmm0, 256(%rsp)
	movaps	%xmm0, 400(%rsp)
	movaps	%xmm0, 384(%rsp)
	cmpb	$2, %al
	jne	.LBB63_126
	cmpb	$1, %r14b
	jne	.LBB63_126
	movq	328(%r12), %rax
	cmpl	%r9d, 60(%r12,%rax,4)
	jne	.LBB63_175
	movq	8(%r13), %rax
	cmpb	$0, (%rax,%r11)
	jne	.LBB63_222
.LBB63_38:
	cmpb	$0, 8(%rax,%r11)
	je	.LBB63_129
	cmpq	$0, 32(%rax,%r11)
	je	.LBB63_129
	movq	16(%rax,%r11), %rax
	movzwl	16(%rax), %eax
	movb	$1, %r14b
	cmpw	2(%r12), %ax
	jne	.LBB63_126
	movl	%esi, %r15d
	cmpw	$15, %bx
	ja	.LBB63_124
	movswl	%bx, %eax
	leal	8(,%rax,8), %eax
	movzwl	%ax, %ecx
	movq	%rbp, %rdx
	shlq	$8, %rdx
	leaq	(%rdx,%rcx), %rax
	incq	%rax
	addq	%rcx, %rdx
	addq	$3, %rdx
	jmp	.LBB63_125
	.p2align	4
.LBB63_43:
	movaps	%xmm0, 96(%rsp)
	movq	$0, 112(%rsp)
	movaps	%xmm0, 64(%rsp)
	movaps	%xmm0, 80(%rsp)
	movaps	%xmm0, 160(%rsp)
	movaps	%xmm0, 176(%rsp)
	movq	328(%r12), %rax
	cmpl	%r9d, 60(%r12,%rax,4)
	jne	.LBB63_119
	movq	8(%r13), %rax
	cmpb	$0, (%rax,%r11)
	jne	.LBB63_222
.LBB63_45:
	movzwl	2(%r12), %ecx
	cmpb	$0, 8(%rax,%r11)
	je	.LBB63_52
	movq	32(%rax,%r11), %rdx
	testq	%rdx, %rdx
	je	.LBB63_52
	movq	16(%rax,%r11), %rax
	cmpq	$1, %rdx
	setne	%sil
	cmpw	%cx, 16(%rax)
	setne	%dl
	orb	%sil, %dl
	testb	%r15b, %r15b
	jne	.LBB63_53
.LBB63_64:
	cmpw	$15, %bx
	ja	.LBB63_67
	movzbl	%r14b, %eax
	movswl	%bx, %esi
	andl	$8191, %esi
	shlq	$8, %rbp
	orq	%rax, %rbp
	leaq	8(,%rsi,8), %rax
	addq	%rbp, %rax
	movq	32(%r12), %rsi
	cmpw	$15, %cx
	ja	.LBB63_66
	jmp	.LBB63_68
.LBB63_50:
	xorl	%edx, %edx
	testb	%r15b, %r15b
	je	.LBB63_55
.LBB63_51:
	movzbl	%r14b, %eax
	movq	32(%r12), %rsi
	cmpw	$15, %cx
	ja	.LBB63_57
.LBB63_59:
	movzbl	%dl, %edx
	leaq	8(,%rcx,8), %rcx
	shlq	$8, %rsi
	orq	%rdx, %rsi
	orq	%rcx, %rsi
	jmp	.LBB63_60
.LBB63_52:
	xorl	%edx, %edx
	testb	%r15b, %r15b
	je	.LBB63_64
.LBB63_53:
	movzbl	%r14b, %eax
	movq	32(%r12), %rsi
	cmpw	$15, %cx
	ja	.LBB63_66
.LBB63_68:
	movzbl	%dl, %edx
	leaq	8(,%rcx,8), %rcx
	shlq	$8, %rsi
	orq	%rdx, %rsi
	orq	%rcx, %rsi
	jmp	.LBB63_69
.LBB63_48:
	movl	%r14d, %esi
	orb	$1, %sil
	cmpw	$15, %bx
	movb	%sil, 15(%rsp)
	ja	.LBB63_72
	movzbl	%r14b, %eax
	movswl	%bx, %ecx
	andl	$8191, %ecx
	movq	%rbp, %rdx
	shlq	$8, %rdx
	orq	%rdx, %rax
	leaq	(%rax,%rcx,8), %rax
	addq	$8, %rax
	movzbl	%sil, %esi
	leaq	(%rdx,%rcx,8), %rdx
	addq	$8, %rdx
	orq	%rsi, %rdx
	jmp	.LBB63_73
.LBB63_58:
	xorb	$7, %r14b
	movzbl	%r14b, %esi
	movzwl	%bx, %eax
	shlq	$15, %rbp
	leaq	(,%rax,8), %rax
	addq	%rbp, %rax
	orq	%rsi, %rax
	movq	32(%r12), %rsi
	cmpw	$15, %cx
	jbe	.LBB63_59
.LBB63_57:
	xorb	$7, %dl
	movzbl	%dl, %edx
	shlq	$15, %rsi
	leaq	(%rdx,%rcx,8), %rcx
	addq	%rcx, %rsi
.LBB63_60:
	cmpl	$65, 68(%r13)
	setb	%cl
	addb	%cl, %cl
	incb	%cl
	movq	%rdi, %rdx
	shlq	%cl, %rdx
	movq	(%r13), %rcx
	#APP
	#NO_APP
	lock		cmpxchgq	%rsi, 128(%rcx,%rdx,8)
	#APP
	#NO_APP
	jne	.LBB63_2
	movq	328(%r12), %rax
	movq	%r8, %r15
	testq	%rax, %rax
	je	.LBB63_95
	leaq	-1(%rax), %rcx
	movq	%rcx, 328(%r12)
	movl	$0, 60(%r12,%rax,4)
	movq	328(%r12), %rax
	jmp	.LBB63_96
.LBB63_67:
	xorb	$7, %r14b
	movzbl	%r14b, %esi
	movzwl	%bx, %eax
	shlq	$15, %rbp
	leaq	(,%rax,8), %rax
	addq	%rbp, %rax
	orq	%rsi, %rax
	movq	32(%r12), %rsi
	cmpw	$15, %cx
	jbe	.LBB63_68
.LBB63_66:
	xorb	$7, %dl
	movzbl	%dl, %edx
	shlq	$15, %rsi
	leaq	(%rdx,%rcx,8), %rcx
	addq	%rcx, %rsi
.LBB63_69:
	cmpl	$65, 68(%r13)
	setb	%cl
	addb	%cl, %cl
	incb	%cl
	movq	%rdi, %rdx
	shlq	%cl, %rdx
	movq	(%r13), %rcx
	#APP
	#NO_APP
	lock		cmpxchgq	%rsi, 128(%rcx,%rdx,8)
	#APP
	#NO_APP
	jne	.LBB63_2
	movq	%r8, %r15
	movzbl	360(%r12), %eax
	leaq	368(%r12), %r14
	movq	16(%r14), %rcx
	movq	%rcx, 112(%rsp)
	movups	(%r14), %xmm0
	movaps	%xmm0, 96(%rsp)
	xorps	%xmm0, %xmm0
	leaq	360(%r12), %rcx
	movups	%xmm0, 16(%rcx)
	movups	%xmm0, (%rcx)
	movzwl	2(%r12), %ecx
	movq	%rax, 160(%rsp)
	movq	112(%rsp), %rax
	leaq	168(%rsp), %rdx
	movq	%rax, 16(%rdx)
	movaps	96(%rsp), %xmm0
	movups	%xmm0, (%rdx)
	movq	8(%r13), %rsi
	leaq	64(%rsp), %rdi
	leaq	160(%rsp), %r8
	movl	%r9d, %edx
	callq	ww_invariant__lists__leave_list
	movzbl	360(%r12), %eax
	movq	368(%r12), %rdi
	movq	384(%r12), %rbx
	movzbl	64(%rsp), %ecx
	movq	%rcx, 360(%r12)
	leaq	72(%rsp), %rdx
	movq	16(%rdx), %rcx
	movq	%rcx, 16(%r14)
	movups	(%rdx), %xmm0
	movups	%xmm0, (%r14)
	cmpb	$1, %al
	setne	%al
	testq	%rbx, %rbx
	sete	%cl
	orb	%al, %cl
	jne	.LBB63_98
	.p2align	4
.LBB63_71:
	movq	(%rdi), %r14
	callq	rattle_dealloc@PLT
	movq	%r14, %rdi
	decq	%rbx
	jne	.LBB63_71
	jmp	.LBB63_98
.LBB63_72:
	xorb	$7, %r14b
	movzbl	%r14b, %eax
	movzwl	%bx, %ecx
	movq	%rbp, %rdx
	shlq	$15, %rdx
	leaq	(%rdx,%rcx,8), %rcx
	orq	%rcx, %rax
	movl	%esi, %edx
	xorb	$7, %dl
	movzbl	%dl, %edx
	orq	%rcx, %rdx
.LBB63_73:
	cmpl	$65, 68(%r13)
	setb	%cl
	addb	%cl, %cl
	incb	%cl
	movq	%rdi, %rsi
	shlq	%cl, %rsi
	movq	(%r13), %rcx
	#APP
	#NO_APP
	lock		cmpxchgq	%rdx, 128(%rcx,%rsi,8)
	#APP
	#NO_APP
	jne	.LBB63_94
	movq	%r8, 48(%rsp)
	movzwl	2(%r12), %r15d
	movq	32(%r12), %r14
	movq	328(%r12), %rax
	cmpl	%r9d, 60(%r12,%rax,4)
	jne	.LBB63_180
.LBB63_75:
	movzbl	360(%r12), %ecx
	movq	368(%r12), %rsi
	movq	376(%r12), %rax
	movq	384(%r12), %rdx
	xorps	%xmm0, %xmm0
	leaq	360(%r12), %r8
	movups	%xmm0, 16(%r8)
	movups	%xmm0, (%r8)
	cmpb	$1, %cl
	jne	.LBB63_222
	movq	8(%r13), %rcx
	cmpb	$0, (%rcx,%r11)
	jne	.LBB63_222
	testq	%rdx, %rdx
	je	.LBB63_222
	addq	%r11, %rcx
	movq	%r15, 16(%rsi)
	movq	%r14, 24(%rsi)
	movq	304(%rsp), %r8
	movq	%r8, 32(%rsi)
	cmpb	$0, 8(%rcx)
	je	.LBB63_117
	movq	32(%rcx), %r11
	testq	%r11, %r11
	je	.LBB63_122
	movq	%r11, %r8
	testq	%r14, %r14
	je	.LBB63_85
	leaq	16(%rcx), %rdi
	xorl	%r8d, %r8d
	.p2align	4
.LBB63_82:
	movq	(%rdi), %rdi
	cmpq	24(%rdi), %r14
	jb	.LBB63_85
	incq	%r8
	cmpq	%r8, %r11
	jne	.LBB63_82
	movq	%r11, %r8
.LBB63_85:
	movq	%r11, %rdi
	subq	%r8, %rdi
	cmpq	%rdi, %r8
	jae	.LBB63_167
	testq	%r8, %r8
	je	.LBB63_178
	movq	16(%rcx), %rdi
	decq	%r11
	movq	%r11, 32(%rcx)
	movq	(%rdi), %r9
	movq	%r9, 16(%rcx)
	movq	%rdi, (%rdi)
	movq	%rdi, 8(%rdi)
	movq	%rdi, %r14
	cmpq	$1, %r8
	je	.LBB63_93
	movq	%rdi, %r14
	cmpq	$2, %r8
	je	.LBB63_92
	leaq	-1(%r8), %r9
	movq	%r9, %r10
	andq	$-2, %r10
	movq	%rdi, %r14
	.p2align	4
.LBB63_90:
	movq	16(%rcx), %r11
	decq	32(%rcx)
	movq	(%r11), %r15
	movq	%r15, 16(%rcx)
	movq	%r11, (%r11)
	movq	%r14, 8(%r11)
	movq	%r11, (%r14)
	movq	16(%rcx), %r14
	decq	32(%rcx)
	movq	(%r14), %r15
	movq	%r15, 16(%rcx)
	movq	%r14, (%r14)
	movq	%r11, 8(%r14)
	movq	%r14, (%r11)
	addq	$-2, %r10
	jne	.LBB63_90
	testb	$1, %r9b
	je	.LBB63_93
.LBB63_92:
	movq	16(%rcx), %r9
	decq	32(%rcx)
	movq	(%r9), %r10
	movq	%r10, 16(%rcx)
	movq	%r9, (%r9)
	movq	%r14, 8(%r9)
	movq	%r9, (%r14)
	movq	%r9, %r14
.LBB63_93:
	movq	32(%rcx), %r11
	jmp	.LBB63_179
.LBB63_94:
	movaps	208(%rsp), %xmm0
	movaps	%xmm0, 224(%rsp)
	movq	$0, 56(%rsp)
	xorl	%ebp, %ebp
	xorl	%eax, %eax
	xorl	%r14d, %r14d
	jmp	.LBB63_4
.LBB63_95:
	xorl	%eax, %eax
.LBB63_96:
	movl	%r10d, 64(%r12,%rax,4)
	movl	%r9d, 68(%r12,%rax,4)
	addq	$2, %rax
	movq	%rax, 328(%r12)
	movzbl	360(%r12), %eax
	leaq	368(%r12), %r14
	movq	16(%r14), %rcx
	movq	%rcx, 112(%rsp)
	movups	(%r14), %xmm0
	movaps	%xmm0, 96(%rsp)
	xorps	%xmm0, %xmm0
	leaq	360(%r12), %rcx
	movups	%xmm0, 16(%rcx)
	movups	%xmm0, (%rcx)
	movzwl	2(%r12), %ecx
	movq	%rax, 160(%rsp)
	movq	112(%rsp), %rax
	leaq	168(%rsp), %rdx
	movq	%rax, 16(%rdx)
	movaps	96(%rsp), %xmm0
	movups	%xmm0, (%rdx)
	movq	8(%r13), %rsi
	leaq	64(%rsp), %rdi
	leaq	160(%rsp), %r8
	movl	%r9d, %edx
	callq	ww_invariant__lists__leave_list
	movzbl	360(%r12), %eax
	movq	368(%r12), %rdi
	movq	384(%r12), %rbx
	movzbl	64(%rsp), %ecx
	movq	%rcx, 360(%r12)
	leaq	72(%rsp), %rdx
	movq	16(%rdx), %rcx
	movq	%rcx, 16(%r14)
	movups	(%rdx), %xmm0
	movups	%xmm0, (%r14)
	cmpb	$1, %al
	setne	%al
	testq	%rbx, %rbx
	sete	%cl
	orb	%al, %cl
	jne	.LBB63_98
	.p2align	4
.LBB63_97:
	movq	(%rdi), %r14
	callq	rattle_dealloc@PLT
	movq	%r14, %rdi
	decq	%rbx
	jne	.LBB63_97
.LBB63_98:
	movq	40(%rsp), %rdx
	movq	328(%r12), %rax
	movl	16(%rsp), %esi
	cmpl	%esi, 60(%r12,%rax,4)
	movq	32(%rsp), %rcx
	movq	312(%rsp), %rbx
	jne	.LBB63_120
	movq	8(%r13), %rax
	cmpb	$0, (%rax,%rcx)
	jne	.LBB63_222
.LBB63_100:
	cmpb	$0, 8(%rax,%rcx)
	je	.LBB63_102
	cmpq	$0, 32(%rax,%rcx)
	setne	%al
	jmp	.LBB63_103
.LBB63_102:
	xorl	%eax, %eax
.LBB63_103:
	movzwl	2(%r12), %ecx
	movq	32(%r12), %rsi
	movw	$1, 128(%rsp)
	movw	%cx, 130(%rsp)
	movq	%rsi, 136(%rsp)
	movb	%al, 144(%rsp)
	leaq	128(%rsp), %rcx
	leaq	192(%rsp), %r8
	movq	%r12, %rdi
	movq	%r13, %rsi
	callq	ww_seat__signs__sign_all
	cmpb	$0, (%r12)
	je	.LBB63_107
	cmpq	$0, 32(%r12)
	je	.LBB63_107
	movq	24(%r12), %rax
	movq	(%r13), %rcx
	#APP
	#NO_APP
	movq	(%rcx,%rax,8), %rax
	#APP
	#NO_APP
	testq	%rax, %rax
	je	.LBB63_107
	movq	24(%r12), %rax
	movq	(%r13), %rcx
	#APP
	#NO_APP
	xorl	%edx, %edx
	xchgq	%rdx, (%rcx,%rax,8)
	#APP
	#NO_APP
.LBB63_107:
	movq	328(%r12), %rax
	movl	16(%rsp), %r9d
	cmpl	%r9d, 60(%r12,%rax,4)
	movq	24(%rsp), %rdi
	movq	32(%rsp), %r11
	movq	%r15, %r8
	jne	.LBB63_121
.LBB63_108:
	cmpl	$65, 68(%r13)
	setb	%cl
	addb	%cl, %cl
	incb	%cl
	movq	%rdi, %rax
	shlq	%cl, %rax
	movq	(%r13), %rcx
	#APP
	#NO_APP
	xorl	%edx, %edx
	xchgq	%rdx, 136(%rcx,%rax,8)
	#APP
	#NO_APP
	movq	328(%r12), %rax
	testq	%rax, %rax
	je	.LBB63_110
	leaq	-1(%rax), %rcx
	movq	%rcx, 328(%r12)
	movl	$0, 60(%r12,%rax,4)
.LBB63_110:
	movzbl	64(%r13), %eax
	movq	40(%rsp), %r10
	cmpl	%eax, %r10d
	jae	.LBB63_114
	movq	328(%r12), %rax
	cmpl	%r10d, 60(%r12,%rax,4)
	jne	.LBB63_174
	movq	8(%r13), %rax
	cmpb	$1, (%rax,%rbx)
	jne	.LBB63_222
.LBB63_113:
	addq	%rbx, %rax
	movq	8(%rax), %r14
	movups	16(%rax), %xmm0
	movaps	%xmm0, 64(%rsp)
	jmp	.LBB63_115
.LBB63_114:
	xorps	%xmm0, %xmm0
	movaps	%xmm0, 64(%rsp)
	xorl	%r14d, %r14d
.LBB63_115:
	movaps	64(%rsp), %xmm0
	movaps	%xmm0, 368(%rsp)
	movaps	%xmm0, 336(%rsp)
	movb	$1, %al
	jmp	.LBB63_3
.LBB63_116:
	movq	%r8, %rbx
	callq	core__atomic__block____553c7e4ebf26217f_
	movq	%rbx, %r8
	movq	32(%rsp), %r11
	movq	40(%rsp), %r10
	movl	16(%rsp), %r9d
	movq	24(%rsp), %rdi
	cmpb	$0, .Lstatic.0(%rip)
	je	.LBB63_6
	jmp	.LBB63_222
.LBB63_117:
	movq	$1, 8(%rcx)
	movq	%rsi, 16(%rcx)
	movq	%rax, 24(%rcx)
	movq	%rdx, 32(%rcx)
	movq	48(%rsp), %r8
	movq	56(%rsp), %rax
	movzbl	15(%rsp), %r14d
	jmp	.LBB63_32
.LBB63_118:
	leaq	64(%r12), %rdi
	movl	%r9d, %esi
	movq	%r8, 48(%rsp)
	callq	ww_invariant__slots_out__turn_to
	movq	48(%rsp), %r8
	movq	32(%rsp), %r11
	movq	40(%rsp), %r10
	movl	16(%rsp), %r9d
	movq	24(%rsp), %rdi
	movq	8(%r13), %rax
	cmpb	$0, (%rax,%r11)
	je	.LBB63_28
	jmp	.LBB63_222
.LBB63_119:
	leaq	64(%r12), %rdi
	movl	%r9d, %esi
	movq	%r8, 48(%rsp)
	callq	ww_invariant__slots_out__turn_to
	movq	48(%rsp), %r8
	movq	32(%rsp), %r11
	movq	40(%rsp), %r10
	movl	16(%rsp), %r9d
	movq	24(%rsp), %rdi
	movq	8(%r13), %rax
	cmpb	$0, (%rax,%r11)
	je	.LBB63_45
	jmp	.LBB63_222
.LBB63_120:
	leaq	64(%r12), %rdi
	callq	ww_invariant__slots_out__turn_to
	movq	32(%rsp), %rcx
	movq	40(%rsp), %rdx
	movq	8(%r13), %rax
	cmpb	$0, (%rax,%rcx)
	je	.LBB63_100
	jmp	.LBB63_222
.LBB63_121:
	leaq	64(%r12), %rdi
	movl	%r9d, %esi
	movq	%r8, %r14
	callq	ww_invariant__slots_out__turn_to
	movq	%r14, %r8
	movq	32(%rsp), %r11
	movl	16(%rsp), %r9d
	movq	24(%rsp), %rdi
	jmp	.LBB63_108
.LBB63_122:
	testq	%rdx, %rdx
	js	.LBB63_222
	leaq	23(%rsp), %r10
	xorl	%edi, %edi
	movq	%r10, %r9
	movq	32(%rsp), %r11
	jmp	.LBB63_186
.LBB63_124:
	movzwl	%bx, %ecx
	movq	%rbp, %rdx
	shlq	$15, %rdx
	leaq	(%rdx,%rcx,8), %rax
	addq	$6, %rax
	leaq	(%rdx,%rcx,8), %rdx
	addq	$4, %rdx
.LBB63_125:
	cmpl	$65, 68(%r13)
	setb	%cl
	addb	%cl, %cl
	incb	%cl
	movq	%rdi, %rsi
	shlq	%cl, %rsi
	movq	(%r13), %rcx
	#APP
	#NO_APP
	lock		cmpxchgq	%rdx, 128(%rcx,%rsi,8)
	#APP
	#NO_APP
	movb	$3, %r14b
	movl	%r15d, %esi
	jne	.LBB63_129
.LBB63_126:
	movb	%sil, 15(%rsp)
	movq	%r8, 48(%rsp)
	movw	$1, 128(%rsp)
	movw	%bx, 130(%rsp)
	movq	%rbp, 136(%rsp)
	movb	%r14b, 144(%rsp)
	leaq	128(%rsp), %rcx
	leaq	192(%rsp), %r8
	movq	%r12, %rdi
	movl	%r14d, %r15d
	movq	%r13, %rsi
	movl	%r10d, %edx
	movq	%r10, %r14
	callq	ww_seat__signs__sign_all
	xorps	%xmm0, %xmm0
	movaps	%xmm0, 64(%rsp)
	movq	$0, 80(%rsp)
	movw	$1, 64(%rsp)
	movw	%bx, 66(%rsp)
	movq	%rbp, 72(%rsp)
	movb	%r15b, 80(%rsp)
	cmpb	$1, (%r12)
	jne	.LBB63_130
	movq	$0, 56(%rsp)
	leaq	64(%rsp), %rcx
	movq	%r12, %rdi
	movq	%r13, %rsi
	movl	%r14d, %edx
	xorl	%r8d, %r8d
	callq	ww_table__seat__Stepper__must_die
	testb	%al, %al
	movq	24(%rsp), %rdi
	movl	16(%rsp), %r9d
	movq	32(%rsp), %r11
	movq	48(%rsp), %r8
	je	.LBB63_141
	movq	%rdx, %r14
	jmp	.LBB63_133
.LBB63_129:
	movaps	272(%rsp), %xmm0
	movaps	%xmm0, 208(%rsp)
	xorl	%ebp, %ebp
	xorl	%r14d, %r14d
	xorl	%eax, %eax
	jmp	.LBB63_166
.LBB63_130:
	leaq	64(%rsp), %rcx
	movl	$1, %r8d
	movq	%r12, %rdi
	movq	%r13, %rsi
	movl	%r14d, %edx
	callq	ww_table__seat__Stepper__must_die
	cmpb	$1, %al
	jne	.LBB63_140
	movq	24(%r12), %rax
	movq	(%r13), %rcx
	#APP
	#NO_APP
	movq	(%rcx,%rax,8), %r14
	#APP
	#NO_APP
	testq	%r14, %r14
	movq	24(%rsp), %rdi
	movl	16(%rsp), %r9d
	movq	32(%rsp), %r11
	movq	48(%rsp), %r8
	je	.LBB63_141
	movzwl	130(%rsp), %ebx
	movq	136(%rsp), %rbp
	movzbl	144(%rsp), %r15d
	cmpb	$0, 128(%rsp)
	sete	%al
	movq	%rax, 56(%rsp)
.LBB63_133:
	xorps	%xmm0, %xmm0
	movaps	%xmm0, 96(%rsp)
	movq	$0, 112(%rsp)
	movaps	%xmm0, 64(%rsp)
	movaps	%xmm0, 80(%rsp)
	movaps	%xmm0, 160(%rsp)
	movaps	%xmm0, 176(%rsp)
	movq	328(%r12), %rax
	cmpl	%r9d, 60(%r12,%rax,4)
	movq	40(%rsp), %r10
	jne	.LBB63_177
	movq	8(%r13), %rax
	cmpb	$0, (%rax,%r11)
	jne	.LBB63_222
.LBB63_135:
	cmpb	$0, 8(%rax,%r11)
	je	.LBB63_149
	movq	32(%rax,%r11), %rdx
	xorl	%ecx, %ecx
	testq	%rdx, %rdx
	je	.LBB63_138
	movzwl	2(%r12), %esi
	movq	16(%rax,%r11), %rax
	cmpw	%si, 16(%rax)
	movzbl	%r15b, %eax
	cmovnel	%eax, %ecx
	cmpq	$1, %rdx
	cmovnel	%eax, %ecx
.LBB63_138:
	cmpb	$0, 56(%rsp)
	je	.LBB63_150
.LBB63_139:
	movzbl	%r15b, %eax
	movzbl	%cl, %edx
	jmp	.LBB63_153
.LBB63_140:
	movq	24(%rsp), %rdi
	movl	16(%rsp), %r9d
	movq	32(%rsp), %r11
	movq	48(%rsp), %r8
.LBB63_141:
	cmpb	$0, (%r12)
	je	.LBB63_145
	cmpq	$0, 32(%r12)
	je	.LBB63_145
	movq	24(%r12), %rax
	movq	(%r13), %rcx
	#APP
	#NO_APP
	movq	(%rcx,%rax,8), %rax
	#APP
	#NO_APP
	testq	%rax, %rax
	je	.LBB63_145
	movq	24(%r12), %rax
	movq	(%r13), %rcx
	#APP
	#NO_APP
	xorl	%edx, %edx
	xchgq	%rdx, (%rcx,%rax,8)
	#APP
	#NO_APP
.LBB63_145:
	movq	328(%r12), %rax
	cmpl	%r9d, 60(%r12,%rax,4)
	movq	40(%rsp), %r10
	movzbl	15(%rsp), %esi
	jne	.LBB63_176
.LBB63_146:
	cmpl	$65, 68(%r13)
	setb	%cl
	addb	%cl, %cl
	incb	%cl
	movq	%rdi, %rax
	shlq	%cl, %rax
	movq	(%r13), %rcx
	#APP
	#NO_APP
	xorl	%edx, %edx
	xchgq	%rdx, 136(%rcx,%rax,8)
	#APP
	#NO_APP
	movq	328(%r12), %rax
	testq	%rax, %rax
	je	.LBB63_148
	leaq	-1(%rax), %rcx
	movq	%rcx, 328(%r12)
	movl	$0, 60(%r12,%rax,4)
.LBB63_148:
	movaps	400(%rsp), %xmm0
	movaps	%xmm0, 256(%rsp)
	movw	$3, %bp
	xorl	%r14d, %r14d
	jmp	.LBB63_164
.LBB63_149:
	xorl	%ecx, %ecx
	cmpb	$0, 56(%rsp)
	jne	.LBB63_139
.LBB63_150:
	cmpw	$16, %bx
	jae	.LBB63_152
	movzbl	%r15b, %eax
	andl	$8191, %ebx
	shlq	$8, %rbp
	orq	%rbp, %rax
	leaq	(%rax,%rbx,8), %rax
	addq	$8, %rax
	movzbl	%cl, %ecx
	leaq	8(,%rbx,8), %rdx
	addq	%rbp, %rdx
	addq	%rcx, %rdx
	jmp	.LBB63_153
.LBB63_152:
	movb	$7, %dl
	movb	$7, %al
	subb	%r15b, %al
	movzbl	%al, %eax
	movzwl	%bx, %esi
	shlq	$15, %rbp
	leaq	(,%rsi,8), %rsi
	addq	%rbp, %rsi
	addq	%rsi, %rax
	subb	%cl, %dl
	movzbl	%dl, %edx
	addq	%rsi, %rdx
.LBB63_153:
	cmpl	$65, 68(%r13)
	setb	%cl
	addb	%cl, %cl
	incb	%cl
	movq	%rdi, %rsi
	shlq	%cl, %rsi
	movq	(%r13), %rcx
	#APP
	#NO_APP
	lock		cmpxchgq	%rdx, 128(%rcx,%rsi,8)
	#APP
	#NO_APP
	jne	.LBB63_165
	movzbl	360(%r12), %eax
	leaq	368(%r12), %r15
	movq	16(%r15), %rcx
	movq	%rcx, 112(%rsp)
	movups	(%r15), %xmm0
	movaps	%xmm0, 96(%rsp)
	xorps	%xmm0, %xmm0
	leaq	360(%r12), %rcx
	movups	%xmm0, 16(%rcx)
	movups	%xmm0, (%rcx)
	movzwl	2(%r12), %ecx
	movq	%rax, 160(%rsp)
	movq	112(%rsp), %rax
	leaq	168(%rsp), %rdx
	movq	%rax, 16(%rdx)
	movaps	96(%rsp), %xmm0
	movups	%xmm0, (%rdx)
	movq	8(%r13), %rsi
	leaq	64(%rsp), %rdi
	leaq	160(%rsp), %r8
	movl	%r9d, %edx
	callq	ww_invariant__lists__leave_list
	movzbl	360(%r12), %eax
	movq	368(%r12), %rdi
	movq	384(%r12), %rbx
	movzbl	64(%rsp), %ecx
	movq	%rcx, 360(%r12)
	leaq	72(%rsp), %rdx
	movq	16(%rdx), %rcx
	movq	%rcx, 16(%r15)
	movups	(%rdx), %xmm0
	movups	%xmm0, (%r15)
	cmpb	$1, %al
	setne	%al
	testq	%rbx, %rbx
	sete	%cl
	orb	%al, %cl
	jne	.LBB63_156
	.p2align	4
.LBB63_155:
	movq	(%rdi), %r15
	callq	rattle_dealloc@PLT
	movq	%r15, %rdi
	decq	%rbx
	jne	.LBB63_155
.LBB63_156:
	cmpb	$0, (%r12)
	je	.LBB63_160
	cmpq	$0, 32(%r12)
	je	.LBB63_160
	movq	24(%r12), %rax
	movq	(%r13), %rcx
	#APP
	#NO_APP
	movq	(%rcx,%rax,8), %rax
	#APP
	#NO_APP
	testq	%rax, %rax
	je	.LBB63_160
	movq	24(%r12), %rax
	movq	(%r13), %rcx
	#APP
	#NO_APP
	xorl	%edx, %edx
	xchgq	%rdx, (%rcx,%rax,8)
	#APP
	#NO_APP
.LBB63_160:
	movq	328(%r12), %rax
	movl	16(%rsp), %r9d
	cmpl	%r9d, 60(%r12,%rax,4)
	movq	24(%rsp), %rdi
	movq	40(%rsp), %r10
	movq	32(%rsp), %r11
	movq	48(%rsp), %r8
	movzbl	15(%rsp), %esi
	jne	.LBB63_193
.LBB63_161:
	cmpl	$65, 68(%r13)
	setb	%cl
	addb	%cl, %cl
	incb	%cl
	movq	%rdi, %rax
	shlq	%cl, %rax
	movq	(%r13), %rcx
	#APP
	#NO_APP
	xorl	%edx, %edx
	xchgq	%rdx, 136(%rcx,%rax,8)
	#APP
	#NO_APP
	movq	328(%r12), %rax
	testq	%rax, %rax
	je	.LBB63_163
	leaq	-1(%rax), %rcx
	movq	%rcx, 328(%r12)
	movl	$0, 60(%r12,%rax,4)
.LBB63_163:
	movaps	384(%rsp), %xmm0
	movaps	%xmm0, 256(%rsp)
	movw	$1, %bp
.LBB63_164:
	movaps	256(%rsp), %xmm0
	movaps	%xmm0, 208(%rsp)
	movb	$1, %al
	jmp	.LBB63_166
.LBB63_165:
	movaps	272(%rsp), %xmm0
	movaps	%xmm0, 208(%rsp)
	xorl	%ebp, %ebp
	xorl	%r14d, %r14d
	xorl	%eax, %eax
	movzbl	15(%rsp), %esi
	.p2align	4
.LBB63_166:
	incb	%sil
	movaps	208(%rsp), %xmm0
	movaps	%xmm0, 224(%rsp)
	movl	%esi, %ecx
	movq	%rcx, 56(%rsp)
	jmp	.LBB63_4
.LBB63_167:
	leaq	23(%rsp), %r10
	movq	%r10, %r9
	cmpq	%r8, %r11
	je	.LBB63_182
	movq	24(%rcx), %r9
	leaq	-1(%r11), %r10
	movq	%r10, 32(%rcx)
	movq	8(%r9), %r10
	movq	%r10, 24(%rcx)
	movq	%r9, (%r9)
	movq	%r9, 8(%r9)
	cmpq	$2, %rdi
	jb	.LBB63_181
	leaq	-2(%r11), %r14
	movq	%r9, %r10
	cmpq	%r8, %r14
	je	.LBB63_173
	notq	%r8
	addq	%r8, %r11
	movq	%r11, %r8
	andq	$-2, %r8
	movq	%r9, %r10
	.p2align	4
.LBB63_171:
	movq	24(%rcx), %r14
	decq	32(%rcx)
	movq	8(%r14), %r15
	movq	%r15, 24(%rcx)
	movq	%r10, (%r14)
	movq	%r14, 8(%r14)
	movq	%r14, 8(%r10)
	movq	24(%rcx), %r10
	decq	32(%rcx)
	movq	8(%r10), %r15
	movq	%r15, 24(%rcx)
	movq	%r14, (%r10)
	movq	%r10, 8(%r10)
	movq	%r10, 8(%r14)
	addq	$-2, %r8
	jne	.LBB63_171
	testb	$1, %r11b
	je	.LBB63_182
.LBB63_173:
	movq	24(%rcx), %r8
	decq	32(%rcx)
	movq	8(%r8), %r11
	movq	%r11, 24(%rcx)
	movq	%r10, (%r8)
	movq	%r8, 8(%r8)
	movq	%r8, 8(%r10)
	movq	%r8, %r10
	jmp	.LBB63_182
.LBB63_174:
	leaq	64(%r12), %rdi
	movl	%r10d, %esi
	movq	%r8, %r14
	callq	ww_invariant__slots_out__turn_to
	movq	%r14, %r8
	movq	32(%rsp), %r11
	movq	40(%rsp), %r10
	movl	16(%rsp), %r9d
	movq	24(%rsp), %rdi
	movq	8(%r13), %rax
	cmpb	$1, (%rax,%rbx)
	je	.LBB63_113
	jmp	.LBB63_222
.LBB63_175:
	leaq	64(%r12), %rdi
	movl	%esi, %r15d
	movl	%r9d, %esi
	movq	%r8, %r14
	callq	ww_invariant__slots_out__turn_to
	movl	%r15d, %esi
	movq	%r14, %r8
	movq	32(%rsp), %r11
	movq	40(%rsp), %r10
	movl	16(%rsp), %r9d
	movq	24(%rsp), %rdi
	movq	8(%r13), %rax
	cmpb	$0, (%rax,%r11)
	je	.LBB63_38
	jmp	.LBB63_222
.LBB63_176:
	leaq	64(%r12), %rdi
	movl	%r9d, %esi
	callq	ww_invariant__slots_out__turn_to
	movzbl	15(%rsp), %esi
	movq	48(%rsp), %r8
	movq	32(%rsp), %r11
	movq	40(%rsp), %r10
	movl	16(%rsp), %r9d
	movq	24(%rsp), %rdi
	jmp	.LBB63_146
.LBB63_177:
	leaq	64(%r12), %rdi
	movl	%r9d, %esi
	callq	ww_invariant__slots_out__turn_to
	movq	48(%rsp), %r8
	movq	32(%rsp), %r11
	movq	40(%rsp), %r10
	movl	16(%rsp), %r9d
	movq	24(%rsp), %rdi
	movq	8(%r13), %rax
	cmpb	$0, (%rax,%r11)
	je	.LBB63_135
	jmp	.LBB63_222
.LBB63_178:
	leaq	23(%rsp), %rdi
	movq	%rdi, %r14
.LBB63_179:
	movq	16(%rcx), %r10
	movq	24(%rcx), %r9
	movq	%rdi, 16(%rcx)
	movq	%r14, 24(%rcx)
	movq	%r8, 32(%rcx)
	movq	%r11, %rdi
	jmp	.LBB63_183
.LBB63_180:
	leaq	64(%r12), %rdi
	movl	%r9d, %esi
	callq	ww_invariant__slots_out__turn_to
	movq	32(%rsp), %r11
	movq	40(%rsp), %r10
	movl	16(%rsp), %r9d
	movq	24(%rsp), %rdi
	jmp	.LBB63_75
.LBB63_181:
	movq	%r9, %r10
.LBB63_182:
	movq	32(%rcx), %r8
.LBB63_183:
	movq	%r8, %r11
	addq	%rdx, %r11
	js	.LBB63_222
	testq	%r8, %r8
	movq	32(%rsp), %r11
	je	.LBB63_186
	movq	24(%rcx), %r8
	movq	%rsi, (%r8)
	movq	%r8, 8(%rsi)
	movq	%rax, 24(%rcx)
	addq	32(%rcx), %rdx
	movq	%rdx, 32(%rcx)
	movq	48(%rsp), %r8
	jmp	.LBB63_187
.LBB63_186:
	movq	48(%rsp), %r8
	movq	%rsi, 16(%rcx)
	movq	%rax, 24(%rcx)
	movq	%rdx, 32(%rcx)
.LBB63_187:
	movq	%rdx, %rsi
	addq	%rdi, %rsi
	js	.LBB63_222
	testq	%rdi, %rdi
	movzbl	15(%rsp), %r14d
	je	.LBB63_192
	testq	%rdx, %rdx
	je	.LBB63_191
	movq	%r10, (%rax)
	movq	%rax, 8(%r10)
	movq	%r9, 24(%rcx)
	addq	%rdi, 32(%rcx)
	jmp	.LBB63_192
.LBB63_191:
	movq	%r10, 16(%rcx)
	movq	%r9, 24(%rcx)
	movq	%rdi, 32(%rcx)
.LBB63_192:
	movq	24(%rsp), %rdi
	movl	16(%rsp), %r9d
	movq	40(%rsp), %r10
	movq	56(%rsp), %rax
	jmp	.LBB63_32
.LBB63_193:
	leaq	64(%r12), %rdi
	movl	%r9d, %esi
	callq	ww_invariant__slots_out__turn_to
	movzbl	15(%rsp), %esi
	movq	48(%rsp), %r8
	movq	32(%rsp), %r11
	movq	40(%rsp), %r10
	movl	16(%rsp), %r9d
	movq	24(%rsp), %rdi
	jmp	.LBB63_161
.LBB63_194:
	xorl	%r15d, %r15d
.LBB63_195:
	movq	488(%rsp), %r13
	movaps	240(%rsp), %xmm0
	movaps	%xmm0, 320(%rsp)
	cmpb	$0, .Lstatic.0(%rip)
	jne	.LBB63_222
	movq	192(%rsp), %r12
	xorl	%ebx, %ebx
	jmp	.LBB63_198
	.p2align	4
.LBB63_197:
	incq	%rbx
	cmpq	$64, %rbx
	je	.LBB63_200
.LBB63_198:
	btq	%rbx, %r12
	jae	.LBB63_197
	movl	%ebx, %edi
	movq	480(%rsp), %rsi
	movq	%r13, %rdx
	callq	ww_seat__wake__wake_seat
	jmp	.LBB63_197
.LBB63_200:
	movq	296(%rsp), %rax
	movw	%bp, (%rax)
	movw	%r15w, 2(%rax)
	movq	%r14, 8(%rax)
	movaps	320(%rsp), %xmm0
	movups	%xmm0, 16(%rax)
	addq	$424, %rsp
	popq	%rbx
	popq	%r12
	popq	%r13
	popq	%r14
	popq	%r15
	popq	%rbp
	retq
.LBB63_201:
	xorps	%xmm0, %xmm0
	movaps	%xmm0, 96(%rsp)
	movq	$0, 112(%rsp)
	movaps	%xmm0, 64(%rsp)
	movaps	%xmm0, 80(%rsp)
	movaps	%xmm0, 160(%rsp)
	movaps	%xmm0, 176(%rsp)
	movq	328(%r12), %rax
	cmpl	%r9d, 60(%r12,%rax,4)
	jne	.LBB63_221
	movq	8(%r13), %rax
	cmpb	$0, (%rax,%r11)
	jne	.LBB63_222
.LBB63_203:
	cmpb	$0, 8(%rax,%r11)
	je	.LBB63_208
	movq	32(%rax,%r11), %rdx
	xorl	%ecx, %ecx
	testq	%rdx, %rdx
	je	.LBB63_206
	movzwl	2(%r12), %esi
	movq	16(%rax,%r11), %rax
	cmpw	%si, 16(%rax)
	movzbl	%r14b, %eax
	cmovnel	%eax, %ecx
	cmpq	$1, %rdx
	cmovnel	%eax, %ecx
.LBB63_206:
	cmpw	$15, %bx
	ja	.LBB63_209
.LBB63_207:
	movzbl	%r14b, %eax
	movswl	%bx, %edx
	leal	8(,%rdx,8), %edx
	movzwl	%dx, %edx
	shlq	$8, %rbp
	orq	%rdx, %rbp
	orq	%rbp, %rax
	movzbl	%cl, %edx
	orq	%rbp, %rdx
	jmp	.LBB63_210
.LBB63_208:
	xorl	%ecx, %ecx
	cmpw	$15, %bx
	jbe	.LBB63_207
.LBB63_209:
	xorb	$7, %r14b
	movzbl	%r14b, %eax
	movzwl	%bx, %edx
	shlq	$15, %rbp
	leaq	(,%rdx,8), %rsi
	addq	%rbp, %rsi
	orq	%rsi, %rax
	xorb	$7, %cl
	movzbl	%cl, %edx
	orq	%rsi, %rdx
.LBB63_210:
	cmpl	$65, 68(%r13)
	setb	%cl
	addb	%cl, %cl
	incb	%cl
	movq	%rdi, %rsi
	shlq	%cl, %rsi
	movq	(%r13), %rcx
	#APP
	#NO_APP
	lock		cmpxchgq	%rdx, 128(%rcx,%rsi,8)
	#APP
	#NO_APP
	jne	.LBB63_213
	movzbl	360(%r12), %eax
	leaq	368(%r12), %r14
	movq	16(%r14), %rcx
	movq	%rcx, 112(%rsp)
	movups	(%r14), %xmm0
	movaps	%xmm0, 96(%rsp)
	xorps	%xmm0, %xmm0
	leaq	360(%r12), %rcx
	movups	%xmm0, 16(%rcx)
	movups	%xmm0, (%rcx)
	movzwl	2(%r12), %ecx
	movq	%rax, 160(%rsp)
	movaps	96(%rsp), %xmm0
	movups	%xmm0, 168(%rsp)
	movq	112(%rsp), %rax
	movq	%rax, 184(%rsp)
	movq	8(%r13), %rsi
	leaq	64(%rsp), %rdi
	leaq	160(%rsp), %r8
	movl	16(%rsp), %edx
	callq	ww_invariant__lists__leave_list
	movzbl	360(%r12), %eax
	movq	368(%r12), %rdi
	movq	384(%r12), %rbx
	movzbl	64(%rsp), %ecx
	movq	%rcx, 360(%r12)
	movq	88(%rsp), %rcx
	movq	%rcx, 16(%r14)
	movups	72(%rsp), %xmm0
	movups	%xmm0, (%r14)
	cmpb	$1, %al
	setne	%al
	testq	%rbx, %rbx
	sete	%cl
	orb	%al, %cl
	jne	.LBB63_213
	.p2align	4
.LBB63_212:
	movq	(%rdi), %r14
	callq	rattle_dealloc@PLT
	movq	%r14, %rdi
	decq	%rbx
	jne	.LBB63_212
.LBB63_213:
	cmpb	$0, (%r12)
	je	.LBB63_217
	cmpq	$0, 32(%r12)
	je	.LBB63_217
	movq	24(%r12), %rax
	movq	(%r13), %rcx
	#APP
	#NO_APP
	movq	(%rcx,%rax,8), %rax
	#APP
	#NO_APP
	testq	%rax, %rax
	je	.LBB63_217
	movq	24(%r12), %rax
	movq	(%r13), %rcx
	#APP
	#NO_APP
	xorl	%edx, %edx
	xchgq	%rdx, (%rcx,%rax,8)
	#APP
	#NO_APP
.LBB63_217:
	movq	328(%r12), %rax
	movl	16(%rsp), %esi
	cmpl	%esi, 60(%r12,%rax,4)
	movq	24(%rsp), %rdx
	jne	.LBB63_223
.LBB63_218:
	cmpl	$65, 68(%r13)
	setb	%cl
	addb	%cl, %cl
	incb	%cl
	shlq	%cl, %rdx
	movq	(%r13), %rax
	#APP
	#NO_APP
	xorl	%ecx, %ecx
	xchgq	%rcx, 136(%rax,%rdx,8)
	#APP
	#NO_APP
	movq	328(%r12), %rax
	testq	%rax, %rax
	je	.LBB63_220
	leaq	-1(%rax), %rcx
	movq	%rcx, 328(%r12)
	movl	$0, 60(%r12,%rax,4)
.LBB63_220:
	decl	%r15d
	movaps	352(%rsp), %xmm0
	movaps	%xmm0, 240(%rsp)
	movw	$2, %bp
	xorl	%r14d, %r14d
	jmp	.LBB63_195
.LBB63_221:
	leaq	64(%r12), %rdi
	movl	%r9d, %esi
	callq	ww_invariant__slots_out__turn_to
	movq	32(%rsp), %r11
	movq	24(%rsp), %rdi
	movq	8(%r13), %rax
	cmpb	$0, (%rax,%r11)
	je	.LBB63_203
.LBB63_222:
	ud2
.LBB63_223:
	leaq	64(%r12), %rdi
	callq	ww_invariant__slots_out__turn_to
	movq	24(%rsp), %rdx
	jmp	.LBB63_218
.Lfunc_end63:
	.size	ww_seat__seats__Seat__visit____553c7e4ebf26217f_, .Lfunc_end63-ww_seat__seats__Seat__visit____553c7e4ebf26217f_

	.section	.text.unlikely.ww_seat__seats__Seat__spin_into_wanted____553c7e4ebf26217f_,"ax",@progbits
	.p2align	4
	.type	ww_seat__seats__Seat__spin_into_wanted____553c7e4ebf26217f_,@function
ww_seat__seats__Seat__spin_into_wanted____553c7e4ebf26217f_:
	pushq	%rbp
	pushq	%r15
	pushq	%r14
	pushq	%r13
	pushq	%r12
	pushq	%rbx
	pushq	%rax
	movl	%edx, %ebp
	movq	%rsi, %r14
	movq	%rdi, %rbx
	movl	%edx, %r12d
	movq	$-1, %r13
	xorl	%r15d, %r15d
	jmp	.LBB64_1
	.p2align	4
.LBB64_12:
	incl	%r15d
.LBB64_13:
	cmpb	$0, .Lstatic.0(%rip)
	jne	.LBB64_14
.LBB64_1:
	subq	$1, %r13
	jb	.LBB64_2
.LBB64_3:
	cmpb	$0, .Lstatic.0(%rip)
	jne	.LBB64_14
	movq	(%r14), %rdx
	movzwl	2(%rbx), %esi
	incq	%rsi
	cmpl	$65, 68(%r14)
	setb	%cl
	addb	%cl, %cl
	incb	%cl
	movq	%r12, %rdi
	shlq	%cl, %rdi
	#APP
	#NO_APP
	xorl	%eax, %eax
	lock		cmpxchgq	%rsi, 136(%rdx,%rdi,8)
	#APP
	#NO_APP
	je	.LBB64_15
	cmpl	$6, %r15d
	ja	.LBB64_8
	movl	$1, %eax
	.p2align	4
.LBB64_7:
	pause
	movl	%eax, %edx
	movl	%r15d, %ecx
	shrl	%cl, %edx
	incl	%eax
	testl	%edx, %edx
	je	.LBB64_7
	jmp	.LBB64_12
	.p2align	4
.LBB64_8:
	callq	sched_yield@PLT
	cmpb	$0, .Lstatic.0(%rip)
	jne	.LBB64_14
	cmpb	$0, .Lstatic.0(%rip)
	jne	.LBB64_14
	cmpb	$0, .Lstatic.0(%rip)
	jne	.LBB64_14
	cmpl	$10, %r15d
	jbe	.LBB64_12
	jmp	.LBB64_13
.LBB64_2:
	callq	core__atomic__block____553c7e4ebf26217f_
	cmpb	$0, .Lstatic.0(%rip)
	je	.LBB64_3
.LBB64_14:
	ud2
.LBB64_15:
	addl	$64, %ebp
	movq	328(%rbx), %rax
	movl	%ebp, 64(%rbx,%rax,4)
	incq	%rax
	movq	%rax, 328(%rbx)
	addq	$8, %rsp
	popq	%rbx
	popq	%r12
	popq	%r13
	popq	%r14
	popq	%r15
	popq	%rbp
	retq
.Lfunc_end64:
	.size	ww_seat__seats__Seat__spin_into_wanted____553c7e4ebf26217f_, .Lfunc_end64-ww_seat__seats__Seat__spin_into_wanted____553c7e4ebf26217f_

	.section	.text.unlikely.ww_invariant__slots_out__turn_to,"ax",@progbits
	.p2align	4
	.type	ww_invariant__slots_out__turn_to,@function
ww_invariant__slots_out__turn_to:
	movq	264(%rdi), %rax
	testq	%rax, %rax
	je	.LBB65_13
	movl	-4(%rdi,%rax,4), %r9d
	cmpl	%esi, %r9d
	je	.LBB65_13
	xorl	%ecx, %ecx
	movq	%rax, %rdx
	.p2align	4
.LBB65_4:
	testq	%rdx, %rdx
	je	.LBB65_12
	cmpq	$8, %rdx
	jae	.LBB65_7
	xorl	%r8d, %r8d
	jmp	.LBB65_11
	.p2align	4
.LBB65_7:
	movq	%rdx, %r8
	andq	$-8, %r8
	movd	%r9d, %xmm0
	pshufd	$0, %xmm0, %xmm0
	xorl	%r9d, %r9d
	.p2align	4
.LBB65_8:
	movdqa	%xmm0, %xmm1
	movups	(%rdi,%r9,4), %xmm2
	movups	16(%rdi,%r9,4), %xmm0
	shufps	$3, %xmm2, %xmm1
	shufps	$152, %xmm2, %xmm1
	shufps	$3, %xmm0, %xmm2
	shufps	$152, %xmm0, %xmm2
	movups	%xmm1, (%rdi,%r9,4)
	movups	%xmm2, 16(%rdi,%r9,4)
	addq	$8, %r9
	cmpq	%r9, %r8
	jne	.LBB65_8
	cmpq	%r8, %rdx
	je	.LBB65_12
	pshufd	$255, %xmm0, %xmm0
	movd	%xmm0, %r9d
	.p2align	4
.LBB65_11:
	movl	(%rdi,%r8,4), %r10d
	movl	%r9d, (%rdi,%r8,4)
	incq	%r8
	movl	%r10d, %r9d
	cmpq	%r8, %rdx
	jne	.LBB65_11
.LBB65_12:
	incq	%rcx
	cmpq	%rax, %rcx
	je	.LBB65_13
	movq	264(%rdi), %rdx
	movl	-4(%rdi,%rdx,4), %r9d
	cmpl	%esi, %r9d
	jne	.LBB65_4
.LBB65_13:
	retq
.Lfunc_end65:
	.size	ww_invariant__slots_out__turn_to, .Lfunc_end65-ww_invariant__slots_out__turn_to

	.section	.text.ww_invariant__lists__leave_list,"ax",@progbits
	.p2align	4
	.type	ww_invariant__lists__leave_list,@function
ww_invariant__lists__leave_list:
	pushq	%rbp
	pushq	%r15
	pushq	%r14
	pushq	%r13
	pushq	%r12
	pushq	%rbx
	pushq	%rax
	movl	%edx, %edx
	leaq	(%rdx,%rdx,4), %rdx
	cmpb	$0, (%rsi,%rdx,8)
	jne	.LBB66_35
	movq	%rdi, %rax
	movzbl	(%r8), %ebx
	movq	8(%r8), %rdi
	movq	16(%r8), %r12
	movq	24(%r8), %r14
	leaq	(%rsi,%rdx,8), %rsi
	cmpb	$0, 8(%rsi)
	je	.LBB66_44
	leaq	8(%rsi), %rdx
	movq	32(%rsi), %r10
	testq	%r10, %r10
	je	.LBB66_45
	leaq	16(%rsi), %r9
	xorl	%r8d, %r8d
	.p2align	4
.LBB66_4:
	movq	(%r9), %r9
	cmpw	%cx, 16(%r9)
	je	.LBB66_6
	incq	%r8
	cmpq	%r8, %r10
	jne	.LBB66_4
	jmp	.LBB66_44
.LBB66_45:
	xorps	%xmm0, %xmm0
	movups	%xmm0, 16(%rdx)
	movups	%xmm0, (%rdx)
	jmp	.LBB66_44
.LBB66_6:
	movq	%r10, %rcx
	subq	%r8, %rcx
	jbe	.LBB66_44
	cmpq	%rcx, %r8
	jae	.LBB66_18
	testq	%r8, %r8
	je	.LBB66_9
	movq	16(%rsi), %rcx
	decq	%r10
	movq	%r10, 32(%rsi)
	movq	(%rcx), %r9
	movq	%r9, 16(%rsi)
	movq	%rcx, (%rcx)
	movq	%rcx, 8(%rcx)
	movq	%rcx, %r11
	cmpq	$1, %r8
	je	.LBB66_16
	movq	%rcx, %r11
	cmpq	$2, %r8
	je	.LBB66_15
	leaq	-1(%r8), %r9
	movq	%r9, %r10
	andq	$-2, %r10
	movq	%rcx, %r11
	.p2align	4
.LBB66_13:
	movq	16(%rsi), %r15
	decq	32(%rsi)
	movq	(%r15), %r12
	movq	%r12, 16(%rsi)
	movq	%r15, (%r15)
	movq	%r11, 8(%r15)
	movq	%r15, (%r11)
	movq	16(%rsi), %r11
	decq	32(%rsi)
	movq	(%r11), %r12
	movq	%r12, 16(%rsi)
	movq	%r11, (%r11)
	movq	%r15, 8(%r11)
	movq	%r11, (%r15)
	addq	$-2, %r10
	jne	.LBB66_13
	testb	$1, %r9b
	je	.LBB66_16
.LBB66_15:
	movq	16(%rsi), %r9
	decq	32(%rsi)
	movq	(%r9), %r10
	movq	%r10, 16(%rsi)
	movq	%r9, (%r9)
	movq	%r11, 8(%r9)
	movq	%r9, (%r11)
	movq	%r9, %r11
.LBB66_16:
	movq	32(%rsi), %r10
	jmp	.LBB66_17
.LBB66_18:
	movq	24(%rsi), %r9
	leaq	-1(%r10), %r11
	movq	%r11, 32(%rsi)
	movq	8(%r9), %r11
	movq	%r11, 24(%rsi)
	movq	%r9, (%r9)
	movq	%r9, 8(%r9)
	cmpq	$2, %rcx
	jb	.LBB66_19
	leaq	-2(%r10), %r11
	movq	%r9, %r15
	cmpq	%r8, %r11
	je	.LBB66_24
	notq	%r8
	addq	%r10, %r8
	movq	%r8, %r10
	andq	$-2, %r10
	movq	%r9, %r15
	.p2align	4
.LBB66_22:
	movq	24(%rsi), %r11
	decq	32(%rsi)
	movq	8(%r11), %r12
	movq	%r12, 24(%rsi)
	movq	%r15, (%r11)
	movq	%r11, 8(%r11)
	movq	%r11, 8(%r15)
	movq	24(%rsi), %r15
	decq	32(%rsi)
	movq	8(%r15), %r12
	movq	%r12, 24(%rsi)
	movq	%r11, (%r15)
	movq	%r15, 8(%r15)
	movq	%r15, 8(%r11)
	addq	$-2, %r10
	jne	.LBB66_22
	testb	$1, %r8b
	je	.LBB66_25
.LBB66_24:
	movq	24(%rsi), %r8
	decq	32(%rsi)
	movq	8(%r8), %r10
	movq	%r10, 24(%rsi)
	movq	%r15, (%r8)
	movq	%r8, 8(%r8)
	movq	%r8, 8(%r15)
	movq	%r8, %r15
	jmp	.LBB66_25
.LBB66_19:
	leaq	7(%rsp), %r11
	xorl	%ecx, %ecx
	movq	%r9, %r15
	jmp	.LBB66_29
.LBB66_9:
	leaq	7(%rsp), %rcx
	movq	%rcx, %r11
.LBB66_17:
	movq	16(%rsi), %r15
	movq	24(%rsi), %r9
	movq	%rcx, 16(%rsi)
	movq	%r11, 24(%rsi)
	movq	%r8, 32(%rsi)
	movq	%r10, %rcx
.LBB66_25:
	leaq	-3(%rcx), %r8
	cmpq	$-3, %r8
	ja	.LBB66_27
	decq	%rcx
	movq	(%r15), %r11
	movq	%r15, (%r15)
	movq	%r15, 8(%r15)
	movq	%r15, %r12
	movq	%r9, %r8
	jmp	.LBB66_30
.LBB66_27:
	cmpq	$1, %rcx
	jne	.LBB66_34
	leaq	7(%rsp), %r11
	xorl	%ecx, %ecx
.LBB66_29:
	movq	%r9, %r12
	movq	%r11, %r8
.LBB66_30:
	movq	32(%rsi), %r10
	movq	%r10, %r9
	addq	%rcx, %r9
	js	.LBB66_35
	movq	%r11, %r9
	testq	%rcx, %rcx
	jne	.LBB66_32
	jmp	.LBB66_37
.LBB66_34:
	movq	8(%r9), %r12
	movq	%r9, (%r9)
	movq	%r9, 8(%r9)
	movq	32(%rsi), %r10
	movl	$1, %ecx
	movq	%r10, %r8
	incq	%r8
	movq	%r9, %r8
	js	.LBB66_35
.LBB66_32:
	testq	%r10, %r10
	je	.LBB66_33
	movq	24(%rsi), %r10
	movq	%r9, (%r10)
	movq	%r10, 8(%r9)
	movq	%r8, 24(%rsi)
	addq	32(%rsi), %rcx
	movq	%rcx, 32(%rsi)
	movq	%rcx, %r10
.LBB66_37:
	testq	%r10, %r10
	jne	.LBB66_39
	xorps	%xmm0, %xmm0
	movups	%xmm0, 16(%rdx)
	movups	%xmm0, (%rdx)
	jmp	.LBB66_39
.LBB66_33:
	movq	%r9, 16(%rsi)
	movq	%r8, 24(%rsi)
	movq	%rcx, 32(%rsi)
.LBB66_39:
	cmpb	$1, %bl
	setne	%cl
	testq	%r14, %r14
	sete	%dl
	orb	%cl, %dl
	movb	$1, %bl
	je	.LBB66_41
	movq	%r15, %rdi
	movl	$1, %r14d
	jmp	.LBB66_44
.LBB66_41:
	movq	%rax, %r13
	.p2align	4
.LBB66_42:
	movq	(%rdi), %rbp
	callq	rattle_dealloc@PLT
	movq	%rbp, %rdi
	decq	%r14
	jne	.LBB66_42
	movq	%r15, %rdi
	movl	$1, %r14d
	movq	%r13, %rax
.LBB66_44:
	movzbl	%bl, %ecx
	movq	%rcx, (%rax)
	movq	%rdi, 8(%rax)
	movq	%r12, 16(%rax)
	movq	%r14, 24(%rax)
	addq	$8, %rsp
	popq	%rbx
	popq	%r12
	popq	%r13
	popq	%r14
	popq	%r15
	popq	%rbp
	retq
.LBB66_35:
	ud2
.Lfunc_end66:
	.size	ww_invariant__lists__leave_list, .Lfunc_end66-ww_invariant__lists__leave_list

	.section	.text.ww_seat__signs__sign_all,"ax",@progbits
	.p2align	4
	.type	ww_seat__signs__sign_all,@function
ww_seat__signs__sign_all:
	pushq	%rbp
	pushq	%r15
	pushq	%r14
	pushq	%r13
	pushq	%r12
	pushq	%rbx
	subq	$1096, %rsp
	movq	%r8, 64(%rsp)
	movl	%edx, %ebp
	movq	%rsi, %r13
	movq	%rdi, %r15
	movzbl	(%rcx), %r12d
	movzwl	2(%rcx), %eax
	movw	%ax, 18(%rsp)
	movq	8(%rcx), %rax
	movq	%rax, 48(%rsp)
	movzbl	16(%rcx), %ebx
	leaq	832(%rsp), %rdi
	xorl	%r14d, %r14d
	movl	$264, %edx
	xorl	%esi, %esi
	callq	memset@PLT
	movl	$0, 20(%rsp)
	movw	$0, 24(%rsp)
	xorps	%xmm0, %xmm0
	movaps	%xmm0, 320(%rsp)
	movaps	%xmm0, 336(%rsp)
	movaps	%xmm0, 352(%rsp)
	movaps	%xmm0, 368(%rsp)
	movaps	%xmm0, 384(%rsp)
	movaps	%xmm0, 400(%rsp)
	movaps	%xmm0, 416(%rsp)
	movaps	%xmm0, 432(%rsp)
	movaps	%xmm0, 448(%rsp)
	movaps	%xmm0, 464(%rsp)
	movaps	%xmm0, 480(%rsp)
	movaps	%xmm0, 496(%rsp)
	movaps	%xmm0, 512(%rsp)
	movaps	%xmm0, 528(%rsp)
	movaps	%xmm0, 544(%rsp)
	movl	%ebp, %eax
	addl	$64, %ebp
	movl	%ebp, 28(%rsp)
	shlq	$3, %rax
	leaq	(%rax,%rax,4), %rax
	addq	$2560, %rax
	movq	%rax, 72(%rsp)
	movb	%r12b, 11(%rsp)
	movl	%r12d, %eax
	xorb	$1, %al
	andb	$4, %bl
	orb	%al, %bl
	sete	10(%rsp)
	movq	%r13, 56(%rsp)
	jmp	.LBB67_1
	.p2align	4
.LBB67_53:
	cmpb	$0, 40(%rsp)
	je	.LBB67_54
.LBB67_1:
	movq	328(%r15), %rax
	movl	28(%rsp), %ecx
	cmpl	%ecx, 60(%r15,%rax,4)
	jne	.LBB67_2
	movq	8(%r13), %rcx
	movq	72(%rsp), %rdx
	cmpb	$0, (%rcx,%rdx)
	jne	.LBB67_55
.LBB67_4:
	movzwl	2(%r15), %ebp
	cmpb	$0, 8(%rcx,%rdx)
	je	.LBB67_5
	cmpb	$0, (%r15)
	je	.LBB67_7
	movq	16(%rcx,%rdx), %r13
	movq	32(%rcx,%rdx), %rbx
	leaq	568(%rsp), %rdi
	xorl	%r12d, %r12d
	movl	$264, %edx
	xorl	%esi, %esi
	callq	memset@PLT
	testq	%rbx, %rbx
	je	.LBB67_45
	movq	%rbx, %r10
	cmpb	$1, 11(%rsp)
	jne	.LBB67_20
	xorl	%r12d, %r12d
	xorl	%ecx, %ecx
	xorl	%eax, %eax
	xorl	%ebx, %ebx
	jmp	.LBB67_32
	.p2align	4
.LBB67_33:
	decq	%r14
	movq	24(%rdi), %rdx
.LBB67_44:
	testq	%rdx, %rdx
	setne	%sil
	testb	$1, %cl
	cmoveq	%rdx, %rax
	orb	%cl, %sil
	andb	$1, %sil
	incq	%rbx
	movl	%esi, %ecx
	cmpq	%rbx, %r10
	je	.LBB67_45
.LBB67_32:
	movq	%r13, %rdi
	movq	(%r13), %r13
	testq	%r14, %r14
	jne	.LBB67_33
	movzwl	16(%rdi), %esi
	movq	24(%rdi), %rdx
	cmpw	%si, %bp
	je	.LBB67_43
	xorl	%r14d, %r14d
	testq	%rdx, %rdx
	je	.LBB67_44
	testb	$1, 32(%rdi)
	je	.LBB67_44
	cmpw	%si, 18(%rsp)
	je	.LBB67_39
	movq	48(%rsp), %rdi
	testq	%rdi, %rdi
	setne	%r8b
	cmpq	%rdx, %rdi
	setb	%r9b
	testb	%r9b, %r8b
	jne	.LBB67_40
.LBB67_39:
	movq	%rax, %rdi
	testb	%cl, %cl
	je	.LBB67_43
.LBB67_40:
	cmpq	$16, %r12
	je	.LBB67_41
	movq	%r12, %r8
	shlq	$4, %r8
	movw	%si, 568(%rsp,%r8)
	movl	$0, 570(%rsp,%r8)
	movw	$0, 574(%rsp,%r8)
	movq	%rdi, 576(%rsp,%r8)
	incq	%r12
.LBB67_43:
	xorl	%r14d, %r14d
	jmp	.LBB67_44
	.p2align	4
.LBB67_5:
	movw	$0, 16(%rsp)
	movl	$0, 12(%rsp)
	xorps	%xmm0, %xmm0
	movaps	%xmm0, 80(%rsp)
	movaps	%xmm0, 96(%rsp)
	movaps	%xmm0, 112(%rsp)
	movaps	%xmm0, 128(%rsp)
	movaps	%xmm0, 144(%rsp)
	movaps	%xmm0, 160(%rsp)
	movaps	%xmm0, 176(%rsp)
	movaps	%xmm0, 192(%rsp)
	movaps	%xmm0, 208(%rsp)
	movaps	%xmm0, 224(%rsp)
	movaps	%xmm0, 240(%rsp)
	movaps	%xmm0, 256(%rsp)
	movaps	%xmm0, 272(%rsp)
	movaps	%xmm0, 288(%rsp)
	movaps	%xmm0, 304(%rsp)
	movq	$0, 32(%rsp)
	xorl	%r13d, %r13d
	xorl	%r12d, %r12d
	jmp	.LBB67_46
	.p2align	4
.LBB67_7:
	movw	$0, 16(%rsp)
	movl	$0, 12(%rsp)
	movq	32(%rcx,%rdx), %rax
	testq	%rax, %rax
	je	.LBB67_8
	movq	16(%rcx,%rdx), %rcx
	xorl	%edx, %edx
	xorl	%r13d, %r13d
	jmp	.LBB67_10
	.p2align	4
.LBB67_12:
	movzbl	%dil, %edi
	testb	$1, %dl
	movl	$1, %edx
	cmovel	%edi, %edx
	cmoveq	%rsi, %r13
	movq	(%rcx), %rcx
	decq	%rax
	je	.LBB67_14
.LBB67_10:
	movq	24(%rcx), %r8
	testq	%r8, %r8
	setne	%dil
	xorl	%esi, %esi
	andb	32(%rcx), %dil
	cmovneq	%r8, %rsi
	testb	%dil, %dl
	je	.LBB67_12
	cmpq	%r13, %rsi
	cmovbq	%rsi, %r13
	movb	$1, %dl
	movq	(%rcx), %rcx
	decq	%rax
	jne	.LBB67_10
.LBB67_14:
	cmpb	$1, %dl
	sete	%al
	andb	10(%rsp), %al
	cmpb	$1, %al
	jne	.LBB67_8
	testq	%r13, %r13
	sete	%al
	cmpq	48(%rsp), %r13
	setae	%cl
	orb	%al, %cl
	jne	.LBB67_8
	movl	$1, %r12d
	movzwl	18(%rsp), %eax
	jmp	.LBB67_17
.LBB67_8:
	xorl	%eax, %eax
	xorl	%r13d, %r13d
	xorl	%r12d, %r12d
.LBB67_17:
	movq	%rax, 32(%rsp)
	xorps	%xmm0, %xmm0
	movaps	%xmm0, 304(%rsp)
	movaps	%xmm0, 288(%rsp)
	movaps	%xmm0, 272(%rsp)
	movaps	%xmm0, 256(%rsp)
	movaps	%xmm0, 240(%rsp)
	movaps	%xmm0, 224(%rsp)
	movaps	%xmm0, 208(%rsp)
	movaps	%xmm0, 192(%rsp)
	movaps	%xmm0, 176(%rsp)
	movaps	%xmm0, 160(%rsp)
	movaps	%xmm0, 144(%rsp)
	movaps	%xmm0, 128(%rsp)
	movaps	%xmm0, 112(%rsp)
	movaps	%xmm0, 96(%rsp)
	movaps	%xmm0, 80(%rsp)
	jmp	.LBB67_46
.LBB67_20:
	xorl	%r12d, %r12d
	xorl	%ecx, %ecx
	xorl	%eax, %eax
	xorl	%ebx, %ebx
	jmp	.LBB67_21
	.p2align	4
.LBB67_22:
	decq	%r14
.LBB67_30:
	movq	24(%rdx), %rdx
	testq	%rdx, %rdx
	setne	%sil
	testb	$1, %cl
	cmoveq	%rdx, %rax
	orb	%cl, %sil
	andb	$1, %sil
	incq	%rbx
	movl	%esi, %ecx
	cmpq	%rbx, %r10
	je	.LBB67_45
.LBB67_21:
	movq	%r13, %rdx
	movq	(%r13), %r13
	testq	%r14, %r14
	jne	.LBB67_22
	movzwl	16(%rdx), %esi
	cmpw	%si, %bp
	je	.LBB67_29
	xorl	%r14d, %r14d
	cmpq	$0, 24(%rdx)
	je	.LBB67_30
	testb	$1, 32(%rdx)
	je	.LBB67_30
	testb	%cl, %cl
	je	.LBB67_30
	cmpq	$16, %r12
	je	.LBB67_41
	movq	%r12, %rdi
	shlq	$4, %rdi
	movw	%si, 568(%rsp,%rdi)
	movl	$0, 570(%rsp,%rdi)
	movw	$0, 574(%rsp,%rdi)
	movq	%rax, 576(%rsp,%rdi)
	incq	%r12
.LBB67_29:
	xorl	%r14d, %r14d
	jmp	.LBB67_30
	.p2align	4
.LBB67_45:
	movzwl	568(%rsp), %eax
	movq	%rax, 32(%rsp)
	leaq	570(%rsp), %rcx
	movl	(%rcx), %eax
	movl	%eax, 12(%rsp)
	movzwl	4(%rcx), %eax
	movw	%ax, 16(%rsp)
	movq	576(%rsp), %r13
	leaq	80(%rsp), %rdi
	movl	$240, %edx
	leaq	584(%rsp), %rsi
	callq	memcpy@PLT
.LBB67_46:
	movq	$0, 40(%rsp)
	xorl	%r14d, %r14d
.LBB67_47:
	movzwl	16(%rsp), %eax
	movw	%ax, 24(%rsp)
	movl	12(%rsp), %eax
	movl	%eax, 20(%rsp)
	leaq	320(%rsp), %rbx
	leaq	80(%rsp), %rsi
	movl	$240, %edx
	movq	%rbx, %rdi
	callq	memcpy@PLT
	movq	32(%rsp), %rax
	movw	%ax, 832(%rsp)
	movzwl	24(%rsp), %eax
	leaq	832(%rsp), %rcx
	movw	%ax, 6(%rcx)
	movl	20(%rsp), %eax
	movl	%eax, 2(%rcx)
	movq	%r13, 840(%rsp)
	movl	$240, %edx
	leaq	848(%rsp), %rdi
	movq	%rbx, %rsi
	callq	memcpy@PLT
	movq	%r12, 1088(%rsp)
	testq	%r12, %r12
	movq	64(%rsp), %r9
	movq	56(%rsp), %r13
	je	.LBB67_53
	leaq	840(%rsp), %rsi
	jmp	.LBB67_49
	.p2align	4
.LBB67_52:
	addq	$16, %rsi
	decq	%r12
	je	.LBB67_53
.LBB67_49:
	movzwl	-8(%rsi), %edx
	movq	(%rsi), %rdi
	movl	4(%r15), %r8d
	cmpq	$65, %r8
	setb	%cl
	addb	%cl, %cl
	incb	%cl
	shlq	%cl, %r8
	movl	%edx, %ecx
	shll	$6, %ecx
	addq	(%r13), %rcx
	#APP
	#NO_APP
	xorl	%eax, %eax
	lock		cmpxchgq	%rdi, 128(%rcx,%r8,8)
	sete	%al
	#APP
	#NO_APP
	cmpw	%bp, %dx
	je	.LBB67_52
	testb	%al, %al
	je	.LBB67_52
	movl	$1, %eax
	movl	%edx, %ecx
	shlq	%cl, %rax
	shrl	$6, %edx
	orq	%rax, (%r9,%rdx,8)
	jmp	.LBB67_52
.LBB67_2:
	leaq	64(%r15), %rdi
	movl	28(%rsp), %esi
	callq	ww_invariant__slots_out__turn_to
	movq	8(%r13), %rcx
	movq	72(%rsp), %rdx
	cmpb	$0, (%rcx,%rdx)
	je	.LBB67_4
	jmp	.LBB67_55
.LBB67_41:
	movzwl	568(%rsp), %eax
	movq	%rax, 32(%rsp)
	leaq	570(%rsp), %rcx
	movl	(%rcx), %eax
	movl	%eax, 12(%rsp)
	movzwl	4(%rcx), %eax
	movw	%ax, 16(%rsp)
	movq	576(%rsp), %r13
	leaq	80(%rsp), %rdi
	movl	$240, %edx
	leaq	584(%rsp), %rsi
	callq	memcpy@PLT
	movb	$1, %al
	movq	%rax, 40(%rsp)
	movl	$16, %r12d
	movq	%rbx, %r14
	jmp	.LBB67_47
.LBB67_54:
	addq	$1096, %rsp
	popq	%rbx
	popq	%r12
	popq	%r13
	popq	%r14
	popq	%r15
	popq	%rbp
	retq
.LBB67_55:
	ud2
.Lfunc_end67:
	.size	ww_seat__signs__sign_all, .Lfunc_end67-ww_seat__signs__sign_all

	.section	.text.ww_table__seat__Stepper__must_die,"ax",@progbits
	.p2align	4
	.type	ww_table__seat__Stepper__must_die,@function
ww_table__seat__Stepper__must_die:
	pushq	%rbp
	pushq	%r15
	pushq	%r14
	pushq	%r13
	pushq	%r12
	pushq	%rbx
	pushq	%rax
	movzbl	(%rcx), %r14d
	movzwl	2(%rcx), %ebp
	movq	8(%rcx), %rbx
	addl	$64, %edx
	movq	328(%rdi), %rax
	cmpl	%edx, 60(%rdi,%rax,4)
	jne	.LBB68_1
.LBB68_2:
	movq	8(%rsi), %rax
	movl	%edx, %ecx
	leaq	(%rcx,%rcx,4), %rcx
	cmpb	$0, (%rax,%rcx,8)
	jne	.LBB68_21
	leaq	(%rax,%rcx,8), %rsi
	cmpb	$0, 8(%rsi)
	je	.LBB68_4
	movzbl	(%rdi), %r9d
	movzwl	2(%rdi), %eax
	movq	32(%rsi), %rdi
	addq	$16, %rsi
	leaq	1(%rdi), %rcx
	movq	%rsi, %r10
	.p2align	4
.LBB68_6:
	decq	%rcx
	je	.LBB68_4
	movq	(%r10), %r10
	cmpw	%ax, 16(%r10)
	jne	.LBB68_6
	movq	24(%r10), %rcx
	xorl	%edx, %edx
	movl	$0, %eax
	testq	%rcx, %rcx
	je	.LBB68_24
	testb	$1, 32(%r10)
	je	.LBB68_24
	testb	%r9b, %r9b
	je	.LBB68_22
	movzwl	16(%r10), %eax
	incq	%rdi
	.p2align	4
.LBB68_12:
	decq	%rdi
	je	.LBB68_13
	movq	(%rsi), %rsi
	cmpw	%ax, 16(%rsi)
	je	.LBB68_13
	movq	24(%rsi), %r8
	testq	%r8, %r8
	je	.LBB68_12
	movb	$1, %sil
	jmp	.LBB68_17
.LBB68_4:
	xorl	%eax, %eax
	xorl	%edx, %edx
.LBB68_24:
	addq	$8, %rsp
	popq	%rbx
	popq	%r12
	popq	%r13
	popq	%r14
	popq	%r15
	popq	%rbp
	retq
.LBB68_13:
	xorl	%r8d, %r8d
	xorl	%esi, %esi
.LBB68_17:
	cmpb	$1, %r14b
	jne	.LBB68_20
	cmpw	%ax, %bp
	je	.LBB68_20
	testq	%rbx, %rbx
	setne	%dil
	cmpq	%rcx, %rbx
	setb	%cl
	movb	$1, %al
	movq	%rbx, %rdx
	testb	%cl, %dil
	jne	.LBB68_24
.LBB68_20:
	movl	%esi, %eax
	jmp	.LBB68_23
.LBB68_1:
	leaq	64(%rdi), %rax
	movq	%rdi, (%rsp)
	movq	%rax, %rdi
	movq	%rsi, %r12
	movl	%edx, %esi
	movq	%r8, %r13
	movl	%edx, %r15d
	callq	ww_invariant__slots_out__turn_to
	movq	%r12, %rsi
	movl	%r15d, %edx
	movq	(%rsp), %rdi
	movq	%r13, %r8
	jmp	.LBB68_2
.LBB68_22:
	movl	%r8d, %eax
.LBB68_23:
	movq	%r8, %rdx
	jmp	.LBB68_24
.LBB68_21:
	ud2
.Lfunc_end68:
	.size	ww_table__seat__Stepper__must_die, .Lfunc_end68-ww_table__seat__Stepper__must_die

	.section	.text.unlikely.ww_seat__wake__wake_seat,"ax",@progbits
	.p2align	4
	.type	ww_seat__wake__wake_seat,@function
ww_seat__wake__wake_seat:
	pushq	%r14
	pushq	%rbx
	pushq	%rax
	movzwl	%di, %ebx
	cmpq	%rbx, %rdx
	jbe	.LBB69_4
	shll	$4, %ebx
	movq	(%rsi,%rbx), %rax
	movq	8(%rax), %rcx
	#APP
	#NO_APP
	movl	$2, %edx
	xchgq	%rdx, (%rcx)
	#APP
	#NO_APP
	cmpq	$1, %rdx
	jne	.LBB69_3
	movq	8(%rax), %rax
	movl	$202, %edi
	movl	$129, %edx
	movl	$1, %ecx
	movq	%rsi, %r14
	movq	%rax, %rsi
	xorl	%r8d, %r8d
	xorl	%eax, %eax
	callq	syscall@PLT
	movq	%r14, %rsi
.LBB69_3:
	movq	8(%rsi,%rbx), %rax
	#APP
	#NO_APP
	movl	$1, %ecx
	xchgq	%rcx, 8(%rax)
	#APP
	#NO_APP
.LBB69_4:
	addq	$8, %rsp
	popq	%rbx
	popq	%r14
	retq
.Lfunc_end69:
	.size	ww_seat__wake__wake_seat, .Lfunc_end69-ww_seat__wake__wake_seat

	.section	.text.ww_lock__hand__Hand__prepare,"ax",@progbits
	.p2align	4
	.type	ww_lock__hand__Hand__prepare,@function
ww_lock__hand__Hand__prepare:
	pushq	%rbp
	pushq	%r15
	pushq	%r14
	pushq	%r13
	pushq	%r12
	pushq	%rbx
	subq	$952, %rsp
	movq	%rsi, %r14
	movq	%rdi, %rbx
	movl	(%rdx), %ecx
	movl	%ecx, %esi
	shrl	$8, %esi
	movl	%ecx, %edi
	shrl	$16, %edi
	movl	%ecx, %eax
	shrl	$24, %eax
	movq	%rax, 224(%rsp)
	movzbl	4(%rdx), %eax
	movb	%al, 18(%rsp)
	movzbl	%al, %ebp
	movq	8(%rdx), %r13
	movq	16(%rdx), %r12
	movzbl	24(%rdx), %r9d
	movzbl	25(%rdx), %r10d
	movzbl	26(%rdx), %r11d
	movzbl	27(%rdx), %r15d
	movzbl	28(%rdx), %eax
	movb	%al, 19(%rsp)
	movb	$0, 38(%rsp)
	movw	$0, 36(%rsp)
	movw	$0, 56(%rsp)
	movb	$0, 58(%rsp)
	movl	$0, 200(%rsp)
	movb	$0, 204(%rsp)
	movl	$0, 192(%rsp)
	movb	$0, 196(%rsp)
	movl	$0, 256(%rsp)
	movl	$0, 259(%rsp)
	movw	$0, 84(%rsp)
	movb	$0, 86(%rsp)
	movl	$0, 272(%rsp)
	movb	$0, 276(%rsp)
	movb	$0, 268(%rsp)
	movl	$0, 264(%rsp)
	movl	$0, 555(%rsp)
	movl	$0, 552(%rsp)
	movzbl	31(%rdx), %eax
	movb	%al, 62(%rsp)
	movzwl	29(%rdx), %eax
	movw	%ax, 60(%rsp)
	movq	%rcx, 232(%rsp)
	movzbl	%cl, %eax
	leaq	.LJTI70_0(%rip), %rcx
	movslq	(%rcx,%rax,4), %rax
	addq	%rcx, %rax
	movq	%r12, 248(%rsp)
	movq	%rsi, 240(%rsp)
	movq	%rdi, 280(%rsp)
	movq	%r13, 40(%rsp)
	movb	%r9b, 23(%rsp)
	movb	%r10b, 22(%rsp)
	movb	%r11b, 21(%rsp)
	movb	%r15b, 20(%rsp)
	movq	%rbp, 64(%rsp)
	jmpq	*%rax
.LBB70_1:
	xorps	%xmm0, %xmm0
	movaps	%xmm0, 336(%rsp)
	movaps	%xmm0, 320(%rsp)
	movaps	%xmm0, 304(%rsp)
	movaps	%xmm0, 288(%rsp)
	movq	$0, 352(%rsp)
	xorl	%r15d, %r15d
	testq	%r12, %r12
	je	.LBB70_30
	xorl	%r12d, %r12d
	jmp	.LBB70_4
	.p2align	4
.LBB70_3:
	incq	%r12
	cmpq	%r12, 248(%rsp)
	je	.LBB70_31
.LBB70_4:
	movzbl	(%r13,%r12), %ebp
	movb	%bpl, 112(%rsp)
	leaq	288(%rsp), %rdi
	leaq	112(%rsp), %rdx
	movq	%r15, %rsi
	callq	core__slice__reads__slice_T__contains___i8_31_core__cmp__numbers__U8PartialEq___
	testb	%al, %al
	jne	.LBB70_3
	movb	%bpl, 288(%rsp,%r15)
	incq	%r15
	movq	%r15, 352(%rsp)
	jmp	.LBB70_3
.LBB70_6:
	movq	464(%r14), %rax
	xorps	%xmm0, %xmm0
	movaps	%xmm0, 112(%rsp)
	movaps	%xmm0, 128(%rsp)
	movaps	%xmm0, 144(%rsp)
	movaps	%xmm0, 160(%rsp)
	movaps	%xmm0, 288(%rsp)
	movaps	%xmm0, 304(%rsp)
	movaps	%xmm0, 320(%rsp)
	movaps	%xmm0, 336(%rsp)
	movaps	%xmm0, 352(%rsp)
	movaps	%xmm0, 368(%rsp)
	movaps	%xmm0, 384(%rsp)
	movaps	%xmm0, 400(%rsp)
	movaps	%xmm0, 416(%rsp)
	movaps	%xmm0, 432(%rsp)
	movaps	%xmm0, 448(%rsp)
	movaps	%xmm0, 464(%rsp)
	movaps	%xmm0, 480(%rsp)
	movaps	%xmm0, 496(%rsp)
	movaps	%xmm0, 512(%rsp)
	movaps	%xmm0, 528(%rsp)
	movb	%sil, 112(%rsp)
	movq	$1, 176(%rsp)
	movzbl	%sil, %ecx
	movb	$1, 288(%rsp,%rcx)
	movzbl	%dil, %edx
	addl	%edx, %edx
	leaq	(%rcx,%rcx,2), %rcx
	leaq	(%rax,%rcx,8), %rsi
	movzbl	8(%rdx,%rsi), %ecx
	movzbl	9(%rdx,%rsi), %ebp
	cmpl	$33554432, 232(%rsp)
	jb	.LBB70_26
	cmpb	$1, %cl
	jne	.LBB70_26
	movl	$2, %esi
	.p2align	4
.LBB70_9:
	movzbl	%bpl, %ecx
	cmpb	$1, 288(%rsp,%rcx)
	je	.LBB70_35
	movb	%bpl, 111(%rsp,%rsi)
	movq	%rsi, 176(%rsp)
	movb	$1, 288(%rsp,%rcx)
	leaq	(%rcx,%rcx,2), %rcx
	leaq	(%rax,%rcx,8), %rdi
	movzbl	8(%rdx,%rdi), %ecx
	movzbl	9(%rdx,%rdi), %ebp
	cmpq	224(%rsp), %rsi
	jae	.LBB70_26
	incq	%rsi
	cmpb	$1, %cl
	je	.LBB70_9
	jmp	.LBB70_26
.LBB70_12:
	xorl	%ecx, %ecx
	xorl	%r15d, %r15d
	cmpb	%dil, %sil
	movzbl	%dil, %eax
	cmovel	%ecx, %eax
	setne	%r15b
	incq	%r15
	jmp	.LBB70_14
.LBB70_13:
	cmpl	$1, 224(%rsp)
	setne	%cl
	cmpb	%sil, %bpl
	sete	%dl
	xorl	%eax, %eax
	orb	%cl, %dl
	cmovel	%ebp, %eax
	movzbl	%dl, %ecx
	movl	$2, %r15d
	subq	%rcx, %r15
.LBB70_14:
	xorps	%xmm0, %xmm0
	movups	%xmm0, 158(%rsp)
	movaps	%xmm0, 144(%rsp)
	movaps	%xmm0, 128(%rsp)
	movaps	%xmm0, 112(%rsp)
	jmp	.LBB70_29
.LBB70_15:
	xorps	%xmm0, %xmm0
	movaps	%xmm0, 336(%rsp)
	movaps	%xmm0, 320(%rsp)
	movaps	%xmm0, 304(%rsp)
	movaps	%xmm0, 288(%rsp)
	movq	$0, 352(%rsp)
	xorl	%r15d, %r15d
	testq	%r12, %r12
	je	.LBB70_30
	movq	%r12, %rax
	movq	%r13, %r12
	movq	%rax, %r13
	jmp	.LBB70_18
	.p2align	4
.LBB70_17:
	addq	$16, %r12
	decq	%r13
	je	.LBB70_32
.LBB70_18:
	movzbl	(%r12), %ebp
	movb	%bpl, 112(%rsp)
	leaq	288(%rsp), %rdi
	leaq	112(%rsp), %rdx
	movq	%r15, %rsi
	callq	core__slice__reads__slice_T__contains___i8_31_core__cmp__numbers__U8PartialEq___
	testb	%al, %al
	jne	.LBB70_17
	movb	%bpl, 288(%rsp,%r15)
	incq	%r15
	movq	%r15, 352(%rsp)
	jmp	.LBB70_17
.LBB70_20:
	movq	464(%r14), %rax
	xorps	%xmm0, %xmm0
	movaps	%xmm0, 112(%rsp)
	movaps	%xmm0, 128(%rsp)
	movaps	%xmm0, 144(%rsp)
	movaps	%xmm0, 160(%rsp)
	movaps	%xmm0, 288(%rsp)
	movaps	%xmm0, 304(%rsp)
	movaps	%xmm0, 320(%rsp)
	movaps	%xmm0, 336(%rsp)
	movaps	%xmm0, 352(%rsp)
	movaps	%xmm0, 368(%rsp)
	movaps	%xmm0, 384(%rsp)
	movaps	%xmm0, 400(%rsp)
	movaps	%xmm0, 416(%rsp)
	movaps	%xmm0, 432(%rsp)
	movaps	%xmm0, 448(%rsp)
	movaps	%xmm0, 464(%rsp)
	movaps	%xmm0, 480(%rsp)
	movaps	%xmm0, 496(%rsp)
	movaps	%xmm0, 512(%rsp)
	movaps	%xmm0, 528(%rsp)
	movb	%sil, 112(%rsp)
	movq	$1, 176(%rsp)
	movzbl	%sil, %ecx
	movb	$1, 288(%rsp,%rcx)
	movzbl	%dil, %edx
	addl	%edx, %edx
	leaq	(%rcx,%rcx,2), %rcx
	leaq	(%rax,%rcx,8), %rsi
	movzbl	8(%rdx,%rsi), %ecx
	movzbl	9(%rdx,%rsi), %ebp
	cmpl	$33554432, 232(%rsp)
	jb	.LBB70_26
	cmpb	$1, %cl
	jne	.LBB70_26
	movl	224(%rsp), %esi
	movl	$2, %edi
	.p2align	4
.LBB70_23:
	movzbl	%bpl, %ecx
	cmpb	$1, 288(%rsp,%rcx)
	je	.LBB70_35
	movb	%bpl, 111(%rsp,%rdi)
	movq	%rdi, 176(%rsp)
	movb	$1, 288(%rsp,%rcx)
	leaq	(%rcx,%rcx,2), %rcx
	leaq	(%rax,%rcx,8), %r8
	movzbl	8(%rdx,%r8), %ecx
	movzbl	9(%rdx,%r8), %ebp
	cmpq	%rsi, %rdi
	jae	.LBB70_26
	incq	%rdi
	cmpb	$1, %cl
	je	.LBB70_23
.LBB70_26:
	movq	176(%rsp), %rax
	movq	%rax, 624(%rsp)
	movaps	112(%rsp), %xmm0
	movaps	128(%rsp), %xmm1
	movaps	144(%rsp), %xmm2
	movaps	160(%rsp), %xmm3
	movaps	%xmm3, 608(%rsp)
	movaps	%xmm2, 592(%rsp)
	movaps	%xmm1, 576(%rsp)
	movaps	%xmm0, 560(%rsp)
	movaps	%xmm0, 288(%rsp)
	movaps	%xmm1, 304(%rsp)
	movaps	%xmm2, 320(%rsp)
	movaps	%xmm3, 336(%rsp)
	movq	%rax, 352(%rsp)
	cmpb	$1, %cl
	je	.LBB70_36
	movq	352(%rsp), %r15
	jmp	.LBB70_38
.LBB70_28:
	xorps	%xmm0, %xmm0
	movups	%xmm0, 158(%rsp)
	movaps	%xmm0, 144(%rsp)
	movaps	%xmm0, 128(%rsp)
	movaps	%xmm0, 112(%rsp)
	movl	$1, %r15d
	xorl	%eax, %eax
.LBB70_29:
	movl	%esi, %ecx
	jmp	.LBB70_39
.LBB70_30:
	xorl	%eax, %eax
	xorl	%ecx, %ecx
	jmp	.LBB70_34
.LBB70_31:
	movzbl	288(%rsp), %ecx
	movzbl	289(%rsp), %eax
	jmp	.LBB70_33
.LBB70_32:
	movzbl	288(%rsp), %ecx
	movzbl	289(%rsp), %eax
	movq	40(%rsp), %r13
.LBB70_33:
	movq	248(%rsp), %r12
	movq	64(%rsp), %rbp
.LBB70_34:
	movups	290(%rsp), %xmm0
	movups	306(%rsp), %xmm1
	movups	322(%rsp), %xmm2
	movups	336(%rsp), %xmm3
	movups	%xmm3, 158(%rsp)
	movaps	%xmm2, 144(%rsp)
	movaps	%xmm1, 128(%rsp)
	movaps	%xmm0, 112(%rsp)
	jmp	.LBB70_39
.LBB70_35:
	movq	176(%rsp), %rax
	movq	%rax, 624(%rsp)
	movaps	112(%rsp), %xmm0
	movaps	128(%rsp), %xmm1
	movaps	144(%rsp), %xmm2
	movaps	160(%rsp), %xmm3
	movaps	%xmm3, 608(%rsp)
	movaps	%xmm2, 592(%rsp)
	movaps	%xmm1, 576(%rsp)
	movaps	%xmm0, 560(%rsp)
	movaps	%xmm0, 288(%rsp)
	movaps	%xmm1, 304(%rsp)
	movaps	%xmm2, 320(%rsp)
	movaps	%xmm3, 336(%rsp)
	movq	%rax, 352(%rsp)
.LBB70_36:
	movb	%bpl, 112(%rsp)
	movq	352(%rsp), %r15
	leaq	288(%rsp), %rdi
	leaq	112(%rsp), %rdx
	movq	%r15, %rsi
	callq	core__slice__reads__slice_T__contains___i8_31_core__cmp__numbers__U8PartialEq___
	testb	%al, %al
	jne	.LBB70_38
	movb	%bpl, 288(%rsp,%r15)
	incq	%r15
.LBB70_38:
	movq	64(%rsp), %rbp
	movzbl	288(%rsp), %ecx
	movzbl	289(%rsp), %eax
	movups	290(%rsp), %xmm0
	movaps	%xmm0, 112(%rsp)
	movups	306(%rsp), %xmm0
	movaps	%xmm0, 128(%rsp)
	movups	322(%rsp), %xmm0
	movaps	%xmm0, 144(%rsp)
	movups	336(%rsp), %xmm0
	movups	%xmm0, 158(%rsp)
.LBB70_39:
	movups	158(%rsp), %xmm0
	movups	%xmm0, 928(%rsp)
	movaps	112(%rsp), %xmm0
	movaps	128(%rsp), %xmm1
	movaps	144(%rsp), %xmm2
	movups	%xmm2, 914(%rsp)
	movups	%xmm1, 898(%rsp)
	movups	%xmm0, 882(%rsp)
	movb	%cl, 880(%rsp)
	movb	%al, 881(%rsp)
	movq	%r15, 944(%rsp)
	movl	$0, 288(%rsp)
	movl	$0, 291(%rsp)
	testq	%r15, %r15
	je	.LBB70_44
	movabsq	$164703072086692425, %rax
	cmpq	%rax, %r15
	ja	.LBB70_139
	imulq	$56, %r15, %rdi
	movl	$8, %esi
	callq	rattle_alloc@PLT
	testb	$1, %al
	je	.LBB70_139
	movq	%rdx, %r11
	leaq	295(%rsp), %rax
	xorl	%ecx, %ecx
	.p2align	4
.LBB70_43:
	movzbl	880(%rsp,%rcx), %esi
	movq	464(%r14), %rdi
	leaq	(%rsi,%rsi,2), %r8
	movq	16(%rdi,%r8,8), %r9
	movq	%r9, 16(%rax)
	movups	(%rdi,%r8,8), %xmm0
	movups	%xmm0, (%rax)
	movq	16(%rdi,%r8,8), %r9
	movq	%r9, 128(%rsp)
	movups	(%rdi,%r8,8), %xmm0
	movaps	%xmm0, 112(%rsp)
	movb	%sil, (%rdx)
	movups	288(%rsp), %xmm0
	movups	303(%rsp), %xmm1
	movups	%xmm0, 1(%rdx)
	movups	%xmm1, 16(%rdx)
	movaps	112(%rsp), %xmm0
	movups	%xmm0, 32(%rdx)
	movq	128(%rsp), %rsi
	movq	%rsi, 48(%rdx)
	incq	%rcx
	addq	$56, %rdx
	cmpq	%rcx, %r15
	jne	.LBB70_43
	jmp	.LBB70_45
.LBB70_44:
	leaq	16(%rsp), %r11
.LBB70_45:
	movq	$0, 184(%rsp)
	movq	$0, 632(%rsp)
	movq	464(%r14), %r13
	movzbl	232(%rsp), %eax
	leaq	.LJTI70_1(%rip), %rcx
	movslq	(%rcx,%rax,4), %rax
	addq	%rcx, %rax
	movq	%r11, 104(%rsp)
	jmpq	*%rax
.LBB70_46:
	testq	%r12, %r12
	je	.LBB70_72
	movq	%r12, %rax
	shrq	$60, %rax
	jne	.LBB70_84
	leaq	(,%r12,8), %rdi
	movl	$8, %esi
	callq	rattle_alloc@PLT
	movq	104(%rsp), %r11
	testb	$1, %al
	je	.LBB70_84
	movq	%rdx, 288(%rsp)
	movq	$0, 296(%rsp)
	movq	%r12, 304(%rsp)
	xorl	%eax, %eax
	xorl	%r12d, %r12d
	jmp	.LBB70_80
.LBB70_50:
	xorps	%xmm0, %xmm0
	movaps	%xmm0, 720(%rsp)
	movaps	%xmm0, 736(%rsp)
	movaps	%xmm0, 752(%rsp)
	movaps	%xmm0, 768(%rsp)
	movaps	%xmm0, 288(%rsp)
	movaps	%xmm0, 304(%rsp)
	movaps	%xmm0, 320(%rsp)
	movaps	%xmm0, 336(%rsp)
	movaps	%xmm0, 352(%rsp)
	movaps	%xmm0, 368(%rsp)
	movaps	%xmm0, 384(%rsp)
	movaps	%xmm0, 400(%rsp)
	movaps	%xmm0, 416(%rsp)
	movaps	%xmm0, 432(%rsp)
	movaps	%xmm0, 448(%rsp)
	movaps	%xmm0, 464(%rsp)
	movaps	%xmm0, 480(%rsp)
	movaps	%xmm0, 496(%rsp)
	movaps	%xmm0, 512(%rsp)
	movaps	%xmm0, 528(%rsp)
	movq	240(%rsp), %rax
	movb	%al, 720(%rsp)
	movq	$1, 784(%rsp)
	movzbl	%al, %eax
	movb	$1, 288(%rsp,%rax)
	movzbl	280(%rsp), %edx
	addl	%edx, %edx
	leaq	(%rax,%rax,2), %rax
	leaq	(,%rax,8), %rax
	addq	%r13, %rax
	movzbl	8(%rdx,%rax), %ecx
	movzbl	9(%rdx,%rax), %eax
	cmpl	$33554432, 232(%rsp)
	jb	.LBB70_87
	cmpb	$1, %cl
	jne	.LBB70_87
	movl	224(%rsp), %esi
	movl	$2, %edi
	.p2align	4
.LBB70_53:
	movzbl	%al, %ecx
	cmpb	$0, 288(%rsp,%rcx)
	jne	.LBB70_86
	movb	%al, 719(%rsp,%rdi)
	movq	%rdi, 784(%rsp)
	movb	$1, 288(%rsp,%rcx)
	leaq	(%rcx,%rcx,2), %rax
	leaq	(,%rax,8), %rax
	addq	%r13, %rax
	movzbl	8(%rdx,%rax), %ecx
	movzbl	9(%rdx,%rax), %eax
	cmpq	%rsi, %rdi
	jae	.LBB70_87
	incq	%rdi
	cmpb	$1, %cl
	je	.LBB70_53
	jmp	.LBB70_87
.LBB70_56:
	movzbl	240(%rsp), %eax
	shll	$3, %eax
	leaq	(%rax,%rax,2), %rax
	movq	(%r13,%rax), %rcx
	xorl	%r12d, %r12d
	movb	$1, %dl
	movl	%edx, 12(%rsp)
	movq	40(%rsp), %r8
	subq	%r8, %rcx
	cmovbq	%r12, %rcx
	jae	.LBB70_70
	movb	$3, %r10b
	xorl	%r9d, %r9d
	movq	$0, 48(%rsp)
	movq	$0, 24(%rsp)
	xorl	%ebp, %ebp
	movq	%r8, %r13
	testq	%r15, %r15
	jne	.LBB70_110
	jmp	.LBB70_116
.LBB70_58:
	movzbl	240(%rsp), %eax
	leaq	(%rax,%rax,2), %rax
	leaq	(,%rax,8), %rax
	addq	%r13, %rax
	movzbl	280(%rsp), %ecx
	movzbl	8(%rax,%rcx,2), %r9d
	movzbl	9(%rax,%rcx,2), %edx
	movq	%rdx, 48(%rsp)
	movq	224(%rsp), %rdx
	movb	%dl, 8(%rax,%rcx,2)
	movzbl	18(%rsp), %edx
	movb	%dl, 9(%rax,%rcx,2)
	movb	$5, %r10b
	movb	$1, %al
	movl	%eax, 12(%rsp)
	jmp	.LBB70_109
.LBB70_59:
	testq	%r12, %r12
	je	.LBB70_76
	cmpq	$1, %r12
	jne	.LBB70_73
	xorl	%eax, %eax
	jmp	.LBB70_77
.LBB70_62:
	xorps	%xmm0, %xmm0
	movaps	%xmm0, 800(%rsp)
	movaps	%xmm0, 816(%rsp)
	movaps	%xmm0, 832(%rsp)
	movaps	%xmm0, 848(%rsp)
	movaps	%xmm0, 288(%rsp)
	movaps	%xmm0, 304(%rsp)
	movaps	%xmm0, 320(%rsp)
	movaps	%xmm0, 336(%rsp)
	movaps	%xmm0, 352(%rsp)
	movaps	%xmm0, 368(%rsp)
	movaps	%xmm0, 384(%rsp)
	movaps	%xmm0, 400(%rsp)
	movaps	%xmm0, 416(%rsp)
	movaps	%xmm0, 432(%rsp)
	movaps	%xmm0, 448(%rsp)
	movaps	%xmm0, 464(%rsp)
	movaps	%xmm0, 480(%rsp)
	movaps	%xmm0, 496(%rsp)
	movaps	%xmm0, 512(%rsp)
	movaps	%xmm0, 528(%rsp)
	movq	240(%rsp), %rax
	movb	%al, 800(%rsp)
	movq	$1, 864(%rsp)
	movzbl	%al, %ecx
	movb	$1, 288(%rsp,%rcx)
	movzbl	280(%rsp), %eax
	addl	%eax, %eax
	leaq	(%rcx,%rcx,2), %rcx
	leaq	(,%rcx,8), %rcx
	addq	%r13, %rcx
	movzbl	8(%rax,%rcx), %edx
	movzbl	9(%rax,%rcx), %ecx
	cmpl	$33554432, 232(%rsp)
	jb	.LBB70_98
	cmpb	$1, %dl
	jne	.LBB70_98
	movl	224(%rsp), %esi
	movl	$2, %edi
	.p2align	4
.LBB70_65:
	movzbl	%cl, %edx
	cmpb	$0, 288(%rsp,%rdx)
	jne	.LBB70_97
	movb	%cl, 799(%rsp,%rdi)
	movq	%rdi, 864(%rsp)
	movb	$1, 288(%rsp,%rdx)
	leaq	(%rdx,%rdx,2), %rcx
	leaq	(,%rcx,8), %rcx
	addq	%r13, %rcx
	movzbl	8(%rax,%rcx), %edx
	movzbl	9(%rax,%rcx), %ecx
	cmpq	%rsi, %rdi
	jae	.LBB70_98
	incq	%rdi
	cmpb	$1, %dl
	je	.LBB70_65
	jmp	.LBB70_98
.LBB70_68:
	movl	$8, %edi
	movl	$8, %esi
	callq	rattle_alloc@PLT
	movq	104(%rsp), %r11
	testb	$1, %al
	je	.LBB70_84
	movzbl	240(%rsp), %eax
	leaq	(%rax,%rax,2), %rax
	movq	(%r13,%rax,8), %rax
	movq	%rdx, 24(%rsp)
	movq	%rax, (%rdx)
	movl	$1, %ebp
	movl	$0, 12(%rsp)
	xorl	%r10d, %r10d
	xorl	%r9d, %r9d
	movq	$0, 48(%rsp)
	movl	$1, %r12d
	movq	40(%rsp), %r13
	testq	%r15, %r15
	jne	.LBB70_110
	jmp	.LBB70_116
.LBB70_70:
	movzbl	280(%rsp), %edx
	shll	$3, %edx
	leaq	(%rdx,%rdx,2), %rdx
	movq	(%r13,%rdx), %rsi
	movq	%r8, %rdi
	addq	%r8, %rsi
	jae	.LBB70_146
	xorl	%r9d, %r9d
	movb	$4, %r10b
	jmp	.LBB70_147
.LBB70_72:
	leaq	16(%rsp), %rax
	movq	%rax, 24(%rsp)
	xorl	%ebp, %ebp
	xorl	%r12d, %r12d
	jmp	.LBB70_154
.LBB70_73:
	movq	%r12, %rcx
	andq	$-2, %rcx
	movq	40(%rsp), %rax
	leaq	24(%rax), %rdx
	xorl	%eax, %eax
	.p2align	4
.LBB70_74:
	movzbl	-24(%rdx), %esi
	leaq	(%rsi,%rsi,2), %rsi
	movq	-16(%rdx), %rdi
	addq	%rdi, (%r13,%rsi,8)
	movzbl	-8(%rdx), %esi
	leaq	(%rsi,%rsi,2), %rsi
	movq	(%rdx), %rdi
	addq	%rdi, (%r13,%rsi,8)
	addq	$2, %rax
	addq	$32, %rdx
	cmpq	%rax, %rcx
	jne	.LBB70_74
	testb	$1, %r12b
	jne	.LBB70_77
.LBB70_76:
	movb	$1, %al
	movl	%eax, 12(%rsp)
	xorl	%r9d, %r9d
	movb	$1, %r10b
	jmp	.LBB70_108
.LBB70_77:
	shlq	$4, %rax
	movq	40(%rsp), %rdx
	movzbl	(%rdx,%rax), %ecx
	leaq	(%rcx,%rcx,2), %rcx
	movq	8(%rdx,%rax), %rax
	addq	%rax, (%r13,%rcx,8)
	movq	%rdx, %r13
	movb	$1, %al
	movl	%eax, 12(%rsp)
	xorl	%r9d, %r9d
	movb	$1, %r10b
	movq	$0, 48(%rsp)
	movq	$0, 24(%rsp)
	xorl	%ebp, %ebp
	xorl	%r12d, %r12d
	testq	%r15, %r15
	jne	.LBB70_110
	jmp	.LBB70_116
.LBB70_78:
	movq	288(%rsp), %rdx
	movq	296(%rsp), %rax
	movq	104(%rsp), %r11
	.p2align	4
.LBB70_79:
	movq	%rbp, (%rdx,%rax,8)
	incq	%rax
	movq	%rax, 296(%rsp)
	incq	%r12
	cmpq	%r12, 248(%rsp)
	je	.LBB70_153
.LBB70_80:
	movq	40(%rsp), %rcx
	movzbl	(%rcx,%r12), %ecx
	leaq	(%rcx,%rcx,2), %rcx
	movq	(%r13,%rcx,8), %rbp
	cmpq	%rax, 304(%rsp)
	jne	.LBB70_79
	leaq	288(%rsp), %rdi
	movl	$1, %esi
	callq	std_alloc__vec__Vec__grow_amortized____64dbbe0c2d9e622d_
	testb	%al, %al
	jne	.LBB70_78
	cmpq	$0, 304(%rsp)
	movq	64(%rsp), %rbp
	movq	104(%rsp), %r11
	je	.LBB70_84
	movq	288(%rsp), %rdi
	callq	rattle_dealloc@PLT
	movq	104(%rsp), %r11
.LBB70_84:
	testq	%r15, %r15
	movq	40(%rsp), %r13
	je	.LBB70_139
	movq	%r11, %rdi
	jmp	.LBB70_138
.LBB70_86:
	movb	$1, %cl
.LBB70_87:
	movzbl	720(%rsp), %edx
	movq	721(%rsp), %rsi
	movl	729(%rsp), %edi
	movzwl	733(%rsp), %r8d
	movzbl	735(%rsp), %r9d
	movaps	736(%rsp), %xmm0
	movaps	752(%rsp), %xmm1
	movaps	768(%rsp), %xmm2
	movb	%dl, 112(%rsp)
	movq	%rsi, 113(%rsp)
	movl	%edi, 121(%rsp)
	movw	%r8w, 125(%rsp)
	movb	%r9b, 127(%rsp)
	movaps	%xmm0, 128(%rsp)
	movaps	%xmm1, 144(%rsp)
	movaps	%xmm2, 160(%rsp)
	movq	784(%rsp), %r9
	movq	%r9, 176(%rsp)
	movb	%cl, 184(%rsp)
	movb	%al, 185(%rsp)
	testq	%r9, %r9
	je	.LBB70_90
	movl	%r9d, %eax
	andl	$3, %eax
	cmpq	$4, %r9
	jae	.LBB70_91
	xorl	%ebp, %ebp
	xorl	%r12d, %r12d
	xorl	%ecx, %ecx
	jmp	.LBB70_94
.LBB70_90:
	xorl	%ebp, %ebp
	xorl	%r12d, %r12d
	jmp	.LBB70_96
.LBB70_91:
	movq	%r9, %rdx
	andq	$-4, %rdx
	xorl	%ebp, %ebp
	xorl	%r12d, %r12d
	xorl	%ecx, %ecx
	.p2align	4
.LBB70_92:
	movzbl	112(%rsp,%rcx), %esi
	leaq	(%rsi,%rsi,2), %rsi
	addq	(%r13,%rsi,8), %rbp
	adcq	$0, %r12
	movzbl	113(%rsp,%rcx), %esi
	leaq	(%rsi,%rsi,2), %rsi
	addq	(%r13,%rsi,8), %rbp
	adcq	$0, %r12
	movzbl	114(%rsp,%rcx), %esi
	leaq	(%rsi,%rsi,2), %rsi
	addq	(%r13,%rsi,8), %rbp
	adcq	$0, %r12
	movzbl	115(%rsp,%rcx), %esi
	leaq	(%rsi,%rsi,2), %rsi
	addq	(%r13,%rsi,8), %rbp
	adcq	$0, %r12
	addq	$4, %rcx
	cmpq	%rcx, %rdx
	jne	.LBB70_92
	testq	%rax, %rax
	je	.LBB70_96
.LBB70_94:
	addq	%rsp, %rcx
	addq	$112, %rcx
	xorl	%edx, %edx
	.p2align	4
.LBB70_95:
	movzbl	(%rcx,%rdx), %esi
	leaq	(%rsi,%rsi,2), %rsi
	addq	(%r13,%rsi,8), %rbp
	adcq	$0, %r12
	incq	%rdx
	cmpq	%rdx, %rax
	jne	.LBB70_95
.LBB70_96:
	movb	$6, %r10b
	movb	$1, %al
	movl	%eax, 12(%rsp)
	movq	$0, 48(%rsp)
	movq	$0, 24(%rsp)
	movq	40(%rsp), %r13
	testq	%r15, %r15
	jne	.LBB70_110
	jmp	.LBB70_116
.LBB70_97:
	movb	$1, %dl
.LBB70_98:
	movzbl	800(%rsp), %esi
	movq	801(%rsp), %rdi
	movl	809(%rsp), %r8d
	movzwl	813(%rsp), %r9d
	movzbl	815(%rsp), %r10d
	movaps	816(%rsp), %xmm0
	movaps	832(%rsp), %xmm1
	movaps	848(%rsp), %xmm2
	movb	%sil, 560(%rsp)
	movq	%rdi, 561(%rsp)
	movl	%r8d, 569(%rsp)
	movw	%r9w, 573(%rsp)
	movb	%r10b, 575(%rsp)
	movaps	%xmm0, 576(%rsp)
	movaps	%xmm1, 592(%rsp)
	movaps	%xmm2, 608(%rsp)
	movq	864(%rsp), %rdi
	movq	%rdi, 624(%rsp)
	movb	%dl, 632(%rsp)
	movb	%cl, 633(%rsp)
	movb	$7, %r10b
	movb	$1, %sil
	movl	%esi, 12(%rsp)
	testq	%rdi, %rdi
	je	.LBB70_107
	movzbl	560(%rsp), %r9d
	leaq	(%r9,%r9,2), %rsi
	leaq	(,%rsi,8), %rsi
	addq	%r13, %rsi
	movb	%dl, 8(%rax,%rsi)
	movb	%cl, 9(%rax,%rsi)
	cmpq	$1, %rdi
	je	.LBB70_108
	leaq	-1(%rdi), %rsi
	addq	$-2, %rdi
	movl	%esi, %ecx
	andl	$3, %ecx
	movl	$1, %edx
	cmpq	$3, %rdi
	jb	.LBB70_105
	andq	$-4, %rsi
	xorl	%edx, %edx
	.p2align	4
.LBB70_102:
	movzbl	561(%rsp,%rdx), %edi
	leaq	(%rdi,%rdi,2), %r8
	leaq	(,%r8,8), %r8
	addq	%r13, %r8
	movb	$1, 8(%rax,%r8)
	movb	%r9b, 9(%rax,%r8)
	movzbl	562(%rsp,%rdx), %r8d
	leaq	(%r8,%r8,2), %r9
	leaq	(%r13,%r9,8), %r9
	movb	$1, 8(%rax,%r9)
	movb	%dil, 9(%rax,%r9)
	movzbl	563(%rsp,%rdx), %edi
	leaq	(%rdi,%rdi,2), %r9
	leaq	(%r13,%r9,8), %r9
	movb	$1, 8(%rax,%r9)
	movb	%r8b, 9(%rax,%r9)
	movzbl	564(%rsp,%rdx), %r9d
	leaq	(%r9,%r9,2), %r8
	leaq	(,%r8,8), %r8
	addq	%r13, %r8
	movb	$1, 8(%rax,%r8)
	movb	%dil, 9(%rax,%r8)
	addq	$4, %rdx
	cmpq	%rdx, %rsi
	jne	.LBB70_102
	testq	%rcx, %rcx
	je	.LBB70_108
	incq	%rdx
.LBB70_105:
	addq	%rsp, %rdx
	addq	$560, %rdx
	xorl	%esi, %esi
	.p2align	4
.LBB70_106:
	movl	%r9d, %edi
	movzbl	(%rdx,%rsi), %r9d
	leaq	(%r9,%r9,2), %r8
	leaq	(,%r8,8), %r8
	addq	%r13, %r8
	movb	$1, 8(%rax,%r8)
	movb	%dil, 9(%rax,%r8)
	incq	%rsi
	cmpq	%rsi, %rcx
	jne	.LBB70_106
	jmp	.LBB70_108
.LBB70_107:
	xorl	%r9d, %r9d
.LBB70_108:
	movq	$0, 48(%rsp)
.LBB70_109:
	movq	$0, 24(%rsp)
	xorl	%ebp, %ebp
	xorl	%r12d, %r12d
	movq	40(%rsp), %r13
	testq	%r15, %r15
	je	.LBB70_116
.LBB70_110:
	cmpq	$1, %r15
	jne	.LBB70_112
	xorl	%eax, %eax
	jmp	.LBB70_115
.LBB70_112:
	movq	%r15, %rcx
	andq	$-2, %rcx
	xorl	%eax, %eax
	movq	%r11, %rdx
	.p2align	4
.LBB70_113:
	movzbl	(%rdx), %esi
	movq	464(%r14), %rdi
	shll	$3, %esi
	leaq	(%rsi,%rsi,2), %rsi
	movq	16(%rdi,%rsi), %r8
	movups	(%rdi,%rsi), %xmm0
	movups	%xmm0, 32(%rdx)
	movq	%r8, 48(%rdx)
	movq	464(%r14), %rdi
	movups	8(%rdx), %xmm0
	movq	24(%rdx), %r8
	movq	%r8, 16(%rdi,%rsi)
	movups	%xmm0, (%rdi,%rsi)
	movzbl	56(%rdx), %esi
	movq	464(%r14), %rdi
	shll	$3, %esi
	leaq	(%rsi,%rsi,2), %rsi
	movq	16(%rdi,%rsi), %r8
	movups	(%rdi,%rsi), %xmm0
	movups	%xmm0, 88(%rdx)
	movq	%r8, 104(%rdx)
	movq	464(%r14), %rdi
	movups	64(%rdx), %xmm0
	movq	80(%rdx), %r8
	movq	%r8, 16(%rdi,%rsi)
	movups	%xmm0, (%rdi,%rsi)
	addq	$2, %rax
	addq	$112, %rdx
	cmpq	%rax, %rcx
	jne	.LBB70_113
	testb	$1, %r15b
	je	.LBB70_116
.LBB70_115:
	imulq	$56, %rax, %rax
	movzbl	(%r11,%rax), %ecx
	movq	464(%r14), %rdx
	shll	$3, %ecx
	leaq	(%rcx,%rcx,2), %rcx
	movq	16(%rdx,%rcx), %rsi
	movups	(%rdx,%rcx), %xmm0
	movups	%xmm0, 32(%r11,%rax)
	movq	%rsi, 48(%r11,%rax)
	movq	464(%r14), %rdx
	movups	8(%r11,%rax), %xmm0
	movq	24(%r11,%rax), %rax
	movq	%rax, 16(%rdx,%rcx)
	movups	%xmm0, (%rdx,%rcx)
.LBB70_116:
	movzbl	%r10b, %eax
	leaq	.LJTI70_2(%rip), %rcx
	movslq	(%rcx,%rax,4), %rax
	addq	%rcx, %rax
	movq	%r9, 704(%rsp)
	movq	%r10, 712(%rsp)
	jmpq	*%rax
.LBB70_117:
	movq	$0, 96(%rsp)
	movq	$0, 208(%rsp)
.LBB70_118:
	movq	$0, 216(%rsp)
.LBB70_119:
	movq	$0, 88(%rsp)
	movq	$0, 72(%rsp)
.LBB70_120:
	movq	344(%r14), %r13
	cmpq	%r13, 352(%r14)
	je	.LBB70_141
.LBB70_121:
	movzbl	2(%r14), %eax
	movb	%al, 12(%rsp)
	movzbl	472(%r14), %eax
	movq	%rax, 64(%rsp)
	movzbl	86(%rsp), %edx
	movb	%dl, 38(%rsp)
	movzwl	84(%rsp), %edx
	movw	%dx, 36(%rsp)
	movzwl	60(%rsp), %edx
	movw	%dx, 56(%rsp)
	movzbl	62(%rsp), %edx
	movb	%dl, 58(%rsp)
	movl	272(%rsp), %edx
	movl	%edx, 200(%rsp)
	movzbl	276(%rsp), %edx
	movb	%dl, 204(%rsp)
	movl	264(%rsp), %edx
	movl	%edx, 192(%rsp)
	movzbl	268(%rsp), %edx
	movb	%dl, 196(%rsp)
	movl	552(%rsp), %edx
	movl	555(%rsp), %esi
	movl	%esi, 259(%rsp)
	movl	%edx, 256(%rsp)
	movq	$0, 648(%rsp)
	movq	248(%rsp), %rax
	movq	%rax, 696(%rsp)
	movzbl	23(%rsp), %eax
	movq	%rax, 688(%rsp)
	movzbl	22(%rsp), %eax
	movq	%rax, 680(%rsp)
	movzbl	21(%rsp), %eax
	movq	%rax, 672(%rsp)
	movzbl	20(%rsp), %eax
	movq	%rax, 664(%rsp)
	movzbl	19(%rsp), %eax
	movq	%rax, 656(%rsp)
	movq	232(%rsp), %rax
	movq	240(%rsp), %rcx
	movl	%ecx, %esi
	xorl	%r14d, %r14d
	movq	280(%rsp), %rcx
	movl	%ecx, %edx
	movq	224(%rsp), %rcx
	movl	%ecx, %edi
	xorl	%ecx, %ecx
	movzbl	18(%rsp), %r8d
	movq	712(%rsp), %r11
	movq	208(%rsp), %r10
	jmp	.LBB70_140
.LBB70_122:
	testq	%rbp, %rbp
	je	.LBB70_143
	movq	%rbp, %rax
	shrq	$60, %rax
	jne	.LBB70_134
	leaq	(,%rbp,8), %rdi
	movl	$8, %esi
	callq	rattle_alloc@PLT
	movq	104(%rsp), %r11
	testb	$1, %al
	je	.LBB70_134
	movq	%rdx, %r8
	movq	%rdx, %rax
	subq	24(%rsp), %rax
	leaq	(,%rbp,8), %rdx
	cmpq	%rdx, %rax
	jae	.LBB70_144
	xorl	%eax, %eax
	cmpq	$4, %rbp
	movq	%r8, 216(%rsp)
	jb	.LBB70_155
	movq	%r8, %rcx
	movq	24(%rsp), %rdi
	subq	%rdi, %rcx
	cmpq	$32, %rcx
	jb	.LBB70_156
	movabsq	$1152921504606846976, %rax
	addq	$-4, %rax
	andq	%rbp, %rax
	xorl	%ecx, %ecx
.LBB70_129:
	movups	(%rdi,%rcx,8), %xmm0
	movups	16(%rdi,%rcx,8), %xmm1
	movups	%xmm0, (%r8,%rcx,8)
	movups	%xmm1, 16(%r8,%rcx,8)
	addq	$4, %rcx
	cmpq	%rcx, %rax
	jne	.LBB70_129
	cmpq	%rbp, %rax
	je	.LBB70_145
	jmp	.LBB70_156
.LBB70_131:
	movq	$0, 208(%rsp)
	movq	%r9, 96(%rsp)
	jmp	.LBB70_118
.LBB70_132:
	movq	$0, 216(%rsp)
	movq	%r9, 96(%rsp)
	movq	48(%rsp), %rax
	movq	%rax, 208(%rsp)
	jmp	.LBB70_119
.LBB70_133:
	movq	$0, 208(%rsp)
	movq	%r9, 96(%rsp)
	movq	$0, 216(%rsp)
	movq	%rbp, 88(%rsp)
	movq	%r12, 72(%rsp)
	jmp	.LBB70_120
.LBB70_134:
	testq	%r15, %r15
	je	.LBB70_136
	movq	%r11, %rdi
	callq	rattle_dealloc@PLT
.LBB70_136:
	testq	%r12, %r12
	movq	64(%rsp), %rbp
	je	.LBB70_139
	jmp	.LBB70_137
.LBB70_141:
	leaq	336(%r14), %rdi
	callq	std_alloc__vec__Vec__grow_amortized____b2136b1ac020c941_
	testb	%al, %al
	je	.LBB70_148
	movq	344(%r14), %r13
	jmp	.LBB70_121
.LBB70_143:
	leaq	16(%rsp), %r8
	xorl	%edx, %edx
.LBB70_144:
	movq	%r8, 216(%rsp)
	movq	%r8, %rdi
	movq	24(%rsp), %rsi
	callq	memmove@PLT
.LBB70_145:
	movq	$0, 96(%rsp)
	movq	$0, 208(%rsp)
	movq	%rbp, 88(%rsp)
	movq	%rbp, 72(%rsp)
	jmp	.LBB70_120
.LBB70_146:
	movq	%rcx, (%r13,%rax)
	movq	%rsi, (%r13,%rdx)
	movb	$2, %r10b
	xorl	%r9d, %r9d
.LBB70_147:
	movq	$0, 48(%rsp)
	movq	$0, 24(%rsp)
	xorl	%ebp, %ebp
	xorl	%r12d, %r12d
	movq	%rdi, %r13
	testq	%r15, %r15
	jne	.LBB70_110
	jmp	.LBB70_116
.LBB70_148:
	cmpq	$0, 72(%rsp)
	sete	%al
	movl	12(%rsp), %r14d
	orb	%r14b, %al
	movq	216(%rsp), %rdi
	jne	.LBB70_150
	callq	rattle_dealloc@PLT
.LBB70_150:
	testq	%r15, %r15
	movq	40(%rsp), %r13
	movq	64(%rsp), %rbp
	movq	104(%rsp), %rdi
	je	.LBB70_152
	callq	rattle_dealloc@PLT
.LBB70_152:
	testq	%r12, %r12
	sete	%al
	orb	%al, %r14b
	jne	.LBB70_139
.LBB70_137:
	movq	24(%rsp), %rdi
.LBB70_138:
	callq	rattle_dealloc@PLT
.LBB70_139:
	movb	%r13b, 12(%rsp)
	shrq	$8, %r13
	movq	%r13, %r14
	shlq	$32, %rbp
	addq	232(%rsp), %rbp
	movzbl	62(%rsp), %eax
	movb	%al, 38(%rsp)
	movzwl	60(%rsp), %eax
	movw	%ax, 36(%rsp)
	movl	$1, %eax
	movq	%rax, 648(%rsp)
	movq	$0, 40(%rsp)
	movq	$0, 696(%rsp)
	movq	$0, 688(%rsp)
	movq	$0, 680(%rsp)
	movq	$0, 672(%rsp)
	movq	$0, 664(%rsp)
	movq	$0, 656(%rsp)
	movq	$0, 24(%rsp)
	movq	%rbp, %rcx
	xorl	%ebp, %ebp
	xorl	%r12d, %r12d
	movq	$0, 216(%rsp)
	movq	$0, 88(%rsp)
	movq	$0, 72(%rsp)
	movq	$0, 104(%rsp)
	xorl	%r15d, %r15d
	xorl	%r11d, %r11d
	movq	$0, 96(%rsp)
	xorl	%r10d, %r10d
	movq	$0, 704(%rsp)
	movq	$0, 48(%rsp)
	movq	$0, 64(%rsp)
	movzbl	23(%rsp), %eax
	movzbl	22(%rsp), %esi
	movzbl	21(%rsp), %edx
	movzbl	20(%rsp), %edi
	movzbl	19(%rsp), %r8d
	movq	248(%rsp), %r13
.LBB70_140:
	movq	648(%rsp), %r9
	movq	%r9, (%rbx)
	movq	%rcx, 8(%rbx)
	movzbl	12(%rsp), %ecx
	movb	%cl, 16(%rbx)
	movq	%r14, %rcx
	shrq	$48, %rcx
	movb	%cl, 23(%rbx)
	movl	%r14d, 17(%rbx)
	shrq	$32, %r14
	movw	%r14w, 21(%rbx)
	movq	%r13, 24(%rbx)
	movb	%al, 32(%rbx)
	movb	%sil, 33(%rbx)
	movb	%dl, 34(%rbx)
	movb	%dil, 35(%rbx)
	movb	%r8b, 36(%rbx)
	movzwl	36(%rsp), %ecx
	movw	%cx, 37(%rbx)
	movzbl	38(%rsp), %ecx
	movb	%cl, 39(%rbx)
	movq	40(%rsp), %rax
	movq	%rax, 40(%rbx)
	movq	696(%rsp), %rax
	movq	%rax, 48(%rbx)
	movq	688(%rsp), %rax
	movb	%al, 56(%rbx)
	movq	680(%rsp), %rax
	movb	%al, 57(%rbx)
	movq	672(%rsp), %rax
	movb	%al, 58(%rbx)
	movq	664(%rsp), %rax
	movb	%al, 59(%rbx)
	movq	656(%rsp), %rax
	movb	%al, 60(%rbx)
	movzbl	58(%rsp), %ecx
	movb	%cl, 63(%rbx)
	movzwl	56(%rsp), %ecx
	movw	%cx, 61(%rbx)
	movb	%r11b, 64(%rbx)
	movq	96(%rsp), %rax
	movb	%al, 65(%rbx)
	movb	%r10b, 66(%rbx)
	movl	200(%rsp), %ecx
	movl	%ecx, 67(%rbx)
	movzbl	204(%rsp), %ecx
	movb	%cl, 71(%rbx)
	movq	216(%rsp), %rax
	movq	%rax, 72(%rbx)
	movq	88(%rsp), %rax
	movq	%rax, 80(%rbx)
	movq	72(%rsp), %rax
	movq	%rax, 88(%rbx)
	movb	%r11b, 96(%rbx)
	movq	704(%rsp), %rax
	movb	%al, 97(%rbx)
	movq	48(%rsp), %rax
	movb	%al, 98(%rbx)
	movzbl	196(%rsp), %ecx
	movb	%cl, 103(%rbx)
	movl	192(%rsp), %ecx
	movl	%ecx, 99(%rbx)
	movq	24(%rsp), %rax
	movq	%rax, 104(%rbx)
	movq	%r12, 120(%rbx)
	movq	%rbp, 112(%rbx)
	movq	64(%rsp), %rax
	movb	%al, 128(%rbx)
	movl	256(%rsp), %eax
	movl	259(%rsp), %ecx
	movl	%eax, 129(%rbx)
	movl	%ecx, 132(%rbx)
	movq	104(%rsp), %rax
	movq	%rax, 136(%rbx)
	movq	%r15, 144(%rbx)
	movq	%r15, 152(%rbx)
	addq	$952, %rsp
	popq	%rbx
	popq	%r12
	popq	%r13
	popq	%r14
	popq	%r15
	popq	%rbp
	retq
.LBB70_153:
	movq	288(%rsp), %rax
	movq	%rax, 24(%rsp)
	movq	296(%rsp), %rbp
	movq	304(%rsp), %r12
.LBB70_154:
	movl	$0, 12(%rsp)
	xorl	%r10d, %r10d
	xorl	%r9d, %r9d
	movq	$0, 48(%rsp)
	movq	40(%rsp), %r13
	testq	%r15, %r15
	jne	.LBB70_110
	jmp	.LBB70_116
.LBB70_155:
	movq	24(%rsp), %rdi
.LBB70_156:
	movq	%rbp, %rdx
	movq	%rax, %rcx
	andq	$3, %rdx
	je	.LBB70_159
	movq	%rax, %rcx
.LBB70_158:
	movq	(%rdi,%rcx,8), %rsi
	movq	%rsi, (%r8,%rcx,8)
	incq	%rcx
	decq	%rdx
	jne	.LBB70_158
.LBB70_159:
	subq	%rbp, %rax
	cmpq	$-4, %rax
	ja	.LBB70_145
.LBB70_160:
	movq	(%rdi,%rcx,8), %rax
	movq	%rax, (%r8,%rcx,8)
	movq	8(%rdi,%rcx,8), %rax
	movq	%rax, 8(%r8,%rcx,8)
	movq	16(%rdi,%rcx,8), %rax
	movq	%rax, 16(%r8,%rcx,8)
	movq	24(%rdi,%rcx,8), %rax
	movq	%rax, 24(%r8,%rcx,8)
	addq	$4, %rcx
	cmpq	%rcx, %rbp
	jne	.LBB70_160
	jmp	.LBB70_145
.Lfunc_end70:
	.size	ww_lock__hand__Hand__prepare, .Lfunc_end70-ww_lock__hand__Hand__prepare
	.section	.rodata.ww_lock__hand__Hand__prepare,"a",@progbits
	.p2align	2, 0x0
.LJTI70_0:
	.long	.LBB70_1-.LJTI70_0
	.long	.LBB70_15-.LJTI70_0
	.long	.LBB70_12-.LJTI70_0
	.long	.LBB70_13-.LJTI70_0
	.long	.LBB70_6-.LJTI70_0
	.long	.LBB70_20-.LJTI70_0
	.long	.LBB70_28-.LJTI70_0
.LJTI70_1:
	.long	.LBB70_46-.LJTI70_1
	.long	.LBB70_59-.LJTI70_1
	.long	.LBB70_56-.LJTI70_1
	.long	.LBB70_58-.LJTI70_1
	.long	.LBB70_50-.LJTI70_1
	.long	.LBB70_62-.LJTI70_1
	.long	.LBB70_68-.LJTI70_1
.LJTI70_2:
	.long	.LBB70_122-.LJTI70_2
	.long	.LBB70_117-.LJTI70_2
	.long	.LBB70_117-.LJTI70_2
	.long	.LBB70_117-.LJTI70_2
	.long	.LBB70_117-.LJTI70_2
	.long	.LBB70_132-.LJTI70_2
	.long	.LBB70_133-.LJTI70_2
	.long	.LBB70_131-.LJTI70_2

	.section	.text.unlikely.std_alloc__vec__Vec__grow_amortized____64dbbe0c2d9e622d_,"ax",@progbits
	.p2align	4
	.type	std_alloc__vec__Vec__grow_amortized____64dbbe0c2d9e622d_,@function
std_alloc__vec__Vec__grow_amortized____64dbbe0c2d9e622d_:
	movq	%rsi, %rax
	movq	8(%rdi), %rsi
	addq	%rsi, %rax
	jae	.LBB71_2
	xorl	%eax, %eax
	retq
.LBB71_2:
	pushq	%r14
	pushq	%rbx
	pushq	%rax
	movq	16(%rdi), %rcx
	cmpq	$5, %rax
	movl	$4, %ebx
	cmovaeq	%rax, %rbx
	movq	%rcx, %rdx
	shrq	$62, %rdx
	leaq	(%rcx,%rcx), %rax
	cmpq	%rax, %rbx
	cmovaq	%rbx, %rax
	testq	%rdx, %rdx
	cmoveq	%rax, %rbx
	movq	%rbx, %rdx
	shrq	$60, %rdx
	jne	.LBB71_6
	testq	%rcx, %rcx
	je	.LBB71_8
	movq	%rdi, %r14
	movq	(%rdi), %rdi
	shlq	$3, %rsi
	leaq	(,%rbx,8), %rdx
	movl	$8, %ecx
	callq	rattle_realloc@PLT
	testb	$1, %al
	je	.LBB71_6
.LBB71_9:
	movq	%rdx, (%r14)
	movq	%rbx, 16(%r14)
	movb	$1, %al
	addq	$8, %rsp
	popq	%rbx
	popq	%r14
	retq
.LBB71_8:
	movq	%rdi, %r14
	shlq	$3, %rax
	movl	$8, %esi
	movq	%rax, %rdi
	callq	rattle_alloc@PLT
	testb	$1, %al
	jne	.LBB71_9
.LBB71_6:
	xorl	%eax, %eax
	addq	$8, %rsp
	popq	%rbx
	popq	%r14
	retq
.Lfunc_end71:
	.size	std_alloc__vec__Vec__grow_amortized____64dbbe0c2d9e622d_, .Lfunc_end71-std_alloc__vec__Vec__grow_amortized____64dbbe0c2d9e622d_

	.section	.text.unlikely.std_alloc__vec__Vec__grow_amortized____b2136b1ac020c941_,"ax",@progbits
	.p2align	4
	.type	std_alloc__vec__Vec__grow_amortized____b2136b1ac020c941_,@function
std_alloc__vec__Vec__grow_amortized____b2136b1ac020c941_:
	movq	8(%rdi), %rax
	cmpq	$-1, %rax
	je	.LBB72_5
	pushq	%r14
	pushq	%rbx
	pushq	%rax
	movq	16(%rdi), %rcx
	cmpq	$4, %rax
	movl	$3, %ebx
	cmovaeq	%rax, %rbx
	incq	%rbx
	movq	%rcx, %rsi
	shrq	$62, %rsi
	leaq	(%rcx,%rcx), %rdx
	cmpq	%rdx, %rbx
	cmovaq	%rbx, %rdx
	testq	%rsi, %rsi
	cmoveq	%rdx, %rbx
	movabsq	$96076792050570581, %rsi
	cmpq	%rsi, %rbx
	ja	.LBB72_6
	testq	%rcx, %rcx
	je	.LBB72_8
	movq	%rdi, %r14
	movq	(%rdi), %rdi
	shlq	$5, %rax
	leaq	(%rax,%rax,2), %rsi
	movq	%rbx, %rax
	shlq	$5, %rax
	leaq	(%rax,%rax,2), %rdx
	movl	$16, %ecx
	callq	rattle_realloc@PLT
	testb	$1, %al
	je	.LBB72_6
.LBB72_9:
	movq	%rdx, (%r14)
	movq	%rbx, 16(%r14)
	movb	$1, %al
	addq	$8, %rsp
	popq	%rbx
	popq	%r14
	retq
.LBB72_5:
	xorl	%eax, %eax
	retq
.LBB72_8:
	movq	%rdi, %r14
	shlq	$5, %rdx
	leaq	(%rdx,%rdx,2), %rdi
	movl	$16, %esi
	callq	rattle_alloc@PLT
	testb	$1, %al
	jne	.LBB72_9
.LBB72_6:
	xorl	%eax, %eax
	addq	$8, %rsp
	popq	%rbx
	popq	%r14
	retq
.Lfunc_end72:
	.size	std_alloc__vec__Vec__grow_amortized____b2136b1ac020c941_, .Lfunc_end72-std_alloc__vec__Vec__grow_amortized____b2136b1ac020c941_

	.section	.text.unlikely.ww_lock__hand__Hand__give_waited____553c7e4ebf26217f_,"ax",@progbits
	.p2align	4
	.type	ww_lock__hand__Hand__give_waited____553c7e4ebf26217f_,@function
ww_lock__hand__Hand__give_waited____553c7e4ebf26217f_:
	pushq	%rax
	movl	%edx, %eax
	movb	$0, 396(%rdi,%rax)
	movq	552(%rdi), %rcx
	movq	560(%rdi), %r8
	callq	ww_seat__seats__Seat__give_waited____553c7e4ebf26217f_
	cmpb	$0, .Lstatic.0(%rip)
	jne	.LBB73_2
	popq	%rax
	retq
.LBB73_2:
	ud2
.Lfunc_end73:
	.size	ww_lock__hand__Hand__give_waited____553c7e4ebf26217f_, .Lfunc_end73-ww_lock__hand__Hand__give_waited____553c7e4ebf26217f_

	.section	.text.unlikely.ww_seat__seats__Seat__give_waited____553c7e4ebf26217f_,"ax",@progbits
	.p2align	4
	.type	ww_seat__seats__Seat__give_waited____553c7e4ebf26217f_,@function
ww_seat__seats__Seat__give_waited____553c7e4ebf26217f_:
	pushq	%rbp
	pushq	%r15
	pushq	%r14
	pushq	%r13
	pushq	%r12
	pushq	%rbx
	subq	$72, %rsp
	movq	%r8, 64(%rsp)
	movq	%rcx, 56(%rsp)
	movl	%edx, %ebx
	movq	%rsi, %r12
	movq	%rdi, %r15
	callq	ww_seat__seats__Seat__spin_into_owned____553c7e4ebf26217f_
	cmpb	$0, .Lstatic.0(%rip)
	jne	.LBB74_76
	movq	(%r12), %rax
	cmpl	$65, 68(%r12)
	setb	%cl
	movl	%ebx, %r10d
	addb	%cl, %cl
	incb	%cl
	movq	%r10, %rdx
	shlq	%cl, %rdx
	#APP
	#NO_APP
	movq	128(%rax,%rdx,8), %rax
	#APP
	#NO_APP
	movl	%eax, %r14d
	andb	$7, %r14b
	movl	%eax, %ebp
	shrl	$3, %ebp
	cmpb	$5, %r14b
	movq	%r12, %r9
	ja	.LBB74_3
	movl	%eax, %ecx
	andl	$7, %ecx
	movl	$43, %edx
	btl	%ecx, %edx
	jae	.LBB74_3
	xorl	%ecx, %ecx
	andl	$31, %ebp
	setne	%cl
	movl	%ebp, %edx
	subl	%ecx, %edx
	movq	%rax, %rdi
	shrq	$8, %rdi
	testl	%ebp, %ebp
	movl	%edx, %ebp
	je	.LBB74_11
	cmpw	$16, %bp
	setb	%cl
	movq	%rax, %rdx
	shrq	$57, %rdx
	sete	%dl
	orb	%cl, %dl
	je	.LBB74_76
	cmpb	$2, %r14b
	jae	.LBB74_7
	jmp	.LBB74_9
.LBB74_11:
	testq	%rdi, %rdi
	jne	.LBB74_76
	cmpb	$2, %r14b
	jae	.LBB74_76
	movl	%eax, %ecx
	andl	$7, %ecx
	movb	$1, %dl
	movl	%edx, 12(%rsp)
	xorl	%edi, %edi
	jmp	.LBB74_16
.LBB74_3:
	andl	$4095, %ebp
	movq	%rax, %rdi
	shrq	$15, %rdi
	xorb	$7, %r14b
	cmpb	$2, %r14b
	jb	.LBB74_9
.LBB74_7:
	cmpb	$3, %r14b
	je	.LBB74_9
	movzbl	%r14b, %ecx
	cmpl	$5, %ecx
	jne	.LBB74_76
.LBB74_9:
	cmpw	$15, %bp
	ja	.LBB74_14
	movzbl	%r14b, %ecx
	movswl	%bp, %edx
	andl	$8191, %edx
	movq	%rdi, %rsi
	shlq	$8, %rsi
	orq	%rcx, %rsi
	leaq	(%rsi,%rdx,8), %rcx
	addq	$8, %rcx
	jmp	.LBB74_15
.LBB74_14:
	movl	%r14d, %ecx
	xorb	$7, %cl
	movzbl	%cl, %edx
	movzwl	%bp, %ecx
	movq	%rdi, %rsi
	shlq	$15, %rsi
	leaq	(%rsi,%rcx,8), %rcx
	orq	%rdx, %rcx
.LBB74_15:
	movl	$0, 12(%rsp)
.LBB74_16:
	cmpq	%rax, %rcx
	jne	.LBB74_76
	movq	%rdi, 24(%rsp)
	leal	64(%rbx), %r8d
	movq	328(%r15), %rax
	cmpl	%r8d, 60(%r15,%rax,4)
	jne	.LBB74_18
.LBB74_19:
	movq	8(%r9), %rax
	movl	%r8d, %r12d
	leaq	(,%r12,8), %rcx
	leaq	(%rcx,%rcx,4), %r13
	cmpb	$0, (%rax,%r13)
	jne	.LBB74_76
	movzbl	8(%rax,%r13), %ecx
	testb	%cl, %cl
	je	.LBB74_21
	cmpq	$0, 32(%rax,%r13)
	je	.LBB74_21
	movq	16(%rax,%r13), %rdx
	movzwl	16(%rdx), %r11d
	movb	$1, %dil
	jmp	.LBB74_24
.LBB74_21:
	xorl	%r11d, %r11d
	xorl	%edi, %edi
.LBB74_24:
	movzbl	64(%r9), %esi
	movq	328(%r15), %rdx
	movl	60(%r15,%rdx,4), %edx
	cmpl	%esi, %ebx
	jae	.LBB74_49
	cmpl	%r8d, %edx
	jne	.LBB74_26
	shlq	$3, %r12
	leaq	(%r12,%r12,4), %rcx
	cmpb	$0, (%rax,%rcx)
	jne	.LBB74_76
.LBB74_28:
	movb	$1, %r12b
	cmpb	$0, 8(%rax,%rcx)
	je	.LBB74_29
	cmpq	$0, 32(%rax,%rcx)
	je	.LBB74_29
	cmpb	$3, %r14b
	jne	.LBB74_33
	xorl	%r12d, %r12d
	movq	16(%rax,%rcx), %rax
	movzwl	16(%rax), %esi
	movq	24(%rax), %r13
	movb	$5, %cl
	movq	328(%r15), %rax
	cmpl	%ebx, 60(%r15,%rax,4)
	je	.LBB74_36
	jmp	.LBB74_35
.LBB74_49:
	cmpl	%r8d, %edx
	jne	.LBB74_50
	movb	$1, %sil
	testb	%cl, %cl
	je	.LBB74_53
.LBB74_54:
	cmpq	$0, 32(%rax,%r13)
	je	.LBB74_53
	movl	%edi, %r12d
	cmpb	$3, %r14b
	jne	.LBB74_57
	xorl	%esi, %esi
	movq	16(%rax,%r13), %rax
	movzwl	16(%rax), %ecx
	movq	24(%rax), %rdx
	movb	$5, %dil
	cmpb	$0, 12(%rsp)
	je	.LBB74_60
	jmp	.LBB74_59
.LBB74_29:
	xorl	%esi, %esi
	xorl	%r13d, %r13d
	xorl	%ecx, %ecx
	movq	328(%r15), %rax
	cmpl	%ebx, 60(%r15,%rax,4)
	jne	.LBB74_35
.LBB74_36:
	cmpb	$0, 12(%rsp)
	je	.LBB74_38
.LBB74_37:
	movzbl	%r14b, %eax
	testb	%r12b, %r12b
	jne	.LBB74_43
.LBB74_44:
	cmpw	$15, %si
	ja	.LBB74_46
	movzbl	%cl, %ecx
	leal	8(,%rsi,8), %edx
	movzwl	%dx, %edx
	shlq	$8, %r13
	orq	%rcx, %r13
	orq	%rdx, %r13
	jmp	.LBB74_47
.LBB74_46:
	xorb	$7, %cl
	movzbl	%cl, %ecx
	movzwl	%si, %edx
	shlq	$15, %r13
	leaq	(%r13,%rdx,8), %r13
	orq	%rcx, %r13
	jmp	.LBB74_47
.LBB74_57:
	movb	$1, %sil
	xorl	%ecx, %ecx
	xorl	%edx, %edx
	movb	$1, %dil
	cmpb	$0, 12(%rsp)
	jne	.LBB74_59
.LBB74_60:
	movl	%r8d, %ebx
	cmpw	$15, %bp
	ja	.LBB74_62
	movzbl	%r14b, %eax
	movswl	%bp, %r8d
	andl	$8191, %r8d
	movq	24(%rsp), %r14
	shlq	$8, %r14
	orq	%rax, %r14
	leaq	(%r14,%r8,8), %rax
	addq	$8, %rax
	movl	%ebx, %r8d
	testb	%sil, %sil
	je	.LBB74_66
	jmp	.LBB74_65
.LBB74_62:
	xorb	$7, %r14b
	movzbl	%r14b, %r8d
	movzwl	%bp, %eax
	movq	24(%rsp), %r14
	shlq	$15, %r14
	leaq	(%r14,%rax,8), %rax
	orq	%r8, %rax
	movl	%ebx, %r8d
	testb	%sil, %sil
	jne	.LBB74_65
.LBB74_66:
	cmpw	$15, %cx
	ja	.LBB74_68
	movzbl	%dil, %esi
	leal	8(,%rcx,8), %ecx
	movzwl	%cx, %ecx
	shlq	$8, %rdx
	orq	%rsi, %rdx
	orq	%rcx, %rdx
	jmp	.LBB74_69
.LBB74_68:
	xorb	$7, %dil
	movzbl	%dil, %esi
	movzwl	%cx, %ecx
	shlq	$15, %rdx
	leaq	(%rdx,%rcx,8), %rdx
	orq	%rsi, %rdx
	jmp	.LBB74_69
.LBB74_33:
	movb	$1, %r12b
	xorl	%esi, %esi
	xorl	%r13d, %r13d
	movb	$1, %cl
	movq	328(%r15), %rax
	cmpl	%ebx, 60(%r15,%rax,4)
	je	.LBB74_36
.LBB74_35:
	movl	%edi, 4(%rsp)
	leaq	64(%r15), %rdi
	movq	%rsi, 16(%rsp)
	movl	%ebx, %esi
	movq	%r9, 32(%rsp)
	movl	%r12d, 44(%rsp)
	movq	%r10, %r12
	movl	%r11d, 8(%rsp)
	movl	%r8d, %ebx
	movq	%rcx, 48(%rsp)
	callq	ww_invariant__slots_out__turn_to
	movq	48(%rsp), %rcx
	movq	16(%rsp), %rsi
	movl	4(%rsp), %edi
	movl	%ebx, %r8d
	movl	8(%rsp), %r11d
	movq	%r12, %r10
	movl	44(%rsp), %r12d
	movq	32(%rsp), %r9
	cmpb	$0, 12(%rsp)
	jne	.LBB74_37
.LBB74_38:
	movq	%rcx, %rbx
	cmpw	$15, %bp
	ja	.LBB74_40
	movzbl	%r14b, %eax
	movswl	%bp, %ecx
	andl	$8191, %ecx
	movq	24(%rsp), %rdx
	shlq	$8, %rdx
	orq	%rax, %rdx
	leaq	(%rdx,%rcx,8), %rax
	addq	$8, %rax
	movq	%rbx, %rcx
	testb	%r12b, %r12b
	je	.LBB74_44
	jmp	.LBB74_43
.LBB74_40:
	xorb	$7, %r14b
	movzbl	%r14b, %ecx
	movzwl	%bp, %eax
	movq	24(%rsp), %rdx
	shlq	$15, %rdx
	leaq	(%rdx,%rax,8), %rax
	orq	%rcx, %rax
	movq	%rbx, %rcx
	testb	%r12b, %r12b
	je	.LBB74_44
.LBB74_43:
	movzbl	%cl, %r13d
.LBB74_47:
	cmpl	$65, 68(%r9)
	setb	%cl
	addb	%cl, %cl
	incb	%cl
	movq	%r10, %rdx
	shlq	%cl, %rdx
	movq	(%r9), %rcx
	#APP
	#NO_APP
	lock		cmpxchgq	%r13, 128(%rcx,%rdx,8)
	#APP
	#NO_APP
	movq	328(%r15), %rax
	testq	%rax, %rax
	je	.LBB74_70
	leaq	-1(%rax), %rcx
	movq	%rcx, 328(%r15)
	movl	$0, 60(%r15,%rax,4)
	jmp	.LBB74_70
.LBB74_18:
	leaq	64(%r15), %rdi
	movl	%r8d, %esi
	movq	%r9, %r12
	movq	%r10, %r13
	movl	%r8d, 16(%rsp)
	callq	ww_invariant__slots_out__turn_to
	movl	16(%rsp), %r8d
	movq	%r13, %r10
	movq	%r12, %r9
	jmp	.LBB74_19
.LBB74_26:
	movl	%edi, 4(%rsp)
	leaq	64(%r15), %rdi
	movl	%r8d, %esi
	movq	%r9, 32(%rsp)
	movq	%r10, %r13
	movl	%r11d, 8(%rsp)
	movl	%r8d, 16(%rsp)
	callq	ww_invariant__slots_out__turn_to
	movl	4(%rsp), %edi
	movl	16(%rsp), %r8d
	movl	8(%rsp), %r11d
	movq	%r13, %r10
	movq	32(%rsp), %r9
	movq	8(%r9), %rax
	shlq	$3, %r12
	leaq	(%r12,%r12,4), %rcx
	cmpb	$0, (%rax,%rcx)
	je	.LBB74_28
	jmp	.LBB74_76
.LBB74_50:
	movl	%edi, 4(%rsp)
	movl	%r11d, 8(%rsp)
	movq	%r10, 16(%rsp)
	leaq	64(%r15), %rdi
	movl	%r8d, %r12d
	movl	%r8d, %esi
	movq	%r9, %rbx
	callq	ww_invariant__slots_out__turn_to
	movq	8(%rbx), %rax
	cmpb	$0, (%rax,%r13)
	jne	.LBB74_76
	movq	%rbx, %r9
	movzbl	8(%rax,%r13), %ecx
	movq	16(%rsp), %r10
	movl	8(%rsp), %r11d
	movl	%r12d, %r8d
	movl	4(%rsp), %edi
	movb	$1, %sil
	testb	%cl, %cl
	jne	.LBB74_54
.LBB74_53:
	movl	%edi, %r12d
	xorl	%ecx, %ecx
	xorl	%edx, %edx
	xorl	%edi, %edi
	cmpb	$0, 12(%rsp)
	je	.LBB74_60
.LBB74_59:
	movzbl	%r14b, %eax
	testb	%sil, %sil
	je	.LBB74_66
.LBB74_65:
	movzbl	%dil, %edx
.LBB74_69:
	cmpl	$65, 68(%r9)
	setb	%cl
	addb	%cl, %cl
	incb	%cl
	movq	%r10, %rsi
	shlq	%cl, %rsi
	movq	(%r9), %rcx
	#APP
	#NO_APP
	lock		cmpxchgq	%rdx, 128(%rcx,%rsi,8)
	#APP
	#NO_APP
	movl	%r12d, %edi
.LBB74_70:
	movq	328(%r15), %rax
	cmpl	%r8d, 60(%r15,%rax,4)
	jne	.LBB74_71
.LBB74_72:
	cmpl	$65, 68(%r9)
	setb	%cl
	addb	%cl, %cl
	incb	%cl
	shlq	%cl, %r10
	movq	(%r9), %rax
	#APP
	#NO_APP
	xorl	%ecx, %ecx
	xchgq	%rcx, 136(%rax,%r10,8)
	#APP
	#NO_APP
	movq	328(%r15), %rax
	testq	%rax, %rax
	je	.LBB74_74
	leaq	-1(%rax), %rcx
	movq	%rcx, 328(%r15)
	movl	$0, 60(%r15,%rax,4)
.LBB74_74:
	testb	%dil, %dil
	jne	.LBB74_77
	addq	$72, %rsp
	popq	%rbx
	popq	%r12
	popq	%r13
	popq	%r14
	popq	%r15
	popq	%rbp
	retq
.LBB74_71:
	movl	%edi, %r12d
	leaq	64(%r15), %rdi
	movl	%r8d, %esi
	movq	%r9, %rbx
	movq	%r10, %r14
	movl	%r11d, %ebp
	callq	ww_invariant__slots_out__turn_to
	movl	%r12d, %edi
	movl	%ebp, %r11d
	movq	%r14, %r10
	movq	%rbx, %r9
	jmp	.LBB74_72
.LBB74_77:
	movl	%r11d, %edi
	movq	56(%rsp), %rsi
	movq	64(%rsp), %rdx
	addq	$72, %rsp
	popq	%rbx
	popq	%r12
	popq	%r13
	popq	%r14
	popq	%r15
	popq	%rbp
	jmp	ww_seat__wake__wake_seat
.LBB74_76:
	ud2
.Lfunc_end74:
	.size	ww_seat__seats__Seat__give_waited____553c7e4ebf26217f_, .Lfunc_end74-ww_seat__seats__Seat__give_waited____553c7e4ebf26217f_

	.section	.text.unlikely.ww_seat__seats__Seat__spin_into_owned____553c7e4ebf26217f_,"ax",@progbits
	.p2align	4
	.type	ww_seat__seats__Seat__spin_into_owned____553c7e4ebf26217f_,@function
ww_seat__seats__Seat__spin_into_owned____553c7e4ebf26217f_:
	pushq	%rbp
	pushq	%r15
	pushq	%r14
	pushq	%r13
	pushq	%r12
	pushq	%rbx
	pushq	%rax
	movl	%edx, %ebp
	movq	%rsi, %r14
	movq	%rdi, %rbx
	movl	%edx, %r12d
	movq	$-1, %r13
	xorl	%r15d, %r15d
	jmp	.LBB75_1
	.p2align	4
.LBB75_12:
	incl	%r15d
.LBB75_13:
	cmpb	$0, .Lstatic.0(%rip)
	jne	.LBB75_14
.LBB75_1:
	subq	$1, %r13
	jb	.LBB75_2
.LBB75_3:
	cmpb	$0, .Lstatic.0(%rip)
	jne	.LBB75_14
	movq	(%r14), %rdx
	movzwl	2(%rbx), %esi
	incq	%rsi
	cmpl	$65, 68(%r14)
	setb	%cl
	addb	%cl, %cl
	incb	%cl
	movq	%r12, %rdi
	shlq	%cl, %rdi
	#APP
	#NO_APP
	xorl	%eax, %eax
	lock		cmpxchgq	%rsi, 136(%rdx,%rdi,8)
	#APP
	#NO_APP
	je	.LBB75_15
	cmpl	$6, %r15d
	ja	.LBB75_8
	movl	$1, %eax
	.p2align	4
.LBB75_7:
	pause
	movl	%eax, %edx
	movl	%r15d, %ecx
	shrl	%cl, %edx
	incl	%eax
	testl	%edx, %edx
	je	.LBB75_7
	jmp	.LBB75_12
	.p2align	4
.LBB75_8:
	callq	sched_yield@PLT
	cmpb	$0, .Lstatic.0(%rip)
	jne	.LBB75_14
	cmpb	$0, .Lstatic.0(%rip)
	jne	.LBB75_14
	cmpb	$0, .Lstatic.0(%rip)
	jne	.LBB75_14
	cmpl	$10, %r15d
	jbe	.LBB75_12
	jmp	.LBB75_13
.LBB75_2:
	callq	core__atomic__block____553c7e4ebf26217f_
	cmpb	$0, .Lstatic.0(%rip)
	je	.LBB75_3
.LBB75_14:
	ud2
.LBB75_15:
	addl	$64, %ebp
	movq	328(%rbx), %rax
	movl	%ebp, 64(%rbx,%rax,4)
	incq	%rax
	movq	%rax, 328(%rbx)
	addq	$8, %rsp
	popq	%rbx
	popq	%r12
	popq	%r13
	popq	%r14
	popq	%r15
	popq	%rbp
	retq
.Lfunc_end75:
	.size	ww_seat__seats__Seat__spin_into_owned____553c7e4ebf26217f_, .Lfunc_end75-ww_seat__seats__Seat__spin_into_owned____553c7e4ebf26217f_

	.section	.text.ww_lock__hand__Hand__commit,"ax",@progbits
	.p2align	4
	.type	ww_lock__hand__Hand__commit,@function
ww_lock__hand__Hand__commit:
	pushq	%rbp
	pushq	%r15
	pushq	%r14
	pushq	%r13
	pushq	%r12
	pushq	%rbx
	subq	$168, %rsp
	movq	%rdx, %r15
	movq	%rsi, %r12
	movq	%rdi, %rbx
	movzbl	80(%rcx), %eax
	movb	%al, 7(%rsp)
	movzbl	81(%rcx), %eax
	movb	%al, 6(%rsp)
	movzbl	82(%rcx), %eax
	movb	%al, 5(%rsp)
	movq	120(%rcx), %rax
	movq	%rax, 16(%rsp)
	movq	128(%rcx), %rbp
	movq	136(%rcx), %rax
	movq	%rax, 40(%rsp)
	xorps	%xmm0, %xmm0
	movups	%xmm0, 61(%rsp)
	movaps	%xmm0, 48(%rsp)
	movl	1(%rcx), %eax
	movl	4(%rcx), %edx
	movl	%edx, 11(%rsp)
	movl	%eax, 8(%rsp)
	movups	16(%rcx), %xmm0
	movups	32(%rcx), %xmm1
	movups	48(%rcx), %xmm2
	movups	64(%rcx), %xmm3
	movaps	%xmm3, 128(%rsp)
	movaps	%xmm2, 112(%rsp)
	movaps	%xmm1, 96(%rsp)
	movaps	%xmm0, 80(%rsp)
	movups	88(%rcx), %xmm0
	movaps	%xmm0, 144(%rsp)
	movq	104(%rcx), %rax
	movq	%rax, 160(%rsp)
	movq	344(%rsi), %r8
	movzbl	2(%rsi), %eax
	movq	(%r15), %rcx
	#APP
	#NO_APP
	movl	$1, %edi
	lock		xaddq	%rdi, 64(%rcx)
	#APP
	#NO_APP
	movq	336(%rsi), %rcx
	movq	344(%rsi), %rdx
	leaq	(%rdx,%rdx,2), %rsi
	shlq	$5, %rsi
	movq	%rdi, 24(%rsp)
	movq	%rdi, (%rcx,%rsi)
	movq	$0, 8(%rcx,%rsi)
	movb	%al, 16(%rcx,%rsi)
	movl	8(%rsp), %eax
	movl	11(%rsp), %edi
	movl	%eax, 17(%rcx,%rsi)
	movl	%edi, 20(%rcx,%rsi)
	movq	%r8, 32(%rsp)
	movq	%r8, 24(%rcx,%rsi)
	movaps	80(%rsp), %xmm0
	movaps	96(%rsp), %xmm1
	movaps	112(%rsp), %xmm2
	movaps	128(%rsp), %xmm3
	movups	%xmm0, 32(%rcx,%rsi)
	movups	%xmm1, 48(%rcx,%rsi)
	movups	%xmm2, 64(%rcx,%rsi)
	movups	%xmm3, 80(%rcx,%rsi)
	incq	%rdx
	movq	%rdx, 344(%r12)
	testq	%rbp, %rbp
	je	.LBB76_6
	imulq	$56, %rbp, %rax
	movq	16(%rsp), %rcx
	leaq	(%rax,%rcx), %r14
	addq	$-24, %r14
	.p2align	4
.LBB76_2:
	movzbl	-32(%r14), %r13d
	movq	16(%r14), %rax
	movq	%rax, 96(%rsp)
	movups	(%r14), %xmm0
	movaps	%xmm0, 80(%rsp)
	movq	328(%r12), %rax
	cmpl	%r13d, 60(%r12,%rax,4)
	jne	.LBB76_3
	movq	8(%r15), %rax
	leaq	(,%r13,4), %rcx
	addq	%r13, %rcx
	cmpb	$1, (%rax,%rcx,8)
	jne	.LBB76_9
.LBB76_5:
	decq	%rbp
	leaq	(%rax,%rcx,8), %rax
	movq	96(%rsp), %rcx
	movq	%rcx, 24(%rax)
	movaps	80(%rsp), %xmm0
	movups	%xmm0, 8(%rax)
	addq	$-56, %r14
	testq	%rbp, %rbp
	jne	.LBB76_2
	jmp	.LBB76_6
.LBB76_3:
	leaq	64(%r12), %rdi
	movl	%r13d, %esi
	callq	ww_invariant__slots_out__turn_to
	movq	8(%r15), %rax
	leaq	(,%r13,4), %rcx
	addq	%r13, %rcx
	cmpb	$1, (%rax,%rcx,8)
	je	.LBB76_5
.LBB76_9:
	ud2
.LBB76_6:
	movq	160(%rsp), %rax
	movq	%rax, 69(%rsp)
	movaps	144(%rsp), %xmm0
	movups	%xmm0, 53(%rsp)
	cmpq	$0, 40(%rsp)
	je	.LBB76_8
	movq	16(%rsp), %rdi
	callq	rattle_dealloc@PLT
.LBB76_8:
	movq	24(%rsp), %rax
	movq	%rax, (%rbx)
	movq	32(%rsp), %rax
	movq	%rax, 8(%rbx)
	movzbl	7(%rsp), %eax
	movb	%al, 16(%rbx)
	movzbl	6(%rsp), %eax
	movb	%al, 17(%rbx)
	movzbl	5(%rsp), %eax
	movb	%al, 18(%rbx)
	movaps	48(%rsp), %xmm0
	movups	%xmm0, 19(%rbx)
	movq	61(%rsp), %rax
	movq	%rax, 32(%rbx)
	movq	69(%rsp), %rax
	movq	%rax, 40(%rbx)
	addq	$168, %rsp
	popq	%rbx
	popq	%r12
	popq	%r13
	popq	%r14
	popq	%r15
	popq	%rbp
	retq
.Lfunc_end76:
	.size	ww_lock__hand__Hand__commit, .Lfunc_end76-ww_lock__hand__Hand__commit

	.section	.text.ww_txn__transacting__transact_together____fe3652beb542c953_,"ax",@progbits
	.p2align	4
	.type	ww_txn__transacting__transact_together____fe3652beb542c953_,@function
ww_txn__transacting__transact_together____fe3652beb542c953_:
	pushq	%rbp
	pushq	%r15
	pushq	%r14
	pushq	%r13
	pushq	%r12
	pushq	%rbx
	subq	$744, %rsp
	movq	%rcx, 296(%rsp)
	movq	%rsi, %r14
	movq	%rdi, %rbx
	movzbl	(%r8), %r11d
	movzbl	1(%r8), %esi
	movzbl	%r11b, %r15d
	movzbl	2(%r8), %r13d
	movzbl	3(%r8), %ebp
	movzbl	4(%r8), %edi
	movq	8(%r8), %r12
	movq	16(%r8), %rax
	movq	%rax, 40(%rsp)
	movq	24(%r8), %r10
	xorps	%xmm0, %xmm0
	movups	%xmm0, 269(%rsp)
	movaps	%xmm0, 256(%rsp)
	movaps	%xmm0, 240(%rsp)
	movaps	%xmm0, 224(%rsp)
	movaps	%xmm0, 512(%rsp)
	movaps	%xmm0, 528(%rsp)
	movaps	%xmm0, 544(%rsp)
	movaps	%xmm0, 672(%rsp)
	movaps	%xmm0, 688(%rsp)
	movaps	%xmm0, 704(%rsp)
	movups	%xmm0, 717(%rsp)
	movaps	%xmm0, 384(%rsp)
	movaps	%xmm0, 400(%rsp)
	movaps	%xmm0, 416(%rsp)
	movaps	%xmm0, 432(%rsp)
	movaps	%xmm0, 448(%rsp)
	movaps	%xmm0, 464(%rsp)
	movaps	%xmm0, 480(%rsp)
	movq	$0, 496(%rsp)
	movups	%xmm0, 653(%rsp)
	movaps	%xmm0, 640(%rsp)
	movaps	%xmm0, 624(%rsp)
	movaps	%xmm0, 608(%rsp)
	movaps	%xmm0, 16(%rsp)
	movq	$0, 32(%rsp)
	leaq	.LJTI77_0(%rip), %rax
	movslq	(%rax,%r15,4), %rcx
	addq	%rax, %rcx
	movq	%r12, 48(%rsp)
	movq	%r10, 56(%rsp)
	movb	%r11b, 14(%rsp)
	movb	%sil, 12(%rsp)
	movb	%bpl, 13(%rsp)
	movb	%dil, 15(%rsp)
	jmpq	*%rcx
.LBB77_1:
	movzbl	%r9b, %eax
	movl	%eax, (%rsp)
	movzbl	%sil, %ecx
	movl	%ebp, %eax
	movl	%r13d, %ebp
	movzbl	%r13b, %r8d
	movzbl	%al, %r9d
	leaq	16(%rsp), %rdi
	movq	%r14, %rsi
	callq	ww_users__walk__lock_walk_as____553c7e4ebf26217f_
	jmp	.LBB77_21
.LBB77_2:
	movb	%sil, 64(%rsp)
	movl	%r13d, %ebp
	movb	%r13b, 65(%rsp)
	movzbl	%r9b, %r9d
	leaq	16(%rsp), %rdi
	leaq	64(%rsp), %rcx
	movl	$2, %r8d
	jmp	.LBB77_10
.LBB77_3:
	movaps	%xmm0, 64(%rsp)
	movq	$0, 80(%rsp)
	cmpb	$1, %bpl
	setne	%al
	cmpb	%sil, %dil
	sete	%cl
	orb	%al, %cl
	je	.LBB77_11
	movb	%sil, 304(%rsp)
	movzbl	%r9b, %r9d
	leaq	64(%rsp), %rdi
	leaq	304(%rsp), %rcx
	movl	$1, %r8d
	jmp	.LBB77_12
.LBB77_5:
	movl	%r13d, %ebp
	movzbl	%r9b, %eax
	movl	%eax, (%rsp)
	movzbl	%sil, %ecx
	leaq	16(%rsp), %rdi
	movq	%r14, %rsi
	movq	%r12, %r8
	movq	40(%rsp), %r9
	jmp	.LBB77_20
.LBB77_6:
	movaps	%xmm0, 112(%rsp)
	movaps	%xmm0, 96(%rsp)
	movaps	%xmm0, 80(%rsp)
	movaps	%xmm0, 64(%rsp)
	movq	$0, 128(%rsp)
	cmpq	$0, 40(%rsp)
	je	.LBB77_19
	movq	40(%rsp), %rsi
	movl	%esi, %eax
	andl	$3, %eax
	cmpq	$4, %rsi
	jae	.LBB77_14
	xorl	%ecx, %ecx
	jmp	.LBB77_17
.LBB77_9:
	movl	%r13d, %ebp
	movb	%sil, 64(%rsp)
	movzbl	%r9b, %r9d
	leaq	16(%rsp), %rdi
	leaq	64(%rsp), %rcx
	movl	$1, %r8d
.LBB77_10:
	movq	%r14, %rsi
	callq	ww_users__fixed_list__lock_list_as____553c7e4ebf26217f_
	jmp	.LBB77_21
.LBB77_11:
	movb	%sil, 304(%rsp)
	movb	%dil, 305(%rsp)
	movzbl	%r9b, %r9d
	leaq	64(%rsp), %rdi
	leaq	304(%rsp), %rcx
	movl	$2, %r8d
.LBB77_12:
	movq	%r14, %rsi
	callq	ww_users__fixed_list__lock_list_as____553c7e4ebf26217f_
	cmpb	$0, .Lstatic.0(%rip)
	jne	.LBB77_58
	movl	%r13d, %ebp
	movzbl	64(%rsp), %eax
	movq	72(%rsp), %rcx
	movzwl	80(%rsp), %edx
	movq	%rax, 16(%rsp)
	movq	%rcx, 24(%rsp)
	movw	%dx, 32(%rsp)
	jmp	.LBB77_21
.LBB77_14:
	andq	$-4, %rsi
	leaq	48(%r12), %rdi
	xorl	%ecx, %ecx
	.p2align	4
.LBB77_15:
	movzbl	-48(%rdi), %r8d
	movb	%r8b, 64(%rsp,%rcx)
	leaq	1(%rcx), %r8
	movq	%r8, 128(%rsp)
	movzbl	-32(%rdi), %r8d
	movb	%r8b, 65(%rsp,%rcx)
	leaq	2(%rcx), %r8
	movq	%r8, 128(%rsp)
	movzbl	-16(%rdi), %r8d
	movb	%r8b, 66(%rsp,%rcx)
	leaq	3(%rcx), %r8
	movq	%r8, 128(%rsp)
	movzbl	(%rdi), %r8d
	movb	%r8b, 67(%rsp,%rcx)
	addq	$4, %rcx
	movq	%rcx, 128(%rsp)
	addq	$64, %rdi
	cmpq	%rcx, %rsi
	jne	.LBB77_15
	testq	%rax, %rax
	je	.LBB77_19
.LBB77_17:
	leaq	1(%rcx), %rsi
	shlq	$4, %rcx
	addq	%r12, %rcx
	shll	$4, %eax
	xorl	%edi, %edi
	.p2align	4
.LBB77_18:
	movzbl	(%rcx,%rdi), %r8d
	movb	%r8b, 63(%rsp,%rsi)
	movq	%rsi, 128(%rsp)
	incq	%rsi
	addq	$16, %rdi
	cmpq	%rdi, %rax
	jne	.LBB77_18
.LBB77_19:
	movl	%r13d, %ebp
	movq	128(%rsp), %rax
	movq	%rax, 368(%rsp)
	movaps	64(%rsp), %xmm0
	movaps	80(%rsp), %xmm1
	movaps	96(%rsp), %xmm2
	movaps	112(%rsp), %xmm3
	movaps	%xmm3, 352(%rsp)
	movaps	%xmm2, 336(%rsp)
	movaps	%xmm1, 320(%rsp)
	movaps	%xmm0, 304(%rsp)
	movzbl	%r9b, %ecx
	movl	%ecx, (%rsp)
	movzbl	12(%rsp), %ecx
	leaq	16(%rsp), %rdi
	leaq	304(%rsp), %r8
	movq	%r14, %rsi
	movq	%rax, %r9
.LBB77_20:
	callq	ww_txn__ways__lock_by____553c7e4ebf26217f_
.LBB77_21:
	cmpb	$0, .Lstatic.0(%rip)
	jne	.LBB77_58
	movzbl	16(%rsp), %ecx
	movq	24(%rsp), %r13
	movzbl	32(%rsp), %r12d
	movzbl	33(%rsp), %eax
	cmpb	$0, .Lstatic.0(%rip)
	jne	.LBB77_58
	testb	%cl, %cl
	movzbl	15(%rsp), %ecx
	je	.LBB77_28
	xorl	%ecx, %ecx
	testb	%r12b, %r12b
	movzbl	%al, %ebp
	cmovel	%ecx, %ebp
	movups	685(%rsp), %xmm0
	movups	701(%rsp), %xmm1
	movups	717(%rsp), %xmm2
	movups	%xmm2, 269(%rsp)
	movups	%xmm1, 253(%rsp)
	movups	%xmm0, 237(%rsp)
	leal	-2(%r15), %eax
	cmpl	$5, %eax
	jb	.LBB77_27
	cmpl	$1, %r15d
	cmpq	$0, 56(%rsp)
	je	.LBB77_27
	movq	48(%rsp), %rdi
	callq	rattle_dealloc@PLT
.LBB77_27:
	movq	%r13, (%rbx)
	movq	$0, 8(%rbx)
	movb	$1, 16(%rbx)
	movb	%r12b, 17(%rbx)
	movb	%bpl, 18(%rbx)
	jmp	.LBB77_57
.LBB77_28:
	xorps	%xmm0, %xmm0
	movaps	%xmm0, 64(%rsp)
	movaps	%xmm0, 80(%rsp)
	movaps	%xmm0, 96(%rsp)
	movaps	%xmm0, 112(%rsp)
	movaps	%xmm0, 128(%rsp)
	movaps	%xmm0, 144(%rsp)
	movaps	%xmm0, 160(%rsp)
	movaps	%xmm0, 176(%rsp)
	movaps	%xmm0, 192(%rsp)
	movaps	%xmm0, 208(%rsp)
	movq	$0, 304(%rsp)
	movzbl	14(%rsp), %eax
	movb	%al, 304(%rsp)
	movzbl	12(%rsp), %eax
	movb	%al, 305(%rsp)
	movb	%bpl, 306(%rsp)
	movzbl	13(%rsp), %eax
	movb	%al, 307(%rsp)
	movb	%cl, 308(%rsp)
	movq	48(%rsp), %rax
	movq	%rax, 312(%rsp)
	movq	40(%rsp), %rax
	movq	%rax, 320(%rsp)
	movq	56(%rsp), %rax
	movq	%rax, 328(%rsp)
	leaq	64(%rsp), %rdi
	leaq	304(%rsp), %rdx
	movq	%r13, %rsi
	callq	ww_lock__hand__Hand__prepare
	movzbl	72(%rsp), %ecx
	movq	80(%rsp), %rdi
	movq	96(%rsp), %rax
	movups	88(%rsp), %xmm0
	movups	104(%rsp), %xmm1
	movaps	%xmm1, 384(%rsp)
	movups	120(%rsp), %xmm1
	movaps	%xmm1, 400(%rsp)
	movups	136(%rsp), %xmm1
	movaps	%xmm1, 416(%rsp)
	movups	152(%rsp), %xmm1
	movaps	%xmm1, 432(%rsp)
	movups	168(%rsp), %xmm1
	movaps	%xmm1, 448(%rsp)
	movups	184(%rsp), %xmm1
	movaps	%xmm1, 464(%rsp)
	movups	200(%rsp), %xmm1
	movaps	%xmm1, 480(%rsp)
	movq	216(%rsp), %rdx
	movq	%rdx, 496(%rsp)
	cmpb	$0, 64(%rsp)
	je	.LBB77_44
	leal	-2(%rcx), %edx
	cmpl	$5, %edx
	jb	.LBB77_33
	cmpl	$1, %ecx
	testq	%rax, %rax
	je	.LBB77_33
	callq	rattle_dealloc@PLT
	jmp	.LBB77_33
	.p2align	4
.LBB77_32:
	movb	$0, 396(%r13,%rdx)
.LBB77_33:
	movq	328(%r13), %rax
	testq	%rax, %rax
	je	.LBB77_38
	movl	60(%r13,%rax,4), %edx
	movq	(%r14), %rcx
	movq	56(%r13), %rax
	movq	%rdx, %rsi
	shlq	$6, %rsi
	#APP
	#NO_APP
	xorl	%edi, %edi
	lock		cmpxchgq	%rdi, 128(%rcx,%rsi)
	#APP
	#NO_APP
	jne	.LBB77_37
	movq	328(%r13), %rax
	testq	%rax, %rax
	je	.LBB77_32
	leaq	-1(%rax), %rcx
	movq	%rcx, 328(%r13)
	movl	$0, 60(%r13,%rax,4)
	jmp	.LBB77_32
.LBB77_37:
	movq	%r13, %rdi
	movq	%r14, %rsi
	callq	ww_lock__hand__Hand__give_waited____553c7e4ebf26217f_
	cmpb	$0, .Lstatic.0(%rip)
	je	.LBB77_33
	jmp	.LBB77_58
.LBB77_38:
	cmpb	$0, .Lstatic.0(%rip)
	jne	.LBB77_58
	cmpb	$0, .Lstatic.0(%rip)
	jne	.LBB77_58
	movq	(%r14), %rax
	movq	24(%r13), %rcx
	#APP
	#NO_APP
	movq	(%rax,%rcx,8), %rax
	#APP
	#NO_APP
	testq	%rax, %rax
	je	.LBB77_42
	movq	24(%r13), %rax
	movq	(%r14), %rcx
	#APP
	#NO_APP
	xorl	%edx, %edx
	xchgq	%rdx, (%rcx,%rax,8)
	#APP
	#NO_APP
	movq	(%r14), %rax
	movq	24(%r13), %rcx
	#APP
	#NO_APP
	movq	(%rax,%rcx,8), %rax
	#APP
	#NO_APP
	testq	%rax, %rax
	jne	.LBB77_43
.LBB77_42:
	movq	$0, 32(%r13)
	movq	40(%r13), %rax
	movq	%rax, 56(%r13)
.LBB77_43:
	movups	621(%rsp), %xmm0
	movups	637(%rsp), %xmm1
	movups	653(%rsp), %xmm2
	movups	%xmm2, 269(%rsp)
	movups	%xmm1, 253(%rsp)
	movups	%xmm0, 237(%rsp)
	movq	%r13, (%rbx)
	movq	$0, 8(%rbx)
	movw	$769, 16(%rbx)
	movb	$0, 18(%rbx)
	jmp	.LBB77_57
.LBB77_44:
	movq	296(%rsp), %rax
	movb	$1, 24(%rax)
	xorps	%xmm1, %xmm1
	movaps	%xmm1, 560(%rsp)
	movaps	%xmm1, 576(%rsp)
	movaps	%xmm1, 592(%rsp)
	movq	%rdi, 64(%rsp)
	movups	%xmm0, 72(%rsp)
	movaps	384(%rsp), %xmm0
	movaps	400(%rsp), %xmm1
	movaps	416(%rsp), %xmm2
	movaps	432(%rsp), %xmm3
	movups	%xmm0, 88(%rsp)
	movups	%xmm1, 104(%rsp)
	movups	%xmm2, 120(%rsp)
	movups	%xmm3, 136(%rsp)
	movaps	448(%rsp), %xmm0
	movups	%xmm0, 152(%rsp)
	movaps	464(%rsp), %xmm0
	movups	%xmm0, 168(%rsp)
	movaps	480(%rsp), %xmm0
	movups	%xmm0, 184(%rsp)
	movq	496(%rsp), %rax
	movq	%rax, 200(%rsp)
	leaq	560(%rsp), %rdi
	leaq	64(%rsp), %rcx
	movq	%r13, %rsi
	movq	%r14, %rdx
	callq	ww_lock__hand__Hand__commit
	movaps	560(%rsp), %xmm0
	movaps	576(%rsp), %xmm1
	movaps	592(%rsp), %xmm2
	movaps	%xmm2, 544(%rsp)
	movaps	%xmm1, 528(%rsp)
	movaps	%xmm0, 512(%rsp)
	jmp	.LBB77_46
	.p2align	4
.LBB77_45:
	movb	$0, 396(%r13,%rdx)
.LBB77_46:
	movq	328(%r13), %rax
	testq	%rax, %rax
	je	.LBB77_51
	movl	60(%r13,%rax,4), %edx
	movq	(%r14), %rcx
	movq	56(%r13), %rax
	movq	%rdx, %rsi
	shlq	$6, %rsi
	#APP
	#NO_APP
	xorl	%edi, %edi
	lock		cmpxchgq	%rdi, 128(%rcx,%rsi)
	#APP
	#NO_APP
	jne	.LBB77_50
	movq	328(%r13), %rax
	testq	%rax, %rax
	je	.LBB77_45
	leaq	-1(%rax), %rcx
	movq	%rcx, 328(%r13)
	movl	$0, 60(%r13,%rax,4)
	jmp	.LBB77_45
.LBB77_50:
	movq	%r13, %rdi
	movq	%r14, %rsi
	callq	ww_lock__hand__Hand__give_waited____553c7e4ebf26217f_
	cmpb	$0, .Lstatic.0(%rip)
	je	.LBB77_46
	jmp	.LBB77_58
.LBB77_51:
	cmpb	$0, .Lstatic.0(%rip)
	jne	.LBB77_58
	cmpb	$0, .Lstatic.0(%rip)
	jne	.LBB77_58
	movq	(%r14), %rax
	movq	24(%r13), %rcx
	#APP
	#NO_APP
	movq	(%rax,%rcx,8), %rax
	#APP
	#NO_APP
	testq	%rax, %rax
	je	.LBB77_55
	movq	24(%r13), %rax
	movq	(%r14), %rcx
	#APP
	#NO_APP
	xorl	%edx, %edx
	xchgq	%rdx, (%rcx,%rax,8)
	#APP
	#NO_APP
	movq	(%r14), %rax
	movq	24(%r13), %rcx
	#APP
	#NO_APP
	movq	(%rax,%rcx,8), %rax
	#APP
	#NO_APP
	testq	%rax, %rax
	jne	.LBB77_56
.LBB77_55:
	movq	$0, 32(%r13)
	movq	40(%r13), %rax
	movq	%rax, 56(%r13)
.LBB77_56:
	movq	296(%rsp), %rax
	movb	$2, 24(%rax)
	movaps	512(%rsp), %xmm0
	movaps	528(%rsp), %xmm1
	movaps	544(%rsp), %xmm2
	movups	%xmm2, 269(%rsp)
	movups	%xmm1, 253(%rsp)
	movups	%xmm0, 237(%rsp)
	movq	%r13, (%rbx)
	movq	$0, 8(%rbx)
	movl	$0, 15(%rbx)
.LBB77_57:
	movaps	224(%rsp), %xmm0
	movaps	240(%rsp), %xmm1
	movaps	256(%rsp), %xmm2
	movups	%xmm0, 19(%rbx)
	movups	%xmm1, 35(%rbx)
	movups	%xmm2, 51(%rbx)
	movups	269(%rsp), %xmm0
	movups	%xmm0, 64(%rbx)
	addq	$744, %rsp
	popq	%rbx
	popq	%r12
	popq	%r13
	popq	%r14
	popq	%r15
	popq	%rbp
	retq
.LBB77_58:
	ud2
.Lfunc_end77:
	.size	ww_txn__transacting__transact_together____fe3652beb542c953_, .Lfunc_end77-ww_txn__transacting__transact_together____fe3652beb542c953_
	.section	.rodata.ww_txn__transacting__transact_together____fe3652beb542c953_,"a",@progbits
	.p2align	2, 0x0
.LJTI77_0:
	.long	.LBB77_5-.LJTI77_0
	.long	.LBB77_6-.LJTI77_0
	.long	.LBB77_2-.LJTI77_0
	.long	.LBB77_3-.LJTI77_0
	.long	.LBB77_1-.LJTI77_0
	.long	.LBB77_1-.LJTI77_0
	.long	.LBB77_9-.LJTI77_0

	.section	.text.ww_txn__ways__lock_by____553c7e4ebf26217f_,"ax",@progbits
	.p2align	4
	.type	ww_txn__ways__lock_by____553c7e4ebf26217f_,@function
ww_txn__ways__lock_by____553c7e4ebf26217f_:
	pushq	%rbp
	pushq	%r15
	pushq	%r14
	pushq	%r13
	pushq	%r12
	pushq	%rbx
	subq	$344, %rsp
	movq	%rsi, %r15
	movq	%rdi, %r13
	movzbl	400(%rsp), %ebp
	xorps	%xmm0, %xmm0
	movaps	%xmm0, 240(%rsp)
	movq	$0, 256(%rsp)
	testb	%cl, %cl
	je	.LBB78_1
	movl	$0, 264(%rsp)
	movl	$0, 267(%rsp)
	movaps	%xmm0, 128(%rsp)
	movaps	%xmm0, 144(%rsp)
	movq	$0, 160(%rsp)
	movaps	%xmm0, 208(%rsp)
	movq	$0, 224(%rsp)
	movaps	%xmm0, 176(%rsp)
	movq	$0, 192(%rsp)
	movaps	%xmm0, 80(%rsp)
	movaps	%xmm0, 64(%rsp)
	movaps	%xmm0, 48(%rsp)
	movaps	%xmm0, 32(%rsp)
	cmpq	$64, %r9
	ja	.LBB78_52
	movq	%rdx, %r14
	leaq	32(%rsp), %rdi
	movq	%r8, %rsi
	movq	%r9, %rdx
	movq	%r9, %rbx
	callq	memcpy@PLT
	movq	%rbx, 335(%rsp)
	movaps	32(%rsp), %xmm0
	movaps	48(%rsp), %xmm1
	movaps	64(%rsp), %xmm2
	movaps	80(%rsp), %xmm3
	movups	%xmm0, 271(%rsp)
	movups	%xmm1, 287(%rsp)
	movups	%xmm2, 303(%rsp)
	movups	%xmm3, 319(%rsp)
	movq	%rbx, 96(%rsp)
	movaps	%xmm3, 80(%rsp)
	movaps	%xmm2, 64(%rsp)
	movaps	%xmm1, 48(%rsp)
	movaps	%xmm0, 32(%rsp)
	movq	%r14, %rdx
	movl	392(%r14), %eax
	testl	%eax, %eax
	je	.LBB78_50
	decl	%eax
	movl	%eax, 392(%rdx)
	cmpl	$0, 508(%rdx)
	jne	.LBB78_7
.LBB78_8:
	movq	(%r15), %rcx
	#APP
	#NO_APP
	movl	$1, %eax
	lock		xaddq	%rax, (%rcx)
	#APP
	#NO_APP
	incq	%rax
	cmpq	%rax, 16(%rdx)
	jb	.LBB78_52
	movq	%rax, 32(%rdx)
	imulq	48(%rdx), %rax
	addq	40(%rdx), %rax
	movq	%rax, 56(%rdx)
	cmpb	$0, .Lstatic.0(%rip)
	jne	.LBB78_52
	movq	96(%rsp), %r12
	movzbl	%bpl, %eax
	movl	%eax, 28(%rsp)
	movl	%eax, 8(%rsp)
	movl	$0, (%rsp)
	leaq	128(%rsp), %rdi
	leaq	32(%rsp), %rcx
	movq	%r15, %rsi
	movq	%r12, %r8
	xorl	%r9d, %r9d
	callq	ww_users__trip__lock_entries____553c7e4ebf26217f_
	cmpb	$0, .Lstatic.0(%rip)
	jne	.LBB78_52
	movzbl	128(%rsp), %eax
	testl	%eax, %eax
	je	.LBB78_33
	cmpl	$2, %eax
	jne	.LBB78_13
.LBB78_34:
	movq	%r15, %rdi
	movq	136(%rsp), %r15
	movzbl	144(%rsp), %r14d
	movzbl	145(%rsp), %ebp
	movq	%r15, %rsi
	callq	ww_users__context__give_up____553c7e4ebf26217f_
	cmpb	$0, .Lstatic.0(%rip)
	jne	.LBB78_52
	movq	%r15, %rdx
	movb	$1, %al
	jmp	.LBB78_51
.LBB78_1:
	movzbl	%bpl, %eax
	leaq	240(%rsp), %rdi
	movq	%r15, %rsi
	movq	%r8, %rcx
	movq	%r9, %r8
	movl	%eax, %r9d
	callq	ww_users__fixed_list__lock_list_as____553c7e4ebf26217f_
	cmpb	$0, .Lstatic.0(%rip)
	jne	.LBB78_52
	movzbl	240(%rsp), %eax
	movq	248(%rsp), %rdx
	movzbl	256(%rsp), %r14d
	movzbl	257(%rsp), %ebp
	jmp	.LBB78_3
.LBB78_50:
	movb	$1, %al
	xorl	%ebp, %ebp
	xorl	%r14d, %r14d
	jmp	.LBB78_51
.LBB78_13:
	movq	136(%rsp), %rbp
	movzbl	144(%rsp), %eax
	movb	%al, 26(%rsp)
	movq	160(%rsp), %r14
	movq	%r12, %rbx
	subq	%r14, %rbx
	cmpq	$1, %rbx
	movq	%r15, 232(%rsp)
	je	.LBB78_20
	movq	%rbp, 104(%rsp)
	movq	%r13, 112(%rsp)
	leaq	(%rsp,%r14), %r13
	addq	$32, %r13
	leaq	-1(%rbx), %rbp
	movzbl	(%r13), %eax
	movb	%al, 120(%rsp)
	cmpq	$2049, %rbp
	jb	.LBB78_15
	leaq	33(%rsp), %rax
	leaq	(%rax,%r14), %rsi
	addq	$-2050, %rbx
	andq	$-2048, %rbx
	leaq	2048(%rbx), %r15
	movq	%r13, %rdi
	movq	%r15, %rdx
	callq	memcpy@PLT
	cmpq	%r15, %rbp
	je	.LBB78_19
	addq	%rbx, %r14
	negq	%r14
	leaq	(%r12,%r14), %rdx
	addq	$-2049, %rdx
	jmp	.LBB78_18
.LBB78_15:
	xorl	%r15d, %r15d
	movq	%rbp, %rdx
.LBB78_18:
	leaq	(%r15,%r13), %rdi
	leaq	(%r15,%r13), %rsi
	incq	%rsi
	callq	memmove@PLT
.LBB78_19:
	movzbl	120(%rsp), %eax
	movb	%al, (%r13,%rbp)
	movq	96(%rsp), %r12
	movq	112(%rsp), %r13
	movq	232(%rsp), %r15
	movq	104(%rsp), %rbp
.LBB78_20:
	leaq	-1(%r12), %rax
	movq	%rax, 96(%rsp)
	movb	$0, 31(%rsp,%r12)
	movq	96(%rsp), %rdx
	movzbl	26(%rsp), %r12d
	movb	%r12b, 32(%rsp,%rdx)
	leaq	1(%rdx), %rax
	movq	%rax, 96(%rsp)
	testq	%rdx, %rdx
	je	.LBB78_24
	cmpq	$1, %rdx
	jne	.LBB78_23
	movzbl	32(%rsp), %eax
	movzbl	33(%rsp), %ecx
	movb	%cl, 32(%rsp)
	movb	%al, 32(%rsp,%rdx)
	jmp	.LBB78_24
.LBB78_23:
	movzbl	32(%rsp,%rdx), %ebx
	leaq	32(%rsp), %rsi
	leaq	33(%rsp), %rdi
	callq	memmove@PLT
	movb	%bl, 32(%rsp)
.LBB78_24:
	movq	%rbp, 176(%rsp)
	movb	%r12b, 184(%rsp)
	leaq	145(%rsp), %rcx
	movq	(%rcx), %rax
	movq	7(%rcx), %rcx
	leaq	185(%rsp), %rdx
	movq	%rcx, 7(%rdx)
	movq	%rax, (%rdx)
	leaq	208(%rsp), %rdi
	leaq	176(%rsp), %rdx
	movq	%r15, %rsi
	movl	28(%rsp), %ecx
	callq	ww_users__context__back_off____553c7e4ebf26217f_
	cmpb	$0, .Lstatic.0(%rip)
	jne	.LBB78_52
	movq	216(%rsp), %rdx
	cmpb	$0, 208(%rsp)
	je	.LBB78_26
.LBB78_49:
	movzbl	224(%rsp), %r14d
	movzbl	225(%rsp), %ebp
	movb	$1, %al
	jmp	.LBB78_51
.LBB78_26:
	movl	$2, %r14d
	movq	%r13, 112(%rsp)
	.p2align	4
.LBB78_27:
	testq	%r14, %r14
	je	.LBB78_28
.LBB78_29:
	cmpb	$0, .Lstatic.0(%rip)
	jne	.LBB78_52
	movq	96(%rsp), %rbp
	movl	28(%rsp), %eax
	movl	%eax, 8(%rsp)
	movzbl	%r12b, %eax
	movl	%eax, (%rsp)
	leaq	128(%rsp), %rdi
	leaq	32(%rsp), %rcx
	movq	%r15, %rsi
	movq	%rbp, %r8
	movl	$1, %r9d
	callq	ww_users__trip__lock_entries____553c7e4ebf26217f_
	cmpb	$0, .Lstatic.0(%rip)
	jne	.LBB78_52
	movzbl	128(%rsp), %eax
	cmpl	$1, %eax
	jne	.LBB78_32
	movq	136(%rsp), %rsi
	movzbl	144(%rsp), %eax
	movb	%al, 26(%rsp)
	movq	160(%rsp), %rbx
	movq	%rbp, %r12
	subq	%rbx, %r12
	cmpq	$1, %r12
	je	.LBB78_43
	movq	%rsi, 120(%rsp)
	leaq	(%rsp,%rbx), %r13
	addq	$32, %r13
	leaq	-1(%r12), %rdx
	movzbl	(%r13), %eax
	movb	%al, 27(%rsp)
	cmpq	$2049, %rdx
	movq	%rdx, 104(%rsp)
	jb	.LBB78_38
	leaq	33(%rsp), %rax
	leaq	(%rax,%rbx), %rsi
	addq	$-2050, %r12
	andq	$-2048, %r12
	leaq	2048(%r12), %r15
	movq	%r13, %rdi
	movq	%r15, %rdx
	callq	memcpy@PLT
	movq	104(%rsp), %rax
	cmpq	%r15, %rax
	je	.LBB78_42
	addq	%r12, %rbx
	negq	%rbx
	leaq	(%rbx,%rbp), %rdx
	addq	$-2049, %rdx
	jmp	.LBB78_41
.LBB78_38:
	xorl	%r15d, %r15d
.LBB78_41:
	leaq	(%r15,%r13), %rdi
	leaq	(%r15,%r13), %rsi
	incq	%rsi
	callq	memmove@PLT
	movq	104(%rsp), %rax
.LBB78_42:
	movzbl	27(%rsp), %ecx
	movb	%cl, (%r13,%rax)
	movq	96(%rsp), %rbp
	movq	112(%rsp), %r13
	movq	232(%rsp), %r15
	movq	120(%rsp), %rsi
.LBB78_43:
	leaq	-1(%rbp), %rax
	movq	%rax, 96(%rsp)
	movb	$0, 31(%rsp,%rbp)
	movq	96(%rsp), %rdx
	movzbl	26(%rsp), %r12d
	movb	%r12b, 32(%rsp,%rdx)
	leaq	1(%rdx), %rax
	movq	%rax, 96(%rsp)
	testq	%rdx, %rdx
	je	.LBB78_47
	cmpq	$1, %rdx
	jne	.LBB78_46
	movzbl	32(%rsp), %eax
	movzbl	33(%rsp), %ecx
	movb	%cl, 32(%rsp)
	movb	%al, 32(%rsp,%rdx)
	jmp	.LBB78_47
.LBB78_46:
	movzbl	32(%rsp,%rdx), %ebx
	movq	%rsi, %rbp
	leaq	32(%rsp), %rsi
	leaq	33(%rsp), %rdi
	callq	memmove@PLT
	movq	%rbp, %rsi
	movb	%bl, 32(%rsp)
.LBB78_47:
	movq	%rsi, 176(%rsp)
	movb	%r12b, 184(%rsp)
	leaq	145(%rsp), %rcx
	movq	(%rcx), %rax
	movq	7(%rcx), %rcx
	leaq	185(%rsp), %rdx
	movq	%rcx, 7(%rdx)
	movq	%rax, (%rdx)
	leaq	208(%rsp), %rdi
	leaq	176(%rsp), %rdx
	movq	%r15, %rsi
	movl	28(%rsp), %ecx
	callq	ww_users__context__back_off____553c7e4ebf26217f_
	cmpb	$0, .Lstatic.0(%rip)
	jne	.LBB78_52
	movq	216(%rsp), %rdx
	incq	%r14
	cmpb	$0, 208(%rsp)
	je	.LBB78_27
	jmp	.LBB78_49
.LBB78_28:
	movq	%rdx, %rbx
	callq	core__atomic__block____553c7e4ebf26217f_
	movq	%rbx, %rdx
	cmpb	$0, .Lstatic.0(%rip)
	je	.LBB78_29
	jmp	.LBB78_52
.LBB78_32:
	cmpl	$2, %eax
	je	.LBB78_34
.LBB78_33:
	movq	136(%rsp), %rdx
	xorl	%ebp, %ebp
	xorl	%r14d, %r14d
	xorl	%eax, %eax
.LBB78_51:
	cmpb	$0, .Lstatic.0(%rip)
	jne	.LBB78_52
.LBB78_3:
	movzbl	%al, %eax
	movq	%rax, (%r13)
	movq	%rdx, 8(%r13)
	movb	%r14b, 16(%r13)
	movb	%bpl, 17(%r13)
	addq	$344, %rsp
	popq	%rbx
	popq	%r12
	popq	%r13
	popq	%r14
	popq	%r15
	popq	%rbp
	retq
.LBB78_7:
	leaq	488(%rdx), %rdi
	callq	ww_seat__patience__Patience__rest
	movq	%r14, %rdx
	jmp	.LBB78_8
.LBB78_52:
	ud2
.Lfunc_end78:
	.size	ww_txn__ways__lock_by____553c7e4ebf26217f_, .Lfunc_end78-ww_txn__ways__lock_by____553c7e4ebf26217f_

	.section	.text.ww_users__trip__lock_entries____553c7e4ebf26217f_,"ax",@progbits
	.p2align	4
	.type	ww_users__trip__lock_entries____553c7e4ebf26217f_,@function
ww_users__trip__lock_entries____553c7e4ebf26217f_:
	pushq	%rbp
	pushq	%r15
	pushq	%r14
	pushq	%r13
	pushq	%r12
	pushq	%rbx
	subq	$88, %rsp
	movq	$0, 22(%rsp)
	movq	$0, 16(%rsp)
	movq	$0, (%rsp)
	movq	$0, 6(%rsp)
	testq	%r8, %r8
	je	.LBB79_25
	movzbl	152(%rsp), %ebp
	movzbl	144(%rsp), %r14d
	leaq	50(%rsp), %r15
	testb	%r9b, %r9b
	setne	%r12b
	xorl	%ebx, %ebx
	.p2align	4
.LBB79_2:
	movzbl	(%rcx,%rbx), %eax
	cmpb	%al, %r14b
	sete	%r9b
	andb	%r12b, %r9b
	cmpb	$1, %r9b
	je	.LBB79_3
	movzbl	%al, %r9d
	xorps	%xmm0, %xmm0
	movaps	%xmm0, 48(%rsp)
	movaps	%xmm0, 32(%rsp)
	cmpb	$1, 396(%rdx,%r9)
	jne	.LBB79_6
	movq	$0, 6(%rsp)
	movq	$0, (%rsp)
	movb	$1, %r10b
	xorl	%eax, %eax
	xorl	%r9d, %r9d
	cmpb	$0, .Lstatic.0(%rip)
	je	.LBB79_17
	jmp	.LBB79_27
	.p2align	4
.LBB79_6:
	cmpq	$0, 328(%rdx)
	jne	.LBB79_11
	cmpb	$0, (%rdx)
	je	.LBB79_8
.LBB79_11:
	movq	(%rsi), %r10
	movq	56(%rdx), %r11
	movl	%r9d, %r13d
	shll	$6, %r13d
	#APP
	#NO_APP
	xorl	%eax, %eax
	lock		cmpxchgq	%r11, 128(%r10,%r13)
	#APP
	#NO_APP
	jne	.LBB79_14
	movq	328(%rdx), %rax
	movl	%r9d, 64(%rdx,%rax,4)
	incq	%rax
	movq	%rax, 328(%rdx)
	movq	8(%rsi), %rax
	leaq	(%r9,%r9,4), %r10
	cmpb	$1, (%rax,%r10,8)
	jne	.LBB79_27
	leaq	(%rax,%r10,8), %rax
	movq	464(%rdx), %r10
	leaq	(%r9,%r9,2), %r11
	movups	8(%rax), %xmm0
	movq	24(%rax), %rax
	movq	%rax, 16(%r10,%r11,8)
	movups	%xmm0, (%r10,%r11,8)
	movb	$1, 396(%rdx,%r9)
	movq	$0, 32(%rsp)
	movq	%rdx, 40(%rsp)
	movzbl	48(%rsp), %eax
	movzbl	49(%rsp), %r9d
	movq	(%r15), %r10
	movq	6(%r15), %r11
	movq	%r10, (%rsp)
	movq	%r11, 6(%rsp)
	xorl	%r10d, %r10d
	cmpb	$0, .Lstatic.0(%rip)
	jne	.LBB79_27
.LBB79_17:
	testb	%r10b, %r10b
	jne	.LBB79_18
	incq	%rbx
	cmpq	%r8, %rbx
	jb	.LBB79_2
	jmp	.LBB79_25
.LBB79_8:
	cmpq	$0, 32(%rdx)
	je	.LBB79_11
	movq	24(%rdx), %rax
	movq	(%rsi), %r10
	#APP
	#NO_APP
	movq	(%r10,%rax,8), %rax
	#APP
	#NO_APP
	testq	%rax, %rax
	je	.LBB79_11
	movq	24(%rdx), %rax
	movq	(%rsi), %r10
	#APP
	#NO_APP
	xorl	%r11d, %r11d
	xchgq	%r11, (%r10,%rax,8)
	#APP
	#NO_APP
	jmp	.LBB79_11
.LBB79_3:
	incq	%rbx
	xorl	%r12d, %r12d
	cmpq	%r8, %rbx
	jb	.LBB79_2
	jmp	.LBB79_25
.LBB79_14:
	movq	%r8, 80(%rsp)
	movq	%rcx, 72(%rsp)
	movq	%rdi, 64(%rsp)
	movl	%ebp, %r13d
	movzbl	%bpl, %r8d
	leaq	32(%rsp), %rdi
	movq	%rsi, %rbp
	movl	%r9d, %ecx
	callq	ww_lock__acquiring__Acquiring__wait_as____553c7e4ebf26217f_
	cmpb	$0, .Lstatic.0(%rip)
	jne	.LBB79_27
	movzbl	32(%rsp), %r10d
	movq	40(%rsp), %rdx
	movzbl	48(%rsp), %eax
	movzbl	49(%rsp), %r9d
	movq	(%r15), %rcx
	movq	6(%r15), %rsi
	movq	%rcx, (%rsp)
	movq	%rsi, 6(%rsp)
	movq	64(%rsp), %rdi
	movq	72(%rsp), %rcx
	movq	80(%rsp), %r8
	movq	%rbp, %rsi
	movl	%r13d, %ebp
	cmpb	$0, .Lstatic.0(%rip)
	je	.LBB79_17
.LBB79_27:
	ud2
.LBB79_25:
	movq	$0, (%rdi)
	movq	%rdx, 8(%rdi)
	movw	$0, 16(%rdi)
	jmp	.LBB79_26
.LBB79_18:
	movzbl	%r10b, %esi
	cmpl	$1, %esi
	je	.LBB79_28
	cmpl	$2, %esi
	jne	.LBB79_22
	movq	$1, (%rdi)
	movq	%rdx, 8(%rdi)
	movb	%al, 16(%rdi)
	movb	%r9b, 17(%rdi)
	movq	(%rsp), %rax
	movq	6(%rsp), %rcx
	movq	%rax, 18(%rdi)
	movq	%rcx, 24(%rdi)
	movq	%rbx, 32(%rdi)
	jmp	.LBB79_21
.LBB79_28:
	movzbl	(%rcx,%rbx), %eax
	movq	$2, (%rdi)
	movq	%rdx, 8(%rdi)
	movb	$1, 16(%rdi)
	movb	%al, 17(%rdi)
	jmp	.LBB79_26
.LBB79_22:
	movq	$2, (%rdi)
	movq	%rdx, 8(%rdi)
	movb	$2, 16(%rdi)
	movb	%al, 17(%rdi)
.LBB79_26:
	movq	16(%rsp), %rax
	movq	22(%rsp), %rcx
	movq	%rax, 18(%rdi)
	movq	%rcx, 24(%rdi)
	movq	$0, 32(%rdi)
.LBB79_21:
	addq	$88, %rsp
	popq	%rbx
	popq	%r12
	popq	%r13
	popq	%r14
	popq	%r15
	popq	%rbp
	retq
.Lfunc_end79:
	.size	ww_users__trip__lock_entries____553c7e4ebf26217f_, .Lfunc_end79-ww_users__trip__lock_entries____553c7e4ebf26217f_

	.section	.text.unlikely.ww_lock__acquiring__Acquiring__wait_as____553c7e4ebf26217f_,"ax",@progbits
	.p2align	4
	.type	ww_lock__acquiring__Acquiring__wait_as____553c7e4ebf26217f_,@function
ww_lock__acquiring__Acquiring__wait_as____553c7e4ebf26217f_:
	pushq	%r15
	pushq	%r14
	pushq	%rbx
	subq	$48, %rsp
	movq	%rdx, %r14
	movq	%rsi, %rdx
	movq	%rdi, %rbx
	xorps	%xmm0, %xmm0
	movaps	%xmm0, 16(%rsp)
	movq	$0, 32(%rsp)
	movl	$0, 8(%rsp)
	movl	$0, 11(%rsp)
	leaq	16(%rsp), %rdi
	movq	%r14, %rsi
	movq	%rcx, %r15
	callq	ww_lock__hand__Hand__wait_for____553c7e4ebf26217f_
	cmpb	$0, .Lstatic.0(%rip)
	jne	.LBB80_8
	cmpb	$0, 16(%rsp)
	je	.LBB80_2
	cmpb	$0, 24(%rsp)
	je	.LBB80_4
	movzbl	26(%rsp), %r15d
	movl	$3, %ecx
	jmp	.LBB80_6
.LBB80_2:
	xorl	%ecx, %ecx
	xorl	%r15d, %r15d
.LBB80_6:
	xorl	%eax, %eax
	jmp	.LBB80_7
.LBB80_4:
	movq	32(%rsp), %rax
	movl	$0, 8(%rsp)
	movl	$0, 11(%rsp)
	movl	$2, %ecx
.LBB80_7:
	movq	%rcx, (%rbx)
	movq	%r14, 8(%rbx)
	movb	%r15b, 16(%rbx)
	movl	8(%rsp), %ecx
	movl	11(%rsp), %edx
	movl	%ecx, 17(%rbx)
	movl	%edx, 20(%rbx)
	movq	%rax, 24(%rbx)
	addq	$48, %rsp
	popq	%rbx
	popq	%r14
	popq	%r15
	retq
.LBB80_8:
	ud2
.Lfunc_end80:
	.size	ww_lock__acquiring__Acquiring__wait_as____553c7e4ebf26217f_, .Lfunc_end80-ww_lock__acquiring__Acquiring__wait_as____553c7e4ebf26217f_

	.section	.text.ww_users__context__give_up____553c7e4ebf26217f_,"ax",@progbits
	.p2align	4
	.type	ww_users__context__give_up____553c7e4ebf26217f_,@function
ww_users__context__give_up____553c7e4ebf26217f_:
	pushq	%r14
	pushq	%rbx
	pushq	%rax
	movq	%rsi, %rbx
	movq	%rdi, %r14
	movq	328(%rsi), %rax
	testq	%rax, %rax
	jne	.LBB81_2
	jmp	.LBB81_8
	.p2align	4
.LBB81_5:
	movb	$0, 396(%rbx,%rdx)
	movq	328(%rbx), %rax
	testq	%rax, %rax
	je	.LBB81_8
.LBB81_2:
	movl	60(%rbx,%rax,4), %edx
	movq	(%r14), %rcx
	movq	56(%rbx), %rax
	movq	%rdx, %rsi
	shlq	$6, %rsi
	#APP
	#NO_APP
	xorl	%edi, %edi
	lock		cmpxchgq	%rdi, 128(%rcx,%rsi)
	#APP
	#NO_APP
	jne	.LBB81_6
	movq	328(%rbx), %rax
	testq	%rax, %rax
	je	.LBB81_5
	leaq	-1(%rax), %rcx
	movq	%rcx, 328(%rbx)
	movl	$0, 60(%rbx,%rax,4)
	jmp	.LBB81_5
.LBB81_6:
	movq	%rbx, %rdi
	movq	%r14, %rsi
	callq	ww_lock__hand__Hand__give_waited____553c7e4ebf26217f_
	cmpb	$0, .Lstatic.0(%rip)
	jne	.LBB81_14
	movq	328(%rbx), %rax
	testq	%rax, %rax
	jne	.LBB81_2
.LBB81_8:
	cmpb	$0, .Lstatic.0(%rip)
	jne	.LBB81_14
	cmpb	$0, .Lstatic.0(%rip)
	jne	.LBB81_14
	movq	(%r14), %rax
	movq	24(%rbx), %rcx
	#APP
	#NO_APP
	movq	(%rax,%rcx,8), %rax
	#APP
	#NO_APP
	testq	%rax, %rax
	je	.LBB81_12
	movq	24(%rbx), %rax
	movq	(%r14), %rcx
	#APP
	#NO_APP
	xorl	%edx, %edx
	xchgq	%rdx, (%rcx,%rax,8)
	#APP
	#NO_APP
	movq	(%r14), %rax
	movq	24(%rbx), %rcx
	#APP
	#NO_APP
	movq	(%rax,%rcx,8), %rax
	#APP
	#NO_APP
	testq	%rax, %rax
	jne	.LBB81_13
.LBB81_12:
	movq	$0, 32(%rbx)
	movq	40(%rbx), %rax
	movq	%rax, 56(%rbx)
.LBB81_13:
	movq	%rbx, %rax
	addq	$8, %rsp
	popq	%rbx
	popq	%r14
	retq
.LBB81_14:
	ud2
.Lfunc_end81:
	.size	ww_users__context__give_up____553c7e4ebf26217f_, .Lfunc_end81-ww_users__context__give_up____553c7e4ebf26217f_

	.section	.text.ww_users__context__back_off____553c7e4ebf26217f_,"ax",@progbits
	.p2align	4
	.type	ww_users__context__back_off____553c7e4ebf26217f_,@function
ww_users__context__back_off____553c7e4ebf26217f_:
	pushq	%rbp
	pushq	%r15
	pushq	%r14
	pushq	%r12
	pushq	%rbx
	subq	$32, %rsp
	movl	%ecx, %ebp
	movq	%rsi, %r15
	movq	%rdi, %rbx
	movq	(%rdx), %r14
	movzbl	8(%rdx), %r12d
	jmp	.LBB82_1
	.p2align	4
.LBB82_5:
	movb	$0, 396(%r14,%rdx)
.LBB82_1:
	movq	328(%r14), %rax
	testq	%rax, %rax
	je	.LBB82_8
	movl	60(%r14,%rax,4), %edx
	movq	(%r15), %rcx
	movq	56(%r14), %rax
	movq	%rdx, %rsi
	shlq	$6, %rsi
	#APP
	#NO_APP
	xorl	%edi, %edi
	lock		cmpxchgq	%rdi, 128(%rcx,%rsi)
	#APP
	#NO_APP
	jne	.LBB82_6
	movq	328(%r14), %rax
	testq	%rax, %rax
	je	.LBB82_5
	leaq	-1(%rax), %rcx
	movq	%rcx, 328(%r14)
	movl	$0, 60(%r14,%rax,4)
	jmp	.LBB82_5
.LBB82_6:
	movq	%r14, %rdi
	movq	%r15, %rsi
	callq	ww_lock__hand__Hand__give_waited____553c7e4ebf26217f_
	cmpb	$0, .Lstatic.0(%rip)
	je	.LBB82_1
	jmp	.LBB82_7
.LBB82_8:
	cmpb	$0, .Lstatic.0(%rip)
	jne	.LBB82_7
	cmpb	$0, .Lstatic.0(%rip)
	jne	.LBB82_7
	xorps	%xmm0, %xmm0
	movaps	%xmm0, (%rsp)
	movq	$0, 16(%rsp)
	cmpb	$0, (%r14)
	je	.LBB82_11
.LBB82_14:
	movq	(%r15), %rcx
	movq	56(%r14), %rdx
	movl	%r12d, %esi
	shll	$6, %esi
	#APP
	#NO_APP
	xorl	%eax, %eax
	lock		cmpxchgq	%rdx, 128(%rcx,%rsi)
	#APP
	#NO_APP
	jne	.LBB82_18
	movq	328(%r14), %rax
	movl	%r12d, 64(%r14,%rax,4)
	incq	%rax
	movq	%rax, 328(%r14)
	movq	8(%r15), %rax
	leaq	(%r12,%r12,4), %rcx
	cmpb	$1, (%rax,%rcx,8)
	jne	.LBB82_7
	leaq	(%rax,%rcx,8), %rax
	movq	464(%r14), %rcx
	leaq	(%r12,%r12,2), %rdx
	movups	8(%rax), %xmm0
	movq	24(%rax), %rax
	movq	%rax, 16(%rcx,%rdx,8)
	movups	%xmm0, (%rcx,%rdx,8)
	movb	$1, 396(%r14,%r12)
	cmpb	$0, .Lstatic.0(%rip)
	jne	.LBB82_7
.LBB82_17:
	xorl	%eax, %eax
	xorl	%ecx, %ecx
.LBB82_22:
	cmpb	$0, .Lstatic.0(%rip)
	jne	.LBB82_7
	testb	%al, %al
	je	.LBB82_24
	movq	(%r15), %rdx
	movq	24(%r14), %rsi
	#APP
	#NO_APP
	movq	(%rdx,%rsi,8), %rdx
	#APP
	#NO_APP
	testq	%rdx, %rdx
	je	.LBB82_26
	movq	24(%r14), %rdx
	movq	(%r15), %rsi
	#APP
	#NO_APP
	xorl	%edi, %edi
	xchgq	%rdi, (%rsi,%rdx,8)
	#APP
	#NO_APP
	movq	(%r15), %rdx
	movq	24(%r14), %rsi
	#APP
	#NO_APP
	movq	(%rdx,%rsi,8), %rsi
	#APP
	#NO_APP
	movb	$2, %dl
	testq	%rsi, %rsi
	jne	.LBB82_29
	movq	$0, 32(%r14)
	movq	40(%r14), %rsi
	movq	%rsi, 56(%r14)
	jmp	.LBB82_29
.LBB82_11:
	cmpq	$0, 32(%r14)
	je	.LBB82_14
	movq	24(%r14), %rax
	movq	(%r15), %rcx
	#APP
	#NO_APP
	movq	(%rcx,%rax,8), %rax
	#APP
	#NO_APP
	testq	%rax, %rax
	je	.LBB82_14
	movq	24(%r14), %rax
	movq	(%r15), %rcx
	#APP
	#NO_APP
	xorl	%edx, %edx
	xchgq	%rdx, (%rcx,%rax,8)
	#APP
	#NO_APP
	jmp	.LBB82_14
.LBB82_24:
	xorl	%edx, %edx
	xorl	%ecx, %ecx
	jmp	.LBB82_29
.LBB82_26:
	movq	$0, 32(%r14)
	movq	40(%r14), %rdx
	movq	%rdx, 56(%r14)
	movb	$2, %dl
.LBB82_29:
	movzbl	%al, %eax
	movq	%rax, (%rbx)
	movq	%r14, 8(%rbx)
	movb	%dl, 16(%rbx)
	movb	%cl, 17(%rbx)
	addq	$32, %rsp
	popq	%rbx
	popq	%r12
	popq	%r14
	popq	%r15
	popq	%rbp
	retq
.LBB82_18:
	movzbl	%bpl, %r8d
	movq	%rsp, %rdi
	movq	%r14, %rsi
	movq	%r15, %rdx
	movl	%r12d, %ecx
	callq	ww_lock__hand__Hand__wait_for____553c7e4ebf26217f_
	cmpb	$0, .Lstatic.0(%rip)
	jne	.LBB82_7
	movzbl	(%rsp), %eax
	movzbl	8(%rsp), %edx
	movzwl	10(%rsp), %ecx
	cmpb	$0, .Lstatic.0(%rip)
	jne	.LBB82_7
	testb	%al, %al
	je	.LBB82_17
	cmpb	$1, %dl
	je	.LBB82_22
.LBB82_7:
	ud2
.Lfunc_end82:
	.size	ww_users__context__back_off____553c7e4ebf26217f_, .Lfunc_end82-ww_users__context__back_off____553c7e4ebf26217f_

	.section	.text.ww_users__walk__lock_walk_as____553c7e4ebf26217f_,"ax",@progbits
	.p2align	4
	.type	ww_users__walk__lock_walk_as____553c7e4ebf26217f_,@function
ww_users__walk__lock_walk_as____553c7e4ebf26217f_:
	pushq	%rbp
	pushq	%r15
	pushq	%r14
	pushq	%r13
	pushq	%r12
	pushq	%rbx
	subq	$328, %rsp
	movl	%ecx, 20(%rsp)
	movq	$0, 7(%rsp)
	movq	$0, (%rsp)
	xorps	%xmm0, %xmm0
	movaps	%xmm0, 112(%rsp)
	movq	$0, 128(%rsp)
	movaps	%xmm0, 80(%rsp)
	movq	$0, 96(%rsp)
	movl	392(%rdx), %eax
	testl	%eax, %eax
	je	.LBB83_34
	movq	%rsi, %r14
	movq	%rdi, 24(%rsp)
	decl	%eax
	movl	%eax, 392(%rdx)
	cmpl	$0, 508(%rdx)
	jne	.LBB83_2
.LBB83_3:
	movq	(%r14), %rcx
	#APP
	#NO_APP
	movl	$1, %eax
	lock		xaddq	%rax, (%rcx)
	#APP
	#NO_APP
	incq	%rax
	cmpq	%rax, 16(%rdx)
	jb	.LBB83_33
	movq	%rax, 32(%rdx)
	imulq	48(%rdx), %rax
	addq	40(%rdx), %rax
	movq	%rax, 56(%rdx)
	movzbl	20(%rsp), %eax
	movq	%rax, 72(%rsp)
	leal	(,%rax,8), %eax
	leaq	(%rax,%rax,2), %rax
	movq	%rax, 136(%rsp)
	movzbl	%r8b, %eax
	movq	%rax, 64(%rsp)
	movzbl	%r9b, %eax
	movq	%rax, 144(%rsp)
	movq	$-1, %rax
	.p2align	4
.LBB83_5:
	subq	$1, %rax
	movq	%rax, 152(%rsp)
	jb	.LBB83_6
.LBB83_7:
	cmpb	$0, .Lstatic.0(%rip)
	jne	.LBB83_33
	xorps	%xmm0, %xmm0
	movaps	%xmm0, 208(%rsp)
	movaps	%xmm0, 224(%rsp)
	movq	$0, 240(%rsp)
	movaps	%xmm0, 160(%rsp)
	movaps	%xmm0, 176(%rsp)
	movq	$0, 192(%rsp)
	movzbl	384(%rsp), %r12d
	leaq	208(%rsp), %rdi
	movq	%r14, %rsi
	movq	72(%rsp), %rcx
	movl	%r12d, %r8d
	callq	ww_users__context__lock_one____553c7e4ebf26217f_
	cmpb	$0, .Lstatic.0(%rip)
	jne	.LBB83_33
	movq	216(%rsp), %r13
	cmpb	$0, 208(%rsp)
	je	.LBB83_10
	movq	224(%rsp), %rbx
	movzbl	232(%rsp), %ebp
	leaq	233(%rsp), %rcx
.LBB83_22:
	movq	(%rcx), %rax
	movq	7(%rcx), %rcx
	movq	%rax, (%rsp)
	movq	%rcx, 7(%rsp)
	xorl	%ecx, %ecx
	xorl	%eax, %eax
	cmpb	$0, .Lstatic.0(%rip)
	je	.LBB83_19
	jmp	.LBB83_33
	.p2align	4
.LBB83_10:
	xorps	%xmm0, %xmm0
	movaps	%xmm0, 256(%rsp)
	movaps	%xmm0, 304(%rsp)
	movaps	%xmm0, 288(%rsp)
	movaps	%xmm0, 272(%rsp)
	movl	20(%rsp), %eax
	movb	%al, 256(%rsp)
	movq	$1, 320(%rsp)
	movq	72(%rsp), %rax
	cmpb	$0, 396(%r13,%rax)
	je	.LBB83_17
	movq	464(%r13), %rax
	movq	136(%rsp), %rdx
	movq	16(%rax,%rdx), %rcx
	movq	%rcx, 48(%rsp)
	movups	(%rax,%rdx), %xmm0
	movaps	%xmm0, 32(%rsp)
	movq	64(%rsp), %rax
	cmpb	$1, 40(%rsp,%rax,2)
	jne	.LBB83_17
	movzbl	41(%rsp,%rax,2), %r15d
	.p2align	4
.LBB83_13:
	movzbl	%r15b, %ebx
	leaq	160(%rsp), %rdi
	movq	%r14, %rsi
	movq	%r13, %rdx
	movl	%ebx, %ecx
	movl	%r12d, %r8d
	callq	ww_users__context__lock_one____553c7e4ebf26217f_
	cmpb	$0, .Lstatic.0(%rip)
	jne	.LBB83_33
	movq	168(%rsp), %r13
	cmpb	$0, 160(%rsp)
	jne	.LBB83_23
	movq	320(%rsp), %rbp
	movb	%r15b, 32(%rsp)
	cmpq	144(%rsp), %rbp
	jae	.LBB83_17
	leaq	256(%rsp), %rdi
	leaq	32(%rsp), %rdx
	movq	%rbp, %rsi
	callq	core__slice__reads__slice_T__contains___i8_31_core__cmp__numbers__U8PartialEq___
	testb	%al, %al
	jne	.LBB83_17
	movb	%r15b, 256(%rsp,%rbp)
	incq	%rbp
	movq	%rbp, 320(%rsp)
	cmpb	$0, 396(%r13,%rbx)
	je	.LBB83_17
	movq	464(%r13), %rax
	leaq	(%rbx,%rbx,2), %rcx
	movq	16(%rax,%rcx,8), %rdx
	movq	%rdx, 48(%rsp)
	movups	(%rax,%rcx,8), %xmm0
	movaps	%xmm0, 32(%rsp)
	movq	64(%rsp), %rax
	movzbl	41(%rsp,%rax,2), %r15d
	cmpb	$1, 40(%rsp,%rax,2)
	je	.LBB83_13
	.p2align	4
.LBB83_17:
	movq	%r13, %rax
	andq	$-256, %rax
	movq	$0, 7(%rsp)
	movq	$0, (%rsp)
	movb	$1, %cl
	xorl	%ebx, %ebx
	xorl	%ebp, %ebp
	cmpb	$0, .Lstatic.0(%rip)
	jne	.LBB83_33
.LBB83_19:
	movzbl	%r13b, %edx
	testb	%cl, %cl
	jne	.LBB83_20
	cmpl	$1, %edx
	je	.LBB83_27
	movq	%rbx, 80(%rsp)
	movb	%bpl, 88(%rsp)
	movq	(%rsp), %rax
	movq	7(%rsp), %rcx
	leaq	89(%rsp), %rdx
	movq	%rcx, 7(%rdx)
	movq	%rax, (%rdx)
	leaq	112(%rsp), %rdi
	leaq	80(%rsp), %rdx
	movq	%r14, %rsi
	movl	%r12d, %ecx
	callq	ww_users__context__back_off____553c7e4ebf26217f_
	cmpb	$0, .Lstatic.0(%rip)
	jne	.LBB83_33
	movq	120(%rsp), %rdx
	cmpb	$0, 112(%rsp)
	movq	152(%rsp), %rax
	je	.LBB83_5
	jmp	.LBB83_31
.LBB83_6:
	movq	%rdx, %rbx
	callq	core__atomic__block____553c7e4ebf26217f_
	movq	%rbx, %rdx
	cmpb	$0, .Lstatic.0(%rip)
	je	.LBB83_7
	jmp	.LBB83_33
.LBB83_23:
	movq	176(%rsp), %rbx
	movzbl	184(%rsp), %ebp
	leaq	185(%rsp), %rcx
	jmp	.LBB83_22
.LBB83_34:
	movq	$1, (%rdi)
	movq	%rdx, 8(%rdi)
	movw	$0, 16(%rdi)
	jmp	.LBB83_32
.LBB83_20:
	orq	%rdx, %rax
	movq	24(%rsp), %rcx
	movq	$0, (%rcx)
	movq	%rax, 8(%rcx)
	movw	$0, 16(%rcx)
	jmp	.LBB83_32
.LBB83_27:
	movq	%r14, %rdi
	movq	%rbx, %rsi
	callq	ww_users__context__give_up____553c7e4ebf26217f_
	cmpb	$0, .Lstatic.0(%rip)
	jne	.LBB83_33
	movq	24(%rsp), %rax
	movq	$1, (%rax)
	movq	%rbx, 8(%rax)
	movb	$2, 16(%rax)
	movb	%bpl, 17(%rax)
	jmp	.LBB83_32
.LBB83_31:
	movzwl	128(%rsp), %eax
	movq	24(%rsp), %rcx
	movq	$1, (%rcx)
	movq	%rdx, 8(%rcx)
	movw	%ax, 16(%rcx)
.LBB83_32:
	addq	$328, %rsp
	popq	%rbx
	popq	%r12
	popq	%r13
	popq	%r14
	popq	%r15
	popq	%rbp
	retq
.LBB83_2:
	leaq	488(%rdx), %rdi
	movq	%rdx, %rbx
	movl	%r9d, %r15d
	movl	%r8d, %ebp
	callq	ww_seat__patience__Patience__rest
	movl	%ebp, %r8d
	movl	%r15d, %r9d
	movq	%rbx, %rdx
	jmp	.LBB83_3
.LBB83_33:
	ud2
.Lfunc_end83:
	.size	ww_users__walk__lock_walk_as____553c7e4ebf26217f_, .Lfunc_end83-ww_users__walk__lock_walk_as____553c7e4ebf26217f_

	.section	.text.ww_users__context__lock_one____553c7e4ebf26217f_,"ax",@progbits
	.p2align	4
	.type	ww_users__context__lock_one____553c7e4ebf26217f_,@function
ww_users__context__lock_one____553c7e4ebf26217f_:
	pushq	%rbx
	subq	$64, %rsp
	movq	$0, 55(%rsp)
	movq	$0, 48(%rsp)
	movq	$0, (%rsp)
	movq	$0, 7(%rsp)
	xorps	%xmm0, %xmm0
	movaps	%xmm0, 32(%rsp)
	movaps	%xmm0, 16(%rsp)
	movzbl	%cl, %ecx
	cmpb	$1, 396(%rdx,%rcx)
	jne	.LBB84_2
	movq	$0, 7(%rsp)
	movq	$0, (%rsp)
	movb	$1, %cl
	xorl	%eax, %eax
	cmpb	$0, .Lstatic.0(%rip)
	je	.LBB84_13
	jmp	.LBB84_19
.LBB84_2:
	cmpq	$0, 328(%rdx)
	jne	.LBB84_7
	cmpb	$0, (%rdx)
	je	.LBB84_4
.LBB84_7:
	movq	(%rsi), %r9
	movq	56(%rdx), %r10
	movl	%ecx, %r11d
	shll	$6, %r11d
	#APP
	#NO_APP
	xorl	%eax, %eax
	lock		cmpxchgq	%r10, 128(%r9,%r11)
	#APP
	#NO_APP
	jne	.LBB84_10
	movq	328(%rdx), %rax
	movl	%ecx, 64(%rdx,%rax,4)
	incq	%rax
	movq	%rax, 328(%rdx)
	movq	8(%rsi), %rax
	movl	%ecx, %esi
	leaq	(%rsi,%rsi,4), %rsi
	cmpb	$1, (%rax,%rsi,8)
	jne	.LBB84_19
	leaq	(%rax,%rsi,8), %rax
	movq	464(%rdx), %rsi
	leaq	(%rcx,%rcx,2), %r8
	movups	8(%rax), %xmm0
	movq	24(%rax), %rax
	movq	%rax, 16(%rsi,%r8,8)
	movups	%xmm0, (%rsi,%r8,8)
	movb	$1, 396(%rdx,%rcx)
	movzbl	32(%rsp), %eax
	movq	33(%rsp), %rcx
	movq	%rcx, (%rsp)
	movq	40(%rsp), %rcx
	movq	%rcx, 7(%rsp)
	xorl	%ecx, %ecx
	cmpb	$0, .Lstatic.0(%rip)
	jne	.LBB84_19
.LBB84_13:
	movq	$0, 23(%rsp)
	movq	$0, 16(%rsp)
	cmpb	$2, %cl
	jae	.LBB84_15
	xorl	%ecx, %ecx
	movq	%rdx, %rsi
	xorl	%edx, %edx
	xorl	%eax, %eax
	jmp	.LBB84_18
.LBB84_15:
	movzbl	%cl, %ecx
	cmpl	$3, %ecx
	jne	.LBB84_16
	movl	$1, %ecx
	movl	$1, %esi
	jmp	.LBB84_18
.LBB84_16:
	movq	(%rsp), %rcx
	movq	7(%rsp), %rsi
	movq	%rsi, 23(%rsp)
	movq	%rcx, 16(%rsp)
	movl	$1, %ecx
	xorl	%esi, %esi
.LBB84_18:
	movq	16(%rsp), %r8
	movq	23(%rsp), %r9
	movq	%r9, 55(%rsp)
	movq	%r8, 48(%rsp)
	movq	%rcx, (%rdi)
	movq	%rsi, 8(%rdi)
	movq	%rdx, 16(%rdi)
	movb	%al, 24(%rdi)
	movq	48(%rsp), %rax
	movq	55(%rsp), %rcx
	movq	%rax, 25(%rdi)
	movq	%rcx, 32(%rdi)
	addq	$64, %rsp
	popq	%rbx
	retq
.LBB84_4:
	cmpq	$0, 32(%rdx)
	je	.LBB84_7
	movq	24(%rdx), %rax
	movq	(%rsi), %r9
	#APP
	#NO_APP
	movq	(%r9,%rax,8), %rax
	#APP
	#NO_APP
	testq	%rax, %rax
	je	.LBB84_7
	movq	24(%rdx), %rax
	movq	(%rsi), %r9
	#APP
	#NO_APP
	xorl	%r10d, %r10d
	xchgq	%r10, (%r9,%rax,8)
	#APP
	#NO_APP
	jmp	.LBB84_7
.LBB84_10:
	movq	%rdi, %rbx
	movzbl	%r8b, %r8d
	leaq	16(%rsp), %rdi
	callq	ww_lock__acquiring__Acquiring__wait_as____553c7e4ebf26217f_
	cmpb	$0, .Lstatic.0(%rip)
	jne	.LBB84_19
	movzbl	16(%rsp), %ecx
	movq	24(%rsp), %rdx
	movzbl	32(%rsp), %eax
	movq	33(%rsp), %rsi
	movq	%rsi, (%rsp)
	movq	40(%rsp), %rsi
	movq	%rsi, 7(%rsp)
	movq	%rbx, %rdi
	cmpb	$0, .Lstatic.0(%rip)
	je	.LBB84_13
.LBB84_19:
	ud2
.Lfunc_end84:
	.size	ww_users__context__lock_one____553c7e4ebf26217f_, .Lfunc_end84-ww_users__context__lock_one____553c7e4ebf26217f_

	.section	.text.ww_users__fixed_list__lock_list_as____553c7e4ebf26217f_,"ax",@progbits
	.p2align	4
	.type	ww_users__fixed_list__lock_list_as____553c7e4ebf26217f_,@function
ww_users__fixed_list__lock_list_as____553c7e4ebf26217f_:
	pushq	%rbp
	pushq	%r15
	pushq	%r14
	pushq	%r13
	pushq	%r12
	pushq	%rbx
	subq	$136, %rsp
	movq	%r8, 120(%rsp)
	movq	%rdi, %rbx
	xorps	%xmm0, %xmm0
	movaps	%xmm0, 32(%rsp)
	movaps	%xmm0, 16(%rsp)
	movq	$0, 48(%rsp)
	movaps	%xmm0, 96(%rsp)
	movq	$0, 112(%rsp)
	movaps	%xmm0, 64(%rsp)
	movq	$0, 80(%rsp)
	movl	392(%rdx), %eax
	testl	%eax, %eax
	je	.LBB85_9
	movq	%rcx, %r12
	movq	%rsi, %r14
	decl	%eax
	movl	%eax, 392(%rdx)
	cmpl	$0, 508(%rdx)
	jne	.LBB85_26
.LBB85_2:
	movq	(%r14), %rcx
	#APP
	#NO_APP
	movl	$1, %eax
	lock		xaddq	%rax, (%rcx)
	#APP
	#NO_APP
	incq	%rax
	cmpq	%rax, 16(%rdx)
	jb	.LBB85_21
	movq	%rax, 32(%rdx)
	imulq	48(%rdx), %rax
	addq	40(%rdx), %rax
	movq	%rax, 56(%rdx)
	cmpb	$0, .Lstatic.0(%rip)
	jne	.LBB85_21
	movzbl	%r9b, %ebp
	movl	%ebp, 8(%rsp)
	movl	$0, (%rsp)
	leaq	16(%rsp), %rdi
	movq	%r14, %rsi
	movq	%r12, %rcx
	movq	120(%rsp), %r8
	xorl	%r9d, %r9d
	callq	ww_users__trip__lock_entries____553c7e4ebf26217f_
	cmpb	$0, .Lstatic.0(%rip)
	jne	.LBB85_21
	movzbl	16(%rsp), %eax
	testl	%eax, %eax
	je	.LBB85_23
	cmpl	$2, %eax
	jne	.LBB85_10
.LBB85_7:
	movq	24(%rsp), %r15
	movzbl	32(%rsp), %ebp
	movzbl	33(%rsp), %r12d
	movq	%r14, %rdi
	movq	%r15, %rsi
	callq	ww_users__context__give_up____553c7e4ebf26217f_
	cmpb	$0, .Lstatic.0(%rip)
	jne	.LBB85_21
	movq	$1, (%rbx)
	movq	%r15, 8(%rbx)
	movb	%bpl, 16(%rbx)
	movb	%r12b, 17(%rbx)
	jmp	.LBB85_25
.LBB85_9:
	movq	$1, (%rbx)
	movq	%rdx, 8(%rbx)
	jmp	.LBB85_24
.LBB85_10:
	leaq	33(%rsp), %rcx
	leaq	73(%rsp), %rdx
	movq	24(%rsp), %rax
	movzbl	32(%rsp), %r13d
	movq	%rax, 64(%rsp)
	movb	%r13b, 72(%rsp)
	movq	(%rcx), %rax
	movq	7(%rcx), %rcx
	movq	%rcx, 7(%rdx)
	movq	%rax, (%rdx)
	leaq	96(%rsp), %rdi
	leaq	64(%rsp), %rdx
	movq	%r14, %rsi
	movl	%ebp, %ecx
	callq	ww_users__context__back_off____553c7e4ebf26217f_
	cmpb	$0, .Lstatic.0(%rip)
	jne	.LBB85_21
	movq	104(%rsp), %rdx
	cmpb	$0, 96(%rsp)
	je	.LBB85_13
.LBB85_12:
	movzwl	112(%rsp), %eax
	movq	$1, (%rbx)
	movq	%rdx, 8(%rbx)
	movw	%ax, 16(%rbx)
	jmp	.LBB85_25
.LBB85_13:
	movl	$2, %r15d
	.p2align	4
.LBB85_14:
	testq	%r15, %r15
	je	.LBB85_20
.LBB85_15:
	cmpb	$0, .Lstatic.0(%rip)
	jne	.LBB85_21
	movl	%ebp, 8(%rsp)
	movzbl	%r13b, %eax
	movl	%eax, (%rsp)
	leaq	16(%rsp), %rdi
	movq	%r14, %rsi
	movq	%r12, %rcx
	movq	120(%rsp), %r8
	movl	$1, %r9d
	callq	ww_users__trip__lock_entries____553c7e4ebf26217f_
	cmpb	$0, .Lstatic.0(%rip)
	jne	.LBB85_21
	movzbl	16(%rsp), %eax
	cmpl	$1, %eax
	jne	.LBB85_22
	movq	24(%rsp), %rax
	movzbl	32(%rsp), %r13d
	movq	%rax, 64(%rsp)
	movb	%r13b, 72(%rsp)
	leaq	33(%rsp), %rcx
	movq	(%rcx), %rax
	movq	7(%rcx), %rcx
	leaq	73(%rsp), %rdx
	movq	%rcx, 7(%rdx)
	movq	%rax, (%rdx)
	leaq	96(%rsp), %rdi
	leaq	64(%rsp), %rdx
	movq	%r14, %rsi
	movl	%ebp, %ecx
	callq	ww_users__context__back_off____553c7e4ebf26217f_
	cmpb	$0, .Lstatic.0(%rip)
	jne	.LBB85_21
	movq	104(%rsp), %rdx
	incq	%r15
	cmpb	$0, 96(%rsp)
	je	.LBB85_14
	jmp	.LBB85_12
.LBB85_20:
	movq	%rdx, 128(%rsp)
	callq	core__atomic__block____553c7e4ebf26217f_
	movq	128(%rsp), %rdx
	cmpb	$0, .Lstatic.0(%rip)
	je	.LBB85_15
.LBB85_21:
	ud2
.LBB85_22:
	cmpl	$2, %eax
	je	.LBB85_7
.LBB85_23:
	movq	24(%rsp), %rax
	movq	$0, (%rbx)
	movq	%rax, 8(%rbx)
.LBB85_24:
	movw	$0, 16(%rbx)
.LBB85_25:
	addq	$136, %rsp
	popq	%rbx
	popq	%r12
	popq	%r13
	popq	%r14
	popq	%r15
	popq	%rbp
	retq
.LBB85_26:
	leaq	488(%rdx), %rdi
	movq	%rdx, %r15
	movl	%r9d, %ebp
	callq	ww_seat__patience__Patience__rest
	movl	%ebp, %r9d
	movq	%r15, %rdx
	jmp	.LBB85_2
.Lfunc_end85:
	.size	ww_users__fixed_list__lock_list_as____553c7e4ebf26217f_, .Lfunc_end85-ww_users__fixed_list__lock_list_as____553c7e4ebf26217f_

	.section	.text.std_alloc__vec__Vec__drop____9778082442c5cfa1_,"ax",@progbits
	.p2align	4
	.type	std_alloc__vec__Vec__drop____9778082442c5cfa1_,@function
std_alloc__vec__Vec__drop____9778082442c5cfa1_:
	pushq	%r15
	pushq	%r14
	pushq	%r12
	pushq	%rbx
	pushq	%rax
	movq	(%rdi), %rbx
	movq	8(%rdi), %r15
	movq	16(%rdi), %r14
	testq	%r15, %r15
	je	.LBB86_7
	leaq	40(%rbx), %r12
	jmp	.LBB86_2
	.p2align	4
.LBB86_6:
	addq	$48, %r12
	decq	%r15
	je	.LBB86_7
.LBB86_2:
	cmpb	$0, -40(%r12)
	jne	.LBB86_6
	cmpb	$0, -24(%r12)
	jne	.LBB86_6
	cmpq	$0, (%r12)
	je	.LBB86_6
	movq	-16(%r12), %rdi
	callq	rattle_dealloc@PLT
	jmp	.LBB86_6
.LBB86_7:
	testq	%r14, %r14
	je	.LBB86_8
	movq	%rbx, %rdi
	addq	$8, %rsp
	popq	%rbx
	popq	%r12
	popq	%r14
	popq	%r15
	jmp	rattle_dealloc@PLT
.LBB86_8:
	addq	$8, %rsp
	popq	%rbx
	popq	%r12
	popq	%r14
	popq	%r15
	retq
.Lfunc_end86:
	.size	std_alloc__vec__Vec__drop____9778082442c5cfa1_, .Lfunc_end86-std_alloc__vec__Vec__drop____9778082442c5cfa1_

	.section	.text.std_alloc__vec__deque__VecDeque__drop____98a5c0865d4d3e5d_,"ax",@progbits
	.p2align	4
	.type	std_alloc__vec__deque__VecDeque__drop____98a5c0865d4d3e5d_,@function
std_alloc__vec__deque__VecDeque__drop____98a5c0865d4d3e5d_:
	pushq	%r15
	pushq	%r14
	pushq	%r13
	pushq	%r12
	pushq	%rbx
	movq	(%rdi), %rbx
	movq	8(%rdi), %r12
	movq	16(%rdi), %r14
	testq	%r12, %r12
	je	.LBB87_15
	movq	32(%rdi), %r15
	movq	24(%rdi), %rax
	subq	%r15, %r12
	leaq	(%rax,%r12), %rcx
	cmpq	%rcx, %rax
	jae	.LBB87_8
	leaq	(%rax,%rax,4), %rax
	leaq	(%rbx,%rax,8), %r13
	addq	$32, %r13
	jmp	.LBB87_3
	.p2align	4
.LBB87_7:
	addq	$40, %r13
	decq	%r12
	je	.LBB87_8
.LBB87_3:
	movzbl	-32(%r13), %edx
	cmpl	$2, %edx
	je	.LBB87_7
	movzbl	-24(%r13), %ecx
	movq	-16(%r13), %rdi
	movq	(%r13), %rax
	cmpl	$1, %edx
	leal	-2(%rcx), %edx
	cmpl	$5, %edx
	jb	.LBB87_7
	cmpl	$1, %ecx
	testq	%rax, %rax
	je	.LBB87_7
	callq	rattle_dealloc@PLT
	jmp	.LBB87_7
.LBB87_8:
	testq	%r15, %r15
	je	.LBB87_15
	leaq	32(%rbx), %r12
	jmp	.LBB87_10
	.p2align	4
.LBB87_14:
	addq	$40, %r12
	decq	%r15
	je	.LBB87_15
.LBB87_10:
	movzbl	-32(%r12), %edx
	cmpl	$2, %edx
	je	.LBB87_14
	movzbl	-24(%r12), %ecx
	movq	-16(%r12), %rdi
	movq	(%r12), %rax
	cmpl	$1, %edx
	leal	-2(%rcx), %edx
	cmpl	$5, %edx
	jb	.LBB87_14
	cmpl	$1, %ecx
	testq	%rax, %rax
	je	.LBB87_14
	callq	rattle_dealloc@PLT
	jmp	.LBB87_14
.LBB87_15:
	testq	%r14, %r14
	je	.LBB87_16
	movq	%rbx, %rdi
	popq	%rbx
	popq	%r12
	popq	%r13
	popq	%r14
	popq	%r15
	jmp	rattle_dealloc@PLT
.LBB87_16:
	popq	%rbx
	popq	%r12
	popq	%r13
	popq	%r14
	popq	%r15
	retq
.Lfunc_end87:
	.size	std_alloc__vec__deque__VecDeque__drop____98a5c0865d4d3e5d_, .Lfunc_end87-std_alloc__vec__deque__VecDeque__drop____98a5c0865d4d3e5d_

	.section	.text.std_alloc__boxed__Box__drop____519f02485a0b0db1_,"ax",@progbits
	.p2align	4
	.type	std_alloc__boxed__Box__drop____519f02485a0b0db1_,@function
std_alloc__boxed__Box__drop____519f02485a0b0db1_:
	pushq	%rbp
	pushq	%r15
	pushq	%r14
	pushq	%r13
	pushq	%r12
	pushq	%rbx
	subq	$88, %rsp
	movq	336(%rdi), %rax
	movq	%rax, 16(%rsp)
	movq	344(%rdi), %r14
	movq	352(%rdi), %rax
	movq	%rax, 40(%rsp)
	movzbl	360(%rdi), %eax
	movb	%al, 7(%rsp)
	movq	368(%rdi), %rax
	movq	%rax, 80(%rsp)
	movq	384(%rdi), %rbx
	movq	464(%rdi), %rax
	movq	%rax, 32(%rsp)
	movq	480(%rdi), %rax
	movq	%rax, 48(%rsp)
	movq	488(%rdi), %rax
	movq	%rax, 56(%rsp)
	movq	496(%rdi), %rax
	movq	%rax, 64(%rsp)
	movq	552(%rdi), %rax
	movq	%rax, 24(%rsp)
	movq	560(%rdi), %rbp
	movq	568(%rdi), %rax
	movq	%rax, 72(%rsp)
	callq	rattle_dealloc@PLT
	testq	%r14, %r14
	je	.LBB88_9
	movq	16(%rsp), %rax
	leaq	88(%rax), %r12
	jmp	.LBB88_2
	.p2align	4
.LBB88_8:
	addq	$96, %r12
	decq	%r14
	je	.LBB88_9
.LBB88_2:
	movzbl	-56(%r12), %ecx
	movzbl	-24(%r12), %r15d
	movq	-16(%r12), %rdi
	movq	(%r12), %r13
	leal	-2(%rcx), %eax
	cmpl	$5, %eax
	jb	.LBB88_5
	movq	-48(%r12), %rax
	movq	-32(%r12), %rdx
	cmpl	$1, %ecx
	testq	%rdx, %rdx
	je	.LBB88_5
	movq	%rdi, 8(%rsp)
	movq	%rax, %rdi
	callq	rattle_dealloc@PLT
	movq	8(%rsp), %rdi
	.p2align	4
.LBB88_5:
	testb	%r15b, %r15b
	jne	.LBB88_8
	testq	%r13, %r13
	je	.LBB88_8
	callq	rattle_dealloc@PLT
	jmp	.LBB88_8
.LBB88_9:
	cmpq	$0, 40(%rsp)
	je	.LBB88_11
	movq	16(%rsp), %rdi
	callq	rattle_dealloc@PLT
.LBB88_11:
	cmpb	$0, 7(%rsp)
	movq	80(%rsp), %rdi
	je	.LBB88_14
	testq	%rbx, %rbx
	je	.LBB88_14
	.p2align	4
.LBB88_13:
	movq	(%rdi), %r14
	callq	rattle_dealloc@PLT
	movq	%r14, %rdi
	decq	%rbx
	jne	.LBB88_13
.LBB88_14:
	cmpq	$0, 48(%rsp)
	je	.LBB88_16
	movq	32(%rsp), %rdi
	callq	rattle_dealloc@PLT
.LBB88_16:
	#APP
	#NO_APP
	movq	56(%rsp), %rdi
	lock		decq	(%rdi)
	#APP
	#NO_APP
	jne	.LBB88_18
	movq	40(%rdi), %r12
	movq	56(%rdi), %r13
	callq	rattle_dealloc@PLT
	movq	%r12, %rdi
	callq	rattle_dealloc@PLT
	movq	%r13, %rdi
	callq	rattle_dealloc@PLT
.LBB88_18:
	#APP
	#NO_APP
	movq	64(%rsp), %rdi
	lock		decq	(%rdi)
	#APP
	#NO_APP
	jne	.LBB88_20
	callq	rattle_dealloc@PLT
.LBB88_20:
	testq	%rbp, %rbp
	je	.LBB88_27
	movq	24(%rsp), %rax
	leaq	8(%rax), %rbx
	jmp	.LBB88_22
	.p2align	4
.LBB88_26:
	addq	$16, %rbx
	decq	%rbp
	je	.LBB88_27
.LBB88_22:
	movq	-8(%rbx), %rdi
	movq	(%rbx), %r14
	#APP
	#NO_APP
	lock		decq	(%rdi)
	#APP
	#NO_APP
	je	.LBB88_23
	#APP
	#NO_APP
	lock		decq	(%r14)
	#APP
	#NO_APP
	jne	.LBB88_26
	jmp	.LBB88_25
	.p2align	4
.LBB88_23:
	movq	40(%rdi), %r15
	movq	56(%rdi), %r12
	callq	rattle_dealloc@PLT
	movq	%r15, %rdi
	callq	rattle_dealloc@PLT
	movq	%r12, %rdi
	callq	rattle_dealloc@PLT
	#APP
	#NO_APP
	lock		decq	(%r14)
	#APP
	#NO_APP
	jne	.LBB88_26
.LBB88_25:
	movq	%r14, %rdi
	callq	rattle_dealloc@PLT
	jmp	.LBB88_26
.LBB88_27:
	cmpq	$0, 72(%rsp)
	je	.LBB88_28
	movq	24(%rsp), %rdi
	addq	$88, %rsp
	popq	%rbx
	popq	%r12
	popq	%r13
	popq	%r14
	popq	%r15
	popq	%rbp
	jmp	rattle_dealloc@PLT
.LBB88_28:
	addq	$88, %rsp
	popq	%rbx
	popq	%r12
	popq	%r13
	popq	%r14
	popq	%r15
	popq	%rbp
	retq
.Lfunc_end88:
	.size	std_alloc__boxed__Box__drop____519f02485a0b0db1_, .Lfunc_end88-std_alloc__boxed__Box__drop____519f02485a0b0db1_

	.section	.text.unlikely.std_alloc__vec__Vec__grow_amortized____2423f5a3228d8d71_,"ax",@progbits
	.p2align	4
	.type	std_alloc__vec__Vec__grow_amortized____2423f5a3228d8d71_,@function
std_alloc__vec__Vec__grow_amortized____2423f5a3228d8d71_:
	movq	8(%rdi), %rax
	cmpq	$-1, %rax
	je	.LBB89_5
	pushq	%r14
	pushq	%rbx
	pushq	%rax
	movq	16(%rdi), %rcx
	cmpq	$4, %rax
	movl	$3, %ebx
	cmovaeq	%rax, %rbx
	incq	%rbx
	movq	%rcx, %rsi
	shrq	$62, %rsi
	leaq	(%rcx,%rcx), %rdx
	cmpq	%rdx, %rbx
	cmovaq	%rbx, %rdx
	testq	%rsi, %rsi
	cmoveq	%rdx, %rbx
	movabsq	$230584300921369395, %rsi
	cmpq	%rsi, %rbx
	ja	.LBB89_6
	testq	%rcx, %rcx
	je	.LBB89_8
	movq	%rdi, %r14
	movq	(%rdi), %rdi
	shlq	$3, %rax
	leaq	(%rax,%rax,4), %rsi
	leaq	(,%rbx,8), %rax
	leaq	(%rax,%rax,4), %rdx
	movl	$8, %ecx
	callq	rattle_realloc@PLT
	testb	$1, %al
	je	.LBB89_6
.LBB89_9:
	movq	%rdx, (%r14)
	movq	%rbx, 16(%r14)
	movb	$1, %al
	addq	$8, %rsp
	popq	%rbx
	popq	%r14
	retq
.LBB89_5:
	xorl	%eax, %eax
	retq
.LBB89_8:
	movq	%rdi, %r14
	shlq	$3, %rdx
	leaq	(%rdx,%rdx,4), %rdi
	movl	$8, %esi
	callq	rattle_alloc@PLT
	testb	$1, %al
	jne	.LBB89_9
.LBB89_6:
	xorl	%eax, %eax
	addq	$8, %rsp
	popq	%rbx
	popq	%r14
	retq
.Lfunc_end89:
	.size	std_alloc__vec__Vec__grow_amortized____2423f5a3228d8d71_, .Lfunc_end89-std_alloc__vec__Vec__grow_amortized____2423f5a3228d8d71_

	.section	.text.std_alloc__vec__Vec__drop____aaf6d4b903e51382_,"ax",@progbits
	.p2align	4
	.type	std_alloc__vec__Vec__drop____aaf6d4b903e51382_,@function
std_alloc__vec__Vec__drop____aaf6d4b903e51382_:
	pushq	%rbp
	pushq	%r15
	pushq	%r14
	pushq	%r13
	pushq	%r12
	pushq	%rbx
	subq	$24, %rsp
	movq	(%rdi), %rbx
	movq	8(%rdi), %rcx
	movq	16(%rdi), %rax
	movq	%rax, 8(%rsp)
	movq	%rcx, 16(%rsp)
	testq	%rcx, %rcx
	je	.LBB90_13
	xorl	%r13d, %r13d
	jmp	.LBB90_2
	.p2align	4
.LBB90_12:
	incq	%r13
	cmpq	16(%rsp), %r13
	je	.LBB90_13
.LBB90_2:
	leaq	(,%r13,4), %rax
	addq	%r13, %rax
	movq	(%rbx,%rax,8), %rdi
	movq	16(%rbx,%rax,8), %r14
	movq	24(%rbx,%rax,8), %r15
	movq	32(%rbx,%rax,8), %rbp
	movzbl	8(%rbx,%rax,8), %r12d
	callq	std_alloc__boxed__Box__drop____519f02485a0b0db1_
	testb	%r12b, %r12b
	jne	.LBB90_12
	testq	%r15, %r15
	je	.LBB90_10
	leaq	40(%r14), %r12
	jmp	.LBB90_5
	.p2align	4
.LBB90_9:
	addq	$48, %r12
	decq	%r15
	je	.LBB90_10
.LBB90_5:
	cmpb	$0, -40(%r12)
	jne	.LBB90_9
	cmpb	$0, -24(%r12)
	jne	.LBB90_9
	cmpq	$0, (%r12)
	je	.LBB90_9
	movq	-16(%r12), %rdi
	callq	rattle_dealloc@PLT
	jmp	.LBB90_9
	.p2align	4
.LBB90_10:
	testq	%rbp, %rbp
	je	.LBB90_12
	movq	%r14, %rdi
	callq	rattle_dealloc@PLT
	jmp	.LBB90_12
.LBB90_13:
	cmpq	$0, 8(%rsp)
	je	.LBB90_14
	movq	%rbx, %rdi
	addq	$24, %rsp
	popq	%rbx
	popq	%r12
	popq	%r13
	popq	%r14
	popq	%r15
	popq	%rbp
	jmp	rattle_dealloc@PLT
.LBB90_14:
	addq	$24, %rsp
	popq	%rbx
	popq	%r12
	popq	%r13
	popq	%r14
	popq	%r15
	popq	%rbp
	retq
.Lfunc_end90:
	.size	std_alloc__vec__Vec__drop____aaf6d4b903e51382_, .Lfunc_end90-std_alloc__vec__Vec__drop____aaf6d4b903e51382_

	.section	.text.std_alloc__vec__Vec__drop____9c2c29123848c3af_,"ax",@progbits
	.p2align	4
	.type	std_alloc__vec__Vec__drop____9c2c29123848c3af_,@function
std_alloc__vec__Vec__drop____9c2c29123848c3af_:
	pushq	%r15
	pushq	%r14
	pushq	%r13
	pushq	%r12
	pushq	%rbx
	movq	(%rdi), %rbx
	movq	8(%rdi), %r12
	movq	16(%rdi), %r15
	testq	%r12, %r12
	je	.LBB91_12
	xorl	%r13d, %r13d
	.p2align	4
.LBB91_3:
	movq	(%rbx,%r13,8), %r14
	#APP
	#NO_APP
	movl	$1, %eax
	xchgq	%rax, 8(%r14)
	#APP
	#NO_APP
	testq	%rax, %rax
	je	.LBB91_6
	movq	(%r14), %rdi
	xorl	%esi, %esi
	callq	pthread_join@PLT
	cmpb	$0, .Lstatic.0(%rip)
	jne	.LBB91_9
	movq	%r14, %rdi
	callq	free@PLT
.LBB91_6:
	cmpb	$0, .Lstatic.0(%rip)
	jne	.LBB91_9
	cmpb	$0, .Lstatic.0(%rip)
	jne	.LBB91_9
	cmpb	$0, .Lstatic.0(%rip)
	jne	.LBB91_9
	incq	%r13
	cmpq	%r13, %r12
	jne	.LBB91_3
	cmpb	$0, .Lstatic.0(%rip)
	jne	.LBB91_9
	cmpb	$0, .Lstatic.0(%rip)
	jne	.LBB91_9
.LBB91_12:
	cmpb	$0, .Lstatic.0(%rip)
	jne	.LBB91_9
	cmpb	$0, .Lstatic.0(%rip)
	jne	.LBB91_9
	testq	%r15, %r15
	je	.LBB91_15
	movq	%rbx, %rdi
	popq	%rbx
	popq	%r12
	popq	%r13
	popq	%r14
	popq	%r15
	jmp	rattle_dealloc@PLT
.LBB91_15:
	popq	%rbx
	popq	%r12
	popq	%r13
	popq	%r14
	popq	%r15
	retq
.LBB91_9:
	ud2
.Lfunc_end91:
	.size	std_alloc__vec__Vec__drop____9c2c29123848c3af_, .Lfunc_end91-std_alloc__vec__Vec__drop____9c2c29123848c3af_

	.section	.text.unlikely.std_alloc__vec__Vec__grow_amortized____e5b8391671a86b88_,"ax",@progbits
	.p2align	4
	.type	std_alloc__vec__Vec__grow_amortized____e5b8391671a86b88_,@function
std_alloc__vec__Vec__grow_amortized____e5b8391671a86b88_:
	movq	8(%rdi), %rsi
	cmpq	$-1, %rsi
	je	.LBB92_5
	pushq	%r14
	pushq	%rbx
	pushq	%rax
	movq	16(%rdi), %rcx
	cmpq	$4, %rsi
	movl	$3, %ebx
	cmovaeq	%rsi, %rbx
	incq	%rbx
	movq	%rcx, %rdx
	shrq	$62, %rdx
	leaq	(%rcx,%rcx), %rax
	cmpq	%rax, %rbx
	cmovaq	%rbx, %rax
	testq	%rdx, %rdx
	cmoveq	%rax, %rbx
	movq	%rbx, %rdx
	shrq	$60, %rdx
	jne	.LBB92_6
	testq	%rcx, %rcx
	je	.LBB92_8
	movq	%rdi, %r14
	movq	(%rdi), %rdi
	shlq	$3, %rsi
	leaq	(,%rbx,8), %rdx
	movl	$8, %ecx
	callq	rattle_realloc@PLT
	testb	$1, %al
	je	.LBB92_6
.LBB92_9:
	movq	%rdx, (%r14)
	movq	%rbx, 16(%r14)
	movb	$1, %al
	addq	$8, %rsp
	popq	%rbx
	popq	%r14
	retq
.LBB92_5:
	xorl	%eax, %eax
	retq
.LBB92_8:
	movq	%rdi, %r14
	shlq	$3, %rax
	movl	$8, %esi
	movq	%rax, %rdi
	callq	rattle_alloc@PLT
	testb	$1, %al
	jne	.LBB92_9
.LBB92_6:
	xorl	%eax, %eax
	addq	$8, %rsp
	popq	%rbx
	popq	%r14
	retq
.Lfunc_end92:
	.size	std_alloc__vec__Vec__grow_amortized____e5b8391671a86b88_, .Lfunc_end92-std_alloc__vec__Vec__grow_amortized____e5b8391671a86b88_

	.section	.text.std_alloc__vec__deque__VecDeque__drop____aaf6d4b903e51382_,"ax",@progbits
	.p2align	4
	.type	std_alloc__vec__deque__VecDeque__drop____aaf6d4b903e51382_,@function
std_alloc__vec__deque__VecDeque__drop____aaf6d4b903e51382_:
	pushq	%rbp
	pushq	%r15
	pushq	%r14
	pushq	%r13
	pushq	%r12
	pushq	%rbx
	subq	$24, %rsp
	movq	(%rdi), %rbx
	movq	8(%rdi), %r14
	movq	16(%rdi), %rax
	movq	%rax, 16(%rsp)
	testq	%r14, %r14
	je	.LBB93_26
	movq	32(%rdi), %rax
	movq	24(%rdi), %rbp
	movq	%rax, (%rsp)
	subq	%rax, %r14
	addq	%rbp, %r14
	cmpq	%r14, %rbp
	jb	.LBB93_2
.LBB93_13:
	cmpq	$0, (%rsp)
	je	.LBB93_26
	xorl	%r13d, %r13d
	jmp	.LBB93_15
	.p2align	4
.LBB93_25:
	incq	%r13
	cmpq	(%rsp), %r13
	je	.LBB93_26
.LBB93_15:
	leaq	(,%r13,4), %rax
	addq	%r13, %rax
	movq	(%rbx,%rax,8), %rdi
	movq	16(%rbx,%rax,8), %r14
	movq	24(%rbx,%rax,8), %r12
	movq	32(%rbx,%rax,8), %r15
	movzbl	8(%rbx,%rax,8), %ebp
	callq	std_alloc__boxed__Box__drop____519f02485a0b0db1_
	testb	%bpl, %bpl
	jne	.LBB93_25
	testq	%r12, %r12
	je	.LBB93_23
	leaq	40(%r14), %rbp
	jmp	.LBB93_18
	.p2align	4
.LBB93_22:
	addq	$48, %rbp
	decq	%r12
	je	.LBB93_23
.LBB93_18:
	cmpb	$0, -40(%rbp)
	jne	.LBB93_22
	cmpb	$0, -24(%rbp)
	jne	.LBB93_22
	cmpq	$0, (%rbp)
	je	.LBB93_22
	movq	-16(%rbp), %rdi
	callq	rattle_dealloc@PLT
	jmp	.LBB93_22
	.p2align	4
.LBB93_23:
	testq	%r15, %r15
	je	.LBB93_25
	movq	%r14, %rdi
	callq	rattle_dealloc@PLT
	jmp	.LBB93_25
	.p2align	4
.LBB93_12:
	incq	%rbp
	cmpq	%r14, %rbp
	je	.LBB93_13
.LBB93_2:
	leaq	(,%rbp,4), %rax
	addq	%rbp, %rax
	movq	(%rbx,%rax,8), %rdi
	movq	16(%rbx,%rax,8), %rcx
	movq	%rcx, 8(%rsp)
	movq	24(%rbx,%rax,8), %r12
	movq	32(%rbx,%rax,8), %r15
	movzbl	8(%rbx,%rax,8), %r13d
	callq	std_alloc__boxed__Box__drop____519f02485a0b0db1_
	testb	%r13b, %r13b
	jne	.LBB93_12
	testq	%r12, %r12
	je	.LBB93_10
	movq	8(%rsp), %rax
	leaq	40(%rax), %r13
	jmp	.LBB93_5
	.p2align	4
.LBB93_9:
	addq	$48, %r13
	decq	%r12
	je	.LBB93_10
.LBB93_5:
	cmpb	$0, -40(%r13)
	jne	.LBB93_9
	cmpb	$0, -24(%r13)
	jne	.LBB93_9
	cmpq	$0, (%r13)
	je	.LBB93_9
	movq	-16(%r13), %rdi
	callq	rattle_dealloc@PLT
	jmp	.LBB93_9
	.p2align	4
.LBB93_10:
	testq	%r15, %r15
	je	.LBB93_12
	movq	8(%rsp), %rdi
	callq	rattle_dealloc@PLT
	jmp	.LBB93_12
.LBB93_26:
	cmpq	$0, 16(%rsp)
	je	.LBB93_27
	movq	%rbx, %rdi
	addq	$24, %rsp
	popq	%rbx
	popq	%r12
	popq	%r13
	popq	%r14
	popq	%r15
	popq	%rbp
	jmp	rattle_dealloc@PLT
.LBB93_27:
	addq	$24, %rsp
	popq	%rbx
	popq	%r12
	popq	%r13
	popq	%r14
	popq	%r15
	popq	%rbp
	retq
.Lfunc_end93:
	.size	std_alloc__vec__deque__VecDeque__drop____aaf6d4b903e51382_, .Lfunc_end93-std_alloc__vec__deque__VecDeque__drop____aaf6d4b903e51382_

	.section	.text.ww_table__close__come,"ax",@progbits
	.p2align	4
	.type	ww_table__close__come,@function
ww_table__close__come:
	pushq	%rbp
	pushq	%r15
	pushq	%r14
	pushq	%r13
	pushq	%r12
	pushq	%rbx
	subq	$136, %rsp
	movq	336(%rdi), %rax
	movq	%rax, 32(%rsp)
	movq	344(%rdi), %rbp
	movq	352(%rdi), %rax
	movq	%rax, 40(%rsp)
	movzbl	360(%rdi), %eax
	movb	%al, 15(%rsp)
	movq	368(%rdi), %rbx
	movq	384(%rdi), %r12
	testq	%rbp, %rbp
	je	.LBB94_10
	movq	%rsi, %r15
	movq	32(%rsp), %rax
	leaq	16(%rax), %r13
	jmp	.LBB94_2
	.p2align	4
.LBB94_9:
	decq	%rbp
	addq	$96, %r13
	testq	%rbp, %rbp
	je	.LBB94_10
.LBB94_2:
	movq	-16(%r13), %rax
	leaq	(%rax,%rax,2), %rdx
	shlq	$5, %rdx
	movups	64(%r13), %xmm0
	movaps	%xmm0, 112(%rsp)
	movups	48(%r13), %xmm0
	movaps	%xmm0, 96(%rsp)
	movups	32(%r13), %xmm0
	movaps	%xmm0, 80(%rsp)
	movups	16(%r13), %xmm0
	movaps	%xmm0, 64(%rsp)
	movups	(%r13), %xmm0
	movaps	%xmm0, 48(%rsp)
	movzbl	(%r15,%rdx), %r8d
	movzbl	32(%r15,%rdx), %esi
	movq	40(%r15,%rdx), %rax
	movq	56(%r15,%rdx), %rcx
	movzbl	64(%r15,%rdx), %r14d
	movq	72(%r15,%rdx), %rdi
	movq	88(%r15,%rdx), %r9
	movq	$0, 8(%r15,%rdx)
	movq	$1, (%r15,%rdx)
	movaps	112(%rsp), %xmm0
	movups	%xmm0, 80(%r15,%rdx)
	movaps	48(%rsp), %xmm0
	movaps	64(%rsp), %xmm1
	movaps	80(%rsp), %xmm2
	movaps	96(%rsp), %xmm3
	movups	%xmm3, 64(%r15,%rdx)
	movups	%xmm2, 48(%r15,%rdx)
	movups	%xmm1, 32(%r15,%rdx)
	movups	%xmm0, 16(%r15,%rdx)
	cmpb	$1, %r8b
	jne	.LBB94_9
	leal	-2(%rsi), %edx
	cmpl	$5, %edx
	jb	.LBB94_6
	cmpl	$1, %esi
	testq	%rcx, %rcx
	je	.LBB94_6
	movq	%rdi, 24(%rsp)
	movq	%rax, %rdi
	movq	%r9, 16(%rsp)
	callq	rattle_dealloc@PLT
	movq	16(%rsp), %r9
	movq	24(%rsp), %rdi
	.p2align	4
.LBB94_6:
	testb	%r14b, %r14b
	jne	.LBB94_9
	testq	%r9, %r9
	je	.LBB94_9
	callq	rattle_dealloc@PLT
	jmp	.LBB94_9
.LBB94_10:
	cmpq	$0, 40(%rsp)
	je	.LBB94_12
	movq	32(%rsp), %rdi
	callq	rattle_dealloc@PLT
.LBB94_12:
	cmpb	$1, 15(%rsp)
	setne	%al
	testq	%r12, %r12
	sete	%cl
	orb	%al, %cl
	jne	.LBB94_14
	.p2align	4
.LBB94_13:
	movq	(%rbx), %r14
	movq	%rbx, %rdi
	callq	rattle_dealloc@PLT
	movq	%r14, %rbx
	decq	%r12
	jne	.LBB94_13
.LBB94_14:
	addq	$136, %rsp
	popq	%rbx
	popq	%r12
	popq	%r13
	popq	%r14
	popq	%r15
	popq	%rbp
	retq
.Lfunc_end94:
	.size	ww_table__close__come, .Lfunc_end94-ww_table__close__come

	.section	.text.ww_run__workers__places,"ax",@progbits
	.p2align	4
	.type	ww_run__workers__places,@function
ww_run__workers__places:
	pushq	%rbp
	pushq	%r15
	pushq	%r14
	pushq	%r12
	pushq	%rbx
	subq	$48, %rsp
	movq	%rdx, %r14
	movq	%rdi, %rbx
	xorps	%xmm0, %xmm0
	movaps	%xmm0, 16(%rsp)
	movq	$0, 32(%rsp)
	testq	%rdx, %rdx
	je	.LBB95_1
	movq	%r14, %rax
	shrq	$59, %rax
	jne	.LBB95_10
	movq	%rsi, %r15
	movq	%r14, %rdi
	shlq	$4, %rdi
	movl	$8, %esi
	callq	rattle_alloc@PLT
	testb	$1, %al
	je	.LBB95_10
	movq	%rdx, 16(%rsp)
	movq	$0, 24(%rsp)
	movq	%r14, 32(%rsp)
	addq	$8, %r15
	xorl	%eax, %eax
	jmp	.LBB95_5
	.p2align	4
.LBB95_8:
	movq	%rax, %rcx
	shlq	$4, %rcx
	movb	%bpl, (%rdx,%rcx)
	movl	$0, 1(%rdx,%rcx)
	movl	$0, 4(%rdx,%rcx)
	movq	%r12, 8(%rdx,%rcx)
	incq	%rax
	movq	%rax, 24(%rsp)
	addq	$80, %r15
	decq	%r14
	je	.LBB95_9
.LBB95_5:
	movzbl	-8(%r15), %ebp
	movq	(%r15), %r12
	cmpq	%rax, 32(%rsp)
	jne	.LBB95_8
	leaq	16(%rsp), %rdi
	callq	std_alloc__vec__Vec__grow_amortized____1361f7250aa6eb72_
	testb	%al, %al
	je	.LBB95_12
	movq	16(%rsp), %rdx
	movq	24(%rsp), %rax
	jmp	.LBB95_8
.LBB95_1:
	leaq	8(%rsp), %rax
	movq	%rax, 16(%rsp)
	movq	%r14, 32(%rsp)
.LBB95_9:
	movb	$0, (%rbx)
	movq	16(%rsp), %rax
	movq	%rax, 8(%rbx)
	movq	24(%rsp), %rax
	movq	%rax, 16(%rbx)
	movq	32(%rsp), %rax
	movq	%rax, 24(%rbx)
	jmp	.LBB95_11
.LBB95_12:
	cmpq	$0, 32(%rsp)
	je	.LBB95_10
	movq	16(%rsp), %rdi
	callq	rattle_dealloc@PLT
.LBB95_10:
	movb	$1, (%rbx)
	xorps	%xmm0, %xmm0
	movups	%xmm0, 8(%rbx)
	movq	$0, 24(%rbx)
.LBB95_11:
	addq	$48, %rsp
	popq	%rbx
	popq	%r12
	popq	%r14
	popq	%r15
	popq	%rbp
	retq
.Lfunc_end95:
	.size	ww_run__workers__places, .Lfunc_end95-ww_run__workers__places

	.section	.text.std_alloc__vec__Vec__drop____b004eca8d6036835_,"ax",@progbits
	.p2align	4
	.type	std_alloc__vec__Vec__drop____b004eca8d6036835_,@function
std_alloc__vec__Vec__drop____b004eca8d6036835_:
	pushq	%rbp
	pushq	%r15
	pushq	%r14
	pushq	%r13
	pushq	%r12
	pushq	%rbx
	pushq	%rax
	movq	(%rdi), %rbx
	movq	8(%rdi), %r15
	movq	16(%rdi), %rax
	movq	%rax, (%rsp)
	testq	%r15, %r15
	je	.LBB96_9
	leaq	72(%rbx), %r12
	jmp	.LBB96_2
	.p2align	4
.LBB96_8:
	addq	$80, %r12
	decq	%r15
	je	.LBB96_9
.LBB96_2:
	movzbl	-56(%r12), %ecx
	movzbl	-24(%r12), %ebp
	movq	-16(%r12), %rdi
	movq	(%r12), %r13
	leal	-2(%rcx), %eax
	cmpl	$5, %eax
	jb	.LBB96_5
	movq	-48(%r12), %rax
	movq	-32(%r12), %rdx
	cmpl	$1, %ecx
	testq	%rdx, %rdx
	je	.LBB96_5
	movq	%rdi, %r14
	movq	%rax, %rdi
	callq	rattle_dealloc@PLT
	movq	%r14, %rdi
	.p2align	4
.LBB96_5:
	testb	%bpl, %bpl
	jne	.LBB96_8
	testq	%r13, %r13
	je	.LBB96_8
	callq	rattle_dealloc@PLT
	jmp	.LBB96_8
.LBB96_9:
	cmpq	$0, (%rsp)
	je	.LBB96_10
	movq	%rbx, %rdi
	addq	$8, %rsp
	popq	%rbx
	popq	%r12
	popq	%r13
	popq	%r14
	popq	%r15
	popq	%rbp
	jmp	rattle_dealloc@PLT
.LBB96_10:
	addq	$8, %rsp
	popq	%rbx
	popq	%r12
	popq	%r13
	popq	%r14
	popq	%r15
	popq	%rbp
	retq
.Lfunc_end96:
	.size	std_alloc__vec__Vec__drop____b004eca8d6036835_, .Lfunc_end96-std_alloc__vec__Vec__drop____b004eca8d6036835_

	.section	.text.ww_json__pieces__push_number____cac10c478f68bd12_,"ax",@progbits
	.p2align	4
	.type	ww_json__pieces__push_number____cac10c478f68bd12_,@function
ww_json__pieces__push_number____cac10c478f68bd12_:
	pushq	%rbp
	pushq	%r15
	pushq	%r14
	pushq	%r13
	pushq	%r12
	pushq	%rbx
	subq	$40, %rsp
	movq	%rcx, %r14
	movq	%rdi, %rbx
	xorps	%xmm0, %xmm0
	movaps	%xmm0, 16(%rsp)
	movaps	%xmm0, (%rsp)
	movq	$0, 32(%rsp)
	movq	8(%rdi), %r15
	movq	16(%rdi), %r12
	movq	%r12, %rax
	subq	%r15, %rax
	cmpq	%rax, %rdx
	ja	.LBB97_1
.LBB97_3:
	leaq	8(%rbx), %rax
	movq	(%rbx), %r13
	movups	%xmm0, (%rax)
	leaq	(%r15,%r13), %rdi
	addq	%rdx, %r15
	movq	%rdi, %rax
	subq	%rsi, %rax
	cmpq	%rdx, %rax
	jae	.LBB97_4
	movzbl	(%rsi), %eax
	movb	%al, (%rdi)
	cmpq	$1, %rdx
	je	.LBB97_11
	movzbl	1(%rsi), %eax
	movb	%al, 1(%rdi)
	cmpq	$2, %rdx
	je	.LBB97_11
	movzbl	2(%rsi), %eax
	movb	%al, 2(%rdi)
	cmpq	$3, %rdx
	je	.LBB97_11
	movzbl	3(%rsi), %eax
	movb	%al, 3(%rdi)
	cmpq	$4, %rdx
	je	.LBB97_11
	movzbl	4(%rsi), %eax
	movb	%al, 4(%rdi)
	cmpq	$5, %rdx
	je	.LBB97_11
	movzbl	5(%rsi), %eax
	movb	%al, 5(%rdi)
	jmp	.LBB97_11
.LBB97_4:
	callq	memmove@PLT
.LBB97_11:
	movq	%r13, (%rbx)
	movq	%r15, 8(%rbx)
	movq	%r12, 16(%rbx)
	movl	$40, %ebp
	cmpq	$10000, %r14
	jb	.LBB97_12
	.p2align	4
.LBB97_13:
	movabsq	$3777893186295716171, %rcx
	movq	%r14, %rax
	mulq	%rcx
	shrq	$11, %rdx
	imull	$10000, %edx, %eax
	movl	%r14d, %ecx
	subl	%eax, %ecx
	imull	$5243, %ecx, %eax
	shrl	$19, %eax
	imull	$100, %eax, %esi
	subl	%esi, %ecx
	movzwl	%cx, %ecx
	leaq	.Lstatic.62(%rip), %rsi
	movzwl	(%rsi,%rcx,2), %ecx
	movw	%cx, -2(%rsp,%rbp)
	movzwl	(%rsi,%rax,2), %eax
	movw	%ax, -4(%rsp,%rbp)
	addq	$-4, %rbp
	cmpq	$99999999, %r14
	movq	%rdx, %r14
	ja	.LBB97_13
	cmpq	$99, %rdx
	ja	.LBB97_18
.LBB97_15:
	cmpq	$9, %rdx
	ja	.LBB97_17
	orb	$48, %dl
	movb	%dl, -1(%rsp,%rbp)
	decq	%rbp
	jmp	.LBB97_21
.LBB97_12:
	movq	%r14, %rdx
	cmpq	$99, %rdx
	jbe	.LBB97_15
.LBB97_18:
	movl	%edx, %eax
	shrl	$2, %eax
	movzwl	%ax, %eax
	imull	$5243, %eax, %eax
	shrl	$17, %eax
	imull	$100, %eax, %ecx
	movl	%edx, %esi
	subl	%ecx, %esi
	movzwl	%si, %esi
	leaq	.Lstatic.62(%rip), %rcx
	movzwl	(%rcx,%rsi,2), %esi
	movw	%si, -2(%rsp,%rbp)
	cmpq	$999, %rdx
	ja	.LBB97_20
	orb	$48, %al
	movb	%al, -3(%rsp,%rbp)
	addq	$-3, %rbp
	jmp	.LBB97_21
.LBB97_17:
	leaq	.Lstatic.62(%rip), %rax
	movzwl	(%rax,%rdx,2), %eax
	movw	%ax, -2(%rsp,%rbp)
	addq	$-2, %rbp
	jmp	.LBB97_21
.LBB97_20:
	movzwl	%ax, %eax
	movzwl	(%rcx,%rax,2), %eax
	movw	%ax, -4(%rsp,%rbp)
	addq	$-4, %rbp
.LBB97_21:
	movl	$40, %edx
	subq	%rbp, %rdx
	movq	%r12, %rax
	subq	%r15, %rax
	cmpq	%rax, %rdx
	ja	.LBB97_22
.LBB97_24:
	leaq	(%rsp,%rbp), %rsi
	leaq	(%r15,%r13), %rdi
	addq	%rdx, %r15
	callq	memcpy@PLT
	movq	%r13, (%rbx)
	movq	%r15, 8(%rbx)
	movq	%r12, 16(%rbx)
	xorl	%eax, %eax
.LBB97_25:
	addq	$40, %rsp
	popq	%rbx
	popq	%r12
	popq	%r13
	popq	%r14
	popq	%r15
	popq	%rbp
	retq
.LBB97_1:
	movq	%rsi, %r13
	movq	%rbx, %rdi
	movq	%rdx, %rbp
	movq	%rdx, %rsi
	callq	std_alloc__vec__Vec__grow_amortized____08710997ffb5faad_
	movl	%eax, %ecx
	movb	$1, %al
	testb	%cl, %cl
	je	.LBB97_25
	movq	8(%rbx), %r15
	movq	16(%rbx), %r12
	movq	%r13, %rsi
	movq	%rbp, %rdx
	xorps	%xmm0, %xmm0
	jmp	.LBB97_3
.LBB97_22:
	movq	%rbx, %rdi
	movq	%rdx, %r14
	movq	%rdx, %rsi
	callq	std_alloc__vec__Vec__grow_amortized____08710997ffb5faad_
	movl	%eax, %ecx
	movb	$1, %al
	testb	%cl, %cl
	je	.LBB97_25
	movq	(%rbx), %r13
	movq	8(%rbx), %r15
	movq	16(%rbx), %r12
	movq	%r14, %rdx
	jmp	.LBB97_24
.Lfunc_end97:
	.size	ww_json__pieces__push_number____cac10c478f68bd12_, .Lfunc_end97-ww_json__pieces__push_number____cac10c478f68bd12_

	.section	.text.ww_json__pieces__push_number____4d4e20cb341597a4_,"ax",@progbits
	.p2align	4
	.type	ww_json__pieces__push_number____4d4e20cb341597a4_,@function
ww_json__pieces__push_number____4d4e20cb341597a4_:
	pushq	%rbp
	pushq	%r15
	pushq	%r14
	pushq	%r13
	pushq	%r12
	pushq	%rbx
	subq	$40, %rsp
	movq	%rcx, %r14
	movq	%rdi, %rbx
	xorps	%xmm0, %xmm0
	movaps	%xmm0, 16(%rsp)
	movaps	%xmm0, (%rsp)
	movq	$0, 32(%rsp)
	movq	8(%rdi), %r15
	movq	16(%rdi), %r12
	movq	%r12, %rax
	subq	%r15, %rax
	cmpq	%rax, %rdx
	ja	.LBB98_1
.LBB98_3:
	leaq	8(%rbx), %rax
	movq	(%rbx), %r13
	movups	%xmm0, (%rax)
	leaq	(%r15,%r13), %rdi
	addq	%rdx, %r15
	movq	%rdi, %rax
	subq	%rsi, %rax
	cmpq	%rdx, %rax
	jae	.LBB98_4
	movzbl	(%rsi), %eax
	movb	%al, (%rdi)
	cmpq	$1, %rdx
	je	.LBB98_12
	movzbl	1(%rsi), %eax
	movb	%al, 1(%rdi)
	cmpq	$2, %rdx
	je	.LBB98_12
	movzbl	2(%rsi), %eax
	movb	%al, 2(%rdi)
	cmpq	$3, %rdx
	je	.LBB98_12
	movzbl	3(%rsi), %eax
	movb	%al, 3(%rdi)
	cmpq	$4, %rdx
	je	.LBB98_12
	movzbl	4(%rsi), %eax
	movb	%al, 4(%rdi)
	cmpq	$5, %rdx
	je	.LBB98_12
	movzbl	5(%rsi), %eax
	movb	%al, 5(%rdi)
	cmpq	$6, %rdx
	je	.LBB98_12
	movzbl	6(%rsi), %eax
	movb	%al, 6(%rdi)
	jmp	.LBB98_12
.LBB98_4:
	callq	memmove@PLT
.LBB98_12:
	movq	%r13, (%rbx)
	movq	%r15, 8(%rbx)
	movq	%r12, 16(%rbx)
	movl	$40, %ebp
	cmpq	$10000, %r14
	jb	.LBB98_13
	.p2align	4
.LBB98_14:
	movabsq	$3777893186295716171, %rcx
	movq	%r14, %rax
	mulq	%rcx
	shrq	$11, %rdx
	imull	$10000, %edx, %eax
	movl	%r14d, %ecx
	subl	%eax, %ecx
	imull	$5243, %ecx, %eax
	shrl	$19, %eax
	imull	$100, %eax, %esi
	subl	%esi, %ecx
	movzwl	%cx, %ecx
	leaq	.Lstatic.62(%rip), %rsi
	movzwl	(%rsi,%rcx,2), %ecx
	movw	%cx, -2(%rsp,%rbp)
	movzwl	(%rsi,%rax,2), %eax
	movw	%ax, -4(%rsp,%rbp)
	addq	$-4, %rbp
	cmpq	$99999999, %r14
	movq	%rdx, %r14
	ja	.LBB98_14
	cmpq	$99, %rdx
	ja	.LBB98_19
.LBB98_16:
	cmpq	$9, %rdx
	ja	.LBB98_18
	orb	$48, %dl
	movb	%dl, -1(%rsp,%rbp)
	decq	%rbp
	jmp	.LBB98_22
.LBB98_13:
	movq	%r14, %rdx
	cmpq	$99, %rdx
	jbe	.LBB98_16
.LBB98_19:
	movl	%edx, %eax
	shrl	$2, %eax
	movzwl	%ax, %eax
	imull	$5243, %eax, %eax
	shrl	$17, %eax
	imull	$100, %eax, %ecx
	movl	%edx, %esi
	subl	%ecx, %esi
	movzwl	%si, %esi
	leaq	.Lstatic.62(%rip), %rcx
	movzwl	(%rcx,%rsi,2), %esi
	movw	%si, -2(%rsp,%rbp)
	cmpq	$999, %rdx
	ja	.LBB98_21
	orb	$48, %al
	movb	%al, -3(%rsp,%rbp)
	addq	$-3, %rbp
	jmp	.LBB98_22
.LBB98_18:
	leaq	.Lstatic.62(%rip), %rax
	movzwl	(%rax,%rdx,2), %eax
	movw	%ax, -2(%rsp,%rbp)
	addq	$-2, %rbp
	jmp	.LBB98_22
.LBB98_21:
	movzwl	%ax, %eax
	movzwl	(%rcx,%rax,2), %eax
	movw	%ax, -4(%rsp,%rbp)
	addq	$-4, %rbp
.LBB98_22:
	movl	$40, %edx
	subq	%rbp, %rdx
	movq	%r12, %rax
	subq	%r15, %rax
	cmpq	%rax, %rdx
	ja	.LBB98_23
.LBB98_25:
	leaq	(%rsp,%rbp), %rsi
	leaq	(%r15,%r13), %rdi
	addq	%rdx, %r15
	callq	memcpy@PLT
	movq	%r13, (%rbx)
	movq	%r15, 8(%rbx)
	movq	%r12, 16(%rbx)
	xorl	%eax, %eax
.LBB98_26:
	addq	$40, %rsp
	popq	%rbx
	popq	%r12
	popq	%r13
	popq	%r14
	popq	%r15
	popq	%rbp
	retq
.LBB98_1:
	movq	%rsi, %r13
	movq	%rbx, %rdi
	movq	%rdx, %rbp
	movq	%rdx, %rsi
	callq	std_alloc__vec__Vec__grow_amortized____08710997ffb5faad_
	movl	%eax, %ecx
	movb	$1, %al
	testb	%cl, %cl
	je	.LBB98_26
	movq	8(%rbx), %r15
	movq	16(%rbx), %r12
	movq	%r13, %rsi
	movq	%rbp, %rdx
	xorps	%xmm0, %xmm0
	jmp	.LBB98_3
.LBB98_23:
	movq	%rbx, %rdi
	movq	%rdx, %r14
	movq	%rdx, %rsi
	callq	std_alloc__vec__Vec__grow_amortized____08710997ffb5faad_
	movl	%eax, %ecx
	movb	$1, %al
	testb	%cl, %cl
	je	.LBB98_26
	movq	(%rbx), %r13
	movq	8(%rbx), %r15
	movq	16(%rbx), %r12
	movq	%r14, %rdx
	jmp	.LBB98_25
.Lfunc_end98:
	.size	ww_json__pieces__push_number____4d4e20cb341597a4_, .Lfunc_end98-ww_json__pieces__push_number____4d4e20cb341597a4_

	.section	.text.ww_json__pieces__push_number____d61698437832fad8_,"ax",@progbits
	.p2align	4
	.type	ww_json__pieces__push_number____d61698437832fad8_,@function
ww_json__pieces__push_number____d61698437832fad8_:
	pushq	%rbp
	pushq	%r15
	pushq	%r14
	pushq	%r13
	pushq	%r12
	pushq	%rbx
	subq	$40, %rsp
	movl	%ecx, %ebp
	movq	%rdi, %rbx
	xorps	%xmm0, %xmm0
	movaps	%xmm0, 16(%rsp)
	movaps	%xmm0, (%rsp)
	movq	$0, 32(%rsp)
	movq	8(%rdi), %rax
	movq	16(%rdi), %r14
	movq	%r14, %rcx
	subq	%rax, %rcx
	cmpq	%rcx, %rdx
	ja	.LBB99_1
.LBB99_3:
	leaq	8(%rbx), %rcx
	leaq	(%rax,%rdx), %r15
	movq	(%rbx), %r12
	movups	%xmm0, (%rcx)
	leaq	(%r12,%rax), %rdi
	movq	%rdi, %rcx
	subq	%rsi, %rcx
	cmpq	%rdx, %rcx
	jae	.LBB99_6
	movl	%edx, %ecx
	andl	$3, %ecx
	cmpq	$4, %rdx
	jae	.LBB99_7
	xorl	%edi, %edi
	jmp	.LBB99_10
.LBB99_6:
	callq	memmove@PLT
	jmp	.LBB99_12
.LBB99_7:
	andl	$12, %edx
	leaq	(%rax,%r12), %r8
	addq	$3, %r8
	xorl	%edi, %edi
	.p2align	4
.LBB99_8:
	movzbl	(%rsi,%rdi), %r9d
	movb	%r9b, -3(%r8,%rdi)
	movzbl	1(%rsi,%rdi), %r9d
	movb	%r9b, -2(%r8,%rdi)
	movzbl	2(%rsi,%rdi), %r9d
	movb	%r9b, -1(%r8,%rdi)
	movzbl	3(%rsi,%rdi), %r9d
	movb	%r9b, (%r8,%rdi)
	addq	$4, %rdi
	cmpq	%rdi, %rdx
	jne	.LBB99_8
	testq	%rcx, %rcx
	je	.LBB99_12
.LBB99_10:
	addq	%rdi, %rsi
	addq	%rdi, %rax
	addq	%r12, %rax
	xorl	%edx, %edx
	.p2align	4
.LBB99_11:
	movzbl	(%rsi,%rdx), %edi
	movb	%dil, (%rax,%rdx)
	incq	%rdx
	cmpq	%rdx, %rcx
	jne	.LBB99_11
.LBB99_12:
	movq	%r12, (%rbx)
	movq	%r15, 8(%rbx)
	movq	%r14, 16(%rbx)
	cmpb	$99, %bpl
	ja	.LBB99_16
	cmpb	$9, %bpl
	ja	.LBB99_15
	leaq	39(%rsp), %rsi
	orb	$48, %bpl
	movb	%bpl, 39(%rsp)
	movl	$1, %edx
	movq	%r14, %rax
	subq	%r15, %rax
	cmpq	%rax, %rdx
	jbe	.LBB99_20
	jmp	.LBB99_18
.LBB99_16:
	leaq	37(%rsp), %rsi
	movzbl	%bpl, %eax
	leal	(%rax,%rax,4), %ecx
	leal	(%rax,%rcx,8), %eax
	shrl	$12, %eax
	imull	$100, %eax, %ecx
	subb	%cl, %bpl
	movzbl	%bpl, %ecx
	leaq	.Lstatic.62(%rip), %rdx
	movzwl	(%rdx,%rcx,2), %ecx
	movw	%cx, 38(%rsp)
	orb	$48, %al
	movb	%al, 37(%rsp)
	movl	$3, %edx
	movq	%r14, %rax
	subq	%r15, %rax
	cmpq	%rax, %rdx
	jbe	.LBB99_20
	jmp	.LBB99_18
.LBB99_15:
	leaq	38(%rsp), %rsi
	movzbl	%bpl, %eax
	leaq	.Lstatic.62(%rip), %rcx
	movzwl	(%rcx,%rax,2), %eax
	movw	%ax, 38(%rsp)
	movl	$2, %edx
	movq	%r14, %rax
	subq	%r15, %rax
	cmpq	%rax, %rdx
	ja	.LBB99_18
.LBB99_20:
	leaq	(%r12,%r15), %rdi
	addq	%rdx, %r15
	callq	memcpy@PLT
	movq	%r12, (%rbx)
	movq	%r15, 8(%rbx)
	movq	%r14, 16(%rbx)
	xorl	%eax, %eax
.LBB99_21:
	addq	$40, %rsp
	popq	%rbx
	popq	%r12
	popq	%r13
	popq	%r14
	popq	%r15
	popq	%rbp
	retq
.LBB99_1:
	movq	%rsi, %r15
	movq	%rbx, %rdi
	movq	%rdx, %r12
	movq	%rdx, %rsi
	callq	std_alloc__vec__Vec__grow_amortized____08710997ffb5faad_
	movl	%eax, %ecx
	movb	$1, %al
	testb	%cl, %cl
	je	.LBB99_21
	movq	8(%rbx), %rax
	movq	16(%rbx), %r14
	movq	%r15, %rsi
	movq	%r12, %rdx
	xorps	%xmm0, %xmm0
	jmp	.LBB99_3
.LBB99_18:
	movq	%rsi, %r13
	movq	%rbx, %rdi
	movq	%rdx, %rbp
	movq	%rdx, %rsi
	callq	std_alloc__vec__Vec__grow_amortized____08710997ffb5faad_
	movl	%eax, %ecx
	movb	$1, %al
	testb	%cl, %cl
	je	.LBB99_21
	movq	(%rbx), %r12
	movq	8(%rbx), %r15
	movq	16(%rbx), %r14
	movq	%r13, %rsi
	movq	%rbp, %rdx
	jmp	.LBB99_20
.Lfunc_end99:
	.size	ww_json__pieces__push_number____d61698437832fad8_, .Lfunc_end99-ww_json__pieces__push_number____d61698437832fad8_

	.section	.text.unlikely.std_alloc__vec__Vec__grow_amortized____08710997ffb5faad_,"ax",@progbits
	.p2align	4
	.type	std_alloc__vec__Vec__grow_amortized____08710997ffb5faad_,@function
std_alloc__vec__Vec__grow_amortized____08710997ffb5faad_:
	movq	%rsi, %rax
	movq	8(%rdi), %rsi
	addq	%rsi, %rax
	jae	.LBB100_2
	xorl	%eax, %eax
	retq
.LBB100_2:
	pushq	%r14
	pushq	%rbx
	pushq	%rax
	cmpq	$9, %rax
	movl	$8, %ebx
	cmovaeq	%rax, %rbx
	movq	16(%rdi), %rcx
	movq	%rcx, %rdx
	shrq	$62, %rdx
	leaq	(%rcx,%rcx), %rax
	cmpq	%rax, %rbx
	cmovaq	%rbx, %rax
	testq	%rdx, %rdx
	cmoveq	%rax, %rbx
	testq	%rbx, %rbx
	js	.LBB100_6
	testq	%rcx, %rcx
	je	.LBB100_8
	movq	%rdi, %r14
	movq	(%rdi), %rdi
	movl	$1, %ecx
	movq	%rbx, %rdx
	callq	rattle_realloc@PLT
	testb	$1, %al
	je	.LBB100_6
.LBB100_9:
	movq	%rdx, (%r14)
	movq	%rbx, 16(%r14)
	movb	$1, %al
	addq	$8, %rsp
	popq	%rbx
	popq	%r14
	retq
.LBB100_8:
	movq	%rdi, %r14
	movl	$1, %esi
	movq	%rax, %rdi
	callq	rattle_alloc@PLT
	testb	$1, %al
	jne	.LBB100_9
.LBB100_6:
	xorl	%eax, %eax
	addq	$8, %rsp
	popq	%rbx
	popq	%r14
	retq
.Lfunc_end100:
	.size	std_alloc__vec__Vec__grow_amortized____08710997ffb5faad_, .Lfunc_end100-std_alloc__vec__Vec__grow_amortized____08710997ffb5faad_

	.section	.text.std_alloc__vec__Vec__drop____a0e4aaa8ef000d5b_,"ax",@progbits
	.p2align	4
	.type	std_alloc__vec__Vec__drop____a0e4aaa8ef000d5b_,@function
std_alloc__vec__Vec__drop____a0e4aaa8ef000d5b_:
	pushq	%rbp
	pushq	%r15
	pushq	%r14
	pushq	%r13
	pushq	%r12
	pushq	%rbx
	subq	$24, %rsp
	movq	(%rdi), %rbx
	movq	8(%rdi), %rcx
	movq	16(%rdi), %rax
	movq	%rax, 8(%rsp)
	movq	%rcx, 16(%rsp)
	testq	%rcx, %rcx
	je	.LBB101_12
	xorl	%r13d, %r13d
	jmp	.LBB101_2
	.p2align	4
.LBB101_11:
	incq	%r13
	cmpq	16(%rsp), %r13
	je	.LBB101_12
.LBB101_2:
	leaq	(,%r13,2), %rax
	addq	%r13, %rax
	movq	(%rbx,%rax,8), %r14
	movq	8(%rbx,%rax,8), %r15
	movq	16(%rbx,%rax,8), %rbp
	testq	%r15, %r15
	je	.LBB101_9
	leaq	40(%r14), %r12
	jmp	.LBB101_4
	.p2align	4
.LBB101_8:
	addq	$48, %r12
	decq	%r15
	je	.LBB101_9
.LBB101_4:
	cmpb	$0, -40(%r12)
	jne	.LBB101_8
	cmpb	$0, -24(%r12)
	jne	.LBB101_8
	cmpq	$0, (%r12)
	je	.LBB101_8
	movq	-16(%r12), %rdi
	callq	rattle_dealloc@PLT
	jmp	.LBB101_8
	.p2align	4
.LBB101_9:
	testq	%rbp, %rbp
	je	.LBB101_11
	movq	%r14, %rdi
	callq	rattle_dealloc@PLT
	jmp	.LBB101_11
.LBB101_12:
	cmpq	$0, 8(%rsp)
	je	.LBB101_13
	movq	%rbx, %rdi
	addq	$24, %rsp
	popq	%rbx
	popq	%r12
	popq	%r13
	popq	%r14
	popq	%r15
	popq	%rbp
	jmp	rattle_dealloc@PLT
.LBB101_13:
	addq	$24, %rsp
	popq	%rbx
	popq	%r12
	popq	%r13
	popq	%r14
	popq	%r15
	popq	%rbp
	retq
.Lfunc_end101:
	.size	std_alloc__vec__Vec__drop____a0e4aaa8ef000d5b_, .Lfunc_end101-std_alloc__vec__Vec__drop____a0e4aaa8ef000d5b_

	.section	.text.unlikely.std_alloc__vec__Vec__grow_amortized____a42e910ec7d6d888_,"ax",@progbits
	.p2align	4
	.type	std_alloc__vec__Vec__grow_amortized____a42e910ec7d6d888_,@function
std_alloc__vec__Vec__grow_amortized____a42e910ec7d6d888_:
	movq	8(%rdi), %rax
	cmpq	$-1, %rax
	je	.LBB102_5
	pushq	%r14
	pushq	%rbx
	pushq	%rax
	movq	16(%rdi), %rcx
	cmpq	$4, %rax
	movl	$3, %ebx
	cmovaeq	%rax, %rbx
	incq	%rbx
	movq	%rcx, %rsi
	shrq	$62, %rsi
	leaq	(%rcx,%rcx), %rdx
	cmpq	%rdx, %rbx
	cmovaq	%rbx, %rdx
	testq	%rsi, %rsi
	cmoveq	%rdx, %rbx
	movabsq	$34937015291116575, %rsi
	cmpq	%rsi, %rbx
	ja	.LBB102_6
	testq	%rcx, %rcx
	je	.LBB102_8
	movq	%rdi, %r14
	movq	(%rdi), %rdi
	movq	%rax, %rcx
	shlq	$8, %rcx
	leaq	(%rcx,%rax,8), %rsi
	movq	%rbx, %rax
	shlq	$8, %rax
	leaq	(%rax,%rbx,8), %rdx
	movl	$8, %ecx
	callq	rattle_realloc@PLT
	testb	$1, %al
	je	.LBB102_6
.LBB102_9:
	movq	%rdx, (%r14)
	movq	%rbx, 16(%r14)
	movb	$1, %al
	addq	$8, %rsp
	popq	%rbx
	popq	%r14
	retq
.LBB102_5:
	xorl	%eax, %eax
	retq
.LBB102_8:
	movq	%rdi, %r14
	movq	%rdx, %rax
	shlq	$8, %rax
	leaq	(%rax,%rdx,8), %rdi
	movl	$8, %esi
	callq	rattle_alloc@PLT
	testb	$1, %al
	jne	.LBB102_9
.LBB102_6:
	xorl	%eax, %eax
	addq	$8, %rsp
	popq	%rbx
	popq	%r14
	retq
.Lfunc_end102:
	.size	std_alloc__vec__Vec__grow_amortized____a42e910ec7d6d888_, .Lfunc_end102-std_alloc__vec__Vec__grow_amortized____a42e910ec7d6d888_

	.section	.text.std_alloc__vec__Vec__from_elem____f8fbc0fa5651f44e_,"ax",@progbits
	.p2align	4
	.type	std_alloc__vec__Vec__from_elem____f8fbc0fa5651f44e_,@function
std_alloc__vec__Vec__from_elem____f8fbc0fa5651f44e_:
	pushq	%r15
	pushq	%r14
	pushq	%r12
	pushq	%rbx
	pushq	%rax
	movq	%rdi, %rbx
	testq	%rsi, %rsi
	je	.LBB103_5
	movq	%rsi, %r14
	movl	$1, %esi
	movq	%r14, %rdi
	callq	rattle_alloc@PLT
	testb	$1, %al
	je	.LBB103_4
	cmpq	$1, %r14
	jne	.LBB103_6
	xorl	%r15d, %r15d
	jmp	.LBB103_7
.LBB103_5:
	movb	$0, (%rbx)
	leaq	7(%rsp), %rax
	movq	%rax, 8(%rbx)
	xorps	%xmm0, %xmm0
	movups	%xmm0, 16(%rbx)
	jmp	.LBB103_8
.LBB103_4:
	movb	$1, (%rbx)
	xorps	%xmm0, %xmm0
	movups	%xmm0, 8(%rbx)
	movq	$0, 24(%rbx)
	jmp	.LBB103_8
.LBB103_6:
	leaq	-1(%r14), %r15
	movq	%rdx, %rdi
	xorl	%esi, %esi
	movq	%rdx, %r12
	movq	%r15, %rdx
	callq	memset@PLT
	movq	%r12, %rdx
.LBB103_7:
	movb	$0, (%rdx,%r15)
	incq	%r15
	movb	$0, (%rbx)
	movq	%rdx, 8(%rbx)
	movq	%r15, 16(%rbx)
	movq	%r14, 24(%rbx)
.LBB103_8:
	addq	$8, %rsp
	popq	%rbx
	popq	%r12
	popq	%r14
	popq	%r15
	retq
.Lfunc_end103:
	.size	std_alloc__vec__Vec__from_elem____f8fbc0fa5651f44e_, .Lfunc_end103-std_alloc__vec__Vec__from_elem____f8fbc0fa5651f44e_

	.section	.text.ww_model__state__Core__dies,"ax",@progbits
	.p2align	4
	.type	ww_model__state__Core__dies,@function
ww_model__state__Core__dies:
	movzbl	%dl, %r8d
	movl	%r8d, %eax
	shll	$8, %eax
	leaq	(%rax,%r8,8), %r11
	addq	120(%rdi), %r11
	xorl	%edx, %edx
	movl	$0, %eax
	cmpq	%r8, 128(%rdi)
	movl	$0, %ecx
	cmovaq	%r11, %rcx
	jbe	.LBB104_35
	pushq	%rbp
	pushq	%r14
	pushq	%rbx
	cmpq	%r8, 80(%rdi)
	jbe	.LBB104_2
	movq	72(%rdi), %rax
	movzwl	(%rax,%r8,2), %r10d
	testb	%r10b, %r10b
	je	.LBB104_4
	movl	%r10d, %eax
	shrl	$8, %eax
	movzbl	%r10b, %edx
	cmpl	$2, %edx
	jne	.LBB104_6
	movzwl	%ax, %edx
	movb	$1, %r8b
	cmpq	%rdx, 32(%rdi)
	jbe	.LBB104_7
	movq	24(%rdi), %r9
	movq	(%r9,%rdx,8), %r9
	jmp	.LBB104_11
.LBB104_2:
	xorl	%r8d, %r8d
	xorl	%r10d, %r10d
	xorl	%r9d, %r9d
	movzbl	%sil, %eax
	cmpq	%rax, 56(%rdi)
	jbe	.LBB104_13
	jmp	.LBB104_14
.LBB104_4:
	movzbl	%r10b, %r9d
	xorl	%r8d, %r8d
	movzbl	%sil, %eax
	cmpq	%rax, 56(%rdi)
	ja	.LBB104_14
.LBB104_13:
	xorl	%r14d, %r14d
	movq	256(%r11), %rbx
	testq	%rbx, %rbx
	jne	.LBB104_17
	jmp	.LBB104_16
.LBB104_6:
	movb	$1, %r8b
	cmpq	%rax, 32(%rdi)
	jbe	.LBB104_7
	movq	24(%rdi), %rdx
	movq	(%rdx,%rax,8), %r9
	jmp	.LBB104_11
.LBB104_7:
	xorl	%r9d, %r9d
.LBB104_11:
	movl	%eax, %r10d
	movzbl	%sil, %eax
	cmpq	%rax, 56(%rdi)
	jbe	.LBB104_13
.LBB104_14:
	movq	48(%rdi), %rdx
	movq	(%rdx,%rax,8), %r14
	movq	256(%r11), %rbx
	testq	%rbx, %rbx
	je	.LBB104_16
.LBB104_17:
	movzbl	(%rdi), %ebp
	movl	$8, %edi
	movq	%rbx, %rax
	.p2align	4
.LBB104_18:
	cmpb	%sil, (%r11,%rdi)
	je	.LBB104_20
	addq	$16, %rdi
	decq	%rax
	jne	.LBB104_18
.LBB104_16:
	xorl	%edx, %edx
	xorl	%eax, %eax
.LBB104_34:
	popq	%rbx
	popq	%r14
	popq	%rbp
.LBB104_35:
	retq
.LBB104_20:
	movq	-8(%rcx,%rdi), %rsi
	xorl	%edx, %edx
	movl	$0, %eax
	testq	%rsi, %rsi
	je	.LBB104_34
	testb	$1, 1(%rcx,%rdi)
	je	.LBB104_34
	testb	%bpl, %bpl
	je	.LBB104_33
	movzbl	(%rcx,%rdi), %eax
	addq	$8, %rcx
	.p2align	4
.LBB104_24:
	cmpb	%al, (%rcx)
	je	.LBB104_27
	movq	-8(%rcx), %rdi
	testq	%rdi, %rdi
	jne	.LBB104_28
	addq	$16, %rcx
	decq	%rbx
	jne	.LBB104_24
.LBB104_27:
	xorl	%edi, %edi
	xorl	%ecx, %ecx
	jmp	.LBB104_29
.LBB104_33:
	testq	%r14, %r14
	setne	%al
	movq	%r14, %rdx
	jmp	.LBB104_34
.LBB104_28:
	movb	$1, %cl
.LBB104_29:
	cmpb	%al, %r10b
	setne	%al
	andb	%al, %r8b
	cmpb	$1, %r8b
	jne	.LBB104_32
	testq	%r9, %r9
	je	.LBB104_32
	movb	$1, %al
	movq	%r9, %rdx
	cmpq	%rsi, %r9
	jb	.LBB104_34
.LBB104_32:
	movq	%rdi, %rdx
	movl	%ecx, %eax
	jmp	.LBB104_34
.Lfunc_end104:
	.size	ww_model__state__Core__dies, .Lfunc_end104-ww_model__state__Core__dies

	.section	.text.core__slice__edits__slice_T__rotate_left___22_ww_queue__entry__Entry_,"ax",@progbits
	.p2align	4
	.type	core__slice__edits__slice_T__rotate_left___22_ww_queue__entry__Entry_,@function
core__slice__edits__slice_T__rotate_left___22_ww_queue__entry__Entry_:
	pushq	%rbp
	pushq	%r15
	pushq	%r14
	pushq	%r13
	pushq	%r12
	pushq	%rbx
	subq	$24, %rsp
	testq	%rdx, %rdx
	je	.LBB105_44
	movq	%rdx, %r14
	movq	%rsi, %rbp
	subq	%rdx, %rbp
	je	.LBB105_44
	movq	%rdi, %rbx
	cmpq	%r14, %rbp
	movq	%r14, %rax
	cmovbq	%rbp, %rax
	movq	%rsi, %rcx
	subq	%rax, %rcx
	movq	%rax, %rdx
	shlq	$4, %rdx
	movq	%rcx, %rdi
	shlq	$4, %rdi
	cmpq	$4097, %rdi
	cmovaeq	%rax, %rcx
	testq	%rdx, %rdx
	cmovneq	%rax, %rcx
	cmpq	$1, %r14
	jne	.LBB105_12
	decq	%rsi
	movups	(%rbx), %xmm0
	movaps	%xmm0, (%rsp)
	cmpq	$129, %rsi
	jb	.LBB105_4
	leaq	64(%rbx), %rcx
	xorl	%eax, %eax
	.p2align	4
.LBB105_6:
	xorl	%edx, %edx
	.p2align	4
.LBB105_7:
	movups	-48(%rcx,%rdx), %xmm0
	movups	-32(%rcx,%rdx), %xmm1
	movups	-16(%rcx,%rdx), %xmm2
	movups	(%rcx,%rdx), %xmm3
	movups	%xmm0, -64(%rcx,%rdx)
	movups	%xmm1, -48(%rcx,%rdx)
	movups	%xmm2, -32(%rcx,%rdx)
	movups	%xmm3, -16(%rcx,%rdx)
	addq	$64, %rdx
	cmpq	$2048, %rdx
	jne	.LBB105_7
	subq	$-128, %rax
	movq	%rsi, %rdx
	subq	%rax, %rdx
	addq	$2048, %rcx
	cmpq	$128, %rdx
	ja	.LBB105_6
	cmpq	%rax, %rsi
	je	.LBB105_11
.LBB105_10:
	shlq	$4, %rax
	leaq	(%rbx,%rax), %rdi
	addq	%rbx, %rax
	addq	$16, %rax
	shlq	$4, %rdx
	movq	%rsi, %r14
	movq	%rax, %rsi
	callq	memmove@PLT
	movq	%r14, %rsi
.LBB105_11:
	shlq	$4, %rsi
	movaps	(%rsp), %xmm0
	movups	%xmm0, (%rbx,%rsi)
	jmp	.LBB105_44
.LBB105_12:
	cmpq	$1, %rbp
	jne	.LBB105_16
	leaq	-1(%rsi), %rax
	movq	%rax, %rcx
	shlq	$4, %rcx
	movups	(%rbx,%rcx), %xmm0
	movaps	%xmm0, (%rsp)
	testq	%rax, %rax
	je	.LBB105_15
	leaq	16(%rbx), %rdi
	shlq	$4, %rsi
	addq	$-16, %rsi
	movq	%rsi, %rdx
	movq	%rbx, %rsi
	callq	memmove@PLT
.LBB105_15:
	movaps	(%rsp), %xmm0
	movups	%xmm0, (%rbx)
.LBB105_44:
	addq	$24, %rsp
	popq	%rbx
	popq	%r12
	popq	%r13
	popq	%r14
	popq	%r15
	popq	%rbp
	retq
.LBB105_4:
	xorl	%eax, %eax
	movq	%rsi, %rdx
	cmpq	%rax, %rsi
	jne	.LBB105_10
	jmp	.LBB105_11
.LBB105_16:
	movq	%rcx, %rax
	shlq	$4, %rax
	cmpq	$4097, %rax
	jae	.LBB105_17
	movq	%rbx, %rdi
	movq	%r14, %rdx
	addq	$24, %rsp
	popq	%rbx
	popq	%r12
	popq	%r13
	popq	%r14
	popq	%r15
	popq	%rbp
	jmp	core__slice__edits__turn_through_room___22_ww_queue__entry__Entry_
.LBB105_17:
	cmpq	$32, %r14
	setb	%al
	cmpq	$32, %rbp
	setb	%cl
	xorl	%r15d, %r15d
	orb	%al, %cl
	jne	.LBB105_20
	.p2align	4
.LBB105_18:
	cmpq	%r14, %rbp
	movq	%r14, %r12
	cmovbq	%rbp, %r12
	movq	%r15, %r13
	leaq	(%r15,%r14), %rdi
	movq	%rdi, %rdx
	shlq	$4, %rdx
	addq	%rbx, %rdx
	subq	%r12, %rdi
	shlq	$4, %rdi
	addq	%rbx, %rdi
	movq	%r12, %rsi
	callq	core__slice__edits__slice_T__swap_with_slice___22_ww_queue__entry__Entry_
	xorl	%eax, %eax
	cmpq	%rbp, %r14
	movq	%r12, %r15
	cmovaq	%rax, %r15
	cmovbeq	%rax, %r12
	subq	%r15, %rbp
	subq	%r12, %r14
	addq	%r13, %r15
	cmpq	$32, %r14
	jb	.LBB105_20
	cmpq	$31, %rbp
	ja	.LBB105_18
.LBB105_20:
	leaq	(%r15,%r14), %r12
	cmpq	$15, %r14
	jbe	.LBB105_21
	movq	%r14, %rcx
	shrq	%rcx
	movq	%r12, %rdx
	subq	%rcx, %rdx
	shlq	$4, %rdx
	addq	%rbx, %rdx
	movq	%rbx, %rdi
	movq	%r15, %rsi
	callq	core__slice__edits__mirror___22_ww_queue__entry__Entry_
	jmp	.LBB105_28
.LBB105_21:
	cmpq	$2, %r14
	jb	.LBB105_28
	movq	%r15, %rax
	shlq	$4, %rax
	addq	%rbx, %rax
	movq	%r12, %rcx
	shlq	$4, %rcx
	addq	%rbx, %rcx
	addq	$-16, %rcx
	leaq	(%r14,%r15), %rdx
	decq	%rdx
	movq	%r14, %rsi
	movq	%r15, %rdi
	jmp	.LBB105_23
	.p2align	4
.LBB105_24:
	movups	(%rax), %xmm0
	movaps	%xmm0, (%rsp)
	movups	(%rcx), %xmm0
	movups	%xmm0, (%rax)
	movaps	(%rsp), %xmm0
	movups	%xmm0, (%rcx)
.LBB105_27:
	incq	%rdi
	addq	$16, %rax
	addq	$-2, %rsi
	addq	$-16, %rcx
	decq	%rdx
	cmpq	$1, %rsi
	jbe	.LBB105_28
.LBB105_23:
	cmpq	%rdx, %rdi
	jb	.LBB105_24
	jbe	.LBB105_27
	movups	(%rcx), %xmm0
	movaps	%xmm0, (%rsp)
	movups	(%rax), %xmm0
	movups	%xmm0, (%rcx)
	movaps	(%rsp), %xmm0
	movups	%xmm0, (%rax)
	jmp	.LBB105_27
.LBB105_28:
	leaq	(%r12,%rbp), %r13
	cmpq	$15, %rbp
	jbe	.LBB105_29
	movq	%rbp, %rcx
	shrq	%rcx
	movq	%r13, %rdx
	subq	%rcx, %rdx
	shlq	$4, %rdx
	addq	%rbx, %rdx
	movq	%rbx, %rdi
	movq	%r12, %rsi
	callq	core__slice__edits__mirror___22_ww_queue__entry__Entry_
	jmp	.LBB105_36
.LBB105_29:
	cmpq	$2, %rbp
	jb	.LBB105_36
	movq	%r12, %rax
	shlq	$4, %rax
	addq	%rbx, %rax
	movq	%r13, %rcx
	shlq	$4, %rcx
	addq	%rbx, %rcx
	addq	$-16, %rcx
	leaq	(%r14,%rbp), %rdx
	addq	%r15, %rdx
	decq	%rdx
	movq	%rbp, %rsi
	jmp	.LBB105_31
	.p2align	4
.LBB105_32:
	movups	(%rax), %xmm0
	movaps	%xmm0, (%rsp)
	movups	(%rcx), %xmm0
	movups	%xmm0, (%rax)
	movaps	(%rsp), %xmm0
	movups	%xmm0, (%rcx)
.LBB105_35:
	incq	%r12
	addq	$16, %rax
	addq	$-2, %rsi
	addq	$-16, %rcx
	decq	%rdx
	cmpq	$1, %rsi
	jbe	.LBB105_36
.LBB105_31:
	cmpq	%rdx, %r12
	jb	.LBB105_32
	jbe	.LBB105_35
	movups	(%rcx), %xmm0
	movaps	%xmm0, (%rsp)
	movups	(%rax), %xmm0
	movups	%xmm0, (%rcx)
	movaps	(%rsp), %xmm0
	movups	%xmm0, (%rax)
	jmp	.LBB105_35
.LBB105_36:
	movq	%r13, %rcx
	subq	%r15, %rcx
	cmpq	$15, %rcx
	jbe	.LBB105_37
	shrq	%rcx
	subq	%rcx, %r13
	shlq	$4, %r13
	addq	%rbx, %r13
	movq	%rbx, %rdi
	movq	%r15, %rsi
	movq	%r13, %rdx
	addq	$24, %rsp
	popq	%rbx
	popq	%r12
	popq	%r13
	popq	%r14
	popq	%r15
	popq	%rbp
	jmp	core__slice__edits__mirror___22_ww_queue__entry__Entry_
.LBB105_37:
	cmpq	$2, %rcx
	jb	.LBB105_44
	movq	%r15, %rax
	shlq	$4, %rax
	addq	%rbx, %rax
	shlq	$4, %r13
	leaq	(%rbx,%r13), %rdx
	addq	$-16, %rdx
	addq	%r14, %rbp
	leaq	(%r15,%rbp), %rsi
	decq	%rsi
	jmp	.LBB105_39
	.p2align	4
.LBB105_40:
	movups	(%rax), %xmm0
	movaps	%xmm0, (%rsp)
	movups	(%rdx), %xmm0
	movups	%xmm0, (%rax)
	movaps	(%rsp), %xmm0
	movups	%xmm0, (%rdx)
.LBB105_43:
	incq	%r15
	addq	$16, %rax
	addq	$-2, %rcx
	addq	$-16, %rdx
	decq	%rsi
	cmpq	$1, %rcx
	jbe	.LBB105_44
.LBB105_39:
	cmpq	%rsi, %r15
	jb	.LBB105_40
	jbe	.LBB105_43
	movups	(%rdx), %xmm0
	movaps	%xmm0, (%rsp)
	movups	(%rax), %xmm0
	movups	%xmm0, (%rdx)
	movaps	(%rsp), %xmm0
	movups	%xmm0, (%rax)
	jmp	.LBB105_43
.Lfunc_end105:
	.size	core__slice__edits__slice_T__rotate_left___22_ww_queue__entry__Entry_, .Lfunc_end105-core__slice__edits__slice_T__rotate_left___22_ww_queue__entry__Entry_

	.section	.text.core__slice__edits__turn_through_room___22_ww_queue__entry__Entry_,"ax",@progbits
	.p2align	4
	.type	core__slice__edits__turn_through_room___22_ww_queue__entry__Entry_,@function
core__slice__edits__turn_through_room___22_ww_queue__entry__Entry_:
	pushq	%rbp
	pushq	%r15
	pushq	%r14
	pushq	%r13
	pushq	%r12
	pushq	%rbx
	subq	$3072, %rsp
	movq	$0, (%rsp)
	subq	$1048, %rsp
	movq	%rcx, %r14
	movq	%rdx, %rbp
	movq	%rsi, %r15
	movq	%rdi, %rbx
	movq	%rsi, %r13
	subq	%rcx, %r13
	leaq	16(%rsp), %r12
	movl	$4096, %edx
	movq	%r12, %rdi
	xorl	%esi, %esi
	callq	memset@PLT
	cmpq	%rbp, %r14
	jne	.LBB106_45
	movq	%r14, %rbp
	shlq	$4, %rbp
	movq	%r12, %rax
	subq	%rbx, %rax
	cmpq	%rbp, %rax
	jae	.LBB106_74
	leaq	-1(%r14), %rcx
	movl	%r14d, %eax
	andl	$3, %eax
	cmpq	$3, %rcx
	jae	.LBB106_4
	xorl	%ecx, %ecx
	jmp	.LBB106_7
.LBB106_45:
	movq	%r13, %rsi
	shlq	$4, %rsi
	addq	%rbx, %rsi
	movq	%r14, %rbp
	shlq	$4, %rbp
	movq	%r12, %rax
	subq	%rsi, %rax
	cmpq	%rbp, %rax
	jae	.LBB106_65
	testq	%r14, %r14
	je	.LBB106_66
	leaq	-1(%r14), %rcx
	movl	%r14d, %eax
	andl	$3, %eax
	cmpq	$3, %rcx
	jae	.LBB106_49
	xorl	%ecx, %ecx
	jmp	.LBB106_52
.LBB106_74:
	leaq	16(%rsp), %rdi
	movq	%rbx, %rsi
	movq	%rbp, %rdx
	callq	memcpy@PLT
	jmp	.LBB106_9
.LBB106_65:
	leaq	16(%rsp), %rdi
	movq	%rbp, %rdx
	callq	memcpy@PLT
	testq	%r14, %r14
	jne	.LBB106_54
.LBB106_66:
	movq	%rbx, %rax
	subq	%r12, %rax
	cmpq	%rbp, %rax
	jae	.LBB106_67
	jmp	.LBB106_73
.LBB106_4:
	movq	%r14, %rdx
	andq	$-4, %rdx
	movl	$48, %esi
	xorl	%ecx, %ecx
	.p2align	4
.LBB106_5:
	movups	-48(%rbx,%rsi), %xmm0
	movups	%xmm0, -32(%rsp,%rsi)
	movups	-32(%rbx,%rsi), %xmm0
	movups	%xmm0, -16(%rsp,%rsi)
	movups	-16(%rbx,%rsi), %xmm0
	movups	%xmm0, (%rsp,%rsi)
	movups	(%rbx,%rsi), %xmm0
	movups	%xmm0, 16(%rsp,%rsi)
	addq	$4, %rcx
	addq	$64, %rsi
	cmpq	%rcx, %rdx
	jne	.LBB106_5
	testq	%rax, %rax
	je	.LBB106_9
.LBB106_7:
	shlq	$4, %rcx
	leaq	(%rbx,%rcx), %rdx
	addq	%rsp, %rcx
	addq	$16, %rcx
	shll	$4, %eax
	xorl	%esi, %esi
	.p2align	4
.LBB106_8:
	movups	(%rdx,%rsi), %xmm0
	movups	%xmm0, (%rcx,%rsi)
	addq	$16, %rsi
	cmpq	%rsi, %rax
	jne	.LBB106_8
.LBB106_9:
	cmpq	$129, %r13
	jb	.LBB106_10
	leaq	(%rbx,%rbp), %rdx
	xorl	%ecx, %ecx
	movq	%rbx, %rsi
	jmp	.LBB106_12
	.p2align	4
.LBB106_17:
	subq	$-128, %rcx
	movq	%r13, %rax
	subq	%rcx, %rax
	addq	$2048, %rdx
	addq	$2048, %rsi
	cmpq	$128, %rax
	jbe	.LBB106_18
.LBB106_12:
	leaq	(%rcx,%r14), %rax
	cmpq	%rax, %rcx
	jae	.LBB106_13
	leaq	(%rsi,%rbp), %rax
	movl	$112, %edi
	.p2align	4
.LBB106_16:
	movups	-112(%rax,%rdi), %xmm0
	movups	%xmm0, -112(%rsi,%rdi)
	movups	-96(%rax,%rdi), %xmm0
	movups	%xmm0, -96(%rsi,%rdi)
	movups	-80(%rax,%rdi), %xmm0
	movups	%xmm0, -80(%rsi,%rdi)
	movups	-64(%rax,%rdi), %xmm0
	movups	%xmm0, -64(%rsi,%rdi)
	movups	-48(%rax,%rdi), %xmm0
	movups	%xmm0, -48(%rsi,%rdi)
	movups	-32(%rax,%rdi), %xmm0
	movups	%xmm0, -32(%rsi,%rdi)
	movups	-16(%rax,%rdi), %xmm0
	movups	%xmm0, -16(%rsi,%rdi)
	movups	(%rax,%rdi), %xmm0
	movups	%xmm0, (%rsi,%rdi)
	subq	$-128, %rdi
	cmpq	$2160, %rdi
	jne	.LBB106_16
	jmp	.LBB106_17
	.p2align	4
.LBB106_13:
	movl	$1984, %eax
	.p2align	4
.LBB106_14:
	movups	48(%rdx,%rax), %xmm0
	movups	%xmm0, 48(%rsi,%rax)
	movups	32(%rdx,%rax), %xmm0
	movups	%xmm0, 32(%rsi,%rax)
	movups	16(%rdx,%rax), %xmm0
	movups	%xmm0, 16(%rsi,%rax)
	movups	(%rdx,%rax), %xmm0
	movups	%xmm0, (%rsi,%rax)
	addq	$-64, %rax
	cmpq	$-64, %rax
	jne	.LBB106_14
	jmp	.LBB106_17
.LBB106_10:
	xorl	%ecx, %ecx
	movq	%r13, %rax
.LBB106_18:
	leaq	(%rcx,%r14), %rdi
	movq	%rdi, %rdx
	shlq	$4, %rdx
	movq	%rcx, %rsi
	shlq	$4, %rsi
	cmpq	%rdi, %rcx
	jae	.LBB106_27
	cmpq	%rcx, %r13
	je	.LBB106_35
	leaq	-1(%rax), %rdi
	movl	%eax, %ecx
	andl	$7, %ecx
	cmpq	$7, %rdi
	jae	.LBB106_22
	xorl	%edi, %edi
	jmp	.LBB106_25
.LBB106_27:
	cmpq	%rcx, %r13
	je	.LBB106_35
	leaq	-1(%rax), %r8
	movl	%eax, %edi
	andl	$3, %edi
	cmpq	$3, %r8
	jae	.LBB106_30
	xorl	%r8d, %r8d
	jmp	.LBB106_33
.LBB106_49:
	movq	%r14, %rdx
	andq	$-4, %rdx
	movl	$48, %edi
	xorl	%ecx, %ecx
	.p2align	4
.LBB106_50:
	movups	-48(%rsi,%rdi), %xmm0
	movups	%xmm0, -32(%rsp,%rdi)
	movups	-32(%rsi,%rdi), %xmm0
	movups	%xmm0, -16(%rsp,%rdi)
	movups	-16(%rsi,%rdi), %xmm0
	movups	%xmm0, (%rsp,%rdi)
	movups	(%rsi,%rdi), %xmm0
	movups	%xmm0, 16(%rsp,%rdi)
	addq	$4, %rcx
	addq	$64, %rdi
	cmpq	%rcx, %rdx
	jne	.LBB106_50
	testq	%rax, %rax
	je	.LBB106_54
.LBB106_52:
	shlq	$4, %rcx
	movq	%r15, %rdx
	shlq	$4, %rdx
	addq	%rcx, %rdx
	subq	%rbp, %rdx
	addq	%rbx, %rdx
	addq	%rsp, %rcx
	addq	$16, %rcx
	shll	$4, %eax
	xorl	%esi, %esi
	.p2align	4
.LBB106_53:
	movups	(%rdx,%rsi), %xmm0
	movups	%xmm0, (%rcx,%rsi)
	addq	$16, %rsi
	cmpq	%rsi, %rax
	jne	.LBB106_53
.LBB106_54:
	cmpq	%r14, %r15
	je	.LBB106_62
	movl	%r13d, %eax
	andl	$3, %eax
	movq	%r14, %rcx
	subq	%r15, %rcx
	cmpq	$-4, %rcx
	jbe	.LBB106_57
	xorl	%ecx, %ecx
	jmp	.LBB106_60
.LBB106_57:
	leaq	(%rbx,%rbp), %rdx
	movabsq	$1152921504606846972, %rsi
	movq	%r13, %rdi
	andq	$-4, %rdi
	movq	%rbp, %r8
	negq	%r8
	movq	%r15, %rcx
	shlq	$4, %rcx
	leaq	(%rcx,%rbx), %r9
	addq	$-16, %r9
	xorl	%ecx, %ecx
	.p2align	4
.LBB106_58:
	movups	(%r9,%r8), %xmm0
	movups	%xmm0, (%r9)
	leaq	2(%rsi), %r10
	xorq	%rcx, %r10
	addq	%r13, %r10
	shlq	$4, %r10
	movups	(%rbx,%r10), %xmm0
	movups	%xmm0, (%rdx,%r10)
	leaq	1(%rsi), %r10
	xorq	%rcx, %r10
	addq	%r13, %r10
	shlq	$4, %r10
	movups	(%rbx,%r10), %xmm0
	movups	%xmm0, (%rdx,%r10)
	movq	%rcx, %r10
	xorq	%rsi, %r10
	addq	%r13, %r10
	shlq	$4, %r10
	movups	(%rbx,%r10), %xmm0
	movups	%xmm0, (%rdx,%r10)
	addq	$4, %rcx
	addq	$-64, %r9
	cmpq	%rcx, %rdi
	jne	.LBB106_58
	testq	%rax, %rax
	je	.LBB106_62
.LBB106_60:
	shlq	$4, %r15
	addq	$-16, %r15
	leaq	(%rcx,%r14), %rsi
	shlq	$4, %rsi
	movq	%r15, %rdx
	subq	%rsi, %rdx
	addq	%rbx, %rdx
	shlq	$4, %rcx
	subq	%rcx, %r15
	addq	%rbx, %r15
	shll	$4, %eax
	xorl	%ecx, %ecx
	.p2align	4
.LBB106_61:
	movups	(%rdx,%rcx), %xmm0
	movups	%xmm0, (%r15,%rcx)
	addq	$-16, %rcx
	movq	%rax, %rsi
	addq	%rcx, %rsi
	jne	.LBB106_61
.LBB106_62:
	movq	%rbx, %rax
	subq	%r12, %rax
	cmpq	%rbp, %rax
	jae	.LBB106_67
	leaq	-1(%r14), %rcx
	movl	%r14d, %eax
	andl	$3, %eax
	cmpq	$3, %rcx
	jae	.LBB106_68
	xorl	%ecx, %ecx
	jmp	.LBB106_71
.LBB106_67:
	leaq	16(%rsp), %rsi
	movq	%rbx, %rdi
	jmp	.LBB106_39
.LBB106_68:
	andq	$-4, %r14
	movl	$48, %edx
	xorl	%ecx, %ecx
	.p2align	4
.LBB106_69:
	movups	-32(%rsp,%rdx), %xmm0
	movups	%xmm0, -48(%rbx,%rdx)
	movups	-16(%rsp,%rdx), %xmm0
	movups	%xmm0, -32(%rbx,%rdx)
	movups	(%rsp,%rdx), %xmm0
	movups	%xmm0, -16(%rbx,%rdx)
	movups	16(%rsp,%rdx), %xmm0
	movups	%xmm0, (%rbx,%rdx)
	addq	$4, %rcx
	addq	$64, %rdx
	cmpq	%rcx, %r14
	jne	.LBB106_69
	testq	%rax, %rax
	je	.LBB106_73
.LBB106_71:
	shlq	$4, %rcx
	leaq	(%rsp,%rcx), %rdx
	addq	$16, %rdx
	addq	%rcx, %rbx
	shll	$4, %eax
	xorl	%ecx, %ecx
	.p2align	4
.LBB106_72:
	movups	(%rdx,%rcx), %xmm0
	movups	%xmm0, (%rbx,%rcx)
	addq	$16, %rcx
	cmpq	%rcx, %rax
	jne	.LBB106_72
	jmp	.LBB106_73
.LBB106_22:
	andl	$248, %eax
	leaq	(%rsi,%rbx), %r8
	addq	$112, %r8
	leaq	(%rdx,%rbx), %r9
	addq	$112, %r9
	xorl	%edi, %edi
	.p2align	4
.LBB106_23:
	movups	-112(%r9), %xmm0
	movups	%xmm0, -112(%r8)
	movups	-96(%r9), %xmm0
	movups	%xmm0, -96(%r8)
	movups	-80(%r9), %xmm0
	movups	%xmm0, -80(%r8)
	movups	-64(%r9), %xmm0
	movups	%xmm0, -64(%r8)
	movups	-48(%r9), %xmm0
	movups	%xmm0, -48(%r8)
	movups	-32(%r9), %xmm0
	movups	%xmm0, -32(%r8)
	movups	-16(%r9), %xmm0
	movups	%xmm0, -16(%r8)
	movups	(%r9), %xmm0
	movups	%xmm0, (%r8)
	addq	$8, %rdi
	subq	$-128, %r8
	subq	$-128, %r9
	cmpq	%rdi, %rax
	jne	.LBB106_23
	testq	%rcx, %rcx
	je	.LBB106_35
.LBB106_25:
	shlq	$4, %rdi
	addq	%rbx, %rdx
	addq	%rdi, %rdx
	addq	%rdi, %rsi
	addq	%rbx, %rsi
	shll	$4, %ecx
	xorl	%eax, %eax
	.p2align	4
.LBB106_26:
	movups	(%rdx,%rax), %xmm0
	movups	%xmm0, (%rsi,%rax)
	addq	$16, %rax
	cmpq	%rax, %rcx
	jne	.LBB106_26
	jmp	.LBB106_35
.LBB106_30:
	movq	%rbp, (%rsp)
	movq	%r15, 8(%rsp)
	leaq	(%rbx,%rdx), %r9
	leaq	(%rbx,%rsi), %r10
	movabsq	$1152921504606846972, %r11
	movl	%eax, %r12d
	andl	$252, %r12d
	movq	%rax, %r8
	shlq	$4, %r8
	leaq	(%r8,%rbx), %r15
	addq	$-16, %r15
	xorl	%r8d, %r8d
	.p2align	4
.LBB106_31:
	movups	(%r15,%rdx), %xmm0
	movups	%xmm0, (%r15,%rsi)
	leaq	2(%r11), %rbp
	xorq	%r8, %rbp
	addq	%rax, %rbp
	shlq	$4, %rbp
	movups	(%r9,%rbp), %xmm0
	movups	%xmm0, (%r10,%rbp)
	leaq	1(%r11), %rbp
	xorq	%r8, %rbp
	addq	%rax, %rbp
	shlq	$4, %rbp
	movups	(%r9,%rbp), %xmm0
	movups	%xmm0, (%r10,%rbp)
	movq	%r8, %rbp
	xorq	%r11, %rbp
	addq	%rax, %rbp
	shlq	$4, %rbp
	movups	(%r9,%rbp), %xmm0
	movups	%xmm0, (%r10,%rbp)
	addq	$4, %r8
	addq	$-64, %r15
	cmpq	%r8, %r12
	jne	.LBB106_31
	testq	%rdi, %rdi
	movq	8(%rsp), %r15
	leaq	16(%rsp), %r12
	movq	(%rsp), %rbp
	je	.LBB106_35
.LBB106_33:
	addq	%rcx, %rax
	leaq	(%rax,%r14), %rcx
	shlq	$4, %rcx
	shlq	$4, %r8
	subq	%r8, %rcx
	addq	%rbx, %rcx
	addq	$-16, %rcx
	shlq	$4, %rax
	subq	%r8, %rax
	addq	%rbx, %rax
	addq	$-16, %rax
	shll	$4, %edi
	xorl	%edx, %edx
	.p2align	4
.LBB106_34:
	movups	(%rcx,%rdx), %xmm0
	movups	%xmm0, (%rax,%rdx)
	addq	$-16, %rdx
	movq	%rdi, %rsi
	addq	%rdx, %rsi
	jne	.LBB106_34
.LBB106_35:
	shlq	$4, %r13
	addq	%rbx, %r13
	movq	%r13, %rax
	subq	%r12, %rax
	cmpq	%rbp, %rax
	jae	.LBB106_38
	leaq	-1(%r14), %rcx
	movl	%r14d, %eax
	andl	$3, %eax
	cmpq	$3, %rcx
	jae	.LBB106_40
	xorl	%ecx, %ecx
	jmp	.LBB106_43
.LBB106_38:
	leaq	16(%rsp), %rsi
	movq	%r13, %rdi
.LBB106_39:
	movq	%rbp, %rdx
	callq	memcpy@PLT
	jmp	.LBB106_73
.LBB106_40:
	andq	$-4, %r14
	movl	$48, %edx
	xorl	%ecx, %ecx
	.p2align	4
.LBB106_41:
	movups	-32(%rsp,%rdx), %xmm0
	movups	%xmm0, -48(%r13,%rdx)
	movups	-16(%rsp,%rdx), %xmm0
	movups	%xmm0, -32(%r13,%rdx)
	movups	(%rsp,%rdx), %xmm0
	movups	%xmm0, -16(%r13,%rdx)
	movups	16(%rsp,%rdx), %xmm0
	movups	%xmm0, (%r13,%rdx)
	addq	$4, %rcx
	addq	$64, %rdx
	cmpq	%rcx, %r14
	jne	.LBB106_41
	testq	%rax, %rax
	je	.LBB106_73
.LBB106_43:
	shlq	$4, %rcx
	leaq	(%rsp,%rcx), %rdx
	addq	$16, %rdx
	shlq	$4, %r15
	addq	%rcx, %r15
	subq	%rbp, %r15
	addq	%r15, %rbx
	shll	$4, %eax
	xorl	%ecx, %ecx
	.p2align	4
.LBB106_44:
	movups	(%rdx,%rcx), %xmm0
	movups	%xmm0, (%rbx,%rcx)
	addq	$16, %rcx
	cmpq	%rcx, %rax
	jne	.LBB106_44
.LBB106_73:
	addq	$4120, %rsp
	popq	%rbx
	popq	%r12
	popq	%r13
	popq	%r14
	popq	%r15
	popq	%rbp
	retq
.Lfunc_end106:
	.size	core__slice__edits__turn_through_room___22_ww_queue__entry__Entry_, .Lfunc_end106-core__slice__edits__turn_through_room___22_ww_queue__entry__Entry_

	.section	.text.core__slice__edits__slice_T__swap_with_slice___22_ww_queue__entry__Entry_,"ax",@progbits
	.p2align	4
	.type	core__slice__edits__slice_T__swap_with_slice___22_ww_queue__entry__Entry_,@function
core__slice__edits__slice_T__swap_with_slice___22_ww_queue__entry__Entry_:
	testq	%rsi, %rsi
	je	.LBB107_7
	cmpq	$1, %rsi
	jne	.LBB107_3
	xorl	%eax, %eax
	jmp	.LBB107_6
.LBB107_3:
	movq	%rsi, %rcx
	andq	$-2, %rcx
	movl	$16, %r8d
	xorl	%eax, %eax
	.p2align	4
.LBB107_4:
	movups	-16(%rdi,%r8), %xmm0
	movaps	%xmm0, -24(%rsp)
	movups	-16(%rdx,%r8), %xmm0
	movups	%xmm0, -16(%rdi,%r8)
	movaps	-24(%rsp), %xmm0
	movups	%xmm0, -16(%rdx,%r8)
	movups	(%rdi,%r8), %xmm0
	movaps	%xmm0, -24(%rsp)
	movups	(%rdx,%r8), %xmm0
	movups	%xmm0, (%rdi,%r8)
	movaps	-24(%rsp), %xmm0
	movups	%xmm0, (%rdx,%r8)
	addq	$2, %rax
	addq	$32, %r8
	cmpq	%rax, %rcx
	jne	.LBB107_4
	testb	$1, %sil
	je	.LBB107_7
.LBB107_6:
	shlq	$4, %rax
	movups	(%rdi,%rax), %xmm0
	movaps	%xmm0, -24(%rsp)
	movups	(%rdx,%rax), %xmm0
	movups	%xmm0, (%rdi,%rax)
	movaps	-24(%rsp), %xmm0
	movups	%xmm0, (%rdx,%rax)
.LBB107_7:
	retq
.Lfunc_end107:
	.size	core__slice__edits__slice_T__swap_with_slice___22_ww_queue__entry__Entry_, .Lfunc_end107-core__slice__edits__slice_T__swap_with_slice___22_ww_queue__entry__Entry_

	.section	.text.core__slice__edits__mirror___22_ww_queue__entry__Entry_,"ax",@progbits
	.p2align	4
	.type	core__slice__edits__mirror___22_ww_queue__entry__Entry_,@function
core__slice__edits__mirror___22_ww_queue__entry__Entry_:
	shlq	$4, %rsi
	addq	%rdi, %rsi
	movq	%rcx, %rax
	shlq	$4, %rax
	addq	%rdx, %rax
	addq	$-16, %rax
	.p2align	4
.LBB108_1:
	movups	(%rsi), %xmm0
	movaps	%xmm0, -24(%rsp)
	movups	(%rax), %xmm0
	movups	%xmm0, (%rsi)
	movaps	-24(%rsp), %xmm0
	movups	%xmm0, (%rax)
	addq	$16, %rsi
	addq	$-16, %rax
	decq	%rcx
	jne	.LBB108_1
	retq
.Lfunc_end108:
	.size	core__slice__edits__mirror___22_ww_queue__entry__Entry_, .Lfunc_end108-core__slice__edits__mirror___22_ww_queue__entry__Entry_

	.section	.text.ww_model__state__Core__owes,"ax",@progbits
	.p2align	4
	.type	ww_model__state__Core__owes,@function
ww_model__state__Core__owes:
	pushq	%rbp
	pushq	%r15
	pushq	%r14
	pushq	%r13
	pushq	%r12
	pushq	%rbx
	subq	$776, %rsp
	movq	%rdi, %rbx
	movzbl	%cl, %ecx
	movb	$1, %al
	cmpq	%rcx, 80(%rsi)
	jbe	.LBB109_5
	movq	72(%rsi), %rdi
	movzwl	(%rdi,%rcx,2), %r12d
	testb	%r12b, %r12b
	je	.LBB109_6
	movl	%r12d, %edi
	shrl	$8, %edi
	movzbl	%r12b, %eax
	cmpl	$2, %eax
	jne	.LBB109_7
	movzwl	%di, %eax
	movb	$1, %r13b
	cmpq	%rax, 32(%rsi)
	jbe	.LBB109_9
	movq	24(%rsi), %r8
	movq	(%r8,%rax,8), %r10
	xorl	%eax, %eax
	movl	%edi, %r12d
	jmp	.LBB109_12
.LBB109_5:
	xorl	%r13d, %r13d
	xorl	%r12d, %r12d
	xorl	%r10d, %r10d
	jmp	.LBB109_12
.LBB109_6:
	movzbl	%r12b, %r10d
	xorl	%r13d, %r13d
	jmp	.LBB109_12
.LBB109_7:
	movb	$1, %r13b
	cmpq	%rdi, 32(%rsi)
	jbe	.LBB109_10
	movq	24(%rsi), %rax
	movq	(%rax,%rdi,8), %r10
	jmp	.LBB109_11
.LBB109_9:
	xorl	%r10d, %r10d
	movl	%edi, %r12d
	xorl	%eax, %eax
	jmp	.LBB109_12
.LBB109_10:
	xorl	%r10d, %r10d
.LBB109_11:
	movl	%edi, %r12d
	movb	$1, %al
.LBB109_12:
	movl	%ecx, %edi
	shll	$8, %edi
	leaq	(%rdi,%rcx,8), %rbp
	addq	120(%rsi), %rbp
	xorl	%r15d, %r15d
	cmpq	%rcx, 128(%rsi)
	cmovaq	%rbp, %r15
	jbe	.LBB109_17
	cmpb	$0, (%rsi)
	je	.LBB109_33
	movq	%r10, 24(%rsp)
	movl	%edx, 20(%rsp)
	leaq	512(%rsp), %rdi
	xorl	%r14d, %r14d
	movl	$264, %edx
	xorl	%esi, %esi
	callq	memset@PLT
	movq	256(%rbp), %rax
	testq	%rax, %rax
	je	.LBB109_56
	leaq	8(%r15), %rcx
	xorl	%r14d, %r14d
	xorl	%edx, %edx
	testb	%r13b, %r13b
	je	.LBB109_43
	movl	20(%rsp), %esi
	jmp	.LBB109_20
.LBB109_17:
	movl	$0, 7(%rsp)
	movl	$0, 4(%rsp)
	xorps	%xmm0, %xmm0
	movaps	%xmm0, 32(%rsp)
	movaps	%xmm0, 48(%rsp)
	movaps	%xmm0, 64(%rsp)
	movaps	%xmm0, 80(%rsp)
	movaps	%xmm0, 96(%rsp)
	movaps	%xmm0, 112(%rsp)
	movaps	%xmm0, 128(%rsp)
	movaps	%xmm0, 144(%rsp)
	movaps	%xmm0, 160(%rsp)
	movaps	%xmm0, 176(%rsp)
	movaps	%xmm0, 192(%rsp)
	movaps	%xmm0, 208(%rsp)
	movaps	%xmm0, 224(%rsp)
	movaps	%xmm0, 240(%rsp)
	movaps	%xmm0, 256(%rsp)
	xorl	%r15d, %r15d
	xorl	%ebp, %ebp
	xorl	%r14d, %r14d
	jmp	.LBB109_62
.LBB109_18:
	movq	%r14, %r8
	shlq	$4, %r8
	movb	%dil, 512(%rsp,%r8)
	movl	$0, 513(%rsp,%r8)
	movl	$0, 516(%rsp,%r8)
	movq	%r10, 520(%rsp,%r8)
	incq	%r14
	.p2align	4
.LBB109_19:
	incq	%rdx
	cmpq	%rax, %rdx
	je	.LBB109_56
.LBB109_20:
	movq	%rdx, %rdi
	shlq	$4, %rdi
	movzbl	8(%rbp,%rdi), %edi
	cmpb	%sil, %dil
	je	.LBB109_19
	movl	$8, %r9d
	movq	%rax, %r8
	.p2align	4
.LBB109_22:
	cmpb	%dil, (%rbp,%r9)
	je	.LBB109_24
	addq	$16, %r9
	decq	%r8
	jne	.LBB109_22
	jmp	.LBB109_19
	.p2align	4
.LBB109_24:
	movq	-8(%r15,%r9), %r8
	testq	%r8, %r8
	je	.LBB109_19
	testb	$1, 1(%r15,%r9)
	je	.LBB109_19
	movzbl	(%r15,%r9), %r9d
	movq	%rcx, %r11
	movq	%rax, %r13
	.p2align	4
.LBB109_27:
	cmpb	%r9b, (%r11)
	je	.LBB109_30
	movq	-8(%r11), %r10
	testq	%r10, %r10
	jne	.LBB109_31
	addq	$16, %r11
	decq	%r13
	jne	.LBB109_27
.LBB109_30:
	movq	24(%rsp), %r11
	testq	%r11, %r11
	setne	%r10b
	cmpb	%r9b, %r12b
	setne	%r9b
	cmpq	%r8, %r11
	setb	%r8b
	andb	%r10b, %r9b
	movq	%r11, %r10
	testb	%r8b, %r9b
	jne	.LBB109_18
	jmp	.LBB109_19
.LBB109_31:
	cmpb	%r9b, %r12b
	je	.LBB109_18
	movq	24(%rsp), %r9
	cmpq	%r8, %r9
	movq	%r10, %r8
	cmovbq	%r9, %r8
	testq	%r9, %r9
	cmovneq	%r8, %r10
	jmp	.LBB109_18
.LBB109_33:
	movl	$0, 15(%rsp)
	movl	$0, 12(%rsp)
	movq	256(%rbp), %rsi
	testq	%rsi, %rsi
	je	.LBB109_57
	xorl	%edx, %edx
	xorl	%ecx, %ecx
	jmp	.LBB109_36
	.p2align	4
.LBB109_37:
	movzbl	%r8b, %r8d
	testb	$1, %dl
	movl	$1, %edx
	cmovel	%r8d, %edx
	cmoveq	%rdi, %rcx
	addq	$16, %r15
	decq	%rsi
	je	.LBB109_38
.LBB109_36:
	movq	(%r15), %r9
	testq	%r9, %r9
	setne	%r8b
	xorl	%edi, %edi
	andb	9(%r15), %r8b
	cmovneq	%r9, %rdi
	testb	%r8b, %dl
	je	.LBB109_37
	cmpq	%rcx, %rdi
	cmovbq	%rdi, %rcx
	movb	$1, %dl
	addq	$16, %r15
	decq	%rsi
	jne	.LBB109_36
.LBB109_38:
	andb	%al, %r13b
	xorl	%ebp, %ebp
	xorl	%r15d, %r15d
	cmpb	$1, %r13b
	jne	.LBB109_59
	movl	$0, %r14d
	testb	%dl, %dl
	je	.LBB109_60
	xorl	%ebp, %ebp
	movl	$0, %r15d
	testq	%rcx, %rcx
	je	.LBB109_59
	movl	$0, %r14d
	cmpq	%r10, %rcx
	jae	.LBB109_60
	movl	$1, %r14d
	movl	%r12d, %r15d
	movq	%rcx, %rbp
	jmp	.LBB109_60
.LBB109_43:
	movl	20(%rsp), %esi
	jmp	.LBB109_46
.LBB109_44:
	movq	%r14, %r8
	shlq	$4, %r8
	movb	%dil, 512(%rsp,%r8)
	movl	$0, 513(%rsp,%r8)
	movl	$0, 516(%rsp,%r8)
	movq	%r11, 520(%rsp,%r8)
	incq	%r14
	.p2align	4
.LBB109_45:
	incq	%rdx
	cmpq	%rax, %rdx
	je	.LBB109_56
.LBB109_46:
	movq	%rdx, %rdi
	shlq	$4, %rdi
	movzbl	8(%rbp,%rdi), %edi
	cmpb	%sil, %dil
	je	.LBB109_45
	movl	$8, %r8d
	movq	%rax, %r9
	.p2align	4
.LBB109_48:
	cmpb	%dil, (%rbp,%r8)
	je	.LBB109_50
	addq	$16, %r8
	decq	%r9
	jne	.LBB109_48
	jmp	.LBB109_45
	.p2align	4
.LBB109_50:
	cmpq	$0, -8(%r15,%r8)
	je	.LBB109_45
	testb	$1, 1(%r15,%r8)
	je	.LBB109_45
	movzbl	(%r15,%r8), %r8d
	movq	%rcx, %r9
	movq	%rax, %r10
	.p2align	4
.LBB109_53:
	cmpb	%r8b, (%r9)
	je	.LBB109_45
	movq	-8(%r9), %r11
	testq	%r11, %r11
	jne	.LBB109_44
	addq	$16, %r9
	decq	%r10
	jne	.LBB109_53
	jmp	.LBB109_45
.LBB109_56:
	movzbl	512(%rsp), %r15d
	movl	513(%rsp), %eax
	movl	%eax, 12(%rsp)
	movl	516(%rsp), %eax
	movl	%eax, 15(%rsp)
	movq	520(%rsp), %rbp
	leaq	528(%rsp), %rsi
	leaq	272(%rsp), %rdi
	movl	$240, %edx
	callq	memcpy@PLT
	jmp	.LBB109_61
.LBB109_57:
	xorl	%r15d, %r15d
	xorl	%ebp, %ebp
.LBB109_59:
	xorl	%r14d, %r14d
.LBB109_60:
	xorps	%xmm0, %xmm0
	movaps	%xmm0, 496(%rsp)
	movaps	%xmm0, 480(%rsp)
	movaps	%xmm0, 464(%rsp)
	movaps	%xmm0, 448(%rsp)
	movaps	%xmm0, 432(%rsp)
	movaps	%xmm0, 416(%rsp)
	movaps	%xmm0, 400(%rsp)
	movaps	%xmm0, 384(%rsp)
	movaps	%xmm0, 368(%rsp)
	movaps	%xmm0, 352(%rsp)
	movaps	%xmm0, 336(%rsp)
	movaps	%xmm0, 320(%rsp)
	movaps	%xmm0, 304(%rsp)
	movaps	%xmm0, 288(%rsp)
	movaps	%xmm0, 272(%rsp)
.LBB109_61:
	movl	12(%rsp), %eax
	movl	15(%rsp), %ecx
	movl	%ecx, 7(%rsp)
	movl	%eax, 4(%rsp)
	leaq	32(%rsp), %rdi
	leaq	272(%rsp), %rsi
	movl	$240, %edx
	callq	memcpy@PLT
.LBB109_62:
	movb	%r15b, (%rbx)
	movl	4(%rsp), %eax
	movl	7(%rsp), %ecx
	movl	%eax, 1(%rbx)
	movl	%ecx, 4(%rbx)
	movq	%rbp, 8(%rbx)
	leaq	16(%rbx), %rdi
	leaq	32(%rsp), %rsi
	movl	$240, %edx
	callq	memcpy@PLT
	movq	%r14, 256(%rbx)
	addq	$776, %rsp
	popq	%rbx
	popq	%r12
	popq	%r13
	popq	%r14
	popq	%r15
	popq	%rbp
	retq
.Lfunc_end109:
	.size	ww_model__state__Core__owes, .Lfunc_end109-ww_model__state__Core__owes

	.section	.text.unlikely.core__fmt__formatter__Formatter__write_indented____cf0c1ea6a19dc359_,"ax",@progbits
	.p2align	4
	.type	core__fmt__formatter__Formatter__write_indented____cf0c1ea6a19dc359_,@function
core__fmt__formatter__Formatter__write_indented____cf0c1ea6a19dc359_:
	pushq	%rbp
	pushq	%r15
	pushq	%r14
	pushq	%r13
	pushq	%r12
	pushq	%rbx
	pushq	%rax
	testq	%rdx, %rdx
	je	.LBB110_1
	movq	%rsi, %r14
	movq	%rdi, %r15
	xorl	%ecx, %ecx
	xorl	%ebp, %ebp
	movq	%rdx, (%rsp)
	jmp	.LBB110_3
	.p2align	4
.LBB110_7:
	addq	%r14, %r13
	movb	$1, 56(%r15)
	movq	%r15, %rdi
	movq	%r13, %rsi
	movq	%r12, %rdx
	callq	core__fmt__formatter__Formatter__write_raw____cf0c1ea6a19dc359_
	movq	%rbp, %rcx
	testb	%al, %al
	movq	(%rsp), %rdx
	jne	.LBB110_17
.LBB110_8:
	cmpq	%rdx, %rbp
	je	.LBB110_9
.LBB110_3:
	movq	%rbp, %rax
	incq	%rbp
	cmpb	$10, (%r14,%rax)
	jne	.LBB110_8
	xorl	%r13d, %r13d
	movq	%rbp, %r12
	subq	%rcx, %r12
	cmovaeq	%rcx, %r13
	cmpq	%rax, %rcx
	movq	%rbp, %rcx
	ja	.LBB110_8
	cmpb	$1, 56(%r15)
	jne	.LBB110_7
	movq	48(%r15), %rbx
	testq	%rbx, %rbx
	je	.LBB110_7
	.p2align	4
.LBB110_14:
	leaq	.Lstatic.89(%rip), %rsi
	movl	$4, %edx
	movq	%r15, %rdi
	callq	core__fmt__formatter__Formatter__write_raw____cf0c1ea6a19dc359_
	testb	%al, %al
	jne	.LBB110_17
	decq	%rbx
	jne	.LBB110_14
	jmp	.LBB110_7
.LBB110_1:
	xorl	%eax, %eax
	jmp	.LBB110_18
.LBB110_9:
	xorl	%eax, %eax
	cmpq	%rdx, %rcx
	movq	%rcx, %r12
	cmovaq	%rax, %r12
	subq	%rcx, %rdx
	cmovbq	%rax, %rdx
	jbe	.LBB110_18
	movq	%rdx, %r13
	cmpb	$1, 56(%r15)
	jne	.LBB110_12
	movq	48(%r15), %rbx
	testq	%rbx, %rbx
	je	.LBB110_12
	.p2align	4
.LBB110_16:
	leaq	.Lstatic.89(%rip), %rsi
	movl	$4, %edx
	movq	%r15, %rdi
	callq	core__fmt__formatter__Formatter__write_raw____cf0c1ea6a19dc359_
	testb	%al, %al
	jne	.LBB110_17
	decq	%rbx
	jne	.LBB110_16
.LBB110_12:
	addq	%r12, %r14
	movb	$0, 56(%r15)
	movq	%r15, %rdi
	movq	%r14, %rsi
	movq	%r13, %rdx
	addq	$8, %rsp
	popq	%rbx
	popq	%r12
	popq	%r13
	popq	%r14
	popq	%r15
	popq	%rbp
	jmp	core__fmt__formatter__Formatter__write_raw____cf0c1ea6a19dc359_
.LBB110_17:
	movb	$1, %al
.LBB110_18:
	addq	$8, %rsp
	popq	%rbx
	popq	%r12
	popq	%r13
	popq	%r14
	popq	%r15
	popq	%rbp
	retq
.Lfunc_end110:
	.size	core__fmt__formatter__Formatter__write_indented____cf0c1ea6a19dc359_, .Lfunc_end110-core__fmt__formatter__Formatter__write_indented____cf0c1ea6a19dc359_

	.section	.text.core__fmt__formatter__Formatter__write_raw____cf0c1ea6a19dc359_,"ax",@progbits
	.p2align	4
	.type	core__fmt__formatter__Formatter__write_raw____cf0c1ea6a19dc359_,@function
core__fmt__formatter__Formatter__write_raw____cf0c1ea6a19dc359_:
	testq	%rdx, %rdx
	je	.LBB111_19
	xorl	%ecx, %ecx
	jmp	.LBB111_3
	.p2align	4
.LBB111_2:
	addq	%r10, %rcx
	cmpq	%rdx, %rcx
	jae	.LBB111_19
.LBB111_3:
	movzbl	(%rsi,%rcx), %r8d
	movl	$1, %r10d
	testb	%r8b, %r8b
	jns	.LBB111_2
	leaq	1(%rcx), %r9
	movb	$1, %al
	cmpq	%r9, %rdx
	jbe	.LBB111_18
	movzbl	(%rsi,%r9), %r9d
	testb	%r9b, %r9b
	jns	.LBB111_18
	movzbl	%r9b, %r10d
	cmpb	$-64, %r9b
	movl	$192, %r9d
	cmovbl	%r10d, %r9d
	cmpb	$-62, %r8b
	jb	.LBB111_18
	movl	%r9d, %r10d
	andb	$127, %r10b
	cmpb	$63, %r10b
	ja	.LBB111_18
	movl	$2, %r10d
	cmpb	$-32, %r8b
	jb	.LBB111_2
	leaq	2(%rcx), %r10
	cmpq	%r10, %rdx
	jbe	.LBB111_18
	cmpb	$-65, (%rsi,%r10)
	jg	.LBB111_18
	andl	$127, %r9d
	cmpb	$-17, %r8b
	ja	.LBB111_15
	movl	%r8d, %r10d
	shll	$12, %r10d
	shll	$6, %r9d
	addl	%r10d, %r9d
	addl	$-917504, %r9d
	cmpl	$2048, %r9d
	jb	.LBB111_18
	movl	$3, %r10d
	cmpl	$55296, %r9d
	jb	.LBB111_2
	cmpb	$-18, %r8b
	jae	.LBB111_2
	jmp	.LBB111_18
.LBB111_15:
	leaq	3(%rcx), %r10
	cmpq	%r10, %rdx
	jbe	.LBB111_18
	cmpb	$-65, (%rsi,%r10)
	jg	.LBB111_18
	shll	$18, %r8d
	shll	$12, %r9d
	addl	%r9d, %r8d
	addl	$-62980096, %r8d
	movl	$4, %r10d
	cmpl	$1048575, %r8d
	jbe	.LBB111_2
.LBB111_18:
	retq
.LBB111_19:
	pushq	%r15
	pushq	%r14
	pushq	%r12
	pushq	%rbx
	pushq	%rax
	movq	8(%rdi), %rcx
	movq	16(%rdi), %rbx
	movq	%rbx, %rax
	subq	%rcx, %rax
	cmpq	%rax, %rdx
	ja	.LBB111_43
.LBB111_20:
	leaq	8(%rdi), %rax
	leaq	(%rcx,%rdx), %r14
	movq	(%rdi), %r15
	xorps	%xmm0, %xmm0
	movups	%xmm0, (%rax)
	leaq	(%r15,%rcx), %rax
	movq	%rax, %r8
	subq	%rsi, %r8
	cmpq	%rdx, %r8
	jae	.LBB111_23
	cmpq	$4, %rdx
	jb	.LBB111_22
	cmpq	$32, %r8
	jae	.LBB111_26
.LBB111_22:
	xorl	%r8d, %r8d
.LBB111_35:
	movq	%rdx, %r10
	movq	%r8, %r9
	andq	$3, %r10
	je	.LBB111_38
	movq	%r8, %r9
	.p2align	4
.LBB111_37:
	movzbl	(%rsi,%r9), %r11d
	movb	%r11b, (%rax,%r9)
	incq	%r9
	decq	%r10
	jne	.LBB111_37
.LBB111_38:
	subq	%rdx, %r8
	cmpq	$-4, %r8
	ja	.LBB111_41
	leaq	(%rcx,%r15), %rax
	addq	$3, %rax
	.p2align	4
.LBB111_40:
	movzbl	(%rsi,%r9), %ecx
	movb	%cl, -3(%rax,%r9)
	movzbl	1(%rsi,%r9), %ecx
	movb	%cl, -2(%rax,%r9)
	movzbl	2(%rsi,%r9), %ecx
	movb	%cl, -1(%rax,%r9)
	movzbl	3(%rsi,%r9), %ecx
	movb	%cl, (%rax,%r9)
	addq	$4, %r9
	cmpq	%r9, %rdx
	jne	.LBB111_40
	jmp	.LBB111_41
.LBB111_23:
	movq	%rdi, %r12
	movq	%rax, %rdi
	callq	memmove@PLT
	movq	%r12, %rdi
.LBB111_41:
	movq	%r15, (%rdi)
	movq	%r14, 8(%rdi)
	movq	%rbx, 16(%rdi)
	xorl	%eax, %eax
.LBB111_42:
	addq	$8, %rsp
	popq	%rbx
	popq	%r12
	popq	%r14
	popq	%r15
	retq
.LBB111_26:
	cmpq	$32, %rdx
	jae	.LBB111_28
	xorl	%r8d, %r8d
	jmp	.LBB111_32
.LBB111_28:
	movq	%rdx, %r8
	andq	$-32, %r8
	leaq	(%rcx,%r15), %r9
	addq	$16, %r9
	xorl	%r10d, %r10d
	.p2align	4
.LBB111_29:
	movups	(%rsi,%r10), %xmm0
	movups	16(%rsi,%r10), %xmm1
	movups	%xmm0, -16(%r9,%r10)
	movups	%xmm1, (%r9,%r10)
	addq	$32, %r10
	cmpq	%r10, %r8
	jne	.LBB111_29
	cmpq	%r8, %rdx
	je	.LBB111_41
	testb	$28, %dl
	je	.LBB111_35
.LBB111_32:
	movq	%r8, %r9
	movq	%rdx, %r8
	andq	$-4, %r8
	.p2align	4
.LBB111_33:
	movl	(%rsi,%r9), %r10d
	movl	%r10d, (%rax,%r9)
	addq	$4, %r9
	cmpq	%r9, %r8
	jne	.LBB111_33
	cmpq	%r8, %rdx
	je	.LBB111_41
	jmp	.LBB111_35
.LBB111_43:
	movq	%rdi, %rbx
	movq	%rsi, %r14
	movq	%rdx, %rsi
	movq	%rdx, %r15
	callq	std_alloc__vec__Vec__grow_amortized____08710997ffb5faad_
	movl	%eax, %ecx
	movb	$1, %al
	testb	%cl, %cl
	je	.LBB111_42
	movq	%r14, %rsi
	movq	%r15, %rdx
	movq	%rbx, %rdi
	movq	8(%rbx), %rcx
	movq	16(%rbx), %rbx
	jmp	.LBB111_20
.Lfunc_end111:
	.size	core__fmt__formatter__Formatter__write_raw____cf0c1ea6a19dc359_, .Lfunc_end111-core__fmt__formatter__Formatter__write_raw____cf0c1ea6a19dc359_

	.section	.text.ww_schedule__replay__push_condemned_line,"ax",@progbits
	.p2align	4
	.type	ww_schedule__replay__push_condemned_line,@function
ww_schedule__replay__push_condemned_line:
	pushq	%rbp
	pushq	%r14
	pushq	%rbx
	movq	%rdi, %rbx
	movq	8(%rdi), %rax
	movq	16(%rdi), %rcx
	movq	%rcx, %rdi
	subq	%rax, %rdi
	cmpq	$8, %rdi
	jbe	.LBB112_1
.LBB112_3:
	movq	(%rbx), %rdi
	leaq	(%rdi,%rax), %r8
	addq	$9, %rax
	leaq	.Lstatic.94(%rip), %r9
	movq	%r8, %r10
	subq	%r9, %r10
	cmpq	$8, %r10
	movabsq	$7308899527512977251, %r9
	movq	%r9, (%r8)
	movb	$100, 8(%r8)
	movq	%rdi, (%rbx)
	movq	%rax, 8(%rbx)
	movq	%rcx, 16(%rbx)
	testb	%sil, %sil
	je	.LBB112_4
	movzbl	%dl, %ecx
	leaq	.Lstatic.60(%rip), %rsi
	movl	$1, %edx
	movq	%rbx, %rdi
	callq	ww_json__pieces__push_number____d61698437832fad8_
	movl	%eax, %ecx
	movb	$1, %al
	testb	%cl, %cl
	jne	.LBB112_14
	movq	8(%rbx), %rax
	movq	16(%rbx), %rcx
	cmpq	%rax, %rcx
	jne	.LBB112_13
	jmp	.LBB112_11
.LBB112_4:
	movq	%rcx, %rdx
	subq	%rax, %rdx
	cmpq	$1, %rdx
	jbe	.LBB112_5
.LBB112_7:
	leaq	(%rdi,%rax), %rdx
	addq	$2, %rax
	leaq	.Lstatic.75(%rip), %rsi
	movq	%rdx, %r8
	subq	%rsi, %r8
	cmpq	$1, %r8
	movw	$11552, (%rdx)
	movq	%rdi, (%rbx)
	movq	%rax, 8(%rbx)
	movq	%rcx, 16(%rbx)
	cmpq	%rax, %rcx
	je	.LBB112_11
.LBB112_13:
	movq	(%rbx), %rdx
	movb	$10, (%rdx,%rax)
	incq	%rax
	movq	%rdx, (%rbx)
	movq	%rax, 8(%rbx)
	movq	%rcx, 16(%rbx)
	xorl	%eax, %eax
.LBB112_14:
	popq	%rbx
	popq	%r14
	popq	%rbp
	retq
.LBB112_1:
	movl	%esi, %ebp
	movl	%edx, %r14d
	movl	$9, %esi
	movq	%rbx, %rdi
	callq	std_alloc__vec__Vec__grow_amortized____08710997ffb5faad_
	movl	%eax, %ecx
	movb	$1, %al
	testb	%cl, %cl
	je	.LBB112_14
	movq	8(%rbx), %rax
	movq	16(%rbx), %rcx
	movl	%r14d, %edx
	movl	%ebp, %esi
	jmp	.LBB112_3
.LBB112_11:
	movl	$1, %esi
	movq	%rbx, %rdi
	callq	std_alloc__vec__Vec__grow_amortized____08710997ffb5faad_
	movl	%eax, %ecx
	movb	$1, %al
	testb	%cl, %cl
	je	.LBB112_14
	movq	8(%rbx), %rax
	movq	16(%rbx), %rcx
	jmp	.LBB112_13
.LBB112_5:
	movl	$2, %esi
	movq	%rbx, %rdi
	callq	std_alloc__vec__Vec__grow_amortized____08710997ffb5faad_
	movl	%eax, %ecx
	movb	$1, %al
	testb	%cl, %cl
	je	.LBB112_14
	movq	(%rbx), %rdi
	movq	8(%rbx), %rax
	movq	16(%rbx), %rcx
	jmp	.LBB112_7
.Lfunc_end112:
	.size	ww_schedule__replay__push_condemned_line, .Lfunc_end112-ww_schedule__replay__push_condemned_line

	.section	.rodata.cst16,"aM",@progbits,16
	.p2align	4, 0x0
.LCPI113_0:
	.zero	16,46
.LCPI113_1:
	.quad	7310596056926023526
	.quad	3346860010425884786
.LCPI113_2:
	.byte	2
	.byte	41
	.byte	15
	.byte	0
	.zero	1
	.zero	1
	.zero	1
	.zero	1
	.zero	1
	.zero	1
	.zero	1
	.zero	1
	.zero	1
	.zero	1
	.zero	1
	.zero	1
.LCPI113_3:
	.byte	2
	.byte	41
	.byte	15
	.byte	0
	.byte	0
	.byte	0
	.byte	0
	.byte	0
	.byte	0
	.byte	0
	.byte	0
	.byte	0
	.byte	0
	.byte	0
	.byte	0
	.byte	0
	.section	.text.std_io__io__LibcRuntimeEprint__eprintln____656fe13a31895a02_,"ax",@progbits
	.p2align	4
	.type	std_io__io__LibcRuntimeEprint__eprintln____656fe13a31895a02_,@function
std_io__io__LibcRuntimeEprint__eprintln____656fe13a31895a02_:
	pushq	%rbp
	pushq	%r15
	pushq	%r14
	pushq	%r13
	pushq	%r12
	pushq	%rbx
	subq	$2584, %rsp
	movq	%rdx, %r15
	movq	%rsi, %r12
	movq	%rdi, %rbx
	xorps	%xmm0, %xmm0
	movaps	%xmm0, 112(%rsp)
	movaps	%xmm0, 96(%rsp)
	movaps	%xmm0, 80(%rsp)
	movaps	%xmm0, 64(%rsp)
	movaps	%xmm0, 240(%rsp)
	movaps	%xmm0, 224(%rsp)
	movaps	%xmm0, 208(%rsp)
	movaps	%xmm0, 192(%rsp)
	movaps	%xmm0, (%rsp)
	movaps	%xmm0, 16(%rsp)
	movaps	%xmm0, 32(%rsp)
	movaps	%xmm0, 48(%rsp)
	movl	$2, 264(%rsp)
	leaq	268(%rsp), %rdi
	xorl	%r13d, %r13d
	movl	$1132, %edx
	xorl	%esi, %esi
	callq	memset@PLT
	movl	$32, 1400(%rsp)
	movq	$0, 1404(%rsp)
	movl	$0, 1412(%rsp)
	movq	$-1, 1416(%rsp)
	xorps	%xmm0, %xmm0
	movups	%xmm0, 1424(%rsp)
	movl	1400(%rsp), %eax
	movl	%eax, 1440(%rsp)
	movq	1404(%rsp), %rax
	movq	%rax, 1444(%rsp)
	movl	1412(%rsp), %eax
	movl	%eax, 1452(%rsp)
	movq	$-1, 1456(%rsp)
	movl	$32, 1400(%rsp)
	movl	$0, 1412(%rsp)
	movq	$0, 1404(%rsp)
	xorl	%ebp, %ebp
	jmp	.LBB113_1
	.p2align	4
.LBB113_4:
	movb	%r14b, 268(%rsp,%rax)
	leaq	1(%rax), %r13
	movq	%r13, 1296(%rsp)
	incq	%rbp
	cmpq	%rbp, %r15
	je	.LBB113_5
.LBB113_1:
	movzbl	(%r12,%rbp), %r14d
	movq	%r13, %rax
	cmpq	$1024, %r13
	jb	.LBB113_4
	leaq	264(%rsp), %rdi
	callq	std_io__io__buffer__Buffer__flush
	testb	%al, %al
	je	.LBB113_19
	movq	1296(%rsp), %rax
	cmpq	$1023, %rax
	jbe	.LBB113_4
.LBB113_19:
	movq	1456(%rsp), %rax
	leaq	268(%rsp), %rsi
	movq	%rax, 1148(%rsi)
	movaps	1440(%rsp), %xmm0
	movups	%xmm0, 1132(%rsi)
	xorl	%ebp, %ebp
	jmp	.LBB113_12
.LBB113_5:
	movq	1456(%rsp), %rcx
	leaq	268(%rsp), %rsi
	movq	%rcx, 1148(%rsi)
	movaps	1440(%rsp), %xmm0
	movups	%xmm0, 1132(%rsi)
	movq	1148(%rsi), %rcx
	movq	%rcx, 1456(%rsp)
	movups	1132(%rsi), %xmm0
	movaps	%xmm0, 1440(%rsp)
	movl	$32, 1400(%rsp)
	movl	$0, 1144(%rsi)
	movq	$0, 1136(%rsi)
	movq	$-1, 1416(%rsp)
	cmpq	$0, 1424(%rsp)
	jne	.LBB113_10
	cmpq	$1023, %rax
	jb	.LBB113_9
	leaq	264(%rsp), %rdi
	movq	%rsi, %r14
	callq	std_io__io__buffer__Buffer__flush
	movq	%r14, %rsi
	movq	1296(%rsp), %r13
	cmpq	$1024, %r13
	setb	%cl
	andb	%al, %cl
	cmpb	$1, %cl
	jne	.LBB113_8
.LBB113_9:
	movb	$10, 268(%rsp,%r13)
	incq	%r13
	movq	%r13, 1296(%rsp)
	movb	$1, %bpl
	jmp	.LBB113_11
.LBB113_8:
	xorl	%ebp, %ebp
.LBB113_11:
	movq	1456(%rsp), %rax
	movq	%rax, 1148(%rsi)
	movaps	1440(%rsp), %xmm0
	movups	%xmm0, 1132(%rsi)
.LBB113_12:
	movl	264(%rsp), %eax
	movl	%eax, 1440(%rsp)
	leaq	1444(%rsp), %rdi
	movl	$1132, %edx
	callq	memcpy@PLT
	leaq	1440(%rsp), %rdi
	callq	std_io__io__buffer__Buffer__flush
	andb	%bpl, %al
	cmpb	$1, %al
	jne	.LBB113_14
	xorps	%xmm0, %xmm0
	movaps	%xmm0, 48(%rsp)
	movaps	%xmm0, 32(%rsp)
	movaps	%xmm0, 16(%rsp)
	movaps	%xmm0, (%rsp)
	xorl	%ecx, %ecx
	xorl	%eax, %eax
	xorps	%xmm1, %xmm1
	jmp	.LBB113_18
.LBB113_14:
	cmpb	$1, 2480(%rsp)
	jne	.LBB113_16
	movsd	2488(%rsp), %xmm0
	movl	2492(%rsp), %eax
	movups	2496(%rsp), %xmm1
	movups	2512(%rsp), %xmm2
	movaps	%xmm2, 128(%rsp)
	movups	2528(%rsp), %xmm2
	movaps	%xmm2, 144(%rsp)
	movups	2544(%rsp), %xmm2
	movaps	%xmm2, 160(%rsp)
	movups	2560(%rsp), %xmm2
	movaps	%xmm2, 176(%rsp)
	jmp	.LBB113_17
.LBB113_16:
	movaps	.LCPI113_0(%rip), %xmm0
	movaps	%xmm0, 176(%rsp)
	movaps	%xmm0, 160(%rsp)
	movaps	%xmm0, 144(%rsp)
	movaps	%xmm0, 128(%rsp)
	movaps	.LCPI113_1(%rip), %xmm1
	movss	.LCPI113_3(%rip), %xmm0
	xorl	%eax, %eax
.LBB113_17:
	movaps	128(%rsp), %xmm2
	movaps	144(%rsp), %xmm3
	movaps	160(%rsp), %xmm4
	movaps	176(%rsp), %xmm5
	movaps	%xmm5, 48(%rsp)
	movaps	%xmm4, 32(%rsp)
	movaps	%xmm3, 16(%rsp)
	movaps	%xmm2, (%rsp)
	movb	$1, %cl
.LBB113_18:
	movaps	(%rsp), %xmm2
	movaps	16(%rsp), %xmm3
	movaps	32(%rsp), %xmm4
	movaps	48(%rsp), %xmm5
	movaps	%xmm2, 64(%rsp)
	movaps	%xmm3, 80(%rsp)
	movaps	%xmm4, 96(%rsp)
	movaps	%xmm5, 112(%rsp)
	movb	%cl, (%rbx)
	movss	%xmm0, 8(%rbx)
	movl	%eax, 12(%rbx)
	movups	%xmm1, 16(%rbx)
	movaps	64(%rsp), %xmm0
	movaps	80(%rsp), %xmm1
	movaps	96(%rsp), %xmm2
	movaps	112(%rsp), %xmm3
	movups	%xmm0, 32(%rbx)
	movups	%xmm1, 48(%rbx)
	movups	%xmm2, 64(%rbx)
	movups	%xmm3, 80(%rbx)
	addq	$2584, %rsp
	popq	%rbx
	popq	%r12
	popq	%r13
	popq	%r14
	popq	%r15
	popq	%rbp
	retq
.LBB113_10:
	movq	%rsi, %r14
	leaq	.Lstatic.61(%rip), %rsi
	leaq	264(%rsp), %rdi
	movl	$1, %edx
	callq	core__fmt__formatter__Formatter__write_indented____bf264aed5fa78656_
	movq	%r14, %rsi
	testb	%al, %al
	sete	%bpl
	jmp	.LBB113_11
.Lfunc_end113:
	.size	std_io__io__LibcRuntimeEprint__eprintln____656fe13a31895a02_, .Lfunc_end113-std_io__io__LibcRuntimeEprint__eprintln____656fe13a31895a02_

	.section	.rodata.cst16,"aM",@progbits,16
	.p2align	4, 0x0
.LCPI114_0:
	.zero	16,46
.LCPI114_1:
	.quad	8458358670138239095
	.quad	3327647951695996518
.LCPI114_2:
	.quad	8367798494427701606
	.quad	2334399978102268015
	.section	.text.std_io__io__buffer__Buffer__flush,"ax",@progbits
	.p2align	4
	.type	std_io__io__buffer__Buffer__flush,@function
std_io__io__buffer__Buffer__flush:
	pushq	%rbp
	pushq	%r15
	pushq	%r14
	pushq	%r13
	pushq	%r12
	pushq	%rbx
	subq	$72, %rsp
	movq	1032(%rdi), %r12
	movq	$0, 1032(%rdi)
	cmpq	$1025, %r12
	jae	.LBB114_1
	leaq	4(%rdi), %rax
	movq	%rax, 64(%rsp)
	movq	%rdi, 8(%rsp)
	movl	(%rdi), %r14d
	movq	$-64, %r13
	xorl	%ebx, %ebx
	jmp	.LBB114_4
	.p2align	4
.LBB114_6:
	callq	rattle_errno@PLT
	cmpl	$4, %eax
	jne	.LBB114_7
	incq	%r13
	cmpq	%r13, %r12
	je	.LBB114_52
.LBB114_4:
	movb	$1, %bpl
	movq	%r12, %r15
	subq	%rbx, %r15
	jbe	.LBB114_2
	movq	64(%rsp), %rax
	leaq	(%rax,%rbx), %rsi
	movl	%r14d, %edi
	movq	%r15, %rdx
	callq	write@PLT
	testq	%rax, %rax
	js	.LBB114_6
	je	.LBB114_49
	cmpq	%r15, %rax
	cmovbq	%rax, %r15
	addq	%r15, %rbx
	incq	%r13
	cmpq	%r13, %r12
	jne	.LBB114_4
.LBB114_52:
	cmpq	%rbx, %r12
	jbe	.LBB114_2
	xorps	%xmm0, %xmm0
	movaps	%xmm0, 48(%rsp)
	movaps	%xmm0, 32(%rsp)
	movaps	%xmm0, 16(%rsp)
	movb	$35, %cl
	movl	$4, %eax
	xorl	%edx, %edx
	xorl	%esi, %esi
	xorps	%xmm1, %xmm1
	jmp	.LBB114_54
.LBB114_49:
	movaps	.LCPI114_0(%rip), %xmm0
	movaps	%xmm0, 48(%rsp)
	movaps	%xmm0, 32(%rsp)
	movaps	%xmm0, 16(%rsp)
	movaps	.LCPI114_1(%rip), %xmm1
	movaps	.LCPI114_2(%rip), %xmm0
	movb	$2, %sil
	movb	$23, %cl
	movb	$28, %dl
	xorl	%eax, %eax
.LBB114_54:
	movq	8(%rsp), %rdi
	jmp	.LBB114_55
.LBB114_7:
	movb	$41, %cl
	testl	%eax, %eax
	js	.LBB114_8
	leal	-1(%rax), %edx
	cmpl	$121, %edx
	movq	8(%rsp), %rdi
	ja	.LBB114_47
	leaq	.LJTI114_0(%rip), %rsi
	movslq	(%rsi,%rdx,4), %rdx
	addq	%rsi, %rdx
	jmpq	*%rdx
.LBB114_11:
	movb	$1, %cl
	jmp	.LBB114_47
.LBB114_8:
	movq	8(%rsp), %rdi
.LBB114_47:
	xorps	%xmm0, %xmm0
	movaps	%xmm0, 48(%rsp)
	movaps	%xmm0, 32(%rsp)
	movaps	%xmm0, 16(%rsp)
	xorl	%edx, %edx
	xorl	%esi, %esi
	xorps	%xmm1, %xmm1
.LBB114_55:
	movq	$1, 1040(%rdi)
	movb	%sil, 1048(%rdi)
	movb	%cl, 1049(%rdi)
	movb	%dl, 1050(%rdi)
	movb	$0, 1051(%rdi)
	movl	%eax, 1052(%rdi)
	movups	%xmm0, 1056(%rdi)
	movups	%xmm1, 1072(%rdi)
	movaps	16(%rsp), %xmm0
	movaps	32(%rsp), %xmm1
	movaps	48(%rsp), %xmm2
	movups	%xmm0, 1088(%rdi)
	movups	%xmm1, 1104(%rdi)
	movups	%xmm2, 1120(%rdi)
.LBB114_1:
	xorl	%ebp, %ebp
.LBB114_2:
	movl	%ebp, %eax
	addq	$72, %rsp
	popq	%rbx
	popq	%r12
	popq	%r13
	popq	%r14
	popq	%r15
	popq	%rbp
	retq
.LBB114_31:
	movb	$36, %cl
	jmp	.LBB114_47
.LBB114_45:
	movb	$19, %cl
	jmp	.LBB114_47
.LBB114_28:
	movb	$11, %cl
	jmp	.LBB114_47
.LBB114_34:
	movb	$8, %cl
	jmp	.LBB114_47
.LBB114_23:
	movb	$27, %cl
	jmp	.LBB114_47
.LBB114_32:
	movb	$16, %cl
	jmp	.LBB114_47
.LBB114_42:
	movb	$2, %cl
	jmp	.LBB114_47
.LBB114_20:
	movb	$15, %cl
	jmp	.LBB114_47
.LBB114_37:
	movb	$5, %cl
	jmp	.LBB114_47
.LBB114_38:
	movb	$6, %cl
	jmp	.LBB114_47
.LBB114_40:
	movb	$7, %cl
	jmp	.LBB114_47
.LBB114_22:
	movb	$29, %cl
	jmp	.LBB114_47
.LBB114_29:
	movb	$30, %cl
	jmp	.LBB114_47
.LBB114_12:
	xorl	%ecx, %ecx
	jmp	.LBB114_47
.LBB114_15:
	movb	$38, %cl
	jmp	.LBB114_47
.LBB114_21:
	movb	$20, %cl
	jmp	.LBB114_47
.LBB114_33:
	movb	$18, %cl
	jmp	.LBB114_47
.LBB114_16:
	movb	$28, %cl
	jmp	.LBB114_47
.LBB114_17:
	movb	$12, %cl
	jmp	.LBB114_47
.LBB114_39:
	movb	$3, %cl
	jmp	.LBB114_47
.LBB114_24:
	movb	$24, %cl
	jmp	.LBB114_47
.LBB114_46:
	movb	$26, %cl
	jmp	.LBB114_47
.LBB114_25:
	movb	$25, %cl
	jmp	.LBB114_47
.LBB114_13:
	movb	$34, %cl
	jmp	.LBB114_47
.LBB114_14:
	movb	$13, %cl
	jmp	.LBB114_47
.LBB114_19:
	movb	$14, %cl
	jmp	.LBB114_47
.LBB114_18:
	movb	$31, %cl
	jmp	.LBB114_47
.LBB114_27:
	movb	$32, %cl
	jmp	.LBB114_47
.LBB114_43:
	movb	$4, %cl
	jmp	.LBB114_47
.LBB114_26:
	movb	$17, %cl
	jmp	.LBB114_47
.LBB114_30:
	movb	$33, %cl
	jmp	.LBB114_47
.LBB114_36:
	movb	$10, %cl
	jmp	.LBB114_47
.LBB114_35:
	movb	$9, %cl
	jmp	.LBB114_47
.LBB114_44:
	movb	$39, %cl
	jmp	.LBB114_47
.LBB114_41:
	movb	$22, %cl
	jmp	.LBB114_47
.Lfunc_end114:
	.size	std_io__io__buffer__Buffer__flush, .Lfunc_end114-std_io__io__buffer__Buffer__flush
	.section	.rodata.std_io__io__buffer__Buffer__flush,"a",@progbits
	.p2align	2, 0x0
.LJTI114_0:
	.long	.LBB114_11-.LJTI114_0
	.long	.LBB114_12-.LJTI114_0
	.long	.LBB114_47-.LJTI114_0
	.long	.LBB114_47-.LJTI114_0
	.long	.LBB114_47-.LJTI114_0
	.long	.LBB114_47-.LJTI114_0
	.long	.LBB114_13-.LJTI114_0
	.long	.LBB114_47-.LJTI114_0
	.long	.LBB114_47-.LJTI114_0
	.long	.LBB114_47-.LJTI114_0
	.long	.LBB114_14-.LJTI114_0
	.long	.LBB114_15-.LJTI114_0
	.long	.LBB114_11-.LJTI114_0
	.long	.LBB114_47-.LJTI114_0
	.long	.LBB114_47-.LJTI114_0
	.long	.LBB114_16-.LJTI114_0
	.long	.LBB114_17-.LJTI114_0
	.long	.LBB114_18-.LJTI114_0
	.long	.LBB114_47-.LJTI114_0
	.long	.LBB114_19-.LJTI114_0
	.long	.LBB114_20-.LJTI114_0
	.long	.LBB114_21-.LJTI114_0
	.long	.LBB114_47-.LJTI114_0
	.long	.LBB114_47-.LJTI114_0
	.long	.LBB114_47-.LJTI114_0
	.long	.LBB114_22-.LJTI114_0
	.long	.LBB114_23-.LJTI114_0
	.long	.LBB114_24-.LJTI114_0
	.long	.LBB114_25-.LJTI114_0
	.long	.LBB114_26-.LJTI114_0
	.long	.LBB114_27-.LJTI114_0
	.long	.LBB114_28-.LJTI114_0
	.long	.LBB114_47-.LJTI114_0
	.long	.LBB114_47-.LJTI114_0
	.long	.LBB114_29-.LJTI114_0
	.long	.LBB114_30-.LJTI114_0
	.long	.LBB114_47-.LJTI114_0
	.long	.LBB114_31-.LJTI114_0
	.long	.LBB114_32-.LJTI114_0
	.long	.LBB114_33-.LJTI114_0
	.long	.LBB114_47-.LJTI114_0
	.long	.LBB114_47-.LJTI114_0
	.long	.LBB114_47-.LJTI114_0
	.long	.LBB114_47-.LJTI114_0
	.long	.LBB114_47-.LJTI114_0
	.long	.LBB114_47-.LJTI114_0
	.long	.LBB114_47-.LJTI114_0
	.long	.LBB114_47-.LJTI114_0
	.long	.LBB114_47-.LJTI114_0
	.long	.LBB114_47-.LJTI114_0
	.long	.LBB114_47-.LJTI114_0
	.long	.LBB114_47-.LJTI114_0
	.long	.LBB114_47-.LJTI114_0
	.long	.LBB114_47-.LJTI114_0
	.long	.LBB114_47-.LJTI114_0
	.long	.LBB114_47-.LJTI114_0
	.long	.LBB114_47-.LJTI114_0
	.long	.LBB114_47-.LJTI114_0
	.long	.LBB114_47-.LJTI114_0
	.long	.LBB114_47-.LJTI114_0
	.long	.LBB114_47-.LJTI114_0
	.long	.LBB114_47-.LJTI114_0
	.long	.LBB114_47-.LJTI114_0
	.long	.LBB114_47-.LJTI114_0
	.long	.LBB114_47-.LJTI114_0
	.long	.LBB114_47-.LJTI114_0
	.long	.LBB114_47-.LJTI114_0
	.long	.LBB114_47-.LJTI114_0
	.long	.LBB114_47-.LJTI114_0
	.long	.LBB114_47-.LJTI114_0
	.long	.LBB114_47-.LJTI114_0
	.long	.LBB114_47-.LJTI114_0
	.long	.LBB114_47-.LJTI114_0
	.long	.LBB114_47-.LJTI114_0
	.long	.LBB114_47-.LJTI114_0
	.long	.LBB114_47-.LJTI114_0
	.long	.LBB114_47-.LJTI114_0
	.long	.LBB114_47-.LJTI114_0
	.long	.LBB114_47-.LJTI114_0
	.long	.LBB114_47-.LJTI114_0
	.long	.LBB114_47-.LJTI114_0
	.long	.LBB114_47-.LJTI114_0
	.long	.LBB114_47-.LJTI114_0
	.long	.LBB114_47-.LJTI114_0
	.long	.LBB114_47-.LJTI114_0
	.long	.LBB114_47-.LJTI114_0
	.long	.LBB114_47-.LJTI114_0
	.long	.LBB114_47-.LJTI114_0
	.long	.LBB114_47-.LJTI114_0
	.long	.LBB114_47-.LJTI114_0
	.long	.LBB114_47-.LJTI114_0
	.long	.LBB114_47-.LJTI114_0
	.long	.LBB114_47-.LJTI114_0
	.long	.LBB114_47-.LJTI114_0
	.long	.LBB114_31-.LJTI114_0
	.long	.LBB114_47-.LJTI114_0
	.long	.LBB114_47-.LJTI114_0
	.long	.LBB114_34-.LJTI114_0
	.long	.LBB114_35-.LJTI114_0
	.long	.LBB114_36-.LJTI114_0
	.long	.LBB114_37-.LJTI114_0
	.long	.LBB114_47-.LJTI114_0
	.long	.LBB114_38-.LJTI114_0
	.long	.LBB114_39-.LJTI114_0
	.long	.LBB114_47-.LJTI114_0
	.long	.LBB114_47-.LJTI114_0
	.long	.LBB114_40-.LJTI114_0
	.long	.LBB114_47-.LJTI114_0
	.long	.LBB114_47-.LJTI114_0
	.long	.LBB114_41-.LJTI114_0
	.long	.LBB114_42-.LJTI114_0
	.long	.LBB114_47-.LJTI114_0
	.long	.LBB114_43-.LJTI114_0
	.long	.LBB114_47-.LJTI114_0
	.long	.LBB114_44-.LJTI114_0
	.long	.LBB114_45-.LJTI114_0
	.long	.LBB114_47-.LJTI114_0
	.long	.LBB114_47-.LJTI114_0
	.long	.LBB114_47-.LJTI114_0
	.long	.LBB114_47-.LJTI114_0
	.long	.LBB114_47-.LJTI114_0
	.long	.LBB114_46-.LJTI114_0

	.section	.text.unlikely.core__fmt__formatter__Formatter__write_indented____bf264aed5fa78656_,"ax",@progbits
	.p2align	4
	.type	core__fmt__formatter__Formatter__write_indented____bf264aed5fa78656_,@function
core__fmt__formatter__Formatter__write_indented____bf264aed5fa78656_:
	pushq	%rbp
	pushq	%r15
	pushq	%r14
	pushq	%r13
	pushq	%r12
	pushq	%rbx
	pushq	%rax
	testq	%rdx, %rdx
	je	.LBB115_1
	movq	%rsi, %r14
	movq	%rdi, %r15
	xorl	%ecx, %ecx
	xorl	%ebp, %ebp
	movq	%rdx, (%rsp)
	jmp	.LBB115_3
	.p2align	4
.LBB115_7:
	addq	%r14, %r13
	movb	$1, 1168(%r15)
	movq	%r15, %rdi
	movq	%r13, %rsi
	movq	%r12, %rdx
	callq	core__fmt__formatter__Formatter__write_raw____bf264aed5fa78656_
	movq	%rbp, %rcx
	testb	%al, %al
	movq	(%rsp), %rdx
	jne	.LBB115_17
.LBB115_8:
	cmpq	%rdx, %rbp
	je	.LBB115_9
.LBB115_3:
	movq	%rbp, %rax
	incq	%rbp
	cmpb	$10, (%r14,%rax)
	jne	.LBB115_8
	xorl	%r13d, %r13d
	movq	%rbp, %r12
	subq	%rcx, %r12
	cmovaeq	%rcx, %r13
	cmpq	%rax, %rcx
	movq	%rbp, %rcx
	ja	.LBB115_8
	cmpb	$1, 1168(%r15)
	jne	.LBB115_7
	movq	1160(%r15), %rbx
	testq	%rbx, %rbx
	je	.LBB115_7
	.p2align	4
.LBB115_14:
	leaq	.Lstatic.89(%rip), %rsi
	movl	$4, %edx
	movq	%r15, %rdi
	callq	core__fmt__formatter__Formatter__write_raw____bf264aed5fa78656_
	testb	%al, %al
	jne	.LBB115_17
	decq	%rbx
	jne	.LBB115_14
	jmp	.LBB115_7
.LBB115_1:
	xorl	%eax, %eax
	jmp	.LBB115_18
.LBB115_9:
	xorl	%eax, %eax
	cmpq	%rdx, %rcx
	movq	%rcx, %r12
	cmovaq	%rax, %r12
	subq	%rcx, %rdx
	cmovbq	%rax, %rdx
	jbe	.LBB115_18
	movq	%rdx, %r13
	cmpb	$1, 1168(%r15)
	jne	.LBB115_12
	movq	1160(%r15), %rbx
	testq	%rbx, %rbx
	je	.LBB115_12
	.p2align	4
.LBB115_16:
	leaq	.Lstatic.89(%rip), %rsi
	movl	$4, %edx
	movq	%r15, %rdi
	callq	core__fmt__formatter__Formatter__write_raw____bf264aed5fa78656_
	testb	%al, %al
	jne	.LBB115_17
	decq	%rbx
	jne	.LBB115_16
.LBB115_12:
	addq	%r12, %r14
	movb	$0, 1168(%r15)
	movq	%r15, %rdi
	movq	%r14, %rsi
	movq	%r13, %rdx
	addq	$8, %rsp
	popq	%rbx
	popq	%r12
	popq	%r13
	popq	%r14
	popq	%r15
	popq	%rbp
	jmp	core__fmt__formatter__Formatter__write_raw____bf264aed5fa78656_
.LBB115_17:
	movb	$1, %al
.LBB115_18:
	addq	$8, %rsp
	popq	%rbx
	popq	%r12
	popq	%r13
	popq	%r14
	popq	%r15
	popq	%rbp
	retq
.Lfunc_end115:
	.size	core__fmt__formatter__Formatter__write_indented____bf264aed5fa78656_, .Lfunc_end115-core__fmt__formatter__Formatter__write_indented____bf264aed5fa78656_

	.section	.text.core__fmt__formatter__Formatter__write_raw____bf264aed5fa78656_,"ax",@progbits
	.p2align	4
	.type	core__fmt__formatter__Formatter__write_raw____bf264aed5fa78656_,@function
core__fmt__formatter__Formatter__write_raw____bf264aed5fa78656_:
	testq	%rdx, %rdx
	je	.LBB116_1
	pushq	%rbp
	pushq	%r15
	pushq	%r14
	pushq	%r12
	pushq	%rbx
	movq	%rdx, %rbx
	movq	%rsi, %r14
	movq	%rdi, %r15
	xorl	%ecx, %ecx
	jmp	.LBB116_4
	.p2align	4
.LBB116_19:
	addq	%rdi, %rcx
	cmpq	%rbx, %rcx
	jae	.LBB116_20
.LBB116_4:
	movzbl	(%r14,%rcx), %edx
	movl	$1, %edi
	testb	%dl, %dl
	jns	.LBB116_19
	leaq	1(%rcx), %rsi
	movb	$1, %al
	cmpq	%rsi, %rbx
	jbe	.LBB116_26
	movzbl	(%r14,%rsi), %esi
	testb	%sil, %sil
	jns	.LBB116_26
	movzbl	%sil, %edi
	cmpb	$-64, %sil
	movl	$192, %esi
	cmovbl	%edi, %esi
	cmpb	$-62, %dl
	jb	.LBB116_26
	movl	%esi, %edi
	andb	$127, %dil
	cmpb	$63, %dil
	ja	.LBB116_26
	movl	$2, %edi
	cmpb	$-32, %dl
	jb	.LBB116_19
	leaq	2(%rcx), %rdi
	cmpq	%rdi, %rbx
	jbe	.LBB116_26
	cmpb	$-65, (%r14,%rdi)
	jg	.LBB116_26
	andl	$127, %esi
	cmpb	$-17, %dl
	ja	.LBB116_16
	movl	%edx, %edi
	shll	$12, %edi
	shll	$6, %esi
	addl	%edi, %esi
	addl	$-917504, %esi
	cmpl	$2048, %esi
	jb	.LBB116_26
	movl	$3, %edi
	cmpl	$55296, %esi
	jb	.LBB116_19
	cmpb	$-18, %dl
	jae	.LBB116_19
	jmp	.LBB116_26
.LBB116_16:
	leaq	3(%rcx), %rdi
	cmpq	%rdi, %rbx
	jbe	.LBB116_26
	cmpb	$-65, (%r14,%rdi)
	jg	.LBB116_26
	shll	$18, %edx
	shll	$12, %esi
	addl	%esi, %edx
	addl	$-62980096, %edx
	movl	$4, %edi
	cmpl	$1048575, %edx
	jbe	.LBB116_19
	jmp	.LBB116_26
.LBB116_1:
	xorl	%eax, %eax
	retq
.LBB116_20:
	movq	1032(%r15), %rcx
	xorl	%r12d, %r12d
	jmp	.LBB116_21
	.p2align	4
.LBB116_24:
	movb	%bpl, 4(%r15,%rcx)
	incq	%rcx
	movq	%rcx, 1032(%r15)
	incq	%r12
	cmpq	%r12, %rbx
	je	.LBB116_25
.LBB116_21:
	movzbl	(%r14,%r12), %ebp
	cmpq	$1024, %rcx
	jb	.LBB116_24
	movq	%r15, %rdi
	callq	std_io__io__buffer__Buffer__flush
	movl	%eax, %ecx
	movb	$1, %al
	testb	%cl, %cl
	je	.LBB116_26
	movq	1032(%r15), %rcx
	cmpq	$1023, %rcx
	jbe	.LBB116_24
	jmp	.LBB116_26
.LBB116_25:
	xorl	%eax, %eax
.LBB116_26:
	popq	%rbx
	popq	%r12
	popq	%r14
	popq	%r15
	popq	%rbp
	retq
.Lfunc_end116:
	.size	core__fmt__formatter__Formatter__write_raw____bf264aed5fa78656_, .Lfunc_end116-core__fmt__formatter__Formatter__write_raw____bf264aed5fa78656_

	.section	.text.main,"ax",@progbits
	.globl	main
	.p2align	4
	.type	main,@function
main:
	pushq	%rbp
	pushq	%r15
	pushq	%r14
	pushq	%r13
	pushq	%r12
	pushq	%rbx
	subq	$3072, %rsp
	movq	$0, (%rsp)
	subq	$1208, %rsp
	movl	$1, %esi
	movl	$13, %edi
	callq	__sysv_signal@PLT
	xorps	%xmm0, %xmm0
	movaps	%xmm0, 160(%rsp)
	movaps	%xmm0, 144(%rsp)
	movaps	%xmm0, 128(%rsp)
	movaps	%xmm0, 112(%rsp)
	movaps	%xmm0, 96(%rsp)
	movaps	%xmm0, 80(%rsp)
	movaps	%xmm0, 64(%rsp)
	movaps	%xmm0, 48(%rsp)
	leaq	7(%rsp), %rbp
	movq	%rbp, 16(%rsp)
	movups	%xmm0, 24(%rsp)
	leaq	184(%rsp), %rdi
	xorl	%r12d, %r12d
	movl	$4096, %r13d
	movl	$4096, %edx
	xorl	%esi, %esi
	callq	memset@PLT
	xorl	%ebx, %ebx
	jmp	.LBB117_3
	.p2align	4
.LBB117_1:
	leaq	184(%rsp), %rsi
	movq	%r14, %rdx
	callq	memmove@PLT
.LBB117_2:
	addq	%r14, %rbx
	movq	%rbx, 24(%rsp)
	movq	%r12, 32(%rsp)
	cmpq	$1048577, %rbx
	jae	.LBB117_28
.LBB117_3:
	movl	$1048577, %r14d
	subq	%rbx, %r14
	cmpq	$4096, %r14
	cmovaeq	%r13, %r14
	leaq	184(%rsp), %r15
	xorl	%edi, %edi
	movq	%r15, %rsi
	movq	%r14, %rdx
	callq	read@PLT
	testq	%rax, %rax
	js	.LBB117_32
	cmpq	%r14, %rax
	cmovbq	%rax, %r14
	testq	%rax, %rax
	je	.LBB117_28
	movq	%r12, %rax
	subq	%rbx, %rax
	cmpq	%rax, %r14
	ja	.LBB117_26
.LBB117_6:
	leaq	(%rbx,%rbp), %rdi
	movq	%rdi, %rax
	subq	%r15, %rax
	cmpq	%r14, %rax
	jae	.LBB117_1
	cmpq	$4, %r14
	jb	.LBB117_8
	movq	%rbx, %rax
	subq	%r15, %rax
	addq	%rbp, %rax
	cmpq	$32, %rax
	jae	.LBB117_11
.LBB117_8:
	xorl	%eax, %eax
.LBB117_20:
	movq	%r14, %rdx
	movq	%rax, %rcx
	andq	$3, %rdx
	je	.LBB117_23
	movq	%rax, %rcx
	.p2align	4
.LBB117_22:
	movzbl	184(%rsp,%rcx), %esi
	movb	%sil, (%rdi,%rcx)
	incq	%rcx
	decq	%rdx
	jne	.LBB117_22
.LBB117_23:
	subq	%r14, %rax
	cmpq	$-4, %rax
	ja	.LBB117_2
	leaq	(%rbx,%rbp), %rax
	addq	$3, %rax
	.p2align	4
.LBB117_25:
	movzbl	184(%rsp,%rcx), %edx
	movb	%dl, -3(%rax,%rcx)
	movzbl	185(%rsp,%rcx), %edx
	movb	%dl, -2(%rax,%rcx)
	movzbl	186(%rsp,%rcx), %edx
	movb	%dl, -1(%rax,%rcx)
	movzbl	187(%rsp,%rcx), %edx
	movb	%dl, (%rax,%rcx)
	addq	$4, %rcx
	cmpq	%rcx, %r14
	jne	.LBB117_25
	jmp	.LBB117_2
.LBB117_11:
	cmpq	$32, %r14
	jae	.LBB117_13
	xorl	%eax, %eax
	jmp	.LBB117_17
.LBB117_13:
	movl	%r14d, %eax
	andl	$8160, %eax
	leaq	(%rbx,%rbp), %rcx
	addq	$16, %rcx
	xorl	%edx, %edx
	.p2align	4
.LBB117_14:
	movups	184(%rsp,%rdx), %xmm0
	movups	200(%rsp,%rdx), %xmm1
	movups	%xmm0, -16(%rcx,%rdx)
	movups	%xmm1, (%rcx,%rdx)
	addq	$32, %rdx
	cmpq	%rdx, %rax
	jne	.LBB117_14
	cmpq	%rax, %r14
	je	.LBB117_2
	testb	$28, %r14b
	je	.LBB117_20
.LBB117_17:
	movq	%rax, %rcx
	movl	%r14d, %eax
	andl	$8188, %eax
	.p2align	4
.LBB117_18:
	movl	184(%rsp,%rcx), %edx
	movl	%edx, (%rdi,%rcx)
	addq	$4, %rcx
	cmpq	%rcx, %rax
	jne	.LBB117_18
	cmpq	%rax, %r14
	je	.LBB117_2
	jmp	.LBB117_20
.LBB117_26:
	leaq	16(%rsp), %rdi
	movq	%r14, %rsi
	callq	std_alloc__vec__Vec__grow_amortized____35f1ce62ed723168_
	testb	%al, %al
	je	.LBB117_73
	movq	16(%rsp), %rbp
	movq	24(%rsp), %rbx
	movq	32(%rsp), %r12
	jmp	.LBB117_6
.LBB117_28:
	movq	16(%rsp), %r14
	leaq	48(%rsp), %rdi
	leaq	7(%rsp), %rsi
	movq	%r14, %rdx
	movq	%rbx, %rcx
	callq	ww_run__run__text_of____f7400dcd187a4b89_
	cmpb	$0, .Lstatic.0(%rip)
	jne	.LBB117_61
	cmpb	$0, 48(%rsp)
	jne	.LBB117_38
	movq	56(%rsp), %rbx
	movq	64(%rsp), %rbp
	movq	72(%rsp), %r13
	testq	%rbp, %rbp
	jne	.LBB117_40
	xorl	%ebp, %ebp
	testq	%r13, %r13
	jne	.LBB117_69
	jmp	.LBB117_70
.LBB117_32:
	callq	rattle_errno@PLT
	testq	%r12, %r12
	je	.LBB117_34
	movq	16(%rsp), %rdi
	callq	rattle_dealloc@PLT
.LBB117_34:
	movb	$2, %bpl
.LBB117_35:
	cmpb	$0, .Lstatic.0(%rip)
	jne	.LBB117_61
	movzbl	%bpl, %edi
	leaq	.LJTI117_0(%rip), %rax
	movslq	(%rax,%rdi,4), %rcx
	addq	%rax, %rcx
	jmpq	*%rcx
.LBB117_37:
	movl	$1, %edi
	cmpb	$0, .Lstatic.0(%rip)
	je	.LBB117_57
	jmp	.LBB117_61
.LBB117_38:
	movzbl	49(%rsp), %ecx
	movzbl	50(%rsp), %edx
	xorl	%eax, %eax
	testb	%dl, %dl
	setne	%al
	testb	%cl, %cl
	leal	6(%rax,%rax,2), %eax
	cmovel	%edx, %eax
	cmpb	$8, %al
	movq	%r14, 8(%rsp)
	movb	%cl, 6(%rsp)
	movl	%edx, 44(%rsp)
	ja	.LBB117_45
	leaq	.Lswitch.table.main(%rip), %rcx
	movzbl	%al, %eax
	movq	(%rcx,%rax,8), %r15
	leaq	.Lswitch.table.main.971.rel(%rip), %rcx
	movslq	(%rcx,%rax,4), %r13
	addq	%rcx, %r13
	jmp	.LBB117_46
.LBB117_40:
	movq	%r14, 8(%rsp)
	xorl	%r14d, %r14d
	.p2align	4
.LBB117_41:
	leaq	(%rbx,%r14), %rsi
	movq	%rbp, %r15
	subq	%r14, %r15
	movl	$1, %edi
	movq	%r15, %rdx
	callq	write@PLT
	testq	%rax, %rax
	js	.LBB117_66
	cmpq	%r15, %rax
	cmovbq	%rax, %r15
	testq	%r15, %r15
	je	.LBB117_67
	addq	%r15, %r14
	cmpq	%rbp, %r14
	jb	.LBB117_41
	xorl	%ebp, %ebp
	jmp	.LBB117_68
.LBB117_45:
	leaq	.Lstatic.109(%rip), %r13
	movl	$20, %r15d
.LBB117_46:
	xorl	%r14d, %r14d
	.p2align	4
.LBB117_47:
	leaq	(%r14,%r13), %rsi
	movq	%r15, %rbx
	subq	%r14, %rbx
	movl	$1, %edi
	movq	%rbx, %rdx
	callq	write@PLT
	testq	%rax, %rax
	js	.LBB117_62
	cmpq	%rbx, %rax
	cmovbq	%rax, %rbx
	movb	$3, %bpl
	testq	%rbx, %rbx
	je	.LBB117_63
	addq	%rbx, %r14
	cmpq	%r15, %r14
	jb	.LBB117_47
	leaq	.Lstatic.61(%rip), %rsi
	movl	$1, %edx
	movl	$1, %edi
	callq	write@PLT
	testq	%rax, %rax
	movq	8(%rsp), %rdi
	js	.LBB117_72
	je	.LBB117_64
	xorl	%eax, %eax
	cmpb	$6, 44(%rsp)
	sete	%al
	cmpb	$0, 6(%rsp)
	leal	1(%rax,%rax,2), %eax
	movl	$4, %ebp
	cmovel	%eax, %ebp
	testq	%r12, %r12
	je	.LBB117_35
	jmp	.LBB117_65
.LBB117_53:
	leaq	.Lstatic.1(%rip), %rsi
	leaq	80(%rsp), %rdi
	movl	$11, %edx
	jmp	.LBB117_55
.LBB117_54:
	leaq	.Lstatic.2(%rip), %rsi
	leaq	80(%rsp), %rdi
	movl	$12, %edx
.LBB117_55:
	callq	std_io__io__LibcRuntimeEprint__eprintln____656fe13a31895a02_
	movl	$2, %edi
.LBB117_56:
	cmpb	$0, .Lstatic.0(%rip)
	jne	.LBB117_61
.LBB117_57:
	cmpb	$0, .Lstatic.0(%rip)
	jne	.LBB117_61
	cmpb	$0, .Lstatic.0(%rip)
	jne	.LBB117_61
	callq	_exit@PLT
	movzbl	.Lstatic.0(%rip), %eax
	ud2
.LBB117_60:
	movl	$3, %edi
	cmpb	$0, .Lstatic.0(%rip)
	je	.LBB117_57
.LBB117_61:
	ud2
.LBB117_62:
	callq	rattle_errno@PLT
	movb	$3, %bpl
	movq	8(%rsp), %rdi
	testq	%r12, %r12
	je	.LBB117_35
	jmp	.LBB117_65
.LBB117_63:
	movq	8(%rsp), %rdi
.LBB117_64:
	testq	%r12, %r12
	je	.LBB117_35
.LBB117_65:
	callq	rattle_dealloc@PLT
	jmp	.LBB117_35
.LBB117_66:
	callq	rattle_errno@PLT
.LBB117_67:
	movb	$3, %bpl
.LBB117_68:
	movq	8(%rsp), %r14
	testq	%r13, %r13
	je	.LBB117_70
.LBB117_69:
	movq	%rbx, %rdi
	callq	rattle_dealloc@PLT
.LBB117_70:
	testq	%r12, %r12
	je	.LBB117_35
	movq	%r14, %rdi
	callq	rattle_dealloc@PLT
	jmp	.LBB117_35
.LBB117_72:
	movq	%rdi, %rbx
	callq	rattle_errno@PLT
	movq	%rbx, %rdi
	testq	%r12, %r12
	je	.LBB117_35
	jmp	.LBB117_65
.LBB117_73:
	cmpq	$0, 32(%rsp)
	je	.LBB117_75
	movq	16(%rsp), %rdi
	callq	rattle_dealloc@PLT
.LBB117_75:
	xorl	%r14d, %r14d
	.p2align	4
.LBB117_76:
	leaq	.Lstatic.106(%rip), %rsi
	addq	%r14, %rsi
	movl	$20, %ebx
	subq	%r14, %rbx
	movl	$1, %edi
	movq	%rbx, %rdx
	callq	write@PLT
	testq	%rax, %rax
	js	.LBB117_81
	cmpq	%rbx, %rax
	cmovbq	%rax, %rbx
	movb	$3, %bpl
	testq	%rbx, %rbx
	je	.LBB117_35
	addq	%rbx, %r14
	cmpq	$20, %r14
	jb	.LBB117_76
	leaq	.Lstatic.61(%rip), %rsi
	movl	$1, %edx
	movl	$1, %edi
	callq	write@PLT
	testq	%rax, %rax
	js	.LBB117_82
	cmpq	$1, %rax
	movb	$4, %bpl
	sbbb	$0, %bpl
	jmp	.LBB117_35
.LBB117_81:
	callq	rattle_errno@PLT
	movb	$3, %bpl
	jmp	.LBB117_35
.LBB117_82:
	callq	rattle_errno@PLT
	jmp	.LBB117_35
.Lfunc_end117:
	.size	main, .Lfunc_end117-main
	.section	.rodata.main,"a",@progbits
	.p2align	2, 0x0
.LJTI117_0:
	.long	.LBB117_56-.LJTI117_0
	.long	.LBB117_37-.LJTI117_0
	.long	.LBB117_53-.LJTI117_0
	.long	.LBB117_54-.LJTI117_0
	.long	.LBB117_60-.LJTI117_0

	.section	.text.core__scope__entry____639418b959b61a12__thread_called_by_C_0,"ax",@progbits
	.p2align	4
	.type	core__scope__entry____639418b959b61a12__thread_called_by_C_0,@function
core__scope__entry____639418b959b61a12__thread_called_by_C_0:
	pushq	%rbp
	pushq	%r15
	pushq	%r14
	pushq	%r13
	pushq	%r12
	pushq	%rbx
	subq	$1160, %rsp
	movq	%rdi, %r12
	movq	24(%rdi), %r8
	movq	32(%rdi), %r14
	movq	40(%rdi), %rax
	movq	%rax, 464(%rsp)
	movq	48(%rdi), %rbp
	movq	56(%rdi), %rcx
	movq	64(%rdi), %rdx
	movq	72(%rdi), %rax
	movq	%rax, 456(%rsp)
	xorps	%xmm0, %xmm0
	movaps	%xmm0, 480(%rsp)
	movups	%xmm0, 493(%rsp)
	movaps	%xmm0, 432(%rsp)
	movq	$0, 448(%rsp)
	movaps	%xmm0, 608(%rsp)
	movaps	%xmm0, 624(%rsp)
	movq	$0, 640(%rsp)
	movaps	%xmm0, 560(%rsp)
	movaps	%xmm0, 576(%rsp)
	movq	$0, 592(%rsp)
	testq	%rcx, %rcx
	je	.LBB118_1
	movabsq	$192153584101141162, %rax
	cmpq	%rax, %rcx
	ja	.LBB118_91
	movq	%rcx, %rax
	shlq	$4, %rax
	leaq	(%rax,%rax,2), %rdi
	movl	$16, %esi
	movq	%rcx, 48(%rsp)
	movq	%rdx, 32(%rsp)
	movq	%r8, 8(%rsp)
	callq	rattle_alloc@PLT
	movq	8(%rsp), %r11
	movq	%rdx, %r15
	movq	32(%rsp), %rdx
	movq	48(%rsp), %rcx
	testb	$1, %al
	je	.LBB118_91
	movq	%r12, 40(%rsp)
	movb	$0, 66(%rsp)
	movw	$0, 64(%rsp)
	xorl	%r12d, %r12d
	jmp	.LBB118_5
	.p2align	4
.LBB118_84:
	movzwl	%di, %eax
	movq	(%r11), %r8
	movq	552(%r14), %rsi
	movq	560(%r14), %rdx
	movzwl	2(%r14), %r9d
	movl	4(%r14), %r10d
	cmpq	$65, %r10
	setb	%cl
	incq	%r9
	addb	%cl, %cl
	incb	%cl
	shlq	%cl, %r10
	leaq	(%r10,%rax,8), %rcx
	#APP
	#NO_APP
	xorl	%eax, %eax
	lock		cmpxchgq	%r9, 136(%r8,%rcx,8)
	sete	%r13b
	#APP
	#NO_APP
	je	.LBB118_85
.LBB118_86:
	leaq	997(%rsp), %rcx
	movq	16(%rcx), %rax
	leaq	373(%rsp), %rdx
	movq	%rax, 16(%rdx)
	movups	(%rcx), %xmm0
	movups	%xmm0, (%rdx)
	movups	381(%rsp), %xmm0
	movups	%xmm0, 493(%rsp)
	movaps	368(%rsp), %xmm0
	movaps	%xmm0, 480(%rsp)
	cmpb	$0, .Lstatic.0(%rip)
	jne	.LBB118_31
	movb	$3, %dl
	xorl	%eax, %eax
	xorl	%ecx, %ecx
	xorl	%esi, %esi
.LBB118_88:
	leaq	(%r12,%r12,2), %rdi
	shlq	$4, %rdi
	movb	%dl, (%r15,%rdi)
	movb	%r13b, 1(%r15,%rdi)
	movb	%al, 16(%r15,%rdi)
	movb	%cl, 17(%r15,%rdi)
	movb	%sil, 18(%r15,%rdi)
	leaq	485(%rsp), %rax
	movups	(%rax), %xmm0
	movups	%xmm0, 24(%r15,%rdi)
	movq	16(%rax), %rax
	movq	%rax, 40(%r15,%rdi)
	movb	$0, 66(%rsp)
	movw	$0, 64(%rsp)
	movq	472(%rsp), %r12
	movq	56(%rsp), %rcx
	testq	%rcx, %rcx
	je	.LBB118_89
.LBB118_5:
	leaq	1(%r12), %rax
	movq	%rax, 472(%rsp)
	decq	%rcx
	movq	%rcx, 56(%rsp)
	leaq	(%r12,%r12,4), %r9
	movzbl	(%rbp,%r9,8), %r8d
	movzbl	1(%rbp,%r9,8), %edi
	movzbl	8(%rbp,%r9,8), %esi
	movzbl	9(%rbp,%r9,8), %ebx
	movzbl	10(%rbp,%r9,8), %edx
	movzbl	11(%rbp,%r9,8), %ecx
	movzbl	12(%rbp,%r9,8), %eax
	movq	32(%rbp,%r9,8), %r10
	leaq	67(%rsp), %r13
	movq	%r10, 16(%r13)
	movups	16(%rbp,%r9,8), %xmm0
	movups	%xmm0, (%r13)
	movups	64(%rsp), %xmm0
	movups	75(%rsp), %xmm1
	movups	%xmm1, 939(%rsp)
	movaps	%xmm0, 928(%rsp)
	xorps	%xmm0, %xmm0
	movaps	%xmm0, 368(%rsp)
	movups	%xmm0, 381(%rsp)
	movaps	%xmm0, 896(%rsp)
	movups	%xmm0, 909(%rsp)
	movaps	%xmm0, 1056(%rsp)
	movups	%xmm0, 1069(%rsp)
	movaps	%xmm0, 864(%rsp)
	movups	%xmm0, 877(%rsp)
	movaps	%xmm0, 1024(%rsp)
	movups	%xmm0, 1037(%rsp)
	movaps	%xmm0, 992(%rsp)
	movups	%xmm0, 1005(%rsp)
	cmpl	$2, %r8d
	je	.LBB118_84
	cmpl	$1, %r8d
	jne	.LBB118_7
	movaps	%xmm0, 64(%rsp)
	movaps	%xmm0, 80(%rsp)
	movaps	%xmm0, 96(%rsp)
	movaps	%xmm0, 112(%rsp)
	movaps	%xmm0, 128(%rsp)
	movq	$0, 224(%rsp)
	movb	%sil, 224(%rsp)
	movb	%bl, 225(%rsp)
	movb	%dl, 226(%rsp)
	movb	%cl, 227(%rsp)
	movb	%al, 228(%rsp)
	leaq	931(%rsp), %rcx
	movq	16(%rcx), %rax
	leaq	232(%rsp), %rdx
	movq	%rax, 16(%rdx)
	movups	(%rcx), %xmm0
	movups	%xmm0, (%rdx)
	leaq	64(%rsp), %rdi
	leaq	688(%rsp), %rcx
	leaq	224(%rsp), %r8
	movq	%r11, %rsi
	movq	%r14, %rdx
	movl	$1, %r9d
	callq	ww_txn__transacting__transact_together____fe3652beb542c953_
	cmpb	$0, .Lstatic.0(%rip)
	jne	.LBB118_31
	movq	64(%rsp), %r14
	movzbl	80(%rsp), %edi
	movzbl	81(%rsp), %edx
	movzbl	82(%rsp), %r13d
	movzbl	112(%rsp), %eax
	movzbl	113(%rsp), %ecx
	movzbl	114(%rsp), %esi
	leaq	67(%rsp), %r8
	movups	48(%r8), %xmm0
	movups	61(%r8), %xmm1
	movaps	%xmm0, 864(%rsp)
	movups	%xmm1, 877(%rsp)
	cmpb	$0, .Lstatic.0(%rip)
	movq	8(%rsp), %r11
	leaq	69(%rsp), %r9
	jne	.LBB118_31
	xorps	%xmm0, %xmm0
	movups	%xmm0, 77(%rsp)
	movaps	%xmm0, 64(%rsp)
	testb	%dil, %dil
	je	.LBB118_76
	movl	%edx, %eax
	leaq	.LJTI118_0(%rip), %rcx
	movslq	(%rcx,%rax,4), %rax
	addq	%rcx, %rax
	jmpq	*%rax
.LBB118_80:
	movups	%xmm0, (%r9)
	movq	$0, 16(%r9)
	movb	$1, %dl
	jmp	.LBB118_81
	.p2align	4
.LBB118_7:
	movzbl	%bl, %r13d
	movaps	%xmm0, 224(%rsp)
	movaps	%xmm0, 240(%rsp)
	movaps	%xmm0, 256(%rsp)
	movaps	%xmm0, 272(%rsp)
	movaps	%xmm0, 288(%rsp)
	movaps	%xmm0, 400(%rsp)
	movaps	%xmm0, 416(%rsp)
	movzbl	2(%r14), %edi
	movq	344(%r14), %r8
	movq	464(%rsp), %r9
	movq	%r9, 656(%rsp)
	movb	%dil, 664(%rsp)
	leaq	665(%rsp), %rdi
	movl	$0, 3(%rdi)
	movl	$0, (%rdi)
	movq	%r8, 672(%rsp)
	movq	$0, 680(%rsp)
	cmpb	$6, %sil
	jne	.LBB118_51
	movaps	%xmm0, 304(%rsp)
	movaps	%xmm0, 320(%rsp)
	movaps	%xmm0, 336(%rsp)
	movups	%xmm0, 349(%rsp)
	movaps	%xmm0, 816(%rsp)
	movaps	%xmm0, 832(%rsp)
	movaps	%xmm0, 848(%rsp)
	movaps	%xmm0, 688(%rsp)
	movaps	%xmm0, 704(%rsp)
	movaps	%xmm0, 720(%rsp)
	movaps	%xmm0, 736(%rsp)
	movaps	%xmm0, 752(%rsp)
	movaps	%xmm0, 768(%rsp)
	movaps	%xmm0, 784(%rsp)
	movq	$0, 800(%rsp)
	movaps	%xmm0, 960(%rsp)
	movups	%xmm0, 971(%rsp)
	movups	%xmm0, 1133(%rsp)
	movaps	%xmm0, 1120(%rsp)
	movaps	%xmm0, 1104(%rsp)
	movaps	%xmm0, 1088(%rsp)
	movl	392(%r14), %eax
	testl	%eax, %eax
	je	.LBB118_47
	decl	%eax
	movl	%eax, 392(%r14)
	cmpl	$0, 508(%r14)
	jne	.LBB118_10
.LBB118_11:
	xorps	%xmm0, %xmm0
	movaps	%xmm0, 64(%rsp)
	movq	$0, 80(%rsp)
	cmpq	$0, 328(%r14)
	jne	.LBB118_16
	cmpb	$0, (%r14)
	je	.LBB118_13
.LBB118_16:
	movq	(%r11), %rcx
	movq	56(%r14), %rdx
	movl	%r13d, %esi
	shll	$6, %esi
	#APP
	#NO_APP
	xorl	%eax, %eax
	lock		cmpxchgq	%rdx, 128(%rcx,%rsi)
	#APP
	#NO_APP
	jne	.LBB118_19
	movq	328(%r14), %rax
	movl	%r13d, 64(%r14,%rax,4)
	incq	%rax
	movq	%rax, 328(%r14)
	movq	8(%r11), %rax
	leaq	(,%r13,4), %rcx
	addq	%r13, %rcx
	cmpb	$1, (%rax,%rcx,8)
	jne	.LBB118_31
	leaq	(%rax,%rcx,8), %rax
	movq	464(%r14), %rcx
	leaq	(,%r13,2), %rdx
	addq	%r13, %rdx
	movups	8(%rax), %xmm0
	movq	24(%rax), %rax
	movq	%rax, 16(%rcx,%rdx,8)
	movups	%xmm0, (%rcx,%rdx,8)
	movb	$1, 396(%r14,%r13)
.LBB118_20:
	cmpb	$0, .Lstatic.0(%rip)
	jne	.LBB118_31
	cmpb	$0, .Lstatic.0(%rip)
	jne	.LBB118_31
	cmpb	$0, .Lstatic.0(%rip)
	jne	.LBB118_31
	xorps	%xmm0, %xmm0
	movaps	%xmm0, 64(%rsp)
	movaps	%xmm0, 80(%rsp)
	movaps	%xmm0, 96(%rsp)
	movaps	%xmm0, 112(%rsp)
	movaps	%xmm0, 128(%rsp)
	movaps	%xmm0, 144(%rsp)
	movaps	%xmm0, 160(%rsp)
	movaps	%xmm0, 176(%rsp)
	movaps	%xmm0, 192(%rsp)
	movaps	%xmm0, 208(%rsp)
	movq	$6, 512(%rsp)
	movb	%bl, 513(%rsp)
	leaq	963(%rsp), %rdx
	movq	16(%rdx), %rax
	leaq	520(%rsp), %rcx
	movq	%rax, 16(%rcx)
	movups	(%rdx), %xmm0
	movups	%xmm0, (%rcx)
	leaq	64(%rsp), %rdi
	leaq	512(%rsp), %rdx
	movq	%r14, %rsi
	callq	ww_lock__hand__Hand__prepare
	movzbl	72(%rsp), %ecx
	movq	80(%rsp), %rdi
	movq	96(%rsp), %rax
	movups	88(%rsp), %xmm0
	leaq	67(%rsp), %rsi
	movups	37(%rsi), %xmm1
	movups	53(%rsi), %xmm2
	movups	69(%rsi), %xmm3
	movups	85(%rsi), %xmm4
	movaps	%xmm1, 688(%rsp)
	movaps	%xmm2, 704(%rsp)
	movaps	%xmm3, 720(%rsp)
	movaps	%xmm4, 736(%rsp)
	movups	101(%rsi), %xmm1
	movaps	%xmm1, 752(%rsp)
	movups	117(%rsi), %xmm1
	movaps	%xmm1, 768(%rsp)
	movups	133(%rsi), %xmm1
	movaps	%xmm1, 784(%rsp)
	movq	149(%rsi), %rdx
	movq	%rdx, 800(%rsp)
	cmpb	$0, 64(%rsp)
	je	.LBB118_24
	leal	-2(%rcx), %edx
	cmpl	$5, %edx
	movq	8(%rsp), %r11
	jb	.LBB118_38
	cmpl	$1, %ecx
	testq	%rax, %rax
	je	.LBB118_38
	callq	rattle_dealloc@PLT
	movq	8(%rsp), %r11
	jmp	.LBB118_38
	.p2align	4
.LBB118_42:
	movb	$0, 396(%r14,%rdx)
.LBB118_38:
	movq	328(%r14), %rax
	testq	%rax, %rax
	je	.LBB118_44
	movl	60(%r14,%rax,4), %edx
	movq	(%r11), %rcx
	movq	56(%r14), %rax
	movq	%rdx, %rsi
	shlq	$6, %rsi
	#APP
	#NO_APP
	xorl	%edi, %edi
	lock		cmpxchgq	%rdi, 128(%rcx,%rsi)
	#APP
	#NO_APP
	jne	.LBB118_43
	movq	328(%r14), %rax
	testq	%rax, %rax
	je	.LBB118_42
	leaq	-1(%rax), %rcx
	movq	%rcx, 328(%r14)
	movl	$0, 60(%r14,%rax,4)
	jmp	.LBB118_42
.LBB118_43:
	movq	%r14, %rdi
	movq	%r11, %rsi
	callq	ww_lock__hand__Hand__give_waited____553c7e4ebf26217f_
	movq	8(%rsp), %r11
	cmpb	$0, .Lstatic.0(%rip)
	je	.LBB118_38
	jmp	.LBB118_31
.LBB118_51:
	movb	%sil, 400(%rsp)
	movb	%bl, 401(%rsp)
	movb	%dl, 402(%rsp)
	movb	%cl, 403(%rsp)
	movb	%al, 404(%rsp)
	leaq	931(%rsp), %rcx
	movq	16(%rcx), %rax
	leaq	408(%rsp), %rdx
	movq	%rax, 16(%rdx)
	movups	(%rcx), %xmm0
	movups	%xmm0, (%rdx)
	leaq	224(%rsp), %rdi
	leaq	656(%rsp), %rcx
	leaq	400(%rsp), %r8
	movq	%r11, %rsi
	movq	%r14, %rdx
	xorl	%r9d, %r9d
	callq	ww_txn__transacting__transact_together____fe3652beb542c953_
	movq	8(%rsp), %r11
	cmpb	$0, .Lstatic.0(%rip)
	leaq	69(%rsp), %r9
	jne	.LBB118_31
	movq	224(%rsp), %r14
	movzbl	240(%rsp), %edi
	movzbl	241(%rsp), %edx
	movzbl	242(%rsp), %r13d
	jmp	.LBB118_53
.LBB118_76:
	leaq	869(%rsp), %rdi
	movq	16(%rdi), %rdx
	movq	%rdx, 16(%r9)
	movups	(%rdi), %xmm0
	movups	%xmm0, (%r9)
	xorl	%edi, %edi
	xorl	%edx, %edx
	xorl	%r13d, %r13d
	jmp	.LBB118_77
.LBB118_83:
	movups	%xmm0, (%r9)
	movq	$0, 16(%r9)
	movb	$2, %dl
.LBB118_81:
	xorl	%edi, %edi
	jmp	.LBB118_82
.LBB118_79:
	movb	$1, %dil
	xorl	%edx, %edx
	xorl	%r13d, %r13d
.LBB118_82:
	xorl	%eax, %eax
	xorl	%ecx, %ecx
	xorl	%esi, %esi
.LBB118_77:
	movq	16(%r9), %r8
	leaq	1029(%rsp), %r10
	jmp	.LBB118_57
.LBB118_44:
	cmpb	$0, .Lstatic.0(%rip)
	jne	.LBB118_31
	cmpb	$0, .Lstatic.0(%rip)
	jne	.LBB118_31
	leaq	1101(%rsp), %rax
	movups	(%rax), %xmm0
	movups	16(%rax), %xmm1
	movups	32(%rax), %xmm2
	leaq	317(%rsp), %rax
	movups	%xmm2, 32(%rax)
	movups	%xmm1, 16(%rax)
	movups	%xmm0, (%rax)
	movups	349(%rsp), %xmm0
	leaq	232(%rsp), %rax
	movups	%xmm0, 56(%rax)
	movaps	304(%rsp), %xmm0
	movaps	320(%rsp), %xmm1
	movaps	336(%rsp), %xmm2
	movups	%xmm2, 43(%rax)
	movups	%xmm1, 27(%rax)
	movups	%xmm0, 11(%rax)
	movb	$1, %dil
	movb	$3, %dl
	cmpb	$0, .Lstatic.0(%rip)
	leaq	69(%rsp), %r9
	je	.LBB118_50
	jmp	.LBB118_31
.LBB118_47:
	cmpb	$0, .Lstatic.0(%rip)
	jne	.LBB118_31
	leaq	317(%rsp), %rax
	movups	%xmm0, 32(%rax)
	movups	%xmm0, 16(%rax)
	movups	%xmm0, (%rax)
	movups	349(%rsp), %xmm0
	leaq	232(%rsp), %rax
	movups	%xmm0, 56(%rax)
	movaps	304(%rsp), %xmm0
	movaps	320(%rsp), %xmm1
	movaps	336(%rsp), %xmm2
	movups	%xmm2, 43(%rax)
	movups	%xmm1, 27(%rax)
	movups	%xmm0, 11(%rax)
	movb	$1, %dil
	xorl	%edx, %edx
	cmpb	$0, .Lstatic.0(%rip)
	leaq	69(%rsp), %r9
	je	.LBB118_50
	jmp	.LBB118_31
.LBB118_24:
	movb	$1, 680(%rsp)
	xorps	%xmm1, %xmm1
	movaps	%xmm1, 512(%rsp)
	movaps	%xmm1, 528(%rsp)
	movaps	%xmm1, 544(%rsp)
	movq	%rdi, 64(%rsp)
	movups	%xmm0, 72(%rsp)
	movq	800(%rsp), %rax
	movq	%rax, 133(%rsi)
	movaps	784(%rsp), %xmm0
	movups	%xmm0, 117(%rsi)
	movaps	768(%rsp), %xmm0
	movups	%xmm0, 101(%rsi)
	movaps	752(%rsp), %xmm0
	movups	%xmm0, 85(%rsi)
	movaps	688(%rsp), %xmm0
	movaps	704(%rsp), %xmm1
	movaps	720(%rsp), %xmm2
	movaps	736(%rsp), %xmm3
	movups	%xmm3, 69(%rsi)
	movups	%xmm2, 53(%rsi)
	movups	%xmm1, 37(%rsi)
	movups	%xmm0, 21(%rsi)
	leaq	512(%rsp), %rdi
	leaq	64(%rsp), %rcx
	movq	%r14, %rsi
	movq	8(%rsp), %rbx
	movq	%rbx, %rdx
	callq	ww_lock__hand__Hand__commit
	movq	%rbx, %r11
	movaps	512(%rsp), %xmm0
	movaps	528(%rsp), %xmm1
	movaps	544(%rsp), %xmm2
	movaps	%xmm2, 848(%rsp)
	movaps	%xmm1, 832(%rsp)
	movaps	%xmm0, 816(%rsp)
	jmp	.LBB118_25
	.p2align	4
.LBB118_29:
	movb	$0, 396(%r14,%rdx)
.LBB118_25:
	movq	328(%r14), %rax
	testq	%rax, %rax
	je	.LBB118_32
	movl	60(%r14,%rax,4), %edx
	movq	(%r11), %rcx
	movq	56(%r14), %rax
	movq	%rdx, %rsi
	shlq	$6, %rsi
	#APP
	#NO_APP
	xorl	%edi, %edi
	lock		cmpxchgq	%rdi, 128(%rcx,%rsi)
	#APP
	#NO_APP
	jne	.LBB118_30
	movq	328(%r14), %rax
	testq	%rax, %rax
	je	.LBB118_29
	leaq	-1(%rax), %rcx
	movq	%rcx, 328(%r14)
	movl	$0, 60(%r14,%rax,4)
	jmp	.LBB118_29
.LBB118_30:
	movq	%r14, %rdi
	movq	%r11, %rsi
	callq	ww_lock__hand__Hand__give_waited____553c7e4ebf26217f_
	movq	8(%rsp), %r11
	cmpb	$0, .Lstatic.0(%rip)
	je	.LBB118_25
	jmp	.LBB118_31
.LBB118_32:
	cmpb	$0, .Lstatic.0(%rip)
	jne	.LBB118_31
	cmpb	$0, .Lstatic.0(%rip)
	jne	.LBB118_31
	movaps	816(%rsp), %xmm0
	movaps	832(%rsp), %xmm1
	movaps	848(%rsp), %xmm2
	leaq	317(%rsp), %rax
	movups	%xmm2, 32(%rax)
	movups	%xmm1, 16(%rax)
	movups	%xmm0, (%rax)
	movups	349(%rsp), %xmm0
	leaq	232(%rsp), %rax
	movups	%xmm0, 56(%rax)
	movaps	304(%rsp), %xmm0
	movaps	320(%rsp), %xmm1
	movaps	336(%rsp), %xmm2
	movups	%xmm2, 43(%rax)
	movups	%xmm1, 27(%rax)
	movups	%xmm0, 11(%rax)
	xorl	%edx, %edx
	xorl	%edi, %edi
	cmpb	$0, .Lstatic.0(%rip)
	leaq	69(%rsp), %r9
	jne	.LBB118_31
.LBB118_50:
	xorl	%r13d, %r13d
.LBB118_53:
	movzbl	272(%rsp), %eax
	movzbl	273(%rsp), %ecx
	movzbl	274(%rsp), %esi
	leaq	232(%rsp), %r8
	movups	43(%r8), %xmm0
	movups	56(%r8), %xmm1
	movaps	%xmm0, 896(%rsp)
	movups	%xmm1, 909(%rsp)
	cmpb	$0, .Lstatic.0(%rip)
	jne	.LBB118_31
	xorps	%xmm0, %xmm0
	movups	%xmm0, 77(%rsp)
	movaps	%xmm0, 64(%rsp)
	testb	%dil, %dil
	je	.LBB118_55
	movzbl	%dl, %eax
	leaq	.LJTI118_1(%rip), %rcx
	movslq	(%rcx,%rax,4), %rax
	addq	%rcx, %rax
	jmpq	*%rax
.LBB118_69:
	movups	%xmm0, (%r9)
	movq	$0, 16(%r9)
	movb	$1, %dl
	jmp	.LBB118_70
.LBB118_55:
	leaq	901(%rsp), %rdi
	movq	16(%rdi), %rdx
	movq	%rdx, 16(%r9)
	movups	(%rdi), %xmm0
	movups	%xmm0, (%r9)
	xorl	%edi, %edi
	xorl	%edx, %edx
	xorl	%r13d, %r13d
	jmp	.LBB118_56
.LBB118_72:
	movups	%xmm0, (%r9)
	movq	$0, 16(%r9)
	movb	$2, %dl
.LBB118_70:
	xorl	%edi, %edi
	jmp	.LBB118_71
.LBB118_68:
	movb	$1, %dil
	xorl	%edx, %edx
	xorl	%r13d, %r13d
.LBB118_71:
	xorl	%eax, %eax
	xorl	%ecx, %ecx
	xorl	%esi, %esi
.LBB118_56:
	movq	16(%r9), %r8
	leaq	1061(%rsp), %r10
.LBB118_57:
	movq	%r8, 16(%r10)
	movups	(%r9), %xmm0
	movups	%xmm0, (%r10)
	movq	16(%r10), %r8
	leaq	373(%rsp), %r9
	movq	%r8, 16(%r9)
	movups	(%r10), %xmm0
	movups	%xmm0, (%r9)
	movups	381(%rsp), %xmm0
	movups	%xmm0, 493(%rsp)
	movaps	368(%rsp), %xmm0
	movaps	%xmm0, 480(%rsp)
	cmpb	$0, .Lstatic.0(%rip)
	jne	.LBB118_31
	testb	%dil, %dil
	je	.LBB118_88
	jmp	.LBB118_59
.LBB118_85:
	callq	ww_seat__wake__wake_seat
	movq	8(%rsp), %r11
	jmp	.LBB118_86
.LBB118_13:
	cmpq	$0, 32(%r14)
	je	.LBB118_16
	movq	24(%r14), %rax
	movq	(%r11), %rcx
	#APP
	#NO_APP
	movq	(%rcx,%rax,8), %rax
	#APP
	#NO_APP
	testq	%rax, %rax
	je	.LBB118_16
	movq	24(%r14), %rax
	movq	(%r11), %rcx
	#APP
	#NO_APP
	xorl	%edx, %edx
	xchgq	%rdx, (%rcx,%rax,8)
	#APP
	#NO_APP
	jmp	.LBB118_16
.LBB118_10:
	leaq	488(%r14), %rdi
	callq	ww_seat__patience__Patience__rest
	movq	8(%rsp), %r11
	jmp	.LBB118_11
.LBB118_19:
	leaq	64(%rsp), %rdi
	movq	%r14, %rsi
	movq	%r11, %rdx
	movl	%r13d, %ecx
	xorl	%r8d, %r8d
	callq	ww_lock__hand__Hand__wait_for____553c7e4ebf26217f_
	cmpb	$0, .Lstatic.0(%rip)
	je	.LBB118_20
	jmp	.LBB118_31
.LBB118_91:
	movq	%rbp, 432(%rsp)
	movq	%rcx, 440(%rsp)
	movq	%rdx, 448(%rsp)
	leaq	432(%rsp), %rdi
	callq	std_alloc__vec__Vec__drop____98a5c0865d4d3e5d_
	movb	$1, %bl
	xorl	%r15d, %r15d
	xorl	%edx, %edx
	cmpb	$0, .Lstatic.0(%rip)
	je	.LBB118_93
	jmp	.LBB118_31
.LBB118_1:
	leaq	16(%rsp), %r15
.LBB118_90:
	movq	%rbp, 560(%rsp)
	movq	$0, 568(%rsp)
	movq	%rdx, 576(%rsp)
	movq	%rcx, 584(%rsp)
	movq	$0, 592(%rsp)
	leaq	560(%rsp), %rdi
	movq	%rcx, %rbx
	callq	std_alloc__vec__deque__VecDeque__drop____98a5c0865d4d3e5d_
	movq	%rbx, %rdx
	xorl	%ebx, %ebx
	cmpb	$0, .Lstatic.0(%rip)
	jne	.LBB118_31
.LBB118_93:
	cmpb	$0, .Lstatic.0(%rip)
	movq	456(%rsp), %rcx
	jne	.LBB118_31
	cmpb	$0, .Lstatic.0(%rip)
	jne	.LBB118_31
	#APP
	#NO_APP
	lock		decq	(%rcx)
	#APP
	#NO_APP
	jne	.LBB118_97
	leaq	8(%rcx), %rsi
	#APP
	#NO_APP
	movl	$1, %eax
	xchgq	%rax, 8(%rcx)
	#APP
	#NO_APP
	movl	$202, %edi
	movq	%rdx, %r13
	movl	$129, %edx
	movl	$1, %ecx
	xorl	%r8d, %r8d
	xorl	%eax, %eax
	callq	syscall@PLT
	movq	%r13, %rdx
.LBB118_97:
	cmpb	$0, .Lstatic.0(%rip)
	jne	.LBB118_31
	movq	%r14, 16(%r12)
	movb	%bl, 24(%r12)
	movq	%r15, 32(%r12)
	movq	%rdx, 40(%r12)
	movq	%rdx, 48(%r12)
	#APP
	#NO_APP
	movl	$1, %eax
	xchgq	%rax, 8(%r12)
	#APP
	#NO_APP
	testq	%rax, %rax
	je	.LBB118_100
	callq	pthread_self@PLT
	movq	%rax, %rdi
	callq	pthread_detach@PLT
	movq	%r12, %rdi
	callq	free@PLT
.LBB118_100:
	xorl	%eax, %eax
	addq	$1160, %rsp
	popq	%rbx
	popq	%r12
	popq	%r13
	popq	%r14
	popq	%r15
	popq	%rbp
	retq
.LBB118_89:
	movq	40(%rsp), %r12
	movq	48(%rsp), %rcx
	movq	32(%rsp), %rdx
	jmp	.LBB118_90
.LBB118_59:
	movq	%rbp, 608(%rsp)
	movq	56(%rsp), %rax
	movq	%rax, 616(%rsp)
	movq	32(%rsp), %rax
	movq	%rax, 624(%rsp)
	leaq	1(%r12), %rax
	movq	%rax, 632(%rsp)
	movq	$0, 640(%rsp)
	leaq	608(%rsp), %rdi
	callq	std_alloc__vec__deque__VecDeque__drop____98a5c0865d4d3e5d_
	testq	%r12, %r12
	je	.LBB118_66
	leaq	40(%r15), %rbx
	jmp	.LBB118_61
	.p2align	4
.LBB118_65:
	addq	$48, %rbx
	decq	%r12
	je	.LBB118_66
.LBB118_61:
	cmpb	$0, -40(%rbx)
	jne	.LBB118_65
	cmpb	$0, -24(%rbx)
	jne	.LBB118_65
	cmpq	$0, (%rbx)
	je	.LBB118_65
	movq	-16(%rbx), %rdi
	callq	rattle_dealloc@PLT
	jmp	.LBB118_65
.LBB118_66:
	movq	%r15, %rdi
	callq	rattle_dealloc@PLT
	movb	$1, %bl
	xorl	%r15d, %r15d
	xorl	%edx, %edx
	movq	40(%rsp), %r12
	cmpb	$0, .Lstatic.0(%rip)
	je	.LBB118_93
.LBB118_31:
	ud2
.Lfunc_end118:
	.size	core__scope__entry____639418b959b61a12__thread_called_by_C_0, .Lfunc_end118-core__scope__entry____639418b959b61a12__thread_called_by_C_0
	.section	.rodata.core__scope__entry____639418b959b61a12__thread_called_by_C_0,"a",@progbits
	.p2align	2, 0x0
.LJTI118_0:
	.long	.LBB118_31-.LJTI118_0
	.long	.LBB118_80-.LJTI118_0
	.long	.LBB118_83-.LJTI118_0
	.long	.LBB118_79-.LJTI118_0
.LJTI118_1:
	.long	.LBB118_31-.LJTI118_1
	.long	.LBB118_69-.LJTI118_1
	.long	.LBB118_72-.LJTI118_1
	.long	.LBB118_68-.LJTI118_1

	.type	.Lstatic.0,@object
	.section	.bss..Lstatic.0,"aw",@nobits
.Lstatic.0:
	.zero	1
	.size	.Lstatic.0, 1

	.type	.Lstatic.1,@object
	.section	.rodata..Lstatic.1,"a",@progbits
.Lstatic.1:
	.ascii	"read failed"
	.size	.Lstatic.1, 11

	.type	.Lstatic.2,@object
	.section	.rodata..Lstatic.2,"a",@progbits
.Lstatic.2:
	.ascii	"write failed"
	.size	.Lstatic.2, 12

	.type	.Lstatic.4,@object
	.section	.rodata..Lstatic.4,"a",@progbits
	.p2align	4, 0x0
.Lstatic.4:
	.ascii	"?;\241\006)\252?\021Z\326;\222\326S\364\356\007\305$\244Y\312\307J\370ee\033f\264X\225I\366-\r\360\274y]v\277>\242\177\341\256\272\334sy\020,,\330\364So\316\212\337\231Z\351i\350K\212\233\033\007y\224\005\301\266+\240\330\221\204\342\336l\202\342H\227\371Fq\2446\310N\266%\233\026\b#\033\033\375\267\230\215MDz\342\343\367 \016\345\365\3600\376r\177x\260j\214m\2165\251Q^3-\275\275O\237\226\\\205\357\b\262\202\023\3465\200x,\255#G\274\263f+\213\3361\314\257!P\313;Lv\254U0 \373\026\213=\277\033*$\276J\337\223\027k<\350\271\334\255\r\257\2424\255m\035\327x\335\205Kb\350S\331h\255\345@\214dr\206k\2523o=q\324\207\302\030\037Q\257\375\016h\006\225\000\313\214\215\311\251\362\336f%\033\275\022\002H\272\300\375\357\360;\324WK`\3670\266K\001mt\230\376\225v\245\204-^85\275\243\236A\210\221>~;\324\316\245\271u\206\202\254L\006R\3525\316]J\211B\317\223\t\224\321\353\357Cs\262\341\240z\316\225\211\201\370\013\371\305\346\353\024\020\037\032I\031B\373\353\241\366Nww\340&\032\324\246`\233\237\022\372f\312\264\"U\225\230\260 \211\3208\202G\227\270\000\375\2605U]_n\264U\202c\261\214^s \236\035\203\2524\367\211!\353b\274\335/6\220\250\305\344#\325\001u\354\351\245{+\325\273C\264\022\367n6%!\3113\262G-;eU\252\260k\232\n\204ni\273\300\236\231\370\211\276\352\324\234\006\301\r%\312C\352p\006\300v,n%\nDH\361(W^j\222\006\0048\312\333dW\206*\315\226\362\354\365\0047\b\005\306\274\022>\355'u\200\274.h3\306DJ\206\367k\227\215\350q\222\240\353\035!\340\373j\356\263z\243~X1\207[D\223d)\330\272\005\352`YL\236\256\375hr\025\270\2753\216)\207$\271o\337E\032=\003\317\032\346V\340\370y\324\266\323\245\253k0\006b\301\320\217l\030w\230\211\244H\217\226\206\274\207\272\361\304\263\207\336\224\376\253\315\0323<\250\253)).\266\340\024\013\035\177\213\300\360\237%I\013\272\331\334q\214\331M\344^\256\360\354\007o\033\216(\020T\216\257Pa\235\366\331,\350\311J\242\2612\024\351q\333\322\\\":\b\0341\276n\005\257\237\2541'\211\006\364\252H\nc\275m\312\306\232\307\027\376p\253\b\261\325\332\314\273,\t}x\201\271\235=M\326\245\216\305\b`\365\273%N\353\360\223\202F\360\205N\362\366\n\270\362*\257!&\3558#Xl\247\341\256\264\rf\257\365\032\252o(\007,nG\321M\355\220\310\237\215\331P\312Ey\204\333\244\314\202\240(\265\272\007\361\017\345<\227\227e\022\316\177\243\310rb\251I\355S\036\f}\375\376\226\301_\314z\017\273\023\234\350\350%O\334\274\276\374\261w\377\254\351T\214a\221\261w\261\t6\367=\317\252\237\027$j\357\271\365\235\325\035\214\003u\r\203\225\307\035\255Dk(s\005K%oD\322\320\343z\3712\354\nC\371g\343Nw\305j\203b\316\354\233?\247\315\223\367A\234\"\325vE$\373\001\350\302\017\021\301xuRCk\212\324V\355y\002\242\363\251\252xk\211\023\n\203\326DV4\214AE\230S\325V\306k\230\314#\f\326kA\357\221V\276\250\212\354\267\206\276\277,\217\313\306\021k6\354\355\251\326\3632\024\327\367{9?\034\353\002\242\263\224S\314\260?\331\314\365\332\007O\343\245\203\212\340\271h\377\234\217\017@\263\321\311\"\\\217$\255X\350\241\037\302\271\t\b\020#\276\225\231\3316l7\221\212\2472(\f\n\324\253-\373\377\217DG\205\265lQ?2\217\f\311\026\371\371\377\263\025\231\346\342\343\222g\177\331\247=\256;\374\177\220\255\037\320\215\234wA\337\317\021\315\231J\373\237\364\230'D\261\203\325\021\327CV@@\035\372\3071\1771\225\335r%kf\3525(HR\374\034\177\357>}\212\317\356\005\000eC2\332f;\344^\253\216\034\255\202j\007@>\324\276\220@J\2356V\262c\330\221\242\004\350\246DwZhN\"\342uO>\2076\313\005\242\320\025\025q\002\342\252ZS\343\r\251\003>\207\312D[Z\r\203\232U1(\\Q\323\302\206\224\376\nyX\350\221\200\325\036\231\331\022\204r\2509\276M\227nb\266\340\212f\377\217\027\245\217\022\310-!=\n\373\343\230-@\377s]\316\231\013\235\2744f\346|\216\177\034\210\177h\372\200\200N\304\353\301\377\037\034r\237#j\237\0029\241 b\265f\262\377'\243N\207\254DGC\207\311\250\272b\000\237\377\361K\"\251\327\025\031\024\351\373\251\264=`\303?wo\265\311\246\255\217\254q\235\323!M8\264\017U\313\"|\020\231\263\027\316\304Hj`F\241S*~+\233T\177\240\235\001\366mB\374\313Dt\332.\373\340\224O\204\002\301\231\bS\373\376U\021\221\3729\031zc%C1\300\312'\272~\253U5y\210\237X\274\356\223=\360\336X4/\213U\301K\265c\2675u|&\226\026o\001\373\355\252\261\236\242<%\203\222\033\260\273\334\312\301y\251\025^F\313\213\356#w\"\234\352\311\036\031\354\211\315\372\013_\027uv\212\225\241\222{f\037g\354\200\371\3166]\022\024\355\372I\267\032@\347\200'\341\267\202\204\364\026Y\250y\034\345\020\210\220\260\270\354\262\321\322X\2567\t\3141\217\025\252\264\334\346\247\037\206\007\357\231\205\013?\376\262\232\324\341\223\340\221\247g\311j\000g\316\316\275\337\340$m\\,\273\310\340\275B`\000A\241\326\213\030n\210s\367\351\372XmSx@\221I\314\256\236\211jPu\2449\257Hh\226\220\365[\177\332\003\226BR\311\006\204m-\001^zy\231\217\210\203;\323\246{\b\345\310x\201\365\330\327\177\263\252d\n\210\220\232J\036\373\326\3412\317\315_`\325\177\006U\232\240\356\362\\&\315\177\241\340;\\\205\036H\352\300H\252/\364o\300\337\311\330J\263\246&\332$\361\332\224;\361\213\260W\374\216\035`\320X\b\267\326\b=\305vW\316\266]y\022<\202n\312d\fK\214vT\355\201$\265\027\027\313\242\t\375}\317]/\224\251h\242m\242\335\334}\313L|]C5;\371\323\002\013\t\013\025T]\376\257m\032J\001\305{\304\341\246\345&\215T\372\236\033\t\241\234A\266\2325\232\020\237p\260\351\270\306bK\311\003\322c\001\303\300\324\306\214\034$g\370\035\317]Bc\336\340y\370D\374\327\221v@\233\344B\365\022\374\025Y\2306V\373M6\224\020\302\235\223\262\027{[o>\304+z\341C\271\224\362B\234\317\356,\231\005\247Z[\354l\312\363\234\227S\203\203*x\377\306P1r'\b\2750\204\275(d$5V\277\370\244\275N1J\354<\345\354\231\2766\341\225w\033\2076\321^\256\023F\017\224?n\204Y{U\342(\204\205\366\231\230\027\023\271\317\211\345/\332\352\0323\345&t\300~\335W\347!v\357]\310\322\360?O\230H8o\352\226\220\251Skuz\007\355\017c\276Z\006\013\245\274\264\224(\306\022YI\350\323\373m\361\307M\316\353\341\\\331\273\253\327-qd\275\344\366\234\360`3\215\263\317\252\226My\215\275\354\2354\304,9\200\260\240\203U\374\240\327\360\354g\305A\365wG\240\334Dr\265\235\304\206\026\364`\033I\371\252,\344\211\325\316\"\305u(\03419b\233\267\3257]\254\213\202k6\2232c}\307:\202%\313\205t\327\2271\003\002\234\377]\256\274dq\367\236\323\250\206\374\375\203\002\203\177\365\331\353\275M\265\206\bS\250{\375$\303c\337r\320f-\241b\250\312g\322m\036\367Y\236\313GB`\274\244=\251\336\200\203\b\346t\360\205\276\331Rx\353\r\215S\026a\244\213\037\222l'.\220gVfQp\350[y\315\266S\333\243\330\034\272\000\366\3372Fq\331k\200\244(\322\314\016\244\350\200\363\227\277\227\315\317\206\240\315\262\006\200\022\315\"a\360}\257\375\300\203\250\310\201_\b W\200kyl]\033=\261\244\322\372\260;\005t60\343\313c\0321\306\356\246\303\234\234\212\006\021D\374\333\276\374`\275w\252\220\364\303D-H\025U\373\222\356;\271\254\025\325\264\361\364J\034M-\025\335\033u\305\363\213-\005\021\027\231]c\240xZ\324b\322\266\360\356xF\325\\\2774|\310\026q\211\373\206\344\254*\027\230\n4\357\240M=\256\3465]\324\016\254z\016\237\206\200\225\t\241\314Y`\203t\211\022W\031\322F\250\340\272K\311?p8\244\321+\327\254\237\206X\322\230\351\317\335'F\243\006c{\006\314#Tw\203\377\221B\325\261\027L\310;\032\b\277,)Ud\177\266\223J\236\035_\272\312 \312\356wsj=\037\344\234\356\202r{\264~T>\365*\210b\206\223\216C\252#O\232a\236\351\215\2625*\373g8\262\324\224\354\342\000\372\005d1\037\303\364\371\201\306\336\004\335\323\215@\274\203\336~\363\3718<\021<\213E\324H\261P\253$\226^p8G\213\025\013\256W\t\233\335$\326\255;v\214\006\031\356\332\215\331\326\345\200\n\327\245L\345\311\027\244\317\324\250\370\207L\037!\315L\317\237^\274\035\215\003\n\323\366\251\037gi\000 \303Gv+ep\204\314\207t\324s\340A\000\364\331\354);?\306\322\337\324\310\204\220XR\000q\020h\364\t\317w\307\027\n\373\245\264\356f@\215\024\202q\314\302U\271\235\314y\3170U@H\330L\361\306\277\231\325\223\342\037\254\201|jPZ\016\240\255\270/\000\3138\333'\027\242\034\205\344\360\021\b\331\246;\300\375\006\322\361\234\312c\246\035m\026J\217\220J0\275\210F.D\375\376\2072\004N\216Y\232.>v\025\354\234J\236\375)?\205\341\361\357@\272\315\323\032'D\335\305|\364\216\346Y\356+\321(\301\210\3410\225T\367\316X\0310\370t\273\202\271x\365\214>\335\224\232\001\257\037<6Rj\343\347\32620\216\024:\301\301\232'\313\303\346D\334\241\214?\274\261\231\210\361\271\300\370^:\020\253)\345\267\247\025\017`\365\226\347\360\266\366H\324\025t\336\245\021\333\022\270\262\274!\255d4[I\033\021V\017\326\221\027f\337\3534\354\276\000\331\r\261\312\225\311%\273\316\237k\223B\247\356@OQ]=\373;\357i\302\207F\270\022Q*\021\243\245\264\f\372\nk\004\263)X\346\253r\272\352\205\347\360G\334\346\302\342\017\032\367\217V\017ieg!\355Y\223\240s\333\223\340\364\263,S\303>\301ih0\270\210P\322\270\030\362\340\373\023:\307\030BA\036sUr\203sO\227\214\372\230\b\371\236\222\321\345\317\352NdP#\275\2579\277J\267F\367E\337\203\245b}$l\254\333\203\267\2162\214\272\213kr\247]\316\226\303K\211de2?/\251n\006O\021\365\201|\264\236\253\275\376\376\016{S\n\310\242Ur\242\233a\206\3266__\351,t\006\275\205u\207E\001\375\023\206\0047\267#8\021H,\347R\351\226A\374\230\247\305\004\245,\206\025Z\367\240\247\243\374Q;\177\321\373\"\347\333sM\230\232\304H\346=\023\205\357\202\272\353\340\322\320`>\301\365\332_\rXf\253\243\250&\231\007\005\371\2151\263\321\267\020\356?\226\314Rp\177IFw\361\375\037\306\345\224\351\317\273\3773\246\357\355\213\352\266\376\323\233\017\375\361a\325\237\300\217k\351.\245d\376\310\202S|n\272\312\307\260s\306\243z\316\375={ch\033\ni\275\371N\b\\\246\f\241\276\006->!Q\246a\026\234b\n\363\317OInH\270\215i\345\017\372\033\303\372\314\357\303\243\333\211Z&\361\303\336\223\370\342\363\034\340uZF)\226\370\267v:k\\\333m\230#X\023\361\227\263\273\366e\024\t\2063R\211\276,.X\355}\240jt\177Y\213g\300\246+\356\334\034W\264N\244\302\250\357\027\267@8H\333\224\023\344labM\363\222\353\335\344PF\032\022\272\027\035\310\371\272 \260wf\025\036\345\327\240\226\350.\022\035\334t\024\316\n`\3152\357\206$^\221\272V$\023\222\231\201\r\270\200\377\252\250\255\265\265il\355\227\366\377\341\020\346`\277\325\022\031#\343\301c\364\036\372?\215\312\217\234\227\305\253\357\365\215\262|\261\246\370\2170\275\263\203\375\266\226ks\261\336\333]\320\366\263|\254\240\344\274d|F\320\335k\251:Bz\360\315k\344\016\366\276\r,\242\212\306S\311\322\230l\301\206\235\222\263.\021\267J\255\267\250{\007\277\307q\350Dw`z\325d\235\330rI\255d\327\034G\021\213J|l\005_b\207\317\233\330=\r\344\230\325-]\233\307\306\366:\251\303\302N\215\020\035\377Jy4\202yx\264\211\323\2729QX*r\337\316\313`\361K\313\0206\204(\210e\356\264N\227\302\376\270\355\036\376\224C\2452\352\376)b\"=s>'\251\246=z\224\316_R?Z}5\006\b\207\270)\210f\314\034\201\367&\317\260\334\302\007\312\250&4*\200\377c\241\265\360\002\335\223\263\211\374R0\3014`\377\274\311\342\254C\324x \254\273g|\361A8?,\374\rL\252\204K\224K\325\300\3556)\203\247\233\235\021\337\324e^y\236\n1\251\204\363c\221\002\305\325\026J\377\265\027FM}\323e\360\2745C\366EN\216\277\321\316KP.\244?\026\226\001\352\231\326\341q/\206\302^\3449\215\317\233\373\201d\300LZN\273'sv]\210p\303\202z\242}\360o\370\020\325\370\007j:U&\272\221\214\205N\226\2136U\n\367\211\004\211\352\257(\266\357&\342\273.\204\352\314t\254E+\345\333\262\243\253\260\332\352\235\222\022\000\311\213\013;o\311OFk\256\310\222D7\027@\273n\316\t\313\273\343\027\006\332z\267\025\005\035\020j\nB\314\275\252\334\235\207\220Y\345-#\022J\202F\251\237\266\352\251\302T\372W\217\371\253\226\334\"\230\223GdeT\363\351\370-\263\367V\274\223+~xY\275~)p$w\371\337Z\266U<\333N\353W6\357\031\306v\352\373\213\361#k\013\222\"\346\355\003k\240w\024\345\372\256\355\354E\2166\253_\351\304\205\210\225Y\236\271\332\024\264\353\030\002\313\333\021\233Su\375\367\002\264\210\031\241&\237\302\275R\326\201\250\322\374\265\003\341\252_I\360F3m\347K\242R\007|\243D\231\325\333-V\f@\244po\245\223\204-\346\312\177\205R\271k\017P\315L\313\216\270\345\270\237\275\337\246\247\247F\023\244\000 ~\262&\037\247\007\255\227\320\310(\f\214f\000\324\216/xs\310$\314^\202\3722\017/\200\000\211r;V\220\372-\177\366\242\271\377\322:\240@+O\312k4y\371\036\264\313\250\277\207I\310\020\366\342\274\206\201\327\267&\241\376\311\327\364-}\312\331\r6\364\260\3462\270$\237\273\rry\034=P\221C1]\240?\346\355\306*\221\316\227cL\244u\224}t\210\317_\251\370\272\032\341>\276\257\206\311|\316H\265\341\333i\233ha\231\316\255[\350\373\033\002\233\"\332RD\302\303\271?B\231r\342\372\242\302A\253\220g\325\362\032\324g\311\237\207\315\334\245\031\tk\272`\305\227 \311\301\273\207\351\000T\017`\313\005\351\270\266\275h;\262\252\351#\001)\0238>G#g$\355!e\257\nr\266\240\371\013\343\206\fv\3006\224i>[\215\016\344\b\370\316\233\250\217\223pD\271\004\016\2620\022\035\013\266\302\302\222s\270\214\225\347\302Ho^+\362\306\261\271\271;H\363w\275\220\363\032\0136\266\2568\036(\250J\032\360\325\354\264\260\341\215\303c\332\306%2R\335 l\013(\342\016\2558Z~H\234W_S\212\224#\007Y\215Q\330\306\360\235Z\203-7\350\254y\354H\257\260e\216\370lE1\344\370D\"\030\230'\033\333\334\377X\033d\313\236\216\033k\025\017\277\370\360\b\212?/\"=~Fr\342\305\332\322\3566-\213\254\017\273j\314\035\330\016[w\221\207\252\204\370\255\327\351\264\302\237\022G\351\230\352\272\224\352R\273\314\206$b\263G\327\230#?\245\3519\245'\352\177\250\255:\240\031\r\177\354\216\016d\210\216\261\344\237\322\254$\0040h\317S\031\211>\025\371\356\356\243\203\327-\005<B\303\250_+\216Z\267\252\352\214\244My\006\313\022\364\2227\26611eU%\260\315\320\013\344\276\213\330\273\342\021\277>_U\027\216\200\304\016\235\256\256\316j[\326n\016\267*\235\261\240uRDZZ\202E\362\213\n\322du\004\336\310\022g\325\360\360\342\326\356.\215\006\276\222\205\025\373k`\205\226\326MFU=\030\304\266{s\355\234\206\270&<L\341\227\252L\036u\244Z\320(\304\250f0K\237\331=\325\337e\222Mq\0043\365)@\376\216\003\250F\345\253\177{\320\306\342?\2313\320\275r\004R\230\336\226_\232\204x\333\217\277@Dm\217\205f>\226|\367\300\245V\322s\357\250J\244y\023\000\347\335\255\232\230'vc\250\225R]\rX\030\300`UY\301~\261S|\022\273\246\264\020n\036\360\270\252\257q\336\235h\033\327\351\350p\312\004\023\226\263\312\r\007\253b!q&\222\"\r\375\305\227{`=\321\310U\273i\r\260\266jP|\267}\232\270\214\005;+*\304\020\\\344B\262\255\222\216`\363w\343\004[\232z\212\271\216\323\036Y7\2628\360U\034\306\361@\031\355g\262\210f/\305\336Flk\2437.\221_\350\001\337\025\240=;K\254##\306\342\274\272;1a\213\032\b\r\n^\227\354\253w\033l\251\212}9\256!J\220\2145\275\347\226U\"\307S\355\334\307\331T.\332wA\326P~uu\\T\024\352\034\210\351\271\320\325\321\013\345\335\322\222si\231$$\252d\350DK\306N^\225\207w\320\303\277-\255\324>\021\013\357;\361Z\275\264Jb\332\227<\354\204\216\325\315\352\212\255\261\354a\335\372\320\275K'\246\362J\201\245\355\030\336g\272\2249E\255\036\261\317\327\316p\207\224\317\352\200\364\374CK,\263\316\201\215\002M\251y\203%\2411\374\024^\367_B\2420C\240\023X\344n\t>;\2325\365\367\322\312\374S\210\030n\235\312\213\r\312\000\203\362\265\207\375}4U\317d\242^wH~\340\221\267\321t\236\235\201*\003\376J6\225\332\235Xv%\006\022\306\004\"\365\203\275\335\203:Q\305\356\323\256\207\226\367B5yr\226j\222\304R;uD\315\024\276\232\223\202\027\017<\005\267u'\212\222\225\000\232m\3018c\335\022\213\306$S\261,\367\272\200\000\311\361\003^\312\353\026\374\366\323\356{\332tP\240\035\227\204\365\274\246\034\273\364\210\352\032\021\222d\b\345\274\3452l\320\343\3511+\245a\225\266}J\036\354\317\237Cb.2\377:\007]\035\222\216\356\222\223\302\207\324\372\271\376\276\tI\264\24462\252w\270\263\251\211yh\276.L[\341M\304\276\224\225\346\020\n\366K\0017\235\017\331\254\260:\367|\035\220\224\214\363\236\301\204\204S\017\330\\\t5\334$\264\271o\260\006\362\245e(\023\016\264KB\023.\341\323E.D\267\207?\371\313\210Po\t\314\274\214H\3279\025\245i\217\367\376\252$\313\013\377\353\257\033M\210Z\016Ds\265\276\325\355\275\316\376\346\33300\225\370\210\nh1\227\245\2646A_p\211=|\2726+\r\302\375\374\316a\204\021w\314\253L\033i\004v\2202=\274Bz\345\325\224\277\326\017\261\301\302I\232?\246\265il\257\005\2757\206S\035r3\334\200\317\017#\204G\033G\254\305\247\250\244N@\023a\303\323+e\031\342X\027\267\321\351&1\b\254\034Zd;\337O\215\227n\022\203\243p=\n\327\243p=\n\327\243p=\n\327\243\314\314\314\314\314\314\314\314\314\314\314\314\314\314\314\314\000\000\000\000\000\000\000\000\000\000\000\000\000\000\000\200\000\000\000\000\000\000\000\000\000\000\000\000\000\000\000\240\000\000\000\000\000\000\000\000\000\000\000\000\000\000\000\310\000\000\000\000\000\000\000\000\000\000\000\000\000\000\000\372\000\000\000\000\000\000\000\000\000\000\000\000\000\000@\234\000\000\000\000\000\000\000\000\000\000\000\000\000\000P\303\000\000\000\000\000\000\000\000\000\000\000\000\000\000$\364\000\000\000\000\000\000\000\000\000\000\000\000\000\200\226\230\000\000\000\000\000\000\000\000\000\000\000\000\000 \274\276\000\000\000\000\000\000\000\000\000\000\000\000\000(k\356\000\000\000\000\000\000\000\000\000\000\000\000\000\371\002\225\000\000\000\000\000\000\000\000\000\000\000\000@\267C\272\000\000\000\000\000\000\000\000\000\000\000\000\020\245\324\350\000\000\000\000\000\000\000\000\000\000\000\000*\347\204\221\000\000\000\000\000\000\000\000\000\000\000\200\364 \346\265\000\000\000\000\000\000\000\000\000\000\000\2401\251_\343\000\000\000\000\000\000\000\000\000\000\000\004\277\311\033\216\000\000\000\000\000\000\000\000\000\000\000\305.\274\242\261\000\000\000\000\000\000\000\000\000\000@v:k\013\336\000\000\000\000\000\000\000\000\000\000\350\211\004#\307\212\000\000\000\000\000\000\000\000\000\000b\254\305\353x\255\000\000\000\000\000\000\000\000\000\200z\027\267&\327\330\000\000\000\000\000\000\000\000\000\220\254n2x\206\207\000\000\000\000\000\000\000\000\000\264W\n?\026h\251\000\000\000\000\000\000\000\000\000\241\355\314\316\033\302\323\000\000\000\000\000\000\000\000\240\204\024@aQY\204\000\000\000\000\000\000\000\000\310\245\031\220\271\245o\245\000\000\000\000\000\000\000\000:\017 \364'\217\313\316\000\000\000\000\000\000\000@\204\t\224\370x9?\201\000\000\000\000\000\000\000P\345\013\2716\327\007\217\241\000\000\000\000\000\000\000\244\336Ng\004\315\311\362\311\000\000\000\000\000\000\000M\226\"\201E@|o\374\000\000\000\000\000\000 \360\235\265p+\250\255\305\235\000\000\000\000\000\000(l\005\343L6\022\0317\305\000\000\000\000\000\0002\307\306\033\340\303V\337\204\366\000\000\000\000\000@\177<\\\021l:\226\013\023\232\000\000\000\000\000\020\237K\263\025\007\311{\316\227\300\000\000\000\000\000\324\206\036 \333H\273\032\302\275\360\000\000\000\000\200D\024\023\364\210\r\265P\231v\226\000\000\000\000\240U\331\0271\353P\342\244?\024\274\000\000\000\000\b\253\317]\375%\345\032\216O\031\353\000\000\000\000\345\312\241Z\2767\317\320\270\321\357\222\000\000\000@\236=J\361\255\005\003\005'\306\253\267\000\000\000\320\005\315\234m\031\307C\306\260\267\226\345\000\000\000\242#\000\202\344o\\\352{\3162~\217\000\000\200\212,\200\242\335\213\363\344\032\202\277]\263\000\000 \2557 \013\325n0\236\241b/5\340\000\0004\314\"\364&EE\336\002\245\235=!\214\000\000A\177+\261p\226\326\225C\016\005\215)\257\000@\021_v\335\f<L{\324QF\360\363\332\000\310j\373i\n\210\245\017\315$\363+v\330\210\000zEz\004\r\352\216S\000\356\357\266\223\016\253\200\330\326\230E\220\244rh\200\351\253\2448\322\325PG\206\177+\332\246GA\360q\353fc\243\205$\331g_\266\220\220\231QlN\246@<\f\247m\317A\367\343\264\364\377e\007\342\317PK\317\320\244!\211z\016\361\370\277\237D\355\201\022\217\201\202\rj+\031R-\367\257\307\225h\"\327\362!\243\220Dv\237\246\370\364\2339\273\002\353\214o\352\313\264\325SG\3206\362\002\bj\303%p\013\345\376\220e\224,Bb\327\001E\"\232\027&'O\237\365~\271\267\322:MB\326\252\200\235\357\360\"\307\262\336\247e\207\211\340\322\213\325\340\204+\255\353\370/\353\210\237\364U\314cw\205\f3;L\223\233\373%k\307qk\277<\325\246\317\377I\037x\302z\357E9NF\357\213\212\220\303\177\034'\026\363\254\265\313\343\360\213u\227V:\332\317q\330\355\227\027\243\276\034\355\356R=\354\310\320C\216N\351\275\335K\356c\250\252\247L'\373\304\3241\242c\355j\357t>\251\312\350\217\370\034\373$_E^\224D+\022\216S\375\342\2636\3449\356\266\326u\271\026\266\226q\250\274\333`D]\310\251dL\323\347\3151\376F\351U\211\274J:\035\352\276\017\344\220A\276\275\230c\253\253k\335\210\244\244\256\023\035\265\321-\355~<\226\226\306\024\253\315M\232Xd\342\242<T\317\345\035\036\374\354\212\240p`\267~\215\313K)C_\245%;\250\255\310\2148e\336\260\276\236\363\023\267\016\357I\022\331\372\257\206\376\025\3357Cxl2i5n\253\307\374-\024\277-\212\004T\226\007\177\303\302I\226\371{9\331.\271\254\006\351{\311^t3\334\373\367\332\207\217z\347\327\243q\355=\273(\240i\375\332\350\264\231\254\360\206\f\316h\r\3522\b\304\274\021#\"\300\327\254\250\220\001\303\220\244?\n\365+\326\253*\260\r\330\322\372\340y\332\306g&y\333e\253\032\216\b\307\2038Y\030\221\270\001pWR?V\241\261\312\270\244\206o^\265&\002L\355&\317\253\t^\375\346\315\264\005[1X\201OTxa\013\306Z^\260\200!\307\261=\256aci\3269\216w\361u\334\240\3518\036\315\031:\274\003L\310q\325m\223\023\311#\307e@\240H\253\004_:\316JIxX\373v\234?(d\r\353b{\344\300\316-K\027\235\224\203O2\275\320\245;\232\035qB\371\035]\304yd\343~\354D\217\312\000e\r\223wet\365\313\036N\317\023\213\231~ _\350\273j\277h\231~\246!\303\330\355?\236\350v\342jE\357\302\277\036\020\352\363N\351\317\305\242\024\233\305\026\253\263\357\022JrX\321\361\241\273\345\354\200;\356J\320\225\227\334\216\256En\212*\037(a\312\251]D\273\275\2232\032\327\t-\365&r\371<\024u\025\352V\234_p&&<YX\347\033\246,iM\222l\203w\f\260/\213o.\341\242\317w\303\340\266Gd\225\017\234\373m\013z\231\213\303U\364\230\344\254^\275\211A\275$G\354?7\232\265\230\337\216W\266,\354\221\354\355X\347\017\305\000\343~\227\262\355\3437g\266g)/\341S\366\300\233^=\337t\356\202\000\322\340y\275l\364\231X![\206\213\021\252\243\200\006Y\330\354\207q\300\256\351\361g\256\225\224\314 Ho\016\350\351\215p\032d\356\001\332\335\334\177\024\215\005\t1\262X\206\220\3764A\210\025\324\237Y\360FK\275\336\356\2474>\202Q\252\032\311\007p\254\030\236l\226\352\321\301\315\342\345\324\260\335\004\306k\317\342\003\2362#\231\300\255\017\205\034\025\206\267F\203\333\204E\377k\2770\231S\246c\232ge\030d\022\346\026\377F\357|\177\350\317~\300`?\217~\313On_\214\025\256O\361\201\235\3608\0173^\276\343Iw\357\232\231\243m\242\305,\007\323\277\365\255\\\034U\253\001\200\f\t\313\366\367\310\307/s\331sc*\026\002\240O\313\375\372\232\335\334\375\347g(~\332M\001\304\021\237\236\270\001\025T\375\341\201\262\035Q\241\0015\326F\306&B\032\251|Z\"\037e\245\tB\302\213\330\367Xi\260\351\215xu3_\007FiYW\347\232\256\203\034d\261\326R\0007\211\227\303/-\241\301\232\244#\275]\214g\300\204k}\264{x\t\362\340F6\226\272\267@\3702c\316PM\353E\227\230\330\303;\251\345P\266\377\373\001\245 f\027\275\276\316\264\212\023\037\345\243\377zB\316\250?]\3547\001\2616l3o\306\337\214\351\200\311G\272\223\204A]DG\000\013\270\027\360#\341\273\331\250\270\345\221t\025Y\300\r\246\035\354l\331*\020\323\346/\333h\2557\230\310\207\222\023\344\307\032\352C\220\373\021\303\230E\276\272)w\030\335y\241\344T\264z\326\363\376\326m)\364\224^T\330\311\035j\341\ffX_\246\344\231\030\035\2734'\236R\342\214\217\177.\367\317]\300^\344\351\001\261E\347\032\260s\037\372\364Cupv]dB\035\027\241!\334\250S\034yJI\006j\272~Ir\256\004\225\211\222hc\027\235\333\207\004i\336\333\016\332E\372\253\266B<]\204\322\251E\003\326\222\222P\327\370\326\262\251E\272\222#\212\013\302\305\233[\222\206[\206\036\024\327hw\254l\2162\267\202\3626h\362\247&\331\fC\225\327\0072\377d#\257D\002\357\321\270\007\350I\275\346D\177\037\037v\355ja5\203\246\tb\234l \026_\347\246\323\250\305\271\002\244\017\214z\303\207\250\3336\241\220\b\0237h\003\315\211\227,\332TII\302dZ\345k\"!\"\200l\275\267\020\252\233\333\362\375\260\336\006k\251*\240\307\254\345\224\224\202\222o=]\226\310\305S5\310\371\027\037\2729#w\313\214\364\273:\267\250B\372\373nS\024\004v*\377\327x\265\204r\251i\234\272Jh\031\205\023\365\376\r\327\342%\317\023\204\303i]\302_fX\262~\321\214[\357\302\030e\364az\331\373?w/\357\0028\231\325y/\277\230\372\330\317\372\017U\373\252\003\206\377JX\373\356\2768\317\203\371S*\272\225\204g\277].\272\252\356\203a\362{tZ\224\335\262\240\227\372\\\264*\225\344\371\356\232\021q\371\224\337\210=9tau\272]\270\252\001V\3157z\027\353\214G\321\271\022\351:\263\n\301U\340b\254\356\022\270\314\"\264\253\221\t`M1k\230{W\252\027\346\177+\241\026\266\013\270\240\375\205~Z\355\224\235\337_vI\234\343\007s\204\276\023\217X\024}\302\353\373\351\255A\216\310\217%\256\330\262nY\034\263\346zd\031\322\261\273\363\256\331\216_\312o\343_\240\231\275\237F\336TX\rH\271{\336%\356;\004\200\326#\354\212j\256\020\232\247\032V\257\351J\005 \314,\247\255\004\332\224\200Q\241+\033\244\235\006(\377\367\020\331B\b]\360\322D\373\220\206\"\004y\377\232\252\207SJt\254\007\026:5(+EW\277A\225\251\350\\\221\227\211\233\210B\362u\026-/\222\372\323\021\332\272\3765a\225i\267\t.|]\233|\204\225\220i~\203\271\372C%\2149\3334\302\233\245\273\364\003^\344g\371\224.\357\007\022\302\262\002\317\365x\302\272\356\340\033\035}\365DK\271\257a\2012\027si*\331bd\3342\026\236\247\033\272\241\376\334\317\003u\217{}\223\277\233\205\221\242(\312>\324\303DRs\332\\x\257\002\3475\313\262\374\247d\372j\023\210\b:\253\255a\260\001\277\357\235\320\375\270E\030\252\212\b\026\031z\034\302\256k\305E='W\236T\255\212[\237\230\243r\232\306\366K\206x\366\342T\2546\231c?\246\207 <\232\335\247\026\264\033jW\204\177<\317\217\251(\313\300\325Q\034\241\242Dme\237\013\303\363\323\362\375\360%\263\261\244\345Jd\237C\347Yx\304\267\236\226\356\037\336\r\237]=\207\024ap\226\265eF\274\352\247U\321\006\265\f\251Yy\f\374\"\377W\353\362\210\325B$\361\247\t\330\313\207\335u\377\026\223/\353\212Sm\355\021\f\316\276\351TS\277\334\267\372\245m\250\310h\026\217\201.$*(\357\323\345\274\207Di}\001n\371\020\235V\032yu\244\217\254\251\225\303\334\201\3117UD\354`\327\222\215\263\027\024{\364S\342\273\205jU'9\215\367p\340\216\354\314xtm\225\223b\225\270C\270\232F\214\262'\000\227\321\310z8\273\272\246TfAX\257\2361\300\374\005{\231\006ji\320\351\277Q.\333\003\037\370\275\343\354\037D\342A\"\362\027\363\374\210\303&v\255\034\350'\325Z\322\252\356\335/<\253t\260\323\330#\342q\212\361\206Uj\325;\013\326IN\204gV-\207\366Vtube\005\307\205\333ae\001\254\370(\264l\321\022\273\276\3068\247R\272\276\001\32763\341\307\205\327in\370\006\321s4\027aF\002\300\354\234\263&\002E[\244\202\220\001]\371\327\002\360'\204`\260B\026rM\243\364A\264\367\215\003\3541\245x\\\323\233\316 \314qR\241uq\004g~\316\2263\310B\002)\377\206\323\204\351\306b\000\017A> \275i\241y\237h\b\346\243x{\300R\321Mh,\304\tX\307\202\212\337\314V\232p\247Ea\20275\f.\371\221\266\013@v`\246\210\313|\261B\241\307\274\2335\244\016\320\223\370\317j\376\333]\223\211\371\253\302CM\022\304\270\366\203\005\376R5\370\353\367V\363Jp\213z3zr\303\336S!{\363Z\026\230\\L.Y\300\030Ot\326\250\351Y\260\361\033\276s\337yo\360\336b\021\f\023dp\034\356\242\355\250+\254EV\313\335\212\347\213>\306\321\324\205\224\2226\027\327+>\225m\341.\3167\006J\247\2717\004\335\314\266\215\372\310\231\272\301\305\207\034\021\350\242\"\n@\222\230\234\035\240\024\231\333\324\261\n\221K\253\f\320\266\276\003%\310Y\177\022J^M\265\035\326\017\204d\256D.:0\037\227\334\265\240\342\322\345\211\322\376\354\352\\$~s\336\251q\244\215G_,\207>\250%t\255]\020V\024\216\r\261\031w\367(N\022/\321\030u\224k\231\361P\335o\252\232\331pk\275\202/\311<\343\377\226R\212\013U\001\020M\306lc{\373\013\334\277<\347\254N\252\001T\340\367G<Z\372\016\323\357\013!\330q\n\2014\354\372\254ex\\\351\343u\247\024\207\rM\241A\2479\030\177\226\263\343\\S\321\331\250P\240\t\022\021H\336\036|\240\0344\250E\020\3232\004F\253\n\355J\223M\344\221 \211+\352\203?\205\027VM\250\035\370`]\266hk\266\344\244\216f\235\253`\022%6\271\364\343B\006\344\035\316\031`Bk|+\327\301\363x\316\351\203\256\322\200\037\370\022\206[\366L\2620\027B\344$Z\007\241'\266\227g\3623\340\336\374\234R\035\2560I\311\261\243}\001\357@\230\026<D\247\244\331|\233\373N\206\356`\225(\037\216\245\212\350\006\b.A\235\342'*\271\272\362\246\361N\255\242\b\212y\221\304\333\261tgi\257\020\256\242X\313\212\354\327\265\365)\357\250\340\241m\312\254e\027\277\326\363\246\221\231\363*\323X\n\t\375\027?\335n\314\260\020\366\277\260\365\007\357LK\374\335\216\224\212\377\334\224\363\357\216\371d\025\020\257\275J\331\234\266\037\n=\370\225\3617\276\032\324\032m\235\017D\244\247LLv\273\355\305m!\211a\310\204\023U\215\321_\337S\352\264\233\344\264\365<\3752,U\370\342\233kt\222\241\302\035\"3\214\274?wj\266\333\202\206\021\267J3\245\352?\257\253\017\025\005\244\222#\350\325\344\016@\247\362\207M\313)-\203\246;\026\261\005\217\022\020Q\357\351 >t\370#\220\312[\035\307\262\026T%k$\251M\221\366,4\275\262\344x\337\216T\367\302\266\211\320\032\032\234@\266\357\216\253\213\261)\265s$\254\204\241 \303\320\243\253r\226\256\036t\242\220-\327\345\311\350\363\304\214V\017<\332\222\210ez|\246/~q\030\373\027\226\211e\210\267\352\376\230\033\220\273\335\215\336\371\235\373\353~\252e\245>\177\"t*U1Vx\205\372\246\036\325_'\207\217\225\210:\325\3365k\223\\(3\2057\361h\363\272*\211\212V\003F\270s\362\177\246\205-C\260iu+-,\204W\246\020\357\037\320s\374)\016b);\234\233\262\366gj\365\023\202\217{\264\221\272\363I\203B_\364\001\305\362\230\242s\232!6\251p\034$\023wqBv/?\313\020\001\252\203\323\214#\355\327\324\r\323S\373\016\376\252@J2\00486\364\006\245\350c\024]\311\236\325\320\334>\005\306C\261H\316\342|Y\264{\306\n\005\224\216\206\267\224\335\332\201\033\334o\241\032\370&\203\034\031\264\362|\312(1\221\351\345\244\020\233\360\243c\037a/\034\375r}\365c\037\316\324\301\354\214<g9;c\274\317\334\362<\247\001J\362\023\330\205\340\003\005\276\325\001\312\027\206\bAn\227\030N\247\330D\206-K\202\274\235\247J\321I\275\236!\321\016\326\347\370\335\242+\205Q\235E\234\354\003\265B\311\345\220\273\312E;\363R\202\253\341\223Cb\223;\037uj=\027\n\260\347b\026\332\270\324:x\ng\022\305\f\235\f\234\241\373\233\020\347\305$\213f\200+\373'\342\207\001E}aj\220\366\355-\200`\366\371\261\332\351A\226\334\371\204\264si9\240\370sx^Qd\322\273S8\246\341\350\341#d{H\013\333\262~cU4\343\007\215b\332,=\232\032\316\221_^\274j\001\334I\260\373\020x\314@\241Av\367uk\305\001S\\\334\235\n\313\177\310\004\351\251\272)c\033\341\263\271\211D\315\275\237\372EcT)\364;b\331 (\254\225@\255Gy\027|\2513\361\312\272\017)2\327]H\314\314\253\216\355I\300\326\276\324\251Y\177\206tZ\377\277V\362h\\p\214\356I\0240\037\250\0211\377o\354.\203s\214/j\\\031\374&\322\253~\377\305S\3751\310\267]\302\331\217]X\203U^\177\267\250|>\272%\3652\320\363t.\244\3535_\345\322\033\316(o\262?\3040\022:\315\263\201[\317c\321\200y\205\317\247z^KD\200\037b2\303\274\005\341\327f\303Q\0316^U\240\247\372\376\363+G\331\215@4\246\237\303\265j\310Q\271\376\360\366\230O\261P\301\217\2074c\205\372\3233\237V\232\277\321n\322\330\271\324\000^\223\234\310\000G\354\200/\206\n\007O\350\t\2015\270\303\372\300X'a\273'\315\310bbL\341B\246\364\234x\227\270\034\3258\200\275}\275\317\314\351\347\230\303V\275\346c\nG\340,\335\254\003@\344!\277t\254l\340\374\314X\030x\024\230\004P]\352\356\310\353C\f\036\2007\017\313\f\337\002RzR\225\272\346T\217%`\005\323\375\317\226\203\346\030\247\272i *\363.\270\306G\375\203|$ \337P\351AT\372W\0353\334L~\322\315\026t\213\322\221R\351\370\255\344?\023\340\035G\201\034Q.G\266\246#w\331\335\017\030X\345\230\241c\345\371\330\343Hv\352\247\352\t\017W\217\377D^/\234g\216\332\023\345Qe\314\322,s?\3265;\203\001\262\321X^\246~\177\007\370O\317K\003\n\344\201\336\202\367\372'\257\257\004\373\221a\017B\206.\021\213c\265\371\361\232\333\305y\3669\223\322'z\325\255\274\"x\256\201R7\030t\b8\307\261\330J\331\265\025\013\r\221\223\"\217H\005\203\034o\307\316\207\"\333MPu8\353\262\232\306\243\343Jy\302\251\353Qa\244\222\006\246_A\270\214\234\235\0273\3243\323\274\246\033\304\307\333(\363\327\201\302\356\237\204\000\bl\220\"\265\271\022\363\357M\"s\352\307\245\000\n\2074k\"h\327\357k\341\352\017\3459\317@f\324\000\203\025\241\346u\343\314\362)/\204\201\320\177\t\301\343ZI`S\034\200o\364:\345\241\304\337K\261\234\261[8h#`\213\261\211^\312\265\327\236\335\003\236rFB,8\356\035,\366\374\321F\203j\302\242\007l\251\033\343\264\222\333\031\236\205\030$\005s\213\t\307\223\342\033bwR\240\305"
	.size	.Lstatic.4, 10688

	.type	.Lstatic.5,@object
	.section	.rodata..Lstatic.5,"a",@progbits
	.p2align	3, 0x0
.Lstatic.5:
	.ascii	"\001\000\000\000\000\000\000\000\n\000\000\000\000\000\000\000d\000\000\000\000\000\000\000\350\003\000\000\000\000\000\000\020'\000\000\000\000\000\000\240\206\001\000\000\000\000\000@B\017\000\000\000\000\000\200\226\230\000\000\000\000\000\000\341\365\005\000\000\000\000\000\312\232;\000\000\000\000\000\344\013T\002\000\000\000\000\350vH\027\000\000\000\000\020\245\324\350\000\000\000\000\240rN\030\t\000\000\000@z\020\363Z\000\000\000\200\306\244~\215\003\000\000\000\301o\362\206#\000\000\000\212]xEc\001\000\000d\247\263\266\340\r\000\000\350\211\004#\307\212"
	.size	.Lstatic.5, 160

	.type	.Lstatic.6,@object
	.section	.rodata..Lstatic.6,"a",@progbits
	.p2align	3, 0x0
.Lstatic.6:
	.ascii	"\000\000\000\000\000\000\360?\000\000\000\000\000\000$@\000\000\000\000\000\000Y@\000\000\000\000\000@\217@\000\000\000\000\000\210\303@\000\000\000\000\000j\370@\000\000\000\000\200\204.A\000\000\000\000\320\022cA\000\000\000\000\204\327\227A\000\000\000\000e\315\315A\000\000\000 _\240\002B\000\000\000\350vH7B\000\000\000\242\224\032mB\000\000@\345\2340\242B\000\000\220\036\304\274\326B\000\0004&\365k\fC\000\200\3407y\303AC\000\240\330\205W4vC\000\310Ngm\301\253C\000=\221`\344X\341C@\214\265x\035\257\025DP\357\342\326\344\032KD\222\325M\006\317\360\200D"
	.size	.Lstatic.6, 184

	.type	.Lstatic.7,@object
	.section	.rodata.cst4,"aM",@progbits,4
.Lstatic.7:
	.ascii	"true"
	.size	.Lstatic.7, 4

	.type	.Lstatic.8,@object
	.section	.rodata..Lstatic.8,"a",@progbits
.Lstatic.8:
	.ascii	"false"
	.size	.Lstatic.8, 5

	.type	.Lstatic.9,@object
	.section	.rodata.cst4,"aM",@progbits,4
.Lstatic.9:
	.ascii	"null"
	.size	.Lstatic.9, 4

	.type	.Lstatic.16,@object
	.section	.rodata..Lstatic.16,"a",@progbits
.Lstatic.16:
	.ascii	"\"\\/bfnrtu"
	.size	.Lstatic.16, 9

	.type	.Lstatic.17,@object
	.section	.rodata..Lstatic.17,"a",@progbits
.Lstatic.17:
	.byte	101
	.size	.Lstatic.17, 1

	.type	.Lstatic.18,@object
	.section	.rodata..Lstatic.18,"a",@progbits
.Lstatic.18:
	.byte	69
	.size	.Lstatic.18, 1

	.type	.Lstatic.19,@object
	.section	.rodata..Lstatic.19,"a",@progbits
.Lstatic.19:
	.ascii	"events"
	.size	.Lstatic.19, 6

	.type	.Lstatic.20,@object
	.section	.rodata..Lstatic.20,"a",@progbits
.Lstatic.20:
	.ascii	"version"
	.size	.Lstatic.20, 7

	.type	.Lstatic.21,@object
	.section	.rodata.cst4,"aM",@progbits,4
.Lstatic.21:
	.ascii	"kind"
	.size	.Lstatic.21, 4

	.type	.Lstatic.22,@object
	.section	.rodata..Lstatic.22,"a",@progbits
.Lstatic.22:
	.ascii	"locks"
	.size	.Lstatic.22, 5

	.type	.Lstatic.23,@object
	.section	.rodata..Lstatic.23,"a",@progbits
.Lstatic.23:
	.ascii	"seats"
	.size	.Lstatic.23, 5

	.type	.Lstatic.42,@object
	.section	.rodata..Lstatic.42,"a",@progbits
.Lstatic.42:
	.ascii	"leave"
	.size	.Lstatic.42, 5

	.type	.Lstatic.43,@object
	.section	.rodata..Lstatic.43,"a",@progbits
.Lstatic.43:
	.ascii	"history"
	.size	.Lstatic.43, 7

	.type	.Lstatic.44,@object
	.section	.rodata..Lstatic.44,"a",@progbits
.Lstatic.44:
	.ascii	"nodes"
	.size	.Lstatic.44, 5

	.type	.Lstatic.45,@object
	.section	.rodata..Lstatic.45,"a",@progbits
.Lstatic.45:
	.ascii	"scripts"
	.size	.Lstatic.45, 7

	.type	.Lstatic.46,@object
	.section	.rodata..Lstatic.46,"a",@progbits
.Lstatic.46:
	.ascii	"value"
	.size	.Lstatic.46, 5

	.type	.Lstatic.47,@object
	.section	.rodata..Lstatic.47,"a",@progbits
.Lstatic.47:
	.ascii	"ports"
	.size	.Lstatic.47, 5

	.type	.Lstatic.59,@object
	.section	.rodata..Lstatic.59,"a",@progbits
.Lstatic.59:
	.ascii	"reply "
	.size	.Lstatic.59, 6

	.type	.Lstatic.60,@object
	.section	.rodata..Lstatic.60,"a",@progbits
.Lstatic.60:
	.byte	32
	.size	.Lstatic.60, 1

	.type	.Lstatic.61,@object
	.section	.rodata..Lstatic.61,"a",@progbits
.Lstatic.61:
	.byte	10
	.size	.Lstatic.61, 1

	.type	.Lstatic.62,@object
	.section	.rodata..Lstatic.62,"a",@progbits
.Lstatic.62:
	.ascii	"00010203040506070809101112131415161718192021222324252627282930313233343536373839404142434445464748495051525354555657585960616263646566676869707172737475767778798081828384858687888990919293949596979899"
	.size	.Lstatic.62, 200

	.type	.Lstatic.63,@object
	.section	.rodata.cst8,"aM",@progbits,8
.Lstatic.63:
	.ascii	"already "
	.size	.Lstatic.63, 8

	.type	.Lstatic.64,@object
	.section	.rodata..Lstatic.64,"a",@progbits
.Lstatic.64:
	.ascii	"interrupted "
	.size	.Lstatic.64, 12

	.type	.Lstatic.65,@object
	.section	.rodata..Lstatic.65,"a",@progbits
.Lstatic.65:
	.ascii	"cancelled"
	.size	.Lstatic.65, 9

	.type	.Lstatic.66,@object
	.section	.rodata..Lstatic.66,"a",@progbits
.Lstatic.66:
	.ascii	"pending"
	.size	.Lstatic.66, 7

	.type	.Lstatic.67,@object
	.section	.rodata..Lstatic.67,"a",@progbits
.Lstatic.67:
	.ascii	"values"
	.size	.Lstatic.67, 6

	.type	.Lstatic.69,@object
	.section	.rodata..Lstatic.69,"a",@progbits
.Lstatic.69:
	.ascii	"moved"
	.size	.Lstatic.69, 5

	.type	.Lstatic.70,@object
	.section	.rodata..Lstatic.70,"a",@progbits
.Lstatic.70:
	.ascii	"short"
	.size	.Lstatic.70, 5

	.type	.Lstatic.72,@object
	.section	.rodata..Lstatic.72,"a",@progbits
.Lstatic.72:
	.ascii	"was"
	.size	.Lstatic.72, 3

	.type	.Lstatic.73,@object
	.section	.rodata.cst4,"aM",@progbits,4
.Lstatic.73:
	.ascii	"sum "
	.size	.Lstatic.73, 4

	.type	.Lstatic.74,@object
.Lstatic.74:
	.ascii	"end "
	.size	.Lstatic.74, 4

	.type	.Lstatic.75,@object
	.section	.rodata..Lstatic.75,"a",@progbits
.Lstatic.75:
	.ascii	" -"
	.size	.Lstatic.75, 2

	.type	.Lstatic.76,@object
	.section	.rodata..Lstatic.76,"a",@progbits
.Lstatic.76:
	.ascii	"at "
	.size	.Lstatic.76, 3

	.type	.Lstatic.77,@object
	.section	.rodata..Lstatic.77,"a",@progbits
.Lstatic.77:
	.ascii	"node "
	.size	.Lstatic.77, 5

	.type	.Lstatic.78,@object
	.section	.rodata..Lstatic.78,"a",@progbits
.Lstatic.78:
	.ascii	"impossible "
	.size	.Lstatic.78, 11

	.type	.Lstatic.79,@object
	.section	.rodata..Lstatic.79,"a",@progbits
	.p2align	3, 0x0
.Lstatic.79:
	.size	.Lstatic.79, 0

	.type	.Lstatic.80,@object
	.section	.rodata..Lstatic.80,"a",@progbits
.Lstatic.80:
	.ascii	"event "
	.size	.Lstatic.80, 6

	.type	.Lstatic.81,@object
	.section	.rodata..Lstatic.81,"a",@progbits
.Lstatic.81:
	.ascii	"stamp "
	.size	.Lstatic.81, 6

	.type	.Lstatic.82,@object
	.section	.rodata..Lstatic.82,"a",@progbits
.Lstatic.82:
	.ascii	"ok"
	.size	.Lstatic.82, 2

	.type	.Lstatic.83,@object
	.section	.rodata..Lstatic.83,"a",@progbits
.Lstatic.83:
	.ascii	"locked"
	.size	.Lstatic.83, 6

	.type	.Lstatic.84,@object
	.section	.rodata.cst4,"aM",@progbits,4
.Lstatic.84:
	.ascii	"met "
	.size	.Lstatic.84, 4

	.type	.Lstatic.85,@object
	.section	.rodata..Lstatic.85,"a",@progbits
.Lstatic.85:
	.ascii	"handed "
	.size	.Lstatic.85, 7

	.type	.Lstatic.87,@object
	.section	.rodata..Lstatic.87,"a",@progbits
.Lstatic.87:
	.ascii	"deadlk "
	.size	.Lstatic.87, 7

	.type	.Lstatic.88,@object
	.section	.rodata..Lstatic.88,"a",@progbits
.Lstatic.88:
	.ascii	"place "
	.size	.Lstatic.88, 6

	.type	.Lstatic.89,@object
	.section	.rodata.cst4,"aM",@progbits,4
.Lstatic.89:
	.zero	4,32
	.size	.Lstatic.89, 4

	.type	.Lstatic.92,@object
	.section	.rodata..Lstatic.92,"a",@progbits
.Lstatic.92:
	.ascii	"ring -\n"
	.size	.Lstatic.92, 7

	.type	.Lstatic.94,@object
	.section	.rodata..Lstatic.94,"a",@progbits
.Lstatic.94:
	.ascii	"condemned"
	.size	.Lstatic.94, 9

	.type	.Lstatic.95,@object
	.section	.rodata..Lstatic.95,"a",@progbits
.Lstatic.95:
	.ascii	"lock "
	.size	.Lstatic.95, 5

	.type	.Lstatic.96,@object
	.section	.rodata..Lstatic.96,"a",@progbits
.Lstatic.96:
	.ascii	" :"
	.size	.Lstatic.96, 2

	.type	.Lstatic.98,@object
	.section	.rodata..Lstatic.98,"a",@progbits
.Lstatic.98:
	.byte	47
	.size	.Lstatic.98, 1

	.type	.Lstatic.99,@object
	.section	.rodata..Lstatic.99,"a",@progbits
.Lstatic.99:
	.ascii	"seat "
	.size	.Lstatic.99, 5

	.type	.Lstatic.100,@object
	.section	.rodata..Lstatic.100,"a",@progbits
.Lstatic.100:
	.ascii	"refused 10 not json"
	.size	.Lstatic.100, 19

	.type	.Lstatic.101,@object
	.section	.rodata..Lstatic.101,"a",@progbits
.Lstatic.101:
	.ascii	"refused 11 bad key"
	.size	.Lstatic.101, 18

	.type	.Lstatic.102,@object
	.section	.rodata..Lstatic.102,"a",@progbits
.Lstatic.102:
	.ascii	"refused 12 number out of range"
	.size	.Lstatic.102, 30

	.type	.Lstatic.103,@object
	.section	.rodata..Lstatic.103,"a",@progbits
.Lstatic.103:
	.ascii	"refused 13 bad graph"
	.size	.Lstatic.103, 20

	.type	.Lstatic.104,@object
	.section	.rodata..Lstatic.104,"a",@progbits
.Lstatic.104:
	.ascii	"refused 14 unknown word"
	.size	.Lstatic.104, 23

	.type	.Lstatic.105,@object
	.section	.rodata..Lstatic.105,"a",@progbits
.Lstatic.105:
	.ascii	"refused 15 unknown version"
	.size	.Lstatic.105, 26

	.type	.Lstatic.106,@object
	.section	.rodata..Lstatic.106,"a",@progbits
.Lstatic.106:
	.ascii	"refused 16 no memory"
	.size	.Lstatic.106, 20

	.type	.Lstatic.107,@object
	.section	.rodata..Lstatic.107,"a",@progbits
.Lstatic.107:
	.ascii	"refused 17 input too long"
	.size	.Lstatic.107, 25

	.type	.Lstatic.108,@object
	.section	.rodata..Lstatic.108,"a",@progbits
.Lstatic.108:
	.ascii	"refused 18 wrong type"
	.size	.Lstatic.108, 21

	.type	.Lstatic.109,@object
	.section	.rodata..Lstatic.109,"a",@progbits
.Lstatic.109:
	.ascii	"refused 19 no thread"
	.size	.Lstatic.109, 20

	.type	.Lswitch.table.main,@object
	.section	.rodata..Lswitch.table.main,"a",@progbits
	.p2align	3, 0x0
.Lswitch.table.main:
	.quad	19
	.quad	18
	.quad	30
	.quad	20
	.quad	23
	.quad	26
	.quad	20
	.quad	25
	.quad	21
	.size	.Lswitch.table.main, 72

	.type	.Lswitch.table.main.971.rel,@object
	.section	.rodata..Lswitch.table.main.971.rel,"a",@progbits
	.p2align	2, 0x0
.Lswitch.table.main.971.rel:
	.long	.Lstatic.100-.Lswitch.table.main.971.rel
	.long	.Lstatic.101-.Lswitch.table.main.971.rel
	.long	.Lstatic.102-.Lswitch.table.main.971.rel
	.long	.Lstatic.103-.Lswitch.table.main.971.rel
	.long	.Lstatic.104-.Lswitch.table.main.971.rel
	.long	.Lstatic.105-.Lswitch.table.main.971.rel
	.long	.Lstatic.106-.Lswitch.table.main.971.rel
	.long	.Lstatic.107-.Lswitch.table.main.971.rel
	.long	.Lstatic.108-.Lswitch.table.main.971.rel
	.size	.Lswitch.table.main.971.rel, 36

	.section	".note.GNU-stack","",@progbits
