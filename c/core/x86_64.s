/*
 * The proved library for C on x86_64, as the kit's compiler (LLVM) makes it.  Written by ./build c --assembly.
 *
 * sources: 03e5da4fe503955ce0118c7c4da7f15a3d85a27a7d0c99dcf49d53ddb738ab46
 * kit:     rattle-kit-13f logic dac8208d650f15bf
 * proof:   logic=proved functions=75 axioms=3 target=x86_64-unknown-linux-gnu sum=dac8208d650f15bf
 */
	.section	.text.unlikely.ww_c__exports__begin_anyhow,"ax",@progbits
	.p2align	4
	.type	ww_c__exports__begin_anyhow,@function
ww_c__exports__begin_anyhow:
	cmpl	$0, 8(%rdi)
	je	.LBB0_1
	movq	$1, 8(%rdi)
	movq	(%rdi), %rcx
	movl	$-16, %eax
	cmpb	$0, 420(%rcx)
	je	.LBB0_4
.LBB0_2:
	retq
.LBB0_4:
	cmpq	$0, 40(%rcx)
	je	.LBB0_5
.LBB0_1:
	movl	$-22, %eax
	retq
.LBB0_5:
	cmpl	$0, 400(%rcx)
	movl	$-22, %eax
	jne	.LBB0_2
	movq	432(%rcx), %rdx
	movl	$-28, %eax
	testq	%rdx, %rdx
	je	.LBB0_2
	decq	%rdx
	movq	%rdx, 432(%rcx)
	movq	(%rcx), %rdx
	movq	8(%rdx), %rsi
	#APP
	#NO_APP
	movl	$1, %edx
	lock		xaddq	%rdx, (%rsi)
	#APP
	#NO_APP
	incq	%rdx
	cmpq	%rdx, 24(%rcx)
	jb	.LBB0_2
	movq	%rdx, 40(%rcx)
	imulq	56(%rcx), %rdx
	addq	48(%rcx), %rdx
	movq	%rdx, 64(%rcx)
	movb	$0, 408(%rcx)
	movq	$0, 412(%rcx)
	xorl	%eax, %eax
	cmpq	$0, 432(%rcx)
	je	.LBB0_2
	movl	404(%rcx), %ecx
	movl	%ecx, 12(%rdi)
	movl	$3, 8(%rdi)
	retq
.Lfunc_end0:
	.size	ww_c__exports__begin_anyhow, .Lfunc_end0-ww_c__exports__begin_anyhow

	.section	.text.ww_c__ww_steps__desk__Desk_Destruct__drop,"ax",@progbits
	.p2align	4
	.type	ww_c__ww_steps__desk__Desk_Destruct__drop,@function
ww_c__ww_steps__desk__Desk_Destruct__drop:
	pushq	%rbp
	pushq	%r15
	pushq	%r14
	pushq	%r13
	pushq	%r12
	pushq	%rbx
	subq	$56, %rsp
	movq	(%rdi), %rax
	movq	344(%rdi), %rcx
	movq	%rcx, 16(%rsp)
	movq	352(%rdi), %r12
	movq	360(%rdi), %rcx
	movq	%rcx, 32(%rsp)
	movzbl	368(%rdi), %ecx
	movb	%cl, 15(%rsp)
	movq	376(%rdi), %rcx
	movq	%rcx, 48(%rsp)
	movq	392(%rdi), %r15
	movq	440(%rdi), %rcx
	movq	%rcx, 24(%rsp)
	movq	456(%rdi), %rcx
	movq	%rcx, 40(%rsp)
	movq	%rax, %rdi
	callq	std_alloc__arc__Arc__drop____93a448bb48b6d052_
	testq	%r12, %r12
	je	.LBB1_9
	movq	16(%rsp), %rax
	leaq	88(%rax), %rbp
	jmp	.LBB1_2
	.p2align	4
.LBB1_8:
	addq	$96, %rbp
	decq	%r12
	je	.LBB1_9
.LBB1_2:
	movzbl	-56(%rbp), %ecx
	movzbl	-24(%rbp), %ebx
	movq	-16(%rbp), %rdi
	movq	(%rbp), %r13
	leal	-2(%rcx), %eax
	cmpl	$5, %eax
	jb	.LBB1_5
	movq	-48(%rbp), %rax
	movq	-32(%rbp), %rdx
	cmpl	$1, %ecx
	testq	%rdx, %rdx
	je	.LBB1_5
	movq	%rdi, %r14
	movq	%rax, %rdi
	callq	rattle_dealloc@PLT
	movq	%r14, %rdi
	.p2align	4
.LBB1_5:
	testb	%bl, %bl
	jne	.LBB1_8
	testq	%r13, %r13
	je	.LBB1_8
	callq	rattle_dealloc@PLT
	jmp	.LBB1_8
.LBB1_9:
	cmpq	$0, 32(%rsp)
	je	.LBB1_11
	movq	16(%rsp), %rdi
	callq	rattle_dealloc@PLT
.LBB1_11:
	cmpb	$0, 15(%rsp)
	movq	48(%rsp), %rdi
	je	.LBB1_14
	testq	%r15, %r15
	je	.LBB1_14
	.p2align	4
.LBB1_13:
	movq	(%rdi), %rbx
	callq	rattle_dealloc@PLT
	movq	%rbx, %rdi
	decq	%r15
	jne	.LBB1_13
.LBB1_14:
	cmpq	$0, 40(%rsp)
	je	.LBB1_15
	movq	24(%rsp), %rdi
	addq	$56, %rsp
	popq	%rbx
	popq	%r12
	popq	%r13
	popq	%r14
	popq	%r15
	popq	%rbp
	jmp	rattle_dealloc@PLT
.LBB1_15:
	addq	$56, %rsp
	popq	%rbx
	popq	%r12
	popq	%r13
	popq	%r14
	popq	%r15
	popq	%rbp
	retq
.Lfunc_end1:
	.size	ww_c__ww_steps__desk__Desk_Destruct__drop, .Lfunc_end1-ww_c__ww_steps__desk__Desk_Destruct__drop

	.section	.text.std_alloc__arc__Arc__drop____93a448bb48b6d052_,"ax",@progbits
	.p2align	4
	.type	std_alloc__arc__Arc__drop____93a448bb48b6d052_,@function
std_alloc__arc__Arc__drop____93a448bb48b6d052_:
	#APP
	#NO_APP
	lock		decq	(%rdi)
	#APP
	#NO_APP
	jne	.LBB2_10
	pushq	%rbp
	pushq	%r15
	pushq	%r14
	pushq	%r13
	pushq	%r12
	pushq	%rbx
	pushq	%rax
	movq	16(%rdi), %r15
	movq	32(%rdi), %r12
	movq	40(%rdi), %r14
	movq	56(%rdi), %rax
	movq	%rax, (%rsp)
	callq	rattle_dealloc@PLT
	testq	%r12, %r12
	je	.LBB2_9
	xorl	%r13d, %r13d
	jmp	.LBB2_3
	.p2align	4
.LBB2_8:
	incq	%r13
	cmpq	%r12, %r13
	je	.LBB2_9
.LBB2_3:
	leaq	(,%r13,8), %rax
	leaq	(%rax,%rax,4), %rax
	cmpb	$0, (%r15,%rax)
	jne	.LBB2_8
	cmpb	$0, 8(%r15,%rax)
	je	.LBB2_8
	movq	32(%r15,%rax), %rbp
	testq	%rbp, %rbp
	je	.LBB2_8
	movq	16(%r15,%rax), %rdi
	.p2align	4
.LBB2_7:
	movq	(%rdi), %rbx
	callq	rattle_dealloc@PLT
	movq	%rbx, %rdi
	decq	%rbp
	jne	.LBB2_7
	jmp	.LBB2_8
.LBB2_10:
	retq
.LBB2_9:
	movq	%r14, %rdi
	callq	rattle_dealloc@PLT
	movq	(%rsp), %rdi
	addq	$8, %rsp
	popq	%rbx
	popq	%r12
	popq	%r13
	popq	%r14
	popq	%r15
	popq	%rbp
	jmp	rattle_dealloc@PLT
.Lfunc_end2:
	.size	std_alloc__arc__Arc__drop____93a448bb48b6d052_, .Lfunc_end2-std_alloc__arc__Arc__drop____93a448bb48b6d052_

	.section	.text.unlikely.ww_c__exports__end_anyhow,"ax",@progbits
	.p2align	4
	.type	ww_c__exports__end_anyhow,@function
ww_c__exports__end_anyhow:
	cmpl	$0, 8(%rdi)
	je	.LBB3_1
	movq	$1, 8(%rdi)
	movq	(%rdi), %rcx
	movl	$-16, %eax
	cmpb	$0, 420(%rcx)
	je	.LBB3_4
.LBB3_2:
	retq
.LBB3_4:
	cmpq	$0, 40(%rcx)
	je	.LBB3_1
	cmpl	$0, 400(%rcx)
	movl	$-22, %eax
	jne	.LBB3_2
	movq	(%rcx), %rax
	movq	32(%rcx), %rdx
	movq	8(%rax), %rsi
	#APP
	#NO_APP
	movq	(%rsi,%rdx,8), %rdx
	#APP
	#NO_APP
	testq	%rdx, %rdx
	je	.LBB3_8
	movq	32(%rcx), %rdx
	movq	8(%rax), %rsi
	#APP
	#NO_APP
	xorl	%r8d, %r8d
	xchgq	%r8, (%rsi,%rdx,8)
	#APP
	#NO_APP
	movq	8(%rax), %rax
	movq	32(%rcx), %rdx
	#APP
	#NO_APP
	movq	(%rax,%rdx,8), %rax
	#APP
	#NO_APP
	testq	%rax, %rax
	jne	.LBB3_9
.LBB3_8:
	movq	$0, 40(%rcx)
	movq	48(%rcx), %rax
	movq	%rax, 64(%rcx)
.LBB3_9:
	movb	$0, 408(%rcx)
	movq	$0, 412(%rcx)
	xorl	%eax, %eax
	cmpq	$0, 432(%rcx)
	je	.LBB3_2
	movl	$2, 8(%rdi)
	retq
.LBB3_1:
	movl	$-22, %eax
	retq
.Lfunc_end3:
	.size	ww_c__exports__end_anyhow, .Lfunc_end3-ww_c__exports__end_anyhow

	.section	.text.ww_steps__station__Station__look,"ax",@progbits
	.p2align	4
	.type	ww_steps__station__Station__look,@function
ww_steps__station__Station__look:
	pushq	%rbp
	pushq	%r15
	pushq	%r14
	pushq	%r13
	pushq	%r12
	pushq	%rbx
	subq	$248, %rsp
	movl	%r8d, %r12d
	movl	%ecx, 64(%rsp)
	movl	%edx, %r11d
	movq	%rsi, %r14
	movq	%rdi, %r10
	movq	(%rsi), %rdi
	leaq	8(%rdi), %rbx
	movl	400(%rsi), %edx
	movq	440(%rsi), %r8
	movq	8(%rdi), %rax
	cmpl	$65, 76(%rdi)
	setb	%cl
	movl	%r11d, %r9d
	addb	%cl, %cl
	incb	%cl
	movq	%r9, %rsi
	shlq	%cl, %rsi
	#APP
	#NO_APP
	movq	128(%rax,%rsi,8), %rax
	#APP
	#NO_APP
	movl	%eax, %r15d
	andb	$7, %r15b
	movl	%eax, %r13d
	shrl	$3, %r13d
	cmpb	$5, %r15b
	movq	%rdi, 16(%rsp)
	movq	%rbx, 80(%rsp)
	ja	.LBB4_9
	movl	%eax, %ecx
	andl	$7, %ecx
	movl	$43, %esi
	btl	%ecx, %esi
	jae	.LBB4_9
	xorl	%ecx, %ecx
	andl	$31, %r13d
	setne	%cl
	movl	%r13d, %esi
	subl	%ecx, %esi
	movq	%rax, %rbp
	shrq	$8, %rbp
	testl	%r13d, %r13d
	movl	%esi, %r13d
	je	.LBB4_5
	cmpw	$16, %r13w
	setb	%cl
	movq	%rax, %rsi
	shrq	$57, %rsi
	sete	%sil
	orb	%cl, %sil
	je	.LBB4_211
	cmpb	$2, %r15b
	jae	.LBB4_10
	jmp	.LBB4_12
.LBB4_5:
	testq	%rbp, %rbp
	jne	.LBB4_211
	cmpb	$1, %r15b
	ja	.LBB4_211
	cmpq	$8, %rax
	jae	.LBB4_211
	movl	%r12d, 12(%rsp)
	movq	%r8, 88(%rsp)
	xorl	%ebp, %ebp
	movb	$1, %bl
	jmp	.LBB4_18
.LBB4_9:
	andl	$4095, %r13d
	movq	%rax, %rbp
	shrq	$15, %rbp
	xorb	$7, %r15b
	cmpb	$2, %r15b
	jb	.LBB4_12
.LBB4_10:
	cmpb	$5, %r15b
	je	.LBB4_12
	movzbl	%r15b, %ecx
	cmpl	$3, %ecx
	jne	.LBB4_211
.LBB4_12:
	cmpw	$15, %r13w
	ja	.LBB4_14
	movzbl	%r15b, %ecx
	movswl	%r13w, %esi
	andl	$8191, %esi
	movq	%rbp, %rdi
	shlq	$8, %rdi
	orq	%rcx, %rdi
	leaq	(%rdi,%rsi,8), %rcx
	addq	$8, %rcx
	jmp	.LBB4_15
.LBB4_14:
	movl	%r15d, %ecx
	xorb	$7, %cl
	movzbl	%cl, %esi
	movzwl	%r13w, %ecx
	movq	%rbp, %rdi
	shlq	$15, %rdi
	leaq	(%rdi,%rcx,8), %rcx
	orq	%rsi, %rcx
.LBB4_15:
	cmpq	%rax, %rcx
	movq	16(%rsp), %rdi
	jne	.LBB4_211
	cmpw	10(%r14), %r13w
	jne	.LBB4_24
	movl	%r12d, 12(%rsp)
	movq	%r8, 88(%rsp)
	xorl	%ebx, %ebx
.LBB4_18:
	xorps	%xmm0, %xmm0
	movaps	%xmm0, 160(%rsp)
	movq	$0, 176(%rsp)
	movzbl	72(%rdi), %eax
	leal	64(%r11), %r12d
	movl	%r12d, %ecx
	cmpl	%eax, %r11d
	movq	%rcx, 72(%rsp)
	jae	.LBB4_26
	movaps	%xmm0, 128(%rsp)
	movq	$0, 144(%rsp)
	movaps	%xmm0, 96(%rsp)
	movaps	%xmm0, 112(%rsp)
	movaps	%xmm0, 192(%rsp)
	movaps	%xmm0, 208(%rsp)
	movq	336(%r14), %rax
	cmpl	%r12d, 68(%r14,%rax,4)
	jne	.LBB4_99
.LBB4_20:
	movq	16(%rdi), %rax
	leaq	(,%rcx,8), %rcx
	leaq	(%rcx,%rcx,4), %rdx
	cmpb	$0, (%rax,%rdx)
	jne	.LBB4_211
	movzwl	10(%r14), %ecx
	cmpb	$0, 8(%rax,%rdx)
	je	.LBB4_33
	movq	32(%rax,%rdx), %rsi
	testq	%rsi, %rsi
	je	.LBB4_33
	movq	16(%rax,%rdx), %rax
	cmpq	$1, %rsi
	setne	%sil
	cmpw	%cx, 16(%rax)
	setne	%dl
	orb	%sil, %dl
	testb	%bl, %bl
	jne	.LBB4_34
.LBB4_38:
	cmpw	$15, %r13w
	ja	.LBB4_41
	movzbl	%r15b, %eax
	movswl	%r13w, %esi
	andl	$8191, %esi
	shlq	$8, %rbp
	orq	%rax, %rbp
	leaq	8(,%rsi,8), %rax
	addq	%rbp, %rax
	movq	40(%r14), %rsi
	cmpw	$15, %cx
	ja	.LBB4_40
	jmp	.LBB4_42
.LBB4_24:
	movl	64(%rsp), %ecx
	testb	%cl, %cl
	je	.LBB4_31
	movb	%r15b, 72(%rsp)
	cmpb	$2, %cl
	sete	%sil
	testb	%r12b, %r12b
	jne	.LBB4_129
	jmp	.LBB4_137
.LBB4_26:
	movaps	%xmm0, 128(%rsp)
	movq	$0, 144(%rsp)
	movaps	%xmm0, 96(%rsp)
	movaps	%xmm0, 112(%rsp)
	movaps	%xmm0, 192(%rsp)
	movaps	%xmm0, 208(%rsp)
	movq	336(%r14), %rax
	cmpl	%r12d, 68(%r14,%rax,4)
	jne	.LBB4_100
.LBB4_27:
	movq	16(%rdi), %rax
	leaq	(,%rcx,8), %rcx
	leaq	(%rcx,%rcx,4), %rdx
	cmpb	$0, (%rax,%rdx)
	jne	.LBB4_211
	movzwl	10(%r14), %ecx
	cmpb	$0, 8(%rax,%rdx)
	je	.LBB4_35
	movq	32(%rax,%rdx), %rsi
	testq	%rsi, %rsi
	je	.LBB4_35
	movq	16(%rax,%rdx), %rax
	cmpq	$1, %rsi
	setne	%sil
	cmpw	%cx, 16(%rax)
	setne	%dl
	orb	%sil, %dl
	testb	%bl, %bl
	jne	.LBB4_36
.LBB4_47:
	cmpw	$15, %r13w
	ja	.LBB4_50
	movzbl	%r15b, %eax
	movswl	%r13w, %esi
	andl	$8191, %esi
	shlq	$8, %rbp
	orq	%rax, %rbp
	leaq	8(,%rsi,8), %rax
	addq	%rbp, %rax
	movq	40(%r14), %rsi
	cmpw	$15, %cx
	ja	.LBB4_49
	jmp	.LBB4_51
.LBB4_33:
	xorl	%edx, %edx
	testb	%bl, %bl
	je	.LBB4_38
.LBB4_34:
	movzbl	%r15b, %eax
	movq	40(%r14), %rsi
	cmpw	$15, %cx
	ja	.LBB4_40
.LBB4_42:
	movzbl	%dl, %edx
	leaq	8(,%rcx,8), %rcx
	shlq	$8, %rsi
	orq	%rdx, %rsi
	orq	%rcx, %rsi
	jmp	.LBB4_43
.LBB4_35:
	xorl	%edx, %edx
	testb	%bl, %bl
	je	.LBB4_47
.LBB4_36:
	movzbl	%r15b, %eax
	movq	40(%r14), %rsi
	cmpw	$15, %cx
	ja	.LBB4_49
.LBB4_51:
	movzbl	%dl, %edx
	leaq	8(,%rcx,8), %rcx
	shlq	$8, %rsi
	orq	%rdx, %rsi
	orq	%rcx, %rsi
	jmp	.LBB4_52
.LBB4_31:
	movl	%r15d, %ebx
	orb	$1, %bl
	cmpw	$15, %r13w
	movb	%bl, 72(%rsp)
	ja	.LBB4_56
	movzbl	%r15b, %eax
	movswl	%r13w, %ecx
	andl	$8191, %ecx
	movq	%rbp, %rsi
	shlq	$8, %rsi
	orq	%rsi, %rax
	leaq	(%rax,%rcx,8), %rax
	addq	$8, %rax
	movzbl	%bl, %edi
	leaq	(%rsi,%rcx,8), %rsi
	addq	$8, %rsi
	orq	%rdi, %rsi
	movq	16(%rsp), %rdi
	jmp	.LBB4_57
.LBB4_41:
	xorb	$7, %r15b
	movzbl	%r15b, %esi
	movzwl	%r13w, %eax
	shlq	$15, %rbp
	leaq	(,%rax,8), %rax
	addq	%rbp, %rax
	orq	%rsi, %rax
	movq	40(%r14), %rsi
	cmpw	$15, %cx
	jbe	.LBB4_42
.LBB4_40:
	xorb	$7, %dl
	movzbl	%dl, %edx
	shlq	$15, %rsi
	leaq	(%rdx,%rcx,8), %rcx
	addq	%rcx, %rsi
.LBB4_43:
	cmpl	$65, 76(%rdi)
	setb	%cl
	addb	%cl, %cl
	incb	%cl
	movq	%r9, %rdx
	shlq	%cl, %rdx
	movq	8(%rdi), %rcx
	#APP
	#NO_APP
	lock		cmpxchgq	%rsi, 128(%rcx,%rdx,8)
	#APP
	#NO_APP
	jne	.LBB4_55
	movq	336(%r14), %rax
	testq	%rax, %rax
	movq	%r9, 40(%rsp)
	movq	%r10, %r13
	je	.LBB4_79
	leaq	-1(%rax), %rcx
	movq	%rcx, 336(%r14)
	movl	$0, 68(%r14,%rax,4)
	movq	336(%r14), %rax
	jmp	.LBB4_80
.LBB4_50:
	xorb	$7, %r15b
	movzbl	%r15b, %esi
	movzwl	%r13w, %eax
	shlq	$15, %rbp
	leaq	(,%rax,8), %rax
	addq	%rbp, %rax
	orq	%rsi, %rax
	movq	40(%r14), %rsi
	cmpw	$15, %cx
	jbe	.LBB4_51
.LBB4_49:
	xorb	$7, %dl
	movzbl	%dl, %edx
	shlq	$15, %rsi
	leaq	(%rdx,%rcx,8), %rcx
	addq	%rcx, %rsi
.LBB4_52:
	cmpl	$65, 76(%rdi)
	setb	%cl
	addb	%cl, %cl
	incb	%cl
	movq	%r9, %rdx
	shlq	%cl, %rdx
	movq	8(%rdi), %rcx
	#APP
	#NO_APP
	lock		cmpxchgq	%rsi, 128(%rcx,%rdx,8)
	#APP
	#NO_APP
	jne	.LBB4_55
	movq	%r9, 40(%rsp)
	movq	%r11, %rbp
	movq	%r10, %r13
	movzbl	368(%r14), %eax
	movq	392(%r14), %rcx
	movq	%rcx, 144(%rsp)
	movups	376(%r14), %xmm0
	movaps	%xmm0, 128(%rsp)
	xorps	%xmm0, %xmm0
	movups	%xmm0, 384(%r14)
	movups	%xmm0, 368(%r14)
	movzwl	10(%r14), %ecx
	movq	%rax, 192(%rsp)
	movaps	128(%rsp), %xmm0
	movups	%xmm0, 200(%rsp)
	movq	144(%rsp), %rax
	movq	%rax, 216(%rsp)
	movq	16(%rdi), %rsi
	leaq	96(%rsp), %rdi
	leaq	192(%rsp), %r8
	movl	%r12d, %edx
	callq	ww_invariant__lists__leave_list
	movzbl	368(%r14), %eax
	movq	376(%r14), %rdi
	movq	392(%r14), %rbx
	movzbl	96(%rsp), %ecx
	movq	%rcx, 368(%r14)
	movups	104(%rsp), %xmm0
	movups	%xmm0, 376(%r14)
	movq	120(%rsp), %rcx
	movq	%rcx, 392(%r14)
	cmpb	$1, %al
	setne	%al
	testq	%rbx, %rbx
	sete	%cl
	orb	%al, %cl
	jne	.LBB4_82
	.p2align	4
.LBB4_54:
	movq	(%rdi), %r15
	callq	rattle_dealloc@PLT
	movq	%r15, %rdi
	decq	%rbx
	jne	.LBB4_54
	jmp	.LBB4_82
.LBB4_55:
	movl	64(%rsp), %eax
	movl	12(%rsp), %r12d
	jmp	.LBB4_201
.LBB4_56:
	xorb	$7, %r15b
	movzbl	%r15b, %eax
	movzwl	%r13w, %ecx
	movq	%rbp, %rsi
	shlq	$15, %rsi
	leaq	(%rsi,%rcx,8), %rcx
	orq	%rcx, %rax
	movl	%ebx, %esi
	xorb	$7, %sil
	movzbl	%sil, %esi
	orq	%rcx, %rsi
.LBB4_57:
	cmpl	$65, 76(%rdi)
	setb	%cl
	addb	%cl, %cl
	incb	%cl
	movq	%rdi, %rbx
	movq	%r9, %rdi
	shlq	%cl, %rdi
	movq	8(%rbx), %rcx
	#APP
	#NO_APP
	lock		cmpxchgq	%rsi, 128(%rcx,%rdi,8)
	#APP
	#NO_APP
	jne	.LBB4_78
	movl	%r12d, 12(%rsp)
	movq	%r8, 88(%rsp)
	xorl	%ebx, %ebx
	testl	%edx, %edx
	setne	55(%rsp)
	movzwl	10(%r14), %eax
	movq	%rax, 232(%rsp)
	movq	40(%r14), %r15
	movq	336(%r14), %rax
	leal	64(%r11), %r12d
	cmpl	%r12d, 68(%r14,%rax,4)
	jne	.LBB4_115
.LBB4_59:
	movzbl	368(%r14), %edx
	movq	376(%r14), %rax
	movq	384(%r14), %rcx
	movq	392(%r14), %rsi
	xorps	%xmm0, %xmm0
	movups	%xmm0, 368(%r14)
	movups	%xmm0, 384(%r14)
	cmpb	$1, %dl
	jne	.LBB4_211
	movq	16(%rsp), %rdx
	movq	16(%rdx), %rdx
	movl	%r12d, %edi
	leaq	(%rdi,%rdi,4), %rdi
	cmpb	$0, (%rdx,%rdi,8)
	jne	.LBB4_211
	movq	%rax, 152(%rsp)
	testq	%rsi, %rsi
	movq	88(%rsp), %r8
	movl	12(%rsp), %r12d
	je	.LBB4_211
	movzbl	55(%rsp), %eax
	movb	%al, %bl
	leaq	(%rdx,%rdi,8), %rdx
	movq	232(%rsp), %rdi
	movq	152(%rsp), %rax
	movq	%rdi, 16(%rax)
	movq	%r15, 24(%rax)
	movq	%rbx, 32(%rax)
	cmpb	$0, 8(%rdx)
	je	.LBB4_98
	movq	%r9, 40(%rsp)
	movq	32(%rdx), %rbx
	testq	%rbx, %rbx
	movq	%rcx, %rax
	movq	%r10, 32(%rsp)
	movq	%r11, 56(%rsp)
	je	.LBB4_103
	movq	%rbx, %r9
	testq	%r15, %r15
	movq	%rsi, %rcx
	je	.LBB4_69
	leaq	16(%rdx), %rdi
	xorl	%r9d, %r9d
	.p2align	4
.LBB4_66:
	movq	(%rdi), %rdi
	cmpq	24(%rdi), %r15
	jb	.LBB4_69
	incq	%r9
	cmpq	%r9, %rbx
	jne	.LBB4_66
	movq	%rbx, %r9
.LBB4_69:
	movq	%rbx, %rdi
	subq	%r9, %rdi
	cmpq	%rdi, %r9
	jae	.LBB4_105
	testq	%r9, %r9
	je	.LBB4_113
	movq	16(%rdx), %rdi
	decq	%rbx
	movq	%rbx, 32(%rdx)
	movq	(%rdi), %r10
	movq	%r10, 16(%rdx)
	movq	%rdi, (%rdi)
	movq	%rdi, 8(%rdi)
	movq	%rdi, %r15
	cmpq	$1, %r9
	je	.LBB4_77
	movq	%rdi, %r15
	cmpq	$2, %r9
	je	.LBB4_76
	leaq	-1(%r9), %r10
	movq	%r10, %r11
	andq	$-2, %r11
	movq	%rdi, %r15
.LBB4_74:
	movq	16(%rdx), %rbx
	decq	32(%rdx)
	movq	(%rbx), %r12
	movq	%r12, 16(%rdx)
	movq	%rbx, (%rbx)
	movq	%r15, 8(%rbx)
	movq	%rbx, (%r15)
	movq	16(%rdx), %r15
	decq	32(%rdx)
	movq	(%r15), %r12
	movq	%r12, 16(%rdx)
	movq	%r15, (%r15)
	movq	%rbx, 8(%r15)
	movq	%r15, (%rbx)
	addq	$-2, %r11
	jne	.LBB4_74
	testb	$1, %r10b
	movq	88(%rsp), %r8
	movl	12(%rsp), %r12d
	je	.LBB4_77
.LBB4_76:
	movq	16(%rdx), %r10
	decq	32(%rdx)
	movq	(%r10), %r11
	movq	%r11, 16(%rdx)
	movq	%r10, (%r10)
	movq	%r15, 8(%r10)
	movq	%r10, (%r15)
	movq	%r10, %r15
.LBB4_77:
	movq	32(%rdx), %rbx
	jmp	.LBB4_114
.LBB4_78:
	xorl	%eax, %eax
	jmp	.LBB4_201
.LBB4_79:
	xorl	%eax, %eax
.LBB4_80:
	movq	%r11, %rbp
	movl	%r11d, 72(%r14,%rax,4)
	movl	%r12d, 76(%r14,%rax,4)
	addq	$2, %rax
	movq	%rax, 336(%r14)
	movzbl	368(%r14), %eax
	movq	392(%r14), %rcx
	movq	%rcx, 144(%rsp)
	movups	376(%r14), %xmm0
	movaps	%xmm0, 128(%rsp)
	xorps	%xmm0, %xmm0
	movups	%xmm0, 384(%r14)
	movups	%xmm0, 368(%r14)
	movzwl	10(%r14), %ecx
	movq	%rax, 192(%rsp)
	movaps	128(%rsp), %xmm0
	movups	%xmm0, 200(%rsp)
	movq	144(%rsp), %rax
	movq	%rax, 216(%rsp)
	movq	16(%rdi), %rsi
	leaq	96(%rsp), %rdi
	leaq	192(%rsp), %r8
	movl	%r12d, %edx
	callq	ww_invariant__lists__leave_list
	movzbl	368(%r14), %eax
	movq	376(%r14), %rdi
	movq	392(%r14), %rbx
	movzbl	96(%rsp), %ecx
	movq	%rcx, 368(%r14)
	movups	104(%rsp), %xmm0
	movups	%xmm0, 376(%r14)
	movq	120(%rsp), %rcx
	movq	%rcx, 392(%r14)
	cmpb	$1, %al
	setne	%al
	testq	%rbx, %rbx
	sete	%cl
	orb	%al, %cl
	jne	.LBB4_82
	.p2align	4
.LBB4_81:
	movq	(%rdi), %r15
	callq	rattle_dealloc@PLT
	movq	%r15, %rdi
	decq	%rbx
	jne	.LBB4_81
.LBB4_82:
	movq	%rbp, %rdx
	movq	336(%r14), %rax
	cmpl	%r12d, 68(%r14,%rax,4)
	movq	16(%rsp), %rax
	movq	80(%rsp), %rbx
	leaq	8(%r14), %rdi
	jne	.LBB4_101
.LBB4_83:
	movq	16(%rax), %rax
	movq	72(%rsp), %rcx
	shlq	$3, %rcx
	leaq	(%rcx,%rcx,4), %rcx
	cmpb	$0, (%rax,%rcx)
	jne	.LBB4_211
	cmpb	$0, 8(%rax,%rcx)
	je	.LBB4_86
	cmpq	$0, 32(%rax,%rcx)
	setne	%al
	jmp	.LBB4_87
.LBB4_86:
	xorl	%eax, %eax
.LBB4_87:
	movzwl	10(%r14), %ecx
	movq	40(%r14), %rsi
	movw	$1, 160(%rsp)
	movw	%cx, 162(%rsp)
	movq	%rsi, 168(%rsp)
	movb	%al, 176(%rsp)
	leaq	160(%rsp), %rcx
	movq	%rbx, %rsi
	movq	%rdx, %r15
	movq	88(%rsp), %r8
	callq	ww_seat__signs__sign_all
	cmpb	$0, 8(%r14)
	je	.LBB4_91
	cmpq	$0, 40(%r14)
	je	.LBB4_91
	movq	32(%r14), %rax
	movq	(%rbx), %rcx
	#APP
	#NO_APP
	movq	(%rcx,%rax,8), %rax
	#APP
	#NO_APP
	testq	%rax, %rax
	je	.LBB4_91
	movq	32(%r14), %rax
	movq	(%rbx), %rcx
	#APP
	#NO_APP
	xorl	%edx, %edx
	xchgq	%rdx, (%rcx,%rax,8)
	#APP
	#NO_APP
.LBB4_91:
	movq	336(%r14), %rax
	cmpl	%r12d, 68(%r14,%rax,4)
	movq	%r13, %r10
	movq	40(%rsp), %r8
	movq	16(%rsp), %rdi
	jne	.LBB4_102
.LBB4_92:
	cmpl	$65, 76(%rdi)
	setb	%cl
	addb	%cl, %cl
	incb	%cl
	movq	%r8, %rax
	shlq	%cl, %rax
	movq	8(%rdi), %rcx
	#APP
	#NO_APP
	xorl	%edx, %edx
	xchgq	%rdx, 136(%rcx,%rax,8)
	#APP
	#NO_APP
	movq	336(%r14), %rax
	testq	%rax, %rax
	je	.LBB4_94
	leaq	-1(%rax), %rcx
	movq	%rcx, 336(%r14)
	movl	$0, 68(%r14,%rax,4)
.LBB4_94:
	movzbl	72(%rdi), %eax
	movq	%r15, %rsi
	cmpl	%eax, %esi
	jae	.LBB4_97
	movq	336(%r14), %rax
	cmpl	%esi, 68(%r14,%rax,4)
	jne	.LBB4_112
	movq	16(%rdi), %rax
	leaq	(%r8,%r8,4), %rcx
	cmpb	$1, (%rax,%rcx,8)
	jne	.LBB4_211
.LBB4_97:
	incl	400(%r14)
	xorps	%xmm0, %xmm0
	movups	%xmm0, 412(%r14)
	movw	$0, 428(%r14)
	xorl	%r12d, %r12d
	xorl	%r15d, %r15d
	xorl	%eax, %eax
	jmp	.LBB4_204
.LBB4_98:
	movq	$1, 8(%rdx)
	movq	%rax, 16(%rdx)
	movq	%rcx, 24(%rdx)
	movq	%rsi, 32(%rdx)
	movq	16(%rsp), %rdi
	movq	80(%rsp), %rbx
	jmp	.LBB4_128
.LBB4_99:
	leaq	72(%r14), %rdi
	movl	%r12d, %esi
	movq	%r10, 32(%rsp)
	movq	%r11, 56(%rsp)
	movq	%r9, 40(%rsp)
	callq	ww_invariant__slots_out__turn_to
	movq	72(%rsp), %rcx
	movq	16(%rsp), %rdi
	movq	40(%rsp), %r9
	movq	56(%rsp), %r11
	movq	32(%rsp), %r10
	jmp	.LBB4_20
.LBB4_100:
	leaq	72(%r14), %rdi
	movl	%r12d, %esi
	movq	%r10, 32(%rsp)
	movq	%r11, 56(%rsp)
	movq	%r9, 40(%rsp)
	callq	ww_invariant__slots_out__turn_to
	movq	72(%rsp), %rcx
	movq	16(%rsp), %rdi
	movq	40(%rsp), %r9
	movq	56(%rsp), %r11
	movq	32(%rsp), %r10
	jmp	.LBB4_27
.LBB4_101:
	leaq	72(%r14), %rdi
	movl	%r12d, %esi
	movq	%rdx, %rbx
	callq	ww_invariant__slots_out__turn_to
	leaq	8(%r14), %rdi
	movq	16(%rsp), %rax
	movq	%rbx, %rdx
	movq	80(%rsp), %rbx
	jmp	.LBB4_83
.LBB4_102:
	leaq	72(%r14), %rdi
	movl	%r12d, %esi
	movq	%r10, %rbx
	movq	%r8, %r12
	callq	ww_invariant__slots_out__turn_to
	movq	16(%rsp), %rdi
	movq	%r12, %r8
	movq	%rbx, %r10
	jmp	.LBB4_92
.LBB4_103:
	testq	%rsi, %rsi
	js	.LBB4_211
	movq	%rsi, %rcx
	leaq	31(%rsp), %r11
	xorl	%edi, %edi
	movq	%r11, %r10
	movq	80(%rsp), %rbx
	jmp	.LBB4_121
.LBB4_105:
	leaq	31(%rsp), %r11
	movq	%r11, %r10
	cmpq	%r9, %rbx
	je	.LBB4_117
	movq	24(%rdx), %r10
	leaq	-1(%rbx), %r11
	movq	%r11, 32(%rdx)
	movq	8(%r10), %r11
	movq	%r11, 24(%rdx)
	movq	%r10, (%r10)
	movq	%r10, 8(%r10)
	cmpq	$2, %rdi
	jb	.LBB4_116
	leaq	-2(%rbx), %r15
	movq	%r10, %r11
	cmpq	%r9, %r15
	je	.LBB4_111
	notq	%r9
	addq	%r9, %rbx
	movq	%rbx, %r9
	andq	$-2, %r9
	movq	%r10, %r11
.LBB4_109:
	movq	24(%rdx), %r15
	decq	32(%rdx)
	movq	8(%r15), %r12
	movq	%r12, 24(%rdx)
	movq	%r11, (%r15)
	movq	%r15, 8(%r15)
	movq	%r15, 8(%r11)
	movq	24(%rdx), %r11
	decq	32(%rdx)
	movq	8(%r11), %r12
	movq	%r12, 24(%rdx)
	movq	%r15, (%r11)
	movq	%r11, 8(%r11)
	movq	%r11, 8(%r15)
	addq	$-2, %r9
	jne	.LBB4_109
	testb	$1, %bl
	movq	88(%rsp), %r8
	movl	12(%rsp), %r12d
	je	.LBB4_117
.LBB4_111:
	movq	24(%rdx), %r9
	decq	32(%rdx)
	movq	8(%r9), %rbx
	movq	%rbx, 24(%rdx)
	movq	%r11, (%r9)
	movq	%r9, 8(%r9)
	movq	%r9, 8(%r11)
	movq	%r9, %r11
	jmp	.LBB4_117
.LBB4_112:
	leaq	72(%r14), %rdi
	movq	%r10, %rbx
	movq	%r8, %r15
	callq	ww_invariant__slots_out__turn_to
	movq	16(%rsp), %rdi
	movq	%r15, %r8
	movq	%rbx, %r10
	movq	16(%rdi), %rax
	leaq	(%r8,%r8,4), %rcx
	cmpb	$1, (%rax,%rcx,8)
	je	.LBB4_97
	jmp	.LBB4_211
.LBB4_113:
	leaq	31(%rsp), %rdi
	movq	%rdi, %r15
.LBB4_114:
	movq	16(%rdx), %r11
	movq	24(%rdx), %r10
	movq	%rdi, 16(%rdx)
	movq	%r15, 24(%rdx)
	movq	%r9, 32(%rdx)
	movq	%rbx, %rdi
	jmp	.LBB4_118
.LBB4_115:
	leaq	72(%r14), %rdi
	movl	%r12d, %esi
	movq	%r10, 32(%rsp)
	movq	%r11, 56(%rsp)
	movq	%r9, 40(%rsp)
	callq	ww_invariant__slots_out__turn_to
	movq	40(%rsp), %r9
	movq	56(%rsp), %r11
	movq	32(%rsp), %r10
	jmp	.LBB4_59
.LBB4_116:
	movq	%r10, %r11
.LBB4_117:
	movq	32(%rdx), %r9
.LBB4_118:
	movq	%r9, %rbx
	addq	%rcx, %rbx
	js	.LBB4_211
	testq	%r9, %r9
	movq	80(%rsp), %rbx
	je	.LBB4_121
	movq	24(%rdx), %r9
	movq	152(%rsp), %rsi
	movq	%rsi, (%r9)
	movq	%r9, 8(%rsi)
	movq	%rax, 24(%rdx)
	addq	32(%rdx), %rcx
	jmp	.LBB4_122
.LBB4_121:
	movq	152(%rsp), %rsi
	movq	%rsi, 16(%rdx)
	movq	%rax, 24(%rdx)
.LBB4_122:
	movq	%rcx, 32(%rdx)
	movq	40(%rsp), %r9
	movq	%rcx, %rsi
	addq	%rdi, %rsi
	js	.LBB4_211
	testq	%rdi, %rdi
	je	.LBB4_127
	testq	%rcx, %rcx
	je	.LBB4_126
	movq	%r11, (%rax)
	movq	%rax, 8(%r11)
	movq	%r10, 24(%rdx)
	addq	%rdi, 32(%rdx)
	jmp	.LBB4_127
.LBB4_126:
	movq	%r11, 16(%rdx)
	movq	%r10, 24(%rdx)
	movq	%rdi, 32(%rdx)
.LBB4_127:
	movq	32(%rsp), %r10
	movq	56(%rsp), %r11
	movq	16(%rsp), %rdi
.LBB4_128:
	movl	64(%rsp), %ecx
	cmpb	$2, %cl
	sete	%sil
	testb	%r12b, %r12b
	je	.LBB4_137
.LBB4_129:
	movzwl	10(%r14), %eax
	movl	12(%r14), %edx
	cmpq	$65, %rdx
	setb	%cl
	addb	%cl, %cl
	incb	%cl
	shlq	%cl, %rdx
	movl	64(%rsp), %ecx
	shll	$6, %eax
	addq	(%rbx), %rax
	#APP
	#NO_APP
	xorl	%r15d, %r15d
	xchgq	%r15, 136(%rax,%rdx,8)
	#APP
	#NO_APP
	testq	%r15, %r15
	je	.LBB4_137
	xorps	%xmm0, %xmm0
	movaps	%xmm0, 128(%rsp)
	movq	$0, 144(%rsp)
	movaps	%xmm0, 96(%rsp)
	movaps	%xmm0, 112(%rsp)
	movaps	%xmm0, 192(%rsp)
	movaps	%xmm0, 208(%rsp)
	addl	$64, %r11d
	movq	336(%r14), %rax
	cmpl	%r11d, 68(%r14,%rax,4)
	jne	.LBB4_205
.LBB4_131:
	movq	16(%rdi), %rax
	movl	%r11d, %ecx
	shlq	$3, %rcx
	leaq	(%rcx,%rcx,4), %rdx
	cmpb	$0, (%rax,%rdx)
	jne	.LBB4_211
	cmpb	$0, 8(%rax,%rdx)
	movzbl	72(%rsp), %r8d
	je	.LBB4_160
	movq	32(%rax,%rdx), %rsi
	xorl	%ecx, %ecx
	testq	%rsi, %rsi
	je	.LBB4_135
	movzwl	10(%r14), %edi
	movq	16(%rax,%rdx), %rax
	cmpw	%di, 16(%rax)
	movq	16(%rsp), %rdi
	movzbl	%r8b, %eax
	cmovnel	%eax, %ecx
	cmpq	$1, %rsi
	cmovnel	%eax, %ecx
.LBB4_135:
	movq	%r11, 56(%rsp)
	cmpw	$15, %r13w
	movq	%r10, 32(%rsp)
	ja	.LBB4_161
.LBB4_136:
	movzbl	%r8b, %eax
	movswl	%r13w, %edx
	leal	8(,%rdx,8), %edx
	movzwl	%dx, %edx
	shlq	$8, %rbp
	orq	%rdx, %rbp
	orq	%rbp, %rax
	movzbl	%cl, %edx
	orq	%rbp, %rdx
	jmp	.LBB4_162
.LBB4_137:
	movq	%rbp, 64(%rsp)
	xorps	%xmm0, %xmm0
	movaps	%xmm0, 160(%rsp)
	movq	$0, 176(%rsp)
	cmpb	$2, %cl
	jne	.LBB4_146
	movzbl	72(%rsp), %ebp
	cmpb	$1, %bpl
	jne	.LBB4_147
	movl	%r12d, %edx
	movq	%r8, %r15
	leal	64(%r11), %r12d
	movq	336(%r14), %rax
	cmpl	%r12d, 68(%r14,%rax,4)
	jne	.LBB4_207
.LBB4_140:
	movq	16(%rdi), %rax
	movl	%r12d, %ecx
	shlq	$3, %rcx
	leaq	(%rcx,%rcx,4), %rcx
	cmpb	$0, (%rax,%rcx)
	jne	.LBB4_211
	cmpb	$0, 8(%rax,%rcx)
	movl	%edx, %r12d
	je	.LBB4_200
	cmpq	$0, 32(%rax,%rcx)
	je	.LBB4_200
	movq	%r15, %r8
	movq	16(%rax,%rcx), %rax
	movzwl	16(%rax), %eax
	movb	$1, %bpl
	cmpw	10(%r14), %ax
	jne	.LBB4_147
	movl	%esi, %r15d
	cmpw	$15, %r13w
	ja	.LBB4_198
	movswl	%r13w, %eax
	leal	8(,%rax,8), %eax
	movzwl	%ax, %ecx
	movq	64(%rsp), %rdx
	shlq	$8, %rdx
	leaq	(%rdx,%rcx), %rax
	incq	%rax
	addq	%rcx, %rdx
	addq	$3, %rdx
	jmp	.LBB4_199
.LBB4_146:
	movzbl	72(%rsp), %ebp
.LBB4_147:
	movb	%sil, 88(%rsp)
	movl	%r12d, 12(%rsp)
	movq	%r9, 40(%rsp)
	movq	%r10, 32(%rsp)
	movw	$1, 160(%rsp)
	movw	%r13w, 162(%rsp)
	movq	%rbx, %r12
	movq	64(%rsp), %rbx
	movq	%rbx, 168(%rsp)
	movb	%bpl, 176(%rsp)
	leaq	160(%rsp), %rcx
	leaq	8(%r14), %rdi
	movq	%rdi, 240(%rsp)
	movq	%r12, %rsi
	movl	%r11d, %edx
	movq	%r11, %r15
	callq	ww_seat__signs__sign_all
	movq	240(%rsp), %rdi
	xorps	%xmm0, %xmm0
	movaps	%xmm0, 96(%rsp)
	movq	$0, 112(%rsp)
	movw	$1, 96(%rsp)
	movw	%r13w, 98(%rsp)
	movq	%rbx, 104(%rsp)
	movb	%bpl, 72(%rsp)
	movb	%bpl, 112(%rsp)
	cmpb	$1, (%rdi)
	jne	.LBB4_150
	leaq	96(%rsp), %rcx
	movq	%r12, %rsi
	movq	%r15, %rbx
	movl	%r15d, %edx
	xorl	%r8d, %r8d
	callq	ww_table__seat__Stepper__must_die
	testb	%al, %al
	movl	12(%rsp), %r8d
	movq	32(%rsp), %r10
	movq	40(%rsp), %r9
	movq	16(%rsp), %rdi
	je	.LBB4_174
	movq	%rdx, %r12
	movq	$0, 152(%rsp)
	movq	64(%rsp), %rbp
	jmp	.LBB4_153
.LBB4_150:
	leaq	96(%rsp), %rcx
	movl	$1, %r8d
	movq	%r12, %rsi
	movq	%r15, %rbx
	movl	%r15d, %edx
	callq	ww_table__seat__Stepper__must_die
	cmpb	$1, %al
	jne	.LBB4_173
	movq	32(%r14), %rax
	movq	(%r12), %rcx
	#APP
	#NO_APP
	movq	(%rcx,%rax,8), %r12
	#APP
	#NO_APP
	testq	%r12, %r12
	movl	12(%rsp), %r8d
	movq	32(%rsp), %r10
	movq	40(%rsp), %r9
	movq	16(%rsp), %rdi
	je	.LBB4_174
	movzwl	162(%rsp), %r13d
	movq	168(%rsp), %rbp
	movzbl	176(%rsp), %eax
	movb	%al, 72(%rsp)
	cmpb	$0, 160(%rsp)
	sete	%al
	movq	%rax, 152(%rsp)
.LBB4_153:
	xorps	%xmm0, %xmm0
	movaps	%xmm0, 128(%rsp)
	movq	$0, 144(%rsp)
	movaps	%xmm0, 96(%rsp)
	movaps	%xmm0, 112(%rsp)
	movaps	%xmm0, 192(%rsp)
	movaps	%xmm0, 208(%rsp)
	movq	%rbx, %r11
	leal	64(%rbx), %edx
	movq	336(%r14), %rax
	cmpl	%edx, 68(%r14,%rax,4)
	jne	.LBB4_209
.LBB4_154:
	movq	16(%rdi), %rax
	movl	%edx, %ecx
	shlq	$3, %rcx
	leaq	(%rcx,%rcx,4), %rbx
	cmpb	$0, (%rax,%rbx)
	jne	.LBB4_211
	cmpb	$0, 8(%rax,%rbx)
	movzbl	72(%rsp), %r15d
	je	.LBB4_182
	movq	32(%rax,%rbx), %rsi
	xorl	%ecx, %ecx
	testq	%rsi, %rsi
	je	.LBB4_158
	movzwl	10(%r14), %edi
	movq	16(%rax,%rbx), %rax
	cmpw	%di, 16(%rax)
	movq	16(%rsp), %rdi
	movzbl	%r15b, %eax
	cmovnel	%eax, %ecx
	cmpq	$1, %rsi
	cmovnel	%eax, %ecx
.LBB4_158:
	cmpb	$0, 152(%rsp)
	je	.LBB4_183
.LBB4_159:
	movzbl	%r15b, %eax
	movzbl	%cl, %ebx
	jmp	.LBB4_186
.LBB4_160:
	xorl	%ecx, %ecx
	movq	%r11, 56(%rsp)
	cmpw	$15, %r13w
	movq	%r10, 32(%rsp)
	jbe	.LBB4_136
.LBB4_161:
	xorb	$7, %r8b
	movzbl	%r8b, %eax
	movzwl	%r13w, %edx
	shlq	$15, %rbp
	leaq	(,%rdx,8), %rsi
	addq	%rbp, %rsi
	orq	%rsi, %rax
	xorb	$7, %cl
	movzbl	%cl, %edx
	orq	%rsi, %rdx
.LBB4_162:
	cmpl	$65, 76(%rdi)
	setb	%cl
	addb	%cl, %cl
	incb	%cl
	movq	%r9, %r13
	movq	%r9, %rsi
	shlq	%cl, %rsi
	movq	8(%rdi), %rcx
	#APP
	#NO_APP
	lock		cmpxchgq	%rdx, 128(%rcx,%rsi,8)
	#APP
	#NO_APP
	jne	.LBB4_165
	movzbl	368(%r14), %eax
	movq	392(%r14), %rcx
	movq	%rcx, 144(%rsp)
	movups	376(%r14), %xmm0
	movaps	%xmm0, 128(%rsp)
	xorps	%xmm0, %xmm0
	movups	%xmm0, 384(%r14)
	movups	%xmm0, 368(%r14)
	movzwl	10(%r14), %ecx
	movq	%rax, 192(%rsp)
	movaps	128(%rsp), %xmm0
	movups	%xmm0, 200(%rsp)
	movq	144(%rsp), %rax
	movq	%rax, 216(%rsp)
	movq	16(%rsp), %rax
	movq	16(%rax), %rsi
	leaq	96(%rsp), %rdi
	leaq	192(%rsp), %r8
	movq	56(%rsp), %rdx
	callq	ww_invariant__lists__leave_list
	movzbl	368(%r14), %eax
	movq	376(%r14), %rdi
	movq	392(%r14), %rbx
	movzbl	96(%rsp), %ecx
	movq	%rcx, 368(%r14)
	movups	104(%rsp), %xmm0
	movups	%xmm0, 376(%r14)
	movq	120(%rsp), %rcx
	movq	%rcx, 392(%r14)
	cmpb	$1, %al
	setne	%al
	testq	%rbx, %rbx
	sete	%cl
	orb	%al, %cl
	jne	.LBB4_165
	.p2align	4
.LBB4_164:
	movq	(%rdi), %r12
	callq	rattle_dealloc@PLT
	movq	%r12, %rdi
	decq	%rbx
	jne	.LBB4_164
.LBB4_165:
	leaq	8(%r14), %rax
	cmpb	$0, (%rax)
	movq	80(%rsp), %rdx
	je	.LBB4_169
	cmpq	$0, 40(%r14)
	je	.LBB4_169
	movq	32(%r14), %rax
	movq	(%rdx), %rcx
	#APP
	#NO_APP
	movq	(%rcx,%rax,8), %rax
	#APP
	#NO_APP
	testq	%rax, %rax
	je	.LBB4_169
	movq	32(%r14), %rax
	movq	(%rdx), %rcx
	#APP
	#NO_APP
	xorl	%edx, %edx
	xchgq	%rdx, (%rcx,%rax,8)
	#APP
	#NO_APP
.LBB4_169:
	movq	336(%r14), %rax
	movq	56(%rsp), %rsi
	cmpl	%esi, 68(%r14,%rax,4)
	movq	32(%rsp), %r10
	movq	%r13, %rdx
	movq	16(%rsp), %rax
	jne	.LBB4_206
.LBB4_170:
	cmpl	$65, 76(%rax)
	setb	%cl
	addb	%cl, %cl
	incb	%cl
	shlq	%cl, %rdx
	movq	8(%rax), %rax
	#APP
	#NO_APP
	xorl	%ecx, %ecx
	xchgq	%rcx, 136(%rax,%rdx,8)
	#APP
	#NO_APP
	movq	336(%r14), %rax
	testq	%rax, %rax
	je	.LBB4_172
	leaq	-1(%rax), %rcx
	movq	%rcx, 336(%r14)
	movl	$0, 68(%r14,%rax,4)
.LBB4_172:
	decl	%r15d
	movw	$0, 428(%r14)
	movq	$0, 420(%r14)
	movw	$9, %ax
	xorl	%r12d, %r12d
	jmp	.LBB4_204
.LBB4_173:
	movl	12(%rsp), %r8d
	movq	32(%rsp), %r10
	movq	40(%rsp), %r9
	movq	16(%rsp), %rdi
.LBB4_174:
	leaq	8(%r14), %rax
	cmpb	$0, (%rax)
	je	.LBB4_178
	cmpq	$0, 40(%r14)
	je	.LBB4_178
	movq	32(%r14), %rax
	movq	80(%rsp), %rcx
	movq	(%rcx), %rcx
	#APP
	#NO_APP
	movq	(%rcx,%rax,8), %rax
	#APP
	#NO_APP
	testq	%rax, %rax
	je	.LBB4_178
	movq	32(%r14), %rax
	movq	80(%rsp), %rcx
	movq	(%rcx), %rcx
	#APP
	#NO_APP
	xorl	%edx, %edx
	xchgq	%rdx, (%rcx,%rax,8)
	#APP
	#NO_APP
.LBB4_178:
	leal	64(%rbx), %esi
	movq	336(%r14), %rax
	cmpl	%esi, 68(%r14,%rax,4)
	jne	.LBB4_208
.LBB4_179:
	cmpl	$65, 76(%rdi)
	setb	%cl
	addb	%cl, %cl
	incb	%cl
	shlq	%cl, %r9
	movq	8(%rdi), %rax
	#APP
	#NO_APP
	xorl	%ecx, %ecx
	xchgq	%rcx, 136(%rax,%r9,8)
	#APP
	#NO_APP
	movq	336(%r14), %rax
	testq	%rax, %rax
	je	.LBB4_181
	leaq	-1(%rax), %rcx
	movq	%rcx, 336(%r14)
	movl	$0, 68(%r14,%rax,4)
.LBB4_181:
	movl	$1, 420(%r14)
	movl	%ebx, 424(%r14)
	movb	$2, 428(%r14)
	movb	%r8b, 429(%r14)
	movw	$3, %ax
	jmp	.LBB4_202
.LBB4_182:
	xorl	%ecx, %ecx
	cmpb	$0, 152(%rsp)
	jne	.LBB4_159
.LBB4_183:
	cmpw	$16, %r13w
	jae	.LBB4_185
	movzbl	%r15b, %eax
	andl	$8191, %r13d
	shlq	$8, %rbp
	orq	%rbp, %rax
	leaq	(%rax,%r13,8), %rax
	addq	$8, %rax
	movzbl	%cl, %ecx
	leaq	8(,%r13,8), %rbx
	addq	%rbp, %rbx
	addq	%rcx, %rbx
	jmp	.LBB4_186
.LBB4_185:
	movb	$7, %bl
	movb	$7, %al
	subb	%r15b, %al
	movzbl	%al, %eax
	movzwl	%r13w, %esi
	shlq	$15, %rbp
	leaq	(,%rsi,8), %rsi
	addq	%rbp, %rsi
	addq	%rsi, %rax
	subb	%cl, %bl
	movzbl	%bl, %ebx
	addq	%rsi, %rbx
.LBB4_186:
	cmpl	$65, 76(%rdi)
	setb	%cl
	addb	%cl, %cl
	incb	%cl
	movq	%r9, %rsi
	shlq	%cl, %rsi
	movq	8(%rdi), %rcx
	#APP
	#NO_APP
	lock		cmpxchgq	%rbx, 128(%rcx,%rsi,8)
	#APP
	#NO_APP
	jne	.LBB4_197
	movq	%r11, %r13
	movzbl	368(%r14), %eax
	movq	392(%r14), %rcx
	movq	%rcx, 144(%rsp)
	movups	376(%r14), %xmm0
	movaps	%xmm0, 128(%rsp)
	xorps	%xmm0, %xmm0
	movups	%xmm0, 384(%r14)
	movups	%xmm0, 368(%r14)
	movzwl	10(%r14), %ecx
	movq	%rax, 192(%rsp)
	movaps	128(%rsp), %xmm0
	movups	%xmm0, 200(%rsp)
	movq	144(%rsp), %rax
	movq	%rax, 216(%rsp)
	movq	16(%rdi), %rsi
	leaq	96(%rsp), %rdi
	leaq	192(%rsp), %r8
	movl	%edx, %ebp
	callq	ww_invariant__lists__leave_list
	movzbl	368(%r14), %eax
	movq	376(%r14), %rdi
	movq	392(%r14), %rbx
	movzbl	96(%rsp), %ecx
	movq	%rcx, 368(%r14)
	movups	104(%rsp), %xmm0
	movups	%xmm0, 376(%r14)
	movq	120(%rsp), %rcx
	movq	%rcx, 392(%r14)
	cmpb	$1, %al
	setne	%al
	testq	%rbx, %rbx
	sete	%cl
	orb	%al, %cl
	jne	.LBB4_189
	.p2align	4
.LBB4_188:
	movq	(%rdi), %r15
	callq	rattle_dealloc@PLT
	movq	%r15, %rdi
	decq	%rbx
	jne	.LBB4_188
.LBB4_189:
	leaq	8(%r14), %rax
	cmpb	$0, (%rax)
	movq	32(%rsp), %r10
	movq	80(%rsp), %rdx
	je	.LBB4_193
	cmpq	$0, 40(%r14)
	je	.LBB4_193
	movq	32(%r14), %rax
	movq	(%rdx), %rcx
	#APP
	#NO_APP
	movq	(%rcx,%rax,8), %rax
	#APP
	#NO_APP
	testq	%rax, %rax
	je	.LBB4_193
	movq	32(%r14), %rax
	movq	(%rdx), %rcx
	#APP
	#NO_APP
	xorl	%edx, %edx
	xchgq	%rdx, (%rcx,%rax,8)
	#APP
	#NO_APP
.LBB4_193:
	movq	336(%r14), %rax
	cmpl	%ebp, 68(%r14,%rax,4)
	movq	%r13, %rdx
	movq	40(%rsp), %rdi
	movq	16(%rsp), %rax
	jne	.LBB4_210
.LBB4_194:
	cmpl	$65, 76(%rax)
	setb	%cl
	addb	%cl, %cl
	incb	%cl
	shlq	%cl, %rdi
	movq	8(%rax), %rax
	#APP
	#NO_APP
	xorl	%ecx, %ecx
	xchgq	%rcx, 136(%rax,%rdi,8)
	#APP
	#NO_APP
	movq	336(%r14), %rax
	testq	%rax, %rax
	je	.LBB4_196
	leaq	-1(%rax), %rcx
	movq	%rcx, 336(%r14)
	movl	$0, 68(%r14,%rax,4)
.LBB4_196:
	movl	$1, 412(%r14)
	movl	%edx, 416(%r14)
	movq	$0, 420(%r14)
	movw	$0, 428(%r14)
	movw	$8, %ax
	jmp	.LBB4_203
.LBB4_197:
	movl	%r8d, %r12d
	movzbl	88(%rsp), %esi
	jmp	.LBB4_200
.LBB4_198:
	movzwl	%r13w, %ecx
	movq	64(%rsp), %rdx
	shlq	$15, %rdx
	leaq	(%rdx,%rcx,8), %rax
	addq	$6, %rax
	leaq	(%rdx,%rcx,8), %rdx
	addq	$4, %rdx
.LBB4_199:
	cmpl	$65, 76(%rdi)
	setb	%cl
	addb	%cl, %cl
	incb	%cl
	movq	%r9, %rsi
	shlq	%cl, %rsi
	movq	8(%rdi), %rcx
	#APP
	#NO_APP
	lock		cmpxchgq	%rdx, 128(%rcx,%rsi,8)
	#APP
	#NO_APP
	movb	$3, %bpl
	movl	%r15d, %esi
	je	.LBB4_147
.LBB4_200:
	incb	%sil
	movl	%esi, %eax
.LBB4_201:
	movl	$2, 420(%r14)
	movl	%r11d, 424(%r14)
	movb	%al, 428(%r14)
	movb	%r12b, 429(%r14)
	movw	$1, %ax
.LBB4_202:
	xorl	%r12d, %r12d
.LBB4_203:
	xorl	%r15d, %r15d
.LBB4_204:
	movw	%ax, (%r10)
	movw	%r15w, 2(%r10)
	movq	%r12, 8(%r10)
	addq	$248, %rsp
	popq	%rbx
	popq	%r12
	popq	%r13
	popq	%r14
	popq	%r15
	popq	%rbp
	retq
.LBB4_205:
	leaq	72(%r14), %rdi
	movl	%r11d, %esi
	movq	%r10, %rbx
	movq	%r11, %r12
	movq	%r9, 40(%rsp)
	callq	ww_invariant__slots_out__turn_to
	movq	16(%rsp), %rdi
	movq	40(%rsp), %r9
	movq	%r12, %r11
	movq	%rbx, %r10
	jmp	.LBB4_131
.LBB4_206:
	leaq	72(%r14), %rdi
	movq	%r10, %rbx
	callq	ww_invariant__slots_out__turn_to
	movq	16(%rsp), %rax
	movq	%r13, %rdx
	movq	%rbx, %r10
	jmp	.LBB4_170
.LBB4_207:
	leaq	72(%r14), %rdi
	movl	%esi, %ebp
	movl	%r12d, %esi
	movl	%edx, 12(%rsp)
	movq	%r10, 32(%rsp)
	movq	%r11, 56(%rsp)
	movq	%r9, %rbx
	callq	ww_invariant__slots_out__turn_to
	movl	%ebp, %esi
	movq	16(%rsp), %rdi
	movq	%rbx, %r9
	movq	80(%rsp), %rbx
	movq	56(%rsp), %r11
	movq	32(%rsp), %r10
	movl	12(%rsp), %edx
	jmp	.LBB4_140
.LBB4_208:
	leaq	72(%r14), %rdi
	callq	ww_invariant__slots_out__turn_to
	movq	16(%rsp), %rdi
	movq	40(%rsp), %r9
	movq	32(%rsp), %r10
	movl	12(%rsp), %r8d
	jmp	.LBB4_179
.LBB4_209:
	leaq	72(%r14), %rdi
	movl	%edx, %esi
	movl	%edx, %r15d
	movq	%r11, %rbx
	callq	ww_invariant__slots_out__turn_to
	movq	16(%rsp), %rdi
	movq	40(%rsp), %r9
	movq	%rbx, %r11
	movl	%r15d, %edx
	movq	32(%rsp), %r10
	movl	12(%rsp), %r8d
	jmp	.LBB4_154
.LBB4_210:
	movl	%ebp, %esi
	leaq	72(%r14), %rdi
	callq	ww_invariant__slots_out__turn_to
	movq	16(%rsp), %rax
	movq	40(%rsp), %rdi
	movq	%r13, %rdx
	movq	32(%rsp), %r10
	jmp	.LBB4_194
.LBB4_211:
	ud2
.Lfunc_end4:
	.size	ww_steps__station__Station__look, .Lfunc_end4-ww_steps__station__Station__look

	.section	.text.unlikely.ww_invariant__slots_out__turn_to,"ax",@progbits
	.p2align	4
	.type	ww_invariant__slots_out__turn_to,@function
ww_invariant__slots_out__turn_to:
	movq	264(%rdi), %rax
	testq	%rax, %rax
	je	.LBB5_13
	movl	-4(%rdi,%rax,4), %r9d
	cmpl	%esi, %r9d
	je	.LBB5_13
	xorl	%ecx, %ecx
	movq	%rax, %rdx
	.p2align	4
.LBB5_4:
	testq	%rdx, %rdx
	je	.LBB5_12
	cmpq	$8, %rdx
	jae	.LBB5_7
	xorl	%r8d, %r8d
	jmp	.LBB5_11
	.p2align	4
.LBB5_7:
	movq	%rdx, %r8
	andq	$-8, %r8
	movd	%r9d, %xmm0
	pshufd	$0, %xmm0, %xmm0
	xorl	%r9d, %r9d
	.p2align	4
.LBB5_8:
	movdqa	%xmm0, %xmm1
	movups	(%rdi,%r9,4), %xmm2
	movups	16(%rdi,%r9,4), %xmm0
	shufps	$3, %xmm2, %xmm1
	shufps	$152, %xmm2, %xmm1
	shufps	$3, %xmm0, %xmm2
	shufps	$152, %xmm0, %xmm2
	movups	%xmm1, (%rdi,%r9,4)
	movups	%xmm2, 16(%rdi,%r9,4)
	addq	$8, %r9
	cmpq	%r9, %r8
	jne	.LBB5_8
	cmpq	%r8, %rdx
	je	.LBB5_12
	pshufd	$255, %xmm0, %xmm0
	movd	%xmm0, %r9d
	.p2align	4
.LBB5_11:
	movl	(%rdi,%r8,4), %r10d
	movl	%r9d, (%rdi,%r8,4)
	incq	%r8
	movl	%r10d, %r9d
	cmpq	%r8, %rdx
	jne	.LBB5_11
.LBB5_12:
	incq	%rcx
	cmpq	%rax, %rcx
	je	.LBB5_13
	movq	264(%rdi), %rdx
	movl	-4(%rdi,%rdx,4), %r9d
	cmpl	%esi, %r9d
	jne	.LBB5_4
.LBB5_13:
	retq
.Lfunc_end5:
	.size	ww_invariant__slots_out__turn_to, .Lfunc_end5-ww_invariant__slots_out__turn_to

	.section	.text.ww_invariant__lists__leave_list,"ax",@progbits
	.p2align	4
	.type	ww_invariant__lists__leave_list,@function
ww_invariant__lists__leave_list:
	pushq	%rbp
	pushq	%r15
	pushq	%r14
	pushq	%r13
	pushq	%r12
	pushq	%rbx
	pushq	%rax
	movl	%edx, %edx
	leaq	(%rdx,%rdx,4), %rdx
	cmpb	$0, (%rsi,%rdx,8)
	jne	.LBB6_35
	movq	%rdi, %rax
	movzbl	(%r8), %ebx
	movq	8(%r8), %rdi
	movq	16(%r8), %r12
	movq	24(%r8), %r14
	leaq	(%rsi,%rdx,8), %rsi
	cmpb	$0, 8(%rsi)
	je	.LBB6_44
	leaq	8(%rsi), %rdx
	movq	32(%rsi), %r10
	testq	%r10, %r10
	je	.LBB6_45
	leaq	16(%rsi), %r9
	xorl	%r8d, %r8d
	.p2align	4
.LBB6_4:
	movq	(%r9), %r9
	cmpw	%cx, 16(%r9)
	je	.LBB6_6
	incq	%r8
	cmpq	%r8, %r10
	jne	.LBB6_4
	jmp	.LBB6_44
.LBB6_45:
	xorps	%xmm0, %xmm0
	movups	%xmm0, 16(%rdx)
	movups	%xmm0, (%rdx)
	jmp	.LBB6_44
.LBB6_6:
	movq	%r10, %rcx
	subq	%r8, %rcx
	jbe	.LBB6_44
	cmpq	%rcx, %r8
	jae	.LBB6_18
	testq	%r8, %r8
	je	.LBB6_9
	movq	16(%rsi), %rcx
	decq	%r10
	movq	%r10, 32(%rsi)
	movq	(%rcx), %r9
	movq	%r9, 16(%rsi)
	movq	%rcx, (%rcx)
	movq	%rcx, 8(%rcx)
	movq	%rcx, %r11
	cmpq	$1, %r8
	je	.LBB6_16
	movq	%rcx, %r11
	cmpq	$2, %r8
	je	.LBB6_15
	leaq	-1(%r8), %r9
	movq	%r9, %r10
	andq	$-2, %r10
	movq	%rcx, %r11
	.p2align	4
.LBB6_13:
	movq	16(%rsi), %r15
	decq	32(%rsi)
	movq	(%r15), %r12
	movq	%r12, 16(%rsi)
	movq	%r15, (%r15)
	movq	%r11, 8(%r15)
	movq	%r15, (%r11)
	movq	16(%rsi), %r11
	decq	32(%rsi)
	movq	(%r11), %r12
	movq	%r12, 16(%rsi)
	movq	%r11, (%r11)
	movq	%r15, 8(%r11)
	movq	%r11, (%r15)
	addq	$-2, %r10
	jne	.LBB6_13
	testb	$1, %r9b
	je	.LBB6_16
.LBB6_15:
	movq	16(%rsi), %r9
	decq	32(%rsi)
	movq	(%r9), %r10
	movq	%r10, 16(%rsi)
	movq	%r9, (%r9)
	movq	%r11, 8(%r9)
	movq	%r9, (%r11)
	movq	%r9, %r11
.LBB6_16:
	movq	32(%rsi), %r10
	jmp	.LBB6_17
.LBB6_18:
	movq	24(%rsi), %r9
	leaq	-1(%r10), %r11
	movq	%r11, 32(%rsi)
	movq	8(%r9), %r11
	movq	%r11, 24(%rsi)
	movq	%r9, (%r9)
	movq	%r9, 8(%r9)
	cmpq	$2, %rcx
	jb	.LBB6_19
	leaq	-2(%r10), %r11
	movq	%r9, %r15
	cmpq	%r8, %r11
	je	.LBB6_24
	notq	%r8
	addq	%r10, %r8
	movq	%r8, %r10
	andq	$-2, %r10
	movq	%r9, %r15
	.p2align	4
.LBB6_22:
	movq	24(%rsi), %r11
	decq	32(%rsi)
	movq	8(%r11), %r12
	movq	%r12, 24(%rsi)
	movq	%r15, (%r11)
	movq	%r11, 8(%r11)
	movq	%r11, 8(%r15)
	movq	24(%rsi), %r15
	decq	32(%rsi)
	movq	8(%r15), %r12
	movq	%r12, 24(%rsi)
	movq	%r11, (%r15)
	movq	%r15, 8(%r15)
	movq	%r15, 8(%r11)
	addq	$-2, %r10
	jne	.LBB6_22
	testb	$1, %r8b
	je	.LBB6_25
.LBB6_24:
	movq	24(%rsi), %r8
	decq	32(%rsi)
	movq	8(%r8), %r10
	movq	%r10, 24(%rsi)
	movq	%r15, (%r8)
	movq	%r8, 8(%r8)
	movq	%r8, 8(%r15)
	movq	%r8, %r15
	jmp	.LBB6_25
.LBB6_19:
	leaq	7(%rsp), %r11
	xorl	%ecx, %ecx
	movq	%r9, %r15
	jmp	.LBB6_29
.LBB6_9:
	leaq	7(%rsp), %rcx
	movq	%rcx, %r11
.LBB6_17:
	movq	16(%rsi), %r15
	movq	24(%rsi), %r9
	movq	%rcx, 16(%rsi)
	movq	%r11, 24(%rsi)
	movq	%r8, 32(%rsi)
	movq	%r10, %rcx
.LBB6_25:
	leaq	-3(%rcx), %r8
	cmpq	$-3, %r8
	ja	.LBB6_27
	decq	%rcx
	movq	(%r15), %r11
	movq	%r15, (%r15)
	movq	%r15, 8(%r15)
	movq	%r15, %r12
	movq	%r9, %r8
	jmp	.LBB6_30
.LBB6_27:
	cmpq	$1, %rcx
	jne	.LBB6_34
	leaq	7(%rsp), %r11
	xorl	%ecx, %ecx
.LBB6_29:
	movq	%r9, %r12
	movq	%r11, %r8
.LBB6_30:
	movq	32(%rsi), %r10
	movq	%r10, %r9
	addq	%rcx, %r9
	js	.LBB6_35
	movq	%r11, %r9
	testq	%rcx, %rcx
	jne	.LBB6_32
	jmp	.LBB6_37
.LBB6_34:
	movq	8(%r9), %r12
	movq	%r9, (%r9)
	movq	%r9, 8(%r9)
	movq	32(%rsi), %r10
	movl	$1, %ecx
	movq	%r10, %r8
	incq	%r8
	movq	%r9, %r8
	js	.LBB6_35
.LBB6_32:
	testq	%r10, %r10
	je	.LBB6_33
	movq	24(%rsi), %r10
	movq	%r9, (%r10)
	movq	%r10, 8(%r9)
	movq	%r8, 24(%rsi)
	addq	32(%rsi), %rcx
	movq	%rcx, 32(%rsi)
	movq	%rcx, %r10
.LBB6_37:
	testq	%r10, %r10
	jne	.LBB6_39
	xorps	%xmm0, %xmm0
	movups	%xmm0, 16(%rdx)
	movups	%xmm0, (%rdx)
	jmp	.LBB6_39
.LBB6_33:
	movq	%r9, 16(%rsi)
	movq	%r8, 24(%rsi)
	movq	%rcx, 32(%rsi)
.LBB6_39:
	cmpb	$1, %bl
	setne	%cl
	testq	%r14, %r14
	sete	%dl
	orb	%cl, %dl
	movb	$1, %bl
	je	.LBB6_41
	movq	%r15, %rdi
	movl	$1, %r14d
	jmp	.LBB6_44
.LBB6_41:
	movq	%rax, %r13
	.p2align	4
.LBB6_42:
	movq	(%rdi), %rbp
	callq	rattle_dealloc@PLT
	movq	%rbp, %rdi
	decq	%r14
	jne	.LBB6_42
	movq	%r15, %rdi
	movl	$1, %r14d
	movq	%r13, %rax
.LBB6_44:
	movzbl	%bl, %ecx
	movq	%rcx, (%rax)
	movq	%rdi, 8(%rax)
	movq	%r12, 16(%rax)
	movq	%r14, 24(%rax)
	addq	$8, %rsp
	popq	%rbx
	popq	%r12
	popq	%r13
	popq	%r14
	popq	%r15
	popq	%rbp
	retq
.LBB6_35:
	ud2
.Lfunc_end6:
	.size	ww_invariant__lists__leave_list, .Lfunc_end6-ww_invariant__lists__leave_list

	.section	.text.ww_seat__signs__sign_all,"ax",@progbits
	.p2align	4
	.type	ww_seat__signs__sign_all,@function
ww_seat__signs__sign_all:
	pushq	%rbp
	pushq	%r15
	pushq	%r14
	pushq	%r13
	pushq	%r12
	pushq	%rbx
	subq	$1096, %rsp
	movq	%r8, 64(%rsp)
	movl	%edx, %r14d
	movq	%rsi, %rbp
	movq	%rdi, %r12
	movzbl	(%rcx), %r13d
	movzwl	2(%rcx), %eax
	movw	%ax, 14(%rsp)
	movq	8(%rcx), %rax
	movq	%rax, 40(%rsp)
	movzbl	16(%rcx), %ebx
	leaq	832(%rsp), %rdi
	xorl	%r15d, %r15d
	movl	$264, %edx
	xorl	%esi, %esi
	callq	memset@PLT
	movl	$0, 16(%rsp)
	movw	$0, 20(%rsp)
	xorps	%xmm0, %xmm0
	movaps	%xmm0, 320(%rsp)
	movaps	%xmm0, 336(%rsp)
	movaps	%xmm0, 352(%rsp)
	movaps	%xmm0, 368(%rsp)
	movaps	%xmm0, 384(%rsp)
	movaps	%xmm0, 400(%rsp)
	movaps	%xmm0, 416(%rsp)
	movaps	%xmm0, 432(%rsp)
	movaps	%xmm0, 448(%rsp)
	movaps	%xmm0, 464(%rsp)
	movaps	%xmm0, 480(%rsp)
	movaps	%xmm0, 496(%rsp)
	movaps	%xmm0, 512(%rsp)
	movaps	%xmm0, 528(%rsp)
	movaps	%xmm0, 544(%rsp)
	addl	$64, %r14d
	movq	%r14, 48(%rsp)
	leaq	(,%r14,8), %rax
	leaq	(%rax,%rax,4), %rax
	movq	%rax, 72(%rsp)
	movb	%r13b, 7(%rsp)
	movl	%r13d, %eax
	xorb	$1, %al
	andb	$4, %bl
	orb	%al, %bl
	sete	6(%rsp)
	movq	%rbp, 56(%rsp)
	jmp	.LBB7_1
	.p2align	4
.LBB7_53:
	cmpb	$0, 32(%rsp)
	je	.LBB7_54
.LBB7_1:
	movq	328(%r12), %rax
	movq	48(%rsp), %rcx
	cmpl	%ecx, 60(%r12,%rax,4)
	jne	.LBB7_2
	movq	8(%rbp), %rcx
	movq	72(%rsp), %rdx
	cmpb	$0, (%rcx,%rdx)
	jne	.LBB7_55
.LBB7_4:
	movzwl	2(%r12), %r14d
	cmpb	$0, 8(%rcx,%rdx)
	je	.LBB7_5
	cmpb	$0, (%r12)
	je	.LBB7_7
	movq	16(%rcx,%rdx), %rbp
	movq	32(%rcx,%rdx), %rbx
	leaq	568(%rsp), %rdi
	xorl	%r13d, %r13d
	movl	$264, %edx
	xorl	%esi, %esi
	callq	memset@PLT
	testq	%rbx, %rbx
	je	.LBB7_45
	movq	%rbx, %r10
	cmpb	$1, 7(%rsp)
	jne	.LBB7_20
	xorl	%r13d, %r13d
	xorl	%ecx, %ecx
	xorl	%eax, %eax
	xorl	%ebx, %ebx
	jmp	.LBB7_32
	.p2align	4
.LBB7_33:
	decq	%r15
	movq	24(%rdi), %rdx
.LBB7_44:
	testq	%rdx, %rdx
	setne	%sil
	testb	$1, %cl
	cmoveq	%rdx, %rax
	orb	%cl, %sil
	andb	$1, %sil
	incq	%rbx
	movl	%esi, %ecx
	cmpq	%rbx, %r10
	je	.LBB7_45
.LBB7_32:
	movq	%rbp, %rdi
	movq	(%rbp), %rbp
	testq	%r15, %r15
	jne	.LBB7_33
	movzwl	16(%rdi), %esi
	movq	24(%rdi), %rdx
	cmpw	%si, %r14w
	je	.LBB7_43
	xorl	%r15d, %r15d
	testq	%rdx, %rdx
	je	.LBB7_44
	testb	$1, 32(%rdi)
	je	.LBB7_44
	cmpw	%si, 14(%rsp)
	je	.LBB7_39
	movq	40(%rsp), %rdi
	testq	%rdi, %rdi
	setne	%r8b
	cmpq	%rdx, %rdi
	setb	%r9b
	testb	%r9b, %r8b
	jne	.LBB7_40
.LBB7_39:
	movq	%rax, %rdi
	testb	%cl, %cl
	je	.LBB7_43
.LBB7_40:
	cmpq	$16, %r13
	je	.LBB7_41
	movq	%r13, %r8
	shlq	$4, %r8
	movw	%si, 568(%rsp,%r8)
	movl	$0, 570(%rsp,%r8)
	movw	$0, 574(%rsp,%r8)
	movq	%rdi, 576(%rsp,%r8)
	incq	%r13
.LBB7_43:
	xorl	%r15d, %r15d
	jmp	.LBB7_44
	.p2align	4
.LBB7_5:
	movw	$0, 12(%rsp)
	movl	$0, 8(%rsp)
	xorps	%xmm0, %xmm0
	movaps	%xmm0, 80(%rsp)
	movaps	%xmm0, 96(%rsp)
	movaps	%xmm0, 112(%rsp)
	movaps	%xmm0, 128(%rsp)
	movaps	%xmm0, 144(%rsp)
	movaps	%xmm0, 160(%rsp)
	movaps	%xmm0, 176(%rsp)
	movaps	%xmm0, 192(%rsp)
	movaps	%xmm0, 208(%rsp)
	movaps	%xmm0, 224(%rsp)
	movaps	%xmm0, 240(%rsp)
	movaps	%xmm0, 256(%rsp)
	movaps	%xmm0, 272(%rsp)
	movaps	%xmm0, 288(%rsp)
	movaps	%xmm0, 304(%rsp)
	movq	$0, 24(%rsp)
	xorl	%ebp, %ebp
	xorl	%r13d, %r13d
	jmp	.LBB7_46
	.p2align	4
.LBB7_7:
	movw	$0, 12(%rsp)
	movl	$0, 8(%rsp)
	movq	32(%rcx,%rdx), %rax
	testq	%rax, %rax
	je	.LBB7_8
	movq	16(%rcx,%rdx), %rcx
	xorl	%edx, %edx
	xorl	%ebp, %ebp
	jmp	.LBB7_10
	.p2align	4
.LBB7_12:
	movzbl	%dil, %edi
	testb	$1, %dl
	movl	$1, %edx
	cmovel	%edi, %edx
	cmoveq	%rsi, %rbp
	movq	(%rcx), %rcx
	decq	%rax
	je	.LBB7_14
.LBB7_10:
	movq	24(%rcx), %r8
	testq	%r8, %r8
	setne	%dil
	xorl	%esi, %esi
	andb	32(%rcx), %dil
	cmovneq	%r8, %rsi
	testb	%dil, %dl
	je	.LBB7_12
	cmpq	%rbp, %rsi
	cmovbq	%rsi, %rbp
	movb	$1, %dl
	movq	(%rcx), %rcx
	decq	%rax
	jne	.LBB7_10
.LBB7_14:
	cmpb	$1, %dl
	sete	%al
	andb	6(%rsp), %al
	cmpb	$1, %al
	jne	.LBB7_8
	testq	%rbp, %rbp
	sete	%al
	cmpq	40(%rsp), %rbp
	setae	%cl
	orb	%al, %cl
	jne	.LBB7_8
	movl	$1, %r13d
	movzwl	14(%rsp), %eax
	jmp	.LBB7_17
.LBB7_8:
	xorl	%eax, %eax
	xorl	%ebp, %ebp
	xorl	%r13d, %r13d
.LBB7_17:
	movq	%rax, 24(%rsp)
	xorps	%xmm0, %xmm0
	movaps	%xmm0, 304(%rsp)
	movaps	%xmm0, 288(%rsp)
	movaps	%xmm0, 272(%rsp)
	movaps	%xmm0, 256(%rsp)
	movaps	%xmm0, 240(%rsp)
	movaps	%xmm0, 224(%rsp)
	movaps	%xmm0, 208(%rsp)
	movaps	%xmm0, 192(%rsp)
	movaps	%xmm0, 176(%rsp)
	movaps	%xmm0, 160(%rsp)
	movaps	%xmm0, 144(%rsp)
	movaps	%xmm0, 128(%rsp)
	movaps	%xmm0, 112(%rsp)
	movaps	%xmm0, 96(%rsp)
	movaps	%xmm0, 80(%rsp)
	jmp	.LBB7_46
.LBB7_20:
	xorl	%r13d, %r13d
	xorl	%ecx, %ecx
	xorl	%eax, %eax
	xorl	%ebx, %ebx
	jmp	.LBB7_21
	.p2align	4
.LBB7_22:
	decq	%r15
.LBB7_30:
	movq	24(%rdx), %rdx
	testq	%rdx, %rdx
	setne	%sil
	testb	$1, %cl
	cmoveq	%rdx, %rax
	orb	%cl, %sil
	andb	$1, %sil
	incq	%rbx
	movl	%esi, %ecx
	cmpq	%rbx, %r10
	je	.LBB7_45
.LBB7_21:
	movq	%rbp, %rdx
	movq	(%rbp), %rbp
	testq	%r15, %r15
	jne	.LBB7_22
	movzwl	16(%rdx), %esi
	cmpw	%si, %r14w
	je	.LBB7_29
	xorl	%r15d, %r15d
	cmpq	$0, 24(%rdx)
	je	.LBB7_30
	testb	$1, 32(%rdx)
	je	.LBB7_30
	testb	%cl, %cl
	je	.LBB7_30
	cmpq	$16, %r13
	je	.LBB7_41
	movq	%r13, %rdi
	shlq	$4, %rdi
	movw	%si, 568(%rsp,%rdi)
	movl	$0, 570(%rsp,%rdi)
	movw	$0, 574(%rsp,%rdi)
	movq	%rax, 576(%rsp,%rdi)
	incq	%r13
.LBB7_29:
	xorl	%r15d, %r15d
	jmp	.LBB7_30
	.p2align	4
.LBB7_45:
	movzwl	568(%rsp), %eax
	movq	%rax, 24(%rsp)
	leaq	570(%rsp), %rcx
	movl	(%rcx), %eax
	movl	%eax, 8(%rsp)
	movzwl	4(%rcx), %eax
	movw	%ax, 12(%rsp)
	movq	576(%rsp), %rbp
	leaq	80(%rsp), %rdi
	movl	$240, %edx
	leaq	584(%rsp), %rsi
	callq	memcpy@PLT
.LBB7_46:
	movq	$0, 32(%rsp)
	xorl	%r15d, %r15d
.LBB7_47:
	movzwl	12(%rsp), %eax
	movw	%ax, 20(%rsp)
	movl	8(%rsp), %eax
	movl	%eax, 16(%rsp)
	leaq	320(%rsp), %rbx
	leaq	80(%rsp), %rsi
	movl	$240, %edx
	movq	%rbx, %rdi
	callq	memcpy@PLT
	movq	24(%rsp), %rax
	movw	%ax, 832(%rsp)
	movzwl	20(%rsp), %eax
	leaq	832(%rsp), %rcx
	movw	%ax, 6(%rcx)
	movl	16(%rsp), %eax
	movl	%eax, 2(%rcx)
	movq	%rbp, 840(%rsp)
	movl	$240, %edx
	leaq	848(%rsp), %rdi
	movq	%rbx, %rsi
	callq	memcpy@PLT
	movq	%r13, 1088(%rsp)
	testq	%r13, %r13
	movq	64(%rsp), %r9
	movq	56(%rsp), %rbp
	je	.LBB7_53
	leaq	840(%rsp), %rsi
	jmp	.LBB7_49
	.p2align	4
.LBB7_52:
	addq	$16, %rsi
	decq	%r13
	je	.LBB7_53
.LBB7_49:
	movzwl	-8(%rsi), %edx
	movq	(%rsi), %rdi
	movl	4(%r12), %r8d
	cmpq	$65, %r8
	setb	%cl
	addb	%cl, %cl
	incb	%cl
	shlq	%cl, %r8
	movl	%edx, %ecx
	shll	$6, %ecx
	addq	(%rbp), %rcx
	#APP
	#NO_APP
	xorl	%eax, %eax
	lock		cmpxchgq	%rdi, 128(%rcx,%r8,8)
	sete	%al
	#APP
	#NO_APP
	cmpw	%r14w, %dx
	je	.LBB7_52
	testb	%al, %al
	je	.LBB7_52
	movl	$1, %eax
	movl	%edx, %ecx
	shlq	%cl, %rax
	shrl	$6, %edx
	orq	%rax, (%r9,%rdx,8)
	jmp	.LBB7_52
.LBB7_2:
	leaq	64(%r12), %rdi
	movq	48(%rsp), %rsi
	callq	ww_invariant__slots_out__turn_to
	movq	8(%rbp), %rcx
	movq	72(%rsp), %rdx
	cmpb	$0, (%rcx,%rdx)
	je	.LBB7_4
	jmp	.LBB7_55
.LBB7_41:
	movzwl	568(%rsp), %eax
	movq	%rax, 24(%rsp)
	leaq	570(%rsp), %rcx
	movl	(%rcx), %eax
	movl	%eax, 8(%rsp)
	movzwl	4(%rcx), %eax
	movw	%ax, 12(%rsp)
	movq	576(%rsp), %rbp
	leaq	80(%rsp), %rdi
	movl	$240, %edx
	leaq	584(%rsp), %rsi
	callq	memcpy@PLT
	movb	$1, %al
	movq	%rax, 32(%rsp)
	movl	$16, %r13d
	movq	%rbx, %r15
	jmp	.LBB7_47
.LBB7_54:
	addq	$1096, %rsp
	popq	%rbx
	popq	%r12
	popq	%r13
	popq	%r14
	popq	%r15
	popq	%rbp
	retq
.LBB7_55:
	ud2
.Lfunc_end7:
	.size	ww_seat__signs__sign_all, .Lfunc_end7-ww_seat__signs__sign_all

	.section	.text.ww_table__seat__Stepper__must_die,"ax",@progbits
	.p2align	4
	.type	ww_table__seat__Stepper__must_die,@function
ww_table__seat__Stepper__must_die:
	pushq	%rbp
	pushq	%r15
	pushq	%r14
	pushq	%r13
	pushq	%r12
	pushq	%rbx
	pushq	%rax
	movzbl	(%rcx), %r14d
	movzwl	2(%rcx), %ebp
	movq	8(%rcx), %rbx
	addl	$64, %edx
	movq	328(%rdi), %rax
	cmpl	%edx, 60(%rdi,%rax,4)
	jne	.LBB8_1
.LBB8_2:
	movq	8(%rsi), %rax
	movl	%edx, %ecx
	leaq	(%rcx,%rcx,4), %rcx
	cmpb	$0, (%rax,%rcx,8)
	jne	.LBB8_21
	leaq	(%rax,%rcx,8), %rsi
	cmpb	$0, 8(%rsi)
	je	.LBB8_4
	movzbl	(%rdi), %r9d
	movzwl	2(%rdi), %eax
	movq	32(%rsi), %rdi
	addq	$16, %rsi
	leaq	1(%rdi), %rcx
	movq	%rsi, %r10
	.p2align	4
.LBB8_6:
	decq	%rcx
	je	.LBB8_4
	movq	(%r10), %r10
	cmpw	%ax, 16(%r10)
	jne	.LBB8_6
	movq	24(%r10), %rcx
	xorl	%edx, %edx
	movl	$0, %eax
	testq	%rcx, %rcx
	je	.LBB8_24
	testb	$1, 32(%r10)
	je	.LBB8_24
	testb	%r9b, %r9b
	je	.LBB8_22
	movzwl	16(%r10), %eax
	incq	%rdi
	.p2align	4
.LBB8_12:
	decq	%rdi
	je	.LBB8_13
	movq	(%rsi), %rsi
	cmpw	%ax, 16(%rsi)
	je	.LBB8_13
	movq	24(%rsi), %r8
	testq	%r8, %r8
	je	.LBB8_12
	movb	$1, %sil
	jmp	.LBB8_17
.LBB8_4:
	xorl	%eax, %eax
	xorl	%edx, %edx
.LBB8_24:
	addq	$8, %rsp
	popq	%rbx
	popq	%r12
	popq	%r13
	popq	%r14
	popq	%r15
	popq	%rbp
	retq
.LBB8_13:
	xorl	%r8d, %r8d
	xorl	%esi, %esi
.LBB8_17:
	cmpb	$1, %r14b
	jne	.LBB8_20
	cmpw	%ax, %bp
	je	.LBB8_20
	testq	%rbx, %rbx
	setne	%dil
	cmpq	%rcx, %rbx
	setb	%cl
	movb	$1, %al
	movq	%rbx, %rdx
	testb	%cl, %dil
	jne	.LBB8_24
.LBB8_20:
	movl	%esi, %eax
	jmp	.LBB8_23
.LBB8_1:
	leaq	64(%rdi), %rax
	movq	%rdi, (%rsp)
	movq	%rax, %rdi
	movq	%rsi, %r12
	movl	%edx, %esi
	movq	%r8, %r13
	movl	%edx, %r15d
	callq	ww_invariant__slots_out__turn_to
	movq	%r12, %rsi
	movl	%r15d, %edx
	movq	(%rsp), %rdi
	movq	%r13, %r8
	jmp	.LBB8_2
.LBB8_22:
	movl	%r8d, %eax
.LBB8_23:
	movq	%r8, %rdx
	jmp	.LBB8_24
.LBB8_21:
	ud2
.Lfunc_end8:
	.size	ww_table__seat__Stepper__must_die, .Lfunc_end8-ww_table__seat__Stepper__must_die

	.section	.text.unlikely.ww_c__exports__lock_anyhow,"ax",@progbits
	.p2align	4
	.type	ww_c__exports__lock_anyhow,@function
ww_c__exports__lock_anyhow:
	movl	$-22, %eax
	cmpl	$0, 8(%rdi)
	je	.LBB9_16
	pushq	%r14
	pushq	%rbx
	subq	$24, %rsp
	movl	%esi, %r8d
	movq	$1, 8(%rdi)
	movq	%rdi, %r14
	movq	(%rdi), %rbx
	xorps	%xmm0, %xmm0
	movaps	%xmm0, (%rsp)
	movzbl	%dl, %ecx
	movq	%rsp, %rdi
	movq	%rbx, %rsi
	movl	%r8d, %edx
	callq	ww_steps__desk__Desk__lock_here
	movzbl	(%rsp), %eax
	leaq	.LJTI9_0(%rip), %rcx
	movslq	(%rcx,%rax,4), %rdx
	addq	%rcx, %rdx
	jmpq	*%rdx
.LBB9_3:
	xorl	%eax, %eax
	cmpq	$0, 432(%rbx)
	je	.LBB9_15
	cmpq	$0, 40(%rbx)
	je	.LBB9_6
	movl	404(%rbx), %ecx
	movl	%ecx, 12(%r14)
	movl	$3, 8(%r14)
	jmp	.LBB9_15
.LBB9_9:
	movl	$-16, %eax
	jmp	.LBB9_15
.LBB9_14:
	movl	$-4, %eax
	jmp	.LBB9_15
.LBB9_8:
	movl	$5, %eax
	jmp	.LBB9_15
.LBB9_7:
	movl	$3, %eax
	jmp	.LBB9_15
.LBB9_12:
	movl	$-28, %eax
	jmp	.LBB9_15
.LBB9_2:
	jmp	.LBB9_15
.LBB9_10:
	movl	$-22, %eax
	jmp	.LBB9_15
.LBB9_11:
	movl	$-114, %eax
	jmp	.LBB9_15
.LBB9_13:
	movl	$-35, %eax
.LBB9_15:
	addq	$24, %rsp
	popq	%rbx
	popq	%r14
.LBB9_16:
	retq
.LBB9_6:
	movl	$5, 8(%r14)
	jmp	.LBB9_15
.Lfunc_end9:
	.size	ww_c__exports__lock_anyhow, .Lfunc_end9-ww_c__exports__lock_anyhow
	.section	.rodata.unlikely.ww_c__exports__lock_anyhow,"a",@progbits
	.p2align	2, 0x0
.LJTI9_0:
	.long	.LBB9_3-.LJTI9_0
	.long	.LBB9_2-.LJTI9_0
	.long	.LBB9_8-.LJTI9_0
	.long	.LBB9_7-.LJTI9_0
	.long	.LBB9_9-.LJTI9_0
	.long	.LBB9_10-.LJTI9_0
	.long	.LBB9_11-.LJTI9_0
	.long	.LBB9_12-.LJTI9_0
	.long	.LBB9_13-.LJTI9_0
	.long	.LBB9_14-.LJTI9_0

	.section	.text.ww_steps__desk__Desk__lock_here,"ax",@progbits
	.p2align	4
	.type	ww_steps__desk__Desk__lock_here,@function
ww_steps__desk__Desk__lock_here:
	cmpb	$0, 420(%rsi)
	jne	.LBB10_8
	cmpb	$0, 408(%rsi)
	jne	.LBB10_8
	cmpl	$0, 400(%rsi)
	je	.LBB10_7
	cmpq	$0, 40(%rsi)
	je	.LBB10_8
	cmpb	$1, 412(%rsi)
	je	.LBB10_8
	cmpl	404(%rsi), %edx
	jae	.LBB10_8
	movq	(%rsi), %rax
	addq	$8, %rax
	jmp	.LBB10_13
.LBB10_7:
	cmpl	404(%rsi), %edx
	jae	.LBB10_8
	movq	(%rsi), %rax
	addq	$8, %rax
	cmpb	$0, 8(%rsi)
	je	.LBB10_10
.LBB10_13:
	movq	64(%rsi), %r8
	movl	%edx, %r9d
	shlq	$4, %r9
	movq	(%rax), %r10
	#APP
	#NO_APP
	xorl	%eax, %eax
	lock		cmpxchgq	%r8, 128(%r10,%r9)
	#APP
	#NO_APP
	jne	.LBB10_14
	incl	400(%rsi)
	movq	$0, 412(%rsi)
	xorl	%r9d, %r9d
.LBB10_16:
	movw	%r9w, (%rdi)
	movw	$0, 2(%rdi)
	movq	$0, 8(%rdi)
	retq
.LBB10_14:
	movl	%eax, %r9d
	andl	$7, %r9d
	shrq	$2, %rax
	movq	%rax, %r10
	orq	$1, %r10
	andq	$-2, %rax
	cmpq	$6, %r9
	cmovaeq	%r10, %rax
	addq	$-2, %r9
	testq	$-3, %r9
	cmoveq	%r10, %rax
	movl	%r8d, %r9d
	andl	$7, %r9d
	leaq	-2(%r9), %r10
	shrq	$2, %r8
	movq	%r8, %r11
	orq	$1, %r11
	andq	$-2, %r8
	cmpq	$6, %r9
	cmovaeq	%r11, %r8
	testq	$-3, %r10
	cmoveq	%r11, %r8
	movw	$6, %r9w
	cmpq	%r8, %rax
	je	.LBB10_16
	movl	$1, 420(%rsi)
	movl	%edx, 424(%rsi)
	movb	$0, 428(%rsi)
	movb	%cl, 429(%rsi)
	movw	$1, %r9w
	movw	%r9w, (%rdi)
	movw	$0, 2(%rdi)
	movq	$0, 8(%rdi)
	retq
.LBB10_8:
	pushq	%rbx
	movq	%rdi, %rbx
	movq	%rsi, %rdi
	movl	%edx, %esi
	callq	ww_steps__desk__Desk__refuses
	shlb	$4, %al
	movabsq	$21475229700, %rdx
	movl	%eax, %ecx
	shrq	%cl, %rdx
	movw	%dx, (%rbx)
	movw	$0, 2(%rbx)
	movq	$0, 8(%rbx)
	popq	%rbx
	retq
.LBB10_10:
	cmpq	$0, 40(%rsi)
	je	.LBB10_13
	movq	32(%rsi), %r8
	movq	(%rax), %r9
	#APP
	#NO_APP
	movq	(%r9,%r8,8), %r8
	#APP
	#NO_APP
	testq	%r8, %r8
	je	.LBB10_13
	movq	32(%rsi), %r8
	movq	(%rax), %r9
	#APP
	#NO_APP
	xorl	%r10d, %r10d
	xchgq	%r10, (%r9,%r8,8)
	#APP
	#NO_APP
	jmp	.LBB10_13
.Lfunc_end10:
	.size	ww_steps__desk__Desk__lock_here, .Lfunc_end10-ww_steps__desk__Desk__lock_here

	.section	.text.unlikely.ww_steps__desk__Desk__refuses,"ax",@progbits
	.p2align	4
	.type	ww_steps__desk__Desk__refuses,@function
ww_steps__desk__Desk__refuses:
	cmpb	$0, 420(%rdi)
	je	.LBB11_3
	xorl	%eax, %eax
.LBB11_2:
	retq
.LBB11_3:
	cmpl	404(%rdi), %esi
	jae	.LBB11_5
	movq	(%rdi), %rax
	movq	64(%rdi), %rdx
	cmpl	$65, 76(%rax)
	setb	%cl
	movl	%esi, %esi
	addb	%cl, %cl
	incb	%cl
	shlq	%cl, %rsi
	movq	8(%rax), %rax
	#APP
	#NO_APP
	movq	128(%rax,%rsi,8), %rcx
	movl	%ecx, %eax
	andl	$7, %eax
	shrq	$2, %rcx
	movq	%rcx, %rsi
	orq	$1, %rsi
	andq	$-2, %rcx
	cmpq	$6, %rax
	cmovaeq	%rsi, %rcx
	addq	$-2, %rax
	testq	$-3, %rax
	cmoveq	%rsi, %rcx
	#APP
	#NO_APP
	movl	%edx, %eax
	andl	$7, %eax
	leaq	-2(%rax), %rsi
	shrq	$2, %rdx
	movq	%rdx, %rdi
	orq	$1, %rdi
	andq	$-2, %rdx
	cmpq	$6, %rax
	cmovaeq	%rdi, %rdx
	testq	$-3, %rsi
	cmoveq	%rdi, %rdx
	movb	$1, %al
	cmpq	%rdx, %rcx
	je	.LBB11_2
.LBB11_5:
	movb	$2, %al
	retq
.Lfunc_end11:
	.size	ww_steps__desk__Desk__refuses, .Lfunc_end11-ww_steps__desk__Desk__refuses

	.section	.text.ww_c__exports__lock_alone,"ax",@progbits
	.p2align	4
	.type	ww_c__exports__lock_alone,@function
ww_c__exports__lock_alone:
	cmpl	$2, 8(%rdi)
	jne	.LBB12_7
	movq	(%rdi), %r8
	cmpl	%esi, 404(%r8)
	jbe	.LBB12_7
	movq	(%r8), %rax
	movq	64(%r8), %r9
	movl	%esi, %r10d
	shlq	$4, %r10
	movq	8(%rax), %r11
	#APP
	#NO_APP
	xorl	%ecx, %ecx
	xorl	%eax, %eax
	lock		cmpxchgq	%r9, 128(%r11,%r10)
	#APP
	#NO_APP
	jne	.LBB12_3
	incl	400(%r8)
	movl	$5, 8(%rdi)
	movl	%ecx, %eax
	retq
.LBB12_3:
	movl	%eax, %ecx
	andl	$7, %ecx
	leaq	-2(%rcx), %r10
	shrq	$2, %rax
	movq	%rax, %r11
	orq	$1, %r11
	andq	$-2, %rax
	cmpq	$6, %rcx
	cmovaeq	%r11, %rax
	testq	$-3, %r10
	cmoveq	%r11, %rax
	movl	%r9d, %ecx
	andl	$7, %ecx
	leaq	-2(%rcx), %r10
	shrq	$2, %r9
	movq	%r9, %r11
	orq	$1, %r11
	andq	$-2, %r9
	cmpq	$6, %rcx
	cmovaeq	%r11, %r9
	testq	$-3, %r10
	cmoveq	%r11, %r9
	cmpq	%r9, %rax
	jne	.LBB12_4
	movl	$1, 8(%rdi)
	movl	$-114, %ecx
	movl	%ecx, %eax
	retq
.LBB12_4:
	movl	$1, 420(%r8)
	movl	%esi, 424(%r8)
	movb	$0, 428(%r8)
	movb	%dl, 429(%r8)
	movl	$1, 8(%rdi)
	movl	$1, %ecx
	movl	%ecx, %eax
	retq
.LBB12_7:
	movzbl	%dl, %edx
	jmp	ww_c__exports__lock_anyhow
.Lfunc_end12:
	.size	ww_c__exports__lock_alone, .Lfunc_end12-ww_c__exports__lock_alone

	.section	.text.ww_steps__opening__means_at,"ax",@progbits
	.p2align	4
	.type	ww_steps__opening__means_at,@function
ww_steps__opening__means_at:
	pushq	%r15
	pushq	%r14
	pushq	%r13
	pushq	%r12
	pushq	%rbx
	subq	$16, %rsp
	movq	%rsi, %r14
	movq	%rdi, %rbx
	movq	(%rsi), %rax
	movzwl	80(%rax), %r13d
	addl	$63, %r13d
	shrl	$6, %r13d
	je	.LBB13_4
	leal	(,%r13,8), %r12d
	movl	$8, %esi
	movq	%r12, %rdi
	callq	rattle_alloc@PLT
	testb	$1, %al
	je	.LBB13_13
	movq	%rdx, %r15
	cmpl	$1, %r13d
	jne	.LBB13_6
	xorl	%r12d, %r12d
	jmp	.LBB13_7
.LBB13_4:
	movl	$40, %edi
	movl	$8, %esi
	callq	rattle_alloc@PLT
	testb	$1, %al
	je	.LBB13_13
	leaq	8(%rsp), %r15
	xorl	%r12d, %r12d
	jmp	.LBB13_9
.LBB13_6:
	addq	$-8, %r12
	movq	%r15, %rdi
	xorl	%esi, %esi
	movq	%r12, %rdx
	callq	memset@PLT
	leaq	-1(%r13), %r12
.LBB13_7:
	movq	$0, (%r15,%r12,8)
	movl	$40, %edi
	movl	$8, %esi
	callq	rattle_alloc@PLT
	testb	$1, %al
	je	.LBB13_12
	incq	%r12
.LBB13_9:
	movq	%rdx, (%rdx)
	movq	%rdx, 8(%rdx)
	xorps	%xmm0, %xmm0
	movups	%xmm0, 16(%rdx)
	movq	$0, 32(%rdx)
	movq	(%r14), %rcx
	.p2align	4
.LBB13_10:
	#APP
	#NO_APP
	movq	(%rcx), %rax
	#APP
	#NO_APP
	movabsq	$9223372036854775807, %rsi
	cmpq	%rsi, %rax
	jae	.LBB13_11
	leaq	1(%rax), %rsi
	#APP
	#NO_APP
	lock		cmpxchgq	%rsi, (%rcx)
	#APP
	#NO_APP
	jne	.LBB13_10
	movb	$0, (%rbx)
	movq	%rcx, 8(%rbx)
	movq	%rdx, 16(%rbx)
	movq	%rdx, 24(%rbx)
	movq	$1, 32(%rbx)
	movq	%r15, 40(%rbx)
	movq	%r12, 48(%rbx)
	movq	%r13, 56(%rbx)
	jmp	.LBB13_16
.LBB13_11:
	movq	%rdx, %rdi
	callq	rattle_dealloc@PLT
	testq	%r13, %r13
	je	.LBB13_13
.LBB13_12:
	movq	%r15, %rdi
	callq	rattle_dealloc@PLT
.LBB13_13:
	movb	$1, (%rbx)
	xorps	%xmm0, %xmm0
	movups	%xmm0, 8(%rbx)
	movups	%xmm0, 24(%rbx)
	movups	%xmm0, 40(%rbx)
	movq	$0, 56(%rbx)
.LBB13_16:
	addq	$16, %rsp
	popq	%rbx
	popq	%r12
	popq	%r13
	popq	%r14
	popq	%r15
	retq
.Lfunc_end13:
	.size	ww_steps__opening__means_at, .Lfunc_end13-ww_steps__opening__means_at

	.section	.text.std_alloc__arc__Arc__drop____7adbd3708cb715cb_,"ax",@progbits
	.p2align	4
	.type	std_alloc__arc__Arc__drop____7adbd3708cb715cb_,@function
std_alloc__arc__Arc__drop____7adbd3708cb715cb_:
	#APP
	#NO_APP
	lock		decq	(%rdi)
	#APP
	#NO_APP
	jne	.LBB14_10
	pushq	%rbp
	pushq	%r15
	pushq	%r14
	pushq	%r13
	pushq	%r12
	pushq	%rbx
	pushq	%rax
	movq	16(%rdi), %r15
	movq	32(%rdi), %r12
	movq	40(%rdi), %r14
	movq	56(%rdi), %rax
	movq	%rax, (%rsp)
	callq	rattle_dealloc@PLT
	testq	%r12, %r12
	je	.LBB14_9
	xorl	%r13d, %r13d
	jmp	.LBB14_3
	.p2align	4
.LBB14_8:
	incq	%r13
	cmpq	%r12, %r13
	je	.LBB14_9
.LBB14_3:
	leaq	(,%r13,8), %rax
	leaq	(%rax,%rax,4), %rax
	cmpb	$0, (%r15,%rax)
	jne	.LBB14_8
	cmpb	$0, 8(%r15,%rax)
	je	.LBB14_8
	movq	32(%r15,%rax), %rbp
	testq	%rbp, %rbp
	je	.LBB14_8
	movq	16(%r15,%rax), %rdi
	.p2align	4
.LBB14_7:
	movq	(%rdi), %rbx
	callq	rattle_dealloc@PLT
	movq	%rbx, %rdi
	decq	%rbp
	jne	.LBB14_7
	jmp	.LBB14_8
.LBB14_10:
	retq
.LBB14_9:
	movq	%r14, %rdi
	callq	rattle_dealloc@PLT
	movq	(%rsp), %rdi
	addq	$8, %rsp
	popq	%rbx
	popq	%r12
	popq	%r13
	popq	%r14
	popq	%r15
	popq	%rbp
	jmp	rattle_dealloc@PLT
.Lfunc_end14:
	.size	std_alloc__arc__Arc__drop____7adbd3708cb715cb_, .Lfunc_end14-std_alloc__arc__Arc__drop____7adbd3708cb715cb_

	.section	.text.std_alloc__vec__Vec__drop____3b954727b9020b61_,"ax",@progbits
	.p2align	4
	.type	std_alloc__vec__Vec__drop____3b954727b9020b61_,@function
std_alloc__vec__Vec__drop____3b954727b9020b61_:
	pushq	%rbp
	pushq	%r15
	pushq	%r14
	pushq	%r13
	pushq	%r12
	pushq	%rbx
	pushq	%rax
	movq	(%rdi), %rbx
	movq	8(%rdi), %r15
	movq	16(%rdi), %rax
	movq	%rax, (%rsp)
	testq	%r15, %r15
	je	.LBB15_9
	leaq	88(%rbx), %r12
	jmp	.LBB15_2
	.p2align	4
.LBB15_8:
	addq	$96, %r12
	decq	%r15
	je	.LBB15_9
.LBB15_2:
	movzbl	-56(%r12), %ecx
	movzbl	-24(%r12), %ebp
	movq	-16(%r12), %rdi
	movq	(%r12), %r13
	leal	-2(%rcx), %eax
	cmpl	$5, %eax
	jb	.LBB15_5
	movq	-48(%r12), %rax
	movq	-32(%r12), %rdx
	cmpl	$1, %ecx
	testq	%rdx, %rdx
	je	.LBB15_5
	movq	%rdi, %r14
	movq	%rax, %rdi
	callq	rattle_dealloc@PLT
	movq	%r14, %rdi
	.p2align	4
.LBB15_5:
	testb	%bpl, %bpl
	jne	.LBB15_8
	testq	%r13, %r13
	je	.LBB15_8
	callq	rattle_dealloc@PLT
	jmp	.LBB15_8
.LBB15_9:
	cmpq	$0, (%rsp)
	je	.LBB15_10
	movq	%rbx, %rdi
	addq	$8, %rsp
	popq	%rbx
	popq	%r12
	popq	%r13
	popq	%r14
	popq	%r15
	popq	%rbp
	jmp	rattle_dealloc@PLT
.LBB15_10:
	addq	$8, %rsp
	popq	%rbx
	popq	%r12
	popq	%r13
	popq	%r14
	popq	%r15
	popq	%rbp
	retq
.Lfunc_end15:
	.size	std_alloc__vec__Vec__drop____3b954727b9020b61_, .Lfunc_end15-std_alloc__vec__Vec__drop____3b954727b9020b61_

	.section	.text.ww_table__board__Board__make_bare,"ax",@progbits
	.p2align	4
	.type	ww_table__board__Board__make_bare,@function
ww_table__board__Board__make_bare:
	pushq	%rbp
	pushq	%r15
	pushq	%r14
	pushq	%r13
	pushq	%r12
	pushq	%rbx
	subq	$152, %rsp
	movl	%edx, %ebp
	movl	%esi, %r15d
	movq	%rdi, %rbx
	movb	$0, 6(%rsp)
	movw	$0, 4(%rsp)
	movl	$0, 8(%rsp)
	movw	$0, 12(%rsp)
	movl	$24, %edi
	movl	$8, %esi
	callq	rattle_alloc@PLT
	testb	$1, %al
	je	.LBB16_27
	xorps	%xmm0, %xmm0
	movups	%xmm0, (%rdx)
	movq	$0, 16(%rdx)
	cmpb	$1, 12(%rdx)
	jne	.LBB16_3
	cmpb	$0, 13(%rdx)
	jne	.LBB16_26
.LBB16_3:
	cmpb	$1, 14(%rdx)
	jne	.LBB16_5
	cmpb	$0, 15(%rdx)
	jne	.LBB16_26
.LBB16_5:
	cmpb	$1, 16(%rdx)
	jne	.LBB16_7
	cmpb	$0, 17(%rdx)
	jne	.LBB16_26
.LBB16_7:
	cmpb	$1, 18(%rdx)
	jne	.LBB16_9
	cmpb	$0, 19(%rdx)
	jne	.LBB16_26
.LBB16_9:
	cmpb	$1, 20(%rdx)
	jne	.LBB16_11
	cmpb	$0, 21(%rdx)
	jne	.LBB16_26
.LBB16_11:
	cmpb	$1, 22(%rdx)
	jne	.LBB16_13
	cmpb	$0, 23(%rdx)
	je	.LBB16_13
.LBB16_26:
	movq	%rdx, %rdi
	callq	rattle_dealloc@PLT
.LBB16_27:
	movb	$1, (%rbx)
	xorps	%xmm0, %xmm0
	movups	%xmm0, 8(%rbx)
	movups	%xmm0, 24(%rbx)
	movups	%xmm0, 40(%rbx)
	movups	%xmm0, 56(%rbx)
	movups	%xmm0, 72(%rbx)
	movups	%xmm0, 88(%rbx)
	movq	$0, 104(%rbx)
.LBB16_28:
	addq	$152, %rsp
	popq	%rbx
	popq	%r12
	popq	%r13
	popq	%r14
	popq	%r15
	popq	%rbp
	retq
.LBB16_13:
	movq	%rdx, 104(%rsp)
	movw	$0, 36(%rsp)
	movb	$0, 38(%rsp)
	movl	$0, 72(%rsp)
	movw	$0, 76(%rsp)
	movw	$0, 16(%rsp)
	movb	$0, 18(%rsp)
	movl	$0, 56(%rsp)
	movw	$0, 60(%rsp)
	cmpw	$17, %bp
	movl	$16, %r12d
	cmovael	%ebp, %r12d
	movzwl	%bp, %r14d
	leal	(%r14,%r14), %edi
	movl	$2, %esi
	callq	rattle_alloc@PLT
	testb	$1, %al
	je	.LBB16_25
	movq	%r14, 64(%rsp)
	movq	%rdx, 24(%rsp)
	movl	%r15d, %r14d
	leaq	512(,%r14,8), %rax
	leaq	(%rax,%rax,4), %rdi
	movl	$8, %esi
	movq	%rdi, 48(%rsp)
	callq	rattle_alloc@PLT
	testb	$1, %al
	je	.LBB16_24
	movq	%rdx, %r13
	addq	$64, %r14
	leal	(%r15,%r15,4), %eax
	leal	2560(,%rax,8), %edx
	movq	%r13, %rdi
	xorl	%esi, %esi
	callq	memset@PLT
	leal	(%r15,%r15), %ecx
	movl	%r12d, 20(%rsp)
	movl	%r12d, %eax
	andl	$8191, %eax
	movq	%rcx, 88(%rsp)
	leaq	(%rcx,%rax,8), %rax
	addq	$16, %rax
	movq	%rax, 96(%rsp)
	leaq	(,%rax,8), %r12
	movl	$8, %esi
	movq	%r12, %rdi
	callq	rattle_alloc@PLT
	testb	$1, %al
	je	.LBB16_16
	movq	%rdx, %rcx
	leaq	-8(%r12), %rdx
	movq	%r12, 80(%rsp)
	movq	%rcx, %r12
	movq	%rcx, %rdi
	xorl	%esi, %esi
	callq	memset@PLT
	movq	%r12, 40(%rsp)
	movq	80(%rsp), %rdi
	movq	$0, -8(%r12,%rdi)
	movl	$8, %esi
	callq	rattle_alloc@PLT
	testb	$1, %al
	je	.LBB16_30
	movq	%rdx, %r12
	movl	$8, %esi
	movq	48(%rsp), %rdi
	callq	rattle_alloc@PLT
	testb	$1, %al
	je	.LBB16_51
	movq	%rdx, %rsi
	movq	%r12, %rax
	movq	40(%rsp), %rdi
	subq	%rdi, %rax
	cmpq	$32, %rax
	jae	.LBB16_41
	xorl	%eax, %eax
	movq	96(%rsp), %rdx
	jmp	.LBB16_44
.LBB16_16:
	xorl	%r15d, %r15d
	jmp	.LBB16_17
	.p2align	4
.LBB16_22:
	incq	%r15
	cmpq	%r14, %r15
	je	.LBB16_23
.LBB16_17:
	leaq	(,%r15,8), %rax
	leaq	(%rax,%rax,4), %rax
	cmpb	$0, (%r13,%rax)
	jne	.LBB16_22
	cmpb	$0, 8(%r13,%rax)
	je	.LBB16_22
	movq	32(%r13,%rax), %r12
	testq	%r12, %r12
	je	.LBB16_22
	movq	16(%r13,%rax), %rdi
	.p2align	4
.LBB16_21:
	movq	(%rdi), %rbp
	callq	rattle_dealloc@PLT
	movq	%rbp, %rdi
	decq	%r12
	jne	.LBB16_21
	jmp	.LBB16_22
.LBB16_23:
	movq	%r13, %rdi
	callq	rattle_dealloc@PLT
.LBB16_24:
	movq	24(%rsp), %rdi
	callq	rattle_dealloc@PLT
.LBB16_25:
	movb	$0, 6(%rsp)
	movw	$0, 4(%rsp)
	movl	$0, 8(%rsp)
	movw	$0, 12(%rsp)
	xorl	%r12d, %r12d
	movb	$1, %al
	movl	%eax, 40(%rsp)
	xorl	%r13d, %r13d
	xorl	%r14d, %r14d
	xorl	%ebp, %ebp
	xorl	%r15d, %r15d
	movl	$0, 20(%rsp)
	movq	$0, 24(%rsp)
	movq	$0, 48(%rsp)
	movq	$0, 64(%rsp)
	movq	104(%rsp), %rdi
.LBB16_56:
	callq	rattle_dealloc@PLT
	movl	40(%rsp), %eax
	movb	%al, (%rbx)
	movq	%r12, 8(%rbx)
	movq	%r13, 16(%rbx)
	movq	%r14, 24(%rbx)
	movq	%rbp, 32(%rbx)
	movq	%r12, 40(%rbx)
	movq	%r14, 48(%rbx)
	movq	%r13, 56(%rbx)
	movq	%rbp, 64(%rbx)
	movb	$0, 72(%rbx)
	movzwl	4(%rsp), %eax
	movw	%ax, 73(%rbx)
	movzbl	6(%rsp), %eax
	movb	%al, 75(%rbx)
	movl	%r15d, 76(%rbx)
	movl	20(%rsp), %eax
	movw	%ax, 80(%rbx)
	movl	8(%rsp), %eax
	movl	%eax, 82(%rbx)
	movzwl	12(%rsp), %eax
	movw	%ax, 86(%rbx)
	movq	24(%rsp), %rax
	movq	%rax, 88(%rbx)
	movq	48(%rsp), %rax
	movq	%rax, 96(%rbx)
	movq	64(%rsp), %rax
	movq	%rax, 104(%rbx)
	jmp	.LBB16_28
.LBB16_51:
	movq	%r12, %rdi
	callq	rattle_dealloc@PLT
.LBB16_30:
	xorl	%r15d, %r15d
	jmp	.LBB16_31
.LBB16_36:
	incq	%r15
	cmpq	%r14, %r15
	je	.LBB16_37
.LBB16_31:
	leaq	(,%r15,8), %rax
	leaq	(%rax,%rax,4), %rax
	cmpb	$0, (%r13,%rax)
	jne	.LBB16_36
	cmpb	$0, 8(%r13,%rax)
	je	.LBB16_36
	movq	32(%r13,%rax), %r12
	testq	%r12, %r12
	je	.LBB16_36
	movq	16(%r13,%rax), %rdi
	.p2align	4
.LBB16_35:
	movq	(%rdi), %rbp
	callq	rattle_dealloc@PLT
	movq	%rbp, %rdi
	decq	%r12
	jne	.LBB16_35
	jmp	.LBB16_36
.LBB16_37:
	movq	%r13, %rdi
	callq	rattle_dealloc@PLT
	movq	40(%rsp), %rdi
	callq	rattle_dealloc@PLT
	movq	24(%rsp), %rdi
	callq	rattle_dealloc@PLT
	movq	$0, 144(%rsp)
	movb	$1, %al
	movq	$0, 96(%rsp)
	movq	$0, 88(%rsp)
	movq	$0, 80(%rsp)
	xorl	%r15d, %r15d
	movl	$0, 20(%rsp)
	movq	$0, 24(%rsp)
	movq	$0, 48(%rsp)
	movq	$0, 64(%rsp)
	jmp	.LBB16_55
.LBB16_41:
	movq	88(%rsp), %r8
	addq	$16, %r8
	andl	$2, %r8d
	movq	96(%rsp), %rdx
	movq	%rdx, %rax
	subq	%r8, %rax
	xorl	%ecx, %ecx
.LBB16_42:
	movups	(%rdi,%rcx,8), %xmm0
	movups	16(%rdi,%rcx,8), %xmm1
	movups	%xmm0, (%r12,%rcx,8)
	movups	%xmm1, 16(%r12,%rcx,8)
	addq	$4, %rcx
	cmpq	%rcx, %rax
	jne	.LBB16_42
	testq	%r8, %r8
	je	.LBB16_45
.LBB16_44:
	movq	(%rdi,%rax,8), %rcx
	movq	%rcx, (%r12,%rax,8)
	incq	%rax
	cmpq	%rax, %rdx
	jne	.LBB16_44
.LBB16_45:
	movq	%r14, %rax
	testb	$1, %r14b
	je	.LBB16_47
	leaq	-1(%r14), %rax
	leaq	-8(,%r14,8), %rcx
	leaq	(%rcx,%rcx,4), %rcx
	movzbl	(%r13,%rcx), %edx
	movups	8(%r13,%rcx), %xmm0
	movups	24(%r13,%rcx), %xmm1
	movaps	%xmm1, 128(%rsp)
	movaps	%xmm0, 112(%rsp)
	movq	%rdx, (%rsi,%rcx)
	movaps	112(%rsp), %xmm0
	movaps	128(%rsp), %xmm1
	movups	%xmm0, 8(%rsi,%rcx)
	movups	%xmm1, 24(%rsi,%rcx)
.LBB16_47:
	shlq	$3, %rax
	leaq	(%rax,%rax,4), %rax
	leaq	(%rax,%r13), %rcx
	addq	$-32, %rcx
	movq	%rsi, 144(%rsp)
	leaq	(%rsi,%rax), %rdx
	addq	$-32, %rdx
	xorl	%esi, %esi
.LBB16_48:
	movzbl	-8(%rcx,%rsi), %edi
	movups	(%rcx,%rsi), %xmm0
	movups	16(%rcx,%rsi), %xmm1
	movaps	%xmm1, 128(%rsp)
	movaps	%xmm0, 112(%rsp)
	movq	%rdi, -8(%rdx,%rsi)
	movaps	112(%rsp), %xmm0
	movaps	128(%rsp), %xmm1
	movups	%xmm0, (%rdx,%rsi)
	movups	%xmm1, 16(%rdx,%rsi)
	movzbl	-48(%rcx,%rsi), %edi
	movups	-40(%rcx,%rsi), %xmm0
	movups	-24(%rcx,%rsi), %xmm1
	movaps	%xmm1, 128(%rsp)
	movaps	%xmm0, 112(%rsp)
	movq	%rdi, -48(%rdx,%rsi)
	movaps	112(%rsp), %xmm0
	movaps	128(%rsp), %xmm1
	movups	%xmm0, -40(%rdx,%rsi)
	movups	%xmm1, -24(%rdx,%rsi)
	addq	$-80, %rsi
	movq	%rax, %rdi
	addq	%rsi, %rdi
	jne	.LBB16_48
	movq	%r13, %rdi
	callq	rattle_dealloc@PLT
	decw	%bp
	je	.LBB16_50
	movzwl	%bp, %esi
	xorl	%eax, %eax
	movq	24(%rsp), %rdx
	movq	40(%rsp), %rdi
.LBB16_53:
	#APP
	#NO_APP
	movq	(%r12), %rcx
	#APP
	#NO_APP
	movw	%ax, (%rdx,%rax,2)
	incq	%rax
	cmpq	%rax, %rsi
	jne	.LBB16_53
	jmp	.LBB16_54
.LBB16_50:
	xorl	%esi, %esi
	movq	24(%rsp), %rdx
	movq	40(%rsp), %rdi
.LBB16_54:
	movq	%r12, 80(%rsp)
	movq	%r14, 88(%rsp)
	movw	%bp, (%rdx,%rsi,2)
	incq	%rsi
	movq	%rsi, 48(%rsp)
	movzbl	38(%rsp), %eax
	movb	%al, 18(%rsp)
	movzwl	36(%rsp), %eax
	movw	%ax, 16(%rsp)
	movl	72(%rsp), %eax
	movl	%eax, 56(%rsp)
	movzwl	76(%rsp), %eax
	movw	%ax, 60(%rsp)
	callq	rattle_dealloc@PLT
	xorl	%eax, %eax
.LBB16_55:
	movl	%eax, 40(%rsp)
	movzbl	18(%rsp), %eax
	movb	%al, 6(%rsp)
	movzwl	16(%rsp), %eax
	movw	%ax, 4(%rsp)
	movl	56(%rsp), %eax
	movl	%eax, 8(%rsp)
	movzwl	60(%rsp), %eax
	movw	%ax, 12(%rsp)
	movq	104(%rsp), %rdi
	movq	96(%rsp), %r14
	movq	88(%rsp), %rbp
	movq	80(%rsp), %r12
	movq	144(%rsp), %r13
	jmp	.LBB16_56
.Lfunc_end16:
	.size	ww_table__board__Board__make_bare, .Lfunc_end16-ww_table__board__Board__make_bare

	.section	.text.unlikely.std_alloc__vec__Vec__grow_amortized____f9970e105406fed0_,"ax",@progbits
	.p2align	4
	.type	std_alloc__vec__Vec__grow_amortized____f9970e105406fed0_,@function
std_alloc__vec__Vec__grow_amortized____f9970e105406fed0_:
	movq	8(%rdi), %rsi
	cmpq	$-1, %rsi
	je	.LBB17_5
	pushq	%r14
	pushq	%rbx
	pushq	%rax
	movq	16(%rdi), %rcx
	cmpq	$4, %rsi
	movl	$3, %ebx
	cmovaeq	%rsi, %rbx
	incq	%rbx
	movq	%rcx, %rdx
	shrq	$62, %rdx
	leaq	(%rcx,%rcx), %rax
	cmpq	%rax, %rbx
	cmovaq	%rbx, %rax
	testq	%rdx, %rdx
	cmoveq	%rax, %rbx
	movq	%rbx, %rdx
	shrq	$61, %rdx
	jne	.LBB17_6
	testq	%rcx, %rcx
	je	.LBB17_8
	movq	%rdi, %r14
	movq	(%rdi), %rdi
	shlq	$2, %rsi
	leaq	(,%rbx,4), %rdx
	movl	$2, %ecx
	callq	rattle_realloc@PLT
	testb	$1, %al
	je	.LBB17_6
.LBB17_9:
	movq	%rdx, (%r14)
	movq	%rbx, 16(%r14)
	movb	$1, %al
	addq	$8, %rsp
	popq	%rbx
	popq	%r14
	retq
.LBB17_5:
	xorl	%eax, %eax
	retq
.LBB17_8:
	movq	%rdi, %r14
	shlq	$2, %rax
	movl	$2, %esi
	movq	%rax, %rdi
	callq	rattle_alloc@PLT
	testb	$1, %al
	jne	.LBB17_9
.LBB17_6:
	xorl	%eax, %eax
	addq	$8, %rsp
	popq	%rbx
	popq	%r14
	retq
.Lfunc_end17:
	.size	std_alloc__vec__Vec__grow_amortized____f9970e105406fed0_, .Lfunc_end17-std_alloc__vec__Vec__grow_amortized____f9970e105406fed0_

	.section	.text.unlikely.ww_c__exports__try_anyhow,"ax",@progbits
	.p2align	4
	.type	ww_c__exports__try_anyhow,@function
ww_c__exports__try_anyhow:
	cmpl	$0, 8(%rdi)
	je	.LBB18_1
	movq	$1, 8(%rdi)
	movq	(%rdi), %rcx
	cmpb	$0, 420(%rcx)
	jne	.LBB18_11
	cmpb	$0, 408(%rcx)
	jne	.LBB18_11
	cmpl	$0, 400(%rcx)
	je	.LBB18_10
	cmpq	$0, 40(%rcx)
	je	.LBB18_11
	cmpb	$1, 412(%rcx)
	je	.LBB18_11
	cmpl	404(%rcx), %esi
	jae	.LBB18_11
	movq	(%rcx), %rax
	addq	$8, %rax
	jmp	.LBB18_16
.LBB18_1:
	movl	$-22, %eax
	retq
.LBB18_10:
	cmpl	404(%rcx), %esi
	jae	.LBB18_11
	movq	(%rcx), %rax
	addq	$8, %rax
	cmpb	$0, 8(%rcx)
	je	.LBB18_13
.LBB18_16:
	movq	64(%rcx), %rdx
	movl	%esi, %esi
	shlq	$4, %rsi
	movq	(%rax), %r8
	#APP
	#NO_APP
	xorl	%eax, %eax
	lock		cmpxchgq	%rdx, 128(%r8,%rsi)
	#APP
	#NO_APP
	jne	.LBB18_19
	incl	400(%rcx)
	movq	$0, 412(%rcx)
	cmpq	$0, 432(%rcx)
	je	.LBB18_18
	cmpq	$0, 40(%rcx)
	movl	$0, %eax
	je	.LBB18_22
	movl	404(%rcx), %ecx
	movl	%ecx, 12(%rdi)
	movl	$3, 8(%rdi)
	retq
.LBB18_19:
	movl	%eax, %ecx
	andl	$7, %ecx
	leaq	-2(%rcx), %rsi
	shrq	$2, %rax
	movq	%rax, %rdi
	orq	$1, %rdi
	andq	$-2, %rax
	cmpq	$6, %rcx
	cmovaeq	%rdi, %rax
	testq	$-3, %rsi
	cmoveq	%rdi, %rax
	movl	%edx, %ecx
	andl	$7, %ecx
	leaq	-2(%rcx), %rsi
	shrq	$2, %rdx
	movq	%rdx, %rdi
	orq	$1, %rdi
	andq	$-2, %rdx
	cmpq	$6, %rcx
	cmovaeq	%rdi, %rdx
	testq	$-3, %rsi
	cmoveq	%rdi, %rdx
	cmpq	%rdx, %rax
	movl	$-114, %ecx
	movl	$-16, %eax
	cmovel	%ecx, %eax
	retq
.LBB18_11:
	pushq	%rax
	movq	%rcx, %rdi
	callq	ww_steps__desk__Desk__refuses
	movzbl	%al, %eax
	leaq	.Lswitch.table.ww_c__exports__try_anyhow(%rip), %rcx
	movl	(%rcx,%rax,4), %eax
	addq	$8, %rsp
	retq
.LBB18_18:
	xorl	%eax, %eax
	retq
.LBB18_13:
	cmpq	$0, 40(%rcx)
	je	.LBB18_16
	movq	32(%rcx), %rdx
	movq	(%rax), %r8
	#APP
	#NO_APP
	movq	(%r8,%rdx,8), %rdx
	#APP
	#NO_APP
	testq	%rdx, %rdx
	je	.LBB18_16
	movq	32(%rcx), %rdx
	movq	(%rax), %r8
	#APP
	#NO_APP
	xorl	%r9d, %r9d
	xchgq	%r9, (%r8,%rdx,8)
	#APP
	#NO_APP
	jmp	.LBB18_16
.LBB18_22:
	movl	$5, 8(%rdi)
	retq
.Lfunc_end18:
	.size	ww_c__exports__try_anyhow, .Lfunc_end18-ww_c__exports__try_anyhow

	.section	.text.ww_c__exports__try_alone,"ax",@progbits
	.p2align	4
	.type	ww_c__exports__try_alone,@function
ww_c__exports__try_alone:
	cmpl	$2, 8(%rdi)
	jne	ww_c__exports__try_anyhow
	movq	(%rdi), %r8
	cmpl	%esi, 404(%r8)
	jbe	ww_c__exports__try_anyhow
	movq	(%r8), %rax
	movq	64(%r8), %rdx
	movl	%esi, %esi
	shlq	$4, %rsi
	movq	8(%rax), %r9
	#APP
	#NO_APP
	xorl	%ecx, %ecx
	xorl	%eax, %eax
	lock		cmpxchgq	%rdx, 128(%r9,%rsi)
	#APP
	#NO_APP
	jne	.LBB19_3
	incl	400(%r8)
	movl	$5, 8(%rdi)
	movl	%ecx, %eax
	retq
.LBB19_3:
	movl	%eax, %ecx
	andl	$7, %ecx
	shrq	$2, %rax
	movq	%rax, %rsi
	orq	$1, %rsi
	andq	$-2, %rax
	cmpq	$6, %rcx
	cmovaeq	%rsi, %rax
	addq	$-2, %rcx
	testq	$-3, %rcx
	cmoveq	%rsi, %rax
	movl	%edx, %ecx
	andl	$7, %ecx
	leaq	-2(%rcx), %rsi
	shrq	$2, %rdx
	movq	%rdx, %r8
	orq	$1, %r8
	andq	$-2, %rdx
	cmpq	$6, %rcx
	cmovaeq	%r8, %rdx
	testq	$-3, %rsi
	cmoveq	%r8, %rdx
	cmpq	%rdx, %rax
	movl	$1, 8(%rdi)
	movl	$-114, %eax
	movl	$-16, %ecx
	cmovel	%eax, %ecx
	movl	%ecx, %eax
	retq
.Lfunc_end19:
	.size	ww_c__exports__try_alone, .Lfunc_end19-ww_c__exports__try_alone

	.section	.text.ww_c__exports__unlock_alone,"ax",@progbits
	.p2align	4
	.type	ww_c__exports__unlock_alone,@function
ww_c__exports__unlock_alone:
	cmpl	$5, 8(%rdi)
	jne	ww_c__exports__unlock_anyhow
	movq	(%rdi), %r8
	cmpl	%esi, 404(%r8)
	jbe	ww_c__exports__unlock_anyhow
	movq	(%r8), %rax
	movq	64(%r8), %rcx
	movl	%esi, %r9d
	shlq	$4, %r9
	movq	8(%rax), %r10
	#APP
	#NO_APP
	xorl	%edx, %edx
	movq	%rcx, %rax
	lock		cmpxchgq	%rdx, 128(%r10,%r9)
	#APP
	#NO_APP
	jne	.LBB20_3
	decl	400(%r8)
	je	.LBB20_6
	movl	%edx, %eax
	retq
.LBB20_3:
	movl	%eax, %edx
	andl	$7, %edx
	leaq	-2(%rdx), %r9
	shrq	$2, %rax
	movq	%rax, %r10
	orq	$1, %r10
	andq	$-2, %rax
	cmpq	$6, %rdx
	cmovaeq	%r10, %rax
	testq	$-3, %r9
	cmoveq	%r10, %rax
	movl	%ecx, %edx
	andl	$7, %edx
	leaq	-2(%rdx), %r9
	shrq	$2, %rcx
	movq	%rcx, %r10
	orq	$1, %r10
	andq	$-2, %rcx
	cmpq	$6, %rdx
	cmovaeq	%r10, %rcx
	testq	$-3, %r9
	cmoveq	%r10, %rcx
	cmpq	%rcx, %rax
	jne	.LBB20_7
	movl	$3, 420(%r8)
	movl	%esi, 424(%r8)
	movw	$0, 428(%r8)
	movl	$1, 8(%rdi)
	movl	$1, %edx
	movl	%edx, %eax
	retq
.LBB20_7:
	movl	$1, 8(%rdi)
	movl	$-22, %edx
	movl	%edx, %eax
	retq
.LBB20_6:
	movl	$2, 8(%rdi)
	movl	%edx, %eax
	retq
.Lfunc_end20:
	.size	ww_c__exports__unlock_alone, .Lfunc_end20-ww_c__exports__unlock_alone

	.section	.text.unlikely.ww_c__exports__unlock_anyhow,"ax",@progbits
	.p2align	4
	.type	ww_c__exports__unlock_anyhow,@function
ww_c__exports__unlock_anyhow:
	cmpl	$0, 8(%rdi)
	je	.LBB21_1
	movq	$1, 8(%rdi)
	movq	(%rdi), %rdx
	movl	$-16, %eax
	cmpb	$0, 420(%rdx)
	je	.LBB21_4
.LBB21_2:
	retq
.LBB21_4:
	cmpl	404(%rdx), %esi
	jae	.LBB21_1
	movq	(%rdx), %rax
	movq	64(%rdx), %rcx
	movl	%esi, %edi
	shlq	$4, %rdi
	movq	8(%rax), %r8
	#APP
	#NO_APP
	xorl	%r9d, %r9d
	movq	%rcx, %rax
	lock		cmpxchgq	%r9, 128(%r8,%rdi)
	#APP
	#NO_APP
	jne	.LBB21_7
	decl	400(%rdx)
	xorl	%eax, %eax
	retq
.LBB21_1:
	movl	$-22, %eax
	retq
.LBB21_7:
	movl	%eax, %edi
	andl	$7, %edi
	shrq	$2, %rax
	movq	%rax, %r8
	orq	$1, %r8
	andq	$-2, %rax
	cmpq	$6, %rdi
	cmovaeq	%r8, %rax
	addq	$-2, %rdi
	testq	$-3, %rdi
	cmoveq	%r8, %rax
	movl	%ecx, %edi
	andl	$7, %edi
	leaq	-2(%rdi), %r8
	shrq	$2, %rcx
	movq	%rcx, %r9
	orq	$1, %r9
	andq	$-2, %rcx
	cmpq	$6, %rdi
	cmovaeq	%r9, %rcx
	testq	$-3, %r8
	cmoveq	%r9, %rcx
	cmpq	%rcx, %rax
	movl	$-22, %eax
	jne	.LBB21_2
	movl	$3, 420(%rdx)
	movl	%esi, 424(%rdx)
	movw	$0, 428(%rdx)
	movl	$1, %eax
	retq
.Lfunc_end21:
	.size	ww_c__exports__unlock_anyhow, .Lfunc_end21-ww_c__exports__unlock_anyhow

	.section	.text.ww_begin_,"ax",@progbits
	.globl	ww_begin_
	.p2align	4
	.type	ww_begin_,@function
ww_begin_:
	cmpl	$2, 8(%rdi)
	jne	ww_c__exports__begin_anyhow
	movq	(%rdi), %rax
	movq	(%rax), %rcx
	movq	8(%rcx), %rdx
	#APP
	#NO_APP
	movl	$1, %ecx
	lock		xaddq	%rcx, (%rdx)
	#APP
	#NO_APP
	incq	%rcx
	cmpq	%rcx, 24(%rax)
	jae	.LBB22_2
	decq	432(%rax)
	movl	$1, 8(%rdi)
	movl	$-28, %eax
	retq
.LBB22_2:
	movq	%rcx, 40(%rax)
	imulq	56(%rax), %rcx
	addq	48(%rax), %rcx
	movq	%rcx, 64(%rax)
	decq	432(%rax)
	je	.LBB22_3
	movl	404(%rax), %eax
	movl	%eax, 12(%rdi)
	movl	$3, %eax
	movl	%eax, 8(%rdi)
	xorl	%eax, %eax
	retq
.LBB22_3:
	movl	$1, %eax
	movl	%eax, 8(%rdi)
	xorl	%eax, %eax
	retq
.Lfunc_end22:
	.size	ww_begin_, .Lfunc_end22-ww_begin_

	.section	.text.ww_cancel_,"ax",@progbits
	.globl	ww_cancel_
	.p2align	4
	.type	ww_cancel_,@function
ww_cancel_:
	movl	$-22, %eax
	cmpl	$0, 8(%rdi)
	je	.LBB23_7
	movq	$1, 8(%rdi)
	movq	(%rdi), %rdx
	movl	$-16, %eax
	cmpb	$0, 420(%rdx)
	je	.LBB23_2
.LBB23_7:
	retq
.LBB23_2:
	movl	$-22, %eax
	cmpw	%si, 410(%rdx)
	jbe	.LBB23_7
	movq	(%rdx), %rax
	movzwl	10(%rdx), %r8d
	movl	12(%rdx), %r9d
	cmpq	$65, %r9
	setb	%cl
	incq	%r8
	addb	%cl, %cl
	incb	%cl
	shlq	%cl, %r9
	movzwl	%si, %edi
	movl	%edi, %ecx
	shll	$6, %ecx
	addq	8(%rax), %rcx
	#APP
	#NO_APP
	xorl	%eax, %eax
	lock		cmpxchgq	%r8, 136(%rcx,%r9,8)
	#APP
	#NO_APP
	movl	$-114, %eax
	jne	.LBB23_7
	cmpw	10(%rdx), %si
	je	.LBB23_6
	movq	440(%rdx), %rax
	movl	$1, %edx
	movl	%esi, %ecx
	shlq	%cl, %rdx
	shrq	$6, %rdi
	orq	%rdx, (%rax,%rdi,8)
.LBB23_6:
	xorl	%eax, %eax
	retq
.Lfunc_end23:
	.size	ww_cancel_, .Lfunc_end23-ww_cancel_

	.section	.text.ww_close_,"ax",@progbits
	.globl	ww_close_
	.p2align	4
	.type	ww_close_,@function
ww_close_:
	xorl	%eax, %eax
	cmpl	$0, 8(%rdi)
	je	.LBB24_7
	pushq	%r14
	pushq	%rbx
	subq	$472, %rsp
	movq	(%rdi), %rbx
	xorps	%xmm0, %xmm0
	movups	%xmm0, (%rdi)
	cmpb	$0, 420(%rbx)
	jne	.LBB24_5
	cmpq	$0, 40(%rbx)
	jne	.LBB24_5
	cmpl	$0, 400(%rbx)
	je	.LBB24_4
.LBB24_5:
	movq	%rbx, (%rdi)
	movq	$1, 8(%rdi)
	movl	$-16, %eax
.LBB24_6:
	addq	$472, %rsp
	popq	%rbx
	popq	%r14
.LBB24_7:
	retq
.LBB24_4:
	leaq	8(%rsp), %r14
	movl	$464, %edx
	movq	%r14, %rdi
	movq	%rbx, %rsi
	callq	memcpy@PLT
	movq	%rbx, %rdi
	callq	rattle_dealloc@PLT
	movq	%r14, %rdi
	callq	ww_c__ww_steps__desk__Desk_Destruct__drop
	xorl	%eax, %eax
	jmp	.LBB24_6
.Lfunc_end24:
	.size	ww_close_, .Lfunc_end24-ww_close_

	.section	.text.ww_close_world_,"ax",@progbits
	.globl	ww_close_world_
	.p2align	4
	.type	ww_close_world_,@function
ww_close_world_:
	cmpl	$0, 8(%rdi)
	je	.LBB25_6
	pushq	%rbp
	pushq	%r15
	pushq	%r14
	pushq	%r12
	pushq	%rbx
	subq	$944, %rsp
	movq	(%rdi), %r14
	xorps	%xmm0, %xmm0
	movups	%xmm0, (%rdi)
	movq	(%r14), %r15
	movq	24(%r14), %rbx
	movzbl	48(%r14), %ebp
	leaq	49(%r14), %rsi
	movq	40(%r14), %r12
	leaq	9(%rsp), %rdi
	movl	$471, %edx
	callq	memcpy@PLT
	movq	%r14, %rdi
	callq	rattle_dealloc@PLT
	movq	%r15, %rdi
	callq	std_alloc__arc__Arc__drop____93a448bb48b6d052_
	testq	%r12, %r12
	je	.LBB25_3
	movq	%rbx, %rdi
	callq	rattle_dealloc@PLT
.LBB25_3:
	testb	%bpl, %bpl
	je	.LBB25_5
	leaq	16(%rsp), %rsi
	leaq	480(%rsp), %rbx
	movl	$464, %edx
	movq	%rbx, %rdi
	callq	memcpy@PLT
	movq	%rbx, %rdi
	callq	ww_c__ww_steps__desk__Desk_Destruct__drop
.LBB25_5:
	addq	$944, %rsp
	popq	%rbx
	popq	%r12
	popq	%r14
	popq	%r15
	popq	%rbp
.LBB25_6:
	retq
.Lfunc_end25:
	.size	ww_close_world_, .Lfunc_end25-ww_close_world_

	.section	.text.ww_done_,"ax",@progbits
	.globl	ww_done_
	.p2align	4
	.type	ww_done_,@function
ww_done_:
	cmpl	$0, 8(%rdi)
	je	.LBB26_1
	movq	$1, 8(%rdi)
	movq	(%rdi), %rcx
	movl	$-16, %eax
	cmpb	$0, 420(%rcx)
	je	.LBB26_4
.LBB26_2:
	retq
.LBB26_4:
	cmpq	$0, 40(%rcx)
	je	.LBB26_1
	cmpb	$0, 408(%rcx)
	movl	$-22, %eax
	jne	.LBB26_2
	movb	$1, 408(%rcx)
	xorl	%eax, %eax
	retq
.LBB26_1:
	movl	$-22, %eax
	retq
.Lfunc_end26:
	.size	ww_done_, .Lfunc_end26-ww_done_

	.section	.text.ww_end_,"ax",@progbits
	.globl	ww_end_
	.p2align	4
	.type	ww_end_,@function
ww_end_:
	cmpl	$4, 8(%rdi)
	jne	ww_c__exports__end_anyhow
	movq	(%rdi), %rax
	movq	(%rax), %rcx
	movq	32(%rax), %rdx
	movq	8(%rcx), %rsi
	#APP
	#NO_APP
	movq	(%rsi,%rdx,8), %rdx
	#APP
	#NO_APP
	testq	%rdx, %rdx
	je	.LBB27_3
	movq	32(%rax), %rdx
	movq	8(%rcx), %rsi
	#APP
	#NO_APP
	xorl	%r8d, %r8d
	xchgq	%r8, (%rsi,%rdx,8)
	#APP
	#NO_APP
	movq	8(%rcx), %rcx
	movq	32(%rax), %rdx
	#APP
	#NO_APP
	movq	(%rcx,%rdx,8), %rcx
	#APP
	#NO_APP
	testq	%rcx, %rcx
	je	.LBB27_3
	movl	$2, 8(%rdi)
	xorl	%eax, %eax
	retq
.LBB27_3:
	movq	$0, 40(%rax)
	movq	48(%rax), %rcx
	movq	%rcx, 64(%rax)
	movl	$2, 8(%rdi)
	xorl	%eax, %eax
	retq
.Lfunc_end27:
	.size	ww_end_, .Lfunc_end27-ww_end_

	.section	.text.ww_go_on_,"ax",@progbits
	.globl	ww_go_on_
	.p2align	4
	.type	ww_go_on_,@function
ww_go_on_:
	pushq	%rbp
	pushq	%r15
	pushq	%r14
	pushq	%r13
	pushq	%r12
	pushq	%rbx
	subq	$88, %rsp
	movl	$-22, %eax
	cmpl	$0, 8(%rdi)
	je	.LBB28_84
	movq	$1, 8(%rdi)
	movq	(%rdi), %rsi
	xorps	%xmm0, %xmm0
	movaps	%xmm0, 48(%rsp)
	movzbl	420(%rsi), %ecx
	leaq	.LJTI28_0(%rip), %rdx
	movslq	(%rdx,%rcx,4), %rcx
	addq	%rdx, %rcx
	jmpq	*%rcx
.LBB28_2:
	movl	424(%rsi), %edx
	movzbl	428(%rsi), %edi
	movzbl	429(%rsi), %r8d
	movq	(%rsi), %rax
	movq	8(%rax), %r9
	movzwl	10(%rsi), %r10d
	incq	%r10
	cmpl	$65, 76(%rax)
	setb	%cl
	addb	%cl, %cl
	incb	%cl
	movq	%rdx, %r11
	shlq	%cl, %r11
	#APP
	#NO_APP
	xorl	%eax, %eax
	lock		cmpxchgq	%r10, 136(%r9,%r11,8)
	#APP
	#NO_APP
	jne	.LBB28_13
	leal	64(%rdx), %eax
	movq	336(%rsi), %rcx
	movl	%eax, 72(%rsi,%rcx,4)
	incq	%rcx
	movq	%rcx, 336(%rsi)
	movzbl	%dil, %ecx
	movzbl	%r8b, %r8d
	leaq	48(%rsp), %rdi
	jmp	.LBB28_5
.LBB28_4:
	movzbl	429(%rsi), %r8d
	movl	424(%rsi), %edx
	movl	428(%rsi), %ecx
	leaq	48(%rsp), %rdi
.LBB28_5:
	callq	ww_steps__station__Station__look
	movzbl	48(%rsp), %eax
	leaq	.Lswitch.table.ww_go_on_(%rip), %rcx
	movl	(%rcx,%rax,4), %eax
	jmp	.LBB28_84
.LBB28_6:
	movl	424(%rsi), %ebx
	movq	(%rsi), %rax
	movq	8(%rax), %rdx
	movzwl	10(%rsi), %edi
	incq	%rdi
	cmpl	$65, 76(%rax)
	setb	%cl
	addb	%cl, %cl
	incb	%cl
	movq	%rbx, %r8
	shlq	%cl, %r8
	#APP
	#NO_APP
	xorl	%eax, %eax
	lock		cmpxchgq	%rdi, 136(%rdx,%r8,8)
	#APP
	#NO_APP
	jne	.LBB28_13
	leal	64(%rbx), %r11d
	movq	336(%rsi), %rax
	movl	%r11d, 72(%rsi,%rax,4)
	incq	%rax
	movq	%rax, 336(%rsi)
	movq	(%rsi), %r10
	movq	8(%r10), %rax
	cmpl	$65, 76(%r10)
	setb	%cl
	addb	%cl, %cl
	incb	%cl
	movq	%rbx, %rdx
	shlq	%cl, %rdx
	#APP
	#NO_APP
	movq	128(%rax,%rdx,8), %rax
	#APP
	#NO_APP
	movl	%eax, %r12d
	andb	$7, %r12b
	movl	%eax, %r13d
	shrl	$3, %r13d
	cmpb	$5, %r12b
	ja	.LBB28_17
	movl	%eax, %ecx
	andl	$7, %ecx
	movl	$43, %edx
	btl	%ecx, %edx
	jae	.LBB28_17
	xorl	%ecx, %ecx
	andl	$31, %r13d
	setne	%cl
	movl	%r13d, %edx
	subl	%ecx, %edx
	movq	%rax, %r15
	shrq	$8, %r15
	testl	%r13d, %r13d
	movl	%edx, %r13d
	je	.LBB28_14
	cmpw	$16, %r13w
	setb	%cl
	movq	%rax, %rdx
	shrq	$57, %rdx
	sete	%dl
	orb	%cl, %dl
	je	.LBB28_86
	cmpb	$2, %r12b
	jae	.LBB28_18
	jmp	.LBB28_20
.LBB28_13:
	movl	$5, %eax
	jmp	.LBB28_84
.LBB28_14:
	testq	%r15, %r15
	jne	.LBB28_86
	cmpb	$2, %r12b
	jae	.LBB28_86
	movl	%eax, %ecx
	andl	$7, %ecx
	movb	$1, %dl
	movl	%edx, 20(%rsp)
	xorl	%r15d, %r15d
	jmp	.LBB28_24
.LBB28_17:
	andl	$4095, %r13d
	movq	%rax, %r15
	shrq	$15, %r15
	xorb	$7, %r12b
	cmpb	$2, %r12b
	jb	.LBB28_20
.LBB28_18:
	cmpb	$3, %r12b
	je	.LBB28_20
	movzbl	%r12b, %ecx
	cmpl	$5, %ecx
	jne	.LBB28_86
.LBB28_20:
	cmpw	$15, %r13w
	ja	.LBB28_22
	movzbl	%r12b, %ecx
	movswl	%r13w, %edx
	andl	$8191, %edx
	movq	%r15, %rdi
	shlq	$8, %rdi
	orq	%rcx, %rdi
	leaq	(%rdi,%rdx,8), %rcx
	addq	$8, %rcx
	jmp	.LBB28_23
.LBB28_22:
	movl	%r12d, %ecx
	xorb	$7, %cl
	movzbl	%cl, %edx
	movzwl	%r13w, %ecx
	movq	%r15, %rdi
	shlq	$15, %rdi
	leaq	(%rdi,%rcx,8), %rcx
	orq	%rdx, %rcx
.LBB28_23:
	movl	$0, 20(%rsp)
.LBB28_24:
	cmpq	%rax, %rcx
	jne	.LBB28_86
	movq	336(%rsi), %rax
	cmpl	%r11d, 68(%rsi,%rax,4)
	jne	.LBB28_50
.LBB28_26:
	movq	16(%r10), %rax
	movl	%r11d, %r14d
	leaq	(,%r14,8), %rcx
	leaq	(%rcx,%rcx,4), %rbp
	cmpb	$0, (%rax,%rbp)
	jne	.LBB28_86
	movzbl	8(%rax,%rbp), %ecx
	movb	$1, %r9b
	testb	%cl, %cl
	je	.LBB28_31
	cmpq	$0, 32(%rax,%rbp)
	je	.LBB28_31
	movq	16(%rax,%rbp), %rdx
	movzwl	16(%rdx), %r8d
	xorl	%r9d, %r9d
	jmp	.LBB28_32
.LBB28_31:
	xorl	%r8d, %r8d
.LBB28_32:
	movzbl	72(%r10), %edi
	movq	336(%rsi), %rdx
	movl	68(%rsi,%rdx,4), %edx
	cmpl	%edi, %ebx
	jae	.LBB28_39
	cmpl	%r11d, %edx
	jne	.LBB28_51
	shlq	$3, %r14
	leaq	(%r14,%r14,4), %rcx
	cmpb	$0, (%rax,%rcx)
	jne	.LBB28_86
.LBB28_35:
	movb	$1, %dil
	cmpb	$0, 8(%rax,%rcx)
	je	.LBB28_44
	cmpq	$0, 32(%rax,%rcx)
	je	.LBB28_44
	cmpb	$3, %r12b
	jne	.LBB28_46
	xorl	%edi, %edi
	movq	16(%rax,%rcx), %rax
	movzwl	16(%rax), %edx
	movq	24(%rax), %rbp
	movb	$5, %r14b
	jmp	.LBB28_47
.LBB28_39:
	cmpl	%r11d, %edx
	jne	.LBB28_52
	movb	$1, %dil
	testb	%cl, %cl
	je	.LBB28_54
.LBB28_41:
	cmpq	$0, 32(%rax,%rbp)
	je	.LBB28_54
	movl	%r8d, %r14d
	cmpb	$3, %r12b
	jne	.LBB28_45
	xorl	%edi, %edi
	movq	16(%rax,%rbp), %rax
	movzwl	16(%rax), %ecx
	movq	24(%rax), %rdx
	movb	$5, %r8b
	jmp	.LBB28_55
.LBB28_44:
	xorl	%edx, %edx
	xorl	%ebp, %ebp
	xorl	%r14d, %r14d
	jmp	.LBB28_47
.LBB28_45:
	movb	$1, %dil
	xorl	%ecx, %ecx
	xorl	%edx, %edx
	movb	$1, %r8b
	jmp	.LBB28_55
.LBB28_46:
	movb	$1, %dil
	xorl	%edx, %edx
	xorl	%ebp, %ebp
	movb	$1, %r14b
.LBB28_47:
	movq	336(%rsi), %rax
	cmpl	%ebx, 68(%rsi,%rax,4)
	jne	.LBB28_67
	cmpb	$0, 20(%rsp)
	je	.LBB28_68
.LBB28_49:
	movzbl	%r12b, %eax
	jmp	.LBB28_71
.LBB28_50:
	leaq	72(%rsi), %rdi
	movq	%rsi, 24(%rsp)
	movl	%r11d, %esi
	movq	%r10, %rbp
	movl	%r11d, %r14d
	callq	ww_invariant__slots_out__turn_to
	movl	%r14d, %r11d
	movq	%rbp, %r10
	movq	24(%rsp), %rsi
	jmp	.LBB28_26
.LBB28_51:
	leaq	72(%rsi), %rdi
	movq	%rsi, 24(%rsp)
	movl	%r11d, %esi
	movq	%r10, 32(%rsp)
	movl	%r11d, 16(%rsp)
	movl	%r9d, 12(%rsp)
	movl	%r8d, %ebp
	callq	ww_invariant__slots_out__turn_to
	movl	%ebp, %r8d
	movl	12(%rsp), %r9d
	movl	16(%rsp), %r11d
	movq	32(%rsp), %r10
	movq	24(%rsp), %rsi
	movq	16(%r10), %rax
	shlq	$3, %r14
	leaq	(%r14,%r14,4), %rcx
	cmpb	$0, (%rax,%rcx)
	je	.LBB28_35
	jmp	.LBB28_86
.LBB28_52:
	movl	%r8d, 32(%rsp)
	movl	%r9d, 12(%rsp)
	movq	%rsi, 24(%rsp)
	leaq	72(%rsi), %rdi
	movl	%r11d, 16(%rsp)
	movl	%r11d, %esi
	movq	%r10, %r14
	callq	ww_invariant__slots_out__turn_to
	movq	16(%r14), %rax
	cmpb	$0, (%rax,%rbp)
	jne	.LBB28_86
	movq	%r14, %r10
	movzbl	8(%rax,%rbp), %ecx
	movq	24(%rsp), %rsi
	movl	16(%rsp), %r11d
	movl	12(%rsp), %r9d
	movl	32(%rsp), %r8d
	movb	$1, %dil
	testb	%cl, %cl
	jne	.LBB28_41
.LBB28_54:
	movl	%r8d, %r14d
	xorl	%ecx, %ecx
	xorl	%edx, %edx
	xorl	%r8d, %r8d
.LBB28_55:
	cmpb	$0, 20(%rsp)
	je	.LBB28_57
	movzbl	%r12b, %eax
	jmp	.LBB28_61
.LBB28_57:
	movl	%r9d, %ebp
	cmpw	$15, %r13w
	ja	.LBB28_59
	movzbl	%r12b, %eax
	movswl	%r13w, %r9d
	andl	$8191, %r9d
	shlq	$8, %r15
	orq	%rax, %r15
	leaq	(%r15,%r9,8), %rax
	addq	$8, %rax
	jmp	.LBB28_60
.LBB28_59:
	xorb	$7, %r12b
	movzbl	%r12b, %r9d
	movzwl	%r13w, %eax
	shlq	$15, %r15
	leaq	(%r15,%rax,8), %rax
	orq	%r9, %rax
.LBB28_60:
	movl	%ebp, %r9d
.LBB28_61:
	testb	%dil, %dil
	je	.LBB28_63
	movzbl	%r8b, %edx
	jmp	.LBB28_66
.LBB28_63:
	cmpw	$15, %cx
	ja	.LBB28_65
	movzbl	%r8b, %edi
	leal	8(,%rcx,8), %ecx
	movzwl	%cx, %ecx
	shlq	$8, %rdx
	orq	%rdi, %rdx
	orq	%rcx, %rdx
	jmp	.LBB28_66
.LBB28_65:
	xorb	$7, %r8b
	movzbl	%r8b, %edi
	movzwl	%cx, %ecx
	shlq	$15, %rdx
	leaq	(%rdx,%rcx,8), %rdx
	orq	%rdi, %rdx
.LBB28_66:
	cmpl	$65, 76(%r10)
	setb	%cl
	addb	%cl, %cl
	incb	%cl
	movq	%rbx, %rdi
	shlq	%cl, %rdi
	movq	8(%r10), %rcx
	#APP
	#NO_APP
	lock		cmpxchgq	%rdx, 128(%rcx,%rdi,8)
	#APP
	#NO_APP
	movl	%r14d, %r8d
	jmp	.LBB28_78
.LBB28_67:
	movl	%edi, 44(%rsp)
	leaq	72(%rsi), %rdi
	movq	%rsi, 24(%rsp)
	movl	%ebx, %esi
	movq	%r10, 32(%rsp)
	movl	%r11d, 16(%rsp)
	movl	%r9d, 12(%rsp)
	movq	%r14, 72(%rsp)
	movl	%r8d, %r14d
	movq	%rdx, 80(%rsp)
	callq	ww_invariant__slots_out__turn_to
	movl	44(%rsp), %edi
	movq	80(%rsp), %rdx
	movl	%r14d, %r8d
	movq	72(%rsp), %r14
	movl	12(%rsp), %r9d
	movl	16(%rsp), %r11d
	movq	32(%rsp), %r10
	movq	24(%rsp), %rsi
	cmpb	$0, 20(%rsp)
	jne	.LBB28_49
.LBB28_68:
	cmpw	$15, %r13w
	ja	.LBB28_70
	movzbl	%r12b, %eax
	movswl	%r13w, %ecx
	andl	$8191, %ecx
	shlq	$8, %r15
	orq	%rax, %r15
	leaq	(%r15,%rcx,8), %rax
	addq	$8, %rax
	jmp	.LBB28_71
.LBB28_70:
	xorb	$7, %r12b
	movzbl	%r12b, %ecx
	movzwl	%r13w, %eax
	shlq	$15, %r15
	leaq	(%r15,%rax,8), %rax
	orq	%rcx, %rax
.LBB28_71:
	testb	%dil, %dil
	je	.LBB28_73
	movzbl	%r14b, %ebp
	jmp	.LBB28_76
.LBB28_73:
	cmpw	$15, %dx
	ja	.LBB28_75
	movzbl	%r14b, %ecx
	leal	8(,%rdx,8), %edx
	movzwl	%dx, %edx
	shlq	$8, %rbp
	orq	%rcx, %rbp
	orq	%rdx, %rbp
	jmp	.LBB28_76
.LBB28_75:
	xorb	$7, %r14b
	movzbl	%r14b, %ecx
	movzwl	%dx, %edx
	shlq	$15, %rbp
	leaq	(%rbp,%rdx,8), %rbp
	orq	%rcx, %rbp
.LBB28_76:
	cmpl	$65, 76(%r10)
	setb	%cl
	addb	%cl, %cl
	incb	%cl
	movq	%rbx, %rdx
	shlq	%cl, %rdx
	movq	8(%r10), %rcx
	#APP
	#NO_APP
	lock		cmpxchgq	%rbp, 128(%rcx,%rdx,8)
	#APP
	#NO_APP
	movq	336(%rsi), %rax
	testq	%rax, %rax
	je	.LBB28_78
	leaq	-1(%rax), %rcx
	movq	%rcx, 336(%rsi)
	movl	$0, 68(%rsi,%rax,4)
.LBB28_78:
	movq	336(%rsi), %rax
	cmpl	%r11d, 68(%rsi,%rax,4)
	jne	.LBB28_85
.LBB28_79:
	cmpl	$65, 76(%r10)
	setb	%cl
	addb	%cl, %cl
	incb	%cl
	shlq	%cl, %rbx
	movq	8(%r10), %rax
	#APP
	#NO_APP
	xorl	%ecx, %ecx
	xchgq	%rcx, 136(%rax,%rbx,8)
	#APP
	#NO_APP
	movq	336(%rsi), %rax
	testq	%rax, %rax
	je	.LBB28_81
	leaq	-1(%rax), %rcx
	movq	%rcx, 336(%rsi)
	movl	$0, 68(%rsi,%rax,4)
.LBB28_81:
	leaq	420(%rsi), %rax
	cmpw	10(%rsi), %r8w
	sete	%cl
	orb	%cl, %r9b
	jne	.LBB28_83
	movq	440(%rsi), %rdx
	movzwl	%r8w, %ecx
	movl	$1, %edi
	shlq	%cl, %rdi
	shrq	$6, %rcx
	orq	%rdi, (%rdx,%rcx,8)
.LBB28_83:
	decl	400(%rsi)
	movw	$0, 8(%rax)
	movq	$0, (%rax)
	xorl	%eax, %eax
.LBB28_84:
	addq	$88, %rsp
	popq	%rbx
	popq	%r12
	popq	%r13
	popq	%r14
	popq	%r15
	popq	%rbp
	retq
.LBB28_85:
	leaq	72(%rsi), %rdi
	movq	%rsi, %r14
	movl	%r11d, %esi
	movq	%r10, %r15
	movl	%r9d, %ebp
	movl	%r8d, %r12d
	callq	ww_invariant__slots_out__turn_to
	movl	%r12d, %r8d
	movl	%ebp, %r9d
	movq	%r15, %r10
	movq	%r14, %rsi
	jmp	.LBB28_79
.LBB28_86:
	ud2
.Lfunc_end28:
	.size	ww_go_on_, .Lfunc_end28-ww_go_on_
	.section	.rodata.ww_go_on_,"a",@progbits
	.p2align	2, 0x0
.LJTI28_0:
	.long	.LBB28_84-.LJTI28_0
	.long	.LBB28_2-.LJTI28_0
	.long	.LBB28_4-.LJTI28_0
	.long	.LBB28_6-.LJTI28_0

	.section	.text.ww_has_,"ax",@progbits
	.globl	ww_has_
	.p2align	4
	.type	ww_has_,@function
ww_has_:
	movl	$-22, %eax
	cmpl	$0, 8(%rdi)
	je	.LBB29_4
	movq	(%rdi), %rdx
	movl	$-16, %eax
	cmpb	$0, 420(%rdx)
	je	.LBB29_2
.LBB29_4:
	retq
.LBB29_2:
	movl	$-22, %eax
	cmpl	404(%rdx), %esi
	jae	.LBB29_4
	movq	(%rdx), %rdi
	cmpl	$65, 76(%rdi)
	setb	%cl
	movl	%esi, %esi
	addb	%cl, %cl
	incb	%cl
	shlq	%cl, %rsi
	movq	64(%rdx), %rax
	movq	8(%rdi), %rcx
	#APP
	#NO_APP
	movq	128(%rcx,%rsi,8), %rcx
	#APP
	#NO_APP
	movl	%ecx, %edx
	andl	$7, %edx
	leaq	-2(%rdx), %rsi
	shrq	$2, %rcx
	movq	%rcx, %rdi
	orq	$1, %rdi
	andq	$-2, %rcx
	cmpq	$6, %rdx
	cmovaeq	%rdi, %rcx
	testq	$-3, %rsi
	cmoveq	%rdi, %rcx
	movl	%eax, %edx
	andl	$7, %edx
	leaq	-2(%rdx), %rsi
	shrq	$2, %rax
	movq	%rax, %rdi
	orq	$1, %rdi
	andq	$-2, %rax
	cmpq	$6, %rdx
	cmovaeq	%rdi, %rax
	testq	$-3, %rsi
	cmoveq	%rdi, %rax
	xorl	%edx, %edx
	cmpq	%rax, %rcx
	movl	$-22, %eax
	cmovel	%edx, %eax
	retq
.Lfunc_end29:
	.size	ww_has_, .Lfunc_end29-ww_has_

	.section	.text.ww_heed_,"ax",@progbits
	.globl	ww_heed_
	.p2align	4
	.type	ww_heed_,@function
ww_heed_:
	movl	$-22, %eax
	cmpl	$0, 8(%rdi)
	je	.LBB30_5
	movq	$1, 8(%rdi)
	movq	(%rdi), %rcx
	movzbl	420(%rcx), %edx
	movl	$-16, %eax
	leal	-2(%rdx), %esi
	cmpl	$2, %esi
	jb	.LBB30_5
	testl	%edx, %edx
	jne	.LBB30_3
	movl	$-22, %eax
.LBB30_5:
	retq
.LBB30_3:
	movl	$1, 420(%rcx)
	movb	$1, 429(%rcx)
	xorl	%eax, %eax
	retq
.Lfunc_end30:
	.size	ww_heed_, .Lfunc_end30-ww_heed_

	.section	.text.ww_held_,"ax",@progbits
	.globl	ww_held_
	.p2align	4
	.type	ww_held_,@function
ww_held_:
	cmpl	$0, 8(%rdi)
	je	.LBB31_1
	movq	(%rdi), %rax
	movl	400(%rax), %eax
	retq
.LBB31_1:
	xorl	%eax, %eax
	retq
.Lfunc_end31:
	.size	ww_held_, .Lfunc_end31-ww_held_

	.section	.text.ww_idle_,"ax",@progbits
	.globl	ww_idle_
	.p2align	4
	.type	ww_idle_,@function
ww_idle_:
	cmpl	$0, 8(%rdi)
	je	.LBB32_4
	movq	(%rdi), %rcx
	movl	$-16, %eax
	cmpb	$0, 420(%rcx)
	je	.LBB32_2
.LBB32_5:
	retq
.LBB32_2:
	cmpq	$0, 40(%rcx)
	jne	.LBB32_5
	cmpl	$0, 400(%rcx)
	jne	.LBB32_5
.LBB32_4:
	xorl	%eax, %eax
	retq
.Lfunc_end32:
	.size	ww_idle_, .Lfunc_end32-ww_idle_

	.section	.text.ww_is_free_,"ax",@progbits
	.globl	ww_is_free_
	.p2align	4
	.type	ww_is_free_,@function
ww_is_free_:
	movl	$-22, %eax
	cmpl	$0, 8(%rdi)
	je	.LBB33_4
	movq	(%rdi), %rcx
	movl	$-16, %eax
	cmpb	$0, 420(%rcx)
	je	.LBB33_2
.LBB33_4:
	retq
.LBB33_2:
	movl	$-22, %eax
	cmpl	404(%rcx), %esi
	jae	.LBB33_4
	movq	(%rcx), %rax
	movq	8(%rax), %rdx
	cmpl	$65, 76(%rax)
	setb	%cl
	movl	%esi, %eax
	addb	%cl, %cl
	incb	%cl
	shlq	%cl, %rax
	#APP
	#NO_APP
	movq	128(%rdx,%rax,8), %rcx
	#APP
	#NO_APP
	xorl	%eax, %eax
	testq	%rcx, %rcx
	sete	%al
	shll	$4, %eax
	addl	$-16, %eax
	retq
.Lfunc_end33:
	.size	ww_is_free_, .Lfunc_end33-ww_is_free_

	.section	.text.ww_is_wounded_,"ax",@progbits
	.globl	ww_is_wounded_
	.p2align	4
	.type	ww_is_wounded_,@function
ww_is_wounded_:
	cmpl	$0, 8(%rdi)
	je	.LBB34_3
	movq	(%rdi), %rcx
	movzbl	420(%rcx), %eax
	cmpb	$2, %al
	je	.LBB34_6
	cmpl	$0, 400(%rcx)
	je	.LBB34_6
	movq	(%rcx), %rdx
	movq	32(%rcx), %rcx
	movq	8(%rdx), %rdx
	#APP
	#NO_APP
	movq	(%rdx,%rcx,8), %rcx
	#APP
	#NO_APP
	testq	%rcx, %rcx
	setne	%cl
	jmp	.LBB34_7
.LBB34_6:
	xorl	%ecx, %ecx
.LBB34_7:
	testb	%cl, %cl
	movl	$-22, %edx
	movl	$-16, %esi
	cmovnel	%edx, %esi
	cmpb	$2, %al
	movzbl	%cl, %eax
	cmovel	%esi, %eax
	retq
.LBB34_3:
	movl	$-22, %eax
	retq
.Lfunc_end34:
	.size	ww_is_wounded_, .Lfunc_end34-ww_is_wounded_

	.section	.text.ww_lock_,"ax",@progbits
	.globl	ww_lock_
	.p2align	4
	.type	ww_lock_,@function
ww_lock_:
	pushq	%rbx
	cmpl	%esi, 12(%rdi)
	jbe	.LBB35_1
	movq	(%rdi), %r8
	movq	(%r8), %rax
	movq	64(%r8), %r9
	movl	%esi, %r10d
	shlq	$4, %r10
	movq	8(%rax), %r11
	#APP
	#NO_APP
	xorl	%ecx, %ecx
	xorl	%eax, %eax
	lock		cmpxchgq	%r9, 128(%r11,%r10)
	#APP
	#NO_APP
	jne	.LBB35_14
	incl	400(%r8)
	movl	%ecx, %eax
	popq	%rbx
	retq
.LBB35_1:
	cmpl	$4, 8(%rdi)
	jne	.LBB35_11
	movq	(%rdi), %r8
	movl	404(%r8), %r9d
	cmpl	%esi, %r9d
	jbe	.LBB35_19
	movq	(%r8), %rax
	cmpb	$0, 8(%r8)
	je	.LBB35_4
.LBB35_7:
	movq	64(%r8), %r10
	movl	%esi, %r11d
	shlq	$4, %r11
	movq	8(%rax), %rbx
	#APP
	#NO_APP
	xorl	%ecx, %ecx
	xorl	%eax, %eax
	lock		cmpxchgq	%r10, 128(%rbx,%r11)
	#APP
	#NO_APP
	jne	.LBB35_8
	incl	400(%r8)
	movq	$0, 412(%r8)
	movl	%r9d, 12(%rdi)
	movl	$3, 8(%rdi)
	movl	%ecx, %eax
	popq	%rbx
	retq
.LBB35_14:
	movl	%eax, %ecx
	andl	$7, %ecx
	leaq	-2(%rcx), %r10
	shrq	$2, %rax
	movq	%rax, %r11
	orq	$1, %r11
	andq	$-2, %rax
	cmpq	$6, %rcx
	cmovaeq	%r11, %rax
	testq	$-3, %r10
	cmoveq	%r11, %rax
	movl	%r9d, %ecx
	andl	$7, %ecx
	leaq	-2(%rcx), %r10
	shrq	$2, %r9
	movq	%r9, %r11
	orq	$1, %r11
	andq	$-2, %r9
	cmpq	$6, %rcx
	cmovaeq	%r11, %r9
	testq	$-3, %r10
	cmoveq	%r11, %r9
	cmpq	%r9, %rax
	jne	.LBB35_15
	movq	$1, 8(%rdi)
	movl	$-114, %ecx
	movl	%ecx, %eax
	popq	%rbx
	retq
.LBB35_11:
	movzbl	%dl, %edx
	andl	$1, %edx
	popq	%rbx
	jmp	ww_c__exports__lock_alone
.LBB35_15:
	andb	$1, %dl
	movl	$1, 420(%r8)
	movl	%esi, 424(%r8)
	movb	$0, 428(%r8)
	movb	%dl, 429(%r8)
	movq	$1, 8(%rdi)
	movl	$1, %ecx
	movl	%ecx, %eax
	popq	%rbx
	retq
.LBB35_8:
	movl	%eax, %ecx
	andl	$7, %ecx
	leaq	-2(%rcx), %r9
	shrq	$2, %rax
	movq	%rax, %r11
	orq	$1, %r11
	andq	$-2, %rax
	cmpq	$6, %rcx
	cmovaeq	%r11, %rax
	testq	$-3, %r9
	cmoveq	%r11, %rax
	movl	%r10d, %ecx
	andl	$7, %ecx
	leaq	-2(%rcx), %r9
	shrq	$2, %r10
	movq	%r10, %r11
	orq	$1, %r11
	andq	$-2, %r10
	cmpq	$6, %rcx
	cmovaeq	%r11, %r10
	testq	$-3, %r9
	cmoveq	%r11, %r10
	cmpq	%r10, %rax
	jne	.LBB35_9
	movl	$1, 8(%rdi)
	movl	$-114, %ecx
	movl	%ecx, %eax
	popq	%rbx
	retq
.LBB35_4:
	cmpq	$0, 40(%r8)
	je	.LBB35_7
	movq	32(%r8), %rcx
	movq	8(%rax), %r10
	#APP
	#NO_APP
	movq	(%r10,%rcx,8), %rcx
	#APP
	#NO_APP
	testq	%rcx, %rcx
	je	.LBB35_7
	movq	32(%r8), %rcx
	movq	8(%rax), %r10
	#APP
	#NO_APP
	xorl	%r11d, %r11d
	xchgq	%r11, (%r10,%rcx,8)
	#APP
	#NO_APP
	jmp	.LBB35_7
.LBB35_9:
	andb	$1, %dl
	movl	$1, 420(%r8)
	movl	%esi, 424(%r8)
	movb	$0, 428(%r8)
	movb	%dl, 429(%r8)
	movl	$1, 8(%rdi)
	movl	$1, %ecx
	movl	%ecx, %eax
	popq	%rbx
	retq
.LBB35_19:
	movzbl	%dl, %edx
	andl	$1, %edx
	popq	%rbx
	jmp	ww_c__exports__lock_anyhow
.Lfunc_end35:
	.size	ww_lock_, .Lfunc_end35-ww_lock_

	.section	.text.ww_lock_slow_,"ax",@progbits
	.globl	ww_lock_slow_
	.p2align	4
	.type	ww_lock_slow_,@function
ww_lock_slow_:
	pushq	%r15
	pushq	%r14
	pushq	%rbx
	subq	$16, %rsp
	movl	$-22, %ebx
	cmpl	$0, 8(%rdi)
	je	.LBB36_17
	movl	%esi, %eax
	movq	$1, 8(%rdi)
	movq	(%rdi), %r14
	xorps	%xmm0, %xmm0
	movaps	%xmm0, (%rsp)
	cmpb	$0, 420(%r14)
	je	.LBB36_2
.LBB36_5:
	movq	%rdi, %r15
	andb	$1, %dl
	movzbl	%dl, %ecx
	movq	%rsp, %rdi
	movq	%r14, %rsi
	movl	%eax, %edx
	callq	ww_steps__desk__Desk__lock_here
	movzbl	(%rsp), %eax
	leaq	.LJTI36_0(%rip), %rcx
	movslq	(%rcx,%rax,4), %rdx
	addq	%rcx, %rdx
	jmpq	*%rdx
.LBB36_7:
	xorl	%ebx, %ebx
	cmpq	$0, 40(%r14)
	je	.LBB36_17
	cmpq	$0, 432(%r14)
	je	.LBB36_17
	movl	404(%r14), %eax
	movl	%eax, 12(%r15)
	movl	$3, 8(%r15)
	jmp	.LBB36_17
.LBB36_2:
	cmpb	$1, 412(%r14)
	jne	.LBB36_17
	cmpl	%eax, 416(%r14)
	jne	.LBB36_17
	cmpl	$0, 400(%r14)
	jne	.LBB36_17
	jmp	.LBB36_5
.LBB36_10:
	movl	$3, %ebx
	jmp	.LBB36_17
.LBB36_16:
	movl	$-4, %ebx
	jmp	.LBB36_17
.LBB36_6:
	movl	%eax, %ebx
	jmp	.LBB36_17
.LBB36_11:
	movl	$5, %ebx
	jmp	.LBB36_17
.LBB36_14:
	movl	$-28, %ebx
	jmp	.LBB36_17
.LBB36_12:
	movl	$-16, %ebx
	jmp	.LBB36_17
.LBB36_13:
	movl	$-114, %ebx
	jmp	.LBB36_17
.LBB36_15:
	movl	$-35, %ebx
.LBB36_17:
	movl	%ebx, %eax
	addq	$16, %rsp
	popq	%rbx
	popq	%r14
	popq	%r15
	retq
.Lfunc_end36:
	.size	ww_lock_slow_, .Lfunc_end36-ww_lock_slow_
	.section	.rodata.ww_lock_slow_,"a",@progbits
	.p2align	2, 0x0
.LJTI36_0:
	.long	.LBB36_7-.LJTI36_0
	.long	.LBB36_6-.LJTI36_0
	.long	.LBB36_11-.LJTI36_0
	.long	.LBB36_10-.LJTI36_0
	.long	.LBB36_12-.LJTI36_0
	.long	.LBB36_17-.LJTI36_0
	.long	.LBB36_13-.LJTI36_0
	.long	.LBB36_14-.LJTI36_0
	.long	.LBB36_15-.LJTI36_0
	.long	.LBB36_16-.LJTI36_0

	.section	.text.ww_look_,"ax",@progbits
	.globl	ww_look_
	.p2align	4
	.type	ww_look_,@function
ww_look_:
	movl	$-22, %eax
	cmpl	$0, 8(%rdi)
	je	.LBB37_26
	movq	(%rdi), %rdx
	movl	$-16, %eax
	cmpb	$2, 420(%rdx)
	je	.LBB37_26
	movl	$-22, %eax
	cmpl	404(%rdx), %esi
	jae	.LBB37_26
	movq	(%rdx), %rax
	movq	8(%rax), %rdi
	cmpl	$65, 76(%rax)
	setb	%cl
	movl	%esi, %eax
	addb	%cl, %cl
	incb	%cl
	shlq	%cl, %rax
	#APP
	#NO_APP
	movq	128(%rdi,%rax,8), %rcx
	#APP
	#NO_APP
	movl	%ecx, %edi
	andb	$7, %dil
	movl	%ecx, %r8d
	shrl	$3, %r8d
	cmpb	$5, %dil
	ja	.LBB37_5
	movl	%ecx, %eax
	andl	$7, %eax
	movl	$43, %esi
	btl	%eax, %esi
	jae	.LBB37_5
	xorl	%eax, %eax
	andl	$31, %r8d
	setne	%r9b
	movq	%rcx, %rsi
	shrq	$8, %rsi
	testl	%r8d, %r8d
	je	.LBB37_13
	movb	%r9b, %al
	subl	%eax, %r8d
	cmpw	$16, %r8w
	setb	%al
	movq	%rcx, %r9
	shrq	$57, %r9
	sete	%r9b
	orb	%al, %r9b
	je	.LBB37_27
	cmpb	$2, %dil
	jae	.LBB37_9
	jmp	.LBB37_11
.LBB37_13:
	testq	%rsi, %rsi
	jne	.LBB37_27
	cmpb	$1, %dil
	ja	.LBB37_27
	cmpq	$8, %rcx
	jae	.LBB37_27
	xorl	%eax, %eax
	testb	%dil, %dil
	setne	%al
	shll	$15, %eax
	retq
.LBB37_5:
	andl	$4095, %r8d
	movq	%rcx, %rsi
	shrq	$15, %rsi
	xorb	$7, %dil
	cmpb	$2, %dil
	jb	.LBB37_11
.LBB37_9:
	cmpb	$5, %dil
	je	.LBB37_11
	movzbl	%dil, %eax
	cmpl	$3, %eax
	jne	.LBB37_27
.LBB37_11:
	movzwl	%r8w, %eax
	cmpw	$15, %r8w
	ja	.LBB37_17
	movzbl	%dil, %edi
	movswl	%r8w, %r8d
	andl	$8191, %r8d
	movq	%rsi, %r9
	shlq	$8, %r9
	orq	%rdi, %r9
	leaq	(%r9,%r8,8), %rdi
	addq	$8, %rdi
	jmp	.LBB37_18
.LBB37_17:
	xorb	$7, %dil
	movzbl	%dil, %r8d
	movq	%rsi, %rdi
	shlq	$15, %rdi
	leaq	(%rdi,%rax,8), %rdi
	orq	%r8, %rdi
.LBB37_18:
	cmpq	%rcx, %rdi
	jne	.LBB37_27
	testq	%rsi, %rsi
	je	.LBB37_23
	movq	40(%rdx), %rcx
	testq	%rcx, %rcx
	je	.LBB37_23
	cmpq	%rcx, %rsi
	jae	.LBB37_22
	addl	$8193, %eax
	retq
.LBB37_22:
	jbe	.LBB37_23
	addl	$16385, %eax
.LBB37_26:
	retq
.LBB37_23:
	incl	%eax
	retq
.LBB37_27:
	ud2
.Lfunc_end37:
	.size	ww_look_, .Lfunc_end37-ww_look_

	.section	.text.ww_next_wake_,"ax",@progbits
	.globl	ww_next_wake_
	.p2align	4
	.type	ww_next_wake_,@function
ww_next_wake_:
	movl	$-22, %eax
	cmpl	$0, 8(%rdi)
	je	.LBB38_7
	movq	$1, 8(%rdi)
	movq	(%rdi), %rcx
	cmpb	$2, 420(%rcx)
	je	.LBB38_7
	movq	448(%rcx), %rsi
	testq	%rsi, %rsi
	je	.LBB38_7
	movq	440(%rcx), %rdx
	xorl	%ecx, %ecx
	xorl	%edi, %edi
	.p2align	4
.LBB38_4:
	movq	(%rdx,%rdi,8), %r8
	testq	%r8, %r8
	jne	.LBB38_6
	incq	%rdi
	addl	$64, %ecx
	cmpq	%rdi, %rsi
	jne	.LBB38_4
.LBB38_7:
	retq
.LBB38_6:
	rep		bsfq	%r8, %rax
	btrq	%rax, %r8
	movq	%r8, (%rdx,%rdi,8)
	andl	$65472, %ecx
	orl	%eax, %ecx
	movl	%ecx, %eax
	retq
.Lfunc_end38:
	.size	ww_next_wake_, .Lfunc_end38-ww_next_wake_

	.section	.text.ww_open_seat_,"ax",@progbits
	.globl	ww_open_seat_
	.p2align	4
	.type	ww_open_seat_,@function
ww_open_seat_:
	pushq	%rbp
	pushq	%r15
	pushq	%r14
	pushq	%r13
	pushq	%r12
	pushq	%rbx
	subq	$1512, %rsp
	movl	$-22, %eax
	cmpl	$0, 8(%rdx)
	je	.LBB39_1
.LBB39_37:
	addq	$1512, %rsp
	popq	%rbx
	popq	%r12
	popq	%r13
	popq	%r14
	popq	%r15
	popq	%rbp
	retq
.LBB39_1:
	cmpl	$0, 8(%rdi)
	je	.LBB39_37
	movq	(%rdi), %rbp
	xorps	%xmm0, %xmm0
	movups	%xmm0, (%rdi)
	movaps	%xmm0, 160(%rsp)
	movaps	%xmm0, 176(%rsp)
	movaps	%xmm0, 192(%rsp)
	movaps	%xmm0, 208(%rsp)
	movzwl	%si, %r13d
	cmpq	%r13, 32(%rbp)
	jbe	.LBB39_3
	movq	24(%rbp), %rax
	cmpb	$1, (%rax,%r13,4)
	jne	.LBB39_36
	movq	%rdx, 24(%rsp)
	movq	%rdi, 88(%rsp)
	leaq	160(%rsp), %rdi
	movq	%rbp, %rsi
	callq	ww_steps__opening__means_at
	cmpb	$0, 160(%rsp)
	je	.LBB39_6
.LBB39_28:
	movq	88(%rsp), %rax
	movq	%rbp, (%rax)
	movq	$1, 8(%rax)
	movl	$-12, %eax
	jmp	.LBB39_37
.LBB39_3:
	movq	%rbp, (%rdi)
	movq	$1, 8(%rdi)
	jmp	.LBB39_37
.LBB39_36:
	movq	%rbp, (%rdi)
	movq	$1, 8(%rdi)
	movl	$-114, %eax
	jmp	.LBB39_37
.LBB39_6:
	movq	168(%rsp), %rax
	movq	%rax, 32(%rsp)
	movq	176(%rsp), %rax
	movq	%rax, 40(%rsp)
	movq	192(%rsp), %r15
	movups	184(%rsp), %xmm0
	movaps	%xmm0, 112(%rsp)
	movq	200(%rsp), %rax
	movq	%rax, 72(%rsp)
	movq	216(%rsp), %rax
	movq	%rax, 64(%rsp)
	movaps	208(%rsp), %xmm0
	movaps	%xmm0, 96(%rsp)
	leaq	48(%rbp), %r12
	movzbl	48(%rbp), %ebx
	movq	56(%rbp), %r14
	leaq	64(%rbp), %rsi
	leaq	232(%rsp), %rdi
	movl	$456, %edx
	movq	%rsi, 8(%rsp)
	callq	memcpy@PLT
	movl	$472, %edx
	movq	%r12, %rdi
	xorl	%esi, %esi
	callq	memset@PLT
	cmpb	$1, %bl
	jne	.LBB39_38
	movl	$464, %edi
	movl	$8, %esi
	callq	rattle_alloc@PLT
	testb	$1, %al
	movq	%rbp, 80(%rsp)
	je	.LBB39_8
	movq	%rdx, %r12
	movq	%r14, (%rdx)
	leaq	8(%rdx), %rdi
	leaq	232(%rsp), %rsi
	movl	$456, %edx
	callq	memcpy@PLT
	movq	24(%rbp), %rcx
	movzbl	(%rcx,%r13,4), %edx
	movzwl	2(%rcx,%r13,4), %eax
	movw	$0, (%rcx,%r13,4)
	movw	$0, 2(%rcx,%r13,4)
	cmpb	$1, %dl
	jne	.LBB39_38
	leaq	56(%rbp), %rcx
	movq	%rcx, 64(%rsp)
	movzwl	%ax, %r13d
	movzwl	32(%rbp), %eax
	movw	%ax, 4(%rsp)
	movzbl	8(%rbp), %eax
	movb	%al, 7(%rsp)
	movq	32(%rsp), %r8
	movl	76(%r8), %eax
	cmpq	$65, %rax
	movq	%rax, %rdi
	movq	%rax, 136(%rsp)
	setb	%cl
	leal	(,%r13,8), %eax
	leaq	7(%rax), %rdx
	cmpw	$16, %r13w
	leaq	8(,%r13,8), %r14
	movl	$256, %esi
	movl	$32768, %r9d
	cmovbq	%rsi, %r9
	movq	%r9, 152(%rsp)
	cmovaeq	%rdx, %r14
	movl	12(%rbp), %edx
	movl	%edx, 56(%rsp)
	addb	%cl, %cl
	incb	%cl
	movq	%rdi, %rdx
	shlq	%cl, %rdx
	movq	16(%rbp), %rcx
	movq	%rcx, 48(%rsp)
	movzwl	80(%r8), %ebx
	addq	%rdx, %rax
	addq	$16, %rax
	movq	%rax, 144(%rsp)
	cmpw	$17, %bx
	movabsq	$562949953421311, %rax
	movabsq	$72057594037927935, %r15
	cmovaeq	%rax, %r15
	leaq	1048(%rsp), %rdi
	movl	$464, %edx
	movq	%r12, %rsi
	callq	memcpy@PLT
	movq	32(%rsp), %rax
	movq	%rax, (%r12)
	movzbl	7(%rsp), %eax
	movb	%al, 8(%r12)
	movb	$0, 9(%r12)
	movw	%r13w, 10(%r12)
	movq	136(%rsp), %rax
	movl	%eax, 12(%r12)
	movw	%bx, 16(%r12)
	movl	$0, 18(%r12)
	movw	$0, 22(%r12)
	movq	%r15, 24(%r12)
	movq	144(%rsp), %rax
	movq	%rax, 32(%r12)
	movq	$0, 40(%r12)
	movq	%r14, 48(%r12)
	movq	152(%rsp), %rax
	movq	%rax, 56(%r12)
	movq	%r14, 64(%r12)
	leaq	72(%r12), %rdi
	movl	$272, %edx
	xorl	%esi, %esi
	callq	memset@PLT
	leaq	16(%rsp), %rax
	movq	%rax, 344(%r12)
	xorps	%xmm0, %xmm0
	movups	%xmm0, 352(%r12)
	movq	$1, 368(%r12)
	movq	40(%rsp), %rax
	movq	%rax, 376(%r12)
	movaps	112(%rsp), %xmm1
	movups	%xmm1, 384(%r12)
	movl	$0, 400(%r12)
	movl	56(%rsp), %eax
	movl	%eax, 404(%r12)
	movw	$0, 408(%r12)
	movzwl	4(%rsp), %eax
	movw	%ax, 410(%r12)
	movups	%xmm0, 412(%r12)
	movl	$0, 428(%r12)
	movq	48(%rsp), %rax
	movq	%rax, 432(%r12)
	movq	72(%rsp), %rax
	movq	%rax, 440(%r12)
	movaps	96(%rsp), %xmm0
	movups	%xmm0, 448(%r12)
	movzbl	48(%rbp), %r14d
	movq	56(%rbp), %r15
	leaq	688(%rsp), %rdi
	movl	$360, %edx
	movq	8(%rsp), %rsi
	callq	memcpy@PLT
	movzbl	424(%rbp), %ebx
	movq	432(%rbp), %rax
	movq	%rax, 32(%rsp)
	movq	448(%rbp), %r13
	movq	496(%rbp), %rax
	movq	%rax, 8(%rsp)
	movq	512(%rbp), %rax
	movq	%rax, 40(%rsp)
	movq	$1, 48(%rbp)
	movl	$464, %edx
	movq	64(%rsp), %rdi
	leaq	1048(%rsp), %rsi
	callq	memcpy@PLT
	cmpb	$1, %r14b
	jne	.LBB39_35
	movq	%r15, %rdi
	callq	std_alloc__arc__Arc__drop____7adbd3708cb715cb_
	leaq	1024(%rsp), %rdi
	callq	std_alloc__vec__Vec__drop____3b954727b9020b61_
	cmpb	$1, %bl
	setne	%al
	testq	%r13, %r13
	sete	%cl
	orb	%al, %cl
	movq	32(%rsp), %rdi
	jne	.LBB39_33
.LBB39_32:
	movq	(%rdi), %rbx
	callq	rattle_dealloc@PLT
	movq	%rbx, %rdi
	decq	%r13
	jne	.LBB39_32
.LBB39_33:
	cmpq	$0, 40(%rsp)
	je	.LBB39_35
	movq	8(%rsp), %rdi
	callq	rattle_dealloc@PLT
.LBB39_35:
	movq	88(%rsp), %rax
	movq	80(%rsp), %rcx
	movq	%rcx, (%rax)
	movq	$1, 8(%rax)
	movq	24(%rsp), %rax
	movq	%r12, (%rax)
	movq	$1, 8(%rax)
	xorl	%eax, %eax
	jmp	.LBB39_37
.LBB39_8:
	movzbl	48(%rbp), %ebx
	movq	56(%rbp), %rax
	movq	%rax, 24(%rsp)
	movq	400(%rbp), %rax
	movq	%rax, 96(%rsp)
	movq	408(%rbp), %r13
	movq	416(%rbp), %rax
	movq	%rax, 56(%rsp)
	movzbl	424(%rbp), %eax
	movb	%al, 4(%rsp)
	movq	%rbp, %rax
	movq	432(%rbp), %rbp
	movq	448(%rax), %r12
	movq	496(%rax), %rcx
	movq	%rcx, 48(%rsp)
	movq	512(%rax), %rcx
	movq	%rcx, 112(%rsp)
	movq	$1, 48(%rax)
	movq	%r14, 56(%rax)
	leaq	232(%rsp), %rsi
	movl	$456, %edx
	movq	8(%rsp), %rdi
	callq	memcpy@PLT
	cmpb	$1, %bl
	jne	.LBB39_24
	movq	24(%rsp), %rdi
	callq	std_alloc__arc__Arc__drop____7adbd3708cb715cb_
	testq	%r13, %r13
	je	.LBB39_18
	movq	96(%rsp), %rax
	leaq	88(%rax), %r14
	jmp	.LBB39_11
.LBB39_17:
	addq	$96, %r14
	decq	%r13
	je	.LBB39_18
.LBB39_11:
	movzbl	-56(%r14), %ecx
	movzbl	-24(%r14), %ebx
	movq	-16(%r14), %rdi
	movq	(%r14), %rsi
	leal	-2(%rcx), %eax
	cmpl	$5, %eax
	jb	.LBB39_14
	movq	-48(%r14), %rax
	movq	-32(%r14), %rdx
	cmpl	$1, %ecx
	testq	%rdx, %rdx
	je	.LBB39_14
	movq	%rdi, 24(%rsp)
	movq	%rax, %rdi
	movq	%rsi, 8(%rsp)
	callq	rattle_dealloc@PLT
	movq	8(%rsp), %rsi
	movq	24(%rsp), %rdi
.LBB39_14:
	testb	%bl, %bl
	jne	.LBB39_17
	testq	%rsi, %rsi
	je	.LBB39_17
	callq	rattle_dealloc@PLT
	jmp	.LBB39_17
.LBB39_18:
	cmpq	$0, 56(%rsp)
	je	.LBB39_20
	movq	96(%rsp), %rdi
	callq	rattle_dealloc@PLT
.LBB39_20:
	cmpb	$1, 4(%rsp)
	setne	%al
	testq	%r12, %r12
	sete	%cl
	orb	%al, %cl
	jne	.LBB39_22
.LBB39_21:
	movq	(%rbp), %rbx
	movq	%rbp, %rdi
	callq	rattle_dealloc@PLT
	movq	%rbx, %rbp
	decq	%r12
	jne	.LBB39_21
.LBB39_22:
	cmpq	$0, 112(%rsp)
	je	.LBB39_24
	movq	48(%rsp), %rdi
	callq	rattle_dealloc@PLT
.LBB39_24:
	movq	32(%rsp), %rdi
	callq	std_alloc__arc__Arc__drop____7adbd3708cb715cb_
	testq	%r15, %r15
	movq	40(%rsp), %rdi
	je	.LBB39_26
	.p2align	4
.LBB39_25:
	movq	(%rdi), %rbx
	callq	rattle_dealloc@PLT
	movq	%rbx, %rdi
	decq	%r15
	jne	.LBB39_25
.LBB39_26:
	cmpq	$0, 64(%rsp)
	movq	80(%rsp), %rbp
	je	.LBB39_28
	movq	72(%rsp), %rdi
	callq	rattle_dealloc@PLT
	jmp	.LBB39_28
.LBB39_38:
	ud2
.Lfunc_end39:
	.size	ww_open_seat_, .Lfunc_end39-ww_open_seat_

	.section	.text.ww_open_world_,"ax",@progbits
	.globl	ww_open_world_
	.p2align	4
	.type	ww_open_world_,@function
ww_open_world_:
	pushq	%rbp
	pushq	%r15
	pushq	%r14
	pushq	%r13
	pushq	%r12
	pushq	%rbx
	subq	$1864, %rsp
	movq	%r8, %rbx
	movl	%ecx, %r13d
	movq	%rdx, %r15
	movl	%esi, %r14d
	movl	%edi, %ebp
	movw	$0, 12(%rsp)
	movb	$0, 14(%rsp)
	movl	$0, 80(%rsp)
	movw	$0, 84(%rsp)
	leaq	776(%rsp), %rdi
	xorl	%r12d, %r12d
	movl	$272, %edx
	xorl	%esi, %esi
	callq	memset@PLT
	xorps	%xmm0, %xmm0
	movaps	%xmm0, 416(%rsp)
	movups	%xmm0, 428(%rsp)
	movl	$-22, %eax
	testl	%ebp, %ebp
	je	.LBB40_3
	cmpl	$1, %ebp
	jne	.LBB40_83
	movb	$1, %r12b
.LBB40_3:
	cmpl	$0, 8(%rbx)
	jne	.LBB40_83
	movq	%rbx, 400(%rsp)
	movw	$0, 20(%rsp)
	movb	$0, 22(%rsp)
	movl	$0, 96(%rsp)
	movw	$0, 100(%rsp)
	leaq	1592(%rsp), %rdi
	xorl	%ebx, %ebx
	movl	$272, %edx
	xorl	%esi, %esi
	callq	memset@PLT
	xorps	%xmm0, %xmm0
	movaps	%xmm0, 480(%rsp)
	movups	%xmm0, 492(%rsp)
	movw	$0, 16(%rsp)
	movb	$0, 18(%rsp)
	movl	$0, 88(%rsp)
	movw	$0, 92(%rsp)
	leaq	1320(%rsp), %rdi
	movl	$272, %edx
	xorl	%esi, %esi
	callq	memset@PLT
	xorps	%xmm0, %xmm0
	movaps	%xmm0, 448(%rsp)
	movups	%xmm0, 460(%rsp)
	leal	-16777217(%r14), %eax
	cmpl	$-16777216, %eax
	jb	.LBB40_82
	leal	-4096(%r13), %eax
	movzwl	%ax, %eax
	movb	$1, %bl
	cmpl	$61441, %eax
	jb	.LBB40_82
	movq	%r15, %rax
	shrq	$52, %rax
	movb	$2, %bl
	jne	.LBB40_82
	movl	$0, 104(%rsp)
	movw	$0, 108(%rsp)
	leaq	1048(%rsp), %rdi
	movl	$272, %edx
	xorl	%esi, %esi
	callq	memset@PLT
	xorps	%xmm0, %xmm0
	movaps	%xmm0, 512(%rsp)
	movups	%xmm0, 524(%rsp)
	movaps	%xmm0, 736(%rsp)
	movaps	%xmm0, 624(%rsp)
	movaps	%xmm0, 640(%rsp)
	movaps	%xmm0, 656(%rsp)
	movaps	%xmm0, 672(%rsp)
	movaps	%xmm0, 688(%rsp)
	movaps	%xmm0, 704(%rsp)
	movaps	%xmm0, 720(%rsp)
	movw	$0, 52(%rsp)
	movb	$0, 54(%rsp)
	movaps	%xmm0, 272(%rsp)
	movaps	%xmm0, 288(%rsp)
	movaps	%xmm0, 304(%rsp)
	movaps	%xmm0, 320(%rsp)
	movaps	%xmm0, 336(%rsp)
	movaps	%xmm0, 352(%rsp)
	movaps	%xmm0, 368(%rsp)
	movaps	%xmm0, 544(%rsp)
	movaps	%xmm0, 560(%rsp)
	movaps	%xmm0, 576(%rsp)
	movaps	%xmm0, 592(%rsp)
	leaq	272(%rsp), %rdi
	movl	$65, %esi
	movl	$1, %edx
	callq	ww_table__board__Board__make_bare
	cmpb	$0, 272(%rsp)
	jne	.LBB40_71
	movq	368(%rsp), %rax
	testq	%rax, %rax
	je	.LBB40_84
	movq	288(%rsp), %rbx
	movups	280(%rsp), %xmm0
	movaps	%xmm0, 176(%rsp)
	movq	304(%rsp), %rbp
	movups	296(%rsp), %xmm0
	movaps	%xmm0, 128(%rsp)
	movq	312(%rsp), %rcx
	movq	%rcx, 32(%rsp)
	movq	320(%rsp), %rcx
	movq	%rcx, 256(%rsp)
	movq	328(%rsp), %rcx
	movq	%rcx, 56(%rsp)
	movq	360(%rsp), %rcx
	movq	376(%rsp), %rdx
	movq	%rdx, 40(%rsp)
	movq	%rcx, 24(%rsp)
	movzwl	-2(%rcx,%rax,2), %eax
	movq	%rax, 200(%rsp)
	movl	$88, %edi
	movl	$8, %esi
	callq	rattle_alloc@PLT
	testb	$1, %al
	je	.LBB40_16
	leaq	336(%rsp), %rax
	movq	$1, (%rdx)
	movaps	176(%rsp), %xmm0
	movups	%xmm0, 8(%rdx)
	movaps	128(%rsp), %xmm0
	movups	%xmm0, 24(%rdx)
	movq	32(%rsp), %rcx
	movq	%rcx, 40(%rdx)
	movq	256(%rsp), %rcx
	movq	%rcx, 48(%rdx)
	movq	56(%rsp), %rcx
	movq	%rcx, 56(%rdx)
	movups	(%rax), %xmm0
	movups	%xmm0, 64(%rdx)
	movq	16(%rax), %rax
	movq	%rax, 80(%rdx)
	movq	%rdx, %rbp
	movq	%rdx, 408(%rsp)
	leaq	544(%rsp), %rdi
	leaq	408(%rsp), %rsi
	callq	ww_steps__opening__means_at
	cmpb	$0, 544(%rsp)
	je	.LBB40_11
	movq	%rbp, %rdi
	callq	std_alloc__arc__Arc__drop____7adbd3708cb715cb_
	jmp	.LBB40_25
.LBB40_16:
	movq	32(%rsp), %r13
	testq	%rbp, %rbp
	je	.LBB40_24
	xorl	%r14d, %r14d
	jmp	.LBB40_18
.LBB40_23:
	incq	%r14
	cmpq	%rbp, %r14
	je	.LBB40_24
.LBB40_18:
	leaq	(,%r14,8), %rax
	leaq	(%rax,%rax,4), %rax
	cmpb	$0, (%rbx,%rax)
	jne	.LBB40_23
	cmpb	$0, 8(%rbx,%rax)
	je	.LBB40_23
	movq	32(%rbx,%rax), %r15
	testq	%r15, %r15
	je	.LBB40_23
	movq	16(%rbx,%rax), %rdi
	.p2align	4
.LBB40_22:
	movq	(%rdi), %r12
	callq	rattle_dealloc@PLT
	movq	%r12, %rdi
	decq	%r15
	jne	.LBB40_22
	jmp	.LBB40_23
.LBB40_24:
	movq	%r13, %rdi
	callq	rattle_dealloc@PLT
	movq	56(%rsp), %rdi
	callq	rattle_dealloc@PLT
.LBB40_25:
	cmpq	$0, 40(%rsp)
	je	.LBB40_71
	movq	24(%rsp), %rdi
.LBB40_70:
	callq	rattle_dealloc@PLT
.LBB40_71:
	xorps	%xmm0, %xmm0
	movaps	%xmm0, 256(%rsp)
	movb	$3, %bl
	movb	$1, %al
	movl	%eax, 64(%rsp)
	xorl	%r14d, %r14d
	movq	$0, 24(%rsp)
	xorl	%r12d, %r12d
	movl	$0, 76(%rsp)
	xorl	%r15d, %r15d
	movq	$0, 128(%rsp)
	movq	$0, 208(%rsp)
	movq	$0, 32(%rsp)
	movq	$0, 56(%rsp)
	movq	$0, 200(%rsp)
	movq	$0, 248(%rsp)
	movq	$0, 240(%rsp)
	movq	$0, 216(%rsp)
	movaps	%xmm0, 608(%rsp)
	movb	$1, 112(%rsp)
	movq	$0, 168(%rsp)
	movq	$0, 232(%rsp)
	movq	$0, 224(%rsp)
	movq	$0, 152(%rsp)
	xorl	%r13d, %r13d
	movq	$0, 40(%rsp)
	xorl	%ebp, %ebp
	movl	$0, 120(%rsp)
	movq	$0, 160(%rsp)
	movq	$0, 176(%rsp)
.LBB40_73:
	movzbl	18(%rsp), %eax
	movb	%al, 14(%rsp)
	movzwl	16(%rsp), %eax
	movw	%ax, 12(%rsp)
	movl	88(%rsp), %eax
	movl	%eax, 80(%rsp)
	movzwl	92(%rsp), %eax
	movw	%ax, 84(%rsp)
	leaq	776(%rsp), %rdi
	leaq	1320(%rsp), %rsi
	movl	$272, %edx
	callq	memcpy@PLT
	movaps	448(%rsp), %xmm0
	movaps	%xmm0, 416(%rsp)
	movups	460(%rsp), %xmm0
	movups	%xmm0, 428(%rsp)
	testb	%r14b, %r14b
	je	.LBB40_82
	movl	$520, %edi
	movl	$8, %esi
	callq	rattle_alloc@PLT
	testb	$1, %al
	je	.LBB40_76
	movq	%rdx, %rdi
	movq	%rdx, %rbx
	movq	24(%rsp), %rax
	movq	%rax, (%rdi)
	movb	%r12b, 8(%rdi)
	movzwl	12(%rsp), %eax
	movw	%ax, 9(%rdi)
	movzbl	14(%rsp), %eax
	movb	%al, 11(%rdi)
	movl	76(%rsp), %eax
	movl	%eax, 12(%rdi)
	movq	%r15, 16(%rdi)
	movq	128(%rsp), %rax
	movq	%rax, 24(%rdi)
	movq	208(%rsp), %rax
	movq	%rax, 32(%rdi)
	movq	32(%rsp), %rax
	movq	%rax, 40(%rdi)
	movzbl	%r13b, %r14d
	movq	%r14, 48(%rdi)
	movq	56(%rsp), %rax
	movq	%rax, 56(%rdi)
	movb	%r12b, 64(%rdi)
	movb	$0, 65(%rdi)
	movq	200(%rsp), %rax
	movw	%ax, 66(%rdi)
	movq	248(%rsp), %rax
	movl	%eax, 68(%rdi)
	movq	240(%rsp), %rax
	movw	%ax, 72(%rdi)
	movl	80(%rsp), %eax
	movl	%eax, 74(%rdi)
	movzwl	84(%rsp), %eax
	movw	%ax, 78(%rdi)
	movq	216(%rsp), %rax
	movq	%rax, 80(%rdi)
	movq	168(%rsp), %rax
	movq	%rax, 88(%rdi)
	movq	$0, 96(%rdi)
	movq	232(%rsp), %rax
	movq	%rax, 104(%rdi)
	movq	224(%rsp), %rcx
	movq	%rcx, 112(%rdi)
	movq	%rax, 120(%rdi)
	subq	$-128, %rdi
	leaq	776(%rsp), %rsi
	movl	$272, %edx
	callq	memcpy@PLT
	movq	152(%rsp), %rax
	movq	%rax, 400(%rbx)
	xorps	%xmm0, %xmm0
	movups	%xmm0, 408(%rbx)
	movb	%r14b, 424(%rbx)
	movb	$0, 431(%rbx)
	movw	$0, 429(%rbx)
	movl	$0, 425(%rbx)
	movq	40(%rsp), %rax
	movq	%rax, 432(%rbx)
	movaps	256(%rsp), %xmm0
	movups	%xmm0, 440(%rbx)
	movl	$0, 456(%rbx)
	movl	120(%rsp), %eax
	movl	%eax, 460(%rbx)
	movw	$0, 464(%rbx)
	movq	160(%rsp), %rax
	movw	%ax, 466(%rbx)
	movaps	416(%rsp), %xmm0
	movups	%xmm0, 468(%rbx)
	movups	428(%rsp), %xmm0
	movups	%xmm0, 480(%rbx)
	movq	176(%rsp), %rax
	movq	%rax, 496(%rbx)
	movaps	608(%rsp), %xmm0
	movups	%xmm0, 504(%rbx)
	movq	400(%rsp), %rax
	movq	%rbx, (%rax)
	movq	$1, 8(%rax)
	xorl	%eax, %eax
	jmp	.LBB40_83
.LBB40_82:
	cmpb	$3, %bl
	movl	$-12, %ecx
	movl	$-22, %eax
	cmovel	%ecx, %eax
.LBB40_83:
	addq	$1864, %rsp
	popq	%rbx
	popq	%r12
	popq	%r13
	popq	%r14
	popq	%r15
	popq	%rbp
	retq
.LBB40_76:
	movq	24(%rsp), %rdi
	callq	std_alloc__arc__Arc__drop____93a448bb48b6d052_
	cmpq	$0, 32(%rsp)
	je	.LBB40_78
	movq	128(%rsp), %rdi
	callq	rattle_dealloc@PLT
.LBB40_78:
	movq	56(%rsp), %rdi
	callq	std_alloc__arc__Arc__drop____93a448bb48b6d052_
	testq	%rbp, %rbp
	sete	%al
	movl	64(%rsp), %ecx
	orb	%al, %cl
	movq	40(%rsp), %rdi
	jne	.LBB40_80
.LBB40_79:
	movq	(%rdi), %rbx
	callq	rattle_dealloc@PLT
	movq	%rbx, %rdi
	decq	%rbp
	jne	.LBB40_79
.LBB40_80:
	movl	$-12, %eax
	cmpb	$0, 112(%rsp)
	jne	.LBB40_83
	movq	176(%rsp), %rdi
	callq	rattle_dealloc@PLT
	movl	$-12, %eax
	jmp	.LBB40_83
.LBB40_11:
	movzwl	200(%rsp), %eax
	movq	552(%rsp), %rbx
	movl	76(%rbx), %esi
	cmpq	$65, %rsi
	setb	%cl
	movzwl	80(%rbx), %edi
	leal	(,%rax,8), %edx
	movq	%rdx, 168(%rsp)
	addq	$7, %rdx
	cmpw	$16, %ax
	leaq	8(,%rax,8), %r8
	movl	$256, %eax
	movl	$32768, %r9d
	cmovbq	%rax, %r9
	movq	%r9, 224(%rsp)
	cmovaeq	%rdx, %r8
	movq	%r8, 232(%rsp)
	addb	%cl, %cl
	incb	%cl
	movq	%rsi, 248(%rsp)
	shlq	%cl, %rsi
	movq	%rsi, 160(%rsp)
	movq	%rdi, 240(%rsp)
	cmpw	$17, %di
	movabsq	$562949953421311, %rax
	movabsq	$72057594037927935, %rcx
	cmovaeq	%rax, %rcx
	movq	%rcx, 216(%rsp)
	movq	%rbp, %rdi
	callq	std_alloc__arc__Arc__drop____7adbd3708cb715cb_
	cmpq	$0, 40(%rsp)
	je	.LBB40_13
	movq	24(%rsp), %rdi
	callq	rattle_dealloc@PLT
.LBB40_13:
	movq	560(%rsp), %rax
	movq	%rax, 40(%rsp)
	movq	576(%rsp), %rbp
	movups	568(%rsp), %xmm0
	movaps	%xmm0, 256(%rsp)
	movq	584(%rsp), %rax
	movq	%rax, 176(%rsp)
	movq	600(%rsp), %rax
	movq	%rax, 64(%rsp)
	movaps	592(%rsp), %xmm0
	movaps	%xmm0, 608(%rsp)
	movl	$0, 104(%rsp)
	movw	$0, 108(%rsp)
	leaq	1048(%rsp), %rdi
	movl	$272, %edx
	xorl	%esi, %esi
	callq	memset@PLT
	xorps	%xmm0, %xmm0
	movaps	%xmm0, 512(%rsp)
	movups	%xmm0, 524(%rsp)
	cmpl	$66, %r14d
	movl	$65, %eax
	cmovael	%r14d, %eax
	movl	%eax, %r14d
	leaq	624(%rsp), %rdi
	movl	%eax, %esi
	movl	%r13d, %edx
	callq	ww_table__board__Board__make_bare
	cmpb	$0, 624(%rsp)
	je	.LBB40_14
	movq	%rbx, %rdi
	callq	std_alloc__arc__Arc__drop____7adbd3708cb715cb_
	testq	%rbp, %rbp
	movq	40(%rsp), %rdi
	je	.LBB40_68
.LBB40_67:
	movq	(%rdi), %rbx
	callq	rattle_dealloc@PLT
	movq	%rbx, %rdi
	decq	%rbp
	jne	.LBB40_67
	jmp	.LBB40_68
.LBB40_14:
	movq	%rbx, 56(%rsp)
	movq	632(%rsp), %rax
	movq	%rax, 152(%rsp)
	movq	640(%rsp), %rax
	movq	%rax, 112(%rsp)
	movq	656(%rsp), %rax
	movq	%rax, 24(%rsp)
	movups	648(%rsp), %xmm0
	movaps	%xmm0, 752(%rsp)
	movq	664(%rsp), %rax
	movq	%rax, 120(%rsp)
	movq	672(%rsp), %rax
	movq	%rax, 392(%rsp)
	movq	680(%rsp), %r13
	movq	688(%rsp), %rax
	movq	%rax, 384(%rsp)
	movq	712(%rsp), %rdi
	movq	720(%rsp), %rbx
	movq	728(%rsp), %rcx
	movups	696(%rsp), %xmm0
	movaps	%xmm0, 736(%rsp)
	xorps	%xmm0, %xmm0
	movaps	%xmm0, 272(%rsp)
	movq	$0, 288(%rsp)
	testq	%rbx, %rbx
	je	.LBB40_15
	movq	%rbx, %rax
	shrq	$61, %rax
	jne	.LBB40_50
	movq	%rdi, 128(%rsp)
	leaq	(,%rbx,4), %rdi
	movl	$2, %esi
	movq	%rcx, 32(%rsp)
	callq	rattle_alloc@PLT
	movq	32(%rsp), %rcx
	movq	128(%rsp), %rdi
	testb	$1, %al
	je	.LBB40_50
	movq	%r13, 144(%rsp)
	movl	%r14d, 76(%rsp)
	movq	%rdx, 272(%rsp)
	movq	$0, 280(%rsp)
	movq	%rbx, 288(%rsp)
	xorl	%eax, %eax
	xorl	%r13d, %r13d
	jmp	.LBB40_31
.LBB40_50:
	testq	%rcx, %rcx
	je	.LBB40_52
.LBB40_51:
	callq	rattle_dealloc@PLT
.LBB40_52:
	cmpq	$0, 24(%rsp)
	movq	112(%rsp), %r12
	je	.LBB40_60
	xorl	%ebx, %ebx
	jmp	.LBB40_54
.LBB40_59:
	incq	%rbx
	cmpq	24(%rsp), %rbx
	je	.LBB40_60
.LBB40_54:
	leaq	(,%rbx,8), %rax
	leaq	(%rax,%rax,4), %rax
	cmpb	$0, (%r12,%rax)
	jne	.LBB40_59
	cmpb	$0, 8(%r12,%rax)
	je	.LBB40_59
	movq	32(%r12,%rax), %r14
	testq	%r14, %r14
	je	.LBB40_59
	movq	16(%r12,%rax), %rdi
.LBB40_58:
	movq	(%rdi), %r15
	callq	rattle_dealloc@PLT
	movq	%r15, %rdi
	decq	%r14
	jne	.LBB40_58
	jmp	.LBB40_59
.LBB40_60:
	movq	120(%rsp), %rdi
	callq	rattle_dealloc@PLT
	movq	%r13, %rdi
	callq	rattle_dealloc@PLT
	movq	56(%rsp), %rdi
	callq	std_alloc__arc__Arc__drop____7adbd3708cb715cb_
	testq	%rbp, %rbp
	movq	40(%rsp), %rdi
	je	.LBB40_68
.LBB40_61:
	movq	(%rdi), %rbx
	callq	rattle_dealloc@PLT
	movq	%rbx, %rdi
	decq	%rbp
	jne	.LBB40_61
	jmp	.LBB40_68
.LBB40_15:
	movq	%r13, 144(%rsp)
	movl	%r14d, 76(%rsp)
	movq	%rsp, %rax
	movq	%rax, 272(%rsp)
	xorl	%eax, %eax
.LBB40_35:
	movq	%rax, 208(%rsp)
	testq	%rcx, %rcx
	je	.LBB40_37
	callq	rattle_dealloc@PLT
.LBB40_37:
	movq	272(%rsp), %r13
	movq	288(%rsp), %rax
	movq	%rax, 32(%rsp)
	movl	$88, %edi
	movl	$8, %esi
	callq	rattle_alloc@PLT
	testb	$1, %al
	je	.LBB40_38
	movq	%r13, 128(%rsp)
	movq	168(%rsp), %rax
	movq	160(%rsp), %rcx
	addq	%rcx, %rax
	addq	$16, %rax
	movq	%rax, 168(%rsp)
	movq	$1, (%rdx)
	movq	152(%rsp), %rax
	movq	%rax, 8(%rdx)
	movq	112(%rsp), %rax
	movq	%rax, 16(%rdx)
	movaps	752(%rsp), %xmm0
	movups	%xmm0, 24(%rdx)
	movq	120(%rsp), %rax
	movq	%rax, 40(%rdx)
	movq	392(%rsp), %rax
	movq	%rax, 48(%rdx)
	movq	144(%rsp), %rax
	movq	%rax, 56(%rdx)
	movq	384(%rsp), %rax
	movq	%rax, 64(%rdx)
	movaps	736(%rsp), %xmm0
	movq	%rdx, 24(%rsp)
	movups	%xmm0, 72(%rdx)
	movzbl	54(%rsp), %eax
	movb	%al, 22(%rsp)
	movzwl	52(%rsp), %eax
	movw	%ax, 20(%rsp)
	movzwl	108(%rsp), %eax
	movw	%ax, 100(%rsp)
	movl	104(%rsp), %eax
	movl	%eax, 96(%rsp)
	leaq	1592(%rsp), %rbx
	leaq	1048(%rsp), %rsi
	movl	$272, %edx
	movq	%rbx, %rdi
	callq	memcpy@PLT
	movaps	512(%rsp), %xmm0
	movaps	%xmm0, 480(%rsp)
	movups	524(%rsp), %xmm0
	movups	%xmm0, 492(%rsp)
	movzwl	20(%rsp), %eax
	movw	%ax, 16(%rsp)
	movzbl	22(%rsp), %eax
	movb	%al, 18(%rsp)
	movl	96(%rsp), %eax
	movl	%eax, 88(%rsp)
	movzwl	100(%rsp), %eax
	movw	%ax, 92(%rsp)
	leaq	1320(%rsp), %rdi
	movl	$272, %edx
	movq	%rbx, %rsi
	callq	memcpy@PLT
	movaps	480(%rsp), %xmm0
	movaps	%xmm0, 448(%rsp)
	movups	492(%rsp), %xmm0
	movups	%xmm0, 460(%rsp)
	cmpq	$0, 64(%rsp)
	sete	112(%rsp)
	movw	$1, %ax
	movq	%rax, 160(%rsp)
	movl	$65, 120(%rsp)
	movb	$1, %r14b
	movq	%rsp, %rax
	movq	%rax, 152(%rsp)
	movl	$0, 64(%rsp)
	movb	$1, %r13b
	xorl	%ebx, %ebx
	jmp	.LBB40_73
.LBB40_33:
	movq	272(%rsp), %rdx
	movq	280(%rsp), %rax
	movq	128(%rsp), %rdi
	movq	32(%rsp), %rcx
.LBB40_34:
	incq	%r13
	movw	$1, (%rdx,%rax,4)
	movw	%r14w, 2(%rdx,%rax,4)
	incq	%rax
	movq	%rax, 280(%rsp)
	cmpq	%r13, %rbx
	je	.LBB40_35
.LBB40_31:
	movzwl	(%rdi,%r13,2), %r14d
	cmpq	%rax, 288(%rsp)
	jne	.LBB40_34
	leaq	272(%rsp), %rdi
	callq	std_alloc__vec__Vec__grow_amortized____f9970e105406fed0_
	testb	%al, %al
	jne	.LBB40_33
	cmpq	$0, 32(%rsp)
	je	.LBB40_64
	movq	128(%rsp), %rdi
	callq	rattle_dealloc@PLT
.LBB40_64:
	cmpq	$0, 288(%rsp)
	movq	144(%rsp), %r13
	je	.LBB40_52
	movq	272(%rsp), %rdi
	jmp	.LBB40_51
.LBB40_38:
	cmpq	$0, 24(%rsp)
	movq	112(%rsp), %r12
	je	.LBB40_46
	xorl	%ebx, %ebx
	jmp	.LBB40_40
.LBB40_45:
	incq	%rbx
	cmpq	24(%rsp), %rbx
	je	.LBB40_46
.LBB40_40:
	leaq	(,%rbx,8), %rax
	leaq	(%rax,%rax,4), %rax
	cmpb	$0, (%r12,%rax)
	jne	.LBB40_45
	cmpb	$0, 8(%r12,%rax)
	je	.LBB40_45
	movq	32(%r12,%rax), %r14
	testq	%r14, %r14
	je	.LBB40_45
	movq	16(%r12,%rax), %rdi
.LBB40_44:
	movq	(%rdi), %r15
	callq	rattle_dealloc@PLT
	movq	%r15, %rdi
	decq	%r14
	jne	.LBB40_44
	jmp	.LBB40_45
.LBB40_46:
	movq	120(%rsp), %rdi
	callq	rattle_dealloc@PLT
	movq	144(%rsp), %rdi
	callq	rattle_dealloc@PLT
	cmpq	$0, 32(%rsp)
	je	.LBB40_48
	movq	%r13, %rdi
	callq	rattle_dealloc@PLT
.LBB40_48:
	movq	56(%rsp), %rdi
	callq	std_alloc__arc__Arc__drop____7adbd3708cb715cb_
	testq	%rbp, %rbp
	movq	40(%rsp), %rdi
	je	.LBB40_68
.LBB40_49:
	movq	(%rdi), %rbx
	callq	rattle_dealloc@PLT
	movq	%rbx, %rdi
	decq	%rbp
	jne	.LBB40_49
.LBB40_68:
	cmpq	$0, 64(%rsp)
	je	.LBB40_71
	movq	176(%rsp), %rdi
	jmp	.LBB40_70
.LBB40_84:
	ud2
.Lfunc_end40:
	.size	ww_open_world_, .Lfunc_end40-ww_open_world_

	.section	.text.ww_swap_,"ax",@progbits
	.globl	ww_swap_
	.p2align	4
	.type	ww_swap_,@function
ww_swap_:
	movups	(%rdi), %xmm0
	movaps	%xmm0, -24(%rsp)
	movups	(%rsi), %xmm0
	movups	%xmm0, (%rdi)
	movaps	-24(%rsp), %xmm0
	movups	%xmm0, (%rsi)
	retq
.Lfunc_end41:
	.size	ww_swap_, .Lfunc_end41-ww_swap_

	.section	.text.ww_try_,"ax",@progbits
	.globl	ww_try_
	.p2align	4
	.type	ww_try_,@function
ww_try_:
	cmpl	%esi, 12(%rdi)
	jbe	.LBB42_1
	movq	(%rdi), %r8
	movq	(%r8), %rax
	movq	64(%r8), %rdx
	movl	%esi, %esi
	shlq	$4, %rsi
	movq	8(%rax), %r9
	#APP
	#NO_APP
	xorl	%ecx, %ecx
	xorl	%eax, %eax
	lock		cmpxchgq	%rdx, 128(%r9,%rsi)
	#APP
	#NO_APP
	jne	.LBB42_12
	incl	400(%r8)
	movl	%ecx, %eax
	retq
.LBB42_1:
	cmpl	$4, 8(%rdi)
	jne	ww_c__exports__try_alone
	movq	(%rdi), %r8
	movl	404(%r8), %r9d
	cmpl	%esi, %r9d
	jbe	ww_c__exports__try_anyhow
	movq	(%r8), %rax
	cmpb	$0, 8(%r8)
	je	.LBB42_4
.LBB42_7:
	movq	64(%r8), %rdx
	movl	%esi, %esi
	shlq	$4, %rsi
	movq	8(%rax), %r10
	#APP
	#NO_APP
	xorl	%ecx, %ecx
	xorl	%eax, %eax
	lock		cmpxchgq	%rdx, 128(%r10,%rsi)
	#APP
	#NO_APP
	jne	.LBB42_8
	incl	400(%r8)
	movq	$0, 412(%r8)
	movl	%r9d, 12(%rdi)
	movl	$3, 8(%rdi)
	movl	%ecx, %eax
	retq
.LBB42_12:
	movl	%eax, %ecx
	andl	$7, %ecx
	shrq	$2, %rax
	movq	%rax, %rsi
	orq	$1, %rsi
	andq	$-2, %rax
	cmpq	$6, %rcx
	cmovaeq	%rsi, %rax
	addq	$-2, %rcx
	testq	$-3, %rcx
	cmoveq	%rsi, %rax
	movl	%edx, %ecx
	andl	$7, %ecx
	leaq	-2(%rcx), %rsi
	shrq	$2, %rdx
	movq	%rdx, %r8
	orq	$1, %r8
	andq	$-2, %rdx
	cmpq	$6, %rcx
	cmovaeq	%r8, %rdx
	testq	$-3, %rsi
	cmoveq	%r8, %rdx
	cmpq	%rdx, %rax
	movq	$1, 8(%rdi)
	jmp	.LBB42_13
.LBB42_8:
	movl	%eax, %ecx
	andl	$7, %ecx
	shrq	$2, %rax
	movq	%rax, %rsi
	orq	$1, %rsi
	andq	$-2, %rax
	cmpq	$6, %rcx
	cmovaeq	%rsi, %rax
	addq	$-2, %rcx
	testq	$-3, %rcx
	cmoveq	%rsi, %rax
	movl	%edx, %ecx
	andl	$7, %ecx
	leaq	-2(%rcx), %rsi
	shrq	$2, %rdx
	movq	%rdx, %r8
	orq	$1, %r8
	andq	$-2, %rdx
	cmpq	$6, %rcx
	cmovaeq	%r8, %rdx
	testq	$-3, %rsi
	cmoveq	%r8, %rdx
	cmpq	%rdx, %rax
	movl	$1, 8(%rdi)
.LBB42_13:
	movl	$-114, %eax
	movl	$-16, %ecx
	cmovel	%eax, %ecx
	movl	%ecx, %eax
	retq
.LBB42_4:
	cmpq	$0, 40(%r8)
	je	.LBB42_7
	movq	32(%r8), %rcx
	movq	8(%rax), %rdx
	#APP
	#NO_APP
	movq	(%rdx,%rcx,8), %rcx
	#APP
	#NO_APP
	testq	%rcx, %rcx
	je	.LBB42_7
	movq	32(%r8), %rcx
	movq	8(%rax), %rdx
	#APP
	#NO_APP
	xorl	%r10d, %r10d
	xchgq	%r10, (%rdx,%rcx,8)
	#APP
	#NO_APP
	jmp	.LBB42_7
.Lfunc_end42:
	.size	ww_try_, .Lfunc_end42-ww_try_

	.section	.text.ww_unlock_,"ax",@progbits
	.globl	ww_unlock_
	.p2align	4
	.type	ww_unlock_,@function
ww_unlock_:
	cmpl	%esi, 12(%rdi)
	jbe	ww_c__exports__unlock_alone
	movq	(%rdi), %r8
	movq	(%r8), %rax
	movq	64(%r8), %rcx
	movl	%esi, %r9d
	shlq	$4, %r9
	movq	8(%rax), %r10
	#APP
	#NO_APP
	xorl	%edx, %edx
	movq	%rcx, %rax
	lock		cmpxchgq	%rdx, 128(%r10,%r9)
	#APP
	#NO_APP
	jne	.LBB43_2
	decl	400(%r8)
	je	.LBB43_5
	movl	%edx, %eax
	retq
.LBB43_2:
	movl	%eax, %edx
	andl	$7, %edx
	leaq	-2(%rdx), %r9
	shrq	$2, %rax
	movq	%rax, %r10
	orq	$1, %r10
	andq	$-2, %rax
	cmpq	$6, %rdx
	cmovaeq	%r10, %rax
	testq	$-3, %r9
	cmoveq	%r10, %rax
	movl	%ecx, %edx
	andl	$7, %edx
	leaq	-2(%rdx), %r9
	shrq	$2, %rcx
	movq	%rcx, %r10
	orq	$1, %r10
	andq	$-2, %rcx
	cmpq	$6, %rdx
	cmovaeq	%r10, %rcx
	testq	$-3, %r9
	cmoveq	%r10, %rcx
	cmpq	%rcx, %rax
	jne	.LBB43_6
	movl	$3, 420(%r8)
	movl	%esi, 424(%r8)
	movw	$0, 428(%r8)
	movq	$1, 8(%rdi)
	movl	$1, %edx
	movl	%edx, %eax
	retq
.LBB43_6:
	movq	$1, 8(%rdi)
	movl	$-22, %edx
	movl	%edx, %eax
	retq
.LBB43_5:
	movq	$4, 8(%rdi)
	movl	%edx, %eax
	retq
.Lfunc_end43:
	.size	ww_unlock_, .Lfunc_end43-ww_unlock_

	.section	.text.ww_unlock_each_,"ax",@progbits
	.globl	ww_unlock_each_
	.p2align	4
	.type	ww_unlock_each_,@function
ww_unlock_each_:
	cmpq	$9, %rdx
	ja	.LBB44_10
	cmpl	$0, 12(%rdi)
	je	.LBB44_10
	movq	(%rdi), %rcx
	testq	%rdx, %rdx
	je	.LBB44_7
	.p2align	4
.LBB44_4:
	movl	-4(%rsi,%rdx,4), %r8d
	cmpl	404(%rcx), %r8d
	jae	.LBB44_8
	movq	(%rcx), %r9
	movq	64(%rcx), %rax
	shlq	$4, %r8
	movq	8(%r9), %r9
	#APP
	#NO_APP
	xorl	%r10d, %r10d
	lock		cmpxchgq	%r10, 128(%r9,%r8)
	#APP
	#NO_APP
	jne	.LBB44_8
	decq	%rdx
	decl	400(%rcx)
	testq	%rdx, %rdx
	jne	.LBB44_4
.LBB44_7:
	xorl	%edx, %edx
.LBB44_8:
	cmpl	$0, 400(%rcx)
	je	.LBB44_9
.LBB44_10:
	movq	%rdx, %rax
	retq
.LBB44_9:
	movq	$4, 8(%rdi)
	movq	%rdx, %rax
	retq
.Lfunc_end44:
	.size	ww_unlock_each_, .Lfunc_end44-ww_unlock_each_

	.type	.Lswitch.table.ww_c__exports__try_anyhow,@object
	.section	.rodata..Lswitch.table.ww_c__exports__try_anyhow,"a",@progbits
	.p2align	2, 0x0
.Lswitch.table.ww_c__exports__try_anyhow:
	.long	4294967280
	.long	4294967182
	.long	4294967274
	.size	.Lswitch.table.ww_c__exports__try_anyhow, 12

	.type	.Lswitch.table.ww_go_on_,@object
	.section	.rodata..Lswitch.table.ww_go_on_,"a",@progbits
	.p2align	2, 0x0
.Lswitch.table.ww_go_on_:
	.long	0
	.long	1
	.long	5
	.long	3
	.long	4294967280
	.long	4294967274
	.long	4294967182
	.long	4294967268
	.long	4294967261
	.long	4294967292
	.size	.Lswitch.table.ww_go_on_, 40

	.section	".note.GNU-stack","",@progbits
