/*
 * entry.S - how the library comes into the runtime, and out again.  The registers of the call are noted; and behind it
 * nothing of the runtime's own is left, in registers or, where il_clears says so, on the stack.  So what a thread goes on from is all in
 * its entry and on the stack above.  tests.mk writes a stub for each call, which hands over its function in r11.
 */
	.text
	.globl	il_enter, il_enter_plain, il_inside_

	.macro	clear bytes
	cmpb	$0, il_clears(%rip)
	je	1f
	pxor	%xmm0, %xmm0
	.set	at, \bytes
	.rept	\bytes / 16
	movups	%xmm0, -at(%rsp)
	.set	at, at - 16
	.endr
1:
	.endm

	.macro	forget
	xorl	%edx, %edx
	xorl	%ecx, %ecx
	xorl	%esi, %esi
	xorl	%edi, %edi
	xorl	%r8d, %r8d
	xorl	%r9d, %r9d
	xorl	%r10d, %r10d
	xorl	%r11d, %r11d
	.endm

il_enter:
	movq	il_entry(%rip), %r10
	movq	%rbx, (%r10)
	movq	%rbp, 8(%r10)
	movq	%r12, 16(%r10)
	movq	%r13, 24(%r10)
	movq	%r14, 32(%r10)
	movq	%r15, 40(%r10)
	movq	%rsp, 48(%r10)
	movq	%rdi, 56(%r10)
	movq	%rsi, 64(%r10)
	movq	%rdx, 72(%r10)
	movq	%rcx, 80(%r10)
	movq	%r8, 88(%r10)
	movq	%r9, 96(%r10)
	movq	(%rsp), %rax
	movq	%rax, 104(%r10)
	xorl	%eax, %eax
	subq	$8, %rsp
	call	*%r11
	addq	$8, %rsp
	clear	1024
	forget
	ret

/* A plain access, before which nobody else runs. */
il_enter_plain:
	movq	il_entry(%rip), %r10
	movq	(%rsp), %rax
	movq	%rax, 104(%r10)
	subq	$8, %rsp
	call	*%r11
	addq	$8, %rsp
	clear	384
	forget
	ret

/* Before an atomic access of the core, amid whatever it has in registers. */
il_inside_:
	pushfq
	pushq	%rax
	pushq	%rcx
	pushq	%rdx
	pushq	%rsi
	pushq	%rdi
	pushq	%r8
	pushq	%r9
	pushq	%r10
	pushq	%r11
	movq	80(%rsp), %rdi
	pushq	%rbx
	pushq	%rbp
	pushq	%r12
	pushq	%r13
	pushq	%r14
	pushq	%r15
	subq	$48, %rsp
	movups	%xmm0, (%rsp)
	movups	%xmm1, 16(%rsp)
	movups	%xmm2, 32(%rsp)
	movq	%rdi, %rdx
	movq	%rsp, %rbp
	movq	il_entry(%rip), %rax
	movq	%rax, %rdi
	movl	$13, %ecx
	xorl	%eax, %eax
	rep stosq
	movq	il_entry(%rip), %rax
	movq	%rsp, 48(%rax)
	movq	%rdx, %rdi
	subq	$576, %rsp
	andq	$-64, %rsp
	fxsave	(%rsp)
	call	il_inside
	fxrstor	(%rsp)
	movq	%rbp, %rsp
	cmpb	$0, il_clears(%rip)
	je	1f
	leaq	-2048(%rsp), %rdi
	movl	$256, %ecx
	xorl	%eax, %eax
	rep stosq
1:
	addq	$48, %rsp
	popq	%r15
	popq	%r14
	popq	%r13
	popq	%r12
	popq	%rbp
	popq	%rbx
	popq	%r11
	popq	%r10
	popq	%r9
	popq	%r8
	popq	%rdi
	popq	%rsi
	popq	%rdx
	popq	%rcx
	popq	%rax
	popfq
	ret
	.section .note.GNU-stack,"",@progbits
