/*
 * The proved library for C on aarch64, as the kit's compiler (LLVM) makes it.  Written by ./build c --assembly.
 *
 * sources: 03e5da4fe503955ce0118c7c4da7f15a3d85a27a7d0c99dcf49d53ddb738ab46
 * kit:     rattle-kit-13f logic dac8208d650f15bf
 * proof:   logic=proved functions=75 axioms=3 target=aarch64-unknown-linux-gnu sum=dac8208d650f15bf
 */
	.section	.rodata.cst8,"aM",@progbits,8
	.p2align	3, 0x0
.LCPI0_0:
	.word	1
	.word	0
	.section	.text.unlikely.ww_c__exports__begin_anyhow,"ax",@progbits
	.p2align	2
	.type	ww_c__exports__begin_anyhow,@function
ww_c__exports__begin_anyhow:
	ldr	w8, [x0, #8]
	cbz	w8, .LBB0_5
	adrp	x8, .LCPI0_0
	ldr	d0, [x8, :lo12:.LCPI0_0]
	ldr	x8, [x0]
	str	d0, [x0, #8]
	ldrb	w9, [x8, #420]
	cbz	w9, .LBB0_3
	mov	w0, #-16
	ret
.LBB0_3:
	ldr	x9, [x8, #40]
	cbnz	x9, .LBB0_5
	ldr	w9, [x8, #400]
	cbz	w9, .LBB0_6
.LBB0_5:
	mov	w0, #-22
	ret
.LBB0_6:
	ldr	x9, [x8, #432]
	cbz	x9, .LBB0_10
	sub	x9, x9, #1
	ldr	x10, [x8]
	str	x9, [x8, #432]
	ldr	x10, [x10, #8]
	//APP
	//NO_APP
.LBB0_8:
	ldaxr	x9, [x10]
	add	x9, x9, #1
	stlxr	w11, x9, [x10]
	cbnz	w11, .LBB0_8
	//APP
	//NO_APP
	ldr	x10, [x8, #24]
	cmp	x10, x9
	b.hs	.LBB0_11
.LBB0_10:
	mov	w0, #-28
	ret
.LBB0_11:
	ldp	x11, x10, [x8, #48]
	str	x9, [x8, #40]
	strb	wzr, [x8, #408]
	madd	x10, x10, x9, x11
	ldr	x9, [x8, #432]
	add	x11, x8, #412
	str	xzr, [x11]
	str	x10, [x8, #64]
	cbz	x9, .LBB0_13
	ldr	w8, [x8, #404]
	mov	w10, #3
	stp	w10, w8, [x0, #8]
.LBB0_13:
	mov	w0, wzr
	ret
.Lfunc_end0:
	.size	ww_c__exports__begin_anyhow, .Lfunc_end0-ww_c__exports__begin_anyhow

	.section	.text.ww_c__ww_steps__desk__Desk_Destruct__drop,"ax",@progbits
	.p2align	2
	.type	ww_c__ww_steps__desk__Desk_Destruct__drop,@function
ww_c__ww_steps__desk__Desk_Destruct__drop:
	sub	sp, sp, #112
	ldr	x9, [x0, #440]
	ldr	x8, [x0]
	stp	x26, x25, [sp, #48]
	stp	x20, x19, [sp, #96]
	ldr	x25, [x0, #360]
	ldp	x20, x26, [x0, #344]
	str	x9, [sp]
	ldr	x9, [x0, #456]
	stp	x24, x23, [sp, #64]
	ldrb	w23, [x0, #368]
	stp	x22, x21, [sp, #80]
	ldr	x24, [x0, #376]
	ldr	x21, [x0, #392]
	mov	x0, x8
	stp	x29, x30, [sp, #16]
	add	x29, sp, #16
	stp	x28, x27, [sp, #32]
	str	x9, [sp, #8]
	bl	std_alloc__arc__Arc__drop____93a448bb48b6d052_
	cbz	x26, .LBB1_9
	add	x27, x20, #56
	b	.LBB1_3
.LBB1_2:
	subs	x26, x26, #1
	add	x27, x27, #96
	b.eq	.LBB1_9
.LBB1_3:
	ldurb	w9, [x27, #-24]
	ldrb	w28, [x27, #8]
	ldr	x0, [x27, #16]
	ldr	x19, [x27, #32]
	sub	w8, w9, #2
	cmp	w8, #5
	b.lo	.LBB1_6
	ldur	x8, [x27, #-16]
	ldr	x10, [x27]
	cmp	w9, #1
	cbz	x10, .LBB1_6
	mov	x22, x0
	mov	x0, x8
	bl	rattle_dealloc
	mov	x0, x22
.LBB1_6:
	cbnz	w28, .LBB1_2
	cbz	x19, .LBB1_2
	bl	rattle_dealloc
	b	.LBB1_2
.LBB1_9:
	cbz	x25, .LBB1_11
	mov	x0, x20
	bl	rattle_dealloc
.LBB1_11:
	cbz	w23, .LBB1_15
	cbz	x21, .LBB1_15
	mov	x0, x24
.LBB1_14:
	ldr	x19, [x0]
	sub	x21, x21, #1
	bl	rattle_dealloc
	mov	x0, x19
	cbnz	x21, .LBB1_14
.LBB1_15:
	ldr	x8, [sp, #8]
	cbz	x8, .LBB1_17
	ldp	x20, x19, [sp, #96]
	ldr	x0, [sp]
	ldp	x22, x21, [sp, #80]
	ldp	x24, x23, [sp, #64]
	ldp	x26, x25, [sp, #48]
	ldp	x28, x27, [sp, #32]
	ldp	x29, x30, [sp, #16]
	add	sp, sp, #112
	b	rattle_dealloc
.LBB1_17:
	ldp	x20, x19, [sp, #96]
	ldp	x22, x21, [sp, #80]
	ldp	x24, x23, [sp, #64]
	ldp	x26, x25, [sp, #48]
	ldp	x28, x27, [sp, #32]
	ldp	x29, x30, [sp, #16]
	add	sp, sp, #112
	ret
.Lfunc_end1:
	.size	ww_c__ww_steps__desk__Desk_Destruct__drop, .Lfunc_end1-ww_c__ww_steps__desk__Desk_Destruct__drop

	.section	.text.std_alloc__arc__Arc__drop____93a448bb48b6d052_,"ax",@progbits
	.p2align	2
	.type	std_alloc__arc__Arc__drop____93a448bb48b6d052_,@function
std_alloc__arc__Arc__drop____93a448bb48b6d052_:
	stp	x29, x30, [sp, #-80]!
	str	x25, [sp, #16]
	mov	x29, sp
	stp	x24, x23, [sp, #32]
	stp	x22, x21, [sp, #48]
	stp	x20, x19, [sp, #64]
	//APP
	//NO_APP
.LBB2_1:
	ldaxr	x8, [x0]
	subs	x8, x8, #1
	stlxr	w9, x8, [x0]
	cbnz	w9, .LBB2_1
	//APP
	//NO_APP
	b.ne	.LBB2_10
	ldp	x22, x20, [x0, #32]
	ldr	x21, [x0, #16]
	ldr	x19, [x0, #56]
	bl	rattle_dealloc
	cbz	x22, .LBB2_11
	mov	x23, xzr
	b	.LBB2_6
.LBB2_5:
	add	x23, x23, #1
	cmp	x23, x22
	b.eq	.LBB2_11
.LBB2_6:
	mov	w8, #40
	madd	x8, x23, x8, x21
	ldrb	w9, [x8]
	cbnz	w9, .LBB2_5
	ldrb	w9, [x8, #8]
	ldr	x24, [x8, #32]
	cmp	w9, #0
	ccmp	x24, #0, #4, ne
	b.eq	.LBB2_5
	ldr	x0, [x8, #16]
.LBB2_9:
	ldr	x25, [x0]
	sub	x24, x24, #1
	bl	rattle_dealloc
	mov	x0, x25
	cbnz	x24, .LBB2_9
	b	.LBB2_5
.LBB2_10:
	ldp	x20, x19, [sp, #64]
	ldr	x25, [sp, #16]
	ldp	x22, x21, [sp, #48]
	ldp	x24, x23, [sp, #32]
	ldp	x29, x30, [sp], #80
	ret
.LBB2_11:
	mov	x0, x20
	bl	rattle_dealloc
	mov	x0, x19
	ldp	x20, x19, [sp, #64]
	ldp	x22, x21, [sp, #48]
	ldr	x25, [sp, #16]
	ldp	x24, x23, [sp, #32]
	ldp	x29, x30, [sp], #80
	b	rattle_dealloc
.Lfunc_end2:
	.size	std_alloc__arc__Arc__drop____93a448bb48b6d052_, .Lfunc_end2-std_alloc__arc__Arc__drop____93a448bb48b6d052_

	.section	.rodata.cst8,"aM",@progbits,8
	.p2align	3, 0x0
.LCPI3_0:
	.word	1
	.word	0
	.section	.text.unlikely.ww_c__exports__end_anyhow,"ax",@progbits
	.p2align	2
	.type	ww_c__exports__end_anyhow,@function
ww_c__exports__end_anyhow:
	ldr	w8, [x0, #8]
	cbz	w8, .LBB3_5
	adrp	x8, .LCPI3_0
	ldr	d0, [x8, :lo12:.LCPI3_0]
	ldr	x8, [x0]
	str	d0, [x0, #8]
	ldrb	w9, [x8, #420]
	cbz	w9, .LBB3_3
	mov	w0, #-16
	ret
.LBB3_3:
	ldr	x9, [x8, #40]
	cbz	x9, .LBB3_5
	ldr	w9, [x8, #400]
	cbz	w9, .LBB3_6
.LBB3_5:
	mov	w0, #-22
	ret
.LBB3_6:
	ldr	x9, [x8]
	ldr	x11, [x8, #32]
	ldr	x10, [x9, #8]
	//APP
	//NO_APP
	add	x10, x10, x11, lsl #3
	ldar	x10, [x10]
	//APP
	//NO_APP
	cbz	x10, .LBB3_8
	ldr	x10, [x8, #32]
	ldr	x11, [x9, #8]
	//APP
	//NO_APP
	add	x10, x11, x10, lsl #3
	stlr	xzr, [x10]
	//APP
	//NO_APP
	ldr	x9, [x9, #8]
	ldr	x10, [x8, #32]
	//APP
	//NO_APP
	add	x9, x9, x10, lsl #3
	ldar	x9, [x9]
	//APP
	//NO_APP
	cbnz	x9, .LBB3_9
.LBB3_8:
	ldr	x9, [x8, #48]
	str	xzr, [x8, #40]
	str	x9, [x8, #64]
.LBB3_9:
	ldr	x9, [x8, #432]
	strb	wzr, [x8, #408]
	add	x8, x8, #412
	str	xzr, [x8]
	cbz	x9, .LBB3_11
	mov	w9, #2
	str	w9, [x0, #8]
.LBB3_11:
	mov	w0, wzr
	ret
.Lfunc_end3:
	.size	ww_c__exports__end_anyhow, .Lfunc_end3-ww_c__exports__end_anyhow

	.section	.text.ww_steps__station__Station__look,"ax",@progbits
	.p2align	2
	.type	ww_steps__station__Station__look,@function
ww_steps__station__Station__look:
	sub	sp, sp, #288
	stp	x26, x25, [sp, #224]
	ldr	x26, [x1]
	mov	w25, w4
	stp	x22, x21, [sp, #256]
	mov	w21, w2
	stp	x20, x19, [sp, #272]
	mov	x20, x1
	mov	x22, x26
	ldr	w19, [x1, #400]
	ldr	x1, [x22, #8]!
	ldr	x8, [x20, #440]
	ldr	w2, [x26, #76]
	stp	x28, x27, [sp, #208]
	stp	x24, x23, [sp, #240]
	mov	w24, w3
	mov	x28, x0
	add	x0, sp, #32
	mov	w3, w21
	stp	x29, x30, [sp, #192]
	add	x29, sp, #192
	stp	xzr, xzr, [sp, #32]
	str	x8, [sp, #24]
	str	xzr, [sp, #48]
	bl	ww_table__seat__Stepper__look
	ldrb	w23, [sp, #32]
	ldrh	w27, [sp, #34]
	str	w25, [sp, #8]
	cbz	w23, .LBB4_2
	ldrh	w8, [x20, #10]
	cmp	w27, w8
	b.ne	.LBB4_17
.LBB4_2:
	movi	v0.2d, #0000000000000000
	ldrb	w8, [x26, #72]
	str	w24, [sp, #12]
	ldr	x19, [sp, #40]
	ldrb	w24, [sp, #48]
	add	w25, w21, #64
	str	x28, [sp, #16]
	cmp	w21, w8
	add	x28, x20, #72
	stp	xzr, xzr, [sp, #64]
	str	xzr, [sp, #56]
	b.hs	.LBB4_10
	ldr	x8, [x20, #336]
	stp	xzr, xzr, [x29, #-40]
	stur	xzr, [x29, #-48]
	add	x8, x28, x8, lsl #2
	stp	q0, q0, [x29, #-80]
	stp	q0, q0, [sp, #80]
	ldur	w8, [x8, #-4]
	cmp	w8, w25
	b.ne	.LBB4_126
	mov	w8, #40
	ldr	x9, [x26, #16]
	umaddl	x9, w25, w8, x9
	ldrb	w8, [x9]
	cbnz	w8, .LBB4_196
.LBB4_5:
	ldrb	w10, [x9, #8]
	ldrh	w8, [x20, #10]
	cbz	w10, .LBB4_30
	ldr	x10, [x9, #32]
	cbz	x10, .LBB4_30
	ldr	x9, [x9, #16]
	cmp	x10, #1
	ldrh	w9, [x9, #16]
	and	w9, w9, #0xffff
	ccmp	w8, w9, #0, eq
	cset	w9, ne
	cbnz	w23, .LBB4_31
.LBB4_8:
	ldr	x10, [x20, #40]
	cmp	w8, #15
	b.hi	.LBB4_48
.LBB4_9:
	mov	w9, w9
	orr	x9, x9, x10, lsl #8
	add	x8, x9, x8, lsl #3
	add	x8, x8, #8
	b	.LBB4_49
.LBB4_10:
	ldr	x8, [x20, #336]
	stp	xzr, xzr, [x29, #-40]
	stur	xzr, [x29, #-48]
	add	x8, x28, x8, lsl #2
	stp	q0, q0, [x29, #-80]
	stp	q0, q0, [sp, #80]
	ldur	w8, [x8, #-4]
	cmp	w8, w25
	b.ne	.LBB4_127
	mov	w8, #40
	ldr	x9, [x26, #16]
	umaddl	x9, w25, w8, x9
	ldrb	w8, [x9]
	cbnz	w8, .LBB4_196
.LBB4_12:
	ldrb	w10, [x9, #8]
	ldrh	w8, [x20, #10]
	cbz	w10, .LBB4_33
	ldr	x10, [x9, #32]
	cbz	x10, .LBB4_33
	ldr	x9, [x9, #16]
	cmp	x10, #1
	ldrh	w9, [x9, #16]
	and	w9, w9, #0xffff
	ccmp	w8, w9, #0, eq
	cset	w9, ne
	cbnz	w23, .LBB4_34
.LBB4_15:
	ldr	x10, [x20, #40]
	cmp	w8, #15
	b.hi	.LBB4_58
.LBB4_16:
	mov	w9, w9
	orr	x9, x9, x10, lsl #8
	add	x8, x9, x8, lsl #3
	add	x8, x8, #8
	b	.LBB4_59
.LBB4_17:
	ldr	x18, [sp, #40]
	ldrb	w8, [sp, #48]
	tst	w24, #0xff
	b.eq	.LBB4_45
	mov	w0, w8
.LBB4_19:
	and	w8, w24, #0xff
	mov	w9, #1
	cmp	w8, #2
	cinc	w9, w9, eq
	tst	w25, #0xff
	str	w9, [sp, #12]
	b.eq	.LBB4_36
	ldr	w9, [x20, #12]
	ldrh	w10, [x20, #10]
	mov	w12, #3
	ldr	x11, [x22]
	//APP
	//NO_APP
	cmp	w9, #64
	csinc	x12, x12, xzr, ls
	add	x10, x11, x10, lsl #6
	lsl	x9, x9, x12
	add	x9, x10, x9, lsl #3
	add	x9, x9, #136
.LBB4_21:
	ldaxr	x24, [x9]
	stlxr	w10, xzr, [x9]
	cbnz	w10, .LBB4_21
	//APP
	//NO_APP
	cbz	x24, .LBB4_36
	ldr	x8, [x20, #336]
	add	x25, x20, #72
	movi	v0.2d, #0000000000000000
	add	w23, w21, #64
	stp	xzr, xzr, [x29, #-40]
	add	x8, x25, x8, lsl #2
	stur	xzr, [x29, #-48]
	ldur	w8, [x8, #-4]
	stp	q0, q0, [x29, #-80]
	stp	q0, q0, [sp, #80]
	cmp	w8, w23
	b.ne	.LBB4_178
	mov	w8, #40
	ldr	x9, [x26, #16]
	umaddl	x8, w23, w8, x9
	ldrb	w9, [x8]
	cbnz	w9, .LBB4_196
.LBB4_25:
	ldrb	w9, [x8, #8]
	cbz	w9, .LBB4_28
	ldr	x9, [x8, #32]
	cbz	x9, .LBB4_28
	ldr	x8, [x8, #16]
	ldrh	w10, [x20, #10]
	ldrh	w8, [x8, #16]
	and	w8, w8, #0xffff
	cmp	w8, w10, uxth
	ccmp	x9, #1, #0, eq
	csel	w9, wzr, w0, eq
.LBB4_28:
	cmp	w27, #15
	b.hi	.LBB4_83
	lsl	x8, x18, #8
	add	x8, x8, x27, lsl #3
	add	x10, x8, #8
	add	x8, x10, w0, uxtw
	add	x9, x10, w9, uxtw
	b	.LBB4_84
.LBB4_30:
	mov	w9, wzr
	cbz	w23, .LBB4_8
.LBB4_31:
	cmp	w27, #15
	b.hi	.LBB4_47
	orr	x10, x24, x19, lsl #8
	add	x10, x10, x27, lsl #3
	add	x24, x10, #8
	ldr	x10, [x20, #40]
	cmp	w8, #15
	b.hi	.LBB4_48
	b	.LBB4_9
.LBB4_33:
	mov	w9, wzr
	cbz	w23, .LBB4_15
.LBB4_34:
	cmp	w27, #15
	b.hi	.LBB4_57
	orr	x10, x24, x19, lsl #8
	add	x10, x10, x27, lsl #3
	add	x24, x10, #8
	ldr	x10, [x20, #40]
	cmp	w8, #15
	b.hi	.LBB4_58
	b	.LBB4_16
.LBB4_36:
	cmp	w8, #2
	stp	xzr, xzr, [sp, #56]
	str	xzr, [sp, #72]
	b.ne	.LBB4_138
	cmp	w0, #1
	b.ne	.LBB4_138
	ldr	x8, [x20, #336]
	add	x9, x20, #72
	add	w19, w21, #64
	add	x8, x9, x8, lsl #2
	ldur	w8, [x8, #-4]
	cmp	w8, w19
	b.ne	.LBB4_193
	mov	w8, #40
	ldr	x9, [x26, #16]
	ldr	w12, [sp, #12]
	umaddl	x8, w19, w8, x9
	ldrb	w9, [x8]
	cbnz	w9, .LBB4_196
.LBB4_40:
	ldrb	w9, [x8, #8]
	cbz	w9, .LBB4_202
	ldr	x9, [x8, #32]
	cbz	x9, .LBB4_202
	ldr	x8, [x8, #16]
	ldrh	w9, [x20, #10]
	ldrh	w8, [x8, #16]
	cmp	w8, w9
	b.ne	.LBB4_129
	cmp	w27, #15
	b.hi	.LBB4_133
	lsl	x8, x18, #8
	add	x9, x8, x27, lsl #3
	add	x8, x9, #9
	add	x9, x9, #11
	b	.LBB4_134
.LBB4_45:
	cmp	w27, #15
	orr	x0, x8, #0x1
	b.hi	.LBB4_98
	lsl	x9, x27, #3
	lsl	x10, x18, #8
	bfi	x8, x18, #8, #56
	add	x9, x9, #8
	orr	x10, x10, x9
	add	x8, x8, x9
	add	x9, x10, x0
	b	.LBB4_99
.LBB4_47:
	lsl	x10, x19, #15
	mov	w11, #7
	sub	w11, w11, w24
	add	x10, x10, x27, lsl #3
	add	x24, x10, w11, uxtb
	ldr	x10, [x20, #40]
	cmp	w8, #15
	b.ls	.LBB4_9
.LBB4_48:
	eor	w9, w9, #0x7
	orr	x8, x9, x8, lsl #3
	add	x8, x8, x10, lsl #15
.LBB4_49:
	ldr	w9, [x26, #76]
	mov	w10, w21
	cmp	w9, #64
	mov	w9, #3
	csinc	x9, x9, xzr, ls
	lsl	x9, x10, x9
	ldr	x10, [x26, #8]
	//APP
	//NO_APP
	add	x9, x10, x9, lsl #3
	add	x9, x9, #128
.LBB4_50:
	ldaxr	x10, [x9]
	cmp	x10, x24
	b.ne	.LBB4_198
	stlxr	w10, x8, [x9]
	cbnz	w10, .LBB4_50
	//APP
	//NO_APP
	ldr	x8, [x20, #336]
	cbz	x8, .LBB4_54
	sub	x8, x8, #1
	str	x8, [x20, #336]
	str	wzr, [x28, x8, lsl #2]
	ldr	x8, [x20, #336]
.LBB4_54:
	movi	v0.2d, #0000000000000000
	add	x9, x28, x8, lsl #2
	add	x23, x20, #376
	add	x8, x8, #2
	sub	x0, x29, #80
	add	w2, w21, #64
	stp	w21, w25, [x9]
	add	x4, sp, #80
	ldr	q1, [x23]
	str	x8, [x20, #336]
	ldr	x8, [x20, #392]
	ldrb	w9, [x20, #368]
	stp	q0, q0, [x20, #368]
	ldrh	w3, [x20, #10]
	ldr	x1, [x26, #16]
	stur	q1, [x29, #-48]
	stur	x8, [x29, #-32]
	str	x9, [sp, #80]
	str	x8, [sp, #104]
	stur	q1, [sp, #88]
	bl	ww_invariant__lists__leave_list
	ldrb	w9, [x20, #368]
	ldurb	w8, [x29, #-80]
	ldur	q0, [x29, #-72]
	ldr	x0, [x20, #376]
	ldur	x10, [x29, #-56]
	ldr	x19, [x20, #392]
	cmp	w9, #1
	str	x8, [x20, #368]
	str	q0, [x23]
	str	x10, [x20, #392]
	b.ne	.LBB4_65
	cbz	x19, .LBB4_65
.LBB4_56:
	ldr	x23, [x0]
	sub	x19, x19, #1
	bl	rattle_dealloc
	mov	x0, x23
	cbnz	x19, .LBB4_56
	b	.LBB4_65
.LBB4_57:
	lsl	x10, x19, #15
	mov	w11, #7
	sub	w11, w11, w24
	add	x10, x10, x27, lsl #3
	add	x24, x10, w11, uxtb
	ldr	x10, [x20, #40]
	cmp	w8, #15
	b.ls	.LBB4_16
.LBB4_58:
	eor	w9, w9, #0x7
	orr	x8, x9, x8, lsl #3
	add	x8, x8, x10, lsl #15
.LBB4_59:
	ldr	w9, [x26, #76]
	mov	w10, w21
	cmp	w9, #64
	mov	w9, #3
	csinc	x9, x9, xzr, ls
	lsl	x9, x10, x9
	ldr	x10, [x26, #8]
	//APP
	//NO_APP
	add	x9, x10, x9, lsl #3
	add	x9, x9, #128
.LBB4_60:
	ldaxr	x10, [x9]
	cmp	x10, x24
	b.ne	.LBB4_199
	stlxr	w10, x8, [x9]
	cbnz	w10, .LBB4_60
	movi	v0.2d, #0000000000000000
	//APP
	//NO_APP
	add	x23, x20, #376
	ldr	x8, [x20, #392]
	ldr	q1, [x23]
	ldrb	w9, [x20, #368]
	ldrh	w3, [x20, #10]
	sub	x0, x29, #80
	add	w2, w21, #64
	add	x4, sp, #80
	stur	x8, [x29, #-32]
	stp	q0, q0, [x20, #368]
	ldr	x1, [x26, #16]
	stur	q1, [x29, #-48]
	str	x9, [sp, #80]
	str	x8, [sp, #104]
	stur	q1, [sp, #88]
	bl	ww_invariant__lists__leave_list
	ldrb	w9, [x20, #368]
	ldurb	w8, [x29, #-80]
	ldur	q0, [x29, #-72]
	ldr	x0, [x20, #376]
	ldur	x10, [x29, #-56]
	ldr	x19, [x20, #392]
	cmp	w9, #1
	str	x8, [x20, #368]
	str	q0, [x23]
	str	x10, [x20, #392]
	b.ne	.LBB4_65
	cbz	x19, .LBB4_65
.LBB4_64:
	ldr	x23, [x0]
	sub	x19, x19, #1
	bl	rattle_dealloc
	mov	x0, x23
	cbnz	x19, .LBB4_64
.LBB4_65:
	ldr	x8, [x20, #336]
	add	x8, x28, x8, lsl #2
	ldur	w8, [x8, #-4]
	cmp	w8, w25
	b.ne	.LBB4_120
	mov	w8, #40
	ldr	x9, [x26, #16]
	umaddl	x8, w25, w8, x9
	ldrb	w9, [x8]
	cbnz	w9, .LBB4_196
.LBB4_67:
	ldrb	w9, [x8, #8]
	cbz	w9, .LBB4_69
	ldr	x8, [x8, #32]
	cmp	x8, #0
	cset	w8, ne
	b	.LBB4_70
.LBB4_69:
	mov	w8, wzr
.LBB4_70:
	ldrh	w9, [x20, #10]
	ldr	x11, [x20, #40]
	mov	w10, #1
	ldr	x4, [sp, #24]
	add	x0, x20, #8
	add	x3, sp, #56
	mov	x1, x22
	mov	w2, w21
	strh	w10, [sp, #56]
	strh	w9, [sp, #58]
	str	x11, [sp, #64]
	strb	w8, [sp, #72]
	bl	ww_seat__signs__sign_all
	ldrb	w8, [x20, #8]
	cbz	w8, .LBB4_74
	ldr	x8, [x20, #40]
	cbz	x8, .LBB4_74
	ldr	x8, [x20, #32]
	ldr	x9, [x22]
	//APP
	//NO_APP
	add	x8, x9, x8, lsl #3
	ldar	x8, [x8]
	//APP
	//NO_APP
	cbz	x8, .LBB4_74
	ldr	x8, [x20, #32]
	ldr	x9, [x22]
	//APP
	//NO_APP
	add	x8, x9, x8, lsl #3
	stlr	xzr, [x8]
	//APP
	//NO_APP
.LBB4_74:
	ldr	x8, [x20, #336]
	add	x8, x28, x8, lsl #2
	ldur	w8, [x8, #-4]
	cmp	w8, w25
	b.ne	.LBB4_121
.LBB4_75:
	ldr	w8, [x26, #76]
	mov	w9, w21
	cmp	w8, #64
	mov	w8, #3
	csinc	x8, x8, xzr, ls
	lsl	x8, x9, x8
	ldr	x9, [x26, #8]
	//APP
	//NO_APP
	add	x8, x9, x8, lsl #3
	add	x8, x8, #136
	stlr	xzr, [x8]
	//APP
	//NO_APP
	ldr	x8, [x20, #336]
	cbz	x8, .LBB4_77
	sub	x8, x8, #1
	str	x8, [x20, #336]
	str	wzr, [x28, x8, lsl #2]
.LBB4_77:
	ldrb	w8, [x26, #72]
	cmp	w21, w8
	b.hs	.LBB4_80
	ldr	x8, [x20, #336]
	add	x8, x28, x8, lsl #2
	ldur	w8, [x8, #-4]
	cmp	w8, w21
	b.ne	.LBB4_128
	mov	w8, #40
	ldr	x9, [x26, #16]
	umull	x8, w21, w8
	ldrb	w8, [x9, x8]
	cmp	w8, #1
	b.ne	.LBB4_196
.LBB4_80:
	ldr	w10, [x20, #400]
	ldr	x28, [sp, #16]
	mov	w8, wzr
	mov	x25, xzr
	mov	w9, wzr
	add	x11, x20, #420
	add	x12, x20, #412
	add	w10, w10, #1
	str	xzr, [x11]
	str	xzr, [x12]
	str	w10, [x20, #400]
.LBB4_81:
	strh	wzr, [x20, #428]
.LBB4_82:
	strh	w9, [x28]
	ldp	x20, x19, [sp, #272]
	strh	w8, [x28, #2]
	ldp	x22, x21, [sp, #256]
	str	x25, [x28, #8]
	ldp	x24, x23, [sp, #240]
	ldp	x26, x25, [sp, #224]
	ldp	x28, x27, [sp, #208]
	ldp	x29, x30, [sp, #192]
	add	sp, sp, #288
	ret
.LBB4_83:
	lsl	x8, x18, #15
	mov	w10, #7
	sub	w9, w10, w9
	add	x11, x8, x27, lsl #3
	sub	w8, w10, w0
	add	x8, x11, w8, uxtb
	add	x9, x11, w9, uxtb
.LBB4_84:
	ldr	w10, [x26, #76]
	mov	w19, w21
	ldr	x11, [x26, #8]
	//APP
	//NO_APP
	cmp	w10, #64
	mov	w10, #3
	csinc	x10, x10, xzr, ls
	lsl	x10, x19, x10
	add	x10, x11, x10, lsl #3
	add	x10, x10, #128
.LBB4_85:
	ldaxr	x11, [x10]
	cmp	x11, x8
	b.ne	.LBB4_204
	stlxr	w11, x9, [x10]
	cbnz	w11, .LBB4_85
	movi	v0.2d, #0000000000000000
	//APP
	//NO_APP
	add	x27, x20, #376
	ldr	x8, [x20, #392]
	ldr	q1, [x27]
	ldrb	w9, [x20, #368]
	ldrh	w3, [x20, #10]
	sub	x0, x29, #80
	add	x4, sp, #80
	mov	w2, w23
	stur	x8, [x29, #-32]
	stp	q0, q0, [x20, #368]
	ldr	x1, [x26, #16]
	stur	q1, [x29, #-48]
	str	x9, [sp, #80]
	str	x8, [sp, #104]
	stur	q1, [sp, #88]
	bl	ww_invariant__lists__leave_list
	ldrb	w9, [x20, #368]
	ldurb	w8, [x29, #-80]
	ldur	q0, [x29, #-72]
	ldr	x0, [x20, #376]
	ldur	x10, [x29, #-56]
	ldr	x21, [x20, #392]
	cmp	w9, #1
	str	x8, [x20, #368]
	str	q0, [x27]
	str	x10, [x20, #392]
	b.ne	.LBB4_90
	cbz	x21, .LBB4_90
.LBB4_89:
	ldr	x27, [x0]
	sub	x21, x21, #1
	bl	rattle_dealloc
	mov	x0, x27
	cbnz	x21, .LBB4_89
.LBB4_90:
	ldurb	w8, [x20, #8]
	cbz	w8, .LBB4_94
.LBB4_91:
	ldr	x8, [x20, #40]
	cbz	x8, .LBB4_94
	ldr	x8, [x20, #32]
	ldr	x9, [x22]
	//APP
	//NO_APP
	add	x8, x9, x8, lsl #3
	ldar	x8, [x8]
	//APP
	//NO_APP
	cbz	x8, .LBB4_94
	ldr	x8, [x20, #32]
	ldr	x9, [x22]
	//APP
	//NO_APP
	add	x8, x9, x8, lsl #3
	stlr	xzr, [x8]
	//APP
	//NO_APP
.LBB4_94:
	ldr	x8, [x20, #336]
	add	x8, x25, x8, lsl #2
	ldur	w8, [x8, #-4]
	cmp	w8, w23
	b.ne	.LBB4_179
.LBB4_95:
	ldr	w8, [x26, #76]
	ldr	x9, [x26, #8]
	//APP
	//NO_APP
	cmp	w8, #64
	mov	w8, #3
	csinc	x8, x8, xzr, ls
	lsl	x8, x19, x8
	add	x8, x9, x8, lsl #3
	add	x8, x8, #136
	stlr	xzr, [x8]
	//APP
	//NO_APP
	ldr	x8, [x20, #336]
	cbz	x8, .LBB4_97
	sub	x8, x8, #1
	str	x8, [x20, #336]
	str	wzr, [x25, x8, lsl #2]
.LBB4_97:
	add	x9, x20, #420
	mov	x25, xzr
	strh	wzr, [x20, #428]
	sub	w8, w24, #1
	str	xzr, [x9]
	mov	w9, #9
	b	.LBB4_82
.LBB4_98:
	lsl	x9, x18, #15
	mov	w10, #7
	sub	w8, w10, w8
	sub	w10, w10, w0
	add	x9, x9, x27, lsl #3
	add	x8, x9, w8, uxtb
	add	x9, x9, w10, uxtb
.LBB4_99:
	ldr	w10, [x26, #76]
	mov	w11, w21
	cmp	w10, #64
	mov	w10, #3
	csinc	x10, x10, xzr, ls
	lsl	x10, x11, x10
	ldr	x11, [x26, #8]
	//APP
	//NO_APP
	add	x10, x11, x10, lsl #3
	add	x10, x10, #128
.LBB4_100:
	ldaxr	x11, [x10]
	cmp	x11, x8
	b.ne	.LBB4_205
	stlxr	w11, x9, [x10]
	cbnz	w11, .LBB4_100
	str	w24, [sp, #12]
	add	x9, x20, #72
	cmp	w19, #0
	//APP
	//NO_APP
	add	w13, w21, #64
	cset	w24, ne
	ldr	x8, [x20, #336]
	ldrh	w25, [x20, #10]
	ldr	x19, [x20, #40]
	add	x8, x9, x8, lsl #2
	ldur	w8, [x8, #-4]
	cmp	w8, w13
	b.ne	.LBB4_180
.LBB4_103:
	movi	v0.2d, #0000000000000000
	ldrb	w9, [x20, #368]
	ldr	x10, [x20, #392]
	ldp	x11, x8, [x20, #376]
	cmp	w9, #1
	stp	q0, q0, [x20, #368]
	b.ne	.LBB4_196
	mov	w9, #40
	ldr	x12, [x26, #16]
	umaddl	x9, w13, w9, x12
	ldrb	w12, [x9]
	cbnz	w12, .LBB4_196
	cbz	x10, .LBB4_196
	stp	x25, x19, [x11, #16]
	str	x24, [x11, #32]
	ldrb	w12, [x9, #8]
	cbz	w12, .LBB4_119
	ldp	w25, w24, [sp, #8]
	ldr	x16, [x9, #32]
	cbz	x16, .LBB4_122
	mov	x13, x16
	cbz	x19, .LBB4_113
	mov	x13, xzr
	add	x12, x9, #16
.LBB4_110:
	ldr	x12, [x12]
	ldr	x14, [x12, #24]
	cmp	x19, x14
	b.lo	.LBB4_113
	add	x13, x13, #1
	cmp	x16, x13
	b.ne	.LBB4_110
	mov	x13, x16
.LBB4_113:
	sub	x12, x16, x13
	cmp	x13, x12
	b.hs	.LBB4_124
	cbz	x13, .LBB4_176
	ldr	x12, [x9, #16]
	sub	x14, x16, #1
	str	x14, [x9, #32]
	ldr	x14, [x12]
	mov	x17, x12
	str	x14, [x9, #16]
	subs	x14, x13, #1
	stp	x12, x12, [x12]
	b.eq	.LBB4_118
	mov	x17, x12
.LBB4_117:
	ldr	x15, [x9, #32]
	mov	x16, x17
	ldr	x17, [x9, #16]
	subs	x14, x14, #1
	sub	x15, x15, #1
	str	x15, [x9, #32]
	ldr	x15, [x17]
	str	x15, [x9, #16]
	stp	x17, x16, [x17]
	str	x17, [x16]
	b.ne	.LBB4_117
.LBB4_118:
	ldr	x16, [x9, #32]
	b	.LBB4_177
.LBB4_119:
	ldp	w25, w24, [sp, #8]
	mov	w12, #1
	stp	x8, x10, [x9, #24]
	stp	x12, x11, [x9, #8]
	b	.LBB4_19
.LBB4_120:
	add	x0, x20, #72
	add	w1, w21, #64
	bl	ww_invariant__slots_out__turn_to
	mov	w8, #40
	ldr	x9, [x26, #16]
	umaddl	x8, w25, w8, x9
	ldrb	w9, [x8]
	cbz	w9, .LBB4_67
	b	.LBB4_196
.LBB4_121:
	add	x0, x20, #72
	add	w1, w21, #64
	bl	ww_invariant__slots_out__turn_to
	b	.LBB4_75
.LBB4_122:
	tbnz	x10, #63, .LBB4_196
	mov	x12, xzr
	sub	x15, x29, #9
	sub	x14, x29, #9
	sub	x13, x29, #9
	b	.LBB4_187
.LBB4_124:
	cmp	x16, x13
	b.ne	.LBB4_130
	sub	x15, x29, #9
	sub	x14, x29, #9
	b	.LBB4_182
.LBB4_126:
	add	x0, x20, #72
	add	w1, w21, #64
	bl	ww_invariant__slots_out__turn_to
	mov	w8, #40
	ldr	x9, [x26, #16]
	umaddl	x9, w25, w8, x9
	ldrb	w8, [x9]
	cbz	w8, .LBB4_5
	b	.LBB4_196
.LBB4_127:
	add	x0, x20, #72
	add	w1, w21, #64
	bl	ww_invariant__slots_out__turn_to
	mov	w8, #40
	ldr	x9, [x26, #16]
	umaddl	x9, w25, w8, x9
	ldrb	w8, [x9]
	cbz	w8, .LBB4_12
	b	.LBB4_196
.LBB4_128:
	add	x0, x20, #72
	mov	w1, w21
	bl	ww_invariant__slots_out__turn_to
	mov	w8, #40
	ldr	x9, [x26, #16]
	umull	x8, w21, w8
	ldrb	w8, [x9, x8]
	cmp	w8, #1
	b.eq	.LBB4_80
	b	.LBB4_196
.LBB4_129:
	mov	w0, #1
	b	.LBB4_138
.LBB4_130:
	ldr	x14, [x9, #24]
	sub	x15, x16, #1
	cmp	x12, #2
	str	x15, [x9, #32]
	ldr	x15, [x14, #8]
	str	x15, [x9, #24]
	stp	x14, x14, [x14]
	b.lo	.LBB4_181
	mvn	x13, x13
	mov	x15, x14
	add	x13, x13, x16
.LBB4_132:
	mov	x17, x15
	ldp	x15, x16, [x9, #24]
	subs	x13, x13, #1
	sub	x16, x16, #1
	str	x16, [x9, #32]
	ldr	x16, [x15, #8]
	str	x16, [x9, #24]
	stp	x17, x15, [x15]
	str	x15, [x17, #8]
	b.ne	.LBB4_132
	b	.LBB4_182
.LBB4_133:
	lsl	x8, x18, #15
	add	x9, x8, x27, lsl #3
	orr	x8, x9, #0x6
	orr	x9, x9, #0x4
.LBB4_134:
	ldr	w10, [x26, #76]
	mov	w11, w21
	cmp	w10, #64
	mov	w10, #3
	csinc	x10, x10, xzr, ls
	lsl	x10, x11, x10
	ldr	x11, [x26, #8]
	//APP
	//NO_APP
	add	x10, x11, x10, lsl #3
	add	x10, x10, #128
.LBB4_135:
	ldaxr	x11, [x10]
	cmp	x11, x8
	b.ne	.LBB4_207
	stlxr	w11, x9, [x10]
	cbnz	w11, .LBB4_135
	//APP
	//NO_APP
	mov	w0, #3
.LBB4_138:
	ldr	x4, [sp, #24]
	strb	w0, [sp, #72]
	mov	x19, x0
	add	x0, x20, #8
	add	x3, sp, #56
	mov	x1, x22
	mov	w2, w21
	strh	w23, [sp, #56]
	mov	x24, x18
	strh	w27, [sp, #58]
	str	x18, [sp, #64]
	bl	ww_seat__signs__sign_all
	ldurb	w8, [x20, #8]
	mov	x10, x19
	add	x0, x20, #8
	sub	x3, x29, #80
	mov	x1, x22
	mov	w2, w21
	cmp	w8, #1
	stp	xzr, x24, [x29, #-80]
	stur	xzr, [x29, #-64]
	sturh	w23, [x29, #-80]
	sturh	w27, [x29, #-78]
	sturb	w10, [x29, #-64]
	b.ne	.LBB4_141
	mov	x4, xzr
	bl	ww_table__seat__Stepper__must_die
	tst	w0, #0xff
	b.eq	.LBB4_151
	mov	x25, x1
	mov	w23, wzr
	mov	x12, x24
	mov	x13, x19
	b	.LBB4_144
.LBB4_141:
	mov	w4, #1
	bl	ww_table__seat__Stepper__must_die
	tbz	w0, #0, .LBB4_151
	ldr	x8, [x20, #32]
	ldr	x9, [x22]
	//APP
	//NO_APP
	add	x8, x9, x8, lsl #3
	ldar	x25, [x8]
	//APP
	//NO_APP
	cbz	x25, .LBB4_151
	ldrb	w8, [sp, #56]
	ldrh	w27, [sp, #58]
	ldr	x12, [sp, #64]
	ldrb	w13, [sp, #72]
	cmp	w8, #0
	cset	w23, eq
.LBB4_144:
	ldr	x8, [x20, #336]
	add	x24, x20, #72
	movi	v0.2d, #0000000000000000
	add	w10, w21, #64
	stp	xzr, xzr, [x29, #-40]
	add	x8, x24, x8, lsl #2
	stur	xzr, [x29, #-48]
	ldur	w8, [x8, #-4]
	stp	q0, q0, [x29, #-80]
	stp	q0, q0, [sp, #80]
	cmp	w8, w10
	b.ne	.LBB4_195
	mov	w8, #40
	ldr	x9, [x26, #16]
	umaddl	x8, w10, w8, x9
	ldrb	w9, [x8]
	cbnz	w9, .LBB4_196
.LBB4_146:
	ldrb	w9, [x8, #8]
	cbz	w9, .LBB4_149
	ldr	x9, [x8, #32]
	cbz	x9, .LBB4_149
	ldr	x8, [x8, #16]
	ldrh	w10, [x20, #10]
	ldrh	w8, [x8, #16]
	and	w8, w8, #0xffff
	cmp	w8, w10, uxth
	ccmp	x9, #1, #0, eq
	csel	w9, wzr, w13, eq
.LBB4_149:
	tbz	w23, #0, .LBB4_159
	mov	w8, w13
	mov	w9, w9
	b	.LBB4_162
.LBB4_151:
	ldurb	w8, [x20, #8]
	cbz	w8, .LBB4_155
	ldr	x8, [x20, #40]
	cbz	x8, .LBB4_155
	ldr	x8, [x20, #32]
	ldr	x9, [x22]
	//APP
	//NO_APP
	add	x8, x9, x8, lsl #3
	ldar	x8, [x8]
	//APP
	//NO_APP
	cbz	x8, .LBB4_155
	ldr	x8, [x20, #32]
	ldr	x9, [x22]
	//APP
	//NO_APP
	add	x8, x9, x8, lsl #3
	stlr	xzr, [x8]
	//APP
	//NO_APP
.LBB4_155:
	ldr	x8, [x20, #336]
	add	x19, x20, #72
	add	w9, w21, #64
	add	x8, x19, x8, lsl #2
	ldur	w8, [x8, #-4]
	cmp	w8, w9
	b.ne	.LBB4_194
.LBB4_156:
	ldr	w8, [x26, #76]
	mov	w9, w21
	cmp	w8, #64
	mov	w8, #3
	csinc	x8, x8, xzr, ls
	lsl	x8, x9, x8
	ldr	x9, [x26, #8]
	//APP
	//NO_APP
	add	x8, x9, x8, lsl #3
	add	x8, x8, #136
	stlr	xzr, [x8]
	//APP
	//NO_APP
	ldr	x8, [x20, #336]
	cbz	x8, .LBB4_158
	sub	x8, x8, #1
	str	x8, [x20, #336]
	str	wzr, [x19, x8, lsl #2]
.LBB4_158:
	mov	w9, #1
	mov	w10, #2
	mov	w8, wzr
	mov	x25, xzr
	str	w21, [x20, #424]
	str	w9, [x20, #420]
	mov	w9, #3
	strb	w10, [x20, #428]
	b	.LBB4_203
.LBB4_159:
	cmp	w27, #16
	b.hs	.LBB4_161
	lsl	w8, w27, #3
	lsl	x10, x12, #8
	mov	w11, w13
	bfi	x11, x12, #8, #56
	add	w8, w8, #8
	orr	x10, x10, x8
	add	x8, x11, x8
	add	x9, x10, w9, uxtw
	b	.LBB4_162
.LBB4_161:
	lsl	x8, x12, #15
	mov	w10, #7
	sub	w9, w10, w9
	add	x11, x8, w27, uxtw #3
	sub	w8, w10, w13
	add	x8, x11, w8, uxtb
	add	x9, x11, w9, uxtb
.LBB4_162:
	ldr	w10, [x26, #76]
	mov	w19, w21
	ldr	x11, [x26, #8]
	//APP
	//NO_APP
	mov	x23, x28
	cmp	w10, #64
	mov	w10, #3
	csinc	x10, x10, xzr, ls
	lsl	x10, x19, x10
	add	x10, x11, x10, lsl #3
	add	x10, x10, #128
.LBB4_163:
	ldaxr	x11, [x10]
	cmp	x11, x8
	b.ne	.LBB4_206
	stlxr	w11, x9, [x10]
	cbnz	w11, .LBB4_163
	movi	v0.2d, #0000000000000000
	//APP
	//NO_APP
	add	x28, x20, #376
	ldr	x8, [x20, #392]
	ldr	q1, [x28]
	ldrb	w9, [x20, #368]
	ldrh	w3, [x20, #10]
	sub	x0, x29, #80
	add	w2, w21, #64
	add	x4, sp, #80
	stur	x8, [x29, #-32]
	stp	q0, q0, [x20, #368]
	ldr	x1, [x26, #16]
	stur	q1, [x29, #-48]
	str	x9, [sp, #80]
	str	x8, [sp, #104]
	stur	q1, [sp, #88]
	bl	ww_invariant__lists__leave_list
	ldrb	w9, [x20, #368]
	ldurb	w8, [x29, #-80]
	ldur	q0, [x29, #-72]
	ldr	x0, [x20, #376]
	ldur	x10, [x29, #-56]
	ldr	x27, [x20, #392]
	cmp	w9, #1
	str	x8, [x20, #368]
	str	q0, [x28]
	str	x10, [x20, #392]
	b.ne	.LBB4_168
	cbz	x27, .LBB4_168
.LBB4_167:
	ldr	x28, [x0]
	sub	x27, x27, #1
	bl	rattle_dealloc
	mov	x0, x28
	cbnz	x27, .LBB4_167
.LBB4_168:
	ldurb	w8, [x20, #8]
	cbz	w8, .LBB4_172
	ldr	x8, [x20, #40]
	cbz	x8, .LBB4_172
	ldr	x8, [x20, #32]
	ldr	x9, [x22]
	//APP
	//NO_APP
	add	x8, x9, x8, lsl #3
	ldar	x8, [x8]
	//APP
	//NO_APP
	cbz	x8, .LBB4_172
	ldr	x8, [x20, #32]
	ldr	x9, [x22]
	//APP
	//NO_APP
	add	x8, x9, x8, lsl #3
	stlr	xzr, [x8]
	//APP
	//NO_APP
.LBB4_172:
	ldr	x8, [x20, #336]
	add	w9, w21, #64
	mov	x28, x23
	add	x8, x24, x8, lsl #2
	ldur	w8, [x8, #-4]
	cmp	w8, w9
	b.ne	.LBB4_197
.LBB4_173:
	ldr	w8, [x26, #76]
	ldr	x9, [x26, #8]
	//APP
	//NO_APP
	cmp	w8, #64
	mov	w8, #3
	csinc	x8, x8, xzr, ls
	lsl	x8, x19, x8
	add	x8, x9, x8, lsl #3
	add	x8, x8, #136
	stlr	xzr, [x8]
	//APP
	//NO_APP
	ldr	x8, [x20, #336]
	cbz	x8, .LBB4_175
	sub	x8, x8, #1
	str	x8, [x20, #336]
	str	wzr, [x24, x8, lsl #2]
.LBB4_175:
	mov	w9, #1
	add	x10, x20, #420
	mov	w8, wzr
	str	w21, [x20, #416]
	str	w9, [x20, #412]
	mov	w9, #8
	str	xzr, [x10]
	b	.LBB4_81
.LBB4_176:
	sub	x12, x29, #9
	sub	x17, x29, #9
.LBB4_177:
	ldp	x15, x14, [x9, #16]
	stp	x12, x17, [x9, #16]
	mov	x12, x16
	str	x13, [x9, #32]
	b	.LBB4_183
.LBB4_178:
	str	x0, [sp, #16]
	add	x0, x20, #72
	add	w1, w21, #64
	mov	x19, x18
	bl	ww_invariant__slots_out__turn_to
	ldr	x0, [sp, #16]
	mov	x18, x19
	mov	w8, #40
	ldr	x9, [x26, #16]
	umaddl	x8, w23, w8, x9
	ldrb	w9, [x8]
	cbz	w9, .LBB4_25
	b	.LBB4_196
.LBB4_179:
	add	x0, x20, #72
	mov	w1, w23
	bl	ww_invariant__slots_out__turn_to
	b	.LBB4_95
.LBB4_180:
	str	x0, [sp, #16]
	add	x0, x20, #72
	add	w1, w21, #64
	str	x18, [sp]
	bl	ww_invariant__slots_out__turn_to
	ldr	x0, [sp, #16]
	ldr	x18, [sp]
	add	w13, w21, #64
	b	.LBB4_103
.LBB4_181:
	mov	x15, x14
.LBB4_182:
	ldr	x13, [x9, #32]
.LBB4_183:
	cmn	x13, x10
	b.mi	.LBB4_196
	cbz	x13, .LBB4_186
	ldr	x13, [x9, #24]
	str	x11, [x13]
	str	x13, [x11, #8]
	mov	x13, x14
	ldr	x11, [x9, #32]
	add	x10, x11, x10
	stp	x8, x10, [x9, #24]
	b	.LBB4_188
.LBB4_186:
	mov	x13, x14
.LBB4_187:
	stp	x11, x8, [x9, #16]
	str	x10, [x9, #32]
.LBB4_188:
	cmn	x10, x12
	b.mi	.LBB4_196
	cbz	x12, .LBB4_19
	cbz	x10, .LBB4_192
	str	x15, [x8]
	str	x8, [x15, #8]
	ldr	x8, [x9, #32]
	add	x8, x8, x12
	stp	x14, x8, [x9, #24]
	b	.LBB4_19
.LBB4_192:
	stp	x15, x13, [x9, #16]
	str	x12, [x9, #32]
	b	.LBB4_19
.LBB4_193:
	add	x0, x20, #72
	add	w1, w21, #64
	mov	x24, x18
	bl	ww_invariant__slots_out__turn_to
	mov	x18, x24
	mov	w8, #40
	ldr	x9, [x26, #16]
	ldr	w12, [sp, #12]
	umaddl	x8, w19, w8, x9
	ldrb	w9, [x8]
	cbz	w9, .LBB4_40
	b	.LBB4_196
.LBB4_194:
	add	x0, x20, #72
	add	w1, w21, #64
	bl	ww_invariant__slots_out__turn_to
	b	.LBB4_156
.LBB4_195:
	add	x0, x20, #72
	add	w1, w21, #64
	mov	x24, x13
	mov	x19, x12
	bl	ww_invariant__slots_out__turn_to
	mov	x13, x24
	add	x24, x20, #72
	mov	x12, x19
	add	w10, w21, #64
	mov	w8, #40
	ldr	x9, [x26, #16]
	umaddl	x8, w10, w8, x9
	ldrb	w9, [x8]
	cbz	w9, .LBB4_146
.LBB4_196:
	brk	#0x1
.LBB4_197:
	add	x0, x20, #72
	add	w1, w21, #64
	bl	ww_invariant__slots_out__turn_to
	b	.LBB4_173
.LBB4_198:
	clrex
	//APP
	//NO_APP
	b	.LBB4_200
.LBB4_199:
	clrex
	//APP
	//NO_APP
.LBB4_200:
	ldr	x28, [sp, #16]
.LBB4_201:
	ldr	w12, [sp, #12]
.LBB4_202:
	mov	w9, #2
	mov	w8, wzr
	mov	x25, xzr
	str	w9, [x20, #420]
	mov	w9, #1
	str	w21, [x20, #424]
	strb	w12, [x20, #428]
.LBB4_203:
	ldr	w10, [sp, #8]
	strb	w10, [x20, #429]
	b	.LBB4_82
.LBB4_204:
	clrex
	//APP
	//NO_APP
	ldurb	w8, [x20, #8]
	cbnz	w8, .LBB4_91
	b	.LBB4_94
.LBB4_205:
	clrex
	mov	w12, wzr
	//APP
	//NO_APP
	b	.LBB4_202
.LBB4_206:
	clrex
	mov	x28, x23
	//APP
	//NO_APP
	b	.LBB4_201
.LBB4_207:
	clrex
	//APP
	//NO_APP
	b	.LBB4_202
.Lfunc_end4:
	.size	ww_steps__station__Station__look, .Lfunc_end4-ww_steps__station__Station__look

	.section	.text.ww_table__seat__Stepper__look,"ax",@progbits
	.p2align	2
	.type	ww_table__seat__Stepper__look,@function
ww_table__seat__Stepper__look:
	cmp	w2, #64
	mov	w8, #3
	mov	w9, w3
	csinc	x8, x8, xzr, ls
	//APP
	//NO_APP
	mov	w10, #1
	lsl	x8, x9, x8
	mov	w11, #43
	add	x8, x1, x8, lsl #3
	add	x8, x8, #128
	ldar	x9, [x8]
	//APP
	//NO_APP
	and	w8, w9, #0x7
	lsl	w10, w10, w8
	cmp	w8, #5
	and	w10, w10, w11
	ccmp	w10, #0, #4, ls
	b.eq	.LBB5_9
	mov	w10, #31
	lsr	x11, x9, #8
	ands	w12, w10, w9, lsr #3
	cset	w10, ne
	cmp	w8, #2
	sub	w10, w12, w10
	cset	w14, lo
	cbz	w12, .LBB5_4
	lsr	x15, x9, #57
	mov	w13, wzr
	mov	w12, #1
	cbz	x15, .LBB5_6
	and	w15, w10, #0xffff
	cmp	w15, #16
	b.lo	.LBB5_6
	b	.LBB5_16
.LBB5_4:
	cmp	x11, #0
	ccmp	w8, #1, #2, eq
	b.hi	.LBB5_16
	mov	w12, wzr
	mov	x11, xzr
	mov	w14, #1
	mov	w13, #1
.LBB5_6:
	cmp	w8, #2
	b.lo	.LBB5_10
.LBB5_7:
	cmp	w8, #5
	b.eq	.LBB5_11
	cmp	w8, #3
	b.eq	.LBB5_10
	b	.LBB5_16
.LBB5_9:
	eor	w8, w8, #0x7
	mov	w13, wzr
	ubfx	w10, w9, #3, #12
	cmp	w8, #2
	lsr	x11, x9, #15
	mov	w12, #1
	cset	w14, lo
	cmp	w8, #2
	b.hs	.LBB5_7
.LBB5_10:
	cmp	w8, #3
	cset	w15, ne
	bic	w14, w15, w14
	tbnz	w14, #0, .LBB5_16
.LBB5_11:
	cbz	w13, .LBB5_13
	mov	w13, w8
	b	.LBB5_14
.LBB5_13:
	lsl	x13, x11, #15
	lsl	w14, w10, #3
	mov	w15, w8
	orr	x15, x15, x11, lsl #8
	and	w16, w10, #0xffff
	eor	w17, w8, #0x7
	add	x13, x13, w10, uxth #3
	add	w14, w14, #8
	cmp	w16, #15
	and	x14, x14, #0xfff8
	orr	x13, x13, x17
	add	x14, x15, x14
	csel	x13, x13, x14, hi
.LBB5_14:
	cmp	x13, x9
	b.ne	.LBB5_16
	strh	w12, [x0]
	strh	w10, [x0, #2]
	str	x11, [x0, #8]
	strb	w8, [x0, #16]
	ret
.LBB5_16:
	brk	#0x1
.Lfunc_end5:
	.size	ww_table__seat__Stepper__look, .Lfunc_end5-ww_table__seat__Stepper__look

	.section	.text.unlikely.ww_invariant__slots_out__turn_to,"ax",@progbits
	.p2align	2
	.type	ww_invariant__slots_out__turn_to,@function
ww_invariant__slots_out__turn_to:
	ldr	x8, [x0, #264]
	cbz	x8, .LBB6_14
	add	x9, x0, x8, lsl #2
	ldur	w11, [x9, #-4]
	cmp	w11, w1
	b.eq	.LBB6_14
	mov	x9, xzr
	mov	x10, x8
.LBB6_3:
	cbz	x10, .LBB6_12
	cmp	x10, #8
	b.hs	.LBB6_6
	mov	x12, xzr
	b	.LBB6_10
.LBB6_6:
	dup	v0.4s, w11
	and	x12, x10, #0xfffffffffffffff8
	add	x11, x0, #16
	and	x13, x10, #0xfffffffffffffff8
.LBB6_7:
	mov	v2.16b, v0.16b
	ldp	q1, q0, [x11, #-16]
	subs	x13, x13, #8
	ext	v2.16b, v2.16b, v1.16b, #12
	ext	v1.16b, v1.16b, v0.16b, #12
	stp	q2, q1, [x11, #-16]
	add	x11, x11, #32
	b.ne	.LBB6_7
	cmp	x10, x12
	b.eq	.LBB6_12
	mov	w11, v0.s[3]
.LBB6_10:
	add	x13, x0, x12, lsl #2
	sub	x10, x10, x12
.LBB6_11:
	mov	w12, w11
	ldr	w11, [x13]
	subs	x10, x10, #1
	str	w12, [x13], #4
	b.ne	.LBB6_11
.LBB6_12:
	add	x9, x9, #1
	cmp	x9, x8
	b.eq	.LBB6_14
	ldr	x10, [x0, #264]
	add	x11, x0, x10, lsl #2
	ldur	w11, [x11, #-4]
	cmp	w11, w1
	b.ne	.LBB6_3
.LBB6_14:
	ret
.Lfunc_end6:
	.size	ww_invariant__slots_out__turn_to, .Lfunc_end6-ww_invariant__slots_out__turn_to

	.section	.text.ww_invariant__lists__leave_list,"ax",@progbits
	.p2align	2
	.type	ww_invariant__lists__leave_list,@function
ww_invariant__lists__leave_list:
	stp	x29, x30, [sp, #-64]!
	mov	w8, #40
	str	x23, [sp, #16]
	mov	x29, sp
	umaddl	x10, w2, w8, x1
	stp	x22, x21, [sp, #32]
	stp	x20, x19, [sp, #48]
	ldrb	w8, [x10]
	cbnz	w8, .LBB7_41
	mov	x11, x10
	ldp	x8, x20, [x4, #8]
	ldrb	w9, [x4]
	ldrb	w12, [x11, #8]!
	ldr	x19, [x4, #24]
	cbz	w12, .LBB7_40
	ldr	x14, [x10, #32]
	cbz	x14, .LBB7_6
	mov	x12, xzr
	and	w13, w3, #0xffff
	add	x15, x10, #16
.LBB7_4:
	ldr	x15, [x15]
	ldrh	w16, [x15, #16]
	cmp	w16, w13
	b.eq	.LBB7_7
	add	x12, x12, #1
	cmp	x14, x12
	b.ne	.LBB7_4
	b	.LBB7_40
.LBB7_6:
	movi	v0.2d, #0000000000000000
	stp	q0, q0, [x11]
	b	.LBB7_40
.LBB7_7:
	subs	x15, x14, x12
	b.ls	.LBB7_40
	cmp	x12, x15
	b.hs	.LBB7_14
	cbz	x12, .LBB7_22
	ldr	x15, [x10, #16]
	sub	x13, x14, #1
	cmp	x12, #1
	str	x13, [x10, #32]
	ldr	x13, [x15]
	mov	x16, x15
	str	x13, [x10, #16]
	stp	x15, x15, [x15]
	b.eq	.LBB7_13
	sub	x13, x12, #1
	mov	x16, x15
.LBB7_12:
	ldr	x14, [x10, #32]
	mov	x17, x16
	ldr	x16, [x10, #16]
	subs	x13, x13, #1
	sub	x14, x14, #1
	str	x14, [x10, #32]
	ldr	x14, [x16]
	str	x14, [x10, #16]
	stp	x16, x17, [x16]
	str	x16, [x17]
	b.ne	.LBB7_12
.LBB7_13:
	ldr	x14, [x10, #32]
	b	.LBB7_23
.LBB7_14:
	ldr	x21, [x10, #24]
	sub	x13, x14, #1
	cmp	x15, #2
	str	x13, [x10, #32]
	ldr	x13, [x21, #8]
	str	x13, [x10, #24]
	stp	x21, x21, [x21]
	b.lo	.LBB7_20
	mvn	x12, x12
	mov	x20, x21
	add	x12, x12, x14
.LBB7_16:
	mov	x14, x20
	ldp	x20, x13, [x10, #24]
	subs	x12, x12, #1
	sub	x13, x13, #1
	str	x13, [x10, #32]
	ldr	x13, [x20, #8]
	str	x13, [x10, #24]
	stp	x14, x20, [x20]
	str	x20, [x14, #8]
	b.ne	.LBB7_16
	mov	x13, x21
	sub	x12, x15, #3
	cmn	x12, #3
	b.ls	.LBB7_24
.LBB7_18:
	cmp	x15, #1
	b.ne	.LBB7_31
	mov	x12, xzr
	add	x14, x29, #31
	mov	x21, x20
	mov	x20, x13
	b	.LBB7_21
.LBB7_20:
	mov	x12, xzr
	add	x14, x29, #31
	mov	x20, x21
.LBB7_21:
	add	x13, x29, #31
	b	.LBB7_25
.LBB7_22:
	add	x15, x29, #31
	add	x16, x29, #31
.LBB7_23:
	ldp	x20, x13, [x10, #16]
	stp	x15, x16, [x10, #16]
	mov	x15, x14
	str	x12, [x10, #32]
	sub	x12, x14, #3
	cmn	x12, #3
	b.hi	.LBB7_18
.LBB7_24:
	ldr	x14, [x20]
	stp	x20, x20, [x20]
	sub	x12, x15, #1
	mov	x21, x20
.LBB7_25:
	ldr	x15, [x10, #32]
	cmn	x15, x12
	b.mi	.LBB7_41
	cbz	x12, .LBB7_29
	cbz	x15, .LBB7_33
.LBB7_28:
	ldr	x15, [x10, #24]
	str	x14, [x15]
	str	x15, [x14, #8]
	ldr	x14, [x10, #32]
	add	x15, x14, x12
	stp	x13, x15, [x10, #24]
.LBB7_29:
	cbnz	x15, .LBB7_34
	movi	v0.2d, #0000000000000000
	stp	q0, q0, [x11]
	b	.LBB7_34
.LBB7_31:
	ldr	x14, [x13, #8]
	stp	x13, x13, [x13]
	ldr	x15, [x10, #32]
	cmn	x15, #1
	b.mi	.LBB7_41
	mov	w12, #1
	mov	x21, x20
	mov	x20, x14
	mov	x14, x13
	cbnz	x15, .LBB7_28
.LBB7_33:
	stp	x14, x13, [x10, #16]
	str	x12, [x10, #32]
.LBB7_34:
	cmp	w9, #1
	b.ne	.LBB7_39
	cbz	x19, .LBB7_39
	mov	x22, x0
.LBB7_37:
	ldr	x23, [x8]
	mov	x0, x8
	sub	x19, x19, #1
	bl	rattle_dealloc
	mov	x8, x23
	cbnz	x19, .LBB7_37
	mov	w19, #1
	mov	x8, x21
	mov	w9, #1
	mov	x0, x22
	b	.LBB7_40
.LBB7_39:
	mov	x8, x21
	mov	w19, #1
	mov	w9, #1
.LBB7_40:
	stp	x20, x19, [x0, #16]
	ldp	x20, x19, [sp, #48]
	ldp	x22, x21, [sp, #32]
	mov	w9, w9
	ldr	x23, [sp, #16]
	stp	x9, x8, [x0]
	ldp	x29, x30, [sp], #64
	ret
.LBB7_41:
	brk	#0x1
.Lfunc_end7:
	.size	ww_invariant__lists__leave_list, .Lfunc_end7-ww_invariant__lists__leave_list

	.section	.text.ww_seat__signs__sign_all,"ax",@progbits
	.p2align	2
	.type	ww_seat__signs__sign_all,@function
ww_seat__signs__sign_all:
	stp	x29, x30, [sp, #-96]!
	stp	x28, x27, [sp, #16]
	mov	x29, sp
	stp	x26, x25, [sp, #32]
	stp	x24, x23, [sp, #48]
	stp	x22, x21, [sp, #64]
	stp	x20, x19, [sp, #80]
	sub	sp, sp, #1072
	str	xzr, [sp]
	mov	x21, x0
	movi	v0.2d, #0000000000000000
	ldrb	w0, [x3]
	ldrb	w8, [x3, #16]
	add	w23, w2, #64
	mov	w9, #40
	ldrh	w24, [x3, #2]
	ldr	x28, [x3, #8]
	umull	x3, w23, w9
	and	w9, w0, #0xff
	tst	w8, #0x4
	add	x26, sp, #272
	add	x5, sp, #800
	ccmp	w9, #1, #0, eq
	mov	x19, x4
	mov	x20, x1
	mov	x27, xzr
	add	x2, x21, #64
	orr	x25, x5, #0x2
	cset	w7, eq
	orr	x22, x26, #0x2
	stp	q0, q0, [sp, #16]
	stp	q0, q0, [sp, #48]
	stp	q0, q0, [sp, #80]
	stp	q0, q0, [sp, #112]
	stp	q0, q0, [sp, #144]
	stp	q0, q0, [sp, #176]
	stp	q0, q0, [sp, #208]
	stp	q0, q0, [sp, #272]
	stp	q0, q0, [sp, #304]
	stp	q0, q0, [sp, #336]
	stp	q0, q0, [sp, #368]
	stp	q0, q0, [sp, #400]
	stp	q0, q0, [sp, #432]
	stp	q0, q0, [sp, #464]
	stp	q0, q0, [sp, #496]
	str	xzr, [sp, #528]
	strh	wzr, [sp, #268]
	str	wzr, [sp, #264]
	str	q0, [sp, #240]
	stp	w7, w0, [sp, #8]
	b	.LBB8_2
.LBB8_1:
	tbz	w10, #0, .LBB8_56
.LBB8_2:
	ldr	x8, [x21, #328]
	add	x8, x2, x8, lsl #2
	ldur	w8, [x8, #-4]
	cmp	w8, w23
	b.ne	.LBB8_42
	ldr	x8, [x20, #8]
	add	x11, x8, x3
	ldrb	w8, [x11]
	cbnz	w8, .LBB8_57
.LBB8_4:
	ldrb	w9, [x11, #8]
	ldrh	w8, [x21, #2]
	cbz	w9, .LBB8_21
	ldrb	w9, [x21]
	cbz	w9, .LBB8_22
	movi	v0.2d, #0000000000000000
	ldr	x10, [x11, #32]
	ldr	x12, [x11, #16]
	str	xzr, [sp, #1056]
	stp	q0, q0, [sp, #800]
	stp	q0, q0, [sp, #832]
	stp	q0, q0, [sp, #864]
	stp	q0, q0, [sp, #896]
	stp	q0, q0, [sp, #928]
	stp	q0, q0, [sp, #960]
	stp	q0, q0, [sp, #992]
	str	q0, [sp, #1024]
	str	q0, [sp, #1040]
	cbz	x10, .LBB8_28
	and	w9, w0, #0xff
	cmp	w9, #1
	b.ne	.LBB8_30
	mov	x9, xzr
	mov	w14, wzr
	mov	x13, xzr
	mov	x11, xzr
	b	.LBB8_11
.LBB8_9:
	ldr	x16, [x12, #24]
	sub	x27, x27, #1
.LBB8_10:
	cmp	x16, #0
	add	x11, x11, #1
	cset	w12, ne
	tst	w14, #0x1
	orr	w12, w14, w12
	csel	x13, x13, x16, ne
	cmp	x10, x11
	and	w14, w12, #0x1
	mov	x12, x15
	b.eq	.LBB8_29
.LBB8_11:
	ldr	x15, [x12]
	cbnz	x27, .LBB8_9
	ldrh	w17, [x12, #16]
	ldr	x16, [x12, #24]
	cmp	w8, w17
	b.ne	.LBB8_14
.LBB8_13:
	mov	x27, xzr
	b	.LBB8_10
.LBB8_14:
	mov	x27, xzr
	cbz	x16, .LBB8_10
	ldrb	w12, [x12, #32]
	tbz	w12, #0, .LBB8_10
	cmp	w24, w17
	b.eq	.LBB8_18
	cmp	x28, x16
	mov	x12, x28
	ccmp	x28, #0, #4, lo
	b.ne	.LBB8_19
.LBB8_18:
	tst	w14, #0xff
	mov	x12, x13
	b.eq	.LBB8_13
.LBB8_19:
	cmp	x9, #16
	b.eq	.LBB8_55
	add	x18, sp, #800
	mov	x27, xzr
	add	x18, x18, x9, lsl #4
	add	x9, x9, #1
	strh	w17, [x18]
	stur	wzr, [x18, #2]
	strh	wzr, [x18, #6]
	str	x12, [x18, #8]
	b	.LBB8_10
.LBB8_21:
	movi	v0.2d, #0000000000000000
	mov	w13, wzr
	mov	x12, xzr
	mov	x9, xzr
	mov	w10, wzr
	mov	x27, xzr
	strh	wzr, [sp, #796]
	str	wzr, [sp, #792]
	stp	q0, q0, [sp, #544]
	stp	q0, q0, [sp, #576]
	stp	q0, q0, [sp, #608]
	stp	q0, q0, [sp, #640]
	stp	q0, q0, [sp, #672]
	stp	q0, q0, [sp, #704]
	stp	q0, q0, [sp, #736]
	str	q0, [sp, #768]
	b	.LBB8_45
.LBB8_22:
	ldr	x9, [x11, #32]
	strh	wzr, [sp, #796]
	str	wzr, [sp, #792]
	cbz	x9, .LBB8_41
	mov	w10, wzr
	mov	x12, xzr
	add	x11, x11, #16
.LBB8_24:
	ldr	x11, [x11]
	sub	x9, x9, #1
	ldr	x13, [x11, #24]
	ldrb	w14, [x11, #32]
	cmp	x13, #0
	cset	w15, ne
	ands	w14, w15, w14
	csel	x13, x13, xzr, ne
	cmp	x13, x12
	csel	x15, x13, x12, lo
	tst	w10, #0x1
	csinc	w16, w14, wzr, eq
	csel	x12, x12, x13, ne
	tst	w10, w14
	csinc	w10, w16, wzr, eq
	csel	x12, x12, x15, eq
	cbnz	x9, .LBB8_24
	tst	w10, #0xff
	csel	w9, wzr, w7, eq
	cmp	w9, #1
	b.ne	.LBB8_27
	cmp	x12, #0
	ccmp	x12, x28, #2, ne
	b.lo	.LBB8_43
.LBB8_27:
	mov	w13, wzr
	mov	x12, xzr
	mov	x9, xzr
	b	.LBB8_44
.LBB8_28:
	mov	x9, xzr
.LBB8_29:
	ldp	q0, q1, [x5, #208]
	mov	w10, wzr
	ldur	q2, [x5, #240]
	ldrh	w12, [x25, #4]
	mov	x27, xzr
	ldr	w11, [x25]
	ldrh	w13, [sp, #800]
	stp	q0, q1, [sp, #736]
	ldp	q0, q1, [x5, #144]
	str	q2, [sp, #768]
	strh	w12, [sp, #796]
	ldr	x12, [sp, #808]
	stp	q0, q1, [sp, #672]
	ldp	q0, q2, [x5, #176]
	str	w11, [sp, #792]
	stp	q0, q2, [sp, #704]
	ldp	q1, q0, [x5, #80]
	stp	q1, q0, [sp, #608]
	ldp	q0, q2, [x5, #112]
	stp	q0, q2, [sp, #640]
	ldp	q1, q0, [x5, #16]
	stp	q1, q0, [sp, #544]
	ldp	q0, q2, [x5, #48]
	stp	q0, q2, [sp, #576]
	b	.LBB8_45
.LBB8_30:
	mov	x9, xzr
	mov	w14, wzr
	mov	x13, xzr
	mov	x11, xzr
	b	.LBB8_33
.LBB8_31:
	sub	x27, x27, #1
.LBB8_32:
	ldr	x12, [x12, #24]
	add	x11, x11, #1
	cmp	x12, #0
	cset	w16, ne
	tst	w14, #0x1
	csel	x13, x13, x12, ne
	orr	w12, w14, w16
	cmp	x10, x11
	and	w14, w12, #0x1
	mov	x12, x15
	b.eq	.LBB8_29
.LBB8_33:
	ldr	x15, [x12]
	cbnz	x27, .LBB8_31
	ldrh	w16, [x12, #16]
	cmp	w8, w16
	b.ne	.LBB8_36
	mov	x27, xzr
	b	.LBB8_32
.LBB8_36:
	ldr	x17, [x12, #24]
	mov	x27, xzr
	cbz	x17, .LBB8_32
	ldrb	w17, [x12, #32]
	tbz	w17, #0, .LBB8_32
	tst	w14, #0xff
	b.eq	.LBB8_32
	cmp	x9, #16
	b.eq	.LBB8_55
	add	x17, sp, #800
	mov	x27, xzr
	add	x17, x17, x9, lsl #4
	add	x9, x9, #1
	strh	w16, [x17]
	stur	wzr, [x17, #2]
	strh	wzr, [x17, #6]
	str	x13, [x17, #8]
	b	.LBB8_32
.LBB8_41:
	mov	w13, wzr
	mov	x12, xzr
	b	.LBB8_44
.LBB8_42:
	add	x0, x21, #64
	mov	w1, w23
	mov	x22, x3
	bl	ww_invariant__slots_out__turn_to
	ldp	w7, w0, [sp, #8]
	add	x5, sp, #800
	mov	x3, x22
	orr	x22, x26, #0x2
	add	x2, x21, #64
	ldr	x8, [x20, #8]
	add	x11, x8, x3
	ldrb	w8, [x11]
	cbz	w8, .LBB8_4
	b	.LBB8_57
.LBB8_43:
	mov	w9, #1
	mov	w13, w24
.LBB8_44:
	movi	v0.2d, #0000000000000000
	mov	w10, wzr
	mov	x27, xzr
	stp	q0, q0, [sp, #560]
	stp	q0, q0, [sp, #592]
	stp	q0, q0, [sp, #624]
	stp	q0, q0, [sp, #656]
	stp	q0, q0, [sp, #688]
	stp	q0, q0, [sp, #720]
	stp	q0, q0, [sp, #752]
	str	q0, [sp, #544]
.LBB8_45:
	ldp	q0, q1, [sp, #736]
	ldr	q2, [sp, #768]
	ldr	w11, [sp, #792]
	ldrh	w14, [sp, #796]
	strh	w13, [sp, #272]
	str	q2, [sp, #240]
	stp	q0, q1, [sp, #208]
	ldp	q0, q1, [sp, #672]
	str	w11, [sp, #264]
	strh	w14, [sp, #268]
	mov	w11, w11
	stp	q0, q1, [sp, #144]
	and	w13, w14, #0xffff
	ldp	q0, q2, [sp, #704]
	str	w11, [x22]
	strh	w13, [x22, #4]
	str	x12, [sp, #280]
	stp	q0, q2, [sp, #176]
	ldp	q1, q0, [sp, #608]
	str	x9, [sp, #528]
	stp	q1, q0, [sp, #80]
	ldp	q0, q2, [sp, #640]
	stp	q0, q2, [sp, #112]
	ldp	q1, q0, [sp, #544]
	stp	q1, q0, [sp, #16]
	ldp	q0, q2, [sp, #576]
	stp	q0, q2, [sp, #48]
	ldp	q0, q1, [sp, #208]
	ldr	q2, [sp, #240]
	stp	q0, q1, [x26, #208]
	ldp	q0, q1, [sp, #144]
	stur	q2, [x26, #240]
	stp	q0, q1, [x26, #144]
	ldp	q0, q2, [sp, #176]
	stp	q0, q2, [x26, #176]
	ldp	q1, q0, [sp, #80]
	stp	q1, q0, [x26, #80]
	ldp	q0, q2, [sp, #112]
	stp	q0, q2, [x26, #112]
	ldp	q1, q0, [sp, #16]
	stp	q1, q0, [x26, #16]
	ldp	q0, q2, [sp, #48]
	stp	q0, q2, [x26, #48]
	cbz	x9, .LBB8_1
	mov	x11, xzr
	b	.LBB8_48
.LBB8_47:
	add	x11, x11, #1
	cmp	x11, x9
	b.eq	.LBB8_1
.LBB8_48:
	add	x12, sp, #272
	ldr	w14, [x21, #4]
	ldr	x15, [x20]
	add	x13, x12, x11, lsl #4
	mov	w16, #3
	cmp	w14, #64
	ldrh	w12, [x13]
	csinc	x16, x16, xzr, ls
	ldr	x13, [x13, #8]
	lsl	x14, x14, x16
	//APP
	//NO_APP
	add	x15, x15, x12, lsl #6
	add	x14, x15, x14, lsl #3
	add	x14, x14, #128
.LBB8_49:
	ldaxr	x15, [x14]
	cbnz	x15, .LBB8_54
	stlxr	w15, x13, [x14]
	cbnz	w15, .LBB8_49
	mov	w13, #1
	//APP
	//NO_APP
	cmp	w12, w8
	b.eq	.LBB8_47
.LBB8_52:
	cbz	w13, .LBB8_47
	lsr	x13, x12, #3
	mov	w14, #1
	lsl	x12, x14, x12
	and	x13, x13, #0x1ff8
	ldr	x14, [x19, x13]
	orr	x12, x14, x12
	str	x12, [x19, x13]
	b	.LBB8_47
.LBB8_54:
	mov	w13, wzr
	clrex
	//APP
	//NO_APP
	cmp	w12, w8
	b.ne	.LBB8_52
	b	.LBB8_47
.LBB8_55:
	ldp	q0, q1, [x5, #208]
	mov	w10, #1
	ldur	q2, [x5, #240]
	ldrh	w12, [x25, #4]
	mov	x27, x11
	ldur	q3, [x5, #128]
	ldr	w9, [x25]
	ldrh	w13, [sp, #800]
	stp	q0, q1, [sp, #736]
	ldp	q0, q1, [x5, #144]
	str	q2, [sp, #768]
	strh	w12, [sp, #796]
	ldr	x12, [sp, #808]
	stp	q0, q1, [sp, #672]
	ldp	q0, q2, [x5, #176]
	str	q3, [sp, #656]
	str	w9, [sp, #792]
	mov	w9, #16
	stp	q0, q2, [sp, #704]
	ldp	q1, q0, [x5, #64]
	stp	q1, q0, [sp, #592]
	ldp	q1, q0, [x5, #96]
	stp	q1, q0, [sp, #624]
	ldp	q0, q2, [x5, #32]
	ldur	q1, [x5, #16]
	stp	q1, q0, [sp, #544]
	str	q2, [sp, #576]
	b	.LBB8_45
.LBB8_56:
	add	sp, sp, #1072
	ldp	x20, x19, [sp, #80]
	ldp	x22, x21, [sp, #64]
	ldp	x24, x23, [sp, #48]
	ldp	x26, x25, [sp, #32]
	ldp	x28, x27, [sp, #16]
	ldp	x29, x30, [sp], #96
	ret
.LBB8_57:
	brk	#0x1
.Lfunc_end8:
	.size	ww_seat__signs__sign_all, .Lfunc_end8-ww_seat__signs__sign_all

	.section	.text.ww_table__seat__Stepper__must_die,"ax",@progbits
	.p2align	2
	.type	ww_table__seat__Stepper__must_die,@function
ww_table__seat__Stepper__must_die:
	stp	x29, x30, [sp, #-80]!
	ldr	x8, [x0, #328]
	add	x9, x0, #64
	stp	x22, x21, [sp, #48]
	stp	x20, x19, [sp, #64]
	ldrb	w22, [x3]
	add	w19, w2, #64
	add	x8, x9, x8, lsl #2
	ldrh	w21, [x3, #2]
	ldr	x20, [x3, #8]
	str	x25, [sp, #16]
	mov	x29, sp
	ldur	w8, [x8, #-4]
	stp	x24, x23, [sp, #32]
	cmp	w8, w19
	b.ne	.LBB9_21
	mov	w8, #40
	ldr	x9, [x1, #8]
	umaddl	x9, w19, w8, x9
	ldrb	w8, [x9]
	cbnz	w8, .LBB9_22
.LBB9_2:
	ldrb	w8, [x9, #8]
	cbz	w8, .LBB9_14
	ldr	x11, [x9, #32]
	ldrb	w10, [x0]
	add	x9, x9, #16
	ldrh	w8, [x0, #2]
	mov	x12, x9
	add	x13, x11, #1
.LBB9_4:
	subs	x13, x13, #1
	b.eq	.LBB9_14
	ldr	x12, [x12]
	ldrh	w14, [x12, #16]
	cmp	w14, w8
	b.ne	.LBB9_4
	ldr	x8, [x12, #24]
	mov	x1, xzr
	mov	w0, wzr
	cbz	x8, .LBB9_15
	ldrb	w13, [x12, #32]
	tbz	w13, #0, .LBB9_15
	cbz	w10, .LBB9_23
	ldrh	w10, [x12, #16]
	add	x11, x11, #1
.LBB9_10:
	subs	x11, x11, #1
	b.eq	.LBB9_16
	ldr	x9, [x9]
	ldrh	w12, [x9, #16]
	cmp	w12, w10
	b.eq	.LBB9_16
	ldr	x1, [x9, #24]
	cbz	x1, .LBB9_10
	mov	w0, #1
	b	.LBB9_17
.LBB9_14:
	mov	w0, wzr
	mov	x1, xzr
.LBB9_15:
	ldp	x20, x19, [sp, #64]
	ldr	x25, [sp, #16]
	ldp	x22, x21, [sp, #48]
	ldp	x24, x23, [sp, #32]
	ldp	x29, x30, [sp], #80
	ret
.LBB9_16:
	mov	x1, xzr
	mov	w0, wzr
.LBB9_17:
	cmp	w22, #1
	b.ne	.LBB9_15
	cmp	w21, w10
	b.eq	.LBB9_15
	cmp	x20, x8
	ccmp	x20, #0, #4, lo
	b.eq	.LBB9_15
	mov	w0, #1
	mov	x1, x20
	ldp	x20, x19, [sp, #64]
	ldr	x25, [sp, #16]
	ldp	x22, x21, [sp, #48]
	ldp	x24, x23, [sp, #32]
	ldp	x29, x30, [sp], #80
	ret
.LBB9_21:
	mov	x23, x0
	add	x0, x0, #64
	mov	x24, x1
	mov	w1, w19
	mov	x25, x4
	bl	ww_invariant__slots_out__turn_to
	mov	x0, x23
	mov	x4, x25
	mov	w8, #40
	ldr	x9, [x24, #8]
	umaddl	x9, w19, w8, x9
	ldrb	w8, [x9]
	cbz	w8, .LBB9_2
.LBB9_22:
	brk	#0x1
.LBB9_23:
	mov	w0, w4
	mov	x1, x4
	ldp	x20, x19, [sp, #64]
	ldr	x25, [sp, #16]
	ldp	x22, x21, [sp, #48]
	ldp	x24, x23, [sp, #32]
	ldp	x29, x30, [sp], #80
	ret
.Lfunc_end9:
	.size	ww_table__seat__Stepper__must_die, .Lfunc_end9-ww_table__seat__Stepper__must_die

	.section	.rodata.cst8,"aM",@progbits,8
	.p2align	3, 0x0
.LCPI10_0:
	.word	1
	.word	0
	.section	.text.unlikely.ww_c__exports__lock_anyhow,"ax",@progbits
	.p2align	2
	.type	ww_c__exports__lock_anyhow,@function
ww_c__exports__lock_anyhow:
	sub	sp, sp, #48
	ldr	w8, [x0, #8]
	stp	x29, x30, [sp, #16]
	add	x29, sp, #16
	stp	x20, x19, [sp, #32]
	cbz	w8, .LBB10_6
	adrp	x8, .LCPI10_0
	ldr	x19, [x0]
	mov	w3, w2
	ldr	d0, [x8, :lo12:.LCPI10_0]
	mov	w2, w1
	mov	x20, x0
	mov	x1, x19
	stp	xzr, xzr, [sp]
	str	d0, [x0, #8]
	mov	x0, sp
	bl	ww_steps__desk__Desk__lock_here
	ldrb	w0, [sp]
	adrp	x8, .LJTI10_0
	add	x8, x8, :lo12:.LJTI10_0
	adr	x9, .LBB10_2
	ldrb	w10, [x8, x0]
	add	x9, x9, x10, lsl #2
	br	x9
.LBB10_2:
	ldr	x8, [x19, #432]
	cbz	x8, .LBB10_14
	ldr	x8, [x19, #40]
	cbz	x8, .LBB10_15
	ldr	w8, [x19, #404]
	mov	w9, #3
	mov	w0, wzr
	stp	w9, w8, [x20, #8]
.LBB10_5:
	ldp	x20, x19, [sp, #32]
	ldp	x29, x30, [sp, #16]
	add	sp, sp, #48
	ret
.LBB10_6:
	mov	w0, #-22
	ldp	x20, x19, [sp, #32]
	ldp	x29, x30, [sp, #16]
	add	sp, sp, #48
	ret
.LBB10_7:
	mov	w0, #3
	ldp	x20, x19, [sp, #32]
	ldp	x29, x30, [sp, #16]
	add	sp, sp, #48
	ret
.LBB10_8:
	mov	w0, #-4
	ldp	x20, x19, [sp, #32]
	ldp	x29, x30, [sp, #16]
	add	sp, sp, #48
	ret
.LBB10_9:
	mov	w0, #5
	ldp	x20, x19, [sp, #32]
	ldp	x29, x30, [sp, #16]
	add	sp, sp, #48
	ret
.LBB10_10:
	mov	w0, #-28
	ldp	x20, x19, [sp, #32]
	ldp	x29, x30, [sp, #16]
	add	sp, sp, #48
	ret
.LBB10_11:
	mov	w0, #-16
	ldp	x20, x19, [sp, #32]
	ldp	x29, x30, [sp, #16]
	add	sp, sp, #48
	ret
.LBB10_12:
	mov	w0, #-114
	ldp	x20, x19, [sp, #32]
	ldp	x29, x30, [sp, #16]
	add	sp, sp, #48
	ret
.LBB10_13:
	mov	w0, #-35
	ldp	x20, x19, [sp, #32]
	ldp	x29, x30, [sp, #16]
	add	sp, sp, #48
	ret
.LBB10_14:
	mov	w0, wzr
	ldp	x20, x19, [sp, #32]
	ldp	x29, x30, [sp, #16]
	add	sp, sp, #48
	ret
.LBB10_15:
	mov	w8, #5
	mov	w0, wzr
	str	w8, [x20, #8]
	ldp	x20, x19, [sp, #32]
	ldp	x29, x30, [sp, #16]
	add	sp, sp, #48
	ret
.Lfunc_end10:
	.size	ww_c__exports__lock_anyhow, .Lfunc_end10-ww_c__exports__lock_anyhow
	.section	.rodata.unlikely.ww_c__exports__lock_anyhow,"a",@progbits
.LJTI10_0:
	.byte	(.LBB10_2-.LBB10_2)>>2
	.byte	(.LBB10_5-.LBB10_2)>>2
	.byte	(.LBB10_9-.LBB10_2)>>2
	.byte	(.LBB10_7-.LBB10_2)>>2
	.byte	(.LBB10_11-.LBB10_2)>>2
	.byte	(.LBB10_6-.LBB10_2)>>2
	.byte	(.LBB10_12-.LBB10_2)>>2
	.byte	(.LBB10_10-.LBB10_2)>>2
	.byte	(.LBB10_13-.LBB10_2)>>2
	.byte	(.LBB10_8-.LBB10_2)>>2

	.section	.text.ww_steps__desk__Desk__lock_here,"ax",@progbits
	.p2align	2
	.type	ww_steps__desk__Desk__lock_here,@function
ww_steps__desk__Desk__lock_here:
	stp	x29, x30, [sp, #-32]!
	ldrb	w8, [x1, #420]
	str	x19, [sp, #16]
	mov	x29, sp
	cbnz	w8, .LBB11_13
	ldrb	w8, [x1, #408]
	tbnz	w8, #0, .LBB11_13
	ldr	w8, [x1, #400]
	cbz	w8, .LBB11_7
	ldr	x8, [x1, #40]
	cbz	x8, .LBB11_13
	ldrb	w8, [x1, #412]
	cmp	w8, #1
	b.eq	.LBB11_13
	ldr	w8, [x1, #404]
	cmp	w2, w8
	b.hs	.LBB11_13
	ldr	x8, [x1]
	add	x8, x8, #8
	b	.LBB11_9
.LBB11_7:
	ldr	w8, [x1, #404]
	cmp	w2, w8
	b.hs	.LBB11_13
	ldr	x8, [x1]
	ldrb	w9, [x1, #8]
	add	x8, x8, #8
	cbz	w9, .LBB11_14
.LBB11_9:
	ldr	x9, [x8]
	ldr	x8, [x1, #64]
	//APP
	//NO_APP
	add	x9, x9, w2, uxtw #4
	add	x10, x9, #128
.LBB11_10:
	ldaxr	x9, [x10]
	cbnz	x9, .LBB11_17
	stlxr	w9, x8, [x10]
	cbnz	w9, .LBB11_10
	//APP
	//NO_APP
	add	x10, x1, #412
	ldr	w9, [x1, #400]
	str	xzr, [x10]
	add	w9, w9, #1
	str	w9, [x1, #400]
	strh	wzr, [x0]
	strh	wzr, [x0, #2]
	str	xzr, [x0, #8]
	ldr	x19, [sp, #16]
	ldp	x29, x30, [sp], #32
	ret
.LBB11_13:
	mov	x19, x0
	mov	x0, x1
	mov	w1, w2
	bl	ww_steps__desk__Desk__refuses
	and	w8, w0, #0xff
	mov	w9, #1540
	strh	wzr, [x19, #2]
	lsl	w8, w8, #3
	movk	w9, #5, lsl #16
	str	xzr, [x19, #8]
	lsr	w8, w9, w8
	and	w8, w8, #0x7
	strh	w8, [x19]
	ldr	x19, [sp, #16]
	ldp	x29, x30, [sp], #32
	ret
.LBB11_14:
	ldr	x9, [x1, #40]
	cbz	x9, .LBB11_9
	ldr	x9, [x1, #32]
	ldr	x10, [x8]
	//APP
	//NO_APP
	add	x9, x10, x9, lsl #3
	ldar	x9, [x9]
	//APP
	//NO_APP
	cbz	x9, .LBB11_9
	ldr	x9, [x1, #32]
	ldr	x10, [x8]
	//APP
	//NO_APP
	add	x9, x10, x9, lsl #3
	stlr	xzr, [x9]
	//APP
	//NO_APP
	b	.LBB11_9
.LBB11_17:
	and	x10, x9, #0x7
	lsr	x9, x9, #2
	clrex
	sub	x11, x10, #2
	cmp	x10, #5
	and	x10, x8, #0x7
	and	x11, x11, #0xfffffffffffffffd
	lsr	x8, x8, #2
	//APP
	//NO_APP
	ccmp	x11, #0, #4, ls
	orr	x11, x9, #0x1
	and	x9, x9, #0x3ffffffffffffffe
	csel	x9, x11, x9, eq
	sub	x11, x10, #2
	cmp	x10, #5
	and	x11, x11, #0xfffffffffffffffd
	orr	x10, x8, #0x1
	and	x8, x8, #0x3ffffffffffffffe
	ccmp	x11, #0, #4, ls
	csel	x8, x10, x8, eq
	cmp	x9, x8
	b.ne	.LBB11_19
	mov	w8, #6
	strh	w8, [x0]
	strh	wzr, [x0, #2]
	str	xzr, [x0, #8]
	ldr	x19, [sp, #16]
	ldp	x29, x30, [sp], #32
	ret
.LBB11_19:
	mov	w8, #1
	str	w2, [x1, #424]
	str	w8, [x1, #420]
	strb	wzr, [x1, #428]
	strb	w3, [x1, #429]
	strh	w8, [x0]
	strh	wzr, [x0, #2]
	str	xzr, [x0, #8]
	ldr	x19, [sp, #16]
	ldp	x29, x30, [sp], #32
	ret
.Lfunc_end11:
	.size	ww_steps__desk__Desk__lock_here, .Lfunc_end11-ww_steps__desk__Desk__lock_here

	.section	.text.unlikely.ww_steps__desk__Desk__refuses,"ax",@progbits
	.p2align	2
	.type	ww_steps__desk__Desk__refuses,@function
ww_steps__desk__Desk__refuses:
	ldrb	w8, [x0, #420]
	cbz	w8, .LBB12_2
	mov	w0, wzr
	ret
.LBB12_2:
	ldr	w8, [x0, #404]
	cmp	w1, w8
	b.hs	.LBB12_5
	ldr	x8, [x0]
	mov	w10, #3
	ldr	w9, [x8, #76]
	ldr	x8, [x8, #8]
	cmp	w9, #64
	mov	w9, w1
	csinc	x10, x10, xzr, ls
	lsl	x9, x9, x10
	add	x8, x8, x9, lsl #3
	ldr	x9, [x0, #64]
	//APP
	//NO_APP
	add	x8, x8, #128
	ldar	x8, [x8]
	//APP
	//NO_APP
	and	x10, x8, #0x7
	lsr	x8, x8, #2
	sub	x11, x10, #2
	cmp	x10, #5
	and	x10, x11, #0xfffffffffffffffd
	and	x11, x9, #0x7
	orr	x12, x8, #0x1
	ccmp	x10, #0, #4, ls
	and	x8, x8, #0x3ffffffffffffffe
	sub	x10, x11, #2
	lsr	x9, x9, #2
	csel	x8, x12, x8, eq
	and	x10, x10, #0xfffffffffffffffd
	cmp	x11, #5
	ccmp	x10, #0, #4, ls
	orr	x10, x9, #0x1
	and	x9, x9, #0x3ffffffffffffffe
	csel	x9, x10, x9, eq
	cmp	x8, x9
	b.ne	.LBB12_5
	mov	w0, #1
	ret
.LBB12_5:
	mov	w0, #2
	ret
.Lfunc_end12:
	.size	ww_steps__desk__Desk__refuses, .Lfunc_end12-ww_steps__desk__Desk__refuses

	.section	.text.ww_c__exports__lock_alone,"ax",@progbits
	.p2align	2
	.type	ww_c__exports__lock_alone,@function
ww_c__exports__lock_alone:
	ldr	w8, [x0, #8]
	cmp	w8, #2
	b.ne	.LBB13_6
	ldr	x9, [x0]
	ldr	w8, [x9, #404]
	cmp	w8, w1
	b.ls	.LBB13_6
	ldr	x8, [x9]
	ldr	x10, [x8, #8]
	ldr	x8, [x9, #64]
	//APP
	//NO_APP
	add	x10, x10, w1, uxtw #4
	add	x11, x10, #128
.LBB13_3:
	ldaxr	x10, [x11]
	cbnz	x10, .LBB13_7
	stlxr	w10, x8, [x11]
	cbnz	w10, .LBB13_3
	//APP
	//NO_APP
	mov	w11, #5
	ldr	w10, [x9, #400]
	add	w10, w10, #1
	str	w10, [x9, #400]
	str	w11, [x0, #8]
	mov	w0, wzr
	ret
.LBB13_6:
	b	ww_c__exports__lock_anyhow
.LBB13_7:
	and	x11, x10, #0x7
	lsr	x10, x10, #2
	clrex
	sub	x12, x11, #2
	cmp	x11, #5
	and	x11, x8, #0x7
	and	x12, x12, #0xfffffffffffffffd
	lsr	x8, x8, #2
	//APP
	//NO_APP
	ccmp	x12, #0, #4, ls
	orr	x12, x10, #0x1
	and	x10, x10, #0x3ffffffffffffffe
	csel	x10, x12, x10, eq
	sub	x12, x11, #2
	cmp	x11, #5
	and	x12, x12, #0xfffffffffffffffd
	orr	x11, x8, #0x1
	and	x8, x8, #0x3ffffffffffffffe
	ccmp	x12, #0, #4, ls
	csel	x8, x11, x8, eq
	cmp	x10, x8
	b.ne	.LBB13_9
	mov	w8, #1
	str	w8, [x0, #8]
	mov	w0, #-114
	ret
.LBB13_9:
	mov	w8, #1
	str	w1, [x9, #424]
	str	w8, [x9, #420]
	strb	wzr, [x9, #428]
	strb	w2, [x9, #429]
	str	w8, [x0, #8]
	mov	w0, w8
	ret
.Lfunc_end13:
	.size	ww_c__exports__lock_alone, .Lfunc_end13-ww_c__exports__lock_alone

	.section	.text.ww_steps__opening__means_at,"ax",@progbits
	.p2align	2
	.type	ww_steps__opening__means_at,@function
ww_steps__opening__means_at:
	sub	sp, sp, #80
	ldr	x8, [x1]
	stp	x24, x23, [sp, #32]
	stp	x22, x21, [sp, #48]
	mov	x21, x1
	ldrh	w8, [x8, #80]
	stp	x20, x19, [sp, #64]
	mov	x19, x0
	stp	x29, x30, [sp, #16]
	add	x29, sp, #16
	add	x8, x8, #63
	lsr	x23, x8, #6
	cbz	x23, .LBB14_6
	lsl	x22, x23, #3
	mov	w1, #8
	mov	x0, x22
	bl	rattle_alloc
	tbz	w0, #0, .LBB14_7
	mov	x20, x1
	subs	x24, x23, #1
	b.eq	.LBB14_4
	sub	x2, x22, #8
	mov	x0, x20
	mov	w1, wzr
	bl	memset
.LBB14_4:
	mov	w0, #40
	mov	w1, #8
	str	xzr, [x20, x24, lsl #3]
	bl	rattle_alloc
	tbnz	w0, #0, .LBB14_9
.LBB14_5:
	mov	x0, x20
	bl	rattle_dealloc
	b	.LBB14_7
.LBB14_6:
	mov	w0, #40
	mov	w1, #8
	bl	rattle_alloc
	tbnz	w0, #0, .LBB14_8
.LBB14_7:
	movi	v0.2d, #0000000000000000
	mov	w8, #1
	str	xzr, [x19, #56]
	strb	w8, [x19]
	stur	q0, [x19, #8]
	stur	q0, [x19, #24]
	stur	q0, [x19, #40]
	ldp	x20, x19, [sp, #64]
	ldp	x22, x21, [sp, #48]
	ldp	x24, x23, [sp, #32]
	ldp	x29, x30, [sp, #16]
	add	sp, sp, #80
	ret
.LBB14_8:
	mov	x8, xzr
	add	x20, sp, #8
	b	.LBB14_10
.LBB14_9:
	add	x8, x24, #1
.LBB14_10:
	stp	x1, x1, [x1]
	stp	xzr, xzr, [x1, #24]
	str	xzr, [x1, #16]
	ldr	x9, [x21]
	//APP
	//NO_APP
	mov	x11, #9223372036854775807
	ldar	x10, [x9]
	//APP
	//NO_APP
	cmp	x10, x11
	b.hs	.LBB14_15
.LBB14_11:
	//APP
	//NO_APP
	add	x11, x10, #1
.LBB14_12:
	ldaxr	x12, [x9]
	cmp	x12, x10
	b.ne	.LBB14_14
	stlxr	w12, x11, [x9]
	cbz	w12, .LBB14_16
	b	.LBB14_12
.LBB14_14:
	clrex
	//APP
	//NO_APP
	//APP
	//NO_APP
	mov	x11, #9223372036854775807
	ldar	x10, [x9]
	//APP
	//NO_APP
	cmp	x10, x11
	b.lo	.LBB14_11
.LBB14_15:
	mov	x0, x1
	bl	rattle_dealloc
	cbnz	x23, .LBB14_5
	b	.LBB14_7
.LBB14_16:
	//APP
	//NO_APP
	stp	x9, x1, [x19, #8]
	mov	w9, #1
	strb	wzr, [x19]
	stp	x1, x9, [x19, #24]
	stp	x20, x8, [x19, #40]
	str	x23, [x19, #56]
	ldp	x20, x19, [sp, #64]
	ldp	x22, x21, [sp, #48]
	ldp	x24, x23, [sp, #32]
	ldp	x29, x30, [sp, #16]
	add	sp, sp, #80
	ret
.Lfunc_end14:
	.size	ww_steps__opening__means_at, .Lfunc_end14-ww_steps__opening__means_at

	.section	.text.std_alloc__arc__Arc__drop____7adbd3708cb715cb_,"ax",@progbits
	.p2align	2
	.type	std_alloc__arc__Arc__drop____7adbd3708cb715cb_,@function
std_alloc__arc__Arc__drop____7adbd3708cb715cb_:
	stp	x29, x30, [sp, #-80]!
	str	x25, [sp, #16]
	mov	x29, sp
	stp	x24, x23, [sp, #32]
	stp	x22, x21, [sp, #48]
	stp	x20, x19, [sp, #64]
	//APP
	//NO_APP
.LBB15_1:
	ldaxr	x8, [x0]
	subs	x8, x8, #1
	stlxr	w9, x8, [x0]
	cbnz	w9, .LBB15_1
	//APP
	//NO_APP
	b.ne	.LBB15_10
	ldp	x22, x20, [x0, #32]
	ldr	x21, [x0, #16]
	ldr	x19, [x0, #56]
	bl	rattle_dealloc
	cbz	x22, .LBB15_11
	mov	x23, xzr
	b	.LBB15_6
.LBB15_5:
	add	x23, x23, #1
	cmp	x23, x22
	b.eq	.LBB15_11
.LBB15_6:
	mov	w8, #40
	madd	x8, x23, x8, x21
	ldrb	w9, [x8]
	cbnz	w9, .LBB15_5
	ldrb	w9, [x8, #8]
	ldr	x24, [x8, #32]
	cmp	w9, #0
	ccmp	x24, #0, #4, ne
	b.eq	.LBB15_5
	ldr	x0, [x8, #16]
.LBB15_9:
	ldr	x25, [x0]
	sub	x24, x24, #1
	bl	rattle_dealloc
	mov	x0, x25
	cbnz	x24, .LBB15_9
	b	.LBB15_5
.LBB15_10:
	ldp	x20, x19, [sp, #64]
	ldr	x25, [sp, #16]
	ldp	x22, x21, [sp, #48]
	ldp	x24, x23, [sp, #32]
	ldp	x29, x30, [sp], #80
	ret
.LBB15_11:
	mov	x0, x20
	bl	rattle_dealloc
	mov	x0, x19
	ldp	x20, x19, [sp, #64]
	ldp	x22, x21, [sp, #48]
	ldr	x25, [sp, #16]
	ldp	x24, x23, [sp, #32]
	ldp	x29, x30, [sp], #80
	b	rattle_dealloc
.Lfunc_end15:
	.size	std_alloc__arc__Arc__drop____7adbd3708cb715cb_, .Lfunc_end15-std_alloc__arc__Arc__drop____7adbd3708cb715cb_

	.section	.text.std_alloc__vec__Vec__drop____3b954727b9020b61_,"ax",@progbits
	.p2align	2
	.type	std_alloc__vec__Vec__drop____3b954727b9020b61_,@function
std_alloc__vec__Vec__drop____3b954727b9020b61_:
	stp	x29, x30, [sp, #-80]!
	stp	x20, x19, [sp, #64]
	ldp	x19, x20, [x0]
	stp	x22, x21, [sp, #48]
	mov	x29, sp
	ldr	x21, [x0, #16]
	str	x25, [sp, #16]
	stp	x24, x23, [sp, #32]
	cbz	x20, .LBB16_9
	add	x22, x19, #56
	b	.LBB16_3
.LBB16_2:
	subs	x20, x20, #1
	add	x22, x22, #96
	b.eq	.LBB16_9
.LBB16_3:
	ldurb	w9, [x22, #-24]
	ldrb	w23, [x22, #8]
	ldr	x0, [x22, #16]
	ldr	x24, [x22, #32]
	sub	w8, w9, #2
	cmp	w8, #5
	b.lo	.LBB16_6
	ldur	x8, [x22, #-16]
	ldr	x10, [x22]
	cmp	w9, #1
	cbz	x10, .LBB16_6
	mov	x25, x0
	mov	x0, x8
	bl	rattle_dealloc
	mov	x0, x25
.LBB16_6:
	cbnz	w23, .LBB16_2
	cbz	x24, .LBB16_2
	bl	rattle_dealloc
	b	.LBB16_2
.LBB16_9:
	cbz	x21, .LBB16_11
	mov	x0, x19
	ldp	x20, x19, [sp, #64]
	ldp	x22, x21, [sp, #48]
	ldr	x25, [sp, #16]
	ldp	x24, x23, [sp, #32]
	ldp	x29, x30, [sp], #80
	b	rattle_dealloc
.LBB16_11:
	ldp	x20, x19, [sp, #64]
	ldr	x25, [sp, #16]
	ldp	x22, x21, [sp, #48]
	ldp	x24, x23, [sp, #32]
	ldp	x29, x30, [sp], #80
	ret
.Lfunc_end16:
	.size	std_alloc__vec__Vec__drop____3b954727b9020b61_, .Lfunc_end16-std_alloc__vec__Vec__drop____3b954727b9020b61_

	.section	.text.ww_table__board__Board__make_bare,"ax",@progbits
	.p2align	2
	.type	ww_table__board__Board__make_bare,@function
ww_table__board__Board__make_bare:
	sub	sp, sp, #224
	stp	x29, x30, [sp, #128]
	add	x29, sp, #128
	stp	x22, x21, [sp, #192]
	mov	w21, w1
	mov	w1, #8
	stp	x20, x19, [sp, #208]
	mov	x19, x0
	mov	w0, #24
	stp	x28, x27, [sp, #144]
	stp	x26, x25, [sp, #160]
	stp	x24, x23, [sp, #176]
	mov	w24, w2
	sturb	wzr, [x29, #-58]
	sturh	wzr, [x29, #-60]
	str	wzr, [sp, #60]
	strh	wzr, [sp, #64]
	bl	rattle_alloc
	tbz	w0, #0, .LBB17_14
	ubfx	x8, xzr, #32, #8
	stp	xzr, xzr, [x1]
	str	xzr, [x1, #16]
	cmp	w8, #1
	b.ne	.LBB17_3
	ldrb	w8, [x1, #13]
	cbnz	w8, .LBB17_13
.LBB17_3:
	ldrb	w8, [x1, #14]
	cmp	w8, #1
	b.ne	.LBB17_5
	ldrb	w8, [x1, #15]
	cbnz	w8, .LBB17_13
.LBB17_5:
	ldrb	w8, [x1, #16]
	cmp	w8, #1
	b.ne	.LBB17_7
	ldrb	w8, [x1, #17]
	cbnz	w8, .LBB17_13
.LBB17_7:
	ldrb	w8, [x1, #18]
	cmp	w8, #1
	b.ne	.LBB17_9
	ldrb	w8, [x1, #19]
	cbnz	w8, .LBB17_13
.LBB17_9:
	ldrb	w8, [x1, #20]
	cmp	w8, #1
	b.ne	.LBB17_11
	ldrb	w8, [x1, #21]
	cbnz	w8, .LBB17_13
.LBB17_11:
	ldrb	w8, [x1, #22]
	cmp	w8, #1
	b.ne	.LBB17_16
	ldrb	w8, [x1, #23]
	cbz	w8, .LBB17_16
.LBB17_13:
	mov	x0, x1
	bl	rattle_dealloc
.LBB17_14:
	movi	v0.2d, #0000000000000000
	mov	w8, #1
	str	xzr, [x19, #104]
	strb	w8, [x19]
	stur	q0, [x19, #8]
	stur	q0, [x19, #24]
	stur	q0, [x19, #40]
	stur	q0, [x19, #56]
	stur	q0, [x19, #72]
	stur	q0, [x19, #88]
.LBB17_15:
	ldp	x20, x19, [sp, #208]
	ldp	x22, x21, [sp, #192]
	ldp	x24, x23, [sp, #176]
	ldp	x26, x25, [sp, #160]
	ldp	x28, x27, [sp, #144]
	ldp	x29, x30, [sp, #128]
	add	sp, sp, #224
	ret
.LBB17_16:
	and	x26, x24, #0xffff
	and	w8, w24, #0xffff
	str	x1, [sp, #40]
	lsl	x0, x26, #1
	cmp	w8, #16
	mov	w9, #16
	mov	w1, #2
	sturh	wzr, [x29, #-36]
	csel	w20, w8, w9, hi
	sturb	wzr, [x29, #-34]
	stur	wzr, [x29, #-44]
	sturh	wzr, [x29, #-40]
	sturh	wzr, [x29, #-48]
	sturb	wzr, [x29, #-46]
	stur	wzr, [x29, #-56]
	sturh	wzr, [x29, #-52]
	bl	rattle_alloc
	tbz	w0, #0, .LBB17_31
	add	w28, w21, #64
	str	x1, [sp, #48]
	mov	w1, #8
	add	x8, x28, w28, uxtw #2
	lsl	x23, x8, #3
	mov	x0, x23
	bl	rattle_alloc
	tbz	w0, #0, .LBB17_30
	mov	w8, #40
	mov	w9, #2560
	mov	x25, x1
	madd	w2, w21, w8, w9
	mov	x0, x1
	mov	w1, wzr
	bl	memset
	lsl	w8, w21, #1
	ubfiz	x9, x20, #3, #13
	str	x20, [sp, #32]
	mov	w1, #8
	add	w8, w8, #16
	str	x9, [sp, #16]
	add	x20, x9, x8
	mov	x27, x8
	lsl	x22, x20, #3
	mov	x0, x22
	bl	rattle_alloc
	tbz	w0, #0, .LBB17_23
	str	x20, [sp, #8]
	sub	x2, x22, #8
	mov	x0, x1
	mov	x20, x1
	mov	w1, wzr
	bl	memset
	add	x8, x20, x22
	mov	x0, x22
	mov	w1, #8
	str	x20, [sp, #24]
	stur	xzr, [x8, #-8]
	bl	rattle_alloc
	tbz	w0, #0, .LBB17_34
	mov	x22, x1
	mov	x0, x23
	mov	w1, #8
	bl	rattle_alloc
	tbz	w0, #0, .LBB17_33
	ldr	x13, [sp, #24]
	sub	x8, x22, x13
	cmp	x8, #32
	b.hs	.LBB17_41
	ldr	x20, [sp, #8]
	mov	x8, xzr
	b	.LBB17_44
.LBB17_23:
	mov	x21, xzr
	b	.LBB17_25
.LBB17_24:
	add	x21, x21, #1
	cmp	x21, x28
	b.eq	.LBB17_29
.LBB17_25:
	mov	w8, #40
	madd	x8, x21, x8, x25
	ldrb	w9, [x8]
	cbnz	w9, .LBB17_24
	ldrb	w9, [x8, #8]
	ldr	x22, [x8, #32]
	cmp	w9, #0
	ccmp	x22, #0, #4, ne
	b.eq	.LBB17_24
	ldr	x0, [x8, #16]
.LBB17_28:
	ldr	x23, [x0]
	sub	x22, x22, #1
	bl	rattle_dealloc
	mov	x0, x23
	cbnz	x22, .LBB17_28
	b	.LBB17_24
.LBB17_29:
	mov	x0, x25
	bl	rattle_dealloc
.LBB17_30:
	ldr	x0, [sp, #48]
	bl	rattle_dealloc
.LBB17_31:
	ldr	x0, [sp, #40]
	mov	x24, xzr
	mov	x27, xzr
	mov	x26, xzr
	mov	x28, xzr
	mov	w21, wzr
	mov	w20, wzr
	str	xzr, [sp, #48]
	mov	x25, xzr
	mov	x22, xzr
	sturb	wzr, [x29, #-58]
	mov	w23, #1
	sturh	wzr, [x29, #-60]
	str	wzr, [sp, #60]
	strh	wzr, [sp, #64]
.LBB17_32:
	bl	rattle_dealloc
	ldurh	w8, [x29, #-60]
	ldurb	w9, [x29, #-58]
	strb	w23, [x19]
	stp	x24, x27, [x19, #8]
	sturh	w8, [x19, #73]
	ldr	w8, [sp, #60]
	strb	w9, [x19, #75]
	ldrh	w9, [sp, #64]
	stur	w8, [x19, #82]
	ldr	x8, [sp, #48]
	stp	x26, x28, [x19, #24]
	stp	x24, x26, [x19, #40]
	stp	x27, x28, [x19, #56]
	strb	wzr, [x19, #72]
	str	w21, [x19, #76]
	strh	w20, [x19, #80]
	strh	w9, [x19, #86]
	stp	x8, x25, [x19, #88]
	str	x22, [x19, #104]
	b	.LBB17_15
.LBB17_33:
	mov	x0, x22
	bl	rattle_dealloc
.LBB17_34:
	mov	x21, xzr
	b	.LBB17_36
.LBB17_35:
	add	x21, x21, #1
	cmp	x21, x28
	b.eq	.LBB17_40
.LBB17_36:
	mov	w8, #40
	madd	x8, x21, x8, x25
	ldrb	w9, [x8]
	cbnz	w9, .LBB17_35
	ldrb	w9, [x8, #8]
	ldr	x22, [x8, #32]
	cmp	w9, #0
	ccmp	x22, #0, #4, ne
	b.eq	.LBB17_35
	ldr	x0, [x8, #16]
.LBB17_39:
	ldr	x23, [x0]
	sub	x22, x22, #1
	bl	rattle_dealloc
	mov	x0, x23
	cbnz	x22, .LBB17_39
	b	.LBB17_35
.LBB17_40:
	mov	x0, x25
	bl	rattle_dealloc
	ldr	x0, [sp, #24]
	bl	rattle_dealloc
	ldr	x0, [sp, #48]
	bl	rattle_dealloc
	str	xzr, [sp, #16]
	mov	x26, xzr
	mov	x28, xzr
	mov	x24, xzr
	mov	w21, wzr
	str	xzr, [sp, #32]
	str	xzr, [sp, #48]
	mov	x25, xzr
	mov	x22, xzr
	mov	w23, #1
	b	.LBB17_54
.LBB17_41:
	ldr	x20, [sp, #8]
	and	x9, x27, #0x2
	add	x10, x22, #16
	add	x11, x13, #16
	sub	x8, x20, x9
	sub	x12, x20, x9
.LBB17_42:
	ldp	q0, q1, [x11, #-16]
	subs	x12, x12, #4
	add	x11, x11, #32
	stp	q0, q1, [x10, #-16]
	add	x10, x10, #32
	b.ne	.LBB17_42
	cbz	x9, .LBB17_46
.LBB17_44:
	sub	x9, x8, w21, uxtw #1
	lsl	x10, x8, #3
	ldr	x8, [sp, #16]
	sub	x8, x9, x8
	add	x9, x22, x10
	add	x10, x13, x10
	sub	x8, x8, #16
.LBB17_45:
	ldr	x11, [x10], #8
	adds	x8, x8, #1
	str	x11, [x9], #8
	b.lo	.LBB17_45
.LBB17_46:
	mov	w8, #40
	mov	x9, #-2560
	mov	x10, x25
	umull	x8, w21, w8
	mov	x11, x1
	str	x1, [sp, #16]
.LBB17_47:
	add	x12, x10, x8
	add	x9, x9, #40
	add	x14, x11, x8
	ldrb	w13, [x12, #2520]
	ldr	q0, [x12, #2528]
	ldr	q1, [x12, #2544]
	cmp	x8, x9
	sub	x11, x11, #40
	sub	x10, x10, #40
	str	x13, [x14, #2520]
	str	q0, [x14, #2528]
	str	q1, [x14, #2544]
	b.ne	.LBB17_47
	mov	x0, x25
	bl	rattle_dealloc
	sub	w8, w24, #1
	tst	w8, #0xffff
	b.eq	.LBB17_52
	ldr	x11, [sp, #48]
	ldr	x0, [sp, #24]
	mov	x10, xzr
	and	x9, x8, #0xffff
.LBB17_50:
	//APP
	//NO_APP
	ldar	xzr, [x22]
	//APP
	//NO_APP
	strh	w10, [x11, x10, lsl #1]
	add	x10, x10, #1
	cmp	x9, x10
	b.ne	.LBB17_50
	mov	x24, x22
	mov	x22, x26
	b	.LBB17_53
.LBB17_52:
	ldr	x11, [sp, #48]
	ldr	x0, [sp, #24]
	mov	x24, x22
	mov	x22, x26
	mov	x9, xzr
.LBB17_53:
	strh	w8, [x11, x9, lsl #1]
	ldurb	w8, [x29, #-34]
	ldurh	w10, [x29, #-36]
	ldur	w11, [x29, #-44]
	mov	x26, x20
	add	x25, x9, #1
	sturb	w8, [x29, #-46]
	ldurh	w8, [x29, #-40]
	sturh	w10, [x29, #-48]
	stur	w11, [x29, #-56]
	sturh	w8, [x29, #-52]
	bl	rattle_dealloc
	mov	w23, wzr
.LBB17_54:
	ldurh	w8, [x29, #-48]
	ldp	x20, x0, [sp, #32]
	ldurb	w9, [x29, #-46]
	ldur	w10, [x29, #-56]
	ldr	x27, [sp, #16]
	sturh	w8, [x29, #-60]
	ldurh	w8, [x29, #-52]
	sturb	w9, [x29, #-58]
	str	w10, [sp, #60]
	strh	w8, [sp, #64]
	b	.LBB17_32
.Lfunc_end17:
	.size	ww_table__board__Board__make_bare, .Lfunc_end17-ww_table__board__Board__make_bare

	.section	.text.unlikely.std_alloc__vec__Vec__grow_amortized____f9970e105406fed0_,"ax",@progbits
	.p2align	2
	.type	std_alloc__vec__Vec__grow_amortized____f9970e105406fed0_,@function
std_alloc__vec__Vec__grow_amortized____f9970e105406fed0_:
	ldr	x8, [x0, #8]
	cmn	x8, #1
	b.eq	.LBB18_5
	stp	x29, x30, [sp, #-32]!
	ldr	x9, [x0, #16]
	cmp	x8, #3
	mov	w10, #3
	csel	x11, x8, x10, hi
	stp	x20, x19, [sp, #16]
	mov	x29, sp
	lsl	x10, x9, #1
	add	x12, x11, #1
	lsr	x13, x9, #62
	cmp	x12, x10
	csinc	x10, x10, x11, ls
	cmp	x13, #0
	csinc	x19, x10, x11, eq
	lsr	x11, x19, #61
	cbnz	x11, .LBB18_7
	cbz	x9, .LBB18_6
	mov	x20, x0
	ldr	x0, [x0]
	lsl	x1, x8, #2
	lsl	x2, x19, #2
	mov	w3, #2
	bl	rattle_realloc
	tbz	w0, #0, .LBB18_7
.LBB18_4:
	mov	w0, #1
	str	x1, [x20]
	str	x19, [x20, #16]
	ldp	x20, x19, [sp, #16]
	ldp	x29, x30, [sp], #32
	ret
.LBB18_5:
	mov	w0, wzr
	ret
.LBB18_6:
	mov	x20, x0
	lsl	x0, x10, #2
	mov	w1, #2
	bl	rattle_alloc
	tbnz	w0, #0, .LBB18_4
.LBB18_7:
	mov	w0, wzr
	ldp	x20, x19, [sp, #16]
	ldp	x29, x30, [sp], #32
	ret
.Lfunc_end18:
	.size	std_alloc__vec__Vec__grow_amortized____f9970e105406fed0_, .Lfunc_end18-std_alloc__vec__Vec__grow_amortized____f9970e105406fed0_

	.section	.rodata.cst8,"aM",@progbits,8
	.p2align	3, 0x0
.LCPI19_0:
	.word	1
	.word	0
	.section	.text.unlikely.ww_c__exports__try_anyhow,"ax",@progbits
	.p2align	2
	.type	ww_c__exports__try_anyhow,@function
ww_c__exports__try_anyhow:
	ldr	w8, [x0, #8]
	cbz	w8, .LBB19_8
	stp	x29, x30, [sp, #-16]!
	adrp	x8, .LCPI19_0
	mov	x29, sp
	ldr	d0, [x8, :lo12:.LCPI19_0]
	ldr	x8, [x0]
	str	d0, [x0, #8]
	ldrb	w9, [x8, #420]
	cbnz	w9, .LBB19_18
	ldrb	w9, [x8, #408]
	tbnz	w9, #0, .LBB19_18
	ldr	w9, [x8, #400]
	cbz	w9, .LBB19_9
	ldr	x9, [x8, #40]
	cbz	x9, .LBB19_18
	ldrb	w9, [x8, #412]
	cmp	w9, #1
	b.eq	.LBB19_18
	ldr	w9, [x8, #404]
	cmp	w1, w9
	b.hs	.LBB19_18
	ldr	x9, [x8]
	add	x9, x9, #8
	b	.LBB19_11
.LBB19_8:
	mov	w0, #-22
	ret
.LBB19_9:
	ldr	w9, [x8, #404]
	cmp	w1, w9
	b.hs	.LBB19_18
	ldr	x9, [x8]
	ldrb	w10, [x8, #8]
	add	x9, x9, #8
	cbz	w10, .LBB19_20
.LBB19_11:
	ldr	x10, [x9]
	ldr	x9, [x8, #64]
	//APP
	//NO_APP
	add	x10, x10, w1, uxtw #4
	add	x11, x10, #128
.LBB19_12:
	ldaxr	x10, [x11]
	cbnz	x10, .LBB19_23
	stlxr	w10, x9, [x11]
	cbnz	w10, .LBB19_12
	//APP
	//NO_APP
	add	x11, x8, #412
	ldr	w9, [x8, #400]
	ldr	x10, [x8, #432]
	str	xzr, [x11]
	add	w9, w9, #1
	str	w9, [x8, #400]
	cbz	x10, .LBB19_17
	ldr	x9, [x8, #40]
	cbz	x9, .LBB19_19
	ldr	w8, [x8, #404]
	mov	w10, #3
	stp	w10, w8, [x0, #8]
.LBB19_17:
	mov	w0, wzr
	ldp	x29, x30, [sp], #16
	ret
.LBB19_18:
	mov	x0, x8
	bl	ww_steps__desk__Desk__refuses
	and	w8, w0, #0xff
	adrp	x9, .Lswitch.table.ww_c__exports__try_anyhow
	add	x9, x9, :lo12:.Lswitch.table.ww_c__exports__try_anyhow
	ldr	w0, [x9, w8, uxtw #2]
	ldp	x29, x30, [sp], #16
	ret
.LBB19_19:
	mov	w9, #5
	str	w9, [x0, #8]
	mov	w0, wzr
	ldp	x29, x30, [sp], #16
	ret
.LBB19_20:
	ldr	x10, [x8, #40]
	cbz	x10, .LBB19_11
	ldr	x10, [x8, #32]
	ldr	x11, [x9]
	//APP
	//NO_APP
	add	x10, x11, x10, lsl #3
	ldar	x10, [x10]
	//APP
	//NO_APP
	cbz	x10, .LBB19_11
	ldr	x10, [x8, #32]
	ldr	x11, [x9]
	//APP
	//NO_APP
	add	x10, x11, x10, lsl #3
	stlr	xzr, [x10]
	//APP
	//NO_APP
	b	.LBB19_11
.LBB19_23:
	and	x8, x10, #0x7
	lsr	x10, x10, #2
	clrex
	sub	x11, x8, #2
	cmp	x8, #5
	and	x8, x9, #0x7
	and	x11, x11, #0xfffffffffffffffd
	lsr	x9, x9, #2
	//APP
	//NO_APP
	ccmp	x11, #0, #4, ls
	orr	x11, x10, #0x1
	and	x10, x10, #0x3ffffffffffffffe
	csel	x10, x11, x10, eq
	sub	x11, x8, #2
	cmp	x8, #5
	and	x11, x11, #0xfffffffffffffffd
	orr	x8, x9, #0x1
	and	x9, x9, #0x3ffffffffffffffe
	ccmp	x11, #0, #4, ls
	csel	x8, x8, x9, eq
	mov	w9, #-114
	cmp	x10, x8
	mov	w8, #-16
	csel	w0, w9, w8, eq
	ldp	x29, x30, [sp], #16
	ret
.Lfunc_end19:
	.size	ww_c__exports__try_anyhow, .Lfunc_end19-ww_c__exports__try_anyhow

	.section	.text.ww_c__exports__try_alone,"ax",@progbits
	.p2align	2
	.type	ww_c__exports__try_alone,@function
ww_c__exports__try_alone:
	ldr	w8, [x0, #8]
	cmp	w8, #2
	b.ne	.LBB20_6
	ldr	x9, [x0]
	ldr	w8, [x9, #404]
	cmp	w8, w1
	b.ls	.LBB20_6
	ldr	x8, [x9]
	ldr	x10, [x8, #8]
	ldr	x8, [x9, #64]
	//APP
	//NO_APP
	add	x10, x10, w1, uxtw #4
	add	x11, x10, #128
.LBB20_3:
	ldaxr	x10, [x11]
	cbnz	x10, .LBB20_7
	stlxr	w10, x8, [x11]
	cbnz	w10, .LBB20_3
	//APP
	//NO_APP
	mov	w11, #5
	ldr	w10, [x9, #400]
	add	w10, w10, #1
	str	w10, [x9, #400]
	str	w11, [x0, #8]
	mov	w0, wzr
	ret
.LBB20_6:
	b	ww_c__exports__try_anyhow
.LBB20_7:
	and	x9, x10, #0x7
	lsr	x10, x10, #2
	clrex
	sub	x11, x9, #2
	cmp	x9, #5
	and	x9, x8, #0x7
	and	x11, x11, #0xfffffffffffffffd
	lsr	x8, x8, #2
	//APP
	//NO_APP
	ccmp	x11, #0, #4, ls
	orr	x11, x10, #0x1
	and	x10, x10, #0x3ffffffffffffffe
	csel	x10, x11, x10, eq
	sub	x11, x9, #2
	cmp	x9, #5
	and	x11, x11, #0xfffffffffffffffd
	orr	x9, x8, #0x1
	and	x8, x8, #0x3ffffffffffffffe
	ccmp	x11, #0, #4, ls
	csel	x8, x9, x8, eq
	mov	w9, #1
	cmp	x10, x8
	mov	w8, #-16
	mov	w10, #-114
	str	w9, [x0, #8]
	csel	w0, w10, w8, eq
	ret
.Lfunc_end20:
	.size	ww_c__exports__try_alone, .Lfunc_end20-ww_c__exports__try_alone

	.section	.text.ww_c__exports__unlock_alone,"ax",@progbits
	.p2align	2
	.type	ww_c__exports__unlock_alone,@function
ww_c__exports__unlock_alone:
	ldr	w8, [x0, #8]
	cmp	w8, #5
	b.ne	.LBB21_8
	ldr	x8, [x0]
	ldr	w9, [x8, #404]
	cmp	w9, w1
	b.ls	.LBB21_8
	ldr	x9, [x8]
	ldr	x10, [x9, #8]
	ldr	x9, [x8, #64]
	//APP
	//NO_APP
	add	x10, x10, w1, uxtw #4
	add	x11, x10, #128
.LBB21_3:
	ldaxr	x10, [x11]
	cmp	x10, x9
	b.ne	.LBB21_9
	stlxr	w10, xzr, [x11]
	cbnz	w10, .LBB21_3
	//APP
	//NO_APP
	ldr	w9, [x8, #400]
	subs	w9, w9, #1
	str	w9, [x8, #400]
	b.eq	.LBB21_7
	mov	w0, wzr
	ret
.LBB21_7:
	mov	w9, #2
	str	w9, [x0, #8]
	mov	w0, wzr
	ret
.LBB21_8:
	b	ww_c__exports__unlock_anyhow
.LBB21_9:
	and	x11, x10, #0x7
	lsr	x10, x10, #2
	clrex
	sub	x12, x11, #2
	cmp	x11, #5
	and	x11, x9, #0x7
	and	x12, x12, #0xfffffffffffffffd
	lsr	x9, x9, #2
	//APP
	//NO_APP
	ccmp	x12, #0, #4, ls
	orr	x12, x10, #0x1
	and	x10, x10, #0x3ffffffffffffffe
	csel	x10, x12, x10, eq
	sub	x12, x11, #2
	cmp	x11, #5
	and	x12, x12, #0xfffffffffffffffd
	orr	x11, x9, #0x1
	and	x9, x9, #0x3ffffffffffffffe
	ccmp	x12, #0, #4, ls
	csel	x9, x11, x9, eq
	cmp	x10, x9
	b.ne	.LBB21_11
	mov	w9, #3
	str	w1, [x8, #424]
	str	w9, [x8, #420]
	strh	wzr, [x8, #428]
	mov	w8, #1
	str	w8, [x0, #8]
	mov	w0, #1
	ret
.LBB21_11:
	mov	w8, #1
	str	w8, [x0, #8]
	mov	w0, #-22
	ret
.Lfunc_end21:
	.size	ww_c__exports__unlock_alone, .Lfunc_end21-ww_c__exports__unlock_alone

	.section	.rodata.cst8,"aM",@progbits,8
	.p2align	3, 0x0
.LCPI22_0:
	.word	1
	.word	0
	.section	.text.unlikely.ww_c__exports__unlock_anyhow,"ax",@progbits
	.p2align	2
	.type	ww_c__exports__unlock_anyhow,@function
ww_c__exports__unlock_anyhow:
	ldr	w8, [x0, #8]
	cbz	w8, .LBB22_10
	adrp	x8, .LCPI22_0
	ldr	d0, [x8, :lo12:.LCPI22_0]
	ldr	x8, [x0]
	str	d0, [x0, #8]
	ldrb	w9, [x8, #420]
	cbz	w9, .LBB22_3
	mov	w0, #-16
	ret
.LBB22_3:
	ldr	w9, [x8, #404]
	cmp	w1, w9
	b.hs	.LBB22_10
	ldr	x9, [x8]
	ldr	x10, [x9, #8]
	ldr	x9, [x8, #64]
	//APP
	//NO_APP
	add	x10, x10, w1, uxtw #4
	add	x11, x10, #128
.LBB22_5:
	ldaxr	x10, [x11]
	cmp	x10, x9
	b.ne	.LBB22_8
	stlxr	w10, xzr, [x11]
	cbnz	w10, .LBB22_5
	//APP
	//NO_APP
	mov	w0, wzr
	ldr	w9, [x8, #400]
	sub	w9, w9, #1
	str	w9, [x8, #400]
	ret
.LBB22_8:
	and	x11, x10, #0x7
	lsr	x10, x10, #2
	clrex
	sub	x12, x11, #2
	cmp	x11, #5
	and	x11, x9, #0x7
	and	x12, x12, #0xfffffffffffffffd
	lsr	x9, x9, #2
	//APP
	//NO_APP
	ccmp	x12, #0, #4, ls
	orr	x12, x10, #0x1
	and	x10, x10, #0x3ffffffffffffffe
	csel	x10, x12, x10, eq
	sub	x12, x11, #2
	cmp	x11, #5
	and	x12, x12, #0xfffffffffffffffd
	orr	x11, x9, #0x1
	and	x9, x9, #0x3ffffffffffffffe
	ccmp	x12, #0, #4, ls
	csel	x9, x11, x9, eq
	cmp	x10, x9
	b.ne	.LBB22_10
	mov	w9, #3
	mov	w0, #1
	str	w1, [x8, #424]
	str	w9, [x8, #420]
	strh	wzr, [x8, #428]
	ret
.LBB22_10:
	mov	w0, #-22
	ret
.Lfunc_end22:
	.size	ww_c__exports__unlock_anyhow, .Lfunc_end22-ww_c__exports__unlock_anyhow

	.section	.text.ww_begin_,"ax",@progbits
	.globl	ww_begin_
	.p2align	2
	.type	ww_begin_,@function
ww_begin_:
	ldr	w8, [x0, #8]
	cmp	w8, #2
	b.ne	.LBB23_8
	ldr	x8, [x0]
	ldr	x9, [x8]
	ldr	x10, [x9, #8]
	//APP
	//NO_APP
.LBB23_2:
	ldaxr	x9, [x10]
	add	x9, x9, #1
	stlxr	w11, x9, [x10]
	cbnz	w11, .LBB23_2
	//APP
	//NO_APP
	ldr	x10, [x8, #24]
	cmp	x10, x9
	b.hs	.LBB23_5
	ldr	x9, [x8, #432]
	mov	w10, #1
	sub	x9, x9, #1
	str	x9, [x8, #432]
	str	w10, [x0, #8]
	mov	w0, #-28
	ret
.LBB23_5:
	ldp	x11, x10, [x8, #48]
	str	x9, [x8, #40]
	madd	x10, x10, x9, x11
	ldr	x11, [x8, #432]
	subs	x9, x11, #1
	str	x9, [x8, #432]
	str	x10, [x8, #64]
	b.eq	.LBB23_7
	ldr	w8, [x8, #404]
	mov	w9, #3
	stp	w9, w8, [x0, #8]
	mov	w0, wzr
	ret
.LBB23_7:
	mov	w9, #1
	str	w9, [x0, #8]
	mov	w0, wzr
	ret
.LBB23_8:
	b	ww_c__exports__begin_anyhow
.Lfunc_end23:
	.size	ww_begin_, .Lfunc_end23-ww_begin_

	.section	.rodata.cst8,"aM",@progbits,8
	.p2align	3, 0x0
.LCPI24_0:
	.word	1
	.word	0
	.section	.text.ww_cancel_,"ax",@progbits
	.globl	ww_cancel_
	.p2align	2
	.type	ww_cancel_,@function
ww_cancel_:
	ldr	w8, [x0, #8]
	cbz	w8, .LBB24_9
	adrp	x8, .LCPI24_0
	ldr	d0, [x8, :lo12:.LCPI24_0]
	ldr	x8, [x0]
	str	d0, [x0, #8]
	ldrb	w9, [x8, #420]
	cbz	w9, .LBB24_3
	mov	w0, #-16
	ret
.LBB24_3:
	ldrh	w10, [x8, #410]
	and	w9, w1, #0xffff
	cmp	w10, w9
	b.ls	.LBB24_9
	ldr	x10, [x8]
	ldr	w11, [x8, #12]
	mov	w12, #3
	ldr	x10, [x10, #8]
	cmp	w11, #64
	csinc	x12, x12, xzr, ls
	lsl	x11, x11, x12
	add	x10, x10, x9, lsl #6
	ldrh	w12, [x8, #10]
	//APP
	//NO_APP
	add	x11, x10, x11, lsl #3
	add	x10, x12, #1
	add	x11, x11, #136
.LBB24_5:
	ldaxr	x12, [x11]
	cbnz	x12, .LBB24_11
	stlxr	w12, x10, [x11]
	cbnz	w12, .LBB24_5
	//APP
	//NO_APP
	ldrh	w10, [x8, #10]
	cmp	w9, w10
	b.ne	.LBB24_10
	mov	w0, wzr
	ret
.LBB24_9:
	mov	w0, #-22
	ret
.LBB24_10:
	lsr	w10, w9, #3
	ldr	x8, [x8, #440]
	mov	w11, #1
	lsl	x9, x11, x9
	mov	w0, wzr
	and	x10, x10, #0x1ff8
	ldr	x11, [x8, x10]
	orr	x9, x11, x9
	str	x9, [x8, x10]
	ret
.LBB24_11:
	clrex
	mov	w0, #-114
	//APP
	//NO_APP
	ret
.Lfunc_end24:
	.size	ww_cancel_, .Lfunc_end24-ww_cancel_

	.section	.rodata.cst8,"aM",@progbits,8
	.p2align	3, 0x0
.LCPI25_0:
	.word	1
	.word	0
	.section	.text.ww_close_,"ax",@progbits
	.globl	ww_close_
	.p2align	2
	.type	ww_close_,@function
ww_close_:
	ldr	w8, [x0, #8]
	cbz	w8, .LBB25_5
	sub	sp, sp, #496
	stp	x28, x19, [sp, #480]
	ldr	x19, [x0]
	stp	xzr, xzr, [x0]
	ldrb	w8, [x19, #420]
	stp	x29, x30, [sp, #464]
	add	x29, sp, #464
	cbnz	w8, .LBB25_4
	ldr	x8, [x19, #40]
	cbnz	x8, .LBB25_4
	ldr	w8, [x19, #400]
	cbz	w8, .LBB25_6
.LBB25_4:
	adrp	x8, .LCPI25_0
	str	x19, [x0]
	ldr	d0, [x8, :lo12:.LCPI25_0]
	str	d0, [x0, #8]
	mov	w0, #-16
	ldp	x28, x19, [sp, #480]
	ldp	x29, x30, [sp, #464]
	add	sp, sp, #496
	ret
.LBB25_5:
	mov	w0, wzr
	ret
.LBB25_6:
	mov	x0, sp
	mov	x1, x19
	mov	w2, #464
	bl	memcpy
	mov	x0, x19
	bl	rattle_dealloc
	mov	x0, sp
	bl	ww_c__ww_steps__desk__Desk_Destruct__drop
	mov	w0, wzr
	ldp	x28, x19, [sp, #480]
	ldp	x29, x30, [sp, #464]
	add	sp, sp, #496
	ret
.Lfunc_end25:
	.size	ww_close_, .Lfunc_end25-ww_close_

	.section	.text.ww_close_world_,"ax",@progbits
	.globl	ww_close_world_
	.p2align	2
	.type	ww_close_world_,@function
ww_close_world_:
	ldr	w8, [x0, #8]
	cbz	w8, .LBB26_6
	stp	x29, x30, [sp, #-64]!
	stp	x28, x23, [sp, #16]
	mov	x29, sp
	stp	x22, x21, [sp, #32]
	stp	x20, x19, [sp, #48]
	sub	sp, sp, #944
	ldr	x20, [x0]
	stp	xzr, xzr, [x0]
	add	x0, sp, #8
	mov	w2, #471
	ldr	x21, [x20]
	ldr	x19, [x20, #24]
	ldr	x23, [x20, #40]
	ldrb	w22, [x20, #48]
	add	x1, x20, #49
	bl	memcpy
	mov	x0, x20
	bl	rattle_dealloc
	mov	x0, x21
	bl	std_alloc__arc__Arc__drop____93a448bb48b6d052_
	cbz	x23, .LBB26_3
	mov	x0, x19
	bl	rattle_dealloc
.LBB26_3:
	cbz	w22, .LBB26_5
	add	x8, sp, #8
	add	x0, sp, #480
	mov	w2, #464
	add	x1, x8, #7
	bl	memcpy
	add	x0, sp, #480
	bl	ww_c__ww_steps__desk__Desk_Destruct__drop
.LBB26_5:
	add	sp, sp, #944
	ldp	x20, x19, [sp, #48]
	ldp	x22, x21, [sp, #32]
	ldp	x28, x23, [sp, #16]
	ldp	x29, x30, [sp], #64
.LBB26_6:
	ret
.Lfunc_end26:
	.size	ww_close_world_, .Lfunc_end26-ww_close_world_

	.section	.rodata.cst8,"aM",@progbits,8
	.p2align	3, 0x0
.LCPI27_0:
	.word	1
	.word	0
	.section	.text.ww_done_,"ax",@progbits
	.globl	ww_done_
	.p2align	2
	.type	ww_done_,@function
ww_done_:
	ldr	w8, [x0, #8]
	cbz	w8, .LBB27_5
	adrp	x8, .LCPI27_0
	ldr	d0, [x8, :lo12:.LCPI27_0]
	ldr	x8, [x0]
	str	d0, [x0, #8]
	ldrb	w9, [x8, #420]
	cbz	w9, .LBB27_3
	mov	w0, #-16
	ret
.LBB27_3:
	ldr	x9, [x8, #40]
	cbz	x9, .LBB27_5
	ldrb	w9, [x8, #408]
	tbz	w9, #0, .LBB27_6
.LBB27_5:
	mov	w0, #-22
	ret
.LBB27_6:
	mov	w0, wzr
	mov	w9, #1
	strb	w9, [x8, #408]
	ret
.Lfunc_end27:
	.size	ww_done_, .Lfunc_end27-ww_done_

	.section	.text.ww_end_,"ax",@progbits
	.globl	ww_end_
	.p2align	2
	.type	ww_end_,@function
ww_end_:
	ldr	w9, [x0, #8]
	mov	x8, x0
	cmp	w9, #4
	b.ne	.LBB28_5
	ldr	x9, [x8]
	ldr	x10, [x9]
	ldr	x12, [x9, #32]
	ldr	x11, [x10, #8]
	//APP
	//NO_APP
	add	x11, x11, x12, lsl #3
	ldar	x11, [x11]
	//APP
	//NO_APP
	cbz	x11, .LBB28_4
	ldr	x11, [x9, #32]
	ldr	x12, [x10, #8]
	//APP
	//NO_APP
	add	x11, x12, x11, lsl #3
	stlr	xzr, [x11]
	//APP
	//NO_APP
	ldr	x10, [x10, #8]
	ldr	x11, [x9, #32]
	//APP
	//NO_APP
	add	x10, x10, x11, lsl #3
	ldar	x10, [x10]
	//APP
	//NO_APP
	cbz	x10, .LBB28_4
	mov	w9, #2
	mov	w0, wzr
	str	w9, [x8, #8]
	ret
.LBB28_4:
	ldr	x10, [x9, #48]
	str	xzr, [x9, #40]
	str	x10, [x9, #64]
	mov	w9, #2
	mov	w0, wzr
	str	w9, [x8, #8]
	ret
.LBB28_5:
	mov	x0, x8
	b	ww_c__exports__end_anyhow
.Lfunc_end28:
	.size	ww_end_, .Lfunc_end28-ww_end_

	.section	.rodata.cst8,"aM",@progbits,8
	.p2align	3, 0x0
.LCPI29_0:
	.word	1
	.word	0
	.section	.text.ww_go_on_,"ax",@progbits
	.globl	ww_go_on_
	.p2align	2
	.type	ww_go_on_,@function
ww_go_on_:
	sub	sp, sp, #176
	ldr	w8, [x0, #8]
	stp	x29, x30, [sp, #80]
	add	x29, sp, #80
	stp	x28, x27, [sp, #96]
	stp	x26, x25, [sp, #112]
	stp	x24, x23, [sp, #128]
	stp	x22, x21, [sp, #144]
	stp	x20, x19, [sp, #160]
	cbz	w8, .LBB29_3
	adrp	x8, .LCPI29_0
	ldr	x19, [x0]
	stp	xzr, xzr, [sp, #40]
	ldr	d0, [x8, :lo12:.LCPI29_0]
	str	d0, [x0, #8]
	ldrb	w8, [x19, #420]
	cmp	w8, #1
	b.gt	.LBB29_4
	cbnz	w8, .LBB29_6
.LBB29_3:
	mov	w0, #-22
	b	.LBB29_77
.LBB29_4:
	cmp	w8, #2
	b.ne	.LBB29_11
	ldr	w2, [x19, #424]
	ldrb	w4, [x19, #429]
	add	x0, sp, #40
	ldrb	w3, [x19, #428]
	mov	x1, x19
	b	.LBB29_10
.LBB29_6:
	ldr	x8, [x19]
	ldr	w2, [x19, #424]
	ldrh	w10, [x19, #10]
	ldrb	w3, [x19, #428]
	ldrb	w4, [x19, #429]
	ldr	w9, [x8, #76]
	ldr	x8, [x8, #8]
	//APP
	//NO_APP
	cmp	w9, #64
	mov	w9, #3
	csinc	x9, x9, xzr, ls
	lsl	x9, x2, x9
	add	x9, x8, x9, lsl #3
	add	x8, x10, #1
	add	x9, x9, #136
.LBB29_7:
	ldaxr	x10, [x9]
	cbnz	x10, .LBB29_80
	stlxr	w10, x8, [x9]
	cbnz	w10, .LBB29_7
	//APP
	//NO_APP
	add	w10, w2, #64
	add	x0, sp, #40
	ldr	x8, [x19, #336]
	mov	x1, x19
	add	x9, x19, x8, lsl #2
	add	x8, x8, #1
	str	w10, [x9, #72]
	str	x8, [x19, #336]
.LBB29_10:
	bl	ww_steps__station__Station__look
	ldrb	w8, [sp, #40]
	adrp	x9, .Lswitch.table.ww_go_on_
	add	x9, x9, :lo12:.Lswitch.table.ww_go_on_
	ldr	w0, [x9, x8, lsl #2]
	b	.LBB29_77
.LBB29_11:
	ldr	x8, [x19]
	ldr	w20, [x19, #424]
	add	x25, x19, #420
	ldrh	w10, [x19, #10]
	ldr	w9, [x8, #76]
	ldr	x8, [x8, #8]
	//APP
	//NO_APP
	cmp	w9, #64
	mov	w9, #3
	csinc	x9, x9, xzr, ls
	lsl	x9, x20, x9
	add	x9, x8, x9, lsl #3
	add	x8, x10, #1
	add	x9, x9, #136
.LBB29_12:
	ldaxr	x10, [x9]
	cbnz	x10, .LBB29_81
	stlxr	w10, x8, [x9]
	cbnz	w10, .LBB29_12
	//APP
	//NO_APP
	add	x9, x19, #72
	add	w21, w20, #64
	ldr	x8, [x19, #336]
	sub	x0, x29, #24
	mov	w3, w20
	stp	xzr, xzr, [x29, #-24]
	str	w21, [x9, x8, lsl #2]
	add	x8, x8, #1
	ldr	x24, [x19]
	str	x8, [x19, #336]
	stur	xzr, [x29, #-8]
	ldr	x1, [x24, #8]
	ldr	w2, [x24, #76]
	bl	ww_table__seat__Stepper__look
	ldr	x8, [x19, #336]
	add	x14, x19, #72
	add	x8, x14, x8, lsl #2
	ldur	w8, [x8, #-4]
	cmp	w8, w21
	b.ne	.LBB29_52
	mov	w10, #40
	ldr	x8, [x24, #16]
	umaddl	x11, w21, w10, x8
	ldrb	w9, [x11]
	cbnz	w9, .LBB29_79
.LBB29_16:
	ldrb	w9, [x11, #8]
	cbz	w9, .LBB29_19
	ldr	x12, [x11, #32]
	cbz	x12, .LBB29_19
	ldr	x11, [x11, #16]
	mov	w16, wzr
	ldrh	w15, [x11, #16]
	b	.LBB29_20
.LBB29_19:
	mov	w15, wzr
	mov	w16, #1
.LBB29_20:
	ldr	x11, [x19, #336]
	ldrb	w12, [x24, #72]
	ldurb	w22, [x29, #-24]
	ldurh	w28, [x29, #-22]
	ldur	x13, [x29, #-16]
	ldurb	w27, [x29, #-8]
	add	x11, x14, x11, lsl #2
	cmp	w20, w12
	ldur	w11, [x11, #-4]
	b.hs	.LBB29_27
	cmp	w11, w21
	b.ne	.LBB29_53
	mov	w9, #40
	umaddl	x8, w21, w9, x8
	ldrb	w9, [x8]
	cbnz	w9, .LBB29_79
.LBB29_23:
	ldrb	w9, [x8, #8]
	cbz	w9, .LBB29_32
	ldr	x9, [x8, #32]
	cbz	x9, .LBB29_32
	cmp	w27, #3
	b.ne	.LBB29_50
	ldr	x8, [x8, #16]
	mov	w26, wzr
	mov	w23, #5
	ldrh	w25, [x8, #16]
	ldr	x10, [x8, #24]
	ldr	x8, [x19, #336]
	add	x8, x14, x8, lsl #2
	ldur	w8, [x8, #-4]
	cmp	w8, w20
	b.eq	.LBB29_33
	b	.LBB29_51
.LBB29_27:
	umull	x23, w21, w10
	cmp	w11, w21
	b.ne	.LBB29_54
	cbz	w9, .LBB29_56
.LBB29_29:
	add	x8, x8, x23
	ldr	x9, [x8, #32]
	cbz	x9, .LBB29_48
	cmp	w27, #3
	b.ne	.LBB29_49
	ldr	x9, [x8, #16]
	mov	w11, wzr
	mov	w10, #5
	ldrh	w8, [x9, #16]
	ldr	x9, [x9, #24]
	b	.LBB29_58
.LBB29_32:
	mov	w25, wzr
	mov	x10, xzr
	mov	w23, wzr
	mov	w26, #1
	ldr	x8, [x19, #336]
	add	x8, x14, x8, lsl #2
	ldur	w8, [x8, #-4]
	cmp	w8, w20
	b.ne	.LBB29_51
.LBB29_33:
	cbz	w22, .LBB29_37
.LBB29_34:
	cmp	w28, #15
	b.hi	.LBB29_36
	orr	x8, x27, x13, lsl #8
	add	x8, x8, x28, lsl #3
	add	x27, x8, #8
	b	.LBB29_37
.LBB29_36:
	lsl	x8, x13, #15
	mov	w9, #7
	sub	w9, w9, w27
	add	x8, x8, x28, lsl #3
	add	x27, x8, w9, uxtb
.LBB29_37:
	cbz	w26, .LBB29_39
	mov	w8, w23
	b	.LBB29_43
.LBB29_39:
	cmp	w25, #15
	b.hi	.LBB29_41
	lsl	w9, w25, #3
	mov	w8, w23
	orr	x8, x8, x10, lsl #8
	add	w9, w9, #8
	b	.LBB29_42
.LBB29_41:
	lsl	x8, x10, #15
	eor	w9, w23, #0x7
	add	x8, x8, w25, uxtw #3
.LBB29_42:
	orr	x8, x8, x9
.LBB29_43:
	ldr	w9, [x24, #76]
	ldr	x10, [x24, #8]
	//APP
	//NO_APP
	add	x25, x19, #420
	cmp	w9, #64
	mov	w9, #3
	csinc	x9, x9, xzr, ls
	lsl	x9, x20, x9
	add	x9, x10, x9, lsl #3
	add	x9, x9, #128
.LBB29_44:
	ldaxr	x10, [x9]
	cmp	x10, x27
	b.ne	.LBB29_83
	stlxr	w10, x8, [x9]
	cbnz	w10, .LBB29_44
	//APP
	//NO_APP
	ldr	x8, [x19, #336]
	cbz	x8, .LBB29_71
.LBB29_47:
	sub	x8, x8, #1
	str	x8, [x19, #336]
	str	wzr, [x14, x8, lsl #2]
	b	.LBB29_71
.LBB29_48:
	mov	w8, wzr
	b	.LBB29_57
.LBB29_49:
	mov	w8, wzr
	mov	x9, xzr
	mov	w11, #1
	mov	w10, #1
	b	.LBB29_58
.LBB29_50:
	mov	w25, wzr
	mov	x10, xzr
	mov	w26, #1
	mov	w23, #1
	ldr	x8, [x19, #336]
	add	x8, x14, x8, lsl #2
	ldur	w8, [x8, #-4]
	cmp	w8, w20
	b.eq	.LBB29_33
.LBB29_51:
	add	x0, x19, #72
	mov	w1, w20
	stp	x15, x13, [sp, #16]
	str	w16, [sp, #36]
	str	x10, [sp, #8]
	bl	ww_invariant__slots_out__turn_to
	ldp	x10, x15, [sp, #8]
	add	x14, x19, #72
	ldr	x13, [sp, #24]
	ldr	w16, [sp, #36]
	cbnz	w22, .LBB29_34
	b	.LBB29_37
.LBB29_52:
	add	x0, x19, #72
	mov	w1, w21
	bl	ww_invariant__slots_out__turn_to
	add	x14, x19, #72
	mov	w10, #40
	ldr	x8, [x24, #16]
	umaddl	x11, w21, w10, x8
	ldrb	w9, [x11]
	cbz	w9, .LBB29_16
	b	.LBB29_79
.LBB29_53:
	add	x0, x19, #72
	mov	w1, w21
	mov	x23, x15
	mov	w25, w16
	mov	x26, x13
	bl	ww_invariant__slots_out__turn_to
	ldr	x8, [x24, #16]
	mov	x13, x26
	mov	w16, w25
	mov	x15, x23
	add	x14, x19, #72
	mov	w9, #40
	umaddl	x8, w21, w9, x8
	ldrb	w9, [x8]
	cbz	w9, .LBB29_23
	b	.LBB29_79
.LBB29_54:
	add	x0, x19, #72
	mov	w1, w21
	str	x13, [sp, #24]
	str	w16, [sp, #36]
	mov	x26, x15
	bl	ww_invariant__slots_out__turn_to
	ldr	x8, [x24, #16]
	add	x9, x8, x23
	ldrb	w10, [x9]
	cbnz	w10, .LBB29_79
	ldrb	w9, [x9, #8]
	ldr	w16, [sp, #36]
	add	x14, x19, #72
	ldr	x13, [sp, #24]
	mov	x15, x26
	cbnz	w9, .LBB29_29
.LBB29_56:
	mov	w8, wzr
	mov	x9, xzr
.LBB29_57:
	mov	w10, wzr
	mov	w11, #1
.LBB29_58:
	cbz	w22, .LBB29_61
	cmp	w28, #15
	b.hi	.LBB29_63
	orr	x12, x27, x13, lsl #8
	add	x12, x12, x28, lsl #3
	add	x27, x12, #8
.LBB29_61:
	cbz	w11, .LBB29_64
.LBB29_62:
	mov	w8, w10
	b	.LBB29_67
.LBB29_63:
	lsl	x12, x13, #15
	mov	w13, #7
	sub	w13, w13, w27
	add	x12, x12, x28, lsl #3
	add	x27, x12, w13, uxtb
	cbnz	w11, .LBB29_62
.LBB29_64:
	cmp	w8, #15
	b.hi	.LBB29_66
	mov	w10, w10
	lsl	w8, w8, #3
	orr	x9, x10, x9, lsl #8
	add	w8, w8, #8
	orr	x8, x9, x8
	b	.LBB29_67
.LBB29_66:
	lsl	x9, x9, #15
	add	x8, x9, w8, uxtw #3
	eor	w9, w10, #0x7
	orr	x8, x8, x9
.LBB29_67:
	ldr	w9, [x24, #76]
	ldr	x10, [x24, #8]
	//APP
	//NO_APP
	cmp	w9, #64
	mov	w9, #3
	csinc	x9, x9, xzr, ls
	lsl	x9, x20, x9
	add	x9, x10, x9, lsl #3
	add	x9, x9, #128
.LBB29_68:
	ldaxr	x10, [x9]
	cmp	x10, x27
	b.ne	.LBB29_82
	stlxr	w10, x8, [x9]
	cbnz	w10, .LBB29_68
.LBB29_70:
	//APP
	//NO_APP
.LBB29_71:
	ldr	x8, [x19, #336]
	add	x8, x14, x8, lsl #2
	ldur	w8, [x8, #-4]
	cmp	w8, w21
	b.ne	.LBB29_78
.LBB29_72:
	ldr	w8, [x24, #76]
	ldr	x9, [x24, #8]
	//APP
	//NO_APP
	cmp	w8, #64
	mov	w8, #3
	csinc	x8, x8, xzr, ls
	lsl	x8, x20, x8
	add	x8, x9, x8, lsl #3
	add	x8, x8, #136
	stlr	xzr, [x8]
	//APP
	//NO_APP
	ldr	x8, [x19, #336]
	cbz	x8, .LBB29_74
	sub	x8, x8, #1
	str	x8, [x19, #336]
	str	wzr, [x14, x8, lsl #2]
.LBB29_74:
	ldrh	w8, [x19, #10]
	cmp	w15, w8, uxth
	csinc	w8, w16, wzr, ne
	tbnz	w8, #0, .LBB29_76
	lsr	w8, w15, #3
	ldr	x9, [x19, #440]
	mov	w10, #1
	lsl	x10, x10, x15
	and	x8, x8, #0x1ff8
	ldr	x11, [x9, x8]
	orr	x10, x11, x10
	str	x10, [x9, x8]
.LBB29_76:
	ldr	w8, [x19, #400]
	mov	w0, wzr
	str	xzr, [x25]
	strh	wzr, [x25, #8]
	sub	w8, w8, #1
	str	w8, [x19, #400]
.LBB29_77:
	ldp	x20, x19, [sp, #160]
	ldp	x22, x21, [sp, #144]
	ldp	x24, x23, [sp, #128]
	ldp	x26, x25, [sp, #112]
	ldp	x28, x27, [sp, #96]
	ldp	x29, x30, [sp, #80]
	add	sp, sp, #176
	ret
.LBB29_78:
	add	x0, x19, #72
	mov	w1, w21
	mov	x21, x15
	mov	w22, w16
	bl	ww_invariant__slots_out__turn_to
	mov	w16, w22
	mov	x15, x21
	add	x14, x19, #72
	b	.LBB29_72
.LBB29_79:
	brk	#0x1
.LBB29_80:
	clrex
	mov	w0, #5
	//APP
	//NO_APP
	b	.LBB29_77
.LBB29_81:
	clrex
	mov	w0, #5
	//APP
	//NO_APP
	b	.LBB29_77
.LBB29_82:
	clrex
	b	.LBB29_70
.LBB29_83:
	clrex
	//APP
	//NO_APP
	ldr	x8, [x19, #336]
	cbnz	x8, .LBB29_47
	b	.LBB29_71
.Lfunc_end29:
	.size	ww_go_on_, .Lfunc_end29-ww_go_on_

	.section	.text.ww_has_,"ax",@progbits
	.globl	ww_has_
	.p2align	2
	.type	ww_has_,@function
ww_has_:
	ldr	w8, [x0, #8]
	cbz	w8, .LBB30_3
	ldr	x8, [x0]
	ldrb	w9, [x8, #420]
	cbz	w9, .LBB30_5
	mov	w0, #-16
	ret
.LBB30_3:
	mov	w0, #-22
.LBB30_4:
	ret
.LBB30_5:
	ldr	w9, [x8, #404]
	mov	w0, #-22
	cmp	w1, w9
	b.hs	.LBB30_4
	ldr	x9, [x8]
	mov	w11, #3
	ldr	x8, [x8, #64]
	ldr	w10, [x9, #76]
	ldr	x9, [x9, #8]
	//APP
	//NO_APP
	cmp	w10, #64
	mov	w10, w1
	csinc	x11, x11, xzr, ls
	lsl	x10, x10, x11
	add	x9, x9, x10, lsl #3
	add	x9, x9, #128
	ldar	x9, [x9]
	//APP
	//NO_APP
	and	x10, x9, #0x7
	lsr	x9, x9, #2
	sub	x11, x10, #2
	cmp	x10, #5
	and	x10, x11, #0xfffffffffffffffd
	and	x11, x8, #0x7
	orr	x12, x9, #0x1
	ccmp	x10, #0, #4, ls
	and	x9, x9, #0x3ffffffffffffffe
	sub	x10, x11, #2
	lsr	x8, x8, #2
	csel	x9, x12, x9, eq
	and	x10, x10, #0xfffffffffffffffd
	cmp	x11, #5
	ccmp	x10, #0, #4, ls
	orr	x10, x8, #0x1
	and	x8, x8, #0x3ffffffffffffffe
	csel	x8, x10, x8, eq
	cmp	x9, x8
	csel	w0, wzr, w0, eq
	ret
.Lfunc_end30:
	.size	ww_has_, .Lfunc_end30-ww_has_

	.section	.rodata.cst8,"aM",@progbits,8
	.p2align	3, 0x0
.LCPI31_0:
	.word	1
	.word	0
	.section	.text.ww_heed_,"ax",@progbits
	.globl	ww_heed_
	.p2align	2
	.type	ww_heed_,@function
ww_heed_:
	ldr	w8, [x0, #8]
	cbz	w8, .LBB31_4
	adrp	x8, .LCPI31_0
	ldr	d0, [x8, :lo12:.LCPI31_0]
	ldr	x8, [x0]
	str	d0, [x0, #8]
	ldrb	w9, [x8, #420]
	sub	w10, w9, #2
	cmp	w10, #2
	b.hs	.LBB31_3
	mov	w0, #-16
	ret
.LBB31_3:
	cbnz	w9, .LBB31_5
.LBB31_4:
	mov	w0, #-22
	ret
.LBB31_5:
	mov	w0, wzr
	mov	w9, #1
	str	w9, [x8, #420]
	strb	w9, [x8, #429]
	ret
.Lfunc_end31:
	.size	ww_heed_, .Lfunc_end31-ww_heed_

	.section	.text.ww_held_,"ax",@progbits
	.globl	ww_held_
	.p2align	2
	.type	ww_held_,@function
ww_held_:
	ldr	w8, [x0, #8]
	cbz	w8, .LBB32_2
	ldr	x8, [x0]
	ldr	w0, [x8, #400]
	ret
.LBB32_2:
	mov	x0, xzr
	ret
.Lfunc_end32:
	.size	ww_held_, .Lfunc_end32-ww_held_

	.section	.text.ww_idle_,"ax",@progbits
	.globl	ww_idle_
	.p2align	2
	.type	ww_idle_,@function
ww_idle_:
	ldr	w8, [x0, #8]
	cbz	w8, .LBB33_7
	ldr	x8, [x0]
	ldrb	w9, [x8, #420]
	cbz	w9, .LBB33_3
	mov	w0, #-16
	ret
.LBB33_3:
	ldr	x9, [x8, #40]
	cbz	x9, .LBB33_5
	mov	w0, #-16
	ret
.LBB33_5:
	ldr	w8, [x8, #400]
	cbz	w8, .LBB33_7
	mov	w0, #-16
	ret
.LBB33_7:
	mov	w0, wzr
	ret
.Lfunc_end33:
	.size	ww_idle_, .Lfunc_end33-ww_idle_

	.section	.text.ww_is_free_,"ax",@progbits
	.globl	ww_is_free_
	.p2align	2
	.type	ww_is_free_,@function
ww_is_free_:
	ldr	w8, [x0, #8]
	cbz	w8, .LBB34_5
	ldr	x8, [x0]
	ldrb	w9, [x8, #420]
	cbz	w9, .LBB34_3
	mov	w0, #-16
	ret
.LBB34_3:
	ldr	w9, [x8, #404]
	cmp	w1, w9
	b.hs	.LBB34_5
	ldr	x8, [x8]
	mov	w10, w1
	ldr	w9, [x8, #76]
	ldr	x8, [x8, #8]
	//APP
	//NO_APP
	cmp	w9, #64
	mov	w9, #3
	csinc	x9, x9, xzr, ls
	lsl	x9, x10, x9
	add	x8, x8, x9, lsl #3
	add	x8, x8, #128
	ldar	x8, [x8]
	//APP
	//NO_APP
	cmp	x8, #0
	mov	w8, #-16
	csel	w0, wzr, w8, eq
	ret
.LBB34_5:
	mov	w0, #-22
	ret
.Lfunc_end34:
	.size	ww_is_free_, .Lfunc_end34-ww_is_free_

	.section	.text.ww_is_wounded_,"ax",@progbits
	.globl	ww_is_wounded_
	.p2align	2
	.type	ww_is_wounded_,@function
ww_is_wounded_:
	ldr	w8, [x0, #8]
	cbz	w8, .LBB35_6
	ldr	x9, [x0]
	ldrb	w8, [x9, #420]
	cmp	w8, #2
	b.eq	.LBB35_4
	ldr	w10, [x9, #400]
	cbz	w10, .LBB35_4
	ldr	x10, [x9]
	ldr	x9, [x9, #32]
	ldr	x10, [x10, #8]
	//APP
	//NO_APP
	add	x9, x10, x9, lsl #3
	ldar	x9, [x9]
	//APP
	//NO_APP
	cmp	x9, #0
	cset	w9, ne
	b	.LBB35_5
.LBB35_4:
	mov	w9, wzr
.LBB35_5:
	cmp	w9, #0
	mov	w10, #-16
	mov	w11, #-22
	csel	w10, w11, w10, ne
	cmp	w8, #2
	csel	w0, w10, w9, eq
	ret
.LBB35_6:
	mov	w0, #-22
	ret
.Lfunc_end35:
	.size	ww_is_wounded_, .Lfunc_end35-ww_is_wounded_

	.section	.rodata.cst8,"aM",@progbits,8
	.p2align	3, 0x0
.LCPI36_0:
	.word	1
	.word	0
	.section	.text.ww_lock_,"ax",@progbits
	.globl	ww_lock_
	.p2align	2
	.type	ww_lock_,@function
ww_lock_:
	ldr	w8, [x0, #12]
	cmp	w8, w1
	b.ls	.LBB36_5
	ldr	x8, [x0]
	ldr	x9, [x8]
	ldr	x10, [x8, #64]
	ldr	x9, [x9, #8]
	//APP
	//NO_APP
	add	x11, x9, w1, uxtw #4
	and	w9, w2, #0x1
	add	x12, x11, #128
.LBB36_2:
	ldaxr	x11, [x12]
	cbnz	x11, .LBB36_17
	stlxr	w11, x10, [x12]
	cbnz	w11, .LBB36_2
	//APP
	//NO_APP
	mov	w0, wzr
	ldr	w9, [x8, #400]
	add	w9, w9, #1
	str	w9, [x8, #400]
	ret
.LBB36_5:
	ldr	w8, [x0, #8]
	cmp	w8, #4
	b.ne	.LBB36_12
	ldr	x8, [x0]
	ldr	w10, [x8, #404]
	cmp	w10, w1
	b.ls	.LBB36_16
	ldrb	w12, [x8, #8]
	ldr	x11, [x8]
	and	w9, w2, #0x1
	cbz	w12, .LBB36_13
.LBB36_8:
	ldr	x12, [x11, #8]
	ldr	x11, [x8, #64]
	//APP
	//NO_APP
	add	x12, x12, w1, uxtw #4
	add	x13, x12, #128
.LBB36_9:
	ldaxr	x12, [x13]
	cbnz	x12, .LBB36_20
	stlxr	w12, x11, [x13]
	cbnz	w12, .LBB36_9
	//APP
	//NO_APP
	add	x12, x8, #412
	ldr	w11, [x8, #400]
	str	xzr, [x12]
	add	w11, w11, #1
	str	w11, [x8, #400]
	mov	w8, #3
	stp	w8, w10, [x0, #8]
	mov	w0, wzr
	ret
.LBB36_12:
	and	w2, w2, #0x1
	b	ww_c__exports__lock_alone
.LBB36_13:
	ldr	x12, [x8, #40]
	cbz	x12, .LBB36_8
	ldr	x12, [x8, #32]
	ldr	x13, [x11, #8]
	//APP
	//NO_APP
	add	x12, x13, x12, lsl #3
	ldar	x12, [x12]
	//APP
	//NO_APP
	cbz	x12, .LBB36_8
	ldr	x12, [x8, #32]
	ldr	x13, [x11, #8]
	//APP
	//NO_APP
	add	x12, x13, x12, lsl #3
	stlr	xzr, [x12]
	//APP
	//NO_APP
	b	.LBB36_8
.LBB36_16:
	and	w2, w2, #0x1
	b	ww_c__exports__lock_anyhow
.LBB36_17:
	and	x12, x11, #0x7
	lsr	x11, x11, #2
	clrex
	sub	x13, x12, #2
	cmp	x12, #5
	and	x12, x10, #0x7
	and	x13, x13, #0xfffffffffffffffd
	lsr	x10, x10, #2
	//APP
	//NO_APP
	ccmp	x13, #0, #4, ls
	orr	x13, x11, #0x1
	and	x11, x11, #0x3ffffffffffffffe
	csel	x11, x13, x11, eq
	sub	x13, x12, #2
	cmp	x12, #5
	and	x13, x13, #0xfffffffffffffffd
	orr	x12, x10, #0x1
	and	x10, x10, #0x3ffffffffffffffe
	ccmp	x13, #0, #4, ls
	csel	x10, x12, x10, eq
	cmp	x11, x10
	b.ne	.LBB36_19
	adrp	x8, .LCPI36_0
	ldr	d0, [x8, :lo12:.LCPI36_0]
	str	d0, [x0, #8]
	mov	w0, #-114
	ret
.LBB36_19:
	adrp	x11, .LCPI36_0
	mov	w10, #1
	str	w1, [x8, #424]
	ldr	d0, [x11, :lo12:.LCPI36_0]
	str	w10, [x8, #420]
	strb	wzr, [x8, #428]
	strb	w9, [x8, #429]
	str	d0, [x0, #8]
	mov	w0, #1
	ret
.LBB36_20:
	and	x10, x12, #0x7
	lsr	x12, x12, #2
	clrex
	sub	x13, x10, #2
	cmp	x10, #5
	and	x10, x11, #0x7
	and	x13, x13, #0xfffffffffffffffd
	lsr	x11, x11, #2
	//APP
	//NO_APP
	ccmp	x13, #0, #4, ls
	orr	x13, x12, #0x1
	and	x12, x12, #0x3ffffffffffffffe
	csel	x12, x13, x12, eq
	sub	x13, x10, #2
	cmp	x10, #5
	and	x13, x13, #0xfffffffffffffffd
	orr	x10, x11, #0x1
	and	x11, x11, #0x3ffffffffffffffe
	ccmp	x13, #0, #4, ls
	csel	x10, x10, x11, eq
	cmp	x12, x10
	b.ne	.LBB36_22
	mov	w8, #1
	str	w8, [x0, #8]
	mov	w0, #-114
	ret
.LBB36_22:
	mov	w10, #1
	str	w1, [x8, #424]
	str	w10, [x8, #420]
	strb	wzr, [x8, #428]
	strb	w9, [x8, #429]
	str	w10, [x0, #8]
	mov	w0, #1
	ret
.Lfunc_end36:
	.size	ww_lock_, .Lfunc_end36-ww_lock_

	.section	.rodata.cst8,"aM",@progbits,8
	.p2align	3, 0x0
.LCPI37_0:
	.word	1
	.word	0
	.section	.text.ww_lock_slow_,"ax",@progbits
	.globl	ww_lock_slow_
	.p2align	2
	.type	ww_lock_slow_,@function
ww_lock_slow_:
	sub	sp, sp, #48
	ldr	w9, [x0, #8]
	stp	x29, x30, [sp, #16]
	add	x29, sp, #16
	stp	x20, x19, [sp, #32]
	cbz	w9, .LBB37_6
	adrp	x9, .LCPI37_0
	ldr	x19, [x0]
	mov	w8, w1
	ldr	d0, [x9, :lo12:.LCPI37_0]
	stp	xzr, xzr, [sp]
	str	d0, [x0, #8]
	ldrb	w9, [x19, #420]
	cbz	w9, .LBB37_8
.LBB37_2:
	mov	x20, x0
	mov	x0, sp
	and	w3, w2, #0x1
	mov	x1, x19
	mov	w2, w8
	bl	ww_steps__desk__Desk__lock_here
	ldrb	w0, [sp]
	adrp	x8, .LJTI37_0
	add	x8, x8, :lo12:.LJTI37_0
	adr	x9, .LBB37_3
	ldrb	w10, [x8, x0]
	add	x9, x9, x10, lsl #2
	br	x9
.LBB37_3:
	ldr	x8, [x19, #40]
	cbz	x8, .LBB37_19
	ldr	x8, [x19, #432]
	cbz	x8, .LBB37_19
	ldr	w8, [x19, #404]
	mov	w9, #3
	mov	w0, wzr
	stp	w9, w8, [x20, #8]
	ldp	x20, x19, [sp, #32]
	ldp	x29, x30, [sp, #16]
	add	sp, sp, #48
	ret
.LBB37_6:
	mov	w0, #-22
.LBB37_7:
	ldp	x20, x19, [sp, #32]
	ldp	x29, x30, [sp, #16]
	add	sp, sp, #48
	ret
.LBB37_8:
	ldrb	w9, [x19, #412]
	cmp	w9, #1
	b.ne	.LBB37_11
	ldr	w9, [x19, #416]
	cmp	w9, w8
	b.ne	.LBB37_11
	ldr	w9, [x19, #400]
	cbz	w9, .LBB37_2
.LBB37_11:
	mov	w0, #-22
	ldp	x20, x19, [sp, #32]
	ldp	x29, x30, [sp, #16]
	add	sp, sp, #48
	ret
.LBB37_12:
	mov	w0, #-16
	ldp	x20, x19, [sp, #32]
	ldp	x29, x30, [sp, #16]
	add	sp, sp, #48
	ret
.LBB37_13:
	mov	w0, #-4
	ldp	x20, x19, [sp, #32]
	ldp	x29, x30, [sp, #16]
	add	sp, sp, #48
	ret
.LBB37_14:
	mov	w0, #5
	ldp	x20, x19, [sp, #32]
	ldp	x29, x30, [sp, #16]
	add	sp, sp, #48
	ret
.LBB37_15:
	mov	w0, #3
	ldp	x20, x19, [sp, #32]
	ldp	x29, x30, [sp, #16]
	add	sp, sp, #48
	ret
.LBB37_16:
	mov	w0, #-28
	ldp	x20, x19, [sp, #32]
	ldp	x29, x30, [sp, #16]
	add	sp, sp, #48
	ret
.LBB37_17:
	mov	w0, #-114
	ldp	x20, x19, [sp, #32]
	ldp	x29, x30, [sp, #16]
	add	sp, sp, #48
	ret
.LBB37_18:
	mov	w0, #-35
	ldp	x20, x19, [sp, #32]
	ldp	x29, x30, [sp, #16]
	add	sp, sp, #48
	ret
.LBB37_19:
	mov	w0, wzr
	ldp	x20, x19, [sp, #32]
	ldp	x29, x30, [sp, #16]
	add	sp, sp, #48
	ret
.Lfunc_end37:
	.size	ww_lock_slow_, .Lfunc_end37-ww_lock_slow_
	.section	.rodata.ww_lock_slow_,"a",@progbits
.LJTI37_0:
	.byte	(.LBB37_3-.LBB37_3)>>2
	.byte	(.LBB37_7-.LBB37_3)>>2
	.byte	(.LBB37_14-.LBB37_3)>>2
	.byte	(.LBB37_15-.LBB37_3)>>2
	.byte	(.LBB37_12-.LBB37_3)>>2
	.byte	(.LBB37_11-.LBB37_3)>>2
	.byte	(.LBB37_17-.LBB37_3)>>2
	.byte	(.LBB37_16-.LBB37_3)>>2
	.byte	(.LBB37_18-.LBB37_3)>>2
	.byte	(.LBB37_13-.LBB37_3)>>2

	.section	.text.ww_look_,"ax",@progbits
	.globl	ww_look_
	.p2align	2
	.type	ww_look_,@function
ww_look_:
	ldr	w8, [x0, #8]
	cbz	w8, .LBB38_9
	ldr	x8, [x0]
	ldrb	w9, [x8, #420]
	cmp	w9, #2
	b.ne	.LBB38_3
	mov	w0, #-16
	ret
.LBB38_3:
	ldr	w9, [x8, #404]
	cmp	w1, w9
	b.hs	.LBB38_9
	ldr	x9, [x8]
	mov	w11, w1
	mov	w12, #43
	ldr	w10, [x9, #76]
	ldr	x9, [x9, #8]
	//APP
	//NO_APP
	cmp	w10, #64
	mov	w10, #3
	csinc	x10, x10, xzr, ls
	lsl	x10, x11, x10
	mov	w11, #1
	add	x9, x9, x10, lsl #3
	add	x9, x9, #128
	ldar	x10, [x9]
	//APP
	//NO_APP
	and	w9, w10, #0x7
	lsl	w11, w11, w9
	cmp	w9, #5
	and	w11, w11, w12
	ccmp	w11, #0, #4, ls
	b.eq	.LBB38_12
	mov	w11, #31
	lsr	x12, x10, #8
	ands	w13, w11, w10, lsr #3
	cset	w11, ne
	cmp	w9, #2
	sub	w11, w13, w11
	cset	w15, lo
	cbz	w13, .LBB38_10
	lsr	x16, x10, #57
	mov	w14, wzr
	mov	w13, #1
	cbz	x16, .LBB38_8
	and	w16, w11, #0xffff
	cmp	w16, #16
	b.hs	.LBB38_29
.LBB38_8:
	cmp	w9, #2
	b.hs	.LBB38_13
	b	.LBB38_15
.LBB38_9:
	mov	w0, #-22
	ret
.LBB38_10:
	cmp	x12, #0
	ccmp	w9, #1, #2, eq
	b.hi	.LBB38_29
	mov	w13, wzr
	mov	x12, xzr
	mov	w15, #1
	mov	w14, #1
	cmp	w9, #2
	b.hs	.LBB38_13
	b	.LBB38_15
.LBB38_12:
	eor	w9, w9, #0x7
	mov	w14, wzr
	ubfx	w11, w10, #3, #12
	cmp	w9, #2
	lsr	x12, x10, #15
	mov	w13, #1
	cset	w15, lo
	cmp	w9, #2
	b.lo	.LBB38_15
.LBB38_13:
	cmp	w9, #5
	b.eq	.LBB38_16
	cmp	w9, #3
	b.ne	.LBB38_29
.LBB38_15:
	cmp	w9, #3
	cset	w16, ne
	bic	w15, w16, w15
	tbnz	w15, #0, .LBB38_29
.LBB38_16:
	cbz	w14, .LBB38_18
	mov	w14, w9
	b	.LBB38_19
.LBB38_18:
	lsl	x14, x12, #15
	lsl	w15, w11, #3
	mov	w16, w9
	orr	x16, x16, x12, lsl #8
	and	w17, w11, #0xffff
	eor	w18, w9, #0x7
	add	x14, x14, w11, uxth #3
	add	w15, w15, #8
	cmp	w17, #15
	and	x15, x15, #0xfff8
	orr	x14, x14, x18
	add	x15, x16, x15
	csel	x14, x14, x15, hi
.LBB38_19:
	cmp	x14, x10
	b.ne	.LBB38_29
	cbz	w13, .LBB38_25
	cbz	x12, .LBB38_28
	ldr	x8, [x8, #40]
	cbz	x8, .LBB38_28
	cmp	x12, x8
	b.hs	.LBB38_26
	mov	w8, #8193
	add	w0, w8, w11, uxth
	ret
.LBB38_25:
	cmp	w9, #0
	mov	w8, #32768
	csel	w0, wzr, w8, eq
	ret
.LBB38_26:
	cmp	x8, x12
	b.hs	.LBB38_28
	mov	w8, #16385
	add	w0, w8, w11, uxth
	ret
.LBB38_28:
	and	w8, w11, #0xffff
	add	w0, w8, #1
	ret
.LBB38_29:
	brk	#0x1
.Lfunc_end38:
	.size	ww_look_, .Lfunc_end38-ww_look_

	.section	.rodata.cst8,"aM",@progbits,8
	.p2align	3, 0x0
.LCPI39_0:
	.word	1
	.word	0
	.section	.text.ww_next_wake_,"ax",@progbits
	.globl	ww_next_wake_
	.p2align	2
	.type	ww_next_wake_,@function
ww_next_wake_:
	ldr	w8, [x0, #8]
	cbz	w8, .LBB39_6
	adrp	x8, .LCPI39_0
	ldr	d0, [x8, :lo12:.LCPI39_0]
	ldr	x8, [x0]
	str	d0, [x0, #8]
	ldrb	w9, [x8, #420]
	cmp	w9, #2
	b.eq	.LBB39_6
	ldr	x9, [x8, #448]
	cbz	x9, .LBB39_6
	ldr	x8, [x8, #440]
	mov	w10, wzr
.LBB39_4:
	ldr	x11, [x8]
	cbnz	x11, .LBB39_7
	subs	x9, x9, #1
	add	w10, w10, #64
	add	x8, x8, #8
	b.ne	.LBB39_4
.LBB39_6:
	mov	w0, #-22
	ret
.LBB39_7:
	rbit	x9, x11
	mov	w12, #1
	and	w10, w10, #0xffc0
	clz	x9, x9
	lsl	x12, x12, x9
	orr	w0, w10, w9
	bic	x11, x11, x12
	str	x11, [x8]
	ret
.Lfunc_end39:
	.size	ww_next_wake_, .Lfunc_end39-ww_next_wake_

	.section	.rodata.cst8,"aM",@progbits,8
	.p2align	3, 0x0
.LCPI40_0:
	.word	1
	.word	0
	.section	.text.ww_open_seat_,"ax",@progbits
	.globl	ww_open_seat_
	.p2align	2
	.type	ww_open_seat_,@function
ww_open_seat_:
	stp	x29, x30, [sp, #-96]!
	stp	x28, x27, [sp, #16]
	mov	x29, sp
	stp	x26, x25, [sp, #32]
	stp	x24, x23, [sp, #48]
	stp	x22, x21, [sp, #64]
	stp	x20, x19, [sp, #80]
	sub	sp, sp, #1488
	str	xzr, [sp]
	ldr	w8, [x2, #8]
	cbz	w8, .LBB40_3
.LBB40_1:
	mov	w0, #-22
.LBB40_2:
	add	sp, sp, #1488
	ldp	x20, x19, [sp, #80]
	ldp	x22, x21, [sp, #64]
	ldp	x24, x23, [sp, #48]
	ldp	x26, x25, [sp, #32]
	ldp	x28, x27, [sp, #16]
	ldp	x29, x30, [sp], #96
	ret
.LBB40_3:
	ldr	w8, [x0, #8]
	cbz	w8, .LBB40_1
	ldr	x19, [x0]
	movi	v0.2d, #0000000000000000
	stp	xzr, xzr, [x0]
	and	x8, x1, #0xffff
	add	x9, sp, #928
	ldr	x10, [x19, #32]
	cmp	x10, x8
	stp	q0, q0, [x9]
	stp	q0, q0, [x9, #32]
	b.ls	.LBB40_8
	ldr	x9, [x19, #24]
	lsl	x28, x8, #2
	ldrb	w8, [x9, x28]
	cmp	w8, #1
	b.ne	.LBB40_9
	stp	x2, x0, [sp, #88]
	add	x0, sp, #928
	mov	x1, x19
	bl	ww_steps__opening__means_at
	ldrb	w8, [sp, #928]
	cbz	w8, .LBB40_10
.LBB40_7:
	adrp	x8, .LCPI40_0
	mov	w0, #-12
	ldr	d0, [x8, :lo12:.LCPI40_0]
	ldr	x8, [sp, #96]
	str	x19, [x8]
	str	d0, [x8, #8]
	b	.LBB40_2
.LBB40_8:
	adrp	x8, .LCPI40_0
	str	x19, [x0]
	ldr	d0, [x8, :lo12:.LCPI40_0]
	str	d0, [x0, #8]
	b	.LBB40_1
.LBB40_9:
	adrp	x8, .LCPI40_0
	str	x19, [x0]
	ldr	d0, [x8, :lo12:.LCPI40_0]
	str	d0, [x0, #8]
	mov	w0, #-114
	b	.LBB40_2
.LBB40_10:
	ldr	x8, [sp, #944]
	mov	x22, x19
	ldr	x26, [sp, #936]
	ldr	x20, [sp, #960]
	ldr	x27, [sp, #968]
	add	x0, sp, #1000
	str	x8, [sp, #80]
	ldr	x8, [sp, #952]
	mov	w2, #456
	ldr	x24, [sp, #984]
	ldr	x25, [x22, #56]!
	str	x8, [sp, #56]
	ldr	x8, [sp, #976]
	add	x1, x22, #8
	ldurb	w21, [x22, #-8]
	str	x8, [sp, #64]
	bl	memcpy
	movi	v0.2d, #0000000000000000
	add	x8, x22, #264
	cmp	w21, #1
	str	xzr, [x22, #456]
	str	q0, [x8]
	add	x8, x22, #280
	str	q0, [x8]
	add	x8, x22, #296
	str	q0, [x8]
	add	x8, x22, #312
	str	q0, [x8]
	add	x8, x22, #328
	str	q0, [x8]
	add	x8, x22, #344
	str	q0, [x8]
	add	x8, x22, #360
	str	q0, [x8]
	add	x8, x22, #376
	str	q0, [x8]
	add	x8, x22, #392
	str	q0, [x8]
	add	x8, x22, #408
	str	q0, [x8]
	add	x8, x22, #424
	str	q0, [x8]
	add	x8, x22, #440
	stur	q0, [x22, #-8]
	stur	q0, [x22, #8]
	stur	q0, [x22, #24]
	stur	q0, [x22, #40]
	stur	q0, [x22, #56]
	stur	q0, [x22, #72]
	stur	q0, [x22, #88]
	stur	q0, [x22, #104]
	stur	q0, [x22, #120]
	stur	q0, [x22, #136]
	stur	q0, [x22, #152]
	stur	q0, [x22, #168]
	stur	q0, [x22, #184]
	stur	q0, [x22, #200]
	stur	q0, [x22, #216]
	stur	q0, [x22, #232]
	stur	q0, [x22, #248]
	str	q0, [x8]
	b.ne	.LBB40_42
	mov	w0, #464
	mov	w1, #8
	bl	rattle_alloc
	str	x24, [sp, #72]
	tbz	w0, #0, .LBB40_21
	mov	x23, x1
	mov	x0, x1
	add	x1, sp, #1000
	mov	w2, #456
	str	x27, [sp, #48]
	str	x25, [x0], #8
	bl	memcpy
	ldr	x8, [x19, #24]
	add	x8, x8, x28
	ldrb	w9, [x8]
	ldrh	w25, [x8, #2]
	str	wzr, [x8]
	cmp	w9, #1
	b.ne	.LBB40_42
	ldrh	w21, [x26, #80]
	mov	x8, #72057594037927935
	mov	x9, #562949953421311
	ldr	w28, [x26, #76]
	mov	w10, #3
	mov	w12, #256
	cmp	w21, #16
	add	x0, sp, #464
	mov	x1, x23
	csel	x8, x9, x8, hi
	cmp	w28, #64
	ldrb	w9, [x19, #8]
	str	x8, [sp, #16]
	ldr	x8, [x19, #32]
	mov	w2, #464
	str	w9, [sp, #12]
	lsl	x9, x25, #3
	str	x8, [sp, #40]
	csinc	x8, x10, xzr, ls
	ldr	w10, [x19, #12]
	lsl	x8, x28, x8
	add	x11, x9, #8
	cmp	w25, #16
	str	w10, [sp, #28]
	ldr	x10, [x19, #16]
	add	x8, x9, x8
	mov	w9, #32768
	str	x10, [sp, #32]
	mov	w10, #7
	add	x24, x8, #16
	bfi	x10, x25, #3, #16
	csel	x8, x12, x9, lo
	str	x8, [sp]
	csel	x27, x11, x10, lo
	bl	memcpy
	ldr	w8, [sp, #12]
	movi	v0.2d, #0000000000000000
	add	x9, x23, #412
	str	x26, [x23]
	add	x0, sp, #104
	add	x1, x22, #8
	strb	w8, [x23, #8]
	ldr	x8, [sp, #16]
	mov	w2, #360
	strb	wzr, [x23, #9]
	stp	x8, x24, [x23, #24]
	ldr	x8, [sp]
	mov	w24, #1
	strh	w25, [x23, #10]
	stp	x8, x27, [x23, #56]
	mov	x8, x23
	str	q0, [x8, #72]!
	stp	q0, q0, [x8, #192]
	stp	q0, q0, [x8, #224]
	str	q0, [x8, #256]
	sub	x8, x29, #32
	stp	x8, xzr, [x23, #344]
	ldr	x8, [sp, #80]
	str	w28, [x23, #12]
	str	x8, [x23, #376]
	ldr	x8, [sp, #56]
	strh	w21, [x23, #16]
	stp	x8, x20, [x23, #384]
	ldr	w8, [sp, #28]
	stur	wzr, [x23, #18]
	str	w8, [x23, #404]
	ldr	x8, [sp, #40]
	strh	wzr, [x23, #22]
	strh	w8, [x23, #410]
	add	x8, x23, #420
	str	xzr, [x8]
	ldr	x8, [sp, #32]
	stp	xzr, x27, [x23, #40]
	str	x8, [x23, #432]
	ldr	x8, [sp, #48]
	stur	q0, [x23, #88]
	str	x8, [x23, #440]
	ldr	x8, [sp, #64]
	stur	q0, [x23, #104]
	str	x8, [x23, #448]
	ldr	x8, [sp, #72]
	stur	q0, [x23, #120]
	stur	q0, [x23, #136]
	stur	q0, [x23, #152]
	stur	q0, [x23, #168]
	stur	q0, [x23, #184]
	stur	q0, [x23, #200]
	stur	q0, [x23, #216]
	stur	q0, [x23, #232]
	stur	q0, [x23, #248]
	stp	xzr, x24, [x23, #360]
	str	wzr, [x23, #400]
	strh	wzr, [x23, #408]
	str	xzr, [x9]
	str	wzr, [x23, #428]
	str	x8, [x23, #456]
	ldrb	w27, [x19, #48]
	ldr	x21, [x19, #56]
	bl	memcpy
	ldr	x8, [x19, #496]
	ldrb	w28, [x19, #424]
	add	x1, sp, #464
	ldr	x20, [x19, #432]
	ldr	x25, [x19, #448]
	mov	x0, x22
	ldr	x26, [x19, #512]
	mov	w2, #464
	str	x8, [sp, #80]
	str	x24, [x19, #48]
	bl	memcpy
	cmp	w27, #1
	b.ne	.LBB40_20
	mov	x0, x21
	bl	std_alloc__arc__Arc__drop____7adbd3708cb715cb_
	add	x8, sp, #104
	add	x0, x8, #336
	bl	std_alloc__vec__Vec__drop____3b954727b9020b61_
	cmp	w28, #1
	b.ne	.LBB40_18
	cbz	x25, .LBB40_18
	mov	x0, x20
.LBB40_17:
	ldr	x20, [x0]
	sub	x25, x25, #1
	bl	rattle_dealloc
	mov	x0, x20
	cbnz	x25, .LBB40_17
.LBB40_18:
	cbz	x26, .LBB40_20
	ldr	x0, [sp, #80]
	bl	rattle_dealloc
.LBB40_20:
	adrp	x8, .LCPI40_0
	mov	w0, wzr
	ldr	d0, [x8, :lo12:.LCPI40_0]
	ldr	x8, [sp, #96]
	str	x19, [x8]
	str	d0, [x8, #8]
	ldr	x8, [sp, #88]
	str	x23, [x8]
	str	d0, [x8, #8]
	b	.LBB40_2
.LBB40_21:
	ldp	x8, x28, [x19, #400]
	add	x0, x22, #8
	ldr	x9, [x19, #496]
	str	x26, [sp, #88]
	add	x1, sp, #1000
	ldrb	w21, [x19, #48]
	ldr	x26, [x19, #56]
	mov	w2, #456
	str	x8, [sp, #64]
	ldr	x8, [x19, #416]
	ldr	x24, [x19, #432]
	stp	x9, x8, [sp, #32]
	ldr	x9, [x19, #512]
	ldr	x23, [x19, #448]
	ldrb	w8, [x19, #424]
	str	x9, [sp, #56]
	str	w8, [sp, #48]
	mov	w8, #1
	stp	x8, x25, [x19, #48]
	bl	memcpy
	cmp	w21, #1
	b.ne	.LBB40_38
	mov	x0, x26
	bl	std_alloc__arc__Arc__drop____7adbd3708cb715cb_
	cbz	x28, .LBB40_31
	ldr	x8, [sp, #64]
	add	x22, x8, #56
	b	.LBB40_25
.LBB40_24:
	subs	x28, x28, #1
	add	x22, x22, #96
	b.eq	.LBB40_31
.LBB40_25:
	ldurb	w9, [x22, #-24]
	ldrb	w25, [x22, #8]
	ldr	x0, [x22, #16]
	ldr	x26, [x22, #32]
	sub	w8, w9, #2
	cmp	w8, #5
	b.lo	.LBB40_28
	ldur	x8, [x22, #-16]
	ldr	x10, [x22]
	cmp	w9, #1
	cbz	x10, .LBB40_28
	mov	x21, x0
	mov	x0, x8
	bl	rattle_dealloc
	mov	x0, x21
.LBB40_28:
	cbnz	w25, .LBB40_24
	cbz	x26, .LBB40_24
	bl	rattle_dealloc
	b	.LBB40_24
.LBB40_31:
	ldr	x8, [sp, #40]
	cbz	x8, .LBB40_33
	ldr	x0, [sp, #64]
	bl	rattle_dealloc
.LBB40_33:
	ldr	w8, [sp, #48]
	cmp	w8, #1
	b.ne	.LBB40_36
	cbz	x23, .LBB40_36
.LBB40_35:
	ldr	x21, [x24]
	mov	x0, x24
	sub	x23, x23, #1
	bl	rattle_dealloc
	mov	x24, x21
	cbnz	x23, .LBB40_35
.LBB40_36:
	ldr	x8, [sp, #56]
	cbz	x8, .LBB40_38
	ldr	x0, [sp, #32]
	bl	rattle_dealloc
.LBB40_38:
	ldr	x0, [sp, #88]
	bl	std_alloc__arc__Arc__drop____7adbd3708cb715cb_
	ldr	x0, [sp, #80]
	cbz	x20, .LBB40_40
.LBB40_39:
	ldr	x21, [x0]
	sub	x20, x20, #1
	bl	rattle_dealloc
	mov	x0, x21
	cbnz	x20, .LBB40_39
.LBB40_40:
	ldr	x8, [sp, #72]
	cbz	x8, .LBB40_7
	mov	x0, x27
	bl	rattle_dealloc
	b	.LBB40_7
.LBB40_42:
	brk	#0x1
.Lfunc_end40:
	.size	ww_open_seat_, .Lfunc_end40-ww_open_seat_

	.section	.rodata.cst8,"aM",@progbits,8
	.p2align	3, 0x0
.LCPI41_0:
	.word	1
	.word	0
	.section	.text.ww_open_world_,"ax",@progbits
	.globl	ww_open_world_
	.p2align	2
	.type	ww_open_world_,@function
ww_open_world_:
	stp	x29, x30, [sp, #-96]!
	stp	x28, x27, [sp, #16]
	mov	x29, sp
	stp	x26, x25, [sp, #32]
	stp	x24, x23, [sp, #48]
	stp	x22, x21, [sp, #64]
	stp	x20, x19, [sp, #80]
	sub	sp, sp, #1856
	movi	v0.2d, #0000000000000000
	str	xzr, [sp]
	strh	wzr, [sp, #540]
	strb	wzr, [sp, #542]
	str	wzr, [sp, #532]
	strh	wzr, [sp, #536]
	stp	q0, q0, [sp, #256]
	stp	q0, q0, [sp, #288]
	stp	q0, q0, [sp, #320]
	stp	q0, q0, [sp, #352]
	stp	q0, q0, [sp, #384]
	stp	q0, q0, [sp, #416]
	stp	q0, q0, [sp, #448]
	stp	q0, q0, [sp, #480]
	str	q0, [sp, #512]
	stp	xzr, xzr, [sp, #224]
	str	wzr, [sp, #248]
	str	xzr, [sp, #240]
	cbz	w0, .LBB41_4
	cmp	w0, #1
	b.ne	.LBB41_3
	mov	w24, #1
	ldr	w8, [x4, #8]
	cbz	w8, .LBB41_5
.LBB41_3:
	mov	w0, #-22
	b	.LBB41_31
.LBB41_4:
	mov	w24, wzr
	ldr	w8, [x4, #8]
	cbnz	w8, .LBB41_3
.LBB41_5:
	mov	w8, #-16777217
	mov	w21, wzr
	strh	wzr, [sp, #1176]
	add	w8, w1, w8
	strb	wzr, [sp, #1178]
	lsr	w8, w8, #24
	str	wzr, [sp, #1168]
	strh	wzr, [sp, #1172]
	cmp	w8, #255
	stp	q0, q0, [sp, #576]
	stp	q0, q0, [sp, #608]
	stp	q0, q0, [sp, #640]
	stp	q0, q0, [sp, #672]
	stp	q0, q0, [sp, #704]
	stp	q0, q0, [sp, #736]
	stp	q0, q0, [sp, #768]
	stp	q0, q0, [sp, #800]
	stp	q0, q0, [sp, #896]
	stp	q0, q0, [sp, #928]
	stp	q0, q0, [sp, #960]
	stp	q0, q0, [sp, #992]
	str	q0, [sp, #1024]
	str	q0, [sp, #1040]
	str	q0, [sp, #1056]
	str	q0, [sp, #1072]
	str	q0, [sp, #1088]
	str	q0, [sp, #1104]
	str	q0, [sp, #1120]
	str	q0, [sp, #1136]
	str	q0, [sp, #1152]
	str	xzr, [sp, #872]
	str	xzr, [sp, #864]
	str	wzr, [sp, #888]
	str	xzr, [sp, #880]
	strh	wzr, [sp, #860]
	strb	wzr, [sp, #862]
	str	wzr, [sp, #852]
	strh	wzr, [sp, #856]
	str	q0, [sp, #832]
	str	xzr, [sp, #552]
	str	xzr, [sp, #544]
	str	wzr, [sp, #568]
	str	xzr, [sp, #560]
	b.lo	.LBB41_30
	sub	w8, w3, #1, lsl #12
	and	w8, w8, #0xffff
	cmp	w8, #15, lsl #12
	b.hi	.LBB41_8
	mov	w21, #1
	b	.LBB41_30
.LBB41_8:
	lsr	x8, x2, #52
	cbz	x8, .LBB41_10
	mov	w21, #2
	b	.LBB41_30
.LBB41_10:
	str	w1, [sp, #144]
	sub	x0, x29, #160
	mov	w1, #65
	str	x2, [sp, #216]
	mov	w2, #1
	sub	x26, x29, #160
	str	w3, [sp, #152]
	str	x4, [sp, #72]
	stur	wzr, [x29, #-232]
	sturh	wzr, [x29, #-228]
	str	q0, [sp, #1344]
	str	q0, [sp, #1360]
	str	q0, [sp, #1376]
	str	q0, [sp, #1392]
	str	q0, [sp, #1408]
	str	q0, [sp, #1424]
	str	q0, [sp, #1440]
	str	q0, [sp, #1456]
	str	q0, [sp, #1472]
	str	q0, [sp, #1488]
	str	q0, [sp, #1504]
	str	q0, [sp, #1520]
	str	q0, [sp, #1536]
	str	q0, [sp, #1552]
	str	q0, [sp, #1568]
	str	q0, [sp, #1584]
	str	q0, [sp, #1600]
	str	xzr, [sp, #1320]
	str	xzr, [sp, #1312]
	str	wzr, [sp, #1336]
	str	xzr, [sp, #1328]
	str	xzr, [sp, #1304]
	str	xzr, [sp, #1296]
	str	q0, [sp, #1184]
	str	q0, [sp, #1200]
	str	q0, [sp, #1216]
	str	q0, [sp, #1232]
	str	q0, [sp, #1248]
	str	q0, [sp, #1264]
	str	q0, [sp, #1280]
	strh	wzr, [sp, #1180]
	strb	wzr, [sp, #1182]
	stp	q0, q0, [x29, #-160]
	stp	q0, q0, [x29, #-128]
	stp	q0, q0, [x29, #-96]
	stur	q0, [x29, #-64]
	stp	q0, q0, [x29, #-224]
	stp	q0, q0, [x29, #-192]
	bl	ww_table__board__Board__make_bare
	ldurb	w8, [x29, #-160]
	cbnz	w8, .LBB41_26
	ldur	x8, [x29, #-64]
	cbz	x8, .LBB41_87
	ldur	x19, [x29, #-72]
	ldur	q0, [x29, #-152]
	mov	w0, #88
	ldur	x9, [x29, #-56]
	ldp	x28, x22, [x29, #-144]
	add	x8, x19, x8, lsl #1
	ldp	x27, x21, [x29, #-128]
	ldp	x25, x20, [x29, #-112]
	mov	w1, #8
	ldurh	w8, [x8, #-2]
	str	q0, [sp, #176]
	stp	x9, x8, [sp, #200]
	bl	rattle_alloc
	tbz	w0, #0, .LBB41_15
	ldr	q0, [sp, #176]
	mov	w8, #1
	mov	x23, x1
	str	x8, [x1]
	ldur	x8, [x26, #80]
	sub	x0, x29, #224
	stur	q0, [x1, #8]
	ldur	q0, [x26, #64]
	stp	x22, x27, [x1, #24]
	stp	x21, x25, [x1, #40]
	str	x20, [x1, #56]
	str	q0, [x1, #64]
	str	x8, [x1, #80]
	stur	x1, [x29, #-40]
	sub	x1, x29, #40
	bl	ww_steps__opening__means_at
	ldurb	w8, [x29, #-224]
	cbz	w8, .LBB41_39
	mov	x0, x23
	bl	std_alloc__arc__Arc__drop____7adbd3708cb715cb_
	b	.LBB41_23
.LBB41_15:
	cbz	x27, .LBB41_22
	mov	x22, xzr
	b	.LBB41_18
.LBB41_17:
	add	x22, x22, #1
	cmp	x22, x27
	b.eq	.LBB41_22
.LBB41_18:
	mov	w8, #40
	madd	x8, x22, x8, x28
	ldrb	w9, [x8]
	cbnz	w9, .LBB41_17
	ldrb	w9, [x8, #8]
	ldr	x23, [x8, #32]
	cmp	w9, #0
	ccmp	x23, #0, #4, ne
	b.eq	.LBB41_17
	ldr	x0, [x8, #16]
.LBB41_21:
	ldr	x24, [x0]
	sub	x23, x23, #1
	bl	rattle_dealloc
	mov	x0, x24
	cbnz	x23, .LBB41_21
	b	.LBB41_17
.LBB41_22:
	mov	x0, x21
	bl	rattle_dealloc
	mov	x0, x20
	bl	rattle_dealloc
.LBB41_23:
	ldr	x8, [sp, #200]
	cbz	x8, .LBB41_26
	mov	x0, x19
.LBB41_25:
	bl	rattle_dealloc
.LBB41_26:
	mov	w28, wzr
	mov	x25, xzr
	mov	w24, wzr
	str	wzr, [sp, #92]
	mov	x19, xzr
	mov	x22, xzr
	stp	xzr, xzr, [sp, #208]
	mov	w27, wzr
	mov	x23, xzr
	stp	xzr, xzr, [sp, #144]
	mov	w20, wzr
	mov	w21, #3
	stp	xzr, xzr, [sp, #160]
	mov	w26, #1
	stp	xzr, xzr, [sp, #128]
	str	wzr, [sp, #124]
	str	xzr, [sp, #64]
	stp	xzr, xzr, [sp, #104]
	str	xzr, [sp, #200]
	str	xzr, [sp, #96]
	str	wzr, [sp, #56]
	str	xzr, [sp, #80]
	str	xzr, [sp, #176]
.LBB41_27:
	ldrh	w8, [sp, #860]
	ldrb	w9, [sp, #862]
	add	x0, sp, #256
	ldr	w10, [sp, #852]
	add	x1, sp, #576
	mov	w2, #272
	strh	w8, [sp, #540]
	ldrh	w8, [sp, #856]
	strb	w9, [sp, #542]
	str	w10, [sp, #532]
	strh	w8, [sp, #536]
	bl	memcpy
	add	x8, sp, #544
	ldr	q0, [sp, #544]
	ldur	q1, [x8, #12]
	str	q0, [sp, #224]
	stur	q1, [sp, #236]
	cbz	w28, .LBB41_30
	mov	w0, #520
	mov	w1, #8
	bl	rattle_alloc
	tbz	w0, #0, .LBB41_32
	ldrh	w8, [sp, #540]
	ldr	w9, [sp, #124]
	add	x0, x1, #128
	str	x25, [x1]
	mov	w2, #272
	sturh	w8, [x1, #9]
	ldrb	w8, [sp, #542]
	strh	w9, [x1, #72]
	ldrh	w9, [sp, #536]
	strb	w8, [x1, #11]
	ldr	w8, [sp, #92]
	strh	w9, [x1, #78]
	str	w8, [x1, #12]
	ldr	x8, [sp, #216]
	strb	w24, [x1, #8]
	str	x8, [x1, #16]
	ldr	x8, [sp, #144]
	strb	w24, [x1, #64]
	stp	x8, x19, [x1, #24]
	ldr	x8, [sp, #152]
	mov	x19, x1
	strb	wzr, [x1, #65]
	str	x8, [x1, #40]
	mov	w8, w27
	str	x8, [x1, #48]
	ldr	x8, [sp, #168]
	str	x8, [x1, #56]
	ldr	x8, [sp, #208]
	strh	w8, [x1, #66]
	ldr	x8, [sp, #128]
	str	w8, [x1, #68]
	ldr	w8, [sp, #532]
	stur	w8, [x1, #74]
	ldr	x8, [sp, #136]
	str	x8, [x1, #80]
	ldr	x8, [sp, #64]
	stp	x8, xzr, [x1, #88]
	ldp	x9, x8, [sp, #104]
	stp	x8, x9, [x1, #104]
	str	x8, [x1, #120]
	add	x1, sp, #256
	bl	memcpy
	add	x8, x19, #425
	ldr	q0, [sp, #224]
	ldr	x9, [sp, #176]
	strh	wzr, [x8, #4]
	mov	w0, wzr
	str	wzr, [x8]
	ldr	x8, [sp, #200]
	stp	xzr, xzr, [x19, #408]
	str	x8, [x19, #432]
	ldr	x8, [sp, #96]
	str	x22, [x19, #400]
	stp	x8, x23, [x19, #440]
	ldr	w8, [sp, #56]
	strb	w27, [x19, #424]
	str	w8, [x19, #460]
	add	x8, x19, #468
	str	q0, [x8]
	ldr	x8, [sp, #160]
	ldur	q0, [sp, #236]
	strb	wzr, [x19, #431]
	str	x8, [x19, #496]
	ldr	x8, [sp, #80]
	str	q0, [x19, #480]
	stp	x8, x9, [x19, #504]
	adrp	x8, .LCPI41_0
	ldr	d0, [x8, :lo12:.LCPI41_0]
	ldr	x8, [sp, #72]
	str	wzr, [x19, #456]
	strh	wzr, [x19, #464]
	strh	w20, [x19, #466]
	str	x19, [x8]
	str	d0, [x8, #8]
	b	.LBB41_31
.LBB41_30:
	cmp	w21, #3
	mov	w8, #-22
	mov	w9, #-12
	csel	w0, w9, w8, eq
.LBB41_31:
	add	sp, sp, #1856
	ldp	x20, x19, [sp, #80]
	ldp	x22, x21, [sp, #64]
	ldp	x24, x23, [sp, #48]
	ldp	x26, x25, [sp, #32]
	ldp	x28, x27, [sp, #16]
	ldp	x29, x30, [sp], #96
	ret
.LBB41_32:
	mov	x0, x25
	bl	std_alloc__arc__Arc__drop____93a448bb48b6d052_
	ldr	x8, [sp, #152]
	cbz	x8, .LBB41_34
	ldr	x0, [sp, #144]
	bl	rattle_dealloc
.LBB41_34:
	ldr	x0, [sp, #168]
	bl	std_alloc__arc__Arc__drop____93a448bb48b6d052_
	cmp	x23, #0
	ldr	x0, [sp, #200]
	csinc	w8, w26, wzr, ne
	tbnz	w8, #0, .LBB41_36
.LBB41_35:
	ldr	x19, [x0]
	sub	x23, x23, #1
	bl	rattle_dealloc
	mov	x0, x19
	cbnz	x23, .LBB41_35
.LBB41_36:
	ldr	x8, [sp, #176]
	cbz	x8, .LBB41_38
	ldr	x0, [sp, #160]
	bl	rattle_dealloc
.LBB41_38:
	mov	w0, #-12
	b	.LBB41_31
.LBB41_39:
	ldur	x20, [x29, #-216]
	ldr	x12, [sp, #208]
	mov	x8, #72057594037927935
	mov	x9, #562949953421311
	mov	w10, #3
	mov	w11, #7
	ldrh	w21, [x20, #80]
	ldr	w22, [x20, #76]
	lsl	x13, x12, #3
	bfi	x11, x12, #3, #16
	mov	x0, x23
	cmp	w21, #16
	csel	x8, x9, x8, hi
	cmp	w22, #64
	csinc	x9, x10, xzr, ls
	str	x8, [sp, #136]
	add	x8, x13, #8
	stp	x9, x13, [sp, #56]
	cmp	w12, #16
	mov	w9, #32768
	mov	w10, #256
	csel	x27, x8, x11, lo
	csel	x28, x10, x9, lo
	bl	std_alloc__arc__Arc__drop____7adbd3708cb715cb_
	ldr	x8, [sp, #200]
	cbz	x8, .LBB41_41
	mov	x0, x19
	bl	rattle_dealloc
.LBB41_41:
	ldp	x8, x26, [x29, #-208]
	movi	v0.2d, #0000000000000000
	mov	w9, #65
	ldr	w2, [sp, #152]
	add	x0, sp, #1184
	stur	wzr, [x29, #-232]
	str	x8, [sp, #200]
	ldp	x23, x8, [x29, #-192]
	sturh	wzr, [x29, #-228]
	str	q0, [sp, #1344]
	str	x8, [sp, #160]
	ldp	x19, x8, [x29, #-176]
	str	q0, [sp, #1360]
	str	q0, [sp, #1376]
	str	x8, [sp, #176]
	ldr	w8, [sp, #144]
	str	q0, [sp, #1392]
	cmp	w8, #65
	str	q0, [sp, #1408]
	csel	w25, w8, w9, hi
	str	q0, [sp, #1424]
	mov	w1, w25
	str	q0, [sp, #1440]
	str	q0, [sp, #1456]
	str	q0, [sp, #1472]
	str	q0, [sp, #1488]
	str	q0, [sp, #1504]
	str	q0, [sp, #1520]
	str	q0, [sp, #1536]
	str	q0, [sp, #1552]
	str	q0, [sp, #1568]
	str	q0, [sp, #1584]
	str	q0, [sp, #1600]
	str	xzr, [sp, #1320]
	str	xzr, [sp, #1312]
	str	wzr, [sp, #1336]
	str	xzr, [sp, #1328]
	bl	ww_table__board__Board__make_bare
	ldrb	w8, [sp, #1184]
	cbz	w8, .LBB41_44
	mov	x0, x20
	bl	std_alloc__arc__Arc__drop____7adbd3708cb715cb_
	ldr	x0, [sp, #200]
	cbz	x23, .LBB41_60
.LBB41_43:
	ldr	x19, [x0]
	sub	x23, x23, #1
	bl	rattle_dealloc
	mov	x0, x19
	cbnz	x23, .LBB41_43
	b	.LBB41_60
.LBB41_44:
	add	x8, sp, #1184
	ldr	x9, [sp, #1192]
	str	w25, [sp, #92]
	ldur	q0, [x8, #72]
	ldr	x8, [sp, #1208]
	stp	x26, x28, [sp, #96]
	str	x27, [sp, #112]
	ldr	x27, [sp, #1200]
	ldr	x28, [sp, #1280]
	stp	x8, x9, [sp, #32]
	ldr	x8, [sp, #1224]
	ldr	x26, [sp, #1240]
	str	x22, [sp, #128]
	ldr	x22, [sp, #1272]
	ldr	x25, [sp, #1288]
	str	x8, [sp, #48]
	ldr	x8, [sp, #1232]
	str	w21, [sp, #124]
	ldr	x21, [sp, #1216]
	str	x8, [sp, #24]
	ldr	x8, [sp, #1248]
	str	q0, [sp, #1296]
	stp	xzr, xzr, [x29, #-160]
	str	x8, [sp, #16]
	stur	xzr, [x29, #-144]
	str	x20, [sp, #168]
	cbz	x28, .LBB41_62
	lsr	x8, x28, #61
	cbnz	x8, .LBB41_48
	lsl	x0, x28, #2
	mov	w1, #2
	bl	rattle_alloc
	tbz	w0, #0, .LBB41_48
	str	x19, [sp, #80]
	mov	x19, xzr
	mov	x20, xzr
	str	x26, [sp, #8]
	stp	x1, xzr, [x29, #-160]
	stur	x28, [x29, #-144]
	b	.LBB41_69
.LBB41_48:
	cbz	x25, .LBB41_51
	mov	x0, x22
.LBB41_50:
	bl	rattle_dealloc
.LBB41_51:
	cbz	x21, .LBB41_58
	mov	x22, x21
	mov	x19, xzr
	b	.LBB41_54
.LBB41_53:
	add	x19, x19, #1
	cmp	x19, x22
	b.eq	.LBB41_58
.LBB41_54:
	mov	w8, #40
	madd	x8, x19, x8, x27
	ldrb	w9, [x8]
	cbnz	w9, .LBB41_53
	ldrb	w9, [x8, #8]
	ldr	x20, [x8, #32]
	cmp	w9, #0
	ccmp	x20, #0, #4, ne
	b.eq	.LBB41_53
	ldr	x0, [x8, #16]
.LBB41_57:
	ldr	x21, [x0]
	sub	x20, x20, #1
	bl	rattle_dealloc
	mov	x0, x21
	cbnz	x20, .LBB41_57
	b	.LBB41_53
.LBB41_58:
	ldr	x0, [sp, #48]
	bl	rattle_dealloc
	mov	x0, x26
	bl	rattle_dealloc
	ldr	x0, [sp, #168]
	bl	std_alloc__arc__Arc__drop____7adbd3708cb715cb_
	ldr	x0, [sp, #200]
	cbz	x23, .LBB41_60
.LBB41_59:
	ldr	x19, [x0]
	sub	x23, x23, #1
	bl	rattle_dealloc
	mov	x0, x19
	cbnz	x23, .LBB41_59
.LBB41_60:
	ldr	x8, [sp, #176]
	cbz	x8, .LBB41_26
.LBB41_61:
	ldr	x0, [sp, #160]
	b	.LBB41_25
.LBB41_62:
	sub	x8, x29, #32
	str	x26, [sp, #8]
	str	x19, [sp, #80]
	mov	x19, xzr
	stur	x8, [x29, #-160]
.LBB41_63:
	cbz	x25, .LBB41_65
	mov	x0, x22
	bl	rattle_dealloc
.LBB41_65:
	ldur	x26, [x29, #-160]
	ldur	x28, [x29, #-144]
	mov	w0, #88
	mov	w1, #8
	bl	rattle_alloc
	tbz	w0, #0, .LBB41_75
	ldr	x8, [sp, #40]
	stp	x26, x28, [sp, #144]
	mov	w28, #1
	ldr	x10, [sp, #128]
	ldrb	w9, [sp, #1182]
	mov	x25, x1
	stp	x28, x8, [x1]
	ldr	x8, [sp, #32]
	add	x0, sp, #896
	ldr	q0, [sp, #1296]
	strb	w9, [sp, #1178]
	mov	w2, #272
	stp	x27, x8, [x1, #16]
	ldp	x8, x11, [sp, #48]
	ldur	w9, [x29, #-232]
	add	x20, sp, #864
	stur	q0, [x1, #72]
	stp	x21, x8, [x1, #32]
	ldr	x8, [sp, #24]
	lsl	x10, x10, x11
	ldr	x11, [sp, #64]
	str	w9, [sp, #1168]
	str	x8, [x1, #48]
	ldr	x8, [sp, #8]
	add	x10, x11, x10
	str	x8, [x1, #56]
	ldr	x8, [sp, #16]
	str	x8, [x1, #64]
	ldrh	w8, [sp, #1180]
	add	x1, sp, #1344
	strh	w8, [sp, #1176]
	ldurh	w8, [x29, #-228]
	strh	w8, [sp, #1172]
	add	x8, x10, #16
	str	x8, [sp, #64]
	bl	memcpy
	add	x8, sp, #1184
	ldrb	w9, [sp, #1178]
	ldr	q0, [sp, #1312]
	ldur	q1, [x8, #140]
	ldrh	w8, [sp, #1176]
	add	x0, sp, #576
	strb	w9, [sp, #862]
	ldr	w9, [sp, #1168]
	add	x1, sp, #896
	strh	w8, [sp, #860]
	ldrh	w8, [sp, #1172]
	mov	w2, #272
	str	q0, [sp, #864]
	stur	q1, [x20, #12]
	strh	w8, [sp, #856]
	str	w9, [sp, #852]
	bl	memcpy
	ldr	q0, [sp, #864]
	ldur	q1, [x20, #12]
	mov	w8, #65
	mov	w26, wzr
	mov	w21, wzr
	str	w8, [sp, #56]
	add	x8, sp, #544
	sub	x22, x29, #32
	mov	w27, #1
	mov	w20, #1
	str	q0, [sp, #544]
	stur	q1, [x8, #12]
	b	.LBB41_27
.LBB41_67:
	ldp	x1, x19, [x29, #-160]
.LBB41_68:
	add	x8, x1, x19, lsl #2
	add	x20, x20, #1
	mov	w9, #1
	add	x19, x19, #1
	cmp	x28, x20
	strh	w9, [x8]
	strh	w26, [x8, #2]
	stur	x19, [x29, #-152]
	b.eq	.LBB41_63
.LBB41_69:
	ldur	x8, [x29, #-144]
	ldrh	w26, [x22, x20, lsl #1]
	cmp	x8, x19
	b.ne	.LBB41_68
	sub	x0, x29, #160
	bl	std_alloc__vec__Vec__grow_amortized____f9970e105406fed0_
	cbnz	w0, .LBB41_67
	cbz	x25, .LBB41_73
	mov	x0, x22
	bl	rattle_dealloc
.LBB41_73:
	ldur	x8, [x29, #-144]
	ldr	x26, [sp, #8]
	cbz	x8, .LBB41_51
	ldur	x0, [x29, #-160]
	b	.LBB41_50
.LBB41_75:
	ldr	x22, [sp, #176]
	cbz	x21, .LBB41_82
	mov	x24, x21
	mov	x19, xzr
	b	.LBB41_78
.LBB41_77:
	add	x19, x19, #1
	cmp	x19, x24
	b.eq	.LBB41_82
.LBB41_78:
	mov	w8, #40
	madd	x8, x19, x8, x27
	ldrb	w9, [x8]
	cbnz	w9, .LBB41_77
	ldrb	w9, [x8, #8]
	ldr	x20, [x8, #32]
	cmp	w9, #0
	ccmp	x20, #0, #4, ne
	b.eq	.LBB41_77
	ldr	x0, [x8, #16]
.LBB41_81:
	ldr	x21, [x0]
	sub	x20, x20, #1
	bl	rattle_dealloc
	mov	x0, x21
	cbnz	x20, .LBB41_81
	b	.LBB41_77
.LBB41_82:
	ldr	x0, [sp, #48]
	bl	rattle_dealloc
	ldr	x0, [sp, #8]
	bl	rattle_dealloc
	cbz	x28, .LBB41_84
	mov	x0, x26
	bl	rattle_dealloc
.LBB41_84:
	ldr	x0, [sp, #168]
	bl	std_alloc__arc__Arc__drop____7adbd3708cb715cb_
	ldr	x0, [sp, #200]
	cbz	x23, .LBB41_86
.LBB41_85:
	ldr	x19, [x0]
	sub	x23, x23, #1
	bl	rattle_dealloc
	mov	x0, x19
	cbnz	x23, .LBB41_85
.LBB41_86:
	cbnz	x22, .LBB41_61
	b	.LBB41_26
.LBB41_87:
	brk	#0x1
.Lfunc_end41:
	.size	ww_open_world_, .Lfunc_end41-ww_open_world_

	.section	.text.ww_swap_,"ax",@progbits
	.globl	ww_swap_
	.p2align	2
	.type	ww_swap_,@function
ww_swap_:
	sub	sp, sp, #16
	ldr	q0, [x1]
	ldr	q1, [x0]
	str	q0, [x0]
	str	q1, [x1]
	add	sp, sp, #16
	ret
.Lfunc_end42:
	.size	ww_swap_, .Lfunc_end42-ww_swap_

	.section	.rodata.cst8,"aM",@progbits,8
	.p2align	3, 0x0
.LCPI43_0:
	.word	1
	.word	0
	.section	.text.ww_try_,"ax",@progbits
	.globl	ww_try_
	.p2align	2
	.type	ww_try_,@function
ww_try_:
	ldr	w8, [x0, #12]
	cmp	w8, w1
	b.ls	.LBB43_5
	ldr	x9, [x0]
	ldr	x8, [x9]
	ldr	x10, [x8, #8]
	ldr	x8, [x9, #64]
	//APP
	//NO_APP
	add	x10, x10, w1, uxtw #4
	add	x11, x10, #128
.LBB43_2:
	ldaxr	x10, [x11]
	cbnz	x10, .LBB43_17
	stlxr	w10, x8, [x11]
	cbnz	w10, .LBB43_2
	//APP
	//NO_APP
	mov	w0, wzr
	ldr	w8, [x9, #400]
	add	w8, w8, #1
	str	w8, [x9, #400]
	ret
.LBB43_5:
	ldr	w8, [x0, #8]
	cmp	w8, #4
	b.ne	.LBB43_12
	ldr	x9, [x0]
	ldr	w8, [x9, #404]
	cmp	w8, w1
	b.ls	.LBB43_16
	ldrb	w11, [x9, #8]
	ldr	x10, [x9]
	cbz	w11, .LBB43_13
.LBB43_8:
	ldr	x11, [x10, #8]
	ldr	x10, [x9, #64]
	//APP
	//NO_APP
	add	x11, x11, w1, uxtw #4
	add	x12, x11, #128
.LBB43_9:
	ldaxr	x11, [x12]
	cbnz	x11, .LBB43_18
	stlxr	w11, x10, [x12]
	cbnz	w11, .LBB43_9
	//APP
	//NO_APP
	add	x12, x9, #412
	ldr	w11, [x9, #400]
	str	xzr, [x12]
	add	w11, w11, #1
	str	w11, [x9, #400]
	mov	w9, #3
	stp	w9, w8, [x0, #8]
	mov	w0, wzr
	ret
.LBB43_12:
	b	ww_c__exports__try_alone
.LBB43_13:
	ldr	x11, [x9, #40]
	cbz	x11, .LBB43_8
	ldr	x11, [x9, #32]
	ldr	x12, [x10, #8]
	//APP
	//NO_APP
	add	x11, x12, x11, lsl #3
	ldar	x11, [x11]
	//APP
	//NO_APP
	cbz	x11, .LBB43_8
	ldr	x11, [x9, #32]
	ldr	x12, [x10, #8]
	//APP
	//NO_APP
	add	x11, x12, x11, lsl #3
	stlr	xzr, [x11]
	//APP
	//NO_APP
	b	.LBB43_8
.LBB43_16:
	b	ww_c__exports__try_anyhow
.LBB43_17:
	and	x9, x10, #0x7
	lsr	x10, x10, #2
	clrex
	sub	x11, x9, #2
	cmp	x9, #5
	and	x9, x8, #0x7
	and	x11, x11, #0xfffffffffffffffd
	lsr	x8, x8, #2
	//APP
	//NO_APP
	ccmp	x11, #0, #4, ls
	orr	x11, x10, #0x1
	and	x10, x10, #0x3ffffffffffffffe
	csel	x10, x11, x10, eq
	sub	x11, x9, #2
	cmp	x9, #5
	and	x11, x11, #0xfffffffffffffffd
	orr	x9, x8, #0x1
	and	x8, x8, #0x3ffffffffffffffe
	ccmp	x11, #0, #4, ls
	adrp	x11, .LCPI43_0
	csel	x8, x9, x8, eq
	ldr	d0, [x11, :lo12:.LCPI43_0]
	mov	w9, #-114
	cmp	x10, x8
	mov	w8, #-16
	str	d0, [x0, #8]
	csel	w0, w9, w8, eq
	ret
.LBB43_18:
	and	x8, x11, #0x7
	lsr	x9, x11, #2
	clrex
	sub	x11, x8, #2
	cmp	x8, #5
	and	x8, x10, #0x7
	and	x11, x11, #0xfffffffffffffffd
	lsr	x10, x10, #2
	//APP
	//NO_APP
	ccmp	x11, #0, #4, ls
	orr	x11, x9, #0x1
	and	x9, x9, #0x3ffffffffffffffe
	csel	x9, x11, x9, eq
	sub	x11, x8, #2
	cmp	x8, #5
	and	x11, x11, #0xfffffffffffffffd
	orr	x8, x10, #0x1
	and	x10, x10, #0x3ffffffffffffffe
	ccmp	x11, #0, #4, ls
	csel	x8, x8, x10, eq
	mov	w10, #1
	cmp	x9, x8
	mov	w8, #-16
	mov	w9, #-114
	str	w10, [x0, #8]
	csel	w0, w9, w8, eq
	ret
.Lfunc_end43:
	.size	ww_try_, .Lfunc_end43-ww_try_

	.section	.rodata.cst8,"aM",@progbits,8
	.p2align	3, 0x0
.LCPI44_0:
	.word	1
	.word	0
.LCPI44_1:
	.word	4
	.word	0
	.section	.text.ww_unlock_,"ax",@progbits
	.globl	ww_unlock_
	.p2align	2
	.type	ww_unlock_,@function
ww_unlock_:
	ldr	w8, [x0, #12]
	cmp	w8, w1
	b.ls	.LBB44_6
	ldr	x8, [x0]
	ldr	x9, [x8]
	ldr	x10, [x9, #8]
	ldr	x9, [x8, #64]
	//APP
	//NO_APP
	add	x10, x10, w1, uxtw #4
	add	x11, x10, #128
.LBB44_2:
	ldaxr	x10, [x11]
	cmp	x10, x9
	b.ne	.LBB44_8
	stlxr	w10, xzr, [x11]
	cbnz	w10, .LBB44_2
	//APP
	//NO_APP
	ldr	w9, [x8, #400]
	subs	w9, w9, #1
	str	w9, [x8, #400]
	b.eq	.LBB44_7
	mov	w0, wzr
	ret
.LBB44_6:
	b	ww_c__exports__unlock_alone
.LBB44_7:
	adrp	x9, .LCPI44_1
	ldr	d0, [x9, :lo12:.LCPI44_1]
	str	d0, [x0, #8]
	mov	w0, wzr
	ret
.LBB44_8:
	and	x11, x10, #0x7
	lsr	x10, x10, #2
	clrex
	sub	x12, x11, #2
	cmp	x11, #5
	and	x11, x9, #0x7
	and	x12, x12, #0xfffffffffffffffd
	lsr	x9, x9, #2
	//APP
	//NO_APP
	ccmp	x12, #0, #4, ls
	orr	x12, x10, #0x1
	and	x10, x10, #0x3ffffffffffffffe
	csel	x10, x12, x10, eq
	sub	x12, x11, #2
	cmp	x11, #5
	and	x12, x12, #0xfffffffffffffffd
	orr	x11, x9, #0x1
	and	x9, x9, #0x3ffffffffffffffe
	ccmp	x12, #0, #4, ls
	csel	x9, x11, x9, eq
	cmp	x10, x9
	b.ne	.LBB44_10
	adrp	x10, .LCPI44_0
	mov	w9, #3
	str	w1, [x8, #424]
	ldr	d0, [x10, :lo12:.LCPI44_0]
	str	w9, [x8, #420]
	strh	wzr, [x8, #428]
	str	d0, [x0, #8]
	mov	w0, #1
	ret
.LBB44_10:
	adrp	x8, .LCPI44_0
	ldr	d0, [x8, :lo12:.LCPI44_0]
	str	d0, [x0, #8]
	mov	w0, #-22
	ret
.Lfunc_end44:
	.size	ww_unlock_, .Lfunc_end44-ww_unlock_

	.section	.rodata.cst8,"aM",@progbits,8
	.p2align	3, 0x0
.LCPI45_0:
	.word	4
	.word	0
	.section	.text.ww_unlock_each_,"ax",@progbits
	.globl	ww_unlock_each_
	.p2align	2
	.type	ww_unlock_each_,@function
ww_unlock_each_:
	cmp	x2, #9
	b.hi	.LBB45_9
	ldr	w8, [x0, #12]
	cbz	w8, .LBB45_9
	ldr	x8, [x0]
	cbz	x2, .LBB45_8
.LBB45_3:
	sub	x9, x2, #1
	ldr	w10, [x8, #404]
	ldr	w11, [x1, x9, lsl #2]
	cmp	w11, w10
	b.hs	.LBB45_8
	ldr	x10, [x8]
	ldr	x12, [x10, #8]
	ldr	x10, [x8, #64]
	//APP
	//NO_APP
	add	x11, x12, x11, lsl #4
	add	x11, x11, #128
.LBB45_5:
	ldaxr	x12, [x11]
	cmp	x12, x10
	b.ne	.LBB45_10
	stlxr	w12, xzr, [x11]
	cbnz	w12, .LBB45_5
	//APP
	//NO_APP
	mov	x2, x9
	ldr	w10, [x8, #400]
	sub	w10, w10, #1
	str	w10, [x8, #400]
	cbnz	x9, .LBB45_3
.LBB45_8:
	ldr	w8, [x8, #400]
	cbz	w8, .LBB45_11
.LBB45_9:
	mov	x0, x2
	ret
.LBB45_10:
	clrex
	//APP
	//NO_APP
	ldr	w8, [x8, #400]
	cbnz	w8, .LBB45_9
.LBB45_11:
	adrp	x8, .LCPI45_0
	ldr	d0, [x8, :lo12:.LCPI45_0]
	str	d0, [x0, #8]
	mov	x0, x2
	ret
.Lfunc_end45:
	.size	ww_unlock_each_, .Lfunc_end45-ww_unlock_each_

	.type	.Lswitch.table.ww_c__exports__try_anyhow,@object
	.section	.rodata..Lswitch.table.ww_c__exports__try_anyhow,"a",@progbits
	.p2align	2, 0x0
.Lswitch.table.ww_c__exports__try_anyhow:
	.word	4294967280
	.word	4294967182
	.word	4294967274
	.size	.Lswitch.table.ww_c__exports__try_anyhow, 12

	.type	.Lswitch.table.ww_go_on_,@object
	.section	.rodata..Lswitch.table.ww_go_on_,"a",@progbits
	.p2align	2, 0x0
.Lswitch.table.ww_go_on_:
	.word	0
	.word	1
	.word	5
	.word	3
	.word	4294967280
	.word	4294967274
	.word	4294967182
	.word	4294967268
	.word	4294967261
	.word	4294967292
	.size	.Lswitch.table.ww_go_on_, 40

	.section	".note.GNU-stack","",@progbits
