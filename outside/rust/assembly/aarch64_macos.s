// SPDX-License-Identifier: BSL-1.0
// Kundratu's pool of places: the code that the checker proved and built of crates/fixed_pool_c.
// Checker: rattle-kit-13f logic dac8208d650f15bf
// It said: logic=proved functions=72 axioms=3 target=aarch64-unknown-linux-gnu sum=dac8208d650f15bf
// outside/assembly/write writes this file, and outside/run compares it with what is proved anew.

// fixed_pool_c::open_cache::OpenCache::flush
	.section __TEXT,__text,regular,pure_instructions
	.p2align 2
_kdr_0_1_0_flush:
	.cfi_startproc
	b	L0_1_0_flush_5
L0_1_0_flush_1:
	ldar	x10, [x9]
	cmp	x8, x10
	b.hs	L0_1_0_flush_4
L0_1_0_flush_2:
	ldaxr	x11, [x9]
	cmp	x11, x10
	b.ne	L0_1_0_flush_3
	stlxr	w11, x8, [x9]
	cbz	w11, L0_1_0_flush_4
	b	L0_1_0_flush_2
L0_1_0_flush_3:
	clrex
	b	L0_1_0_flush_1
L0_1_0_flush_4:
	ldr	x8, [x0, #32]
	ldr	x9, [x8, #8]
	ldar	xzr, [x9]
	ldr	x8, [x8, #8]
	ldar	xzr, [x8]
L0_1_0_flush_5:
	ldr	x8, [x0, #48]
	cbz	x8, L0_1_0_flush_8
	ldp	x9, x10, [x0, #32]
	sub	x8, x8, #1
	str	x8, [x0, #48]
	mov	w11, #1
	ldr	x10, [x10, x8, lsl #3]
	ldr	x8, [x9, #16]
	ldrb	w12, [x8, x10]
	strb	w11, [x8, x10]
	cbnz	w12, L0_1_0_flush_9
	ldr	x12, [x9, #8]
	lsr	x8, x10, #5
	lsl	w10, w11, w10
	add	x11, x12, x8, lsl #3
	orr	x12, x10, #0x100000000
L0_1_0_flush_6:
	ldaxr	x10, [x11]
	add	x13, x10, x12
	stlxr	w14, x13, [x11]
	cbnz	w14, L0_1_0_flush_6
	cbnz	w10, L0_1_0_flush_4
	add	x10, x9, #96
	ldar	x11, [x10]
	cmp	x11, x8
	b.eq	L0_1_0_flush_7
	stlr	x8, [x10]
L0_1_0_flush_7:
	add	x9, x9, #104
	ldar	x10, [x9]
	cmp	x8, x10
	b.lo	L0_1_0_flush_1
	b	L0_1_0_flush_4
L0_1_0_flush_8:
	ret
L0_1_0_flush_9:
	brk	#0x1
	.cfi_endproc

// fixed_pool_c::caches::pull_further
	.section __TEXT,__text,regular,pure_instructions
	.p2align 2
_kdr_0_1_0_pull_further:
	.cfi_startproc
	sub	sp, sp, #96
	.cfi_def_cfa_offset 96
	ldr	x8, [x1, #32]
	stp	x22, x21, [sp, #64]
	.cfi_offset x21, -24
	.cfi_offset x22, -32
	mov	x21, x2
	ldr	x22, [x1]
	stp	x20, x19, [sp, #80]
	.cfi_offset x19, -8
	.cfi_offset x20, -16
	mov	x19, x1
	ldr	x9, [x8, #80]
	mov	x20, x0
	stp	x29, x30, [sp, #32]
	.cfi_offset x30, -56
	.cfi_offset x29, -64
	mov	x2, x22
	str	x23, [sp, #48]
	.cfi_offset x23, -48
	add	x29, sp, #32
	cmp	x22, x9
	b.lo	L0_1_0_pull_further_1
	cbz	x9, L0_1_0_pull_further_13
	udiv	x10, x22, x9
	msub	x2, x10, x9, x22
L0_1_0_pull_further_1:
	ldur	x10, [x8, #8]
	lsl	x9, x2, #3
	add	x10, x10, x9
	ldar	x10, [x10]
	stp	xzr, xzr, [sp, #8]
	str	xzr, [sp, #24]
	b	L0_1_0_pull_further_6
L0_1_0_pull_further_2:
	ldar	x15, [x14]
	and	x16, x15, x13
L0_1_0_pull_further_3:
	ldaxr	x17, [x14]
	cmp	x17, x15
	b.ne	L0_1_0_pull_further_4
	stlxr	w17, x16, [x14]
	cbz	w17, L0_1_0_pull_further_5
	b	L0_1_0_pull_further_3
L0_1_0_pull_further_4:
	clrex
	b	L0_1_0_pull_further_2
L0_1_0_pull_further_5:
	sub	w13, w10, #1
	tst	x15, x12
	and	w10, w13, w10
	b.ne	L0_1_0_pull_further_9
L0_1_0_pull_further_6:
	cbz	w10, L0_1_0_pull_further_7
	rbit	w11, w10
	mov	w12, #1
	ldur	x14, [x8, #8]
	clz	w11, w11
	add	x14, x14, x9
	lsl	x12, x12, x11
	mvn	x13, x12
	b	L0_1_0_pull_further_2
L0_1_0_pull_further_7:
	add	x0, sp, #8
	add	x1, x8, #8
	bl	_kdr_0_1_0_take_further
	ldrb	w8, [sp, #8]
	cmp	w8, #1
	b.ne	L0_1_0_pull_further_12
	ldr	x23, [sp, #16]
	ldr	x8, [x19, #32]
	lsr	x9, x23, #5
	ldr	x2, [x8, #72]
	cmp	x22, x9
	str	x9, [x19]
	b.eq	L0_1_0_pull_further_10
L0_1_0_pull_further_8:
	mov	x0, x19
	mov	x1, x22
	bl	_kdr_0_1_0_go_apart
	b	L0_1_0_pull_further_10
L0_1_0_pull_further_9:
	lsl	x9, x2, #5
	ldr	x8, [x8, #16]
	add	x8, x8, x9
	ldrb	w10, [x8, x11]
	strb	wzr, [x8, x11]
	cmp	w10, #1
	b.ne	L0_1_0_pull_further_13
	orr	x23, x9, x11
	ldr	x8, [x19, #32]
	lsr	x9, x23, #5
	ldr	x2, [x8, #72]
	cmp	x22, x9
	str	x9, [x19]
	b.ne	L0_1_0_pull_further_8
L0_1_0_pull_further_10:
	ldr	x8, [x19, #24]
	add	x9, x23, #1
	mov	w0, wzr
	stp	x9, x8, [x21]
	ldr	x8, [x20]
	str	x19, [x20]
	cbnz	x8, L0_1_0_pull_further_13
L0_1_0_pull_further_11:
	ldp	x20, x19, [sp, #80]
	.cfi_restore x20
	.cfi_restore x19
	ldr	x23, [sp, #48]
	.cfi_restore x23
	ldp	x22, x21, [sp, #64]
	.cfi_restore x22
	.cfi_restore x21
	ldp	x29, x30, [sp, #32]
	.cfi_restore x29
	.cfi_restore x30
	add	sp, sp, #96
	.cfi_def_cfa_offset 0
	ret
	.cfi_def_cfa_offset 96
	.cfi_offset x19, -8
	.cfi_offset x20, -16
	.cfi_offset x21, -24
	.cfi_offset x22, -32
	.cfi_offset x23, -48
	.cfi_offset x30, -56
	.cfi_offset x29, -64
L0_1_0_pull_further_12:
	mov	w0, #1
	stp	xzr, xzr, [x21]
	ldr	x8, [x20]
	str	x19, [x20]
	cbz	x8, L0_1_0_pull_further_11
L0_1_0_pull_further_13:
	brk	#0x1
	.cfi_endproc

// fixed_pools::fixed_object_pool::items::FixedItems::take_further
	.section __TEXT,__text,regular,pure_instructions
	.p2align 2
_kdr_0_1_0_take_further:
	.cfi_startproc
	stp	x21, x22, [sp, #-32]!
	.cfi_def_cfa_offset 32
	.cfi_offset x22, -24
	.cfi_offset x21, -32
	stp	x20, x19, [sp, #16]
	.cfi_offset x19, -8
	.cfi_offset x20, -16
	add	x8, x1, #88
	ldar	x8, [x8]
	ldr	x9, [x1, #72]
	cmp	x8, x9
	csel	x8, x8, xzr, lo
	cmp	x8, x9
	b.hs	L0_1_0_take_further_9
	mov	w10, wzr
	add	x11, x2, #1
	mov	x12, x8
L0_1_0_take_further_1:
	cmp	x12, x2
	csel	x13, x11, x12, eq
	b.ne	L0_1_0_take_further_2
	cmp	x11, x9
	b.hs	L0_1_0_take_further_10
L0_1_0_take_further_2:
	ldr	x12, [x1]
	lsl	x15, x13, #3
	add	x12, x12, x15
	ldar	x17, [x12]
	lsr	x14, x17, #32
	b	L0_1_0_take_further_7
L0_1_0_take_further_3:
	ldar	x5, [x4]
	and	x12, x5, x3
L0_1_0_take_further_4:
	ldaxr	x6, [x4]
	cmp	x6, x5
	b.ne	L0_1_0_take_further_5
	stlxr	w6, x12, [x4]
	cbz	w6, L0_1_0_take_further_6
	b	L0_1_0_take_further_4
L0_1_0_take_further_5:
	clrex
	b	L0_1_0_take_further_3
L0_1_0_take_further_6:
	sub	w3, w17, #1
	tst	x5, x22
	and	w17, w3, w17
	b.ne	L0_1_0_take_further_48
L0_1_0_take_further_7:
	cbz	w17, L0_1_0_take_further_8
	rbit	w12, w17
	clz	w16, w12
	mov	w12, #1
	lsl	x22, x12, x16
	ldr	x12, [x1]
	mvn	x3, x22
	add	x4, x12, x15
	b	L0_1_0_take_further_3
L0_1_0_take_further_8:
	add	x12, x13, #1
	add	w10, w10, w14
	cmp	x12, x9
	b.lo	L0_1_0_take_further_1
	b	L0_1_0_take_further_10
L0_1_0_take_further_9:
	mov	w10, wzr
L0_1_0_take_further_10:
	mov	w11, wzr
	cbz	x8, L0_1_0_take_further_19
	mov	x12, xzr
	add	x9, x2, #1
L0_1_0_take_further_11:
	cmp	x12, x2
	csel	x13, x9, x12, eq
	b.ne	L0_1_0_take_further_12
	cmp	x9, x8
	b.hs	L0_1_0_take_further_19
L0_1_0_take_further_12:
	ldr	x12, [x1]
	lsl	x15, x13, #3
	add	x12, x12, x15
	ldar	x17, [x12]
	lsr	x14, x17, #32
	b	L0_1_0_take_further_17
L0_1_0_take_further_13:
	ldar	x5, [x4]
	and	x12, x5, x3
L0_1_0_take_further_14:
	ldaxr	x6, [x4]
	cmp	x6, x5
	b.ne	L0_1_0_take_further_15
	stlxr	w6, x12, [x4]
	cbz	w6, L0_1_0_take_further_16
	b	L0_1_0_take_further_14
L0_1_0_take_further_15:
	clrex
	b	L0_1_0_take_further_13
L0_1_0_take_further_16:
	sub	w3, w17, #1
	tst	x5, x22
	and	w17, w3, w17
	b.ne	L0_1_0_take_further_48
L0_1_0_take_further_17:
	cbz	w17, L0_1_0_take_further_18
	rbit	w12, w17
	clz	w16, w12
	mov	w12, #1
	lsl	x22, x12, x16
	ldr	x12, [x1]
	mvn	x3, x22
	add	x4, x12, x15
	b	L0_1_0_take_further_13
L0_1_0_take_further_18:
	add	x12, x13, #1
	add	w11, w11, w14
	cmp	x12, x8
	b.lo	L0_1_0_take_further_11
L0_1_0_take_further_19:
	mov	x8, xzr
	lsl	x9, x2, #3
	add	w11, w11, w10
	add	x10, x2, #1
L0_1_0_take_further_20:
	ldr	x12, [x1]
	add	x12, x12, x9
	ldar	x12, [x12]
	mov	w14, w12
	b	L0_1_0_take_further_25
L0_1_0_take_further_21:
	ldar	x3, [x22]
	and	x15, x3, x17
L0_1_0_take_further_22:
	ldaxr	x4, [x22]
	cmp	x4, x3
	b.ne	L0_1_0_take_further_23
	stlxr	w4, x15, [x22]
	cbz	w4, L0_1_0_take_further_24
	b	L0_1_0_take_further_22
L0_1_0_take_further_23:
	clrex
	b	L0_1_0_take_further_21
L0_1_0_take_further_24:
	sub	w17, w14, #1
	tst	x3, x16
	and	w14, w17, w14
	b.ne	L0_1_0_take_further_50
L0_1_0_take_further_25:
	cbz	w14, L0_1_0_take_further_26
	rbit	w13, w14
	mov	w15, #1
	clz	w13, w13
	lsl	x16, x15, x13
	ldr	x15, [x1]
	mvn	x17, x16
	add	x22, x15, x9
	b	L0_1_0_take_further_21
L0_1_0_take_further_26:
	add	x13, x1, #88
	ldar	x13, [x13]
	ldr	x16, [x1, #72]
	cmp	x13, x16
	csel	x14, x13, xzr, lo
	cmp	x14, x16
	b.hs	L0_1_0_take_further_35
	mov	w13, wzr
	mov	x15, x14
L0_1_0_take_further_27:
	cmp	x15, x2
	csel	x17, x10, x15, eq
	b.ne	L0_1_0_take_further_28
	cmp	x10, x16
	b.hs	L0_1_0_take_further_36
L0_1_0_take_further_28:
	ldr	x15, [x1]
	lsl	x3, x17, #3
	add	x15, x15, x3
	ldar	x5, [x15]
	lsr	x22, x5, #32
	b	L0_1_0_take_further_33
L0_1_0_take_further_29:
	ldar	x20, [x19]
	and	x15, x20, x7
L0_1_0_take_further_30:
	ldaxr	x21, [x19]
	cmp	x21, x20
	b.ne	L0_1_0_take_further_31
	stlxr	w21, x15, [x19]
	cbz	w21, L0_1_0_take_further_32
	b	L0_1_0_take_further_30
L0_1_0_take_further_31:
	clrex
	b	L0_1_0_take_further_29
L0_1_0_take_further_32:
	sub	w7, w5, #1
	tst	x20, x6
	and	w5, w7, w5
	b.ne	L0_1_0_take_further_51
L0_1_0_take_further_33:
	cbz	w5, L0_1_0_take_further_34
	rbit	w15, w5
	clz	w4, w15
	mov	w15, #1
	lsl	x6, x15, x4
	ldr	x15, [x1]
	mvn	x7, x6
	add	x19, x15, x3
	b	L0_1_0_take_further_29
L0_1_0_take_further_34:
	add	x15, x17, #1
	add	w13, w13, w22
	cmp	x15, x16
	b.lo	L0_1_0_take_further_27
	b	L0_1_0_take_further_36
L0_1_0_take_further_35:
	mov	w13, wzr
L0_1_0_take_further_36:
	mov	w16, wzr
	cbz	x14, L0_1_0_take_further_45
	mov	x15, xzr
L0_1_0_take_further_37:
	cmp	x15, x2
	csel	x17, x10, x15, eq
	b.ne	L0_1_0_take_further_38
	cmp	x10, x14
	b.hs	L0_1_0_take_further_45
L0_1_0_take_further_38:
	ldr	x15, [x1]
	lsl	x3, x17, #3
	add	x15, x15, x3
	ldar	x5, [x15]
	lsr	x22, x5, #32
	b	L0_1_0_take_further_43
L0_1_0_take_further_39:
	ldar	x20, [x19]
	and	x15, x20, x7
L0_1_0_take_further_40:
	ldaxr	x21, [x19]
	cmp	x21, x20
	b.ne	L0_1_0_take_further_41
	stlxr	w21, x15, [x19]
	cbz	w21, L0_1_0_take_further_42
	b	L0_1_0_take_further_40
L0_1_0_take_further_41:
	clrex
	b	L0_1_0_take_further_39
L0_1_0_take_further_42:
	sub	w7, w5, #1
	tst	x20, x6
	and	w5, w7, w5
	b.ne	L0_1_0_take_further_51
L0_1_0_take_further_43:
	cbz	w5, L0_1_0_take_further_44
	rbit	w15, w5
	clz	w4, w15
	mov	w15, #1
	lsl	x6, x15, x4
	ldr	x15, [x1]
	mvn	x7, x6
	add	x19, x15, x3
	b	L0_1_0_take_further_39
L0_1_0_take_further_44:
	add	x15, x17, #1
	add	w16, w16, w22
	cmp	x15, x14
	b.lo	L0_1_0_take_further_37
L0_1_0_take_further_45:
	add	w13, w16, w13
	cbnz	w12, L0_1_0_take_further_46
	cmp	w13, w11
	b.eq	L0_1_0_take_further_47
L0_1_0_take_further_46:
	add	x8, x8, #1
	mov	w11, w13
	cmn	x8, #1
	b.ne	L0_1_0_take_further_20
L0_1_0_take_further_47:
	stp	xzr, xzr, [x0]
	str	xzr, [x0, #16]
	ldp	x20, x19, [sp, #16]
	.cfi_restore x20
	.cfi_restore x19
	ldp	x21, x22, [sp], #32
	.cfi_def_cfa_offset 0
	.cfi_restore x21
	.cfi_restore x22
	ret
	.cfi_def_cfa_offset 32
	.cfi_offset x19, -8
	.cfi_offset x20, -16
	.cfi_offset x22, -24
	.cfi_offset x21, -32
L0_1_0_take_further_48:
	lsl	x8, x13, #5
	ldr	x9, [x1, #8]
	add	x9, x9, x8
	ldrb	w10, [x9, x16]
	strb	wzr, [x9, x16]
	cmp	w10, #1
	b.ne	L0_1_0_take_further_53
	orr	x8, x8, x16
	add	x10, x1, #88
	lsr	x11, x8, #5
	ldar	x9, [x10]
	cmp	x9, x11
	mov	w9, w12
	b.eq	L0_1_0_take_further_49
	stlr	x11, [x10]
L0_1_0_take_further_49:
	mov	w10, #1
	str	x10, [x0]
	stp	x8, x9, [x0, #8]
	ldp	x20, x19, [sp, #16]
	.cfi_restore x20
	.cfi_restore x19
	ldp	x21, x22, [sp], #32
	.cfi_def_cfa_offset 0
	.cfi_restore x21
	.cfi_restore x22
	ret
	.cfi_def_cfa_offset 32
	.cfi_offset x19, -8
	.cfi_offset x20, -16
	.cfi_offset x22, -24
	.cfi_offset x21, -32
L0_1_0_take_further_50:
	lsl	x8, x2, #5
	ldr	x9, [x1, #8]
	add	x9, x9, x8
	ldrb	w10, [x9, x13]
	strb	wzr, [x9, x13]
	cmp	w10, #1
	b.ne	L0_1_0_take_further_53
	orr	x8, x8, x13
	b	L0_1_0_take_further_52
L0_1_0_take_further_51:
	lsl	x8, x17, #5
	ldr	x9, [x1, #8]
	add	x9, x9, x8
	ldrb	w10, [x9, x4]
	strb	wzr, [x9, x4]
	cmp	w10, #1
	b.ne	L0_1_0_take_further_53
	orr	x8, x8, x4
	add	x9, x1, #88
	lsr	x10, x8, #5
	ldar	x11, [x9]
	cmp	x11, x10
	b.eq	L0_1_0_take_further_52
	stlr	x10, [x9]
L0_1_0_take_further_52:
	mov	w9, #1
	str	x9, [x0]
	mov	w9, w15
	stp	x8, x9, [x0, #8]
	ldp	x20, x19, [sp, #16]
	.cfi_restore x20
	.cfi_restore x19
	ldp	x21, x22, [sp], #32
	.cfi_def_cfa_offset 0
	.cfi_restore x21
	.cfi_restore x22
	ret
	.cfi_def_cfa_offset 32
	.cfi_offset x19, -8
	.cfi_offset x20, -16
	.cfi_offset x22, -24
	.cfi_offset x21, -32
L0_1_0_take_further_53:
	brk	#0x1
	.cfi_endproc

// fixed_pool_c::way::Way::go_apart
	.section __TEXT,__text,regular,pure_instructions
	.p2align 2
_kdr_0_1_0_go_apart:
	.cfi_startproc
	lsr	x8, x2, #5
	tst	x2, #0x1f
	cinc	x8, x8, ne
	cbz	x2, L0_1_0_go_apart_1
	udiv	x9, x1, x8
	msub	x10, x9, x8, x1
	ldr	x9, [x0]
	cmp	x10, x9
	b.ne	L0_1_0_go_apart_2
	ret
L0_1_0_go_apart_1:
	ldr	x9, [x0]
L0_1_0_go_apart_2:
	ldr	x10, [x0, #16]
	mov	x11, #-6148914691236517206
	movk	x11, #43691
	umulh	x11, x10, x11
	lsr	x11, x11, #1
	add	x11, x11, x11, lsl #1
	sub	x11, x10, x11
	cmp	x11, #1
	b.eq	L0_1_0_go_apart_5
	cbnz	x11, L0_1_0_go_apart_3
	ldr	x11, [x0, #8]
	add	x9, x11, x9
L0_1_0_go_apart_3:
	cbz	x2, L0_1_0_go_apart_6
L0_1_0_go_apart_4:
	udiv	x11, x9, x8
	msub	x8, x11, x8, x9
	str	x8, [x0]
	add	x8, x10, #1
	str	x8, [x0, #16]
	ret
L0_1_0_go_apart_5:
	ldr	x11, [x0, #8]
	sub	x9, x9, x11
	cbnz	x2, L0_1_0_go_apart_4
L0_1_0_go_apart_6:
	str	xzr, [x0]
	add	x8, x10, #1
	str	x8, [x0, #16]
	ret
	.cfi_endproc

// std_alloc::vec::Vec::grow_amortized
	.section __TEXT,__text,regular,pure_instructions
	.p2align 2
_kdr_0_1_0_grow_amortized:
	.cfi_startproc
	ldr	x1, [x0, #8]
	cmn	x1, #1
	b.eq	L0_1_0_grow_amortized_2
	stp	x29, x30, [sp, #-32]!
	.cfi_def_cfa_offset 32
	.cfi_offset x30, -24
	.cfi_offset x29, -32
	ldr	x9, [x0, #16]
	cmp	x1, #7
	mov	w8, #7
	csel	x10, x1, x8, hi
	stp	x20, x19, [sp, #16]
	.cfi_offset x19, -8
	.cfi_offset x20, -16
	mov	x29, sp
	lsl	x8, x9, #1
	add	x11, x10, #1
	lsr	x12, x9, #62
	cmp	x11, x8
	csinc	x8, x8, x10, ls
	cmp	x12, #0
	csinc	x19, x8, x10, eq
	tbnz	x19, #63, L0_1_0_grow_amortized_4
	cbz	x9, L0_1_0_grow_amortized_3
	mov	x20, x0
	ldr	x0, [x0]
	mov	x2, x19
	mov	w3, #1
	bl	_kdr_0_1_0_realloc
	tbz	w0, #0, L0_1_0_grow_amortized_4
L0_1_0_grow_amortized_1:
	mov	w0, #1
	str	x1, [x20]
	str	x19, [x20, #16]
	ldp	x20, x19, [sp, #16]
	.cfi_restore x20
	.cfi_restore x19
	ldp	x29, x30, [sp], #32
	.cfi_def_cfa_offset 0
	.cfi_restore x29
	.cfi_restore x30
	ret
L0_1_0_grow_amortized_2:
	mov	w0, wzr
	ret
	.cfi_def_cfa_offset 32
	.cfi_offset x19, -8
	.cfi_offset x20, -16
	.cfi_offset x30, -24
	.cfi_offset x29, -32
L0_1_0_grow_amortized_3:
	mov	x20, x0
	mov	x0, x8
	mov	w1, #1
	bl	_kdr_0_1_0_alloc
	tbnz	w0, #0, L0_1_0_grow_amortized_1
L0_1_0_grow_amortized_4:
	mov	w0, wzr
	ldp	x20, x19, [sp, #16]
	.cfi_restore x20
	.cfi_restore x19
	ldp	x29, x30, [sp], #32
	.cfi_def_cfa_offset 0
	.cfi_restore x29
	.cfi_restore x30
	ret
	.cfi_endproc

// constants
	.section __TEXT,__const
	.p2align 4
L0_1_0_constant_16_0:
	.byte 0x01, 0x00, 0x00, 0x00, 0x00, 0x00, 0x00, 0x00, 0x00, 0x00, 0x00, 0x00, 0x00, 0x00, 0x00, 0x00
L0_1_0_constant_16_1:
	.byte 0x01, 0x00, 0x00, 0x00, 0x00, 0x00, 0x00, 0x00, 0x00, 0x00, 0x00, 0x00, 0x00, 0x00, 0x00, 0x00
L0_1_0_constant_16_2:
	.byte 0x01, 0x00, 0x00, 0x00, 0x00, 0x00, 0x00, 0x00, 0x00, 0x00, 0x00, 0x00, 0x00, 0x00, 0x00, 0x00
L0_1_0_constant_16_3:
	.byte 0x01, 0x00, 0x00, 0x00, 0x00, 0x00, 0x00, 0x00, 0x00, 0x00, 0x00, 0x00, 0x00, 0x00, 0x00, 0x00
L0_1_0_constant_16_4:
	.byte 0x01, 0x00, 0x00, 0x00, 0x00, 0x00, 0x00, 0x00, 0x00, 0x00, 0x00, 0x00, 0x00, 0x00, 0x00, 0x00

// fixed_pool_c::open_handle::OpenHandle::open
	.section __TEXT,__text,regular,pure_instructions
	.p2align 2
_kdr_0_1_0_open:
	.cfi_startproc
	stp	x29, x30, [sp, #-64]!
	.cfi_def_cfa_offset 64
	.cfi_offset x30, -56
	.cfi_offset x29, -64
	str	x23, [sp, #16]
	.cfi_offset x23, -48
	add	x8, x2, #8
	mov	x29, sp
	stp	x22, x21, [sp, #32]
	.cfi_offset x21, -24
	.cfi_offset x22, -32
	mov	x21, x1
	stp	x20, x19, [sp, #48]
	.cfi_offset x19, -8
	.cfi_offset x20, -16
	mov	x20, x2
	mov	x19, x0
L0_1_0_open_1:
	ldaxr	x22, [x8]
	add	x9, x22, #1
	stlxr	w10, x9, [x8]
	cbnz	w10, L0_1_0_open_1
	mov	w0, #72
	mov	w1, #8
	ldr	x8, [x19, #8]
	ldr	x23, [x19, #72]
	ldar	xzr, [x8]
	bl	_kdr_0_1_0_alloc
	tbz	w0, #0, L0_1_0_open_2
	lsr	x8, x23, #5
	tst	x23, #0x1f
	mov	x9, #-1085102592571150096
	movk	x9, #61681
	adrp	x10, L0_1_0_constant_16_0@PAGE
	stp	xzr, x21, [x1, #16]
	cinc	x8, x8, ne
	ldr	q0, [x10, L0_1_0_constant_16_0@PAGEOFF]
	str	x20, [x1, #32]
	mul	x8, x8, x9
	mov	x9, #1085102592571150095
	stp	x19, xzr, [x1, #56]
	stur	q0, [x1, #40]
	mov	w0, #1
	cmp	x8, x9
	mov	w8, #17
	csinc	x8, x8, xzr, hi
	mul	x9, x8, x22
	add	x8, x9, x8
	stp	x9, x8, [x1]
	ldp	x20, x19, [sp, #48]
	.cfi_restore x20
	.cfi_restore x19
	ldr	x23, [sp, #16]
	.cfi_restore x23
	ldp	x22, x21, [sp, #32]
	.cfi_restore x22
	.cfi_restore x21
	ldp	x29, x30, [sp], #64
	.cfi_def_cfa_offset 0
	.cfi_restore x29
	.cfi_restore x30
	ret
	.cfi_def_cfa_offset 64
	.cfi_offset x19, -8
	.cfi_offset x20, -16
	.cfi_offset x21, -24
	.cfi_offset x22, -32
	.cfi_offset x23, -48
	.cfi_offset x30, -56
	.cfi_offset x29, -64
L0_1_0_open_2:
	ldaxr	x8, [x20]
	subs	x8, x8, #1
	stlxr	w9, x8, [x20]
	cbnz	w9, L0_1_0_open_2
	b.ne	L0_1_0_open_3
	mov	x0, x20
	bl	_kdr_0_1_0_dealloc
L0_1_0_open_3:
	ldaxr	x8, [x19]
	sub	x9, x8, #1
	stlxr	w10, x9, [x19]
	cbnz	w10, L0_1_0_open_3
	cmp	x8, #1
	b.ne	L0_1_0_open_4
	ldr	x20, [x19, #40]
	ldr	x21, [x19, #56]
	mov	x0, x19
	bl	_kdr_0_1_0_dealloc
	mov	x0, x20
	bl	_kdr_0_1_0_dealloc
	mov	x0, x21
	bl	_kdr_0_1_0_dealloc
L0_1_0_open_4:
	mov	x1, xzr
	mov	w0, wzr
	ldp	x20, x19, [sp, #48]
	.cfi_restore x20
	.cfi_restore x19
	ldr	x23, [sp, #16]
	.cfi_restore x23
	ldp	x22, x21, [sp, #32]
	.cfi_restore x22
	.cfi_restore x21
	ldp	x29, x30, [sp], #64
	.cfi_def_cfa_offset 0
	.cfi_restore x29
	.cfi_restore x30
	ret
	.cfi_endproc

// fixed_pool_c::caches::give_back
	.section __TEXT,__text,regular,pure_instructions
	.p2align 2
_kdr_0_1_0_give_back:
	.cfi_startproc
	ldr	x9, [x1, #32]
	mov	w10, #1
	ldr	x8, [x9, #16]
	ldrb	w11, [x8, x2]
	strb	w10, [x8, x2]
	cbnz	w11, L0_1_0_give_back_6
	ldr	x11, [x9, #8]
	lsr	x8, x2, #5
	lsl	w10, w10, w2
	add	x11, x11, x8, lsl #3
	orr	x12, x10, #0x100000000
L0_1_0_give_back_1:
	ldaxr	x10, [x11]
	add	x13, x10, x12
	stlxr	w14, x13, [x11]
	cbnz	w14, L0_1_0_give_back_1
	cbnz	w10, L0_1_0_give_back_5
	add	x10, x9, #96
	ldar	x11, [x10]
	cmp	x11, x8
	b.eq	L0_1_0_give_back_2
	stlr	x8, [x10]
L0_1_0_give_back_2:
	add	x9, x9, #104
	ldar	x10, [x9]
	cmp	x8, x10
	b.hs	L0_1_0_give_back_5
	ldar	x10, [x9]
	cmp	x8, x10
	b.hs	L0_1_0_give_back_5
L0_1_0_give_back_3:
	ldaxr	x11, [x9]
	cmp	x11, x10
	b.ne	L0_1_0_give_back_4
	stlxr	w11, x8, [x9]
	cbz	w11, L0_1_0_give_back_5
	b	L0_1_0_give_back_3
L0_1_0_give_back_4:
	clrex
	ldar	x10, [x9]
	cmp	x8, x10
	b.lo	L0_1_0_give_back_3
	b	L0_1_0_give_back_5
L0_1_0_give_back_5:
	stp	xzr, xzr, [x3]
	ldr	x8, [x0]
	str	x1, [x0]
	cbnz	x8, L0_1_0_give_back_6
	ret
L0_1_0_give_back_6:
	brk	#0x1
	.cfi_endproc

// kdr_cache_drop
	.section __TEXT,__text,regular,pure_instructions
	.p2align 2
	.globl _kdr_0_1_0_cache_drop
	.private_extern _kdr_0_1_0_cache_drop
_kdr_0_1_0_cache_drop:
	.cfi_startproc
	stp	x29, x30, [sp, #-64]!
	.cfi_def_cfa_offset 64
	.cfi_offset x30, -56
	.cfi_offset x29, -64
	stp	x22, x21, [sp, #32]
	.cfi_offset x21, -24
	.cfi_offset x22, -32
	ldr	x22, [x0]
	mov	x29, sp
	str	x23, [sp, #16]
	.cfi_offset x23, -48
	stp	x20, x19, [sp, #48]
	.cfi_offset x19, -8
	.cfi_offset x20, -16
	str	xzr, [x0]
	cbz	x22, L0_1_0_cache_drop_3
	mov	x20, x0
	mov	x0, x22
	bl	_kdr_0_1_0_flush
	ldp	x19, x21, [x22, #32]
	mov	x0, x22
	ldr	x23, [x22, #56]
	bl	_kdr_0_1_0_dealloc
	ldr	x8, [x20]
	str	xzr, [x20]
	cbnz	x8, L0_1_0_cache_drop_4
	cbz	x23, L0_1_0_cache_drop_1
	mov	x0, x21
	bl	_kdr_0_1_0_dealloc
L0_1_0_cache_drop_1:
	ldaxr	x8, [x19]
	sub	x9, x8, #1
	stlxr	w10, x9, [x19]
	cbnz	w10, L0_1_0_cache_drop_1
	cmp	x8, #1
	b.ne	L0_1_0_cache_drop_2
	ldr	x20, [x19, #40]
	ldr	x21, [x19, #56]
	mov	x0, x19
	bl	_kdr_0_1_0_dealloc
	mov	x0, x20
	bl	_kdr_0_1_0_dealloc
	mov	x0, x21
	bl	_kdr_0_1_0_dealloc
L0_1_0_cache_drop_2:
	mov	w0, wzr
	ldp	x20, x19, [sp, #48]
	.cfi_restore x20
	.cfi_restore x19
	ldr	x23, [sp, #16]
	.cfi_restore x23
	ldp	x22, x21, [sp, #32]
	.cfi_restore x22
	.cfi_restore x21
	ldp	x29, x30, [sp], #64
	.cfi_def_cfa_offset 0
	.cfi_restore x29
	.cfi_restore x30
	ret
	.cfi_def_cfa_offset 64
	.cfi_offset x19, -8
	.cfi_offset x20, -16
	.cfi_offset x21, -24
	.cfi_offset x22, -32
	.cfi_offset x23, -48
	.cfi_offset x30, -56
	.cfi_offset x29, -64
L0_1_0_cache_drop_3:
	mov	w0, #4
	ldp	x20, x19, [sp, #48]
	.cfi_restore x20
	.cfi_restore x19
	ldr	x23, [sp, #16]
	.cfi_restore x23
	ldp	x22, x21, [sp, #32]
	.cfi_restore x22
	.cfi_restore x21
	ldp	x29, x30, [sp], #64
	.cfi_def_cfa_offset 0
	.cfi_restore x29
	.cfi_restore x30
	ret
	.cfi_def_cfa_offset 64
	.cfi_offset x19, -8
	.cfi_offset x20, -16
	.cfi_offset x21, -24
	.cfi_offset x22, -32
	.cfi_offset x23, -48
	.cfi_offset x30, -56
	.cfi_offset x29, -64
L0_1_0_cache_drop_4:
	brk	#0x1
	.cfi_endproc

// kdr_cache_flush
	.section __TEXT,__text,regular,pure_instructions
	.p2align 2
	.globl _kdr_0_1_0_cache_flush
	.private_extern _kdr_0_1_0_cache_flush
_kdr_0_1_0_cache_flush:
	.cfi_startproc
	stp	x29, x30, [sp, #-32]!
	.cfi_def_cfa_offset 32
	.cfi_offset x30, -24
	.cfi_offset x29, -32
	stp	x20, x19, [sp, #16]
	.cfi_offset x19, -8
	.cfi_offset x20, -16
	ldr	x20, [x0]
	mov	x29, sp
	str	xzr, [x0]
	cbz	x20, L0_1_0_cache_flush_1
	mov	x19, x0
	mov	x0, x20
	bl	_kdr_0_1_0_flush
	ldr	x8, [x19]
	str	x20, [x19]
	cbnz	x8, L0_1_0_cache_flush_2
	mov	w0, wzr
	ldp	x20, x19, [sp, #16]
	.cfi_restore x20
	.cfi_restore x19
	ldp	x29, x30, [sp], #32
	.cfi_def_cfa_offset 0
	.cfi_restore x29
	.cfi_restore x30
	ret
	.cfi_def_cfa_offset 32
	.cfi_offset x19, -8
	.cfi_offset x20, -16
	.cfi_offset x30, -24
	.cfi_offset x29, -32
L0_1_0_cache_flush_1:
	mov	w0, #4
	ldp	x20, x19, [sp, #16]
	.cfi_restore x20
	.cfi_restore x19
	ldp	x29, x30, [sp], #32
	.cfi_def_cfa_offset 0
	.cfi_restore x29
	.cfi_restore x30
	ret
	.cfi_def_cfa_offset 32
	.cfi_offset x19, -8
	.cfi_offset x20, -16
	.cfi_offset x30, -24
	.cfi_offset x29, -32
L0_1_0_cache_flush_2:
	brk	#0x1
	.cfi_endproc

// kdr_cache_keeps
	.section __TEXT,__text,regular,pure_instructions
	.p2align 2
	.globl _kdr_0_1_0_cache_keeps
	.private_extern _kdr_0_1_0_cache_keeps
_kdr_0_1_0_cache_keeps:
	.cfi_startproc
	ldr	x9, [x0]
	str	xzr, [x0]
	cbz	x9, L0_1_0_cache_keeps_3
	ldr	x8, [x9, #24]
	cmp	x8, x2
	b.ne	L0_1_0_cache_keeps_4
	ldp	x10, x11, [x9, #40]
L0_1_0_cache_keeps_1:
	subs	x11, x11, #1
	cset	w8, hs
	b.lo	L0_1_0_cache_keeps_2
	ldr	x12, [x10], #8
	cmp	x12, x1
	b.ne	L0_1_0_cache_keeps_1
L0_1_0_cache_keeps_2:
	str	x9, [x0]
	mov	w0, w8
	ret
L0_1_0_cache_keeps_3:
	mov	w0, wzr
	ret
L0_1_0_cache_keeps_4:
	mov	w8, wzr
	str	x9, [x0]
	mov	w0, w8
	ret
	.cfi_endproc

// kdr_cache_pull
	.section __TEXT,__text,regular,pure_instructions
	.p2align 2
	.globl _kdr_0_1_0_cache_pull
	.private_extern _kdr_0_1_0_cache_pull
_kdr_0_1_0_cache_pull:
	.cfi_startproc
	mov	x2, x1
	ldr	x1, [x0]
	str	xzr, [x0]
	cbz	x1, L0_1_0_cache_pull_1
	ldr	x8, [x2]
	cbz	x8, L0_1_0_cache_pull_2
	str	x1, [x0]
	mov	w0, #2
	ret
L0_1_0_cache_pull_1:
	mov	w0, #4
	ret
L0_1_0_cache_pull_2:
	ldr	x8, [x1, #48]
	cbz	x8, L0_1_0_cache_pull_3
	sub	x8, x8, #1
	ldr	x9, [x1, #40]
	str	x8, [x1, #48]
	ldr	x8, [x9, x8, lsl #3]
	ldr	x9, [x1, #24]
	add	x8, x8, #1
	stp	x8, x9, [x2]
	ldr	x8, [x0]
	str	x1, [x0]
	cbnz	x8, L0_1_0_cache_pull_4
	mov	w0, wzr
	ret
L0_1_0_cache_pull_3:
	b	_kdr_0_1_0_pull_further
L0_1_0_cache_pull_4:
	brk	#0x1
	.cfi_endproc

// kdr_cache_new
	.section __TEXT,__text,regular,pure_instructions
	.p2align 2
	.globl _kdr_0_1_0_cache_new
	.private_extern _kdr_0_1_0_cache_new
_kdr_0_1_0_cache_new:
	.cfi_startproc
	sub	sp, sp, #112
	.cfi_def_cfa_offset 112
	ldr	x8, [x3]
	stp	x29, x30, [sp, #16]
	.cfi_offset x30, -88
	.cfi_offset x29, -96
	add	x29, sp, #16
	stp	x28, x27, [sp, #32]
	.cfi_offset x27, -72
	.cfi_offset x28, -80
	stp	x26, x25, [sp, #48]
	.cfi_offset x25, -56
	.cfi_offset x26, -64
	stp	x24, x23, [sp, #64]
	.cfi_offset x23, -40
	.cfi_offset x24, -48
	stp	x22, x21, [sp, #80]
	.cfi_offset x21, -24
	.cfi_offset x22, -32
	stp	x20, x19, [sp, #96]
	.cfi_offset x19, -8
	.cfi_offset x20, -16
	str	xzr, [x3]
	cbz	x8, L0_1_0_cache_new_1
	str	x8, [x3]
	mov	w0, #5
	b	L0_1_0_cache_new_17
L0_1_0_cache_new_1:
	ldr	x23, [x0]
	str	xzr, [x0]
	cbz	x23, L0_1_0_cache_new_5
	ldrb	w8, [x23, #40]
	cmp	w8, #1
	b.ne	L0_1_0_cache_new_6
	ldr	x19, [x23, #56]
	mov	x9, #9223372036854775806
	ldar	x8, [x19]
	cmp	x8, x9
	b.hi	L0_1_0_cache_new_9
L0_1_0_cache_new_2:
	add	x9, x8, #1
L0_1_0_cache_new_3:
	ldaxr	x10, [x19]
	cmp	x10, x8
	b.ne	L0_1_0_cache_new_4
	stlxr	w10, x9, [x19]
	cbz	w10, L0_1_0_cache_new_7
	b	L0_1_0_cache_new_3
L0_1_0_cache_new_4:
	clrex
	mov	x9, #9223372036854775806
	ldar	x8, [x19]
	cmp	x8, x9
	b.ls	L0_1_0_cache_new_2
	b	L0_1_0_cache_new_9
L0_1_0_cache_new_5:
	mov	w0, #4
	b	L0_1_0_cache_new_17
L0_1_0_cache_new_6:
	mov	w8, #4
	ldr	x9, [x0]
	str	x23, [x0]
	mov	w0, w8
	cbz	x9, L0_1_0_cache_new_17
	b	L0_1_0_cache_new_18
L0_1_0_cache_new_7:
	cbz	x1, L0_1_0_cache_new_10
	lsr	x8, x1, #60
	cbnz	x8, L0_1_0_cache_new_8
	lsl	x8, x1, #3
	mov	x20, x0
	mov	x21, x1
	mov	w1, #8
	mov	x22, x3
	mov	x24, x2
	mov	x0, x8
	bl	_kdr_0_1_0_alloc
	mov	x8, x0
	mov	x0, x20
	tbz	w8, #0, L0_1_0_cache_new_8
	mov	x2, x24
	mov	x3, x22
	mov	x20, x1
	mov	x1, x21
	b	L0_1_0_cache_new_11
L0_1_0_cache_new_8:
	ldaxr	x8, [x19]
	sub	x9, x8, #1
	stlxr	w10, x9, [x19]
	cbnz	w10, L0_1_0_cache_new_8
	cmp	x8, #1
	b.ne	L0_1_0_cache_new_9
	ldr	x20, [x19, #40]
	ldr	x21, [x19, #56]
	mov	x22, x0
	mov	x0, x19
	bl	_kdr_0_1_0_dealloc
	mov	x0, x20
	bl	_kdr_0_1_0_dealloc
	mov	x0, x21
	bl	_kdr_0_1_0_dealloc
	mov	x0, x22
L0_1_0_cache_new_9:
	mov	w8, #7
	ldr	x9, [x0]
	str	x23, [x0]
	mov	w0, w8
	cbz	x9, L0_1_0_cache_new_17
	b	L0_1_0_cache_new_18
L0_1_0_cache_new_10:
	add	x20, sp, #8
L0_1_0_cache_new_11:
	ldr	x8, [x23, #32]
	mov	x22, x2
	mov	x21, x3
	mov	x25, x1
	mov	x24, x0
	add	x8, x8, #8
L0_1_0_cache_new_12:
	ldaxr	x26, [x8]
	add	x9, x26, #1
	stlxr	w10, x9, [x8]
	cbnz	w10, L0_1_0_cache_new_12
	mov	w0, #64
	mov	w1, #8
	ldr	x8, [x19, #8]
	ldar	xzr, [x8]
	ldr	x28, [x19, #72]
	ldr	x27, [x23, #24]
	bl	_kdr_0_1_0_alloc
	tbz	w0, #0, L0_1_0_cache_new_13
	lsr	x8, x28, #5
	tst	x28, #0x1f
	mov	x9, #-1085102592571150096
	movk	x9, #61681
	stp	xzr, x27, [x1, #16]
	cinc	x8, x8, ne
	stp	x19, x20, [x1, #32]
	mul	x8, x8, x9
	mov	x9, #1085102592571150095
	stp	xzr, x25, [x1, #48]
	cmp	x8, x9
	mov	w8, #17
	csinc	x8, x8, xzr, hi
	madd	x8, x8, x26, x8
	stp	x22, x8, [x1]
	ldr	x8, [x24]
	str	x23, [x24]
	cbnz	x8, L0_1_0_cache_new_18
	ldr	x8, [x21]
	str	x1, [x21]
	cbnz	x8, L0_1_0_cache_new_18
	mov	w0, wzr
	b	L0_1_0_cache_new_17
L0_1_0_cache_new_13:
	mov	x8, x25
L0_1_0_cache_new_14:
	ldaxr	x9, [x19]
	subs	x9, x9, #1
	stlxr	w10, x9, [x19]
	cbnz	w10, L0_1_0_cache_new_14
	b.ne	L0_1_0_cache_new_15
	ldr	x21, [x19, #40]
	ldr	x22, [x19, #56]
	mov	x0, x19
	bl	_kdr_0_1_0_dealloc
	mov	x0, x21
	bl	_kdr_0_1_0_dealloc
	mov	x0, x22
	bl	_kdr_0_1_0_dealloc
	mov	x8, x25
L0_1_0_cache_new_15:
	cbz	x8, L0_1_0_cache_new_16
	mov	x0, x20
	bl	_kdr_0_1_0_dealloc
L0_1_0_cache_new_16:
	mov	w8, #7
	ldr	x9, [x24]
	str	x23, [x24]
	mov	w0, w8
	cbnz	x9, L0_1_0_cache_new_18
L0_1_0_cache_new_17:
	ldp	x20, x19, [sp, #96]
	.cfi_restore x20
	.cfi_restore x19
	ldp	x22, x21, [sp, #80]
	.cfi_restore x22
	.cfi_restore x21
	ldp	x24, x23, [sp, #64]
	.cfi_restore x24
	.cfi_restore x23
	ldp	x26, x25, [sp, #48]
	.cfi_restore x26
	.cfi_restore x25
	ldp	x28, x27, [sp, #32]
	.cfi_restore x28
	.cfi_restore x27
	ldp	x29, x30, [sp, #16]
	.cfi_restore x29
	.cfi_restore x30
	add	sp, sp, #112
	.cfi_def_cfa_offset 0
	ret
	.cfi_def_cfa_offset 112
	.cfi_offset x19, -8
	.cfi_offset x20, -16
	.cfi_offset x21, -24
	.cfi_offset x22, -32
	.cfi_offset x23, -40
	.cfi_offset x24, -48
	.cfi_offset x25, -56
	.cfi_offset x26, -64
	.cfi_offset x27, -72
	.cfi_offset x28, -80
	.cfi_offset x30, -88
	.cfi_offset x29, -96
L0_1_0_cache_new_18:
	brk	#0x1
	.cfi_endproc

// kdr_handle_items
	.section __TEXT,__text,regular,pure_instructions
	.p2align 2
	.globl _kdr_0_1_0_handle_items
	.private_extern _kdr_0_1_0_handle_items
_kdr_0_1_0_handle_items:
	.cfi_startproc
	ldr	x9, [x0]
	str	xzr, [x0]
	cbz	x9, L0_1_0_handle_items_1
	ldrb	w8, [x9, #40]
	cmp	w8, #1
	b.ne	L0_1_0_handle_items_2
	ldr	x8, [x9, #56]
	ldr	x8, [x8, #72]
	str	x9, [x0]
	mov	x0, x8
	ret
L0_1_0_handle_items_1:
	mov	x0, xzr
	ret
L0_1_0_handle_items_2:
	mov	x8, xzr
	str	x9, [x0]
	mov	x0, x8
	ret
	.cfi_endproc

// kdr_handle_new
	.section __TEXT,__text,regular,pure_instructions
	.p2align 2
	.globl _kdr_0_1_0_handle_new
	.private_extern _kdr_0_1_0_handle_new
_kdr_0_1_0_handle_new:
	.cfi_startproc
	sub	sp, sp, #144
	.cfi_def_cfa_offset 144
	ldr	x8, [x2]
	stp	x29, x30, [sp, #48]
	.cfi_offset x30, -88
	.cfi_offset x29, -96
	add	x29, sp, #48
	stp	x28, x27, [sp, #64]
	.cfi_offset x27, -72
	.cfi_offset x28, -80
	stp	x26, x25, [sp, #80]
	.cfi_offset x25, -56
	.cfi_offset x26, -64
	stp	x24, x23, [sp, #96]
	.cfi_offset x23, -40
	.cfi_offset x24, -48
	stp	x22, x21, [sp, #112]
	.cfi_offset x21, -24
	.cfi_offset x22, -32
	stp	x20, x19, [sp, #128]
	.cfi_offset x19, -8
	.cfi_offset x20, -16
	str	xzr, [x2]
	cbz	x8, L0_1_0_handle_new_1
	str	x8, [x2]
	mov	w0, #5
	b	L0_1_0_handle_new_21
L0_1_0_handle_new_1:
	cbz	x0, L0_1_0_handle_new_2
	cmn	x0, #32
	stur	wzr, [sp, #19]
	str	wzr, [sp, #16]
	b.hi	L0_1_0_handle_new_20
	sub	x24, x0, #1
	mov	x20, x0
	mov	x19, x1
	lsr	x23, x24, #5
	mov	w1, #8
	str	x2, [sp]
	add	x26, x23, #1
	lsl	x22, x26, #3
	mov	x0, x22
	bl	_kdr_0_1_0_alloc
	tbz	w0, #0, L0_1_0_handle_new_20
	mov	x8, x20
	mov	x21, x1
	cbz	x23, L0_1_0_handle_new_7
	cmp	x8, #129
	b.hs	L0_1_0_handle_new_3
	mov	x9, xzr
	b	L0_1_0_handle_new_5
L0_1_0_handle_new_2:
	mov	w0, #6
	b	L0_1_0_handle_new_21
L0_1_0_handle_new_3:
	and	x9, x23, #0x7fffffffffffffc
	add	x10, x21, #16
	and	x11, x23, #0x7fffffffffffffc
L0_1_0_handle_new_4:
	movi	v0.2d, #0x000000ffffffff
	subs	x11, x11, #4
	stp	q0, q0, [x10, #-16]
	add	x10, x10, #32
	b.ne	L0_1_0_handle_new_4
	cmp	x23, x9
	b.eq	L0_1_0_handle_new_7
L0_1_0_handle_new_5:
	add	x10, x21, x9, lsl #3
	sub	x9, x23, x9
L0_1_0_handle_new_6:
	mov	w11, #-1
	subs	x9, x9, #1
	str	x11, [x10], #8
	b.ne	L0_1_0_handle_new_6
L0_1_0_handle_new_7:
	and	x9, x24, #0xffffffffffffffe0
	mov	x10, #-1
	sub	x9, x8, x9
	lsl	x9, x10, x9
	mvn	x9, x9
	str	x9, [x21, x23, lsl #3]
	tbnz	x8, #63, L0_1_0_handle_new_18
	mov	x0, x20
	mov	w1, #1
	bl	_kdr_0_1_0_alloc
	tbz	w0, #0, L0_1_0_handle_new_18
	mov	x27, xzr
	mov	x28, x20
	stp	x1, xzr, [sp, #24]
	str	x20, [sp, #40]
	b	L0_1_0_handle_new_9
L0_1_0_handle_new_8:
	add	x27, x24, #1
	subs	x28, x28, #1
	mov	w8, #1
	strb	w8, [x1, x24]
	str	x27, [sp, #32]
	b.eq	L0_1_0_handle_new_10
L0_1_0_handle_new_9:
	ldr	x8, [sp, #40]
	mov	x24, x27
	cmp	x8, x27
	b.ne	L0_1_0_handle_new_8
	add	x0, sp, #24
	bl	_kdr_0_1_0_grow_amortized
	cbz	w0, L0_1_0_handle_new_22
	ldp	x1, x24, [sp, #24]
	b	L0_1_0_handle_new_8
L0_1_0_handle_new_10:
	ldr	x28, [sp, #24]
	ldr	x25, [sp, #40]
	mov	x0, x22
	mov	w1, #8
	bl	_kdr_0_1_0_alloc
	tbz	w0, #0, L0_1_0_handle_new_16
	mov	x13, x1
	mov	x22, x25
	tbnz	x27, #63, L0_1_0_handle_new_15
	add	x0, x24, #1
	mov	w1, #1
	mov	x25, x13
	bl	_kdr_0_1_0_alloc
	mov	x13, x25
	tbz	w0, #0, L0_1_0_handle_new_15
	cmp	x20, #97
	mov	x8, xzr
	b.lo	L0_1_0_handle_new_12
	sub	x9, x13, x21
	cmp	x9, #32
	b.lo	L0_1_0_handle_new_12
	add	x9, x23, #1
	add	x10, x13, #16
	add	x11, x21, #16
	and	x8, x9, #0xffffffffffffffc
	and	x12, x9, #0xffffffffffffffc
L0_1_0_handle_new_11:
	ldp	q0, q1, [x11, #-16]
	subs	x12, x12, #4
	add	x11, x11, #32
	stp	q0, q1, [x10, #-16]
	add	x10, x10, #32
	b.ne	L0_1_0_handle_new_11
	cmp	x9, x8
	b.eq	L0_1_0_handle_new_14
L0_1_0_handle_new_12:
	lsl	x10, x8, #3
	sub	x8, x23, x8
	add	x8, x8, #1
	add	x9, x13, x10
	add	x10, x21, x10
L0_1_0_handle_new_13:
	ldr	x11, [x10], #8
	subs	x8, x8, #1
	str	x11, [x9], #8
	b.ne	L0_1_0_handle_new_13
L0_1_0_handle_new_14:
	cbz	x27, L0_1_0_handle_new_29
	cmp	x27, #8
	add	x8, x24, #1
	b.lo	L0_1_0_handle_new_27
	sub	x8, x28, x1
	cmp	x8, #32
	add	x8, x24, #1
	b.lo	L0_1_0_handle_new_27
	cmp	x27, #32
	b.hs	L0_1_0_handle_new_23
	mov	x9, xzr
	b	L0_1_0_handle_new_25
L0_1_0_handle_new_15:
	mov	x0, x13
	bl	_kdr_0_1_0_dealloc
	mov	x25, x22
L0_1_0_handle_new_16:
	cbz	x25, L0_1_0_handle_new_18
	mov	x0, x28
L0_1_0_handle_new_17:
	bl	_kdr_0_1_0_dealloc
L0_1_0_handle_new_18:
	mov	x0, x21
L0_1_0_handle_new_19:
	bl	_kdr_0_1_0_dealloc
L0_1_0_handle_new_20:
	mov	w0, #7
L0_1_0_handle_new_21:
	ldp	x20, x19, [sp, #128]
	.cfi_restore x20
	.cfi_restore x19
	ldp	x22, x21, [sp, #112]
	.cfi_restore x22
	.cfi_restore x21
	ldp	x24, x23, [sp, #96]
	.cfi_restore x24
	.cfi_restore x23
	ldp	x26, x25, [sp, #80]
	.cfi_restore x26
	.cfi_restore x25
	ldp	x28, x27, [sp, #64]
	.cfi_restore x28
	.cfi_restore x27
	ldp	x29, x30, [sp, #48]
	.cfi_restore x29
	.cfi_restore x30
	add	sp, sp, #144
	.cfi_def_cfa_offset 0
	ret
	.cfi_def_cfa_offset 144
	.cfi_offset x19, -8
	.cfi_offset x20, -16
	.cfi_offset x21, -24
	.cfi_offset x22, -32
	.cfi_offset x23, -40
	.cfi_offset x24, -48
	.cfi_offset x25, -56
	.cfi_offset x26, -64
	.cfi_offset x27, -72
	.cfi_offset x28, -80
	.cfi_offset x30, -88
	.cfi_offset x29, -96
L0_1_0_handle_new_22:
	ldr	x8, [sp, #40]
	cbz	x8, L0_1_0_handle_new_18
	ldr	x0, [sp, #24]
	b	L0_1_0_handle_new_17
L0_1_0_handle_new_23:
	add	x10, x1, x24
	add	x11, x28, x24
	and	x8, x27, #0x18
	and	x9, x27, #0x7fffffffffffffe0
	sub	x10, x10, #15
	sub	x11, x11, #15
	and	x12, x27, #0x7fffffffffffffe0
L0_1_0_handle_new_24:
	ldp	q1, q0, [x11, #-16]
	sub	x12, x12, #32
	sub	x11, x11, #32
	stp	q1, q0, [x10, #-16]
	sub	x10, x10, #32
	cbnz	x12, L0_1_0_handle_new_24
	cmp	x27, x9
	b.eq	L0_1_0_handle_new_29
	cbz	x8, L0_1_0_handle_new_33
L0_1_0_handle_new_25:
	mov	x11, #-7
	and	x10, x27, #0x7ffffffffffffff8
	add	x13, x28, x24
	sub	x12, x11, x9
	add	x11, x1, x24
	and	x8, x27, #0x7
	add	x11, x11, x12
	add	x12, x13, x12
	sub	x9, x9, x10
L0_1_0_handle_new_26:
	ldr	d0, [x12], #-8
	adds	x9, x9, #8
	str	d0, [x11], #-8
	b.ne	L0_1_0_handle_new_26
	cmp	x27, x10
	b.eq	L0_1_0_handle_new_29
L0_1_0_handle_new_27:
	sub	x9, x1, #1
	sub	x10, x28, #1
L0_1_0_handle_new_28:
	mov	x11, x8
	ldrb	w12, [x10, x8]
	subs	x8, x8, #1
	strb	w12, [x9, x11]
	b.ne	L0_1_0_handle_new_28
L0_1_0_handle_new_29:
	mov	x23, x1
	cbz	x22, L0_1_0_handle_new_30
	mov	x0, x28
	bl	_kdr_0_1_0_dealloc
L0_1_0_handle_new_30:
	mov	x0, x21
	bl	_kdr_0_1_0_dealloc
	ldr	w8, [sp, #16]
	ldur	w9, [sp, #19]
	mov	w0, #120
	mov	w1, #8
	str	w8, [sp, #8]
	stur	w9, [sp, #11]
	bl	_kdr_0_1_0_alloc
	tbz	w0, #0, L0_1_0_handle_new_31
	mov	w8, #1
	ldur	w9, [sp, #11]
	mov	x21, x1
	stp	x8, x25, [x1]
	ldr	w8, [sp, #8]
	mov	w0, #16
	stp	x23, x26, [x1, #16]
	stp	x27, x25, [x1, #32]
	stp	x26, x23, [x1, #48]
	stp	x27, x20, [x1, #64]
	str	x26, [x1, #80]
	strb	wzr, [x1, #88]
	stur	w8, [x1, #89]
	str	w9, [x1, #92]
	stp	xzr, xzr, [x1, #104]
	str	xzr, [x1, #96]
	mov	w1, #8
	bl	_kdr_0_1_0_alloc
	tbz	w0, #0, L0_1_0_handle_new_32
	adrp	x8, L0_1_0_constant_16_1@PAGE
	mov	x2, x1
	mov	x0, x21
	ldr	q0, [x8, L0_1_0_constant_16_1@PAGEOFF]
	str	q0, [x1]
	mov	x1, x19
	bl	_kdr_0_1_0_open
	and	w8, w0, #0xff
	cmp	w8, #1
	b.ne	L0_1_0_handle_new_20
	ldr	x25, [sp]
	ldr	x8, [x25]
	str	x1, [x25]
	cbnz	x8, L0_1_0_handle_new_34
	mov	w0, wzr
	b	L0_1_0_handle_new_21
L0_1_0_handle_new_31:
	mov	x0, x25
	bl	_kdr_0_1_0_dealloc
	mov	x0, x23
	b	L0_1_0_handle_new_19
L0_1_0_handle_new_32:
	ldaxr	x8, [x21]
	subs	x8, x8, #1
	stlxr	w9, x8, [x21]
	cbnz	w9, L0_1_0_handle_new_32
	b.ne	L0_1_0_handle_new_20
	ldr	x19, [x21, #40]
	ldr	x20, [x21, #56]
	mov	x0, x21
	bl	_kdr_0_1_0_dealloc
	mov	x0, x19
	bl	_kdr_0_1_0_dealloc
	mov	x0, x20
	b	L0_1_0_handle_new_19
L0_1_0_handle_new_33:
	and	x8, x27, #0x1f
	b	L0_1_0_handle_new_27
L0_1_0_handle_new_34:
	brk	#0x1
	.cfi_endproc

// kdr_handle_share
	.section __TEXT,__text,regular,pure_instructions
	.p2align 2
	.globl _kdr_0_1_0_handle_share
	.private_extern _kdr_0_1_0_handle_share
_kdr_0_1_0_handle_share:
	.cfi_startproc
	stp	x29, x30, [sp, #-64]!
	.cfi_def_cfa_offset 64
	.cfi_offset x30, -56
	.cfi_offset x29, -64
	ldr	x8, [x1]
	str	x23, [sp, #16]
	.cfi_offset x23, -48
	mov	x29, sp
	stp	x22, x21, [sp, #32]
	.cfi_offset x21, -24
	.cfi_offset x22, -32
	stp	x20, x19, [sp, #48]
	.cfi_offset x19, -8
	.cfi_offset x20, -16
	str	xzr, [x1]
	cbz	x8, L0_1_0_handle_share_2
	str	x8, [x1]
	mov	w0, #5
L0_1_0_handle_share_1:
	ldp	x20, x19, [sp, #48]
	.cfi_restore x20
	.cfi_restore x19
	ldr	x23, [sp, #16]
	.cfi_restore x23
	ldp	x22, x21, [sp, #32]
	.cfi_restore x22
	.cfi_restore x21
	ldp	x29, x30, [sp], #64
	.cfi_def_cfa_offset 0
	.cfi_restore x29
	.cfi_restore x30
	ret
	.cfi_def_cfa_offset 64
	.cfi_offset x19, -8
	.cfi_offset x20, -16
	.cfi_offset x21, -24
	.cfi_offset x22, -32
	.cfi_offset x23, -48
	.cfi_offset x30, -56
	.cfi_offset x29, -64
L0_1_0_handle_share_2:
	ldr	x21, [x0]
	str	xzr, [x0]
	cbz	x21, L0_1_0_handle_share_6
	ldrb	w8, [x21, #40]
	cmp	w8, #1
	b.ne	L0_1_0_handle_share_7
	ldr	x8, [x21, #56]
	mov	x10, #9223372036854775806
	ldar	x9, [x8]
	cmp	x9, x10
	b.hi	L0_1_0_handle_share_13
L0_1_0_handle_share_3:
	add	x10, x9, #1
L0_1_0_handle_share_4:
	ldaxr	x11, [x8]
	cmp	x11, x9
	b.ne	L0_1_0_handle_share_5
	stlxr	w11, x10, [x8]
	cbz	w11, L0_1_0_handle_share_8
	b	L0_1_0_handle_share_4
L0_1_0_handle_share_5:
	clrex
	mov	x10, #9223372036854775806
	ldar	x9, [x8]
	cmp	x9, x10
	b.ls	L0_1_0_handle_share_3
	b	L0_1_0_handle_share_13
L0_1_0_handle_share_6:
	mov	w0, #4
	ldp	x20, x19, [sp, #48]
	.cfi_restore x20
	.cfi_restore x19
	ldr	x23, [sp, #16]
	.cfi_restore x23
	ldp	x22, x21, [sp, #32]
	.cfi_restore x22
	.cfi_restore x21
	ldp	x29, x30, [sp], #64
	.cfi_def_cfa_offset 0
	.cfi_restore x29
	.cfi_restore x30
	ret
	.cfi_def_cfa_offset 64
	.cfi_offset x19, -8
	.cfi_offset x20, -16
	.cfi_offset x21, -24
	.cfi_offset x22, -32
	.cfi_offset x23, -48
	.cfi_offset x30, -56
	.cfi_offset x29, -64
L0_1_0_handle_share_7:
	mov	w8, wzr
	mov	x9, xzr
	mov	w10, #4
	b	L0_1_0_handle_share_15
L0_1_0_handle_share_8:
	ldr	x2, [x21, #32]
	mov	x10, #9223372036854775806
	ldar	x9, [x2]
	cmp	x9, x10
	b.hi	L0_1_0_handle_share_12
L0_1_0_handle_share_9:
	mov	x19, x0
	mov	x20, x1
	add	x10, x9, #1
L0_1_0_handle_share_10:
	ldaxr	x11, [x2]
	cmp	x11, x9
	b.ne	L0_1_0_handle_share_11
	stlxr	w11, x10, [x2]
	cbz	w11, L0_1_0_handle_share_14
	b	L0_1_0_handle_share_10
L0_1_0_handle_share_11:
	clrex
	mov	x1, x20
	mov	x0, x19
	mov	x10, #9223372036854775806
	ldar	x9, [x2]
	cmp	x9, x10
	b.ls	L0_1_0_handle_share_9
L0_1_0_handle_share_12:
	ldaxr	x9, [x8]
	sub	x10, x9, #1
	stlxr	w11, x10, [x8]
	cbnz	w11, L0_1_0_handle_share_12
	cmp	x9, #1
	b.ne	L0_1_0_handle_share_13
	ldr	x19, [x8, #40]
	ldr	x20, [x8, #56]
	mov	x22, x0
	mov	x0, x8
	mov	x23, x1
	bl	_kdr_0_1_0_dealloc
	mov	x0, x19
	bl	_kdr_0_1_0_dealloc
	mov	x0, x20
	bl	_kdr_0_1_0_dealloc
	mov	x0, x22
	mov	x1, x23
L0_1_0_handle_share_13:
	mov	w8, wzr
	mov	x9, xzr
	mov	w10, #7
	b	L0_1_0_handle_share_15
L0_1_0_handle_share_14:
	mov	x0, x8
	ldr	x1, [x21, #24]
	bl	_kdr_0_1_0_open
	and	w8, w0, #0xff
	mov	w9, #7
	mov	x0, x19
	cmp	w8, #1
	cset	w8, eq
	csel	w10, wzr, w9, eq
	csel	x9, x1, xzr, eq
	mov	x1, x20
L0_1_0_handle_share_15:
	ldr	x11, [x0]
	str	x21, [x0]
	cbnz	x11, L0_1_0_handle_share_16
	mov	w0, w10
	cbz	w8, L0_1_0_handle_share_1
	ldr	x8, [x1]
	str	x9, [x1]
	cbnz	x8, L0_1_0_handle_share_16
	mov	w0, wzr
	ldp	x20, x19, [sp, #48]
	.cfi_restore x20
	.cfi_restore x19
	ldr	x23, [sp, #16]
	.cfi_restore x23
	ldp	x22, x21, [sp, #32]
	.cfi_restore x22
	.cfi_restore x21
	ldp	x29, x30, [sp], #64
	.cfi_def_cfa_offset 0
	.cfi_restore x29
	.cfi_restore x30
	ret
	.cfi_def_cfa_offset 64
	.cfi_offset x19, -8
	.cfi_offset x20, -16
	.cfi_offset x21, -24
	.cfi_offset x22, -32
	.cfi_offset x23, -48
	.cfi_offset x30, -56
	.cfi_offset x29, -64
L0_1_0_handle_share_16:
	brk	#0x1
	.cfi_endproc

// kdr_place_pull
	.section __TEXT,__text,regular,pure_instructions
	.p2align 2
	.globl _kdr_0_1_0_place_pull
	.private_extern _kdr_0_1_0_place_pull
_kdr_0_1_0_place_pull:
	.cfi_startproc
	sub	sp, sp, #80
	.cfi_def_cfa_offset 80
	stp	x20, x19, [sp, #64]
	.cfi_offset x19, -8
	.cfi_offset x20, -16
	ldr	x19, [x0]
	stp	x29, x30, [sp, #32]
	.cfi_offset x30, -40
	.cfi_offset x29, -48
	add	x29, sp, #32
	str	x21, [sp, #48]
	.cfi_offset x21, -32
	str	xzr, [x0]
	cbz	x19, L0_1_0_place_pull_3
	ldrb	w8, [x19, #40]
	cbz	w8, L0_1_0_place_pull_1
	cmp	w8, #1
	b.ne	L0_1_0_place_pull_1
	ldr	x8, [x2]
	cbz	x8, L0_1_0_place_pull_4
	mov	w8, #2
	ldr	x9, [x0]
	str	x19, [x0]
	cbz	x9, L0_1_0_place_pull_2
	b	L0_1_0_place_pull_15
L0_1_0_place_pull_1:
	mov	w8, #4
	ldr	x9, [x0]
	str	x19, [x0]
	cbnz	x9, L0_1_0_place_pull_15
L0_1_0_place_pull_2:
	ldp	x20, x19, [sp, #64]
	.cfi_restore x20
	.cfi_restore x19
	mov	w0, w8
	ldp	x29, x30, [sp, #32]
	.cfi_restore x29
	.cfi_restore x30
	ldr	x21, [sp, #48]
	.cfi_restore x21
	add	sp, sp, #80
	.cfi_def_cfa_offset 0
	ret
	.cfi_def_cfa_offset 80
	.cfi_offset x19, -8
	.cfi_offset x20, -16
	.cfi_offset x21, -32
	.cfi_offset x30, -40
	.cfi_offset x29, -48
L0_1_0_place_pull_3:
	mov	w8, #4
	ldp	x20, x19, [sp, #64]
	.cfi_restore x20
	.cfi_restore x19
	mov	w0, w8
	ldp	x29, x30, [sp, #32]
	.cfi_restore x29
	.cfi_restore x30
	ldr	x21, [sp, #48]
	.cfi_restore x21
	add	sp, sp, #80
	.cfi_def_cfa_offset 0
	ret
	.cfi_def_cfa_offset 80
	.cfi_offset x19, -8
	.cfi_offset x20, -16
	.cfi_offset x21, -32
	.cfi_offset x30, -40
	.cfi_offset x29, -48
L0_1_0_place_pull_4:
	ldr	x8, [x19, #56]
	ldr	x9, [x8, #80]
	cmp	x1, x9
	b.lo	L0_1_0_place_pull_5
	cbz	x9, L0_1_0_place_pull_15
	udiv	x10, x1, x9
	msub	x1, x10, x9, x1
L0_1_0_place_pull_5:
	ldur	x10, [x8, #8]
	lsl	x9, x1, #3
	add	x10, x10, x9
	ldar	x10, [x10]
	stp	xzr, xzr, [sp, #8]
	str	xzr, [sp, #24]
	b	L0_1_0_place_pull_10
L0_1_0_place_pull_6:
	ldar	x15, [x14]
	and	x16, x15, x13
L0_1_0_place_pull_7:
	ldaxr	x17, [x14]
	cmp	x17, x15
	b.ne	L0_1_0_place_pull_8
	stlxr	w17, x16, [x14]
	cbz	w17, L0_1_0_place_pull_9
	b	L0_1_0_place_pull_7
L0_1_0_place_pull_8:
	clrex
	b	L0_1_0_place_pull_6
L0_1_0_place_pull_9:
	sub	w13, w10, #1
	tst	x15, x12
	and	w10, w13, w10
	b.ne	L0_1_0_place_pull_12
L0_1_0_place_pull_10:
	cbz	w10, L0_1_0_place_pull_11
	rbit	w11, w10
	mov	w12, #1
	ldur	x14, [x8, #8]
	clz	w11, w11
	add	x14, x14, x9
	lsl	x12, x12, x11
	mvn	x13, x12
	b	L0_1_0_place_pull_6
L0_1_0_place_pull_11:
	mov	x21, x2
	mov	x20, x0
	add	x0, sp, #8
	mov	x2, x1
	add	x1, x8, #8
	bl	_kdr_0_1_0_take_further
	ldrb	w8, [sp, #8]
	cmp	w8, #1
	b.ne	L0_1_0_place_pull_14
	ldr	x9, [sp, #16]
	mov	x0, x20
	mov	x2, x21
	b	L0_1_0_place_pull_13
L0_1_0_place_pull_12:
	lsl	x9, x1, #5
	ldr	x8, [x8, #16]
	add	x8, x8, x9
	ldrb	w10, [x8, x11]
	strb	wzr, [x8, x11]
	cmp	w10, #1
	b.ne	L0_1_0_place_pull_15
	orr	x9, x9, x11
L0_1_0_place_pull_13:
	ldr	x10, [x19, #24]
	add	x9, x9, #1
	mov	w8, wzr
	stp	x9, x10, [x2]
	ldr	x9, [x0]
	str	x19, [x0]
	cbz	x9, L0_1_0_place_pull_2
	b	L0_1_0_place_pull_15
L0_1_0_place_pull_14:
	mov	w8, #1
	stp	xzr, xzr, [x21]
	ldr	x9, [x20]
	str	x19, [x20]
	cbz	x9, L0_1_0_place_pull_2
L0_1_0_place_pull_15:
	brk	#0x1
	.cfi_endproc

// kdr_pool_drop
	.section __TEXT,__text,regular,pure_instructions
	.p2align 2
	.globl _kdr_0_1_0_pool_drop
	.private_extern _kdr_0_1_0_pool_drop
_kdr_0_1_0_pool_drop:
	.cfi_startproc
	stp	x29, x30, [sp, #-64]!
	.cfi_def_cfa_offset 64
	.cfi_offset x30, -56
	.cfi_offset x29, -64
	stp	x20, x19, [sp, #48]
	.cfi_offset x19, -8
	.cfi_offset x20, -16
	mov	x20, x0
	ldr	x0, [x0]
	stp	x24, x23, [sp, #16]
	.cfi_offset x23, -40
	.cfi_offset x24, -48
	mov	x29, sp
	stp	x22, x21, [sp, #32]
	.cfi_offset x21, -24
	.cfi_offset x22, -32
	str	xzr, [x20]
	cbz	x0, L0_1_0_pool_drop_5
	ldp	x21, x22, [x0, #56]
	ldr	x19, [x0, #32]
	ldrb	w24, [x0, #40]
	ldrb	w23, [x0, #48]
	bl	_kdr_0_1_0_dealloc
	cmp	w24, #1
	b.ne	L0_1_0_pool_drop_6
	cmp	w23, #1
	b.ne	L0_1_0_pool_drop_7
	ldr	x8, [x21, #16]
	mov	w9, #1
	ldrb	w10, [x8, x22]
	strb	w9, [x8, x22]
	cbnz	w10, L0_1_0_pool_drop_15
	ldr	x10, [x21, #8]
	lsr	x8, x22, #5
	lsl	w9, w9, w22
	add	x10, x10, x8, lsl #3
	orr	x11, x9, #0x100000000
L0_1_0_pool_drop_1:
	ldaxr	x9, [x10]
	add	x12, x9, x11
	stlxr	w13, x12, [x10]
	cbnz	w13, L0_1_0_pool_drop_1
	cbnz	w9, L0_1_0_pool_drop_12
	add	x9, x21, #96
	ldar	x10, [x9]
	cmp	x10, x8
	b.eq	L0_1_0_pool_drop_2
	stlr	x8, [x9]
L0_1_0_pool_drop_2:
	add	x9, x21, #104
	ldar	x10, [x9]
	cmp	x8, x10
	b.hs	L0_1_0_pool_drop_12
	ldar	x10, [x9]
	cmp	x8, x10
	b.hs	L0_1_0_pool_drop_12
L0_1_0_pool_drop_3:
	ldaxr	x11, [x9]
	cmp	x11, x10
	b.ne	L0_1_0_pool_drop_4
	stlxr	w11, x8, [x9]
	cbz	w11, L0_1_0_pool_drop_12
	b	L0_1_0_pool_drop_3
L0_1_0_pool_drop_4:
	clrex
	ldar	x10, [x9]
	cmp	x8, x10
	b.lo	L0_1_0_pool_drop_3
	b	L0_1_0_pool_drop_12
L0_1_0_pool_drop_5:
	mov	w0, #4
	ldp	x20, x19, [sp, #48]
	.cfi_restore x20
	.cfi_restore x19
	ldp	x22, x21, [sp, #32]
	.cfi_restore x22
	.cfi_restore x21
	ldp	x24, x23, [sp, #16]
	.cfi_restore x24
	.cfi_restore x23
	ldp	x29, x30, [sp], #64
	.cfi_def_cfa_offset 0
	.cfi_restore x29
	.cfi_restore x30
	ret
	.cfi_def_cfa_offset 64
	.cfi_offset x19, -8
	.cfi_offset x20, -16
	.cfi_offset x21, -24
	.cfi_offset x22, -32
	.cfi_offset x23, -40
	.cfi_offset x24, -48
	.cfi_offset x30, -56
	.cfi_offset x29, -64
L0_1_0_pool_drop_6:
	ldaxr	x8, [x19]
	sub	x9, x8, #1
	stlxr	w10, x9, [x19]
	cbnz	w10, L0_1_0_pool_drop_6
	cmp	x8, #1
	b.eq	L0_1_0_pool_drop_10
	b	L0_1_0_pool_drop_11
L0_1_0_pool_drop_7:
	ldr	x8, [x20]
	str	xzr, [x20]
	cbnz	x8, L0_1_0_pool_drop_15
L0_1_0_pool_drop_8:
	ldaxr	x8, [x21]
	subs	x8, x8, #1
	stlxr	w9, x8, [x21]
	cbnz	w9, L0_1_0_pool_drop_8
	b.ne	L0_1_0_pool_drop_9
	ldr	x20, [x21, #40]
	ldr	x22, [x21, #56]
	mov	x0, x21
	bl	_kdr_0_1_0_dealloc
	mov	x0, x20
	bl	_kdr_0_1_0_dealloc
	mov	x0, x22
	bl	_kdr_0_1_0_dealloc
L0_1_0_pool_drop_9:
	ldaxr	x8, [x19]
	sub	x9, x8, #1
	stlxr	w10, x9, [x19]
	cbnz	w10, L0_1_0_pool_drop_9
	cmp	x8, #1
	b.ne	L0_1_0_pool_drop_11
L0_1_0_pool_drop_10:
	mov	x0, x19
	bl	_kdr_0_1_0_dealloc
L0_1_0_pool_drop_11:
	mov	w0, wzr
	ldp	x20, x19, [sp, #48]
	.cfi_restore x20
	.cfi_restore x19
	ldp	x22, x21, [sp, #32]
	.cfi_restore x22
	.cfi_restore x21
	ldp	x24, x23, [sp, #16]
	.cfi_restore x24
	.cfi_restore x23
	ldp	x29, x30, [sp], #64
	.cfi_def_cfa_offset 0
	.cfi_restore x29
	.cfi_restore x30
	ret
	.cfi_def_cfa_offset 64
	.cfi_offset x19, -8
	.cfi_offset x20, -16
	.cfi_offset x21, -24
	.cfi_offset x22, -32
	.cfi_offset x23, -40
	.cfi_offset x24, -48
	.cfi_offset x30, -56
	.cfi_offset x29, -64
L0_1_0_pool_drop_12:
	ldaxr	x8, [x21]
	subs	x8, x8, #1
	stlxr	w9, x8, [x21]
	cbnz	w9, L0_1_0_pool_drop_12
	b.ne	L0_1_0_pool_drop_13
	ldr	x22, [x21, #40]
	ldr	x23, [x21, #56]
	mov	x0, x21
	bl	_kdr_0_1_0_dealloc
	mov	x0, x22
	bl	_kdr_0_1_0_dealloc
	mov	x0, x23
	bl	_kdr_0_1_0_dealloc
L0_1_0_pool_drop_13:
	ldr	x8, [x20]
	str	xzr, [x20]
	cbnz	x8, L0_1_0_pool_drop_15
L0_1_0_pool_drop_14:
	ldaxr	x8, [x19]
	sub	x9, x8, #1
	stlxr	w10, x9, [x19]
	cbnz	w10, L0_1_0_pool_drop_14
	cmp	x8, #1
	b.eq	L0_1_0_pool_drop_10
	b	L0_1_0_pool_drop_11
L0_1_0_pool_drop_15:
	brk	#0x1
	.cfi_endproc

// kdr_pool_pull
	.section __TEXT,__text,regular,pure_instructions
	.p2align 2
	.globl _kdr_0_1_0_pool_pull
	.private_extern _kdr_0_1_0_pool_pull
_kdr_0_1_0_pool_pull:
	.cfi_startproc
	sub	sp, sp, #96
	.cfi_def_cfa_offset 96
	stp	x20, x19, [sp, #80]
	.cfi_offset x19, -8
	.cfi_offset x20, -16
	ldr	x19, [x0]
	stp	x29, x30, [sp, #32]
	.cfi_offset x30, -56
	.cfi_offset x29, -64
	add	x29, sp, #32
	stp	x24, x23, [sp, #48]
	.cfi_offset x23, -40
	.cfi_offset x24, -48
	stp	x22, x21, [sp, #64]
	.cfi_offset x21, -24
	.cfi_offset x22, -32
	str	xzr, [x0]
	cbz	x19, L0_1_0_pool_pull_2
	movi	v0.2d, #0000000000000000
	ldp	x21, x8, [x19, #56]
	ldr	x20, [x19]
	ldrb	w10, [x19, #40]
	ldrb	w9, [x19, #48]
	stur	q0, [x19, #40]
	stur	q0, [x19, #56]
	cbz	w10, L0_1_0_pool_pull_1
	cmp	w9, #1
	b.ne	L0_1_0_pool_pull_3
	mov	w9, #1
	stp	x21, x8, [x19, #56]
	dup	v0.2d, x9
	stur	q0, [x19, #40]
	ldr	x8, [x0]
	str	x19, [x0]
	cbnz	x8, L0_1_0_pool_pull_16
	mov	w0, #2
	ldp	x20, x19, [sp, #80]
	.cfi_restore x20
	.cfi_restore x19
	ldp	x22, x21, [sp, #64]
	.cfi_restore x22
	.cfi_restore x21
	ldp	x24, x23, [sp, #48]
	.cfi_restore x24
	.cfi_restore x23
	ldp	x29, x30, [sp, #32]
	.cfi_restore x29
	.cfi_restore x30
	add	sp, sp, #96
	.cfi_def_cfa_offset 0
	ret
	.cfi_def_cfa_offset 96
	.cfi_offset x19, -8
	.cfi_offset x20, -16
	.cfi_offset x21, -24
	.cfi_offset x22, -32
	.cfi_offset x23, -40
	.cfi_offset x24, -48
	.cfi_offset x30, -56
	.cfi_offset x29, -64
L0_1_0_pool_pull_1:
	ldr	x8, [x0]
	str	x19, [x0]
	cbnz	x8, L0_1_0_pool_pull_16
L0_1_0_pool_pull_2:
	mov	w0, #4
	ldp	x20, x19, [sp, #80]
	.cfi_restore x20
	.cfi_restore x19
	ldp	x22, x21, [sp, #64]
	.cfi_restore x22
	.cfi_restore x21
	ldp	x24, x23, [sp, #48]
	.cfi_restore x24
	.cfi_restore x23
	ldp	x29, x30, [sp, #32]
	.cfi_restore x29
	.cfi_restore x30
	add	sp, sp, #96
	.cfi_def_cfa_offset 0
	ret
	.cfi_def_cfa_offset 96
	.cfi_offset x19, -8
	.cfi_offset x20, -16
	.cfi_offset x21, -24
	.cfi_offset x22, -32
	.cfi_offset x23, -40
	.cfi_offset x24, -48
	.cfi_offset x30, -56
	.cfi_offset x29, -64
L0_1_0_pool_pull_3:
	ldr	x8, [x21, #80]
	mov	x2, x20
	cmp	x20, x8
	b.lo	L0_1_0_pool_pull_4
	cbz	x8, L0_1_0_pool_pull_16
	udiv	x9, x20, x8
	msub	x2, x9, x8, x20
L0_1_0_pool_pull_4:
	ldur	x9, [x21, #8]
	lsl	x8, x2, #3
	add	x9, x9, x8
	ldar	x9, [x9]
	stp	xzr, xzr, [sp, #8]
	str	xzr, [sp, #24]
	b	L0_1_0_pool_pull_9
L0_1_0_pool_pull_5:
	ldar	x14, [x13]
	and	x15, x14, x12
L0_1_0_pool_pull_6:
	ldaxr	x16, [x13]
	cmp	x16, x14
	b.ne	L0_1_0_pool_pull_7
	stlxr	w16, x15, [x13]
	cbz	w16, L0_1_0_pool_pull_8
	b	L0_1_0_pool_pull_6
L0_1_0_pool_pull_7:
	clrex
	b	L0_1_0_pool_pull_5
L0_1_0_pool_pull_8:
	sub	w12, w9, #1
	tst	x14, x11
	and	w9, w12, w9
	b.ne	L0_1_0_pool_pull_11
L0_1_0_pool_pull_9:
	cbz	w9, L0_1_0_pool_pull_10
	rbit	w10, w9
	mov	w11, #1
	ldur	x13, [x21, #8]
	clz	w10, w10
	add	x13, x13, x8
	lsl	x11, x11, x10
	mvn	x12, x11
	b	L0_1_0_pool_pull_5
L0_1_0_pool_pull_10:
	mov	x24, x1
	mov	x23, x0
	add	x0, sp, #8
	add	x1, x21, #8
	bl	_kdr_0_1_0_take_further
	ldrb	w8, [sp, #8]
	cmp	w8, #1
	b.ne	L0_1_0_pool_pull_14
	ldr	x22, [sp, #16]
	mov	x0, x23
	mov	x1, x24
	b	L0_1_0_pool_pull_12
L0_1_0_pool_pull_11:
	lsl	x8, x2, #5
	ldr	x9, [x21, #16]
	add	x9, x9, x8
	ldrb	w11, [x9, x10]
	strb	wzr, [x9, x10]
	cmp	w11, #1
	b.ne	L0_1_0_pool_pull_16
	orr	x22, x8, x10
L0_1_0_pool_pull_12:
	lsr	x8, x22, #5
	str	x22, [x1]
	ldr	x2, [x21, #72]
	cmp	x20, x8
	str	x8, [x19]
	b.ne	L0_1_0_pool_pull_15
	mov	w8, #1
	stp	x21, x22, [x19, #56]
	dup	v0.2d, x8
	ldrb	w8, [x19, #40]
	stur	q0, [x19, #40]
	cbnz	w8, L0_1_0_pool_pull_16
L0_1_0_pool_pull_13:
	ldr	x8, [x0]
	str	x19, [x0]
	cbnz	x8, L0_1_0_pool_pull_16
	mov	w0, wzr
	ldp	x20, x19, [sp, #80]
	.cfi_restore x20
	.cfi_restore x19
	ldp	x22, x21, [sp, #64]
	.cfi_restore x22
	.cfi_restore x21
	ldp	x24, x23, [sp, #48]
	.cfi_restore x24
	.cfi_restore x23
	ldp	x29, x30, [sp, #32]
	.cfi_restore x29
	.cfi_restore x30
	add	sp, sp, #96
	.cfi_def_cfa_offset 0
	ret
	.cfi_def_cfa_offset 96
	.cfi_offset x19, -8
	.cfi_offset x20, -16
	.cfi_offset x21, -24
	.cfi_offset x22, -32
	.cfi_offset x23, -40
	.cfi_offset x24, -48
	.cfi_offset x30, -56
	.cfi_offset x29, -64
L0_1_0_pool_pull_14:
	adrp	x8, L0_1_0_constant_16_2@PAGE
	stp	x21, xzr, [x19, #56]
	ldr	q0, [x8, L0_1_0_constant_16_2@PAGEOFF]
	ldrb	w8, [x19, #40]
	stur	q0, [x19, #40]
	cbnz	w8, L0_1_0_pool_pull_16
	ldr	x8, [x23]
	str	x19, [x23]
	cbnz	x8, L0_1_0_pool_pull_16
	mov	w0, #1
	ldp	x20, x19, [sp, #80]
	.cfi_restore x20
	.cfi_restore x19
	ldp	x22, x21, [sp, #64]
	.cfi_restore x22
	.cfi_restore x21
	ldp	x24, x23, [sp, #48]
	.cfi_restore x24
	.cfi_restore x23
	ldp	x29, x30, [sp, #32]
	.cfi_restore x29
	.cfi_restore x30
	add	sp, sp, #96
	.cfi_def_cfa_offset 0
	ret
	.cfi_def_cfa_offset 96
	.cfi_offset x19, -8
	.cfi_offset x20, -16
	.cfi_offset x21, -24
	.cfi_offset x22, -32
	.cfi_offset x23, -40
	.cfi_offset x24, -48
	.cfi_offset x30, -56
	.cfi_offset x29, -64
L0_1_0_pool_pull_15:
	mov	x23, x0
	mov	x0, x19
	mov	x1, x20
	bl	_kdr_0_1_0_go_apart
	mov	x0, x23
	mov	w8, #1
	stp	x21, x22, [x19, #56]
	dup	v0.2d, x8
	ldrb	w8, [x19, #40]
	stur	q0, [x19, #40]
	cbz	w8, L0_1_0_pool_pull_13
L0_1_0_pool_pull_16:
	brk	#0x1
	.cfi_endproc

// kdr_pool_pull_near
	.section __TEXT,__text,regular,pure_instructions
	.p2align 2
	.globl _kdr_0_1_0_pool_pull_near
	.private_extern _kdr_0_1_0_pool_pull_near
_kdr_0_1_0_pool_pull_near:
	.cfi_startproc
	sub	sp, sp, #96
	.cfi_def_cfa_offset 96
	stp	x20, x19, [sp, #80]
	.cfi_offset x19, -8
	.cfi_offset x20, -16
	ldr	x19, [x0]
	stp	x29, x30, [sp, #32]
	.cfi_offset x30, -56
	.cfi_offset x29, -64
	add	x29, sp, #32
	stp	x24, x23, [sp, #48]
	.cfi_offset x23, -40
	.cfi_offset x24, -48
	stp	x22, x21, [sp, #64]
	.cfi_offset x21, -24
	.cfi_offset x22, -32
	str	xzr, [x0]
	cbz	x19, L0_1_0_pool_pull_near_2
	movi	v0.2d, #0000000000000000
	ldp	x20, x8, [x19, #56]
	ldrb	w10, [x19, #40]
	ldrb	w9, [x19, #48]
	stur	q0, [x19, #40]
	stur	q0, [x19, #56]
	cbz	w10, L0_1_0_pool_pull_near_1
	cmp	w9, #1
	b.ne	L0_1_0_pool_pull_near_3
	mov	w9, #1
	stp	x20, x8, [x19, #56]
	dup	v0.2d, x9
	stur	q0, [x19, #40]
	ldr	x8, [x0]
	str	x19, [x0]
	cbnz	x8, L0_1_0_pool_pull_near_16
	mov	w0, #2
	ldp	x20, x19, [sp, #80]
	.cfi_restore x20
	.cfi_restore x19
	ldp	x22, x21, [sp, #64]
	.cfi_restore x22
	.cfi_restore x21
	ldp	x24, x23, [sp, #48]
	.cfi_restore x24
	.cfi_restore x23
	ldp	x29, x30, [sp, #32]
	.cfi_restore x29
	.cfi_restore x30
	add	sp, sp, #96
	.cfi_def_cfa_offset 0
	ret
	.cfi_def_cfa_offset 96
	.cfi_offset x19, -8
	.cfi_offset x20, -16
	.cfi_offset x21, -24
	.cfi_offset x22, -32
	.cfi_offset x23, -40
	.cfi_offset x24, -48
	.cfi_offset x30, -56
	.cfi_offset x29, -64
L0_1_0_pool_pull_near_1:
	ldr	x8, [x0]
	str	x19, [x0]
	cbnz	x8, L0_1_0_pool_pull_near_16
L0_1_0_pool_pull_near_2:
	mov	w0, #4
	ldp	x20, x19, [sp, #80]
	.cfi_restore x20
	.cfi_restore x19
	ldp	x22, x21, [sp, #64]
	.cfi_restore x22
	.cfi_restore x21
	ldp	x24, x23, [sp, #48]
	.cfi_restore x24
	.cfi_restore x23
	ldp	x29, x30, [sp, #32]
	.cfi_restore x29
	.cfi_restore x30
	add	sp, sp, #96
	.cfi_def_cfa_offset 0
	ret
	.cfi_def_cfa_offset 96
	.cfi_offset x19, -8
	.cfi_offset x20, -16
	.cfi_offset x21, -24
	.cfi_offset x22, -32
	.cfi_offset x23, -40
	.cfi_offset x24, -48
	.cfi_offset x30, -56
	.cfi_offset x29, -64
L0_1_0_pool_pull_near_3:
	ldr	x9, [x20, #80]
	mov	x8, x1
	cmp	x1, x9
	b.lo	L0_1_0_pool_pull_near_4
	cbz	x9, L0_1_0_pool_pull_near_16
	udiv	x8, x1, x9
	msub	x8, x8, x9, x1
L0_1_0_pool_pull_near_4:
	ldur	x10, [x20, #8]
	lsl	x9, x8, #3
	add	x10, x10, x9
	ldar	x10, [x10]
	stp	xzr, xzr, [sp, #8]
	str	xzr, [sp, #24]
	b	L0_1_0_pool_pull_near_9
L0_1_0_pool_pull_near_5:
	ldar	x15, [x14]
	and	x16, x15, x13
L0_1_0_pool_pull_near_6:
	ldaxr	x17, [x14]
	cmp	x17, x15
	b.ne	L0_1_0_pool_pull_near_7
	stlxr	w17, x16, [x14]
	cbz	w17, L0_1_0_pool_pull_near_8
	b	L0_1_0_pool_pull_near_6
L0_1_0_pool_pull_near_7:
	clrex
	b	L0_1_0_pool_pull_near_5
L0_1_0_pool_pull_near_8:
	sub	w13, w10, #1
	tst	x15, x12
	and	w10, w13, w10
	b.ne	L0_1_0_pool_pull_near_11
L0_1_0_pool_pull_near_9:
	cbz	w10, L0_1_0_pool_pull_near_10
	rbit	w11, w10
	mov	w12, #1
	ldur	x14, [x20, #8]
	clz	w11, w11
	add	x14, x14, x9
	lsl	x12, x12, x11
	mvn	x13, x12
	b	L0_1_0_pool_pull_near_5
L0_1_0_pool_pull_near_10:
	mov	x23, x2
	mov	x24, x1
	mov	x22, x0
	add	x0, sp, #8
	add	x1, x20, #8
	mov	x2, x8
	bl	_kdr_0_1_0_take_further
	ldrb	w8, [sp, #8]
	cmp	w8, #1
	b.ne	L0_1_0_pool_pull_near_14
	ldr	x21, [sp, #16]
	mov	x0, x22
	mov	x1, x24
	mov	x2, x23
	b	L0_1_0_pool_pull_near_12
L0_1_0_pool_pull_near_11:
	lsl	x8, x8, #5
	ldr	x9, [x20, #16]
	add	x9, x9, x8
	ldrb	w10, [x9, x11]
	strb	wzr, [x9, x11]
	cmp	w10, #1
	b.ne	L0_1_0_pool_pull_near_16
	orr	x21, x8, x11
L0_1_0_pool_pull_near_12:
	lsr	x8, x21, #5
	str	x21, [x2]
	ldr	x2, [x20, #72]
	cmp	x1, x8
	str	x8, [x19]
	b.ne	L0_1_0_pool_pull_near_15
	mov	w8, #1
	stp	x20, x21, [x19, #56]
	dup	v0.2d, x8
	ldrb	w8, [x19, #40]
	stur	q0, [x19, #40]
	cbnz	w8, L0_1_0_pool_pull_near_16
L0_1_0_pool_pull_near_13:
	ldr	x8, [x0]
	str	x19, [x0]
	cbnz	x8, L0_1_0_pool_pull_near_16
	mov	w0, wzr
	ldp	x20, x19, [sp, #80]
	.cfi_restore x20
	.cfi_restore x19
	ldp	x22, x21, [sp, #64]
	.cfi_restore x22
	.cfi_restore x21
	ldp	x24, x23, [sp, #48]
	.cfi_restore x24
	.cfi_restore x23
	ldp	x29, x30, [sp, #32]
	.cfi_restore x29
	.cfi_restore x30
	add	sp, sp, #96
	.cfi_def_cfa_offset 0
	ret
	.cfi_def_cfa_offset 96
	.cfi_offset x19, -8
	.cfi_offset x20, -16
	.cfi_offset x21, -24
	.cfi_offset x22, -32
	.cfi_offset x23, -40
	.cfi_offset x24, -48
	.cfi_offset x30, -56
	.cfi_offset x29, -64
L0_1_0_pool_pull_near_14:
	adrp	x8, L0_1_0_constant_16_3@PAGE
	stp	x20, xzr, [x19, #56]
	ldr	q0, [x8, L0_1_0_constant_16_3@PAGEOFF]
	ldrb	w8, [x19, #40]
	stur	q0, [x19, #40]
	cbnz	w8, L0_1_0_pool_pull_near_16
	ldr	x8, [x22]
	str	x19, [x22]
	cbnz	x8, L0_1_0_pool_pull_near_16
	mov	w0, #1
	ldp	x20, x19, [sp, #80]
	.cfi_restore x20
	.cfi_restore x19
	ldp	x22, x21, [sp, #64]
	.cfi_restore x22
	.cfi_restore x21
	ldp	x24, x23, [sp, #48]
	.cfi_restore x24
	.cfi_restore x23
	ldp	x29, x30, [sp, #32]
	.cfi_restore x29
	.cfi_restore x30
	add	sp, sp, #96
	.cfi_def_cfa_offset 0
	ret
	.cfi_def_cfa_offset 96
	.cfi_offset x19, -8
	.cfi_offset x20, -16
	.cfi_offset x21, -24
	.cfi_offset x22, -32
	.cfi_offset x23, -40
	.cfi_offset x24, -48
	.cfi_offset x30, -56
	.cfi_offset x29, -64
L0_1_0_pool_pull_near_15:
	mov	x22, x0
	mov	x0, x19
	bl	_kdr_0_1_0_go_apart
	mov	x0, x22
	mov	w8, #1
	stp	x20, x21, [x19, #56]
	dup	v0.2d, x8
	ldrb	w8, [x19, #40]
	stur	q0, [x19, #40]
	cbz	w8, L0_1_0_pool_pull_near_13
L0_1_0_pool_pull_near_16:
	brk	#0x1
	.cfi_endproc

// kdr_pool_return
	.section __TEXT,__text,regular,pure_instructions
	.p2align 2
	.globl _kdr_0_1_0_pool_return
	.private_extern _kdr_0_1_0_pool_return
_kdr_0_1_0_pool_return:
	.cfi_startproc
	ldr	x8, [x0]
	str	xzr, [x0]
	cbz	x8, L0_1_0_pool_return_6
	movi	v0.2d, #0000000000000000
	ldp	x9, x11, [x8, #56]
	ldrb	w12, [x8, #40]
	ldrb	w10, [x8, #48]
	stur	q0, [x8, #40]
	stur	q0, [x8, #56]
	cbz	w12, L0_1_0_pool_return_5
	cbz	w10, L0_1_0_pool_return_7
	ldr	x10, [x9, #16]
	mov	w12, #1
	ldrb	w13, [x10, x11]
	strb	w12, [x10, x11]
	cbnz	w13, L0_1_0_pool_return_9
	ldr	x13, [x9, #8]
	lsr	x10, x11, #5
	lsl	w11, w12, w11
	add	x12, x13, x10, lsl #3
	orr	x13, x11, #0x100000000
L0_1_0_pool_return_1:
	ldaxr	x11, [x12]
	add	x14, x11, x13
	stlxr	w15, x14, [x12]
	cbnz	w15, L0_1_0_pool_return_1
	cbnz	w11, L0_1_0_pool_return_8
	add	x11, x9, #96
	ldar	x12, [x11]
	cmp	x12, x10
	b.eq	L0_1_0_pool_return_2
	stlr	x10, [x11]
L0_1_0_pool_return_2:
	add	x11, x9, #104
	ldar	x12, [x11]
	cmp	x10, x12
	b.hs	L0_1_0_pool_return_8
	ldar	x12, [x11]
	cmp	x10, x12
	b.hs	L0_1_0_pool_return_8
L0_1_0_pool_return_3:
	ldaxr	x13, [x11]
	cmp	x13, x12
	b.ne	L0_1_0_pool_return_4
	stlxr	w13, x10, [x11]
	cbz	w13, L0_1_0_pool_return_8
	b	L0_1_0_pool_return_3
L0_1_0_pool_return_4:
	clrex
	ldar	x12, [x11]
	cmp	x10, x12
	b.lo	L0_1_0_pool_return_3
	b	L0_1_0_pool_return_8
L0_1_0_pool_return_5:
	ldr	x9, [x0]
	str	x8, [x0]
	cbnz	x9, L0_1_0_pool_return_9
L0_1_0_pool_return_6:
	mov	w0, #4
	ret
L0_1_0_pool_return_7:
	adrp	x10, L0_1_0_constant_16_4@PAGE
	stp	x9, xzr, [x8, #56]
	ldr	q0, [x10, L0_1_0_constant_16_4@PAGEOFF]
	stur	q0, [x8, #40]
	ldr	x9, [x0]
	str	x8, [x0]
	cbnz	x9, L0_1_0_pool_return_9
	mov	w0, #3
	ret
L0_1_0_pool_return_8:
	adrp	x10, L0_1_0_constant_16_4@PAGE
	stp	x9, xzr, [x8, #56]
	ldr	q0, [x10, L0_1_0_constant_16_4@PAGEOFF]
	ldrb	w10, [x8, #40]
	stur	q0, [x8, #40]
	cbnz	w10, L0_1_0_pool_return_9
	ldr	x9, [x0]
	str	x8, [x0]
	cbnz	x9, L0_1_0_pool_return_9
	mov	w0, wzr
	ret
L0_1_0_pool_return_9:
	brk	#0x1
	.cfi_endproc

// kdr_cache_return
	.section __TEXT,__text,regular,pure_instructions
	.p2align 2
	.globl _kdr_0_1_0_cache_return
	.private_extern _kdr_0_1_0_cache_return
_kdr_0_1_0_cache_return:
	.cfi_startproc
	mov	x3, x1
	ldr	x1, [x0]
	str	xzr, [x0]
	cbz	x1, L0_1_0_cache_return_1
	ldr	x8, [x3]
	cbz	x8, L0_1_0_cache_return_2
	ldr	x9, [x1, #24]
	ldr	x10, [x3, #8]
	cmp	x10, x9
	b.ne	L0_1_0_cache_return_3
	ldr	x9, [x1, #32]
	ldr	x9, [x9, #72]
	cmp	x9, x8
	b.hs	L0_1_0_cache_return_4
	mov	w8, #9
	str	x1, [x0]
	mov	w0, w8
	ret
L0_1_0_cache_return_1:
	mov	w0, #4
	ret
L0_1_0_cache_return_2:
	mov	w8, #3
	str	x1, [x0]
	mov	w0, w8
	ret
L0_1_0_cache_return_3:
	mov	w8, #8
	str	x1, [x0]
	mov	w0, w8
	ret
L0_1_0_cache_return_4:
	stp	xzr, xzr, [x3]
	sub	x2, x8, #1
	ldp	x9, x10, [x1, #48]
	cmp	x9, x10
	b.hs	L0_1_0_cache_return_5
	ldr	x8, [x1, #40]
	add	x10, x9, #1
	str	x2, [x8, x9, lsl #3]
	str	x10, [x1, #48]
	ldr	x8, [x0]
	str	x1, [x0]
	cbnz	x8, L0_1_0_cache_return_6
	mov	w0, w8
	ret
L0_1_0_cache_return_5:
	stp	x29, x30, [sp, #-16]!
	.cfi_def_cfa_offset 16
	.cfi_offset x30, -8
	.cfi_offset x29, -16
	mov	x29, sp
	bl	_kdr_0_1_0_give_back
	mov	w8, wzr
	ldp	x29, x30, [sp], #16
	.cfi_def_cfa_offset 0
	.cfi_restore x29
	.cfi_restore x30
	mov	w0, w8
	ret
L0_1_0_cache_return_6:
	brk	#0x1
	.cfi_endproc

// kdr_place_return
	.section __TEXT,__text,regular,pure_instructions
	.p2align 2
	.globl _kdr_0_1_0_place_return
	.private_extern _kdr_0_1_0_place_return
_kdr_0_1_0_place_return:
	.cfi_startproc
	ldr	x9, [x0]
	str	xzr, [x0]
	cbz	x9, L0_1_0_place_return_4
	ldrb	w8, [x9, #40]
	cbz	w8, L0_1_0_place_return_1
	cmp	w8, #1
	b.ne	L0_1_0_place_return_1
	ldr	x8, [x1]
	cbz	x8, L0_1_0_place_return_5
	ldr	x10, [x9, #24]
	ldr	x11, [x1, #8]
	cmp	x11, x10
	b.ne	L0_1_0_place_return_6
	ldr	x10, [x9, #56]
	ldr	x10, [x10, #72]
	cmp	x10, x8
	b.hs	L0_1_0_place_return_7
	mov	w8, #9
	b	L0_1_0_place_return_2
L0_1_0_place_return_1:
	mov	w8, #4
L0_1_0_place_return_2:
	str	x9, [x0]
L0_1_0_place_return_3:
	mov	w0, w8
	ret
L0_1_0_place_return_4:
	mov	w0, #4
	ret
L0_1_0_place_return_5:
	mov	w8, #3
	b	L0_1_0_place_return_2
L0_1_0_place_return_6:
	mov	w8, #8
	b	L0_1_0_place_return_2
L0_1_0_place_return_7:
	stp	xzr, xzr, [x1]
	sub	x11, x8, #1
	mov	w12, #1
	ldr	x10, [x9, #56]
	ldr	x13, [x10, #16]
	ldrb	w8, [x13, x11]
	strb	w12, [x13, x11]
	cbnz	w8, L0_1_0_place_return_13
	ldr	x13, [x10, #8]
	lsr	x8, x11, #5
	lsl	w11, w12, w11
	add	x12, x13, x8, lsl #3
	orr	x13, x11, #0x100000000
L0_1_0_place_return_8:
	ldaxr	x11, [x12]
	add	x14, x11, x13
	stlxr	w15, x14, [x12]
	cbnz	w15, L0_1_0_place_return_8
	cbnz	w11, L0_1_0_place_return_12
	add	x11, x10, #96
	ldar	x12, [x11]
	cmp	x12, x8
	b.eq	L0_1_0_place_return_9
	stlr	x8, [x11]
L0_1_0_place_return_9:
	add	x10, x10, #104
	ldar	x11, [x10]
	cmp	x8, x11
	b.hs	L0_1_0_place_return_12
	ldar	x11, [x10]
	cmp	x8, x11
	b.hs	L0_1_0_place_return_12
L0_1_0_place_return_10:
	ldaxr	x12, [x10]
	cmp	x12, x11
	b.ne	L0_1_0_place_return_11
	stlxr	w12, x8, [x10]
	cbz	w12, L0_1_0_place_return_12
	b	L0_1_0_place_return_10
L0_1_0_place_return_11:
	clrex
	ldar	x11, [x10]
	cmp	x8, x11
	b.lo	L0_1_0_place_return_10
	b	L0_1_0_place_return_12
L0_1_0_place_return_12:
	stp	xzr, xzr, [x1]
	ldr	x8, [x0]
	str	x9, [x0]
	cbz	x8, L0_1_0_place_return_3
L0_1_0_place_return_13:
	brk	#0x1
	.cfi_endproc

	.subsections_via_symbols
	.text
