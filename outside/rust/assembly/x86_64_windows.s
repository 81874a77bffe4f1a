# SPDX-License-Identifier: BSL-1.0
# Kundratu's pool of places: the code that the checker proved and built of crates/fixed_pool_c.
# Checker: rattle-kit-13f logic dac8208d650f15bf
# It said: logic=proved functions=72 axioms=3 target=x86_64-unknown-linux-gnu cpu=x86-64-v2 sum=dac8208d650f15bf
# outside/assembly/write writes this file, and outside/run compares it with what is proved anew.

# fixed_pool_c::open_cache::OpenCache::flush
	.section .text$kdr_0_1_0_flush, "xr"
	.p2align 4
kdr_0_1_0_flush:
	jmp	.L0_1_0_flush_2
	.byte 0x66, 0x66, 0x66, 0x66, 0x66, 0x2e, 0x0f, 0x1f, 0x84, 0x00, 0x00, 0x00, 0x00, 0x00 # nopw %cs:(%rax,%rax)
.L0_1_0_flush_1:
	movq	32(%rdi), %rax
	movq	8(%rax), %rcx
	movq	(%rcx), %rcx
	movq	8(%rax), %rax
	movq	(%rax), %rax
.L0_1_0_flush_2:
	movq	48(%rdi), %rax
	testq	%rax, %rax
	je	.L0_1_0_flush_5
	leaq	-1(%rax), %rcx
	movq	%rcx, 48(%rdi)
	movq	32(%rdi), %rdx
	movq	40(%rdi), %rcx
	movq	-8(%rcx,%rax,8), %rcx
	movq	16(%rdx), %rax
	cmpb	$0, (%rax,%rcx)
	movb	$1, (%rax,%rcx)
	jne	.L0_1_0_flush_6
	movl	$1, %eax
	shll	%cl, %eax
	movabsq	$4294967296, %rsi       # imm = 0x100000000
	orq	%rax, %rsi
	movq	8(%rdx), %rax
	shrq	$5, %rcx
	lock xaddq	%rsi, (%rax,%rcx,8)
	testl	%esi, %esi
	jne	.L0_1_0_flush_1
	movq	96(%rdx), %rax
	cmpq	%rcx, %rax
	je	.L0_1_0_flush_3
	movq	%rcx, %rax
	xchgq	%rax, 96(%rdx)
.L0_1_0_flush_3:
	movq	104(%rdx), %rax
	cmpq	%rax, %rcx
	jae	.L0_1_0_flush_1
	.byte 0x0f, 0x1f, 0x00 # nopl (%rax)
.L0_1_0_flush_4:
	movq	104(%rdx), %rax
	cmpq	%rax, %rcx
	jae	.L0_1_0_flush_1
	lock cmpxchgq	%rcx, 104(%rdx)
	jne	.L0_1_0_flush_4
	jmp	.L0_1_0_flush_1
.L0_1_0_flush_5:
	retq
.L0_1_0_flush_6:
	ud2

# fixed_pool_c::caches::pull_further
	.section .text$kdr_0_1_0_pull_further, "xr"
	.p2align 4
kdr_0_1_0_pull_further:
	pushq	%rbp
	pushq	%r15
	pushq	%r14
	pushq	%r13
	pushq	%r12
	pushq	%rbx
	subq	$24, %rsp
	movq	%rdx, %r15
	movq	%rsi, %rbx
	movq	%rdi, %r14
	movq	(%rsi), %r12
	movq	32(%rsi), %r8
	movq	80(%r8), %rcx
	movq	%r12, %rdx
	cmpq	%rcx, %r12
	jb	.L0_1_0_pull_further_2
	testq	%rcx, %rcx
	je	.L0_1_0_pull_further_10
	movq	%r12, %rax
	orq	%rcx, %rax
	shrq	$32, %rax
	je	.L0_1_0_pull_further_1
	movq	%r12, %rax
	xorl	%edx, %edx
	divq	%rcx
	jmp	.L0_1_0_pull_further_2
.L0_1_0_pull_further_1:
	movl	%r12d, %eax
	xorl	%edx, %edx
	divl	%ecx
.L0_1_0_pull_further_2:
	leaq	8(%r8), %rsi
	movq	(%rsi), %rax
	movq	(%rax,%rdx,8), %r9
	xorps	%xmm0, %xmm0
	movaps	%xmm0, (%rsp)
	movq	$0, 16(%rsp)
	.byte 0x0f, 0x1f, 0x44, 0x00, 0x00 # nopl (%rax,%rax)
.L0_1_0_pull_further_3:
	testl	%r9d, %r9d
	je	.L0_1_0_pull_further_5
	tzcntl	%r9d, %ecx
	movl	$1, %r10d
	shlq	%cl, %r10
	movq	$-2, %r11
	rolq	%cl, %r11
	movq	(%rsi), %r13
.L0_1_0_pull_further_4:
	movq	(%r13,%rdx,8), %rdi
	movq	%rdi, %rbp
	andq	%r11, %rbp
	movq	%rdi, %rax
	lock cmpxchgq	%rbp, (%r13,%rdx,8)
	jne	.L0_1_0_pull_further_4
	leal	-1(%r9), %eax
	andl	%r9d, %eax
	movl	%eax, %r9d
	testq	%r10, %rdi
	je	.L0_1_0_pull_further_3
	shlq	$5, %rdx
	movq	16(%r8), %rax
	addq	%rdx, %rax
	movzbl	(%rcx,%rax), %esi
	movb	$0, (%rcx,%rax)
	cmpb	$1, %sil
	jne	.L0_1_0_pull_further_10
	orq	%rcx, %rdx
	jmp	.L0_1_0_pull_further_6
.L0_1_0_pull_further_5:
	movq	%rsp, %rdi
	callq	kdr_0_1_0_take_further
	cmpb	$1, (%rsp)
	jne	.L0_1_0_pull_further_9
	movq	8(%rsp), %rdx
.L0_1_0_pull_further_6:
	movq	32(%rbx), %rax
	movq	72(%rax), %rax
	movq	%rdx, %rcx
	shrq	$5, %rcx
	movq	%rcx, (%rbx)
	cmpq	%rcx, %r12
	jne	.L0_1_0_pull_further_11
.L0_1_0_pull_further_7:
	movq	24(%rbx), %rax
	incq	%rdx
	movq	%rdx, (%r15)
	movq	%rax, 8(%r15)
	xorl	%eax, %eax
	cmpq	$0, (%r14)
	movq	%rbx, (%r14)
	jne	.L0_1_0_pull_further_10
.L0_1_0_pull_further_8:
	addq	$24, %rsp
	popq	%rbx
	popq	%r12
	popq	%r13
	popq	%r14
	popq	%r15
	popq	%rbp
	retq
.L0_1_0_pull_further_9:
	xorps	%xmm0, %xmm0
	movups	%xmm0, (%r15)
	movl	$1, %eax
	cmpq	$0, (%r14)
	movq	%rbx, (%r14)
	je	.L0_1_0_pull_further_8
.L0_1_0_pull_further_10:
	ud2
.L0_1_0_pull_further_11:
	movq	%rbx, %rdi
	movq	%r12, %rsi
	movq	%rdx, %r12
	movq	%rax, %rdx
	callq	kdr_0_1_0_go_apart
	movq	%r12, %rdx
	jmp	.L0_1_0_pull_further_7

# fixed_pools::fixed_object_pool::items::FixedItems::take_further
	.section .text$kdr_0_1_0_take_further, "xr"
	.p2align 4
kdr_0_1_0_take_further:
	pushq	%rbp
	pushq	%r15
	pushq	%r14
	pushq	%r13
	pushq	%r12
	pushq	%rbx
	movq	%rdi, -24(%rsp)
	movq	88(%rsi), %r11
	movq	72(%rsi), %r14
	xorl	%ecx, %ecx
	cmpq	%r14, %r11
	movl	$0, %eax
	movq	%rax, -32(%rsp)
	cmovaeq	%rcx, %r11
	movl	$0, %ebx
	cmpq	%r14, %r11
	jae	.L0_1_0_take_further_5
	leaq	1(%rdx), %rdi
	xorl	%ebx, %ebx
	movq	%r11, %r10
.L0_1_0_take_further_1:
	cmpq	%r14, %rdi
	setb	%al
	cmpq	%rdx, %r10
	setne	%cl
	cmoveq	%rdi, %r10
	orb	%al, %cl
	je	.L0_1_0_take_further_5
	movq	(%rsi), %rax
	movq	(%rax,%r10,8), %rbp
	movq	%rbp, %r13
	shrq	$32, %r13
	.byte 0x66, 0x66, 0x66, 0x66, 0x2e, 0x0f, 0x1f, 0x84, 0x00, 0x00, 0x00, 0x00, 0x00 # nopw %cs:(%rax,%rax)
.L0_1_0_take_further_2:
	testl	%ebp, %ebp
	je	.L0_1_0_take_further_4
	tzcntl	%ebp, %ecx
	movl	$1, %r15d
	shlq	%cl, %r15
	movq	$-2, %rdi
	rolq	%cl, %rdi
	movq	(%rsi), %r9
	.byte 0x66, 0x90 # nop
.L0_1_0_take_further_3:
	movq	(%r9,%r10,8), %r8
	movq	%r8, %r12
	andq	%rdi, %r12
	movq	%r8, %rax
	lock cmpxchgq	%r12, (%r9,%r10,8)
	jne	.L0_1_0_take_further_3
	leal	-1(%rbp), %eax
	andl	%ebp, %eax
	movl	%eax, %ebp
	testq	%r15, %r8
	je	.L0_1_0_take_further_2
	jmp	.L0_1_0_take_further_27
	.byte 0x66, 0x2e, 0x0f, 0x1f, 0x84, 0x00, 0x00, 0x00, 0x00, 0x00 # nopw %cs:(%rax,%rax)
.L0_1_0_take_further_4:
	addl	%r13d, %ebx
	incq	%r10
	cmpq	%r14, %r10
	leaq	1(%rdx), %rdi
	jb	.L0_1_0_take_further_1
.L0_1_0_take_further_5:
	testq	%r11, %r11
	je	.L0_1_0_take_further_10
	leaq	1(%rdx), %r14
	movq	$0, -32(%rsp)
	xorl	%r10d, %r10d
.L0_1_0_take_further_6:
	cmpq	%r11, %r14
	setb	%al
	cmpq	%rdx, %r10
	setne	%cl
	cmoveq	%r14, %r10
	orb	%al, %cl
	je	.L0_1_0_take_further_10
	movq	(%rsi), %rax
	movq	(%rax,%r10,8), %r13
	movq	%r13, %r15
	shrq	$32, %r15
	.byte 0x66, 0x90 # nop
.L0_1_0_take_further_7:
	testl	%r13d, %r13d
	je	.L0_1_0_take_further_9
	tzcntl	%r13d, %ecx
	movl	$1, %edi
	shlq	%cl, %rdi
	movq	$-2, %rbp
	rolq	%cl, %rbp
	movq	(%rsi), %r9
	.byte 0x90 # nop
.L0_1_0_take_further_8:
	movq	(%r9,%r10,8), %r8
	movq	%r8, %r12
	andq	%rbp, %r12
	movq	%r8, %rax
	lock cmpxchgq	%r12, (%r9,%r10,8)
	jne	.L0_1_0_take_further_8
	leal	-1(%r13), %eax
	andl	%r13d, %eax
	movl	%eax, %r13d
	testq	%rdi, %r8
	je	.L0_1_0_take_further_7
	jmp	.L0_1_0_take_further_27
	.byte 0x0f, 0x1f, 0x80, 0x00, 0x00, 0x00, 0x00 # nopl (%rax)
.L0_1_0_take_further_9:
	movq	-32(%rsp), %rax
	addl	%r15d, %eax
	movq	%rax, -32(%rsp)
	incq	%r10
	cmpq	%r11, %r10
	jb	.L0_1_0_take_further_6
.L0_1_0_take_further_10:
	movq	-32(%rsp), %rdi
	addl	%ebx, %edi
	xorl	%ebx, %ebx
.L0_1_0_take_further_11:
	movl	%edi, %ebp
	movq	(%rsi), %rax
	movq	(%rax,%rdx,8), %r14
	movl	%r14d, %r9d
	.byte 0x66, 0x90 # nop
.L0_1_0_take_further_12:
	testl	%r9d, %r9d
	je	.L0_1_0_take_further_14
	tzcntl	%r9d, %ecx
	movl	$1, %edi
	shlq	%cl, %rdi
	movq	$-2, %r10
	rolq	%cl, %r10
	movq	(%rsi), %r11
	.byte 0x90 # nop
.L0_1_0_take_further_13:
	movq	(%r11,%rdx,8), %r8
	movq	%r8, %r12
	andq	%r10, %r12
	movq	%r8, %rax
	lock cmpxchgq	%r12, (%r11,%rdx,8)
	jne	.L0_1_0_take_further_13
	leal	-1(%r9), %eax
	andl	%r9d, %eax
	movl	%eax, %r9d
	testq	%rdi, %r8
	je	.L0_1_0_take_further_12
	jmp	.L0_1_0_take_further_29
.L0_1_0_take_further_14:
	movq	%r14, -8(%rsp)
	movl	%ebp, -12(%rsp)
	movq	%rbx, -32(%rsp)
	movq	88(%rsi), %r15
	movq	72(%rsi), %rbx
	xorl	%edi, %edi
	cmpq	%rbx, %r15
	cmovaeq	%rdi, %r15
	movl	$0, %ebp
	cmpq	%rbx, %r15
	jae	.L0_1_0_take_further_19
	xorl	%ebp, %ebp
	movq	%r15, %r13
.L0_1_0_take_further_15:
	leaq	1(%rdx), %r8
	cmpq	%rbx, %r8
	setb	%al
	cmpq	%rdx, %r13
	setne	%cl
	cmoveq	%r8, %r13
	orb	%al, %cl
	je	.L0_1_0_take_further_19
	movq	(%rsi), %rax
	movq	(%rax,%r13,8), %r10
	movq	%r10, %r11
	shrq	$32, %r11
	.byte 0x66, 0x66, 0x66, 0x66, 0x66, 0x66, 0x2e, 0x0f, 0x1f, 0x84, 0x00, 0x00, 0x00, 0x00, 0x00 # nopw %cs:(%rax,%rax)
.L0_1_0_take_further_16:
	testl	%r10d, %r10d
	je	.L0_1_0_take_further_18
	tzcntl	%r10d, %ecx
	movl	$1, %edi
	shlq	%cl, %rdi
	movq	$-2, %r14
	rolq	%cl, %r14
	movq	(%rsi), %r9
	.byte 0x90 # nop
.L0_1_0_take_further_17:
	movq	(%r9,%r13,8), %r8
	movq	%r8, %r12
	andq	%r14, %r12
	movq	%r8, %rax
	lock cmpxchgq	%r12, (%r9,%r13,8)
	jne	.L0_1_0_take_further_17
	leal	-1(%r10), %eax
	andl	%r10d, %eax
	movl	%eax, %r10d
	testq	%rdi, %r8
	je	.L0_1_0_take_further_16
	jmp	.L0_1_0_take_further_30
.L0_1_0_take_further_18:
	addl	%r11d, %ebp
	incq	%r13
	cmpq	%rbx, %r13
	movl	$0, %edi
	jb	.L0_1_0_take_further_15
.L0_1_0_take_further_19:
	testq	%r15, %r15
	je	.L0_1_0_take_further_24
	xorl	%edi, %edi
	xorl	%r13d, %r13d
.L0_1_0_take_further_20:
	leaq	1(%rdx), %r8
	cmpq	%r15, %r8
	setb	%al
	cmpq	%rdx, %r13
	setne	%cl
	cmoveq	%r8, %r13
	orb	%al, %cl
	je	.L0_1_0_take_further_24
	movq	%rdi, %r14
	movq	(%rsi), %rax
	movq	(%rax,%r13,8), %r11
	movq	%r11, %r10
	shrq	$32, %r10
	.byte 0x66, 0x66, 0x66, 0x2e, 0x0f, 0x1f, 0x84, 0x00, 0x00, 0x00, 0x00, 0x00 # nopw %cs:(%rax,%rax)
.L0_1_0_take_further_21:
	testl	%r11d, %r11d
	je	.L0_1_0_take_further_23
	tzcntl	%r11d, %ecx
	movl	$1, %edi
	shlq	%cl, %rdi
	movq	$-2, %rbx
	rolq	%cl, %rbx
	movq	(%rsi), %r9
	.byte 0x90 # nop
.L0_1_0_take_further_22:
	movq	(%r9,%r13,8), %r8
	movq	%r8, %r12
	andq	%rbx, %r12
	movq	%r8, %rax
	lock cmpxchgq	%r12, (%r9,%r13,8)
	jne	.L0_1_0_take_further_22
	leal	-1(%r11), %eax
	andl	%r11d, %eax
	movl	%eax, %r11d
	testq	%rdi, %r8
	je	.L0_1_0_take_further_21
	jmp	.L0_1_0_take_further_30
.L0_1_0_take_further_23:
	movq	%r14, %rdi
	addl	%r10d, %edi
	incq	%r13
	cmpq	%r15, %r13
	jb	.L0_1_0_take_further_20
.L0_1_0_take_further_24:
	addl	%ebp, %edi
	cmpl	$0, -8(%rsp)
	movq	-32(%rsp), %rbx
	jne	.L0_1_0_take_further_25
	cmpl	-12(%rsp), %edi
	je	.L0_1_0_take_further_26
.L0_1_0_take_further_25:
	incq	%rbx
	cmpq	$-1, %rbx
	jne	.L0_1_0_take_further_11
.L0_1_0_take_further_26:
	xorps	%xmm0, %xmm0
	movq	-24(%rsp), %rax
	movups	%xmm0, (%rax)
	movq	$0, 16(%rax)
	jmp	.L0_1_0_take_further_33
.L0_1_0_take_further_27:
	shlq	$5, %r10
	movq	8(%rsi), %rax
	addq	%r10, %rax
	movzbl	(%rcx,%rax), %edx
	movb	$0, (%rcx,%rax)
	cmpb	$1, %dl
	jne	.L0_1_0_take_further_34
	orq	%rcx, %r10
	movl	%r12d, %eax
	movq	%r10, %rcx
	shrq	$5, %rcx
	movq	88(%rsi), %rdx
	cmpq	%rcx, %rdx
	je	.L0_1_0_take_further_28
	xchgq	%rcx, 88(%rsi)
.L0_1_0_take_further_28:
	movq	-24(%rsp), %rcx
	movq	$1, (%rcx)
	movq	%r10, 8(%rcx)
	jmp	.L0_1_0_take_further_32
.L0_1_0_take_further_29:
	shlq	$5, %rdx
	movq	8(%rsi), %rax
	addq	%rdx, %rax
	movzbl	(%rcx,%rax), %esi
	movb	$0, (%rcx,%rax)
	cmpb	$1, %sil
	jne	.L0_1_0_take_further_34
	orq	%rcx, %rdx
	jmp	.L0_1_0_take_further_31
.L0_1_0_take_further_30:
	shlq	$5, %r13
	movq	8(%rsi), %rax
	addq	%r13, %rax
	movzbl	(%rcx,%rax), %edx
	movb	$0, (%rcx,%rax)
	cmpb	$1, %dl
	jne	.L0_1_0_take_further_34
	orq	%rcx, %r13
	movq	%r13, %rdx
	movq	%r13, %rax
	shrq	$5, %rax
	movq	88(%rsi), %rcx
	cmpq	%rax, %rcx
	je	.L0_1_0_take_further_31
	xchgq	%rax, 88(%rsi)
.L0_1_0_take_further_31:
	movl	%r12d, %eax
	movq	-24(%rsp), %rcx
	movq	$1, (%rcx)
	movq	%rdx, 8(%rcx)
.L0_1_0_take_further_32:
	movq	%rax, 16(%rcx)
.L0_1_0_take_further_33:
	popq	%rbx
	popq	%r12
	popq	%r13
	popq	%r14
	popq	%r15
	popq	%rbp
	retq
.L0_1_0_take_further_34:
	ud2

# fixed_pool_c::way::Way::go_apart
	.section .text$kdr_0_1_0_go_apart, "xr"
	.p2align 4
kdr_0_1_0_go_apart:
	movq	%rdx, %rcx
	movq	%rdx, %r9
	shrq	$5, %r9
	movl	%ecx, %eax
	andl	$31, %eax
	cmpq	$1, %rax
	sbbq	$-1, %r9
	testq	%rdx, %rdx
	je	.L0_1_0_go_apart_2
	movq	%rsi, %rax
	orq	%r9, %rax
	shrq	$32, %rax
	je	.L0_1_0_go_apart_3
	movq	%rsi, %rax
	xorl	%edx, %edx
	divq	%r9
	movq	(%rdi), %r8
	cmpq	%r8, %rdx
	jne	.L0_1_0_go_apart_4
.L0_1_0_go_apart_1:
	retq
.L0_1_0_go_apart_2:
	movq	(%rdi), %r8
	jmp	.L0_1_0_go_apart_4
.L0_1_0_go_apart_3:
	movl	%esi, %eax
	xorl	%edx, %edx
	divl	%r9d
	movq	(%rdi), %r8
	cmpq	%r8, %rdx
	je	.L0_1_0_go_apart_1
.L0_1_0_go_apart_4:
	movq	16(%rdi), %rsi
	movabsq	$-6148914691236517205, %rdx # imm = 0xAAAAAAAAAAAAAAAB
	movq	%rsi, %rax
	mulq	%rdx
	shrq	%rdx
	leaq	(%rdx,%rdx,2), %rdx
	movq	%rsi, %rax
	subq	%rdx, %rax
	cmpq	$1, %rax
	je	.L0_1_0_go_apart_7
	testq	%rax, %rax
	jne	.L0_1_0_go_apart_5
	addq	8(%rdi), %r8
.L0_1_0_go_apart_5:
	testq	%rcx, %rcx
	je	.L0_1_0_go_apart_8
.L0_1_0_go_apart_6:
	movq	%r8, %rax
	orq	%r9, %rax
	shrq	$32, %rax
	je	.L0_1_0_go_apart_9
	movq	%r8, %rax
	xorl	%edx, %edx
	divq	%r9
	movq	%rdx, (%rdi)
	incq	%rsi
	movq	%rsi, 16(%rdi)
	retq
.L0_1_0_go_apart_7:
	subq	8(%rdi), %r8
	testq	%rcx, %rcx
	jne	.L0_1_0_go_apart_6
.L0_1_0_go_apart_8:
	xorl	%edx, %edx
	movq	%rdx, (%rdi)
	incq	%rsi
	movq	%rsi, 16(%rdi)
	retq
.L0_1_0_go_apart_9:
	movl	%r8d, %eax
	xorl	%edx, %edx
	divl	%r9d
	movq	%rdx, (%rdi)
	incq	%rsi
	movq	%rsi, 16(%rdi)
	retq

# std_alloc::vec::Vec::grow_amortized
	.section .text$kdr_0_1_0_grow_amortized, "xr"
	.p2align 4
kdr_0_1_0_grow_amortized:
	movq	8(%rdi), %rsi
	cmpq	$-1, %rsi
	je	.L0_1_0_grow_amortized_2
	pushq	%r14
	pushq	%rbx
	pushq	%rax
	movq	16(%rdi), %rcx
	cmpq	$8, %rsi
	movl	$7, %ebx
	cmovaeq	%rsi, %rbx
	incq	%rbx
	movq	%rcx, %rdx
	shrq	$62, %rdx
	leaq	(%rcx,%rcx), %rax
	cmpq	%rax, %rbx
	cmovaq	%rbx, %rax
	testq	%rdx, %rdx
	cmoveq	%rax, %rbx
	testq	%rbx, %rbx
	js	.L0_1_0_grow_amortized_4
	testq	%rcx, %rcx
	je	.L0_1_0_grow_amortized_3
	movq	%rdi, %r14
	movq	(%rdi), %rdi
	movl	$1, %ecx
	movq	%rbx, %rdx
	callq	kdr_0_1_0_realloc
	testb	$1, %al
	je	.L0_1_0_grow_amortized_4
.L0_1_0_grow_amortized_1:
	movq	%rdx, (%r14)
	movq	%rbx, 16(%r14)
	movb	$1, %al
	addq	$8, %rsp
	popq	%rbx
	popq	%r14
	retq
.L0_1_0_grow_amortized_2:
	xorl	%eax, %eax
	retq
.L0_1_0_grow_amortized_3:
	movq	%rdi, %r14
	movl	$1, %esi
	movq	%rax, %rdi
	callq	kdr_0_1_0_alloc
	testb	$1, %al
	jne	.L0_1_0_grow_amortized_1
.L0_1_0_grow_amortized_4:
	xorl	%eax, %eax
	addq	$8, %rsp
	popq	%rbx
	popq	%r14
	retq

# fixed_pool_c::open_handle::OpenHandle::open
	.section .text$kdr_0_1_0_open, "xr"
	.p2align 4
kdr_0_1_0_open:
	pushq	%r15
	pushq	%r14
	pushq	%r13
	pushq	%r12
	pushq	%rbx
	movq	%rdx, %r14
	movl	$1, %r12d
	lock xaddq	%r12, 8(%rdx)
	movq	%rsi, %r15
	movq	%rdi, %rbx
	movq	8(%rdi), %rax
	movq	72(%rdi), %r13
	movq	(%rax), %rax
	movl	$72, %edi
	movl	$8, %esi
	callq	kdr_0_1_0_alloc
	testb	$1, %al
	je	.L0_1_0_open_1
	movq	%r13, %rax
	shrq	$5, %rax
	andl	$31, %r13d
	cmpq	$1, %r13
	sbbq	$-1, %rax
	movabsq	$-1085102592571150095, %rcx # imm = 0xF0F0F0F0F0F0F0F1
	imulq	%rax, %rcx
	movabsq	$1085102592571150095, %rax # imm = 0xF0F0F0F0F0F0F0F
	xorl	%esi, %esi
	cmpq	%rax, %rcx
	seta	%sil
	shll	$4, %esi
	leaq	1(%rsi), %rax
	imulq	%r12, %rax
	leaq	(%rax,%rsi), %rcx
	incq	%rcx
	movq	%rax, (%rdx)
	movq	%rcx, 8(%rdx)
	movq	$0, 16(%rdx)
	movq	%r15, 24(%rdx)
	movq	%r14, 32(%rdx)
	movq	$1, 40(%rdx)
	movq	$0, 48(%rdx)
	movq	%rbx, 56(%rdx)
	movq	$0, 64(%rdx)
	movb	$1, %al
	jmp	.L0_1_0_open_4
.L0_1_0_open_1:
	lock decq	(%r14)
	jne	.L0_1_0_open_2
	movq	%r14, %rdi
	callq	kdr_0_1_0_dealloc
.L0_1_0_open_2:
	lock decq	(%rbx)
	jne	.L0_1_0_open_3
	movq	40(%rbx), %r14
	movq	56(%rbx), %r15
	movq	%rbx, %rdi
	callq	kdr_0_1_0_dealloc
	movq	%r14, %rdi
	callq	kdr_0_1_0_dealloc
	movq	%r15, %rdi
	callq	kdr_0_1_0_dealloc
.L0_1_0_open_3:
	xorl	%edx, %edx
	xorl	%eax, %eax
.L0_1_0_open_4:
	popq	%rbx
	popq	%r12
	popq	%r13
	popq	%r14
	popq	%r15
	retq

# fixed_pool_c::caches::give_back
	.section .text$kdr_0_1_0_give_back, "xr"
	.p2align 4
kdr_0_1_0_give_back:
	movq	32(%rsi), %r9
	movq	16(%r9), %rax
	cmpb	$0, (%rax,%rdx)
	movb	$1, (%rax,%rdx)
	jne	.L0_1_0_give_back_4
	movq	%rcx, %r8
	movl	$1, %eax
	movl	%edx, %ecx
	shll	%cl, %eax
	movabsq	$4294967296, %rcx       # imm = 0x100000000
	orq	%rax, %rcx
	movq	8(%r9), %rax
	shrq	$5, %rdx
	lock xaddq	%rcx, (%rax,%rdx,8)
	testl	%ecx, %ecx
	jne	.L0_1_0_give_back_3
	movq	96(%r9), %rax
	cmpq	%rdx, %rax
	je	.L0_1_0_give_back_1
	movq	%rdx, %rax
	xchgq	%rax, 96(%r9)
.L0_1_0_give_back_1:
	movq	104(%r9), %rax
	cmpq	%rax, %rdx
	jae	.L0_1_0_give_back_3
	.byte 0x66, 0x2e, 0x0f, 0x1f, 0x84, 0x00, 0x00, 0x00, 0x00, 0x00 # nopw %cs:(%rax,%rax)
.L0_1_0_give_back_2:
	movq	104(%r9), %rax
	cmpq	%rax, %rdx
	jae	.L0_1_0_give_back_3
	lock cmpxchgq	%rdx, 104(%r9)
	jne	.L0_1_0_give_back_2
.L0_1_0_give_back_3:
	xorps	%xmm0, %xmm0
	movups	%xmm0, (%r8)
	cmpq	$0, (%rdi)
	movq	%rsi, (%rdi)
	jne	.L0_1_0_give_back_4
	retq
.L0_1_0_give_back_4:
	ud2

# kdr_cache_drop
	.section .text$kdr_0_1_0_cache_drop, "xr"
	.p2align 4
	.globl kdr_0_1_0_cache_drop
kdr_0_1_0_cache_drop:
	pushq	%r15
	pushq	%r14
	pushq	%r13
	pushq	%r12
	pushq	%rbx
	movq	(%rdi), %r12
	movq	$0, (%rdi)
	testq	%r12, %r12
	je	.L0_1_0_cache_drop_2
	movq	%rdi, %r14
	movq	%r12, %rdi
	callq	kdr_0_1_0_flush
	movq	32(%r12), %rbx
	movq	40(%r12), %r15
	movq	56(%r12), %r13
	movq	%r12, %rdi
	callq	kdr_0_1_0_dealloc
	cmpq	$0, (%r14)
	movq	$0, (%r14)
	jne	.L0_1_0_cache_drop_4
	testq	%r13, %r13
	je	.L0_1_0_cache_drop_1
	movq	%r15, %rdi
	callq	kdr_0_1_0_dealloc
.L0_1_0_cache_drop_1:
	xorl	%eax, %eax
	lock decq	(%rbx)
	jne	.L0_1_0_cache_drop_3
	movq	40(%rbx), %r14
	movq	56(%rbx), %r15
	movq	%rbx, %rdi
	callq	kdr_0_1_0_dealloc
	movq	%r14, %rdi
	callq	kdr_0_1_0_dealloc
	movq	%r15, %rdi
	callq	kdr_0_1_0_dealloc
	xorl	%eax, %eax
	jmp	.L0_1_0_cache_drop_3
.L0_1_0_cache_drop_2:
	movl	$4, %eax
.L0_1_0_cache_drop_3:
	popq	%rbx
	popq	%r12
	popq	%r13
	popq	%r14
	popq	%r15
	retq
.L0_1_0_cache_drop_4:
	ud2

# kdr_cache_flush
	.section .text$kdr_0_1_0_cache_flush, "xr"
	.p2align 4
	.globl kdr_0_1_0_cache_flush
kdr_0_1_0_cache_flush:
	pushq	%r14
	pushq	%rbx
	pushq	%rax
	movq	(%rdi), %r14
	movq	$0, (%rdi)
	testq	%r14, %r14
	je	.L0_1_0_cache_flush_1
	movq	%rdi, %rbx
	movq	%r14, %rdi
	callq	kdr_0_1_0_flush
	xorl	%eax, %eax
	cmpq	$0, (%rbx)
	movq	%r14, (%rbx)
	jne	.L0_1_0_cache_flush_2
	addq	$8, %rsp
	popq	%rbx
	popq	%r14
	retq
.L0_1_0_cache_flush_1:
	movl	$4, %eax
	addq	$8, %rsp
	popq	%rbx
	popq	%r14
	retq
.L0_1_0_cache_flush_2:
	ud2

# kdr_cache_keeps
	.section .text$kdr_0_1_0_cache_keeps, "xr"
	.p2align 4
	.globl kdr_0_1_0_cache_keeps
kdr_0_1_0_cache_keeps:
	movq	(%rdi), %rcx
	movq	$0, (%rdi)
	testq	%rcx, %rcx
	je	.L0_1_0_cache_keeps_3
	cmpq	%rdx, 24(%rcx)
	jne	.L0_1_0_cache_keeps_4
	movq	40(%rcx), %rdx
	movq	48(%rcx), %r8
	xorl	%r9d, %r9d
.L0_1_0_cache_keeps_1:
	cmpq	%r9, %r8
	setne	%al
	je	.L0_1_0_cache_keeps_2
	cmpq	%rsi, (%rdx,%r9,8)
	leaq	1(%r9), %r9
	jne	.L0_1_0_cache_keeps_1
.L0_1_0_cache_keeps_2:
	movq	%rcx, (%rdi)
	retq
.L0_1_0_cache_keeps_3:
	xorl	%eax, %eax
	retq
.L0_1_0_cache_keeps_4:
	xorl	%eax, %eax
	movq	%rcx, (%rdi)
	retq

# kdr_cache_pull
	.section .text$kdr_0_1_0_cache_pull, "xr"
	.p2align 4
	.globl kdr_0_1_0_cache_pull
kdr_0_1_0_cache_pull:
	movq	%rsi, %rdx
	movq	(%rdi), %rsi
	movq	$0, (%rdi)
	testq	%rsi, %rsi
	je	.L0_1_0_cache_pull_1
	cmpq	$0, (%rdx)
	je	.L0_1_0_cache_pull_2
	movq	%rsi, (%rdi)
	movl	$2, %eax
	retq
.L0_1_0_cache_pull_1:
	movl	$4, %eax
	retq
.L0_1_0_cache_pull_2:
	movq	48(%rsi), %rax
	testq	%rax, %rax
	je	kdr_0_1_0_pull_further
	leaq	-1(%rax), %rcx
	movq	%rcx, 48(%rsi)
	movq	24(%rsi), %rcx
	movq	40(%rsi), %r8
	movq	-8(%r8,%rax,8), %rax
	incq	%rax
	movq	%rax, (%rdx)
	movq	%rcx, 8(%rdx)
	xorl	%eax, %eax
	cmpq	$0, (%rdi)
	movq	%rsi, (%rdi)
	jne	.L0_1_0_cache_pull_3
	retq
.L0_1_0_cache_pull_3:
	ud2

# kdr_cache_new
	.section .text$kdr_0_1_0_cache_new, "xr"
	.p2align 4
	.globl kdr_0_1_0_cache_new
kdr_0_1_0_cache_new:
	pushq	%rbp
	pushq	%r15
	pushq	%r14
	pushq	%r13
	pushq	%r12
	pushq	%rbx
	subq	$56, %rsp
	movq	(%rcx), %rax
	movq	$0, (%rcx)
	testq	%rax, %rax
	je	.L0_1_0_cache_new_1
	movq	%rax, (%rcx)
	movl	$5, %ebx
	jmp	.L0_1_0_cache_new_11
.L0_1_0_cache_new_1:
	movq	(%rdi), %rbp
	movq	$0, (%rdi)
	movl	$4, %ebx
	testq	%rbp, %rbp
	je	.L0_1_0_cache_new_11
	cmpb	$1, 40(%rbp)
	jne	.L0_1_0_cache_new_10
	movq	56(%rbp), %r14
.L0_1_0_cache_new_2:
	movq	(%r14), %rax
	movl	$7, %ebx
	movabsq	$9223372036854775806, %r8 # imm = 0x7FFFFFFFFFFFFFFE
	cmpq	%r8, %rax
	ja	.L0_1_0_cache_new_10
	leaq	1(%rax), %r8
	lock cmpxchgq	%r8, (%r14)
	jne	.L0_1_0_cache_new_2
	testq	%rsi, %rsi
	movq	%rcx, 48(%rsp)
	je	.L0_1_0_cache_new_4
	movq	%rsi, %rax
	shrq	$60, %rax
	jne	.L0_1_0_cache_new_3
	movq	%rdx, %r12
	leaq	(,%rsi,8), %rax
	movq	%rsi, 32(%rsp)
	movl	$8, %esi
	movq	%rdi, 16(%rsp)
	movq	%rax, %rdi
	callq	kdr_0_1_0_alloc
	movq	16(%rsp), %rdi
	testb	$1, %al
	je	.L0_1_0_cache_new_3
	movq	%rdx, 24(%rsp)
	jmp	.L0_1_0_cache_new_5
.L0_1_0_cache_new_3:
	lock decq	(%r14)
	jne	.L0_1_0_cache_new_10
	movq	40(%r14), %r15
	movq	56(%r14), %r12
	movq	%rdi, %r13
	movq	%r14, %rdi
	callq	kdr_0_1_0_dealloc
	movq	%r15, %rdi
	callq	kdr_0_1_0_dealloc
	movq	%r12, %rdi
	callq	kdr_0_1_0_dealloc
	movq	%r13, %rdi
	jmp	.L0_1_0_cache_new_10
.L0_1_0_cache_new_4:
	movq	%rdx, %r12
	movq	%rsi, 32(%rsp)
	movq	%rdi, 16(%rsp)
	leaq	8(%rsp), %rax
	movq	%rax, 24(%rsp)
.L0_1_0_cache_new_5:
	movq	32(%rbp), %rax
	movl	$1, %r15d
	lock xaddq	%r15, 8(%rax)
	movq	8(%r14), %rax
	movq	(%rax), %rax
	movq	72(%r14), %r13
	movq	24(%rbp), %rax
	movq	%rax, 40(%rsp)
	movl	$64, %edi
	movl	$8, %esi
	callq	kdr_0_1_0_alloc
	testb	$1, %al
	je	.L0_1_0_cache_new_7
	movq	%r13, %rax
	shrq	$5, %rax
	andl	$31, %r13d
	cmpq	$1, %r13
	sbbq	$-1, %rax
	movabsq	$-1085102592571150095, %rcx # imm = 0xF0F0F0F0F0F0F0F1
	imulq	%rax, %rcx
	movabsq	$1085102592571150095, %rax # imm = 0xF0F0F0F0F0F0F0F
	xorl	%esi, %esi
	cmpq	%rax, %rcx
	seta	%sil
	shll	$4, %esi
	incq	%rsi
	incq	%r15
	imulq	%rsi, %r15
	movq	%r12, (%rdx)
	movq	%r15, 8(%rdx)
	movq	$0, 16(%rdx)
	movq	40(%rsp), %rax
	movq	%rax, 24(%rdx)
	movq	%r14, 32(%rdx)
	movq	24(%rsp), %rax
	movq	%rax, 40(%rdx)
	movq	$0, 48(%rdx)
	movq	32(%rsp), %rax
	movq	%rax, 56(%rdx)
	movq	16(%rsp), %rax
	cmpq	$0, (%rax)
	movq	%rbp, (%rax)
	jne	.L0_1_0_cache_new_6
	xorl	%ebx, %ebx
	movq	48(%rsp), %rax
	cmpq	$0, (%rax)
	movq	%rdx, (%rax)
	je	.L0_1_0_cache_new_11
.L0_1_0_cache_new_6:
	ud2
.L0_1_0_cache_new_7:
	lock decq	(%r14)
	jne	.L0_1_0_cache_new_8
	movq	40(%r14), %r12
	movq	56(%r14), %r15
	movq	%r14, %rdi
	callq	kdr_0_1_0_dealloc
	movq	%r12, %rdi
	callq	kdr_0_1_0_dealloc
	movq	%r15, %rdi
	callq	kdr_0_1_0_dealloc
.L0_1_0_cache_new_8:
	cmpq	$0, 32(%rsp)
	je	.L0_1_0_cache_new_9
	movq	24(%rsp), %rdi
	callq	kdr_0_1_0_dealloc
.L0_1_0_cache_new_9:
	movq	16(%rsp), %rdi
.L0_1_0_cache_new_10:
	cmpq	$0, (%rdi)
	movq	%rbp, (%rdi)
	jne	.L0_1_0_cache_new_6
.L0_1_0_cache_new_11:
	movl	%ebx, %eax
	addq	$56, %rsp
	popq	%rbx
	popq	%r12
	popq	%r13
	popq	%r14
	popq	%r15
	popq	%rbp
	retq

# kdr_handle_items
	.section .text$kdr_0_1_0_handle_items, "xr"
	.p2align 4
	.globl kdr_0_1_0_handle_items
kdr_0_1_0_handle_items:
	movq	(%rdi), %rcx
	movq	$0, (%rdi)
	testq	%rcx, %rcx
	je	.L0_1_0_handle_items_1
	cmpb	$1, 40(%rcx)
	jne	.L0_1_0_handle_items_2
	movq	56(%rcx), %rax
	movq	72(%rax), %rax
	movq	%rcx, (%rdi)
	retq
.L0_1_0_handle_items_1:
	xorl	%eax, %eax
	retq
.L0_1_0_handle_items_2:
	xorl	%eax, %eax
	movq	%rcx, (%rdi)
	retq

# constants
	.section .rdata, "dr"
	.p2align 4
.L0_1_0_constant_16_0:
	.byte 0xff, 0xff, 0xff, 0xff, 0x00, 0x00, 0x00, 0x00, 0xff, 0xff, 0xff, 0xff, 0x00, 0x00, 0x00, 0x00

# kdr_handle_new
	.section .text$kdr_0_1_0_handle_new, "xr"
	.p2align 4
	.globl kdr_0_1_0_handle_new
kdr_0_1_0_handle_new:
	pushq	%rbp
	pushq	%r15
	pushq	%r14
	pushq	%r13
	pushq	%r12
	pushq	%rbx
	subq	$88, %rsp
	movq	(%rdx), %rax
	movq	$0, (%rdx)
	testq	%rax, %rax
	je	.L0_1_0_handle_new_1
	movq	%rax, (%rdx)
	movl	$5, %eax
	jmp	.L0_1_0_handle_new_18
.L0_1_0_handle_new_1:
	testq	%rdi, %rdi
	je	.L0_1_0_handle_new_2
	movl	$0, 19(%rsp)
	movl	$0, 16(%rsp)
	cmpq	$-32, %rdi
	ja	.L0_1_0_handle_new_17
	leaq	-1(%rdi), %rbx
	movq	%rbx, %rbp
	shrq	$5, %rbp
	leaq	8(,%rbp,8), %rax
	movq	%rsi, 80(%rsp)
	movl	$8, %esi
	movq	%rdi, (%rsp)
	movq	%rax, %rdi
	movq	%rdx, 72(%rsp)
	callq	kdr_0_1_0_alloc
	movq	(%rsp), %rsi
	testb	$1, %al
	je	.L0_1_0_handle_new_17
	movq	%rdx, %r15
	testq	%rbp, %rbp
	je	.L0_1_0_handle_new_7
	cmpq	$129, %rsi
	jae	.L0_1_0_handle_new_3
	xorl	%eax, %eax
	jmp	.L0_1_0_handle_new_5
.L0_1_0_handle_new_2:
	movl	$6, %eax
	jmp	.L0_1_0_handle_new_18
.L0_1_0_handle_new_3:
	movq	%rbp, %rax
	andq	$-4, %rax
	movq	%rbx, %rcx
	shrq	$2, %rcx
	andq	$-32, %rcx
	xorl	%edx, %edx
	.byte 0x66, 0x2e, 0x0f, 0x1f, 0x84, 0x00, 0x00, 0x00, 0x00, 0x00 # nopw %cs:(%rax,%rax)
.L0_1_0_handle_new_4:
	movaps	.L0_1_0_constant_16_0(%rip), %xmm0
	movups	%xmm0, (%r15,%rdx)
	movups	%xmm0, 16(%r15,%rdx)
	addq	$32, %rdx
	cmpq	%rdx, %rcx
	jne	.L0_1_0_handle_new_4
	jmp	.L0_1_0_handle_new_6
.L0_1_0_handle_new_5:
	movl	$4294967295, %ecx       # imm = 0xFFFFFFFF
	movq	%rcx, (%r15,%rax,8)
	incq	%rax
.L0_1_0_handle_new_6:
	cmpq	%rax, %rbp
	jne	.L0_1_0_handle_new_5
.L0_1_0_handle_new_7:
	movl	%ebx, %eax
	andl	$224, %eax
	movl	%esi, %ecx
	subl	%eax, %ecx
	movq	$-1, %rax
	shlq	%cl, %rax
	notq	%rax
	movq	%rax, (%r15,%rbp,8)
	testq	%rsi, %rsi
	js	.L0_1_0_handle_new_15
	movl	$1, %esi
	movq	(%rsp), %rdi
	callq	kdr_0_1_0_alloc
	movq	(%rsp), %r13
	testb	$1, %al
	je	.L0_1_0_handle_new_15
	leaq	1(%rbp), %rax
	movq	%rax, 64(%rsp)
	movq	%rdx, 32(%rsp)
	movq	$0, 40(%rsp)
	movq	%r13, 48(%rsp)
	xorl	%r12d, %r12d
	jmp	.L0_1_0_handle_new_9
	.byte 0x66, 0x90 # nop
.L0_1_0_handle_new_8:
	movb	$1, (%rdx,%r14)
	leaq	1(%r14), %r12
	movq	%r12, 40(%rsp)
	decq	%r13
	je	.L0_1_0_handle_new_10
.L0_1_0_handle_new_9:
	movq	%r12, %r14
	cmpq	%r12, 48(%rsp)
	jne	.L0_1_0_handle_new_8
	leaq	32(%rsp), %rdi
	callq	kdr_0_1_0_grow_amortized
	testb	%al, %al
	je	.L0_1_0_handle_new_19
	movq	32(%rsp), %rdx
	movq	40(%rsp), %r14
	jmp	.L0_1_0_handle_new_8
.L0_1_0_handle_new_10:
	movq	32(%rsp), %rax
	movq	%rax, 24(%rsp)
	movq	48(%rsp), %r13
	movl	$8, %esi
	leaq	8(,%rbp,8), %rdi
	callq	kdr_0_1_0_alloc
	testb	$1, %al
	je	.L0_1_0_handle_new_13
	movq	%rdx, %r9
	movq	%r13, 56(%rsp)
	testq	%r12, %r12
	js	.L0_1_0_handle_new_12
	movl	$1, %esi
	movq	%r12, %rdi
	movq	%r9, %r13
	callq	kdr_0_1_0_alloc
	movq	%r13, %r9
	testb	$1, %al
	je	.L0_1_0_handle_new_12
	xorl	%eax, %eax
	cmpq	$97, (%rsp)
	jb	.L0_1_0_handle_new_20
	movq	%r9, %rcx
	subq	%r15, %rcx
	cmpq	$32, %rcx
	movq	24(%rsp), %rdi
	jb	.L0_1_0_handle_new_21
	leaq	1(%rbp), %rcx
	movq	%rcx, %rax
	andq	$-4, %rax
	leaq	(,%rcx,8), %rcx
	andq	$-32, %rcx
	xorl	%esi, %esi
.L0_1_0_handle_new_11:
	movups	(%r15,%rsi), %xmm0
	movups	16(%r15,%rsi), %xmm1
	movups	%xmm0, (%r9,%rsi)
	movups	%xmm1, 16(%r9,%rsi)
	addq	$32, %rsi
	cmpq	%rsi, %rcx
	jne	.L0_1_0_handle_new_11
	leaq	1(%rbp), %rcx
	cmpq	%rax, %rcx
	jne	.L0_1_0_handle_new_21
	jmp	.L0_1_0_handle_new_25
.L0_1_0_handle_new_12:
	movq	%r9, %rdi
	callq	kdr_0_1_0_dealloc
	movq	56(%rsp), %r13
.L0_1_0_handle_new_13:
	testq	%r13, %r13
	je	.L0_1_0_handle_new_15
	movq	24(%rsp), %rdi
.L0_1_0_handle_new_14:
	callq	kdr_0_1_0_dealloc
.L0_1_0_handle_new_15:
	movq	%r15, %rdi
.L0_1_0_handle_new_16:
	callq	kdr_0_1_0_dealloc
.L0_1_0_handle_new_17:
	movl	$7, %eax
.L0_1_0_handle_new_18:
	addq	$88, %rsp
	popq	%rbx
	popq	%r12
	popq	%r13
	popq	%r14
	popq	%r15
	popq	%rbp
	retq
.L0_1_0_handle_new_19:
	cmpq	$0, 48(%rsp)
	je	.L0_1_0_handle_new_15
	movq	32(%rsp), %rdi
	jmp	.L0_1_0_handle_new_14
.L0_1_0_handle_new_20:
	movq	24(%rsp), %rdi
.L0_1_0_handle_new_21:
	movq	%rbp, %rcx
	subq	%rax, %rcx
	notl	%ebx
	testb	$96, %bl
	je	.L0_1_0_handle_new_23
	leal	1(%rbp), %r8d
	andl	$3, %r8d
.L0_1_0_handle_new_22:
	movq	(%r15,%rax,8), %rsi
	movq	%rsi, (%r9,%rax,8)
	incq	%rax
	decq	%r8
	jne	.L0_1_0_handle_new_22
.L0_1_0_handle_new_23:
	cmpq	$3, %rcx
	jb	.L0_1_0_handle_new_25
	leaq	(%r15,%rax,8), %rcx
	addq	$24, %rcx
	leaq	(%r9,%rax,8), %r8
	addq	$24, %r8
	subq	%rax, %rbp
	movq	$-1, %rax
.L0_1_0_handle_new_24:
	movq	-16(%rcx,%rax,8), %rsi
	movq	%rsi, -16(%r8,%rax,8)
	movq	-8(%rcx,%rax,8), %rsi
	movq	%rsi, -8(%r8,%rax,8)
	movq	(%rcx,%rax,8), %rsi
	movq	%rsi, (%r8,%rax,8)
	movq	8(%rcx,%rax,8), %rsi
	movq	%rsi, 8(%r8,%rax,8)
	addq	$4, %rax
	cmpq	%rax, %rbp
	jne	.L0_1_0_handle_new_24
.L0_1_0_handle_new_25:
	testq	%r12, %r12
	movq	56(%rsp), %rbx
	je	.L0_1_0_handle_new_34
	cmpq	$8, %r12
	setb	%al
	movq	%rdi, %rcx
	subq	%rdx, %rcx
	cmpq	$32, %rcx
	setb	%cl
	orb	%al, %cl
	movq	%r12, %rax
	jne	.L0_1_0_handle_new_30
	movabsq	$9223372036854775776, %rcx # imm = 0x7FFFFFFFFFFFFFE0
	cmpq	$32, %r12
	jae	.L0_1_0_handle_new_26
	xorl	%r10d, %r10d
	jmp	.L0_1_0_handle_new_28
.L0_1_0_handle_new_26:
	movq	%r12, %r10
	andq	%rcx, %r10
	leaq	(%rdx,%r14), %rax
	addq	$-15, %rax
	leaq	(%rdi,%r14), %rsi
	addq	$-15, %rsi
	movq	%r12, %r9
	andq	%rcx, %r9
	negq	%r9
	xorl	%r8d, %r8d
.L0_1_0_handle_new_27:
	movups	-16(%rsi,%r8), %xmm0
	movups	(%rsi,%r8), %xmm1
	movups	%xmm1, (%rax,%r8)
	movups	%xmm0, -16(%rax,%r8)
	addq	$-32, %r8
	cmpq	%r8, %r9
	jne	.L0_1_0_handle_new_27
	cmpq	%r10, %r12
	je	.L0_1_0_handle_new_34
	testb	$24, %r12b
	je	.L0_1_0_handle_new_38
.L0_1_0_handle_new_28:
	addq	$24, %rcx
	andq	%r12, %rcx
	movl	%r12d, %eax
	andl	$7, %eax
	leaq	(%rdx,%r14), %rsi
	addq	$-7, %rsi
	negq	%r10
	leaq	(%rdi,%r14), %r11
	addq	$-7, %r11
	movabsq	$9223372036854775800, %r8 # imm = 0x7FFFFFFFFFFFFFF8
	andq	%r12, %r8
	negq	%r8
.L0_1_0_handle_new_29:
	movq	(%r11,%r10), %r9
	movq	%r9, (%rsi,%r10)
	addq	$-8, %r10
	cmpq	%r10, %r8
	jne	.L0_1_0_handle_new_29
	cmpq	%rcx, %r12
	je	.L0_1_0_handle_new_34
.L0_1_0_handle_new_30:
	leaq	-1(%rax), %rcx
	movq	%rax, %r8
	andq	$3, %r8
	je	.L0_1_0_handle_new_32
.L0_1_0_handle_new_31:
	movzbl	-1(%rdi,%rax), %esi
	movb	%sil, -1(%rdx,%rax)
	decq	%rax
	decq	%r8
	jne	.L0_1_0_handle_new_31
.L0_1_0_handle_new_32:
	cmpq	$3, %rcx
	jb	.L0_1_0_handle_new_34
	movq	%rax, %rcx
.L0_1_0_handle_new_33:
	movzbl	-1(%rdi,%rax), %esi
	movb	%sil, -1(%rdx,%rax)
	movzbl	-2(%rdi,%rax), %esi
	movb	%sil, -2(%rdx,%rax)
	movzbl	-3(%rdi,%rax), %esi
	movb	%sil, -3(%rdx,%rax)
	addq	$-4, %rcx
	movzbl	-4(%rdi,%rax), %esi
	movb	%sil, -4(%rdx,%rax)
	movq	%rcx, %rax
	jne	.L0_1_0_handle_new_33
.L0_1_0_handle_new_34:
	movq	%rdx, %r14
	testq	%rbx, %rbx
	je	.L0_1_0_handle_new_35
	callq	kdr_0_1_0_dealloc
.L0_1_0_handle_new_35:
	movq	%r15, %rdi
	callq	kdr_0_1_0_dealloc
	movl	16(%rsp), %eax
	movl	19(%rsp), %ecx
	movl	%ecx, 11(%rsp)
	movl	%eax, 8(%rsp)
	movl	$120, %edi
	movl	$8, %esi
	callq	kdr_0_1_0_alloc
	testb	$1, %al
	je	.L0_1_0_handle_new_36
	movq	%rdx, %rbx
	movq	$1, (%rdx)
	movq	%r13, 8(%rdx)
	movq	%r14, 16(%rdx)
	movq	64(%rsp), %rcx
	movq	%rcx, 24(%rdx)
	movq	%r12, 32(%rdx)
	movq	%r13, 40(%rdx)
	movq	%rcx, 48(%rdx)
	movq	%r14, 56(%rdx)
	movq	%r12, 64(%rdx)
	movq	(%rsp), %rax
	movq	%rax, 72(%rdx)
	movq	%rcx, 80(%rdx)
	movb	$0, 88(%rdx)
	movl	8(%rsp), %eax
	movl	11(%rsp), %ecx
	movl	%eax, 89(%rdx)
	movl	%ecx, 92(%rdx)
	xorps	%xmm0, %xmm0
	movups	%xmm0, 96(%rdx)
	movq	$0, 112(%rdx)
	movl	$16, %edi
	movl	$8, %esi
	callq	kdr_0_1_0_alloc
	testb	$1, %al
	je	.L0_1_0_handle_new_37
	movq	$1, (%rdx)
	movq	$0, 8(%rdx)
	movq	%rbx, %rdi
	movq	80(%rsp), %rsi
	callq	kdr_0_1_0_open
	movl	%eax, %ecx
	movl	$7, %eax
	cmpb	$1, %cl
	jne	.L0_1_0_handle_new_18
	xorl	%eax, %eax
	movq	72(%rsp), %rcx
	cmpq	$0, (%rcx)
	movq	%rdx, (%rcx)
	je	.L0_1_0_handle_new_18
	ud2
.L0_1_0_handle_new_36:
	movq	%r13, %rdi
	callq	kdr_0_1_0_dealloc
	movq	%r14, %rdi
	jmp	.L0_1_0_handle_new_16
.L0_1_0_handle_new_37:
	lock decq	(%rbx)
	jne	.L0_1_0_handle_new_17
	movq	40(%rbx), %r14
	movq	56(%rbx), %r15
	movq	%rbx, %rdi
	callq	kdr_0_1_0_dealloc
	movq	%r14, %rdi
	jmp	.L0_1_0_handle_new_14
.L0_1_0_handle_new_38:
	movl	%r12d, %eax
	andl	$31, %eax
	leaq	-1(%rax), %rcx
	movq	%rax, %r8
	andq	$3, %r8
	jne	.L0_1_0_handle_new_31
	jmp	.L0_1_0_handle_new_32

# kdr_handle_share
	.section .text$kdr_0_1_0_handle_share, "xr"
	.p2align 4
	.globl kdr_0_1_0_handle_share
kdr_0_1_0_handle_share:
	pushq	%rbp
	pushq	%r15
	pushq	%r14
	pushq	%r13
	pushq	%r12
	pushq	%rbx
	pushq	%rax
	movq	(%rsi), %rax
	movq	$0, (%rsi)
	testq	%rax, %rax
	je	.L0_1_0_handle_share_2
	movq	%rax, (%rsi)
	movl	$5, %ebx
.L0_1_0_handle_share_1:
	movl	%ebx, %eax
	addq	$8, %rsp
	popq	%rbx
	popq	%r12
	popq	%r13
	popq	%r14
	popq	%r15
	popq	%rbp
	retq
.L0_1_0_handle_share_2:
	movq	(%rdi), %r12
	movq	$0, (%rdi)
	testq	%r12, %r12
	je	.L0_1_0_handle_share_5
	cmpb	$1, 40(%r12)
	jne	.L0_1_0_handle_share_6
	movabsq	$9223372036854775806, %r8 # imm = 0x7FFFFFFFFFFFFFFE
	movq	56(%r12), %rcx
	.byte 0x66, 0x66, 0x66, 0x66, 0x66, 0x66, 0x2e, 0x0f, 0x1f, 0x84, 0x00, 0x00, 0x00, 0x00, 0x00 # nopw %cs:(%rax,%rax)
.L0_1_0_handle_share_3:
	movq	(%rcx), %rax
	movl	$7, %ebx
	cmpq	%r8, %rax
	ja	.L0_1_0_handle_share_7
	leaq	1(%rax), %rdx
	lock cmpxchgq	%rdx, (%rcx)
	jne	.L0_1_0_handle_share_3
	movq	32(%r12), %rdx
	.byte 0x0f, 0x1f, 0x00 # nopl (%rax)
.L0_1_0_handle_share_4:
	movq	(%rdx), %rax
	cmpq	%r8, %rax
	ja	.L0_1_0_handle_share_10
	leaq	1(%rax), %r9
	lock cmpxchgq	%r9, (%rdx)
	jne	.L0_1_0_handle_share_4
	movq	24(%r12), %rax
	movq	%rdi, %rbx
	movq	%rcx, %rdi
	movq	%rsi, %r14
	movq	%rax, %rsi
	callq	kdr_0_1_0_open
	movq	%rbx, %rdi
	movq	%r14, %rsi
	xorl	%ecx, %ecx
	cmpb	$1, %al
	sete	%al
	movl	$7, %ebx
	cmovel	%ecx, %ebx
	cmoveq	%rdx, %rcx
	jmp	.L0_1_0_handle_share_8
.L0_1_0_handle_share_5:
	movl	$4, %ebx
	jmp	.L0_1_0_handle_share_1
.L0_1_0_handle_share_6:
	movl	$4, %ebx
.L0_1_0_handle_share_7:
	xorl	%eax, %eax
	xorl	%ecx, %ecx
.L0_1_0_handle_share_8:
	cmpq	$0, (%rdi)
	movq	%r12, (%rdi)
	jne	.L0_1_0_handle_share_9
	testb	%al, %al
	je	.L0_1_0_handle_share_1
	xorl	%ebx, %ebx
	cmpq	$0, (%rsi)
	movq	%rcx, (%rsi)
	je	.L0_1_0_handle_share_1
.L0_1_0_handle_share_9:
	ud2
.L0_1_0_handle_share_10:
	lock decq	(%rcx)
	jne	.L0_1_0_handle_share_7
	movq	40(%rcx), %r14
	movq	56(%rcx), %r15
	movq	%rdi, %r13
	movq	%rcx, %rdi
	movq	%rsi, %rbp
	callq	kdr_0_1_0_dealloc
	movq	%r14, %rdi
	callq	kdr_0_1_0_dealloc
	movq	%r15, %rdi
	callq	kdr_0_1_0_dealloc
	movq	%r13, %rdi
	movq	%rbp, %rsi
	jmp	.L0_1_0_handle_share_7

# kdr_place_pull
	.section .text$kdr_0_1_0_place_pull, "xr"
	.p2align 4
	.globl kdr_0_1_0_place_pull
kdr_0_1_0_place_pull:
	pushq	%r15
	pushq	%r14
	pushq	%r13
	pushq	%r12
	pushq	%rbx
	subq	$32, %rsp
	movq	(%rdi), %rbx
	movq	$0, (%rdi)
	testq	%rbx, %rbx
	je	.L0_1_0_place_pull_1
	movzbl	40(%rbx), %ecx
	movl	$4, %eax
	testb	%cl, %cl
	je	.L0_1_0_place_pull_9
	cmpb	$1, %cl
	jne	.L0_1_0_place_pull_9
	movl	$2, %eax
	cmpq	$0, (%rdx)
	jne	.L0_1_0_place_pull_9
	movq	56(%rbx), %r10
	movq	80(%r10), %rcx
	cmpq	%rcx, %rsi
	jb	.L0_1_0_place_pull_4
	testq	%rcx, %rcx
	je	.L0_1_0_place_pull_12
	movq	%rdx, %r8
	movq	%rsi, %rax
	orq	%rcx, %rax
	shrq	$32, %rax
	je	.L0_1_0_place_pull_2
	movq	%rsi, %rax
	xorl	%edx, %edx
	divq	%rcx
	movq	%rdx, %rsi
	jmp	.L0_1_0_place_pull_3
.L0_1_0_place_pull_1:
	movl	$4, %eax
	jmp	.L0_1_0_place_pull_10
.L0_1_0_place_pull_2:
	movl	%esi, %eax
	xorl	%edx, %edx
	divl	%ecx
	movl	%edx, %esi
.L0_1_0_place_pull_3:
	movq	%r8, %rdx
.L0_1_0_place_pull_4:
	leaq	8(%r10), %r8
	movq	(%r8), %rax
	movq	(%rax,%rsi,8), %r11
	xorps	%xmm0, %xmm0
	movaps	%xmm0, (%rsp)
	movq	$0, 16(%rsp)
	.byte 0x66, 0x0f, 0x1f, 0x84, 0x00, 0x00, 0x00, 0x00, 0x00 # nopw (%rax,%rax)
.L0_1_0_place_pull_5:
	testl	%r11d, %r11d
	je	.L0_1_0_place_pull_7
	tzcntl	%r11d, %ecx
	movl	$1, %r14d
	shlq	%cl, %r14
	movq	$-2, %r15
	rolq	%cl, %r15
	movq	(%r8), %r12
.L0_1_0_place_pull_6:
	movq	(%r12,%rsi,8), %r9
	movq	%r9, %r13
	andq	%r15, %r13
	movq	%r9, %rax
	lock cmpxchgq	%r13, (%r12,%rsi,8)
	jne	.L0_1_0_place_pull_6
	leal	-1(%r11), %eax
	andl	%r11d, %eax
	movl	%eax, %r11d
	testq	%r14, %r9
	je	.L0_1_0_place_pull_5
	shlq	$5, %rsi
	movq	16(%r10), %rax
	addq	%rsi, %rax
	movzbl	(%rcx,%rax), %r8d
	movb	$0, (%rcx,%rax)
	cmpb	$1, %r8b
	jne	.L0_1_0_place_pull_12
	orq	%rcx, %rsi
	jmp	.L0_1_0_place_pull_8
.L0_1_0_place_pull_7:
	movq	%rdx, %r15
	movq	%rdi, %r14
	movq	%rsp, %rdi
	movq	%rsi, %rdx
	movq	%r8, %rsi
	callq	kdr_0_1_0_take_further
	cmpb	$1, (%rsp)
	jne	.L0_1_0_place_pull_11
	movq	8(%rsp), %rsi
	movq	%r14, %rdi
	movq	%r15, %rdx
.L0_1_0_place_pull_8:
	movq	24(%rbx), %rax
	incq	%rsi
	movq	%rsi, (%rdx)
	movq	%rax, 8(%rdx)
	xorl	%eax, %eax
.L0_1_0_place_pull_9:
	cmpq	$0, (%rdi)
	movq	%rbx, (%rdi)
	jne	.L0_1_0_place_pull_12
.L0_1_0_place_pull_10:
	addq	$32, %rsp
	popq	%rbx
	popq	%r12
	popq	%r13
	popq	%r14
	popq	%r15
	retq
.L0_1_0_place_pull_11:
	xorps	%xmm0, %xmm0
	movups	%xmm0, (%r15)
	movl	$1, %eax
	movq	%r14, %rdi
	cmpq	$0, (%rdi)
	movq	%rbx, (%rdi)
	je	.L0_1_0_place_pull_10
.L0_1_0_place_pull_12:
	ud2

# kdr_pool_drop
	.section .text$kdr_0_1_0_pool_drop, "xr"
	.p2align 4
	.globl kdr_0_1_0_pool_drop
kdr_0_1_0_pool_drop:
	pushq	%rbp
	pushq	%r15
	pushq	%r14
	pushq	%r13
	pushq	%r12
	pushq	%rbx
	pushq	%rax
	movq	%rdi, %r14
	movq	(%rdi), %rdi
	movq	$0, (%r14)
	testq	%rdi, %rdi
	je	.L0_1_0_pool_drop_5
	movq	32(%rdi), %rbx
	movzbl	40(%rdi), %r13d
	movzbl	48(%rdi), %ebp
	movq	56(%rdi), %r15
	movq	64(%rdi), %r12
	callq	kdr_0_1_0_dealloc
	cmpb	$1, %r13b
	jne	.L0_1_0_pool_drop_6
	cmpb	$1, %bpl
	jne	.L0_1_0_pool_drop_9
	movq	16(%r15), %rax
	cmpb	$0, (%rax,%r12)
	movb	$1, (%rax,%r12)
	jne	.L0_1_0_pool_drop_11
	movl	$1, %eax
	movl	%r12d, %ecx
	shll	%cl, %eax
	movabsq	$4294967296, %rcx       # imm = 0x100000000
	orq	%rax, %rcx
	movq	8(%r15), %rax
	shrq	$5, %r12
	lock xaddq	%rcx, (%rax,%r12,8)
	testl	%ecx, %ecx
	jne	.L0_1_0_pool_drop_3
	movq	96(%r15), %rax
	cmpq	%r12, %rax
	je	.L0_1_0_pool_drop_1
	movq	%r12, %rax
	xchgq	%rax, 96(%r15)
.L0_1_0_pool_drop_1:
	movq	104(%r15), %rax
	cmpq	%rax, %r12
	jae	.L0_1_0_pool_drop_3
	.byte 0x66, 0x66, 0x2e, 0x0f, 0x1f, 0x84, 0x00, 0x00, 0x00, 0x00, 0x00 # nopw %cs:(%rax,%rax)
.L0_1_0_pool_drop_2:
	movq	104(%r15), %rax
	cmpq	%rax, %r12
	jae	.L0_1_0_pool_drop_3
	lock cmpxchgq	%r12, 104(%r15)
	jne	.L0_1_0_pool_drop_2
.L0_1_0_pool_drop_3:
	lock decq	(%r15)
	jne	.L0_1_0_pool_drop_4
	movq	40(%r15), %r12
	movq	56(%r15), %r13
	movq	%r15, %rdi
	callq	kdr_0_1_0_dealloc
	movq	%r12, %rdi
	callq	kdr_0_1_0_dealloc
	movq	%r13, %rdi
	callq	kdr_0_1_0_dealloc
.L0_1_0_pool_drop_4:
	cmpq	$0, (%r14)
	movq	$0, (%r14)
	jne	.L0_1_0_pool_drop_11
	xorl	%eax, %eax
	lock decq	(%rbx)
	je	.L0_1_0_pool_drop_7
	jmp	.L0_1_0_pool_drop_8
.L0_1_0_pool_drop_5:
	movl	$4, %eax
	jmp	.L0_1_0_pool_drop_8
.L0_1_0_pool_drop_6:
	xorl	%eax, %eax
	lock decq	(%rbx)
	jne	.L0_1_0_pool_drop_8
.L0_1_0_pool_drop_7:
	movq	%rbx, %rdi
	callq	kdr_0_1_0_dealloc
	xorl	%eax, %eax
.L0_1_0_pool_drop_8:
	addq	$8, %rsp
	popq	%rbx
	popq	%r12
	popq	%r13
	popq	%r14
	popq	%r15
	popq	%rbp
	retq
.L0_1_0_pool_drop_9:
	cmpq	$0, (%r14)
	movq	$0, (%r14)
	jne	.L0_1_0_pool_drop_11
	lock decq	(%r15)
	jne	.L0_1_0_pool_drop_10
	movq	40(%r15), %r14
	movq	56(%r15), %r12
	movq	%r15, %rdi
	callq	kdr_0_1_0_dealloc
	movq	%r14, %rdi
	callq	kdr_0_1_0_dealloc
	movq	%r12, %rdi
	callq	kdr_0_1_0_dealloc
.L0_1_0_pool_drop_10:
	xorl	%eax, %eax
	lock decq	(%rbx)
	je	.L0_1_0_pool_drop_7
	jmp	.L0_1_0_pool_drop_8
.L0_1_0_pool_drop_11:
	ud2

# kdr_pool_pull
	.section .text$kdr_0_1_0_pool_pull, "xr"
	.p2align 4
	.globl kdr_0_1_0_pool_pull
kdr_0_1_0_pool_pull:
	pushq	%rbp
	pushq	%r15
	pushq	%r14
	pushq	%r13
	pushq	%r12
	pushq	%rbx
	subq	$24, %rsp
	movq	(%rdi), %rbx
	movq	$0, (%rdi)
	movl	$4, %eax
	testq	%rbx, %rbx
	je	.L0_1_0_pool_pull_10
	movq	(%rbx), %r14
	movzbl	48(%rbx), %edx
	movq	56(%rbx), %r15
	movq	64(%rbx), %rcx
	xorps	%xmm0, %xmm0
	cmpb	$0, 40(%rbx)
	movups	%xmm0, 40(%rbx)
	movups	%xmm0, 56(%rbx)
	je	.L0_1_0_pool_pull_9
	cmpb	$1, %dl
	jne	.L0_1_0_pool_pull_1
	movq	$1, 40(%rbx)
	movq	$1, 48(%rbx)
	movq	%r15, 56(%rbx)
	movq	%rcx, 64(%rbx)
	cmpq	$0, (%rdi)
	movq	%rbx, (%rdi)
	movl	$2, %eax
	je	.L0_1_0_pool_pull_10
	jmp	.L0_1_0_pool_pull_12
.L0_1_0_pool_pull_1:
	movq	80(%r15), %rcx
	movq	%r14, %rdx
	cmpq	%rcx, %r14
	jb	.L0_1_0_pool_pull_3
	testq	%rcx, %rcx
	je	.L0_1_0_pool_pull_12
	movq	%r14, %rax
	orq	%rcx, %rax
	shrq	$32, %rax
	je	.L0_1_0_pool_pull_2
	movq	%r14, %rax
	xorl	%edx, %edx
	divq	%rcx
	jmp	.L0_1_0_pool_pull_3
.L0_1_0_pool_pull_2:
	movl	%r14d, %eax
	xorl	%edx, %edx
	divl	%ecx
.L0_1_0_pool_pull_3:
	leaq	8(%r15), %r8
	movq	(%r8), %rax
	movq	(%rax,%rdx,8), %r10
	movaps	%xmm0, (%rsp)
	movq	$0, 16(%rsp)
	.byte 0x0f, 0x1f, 0x84, 0x00, 0x00, 0x00, 0x00, 0x00 # nopl (%rax,%rax)
.L0_1_0_pool_pull_4:
	testl	%r10d, %r10d
	je	.L0_1_0_pool_pull_6
	tzcntl	%r10d, %ecx
	movl	$1, %r11d
	shlq	%cl, %r11
	movq	$-2, %r12
	rolq	%cl, %r12
	movq	(%r8), %r13
.L0_1_0_pool_pull_5:
	movq	(%r13,%rdx,8), %r9
	movq	%r9, %rbp
	andq	%r12, %rbp
	movq	%r9, %rax
	lock cmpxchgq	%rbp, (%r13,%rdx,8)
	jne	.L0_1_0_pool_pull_5
	leal	-1(%r10), %eax
	andl	%r10d, %eax
	movl	%eax, %r10d
	testq	%r11, %r9
	je	.L0_1_0_pool_pull_4
	shlq	$5, %rdx
	movq	16(%r15), %rax
	addq	%rdx, %rax
	movzbl	(%rcx,%rax), %r8d
	movb	$0, (%rcx,%rax)
	cmpb	$1, %r8b
	jne	.L0_1_0_pool_pull_12
	orq	%rcx, %rdx
	jmp	.L0_1_0_pool_pull_7
.L0_1_0_pool_pull_6:
	movq	%rsi, %r13
	movq	%rdi, %r12
	movq	%rsp, %rdi
	movq	%r8, %rsi
	callq	kdr_0_1_0_take_further
	cmpb	$1, (%rsp)
	jne	.L0_1_0_pool_pull_11
	movq	8(%rsp), %rdx
	movq	%r12, %rdi
	movq	%r13, %rsi
.L0_1_0_pool_pull_7:
	movq	%rdx, (%rsi)
	movq	%rdx, %rcx
	shrq	$5, %rcx
	movq	72(%r15), %rax
	movq	%rcx, (%rbx)
	cmpq	%rcx, %r14
	jne	.L0_1_0_pool_pull_13
.L0_1_0_pool_pull_8:
	cmpb	$0, 40(%rbx)
	movq	$1, 40(%rbx)
	movq	$1, 48(%rbx)
	movq	%r15, 56(%rbx)
	movq	%rdx, 64(%rbx)
	jne	.L0_1_0_pool_pull_12
	xorl	%eax, %eax
.L0_1_0_pool_pull_9:
	cmpq	$0, (%rdi)
	movq	%rbx, (%rdi)
	jne	.L0_1_0_pool_pull_12
.L0_1_0_pool_pull_10:
	addq	$24, %rsp
	popq	%rbx
	popq	%r12
	popq	%r13
	popq	%r14
	popq	%r15
	popq	%rbp
	retq
.L0_1_0_pool_pull_11:
	cmpb	$0, 40(%rbx)
	movq	$1, 40(%rbx)
	movq	$0, 48(%rbx)
	movq	%r15, 56(%rbx)
	movq	$0, 64(%rbx)
	jne	.L0_1_0_pool_pull_12
	cmpq	$0, (%r12)
	movq	%rbx, (%r12)
	movl	$1, %eax
	je	.L0_1_0_pool_pull_10
.L0_1_0_pool_pull_12:
	ud2
.L0_1_0_pool_pull_13:
	movq	%rdi, %r12
	movq	%rbx, %rdi
	movq	%r14, %rsi
	movq	%rdx, %r14
	movq	%rax, %rdx
	callq	kdr_0_1_0_go_apart
	movq	%r14, %rdx
	movq	%r12, %rdi
	jmp	.L0_1_0_pool_pull_8

# kdr_pool_pull_near
	.section .text$kdr_0_1_0_pool_pull_near, "xr"
	.p2align 4
	.globl kdr_0_1_0_pool_pull_near
kdr_0_1_0_pool_pull_near:
	pushq	%rbp
	pushq	%r15
	pushq	%r14
	pushq	%r13
	pushq	%r12
	pushq	%rbx
	subq	$24, %rsp
	movq	(%rdi), %rbx
	movq	$0, (%rdi)
	movl	$4, %eax
	testq	%rbx, %rbx
	je	.L0_1_0_pool_pull_near_10
	movq	%rdx, %r8
	movzbl	48(%rbx), %edx
	movq	56(%rbx), %r14
	movq	64(%rbx), %rcx
	xorps	%xmm0, %xmm0
	cmpb	$0, 40(%rbx)
	movups	%xmm0, 40(%rbx)
	movups	%xmm0, 56(%rbx)
	je	.L0_1_0_pool_pull_near_9
	cmpb	$1, %dl
	jne	.L0_1_0_pool_pull_near_1
	movq	$1, 40(%rbx)
	movq	$1, 48(%rbx)
	movq	%r14, 56(%rbx)
	movq	%rcx, 64(%rbx)
	cmpq	$0, (%rdi)
	movq	%rbx, (%rdi)
	movl	$2, %eax
	je	.L0_1_0_pool_pull_near_10
	jmp	.L0_1_0_pool_pull_near_12
.L0_1_0_pool_pull_near_1:
	movq	80(%r14), %rcx
	movq	%rsi, %rdx
	cmpq	%rcx, %rsi
	jb	.L0_1_0_pool_pull_near_3
	testq	%rcx, %rcx
	je	.L0_1_0_pool_pull_near_12
	movq	%rsi, %rax
	orq	%rcx, %rax
	shrq	$32, %rax
	je	.L0_1_0_pool_pull_near_2
	movq	%rsi, %rax
	xorl	%edx, %edx
	divq	%rcx
	jmp	.L0_1_0_pool_pull_near_3
.L0_1_0_pool_pull_near_2:
	movl	%esi, %eax
	xorl	%edx, %edx
	divl	%ecx
.L0_1_0_pool_pull_near_3:
	leaq	8(%r14), %r9
	movq	(%r9), %rax
	movq	(%rax,%rdx,8), %r11
	movaps	%xmm0, (%rsp)
	movq	$0, 16(%rsp)
	.byte 0x66, 0x0f, 0x1f, 0x84, 0x00, 0x00, 0x00, 0x00, 0x00 # nopw (%rax,%rax)
.L0_1_0_pool_pull_near_4:
	testl	%r11d, %r11d
	je	.L0_1_0_pool_pull_near_6
	tzcntl	%r11d, %ecx
	movl	$1, %r15d
	shlq	%cl, %r15
	movq	$-2, %r12
	rolq	%cl, %r12
	movq	(%r9), %r13
.L0_1_0_pool_pull_near_5:
	movq	(%r13,%rdx,8), %r10
	movq	%r10, %rbp
	andq	%r12, %rbp
	movq	%r10, %rax
	lock cmpxchgq	%rbp, (%r13,%rdx,8)
	jne	.L0_1_0_pool_pull_near_5
	leal	-1(%r11), %eax
	andl	%r11d, %eax
	movl	%eax, %r11d
	testq	%r15, %r10
	je	.L0_1_0_pool_pull_near_4
	shlq	$5, %rdx
	movq	16(%r14), %rax
	addq	%rdx, %rax
	movzbl	(%rcx,%rax), %r9d
	movb	$0, (%rcx,%rax)
	cmpb	$1, %r9b
	jne	.L0_1_0_pool_pull_near_12
	orq	%rcx, %rdx
	jmp	.L0_1_0_pool_pull_near_7
.L0_1_0_pool_pull_near_6:
	movq	%r8, %r12
	movq	%rsi, %r13
	movq	%rdi, %r15
	movq	%rsp, %rdi
	movq	%r9, %rsi
	callq	kdr_0_1_0_take_further
	cmpb	$1, (%rsp)
	jne	.L0_1_0_pool_pull_near_11
	movq	8(%rsp), %rdx
	movq	%r15, %rdi
	movq	%r13, %rsi
	movq	%r12, %r8
.L0_1_0_pool_pull_near_7:
	movq	%rdx, (%r8)
	movq	%rdx, %rcx
	shrq	$5, %rcx
	movq	72(%r14), %rax
	movq	%rcx, (%rbx)
	cmpq	%rcx, %rsi
	jne	.L0_1_0_pool_pull_near_13
.L0_1_0_pool_pull_near_8:
	cmpb	$0, 40(%rbx)
	movq	$1, 40(%rbx)
	movq	$1, 48(%rbx)
	movq	%r14, 56(%rbx)
	movq	%rdx, 64(%rbx)
	jne	.L0_1_0_pool_pull_near_12
	xorl	%eax, %eax
.L0_1_0_pool_pull_near_9:
	cmpq	$0, (%rdi)
	movq	%rbx, (%rdi)
	jne	.L0_1_0_pool_pull_near_12
.L0_1_0_pool_pull_near_10:
	addq	$24, %rsp
	popq	%rbx
	popq	%r12
	popq	%r13
	popq	%r14
	popq	%r15
	popq	%rbp
	retq
.L0_1_0_pool_pull_near_11:
	cmpb	$0, 40(%rbx)
	movq	$1, 40(%rbx)
	movq	$0, 48(%rbx)
	movq	%r14, 56(%rbx)
	movq	$0, 64(%rbx)
	jne	.L0_1_0_pool_pull_near_12
	cmpq	$0, (%r15)
	movq	%rbx, (%r15)
	movl	$1, %eax
	je	.L0_1_0_pool_pull_near_10
.L0_1_0_pool_pull_near_12:
	ud2
.L0_1_0_pool_pull_near_13:
	movq	%rdi, %r15
	movq	%rbx, %rdi
	movq	%rdx, %r12
	movq	%rax, %rdx
	callq	kdr_0_1_0_go_apart
	movq	%r12, %rdx
	movq	%r15, %rdi
	jmp	.L0_1_0_pool_pull_near_8

# kdr_pool_return
	.section .text$kdr_0_1_0_pool_return, "xr"
	.p2align 4
	.globl kdr_0_1_0_pool_return
kdr_0_1_0_pool_return:
	movq	(%rdi), %rdx
	movq	$0, (%rdi)
	movl	$4, %eax
	testq	%rdx, %rdx
	je	.L0_1_0_pool_return_5
	movzbl	48(%rdx), %r8d
	movq	56(%rdx), %rsi
	movq	64(%rdx), %rcx
	xorps	%xmm0, %xmm0
	cmpb	$0, 40(%rdx)
	movups	%xmm0, 40(%rdx)
	movups	%xmm0, 56(%rdx)
	je	.L0_1_0_pool_return_4
	testb	%r8b, %r8b
	je	.L0_1_0_pool_return_6
	movq	16(%rsi), %rax
	cmpb	$0, (%rax,%rcx)
	movb	$1, (%rax,%rcx)
	jne	.L0_1_0_pool_return_7
	movl	$1, %eax
	shll	%cl, %eax
	movabsq	$4294967296, %r8        # imm = 0x100000000
	orq	%rax, %r8
	movq	8(%rsi), %rax
	shrq	$5, %rcx
	lock xaddq	%r8, (%rax,%rcx,8)
	testl	%r8d, %r8d
	jne	.L0_1_0_pool_return_3
	movq	96(%rsi), %rax
	cmpq	%rcx, %rax
	je	.L0_1_0_pool_return_1
	movq	%rcx, %rax
	xchgq	%rax, 96(%rsi)
.L0_1_0_pool_return_1:
	movq	104(%rsi), %rax
	cmpq	%rax, %rcx
	jae	.L0_1_0_pool_return_3
	.byte 0x66, 0x66, 0x2e, 0x0f, 0x1f, 0x84, 0x00, 0x00, 0x00, 0x00, 0x00 # nopw %cs:(%rax,%rax)
.L0_1_0_pool_return_2:
	movq	104(%rsi), %rax
	cmpq	%rax, %rcx
	jae	.L0_1_0_pool_return_3
	lock cmpxchgq	%rcx, 104(%rsi)
	jne	.L0_1_0_pool_return_2
.L0_1_0_pool_return_3:
	cmpb	$0, 40(%rdx)
	movq	$1, 40(%rdx)
	movq	$0, 48(%rdx)
	movq	%rsi, 56(%rdx)
	movq	$0, 64(%rdx)
	jne	.L0_1_0_pool_return_7
	xorl	%eax, %eax
.L0_1_0_pool_return_4:
	cmpq	$0, (%rdi)
	movq	%rdx, (%rdi)
	jne	.L0_1_0_pool_return_7
.L0_1_0_pool_return_5:
	retq
.L0_1_0_pool_return_6:
	movq	$1, 40(%rdx)
	movq	$0, 48(%rdx)
	movq	%rsi, 56(%rdx)
	movq	$0, 64(%rdx)
	cmpq	$0, (%rdi)
	movq	%rdx, (%rdi)
	movl	$3, %eax
	je	.L0_1_0_pool_return_5
.L0_1_0_pool_return_7:
	ud2

# kdr_cache_return
	.section .text$kdr_0_1_0_cache_return, "xr"
	.p2align 4
	.globl kdr_0_1_0_cache_return
kdr_0_1_0_cache_return:
	movq	%rsi, %rcx
	movq	(%rdi), %rsi
	movq	$0, (%rdi)
	testq	%rsi, %rsi
	je	.L0_1_0_cache_return_1
	movq	(%rcx), %rdx
	testq	%rdx, %rdx
	je	.L0_1_0_cache_return_2
	movq	8(%rcx), %r8
	movl	$8, %eax
	cmpq	24(%rsi), %r8
	jne	.L0_1_0_cache_return_3
	movq	32(%rsi), %r8
	movl	$9, %eax
	cmpq	%rdx, 72(%r8)
	jb	.L0_1_0_cache_return_3
	xorps	%xmm0, %xmm0
	movups	%xmm0, (%rcx)
	decq	%rdx
	movq	48(%rsi), %rax
	cmpq	56(%rsi), %rax
	jae	.L0_1_0_cache_return_4
	movq	40(%rsi), %rcx
	movq	%rdx, (%rcx,%rax,8)
	incq	%rax
	movq	%rax, 48(%rsi)
	xorl	%eax, %eax
	cmpq	$0, (%rdi)
	movq	%rsi, (%rdi)
	jne	.L0_1_0_cache_return_5
	retq
.L0_1_0_cache_return_1:
	movl	$4, %eax
	retq
.L0_1_0_cache_return_2:
	movl	$3, %eax
.L0_1_0_cache_return_3:
	movq	%rsi, (%rdi)
	retq
.L0_1_0_cache_return_4:
	pushq	%rax
	callq	kdr_0_1_0_give_back
	xorl	%eax, %eax
	addq	$8, %rsp
	retq
.L0_1_0_cache_return_5:
	ud2

# kdr_place_return
	.section .text$kdr_0_1_0_place_return, "xr"
	.p2align 4
	.globl kdr_0_1_0_place_return
kdr_0_1_0_place_return:
	movq	(%rdi), %rdx
	movq	$0, (%rdi)
	testq	%rdx, %rdx
	je	.L0_1_0_place_return_4
	movzbl	40(%rdx), %ecx
	movl	$4, %eax
	testb	%cl, %cl
	je	.L0_1_0_place_return_6
	cmpb	$1, %cl
	jne	.L0_1_0_place_return_6
	movq	(%rsi), %rcx
	testq	%rcx, %rcx
	je	.L0_1_0_place_return_5
	movq	8(%rsi), %r8
	movl	$8, %eax
	cmpq	24(%rdx), %r8
	jne	.L0_1_0_place_return_6
	movq	56(%rdx), %r8
	movl	$9, %eax
	cmpq	%rcx, 72(%r8)
	jb	.L0_1_0_place_return_6
	xorps	%xmm0, %xmm0
	movups	%xmm0, (%rsi)
	movq	56(%rdx), %r8
	movq	16(%r8), %rax
	cmpb	$0, -1(%rax,%rcx)
	movb	$1, -1(%rax,%rcx)
	jne	.L0_1_0_place_return_7
	decq	%rcx
	movl	$1, %eax
	shll	%cl, %eax
	movabsq	$4294967296, %r9        # imm = 0x100000000
	orq	%rax, %r9
	movq	8(%r8), %rax
	shrq	$5, %rcx
	lock xaddq	%r9, (%rax,%rcx,8)
	testl	%r9d, %r9d
	jne	.L0_1_0_place_return_3
	movq	96(%r8), %rax
	cmpq	%rcx, %rax
	je	.L0_1_0_place_return_1
	movq	%rcx, %rax
	xchgq	%rax, 96(%r8)
.L0_1_0_place_return_1:
	movq	104(%r8), %rax
	cmpq	%rax, %rcx
	jae	.L0_1_0_place_return_3
.L0_1_0_place_return_2:
	movq	104(%r8), %rax
	cmpq	%rax, %rcx
	jae	.L0_1_0_place_return_3
	lock cmpxchgq	%rcx, 104(%r8)
	jne	.L0_1_0_place_return_2
.L0_1_0_place_return_3:
	xorps	%xmm0, %xmm0
	movups	%xmm0, (%rsi)
	xorl	%eax, %eax
	cmpq	$0, (%rdi)
	movq	%rdx, (%rdi)
	jne	.L0_1_0_place_return_7
	retq
.L0_1_0_place_return_4:
	movl	$4, %eax
	retq
.L0_1_0_place_return_5:
	movl	$3, %eax
.L0_1_0_place_return_6:
	movq	%rdx, (%rdi)
	retq
.L0_1_0_place_return_7:
	ud2

	.text
