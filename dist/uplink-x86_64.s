/* The proved crate uplink, compiled by tools/dist for Linux on x86_64. PROOF, beside this file, says of what and how; nothing here is written by hand. */
	.section	".text.reading::cost::stretch_steps","ax",@progbits
	.p2align	4
	.type	"reading::cost::stretch_steps",@function
"reading::cost::stretch_steps":
	pushq	%rbp
	pushq	%r15
	pushq	%r14
	pushq	%r13
	pushq	%r12
	pushq	%rbx
	pushq	%rax
	cmpq	%rdx, %rsi
	jae	.LBB0_1
	movq	%rcx, %rbx
	movq	%rdx, %r14
	movq	%rsi, %r13
	movq	%rdi, %r15
	decq	%rbx
	xorl	%r12d, %r12d
	jmp	.LBB0_3
	.p2align	4
.LBB0_14:
	movq	%r15, %rdi
	movq	%r13, %rdx
	movq	%rbx, %rcx
	callq	"reading::cost::stretch_steps"
	movl	$1, %ecx
.LBB0_18:
	addq	%rcx, %r12
	movq	$-1, %rax
	cmovbq	%rax, %r12
	cmpq	%r14, %r13
	jae	.LBB0_19
.LBB0_3:
	movq	%r13, %rsi
	leaq	(,%r13,2), %rax
	addq	%r13, %rax
	movl	4(%r15,%rax,8), %edx
	movzbl	(%r15,%rax,8), %ecx
	addq	%rdx, %r13
	incq	%r13
	incq	%rsi
	leal	-1(%rcx), %edx
	cmpb	$12, %dl
	ja	.LBB0_14
	movzbl	1(%r15,%rax,8), %eax
	movl	$15422, %edx
	btl	%ecx, %edx
	jb	.LBB0_14
	movl	$896, %edx
	btl	%ecx, %edx
	jae	.LBB0_6
.LBB0_15:
	movq	%r15, %rdi
	movq	%r13, %rdx
	movq	%rbx, %rcx
	callq	"reading::cost::stretch_steps"
.LBB0_17:
	incq	%rax
	movq	$-1, %rcx
	cmovneq	%rax, %rcx
	jmp	.LBB0_18
.LBB0_6:
	xorl	%ebp, %ebp
	cmpq	%r13, %rsi
	jae	.LBB0_9
	movq	%rsi, %rcx
	.p2align	4
.LBB0_8:
	leaq	(%rcx,%rcx,2), %rdx
	movl	4(%r15,%rdx,8), %edx
	addq	%rdx, %rcx
	incq	%rcx
	incq	%rbp
	cmpq	%r13, %rcx
	jb	.LBB0_8
.LBB0_9:
	decl	%eax
	cmpl	$6, %eax
	ja	.LBB0_14
	leaq	.LJTI0_0(%rip), %rcx
	movslq	(%rcx,%rax,4), %rax
	addq	%rcx, %rax
	jmpq	*%rax
.LBB0_16:
	movq	%r15, %rdi
	movq	%r13, %rdx
	movq	%rbx, %rcx
	callq	"reading::cost::stretch_steps"
	movl	$1, %ecx
	cmpq	$1, %rbp
	jne	.LBB0_18
	jmp	.LBB0_17
.LBB0_13:
	cmpq	$1, %rbp
	jne	.LBB0_14
	movq	%r15, %rdi
	movq	%r13, %rdx
	movq	%rbx, %rcx
	callq	"reading::cost::stretch_steps"
	movq	%rax, %rcx
	addq	%rax, %rcx
	movq	$-1, %rax
	cmovbq	%rax, %rcx
	incq	%rcx
	cmoveq	%rax, %rcx
	jmp	.LBB0_18
.LBB0_11:
	movq	%r15, %rdi
	movq	%r13, %rdx
	movq	%rbx, %rcx
	callq	"reading::cost::stretch_steps"
	movl	$1, %ecx
	cmpq	$2, %rbp
	jne	.LBB0_18
	jmp	.LBB0_17
.LBB0_1:
	xorl	%r12d, %r12d
.LBB0_19:
	movq	%r12, %rax
	addq	$8, %rsp
	popq	%rbx
	popq	%r12
	popq	%r13
	popq	%r14
	popq	%r15
	popq	%rbp
	retq
.Lfunc_end0:
	.size	"reading::cost::stretch_steps", .Lfunc_end0-"reading::cost::stretch_steps"
	.section	".rodata.reading::cost::stretch_steps","a",@progbits
	.p2align	2, 0x0
.LJTI0_0:
	.long	.LBB0_16-.LJTI0_0
	.long	.LBB0_16-.LJTI0_0
	.long	.LBB0_16-.LJTI0_0
	.long	.LBB0_16-.LJTI0_0
	.long	.LBB0_13-.LJTI0_0
	.long	.LBB0_11-.LJTI0_0
	.long	.LBB0_15-.LJTI0_0

	.section	.rodata.cst8,"aM",@progbits,8
	.p2align	3, 0x0
.LCPI1_0:
	.quad	0x3ff0000000000000
	.section	".text.algebra::lists::read_sum","ax",@progbits
	.p2align	4
	.type	"algebra::lists::read_sum",@function
"algebra::lists::read_sum":
	pushq	%rbp
	pushq	%r15
	pushq	%r14
	pushq	%r13
	pushq	%r12
	pushq	%rbx
	subq	$600, %rsp
	movq	%rdx, %r9
	movq	%rdi, 24(%rsp)
	movabsq	$-6148914691236517205, %rdx
	movq	%r9, %rax
	mulq	%rdx
	movq	%rdx, %r15
	xorl	%ebp, %ebp
	movb	$10, %r10b
	movl	$0, %edx
	cmpq	$49175, %r9
	ja	.LBB1_1
	movq	%rsi, %r14
	shrq	$4, %r15
	leaq	(,%r15,8), %rax
	leaq	(%rax,%rax,2), %rax
	movq	%r9, %rsi
	subq	%rax, %rsi
	jne	.LBB1_1
	movq	%rcx, %r11
	cmpq	$24, %r9
	jb	.LBB1_61
	leaq	16(%r14), %rsi
	xorl	%edx, %edx
	.p2align	4
.LBB1_5:
	movq	-16(%rsi), %rdi
	cmpq	$1, %rdi
	sete	%al
	andq	$-65281, %rdi
	xorq	$5, %rdi
	orq	-8(%rsi), %rdi
	sete	%dil
	cmpq	$0, (%rsi)
	jne	.LBB1_8
	orb	%dil, %al
	je	.LBB1_8
	incq	%rdx
	addq	$24, %rsi
	cmpq	%rdx, %r15
	jne	.LBB1_5
	jmp	.LBB1_61
.LBB1_1:
	movl	$0, %ecx
	jmp	.LBB1_108
.LBB1_8:
	cmpq	%rdx, %r15
	je	.LBB1_61
	movq	%r9, 32(%rsp)
	movq	%r8, 40(%rsp)
	movq	%r11, 56(%rsp)
	xorpd	%xmm0, %xmm0
	movapd	%xmm0, 336(%rsp)
	movapd	%xmm0, 352(%rsp)
	movapd	%xmm0, 368(%rsp)
	movapd	%xmm0, 384(%rsp)
	movapd	%xmm0, 400(%rsp)
	movapd	%xmm0, 416(%rsp)
	movapd	%xmm0, 432(%rsp)
	movapd	%xmm0, 448(%rsp)
	movapd	%xmm0, 464(%rsp)
	movapd	%xmm0, 480(%rsp)
	movapd	%xmm0, 496(%rsp)
	movapd	%xmm0, 512(%rsp)
	movapd	%xmm0, 528(%rsp)
	movapd	%xmm0, 544(%rsp)
	movapd	%xmm0, 560(%rsp)
	movapd	%xmm0, 576(%rsp)
	movapd	%xmm0, 208(%rsp)
	movapd	%xmm0, 224(%rsp)
	movapd	%xmm0, 240(%rsp)
	movapd	%xmm0, 256(%rsp)
	movapd	%xmm0, 272(%rsp)
	movapd	%xmm0, 288(%rsp)
	movapd	%xmm0, 304(%rsp)
	movapd	%xmm0, 320(%rsp)
	leaq	16(%r14), %rcx
	xorl	%r8d, %r8d
	movq	%r15, %rbx
	xorl	%r13d, %r13d
	movq	%r15, 176(%rsp)
	.p2align	4
.LBB1_10:
	movq	%rdx, %r9
	movq	%rbx, %rdx
.LBB1_11:
	testb	$1, %r8b
	je	.LBB1_12
.LBB1_17:
	cmpq	%rdx, %r9
	je	.LBB1_18
	leaq	(%r9,%r9,2), %rsi
	movl	4(%r14,%rsi,8), %r11d
	movq	8(%r14,%rsi,8), %r12
	movq	16(%r14,%rsi,8), %rbx
	movzbl	(%r14,%rsi,8), %r10d
	movzbl	1(%r14,%rsi,8), %eax
	movzbl	3(%r14,%rsi,8), %edi
	cmpl	$7, %r10d
	je	.LBB1_24
	movzbl	2(%r14,%rsi,8), %esi
	cmpl	$6, %r10d
	jne	.LBB1_25
	orb	%sil, %dil
	jmp	.LBB1_23
	.p2align	4
.LBB1_12:
	cmpq	%rdx, %r9
	jae	.LBB1_18
	leaq	(%r9,%r9,2), %rax
	leaq	(%rcx,%rax,8), %r10
	.p2align	4
.LBB1_14:
	movq	-16(%r10), %rsi
	cmpq	$1, %rsi
	sete	%al
	andq	$-65281, %rsi
	xorq	$5, %rsi
	orq	-8(%r10), %rsi
	sete	%sil
	cmpq	$0, (%r10)
	jne	.LBB1_17
	orb	%sil, %al
	je	.LBB1_17
	incq	%r9
	addq	$24, %r10
	cmpq	%r9, %rdx
	jne	.LBB1_14
	jmp	.LBB1_18
	.p2align	4
.LBB1_24:
	orb	%al, %dil
.LBB1_23:
	sete	%al
	orq	%r12, %rbx
	sete	%r12b
	andb	%al, %r12b
	jmp	.LBB1_26
	.p2align	4
.LBB1_25:
	movq	%r13, %r15
	leal	-1(%r10), %r13d
	cmpb	$13, %r13b
	setb	%cl
	cmpb	$2, %r10b
	sete	%bpl
	testb	%dil, %dil
	sete	%dil
	andb	%cl, %dil
	testb	%al, %al
	sete	%al
	leal	-5(%r10), %ecx
	cmpb	$2, %cl
	setb	%cl
	orb	%al, %cl
	andb	%dil, %cl
	testb	%sil, %sil
	sete	%al
	testq	%r11, %r11
	sete	%sil
	leal	-6(%r10), %edi
	cmpb	$4, %dil
	setb	%dil
	orb	%sil, %dil
	andb	%al, %dil
	andb	%cl, %dil
	testq	%r12, %r12
	sete	%al
	cmpb	$2, %r13b
	movq	%r15, %r13
	movq	176(%rsp), %r15
	setb	%cl
	orb	%al, %cl
	testq	%rbx, %rbx
	sete	%r12b
	orb	%bpl, %r12b
	andb	%cl, %r12b
	leaq	16(%r14), %rcx
	andb	%dil, %r12b
.LBB1_26:
	leaq	(%r9,%r11), %rbx
	incq	%rbx
	cmpb	$7, %r10b
	setne	%al
	cmpq	%rdx, %rbx
	ja	.LBB1_32
	xorb	%r8b, %al
	testb	$1, %al
	je	.LBB1_32
	testb	%r12b, %r12b
	je	.LBB1_32
	incq	%r9
	testq	%r11, %r11
	je	.LBB1_11
	cmpq	$128, %r13
	je	.LBB1_32
	movw	%dx, 336(%rsp,%r13,2)
	movb	%r8b, 208(%rsp,%r13)
	incq	%r13
	cmpb	$6, %r10b
	sete	%r8b
	movq	%r9, %rdx
	jmp	.LBB1_10
	.p2align	4
.LBB1_18:
	testq	%r13, %r13
	je	.LBB1_60
	movzwl	334(%rsp,%r13,2), %ebx
	movzbl	207(%rsp,%r13), %r8d
	decq	%r13
	jmp	.LBB1_10
.LBB1_32:
	movq	%r15, %rcx
	jmp	.LBB1_33
.LBB1_48:
	movq	40(%rsp), %rcx
	decq	%rcx
	je	.LBB1_49
.LBB1_33:
	leaq	-8(,%rcx,8), %rax
	leaq	(%rax,%rax,2), %rax
	movl	4(%r14,%rax), %esi
	leaq	(%rcx,%rsi), %rdx
	cmpq	%rdx, %r15
	jb	.LBB1_34
	movq	%rcx, 40(%rsp)
	testl	%esi, %esi
	je	.LBB1_48
	movzbl	(%r14,%rax), %esi
	movq	40(%rsp), %rdi
	.p2align	4
.LBB1_37:
	leaq	(%rdi,%rdi,2), %rbx
	movl	4(%r14,%rbx,8), %r8d
	movq	8(%r14,%rbx,8), %r11
	movq	16(%r14,%rbx,8), %r10
	movzbl	(%r14,%rbx,8), %r9d
	movzbl	1(%r14,%rbx,8), %eax
	movzbl	3(%r14,%rbx,8), %r13d
	cmpl	$7, %r9d
	je	.LBB1_41
	movzbl	2(%r14,%rbx,8), %r12d
	cmpl	$6, %r9d
	jne	.LBB1_42
	orb	%r12b, %r13b
	jmp	.LBB1_40
	.p2align	4
.LBB1_41:
	orb	%al, %r13b
.LBB1_40:
	sete	%al
	orq	%r11, %r10
	sete	%r10b
	andb	%al, %r10b
	jmp	.LBB1_43
	.p2align	4
.LBB1_42:
	leal	-1(%r9), %ebp
	cmpb	$13, %bpl
	setb	%cl
	cmpb	$2, %r9b
	sete	%bl
	testb	%r13b, %r13b
	sete	%r13b
	andb	%cl, %r13b
	testb	%al, %al
	sete	%al
	leal	-5(%r9), %ecx
	cmpb	$2, %cl
	setb	%cl
	orb	%al, %cl
	andb	%r13b, %cl
	testb	%r12b, %r12b
	sete	%al
	testq	%r8, %r8
	sete	%r12b
	leal	-6(%r9), %r13d
	cmpb	$4, %r13b
	setb	%r13b
	orb	%r12b, %r13b
	andb	%al, %r13b
	andb	%cl, %r13b
	testq	%r11, %r11
	sete	%al
	cmpb	$2, %bpl
	setb	%cl
	orb	%al, %cl
	testq	%r10, %r10
	sete	%r10b
	orb	%bl, %r10b
	andb	%cl, %r10b
	andb	%r13b, %r10b
.LBB1_43:
	cmpb	$6, %sil
	sete	%al
	addq	%r8, %rdi
	incq	%rdi
	cmpb	$7, %r9b
	setne	%r8b
	xorl	%ebp, %ebp
	cmpq	%rdx, %rdi
	ja	.LBB1_44
	xorb	%r8b, %al
	je	.LBB1_44
	testb	%r10b, %r10b
	je	.LBB1_44
	cmpq	%rdx, %rdi
	jb	.LBB1_37
	jmp	.LBB1_48
.LBB1_60:
	movq	56(%rsp), %r11
	movq	40(%rsp), %r8
	movq	32(%rsp), %r9
.LBB1_61:
	movq	(%r11), %rax
	movb	$1, 128(%rax)
	movq	16(%r11), %rax
	movb	$0, 128(%rax)
	movq	32(%r11), %rax
	movabsq	$4607182418800017408, %rcx
	movq	%rcx, 3072(%rax)
	movq	%rcx, 3080(%rax)
	movq	$0, 3088(%rax)
	movq	48(%r11), %rax
	movb	$1, 128(%rax)
	xorpd	%xmm0, %xmm0
	movapd	%xmm0, 80(%rsp)
	movq	$0, 96(%rsp)
	movapd	%xmm0, 112(%rsp)
	movq	$0, 128(%rsp)
	cmpq	$23, %r9
	ja	.LBB1_63
	movq	48(%r11), %rax
	movl	$129, %r8d
	xorl	%ecx, %ecx
	xorl	%edx, %edx
	xorl	%edi, %edi
	jmp	.LBB1_87
.LBB1_63:
	movq	%r8, 40(%rsp)
	movl	$129, %r8d
	xorl	%ebp, %ebp
	xorl	%r9d, %r9d
	xorl	%esi, %esi
	xorl	%edi, %edi
	movq	%r11, 56(%rsp)
.LBB1_64:
	leaq	(,%rbp,2), %rax
	addq	%rbp, %rax
	leaq	(%r14,%rax,8), %rax
	.p2align	4
.LBB1_65:
	movzbl	(%rax), %r13d
	leal	-1(%r13), %ecx
	cmpb	$12, %cl
	ja	.LBB1_91
	movzbl	%r13b, %r12d
	leal	-6(%r12), %ecx
	cmpl	$8, %ecx
	jae	.LBB1_67
.LBB1_90:
	leal	-7(%r13), %ecx
	cmpb	$3, %cl
	jae	.LBB1_91
	incq	%rbp
	addq	$24, %rax
	cmpq	%r15, %rbp
	jb	.LBB1_65
	jmp	.LBB1_71
	.p2align	4
.LBB1_67:
	movl	$24, %ecx
	btl	%r12d, %ecx
	jb	.LBB1_90
	movq	%rsi, 48(%rsp)
	movq	%rdi, 72(%rsp)
	movl	4(%rax), %edx
	movzbl	1(%rax), %esi
	movzwl	2(%rax), %ecx
	movq	%rsi, 64(%rsp)
	movb	%sil, 81(%rsp)
	movw	%cx, 82(%rsp)
	movl	%edx, 32(%rsp)
	movl	%edx, 84(%rsp)
	movupd	8(%rax), %xmm0
	movupd	%xmm0, 88(%rsp)
	movb	%r13b, 80(%rsp)
	leaq	112(%rsp), %rdi
	leaq	80(%rsp), %rsi
	movq	%r11, %rdx
	movq	40(%rsp), %rcx
	movq	%r9, %rbx
	callq	"stack::leaf::leaf"
	cmpb	$1, 112(%rsp)
	je	.LBB1_69
	movq	72(%rsp), %rax
	addq	128(%rsp), %rax
	movq	$-1, %rdi
	cmovaeq	%rax, %rdi
	cmpq	$2, %rbx
	movq	%rbx, %r9
	je	.LBB1_78
	cmpb	$5, %r13b
	jne	.LBB1_78
	movq	64(%rsp), %rdx
	cmpb	$38, %dl
	movq	56(%rsp), %r11
	movl	32(%rsp), %ebx
	movq	48(%rsp), %rsi
	ja	.LBB1_77
	movl	$6048, %eax
	btq	%rdx, %rax
	jae	.LBB1_76
	cmpq	$1, %r9
	movl	$2, %r9d
	sbbq	$0, %r9
	jmp	.LBB1_82
	.p2align	4
.LBB1_91:
	movl	4(%rax), %ebx
	movzbl	1(%rax), %edx
	movzbl	%dl, %r12d
	movzwl	2(%rax), %ecx
	movb	%r12b, 81(%rsp)
	movw	%cx, 82(%rsp)
	movl	%ebx, 84(%rsp)
	movupd	8(%rax), %xmm0
	movupd	%xmm0, 88(%rsp)
	movq	%r8, 208(%rsp)
	movq	%r9, 216(%rsp)
	movq	%rdi, 224(%rsp)
	movb	%sil, 232(%rsp)
	leaq	233(%rsp), %rax
	movl	$0, 3(%rax)
	movl	$0, (%rax)
	xorpd	%xmm0, %xmm0
	movapd	%xmm0, 352(%rsp)
	movapd	%xmm0, 336(%rsp)
	movq	$0, 368(%rsp)
	cmpb	$6, %r13b
	jne	.LBB1_93
	leaq	208(%rsp), %rax
	movq	%rax, 8(%rsp)
	movq	40(%rsp), %rax
	movq	%rax, (%rsp)
	leaq	336(%rsp), %rdi
	movq	%r14, %rsi
	movq	%rbp, %rdx
	movl	%r12d, %ecx
	movl	%ebx, %r8d
	movq	%r11, %r9
	callq	"reading::walk::modify"
	movzbl	336(%rsp), %ecx
	movzbl	337(%rsp), %r10d
	movq	344(%rsp), %r8
	movq	352(%rsp), %r9
	movq	360(%rsp), %rdi
	movzbl	368(%rsp), %edx
	jmp	.LBB1_105
	.p2align	4
.LBB1_93:
	movq	%rsi, 48(%rsp)
	movq	%rdi, 72(%rsp)
	movb	%r13b, 184(%rsp)
	movb	%dl, 64(%rsp)
	movb	%dl, 185(%rsp)
	movw	%cx, 186(%rsp)
	movl	%ebx, 32(%rsp)
	movl	%ebx, 188(%rsp)
	leaq	88(%rsp), %rax
	movupd	(%rax), %xmm1
	leaq	192(%rsp), %rax
	movupd	%xmm1, (%rax)
	movapd	%xmm0, 144(%rsp)
	movq	$0, 160(%rsp)
	leaq	144(%rsp), %rdi
	leaq	184(%rsp), %rsi
	movq	%r11, %rdx
	movq	40(%rsp), %rcx
	movq	%r9, %rbx
	callq	"stack::leaf::leaf"
	movzbl	144(%rsp), %ecx
	cmpb	$1, %cl
	jne	.LBB1_95
	movzbl	145(%rsp), %r10d
	movzbl	146(%rsp), %r9d
	andb	$1, %r9b
	xorl	%edi, %edi
	movq	%rbp, %r8
	xorl	%esi, %esi
	xorl	%edx, %edx
	movl	32(%rsp), %ebx
	jmp	.LBB1_104
.LBB1_95:
	cmpq	$2, %rbx
	movq	%rbx, %r9
	je	.LBB1_101
	cmpb	$5, %r13b
	jne	.LBB1_101
	cmpl	$38, %r12d
	movq	72(%rsp), %rdi
	movl	32(%rsp), %ebx
	movq	48(%rsp), %rsi
	ja	.LBB1_100
	movl	%r12d, %eax
	movl	$6048, %edx
	btq	%rax, %rdx
	jae	.LBB1_99
	cmpq	$1, %r9
	movl	$2, %r9d
	sbbq	$0, %r9
	jmp	.LBB1_102
.LBB1_101:
	movq	48(%rsp), %rsi
	movl	%esi, %edx
	cmpb	$5, %r13b
	movq	72(%rsp), %rdi
	movl	32(%rsp), %ebx
	je	.LBB1_102
	jmp	.LBB1_103
.LBB1_78:
	decl	%r12d
	leaq	.LJTI1_0(%rip), %rax
	movslq	(%rax,%r12,4), %rcx
	addq	%rax, %rcx
	movq	56(%rsp), %r11
	movl	32(%rsp), %ebx
	movq	48(%rsp), %rsi
	jmpq	*%rcx
.LBB1_83:
	xorl	%edx, %edx
	jmp	.LBB1_84
.LBB1_99:
	movabsq	$274877906972, %rdx
	btq	%rax, %rdx
	jae	.LBB1_100
.LBB1_102:
	cmpb	$17, 64(%rsp)
	sete	%dl
	orb	%sil, %dl
.LBB1_103:
	andb	$1, %dl
	addq	160(%rsp), %rdi
	movq	$-1, %rsi
	cmovaeq	%rdi, %rsi
	movq	152(%rsp), %r8
	movq	%r9, %rdi
	andq	$-256, %rdi
	xorl	%r10d, %r10d
.LBB1_104:
	movzbl	%r9b, %r9d
	orq	%rdi, %r9
	movq	%rsi, %rdi
.LBB1_105:
	cmpb	$1, %cl
	je	.LBB1_106
	andb	$1, %dl
	movq	56(%rsp), %r11
.LBB1_85:
	movl	%ebx, %eax
	addq	%rax, %rbp
	incq	%rbp
	movl	%edx, %esi
	cmpq	%r15, %rbp
	jb	.LBB1_64
	jmp	.LBB1_86
.LBB1_76:
	movabsq	$274877906972, %rax
	btq	%rdx, %rax
	jb	.LBB1_82
.LBB1_77:
	leaq	.Lstatic.0(%rip), %rax
	movzbl	(%rdx,%rax), %eax
	andb	$-16, %al
	cmpq	$1, %r9
	movl	$2, %ecx
	sbbq	$0, %rcx
	cmpb	$16, %al
	cmoveq	%rcx, %r9
	jmp	.LBB1_82
.LBB1_79:
	movq	64(%rsp), %rdx
.LBB1_82:
	cmpl	$17, %edx
	sete	%dl
.LBB1_84:
	movq	120(%rsp), %r8
	orb	%sil, %dl
	andb	$1, %dl
	jmp	.LBB1_85
.LBB1_80:
	movb	$1, %dl
	jmp	.LBB1_84
.LBB1_100:
	leaq	.Lstatic.0(%rip), %rax
	movzbl	(%r12,%rax), %eax
	andb	$-16, %al
	cmpq	$1, %r9
	movl	$2, %edx
	sbbq	$0, %rdx
	cmpb	$16, %al
	cmoveq	%rdx, %r9
	jmp	.LBB1_102
.LBB1_71:
	movl	%esi, %edx
.LBB1_86:
	movq	48(%r11), %rax
	cmpq	$2, %r9
	setae	%cl
	cmpq	$129, %r8
	jb	.LBB1_116
.LBB1_87:
	movq	%rdi, %r15
	movq	(%r11), %rsi
	movq	32(%r11), %rdi
	xorpd	%xmm0, %xmm0
	movsd	.LCPI1_0(%rip), %xmm1
	movq	%r8, %rbx
	movq	%r8, %r9
	jmp	.LBB1_88
	.p2align	4
.LBB1_114:
	movq	%r9, %rbx
	cmpq	$128, %r9
	jbe	.LBB1_115
.LBB1_88:
	movzbl	-1(%rax,%rbx), %r14d
	subq	%r14, %r9
	cmpq	%rbx, %r9
	jae	.LBB1_114
	movq	%r14, %r10
	negq	%r10
	leaq	(%rsi,%rbx), %r11
	shlq	$3, %rbx
	leaq	(%rbx,%rbx,2), %rbx
	shll	$3, %r14d
	leaq	(%r14,%r14,2), %r14
	subq	%r14, %rbx
	addq	%rdi, %rbx
	jmp	.LBB1_110
	.p2align	4
.LBB1_109:
	addq	$24, %rbx
	incq	%r10
	je	.LBB1_114
.LBB1_110:
	cmpb	$1, (%r11,%r10)
	jne	.LBB1_109
	movsd	(%rbx), %xmm2
	ucomisd	%xmm0, %xmm2
	jne	.LBB1_112
	jnp	.LBB1_109
.LBB1_112:
	ucomisd	%xmm1, %xmm2
	jne	.LBB1_113
	jnp	.LBB1_109
.LBB1_113:
	movb	$1, %cl
.LBB1_115:
	movq	%r15, %rdi
.LBB1_116:
	cmpq	$128, %r8
	jne	.LBB1_118
	movb	$2, %r10b
	xorl	%ebp, %ebp
	movl	%ecx, %edx
.LBB1_107:
	xorl	%ecx, %ecx
.LBB1_108:
	xorl	%edi, %edi
	movq	24(%rsp), %rax
	movb	$1, %sil
.LBB1_121:
	movb	%sil, (%rax)
	movb	%r10b, 1(%rax)
	movq	%rbp, 8(%rax)
	movb	%dl, 16(%rax)
	movb	%cl, 17(%rax)
	movq	%rdi, 24(%rax)
	addq	$600, %rsp
	popq	%rbx
	popq	%r12
	popq	%r13
	popq	%r14
	popq	%r15
	popq	%rbp
	retq
.LBB1_118:
	movzbl	-1(%rax,%r8), %ebp
	leaq	128(%rbp), %rax
	cmpq	%r8, %rax
	movq	24(%rsp), %rax
	movb	$1, %sil
	jne	.LBB1_119
	xorl	%esi, %esi
	xorl	%r10d, %r10d
	jmp	.LBB1_121
.LBB1_119:
	movb	$3, %r10b
	xorl	%ebp, %ebp
	movl	%ecx, %edx
	xorl	%ecx, %ecx
	xorl	%edi, %edi
	jmp	.LBB1_121
.LBB1_106:
	movq	%r8, %rbp
	movl	%r9d, %edx
	jmp	.LBB1_107
.LBB1_34:
	xorl	%ebp, %ebp
.LBB1_44:
	xorl	%edx, %edx
	xorl	%ecx, %ecx
	xorl	%edi, %edi
	movq	24(%rsp), %rax
	movb	$1, %sil
	movb	$10, %r10b
	jmp	.LBB1_121
.LBB1_49:
	xorl	%ecx, %ecx
	movb	$10, %r10b
.LBB1_50:
	leaq	(,%rcx,8), %rax
	leaq	(%rax,%rax,2), %rbx
	movl	4(%r14,%rbx), %edx
	movq	8(%r14,%rbx), %rdi
	movq	16(%r14,%rbx), %rsi
	movzbl	(%r14,%rbx), %r8d
	movzbl	2(%r14,%rbx), %r11d
	movzbl	3(%r14,%rbx), %eax
	cmpl	$6, %r8d
	je	.LBB1_53
	cmpl	$7, %r8d
	je	.LBB1_52
	leal	-1(%r8), %r10d
	cmpb	$13, %r10b
	setb	%bpl
	cmpb	$2, %r8b
	sete	%r9b
	testb	%al, %al
	sete	%al
	andb	%bpl, %al
	cmpb	$0, 1(%r14,%rbx)
	sete	%bl
	leal	-5(%r8), %ebp
	cmpb	$2, %bpl
	setb	%bpl
	orb	%bl, %bpl
	andb	%al, %bpl
	testb	%r11b, %r11b
	sete	%al
	testq	%rdx, %rdx
	sete	%r11b
	addb	$-6, %r8b
	cmpb	$4, %r8b
	setb	%r8b
	orb	%r11b, %r8b
	andb	%al, %r8b
	andb	%bpl, %r8b
	testq	%rdi, %rdi
	sete	%al
	cmpb	$2, %r10b
	movb	$10, %r10b
	setb	%dil
	orb	%al, %dil
	testq	%rsi, %rsi
	sete	%al
	orb	%r9b, %al
	andb	%dil, %al
	jmp	.LBB1_55
.LBB1_53:
	orb	%r11b, %al
	sete	%r8b
	orq	%rdi, %rsi
	sete	%al
.LBB1_55:
	andb	%r8b, %al
	addq	%rdx, %rcx
	incq	%rcx
	xorl	%ebp, %ebp
	cmpq	%r15, %rcx
	ja	.LBB1_56
	testb	%al, %al
	je	.LBB1_56
	xorl	%ebp, %ebp
	cmpq	%r15, %rcx
	jb	.LBB1_50
	movb	$12, %r10b
	xorl	%edx, %edx
	jmp	.LBB1_107
.LBB1_69:
	movzbl	113(%rsp), %r10d
	movzbl	114(%rsp), %edx
	jmp	.LBB1_107
.LBB1_56:
	xorl	%edx, %edx
	jmp	.LBB1_107
.LBB1_52:
	xorl	%ebp, %ebp
	xorl	%edx, %edx
	jmp	.LBB1_107
.Lfunc_end1:
	.size	"algebra::lists::read_sum", .Lfunc_end1-"algebra::lists::read_sum"
	.section	".rodata.algebra::lists::read_sum","a",@progbits
	.p2align	2, 0x0
.LJTI1_0:
	.long	.LBB1_83-.LJTI1_0
	.long	.LBB1_80-.LJTI1_0
	.long	.LBB1_83-.LJTI1_0
	.long	.LBB1_83-.LJTI1_0
	.long	.LBB1_79-.LJTI1_0

	.section	.rodata.cst8,"aM",@progbits,8
	.p2align	3, 0x0
.LCPI2_0:
	.quad	0x3ff0000000000000
.LCPI2_1:
	.quad	0xbcb0000000000000
.LCPI2_2:
	.quad	0x3cb0000000000000
.LCPI2_3:
	.quad	0x4000000000000000
.LCPI2_4:
	.quad	0x4005bf0a8b145769
.LCPI2_5:
	.quad	0x3fe0000000000000
.LCPI2_6:
	.quad	0xc330000000000000
.LCPI2_7:
	.quad	0x4330000000000000
.LCPI2_8:
	.quad	0x4050000000000000
.LCPI2_10:
	.quad	0x4024000000000000
	.section	.rodata.cst16,"aM",@progbits,16
	.p2align	4, 0x0
.LCPI2_9:
	.quad	0x8000000000000000
	.quad	0x8000000000000000
.LCPI2_11:
	.quad	0x4005bf0a8b145769
	.quad	0x3ff0000000000000
.LCPI2_12:
	.quad	0x4000000000000000
	.quad	0x3ff0000000000000
.LCPI2_13:
	.quad	0x4024000000000000
	.quad	0x3ff0000000000000
.LCPI2_14:
	.zero	16,1
.LCPI2_15:
	.zero	4
	.long	4294967295
	.long	4294967295
	.long	4294967295
	.section	".text.stack::leaf::leaf","ax",@progbits
	.p2align	4
	.type	"stack::leaf::leaf",@function
"stack::leaf::leaf":
	pushq	%rbp
	pushq	%r15
	pushq	%r14
	pushq	%r13
	pushq	%r12
	pushq	%rbx
	subq	$3072, %rsp
	movq	$0, (%rsp)
	subq	$2280, %rsp
	movzbl	(%rsi), %r10d
	leal	-1(%r10), %eax
	cmpb	$12, %al
	ja	.LBB2_5
	movq	8(%rsi), %rax
	decl	%r10d
	leaq	.LJTI2_0(%rip), %r11
	movslq	(%r11,%r10,4), %r10
	addq	%r11, %r10
	jmpq	*%r10
.LBB2_2:
	movb	$1, %r15b
.LBB2_3:
	cmpq	$129, %r8
	jb	.LBB2_967
	movq	(%rdx), %rax
	movq	32(%rdx), %rcx
	movq	48(%rdx), %rdx
	xorps	%xmm0, %xmm0
	movsd	.LCPI2_0(%rip), %xmm1
	movq	%r8, %rsi
	jmp	.LBB2_16
.LBB2_5:
	cmpq	$129, %r8
	jb	.LBB2_98
	movq	(%rdx), %rax
	movq	32(%rdx), %rcx
	movq	48(%rdx), %rdx
	xorps	%xmm0, %xmm0
	movsd	.LCPI2_0(%rip), %xmm1
	movq	%r8, %rsi
	jmp	.LBB2_8
	.p2align	4
.LBB2_7:
	movq	%rsi, %r8
	cmpq	$128, %rsi
	jbe	.LBB2_98
.LBB2_8:
	movzbl	-1(%rdx,%r8), %ebx
	subq	%rbx, %rsi
	cmpq	%r8, %rsi
	jae	.LBB2_7
	movq	%rbx, %r10
	negq	%r10
	leaq	(%rax,%r8), %r11
	shlq	$3, %r8
	leaq	(%r8,%r8,2), %r8
	shll	$3, %ebx
	leaq	(%rbx,%rbx,2), %rbx
	subq	%rbx, %r8
	addq	%rcx, %r8
	jmp	.LBB2_11
	.p2align	4
.LBB2_10:
	addq	$24, %r8
	incq	%r10
	je	.LBB2_7
.LBB2_11:
	cmpb	$1, (%r11,%r10)
	jne	.LBB2_10
	movsd	(%r8), %xmm2
	ucomisd	%xmm0, %xmm2
	jne	.LBB2_13
	jnp	.LBB2_10
.LBB2_13:
	ucomisd	%xmm1, %xmm2
	jne	.LBB2_97
	jnp	.LBB2_10
.LBB2_97:
	movb	$1, %al
	jmp	.LBB2_99
	.p2align	4
.LBB2_15:
	movq	%rsi, %r8
	cmpq	$128, %rsi
	jbe	.LBB2_967
.LBB2_16:
	movzbl	-1(%rdx,%r8), %ebx
	subq	%rbx, %rsi
	cmpq	%r8, %rsi
	jae	.LBB2_15
	movq	%rbx, %r10
	negq	%r10
	leaq	(%rax,%r8), %r11
	shlq	$3, %r8
	leaq	(%r8,%r8,2), %r8
	shll	$3, %ebx
	leaq	(%rbx,%rbx,2), %rbx
	subq	%rbx, %r8
	addq	%rcx, %r8
	jmp	.LBB2_19
	.p2align	4
.LBB2_18:
	addq	$24, %r8
	incq	%r10
	je	.LBB2_15
.LBB2_19:
	cmpb	$1, (%r11,%r10)
	jne	.LBB2_18
	movsd	(%r8), %xmm2
	ucomisd	%xmm0, %xmm2
	jne	.LBB2_21
	jnp	.LBB2_18
.LBB2_21:
	ucomisd	%xmm1, %xmm2
	jne	.LBB2_966
	jnp	.LBB2_18
.LBB2_966:
	movb	$1, %al
	jmp	.LBB2_968
.LBB2_23:
	movb	$5, %r15b
	jmp	.LBB2_3
.LBB2_24:
	movq	16(%rsi), %rsi
	movabsq	$9218868437227405312, %r10
	movq	%rax, %r11
	andq	%r10, %r11
	cmpq	%r10, %r11
	setne	%r11b
	movq	%rsi, %rbx
	andq	%r10, %rbx
	cmpq	%r10, %rbx
	setne	%r10b
	testb	%r10b, %r11b
	je	.LBB2_51
	cmpq	%r8, %rcx
	jbe	.LBB2_934
	movq	(%rdx), %rcx
	movb	$1, (%rcx,%r8)
	movq	16(%rdx), %rcx
	movb	$0, (%rcx,%r8)
	leaq	(%r8,%r8,2), %rcx
	movq	32(%rdx), %r9
	movq	$0, (%r9,%rcx,8)
	movq	%rax, 8(%r9,%rcx,8)
	movq	%rsi, 16(%r9,%rcx,8)
	jmp	.LBB2_65
.LBB2_27:
	movb	$8, %r15b
	jmp	.LBB2_3
.LBB2_28:
	movb	$4, %r15b
	jmp	.LBB2_3
.LBB2_29:
	movabsq	$9218868437227405312, %rsi
	movq	%rax, %r10
	andq	%rsi, %r10
	cmpq	%rsi, %r10
	jne	.LBB2_63
	cmpq	$129, %r8
	jb	.LBB2_61
	movq	(%rdx), %rax
	movq	32(%rdx), %rcx
	movq	48(%rdx), %rdx
	xorps	%xmm0, %xmm0
	movsd	.LCPI2_0(%rip), %xmm1
	movq	%r8, %rsi
	jmp	.LBB2_44
.LBB2_32:
	movzbl	1(%rsi), %eax
	cmpb	$38, %al
	ja	.LBB2_77
	movabsq	$274877912848, %rsi
	btq	%rax, %rsi
	jae	.LBB2_67
.LBB2_34:
	cmpq	$128, %r8
	je	.LBB2_69
	movq	48(%rdx), %rsi
	movzbl	-1(%rsi,%r8), %r11d
	movzbl	%r11b, %ebp
	movq	%r8, %rbx
	subq	%rbp, %rbx
	cmpq	$128, %rbx
	je	.LBB2_69
	cmpb	$38, %al
	ja	.LBB2_119
	movl	$6048, %r10d
	btq	%rax, %r10
	jae	.LBB2_100
.LBB2_38:
	movq	%rbp, 160(%rsp)
	movzbl	-1(%rsi,%rbx), %r13d
	movzbl	%r13b, %r12d
	movq	%rbx, %rsi
	subq	%r12, %rsi
	addl	$-8, %eax
	cmpl	$26, %eax
	movq	%rsi, 32(%rsp)
	movq	%r12, 136(%rsp)
	ja	.LBB2_124
	leaq	.LJTI2_2(%rip), %rsi
	movslq	(%rsi,%rax,4), %rax
	addq	%rsi, %rax
	jmpq	*%rax
.LBB2_40:
	testb	%r13b, %r13b
	je	.LBB2_396
	movq	(%rdx), %r10
	movq	16(%rdx), %rsi
	movq	32(%rdx), %rax
	cmpb	$1, %r13b
	jne	.LBB2_392
	xorl	%r14d, %r14d
	jmp	.LBB2_395
.LBB2_43:
	movq	%rsi, %r8
	cmpq	$128, %rsi
	jbe	.LBB2_61
.LBB2_44:
	movzbl	-1(%rdx,%r8), %ebx
	subq	%rbx, %rsi
	cmpq	%r8, %rsi
	jae	.LBB2_43
	movq	%rbx, %r10
	negq	%r10
	leaq	(%rax,%r8), %r11
	shlq	$3, %r8
	leaq	(%r8,%r8,2), %r8
	shll	$3, %ebx
	leaq	(%rbx,%rbx,2), %rbx
	subq	%rbx, %r8
	addq	%rcx, %r8
	jmp	.LBB2_47
	.p2align	4
.LBB2_46:
	addq	$24, %r8
	incq	%r10
	je	.LBB2_43
.LBB2_47:
	cmpb	$1, (%r11,%r10)
	jne	.LBB2_46
	movsd	(%r8), %xmm2
	ucomisd	%xmm0, %xmm2
	jne	.LBB2_49
	jnp	.LBB2_46
.LBB2_49:
	ucomisd	%xmm1, %xmm2
	jne	.LBB2_50
	jnp	.LBB2_46
	jmp	.LBB2_50
.LBB2_51:
	cmpq	$129, %r8
	jb	.LBB2_61
	movq	(%rdx), %rax
	movq	32(%rdx), %rcx
	movq	48(%rdx), %rdx
	xorps	%xmm0, %xmm0
	movsd	.LCPI2_0(%rip), %xmm1
	movq	%r8, %rsi
	jmp	.LBB2_54
.LBB2_53:
	movq	%rsi, %r8
	cmpq	$128, %rsi
	jbe	.LBB2_61
.LBB2_54:
	movzbl	-1(%rdx,%r8), %ebx
	subq	%rbx, %rsi
	cmpq	%r8, %rsi
	jae	.LBB2_53
	movq	%rbx, %r10
	negq	%r10
	leaq	(%rax,%r8), %r11
	shlq	$3, %r8
	leaq	(%r8,%r8,2), %r8
	shll	$3, %ebx
	leaq	(%rbx,%rbx,2), %rbx
	subq	%rbx, %r8
	addq	%rcx, %r8
	jmp	.LBB2_57
	.p2align	4
.LBB2_56:
	addq	$24, %r8
	incq	%r10
	je	.LBB2_53
.LBB2_57:
	cmpb	$1, (%r11,%r10)
	jne	.LBB2_56
	movsd	(%r8), %xmm2
	ucomisd	%xmm0, %xmm2
	jne	.LBB2_59
	jnp	.LBB2_56
.LBB2_59:
	ucomisd	%xmm1, %xmm2
	jne	.LBB2_50
	jnp	.LBB2_56
.LBB2_50:
	movb	$1, %al
	jmp	.LBB2_62
.LBB2_61:
	xorl	%eax, %eax
.LBB2_62:
	cmpq	$2, %r9
	setae	%cl
	orb	%al, %cl
	movb	$14, %r15b
	jmp	.LBB2_969
.LBB2_63:
	cmpq	%r8, %rcx
	jbe	.LBB2_934
	movq	(%rdx), %rcx
	movb	$1, (%rcx,%r8)
	movq	16(%rdx), %rcx
	movb	$0, (%rcx,%r8)
	leaq	(%r8,%r8,2), %rcx
	movq	32(%rdx), %rsi
	movq	$0, (%rsi,%rcx,8)
	movq	%rax, 8(%rsi,%rcx,8)
	movq	$0, 16(%rsi,%rcx,8)
.LBB2_65:
	movq	48(%rdx), %rax
	movb	$1, (%rax,%r8)
	incq	%r8
.LBB2_66:
	xorl	%eax, %eax
	xorl	%r15d, %r15d
	xorl	%ecx, %ecx
	jmp	.LBB2_971
.LBB2_67:
	movl	$172, %esi
	btq	%rax, %rsi
	jae	.LBB2_77
.LBB2_68:
	cmpq	$128, %r8
	jne	.LBB2_70
.LBB2_69:
	cmpq	$2, %r9
	setae	%cl
	movb	$1, %al
	xorl	%r15d, %r15d
	jmp	.LBB2_970
.LBB2_70:
	movq	48(%rdx), %rsi
	movzbl	-1(%rsi,%r8), %ebp
	movzbl	%bpl, %r13d
	cmpb	$38, %al
	ja	.LBB2_112
	movl	$6048, %esi
	btq	%rax, %rsi
	jae	.LBB2_81
.LBB2_72:
	movq	%r8, %r12
	subq	%r13, %r12
	addl	$-5, %eax
	cmpl	$32, %eax
	movq	%r12, 32(%rsp)
	ja	.LBB2_243
	leaq	.LJTI2_1(%rip), %rsi
	movslq	(%rsi,%rax,4), %rax
	addq	%rsi, %rax
	jmpq	*%rax
.LBB2_74:
	testb	%bpl, %bpl
	je	.LBB2_417
	movq	(%rdx), %r9
	movq	16(%rdx), %rsi
	movq	32(%rdx), %rax
	cmpb	$1, %bpl
	jne	.LBB2_585
	xorl	%r10d, %r10d
	jmp	.LBB2_588
.LBB2_77:
	leaq	.Lstatic.0(%rip), %rsi
	movzbl	(%rax,%rsi), %esi
	andl	$3, %esi
	cmpl	$1, %esi
	je	.LBB2_68
	testl	%esi, %esi
	jne	.LBB2_34
	cmpq	$129, %r8
	jb	.LBB2_98
	movq	(%rdx), %rax
	movq	32(%rdx), %rcx
	movq	48(%rdx), %rdx
	xorps	%xmm0, %xmm0
	movsd	.LCPI2_0(%rip), %xmm1
	movq	%r8, %rsi
	jmp	.LBB2_91
.LBB2_81:
	movabsq	$274877906968, %rsi
	btq	%rax, %rsi
	jae	.LBB2_111
.LBB2_82:
	subq	%r8, %rcx
	cmpq	%r13, %rcx
	jb	.LBB2_934
	movq	%r8, %r9
	subq	%r13, %r9
	movq	(%rdx), %r15
	movq	16(%rdx), %rax
	movq	32(%rdx), %r14
	cmpq	%r9, %r8
	jbe	.LBB2_121
	testb	%bpl, %bpl
	je	.LBB2_362
	movq	%r13, %r9
	testb	$1, %r13b
	je	.LBB2_87
	leaq	-1(%r13), %r9
	movzbl	-1(%r15,%r8), %ecx
	leaq	(%r8,%r13), %rsi
	decq	%rsi
	movb	%cl, (%r15,%rsi)
	movzbl	-1(%rax,%r8), %ecx
	movb	%cl, (%rax,%rsi)
	leaq	-3(%r8,%r8,2), %rcx
	leaq	(%rsi,%rsi,2), %rsi
	movupd	(%r14,%rcx,8), %xmm0
	movq	16(%r14,%rcx,8), %rcx
	movq	%rcx, 16(%r14,%rsi,8)
	movupd	%xmm0, (%r14,%rsi,8)
.LBB2_87:
	cmpb	$1, %bpl
	je	.LBB2_362
	leaq	(%r9,%r8), %rcx
	leaq	(%rcx,%rcx,2), %rcx
	leaq	(%r14,%rcx,8), %rsi
	addq	$-48, %rsi
	leaq	-1(%r8), %r10
	leaq	-1(%rax,%r8), %r11
	leaq	(%r15,%r8), %rbx
	decq	%rbx
	leal	(,%r13,8), %ecx
	leaq	(%rcx,%rcx,2), %r14
	negq	%r14
	subq	%r13, %r10
	addq	%r10, %rax
	addq	%r15, %r10
	xorl	%ecx, %ecx
.LBB2_89:
	movzbl	(%r10,%r9), %r15d
	movb	%r15b, (%rbx,%r9)
	movzbl	(%rax,%r9), %r15d
	movb	%r15b, (%r11,%r9)
	movups	24(%rsi,%r14), %xmm0
	movq	40(%rsi,%r14), %r15
	movq	%r15, 40(%rsi)
	movups	%xmm0, 24(%rsi)
	movzbl	-1(%r10,%r9), %r15d
	movb	%r15b, -1(%rbx,%r9)
	movzbl	-1(%rax,%r9), %r15d
	movb	%r15b, -1(%r11,%r9)
	movupd	(%rsi,%r14), %xmm0
	movq	16(%rsi,%r14), %r15
	movq	%r15, 16(%rsi)
	movupd	%xmm0, (%rsi)
	addq	$2, %rcx
	addq	$-48, %rsi
	addq	$-2, %r11
	addq	$-2, %rbx
	addq	$-2, %rax
	addq	$-2, %r10
	cmpq	%rcx, %r9
	jne	.LBB2_89
	jmp	.LBB2_362
.LBB2_90:
	movq	%rsi, %r8
	cmpq	$128, %rsi
	jbe	.LBB2_98
.LBB2_91:
	movzbl	-1(%rdx,%r8), %ebx
	subq	%rbx, %rsi
	cmpq	%r8, %rsi
	jae	.LBB2_90
	movq	%rbx, %r10
	negq	%r10
	leaq	(%rax,%r8), %r11
	shlq	$3, %r8
	leaq	(%r8,%r8,2), %r8
	shll	$3, %ebx
	leaq	(%rbx,%rbx,2), %rbx
	subq	%rbx, %r8
	addq	%rcx, %r8
	jmp	.LBB2_94
.LBB2_93:
	addq	$24, %r8
	incq	%r10
	je	.LBB2_90
.LBB2_94:
	cmpb	$1, (%r11,%r10)
	jne	.LBB2_93
	movsd	(%r8), %xmm2
	ucomisd	%xmm0, %xmm2
	jne	.LBB2_96
	jnp	.LBB2_93
.LBB2_96:
	ucomisd	%xmm1, %xmm2
	jne	.LBB2_97
	jnp	.LBB2_93
	jmp	.LBB2_97
.LBB2_98:
	xorl	%eax, %eax
.LBB2_99:
	cmpq	$2, %r9
	setae	%cl
	orb	%al, %cl
	movb	$1, %al
	xorl	%r8d, %r8d
	movb	$1, %r15b
	jmp	.LBB2_971
.LBB2_100:
	cmpq	$4, %rax
	je	.LBB2_115
	cmpq	$38, %rax
	jne	.LBB2_119
	movzbl	-1(%rsi,%rbx), %r13d
	movzbl	%r13b, %esi
.LBB2_103:
	subq	%r8, %rcx
	cmpq	%rsi, %rcx
	jb	.LBB2_934
	movq	%rbx, %r11
	subq	%rsi, %r11
	movq	(%rdx), %r9
	movq	16(%rdx), %rcx
	movq	32(%rdx), %r10
	cmpq	%r11, %r8
	jbe	.LBB2_354
	testb	%r13b, %r13b
	je	.LBB2_646
	movq	%rsi, %r11
	testb	$1, %sil
	je	.LBB2_108
	leaq	-1(%rsi), %r11
	movzbl	-1(%r9,%rbx), %eax
	movq	%r9, %r14
	leaq	(%rsi,%r8), %r9
	decq	%r9
	movb	%al, (%r14,%r9)
	movzbl	-1(%rcx,%rbx), %eax
	movb	%al, (%rcx,%r9)
	leaq	-3(%rbx,%rbx,2), %rax
	leaq	(%r9,%r9,2), %r9
	movupd	(%r10,%rax,8), %xmm0
	movq	16(%r10,%rax,8), %rax
	movq	%rax, 16(%r10,%r9,8)
	movupd	%xmm0, (%r10,%r9,8)
	movq	%r14, %r9
.LBB2_108:
	cmpl	$1, %esi
	je	.LBB2_646
	leaq	(%r11,%r8), %rax
	leaq	(%rax,%rax,2), %rax
	leaq	(%r10,%rax,8), %r10
	addq	$-48, %r10
	leaq	-1(%r8), %rbx
	leaq	(%rcx,%r8), %r14
	decq	%r14
	leaq	(%r9,%r8), %r15
	decq	%r15
	leal	(%rsi,%rbp), %eax
	shll	$3, %eax
	leaq	(%rax,%rax,2), %r12
	negq	%r12
	subq	%rsi, %rbx
	subq	%rbp, %rbx
	addq	%rbx, %rcx
	addq	%r9, %rbx
	xorl	%r9d, %r9d
.LBB2_110:
	movzbl	(%rbx,%r11), %eax
	movb	%al, (%r15,%r11)
	movzbl	(%rcx,%r11), %eax
	movb	%al, (%r14,%r11)
	movups	24(%r10,%r12), %xmm0
	movq	40(%r10,%r12), %rax
	movq	%rax, 40(%r10)
	movups	%xmm0, 24(%r10)
	movzbl	-1(%rbx,%r11), %eax
	movb	%al, -1(%r15,%r11)
	movzbl	-1(%rcx,%r11), %eax
	movb	%al, -1(%r14,%r11)
	movupd	(%r10,%r12), %xmm0
	movq	16(%r10,%r12), %rax
	movq	%rax, 16(%r10)
	movupd	%xmm0, (%r10)
	addq	$2, %r9
	addq	$-48, %r10
	addq	$-2, %r14
	addq	$-2, %r15
	addq	$-2, %rcx
	addq	$-2, %rbx
	cmpq	%r9, %r11
	jne	.LBB2_110
	jmp	.LBB2_646
.LBB2_111:
	cmpq	$2, %rax
	je	.LBB2_114
.LBB2_112:
	leaq	.Lstatic.0(%rip), %rsi
	movzbl	(%rax,%rsi), %esi
	shrl	$2, %esi
	andl	$3, %esi
	cmpl	$1, %esi
	je	.LBB2_72
	testl	%esi, %esi
	jne	.LBB2_82
.LBB2_114:
	subq	%r13, %r8
	jmp	.LBB2_66
.LBB2_115:
	movzbl	-1(%rsi,%rbx), %r13d
	movzbl	%r13b, %esi
.LBB2_116:
	movq	%rbx, %r12
	subq	%rsi, %r12
	movq	(%rdx), %r10
	movq	16(%rdx), %r9
	movq	32(%rdx), %r15
	testb	%r13b, %r13b
	movq	%rbp, 160(%rsp)
	movb	%r13b, 40(%rsp)
	movb	%r11b, 48(%rsp)
	je	.LBB2_269
	movq	%r15, %rax
	cmpl	$1, %esi
	jne	.LBB2_264
	xorl	%r15d, %r15d
	jmp	.LBB2_267
.LBB2_119:
	leaq	.Lstatic.0(%rip), %r10
	movzbl	(%rax,%r10), %r10d
	shrb	$2, %r10b
	andb	$3, %r10b
	cmpb	$1, %r10b
	je	.LBB2_38
	movzbl	-1(%rsi,%rbx), %r13d
	movzbl	%r13b, %esi
	cmpb	$2, %r10b
	jne	.LBB2_103
	jmp	.LBB2_116
.LBB2_121:
	testb	%bpl, %bpl
	je	.LBB2_362
	cmpb	$1, %bpl
	jne	.LBB2_358
	xorl	%r10d, %r10d
	jmp	.LBB2_361
.LBB2_124:
	testb	%r13b, %r13b
	je	.LBB2_357
	movq	(%rdx), %r9
	movq	16(%rdx), %rsi
	movq	32(%rdx), %rax
	cmpb	$1, %r13b
	jne	.LBB2_381
	xorl	%ebx, %ebx
	movq	32(%rsp), %r13
	jmp	.LBB2_384
.LBB2_127:
	pxor	%xmm0, %xmm0
	movdqa	%xmm0, 736(%rsp)
	movq	(%rdx), %rax
	movq	32(%rdx), %rsi
	movb	$1, %r10b
	cmpb	$1, %r13b
	movq	32(%rsp), %r13
	jne	.LBB2_129
	leaq	(,%r13,2), %r10
	addq	%r13, %r10
	movsd	(%rsi,%r10,8), %xmm0
	movdqu	8(%rsi,%r10,8), %xmm1
	cmpb	$1, (%rax,%r13)
	movl	%r11d, %ebp
	setne	%r11b
	xorps	%xmm2, %xmm2
	ucomisd	%xmm2, %xmm0
	movq	%rbx, %r14
	setp	%bl
	setne	%r10b
	orb	%bl, %r10b
	movq	%r14, %rbx
	orb	%r11b, %r10b
	movzbl	%r10b, %r11d
	movd	%r11d, %xmm0
	movl	%ebp, %r11d
	pshufd	$0, %xmm0, %xmm0
	pslld	$31, %xmm0
	psrad	$31, %xmm0
	pandn	%xmm1, %xmm0
.LBB2_129:
	cmpb	$1, %r11b
	movq	%r9, 64(%rsp)
	jne	.LBB2_177
	leaq	(%rbx,%rbx,2), %r11
	movsd	(%rsi,%r11,8), %xmm2
	pxor	%xmm1, %xmm1
	ucomisd	%xmm1, %xmm2
	jne	.LBB2_177
	jp	.LBB2_177
	cmpb	$1, (%rax,%rbx)
	jne	.LBB2_177
	movq	%rbx, %r15
	movq	%rcx, %rbp
	movq	%r8, %r12
	movq	%rdi, %rbx
	testb	%r10b, %r10b
	je	.LBB2_630
	leaq	736(%rsp), %rdi
	movl	$1, %r9d
	movq	%rdx, %rsi
	movq	%rdx, %r14
	movq	%r13, %rdx
	movq	136(%rsp), %rcx
	movq	%r15, %r8
	jmp	.LBB2_178
.LBB2_134:
	testb	%r13b, %r13b
	je	.LBB2_390
	movq	(%rdx), %r10
	movq	16(%rdx), %rsi
	movq	32(%rdx), %rax
	cmpb	$1, %r13b
	jne	.LBB2_386
	xorl	%r14d, %r14d
	jmp	.LBB2_389
.LBB2_137:
	movq	(%rdx), %r14
	movb	$6, %r15b
	cmpb	$1, %r11b
	jne	.LBB2_780
	movq	32(%rdx), %rax
	leaq	(,%rbx,8), %rsi
	leaq	(%rsi,%rsi,2), %rsi
	movsd	(%rax,%rsi), %xmm1
	xorps	%xmm0, %xmm0
	ucomisd	%xmm0, %xmm1
	jne	.LBB2_780
	jp	.LBB2_780
	cmpb	$1, (%r14,%rbx)
	jne	.LBB2_780
	movsd	16(%rax,%rsi), %xmm1
	movsd	.LCPI2_1(%rip), %xmm2
	ucomisd	%xmm2, %xmm1
	jbe	.LBB2_780
	movq	%r14, %r12
	movq	%rcx, 56(%rsp)
	movq	%r8, 80(%rsp)
	movsd	.LCPI2_2(%rip), %xmm2
	ucomisd	%xmm1, %xmm2
	jbe	.LBB2_737
	movq	%r9, %r14
	movq	%rdx, %rbx
	movq	%rdi, 72(%rsp)
	movsd	8(%rax,%rsi), %xmm1
	movsd	%xmm1, 48(%rsp)
	subsd	%xmm1, %xmm1
	ucomisd	%xmm0, %xmm1
	jne	.LBB2_764
	jp	.LBB2_764
	testb	%r13b, %r13b
	je	.LBB2_853
	movq	16(%rbx), %rdi
	movl	$3, %ecx
	movq	32(%rsp), %rsi
	movq	136(%rsp), %rdx
	callq	"sums::order::nests_inside"
	movb	$12, %r15b
	testb	%al, %al
	je	.LBB2_765
	movb	$11, %r15b
	cmpb	$63, %r13b
	ja	.LBB2_765
	movq	136(%rsp), %rax
	leaq	1(%rax), %r15
	jmp	.LBB2_854
.LBB2_147:
	movq	16(%rdx), %r15
	movq	32(%rsp), %rsi
	xorl	%eax, %eax
	cmpq	%rbx, %rsi
	jae	.LBB2_149
.LBB2_148:
	movzbl	(%r15,%rsi), %r10d
	addq	%r10, %rsi
	incq	%rsi
	incq	%rax
	cmpq	%rbx, %rsi
	jb	.LBB2_148
.LBB2_149:
	xorl	%r14d, %r14d
	cmpq	%r8, %rbx
	jae	.LBB2_152
	movq	%rbx, %rsi
.LBB2_151:
	addq	%rax, %r14
	movzbl	(%r15,%rsi), %r10d
	addq	%r10, %rsi
	incq	%rsi
	cmpq	%r8, %rsi
	jb	.LBB2_151
.LBB2_152:
	cmpb	$1, %r11b
	jne	.LBB2_246
	cmpb	$1, %r13b
	jne	.LBB2_246
	movq	(%rdx), %rsi
	movq	32(%rdx), %rax
	movq	32(%rsp), %r13
	movzbl	(%rsi,%r13), %r10d
	movq	%rsi, 48(%rsp)
	movzbl	(%rsi,%rbx), %esi
	movl	%r10d, %r11d
	xorb	$1, %r11b
	movq	%rbx, %r12
	movl	%esi, %ebx
	xorb	$1, %bl
	orb	%r11b, %bl
	jne	.LBB2_427
	shlq	$3, %r12
	leaq	(%r12,%r12,2), %rsi
	movsd	(%rax,%rsi), %xmm0
	leaq	(,%r13,8), %r10
	leaq	(%r10,%r10,2), %r10
	addsd	(%rax,%r10), %xmm0
	movapd	%xmm0, %xmm2
	subsd	%xmm0, %xmm2
	xorps	%xmm1, %xmm1
	ucomisd	%xmm1, %xmm2
	jne	.LBB2_709
	jp	.LBB2_709
	movupd	8(%rax,%r10), %xmm3
	movsd	8(%rax,%rsi), %xmm2
	movsd	16(%rax,%rsi), %xmm4
	unpcklpd	%xmm2, %xmm2
	mulpd	%xmm3, %xmm2
	unpcklpd	%xmm4, %xmm4
	shufpd	$1, %xmm3, %xmm3
	mulpd	%xmm4, %xmm3
	movapd	%xmm2, %xmm4
	subpd	%xmm3, %xmm4
	addpd	%xmm2, %xmm3
	movsd	%xmm4, %xmm3
	xorpd	%xmm2, %xmm2
	addpd	%xmm3, %xmm2
	movapd	%xmm2, %xmm3
	subpd	%xmm2, %xmm3
	movapd	%xmm3, %xmm4
	ucomisd	%xmm1, %xmm4
	movb	$14, %r15b
	jne	.LBB2_778
	jp	.LBB2_778
	unpckhpd	%xmm3, %xmm3
	ucomisd	%xmm1, %xmm3
	jne	.LBB2_778
	jp	.LBB2_778
	movq	48(%rsp), %rax
	movb	$1, (%rax)
	movq	16(%rdx), %rax
	movb	$0, (%rax)
	movq	32(%rdx), %rax
	movsd	%xmm0, (%rax)
	movupd	%xmm2, 8(%rax)
	movl	$1, %r11d
	movq	32(%rsp), %r13
	jmp	.LBB2_933
.LBB2_159:
	movq	(%rdx), %r14
	movq	16(%rdx), %r15
	movq	32(%rdx), %rbp
	movzbl	(%r15,%rbx), %eax
	movq	%rax, 40(%rsp)
	incl	%eax
	cmpl	160(%rsp), %eax
	movq	%r15, 96(%rsp)
	movq	%rbp, 144(%rsp)
	jne	.LBB2_250
	leaq	(%rbx,%rbx,2), %rax
	movdqu	(%rbp,%rax,8), %xmm2
	movq	16(%rbp,%rax,8), %xmm3
	movzbl	(%r14,%rbx), %eax
	movb	%al, 128(%rsp)
	movq	8(%rdx), %rax
	movq	24(%rdx), %rsi
	movq	40(%rdx), %r10
	movq	%r14, 736(%rsp)
	movq	%rax, 744(%rsp)
	movq	%r15, 752(%rsp)
	movq	%rsi, 760(%rsp)
	movq	%rbp, 768(%rsp)
	movq	%r10, 776(%rsp)
	leaq	1(%rbx), %rax
	movq	%rax, 48(%rsp)
	movq	32(%rsp), %r13
	cmpq	%rbx, %r13
	jae	.LBB2_349
	movzbl	128(%rsp), %eax
	movq	%rax, 208(%rsp)
	xorps	%xmm4, %xmm4
	movq	40(%rsp), %rsi
	leaq	1(%rbx), %rax
	addq	%rax, %rsi
	movq	%rsi, 232(%rsp)
	movq	%r13, %rbp
	movq	%r9, 64(%rsp)
	movq	%rdi, 72(%rsp)
	movq	%rbx, 88(%rsp)
	movdqa	%xmm2, 240(%rsp)
	movq	%xmm3, 152(%rsp)
	movsd	%xmm4, 200(%rsp)
	jmp	.LBB2_165
.LBB2_162:
	leaq	736(%rsp), %rdi
	leaq	544(%rsp), %rsi
	leaq	352(%rsp), %r10
	movl	$4, %r9d
	movq	%rdx, %r15
	movq	%rbp, %rdx
	movq	%rcx, %rbx
	movq	%r10, %rcx
	movq	%r14, %r13
	movq	%r8, %r14
	movq	48(%rsp), %r8
	callq	"sums::order::eq_term"
	movsd	200(%rsp), %xmm4
	movq	152(%rsp), %xmm3
	movdqa	240(%rsp), %xmm2
	movq	64(%rsp), %r9
	movq	%rbx, %rcx
	movq	88(%rsp), %rbx
	movq	%r14, %r8
	movq	%r13, %r14
	movq	%r15, %rdx
	movq	72(%rsp), %rdi
	movq	32(%rsp), %r13
.LBB2_163:
	testb	%al, %al
	je	.LBB2_710
.LBB2_164:
	addq	%r12, %rbp
	cmpq	%rbx, %rbp
	movq	96(%rsp), %r15
	jae	.LBB2_349
.LBB2_165:
	leaq	(,%rbp,2), %rsi
	addq	%rbp, %rsi
	movq	144(%rsp), %r10
	movsd	16(%r10,%rsi,8), %xmm1
	movzbl	(%r14,%rbp), %eax
	movzbl	(%r15,%rbp), %r12d
	movb	%al, 544(%rsp)
	movb	%r12b, 545(%rsp)
	leaq	546(%rsp), %r11
	movw	$0, 4(%r11)
	movl	$0, (%r11)
	movupd	(%r10,%rsi,8), %xmm0
	movupd	%xmm0, 552(%rsp)
	movsd	%xmm1, 568(%rsp)
	movzbl	128(%rsp), %esi
	movb	%sil, 352(%rsp)
	movq	40(%rsp), %rsi
	movb	%sil, 353(%rsp)
	leaq	354(%rsp), %rsi
	movw	$0, 4(%rsi)
	movl	$0, (%rsi)
	movdqu	%xmm2, 360(%rsp)
	movq	%xmm3, 376(%rsp)
	leaq	.Lstatic.1(%rip), %rsi
	leaq	(%rsi,%rax,8), %rsi
	movq	208(%rsp), %r10
	movzbl	-9(%r10,%rsi), %esi
	decl	%esi
	cmpl	$3, %esi
	ja	.LBB2_710
	incq	%rbp
	leaq	.LJTI2_3(%rip), %r10
	movslq	(%r10,%rsi,4), %rsi
	addq	%r10, %rsi
	jmpq	*%rsi
.LBB2_167:
	cmpb	$1, %al
	sete	%sil
	ucomisd	%xmm4, %xmm0
	setnp	%r10b
	sete	%al
	movq	232(%rsp), %r11
	cmpq	%r11, 48(%rsp)
	jae	.LBB2_164
	andb	%r10b, %al
	andb	%sil, %al
	movq	48(%rsp), %rsi
.LBB2_169:
	cmpb	$1, (%r14,%rsi)
	jne	.LBB2_163
	movzbl	(%r15,%rsi), %r10d
	addq	%r10, %rsi
	incq	%rsi
	cmpq	%r11, %rsi
	jb	.LBB2_169
	jmp	.LBB2_164
.LBB2_171:
	xorl	%r11d, %r11d
	ucomisd	%xmm4, %xmm0
	movb	$1, %r10b
	movb	$6, %r15b
	jne	.LBB2_707
	jp	.LBB2_707
	cmpb	$1, %al
	je	.LBB2_164
	jmp	.LBB2_707
.LBB2_173:
	movq	%rbx, %r14
	xorpd	%xmm0, %xmm0
	movapd	%xmm0, 736(%rsp)
	movq	$0, 752(%rsp)
	movq	(%rdx), %rbx
	movq	32(%rdx), %rax
	cmpb	$1, %r13b
	jne	.LBB2_256
	movq	32(%rsp), %r13
	leaq	(,%r13,8), %rsi
	leaq	(%rsi,%rsi,2), %r10
	movsd	(%rax,%r10), %xmm1
	xorpd	%xmm0, %xmm0
	xorl	%esi, %esi
	ucomisd	%xmm0, %xmm1
	jne	.LBB2_257
	jp	.LBB2_257
	cmpb	$1, (%rbx,%r13)
	jne	.LBB2_257
	movsd	8(%rax,%r10), %xmm1
	movsd	16(%rax,%r10), %xmm2
	movsd	.LCPI2_4(%rip), %xmm3
	cmpeqsd	%xmm1, %xmm3
	cmpeqsd	%xmm0, %xmm2
	andpd	%xmm3, %xmm2
	movd	%xmm2, %esi
	jmp	.LBB2_257
.LBB2_177:
	movq	%rcx, %rbp
	movq	%r8, %r12
	movq	%rbx, %r8
	movq	%rdi, %rbx
	leaq	736(%rsp), %rdi
	movq	%rdx, %rsi
	movq	%rdx, %r14
	movq	%r13, %rdx
	movq	136(%rsp), %rcx
	movq	160(%rsp), %r9
.LBB2_178:
	callq	"primitives::add_times_i"
	movq	%r14, %rdx
	movzbl	736(%rsp), %r10d
	movzbl	737(%rsp), %r15d
	movq	744(%rsp), %r11
.LBB2_179:
	xorl	%r14d, %r14d
	movq	%rbx, %rdi
	movq	%r12, %r8
	movq	%rbp, %rcx
	movq	64(%rsp), %r9
	jmp	.LBB2_902
.LBB2_180:
	movq	(%rdx), %rsi
	testb	%bpl, %bpl
	movq	%r13, 96(%rsp)
	je	.LBB2_399
	movq	%rsi, 48(%rsp)
	movq	%r12, %rsi
	movq	%r9, %r12
	movq	%rcx, 56(%rsp)
	movq	%r13, %rax
	movq	%r8, %r13
	movq	%rdi, %r14
	movq	%rdx, %rbx
	movq	16(%rdx), %rdi
	movl	$3, %ecx
	movq	%rax, %rdx
	callq	"sums::order::nests_inside"
	movb	$12, %r15b
	testb	%al, %al
	je	.LBB2_235
	movb	$11, %r15b
	cmpb	$63, %bpl
	ja	.LBB2_235
	movq	96(%rsp), %rax
	incq	%rax
	movq	%rax, 40(%rsp)
	movq	%r14, %rdi
	movq	%rbx, %rdx
	movq	%r13, %r8
	movq	56(%rsp), %rcx
	movq	32(%rsp), %r12
	movq	48(%rsp), %rsi
	jmp	.LBB2_400
.LBB2_184:
	movsd	.LCPI2_5(%rip), %xmm1
	movsd	.LCPI2_6(%rip), %xmm0
	movsd	.LCPI2_7(%rip), %xmm2
	cmplesd	%xmm1, %xmm2
	movapd	%xmm1, %xmm3
	cmplesd	%xmm0, %xmm3
	orpd	%xmm2, %xmm3
	xorpd	%xmm0, %xmm0
	ucomisd	%xmm1, %xmm0
	movd	%xmm3, %esi
	setae	%al
	ucomisd	%xmm0, %xmm1
	jb	.LBB2_363
	orb	%sil, %al
	testb	$1, %al
	je	.LBB2_363
	ucomisd	%xmm0, %xmm1
	jne	.LBB2_187
	jnp	.LBB2_192
.LBB2_187:
	movapd	%xmm0, %xmm2
	testb	$1, %sil
	jne	.LBB2_189
	movapd	%xmm1, %xmm2
.LBB2_189:
	movsd	.LCPI2_8(%rip), %xmm3
	ucomisd	%xmm1, %xmm3
	jb	.LBB2_731
	ucomisd	%xmm0, %xmm1
	jbe	.LBB2_731
	ucomisd	%xmm2, %xmm0
	jne	.LBB2_731
	jp	.LBB2_731
.LBB2_192:
	movq	(%rdx), %rax
	movb	$1, (%rax)
	movq	16(%rdx), %rax
	movb	$0, (%rax)
	movq	32(%rdx), %rax
	xorpd	%xmm0, %xmm0
	movupd	%xmm0, (%rax)
	movq	$0, 16(%rax)
	movl	$1, %ebx
	jmp	.LBB2_719
.LBB2_193:
	movq	(%rdx), %rsi
	testb	%bpl, %bpl
	movq	%r13, 96(%rsp)
	je	.LBB2_405
	movq	%rsi, 48(%rsp)
	movq	%r12, %rsi
	movq	%r9, %r12
	movq	%rcx, 56(%rsp)
	movq	%r13, %rax
	movq	%r8, %r13
	movq	%rdi, %r14
	movq	%rdx, %rbx
	movq	16(%rdx), %rdi
	movl	$3, %ecx
	movq	%rax, %rdx
	callq	"sums::order::nests_inside"
	movb	$12, %r15b
	testb	%al, %al
	je	.LBB2_235
	movb	$11, %r15b
	cmpb	$63, %bpl
	ja	.LBB2_235
	movq	96(%rsp), %rax
	incq	%rax
	movq	%rax, 40(%rsp)
	movq	%r14, %rdi
	movq	%rbx, %rdx
	movq	%r13, %r8
	movq	56(%rsp), %rcx
	movq	32(%rsp), %r12
	movq	48(%rsp), %rsi
	jmp	.LBB2_406
.LBB2_197:
	movq	(%rdx), %rsi
	testb	%bpl, %bpl
	movq	%r13, 96(%rsp)
	je	.LBB2_411
	movq	%rsi, 48(%rsp)
	movq	%r12, %rsi
	movq	%r9, %r12
	movq	%rcx, 56(%rsp)
	movq	%r13, %rax
	movq	%r8, %r13
	movq	%rdi, %r14
	movq	%rdx, %rbx
	movq	16(%rdx), %rdi
	movl	$3, %ecx
	movq	%rax, %rdx
	callq	"sums::order::nests_inside"
	movb	$12, %r15b
	testb	%al, %al
	je	.LBB2_235
	movb	$11, %r15b
	cmpb	$63, %bpl
	ja	.LBB2_235
	movq	96(%rsp), %rax
	incq	%rax
	movq	%rax, 40(%rsp)
	movq	%r14, %rdi
	movq	%rbx, %rdx
	movq	%r13, %r8
	movq	56(%rsp), %rcx
	movq	32(%rsp), %r12
	movq	48(%rsp), %rsi
	jmp	.LBB2_412
.LBB2_201:
	movq	(%rdx), %rax
	movb	$1, (%rax)
	movq	16(%rdx), %rax
	movb	$0, (%rax)
	movq	32(%rdx), %rax
	movq	$0, (%rax)
	movabsq	$4607182418800017408, %rsi
	movq	%rsi, 8(%rax)
	movq	$0, 16(%rax)
	movl	$1, %ebx
	cmpq	%r8, %r12
	jae	.LBB2_719
	xorps	%xmm3, %xmm3
	movq	%r12, %r10
	movq	%rdx, 120(%rsp)
	movq	%r9, 64(%rsp)
	movq	%rdi, 72(%rsp)
	movq	%rcx, 56(%rsp)
	movq	%r8, 80(%rsp)
	movq	%r13, 96(%rsp)
	movsd	%xmm3, 152(%rsp)
	jmp	.LBB2_287
.LBB2_203:
	xorpd	%xmm0, %xmm0
	movapd	%xmm0, 352(%rsp)
	movq	$1, 544(%rsp)
	movq	(%rdx), %r15
	movq	16(%rdx), %rax
	movq	32(%rdx), %rsi
	leaq	(%r12,%r12,2), %r10
	movsd	16(%rsi,%r10,8), %xmm1
	movzbl	(%r15,%r12), %r11d
	movzbl	(%rax,%r12), %ebx
	movb	%r11b, 736(%rsp)
	movb	%bl, 737(%rsp)
	movl	$0, 738(%rsp)
	movw	$0, 742(%rsp)
	movupd	(%rsi,%r10,8), %xmm2
	movupd	%xmm2, 744(%rsp)
	movsd	%xmm1, 760(%rsp)
	incl	%ebx
	movq	%r13, 96(%rsp)
	cmpl	%r13d, %ebx
	jne	.LBB2_377
	movhpd	.LCPI2_0(%rip), %xmm0
	movupd	%xmm0, 552(%rsp)
	movq	$0, 568(%rsp)
	leaq	1(%r12), %rax
	leaq	352(%rsp), %rsi
	leaq	544(%rsp), %r10
	leaq	736(%rsp), %r11
	movq	%rdi, %rbx
	movq	%rsi, %rdi
	movq	%rdx, %r12
	movq	%rdx, %rsi
	movq	%r10, %rdx
	movq	%rcx, %r14
	movq	%r11, %rcx
	movq	%r8, %r15
	movq	%rax, %r8
	movq	%r9, %r13
	xorl	%r9d, %r9d
	callq	"powers::divide::div_term"
	movq	%r13, %r9
	movq	%r14, %rcx
	movq	%r15, %r8
	movq	%rbx, %rdi
	movzbl	352(%rsp), %edx
	movzbl	353(%rsp), %r15d
	movq	360(%rsp), %rbx
	jmp	.LBB2_955
.LBB2_205:
	movq	(%rdx), %rsi
	movb	$6, %r15b
	cmpb	$1, %bpl
	movq	%rsi, 48(%rsp)
	jne	.LBB2_957
	movq	%r13, 96(%rsp)
	movq	%r9, %r13
	movq	%rcx, 56(%rsp)
	movq	%r8, 80(%rsp)
	movq	%rdi, %r14
	movq	32(%rdx), %rax
	leaq	(,%r12,8), %rcx
	leaq	(%rcx,%rcx,2), %rbp
	movsd	(%rax,%rbp), %xmm0
	movzbl	(%rsi,%r12), %ecx
	cmpb	$1, %cl
	jne	.LBB2_209
	movsd	.LCPI2_3(%rip), %xmm1
	movsd	.LCPI2_4(%rip), %xmm2
	ucomisd	%xmm2, %xmm1
	jne	.LBB2_209
	jp	.LBB2_209
	movsd	.LCPI2_0(%rip), %xmm1
	ucomisd	%xmm1, %xmm0
	jne	.LBB2_209
	jnp	.LBB2_240
.LBB2_209:
	movq	%rdx, %r12
	xorpd	%xmm1, %xmm1
	ucomisd	%xmm1, %xmm0
	jne	.LBB2_603
	jp	.LBB2_603
	cmpb	$1, %cl
	jne	.LBB2_603
	movsd	16(%rax,%rbp), %xmm0
	movsd	.LCPI2_1(%rip), %xmm1
	ucomisd	%xmm1, %xmm0
	jbe	.LBB2_603
	movsd	.LCPI2_2(%rip), %xmm1
	ucomisd	%xmm0, %xmm1
	movq	%r14, %rdi
	movq	%r12, %rdx
	movq	%r13, %r9
	jbe	.LBB2_957
	movsd	8(%rax,%rbp), %xmm0
	movsd	%xmm0, 48(%rsp)
	xorps	%xmm0, %xmm0
	movaps	%xmm0, 256(%rsp)
	movq	$0, 272(%rsp)
	movups	%xmm0, 545(%rsp)
	movups	%xmm0, 561(%rsp)
	movups	%xmm0, 577(%rsp)
	movups	%xmm0, 593(%rsp)
	movups	%xmm0, 609(%rsp)
	movups	%xmm0, 625(%rsp)
	movups	%xmm0, 641(%rsp)
	movups	%xmm0, 657(%rsp)
	movups	%xmm0, 673(%rsp)
	movups	%xmm0, 689(%rsp)
	movups	%xmm0, 705(%rsp)
	movups	%xmm0, 720(%rsp)
	movups	%xmm0, 353(%rsp)
	movups	%xmm0, 369(%rsp)
	movups	%xmm0, 385(%rsp)
	movups	%xmm0, 401(%rsp)
	movups	%xmm0, 417(%rsp)
	movups	%xmm0, 433(%rsp)
	movups	%xmm0, 449(%rsp)
	movups	%xmm0, 465(%rsp)
	movups	%xmm0, 481(%rsp)
	movups	%xmm0, 497(%rsp)
	movups	%xmm0, 513(%rsp)
	movups	%xmm0, 528(%rsp)
	leaq	760(%rsp), %rdi
	movl	$4584, %edx
	xorl	%esi, %esi
	callq	memset@PLT
	leaq	544(%rsp), %rax
	movq	%rax, 288(%rsp)
	movq	$192, 296(%rsp)
	leaq	352(%rsp), %rax
	movq	%rax, 304(%rsp)
	movq	$192, 312(%rsp)
	leaq	736(%rsp), %rax
	movq	%rax, 320(%rsp)
	movq	$192, 328(%rsp)
	movb	$1, 544(%rsp)
	movb	$0, 352(%rsp)
	movq	$0, 736(%rsp)
	movabsq	$4611686018427387904, %rax
	movq	%rax, 744(%rsp)
	movq	$0, 752(%rsp)
	leaq	256(%rsp), %rdi
	leaq	288(%rsp), %rsi
	movl	$1, %ecx
	movl	$64, %r8d
	movsd	48(%rsp), %xmm0
	xorl	%edx, %edx
	callq	"powers::raise::power_by"
	cmpb	$0, 256(%rsp)
	jne	.LBB2_602
	movq	264(%rsp), %rax
	testq	%rax, %rax
	je	.LBB2_891
	movq	%rax, %rbx
	movq	(%r12), %rdx
	movq	16(%r12), %rcx
	movq	32(%r12), %rax
	cmpq	$1, %rbx
	je	.LBB2_227
	movq	%rbx, %rdi
	andq	$-2, %rdi
	leaq	2272(%rsp), %r8
	xorl	%esi, %esi
	xorl	%r9d, %r9d
.LBB2_948:
	movzbl	608(%rsp,%rsi), %r10d
	movb	%r10b, (%rdx,%rsi)
	movzbl	416(%rsp,%rsi), %r10d
	movb	%r10b, (%rcx,%rsi)
	movups	(%r8,%r9), %xmm0
	movq	16(%r8,%r9), %r10
	movq	%r10, 16(%rax,%r9)
	movups	%xmm0, (%rax,%r9)
	movzbl	609(%rsp,%rsi), %r10d
	movb	%r10b, 1(%rdx,%rsi)
	movzbl	417(%rsp,%rsi), %r10d
	movb	%r10b, 1(%rcx,%rsi)
	movupd	24(%r8,%r9), %xmm0
	movq	40(%r8,%r9), %r10
	movq	%r10, 40(%rax,%r9)
	movupd	%xmm0, 24(%rax,%r9)
	addq	$2, %rsi
	addq	$48, %r9
	cmpq	%rsi, %rdi
	jne	.LBB2_948
	jmp	.LBB2_951
.LBB2_217:
	movq	(%rdx), %rsi
	movb	$6, %r15b
	cmpb	$1, %bpl
	movq	%rsi, 48(%rsp)
	jne	.LBB2_957
	movq	%r13, 96(%rsp)
	movq	%r9, %r13
	movq	%rcx, 56(%rsp)
	movq	%r8, 80(%rsp)
	movq	%rdi, %r14
	movq	32(%rdx), %rax
	leaq	(,%r12,8), %rcx
	leaq	(%rcx,%rcx,2), %rbp
	movsd	(%rax,%rbp), %xmm0
	movzbl	(%rsi,%r12), %ecx
	movsd	.LCPI2_0(%rip), %xmm1
	ucomisd	%xmm1, %xmm0
	jne	.LBB2_220
	jp	.LBB2_220
	cmpb	$1, %cl
	je	.LBB2_240
.LBB2_220:
	movq	%rdx, %r12
	xorpd	%xmm1, %xmm1
	ucomisd	%xmm1, %xmm0
	jne	.LBB2_603
	jp	.LBB2_603
	cmpb	$1, %cl
	jne	.LBB2_603
	movsd	16(%rax,%rbp), %xmm0
	movsd	.LCPI2_1(%rip), %xmm1
	ucomisd	%xmm1, %xmm0
	jbe	.LBB2_603
	movsd	.LCPI2_2(%rip), %xmm1
	ucomisd	%xmm0, %xmm1
	movq	%r14, %rdi
	movq	%r12, %rdx
	movq	%r13, %r9
	jbe	.LBB2_957
	movsd	8(%rax,%rbp), %xmm0
	movsd	%xmm0, 48(%rsp)
	xorps	%xmm0, %xmm0
	movaps	%xmm0, 256(%rsp)
	movq	$0, 272(%rsp)
	movups	%xmm0, 545(%rsp)
	movups	%xmm0, 561(%rsp)
	movups	%xmm0, 577(%rsp)
	movups	%xmm0, 593(%rsp)
	movups	%xmm0, 609(%rsp)
	movups	%xmm0, 625(%rsp)
	movups	%xmm0, 641(%rsp)
	movups	%xmm0, 657(%rsp)
	movups	%xmm0, 673(%rsp)
	movups	%xmm0, 689(%rsp)
	movups	%xmm0, 705(%rsp)
	movups	%xmm0, 720(%rsp)
	movups	%xmm0, 353(%rsp)
	movups	%xmm0, 369(%rsp)
	movups	%xmm0, 385(%rsp)
	movups	%xmm0, 401(%rsp)
	movups	%xmm0, 417(%rsp)
	movups	%xmm0, 433(%rsp)
	movups	%xmm0, 449(%rsp)
	movups	%xmm0, 465(%rsp)
	movups	%xmm0, 481(%rsp)
	movups	%xmm0, 497(%rsp)
	movups	%xmm0, 513(%rsp)
	movups	%xmm0, 528(%rsp)
	leaq	760(%rsp), %rdi
	movl	$4584, %edx
	xorl	%esi, %esi
	callq	memset@PLT
	leaq	544(%rsp), %rax
	movq	%rax, 288(%rsp)
	movq	$192, 296(%rsp)
	leaq	352(%rsp), %rax
	movq	%rax, 304(%rsp)
	movq	$192, 312(%rsp)
	leaq	736(%rsp), %rax
	movq	%rax, 320(%rsp)
	movq	$192, 328(%rsp)
	movb	$1, 544(%rsp)
	movb	$0, 352(%rsp)
	movq	$0, 736(%rsp)
	movabsq	$4613303445314885481, %rax
	movq	%rax, 744(%rsp)
	movq	$0, 752(%rsp)
	leaq	256(%rsp), %rdi
	leaq	288(%rsp), %rsi
	movl	$1, %ecx
	movl	$64, %r8d
	movsd	48(%rsp), %xmm0
	xorl	%edx, %edx
	callq	"powers::raise::power_by"
	cmpb	$0, 256(%rsp)
	jne	.LBB2_602
	movq	264(%rsp), %rax
	testq	%rax, %rax
	je	.LBB2_891
	movq	%rax, %rbx
	movq	(%r12), %rdx
	movq	16(%r12), %rcx
	movq	32(%r12), %rax
	cmpq	$1, %rbx
	je	.LBB2_227
	movq	%rbx, %rdi
	andq	$-2, %rdi
	leaq	2272(%rsp), %r8
	xorl	%esi, %esi
	xorl	%r9d, %r9d
.LBB2_946:
	movzbl	608(%rsp,%rsi), %r10d
	movb	%r10b, (%rdx,%rsi)
	movzbl	416(%rsp,%rsi), %r10d
	movb	%r10b, (%rcx,%rsi)
	movups	(%r8,%r9), %xmm0
	movq	16(%r8,%r9), %r10
	movq	%r10, 16(%rax,%r9)
	movups	%xmm0, (%rax,%r9)
	movzbl	609(%rsp,%rsi), %r10d
	movb	%r10b, 1(%rdx,%rsi)
	movzbl	417(%rsp,%rsi), %r10d
	movb	%r10b, 1(%rcx,%rsi)
	movupd	24(%r8,%r9), %xmm0
	movq	40(%r8,%r9), %r10
	movq	%r10, 40(%rax,%r9)
	movupd	%xmm0, 24(%rax,%r9)
	addq	$2, %rsi
	addq	$48, %r9
	cmpq	%rsi, %rdi
	jne	.LBB2_946
	jmp	.LBB2_951
.LBB2_228:
	movq	(%rdx), %rsi
	testb	%bpl, %bpl
	movq	%r13, 96(%rsp)
	je	.LBB2_419
	movq	%rsi, 48(%rsp)
	movq	%r12, %rsi
	movq	%r9, %r12
	movq	%rcx, 56(%rsp)
	movq	%r13, %rax
	movq	%r8, %r13
	movq	%rdi, %r14
	movq	%rdx, %rbx
	movq	16(%rdx), %rdi
	movl	$3, %ecx
	movq	%rax, %rdx
	callq	"sums::order::nests_inside"
	movb	$12, %r15b
	testb	%al, %al
	je	.LBB2_235
	movb	$11, %r15b
	cmpb	$63, %bpl
	ja	.LBB2_235
	movq	96(%rsp), %rax
	incq	%rax
	movq	%rax, 40(%rsp)
	movq	%r14, %rdi
	movq	%rbx, %rdx
	movq	%r13, %r8
	movq	56(%rsp), %rcx
	movq	32(%rsp), %r12
	movq	48(%rsp), %rsi
	jmp	.LBB2_420
.LBB2_232:
	movq	(%rdx), %rsi
	testb	%bpl, %bpl
	movq	%r13, 96(%rsp)
	je	.LBB2_425
	movq	%rsi, 48(%rsp)
	movq	%r12, %rsi
	movq	%r9, %r12
	movq	%rcx, 56(%rsp)
	movq	%r13, %rax
	movq	%r8, %r13
	movq	%rdi, %r14
	movq	%rdx, %rbx
	movq	16(%rdx), %rdi
	movl	$3, %ecx
	movq	%rax, %rdx
	callq	"sums::order::nests_inside"
	movb	$12, %r15b
	testb	%al, %al
	je	.LBB2_235
	movb	$11, %r15b
	cmpb	$63, %bpl
	jbe	.LBB2_692
.LBB2_235:
	movq	%r14, %rdi
	movq	%rbx, %rdx
	movq	%r12, %r9
	jmp	.LBB2_957
.LBB2_236:
	movq	(%rdx), %rsi
	movb	$6, %r15b
	cmpb	$1, %bpl
	movq	%rsi, 48(%rsp)
	jne	.LBB2_957
	movq	%r13, 96(%rsp)
	movq	%r9, %r13
	movq	%rcx, 56(%rsp)
	movq	%r8, 80(%rsp)
	movq	%rdi, %r14
	movq	32(%rdx), %rax
	leaq	(,%r12,8), %rcx
	leaq	(%rcx,%rcx,2), %rbp
	movsd	(%rax,%rbp), %xmm0
	movzbl	(%rsi,%r12), %ecx
	cmpb	$1, %cl
	jne	.LBB2_597
	movsd	.LCPI2_10(%rip), %xmm1
	movsd	.LCPI2_4(%rip), %xmm2
	ucomisd	%xmm2, %xmm1
	jne	.LBB2_597
	jp	.LBB2_597
	movsd	.LCPI2_0(%rip), %xmm1
	ucomisd	%xmm1, %xmm0
	jne	.LBB2_597
	jp	.LBB2_597
.LBB2_240:
	movq	%rdx, %rbx
	movq	16(%rdx), %rdi
	movl	$1, %edx
	movl	$3, %ecx
	movq	%r12, %rsi
	callq	"sums::order::nests_inside"
	movb	$12, %r15b
	testb	%al, %al
	je	.LBB2_418
	movq	48(%rsp), %rax
	movb	$4, (%rax)
	movq	16(%rbx), %rcx
	movb	$1, (%rcx)
	movq	32(%rbx), %rcx
	xorpd	%xmm0, %xmm0
	movhpd	.LCPI2_0(%rip), %xmm0
	movupd	%xmm0, (%rcx)
	movq	$0, 16(%rcx)
	movq	(%rbx), %rdx
	movq	16(%rbx), %rcx
	movq	32(%rbx), %rax
	cmpq	$0, 32(%rsp)
	je	.LBB2_708
	movq	32(%rsp), %r12
	movzbl	(%rdx,%r12), %esi
	movb	%sil, 1(%rdx)
	movzbl	(%rcx,%r12), %edx
	movb	%dl, 1(%rcx)
	movupd	(%rax,%rbp), %xmm0
	movq	16(%rax,%rbp), %rcx
	movq	%rcx, 40(%rax)
	movupd	%xmm0, 24(%rax)
	movq	%r14, %rdi
	movq	%rbx, %rdx
	movl	$2, %ebx
	movq	80(%rsp), %r8
	movq	56(%rsp), %rcx
	movq	96(%rsp), %r13
	jmp	.LBB2_719
.LBB2_243:
	testb	%bpl, %bpl
	je	.LBB2_417
	movq	(%rdx), %r9
	movq	16(%rdx), %rsi
	movq	32(%rdx), %rax
	cmpb	$1, %bpl
	jne	.LBB2_591
	xorl	%r10d, %r10d
	jmp	.LBB2_594
.LBB2_417:
	xorl	%ebx, %ebx
	jmp	.LBB2_728
.LBB2_246:
	movb	%r11b, 48(%rsp)
	pxor	%xmm0, %xmm0
	movdqa	%xmm0, 736(%rsp)
	movq	(%rdx), %rbp
	movb	$1, %al
	movb	$1, %sil
	cmpq	%rbx, 32(%rsp)
	movq	%rbp, 40(%rsp)
	jae	.LBB2_794
	movq	32(%rsp), %r11
	cmpb	$4, %r13b
	jb	.LBB2_793
	movq	%rbx, 88(%rsp)
	cmpb	$32, %r13b
	jae	.LBB2_738
	xorl	%r10d, %r10d
	jmp	.LBB2_790
.LBB2_250:
	movb	$1, %r10b
	movb	$6, %r15b
	cmpb	$1, %r13b
	jne	.LBB2_440
	movl	%r11d, %r12d
	movq	32(%rsp), %r13
	leaq	(,%r13,2), %rax
	addq	%r13, %rax
	movsd	(%rbp,%rax,8), %xmm1
	xorps	%xmm0, %xmm0
	xorl	%r11d, %r11d
	ucomisd	%xmm0, %xmm1
	jne	.LBB2_707
	jp	.LBB2_707
	cmpb	$1, (%r14,%r13)
	jne	.LBB2_707
	movq	%rbx, %rbp
	movq	%r9, 64(%rsp)
	movq	%rcx, 56(%rsp)
	movq	%r8, 80(%rsp)
	movq	%rdx, 120(%rsp)
	movq	%rdi, 72(%rsp)
	movq	144(%rsp), %rcx
	leaq	(%rcx,%rax,8), %rax
	movsd	8(%rax), %xmm1
	movsd	16(%rax), %xmm2
	ucomisd	%xmm0, %xmm2
	jne	.LBB2_740
	jp	.LBB2_740
	ucomisd	%xmm0, %xmm1
	jne	.LBB2_740
	jp	.LBB2_740
	movb	$1, (%r14)
	movq	32(%rsp), %r13
	movq	96(%rsp), %rdx
	movzbl	(%rdx,%r13), %ecx
	movb	%cl, (%rdx)
	movupd	(%rax), %xmm0
	movq	16(%rax), %rax
	movq	144(%rsp), %rcx
	movq	%rax, 16(%rcx)
	movupd	%xmm0, (%rcx)
	movl	$1, %r11d
	xorl	%r15d, %r15d
	xorl	%r10d, %r10d
	movq	72(%rsp), %rdi
	movq	120(%rsp), %rdx
	movq	80(%rsp), %r8
	movq	56(%rsp), %rcx
	movq	64(%rsp), %r9
	xorl	%r14d, %r14d
	jmp	.LBB2_902
.LBB2_256:
	xorl	%esi, %esi
	movq	32(%rsp), %r13
.LBB2_257:
	movb	$6, %r15b
	movb	$1, %r10b
	cmpb	$1, %r11b
	jne	.LBB2_263
	leaq	(,%r14,8), %r10
	leaq	(%r10,%r10,2), %r12
	movsd	(%rax,%r12), %xmm0
	movsd	.LCPI2_0(%rip), %xmm1
	ucomisd	%xmm1, %xmm0
	movzbl	(%rbx,%r14), %r10d
	setnp	%bpl
	sete	%r11b
	cmpb	$1, %r10b
	jne	.LBB2_435
	andb	%bpl, %r11b
	andb	%r11b, %sil
	je	.LBB2_435
	movq	%r9, 64(%rsp)
	movq	%rcx, 56(%rsp)
	movq	%r8, %rbp
	movq	%rdi, 72(%rsp)
	movq	%rdx, %r13
	movq	16(%rdx), %rdi
	movl	$1, %edx
	movl	$3, %ecx
	movq	%r14, %rsi
	callq	"sums::order::nests_inside"
	testb	%al, %al
	je	.LBB2_641
	movb	$4, (%rbx)
	movq	%r13, %rdx
	movq	16(%r13), %rax
	movb	$1, (%rax)
	movq	32(%r13), %rax
	xorpd	%xmm0, %xmm0
	movhpd	.LCPI2_0(%rip), %xmm0
	movupd	%xmm0, (%rax)
	movq	$0, 16(%rax)
	movq	(%r13), %rsi
	movq	16(%r13), %rcx
	movq	32(%r13), %rax
	movq	%rbp, %r8
	cmpq	$1, %rbp
	jne	.LBB2_746
	movzbl	(%rsi), %edi
	movb	%dil, 1(%rsi)
	movzbl	(%rcx), %esi
	movb	%sil, 1(%rcx)
	movq	16(%rax), %rcx
	movq	%rcx, 40(%rax)
	movdqu	(%rax), %xmm0
	jmp	.LBB2_747
.LBB2_263:
	xorl	%r11d, %r11d
	xorl	%r14d, %r14d
	jmp	.LBB2_902
.LBB2_264:
	movq	%r12, 32(%rsp)
	movq	%rbx, 88(%rsp)
	movl	%esi, %ebx
	andl	$-2, %ebx
	leaq	(,%r8,8), %rcx
	leaq	(%rcx,%rcx,2), %r14
	leal	(,%rsi,8), %ecx
	leaq	(%rcx,%rcx,2), %rcx
	subq	%rcx, %r14
	leal	(,%rbp,8), %ecx
	leaq	(%rcx,%rcx,2), %rcx
	subq	%rcx, %r14
	movq	%r8, %r11
	subq	%rsi, %r11
	subq	%rbp, %r11
	leaq	(%r9,%r11), %rcx
	incq	%rcx
	addq	%r10, %r11
	incq	%r11
	xorl	%r15d, %r15d
	movq	%rax, %r12
.LBB2_265:
	movzbl	-1(%r11,%r15), %ebp
	movb	%bpl, (%r10,%r15)
	movzbl	-1(%rcx,%r15), %ebp
	movb	%bpl, (%r9,%r15)
	movups	(%r12,%r14), %xmm0
	movq	16(%r12,%r14), %r13
	movq	%r13, 16(%r12)
	movups	%xmm0, (%r12)
	movzbl	(%r11,%r15), %ebp
	movb	%bpl, 1(%r10,%r15)
	movzbl	(%rcx,%r15), %ebp
	movb	%bpl, 1(%r9,%r15)
	movupd	24(%r12,%r14), %xmm0
	movq	40(%r12,%r14), %r13
	movq	%r13, 40(%r12)
	movupd	%xmm0, 24(%r12)
	addq	$2, %r15
	addq	$48, %r12
	cmpq	%r15, %rbx
	jne	.LBB2_265
	testb	$1, %sil
	movq	160(%rsp), %rbp
	movq	88(%rsp), %rbx
	movzbl	40(%rsp), %r13d
	movq	32(%rsp), %r12
	je	.LBB2_268
.LBB2_267:
	leaq	(%r15,%r12), %rcx
	movzbl	(%r10,%rcx), %r11d
	movb	%r11b, (%r10,%r15)
	movzbl	(%r9,%rcx), %r10d
	movb	%r10b, (%r9,%r15)
	leaq	(%rcx,%rcx,2), %rcx
	leaq	(%r15,%r15,2), %r9
	movupd	(%rax,%rcx,8), %xmm0
	movq	16(%rax,%rcx,8), %rcx
	movq	%rcx, 16(%rax,%r9,8)
	movupd	%xmm0, (%rax,%r9,8)
.LBB2_268:
	movq	(%rdx), %r10
	movq	16(%rdx), %r9
	movq	32(%rdx), %r15
	movzbl	48(%rsp), %r11d
.LBB2_269:
	cmpq	%rsi, %rbx
	jae	.LBB2_280
	testb	%r11b, %r11b
	je	.LBB2_680
	movq	%rbx, 88(%rsp)
	movq	%rbp, %rbx
	testb	$1, %bpl
	je	.LBB2_273
	leaq	-1(%rbp), %rbx
	movzbl	-1(%r10,%r8), %eax
	leaq	(%r12,%rbp), %rcx
	decq	%rcx
	movb	%al, (%r10,%rcx)
	movzbl	-1(%r9,%r8), %eax
	movb	%al, (%r9,%rcx)
	leaq	-3(%r8,%r8,2), %rax
	leaq	(%rcx,%rcx,2), %rcx
	movupd	(%r15,%rax,8), %xmm0
	movq	16(%r15,%rax,8), %rax
	movq	%rax, 16(%r15,%rcx,8)
	movupd	%xmm0, (%r15,%rcx,8)
.LBB2_273:
	movq	%r12, 32(%rsp)
	cmpb	$1, %r11b
	je	.LBB2_276
	movq	160(%rsp), %rcx
	leal	(%rsi,%rcx), %eax
	shll	$3, %eax
	leaq	(%rax,%rax,2), %r14
	negq	%r14
	leaq	(%rbx,%r8), %rax
	leaq	(%rax,%rax,2), %rax
	leaq	(%r15,%rax,8), %r11
	addq	$-24, %r11
	leaq	-1(%r8), %r15
	movq	%r15, %r12
	subq	%rsi, %r12
	subq	%rcx, %r12
	leaq	(%r9,%r12), %r13
	addq	%r10, %r12
	leal	(,%rcx,8), %eax
	leaq	(%rax,%rax,2), %rbp
	negq	%rbp
	subq	%rcx, %r15
	addq	%r15, %r9
	addq	%r10, %r15
	xorl	%r10d, %r10d
.LBB2_275:
	movzbl	(%r15,%rbx), %eax
	movb	%al, (%r12,%rbx)
	movzbl	(%r9,%rbx), %eax
	movb	%al, (%r13,%rbx)
	movups	(%r11,%rbp), %xmm0
	movq	16(%r11,%rbp), %rax
	movq	%rax, 16(%r11,%r14)
	movups	%xmm0, (%r11,%r14)
	movzbl	-1(%r15,%rbx), %eax
	movb	%al, -1(%r12,%rbx)
	movzbl	-1(%r9,%rbx), %eax
	movb	%al, -1(%r13,%rbx)
	movupd	-24(%r11,%rbp), %xmm0
	movq	-8(%r11,%rbp), %rax
	movq	%rax, -8(%r11,%r14)
	movupd	%xmm0, -24(%r11,%r14)
	addq	$2, %r10
	addq	$-48, %r11
	addq	$-2, %r13
	addq	$-2, %r12
	addq	$-2, %r9
	addq	$-2, %r15
	cmpq	%r10, %rbx
	jne	.LBB2_275
.LBB2_276:
	movq	48(%rdx), %r9
	movq	160(%rsp), %rbp
	movq	%rbp, %r10
	movzbl	48(%rsp), %eax
	cmpb	$8, %al
	movzbl	40(%rsp), %r13d
	movq	32(%rsp), %r12
	jb	.LBB2_673
	movq	%rbp, %r10
	cmpl	$32, %esi
	jb	.LBB2_673
	movq	%r8, %r15
	movq	%rdx, %r11
	movq	%rdi, %rbx
	cmpb	$32, %al
	jae	.LBB2_661
	xorl	%r14d, %r14d
	jmp	.LBB2_670
.LBB2_280:
	testb	%r11b, %r11b
	je	.LBB2_680
	cmpb	$1, %r11b
	movq	%rdi, 72(%rsp)
	movq	%r8, 80(%rsp)
	jne	.LBB2_441
	xorl	%ebp, %ebp
	jmp	.LBB2_444
.LBB2_283:
	movq	(%rdx), %r15
	movq	40(%rsp), %rbx
.LBB2_284:
	incq	%rbx
	movb	$1, (%r15,%rsi)
	movq	16(%rdx), %r10
	movb	$0, (%r10,%rsi)
	movq	32(%rdx), %rsi
	movsd	%xmm4, -8(%rsi,%rax)
	movupd	%xmm0, (%rsi,%rax)
.LBB2_285:
	movq	88(%rsp), %r15
.LBB2_286:
	movq	208(%rsp), %rax
	addq	%r15, %rax
	movq	%rax, %r10
	cmpq	%r8, %rax
	jae	.LBB2_719
.LBB2_287:
	movq	(%rdx), %r15
	movq	16(%rdx), %r12
	movq	32(%rdx), %r14
	leaq	(%r10,%r10,2), %rax
	movsd	(%r14,%rax,8), %xmm4
	movupd	8(%r14,%rax,8), %xmm2
	movzbl	(%r15,%r10), %ebp
	movzbl	(%r12,%r10), %r11d
	movzbl	%r11b, %eax
	movq	%rax, 88(%rsp)
	leaq	1(%r10), %rax
	movq	%rax, 208(%rsp)
	cmpb	$1, %bpl
	movq	%rbx, 40(%rsp)
	movq	%r15, 48(%rsp)
	jne	.LBB2_306
	xorl	%r10d, %r10d
.LBB2_289:
	cmpb	$1, (%r15,%r10)
	jne	.LBB2_292
	incq	%r10
	cmpq	%r10, %rbx
	jne	.LBB2_289
	movq	%rbx, %r10
.LBB2_292:
	movapd	%xmm4, %xmm0
	subsd	%xmm4, %xmm0
	ucomisd	%xmm3, %xmm0
	jne	.LBB2_766
	jp	.LBB2_766
	movapd	%xmm4, %xmm0
	leaq	(%r10,%r10,2), %rax
	leaq	8(,%rax,8), %r11
.LBB2_294:
	movq	%r10, %rsi
	movq	%r11, %rax
	subq	$1, %r10
	jb	.LBB2_297
	movsd	-32(%r14,%rax), %xmm1
	ucomisd	%xmm1, %xmm0
	seta	%r11b
	incb	%r11b
	xorl	%ebp, %ebp
	ucomisd	%xmm0, %xmm1
	movzbl	%r11b, %ebx
	cmoval	%ebp, %ebx
	leaq	-24(%rax), %r11
	testb	%bl, %bl
	je	.LBB2_294
	movzbl	%bl, %r10d
	cmpl	$2, %r10d
	jne	.LBB2_336
.LBB2_297:
	xorpd	%xmm0, %xmm0
	subpd	%xmm2, %xmm0
	movapd	%xmm0, %xmm1
	subpd	%xmm0, %xmm1
	movapd	%xmm1, %xmm2
	ucomisd	%xmm3, %xmm2
	movb	$14, %r15b
	jne	.LBB2_957
	jp	.LBB2_957
	movq	%r12, %rbp
	unpckhpd	%xmm1, %xmm1
	ucomisd	%xmm3, %xmm1
	movq	40(%rsp), %rbx
	movq	32(%rsp), %r12
	jne	.LBB2_957
	jp	.LBB2_957
	cmpq	$63, %rbx
	ja	.LBB2_858
	cmpq	%rsi, %rbx
	movq	48(%rsp), %r15
	jbe	.LBB2_284
	movq	%rbx, %r10
	subl	%esi, %ebx
	leaq	-1(%r10), %r11
	testb	$1, %bl
	je	.LBB2_303
	movq	40(%rsp), %rbx
	movzbl	-1(%r15,%rbx), %r10d
	movb	%r10b, (%r15,%rbx)
	movzbl	-1(%rbp,%rbx), %r10d
	movb	%r10b, (%rbp,%rbx)
	leaq	(%rbx,%rbx,2), %r10
	movq	-8(%r14,%r10,8), %rbx
	movq	%rbx, 16(%r14,%r10,8)
	movupd	-24(%r14,%r10,8), %xmm1
	movupd	%xmm1, (%r14,%r10,8)
	movq	%r11, %r10
.LBB2_303:
	cmpq	%rsi, %r11
	je	.LBB2_283
	leaq	(%r10,%r10,2), %r11
	leaq	(%r14,%r11,8), %r11
.LBB2_305:
	movzbl	-1(%r15,%r10), %ebx
	movb	%bl, (%r15,%r10)
	movzbl	-1(%rbp,%r10), %ebx
	movb	%bl, (%rbp,%r10)
	movq	-8(%r11), %rbx
	movq	%rbx, 16(%r11)
	movups	-24(%r11), %xmm1
	movups	%xmm1, (%r11)
	movzbl	-2(%r15,%r10), %ebx
	movb	%bl, -1(%r15,%r10)
	movzbl	-2(%rbp,%r10), %ebx
	movb	%bl, -1(%rbp,%r10)
	addq	$-2, %r10
	movq	-32(%r11), %rbx
	movq	%rbx, -8(%r11)
	movupd	-48(%r11), %xmm1
	movupd	%xmm1, -24(%r11)
	addq	$-48, %r11
	cmpq	%r10, %rsi
	jb	.LBB2_305
	jmp	.LBB2_283
.LBB2_306:
	movapd	%xmm4, %xmm0
	subsd	%xmm4, %xmm0
	movb	$14, %r15b
	ucomisd	%xmm3, %xmm0
	jne	.LBB2_861
	jp	.LBB2_861
	movq	88(%rsp), %rax
	movq	%rax, 192(%rsp)
	movapd	.LCPI2_9(%rip), %xmm0
	movapd	%xmm2, 240(%rsp)
	xorpd	%xmm2, %xmm0
	movq	8(%rdx), %rax
	movq	24(%rdx), %rcx
	movq	40(%rdx), %rdx
	movq	48(%rsp), %rsi
	movq	%rsi, 736(%rsp)
	movq	%rax, 744(%rsp)
	movq	%r12, 144(%rsp)
	movq	%r12, 752(%rsp)
	movq	%rcx, 760(%rsp)
	movq	%r14, 768(%rsp)
	movq	%rdx, 776(%rsp)
	movb	%bpl, 232(%rsp)
	movb	%bpl, 544(%rsp)
	movb	%r11b, 136(%rsp)
	movb	%r11b, 545(%rsp)
	leaq	546(%rsp), %rax
	movw	$0, 4(%rax)
	movl	$0, (%rax)
	movsd	%xmm4, 200(%rsp)
	movsd	%xmm4, 552(%rsp)
	movupd	%xmm0, 560(%rsp)
	xorl	%r12d, %r12d
	movq	%r10, 128(%rsp)
.LBB2_308:
	leaq	(,%r12,8), %rax
	leaq	(%rax,%rax,2), %rbx
	movsd	(%r14,%rbx), %xmm0
	movupd	8(%r14,%rbx), %xmm1
	movq	48(%rsp), %rax
	movzbl	(%rax,%r12), %eax
	movq	144(%rsp), %rcx
	movzbl	(%rcx,%r12), %r13d
	movb	%al, 352(%rsp)
	movb	%r13b, 353(%rsp)
	leaq	354(%rsp), %rax
	movw	$0, 4(%rax)
	movl	$0, (%rax)
	movsd	%xmm0, 360(%rsp)
	movapd	%xmm1, 160(%rsp)
	movupd	%xmm1, 368(%rsp)
	leaq	1(%r12), %rbp
	leaq	736(%rsp), %rdi
	leaq	544(%rsp), %rsi
	leaq	352(%rsp), %rcx
	movl	$4, %r9d
	leaq	1(%r10), %rdx
	movq	%rbp, %r8
	callq	"sums::order::cmp_term"
	cmpb	$2, %al
	jne	.LBB2_310
	addq	%r13, %rbp
	movq	%rbp, %r12
	cmpq	40(%rsp), %rbp
	movq	128(%rsp), %r10
	jb	.LBB2_308
	jmp	.LBB2_311
.LBB2_310:
	movapd	160(%rsp), %xmm2
	movzbl	%al, %eax
	movq	%r12, %rbp
	testl	%eax, %eax
	movq	128(%rsp), %r10
	jne	.LBB2_331
.LBB2_311:
	xorpd	%xmm2, %xmm2
	subpd	240(%rsp), %xmm2
	movapd	%xmm2, %xmm0
	subpd	%xmm2, %xmm0
	movapd	%xmm0, %xmm1
	movsd	152(%rsp), %xmm3
	ucomisd	%xmm3, %xmm1
	jne	.LBB2_861
	jp	.LBB2_861
	unpckhpd	%xmm0, %xmm0
	ucomisd	%xmm3, %xmm0
	movq	32(%rsp), %r12
	movq	96(%rsp), %r13
	jne	.LBB2_861
	jp	.LBB2_861
	cmpb	$0, 136(%rsp)
	je	.LBB2_315
	movl	$3, %ecx
	movq	144(%rsp), %rdi
	leaq	1(%r10), %rsi
	movq	192(%rsp), %rdx
	movapd	%xmm2, 160(%rsp)
	callq	"sums::order::nests_inside"
	movapd	160(%rsp), %xmm2
	movsd	152(%rsp), %xmm3
	testb	%al, %al
	je	.LBB2_860
.LBB2_315:
	movq	40(%rsp), %rax
	movq	88(%rsp), %r15
	leaq	(%rax,%r15), %r8
	incq	%r8
	cmpq	$64, %r8
	movq	48(%rsp), %r11
	movsd	200(%rsp), %xmm1
	ja	.LBB2_859
	cmpq	%rbp, %rax
	movq	120(%rsp), %rdx
	jbe	.LBB2_323
	movq	%r8, %rbx
	movl	%eax, %esi
	subl	%ebp, %esi
	movq	%rax, %rcx
	testb	$1, %sil
	je	.LBB2_319
	leaq	-1(%rax), %rcx
	movzbl	-1(%r11,%rax), %esi
	leaq	(%rax,%r15), %rdi
	movb	%sil, (%r11,%rdi)
	movq	144(%rsp), %r8
	movzbl	-1(%r8,%rax), %esi
	movb	%sil, (%r8,%rdi)
	leaq	(%rcx,%rcx,2), %rsi
	leaq	(%rdi,%rdi,2), %rdi
	movupd	(%r14,%rsi,8), %xmm0
	movq	16(%r14,%rsi,8), %rsi
	movq	%rsi, 16(%r14,%rdi,8)
	movupd	%xmm0, (%r14,%rdi,8)
.LBB2_319:
	leaq	1(%rbp), %rsi
	cmpq	%rsi, %rax
	movq	144(%rsp), %rax
	je	.LBB2_322
	leaq	(%rcx,%rcx,2), %rsi
	leaq	-24(,%rsi,8), %rsi
	leaq	(%rcx,%r15), %rdi
	shlq	$3, %rdi
	leaq	(%rdi,%rdi,2), %rdi
	leaq	(%rax,%r15), %r8
	leaq	(%r11,%r15), %r9
.LBB2_321:
	movzbl	-1(%r11,%rcx), %r10d
	movb	%r10b, (%r9,%rcx)
	movzbl	-1(%rax,%rcx), %r10d
	movb	%r10b, (%r8,%rcx)
	movups	(%r14,%rsi), %xmm0
	movq	16(%r14,%rsi), %r10
	movq	%r10, 16(%r14,%rdi)
	movups	%xmm0, (%r14,%rdi)
	movzbl	-2(%r11,%rcx), %r10d
	movb	%r10b, -1(%r9,%rcx)
	movzbl	-2(%rax,%rcx), %r10d
	movb	%r10b, -1(%r8,%rcx)
	addq	$-2, %rcx
	movupd	-24(%r14,%rsi), %xmm0
	movq	-8(%r14,%rsi), %r10
	movq	%r10, -8(%r14,%rdi)
	movupd	%xmm0, -24(%r14,%rdi)
	addq	$-48, %r14
	cmpq	%rcx, %rbp
	jb	.LBB2_321
.LBB2_322:
	movq	(%rdx), %r11
	movq	%rbx, %r8
.LBB2_323:
	movzbl	232(%rsp), %eax
	movb	%al, (%r11,%rbp)
	movq	16(%rdx), %rcx
	movzbl	136(%rsp), %edi
	movb	%dil, (%rcx,%rbp)
	leaq	(%rbp,%rbp,2), %rcx
	movq	32(%rdx), %rsi
	movsd	%xmm1, (%rsi,%rcx,8)
	movupd	%xmm2, 8(%rsi,%rcx,8)
	leaq	1(%rbp), %rbx
	movq	(%rdx), %r11
	movq	16(%rdx), %r10
	movq	32(%rdx), %rsi
	movq	128(%rsp), %rax
	incq	%rax
	cmpq	%rax, %rbx
	jbe	.LBB2_339
	testb	%dil, %dil
	je	.LBB2_342
	testb	$1, %r15b
	je	.LBB2_327
	leaq	-1(%r15), %rax
	movq	%rax, 192(%rsp)
	movq	128(%rsp), %rax
	addq	%r15, %rax
	movzbl	(%r11,%rax), %ecx
	leaq	(%rbp,%r15), %rdi
	movb	%cl, (%r11,%rdi)
	movzbl	(%r10,%rax), %ecx
	movb	%cl, (%r10,%rdi)
	leaq	(%rax,%rax,2), %rax
	leaq	(%rdi,%rdi,2), %rcx
	movupd	(%rsi,%rax,8), %xmm0
	movq	16(%rsi,%rax,8), %rax
	movq	%rax, 16(%rsi,%rcx,8)
	movupd	%xmm0, (%rsi,%rcx,8)
.LBB2_327:
	cmpb	$1, 136(%rsp)
	je	.LBB2_342
	movq	%r8, %r14
	movq	192(%rsp), %rbx
	leaq	(%rbx,%rbp), %rax
	shlq	$3, %rax
	leaq	(%rax,%rax,2), %rcx
	leaq	(%r10,%rbp), %rdi
	addq	%r11, %rbp
	movq	128(%rsp), %r9
	leaq	(%rbx,%r9), %rax
	shlq	$3, %rax
	leaq	(%rax,%rax,2), %r8
	addq	%r9, %r10
	addq	%r9, %r11
	xorl	%r9d, %r9d
.LBB2_329:
	movzbl	(%r11,%rbx), %eax
	movb	%al, (%rbp,%rbx)
	movzbl	(%r10,%rbx), %eax
	movb	%al, (%rdi,%rbx)
	movups	(%rsi,%r8), %xmm0
	movq	16(%rsi,%r8), %rax
	movq	%rax, 16(%rsi,%rcx)
	movups	%xmm0, (%rsi,%rcx)
	movzbl	-1(%r11,%rbx), %eax
	movb	%al, -1(%rbp,%rbx)
	movzbl	-1(%r10,%rbx), %eax
	movb	%al, -1(%rdi,%rbx)
	movupd	-24(%rsi,%r8), %xmm0
	movq	-8(%rsi,%r8), %rax
	movq	%rax, -8(%rsi,%rcx)
	movupd	%xmm0, -24(%rsi,%rcx)
	addq	$2, %r9
	addq	$-48, %rsi
	addq	$-2, %rdi
	addq	$-2, %rbp
	addq	$-2, %r10
	addq	$-2, %r11
	cmpq	%r9, %rbx
	jne	.LBB2_329
	movq	%r14, %rbx
	jmp	.LBB2_343
.LBB2_331:
	subpd	240(%rsp), %xmm2
	movapd	%xmm2, %xmm0
	subpd	%xmm2, %xmm0
	movapd	%xmm0, %xmm1
	movsd	152(%rsp), %xmm3
	ucomisd	%xmm3, %xmm1
	jne	.LBB2_861
	jp	.LBB2_861
	unpckhpd	%xmm0, %xmm0
	ucomisd	%xmm3, %xmm0
	movq	32(%rsp), %r12
	movq	96(%rsp), %r13
	jne	.LBB2_861
	jp	.LBB2_861
	cmpb	$0, 136(%rsp)
	movq	88(%rsp), %r15
	je	.LBB2_335
	movl	$3, %ecx
	movq	144(%rsp), %rdi
	movq	208(%rsp), %rsi
	movq	%r15, %rdx
	movapd	%xmm2, 160(%rsp)
	callq	"sums::order::nests_inside"
	movapd	160(%rsp), %xmm2
	movsd	152(%rsp), %xmm3
	testb	%al, %al
	je	.LBB2_860
.LBB2_335:
	movupd	%xmm2, 8(%r14,%rbx)
	movq	72(%rsp), %rdi
	movq	120(%rsp), %rdx
	movq	80(%rsp), %r8
	movq	56(%rsp), %rcx
	movq	64(%rsp), %r9
	movq	40(%rsp), %rbx
	jmp	.LBB2_286
.LBB2_336:
	movupd	(%r14,%r11), %xmm0
	subpd	%xmm2, %xmm0
	movapd	%xmm0, %xmm1
	subpd	%xmm0, %xmm1
	movapd	%xmm1, %xmm2
	ucomisd	%xmm3, %xmm2
	movb	$14, %r15b
	movq	40(%rsp), %rbx
	jne	.LBB2_957
	jp	.LBB2_957
	unpckhpd	%xmm1, %xmm1
	ucomisd	%xmm3, %xmm1
	jne	.LBB2_957
	jp	.LBB2_957
	movupd	%xmm0, (%r14,%r11)
	movq	32(%rsp), %r12
	jmp	.LBB2_285
.LBB2_339:
	testb	%dil, %dil
	je	.LBB2_342
	movq	%r8, 48(%rsp)
	cmpb	$1, %dil
	jne	.LBB2_344
	xorl	%r14d, %r14d
	movq	72(%rsp), %rdi
	movq	80(%rsp), %r8
	movq	56(%rsp), %rcx
	movq	64(%rsp), %r9
	jmp	.LBB2_347
.LBB2_342:
	movq	%r8, %rbx
.LBB2_343:
	movq	72(%rsp), %rdi
	movq	80(%rsp), %r8
	movq	56(%rsp), %rcx
	movq	64(%rsp), %r9
	jmp	.LBB2_286
.LBB2_344:
	movl	%r15d, %ecx
	andl	$126, %ecx
	movq	128(%rsp), %rax
	leaq	(,%rax,8), %rdi
	leaq	(%rdi,%rdi,2), %rdi
	leaq	24(%rsi), %r8
	leaq	2(%r10,%rax), %r9
	leaq	2(%r11,%rax), %r15
	leaq	(,%rbp,8), %r14
	leaq	(%r14,%r14,2), %r12
	leaq	(%r10,%rbp), %r13
	addq	$2, %r13
	addq	%r11, %rbp
	addq	$2, %rbp
	xorl	%r14d, %r14d
.LBB2_345:
	movzbl	-1(%r15,%r14), %eax
	movb	%al, -1(%rbp,%r14)
	movzbl	-1(%r9,%r14), %eax
	movb	%al, -1(%r13,%r14)
	movups	(%r8,%rdi), %xmm0
	movq	16(%r8,%rdi), %rax
	movq	%rax, 16(%r8,%r12)
	movups	%xmm0, (%r8,%r12)
	movzbl	(%r15,%r14), %eax
	movb	%al, (%rbp,%r14)
	movzbl	(%r9,%r14), %eax
	movb	%al, (%r13,%r14)
	movupd	24(%r8,%rdi), %xmm0
	movq	40(%r8,%rdi), %rax
	movq	%rax, 40(%r8,%r12)
	movupd	%xmm0, 24(%r8,%r12)
	addq	$2, %r14
	addq	$48, %r8
	cmpq	%r14, %rcx
	jne	.LBB2_345
	movq	88(%rsp), %r15
	testb	$1, %r15b
	movq	72(%rsp), %rdi
	movq	80(%rsp), %r8
	movq	56(%rsp), %rcx
	movq	64(%rsp), %r9
	movq	32(%rsp), %r12
	movq	96(%rsp), %r13
	je	.LBB2_348
.LBB2_347:
	movq	208(%rsp), %rax
	addq	%r14, %rax
	movzbl	(%r11,%rax), %ebp
	addq	%r14, %rbx
	movb	%bpl, (%r11,%rbx)
	movzbl	(%r10,%rax), %r11d
	movb	%r11b, (%r10,%rbx)
	leaq	(%rax,%rax,2), %rax
	leaq	(%rbx,%rbx,2), %r10
	movupd	(%rsi,%rax,8), %xmm0
	movq	16(%rsi,%rax,8), %rax
	movq	%rax, 16(%rsi,%r10,8)
	movupd	%xmm0, (%rsi,%r10,8)
.LBB2_348:
	movq	48(%rsp), %rbx
	jmp	.LBB2_286
.LBB2_349:
	movzbl	128(%rsp), %eax
	movb	%al, 544(%rsp)
	movq	40(%rsp), %rax
	movb	%al, 545(%rsp)
	movl	$0, 546(%rsp)
	movw	$0, 550(%rsp)
	movdqu	%xmm2, 552(%rsp)
	movq	%xmm3, 568(%rsp)
	xorpd	%xmm0, %xmm0
	movapd	%xmm0, 288(%rsp)
	cmpq	%rbx, %r13
	jae	.LBB2_596
	movq	%rbx, %r12
	movq	%r9, 64(%rsp)
	movq	%rcx, 56(%rsp)
	movq	%r8, 80(%rsp)
	movq	%rdi, %r13
	leaq	354(%rsp), %r15
	xorl	%r11d, %r11d
	movq	32(%rsp), %rbp
.LBB2_351:
	movq	(%rdx), %rax
	movq	16(%rdx), %rcx
	movq	32(%rdx), %rsi
	leaq	(,%rbp,2), %rdi
	addq	%rbp, %rdi
	movsd	16(%rsi,%rdi,8), %xmm0
	movzbl	(%rax,%rbp), %eax
	movzbl	(%rcx,%rbp), %ebx
	movb	%al, 352(%rsp)
	movb	%bl, 353(%rsp)
	movw	$0, 4(%r15)
	movl	$0, (%r15)
	movupd	(%rsi,%rdi,8), %xmm1
	movupd	%xmm1, 360(%rsp)
	movsd	%xmm0, 376(%rsp)
	leaq	288(%rsp), %rdi
	leaq	352(%rsp), %rax
	leaq	544(%rsp), %rcx
	movq	%rdx, %r14
	movq	%rdx, %rsi
	movq	%rax, %rdx
	movq	48(%rsp), %r8
	movq	%r11, %r9
	callq	"powers::divide::div_term"
	cmpb	$0, 288(%rsp)
	jne	.LBB2_704
	movq	296(%rsp), %r11
	addq	%rbx, %rbp
	incq	%rbp
	cmpq	%r12, %rbp
	movq	%r14, %rdx
	jb	.LBB2_351
	xorl	%r10d, %r10d
	xorl	%r15d, %r15d
	movq	%r13, %rdi
	jmp	.LBB2_705
.LBB2_354:
	testb	%r13b, %r13b
	je	.LBB2_646
	movb	%r13b, 40(%rsp)
	cmpl	$1, %esi
	jne	.LBB2_642
	xorl	%r14d, %r14d
	movzbl	40(%rsp), %r13d
	jmp	.LBB2_645
.LBB2_357:
	xorl	%r14d, %r14d
	xorl	%r11d, %r11d
	movq	32(%rsp), %r13
	jmp	.LBB2_943
.LBB2_358:
	movl	%r13d, %r11d
	andl	$-2, %r11d
	leal	(,%r13,8), %ecx
	leaq	(%rcx,%rcx,2), %rbx
	negq	%rbx
	leaq	(%r8,%r8,2), %rcx
	movq	%r14, 40(%rsp)
	leaq	(%r14,%rcx,8), %r14
	movq	%r15, %rcx
	leaq	1(%r8), %r15
	movq	%r13, 96(%rsp)
	subq	%r13, %r15
	leaq	(%rax,%r15), %r12
	addq	%rcx, %r15
	leaq	(%rax,%r8), %r13
	incq	%r13
	movq	%rcx, 48(%rsp)
	addq	%r8, %rcx
	incq	%rcx
	xorl	%r10d, %r10d
.LBB2_359:
	movzbl	-1(%r15,%r10), %esi
	movb	%sil, -1(%rcx,%r10)
	movzbl	-1(%r12,%r10), %esi
	movb	%sil, -1(%r13,%r10)
	movups	(%r14,%rbx), %xmm0
	movq	16(%r14,%rbx), %rsi
	movq	%rsi, 16(%r14)
	movups	%xmm0, (%r14)
	movzbl	(%r15,%r10), %esi
	movb	%sil, (%rcx,%r10)
	movzbl	(%r12,%r10), %esi
	movb	%sil, (%r13,%r10)
	movupd	24(%r14,%rbx), %xmm0
	movq	40(%r14,%rbx), %rsi
	movq	%rsi, 40(%r14)
	movupd	%xmm0, 24(%r14)
	addq	$2, %r10
	addq	$48, %r14
	cmpq	%r10, %r11
	jne	.LBB2_359
	movq	96(%rsp), %r13
	testb	$1, %r13b
	movq	48(%rsp), %r15
	movq	40(%rsp), %r14
	je	.LBB2_362
.LBB2_361:
	addq	%r10, %r9
	movzbl	(%r15,%r9), %ecx
	addq	%r8, %r10
	movb	%cl, (%r15,%r10)
	movzbl	(%rax,%r9), %ecx
	movb	%cl, (%rax,%r10)
	leaq	(%r9,%r9,2), %rax
	leaq	(%r10,%r10,2), %rcx
	movupd	(%r14,%rax,8), %xmm0
	movq	16(%r14,%rax,8), %rax
	movq	%rax, 16(%r14,%rcx,8)
	movupd	%xmm0, (%r14,%rcx,8)
.LBB2_362:
	movq	48(%rdx), %rax
	addq	%r13, %r8
	movb	%bpl, -1(%rax,%r8)
	jmp	.LBB2_66
.LBB2_363:
	movq	(%rdx), %rbx
	movq	16(%rdx), %r10
	leaq	(%r10,%r8), %r11
	movq	%r13, %rax
	negq	%rax
	movq	%rbx, 48(%rsp)
	addq	%r8, %rbx
.LBB2_364:
	movq	%r8, %r14
	movb	$6, %r15b
	addq	%rax, %r14
	jae	.LBB2_957
	movzbl	(%r11,%rax), %r14d
	notq	%r14
	cmpq	%rax, %r14
	jne	.LBB2_957
	movzbl	(%rbx,%rax), %r14d
	incq	%rax
	cmpl	$2, %r14d
	je	.LBB2_364
	movq	%r9, 64(%rsp)
	movq	%rcx, 56(%rsp)
	cmpl	$1, %r14d
	jne	.LBB2_862
	movq	%r13, %rax
	movq	%rdx, %r9
	movq	32(%rdx), %rdx
	cmpq	%r8, 32(%rsp)
	jae	.LBB2_374
	movsd	.LCPI2_0(%rip), %xmm2
	movq	%rax, %rbx
	negq	%rbx
	leaq	(,%r8,8), %r14
	leaq	(%r14,%r14,2), %r14
	leal	(,%rax,8), %r15d
	leaq	(%r15,%r15,2), %r15
	subq	%r15, %r14
	addq	%rdx, %r14
	addq	$16, %r14
.LBB2_370:
	movsd	-8(%r14), %xmm3
	ucomisd	%xmm2, %xmm3
	movb	$13, %r15b
	jne	.LBB2_867
	jp	.LBB2_867
	movsd	(%r14), %xmm3
	ucomisd	%xmm0, %xmm3
	jne	.LBB2_867
	jp	.LBB2_867
	movq	%rbx, %r15
	incq	%r15
	je	.LBB2_374
	addq	$24, %r14
	cmpb	$0, (%r11,%rbx)
	movq	%r15, %rbx
	jne	.LBB2_370
.LBB2_374:
	testb	%bpl, %bpl
	je	.LBB2_864
	cmpb	$1, %bpl
	jne	.LBB2_868
	xorl	%r11d, %r11d
	jmp	.LBB2_871
.LBB2_377:
	movq	%r9, 64(%rsp)
	movq	%rcx, %r14
	movq	%r8, %r13
	movq	%rdi, %rbx
	testb	%bpl, %bpl
	je	.LBB2_629
	movq	%rdx, %r12
	movl	$3, %ecx
	movq	%rax, %rdi
	movq	32(%rsp), %rsi
	movq	96(%rsp), %rdx
	callq	"sums::order::nests_inside"
	movb	$1, %dl
	testb	%al, %al
	je	.LBB2_690
	cmpb	$63, %bpl
	jbe	.LBB2_748
	movb	$11, %r15b
	jmp	.LBB2_691
.LBB2_381:
	movl	%r12d, %r10d
	andl	$-2, %r10d
	leaq	(,%r8,8), %r11
	leaq	(%r11,%r11,2), %r11
	leal	(,%r12,8), %ebx
	leaq	(%rbx,%rbx,2), %rbx
	subq	%rbx, %r11
	movq	160(%rsp), %r14
	leal	(,%r14,8), %ebx
	leaq	(%rbx,%rbx,2), %rbx
	subq	%rbx, %r11
	movq	%r8, %rbx
	subq	%r14, %rbx
	subq	%r12, %rbx
	leaq	(%rsi,%rbx), %r14
	incq	%r14
	leaq	(%r9,%rbx), %r15
	incq	%r15
	xorl	%ebx, %ebx
	movq	%rax, %r12
.LBB2_382:
	movzbl	-1(%r15,%rbx), %ebp
	movb	%bpl, (%r9,%rbx)
	movzbl	-1(%r14,%rbx), %ebp
	movb	%bpl, (%rsi,%rbx)
	movups	(%r12,%r11), %xmm0
	movq	16(%r12,%r11), %r13
	movq	%r13, 16(%r12)
	movups	%xmm0, (%r12)
	movzbl	(%r15,%rbx), %ebp
	movb	%bpl, 1(%r9,%rbx)
	movzbl	(%r14,%rbx), %ebp
	movb	%bpl, 1(%rsi,%rbx)
	movupd	24(%r12,%r11), %xmm0
	movq	40(%r12,%r11), %r13
	movq	%r13, 40(%r12)
	movupd	%xmm0, 24(%r12)
	addq	$2, %rbx
	addq	$48, %r12
	cmpq	%rbx, %r10
	jne	.LBB2_382
	movq	136(%rsp), %r12
	testb	$1, %r12b
	movq	32(%rsp), %r13
	je	.LBB2_385
.LBB2_384:
	leaq	(%rbx,%r13), %r10
	movzbl	(%r9,%r10), %r11d
	movb	%r11b, (%r9,%rbx)
	movzbl	(%rsi,%r10), %r9d
	movb	%r9b, (%rsi,%rbx)
	leaq	(%r10,%r10,2), %rsi
	leaq	(%rbx,%rbx,2), %r9
	movupd	(%rax,%rsi,8), %xmm0
	movq	16(%rax,%rsi,8), %rsi
	movq	%rsi, 16(%rax,%r9,8)
	movupd	%xmm0, (%rax,%r9,8)
.LBB2_385:
	xorl	%r14d, %r14d
	movq	%r12, %r11
	jmp	.LBB2_933
.LBB2_386:
	movq	%rbx, 88(%rsp)
	movl	%r12d, %r11d
	andl	$-2, %r11d
	leaq	(,%r8,8), %rbx
	leaq	(%rbx,%rbx,2), %rbx
	leal	(,%r12,8), %r14d
	leaq	(%r14,%r14,2), %r14
	subq	%r14, %rbx
	movq	160(%rsp), %r15
	leal	(,%r15,8), %r14d
	leaq	(%r14,%r14,2), %r14
	subq	%r14, %rbx
	movq	%r8, %r14
	subq	%r15, %r14
	subq	%r12, %r14
	leaq	(%rsi,%r14), %r15
	incq	%r15
	leaq	(%r10,%r14), %r12
	incq	%r12
	xorl	%r14d, %r14d
	movq	%rax, %r13
.LBB2_387:
	movzbl	-1(%r12,%r14), %ebp
	movb	%bpl, (%r10,%r14)
	movzbl	-1(%r15,%r14), %ebp
	movb	%bpl, (%rsi,%r14)
	movups	(%r13,%rbx), %xmm0
	movq	16(%r13,%rbx), %rbp
	movq	%rbp, 16(%r13)
	movups	%xmm0, (%r13)
	movzbl	(%r12,%r14), %ebp
	movb	%bpl, 1(%r10,%r14)
	movzbl	(%r15,%r14), %ebp
	movb	%bpl, 1(%rsi,%r14)
	movupd	24(%r13,%rbx), %xmm0
	movq	40(%r13,%rbx), %rbp
	movq	%rbp, 40(%r13)
	movupd	%xmm0, 24(%r13)
	addq	$2, %r14
	addq	$48, %r13
	cmpq	%r14, %r11
	jne	.LBB2_387
	movq	136(%rsp), %r12
	testb	$1, %r12b
	movq	88(%rsp), %rbx
	je	.LBB2_390
.LBB2_389:
	movq	32(%rsp), %r11
	addq	%r14, %r11
	movq	%rbx, %r15
	movzbl	(%r10,%r11), %ebx
	movb	%bl, (%r10,%r14)
	movq	%r15, %rbx
	movzbl	(%rsi,%r11), %r10d
	movb	%r10b, (%rsi,%r14)
	leaq	(%r11,%r11,2), %rsi
	leaq	(%r14,%r14,2), %r10
	movupd	(%rax,%rsi,8), %xmm0
	movq	16(%rax,%rsi,8), %rsi
	movq	%rsi, 16(%rax,%r10,8)
	movupd	%xmm0, (%rax,%r10,8)
.LBB2_390:
	cmpq	%r8, %rbx
	jae	.LBB2_398
	xorps	%xmm3, %xmm3
	movq	%r12, %r11
	movq	32(%rsp), %r13
	movq	%rdx, 120(%rsp)
	movq	%r9, 64(%rsp)
	movq	%rdi, 72(%rsp)
	movq	%rcx, 56(%rsp)
	movq	%r8, 80(%rsp)
	movsd	%xmm3, 200(%rsp)
	jmp	.LBB2_453
.LBB2_392:
	movq	%rbx, 88(%rsp)
	movl	%r12d, %r11d
	andl	$-2, %r11d
	leaq	(,%r8,8), %rbx
	leaq	(%rbx,%rbx,2), %rbx
	leal	(,%r12,8), %r14d
	leaq	(%r14,%r14,2), %r14
	subq	%r14, %rbx
	movq	160(%rsp), %r15
	leal	(,%r15,8), %r14d
	leaq	(%r14,%r14,2), %r14
	subq	%r14, %rbx
	movq	%r8, %r14
	subq	%r15, %r14
	subq	%r12, %r14
	leaq	(%rsi,%r14), %r15
	incq	%r15
	leaq	(%r10,%r14), %r12
	incq	%r12
	xorl	%r14d, %r14d
	movq	%rax, %r13
.LBB2_393:
	movzbl	-1(%r12,%r14), %ebp
	movb	%bpl, (%r10,%r14)
	movzbl	-1(%r15,%r14), %ebp
	movb	%bpl, (%rsi,%r14)
	movups	(%r13,%rbx), %xmm0
	movq	16(%r13,%rbx), %rbp
	movq	%rbp, 16(%r13)
	movups	%xmm0, (%r13)
	movzbl	(%r12,%r14), %ebp
	movb	%bpl, 1(%r10,%r14)
	movzbl	(%r15,%r14), %ebp
	movb	%bpl, 1(%rsi,%r14)
	movupd	24(%r13,%rbx), %xmm0
	movq	40(%r13,%rbx), %rbp
	movq	%rbp, 40(%r13)
	movupd	%xmm0, 24(%r13)
	addq	$2, %r14
	addq	$48, %r13
	cmpq	%r14, %r11
	jne	.LBB2_393
	movq	136(%rsp), %r12
	testb	$1, %r12b
	movq	88(%rsp), %rbx
	je	.LBB2_396
.LBB2_395:
	movq	32(%rsp), %r11
	addq	%r14, %r11
	movq	%rbx, %r15
	movzbl	(%r10,%r11), %ebx
	movb	%bl, (%r10,%r14)
	movq	%r15, %rbx
	movzbl	(%rsi,%r11), %r10d
	movb	%r10b, (%rsi,%r14)
	leaq	(%r11,%r11,2), %rsi
	leaq	(%r14,%r14,2), %r10
	movupd	(%rax,%rsi,8), %xmm0
	movq	16(%rax,%rsi,8), %rsi
	movq	%rsi, 16(%rax,%r10,8)
	movupd	%xmm0, (%rax,%r10,8)
.LBB2_396:
	cmpq	%r8, %rbx
	jae	.LBB2_398
	xorps	%xmm2, %xmm2
	movq	%r12, %r11
	movq	32(%rsp), %r13
	movq	%rdx, 120(%rsp)
	movq	%r9, 64(%rsp)
	movq	%rdi, 72(%rsp)
	movq	%rcx, 56(%rsp)
	movq	%r8, 80(%rsp)
	movsd	%xmm2, 200(%rsp)
	jmp	.LBB2_519
.LBB2_398:
	xorl	%r14d, %r14d
	movq	%r12, %r11
	movq	32(%rsp), %r13
	jmp	.LBB2_933
.LBB2_399:
	movl	$1, %eax
	movq	%rax, 40(%rsp)
.LBB2_400:
	movb	$3, (%rsi)
	movq	16(%rdx), %rax
	movb	%bpl, (%rax)
	movq	32(%rdx), %rax
	movapd	.LCPI2_12(%rip), %xmm0
	movupd	%xmm0, (%rax)
	movq	$0, 16(%rax)
	movq	(%rdx), %rsi
	movq	16(%rdx), %rax
	movq	32(%rdx), %r9
	testq	%r12, %r12
	je	.LBB2_605
	testb	%bpl, %bpl
	je	.LBB2_717
	cmpb	$1, %bpl
	je	.LBB2_696
	movq	96(%rsp), %r12
	movl	%r12d, %r10d
	andl	$-2, %r10d
	leaq	24(%r9), %r11
	leaq	(,%r8,8), %rbx
	leaq	(%rbx,%rbx,2), %rbx
	leal	(,%r12,8), %r15d
	leaq	(%r15,%r15,2), %r15
	subq	%r15, %rbx
	movq	%r8, %r15
	subq	%r12, %r15
	leaq	(%rax,%r15), %r14
	incq	%r14
	leaq	(%rsi,%r15), %r12
	incq	%r12
	xorl	%r15d, %r15d
.LBB2_404:
	movzbl	-1(%r12,%r15), %ebp
	movb	%bpl, 1(%rsi,%r15)
	movzbl	-1(%r14,%r15), %ebp
	movb	%bpl, 1(%rax,%r15)
	movups	-24(%r11,%rbx), %xmm0
	movq	-8(%r11,%rbx), %r13
	movq	%r13, 16(%r11)
	movups	%xmm0, (%r11)
	movzbl	(%r12,%r15), %ebp
	movb	%bpl, 2(%rsi,%r15)
	movzbl	(%r14,%r15), %ebp
	movb	%bpl, 2(%rax,%r15)
	addq	$2, %r15
	movupd	(%r11,%rbx), %xmm0
	movq	16(%r11,%rbx), %r13
	movq	%r13, 40(%r11)
	movupd	%xmm0, 24(%r11)
	addq	$48, %r11
	cmpq	%r15, %r10
	jne	.LBB2_404
	jmp	.LBB2_714
.LBB2_405:
	movl	$1, %eax
	movq	%rax, 40(%rsp)
.LBB2_406:
	movb	$6, (%rsi)
	movq	16(%rdx), %rax
	movb	%bpl, (%rax)
	movq	32(%rdx), %rax
	xorpd	%xmm0, %xmm0
	movhpd	.LCPI2_0(%rip), %xmm0
	movupd	%xmm0, (%rax)
	movq	$0, 16(%rax)
	movq	(%rdx), %rsi
	movq	16(%rdx), %rax
	movq	32(%rdx), %r9
	testq	%r12, %r12
	je	.LBB2_611
	testb	%bpl, %bpl
	je	.LBB2_717
	cmpb	$1, %bpl
	je	.LBB2_696
	movq	96(%rsp), %r12
	movl	%r12d, %r10d
	andl	$-2, %r10d
	leaq	24(%r9), %r11
	leaq	(,%r8,8), %rbx
	leaq	(%rbx,%rbx,2), %rbx
	leal	(,%r12,8), %r15d
	leaq	(%r15,%r15,2), %r15
	subq	%r15, %rbx
	movq	%r8, %r15
	subq	%r12, %r15
	leaq	(%rax,%r15), %r14
	incq	%r14
	leaq	(%rsi,%r15), %r12
	incq	%r12
	xorl	%r15d, %r15d
.LBB2_410:
	movzbl	-1(%r12,%r15), %ebp
	movb	%bpl, 1(%rsi,%r15)
	movzbl	-1(%r14,%r15), %ebp
	movb	%bpl, 1(%rax,%r15)
	movups	-24(%r11,%rbx), %xmm0
	movq	-8(%r11,%rbx), %r13
	movq	%r13, 16(%r11)
	movups	%xmm0, (%r11)
	movzbl	(%r12,%r15), %ebp
	movb	%bpl, 2(%rsi,%r15)
	movzbl	(%r14,%r15), %ebp
	movb	%bpl, 2(%rax,%r15)
	addq	$2, %r15
	movupd	(%r11,%rbx), %xmm0
	movq	16(%r11,%rbx), %r13
	movq	%r13, 40(%r11)
	movupd	%xmm0, 24(%r11)
	addq	$48, %r11
	cmpq	%r15, %r10
	jne	.LBB2_410
	jmp	.LBB2_714
.LBB2_411:
	movl	$1, %eax
	movq	%rax, 40(%rsp)
.LBB2_412:
	movb	$3, (%rsi)
	movq	16(%rdx), %rax
	movb	%bpl, (%rax)
	movq	32(%rdx), %rax
	movapd	.LCPI2_13(%rip), %xmm0
	movupd	%xmm0, (%rax)
	movq	$0, 16(%rax)
	movq	(%rdx), %rsi
	movq	16(%rdx), %rax
	movq	32(%rdx), %r9
	testq	%r12, %r12
	je	.LBB2_617
	testb	%bpl, %bpl
	je	.LBB2_717
	cmpb	$1, %bpl
	je	.LBB2_696
	movq	96(%rsp), %r12
	movl	%r12d, %r10d
	andl	$-2, %r10d
	leaq	24(%r9), %r11
	leaq	(,%r8,8), %rbx
	leaq	(%rbx,%rbx,2), %rbx
	leal	(,%r12,8), %r15d
	leaq	(%r15,%r15,2), %r15
	subq	%r15, %rbx
	movq	%r8, %r15
	subq	%r12, %r15
	leaq	(%rax,%r15), %r14
	incq	%r14
	leaq	(%rsi,%r15), %r12
	incq	%r12
	xorl	%r15d, %r15d
.LBB2_416:
	movzbl	-1(%r12,%r15), %ebp
	movb	%bpl, 1(%rsi,%r15)
	movzbl	-1(%r14,%r15), %ebp
	movb	%bpl, 1(%rax,%r15)
	movups	-24(%r11,%rbx), %xmm0
	movq	-8(%r11,%rbx), %r13
	movq	%r13, 16(%r11)
	movups	%xmm0, (%r11)
	movzbl	(%r12,%r15), %ebp
	movb	%bpl, 2(%rsi,%r15)
	movzbl	(%r14,%r15), %ebp
	movb	%bpl, 2(%rax,%r15)
	addq	$2, %r15
	movupd	(%r11,%rbx), %xmm0
	movq	16(%r11,%rbx), %r13
	movq	%r13, 40(%r11)
	movupd	%xmm0, 24(%r11)
	addq	$48, %r11
	cmpq	%r15, %r10
	jne	.LBB2_416
	jmp	.LBB2_714
.LBB2_418:
	movq	%r14, %rdi
	movq	%rbx, %rdx
	movq	%r13, %r9
	jmp	.LBB2_957
.LBB2_419:
	movl	$1, %eax
	movq	%rax, 40(%rsp)
.LBB2_420:
	movb	$5, (%rsi)
	movq	16(%rdx), %rax
	movb	%bpl, (%rax)
	movq	32(%rdx), %rax
	xorpd	%xmm0, %xmm0
	movhpd	.LCPI2_0(%rip), %xmm0
	movupd	%xmm0, (%rax)
	movq	$0, 16(%rax)
	movq	(%rdx), %rsi
	movq	16(%rdx), %rax
	movq	32(%rdx), %r9
	testq	%r12, %r12
	je	.LBB2_623
	testb	%bpl, %bpl
	je	.LBB2_717
	cmpb	$1, %bpl
	je	.LBB2_696
	movq	96(%rsp), %r12
	movl	%r12d, %r10d
	andl	$-2, %r10d
	leaq	24(%r9), %r11
	leaq	(,%r8,8), %rbx
	leaq	(%rbx,%rbx,2), %rbx
	leal	(,%r12,8), %r15d
	leaq	(%r15,%r15,2), %r15
	subq	%r15, %rbx
	movq	%r8, %r15
	subq	%r12, %r15
	leaq	(%rax,%r15), %r14
	incq	%r14
	leaq	(%rsi,%r15), %r12
	incq	%r12
	xorl	%r15d, %r15d
.LBB2_424:
	movzbl	-1(%r12,%r15), %ebp
	movb	%bpl, 1(%rsi,%r15)
	movzbl	-1(%r14,%r15), %ebp
	movb	%bpl, 1(%rax,%r15)
	movups	-24(%r11,%rbx), %xmm0
	movq	-8(%r11,%rbx), %r13
	movq	%r13, 16(%r11)
	movups	%xmm0, (%r11)
	movzbl	(%r12,%r15), %ebp
	movb	%bpl, 2(%rsi,%r15)
	movzbl	(%r14,%r15), %ebp
	movb	%bpl, 2(%rax,%r15)
	addq	$2, %r15
	movupd	(%r11,%rbx), %xmm0
	movq	16(%r11,%rbx), %r13
	movq	%r13, 40(%r11)
	movupd	%xmm0, 24(%r11)
	addq	$48, %r11
	cmpq	%r15, %r10
	jne	.LBB2_424
	jmp	.LBB2_714
.LBB2_425:
	movl	$1, %eax
	movq	%rax, 40(%rsp)
	jmp	.LBB2_693
.LBB2_427:
	cmpb	$1, %sil
	sete	%sil
	cmpb	$1, %r10b
	setne	%r11b
	xorpd	%xmm0, %xmm0
	movapd	%xmm0, 736(%rsp)
	movq	%r13, %rbp
	incq	%rbp
	sete	%bl
	notb	%bl
	movq	%r12, 88(%rsp)
	incq	%r12
	movq	%r12, 40(%rsp)
	sete	%r10b
	testb	%r11b, %bl
	movq	%rdx, 120(%rsp)
	movq	%r9, 64(%rsp)
	movq	%rdi, 72(%rsp)
	movq	%rcx, 56(%rsp)
	movq	%r8, 80(%rsp)
	jne	.LBB2_633
	orb	%sil, %r10b
	je	.LBB2_633
	cmpq	$-1, %r13
	je	.LBB2_711
	cmpq	$-1, 88(%rsp)
	je	.LBB2_711
	xorps	%xmm1, %xmm1
	movq	32(%rsp), %rcx
	leaq	(,%rcx,8), %rcx
	leaq	(%rcx,%rcx,2), %rcx
	movsd	(%rax,%rcx), %xmm0
	movq	88(%rsp), %rdx
	shlq	$3, %rdx
	leaq	(%rdx,%rdx,2), %rdx
	addsd	(%rax,%rdx), %xmm0
	movapd	%xmm0, %xmm2
	subsd	%xmm0, %xmm2
	ucomisd	%xmm1, %xmm2
	jne	.LBB2_887
	jp	.LBB2_887
	movupd	8(%rax,%rcx), %xmm2
	movsd	8(%rax,%rdx), %xmm3
	movsd	16(%rax,%rdx), %xmm4
	unpcklpd	%xmm3, %xmm3
	mulpd	%xmm2, %xmm3
	shufpd	$1, %xmm2, %xmm2
	unpcklpd	%xmm4, %xmm4
	mulpd	%xmm2, %xmm4
	movapd	%xmm3, %xmm2
	subpd	%xmm4, %xmm2
	addpd	%xmm3, %xmm4
	movsd	%xmm2, %xmm4
	xorpd	%xmm2, %xmm2
	addpd	%xmm4, %xmm2
	movapd	%xmm2, %xmm3
	subpd	%xmm2, %xmm3
	movapd	%xmm3, %xmm4
	ucomisd	%xmm1, %xmm4
	movb	$14, %r15b
	jne	.LBB2_944
	jp	.LBB2_944
	unpckhpd	%xmm3, %xmm3
	ucomisd	%xmm1, %xmm3
	movq	32(%rsp), %r13
	movl	$0, %r11d
	movb	$1, %r10b
	jne	.LBB2_761
	jp	.LBB2_761
	movq	48(%rsp), %rax
	movb	$1, (%rax)
	movq	120(%rsp), %rax
	movq	16(%rax), %rcx
	movb	$0, (%rcx)
	movq	32(%rax), %rax
	movsd	%xmm0, (%rax)
	movupd	%xmm2, 8(%rax)
	movl	$1, %r11d
	xorl	%r10d, %r10d
	xorl	%r15d, %r15d
	jmp	.LBB2_761
.LBB2_435:
	xorpd	%xmm1, %xmm1
	xorl	%r11d, %r11d
	ucomisd	%xmm1, %xmm0
	jne	.LBB2_604
	jp	.LBB2_604
	cmpb	$1, %r10b
	jne	.LBB2_604
	movsd	16(%rax,%r12), %xmm0
	movsd	.LCPI2_1(%rip), %xmm1
	xorl	%r11d, %r11d
	ucomisd	%xmm1, %xmm0
	jbe	.LBB2_604
	movsd	.LCPI2_2(%rip), %xmm1
	ucomisd	%xmm0, %xmm1
	movl	$0, %r14d
	movb	$1, %r10b
	jbe	.LBB2_902
	movsd	8(%rax,%r12), %xmm0
	leaq	736(%rsp), %rax
	movq	%rdi, %rbx
	movq	%rax, %rdi
	movq	%rdx, %rsi
	movq	%rdx, %r14
	movq	%r13, %rdx
	movq	%rcx, %r15
	movq	136(%rsp), %rcx
	movq	%r8, %r12
	xorl	%r8d, %r8d
	movq	%r9, %r13
	callq	"powers::raise::power_by"
	movq	%r13, %r9
	movq	32(%rsp), %r13
	movq	%r15, %rcx
	movq	%r12, %r8
	movq	%r14, %rdx
	movq	%rbx, %rdi
	movzbl	736(%rsp), %r10d
	movzbl	737(%rsp), %r15d
	movq	744(%rsp), %r11
	movq	752(%rsp), %r14
	jmp	.LBB2_902
.LBB2_440:
	xorl	%r11d, %r11d
	jmp	.LBB2_706
.LBB2_441:
	movq	%r12, 32(%rsp)
	movq	%rbx, 88(%rsp)
	movl	%ebp, %r14d
	andl	$-2, %r14d
	leal	(,%rbp,8), %ecx
	leaq	(%rcx,%rcx,2), %rcx
	movq	%r15, %rax
	subq	%rcx, %r15
	leaq	(,%r8,8), %rcx
	leaq	(%rcx,%rcx,2), %r12
	incq	%r8
	movq	%r8, %r13
	subq	%rbp, %r13
	leaq	(%r9,%r13), %rbx
	addq	%r10, %r13
	leal	(,%rsi,8), %ecx
	leaq	(%rcx,%rcx,2), %rcx
	leaq	(,%rbp,2), %r11
	addq	%rbp, %r11
	leaq	(%rcx,%r11,8), %rcx
	movq	%rax, %rdi
	movq	%rax, %r11
	subq	%rcx, %r11
	subq	%rsi, %r8
	subq	%rbp, %r8
	leaq	(%r9,%r8), %rcx
	addq	%r10, %r8
	xorl	%ebp, %ebp
.LBB2_442:
	movzbl	-1(%r13,%rbp), %eax
	movb	%al, -1(%r8,%rbp)
	movzbl	-1(%rbx,%rbp), %eax
	movb	%al, -1(%rcx,%rbp)
	movups	(%r15,%r12), %xmm0
	movq	16(%r15,%r12), %rax
	movq	%rax, 16(%r11,%r12)
	movups	%xmm0, (%r11,%r12)
	movzbl	(%r13,%rbp), %eax
	movb	%al, (%r8,%rbp)
	movzbl	(%rbx,%rbp), %eax
	movb	%al, (%rcx,%rbp)
	movupd	24(%r15,%r12), %xmm0
	movq	40(%r15,%r12), %rax
	movq	%rax, 40(%r11,%r12)
	movupd	%xmm0, 24(%r11,%r12)
	addq	$2, %rbp
	addq	$48, %r12
	cmpq	%rbp, %r14
	jne	.LBB2_442
	testb	$1, 160(%rsp)
	movq	88(%rsp), %rbx
	movzbl	48(%rsp), %r11d
	movq	32(%rsp), %r12
	movq	%rdi, %r15
	je	.LBB2_445
.LBB2_444:
	leaq	(%rbx,%rbp), %rax
	movzbl	(%r10,%rax), %ecx
	addq	%r12, %rbp
	movb	%cl, (%r10,%rbp)
	movzbl	(%r9,%rax), %ecx
	movb	%cl, (%r9,%rbp)
	leaq	(%rax,%rax,2), %rax
	leaq	(%rbp,%rbp,2), %rcx
	movupd	(%r15,%rax,8), %xmm0
	movq	16(%r15,%rax,8), %rax
	movq	%rax, 16(%r15,%rcx,8)
	movupd	%xmm0, (%r15,%rcx,8)
.LBB2_445:
	movq	48(%rdx), %r9
	cmpb	$4, %r11b
	jae	.LBB2_447
	xorl	%r10d, %r10d
	movq	72(%rsp), %rdi
	movq	80(%rsp), %r8
	movq	160(%rsp), %rbp
	movzbl	40(%rsp), %r13d
	jmp	.LBB2_659
.LBB2_447:
	cmpb	$32, %r11b
	jae	.LBB2_647
	xorl	%r10d, %r10d
	movq	72(%rsp), %rdi
	movq	80(%rsp), %r8
	movq	160(%rsp), %rbp
	movzbl	40(%rsp), %r13d
	jmp	.LBB2_656
.LBB2_449:
	xorl	%ebx, %ebx
.LBB2_450:
	incq	%r14
	movq	144(%rsp), %rax
	addq	%rbx, %rax
	movzbl	(%r11,%rax), %ebp
	addq	%rbx, %r14
	movb	%bpl, (%r11,%r14)
	movzbl	(%r10,%rax), %r11d
	movb	%r11b, (%r10,%r14)
	leaq	(%rax,%rax,2), %rax
	leaq	(%r14,%r14,2), %r10
	movupd	(%rsi,%rax,8), %xmm0
	movq	16(%rsi,%rax,8), %rax
	movq	%rax, 16(%rsi,%r10,8)
	movupd	%xmm0, (%rsi,%r10,8)
.LBB2_451:
	movq	184(%rsp), %r11
.LBB2_452:
	movq	144(%rsp), %rax
	addq	%r12, %rax
	movq	%rax, %rbx
	cmpq	%r8, %rax
	jae	.LBB2_689
.LBB2_453:
	movq	(%rdx), %r14
	movq	16(%rdx), %r15
	movq	32(%rdx), %rbp
	leaq	(%rbx,%rbx,2), %rax
	movsd	(%rbp,%rax,8), %xmm4
	movupd	8(%rbp,%rax,8), %xmm2
	movzbl	(%r14,%rbx), %r10d
	movzbl	(%r15,%rbx), %esi
	movzbl	%sil, %r12d
	leaq	1(%rbx), %rax
	movq	%rax, 144(%rsp)
	cmpb	$1, %r10b
	movq	%r11, 40(%rsp)
	movq	%r14, 48(%rsp)
	jne	.LBB2_474
	xorl	%r10d, %r10d
	testq	%r11, %r11
	je	.LBB2_458
.LBB2_455:
	cmpb	$1, (%r14,%r10)
	jne	.LBB2_458
	incq	%r10
	cmpq	%r10, %r11
	jne	.LBB2_455
	movq	%r11, %r10
.LBB2_458:
	movapd	%xmm4, %xmm0
	subsd	%xmm4, %xmm0
	ucomisd	%xmm3, %xmm0
	jne	.LBB2_729
	jp	.LBB2_729
	movapd	%xmm4, %xmm0
	leaq	(%r10,%r10,2), %rax
	leaq	8(,%rax,8), %r11
.LBB2_460:
	movq	%r10, %rsi
	movq	%r11, %rax
	subq	$1, %r10
	jb	.LBB2_463
	movsd	-32(%rbp,%rax), %xmm1
	ucomisd	%xmm1, %xmm0
	seta	%r11b
	incb	%r11b
	xorl	%r14d, %r14d
	ucomisd	%xmm0, %xmm1
	movzbl	%r11b, %ebx
	cmoval	%r14d, %ebx
	movq	48(%rsp), %r14
	leaq	-24(%rax), %r11
	testb	%bl, %bl
	je	.LBB2_460
	movzbl	%bl, %r10d
	cmpl	$2, %r10d
	jne	.LBB2_512
.LBB2_463:
	movq	%r15, %r10
	xorpd	%xmm0, %xmm0
	subpd	%xmm2, %xmm0
	movapd	%xmm0, %xmm1
	subpd	%xmm0, %xmm1
	movapd	%xmm1, %xmm2
	ucomisd	%xmm3, %xmm2
	movb	$14, %r15b
	jne	.LBB2_904
	jp	.LBB2_904
	unpckhpd	%xmm1, %xmm1
	ucomisd	%xmm3, %xmm1
	movq	40(%rsp), %r11
	jne	.LBB2_904
	jp	.LBB2_904
	cmpq	$63, %r11
	ja	.LBB2_768
	cmpq	%rsi, %r11
	jbe	.LBB2_473
	movq	%r10, %r15
	movl	%r11d, %ebx
	subl	%esi, %ebx
	movq	%r11, %r10
	decq	%r11
	testb	$1, %bl
	je	.LBB2_469
	movq	40(%rsp), %rbx
	movzbl	-1(%r14,%rbx), %r10d
	movb	%r10b, (%r14,%rbx)
	movzbl	-1(%r15,%rbx), %r10d
	movb	%r10b, (%r15,%rbx)
	leaq	(%rbx,%rbx,2), %r10
	movq	-8(%rbp,%r10,8), %rbx
	movq	%rbx, 16(%rbp,%r10,8)
	movupd	-24(%rbp,%r10,8), %xmm1
	movupd	%xmm1, (%rbp,%r10,8)
	movq	%r11, %r10
.LBB2_469:
	cmpq	%rsi, %r11
	je	.LBB2_472
	leaq	(%r10,%r10,2), %r11
	leaq	(,%r11,8), %r11
	addq	%rbp, %r11
.LBB2_471:
	movzbl	-1(%r14,%r10), %ebx
	movb	%bl, (%r14,%r10)
	movzbl	-1(%r15,%r10), %ebx
	movb	%bl, (%r15,%r10)
	movq	-8(%r11), %rbx
	movq	%rbx, 16(%r11)
	movups	-24(%r11), %xmm1
	movups	%xmm1, (%r11)
	movzbl	-2(%r14,%r10), %ebx
	movb	%bl, -1(%r14,%r10)
	movzbl	-2(%r15,%r10), %ebx
	movb	%bl, -1(%r15,%r10)
	addq	$-2, %r10
	movq	-32(%r11), %rbx
	movq	%rbx, -8(%r11)
	movupd	-48(%r11), %xmm1
	movupd	%xmm1, -24(%r11)
	addq	$-48, %r11
	cmpq	%r10, %rsi
	jb	.LBB2_471
.LBB2_472:
	movq	(%rdx), %r14
	movq	40(%rsp), %r11
.LBB2_473:
	incq	%r11
	movb	$1, (%r14,%rsi)
	movq	16(%rdx), %r10
	movb	$0, (%r10,%rsi)
	movq	32(%rdx), %rsi
	movsd	%xmm4, -8(%rsi,%rax)
	movupd	%xmm0, (%rsi,%rax)
	jmp	.LBB2_452
.LBB2_474:
	movq	%r15, 128(%rsp)
	movapd	%xmm4, %xmm0
	subsd	%xmm4, %xmm0
	movb	$14, %r15b
	ucomisd	%xmm3, %xmm0
	jne	.LBB2_778
	jp	.LBB2_778
	movq	%r12, 152(%rsp)
	movq	%rbx, 88(%rsp)
	movapd	.LCPI2_9(%rip), %xmm0
	movapd	%xmm2, 240(%rsp)
	xorpd	%xmm2, %xmm0
	movq	8(%rdx), %rax
	movq	24(%rdx), %rcx
	movq	40(%rdx), %rdx
	movq	%r14, 736(%rsp)
	movq	%rax, 744(%rsp)
	movq	128(%rsp), %rax
	movq	%rax, 752(%rsp)
	movq	%rcx, 760(%rsp)
	movq	%rbp, 768(%rsp)
	movq	%rdx, 776(%rsp)
	movb	%r10b, 192(%rsp)
	movb	%r10b, 544(%rsp)
	movb	%sil, 208(%rsp)
	movb	%sil, 545(%rsp)
	leaq	546(%rsp), %rax
	movw	$0, 4(%rax)
	movl	$0, (%rax)
	movsd	%xmm4, 232(%rsp)
	movsd	%xmm4, 552(%rsp)
	movupd	%xmm0, 560(%rsp)
	testq	%r11, %r11
	je	.LBB2_485
	xorl	%r12d, %r12d
.LBB2_477:
	leaq	(,%r12,8), %rax
	leaq	(%rax,%rax,2), %r13
	movsd	(%rbp,%r13), %xmm0
	movupd	8(%rbp,%r13), %xmm1
	movq	48(%rsp), %rax
	movzbl	(%rax,%r12), %eax
	movq	128(%rsp), %rcx
	movzbl	(%rcx,%r12), %ebx
	movb	%al, 352(%rsp)
	movb	%bl, 353(%rsp)
	leaq	354(%rsp), %rax
	movw	$0, 4(%rax)
	movl	$0, (%rax)
	movsd	%xmm0, 360(%rsp)
	movapd	%xmm1, 96(%rsp)
	movupd	%xmm1, 368(%rsp)
	leaq	1(%r12), %r14
	leaq	736(%rsp), %rdi
	leaq	544(%rsp), %rsi
	leaq	352(%rsp), %rcx
	movl	$4, %r9d
	movq	144(%rsp), %rdx
	movq	%r14, %r8
	callq	"sums::order::cmp_term"
	cmpb	$2, %al
	jne	.LBB2_479
	addq	%rbx, %r14
	movq	%r14, %r12
	movq	40(%rsp), %r11
	cmpq	%r11, %r14
	jb	.LBB2_477
	jmp	.LBB2_486
.LBB2_479:
	movapd	96(%rsp), %xmm2
	movzbl	%al, %eax
	movq	%r12, %r14
	testl	%eax, %eax
	movq	40(%rsp), %r11
	je	.LBB2_486
	subpd	240(%rsp), %xmm2
	movapd	%xmm2, %xmm0
	subpd	%xmm2, %xmm0
	movapd	%xmm0, %xmm1
	movsd	200(%rsp), %xmm3
	ucomisd	%xmm3, %xmm1
	movq	152(%rsp), %r12
	jne	.LBB2_777
	jp	.LBB2_777
	unpckhpd	%xmm0, %xmm0
	ucomisd	%xmm3, %xmm0
	movq	72(%rsp), %rdi
	movq	120(%rsp), %rdx
	movq	64(%rsp), %r9
	movzbl	208(%rsp), %eax
	jne	.LBB2_778
	jp	.LBB2_778
	testb	%al, %al
	je	.LBB2_484
	movl	$3, %ecx
	movq	128(%rsp), %rdi
	movq	144(%rsp), %rsi
	movq	%r12, %rdx
	movapd	%xmm2, 96(%rsp)
	callq	"sums::order::nests_inside"
	movapd	96(%rsp), %xmm2
	movsd	200(%rsp), %xmm3
	movq	40(%rsp), %r11
	movq	64(%rsp), %r9
	movq	120(%rsp), %rdx
	movq	72(%rsp), %rdi
	testb	%al, %al
	je	.LBB2_769
.LBB2_484:
	movupd	%xmm2, 8(%rbp,%r13)
	movq	80(%rsp), %r8
	movq	56(%rsp), %rcx
	movq	32(%rsp), %r13
	jmp	.LBB2_452
.LBB2_485:
	xorl	%r14d, %r14d
.LBB2_486:
	xorpd	%xmm2, %xmm2
	subpd	240(%rsp), %xmm2
	movapd	%xmm2, %xmm0
	subpd	%xmm2, %xmm0
	movapd	%xmm0, %xmm1
	movsd	200(%rsp), %xmm3
	ucomisd	%xmm3, %xmm1
	movq	152(%rsp), %r12
	jne	.LBB2_777
	jp	.LBB2_777
	unpckhpd	%xmm0, %xmm0
	ucomisd	%xmm3, %xmm0
	movq	72(%rsp), %rdi
	movq	120(%rsp), %rdx
	movq	64(%rsp), %r9
	movzbl	208(%rsp), %esi
	jne	.LBB2_778
	jp	.LBB2_778
	testb	%sil, %sil
	movq	88(%rsp), %rbx
	movq	128(%rsp), %r15
	je	.LBB2_490
	movl	$3, %ecx
	movq	%r15, %rdi
	movq	144(%rsp), %rsi
	movq	%r12, %rdx
	movapd	%xmm2, 96(%rsp)
	callq	"sums::order::nests_inside"
	movapd	96(%rsp), %xmm2
	movzbl	208(%rsp), %esi
	movsd	200(%rsp), %xmm3
	movq	40(%rsp), %r11
	movq	64(%rsp), %r9
	movq	120(%rsp), %rdx
	movq	72(%rsp), %rdi
	testb	%al, %al
	je	.LBB2_769
.LBB2_490:
	leaq	(%r11,%r12), %rax
	incq	%rax
	cmpq	$64, %rax
	ja	.LBB2_762
	cmpq	%r14, %r11
	movq	80(%rsp), %r8
	movq	56(%rsp), %rcx
	movq	32(%rsp), %r13
	movsd	232(%rsp), %xmm1
	movq	%rax, 184(%rsp)
	jbe	.LBB2_498
	movl	%r11d, %eax
	subl	%r14d, %eax
	movq	%r11, %rsi
	testb	$1, %al
	je	.LBB2_494
	leaq	-1(%r11), %rsi
	movq	48(%rsp), %rbx
	movzbl	-1(%rbx,%r11), %eax
	leaq	(%r11,%r12), %r10
	movb	%al, (%rbx,%r10)
	movzbl	-1(%r15,%r11), %eax
	movb	%al, (%r15,%r10)
	leaq	(%rsi,%rsi,2), %rax
	leaq	(%r10,%r10,2), %r10
	movupd	(%rbp,%rax,8), %xmm0
	movq	16(%rbp,%rax,8), %rax
	movq	%rax, 16(%rbp,%r10,8)
	movupd	%xmm0, (%rbp,%r10,8)
.LBB2_494:
	leaq	1(%r14), %rax
	cmpq	%rax, %r11
	movq	48(%rsp), %r12
	je	.LBB2_497
	movq	%r15, %r13
	leaq	(%rsi,%rsi,2), %rax
	leaq	-24(,%rax,8), %r10
	movq	152(%rsp), %rbx
	leaq	(%rsi,%rbx), %rax
	shlq	$3, %rax
	leaq	(%rax,%rax,2), %rax
	leaq	(%r15,%rbx), %r11
	addq	%r12, %rbx
.LBB2_496:
	movzbl	-1(%r12,%rsi), %r15d
	movb	%r15b, (%rbx,%rsi)
	movzbl	-1(%r13,%rsi), %r15d
	movb	%r15b, (%r11,%rsi)
	movups	(%rbp,%r10), %xmm0
	movq	16(%rbp,%r10), %r15
	movq	%r15, 16(%rbp,%rax)
	movups	%xmm0, (%rbp,%rax)
	movzbl	-2(%r12,%rsi), %r15d
	movb	%r15b, -1(%rbx,%rsi)
	movzbl	-2(%r13,%rsi), %r15d
	movb	%r15b, -1(%r11,%rsi)
	addq	$-2, %rsi
	movupd	-24(%rbp,%r10), %xmm0
	movq	-8(%rbp,%r10), %r15
	movq	%r15, -8(%rbp,%rax)
	movupd	%xmm0, -24(%rbp,%rax)
	addq	$-48, %rbp
	cmpq	%rsi, %r14
	jb	.LBB2_496
.LBB2_497:
	movq	(%rdx), %rax
	movq	88(%rsp), %rbx
	movq	152(%rsp), %r12
	movq	32(%rsp), %r13
	movzbl	208(%rsp), %esi
	jmp	.LBB2_499
.LBB2_498:
	movq	48(%rsp), %rax
.LBB2_499:
	movzbl	192(%rsp), %r10d
	movb	%r10b, (%rax,%r14)
	movq	16(%rdx), %rax
	movb	%sil, (%rax,%r14)
	leaq	(%r14,%r14,2), %rax
	movl	%esi, %ebp
	movq	32(%rdx), %rsi
	movsd	%xmm1, (%rsi,%rax,8)
	movupd	%xmm2, 8(%rsi,%rax,8)
	movq	(%rdx), %r11
	movq	16(%rdx), %r10
	movq	32(%rdx), %rsi
	cmpq	%rbx, %r14
	jbe	.LBB2_507
	testb	%bpl, %bpl
	je	.LBB2_451
	movq	%r12, %rbx
	testb	$1, %r12b
	je	.LBB2_503
	leaq	-1(%r12), %rbx
	movq	88(%rsp), %rax
	addq	%r12, %rax
	movzbl	(%r11,%rax), %ebp
	leaq	(%r14,%r12), %r15
	movb	%bpl, (%r11,%r15)
	movzbl	(%r10,%rax), %ebp
	movb	%bpl, (%r10,%r15)
	leaq	(%rax,%rax,2), %rax
	leaq	(%r15,%r15,2), %r15
	movupd	(%rsi,%rax,8), %xmm0
	movq	16(%rsi,%rax,8), %rax
	movq	%rax, 16(%rsi,%r15,8)
	movupd	%xmm0, (%rsi,%r15,8)
.LBB2_503:
	cmpb	$1, 208(%rsp)
	je	.LBB2_451
	leaq	(%rbx,%r14), %rax
	shlq	$3, %rax
	leaq	(%rax,%rax,2), %r15
	leaq	(%r10,%r14), %r12
	addq	%r11, %r14
	movq	88(%rsp), %rbp
	leaq	(%rbx,%rbp), %rax
	shlq	$3, %rax
	leaq	(%rax,%rax,2), %r13
	addq	%rbp, %r10
	addq	%rbp, %r11
	xorl	%ebp, %ebp
.LBB2_505:
	movzbl	(%r11,%rbx), %eax
	movb	%al, (%r14,%rbx)
	movzbl	(%r10,%rbx), %eax
	movb	%al, (%r12,%rbx)
	movups	(%rsi,%r13), %xmm0
	movq	16(%rsi,%r13), %rax
	movq	%rax, 16(%rsi,%r15)
	movups	%xmm0, (%rsi,%r15)
	movzbl	-1(%r11,%rbx), %eax
	movb	%al, -1(%r14,%rbx)
	movzbl	-1(%r10,%rbx), %eax
	movb	%al, -1(%r12,%rbx)
	movupd	-24(%rsi,%r13), %xmm0
	movq	-8(%rsi,%r13), %rax
	movq	%rax, -8(%rsi,%r15)
	movupd	%xmm0, -24(%rsi,%r15)
	addq	$2, %rbp
	addq	$-48, %rsi
	addq	$-2, %r12
	addq	$-2, %r14
	addq	$-2, %r10
	addq	$-2, %r11
	cmpq	%rbp, %rbx
	jne	.LBB2_505
	movq	184(%rsp), %r11
	movq	32(%rsp), %r13
	movq	152(%rsp), %r12
	jmp	.LBB2_452
.LBB2_507:
	testb	%bpl, %bpl
	je	.LBB2_451
	cmpb	$1, %bpl
	je	.LBB2_449
	andl	$126, %r12d
	movq	%r12, 48(%rsp)
	leaq	(,%rbx,8), %rax
	leaq	(%rax,%rax,2), %rax
	movq	%rax, 208(%rsp)
	movq	%rsi, 344(%rsp)
	leaq	24(%rsi), %r13
	leaq	2(%r10,%rbx), %rax
	movq	%rax, 40(%rsp)
	leaq	2(%r11,%rbx), %rax
	movq	%rax, 128(%rsp)
	leaq	(,%r14,8), %rbx
	leaq	(%rbx,%rbx,2), %rax
	movq	%rax, 240(%rsp)
	movq	%r10, 232(%rsp)
	leaq	2(%r10,%r14), %rax
	movq	%rax, 96(%rsp)
	movq	%r11, 192(%rsp)
	leaq	(%r11,%r14), %rax
	addq	$2, %rax
	movq	%rax, 88(%rsp)
	xorl	%ebx, %ebx
.LBB2_510:
	movq	128(%rsp), %r10
	movzbl	-1(%r10,%rbx), %ebp
	movq	88(%rsp), %r12
	movb	%bpl, -1(%r12,%rbx)
	movq	40(%rsp), %rax
	movzbl	-1(%rax,%rbx), %ebp
	movq	96(%rsp), %r11
	movb	%bpl, -1(%r11,%rbx)
	movq	208(%rsp), %r15
	movups	(%r13,%r15), %xmm0
	movq	16(%r13,%r15), %rbp
	movq	240(%rsp), %rsi
	movq	%rbp, 16(%r13,%rsi)
	movups	%xmm0, (%r13,%rsi)
	movzbl	(%r10,%rbx), %ebp
	movb	%bpl, (%r12,%rbx)
	movzbl	(%rax,%rbx), %ebp
	movb	%bpl, (%r11,%rbx)
	movupd	24(%r13,%r15), %xmm0
	movq	40(%r13,%r15), %rbp
	movq	%rbp, 40(%r13,%rsi)
	movupd	%xmm0, 24(%r13,%rsi)
	addq	$2, %rbx
	addq	$48, %r13
	cmpq	%rbx, 48(%rsp)
	jne	.LBB2_510
	movq	152(%rsp), %r12
	testb	$1, %r12b
	movq	32(%rsp), %r13
	movq	232(%rsp), %r10
	movq	192(%rsp), %r11
	movq	344(%rsp), %rsi
	jne	.LBB2_450
	jmp	.LBB2_451
.LBB2_512:
	movupd	(%rbp,%r11), %xmm0
	subpd	%xmm2, %xmm0
	movapd	%xmm0, %xmm1
	subpd	%xmm0, %xmm1
	movapd	%xmm1, %xmm2
	ucomisd	%xmm3, %xmm2
	movb	$14, %r15b
	jne	.LBB2_904
	jp	.LBB2_904
	unpckhpd	%xmm1, %xmm1
	ucomisd	%xmm3, %xmm1
	jne	.LBB2_904
	jp	.LBB2_904
	movupd	%xmm0, (%rbp,%r11)
	movq	40(%rsp), %r11
	jmp	.LBB2_452
.LBB2_515:
	xorl	%r14d, %r14d
.LBB2_516:
	incq	%rbx
	movq	144(%rsp), %rax
	addq	%r14, %rax
	movzbl	(%r11,%rax), %ebp
	addq	%r14, %rbx
	movb	%bpl, (%r11,%rbx)
	movzbl	(%r10,%rax), %r11d
	movb	%r11b, (%r10,%rbx)
	leaq	(%rax,%rax,2), %rax
	leaq	(%rbx,%rbx,2), %r10
	movupd	(%rsi,%rax,8), %xmm0
	movq	16(%rsi,%rax,8), %rax
	movq	%rax, 16(%rsi,%r10,8)
	movupd	%xmm0, (%rsi,%r10,8)
.LBB2_517:
	movq	184(%rsp), %r11
.LBB2_518:
	movq	144(%rsp), %rax
	addq	%r15, %rax
	movq	%rax, %rbx
	cmpq	%r8, %rax
	jae	.LBB2_689
.LBB2_519:
	movq	(%rdx), %r14
	movq	16(%rdx), %rbp
	movq	32(%rdx), %r15
	leaq	(%rbx,%rbx,2), %rax
	movsd	(%r15,%rax,8), %xmm4
	movupd	8(%r15,%rax,8), %xmm3
	movzbl	(%r14,%rbx), %r10d
	movzbl	(%rbp,%rbx), %esi
	movzbl	%sil, %eax
	movq	%rax, 240(%rsp)
	leaq	1(%rbx), %rax
	movq	%rax, 144(%rsp)
	cmpb	$1, %r10b
	movq	%r11, 40(%rsp)
	movq	%r15, 128(%rsp)
	jne	.LBB2_525
	testq	%r11, %r11
	je	.LBB2_536
	xorl	%r10d, %r10d
.LBB2_522:
	cmpb	$1, (%r14,%r10)
	jne	.LBB2_564
	incq	%r10
	cmpq	%r10, %r11
	jne	.LBB2_522
	movq	%r13, %r12
	movq	%r11, %r10
	jmp	.LBB2_565
.LBB2_525:
	movapd	%xmm4, %xmm0
	subsd	%xmm4, %xmm0
	movb	$14, %r15b
	ucomisd	%xmm2, %xmm0
	jne	.LBB2_780
	jp	.LBB2_780
	movq	%rbx, 88(%rsp)
	movq	8(%rdx), %rax
	movq	24(%rdx), %rcx
	movq	40(%rdx), %rdx
	movq	%r14, 48(%rsp)
	movq	%r14, 736(%rsp)
	movq	%rax, 744(%rsp)
	movq	%rbp, 752(%rsp)
	movq	%rcx, 760(%rsp)
	movq	128(%rsp), %rax
	movq	%rax, 768(%rsp)
	movq	%rdx, 776(%rsp)
	movb	%r10b, 192(%rsp)
	movb	%r10b, 544(%rsp)
	movb	%sil, 152(%rsp)
	movb	%sil, 545(%rsp)
	leaq	546(%rsp), %rax
	movw	$0, 4(%rax)
	movl	$0, (%rax)
	movsd	%xmm4, 232(%rsp)
	movsd	%xmm4, 552(%rsp)
	movapd	%xmm3, 208(%rsp)
	movupd	%xmm3, 560(%rsp)
	testq	%r11, %r11
	je	.LBB2_537
	xorl	%r14d, %r14d
.LBB2_528:
	leaq	(,%r14,8), %rax
	leaq	(%rax,%rax,2), %r13
	movq	128(%rsp), %rax
	movsd	(%rax,%r13), %xmm0
	movupd	8(%rax,%r13), %xmm1
	movq	48(%rsp), %rax
	movzbl	(%rax,%r14), %eax
	movq	%rbp, %r12
	movzbl	(%rbp,%r14), %ebp
	movb	%al, 352(%rsp)
	movb	%bpl, 353(%rsp)
	leaq	354(%rsp), %rax
	movw	$0, 4(%rax)
	movl	$0, (%rax)
	movsd	%xmm0, 360(%rsp)
	movapd	%xmm1, 96(%rsp)
	movupd	%xmm1, 368(%rsp)
	leaq	1(%r14), %rbx
	leaq	736(%rsp), %rdi
	leaq	544(%rsp), %rsi
	leaq	352(%rsp), %rcx
	movl	$4, %r9d
	movq	144(%rsp), %rdx
	movq	%rbx, %r8
	callq	"sums::order::cmp_term"
	cmpb	$2, %al
	jne	.LBB2_530
	addq	%rbp, %rbx
	movq	%rbx, %r14
	movq	40(%rsp), %r11
	cmpq	%r11, %rbx
	movq	%r12, %rbp
	jb	.LBB2_528
	jmp	.LBB2_538
.LBB2_530:
	movapd	96(%rsp), %xmm0
	movzbl	%al, %eax
	movq	%r14, %rbx
	testl	%eax, %eax
	movq	40(%rsp), %r11
	movq	%r12, %rbp
	je	.LBB2_538
	movapd	208(%rsp), %xmm3
	addpd	%xmm0, %xmm3
	movapd	%xmm3, %xmm0
	subpd	%xmm3, %xmm0
	movapd	%xmm0, %xmm1
	movsd	200(%rsp), %xmm2
	ucomisd	%xmm2, %xmm1
	jne	.LBB2_779
	jp	.LBB2_779
	unpckhpd	%xmm0, %xmm0
	ucomisd	%xmm2, %xmm0
	movq	72(%rsp), %rdi
	movq	120(%rsp), %rdx
	movq	64(%rsp), %r9
	movq	48(%rsp), %r14
	movzbl	152(%rsp), %eax
	jne	.LBB2_780
	jp	.LBB2_780
	testb	%al, %al
	movq	240(%rsp), %r15
	je	.LBB2_535
	movl	$3, %ecx
	movq	%rbp, %rdi
	movq	144(%rsp), %rsi
	movq	%r15, %rdx
	movapd	%xmm3, 208(%rsp)
	callq	"sums::order::nests_inside"
	movapd	208(%rsp), %xmm3
	movsd	200(%rsp), %xmm2
	movq	40(%rsp), %r11
	movq	64(%rsp), %r9
	movq	120(%rsp), %rdx
	movq	72(%rsp), %rdi
	testb	%al, %al
	je	.LBB2_770
.LBB2_535:
	movq	128(%rsp), %rax
	movupd	%xmm3, 8(%rax,%r13)
	movq	80(%rsp), %r8
	movq	56(%rsp), %rcx
	movq	32(%rsp), %r13
	jmp	.LBB2_518
.LBB2_536:
	movq	%r13, %r12
	xorl	%r10d, %r10d
	jmp	.LBB2_565
.LBB2_537:
	xorl	%ebx, %ebx
.LBB2_538:
	xorpd	%xmm0, %xmm0
	movapd	208(%rsp), %xmm3
	addpd	%xmm0, %xmm3
	movapd	%xmm3, %xmm0
	subpd	%xmm3, %xmm0
	movapd	%xmm0, %xmm1
	movsd	200(%rsp), %xmm2
	ucomisd	%xmm2, %xmm1
	jne	.LBB2_779
	jp	.LBB2_779
	unpckhpd	%xmm0, %xmm0
	ucomisd	%xmm2, %xmm0
	movq	72(%rsp), %rdi
	movq	120(%rsp), %rdx
	movq	64(%rsp), %r9
	movq	48(%rsp), %r14
	movzbl	152(%rsp), %r12d
	jne	.LBB2_780
	jp	.LBB2_780
	testb	%r12b, %r12b
	movq	240(%rsp), %r15
	je	.LBB2_542
	movl	$3, %ecx
	movq	%rbp, %rdi
	movq	144(%rsp), %rsi
	movq	%r15, %rdx
	movapd	%xmm3, 208(%rsp)
	callq	"sums::order::nests_inside"
	movapd	208(%rsp), %xmm3
	movsd	200(%rsp), %xmm2
	movq	40(%rsp), %r11
	movq	64(%rsp), %r9
	movq	120(%rsp), %rdx
	movq	72(%rsp), %rdi
	testb	%al, %al
	je	.LBB2_770
.LBB2_542:
	leaq	(%r11,%r15), %rax
	incq	%rax
	cmpq	$64, %rax
	ja	.LBB2_763
	cmpq	%rbx, %r11
	movq	80(%rsp), %r8
	movq	56(%rsp), %rcx
	movq	32(%rsp), %r13
	movsd	232(%rsp), %xmm1
	movq	%rax, 184(%rsp)
	jbe	.LBB2_550
	movl	%r11d, %eax
	subl	%ebx, %eax
	movq	%r11, %rsi
	testb	$1, %al
	je	.LBB2_546
	leaq	-1(%r11), %rsi
	movzbl	-1(%r14,%r11), %eax
	leaq	(%r11,%r15), %r10
	movb	%al, (%r14,%r10)
	movzbl	-1(%rbp,%r11), %eax
	movb	%al, (%rbp,%r10)
	leaq	(%rsi,%rsi,2), %rax
	leaq	(%r10,%r10,2), %r10
	movq	128(%rsp), %r15
	movupd	(%r15,%rax,8), %xmm0
	movq	16(%r15,%rax,8), %rax
	movq	%rax, 16(%r15,%r10,8)
	movupd	%xmm0, (%r15,%r10,8)
.LBB2_546:
	leaq	1(%rbx), %rax
	cmpq	%rax, %r11
	movq	%rbp, 40(%rsp)
	je	.LBB2_549
	leaq	(%rsi,%rsi,2), %rax
	leaq	-24(,%rax,8), %r10
	movq	240(%rsp), %r15
	leaq	(%rsi,%r15), %rax
	shlq	$3, %rax
	leaq	(%rax,%rax,2), %rax
	movq	40(%rsp), %r11
	addq	%r15, %r11
	movq	%r11, 96(%rsp)
	movq	48(%rsp), %r11
	addq	%r15, %r11
	movq	%r11, 208(%rsp)
	movq	128(%rsp), %r11
.LBB2_548:
	movq	48(%rsp), %r14
	movzbl	-1(%r14,%rsi), %ebp
	movq	208(%rsp), %r12
	movb	%bpl, (%r12,%rsi)
	movq	%rbx, %rcx
	movq	40(%rsp), %rbx
	movzbl	-1(%rbx,%rsi), %ebp
	movq	96(%rsp), %r13
	movb	%bpl, (%r13,%rsi)
	movups	(%r11,%r10), %xmm0
	movq	16(%r11,%r10), %r15
	movq	%r15, 16(%r11,%rax)
	movups	%xmm0, (%r11,%rax)
	movzbl	-2(%r14,%rsi), %ebp
	movb	%bpl, -1(%r12,%rsi)
	movzbl	-2(%rbx,%rsi), %ebp
	movq	%rcx, %rbx
	movb	%bpl, -1(%r13,%rsi)
	addq	$-2, %rsi
	movupd	-24(%r11,%r10), %xmm0
	movq	-8(%r11,%r10), %r15
	movq	%r15, -8(%r11,%rax)
	movupd	%xmm0, -24(%r11,%rax)
	addq	$-48, %r11
	cmpq	%rsi, %rcx
	jb	.LBB2_548
.LBB2_549:
	movq	(%rdx), %r14
	movq	32(%rsp), %r13
	movzbl	152(%rsp), %r12d
	movzbl	192(%rsp), %eax
	movq	56(%rsp), %rcx
	jmp	.LBB2_551
.LBB2_550:
	movzbl	192(%rsp), %eax
.LBB2_551:
	movb	%al, (%r14,%rbx)
	movq	16(%rdx), %rax
	movb	%r12b, (%rax,%rbx)
	leaq	(%rbx,%rbx,2), %rax
	movq	32(%rdx), %rsi
	movsd	%xmm1, (%rsi,%rax,8)
	movupd	%xmm3, 8(%rsi,%rax,8)
	movq	(%rdx), %r11
	movq	16(%rdx), %r10
	movq	32(%rdx), %rsi
	cmpq	88(%rsp), %rbx
	jbe	.LBB2_559
	testb	%r12b, %r12b
	movq	240(%rsp), %r15
	je	.LBB2_517
	movq	%r15, %r14
	testb	$1, %r15b
	je	.LBB2_555
	leaq	-1(%r15), %r14
	movq	88(%rsp), %rax
	addq	%r15, %rax
	movzbl	(%r11,%rax), %ebp
	movq	240(%rsp), %r15
	leaq	(%rbx,%r15), %r15
	movb	%bpl, (%r11,%r15)
	movzbl	(%r10,%rax), %ebp
	movb	%bpl, (%r10,%r15)
	leaq	(%rax,%rax,2), %rax
	leaq	(%r15,%r15,2), %r15
	movupd	(%rsi,%rax,8), %xmm0
	movq	16(%rsi,%rax,8), %rax
	movq	%rax, 16(%rsi,%r15,8)
	movupd	%xmm0, (%rsi,%r15,8)
	movq	240(%rsp), %r15
.LBB2_555:
	cmpb	$1, %r12b
	je	.LBB2_517
	leaq	(%r14,%rbx), %rax
	shlq	$3, %rax
	leaq	(%rax,%rax,2), %r15
	leaq	(%r10,%rbx), %r12
	addq	%r11, %rbx
	movq	88(%rsp), %rbp
	leaq	(%r14,%rbp), %rax
	shlq	$3, %rax
	leaq	(%rax,%rax,2), %r13
	addq	%rbp, %r10
	addq	%rbp, %r11
	xorl	%ebp, %ebp
.LBB2_557:
	movzbl	(%r11,%r14), %eax
	movb	%al, (%rbx,%r14)
	movzbl	(%r10,%r14), %eax
	movb	%al, (%r12,%r14)
	movups	(%rsi,%r13), %xmm0
	movq	16(%rsi,%r13), %rax
	movq	%rax, 16(%rsi,%r15)
	movups	%xmm0, (%rsi,%r15)
	movzbl	-1(%r11,%r14), %eax
	movb	%al, -1(%rbx,%r14)
	movzbl	-1(%r10,%r14), %eax
	movb	%al, -1(%r12,%r14)
	movupd	-24(%rsi,%r13), %xmm0
	movq	-8(%rsi,%r13), %rax
	movq	%rax, -8(%rsi,%r15)
	movupd	%xmm0, -24(%rsi,%r15)
	addq	$2, %rbp
	addq	$-48, %rsi
	addq	$-2, %r12
	addq	$-2, %rbx
	addq	$-2, %r10
	addq	$-2, %r11
	cmpq	%rbp, %r14
	jne	.LBB2_557
	movq	184(%rsp), %r11
	movq	32(%rsp), %r13
	jmp	.LBB2_584
.LBB2_559:
	testb	%r12b, %r12b
	movq	240(%rsp), %r15
	je	.LBB2_517
	cmpb	$1, %r12b
	je	.LBB2_515
	andl	$126, %r15d
	movq	%r15, 48(%rsp)
	movq	88(%rsp), %r14
	leaq	(,%r14,8), %rax
	leaq	(%rax,%rax,2), %rax
	movq	%rax, 208(%rsp)
	movq	%rsi, 344(%rsp)
	leaq	24(%rsi), %r13
	leaq	2(%r10,%r14), %rax
	movq	%rax, 40(%rsp)
	leaq	2(%r11,%r14), %rax
	movq	%rax, 128(%rsp)
	leaq	(,%rbx,8), %r14
	leaq	(%r14,%r14,2), %rax
	movq	%rax, 152(%rsp)
	movq	%r10, 232(%rsp)
	leaq	2(%r10,%rbx), %rax
	movq	%rax, 96(%rsp)
	movq	%r11, 192(%rsp)
	leaq	(%r11,%rbx), %rax
	addq	$2, %rax
	movq	%rax, 88(%rsp)
	xorl	%r14d, %r14d
.LBB2_562:
	movq	128(%rsp), %r10
	movzbl	-1(%r10,%r14), %ebp
	movq	88(%rsp), %r12
	movb	%bpl, -1(%r12,%r14)
	movq	40(%rsp), %rax
	movzbl	-1(%rax,%r14), %ebp
	movq	96(%rsp), %r11
	movb	%bpl, -1(%r11,%r14)
	movq	208(%rsp), %r15
	movups	(%r13,%r15), %xmm0
	movq	16(%r13,%r15), %rbp
	movq	152(%rsp), %rsi
	movq	%rbp, 16(%r13,%rsi)
	movups	%xmm0, (%r13,%rsi)
	movzbl	(%r10,%r14), %ebp
	movb	%bpl, (%r12,%r14)
	movzbl	(%rax,%r14), %ebp
	movb	%bpl, (%r11,%r14)
	movupd	24(%r13,%r15), %xmm0
	movq	40(%r13,%r15), %rbp
	movq	%rbp, 40(%r13,%rsi)
	movupd	%xmm0, 24(%r13,%rsi)
	addq	$2, %r14
	addq	$48, %r13
	cmpq	%r14, 48(%rsp)
	jne	.LBB2_562
	movq	240(%rsp), %r15
	testb	$1, %r15b
	movq	32(%rsp), %r13
	movq	232(%rsp), %r10
	movq	192(%rsp), %r11
	movq	344(%rsp), %rsi
	jne	.LBB2_516
	jmp	.LBB2_517
.LBB2_564:
	movq	%r13, %r12
.LBB2_565:
	movapd	%xmm4, %xmm0
	subsd	%xmm4, %xmm0
	ucomisd	%xmm2, %xmm0
	jne	.LBB2_730
	jp	.LBB2_730
	movq	%rbp, %r13
	movapd	%xmm4, %xmm0
	leaq	(%r10,%r10,2), %rax
	leaq	8(,%rax,8), %r11
.LBB2_567:
	movq	%r10, %rsi
	movq	%r11, %rax
	subq	$1, %r10
	jb	.LBB2_570
	movsd	-32(%r15,%rax), %xmm1
	ucomisd	%xmm1, %xmm0
	seta	%r11b
	incb	%r11b
	xorl	%ebp, %ebp
	ucomisd	%xmm0, %xmm1
	movzbl	%r11b, %ebx
	cmoval	%ebp, %ebx
	leaq	-24(%rax), %r11
	testb	%bl, %bl
	je	.LBB2_567
	movzbl	%bl, %r10d
	cmpl	$2, %r10d
	jne	.LBB2_581
.LBB2_570:
	xorpd	%xmm0, %xmm0
	addpd	%xmm0, %xmm3
	movapd	%xmm3, %xmm0
	subpd	%xmm3, %xmm0
	movapd	%xmm0, %xmm1
	ucomisd	%xmm2, %xmm1
	movb	$14, %r15b
	jne	.LBB2_866
	jp	.LBB2_866
	unpckhpd	%xmm0, %xmm0
	ucomisd	%xmm2, %xmm0
	movq	40(%rsp), %r11
	jne	.LBB2_866
	jp	.LBB2_866
	movq	%r13, %rbp
	cmpq	$63, %r11
	movq	%r12, %r13
	ja	.LBB2_768
	cmpq	%rsi, %r11
	movq	240(%rsp), %r15
	jbe	.LBB2_580
	movl	%r11d, %ebx
	subl	%esi, %ebx
	movq	%r11, %r10
	decq	%r11
	testb	$1, %bl
	je	.LBB2_576
	movq	40(%rsp), %rbx
	movzbl	-1(%r14,%rbx), %r10d
	movb	%r10b, (%r14,%rbx)
	movzbl	-1(%rbp,%rbx), %r10d
	movb	%r10b, (%rbp,%rbx)
	leaq	(%rbx,%rbx,2), %r10
	movq	128(%rsp), %r12
	movq	-8(%r12,%r10,8), %rbx
	movq	%rbx, 16(%r12,%r10,8)
	movupd	-24(%r12,%r10,8), %xmm0
	movupd	%xmm0, (%r12,%r10,8)
	movq	%r11, %r10
.LBB2_576:
	cmpq	%rsi, %r11
	je	.LBB2_579
	leaq	(%r10,%r10,2), %r11
	movq	128(%rsp), %rbx
	leaq	(%rbx,%r11,8), %r11
.LBB2_578:
	movzbl	-1(%r14,%r10), %ebx
	movb	%bl, (%r14,%r10)
	movzbl	-1(%rbp,%r10), %ebx
	movb	%bl, (%rbp,%r10)
	movq	-8(%r11), %rbx
	movq	%rbx, 16(%r11)
	movups	-24(%r11), %xmm0
	movups	%xmm0, (%r11)
	movzbl	-2(%r14,%r10), %ebx
	movb	%bl, -1(%r14,%r10)
	movzbl	-2(%rbp,%r10), %ebx
	movb	%bl, -1(%rbp,%r10)
	addq	$-2, %r10
	movq	-32(%r11), %rbx
	movq	%rbx, -8(%r11)
	movupd	-48(%r11), %xmm0
	movupd	%xmm0, -24(%r11)
	addq	$-48, %r11
	cmpq	%r10, %rsi
	jb	.LBB2_578
.LBB2_579:
	movq	(%rdx), %r14
	movq	40(%rsp), %r11
.LBB2_580:
	incq	%r11
	movb	$1, (%r14,%rsi)
	movq	16(%rdx), %r10
	movb	$0, (%r10,%rsi)
	movq	32(%rdx), %rsi
	movsd	%xmm4, -8(%rsi,%rax)
	movupd	%xmm3, (%rsi,%rax)
	jmp	.LBB2_518
.LBB2_581:
	movupd	(%r15,%r11), %xmm0
	addpd	%xmm0, %xmm3
	movapd	%xmm3, %xmm0
	subpd	%xmm3, %xmm0
	movapd	%xmm0, %xmm1
	ucomisd	%xmm2, %xmm1
	movb	$14, %r15b
	movq	%r12, %r13
	jne	.LBB2_904
	jp	.LBB2_904
	unpckhpd	%xmm0, %xmm0
	ucomisd	%xmm2, %xmm0
	jne	.LBB2_904
	jp	.LBB2_904
	movq	128(%rsp), %rax
	movupd	%xmm3, (%rax,%r11)
	movq	40(%rsp), %r11
.LBB2_584:
	movq	240(%rsp), %r15
	jmp	.LBB2_518
.LBB2_689:
	xorl	%r14d, %r14d
	jmp	.LBB2_933
.LBB2_585:
	movl	%r13d, %r11d
	andl	$-2, %r11d
	leaq	(,%r8,8), %r10
	leaq	(%r10,%r10,2), %rbx
	leal	(,%r13,8), %r10d
	leaq	(%r10,%r10,2), %r10
	subq	%r10, %rbx
	movq	%r8, %r10
	movq	%r13, 96(%rsp)
	subq	%r13, %r10
	leaq	(%rsi,%r10), %r14
	incq	%r14
	leaq	(%r9,%r10), %r15
	incq	%r15
	xorl	%r10d, %r10d
	movq	%rax, %r12
.LBB2_586:
	movzbl	-1(%r15,%r10), %ebp
	movb	%bpl, (%r9,%r10)
	movzbl	-1(%r14,%r10), %ebp
	movb	%bpl, (%rsi,%r10)
	movups	(%r12,%rbx), %xmm0
	movq	16(%r12,%rbx), %r13
	movq	%r13, 16(%r12)
	movups	%xmm0, (%r12)
	movzbl	(%r15,%r10), %ebp
	movb	%bpl, 1(%r9,%r10)
	movzbl	(%r14,%r10), %ebp
	movb	%bpl, 1(%rsi,%r10)
	movupd	24(%r12,%rbx), %xmm0
	movq	40(%r12,%rbx), %r13
	movq	%r13, 40(%r12)
	movupd	%xmm0, 24(%r12)
	addq	$2, %r10
	addq	$48, %r12
	cmpq	%r10, %r11
	jne	.LBB2_586
	movq	96(%rsp), %r13
	testb	$1, %r13b
	movq	32(%rsp), %r12
	je	.LBB2_589
.LBB2_588:
	leaq	(%r10,%r12), %r11
	movzbl	(%r9,%r11), %ebx
	movb	%bl, (%r9,%r10)
	movzbl	(%rsi,%r11), %r9d
	movb	%r9b, (%rsi,%r10)
	leaq	(%r11,%r11,2), %rsi
	leaq	(%r10,%r10,2), %r9
	movupd	(%rax,%rsi,8), %xmm0
	movq	16(%rax,%rsi,8), %rsi
	movq	%rsi, 16(%rax,%r9,8)
	movupd	%xmm0, (%rax,%r9,8)
.LBB2_589:
	xorl	%eax, %eax
.LBB2_590:
	movq	16(%rdx), %rsi
	movq	32(%rdx), %r9
	leaq	(%rax,%rax,2), %r10
	movupd	8(%r9,%r10,8), %xmm0
	xorpd	.LCPI2_9(%rip), %xmm0
	movzbl	(%rsi,%rax), %esi
	movupd	%xmm0, 8(%r9,%r10,8)
	addq	%rsi, %rax
	incq	%rax
	cmpq	%r13, %rax
	jb	.LBB2_590
	jmp	.LBB2_595
.LBB2_591:
	movl	%r13d, %r11d
	andl	$-2, %r11d
	leaq	(,%r8,8), %r10
	leaq	(%r10,%r10,2), %rbx
	leal	(,%r13,8), %r10d
	leaq	(%r10,%r10,2), %r10
	subq	%r10, %rbx
	movq	%r8, %r10
	movq	%r13, 96(%rsp)
	subq	%r13, %r10
	leaq	(%rsi,%r10), %r14
	incq	%r14
	leaq	(%r9,%r10), %r15
	incq	%r15
	xorl	%r10d, %r10d
	movq	%rax, %r12
.LBB2_592:
	movzbl	-1(%r15,%r10), %ebp
	movb	%bpl, (%r9,%r10)
	movzbl	-1(%r14,%r10), %ebp
	movb	%bpl, (%rsi,%r10)
	movups	(%r12,%rbx), %xmm0
	movq	16(%r12,%rbx), %r13
	movq	%r13, 16(%r12)
	movups	%xmm0, (%r12)
	movzbl	(%r15,%r10), %ebp
	movb	%bpl, 1(%r9,%r10)
	movzbl	(%r14,%r10), %ebp
	movb	%bpl, 1(%rsi,%r10)
	movupd	24(%r12,%rbx), %xmm0
	movq	40(%r12,%rbx), %r13
	movq	%r13, 40(%r12)
	movupd	%xmm0, 24(%r12)
	addq	$2, %r10
	addq	$48, %r12
	cmpq	%r10, %r11
	jne	.LBB2_592
	movq	96(%rsp), %r13
	movq	%r13, %rbx
	testb	$1, %r13b
	movq	32(%rsp), %r12
	je	.LBB2_719
.LBB2_594:
	leaq	(%r10,%r12), %r11
	movzbl	(%r9,%r11), %ebx
	movb	%bl, (%r9,%r10)
	movzbl	(%rsi,%r11), %r9d
	movb	%r9b, (%rsi,%r10)
	leaq	(%r11,%r11,2), %rsi
	leaq	(%r10,%r10,2), %r9
	movupd	(%rax,%rsi,8), %xmm0
	movq	16(%rax,%rsi,8), %rsi
	movq	%rsi, 16(%rax,%r9,8)
	movupd	%xmm0, (%rax,%r9,8)
.LBB2_595:
	movq	%r13, %rbx
	jmp	.LBB2_719
.LBB2_596:
	xorl	%r10d, %r10d
	xorl	%r15d, %r15d
	xorl	%r11d, %r11d
	jmp	.LBB2_706
.LBB2_597:
	movq	%rdx, %r12
	xorpd	%xmm1, %xmm1
	ucomisd	%xmm1, %xmm0
	jne	.LBB2_603
	jp	.LBB2_603
	cmpb	$1, %cl
	jne	.LBB2_603
	movsd	16(%rax,%rbp), %xmm0
	movsd	.LCPI2_1(%rip), %xmm1
	ucomisd	%xmm1, %xmm0
	jbe	.LBB2_603
	movsd	.LCPI2_2(%rip), %xmm1
	ucomisd	%xmm0, %xmm1
	movq	%r14, %rdi
	movq	%r12, %rdx
	movq	%r13, %r9
	jbe	.LBB2_957
	movsd	8(%rax,%rbp), %xmm0
	movsd	%xmm0, 48(%rsp)
	xorps	%xmm0, %xmm0
	movaps	%xmm0, 256(%rsp)
	movq	$0, 272(%rsp)
	movups	%xmm0, 545(%rsp)
	movups	%xmm0, 561(%rsp)
	movups	%xmm0, 577(%rsp)
	movups	%xmm0, 593(%rsp)
	movups	%xmm0, 609(%rsp)
	movups	%xmm0, 625(%rsp)
	movups	%xmm0, 641(%rsp)
	movups	%xmm0, 657(%rsp)
	movups	%xmm0, 673(%rsp)
	movups	%xmm0, 689(%rsp)
	movups	%xmm0, 705(%rsp)
	movups	%xmm0, 720(%rsp)
	movups	%xmm0, 353(%rsp)
	movups	%xmm0, 369(%rsp)
	movups	%xmm0, 385(%rsp)
	movups	%xmm0, 401(%rsp)
	movups	%xmm0, 417(%rsp)
	movups	%xmm0, 433(%rsp)
	movups	%xmm0, 449(%rsp)
	movups	%xmm0, 465(%rsp)
	movups	%xmm0, 481(%rsp)
	movups	%xmm0, 497(%rsp)
	movups	%xmm0, 513(%rsp)
	movups	%xmm0, 528(%rsp)
	leaq	760(%rsp), %rdi
	movl	$4584, %edx
	xorl	%esi, %esi
	callq	memset@PLT
	leaq	544(%rsp), %rax
	movq	%rax, 288(%rsp)
	movq	$192, 296(%rsp)
	leaq	352(%rsp), %rax
	movq	%rax, 304(%rsp)
	movq	$192, 312(%rsp)
	leaq	736(%rsp), %rax
	movq	%rax, 320(%rsp)
	movq	$192, 328(%rsp)
	movb	$1, 544(%rsp)
	movb	$0, 352(%rsp)
	movq	$0, 736(%rsp)
	movabsq	$4621819117588971520, %rax
	movq	%rax, 744(%rsp)
	movq	$0, 752(%rsp)
	leaq	256(%rsp), %rdi
	leaq	288(%rsp), %rsi
	movl	$1, %ecx
	movl	$64, %r8d
	movsd	48(%rsp), %xmm0
	xorl	%edx, %edx
	callq	"powers::raise::power_by"
	cmpb	$0, 256(%rsp)
	je	.LBB2_888
.LBB2_602:
	movb	$1, %dl
	movzbl	257(%rsp), %r15d
	xorl	%ebx, %ebx
	jmp	.LBB2_954
.LBB2_603:
	movq	%r14, %rdi
	movq	%r12, %rdx
	movq	%r13, %r9
	jmp	.LBB2_957
.LBB2_604:
	xorl	%r14d, %r14d
	movb	$1, %r10b
	jmp	.LBB2_902
.LBB2_605:
	testb	%bpl, %bpl
	je	.LBB2_715
	movq	96(%rsp), %r11
	movq	%r11, %r10
	movq	%r11, %r13
	testb	$1, %r11b
	je	.LBB2_608
	leaq	-1(%r13), %r10
	movzbl	-1(%rsi,%r13), %r11d
	movb	%r11b, (%rsi,%r13)
	movzbl	-1(%rax,%r13), %r11d
	movb	%r11b, (%rax,%r13)
	leaq	(%r13,%r13,2), %r11
	movq	-8(%r9,%r11,8), %rbx
	movq	%rbx, 16(%r9,%r11,8)
	movupd	-24(%r9,%r11,8), %xmm0
	movupd	%xmm0, (%r9,%r11,8)
.LBB2_608:
	cmpb	$1, %bpl
	je	.LBB2_703
	leaq	(%r10,%r10,2), %r11
	leaq	(%r9,%r11,8), %r9
	movq	%r10, %r11
.LBB2_610:
	movzbl	-1(%rsi,%r10), %ebx
	movb	%bl, (%rsi,%r10)
	movzbl	-1(%rax,%r10), %ebx
	movb	%bl, (%rax,%r10)
	movq	-8(%r9), %rbx
	movq	%rbx, 16(%r9)
	movups	-24(%r9), %xmm0
	movups	%xmm0, (%r9)
	movzbl	-2(%rsi,%r10), %ebx
	movb	%bl, -1(%rsi,%r10)
	movzbl	-2(%rax,%r10), %ebx
	movb	%bl, -1(%rax,%r10)
	movq	-32(%r9), %r10
	movq	%r10, -8(%r9)
	movupd	-48(%r9), %xmm0
	movupd	%xmm0, -24(%r9)
	addq	$-48, %r9
	addq	$-2, %r11
	movq	%r11, %r10
	jne	.LBB2_610
	jmp	.LBB2_703
.LBB2_611:
	testb	%bpl, %bpl
	je	.LBB2_715
	movq	96(%rsp), %r11
	movq	%r11, %r10
	movq	%r11, %r13
	testb	$1, %r11b
	je	.LBB2_614
	leaq	-1(%r13), %r10
	movzbl	-1(%rsi,%r13), %r11d
	movb	%r11b, (%rsi,%r13)
	movzbl	-1(%rax,%r13), %r11d
	movb	%r11b, (%rax,%r13)
	leaq	(%r13,%r13,2), %r11
	movq	-8(%r9,%r11,8), %rbx
	movq	%rbx, 16(%r9,%r11,8)
	movupd	-24(%r9,%r11,8), %xmm0
	movupd	%xmm0, (%r9,%r11,8)
.LBB2_614:
	cmpb	$1, %bpl
	je	.LBB2_703
	leaq	(%r10,%r10,2), %r11
	leaq	(%r9,%r11,8), %r9
	movq	%r10, %r11
.LBB2_616:
	movzbl	-1(%rsi,%r10), %ebx
	movb	%bl, (%rsi,%r10)
	movzbl	-1(%rax,%r10), %ebx
	movb	%bl, (%rax,%r10)
	movq	-8(%r9), %rbx
	movq	%rbx, 16(%r9)
	movups	-24(%r9), %xmm0
	movups	%xmm0, (%r9)
	movzbl	-2(%rsi,%r10), %ebx
	movb	%bl, -1(%rsi,%r10)
	movzbl	-2(%rax,%r10), %ebx
	movb	%bl, -1(%rax,%r10)
	movq	-32(%r9), %r10
	movq	%r10, -8(%r9)
	movupd	-48(%r9), %xmm0
	movupd	%xmm0, -24(%r9)
	addq	$-48, %r9
	addq	$-2, %r11
	movq	%r11, %r10
	jne	.LBB2_616
	jmp	.LBB2_703
.LBB2_617:
	testb	%bpl, %bpl
	je	.LBB2_715
	movq	96(%rsp), %r11
	movq	%r11, %r10
	movq	%r11, %r13
	testb	$1, %r11b
	je	.LBB2_620
	leaq	-1(%r13), %r10
	movzbl	-1(%rsi,%r13), %r11d
	movb	%r11b, (%rsi,%r13)
	movzbl	-1(%rax,%r13), %r11d
	movb	%r11b, (%rax,%r13)
	leaq	(%r13,%r13,2), %r11
	movq	-8(%r9,%r11,8), %rbx
	movq	%rbx, 16(%r9,%r11,8)
	movupd	-24(%r9,%r11,8), %xmm0
	movupd	%xmm0, (%r9,%r11,8)
.LBB2_620:
	cmpb	$1, %bpl
	je	.LBB2_703
	leaq	(%r10,%r10,2), %r11
	leaq	(%r9,%r11,8), %r9
	movq	%r10, %r11
.LBB2_622:
	movzbl	-1(%rsi,%r10), %ebx
	movb	%bl, (%rsi,%r10)
	movzbl	-1(%rax,%r10), %ebx
	movb	%bl, (%rax,%r10)
	movq	-8(%r9), %rbx
	movq	%rbx, 16(%r9)
	movups	-24(%r9), %xmm0
	movups	%xmm0, (%r9)
	movzbl	-2(%rsi,%r10), %ebx
	movb	%bl, -1(%rsi,%r10)
	movzbl	-2(%rax,%r10), %ebx
	movb	%bl, -1(%rax,%r10)
	movq	-32(%r9), %r10
	movq	%r10, -8(%r9)
	movupd	-48(%r9), %xmm0
	movupd	%xmm0, -24(%r9)
	addq	$-48, %r9
	addq	$-2, %r11
	movq	%r11, %r10
	jne	.LBB2_622
	jmp	.LBB2_703
.LBB2_623:
	testb	%bpl, %bpl
	je	.LBB2_715
	movq	96(%rsp), %r11
	movq	%r11, %r10
	movq	%r11, %r13
	testb	$1, %r11b
	je	.LBB2_626
	leaq	-1(%r13), %r10
	movzbl	-1(%rsi,%r13), %r11d
	movb	%r11b, (%rsi,%r13)
	movzbl	-1(%rax,%r13), %r11d
	movb	%r11b, (%rax,%r13)
	leaq	(%r13,%r13,2), %r11
	movq	-8(%r9,%r11,8), %rbx
	movq	%rbx, 16(%r9,%r11,8)
	movupd	-24(%r9,%r11,8), %xmm0
	movupd	%xmm0, (%r9,%r11,8)
.LBB2_626:
	cmpb	$1, %bpl
	je	.LBB2_703
	leaq	(%r10,%r10,2), %r11
	leaq	(%r9,%r11,8), %r9
	movq	%r10, %r11
.LBB2_628:
	movzbl	-1(%rsi,%r10), %ebx
	movb	%bl, (%rsi,%r10)
	movzbl	-1(%rax,%r10), %ebx
	movb	%bl, (%rax,%r10)
	movq	-8(%r9), %rbx
	movq	%rbx, 16(%r9)
	movups	-24(%r9), %xmm0
	movups	%xmm0, (%r9)
	movzbl	-2(%rsi,%r10), %ebx
	movb	%bl, -1(%rsi,%r10)
	movzbl	-2(%rax,%r10), %ebx
	movb	%bl, -1(%rax,%r10)
	movq	-32(%r9), %r10
	movq	%r10, -8(%r9)
	movupd	-48(%r9), %xmm0
	movupd	%xmm0, -24(%r9)
	addq	$-48, %r9
	addq	$-2, %r11
	movq	%r11, %r10
	jne	.LBB2_628
	jmp	.LBB2_703
.LBB2_629:
	movl	$1, %eax
	movq	%rax, 40(%rsp)
	jmp	.LBB2_749
.LBB2_630:
	movupd	8(%rsi,%r11,8), %xmm2
	xorpd	%xmm3, %xmm3
	mulpd	%xmm2, %xmm3
	shufpd	$1, %xmm2, %xmm2
	movapd	%xmm3, %xmm4
	subpd	%xmm2, %xmm4
	addpd	%xmm3, %xmm2
	movsd	%xmm4, %xmm2
	addpd	%xmm2, %xmm0
	movapd	%xmm0, %xmm2
	subpd	%xmm0, %xmm2
	movapd	%xmm2, %xmm3
	xorl	%r11d, %r11d
	ucomisd	%xmm1, %xmm3
	movb	$1, %r10b
	movb	$14, %r15b
	jne	.LBB2_179
	jp	.LBB2_179
	unpckhpd	%xmm2, %xmm2
	ucomisd	%xmm1, %xmm2
	jne	.LBB2_179
	jp	.LBB2_179
	movb	$1, (%rax)
	movq	16(%rdx), %rax
	movb	$0, (%rax)
	movq	32(%rdx), %rax
	movq	$0, (%rax)
	movupd	%xmm0, 8(%rax)
	movl	$1, %r11d
	xorl	%r15d, %r15d
	xorl	%r10d, %r10d
	jmp	.LBB2_179
.LBB2_633:
	cmpq	$-1, %r13
	je	.LBB2_640
	movq	32(%rsp), %rax
	movq	%rax, %r13
	cmpq	$-1, 88(%rsp)
	movq	%rbp, 128(%rsp)
	je	.LBB2_639
.LBB2_635:
	movzbl	(%r15,%r13), %eax
	movq	%rax, 144(%rsp)
	movq	48(%rsp), %rax
	movzbl	(%rax,%r13), %r12d
	incq	%r13
	movq	88(%rsp), %rbp
.LBB2_636:
	movzbl	(%r15,%rbp), %ebx
	movq	48(%rsp), %rax
	movzbl	(%rax,%rbp), %ecx
	incq	%rbp
	movq	%r15, 8(%rsp)
	movq	%rax, (%rsp)
	movq	$3, 16(%rsp)
	movzbl	%r12b, %edi
	movq	%r13, %rsi
	movq	144(%rsp), %rdx
	movq	%rbp, %r8
	movq	%rbx, %r9
	callq	"arithmetic::multiply::can_pair"
	testb	%al, %al
	je	.LBB2_759
	addq	%rbx, %rbp
	cmpq	40(%rsp), %rbp
	jb	.LBB2_636
	addq	144(%rsp), %r13
	movq	128(%rsp), %rbp
	cmpq	%rbp, %r13
	jb	.LBB2_635
	jmp	.LBB2_640
.LBB2_639:
	movzbl	(%r15,%rax), %ecx
	addq	%rcx, %rax
	incq	%rax
	cmpq	%rbp, %rax
	jb	.LBB2_639
.LBB2_640:
	movq	$4, 8(%rsp)
	movq	$0, (%rsp)
	leaq	736(%rsp), %rdi
	movl	$1, %ecx
	movl	$1, %r9d
	movq	120(%rsp), %rsi
	movq	88(%rsp), %r8
	movq	32(%rsp), %r13
	movq	%r13, %rdx
	callq	"arithmetic::multiply::expr_mul"
	movzbl	736(%rsp), %r10d
	movzbl	737(%rsp), %r15d
	movq	744(%rsp), %r11
	jmp	.LBB2_761
.LBB2_641:
	movb	$12, %r15b
	xorl	%r11d, %r11d
	xorl	%r14d, %r14d
	movq	72(%rsp), %rdi
	movq	%r13, %rdx
	movq	%rbp, %r8
	movq	56(%rsp), %rcx
	movq	64(%rsp), %r9
	movq	32(%rsp), %r13
	movb	$1, %r10b
	jmp	.LBB2_902
.LBB2_642:
	movl	%esi, %ebx
	andl	$-2, %ebx
	leal	(,%rsi,8), %eax
	leaq	(%rax,%rax,2), %rax
	leal	(,%rbp,8), %r14d
	leaq	(%r14,%r14,2), %r14
	addq	%rax, %r14
	movq	%r10, %r15
	subq	%r14, %r15
	leaq	(,%r8,8), %rax
	leaq	(%rax,%rax,2), %r12
	leaq	1(%r8), %r13
	subq	%rsi, %r13
	subq	%rbp, %r13
	leaq	(%rcx,%r13), %rbp
	addq	%r9, %r13
	leaq	(%rcx,%r8), %rax
	incq	%rax
	movq	%r8, 80(%rsp)
	movq	%r9, 48(%rsp)
	addq	%r9, %r8
	incq	%r8
	xorl	%r14d, %r14d
.LBB2_643:
	movzbl	-1(%r13,%r14), %r9d
	movb	%r9b, -1(%r8,%r14)
	movzbl	-1(%rbp,%r14), %r9d
	movb	%r9b, -1(%rax,%r14)
	movups	(%r15,%r12), %xmm0
	movq	16(%r15,%r12), %r9
	movq	%r9, 16(%r10,%r12)
	movups	%xmm0, (%r10,%r12)
	movzbl	(%r13,%r14), %r9d
	movb	%r9b, (%r8,%r14)
	movzbl	(%rbp,%r14), %r9d
	movb	%r9b, (%rax,%r14)
	movupd	24(%r15,%r12), %xmm0
	movq	40(%r15,%r12), %r9
	movq	%r9, 40(%r10,%r12)
	movupd	%xmm0, 24(%r10,%r12)
	addq	$2, %r14
	addq	$48, %r12
	cmpq	%r14, %rbx
	jne	.LBB2_643
	testb	$1, %sil
	movq	80(%rsp), %r8
	movzbl	40(%rsp), %r13d
	movq	48(%rsp), %r9
	je	.LBB2_646
.LBB2_645:
	addq	%r14, %r11
	movzbl	(%r9,%r11), %eax
	addq	%r8, %r14
	movb	%al, (%r9,%r14)
	movzbl	(%rcx,%r11), %eax
	movb	%al, (%rcx,%r14)
	leaq	(%r11,%r11,2), %rax
	leaq	(%r14,%r14,2), %rcx
	movupd	(%r10,%rax,8), %xmm0
	movq	16(%r10,%rax,8), %rax
	movq	%rax, 16(%r10,%rcx,8)
	movupd	%xmm0, (%r10,%rcx,8)
.LBB2_646:
	movq	48(%rdx), %rax
	addq	%r8, %rax
	movb	%r13b, -1(%rsi,%rax)
	addq	%rsi, %r8
	jmp	.LBB2_66
.LBB2_647:
	movq	160(%rsp), %r10
	andl	$-32, %r10d
	movupd	(%r9,%rbx), %xmm0
	movupd	16(%r9,%rbx), %xmm1
	movupd	%xmm0, (%r9,%r12)
	movupd	%xmm1, 16(%r9,%r12)
	cmpq	$32, %r10
	je	.LBB2_654
	movupd	32(%r9,%rbx), %xmm0
	movupd	48(%r9,%rbx), %xmm1
	movupd	%xmm0, 32(%r9,%r12)
	movupd	%xmm1, 48(%r9,%r12)
	cmpl	$64, %r10d
	je	.LBB2_654
	movupd	64(%r9,%rbx), %xmm0
	movupd	80(%r9,%rbx), %xmm1
	movupd	%xmm0, 64(%r9,%r12)
	movupd	%xmm1, 80(%r9,%r12)
	cmpl	$96, %r10d
	je	.LBB2_654
	movupd	96(%r9,%rbx), %xmm0
	movupd	112(%r9,%rbx), %xmm1
	movupd	%xmm0, 96(%r9,%r12)
	movupd	%xmm1, 112(%r9,%r12)
	cmpl	$128, %r10d
	je	.LBB2_654
	movupd	128(%r9,%rbx), %xmm0
	movupd	144(%r9,%rbx), %xmm1
	movupd	%xmm0, 128(%r9,%r12)
	movupd	%xmm1, 144(%r9,%r12)
	cmpl	$160, %r10d
	je	.LBB2_654
	movupd	160(%r9,%rbx), %xmm0
	movupd	176(%r9,%rbx), %xmm1
	movupd	%xmm0, 160(%r9,%r12)
	movupd	%xmm1, 176(%r9,%r12)
	cmpl	$192, %r10d
	je	.LBB2_654
	movupd	192(%r9,%rbx), %xmm0
	movupd	208(%r9,%rbx), %xmm1
	movupd	%xmm0, 192(%r9,%r12)
	movupd	%xmm1, 208(%r9,%r12)
.LBB2_654:
	movq	160(%rsp), %rbp
	cmpl	%ebp, %r10d
	movq	72(%rsp), %rdi
	movq	80(%rsp), %r8
	movzbl	40(%rsp), %r13d
	je	.LBB2_680
	testb	$28, %bpl
	je	.LBB2_659
.LBB2_656:
	movq	%r10, %rax
	movl	%ebp, %r10d
	andl	$-4, %r10d
	movq	%r10, %rcx
	subq	%rax, %rcx
	addq	%r8, %rax
	movq	%rax, %r11
	subq	%rsi, %r11
	subq	%rbp, %r11
	addq	%r9, %r11
	movq	%rbp, %r14
	subq	%rbp, %rax
	addq	%r9, %rax
	xorl	%ebx, %ebx
.LBB2_657:
	movl	(%rax,%rbx), %ebp
	movl	%ebp, (%r11,%rbx)
	addq	$4, %rbx
	cmpq	%rbx, %rcx
	jne	.LBB2_657
	movq	%r14, %rbp
	cmpl	%ebp, %r10d
	je	.LBB2_680
.LBB2_659:
	subq	%rbp, %r10
	movq	%r8, %rax
	subq	%rsi, %rax
	addq	%r9, %rax
	addq	%r8, %r9
.LBB2_660:
	movzbl	(%r9,%r10), %ecx
	movb	%cl, (%rax,%r10)
	incq	%r10
	jne	.LBB2_660
	jmp	.LBB2_680
.LBB2_661:
	movq	88(%rsp), %rax
	addq	%r9, %rax
	leaq	(%r9,%r12), %rdx
	movl	%ebp, %r14d
	andl	$-32, %r14d
	movupd	-32(%rax,%rbp), %xmm0
	movupd	-16(%rax,%rbp), %xmm1
	movupd	%xmm1, -16(%rdx,%rbp)
	movupd	%xmm0, -32(%rdx,%rbp)
	cmpq	$32, %r14
	je	.LBB2_668
	movupd	-64(%rax,%rbp), %xmm0
	movupd	-48(%rax,%rbp), %xmm1
	movupd	%xmm1, -48(%rdx,%rbp)
	movupd	%xmm0, -64(%rdx,%rbp)
	cmpl	$64, %r14d
	je	.LBB2_668
	movupd	-96(%rax,%rbp), %xmm0
	movupd	-80(%rax,%rbp), %xmm1
	movupd	%xmm1, -80(%rdx,%rbp)
	movupd	%xmm0, -96(%rdx,%rbp)
	cmpl	$96, %r14d
	je	.LBB2_668
	movupd	-128(%rax,%rbp), %xmm0
	movupd	-112(%rax,%rbp), %xmm1
	movupd	%xmm1, -112(%rdx,%rbp)
	movupd	%xmm0, -128(%rdx,%rbp)
	cmpl	$128, %r14d
	je	.LBB2_668
	movupd	-160(%rax,%rbp), %xmm0
	movupd	-144(%rax,%rbp), %xmm1
	movupd	%xmm1, -144(%rdx,%rbp)
	movupd	%xmm0, -160(%rdx,%rbp)
	cmpl	$160, %r14d
	je	.LBB2_668
	movupd	-192(%rax,%rbp), %xmm0
	movupd	-176(%rax,%rbp), %xmm1
	movupd	%xmm1, -176(%rdx,%rbp)
	movupd	%xmm0, -192(%rdx,%rbp)
	cmpl	$192, %r14d
	je	.LBB2_668
	movupd	-224(%rax,%rbp), %xmm0
	movupd	-208(%rax,%rbp), %xmm1
	movupd	%xmm1, -208(%rdx,%rbp)
	movupd	%xmm0, -224(%rdx,%rbp)
.LBB2_668:
	cmpl	%ebp, %r14d
	movq	%rbx, %rdi
	movq	%r11, %rdx
	movq	%r15, %r8
	movzbl	40(%rsp), %r13d
	movq	32(%rsp), %r12
	je	.LBB2_680
	testb	$24, %bpl
	je	.LBB2_914
.LBB2_670:
	movl	%ebp, %eax
	andl	$-8, %eax
	movl	%ebp, %r10d
	andl	$7, %r10d
	movq	%r15, %r8
	movq	%r15, %rcx
	subq	%r14, %rcx
	addq	%r9, %rcx
	addq	$-8, %rcx
	movq	%rcx, %rdx
	subq	%rsi, %rdx
	subq	%rax, %r14
	xorl	%edi, %edi
.LBB2_671:
	movq	(%rcx,%rdi), %r15
	movq	%r15, (%rdx,%rdi)
	addq	$-8, %rdi
	cmpq	%rdi, %r14
	jne	.LBB2_671
	cmpl	%ebp, %eax
	movq	%rbx, %rdi
	movq	%r11, %rdx
	movzbl	40(%rsp), %r13d
	movq	32(%rsp), %r12
	je	.LBB2_680
.LBB2_673:
	leaq	-1(%r10), %r11
	movq	%r10, %rax
	andq	$3, %rax
	je	.LBB2_677
.LBB2_674:
	leaq	(%r10,%r8), %rcx
	decq	%rcx
	negq	%r10
	movq	%rcx, %rbx
	subq	%rsi, %rbx
	subq	%rbp, %rbx
	addq	%r9, %rbx
	subq	%rbp, %rcx
	addq	%r9, %rcx
	negq	%rax
	xorl	%r14d, %r14d
.LBB2_675:
	movzbl	(%rcx,%r14), %ebp
	movb	%bpl, (%rbx,%r14)
	incq	%r10
	decq	%r14
	cmpq	%r14, %rax
	jne	.LBB2_675
	negq	%r10
	movq	160(%rsp), %rbp
.LBB2_677:
	cmpl	$3, %r11d
	jb	.LBB2_680
	leaq	(%r10,%r8), %rax
	decq	%rax
	negq	%r10
	movq	%rax, %rcx
	subq	%rsi, %rcx
	subq	%rbp, %rcx
	addq	%r9, %rcx
	subq	%rbp, %rax
	addq	%r9, %rax
	xorl	%r9d, %r9d
.LBB2_679:
	movzbl	(%rax,%r9), %r11d
	movb	%r11b, (%rcx,%r9)
	movzbl	-1(%rax,%r9), %r11d
	movb	%r11b, -1(%rcx,%r9)
	movzbl	-2(%rax,%r9), %r11d
	movb	%r11b, -2(%rcx,%r9)
	movzbl	-3(%rax,%r9), %r11d
	movb	%r11b, -3(%rcx,%r9)
	addq	$-4, %r9
	cmpq	%r9, %r10
	jne	.LBB2_679
.LBB2_680:
	testb	%r13b, %r13b
	je	.LBB2_687
	addq	%rbp, %r12
	je	.LBB2_687
	movq	(%rdx), %rcx
	movq	16(%rdx), %r9
	movq	32(%rdx), %r10
	movq	%rsi, %r11
	testb	$1, %sil
	je	.LBB2_684
	leaq	-1(%rsi), %r11
	movzbl	-1(%rcx,%rsi), %eax
	movb	%al, -1(%rcx,%r8)
	movzbl	-1(%r9,%rsi), %eax
	movb	%al, -1(%r9,%r8)
	leaq	(%r11,%r11,2), %rax
	leaq	-3(%r8,%r8,2), %rbx
	movupd	(%r10,%rax,8), %xmm0
	movq	16(%r10,%rax,8), %rax
	movq	%rax, 16(%r10,%rbx,8)
	movupd	%xmm0, (%r10,%rbx,8)
.LBB2_684:
	cmpl	$1, %esi
	je	.LBB2_687
	leaq	(%r11,%r11,2), %rax
	leaq	-48(,%rax,8), %rbx
	leaq	-1(%r9), %r14
	leaq	(%r11,%r8), %rax
	shlq	$3, %rax
	leaq	(%rax,%rax,2), %r15
	leal	(,%rsi,8), %eax
	leaq	(%rax,%rax,2), %rax
	subq	%rax, %r15
	addq	$-24, %r15
	notq	%rsi
	addq	%r8, %rsi
	addq	%rsi, %r9
	addq	%rcx, %rsi
	decq	%rcx
	xorl	%r12d, %r12d
.LBB2_686:
	movzbl	(%rcx,%r11), %eax
	movb	%al, (%rsi,%r11)
	movzbl	(%r14,%r11), %eax
	movb	%al, (%r9,%r11)
	movups	24(%r10,%rbx), %xmm0
	movq	40(%r10,%rbx), %rax
	movq	%rax, 16(%r10,%r15)
	movups	%xmm0, (%r10,%r15)
	movzbl	-1(%rcx,%r11), %eax
	movb	%al, -1(%rsi,%r11)
	movzbl	-1(%r14,%r11), %eax
	movb	%al, -1(%r9,%r11)
	movupd	(%r10,%rbx), %xmm0
	movq	16(%r10,%rbx), %rax
	movq	%rax, -8(%r10,%r15)
	movupd	%xmm0, -24(%r10,%r15)
	addq	$2, %r12
	addq	$-48, %r10
	addq	$-2, %r14
	addq	$-2, %r9
	addq	$-2, %rsi
	addq	$-2, %rcx
	cmpq	%r12, %r11
	jne	.LBB2_686
.LBB2_687:
	movq	48(%rdx), %rax
	movb	%r13b, -1(%rax,%r8)
	jmp	.LBB2_66
.LBB2_690:
	movb	$12, %r15b
.LBB2_691:
	movq	%rbx, %rdi
	xorl	%ebx, %ebx
	movq	%r13, %r8
	movq	%r14, %rcx
	movq	64(%rsp), %r9
	jmp	.LBB2_955
.LBB2_692:
	movq	96(%rsp), %rax
	incq	%rax
	movq	%rax, 40(%rsp)
	movq	%r14, %rdi
	movq	%rbx, %rdx
	movq	%r13, %r8
	movq	56(%rsp), %rcx
	movq	32(%rsp), %r12
	movq	48(%rsp), %rsi
.LBB2_693:
	movb	$3, (%rsi)
	movq	16(%rdx), %rax
	movb	%bpl, (%rax)
	movq	32(%rdx), %rax
	movapd	.LCPI2_11(%rip), %xmm0
	movupd	%xmm0, (%rax)
	movq	$0, 16(%rax)
	movq	(%rdx), %rsi
	movq	16(%rdx), %rax
	movq	32(%rdx), %r9
	testq	%r12, %r12
	je	.LBB2_697
	testb	%bpl, %bpl
	je	.LBB2_717
	cmpb	$1, %bpl
	jne	.LBB2_712
.LBB2_696:
	xorl	%r15d, %r15d
	jmp	.LBB2_716
.LBB2_697:
	testb	%bpl, %bpl
	je	.LBB2_715
	movq	96(%rsp), %r11
	movq	%r11, %r10
	movq	%r11, %r13
	testb	$1, %r11b
	je	.LBB2_700
	leaq	-1(%r13), %r10
	movzbl	-1(%rsi,%r13), %r11d
	movb	%r11b, (%rsi,%r13)
	movzbl	-1(%rax,%r13), %r11d
	movb	%r11b, (%rax,%r13)
	leaq	(%r13,%r13,2), %r11
	movq	-8(%r9,%r11,8), %rbx
	movq	%rbx, 16(%r9,%r11,8)
	movupd	-24(%r9,%r11,8), %xmm0
	movupd	%xmm0, (%r9,%r11,8)
.LBB2_700:
	cmpb	$1, %bpl
	je	.LBB2_703
	leaq	(%r10,%r10,2), %r11
	leaq	(%r9,%r11,8), %r9
	movq	%r10, %r11
.LBB2_702:
	movzbl	-1(%rsi,%r10), %ebx
	movb	%bl, (%rsi,%r10)
	movzbl	-1(%rax,%r10), %ebx
	movb	%bl, (%rax,%r10)
	movq	-8(%r9), %rbx
	movq	%rbx, 16(%r9)
	movups	-24(%r9), %xmm0
	movups	%xmm0, (%r9)
	movzbl	-2(%rsi,%r10), %ebx
	movb	%bl, -1(%rsi,%r10)
	movzbl	-2(%rax,%r10), %ebx
	movb	%bl, -1(%rax,%r10)
	movq	-32(%r9), %r10
	movq	%r10, -8(%r9)
	movupd	-48(%r9), %xmm0
	movupd	%xmm0, -24(%r9)
	addq	$-48, %r9
	addq	$-2, %r11
	movq	%r11, %r10
	jne	.LBB2_702
.LBB2_703:
	movq	32(%rsp), %r12
	jmp	.LBB2_718
.LBB2_704:
	movb	$1, %r10b
	movzbl	289(%rsp), %r15d
	xorl	%r11d, %r11d
	movq	%r13, %rdi
	movq	%r14, %rdx
.LBB2_705:
	movq	80(%rsp), %r8
	movq	56(%rsp), %rcx
	movq	64(%rsp), %r9
.LBB2_706:
	movq	32(%rsp), %r13
.LBB2_707:
	xorl	%r14d, %r14d
	jmp	.LBB2_902
.LBB2_708:
	movzbl	(%rdx), %esi
	movb	%sil, 1(%rdx)
	movzbl	(%rcx), %edx
	movb	%dl, 1(%rcx)
	movq	16(%rax), %rcx
	movq	%rcx, 40(%rax)
	movupd	(%rax), %xmm0
	movupd	%xmm0, 24(%rax)
	movq	%r14, %rdi
	movq	%rbx, %rdx
	movl	$2, %ebx
	movq	80(%rsp), %r8
	movq	56(%rsp), %rcx
	movq	32(%rsp), %r12
	movq	96(%rsp), %r13
	jmp	.LBB2_719
.LBB2_709:
	movb	$17, %r15b
	movq	48(%rsp), %r14
	jmp	.LBB2_904
.LBB2_768:
	movb	$11, %r15b
	jmp	.LBB2_904
.LBB2_710:
	movb	$1, %r10b
	movb	$6, %r15b
	xorl	%r11d, %r11d
	xorl	%r14d, %r14d
	jmp	.LBB2_902
.LBB2_711:
	xorl	%r10d, %r10d
	xorl	%r15d, %r15d
	jmp	.LBB2_760
.LBB2_712:
	movq	96(%rsp), %r12
	movl	%r12d, %r10d
	andl	$-2, %r10d
	leaq	24(%r9), %r11
	leaq	(,%r8,8), %rbx
	leaq	(%rbx,%rbx,2), %rbx
	leal	(,%r12,8), %r15d
	leaq	(%r15,%r15,2), %r15
	subq	%r15, %rbx
	movq	%r8, %r15
	subq	%r12, %r15
	leaq	(%rax,%r15), %r14
	incq	%r14
	leaq	(%rsi,%r15), %r12
	incq	%r12
	xorl	%r15d, %r15d
.LBB2_713:
	movzbl	-1(%r12,%r15), %ebp
	movb	%bpl, 1(%rsi,%r15)
	movzbl	-1(%r14,%r15), %ebp
	movb	%bpl, 1(%rax,%r15)
	movups	-24(%r11,%rbx), %xmm0
	movq	-8(%r11,%rbx), %r13
	movq	%r13, 16(%r11)
	movups	%xmm0, (%r11)
	movzbl	(%r12,%r15), %ebp
	movb	%bpl, 2(%rsi,%r15)
	movzbl	(%r14,%r15), %ebp
	movb	%bpl, 2(%rax,%r15)
	addq	$2, %r15
	movupd	(%r11,%rbx), %xmm0
	movq	16(%r11,%rbx), %r13
	movq	%r13, 40(%r11)
	movupd	%xmm0, 24(%r11)
	addq	$48, %r11
	cmpq	%r15, %r10
	jne	.LBB2_713
.LBB2_714:
	testb	$1, 96(%rsp)
	jne	.LBB2_716
.LBB2_715:
	movq	32(%rsp), %r12
	jmp	.LBB2_717
.LBB2_716:
	movq	32(%rsp), %r12
	leaq	(%r15,%r12), %r10
	movzbl	(%rsi,%r10), %r11d
	movb	%r11b, 1(%rsi,%r15)
	movzbl	(%rax,%r10), %esi
	movb	%sil, 1(%rax,%r15)
	leaq	(%r10,%r10,2), %rax
	leaq	3(%r15,%r15,2), %rsi
	movupd	(%r9,%rax,8), %xmm0
	movq	16(%r9,%rax,8), %rax
	movq	%rax, 16(%r9,%rsi,8)
	movupd	%xmm0, (%r9,%rsi,8)
.LBB2_717:
	movq	96(%rsp), %r13
.LBB2_718:
	movq	40(%rsp), %rbx
.LBB2_719:
	subq	%r12, %rcx
	cmpq	%rbx, %rcx
	jb	.LBB2_934
	testq	%r12, %r12
	je	.LBB2_728
	testq	%rbx, %rbx
	je	.LBB2_728
	movq	(%rdx), %rax
	movq	16(%rdx), %rcx
	movq	32(%rdx), %rsi
	movq	%rbx, %r9
	testb	$1, %bl
	je	.LBB2_724
	leaq	-1(%rbx), %r9
	movzbl	-1(%rax,%rbx), %r10d
	leaq	(%rbx,%r12), %r11
	decq	%r11
	movb	%r10b, (%rax,%r11)
	movzbl	-1(%rcx,%rbx), %r10d
	movb	%r10b, (%rcx,%r11)
	leaq	(%r9,%r9,2), %r10
	leaq	(%r11,%r11,2), %r11
	movupd	(%rsi,%r10,8), %xmm0
	movq	16(%rsi,%r10,8), %r10
	movq	%r10, 16(%rsi,%r11,8)
	movupd	%xmm0, (%rsi,%r11,8)
.LBB2_724:
	cmpq	$1, %rbx
	je	.LBB2_728
	movq	%rbx, %r15
	leaq	(%r9,%r9,2), %r10
	leaq	-48(,%r10,8), %r10
	leaq	-1(%rcx), %r11
	leaq	(%r9,%r8), %rbx
	shlq	$3, %rbx
	leaq	(%rbx,%rbx,2), %rbx
	leal	(,%r13,8), %r14d
	leaq	(%r14,%r14,2), %r14
	subq	%r14, %rbx
	addq	$-24, %rbx
	notq	%r13
	addq	%r8, %r13
	addq	%r13, %rcx
	addq	%rax, %r13
	decq	%rax
	xorl	%r8d, %r8d
.LBB2_726:
	movzbl	(%rax,%r9), %ebp
	movb	%bpl, (%r13,%r9)
	movzbl	(%r11,%r9), %ebp
	movb	%bpl, (%rcx,%r9)
	movups	24(%rsi,%r10), %xmm0
	movq	40(%rsi,%r10), %r14
	movq	%r14, 16(%rsi,%rbx)
	movups	%xmm0, (%rsi,%rbx)
	movzbl	-1(%rax,%r9), %ebp
	movb	%bpl, -1(%r13,%r9)
	movzbl	-1(%r11,%r9), %ebp
	movb	%bpl, -1(%rcx,%r9)
	movupd	(%rsi,%r10), %xmm0
	movq	16(%rsi,%r10), %r14
	movq	%r14, -8(%rsi,%rbx)
	movupd	%xmm0, -24(%rsi,%rbx)
	addq	$2, %r8
	addq	$-48, %rsi
	addq	$-2, %r11
	addq	$-2, %rcx
	addq	$-2, %r13
	addq	$-2, %rax
	cmpq	%r8, %r9
	jne	.LBB2_726
	movq	%r15, %rbx
.LBB2_728:
	movq	48(%rdx), %rax
	addq	%r12, %rax
	movb	%bl, -1(%rbx,%rax)
	addq	%r12, %rbx
	xorl	%eax, %eax
	xorl	%r15d, %r15d
	xorl	%ecx, %ecx
	movq	%rbx, %r8
	jmp	.LBB2_971
.LBB2_729:
	movb	$17, %r15b
	jmp	.LBB2_904
.LBB2_730:
	movb	$17, %r15b
	movq	%r12, %r13
	jmp	.LBB2_904
.LBB2_731:
	movq	%r9, 64(%rsp)
	movq	%rdi, 72(%rsp)
	movq	%rdx, 120(%rsp)
	movq	(%rdx), %rax
	movq	%rax, 48(%rsp)
	movb	$15, %r15b
	movq	%r8, 80(%rsp)
	cmpq	%r8, %r12
	jae	.LBB2_861
	movq	120(%rsp), %rax
	movq	16(%rax), %rbx
	movq	32(%rsp), %r14
.LBB2_733:
	movzbl	(%rbx,%r14), %eax
	movq	%rax, 40(%rsp)
	movq	48(%rsp), %rax
	movzbl	(%rax,%r14), %ebp
	incq	%r14
	movq	32(%rsp), %r12
.LBB2_734:
	movzbl	(%rbx,%r12), %r13d
	movq	48(%rsp), %rax
	movzbl	(%rax,%r12), %ecx
	incq	%r12
	movq	%rbx, 8(%rsp)
	movq	%rax, (%rsp)
	movq	$3, 16(%rsp)
	movzbl	%bpl, %edi
	movq	%r14, %rsi
	movq	40(%rsp), %rdx
	movq	%r12, %r8
	movq	%r13, %r9
	callq	"arithmetic::multiply::can_pair"
	testb	%al, %al
	je	.LBB2_852
	addq	%r13, %r12
	cmpq	80(%rsp), %r12
	jb	.LBB2_734
	addq	40(%rsp), %r14
	cmpq	80(%rsp), %r14
	jb	.LBB2_733
	jmp	.LBB2_861
.LBB2_737:
	movq	%r12, %r14
	jmp	.LBB2_780
.LBB2_738:
	movq	136(%rsp), %r10
	andl	$-32, %r10d
	movq	32(%rsp), %rsi
	movq	40(%rsp), %r11
	movdqu	(%r11,%rsi), %xmm4
	movdqu	16(%r11,%rsi), %xmm3
	movdqa	.LCPI2_14(%rip), %xmm2
	cmpq	$32, %r10
	jne	.LBB2_781
	pcmpeqb	%xmm2, %xmm4
	pcmpeqb	%xmm2, %xmm3
	movdqa	%xmm4, %xmm0
	movdqa	%xmm3, %xmm1
	jmp	.LBB2_787
.LBB2_740:
	ucomisd	%xmm0, %xmm2
	jne	.LBB2_851
	jp	.LBB2_851
	movsd	.LCPI2_0(%rip), %xmm0
	ucomisd	%xmm0, %xmm1
	jne	.LBB2_851
	jp	.LBB2_851
	testb	%r12b, %r12b
	je	.LBB2_915
	movl	$3, %ecx
	movq	96(%rsp), %rdi
	movq	%rbp, %rsi
	movq	160(%rsp), %rdx
	callq	"sums::order::nests_inside"
	testb	%al, %al
	je	.LBB2_916
	cmpb	$63, %r12b
	jbe	.LBB2_973
	movb	$11, %r15b
	jmp	.LBB2_917
.LBB2_746:
	movzbl	(%rsi,%r14), %edi
	movb	%dil, 1(%rsi)
	movzbl	(%rcx,%r14), %esi
	movb	%sil, 1(%rcx)
	movdqu	(%rax,%r12), %xmm0
	movq	16(%rax,%r12), %rcx
	movq	%rcx, 40(%rax)
.LBB2_747:
	movdqu	%xmm0, 24(%rax)
	movl	$2, %r11d
	xorl	%r10d, %r10d
	xorl	%r15d, %r15d
	xorl	%r14d, %r14d
	jmp	.LBB2_847
.LBB2_748:
	movq	96(%rsp), %rax
	incq	%rax
	movq	%rax, 40(%rsp)
	movq	%r12, %rdx
.LBB2_749:
	movb	$2, (%r15)
	movq	16(%rdx), %rax
	movb	%bpl, (%rax)
	movq	32(%rdx), %rax
	movq	$0, (%rax)
	movsd	.LCPI2_0(%rip), %xmm0
	movupd	%xmm0, 8(%rax)
	movq	(%rdx), %rcx
	movq	16(%rdx), %rax
	movq	%rdx, %r12
	movq	32(%rdx), %rdx
	cmpq	$0, 32(%rsp)
	je	.LBB2_753
	testb	%bpl, %bpl
	je	.LBB2_775
	cmpb	$1, %bpl
	jne	.LBB2_771
	xorl	%r10d, %r10d
	jmp	.LBB2_774
.LBB2_753:
	testb	%bpl, %bpl
	je	.LBB2_775
	movq	96(%rsp), %rdi
	movq	%rdi, %rsi
	testb	$1, %dil
	je	.LBB2_756
	movq	96(%rsp), %r8
	leaq	-1(%r8), %rsi
	movzbl	-1(%rcx,%r8), %edi
	movb	%dil, (%rcx,%r8)
	movzbl	-1(%rax,%r8), %edi
	movb	%dil, (%rax,%r8)
	leaq	(%r8,%r8,2), %rdi
	movq	-8(%rdx,%rdi,8), %r8
	movq	%r8, 16(%rdx,%rdi,8)
	movupd	-24(%rdx,%rdi,8), %xmm0
	movupd	%xmm0, (%rdx,%rdi,8)
.LBB2_756:
	cmpb	$1, %bpl
	je	.LBB2_775
	leaq	(%rsi,%rsi,2), %rdi
	leaq	(%rdx,%rdi,8), %r8
	movq	%rsi, %rdi
.LBB2_758:
	movzbl	-1(%rcx,%rsi), %edx
	movb	%dl, (%rcx,%rsi)
	movzbl	-1(%rax,%rsi), %edx
	movb	%dl, (%rax,%rsi)
	movq	-8(%r8), %rdx
	movq	%rdx, 16(%r8)
	movups	-24(%r8), %xmm0
	movups	%xmm0, (%r8)
	movzbl	-2(%rcx,%rsi), %edx
	movb	%dl, -1(%rcx,%rsi)
	movzbl	-2(%rax,%rsi), %edx
	movb	%dl, -1(%rax,%rsi)
	movq	-32(%r8), %rdx
	movq	%rdx, -8(%r8)
	movupd	-48(%r8), %xmm0
	movupd	%xmm0, -24(%r8)
	addq	$-48, %r8
	xorl	%edx, %edx
	addq	$-2, %rdi
	movq	%rdi, %rsi
	jne	.LBB2_758
	jmp	.LBB2_776
.LBB2_759:
	movb	$6, %r15b
	movb	$1, %r10b
.LBB2_760:
	xorl	%r11d, %r11d
	movq	32(%rsp), %r13
.LBB2_761:
	movq	72(%rsp), %rdi
	movq	120(%rsp), %rdx
	movq	80(%rsp), %r8
	movq	56(%rsp), %rcx
	movq	64(%rsp), %r9
	jmp	.LBB2_902
.LBB2_762:
	movb	$11, %r15b
	jmp	.LBB2_778
.LBB2_763:
	movb	$11, %r15b
	jmp	.LBB2_780
.LBB2_764:
	movb	$14, %r15b
.LBB2_765:
	movq	72(%rsp), %rdi
	movq	%rbx, %rdx
	movq	%r14, %r9
	movq	32(%rsp), %r13
	movq	%r12, %r14
	jmp	.LBB2_904
.LBB2_766:
	movb	$17, %r15b
	jmp	.LBB2_957
.LBB2_866:
	movq	%r12, %r13
	jmp	.LBB2_904
.LBB2_769:
	movb	$12, %r15b
	jmp	.LBB2_778
.LBB2_770:
	movb	$12, %r15b
	jmp	.LBB2_780
.LBB2_771:
	movq	96(%rsp), %r11
	movl	%r11d, %esi
	andl	$-2, %esi
	leaq	24(%rdx), %rdi
	leaq	(,%r13,8), %r8
	leaq	(%r8,%r8,2), %r8
	leal	(,%r11,8), %r10d
	leaq	(%r10,%r10,2), %r10
	subq	%r10, %r8
	movq	%r13, %r10
	subq	%r11, %r10
	leaq	(%rax,%r10), %r9
	incq	%r9
	leaq	(%rcx,%r10), %r11
	incq	%r11
	xorl	%r10d, %r10d
.LBB2_772:
	movzbl	-1(%r11,%r10), %ebp
	movb	%bpl, 1(%rcx,%r10)
	movzbl	-1(%r9,%r10), %ebp
	movb	%bpl, 1(%rax,%r10)
	movups	-24(%rdi,%r8), %xmm0
	movq	-8(%rdi,%r8), %r15
	movq	%r15, 16(%rdi)
	movups	%xmm0, (%rdi)
	movzbl	(%r11,%r10), %ebp
	movb	%bpl, 2(%rcx,%r10)
	movzbl	(%r9,%r10), %ebp
	movb	%bpl, 2(%rax,%r10)
	addq	$2, %r10
	movupd	(%rdi,%r8), %xmm0
	movq	16(%rdi,%r8), %r15
	movq	%r15, 40(%rdi)
	movupd	%xmm0, 24(%rdi)
	addq	$48, %rdi
	cmpq	%r10, %rsi
	jne	.LBB2_772
	testb	$1, 96(%rsp)
	je	.LBB2_775
.LBB2_774:
	movq	32(%rsp), %rsi
	addq	%r10, %rsi
	movzbl	(%rcx,%rsi), %edi
	movb	%dil, 1(%rcx,%r10)
	movzbl	(%rax,%rsi), %ecx
	movb	%cl, 1(%rax,%r10)
	leaq	(%rsi,%rsi,2), %rax
	leaq	3(%r10,%r10,2), %rcx
	movupd	(%rdx,%rax,8), %xmm0
	movq	16(%rdx,%rax,8), %rax
	movq	%rax, 16(%rdx,%rcx,8)
	movupd	%xmm0, (%rdx,%rcx,8)
.LBB2_775:
	xorl	%edx, %edx
.LBB2_776:
	xorl	%r15d, %r15d
	movq	%rbx, %rdi
	movq	%r13, %r8
	movq	%r14, %rcx
	movq	64(%rsp), %r9
	movq	40(%rsp), %rbx
	jmp	.LBB2_955
.LBB2_777:
	movq	72(%rsp), %rdi
	movq	120(%rsp), %rdx
	movq	64(%rsp), %r9
.LBB2_778:
	movq	32(%rsp), %r13
	movq	48(%rsp), %r14
	jmp	.LBB2_904
.LBB2_779:
	movq	72(%rsp), %rdi
	movq	120(%rsp), %rdx
	movq	64(%rsp), %r9
	movq	48(%rsp), %r14
.LBB2_780:
	movq	32(%rsp), %r13
	jmp	.LBB2_904
.LBB2_781:
	pcmpeqb	%xmm2, %xmm3
	pcmpeqb	%xmm2, %xmm4
	movq	32(%rsp), %rsi
	movq	40(%rsp), %r11
	movdqu	32(%r11,%rsi), %xmm0
	movdqu	48(%r11,%rsi), %xmm1
	pcmpeqb	%xmm2, %xmm0
	pand	%xmm4, %xmm0
	pcmpeqb	%xmm2, %xmm1
	pand	%xmm3, %xmm1
	cmpl	$64, %r10d
	je	.LBB2_787
	movq	32(%rsp), %rsi
	movq	40(%rsp), %r11
	movdqu	64(%r11,%rsi), %xmm3
	movdqu	80(%r11,%rsi), %xmm4
	pcmpeqb	%xmm2, %xmm3
	pcmpeqb	%xmm2, %xmm4
	pand	%xmm3, %xmm0
	pand	%xmm4, %xmm1
	cmpl	$96, %r10d
	je	.LBB2_787
	movq	32(%rsp), %rsi
	movq	40(%rsp), %r11
	movdqu	96(%r11,%rsi), %xmm3
	movdqu	112(%r11,%rsi), %xmm4
	pcmpeqb	%xmm2, %xmm3
	pcmpeqb	%xmm2, %xmm4
	pand	%xmm3, %xmm0
	pand	%xmm4, %xmm1
	cmpl	$128, %r10d
	je	.LBB2_787
	movq	32(%rsp), %rsi
	movq	40(%rsp), %r11
	movdqu	128(%r11,%rsi), %xmm3
	movdqu	144(%r11,%rsi), %xmm4
	pcmpeqb	%xmm2, %xmm3
	pcmpeqb	%xmm2, %xmm4
	pand	%xmm3, %xmm0
	pand	%xmm4, %xmm1
	cmpl	$160, %r10d
	je	.LBB2_787
	movq	32(%rsp), %rsi
	movq	40(%rsp), %r11
	movdqu	160(%r11,%rsi), %xmm3
	movdqu	176(%r11,%rsi), %xmm4
	pcmpeqb	%xmm2, %xmm3
	pcmpeqb	%xmm2, %xmm4
	pand	%xmm3, %xmm0
	pand	%xmm4, %xmm1
	cmpl	$192, %r10d
	je	.LBB2_787
	movq	32(%rsp), %rsi
	movq	40(%rsp), %r11
	movdqu	192(%r11,%rsi), %xmm3
	movdqu	208(%r11,%rsi), %xmm4
	pcmpeqb	%xmm2, %xmm3
	pcmpeqb	%xmm2, %xmm4
	pand	%xmm3, %xmm0
	pand	%xmm4, %xmm1
.LBB2_787:
	pand	%xmm1, %xmm0
	psllw	$7, %xmm0
	pmovmskb	%xmm0, %esi
	cmpl	$65535, %esi
	sete	%sil
	cmpl	136(%rsp), %r10d
	jne	.LBB2_789
	movq	136(%rsp), %r12
	movq	88(%rsp), %rbx
	movq	40(%rsp), %rbp
	jmp	.LBB2_794
.LBB2_789:
	testb	$28, 136(%rsp)
	je	.LBB2_984
.LBB2_790:
	movq	136(%rsp), %r12
	movl	%r12d, %ebx
	andl	$-4, %ebx
	movq	32(%rsp), %r11
	addq	%rbx, %r11
	movzbl	%sil, %esi
	movd	%esi, %xmm1
	movaps	.LCPI2_15(%rip), %xmm0
	movss	%xmm1, %xmm0
	leaq	(%r10,%r8), %rsi
	subq	160(%rsp), %rsi
	subq	%r12, %rsi
	addq	40(%rsp), %rsi
	movq	%rbx, %r12
	subq	%r10, %r12
	xorl	%r10d, %r10d
.LBB2_791:
	movd	(%rsi,%r10), %xmm1
	punpcklbw	%xmm1, %xmm1
	punpcklwd	%xmm1, %xmm1
	pcmpeqb	.LCPI2_14(%rip), %xmm1
	andps	%xmm1, %xmm0
	addq	$4, %r10
	cmpq	%r10, %r12
	jne	.LBB2_791
	pslld	$31, %xmm0
	movmskps	%xmm0, %esi
	xorl	$15, %esi
	sete	%sil
	movq	136(%rsp), %r12
	cmpl	%r12d, %ebx
	movq	88(%rsp), %rbx
	movq	40(%rsp), %rbp
	je	.LBB2_794
.LBB2_793:
	cmpb	$1, (%rbp,%r11)
	sete	%r10b
	andb	%r10b, %sil
	incq	%r11
	cmpq	%r11, %rbx
	jne	.LBB2_793
.LBB2_794:
	cmpq	%r8, %rbx
	jae	.LBB2_813
	movb	$1, %al
	movq	%rbx, %r11
	cmpb	$4, 48(%rsp)
	jb	.LBB2_812
	movq	%rbx, %rbp
	cmpb	$32, 48(%rsp)
	jae	.LBB2_798
	xorl	%r10d, %r10d
	jmp	.LBB2_809
.LBB2_798:
	movq	160(%rsp), %r10
	andl	$-32, %r10d
	movq	40(%rsp), %r11
	movdqu	(%r11,%rbp), %xmm4
	movdqu	16(%r11,%rbp), %xmm3
	movdqa	.LCPI2_14(%rip), %xmm2
	cmpq	$32, %r10
	jne	.LBB2_800
	pcmpeqb	%xmm2, %xmm4
	pcmpeqb	%xmm2, %xmm3
	movdqa	%xmm4, %xmm0
	movdqa	%xmm3, %xmm1
	jmp	.LBB2_806
.LBB2_800:
	pcmpeqb	%xmm2, %xmm3
	pcmpeqb	%xmm2, %xmm4
	movq	40(%rsp), %r11
	movdqu	32(%r11,%rbp), %xmm0
	movdqu	48(%r11,%rbp), %xmm1
	pcmpeqb	%xmm2, %xmm0
	pand	%xmm4, %xmm0
	pcmpeqb	%xmm2, %xmm1
	pand	%xmm3, %xmm1
	cmpl	$64, %r10d
	je	.LBB2_806
	movq	40(%rsp), %r11
	movdqu	64(%r11,%rbp), %xmm3
	movdqu	80(%r11,%rbp), %xmm4
	pcmpeqb	%xmm2, %xmm3
	pcmpeqb	%xmm2, %xmm4
	pand	%xmm3, %xmm0
	pand	%xmm4, %xmm1
	cmpl	$96, %r10d
	je	.LBB2_806
	movq	40(%rsp), %r11
	movdqu	96(%r11,%rbp), %xmm3
	movdqu	112(%r11,%rbp), %xmm4
	pcmpeqb	%xmm2, %xmm3
	pcmpeqb	%xmm2, %xmm4
	pand	%xmm3, %xmm0
	pand	%xmm4, %xmm1
	cmpl	$128, %r10d
	je	.LBB2_806
	movq	40(%rsp), %r11
	movdqu	128(%r11,%rbp), %xmm3
	movdqu	144(%r11,%rbp), %xmm4
	pcmpeqb	%xmm2, %xmm3
	pcmpeqb	%xmm2, %xmm4
	pand	%xmm3, %xmm0
	pand	%xmm4, %xmm1
	cmpl	$160, %r10d
	je	.LBB2_806
	movq	40(%rsp), %r11
	movdqu	160(%r11,%rbp), %xmm3
	movdqu	176(%r11,%rbp), %xmm4
	pcmpeqb	%xmm2, %xmm3
	pcmpeqb	%xmm2, %xmm4
	pand	%xmm3, %xmm0
	pand	%xmm4, %xmm1
	cmpl	$192, %r10d
	je	.LBB2_806
	movq	40(%rsp), %r11
	movdqu	192(%r11,%rbp), %xmm3
	movdqu	208(%r11,%rbp), %xmm4
	pcmpeqb	%xmm2, %xmm3
	pcmpeqb	%xmm2, %xmm4
	pand	%xmm3, %xmm0
	pand	%xmm4, %xmm1
.LBB2_806:
	pand	%xmm1, %xmm0
	psllw	$7, %xmm0
	pmovmskb	%xmm0, %eax
	cmpl	$65535, %eax
	sete	%al
	cmpl	160(%rsp), %r10d
	jne	.LBB2_808
	movq	136(%rsp), %r12
	movq	%rbp, %rbx
	movq	40(%rsp), %rbp
	jmp	.LBB2_813
.LBB2_808:
	testb	$28, 160(%rsp)
	je	.LBB2_985
.LBB2_809:
	movq	160(%rsp), %rbx
	andl	$-4, %ebx
	leaq	(%rbx,%rbp), %r11
	movzbl	%al, %eax
	movd	%eax, %xmm1
	movaps	.LCPI2_15(%rip), %xmm0
	movss	%xmm1, %xmm0
	movq	40(%rsp), %rax
	addq	%rbp, %rax
.LBB2_810:
	movd	(%rax,%r10), %xmm1
	punpcklbw	%xmm1, %xmm1
	punpcklwd	%xmm1, %xmm1
	pcmpeqb	.LCPI2_14(%rip), %xmm1
	andps	%xmm1, %xmm0
	addq	$4, %r10
	cmpq	%r10, %rbx
	jne	.LBB2_810
	pslld	$31, %xmm0
	movmskps	%xmm0, %eax
	xorl	$15, %eax
	sete	%al
	cmpl	160(%rsp), %ebx
	movq	136(%rsp), %r12
	movq	%rbp, %rbx
	movq	40(%rsp), %rbp
	je	.LBB2_813
.LBB2_812:
	cmpb	$1, (%rbp,%r11)
	sete	%r10b
	andb	%r10b, %al
	incq	%r11
	cmpq	%r11, %r8
	jne	.LBB2_812
.LBB2_813:
	andb	%al, %sil
	cmpb	$1, %sil
	movq	32(%rsp), %r10
	jne	.LBB2_838
	cmpq	%rbx, %r10
	jae	.LBB2_849
	movq	%rbx, 88(%rsp)
	cmpq	%r8, %rbx
	jae	.LBB2_849
	pxor	%xmm0, %xmm0
	xorl	%eax, %eax
	movq	32(%rsp), %rsi
	movq	%rsi, 48(%rsp)
	movq	%r9, 64(%rsp)
	movq	%rdi, 72(%rsp)
	movq	%rcx, 56(%rsp)
.LBB2_817:
	movq	32(%rdx), %rcx
	movq	48(%rsp), %rsi
	leaq	(%rsi,%rsi,2), %rsi
	movsd	(%rcx,%rsi,8), %xmm1
	movupd	8(%rcx,%rsi,8), %xmm2
	movapd	%xmm2, %xmm3
	shufpd	$1, %xmm2, %xmm3
	movq	88(%rsp), %r12
	jmp	.LBB2_820
.LBB2_818:
	movq	(%rdx), %rcx
.LBB2_819:
	addq	%rax, %rcx
	movb	$1, (%r10,%rcx)
	addq	16(%rdx), %rax
	movb	$0, (%r10,%rax)
	movq	32(%rdx), %rax
	movsd	%xmm5, -8(%rax,%r9)
	movupd	%xmm4, (%rax,%r9)
	movq	%r15, %rax
	incq	%r12
	cmpq	%r8, %r12
	je	.LBB2_837
.LBB2_820:
	movq	32(%rdx), %rbp
	leaq	(%r12,%r12,2), %rsi
	movsd	(%rbp,%rsi,8), %xmm5
	addsd	%xmm1, %xmm5
	movapd	%xmm5, %xmm4
	subsd	%xmm5, %xmm4
	ucomisd	%xmm0, %xmm4
	jne	.LBB2_863
	jp	.LBB2_863
	movq	(%rdx), %rcx
	movq	16(%rdx), %rdi
	movsd	8(%rbp,%rsi,8), %xmm4
	movsd	16(%rbp,%rsi,8), %xmm6
	unpcklpd	%xmm6, %xmm6
	mulpd	%xmm3, %xmm6
	unpcklpd	%xmm4, %xmm4
	mulpd	%xmm2, %xmm4
	movapd	%xmm4, %xmm7
	subpd	%xmm6, %xmm7
	addpd	%xmm6, %xmm4
	movsd	%xmm7, %xmm4
	movapd	%xmm5, %xmm6
	leaq	(%rax,%rax,2), %rsi
	leaq	8(,%rsi,8), %r13
	xorl	%r11d, %r11d
.LBB2_822:
	movq	%r11, %r10
	movq	%r13, %r9
	movq	%rax, %rbx
	addq	%r11, %rbx
	je	.LBB2_825
	movsd	-32(%rbp,%r9), %xmm7
	ucomisd	%xmm7, %xmm6
	seta	%r11b
	incb	%r11b
	xorl	%r13d, %r13d
	ucomisd	%xmm6, %xmm7
	movzbl	%r11b, %r15d
	cmoval	%r13d, %r15d
	leaq	-1(%r10), %r11
	leaq	-24(%r9), %r13
	testb	%r15b, %r15b
	je	.LBB2_822
	movzbl	%r15b, %r11d
	cmpl	$2, %r11d
	jne	.LBB2_834
.LBB2_825:
	xorpd	%xmm6, %xmm6
	addpd	%xmm6, %xmm4
	movapd	%xmm4, %xmm6
	subpd	%xmm4, %xmm6
	movapd	%xmm6, %xmm7
	xorl	%r11d, %r11d
	ucomisd	%xmm0, %xmm7
	movb	$14, %r15b
	jne	.LBB2_900
	jp	.LBB2_900
	unpckhpd	%xmm6, %xmm6
	ucomisd	%xmm0, %xmm6
	jne	.LBB2_900
	jp	.LBB2_900
	leaq	1(%rax), %r15
	cmpq	$64, %r15
	ja	.LBB2_898
	cmpq	%rax, %rbx
	jae	.LBB2_819
	movq	%r10, %r11
	negq	%r11
	movq	%rax, %r13
	testb	$1, %r11b
	je	.LBB2_831
	leaq	-1(%rax), %r13
	movzbl	-1(%rcx,%rax), %r11d
	movb	%r11b, (%rcx,%rax)
	movzbl	-1(%rdi,%rax), %r11d
	movb	%r11b, (%rdi,%rax)
	movq	-8(%rbp,%rsi,8), %r11
	movq	%r11, 16(%rbp,%rsi,8)
	movupd	-24(%rbp,%rsi,8), %xmm6
	movupd	%xmm6, (%rbp,%rsi,8)
.LBB2_831:
	cmpq	$-1, %r10
	je	.LBB2_818
	leaq	(,%r13,2), %rsi
	addq	%r13, %rsi
	leaq	(,%rsi,8), %rsi
	addq	%rbp, %rsi
.LBB2_833:
	movzbl	-1(%rcx,%r13), %r11d
	movb	%r11b, (%rcx,%r13)
	movzbl	-1(%rdi,%r13), %r11d
	movb	%r11b, (%rdi,%r13)
	movq	-8(%rsi), %r11
	movq	%r11, 16(%rsi)
	movups	-24(%rsi), %xmm6
	movups	%xmm6, (%rsi)
	movzbl	-2(%rcx,%r13), %r11d
	movb	%r11b, -1(%rcx,%r13)
	movzbl	-2(%rdi,%r13), %r11d
	movb	%r11b, -1(%rdi,%r13)
	addq	$-2, %r13
	movq	-32(%rsi), %r11
	movq	%r11, -8(%rsi)
	movupd	-48(%rsi), %xmm6
	movupd	%xmm6, -24(%rsi)
	addq	$-48, %rsi
	cmpq	%r13, %rbx
	jb	.LBB2_833
	jmp	.LBB2_818
.LBB2_834:
	movupd	(%rbp,%r13), %xmm5
	addpd	%xmm5, %xmm4
	movapd	%xmm4, %xmm5
	subpd	%xmm4, %xmm5
	movapd	%xmm5, %xmm6
	xorl	%r11d, %r11d
	ucomisd	%xmm0, %xmm6
	movb	$14, %r15b
	jne	.LBB2_900
	jp	.LBB2_900
	unpckhpd	%xmm5, %xmm5
	ucomisd	%xmm0, %xmm5
	movq	72(%rsp), %rdi
	movq	56(%rsp), %rcx
	movq	64(%rsp), %r9
	movb	$1, %r10b
	jne	.LBB2_901
	jp	.LBB2_901
	movupd	%xmm4, (%rbp,%r13)
	incq	%r12
	cmpq	%r8, %r12
	jne	.LBB2_820
.LBB2_837:
	movq	48(%rsp), %rsi
	incq	%rsi
	xorl	%r10d, %r10d
	movl	$0, %r15d
	movq	%rax, %r11
	movq	%rsi, 48(%rsp)
	cmpq	88(%rsp), %rsi
	movq	72(%rsp), %rdi
	movq	56(%rsp), %rcx
	movq	64(%rsp), %r9
	jne	.LBB2_817
	jmp	.LBB2_901
.LBB2_838:
	movq	%r9, 64(%rsp)
	movq	%rcx, 56(%rsp)
	movq	%rdi, 72(%rsp)
	cmpq	%rbx, %r10
	movq	%rbx, %r13
	jae	.LBB2_846
	movq	%r10, %rax
	cmpq	%r8, %r13
	jae	.LBB2_845
	movq	%r10, %rbx
	movq	%rdx, 120(%rsp)
	movq	%r8, 80(%rsp)
	movq	%r13, 88(%rsp)
.LBB2_841:
	movzbl	(%r15,%rbx), %eax
	movq	%rax, 48(%rsp)
	movzbl	(%rbp,%rbx), %r12d
	incq	%rbx
.LBB2_842:
	movzbl	(%r15,%r13), %ebp
	movq	40(%rsp), %rax
	movzbl	(%rax,%r13), %ecx
	incq	%r13
	movq	%r15, 8(%rsp)
	movq	%rax, (%rsp)
	movq	$3, 16(%rsp)
	movzbl	%r12b, %edi
	movq	%rbx, %rsi
	movq	48(%rsp), %rdx
	movq	%r13, %r8
	movq	%rbp, %r9
	callq	"arithmetic::multiply::can_pair"
	testb	%al, %al
	je	.LBB2_850
	addq	%rbp, %r13
	cmpq	80(%rsp), %r13
	jb	.LBB2_842
	addq	48(%rsp), %rbx
	movq	88(%rsp), %r13
	cmpq	%r13, %rbx
	movq	120(%rsp), %rdx
	movq	80(%rsp), %r8
	movq	32(%rsp), %r10
	movq	136(%rsp), %r12
	movq	40(%rsp), %rbp
	jb	.LBB2_841
	jmp	.LBB2_846
.LBB2_845:
	movzbl	(%r15,%rax), %ecx
	addq	%rcx, %rax
	incq	%rax
	cmpq	%r13, %rax
	jb	.LBB2_845
.LBB2_846:
	movq	$4, 8(%rsp)
	movq	$0, (%rsp)
	leaq	736(%rsp), %rdi
	movq	%rdx, %rsi
	movq	%rdx, %rbx
	movq	%r10, %rdx
	movq	%r12, %rcx
	movq	%r8, %r15
	movq	%r13, %r8
	movq	160(%rsp), %r9
	callq	"arithmetic::multiply::expr_mul"
	movq	%r15, %r8
	movq	%rbx, %rdx
	movzbl	736(%rsp), %r10d
	movzbl	737(%rsp), %r15d
	movq	744(%rsp), %r11
.LBB2_847:
	movq	72(%rsp), %rdi
.LBB2_848:
	movq	56(%rsp), %rcx
	movq	64(%rsp), %r9
	jmp	.LBB2_901
.LBB2_849:
	xorl	%r10d, %r10d
	xorl	%r15d, %r15d
	xorl	%r11d, %r11d
	jmp	.LBB2_901
.LBB2_850:
	movb	$6, %r15b
	movb	$1, %r10b
	xorl	%r11d, %r11d
	movq	72(%rsp), %rdi
	movq	120(%rsp), %rdx
	movq	80(%rsp), %r8
	jmp	.LBB2_848
.LBB2_851:
	movq	72(%rsp), %rdi
	movq	120(%rsp), %rdx
	movq	80(%rsp), %r8
	movq	56(%rsp), %rcx
	movq	64(%rsp), %r9
	movq	32(%rsp), %r13
	xorl	%r11d, %r11d
	movb	$1, %r10b
	xorl	%r14d, %r14d
	jmp	.LBB2_902
.LBB2_852:
	movb	$6, %r15b
	jmp	.LBB2_861
.LBB2_853:
	movl	$1, %r15d
.LBB2_854:
	movb	$3, (%r12)
	movq	16(%rbx), %rax
	movb	%r13b, (%rax)
	movq	32(%rbx), %rax
	movsd	48(%rsp), %xmm0
	movsd	%xmm0, (%rax)
	movsd	.LCPI2_0(%rip), %xmm0
	movupd	%xmm0, 8(%rax)
	movq	(%rbx), %rcx
	movq	16(%rbx), %rax
	movq	32(%rbx), %rdx
	cmpq	$0, 32(%rsp)
	je	.LBB2_892
	testb	%r13b, %r13b
	je	.LBB2_929
	cmpb	$1, %r13b
	jne	.LBB2_926
	xorl	%r10d, %r10d
	jmp	.LBB2_931
.LBB2_858:
	movb	$11, %r15b
	jmp	.LBB2_957
.LBB2_859:
	movb	$11, %r15b
	jmp	.LBB2_861
.LBB2_860:
	movb	$12, %r15b
.LBB2_861:
	movq	72(%rsp), %rdi
	movq	120(%rsp), %rdx
.LBB2_862:
	movq	64(%rsp), %r9
	jmp	.LBB2_957
.LBB2_863:
	movb	$17, %r15b
	jmp	.LBB2_899
.LBB2_864:
	xorl	%ebx, %ebx
	movq	%r9, %rdx
	movq	32(%rsp), %r12
	jmp	.LBB2_728
.LBB2_867:
	movq	%r9, %rdx
	jmp	.LBB2_862
.LBB2_868:
	movq	%rax, %r12
	movl	%r12d, %ebx
	andl	$-2, %ebx
	movq	%r8, %r11
	leaq	(,%r8,8), %r14
	leaq	(%r14,%r14,2), %r14
	leal	(,%rax,8), %r15d
	leaq	(%r15,%r15,2), %r15
	subq	%r15, %r14
	subq	%rax, %r11
	leaq	(%r10,%r11), %r15
	incq	%r15
	movq	48(%rsp), %rcx
	leaq	(%rcx,%r11), %r12
	incq	%r12
	xorl	%r11d, %r11d
	movq	%rdx, %r13
.LBB2_869:
	movzbl	-1(%r12,%r11), %ebp
	movb	%bpl, (%rcx,%r11)
	movzbl	-1(%r15,%r11), %ebp
	movb	%bpl, (%r10,%r11)
	movups	(%r13,%r14), %xmm2
	movq	16(%r13,%r14), %rbp
	movq	%rbp, 16(%r13)
	movups	%xmm2, (%r13)
	movzbl	(%r12,%r11), %ebp
	movb	%bpl, 1(%rcx,%r11)
	movzbl	(%r15,%r11), %ebp
	movb	%bpl, 1(%r10,%r11)
	movupd	24(%r13,%r14), %xmm2
	movq	40(%r13,%r14), %rbp
	movq	%rbp, 40(%r13)
	movupd	%xmm2, 24(%r13)
	addq	$2, %r11
	addq	$48, %r13
	cmpq	%r11, %rbx
	jne	.LBB2_869
	testb	$1, %al
	je	.LBB2_872
.LBB2_871:
	movq	32(%rsp), %rbx
	addq	%r11, %rbx
	movq	48(%rsp), %rcx
	movzbl	(%rcx,%rbx), %ebp
	movb	%bpl, (%rcx,%r11)
	movzbl	(%r10,%rbx), %ebp
	movb	%bpl, (%r10,%r11)
	leaq	(%rbx,%rbx,2), %r10
	leaq	(%r11,%r11,2), %r11
	movupd	(%rdx,%r10,8), %xmm2
	movq	16(%rdx,%r10,8), %r10
	movq	%r10, 16(%rdx,%r11,8)
	movupd	%xmm2, (%rdx,%r11,8)
.LBB2_872:
	testb	$1, %sil
	je	.LBB2_880
	movabsq	$4607182418800017408, %rsi
	xorl	%r10d, %r10d
	xorl	%r11d, %r11d
	movq	%r9, %rdx
	movq	%rax, %r13
.LBB2_874:
	movq	(%rdx), %rcx
	movq	32(%rdx), %rax
	cmpb	$1, (%rcx,%r11)
	je	.LBB2_876
	xorpd	%xmm1, %xmm1
	jmp	.LBB2_877
.LBB2_876:
	movsd	(%rax,%r10), %xmm1
	mulsd	.LCPI2_5(%rip), %xmm1
.LBB2_877:
	movapd	%xmm1, %xmm2
	subsd	%xmm1, %xmm2
	ucomisd	%xmm0, %xmm2
	jne	.LBB2_918
	jp	.LBB2_918
	movsd	%xmm1, (%rax,%r10)
	movq	%rsi, 8(%rax,%r10)
	movq	$0, 16(%rax,%r10)
	incq	%r11
	addq	$24, %r10
	cmpq	%r11, %r13
	jne	.LBB2_874
	movq	%r13, %rbx
	jmp	.LBB2_993
.LBB2_880:
	ucomisd	%xmm1, %xmm0
	jbe	.LBB2_919
	movabsq	$4607182418800017408, %rdx
	xorl	%esi, %esi
	xorl	%r10d, %r10d
.LBB2_882:
	movq	(%r9), %rcx
	movq	32(%r9), %r11
	movq	%rcx, 48(%rsp)
	cmpb	$1, (%rcx,%r10)
	je	.LBB2_884
	xorpd	%xmm1, %xmm1
	jmp	.LBB2_885
.LBB2_884:
	movsd	(%r11,%rsi), %xmm1
	mulsd	.LCPI2_5(%rip), %xmm1
.LBB2_885:
	movapd	%xmm1, %xmm2
	subsd	%xmm1, %xmm2
	ucomisd	%xmm0, %xmm2
	jne	.LBB2_994
	jp	.LBB2_994
	movsd	%xmm1, (%r11,%rsi)
	movq	%rdx, 8(%r11,%rsi)
	movq	$0, 16(%r11,%rsi)
	incq	%r10
	addq	$24, %rsi
	cmpq	%r10, %rax
	jne	.LBB2_882
	jmp	.LBB2_992
.LBB2_887:
	movb	$17, %r15b
	xorl	%r11d, %r11d
	movq	32(%rsp), %r13
	movb	$1, %r10b
	jmp	.LBB2_761
.LBB2_888:
	movq	264(%rsp), %rax
	testq	%rax, %rax
	je	.LBB2_891
	movq	%rax, %rbx
	movq	(%r12), %rdx
	movq	16(%r12), %rcx
	movq	32(%r12), %rax
	cmpq	$1, %rbx
	jne	.LBB2_949
.LBB2_227:
	xorl	%esi, %esi
	jmp	.LBB2_952
.LBB2_891:
	xorl	%edx, %edx
	xorl	%r15d, %r15d
	xorl	%ebx, %ebx
	jmp	.LBB2_954
.LBB2_892:
	testb	%r13b, %r13b
	je	.LBB2_929
	movq	136(%rsp), %rdi
	movq	%rdi, %rsi
	testb	$1, %dil
	je	.LBB2_895
	movq	136(%rsp), %r8
	leaq	-1(%r8), %rsi
	movzbl	-1(%rcx,%r8), %edi
	movb	%dil, (%rcx,%r8)
	movzbl	-1(%rax,%r8), %edi
	movb	%dil, (%rax,%r8)
	leaq	(%r8,%r8,2), %rdi
	movq	-8(%rdx,%rdi,8), %r8
	movq	%r8, 16(%rdx,%rdi,8)
	movupd	-24(%rdx,%rdi,8), %xmm0
	movupd	%xmm0, (%rdx,%rdi,8)
.LBB2_895:
	cmpb	$1, %r13b
	je	.LBB2_929
	leaq	(%rsi,%rsi,2), %rdi
	leaq	(%rdx,%rdi,8), %rdi
	movq	%rsi, %rdx
.LBB2_897:
	movzbl	-1(%rcx,%rsi), %r8d
	movb	%r8b, (%rcx,%rsi)
	movzbl	-1(%rax,%rsi), %r8d
	movb	%r8b, (%rax,%rsi)
	movq	-8(%rdi), %r8
	movq	%r8, 16(%rdi)
	movups	-24(%rdi), %xmm0
	movups	%xmm0, (%rdi)
	movzbl	-2(%rcx,%rsi), %r8d
	movb	%r8b, -1(%rcx,%rsi)
	movzbl	-2(%rax,%rsi), %r8d
	movb	%r8b, -1(%rax,%rsi)
	movq	-32(%rdi), %rsi
	movq	%rsi, -8(%rdi)
	movupd	-48(%rdi), %xmm0
	movupd	%xmm0, -24(%rdi)
	addq	$-48, %rdi
	xorl	%r14d, %r14d
	addq	$-2, %rdx
	movq	%rdx, %rsi
	jne	.LBB2_897
	jmp	.LBB2_930
.LBB2_898:
	movb	$11, %r15b
.LBB2_899:
	xorl	%r11d, %r11d
.LBB2_900:
	movq	72(%rsp), %rdi
	movq	56(%rsp), %rcx
	movq	64(%rsp), %r9
	movb	$1, %r10b
.LBB2_901:
	movq	32(%rsp), %r13
.LBB2_902:
	testb	%r10b, %r10b
	je	.LBB2_933
	movq	(%rdx), %r14
.LBB2_904:
	cmpq	$129, %r13
	jb	.LBB2_967
	movq	32(%rdx), %rax
	movq	48(%rdx), %rcx
	xorpd	%xmm0, %xmm0
	movsd	.LCPI2_0(%rip), %xmm1
	movq	%r13, %rdx
	jmp	.LBB2_907
.LBB2_906:
	movq	%rdx, %r13
	cmpq	$128, %rdx
	jbe	.LBB2_967
.LBB2_907:
	movzbl	-1(%rcx,%r13), %r11d
	subq	%r11, %rdx
	cmpq	%r13, %rdx
	jae	.LBB2_906
	movq	%r11, %rsi
	negq	%rsi
	leaq	(%r14,%r13), %r8
	shlq	$3, %r13
	leaq	(,%r13,2), %r10
	addq	%r13, %r10
	shll	$3, %r11d
	leaq	(%r11,%r11,2), %r11
	subq	%r11, %r10
	addq	%rax, %r10
	jmp	.LBB2_910
.LBB2_909:
	addq	$24, %r10
	incq	%rsi
	je	.LBB2_906
.LBB2_910:
	cmpb	$1, (%r8,%rsi)
	jne	.LBB2_909
	movsd	(%r10), %xmm2
	ucomisd	%xmm0, %xmm2
	jne	.LBB2_912
	jnp	.LBB2_909
.LBB2_912:
	ucomisd	%xmm1, %xmm2
	jne	.LBB2_966
	jnp	.LBB2_909
	jmp	.LBB2_966
.LBB2_914:
	movl	%ebp, %r10d
	andl	$31, %r10d
	movq	%rbx, %rdi
	movq	%r11, %rdx
	movq	%r15, %r8
	movzbl	40(%rsp), %r13d
	movq	32(%rsp), %r12
	leaq	-1(%r10), %r11
	movq	%r10, %rax
	andq	$3, %rax
	jne	.LBB2_674
	jmp	.LBB2_677
.LBB2_915:
	movl	$1, %eax
	jmp	.LBB2_974
.LBB2_916:
	movb	$12, %r15b
.LBB2_917:
	xorl	%r11d, %r11d
	movq	72(%rsp), %rdi
	movq	120(%rsp), %rdx
	movq	80(%rsp), %r8
	movq	56(%rsp), %rcx
	movq	64(%rsp), %r9
	movq	32(%rsp), %r13
	movb	$1, %r10b
	xorl	%r14d, %r14d
	jmp	.LBB2_902
.LBB2_918:
	movq	%rcx, 48(%rsp)
	movb	$17, %r15b
	jmp	.LBB2_862
.LBB2_919:
	jne	.LBB2_986
	jp	.LBB2_986
	movabsq	$4607182418800017408, %rdx
	xorl	%esi, %esi
	xorl	%r10d, %r10d
.LBB2_921:
	movq	(%r9), %rcx
	movq	32(%r9), %r11
	movq	%rcx, 48(%rsp)
	cmpb	$1, (%rcx,%r10)
	je	.LBB2_923
	xorpd	%xmm1, %xmm1
	jmp	.LBB2_924
.LBB2_923:
	movsd	(%r11,%rsi), %xmm1
	mulsd	.LCPI2_5(%rip), %xmm1
.LBB2_924:
	movapd	%xmm1, %xmm2
	subsd	%xmm1, %xmm2
	ucomisd	%xmm0, %xmm2
	jne	.LBB2_994
	jp	.LBB2_994
	movsd	%xmm1, (%r11,%rsi)
	movq	%rdx, 8(%r11,%rsi)
	movq	$0, 16(%r11,%rsi)
	incq	%r10
	addq	$24, %rsi
	cmpq	%r10, %rax
	jne	.LBB2_921
	jmp	.LBB2_992
.LBB2_926:
	movq	136(%rsp), %r14
	movl	%r14d, %esi
	andl	$-2, %esi
	leaq	24(%rdx), %rdi
	movq	80(%rsp), %r9
	leaq	(,%r9,8), %r8
	leaq	(%r8,%r8,2), %r8
	leal	(,%r14,8), %r10d
	leaq	(%r10,%r10,2), %r10
	subq	%r10, %r8
	movq	160(%rsp), %r11
	leal	(,%r11,8), %r10d
	leaq	(%r10,%r10,2), %r10
	subq	%r10, %r8
	movq	%r9, %r10
	subq	%r11, %r10
	subq	%r14, %r10
	leaq	(%rax,%r10), %r9
	incq	%r9
	leaq	(%rcx,%r10), %r11
	incq	%r11
	xorl	%r10d, %r10d
.LBB2_927:
	movzbl	-1(%r11,%r10), %ebp
	movb	%bpl, 1(%rcx,%r10)
	movzbl	-1(%r9,%r10), %ebp
	movb	%bpl, 1(%rax,%r10)
	movups	-24(%rdi,%r8), %xmm0
	movq	-8(%rdi,%r8), %r14
	movq	%r14, 16(%rdi)
	movups	%xmm0, (%rdi)
	movzbl	(%r11,%r10), %ebp
	movb	%bpl, 2(%rcx,%r10)
	movzbl	(%r9,%r10), %ebp
	movb	%bpl, 2(%rax,%r10)
	addq	$2, %r10
	movupd	(%rdi,%r8), %xmm0
	movq	16(%rdi,%r8), %r14
	movq	%r14, 40(%rdi)
	movupd	%xmm0, 24(%rdi)
	addq	$48, %rdi
	cmpq	%r10, %rsi
	jne	.LBB2_927
	testb	$1, 136(%rsp)
	jne	.LBB2_931
.LBB2_929:
	xorl	%r14d, %r14d
.LBB2_930:
	movq	72(%rsp), %rdi
	movq	%rbx, %rdx
	movq	80(%rsp), %r8
	movq	56(%rsp), %rcx
	movq	32(%rsp), %r13
	jmp	.LBB2_932
.LBB2_931:
	movq	32(%rsp), %r13
	leaq	(%r10,%r13), %rsi
	movzbl	(%rcx,%rsi), %edi
	movb	%dil, 1(%rcx,%r10)
	movzbl	(%rax,%rsi), %ecx
	movb	%cl, 1(%rax,%r10)
	leaq	(%rsi,%rsi,2), %rax
	leaq	3(%r10,%r10,2), %rcx
	movupd	(%rdx,%rax,8), %xmm0
	movq	16(%rdx,%rax,8), %rax
	movq	%rax, 16(%rdx,%rcx,8)
	movupd	%xmm0, (%rdx,%rcx,8)
	xorl	%r14d, %r14d
	movq	72(%rsp), %rdi
	movq	%rbx, %rdx
	movq	80(%rsp), %r8
	movq	56(%rsp), %rcx
.LBB2_932:
	movq	%r15, %r11
.LBB2_933:
	subq	%r13, %rcx
	cmpq	%r11, %rcx
	jae	.LBB2_935
.LBB2_934:
	movb	$11, %r15b
	movb	$1, %al
	xorl	%ecx, %ecx
	jmp	.LBB2_970
.LBB2_935:
	testq	%r13, %r13
	je	.LBB2_943
	testq	%r11, %r11
	je	.LBB2_943
	movq	(%rdx), %rax
	movq	16(%rdx), %rcx
	movq	32(%rdx), %rbx
	movq	%r11, %rsi
	testb	$1, %r11b
	je	.LBB2_939
	leaq	-1(%r11), %rsi
	movzbl	-1(%rax,%r11), %r9d
	leaq	(%r11,%r13), %r10
	decq	%r10
	movb	%r9b, (%rax,%r10)
	movzbl	-1(%rcx,%r11), %r9d
	movb	%r9b, (%rcx,%r10)
	leaq	(%rsi,%rsi,2), %r9
	leaq	(%r10,%r10,2), %r10
	movupd	(%rbx,%r9,8), %xmm0
	movq	16(%rbx,%r9,8), %r9
	movq	%r9, 16(%rbx,%r10,8)
	movupd	%xmm0, (%rbx,%r10,8)
.LBB2_939:
	cmpq	$1, %r11
	movq	160(%rsp), %r12
	je	.LBB2_943
	movq	%r11, 40(%rsp)
	leaq	(%rsi,%rsi,2), %r9
	leaq	(%rbx,%r9,8), %r9
	leaq	-1(%rcx), %r10
	leaq	(%rsi,%r8), %r11
	shlq	$3, %r11
	leaq	(%r11,%r11,2), %r11
	movq	136(%rsp), %rbp
	leal	(%r12,%rbp), %r15d
	shll	$3, %r15d
	leaq	(%r15,%r15,2), %r15
	subq	%r15, %r11
	addq	%rbx, %r11
	notq	%rbp
	addq	%r8, %rbp
	subq	%r12, %rbp
	movq	%rbp, %r12
	addq	%rbp, %rcx
	addq	%rax, %r12
	decq	%rax
	movq	$-24, %r8
	xorl	%ebx, %ebx
.LBB2_941:
	movzbl	(%rax,%rsi), %ebp
	movb	%bpl, (%r12,%rsi)
	movzbl	(%r10,%rsi), %ebp
	movb	%bpl, (%rcx,%rsi)
	movups	(%r9,%r8), %xmm0
	movq	16(%r9,%r8), %r15
	movq	%r15, 16(%r11,%r8)
	movups	%xmm0, (%r11,%r8)
	movzbl	-1(%rax,%rsi), %ebp
	movb	%bpl, -1(%r12,%rsi)
	movzbl	-1(%r10,%rsi), %ebp
	movb	%bpl, -1(%rcx,%rsi)
	movupd	-24(%r9,%r8), %xmm0
	movq	-8(%r9,%r8), %r15
	movq	%r15, -8(%r11,%r8)
	movupd	%xmm0, -24(%r11,%r8)
	addq	$2, %rbx
	addq	$-48, %r8
	addq	$-2, %r10
	addq	$-2, %rcx
	addq	$-2, %r12
	addq	$-2, %rax
	cmpq	%rbx, %rsi
	jne	.LBB2_941
	movq	40(%rsp), %r11
.LBB2_943:
	movq	48(%rdx), %rax
	addq	%r13, %rax
	movb	%r11b, -1(%r11,%rax)
	addq	%r13, %r11
	xorl	%eax, %eax
	xorl	%r15d, %r15d
	xorl	%ecx, %ecx
	movq	%r11, %r8
	jmp	.LBB2_972
.LBB2_944:
	movq	32(%rsp), %r13
	xorl	%r11d, %r11d
	movb	$1, %r10b
	jmp	.LBB2_761
.LBB2_949:
	movq	%rbx, %rdi
	andq	$-2, %rdi
	leaq	2272(%rsp), %r8
	xorl	%esi, %esi
	xorl	%r9d, %r9d
.LBB2_950:
	movzbl	608(%rsp,%rsi), %r10d
	movb	%r10b, (%rdx,%rsi)
	movzbl	416(%rsp,%rsi), %r10d
	movb	%r10b, (%rcx,%rsi)
	movups	(%r8,%r9), %xmm0
	movq	16(%r8,%r9), %r10
	movq	%r10, 16(%rax,%r9)
	movups	%xmm0, (%rax,%r9)
	movzbl	609(%rsp,%rsi), %r10d
	movb	%r10b, 1(%rdx,%rsi)
	movzbl	417(%rsp,%rsi), %r10d
	movb	%r10b, 1(%rcx,%rsi)
	movupd	24(%r8,%r9), %xmm0
	movq	40(%r8,%r9), %r10
	movq	%r10, 40(%rax,%r9)
	movupd	%xmm0, 24(%rax,%r9)
	addq	$2, %rsi
	addq	$48, %r9
	cmpq	%rsi, %rdi
	jne	.LBB2_950
.LBB2_951:
	testb	$1, %bl
	je	.LBB2_953
.LBB2_952:
	movzbl	608(%rsp,%rsi), %edi
	movb	%dil, (%rdx,%rsi)
	movzbl	416(%rsp,%rsi), %edx
	movb	%dl, (%rcx,%rsi)
	shlq	$3, %rsi
	leaq	(%rsi,%rsi,2), %rcx
	movupd	2272(%rsp,%rcx), %xmm0
	movq	2288(%rsp,%rcx), %rdx
	movq	%rdx, 16(%rax,%rcx)
	movupd	%xmm0, (%rax,%rcx)
.LBB2_953:
	xorl	%edx, %edx
	xorl	%r15d, %r15d
.LBB2_954:
	movq	%r14, %rdi
	movq	80(%rsp), %r8
	movq	56(%rsp), %rcx
	movq	%r13, %r9
.LBB2_955:
	testb	%dl, %dl
	movq	%r12, %rdx
	movq	32(%rsp), %r12
	movq	96(%rsp), %r13
	je	.LBB2_719
	movq	(%rdx), %rax
	movq	%rax, 48(%rsp)
.LBB2_957:
	movq	32(%rsp), %r10
	cmpq	$129, %r10
	jb	.LBB2_967
	movq	32(%rdx), %rax
	movq	48(%rdx), %rcx
	xorpd	%xmm0, %xmm0
	movsd	.LCPI2_0(%rip), %xmm1
	movq	%r10, %rdx
	jmp	.LBB2_960
.LBB2_959:
	movq	%rdx, %r10
	cmpq	$128, %rdx
	jbe	.LBB2_967
.LBB2_960:
	movzbl	-1(%rcx,%r10), %r11d
	subq	%r11, %rdx
	cmpq	%r10, %rdx
	jae	.LBB2_959
	movq	%r11, %rsi
	negq	%rsi
	movq	48(%rsp), %r8
	addq	%r10, %r8
	shlq	$3, %r10
	leaq	(%r10,%r10,2), %r10
	shll	$3, %r11d
	leaq	(%r11,%r11,2), %r11
	subq	%r11, %r10
	addq	%rax, %r10
	jmp	.LBB2_963
.LBB2_962:
	addq	$24, %r10
	incq	%rsi
	je	.LBB2_959
.LBB2_963:
	cmpb	$1, (%r8,%rsi)
	jne	.LBB2_962
	movsd	(%r10), %xmm2
	ucomisd	%xmm0, %xmm2
	jne	.LBB2_965
	jnp	.LBB2_962
.LBB2_965:
	ucomisd	%xmm1, %xmm2
	jne	.LBB2_966
	jnp	.LBB2_962
	jmp	.LBB2_966
.LBB2_967:
	xorl	%eax, %eax
.LBB2_968:
	cmpq	$2, %r9
	setae	%cl
	orb	%al, %cl
.LBB2_969:
	movb	$1, %al
.LBB2_970:
	xorl	%r8d, %r8d
.LBB2_971:
	xorl	%r14d, %r14d
.LBB2_972:
	movb	%al, (%rdi)
	movb	%r15b, 1(%rdi)
	movb	%cl, 2(%rdi)
	movq	%r8, 8(%rdi)
	movq	%r14, 16(%rdi)
	addq	$5352, %rsp
	popq	%rbx
	popq	%r12
	popq	%r13
	popq	%r14
	popq	%r15
	popq	%rbp
	retq
.LBB2_973:
	movq	160(%rsp), %rax
	incq	%rax
.LBB2_974:
	movq	%rax, 40(%rsp)
	movb	$2, (%r14)
	movq	120(%rsp), %rdx
	movq	16(%rdx), %rax
	movb	%r12b, (%rax)
	movq	32(%rdx), %rax
	movq	$0, (%rax)
	movsd	.LCPI2_0(%rip), %xmm0
	movupd	%xmm0, 8(%rax)
	movq	80(%rsp), %r9
	movq	(%rdx), %rcx
	movq	16(%rdx), %rax
	movq	32(%rdx), %rdx
	subq	160(%rsp), %r9
	jne	.LBB2_981
	testb	%r12b, %r12b
	je	.LBB2_999
	movq	80(%rsp), %rdi
	movq	%rdi, %rsi
	testb	$1, %dil
	je	.LBB2_978
	movq	80(%rsp), %rdi
	leaq	-1(%rdi), %rsi
	movzbl	-1(%rcx,%rdi), %r8d
	movb	%r8b, (%rcx,%rdi)
	movzbl	-1(%rax,%rdi), %r8d
	movb	%r8b, (%rax,%rdi)
	leaq	(%rdi,%rdi,2), %rdi
	movq	-8(%rdx,%rdi,8), %r8
	movq	%r8, 16(%rdx,%rdi,8)
	movupd	-24(%rdx,%rdi,8), %xmm0
	movupd	%xmm0, (%rdx,%rdi,8)
.LBB2_978:
	cmpq	$1, 80(%rsp)
	je	.LBB2_999
	leaq	(%rsi,%rsi,2), %rdi
	leaq	(%rdx,%rdi,8), %rdi
	movq	%rsi, %rdx
.LBB2_980:
	movzbl	-1(%rcx,%rsi), %r8d
	movb	%r8b, (%rcx,%rsi)
	movzbl	-1(%rax,%rsi), %r8d
	movb	%r8b, (%rax,%rsi)
	movq	-8(%rdi), %r8
	movq	%r8, 16(%rdi)
	movups	-24(%rdi), %xmm0
	movups	%xmm0, (%rdi)
	movzbl	-2(%rcx,%rsi), %r8d
	movb	%r8b, -1(%rcx,%rsi)
	movzbl	-2(%rax,%rsi), %r8d
	movb	%r8b, -1(%rax,%rsi)
	movq	-32(%rdi), %rsi
	movq	%rsi, -8(%rdi)
	movupd	-48(%rdi), %xmm0
	movupd	%xmm0, -24(%rdi)
	addq	$-48, %rdi
	xorl	%r15d, %r15d
	addq	$-2, %rdx
	movq	%rdx, %rsi
	jne	.LBB2_980
	jmp	.LBB2_1000
.LBB2_981:
	testb	%r12b, %r12b
	je	.LBB2_999
	cmpb	$1, %r12b
	jne	.LBB2_995
	xorl	%r9d, %r9d
	jmp	.LBB2_998
.LBB2_984:
	addq	32(%rsp), %r10
	movq	%r10, %r11
	movq	136(%rsp), %r12
	movq	88(%rsp), %rbx
	movq	40(%rsp), %rbp
	jmp	.LBB2_793
.LBB2_985:
	movq	%rbp, %rbx
	addq	%rbp, %r10
	movq	%r10, %r11
	movq	136(%rsp), %r12
	movq	40(%rsp), %rbp
	jmp	.LBB2_812
.LBB2_986:
	movl	$16, %edx
	movabsq	$4607182418800017408, %rsi
	xorl	%r10d, %r10d
.LBB2_987:
	movq	(%r9), %rcx
	movq	32(%r9), %r11
	movq	%rcx, 48(%rsp)
	cmpb	$1, (%rcx,%r10)
	je	.LBB2_989
	xorpd	%xmm1, %xmm1
	jmp	.LBB2_990
.LBB2_989:
	movsd	-16(%r11,%rdx), %xmm1
	mulsd	.LCPI2_5(%rip), %xmm1
.LBB2_990:
	movapd	%xmm1, %xmm2
	subsd	%xmm1, %xmm2
	ucomisd	%xmm0, %xmm2
	jne	.LBB2_994
	jp	.LBB2_994
	movsd	(%r11,%rdx), %xmm2
	mulsd	.LCPI2_5(%rip), %xmm2
	movsd	%xmm1, -16(%r11,%rdx)
	movq	%rsi, -8(%r11,%rdx)
	movsd	%xmm2, (%r11,%rdx)
	incq	%r10
	addq	$24, %rdx
	cmpq	%r10, %rax
	jne	.LBB2_987
.LBB2_992:
	movq	%rax, %r13
	movq	%rax, %rbx
	movq	%r9, %rdx
.LBB2_993:
	movq	56(%rsp), %rcx
	movq	32(%rsp), %r12
	jmp	.LBB2_719
.LBB2_994:
	movb	$17, %r15b
	movq	%r9, %rdx
	jmp	.LBB2_862
.LBB2_995:
	movq	160(%rsp), %r10
	movl	%r10d, %esi
	andl	$-2, %esi
	leaq	24(%rdx), %rdi
	movq	80(%rsp), %r8
	leaq	(,%r8,8), %r8
	leaq	(%r8,%r8,2), %r8
	leal	(,%r10,8), %r10d
	leaq	(%r10,%r10,2), %r10
	subq	%r10, %r8
	leaq	(%rax,%r9), %r10
	incq	%r10
	leaq	(%rcx,%r9), %r11
	incq	%r11
	xorl	%r9d, %r9d
.LBB2_996:
	movzbl	-1(%r11,%r9), %ebx
	movb	%bl, 1(%rcx,%r9)
	movzbl	-1(%r10,%r9), %ebx
	movb	%bl, 1(%rax,%r9)
	movups	-24(%rdi,%r8), %xmm0
	movq	-8(%rdi,%r8), %rbx
	movq	%rbx, 16(%rdi)
	movups	%xmm0, (%rdi)
	movzbl	(%r11,%r9), %ebx
	movb	%bl, 2(%rcx,%r9)
	movzbl	(%r10,%r9), %ebx
	movb	%bl, 2(%rax,%r9)
	addq	$2, %r9
	movupd	(%rdi,%r8), %xmm0
	movq	16(%rdi,%r8), %rbx
	movq	%rbx, 40(%rdi)
	movupd	%xmm0, 24(%rdi)
	addq	$48, %rdi
	cmpq	%r9, %rsi
	jne	.LBB2_996
	testb	$1, 160(%rsp)
	je	.LBB2_999
.LBB2_998:
	addq	%r9, %rbp
	movzbl	(%rcx,%rbp), %esi
	movb	%sil, 1(%rcx,%r9)
	movzbl	(%rax,%rbp), %ecx
	movb	%cl, 1(%rax,%r9)
	leaq	(%rbp,%rbp,2), %rax
	leaq	3(%r9,%r9,2), %rcx
	movupd	(%rdx,%rax,8), %xmm0
	movq	16(%rdx,%rax,8), %rax
	movq	%rax, 16(%rdx,%rcx,8)
	movupd	%xmm0, (%rdx,%rcx,8)
.LBB2_999:
	xorl	%r15d, %r15d
.LBB2_1000:
	xorl	%r10d, %r10d
	movq	72(%rsp), %rdi
	movq	120(%rsp), %rdx
	movq	80(%rsp), %r8
	movq	56(%rsp), %rcx
	movq	64(%rsp), %r9
	movq	32(%rsp), %r13
	movq	40(%rsp), %r11
	xorl	%r14d, %r14d
	jmp	.LBB2_902
.Lfunc_end2:
	.size	"stack::leaf::leaf", .Lfunc_end2-"stack::leaf::leaf"
	.section	".rodata.stack::leaf::leaf","a",@progbits
	.p2align	2, 0x0
.LJTI2_0:
	.long	.LBB2_29-.LJTI2_0
	.long	.LBB2_24-.LJTI2_0
	.long	.LBB2_28-.LJTI2_0
	.long	.LBB2_23-.LJTI2_0
	.long	.LBB2_32-.LJTI2_0
	.long	.LBB2_2-.LJTI2_0
	.long	.LBB2_2-.LJTI2_0
	.long	.LBB2_2-.LJTI2_0
	.long	.LBB2_2-.LJTI2_0
	.long	.LBB2_2-.LJTI2_0
	.long	.LBB2_27-.LJTI2_0
	.long	.LBB2_66-.LJTI2_0
	.long	.LBB2_2-.LJTI2_0
.LJTI2_1:
	.long	.LBB2_74-.LJTI2_1
	.long	.LBB2_201-.LJTI2_1
	.long	.LBB2_184-.LJTI2_1
	.long	.LBB2_243-.LJTI2_1
	.long	.LBB2_243-.LJTI2_1
	.long	.LBB2_243-.LJTI2_1
	.long	.LBB2_243-.LJTI2_1
	.long	.LBB2_243-.LJTI2_1
	.long	.LBB2_217-.LJTI2_1
	.long	.LBB2_228-.LJTI2_1
	.long	.LBB2_193-.LJTI2_1
	.long	.LBB2_203-.LJTI2_1
	.long	.LBB2_243-.LJTI2_1
	.long	.LBB2_243-.LJTI2_1
	.long	.LBB2_243-.LJTI2_1
	.long	.LBB2_243-.LJTI2_1
	.long	.LBB2_243-.LJTI2_1
	.long	.LBB2_243-.LJTI2_1
	.long	.LBB2_243-.LJTI2_1
	.long	.LBB2_243-.LJTI2_1
	.long	.LBB2_243-.LJTI2_1
	.long	.LBB2_243-.LJTI2_1
	.long	.LBB2_243-.LJTI2_1
	.long	.LBB2_243-.LJTI2_1
	.long	.LBB2_243-.LJTI2_1
	.long	.LBB2_243-.LJTI2_1
	.long	.LBB2_243-.LJTI2_1
	.long	.LBB2_205-.LJTI2_1
	.long	.LBB2_236-.LJTI2_1
	.long	.LBB2_243-.LJTI2_1
	.long	.LBB2_232-.LJTI2_1
	.long	.LBB2_180-.LJTI2_1
	.long	.LBB2_197-.LJTI2_1
.LJTI2_2:
	.long	.LBB2_40-.LJTI2_2
	.long	.LBB2_134-.LJTI2_2
	.long	.LBB2_147-.LJTI2_2
	.long	.LBB2_159-.LJTI2_2
	.long	.LBB2_173-.LJTI2_2
	.long	.LBB2_124-.LJTI2_2
	.long	.LBB2_124-.LJTI2_2
	.long	.LBB2_124-.LJTI2_2
	.long	.LBB2_124-.LJTI2_2
	.long	.LBB2_127-.LJTI2_2
	.long	.LBB2_124-.LJTI2_2
	.long	.LBB2_124-.LJTI2_2
	.long	.LBB2_124-.LJTI2_2
	.long	.LBB2_124-.LJTI2_2
	.long	.LBB2_124-.LJTI2_2
	.long	.LBB2_124-.LJTI2_2
	.long	.LBB2_124-.LJTI2_2
	.long	.LBB2_124-.LJTI2_2
	.long	.LBB2_124-.LJTI2_2
	.long	.LBB2_124-.LJTI2_2
	.long	.LBB2_124-.LJTI2_2
	.long	.LBB2_124-.LJTI2_2
	.long	.LBB2_124-.LJTI2_2
	.long	.LBB2_124-.LJTI2_2
	.long	.LBB2_124-.LJTI2_2
	.long	.LBB2_124-.LJTI2_2
	.long	.LBB2_137-.LJTI2_2
.LJTI2_3:
	.long	.LBB2_164-.LJTI2_3
	.long	.LBB2_167-.LJTI2_3
	.long	.LBB2_171-.LJTI2_3
	.long	.LBB2_162-.LJTI2_3

	.section	".text.sums::order::nests_inside","ax",@progbits
	.p2align	4
	.type	"sums::order::nests_inside",@function
"sums::order::nests_inside":
	pushq	%r15
	pushq	%r14
	pushq	%r13
	pushq	%r12
	pushq	%rbx
	movq	%rdx, %rbx
	testq	%rcx, %rcx
	je	.LBB3_1
	movq	%rsi, %r15
	addq	%rsi, %rbx
	movb	$1, %al
	cmpq	%rbx, %rsi
	jae	.LBB3_6
	movq	%rcx, %r14
	movq	%rdi, %r12
	decq	%r14
	.p2align	4
.LBB3_4:
	movzbl	(%r12,%r15), %r13d
	leaq	1(%r15), %rsi
	movq	%r12, %rdi
	movq	%r13, %rdx
	movq	%r14, %rcx
	callq	"sums::order::nests_inside"
	testb	%al, %al
	je	.LBB3_6
	addq	%r13, %r15
	incq	%r15
	cmpq	%rbx, %r15
	jb	.LBB3_4
	jmp	.LBB3_6
.LBB3_1:
	testq	%rbx, %rbx
	sete	%al
.LBB3_6:
	popq	%rbx
	popq	%r12
	popq	%r13
	popq	%r14
	popq	%r15
	retq
.Lfunc_end3:
	.size	"sums::order::nests_inside", .Lfunc_end3-"sums::order::nests_inside"

	.section	".text.sums::order::cmp_term","ax",@progbits
	.p2align	4
	.type	"sums::order::cmp_term",@function
"sums::order::cmp_term":
	pushq	%rbp
	pushq	%r15
	pushq	%r14
	pushq	%r13
	pushq	%r12
	pushq	%rbx
	subq	$136, %rsp
	movq	%r9, 8(%rsp)
	movq	%r8, %r14
	movq	%rdx, %r15
	movzbl	(%rsi), %eax
	movsd	8(%rsi), %xmm0
	movzbl	(%rcx), %edx
	movsd	8(%rcx), %xmm1
	xorl	%r8d, %r8d
	cmpb	%al, %dl
	movl	$0, %r9d
	adcb	$1, %r9b
	cmpb	%dl, %al
	movzbl	%r9b, %edx
	cmovbl	%r8d, %edx
	ucomisd	%xmm1, %xmm0
	seta	%al
	incb	%al
	ucomisd	%xmm0, %xmm1
	movzbl	%al, %eax
	cmoval	%r8d, %eax
	cmpb	$1, %dl
	cmovnel	%edx, %eax
	cmpb	$1, %al
	jne	.LBB4_11
	movzbl	1(%rsi), %r10d
	movzbl	1(%rcx), %ecx
	movq	16(%rdi), %r11
	addq	%r15, %r10
	xorl	%eax, %eax
	cmpq	%r10, %r15
	jae	.LBB4_4
	movq	%r15, %rdx
	.p2align	4
.LBB4_3:
	movzbl	(%r11,%rdx), %esi
	addq	%rsi, %rdx
	incq	%rdx
	incq	%rax
	cmpq	%r10, %rdx
	jb	.LBB4_3
.LBB4_4:
	addq	%r14, %rcx
	xorl	%edx, %edx
	xorl	%esi, %esi
	cmpq	%rcx, %r14
	jae	.LBB4_7
	movq	%r14, %r9
	.p2align	4
.LBB4_6:
	movzbl	(%r11,%r9), %r8d
	addq	%r8, %r9
	incq	%r9
	incq	%rsi
	cmpq	%rcx, %r9
	jb	.LBB4_6
.LBB4_7:
	cmpq	%rax, %rsi
	movl	$0, %ecx
	adcb	$1, %cl
	cmpq	%rsi, %rax
	movzbl	%cl, %ecx
	cmovbl	%edx, %ecx
	movl	$1, %eax
	cmovnel	%ecx, %eax
	setne	%cl
	cmpq	%r10, %r15
	setae	%dl
	orb	%cl, %dl
	jne	.LBB4_11
	movq	(%rdi), %rax
	movq	%rax, 32(%rsp)
	movq	32(%rdi), %r12
	decq	8(%rsp)
	movq	%r10, 24(%rsp)
	movq	%r11, 16(%rsp)
	.p2align	4
.LBB4_9:
	leaq	(%r15,%r15,2), %rax
	movsd	16(%r12,%rax,8), %xmm1
	movsd	%xmm1, 64(%rsp)
	movq	32(%rsp), %rdx
	movzbl	(%rdx,%r15), %ecx
	movzbl	(%r11,%r15), %ebx
	movb	%cl, 104(%rsp)
	movb	%bl, 105(%rsp)
	leaq	106(%rsp), %rcx
	movw	$0, 4(%rcx)
	movl	$0, (%rcx)
	movsd	8(%r12,%rax,8), %xmm0
	movsd	%xmm0, 56(%rsp)
	movups	(%r12,%rax,8), %xmm0
	movups	%xmm0, 112(%rsp)
	movsd	%xmm1, 128(%rsp)
	leaq	(%r14,%r14,2), %rax
	movsd	16(%r12,%rax,8), %xmm1
	movsd	%xmm1, 48(%rsp)
	movzbl	(%rdx,%r14), %ecx
	movzbl	(%r11,%r14), %r13d
	movb	%cl, 72(%rsp)
	movb	%r13b, 73(%rsp)
	leaq	74(%rsp), %rcx
	movw	$0, 4(%rcx)
	movl	$0, (%rcx)
	movsd	8(%r12,%rax,8), %xmm0
	movsd	%xmm0, 40(%rsp)
	movups	(%r12,%rax,8), %xmm0
	movups	%xmm0, 80(%rsp)
	movsd	%xmm1, 96(%rsp)
	incq	%r15
	incq	%r14
	leaq	104(%rsp), %rsi
	leaq	72(%rsp), %rcx
	movq	%rdi, %rbp
	movq	%r15, %rdx
	movq	%r14, %r8
	movq	8(%rsp), %r9
	callq	"sums::order::cmp_term"
	movsd	56(%rsp), %xmm0
	movsd	40(%rsp), %xmm1
	ucomisd	%xmm1, %xmm0
	seta	%cl
	incb	%cl
	xorl	%edx, %edx
	ucomisd	%xmm0, %xmm1
	movzbl	%cl, %ecx
	cmoval	%edx, %ecx
	movsd	64(%rsp), %xmm0
	movsd	48(%rsp), %xmm1
	ucomisd	%xmm1, %xmm0
	seta	%sil
	incb	%sil
	ucomisd	%xmm0, %xmm1
	movzbl	%sil, %esi
	cmoval	%edx, %esi
	cmpb	$1, %cl
	cmovnel	%ecx, %esi
	cmpb	$1, %al
	movzbl	%al, %eax
	cmovel	%esi, %eax
	cmpb	$1, %al
	jne	.LBB4_11
	addq	%rbx, %r15
	addq	%r13, %r14
	movq	24(%rsp), %r10
	cmpq	%r10, %r15
	movq	%rbp, %rdi
	movq	16(%rsp), %r11
	jb	.LBB4_9
.LBB4_11:
	addq	$136, %rsp
	popq	%rbx
	popq	%r12
	popq	%r13
	popq	%r14
	popq	%r15
	popq	%rbp
	retq
.Lfunc_end4:
	.size	"sums::order::cmp_term", .Lfunc_end4-"sums::order::cmp_term"

	.section	.rodata.cst8,"aM",@progbits,8
	.p2align	3, 0x0
.LCPI5_0:
	.quad	0x3ff0000000000000
	.section	.rodata.cst16,"aM",@progbits,16
	.p2align	4, 0x0
.LCPI5_1:
	.quad	0x8000000000000000
	.quad	0x8000000000000000
	.section	".text.powers::divide::div_term","ax",@progbits
	.p2align	4
	.type	"powers::divide::div_term",@function
"powers::divide::div_term":
	pushq	%rbp
	pushq	%r15
	pushq	%r14
	pushq	%r13
	pushq	%r12
	pushq	%rbx
	subq	$312, %rsp
	movq	%r9, %r15
	movq	%rsi, %r13
	movzbl	(%rdx), %eax
	movsd	8(%rdx), %xmm0
	movzbl	(%rcx), %esi
	movzbl	1(%rcx), %r14d
	movzbl	%r14b, %ebp
	leaq	.Lstatic.1(%rip), %r9
	leaq	(%r9,%rax,8), %r9
	movzbl	-9(%rsi,%r9), %r9d
	movupd	16(%rcx), %xmm1
	movapd	%xmm1, %xmm2
	mulpd	%xmm1, %xmm2
	movupd	16(%rdx), %xmm3
	movapd	%xmm1, %xmm6
	unpcklpd	%xmm1, %xmm6
	mulpd	%xmm3, %xmm6
	shufpd	$1, %xmm3, %xmm3
	unpckhpd	%xmm1, %xmm1
	mulpd	%xmm3, %xmm1
	movapd	%xmm6, %xmm3
	addpd	%xmm1, %xmm3
	subpd	%xmm1, %xmm6
	movsd	%xmm3, %xmm6
	movapd	%xmm2, %xmm1
	unpcklpd	%xmm2, %xmm1
	unpckhpd	%xmm2, %xmm2
	addpd	%xmm1, %xmm2
	divpd	%xmm2, %xmm6
	movapd	%xmm6, %xmm5
	shufpd	$1, %xmm6, %xmm5
	cmpl	$2, %r9d
	je	.LBB5_9
	movq	8(%rcx), %rcx
	xorpd	%xmm1, %xmm1
	mulpd	%xmm1, %xmm5
	movapd	%xmm6, %xmm1
	subpd	%xmm5, %xmm1
	addpd	%xmm6, %xmm5
	movsd	%xmm1, %xmm5
	cmpl	$3, %r9d
	jne	.LBB5_13
	movq	(%r13), %rax
	movb	%sil, 64(%rax)
	movq	16(%r13), %rax
	movb	%r14b, 64(%rax)
	movq	32(%r13), %rax
	movq	%rcx, 1536(%rax)
	movabsq	$4607182418800017408, %rcx
	movq	%rcx, 1544(%rax)
	movq	$0, 1552(%rax)
	movq	(%r13), %rdx
	movq	16(%r13), %rcx
	movq	32(%r13), %rax
	cmpq	$65, %r8
	movq	%r15, 16(%rsp)
	movq	%r14, 80(%rsp)
	jae	.LBB5_17
	testb	%r14b, %r14b
	je	.LBB5_76
	testb	$1, %bpl
	je	.LBB5_6
	leaq	(%r8,%rbp), %rsi
	decq	%rsi
	movzbl	(%rdx,%rsi), %r9d
	movb	%r9b, 64(%rdx,%rbp)
	movzbl	(%rcx,%rsi), %r9d
	movb	%r9b, 64(%rcx,%rbp)
	leaq	192(%rbp,%rbp,2), %r10
	decq	%rbp
	leaq	(%rsi,%rsi,2), %rsi
	movupd	(%rax,%rsi,8), %xmm0
	movq	16(%rax,%rsi,8), %rsi
	movq	%rsi, 16(%rax,%r10,8)
	movupd	%xmm0, (%rax,%r10,8)
.LBB5_6:
	cmpb	$1, %r14b
	je	.LBB5_76
	leaq	(%rdx,%r8), %rsi
	decq	%rsi
	leaq	(%rcx,%r8), %rbx
	decq	%rbx
	addq	%rbp, %r8
	leaq	(%r8,%r8,2), %r8
	leaq	-48(,%r8,8), %r8
	leaq	(,%rbp,8), %r9
	leaq	(%r9,%r9,2), %r9
	addq	$64, %rcx
	addq	$64, %rdx
	xorl	%r10d, %r10d
	.p2align	4
.LBB5_8:
	movzbl	(%rsi,%rbp), %r11d
	movb	%r11b, (%rdx,%rbp)
	movzbl	(%rbx,%rbp), %r11d
	movb	%r11b, (%rcx,%rbp)
	movups	24(%rax,%r8), %xmm0
	movq	40(%rax,%r8), %r11
	movq	%r11, 1552(%rax,%r9)
	movups	%xmm0, 1536(%rax,%r9)
	movzbl	-1(%rsi,%rbp), %r11d
	movb	%r11b, -1(%rdx,%rbp)
	movzbl	-1(%rbx,%rbp), %r11d
	movb	%r11b, -1(%rcx,%rbp)
	movupd	(%rax,%r8), %xmm0
	movq	16(%rax,%r8), %r11
	movq	%r11, 1528(%rax,%r9)
	movupd	%xmm0, 1512(%rax,%r9)
	addq	$-2, %rsi
	addq	$-2, %rbx
	addq	$-48, %rax
	addq	$-2, %rcx
	addq	$-2, %rdx
	addq	$2, %r10
	cmpq	%r10, %rbp
	jne	.LBB5_8
	jmp	.LBB5_76
.LBB5_9:
	xorps	%xmm7, %xmm7
	cmpb	$1, %al
	movapd	%xmm5, 112(%rsp)
	movapd	%xmm6, 224(%rsp)
	movq	%rdi, 72(%rsp)
	jne	.LBB5_20
	movapd	%xmm0, %xmm1
	ucomisd	%xmm7, %xmm1
	jne	.LBB5_20
	jp	.LBB5_20
	addq	%r8, %rbp
	cmpq	%rbp, %r8
	jae	.LBB5_54
	movq	%r15, %r12
	movq	%r13, 48(%rsp)
	movsd	%xmm7, 56(%rsp)
	movq	%rbp, 40(%rsp)
	jmp	.LBB5_109
.LBB5_13:
	cmpb	$1, %r9b
	jne	.LBB5_25
	movq	%rcx, %xmm1
	cmpb	$1, %al
	jne	.LBB5_55
	movapd	%xmm0, %xmm2
	xorpd	%xmm3, %xmm3
	ucomisd	%xmm3, %xmm2
	jne	.LBB5_55
	jp	.LBB5_55
	xorpd	.LCPI5_1(%rip), %xmm1
	movapd	%xmm1, %xmm0
	movq	(%r13), %rax
	xorl	%ecx, %ecx
	testq	%r15, %r15
	jne	.LBB5_56
	jmp	.LBB5_59
.LBB5_17:
	testb	%r14b, %r14b
	je	.LBB5_76
	cmpb	$1, %r14b
	jne	.LBB5_72
	xorl	%esi, %esi
	jmp	.LBB5_75
.LBB5_20:
	addq	%r8, %rbp
	cmpq	%rbp, %r8
	jae	.LBB5_54
	movq	(%r13), %rax
	movq	16(%r13), %rcx
	movq	%r8, %rdx
	.p2align	4
.LBB5_22:
	cmpb	$1, (%rax,%rdx)
	jne	.LBB5_103
	movzbl	(%rcx,%rdx), %esi
	addq	%rsi, %rdx
	incq	%rdx
	cmpq	%rbp, %rdx
	jb	.LBB5_22
	xorl	%r12d, %r12d
	jmp	.LBB5_28
.LBB5_25:
	movsd	.LCPI5_0(%rip), %xmm0
	movq	(%r13), %rax
	xorl	%ecx, %ecx
	testq	%r15, %r15
	jne	.LBB5_56
	jmp	.LBB5_59
.LBB5_26:
	movq	(%r13), %rax
.LBB5_27:
	movb	$1, (%rax,%rcx)
	movq	16(%r13), %rax
	movb	$0, (%rax,%rcx)
	leaq	(%rcx,%rcx,2), %rax
	movq	32(%r13), %rcx
	movsd	%xmm2, (%rcx,%rax,8)
	movupd	%xmm1, 8(%rcx,%rax,8)
	movq	%r10, %r12
	addq	%rdx, %r8
	incq	%r8
	cmpq	%rbp, %r8
	jae	.LBB5_52
.LBB5_28:
	movq	(%r13), %rax
	leaq	64(%r12), %rsi
	movq	%rsi, %rcx
	testq	%r12, %r12
	je	.LBB5_33
	movq	%r12, %rdx
	negq	%rdx
	movl	$64, %ecx
	.p2align	4
.LBB5_30:
	cmpb	$1, (%rax,%rcx)
	jne	.LBB5_33
	leaq	(%rdx,%rcx), %rdi
	incq	%rdi
	incq	%rcx
	cmpq	$64, %rdi
	jne	.LBB5_30
	movq	%rsi, %rcx
.LBB5_33:
	movq	32(%r13), %r9
	leaq	(%r8,%r8,2), %r10
	movsd	(%r9,%r10,8), %xmm2
	addsd	%xmm0, %xmm2
	movapd	%xmm2, %xmm1
	subsd	%xmm2, %xmm1
	ucomisd	%xmm7, %xmm1
	jne	.LBB5_274
	jp	.LBB5_274
	movq	16(%r13), %rdi
	movzbl	(%rdi,%r8), %edx
	movupd	8(%r9,%r10,8), %xmm3
	xorpd	%xmm4, %xmm4
	movapd	%xmm3, %xmm1
	shufpd	$1, %xmm3, %xmm1
	mulpd	%xmm4, %xmm1
	movapd	%xmm3, %xmm4
	subpd	%xmm1, %xmm4
	addpd	%xmm3, %xmm1
	movsd	%xmm4, %xmm1
	movapd	%xmm2, %xmm3
	leaq	(%rcx,%rcx,2), %r10
	leaq	(%r9,%r10,8), %r10
	addq	$8, %r10
	.p2align	4
.LBB5_35:
	cmpq	$65, %rcx
	jb	.LBB5_39
	decq	%rcx
	movsd	-32(%r10), %xmm4
	ucomisd	%xmm4, %xmm3
	seta	%r11b
	incb	%r11b
	xorl	%ebx, %ebx
	ucomisd	%xmm3, %xmm4
	movzbl	%r11b, %r11d
	cmoval	%ebx, %r11d
	addq	$-24, %r10
	testb	%r11b, %r11b
	je	.LBB5_35
	movzbl	%r11b, %r11d
	cmpl	$2, %r11d
	jne	.LBB5_49
	incq	%rcx
	jmp	.LBB5_40
.LBB5_39:
	movl	$64, %ecx
.LBB5_40:
	xorpd	%xmm3, %xmm3
	addpd	%xmm3, %xmm1
	movapd	%xmm1, %xmm3
	subpd	%xmm1, %xmm3
	movapd	%xmm3, %xmm4
	unpckhpd	%xmm3, %xmm4
	ucomisd	%xmm7, %xmm4
	movb	$14, %r11b
	jne	.LBB5_277
	jp	.LBB5_277
	ucomisd	%xmm7, %xmm3
	jne	.LBB5_277
	jp	.LBB5_277
	leaq	1(%r12), %r10
	cmpq	$64, %r10
	ja	.LBB5_275
	cmpq	%rsi, %rcx
	jae	.LBB5_27
	movl	%r12d, %ebx
	subl	%ecx, %ebx
	leaq	63(%r12), %r11
	testb	$1, %bl
	je	.LBB5_46
	movzbl	63(%rax,%r12), %ebx
	movb	%bl, 64(%rax,%r12)
	movzbl	63(%rdi,%r12), %ebx
	movb	%bl, 64(%rdi,%r12)
	leaq	(%r11,%r11,2), %rbx
	leaq	(%rsi,%rsi,2), %rsi
	movq	16(%r9,%rbx,8), %r14
	movq	%r14, 16(%r9,%rsi,8)
	movupd	(%r9,%rbx,8), %xmm3
	movupd	%xmm3, (%r9,%rsi,8)
	movq	%r11, %rsi
.LBB5_46:
	cmpq	%rcx, %r11
	je	.LBB5_26
	leaq	(%rsi,%rsi,2), %r11
	leaq	(%r9,%r11,8), %r9
	.p2align	4
.LBB5_48:
	movzbl	-1(%rax,%rsi), %r11d
	movb	%r11b, (%rax,%rsi)
	movzbl	-1(%rdi,%rsi), %r11d
	movb	%r11b, (%rdi,%rsi)
	movq	-8(%r9), %r11
	movq	%r11, 16(%r9)
	movups	-24(%r9), %xmm3
	movups	%xmm3, (%r9)
	movzbl	-2(%rax,%rsi), %r11d
	movb	%r11b, -1(%rax,%rsi)
	movzbl	-2(%rdi,%rsi), %r11d
	movb	%r11b, -1(%rdi,%rsi)
	addq	$-2, %rsi
	movq	-32(%r9), %r11
	movq	%r11, -8(%r9)
	movupd	-48(%r9), %xmm3
	movupd	%xmm3, -24(%r9)
	addq	$-48, %r9
	cmpq	%rsi, %rcx
	jb	.LBB5_48
	jmp	.LBB5_26
.LBB5_49:
	movupd	(%r10), %xmm2
	addpd	%xmm2, %xmm1
	movapd	%xmm1, %xmm2
	subpd	%xmm1, %xmm2
	movapd	%xmm2, %xmm3
	ucomisd	%xmm7, %xmm3
	movb	$14, %r11b
	jne	.LBB5_277
	jp	.LBB5_277
	unpckhpd	%xmm2, %xmm2
	ucomisd	%xmm7, %xmm2
	jne	.LBB5_277
	jp	.LBB5_277
	movupd	%xmm1, (%r10)
	addq	%rdx, %r8
	incq	%r8
	cmpq	%rbp, %r8
	jb	.LBB5_28
.LBB5_52:
	testq	%r12, %r12
	je	.LBB5_54
	addq	$64, %r12
	movl	$64, %r8d
	movq	%r15, %r10
	movq	%r13, 48(%rsp)
	movsd	%xmm7, 56(%rsp)
	movq	%r12, 40(%rsp)
	jmp	.LBB5_212
.LBB5_54:
	xorl	%eax, %eax
	xorl	%r11d, %r11d
	jmp	.LBB5_279
.LBB5_55:
	subsd	%xmm1, %xmm0
	movq	(%r13), %rax
	xorl	%ecx, %ecx
	testq	%r15, %r15
	je	.LBB5_59
	.p2align	4
.LBB5_56:
	cmpb	$1, (%rax,%rcx)
	jne	.LBB5_59
	incq	%rcx
	cmpq	%rcx, %r15
	jne	.LBB5_56
	movq	%r15, %rcx
.LBB5_59:
	movapd	%xmm0, %xmm2
	subsd	%xmm0, %xmm2
	xorpd	%xmm1, %xmm1
	movb	$1, %dl
	ucomisd	%xmm1, %xmm2
	jne	.LBB5_68
	jp	.LBB5_68
	movq	32(%r13), %r8
	movapd	%xmm0, %xmm2
	leaq	(%rcx,%rcx,2), %rsi
	leaq	8(,%rsi,8), %r10
	.p2align	4
.LBB5_61:
	movq	%rcx, %rbx
	movq	%r10, %rsi
	subq	$1, %rcx
	jb	.LBB5_64
	movsd	-32(%r8,%rsi), %xmm3
	ucomisd	%xmm3, %xmm2
	seta	%r9b
	incb	%r9b
	xorl	%r10d, %r10d
	ucomisd	%xmm2, %xmm3
	movzbl	%r9b, %r9d
	cmoval	%r10d, %r9d
	leaq	-24(%rsi), %r10
	testb	%r9b, %r9b
	je	.LBB5_61
	movzbl	%r9b, %ecx
	cmpl	$2, %ecx
	jne	.LBB5_69
.LBB5_64:
	xorpd	%xmm2, %xmm2
	addpd	%xmm2, %xmm5
	movapd	%xmm5, %xmm2
	subpd	%xmm5, %xmm2
	movapd	%xmm2, %xmm3
	xorl	%ecx, %ecx
	ucomisd	%xmm1, %xmm3
	movb	$14, %r9b
	jne	.LBB5_181
	jp	.LBB5_181
	unpckhpd	%xmm2, %xmm2
	ucomisd	%xmm1, %xmm2
	jne	.LBB5_181
	jp	.LBB5_181
	leaq	1(%r15), %rcx
	cmpq	$64, %rcx
	jbe	.LBB5_173
	movb	$11, %r9b
	xorl	%ecx, %ecx
	jmp	.LBB5_181
.LBB5_68:
	movb	$17, %r9b
	xorl	%ecx, %ecx
	jmp	.LBB5_181
.LBB5_69:
	movupd	(%r8,%r10), %xmm0
	addpd	%xmm0, %xmm5
	movapd	%xmm5, %xmm0
	subpd	%xmm5, %xmm0
	movapd	%xmm0, %xmm2
	xorl	%ecx, %ecx
	ucomisd	%xmm1, %xmm2
	movb	$14, %r9b
	jne	.LBB5_181
	jp	.LBB5_181
	unpckhpd	%xmm0, %xmm0
	ucomisd	%xmm1, %xmm0
	jne	.LBB5_181
	jp	.LBB5_181
	movupd	%xmm5, (%r8,%r10)
	xorl	%edx, %edx
	xorl	%r9d, %r9d
	movq	%r15, %rcx
	jmp	.LBB5_181
.LBB5_72:
	movq	%rdi, %r15
	movq	%rbp, %r12
	movl	%ebp, %edi
	andl	$-2, %edi
	leaq	(,%r8,8), %rsi
	leaq	(%rsi,%rsi,2), %r9
	leaq	(%rcx,%r8), %r10
	incq	%r10
	leaq	(%rdx,%r8), %r11
	incq	%r11
	xorl	%esi, %esi
	movq	%rax, %rbx
	.p2align	4
.LBB5_73:
	movzbl	-1(%r11,%rsi), %ebp
	movb	%bpl, 65(%rdx,%rsi)
	movzbl	-1(%r10,%rsi), %ebp
	movb	%bpl, 65(%rcx,%rsi)
	movups	(%rbx,%r9), %xmm0
	movq	16(%rbx,%r9), %r14
	movq	%r14, 1576(%rbx)
	movups	%xmm0, 1560(%rbx)
	movzbl	(%r11,%rsi), %ebp
	movb	%bpl, 66(%rdx,%rsi)
	movzbl	(%r10,%rsi), %ebp
	movb	%bpl, 66(%rcx,%rsi)
	movupd	24(%rbx,%r9), %xmm0
	movq	40(%rbx,%r9), %r14
	movq	%r14, 1600(%rbx)
	movupd	%xmm0, 1584(%rbx)
	addq	$2, %rsi
	addq	$48, %rbx
	cmpq	%rsi, %rdi
	jne	.LBB5_73
	testb	$1, %r12b
	movq	%r15, %rdi
	movq	16(%rsp), %r15
	movq	80(%rsp), %r14
	je	.LBB5_76
.LBB5_75:
	addq	%rsi, %r8
	movzbl	(%rdx,%r8), %r9d
	movb	%r9b, 65(%rdx,%rsi)
	movzbl	(%rcx,%r8), %edx
	movb	%dl, 65(%rcx,%rsi)
	leaq	(%r8,%r8,2), %rcx
	leaq	195(%rsi,%rsi,2), %rdx
	movupd	(%rax,%rcx,8), %xmm0
	movq	16(%rax,%rcx,8), %rcx
	movq	%rcx, 16(%rax,%rdx,8)
	movupd	%xmm0, (%rax,%rdx,8)
.LBB5_76:
	movq	%rdi, 72(%rsp)
	leal	1(%r14), %esi
	xorpd	%xmm0, %xmm0
	movq	(%r13), %r11
	movq	8(%r13), %rax
	movq	24(%r13), %rcx
	movq	16(%r13), %rdi
	movq	40(%r13), %rdx
	movq	%r13, 48(%rsp)
	movq	32(%r13), %rbx
	movq	%r11, 264(%rsp)
	movq	%rax, 272(%rsp)
	movq	%rdi, 280(%rsp)
	movq	%rcx, 288(%rsp)
	movq	%rbx, 296(%rsp)
	movq	%rdx, 304(%rsp)
	movb	$2, 192(%rsp)
	movl	%esi, 96(%rsp)
	movb	%sil, 193(%rsp)
	movq	$0, 194(%rsp)
	movq	$0, 200(%rsp)
	movapd	%xmm5, 112(%rsp)
	movupd	%xmm5, 208(%rsp)
	testq	%r15, %r15
	movsd	%xmm0, 240(%rsp)
	je	.LBB5_86
	xorl	%r12d, %r12d
	movq	%rbx, 32(%rsp)
	.p2align	4
.LBB5_78:
	leaq	(,%r12,8), %rax
	leaq	(%rax,%rax,2), %r13
	movsd	(%rbx,%r13), %xmm0
	movupd	8(%rbx,%r13), %xmm1
	movq	%r11, %rbx
	movzbl	(%r11,%r12), %eax
	movq	%rdi, %r15
	movzbl	(%rdi,%r12), %r14d
	movb	%al, 160(%rsp)
	movb	%r14b, 161(%rsp)
	leaq	162(%rsp), %rax
	movw	$0, 4(%rax)
	movl	$0, (%rax)
	movsd	%xmm0, 168(%rsp)
	movapd	%xmm1, 144(%rsp)
	movupd	%xmm1, 176(%rsp)
	leaq	1(%r12), %rbp
	leaq	264(%rsp), %rdi
	leaq	192(%rsp), %rsi
	leaq	160(%rsp), %rcx
	movl	$64, %edx
	movl	$4, %r9d
	movq	%rbp, %r8
	callq	"sums::order::cmp_term"
	cmpb	$2, %al
	jne	.LBB5_80
	addq	%r14, %rbp
	movq	%rbp, %r12
	cmpq	16(%rsp), %rbp
	movq	%r15, %rdi
	movq	%rbx, %r11
	movq	32(%rsp), %rbx
	movq	%rbp, %r13
	jb	.LBB5_78
	jmp	.LBB5_87
.LBB5_80:
	movapd	144(%rsp), %xmm0
	movq	%r13, 24(%rsp)
	movzbl	%al, %eax
	movq	%r12, %r13
	testl	%eax, %eax
	movq	%r15, %rdi
	movq	%rbx, %r11
	movq	32(%rsp), %rbx
	je	.LBB5_87
	movapd	112(%rsp), %xmm2
	addpd	%xmm0, %xmm2
	movapd	%xmm2, %xmm0
	subpd	%xmm2, %xmm0
	movapd	%xmm0, %xmm1
	movsd	240(%rsp), %xmm3
	ucomisd	%xmm3, %xmm1
	movb	$14, %cl
	movb	$1, %bpl
	jne	.LBB5_93
	jp	.LBB5_93
	unpckhpd	%xmm0, %xmm0
	ucomisd	%xmm3, %xmm0
	movq	72(%rsp), %r14
	jne	.LBB5_196
	jp	.LBB5_196
	movl	96(%rsp), %eax
	testb	%al, %al
	je	.LBB5_85
	movzbl	%al, %edx
	movl	$64, %esi
	movl	$3, %ecx
	movapd	%xmm2, 112(%rsp)
	callq	"sums::order::nests_inside"
	movapd	112(%rsp), %xmm2
	testb	%al, %al
	je	.LBB5_95
.LBB5_85:
	movq	24(%rsp), %rax
	movupd	%xmm2, 8(%rbx,%rax)
	xorl	%ebp, %ebp
	xorl	%ecx, %ecx
	movq	16(%rsp), %rax
	jmp	.LBB5_205
.LBB5_86:
	xorl	%r13d, %r13d
.LBB5_87:
	xorpd	%xmm0, %xmm0
	movapd	112(%rsp), %xmm2
	addpd	%xmm0, %xmm2
	movapd	%xmm2, %xmm0
	subpd	%xmm2, %xmm0
	movapd	%xmm0, %xmm1
	movsd	240(%rsp), %xmm3
	ucomisd	%xmm3, %xmm1
	movb	$14, %cl
	movb	$1, %bpl
	jne	.LBB5_93
	jp	.LBB5_93
	unpckhpd	%xmm0, %xmm0
	ucomisd	%xmm3, %xmm0
	movq	72(%rsp), %r14
	jne	.LBB5_196
	jp	.LBB5_196
	movl	96(%rsp), %r15d
	movzbl	%r15b, %r12d
	testb	%r15b, %r15b
	je	.LBB5_91
	movl	$64, %esi
	movl	$3, %ecx
	movq	%r12, %rdx
	movapd	%xmm2, 112(%rsp)
	movl	%r15d, %r14d
	movq	%rdi, %r15
	movq	%rbx, %rbp
	movq	%r11, %rbx
	callq	"sums::order::nests_inside"
	movq	%rbx, %r11
	movq	%rbp, %rbx
	movb	$1, %bpl
	movq	%r15, %rdi
	movl	%r14d, %r15d
	movq	72(%rsp), %r14
	movapd	112(%rsp), %xmm2
	testb	%al, %al
	je	.LBB5_95
.LBB5_91:
	movq	16(%rsp), %r8
	leaq	(%r8,%r12), %rax
	incq	%rax
	cmpq	$64, %rax
	jbe	.LBB5_96
	movb	$11, %cl
	xorl	%eax, %eax
	jmp	.LBB5_205
.LBB5_196:
	xorl	%eax, %eax
	jmp	.LBB5_205
.LBB5_93:
	xorl	%eax, %eax
	movq	72(%rsp), %r14
	jmp	.LBB5_205
.LBB5_95:
	movb	$12, %cl
	xorl	%eax, %eax
	jmp	.LBB5_205
.LBB5_96:
	cmpq	%r13, %r8
	jbe	.LBB5_182
	movl	%r8d, %esi
	subl	%r13d, %esi
	leaq	1(%r13), %rdx
	movq	%r8, %rcx
	testb	$1, %sil
	je	.LBB5_99
	leaq	-1(%r8), %rcx
	movzbl	-1(%r11,%r8), %esi
	leaq	(%r8,%r12), %r9
	movb	%sil, (%r11,%r9)
	movzbl	-1(%rdi,%r8), %esi
	movb	%sil, (%rdi,%r9)
	leaq	(%rcx,%rcx,2), %rsi
	leaq	(%r9,%r9,2), %r9
	movupd	(%rbx,%rsi,8), %xmm0
	movq	16(%rbx,%rsi,8), %rsi
	movq	%rsi, 16(%rbx,%r9,8)
	movupd	%xmm0, (%rbx,%r9,8)
.LBB5_99:
	cmpq	%rdx, %r8
	je	.LBB5_102
	leaq	(%rcx,%rcx,2), %rdx
	leaq	-24(,%rdx,8), %rdx
	leaq	(%rcx,%r12), %rsi
	shlq	$3, %rsi
	leaq	(%rsi,%rsi,2), %rsi
	leaq	(%rdi,%r12), %r10
	leaq	(%r11,%r12), %r8
	.p2align	4
.LBB5_101:
	movzbl	-1(%r11,%rcx), %r9d
	movb	%r9b, (%r8,%rcx)
	movzbl	-1(%rdi,%rcx), %r9d
	movb	%r9b, (%r10,%rcx)
	movups	(%rbx,%rdx), %xmm0
	movq	16(%rbx,%rdx), %r9
	movq	%r9, 16(%rbx,%rsi)
	movups	%xmm0, (%rbx,%rsi)
	movzbl	-2(%r11,%rcx), %r9d
	movb	%r9b, -1(%r8,%rcx)
	movzbl	-2(%rdi,%rcx), %r9d
	movb	%r9b, -1(%r10,%rcx)
	addq	$-2, %rcx
	movupd	-24(%rbx,%rdx), %xmm0
	movq	-8(%rbx,%rdx), %r9
	movq	%r9, -8(%rbx,%rsi)
	movupd	%xmm0, -24(%rbx,%rsi)
	addq	$-48, %rbx
	cmpq	%rcx, %r13
	jb	.LBB5_101
.LBB5_102:
	movq	48(%rsp), %r9
	movq	(%r9), %r11
	jmp	.LBB5_183
.LBB5_103:
	movb	$6, %r11b
.LBB5_104:
	xorl	%r15d, %r15d
	movb	$1, %al
	jmp	.LBB5_279
.LBB5_105:
	xorl	%edi, %edi
.LBB5_106:
	movq	16(%rsp), %r9
	addq	%rdi, %r9
	movzbl	(%rsi,%r9), %r10d
	addq	%rdi, %r8
	movb	%r10b, (%rsi,%r8)
	movzbl	(%rdx,%r9), %esi
	movb	%sil, (%rdx,%r8)
	leaq	(%r9,%r9,2), %rdx
	leaq	(%r8,%r8,2), %rsi
	movupd	(%rcx,%rdx,8), %xmm0
	movq	16(%rcx,%rdx,8), %rdx
	movq	%rdx, 16(%rcx,%rsi,8)
	movupd	%xmm0, (%rcx,%rsi,8)
.LBB5_107:
	movq	%rax, %r12
	movq	40(%rsp), %rbp
.LBB5_108:
	movq	16(%rsp), %rax
	addq	%rbx, %rax
	movq	%rax, %r8
	cmpq	%rbp, %rax
	jae	.LBB5_195
.LBB5_109:
	movq	(%r13), %rcx
	movq	16(%r13), %r10
	movq	32(%r13), %r14
	leaq	(%r8,%r8,2), %rax
	movsd	(%r14,%rax,8), %xmm3
	movzbl	(%rcx,%r8), %r9d
	movzbl	(%r10,%r8), %edi
	movzbl	%dil, %ebx
	movsd	16(%r14,%rax,8), %xmm0
	unpcklpd	%xmm0, %xmm0
	mulpd	%xmm5, %xmm0
	movsd	8(%r14,%rax,8), %xmm2
	unpcklpd	%xmm2, %xmm2
	mulpd	%xmm6, %xmm2
	movapd	%xmm2, %xmm1
	subpd	%xmm0, %xmm1
	addpd	%xmm0, %xmm2
	movsd	%xmm1, %xmm2
	leaq	1(%r8), %rax
	movq	%rax, 16(%rsp)
	cmpb	$1, %r9b
	movq	%rcx, 32(%rsp)
	jne	.LBB5_122
	xorl	%esi, %esi
	testq	%r12, %r12
	je	.LBB5_114
	.p2align	4
.LBB5_111:
	cmpb	$1, (%rcx,%rsi)
	jne	.LBB5_114
	incq	%rsi
	cmpq	%rsi, %r12
	jne	.LBB5_111
	movq	%r12, %rsi
.LBB5_114:
	movapd	%xmm3, %xmm0
	subsd	%xmm3, %xmm0
	movb	$1, %al
	ucomisd	%xmm7, %xmm0
	jne	.LBB5_197
	jp	.LBB5_197
	movapd	%xmm3, %xmm0
	leaq	(%rsi,%rsi,2), %rcx
	leaq	8(,%rcx,8), %rdi
	.p2align	4
.LBB5_116:
	movq	%rsi, %rdx
	movq	%rdi, %rcx
	subq	$1, %rsi
	jb	.LBB5_127
	movsd	-32(%r14,%rcx), %xmm1
	ucomisd	%xmm1, %xmm0
	seta	%dil
	incb	%dil
	xorl	%r9d, %r9d
	ucomisd	%xmm0, %xmm1
	movzbl	%dil, %r8d
	cmoval	%r9d, %r8d
	leaq	-24(%rcx), %rdi
	testb	%r8b, %r8b
	je	.LBB5_116
	movzbl	%r8b, %esi
	cmpl	$1, %esi
	jne	.LBB5_127
	movupd	(%r14,%rdi), %xmm0
	addpd	%xmm0, %xmm2
	movapd	%xmm2, %xmm0
	subpd	%xmm2, %xmm0
	movapd	%xmm0, %xmm1
	xorl	%r15d, %r15d
	ucomisd	%xmm7, %xmm1
	movb	$14, %r11b
	jne	.LBB5_279
	jp	.LBB5_279
	unpckhpd	%xmm0, %xmm0
	ucomisd	%xmm7, %xmm0
	jne	.LBB5_279
	jp	.LBB5_279
	movupd	%xmm2, (%r14,%rdi)
	jmp	.LBB5_108
	.p2align	4
.LBB5_122:
	movapd	%xmm3, %xmm0
	subsd	%xmm3, %xmm0
	movb	$14, %r11b
	ucomisd	%xmm7, %xmm0
	jne	.LBB5_277
	jp	.LBB5_277
	movq	%rbx, 24(%rsp)
	movq	%r8, 128(%rsp)
	movq	8(%r13), %rax
	movq	24(%r13), %rcx
	movq	40(%r13), %rdx
	movq	32(%rsp), %rsi
	movq	%rsi, 264(%rsp)
	movq	%rax, 272(%rsp)
	movq	%r10, 144(%rsp)
	movq	%r10, 280(%rsp)
	movq	%rcx, 288(%rsp)
	movq	%r14, 296(%rsp)
	movq	%rdx, 304(%rsp)
	movb	%r9b, 15(%rsp)
	movb	%r9b, 192(%rsp)
	movb	%dil, 80(%rsp)
	movb	%dil, 193(%rsp)
	leaq	194(%rsp), %rax
	movw	$0, 4(%rax)
	movl	$0, (%rax)
	movsd	%xmm3, 136(%rsp)
	movsd	%xmm3, 200(%rsp)
	movapd	%xmm2, 96(%rsp)
	movupd	%xmm2, 208(%rsp)
	testq	%r12, %r12
	je	.LBB5_139
	xorl	%r15d, %r15d
	.p2align	4
.LBB5_125:
	leaq	(,%r15,8), %rax
	leaq	(%rax,%rax,2), %rbx
	movsd	(%r14,%rbx), %xmm0
	movupd	8(%r14,%rbx), %xmm1
	movzbl	(%rsi,%r15), %eax
	movq	144(%rsp), %rcx
	movzbl	(%rcx,%r15), %r13d
	movb	%al, 160(%rsp)
	movb	%r13b, 161(%rsp)
	leaq	162(%rsp), %rax
	movw	$0, 4(%rax)
	movl	$0, (%rax)
	movsd	%xmm0, 168(%rsp)
	movapd	%xmm1, 240(%rsp)
	movupd	%xmm1, 176(%rsp)
	leaq	1(%r15), %rbp
	leaq	264(%rsp), %rdi
	leaq	192(%rsp), %rsi
	leaq	160(%rsp), %rcx
	movl	$4, %r9d
	movq	16(%rsp), %rdx
	movq	%rbp, %r8
	callq	"sums::order::cmp_term"
	cmpb	$2, %al
	jne	.LBB5_133
	addq	%r13, %rbp
	movq	%rbp, %r15
	cmpq	%r12, %rbp
	movq	32(%rsp), %rsi
	jb	.LBB5_125
	jmp	.LBB5_140
	.p2align	4
.LBB5_127:
	xorpd	%xmm0, %xmm0
	addpd	%xmm0, %xmm2
	movapd	%xmm2, %xmm0
	subpd	%xmm2, %xmm0
	movapd	%xmm0, %xmm1
	xorl	%r15d, %r15d
	ucomisd	%xmm7, %xmm1
	movb	$14, %r11b
	jne	.LBB5_279
	jp	.LBB5_279
	unpckhpd	%xmm0, %xmm0
	ucomisd	%xmm7, %xmm0
	jne	.LBB5_279
	jp	.LBB5_279
	leaq	1(%r12), %rsi
	cmpq	$64, %rsi
	ja	.LBB5_199
	cmpq	%rdx, %r12
	jbe	.LBB5_167
	movl	%r12d, %edi
	subl	%edx, %edi
	leaq	-1(%r12), %rax
	testb	$1, %dil
	movq	32(%rsp), %r11
	jne	.LBB5_168
	movq	%r10, %r9
	cmpq	%rdx, %rax
	jne	.LBB5_169
	jmp	.LBB5_171
.LBB5_133:
	movapd	240(%rsp), %xmm0
	movzbl	%al, %eax
	movq	%r15, %rbp
	testl	%eax, %eax
	je	.LBB5_140
	movapd	96(%rsp), %xmm2
	addpd	%xmm0, %xmm2
	movapd	%xmm2, %xmm0
	subpd	%xmm2, %xmm0
	movapd	%xmm0, %xmm1
	movsd	56(%rsp), %xmm7
	ucomisd	%xmm7, %xmm1
	jne	.LBB5_276
	jp	.LBB5_276
	unpckhpd	%xmm0, %xmm0
	ucomisd	%xmm7, %xmm0
	movb	$14, %r11b
	jne	.LBB5_277
	jp	.LBB5_277
	cmpb	$0, 80(%rsp)
	movq	48(%rsp), %r13
	je	.LBB5_138
	movl	$3, %ecx
	movq	144(%rsp), %rdi
	movq	16(%rsp), %rsi
	movq	24(%rsp), %rdx
	movapd	%xmm2, 96(%rsp)
	callq	"sums::order::nests_inside"
	movapd	96(%rsp), %xmm2
	movsd	56(%rsp), %xmm7
	testb	%al, %al
	je	.LBB5_200
.LBB5_138:
	movupd	%xmm2, 8(%r14,%rbx)
	movapd	112(%rsp), %xmm5
	movapd	224(%rsp), %xmm6
	jmp	.LBB5_161
.LBB5_139:
	xorl	%ebp, %ebp
.LBB5_140:
	xorpd	%xmm0, %xmm0
	movapd	96(%rsp), %xmm2
	addpd	%xmm0, %xmm2
	movapd	%xmm2, %xmm0
	subpd	%xmm2, %xmm0
	movapd	%xmm0, %xmm1
	movsd	56(%rsp), %xmm7
	ucomisd	%xmm7, %xmm1
	jne	.LBB5_276
	jp	.LBB5_276
	unpckhpd	%xmm0, %xmm0
	ucomisd	%xmm7, %xmm0
	movb	$14, %r11b
	jne	.LBB5_277
	jp	.LBB5_277
	cmpb	$0, 80(%rsp)
	movq	24(%rsp), %rbx
	movq	144(%rsp), %r15
	je	.LBB5_144
	movl	$3, %ecx
	movq	%r15, %rdi
	movq	16(%rsp), %rsi
	movq	%rbx, %rdx
	movapd	%xmm2, 96(%rsp)
	callq	"sums::order::nests_inside"
	movapd	96(%rsp), %xmm2
	movsd	56(%rsp), %xmm7
	testb	%al, %al
	je	.LBB5_200
.LBB5_144:
	leaq	(%r12,%rbx), %rax
	incq	%rax
	cmpq	$64, %rax
	ja	.LBB5_198
	cmpq	%rbp, %r12
	jbe	.LBB5_152
	movl	%r12d, %edx
	subl	%ebp, %edx
	movq	%r12, %rcx
	testb	$1, %dl
	movq	128(%rsp), %rdi
	movapd	112(%rsp), %xmm5
	movq	48(%rsp), %r13
	movapd	224(%rsp), %xmm6
	movsd	136(%rsp), %xmm1
	movq	32(%rsp), %r11
	je	.LBB5_148
	leaq	-1(%r12), %rcx
	movzbl	-1(%r11,%r12), %edx
	leaq	(%r12,%rbx), %rsi
	movb	%dl, (%r11,%rsi)
	movzbl	-1(%r15,%r12), %edx
	movb	%dl, (%r15,%rsi)
	leaq	(%rcx,%rcx,2), %rdx
	leaq	(%rsi,%rsi,2), %rsi
	movupd	(%r14,%rdx,8), %xmm0
	movq	16(%r14,%rdx,8), %rdx
	movq	%rdx, 16(%r14,%rsi,8)
	movupd	%xmm0, (%r14,%rsi,8)
.LBB5_148:
	leaq	1(%rbp), %rdx
	cmpq	%rdx, %r12
	je	.LBB5_151
	leaq	(%rcx,%rcx,2), %rdx
	leaq	-24(,%rdx,8), %rdx
	leaq	(%rcx,%rbx), %rsi
	shlq	$3, %rsi
	leaq	(%rsi,%rsi,2), %rsi
	leaq	(%r15,%rbx), %r8
	leaq	(%r11,%rbx), %r9
	.p2align	4
.LBB5_150:
	movzbl	-1(%r11,%rcx), %r10d
	movb	%r10b, (%r9,%rcx)
	movzbl	-1(%r15,%rcx), %r10d
	movb	%r10b, (%r8,%rcx)
	movups	(%r14,%rdx), %xmm0
	movq	16(%r14,%rdx), %r10
	movq	%r10, 16(%r14,%rsi)
	movups	%xmm0, (%r14,%rsi)
	movzbl	-2(%r11,%rcx), %r10d
	movb	%r10b, -1(%r9,%rcx)
	movzbl	-2(%r15,%rcx), %r10d
	movb	%r10b, -1(%r8,%rcx)
	addq	$-2, %rcx
	movupd	-24(%r14,%rdx), %xmm0
	movq	-8(%r14,%rdx), %r10
	movq	%r10, -8(%r14,%rsi)
	movupd	%xmm0, -24(%r14,%rsi)
	addq	$-48, %r14
	cmpq	%rcx, %rbp
	jb	.LBB5_150
.LBB5_151:
	movq	(%r13), %rcx
	jmp	.LBB5_153
.LBB5_152:
	movq	128(%rsp), %rdi
	movapd	112(%rsp), %xmm5
	movq	48(%rsp), %r13
	movapd	224(%rsp), %xmm6
	movsd	136(%rsp), %xmm1
	movq	32(%rsp), %rcx
.LBB5_153:
	movzbl	15(%rsp), %edx
	movb	%dl, (%rcx,%rbp)
	movq	16(%r13), %rcx
	movzbl	80(%rsp), %r14d
	movb	%r14b, (%rcx,%rbp)
	leaq	(%rbp,%rbp,2), %rcx
	movq	32(%r13), %rdx
	movsd	%xmm1, (%rdx,%rcx,8)
	movupd	%xmm2, 8(%rdx,%rcx,8)
	leaq	1(%rbp), %r8
	movq	(%r13), %rsi
	movq	16(%r13), %rdx
	movq	32(%r13), %rcx
	cmpq	16(%rsp), %r8
	jbe	.LBB5_162
	testb	%r14b, %r14b
	je	.LBB5_107
	movq	%rbx, %r8
	testb	$1, %bl
	je	.LBB5_157
	leaq	-1(%rbx), %r8
	leaq	(%rdi,%rbx), %r9
	movzbl	(%rsi,%r9), %r10d
	leaq	(%rbx,%rbp), %r11
	movb	%r10b, (%rsi,%r11)
	movzbl	(%rdx,%r9), %r10d
	movb	%r10b, (%rdx,%r11)
	leaq	(%r9,%r9,2), %r9
	leaq	(%r11,%r11,2), %r10
	movupd	(%rcx,%r9,8), %xmm0
	movq	16(%rcx,%r9,8), %r9
	movq	%r9, 16(%rcx,%r10,8)
	movupd	%xmm0, (%rcx,%r10,8)
.LBB5_157:
	cmpb	$1, %r14b
	je	.LBB5_107
	leaq	(%r8,%rbp), %r9
	shlq	$3, %r9
	leaq	(%r9,%r9,2), %r9
	leaq	(%rdx,%rbp), %r10
	addq	%rsi, %rbp
	leaq	(%r8,%rdi), %r11
	shlq	$3, %r11
	leaq	(%r11,%r11,2), %r11
	addq	%rdi, %rdx
	addq	%rdi, %rsi
	xorl	%edi, %edi
	.p2align	4
.LBB5_159:
	movzbl	(%rsi,%r8), %ebx
	movb	%bl, (%rbp,%r8)
	movzbl	(%rdx,%r8), %ebx
	movb	%bl, (%r10,%r8)
	movups	(%rcx,%r11), %xmm0
	movq	16(%rcx,%r11), %rbx
	movq	%rbx, 16(%rcx,%r9)
	movups	%xmm0, (%rcx,%r9)
	movzbl	-1(%rsi,%r8), %ebx
	movb	%bl, -1(%rbp,%r8)
	movzbl	-1(%rdx,%r8), %ebx
	movb	%bl, -1(%r10,%r8)
	movupd	-24(%rcx,%r11), %xmm0
	movq	-8(%rcx,%r11), %rbx
	movq	%rbx, -8(%rcx,%r9)
	movupd	%xmm0, -24(%rcx,%r9)
	addq	$2, %rdi
	addq	$-48, %rcx
	addq	$-2, %r10
	addq	$-2, %rbp
	addq	$-2, %rdx
	addq	$-2, %rsi
	cmpq	%rdi, %r8
	jne	.LBB5_159
	movq	%rax, %r12
.LBB5_161:
	movq	40(%rsp), %rbp
	movq	24(%rsp), %rbx
	jmp	.LBB5_108
.LBB5_162:
	testb	%r14b, %r14b
	je	.LBB5_107
	cmpb	$1, %r14b
	je	.LBB5_105
	movl	%ebx, %r9d
	andl	$-2, %r9d
	leaq	(,%rdi,8), %r10
	leaq	(%r10,%r10,2), %r10
	leaq	24(%rcx), %r11
	leaq	(%rdx,%rdi), %rbx
	addq	$2, %rbx
	leaq	2(%rsi,%rdi), %r14
	leaq	(,%rbp,8), %rdi
	leaq	(%rdi,%rdi,2), %r15
	leaq	(%rdx,%rbp), %r12
	addq	$2, %r12
	leaq	(%rsi,%rbp), %r13
	addq	$2, %r13
	xorl	%edi, %edi
	.p2align	4
.LBB5_165:
	movzbl	-1(%r14,%rdi), %ebp
	movb	%bpl, -1(%r13,%rdi)
	movzbl	-1(%rbx,%rdi), %ebp
	movb	%bpl, -1(%r12,%rdi)
	movups	(%r11,%r10), %xmm0
	movq	16(%r11,%r10), %rbp
	movq	%rbp, 16(%r11,%r15)
	movups	%xmm0, (%r11,%r15)
	movzbl	(%r14,%rdi), %ebp
	movb	%bpl, (%r13,%rdi)
	movzbl	(%rbx,%rdi), %ebp
	movb	%bpl, (%r12,%rdi)
	movupd	24(%r11,%r10), %xmm0
	movq	40(%r11,%r10), %rbp
	movq	%rbp, 40(%r11,%r15)
	movupd	%xmm0, 24(%r11,%r15)
	addq	$2, %rdi
	addq	$48, %r11
	cmpq	%rdi, %r9
	jne	.LBB5_165
	movq	24(%rsp), %rbx
	testb	$1, %bl
	movq	48(%rsp), %r13
	jne	.LBB5_106
	jmp	.LBB5_107
.LBB5_167:
	movq	32(%rsp), %rax
	jmp	.LBB5_172
.LBB5_168:
	movzbl	-1(%r11,%r12), %edi
	movb	%dil, (%r11,%r12)
	movq	%r10, %r9
	movzbl	-1(%r10,%r12), %edi
	movb	%dil, (%r10,%r12)
	leaq	(%r12,%r12,2), %rdi
	movq	-8(%r14,%rdi,8), %r8
	movq	%r8, 16(%r14,%rdi,8)
	movupd	-24(%r14,%rdi,8), %xmm0
	movupd	%xmm0, (%r14,%rdi,8)
	movq	%rax, %r12
	cmpq	%rdx, %rax
	je	.LBB5_171
.LBB5_169:
	leaq	(%r12,%r12,2), %rax
	leaq	(%r14,%rax,8), %rax
	.p2align	4
.LBB5_170:
	movzbl	-1(%r11,%r12), %edi
	movb	%dil, (%r11,%r12)
	movzbl	-1(%r9,%r12), %edi
	movb	%dil, (%r9,%r12)
	movq	-8(%rax), %rdi
	movq	%rdi, 16(%rax)
	movups	-24(%rax), %xmm0
	movups	%xmm0, (%rax)
	movzbl	-2(%r11,%r12), %edi
	movb	%dil, -1(%r11,%r12)
	movzbl	-2(%r9,%r12), %edi
	movb	%dil, -1(%r9,%r12)
	addq	$-2, %r12
	movq	-32(%rax), %rdi
	movq	%rdi, -8(%rax)
	movupd	-48(%rax), %xmm0
	movupd	%xmm0, -24(%rax)
	addq	$-48, %rax
	cmpq	%r12, %rdx
	jb	.LBB5_170
.LBB5_171:
	movq	(%r13), %rax
.LBB5_172:
	movb	$1, (%rax,%rdx)
	movq	16(%r13), %rax
	movb	$0, (%rax,%rdx)
	movq	32(%r13), %rax
	movsd	%xmm3, -8(%rax,%rcx)
	movupd	%xmm2, (%rax,%rcx)
	movq	%rsi, %r12
	jmp	.LBB5_108
.LBB5_173:
	cmpq	%rbx, %r15
	jbe	.LBB5_180
	movq	16(%r13), %rdx
	movl	%r15d, %r10d
	subl	%ebx, %r10d
	leaq	-1(%r15), %r9
	testb	$1, %r10b
	je	.LBB5_176
	movzbl	-1(%rax,%r15), %r10d
	movb	%r10b, (%rax,%r15)
	movzbl	-1(%rdx,%r15), %r10d
	movb	%r10b, (%rdx,%r15)
	leaq	(%r15,%r15,2), %r10
	movq	-8(%r8,%r10,8), %r11
	movq	%r11, 16(%r8,%r10,8)
	movupd	-24(%r8,%r10,8), %xmm1
	movupd	%xmm1, (%r8,%r10,8)
	movq	%r9, %r15
.LBB5_176:
	cmpq	%rbx, %r9
	je	.LBB5_179
	leaq	(%r15,%r15,2), %r9
	leaq	(%r8,%r9,8), %r8
	.p2align	4
.LBB5_178:
	movzbl	-1(%rax,%r15), %r9d
	movb	%r9b, (%rax,%r15)
	movzbl	-1(%rdx,%r15), %r9d
	movb	%r9b, (%rdx,%r15)
	movq	-8(%r8), %r9
	movq	%r9, 16(%r8)
	movups	-24(%r8), %xmm1
	movups	%xmm1, (%r8)
	movzbl	-2(%rax,%r15), %r9d
	movb	%r9b, -1(%rax,%r15)
	movzbl	-2(%rdx,%r15), %r9d
	movb	%r9b, -1(%rdx,%r15)
	addq	$-2, %r15
	movq	-32(%r8), %r10
	movq	%r10, -8(%r8)
	movupd	-48(%r8), %xmm1
	movupd	%xmm1, -24(%r8)
	addq	$-48, %r8
	cmpq	%r15, %rbx
	jb	.LBB5_178
.LBB5_179:
	movq	(%r13), %rax
.LBB5_180:
	movb	$1, (%rax,%rbx)
	movq	16(%r13), %rax
	movb	$0, (%rax,%rbx)
	movq	32(%r13), %rax
	movsd	%xmm0, -8(%rax,%rsi)
	movupd	%xmm5, (%rax,%rsi)
	xorl	%edx, %edx
	xorl	%r9d, %r9d
.LBB5_181:
	movb	%dl, (%rdi)
	movb	%r9b, 1(%rdi)
	movq	%rcx, 8(%rdi)
	jmp	.LBB5_280
.LBB5_182:
	movq	48(%rsp), %r9
.LBB5_183:
	movb	$2, (%r11,%r13)
	movq	16(%r9), %rcx
	movb	%r15b, (%rcx,%r13)
	leaq	(,%r13,2), %r8
	addq	%r13, %r8
	movq	32(%r9), %rcx
	movq	$0, (%rcx,%r8,8)
	movupd	%xmm2, 8(%rcx,%r8,8)
	leaq	1(%r13), %rdi
	movq	(%r9), %rsi
	movq	16(%r9), %rdx
	movq	32(%r9), %rcx
	cmpq	$64, %rdi
	jbe	.LBB5_190
	testb	%r15b, %r15b
	je	.LBB5_203
	testb	$1, %r12b
	je	.LBB5_187
	movzbl	63(%rsi,%r12), %edi
	leaq	(%r12,%r13), %r8
	movb	%dil, (%rsi,%r8)
	movzbl	63(%rdx,%r12), %edi
	leaq	(%r12,%r12,2), %r9
	addq	$189, %r9
	decq	%r12
	movb	%dil, (%rdx,%r8)
	leaq	(%r8,%r8,2), %rdi
	movupd	(%rcx,%r9,8), %xmm0
	movq	16(%rcx,%r9,8), %r8
	movq	%r8, 16(%rcx,%rdi,8)
	movupd	%xmm0, (%rcx,%rdi,8)
.LBB5_187:
	cmpb	$0, 80(%rsp)
	je	.LBB5_203
	leaq	(%rsi,%r13), %rdi
	leaq	(%rdx,%r13), %r8
	addq	%r12, %r13
	shlq	$3, %r13
	leaq	(,%r13,2), %r9
	addq	%r13, %r9
	leaq	(,%r12,8), %r10
	leaq	(%r10,%r10,2), %r10
	addq	$63, %rdx
	addq	$63, %rsi
	xorl	%r11d, %r11d
	.p2align	4
.LBB5_189:
	movzbl	(%rsi,%r12), %ebx
	movb	%bl, (%rdi,%r12)
	movzbl	(%rdx,%r12), %ebx
	movb	%bl, (%r8,%r12)
	movups	1512(%rcx,%r10), %xmm0
	movq	1528(%rcx,%r10), %rbx
	movq	%rbx, 16(%rcx,%r9)
	movups	%xmm0, (%rcx,%r9)
	movzbl	-1(%rsi,%r12), %ebx
	movb	%bl, -1(%rdi,%r12)
	movzbl	-1(%rdx,%r12), %ebx
	movb	%bl, -1(%r8,%r12)
	movupd	1488(%rcx,%r10), %xmm0
	movq	1504(%rcx,%r10), %rbx
	movq	%rbx, -8(%rcx,%r9)
	movupd	%xmm0, -24(%rcx,%r9)
	addq	$-2, %rdi
	addq	$-2, %r8
	addq	$-48, %rcx
	addq	$-2, %rdx
	addq	$-2, %rsi
	addq	$2, %r11
	xorl	%ebp, %ebp
	cmpq	%r11, %r12
	jne	.LBB5_189
	jmp	.LBB5_204
.LBB5_190:
	testb	%r15b, %r15b
	je	.LBB5_203
	cmpb	$0, 80(%rsp)
	je	.LBB5_201
	movl	%r12d, %r9d
	andl	$-2, %r9d
	leaq	24(,%r8,8), %r10
	leaq	(%rdx,%r13), %r11
	addq	$2, %r11
	leaq	(%rsi,%r13), %rbx
	addq	$2, %rbx
	xorl	%r8d, %r8d
	movq	%rcx, %r14
	.p2align	4
.LBB5_193:
	movzbl	64(%rsi,%r8), %ebp
	movb	%bpl, -1(%rbx,%r8)
	movzbl	64(%rdx,%r8), %ebp
	movb	%bpl, -1(%r11,%r8)
	movups	1536(%r14), %xmm0
	movq	1552(%r14), %r15
	movq	%r15, 16(%r14,%r10)
	movups	%xmm0, (%r14,%r10)
	movzbl	65(%rsi,%r8), %ebp
	movb	%bpl, (%rbx,%r8)
	movzbl	65(%rdx,%r8), %ebp
	movb	%bpl, (%r11,%r8)
	movupd	1560(%r14), %xmm0
	movq	1576(%r14), %r15
	movq	%r15, 40(%r14,%r10)
	movupd	%xmm0, 24(%r14,%r10)
	addq	$2, %r8
	addq	$48, %r14
	cmpq	%r8, %r9
	jne	.LBB5_193
	testb	$1, %r12b
	movq	72(%rsp), %r14
	jne	.LBB5_202
	jmp	.LBB5_203
.LBB5_195:
	xorl	%eax, %eax
	xorl	%r11d, %r11d
	movq	%r12, %r15
	jmp	.LBB5_279
.LBB5_197:
	movb	$17, %r11b
	jmp	.LBB5_278
.LBB5_198:
	movb	$11, %r11b
	jmp	.LBB5_277
.LBB5_199:
	movb	$11, %r11b
	jmp	.LBB5_278
.LBB5_200:
	movb	$12, %r11b
	jmp	.LBB5_277
.LBB5_201:
	xorl	%r8d, %r8d
.LBB5_202:
	movzbl	64(%rsi,%r8), %r9d
	addq	%r8, %rdi
	movb	%r9b, (%rsi,%rdi)
	movzbl	64(%rdx,%r8), %esi
	movb	%sil, (%rdx,%rdi)
	leaq	(%r8,%r8,2), %rdx
	addq	$192, %rdx
	leaq	(%rdi,%rdi,2), %rsi
	movupd	(%rcx,%rdx,8), %xmm0
	movq	16(%rcx,%rdx,8), %rdx
	movq	%rdx, 16(%rcx,%rsi,8)
	movupd	%xmm0, (%rcx,%rsi,8)
.LBB5_203:
	xorl	%ebp, %ebp
.LBB5_204:
	xorl	%ecx, %ecx
.LBB5_205:
	movb	%bpl, (%r14)
	movb	%cl, 1(%r14)
	movq	%rax, 8(%r14)
	jmp	.LBB5_280
.LBB5_276:
	movb	$14, %r11b
.LBB5_277:
	movb	$1, %al
.LBB5_278:
	xorl	%r15d, %r15d
.LBB5_279:
	movq	72(%rsp), %rcx
	movb	%al, (%rcx)
	movb	%r11b, 1(%rcx)
	movq	%r15, 8(%rcx)
.LBB5_280:
	addq	$312, %rsp
	popq	%rbx
	popq	%r12
	popq	%r13
	popq	%r14
	popq	%r15
	popq	%rbp
	retq
.LBB5_207:
	xorl	%r8d, %r8d
.LBB5_208:
	movq	96(%rsp), %r9
	addq	%r8, %r9
	movzbl	(%rsi,%r9), %r10d
	addq	%r8, %rdi
	movb	%r10b, (%rsi,%rdi)
	movzbl	(%rdx,%r9), %esi
	movb	%sil, (%rdx,%rdi)
	leaq	(%r9,%r9,2), %rdx
	leaq	(%rdi,%rdi,2), %rsi
	movupd	(%rcx,%rdx,8), %xmm0
	movq	16(%rcx,%rdx,8), %rdx
	movq	%rdx, 16(%rcx,%rsi,8)
	movupd	%xmm0, (%rcx,%rsi,8)
.LBB5_209:
	movq	%rax, %r10
.LBB5_210:
	movq	%r10, %r15
.LBB5_211:
	movq	96(%rsp), %rcx
	addq	%r11, %rcx
	xorl	%eax, %eax
	movq	%rcx, %r8
	movq	%r15, %r10
	movl	$0, %r11d
	cmpq	%r12, %rcx
	jae	.LBB5_279
.LBB5_212:
	movq	(%r13), %rbx
	movq	16(%r13), %rdi
	movq	32(%r13), %r14
	leaq	(%r8,%r8,2), %rax
	movsd	(%r14,%rax,8), %xmm3
	movzbl	(%rbx,%r8), %r9d
	movzbl	(%rdi,%r8), %esi
	movzbl	%sil, %r11d
	movsd	16(%r14,%rax,8), %xmm0
	unpcklpd	%xmm0, %xmm0
	mulpd	%xmm5, %xmm0
	movsd	8(%r14,%rax,8), %xmm2
	unpcklpd	%xmm2, %xmm2
	mulpd	%xmm6, %xmm2
	movapd	%xmm2, %xmm1
	subpd	%xmm0, %xmm1
	addpd	%xmm0, %xmm2
	movsd	%xmm1, %xmm2
	leaq	1(%r8), %rax
	movq	%rax, 96(%rsp)
	cmpb	$1, %r9b
	jne	.LBB5_233
	xorl	%edx, %edx
	testq	%r10, %r10
	je	.LBB5_217
	.p2align	4
.LBB5_214:
	cmpb	$1, (%rbx,%rdx)
	jne	.LBB5_217
	incq	%rdx
	cmpq	%rdx, %r10
	jne	.LBB5_214
	movq	%r10, %rdx
.LBB5_217:
	movapd	%xmm3, %xmm0
	subsd	%xmm3, %xmm0
	ucomisd	%xmm7, %xmm0
	jne	.LBB5_274
	jp	.LBB5_274
	movapd	%xmm3, %xmm0
	leaq	(%rdx,%rdx,2), %rax
	leaq	8(,%rax,8), %rsi
	.p2align	4
.LBB5_219:
	movq	%rdx, %rcx
	movq	%rsi, %rax
	subq	$1, %rdx
	jb	.LBB5_222
	movsd	-32(%r14,%rax), %xmm1
	ucomisd	%xmm1, %xmm0
	seta	%sil
	incb	%sil
	xorl	%r8d, %r8d
	ucomisd	%xmm0, %xmm1
	movzbl	%sil, %r9d
	cmoval	%r8d, %r9d
	leaq	-24(%rax), %rsi
	testb	%r9b, %r9b
	je	.LBB5_219
	movzbl	%r9b, %edx
	cmpl	$2, %edx
	jne	.LBB5_271
.LBB5_222:
	xorpd	%xmm0, %xmm0
	addpd	%xmm0, %xmm2
	movapd	%xmm2, %xmm0
	subpd	%xmm2, %xmm0
	movapd	%xmm0, %xmm1
	xorl	%r15d, %r15d
	ucomisd	%xmm7, %xmm1
	jne	.LBB5_281
	jp	.LBB5_281
	unpckhpd	%xmm0, %xmm0
	ucomisd	%xmm7, %xmm0
	jne	.LBB5_281
	jp	.LBB5_281
	leaq	1(%r10), %r15
	cmpq	$64, %r15
	ja	.LBB5_275
	cmpq	%rcx, %r10
	jbe	.LBB5_232
	movl	%r10d, %esi
	subl	%ecx, %esi
	leaq	-1(%r10), %rdx
	testb	$1, %sil
	je	.LBB5_228
	movzbl	-1(%rbx,%r10), %esi
	movb	%sil, (%rbx,%r10)
	movzbl	-1(%rdi,%r10), %esi
	movb	%sil, (%rdi,%r10)
	leaq	(%r10,%r10,2), %rsi
	movq	-8(%r14,%rsi,8), %r8
	movq	%r8, 16(%r14,%rsi,8)
	movupd	-24(%r14,%rsi,8), %xmm0
	movupd	%xmm0, (%r14,%rsi,8)
	movq	%rdx, %r10
.LBB5_228:
	cmpq	%rcx, %rdx
	je	.LBB5_231
	leaq	(%r10,%r10,2), %rdx
	leaq	(%r14,%rdx,8), %rdx
.LBB5_230:
	movzbl	-1(%rbx,%r10), %esi
	movb	%sil, (%rbx,%r10)
	movzbl	-1(%rdi,%r10), %esi
	movb	%sil, (%rdi,%r10)
	movq	-8(%rdx), %rsi
	movq	%rsi, 16(%rdx)
	movups	-24(%rdx), %xmm0
	movups	%xmm0, (%rdx)
	movzbl	-2(%rbx,%r10), %esi
	movb	%sil, -1(%rbx,%r10)
	movzbl	-2(%rdi,%r10), %esi
	movb	%sil, -1(%rdi,%r10)
	addq	$-2, %r10
	movq	-32(%rdx), %rsi
	movq	%rsi, -8(%rdx)
	movupd	-48(%rdx), %xmm0
	movupd	%xmm0, -24(%rdx)
	addq	$-48, %rdx
	cmpq	%r10, %rcx
	jb	.LBB5_230
.LBB5_231:
	movq	(%r13), %rbx
.LBB5_232:
	movb	$1, (%rbx,%rcx)
	movq	16(%r13), %rdx
	movb	$0, (%rdx,%rcx)
	movq	32(%r13), %rcx
	movsd	%xmm3, -8(%rcx,%rax)
	movupd	%xmm2, (%rcx,%rax)
	jmp	.LBB5_211
.LBB5_233:
	movapd	%xmm3, %xmm0
	subsd	%xmm3, %xmm0
	movb	$14, %al
	movl	%eax, 68(%rsp)
	ucomisd	%xmm7, %xmm0
	jne	.LBB5_285
	jp	.LBB5_285
	movq	%r11, 24(%rsp)
	movq	8(%r13), %rax
	movq	24(%r13), %rcx
	movq	40(%r13), %rdx
	movq	%rbx, 32(%rsp)
	movq	%rbx, 264(%rsp)
	movq	%rax, 272(%rsp)
	movq	%rdi, 280(%rsp)
	movq	%rcx, 288(%rsp)
	movq	%r14, 296(%rsp)
	movq	%rdx, 304(%rsp)
	movb	%r9b, 15(%rsp)
	movb	%r9b, 192(%rsp)
	movb	%sil, 128(%rsp)
	movb	%sil, 193(%rsp)
	leaq	194(%rsp), %rax
	movw	$0, 4(%rax)
	movl	$0, (%rax)
	movsd	%xmm3, 136(%rsp)
	movsd	%xmm3, 200(%rsp)
	movapd	%xmm2, 80(%rsp)
	movupd	%xmm2, 208(%rsp)
	testq	%r10, %r10
	movq	%r8, 16(%rsp)
	je	.LBB5_244
	xorl	%r15d, %r15d
	movq	%r10, 144(%rsp)
.LBB5_236:
	leaq	(,%r15,8), %rax
	leaq	(%rax,%rax,2), %r12
	movsd	(%r14,%r12), %xmm0
	movq	%r14, %rbx
	movupd	8(%r14,%r12), %xmm1
	movq	32(%rsp), %rax
	movzbl	(%rax,%r15), %eax
	movq	%rdi, %r14
	movzbl	(%rdi,%r15), %r13d
	movb	%al, 160(%rsp)
	movb	%r13b, 161(%rsp)
	leaq	162(%rsp), %rax
	movw	$0, 4(%rax)
	movl	$0, (%rax)
	movsd	%xmm0, 168(%rsp)
	movapd	%xmm1, 240(%rsp)
	movupd	%xmm1, 176(%rsp)
	leaq	1(%r15), %rbp
	leaq	264(%rsp), %rdi
	leaq	192(%rsp), %rsi
	leaq	160(%rsp), %rcx
	movl	$4, %r9d
	leaq	1(%r8), %rdx
	movq	%rbp, %r8
	callq	"sums::order::cmp_term"
	cmpb	$2, %al
	jne	.LBB5_238
	addq	%r13, %rbp
	movq	%rbp, %r15
	movq	144(%rsp), %r10
	cmpq	%r10, %rbp
	movq	%r14, %rdi
	movq	%rbx, %r14
	movq	16(%rsp), %r8
	jb	.LBB5_236
	jmp	.LBB5_245
.LBB5_238:
	movapd	240(%rsp), %xmm0
	movzbl	%al, %eax
	movq	%r15, %rbp
	testl	%eax, %eax
	movq	%r14, %rdi
	movq	144(%rsp), %r10
	movq	%rbx, %r14
	movq	16(%rsp), %r8
	je	.LBB5_245
	movapd	80(%rsp), %xmm2
	addpd	%xmm0, %xmm2
	movapd	%xmm2, %xmm0
	subpd	%xmm2, %xmm0
	movapd	%xmm0, %xmm1
	movsd	56(%rsp), %xmm7
	ucomisd	%xmm7, %xmm1
	jne	.LBB5_285
	jp	.LBB5_285
	unpckhpd	%xmm0, %xmm0
	ucomisd	%xmm7, %xmm0
	movq	24(%rsp), %r11
	movzbl	128(%rsp), %eax
	jne	.LBB5_285
	jp	.LBB5_285
	testb	%al, %al
	movq	48(%rsp), %r13
	je	.LBB5_243
	movl	$3, %ecx
	movq	96(%rsp), %rsi
	movq	%r11, %rdx
	movapd	%xmm2, 80(%rsp)
	callq	"sums::order::nests_inside"
	movq	144(%rsp), %r10
	movapd	80(%rsp), %xmm2
	movq	24(%rsp), %r11
	movsd	56(%rsp), %xmm7
	testb	%al, %al
	je	.LBB5_283
.LBB5_243:
	movupd	%xmm2, 8(%r14,%r12)
	movapd	112(%rsp), %xmm5
	movapd	224(%rsp), %xmm6
	movq	40(%rsp), %r12
	jmp	.LBB5_210
.LBB5_244:
	xorl	%ebp, %ebp
.LBB5_245:
	xorpd	%xmm0, %xmm0
	movapd	80(%rsp), %xmm2
	addpd	%xmm0, %xmm2
	movapd	%xmm2, %xmm0
	subpd	%xmm2, %xmm0
	movapd	%xmm0, %xmm1
	movsd	56(%rsp), %xmm7
	ucomisd	%xmm7, %xmm1
	jne	.LBB5_285
	jp	.LBB5_285
	unpckhpd	%xmm0, %xmm0
	ucomisd	%xmm7, %xmm0
	movq	24(%rsp), %r11
	movzbl	128(%rsp), %r15d
	jne	.LBB5_285
	jp	.LBB5_285
	testb	%r15b, %r15b
	je	.LBB5_249
	movl	$3, %ecx
	leaq	1(%r8), %rsi
	movq	%r11, %rdx
	movapd	%xmm2, 80(%rsp)
	movq	%r14, %r15
	movq	%rdi, %r14
	movq	%r10, %rbx
	callq	"sums::order::nests_inside"
	movq	16(%rsp), %r8
	movq	%rbx, %r10
	movq	%r14, %rdi
	movq	%r15, %r14
	movzbl	128(%rsp), %r15d
	movapd	80(%rsp), %xmm2
	movq	24(%rsp), %r11
	movsd	56(%rsp), %xmm7
	testb	%al, %al
	je	.LBB5_283
.LBB5_249:
	leaq	(%r10,%r11), %rax
	incq	%rax
	cmpq	$64, %rax
	ja	.LBB5_282
	cmpq	%rbp, %r10
	jbe	.LBB5_257
	movl	%r10d, %edx
	subl	%ebp, %edx
	movq	%r10, %rcx
	testb	$1, %dl
	movapd	112(%rsp), %xmm5
	movq	48(%rsp), %r13
	movapd	224(%rsp), %xmm6
	movq	40(%rsp), %r12
	movsd	136(%rsp), %xmm1
	movq	32(%rsp), %rbx
	je	.LBB5_253
	leaq	-1(%r10), %rcx
	movzbl	-1(%rbx,%r10), %edx
	leaq	(%r10,%r11), %rsi
	movb	%dl, (%rbx,%rsi)
	movzbl	-1(%rdi,%r10), %edx
	movb	%dl, (%rdi,%rsi)
	leaq	(%rcx,%rcx,2), %rdx
	leaq	(%rsi,%rsi,2), %rsi
	movupd	(%r14,%rdx,8), %xmm0
	movq	16(%r14,%rdx,8), %rdx
	movq	%rdx, 16(%r14,%rsi,8)
	movupd	%xmm0, (%r14,%rsi,8)
.LBB5_253:
	leaq	1(%rbp), %rdx
	cmpq	%rdx, %r10
	je	.LBB5_256
	leaq	(%rcx,%rcx,2), %rdx
	leaq	-24(,%rdx,8), %rdx
	leaq	(%rcx,%r11), %rsi
	shlq	$3, %rsi
	leaq	(%rsi,%rsi,2), %rsi
	leaq	(%rdi,%r11), %r10
	leaq	(%rbx,%r11), %r8
.LBB5_255:
	movzbl	-1(%rbx,%rcx), %r9d
	movb	%r9b, (%r8,%rcx)
	movzbl	-1(%rdi,%rcx), %r9d
	movb	%r9b, (%r10,%rcx)
	movups	(%r14,%rdx), %xmm0
	movq	16(%r14,%rdx), %r9
	movq	%r9, 16(%r14,%rsi)
	movups	%xmm0, (%r14,%rsi)
	movzbl	-2(%rbx,%rcx), %r9d
	movb	%r9b, -1(%r8,%rcx)
	movzbl	-2(%rdi,%rcx), %r9d
	movb	%r9b, -1(%r10,%rcx)
	addq	$-2, %rcx
	movupd	-24(%r14,%rdx), %xmm0
	movq	-8(%r14,%rdx), %r9
	movq	%r9, -8(%r14,%rsi)
	movupd	%xmm0, -24(%r14,%rsi)
	addq	$-48, %r14
	cmpq	%rcx, %rbp
	jb	.LBB5_255
.LBB5_256:
	movq	(%r13), %rcx
	movq	16(%rsp), %r8
	jmp	.LBB5_258
.LBB5_257:
	movapd	112(%rsp), %xmm5
	movq	48(%rsp), %r13
	movapd	224(%rsp), %xmm6
	movq	40(%rsp), %r12
	movsd	136(%rsp), %xmm1
	movq	32(%rsp), %rcx
.LBB5_258:
	movzbl	15(%rsp), %edx
	movb	%dl, (%rcx,%rbp)
	movq	16(%r13), %rcx
	movb	%r15b, (%rcx,%rbp)
	leaq	(,%rbp,2), %rcx
	addq	%rbp, %rcx
	movq	32(%r13), %rdx
	movsd	%xmm1, (%rdx,%rcx,8)
	movupd	%xmm2, 8(%rdx,%rcx,8)
	leaq	1(%rbp), %rdi
	movq	(%r13), %rsi
	movq	16(%r13), %rdx
	movq	32(%r13), %rcx
	incq	%r8
	cmpq	%r8, %rdi
	jbe	.LBB5_266
	testb	%r15b, %r15b
	je	.LBB5_209
	movq	%r11, %rdi
	testb	$1, %r11b
	je	.LBB5_262
	leaq	-1(%r11), %rdi
	movq	16(%rsp), %r8
	addq	%r11, %r8
	movzbl	(%rsi,%r8), %r9d
	leaq	(%rbp,%r11), %r10
	movb	%r9b, (%rsi,%r10)
	movzbl	(%rdx,%r8), %r9d
	movb	%r9b, (%rdx,%r10)
	leaq	(%r8,%r8,2), %r8
	leaq	(%r10,%r10,2), %r9
	movupd	(%rcx,%r8,8), %xmm0
	movq	16(%rcx,%r8,8), %r8
	movq	%r8, 16(%rcx,%r9,8)
	movupd	%xmm0, (%rcx,%r9,8)
.LBB5_262:
	cmpb	$1, %r15b
	je	.LBB5_209
	leaq	(%rdi,%rbp), %r8
	shlq	$3, %r8
	leaq	(%r8,%r8,2), %r8
	leaq	(%rdx,%rbp), %r9
	addq	%rsi, %rbp
	movq	16(%rsp), %r11
	leaq	(%rdi,%r11), %r10
	shlq	$3, %r10
	leaq	(%r10,%r10,2), %r10
	addq	%r11, %rdx
	addq	%r11, %rsi
	xorl	%r11d, %r11d
.LBB5_264:
	movzbl	(%rsi,%rdi), %ebx
	movb	%bl, (%rbp,%rdi)
	movzbl	(%rdx,%rdi), %ebx
	movb	%bl, (%r9,%rdi)
	movups	(%rcx,%r10), %xmm0
	movq	16(%rcx,%r10), %rbx
	movq	%rbx, 16(%rcx,%r8)
	movups	%xmm0, (%rcx,%r8)
	movzbl	-1(%rsi,%rdi), %ebx
	movb	%bl, -1(%rbp,%rdi)
	movzbl	-1(%rdx,%rdi), %ebx
	movb	%bl, -1(%r9,%rdi)
	movupd	-24(%rcx,%r10), %xmm0
	movq	-8(%rcx,%r10), %rbx
	movq	%rbx, -8(%rcx,%r8)
	movupd	%xmm0, -24(%rcx,%r8)
	addq	$2, %r11
	addq	$-48, %rcx
	addq	$-2, %r9
	addq	$-2, %rbp
	addq	$-2, %rdx
	addq	$-2, %rsi
	cmpq	%r11, %rdi
	jne	.LBB5_264
	movq	%rax, %r10
	movq	24(%rsp), %r11
	jmp	.LBB5_210
.LBB5_266:
	testb	%r15b, %r15b
	je	.LBB5_209
	cmpb	$1, %r15b
	je	.LBB5_207
	movl	%r11d, %r9d
	andl	$-2, %r9d
	movq	16(%rsp), %r14
	leaq	(,%r14,8), %r8
	leaq	(%r8,%r8,2), %r10
	leaq	24(%rcx), %r11
	leaq	2(%rdx,%r14), %rbx
	leaq	2(%rsi,%r14), %r14
	leaq	(,%rbp,8), %r8
	leaq	(%r8,%r8,2), %r15
	leaq	(%rdx,%rbp), %r12
	addq	$2, %r12
	leaq	(%rsi,%rbp), %r13
	addq	$2, %r13
	xorl	%r8d, %r8d
.LBB5_269:
	movzbl	-1(%r14,%r8), %ebp
	movb	%bpl, -1(%r13,%r8)
	movzbl	-1(%rbx,%r8), %ebp
	movb	%bpl, -1(%r12,%r8)
	movups	(%r11,%r10), %xmm0
	movq	16(%r11,%r10), %rbp
	movq	%rbp, 16(%r11,%r15)
	movups	%xmm0, (%r11,%r15)
	movzbl	(%r14,%r8), %ebp
	movb	%bpl, (%r13,%r8)
	movzbl	(%rbx,%r8), %ebp
	movb	%bpl, (%r12,%r8)
	movupd	24(%r11,%r10), %xmm0
	movq	40(%r11,%r10), %rbp
	movq	%rbp, 40(%r11,%r15)
	movupd	%xmm0, 24(%r11,%r15)
	addq	$2, %r8
	addq	$48, %r11
	cmpq	%r8, %r9
	jne	.LBB5_269
	movq	24(%rsp), %r11
	testb	$1, %r11b
	movq	48(%rsp), %r13
	movq	40(%rsp), %r12
	jne	.LBB5_208
	jmp	.LBB5_209
.LBB5_271:
	movupd	(%r14,%rsi), %xmm0
	addpd	%xmm0, %xmm2
	movapd	%xmm2, %xmm0
	subpd	%xmm2, %xmm0
	movapd	%xmm0, %xmm1
	xorl	%r15d, %r15d
	ucomisd	%xmm7, %xmm1
	jne	.LBB5_281
	jp	.LBB5_281
	unpckhpd	%xmm0, %xmm0
	ucomisd	%xmm7, %xmm0
	jne	.LBB5_281
	jp	.LBB5_281
	movupd	%xmm2, (%r14,%rsi)
	jmp	.LBB5_210
.LBB5_274:
	xorl	%r15d, %r15d
	movb	$1, %al
	movb	$17, %r11b
	jmp	.LBB5_279
.LBB5_275:
	movb	$11, %r11b
	jmp	.LBB5_104
.LBB5_281:
	movb	$1, %al
	movb	$14, %r11b
	jmp	.LBB5_279
.LBB5_282:
	movb	$11, %al
	jmp	.LBB5_284
.LBB5_283:
	movb	$12, %al
.LBB5_284:
	movl	%eax, 68(%rsp)
.LBB5_285:
	xorl	%r15d, %r15d
	movb	$1, %al
	movl	68(%rsp), %r11d
	jmp	.LBB5_279
.Lfunc_end5:
	.size	"powers::divide::div_term", .Lfunc_end5-"powers::divide::div_term"

	.section	.rodata.cst8,"aM",@progbits,8
	.p2align	3, 0x0
.LCPI6_0:
	.quad	0xc330000000000000
.LCPI6_1:
	.quad	0x4330000000000000
.LCPI6_2:
	.quad	0x3ff0000000000000
.LCPI6_3:
	.quad	0x4050000000000000
.LCPI6_4:
	.quad	0x43e0000000000000
	.section	.rodata.cst16,"aM",@progbits,16
	.p2align	4, 0x0
.LCPI6_5:
	.zero	16,1
.LCPI6_6:
	.zero	4
	.long	4294967295
	.long	4294967295
	.long	4294967295
	.section	".text.powers::raise::power_by","ax",@progbits
	.p2align	4
	.type	"powers::raise::power_by",@function
"powers::raise::power_by":
	pushq	%rbp
	pushq	%r15
	pushq	%r14
	pushq	%r13
	pushq	%r12
	pushq	%rbx
	subq	$216, %rsp
	movq	%rcx, %r15
	movq	%rdx, %r12
	movq	%rsi, %r13
	movq	%rdi, %rbp
	movapd	%xmm0, %xmm1
	movsd	.LCPI6_0(%rip), %xmm2
	movapd	%xmm2, %xmm4
	movsd	.LCPI6_1(%rip), %xmm3
	movapd	%xmm3, %xmm5
	cmplesd	%xmm1, %xmm5
	movapd	%xmm1, %xmm6
	cmplesd	%xmm4, %xmm6
	orpd	%xmm5, %xmm6
	movd	%xmm6, %eax
	testb	$1, %al
	je	.LBB6_2
	movapd	%xmm0, %xmm4
	subsd	%xmm0, %xmm4
	xorps	%xmm7, %xmm7
	cmpeqsd	%xmm7, %xmm4
	movq	%xmm4, %rcx
	andl	$1, %ecx
	ucomisd	%xmm7, %xmm1
	jae	.LBB6_6
	jmp	.LBB6_13
.LBB6_2:
	xorps	%xmm7, %xmm7
	ucomisd	%xmm1, %xmm7
	jbe	.LBB6_4
	movsd	.LCPI6_0(%rip), %xmm4
	addsd	%xmm0, %xmm4
	addsd	.LCPI6_1(%rip), %xmm4
	jmp	.LBB6_5
.LBB6_4:
	movsd	.LCPI6_1(%rip), %xmm4
	addsd	%xmm0, %xmm4
	addsd	.LCPI6_0(%rip), %xmm4
.LBB6_5:
	cmpeqsd	%xmm1, %xmm4
	movq	%xmm4, %rcx
	andl	$1, %ecx
	ucomisd	%xmm7, %xmm1
	jb	.LBB6_13
.LBB6_6:
	testb	%cl, %cl
	je	.LBB6_13
	ucomisd	%xmm7, %xmm1
	jne	.LBB6_34
	jp	.LBB6_34
.LBB6_8:
	movq	(%r13), %rax
	movb	$1, (%rax,%r8)
	movq	16(%r13), %rax
	movb	$0, (%rax,%r8)
	leaq	(%r8,%r8,2), %rax
	movq	32(%r13), %rcx
	xorpd	%xmm0, %xmm0
	movupd	%xmm0, (%rcx,%rax,8)
	movq	$0, 16(%rcx,%rax,8)
	movl	$1, %r11d
.LBB6_9:
	xorl	%esi, %esi
.LBB6_10:
	xorl	%edi, %edi
.LBB6_11:
	xorl	%r9d, %r9d
.LBB6_12:
	movb	%r9b, (%rbp)
	movb	%dil, 1(%rbp)
	movq	%r11, 8(%rbp)
	movq	%rsi, 16(%rbp)
	jmp	.LBB6_33
.LBB6_13:
	movq	(%r13), %rdx
	movq	16(%r13), %r10
	leaq	(%r15,%r12), %rbx
	leaq	(%r10,%r12), %r11
	leaq	(%rdx,%r12), %rcx
	xorl	%edi, %edi
	.p2align	4
.LBB6_14:
	leaq	(%r12,%rdi), %r9
	cmpq	%rbx, %r9
	jae	.LBB6_31
	movzbl	(%r11,%rdi), %r9d
	notq	%r9
	addq	%r15, %r9
	cmpq	%rdi, %r9
	jne	.LBB6_31
	movzbl	(%rcx,%rdi), %r9d
	incq	%rdi
	cmpl	$2, %r9d
	je	.LBB6_14
	cmpl	$1, %r9d
	jne	.LBB6_31
	movq	%r15, 24(%rsp)
	movq	32(%r13), %rdi
	cmpq	%rbx, %r12
	jae	.LBB6_24
	movsd	.LCPI6_2(%rip), %xmm4
	movq	24(%rsp), %rcx
	leaq	-1(%rcx), %rbx
	leaq	(%r12,%r12,2), %rcx
	leaq	(%rdi,%rcx,8), %r14
	addq	$16, %r14
	xorl	%r15d, %r15d
	.p2align	4
.LBB6_20:
	movsd	-8(%r14), %xmm5
	ucomisd	%xmm4, %xmm5
	jne	.LBB6_66
	jp	.LBB6_66
	movsd	(%r14), %xmm5
	ucomisd	%xmm7, %xmm5
	jne	.LBB6_66
	jp	.LBB6_66
	cmpq	%r15, %rbx
	je	.LBB6_24
	addq	$24, %r14
	cmpb	$0, (%r11,%r15)
	leaq	1(%r15), %r15
	jne	.LBB6_20
.LBB6_24:
	cmpq	%r12, %r8
	jbe	.LBB6_62
	movq	24(%rsp), %rbx
	testq	%rbx, %rbx
	je	.LBB6_65
	movq	%rbx, %r11
	testb	$1, %bl
	je	.LBB6_28
	leaq	-1(%rbx), %r11
	leaq	(%rbx,%r12), %rcx
	decq	%rcx
	movzbl	(%rdx,%rcx), %esi
	leaq	-1(%rbx,%r8), %r9
	movb	%sil, (%rdx,%r9)
	movzbl	(%r10,%rcx), %esi
	movb	%sil, (%r10,%r9)
	leaq	(%rcx,%rcx,2), %rcx
	leaq	(%r9,%r9,2), %rsi
	movupd	(%rdi,%rcx,8), %xmm4
	movq	16(%rdi,%rcx,8), %rcx
	movq	%rcx, 16(%rdi,%rsi,8)
	movupd	%xmm4, (%rdi,%rsi,8)
.LBB6_28:
	cmpq	$1, %rbx
	je	.LBB6_81
	leaq	(%r11,%r8), %rcx
	shlq	$3, %rcx
	leaq	(%rcx,%rcx,2), %rbx
	addq	$-48, %rdi
	leaq	(%r10,%r8), %r14
	decq	%r14
	leaq	(%rdx,%r8), %r15
	decq	%r15
	leaq	(%r11,%r12), %rcx
	shlq	$3, %rcx
	movq	%r12, %rsi
	leaq	(%rcx,%rcx,2), %r12
	addq	%rsi, %r10
	decq	%r10
	addq	%rsi, %rdx
	decq	%rdx
	xorl	%r9d, %r9d
	.p2align	4
.LBB6_30:
	movzbl	(%rdx,%r11), %ecx
	movb	%cl, (%r15,%r11)
	movzbl	(%r10,%r11), %ecx
	movb	%cl, (%r14,%r11)
	movups	24(%rdi,%r12), %xmm4
	movq	40(%rdi,%r12), %rcx
	movq	%rcx, 40(%rdi,%rbx)
	movups	%xmm4, 24(%rdi,%rbx)
	movzbl	-1(%rdx,%r11), %ecx
	movb	%cl, -1(%r15,%r11)
	movzbl	-1(%r10,%r11), %ecx
	movb	%cl, -1(%r14,%r11)
	movupd	(%rdi,%r12), %xmm4
	movq	16(%rdi,%r12), %rcx
	movq	%rcx, 16(%rdi,%rbx)
	movupd	%xmm4, (%rdi,%rbx)
	addq	$2, %r9
	addq	$-48, %rdi
	addq	$-2, %r14
	addq	$-2, %r15
	addq	$-2, %r10
	addq	$-2, %rdx
	cmpq	%r9, %r11
	jne	.LBB6_30
	jmp	.LBB6_81
.LBB6_31:
	movw	$1537, (%rbp)
.LBB6_32:
	xorpd	%xmm0, %xmm0
	movupd	%xmm0, 8(%rbp)
.LBB6_33:
	addq	$216, %rsp
	popq	%rbx
	popq	%r12
	popq	%r13
	popq	%r14
	popq	%r15
	popq	%rbp
	retq
.LBB6_34:
	testb	$1, %al
	je	.LBB6_36
	movapd	%xmm0, %xmm2
	subsd	%xmm0, %xmm2
	cmpeqsd	%xmm7, %xmm2
	jmp	.LBB6_37
.LBB6_36:
	movsd	.LCPI6_1(%rip), %xmm2
	addsd	%xmm0, %xmm2
	addsd	.LCPI6_0(%rip), %xmm2
	cmpeqsd	%xmm1, %xmm2
.LBB6_37:
	movq	%xmm2, %rax
	andl	$1, %eax
	movsd	.LCPI6_3(%rip), %xmm2
	ucomisd	%xmm1, %xmm2
	jb	.LBB6_54
	ucomisd	%xmm7, %xmm1
	jbe	.LBB6_54
	testb	%al, %al
	je	.LBB6_54
	cvttsd2si	%xmm0, %rax
	movq	%rax, %rsi
	sarq	$63, %rsi
	subsd	.LCPI6_4(%rip), %xmm0
	cvttsd2si	%xmm0, %rcx
	andq	%rsi, %rcx
	orq	%rax, %rcx
	je	.LBB6_8
	movq	%rcx, %rax
	decq	%rax
	movq	%rax, 80(%rsp)
	je	.LBB6_67
	cmpq	$1, %r15
	movq	%r8, 168(%rsp)
	movq	%r13, 72(%rsp)
	movsd	%xmm7, 160(%rsp)
	jne	.LBB6_75
	movq	(%r13), %rax
	leaq	(,%r12,8), %rsi
	leaq	(%rsi,%rsi,2), %rbx
	cmpb	$1, (%rax,%r12)
	jne	.LBB6_106
	movq	32(%r13), %rdx
	movsd	(%rdx,%rbx), %xmm0
	movupd	8(%rdx,%rbx), %xmm1
	movapd	%xmm0, %xmm3
	movapd	%xmm1, %xmm2
	cmpq	$1, 80(%rsp)
	je	.LBB6_50
	movapd	%xmm1, %xmm4
	shufpd	$1, %xmm1, %xmm4
	addq	$-2, %rcx
	movapd	%xmm0, %xmm3
	movapd	%xmm1, %xmm2
.LBB6_46:
	addsd	%xmm0, %xmm3
	movapd	%xmm3, %xmm5
	subsd	%xmm3, %xmm5
	movb	$1, %r9b
	ucomisd	%xmm7, %xmm5
	jne	.LBB6_197
	jp	.LBB6_197
	movapd	%xmm2, %xmm5
	unpcklpd	%xmm2, %xmm5
	mulpd	%xmm1, %xmm5
	unpckhpd	%xmm2, %xmm2
	mulpd	%xmm4, %xmm2
	movapd	%xmm5, %xmm6
	subpd	%xmm2, %xmm6
	addpd	%xmm5, %xmm2
	movapd	%xmm2, %xmm5
	movsd	%xmm6, %xmm5
	xorpd	%xmm2, %xmm2
	addpd	%xmm5, %xmm2
	movapd	%xmm2, %xmm5
	subpd	%xmm2, %xmm5
	movapd	%xmm5, %xmm6
	xorl	%r11d, %r11d
	ucomisd	%xmm7, %xmm6
	movb	$14, %dil
	jne	.LBB6_300
	jp	.LBB6_300
	unpckhpd	%xmm5, %xmm5
	ucomisd	%xmm7, %xmm5
	jne	.LBB6_300
	jp	.LBB6_300
	decq	%rcx
	jne	.LBB6_46
.LBB6_50:
	addsd	%xmm3, %xmm0
	movapd	%xmm0, %xmm3
	subsd	%xmm0, %xmm3
	movb	$1, %r9b
	ucomisd	%xmm7, %xmm3
	jne	.LBB6_197
	jp	.LBB6_197
	movapd	%xmm2, %xmm3
	unpcklpd	%xmm2, %xmm3
	mulpd	%xmm1, %xmm3
	shufpd	$1, %xmm1, %xmm1
	unpckhpd	%xmm2, %xmm2
	mulpd	%xmm1, %xmm2
	movapd	%xmm3, %xmm1
	subpd	%xmm2, %xmm1
	addpd	%xmm3, %xmm2
	movsd	%xmm1, %xmm2
	xorpd	%xmm1, %xmm1
	addpd	%xmm2, %xmm1
	movapd	%xmm1, %xmm2
	subpd	%xmm1, %xmm2
	movapd	%xmm2, %xmm3
	xorl	%r11d, %r11d
	ucomisd	%xmm7, %xmm3
	movb	$14, %dil
	jne	.LBB6_300
	jp	.LBB6_300
	unpckhpd	%xmm2, %xmm2
	ucomisd	%xmm7, %xmm2
	jne	.LBB6_300
	jp	.LBB6_300
	movb	$1, (%rax,%r8)
	movq	16(%r13), %rax
	movb	$0, (%rax,%r8)
	leaq	(%r8,%r8,2), %rax
	movq	32(%r13), %rcx
	movsd	%xmm0, (%rcx,%rax,8)
	movupd	%xmm1, 8(%rcx,%rax,8)
	movl	$1, %r11d
	xorl	%edi, %edi
	movq	80(%rsp), %rsi
	jmp	.LBB6_11
.LBB6_54:
	addq	%r12, %r15
	movb	$1, %r9b
	movb	$15, %dil
	cmpq	%r15, %r12
	jae	.LBB6_297
	movq	%rbp, 40(%rsp)
	movq	(%r13), %r14
	movq	16(%r13), %rbp
	movq	%r12, %rbx
	movq	%r12, 32(%rsp)
	movq	%r15, 24(%rsp)
.LBB6_56:
	movzbl	(%rbp,%rbx), %eax
	movq	%rax, 96(%rsp)
	movzbl	(%r14,%rbx), %r15d
	incq	%rbx
	.p2align	4
.LBB6_57:
	movzbl	(%rbp,%r12), %r13d
	movzbl	(%r14,%r12), %ecx
	incq	%r12
	movq	%rbp, 8(%rsp)
	movq	%r14, (%rsp)
	movq	$3, 16(%rsp)
	movzbl	%r15b, %edi
	movq	%rbx, %rsi
	movq	96(%rsp), %rdx
	movq	%r12, %r8
	movq	%r13, %r9
	callq	"arithmetic::multiply::can_pair"
	testb	%al, %al
	je	.LBB6_61
	addq	%r13, %r12
	cmpq	24(%rsp), %r12
	jb	.LBB6_57
	addq	96(%rsp), %rbx
	xorl	%r11d, %r11d
	movq	24(%rsp), %r15
	cmpq	%r15, %rbx
	movq	32(%rsp), %r12
	movb	$1, %r9b
	jb	.LBB6_56
	xorl	%esi, %esi
	movq	40(%rsp), %rbp
	movb	$15, %dil
	jmp	.LBB6_12
.LBB6_61:
	movb	$6, %dil
	xorl	%r11d, %r11d
	xorl	%esi, %esi
	movq	40(%rsp), %rbp
	movb	$1, %r9b
	jmp	.LBB6_12
.LBB6_62:
	movq	24(%rsp), %rbx
	testq	%rbx, %rbx
	je	.LBB6_65
	cmpq	$1, %rbx
	jne	.LBB6_77
	xorl	%r11d, %r11d
	jmp	.LBB6_80
.LBB6_65:
	xorl	%eax, %eax
	xorl	%ecx, %ecx
	jmp	.LBB6_194
.LBB6_66:
	movw	$3329, (%rbp)
	jmp	.LBB6_32
.LBB6_67:
	movq	(%r13), %rcx
	movq	16(%r13), %r9
	movq	32(%r13), %rax
	cmpq	%r12, %r8
	jbe	.LBB6_103
	testq	%r15, %r15
	je	.LBB6_184
	movq	%r15, %rsi
	testb	$1, %r15b
	je	.LBB6_71
	leaq	-1(%r15), %rsi
	leaq	(%r15,%r12), %rdi
	decq	%rdi
	movzbl	(%rcx,%rdi), %r10d
	leaq	-1(%r15,%r8), %r11
	movb	%r10b, (%rcx,%r11)
	movzbl	(%r9,%rdi), %r10d
	movb	%r10b, (%r9,%r11)
	leaq	(%rdi,%rdi,2), %rdi
	leaq	(%r11,%r11,2), %r10
	movupd	(%rax,%rdi,8), %xmm0
	movq	16(%rax,%rdi,8), %rdi
	movq	%rdi, 16(%rax,%r10,8)
	movupd	%xmm0, (%rax,%r10,8)
.LBB6_71:
	cmpq	$1, %r15
	je	.LBB6_202
	leaq	(%rsi,%r8), %rdi
	shlq	$3, %rdi
	leaq	(%rdi,%rdi,2), %r10
	addq	$-48, %rax
	leaq	(%r9,%r8), %r11
	decq	%r11
	addq	%rcx, %r8
	decq	%r8
	leaq	(%rsi,%r12), %rdi
	shlq	$3, %rdi
	leaq	(%rdi,%rdi,2), %rbx
	addq	%r12, %r9
	decq	%r9
	addq	%r12, %rcx
	decq	%rcx
	xorl	%edx, %edx
.LBB6_73:
	movzbl	(%rcx,%rsi), %edi
	movb	%dil, (%r8,%rsi)
	movzbl	(%r9,%rsi), %edi
	movb	%dil, (%r11,%rsi)
	movups	24(%rax,%rbx), %xmm0
	movq	40(%rax,%rbx), %rdi
	movq	%rdi, 40(%rax,%r10)
	movups	%xmm0, 24(%rax,%r10)
	movzbl	-1(%rcx,%rsi), %edi
	movb	%dil, -1(%r8,%rsi)
	movzbl	-1(%r9,%rsi), %edi
	movb	%dil, -1(%r11,%rsi)
	movupd	(%rax,%rbx), %xmm0
	movq	16(%rax,%rbx), %rdi
	movq	%rdi, 16(%rax,%r10)
	movupd	%xmm0, (%rax,%r10)
	addq	$2, %rdx
	addq	$-48, %rax
	addq	$-2, %r11
	addq	$-2, %r8
	addq	$-2, %r9
	addq	$-2, %rcx
	cmpq	%rdx, %rsi
	jne	.LBB6_73
	movq	%r15, %r11
	xorl	%edi, %edi
	xorl	%r9d, %r9d
	xorl	%esi, %esi
	jmp	.LBB6_12
.LBB6_75:
	leaq	(%r15,%r12), %r14
	cmpq	%r14, %r12
	jb	.LBB6_109
	xorl	%edx, %edx
	jmp	.LBB6_111
.LBB6_77:
	movq	%r13, 72(%rsp)
	movq	%rbp, 40(%rsp)
	andl	$254, %ebx
	leaq	(,%r12,8), %rcx
	leaq	(%rcx,%rcx,2), %r14
	leaq	(%r10,%r12), %r15
	incq	%r15
	movq	%r12, 32(%rsp)
	leaq	1(%rdx,%r12), %r12
	leaq	(,%r8,8), %rcx
	leaq	(%rcx,%rcx,2), %r13
	leaq	(%r10,%r8), %rbp
	incq	%rbp
	leaq	(%rdx,%r8), %r9
	incq	%r9
	xorl	%r11d, %r11d
	movq	%rdi, %rcx
	.p2align	4
.LBB6_78:
	movzbl	-1(%r12,%r11), %esi
	movb	%sil, -1(%r9,%r11)
	movzbl	-1(%r15,%r11), %esi
	movb	%sil, -1(%rbp,%r11)
	movups	(%rcx,%r14), %xmm4
	movq	16(%rcx,%r14), %rsi
	movq	%rsi, 16(%rcx,%r13)
	movups	%xmm4, (%rcx,%r13)
	movzbl	(%r12,%r11), %esi
	movb	%sil, (%r9,%r11)
	movzbl	(%r15,%r11), %esi
	movb	%sil, (%rbp,%r11)
	movupd	24(%rcx,%r14), %xmm4
	movq	40(%rcx,%r14), %rsi
	movq	%rsi, 40(%rcx,%r13)
	movupd	%xmm4, 24(%rcx,%r13)
	addq	$2, %r11
	addq	$48, %rcx
	cmpq	%r11, %rbx
	jne	.LBB6_78
	testb	$1, 24(%rsp)
	movq	40(%rsp), %rbp
	movq	72(%rsp), %r13
	movq	32(%rsp), %r12
	je	.LBB6_81
.LBB6_80:
	addq	%r11, %r12
	movzbl	(%rdx,%r12), %ecx
	addq	%r8, %r11
	movb	%cl, (%rdx,%r11)
	movzbl	(%r10,%r12), %ecx
	movb	%cl, (%r10,%r11)
	leaq	(%r12,%r12,2), %rcx
	leaq	(%r11,%r11,2), %rdx
	movupd	(%rdi,%rcx,8), %xmm4
	movq	16(%rdi,%rcx,8), %rcx
	movq	%rcx, 16(%rdi,%rdx,8)
	movupd	%xmm4, (%rdi,%rdx,8)
.LBB6_81:
	movq	24(%rsp), %r11
	leaq	(%r8,%r11), %rcx
	testb	$1, %al
	je	.LBB6_88
	movapd	%xmm0, %xmm1
	subsd	%xmm0, %xmm1
	movabsq	$4607182418800017408, %rdx
	leaq	(%r8,%r8,2), %rax
	leaq	16(,%rax,8), %r9
	.p2align	4
.LBB6_83:
	movq	(%r13), %rax
	movq	32(%r13), %r10
	cmpb	$1, (%rax,%r8)
	je	.LBB6_85
	xorpd	%xmm2, %xmm2
	jmp	.LBB6_86
	.p2align	4
.LBB6_85:
	movsd	-16(%r10,%r9), %xmm2
	mulsd	%xmm0, %xmm2
.LBB6_86:
	movapd	%xmm2, %xmm3
	subsd	%xmm2, %xmm3
	ucomisd	%xmm7, %xmm3
	jne	.LBB6_193
	jp	.LBB6_193
	xorl	%eax, %eax
	ucomisd	%xmm7, %xmm1
	movsd	(%r10,%r9), %xmm3
	mulsd	%xmm0, %xmm3
	movq	%xmm3, %rsi
	movl	$0, %edi
	cmovneq	%rsi, %rdi
	cmovpq	%rsi, %rdi
	movsd	%xmm2, -16(%r10,%r9)
	movq	%rdx, -8(%r10,%r9)
	movq	%rdi, (%r10,%r9)
	incq	%r8
	addq	$24, %r9
	cmpq	%rcx, %r8
	jb	.LBB6_83
	jmp	.LBB6_192
.LBB6_88:
	ucomisd	%xmm1, %xmm7
	jbe	.LBB6_95
	addsd	%xmm0, %xmm2
	addsd	%xmm3, %xmm2
	movabsq	$4607182418800017408, %rdx
	leaq	(%r8,%r8,2), %rax
	leaq	16(,%rax,8), %r9
	.p2align	4
.LBB6_90:
	movq	(%r13), %rax
	movq	32(%r13), %r10
	cmpb	$1, (%rax,%r8)
	je	.LBB6_92
	xorpd	%xmm3, %xmm3
	jmp	.LBB6_93
.LBB6_92:
	movsd	-16(%r10,%r9), %xmm3
	mulsd	%xmm0, %xmm3
.LBB6_93:
	movapd	%xmm3, %xmm4
	subsd	%xmm3, %xmm4
	ucomisd	%xmm7, %xmm4
	jne	.LBB6_193
	jp	.LBB6_193
	xorl	%eax, %eax
	ucomisd	%xmm1, %xmm2
	movsd	(%r10,%r9), %xmm4
	mulsd	%xmm0, %xmm4
	movq	%xmm4, %rsi
	movl	$0, %edi
	cmovneq	%rsi, %rdi
	cmovpq	%rsi, %rdi
	movsd	%xmm3, -16(%r10,%r9)
	movq	%rdx, -8(%r10,%r9)
	movq	%rdi, (%r10,%r9)
	incq	%r8
	addq	$24, %r9
	cmpq	%rcx, %r8
	jb	.LBB6_90
	jmp	.LBB6_192
.LBB6_95:
	addsd	%xmm0, %xmm3
	addsd	%xmm2, %xmm3
	ucomisd	%xmm1, %xmm3
	jne	.LBB6_186
	jp	.LBB6_186
	movabsq	$4607182418800017408, %rax
	leaq	(,%r8,8), %rdx
	leaq	(%rdx,%rdx,2), %rdx
.LBB6_97:
	movq	(%r13), %rdi
	movq	32(%r13), %rsi
	cmpb	$1, (%rdi,%r8)
	je	.LBB6_99
	xorpd	%xmm1, %xmm1
	jmp	.LBB6_100
.LBB6_99:
	movsd	(%rsi,%rdx), %xmm1
	mulsd	%xmm0, %xmm1
.LBB6_100:
	movapd	%xmm1, %xmm2
	subsd	%xmm1, %xmm2
	ucomisd	%xmm7, %xmm2
	jne	.LBB6_193
	jp	.LBB6_193
	movsd	%xmm1, (%rsi,%rdx)
	movq	%rax, 8(%rsi,%rdx)
	movq	$0, 16(%rsi,%rdx)
	incq	%r8
	addq	$24, %rdx
	cmpq	%rcx, %r8
	jb	.LBB6_97
	xorl	%eax, %eax
	jmp	.LBB6_192
.LBB6_103:
	testq	%r15, %r15
	je	.LBB6_184
	cmpq	$1, %r15
	jne	.LBB6_198
	xorl	%esi, %esi
	jmp	.LBB6_201
.LBB6_106:
	movq	%r12, %rdx
	incq	%rdx
	je	.LBB6_203
	movq	16(%r13), %rax
	xorl	%r10d, %r10d
	movq	%r12, %rcx
.LBB6_108:
	movzbl	(%rax,%rcx), %esi
	addq	%rsi, %rcx
	incq	%rcx
	incq	%r10
	cmpq	%rdx, %rcx
	jb	.LBB6_108
	jmp	.LBB6_204
.LBB6_109:
	movq	16(%r13), %rax
	xorl	%edx, %edx
	movq	%r12, %rcx
	.p2align	4
.LBB6_110:
	movzbl	(%rax,%rcx), %esi
	addq	%rsi, %rcx
	incq	%rcx
	incq	%rdx
	cmpq	%r14, %rcx
	jb	.LBB6_110
.LBB6_111:
	movl	%r15d, %eax
	andl	$224, %eax
	movq	%rax, 192(%rsp)
	addq	%r12, %rax
	movq	%rax, 184(%rsp)
	movl	%r15d, %eax
	andl	$252, %eax
	movq	%rax, 208(%rsp)
	addq	%r12, %rax
	movq	%rax, 200(%rsp)
	xorl	%esi, %esi
	movq	%r12, %rbx
	movq	%r15, %r11
	movq	$0, 104(%rsp)
	movq	%r14, 96(%rsp)
	movq	%rbp, 40(%rsp)
	movq	%r15, 24(%rsp)
	movq	%rdx, 152(%rsp)
.LBB6_112:
	leaq	(%r11,%rbx), %r9
	movq	16(%r13), %r10
	movq	%r11, %rdi
	cmpq	%r15, %rdx
	je	.LBB6_116
	xorl	%edi, %edi
	cmpq	%r9, %rbx
	jae	.LBB6_116
	movq	%rbx, %rax
	.p2align	4
.LBB6_115:
	movzbl	(%r10,%rax), %ecx
	addq	%rcx, %rax
	incq	%rax
	incq	%rdi
	cmpq	%r9, %rax
	jb	.LBB6_115
.LBB6_116:
	movq	%r10, 56(%rsp)
	movq	%rdi, 112(%rsp)
	movq	%rsi, 88(%rsp)
	xorpd	%xmm0, %xmm0
	movapd	%xmm0, 128(%rsp)
	movq	(%r13), %rdx
	movb	$1, %cl
	movb	$1, %al
	cmpq	%r9, %rbx
	movq	%r9, 64(%rsp)
	movq	%rdx, 120(%rsp)
	jae	.LBB6_128
	movq	%rbx, %r10
	cmpq	$4, %r11
	jb	.LBB6_127
	cmpq	$32, %r11
	jae	.LBB6_120
	xorl	%r9d, %r9d
	jmp	.LBB6_124
.LBB6_120:
	movq	%r11, %r9
	andq	$-32, %r9
	leaq	(%rdx,%rbx), %rax
	addq	$16, %rax
	movdqa	.LCPI6_5(%rip), %xmm1
	xorl	%esi, %esi
	movdqa	%xmm1, %xmm2
	movdqa	%xmm1, %xmm0
.LBB6_121:
	movdqu	-16(%rax,%rsi), %xmm3
	movdqu	(%rax,%rsi), %xmm4
	pcmpeqb	%xmm1, %xmm3
	pand	%xmm3, %xmm2
	pcmpeqb	%xmm1, %xmm4
	pand	%xmm4, %xmm0
	addq	$32, %rsi
	cmpq	%rsi, %r9
	jne	.LBB6_121
	pand	%xmm2, %xmm0
	psllw	$7, %xmm0
	pmovmskb	%xmm0, %eax
	cmpl	$65535, %eax
	sete	%al
	cmpq	%r9, %r11
	je	.LBB6_128
	testb	$28, %r11b
	je	.LBB6_183
.LBB6_124:
	movq	%r11, %rdx
	andq	$-4, %r11
	leaq	(%rbx,%r11), %r10
	movzbl	%al, %eax
	movd	%eax, %xmm1
	movaps	.LCPI6_6(%rip), %xmm0
	movss	%xmm1, %xmm0
	movq	120(%rsp), %rax
	addq	%rbx, %rax
	.p2align	4
.LBB6_125:
	movd	(%rax,%r9), %xmm1
	punpcklbw	%xmm1, %xmm1
	punpcklwd	%xmm1, %xmm1
	pcmpeqb	.LCPI6_5(%rip), %xmm1
	andps	%xmm1, %xmm0
	addq	$4, %r9
	cmpq	%r9, %r11
	jne	.LBB6_125
	pslld	$31, %xmm0
	movmskps	%xmm0, %eax
	xorl	$15, %eax
	sete	%al
	cmpq	%r11, %rdx
	movq	%rdx, %r11
	movq	64(%rsp), %r9
	movq	120(%rsp), %rdx
	je	.LBB6_128
	.p2align	4
.LBB6_127:
	cmpb	$1, (%rdx,%r10)
	sete	%sil
	andb	%sil, %al
	incq	%r10
	cmpq	%r10, %r9
	jne	.LBB6_127
.LBB6_128:
	cmpq	%r14, %r12
	jae	.LBB6_146
	movb	$1, %cl
	movq	%r12, %rdi
	cmpq	$4, %r15
	jb	.LBB6_145
	cmpq	$32, %r15
	jae	.LBB6_132
	xorl	%r9d, %r9d
	jmp	.LBB6_142
.LBB6_132:
	movdqu	(%rdx,%r12), %xmm4
	movdqu	16(%rdx,%r12), %xmm3
	movdqa	.LCPI6_5(%rip), %xmm2
	movq	192(%rsp), %r9
	cmpl	$32, %r9d
	jne	.LBB6_134
	pcmpeqb	%xmm2, %xmm4
	pcmpeqb	%xmm2, %xmm3
	movdqa	%xmm4, %xmm0
	movdqa	%xmm3, %xmm1
	jmp	.LBB6_140
.LBB6_134:
	pcmpeqb	%xmm2, %xmm3
	pcmpeqb	%xmm2, %xmm4
	movdqu	32(%rdx,%r12), %xmm0
	movdqu	48(%rdx,%r12), %xmm1
	pcmpeqb	%xmm2, %xmm0
	pand	%xmm4, %xmm0
	pcmpeqb	%xmm2, %xmm1
	pand	%xmm3, %xmm1
	cmpl	$64, %r9d
	je	.LBB6_140
	movdqu	64(%rdx,%r12), %xmm3
	movdqu	80(%rdx,%r12), %xmm4
	pcmpeqb	%xmm2, %xmm3
	pcmpeqb	%xmm2, %xmm4
	pand	%xmm3, %xmm0
	pand	%xmm4, %xmm1
	cmpl	$96, %r9d
	je	.LBB6_140
	movdqu	96(%rdx,%r12), %xmm3
	movdqu	112(%rdx,%r12), %xmm4
	pcmpeqb	%xmm2, %xmm3
	pcmpeqb	%xmm2, %xmm4
	pand	%xmm3, %xmm0
	pand	%xmm4, %xmm1
	cmpl	$128, %r9d
	je	.LBB6_140
	movdqu	128(%rdx,%r12), %xmm3
	movdqu	144(%rdx,%r12), %xmm4
	pcmpeqb	%xmm2, %xmm3
	pcmpeqb	%xmm2, %xmm4
	pand	%xmm3, %xmm0
	pand	%xmm4, %xmm1
	cmpl	$160, %r9d
	je	.LBB6_140
	movdqu	160(%rdx,%r12), %xmm3
	movdqu	176(%rdx,%r12), %xmm4
	pcmpeqb	%xmm2, %xmm3
	pcmpeqb	%xmm2, %xmm4
	pand	%xmm3, %xmm0
	pand	%xmm4, %xmm1
	cmpl	$192, %r9d
	je	.LBB6_140
	movdqu	192(%rdx,%r12), %xmm3
	movdqu	208(%rdx,%r12), %xmm4
	pcmpeqb	%xmm2, %xmm3
	pcmpeqb	%xmm2, %xmm4
	pand	%xmm3, %xmm0
	pand	%xmm4, %xmm1
.LBB6_140:
	pand	%xmm1, %xmm0
	psllw	$7, %xmm0
	pmovmskb	%xmm0, %ecx
	cmpl	$65535, %ecx
	sete	%cl
	cmpq	%r9, %r15
	je	.LBB6_146
	movq	184(%rsp), %rdi
	testb	$28, %r15b
	je	.LBB6_145
.LBB6_142:
	movzbl	%cl, %ecx
	movd	%ecx, %xmm1
	movaps	.LCPI6_6(%rip), %xmm0
	movss	%xmm1, %xmm0
	leaq	(%rdx,%r12), %rcx
	movq	208(%rsp), %rdx
	.p2align	4
.LBB6_143:
	movd	(%rcx,%r9), %xmm1
	punpcklbw	%xmm1, %xmm1
	punpcklwd	%xmm1, %xmm1
	pcmpeqb	.LCPI6_5(%rip), %xmm1
	andps	%xmm1, %xmm0
	addq	$4, %r9
	cmpq	%r9, %rdx
	jne	.LBB6_143
	pslld	$31, %xmm0
	movmskps	%xmm0, %ecx
	xorl	$15, %ecx
	sete	%cl
	movq	200(%rsp), %rdi
	cmpq	%rdx, %r15
	movq	120(%rsp), %rdx
	je	.LBB6_146
	.p2align	4
.LBB6_145:
	cmpb	$1, (%rdx,%rdi)
	sete	%sil
	andb	%sil, %cl
	incq	%rdi
	cmpq	%rdi, %r14
	jne	.LBB6_145
.LBB6_146:
	andb	%cl, %al
	movq	80(%rsp), %r15
	subl	104(%rsp), %r15d
	notl	%r15d
	shll	$6, %r15d
	andl	$64, %r15d
	addq	%r8, %r15
	cmpb	$1, %al
	movq	56(%rsp), %rdi
	jne	.LBB6_172
	xorl	%r11d, %r11d
	cmpq	%r14, %r12
	movq	64(%rsp), %rax
	jae	.LBB6_177
	cmpq	%rax, %rbx
	movq	112(%rsp), %rcx
	jae	.LBB6_178
	xorl	%r11d, %r11d
.LBB6_150:
	movq	32(%r13), %rax
	leaq	(%rbx,%rbx,2), %rcx
	movsd	(%rax,%rcx,8), %xmm0
	movupd	8(%rax,%rcx,8), %xmm1
	movapd	%xmm1, %xmm2
	shufpd	$1, %xmm1, %xmm2
	movq	%r12, %rax
	movq	%rbx, 48(%rsp)
	jmp	.LBB6_154
.LBB6_151:
	movq	%rdx, %r12
.LBB6_152:
	movq	96(%rsp), %r14
	movb	$1, (%r9,%r11)
	movq	16(%r13), %rcx
	movb	$0, (%rcx,%r11)
	leaq	(%r11,%r11,2), %rcx
	movq	32(%r13), %rsi
	movsd	%xmm4, (%rsi,%rcx,8)
	movupd	%xmm3, 8(%rsi,%rcx,8)
.LBB6_153:
	movq	48(%rsp), %rbx
	incq	%rax
	cmpq	%r14, %rax
	movq	%rbp, %r11
	movq	112(%rsp), %rcx
	movq	64(%rsp), %rdx
	je	.LBB6_171
.LBB6_154:
	movq	32(%r13), %rcx
	leaq	(%rax,%rax,2), %rsi
	movsd	(%rcx,%rsi,8), %xmm4
	addsd	%xmm0, %xmm4
	movapd	%xmm4, %xmm3
	subsd	%xmm4, %xmm3
	ucomisd	%xmm7, %xmm3
	jne	.LBB6_196
	jp	.LBB6_196
	movq	%r12, %rdx
	movq	(%r13), %r9
	movq	16(%r13), %r10
	movsd	8(%rcx,%rsi,8), %xmm3
	movsd	16(%rcx,%rsi,8), %xmm5
	unpcklpd	%xmm5, %xmm5
	mulpd	%xmm2, %xmm5
	unpcklpd	%xmm3, %xmm3
	mulpd	%xmm1, %xmm3
	movapd	%xmm3, %xmm6
	subpd	%xmm5, %xmm6
	addpd	%xmm5, %xmm3
	movsd	%xmm6, %xmm3
	movq	%r11, %rbp
	leaq	(%r11,%r15), %rbx
	movapd	%xmm4, %xmm5
	leaq	(,%rbx,8), %rsi
	leaq	(%rsi,%rsi,2), %r14
	leaq	(%rcx,%r14), %r12
	addq	$8, %r12
	movq	%rbx, %r11
	.p2align	4
.LBB6_156:
	cmpq	%r11, %r15
	jae	.LBB6_160
	decq	%r11
	movsd	-32(%r12), %xmm6
	ucomisd	%xmm6, %xmm5
	seta	%sil
	incb	%sil
	xorl	%edi, %edi
	ucomisd	%xmm5, %xmm6
	movzbl	%sil, %esi
	cmoval	%edi, %esi
	addq	$-24, %r12
	testb	%sil, %sil
	je	.LBB6_156
	movzbl	%sil, %esi
	cmpl	$2, %esi
	jne	.LBB6_168
	incq	%r11
	jmp	.LBB6_161
.LBB6_160:
	movq	%r15, %r11
.LBB6_161:
	xorpd	%xmm5, %xmm5
	addpd	%xmm5, %xmm3
	movapd	%xmm3, %xmm5
	subpd	%xmm3, %xmm5
	movapd	%xmm5, %xmm6
	ucomisd	%xmm7, %xmm6
	movb	$14, %dil
	jne	.LBB6_294
	jp	.LBB6_294
	unpckhpd	%xmm5, %xmm5
	ucomisd	%xmm7, %xmm5
	jne	.LBB6_294
	jp	.LBB6_294
	movq	%rbp, %rsi
	incq	%rsi
	cmpq	$64, %rsi
	ja	.LBB6_293
	movq	%rsi, %rbp
	cmpq	%rbx, %r11
	jae	.LBB6_151
	addq	%r14, %rcx
	movq	%rdx, %r12
	.p2align	4
.LBB6_166:
	movzbl	-1(%r9,%rbx), %esi
	movb	%sil, (%r9,%rbx)
	movzbl	-1(%r10,%rbx), %esi
	movb	%sil, (%r10,%rbx)
	decq	%rbx
	movq	-8(%rcx), %rsi
	movq	%rsi, 16(%rcx)
	movupd	-24(%rcx), %xmm5
	movupd	%xmm5, (%rcx)
	addq	$-24, %rcx
	cmpq	%rbx, %r11
	jb	.LBB6_166
	movq	(%r13), %r9
	jmp	.LBB6_152
.LBB6_168:
	movupd	(%r12), %xmm4
	addpd	%xmm4, %xmm3
	movapd	%xmm3, %xmm4
	subpd	%xmm3, %xmm4
	movapd	%xmm4, %xmm5
	ucomisd	%xmm7, %xmm5
	movb	$14, %dil
	jne	.LBB6_294
	jp	.LBB6_294
	unpckhpd	%xmm4, %xmm4
	ucomisd	%xmm7, %xmm4
	jne	.LBB6_294
	jp	.LBB6_294
	movupd	%xmm3, (%r12)
	movq	%rdx, %r12
	movq	96(%rsp), %r14
	jmp	.LBB6_153
.LBB6_171:
	incq	%rbx
	cmpq	%rdx, %rbx
	movq	40(%rsp), %rbp
	jne	.LBB6_150
	jmp	.LBB6_178
.LBB6_172:
	movq	%r13, %rsi
	movq	64(%rsp), %rdx
	cmpq	%rdx, %rbx
	jae	.LBB6_175
	movq	%rbx, %r13
	movq	%rbx, %rax
	cmpq	%r14, %r12
	jb	.LBB6_179
.LBB6_174:
	movzbl	(%rdi,%rax), %ecx
	addq	%rcx, %rax
	incq	%rax
	cmpq	%rdx, %rax
	jb	.LBB6_174
.LBB6_175:
	movq	%r15, (%rsp)
	movq	$4, 8(%rsp)
	leaq	128(%rsp), %rdi
	movq	%rbx, %rdx
	movq	%r11, %rcx
	movq	%r12, %rbx
	movq	%r12, %r8
	movq	24(%rsp), %r9
	callq	"arithmetic::multiply::expr_mul"
	cmpb	$0, 128(%rsp)
	jne	.LBB6_302
	movq	136(%rsp), %r11
	movq	40(%rsp), %rbp
	movq	168(%rsp), %r8
	movq	72(%rsp), %r13
	movq	%rbx, %r12
	movsd	160(%rsp), %xmm7
.LBB6_177:
	movq	112(%rsp), %rcx
.LBB6_178:
	movq	152(%rsp), %rdx
	imulq	%rdx, %rcx
	movq	88(%rsp), %rsi
	addq	%rcx, %rsi
	movq	104(%rsp), %rcx
	incq	%rcx
	xorl	%edi, %edi
	movq	%r15, %rbx
	movl	$0, %r9d
	movq	%rcx, 104(%rsp)
	cmpq	80(%rsp), %rcx
	movq	24(%rsp), %r15
	jne	.LBB6_112
	jmp	.LBB6_12
.LBB6_179:
	movq	%rbx, 48(%rsp)
	movq	%r11, 176(%rsp)
	movzbl	(%rdi,%r13), %ebp
	movq	120(%rsp), %rax
	movzbl	(%rax,%r13), %r14d
	incq	%r13
	movq	%r12, 32(%rsp)
	movq	%r12, %rbx
.LBB6_180:
	movzbl	(%rdi,%rbx), %r12d
	movzbl	(%rax,%rbx), %ecx
	incq	%rbx
	movq	%rdi, 8(%rsp)
	movq	%rax, (%rsp)
	movq	$3, 16(%rsp)
	movzbl	%r14b, %edi
	movq	%r13, %rsi
	movq	%rbp, %rdx
	movq	%rbx, %r8
	movq	%r12, %r9
	callq	"arithmetic::multiply::can_pair"
	testb	%al, %al
	je	.LBB6_185
	addq	%r12, %rbx
	cmpq	96(%rsp), %rbx
	movq	56(%rsp), %rdi
	movq	120(%rsp), %rax
	jb	.LBB6_180
	addq	%rbp, %r13
	cmpq	64(%rsp), %r13
	movq	72(%rsp), %rsi
	movq	32(%rsp), %r12
	movq	176(%rsp), %r11
	movq	96(%rsp), %r14
	movq	48(%rsp), %rbx
	jb	.LBB6_179
	jmp	.LBB6_175
.LBB6_183:
	addq	%rbx, %r9
	movq	%r9, %r10
	leaq	(%r11,%rbx), %r9
	jmp	.LBB6_127
.LBB6_184:
	xorl	%r11d, %r11d
	jmp	.LBB6_9
.LBB6_185:
	movb	$6, %dil
	jmp	.LBB6_294
.LBB6_186:
	movabsq	$4607182418800017408, %rdx
	leaq	(%r8,%r8,2), %rax
	leaq	16(,%rax,8), %r9
.LBB6_187:
	movq	(%r13), %rsi
	movq	32(%r13), %rax
	cmpb	$1, (%rsi,%r8)
	je	.LBB6_189
	xorpd	%xmm1, %xmm1
	jmp	.LBB6_190
.LBB6_189:
	movsd	-16(%rax,%r9), %xmm1
	mulsd	%xmm0, %xmm1
.LBB6_190:
	movapd	%xmm1, %xmm2
	subsd	%xmm1, %xmm2
	ucomisd	%xmm7, %xmm2
	jne	.LBB6_193
	jp	.LBB6_193
	movsd	(%rax,%r9), %xmm2
	mulsd	%xmm0, %xmm2
	movsd	%xmm1, -16(%rax,%r9)
	movq	%rdx, -8(%rax,%r9)
	movsd	%xmm2, (%rax,%r9)
	incq	%r8
	addq	$24, %r9
	xorl	%eax, %eax
	cmpq	%rcx, %r8
	jb	.LBB6_187
.LBB6_192:
	xorl	%ecx, %ecx
	jmp	.LBB6_195
.LBB6_193:
	movb	$17, %cl
	movb	$1, %al
.LBB6_194:
	xorl	%r11d, %r11d
.LBB6_195:
	movb	%al, (%rbp)
	movb	%cl, 1(%rbp)
	movq	%r11, 8(%rbp)
	movq	$0, 16(%rbp)
	jmp	.LBB6_33
.LBB6_196:
	movb	$17, %dil
	jmp	.LBB6_294
.LBB6_197:
	movb	$17, %dil
	xorl	%r11d, %r11d
	movq	80(%rsp), %rsi
	jmp	.LBB6_12
.LBB6_198:
	movq	%rbp, 40(%rsp)
	movq	%r15, 24(%rsp)
	movl	%r15d, %r10d
	andl	$254, %r10d
	leaq	(,%r12,8), %rsi
	leaq	(%rsi,%rsi,2), %r11
	leaq	(%r9,%r12), %rbx
	incq	%rbx
	movq	%r12, %rdx
	leaq	1(%rcx,%r12), %r14
	leaq	(,%r8,8), %rsi
	leaq	(%rsi,%rsi,2), %r15
	leaq	(%r9,%r8), %r12
	incq	%r12
	leaq	(%rcx,%r8), %r13
	incq	%r13
	xorl	%esi, %esi
	movq	%rax, %rdi
.LBB6_199:
	movzbl	-1(%r14,%rsi), %ebp
	movb	%bpl, -1(%r13,%rsi)
	movzbl	-1(%rbx,%rsi), %ebp
	movb	%bpl, -1(%r12,%rsi)
	movups	(%rdi,%r11), %xmm0
	movq	16(%rdi,%r11), %rbp
	movq	%rbp, 16(%rdi,%r15)
	movups	%xmm0, (%rdi,%r15)
	movzbl	(%r14,%rsi), %ebp
	movb	%bpl, (%r13,%rsi)
	movzbl	(%rbx,%rsi), %ebp
	movb	%bpl, (%r12,%rsi)
	movupd	24(%rdi,%r11), %xmm0
	movq	40(%rdi,%r11), %rbp
	movq	%rbp, 40(%rdi,%r15)
	movupd	%xmm0, 24(%rdi,%r15)
	addq	$2, %rsi
	addq	$48, %rdi
	cmpq	%rsi, %r10
	jne	.LBB6_199
	movq	24(%rsp), %r15
	testb	$1, %r15b
	movq	40(%rsp), %rbp
	movq	%rdx, %r12
	je	.LBB6_202
.LBB6_201:
	addq	%rsi, %r12
	movzbl	(%rcx,%r12), %edi
	addq	%rsi, %r8
	movb	%dil, (%rcx,%r8)
	movzbl	(%r9,%r12), %ecx
	movb	%cl, (%r9,%r8)
	leaq	(%r12,%r12,2), %rcx
	leaq	(%r8,%r8,2), %rdx
	movupd	(%rax,%rcx,8), %xmm0
	movq	16(%rax,%rcx,8), %rcx
	movq	%rcx, 16(%rax,%rdx,8)
	movupd	%xmm0, (%rax,%rdx,8)
.LBB6_202:
	xorl	%esi, %esi
	movq	%r15, %r11
	jmp	.LBB6_10
.LBB6_203:
	xorl	%r10d, %r10d
.LBB6_204:
	movq	%rdx, 96(%rsp)
	movl	$1, %r11d
	xorl	%edx, %edx
	movq	%r12, 56(%rsp)
	movq	$0, 120(%rsp)
	movq	%rbx, 88(%rsp)
	movq	%r10, 48(%rsp)
	movq	%rbp, 40(%rsp)
	movq	%r12, 32(%rsp)
	jmp	.LBB6_210
.LBB6_205:
	movl	$0, %edi
.LBB6_206:
	movq	72(%rsp), %r13
.LBB6_207:
	movq	152(%rsp), %rdx
.LBB6_208:
	testb	%al, %al
	jne	.LBB6_292
.LBB6_209:
	imulq	%r10, %r15
	addq	%r15, %rdx
	movq	120(%rsp), %rcx
	incq	%rcx
	xorl	%edi, %edi
	movq	24(%rsp), %rax
	movq	%rax, 56(%rsp)
	movq	%rdx, %rsi
	movl	$0, %r9d
	movq	%rcx, 120(%rsp)
	cmpq	80(%rsp), %rcx
	je	.LBB6_12
.LBB6_210:
	movq	16(%r13), %r14
	movq	%r11, %r15
	cmpq	$1, %r10
	je	.LBB6_211
	movq	56(%rsp), %rcx
	leaq	(%r11,%rcx), %rax
	xorl	%r15d, %r15d
	cmpq	%rax, %rcx
	jae	.LBB6_211
	.p2align	4
.LBB6_218:
	movzbl	(%r14,%rcx), %esi
	addq	%rsi, %rcx
	incq	%rcx
	incq	%r15
	cmpq	%rax, %rcx
	jb	.LBB6_218
.LBB6_211:
	movq	80(%rsp), %rax
	subl	120(%rsp), %eax
	notl	%eax
	shll	$6, %eax
	andl	$64, %eax
	addq	%r8, %rax
	movq	%rax, 24(%rsp)
	cmpq	$1, %r11
	jne	.LBB6_219
	movq	(%r13), %rax
	movq	32(%r13), %rcx
	movq	56(%rsp), %r11
	movzbl	(%rax,%r11), %esi
	movq	%rax, 64(%rsp)
	movzbl	(%rax,%r12), %eax
	movl	%esi, %edi
	xorb	$1, %dil
	movl	%eax, %r9d
	xorb	$1, %r9b
	orb	%dil, %r9b
	jne	.LBB6_223
	movsd	(%rcx,%rbx), %xmm0
	shlq	$3, %r11
	leaq	(%r11,%r11,2), %rax
	addsd	(%rcx,%rax), %xmm0
	movapd	%xmm0, %xmm1
	subsd	%xmm0, %xmm1
	movb	$1, %r9b
	ucomisd	%xmm7, %xmm1
	jne	.LBB6_296
	jp	.LBB6_296
	movupd	8(%rcx,%rax), %xmm2
	movsd	8(%rcx,%rbx), %xmm1
	movsd	16(%rcx,%rbx), %xmm3
	unpcklpd	%xmm1, %xmm1
	mulpd	%xmm2, %xmm1
	unpcklpd	%xmm3, %xmm3
	shufpd	$1, %xmm2, %xmm2
	mulpd	%xmm3, %xmm2
	movapd	%xmm1, %xmm3
	subpd	%xmm2, %xmm3
	addpd	%xmm1, %xmm2
	movsd	%xmm3, %xmm2
	xorpd	%xmm1, %xmm1
	addpd	%xmm2, %xmm1
	movapd	%xmm1, %xmm2
	subpd	%xmm1, %xmm2
	movapd	%xmm2, %xmm3
	xorl	%r11d, %r11d
	ucomisd	%xmm7, %xmm3
	movb	$14, %dil
	jne	.LBB6_303
	jp	.LBB6_303
	unpckhpd	%xmm2, %xmm2
	ucomisd	%xmm7, %xmm2
	movl	$0, %esi
	jne	.LBB6_12
	jp	.LBB6_12
	movq	24(%rsp), %rcx
	movq	64(%rsp), %rax
	movb	$1, (%rax,%rcx)
	movq	16(%r13), %rax
	movb	$0, (%rax,%rcx)
	leaq	(%rcx,%rcx,2), %rax
	movq	32(%r13), %rcx
	movsd	%xmm0, (%rcx,%rax,8)
	movupd	%xmm1, 8(%rcx,%rax,8)
	movl	$1, %r11d
	jmp	.LBB6_209
.LBB6_219:
	xorpd	%xmm0, %xmm0
	movapd	%xmm0, 128(%rsp)
	movq	(%r13), %r13
	movq	56(%rsp), %rsi
	leaq	(%r11,%rsi), %rdi
	movb	$1, %al
	movb	$1, %r9b
	cmpq	%rdi, %rsi
	movq	%rdi, 104(%rsp)
	movq	%rdx, 152(%rsp)
	jae	.LBB6_250
	movq	%rsi, %r10
	cmpq	$4, %r11
	jb	.LBB6_249
	cmpq	$32, %r11
	jae	.LBB6_239
	xorl	%ecx, %ecx
	jmp	.LBB6_246
.LBB6_223:
	cmpb	$1, %al
	sete	%al
	cmpb	$1, %sil
	setne	%dil
	cmpq	$-1, %r12
	sete	%sil
	xorpd	%xmm0, %xmm0
	movapd	%xmm0, 128(%rsp)
	incq	%r11
	sete	%r9b
	notb	%r9b
	testb	%dil, %r9b
	jne	.LBB6_231
	orb	%al, %sil
	je	.LBB6_231
	xorl	%r11d, %r11d
	movl	$0, %eax
	movl	$0, %edi
	cmpq	$-1, %r12
	je	.LBB6_208
	movq	56(%rsp), %rsi
	cmpq	$-1, %rsi
	je	.LBB6_208
	shlq	$3, %rsi
	leaq	(%rsi,%rsi,2), %rsi
	movsd	(%rcx,%rsi), %xmm0
	addsd	(%rcx,%rbx), %xmm0
	movapd	%xmm0, %xmm1
	subsd	%xmm0, %xmm1
	movb	$1, %al
	ucomisd	%xmm7, %xmm1
	jne	.LBB6_288
	jp	.LBB6_288
	movupd	8(%rcx,%rsi), %xmm1
	movsd	8(%rcx,%rbx), %xmm2
	movsd	16(%rcx,%rbx), %xmm3
	unpcklpd	%xmm2, %xmm2
	mulpd	%xmm1, %xmm2
	shufpd	$1, %xmm1, %xmm1
	unpcklpd	%xmm3, %xmm3
	mulpd	%xmm1, %xmm3
	movapd	%xmm2, %xmm1
	subpd	%xmm3, %xmm1
	addpd	%xmm2, %xmm3
	movsd	%xmm1, %xmm3
	xorpd	%xmm1, %xmm1
	addpd	%xmm3, %xmm1
	movapd	%xmm1, %xmm2
	subpd	%xmm1, %xmm2
	movapd	%xmm2, %xmm3
	xorl	%r11d, %r11d
	ucomisd	%xmm7, %xmm3
	movb	$14, %dil
	jne	.LBB6_208
	jp	.LBB6_208
	unpckhpd	%xmm2, %xmm2
	ucomisd	%xmm7, %xmm2
	jne	.LBB6_208
	jp	.LBB6_208
	movq	24(%rsp), %rcx
	movq	64(%rsp), %rax
	movb	$1, (%rax,%rcx)
	movq	16(%r13), %rax
	movb	$0, (%rax,%rcx)
	leaq	(%rcx,%rcx,2), %rax
	movq	32(%r13), %rcx
	movsd	%xmm0, (%rcx,%rax,8)
	movupd	%xmm1, 8(%rcx,%rax,8)
	movl	$1, %r11d
	xorl	%eax, %eax
	xorl	%edi, %edi
	jmp	.LBB6_208
.LBB6_231:
	movq	%rdx, 152(%rsp)
	movq	56(%rsp), %rdx
	cmpq	$-1, %rdx
	je	.LBB6_238
	movq	%rdx, %rbp
	movq	%rdx, %rax
	cmpq	$-1, %r12
	movq	%r11, 104(%rsp)
	je	.LBB6_237
.LBB6_233:
	movzbl	(%r14,%rbp), %eax
	movq	%rax, 112(%rsp)
	movq	%r12, %r13
	movq	64(%rsp), %rax
	movzbl	(%rax,%rbp), %r12d
	incq	%rbp
	.p2align	4
.LBB6_234:
	movzbl	(%r14,%r13), %ebx
	movq	64(%rsp), %rax
	movzbl	(%rax,%r13), %ecx
	incq	%r13
	movq	%r14, 8(%rsp)
	movq	%rax, (%rsp)
	movq	$3, 16(%rsp)
	movzbl	%r12b, %edi
	movq	%rbp, %rsi
	movq	112(%rsp), %rdx
	movq	%r13, %r8
	movq	%rbx, %r9
	callq	"arithmetic::multiply::can_pair"
	testb	%al, %al
	je	.LBB6_243
	addq	%rbx, %r13
	cmpq	96(%rsp), %r13
	jb	.LBB6_234
	addq	112(%rsp), %rbp
	movq	104(%rsp), %r11
	cmpq	%r11, %rbp
	movq	32(%rsp), %r12
	movq	56(%rsp), %rdx
	jb	.LBB6_233
	jmp	.LBB6_238
.LBB6_237:
	movzbl	(%r14,%rax), %ecx
	addq	%rcx, %rax
	incq	%rax
	cmpq	%r11, %rax
	jb	.LBB6_237
.LBB6_238:
	movq	24(%rsp), %rax
	movq	%rax, (%rsp)
	movq	$4, 8(%rsp)
	leaq	128(%rsp), %rdi
	movl	$1, %ecx
	movl	$1, %r9d
	movq	72(%rsp), %rsi
	movq	%r12, %r8
	callq	"arithmetic::multiply::expr_mul"
	movq	72(%rsp), %r13
	movzbl	128(%rsp), %eax
	movzbl	129(%rsp), %edi
	movq	136(%rsp), %r11
	movq	40(%rsp), %rbp
	movq	168(%rsp), %r8
	jmp	.LBB6_244
.LBB6_239:
	movq	%r11, %rcx
	andq	$-32, %rcx
	addq	%r13, %rsi
	addq	$16, %rsi
	movdqa	.LCPI6_5(%rip), %xmm1
	xorl	%edi, %edi
	movdqa	%xmm1, %xmm2
	movdqa	%xmm1, %xmm0
	.p2align	4
.LBB6_240:
	movdqu	-16(%rsi,%rdi), %xmm3
	movdqu	(%rsi,%rdi), %xmm4
	pcmpeqb	%xmm1, %xmm3
	pand	%xmm3, %xmm2
	pcmpeqb	%xmm1, %xmm4
	pand	%xmm4, %xmm0
	addq	$32, %rdi
	cmpq	%rdi, %rcx
	jne	.LBB6_240
	pand	%xmm2, %xmm0
	psllw	$7, %xmm0
	pmovmskb	%xmm0, %esi
	cmpl	$65535, %esi
	sete	%r9b
	cmpq	%rcx, %r11
	movq	104(%rsp), %rdi
	jne	.LBB6_245
	movq	56(%rsp), %rsi
	jmp	.LBB6_250
.LBB6_243:
	movb	$6, %dil
	movb	$1, %al
	xorl	%r11d, %r11d
	movq	40(%rsp), %rbp
	movq	168(%rsp), %r8
	movq	72(%rsp), %r13
	movq	32(%rsp), %r12
.LBB6_244:
	movsd	160(%rsp), %xmm7
	movq	88(%rsp), %rbx
	movq	48(%rsp), %r10
	jmp	.LBB6_207
.LBB6_245:
	testb	$28, %r11b
	movq	56(%rsp), %rsi
	je	.LBB6_291
.LBB6_246:
	movq	%r11, %rdx
	andq	$-4, %r11
	leaq	(%rsi,%r11), %r10
	movq	%rsi, %rdi
	movzbl	%r9b, %esi
	movd	%esi, %xmm1
	movaps	.LCPI6_6(%rip), %xmm0
	movss	%xmm1, %xmm0
	leaq	(%rdi,%r13), %rsi
	.p2align	4
.LBB6_247:
	movd	(%rsi,%rcx), %xmm1
	punpcklbw	%xmm1, %xmm1
	punpcklwd	%xmm1, %xmm1
	pcmpeqb	.LCPI6_5(%rip), %xmm1
	andps	%xmm1, %xmm0
	addq	$4, %rcx
	cmpq	%rcx, %r11
	jne	.LBB6_247
	pslld	$31, %xmm0
	movmskps	%xmm0, %ecx
	xorl	$15, %ecx
	sete	%r9b
	cmpq	%r11, %rdx
	movq	%rdx, %r11
	movq	56(%rsp), %rsi
	movq	104(%rsp), %rdi
	je	.LBB6_250
	.p2align	4
.LBB6_249:
	cmpb	$1, (%r13,%r10)
	sete	%cl
	andb	%cl, %r9b
	incq	%r10
	cmpq	%r10, %rdi
	jne	.LBB6_249
.LBB6_250:
	cmpq	$-1, %r12
	je	.LBB6_252
	cmpb	$1, (%r13,%r12)
	sete	%al
.LBB6_252:
	andb	%al, %r9b
	cmpb	$1, %r9b
	jne	.LBB6_276
	xorl	%r11d, %r11d
	movl	$0, %eax
	cmpq	$-1, %r12
	movq	48(%rsp), %r10
	je	.LBB6_205
	cmpq	%rdi, %rsi
	movl	$0, %edi
	jae	.LBB6_206
	xorl	%ecx, %ecx
	movq	72(%rsp), %rdi
	jmp	.LBB6_258
.LBB6_256:
	movq	72(%rsp), %rdi
.LBB6_257:
	movq	32(%rsp), %r12
	movb	$1, (%r10,%rbx)
	movq	16(%rdi), %rax
	movb	$0, (%rax,%rbx)
	leaq	(%rbx,%rbx,2), %rax
	movq	32(%rdi), %rsi
	movsd	%xmm1, (%rsi,%rax,8)
	movupd	%xmm0, 8(%rsi,%rax,8)
	movq	88(%rsp), %rbx
	movq	48(%rsp), %r10
	movq	%rdx, %rsi
	incq	%rsi
	cmpq	104(%rsp), %rsi
	je	.LBB6_275
.LBB6_258:
	movq	32(%rdi), %r9
	movq	%rsi, %rdx
	leaq	(%rsi,%rsi,2), %rsi
	movsd	(%r9,%rsi,8), %xmm1
	addsd	(%r9,%rbx), %xmm1
	movapd	%xmm1, %xmm0
	subsd	%xmm1, %xmm0
	movb	$1, %al
	ucomisd	%xmm7, %xmm0
	jne	.LBB6_287
	jp	.LBB6_287
	movq	(%rdi), %r10
	movq	16(%rdi), %r11
	movupd	8(%r9,%rsi,8), %xmm2
	movsd	8(%r9,%rbx), %xmm0
	unpcklpd	%xmm0, %xmm0
	mulpd	%xmm2, %xmm0
	shufpd	$1, %xmm2, %xmm2
	movsd	16(%r9,%rbx), %xmm3
	unpcklpd	%xmm3, %xmm3
	mulpd	%xmm2, %xmm3
	movapd	%xmm0, %xmm2
	subpd	%xmm3, %xmm2
	addpd	%xmm3, %xmm0
	movsd	%xmm2, %xmm0
	movq	24(%rsp), %rsi
	leaq	(%rcx,%rsi), %r14
	movapd	%xmm1, %xmm2
	leaq	(,%r14,8), %rsi
	leaq	(%rsi,%rsi,2), %r12
	leaq	(%r9,%r12), %r13
	addq	$8, %r13
	movq	%r14, %rbx
	.p2align	4
.LBB6_260:
	cmpq	%rbx, 24(%rsp)
	jae	.LBB6_264
	decq	%rbx
	movsd	-32(%r13), %xmm3
	ucomisd	%xmm3, %xmm2
	seta	%sil
	incb	%sil
	xorl	%edi, %edi
	ucomisd	%xmm2, %xmm3
	movzbl	%sil, %esi
	cmoval	%edi, %esi
	addq	$-24, %r13
	testb	%sil, %sil
	je	.LBB6_260
	movzbl	%sil, %esi
	cmpl	$2, %esi
	jne	.LBB6_272
	incq	%rbx
	jmp	.LBB6_265
.LBB6_264:
	movq	24(%rsp), %rbx
.LBB6_265:
	xorpd	%xmm2, %xmm2
	addpd	%xmm2, %xmm0
	movapd	%xmm0, %xmm2
	subpd	%xmm0, %xmm2
	movapd	%xmm2, %xmm3
	ucomisd	%xmm7, %xmm3
	movb	$14, %dil
	jne	.LBB6_289
	jp	.LBB6_289
	unpckhpd	%xmm2, %xmm2
	ucomisd	%xmm7, %xmm2
	jne	.LBB6_289
	jp	.LBB6_289
	incq	%rcx
	cmpq	$64, %rcx
	ja	.LBB6_290
	cmpq	%r14, %rbx
	jae	.LBB6_256
	addq	%r12, %r9
	movq	72(%rsp), %rdi
	.p2align	4
.LBB6_270:
	movzbl	-1(%r10,%r14), %eax
	movb	%al, (%r10,%r14)
	movzbl	-1(%r11,%r14), %eax
	movb	%al, (%r11,%r14)
	decq	%r14
	movq	-8(%r9), %rax
	movq	%rax, 16(%r9)
	movupd	-24(%r9), %xmm2
	movupd	%xmm2, (%r9)
	addq	$-24, %r9
	cmpq	%r14, %rbx
	jb	.LBB6_270
	movq	(%rdi), %r10
	jmp	.LBB6_257
.LBB6_272:
	movupd	(%r13), %xmm1
	addpd	%xmm1, %xmm0
	movapd	%xmm0, %xmm1
	subpd	%xmm0, %xmm1
	movapd	%xmm1, %xmm2
	xorl	%r11d, %r11d
	ucomisd	%xmm7, %xmm2
	movb	$14, %dil
	movq	32(%rsp), %r12
	movq	88(%rsp), %rbx
	movq	48(%rsp), %r10
	jne	.LBB6_206
	jp	.LBB6_206
	unpckhpd	%xmm1, %xmm1
	ucomisd	%xmm7, %xmm1
	jne	.LBB6_206
	jp	.LBB6_206
	movq	%rdx, %rsi
	movupd	%xmm0, (%r13)
	movq	72(%rsp), %rdi
	incq	%rsi
	cmpq	104(%rsp), %rsi
	jne	.LBB6_258
.LBB6_275:
	xorl	%eax, %eax
	xorl	%edi, %edi
	movq	%rcx, %r11
	jmp	.LBB6_206
.LBB6_276:
	cmpq	%rdi, %rsi
	jae	.LBB6_283
	movq	%rsi, %r12
	movq	%rsi, %rax
	cmpq	$-1, 32(%rsp)
	movq	%r11, 176(%rsp)
	je	.LBB6_282
.LBB6_278:
	movzbl	(%r14,%r12), %eax
	movq	%rax, 64(%rsp)
	movzbl	(%r13,%r12), %eax
	movb	%al, 112(%rsp)
	incq	%r12
	movq	32(%rsp), %rbp
	.p2align	4
.LBB6_279:
	movzbl	(%r14,%rbp), %ebx
	movzbl	(%r13,%rbp), %ecx
	incq	%rbp
	movq	%r14, 8(%rsp)
	movq	%r13, (%rsp)
	movq	$3, 16(%rsp)
	movzbl	112(%rsp), %edi
	movq	%r12, %rsi
	movq	64(%rsp), %rdx
	movq	%rbp, %r8
	movq	%rbx, %r9
	callq	"arithmetic::multiply::can_pair"
	testb	%al, %al
	je	.LBB6_284
	addq	%rbx, %rbp
	cmpq	96(%rsp), %rbp
	jb	.LBB6_279
	addq	64(%rsp), %r12
	cmpq	104(%rsp), %r12
	movq	176(%rsp), %r11
	movq	56(%rsp), %rsi
	jb	.LBB6_278
	jmp	.LBB6_283
.LBB6_282:
	movzbl	(%r14,%rax), %ecx
	addq	%rcx, %rax
	incq	%rax
	cmpq	%rdi, %rax
	jb	.LBB6_282
.LBB6_283:
	movq	24(%rsp), %rax
	movq	%rax, (%rsp)
	movq	$4, 8(%rsp)
	leaq	128(%rsp), %rdi
	movl	$1, %r9d
	movq	%rsi, %rdx
	movq	72(%rsp), %rsi
	movq	32(%rsp), %r12
	movq	%r11, %rcx
	movq	%r12, %r8
	callq	"arithmetic::multiply::expr_mul"
	movzbl	128(%rsp), %eax
	movzbl	129(%rsp), %edi
	movq	136(%rsp), %r11
	movq	40(%rsp), %rbp
	movq	168(%rsp), %r8
	jmp	.LBB6_285
.LBB6_284:
	movb	$6, %dil
	movb	$1, %al
	xorl	%r11d, %r11d
	movq	40(%rsp), %rbp
	movq	168(%rsp), %r8
	movq	32(%rsp), %r12
.LBB6_285:
	movsd	160(%rsp), %xmm7
.LBB6_286:
	movq	88(%rsp), %rbx
	movq	48(%rsp), %r10
	jmp	.LBB6_206
.LBB6_287:
	movb	$17, %dil
	xorl	%r11d, %r11d
	jmp	.LBB6_206
.LBB6_288:
	movb	$17, %dil
	xorl	%r11d, %r11d
	jmp	.LBB6_208
.LBB6_289:
	movq	32(%rsp), %r12
	xorl	%r11d, %r11d
	jmp	.LBB6_286
.LBB6_290:
	movb	$11, %dil
	xorl	%r11d, %r11d
	movq	32(%rsp), %r12
	jmp	.LBB6_286
.LBB6_291:
	addq	%rsi, %rcx
	movq	%rcx, %r10
	jmp	.LBB6_249
.LBB6_300:
	movq	80(%rsp), %rsi
	jmp	.LBB6_12
.LBB6_292:
	movb	$1, %r9b
	jmp	.LBB6_297
.LBB6_293:
	movb	$11, %dil
.LBB6_294:
	movb	$1, %r9b
	xorl	%r11d, %r11d
.LBB6_295:
	xorl	%esi, %esi
	movq	40(%rsp), %rbp
	jmp	.LBB6_12
.LBB6_296:
	movb	$17, %dil
.LBB6_297:
	xorl	%r11d, %r11d
	xorl	%esi, %esi
	jmp	.LBB6_12
.LBB6_302:
	movzbl	129(%rsp), %edi
	xorl	%r11d, %r11d
	movb	$1, %r9b
	jmp	.LBB6_295
.LBB6_303:
	xorl	%esi, %esi
	jmp	.LBB6_12
.Lfunc_end6:
	.size	"powers::raise::power_by", .Lfunc_end6-"powers::raise::power_by"

	.section	".text.arithmetic::multiply::expr_mul","ax",@progbits
	.p2align	4
	.type	"arithmetic::multiply::expr_mul",@function
"arithmetic::multiply::expr_mul":
	pushq	%rbp
	pushq	%r15
	pushq	%r14
	pushq	%r13
	pushq	%r12
	pushq	%rbx
	subq	$3072, %rsp
	movq	$0, (%rsp)
	subq	$3072, %rsp
	movq	$0, (%rsp)
	subq	$1000, %rsp
	addq	%rdx, %rcx
	cmpq	%rcx, %rdx
	jae	.LBB7_110
	movq	%r9, %r15
	movq	%rsi, %r12
	addq	%r8, %r15
	cmpq	%r15, %r8
	jae	.LBB7_108
	movq	7208(%rsp), %rax
	movq	7200(%rsp), %r9
	decq	%rax
	movq	%rax, 248(%rsp)
	xorps	%xmm3, %xmm3
	leaq	-1(%r9), %rax
	movq	%rax, 216(%rsp)
	leaq	(,%r9,8), %rax
	leaq	(%rax,%rax,2), %rax
	movq	%rax, 144(%rsp)
	leaq	1(%r9), %rax
	movq	%rax, 136(%rsp)
	xorl	%eax, %eax
	movq	%rdi, 128(%rsp)
	movq	%rcx, 208(%rsp)
	movq	%r15, 72(%rsp)
	movq	%r8, 200(%rsp)
	movq	%r12, 56(%rsp)
	movsd	%xmm3, 64(%rsp)
.LBB7_3:
	movq	%rax, 48(%rsp)
	movq	(%r12), %rax
	movq	16(%r12), %rcx
	movq	32(%r12), %rdi
	leaq	(,%rdx,8), %rsi
	leaq	(%rsi,%rsi,2), %rsi
	movsd	(%rdi,%rsi), %xmm0
	movsd	%xmm0, 264(%rsp)
	movq	%rsi, 224(%rsp)
	movupd	8(%rdi,%rsi), %xmm4
	movzbl	(%rax,%rdx), %eax
	movzbl	(%rcx,%rdx), %esi
	movq	%rdx, 232(%rsp)
	leaq	1(%rdx), %rcx
	movq	%rcx, 152(%rsp)
	leaq	.Lstatic.2(%rip), %rcx
	leaq	-9(%rcx,%rax,8), %r10
	movapd	%xmm4, %xmm5
	shufpd	$1, %xmm4, %xmm5
	movq	%rsi, 104(%rsp)
	andl	$-2, %esi
	movq	%rsi, 256(%rsp)
	movq	%r8, %r14
	movapd	%xmm4, 288(%rsp)
	movq	%r10, 240(%rsp)
	movapd	%xmm5, 272(%rsp)
	jmp	.LBB7_7
.LBB7_4:
	xorl	%eax, %eax
.LBB7_5:
	movzbl	784(%rsp,%rax), %ecx
	leaq	(%rax,%r9), %rdx
	movq	160(%rsp), %rsi
	movb	%cl, (%rsi,%rdx)
	movzbl	496(%rsp,%rax), %ecx
	movb	%cl, (%r13,%rdx)
	leaq	576(%rax,%rax,2), %rax
	leaq	(%rdx,%rdx,2), %rcx
	movupd	1000(%rsp,%rax,8), %xmm0
	movq	1016(%rsp,%rax,8), %rax
	movq	%rax, 16(%r14,%rcx,8)
	movupd	%xmm0, (%r14,%rcx,8)
.LBB7_6:
	movq	%rbx, 48(%rsp)
	movq	240(%rsp), %r10
	addq	%rbp, %r11
	movq	%r11, %r14
	cmpq	%r15, %r11
	jae	.LBB7_106
.LBB7_7:
	movq	(%r12), %rbx
	movq	16(%r12), %r13
	movq	32(%r12), %rcx
	leaq	(,%r14,8), %rax
	leaq	(%rax,%rax,2), %rdx
	movzbl	(%rbx,%r14), %eax
	movzbl	(%r13,%r14), %ebp
	leaq	1(%r14), %r11
	movsd	8(%rcx,%rdx), %xmm6
	movq	%rcx, %r15
	movsd	16(%rcx,%rdx), %xmm0
	unpcklpd	%xmm0, %xmm0
	mulpd	%xmm5, %xmm0
	unpcklpd	%xmm6, %xmm6
	mulpd	%xmm4, %xmm6
	movapd	%xmm6, %xmm1
	subpd	%xmm0, %xmm1
	addpd	%xmm0, %xmm6
	movsd	%xmm1, %xmm6
	cmpb	$1, (%r10,%rax)
	jne	.LBB7_19
	movq	48(%rsp), %r8
	leaq	(%r8,%r9), %rcx
	movq	%rcx, %rax
	cmpq	%rcx, %r9
	jae	.LBB7_13
	movq	%r8, %rsi
	movq	%r9, %rax
	.p2align	4
.LBB7_10:
	cmpb	$1, (%rbx,%rax)
	jne	.LBB7_13
	incq	%rax
	decq	%rsi
	jne	.LBB7_10
	movq	%rcx, %rax
.LBB7_13:
	movsd	(%r15,%rdx), %xmm0
	addsd	264(%rsp), %xmm0
	movapd	%xmm0, %xmm1
	subsd	%xmm0, %xmm1
	ucomisd	%xmm3, %xmm1
	jne	.LBB7_113
	jp	.LBB7_113
	movapd	%xmm0, %xmm1
	leaq	(%rax,%rax,2), %rdx
	leaq	(%r15,%rdx,8), %rsi
	addq	$8, %rsi
	.p2align	4
.LBB7_15:
	cmpq	%rax, %r9
	jae	.LBB7_24
	decq	%rax
	movsd	-32(%rsi), %xmm2
	ucomisd	%xmm2, %xmm1
	seta	%dl
	incb	%dl
	xorl	%edi, %edi
	ucomisd	%xmm1, %xmm2
	movzbl	%dl, %edx
	cmoval	%edi, %edx
	addq	$-24, %rsi
	testb	%dl, %dl
	je	.LBB7_15
	movzbl	%dl, %edx
	cmpl	$2, %edx
	jne	.LBB7_43
	incq	%rax
	jmp	.LBB7_25
	.p2align	4
.LBB7_19:
	movapd	%xmm6, 80(%rsp)
	movq	%rbp, 24(%rsp)
	movq	%r11, 112(%rsp)
	leaq	1000(%rsp), %r12
	xorl	%ebp, %ebp
	movl	$6144, %edx
	movq	%r12, %rdi
	xorl	%esi, %esi
	callq	memset@PLT
	xorpd	%xmm0, %xmm0
	movapd	%xmm0, 176(%rsp)
	movapd	%xmm0, 592(%rsp)
	movapd	%xmm0, 608(%rsp)
	movapd	%xmm0, 624(%rsp)
	movapd	%xmm0, 640(%rsp)
	movapd	%xmm0, 656(%rsp)
	movapd	%xmm0, 672(%rsp)
	movapd	%xmm0, 688(%rsp)
	movapd	%xmm0, 704(%rsp)
	movapd	%xmm0, 720(%rsp)
	movapd	%xmm0, 736(%rsp)
	movapd	%xmm0, 752(%rsp)
	movapd	%xmm0, 768(%rsp)
	movapd	%xmm0, 784(%rsp)
	movapd	%xmm0, 800(%rsp)
	movapd	%xmm0, 816(%rsp)
	movapd	%xmm0, 832(%rsp)
	movapd	%xmm0, 304(%rsp)
	movapd	%xmm0, 320(%rsp)
	movapd	%xmm0, 336(%rsp)
	movapd	%xmm0, 352(%rsp)
	movapd	%xmm0, 368(%rsp)
	movapd	%xmm0, 384(%rsp)
	movapd	%xmm0, 400(%rsp)
	movapd	%xmm0, 416(%rsp)
	movapd	%xmm0, 432(%rsp)
	movapd	%xmm0, 448(%rsp)
	movapd	%xmm0, 464(%rsp)
	movapd	%xmm0, 480(%rsp)
	movapd	%xmm0, 496(%rsp)
	movapd	%xmm0, 512(%rsp)
	movapd	%xmm0, 528(%rsp)
	movapd	%xmm0, 544(%rsp)
	.p2align	4
.LBB7_20:
	movupd	%xmm0, 1000(%rsp,%rbp)
	movq	$0, 1016(%rsp,%rbp)
	movupd	%xmm0, 1024(%rsp,%rbp)
	movq	$0, 1040(%rsp,%rbp)
	movupd	%xmm0, 1048(%rsp,%rbp)
	movq	$0, 1064(%rsp,%rbp)
	movupd	%xmm0, 1072(%rsp,%rbp)
	movq	$0, 1088(%rsp,%rbp)
	movupd	%xmm0, 1096(%rsp,%rbp)
	movq	$0, 1112(%rsp,%rbp)
	movupd	%xmm0, 1120(%rsp,%rbp)
	movq	$0, 1136(%rsp,%rbp)
	movupd	%xmm0, 1144(%rsp,%rbp)
	movq	$0, 1160(%rsp,%rbp)
	movupd	%xmm0, 1168(%rsp,%rbp)
	movq	$0, 1184(%rsp,%rbp)
	addq	$192, %rbp
	cmpq	$6144, %rbp
	jne	.LBB7_20
	leaq	592(%rsp), %rax
	movq	%rax, 880(%rsp)
	movq	$256, 888(%rsp)
	leaq	304(%rsp), %rax
	movq	%rax, 896(%rsp)
	movq	$256, 904(%rsp)
	movq	%r12, 912(%rsp)
	movq	$256, 920(%rsp)
	movq	104(%rsp), %rbp
	testq	%rbp, %rbp
	movq	256(%rsp), %r10
	leaq	1(%r14), %r11
	movq	24(%rsp), %r9
	je	.LBB7_40
	cmpl	$1, %ebp
	jne	.LBB7_36
	xorl	%eax, %eax
	jmp	.LBB7_39
.LBB7_24:
	movq	%r9, %rax
.LBB7_25:
	xorpd	%xmm1, %xmm1
	addpd	%xmm1, %xmm6
	movapd	%xmm6, %xmm1
	subpd	%xmm6, %xmm1
	movapd	%xmm1, %xmm2
	ucomisd	%xmm3, %xmm2
	movb	$14, %dl
	jne	.LBB7_117
	jp	.LBB7_117
	unpckhpd	%xmm1, %xmm1
	ucomisd	%xmm3, %xmm1
	jne	.LBB7_117
	jp	.LBB7_117
	leaq	1(%r8), %rdx
	cmpq	$64, %rdx
	ja	.LBB7_115
	cmpq	%rcx, %rax
	jae	.LBB7_35
	leal	(%r9,%r8), %esi
	subl	%eax, %esi
	testb	$1, %sil
	je	.LBB7_31
	movzbl	-1(%rbx,%rcx), %esi
	movb	%sil, (%rbx,%rcx)
	movzbl	-1(%r13,%rcx), %esi
	movb	%sil, (%r13,%rcx)
	leaq	(%rcx,%rcx,2), %rsi
	decq	%rcx
	movq	-8(%r15,%rsi,8), %rdi
	movq	%rdi, 16(%r15,%rsi,8)
	movupd	-24(%r15,%rsi,8), %xmm1
	movupd	%xmm1, (%r15,%rsi,8)
.LBB7_31:
	addq	216(%rsp), %r8
	cmpq	%rax, %r8
	je	.LBB7_34
	leaq	(%rcx,%rcx,2), %rsi
	leaq	(%r15,%rsi,8), %rsi
	.p2align	4
.LBB7_33:
	movzbl	-1(%rbx,%rcx), %edi
	movb	%dil, (%rbx,%rcx)
	movzbl	-1(%r13,%rcx), %edi
	movb	%dil, (%r13,%rcx)
	movq	-8(%rsi), %rdi
	movq	%rdi, 16(%rsi)
	movups	-24(%rsi), %xmm1
	movups	%xmm1, (%rsi)
	movzbl	-2(%rbx,%rcx), %edi
	movb	%dil, -1(%rbx,%rcx)
	movzbl	-2(%r13,%rcx), %edi
	movb	%dil, -1(%r13,%rcx)
	addq	$-2, %rcx
	movq	-32(%rsi), %rdi
	movq	%rdi, -8(%rsi)
	movupd	-48(%rsi), %xmm1
	movupd	%xmm1, -24(%rsi)
	addq	$-48, %rsi
	cmpq	%rcx, %rax
	jb	.LBB7_33
.LBB7_34:
	movq	(%r12), %rbx
.LBB7_35:
	movb	$1, (%rbx,%rax)
	movq	16(%r12), %rcx
	movb	$0, (%rcx,%rax)
	leaq	(%rax,%rax,2), %rax
	movq	32(%r12), %rcx
	movsd	%xmm0, (%rcx,%rax,8)
	movupd	%xmm6, 8(%rcx,%rax,8)
	movq	%rdx, 48(%rsp)
	jmp	.LBB7_46
.LBB7_36:
	movq	224(%rsp), %rax
	leaq	(%r15,%rax), %rcx
	movq	232(%rsp), %rax
	leaq	(%rax,%r13), %rdx
	addq	$2, %rdx
	leaq	(%rbx,%rax), %rsi
	addq	$2, %rsi
	movl	$24, %edi
	xorl	%eax, %eax
	.p2align	4
.LBB7_37:
	movzbl	-1(%rsi,%rax), %r8d
	movb	%r8b, 592(%rsp,%rax)
	movzbl	-1(%rdx,%rax), %r8d
	movb	%r8b, 304(%rsp,%rax)
	movups	(%rcx,%rdi), %xmm0
	movq	16(%rcx,%rdi), %r8
	movq	%r8, 992(%rsp,%rdi)
	movups	%xmm0, 976(%rsp,%rdi)
	movzbl	(%rsi,%rax), %r8d
	movb	%r8b, 593(%rsp,%rax)
	movzbl	(%rdx,%rax), %r8d
	movb	%r8b, 305(%rsp,%rax)
	movupd	24(%rcx,%rdi), %xmm0
	movq	40(%rcx,%rdi), %r8
	movq	%r8, 1016(%rsp,%rdi)
	movupd	%xmm0, 1000(%rsp,%rdi)
	addq	$2, %rax
	addq	$48, %rdi
	cmpq	%rax, %r10
	jne	.LBB7_37
	testb	$1, %bpl
	je	.LBB7_40
.LBB7_39:
	movq	152(%rsp), %rcx
	addq	%rax, %rcx
	movzbl	(%rbx,%rcx), %edx
	movb	%dl, 592(%rsp,%rax)
	movzbl	(%r13,%rcx), %edx
	movb	%dl, 304(%rsp,%rax)
	leaq	(%rcx,%rcx,2), %rcx
	leaq	(%rax,%rax,2), %rax
	movupd	(%r15,%rcx,8), %xmm0
	movq	16(%r15,%rcx,8), %rcx
	movq	%rcx, 1016(%rsp,%rax,8)
	movupd	%xmm0, 1000(%rsp,%rax,8)
.LBB7_40:
	testq	%r9, %r9
	je	.LBB7_51
	cmpl	$1, %r9d
	jne	.LBB7_47
	xorl	%eax, %eax
	jmp	.LBB7_50
.LBB7_43:
	movupd	(%rsi), %xmm0
	addpd	%xmm0, %xmm6
	movapd	%xmm6, %xmm0
	subpd	%xmm6, %xmm0
	movapd	%xmm0, %xmm1
	ucomisd	%xmm3, %xmm1
	movb	$14, %dl
	jne	.LBB7_117
	jp	.LBB7_117
	unpckhpd	%xmm0, %xmm0
	ucomisd	%xmm3, %xmm0
	jne	.LBB7_117
	jp	.LBB7_117
	movupd	%xmm6, (%rsi)
.LBB7_46:
	movq	72(%rsp), %r15
	addq	%rbp, %r11
	movq	%r11, %r14
	cmpq	%r15, %r11
	jb	.LBB7_7
	jmp	.LBB7_106
.LBB7_47:
	movl	%r9d, %ecx
	andl	$-2, %ecx
	leaq	(%r14,%r14,2), %rax
	leaq	(%r15,%rax,8), %rdx
	addq	$48, %rdx
	leaq	(%r14,%r13), %rsi
	addq	$2, %rsi
	leaq	(%rbx,%r14), %rdi
	addq	$2, %rdi
	xorl	%eax, %eax
	xorl	%r8d, %r8d
	leaq	2536(%rsp), %r10
	.p2align	4
.LBB7_48:
	movzbl	-1(%rdi,%rax), %ebp
	movb	%bpl, 656(%rsp,%rax)
	movzbl	-1(%rsi,%rax), %ebp
	movb	%bpl, 368(%rsp,%rax)
	movups	-24(%rdx,%r8), %xmm0
	movq	-8(%rdx,%r8), %r14
	movq	%r14, 16(%r10,%r8)
	movups	%xmm0, (%r10,%r8)
	movzbl	(%rdi,%rax), %ebp
	movb	%bpl, 657(%rsp,%rax)
	movzbl	(%rsi,%rax), %ebp
	movb	%bpl, 369(%rsp,%rax)
	movupd	(%rdx,%r8), %xmm0
	movq	16(%rdx,%r8), %r14
	movq	%r14, 40(%r10,%r8)
	movupd	%xmm0, 24(%r10,%r8)
	addq	$2, %rax
	addq	$48, %r8
	cmpq	%rax, %rcx
	jne	.LBB7_48
	testb	$1, %r9b
	movq	104(%rsp), %rbp
	je	.LBB7_51
.LBB7_50:
	leaq	(%rax,%r11), %rcx
	movzbl	(%rbx,%rcx), %edx
	movb	%dl, 656(%rsp,%rax)
	movzbl	(%r13,%rcx), %edx
	movb	%dl, 368(%rsp,%rax)
	leaq	(%rcx,%rcx,2), %rcx
	leaq	192(%rax,%rax,2), %rax
	movupd	(%r15,%rcx,8), %xmm0
	movq	16(%r15,%rcx,8), %rcx
	movq	%rcx, 1016(%rsp,%rax,8)
	movupd	%xmm0, 1000(%rsp,%rax,8)
.LBB7_51:
	movq	248(%rsp), %rax
	movq	%rax, 8(%rsp)
	movq	$128, (%rsp)
	xorl	%ebx, %ebx
	leaq	176(%rsp), %rdi
	leaq	880(%rsp), %rsi
	movl	$64, %r8d
	xorl	%edx, %edx
	movq	%rbp, %rcx
	callq	"arithmetic::multiply::expr_mul"
	movq	184(%rsp), %rsi
	cmpb	$0, 176(%rsp)
	cmoveq	%rsi, %rbx
	jne	.LBB7_112
	movq	%rbx, 168(%rsp)
	movq	56(%rsp), %rax
	movq	(%rax), %r13
	movq	16(%rax), %r14
	movq	32(%rax), %rbx
	movq	48(%rsp), %r11
	testq	%r11, %r11
	movapd	80(%rsp), %xmm1
	je	.LBB7_59
	cmpq	$1, %r11
	jne	.LBB7_55
	xorl	%eax, %eax
	jmp	.LBB7_58
.LBB7_55:
	movq	%rsi, %r15
	movq	%r11, %rcx
	andq	$-2, %rcx
	movq	144(%rsp), %rax
	leaq	(%rbx,%rax), %rdx
	movq	136(%rsp), %rax
	leaq	(%r14,%rax), %rsi
	leaq	(%rax,%r13), %rdi
	xorl	%eax, %eax
	xorl	%r8d, %r8d
	leaq	5608(%rsp), %r10
	.p2align	4
.LBB7_56:
	movzbl	-1(%rdi,%rax), %r9d
	movb	%r9b, 784(%rsp,%rax)
	movzbl	-1(%rsi,%rax), %r9d
	movb	%r9b, 496(%rsp,%rax)
	movups	(%rdx,%r8), %xmm0
	movq	16(%rdx,%r8), %r9
	movq	%r9, 16(%r10,%r8)
	movups	%xmm0, (%r10,%r8)
	movzbl	(%rdi,%rax), %r9d
	movb	%r9b, 785(%rsp,%rax)
	movzbl	(%rsi,%rax), %r9d
	movb	%r9b, 497(%rsp,%rax)
	movupd	24(%rdx,%r8), %xmm0
	movq	40(%rdx,%r8), %r9
	movq	%r9, 40(%r10,%r8)
	movupd	%xmm0, 24(%r10,%r8)
	addq	$2, %rax
	addq	$48, %r8
	cmpq	%rax, %rcx
	jne	.LBB7_56
	testb	$1, %r11b
	movq	%r15, %rsi
	je	.LBB7_59
.LBB7_58:
	movq	7200(%rsp), %rcx
	addq	%rax, %rcx
	movzbl	(%r13,%rcx), %edx
	movb	%dl, 784(%rsp,%rax)
	movzbl	(%r14,%rcx), %edx
	movb	%dl, 496(%rsp,%rax)
	leaq	(%rcx,%rcx,2), %rcx
	leaq	576(%rax,%rax,2), %rax
	movupd	(%rbx,%rcx,8), %xmm0
	movq	16(%rbx,%rcx,8), %rcx
	movq	%rcx, 1016(%rsp,%rax,8)
	movupd	%xmm0, 1000(%rsp,%rax,8)
.LBB7_59:
	movq	%r13, 160(%rsp)
	movq	%r14, 32(%rsp)
	movq	%rbx, 40(%rsp)
	leaq	592(%rsp), %rax
	movq	%rax, 928(%rsp)
	movq	$256, 936(%rsp)
	leaq	304(%rsp), %rax
	movq	%rax, 944(%rsp)
	movq	$256, 952(%rsp)
	movq	%r12, 960(%rsp)
	movq	$256, 968(%rsp)
	movb	$2, 848(%rsp)
	movq	%rsi, 120(%rsp)
	movb	%sil, 849(%rsp)
	leaq	850(%rsp), %rax
	movq	$0, 6(%rax)
	movq	$0, (%rax)
	movupd	%xmm1, 864(%rsp)
	leaq	192(%r11), %rbx
	movl	$192, %r13d
	cmpq	$193, %rbx
	jb	.LBB7_64
	movl	$192, %ebp
	.p2align	4
.LBB7_61:
	leaq	(,%rbp,8), %rax
	leaq	(%rax,%rax,2), %r14
	movsd	1000(%rsp,%r14), %xmm0
	movupd	1008(%rsp,%r14), %xmm1
	movzbl	592(%rsp,%rbp), %eax
	movzbl	304(%rsp,%rbp), %r15d
	movb	%al, 560(%rsp)
	movb	%r15b, 561(%rsp)
	leaq	562(%rsp), %rax
	movw	$0, 4(%rax)
	movl	$0, (%rax)
	movsd	%xmm0, 568(%rsp)
	movapd	%xmm1, 976(%rsp)
	movupd	%xmm1, 576(%rsp)
	leaq	1(%rbp), %r13
	leaq	928(%rsp), %rdi
	leaq	848(%rsp), %rsi
	leaq	560(%rsp), %rcx
	movl	$128, %edx
	movl	$4, %r9d
	movq	%r13, %r8
	callq	"sums::order::cmp_term"
	cmpb	$2, %al
	jne	.LBB7_63
	addq	%r15, %r13
	movq	%r13, %rbp
	cmpq	%rbx, %r13
	jb	.LBB7_61
	jmp	.LBB7_64
.LBB7_63:
	movapd	976(%rsp), %xmm0
	movzbl	%al, %eax
	movq	%rbp, %r13
	testl	%eax, %eax
	jne	.LBB7_84
.LBB7_64:
	xorpd	%xmm0, %xmm0
	movapd	80(%rsp), %xmm2
	addpd	%xmm0, %xmm2
	movapd	%xmm2, %xmm0
	subpd	%xmm2, %xmm0
	movapd	%xmm0, %xmm1
	movsd	64(%rsp), %xmm3
	ucomisd	%xmm3, %xmm1
	movb	$14, %dl
	jne	.LBB7_117
	jp	.LBB7_117
	unpckhpd	%xmm0, %xmm0
	ucomisd	%xmm3, %xmm0
	jne	.LBB7_117
	jp	.LBB7_117
	movq	168(%rsp), %r14
	movzbl	%r14b, %ebp
	movq	120(%rsp), %r10
	testb	%r10b, %r10b
	je	.LBB7_68
	leaq	304(%rsp), %rdi
	movl	$128, %esi
	movl	$3, %ecx
	movq	%rbp, %rdx
	movapd	%xmm2, 80(%rsp)
	callq	"sums::order::nests_inside"
	movq	120(%rsp), %r10
	movapd	80(%rsp), %xmm2
	movsd	64(%rsp), %xmm3
	testb	%al, %al
	je	.LBB7_116
.LBB7_68:
	movq	48(%rsp), %rsi
	leaq	(%rsi,%rbp), %rax
	incq	%rax
	cmpq	$64, %rax
	ja	.LBB7_115
	cmpq	%rbx, %r13
	movq	72(%rsp), %r15
	movapd	288(%rsp), %xmm4
	movapd	272(%rsp), %xmm5
	movq	112(%rsp), %r11
	jae	.LBB7_75
	movl	%esi, %edx
	subl	%r13d, %edx
	leaq	191(%rsi), %rcx
	testb	$1, %dl
	je	.LBB7_72
	movzbl	783(%rsp,%rsi), %edx
	addq	%rbp, %rbx
	movb	%dl, 592(%rsp,%rbx)
	movzbl	495(%rsp,%rsi), %edx
	movb	%dl, 304(%rsp,%rbx)
	leaq	(%rcx,%rcx,2), %rdx
	leaq	(%rbx,%rbx,2), %rsi
	movupd	1000(%rsp,%rdx,8), %xmm0
	movq	1016(%rsp,%rdx,8), %rdx
	movq	%rdx, 1016(%rsp,%rsi,8)
	movupd	%xmm0, 1000(%rsp,%rsi,8)
	movq	%rcx, %rbx
.LBB7_72:
	cmpq	%r13, %rcx
	je	.LBB7_75
	leaq	(%rbx,%rbx,2), %rcx
	leaq	-24(,%rcx,8), %rcx
	leaq	(%rbx,%rbp), %rdx
	shlq	$3, %rdx
	leaq	(%rdx,%rdx,2), %rdx
	leaq	(%rsp,%rbp), %rsi
	addq	$304, %rsi
	leaq	(%rsp,%rbp), %rdi
	addq	$592, %rdi
	leaq	1000(%rsp), %r8
	.p2align	4
.LBB7_74:
	movzbl	591(%rsp,%rbx), %r9d
	movb	%r9b, (%rdi,%rbx)
	movzbl	303(%rsp,%rbx), %r9d
	movb	%r9b, (%rsi,%rbx)
	movups	(%r8,%rcx), %xmm0
	movq	16(%r8,%rcx), %r9
	movq	%r9, 16(%r8,%rdx)
	movups	%xmm0, (%r8,%rdx)
	movzbl	590(%rsp,%rbx), %r9d
	movb	%r9b, -1(%rdi,%rbx)
	movzbl	302(%rsp,%rbx), %r9d
	movb	%r9b, -1(%rsi,%rbx)
	addq	$-2, %rbx
	movupd	-24(%r8,%rcx), %xmm0
	movq	-8(%r8,%rcx), %r9
	movq	%r9, -8(%r8,%rdx)
	movupd	%xmm0, -24(%r8,%rdx)
	addq	$-48, %r8
	cmpq	%rbx, %r13
	jb	.LBB7_74
.LBB7_75:
	movb	$2, 592(%rsp,%r13)
	movb	%r10b, 304(%rsp,%r13)
	leaq	(,%r13,8), %rcx
	leaq	(%rcx,%rcx,2), %rdx
	movq	$0, 1000(%rsp,%rdx)
	movupd	%xmm2, 1008(%rsp,%rdx)
	leaq	1(%r13), %rcx
	cmpq	$128, %rcx
	jbe	.LBB7_81
	testb	%r10b, %r10b
	movq	56(%rsp), %r12
	movq	7200(%rsp), %r9
	je	.LBB7_89
	movq	%rbp, %rcx
	testb	$1, %r14b
	je	.LBB7_79
	leaq	-1(%rbp), %rcx
	movzbl	719(%rsp,%rbp), %edx
	movq	%rbp, %rsi
	addq	%r13, %rsi
	movb	%dl, 592(%rsp,%rsi)
	movzbl	431(%rsp,%rbp), %edx
	movb	%dl, 304(%rsp,%rsi)
	leaq	381(%rbp,%rbp,2), %rdx
	leaq	(%rsi,%rsi,2), %rsi
	movupd	1000(%rsp,%rdx,8), %xmm0
	movq	1016(%rsp,%rdx,8), %rdx
	movq	%rdx, 1016(%rsp,%rsi,8)
	movupd	%xmm0, 1000(%rsp,%rsi,8)
.LBB7_79:
	cmpl	$1, %ebp
	movq	24(%rsp), %rbp
	jne	.LBB7_92
	movq	%rax, %rbx
	jmp	.LBB7_100
.LBB7_81:
	testb	%r10b, %r10b
	movq	7200(%rsp), %r9
	je	.LBB7_90
	cmpl	$1, %ebp
	jne	.LBB7_95
	xorl	%esi, %esi
	movq	24(%rsp), %rbp
	jmp	.LBB7_98
.LBB7_84:
	movapd	80(%rsp), %xmm2
	addpd	%xmm0, %xmm2
	movapd	%xmm2, %xmm0
	subpd	%xmm2, %xmm0
	movapd	%xmm0, %xmm1
	movsd	64(%rsp), %xmm3
	ucomisd	%xmm3, %xmm1
	movb	$14, %dl
	jne	.LBB7_117
	jp	.LBB7_117
	unpckhpd	%xmm0, %xmm0
	ucomisd	%xmm3, %xmm0
	jne	.LBB7_117
	jp	.LBB7_117
	cmpb	$0, 120(%rsp)
	movq	24(%rsp), %rbp
	je	.LBB7_88
	movzbl	168(%rsp), %edx
	leaq	304(%rsp), %rdi
	movl	$128, %esi
	movl	$3, %ecx
	movapd	%xmm2, 80(%rsp)
	callq	"sums::order::nests_inside"
	movapd	80(%rsp), %xmm2
	movsd	64(%rsp), %xmm3
	testb	%al, %al
	je	.LBB7_116
.LBB7_88:
	movupd	%xmm2, 1008(%rsp,%r14)
	movq	72(%rsp), %r15
	movq	56(%rsp), %r12
	movq	7200(%rsp), %r9
	leaq	5608(%rsp), %r10
	movapd	288(%rsp), %xmm4
	movapd	272(%rsp), %xmm5
	movq	112(%rsp), %r11
	movq	48(%rsp), %rbx
	jmp	.LBB7_101
.LBB7_89:
	movq	%rax, %rbx
	jmp	.LBB7_91
.LBB7_90:
	movq	%rax, %rbx
	movq	56(%rsp), %r12
.LBB7_91:
	leaq	5608(%rsp), %r10
	movq	40(%rsp), %r14
	movq	32(%rsp), %r13
	movq	24(%rsp), %rbp
	testq	%rbx, %rbx
	jne	.LBB7_102
	jmp	.LBB7_6
.LBB7_92:
	leaq	(%rsp,%r13), %rdx
	addq	$592, %rdx
	leaq	(%rsp,%r13), %rsi
	addq	$304, %rsi
	addq	%rcx, %r13
	shlq	$3, %r13
	leaq	(,%r13,2), %rdi
	addq	%r13, %rdi
	leaq	(,%rcx,8), %r8
	leaq	(%r8,%r8,2), %r8
	leaq	1000(%rsp), %r9
	xorl	%r10d, %r10d
	leaq	719(%rsp), %r11
	leaq	431(%rsp), %rbx
	.p2align	4
.LBB7_93:
	movzbl	(%r11,%rcx), %ebp
	movb	%bpl, (%rdx,%rcx)
	movzbl	(%rbx,%rcx), %ebp
	movb	%bpl, (%rsi,%rcx)
	movups	3048(%r9,%r8), %xmm0
	movq	3064(%r9,%r8), %r14
	movq	%r14, 16(%r9,%rdi)
	movups	%xmm0, (%r9,%rdi)
	movzbl	-1(%r11,%rcx), %ebp
	movb	%bpl, -1(%rdx,%rcx)
	movzbl	-1(%rbx,%rcx), %ebp
	movb	%bpl, -1(%rsi,%rcx)
	movupd	3024(%r9,%r8), %xmm0
	movq	3040(%r9,%r8), %r14
	movq	%r14, -8(%r9,%rdi)
	movupd	%xmm0, -24(%r9,%rdi)
	addq	$-2, %rdx
	addq	$-2, %rsi
	addq	$-48, %r9
	addq	$-2, %rbx
	addq	$-2, %r11
	addq	$2, %r10
	cmpq	%r10, %rcx
	jne	.LBB7_93
	movq	%rax, %rbx
	movq	7200(%rsp), %r9
	leaq	5608(%rsp), %r10
	movq	112(%rsp), %r11
	movq	24(%rsp), %rbp
	jmp	.LBB7_101
.LBB7_95:
	movl	%r14d, %edi
	andl	$254, %edi
	addq	$24, %rdx
	leaq	306(%rsp), %rsi
	leaq	(%rsi,%r13), %r8
	leaq	594(%rsp), %rsi
	addq	%rsi, %r13
	xorl	%esi, %esi
	.p2align	4
.LBB7_96:
	movzbl	720(%rsp,%rsi), %r9d
	movb	%r9b, -1(%r13,%rsi)
	movzbl	432(%rsp,%rsi), %r9d
	movb	%r9b, -1(%r8,%rsi)
	movups	3072(%r12), %xmm0
	movq	3088(%r12), %r9
	movq	%r9, 16(%r12,%rdx)
	movups	%xmm0, (%r12,%rdx)
	movzbl	721(%rsp,%rsi), %r9d
	movb	%r9b, (%r13,%rsi)
	movzbl	433(%rsp,%rsi), %r9d
	movb	%r9b, (%r8,%rsi)
	movupd	3096(%r12), %xmm0
	movq	3112(%r12), %r9
	movq	%r9, 40(%r12,%rdx)
	movupd	%xmm0, 24(%r12,%rdx)
	addq	$2, %rsi
	addq	$48, %r12
	cmpq	%rsi, %rdi
	jne	.LBB7_96
	testb	$1, %r14b
	movq	7200(%rsp), %r9
	movq	24(%rsp), %rbp
	je	.LBB7_99
.LBB7_98:
	movzbl	720(%rsp,%rsi), %edx
	addq	%rsi, %rcx
	movb	%dl, 592(%rsp,%rcx)
	movzbl	432(%rsp,%rsi), %edx
	movb	%dl, 304(%rsp,%rcx)
	leaq	(%rsi,%rsi,2), %rdx
	addq	$384, %rdx
	leaq	(%rcx,%rcx,2), %rcx
	movupd	1000(%rsp,%rdx,8), %xmm0
	movq	1016(%rsp,%rdx,8), %rdx
	movq	%rdx, 1016(%rsp,%rcx,8)
	movupd	%xmm0, 1000(%rsp,%rcx,8)
.LBB7_99:
	movq	%rax, %rbx
	movq	56(%rsp), %r12
.LBB7_100:
	leaq	5608(%rsp), %r10
.LBB7_101:
	movq	40(%rsp), %r14
	movq	32(%rsp), %r13
	testq	%rbx, %rbx
	je	.LBB7_6
.LBB7_102:
	cmpq	$1, %rbx
	je	.LBB7_4
	movq	%rbx, %rcx
	andq	$-2, %rcx
	movq	144(%rsp), %rax
	leaq	(%r14,%rax), %rdx
	movq	136(%rsp), %rax
	leaq	(%rax,%r13), %rsi
	movq	160(%rsp), %rdi
	addq	%rax, %rdi
	xorl	%eax, %eax
	xorl	%r8d, %r8d
	.p2align	4
.LBB7_104:
	movzbl	784(%rsp,%rax), %r9d
	movb	%r9b, -1(%rdi,%rax)
	movzbl	496(%rsp,%rax), %r9d
	movb	%r9b, -1(%rsi,%rax)
	movups	(%r10,%r8), %xmm0
	movq	16(%r10,%r8), %r9
	movq	%r9, 16(%rdx,%r8)
	movups	%xmm0, (%rdx,%r8)
	movzbl	785(%rsp,%rax), %r9d
	movb	%r9b, (%rdi,%rax)
	movzbl	497(%rsp,%rax), %r9d
	movb	%r9b, (%rsi,%rax)
	movupd	24(%r10,%r8), %xmm0
	movq	40(%r10,%r8), %r9
	movq	%r9, 40(%rdx,%r8)
	movupd	%xmm0, 24(%rdx,%r8)
	addq	$2, %rax
	addq	$48, %r8
	cmpq	%rax, %rcx
	jne	.LBB7_104
	testb	$1, %bl
	movq	7200(%rsp), %r9
	jne	.LBB7_5
	jmp	.LBB7_6
.LBB7_106:
	movq	152(%rsp), %rax
	addq	104(%rsp), %rax
	movq	%rax, %rdx
	movq	208(%rsp), %rcx
	cmpq	%rcx, %rax
	movq	128(%rsp), %rdi
	movq	200(%rsp), %r8
	movq	48(%rsp), %rax
	jb	.LBB7_3
	jmp	.LBB7_111
.LBB7_108:
	movq	16(%r12), %rax
	.p2align	4
.LBB7_109:
	movzbl	(%rax,%rdx), %esi
	addq	%rsi, %rdx
	incq	%rdx
	cmpq	%rcx, %rdx
	jb	.LBB7_109
.LBB7_110:
	xorl	%eax, %eax
.LBB7_111:
	movw	$0, (%rdi)
	movq	%rax, 8(%rdi)
	jmp	.LBB7_118
.LBB7_115:
	movb	$11, %dl
	jmp	.LBB7_117
.LBB7_112:
	movzbl	177(%rsp), %edx
	jmp	.LBB7_117
.LBB7_113:
	movb	$17, %dl
	jmp	.LBB7_117
.LBB7_116:
	movb	$12, %dl
.LBB7_117:
	movq	128(%rsp), %rax
	movb	$1, (%rax)
	movb	%dl, 1(%rax)
	movq	$0, 8(%rax)
.LBB7_118:
	addq	$7144, %rsp
	popq	%rbx
	popq	%r12
	popq	%r13
	popq	%r14
	popq	%r15
	popq	%rbp
	retq
.Lfunc_end7:
	.size	"arithmetic::multiply::expr_mul", .Lfunc_end7-"arithmetic::multiply::expr_mul"

	.section	".text.arithmetic::multiply::can_pair","ax",@progbits
	.p2align	4
	.type	"arithmetic::multiply::can_pair",@function
"arithmetic::multiply::can_pair":
	pushq	%rbp
	pushq	%r15
	pushq	%r14
	pushq	%r13
	pushq	%r12
	pushq	%rbx
	subq	$72, %rsp
	movq	%rsi, %rbx
	movzbl	%cl, %eax
	movzbl	%dil, %ecx
	leaq	.Lstatic.2(%rip), %rsi
	leaq	(%rsi,%rcx,8), %rcx
	movzbl	-9(%rax,%rcx), %ecx
	movb	$1, %al
	cmpl	$2, %ecx
	je	.LBB8_3
	cmpl	$1, %ecx
	je	.LBB8_13
.LBB8_12:
	xorl	%eax, %eax
	jmp	.LBB8_13
.LBB8_3:
	addq	%rbx, %rdx
	cmpq	%rdx, %rbx
	jae	.LBB8_13
	movq	%r9, %r15
	movq	136(%rsp), %rdi
	addq	%r8, %r15
	cmpq	%r15, %r8
	jae	.LBB8_11
	movq	144(%rsp), %rax
	movq	128(%rsp), %rsi
	decq	%rax
	movq	%rax, 64(%rsp)
	movq	%rdx, 56(%rsp)
	movq	%r8, 48(%rsp)
.LBB8_6:
	movzbl	(%rdi,%rbx), %eax
	movq	%rax, 40(%rsp)
	movzbl	(%rsi,%rbx), %eax
	movb	%al, 39(%rsp)
	incq	%rbx
	movq	%r8, %r12
	.p2align	4
.LBB8_7:
	movzbl	(%rdi,%r12), %r13d
	movzbl	(%rsi,%r12), %ecx
	incq	%r12
	movq	64(%rsp), %rax
	movq	%rax, 16(%rsp)
	movq	%rdi, %r14
	movq	%rdi, 8(%rsp)
	movq	%rsi, %rbp
	movq	%rsi, (%rsp)
	movzbl	39(%rsp), %edi
	movq	%rbx, %rsi
	movq	40(%rsp), %rdx
	movq	%r12, %r8
	movq	%r13, %r9
	callq	"arithmetic::multiply::can_pair"
	testb	%al, %al
	je	.LBB8_12
	addq	%r13, %r12
	cmpq	%r15, %r12
	movq	%rbp, %rsi
	movq	%r14, %rdi
	jb	.LBB8_7
	addq	40(%rsp), %rbx
	movq	56(%rsp), %rdx
	cmpq	%rdx, %rbx
	movq	48(%rsp), %r8
	jb	.LBB8_6
	movb	$1, %al
	jmp	.LBB8_13
	.p2align	4
.LBB8_11:
	movzbl	(%rdi,%rbx), %ecx
	addq	%rcx, %rbx
	incq	%rbx
	cmpq	%rdx, %rbx
	jb	.LBB8_11
.LBB8_13:
	addq	$72, %rsp
	popq	%rbx
	popq	%r12
	popq	%r13
	popq	%r14
	popq	%r15
	popq	%rbp
	retq
.Lfunc_end8:
	.size	"arithmetic::multiply::can_pair", .Lfunc_end8-"arithmetic::multiply::can_pair"

	.section	".text.sums::order::eq_term","ax",@progbits
	.p2align	4
	.type	"sums::order::eq_term",@function
"sums::order::eq_term":
	pushq	%rbp
	pushq	%r15
	pushq	%r14
	pushq	%r13
	pushq	%r12
	pushq	%rbx
	subq	$104, %rsp
	movq	%r9, 24(%rsp)
	movq	%rdx, %r14
	movq	%rdi, 16(%rsp)
	movzbl	(%rsi), %edx
	xorl	%eax, %eax
	cmpb	(%rcx), %dl
	jne	.LBB9_9
	movsd	8(%rsi), %xmm0
	movsd	8(%rcx), %xmm1
	ucomisd	%xmm1, %xmm0
	jne	.LBB9_9
	jp	.LBB9_9
	movq	%r8, %rbx
	movzbl	1(%rsi), %eax
	movzbl	1(%rcx), %ecx
	addq	%r14, %rax
	addq	%r8, %rcx
	movq	%rax, (%rsp)
	cmpq	%rax, %r14
	setae	%al
	movq	%rcx, 8(%rsp)
	cmpq	%rcx, %r8
	setae	%cl
	orb	%al, %cl
	jne	.LBB9_8
	movq	16(%rsp), %rax
	movq	32(%rax), %r15
	movq	(%rax), %rcx
	movq	%rcx, 32(%rsp)
	movq	16(%rax), %r13
	decq	24(%rsp)
	.p2align	4
.LBB9_4:
	leaq	(%r14,%r14,2), %rax
	movsd	16(%r15,%rax,8), %xmm0
	movq	32(%rsp), %rdx
	movzbl	(%rdx,%r14), %ecx
	movzbl	(%r13,%r14), %ebp
	movb	%cl, 72(%rsp)
	movb	%bpl, 73(%rsp)
	leaq	74(%rsp), %rcx
	movw	$0, 4(%rcx)
	movl	$0, (%rcx)
	movups	(%r15,%rax,8), %xmm1
	movups	%xmm1, 80(%rsp)
	movsd	%xmm0, 96(%rsp)
	leaq	(%rbx,%rbx,2), %rax
	movsd	16(%r15,%rax,8), %xmm0
	movzbl	(%rdx,%rbx), %ecx
	movzbl	(%r13,%rbx), %r12d
	movb	%cl, 40(%rsp)
	movb	%r12b, 41(%rsp)
	leaq	42(%rsp), %rcx
	movw	$0, 4(%rcx)
	movl	$0, (%rcx)
	movupd	(%r15,%rax,8), %xmm1
	movupd	%xmm1, 48(%rsp)
	movsd	%xmm0, 64(%rsp)
	incq	%r14
	incq	%rbx
	leaq	72(%rsp), %rsi
	leaq	40(%rsp), %rcx
	movq	16(%rsp), %rdi
	movq	%r14, %rdx
	movq	%rbx, %r8
	movq	24(%rsp), %r9
	callq	"sums::order::eq_term"
	testb	%al, %al
	je	.LBB9_5
	addq	%rbp, %r14
	addq	%r12, %rbx
	cmpq	8(%rsp), %rbx
	jae	.LBB9_8
	cmpq	(%rsp), %r14
	jb	.LBB9_4
.LBB9_8:
	xorq	(%rsp), %r14
	xorq	8(%rsp), %rbx
	orq	%r14, %rbx
	sete	%al
	jmp	.LBB9_9
.LBB9_5:
	xorl	%eax, %eax
.LBB9_9:
	addq	$104, %rsp
	popq	%rbx
	popq	%r12
	popq	%r13
	popq	%r14
	popq	%r15
	popq	%rbp
	retq
.Lfunc_end9:
	.size	"sums::order::eq_term", .Lfunc_end9-"sums::order::eq_term"

	.section	.rodata.cst16,"aM",@progbits,16
	.p2align	4, 0x0
.LCPI10_0:
	.zero	16,1
.LCPI10_1:
	.zero	4
	.long	4294967295
	.long	4294967295
	.long	4294967295
	.section	".text.primitives::add_times_i","ax",@progbits
	.p2align	4
	.type	"primitives::add_times_i",@function
"primitives::add_times_i":
	pushq	%rbp
	pushq	%r15
	pushq	%r14
	pushq	%r13
	pushq	%r12
	pushq	%rbx
	subq	$296, %rsp
	movq	%rcx, %rbp
	movq	%rsi, %r12
	movq	(%rsi), %rax
	movb	$1, (%rax)
	movq	16(%rsi), %rax
	movb	$0, (%rax)
	movq	32(%rsi), %rax
	pxor	%xmm0, %xmm0
	movdqu	%xmm0, (%rax)
	movabsq	$4607182418800017408, %rcx
	movq	%rcx, 16(%rax)
	cmpq	$1, %r9
	movq	%rsi, 72(%rsp)
	jne	.LBB10_6
	movq	(%r12), %rsi
	movq	32(%r12), %rcx
	movzbl	(%rsi,%r8), %eax
	movq	%rsi, 40(%rsp)
	movzbl	(%rsi), %r15d
	movl	%eax, %r9d
	xorb	$1, %r9b
	movl	%r15d, %esi
	xorb	$1, %sil
	orb	%r9b, %sil
	jne	.LBB10_10
	movsd	(%rcx), %xmm0
	shlq	$3, %r8
	leaq	(%r8,%r8,2), %rax
	addsd	(%rcx,%rax), %xmm0
	movapd	%xmm0, %xmm2
	subsd	%xmm0, %xmm2
	xorps	%xmm1, %xmm1
	ucomisd	%xmm1, %xmm2
	jne	.LBB10_23
	jp	.LBB10_23
	movupd	8(%rcx,%rax), %xmm3
	movsd	8(%rcx), %xmm2
	movsd	16(%rcx), %xmm4
	unpcklpd	%xmm2, %xmm2
	mulpd	%xmm3, %xmm2
	unpcklpd	%xmm4, %xmm4
	shufpd	$1, %xmm3, %xmm3
	mulpd	%xmm4, %xmm3
	movapd	%xmm2, %xmm4
	subpd	%xmm3, %xmm4
	addpd	%xmm2, %xmm3
	movsd	%xmm4, %xmm3
	xorpd	%xmm2, %xmm2
	addpd	%xmm3, %xmm2
	movapd	%xmm2, %xmm3
	subpd	%xmm2, %xmm3
	movapd	%xmm3, %xmm4
	ucomisd	%xmm1, %xmm4
	movb	$14, %sil
	jne	.LBB10_70
	jp	.LBB10_70
	unpckhpd	%xmm3, %xmm3
	ucomisd	%xmm1, %xmm3
	jne	.LBB10_70
	jp	.LBB10_70
	movq	40(%rsp), %rax
	movb	$1, 64(%rax)
	movq	16(%r12), %rax
	movb	$0, 64(%rax)
	movq	32(%r12), %rax
	movsd	%xmm0, 1536(%rax)
	movupd	%xmm2, 1544(%rax)
	movl	$1, %ebx
	jmp	.LBB10_71
.LBB10_6:
	movdqa	%xmm0, 160(%rsp)
	movq	(%r12), %r14
	leaq	(%r9,%r8), %r11
	cmpq	%r11, %r8
	jae	.LBB10_16
	movb	$1, %cl
	movq	%r8, %r10
	cmpq	$4, %r9
	jb	.LBB10_38
	cmpq	$32, %r9
	jae	.LBB10_24
	xorl	%eax, %eax
	jmp	.LBB10_35
.LBB10_10:
	movq	16(%r12), %r14
	cmpb	$1, %r15b
	setne	%r9b
	cmpb	$1, %al
	setne	%al
	movdqa	%xmm0, 160(%rsp)
	movq	%r8, %rbx
	incq	%rbx
	sete	%sil
	notb	%sil
	andb	%al, %sil
	orb	%r9b, %sil
	jne	.LBB10_18
	cmpq	$-1, %r8
	je	.LBB10_26
	xorps	%xmm1, %xmm1
	shlq	$3, %r8
	leaq	(%r8,%r8,2), %rsi
	movsd	(%rcx,%rsi), %xmm0
	addsd	(%rcx), %xmm0
	movapd	%xmm0, %xmm2
	subsd	%xmm0, %xmm2
	movb	$1, %al
	ucomisd	%xmm1, %xmm2
	jne	.LBB10_147
	jp	.LBB10_147
	movupd	8(%rcx,%rsi), %xmm2
	movsd	8(%rcx), %xmm3
	movsd	16(%rcx), %xmm4
	unpcklpd	%xmm3, %xmm3
	mulpd	%xmm2, %xmm3
	shufpd	$1, %xmm2, %xmm2
	unpcklpd	%xmm4, %xmm4
	mulpd	%xmm2, %xmm4
	movapd	%xmm3, %xmm2
	subpd	%xmm4, %xmm2
	addpd	%xmm3, %xmm4
	movsd	%xmm2, %xmm4
	xorpd	%xmm2, %xmm2
	addpd	%xmm4, %xmm2
	movapd	%xmm2, %xmm3
	subpd	%xmm2, %xmm3
	movapd	%xmm3, %xmm4
	xorl	%ebx, %ebx
	ucomisd	%xmm1, %xmm4
	movb	$14, %sil
	jne	.LBB10_69
	jp	.LBB10_69
	unpckhpd	%xmm3, %xmm3
	ucomisd	%xmm1, %xmm3
	jne	.LBB10_69
	jp	.LBB10_69
	movq	40(%rsp), %rax
	movb	$1, 64(%rax)
	movq	16(%r12), %rax
	movb	$0, 64(%rax)
	movq	32(%r12), %rax
	movsd	%xmm0, 1536(%rax)
	movupd	%xmm2, 1544(%rax)
	movl	$1, %ebx
	xorl	%eax, %eax
	xorl	%esi, %esi
	jmp	.LBB10_69
.LBB10_16:
	movq	%r8, 96(%rsp)
	movq	%rdx, 48(%rsp)
	movq	%rbp, 56(%rsp)
	movq	%rdi, 64(%rsp)
	movq	%r9, 88(%rsp)
	cmpb	$1, (%r14)
	jne	.LBB10_64
	xorl	%eax, %eax
	xorl	%esi, %esi
	jmp	.LBB10_67
.LBB10_18:
	movq	%rdx, 48(%rsp)
	movq	%rbp, 56(%rsp)
	movq	%rdi, 64(%rsp)
	movq	%r8, 96(%rsp)
	cmpq	$-1, %r8
	je	.LBB10_22
	movzbl	(%r14), %ebp
	movq	96(%rsp), %r12
	.p2align	4
.LBB10_20:
	movzbl	(%r14,%r12), %r13d
	movq	40(%rsp), %rax
	movzbl	(%rax,%r12), %edi
	incq	%r12
	movq	%r14, 8(%rsp)
	movq	%rax, (%rsp)
	movq	$3, 16(%rsp)
	movzbl	%r15b, %ecx
	movl	$1, %r8d
	movq	%r12, %rsi
	movq	%r13, %rdx
	movq	%rbp, %r9
	callq	"arithmetic::multiply::can_pair"
	testb	%al, %al
	je	.LBB10_66
	addq	%r13, %r12
	cmpq	%rbx, %r12
	jb	.LBB10_20
.LBB10_22:
	movq	$4, 8(%rsp)
	movq	$64, (%rsp)
	leaq	160(%rsp), %rdi
	movl	$1, %ecx
	movl	$1, %r9d
	movq	72(%rsp), %r12
	movq	%r12, %rsi
	movq	96(%rsp), %rdx
	jmp	.LBB10_65
.LBB10_23:
	movb	$17, %sil
	jmp	.LBB10_70
.LBB10_24:
	movl	%r9d, %eax
	andl	$224, %eax
	movdqu	(%r14,%r8), %xmm4
	movdqu	16(%r14,%r8), %xmm3
	movdqa	.LCPI10_0(%rip), %xmm2
	cmpq	$32, %rax
	jne	.LBB10_27
	pcmpeqb	%xmm2, %xmm4
	pcmpeqb	%xmm2, %xmm3
	movdqa	%xmm4, %xmm0
	movdqa	%xmm3, %xmm1
	jmp	.LBB10_33
.LBB10_26:
	xorl	%eax, %eax
	xorl	%esi, %esi
	xorl	%ebx, %ebx
	jmp	.LBB10_69
.LBB10_27:
	pcmpeqb	%xmm2, %xmm3
	pcmpeqb	%xmm2, %xmm4
	movdqu	32(%r14,%r8), %xmm0
	movdqu	48(%r14,%r8), %xmm1
	pcmpeqb	%xmm2, %xmm0
	pand	%xmm4, %xmm0
	pcmpeqb	%xmm2, %xmm1
	pand	%xmm3, %xmm1
	cmpl	$64, %eax
	je	.LBB10_33
	movdqu	64(%r14,%r8), %xmm3
	movdqu	80(%r14,%r8), %xmm4
	pcmpeqb	%xmm2, %xmm3
	pcmpeqb	%xmm2, %xmm4
	pand	%xmm3, %xmm0
	pand	%xmm4, %xmm1
	cmpl	$96, %eax
	je	.LBB10_33
	movdqu	96(%r14,%r8), %xmm3
	movdqu	112(%r14,%r8), %xmm4
	pcmpeqb	%xmm2, %xmm3
	pcmpeqb	%xmm2, %xmm4
	pand	%xmm3, %xmm0
	pand	%xmm4, %xmm1
	cmpl	$128, %eax
	je	.LBB10_33
	movdqu	128(%r14,%r8), %xmm3
	movdqu	144(%r14,%r8), %xmm4
	pcmpeqb	%xmm2, %xmm3
	pcmpeqb	%xmm2, %xmm4
	pand	%xmm3, %xmm0
	pand	%xmm4, %xmm1
	cmpl	$160, %eax
	je	.LBB10_33
	movdqu	160(%r14,%r8), %xmm3
	movdqu	176(%r14,%r8), %xmm4
	pcmpeqb	%xmm2, %xmm3
	pcmpeqb	%xmm2, %xmm4
	pand	%xmm3, %xmm0
	pand	%xmm4, %xmm1
	cmpl	$192, %eax
	je	.LBB10_33
	movdqu	192(%r14,%r8), %xmm3
	movdqu	208(%r14,%r8), %xmm4
	pcmpeqb	%xmm2, %xmm3
	pcmpeqb	%xmm2, %xmm4
	pand	%xmm3, %xmm0
	pand	%xmm4, %xmm1
.LBB10_33:
	pand	%xmm1, %xmm0
	psllw	$7, %xmm0
	pmovmskb	%xmm0, %ecx
	cmpl	$65535, %ecx
	sete	%cl
	cmpq	%rax, %r9
	je	.LBB10_39
	testb	$28, %r9b
	je	.LBB10_161
.LBB10_35:
	movl	%r9d, %esi
	andl	$252, %esi
	leaq	(%r8,%rsi), %r10
	movzbl	%cl, %ecx
	movd	%ecx, %xmm1
	movaps	.LCPI10_1(%rip), %xmm0
	movss	%xmm1, %xmm0
	leaq	(%r14,%r8), %rcx
	.p2align	4
.LBB10_36:
	movd	(%rcx,%rax), %xmm1
	punpcklbw	%xmm1, %xmm1
	punpcklwd	%xmm1, %xmm1
	pcmpeqb	.LCPI10_0(%rip), %xmm1
	andps	%xmm1, %xmm0
	addq	$4, %rax
	cmpq	%rax, %rsi
	jne	.LBB10_36
	pslld	$31, %xmm0
	movmskps	%xmm0, %eax
	xorl	$15, %eax
	sete	%cl
	cmpq	%rsi, %r9
	je	.LBB10_39
	.p2align	4
.LBB10_38:
	cmpb	$1, (%r14,%r10)
	sete	%al
	andb	%al, %cl
	incq	%r10
	cmpq	%r10, %r11
	jne	.LBB10_38
.LBB10_39:
	movzbl	(%r14), %ebx
	cmpb	$1, %bl
	sete	%al
	testb	%al, %cl
	movq	%r11, 40(%rsp)
	je	.LBB10_61
	xorps	%xmm0, %xmm0
	xorl	%ecx, %ecx
	jmp	.LBB10_43
	.p2align	4
.LBB10_41:
	movq	(%r12), %r15
.LBB10_42:
	movb	$1, (%r15,%r9)
	movq	16(%r12), %rax
	movb	$0, (%rax,%r9)
	leaq	(%r9,%r9,2), %rax
	movq	32(%r12), %rcx
	movsd	%xmm2, (%rcx,%rax,8)
	movupd	%xmm1, 8(%rcx,%rax,8)
	movq	%rsi, %rcx
	movq	40(%rsp), %r9
	incq	%r8
	cmpq	%r9, %r8
	je	.LBB10_149
.LBB10_43:
	movq	32(%r12), %r13
	leaq	(%r8,%r8,2), %rsi
	movsd	(%r13,%rsi,8), %xmm2
	addsd	(%r13), %xmm2
	movapd	%xmm2, %xmm1
	subsd	%xmm2, %xmm1
	movb	$1, %al
	ucomisd	%xmm0, %xmm1
	jne	.LBB10_147
	jp	.LBB10_147
	movq	(%r12), %r15
	movq	16(%r12), %r14
	movupd	8(%r13,%rsi,8), %xmm3
	movsd	8(%r13), %xmm1
	unpcklpd	%xmm1, %xmm1
	mulpd	%xmm3, %xmm1
	shufpd	$1, %xmm3, %xmm3
	movsd	16(%r13), %xmm4
	unpcklpd	%xmm4, %xmm4
	mulpd	%xmm3, %xmm4
	movapd	%xmm1, %xmm3
	subpd	%xmm4, %xmm3
	addpd	%xmm4, %xmm1
	movsd	%xmm3, %xmm1
	leaq	64(%rcx), %r10
	movapd	%xmm2, %xmm3
	leaq	(%rcx,%rcx,2), %rsi
	leaq	1544(,%rsi,8), %r11
	addq	%r13, %r11
	leaq	65(%rcx), %r9
	.p2align	4
.LBB10_45:
	decq	%r9
	cmpq	$65, %r9
	jb	.LBB10_51
	movsd	-32(%r11), %xmm4
	ucomisd	%xmm4, %xmm3
	seta	%sil
	incb	%sil
	xorl	%ebx, %ebx
	ucomisd	%xmm3, %xmm4
	movzbl	%sil, %esi
	cmoval	%ebx, %esi
	addq	$-24, %r11
	testb	%sil, %sil
	je	.LBB10_45
	movzbl	%sil, %esi
	cmpl	$2, %esi
	je	.LBB10_52
	movupd	(%r11), %xmm2
	addpd	%xmm2, %xmm1
	movapd	%xmm1, %xmm2
	subpd	%xmm1, %xmm2
	movapd	%xmm2, %xmm3
	xorl	%ebx, %ebx
	ucomisd	%xmm0, %xmm3
	movb	$14, %sil
	movq	40(%rsp), %r9
	jne	.LBB10_69
	jp	.LBB10_69
	unpckhpd	%xmm2, %xmm2
	ucomisd	%xmm0, %xmm2
	jne	.LBB10_69
	jp	.LBB10_69
	movupd	%xmm1, (%r11)
	incq	%r8
	cmpq	%r9, %r8
	jne	.LBB10_43
	jmp	.LBB10_149
	.p2align	4
.LBB10_51:
	movl	$64, %r9d
.LBB10_52:
	xorpd	%xmm3, %xmm3
	addpd	%xmm3, %xmm1
	movapd	%xmm1, %xmm3
	subpd	%xmm1, %xmm3
	movapd	%xmm3, %xmm4
	xorl	%ebx, %ebx
	ucomisd	%xmm0, %xmm4
	movb	$14, %sil
	jne	.LBB10_69
	jp	.LBB10_69
	unpckhpd	%xmm3, %xmm3
	ucomisd	%xmm0, %xmm3
	jne	.LBB10_69
	jp	.LBB10_69
	leaq	1(%rcx), %rsi
	cmpq	$64, %rsi
	ja	.LBB10_151
	cmpq	%r10, %r9
	jae	.LBB10_42
	movl	%ecx, %r11d
	subl	%r9d, %r11d
	leaq	63(%rcx), %rax
	testb	$1, %r11b
	je	.LBB10_58
	movzbl	63(%r15,%rcx), %r11d
	movb	%r11b, 64(%r15,%rcx)
	movzbl	63(%r14,%rcx), %r11d
	movb	%r11b, 64(%r14,%rcx)
	leaq	(%rax,%rax,2), %rcx
	leaq	(%r10,%r10,2), %r10
	movq	16(%r13,%rcx,8), %r11
	movq	%r11, 16(%r13,%r10,8)
	movupd	(%r13,%rcx,8), %xmm3
	movupd	%xmm3, (%r13,%r10,8)
	movq	%rax, %r10
.LBB10_58:
	cmpq	%r9, %rax
	je	.LBB10_41
	leaq	(%r10,%r10,2), %rax
	leaq	(,%rax,8), %rax
	addq	%r13, %rax
	.p2align	4
.LBB10_60:
	movzbl	-1(%r15,%r10), %ecx
	movb	%cl, (%r15,%r10)
	movzbl	-1(%r14,%r10), %ecx
	movb	%cl, (%r14,%r10)
	movq	-8(%rax), %rcx
	movq	%rcx, 16(%rax)
	movups	-24(%rax), %xmm3
	movups	%xmm3, (%rax)
	movzbl	-2(%r15,%r10), %ecx
	movb	%cl, -1(%r15,%r10)
	movzbl	-2(%r14,%r10), %ecx
	movb	%cl, -1(%r14,%r10)
	addq	$-2, %r10
	movq	-32(%rax), %rcx
	movq	%rcx, -8(%rax)
	movupd	-48(%rax), %xmm3
	movupd	%xmm3, -24(%rax)
	addq	$-48, %rax
	cmpq	%r10, %r9
	jb	.LBB10_60
	jmp	.LBB10_41
.LBB10_61:
	movq	%rdx, 48(%rsp)
	movq	%rbp, 56(%rsp)
	movq	%rdi, 64(%rsp)
	movq	%r9, 88(%rsp)
	movq	16(%r12), %rbp
	movzbl	(%rbp), %r12d
	movq	%r8, 96(%rsp)
	movq	%r8, %r13
	.p2align	4
.LBB10_62:
	movzbl	(%rbp,%r13), %r15d
	movzbl	(%r14,%r13), %edi
	incq	%r13
	movq	%rbp, 8(%rsp)
	movq	%r14, (%rsp)
	movq	$3, 16(%rsp)
	movzbl	%bl, %ecx
	movl	$1, %r8d
	movq	%r13, %rsi
	movq	%r15, %rdx
	movq	%r12, %r9
	callq	"arithmetic::multiply::can_pair"
	testb	%al, %al
	je	.LBB10_66
	addq	%r15, %r13
	cmpq	40(%rsp), %r13
	jb	.LBB10_62
.LBB10_64:
	movq	$4, 8(%rsp)
	movq	$64, (%rsp)
	leaq	160(%rsp), %rdi
	movl	$1, %r9d
	movq	72(%rsp), %r12
	movq	%r12, %rsi
	movq	96(%rsp), %rdx
	movq	88(%rsp), %rcx
.LBB10_65:
	xorl	%r8d, %r8d
	callq	"arithmetic::multiply::expr_mul"
	movzbl	160(%rsp), %eax
	movzbl	161(%rsp), %esi
	movq	168(%rsp), %rbx
	movq	64(%rsp), %rdi
	jmp	.LBB10_68
.LBB10_66:
	movb	$6, %sil
	movb	$1, %al
.LBB10_67:
	xorl	%ebx, %ebx
	movq	64(%rsp), %rdi
	movq	72(%rsp), %r12
.LBB10_68:
	movq	56(%rsp), %rbp
	movq	48(%rsp), %rdx
.LBB10_69:
	testb	%al, %al
	je	.LBB10_71
.LBB10_70:
	movb	$1, (%rdi)
	movb	%sil, 1(%rdi)
	movq	$0, 8(%rdi)
	jmp	.LBB10_158
.LBB10_71:
	testq	%rbp, %rbp
	je	.LBB10_78
	movq	(%r12), %r15
	movq	16(%r12), %rcx
	movq	32(%r12), %rax
	cmpq	$1, %rbp
	jne	.LBB10_74
	xorl	%esi, %esi
	jmp	.LBB10_77
.LBB10_74:
	movq	%rbx, %r13
	movl	%ebp, %r14d
	andl	$254, %r14d
	leaq	(,%rdx,8), %rsi
	leaq	(%rsi,%rsi,2), %r8
	leaq	(%rcx,%rdx), %r9
	incq	%r9
	leaq	(%r15,%rdx), %r10
	incq	%r10
	xorl	%esi, %esi
	movq	%rax, %r11
	.p2align	4
.LBB10_75:
	movzbl	-1(%r10,%rsi), %ebx
	movb	%bl, (%r15,%rsi)
	movzbl	-1(%r9,%rsi), %ebx
	movb	%bl, (%rcx,%rsi)
	movups	(%r11,%r8), %xmm0
	movq	16(%r11,%r8), %rbx
	movq	%rbx, 16(%r11)
	movups	%xmm0, (%r11)
	movzbl	(%r10,%rsi), %ebx
	movb	%bl, 1(%r15,%rsi)
	movzbl	(%r9,%rsi), %ebx
	movb	%bl, 1(%rcx,%rsi)
	movupd	24(%r11,%r8), %xmm0
	movq	40(%r11,%r8), %rbx
	movq	%rbx, 40(%r11)
	movupd	%xmm0, 24(%r11)
	addq	$2, %rsi
	addq	$48, %r11
	cmpq	%rsi, %r14
	jne	.LBB10_75
	testb	$1, %bpl
	movq	%r13, %rbx
	je	.LBB10_78
.LBB10_77:
	addq	%rsi, %rdx
	movzbl	(%r15,%rdx), %r8d
	movb	%r8b, (%r15,%rsi)
	movzbl	(%rcx,%rdx), %r8d
	movb	%r8b, (%rcx,%rsi)
	leaq	(%rdx,%rdx,2), %rcx
	leaq	(%rsi,%rsi,2), %rdx
	movupd	(%rax,%rcx,8), %xmm0
	movq	16(%rax,%rcx,8), %rcx
	movq	%rcx, 16(%rax,%rdx,8)
	movupd	%xmm0, (%rax,%rdx,8)
.LBB10_78:
	movq	%rdi, 64(%rsp)
	addq	$64, %rbx
	cmpq	$65, %rbx
	jb	.LBB10_146
	xorpd	%xmm2, %xmm2
	movl	$64, %r8d
	movq	%rbp, %r10
	movq	%rbx, 224(%rsp)
	movsd	%xmm2, 112(%rsp)
	jmp	.LBB10_83
.LBB10_80:
	movq	(%r12), %r8
.LBB10_81:
	incq	%r10
	movb	$1, (%r8,%rdx)
	movq	16(%r12), %rax
	movb	$0, (%rax,%rdx)
	movq	32(%r12), %rax
	movsd	%xmm4, -8(%rax,%rcx)
	movupd	%xmm3, (%rax,%rcx)
.LBB10_82:
	movq	88(%rsp), %rax
	addq	%r15, %rax
	movq	%rax, %r8
	cmpq	%rbx, %rax
	jae	.LBB10_148
.LBB10_83:
	movq	(%r12), %rbp
	movq	16(%r12), %r11
	movq	32(%r12), %r13
	leaq	(%r8,%r8,2), %rax
	movsd	(%r13,%rax,8), %xmm4
	movupd	8(%r13,%rax,8), %xmm3
	movzbl	(%rbp,%r8), %edi
	movzbl	(%r11,%r8), %esi
	movzbl	%sil, %r15d
	leaq	1(%r8), %rax
	movq	%rax, 88(%rsp)
	cmpb	$1, %dil
	jne	.LBB10_102
	xorl	%esi, %esi
	testq	%r10, %r10
	je	.LBB10_88
	.p2align	4
.LBB10_85:
	cmpb	$1, (%rbp,%rsi)
	jne	.LBB10_88
	incq	%rsi
	cmpq	%rsi, %r10
	jne	.LBB10_85
	movq	%r10, %rsi
.LBB10_88:
	movapd	%xmm4, %xmm0
	subsd	%xmm4, %xmm0
	movb	$1, %al
	ucomisd	%xmm2, %xmm0
	jne	.LBB10_150
	jp	.LBB10_150
	movapd	%xmm4, %xmm0
	leaq	(%rsi,%rsi,2), %rcx
	leaq	8(,%rcx,8), %rdi
	.p2align	4
.LBB10_90:
	movq	%rsi, %rdx
	movq	%rdi, %rcx
	subq	$1, %rsi
	jb	.LBB10_93
	movsd	-32(%r13,%rcx), %xmm1
	ucomisd	%xmm1, %xmm0
	seta	%dil
	incb	%dil
	xorl	%r9d, %r9d
	ucomisd	%xmm0, %xmm1
	movzbl	%dil, %r8d
	cmoval	%r9d, %r8d
	leaq	-24(%rcx), %rdi
	testb	%r8b, %r8b
	je	.LBB10_90
	movzbl	%r8b, %esi
	cmpl	$2, %esi
	jne	.LBB10_137
.LBB10_93:
	movq	%rbp, %r8
	xorpd	%xmm0, %xmm0
	addpd	%xmm0, %xmm3
	movapd	%xmm3, %xmm0
	subpd	%xmm3, %xmm0
	movapd	%xmm0, %xmm1
	xorl	%ebp, %ebp
	ucomisd	%xmm2, %xmm1
	jne	.LBB10_160
	jp	.LBB10_160
	unpckhpd	%xmm0, %xmm0
	ucomisd	%xmm2, %xmm0
	jne	.LBB10_160
	jp	.LBB10_160
	cmpq	$63, %r10
	ja	.LBB10_153
	cmpq	%rdx, %r10
	jbe	.LBB10_81
	movl	%r10d, %edi
	subl	%edx, %edi
	leaq	-1(%r10), %rsi
	movq	%r10, %rax
	testb	$1, %dil
	je	.LBB10_99
	movzbl	-1(%r8,%r10), %eax
	movb	%al, (%r8,%r10)
	movzbl	-1(%r11,%r10), %eax
	movb	%al, (%r11,%r10)
	leaq	(%r10,%r10,2), %rax
	movq	-8(%r13,%rax,8), %rdi
	movq	%rdi, 16(%r13,%rax,8)
	movupd	-24(%r13,%rax,8), %xmm0
	movupd	%xmm0, (%r13,%rax,8)
	movq	%rsi, %rax
.LBB10_99:
	cmpq	%rdx, %rsi
	je	.LBB10_80
	leaq	(%rax,%rax,2), %rsi
	leaq	(,%rsi,8), %rsi
	addq	%r13, %rsi
	.p2align	4
.LBB10_101:
	movzbl	-1(%r8,%rax), %edi
	movb	%dil, (%r8,%rax)
	movzbl	-1(%r11,%rax), %edi
	movb	%dil, (%r11,%rax)
	movq	-8(%rsi), %rdi
	movq	%rdi, 16(%rsi)
	movups	-24(%rsi), %xmm0
	movups	%xmm0, (%rsi)
	movzbl	-2(%r8,%rax), %edi
	movb	%dil, -1(%r8,%rax)
	movzbl	-2(%r11,%rax), %edi
	movb	%dil, -1(%r11,%rax)
	addq	$-2, %rax
	movq	-32(%rsi), %rdi
	movq	%rdi, -8(%rsi)
	movupd	-48(%rsi), %xmm0
	movupd	%xmm0, -24(%rsi)
	addq	$-48, %rsi
	cmpq	%rax, %rdx
	jb	.LBB10_101
	jmp	.LBB10_80
	.p2align	4
.LBB10_102:
	movapd	%xmm4, %xmm0
	subsd	%xmm4, %xmm0
	movb	$14, %al
	movl	%eax, 84(%rsp)
	ucomisd	%xmm2, %xmm0
	jne	.LBB10_156
	jp	.LBB10_156
	movq	%r15, 120(%rsp)
	movq	8(%r12), %rax
	movq	24(%r12), %rcx
	movq	40(%r12), %rdx
	movq	%rbp, 160(%rsp)
	movq	%rax, 168(%rsp)
	movq	%r11, 176(%rsp)
	movq	%rcx, 184(%rsp)
	movq	%r13, 192(%rsp)
	movq	%rdx, 200(%rsp)
	movb	%dil, 39(%rsp)
	movb	%dil, 264(%rsp)
	movb	%sil, 38(%rsp)
	movb	%sil, 265(%rsp)
	leaq	266(%rsp), %rax
	movw	$0, 4(%rax)
	movl	$0, (%rax)
	movsd	%xmm4, 152(%rsp)
	movsd	%xmm4, 272(%rsp)
	movapd	%xmm3, 128(%rsp)
	movupd	%xmm3, 280(%rsp)
	testq	%r10, %r10
	je	.LBB10_113
	xorl	%r14d, %r14d
	movq	%r10, 40(%rsp)
	movq	%r13, 56(%rsp)
	movq	%rbp, 48(%rsp)
	.p2align	4
.LBB10_105:
	leaq	(,%r14,8), %rax
	leaq	(%rax,%rax,2), %r12
	movsd	(%r13,%r12), %xmm0
	movupd	8(%r13,%r12), %xmm1
	movzbl	(%rbp,%r14), %eax
	movq	%r11, %r13
	movzbl	(%r11,%r14), %ebp
	movb	%al, 232(%rsp)
	movb	%bpl, 233(%rsp)
	leaq	234(%rsp), %rax
	movw	$0, 4(%rax)
	movl	$0, (%rax)
	movsd	%xmm0, 240(%rsp)
	movapd	%xmm1, 96(%rsp)
	movupd	%xmm1, 248(%rsp)
	leaq	1(%r14), %r15
	leaq	160(%rsp), %rdi
	leaq	264(%rsp), %rsi
	leaq	232(%rsp), %rcx
	movl	$4, %r9d
	movq	%r8, %rbx
	leaq	1(%r8), %rdx
	movq	%r15, %r8
	callq	"sums::order::cmp_term"
	cmpb	$2, %al
	jne	.LBB10_107
	addq	%rbp, %r15
	movq	%r15, %r14
	movq	40(%rsp), %r10
	cmpq	%r10, %r15
	movq	%r13, %r11
	movq	56(%rsp), %r13
	movq	48(%rsp), %rbp
	movq	%rbx, %r8
	jb	.LBB10_105
	jmp	.LBB10_114
	.p2align	4
.LBB10_107:
	movapd	96(%rsp), %xmm0
	movq	%r12, 216(%rsp)
	movzbl	%al, %eax
	movq	%r14, %r15
	testl	%eax, %eax
	movq	40(%rsp), %r10
	movq	%r13, %r11
	movq	56(%rsp), %r13
	movq	48(%rsp), %rbp
	movq	%rbx, %r8
	je	.LBB10_114
	movapd	128(%rsp), %xmm3
	addpd	%xmm0, %xmm3
	movapd	%xmm3, %xmm0
	subpd	%xmm3, %xmm0
	movapd	%xmm0, %xmm1
	movsd	112(%rsp), %xmm2
	ucomisd	%xmm2, %xmm1
	movq	120(%rsp), %r15
	jne	.LBB10_156
	jp	.LBB10_156
	unpckhpd	%xmm0, %xmm0
	ucomisd	%xmm2, %xmm0
	jne	.LBB10_156
	jp	.LBB10_156
	cmpb	$0, 38(%rsp)
	je	.LBB10_112
	movl	$3, %ecx
	movq	%r11, %rdi
	movq	88(%rsp), %rsi
	movq	%r15, %rdx
	movapd	%xmm3, 128(%rsp)
	callq	"sums::order::nests_inside"
	movq	40(%rsp), %r10
	movapd	128(%rsp), %xmm3
	movsd	112(%rsp), %xmm2
	testb	%al, %al
	je	.LBB10_154
.LBB10_112:
	movq	216(%rsp), %rax
	movupd	%xmm3, 8(%r13,%rax)
	movq	72(%rsp), %r12
	jmp	.LBB10_145
.LBB10_113:
	xorl	%r15d, %r15d
.LBB10_114:
	movq	%r15, 96(%rsp)
	xorpd	%xmm0, %xmm0
	movapd	128(%rsp), %xmm3
	addpd	%xmm0, %xmm3
	movapd	%xmm3, %xmm0
	subpd	%xmm3, %xmm0
	movapd	%xmm0, %xmm1
	movsd	112(%rsp), %xmm2
	ucomisd	%xmm2, %xmm1
	movq	120(%rsp), %r15
	jne	.LBB10_156
	jp	.LBB10_156
	unpckhpd	%xmm0, %xmm0
	ucomisd	%xmm2, %xmm0
	jne	.LBB10_156
	jp	.LBB10_156
	movzbl	38(%rsp), %r14d
	testb	%r14b, %r14b
	je	.LBB10_118
	movl	$3, %ecx
	movq	%r11, %rdi
	leaq	1(%r8), %rsi
	movq	%r15, %rdx
	movapd	%xmm3, 128(%rsp)
	movq	%r10, %r14
	movq	%r11, %r12
	movq	%r8, %rbx
	callq	"sums::order::nests_inside"
	movq	%rbx, %r8
	movq	%r12, %r11
	movq	%r14, %r10
	movzbl	38(%rsp), %r14d
	movapd	128(%rsp), %xmm3
	movsd	112(%rsp), %xmm2
	testb	%al, %al
	je	.LBB10_154
.LBB10_118:
	leaq	(%r10,%r15), %rax
	incq	%rax
	cmpq	$64, %rax
	ja	.LBB10_152
	movq	96(%rsp), %rbx
	cmpq	%rbx, %r10
	jbe	.LBB10_126
	movq	%r8, %r14
	movl	%r10d, %edx
	subl	%ebx, %edx
	movq	%r10, %rcx
	testb	$1, %dl
	movq	72(%rsp), %r12
	movsd	152(%rsp), %xmm1
	je	.LBB10_122
	leaq	-1(%r10), %rcx
	movzbl	-1(%rbp,%r10), %edx
	leaq	(%r10,%r15), %rsi
	movb	%dl, (%rbp,%rsi)
	movzbl	-1(%r11,%r10), %edx
	movb	%dl, (%r11,%rsi)
	leaq	(%rcx,%rcx,2), %rdx
	leaq	(%rsi,%rsi,2), %rsi
	movupd	(%r13,%rdx,8), %xmm0
	movq	16(%r13,%rdx,8), %rdx
	movq	%rdx, 16(%r13,%rsi,8)
	movupd	%xmm0, (%r13,%rsi,8)
.LBB10_122:
	leaq	1(%rbx), %rdx
	cmpq	%rdx, %r10
	je	.LBB10_125
	leaq	(%rcx,%rcx,2), %rdx
	leaq	-24(,%rdx,8), %rdx
	leaq	(%rcx,%r15), %rsi
	shlq	$3, %rsi
	leaq	(%rsi,%rsi,2), %rsi
	leaq	(%r11,%r15), %rdi
	leaq	(%r15,%rbp), %r8
	.p2align	4
.LBB10_124:
	movzbl	-1(%rbp,%rcx), %r9d
	movb	%r9b, (%r8,%rcx)
	movzbl	-1(%r11,%rcx), %r9d
	movb	%r9b, (%rdi,%rcx)
	movups	(%r13,%rdx), %xmm0
	movq	16(%r13,%rdx), %r9
	movq	%r9, 16(%r13,%rsi)
	movups	%xmm0, (%r13,%rsi)
	movzbl	-2(%rbp,%rcx), %r9d
	movb	%r9b, -1(%r8,%rcx)
	movzbl	-2(%r11,%rcx), %r9d
	movb	%r9b, -1(%rdi,%rcx)
	addq	$-2, %rcx
	movupd	-24(%r13,%rdx), %xmm0
	movq	-8(%r13,%rdx), %r9
	movq	%r9, -8(%r13,%rsi)
	movupd	%xmm0, -24(%r13,%rsi)
	addq	$-48, %r13
	cmpq	%rcx, %rbx
	jb	.LBB10_124
.LBB10_125:
	movq	(%r12), %rbp
	movq	%r14, %r8
	movzbl	38(%rsp), %r14d
	jmp	.LBB10_127
.LBB10_126:
	movq	72(%rsp), %r12
	movsd	152(%rsp), %xmm1
.LBB10_127:
	movzbl	39(%rsp), %ecx
	movb	%cl, (%rbp,%rbx)
	movq	16(%r12), %rcx
	movb	%r14b, (%rcx,%rbx)
	leaq	(%rbx,%rbx,2), %rcx
	movq	32(%r12), %rdx
	movsd	%xmm1, (%rdx,%rcx,8)
	movupd	%xmm3, 8(%rdx,%rcx,8)
	movq	(%r12), %rsi
	movq	16(%r12), %rdx
	movq	32(%r12), %rcx
	cmpq	%r8, %rbx
	jbe	.LBB10_134
	testb	%r14b, %r14b
	je	.LBB10_144
	movq	%r15, %rdi
	testb	$1, %r15b
	je	.LBB10_131
	leaq	-1(%r15), %rdi
	movq	%r8, %r11
	addq	%r15, %r8
	movzbl	(%rsi,%r8), %r9d
	leaq	(%rbx,%r15), %r10
	movb	%r9b, (%rsi,%r10)
	movzbl	(%rdx,%r8), %r9d
	movb	%r9b, (%rdx,%r10)
	leaq	(%r8,%r8,2), %r8
	leaq	(%r10,%r10,2), %r9
	movupd	(%rcx,%r8,8), %xmm0
	movq	16(%rcx,%r8,8), %r8
	movq	%r8, 16(%rcx,%r9,8)
	movq	%r11, %r8
	movupd	%xmm0, (%rcx,%r9,8)
.LBB10_131:
	cmpb	$1, %r14b
	je	.LBB10_144
	movq	%r8, %r11
	leaq	(%rdi,%rbx), %r8
	shlq	$3, %r8
	leaq	(%r8,%r8,2), %r8
	leaq	(%rdx,%rbx), %r9
	addq	%rsi, %rbx
	leaq	(%rdi,%r11), %r10
	shlq	$3, %r10
	leaq	(%r10,%r10,2), %r10
	addq	%r11, %rdx
	addq	%r11, %rsi
	xorl	%r11d, %r11d
	.p2align	4
.LBB10_133:
	movzbl	(%rsi,%rdi), %ebp
	movb	%bpl, (%rbx,%rdi)
	movzbl	(%rdx,%rdi), %ebp
	movb	%bpl, (%r9,%rdi)
	movups	(%rcx,%r10), %xmm0
	movq	16(%rcx,%r10), %r14
	movq	%r14, 16(%rcx,%r8)
	movups	%xmm0, (%rcx,%r8)
	movzbl	-1(%rsi,%rdi), %ebp
	movb	%bpl, -1(%rbx,%rdi)
	movzbl	-1(%rdx,%rdi), %ebp
	movb	%bpl, -1(%r9,%rdi)
	movupd	-24(%rcx,%r10), %xmm0
	movq	-8(%rcx,%r10), %r14
	movq	%r14, -8(%rcx,%r8)
	movupd	%xmm0, -24(%rcx,%r8)
	addq	$2, %r11
	addq	$-48, %rcx
	addq	$-2, %r9
	addq	$-2, %rbx
	addq	$-2, %rdx
	addq	$-2, %rsi
	cmpq	%r11, %rdi
	jne	.LBB10_133
	jmp	.LBB10_144
.LBB10_134:
	testb	%r14b, %r14b
	je	.LBB10_144
	cmpb	$1, %r14b
	jne	.LBB10_140
	xorl	%edi, %edi
	jmp	.LBB10_143
.LBB10_137:
	movupd	(%r13,%rdi), %xmm0
	addpd	%xmm0, %xmm3
	movapd	%xmm3, %xmm0
	subpd	%xmm3, %xmm0
	movapd	%xmm0, %xmm1
	xorl	%ebp, %ebp
	ucomisd	%xmm2, %xmm1
	movb	$14, %dl
	jne	.LBB10_157
	jp	.LBB10_157
	unpckhpd	%xmm0, %xmm0
	ucomisd	%xmm2, %xmm0
	jne	.LBB10_157
	jp	.LBB10_157
	movupd	%xmm3, (%r13,%rdi)
	jmp	.LBB10_82
.LBB10_140:
	movq	%r8, %rbx
	movl	%r15d, %r8d
	andl	$126, %r8d
	leaq	(,%rbx,8), %rdi
	leaq	(%rdi,%rdi,2), %r9
	leaq	24(%rcx), %r10
	leaq	(%rdx,%rbx), %r11
	addq	$2, %r11
	leaq	2(%rsi,%rbx), %r14
	movq	96(%rsp), %rbx
	leaq	(,%rbx,8), %rdi
	leaq	(%rdi,%rdi,2), %r15
	leaq	(%rdx,%rbx), %r12
	addq	$2, %r12
	leaq	(%rsi,%rbx), %r13
	addq	$2, %r13
	xorl	%edi, %edi
	.p2align	4
.LBB10_141:
	movzbl	-1(%r14,%rdi), %ebp
	movb	%bpl, -1(%r13,%rdi)
	movzbl	-1(%r11,%rdi), %ebp
	movb	%bpl, -1(%r12,%rdi)
	movups	(%r10,%r9), %xmm0
	movq	16(%r10,%r9), %rbp
	movq	%rbp, 16(%r10,%r15)
	movups	%xmm0, (%r10,%r15)
	movzbl	(%r14,%rdi), %ebp
	movb	%bpl, (%r13,%rdi)
	movzbl	(%r11,%rdi), %ebp
	movb	%bpl, (%r12,%rdi)
	movupd	24(%r10,%r9), %xmm0
	movq	40(%r10,%r9), %rbp
	movq	%rbp, 40(%r10,%r15)
	movupd	%xmm0, 24(%r10,%r15)
	addq	$2, %rdi
	addq	$48, %r10
	cmpq	%rdi, %r8
	jne	.LBB10_141
	movq	120(%rsp), %r15
	testb	$1, %r15b
	movq	72(%rsp), %r12
	je	.LBB10_144
.LBB10_143:
	incq	%rbx
	movq	88(%rsp), %r8
	addq	%rdi, %r8
	movzbl	(%rsi,%r8), %r9d
	addq	%rdi, %rbx
	movb	%r9b, (%rsi,%rbx)
	movzbl	(%rdx,%r8), %esi
	movb	%sil, (%rdx,%rbx)
	leaq	(%r8,%r8,2), %rdx
	leaq	(%rbx,%rbx,2), %rsi
	movupd	(%rcx,%rdx,8), %xmm0
	movq	16(%rcx,%rdx,8), %rdx
	movq	%rdx, 16(%rcx,%rsi,8)
	movupd	%xmm0, (%rcx,%rsi,8)
.LBB10_144:
	movq	%rax, %r10
.LBB10_145:
	movq	224(%rsp), %rbx
	jmp	.LBB10_82
.LBB10_146:
	xorl	%eax, %eax
	xorl	%edx, %edx
	jmp	.LBB10_157
.LBB10_147:
	movb	$17, %sil
	xorl	%ebx, %ebx
	jmp	.LBB10_69
.LBB10_148:
	xorl	%eax, %eax
	xorl	%edx, %edx
	movq	%r10, %rbp
	jmp	.LBB10_157
.LBB10_149:
	xorl	%eax, %eax
	xorl	%esi, %esi
	movq	%rcx, %rbx
	jmp	.LBB10_69
.LBB10_150:
	movb	$17, %dl
	xorl	%ebp, %ebp
	jmp	.LBB10_157
.LBB10_151:
	movb	$11, %sil
	xorl	%ebx, %ebx
	jmp	.LBB10_69
.LBB10_152:
	movb	$11, %al
	jmp	.LBB10_155
.LBB10_160:
	movb	$14, %dl
	jmp	.LBB10_157
.LBB10_153:
	movb	$11, %dl
	xorl	%ebp, %ebp
	jmp	.LBB10_157
.LBB10_154:
	movb	$12, %al
.LBB10_155:
	movl	%eax, 84(%rsp)
.LBB10_156:
	movb	$1, %al
	xorl	%ebp, %ebp
	movl	84(%rsp), %edx
.LBB10_157:
	movq	64(%rsp), %rcx
	movb	%al, (%rcx)
	movb	%dl, 1(%rcx)
	movq	%rbp, 8(%rcx)
.LBB10_158:
	addq	$296, %rsp
	popq	%rbx
	popq	%r12
	popq	%r13
	popq	%r14
	popq	%r15
	popq	%rbp
	retq
.LBB10_161:
	addq	%r8, %rax
	movq	%rax, %r10
	jmp	.LBB10_38
.Lfunc_end10:
	.size	"primitives::add_times_i", .Lfunc_end10-"primitives::add_times_i"

	.section	.rodata.cst8,"aM",@progbits,8
	.p2align	3, 0x0
.LCPI11_0:
	.quad	0x3ff0000000000000
	.section	".text.reading::walk::modify","ax",@progbits
	.p2align	4
	.type	"reading::walk::modify",@function
"reading::walk::modify":
	pushq	%rbp
	pushq	%r15
	pushq	%r14
	pushq	%r13
	pushq	%r12
	pushq	%rbx
	subq	$536, %rsp
	movq	%r9, %r11
	movq	%rdi, %r14
	movq	600(%rsp), %rax
	movq	(%rax), %r15
	movq	8(%rax), %rdi
	movq	%rdi, 32(%rsp)
	movq	16(%rax), %r10
	movzbl	24(%rax), %ebx
	movl	$0, 219(%rsp)
	movl	$0, 216(%rsp)
	leaq	1(%rdx), %r9
	movl	%r8d, %eax
	movq	%rdx, 64(%rsp)
	leaq	(%rdx,%rax), %r12
	incq	%r12
	xorl	%edx, %edx
	cmpq	%r12, %r9
	jae	.LBB11_3
	movq	%r9, %rax
	.p2align	4
.LBB11_2:
	leaq	(%rax,%rax,2), %rdi
	movl	4(%rsi,%rdi,8), %edi
	addq	%rdi, %rax
	incq	%rax
	incq	%rdx
	cmpq	%r12, %rax
	jb	.LBB11_2
.LBB11_3:
	movq	592(%rsp), %rbp
	movzbl	%cl, %r8d
	leal	-1(%r8), %edi
	cmpl	$5, %edi
	jae	.LBB11_7
	movb	$7, %al
	cmpq	$1, %rdx
	jne	.LBB11_33
	movl	$0, 139(%rsp)
	movl	$0, 136(%rsp)
	leaq	(%r9,%r9,2), %rax
	movl	4(%rsi,%rax,8), %edx
	movq	%r9, %r8
	movzbl	2(%rsi,%rax,8), %r9d
	movq	64(%rsp), %rax
	addq	%rdx, %rax
	addq	$2, %rax
	cmpb	$5, %cl
	movq	%rax, 88(%rsp)
	jne	.LBB11_19
	movq	%rax, %rdi
	movq	%r8, %rdx
	movq	%r8, %rax
	jmp	.LBB11_24
.LBB11_7:
	cmpl	$6, %r8d
	je	.LBB11_22
	movb	$1, %al
	cmpl	$7, %r8d
	jne	.LBB11_33
	movl	$0, 203(%rsp)
	movl	$0, 200(%rsp)
	cmpq	%r12, %r9
	jae	.LBB11_46
	xorl	%ebp, %ebp
	movq	%r9, %rax
	.p2align	4
.LBB11_11:
	leaq	(%rax,%rax,2), %rcx
	movzbl	2(%rsi,%rcx,8), %edx
	cmpq	%rbp, %rdx
	cmovaq	%rdx, %rbp
	movl	4(%rsi,%rcx,8), %ecx
	addq	%rcx, %rax
	incq	%rax
	cmpq	%r12, %rax
	jb	.LBB11_11
	leaq	48(%r11), %rax
	movq	%rax, 152(%rsp)
	movq	48(%r11), %rax
	movq	%rbp, %rcx
	movq	%r15, %r8
	testq	%rbp, %rbp
	je	.LBB11_68
	.p2align	4
.LBB11_13:
	cmpq	$129, %r8
	jb	.LBB11_78
	movzbl	-1(%rax,%r8), %edx
	subq	%rdx, %r8
	decq	%rcx
	jne	.LBB11_13
	movq	%r11, 56(%rsp)
	movq	%r10, 48(%rsp)
	movq	592(%rsp), %r11
	movq	%r11, %r10
	subq	%r15, %r10
	cmpq	%r15, %r8
	jae	.LBB11_134
	movq	%rbx, 96(%rsp)
	movq	%r14, 80(%rsp)
	movq	56(%rsp), %rax
	movq	(%rax), %rbx
	movq	16(%rax), %r9
	movq	32(%rax), %rax
	leaq	(,%r15,8), %rcx
	leaq	(%rcx,%rcx,2), %rcx
	addq	$-24, %rax
	leaq	(%r9,%r15), %rdx
	decq	%rdx
	leaq	(,%r11,8), %rdi
	leaq	(%rdi,%rdi,2), %rdi
	addq	%r11, %r9
	decq	%r9
	addq	%rbx, %r11
	decq	%r11
	addq	%r15, %rbx
	decq	%rbx
	xorl	%r14d, %r14d
	movq	%r15, %r13
	.p2align	4
.LBB11_17:
	movzbl	(%rbx,%r14), %r15d
	movb	%r15b, (%r11,%r14)
	movzbl	(%rdx,%r14), %r15d
	movb	%r15b, (%r9,%r14)
	movupd	(%rax,%rcx), %xmm0
	movq	16(%rax,%rcx), %r15
	movq	%r15, 16(%rax,%rdi)
	movupd	%xmm0, (%rax,%rdi)
	leaq	(%r14,%r13), %r15
	decq	%r15
	decq	%r14
	addq	$-24, %rax
	cmpq	%r15, %r8
	jb	.LBB11_17
	movq	152(%rsp), %rax
	movq	(%rax), %rax
	movq	80(%rsp), %r14
	movq	56(%rsp), %r11
	movq	96(%rsp), %rbx
	movq	%r13, %r15
	jmp	.LBB11_70
.LBB11_19:
	movq	%r8, 72(%rsp)
	movl	$1, %r13d
	leaq	.LJTI11_1(%rip), %rcx
	movslq	(%rcx,%rdi,4), %rdx
	addq	%rcx, %rdx
	movl	$1, %r8d
	jmpq	*%rdx
.LBB11_20:
	xorl	%r8d, %r8d
.LBB11_21:
	movq	%r10, 48(%rsp)
	leaq	48(%r11), %rax
	movq	%rax, 104(%rsp)
	movq	48(%r11), %rcx
	movq	%r12, 120(%rsp)
	movq	64(%rsp), %rax
	leaq	1(%rax), %r9
	jmp	.LBB11_26
.LBB11_22:
	movb	$7, %al
	cmpq	$2, %rdx
	jne	.LBB11_33
	movl	$0, 139(%rsp)
	movl	$0, 136(%rsp)
	movq	%r9, %rdx
	leaq	(%r9,%r9,2), %rax
	movl	4(%rsi,%rax,8), %ecx
	movzbl	2(%rsi,%rax,8), %r9d
	movq	64(%rsp), %rax
	leaq	(%rax,%rcx), %rdi
	addq	$2, %rdi
	movq	%rdi, %rax
	movq	%r12, 88(%rsp)
.LBB11_24:
	leaq	48(%r11), %rcx
	movq	%rcx, 104(%rsp)
	movq	48(%r11), %rcx
	testb	%r9b, %r9b
	movq	%r10, 48(%rsp)
	je	.LBB11_45
	movzbl	%r9b, %r13d
	xorl	%r8d, %r8d
	movq	%rdi, %r12
	movq	%rdx, 120(%rsp)
	movq	%rax, %r9
.LBB11_26:
	movq	%r13, %rdx
	movq	%r15, %r10
	.p2align	4
.LBB11_27:
	cmpq	$129, %r10
	jb	.LBB11_289
	movzbl	-1(%rcx,%r10), %edi
	subq	%rdi, %r10
	decq	%rdx
	jne	.LBB11_27
	movq	%r13, 152(%rsp)
	movq	%rbp, %r13
	subq	%r15, %r13
	cmpq	%r15, %r10
	jae	.LBB11_47
	movq	%r9, 72(%rsp)
	movq	%rbx, 96(%rsp)
	movq	%r14, 80(%rsp)
	movq	(%r11), %r14
	movq	%r11, %rcx
	movq	16(%r11), %r11
	movq	%rcx, 56(%rsp)
	movq	32(%rcx), %rcx
	leaq	(,%r15,8), %rdx
	leaq	(%rdx,%rdx,2), %rdx
	addq	$-24, %rcx
	leaq	(%r11,%r15), %rdi
	decq	%rdi
	leaq	(,%rbp,8), %r9
	leaq	(%r9,%r9,2), %r9
	leaq	-1(%r11,%rbp), %r11
	leaq	(%r14,%rbp), %rbx
	decq	%rbx
	addq	%r15, %r14
	decq	%r14
	movq	%r15, %rax
	xorl	%r15d, %r15d
	.p2align	4
.LBB11_31:
	movzbl	(%r14,%r15), %ebp
	movb	%bpl, (%rbx,%r15)
	movzbl	(%rdi,%r15), %ebp
	movb	%bpl, (%r11,%r15)
	movupd	(%rcx,%rdx), %xmm0
	movq	16(%rcx,%rdx), %rbp
	movq	%rbp, 16(%rcx,%r9)
	movupd	%xmm0, (%rcx,%r9)
	leaq	(%rax,%r15), %rbp
	decq	%rbp
	decq	%r15
	addq	$-24, %rcx
	cmpq	%rbp, %r10
	jb	.LBB11_31
	movq	104(%rsp), %rcx
	movq	(%rcx), %rcx
	movq	%r12, %rdi
	movq	80(%rsp), %r14
	movq	592(%rsp), %rbp
	movq	56(%rsp), %r11
	movq	96(%rsp), %rbx
	movq	%rax, %r15
	jmp	.LBB11_48
.LBB11_33:
	cmpq	$129, %r15
	jb	.LBB11_43
	movq	(%r11), %rcx
	movq	32(%r11), %rsi
	movq	48(%r11), %r8
	xorps	%xmm0, %xmm0
	movsd	.LCPI11_0(%rip), %xmm1
	movq	%r15, %rdx
	jmp	.LBB11_36
	.p2align	4
.LBB11_35:
	movq	%rdx, %r15
	cmpq	$128, %rdx
	jbe	.LBB11_43
.LBB11_36:
	movzbl	-1(%r8,%r15), %edi
	subq	%rdi, %rdx
	cmpq	%r15, %rdx
	jae	.LBB11_35
	movq	%rdi, %r9
	negq	%r9
	leaq	(%rcx,%r15), %r10
	shlq	$3, %r15
	leaq	(%r15,%r15,2), %r11
	shll	$3, %edi
	leaq	(%rdi,%rdi,2), %rdi
	subq	%rdi, %r11
	addq	%rsi, %r11
	jmp	.LBB11_39
	.p2align	4
.LBB11_38:
	addq	$24, %r11
	incq	%r9
	je	.LBB11_35
.LBB11_39:
	cmpb	$1, (%r10,%r9)
	jne	.LBB11_38
	movsd	(%r11), %xmm2
	ucomisd	%xmm0, %xmm2
	jne	.LBB11_41
	jnp	.LBB11_38
.LBB11_41:
	ucomisd	%xmm1, %xmm2
	jne	.LBB11_42
	jnp	.LBB11_38
.LBB11_42:
	movb	$1, %cl
	jmp	.LBB11_44
.LBB11_43:
	xorl	%ecx, %ecx
.LBB11_44:
	cmpq	$2, 32(%rsp)
	setae	%dl
	orb	%cl, %dl
	movq	%rdx, 32(%rsp)
	movb	$1, %sil
	xorl	%ecx, %ecx
	xorl	%r9d, %r9d
	xorl	%ebx, %ebx
	jmp	.LBB11_463
.LBB11_45:
	movq	%rax, 72(%rsp)
	movq	%rbp, %r12
	subq	%r15, %r12
	xorl	%r8d, %r8d
	movq	%rdx, 120(%rsp)
	xorl	%r13d, %r13d
	movq	%r15, %r10
	jmp	.LBB11_49
.LBB11_46:
	movq	%r10, 48(%rsp)
	leaq	48(%r11), %rax
	movq	%rax, 152(%rsp)
	movq	48(%r11), %rax
	jmp	.LBB11_69
.LBB11_47:
	movq	%r12, %rdi
	movq	%r9, 72(%rsp)
.LBB11_48:
	movq	%r13, %r12
	movq	152(%rsp), %r13
.LBB11_49:
	movq	%rdi, 112(%rsp)
	movq	%r11, 56(%rsp)
	leaq	(%r10,%r12), %rdx
	movq	%r15, %rax
	subq	%r10, %rax
	cmpq	%r10, %rdx
	movq	%rax, 40(%rsp)
	movq	%r12, 192(%rsp)
	jbe	.LBB11_54
	testq	%rax, %rax
	je	.LBB11_104
	movq	40(%rsp), %r9
	cmpq	$8, %r9
	setb	%dl
	movq	%r15, %rdi
	subq	%rbp, %rdi
	cmpq	$32, %rdi
	setb	%dil
	orb	%dl, %dil
	jne	.LBB11_86
	movq	40(%rsp), %rdx
	cmpq	$32, %rdx
	jae	.LBB11_79
	xorl	%edx, %edx
	jmp	.LBB11_83
.LBB11_54:
	cmpq	%r10, %r15
	je	.LBB11_104
	movq	40(%rsp), %r9
	cmpq	$4, %r9
	setb	%dl
	cmpq	$32, %r12
	setb	%dil
	orb	%dl, %dil
	je	.LBB11_66
	xorl	%r9d, %r9d
	jmp	.LBB11_102
.LBB11_57:
	cmpq	$129, %r15
	jb	.LBB11_289
	movq	48(%r11), %rax
	movzbl	-1(%rax,%r15), %eax
	subq	%rax, %r15
	movq	$0, 40(%rsp)
	movq	%r12, 120(%rsp)
	movq	%r15, %rdi
.LBB11_59:
	movq	72(%rsp), %rdx
	movq	88(%rsp), %r8
	jmp	.LBB11_322
.LBB11_60:
	movq	%r10, 48(%rsp)
	movq	%r11, 56(%rsp)
	movq	48(%r11), %r11
	movq	%r15, %rcx
	movq	%r15, %rdi
	testb	%r9b, %r9b
	je	.LBB11_275
	movzbl	%r9b, %eax
	movq	%rax, %rdx
	movq	%r15, %rcx
	.p2align	4
.LBB11_62:
	cmpq	$129, %rcx
	jb	.LBB11_289
	movzbl	-1(%r11,%rcx), %edi
	subq	%rdi, %rcx
	decq	%rdx
	jne	.LBB11_62
	cmpb	$1, %r9b
	jne	.LBB11_272
	movq	%r15, %rdi
	jmp	.LBB11_275
.LBB11_66:
	cmpq	$32, %r9
	jae	.LBB11_95
	xorl	%r9d, %r9d
	jmp	.LBB11_99
.LBB11_68:
	movq	%r10, 48(%rsp)
	movq	592(%rsp), %rbp
.LBB11_69:
	movq	%rbp, %r10
	subq	%r15, %r10
	xorl	%ebp, %ebp
	movq	%r15, %r8
.LBB11_70:
	leaq	(%r8,%r10), %rdx
	movq	%r15, %rcx
	subq	%r8, %rcx
	cmpq	%r8, %rdx
	jbe	.LBB11_75
	testq	%rcx, %rcx
	je	.LBB11_158
	cmpq	$8, %rcx
	setb	%dl
	movq	%r15, %rdi
	subq	592(%rsp), %rdi
	cmpq	$32, %rdi
	setb	%dil
	orb	%dl, %dil
	movq	%rcx, %r9
	jne	.LBB11_142
	cmpq	$32, %rcx
	jae	.LBB11_135
	xorl	%edx, %edx
	jmp	.LBB11_139
.LBB11_75:
	cmpq	%r8, %r15
	je	.LBB11_158
	cmpq	$4, %rcx
	setb	%dl
	cmpq	$32, %r10
	setb	%dil
	orb	%dl, %dil
	je	.LBB11_93
	xorl	%r9d, %r9d
	jmp	.LBB11_156
.LBB11_78:
	cmpq	$2, 32(%rsp)
	setae	%al
	movq	%rax, 32(%rsp)
	movb	$1, %sil
	xorl	%ecx, %ecx
	xorl	%r9d, %r9d
	xorl	%ebx, %ebx
	xorl	%eax, %eax
	jmp	.LBB11_271
.LBB11_79:
	movq	%r15, %rdi
	movq	%rbx, %r15
	andq	$-32, %rdx
	movq	%rdi, %rax
	addq	%rcx, %rdi
	addq	$-16, %rdi
	leaq	(%rcx,%rbp), %r9
	addq	$-16, %r9
	movq	%rdx, %r11
	negq	%r11
	xorl	%ebx, %ebx
	.p2align	4
.LBB11_80:
	movupd	-16(%rdi,%rbx), %xmm0
	movupd	(%rdi,%rbx), %xmm1
	movupd	%xmm1, (%r9,%rbx)
	movupd	%xmm0, -16(%r9,%rbx)
	addq	$-32, %rbx
	cmpq	%rbx, %r11
	jne	.LBB11_80
	cmpq	%rdx, 40(%rsp)
	movq	%r15, %rbx
	movq	%rax, %r15
	je	.LBB11_104
	testb	$24, 40(%rsp)
	je	.LBB11_467
.LBB11_83:
	movq	%r13, 152(%rsp)
	movq	%rbx, %r13
	movq	%r14, %r12
	movq	40(%rsp), %r9
	movq	%r9, %rdi
	andq	$-8, %rdi
	andl	$7, %r9d
	movq	%r15, %rax
	leaq	(%r15,%rcx), %r11
	addq	$-8, %r11
	negq	%rdx
	leaq	(%rcx,%rbp), %rbx
	addq	$-8, %rbx
	movq	%rdi, %r14
	negq	%r14
	.p2align	4
.LBB11_84:
	movq	(%r11,%rdx), %r15
	movq	%r15, (%rbx,%rdx)
	addq	$-8, %rdx
	cmpq	%rdx, %r14
	jne	.LBB11_84
	cmpq	%rdi, 40(%rsp)
	movq	%r12, %r14
	movq	%r13, %rbx
	movq	%rax, %r15
	movq	152(%rsp), %r13
	je	.LBB11_104
.LBB11_86:
	movq	%r13, %rax
	movq	%rbx, %r13
	leaq	-1(%r9), %rdx
	movq	%r9, %rbx
	andq	$3, %rbx
	je	.LBB11_90
	movq	%r14, 80(%rsp)
	leaq	(%r10,%r9), %r11
	negq	%r9
	movq	%r15, %rdi
	notq	%rdi
	addq	%rcx, %rdi
	addq	%r11, %rdi
	addq	%rbp, %rdi
	addq	%rcx, %r11
	decq	%r11
	negq	%rbx
	xorl	%r14d, %r14d
	.p2align	4
.LBB11_88:
	movzbl	(%r11,%r14), %ebp
	movb	%bpl, (%rdi,%r14)
	incq	%r9
	decq	%r14
	cmpq	%r14, %rbx
	jne	.LBB11_88
	negq	%r9
	movq	80(%rsp), %r14
	movq	592(%rsp), %rbp
.LBB11_90:
	cmpq	$3, %rdx
	movq	%r13, %rbx
	movq	%rax, %r13
	jb	.LBB11_104
	leaq	(%r10,%r9), %rdi
	negq	%r9
	movq	%r15, %rdx
	notq	%rdx
	addq	%rcx, %rdx
	addq	%rdi, %rdx
	addq	%rbp, %rdx
	addq	%rdi, %rcx
	decq	%rcx
	xorl	%edi, %edi
	.p2align	4
.LBB11_92:
	movzbl	(%rcx,%rdi), %r11d
	movb	%r11b, (%rdx,%rdi)
	movzbl	-1(%rcx,%rdi), %r11d
	movb	%r11b, -1(%rdx,%rdi)
	movzbl	-2(%rcx,%rdi), %r11d
	movb	%r11b, -2(%rdx,%rdi)
	movzbl	-3(%rcx,%rdi), %r11d
	movb	%r11b, -3(%rdx,%rdi)
	addq	$-4, %rdi
	cmpq	%rdi, %r9
	jne	.LBB11_92
	jmp	.LBB11_104
.LBB11_93:
	cmpq	$32, %rcx
	jae	.LBB11_149
	xorl	%r9d, %r9d
	jmp	.LBB11_153
.LBB11_95:
	andq	$-32, %r9
	leaq	(%r10,%rbp), %rdx
	subq	%r15, %rdx
	addq	%rcx, %rdx
	addq	$16, %rdx
	leaq	(%r10,%rcx), %rdi
	addq	$16, %rdi
	xorl	%r11d, %r11d
	.p2align	4
.LBB11_96:
	movupd	-16(%rdi,%r11), %xmm0
	movupd	(%rdi,%r11), %xmm1
	movupd	%xmm0, -16(%rdx,%r11)
	movupd	%xmm1, (%rdx,%r11)
	addq	$32, %r11
	cmpq	%r11, %r9
	jne	.LBB11_96
	cmpq	%r9, 40(%rsp)
	je	.LBB11_104
	testb	$28, 40(%rsp)
	je	.LBB11_102
.LBB11_99:
	movq	%rbx, %r12
	movq	%r9, %rdx
	movq	40(%rsp), %r9
	andq	$-4, %r9
	movq	%r9, %rdi
	subq	%rdx, %rdi
	addq	%r10, %rdx
	movq	%r15, %rbx
	movq	%rbp, %r15
	leaq	(%rdx,%rbp), %r11
	movq	%rbx, %rax
	subq	%rbx, %r11
	addq	%rcx, %r11
	addq	%rcx, %rdx
	xorl	%ebx, %ebx
	.p2align	4
.LBB11_100:
	movl	(%rdx,%rbx), %ebp
	movl	%ebp, (%r11,%rbx)
	addq	$4, %rbx
	cmpq	%rbx, %rdi
	jne	.LBB11_100
	cmpq	%r9, 40(%rsp)
	movq	%r15, %rbp
	movq	%r12, %rbx
	movq	%rax, %r15
	movq	192(%rsp), %r12
	je	.LBB11_104
.LBB11_102:
	addq	%r10, %r9
	leaq	(%rcx,%r12), %rdx
	.p2align	4
.LBB11_103:
	movzbl	(%rcx,%r9), %edi
	movb	%dil, (%rdx,%r9)
	incq	%r9
	cmpq	%r9, %r15
	jne	.LBB11_103
.LBB11_104:
	movq	%r15, 144(%rsp)
	movq	%rbp, %r12
	subq	40(%rsp), %r12
	movq	%rbp, %r15
	cmpl	%r13d, %r8d
	movq	56(%rsp), %r11
	jae	.LBB11_108
	movq	104(%rsp), %rax
	movq	(%rax), %rcx
	subq	%r13, %r8
	movq	%rbp, %r15
	.p2align	4
.LBB11_106:
	cmpq	%r12, %r15
	jbe	.LBB11_109
	movzbl	-1(%rcx,%r15), %eax
	subq	%rax, %r15
	incq	%r8
	jne	.LBB11_106
.LBB11_108:
	movq	%r15, %r13
	subq	%r12, %r13
	leaq	(%r10,%r13), %rdi
	cmpq	%rdi, %r12
	jae	.LBB11_110
.LBB11_109:
	movb	$11, %al
	movq	$0, 32(%rsp)
	jmp	.LBB11_290
.LBB11_110:
	movq	(%r11), %r9
	movq	16(%r11), %rdx
	movq	32(%r11), %rcx
	cmpq	%r12, %r10
	jbe	.LBB11_120
	testq	%r13, %r13
	je	.LBB11_123
	movq	%rdi, 64(%rsp)
	movq	%rbx, 96(%rsp)
	movq	%r14, 80(%rsp)
	movq	144(%rsp), %rax
	addq	%r15, %rax
	movq	%r10, %rdi
	notq	%rdi
	movq	%rax, 152(%rsp)
	addq	%rax, %rdi
	movq	%r13, %rax
	testb	$1, %r13b
	je	.LBB11_114
	leaq	-1(%r13), %rax
	movzbl	-1(%r9,%r15), %r8d
	movq	%r9, %rbx
	leaq	(%r10,%r13), %r9
	decq	%r9
	movb	%r8b, (%rbx,%r9)
	movzbl	-1(%rdx,%r15), %r8d
	movb	%r8b, (%rdx,%r9)
	leaq	-3(%r15,%r15,2), %r8
	leaq	(%r9,%r9,2), %r9
	movupd	(%rcx,%r8,8), %xmm0
	movq	16(%rcx,%r8,8), %r8
	movq	%r8, 16(%rcx,%r9,8)
	movupd	%xmm0, (%rcx,%r9,8)
	movq	%rbx, %r9
.LBB11_114:
	cmpq	%rbp, %rdi
	je	.LBB11_117
	leaq	(%r10,%r10,2), %rdi
	leaq	(%rax,%rax,2), %r8
	shlq	$3, %r8
	leaq	(%r8,%rdi,8), %rbp
	addq	$-48, %rbp
	leaq	-1(%rdx,%r10), %r12
	movq	%r9, %r14
	leaq	-1(%r9,%r10), %r9
	movq	592(%rsp), %rdi
	addq	%r10, %rdi
	leaq	(%rdi,%rax), %r8
	shlq	$3, %r8
	leaq	(%r8,%r8,2), %r8
	movq	144(%rsp), %rbx
	leaq	(,%rbx,8), %r11
	leaq	(%r11,%r11,2), %r11
	subq	%r11, %r8
	movq	56(%rsp), %r11
	addq	$-24, %r8
	notq	%rbx
	addq	%rdi, %rbx
	addq	%rbx, %rdx
	addq	%r14, %rbx
	xorl	%r14d, %r14d
	.p2align	4
.LBB11_116:
	movzbl	(%rbx,%rax), %edi
	movb	%dil, (%r9,%rax)
	movzbl	(%rdx,%rax), %edi
	movb	%dil, (%r12,%rax)
	movups	(%rcx,%r8), %xmm0
	movq	16(%rcx,%r8), %rdi
	movq	%rdi, 40(%rcx,%rbp)
	movups	%xmm0, 24(%rcx,%rbp)
	movzbl	-1(%rbx,%rax), %edi
	movb	%dil, -1(%r9,%rax)
	movzbl	-1(%rdx,%rax), %edi
	movb	%dil, -1(%r12,%rax)
	movupd	-24(%rcx,%r8), %xmm0
	movq	-8(%rcx,%r8), %rdi
	movq	%rdi, 16(%rcx,%rbp)
	movupd	%xmm0, (%rcx,%rbp)
	addq	$2, %r14
	addq	$-48, %rcx
	addq	$-2, %r12
	addq	$-2, %r9
	addq	$-2, %rdx
	addq	$-2, %rbx
	cmpq	%r14, %rax
	jne	.LBB11_116
.LBB11_117:
	movq	104(%rsp), %rax
	movq	(%rax), %rcx
	cmpq	$8, %r13
	setb	%al
	cmpq	$32, 192(%rsp)
	setb	%dl
	orb	%al, %dl
	je	.LBB11_124
	movq	%r13, %rdx
	movq	80(%rsp), %r14
	movq	592(%rsp), %rbp
	movq	96(%rsp), %rbx
.LBB11_119:
	movq	144(%rsp), %r15
	jmp	.LBB11_304
.LBB11_120:
	testq	%r13, %r13
	movq	88(%rsp), %r8
	je	.LBB11_321
	movq	%r9, 152(%rsp)
	movq	%rdi, 64(%rsp)
	movq	144(%rsp), %rdi
	addq	%rdi, %r15
	movq	%r10, %rax
	notq	%rax
	addq	%r15, %rax
	cmpq	%rbp, %rax
	jne	.LBB11_126
	xorl	%eax, %eax
	jmp	.LBB11_129
.LBB11_123:
	movq	112(%rsp), %r12
	movq	72(%rsp), %rdx
	movq	48(%rsp), %r10
	movq	88(%rsp), %r8
	jmp	.LBB11_322
.LBB11_124:
	cmpq	$32, %r13
	movq	80(%rsp), %r14
	movq	592(%rsp), %rbp
	movq	96(%rsp), %rbx
	jae	.LBB11_296
	xorl	%eax, %eax
	jmp	.LBB11_300
.LBB11_126:
	movq	%rbx, 96(%rsp)
	movq	%r14, 80(%rsp)
	movq	%r13, 352(%rsp)
	movq	%r13, %r8
	andq	$-2, %r8
	leaq	(,%rbp,8), %rax
	leaq	(%rax,%rax,2), %r9
	leaq	(,%rdi,8), %rax
	leaq	(%rax,%rax,2), %rax
	subq	%rax, %r9
	addq	%rcx, %r9
	leaq	(,%r10,8), %rax
	leaq	(%rax,%rax,2), %rbx
	leaq	(%r10,%rbp), %rax
	subq	%rdi, %rax
	leaq	(%rdx,%rax), %r14
	incq	%r14
	movq	152(%rsp), %rdi
	leaq	(%rdi,%rax), %rbp
	incq	%rbp
	leaq	(%rdx,%r10), %r11
	incq	%r11
	addq	%r10, %rdi
	incq	%rdi
	xorl	%eax, %eax
	.p2align	4
.LBB11_127:
	movzbl	-1(%rbp,%rax), %r13d
	movb	%r13b, -1(%rdi,%rax)
	movzbl	-1(%r14,%rax), %r13d
	movb	%r13b, -1(%r11,%rax)
	movups	(%r9,%rbx), %xmm0
	movq	16(%r9,%rbx), %r13
	movq	%r13, 16(%rcx,%rbx)
	movups	%xmm0, (%rcx,%rbx)
	movzbl	(%rbp,%rax), %r13d
	movb	%r13b, (%rdi,%rax)
	movzbl	(%r14,%rax), %r13d
	movb	%r13b, (%r11,%rax)
	movupd	24(%r9,%rbx), %xmm0
	movq	40(%r9,%rbx), %r13
	movq	%r13, 40(%rcx,%rbx)
	movupd	%xmm0, 24(%rcx,%rbx)
	addq	$2, %rax
	addq	$48, %rbx
	cmpq	%rax, %r8
	jne	.LBB11_127
	movq	352(%rsp), %r13
	testb	$1, %r13b
	movq	80(%rsp), %r14
	movq	592(%rsp), %rbp
	movq	56(%rsp), %r11
	movq	96(%rsp), %rbx
	movq	88(%rsp), %r8
	je	.LBB11_130
.LBB11_129:
	addq	%rax, %r12
	movq	152(%rsp), %r9
	movzbl	(%r9,%r12), %edi
	addq	%r10, %rax
	movb	%dil, (%r9,%rax)
	movzbl	(%rdx,%r12), %edi
	movb	%dil, (%rdx,%rax)
	leaq	(%r12,%r12,2), %rdx
	leaq	(%rax,%rax,2), %rax
	movupd	(%rcx,%rdx,8), %xmm0
	movq	16(%rcx,%rdx,8), %rdx
	movq	%rdx, 16(%rcx,%rax,8)
	movupd	%xmm0, (%rcx,%rax,8)
.LBB11_130:
	movq	104(%rsp), %rax
	movq	(%rax), %rcx
	cmpq	$4, %r13
	setb	%al
	movq	144(%rsp), %rdx
	subq	%rbp, %rdx
	cmpq	$32, %rdx
	setb	%dl
	orb	%al, %dl
	je	.LBB11_132
	xorl	%eax, %eax
	movq	64(%rsp), %rdi
	movq	192(%rsp), %r9
	jmp	.LBB11_319
.LBB11_132:
	cmpq	$32, %r13
	movq	192(%rsp), %r9
	jae	.LBB11_311
	xorl	%eax, %eax
	jmp	.LBB11_316
.LBB11_134:
	movq	56(%rsp), %r11
	jmp	.LBB11_70
.LBB11_135:
	movq	%r15, %rdi
	movq	%rbx, %r15
	movq	%r11, %rbx
	movq	%rcx, %rdx
	andq	$-32, %rdx
	movq	%rdi, %r13
	addq	%rax, %rdi
	addq	$-16, %rdi
	movq	592(%rsp), %r9
	addq	%rax, %r9
	addq	$-16, %r9
	movq	%rdx, %r10
	negq	%r10
	xorl	%r11d, %r11d
	.p2align	4
.LBB11_136:
	movupd	-16(%rdi,%r11), %xmm0
	movupd	(%rdi,%r11), %xmm1
	movupd	%xmm1, (%r9,%r11)
	movupd	%xmm0, -16(%r9,%r11)
	addq	$-32, %r11
	cmpq	%r11, %r10
	jne	.LBB11_136
	cmpq	%rdx, %rcx
	movq	%rbx, %r11
	movq	%r15, %rbx
	movq	%r13, %r15
	je	.LBB11_158
	testb	$24, %cl
	je	.LBB11_470
.LBB11_139:
	movq	%rbx, 96(%rsp)
	movq	%r11, 56(%rsp)
	movq	%r14, %r13
	movq	%rcx, %rdi
	andq	$-8, %rdi
	movl	%ecx, %r9d
	andl	$7, %r9d
	leaq	(%r15,%rax), %r10
	addq	$-8, %r10
	negq	%rdx
	movq	592(%rsp), %r11
	addq	%rax, %r11
	addq	$-8, %r11
	movq	%rdi, %rbx
	negq	%rbx
	.p2align	4
.LBB11_140:
	movq	(%r10,%rdx), %r14
	movq	%r14, (%r11,%rdx)
	addq	$-8, %rdx
	cmpq	%rdx, %rbx
	jne	.LBB11_140
	cmpq	%rdi, %rcx
	movq	%r13, %r14
	movq	56(%rsp), %r11
	movq	96(%rsp), %rbx
	je	.LBB11_158
.LBB11_142:
	leaq	-1(%r9), %rdx
	movq	%r9, %r10
	andq	$3, %r10
	je	.LBB11_146
.LBB11_143:
	movq	%rbx, 96(%rsp)
	movq	%r11, 56(%rsp)
	movq	%r14, %r13
	leaq	(%r8,%r9), %r11
	negq	%r9
	movq	592(%rsp), %rdi
	movq	%r15, 144(%rsp)
	notq	%r15
	addq	%rax, %r15
	addq	%r11, %r15
	addq	%rdi, %r15
	addq	%rax, %r11
	decq	%r11
	negq	%r10
	xorl	%ebx, %ebx
	.p2align	4
.LBB11_144:
	movzbl	(%r11,%rbx), %r14d
	movb	%r14b, (%r15,%rbx)
	incq	%r9
	decq	%rbx
	cmpq	%rbx, %r10
	jne	.LBB11_144
	negq	%r9
	movq	%r13, %r14
	movq	56(%rsp), %r11
	movq	96(%rsp), %rbx
	movq	144(%rsp), %r15
.LBB11_146:
	cmpq	$3, %rdx
	jb	.LBB11_158
	leaq	(%r8,%r9), %rdi
	negq	%r9
	movq	592(%rsp), %rdx
	leaq	(%rdi,%rdx), %r10
	movq	%r15, %rdx
	notq	%rdx
	addq	%rax, %rdx
	addq	%r10, %rdx
	addq	%rdi, %rax
	decq	%rax
	xorl	%edi, %edi
	.p2align	4
.LBB11_148:
	movzbl	(%rax,%rdi), %r10d
	movb	%r10b, (%rdx,%rdi)
	movzbl	-1(%rax,%rdi), %r10d
	movb	%r10b, -1(%rdx,%rdi)
	movzbl	-2(%rax,%rdi), %r10d
	movb	%r10b, -2(%rdx,%rdi)
	movzbl	-3(%rax,%rdi), %r10d
	movb	%r10b, -3(%rdx,%rdi)
	addq	$-4, %rdi
	cmpq	%rdi, %r9
	jne	.LBB11_148
	jmp	.LBB11_158
.LBB11_149:
	movq	%r15, %rdi
	movq	%rbx, %r15
	movq	%r11, %rbx
	movq	%rcx, %r9
	andq	$-32, %r9
	movq	592(%rsp), %rdx
	addq	%r8, %rdx
	movq	%rdi, %r13
	subq	%rdi, %rdx
	addq	%rax, %rdx
	addq	$16, %rdx
	leaq	(%r8,%rax), %rdi
	addq	$16, %rdi
	xorl	%r11d, %r11d
	.p2align	4
.LBB11_150:
	movupd	-16(%rdi,%r11), %xmm0
	movupd	(%rdi,%r11), %xmm1
	movupd	%xmm0, -16(%rdx,%r11)
	movupd	%xmm1, (%rdx,%r11)
	addq	$32, %r11
	cmpq	%r11, %r9
	jne	.LBB11_150
	cmpq	%r9, %rcx
	movq	%rbx, %r11
	movq	%r15, %rbx
	movq	%r13, %r15
	je	.LBB11_158
	testb	$28, %cl
	je	.LBB11_156
.LBB11_153:
	movq	%rbx, 96(%rsp)
	movq	%r11, 56(%rsp)
	movq	%r14, %r13
	movq	%r9, %rdx
	movq	%rcx, %r9
	andq	$-4, %r9
	movq	%r9, %rdi
	subq	%rdx, %rdi
	addq	%r8, %rdx
	movq	592(%rsp), %r11
	addq	%rdx, %r11
	subq	%r15, %r11
	addq	%rax, %r11
	addq	%rax, %rdx
	xorl	%ebx, %ebx
	.p2align	4
.LBB11_154:
	movl	(%rdx,%rbx), %r14d
	movl	%r14d, (%r11,%rbx)
	addq	$4, %rbx
	cmpq	%rbx, %rdi
	jne	.LBB11_154
	cmpq	%r9, %rcx
	movq	%r13, %r14
	movq	56(%rsp), %r11
	movq	96(%rsp), %rbx
	je	.LBB11_158
.LBB11_156:
	addq	%r8, %r9
	addq	%rax, %r10
	.p2align	4
.LBB11_157:
	movzbl	(%rax,%r9), %edx
	movb	%dl, (%r10,%r9)
	incq	%r9
	cmpq	%r9, %r15
	jne	.LBB11_157
.LBB11_158:
	movq	64(%rsp), %rax
	leaq	1(%rax), %rdx
	cmpq	%r12, %rdx
	jae	.LBB11_268
	movq	592(%rsp), %rax
	subq	%rcx, %rax
	movq	%rax, 192(%rsp)
	movq	$-1, %r10
	movq	%rdx, 72(%rsp)
	movq	%rdx, %rax
	movq	48(%rsp), %r9
	.p2align	4
.LBB11_160:
	leaq	(%rax,%rax,2), %rcx
	movl	4(%rsi,%rcx,8), %ecx
	addq	%rcx, %rax
	incq	%rax
	incq	%r10
	cmpq	%r12, %rax
	jb	.LBB11_160
	movl	$0, 131(%rsp)
	movl	$0, 128(%rsp)
	movq	%r10, %rax
	incq	%rax
	je	.LBB11_269
	movq	%rax, 352(%rsp)
	movq	592(%rsp), %rdx
	leaq	(%r8,%rdx), %r12
	movq	%r15, %rax
	subq	%r12, %rax
	movq	%rax, 504(%rsp)
	movq	%r8, %rax
	subq	%r15, %rax
	addq	%rdx, %rax
	movq	%rax, 424(%rsp)
	movq	%rbp, %rax
	negq	%rax
	movq	%rax, 512(%rsp)
	leaq	(%r8,%r8,2), %rax
	leaq	(%rdx,%rdx,2), %rcx
	shlq	$3, %rcx
	leaq	(%rcx,%rax,8), %rdi
	leaq	(,%r15,8), %rax
	leaq	(%rax,%rax,2), %rcx
	movq	352(%rsp), %rax
	subq	%rcx, %rdi
	movq	%rdi, 488(%rsp)
	movq	%r12, %rdi
	subq	%r15, %rdi
	leaq	1(%rdi), %r13
	movq	%r13, 472(%rsp)
	addq	$16, %rdi
	movq	%rdi, 464(%rsp)
	movq	%r15, %rdi
	subq	%r8, %rdi
	subq	%rdx, %rdi
	negq	%rcx
	movq	%rcx, 480(%rsp)
	movq	%r15, %rcx
	notq	%rcx
	movq	%r12, 416(%rsp)
	addq	%r12, %rcx
	movq	%rcx, 392(%rsp)
	leaq	-16(%rdi), %rcx
	movq	%rcx, 448(%rsp)
	movq	%r10, %rcx
	negq	%rcx
	movq	%rcx, 520(%rsp)
	movq	%r8, 112(%rsp)
	movq	%rdi, 496(%rsp)
	leaq	-8(%rdi), %rcx
	movl	%ebx, %edi
	movq	%rcx, 456(%rsp)
	movq	$0, 408(%rsp)
	movq	%r10, 400(%rsp)
	movq	%rsi, 208(%rsp)
	movq	%r11, 56(%rsp)
	movq	%r14, 80(%rsp)
	movq	%r15, 144(%rsp)
	movq	%r10, 232(%rsp)
.LBB11_163:
	movq	72(%rsp), %r13
	decq	%rax
	movq	%rax, 352(%rsp)
	movq	192(%rsp), %rbx
	je	.LBB11_170
	movq	520(%rsp), %rax
	movq	408(%rsp), %rcx
	addq	%rcx, %rax
	movq	72(%rsp), %r13
	cmpq	$-4, %rax
	ja	.LBB11_168
	movl	%edi, %r8d
	movq	400(%rsp), %rcx
	andq	$-4, %rcx
	movq	%r10, %rax
	subq	408(%rsp), %rax
	movq	72(%rsp), %r13
	.p2align	4
.LBB11_166:
	leaq	(,%r13,2), %rdx
	addq	%r13, %rdx
	movl	4(%rsi,%rdx,8), %edx
	addq	%r13, %rdx
	leaq	(%rdx,%rdx,2), %rdi
	movl	28(%rsi,%rdi,8), %edi
	addq	%rdx, %rdi
	leaq	(%rdi,%rdi,2), %rdx
	addq	$3, %rdx
	movl	28(%rsi,%rdx,8), %edx
	leaq	1(%rdx,%rdi), %rdx
	leaq	(%rdx,%rdx,2), %rdi
	addq	$3, %rdi
	movl	28(%rsi,%rdi,8), %edi
	leaq	(%rdi,%rdx), %r13
	addq	$3, %r13
	addq	$-4, %rcx
	jne	.LBB11_166
	testb	$3, %al
	movl	%r8d, %edi
	je	.LBB11_170
.LBB11_168:
	movq	400(%rsp), %rax
	andl	$3, %eax
	.p2align	4
.LBB11_169:
	leaq	(,%r13,2), %rcx
	addq	%r13, %rcx
	movl	4(%rsi,%rcx,8), %ecx
	addq	%rcx, %r13
	incq	%r13
	decq	%rax
	jne	.LBB11_169
.LBB11_170:
	movq	%r9, 48(%rsp)
	leaq	(,%r13,2), %rax
	addq	%r13, %rax
	movl	4(%rsi,%rax,8), %r12d
	movzbl	2(%rsi,%rax,8), %eax
	movq	592(%rsp), %r10
	cmpq	%rax, %rbp
	movq	112(%rsp), %r9
	jbe	.LBB11_174
	movq	152(%rsp), %rcx
	movq	(%rcx), %rcx
	addq	512(%rsp), %rax
	.p2align	4
.LBB11_172:
	cmpq	%rbx, %r10
	jbe	.LBB11_270
	movzbl	-1(%rcx,%r10), %edx
	subq	%rdx, %r10
	incq	%rax
	jne	.LBB11_172
.LBB11_174:
	movq	%r10, %rdx
	subq	%rbx, %rdx
	leaq	(%rdx,%r9), %r8
	cmpq	%r8, %rbx
	jb	.LBB11_270
	movq	%r12, 528(%rsp)
	movb	%dil, 31(%rsp)
	movq	(%r11), %rax
	movq	16(%r11), %rcx
	movq	32(%r11), %rdi
	cmpq	%rbx, %r9
	jbe	.LBB11_184
	testq	%rdx, %rdx
	je	.LBB11_222
	movq	%rdx, %r11
	movq	%rdx, 184(%rsp)
	testb	$1, %dl
	je	.LBB11_179
	movq	184(%rsp), %rbx
	leaq	-1(%rbx), %r11
	movzbl	-1(%rax,%r10), %edx
	movq	112(%rsp), %r9
	addq	%rbx, %r9
	decq	%r9
	movb	%dl, (%rax,%r9)
	movzbl	-1(%rcx,%r10), %edx
	movb	%dl, (%rcx,%r9)
	leaq	-3(%r10,%r10,2), %rdx
	leaq	(%r9,%r9,2), %r9
	movupd	(%rdi,%rdx,8), %xmm0
	movq	16(%rdi,%rdx,8), %rdx
	movq	%rdx, 16(%rdi,%r9,8)
	movupd	%xmm0, (%rdi,%r9,8)
.LBB11_179:
	leaq	-1(%r10), %rdx
	cmpq	%rdx, 424(%rsp)
	je	.LBB11_182
	movq	112(%rsp), %rbx
	leaq	(%rbx,%r11), %rdx
	shlq	$3, %rdx
	leaq	(%rdx,%rdx,2), %r9
	addq	$-48, %rdi
	leaq	(%rcx,%rbx), %rdx
	decq	%rdx
	leaq	-1(%rax,%rbx), %rbx
	movq	416(%rsp), %r14
	addq	%r11, %r14
	leaq	(%r14,%r14,2), %r14
	movq	480(%rsp), %r15
	leaq	(%r15,%r14,8), %r15
	movq	392(%rsp), %r14
	addq	%r14, %rcx
	addq	%r14, %rax
	xorl	%r14d, %r14d
	.p2align	4
.LBB11_181:
	movzbl	(%rax,%r11), %r12d
	movb	%r12b, (%rbx,%r11)
	movzbl	(%rcx,%r11), %r12d
	movb	%r12b, (%rdx,%r11)
	movups	24(%rdi,%r15), %xmm0
	movq	40(%rdi,%r15), %r12
	movq	%r12, 40(%rdi,%r9)
	movups	%xmm0, 24(%rdi,%r9)
	movzbl	-1(%rax,%r11), %r12d
	movb	%r12b, -1(%rbx,%r11)
	movzbl	-1(%rcx,%r11), %r12d
	movb	%r12b, -1(%rdx,%r11)
	movupd	(%rdi,%r15), %xmm0
	movq	16(%rdi,%r15), %r12
	movq	%r12, 16(%rdi,%r9)
	movupd	%xmm0, (%rdi,%r9)
	addq	$2, %r14
	addq	$-48, %rdi
	addq	$-2, %rdx
	addq	$-2, %rbx
	addq	$-2, %rcx
	addq	$-2, %rax
	cmpq	%r14, %r11
	jne	.LBB11_181
.LBB11_182:
	movq	152(%rsp), %rax
	movq	(%rax), %r12
	movq	184(%rsp), %rdx
	cmpq	$8, %rdx
	jae	.LBB11_187
	movq	%rdx, %rax
	movq	80(%rsp), %r14
	movq	144(%rsp), %r15
	jmp	.LBB11_216
.LBB11_184:
	testq	%rdx, %rdx
	je	.LBB11_222
	movq	%rdx, 184(%rsp)
	leaq	-1(%r10), %rdx
	cmpq	%rdx, 424(%rsp)
	jne	.LBB11_189
	xorl	%edx, %edx
	jmp	.LBB11_192
.LBB11_187:
	movq	144(%rsp), %r15
	movq	112(%rsp), %r9
	movq	416(%rsp), %rcx
	subq	%r15, %rcx
	subq	%r9, %rcx
	cmpq	$32, %rcx
	movq	80(%rsp), %r14
	movq	56(%rsp), %r11
	jae	.LBB11_197
.LBB11_188:
	movq	%rdx, %rax
	jmp	.LBB11_216
.LBB11_189:
	movq	%r8, 432(%rsp)
	movq	%rbp, 440(%rsp)
	movq	184(%rsp), %rdx
	andq	$-2, %rdx
	movq	%rdx, 40(%rsp)
	movq	472(%rsp), %rdx
	leaq	(%rcx,%rdx), %r11
	movq	%r11, 88(%rsp)
	addq	%rax, %rdx
	movq	%rdx, 104(%rsp)
	leaq	(,%r9,8), %rdx
	leaq	(%rdx,%rdx,2), %r14
	leaq	1(%rcx,%r9), %rdx
	movq	%rdx, 120(%rsp)
	leaq	(%rax,%r9), %rdx
	incq	%rdx
	movq	%rdx, 96(%rsp)
	xorl	%edx, %edx
	movq	%rdi, %r12
	movq	488(%rsp), %r9
	.p2align	4
.LBB11_190:
	movq	104(%rsp), %r15
	movzbl	-1(%r15,%rdx), %ebx
	movq	96(%rsp), %r8
	movb	%bl, -1(%r8,%rdx)
	movq	88(%rsp), %r11
	movzbl	-1(%r11,%rdx), %ebx
	movq	120(%rsp), %rbp
	movb	%bl, -1(%rbp,%rdx)
	movups	(%r12,%r9), %xmm0
	movq	16(%r12,%r9), %rbx
	movq	%rbx, 16(%r12,%r14)
	movups	%xmm0, (%r12,%r14)
	movzbl	(%r15,%rdx), %ebx
	movb	%bl, (%r8,%rdx)
	movzbl	(%r11,%rdx), %ebx
	movb	%bl, (%rbp,%rdx)
	movupd	24(%r12,%r9), %xmm0
	movq	40(%r12,%r9), %rbx
	movq	%rbx, 40(%r12,%r14)
	movupd	%xmm0, 24(%r12,%r14)
	addq	$2, %rdx
	addq	$48, %r12
	cmpq	%rdx, 40(%rsp)
	jne	.LBB11_190
	testb	$1, 184(%rsp)
	movq	80(%rsp), %r14
	movq	144(%rsp), %r15
	movq	192(%rsp), %rbx
	movq	440(%rsp), %rbp
	movq	432(%rsp), %r8
	je	.LBB11_193
.LBB11_192:
	leaq	(%rdx,%rbx), %r9
	movzbl	(%rax,%r9), %r11d
	addq	112(%rsp), %rdx
	movb	%r11b, (%rax,%rdx)
	movzbl	(%rcx,%r9), %eax
	movb	%al, (%rcx,%rdx)
	leaq	(%r9,%r9,2), %rax
	leaq	(%rdx,%rdx,2), %rcx
	movupd	(%rdi,%rax,8), %xmm0
	movq	16(%rdi,%rax,8), %rax
	movq	%rax, 16(%rdi,%rcx,8)
	movupd	%xmm0, (%rdi,%rcx,8)
.LBB11_193:
	movq	152(%rsp), %rax
	movq	(%rax), %rax
	xorl	%ecx, %ecx
	cmpq	$4, 184(%rsp)
	jb	.LBB11_199
	movq	504(%rsp), %rdx
	movq	112(%rsp), %rdi
	addq	%rdi, %rdx
	cmpq	$32, %rdx
	movq	184(%rsp), %rdx
	movq	56(%rsp), %r11
	jb	.LBB11_207
	cmpq	$32, %rdx
	jae	.LBB11_200
	xorl	%ecx, %ecx
	jmp	.LBB11_204
.LBB11_197:
	cmpq	$32, %rdx
	jae	.LBB11_209
	xorl	%ecx, %ecx
	jmp	.LBB11_213
.LBB11_199:
	movq	56(%rsp), %r11
	movq	112(%rsp), %rdi
	jmp	.LBB11_207
.LBB11_200:
	movq	%rdx, %rcx
	andq	$-32, %rcx
	leaq	(%rax,%rdi), %rdx
	addq	$16, %rdx
	movq	464(%rsp), %rdi
	addq	%rax, %rdi
	xorl	%r9d, %r9d
.LBB11_201:
	movupd	-16(%rdi,%r9), %xmm0
	movupd	(%rdi,%r9), %xmm1
	movupd	%xmm0, -16(%rdx,%r9)
	movupd	%xmm1, (%rdx,%r9)
	addq	$32, %r9
	cmpq	%r9, %rcx
	jne	.LBB11_201
	movq	184(%rsp), %rdx
	cmpq	%rcx, %rdx
	movq	112(%rsp), %rdi
	je	.LBB11_222
	testb	$28, %dl
	je	.LBB11_207
.LBB11_204:
	movq	%rcx, %r11
	movq	%rdx, %rcx
	andq	$-4, %rcx
	movq	%rcx, %rdx
	subq	%r11, %rdx
	addq	%r11, %rdi
	addq	%rax, %rdi
	leaq	(%rax,%rbx), %r9
	addq	%r11, %r9
	xorl	%r11d, %r11d
	.p2align	4
.LBB11_205:
	movl	(%r9,%r11), %ebx
	movl	%ebx, (%rdi,%r11)
	addq	$4, %r11
	cmpq	%r11, %rdx
	jne	.LBB11_205
	cmpq	%rcx, 184(%rsp)
	movq	56(%rsp), %r11
	movq	192(%rsp), %rbx
	movq	112(%rsp), %rdi
	je	.LBB11_222
.LBB11_207:
	addq	496(%rsp), %r10
	subq	%rcx, %r10
	addq	%rcx, %rdi
	addq	%rax, %rdi
	addq	%rbx, %rax
	addq	%rcx, %rax
	xorl	%ecx, %ecx
	.p2align	4
.LBB11_208:
	movzbl	(%rax,%rcx), %edx
	movb	%dl, (%rdi,%rcx)
	incq	%rcx
	cmpq	%rcx, %r10
	jne	.LBB11_208
	jmp	.LBB11_222
.LBB11_209:
	movq	%rdx, %rcx
	andq	$-32, %rcx
	leaq	(%r12,%r10), %rax
	addq	$-16, %rax
	movq	448(%rsp), %rdx
	leaq	(%r12,%rdx), %rdi
	leaq	(%r9,%r10), %rdx
	addq	%rdi, %rdx
	movq	%rcx, %rdi
	negq	%rdi
	xorl	%r9d, %r9d
.LBB11_210:
	movupd	-16(%rax), %xmm0
	movupd	(%rax), %xmm1
	movupd	%xmm1, (%rdx,%r9)
	movupd	%xmm0, -16(%rdx,%r9)
	addq	$-32, %rax
	addq	$-32, %r9
	cmpq	%r9, %rdi
	jne	.LBB11_210
	movq	184(%rsp), %rdx
	cmpq	%rcx, %rdx
	movq	112(%rsp), %r9
	je	.LBB11_222
	testb	$24, %dl
	je	.LBB11_267
.LBB11_213:
	movq	%rdx, %rax
	andq	$-8, %rdx
	andl	$7, %eax
	leaq	(%r9,%r10), %rdi
	subq	%rcx, %r10
	leaq	(%r12,%r10), %r9
	addq	$-8, %r9
	movq	456(%rsp), %r10
	addq	%r12, %r10
	subq	%rcx, %rdi
	addq	%r10, %rdi
	subq	%rdx, %rcx
	xorl	%r10d, %r10d
.LBB11_214:
	movq	(%r9), %r11
	movq	%r11, (%rdi,%r10)
	addq	$-8, %r9
	addq	$-8, %r10
	cmpq	%r10, %rcx
	jne	.LBB11_214
	cmpq	%rdx, 184(%rsp)
	movq	56(%rsp), %r11
	je	.LBB11_222
.LBB11_216:
	movq	%rax, %rdx
	movq	%rax, %rcx
	andq	$3, %rdx
	je	.LBB11_219
	movq	112(%rsp), %rcx
	leaq	(%r12,%rcx), %rdi
	decq	%rdi
	movq	392(%rsp), %rcx
	leaq	(%r12,%rcx), %r9
	addq	%rax, %r9
	negq	%rdx
	xorl	%r10d, %r10d
	movq	%rax, %rcx
	.p2align	4
.LBB11_218:
	movzbl	(%r9,%r10), %r11d
	movb	%r11b, (%rdi,%rcx)
	decq	%rcx
	decq	%r10
	cmpq	%r10, %rdx
	jne	.LBB11_218
.LBB11_219:
	decq	%rax
	cmpq	$3, %rax
	movq	56(%rsp), %r11
	movq	112(%rsp), %rdx
	jb	.LBB11_222
	movq	%rcx, %rax
	negq	%rax
	addq	%rcx, %rdx
	addq	%r12, %rdx
	decq	%rdx
	addq	392(%rsp), %r12
	addq	%rcx, %r12
	xorl	%ecx, %ecx
	.p2align	4
.LBB11_221:
	movzbl	(%r12,%rcx), %edi
	movb	%dil, (%rdx,%rcx)
	movzbl	-1(%r12,%rcx), %edi
	movb	%dil, -1(%rdx,%rcx)
	movzbl	-2(%r12,%rcx), %edi
	movb	%dil, -2(%rdx,%rcx)
	movzbl	-3(%r12,%rcx), %edi
	movb	%dil, -3(%rdx,%rcx)
	addq	$-4, %rcx
	cmpq	%rcx, %rax
	jne	.LBB11_221
.LBB11_222:
	movzbl	31(%rsp), %edx
	andb	$1, %dl
	movl	$0, 139(%rsp)
	movl	$0, 136(%rsp)
	movq	528(%rsp), %rax
	leaq	(%rax,%r13), %rdi
	incq	%rdi
	xorpd	%xmm0, %xmm0
	movapd	%xmm0, 160(%rsp)
	movq	$0, 176(%rsp)
	movapd	%xmm0, 240(%rsp)
	movq	$0, 256(%rsp)
	cmpq	%rdi, %r13
	jae	.LBB11_264
	movq	48(%rsp), %r9
	movq	232(%rsp), %r10
	movq	%rdi, 88(%rsp)
.LBB11_224:
	leaq	(,%r13,2), %rax
	addq	%r13, %rax
	leaq	(%rsi,%rax,8), %rax
	.p2align	4
.LBB11_225:
	movzbl	(%rax), %r12d
	leal	-1(%r12), %ecx
	cmpb	$12, %cl
	ja	.LBB11_236
	movzbl	%r12b, %ebx
	leal	-6(%rbx), %ecx
	cmpl	$8, %ecx
	jae	.LBB11_229
.LBB11_227:
	leal	-7(%r12), %ecx
	cmpb	$3, %cl
	jae	.LBB11_236
	incq	%r13
	addq	$24, %rax
	cmpq	%rdi, %r13
	jb	.LBB11_225
	jmp	.LBB11_265
.LBB11_229:
	movl	$24, %ecx
	btl	%ebx, %ecx
	jb	.LBB11_227
	movb	%dl, 31(%rsp)
	movq	%r9, %r15
	movl	4(%rax), %edx
	movzbl	1(%rax), %esi
	movzwl	2(%rax), %ecx
	movq	%rsi, 48(%rsp)
	movb	%sil, 161(%rsp)
	movw	%cx, 162(%rsp)
	movl	%edx, 40(%rsp)
	movl	%edx, 164(%rsp)
	movupd	8(%rax), %xmm0
	movupd	%xmm0, 168(%rsp)
	movb	%r12b, 160(%rsp)
	leaq	240(%rsp), %rdi
	leaq	160(%rsp), %rsi
	movq	%r11, %rdx
	movq	192(%rsp), %rcx
	movq	32(%rsp), %r14
	movq	%r14, %r9
	callq	"stack::leaf::leaf"
	cmpb	$1, 240(%rsp)
	je	.LBB11_488
	addq	256(%rsp), %r15
	movq	$-1, %r9
	cmovaeq	%r15, %r9
	cmpq	$2, %r14
	movq	80(%rsp), %r14
	je	.LBB11_246
	cmpb	$5, %r12b
	jne	.LBB11_246
	movq	48(%rsp), %r8
	cmpb	$38, %r8b
	movq	56(%rsp), %r11
	movq	208(%rsp), %rsi
	movq	144(%rsp), %r15
	movq	232(%rsp), %r10
	movzbl	31(%rsp), %edi
	ja	.LBB11_258
	movl	$6048, %eax
	btq	%r8, %rax
	jae	.LBB11_257
	cmpq	$1, 32(%rsp)
	movl	$2, %eax
	sbbq	$0, %rax
	movq	%rax, 32(%rsp)
	jmp	.LBB11_260
.LBB11_236:
	movl	4(%rax), %r10d
	movzbl	1(%rax), %r14d
	movzwl	2(%rax), %ecx
	movb	%r14b, 161(%rsp)
	movw	%cx, 162(%rsp)
	movl	%r10d, 164(%rsp)
	movupd	8(%rax), %xmm0
	movupd	%xmm0, 168(%rsp)
	movb	%r12b, 160(%rsp)
	movq	%r8, 360(%rsp)
	movq	32(%rsp), %rbx
	movq	%rbx, 368(%rsp)
	movq	%r9, 376(%rsp)
	movb	%dl, 384(%rsp)
	leaq	385(%rsp), %rax
	movl	$0, 3(%rax)
	movl	$0, (%rax)
	xorpd	%xmm0, %xmm0
	movapd	%xmm0, 320(%rsp)
	movapd	%xmm0, 304(%rsp)
	movq	$0, 336(%rsp)
	cmpb	$6, %r12b
	movl	%r10d, 40(%rsp)
	jne	.LBB11_238
	leaq	360(%rsp), %rax
	movq	%rax, 8(%rsp)
	movq	192(%rsp), %rax
	movq	%rax, (%rsp)
	leaq	304(%rsp), %rdi
	movq	%r13, %rdx
	movl	%r14d, %ecx
	movl	%r10d, %r8d
	movq	%r11, %r9
	callq	"reading::walk::modify"
	movzbl	304(%rsp), %ecx
	movzbl	305(%rsp), %eax
	movq	312(%rsp), %r8
	movq	320(%rsp), %rdx
	movq	%rdx, 32(%rsp)
	movq	328(%rsp), %r9
	movzbl	336(%rsp), %ebx
	movq	80(%rsp), %r14
	movq	232(%rsp), %r10
	jmp	.LBB11_254
.LBB11_238:
	movb	%dl, 31(%rsp)
	movq	%r9, 48(%rsp)
	movapd	%xmm0, 272(%rsp)
	movq	$0, 288(%rsp)
	leaq	272(%rsp), %rdi
	leaq	160(%rsp), %rsi
	movq	%r11, %rdx
	movq	192(%rsp), %rcx
	movq	%rbx, %r9
	callq	"stack::leaf::leaf"
	movzbl	272(%rsp), %ecx
	cmpb	$1, %cl
	jne	.LBB11_240
	movzbl	273(%rsp), %eax
	movzbl	274(%rsp), %edi
	andb	$1, %dil
	xorl	%edx, %edx
	movq	%r13, %r8
	xorl	%esi, %esi
	xorl	%ebx, %ebx
	movq	80(%rsp), %r14
	movq	232(%rsp), %r10
	jmp	.LBB11_253
.LBB11_240:
	cmpq	$2, %rbx
	je	.LBB11_245
	cmpb	$5, %r12b
	jne	.LBB11_245
	cmpb	$38, %r14b
	movq	%r14, %rdx
	movq	80(%rsp), %r14
	movq	48(%rsp), %rdi
	movq	232(%rsp), %r10
	ja	.LBB11_263
	movl	$6048, %eax
	btq	%rdx, %rax
	jae	.LBB11_248
	movq	%rdx, %r8
	cmpq	$1, 32(%rsp)
	movl	$2, %eax
	sbbq	$0, %rax
	movq	%rax, 32(%rsp)
	jmp	.LBB11_250
.LBB11_245:
	movq	%r14, %r8
	movzbl	31(%rsp), %eax
	movl	%eax, %ebx
	cmpb	$5, %r12b
	movq	80(%rsp), %r14
	movq	48(%rsp), %rdi
	movq	232(%rsp), %r10
	je	.LBB11_251
	jmp	.LBB11_252
.LBB11_246:
	decl	%ebx
	leaq	.LJTI11_0(%rip), %rax
	movslq	(%rax,%rbx,4), %rcx
	addq	%rax, %rcx
	movq	56(%rsp), %r11
	movq	208(%rsp), %rsi
	movq	144(%rsp), %r15
	movq	232(%rsp), %r10
	movzbl	31(%rsp), %edi
	jmpq	*%rcx
.LBB11_247:
	xorl	%ebx, %ebx
	jmp	.LBB11_261
.LBB11_248:
	movabsq	$274877906972, %rax
	btq	%rdx, %rax
	jae	.LBB11_263
	movq	%rdx, %r8
.LBB11_250:
	movzbl	31(%rsp), %eax
.LBB11_251:
	cmpl	$17, %r8d
	sete	%bl
	orb	%al, %bl
.LBB11_252:
	andb	$1, %bl
	addq	288(%rsp), %rdi
	movq	$-1, %rsi
	cmovaeq	%rdi, %rsi
	movq	280(%rsp), %r8
	movq	32(%rsp), %rdi
	movq	%rdi, %rdx
	andq	$-256, %rdx
	xorl	%eax, %eax
.LBB11_253:
	movzbl	%dil, %edi
	orq	%rdx, %rdi
	movq	%rdi, 32(%rsp)
	movq	%rsi, %r9
.LBB11_254:
	cmpb	$1, %cl
	movq	88(%rsp), %rdi
	je	.LBB11_468
	andb	$1, %bl
	movq	56(%rsp), %r11
	movq	208(%rsp), %rsi
.LBB11_256:
	movl	40(%rsp), %eax
	addq	%rax, %r13
	incq	%r13
	movl	%ebx, %edx
	cmpq	%rdi, %r13
	jb	.LBB11_224
	jmp	.LBB11_266
.LBB11_257:
	movabsq	$274877906972, %rax
	btq	%r8, %rax
	jb	.LBB11_260
.LBB11_258:
	leaq	.Lstatic.0(%rip), %rax
	movzbl	(%r8,%rax), %eax
	andb	$-16, %al
	movq	32(%rsp), %rdx
	cmpq	$1, %rdx
	movl	$2, %ecx
	sbbq	$0, %rcx
	cmpb	$16, %al
	cmoveq	%rcx, %rdx
	movq	%rdx, 32(%rsp)
	jmp	.LBB11_260
.LBB11_259:
	movq	48(%rsp), %r8
.LBB11_260:
	cmpl	$17, %r8d
	sete	%bl
.LBB11_261:
	movq	248(%rsp), %r8
	orb	%dil, %bl
	andb	$1, %bl
	movq	88(%rsp), %rdi
	jmp	.LBB11_256
.LBB11_262:
	movb	$1, %bl
	jmp	.LBB11_261
.LBB11_263:
	leaq	.Lstatic.0(%rip), %rax
	movq	%rdx, %r8
	movzbl	(%rdx,%rax), %eax
	andb	$-16, %al
	movq	32(%rsp), %rsi
	cmpq	$1, %rsi
	movl	$2, %edx
	sbbq	$0, %rdx
	cmpb	$16, %al
	cmoveq	%rdx, %rsi
	movq	%rsi, 32(%rsp)
	jmp	.LBB11_250
.LBB11_264:
	movl	%edx, %ebx
	movq	48(%rsp), %r9
	movq	232(%rsp), %r10
	jmp	.LBB11_266
.LBB11_265:
	movl	%edx, %ebx
.LBB11_266:
	movl	$0, 227(%rsp)
	movl	$0, 224(%rsp)
	movl	$0, 128(%rsp)
	movl	$0, 131(%rsp)
	incq	408(%rsp)
	decq	400(%rsp)
	movl	%ebx, %edi
	movq	%r8, 112(%rsp)
	movq	352(%rsp), %rax
	testq	%rax, %rax
	jne	.LBB11_163
	jmp	.LBB11_269
.LBB11_267:
	andl	$31, %edx
	jmp	.LBB11_188
.LBB11_268:
	movl	$0, 131(%rsp)
	movl	$0, 128(%rsp)
	movq	48(%rsp), %r9
.LBB11_269:
	movq	32(%rsp), %rcx
	shrq	$8, %rcx
	movl	128(%rsp), %eax
	movl	131(%rsp), %edx
	movl	%edx, 203(%rsp)
	movl	%eax, 200(%rsp)
	xorl	%esi, %esi
	xorl	%eax, %eax
	movq	%r8, 64(%rsp)
	jmp	.LBB11_271
.LBB11_270:
	movl	$0, 139(%rsp)
	movl	$0, 136(%rsp)
	movl	136(%rsp), %eax
	movl	139(%rsp), %ecx
	movl	%ecx, 203(%rsp)
	movl	%eax, 200(%rsp)
	movb	$11, %al
	movb	$1, %sil
	xorl	%ecx, %ecx
	xorl	%r9d, %r9d
	xorl	%ebx, %ebx
	movq	$0, 32(%rsp)
.LBB11_271:
	movl	200(%rsp), %edx
	movl	203(%rsp), %edi
	jmp	.LBB11_462
.LBB11_272:
	decq	%rax
	movq	%r15, %rdi
.LBB11_273:
	cmpq	%rcx, %rdi
	jbe	.LBB11_289
	movzbl	-1(%r11,%rdi), %edx
	subq	%rdx, %rdi
	decq	%rax
	jne	.LBB11_273
.LBB11_275:
	movq	%rdi, %r13
	subq	%rcx, %r13
	leaq	(%r15,%r13), %rax
	cmpq	%rax, %rbp
	jb	.LBB11_109
	movq	%rax, 64(%rsp)
	movq	%rbx, 96(%rsp)
	movq	%r14, 80(%rsp)
	movq	%r15, %rdx
	subq	%rcx, %rdx
	movq	%rdi, 40(%rsp)
	jbe	.LBB11_283
	movq	56(%rsp), %rdi
	movq	(%rdi), %r9
	movq	16(%rdi), %r11
	movq	32(%rdi), %r14
	movl	%r15d, %ebx
	subl	%ecx, %ebx
	leaq	1(%rcx), %rdi
	movq	%r15, %r8
	testb	$1, %bl
	je	.LBB11_279
	leaq	-1(%r15), %r8
	movzbl	-1(%r9,%r15), %ebx
	movq	%r15, %r10
	addq	%r13, %r15
	decq	%r15
	movb	%bl, (%r9,%r15)
	movzbl	-1(%r11,%r10), %ebx
	movb	%bl, (%r11,%r15)
	leaq	(%r8,%r8,2), %rbx
	leaq	(%r15,%r15,2), %r15
	movupd	(%r14,%rbx,8), %xmm0
	movq	16(%r14,%rbx,8), %rbx
	movq	%rbx, 16(%r14,%r15,8)
	movupd	%xmm0, (%r14,%r15,8)
	movq	%r10, %r15
.LBB11_279:
	movq	%r13, %rax
	movq	%r15, %r10
	cmpq	%rdi, %r15
	je	.LBB11_282
	leaq	(%r8,%r8,2), %rdi
	leaq	-48(,%rdi,8), %rbx
	movq	40(%rsp), %rbp
	leaq	(%r8,%rbp), %rdi
	shlq	$3, %rdi
	leaq	(%rdi,%rdi,2), %r15
	leaq	(,%rcx,8), %rdi
	leaq	(%rdi,%rdi,2), %rdi
	subq	%rdi, %r15
	addq	$-24, %r15
	movq	%rcx, %r13
	notq	%r13
	addq	%rbp, %r13
	leaq	(%r11,%r13), %rdi
	addq	%r9, %r13
.LBB11_281:
	movzbl	-1(%r9,%r8), %ebp
	movb	%bpl, (%r13,%r8)
	movzbl	-1(%r11,%r8), %ebp
	movb	%bpl, (%rdi,%r8)
	movups	24(%r14,%rbx), %xmm0
	movq	40(%r14,%rbx), %rbp
	movq	%rbp, 16(%r14,%r15)
	movups	%xmm0, (%r14,%r15)
	movzbl	-2(%r9,%r8), %ebp
	movb	%bpl, -1(%r13,%r8)
	movzbl	-2(%r11,%r8), %ebp
	movb	%bpl, -1(%rdi,%r8)
	addq	$-2, %r8
	movupd	(%r14,%rbx), %xmm0
	movq	16(%r14,%rbx), %rbp
	movq	%rbp, -8(%r14,%r15)
	movupd	%xmm0, -24(%r14,%r15)
	addq	$-48, %r14
	cmpq	%r8, %rcx
	jb	.LBB11_281
.LBB11_282:
	movq	56(%rsp), %rdi
	movq	48(%rdi), %r11
	movq	592(%rsp), %rbp
	movq	%r10, %r15
	movq	%rax, %r13
	movq	40(%rsp), %rdi
.LBB11_283:
	cmpq	%rcx, %rdi
	jbe	.LBB11_291
	testq	%rdx, %rdx
	je	.LBB11_499
	cmpq	$8, %rdx
	jb	.LBB11_490
	movq	%rcx, %rdi
	subq	40(%rsp), %rdi
	cmpq	$32, %rdi
	jb	.LBB11_490
	cmpq	$32, %rdx
	jae	.LBB11_471
	xorl	%r8d, %r8d
	jmp	.LBB11_475
.LBB11_289:
	cmpq	$2, 32(%rsp)
	setae	%al
	movq	%rax, 32(%rsp)
	xorl	%eax, %eax
.LBB11_290:
	movb	$1, %sil
	xorl	%ecx, %ecx
	xorl	%r9d, %r9d
	xorl	%ebx, %ebx
	jmp	.LBB11_461
.LBB11_291:
	cmpq	%rcx, %r15
	je	.LBB11_499
	leaq	(%r11,%rcx), %r9
	movq	40(%rsp), %rax
	leaq	(%r11,%rax), %rbx
	xorl	%r14d, %r14d
	cmpq	$4, %rdx
	jb	.LBB11_498
	cmpq	$32, %r13
	jb	.LBB11_498
	cmpq	$32, %rdx
	jae	.LBB11_478
	xorl	%r14d, %r14d
	jmp	.LBB11_482
.LBB11_296:
	movq	%r13, %rax
	andq	$-32, %rax
	leaq	(%r15,%rcx), %rdx
	addq	$-16, %rdx
	movq	144(%rsp), %rdi
	subq	%rbp, %rdi
	movq	%rax, %r8
.LBB11_297:
	movupd	-16(%rdx), %xmm0
	movupd	(%rdx), %xmm1
	movupd	%xmm1, (%rdx,%rdi)
	movupd	%xmm0, -16(%rdx,%rdi)
	addq	$-32, %rdx
	addq	$-32, %r8
	jne	.LBB11_297
	cmpq	%rax, %r13
	je	.LBB11_303
	testb	$24, %r13b
	je	.LBB11_484
.LBB11_300:
	movq	%r13, %r8
	andq	$-8, %r8
	movl	%r13d, %edx
	andl	$7, %edx
	subq	%rax, %r15
	leaq	(%r15,%rcx), %rdi
	addq	$-8, %rdi
	movq	152(%rsp), %r11
	subq	%rax, %r11
	subq	%rbp, %r11
	leaq	(%r11,%rcx), %r9
	addq	$-8, %r9
	subq	%r8, %rax
	xorl	%r11d, %r11d
	.p2align	4
.LBB11_301:
	movq	(%rdi), %rbx
	movq	%rbx, (%r9,%r11)
	addq	$-8, %rdi
	addq	$-8, %r11
	cmpq	%r11, %rax
	jne	.LBB11_301
	cmpq	%r8, %r13
	movq	56(%rsp), %r11
	movq	96(%rsp), %rbx
	movq	144(%rsp), %r15
	jne	.LBB11_304
.LBB11_303:
	movq	112(%rsp), %r12
	movq	72(%rsp), %rdx
	movq	48(%rsp), %r10
	jmp	.LBB11_533
.LBB11_304:
	leaq	-1(%rdx), %rax
	movq	%rdx, %rdi
	andq	$3, %rdi
	je	.LBB11_308
	leaq	(%r10,%rdx), %r8
	negq	%rdx
	addq	%rcx, %r8
	decq	%r8
	movq	%rbp, %r9
	subq	%r15, %r9
	.p2align	4
.LBB11_306:
	movzbl	(%r8,%r9), %r11d
	movb	%r11b, (%r8)
	incq	%rdx
	decq	%r8
	decq	%rdi
	jne	.LBB11_306
	negq	%rdx
	movq	56(%rsp), %r11
.LBB11_308:
	cmpq	$3, %rax
	movq	88(%rsp), %r8
	movq	64(%rsp), %rdi
	jb	.LBB11_321
	addq	%rdx, %r10
	negq	%rdx
	leaq	(%rcx,%r10), %rax
	decq	%rax
	notq	%r15
	addq	%rbp, %r15
	.p2align	4
.LBB11_310:
	movzbl	1(%rax,%r15), %ecx
	movb	%cl, (%rax)
	movzbl	(%rax,%r15), %ecx
	movb	%cl, -1(%rax)
	movzbl	-1(%rax,%r15), %ecx
	movb	%cl, -2(%rax)
	movzbl	-2(%rax,%r15), %ecx
	movb	%cl, -3(%rax)
	addq	$-4, %rax
	addq	$4, %rdx
	jne	.LBB11_310
	jmp	.LBB11_321
.LBB11_311:
	movq	%r13, %rax
	andq	$-32, %rax
	leaq	(%r10,%rcx), %rdx
	addq	$16, %rdx
	movq	%rax, %rdi
.LBB11_312:
	movupd	-16(%rdx,%r9), %xmm0
	movupd	(%rdx,%r9), %xmm1
	movupd	%xmm0, -16(%rdx)
	movupd	%xmm1, (%rdx)
	addq	$32, %rdx
	addq	$-32, %rdi
	jne	.LBB11_312
	cmpq	%rax, %r13
	jne	.LBB11_315
	movq	112(%rsp), %r12
	movq	72(%rsp), %rdx
	movq	48(%rsp), %r10
	movq	64(%rsp), %rdi
	jmp	.LBB11_322
.LBB11_315:
	testb	$28, %r13b
	leaq	(%r13,%r10), %rdi
	je	.LBB11_319
.LBB11_316:
	movq	%rax, %rdx
	movq	%r13, %rax
	andq	$-4, %rax
	leaq	(%r10,%rdx), %rdi
	subq	%rax, %rdx
	addq	%rcx, %rdi
	.p2align	4
.LBB11_317:
	movl	(%rdi,%r9), %r8d
	movl	%r8d, (%rdi)
	addq	$4, %rdi
	addq	$4, %rdx
	jne	.LBB11_317
	cmpq	%rax, %r13
	movq	88(%rsp), %r8
	movq	64(%rsp), %rdi
	je	.LBB11_321
.LBB11_319:
	subq	%rax, %r15
	subq	%r10, %r15
	subq	%rbp, %r15
	addq	%rax, %r10
	addq	%r10, %rcx
	.p2align	4
.LBB11_320:
	movzbl	(%rcx,%r9), %eax
	movb	%al, (%rcx)
	incq	%rcx
	decq	%r15
	jne	.LBB11_320
.LBB11_321:
	movq	112(%rsp), %r12
	movq	72(%rsp), %rdx
	movq	48(%rsp), %r10
.LBB11_322:
	andb	$1, %bl
	movl	$0, 131(%rsp)
	movl	$0, 128(%rsp)
	movq	%rbp, %r15
	subq	40(%rsp), %r15
	xorpd	%xmm0, %xmm0
	movapd	%xmm0, 160(%rsp)
	movq	$0, 176(%rsp)
	movapd	%xmm0, 240(%rsp)
	movq	$0, 256(%rsp)
	cmpq	%r8, %rdx
	movq	%r15, 104(%rsp)
	movq	%rsi, 208(%rsp)
	movq	%r11, 56(%rsp)
	jae	.LBB11_363
	movq	%r8, 88(%rsp)
.LBB11_324:
	movq	%rbx, %r13
	leaq	(%rdx,%rdx,2), %rax
	leaq	(%rsi,%rax,8), %rax
	.p2align	4
.LBB11_325:
	movzbl	(%rax), %ebx
	leal	-1(%rbx), %ecx
	cmpb	$12, %cl
	ja	.LBB11_336
	movzbl	%bl, %r15d
	leal	-6(%r15), %ecx
	cmpl	$8, %ecx
	jae	.LBB11_329
.LBB11_327:
	leal	-7(%rbx), %ecx
	cmpb	$3, %cl
	jae	.LBB11_336
	incq	%rdx
	addq	$24, %rax
	cmpq	%r8, %rdx
	jb	.LBB11_325
	jmp	.LBB11_364
	.p2align	4
.LBB11_329:
	movl	$24, %ecx
	btl	%r15d, %ecx
	jb	.LBB11_327
	movq	%rdx, 72(%rsp)
	movq	%r10, %rbp
	movq	%r14, 80(%rsp)
	movl	4(%rax), %edx
	movzbl	1(%rax), %esi
	movzwl	2(%rax), %ecx
	movq	%rsi, 48(%rsp)
	movb	%sil, 161(%rsp)
	movw	%cx, 162(%rsp)
	movl	%edx, 64(%rsp)
	movl	%edx, 164(%rsp)
	movupd	8(%rax), %xmm0
	movupd	%xmm0, 168(%rsp)
	movb	%bl, 160(%rsp)
	movq	%rdi, %r8
	leaq	240(%rsp), %rdi
	leaq	160(%rsp), %rsi
	movq	%r11, %rdx
	movq	104(%rsp), %rcx
	movq	32(%rsp), %r14
	movq	%r14, %r9
	callq	"stack::leaf::leaf"
	cmpb	$1, 240(%rsp)
	je	.LBB11_486
	addq	256(%rsp), %rbp
	movq	$-1, %r10
	cmovaeq	%rbp, %r10
	cmpq	$2, %r14
	movq	80(%rsp), %r14
	je	.LBB11_346
	cmpb	$5, %bl
	jne	.LBB11_346
	movq	48(%rsp), %r9
	cmpb	$38, %r9b
	movq	56(%rsp), %r11
	movq	208(%rsp), %rsi
	movq	592(%rsp), %rbp
	movq	72(%rsp), %rdx
	movq	88(%rsp), %r8
	movq	104(%rsp), %r15
	ja	.LBB11_356
	movl	$6048, %eax
	btq	%r9, %rax
	jae	.LBB11_355
	cmpq	$1, 32(%rsp)
	movl	$2, %eax
	sbbq	$0, %rax
	movq	%rax, 32(%rsp)
	jmp	.LBB11_358
.LBB11_336:
	movq	%r14, %rbp
	movl	4(%rax), %r8d
	movzbl	1(%rax), %r14d
	movzwl	2(%rax), %ecx
	movb	%r14b, 161(%rsp)
	movw	%cx, 162(%rsp)
	movl	%r8d, 164(%rsp)
	movupd	8(%rax), %xmm0
	movupd	%xmm0, 168(%rsp)
	movb	%bl, 160(%rsp)
	movq	%rdi, 360(%rsp)
	movq	32(%rsp), %r15
	movq	%r15, 368(%rsp)
	movq	%r10, 376(%rsp)
	movb	%r13b, 384(%rsp)
	leaq	385(%rsp), %rax
	movl	$0, 3(%rax)
	movl	$0, (%rax)
	xorpd	%xmm0, %xmm0
	movapd	%xmm0, 320(%rsp)
	movapd	%xmm0, 304(%rsp)
	movq	$0, 336(%rsp)
	cmpb	$6, %bl
	movq	%rdx, 72(%rsp)
	movl	%r8d, 64(%rsp)
	jne	.LBB11_338
	leaq	360(%rsp), %rax
	movq	%rax, 8(%rsp)
	movq	104(%rsp), %r15
	movq	%r15, (%rsp)
	leaq	304(%rsp), %rdi
	movl	%r14d, %ecx
	movq	%r11, %r9
	callq	"reading::walk::modify"
	movzbl	304(%rsp), %ecx
	movzbl	305(%rsp), %eax
	movq	312(%rsp), %rdi
	movq	320(%rsp), %rdx
	movq	%rdx, 32(%rsp)
	movq	328(%rsp), %r10
	movzbl	336(%rsp), %r9d
	movq	%rbp, %r14
	movq	592(%rsp), %rbp
	movq	88(%rsp), %r8
	jmp	.LBB11_352
.LBB11_338:
	movq	%r10, 48(%rsp)
	movapd	%xmm0, 272(%rsp)
	movq	$0, 288(%rsp)
	movq	%rdi, %r8
	leaq	272(%rsp), %rdi
	leaq	160(%rsp), %rsi
	movq	%r11, %rdx
	movq	104(%rsp), %rcx
	movq	%r15, %r9
	callq	"stack::leaf::leaf"
	movzbl	272(%rsp), %ecx
	cmpb	$1, %cl
	jne	.LBB11_340
	movzbl	273(%rsp), %eax
	movzbl	274(%rsp), %r10d
	andb	$1, %r10b
	xorl	%esi, %esi
	movq	72(%rsp), %rdi
	xorl	%edx, %edx
	xorl	%r9d, %r9d
	movq	%rbp, %r14
	movq	88(%rsp), %r8
	movq	104(%rsp), %r15
	jmp	.LBB11_351
.LBB11_340:
	cmpq	$2, %r15
	je	.LBB11_345
	cmpb	$5, %bl
	jne	.LBB11_345
	cmpb	$38, %r14b
	movq	48(%rsp), %rsi
	movq	88(%rsp), %r8
	movq	104(%rsp), %r15
	ja	.LBB11_362
	movl	$6048, %eax
	btq	%r14, %rax
	jae	.LBB11_348
	cmpq	$1, 32(%rsp)
	movl	$2, %eax
	sbbq	$0, %rax
	movq	%rax, 32(%rsp)
	jmp	.LBB11_349
.LBB11_345:
	movl	%r13d, %r9d
	cmpb	$5, %bl
	movq	48(%rsp), %rsi
	movq	88(%rsp), %r8
	movq	104(%rsp), %r15
	je	.LBB11_349
	jmp	.LBB11_350
.LBB11_346:
	decl	%r15d
	leaq	.LJTI11_2(%rip), %rax
	movslq	(%rax,%r15,4), %rcx
	addq	%rax, %rcx
	movq	56(%rsp), %r11
	movq	208(%rsp), %rsi
	movq	592(%rsp), %rbp
	movq	72(%rsp), %rdx
	movq	88(%rsp), %r8
	jmpq	*%rcx
.LBB11_347:
	xorl	%r9d, %r9d
	jmp	.LBB11_360
.LBB11_348:
	movabsq	$274877906972, %rax
	btq	%r14, %rax
	jae	.LBB11_362
.LBB11_349:
	cmpl	$17, %r14d
	sete	%r9b
	orb	%r13b, %r9b
.LBB11_350:
	andb	$1, %r9b
	addq	288(%rsp), %rsi
	movq	$-1, %rdx
	cmovaeq	%rsi, %rdx
	movq	280(%rsp), %rdi
	movq	32(%rsp), %rsi
	movq	%rsi, %r10
	andq	$-256, %rsi
	xorl	%eax, %eax
	movq	%rbp, %r14
.LBB11_351:
	movzbl	%r10b, %r10d
	orq	%rsi, %r10
	movq	%r10, 32(%rsp)
	movq	%rdx, %r10
	movq	592(%rsp), %rbp
.LBB11_352:
	cmpb	$1, %cl
	je	.LBB11_464
	andb	$1, %r9b
	movq	56(%rsp), %r11
	movq	208(%rsp), %rsi
	movq	72(%rsp), %rdx
.LBB11_354:
	movl	64(%rsp), %eax
	addq	%rax, %rdx
	incq	%rdx
	movl	%r9d, %ebx
	cmpq	%r8, %rdx
	jb	.LBB11_324
	jmp	.LBB11_365
.LBB11_355:
	movabsq	$274877906972, %rax
	btq	%r9, %rax
	jb	.LBB11_358
.LBB11_356:
	leaq	.Lstatic.0(%rip), %rax
	movzbl	(%r9,%rax), %eax
	andb	$-16, %al
	movq	32(%rsp), %rdi
	cmpq	$1, %rdi
	movl	$2, %ecx
	sbbq	$0, %rcx
	cmpb	$16, %al
	cmoveq	%rcx, %rdi
	movq	%rdi, 32(%rsp)
	jmp	.LBB11_358
.LBB11_357:
	movq	104(%rsp), %r15
	movq	48(%rsp), %r9
.LBB11_358:
	cmpl	$17, %r9d
	sete	%r9b
	jmp	.LBB11_361
.LBB11_359:
	movb	$1, %r9b
.LBB11_360:
	movq	104(%rsp), %r15
.LBB11_361:
	movq	248(%rsp), %rdi
	orb	%r13b, %r9b
	andb	$1, %r9b
	jmp	.LBB11_354
.LBB11_362:
	leaq	.Lstatic.0(%rip), %rax
	movzbl	(%r14,%rax), %eax
	andb	$-16, %al
	movq	32(%rsp), %rdi
	cmpq	$1, %rdi
	movl	$2, %edx
	sbbq	$0, %rdx
	cmpb	$16, %al
	cmoveq	%rdx, %rdi
	movq	%rdi, 32(%rsp)
	jmp	.LBB11_349
.LBB11_363:
	movl	%ebx, %r9d
	jmp	.LBB11_365
.LBB11_364:
	movl	%r13d, %r9d
	movq	104(%rsp), %r15
.LBB11_365:
	movq	%r9, 72(%rsp)
	movq	%r10, 48(%rsp)
	movq	(%r11), %r10
	movq	16(%r11), %rdx
	movq	32(%r11), %rcx
	movq	%rdi, 64(%rsp)
	cmpq	%r15, %rdi
	jbe	.LBB11_376
	movq	40(%rsp), %rbx
	testq	%rbx, %rbx
	je	.LBB11_415
	movq	%r14, 80(%rsp)
	movq	%rbx, %r9
	testb	$1, %bl
	je	.LBB11_369
	leaq	-1(%rbx), %r9
	movzbl	-1(%r10,%rbp), %eax
	movq	64(%rsp), %rdi
	addq	%rbx, %rdi
	decq	%rdi
	movb	%al, (%r10,%rdi)
	movzbl	-1(%rdx,%rbp), %eax
	movb	%al, (%rdx,%rdi)
	leaq	-3(%rbp,%rbp,2), %rax
	leaq	(%rdi,%rdi,2), %rdi
	movupd	(%rcx,%rax,8), %xmm0
	movq	16(%rcx,%rax,8), %rax
	movq	%rax, 16(%rcx,%rdi,8)
	movupd	%xmm0, (%rcx,%rdi,8)
.LBB11_369:
	movq	%rbx, %rax
	notq	%rax
	cmpq	$1, %rbx
	je	.LBB11_372
	movq	64(%rsp), %rbx
	leaq	(%rbx,%r9), %rdi
	shlq	$3, %rdi
	leaq	(%rdi,%rdi,2), %r8
	addq	$-48, %rcx
	leaq	(%rdx,%rbx), %r11
	decq	%r11
	addq	%r10, %rbx
	decq	%rbx
	leaq	(%r9,%rbp), %rdi
	shlq	$3, %rdi
	leaq	(%rdi,%rdi,2), %r14
	movq	40(%rsp), %rdi
	leaq	(,%rdi,8), %rdi
	leaq	(%rdi,%rdi,2), %rdi
	subq	%rdi, %r14
	leaq	(%rax,%rbp), %rdi
	addq	%rdi, %rdx
	addq	%rdi, %r10
	xorl	%r15d, %r15d
	.p2align	4
.LBB11_371:
	movzbl	(%r10,%r9), %edi
	movb	%dil, (%rbx,%r9)
	movzbl	(%rdx,%r9), %edi
	movb	%dil, (%r11,%r9)
	movups	24(%rcx,%r14), %xmm0
	movq	40(%rcx,%r14), %rdi
	movq	%rdi, 40(%rcx,%r8)
	movups	%xmm0, 24(%rcx,%r8)
	movzbl	-1(%r10,%r9), %edi
	movb	%dil, -1(%rbx,%r9)
	movzbl	-1(%rdx,%r9), %edi
	movb	%dil, -1(%r11,%r9)
	movupd	(%rcx,%r14), %xmm0
	movq	16(%rcx,%r14), %rdi
	movq	%rdi, 16(%rcx,%r8)
	movupd	%xmm0, (%rcx,%r8)
	addq	$2, %r15
	addq	$-48, %rcx
	addq	$-2, %r11
	addq	$-2, %rbx
	addq	$-2, %rdx
	addq	$-2, %r10
	cmpq	%r15, %r9
	jne	.LBB11_371
.LBB11_372:
	movq	56(%rsp), %rcx
	movq	48(%rcx), %rcx
	movq	40(%rsp), %rbx
	movq	%rbx, %rdx
	cmpq	$8, %rbx
	movq	80(%rsp), %r14
	jb	.LBB11_396
	movq	64(%rsp), %rdx
	leaq	(%rbx,%rdx), %r9
	movq	%rbp, %rdi
	subq	%r9, %rdi
	movq	%rbx, %rdx
	cmpq	$32, %rdi
	jb	.LBB11_396
	cmpq	$32, %rbx
	jae	.LBB11_389
	xorl	%r8d, %r8d
	jmp	.LBB11_393
.LBB11_376:
	movq	40(%rsp), %rbx
	testq	%rbx, %rbx
	je	.LBB11_415
	cmpq	$1, %rbx
	jne	.LBB11_379
	xorl	%eax, %eax
	movq	64(%rsp), %r9
	jmp	.LBB11_382
.LBB11_379:
	movq	%r14, 80(%rsp)
	movq	%rbx, %r8
	andq	$-2, %r8
	leaq	(,%rbp,8), %rax
	leaq	(%rax,%rax,2), %r9
	leaq	(,%rbx,8), %rax
	leaq	(%rax,%rax,2), %rax
	subq	%rax, %r9
	leaq	(%rdx,%r15), %r11
	incq	%r11
	leaq	1(%r10,%r15), %rbx
	movq	64(%rsp), %r15
	leaq	(,%r15,8), %rax
	leaq	(%rax,%rax,2), %r14
	leaq	(%rdx,%r15), %rdi
	incq	%rdi
	addq	%r10, %r15
	incq	%r15
	xorl	%eax, %eax
	movq	%rcx, %rbp
	.p2align	4
.LBB11_380:
	movzbl	-1(%rbx,%rax), %r13d
	movb	%r13b, -1(%r15,%rax)
	movzbl	-1(%r11,%rax), %r13d
	movb	%r13b, -1(%rdi,%rax)
	movups	(%rbp,%r9), %xmm0
	movq	16(%rbp,%r9), %r13
	movq	%r13, 16(%rbp,%r14)
	movups	%xmm0, (%rbp,%r14)
	movzbl	(%rbx,%rax), %r13d
	movb	%r13b, (%r15,%rax)
	movzbl	(%r11,%rax), %r13d
	movb	%r13b, (%rdi,%rax)
	movupd	24(%rbp,%r9), %xmm0
	movq	40(%rbp,%r9), %r13
	movq	%r13, 40(%rbp,%r14)
	movupd	%xmm0, 24(%rbp,%r14)
	addq	$2, %rax
	addq	$48, %rbp
	cmpq	%rax, %r8
	jne	.LBB11_380
	movq	40(%rsp), %rbx
	testb	$1, %bl
	movq	80(%rsp), %r14
	movq	592(%rsp), %rbp
	movq	56(%rsp), %r11
	movq	64(%rsp), %r9
	movq	104(%rsp), %r15
	je	.LBB11_383
.LBB11_382:
	leaq	(%rax,%r15), %rdi
	movzbl	(%r10,%rdi), %r8d
	addq	%r9, %rax
	movb	%r8b, (%r10,%rax)
	movzbl	(%rdx,%rdi), %r8d
	movb	%r8b, (%rdx,%rax)
	leaq	(%rdi,%rdi,2), %rdx
	leaq	(%rax,%rax,2), %rax
	movupd	(%rcx,%rdx,8), %xmm0
	movq	16(%rcx,%rdx,8), %rdx
	movq	%rdx, 16(%rcx,%rax,8)
	movupd	%xmm0, (%rcx,%rax,8)
.LBB11_383:
	movq	48(%r11), %rax
	leaq	(%rax,%r15), %rcx
	leaq	(%rax,%r9), %rdx
	cmpq	$4, %rbx
	jb	.LBB11_384
	leaq	(%rbx,%r9), %rdi
	subq	%rbp, %rdi
	cmpq	$32, %rdi
	jae	.LBB11_387
.LBB11_384:
	xorl	%r9d, %r9d
.LBB11_409:
	movq	%rbx, %rdi
	movq	%r9, %r8
	andq	$3, %rdi
	je	.LBB11_412
	movq	%r9, %r8
	.p2align	4
.LBB11_411:
	movzbl	(%rcx,%r8), %r10d
	movb	%r10b, (%rdx,%r8)
	incq	%r8
	decq	%rdi
	jne	.LBB11_411
.LBB11_412:
	subq	%rbx, %r9
	cmpq	$-4, %r9
	ja	.LBB11_415
	movq	64(%rsp), %rcx
	addq	%rax, %rcx
	addq	$3, %rcx
	addq	%r15, %rax
	addq	$3, %rax
	.p2align	4
.LBB11_414:
	movzbl	-3(%rax,%r8), %edx
	movb	%dl, -3(%rcx,%r8)
	movzbl	-2(%rax,%r8), %edx
	movb	%dl, -2(%rcx,%r8)
	movzbl	-1(%rax,%r8), %edx
	movb	%dl, -1(%rcx,%r8)
	movzbl	(%rax,%r8), %edx
	movb	%dl, (%rcx,%r8)
	addq	$4, %r8
	cmpq	%r8, %rbx
	jne	.LBB11_414
	jmp	.LBB11_415
.LBB11_387:
	cmpq	$32, %rbx
	jae	.LBB11_402
	xorl	%r9d, %r9d
	jmp	.LBB11_406
.LBB11_389:
	movq	%rbx, %r8
	andq	$-32, %r8
	leaq	(%rcx,%rbp), %rdx
	addq	$-16, %rdx
	leaq	(%rcx,%r9), %rdi
	addq	$-16, %rdi
	movq	%r8, %r10
	negq	%r10
	xorl	%r11d, %r11d
.LBB11_390:
	movupd	-16(%rdx,%r11), %xmm0
	movupd	(%rdx,%r11), %xmm1
	movupd	%xmm1, (%rdi,%r11)
	movupd	%xmm0, -16(%rdi,%r11)
	addq	$-32, %r11
	cmpq	%r11, %r10
	jne	.LBB11_390
	cmpq	%r8, %rbx
	movq	56(%rsp), %r11
	je	.LBB11_415
	testb	$24, %bl
	je	.LBB11_485
.LBB11_393:
	movq	%rbx, %rdi
	andq	$-8, %rdi
	movl	%ebx, %edx
	andl	$7, %edx
	leaq	(%rcx,%rbp), %r10
	addq	$-8, %r10
	negq	%r8
	addq	%rcx, %r9
	addq	$-8, %r9
	movq	%rdi, %r11
	negq	%r11
.LBB11_394:
	movq	(%r10,%r8), %rbx
	movq	%rbx, (%r9,%r8)
	addq	$-8, %r8
	cmpq	%r8, %r11
	jne	.LBB11_394
	movq	40(%rsp), %rbx
	cmpq	%rdi, %rbx
	movq	56(%rsp), %r11
	je	.LBB11_415
.LBB11_396:
	leaq	-1(%rdx), %rdi
	movq	%rdx, %r8
	andq	$3, %r8
	je	.LBB11_399
.LBB11_397:
	movq	64(%rsp), %r9
	addq	%rcx, %r9
	decq	%r9
	leaq	(%rax,%rbp), %r10
	addq	%rcx, %r10
	.p2align	4
.LBB11_398:
	movzbl	(%r10,%rdx), %r11d
	movb	%r11b, (%r9,%rdx)
	decq	%rdx
	decq	%r8
	jne	.LBB11_398
.LBB11_399:
	cmpq	$3, %rdi
	movq	56(%rsp), %r11
	jb	.LBB11_415
	movq	64(%rsp), %rdi
	addq	%rcx, %rdi
	decq	%rdi
	addq	%rbp, %rax
	addq	%rcx, %rax
	movq	%rdx, %rcx
	.p2align	4
.LBB11_401:
	movzbl	(%rax,%rdx), %r8d
	movb	%r8b, (%rdi,%rdx)
	movzbl	-1(%rax,%rdx), %r8d
	movb	%r8b, -1(%rdi,%rdx)
	movzbl	-2(%rax,%rdx), %r8d
	movb	%r8b, -2(%rdi,%rdx)
	addq	$-4, %rcx
	movzbl	-3(%rax,%rdx), %r8d
	movb	%r8b, -3(%rdi,%rdx)
	movq	%rcx, %rdx
	jne	.LBB11_401
.LBB11_415:
	movq	64(%rsp), %r10
	addq	%rbx, %r10
	xorpd	%xmm0, %xmm0
	movapd	%xmm0, 160(%rsp)
	movq	$0, 176(%rsp)
	movapd	%xmm0, 240(%rsp)
	movq	$0, 256(%rsp)
	movq	120(%rsp), %r15
	cmpq	%r12, %r15
	jae	.LBB11_456
	movq	48(%rsp), %r9
.LBB11_417:
	leaq	(%r15,%r15,2), %rax
	leaq	(%rsi,%rax,8), %rax
	.p2align	4
.LBB11_418:
	movzbl	(%rax), %ebx
	leal	-1(%rbx), %ecx
	cmpb	$12, %cl
	ja	.LBB11_429
	movzbl	%bl, %ebp
	leal	-6(%rbp), %ecx
	cmpl	$8, %ecx
	jae	.LBB11_422
.LBB11_420:
	leal	-7(%rbx), %ecx
	cmpb	$3, %cl
	jae	.LBB11_429
	incq	%r15
	addq	$24, %rax
	cmpq	%r12, %r15
	jb	.LBB11_418
	jmp	.LBB11_457
	.p2align	4
.LBB11_422:
	movl	$24, %ecx
	btl	%ebp, %ecx
	jb	.LBB11_420
	movq	%r15, 120(%rsp)
	movq	%r9, %r15
	movq	%r14, 80(%rsp)
	movl	4(%rax), %edx
	movzbl	1(%rax), %esi
	movzwl	2(%rax), %ecx
	movq	%rsi, 64(%rsp)
	movb	%sil, 161(%rsp)
	movw	%cx, 162(%rsp)
	movl	%edx, %r13d
	movl	%edx, 164(%rsp)
	movupd	8(%rax), %xmm0
	movupd	%xmm0, 168(%rsp)
	movb	%bl, 160(%rsp)
	movq	%r10, %r8
	leaq	240(%rsp), %rdi
	leaq	160(%rsp), %rsi
	movq	%r11, %r14
	movq	%r11, %rdx
	movq	592(%rsp), %rcx
	movq	32(%rsp), %r9
	callq	"stack::leaf::leaf"
	cmpb	$1, 240(%rsp)
	je	.LBB11_487
	movq	%r15, %rax
	addq	256(%rsp), %rax
	movq	$-1, %r9
	cmovaeq	%rax, %r9
	cmpq	$2, 32(%rsp)
	movq	80(%rsp), %rdx
	je	.LBB11_439
	cmpb	$5, %bl
	jne	.LBB11_439
	movq	64(%rsp), %rdi
	cmpb	$38, %dil
	movq	%r14, %r11
	movq	208(%rsp), %rsi
	movq	%rdx, %r14
	movq	120(%rsp), %r15
	ja	.LBB11_449
	movl	$6048, %eax
	btq	%rdi, %rax
	jae	.LBB11_448
	cmpq	$1, 32(%rsp)
	movl	$2, %eax
	sbbq	$0, %rax
	movq	%rax, 32(%rsp)
	jmp	.LBB11_451
.LBB11_429:
	movq	%r14, %rbp
	movl	4(%rax), %r8d
	movzbl	1(%rax), %r14d
	movzwl	2(%rax), %ecx
	movb	%r14b, 161(%rsp)
	movw	%cx, 162(%rsp)
	movl	%r8d, 164(%rsp)
	movupd	8(%rax), %xmm0
	movupd	%xmm0, 168(%rsp)
	movb	%bl, 160(%rsp)
	movq	%r10, 360(%rsp)
	movq	32(%rsp), %rax
	movq	%rax, 368(%rsp)
	movq	%r9, 376(%rsp)
	movq	72(%rsp), %rax
	movb	%al, 384(%rsp)
	leaq	385(%rsp), %rax
	movl	$0, 3(%rax)
	movl	$0, (%rax)
	xorpd	%xmm0, %xmm0
	movapd	%xmm0, 320(%rsp)
	movapd	%xmm0, 304(%rsp)
	movq	$0, 336(%rsp)
	cmpb	$6, %bl
	jne	.LBB11_431
	leaq	360(%rsp), %rax
	movq	%rax, 8(%rsp)
	movq	592(%rsp), %rax
	movq	%rax, (%rsp)
	leaq	304(%rsp), %rdi
	movq	%r15, %rdx
	movl	%r14d, %ecx
	movl	%r8d, %r13d
	movq	%r11, %r9
	callq	"reading::walk::modify"
	movzbl	304(%rsp), %ecx
	movzbl	305(%rsp), %eax
	movq	312(%rsp), %r10
	movq	320(%rsp), %rdx
	movq	%rdx, 32(%rsp)
	movq	328(%rsp), %r9
	movzbl	336(%rsp), %ebx
	movq	%rbp, %r14
	jmp	.LBB11_445
.LBB11_431:
	movl	%r8d, %r13d
	movq	%r9, 48(%rsp)
	movapd	%xmm0, 272(%rsp)
	movq	$0, 288(%rsp)
	movq	%r10, %r8
	leaq	272(%rsp), %rdi
	leaq	160(%rsp), %rsi
	movq	%r11, %rdx
	movq	592(%rsp), %rcx
	movq	32(%rsp), %r9
	callq	"stack::leaf::leaf"
	movzbl	272(%rsp), %ecx
	cmpb	$1, %cl
	jne	.LBB11_433
	movzbl	273(%rsp), %eax
	movzbl	274(%rsp), %edx
	andb	$1, %dl
	movq	%rdx, 32(%rsp)
	xorl	%esi, %esi
	movq	%r15, %r10
	xorl	%edx, %edx
	xorl	%ebx, %ebx
	jmp	.LBB11_444
.LBB11_433:
	cmpq	$2, 32(%rsp)
	je	.LBB11_438
	cmpb	$5, %bl
	jne	.LBB11_438
	cmpb	$38, %r14b
	movq	48(%rsp), %rsi
	movq	72(%rsp), %rdi
	ja	.LBB11_455
	movl	$6048, %eax
	btq	%r14, %rax
	jae	.LBB11_441
	cmpq	$1, 32(%rsp)
	movl	$2, %eax
	sbbq	$0, %rax
	movq	%rax, 32(%rsp)
	jmp	.LBB11_442
.LBB11_438:
	movq	72(%rsp), %rdi
	movl	%edi, %eax
	cmpb	$5, %bl
	movq	%rax, %rbx
	movq	48(%rsp), %rsi
	je	.LBB11_442
	jmp	.LBB11_443
.LBB11_439:
	decl	%ebp
	leaq	.LJTI11_3(%rip), %rax
	movslq	(%rax,%rbp,4), %rcx
	addq	%rax, %rcx
	movq	%r14, %r11
	movq	208(%rsp), %rsi
	jmpq	*%rcx
.LBB11_440:
	xorl	%ebx, %ebx
	jmp	.LBB11_453
.LBB11_441:
	movabsq	$274877906972, %rax
	btq	%r14, %rax
	jae	.LBB11_455
.LBB11_442:
	cmpl	$17, %r14d
	sete	%bl
	orb	%dil, %bl
.LBB11_443:
	andb	$1, %bl
	addq	288(%rsp), %rsi
	movq	$-1, %rdx
	cmovaeq	%rsi, %rdx
	movq	280(%rsp), %r10
	movq	32(%rsp), %rsi
	andq	$-256, %rsi
	xorl	%eax, %eax
.LBB11_444:
	movq	%rbp, %r14
	movq	32(%rsp), %rdi
	movzbl	%dil, %edi
	orq	%rsi, %rdi
	movq	%rdi, 32(%rsp)
	movq	%rdx, %r9
.LBB11_445:
	cmpb	$1, %cl
	je	.LBB11_466
	andb	$1, %bl
	movq	56(%rsp), %r11
	movq	208(%rsp), %rsi
.LBB11_447:
	movl	%r13d, %eax
	addq	%rax, %r15
	incq	%r15
	movl	%ebx, %eax
	movq	%rax, 72(%rsp)
	cmpq	%r12, %r15
	jb	.LBB11_417
	jmp	.LBB11_458
.LBB11_448:
	movabsq	$274877906972, %rax
	btq	%rdi, %rax
	jb	.LBB11_451
.LBB11_449:
	leaq	.Lstatic.0(%rip), %rax
	movzbl	(%rdi,%rax), %eax
	andb	$-16, %al
	movq	32(%rsp), %rdx
	cmpq	$1, %rdx
	movl	$2, %ecx
	sbbq	$0, %rcx
	cmpb	$16, %al
	cmoveq	%rcx, %rdx
	movq	%rdx, 32(%rsp)
	jmp	.LBB11_451
.LBB11_450:
	movq	%rdx, %r14
	movq	120(%rsp), %r15
	movq	64(%rsp), %rdi
.LBB11_451:
	cmpl	$17, %edi
	sete	%bl
	jmp	.LBB11_454
.LBB11_452:
	movb	$1, %bl
.LBB11_453:
	movq	%rdx, %r14
	movq	120(%rsp), %r15
.LBB11_454:
	movq	248(%rsp), %r10
	orb	72(%rsp), %bl
	andb	$1, %bl
	jmp	.LBB11_447
.LBB11_455:
	leaq	.Lstatic.0(%rip), %rax
	movzbl	(%r14,%rax), %eax
	andb	$-16, %al
	movq	32(%rsp), %r8
	cmpq	$1, %r8
	movl	$2, %edx
	sbbq	$0, %rdx
	cmpb	$16, %al
	cmoveq	%rdx, %r8
	movq	%r8, 32(%rsp)
	jmp	.LBB11_442
.LBB11_456:
	movq	72(%rsp), %rbx
	movq	48(%rsp), %r9
	jmp	.LBB11_458
.LBB11_457:
	movq	72(%rsp), %rbx
.LBB11_458:
	movq	32(%rsp), %rcx
	shrq	$8, %rcx
	movl	$0, 131(%rsp)
	movl	$0, 128(%rsp)
	xorl	%esi, %esi
	xorl	%eax, %eax
.LBB11_459:
	movq	%r10, %r8
.LBB11_460:
	movl	128(%rsp), %edx
	movl	131(%rsp), %edi
	movl	%edi, 139(%rsp)
	movl	%edx, 136(%rsp)
	movq	%r8, 64(%rsp)
.LBB11_461:
	movl	136(%rsp), %edx
	movl	139(%rsp), %edi
.LBB11_462:
	movl	%edi, 219(%rsp)
	movl	%edx, 216(%rsp)
.LBB11_463:
	movb	%sil, (%r14)
	movb	%al, 1(%r14)
	movq	64(%rsp), %rax
	movq	%rax, 8(%r14)
	movq	32(%rsp), %rax
	movb	%al, 16(%r14)
	movl	%ecx, 17(%r14)
	movq	%rcx, %rax
	shrq	$48, %rax
	movb	%al, 23(%r14)
	shrq	$32, %rcx
	movw	%cx, 21(%r14)
	movq	%r9, 24(%r14)
	movb	%bl, 32(%r14)
	movl	216(%rsp), %eax
	movl	219(%rsp), %ecx
	movl	%eax, 33(%r14)
	movl	%ecx, 36(%r14)
	addq	$536, %rsp
	popq	%rbx
	popq	%r12
	popq	%r13
	popq	%r14
	popq	%r15
	popq	%rbp
	retq
.LBB11_402:
	movq	%rbx, %r9
	andq	$-32, %r9
	movq	64(%rsp), %rdi
	addq	%rax, %rdi
	addq	$16, %rdi
	leaq	(%r15,%rax), %r8
	addq	$16, %r8
	xorl	%r10d, %r10d
.LBB11_403:
	movupd	-16(%r8,%r10), %xmm0
	movupd	(%r8,%r10), %xmm1
	movupd	%xmm0, -16(%rdi,%r10)
	movupd	%xmm1, (%rdi,%r10)
	addq	$32, %r10
	cmpq	%r10, %r9
	jne	.LBB11_403
	cmpq	%r9, %rbx
	je	.LBB11_415
	testb	$28, %bl
	je	.LBB11_409
.LBB11_406:
	movq	%r9, %rdi
	movq	%rbx, %r9
	andq	$-4, %r9
.LBB11_407:
	movl	(%rcx,%rdi), %r8d
	movl	%r8d, (%rdx,%rdi)
	addq	$4, %rdi
	cmpq	%rdi, %r9
	jne	.LBB11_407
	cmpq	%r9, %rbx
	je	.LBB11_415
	jmp	.LBB11_409
.LBB11_464:
	movq	%rdi, %rdx
.LBB11_465:
	movb	$1, %sil
	xorl	%ecx, %ecx
	xorl	%r9d, %r9d
	xorl	%ebx, %ebx
	movq	%rdx, %r8
	jmp	.LBB11_460
.LBB11_466:
	movl	$0, 131(%rsp)
	movl	$0, 128(%rsp)
	movb	$1, %sil
	xorl	%ecx, %ecx
	xorl	%r9d, %r9d
	xorl	%ebx, %ebx
	jmp	.LBB11_459
.LBB11_467:
	movq	40(%rsp), %r9
	andl	$31, %r9d
	jmp	.LBB11_86
.LBB11_468:
	movl	$0, 227(%rsp)
	movl	$0, 224(%rsp)
	movq	%r8, %r13
.LBB11_469:
	movl	224(%rsp), %ecx
	movl	227(%rsp), %edx
	movl	%ecx, 200(%rsp)
	movl	%edx, 203(%rsp)
	movb	$1, %sil
	xorl	%ecx, %ecx
	xorl	%r9d, %r9d
	xorl	%ebx, %ebx
	movq	%r13, 64(%rsp)
	jmp	.LBB11_271
.LBB11_470:
	movl	%ecx, %r9d
	andl	$31, %r9d
	leaq	-1(%r9), %rdx
	movq	%r9, %r10
	andq	$3, %r10
	jne	.LBB11_143
	jmp	.LBB11_146
.LBB11_471:
	movq	%rdx, %r8
	andq	$-32, %r8
	leaq	(%r15,%r11), %rdi
	addq	$-16, %rdi
	movq	%r8, %r9
.LBB11_472:
	movupd	-16(%rdi), %xmm0
	movupd	(%rdi), %xmm1
	movupd	%xmm1, (%rdi,%r13)
	movupd	%xmm0, -16(%rdi,%r13)
	addq	$-32, %rdi
	addq	$-32, %r9
	jne	.LBB11_472
	cmpq	%r8, %rdx
	je	.LBB11_499
	testb	$24, %dl
	je	.LBB11_489
.LBB11_475:
	movq	%rdx, %rdi
	andq	$-8, %rdi
	movl	%edx, %r9d
	andl	$7, %r9d
	subq	%r8, %r15
	leaq	(%r15,%r11), %rbx
	addq	$-8, %rbx
	subq	%rdi, %r8
.LBB11_476:
	movq	(%rbx), %r14
	movq	%r14, (%rbx,%r13)
	addq	$-8, %rbx
	addq	$8, %r8
	jne	.LBB11_476
	cmpq	%rdi, %rdx
	jne	.LBB11_491
	jmp	.LBB11_499
.LBB11_478:
	movq	%rdx, %r14
	andq	$-32, %r14
	movq	40(%rsp), %rax
	leaq	(%rax,%r11), %rdi
	addq	$16, %rdi
	leaq	(%rcx,%r11), %r8
	addq	$16, %r8
	xorl	%r11d, %r11d
.LBB11_479:
	movupd	-16(%r8,%r11), %xmm0
	movupd	(%r8,%r11), %xmm1
	movupd	%xmm0, -16(%rdi,%r11)
	movupd	%xmm1, (%rdi,%r11)
	addq	$32, %r11
	cmpq	%r11, %r14
	jne	.LBB11_479
	cmpq	%r14, %rdx
	je	.LBB11_499
	testb	$28, %dl
	je	.LBB11_498
.LBB11_482:
	movq	%r14, %rdi
	movq	%rdx, %r14
	andq	$-4, %r14
.LBB11_483:
	movl	(%r9,%rdi), %r8d
	movl	%r8d, (%rbx,%rdi)
	addq	$4, %rdi
	cmpq	%rdi, %r14
	jne	.LBB11_483
	jmp	.LBB11_497
.LBB11_484:
	andl	$31, %r13d
	movq	%r13, %rdx
	jmp	.LBB11_119
.LBB11_485:
	movl	%ebx, %edx
	andl	$31, %edx
	leaq	-1(%rdx), %rdi
	movq	%rdx, %r8
	andq	$3, %r8
	jne	.LBB11_397
	jmp	.LBB11_399
.LBB11_486:
	movzbl	241(%rsp), %eax
	movzbl	242(%rsp), %ecx
	movq	%rcx, 32(%rsp)
	movq	80(%rsp), %r14
	movq	72(%rsp), %rdx
	jmp	.LBB11_465
.LBB11_487:
	movzbl	241(%rsp), %eax
	movzbl	242(%rsp), %ecx
	movq	%rcx, 32(%rsp)
	movl	$0, 128(%rsp)
	movl	$0, 131(%rsp)
	movb	$1, %sil
	xorl	%ecx, %ecx
	xorl	%r9d, %r9d
	xorl	%ebx, %ebx
	movq	80(%rsp), %r14
	movq	120(%rsp), %r8
	jmp	.LBB11_460
.LBB11_488:
	movzbl	241(%rsp), %eax
	movzbl	242(%rsp), %ecx
	movq	%rcx, 32(%rsp)
	movl	$0, 224(%rsp)
	movl	$0, 227(%rsp)
	movq	80(%rsp), %r14
	jmp	.LBB11_469
.LBB11_489:
	andl	$31, %edx
.LBB11_490:
	movq	%rdx, %r9
.LBB11_491:
	movq	%rbp, %rax
	leaq	-1(%r9), %rdx
	movq	%r9, %rdi
	andq	$3, %rdi
	je	.LBB11_494
	movq	40(%rsp), %r8
	addq	%r11, %r8
	decq	%r8
	leaq	(%rcx,%r11), %rbx
	decq	%rbx
.LBB11_493:
	movzbl	(%rbx,%r9), %ebp
	movb	%bpl, (%r8,%r9)
	decq	%r9
	decq	%rdi
	jne	.LBB11_493
.LBB11_494:
	cmpq	$3, %rdx
	movq	%rax, %rbp
	jb	.LBB11_499
	movq	40(%rsp), %rax
	leaq	(%rax,%r11), %rdx
	decq	%rdx
	leaq	(%rcx,%r11), %rdi
	decq	%rdi
	movq	%r9, %r8
.LBB11_496:
	movzbl	(%rdi,%r9), %r11d
	movb	%r11b, (%rdx,%r9)
	movzbl	-1(%rdi,%r9), %r11d
	movb	%r11b, -1(%rdx,%r9)
	movzbl	-2(%rdi,%r9), %r11d
	movb	%r11b, -2(%rdx,%r9)
	addq	$-4, %r8
	movzbl	-3(%rdi,%r9), %r11d
	movb	%r11b, -3(%rdx,%r9)
	movq	%r8, %r9
	jne	.LBB11_496
	jmp	.LBB11_499
.LBB11_497:
	cmpq	%r14, %rdx
	je	.LBB11_499
.LBB11_498:
	movzbl	(%r9,%r14), %edi
	movb	%dil, (%rbx,%r14)
	incq	%r14
	jmp	.LBB11_497
.LBB11_499:
	movq	56(%rsp), %r11
	movq	(%r11), %r9
	movq	16(%r11), %r15
	movq	32(%r11), %r10
	movq	40(%rsp), %rax
	cmpq	%rax, %rcx
	jbe	.LBB11_509
	testq	%r13, %r13
	movq	80(%rsp), %r14
	movq	72(%rsp), %rdx
	je	.LBB11_512
	leaq	1(%rcx), %rdi
	movq	%r13, %rbx
	testb	$1, %r13b
	je	.LBB11_503
	leaq	-1(%r13), %rbx
	addq	%r13, %rax
	decq	%rax
	movzbl	(%r9,%rax), %r8d
	movq	40(%rsp), %rdx
	movb	%r8b, -1(%r9,%rdx)
	movzbl	(%r15,%rax), %r8d
	movq	40(%rsp), %rdx
	movb	%r8b, -1(%r15,%rdx)
	leaq	(%rax,%rax,2), %rax
	movq	40(%rsp), %rdx
	leaq	-3(%rdx,%rdx,2), %r8
	movupd	(%r10,%rax,8), %xmm0
	movq	16(%r10,%rax,8), %rax
	movq	%rax, 16(%r10,%r8,8)
	movupd	%xmm0, (%r10,%r8,8)
	movq	40(%rsp), %rax
.LBB11_503:
	movq	%r13, 104(%rsp)
	cmpq	%rdi, %rax
	je	.LBB11_506
	leaq	(%rcx,%rbx), %rax
	shlq	$3, %rax
	leaq	(%rax,%rax,2), %r8
	addq	$-48, %r10
	leaq	(%r15,%rcx), %r14
	decq	%r14
	leaq	(%r9,%rcx), %r13
	decq	%r13
	movq	40(%rsp), %rdx
	leaq	(%rdx,%rbx), %rax
	shlq	$3, %rax
	movq	%r15, %rdi
	leaq	(%rax,%rax,2), %r15
	leaq	(%rdi,%rdx), %r11
	decq	%r11
	addq	%rdx, %r9
	decq	%r9
	xorl	%ebp, %ebp
.LBB11_505:
	movzbl	(%r9,%rbx), %eax
	movb	%al, (%r13,%rbx)
	movzbl	(%r11,%rbx), %eax
	movb	%al, (%r14,%rbx)
	movups	24(%r10,%r15), %xmm0
	movq	40(%r10,%r15), %rax
	movq	%rax, 40(%r10,%r8)
	movups	%xmm0, 24(%r10,%r8)
	movzbl	-1(%r9,%rbx), %eax
	movb	%al, -1(%r13,%rbx)
	movzbl	-1(%r11,%rbx), %eax
	movb	%al, -1(%r14,%rbx)
	movupd	(%r10,%r15), %xmm0
	movq	16(%r10,%r15), %rax
	movq	%rax, 16(%r10,%r8)
	movupd	%xmm0, (%r10,%r8)
	addq	$2, %rbp
	addq	$-48, %r10
	addq	$-2, %r14
	addq	$-2, %r13
	addq	$-2, %r11
	addq	$-2, %r9
	cmpq	%rbp, %rbx
	jne	.LBB11_505
.LBB11_506:
	movq	56(%rsp), %r11
	movq	48(%r11), %rdx
	movq	104(%rsp), %r10
	cmpq	$8, %r10
	jae	.LBB11_514
	movq	%r10, %r9
	movq	80(%rsp), %r14
	movq	592(%rsp), %rbp
.LBB11_508:
	movq	88(%rsp), %r8
	jmp	.LBB11_539
.LBB11_509:
	testq	%r13, %r13
	movq	80(%rsp), %r14
	movq	72(%rsp), %rdx
	movq	88(%rsp), %r8
	movq	64(%rsp), %rdi
	je	.LBB11_513
	movq	%r15, %rdx
	leaq	1(%rcx), %rbx
	movq	40(%rsp), %rax
	cmpq	%rbx, %rax
	jne	.LBB11_516
	movq	%rax, %r15
	xorl	%r8d, %r8d
	jmp	.LBB11_519
.LBB11_512:
	movq	$0, 40(%rsp)
	movq	%r12, 120(%rsp)
	movq	48(%rsp), %r10
	movq	96(%rsp), %rbx
	jmp	.LBB11_533
.LBB11_513:
	movq	$0, 40(%rsp)
	movq	%r12, 120(%rsp)
	movq	48(%rsp), %r10
	movq	96(%rsp), %rbx
	jmp	.LBB11_322
.LBB11_514:
	cmpq	$32, %r10
	movq	80(%rsp), %r14
	movq	592(%rsp), %rbp
	jae	.LBB11_524
	xorl	%r8d, %r8d
	jmp	.LBB11_535
.LBB11_516:
	movq	%r13, 104(%rsp)
	movq	%r13, %r14
	andq	$-2, %r14
	leaq	(,%rax,8), %rdi
	leaq	(%rdi,%rdi,2), %r15
	leaq	(%rdx,%rax), %r13
	incq	%r13
	leaq	1(%r9,%rax), %rbp
	leaq	(,%rcx,8), %rdi
	movq	%r9, %rax
	leaq	(%rdi,%rdi,2), %r9
	leaq	(%rdx,%rbx), %r11
	movq	%rax, 120(%rsp)
	addq	%rax, %rbx
	xorl	%r8d, %r8d
	movq	%r10, %rdi
.LBB11_517:
	movzbl	-1(%rbp,%r8), %eax
	movb	%al, -1(%rbx,%r8)
	movzbl	-1(%r13,%r8), %eax
	movb	%al, -1(%r11,%r8)
	movups	(%rdi,%r15), %xmm0
	movq	16(%rdi,%r15), %rax
	movq	%rax, 16(%rdi,%r9)
	movups	%xmm0, (%rdi,%r9)
	movzbl	(%rbp,%r8), %eax
	movb	%al, (%rbx,%r8)
	movzbl	(%r13,%r8), %eax
	movb	%al, (%r11,%r8)
	movupd	24(%rdi,%r15), %xmm0
	movq	40(%rdi,%r15), %rax
	movq	%rax, 40(%rdi,%r9)
	movupd	%xmm0, 24(%rdi,%r9)
	addq	$2, %r8
	addq	$48, %rdi
	cmpq	%r8, %r14
	jne	.LBB11_517
	movq	104(%rsp), %r13
	testb	$1, %r13b
	movq	80(%rsp), %r14
	movq	592(%rsp), %rbp
	movq	56(%rsp), %r11
	movq	40(%rsp), %r15
	movq	120(%rsp), %r9
	je	.LBB11_520
.LBB11_519:
	leaq	(%r8,%r15), %rax
	movzbl	(%r9,%rax), %edi
	addq	%rcx, %r8
	movb	%dil, (%r9,%r8)
	movzbl	(%rdx,%rax), %edi
	movb	%dil, (%rdx,%r8)
	leaq	(%rax,%rax,2), %rax
	leaq	(%r8,%r8,2), %rdi
	movupd	(%r10,%rax,8), %xmm0
	movq	16(%r10,%rax,8), %rax
	movq	%rax, 16(%r10,%rdi,8)
	movupd	%xmm0, (%r10,%rdi,8)
.LBB11_520:
	movq	48(%r11), %rdi
	leaq	(%rdi,%r15), %rdx
	leaq	(%rdi,%rcx), %r9
	cmpq	$4, %r13
	movq	96(%rsp), %rbx
	jae	.LBB11_522
	xorl	%r8d, %r8d
	movq	48(%rsp), %r10
	movq	64(%rsp), %rdi
	jmp	.LBB11_547
.LBB11_522:
	cmpq	$32, %r13
	jae	.LBB11_528
	xorl	%r8d, %r8d
	movq	48(%rsp), %r10
	movq	64(%rsp), %rdi
	jmp	.LBB11_544
.LBB11_524:
	movq	%r10, %r8
	andq	$-32, %r8
	movq	40(%rsp), %rax
	leaq	(%rdx,%rax,2), %rdi
	subq	%rcx, %rdi
	addq	$-16, %rdi
	leaq	(%rax,%rdx), %r9
	addq	$-16, %r9
	movq	%r8, %r11
	negq	%r11
	xorl	%ebx, %ebx
.LBB11_525:
	movupd	-16(%rdi,%rbx), %xmm0
	movupd	(%rdi,%rbx), %xmm1
	movupd	%xmm1, (%r9,%rbx)
	movupd	%xmm0, -16(%r9,%rbx)
	addq	$-32, %rbx
	cmpq	%rbx, %r11
	jne	.LBB11_525
	cmpq	%r8, %r10
	movq	56(%rsp), %r11
	jne	.LBB11_534
	movq	$0, 40(%rsp)
	movq	%r12, 120(%rsp)
	movq	48(%rsp), %r10
	movq	96(%rsp), %rbx
	jmp	.LBB11_532
.LBB11_528:
	movq	%r13, %r8
	andq	$-32, %r8
	addq	%rdi, %rcx
	addq	$16, %rcx
	addq	%r15, %rdi
	addq	$16, %rdi
	xorl	%r10d, %r10d
.LBB11_529:
	movupd	-16(%rdi,%r10), %xmm0
	movupd	(%rdi,%r10), %xmm1
	movupd	%xmm0, -16(%rcx,%r10)
	movupd	%xmm1, (%rcx,%r10)
	addq	$32, %r10
	cmpq	%r10, %r8
	jne	.LBB11_529
	cmpq	%r8, %r13
	jne	.LBB11_543
	movq	$0, 40(%rsp)
	movq	%r12, 120(%rsp)
	movq	48(%rsp), %r10
.LBB11_532:
	movq	72(%rsp), %rdx
.LBB11_533:
	movq	88(%rsp), %r8
	movq	64(%rsp), %rdi
	jmp	.LBB11_322
.LBB11_534:
	testb	$24, %r10b
	je	.LBB11_546
.LBB11_535:
	movq	%r10, %rdi
	andq	$-8, %rdi
	movl	%r10d, %r9d
	andl	$7, %r9d
	movq	40(%rsp), %rax
	leaq	(%rdx,%rax,2), %r11
	subq	%rcx, %r11
	addq	$-8, %r11
	negq	%r8
	leaq	(%rax,%rdx), %rbx
	addq	$-8, %rbx
	movq	%rdi, %r14
	negq	%r14
.LBB11_536:
	movq	(%r11,%r8), %rax
	movq	%rax, (%rbx,%r8)
	addq	$-8, %r8
	cmpq	%r8, %r14
	jne	.LBB11_536
	cmpq	%rdi, %r10
	movq	80(%rsp), %r14
	movq	56(%rsp), %r11
	movq	88(%rsp), %r8
	jne	.LBB11_539
	movq	$0, 40(%rsp)
	movq	%r12, 120(%rsp)
	movq	48(%rsp), %r10
	movq	96(%rsp), %rbx
	jmp	.LBB11_542
.LBB11_539:
	leaq	(%rcx,%rdx), %rax
	decq	%rax
	movq	40(%rsp), %rcx
	addq	%rdx, %rcx
	decq	%rcx
	movq	%r9, %rdx
	movq	96(%rsp), %rbx
.LBB11_540:
	decq	%rdx
	movzbl	(%rcx,%r9), %edi
	movb	%dil, (%rax,%r9)
	movq	%rdx, %r9
	jne	.LBB11_540
	movq	$0, 40(%rsp)
	movq	%r12, 120(%rsp)
	movq	48(%rsp), %r10
.LBB11_542:
	movq	72(%rsp), %rdx
	movq	64(%rsp), %rdi
	jmp	.LBB11_322
.LBB11_543:
	testb	$28, %r13b
	movq	48(%rsp), %r10
	movq	64(%rsp), %rdi
	je	.LBB11_547
.LBB11_544:
	movq	%r8, %rcx
	movq	%r13, %r8
	andq	$-4, %r8
.LBB11_545:
	movl	(%rdx,%rcx), %eax
	movl	%eax, (%r9,%rcx)
	addq	$4, %rcx
	cmpq	%rcx, %r8
	jne	.LBB11_545
	jmp	.LBB11_548
.LBB11_546:
	andl	$31, %r10d
	movq	%r10, %r9
	jmp	.LBB11_508
.LBB11_547:
	movzbl	(%rdx,%r8), %eax
	movb	%al, (%r9,%r8)
	incq	%r8
.LBB11_548:
	cmpq	%r8, %r13
	jne	.LBB11_547
	movq	$0, 40(%rsp)
	movq	%r12, 120(%rsp)
	jmp	.LBB11_59
.Lfunc_end11:
	.size	"reading::walk::modify", .Lfunc_end11-"reading::walk::modify"
	.section	".rodata.reading::walk::modify","a",@progbits
	.p2align	2, 0x0
.LJTI11_0:
	.long	.LBB11_247-.LJTI11_0
	.long	.LBB11_262-.LJTI11_0
	.long	.LBB11_247-.LJTI11_0
	.long	.LBB11_247-.LJTI11_0
	.long	.LBB11_259-.LJTI11_0
.LJTI11_1:
	.long	.LBB11_20-.LJTI11_1
	.long	.LBB11_57-.LJTI11_1
	.long	.LBB11_21-.LJTI11_1
	.long	.LBB11_60-.LJTI11_1
.LJTI11_2:
	.long	.LBB11_347-.LJTI11_2
	.long	.LBB11_359-.LJTI11_2
	.long	.LBB11_347-.LJTI11_2
	.long	.LBB11_347-.LJTI11_2
	.long	.LBB11_357-.LJTI11_2
.LJTI11_3:
	.long	.LBB11_440-.LJTI11_3
	.long	.LBB11_452-.LJTI11_3
	.long	.LBB11_440-.LJTI11_3
	.long	.LBB11_440-.LJTI11_3
	.long	.LBB11_450-.LJTI11_3

	.section	.rodata.cst8,"aM",@progbits,8
	.p2align	3, 0x0
.LCPI12_0:
	.quad	0x4000000000000000
.LCPI12_1:
	.quad	0x3ff0000000000000
.LCPI12_2:
	.quad	0xc330000000000000
.LCPI12_3:
	.quad	0x4330000000000000
.LCPI12_4:
	.quad	0xbcb0000000000000
.LCPI12_5:
	.quad	0x3cb0000000000000
.LCPI12_6:
	.quad	0x3fe0000000000000
.LCPI12_7:
	.quad	0xbff0000000000000
.LCPI12_8:
	.quad	0xc010000000000000
.LCPI12_9:
	.quad	0x3ff0000000000001
	.section	.rodata.cst16,"aM",@progbits,16
	.p2align	4, 0x0
.LCPI12_10:
	.quad	0x8000000000000000
	.quad	0x8000000000000000
	.section	".text.algebra::lists::make_of","ax",@progbits
	.p2align	4
	.type	"algebra::lists::make_of",@function
"algebra::lists::make_of":
	pushq	%rbp
	pushq	%r15
	pushq	%r14
	pushq	%r13
	pushq	%r12
	pushq	%rbx
	subq	$712, %rsp
	movq	%rdi, %r13
	movq	8(%rcx), %r10
	movzbl	16(%rcx), %ebp
	cmpb	$1, (%rcx)
	jne	.LBB12_2
	movzbl	1(%rcx), %edx
	cmpb	$3, %sil
	setne	%sil
	orb	%bpl, %sil
	cmpb	$10, %dl
	movl	$9, %eax
	cmovael	%edx, %eax
	xorl	%ecx, %ecx
	cmpb	$9, %dl
	movq	%r10, %rdi
	cmovbq	%rcx, %rdi
	testb	$1, %sil
	cmovnel	%edx, %eax
	cmoveq	%rdi, %r10
	movb	$1, %r14b
	xorl	%edx, %edx
	jmp	.LBB12_290
.LBB12_2:
	movq	%r8, %r12
	movl	%edx, 92(%rsp)
	movq	%r9, 80(%rsp)
	movq	24(%rcx), %rax
	movq	%rax, 704(%rsp)
	movzbl	%sil, %eax
	leaq	.LJTI12_0(%rip), %rdx
	movslq	(%rdx,%rax,4), %rax
	addq	%rdx, %rax
	jmpq	*%rax
.LBB12_3:
	movq	768(%rsp), %rax
	shrq	$5, %rax
	cmpq	%r10, %rax
	jae	.LBB12_100
	movb	$16, %al
	movb	$1, %r14b
	jmp	.LBB12_288
.LBB12_5:
	movb	%bpl, 15(%rsp)
	movq	%r13, 688(%rsp)
	xorpd	%xmm0, %xmm0
	movapd	%xmm0, 624(%rsp)
	movapd	%xmm0, 640(%rsp)
	movapd	%xmm0, 656(%rsp)
	movapd	%xmm0, 672(%rsp)
	movq	(%r12), %rax
	movb	$1, 64(%rax)
	movq	16(%r12), %rax
	movb	$0, 64(%rax)
	movq	32(%r12), %rax
	movabsq	$4607182418800017408, %rcx
	movq	%rcx, 1536(%rax)
	movq	%rcx, 1544(%rax)
	movq	$0, 1552(%rax)
	subq	$-128, %r10
	cmpq	$129, %r10
	jb	.LBB12_97
	movsd	.LCPI12_1(%rip), %xmm0
	movsd	%xmm0, 696(%rsp)
	xorps	%xmm3, %xmm3
	movl	$128, %r9d
	xorl	%ebp, %ebp
	movq	%r10, 32(%rsp)
	movq	%r12, 48(%rsp)
	movsd	%xmm3, 40(%rsp)
	jmp	.LBB12_20
.LBB12_7:
	movb	$1, %r14b
	testb	$1, 17(%rcx)
	je	.LBB12_99
	movb	%bpl, 15(%rsp)
	movq	(%r12), %rbx
	movq	16(%r12), %r15
	movq	32(%r12), %r12
	leaq	144(%rsp), %rdi
	movl	$432, %edx
	xorl	%esi, %esi
	movq	%r10, %rbp
	callq	memset@PLT
	subq	$-128, %rbp
	cmpq	$129, %rbp
	jb	.LBB12_104
	movsd	.LCPI12_0(%rip), %xmm11
	movl	$128, %eax
	jmp	.LBB12_11
	.p2align	4
.LBB12_10:
	movzbl	(%r15,%rax), %ecx
	addq	%rcx, %rax
	incq	%rax
	cmpq	%rbp, %rax
	jae	.LBB12_111
.LBB12_11:
	leaq	(,%rax,8), %rcx
	leaq	(%rcx,%rcx,2), %rcx
	movsd	(%r12,%rcx), %xmm0
	ucomisd	%xmm11, %xmm0
	jne	.LBB12_10
	jp	.LBB12_10
	cmpb	$1, (%rbx,%rax)
	jne	.LBB12_10
	movsd	8(%r12,%rcx), %xmm4
	movsd	16(%r12,%rcx), %xmm1
	jmp	.LBB12_112
.LBB12_14:
	xorpd	%xmm0, %xmm0
	movapd	%xmm0, 640(%rsp)
	movapd	%xmm0, 112(%rsp)
	leaq	640(%rsp), %rdi
	movl	$128, %edx
	movq	%r12, %rsi
	movq	%r10, %rcx
	xorl	%r8d, %r8d
	callq	"calculus::derivative::expr_deriv"
	cmpb	$1, 640(%rsp)
	jne	.LBB12_103
	movb	$1, %r14b
	movzbl	641(%rsp), %eax
	jmp	.LBB12_288
.LBB12_16:
	movq	32(%rsp), %r10
.LBB12_17:
	movq	24(%rsp), %r9
	movq	16(%rsp), %r11
.LBB12_18:
	testb	%bl, %bl
	jne	.LBB12_142
.LBB12_19:
	addq	%r11, %r9
	movq	%rcx, %rbp
	cmpq	%r10, %r9
	jae	.LBB12_98
.LBB12_20:
	movq	(%r12), %rbx
	movq	16(%r12), %r8
	movq	32(%r12), %r13
	leaq	(,%r9,8), %rax
	leaq	(%rax,%rax,2), %rax
	movdqu	8(%r13,%rax), %xmm4
	movzbl	(%rbx,%r9), %edx
	movzbl	(%r8,%r9), %r11d
	incq	%r9
	cmpq	$1, %rdx
	movq	%r8, 64(%rsp)
	jne	.LBB12_26
	movsd	(%r13,%rax), %xmm0
	addsd	.LCPI12_1(%rip), %xmm0
	movapd	%xmm0, %xmm1
	ucomisd	%xmm3, %xmm1
	jne	.LBB12_40
	jp	.LBB12_40
	movq	%r11, 16(%rsp)
	movq	%r9, 24(%rsp)
	movapd	%xmm4, %xmm0
	unpckhpd	%xmm4, %xmm0
	movq	8(%r12), %rax
	movq	24(%r12), %rcx
	movq	40(%r12), %rdx
	movq	%rbx, 56(%rsp)
	movq	%rbx, 144(%rsp)
	movq	%rax, 152(%rsp)
	movq	%r8, 160(%rsp)
	movq	%rcx, 168(%rsp)
	movq	%r13, 176(%rsp)
	movq	%rdx, 184(%rsp)
	movw	$259, 112(%rsp)
	leaq	114(%rsp), %rax
	movw	$0, 4(%rax)
	movl	$0, (%rax)
	movabsq	$4613303445314885481, %rax
	movq	%rax, 120(%rsp)
	movaps	%xmm4, 96(%rsp)
	movupd	%xmm4, 128(%rsp)
	testq	%rbp, %rbp
	movapd	%xmm0, 576(%rsp)
	je	.LBB12_73
	xorl	%r14d, %r14d
	.p2align	4
.LBB12_24:
	leaq	(,%r14,8), %rax
	leaq	(%rax,%rax,2), %rbx
	movsd	16(%r13,%rbx), %xmm0
	movq	56(%rsp), %rax
	movzbl	(%rax,%r14), %eax
	movzbl	(%r8,%r14), %r12d
	movb	%al, 592(%rsp)
	movb	%r12b, 593(%rsp)
	leaq	594(%rsp), %rax
	movw	$0, 4(%rax)
	movl	$0, (%rax)
	movupd	(%r13,%rbx), %xmm1
	movupd	%xmm1, 600(%rsp)
	movsd	%xmm0, 616(%rsp)
	leaq	1(%r14), %r15
	leaq	144(%rsp), %rdi
	leaq	112(%rsp), %rsi
	leaq	592(%rsp), %rcx
	movl	$64, %edx
	movl	$4, %r9d
	movq	%r15, %r8
	callq	"sums::order::cmp_term"
	cmpb	$2, %al
	jne	.LBB12_69
	addq	%r12, %r15
	movq	%r15, %r14
	cmpq	%rbp, %r15
	movq	64(%rsp), %r8
	jb	.LBB12_24
	jmp	.LBB12_74
	.p2align	4
.LBB12_26:
	xorl	%ecx, %ecx
	movb	$1, %r14b
	movb	$6, %al
	cmpb	$5, %dl
	jb	.LBB12_144
	cmpb	$1, %r11b
	jne	.LBB12_144
	leaq	(%r9,%r9,2), %rcx
	movsd	(%r13,%rcx,8), %xmm0
	xorl	%ecx, %ecx
	ucomisd	696(%rsp), %xmm0
	jne	.LBB12_144
	jp	.LBB12_144
	cmpb	$1, (%rbx,%r9)
	jne	.LBB12_144
	movq	%r11, 16(%rsp)
	movq	%r9, 24(%rsp)
	leal	(,%rdx,8), %ecx
	movabsq	$577874754439415559, %rax
	shrq	%cl, %rax
	cmpb	$8, %dl
	movl	$7, %esi
	cmovbl	%eax, %esi
	xorl	%eax, %eax
	cmpq	$5, %rdx
	sete	%al
	movdqa	.LCPI12_10(%rip), %xmm0
	pxor	%xmm4, %xmm0
	movd	%eax, %xmm1
	pshufd	$0, %xmm1, %xmm1
	pslld	$31, %xmm1
	psrad	$31, %xmm1
	pand	%xmm1, %xmm0
	pandn	%xmm4, %xmm1
	por	%xmm0, %xmm1
	movq	8(%r12), %rax
	movq	24(%r12), %rcx
	movq	40(%r12), %rdx
	movq	%rbx, 56(%rsp)
	movq	%rbx, 144(%rsp)
	movq	%rax, 152(%rsp)
	movq	%r8, 160(%rsp)
	movq	%rcx, 168(%rsp)
	movq	%r13, 176(%rsp)
	movq	%rdx, 184(%rsp)
	movl	%esi, 576(%rsp)
	movb	%sil, 112(%rsp)
	movb	$1, 113(%rsp)
	leaq	114(%rsp), %rax
	movq	$0, 6(%rax)
	movq	$0, (%rax)
	movdqa	%xmm1, 96(%rsp)
	movdqu	%xmm1, 128(%rsp)
	testq	%rbp, %rbp
	je	.LBB12_60
	xorl	%r15d, %r15d
	.p2align	4
.LBB12_32:
	leaq	(,%r15,8), %rax
	leaq	(%rax,%rax,2), %rbx
	movq	16(%r13,%rbx), %xmm0
	movq	56(%rsp), %rax
	movzbl	(%rax,%r15), %eax
	movzbl	(%r8,%r15), %r12d
	movb	%al, 592(%rsp)
	movb	%r12b, 593(%rsp)
	leaq	594(%rsp), %rax
	movw	$0, 4(%rax)
	movl	$0, (%rax)
	movdqu	(%r13,%rbx), %xmm1
	movdqu	%xmm1, 600(%rsp)
	movq	%xmm0, 616(%rsp)
	leaq	1(%r15), %r14
	leaq	144(%rsp), %rdi
	leaq	112(%rsp), %rsi
	leaq	592(%rsp), %rcx
	movl	$64, %edx
	movl	$4, %r9d
	movq	%r14, %r8
	callq	"sums::order::cmp_term"
	cmpb	$2, %al
	jne	.LBB12_34
	addq	%r12, %r14
	movq	%r14, %r15
	cmpq	%rbp, %r14
	movq	64(%rsp), %r8
	jb	.LBB12_32
	jmp	.LBB12_61
.LBB12_34:
	movzbl	%al, %eax
	movq	%r15, %r14
	testl	%eax, %eax
	movq	64(%rsp), %r8
	je	.LBB12_61
	movapd	96(%rsp), %xmm0
	subpd	%xmm0, %xmm0
	movapd	%xmm0, %xmm1
	xorl	%ecx, %ecx
	movsd	40(%rsp), %xmm3
	ucomisd	%xmm3, %xmm1
	movb	$14, %al
	jne	.LBB12_85
	jp	.LBB12_85
	unpckhpd	%xmm0, %xmm0
	ucomisd	%xmm3, %xmm0
	movq	48(%rsp), %r12
	jne	.LBB12_72
	jp	.LBB12_72
.LBB12_38:
	movl	$64, %esi
	movl	$1, %edx
	movl	$3, %ecx
	movq	%r8, %rdi
	callq	"sums::order::nests_inside"
	testb	%al, %al
	je	.LBB12_86
	movapd	96(%rsp), %xmm0
	movupd	%xmm0, 8(%r13,%rbx)
	xorl	%ebx, %ebx
	xorl	%eax, %eax
	movq	%rbp, %rcx
	jmp	.LBB12_81
.LBB12_40:
	xorl	%eax, %eax
	testq	%rbp, %rbp
	je	.LBB12_44
	.p2align	4
.LBB12_41:
	cmpb	$1, (%rbx,%rax)
	jne	.LBB12_44
	incq	%rax
	cmpq	%rax, %rbp
	jne	.LBB12_41
	movq	%rbp, %rax
.LBB12_44:
	movapd	%xmm0, %xmm2
	subsd	%xmm0, %xmm2
	movb	$1, %r14b
	ucomisd	%xmm3, %xmm2
	jne	.LBB12_187
	jp	.LBB12_187
	movapd	%xmm0, %xmm2
	unpcklpd	%xmm0, %xmm2
	divpd	%xmm2, %xmm4
	leaq	(%rax,%rax,2), %rcx
	leaq	8(,%rcx,8), %rdi
	.p2align	4
.LBB12_46:
	movq	%rax, %rsi
	movq	%rdi, %rdx
	subq	$1, %rax
	jb	.LBB12_49
	movsd	-32(%r13,%rdx), %xmm2
	ucomisd	%xmm2, %xmm1
	seta	%cl
	incb	%cl
	xorl	%edi, %edi
	ucomisd	%xmm1, %xmm2
	movzbl	%cl, %ecx
	cmoval	%edi, %ecx
	leaq	-24(%rdx), %rdi
	testb	%cl, %cl
	je	.LBB12_46
	movzbl	%cl, %eax
	cmpl	$2, %eax
	jne	.LBB12_82
.LBB12_49:
	movapd	%xmm4, %xmm1
	subpd	%xmm4, %xmm1
	movapd	%xmm1, %xmm2
	xorl	%ecx, %ecx
	ucomisd	%xmm3, %xmm2
	movb	$14, %al
	jne	.LBB12_144
	jp	.LBB12_144
	unpckhpd	%xmm1, %xmm1
	ucomisd	%xmm3, %xmm1
	jne	.LBB12_144
	jp	.LBB12_144
	leaq	1(%rbp), %rcx
	cmpq	$64, %rcx
	ja	.LBB12_212
	cmpq	%rsi, %rbp
	jbe	.LBB12_59
	movl	%ebp, %edi
	subl	%esi, %edi
	leaq	-1(%rbp), %rax
	testb	$1, %dil
	je	.LBB12_55
	movzbl	-1(%rbx,%rbp), %edi
	movb	%dil, (%rbx,%rbp)
	movzbl	-1(%r8,%rbp), %edi
	movb	%dil, (%r8,%rbp)
	leaq	(,%rbp,2), %rdi
	addq	%rbp, %rdi
	movq	-8(%r13,%rdi,8), %r8
	movq	%r8, 16(%r13,%rdi,8)
	movq	64(%rsp), %r8
	movupd	-24(%r13,%rdi,8), %xmm1
	movupd	%xmm1, (%r13,%rdi,8)
	movq	%rax, %rbp
.LBB12_55:
	cmpq	%rsi, %rax
	je	.LBB12_58
	leaq	(,%rbp,2), %rax
	addq	%rbp, %rax
	leaq	(,%rax,8), %rax
	addq	%r13, %rax
	.p2align	4
.LBB12_57:
	movzbl	-1(%rbx,%rbp), %edi
	movb	%dil, (%rbx,%rbp)
	movzbl	-1(%r8,%rbp), %edi
	movb	%dil, (%r8,%rbp)
	movq	-8(%rax), %rdi
	movq	%rdi, 16(%rax)
	movups	-24(%rax), %xmm1
	movups	%xmm1, (%rax)
	movzbl	-2(%rbx,%rbp), %edi
	movb	%dil, -1(%rbx,%rbp)
	movzbl	-2(%r8,%rbp), %edi
	movb	%dil, -1(%r8,%rbp)
	addq	$-2, %rbp
	movq	-32(%rax), %rdi
	movq	%rdi, -8(%rax)
	movupd	-48(%rax), %xmm1
	movupd	%xmm1, -24(%rax)
	addq	$-48, %rax
	cmpq	%rbp, %rsi
	jb	.LBB12_57
.LBB12_58:
	movq	(%r12), %rbx
.LBB12_59:
	movb	$1, (%rbx,%rsi)
	movq	16(%r12), %rax
	movb	$0, (%rax,%rsi)
	movq	32(%r12), %rax
	movsd	%xmm0, -8(%rax,%rdx)
	movupd	%xmm4, (%rax,%rdx)
	jmp	.LBB12_19
.LBB12_60:
	xorl	%r14d, %r14d
.LBB12_61:
	movapd	96(%rsp), %xmm0
	subpd	%xmm0, %xmm0
	movapd	%xmm0, %xmm1
	xorl	%ecx, %ecx
	movsd	40(%rsp), %xmm3
	ucomisd	%xmm3, %xmm1
	movb	$14, %al
	movb	$1, %bl
	jne	.LBB12_79
	jp	.LBB12_79
	unpckhpd	%xmm0, %xmm0
	ucomisd	%xmm3, %xmm0
	movq	48(%rsp), %r12
	jne	.LBB12_16
	jp	.LBB12_16
	movl	$64, %esi
	movl	$1, %edx
	movl	$3, %ecx
	movq	%r8, %rdi
	callq	"sums::order::nests_inside"
	testb	%al, %al
	je	.LBB12_80
	leaq	2(%rbp), %rcx
	cmpq	$64, %rcx
	movq	32(%rsp), %r10
	movq	24(%rsp), %r9
	movq	16(%rsp), %r11
	ja	.LBB12_78
	cmpq	%rbp, %r14
	jae	.LBB12_92
	leaq	(,%rbp,2), %rax
	addq	%rbp, %rax
	leaq	24(,%rax,8), %rax
	addq	%r13, %rax
	movq	64(%rsp), %rsi
	movq	56(%rsp), %rdi
	movl	576(%rsp), %r8d
	.p2align	4
.LBB12_67:
	movzbl	-1(%rdi,%rbp), %edx
	movb	%dl, 1(%rdi,%rbp)
	movzbl	-1(%rsi,%rbp), %edx
	movb	%dl, 1(%rsi,%rbp)
	decq	%rbp
	movq	-32(%rax), %rdx
	movq	%rdx, 16(%rax)
	movupd	-48(%rax), %xmm0
	movupd	%xmm0, (%rax)
	addq	$-24, %rax
	cmpq	%rbp, %r14
	jb	.LBB12_67
	movq	(%r12), %rax
	movsd	40(%rsp), %xmm3
	jmp	.LBB12_93
.LBB12_69:
	movzbl	%al, %eax
	movq	%r14, %r15
	testl	%eax, %eax
	movq	64(%rsp), %r8
	je	.LBB12_74
	movapd	96(%rsp), %xmm0
	subsd	%xmm0, %xmm0
	xorl	%ecx, %ecx
	movsd	40(%rsp), %xmm3
	ucomisd	%xmm3, %xmm0
	movb	$14, %al
	jne	.LBB12_85
	jp	.LBB12_85
	movapd	576(%rsp), %xmm0
	subsd	%xmm0, %xmm0
	ucomisd	%xmm3, %xmm0
	movq	48(%rsp), %r12
	jne	.LBB12_72
	jnp	.LBB12_38
.LBB12_72:
	movq	32(%rsp), %r10
	jmp	.LBB12_87
.LBB12_73:
	xorl	%r15d, %r15d
.LBB12_74:
	movapd	96(%rsp), %xmm0
	subsd	%xmm0, %xmm0
	xorl	%ecx, %ecx
	movsd	40(%rsp), %xmm3
	ucomisd	%xmm3, %xmm0
	movb	$14, %al
	movb	$1, %bl
	jne	.LBB12_79
	jp	.LBB12_79
	movapd	576(%rsp), %xmm0
	subsd	%xmm0, %xmm0
	ucomisd	%xmm3, %xmm0
	movq	48(%rsp), %r12
	jne	.LBB12_16
	jp	.LBB12_16
	movl	$64, %esi
	movl	$1, %edx
	movl	$3, %ecx
	movq	%r8, %rdi
	callq	"sums::order::nests_inside"
	testb	%al, %al
	je	.LBB12_80
	leaq	2(%rbp), %rcx
	cmpq	$64, %rcx
	movq	32(%rsp), %r10
	movq	24(%rsp), %r9
	movq	16(%rsp), %r11
	jbe	.LBB12_88
.LBB12_78:
	movb	$11, %al
	xorl	%ecx, %ecx
	movsd	40(%rsp), %xmm3
	jmp	.LBB12_18
.LBB12_79:
	movq	32(%rsp), %r10
	movq	48(%rsp), %r12
	jmp	.LBB12_17
.LBB12_80:
	movb	$12, %al
	xorl	%ecx, %ecx
.LBB12_81:
	movq	32(%rsp), %r10
	movsd	40(%rsp), %xmm3
	jmp	.LBB12_17
.LBB12_82:
	movapd	%xmm4, %xmm0
	subpd	%xmm4, %xmm0
	movapd	%xmm0, %xmm1
	xorl	%ecx, %ecx
	ucomisd	%xmm3, %xmm1
	movb	$14, %al
	jne	.LBB12_144
	jp	.LBB12_144
	unpckhpd	%xmm0, %xmm0
	ucomisd	%xmm3, %xmm0
	jne	.LBB12_144
	jp	.LBB12_144
	movupd	%xmm4, (%r13,%rdi)
	movq	%rbp, %rcx
	jmp	.LBB12_19
.LBB12_85:
	movq	32(%rsp), %r10
	movq	48(%rsp), %r12
	jmp	.LBB12_87
.LBB12_86:
	movb	$12, %al
	xorl	%ecx, %ecx
	movq	32(%rsp), %r10
	movsd	40(%rsp), %xmm3
.LBB12_87:
	movq	24(%rsp), %r9
	movq	16(%rsp), %r11
	movb	$1, %bl
	jmp	.LBB12_18
.LBB12_88:
	cmpq	%rbp, %r15
	jae	.LBB12_94
	leaq	(,%rbp,2), %rax
	addq	%rbp, %rax
	leaq	24(,%rax,8), %rax
	addq	%r13, %rax
	movq	64(%rsp), %rsi
	movq	56(%rsp), %rdi
	movapd	96(%rsp), %xmm1
	.p2align	4
.LBB12_90:
	movzbl	-1(%rdi,%rbp), %edx
	movb	%dl, 1(%rdi,%rbp)
	movzbl	-1(%rsi,%rbp), %edx
	movb	%dl, 1(%rsi,%rbp)
	decq	%rbp
	movq	-32(%rax), %rdx
	movq	%rdx, 16(%rax)
	movupd	-48(%rax), %xmm0
	movupd	%xmm0, (%rax)
	addq	$-24, %rax
	cmpq	%rbp, %r15
	jb	.LBB12_90
	movq	(%r12), %rax
	movsd	40(%rsp), %xmm3
	jmp	.LBB12_95
.LBB12_92:
	movsd	40(%rsp), %xmm3
	movq	56(%rsp), %rax
	movl	576(%rsp), %r8d
.LBB12_93:
	movb	%r8b, (%rax,%r14)
	movq	16(%r12), %rax
	movb	$1, (%rax,%r14)
	leaq	(,%r14,8), %rax
	leaq	(%rax,%rax,2), %rax
	movq	32(%r12), %rdx
	movq	$0, (%rdx,%rax)
	movapd	96(%rsp), %xmm0
	movupd	%xmm0, 8(%rdx,%rax)
	movq	(%r12), %rdx
	movq	16(%r12), %rsi
	movq	32(%r12), %rdi
	movzbl	64(%rdx), %r8d
	movb	%r8b, 1(%rdx,%r14)
	movzbl	64(%rsi), %edx
	movb	%dl, 1(%rsi,%r14)
	jmp	.LBB12_96
.LBB12_94:
	movsd	40(%rsp), %xmm3
	movq	56(%rsp), %rax
	movapd	96(%rsp), %xmm1
.LBB12_95:
	movb	$3, (%rax,%r15)
	movq	16(%r12), %rax
	movb	$1, (%rax,%r15)
	leaq	(,%r15,8), %rax
	leaq	(%rax,%rax,2), %rax
	movq	32(%r12), %rdx
	movabsq	$4613303445314885481, %rsi
	movq	%rsi, (%rdx,%rax)
	movupd	%xmm1, 8(%rdx,%rax)
	movq	(%r12), %rdx
	movq	16(%r12), %rsi
	movq	32(%r12), %rdi
	movzbl	64(%rdx), %r8d
	movb	%r8b, 1(%rdx,%r15)
	movzbl	64(%rsi), %edx
	movb	%dl, 1(%rsi,%r15)
.LBB12_96:
	movupd	1536(%rdi), %xmm0
	movq	1552(%rdi), %rdx
	movq	%rdx, 40(%rdi,%rax)
	movupd	%xmm0, 24(%rdi,%rax)
	xorl	%ebx, %ebx
	xorl	%eax, %eax
	jmp	.LBB12_18
.LBB12_97:
	xorl	%ecx, %ecx
.LBB12_98:
	movupd	(%r12), %xmm0
	movupd	16(%r12), %xmm1
	movupd	32(%r12), %xmm2
	movapd	%xmm0, 640(%rsp)
	movapd	%xmm1, 656(%rsp)
	movapd	%xmm2, 672(%rsp)
	movq	768(%rsp), %rax
	movq	%rax, (%rsp)
	movzbl	92(%rsp), %esi
	movzbl	15(%rsp), %r8d
	andl	$1, %r8d
	leaq	624(%rsp), %rdi
	leaq	640(%rsp), %rdx
	movq	80(%rsp), %r9
	callq	"algebra::answer::write_sum"
	movzbl	624(%rsp), %r14d
	movzbl	625(%rsp), %eax
	movq	632(%rsp), %rcx
	jmp	.LBB12_144
.LBB12_99:
	movb	$9, %al
	jmp	.LBB12_288
.LBB12_100:
	testq	%r10, %r10
	je	.LBB12_105
	movq	(%r12), %rcx
	movq	16(%r12), %rdx
	movq	32(%r12), %rax
	cmpq	$1, %r10
	jne	.LBB12_106
	xorl	%esi, %esi
	jmp	.LBB12_109
.LBB12_103:
	movq	648(%rsp), %rcx
	movupd	(%r12), %xmm0
	movupd	16(%r12), %xmm1
	movupd	32(%r12), %xmm2
	movupd	%xmm0, 144(%rsp)
	movupd	%xmm1, 160(%rsp)
	movupd	%xmm2, 176(%rsp)
	movq	768(%rsp), %rax
	movq	%rax, (%rsp)
	movzbl	92(%rsp), %esi
	movzbl	%bpl, %r8d
	andl	$1, %r8d
	leaq	112(%rsp), %rdi
	leaq	144(%rsp), %rdx
	movq	80(%rsp), %r9
	callq	"algebra::answer::write_sum"
	movzbl	112(%rsp), %r14d
	movzbl	113(%rsp), %eax
	movq	120(%rsp), %r10
	jmp	.LBB12_289
.LBB12_104:
	xorpd	%xmm13, %xmm13
	xorps	%xmm8, %xmm8
	xorpd	%xmm9, %xmm9
	movapd	%xmm8, %xmm11
	movapd	%xmm8, %xmm7
	movapd	%xmm8, %xmm10
	movapd	%xmm8, %xmm0
	xorpd	%xmm3, %xmm3
	xorpd	%xmm4, %xmm4
	xorpd	%xmm12, %xmm12
	xorpd	%xmm6, %xmm6
	xorpd	%xmm5, %xmm5
	movzbl	15(%rsp), %ebp
	jmp	.LBB12_147
.LBB12_105:
	xorl	%r14d, %r14d
	xorl	%eax, %eax
	jmp	.LBB12_288
.LBB12_106:
	movq	%r10, %r14
	movq	%r10, %rdi
	andq	$-2, %rdi
	leaq	3112(%rax), %r8
	xorl	%esi, %esi
	movq	80(%rsp), %r9
	.p2align	4
.LBB12_107:
	movq	-24(%r8), %r10
	movzbl	128(%rcx,%rsi), %r11d
	movzbl	128(%rdx,%rsi), %ebx
	movups	-40(%r8), %xmm0
	movl	%r11d, (%r9)
	movl	%ebx, 4(%r9)
	movups	%xmm0, 8(%r9)
	movq	%r10, 24(%r9)
	movq	(%r8), %r10
	movzbl	129(%rcx,%rsi), %r11d
	movzbl	129(%rdx,%rsi), %ebx
	movupd	-16(%r8), %xmm0
	movl	%r11d, 32(%r9)
	movl	%ebx, 36(%r9)
	movupd	%xmm0, 40(%r9)
	movq	%r10, 56(%r9)
	addq	$2, %rsi
	addq	$64, %r9
	addq	$48, %r8
	cmpq	%rsi, %rdi
	jne	.LBB12_107
	movq	%r14, %r10
	testb	$1, %r10b
	je	.LBB12_110
.LBB12_109:
	leaq	(%rsi,%rsi,2), %rdi
	addq	$384, %rdi
	movq	16(%rax,%rdi,8), %r8
	movzbl	128(%rcx,%rsi), %ecx
	movzbl	128(%rdx,%rsi), %edx
	shlq	$5, %rsi
	movupd	(%rax,%rdi,8), %xmm0
	movq	80(%rsp), %rax
	movl	%ecx, (%rax,%rsi)
	movl	%edx, 4(%rax,%rsi)
	movupd	%xmm0, 8(%rax,%rsi)
	movq	%r8, 24(%rax,%rsi)
.LBB12_110:
	xorl	%r14d, %r14d
	xorl	%eax, %eax
	jmp	.LBB12_289
.LBB12_111:
	xorpd	%xmm1, %xmm1
	xorpd	%xmm4, %xmm4
.LBB12_112:
	movsd	.LCPI12_1(%rip), %xmm8
	movl	$128, %eax
	jmp	.LBB12_114
	.p2align	4
.LBB12_113:
	movzbl	(%r15,%rax), %ecx
	addq	%rcx, %rax
	incq	%rax
	cmpq	%rbp, %rax
	jae	.LBB12_117
.LBB12_114:
	leaq	(,%rax,8), %rcx
	leaq	(%rcx,%rcx,2), %rcx
	movsd	(%r12,%rcx), %xmm0
	ucomisd	%xmm8, %xmm0
	jne	.LBB12_113
	jp	.LBB12_113
	cmpb	$1, (%rbx,%rax)
	jne	.LBB12_113
	movupd	8(%r12,%rcx), %xmm2
	jmp	.LBB12_118
.LBB12_117:
	xorpd	%xmm2, %xmm2
.LBB12_118:
	movapd	%xmm2, %xmm3
	unpckhpd	%xmm2, %xmm3
	xorpd	%xmm0, %xmm0
	movl	$128, %eax
	jmp	.LBB12_120
	.p2align	4
.LBB12_119:
	movzbl	(%r15,%rax), %ecx
	addq	%rcx, %rax
	incq	%rax
	cmpq	%rbp, %rax
	jae	.LBB12_123
.LBB12_120:
	leaq	(,%rax,8), %rcx
	leaq	(%rcx,%rcx,2), %rcx
	movsd	(%r12,%rcx), %xmm5
	ucomisd	%xmm0, %xmm5
	jne	.LBB12_119
	jp	.LBB12_119
	cmpb	$1, (%rbx,%rax)
	jne	.LBB12_119
	movapd	%xmm2, %xmm5
	movsd	8(%r12,%rcx), %xmm2
	movapd	%xmm2, 64(%rsp)
	movsd	16(%r12,%rcx), %xmm6
	jmp	.LBB12_124
.LBB12_123:
	movapd	%xmm2, %xmm5
	xorpd	%xmm6, %xmm6
	xorpd	%xmm2, %xmm2
	movapd	%xmm2, 64(%rsp)
.LBB12_124:
	xorpd	%xmm7, %xmm7
	movl	$128, %eax
	xorl	%ecx, %ecx
	xorpd	%xmm10, %xmm10
	xorpd	%xmm9, %xmm9
	jmp	.LBB12_127
	.p2align	4
.LBB12_125:
	movb	$2, %cl
	xorpd	%xmm7, %xmm7
.LBB12_126:
	movzbl	(%r15,%rax), %edx
	addq	%rdx, %rax
	incq	%rax
	cmpq	%rbp, %rax
	jae	.LBB12_132
.LBB12_127:
	leaq	(%rax,%rax,2), %rdx
	movsd	(%r12,%rdx,8), %xmm12
	movsd	8(%r12,%rdx,8), %xmm13
	movsd	16(%r12,%rdx,8), %xmm14
	movzbl	(%rbx,%rax), %edx
	movapd	%xmm12, %xmm15
	movapd	%xmm15, %xmm2
	ucomisd	%xmm11, %xmm15
	cmpneqsd	%xmm8, %xmm2
	cmpneqsd	%xmm0, %xmm15
	andpd	%xmm2, %xmm15
	movd	%xmm15, %esi
	setp	%dil
	setne	%r8b
	orb	%dil, %r8b
	testb	%sil, %r8b
	jne	.LBB12_129
	cmpb	$1, %dl
	je	.LBB12_126
.LBB12_129:
	xorpd	%xmm9, %xmm9
	xorpd	%xmm10, %xmm10
	testb	%cl, %cl
	jne	.LBB12_125
	movb	$2, %cl
	xorpd	%xmm7, %xmm7
	cmpb	$1, %dl
	jne	.LBB12_126
	movb	$1, %cl
	movapd	%xmm13, %xmm9
	movapd	%xmm14, %xmm10
	movapd	%xmm12, %xmm7
	jmp	.LBB12_126
.LBB12_132:
	movb	$6, %al
	cmpb	$2, %cl
	je	.LBB12_145
	movzbl	%cl, %ecx
	cmpl	$1, %ecx
	movzbl	15(%rsp), %ebp
	jne	.LBB12_146
	ucomisd	%xmm0, %xmm1
	jne	.LBB12_288
	jp	.LBB12_288
	ucomisd	%xmm0, %xmm4
	jne	.LBB12_288
	jp	.LBB12_288
	ucomisd	%xmm0, %xmm3
	jne	.LBB12_288
	jp	.LBB12_288
	ucomisd	%xmm0, %xmm5
	jne	.LBB12_288
	jp	.LBB12_288
	movapd	%xmm9, %xmm1
	movsd	.LCPI12_2(%rip), %xmm2
	ucomisd	%xmm1, %xmm2
	jae	.LBB12_188
	movsd	.LCPI12_3(%rip), %xmm2
	ucomisd	%xmm2, %xmm1
	jae	.LBB12_188
	ucomisd	%xmm1, %xmm0
	jbe	.LBB12_213
	movsd	.LCPI12_2(%rip), %xmm2
	addsd	%xmm9, %xmm2
	addsd	.LCPI12_3(%rip), %xmm2
	jmp	.LBB12_214
.LBB12_142:
	movb	$1, %r14b
.LBB12_143:
	xorl	%ecx, %ecx
.LBB12_144:
	movq	%rcx, %r10
	movq	688(%rsp), %r13
	movzbl	15(%rsp), %ebp
	jmp	.LBB12_289
.LBB12_145:
	movzbl	15(%rsp), %ebp
	jmp	.LBB12_288
.LBB12_146:
	movapd	%xmm4, %xmm12
	movapd	%xmm5, %xmm13
	movapd	%xmm5, %xmm10
	movapd	%xmm3, %xmm7
	movapd	%xmm4, %xmm11
	movapd	%xmm1, %xmm4
	movapd	%xmm1, %xmm8
	movapd	%xmm5, %xmm9
	mulpd	%xmm13, %xmm9
	movapd	64(%rsp), %xmm5
.LBB12_147:
	ucomisd	%xmm0, %xmm10
	cmpeqsd	%xmm0, %xmm11
	movapd	%xmm8, %xmm2
	cmpeqsd	%xmm0, %xmm2
	andpd	%xmm11, %xmm2
	movd	%xmm2, %eax
	jne	.LBB12_153
	jp	.LBB12_153
	ucomisd	%xmm0, %xmm7
	jne	.LBB12_153
	jp	.LBB12_153
	testb	$1, %al
	je	.LBB12_162
	movw	$517, 144(%rsp)
	xorpd	%xmm1, %xmm1
	movupd	%xmm1, 146(%rsp)
	movq	$0, 160(%rsp)
	movapd	%xmm6, %xmm1
	ucomisd	%xmm0, %xmm1
	jne	.LBB12_151
	jnp	.LBB12_182
.LBB12_151:
	movapd	%xmm6, %xmm2
	subsd	%xmm6, %xmm2
	ucomisd	%xmm0, %xmm2
	movb	$14, %al
	jne	.LBB12_288
	jp	.LBB12_288
	movapd	%xmm5, %xmm3
	movapd	%xmm5, %xmm2
	subsd	%xmm5, %xmm2
	movb	$2, %cl
	jmp	.LBB12_185
.LBB12_153:
	testb	$1, %al
	je	.LBB12_159
	movapd	%xmm6, %xmm2
	ucomisd	%xmm0, %xmm2
	jne	.LBB12_165
	jp	.LBB12_165
	movapd	%xmm5, %xmm4
	ucomisd	%xmm0, %xmm4
	jne	.LBB12_165
	jp	.LBB12_165
	movsd	.LCPI12_1(%rip), %xmm2
	ucomisd	%xmm2, %xmm10
	jne	.LBB12_201
	jp	.LBB12_201
	ucomisd	%xmm0, %xmm7
	jne	.LBB12_201
	jp	.LBB12_201
	movw	$261, 144(%rsp)
	xorpd	%xmm0, %xmm0
	movupd	%xmm0, 146(%rsp)
	movq	$0, 160(%rsp)
	movl	$1, %esi
	jmp	.LBB12_287
.LBB12_159:
	testb	$1, %bpl
	je	.LBB12_168
	movapd	%xmm6, %xmm2
	subsd	%xmm6, %xmm2
	ucomisd	%xmm0, %xmm2
	movb	$14, %al
	jne	.LBB12_288
	jp	.LBB12_288
	movapd	%xmm5, %xmm1
	movapd	%xmm5, %xmm2
	subsd	%xmm5, %xmm2
	movb	$2, %cl
	jmp	.LBB12_171
.LBB12_162:
	testb	$1, %bpl
	je	.LBB12_175
	movapd	%xmm6, %xmm1
	subsd	%xmm6, %xmm1
	ucomisd	%xmm0, %xmm1
	movb	$14, %al
	jne	.LBB12_288
	jp	.LBB12_288
	movapd	%xmm5, %xmm2
	movapd	%xmm5, %xmm1
	subsd	%xmm5, %xmm1
	movb	$2, %cl
	jmp	.LBB12_178
.LBB12_165:
	testb	$1, %bpl
	je	.LBB12_189
	movapd	%xmm6, %xmm2
	subsd	%xmm6, %xmm2
	ucomisd	%xmm0, %xmm2
	movb	$14, %al
	jne	.LBB12_288
	jp	.LBB12_288
	movapd	%xmm5, %xmm1
	movapd	%xmm5, %xmm2
	subsd	%xmm5, %xmm2
	movb	$2, %cl
	jmp	.LBB12_192
.LBB12_168:
	movsd	.LCPI12_4(%rip), %xmm2
	movapd	%xmm6, %xmm8
	ucomisd	%xmm2, %xmm8
	movb	$14, %al
	jbe	.LBB12_288
	movsd	.LCPI12_5(%rip), %xmm2
	ucomisd	%xmm8, %xmm2
	jbe	.LBB12_288
	movapd	%xmm5, %xmm1
	movapd	%xmm5, %xmm2
	subsd	%xmm5, %xmm2
	movb	$1, %cl
.LBB12_171:
	ucomisd	%xmm0, %xmm2
	jne	.LBB12_288
	jp	.LBB12_288
	movq	%xmm6, %rax
	xorl	%edx, %edx
	movsd	.LCPI12_8(%rip), %xmm8
	movapd	%xmm12, %xmm9
	movapd	%xmm12, %xmm6
	mulsd	%xmm8, %xmm6
	mulsd	%xmm4, %xmm8
	testb	$1, %bpl
	cmovneq	%rax, %rdx
	movb	%cl, 144(%rsp)
	movl	$0, 145(%rsp)
	movl	$0, 148(%rsp)
	movsd	%xmm1, 152(%rsp)
	movq	%rdx, 160(%rsp)
	movw	$1029, 168(%rsp)
	xorpd	%xmm2, %xmm2
	movupd	%xmm2, 170(%rsp)
	movq	$0, 184(%rsp)
	movw	$2309, 192(%rsp)
	movupd	%xmm2, 194(%rsp)
	movq	$0, 208(%rsp)
	je	.LBB12_205
	movapd	%xmm8, %xmm2
	subsd	%xmm8, %xmm2
	ucomisd	%xmm0, %xmm2
	movb	$14, %al
	jne	.LBB12_288
	jp	.LBB12_288
	movapd	%xmm6, %xmm2
	subsd	%xmm6, %xmm2
	movb	$2, %cl
	jmp	.LBB12_208
.LBB12_175:
	movsd	.LCPI12_4(%rip), %xmm2
	movapd	%xmm6, %xmm1
	ucomisd	%xmm2, %xmm1
	movb	$14, %al
	jbe	.LBB12_288
	movsd	.LCPI12_5(%rip), %xmm2
	ucomisd	%xmm1, %xmm2
	jbe	.LBB12_288
	movapd	%xmm5, %xmm2
	movapd	%xmm5, %xmm1
	subsd	%xmm5, %xmm1
	movb	$1, %cl
.LBB12_178:
	ucomisd	%xmm0, %xmm1
	jne	.LBB12_288
	jp	.LBB12_288
	movq	%xmm6, %rax
	xorl	%edx, %edx
	testb	$1, %bpl
	cmovneq	%rax, %rdx
	movb	%cl, 144(%rsp)
	movl	$0, 145(%rsp)
	movl	$0, 148(%rsp)
	movsd	%xmm2, 152(%rsp)
	movq	%rdx, 160(%rsp)
	movw	$2309, 168(%rsp)
	xorpd	%xmm1, %xmm1
	movupd	%xmm1, 170(%rsp)
	movq	$0, 184(%rsp)
	je	.LBB12_196
	movapd	%xmm4, %xmm1
	subsd	%xmm4, %xmm1
	ucomisd	%xmm0, %xmm1
	movb	$14, %al
	jne	.LBB12_288
	jp	.LBB12_288
	movapd	%xmm12, %xmm2
	movapd	%xmm12, %xmm1
	subsd	%xmm12, %xmm1
	movb	$2, %cl
	jmp	.LBB12_199
.LBB12_182:
	movsd	.LCPI12_4(%rip), %xmm2
	ucomisd	%xmm2, %xmm1
	movb	$14, %al
	jbe	.LBB12_288
	movsd	.LCPI12_5(%rip), %xmm2
	ucomisd	%xmm1, %xmm2
	jbe	.LBB12_288
	movapd	%xmm5, %xmm3
	movapd	%xmm5, %xmm2
	subsd	%xmm5, %xmm2
	movb	$1, %cl
.LBB12_185:
	ucomisd	%xmm0, %xmm2
	jne	.LBB12_288
	jp	.LBB12_288
	xorl	%eax, %eax
	ucomisd	%xmm0, %xmm1
	movq	%xmm6, %rdx
	cmovneq	%rdx, %rax
	cmovpq	%rdx, %rax
	movb	%cl, 168(%rsp)
	movl	$0, 169(%rsp)
	movl	$0, 172(%rsp)
	movsd	%xmm3, 176(%rsp)
	movq	%rax, 184(%rsp)
	movl	$2, %esi
	jmp	.LBB12_287
.LBB12_187:
	movb	$17, %al
	jmp	.LBB12_143
.LBB12_188:
	movapd	%xmm9, %xmm2
	subsd	%xmm9, %xmm2
	cmpeqsd	%xmm0, %xmm2
	jmp	.LBB12_215
.LBB12_189:
	movsd	.LCPI12_4(%rip), %xmm4
	ucomisd	%xmm4, %xmm2
	movb	$14, %al
	jbe	.LBB12_288
	movsd	.LCPI12_5(%rip), %xmm4
	ucomisd	%xmm2, %xmm4
	jbe	.LBB12_288
	movapd	%xmm5, %xmm1
	movapd	%xmm5, %xmm2
	subsd	%xmm5, %xmm2
	movb	$1, %cl
.LBB12_192:
	ucomisd	%xmm0, %xmm2
	jne	.LBB12_288
	jp	.LBB12_288
	movq	%xmm6, %rax
	xorl	%edx, %edx
	testb	$1, %bpl
	cmovneq	%rax, %rdx
	movb	%cl, 144(%rsp)
	movl	$0, 145(%rsp)
	movl	$0, 148(%rsp)
	movsd	%xmm1, 152(%rsp)
	movq	%rdx, 160(%rsp)
	movw	$2309, 168(%rsp)
	xorpd	%xmm2, %xmm2
	movupd	%xmm2, 170(%rsp)
	movq	$0, 184(%rsp)
	je	.LBB12_223
	movapd	%xmm13, %xmm2
	subsd	%xmm13, %xmm2
	ucomisd	%xmm0, %xmm2
	movb	$14, %al
	jne	.LBB12_288
	jp	.LBB12_288
	movapd	%xmm13, %xmm1
	movapd	%xmm3, %xmm2
	subsd	%xmm3, %xmm2
	movb	$2, %cl
	jmp	.LBB12_226
.LBB12_196:
	movsd	.LCPI12_4(%rip), %xmm1
	ucomisd	%xmm1, %xmm8
	movb	$14, %al
	jbe	.LBB12_288
	movsd	.LCPI12_5(%rip), %xmm1
	ucomisd	%xmm8, %xmm1
	jbe	.LBB12_288
	movapd	%xmm12, %xmm2
	movapd	%xmm12, %xmm1
	subsd	%xmm12, %xmm1
	movb	$1, %cl
.LBB12_199:
	ucomisd	%xmm0, %xmm1
	jne	.LBB12_288
	jp	.LBB12_288
	movq	%xmm4, %rax
	xorl	%edx, %edx
	testb	$1, %bpl
	cmovneq	%rax, %rdx
	movb	%cl, 192(%rsp)
	movl	$0, 193(%rsp)
	movl	$0, 196(%rsp)
	movsd	%xmm2, 200(%rsp)
	movq	%rdx, 208(%rsp)
	movw	$2821, 216(%rsp)
	xorpd	%xmm0, %xmm0
	movupd	%xmm0, 218(%rsp)
	movq	$0, 232(%rsp)
	movw	$1797, 240(%rsp)
	movupd	%xmm0, 242(%rsp)
	movq	$0, 256(%rsp)
	movl	$5, %esi
	jmp	.LBB12_287
.LBB12_201:
	movapd	%xmm9, %xmm2
	unpckhpd	%xmm9, %xmm2
	addsd	%xmm9, %xmm2
	movsd	.LCPI12_9(%rip), %xmm4
	movapd	%xmm2, %xmm5
	ucomisd	%xmm4, %xmm5
	jbe	.LBB12_228
	testb	$1, %bpl
	je	.LBB12_246
	movapd	%xmm13, %xmm2
	subsd	%xmm13, %xmm2
	ucomisd	%xmm0, %xmm2
	movb	$14, %al
	jne	.LBB12_288
	jp	.LBB12_288
	movapd	%xmm13, %xmm1
	movapd	%xmm3, %xmm2
	subsd	%xmm3, %xmm2
	movb	$2, %cl
	jmp	.LBB12_249
.LBB12_205:
	movsd	.LCPI12_4(%rip), %xmm2
	movapd	%xmm8, %xmm5
	ucomisd	%xmm2, %xmm5
	movb	$14, %al
	jbe	.LBB12_288
	movsd	.LCPI12_5(%rip), %xmm2
	ucomisd	%xmm5, %xmm2
	jbe	.LBB12_288
	movapd	%xmm6, %xmm2
	subsd	%xmm6, %xmm2
	movb	$1, %cl
.LBB12_208:
	ucomisd	%xmm0, %xmm2
	jne	.LBB12_288
	jp	.LBB12_288
	movq	%xmm8, %rax
	xorl	%edx, %edx
	movapd	%xmm13, %xmm1
	movapd	%xmm13, %xmm5
	mulsd	%xmm13, %xmm5
	movapd	%xmm3, %xmm2
	mulsd	%xmm3, %xmm2
	subsd	%xmm2, %xmm5
	movapd	%xmm13, %xmm8
	mulsd	%xmm3, %xmm8
	addsd	%xmm8, %xmm8
	testb	$1, %bpl
	cmovneq	%rax, %rdx
	movb	%cl, 216(%rsp)
	movl	$0, 217(%rsp)
	movl	$0, 220(%rsp)
	movsd	%xmm6, 224(%rsp)
	movq	%rdx, 232(%rsp)
	movw	$2565, 240(%rsp)
	xorpd	%xmm2, %xmm2
	movupd	%xmm2, 242(%rsp)
	movq	$0, 256(%rsp)
	movapd	%xmm5, %xmm2
	subsd	%xmm5, %xmm2
	je	.LBB12_231
	ucomisd	%xmm0, %xmm2
	movb	$14, %al
	jne	.LBB12_288
	jp	.LBB12_288
	movapd	%xmm8, %xmm2
	subsd	%xmm8, %xmm2
	movb	$2, %cl
	ucomisd	%xmm0, %xmm2
	jne	.LBB12_288
	jnp	.LBB12_234
	jmp	.LBB12_288
.LBB12_212:
	movb	$11, %al
	jmp	.LBB12_143
.LBB12_213:
	movsd	.LCPI12_3(%rip), %xmm2
	addsd	%xmm9, %xmm2
	addsd	.LCPI12_2(%rip), %xmm2
.LBB12_214:
	cmpeqsd	%xmm1, %xmm2
.LBB12_215:
	movq	%xmm2, %rcx
	andl	$1, %ecx
	movapd	%xmm10, %xmm2
	ucomisd	%xmm0, %xmm2
	movb	$13, %al
	jne	.LBB12_288
	jp	.LBB12_288
	testb	%cl, %cl
	je	.LBB12_288
	movapd	%xmm6, %xmm3
	ucomisd	%xmm0, %xmm3
	movapd	64(%rsp), %xmm5
	jne	.LBB12_220
	jp	.LBB12_220
	movapd	%xmm5, %xmm4
	ucomisd	%xmm0, %xmm4
	jne	.LBB12_220
	jp	.LBB12_220
	xorl	%esi, %esi
	jmp	.LBB12_242
.LBB12_220:
	testb	$1, %bpl
	je	.LBB12_237
	movapd	%xmm6, %xmm3
	subsd	%xmm6, %xmm3
	ucomisd	%xmm0, %xmm3
	movb	$14, %al
	jne	.LBB12_288
	jp	.LBB12_288
	movapd	%xmm5, %xmm3
	subsd	%xmm5, %xmm3
	movb	$2, %cl
	jmp	.LBB12_240
.LBB12_223:
	movsd	.LCPI12_4(%rip), %xmm2
	ucomisd	%xmm2, %xmm7
	movb	$14, %al
	jbe	.LBB12_288
	movsd	.LCPI12_5(%rip), %xmm2
	ucomisd	%xmm7, %xmm2
	jbe	.LBB12_288
	movapd	%xmm13, %xmm1
	movapd	%xmm13, %xmm2
	subsd	%xmm13, %xmm2
	movb	$1, %cl
.LBB12_226:
	ucomisd	%xmm0, %xmm2
	jne	.LBB12_288
	jp	.LBB12_288
	movq	%xmm3, %rax
	xorl	%edx, %edx
	testb	$1, %bpl
	cmovneq	%rax, %rdx
	movb	%cl, 192(%rsp)
	movl	$0, 193(%rsp)
	movl	$0, 196(%rsp)
	movsd	%xmm1, 200(%rsp)
	movq	%rdx, 208(%rsp)
	movw	$2821, 216(%rsp)
	xorpd	%xmm0, %xmm0
	movupd	%xmm0, 218(%rsp)
	movq	$0, 232(%rsp)
	movl	$4, %esi
	jmp	.LBB12_287
.LBB12_228:
	divsd	%xmm2, %xmm13
	xorpd	.LCPI12_10(%rip), %xmm3
	divsd	%xmm2, %xmm3
	movapd	%xmm13, %xmm2
	subsd	%xmm13, %xmm2
	testb	$1, %bpl
	je	.LBB12_251
	ucomisd	%xmm0, %xmm2
	movb	$14, %al
	jne	.LBB12_288
	jp	.LBB12_288
	movapd	%xmm3, %xmm2
	subsd	%xmm3, %xmm2
	movb	$2, %cl
	ucomisd	%xmm0, %xmm2
	jne	.LBB12_288
	jnp	.LBB12_254
	jmp	.LBB12_288
.LBB12_231:
	ucomisd	%xmm0, %xmm2
	movb	$14, %al
	jne	.LBB12_288
	jp	.LBB12_288
	movsd	.LCPI12_4(%rip), %xmm2
	movapd	%xmm8, %xmm6
	ucomisd	%xmm2, %xmm6
	jbe	.LBB12_288
	movsd	.LCPI12_5(%rip), %xmm2
	movb	$1, %cl
	ucomisd	%xmm6, %xmm2
	jbe	.LBB12_288
.LBB12_234:
	movq	%xmm8, %rax
	xorl	%edx, %edx
	testb	$1, %bpl
	cmovneq	%rax, %rdx
	movb	%cl, 264(%rsp)
	movl	$0, 265(%rsp)
	movl	$0, 268(%rsp)
	movsd	%xmm5, 272(%rsp)
	movq	%rdx, 280(%rsp)
	movw	$2053, 288(%rsp)
	xorpd	%xmm2, %xmm2
	movupd	%xmm2, 290(%rsp)
	movq	$0, 304(%rsp)
	movw	$1797, 312(%rsp)
	movupd	%xmm2, 314(%rsp)
	movq	$0, 328(%rsp)
	movw	$773, 336(%rsp)
	movupd	%xmm2, 338(%rsp)
	movq	$0, 352(%rsp)
	je	.LBB12_256
	movapd	%xmm1, %xmm2
	subsd	%xmm1, %xmm2
	ucomisd	%xmm0, %xmm2
	movb	$14, %al
	jne	.LBB12_288
	jp	.LBB12_288
	movapd	%xmm3, %xmm2
	subsd	%xmm3, %xmm2
	movb	$2, %dl
	jmp	.LBB12_259
.LBB12_237:
	movsd	.LCPI12_4(%rip), %xmm4
	ucomisd	%xmm4, %xmm3
	movb	$14, %al
	jbe	.LBB12_288
	movsd	.LCPI12_5(%rip), %xmm4
	ucomisd	%xmm3, %xmm4
	jbe	.LBB12_288
	movapd	%xmm5, %xmm3
	subsd	%xmm5, %xmm3
	movb	$1, %cl
.LBB12_240:
	ucomisd	%xmm0, %xmm3
	jne	.LBB12_288
	jp	.LBB12_288
	movq	%xmm6, %rax
	xorl	%edx, %edx
	testb	$1, %bpl
	cmovneq	%rax, %rdx
	movb	%cl, 144(%rsp)
	movl	$0, 145(%rsp)
	movl	$0, 148(%rsp)
	movapd	64(%rsp), %xmm3
	movsd	%xmm3, 152(%rsp)
	movq	%rdx, 160(%rsp)
	movw	$2309, 168(%rsp)
	xorpd	%xmm3, %xmm3
	movupd	%xmm3, 170(%rsp)
	movq	$0, 184(%rsp)
	movl	$2, %esi
.LBB12_242:
	ucomisd	%xmm8, %xmm1
	jne	.LBB12_243
	jnp	.LBB12_267
.LBB12_243:
	movapd	%xmm9, %xmm1
	subsd	%xmm9, %xmm1
	testb	$1, %bpl
	je	.LBB12_263
	ucomisd	%xmm0, %xmm1
	movb	$14, %al
	jne	.LBB12_288
	jp	.LBB12_288
	movapd	%xmm10, %xmm1
	subsd	%xmm10, %xmm1
	movb	$2, %cl
	ucomisd	%xmm0, %xmm1
	jne	.LBB12_288
	jnp	.LBB12_266
	jmp	.LBB12_288
.LBB12_246:
	movsd	.LCPI12_4(%rip), %xmm2
	ucomisd	%xmm2, %xmm7
	movb	$14, %al
	jbe	.LBB12_288
	movsd	.LCPI12_5(%rip), %xmm2
	ucomisd	%xmm7, %xmm2
	jbe	.LBB12_288
	movapd	%xmm13, %xmm1
	movapd	%xmm13, %xmm2
	subsd	%xmm13, %xmm2
	movb	$1, %cl
.LBB12_249:
	ucomisd	%xmm0, %xmm2
	jne	.LBB12_288
	jp	.LBB12_288
	movq	%xmm3, %rax
	xorl	%edx, %edx
	testb	$1, %bpl
	cmovneq	%rax, %rdx
	movb	%cl, 144(%rsp)
	movl	$0, 145(%rsp)
	movl	$0, 148(%rsp)
	movsd	%xmm1, 152(%rsp)
	movq	%rdx, 160(%rsp)
	movw	$2821, 168(%rsp)
	jmp	.LBB12_255
.LBB12_251:
	ucomisd	%xmm0, %xmm2
	movb	$14, %al
	jne	.LBB12_288
	jp	.LBB12_288
	movsd	.LCPI12_4(%rip), %xmm2
	movapd	%xmm3, %xmm0
	ucomisd	%xmm2, %xmm0
	jbe	.LBB12_288
	movsd	.LCPI12_5(%rip), %xmm2
	movb	$1, %cl
	ucomisd	%xmm0, %xmm2
	jbe	.LBB12_288
.LBB12_254:
	movq	%xmm3, %rax
	xorl	%edx, %edx
	testb	$1, %bpl
	cmovneq	%rax, %rdx
	movb	%cl, 144(%rsp)
	movl	$0, 145(%rsp)
	movl	$0, 148(%rsp)
	movsd	%xmm13, 152(%rsp)
	movq	%rdx, 160(%rsp)
	movw	$2565, 168(%rsp)
.LBB12_255:
	xorpd	%xmm0, %xmm0
	movupd	%xmm0, 170(%rsp)
	movq	$0, 184(%rsp)
	movl	$2, %esi
	jmp	.LBB12_287
.LBB12_256:
	movsd	.LCPI12_4(%rip), %xmm2
	ucomisd	%xmm2, %xmm7
	movb	$14, %al
	jbe	.LBB12_288
	movsd	.LCPI12_5(%rip), %xmm2
	ucomisd	%xmm7, %xmm2
	jbe	.LBB12_288
	movapd	%xmm1, %xmm5
	movapd	%xmm1, %xmm2
	subsd	%xmm5, %xmm2
	movb	$1, %dl
.LBB12_259:
	ucomisd	%xmm0, %xmm2
	jne	.LBB12_288
	jp	.LBB12_288
	movq	%xmm3, %rax
	xorl	%ecx, %ecx
	testb	$1, %bpl
	cmovneq	%rax, %rcx
	movb	%dl, 360(%rsp)
	movl	$0, 361(%rsp)
	movl	$0, 364(%rsp)
	movapd	%xmm1, %xmm5
	movsd	%xmm1, 368(%rsp)
	movq	%rcx, 376(%rsp)
	movw	$2309, 384(%rsp)
	xorpd	%xmm2, %xmm2
	movupd	%xmm2, 386(%rsp)
	movq	$0, 400(%rsp)
	movw	$1029, 408(%rsp)
	movupd	%xmm2, 410(%rsp)
	movq	$0, 424(%rsp)
	movw	$1285, 432(%rsp)
	movupd	%xmm2, 434(%rsp)
	movq	$0, 448(%rsp)
	je	.LBB12_272
	movapd	%xmm5, %xmm2
	subsd	%xmm5, %xmm2
	ucomisd	%xmm0, %xmm2
	movb	$14, %al
	jne	.LBB12_288
	jp	.LBB12_288
	movapd	%xmm5, %xmm1
	subsd	%xmm3, %xmm3
	movb	$2, %dl
	ucomisd	%xmm0, %xmm3
	jmp	.LBB12_275
.LBB12_263:
	ucomisd	%xmm0, %xmm1
	movb	$14, %al
	jne	.LBB12_288
	jp	.LBB12_288
	movsd	.LCPI12_4(%rip), %xmm1
	ucomisd	%xmm1, %xmm2
	jbe	.LBB12_288
	movsd	.LCPI12_5(%rip), %xmm1
	movb	$1, %cl
	ucomisd	%xmm2, %xmm1
	jbe	.LBB12_288
.LBB12_266:
	movq	%xmm10, %rax
	xorl	%edx, %edx
	testb	$1, %bpl
	cmovneq	%rax, %rdx
	leaq	(%rsi,%rsi,2), %rax
	movb	%cl, 144(%rsp,%rax,8)
	movl	$0, 145(%rsp,%rax,8)
	movl	$0, 148(%rsp,%rax,8)
	movsd	%xmm9, 152(%rsp,%rax,8)
	movq	%rdx, 160(%rsp,%rax,8)
	movw	$2821, 168(%rsp,%rax,8)
	addq	$2, %rsi
	xorpd	%xmm1, %xmm1
	movupd	%xmm1, 170(%rsp,%rax,8)
	movq	$0, 184(%rsp,%rax,8)
.LBB12_267:
	movapd	%xmm7, %xmm1
	movsd	.LCPI12_6(%rip), %xmm2
	ucomisd	%xmm2, %xmm1
	jne	.LBB12_270
	jp	.LBB12_270
	leaq	(%rsi,%rsi,2), %rax
	movw	$773, 144(%rsp,%rax,8)
	xorpd	%xmm0, %xmm0
	movupd	%xmm0, 146(%rsp,%rax,8)
	movq	$0, 160(%rsp,%rax,8)
	movw	$2565, 168(%rsp,%rax,8)
	addq	$2, %rsi
.LBB12_269:
	movupd	%xmm0, 170(%rsp,%rax,8)
	movq	$0, 184(%rsp,%rax,8)
	jmp	.LBB12_287
.LBB12_270:
	movsd	.LCPI12_7(%rip), %xmm2
	ucomisd	%xmm2, %xmm1
	jne	.LBB12_279
	jp	.LBB12_279
	leaq	(%rsi,%rsi,2), %rax
	movw	$4101, 144(%rsp,%rax,8)
	incq	%rsi
	xorpd	%xmm0, %xmm0
	movupd	%xmm0, 146(%rsp,%rax,8)
	movq	$0, 160(%rsp,%rax,8)
	jmp	.LBB12_287
.LBB12_272:
	movsd	.LCPI12_4(%rip), %xmm2
	ucomisd	%xmm2, %xmm7
	movb	$14, %al
	jbe	.LBB12_288
	movsd	.LCPI12_5(%rip), %xmm2
	ucomisd	%xmm7, %xmm2
	jbe	.LBB12_288
	movapd	%xmm5, %xmm1
	movapd	%xmm5, %xmm2
	subsd	%xmm5, %xmm2
	movb	$1, %dl
	ucomisd	%xmm0, %xmm2
.LBB12_275:
	jne	.LBB12_288
	jp	.LBB12_288
	movb	%dl, 456(%rsp)
	movl	$0, 457(%rsp)
	movl	$0, 460(%rsp)
	movsd	%xmm1, 464(%rsp)
	movq	%rcx, 472(%rsp)
	movw	$2309, 480(%rsp)
	xorpd	%xmm1, %xmm1
	movupd	%xmm1, 482(%rsp)
	movq	$0, 496(%rsp)
	movw	$4613, 504(%rsp)
	movupd	%xmm1, 506(%rsp)
	movq	$0, 520(%rsp)
	addsd	%xmm9, %xmm9
	addsd	%xmm4, %xmm4
	testb	$1, %bpl
	je	.LBB12_282
	movapd	%xmm4, %xmm1
	subsd	%xmm4, %xmm1
	ucomisd	%xmm0, %xmm1
	movb	$14, %al
	jne	.LBB12_288
	jp	.LBB12_288
	movapd	%xmm4, %xmm3
	movapd	%xmm9, %xmm2
	movapd	%xmm9, %xmm1
	subsd	%xmm9, %xmm1
	movb	$2, %cl
	jmp	.LBB12_285
.LBB12_279:
	testb	$1, %bpl
	je	.LBB12_292
	movapd	%xmm7, %xmm1
	subsd	%xmm7, %xmm1
	movb	$2, %cl
	ucomisd	%xmm0, %xmm1
	jne	.LBB12_281
	jnp	.LBB12_295
.LBB12_281:
	movb	$14, %al
	jmp	.LBB12_288
.LBB12_282:
	movsd	.LCPI12_4(%rip), %xmm2
	movapd	%xmm4, %xmm1
	ucomisd	%xmm2, %xmm1
	movb	$14, %al
	jbe	.LBB12_288
	movsd	.LCPI12_5(%rip), %xmm2
	ucomisd	%xmm1, %xmm2
	jbe	.LBB12_288
	movapd	%xmm4, %xmm3
	movapd	%xmm9, %xmm2
	movapd	%xmm9, %xmm1
	subsd	%xmm9, %xmm1
	movb	$1, %cl
.LBB12_285:
	ucomisd	%xmm0, %xmm1
	jne	.LBB12_288
	jp	.LBB12_288
	movq	%xmm3, %rax
	xorl	%edx, %edx
	testb	$1, %bpl
	cmovneq	%rax, %rdx
	movb	%cl, 528(%rsp)
	movl	$0, 529(%rsp)
	movl	$0, 532(%rsp)
	movsd	%xmm2, 536(%rsp)
	movq	%rdx, 544(%rsp)
	movw	$2821, 552(%rsp)
	xorpd	%xmm0, %xmm0
	movupd	%xmm0, 554(%rsp)
	movq	$0, 568(%rsp)
	movl	$18, %esi
.LBB12_287:
	movabsq	$-6148914691236517205, %rcx
	movq	768(%rsp), %rax
	mulq	%rcx
	shrq	$4, %rdx
	movb	$16, %al
	cmpq	%rsi, %rdx
	jae	.LBB12_291
.LBB12_288:
	xorl	%r10d, %r10d
.LBB12_289:
	xorl	%edx, %edx
	testb	%r14b, %r14b
	movzbl	%al, %eax
	cmovel	%edx, %eax
	sete	%cl
	cmoveq	704(%rsp), %rdx
	andb	%bpl, %cl
.LBB12_290:
	movb	%r14b, (%r13)
	movb	%al, 1(%r13)
	movq	%r10, 8(%r13)
	movb	%cl, 16(%r13)
	movq	%rdx, 24(%r13)
	addq	$712, %rsp
	popq	%rbx
	popq	%r12
	popq	%r13
	popq	%r14
	popq	%r15
	popq	%rbp
	retq
.LBB12_291:
	movq	%rsi, %rcx
	movq	%rsi, %rbx
	leal	(,%rcx,8), %eax
	leaq	(%rax,%rax,2), %rdx
	leaq	144(%rsp), %rsi
	movq	80(%rsp), %rdi
	callq	memcpy@PLT
	movq	%rbx, %r10
	jmp	.LBB12_110
.LBB12_292:
	movsd	.LCPI12_4(%rip), %xmm1
	ucomisd	%xmm1, %xmm0
	movb	$14, %al
	jbe	.LBB12_288
	movsd	.LCPI12_5(%rip), %xmm1
	ucomisd	%xmm0, %xmm1
	jbe	.LBB12_288
	movapd	%xmm7, %xmm1
	subsd	%xmm7, %xmm1
	movb	$1, %cl
	ucomisd	%xmm0, %xmm1
	jne	.LBB12_288
	jp	.LBB12_288
.LBB12_295:
	leaq	(%rsi,%rsi,2), %rax
	movb	%cl, 144(%rsp,%rax,8)
	movl	$0, 145(%rsp,%rax,8)
	movl	$0, 148(%rsp,%rax,8)
	movsd	%xmm7, 152(%rsp,%rax,8)
	movq	$0, 160(%rsp,%rax,8)
	movw	$9989, 168(%rsp,%rax,8)
	addq	$2, %rsi
	xorpd	%xmm0, %xmm0
	jmp	.LBB12_269
.Lfunc_end12:
	.size	"algebra::lists::make_of", .Lfunc_end12-"algebra::lists::make_of"
	.section	".rodata.algebra::lists::make_of","a",@progbits
	.p2align	2, 0x0
.LJTI12_0:
	.long	.LBB12_3-.LJTI12_0
	.long	.LBB12_14-.LJTI12_0
	.long	.LBB12_5-.LJTI12_0
	.long	.LBB12_7-.LJTI12_0

	.section	.rodata.cst8,"aM",@progbits,8
	.p2align	3, 0x0
.LCPI13_0:
	.quad	0x3ff0000000000000
.LCPI13_1:
	.quad	0x4005bf0a8b145769
.LCPI13_2:
	.quad	0x4000000000000000
.LCPI13_3:
	.quad	0x4024000000000000
.LCPI13_6:
	.quad	0xbff0000000000000
.LCPI13_7:
	.quad	0x3fe62e42fefa39ef
.LCPI13_8:
	.quad	0x40026bb1bbb55516
	.section	.rodata.cst16,"aM",@progbits,16
	.p2align	4, 0x0
.LCPI13_4:
	.zero	16,1
.LCPI13_5:
	.zero	4
	.long	4294967295
	.long	4294967295
	.long	4294967295
.LCPI13_9:
	.quad	0x8000000000000000
	.quad	0x8000000000000000
	.section	".text.calculus::derivative::expr_deriv","ax",@progbits
	.p2align	4
	.type	"calculus::derivative::expr_deriv",@function
"calculus::derivative::expr_deriv":
	pushq	%rbp
	pushq	%r15
	pushq	%r14
	pushq	%r13
	pushq	%r12
	pushq	%rbx
	subq	$408, %rsp
	movq	%r8, %rbx
	movq	%rsi, %r14
	addq	%rdx, %rcx
	leaq	(%r8,%r8,2), %rsi
	movq	%rcx, 400(%rsp)
	cmpq	%rcx, %rdx
	jae	.LBB13_319
	movq	%rdi, 336(%rsp)
	leaq	64(%rbx), %rax
	movq	%rax, 168(%rsp)
	xorps	%xmm7, %xmm7
	movq	%rsi, 368(%rsp)
	leaq	1536(,%rsi,8), %r15
	movsd	.LCPI13_0(%rip), %xmm0
	movsd	%xmm0, 392(%rsp)
	movsd	.LCPI13_1(%rip), %xmm0
	movsd	%xmm0, 384(%rsp)
	movsd	.LCPI13_2(%rip), %xmm0
	movsd	%xmm0, 376(%rsp)
	movsd	.LCPI13_3(%rip), %xmm0
	movq	%xmm0, 360(%rsp)
	leaq	-1(%rbx), %rax
	movq	%rax, 232(%rsp)
	leaq	65(%rbx), %rax
	movq	%rax, 344(%rsp)
	leaq	63(%rbx), %rax
	movq	%rax, 352(%rsp)
	xorl	%r8d, %r8d
	movq	%rbx, 40(%rsp)
	movq	%r14, 32(%rsp)
	movsd	%xmm7, 72(%rsp)
	movq	%r15, 56(%rsp)
	jmp	.LBB13_9
.LBB13_115:
	xorl	%r8d, %r8d
	movq	40(%rsp), %rbx
	movq	32(%rsp), %r14
	movq	56(%rsp), %r15
	.p2align	4
.LBB13_6:
	movq	48(%rsp), %r10
.LBB13_7:
	testb	%bpl, %bpl
	jne	.LBB13_322
.LBB13_8:
	addq	%r10, %r11
	movq	%r11, %rdx
	cmpq	400(%rsp), %r11
	jae	.LBB13_317
.LBB13_9:
	movq	(%r14), %r12
	movq	16(%r14), %rdi
	movq	32(%r14), %rbp
	leaq	(%rdx,%rdx,2), %rax
	movupd	8(%rbp,%rax,8), %xmm8
	movzbl	(%r12,%rdx), %r13d
	leaq	1(%rdx), %r11
	movzbl	(%rdi,%rdx), %r9d
	movzbl	%r9b, %r10d
	cmpl	$2, %r13d
	movq	%r11, 64(%rsp)
	movq	%r10, 48(%rsp)
	movq	%rdi, 144(%rsp)
	je	.LBB13_26
	movsd	(%rbp,%rax,8), %xmm0
	cmpl	$1, %r13d
	jne	.LBB13_32
	movapd	%xmm0, %xmm1
	unpcklpd	%xmm0, %xmm1
	mulpd	%xmm8, %xmm1
	movapd	%xmm1, %xmm2
	ucomisd	%xmm7, %xmm2
	jne	.LBB13_13
	jp	.LBB13_13
	movapd	%xmm1, %xmm2
	unpckhpd	%xmm1, %xmm2
	ucomisd	%xmm7, %xmm2
	jne	.LBB13_13
	jnp	.LBB13_8
.LBB13_13:
	leaq	(%r8,%rbx), %rdx
	movq	%rdx, %rcx
	testq	%r8, %r8
	je	.LBB13_18
	movq	%r8, %rax
	movq	%rbx, %rcx
	.p2align	4
.LBB13_15:
	cmpb	$1, (%r12,%rcx)
	jne	.LBB13_18
	incq	%rcx
	decq	%rax
	jne	.LBB13_15
	movq	%rdx, %rcx
.LBB13_18:
	addsd	.LCPI13_6(%rip), %xmm0
	movapd	%xmm0, %xmm2
	subsd	%xmm0, %xmm2
	ucomisd	%xmm7, %xmm2
	jne	.LBB13_320
	jp	.LBB13_320
	movapd	%xmm0, %xmm2
	leaq	(%rcx,%rcx,2), %rax
	leaq	8(,%rax,8), %rsi
	addq	%rbp, %rsi
	.p2align	4
.LBB13_20:
	cmpq	%rcx, %rbx
	jae	.LBB13_76
	decq	%rcx
	movsd	-32(%rsi), %xmm3
	ucomisd	%xmm3, %xmm2
	seta	%al
	incb	%al
	xorl	%r9d, %r9d
	ucomisd	%xmm2, %xmm3
	movzbl	%al, %eax
	cmoval	%r9d, %eax
	addq	$-24, %rsi
	testb	%al, %al
	je	.LBB13_20
	movzbl	%al, %eax
	cmpl	$1, %eax
	jne	.LBB13_77
	movupd	(%rsi), %xmm0
	addpd	%xmm0, %xmm1
	movapd	%xmm1, %xmm0
	subpd	%xmm1, %xmm0
	movapd	%xmm0, %xmm2
	ucomisd	%xmm7, %xmm2
	movb	$14, %al
	jne	.LBB13_322
	jp	.LBB13_322
	unpckhpd	%xmm0, %xmm0
	ucomisd	%xmm7, %xmm0
	jne	.LBB13_322
	jp	.LBB13_322
	movupd	%xmm1, (%rsi)
	jmp	.LBB13_8
	.p2align	4
.LBB13_26:
	cmpb	$1, %r9b
	movq	%r8, 88(%rsp)
	movapd	%xmm8, 112(%rsp)
	jne	.LBB13_42
	cmpb	$1, (%r12,%r11)
	jne	.LBB13_61
	leaq	(,%r11,8), %rax
	leaq	(%rax,%rax,2), %rax
	movsd	(%rbp,%rax), %xmm0
	addsd	%xmm0, %xmm0
	movapd	%xmm0, %xmm1
	subsd	%xmm0, %xmm1
	ucomisd	%xmm7, %xmm1
	jne	.LBB13_320
	jp	.LBB13_320
	movupd	8(%rbp,%rax), %xmm2
	movapd	%xmm2, %xmm1
	mulpd	%xmm2, %xmm1
	movapd	%xmm1, %xmm3
	unpckhpd	%xmm1, %xmm3
	subpd	%xmm3, %xmm1
	movapd	%xmm1, %xmm3
	subsd	%xmm1, %xmm3
	ucomisd	%xmm7, %xmm3
	movb	$14, %al
	jne	.LBB13_322
	jp	.LBB13_322
	movapd	%xmm2, %xmm3
	unpckhpd	%xmm2, %xmm3
	mulsd	%xmm2, %xmm3
	addsd	%xmm3, %xmm3
	xorpd	%xmm2, %xmm2
	addsd	%xmm3, %xmm2
	movapd	%xmm2, %xmm3
	subsd	%xmm2, %xmm3
	ucomisd	%xmm7, %xmm3
	jne	.LBB13_322
	jp	.LBB13_322
	movq	168(%rsp), %rcx
	movb	$1, (%r12,%rcx)
	movq	16(%r14), %rax
	movb	$0, (%rax,%rcx)
	movq	32(%r14), %rax
	movsd	%xmm0, (%rax,%r15)
	movlpd	%xmm1, 8(%rax,%r15)
	movsd	%xmm2, 16(%rax,%r15)
	movl	$1, %ebp
	jmp	.LBB13_201
	.p2align	4
.LBB13_32:
	cmpq	$4, %r13
	movq	%rbp, 80(%rsp)
	movq	%rdx, 128(%rsp)
	je	.LBB13_46
	movb	%r9b, 96(%rsp)
	leaq	(%r11,%r10), %rcx
	cmpl	$3, %r13d
	jne	.LBB13_53
	xorpd	%xmm4, %xmm4
	cmpq	%rcx, %r11
	jae	.LBB13_69
	leaq	(%r12,%rdx), %rcx
	incq	%rcx
	leaq	32(,%rax,8), %r9
	addq	%rbp, %r9
	xorl	%esi, %esi
	jmp	.LBB13_37
	.p2align	4
.LBB13_36:
	incq	%rsi
	addq	$24, %r9
	cmpq	%rsi, %r10
	je	.LBB13_69
.LBB13_37:
	movb	$6, %al
	cmpb	$1, (%rcx,%rsi)
	jne	.LBB13_322
	movsd	-8(%r9), %xmm2
	movupd	(%r9), %xmm3
	movapd	%xmm2, %xmm1
	unpcklpd	%xmm2, %xmm1
	mulpd	%xmm3, %xmm1
	movapd	%xmm1, %xmm3
	unpckhpd	%xmm1, %xmm3
	ucomisd	%xmm7, %xmm3
	jne	.LBB13_40
	jp	.LBB13_40
	movapd	%xmm1, %xmm3
	ucomisd	%xmm7, %xmm3
	jne	.LBB13_40
	jnp	.LBB13_36
.LBB13_40:
	addsd	.LCPI13_6(%rip), %xmm2
	ucomisd	%xmm7, %xmm2
	jne	.LBB13_322
	jp	.LBB13_322
	addpd	%xmm1, %xmm4
	jmp	.LBB13_36
.LBB13_42:
	pxor	%xmm0, %xmm0
	movdqa	%xmm0, 176(%rsp)
	leaq	(%r11,%r10), %r15
	cmpq	%r15, %r11
	jae	.LBB13_68
	movb	$1, %al
	movq	%r11, %rdx
	cmpb	$4, %r9b
	jb	.LBB13_153
	cmpb	$32, %r9b
	jae	.LBB13_106
	xorl	%ecx, %ecx
	jmp	.LBB13_150
.LBB13_46:
	movb	$6, %al
	cmpb	$1, %r9b
	jne	.LBB13_322
	leaq	(,%r11,8), %rcx
	leaq	(%rcx,%rcx,2), %rcx
	movsd	(%rbp,%rcx), %xmm0
	ucomisd	392(%rsp), %xmm0
	jne	.LBB13_322
	jp	.LBB13_322
	cmpb	$1, (%r12,%r11)
	jne	.LBB13_322
	movapd	%xmm8, %xmm0
	shufpd	$1, %xmm8, %xmm0
	movsd	8(%rbp,%rcx), %xmm2
	movsd	16(%rbp,%rcx), %xmm1
	unpcklpd	%xmm1, %xmm1
	mulpd	%xmm0, %xmm1
	unpcklpd	%xmm2, %xmm2
	mulpd	%xmm8, %xmm2
	movapd	%xmm2, %xmm0
	subpd	%xmm1, %xmm0
	addpd	%xmm1, %xmm2
	movsd	%xmm0, %xmm2
	movq	8(%r14), %rax
	movq	24(%r14), %rcx
	movq	40(%r14), %rdx
	movq	%r12, 176(%rsp)
	movq	%rax, 184(%rsp)
	movq	%rdi, 192(%rsp)
	movq	%rcx, 200(%rsp)
	movq	%rbp, 208(%rsp)
	movq	%rdx, 216(%rsp)
	movw	$260, 296(%rsp)
	leaq	298(%rsp), %rax
	movq	$0, 6(%rax)
	movq	$0, (%rax)
	movapd	%xmm2, 96(%rsp)
	movupd	%xmm2, 312(%rsp)
	leaq	(%r8,%rbx), %r15
	movq	%rbx, %r14
	movq	%r8, 88(%rsp)
	testq	%r8, %r8
	je	.LBB13_90
	movq	40(%rsp), %rbp
	.p2align	4
.LBB13_51:
	leaq	(,%rbp,8), %rax
	leaq	(%rax,%rax,2), %r13
	movq	80(%rsp), %rax
	movsd	(%rax,%r13), %xmm0
	movupd	8(%rax,%r13), %xmm1
	movzbl	(%r12,%rbp), %eax
	movzbl	(%rdi,%rbp), %ebx
	movb	%al, 240(%rsp)
	movb	%bl, 241(%rsp)
	leaq	242(%rsp), %rax
	movw	$0, 4(%rax)
	movl	$0, (%rax)
	movsd	%xmm0, 248(%rsp)
	movapd	%xmm1, 112(%rsp)
	movupd	%xmm1, 256(%rsp)
	leaq	1(%rbp), %r14
	leaq	176(%rsp), %rdi
	leaq	296(%rsp), %rsi
	leaq	240(%rsp), %rcx
	movl	$4, %r9d
	movq	%r11, %rdx
	movq	%r14, %r8
	callq	"sums::order::cmp_term"
	cmpb	$2, %al
	jne	.LBB13_89
	addq	%rbx, %r14
	movq	%r14, %rbp
	cmpq	%r15, %r14
	movq	128(%rsp), %rax
	leaq	1(%rax), %r11
	movq	144(%rsp), %rdi
	jb	.LBB13_51
	jmp	.LBB13_90
.LBB13_53:
	xorpd	%xmm3, %xmm3
	cmpq	%rcx, %r11
	jae	.LBB13_72
	leaq	(%r12,%rdx), %rcx
	incq	%rcx
	leaq	32(,%rax,8), %r9
	addq	%rbp, %r9
	xorl	%esi, %esi
	jmp	.LBB13_58
	.p2align	4
.LBB13_55:
	addsd	.LCPI13_6(%rip), %xmm1
	ucomisd	%xmm7, %xmm1
	jne	.LBB13_322
	jp	.LBB13_322
	addpd	%xmm0, %xmm3
.LBB13_57:
	incq	%rsi
	addq	$24, %r9
	cmpq	%rsi, %r10
	je	.LBB13_72
.LBB13_58:
	movb	$6, %al
	cmpb	$1, (%rcx,%rsi)
	jne	.LBB13_322
	movsd	-8(%r9), %xmm1
	movupd	(%r9), %xmm2
	movapd	%xmm1, %xmm0
	unpcklpd	%xmm1, %xmm0
	mulpd	%xmm2, %xmm0
	movapd	%xmm0, %xmm2
	unpckhpd	%xmm0, %xmm2
	ucomisd	%xmm7, %xmm2
	jne	.LBB13_55
	jp	.LBB13_55
	movapd	%xmm0, %xmm2
	ucomisd	%xmm7, %xmm2
	jne	.LBB13_55
	jnp	.LBB13_57
	jmp	.LBB13_55
.LBB13_61:
	pxor	%xmm0, %xmm0
	movdqa	%xmm0, 176(%rsp)
	cmpq	$-1, %r11
	je	.LBB13_68
	addq	$2, %rdx
	movq	%r11, %r14
	movq	%r12, 160(%rsp)
.LBB13_63:
	movzbl	(%rdi,%r14), %r13d
	movzbl	(%r12,%r14), %ebp
	incq	%r14
	movq	%r11, %rbx
	.p2align	4
.LBB13_64:
	movq	%rdx, %r12
	movzbl	(%rdi,%rbx), %r15d
	movq	160(%rsp), %rax
	movzbl	(%rax,%rbx), %ecx
	incq	%rbx
	movq	%rdi, 8(%rsp)
	movq	%rax, (%rsp)
	movq	$3, 16(%rsp)
	movzbl	%bpl, %edi
	movq	%r14, %rsi
	movq	%r13, %rdx
	movq	%rbx, %r8
	movq	%r15, %r9
	callq	"arithmetic::multiply::can_pair"
	testb	%al, %al
	je	.LBB13_198
	addq	%r15, %rbx
	movq	%r12, %rdx
	cmpq	%r12, %rbx
	movq	144(%rsp), %rdi
	jb	.LBB13_64
	addq	%r13, %r14
	cmpq	%rdx, %r14
	movq	64(%rsp), %r11
	movq	160(%rsp), %r12
	jb	.LBB13_63
	movq	168(%rsp), %rax
	movq	%rax, (%rsp)
	movq	$4, 8(%rsp)
	leaq	176(%rsp), %rdi
	movl	$1, %ecx
	movl	$1, %r9d
	movq	32(%rsp), %r14
	movq	%r14, %rsi
	movq	%r11, %rdx
	movq	%r11, %r8
	callq	"arithmetic::multiply::expr_mul"
	movzbl	176(%rsp), %ecx
	movzbl	177(%rsp), %eax
	movzbl	184(%rsp), %ebp
	movq	40(%rsp), %rbx
	jmp	.LBB13_199
.LBB13_68:
	xorl	%ecx, %ecx
	xorl	%eax, %eax
	xorl	%ebp, %ebp
	jmp	.LBB13_200
.LBB13_69:
	ucomisd	384(%rsp), %xmm0
	movsd	.LCPI13_0(%rip), %xmm1
	movzbl	96(%rsp), %r9d
	jne	.LBB13_70
	jnp	.LBB13_119
.LBB13_70:
	ucomisd	376(%rsp), %xmm0
	jne	.LBB13_117
	jp	.LBB13_117
	movsd	.LCPI13_7(%rip), %xmm1
	jmp	.LBB13_119
.LBB13_72:
	leal	(,%r13,8), %ecx
	movabsq	$577874754439415559, %rax
	shrq	%cl, %rax
	cmpb	$8, %r13b
	movl	$7, %r9d
	cmovbl	%eax, %r9d
	movapd	%xmm3, %xmm0
	unpcklpd	%xmm3, %xmm0
	mulpd	%xmm8, %xmm0
	shufpd	$1, %xmm8, %xmm8
	unpckhpd	%xmm3, %xmm3
	mulpd	%xmm8, %xmm3
	movapd	%xmm0, %xmm1
	subpd	%xmm3, %xmm1
	addpd	%xmm0, %xmm3
	movsd	%xmm1, %xmm3
	movq	8(%r14), %rax
	movq	24(%r14), %rcx
	movq	40(%r14), %rsi
	movq	%r12, 160(%rsp)
	movq	%r12, 176(%rsp)
	movq	%rax, 184(%rsp)
	movq	%rdi, 192(%rsp)
	movq	%rcx, 200(%rsp)
	movq	%rbp, 208(%rsp)
	movq	%rsi, 216(%rsp)
	movl	%r9d, 332(%rsp)
	movb	%r9b, 296(%rsp)
	movzbl	96(%rsp), %eax
	movb	%al, 297(%rsp)
	leaq	298(%rsp), %rax
	movq	$0, 6(%rax)
	movq	$0, (%rax)
	movapd	%xmm3, 272(%rsp)
	movupd	%xmm3, 312(%rsp)
	leaq	(%r8,%rbx), %r12
	movq	%rbx, %r14
	movq	%r8, 88(%rsp)
	testq	%r8, %r8
	je	.LBB13_96
	movq	40(%rsp), %rbp
	.p2align	4
.LBB13_74:
	leaq	(,%rbp,8), %rax
	leaq	(%rax,%rax,2), %r15
	movq	80(%rsp), %rax
	movsd	(%rax,%r15), %xmm0
	movupd	8(%rax,%r15), %xmm1
	movq	160(%rsp), %rax
	movzbl	(%rax,%rbp), %eax
	movzbl	(%rdi,%rbp), %ebx
	movb	%al, 240(%rsp)
	movb	%bl, 241(%rsp)
	leaq	242(%rsp), %rax
	movw	$0, 4(%rax)
	movl	$0, (%rax)
	movsd	%xmm0, 248(%rsp)
	movapd	%xmm1, 112(%rsp)
	movupd	%xmm1, 256(%rsp)
	leaq	1(%rbp), %r14
	leaq	176(%rsp), %rdi
	leaq	296(%rsp), %rsi
	leaq	240(%rsp), %rcx
	movl	$4, %r9d
	movq	%r11, %rdx
	movq	%r14, %r8
	callq	"sums::order::cmp_term"
	cmpb	$2, %al
	jne	.LBB13_95
	addq	%rbx, %r14
	movq	%r14, %rbp
	cmpq	%r12, %r14
	movq	128(%rsp), %rdx
	leaq	1(%rdx), %r11
	movq	144(%rsp), %rdi
	jb	.LBB13_74
	jmp	.LBB13_96
.LBB13_76:
	movq	%rbx, %rcx
	jmp	.LBB13_78
.LBB13_77:
	incq	%rcx
.LBB13_78:
	xorpd	%xmm2, %xmm2
	addpd	%xmm2, %xmm1
	movapd	%xmm1, %xmm2
	subpd	%xmm1, %xmm2
	movapd	%xmm2, %xmm3
	ucomisd	%xmm7, %xmm3
	movb	$14, %al
	jne	.LBB13_322
	jp	.LBB13_322
	unpckhpd	%xmm2, %xmm2
	ucomisd	%xmm7, %xmm2
	jne	.LBB13_322
	jp	.LBB13_322
	cmpq	$63, %r8
	ja	.LBB13_321
	cmpq	%rdx, %rcx
	jae	.LBB13_88
	leal	(%rbx,%r8), %eax
	subl	%ecx, %eax
	testb	$1, %al
	je	.LBB13_84
	movzbl	-1(%r12,%rdx), %eax
	movb	%al, (%r12,%rdx)
	movzbl	-1(%rdi,%rdx), %eax
	movb	%al, (%rdi,%rdx)
	leaq	(%rdx,%rdx,2), %rax
	decq	%rdx
	movq	-8(%rbp,%rax,8), %rsi
	movq	%rsi, 16(%rbp,%rax,8)
	movupd	-24(%rbp,%rax,8), %xmm2
	movupd	%xmm2, (%rbp,%rax,8)
.LBB13_84:
	movq	232(%rsp), %rax
	addq	%r8, %rax
	cmpq	%rcx, %rax
	je	.LBB13_87
	leaq	(%rdx,%rdx,2), %rax
	leaq	(,%rax,8), %rax
	addq	%rbp, %rax
	.p2align	4
.LBB13_86:
	movzbl	-1(%r12,%rdx), %esi
	movb	%sil, (%r12,%rdx)
	movzbl	-1(%rdi,%rdx), %esi
	movb	%sil, (%rdi,%rdx)
	movq	-8(%rax), %rsi
	movq	%rsi, 16(%rax)
	movups	-24(%rax), %xmm2
	movups	%xmm2, (%rax)
	movzbl	-2(%r12,%rdx), %esi
	movb	%sil, -1(%r12,%rdx)
	movzbl	-2(%rdi,%rdx), %esi
	movb	%sil, -1(%rdi,%rdx)
	addq	$-2, %rdx
	movq	-32(%rax), %rsi
	movq	%rsi, -8(%rax)
	movupd	-48(%rax), %xmm2
	movupd	%xmm2, -24(%rax)
	addq	$-48, %rax
	cmpq	%rdx, %rcx
	jb	.LBB13_86
.LBB13_87:
	movq	(%r14), %r12
.LBB13_88:
	incq	%r8
	movb	$1, (%r12,%rcx)
	movq	16(%r14), %rax
	movb	$0, (%rax,%rcx)
	leaq	(%rcx,%rcx,2), %rax
	movq	32(%r14), %rcx
	movsd	%xmm0, (%rcx,%rax,8)
	movupd	%xmm1, 8(%rcx,%rax,8)
	jmp	.LBB13_8
.LBB13_89:
	movapd	112(%rsp), %xmm0
	movzbl	%al, %eax
	movq	%rbp, %r14
	testl	%eax, %eax
	movq	128(%rsp), %rax
	leaq	1(%rax), %r11
	movq	144(%rsp), %rdi
	jne	.LBB13_102
.LBB13_90:
	xorpd	%xmm0, %xmm0
	movapd	96(%rsp), %xmm2
	addpd	%xmm0, %xmm2
	movapd	%xmm2, %xmm0
	subpd	%xmm2, %xmm0
	movapd	%xmm0, %xmm1
	movsd	72(%rsp), %xmm7
	ucomisd	%xmm7, %xmm1
	movb	$14, %al
	movb	$1, %bpl
	jne	.LBB13_115
	jp	.LBB13_115
	unpckhpd	%xmm0, %xmm0
	ucomisd	%xmm7, %xmm0
	movq	48(%rsp), %r10
	jne	.LBB13_108
	jp	.LBB13_108
	movapd	%xmm2, 96(%rsp)
	movl	$3, %ecx
	movq	%r11, %rsi
	movq	%r10, %rdx
	movq	%r10, %r13
	callq	"sums::order::nests_inside"
	testb	%al, %al
	movq	40(%rsp), %rbx
	je	.LBB13_109
	movq	88(%rsp), %rsi
	leaq	(%rsi,%r13), %rcx
	incq	%rcx
	cmpq	$64, %rcx
	movq	128(%rsp), %r9
	leaq	1(%r9), %r11
	movq	%r13, %r10
	jbe	.LBB13_240
	movb	$11, %al
	xorl	%r8d, %r8d
	movq	32(%rsp), %r14
	movsd	72(%rsp), %xmm7
	movq	56(%rsp), %r15
	jmp	.LBB13_7
.LBB13_95:
	movapd	112(%rsp), %xmm3
	movzbl	%al, %eax
	movq	%rbp, %r14
	testl	%eax, %eax
	movq	128(%rsp), %rdx
	leaq	1(%rdx), %r11
	movq	144(%rsp), %rdi
	jne	.LBB13_110
.LBB13_96:
	xorl	%eax, %eax
	cmpl	$6, %r13d
	sete	%al
	movdqa	.LCPI13_9(%rip), %xmm0
	movdqa	272(%rsp), %xmm2
	pxor	%xmm2, %xmm0
	movd	%eax, %xmm1
	pshufd	$0, %xmm1, %xmm1
	pslld	$31, %xmm1
	psrad	$31, %xmm1
	pand	%xmm1, %xmm0
	pandn	%xmm2, %xmm1
	por	%xmm0, %xmm1
	pxor	%xmm2, %xmm2
	addpd	%xmm1, %xmm2
	movapd	%xmm2, %xmm0
	subpd	%xmm2, %xmm0
	movapd	%xmm0, %xmm1
	movsd	72(%rsp), %xmm7
	ucomisd	%xmm7, %xmm1
	movb	$14, %al
	movb	$1, %bpl
	jne	.LBB13_115
	jp	.LBB13_115
	unpckhpd	%xmm0, %xmm0
	ucomisd	%xmm7, %xmm0
	movq	56(%rsp), %r15
	movq	48(%rsp), %r10
	jne	.LBB13_116
	jp	.LBB13_116
	movzbl	96(%rsp), %r9d
	testb	%r9b, %r9b
	movq	40(%rsp), %rbx
	je	.LBB13_100
	movl	$3, %ecx
	movq	%r11, %rsi
	movq	%r10, %rdx
	movapd	%xmm2, 112(%rsp)
	callq	"sums::order::nests_inside"
	movapd	112(%rsp), %xmm2
	movzbl	96(%rsp), %r9d
	movq	128(%rsp), %rdx
	movq	144(%rsp), %rdi
	movq	48(%rsp), %r10
	leaq	1(%rdx), %r11
	movsd	72(%rsp), %xmm7
	testb	%al, %al
	je	.LBB13_245
.LBB13_100:
	movq	88(%rsp), %r8
	leaq	(%r8,%r10), %r13
	incq	%r13
	cmpq	$64, %r13
	jbe	.LBB13_136
	movb	$11, %al
	xorl	%r8d, %r8d
	movq	32(%rsp), %r14
	jmp	.LBB13_7
.LBB13_102:
	movapd	96(%rsp), %xmm2
	addpd	%xmm0, %xmm2
	movapd	%xmm2, %xmm0
	subpd	%xmm2, %xmm0
	movapd	%xmm0, %xmm1
	movsd	72(%rsp), %xmm7
	ucomisd	%xmm7, %xmm1
	movb	$14, %al
	movb	$1, %bpl
	jne	.LBB13_115
	jp	.LBB13_115
	unpckhpd	%xmm0, %xmm0
	ucomisd	%xmm7, %xmm0
	movq	32(%rsp), %r14
	movq	56(%rsp), %r15
	movq	48(%rsp), %r10
	jne	.LBB13_254
	jp	.LBB13_254
	movapd	%xmm2, 96(%rsp)
	movl	$3, %ecx
	movq	%r11, %rsi
	movq	%r10, %rdx
	callq	"sums::order::nests_inside"
	testb	%al, %al
	je	.LBB13_255
	movq	80(%rsp), %rax
	movapd	96(%rsp), %xmm0
	movupd	%xmm0, 8(%rax,%r13)
	xorl	%ebp, %ebp
	xorl	%eax, %eax
	movq	40(%rsp), %rbx
	movsd	72(%rsp), %xmm7
	jmp	.LBB13_217
.LBB13_106:
	movl	%r10d, %ecx
	andl	$-32, %ecx
	movdqu	(%r12,%r11), %xmm4
	movdqu	16(%r12,%r11), %xmm3
	movdqa	.LCPI13_4(%rip), %xmm2
	cmpq	$32, %rcx
	jne	.LBB13_142
	pcmpeqb	%xmm2, %xmm4
	pcmpeqb	%xmm2, %xmm3
	movdqa	%xmm4, %xmm0
	movdqa	%xmm3, %xmm1
	jmp	.LBB13_148
.LBB13_108:
	xorl	%r8d, %r8d
	movq	40(%rsp), %rbx
	movq	32(%rsp), %r14
	movq	56(%rsp), %r15
	jmp	.LBB13_7
.LBB13_109:
	movb	$12, %al
	xorl	%r8d, %r8d
	movq	32(%rsp), %r14
	movsd	72(%rsp), %xmm7
	movq	56(%rsp), %r15
	movq	64(%rsp), %r11
	movq	%r13, %r10
	jmp	.LBB13_7
.LBB13_110:
	xorl	%eax, %eax
	cmpl	$6, %r13d
	sete	%al
	movdqa	.LCPI13_9(%rip), %xmm0
	movdqa	272(%rsp), %xmm2
	pxor	%xmm2, %xmm0
	movd	%eax, %xmm1
	pshufd	$0, %xmm1, %xmm4
	pslld	$31, %xmm4
	psrad	$31, %xmm4
	pand	%xmm4, %xmm0
	pandn	%xmm2, %xmm4
	por	%xmm0, %xmm4
	addpd	%xmm3, %xmm4
	movapd	%xmm4, %xmm0
	subpd	%xmm4, %xmm0
	movapd	%xmm0, %xmm1
	movsd	72(%rsp), %xmm7
	ucomisd	%xmm7, %xmm1
	movb	$14, %al
	movb	$1, %bpl
	jne	.LBB13_115
	jp	.LBB13_115
	unpckhpd	%xmm0, %xmm0
	ucomisd	%xmm7, %xmm0
	movq	32(%rsp), %r14
	jne	.LBB13_259
	jp	.LBB13_259
	cmpb	$0, 96(%rsp)
	movq	48(%rsp), %r10
	je	.LBB13_114
	movl	$3, %ecx
	movq	%r11, %rsi
	movq	%r10, %rdx
	movapd	%xmm4, 144(%rsp)
	callq	"sums::order::nests_inside"
	movapd	144(%rsp), %xmm4
	movq	48(%rsp), %r10
	movq	64(%rsp), %r11
	movsd	72(%rsp), %xmm7
	testb	%al, %al
	je	.LBB13_302
.LBB13_114:
	movq	80(%rsp), %rax
	movupd	%xmm4, 8(%rax,%r15)
	xorl	%ebp, %ebp
	xorl	%eax, %eax
	movq	40(%rsp), %rbx
	movq	56(%rsp), %r15
	movq	88(%rsp), %r8
	jmp	.LBB13_7
.LBB13_116:
	xorl	%r8d, %r8d
	movq	40(%rsp), %rbx
	movq	32(%rsp), %r14
	jmp	.LBB13_7
.LBB13_117:
	ucomisd	360(%rsp), %xmm0
	jne	.LBB13_324
	jp	.LBB13_324
	movsd	.LCPI13_8(%rip), %xmm1
.LBB13_119:
	movapd	%xmm8, %xmm0
	shufpd	$1, %xmm8, %xmm0
	movapd	%xmm4, %xmm2
	unpckhpd	%xmm4, %xmm2
	mulpd	%xmm0, %xmm2
	unpcklpd	%xmm4, %xmm4
	mulpd	%xmm8, %xmm4
	movapd	%xmm4, %xmm0
	subpd	%xmm2, %xmm0
	addpd	%xmm2, %xmm4
	movsd	%xmm0, %xmm4
	unpcklpd	%xmm1, %xmm1
	divpd	%xmm1, %xmm4
	movq	8(%r14), %rax
	movq	24(%r14), %rcx
	movq	40(%r14), %rsi
	movq	%r12, 176(%rsp)
	movq	%rax, 184(%rsp)
	movq	%rdi, 192(%rsp)
	movq	%rcx, 200(%rsp)
	movq	%rbp, 208(%rsp)
	movq	%rsi, 216(%rsp)
	movb	$2, 296(%rsp)
	movb	%r9b, 297(%rsp)
	leaq	298(%rsp), %rax
	movq	$0, 6(%rax)
	movq	$0, (%rax)
	movapd	%xmm4, 272(%rsp)
	movupd	%xmm4, 312(%rsp)
	movq	%rbx, %rbp
	addq	%r8, %rbx
	movq	%r8, 88(%rsp)
	testq	%r8, %r8
	je	.LBB13_124
	movq	40(%rsp), %r14
	.p2align	4
.LBB13_121:
	leaq	(,%r14,8), %rax
	leaq	(%rax,%rax,2), %r13
	movq	80(%rsp), %rax
	movsd	(%rax,%r13), %xmm0
	movupd	8(%rax,%r13), %xmm1
	movzbl	(%r12,%r14), %eax
	movzbl	(%rdi,%r14), %r15d
	movb	%al, 240(%rsp)
	movb	%r15b, 241(%rsp)
	leaq	242(%rsp), %rax
	movw	$0, 4(%rax)
	movl	$0, (%rax)
	movsd	%xmm0, 248(%rsp)
	movapd	%xmm1, 112(%rsp)
	movupd	%xmm1, 256(%rsp)
	leaq	1(%r14), %rbp
	leaq	176(%rsp), %rdi
	leaq	296(%rsp), %rsi
	leaq	240(%rsp), %rcx
	movl	$4, %r9d
	movq	%r11, %rdx
	movq	%rbp, %r8
	callq	"sums::order::cmp_term"
	cmpb	$2, %al
	jne	.LBB13_123
	addq	%r15, %rbp
	movq	%rbp, %r14
	cmpq	%rbx, %rbp
	movq	128(%rsp), %rdx
	leaq	1(%rdx), %r11
	movq	144(%rsp), %rdi
	jb	.LBB13_121
	jmp	.LBB13_124
.LBB13_123:
	movapd	112(%rsp), %xmm0
	movzbl	%al, %eax
	movq	%r14, %rbp
	testl	%eax, %eax
	movq	128(%rsp), %rdx
	leaq	1(%rdx), %r11
	movq	144(%rsp), %rdi
	jne	.LBB13_130
.LBB13_124:
	xorpd	%xmm0, %xmm0
	movapd	272(%rsp), %xmm2
	addpd	%xmm0, %xmm2
	movapd	%xmm2, %xmm0
	subpd	%xmm2, %xmm0
	movapd	%xmm0, %xmm1
	movsd	72(%rsp), %xmm7
	ucomisd	%xmm7, %xmm1
	movb	$14, %al
	jne	.LBB13_135
	jp	.LBB13_135
	unpckhpd	%xmm0, %xmm0
	ucomisd	%xmm7, %xmm0
	movq	56(%rsp), %r15
	movq	48(%rsp), %r10
	jne	.LBB13_247
	jp	.LBB13_247
	movzbl	96(%rsp), %r9d
	testb	%r9b, %r9b
	je	.LBB13_128
	movl	$3, %ecx
	movq	%r11, %rsi
	movq	%r10, %rdx
	movapd	%xmm2, 272(%rsp)
	callq	"sums::order::nests_inside"
	movapd	272(%rsp), %xmm2
	movzbl	96(%rsp), %r9d
	movq	128(%rsp), %rdx
	movq	144(%rsp), %rdi
	movq	48(%rsp), %r10
	leaq	1(%rdx), %r11
	movsd	72(%rsp), %xmm7
	testb	%al, %al
	je	.LBB13_246
.LBB13_128:
	movq	88(%rsp), %r8
	leaq	(%r8,%r10), %r13
	incq	%r13
	cmpq	$64, %r13
	movq	32(%rsp), %r14
	jbe	.LBB13_139
	movb	$11, %al
	xorl	%r8d, %r8d
	jmp	.LBB13_248
.LBB13_130:
	movapd	272(%rsp), %xmm2
	addpd	%xmm0, %xmm2
	movapd	%xmm2, %xmm0
	subpd	%xmm2, %xmm0
	movapd	%xmm0, %xmm1
	movsd	72(%rsp), %xmm7
	ucomisd	%xmm7, %xmm1
	movb	$14, %al
	movb	$1, %bpl
	jne	.LBB13_260
	jp	.LBB13_260
	unpckhpd	%xmm0, %xmm0
	ucomisd	%xmm7, %xmm0
	movq	56(%rsp), %r15
	movq	48(%rsp), %r10
	movq	40(%rsp), %rbx
	jne	.LBB13_304
	jp	.LBB13_304
	cmpb	$0, 96(%rsp)
	je	.LBB13_134
	movl	$3, %ecx
	movq	%r11, %rsi
	movq	%r10, %rdx
	movapd	%xmm2, 272(%rsp)
	callq	"sums::order::nests_inside"
	movapd	272(%rsp), %xmm2
	movq	48(%rsp), %r10
	movq	64(%rsp), %r11
	movsd	72(%rsp), %xmm7
	testb	%al, %al
	je	.LBB13_303
.LBB13_134:
	movq	80(%rsp), %rax
	movupd	%xmm2, 8(%rax,%r13)
	xorl	%ebp, %ebp
	xorl	%eax, %eax
	movq	32(%rsp), %r14
	movq	88(%rsp), %r8
	jmp	.LBB13_7
.LBB13_135:
	xorl	%r8d, %r8d
	movq	32(%rsp), %r14
	movq	56(%rsp), %r15
	movq	48(%rsp), %r10
	jmp	.LBB13_248
.LBB13_136:
	cmpq	%r12, %r14
	jae	.LBB13_256
	leal	(%rbx,%r8), %eax
	subl	%r14d, %eax
	movq	%r13, %rcx
	testb	$1, %al
	jne	.LBB13_261
	movq	80(%rsp), %rbp
	movq	%r12, %r9
	jmp	.LBB13_262
.LBB13_139:
	cmpq	%rbx, %rbp
	jae	.LBB13_257
	movq	40(%rsp), %rax
	addl	%r8d, %eax
	subl	%ebp, %eax
	testb	$1, %al
	movq	%r13, 112(%rsp)
	jne	.LBB13_277
	movq	%rbx, %r9
	jmp	.LBB13_278
.LBB13_142:
	pcmpeqb	%xmm2, %xmm3
	pcmpeqb	%xmm2, %xmm4
	movdqu	32(%r12,%r11), %xmm0
	movdqu	48(%r12,%r11), %xmm1
	pcmpeqb	%xmm2, %xmm0
	pand	%xmm4, %xmm0
	pcmpeqb	%xmm2, %xmm1
	pand	%xmm3, %xmm1
	cmpl	$64, %ecx
	je	.LBB13_148
	movdqu	64(%r12,%r11), %xmm3
	movdqu	80(%r12,%r11), %xmm4
	pcmpeqb	%xmm2, %xmm3
	pcmpeqb	%xmm2, %xmm4
	pand	%xmm3, %xmm0
	pand	%xmm4, %xmm1
	cmpl	$96, %ecx
	je	.LBB13_148
	movdqu	96(%r12,%r11), %xmm3
	movdqu	112(%r12,%r11), %xmm4
	pcmpeqb	%xmm2, %xmm3
	pcmpeqb	%xmm2, %xmm4
	pand	%xmm3, %xmm0
	pand	%xmm4, %xmm1
	cmpl	$128, %ecx
	je	.LBB13_148
	movdqu	128(%r12,%r11), %xmm3
	movdqu	144(%r12,%r11), %xmm4
	pcmpeqb	%xmm2, %xmm3
	pcmpeqb	%xmm2, %xmm4
	pand	%xmm3, %xmm0
	pand	%xmm4, %xmm1
	cmpl	$160, %ecx
	je	.LBB13_148
	movdqu	160(%r12,%r11), %xmm3
	movdqu	176(%r12,%r11), %xmm4
	pcmpeqb	%xmm2, %xmm3
	pcmpeqb	%xmm2, %xmm4
	pand	%xmm3, %xmm0
	pand	%xmm4, %xmm1
	cmpl	$192, %ecx
	je	.LBB13_148
	movdqu	192(%r12,%r11), %xmm3
	movdqu	208(%r12,%r11), %xmm4
	pcmpeqb	%xmm2, %xmm3
	pcmpeqb	%xmm2, %xmm4
	pand	%xmm3, %xmm0
	pand	%xmm4, %xmm1
.LBB13_148:
	pand	%xmm1, %xmm0
	psllw	$7, %xmm0
	pmovmskb	%xmm0, %eax
	cmpl	$65535, %eax
	sete	%al
	cmpl	%r10d, %ecx
	je	.LBB13_154
	testb	$28, %r10b
	je	.LBB13_315
.LBB13_150:
	movl	%r10d, %esi
	andl	$-4, %esi
	leaq	(%r11,%rsi), %rdx
	movzbl	%al, %eax
	movd	%eax, %xmm1
	movaps	.LCPI13_5(%rip), %xmm0
	movss	%xmm1, %xmm0
	leaq	(%r12,%r11), %rax
	.p2align	4
.LBB13_151:
	movd	(%rax,%rcx), %xmm1
	punpcklbw	%xmm1, %xmm1
	punpcklwd	%xmm1, %xmm1
	pcmpeqb	.LCPI13_4(%rip), %xmm1
	andps	%xmm1, %xmm0
	addq	$4, %rcx
	cmpq	%rcx, %rsi
	jne	.LBB13_151
	pslld	$31, %xmm0
	movmskps	%xmm0, %eax
	xorl	$15, %eax
	sete	%al
	cmpl	%r10d, %esi
	je	.LBB13_154
	.p2align	4
.LBB13_153:
	cmpb	$1, (%r12,%rdx)
	sete	%cl
	andb	%cl, %al
	incq	%rdx
	cmpq	%rdx, %r15
	jne	.LBB13_153
.LBB13_154:
	movb	$1, %dl
	movq	%r11, %rsi
	cmpb	$4, %r9b
	jb	.LBB13_170
	cmpb	$32, %r9b
	jae	.LBB13_157
	xorl	%ecx, %ecx
	jmp	.LBB13_167
.LBB13_157:
	movl	%r10d, %ecx
	andl	$-32, %ecx
	movdqu	(%r12,%r11), %xmm4
	movdqu	16(%r12,%r11), %xmm3
	movdqa	.LCPI13_4(%rip), %xmm2
	cmpq	$32, %rcx
	jne	.LBB13_159
	pcmpeqb	%xmm2, %xmm4
	pcmpeqb	%xmm2, %xmm3
	movdqa	%xmm4, %xmm0
	movdqa	%xmm3, %xmm1
	jmp	.LBB13_165
.LBB13_159:
	pcmpeqb	%xmm2, %xmm3
	pcmpeqb	%xmm2, %xmm4
	movdqu	32(%r12,%r11), %xmm0
	movdqu	48(%r12,%r11), %xmm1
	pcmpeqb	%xmm2, %xmm0
	pand	%xmm4, %xmm0
	pcmpeqb	%xmm2, %xmm1
	pand	%xmm3, %xmm1
	cmpl	$64, %ecx
	je	.LBB13_165
	movdqu	64(%r12,%r11), %xmm3
	movdqu	80(%r12,%r11), %xmm4
	pcmpeqb	%xmm2, %xmm3
	pcmpeqb	%xmm2, %xmm4
	pand	%xmm3, %xmm0
	pand	%xmm4, %xmm1
	cmpl	$96, %ecx
	je	.LBB13_165
	movdqu	96(%r12,%r11), %xmm3
	movdqu	112(%r12,%r11), %xmm4
	pcmpeqb	%xmm2, %xmm3
	pcmpeqb	%xmm2, %xmm4
	pand	%xmm3, %xmm0
	pand	%xmm4, %xmm1
	cmpl	$128, %ecx
	je	.LBB13_165
	movdqu	128(%r12,%r11), %xmm3
	movdqu	144(%r12,%r11), %xmm4
	pcmpeqb	%xmm2, %xmm3
	pcmpeqb	%xmm2, %xmm4
	pand	%xmm3, %xmm0
	pand	%xmm4, %xmm1
	cmpl	$160, %ecx
	je	.LBB13_165
	movdqu	160(%r12,%r11), %xmm3
	movdqu	176(%r12,%r11), %xmm4
	pcmpeqb	%xmm2, %xmm3
	pcmpeqb	%xmm2, %xmm4
	pand	%xmm3, %xmm0
	pand	%xmm4, %xmm1
	cmpl	$192, %ecx
	je	.LBB13_165
	movdqu	192(%r12,%r11), %xmm3
	movdqu	208(%r12,%r11), %xmm4
	pcmpeqb	%xmm2, %xmm3
	pcmpeqb	%xmm2, %xmm4
	pand	%xmm3, %xmm0
	pand	%xmm4, %xmm1
.LBB13_165:
	pand	%xmm1, %xmm0
	psllw	$7, %xmm0
	pmovmskb	%xmm0, %edx
	cmpl	$65535, %edx
	sete	%dl
	cmpl	%r10d, %ecx
	je	.LBB13_171
	testb	$28, %r10b
	je	.LBB13_316
.LBB13_167:
	movl	%r10d, %r9d
	andl	$-4, %r9d
	leaq	(%r11,%r9), %rsi
	movzbl	%dl, %edx
	movd	%edx, %xmm1
	movaps	.LCPI13_5(%rip), %xmm0
	movss	%xmm1, %xmm0
	leaq	(%r12,%r11), %rdx
	.p2align	4
.LBB13_168:
	movd	(%rdx,%rcx), %xmm1
	punpcklbw	%xmm1, %xmm1
	punpcklwd	%xmm1, %xmm1
	pcmpeqb	.LCPI13_4(%rip), %xmm1
	andps	%xmm1, %xmm0
	addq	$4, %rcx
	cmpq	%rcx, %r9
	jne	.LBB13_168
	pslld	$31, %xmm0
	movmskps	%xmm0, %ecx
	xorl	$15, %ecx
	sete	%dl
	cmpl	%r10d, %r9d
	je	.LBB13_171
	.p2align	4
.LBB13_170:
	cmpb	$1, (%r12,%rsi)
	sete	%cl
	andb	%cl, %dl
	incq	%rsi
	cmpq	%rsi, %r15
	jne	.LBB13_170
.LBB13_171:
	movq	%r11, %r14
	testb	%dl, %al
	movq	%r15, 128(%rsp)
	je	.LBB13_193
	xorl	%edx, %edx
	movq	%r11, %rsi
	movq	40(%rsp), %rbx
	movq	32(%rsp), %r14
	movq	168(%rsp), %r12
.LBB13_173:
	movq	32(%r14), %rax
	leaq	(%rsi,%rsi,2), %rcx
	movsd	(%rax,%rcx,8), %xmm0
	movupd	8(%rax,%rcx,8), %xmm1
	movapd	%xmm1, %xmm2
	shufpd	$1, %xmm1, %xmm2
	movq	%r11, %rdi
	jmp	.LBB13_176
	.p2align	4
.LBB13_174:
	movq	40(%rsp), %rbx
	movq	32(%rsp), %r14
.LBB13_175:
	movb	$1, (%r8,%r11)
	movq	16(%r14), %rax
	movb	$0, (%rax,%r11)
	leaq	(%r11,%r11,2), %rax
	movq	32(%r14), %rcx
	movsd	%xmm4, (%rcx,%rax,8)
	movupd	%xmm3, 8(%rcx,%rax,8)
	movq	64(%rsp), %r11
	movq	%r13, %r8
	movq	128(%rsp), %r9
	incq	%rdi
	cmpq	%r9, %rdi
	je	.LBB13_192
.LBB13_176:
	movq	32(%r14), %r10
	leaq	(%rdi,%rdi,2), %rax
	movsd	(%r10,%rax,8), %xmm4
	addsd	%xmm0, %xmm4
	movapd	%xmm4, %xmm3
	subsd	%xmm4, %xmm3
	movb	$1, %cl
	ucomisd	%xmm7, %xmm3
	jne	.LBB13_222
	jp	.LBB13_222
	movq	%r8, %r13
	movq	(%r14), %r8
	movq	16(%r14), %r9
	movsd	8(%r10,%rax,8), %xmm3
	movsd	16(%r10,%rax,8), %xmm5
	unpcklpd	%xmm5, %xmm5
	mulpd	%xmm2, %xmm5
	unpcklpd	%xmm3, %xmm3
	mulpd	%xmm1, %xmm3
	movapd	%xmm3, %xmm6
	subpd	%xmm5, %xmm6
	addpd	%xmm5, %xmm3
	movsd	%xmm6, %xmm3
	leaq	(%rdx,%r12), %r14
	movapd	%xmm4, %xmm5
	leaq	(%rbx,%rdx), %rax
	shlq	$3, %rax
	leaq	(%rax,%rax,2), %rbx
	leaq	(%r10,%rbx), %r15
	addq	$1544, %r15
	movq	344(%rsp), %rax
	leaq	(%rax,%rdx), %r11
	.p2align	4
.LBB13_178:
	decq	%r11
	cmpq	%r11, %r12
	jae	.LBB13_184
	movsd	-32(%r15), %xmm6
	ucomisd	%xmm6, %xmm5
	seta	%al
	incb	%al
	xorl	%ebp, %ebp
	ucomisd	%xmm5, %xmm6
	movzbl	%al, %eax
	cmoval	%ebp, %eax
	addq	$-24, %r15
	testb	%al, %al
	je	.LBB13_178
	movzbl	%al, %eax
	cmpl	$2, %eax
	je	.LBB13_185
	movupd	(%r15), %xmm4
	addpd	%xmm4, %xmm3
	movapd	%xmm3, %xmm4
	subpd	%xmm3, %xmm4
	movapd	%xmm4, %xmm5
	xorl	%ebp, %ebp
	ucomisd	%xmm7, %xmm5
	movb	$14, %al
	movq	40(%rsp), %rbx
	movq	32(%rsp), %r14
	movq	64(%rsp), %r11
	movq	%r13, %r8
	jne	.LBB13_200
	jp	.LBB13_200
	unpckhpd	%xmm4, %xmm4
	ucomisd	%xmm7, %xmm4
	movq	128(%rsp), %r9
	jne	.LBB13_200
	jp	.LBB13_200
	movupd	%xmm3, (%r15)
	incq	%rdi
	cmpq	%r9, %rdi
	jne	.LBB13_176
	jmp	.LBB13_192
	.p2align	4
.LBB13_184:
	movq	%r12, %r11
.LBB13_185:
	xorpd	%xmm5, %xmm5
	addpd	%xmm5, %xmm3
	movapd	%xmm3, %xmm5
	subpd	%xmm3, %xmm5
	movapd	%xmm5, %xmm6
	xorl	%ebp, %ebp
	ucomisd	%xmm7, %xmm6
	movb	$14, %al
	jne	.LBB13_244
	jp	.LBB13_244
	unpckhpd	%xmm5, %xmm5
	ucomisd	%xmm7, %xmm5
	jne	.LBB13_244
	jp	.LBB13_244
	incq	%rdx
	cmpq	$64, %rdx
	ja	.LBB13_243
	cmpq	%r14, %r11
	jae	.LBB13_174
	leaq	(%r10,%rbx), %rax
	addq	$1536, %rax
	.p2align	4
.LBB13_190:
	movzbl	-1(%r8,%r14), %ecx
	movb	%cl, (%r8,%r14)
	movzbl	-1(%r9,%r14), %ecx
	movb	%cl, (%r9,%r14)
	decq	%r14
	movq	-8(%rax), %rcx
	movq	%rcx, 16(%rax)
	movupd	-24(%rax), %xmm5
	movupd	%xmm5, (%rax)
	addq	$-24, %rax
	cmpq	%r14, %r11
	jb	.LBB13_190
	movq	32(%rsp), %r14
	movq	(%r14), %r8
	movq	40(%rsp), %rbx
	jmp	.LBB13_175
.LBB13_192:
	incq	%rsi
	xorl	%ecx, %ecx
	movl	$0, %eax
	movq	%rdx, %rbp
	cmpq	%r9, %rsi
	jne	.LBB13_173
	jmp	.LBB13_200
	.p2align	4
.LBB13_193:
	movzbl	(%rdi,%r14), %r13d
	movzbl	(%r12,%r14), %ebp
	incq	%r14
	movq	%r11, %rbx
	.p2align	4
.LBB13_194:
	movzbl	(%rdi,%rbx), %r15d
	movzbl	(%r12,%rbx), %ecx
	incq	%rbx
	movq	%rdi, 8(%rsp)
	movq	%r12, (%rsp)
	movq	$3, 16(%rsp)
	movzbl	%bpl, %edi
	movq	%r14, %rsi
	movq	%r13, %rdx
	movq	%rbx, %r8
	movq	%r15, %r9
	callq	"arithmetic::multiply::can_pair"
	testb	%al, %al
	je	.LBB13_198
	addq	%r15, %rbx
	cmpq	128(%rsp), %rbx
	movq	144(%rsp), %rdi
	jb	.LBB13_194
	addq	%r13, %r14
	cmpq	128(%rsp), %r14
	movq	64(%rsp), %r11
	movq	48(%rsp), %rcx
	jb	.LBB13_193
	movq	168(%rsp), %rax
	movq	%rax, (%rsp)
	movq	$4, 8(%rsp)
	leaq	176(%rsp), %rdi
	movq	32(%rsp), %r14
	movq	%r14, %rsi
	movq	%r11, %rdx
	movq	%r11, %r8
	movq	%rcx, %r9
	callq	"arithmetic::multiply::expr_mul"
	movapd	112(%rsp), %xmm8
	movq	88(%rsp), %r8
	movzbl	176(%rsp), %ecx
	movzbl	177(%rsp), %eax
	movzbl	184(%rsp), %ebp
	movq	40(%rsp), %rbx
	jmp	.LBB13_200
.LBB13_198:
	movb	$6, %al
	movb	$1, %cl
	xorl	%ebp, %ebp
	movq	40(%rsp), %rbx
	movq	32(%rsp), %r14
.LBB13_199:
	movq	88(%rsp), %r8
	movapd	112(%rsp), %xmm8
.LBB13_200:
	testb	%cl, %cl
	jne	.LBB13_322
.LBB13_201:
	movq	(%r14), %rdi
	movq	8(%r14), %rax
	movq	24(%r14), %rcx
	movq	16(%r14), %rsi
	movq	40(%r14), %rdx
	movq	32(%r14), %r13
	movq	%rdi, 176(%rsp)
	movq	%rax, 184(%rsp)
	movq	%rsi, 144(%rsp)
	movq	%rsi, 192(%rsp)
	movq	%rcx, 200(%rsp)
	movq	%rdi, %rcx
	movq	%r13, 208(%rsp)
	movq	%rdx, 216(%rsp)
	movb	$2, 296(%rsp)
	movq	%rbp, 80(%rsp)
	movb	%bpl, 297(%rsp)
	leaq	298(%rsp), %rax
	movq	$0, 6(%rax)
	movq	$0, (%rax)
	movupd	%xmm8, 312(%rsp)
	leaq	(%r8,%rbx), %rax
	movq	%rax, 160(%rsp)
	movq	%rbx, %r12
	testq	%r8, %r8
	je	.LBB13_206
	movq	40(%rsp), %r14
	.p2align	4
.LBB13_203:
	leaq	(,%r14,8), %rax
	leaq	(%rax,%rax,2), %rbx
	movq	(%r13,%rbx), %xmm0
	movups	8(%r13,%rbx), %xmm1
	movq	%rcx, %r15
	movzbl	(%rcx,%r14), %eax
	movq	144(%rsp), %rcx
	movzbl	(%rcx,%r14), %ebp
	movb	%al, 240(%rsp)
	movb	%bpl, 241(%rsp)
	leaq	242(%rsp), %rax
	movw	$0, 4(%rax)
	movl	$0, (%rax)
	movq	%xmm0, 248(%rsp)
	movaps	%xmm1, 128(%rsp)
	movups	%xmm1, 256(%rsp)
	leaq	1(%r14), %r12
	leaq	176(%rsp), %rdi
	leaq	296(%rsp), %rsi
	leaq	240(%rsp), %rcx
	movl	$4, %r9d
	movq	168(%rsp), %rdx
	movq	%r12, %r8
	callq	"sums::order::cmp_term"
	cmpb	$2, %al
	jne	.LBB13_205
	addq	%rbp, %r12
	movq	%r12, %r14
	cmpq	160(%rsp), %r12
	movq	%r15, %rcx
	jb	.LBB13_203
	jmp	.LBB13_206
.LBB13_205:
	movapd	128(%rsp), %xmm0
	movzbl	%al, %eax
	movq	%r14, %r12
	testl	%eax, %eax
	movq	%r15, %rcx
	jne	.LBB13_212
.LBB13_206:
	pxor	%xmm0, %xmm0
	movapd	112(%rsp), %xmm2
	addpd	%xmm0, %xmm2
	movapd	%xmm2, %xmm0
	subpd	%xmm2, %xmm0
	movapd	%xmm0, %xmm1
	movsd	72(%rsp), %xmm7
	ucomisd	%xmm7, %xmm1
	movb	$14, %al
	movb	$1, %bpl
	jne	.LBB13_3
	jp	.LBB13_3
	unpckhpd	%xmm0, %xmm0
	ucomisd	%xmm7, %xmm0
	jne	.LBB13_3
	jp	.LBB13_3
	movq	%rcx, 128(%rsp)
	movq	80(%rsp), %rax
	movzbl	%al, %r15d
	testb	%al, %al
	je	.LBB13_210
	movl	$3, %ecx
	movq	144(%rsp), %rdi
	movq	168(%rsp), %rsi
	movq	%r15, %rdx
	movapd	%xmm2, 112(%rsp)
	callq	"sums::order::nests_inside"
	movapd	112(%rsp), %xmm2
	movsd	72(%rsp), %xmm7
	testb	%al, %al
	je	.LBB13_2
.LBB13_210:
	movq	88(%rsp), %rcx
	leaq	(%rcx,%r15), %rdx
	incq	%rdx
	cmpq	$64, %rdx
	movq	40(%rsp), %rbx
	movq	32(%rsp), %r14
	jbe	.LBB13_218
	movb	$11, %al
	xorl	%r8d, %r8d
	jmp	.LBB13_4
.LBB13_212:
	movapd	112(%rsp), %xmm2
	addpd	%xmm0, %xmm2
	movapd	%xmm2, %xmm0
	subpd	%xmm2, %xmm0
	movapd	%xmm0, %xmm1
	movsd	72(%rsp), %xmm7
	ucomisd	%xmm7, %xmm1
	movb	$14, %al
	movb	$1, %bpl
	jne	.LBB13_3
	jp	.LBB13_3
	unpckhpd	%xmm0, %xmm0
	ucomisd	%xmm7, %xmm0
	jne	.LBB13_3
	jp	.LBB13_3
	movq	80(%rsp), %rax
	testb	%al, %al
	je	.LBB13_216
	movzbl	%al, %edx
	movl	$3, %ecx
	movq	144(%rsp), %rdi
	movq	168(%rsp), %rsi
	movapd	%xmm2, 112(%rsp)
	callq	"sums::order::nests_inside"
	movapd	112(%rsp), %xmm2
	movsd	72(%rsp), %xmm7
	testb	%al, %al
	je	.LBB13_2
.LBB13_216:
	movupd	%xmm2, 8(%r13,%rbx)
	xorl	%ebp, %ebp
	xorl	%eax, %eax
	movq	40(%rsp), %rbx
	movq	32(%rsp), %r14
	movq	56(%rsp), %r15
.LBB13_217:
	movq	64(%rsp), %r11
	movq	48(%rsp), %r10
	movq	88(%rsp), %r8
	jmp	.LBB13_7
.LBB13_2:
	movb	$12, %al
.LBB13_3:
	xorl	%r8d, %r8d
	movq	40(%rsp), %rbx
	movq	32(%rsp), %r14
.LBB13_4:
	movq	56(%rsp), %r15
.LBB13_5:
	movq	64(%rsp), %r11
	jmp	.LBB13_6
.LBB13_218:
	movq	%r15, 112(%rsp)
	movq	160(%rsp), %r15
	cmpq	%r15, %r12
	movq	64(%rsp), %r11
	movq	48(%rsp), %r10
	movq	%rdx, 96(%rsp)
	jae	.LBB13_221
	leal	(%rbx,%rcx), %eax
	subl	%r12d, %eax
	testb	$1, %al
	movq	80(%rsp), %r9
	jne	.LBB13_223
	movq	144(%rsp), %rbp
	jmp	.LBB13_224
.LBB13_221:
	movq	80(%rsp), %r9
	movq	128(%rsp), %rax
	jmp	.LBB13_228
.LBB13_222:
	movb	$17, %al
	xorl	%ebp, %ebp
	jmp	.LBB13_200
.LBB13_223:
	movq	128(%rsp), %rsi
	movzbl	-1(%rsi,%r15), %eax
	movq	112(%rsp), %rdx
	addq	%r15, %rdx
	movb	%al, (%rsi,%rdx)
	movq	144(%rsp), %rbp
	movzbl	-1(%rbp,%r15), %eax
	decq	%r15
	movb	%al, (%rbp,%rdx)
	leaq	(%r15,%r15,2), %rax
	leaq	(%rdx,%rdx,2), %rdx
	movupd	(%r13,%rax,8), %xmm0
	movq	16(%r13,%rax,8), %rax
	movq	%rax, 16(%r13,%rdx,8)
	movupd	%xmm0, (%r13,%rdx,8)
.LBB13_224:
	addq	232(%rsp), %rcx
	cmpq	%r12, %rcx
	movq	128(%rsp), %rcx
	je	.LBB13_227
	leaq	(%r15,%r15,2), %rax
	leaq	-24(,%rax,8), %rax
	movq	112(%rsp), %rdi
	leaq	(%r15,%rdi), %rdx
	shlq	$3, %rdx
	leaq	(%rdx,%rdx,2), %rdx
	leaq	(%rdi,%rbp), %rsi
	addq	%rcx, %rdi
	.p2align	4
.LBB13_226:
	movzbl	-1(%rcx,%r15), %r8d
	movb	%r8b, (%rdi,%r15)
	movzbl	-1(%rbp,%r15), %r8d
	movb	%r8b, (%rsi,%r15)
	movups	(%r13,%rax), %xmm0
	movq	16(%r13,%rax), %r8
	movq	%r8, 16(%r13,%rdx)
	movups	%xmm0, (%r13,%rdx)
	movzbl	-2(%rcx,%r15), %r8d
	movb	%r8b, -1(%rdi,%r15)
	movzbl	-2(%rbp,%r15), %r8d
	movb	%r8b, -1(%rsi,%r15)
	addq	$-2, %r15
	movupd	-24(%r13,%rax), %xmm0
	movq	-8(%r13,%rax), %r8
	movq	%r8, -8(%r13,%rdx)
	movupd	%xmm0, -24(%r13,%rdx)
	addq	$-48, %r13
	cmpq	%r15, %r12
	jb	.LBB13_226
.LBB13_227:
	movq	(%r14), %rax
.LBB13_228:
	movb	$2, (%rax,%r12)
	movq	16(%r14), %rax
	movb	%r9b, (%rax,%r12)
	leaq	(%r12,%r12,2), %rdi
	movq	32(%r14), %rax
	movq	$0, (%rax,%rdi,8)
	movupd	%xmm2, 8(%rax,%rdi,8)
	movq	(%r14), %rsi
	movq	16(%r14), %rdx
	movq	32(%r14), %rax
	cmpq	168(%rsp), %r12
	movq	56(%rsp), %r15
	jae	.LBB13_232
	testb	%r9b, %r9b
	je	.LBB13_253
	cmpl	$1, 112(%rsp)
	jne	.LBB13_249
	xorl	%edi, %edi
	jmp	.LBB13_252
.LBB13_232:
	testb	%r9b, %r9b
	je	.LBB13_253
	movq	112(%rsp), %rcx
	movq	%rcx, %rdi
	testb	$1, %r9b
	je	.LBB13_235
	leaq	-1(%rcx), %rdi
	movq	168(%rsp), %r8
	addq	%rcx, %r8
	decq	%r8
	movzbl	(%rsi,%r8), %r9d
	leaq	(%rcx,%r12), %r10
	movb	%r9b, (%rsi,%r10)
	movzbl	(%rdx,%r8), %r9d
	movb	%r9b, (%rdx,%r10)
	leaq	(%r8,%r8,2), %r8
	leaq	(%r10,%r10,2), %r9
	movq	48(%rsp), %r10
	movupd	(%rax,%r8,8), %xmm0
	movq	16(%rax,%r8,8), %r8
	movq	%r8, 16(%rax,%r9,8)
	movupd	%xmm0, (%rax,%r9,8)
.LBB13_235:
	cmpl	$1, %ecx
	je	.LBB13_253
	leaq	(%rbx,%rdi), %r8
	leaq	(%r8,%r8,2), %r8
	leaq	1488(,%r8,8), %r8
	movq	352(%rsp), %rcx
	leaq	(%rdx,%rcx), %r9
	leaq	(%rsi,%rcx), %r10
	leaq	(%rdi,%r12), %r11
	shlq	$3, %r11
	leaq	(%r11,%r11,2), %r11
	addq	%r12, %rdx
	addq	%r12, %rsi
	xorl	%ebx, %ebx
	.p2align	4
.LBB13_237:
	movzbl	(%r10,%rdi), %ebp
	movb	%bpl, (%rsi,%rdi)
	movzbl	(%r9,%rdi), %ebp
	movb	%bpl, (%rdx,%rdi)
	movups	24(%rax,%r8), %xmm0
	movq	40(%rax,%r8), %r14
	movq	%r14, 16(%rax,%r11)
	movups	%xmm0, (%rax,%r11)
	movzbl	-1(%r10,%rdi), %ebp
	movb	%bpl, -1(%rsi,%rdi)
	movzbl	-1(%r9,%rdi), %ebp
	movb	%bpl, -1(%rdx,%rdi)
	movupd	(%rax,%r8), %xmm0
	movq	16(%rax,%r8), %r14
	movq	%r14, -8(%rax,%r11)
	movupd	%xmm0, -24(%rax,%r11)
	addq	$2, %rbx
	addq	$-48, %rax
	addq	$-2, %r9
	addq	$-2, %r10
	addq	$-2, %rdx
	addq	$-2, %rsi
	xorl	%ebp, %ebp
	cmpq	%rbx, %rdi
	jne	.LBB13_237
	xorl	%eax, %eax
	movq	96(%rsp), %r8
.LBB13_239:
	movq	40(%rsp), %rbx
	movq	32(%rsp), %r14
	jmp	.LBB13_5
.LBB13_240:
	cmpq	%r15, %r14
	movsd	72(%rsp), %xmm7
	jae	.LBB13_258
	leal	(%rbx,%rsi), %eax
	subl	%r14d, %eax
	testb	$1, %al
	movapd	96(%rsp), %xmm1
	jne	.LBB13_293
	movq	144(%rsp), %r9
	movq	80(%rsp), %r13
	jmp	.LBB13_294
.LBB13_243:
	movb	$11, %al
	xorl	%ebp, %ebp
.LBB13_244:
	movq	40(%rsp), %rbx
	movq	32(%rsp), %r14
	movq	%r13, %r8
	jmp	.LBB13_200
.LBB13_245:
	movb	$12, %al
	xorl	%r8d, %r8d
	movq	32(%rsp), %r14
	jmp	.LBB13_7
.LBB13_246:
	movb	$12, %al
.LBB13_247:
	xorl	%r8d, %r8d
	movq	32(%rsp), %r14
.LBB13_248:
	movb	$1, %bpl
	movq	40(%rsp), %rbx
	jmp	.LBB13_7
.LBB13_249:
	movl	%r9d, %r8d
	andl	$254, %r8d
	movq	344(%rsp), %rcx
	leaq	(%rdx,%rcx), %r9
	leaq	(%rsi,%rcx), %r10
	leaq	24(,%rdi,8), %r11
	leaq	(%rdx,%r12), %rbx
	addq	$2, %rbx
	leaq	(%rsi,%r12), %r14
	addq	$2, %r14
	xorl	%edi, %edi
	movq	%r15, %rcx
	movq	%rax, %r15
	.p2align	4
.LBB13_250:
	movzbl	-1(%r10,%rdi), %ebp
	movb	%bpl, -1(%r14,%rdi)
	movzbl	-1(%r9,%rdi), %ebp
	movb	%bpl, -1(%rbx,%rdi)
	movups	(%r15,%rcx), %xmm0
	movq	16(%r15,%rcx), %r13
	movq	%r13, 16(%r15,%r11)
	movups	%xmm0, (%r15,%r11)
	movzbl	(%r10,%rdi), %ebp
	movb	%bpl, (%r14,%rdi)
	movzbl	(%r9,%rdi), %ebp
	movb	%bpl, (%rbx,%rdi)
	movupd	24(%r15,%rcx), %xmm0
	movq	40(%r15,%rcx), %r13
	movq	%r13, 40(%r15,%r11)
	movupd	%xmm0, 24(%r15,%r11)
	addq	$2, %rdi
	addq	$48, %r15
	cmpq	%rdi, %r8
	jne	.LBB13_250
	testb	$1, 80(%rsp)
	movq	40(%rsp), %rbx
	movq	32(%rsp), %r14
	movq	%rcx, %r15
	movq	64(%rsp), %r11
	movq	48(%rsp), %r10
	je	.LBB13_253
.LBB13_252:
	incq	%r12
	movq	168(%rsp), %r8
	addq	%rdi, %r8
	movzbl	(%rsi,%r8), %r9d
	addq	%rdi, %r12
	movb	%r9b, (%rsi,%r12)
	movzbl	(%rdx,%r8), %esi
	movb	%sil, (%rdx,%r12)
	leaq	(%r8,%r8,2), %rdx
	leaq	(%r12,%r12,2), %rsi
	movupd	(%rax,%rdx,8), %xmm0
	movq	16(%rax,%rdx,8), %rdx
	movq	%rdx, 16(%rax,%rsi,8)
	movupd	%xmm0, (%rax,%rsi,8)
.LBB13_253:
	xorl	%ebp, %ebp
	xorl	%eax, %eax
	movq	96(%rsp), %r8
	jmp	.LBB13_7
.LBB13_254:
	xorl	%r8d, %r8d
	movq	40(%rsp), %rbx
	jmp	.LBB13_7
.LBB13_255:
	movb	$12, %al
	xorl	%r8d, %r8d
	movq	40(%rsp), %rbx
	movsd	72(%rsp), %xmm7
	jmp	.LBB13_5
.LBB13_256:
	movq	32(%rsp), %r8
	movq	160(%rsp), %rsi
	jmp	.LBB13_266
.LBB13_257:
	movq	40(%rsp), %rbx
	jmp	.LBB13_282
.LBB13_258:
	movq	32(%rsp), %r8
	movapd	96(%rsp), %xmm1
	jmp	.LBB13_298
.LBB13_259:
	xorl	%r8d, %r8d
	movq	40(%rsp), %rbx
	movq	56(%rsp), %r15
	jmp	.LBB13_6
.LBB13_260:
	xorl	%r8d, %r8d
	movq	32(%rsp), %r14
	movq	56(%rsp), %r15
	movq	48(%rsp), %r10
	movq	40(%rsp), %rbx
	jmp	.LBB13_7
.LBB13_261:
	movq	160(%rsp), %rsi
	movzbl	-1(%rsi,%r12), %eax
	leaq	(%r12,%r10), %rdx
	movb	%al, (%rsi,%rdx)
	movzbl	-1(%rdi,%r12), %eax
	leaq	-1(%r12), %r9
	movb	%al, (%rdi,%rdx)
	leaq	(%r9,%r9,2), %rax
	leaq	(%rdx,%rdx,2), %rdx
	movq	80(%rsp), %rbp
	movupd	(%rbp,%rax,8), %xmm0
	movq	16(%rbp,%rax,8), %rax
	movq	%rax, 16(%rbp,%rdx,8)
	movupd	%xmm0, (%rbp,%rdx,8)
.LBB13_262:
	addq	232(%rsp), %r8
	cmpq	%r14, %r8
	movq	160(%rsp), %r12
	je	.LBB13_265
	leaq	(%r9,%r9,2), %rax
	leaq	-24(,%rax,8), %rax
	leaq	(%r9,%r10), %rdx
	shlq	$3, %rdx
	leaq	(%rdx,%rdx,2), %rdx
	leaq	(%rdi,%r10), %rsi
	leaq	(%r12,%r10), %r13
	.p2align	4
.LBB13_264:
	movzbl	-1(%r12,%r9), %r8d
	movb	%r8b, (%r13,%r9)
	movzbl	-1(%rdi,%r9), %r8d
	movb	%r8b, (%rsi,%r9)
	movups	(%rbp,%rax), %xmm0
	movq	16(%rbp,%rax), %r8
	movq	%r8, 16(%rbp,%rdx)
	movups	%xmm0, (%rbp,%rdx)
	movzbl	-2(%r12,%r9), %r8d
	movb	%r8b, -1(%r13,%r9)
	movzbl	-2(%rdi,%r9), %r8d
	movb	%r8b, -1(%rsi,%r9)
	leaq	-2(%r9), %r8
	movupd	-24(%rbp,%rax), %xmm0
	movq	-8(%rbp,%rax), %r9
	movq	%r9, -8(%rbp,%rdx)
	movq	144(%rsp), %rdi
	movupd	%xmm0, -24(%rbp,%rdx)
	addq	$-48, %rbp
	cmpq	%r8, %r14
	movq	%r8, %r9
	jb	.LBB13_264
.LBB13_265:
	movq	32(%rsp), %r8
	movq	(%r8), %rsi
	movq	128(%rsp), %rdx
	movzbl	96(%rsp), %r9d
	movq	%rcx, %r13
.LBB13_266:
	movl	332(%rsp), %eax
	movb	%al, (%rsi,%r14)
	movq	16(%r8), %rax
	movb	%r9b, (%rax,%r14)
	leaq	(%r14,%r14,2), %rax
	movq	32(%r8), %rcx
	movq	$0, (%rcx,%rax,8)
	movupd	%xmm2, 8(%rcx,%rax,8)
	leaq	1(%r14), %rdi
	movq	(%r8), %rsi
	movq	16(%r8), %rcx
	movq	32(%r8), %rax
	cmpq	%r11, %rdi
	jbe	.LBB13_274
	testb	%r9b, %r9b
	je	.LBB13_309
	movq	%r10, %rdi
	testb	$1, %r10b
	je	.LBB13_270
	leaq	-1(%r10), %rdi
	leaq	(%rdx,%r10), %r8
	movzbl	(%rsi,%r8), %r9d
	movq	48(%rsp), %r10
	addq	%r14, %r10
	movb	%r9b, (%rsi,%r10)
	movzbl	(%rcx,%r8), %r9d
	movb	%r9b, (%rcx,%r10)
	leaq	(%r8,%r8,2), %r8
	leaq	(%r10,%r10,2), %r9
	movq	48(%rsp), %r10
	movupd	(%rax,%r8,8), %xmm0
	movq	16(%rax,%r8,8), %r8
	movq	%r8, 16(%rax,%r9,8)
	movupd	%xmm0, (%rax,%r9,8)
	movzbl	96(%rsp), %r9d
	movq	128(%rsp), %rdx
.LBB13_270:
	cmpb	$1, %r9b
	je	.LBB13_309
	leaq	(%rdi,%r14), %r8
	shlq	$3, %r8
	leaq	(%r8,%r8,2), %r8
	leaq	(%rcx,%r14), %r9
	addq	%rsi, %r14
	leaq	(%rdi,%rdx), %r10
	shlq	$3, %r10
	leaq	(%r10,%r10,2), %r10
	addq	%rdx, %rcx
	addq	%rdx, %rsi
	xorl	%r11d, %r11d
.LBB13_272:
	movzbl	(%rsi,%rdi), %ebx
	movb	%bl, (%r14,%rdi)
	movzbl	(%rcx,%rdi), %ebx
	movb	%bl, (%r9,%rdi)
	movups	(%rax,%r10), %xmm0
	movq	16(%rax,%r10), %rbx
	movq	%rbx, 16(%rax,%r8)
	movups	%xmm0, (%rax,%r8)
	movzbl	-1(%rsi,%rdi), %ebx
	movb	%bl, -1(%r14,%rdi)
	movzbl	-1(%rcx,%rdi), %ebx
	movb	%bl, -1(%r9,%rdi)
	movupd	-24(%rax,%r10), %xmm0
	movq	-8(%rax,%r10), %rbx
	movq	%rbx, -8(%rax,%r8)
	movupd	%xmm0, -24(%rax,%r8)
	addq	$2, %r11
	addq	$-48, %rax
	addq	$-2, %r9
	addq	$-2, %r14
	addq	$-2, %rcx
	addq	$-2, %rsi
	xorl	%ebp, %ebp
	cmpq	%r11, %rdi
	jne	.LBB13_272
	xorl	%eax, %eax
	movq	%r13, %r8
	jmp	.LBB13_239
.LBB13_274:
	testb	%r9b, %r9b
	je	.LBB13_309
	cmpb	$1, %r9b
	jne	.LBB13_305
	xorl	%r8d, %r8d
	jmp	.LBB13_308
.LBB13_277:
	movzbl	-1(%r12,%rbx), %eax
	leaq	(%rbx,%r10), %rdx
	movb	%al, (%r12,%rdx)
	movzbl	-1(%rdi,%rbx), %eax
	leaq	-1(%rbx), %r9
	movb	%al, (%rdi,%rdx)
	leaq	(%r9,%r9,2), %rax
	leaq	(%rdx,%rdx,2), %rdx
	movq	80(%rsp), %rcx
	movupd	(%rcx,%rax,8), %xmm0
	movq	16(%rcx,%rax,8), %rax
	movq	%rax, 16(%rcx,%rdx,8)
	movupd	%xmm0, (%rcx,%rdx,8)
.LBB13_278:
	addq	232(%rsp), %r8
	cmpq	%rbp, %r8
	movq	80(%rsp), %rcx
	movq	40(%rsp), %rbx
	je	.LBB13_281
	leaq	(%r9,%r9,2), %rax
	leaq	-24(,%rax,8), %rax
	leaq	(%r9,%r10), %rdx
	shlq	$3, %rdx
	leaq	(%rdx,%rdx,2), %rdx
	leaq	(%rdi,%r10), %rsi
	leaq	(%r12,%r10), %r13
	.p2align	4
.LBB13_280:
	movzbl	-1(%r12,%r9), %r8d
	movb	%r8b, (%r13,%r9)
	movzbl	-1(%rdi,%r9), %r8d
	movb	%r8b, (%rsi,%r9)
	movups	(%rcx,%rax), %xmm0
	movq	16(%rcx,%rax), %r8
	movq	%r8, 16(%rcx,%rdx)
	movups	%xmm0, (%rcx,%rdx)
	movzbl	-2(%r12,%r9), %r8d
	movb	%r8b, -1(%r13,%r9)
	movzbl	-2(%rdi,%r9), %r8d
	movb	%r8b, -1(%rsi,%r9)
	leaq	-2(%r9), %r8
	movupd	-24(%rcx,%rax), %xmm0
	movq	-8(%rcx,%rax), %r9
	movq	%r9, -8(%rcx,%rdx)
	movq	144(%rsp), %rdi
	movupd	%xmm0, -24(%rcx,%rdx)
	addq	$-48, %rcx
	cmpq	%r8, %rbp
	movq	%r8, %r9
	jb	.LBB13_280
.LBB13_281:
	movq	(%r14), %r12
	movq	128(%rsp), %rdx
	movzbl	96(%rsp), %r9d
	movq	112(%rsp), %r13
.LBB13_282:
	movb	$2, (%r12,%rbp)
	movq	16(%r14), %rax
	movb	%r9b, (%rax,%rbp)
	leaq	(,%rbp,2), %rax
	addq	%rbp, %rax
	movq	32(%r14), %rcx
	movq	$0, (%rcx,%rax,8)
	movupd	%xmm2, 8(%rcx,%rax,8)
	leaq	1(%rbp), %rdi
	movq	(%r14), %rsi
	movq	16(%r14), %rcx
	movq	32(%r14), %rax
	cmpq	%r11, %rdi
	jbe	.LBB13_290
	testb	%r9b, %r9b
	je	.LBB13_314
	movq	%r10, %rdi
	testb	$1, %r10b
	je	.LBB13_286
	leaq	-1(%r10), %rdi
	leaq	(%rdx,%r10), %r8
	movzbl	(%rsi,%r8), %r9d
	movq	48(%rsp), %r10
	addq	%rbp, %r10
	movb	%r9b, (%rsi,%r10)
	movzbl	(%rcx,%r8), %r9d
	movb	%r9b, (%rcx,%r10)
	leaq	(%r8,%r8,2), %r8
	leaq	(%r10,%r10,2), %r9
	movq	48(%rsp), %r10
	movupd	(%rax,%r8,8), %xmm0
	movq	16(%rax,%r8,8), %r8
	movq	%r8, 16(%rax,%r9,8)
	movupd	%xmm0, (%rax,%r9,8)
	movzbl	96(%rsp), %r9d
	movq	128(%rsp), %rdx
.LBB13_286:
	cmpb	$1, %r9b
	je	.LBB13_314
	leaq	(%rdi,%rbp), %r8
	shlq	$3, %r8
	leaq	(%r8,%r8,2), %r8
	leaq	(%rcx,%rbp), %r9
	addq	%rsi, %rbp
	leaq	(%rdi,%rdx), %r10
	shlq	$3, %r10
	leaq	(%r10,%r10,2), %r10
	addq	%rdx, %rcx
	addq	%rdx, %rsi
	xorl	%r11d, %r11d
.LBB13_288:
	movzbl	(%rsi,%rdi), %ebx
	movb	%bl, (%rbp,%rdi)
	movzbl	(%rcx,%rdi), %ebx
	movb	%bl, (%r9,%rdi)
	movups	(%rax,%r10), %xmm0
	movq	16(%rax,%r10), %rbx
	movq	%rbx, 16(%rax,%r8)
	movups	%xmm0, (%rax,%r8)
	movzbl	-1(%rsi,%rdi), %ebx
	movb	%bl, -1(%rbp,%rdi)
	movzbl	-1(%rcx,%rdi), %ebx
	movb	%bl, -1(%r9,%rdi)
	movupd	-24(%rax,%r10), %xmm0
	movq	-8(%rax,%r10), %rbx
	movq	%rbx, -8(%rax,%r8)
	movupd	%xmm0, -24(%rax,%r8)
	addq	$2, %r11
	addq	$-48, %rax
	addq	$-2, %r9
	addq	$-2, %rbp
	addq	$-2, %rcx
	addq	$-2, %rsi
	cmpq	%r11, %rdi
	jne	.LBB13_288
	xorl	%eax, %eax
	movq	%r13, %r8
	movq	40(%rsp), %rbx
	movq	64(%rsp), %r11
	movq	48(%rsp), %r10
	xorl	%ebp, %ebp
	jmp	.LBB13_7
.LBB13_290:
	testb	%r9b, %r9b
	je	.LBB13_314
	cmpb	$1, %r9b
	jne	.LBB13_310
	xorl	%r8d, %r8d
	jmp	.LBB13_313
.LBB13_293:
	movzbl	-1(%r12,%r15), %eax
	leaq	(%r15,%r10), %rdx
	movb	%al, (%r12,%rdx)
	movq	144(%rsp), %r9
	movzbl	-1(%r9,%r15), %eax
	decq	%r15
	movb	%al, (%r9,%rdx)
	leaq	(%r15,%r15,2), %rax
	leaq	(%rdx,%rdx,2), %rdx
	movq	80(%rsp), %r13
	movupd	(%r13,%rax,8), %xmm0
	movq	16(%r13,%rax,8), %rax
	movq	%rax, 16(%r13,%rdx,8)
	movupd	%xmm0, (%r13,%rdx,8)
.LBB13_294:
	addq	232(%rsp), %rsi
	cmpq	%r14, %rsi
	je	.LBB13_297
	leaq	(%r15,%r15,2), %rax
	leaq	-24(,%rax,8), %rax
	leaq	(%r15,%r10), %rdx
	shlq	$3, %rdx
	leaq	(%rdx,%rdx,2), %rdx
	leaq	(%r9,%r10), %rsi
	leaq	(%r12,%r10), %rdi
	.p2align	4
.LBB13_296:
	movzbl	-1(%r12,%r15), %r8d
	movb	%r8b, (%rdi,%r15)
	movzbl	-1(%r9,%r15), %r8d
	movb	%r8b, (%rsi,%r15)
	movups	(%r13,%rax), %xmm0
	movq	16(%r13,%rax), %r8
	movq	%r8, 16(%r13,%rdx)
	movups	%xmm0, (%r13,%rdx)
	movzbl	-2(%r12,%r15), %r8d
	movb	%r8b, -1(%rdi,%r15)
	movzbl	-2(%r9,%r15), %r8d
	movb	%r8b, -1(%rsi,%r15)
	addq	$-2, %r15
	movupd	-24(%r13,%rax), %xmm0
	movq	-8(%r13,%rax), %r8
	movq	%r8, -8(%r13,%rdx)
	movupd	%xmm0, -24(%r13,%rdx)
	addq	$-48, %r13
	cmpq	%r15, %r14
	jb	.LBB13_296
.LBB13_297:
	movq	32(%rsp), %r8
	movq	(%r8), %r12
	movq	128(%rsp), %r9
.LBB13_298:
	movb	$4, (%r12,%r14)
	movq	16(%r8), %rax
	movb	$1, (%rax,%r14)
	leaq	(%r14,%r14,2), %rax
	movq	32(%r8), %rdx
	movq	$0, (%rdx,%rax,8)
	movupd	%xmm1, 8(%rdx,%rax,8)
	leaq	1(%r14), %rdi
	movq	(%r8), %rsi
	movq	16(%r8), %rdx
	movq	32(%r8), %rax
	cmpq	%r11, %rdi
	movq	56(%rsp), %r15
	jbe	.LBB13_300
	addq	%r10, %r9
	movzbl	(%rsi,%r9), %edi
	addq	%r10, %r14
	movb	%dil, (%rsi,%r14)
	movzbl	(%rdx,%r9), %esi
	movb	%sil, (%rdx,%r14)
	leaq	(%r9,%r9,2), %rdx
	leaq	(%r14,%r14,2), %rsi
	jmp	.LBB13_301
.LBB13_300:
	movzbl	(%rsi,%r11), %r8d
	movb	%r8b, (%rsi,%rdi)
	movzbl	(%rdx,%r11), %esi
	movb	%sil, (%rdx,%rdi)
	leaq	(%r11,%r11,2), %rdx
	leaq	(%rdi,%rdi,2), %rsi
.LBB13_301:
	movupd	(%rax,%rdx,8), %xmm0
	movq	16(%rax,%rdx,8), %rdx
	movq	%rdx, 16(%rax,%rsi,8)
	movupd	%xmm0, (%rax,%rsi,8)
	xorl	%ebp, %ebp
	xorl	%eax, %eax
	movq	%rcx, %r8
	movq	32(%rsp), %r14
	jmp	.LBB13_7
.LBB13_302:
	movb	$12, %al
	xorl	%r8d, %r8d
	movq	40(%rsp), %rbx
	movq	56(%rsp), %r15
	jmp	.LBB13_7
.LBB13_303:
	movb	$12, %al
.LBB13_304:
	xorl	%r8d, %r8d
	movq	32(%rsp), %r14
	jmp	.LBB13_7
.LBB13_305:
	movq	%r13, 144(%rsp)
	movl	%r10d, %r9d
	andl	$126, %r9d
	leaq	(,%rdx,8), %r8
	leaq	(%r8,%r8,2), %r10
	leaq	24(%rax), %r11
	leaq	(%rcx,%rdx), %rbx
	addq	$2, %rbx
	leaq	2(%rsi,%rdx), %r15
	leaq	(,%r14,8), %r8
	leaq	(%r8,%r8,2), %r12
	leaq	(%rcx,%r14), %r13
	addq	$2, %r13
	addq	%rsi, %r14
	addq	$2, %r14
	xorl	%r8d, %r8d
.LBB13_306:
	movzbl	-1(%r15,%r8), %ebp
	movb	%bpl, -1(%r14,%r8)
	movzbl	-1(%rbx,%r8), %ebp
	movb	%bpl, -1(%r13,%r8)
	movups	(%r11,%r10), %xmm0
	movq	16(%r11,%r10), %rbp
	movq	%rbp, 16(%r11,%r12)
	movups	%xmm0, (%r11,%r12)
	movzbl	(%r15,%r8), %ebp
	movb	%bpl, (%r14,%r8)
	movzbl	(%rbx,%r8), %ebp
	movb	%bpl, (%r13,%r8)
	movupd	24(%r11,%r10), %xmm0
	movq	40(%r11,%r10), %rbp
	movq	%rbp, 40(%r11,%r12)
	movupd	%xmm0, 24(%r11,%r12)
	addq	$2, %r8
	addq	$48, %r11
	cmpq	%r8, %r9
	jne	.LBB13_306
	movq	48(%rsp), %r10
	testb	$1, %r10b
	movq	40(%rsp), %rbx
	movq	56(%rsp), %r15
	movq	64(%rsp), %r11
	movq	144(%rsp), %r13
	je	.LBB13_309
.LBB13_308:
	leaq	(%r8,%r11), %r9
	movzbl	(%rsi,%r9), %r10d
	addq	%r8, %rdi
	movb	%r10b, (%rsi,%rdi)
	movq	48(%rsp), %r10
	movzbl	(%rcx,%r9), %esi
	movb	%sil, (%rcx,%rdi)
	leaq	(%r9,%r9,2), %rdx
	leaq	(%rdi,%rdi,2), %rsi
	movupd	(%rax,%rdx,8), %xmm0
	movq	16(%rax,%rdx,8), %rdx
	movq	%rdx, 16(%rax,%rsi,8)
	movupd	%xmm0, (%rax,%rsi,8)
.LBB13_309:
	xorl	%ebp, %ebp
	xorl	%eax, %eax
	movq	%r13, %r8
	movq	32(%rsp), %r14
	jmp	.LBB13_7
.LBB13_310:
	movq	%r13, 112(%rsp)
	movl	%r10d, %r9d
	andl	$126, %r9d
	leaq	(,%rdx,8), %r8
	leaq	(%r8,%r8,2), %r10
	leaq	24(%rax), %r11
	leaq	(%rcx,%rdx), %rbx
	addq	$2, %rbx
	leaq	2(%rsi,%rdx), %r14
	leaq	(,%rbp,8), %r8
	leaq	(%r8,%r8,2), %r15
	leaq	(%rcx,%rbp), %r12
	addq	$2, %r12
	leaq	(%rsi,%rbp), %r13
	addq	$2, %r13
	xorl	%r8d, %r8d
.LBB13_311:
	movzbl	-1(%r14,%r8), %ebp
	movb	%bpl, -1(%r13,%r8)
	movzbl	-1(%rbx,%r8), %ebp
	movb	%bpl, -1(%r12,%r8)
	movups	(%r11,%r10), %xmm0
	movq	16(%r11,%r10), %rbp
	movq	%rbp, 16(%r11,%r15)
	movups	%xmm0, (%r11,%r15)
	movzbl	(%r14,%r8), %ebp
	movb	%bpl, (%r13,%r8)
	movzbl	(%rbx,%r8), %ebp
	movb	%bpl, (%r12,%r8)
	movupd	24(%r11,%r10), %xmm0
	movq	40(%r11,%r10), %rbp
	movq	%rbp, 40(%r11,%r15)
	movupd	%xmm0, 24(%r11,%r15)
	addq	$2, %r8
	addq	$48, %r11
	cmpq	%r8, %r9
	jne	.LBB13_311
	movq	48(%rsp), %r10
	testb	$1, %r10b
	movq	40(%rsp), %rbx
	movq	32(%rsp), %r14
	movq	56(%rsp), %r15
	movq	64(%rsp), %r11
	movq	112(%rsp), %r13
	je	.LBB13_314
.LBB13_313:
	leaq	(%r8,%r11), %r9
	movzbl	(%rsi,%r9), %r10d
	addq	%r8, %rdi
	movb	%r10b, (%rsi,%rdi)
	movq	48(%rsp), %r10
	movzbl	(%rcx,%r9), %esi
	movb	%sil, (%rcx,%rdi)
	leaq	(%r9,%r9,2), %rdx
	leaq	(%rdi,%rdi,2), %rsi
	movupd	(%rax,%rdx,8), %xmm0
	movq	16(%rax,%rdx,8), %rdx
	movq	%rdx, 16(%rax,%rsi,8)
	movupd	%xmm0, (%rax,%rsi,8)
.LBB13_314:
	xorl	%ebp, %ebp
	xorl	%eax, %eax
	movq	%r13, %r8
	jmp	.LBB13_7
.LBB13_315:
	addq	%r11, %rcx
	movq	%rcx, %rdx
	jmp	.LBB13_153
.LBB13_316:
	addq	%r11, %rcx
	movq	%rcx, %rsi
	jmp	.LBB13_170
.LBB13_317:
	testq	%r8, %r8
	movq	336(%rsp), %rdi
	movq	368(%rsp), %rsi
	je	.LBB13_319
	movw	$0, (%rdi)
	movq	%r8, 8(%rdi)
	jmp	.LBB13_323
.LBB13_319:
	movq	(%r14), %rax
	movb	$1, (%rax,%rbx)
	movq	16(%r14), %rax
	movb	$0, (%rax,%rbx)
	movq	32(%r14), %rax
	pxor	%xmm0, %xmm0
	movdqu	%xmm0, (%rax,%rsi,8)
	movq	$0, 16(%rax,%rsi,8)
	movw	$0, (%rdi)
	movq	$1, 8(%rdi)
	jmp	.LBB13_323
.LBB13_320:
	movb	$17, %al
	jmp	.LBB13_322
.LBB13_321:
	movb	$11, %al
.LBB13_322:
	movq	336(%rsp), %rcx
	movb	$1, (%rcx)
	movb	%al, 1(%rcx)
	movq	$0, 8(%rcx)
.LBB13_323:
	addq	$408, %rsp
	popq	%rbx
	popq	%r12
	popq	%r13
	popq	%r14
	popq	%r15
	popq	%rbp
	retq
.LBB13_324:
	movb	$13, %al
	jmp	.LBB13_322
.Lfunc_end13:
	.size	"calculus::derivative::expr_deriv", .Lfunc_end13-"calculus::derivative::expr_deriv"

	.section	.rodata.cst8,"aM",@progbits,8
	.p2align	3, 0x0
.LCPI14_0:
	.quad	0x3ff0000000000000
.LCPI14_1:
	.quad	0xbcb0000000000000
.LCPI14_2:
	.quad	0x3cb0000000000000
	.section	".text.algebra::answer::write_sum","ax",@progbits
	.p2align	4
	.type	"algebra::answer::write_sum",@function
"algebra::answer::write_sum":
	pushq	%rbp
	pushq	%r15
	pushq	%r14
	pushq	%r13
	pushq	%r12
	pushq	%rbx
	movq	%rsp, %r11
	subq	$30720, %r11
.LBB14_1:
	subq	$3072, %rsp
	movq	$0, (%rsp)
	cmpq	%r11, %rsp
	jne	.LBB14_1
	subq	$328, %rsp
	movq	%r9, %r15
	movl	%r8d, 36(%rsp)
	movq	%rcx, %rbp
	movq	%rdx, 88(%rsp)
	movq	%rdi, %r14
	movq	31104(%rsp), %r12
	testb	$1, %sil
	movq	%rcx, 152(%rsp)
	je	.LBB14_7
	testq	%rbp, %rbp
	je	.LBB14_57
	movq	88(%rsp), %rax
	movq	(%rax), %rcx
	xorl	%eax, %eax
	movq	%rcx, 192(%rsp)
	movq	%r14, 40(%rsp)
	movq	%r15, 128(%rsp)
	.p2align	4
.LBB14_5:
	cmpb	$1, (%rcx,%rax)
	jne	.LBB14_62
	incq	%rax
	cmpq	%rax, %rbp
	jne	.LBB14_5
	jmp	.LBB14_63
.LBB14_7:
	cmpq	$16, %rbp
	ja	.LBB14_33
	leaq	280(%rsp), %rdi
	movl	$4272, %edx
	xorl	%esi, %esi
	callq	memset@PLT
	testq	%rbp, %rbp
	je	.LBB14_58
	movq	%r15, 128(%rsp)
	movq	%r14, 40(%rsp)
	leaq	162(%rsp), %r8
	xorps	%xmm2, %xmm2
	movsd	.LCPI14_0(%rip), %xmm3
	movsd	.LCPI14_1(%rip), %xmm0
	movsd	%xmm0, 144(%rsp)
	movsd	.LCPI14_2(%rip), %xmm0
	movsd	%xmm0, 136(%rsp)
	movq	88(%rsp), %rax
	movq	32(%rax), %r9
	movq	(%rax), %r10
	movq	16(%rax), %r11
	movl	$32, %ebx
	xorl	%r15d, %r15d
	movl	$32, %ecx
	xorl	%r14d, %r14d
	movsd	%xmm2, 64(%rsp)
	movsd	%xmm3, 80(%rsp)
	movq	%r9, 72(%rsp)
	movq	%r10, 56(%rsp)
	movq	%r11, 48(%rsp)
	jmp	.LBB14_12
	.p2align	4
.LBB14_10:
.LBB14_11:
	cmpneqsd	%xmm2, %xmm6
	cmpneqsd	%xmm2, %xmm5
	orpd	%xmm6, %xmm5
	movd	%xmm5, %eax
	cmpb	$1, %r12b
	sete	%dl
	ucomisd	%xmm3, %xmm4
	setnp	%sil
	sete	%dil
	andb	%sil, %dil
	andb	%dl, %dil
	andb	%al, %dil
	orb	%dil, %r15b
	addq	%r13, %r14
	cmpq	%rbp, %r14
	jae	.LBB14_115
.LBB14_12:
	leaq	(%r14,%r14,2), %rax
	movsd	16(%r9,%rax,8), %xmm1
	movzbl	(%r10,%r14), %r12d
	movzbl	(%r11,%r14), %r13d
	incq	%r14
	movb	%r12b, 160(%rsp)
	movb	%r13b, 161(%rsp)
	movw	$0, 4(%r8)
	movl	$0, (%r8)
	movupd	(%r9,%rax,8), %xmm4
	movapd	%xmm4, %xmm7
	unpckhpd	%xmm4, %xmm7
	movupd	%xmm4, 168(%rsp)
	movsd	%xmm1, 184(%rsp)
	xorpd	%xmm0, %xmm0
	movapd	%xmm0, 96(%rsp)
	movq	$0, 112(%rsp)
	movapd	%xmm7, %xmm5
	ucomisd	%xmm2, %xmm5
	movapd	%xmm1, %xmm6
	jne	.LBB14_14
	jp	.LBB14_14
	ucomisd	%xmm2, %xmm6
	jne	.LBB14_14
	jnp	.LBB14_10
.LBB14_14:
	cmpq	%rcx, %rbx
	setne	%bpl
	orb	%r15b, %bpl
	testb	$1, %bpl
	movapd	%xmm4, 192(%rsp)
	movapd	%xmm5, 256(%rsp)
	movapd	%xmm6, 240(%rsp)
	movsd	%xmm1, 224(%rsp)
	movapd	%xmm7, 208(%rsp)
	je	.LBB14_17
	cmpq	%rcx, %rbx
	je	.LBB14_18
	leaq	-2(%rcx), %rax
	movl	%ebx, %edx
	subl	%ecx, %edx
	leal	1(%rdx), %esi
	leaq	(%rcx,%rcx,2), %rcx
	movl	$774, 232(%rsp,%rcx,8)
	movl	%esi, 236(%rsp,%rcx,8)
	movupd	%xmm0, 240(%rsp,%rcx,8)
	movl	$65543, 256(%rsp,%rcx,8)
	movl	%edx, 260(%rsp,%rcx,8)
	movupd	%xmm0, 264(%rsp,%rcx,8)
	jmp	.LBB14_19
	.p2align	4
.LBB14_17:
	movq	%rbx, %rax
	jmp	.LBB14_19
.LBB14_18:
	leaq	(%rbx,%rbx,2), %rcx
	movw	$773, 280(%rsp,%rcx,8)
	movq	%rbx, %rax
	incq	%rbx
	movupd	%xmm0, 282(%rsp,%rcx,8)
	movq	$0, 296(%rsp,%rcx,8)
.LBB14_19:
	movq	%rbx, 16(%rsp)
	movq	%rax, 8(%rsp)
	leaq	280(%rsp), %rax
	movq	%rax, (%rsp)
	movzbl	36(%rsp), %r8d
	leaq	96(%rsp), %rdi
	leaq	160(%rsp), %rdx
	movl	$3, %r9d
	movq	88(%rsp), %rsi
	movq	%r14, %rcx
	callq	"writing::write_term"
	cmpb	$0, 96(%rsp)
	jne	.LBB14_142
	movq	104(%rsp), %rcx
	movq	112(%rsp), %rbx
	cmpb	$1, %r12b
	setne	%al
	movaps	192(%rsp), %xmm4
	movsd	64(%rsp), %xmm2
	ucomisd	%xmm2, %xmm4
	setp	%sil
	setne	%dl
	movapd	240(%rsp), %xmm6
	movapd	%xmm6, %xmm0
	cmpeqsd	%xmm2, %xmm0
	movapd	256(%rsp), %xmm5
	movapd	%xmm5, %xmm1
	movsd	80(%rsp), %xmm3
	cmpeqsd	%xmm3, %xmm1
	andpd	%xmm0, %xmm1
	movd	%xmm1, %edi
	testb	$1, %dil
	jne	.LBB14_25
	orb	%sil, %dl
	orb	%al, %dl
	leaq	162(%rsp), %r8
	movq	72(%rsp), %r9
	movq	56(%rsp), %r10
	movq	48(%rsp), %r11
	je	.LBB14_30
	movapd	208(%rsp), %xmm7
	movapd	%xmm7, %xmm0
	subsd	%xmm7, %xmm0
	cmpb	$0, 36(%rsp)
	je	.LBB14_26
	ucomisd	%xmm2, %xmm0
	movb	$14, %al
	movsd	224(%rsp), %xmm1
	jne	.LBB14_143
	jp	.LBB14_143
	movapd	%xmm1, %xmm0
	subsd	%xmm1, %xmm0
	movb	$2, %dl
	ucomisd	%xmm2, %xmm0
	jne	.LBB14_143
	jnp	.LBB14_29
	jmp	.LBB14_143
.LBB14_25:
	leaq	162(%rsp), %r8
	movq	72(%rsp), %r9
	movq	56(%rsp), %r10
	movq	48(%rsp), %r11
	jmp	.LBB14_30
.LBB14_26:
	ucomisd	%xmm2, %xmm0
	movb	$14, %al
	movsd	224(%rsp), %xmm1
	jne	.LBB14_143
	jp	.LBB14_143
	ucomisd	144(%rsp), %xmm6
	jbe	.LBB14_143
	movb	$1, %dl
	movsd	136(%rsp), %xmm0
	ucomisd	%xmm6, %xmm0
	jbe	.LBB14_143
.LBB14_29:
	movq	%xmm1, %rax
	xorl	%esi, %esi
	cmpb	$0, 36(%rsp)
	cmovneq	%rax, %rsi
	leaq	(%rbx,%rbx,2), %rax
	movb	%dl, 280(%rsp,%rax,8)
	movl	$0, 281(%rsp,%rax,8)
	movl	$0, 284(%rsp,%rax,8)
	movsd	%xmm7, 288(%rsp,%rax,8)
	movq	%rsi, 296(%rsp,%rax,8)
	movw	$2565, 304(%rsp,%rax,8)
	addq	$2, %rbx
	xorpd	%xmm0, %xmm0
	movupd	%xmm0, 306(%rsp,%rax,8)
	movq	$0, 320(%rsp,%rax,8)
.LBB14_30:
	testb	$1, %bpl
	je	.LBB14_32
	leaq	(%rbx,%rbx,2), %rax
	movw	$2053, 280(%rsp,%rax,8)
	incq	%rbx
	xorpd	%xmm0, %xmm0
	movupd	%xmm0, 282(%rsp,%rax,8)
	movq	$0, 296(%rsp,%rax,8)
.LBB14_32:
	movq	152(%rsp), %rbp
	jmp	.LBB14_11
.LBB14_33:
	movq	%r15, 128(%rsp)
	movq	%r14, 40(%rsp)
	xorps	%xmm0, %xmm0
	movsd	%xmm0, 64(%rsp)
	movsd	.LCPI14_0(%rip), %xmm0
	movsd	%xmm0, 80(%rsp)
	movsd	.LCPI14_1(%rip), %xmm0
	movsd	%xmm0, 144(%rsp)
	movsd	.LCPI14_2(%rip), %xmm0
	movsd	%xmm0, 136(%rsp)
	leaq	280(%rsp), %rdi
	xorl	%r15d, %r15d
	movl	$16944, %edx
	xorl	%esi, %esi
	callq	memset@PLT
	movsd	80(%rsp), %xmm3
	movsd	64(%rsp), %xmm2
	movq	88(%rsp), %rax
	movq	32(%rax), %r8
	movq	(%rax), %r9
	movq	16(%rax), %r10
	movl	$128, %ebx
	movl	$128, %ecx
	xorl	%r14d, %r14d
	movq	%r8, 72(%rsp)
	movq	%r9, 56(%rsp)
	movq	%r10, 48(%rsp)
	jmp	.LBB14_36
	.p2align	4
.LBB14_34:
.LBB14_35:
	cmpneqsd	%xmm2, %xmm6
	cmpneqsd	%xmm2, %xmm5
	orpd	%xmm6, %xmm5
	movd	%xmm5, %eax
	cmpb	$1, %r13b
	sete	%dl
	ucomisd	%xmm3, %xmm4
	setnp	%sil
	sete	%dil
	andb	%sil, %dil
	andb	%dl, %dil
	andb	%al, %dil
	orb	%dil, %r15b
	addq	%r12, %r14
	cmpq	%rbp, %r14
	jae	.LBB14_88
.LBB14_36:
	leaq	(%r14,%r14,2), %rax
	movsd	16(%r8,%rax,8), %xmm1
	movzbl	(%r9,%r14), %r13d
	movzbl	(%r10,%r14), %r12d
	incq	%r14
	movb	%r13b, 160(%rsp)
	movb	%r12b, 161(%rsp)
	leaq	162(%rsp), %rdx
	movw	$0, 4(%rdx)
	movl	$0, (%rdx)
	movupd	(%r8,%rax,8), %xmm4
	movapd	%xmm4, %xmm7
	unpckhpd	%xmm4, %xmm7
	movupd	%xmm4, 168(%rsp)
	movsd	%xmm1, 184(%rsp)
	xorpd	%xmm0, %xmm0
	movapd	%xmm0, 96(%rsp)
	movq	$0, 112(%rsp)
	movapd	%xmm7, %xmm5
	ucomisd	%xmm2, %xmm5
	movapd	%xmm1, %xmm6
	jne	.LBB14_38
	jp	.LBB14_38
	ucomisd	%xmm2, %xmm6
	jne	.LBB14_38
	jnp	.LBB14_34
.LBB14_38:
	cmpq	%rcx, %rbx
	setne	%bpl
	orb	%r15b, %bpl
	testb	$1, %bpl
	movapd	%xmm4, 192(%rsp)
	movapd	%xmm5, 256(%rsp)
	movapd	%xmm6, 240(%rsp)
	movsd	%xmm1, 208(%rsp)
	movapd	%xmm7, 224(%rsp)
	je	.LBB14_41
	cmpq	%rcx, %rbx
	je	.LBB14_42
	leaq	-2(%rcx), %rax
	movl	%ebx, %edx
	subl	%ecx, %edx
	leal	1(%rdx), %esi
	leaq	(%rcx,%rcx,2), %rcx
	movl	$774, 232(%rsp,%rcx,8)
	movl	%esi, 236(%rsp,%rcx,8)
	movupd	%xmm0, 240(%rsp,%rcx,8)
	movl	$65543, 256(%rsp,%rcx,8)
	movl	%edx, 260(%rsp,%rcx,8)
	movupd	%xmm0, 264(%rsp,%rcx,8)
	jmp	.LBB14_43
	.p2align	4
.LBB14_41:
	movq	%rbx, %rax
	jmp	.LBB14_43
.LBB14_42:
	leaq	(%rbx,%rbx,2), %rcx
	movw	$773, 280(%rsp,%rcx,8)
	movq	%rbx, %rax
	incq	%rbx
	movupd	%xmm0, 282(%rsp,%rcx,8)
	movq	$0, 296(%rsp,%rcx,8)
.LBB14_43:
	movq	%rbx, 16(%rsp)
	movq	%rax, 8(%rsp)
	leaq	280(%rsp), %rax
	movq	%rax, (%rsp)
	movzbl	36(%rsp), %r8d
	leaq	96(%rsp), %rdi
	leaq	160(%rsp), %rdx
	movl	$3, %r9d
	movq	88(%rsp), %rsi
	movq	%r14, %rcx
	callq	"writing::write_term"
	cmpb	$0, 96(%rsp)
	jne	.LBB14_142
	movq	104(%rsp), %rcx
	movq	112(%rsp), %rbx
	cmpb	$1, %r13b
	setne	%al
	movaps	192(%rsp), %xmm4
	movsd	64(%rsp), %xmm2
	ucomisd	%xmm2, %xmm4
	setp	%sil
	setne	%dl
	movapd	240(%rsp), %xmm6
	movapd	%xmm6, %xmm0
	cmpeqsd	%xmm2, %xmm0
	movapd	256(%rsp), %xmm5
	movapd	%xmm5, %xmm1
	movsd	80(%rsp), %xmm3
	cmpeqsd	%xmm3, %xmm1
	andpd	%xmm0, %xmm1
	movd	%xmm1, %edi
	testb	$1, %dil
	movapd	224(%rsp), %xmm7
	jne	.LBB14_49
	orb	%sil, %dl
	orb	%al, %dl
	movq	72(%rsp), %r8
	movq	56(%rsp), %r9
	movq	48(%rsp), %r10
	je	.LBB14_54
	cmpb	$0, 36(%rsp)
	je	.LBB14_50
	movapd	%xmm7, %xmm0
	subsd	%xmm7, %xmm0
	ucomisd	%xmm2, %xmm0
	movb	$14, %al
	movsd	208(%rsp), %xmm1
	jne	.LBB14_143
	jp	.LBB14_143
	movapd	%xmm1, %xmm0
	subsd	%xmm1, %xmm0
	movb	$2, %dl
	ucomisd	%xmm2, %xmm0
	jne	.LBB14_143
	jnp	.LBB14_53
	jmp	.LBB14_143
.LBB14_49:
	movq	72(%rsp), %r8
	movq	56(%rsp), %r9
	movq	48(%rsp), %r10
	jmp	.LBB14_54
.LBB14_50:
	movapd	%xmm7, %xmm0
	subsd	%xmm7, %xmm0
	ucomisd	%xmm2, %xmm0
	movb	$14, %al
	movsd	208(%rsp), %xmm1
	jne	.LBB14_143
	jp	.LBB14_143
	ucomisd	144(%rsp), %xmm6
	jbe	.LBB14_143
	movb	$1, %dl
	movsd	136(%rsp), %xmm0
	ucomisd	%xmm6, %xmm0
	jbe	.LBB14_143
.LBB14_53:
	movq	%xmm1, %rax
	xorl	%esi, %esi
	cmpb	$0, 36(%rsp)
	cmovneq	%rax, %rsi
	leaq	(%rbx,%rbx,2), %rax
	movb	%dl, 280(%rsp,%rax,8)
	movl	$0, 281(%rsp,%rax,8)
	movl	$0, 284(%rsp,%rax,8)
	movsd	%xmm7, 288(%rsp,%rax,8)
	movq	%rsi, 296(%rsp,%rax,8)
	movw	$2565, 304(%rsp,%rax,8)
	addq	$2, %rbx
	xorpd	%xmm0, %xmm0
	movupd	%xmm0, 306(%rsp,%rax,8)
	movq	$0, 320(%rsp,%rax,8)
.LBB14_54:
	testb	$1, %bpl
	je	.LBB14_56
	leaq	(%rbx,%rbx,2), %rax
	movw	$2053, 280(%rsp,%rax,8)
	incq	%rbx
	xorpd	%xmm0, %xmm0
	movupd	%xmm0, 282(%rsp,%rax,8)
	movq	$0, 296(%rsp,%rax,8)
.LBB14_56:
	movq	152(%rsp), %rbp
	jmp	.LBB14_35
.LBB14_57:
	leaq	280(%rsp), %rdi
	movl	$4272, %edx
	xorl	%esi, %esi
	callq	memset@PLT
.LBB14_58:
	leaq	1048(%rsp), %rax
	movl	$32, %ecx
	leaq	1049(%rsp), %rdx
.LBB14_59:
	movb	$1, (%rax)
	xorpd	%xmm0, %xmm0
	movupd	%xmm0, (%rdx)
	movq	$0, 15(%rdx)
	movw	$2565, 24(%rax)
	leaq	2(%rcx), %rbx
	movupd	%xmm0, 26(%rax)
	movq	$0, 40(%rax)
.LBB14_60:
	movabsq	$-6148914691236517205, %rdx
	movq	%r12, %rax
	mulq	%rdx
	subq	%rcx, %rbx
	shrq	$4, %rdx
	cmpq	%rbx, %rdx
	jb	.LBB14_155
	leaq	(%rcx,%rcx,2), %rax
	leaq	(,%rbx,8), %rcx
	leaq	(%rcx,%rcx,2), %rdx
	leaq	(%rsp,%rax,8), %rsi
	addq	$280, %rsi
	movq	%r15, %rdi
	jmp	.LBB14_157
.LBB14_62:
	cmpq	%rax, %rbp
	jne	.LBB14_118
.LBB14_63:
	cmpq	$16, %rbp
	ja	.LBB14_91
	leaq	280(%rsp), %rdi
	xorl	%r13d, %r13d
	movl	$4272, %edx
	xorl	%esi, %esi
	callq	memset@PLT
	leaq	162(%rsp), %r9
	xorps	%xmm2, %xmm2
	movsd	.LCPI14_0(%rip), %xmm3
	movsd	.LCPI14_1(%rip), %xmm0
	movsd	%xmm0, 144(%rsp)
	movsd	.LCPI14_2(%rip), %xmm0
	movsd	%xmm0, 136(%rsp)
	movq	88(%rsp), %rax
	movq	16(%rax), %r10
	movq	32(%rax), %r11
	movl	$32, %ebx
	movl	$32, %ecx
	xorl	%r14d, %r14d
	movq	192(%rsp), %r8
	movsd	%xmm2, 80(%rsp)
	movsd	%xmm3, 72(%rsp)
	movq	%r10, 56(%rsp)
	movq	%r11, 48(%rsp)
	jmp	.LBB14_67
	.p2align	4
.LBB14_65:
.LBB14_66:
	cmpneqsd	%xmm2, %xmm6
	cmpneqsd	%xmm2, %xmm5
	orpd	%xmm6, %xmm5
	movd	%xmm5, %eax
	cmpb	$1, %r15b
	sete	%dl
	ucomisd	%xmm3, %xmm4
	setnp	%sil
	sete	%dil
	andb	%sil, %dil
	andb	%dl, %dil
	andb	%al, %dil
	orb	%dil, %r13b
	addq	%r12, %r14
	cmpq	%rbp, %r14
	jae	.LBB14_145
.LBB14_67:
	leaq	(%r14,%r14,2), %rax
	movsd	16(%r11,%rax,8), %xmm1
	movzbl	(%r8,%r14), %r15d
	movzbl	(%r10,%r14), %r12d
	incq	%r14
	movb	%r15b, 160(%rsp)
	movb	%r12b, 161(%rsp)
	movw	$0, 4(%r9)
	movl	$0, (%r9)
	movupd	(%r11,%rax,8), %xmm4
	movapd	%xmm4, %xmm7
	unpckhpd	%xmm4, %xmm7
	movupd	%xmm4, 168(%rsp)
	movsd	%xmm1, 184(%rsp)
	xorpd	%xmm0, %xmm0
	movapd	%xmm0, 96(%rsp)
	movq	$0, 112(%rsp)
	movapd	%xmm7, %xmm5
	ucomisd	%xmm2, %xmm5
	movapd	%xmm1, %xmm6
	jne	.LBB14_69
	jp	.LBB14_69
	ucomisd	%xmm2, %xmm6
	jne	.LBB14_69
	jnp	.LBB14_65
.LBB14_69:
	cmpq	%rcx, %rbx
	setne	%bpl
	orb	%r13b, %bpl
	testb	$1, %bpl
	movapd	%xmm4, 256(%rsp)
	movapd	%xmm5, 240(%rsp)
	movapd	%xmm6, 224(%rsp)
	movsd	%xmm1, 64(%rsp)
	movapd	%xmm7, 208(%rsp)
	je	.LBB14_72
	cmpq	%rcx, %rbx
	je	.LBB14_73
	leaq	-2(%rcx), %rax
	movl	%ebx, %edx
	subl	%ecx, %edx
	leal	1(%rdx), %esi
	leaq	(%rcx,%rcx,2), %rcx
	movl	$774, 232(%rsp,%rcx,8)
	movl	%esi, 236(%rsp,%rcx,8)
	movupd	%xmm0, 240(%rsp,%rcx,8)
	movl	$65543, 256(%rsp,%rcx,8)
	movl	%edx, 260(%rsp,%rcx,8)
	movupd	%xmm0, 264(%rsp,%rcx,8)
	jmp	.LBB14_74
	.p2align	4
.LBB14_72:
	movq	%rbx, %rax
	jmp	.LBB14_74
.LBB14_73:
	leaq	(%rbx,%rbx,2), %rcx
	movw	$773, 280(%rsp,%rcx,8)
	movq	%rbx, %rax
	incq	%rbx
	movupd	%xmm0, 282(%rsp,%rcx,8)
	movq	$0, 296(%rsp,%rcx,8)
.LBB14_74:
	movq	%rbx, 16(%rsp)
	movq	%rax, 8(%rsp)
	leaq	280(%rsp), %rax
	movq	%rax, (%rsp)
	movzbl	36(%rsp), %r8d
	leaq	96(%rsp), %rdi
	leaq	160(%rsp), %rdx
	movl	$3, %r9d
	movq	88(%rsp), %rsi
	movq	%r14, %rcx
	callq	"writing::write_term"
	cmpb	$0, 96(%rsp)
	jne	.LBB14_142
	movq	104(%rsp), %rcx
	movq	112(%rsp), %rbx
	cmpb	$1, %r15b
	setne	%al
	movaps	256(%rsp), %xmm4
	movsd	80(%rsp), %xmm2
	ucomisd	%xmm2, %xmm4
	setp	%sil
	setne	%dl
	movapd	224(%rsp), %xmm6
	movapd	%xmm6, %xmm0
	cmpeqsd	%xmm2, %xmm0
	movapd	240(%rsp), %xmm5
	movapd	%xmm5, %xmm1
	movsd	72(%rsp), %xmm3
	cmpeqsd	%xmm3, %xmm1
	andpd	%xmm0, %xmm1
	movd	%xmm1, %edi
	testb	$1, %dil
	movapd	208(%rsp), %xmm7
	jne	.LBB14_80
	orb	%sil, %dl
	orb	%al, %dl
	movq	192(%rsp), %r8
	leaq	162(%rsp), %r9
	movq	56(%rsp), %r10
	movq	48(%rsp), %r11
	je	.LBB14_85
	cmpb	$0, 36(%rsp)
	je	.LBB14_81
	movapd	%xmm7, %xmm0
	subsd	%xmm7, %xmm0
	ucomisd	%xmm2, %xmm0
	movb	$14, %al
	movsd	64(%rsp), %xmm1
	jne	.LBB14_143
	jp	.LBB14_143
	movapd	%xmm1, %xmm0
	subsd	%xmm1, %xmm0
	movb	$2, %dl
	ucomisd	%xmm2, %xmm0
	jne	.LBB14_143
	jnp	.LBB14_84
	jmp	.LBB14_143
.LBB14_80:
	movq	192(%rsp), %r8
	leaq	162(%rsp), %r9
	movq	56(%rsp), %r10
	movq	48(%rsp), %r11
	jmp	.LBB14_85
.LBB14_81:
	movapd	%xmm7, %xmm0
	subsd	%xmm7, %xmm0
	ucomisd	%xmm2, %xmm0
	movb	$14, %al
	movsd	64(%rsp), %xmm1
	jne	.LBB14_143
	jp	.LBB14_143
	ucomisd	144(%rsp), %xmm6
	jbe	.LBB14_143
	movb	$1, %dl
	movsd	136(%rsp), %xmm0
	ucomisd	%xmm6, %xmm0
	jbe	.LBB14_143
.LBB14_84:
	movq	%xmm1, %rax
	xorl	%esi, %esi
	cmpb	$0, 36(%rsp)
	cmovneq	%rax, %rsi
	leaq	(%rbx,%rbx,2), %rax
	movb	%dl, 280(%rsp,%rax,8)
	movl	$0, 281(%rsp,%rax,8)
	movl	$0, 284(%rsp,%rax,8)
	movsd	%xmm7, 288(%rsp,%rax,8)
	movq	%rsi, 296(%rsp,%rax,8)
	movw	$2565, 304(%rsp,%rax,8)
	addq	$2, %rbx
	xorpd	%xmm0, %xmm0
	movupd	%xmm0, 306(%rsp,%rax,8)
	movq	$0, 320(%rsp,%rax,8)
.LBB14_85:
	testb	$1, %bpl
	je	.LBB14_87
	leaq	(%rbx,%rbx,2), %rax
	movw	$2053, 280(%rsp,%rax,8)
	incq	%rbx
	xorpd	%xmm0, %xmm0
	movupd	%xmm0, 282(%rsp,%rax,8)
	movq	$0, 296(%rsp,%rax,8)
.LBB14_87:
	movq	152(%rsp), %rbp
	jmp	.LBB14_66
.LBB14_88:
	cmpq	%rbx, %rcx
	movq	128(%rsp), %rdi
	movq	31104(%rsp), %rax
	jne	.LBB14_154
	leaq	(%rcx,%rcx,2), %rdx
	leaq	(%rsp,%rdx,8), %rsi
	addq	$280, %rsi
	testb	$1, %r15b
	je	.LBB14_153
	movw	$261, (%rsi)
	leaq	1(%rcx), %rbx
	xorpd	%xmm0, %xmm0
	movupd	%xmm0, 2(%rsi)
	movq	$0, 16(%rsi)
	jmp	.LBB14_154
.LBB14_91:
	xorps	%xmm0, %xmm0
	movsd	%xmm0, 80(%rsp)
	movsd	.LCPI14_0(%rip), %xmm0
	movsd	%xmm0, 72(%rsp)
	movsd	.LCPI14_1(%rip), %xmm0
	movsd	%xmm0, 144(%rsp)
	movsd	.LCPI14_2(%rip), %xmm0
	movsd	%xmm0, 136(%rsp)
	leaq	280(%rsp), %rdi
	xorl	%r13d, %r13d
	movl	$16944, %edx
	xorl	%esi, %esi
	callq	memset@PLT
	movsd	72(%rsp), %xmm3
	movsd	80(%rsp), %xmm2
	movq	88(%rsp), %rax
	movq	16(%rax), %r9
	movq	32(%rax), %r10
	movl	$128, %ebx
	movl	$128, %ecx
	xorl	%r14d, %r14d
	movq	192(%rsp), %r8
	movq	%r9, 56(%rsp)
	movq	%r10, 48(%rsp)
	jmp	.LBB14_94
	.p2align	4
.LBB14_92:
.LBB14_93:
	cmpneqsd	%xmm2, %xmm6
	cmpneqsd	%xmm2, %xmm5
	orpd	%xmm6, %xmm5
	movd	%xmm5, %eax
	cmpb	$1, %r15b
	sete	%dl
	ucomisd	%xmm3, %xmm4
	setnp	%sil
	sete	%dil
	andb	%sil, %dil
	andb	%dl, %dil
	andb	%al, %dil
	orb	%dil, %r13b
	addq	%r12, %r14
	cmpq	%rbp, %r14
	jae	.LBB14_149
.LBB14_94:
	leaq	(%r14,%r14,2), %rax
	movsd	16(%r10,%rax,8), %xmm1
	movzbl	(%r8,%r14), %r15d
	movzbl	(%r9,%r14), %r12d
	incq	%r14
	movb	%r15b, 160(%rsp)
	movb	%r12b, 161(%rsp)
	leaq	162(%rsp), %rdx
	movw	$0, 4(%rdx)
	movl	$0, (%rdx)
	movupd	(%r10,%rax,8), %xmm4
	movapd	%xmm4, %xmm7
	unpckhpd	%xmm4, %xmm7
	movupd	%xmm4, 168(%rsp)
	movsd	%xmm1, 184(%rsp)
	xorpd	%xmm0, %xmm0
	movapd	%xmm0, 96(%rsp)
	movq	$0, 112(%rsp)
	movapd	%xmm7, %xmm5
	ucomisd	%xmm2, %xmm5
	movapd	%xmm1, %xmm6
	jne	.LBB14_96
	jp	.LBB14_96
	ucomisd	%xmm2, %xmm6
	jne	.LBB14_96
	jnp	.LBB14_92
.LBB14_96:
	cmpq	%rcx, %rbx
	setne	%bpl
	orb	%r13b, %bpl
	testb	$1, %bpl
	movapd	%xmm4, 256(%rsp)
	movapd	%xmm5, 240(%rsp)
	movapd	%xmm6, 224(%rsp)
	movsd	%xmm1, 64(%rsp)
	movapd	%xmm7, 208(%rsp)
	je	.LBB14_99
	cmpq	%rcx, %rbx
	je	.LBB14_100
	leaq	-2(%rcx), %rax
	movl	%ebx, %edx
	subl	%ecx, %edx
	leal	1(%rdx), %esi
	leaq	(%rcx,%rcx,2), %rcx
	movl	$774, 232(%rsp,%rcx,8)
	movl	%esi, 236(%rsp,%rcx,8)
	movupd	%xmm0, 240(%rsp,%rcx,8)
	movl	$65543, 256(%rsp,%rcx,8)
	movl	%edx, 260(%rsp,%rcx,8)
	movupd	%xmm0, 264(%rsp,%rcx,8)
	jmp	.LBB14_101
	.p2align	4
.LBB14_99:
	movq	%rbx, %rax
	jmp	.LBB14_101
.LBB14_100:
	leaq	(%rbx,%rbx,2), %rcx
	movw	$773, 280(%rsp,%rcx,8)
	movq	%rbx, %rax
	incq	%rbx
	movupd	%xmm0, 282(%rsp,%rcx,8)
	movq	$0, 296(%rsp,%rcx,8)
.LBB14_101:
	movq	%rbx, 16(%rsp)
	movq	%rax, 8(%rsp)
	leaq	280(%rsp), %rax
	movq	%rax, (%rsp)
	movzbl	36(%rsp), %r8d
	leaq	96(%rsp), %rdi
	leaq	160(%rsp), %rdx
	movl	$3, %r9d
	movq	88(%rsp), %rsi
	movq	%r14, %rcx
	callq	"writing::write_term"
	cmpb	$0, 96(%rsp)
	jne	.LBB14_142
	movq	104(%rsp), %rcx
	movq	112(%rsp), %rbx
	cmpb	$1, %r15b
	setne	%al
	movaps	256(%rsp), %xmm4
	movsd	80(%rsp), %xmm2
	ucomisd	%xmm2, %xmm4
	setp	%sil
	setne	%dl
	movapd	224(%rsp), %xmm6
	movapd	%xmm6, %xmm0
	cmpeqsd	%xmm2, %xmm0
	movapd	240(%rsp), %xmm5
	movapd	%xmm5, %xmm1
	movsd	72(%rsp), %xmm3
	cmpeqsd	%xmm3, %xmm1
	andpd	%xmm0, %xmm1
	movd	%xmm1, %edi
	testb	$1, %dil
	movapd	208(%rsp), %xmm7
	jne	.LBB14_107
	orb	%sil, %dl
	orb	%al, %dl
	movq	192(%rsp), %r8
	movq	56(%rsp), %r9
	movq	48(%rsp), %r10
	je	.LBB14_112
	cmpb	$0, 36(%rsp)
	je	.LBB14_108
	movapd	%xmm7, %xmm0
	subsd	%xmm7, %xmm0
	ucomisd	%xmm2, %xmm0
	movb	$14, %al
	movsd	64(%rsp), %xmm1
	jne	.LBB14_143
	jp	.LBB14_143
	movapd	%xmm1, %xmm0
	subsd	%xmm1, %xmm0
	movb	$2, %dl
	ucomisd	%xmm2, %xmm0
	jne	.LBB14_143
	jnp	.LBB14_111
	jmp	.LBB14_143
.LBB14_107:
	movq	192(%rsp), %r8
	movq	56(%rsp), %r9
	movq	48(%rsp), %r10
	jmp	.LBB14_112
.LBB14_108:
	movapd	%xmm7, %xmm0
	subsd	%xmm7, %xmm0
	ucomisd	%xmm2, %xmm0
	movb	$14, %al
	movsd	64(%rsp), %xmm1
	jne	.LBB14_143
	jp	.LBB14_143
	ucomisd	144(%rsp), %xmm6
	jbe	.LBB14_143
	movb	$1, %dl
	movsd	136(%rsp), %xmm0
	ucomisd	%xmm6, %xmm0
	jbe	.LBB14_143
.LBB14_111:
	movq	%xmm1, %rax
	xorl	%esi, %esi
	cmpb	$0, 36(%rsp)
	cmovneq	%rax, %rsi
	leaq	(%rbx,%rbx,2), %rax
	movb	%dl, 280(%rsp,%rax,8)
	movl	$0, 281(%rsp,%rax,8)
	movl	$0, 284(%rsp,%rax,8)
	movsd	%xmm7, 288(%rsp,%rax,8)
	movq	%rsi, 296(%rsp,%rax,8)
	movw	$2565, 304(%rsp,%rax,8)
	addq	$2, %rbx
	xorpd	%xmm0, %xmm0
	movupd	%xmm0, 306(%rsp,%rax,8)
	movq	$0, 320(%rsp,%rax,8)
.LBB14_112:
	testb	$1, %bpl
	je	.LBB14_114
	leaq	(%rbx,%rbx,2), %rax
	movw	$2053, 280(%rsp,%rax,8)
	incq	%rbx
	xorpd	%xmm0, %xmm0
	movupd	%xmm0, 282(%rsp,%rax,8)
	movq	$0, 296(%rsp,%rax,8)
.LBB14_114:
	movq	152(%rsp), %rbp
	jmp	.LBB14_93
.LBB14_115:
	cmpq	%rbx, %rcx
	jne	.LBB14_148
	leaq	(%rcx,%rcx,2), %rdx
	leaq	(%rsp,%rdx,8), %rax
	addq	$280, %rax
	testb	$1, %r15b
	movq	128(%rsp), %r15
	movq	31104(%rsp), %r12
	je	.LBB14_159
	movw	$261, (%rax)
	leaq	1(%rcx), %rbx
	xorpd	%xmm0, %xmm0
	movupd	%xmm0, 2(%rax)
	movq	$0, 16(%rax)
	movq	40(%rsp), %r14
	jmp	.LBB14_60
.LBB14_118:
	leaq	280(%rsp), %rdi
	xorl	%r13d, %r13d
	movl	$30768, %edx
	xorl	%esi, %esi
	callq	memset@PLT
	movq	192(%rsp), %r8
	leaq	162(%rsp), %r9
	xorps	%xmm2, %xmm2
	movsd	.LCPI14_0(%rip), %xmm3
	movsd	.LCPI14_1(%rip), %xmm0
	movsd	%xmm0, 144(%rsp)
	movsd	.LCPI14_2(%rip), %xmm0
	movsd	%xmm0, 136(%rsp)
	movq	88(%rsp), %rax
	movq	16(%rax), %r10
	movq	32(%rax), %r11
	movl	$128, %ebx
	movl	$128, %ecx
	xorl	%r14d, %r14d
	movsd	%xmm2, 80(%rsp)
	movsd	%xmm3, 72(%rsp)
	movq	%r10, 56(%rsp)
	movq	%r11, 48(%rsp)
	jmp	.LBB14_121
	.p2align	4
.LBB14_119:
	leaq	162(%rsp), %r9
	movq	56(%rsp), %r10
	movq	48(%rsp), %r11
.LBB14_120:
	cmpneqsd	%xmm2, %xmm6
	cmpneqsd	%xmm2, %xmm5
	orpd	%xmm6, %xmm5
	movd	%xmm5, %eax
	cmpb	$1, %r12b
	sete	%dl
	ucomisd	%xmm3, %xmm4
	setnp	%sil
	sete	%dil
	andb	%sil, %dil
	andb	%dl, %dil
	andb	%al, %dil
	orb	%dil, %r13b
	addq	%rbp, %r14
	cmpq	152(%rsp), %r14
	jae	.LBB14_149
.LBB14_121:
	leaq	(%r14,%r14,2), %rax
	movsd	16(%r11,%rax,8), %xmm1
	movzbl	(%r8,%r14), %r12d
	movzbl	(%r10,%r14), %ebp
	incq	%r14
	movb	%r12b, 160(%rsp)
	movb	%bpl, 161(%rsp)
	movw	$0, 4(%r9)
	movl	$0, (%r9)
	movupd	(%r11,%rax,8), %xmm4
	movapd	%xmm4, %xmm7
	unpckhpd	%xmm4, %xmm7
	movupd	%xmm4, 168(%rsp)
	movsd	%xmm1, 184(%rsp)
	xorpd	%xmm0, %xmm0
	movapd	%xmm0, 96(%rsp)
	movq	$0, 112(%rsp)
	movapd	%xmm7, %xmm5
	ucomisd	%xmm2, %xmm5
	movapd	%xmm1, %xmm6
	jne	.LBB14_124
	jp	.LBB14_124
	ucomisd	%xmm2, %xmm6
	jne	.LBB14_124
	jp	.LBB14_124
	jmp	.LBB14_120
	.p2align	4
.LBB14_124:
	cmpq	%rcx, %rbx
	setne	%r15b
	orb	%r13b, %r15b
	testb	$1, %r15b
	movapd	%xmm4, 256(%rsp)
	movapd	%xmm5, 240(%rsp)
	movapd	%xmm6, 224(%rsp)
	movsd	%xmm1, 64(%rsp)
	movapd	%xmm7, 208(%rsp)
	je	.LBB14_127
	cmpq	%rcx, %rbx
	je	.LBB14_128
	leaq	-2(%rcx), %rax
	movl	%ebx, %edx
	subl	%ecx, %edx
	leal	1(%rdx), %esi
	leaq	(%rcx,%rcx,2), %rcx
	movl	$774, 232(%rsp,%rcx,8)
	movl	%esi, 236(%rsp,%rcx,8)
	movupd	%xmm0, 240(%rsp,%rcx,8)
	movl	$65543, 256(%rsp,%rcx,8)
	movl	%edx, 260(%rsp,%rcx,8)
	movupd	%xmm0, 264(%rsp,%rcx,8)
	jmp	.LBB14_129
	.p2align	4
.LBB14_127:
	movq	%rbx, %rax
	jmp	.LBB14_129
.LBB14_128:
	leaq	(%rbx,%rbx,2), %rcx
	movw	$773, 280(%rsp,%rcx,8)
	movq	%rbx, %rax
	incq	%rbx
	movupd	%xmm0, 282(%rsp,%rcx,8)
	movq	$0, 296(%rsp,%rcx,8)
.LBB14_129:
	movq	%rbx, 24(%rsp)
	movq	%rax, 16(%rsp)
	leaq	280(%rsp), %rax
	movq	%rax, (%rsp)
	movq	$30768, 8(%rsp)
	movzbl	36(%rsp), %r8d
	leaq	96(%rsp), %rdi
	leaq	160(%rsp), %rdx
	movl	$3, %r9d
	movq	88(%rsp), %rsi
	movq	%r14, %rcx
	callq	"writing::faithful::write_term"
	cmpb	$0, 96(%rsp)
	jne	.LBB14_142
	movq	104(%rsp), %rcx
	movq	112(%rsp), %rbx
	cmpb	$1, %r12b
	setne	%al
	movaps	256(%rsp), %xmm4
	movsd	80(%rsp), %xmm2
	ucomisd	%xmm2, %xmm4
	setp	%sil
	setne	%dl
	movapd	224(%rsp), %xmm6
	movapd	%xmm6, %xmm0
	cmpeqsd	%xmm2, %xmm0
	movapd	240(%rsp), %xmm5
	movapd	%xmm5, %xmm1
	movsd	72(%rsp), %xmm3
	cmpeqsd	%xmm3, %xmm1
	andpd	%xmm0, %xmm1
	movd	%xmm1, %edi
	testb	$1, %dil
	movapd	208(%rsp), %xmm7
	jne	.LBB14_135
	orb	%sil, %dl
	orb	%al, %dl
	movq	192(%rsp), %r8
	je	.LBB14_140
	cmpb	$0, 36(%rsp)
	je	.LBB14_136
	movapd	%xmm7, %xmm0
	subsd	%xmm7, %xmm0
	ucomisd	%xmm2, %xmm0
	movb	$14, %al
	movsd	64(%rsp), %xmm1
	jne	.LBB14_143
	jp	.LBB14_143
	movapd	%xmm1, %xmm0
	subsd	%xmm1, %xmm0
	movb	$2, %dl
	ucomisd	%xmm2, %xmm0
	jne	.LBB14_143
	jnp	.LBB14_139
	jmp	.LBB14_143
.LBB14_135:
	movq	192(%rsp), %r8
	jmp	.LBB14_140
.LBB14_136:
	movapd	%xmm7, %xmm0
	subsd	%xmm7, %xmm0
	ucomisd	%xmm2, %xmm0
	movb	$14, %al
	movsd	64(%rsp), %xmm1
	jne	.LBB14_143
	jp	.LBB14_143
	ucomisd	144(%rsp), %xmm6
	jbe	.LBB14_143
	movb	$1, %dl
	movsd	136(%rsp), %xmm0
	ucomisd	%xmm6, %xmm0
	jbe	.LBB14_143
.LBB14_139:
	movq	%xmm1, %rax
	xorl	%esi, %esi
	cmpb	$0, 36(%rsp)
	cmovneq	%rax, %rsi
	leaq	(%rbx,%rbx,2), %rax
	movb	%dl, 280(%rsp,%rax,8)
	movl	$0, 281(%rsp,%rax,8)
	movl	$0, 284(%rsp,%rax,8)
	movsd	%xmm7, 288(%rsp,%rax,8)
	movq	%rsi, 296(%rsp,%rax,8)
	movw	$2565, 304(%rsp,%rax,8)
	addq	$2, %rbx
	xorpd	%xmm0, %xmm0
	movupd	%xmm0, 306(%rsp,%rax,8)
	movq	$0, 320(%rsp,%rax,8)
.LBB14_140:
	testb	$1, %r15b
	je	.LBB14_119
	leaq	(%rbx,%rbx,2), %rax
	movw	$2053, 280(%rsp,%rax,8)
	incq	%rbx
	xorpd	%xmm0, %xmm0
	movupd	%xmm0, 282(%rsp,%rax,8)
	movq	$0, 296(%rsp,%rax,8)
	jmp	.LBB14_119
.LBB14_142:
	movzbl	97(%rsp), %eax
	jmp	.LBB14_143
.LBB14_149:
	leaq	(%rcx,%rcx,2), %rsi
	cmpq	%rbx, %rcx
	movq	31104(%rsp), %rax
	jne	.LBB14_162
	leaq	(%rsp,%rsi,8), %rdi
	addq	$280, %rdi
	testb	$1, %r13b
	je	.LBB14_161
	movw	$261, (%rdi)
	leaq	1(%rcx), %rbx
	xorpd	%xmm0, %xmm0
	movupd	%xmm0, 2(%rdi)
	movq	$0, 16(%rdi)
	jmp	.LBB14_162
.LBB14_145:
	cmpq	%rbx, %rcx
	jne	.LBB14_148
	leaq	(%rcx,%rcx,2), %rdx
	leaq	(%rsp,%rdx,8), %rax
	addq	$280, %rax
	testb	$1, %r13b
	movq	31104(%rsp), %r12
	je	.LBB14_160
	movw	$261, (%rax)
	leaq	1(%rcx), %rbx
	xorpd	%xmm0, %xmm0
	movupd	%xmm0, 2(%rax)
	movq	$0, 16(%rax)
	movq	40(%rsp), %r14
	movq	128(%rsp), %r15
	jmp	.LBB14_60
.LBB14_148:
	movq	40(%rsp), %r14
	movq	128(%rsp), %r15
	movq	31104(%rsp), %r12
	jmp	.LBB14_60
.LBB14_153:
	leaq	(%rsp,%rdx,8), %rdx
	addq	$281, %rdx
	movb	$1, (%rsi)
	xorpd	%xmm0, %xmm0
	movupd	%xmm0, (%rdx)
	movq	$0, 15(%rdx)
	movw	$2565, 24(%rsi)
	leaq	2(%rcx), %rbx
	movupd	%xmm0, 26(%rsi)
	movq	$0, 40(%rsi)
.LBB14_154:
	movabsq	$-6148914691236517205, %rdx
	mulq	%rdx
	subq	%rcx, %rbx
	shrq	$4, %rdx
	cmpq	%rbx, %rdx
	movq	40(%rsp), %r14
	jae	.LBB14_156
.LBB14_155:
	movb	$16, %al
	movb	$1, %cl
	xorl	%ebx, %ebx
	jmp	.LBB14_158
.LBB14_156:
	leaq	(%rcx,%rcx,2), %rax
	leaq	(,%rbx,8), %rcx
	leaq	(%rcx,%rcx,2), %rdx
	leaq	(%rsp,%rax,8), %rsi
	addq	$280, %rsi
.LBB14_157:
	callq	memcpy@PLT
	xorl	%ecx, %ecx
	xorl	%eax, %eax
	jmp	.LBB14_158
.LBB14_161:
	leaq	(%rsp,%rsi,8), %rdx
	addq	$281, %rdx
	movb	$1, (%rdi)
	xorpd	%xmm0, %xmm0
	movupd	%xmm0, (%rdx)
	movq	$0, 15(%rdx)
	movw	$2565, 24(%rdi)
	leaq	2(%rcx), %rbx
	movupd	%xmm0, 26(%rdi)
	movq	$0, 40(%rdi)
.LBB14_162:
	movabsq	$-6148914691236517205, %rdx
	mulq	%rdx
	subq	%rcx, %rbx
	shrq	$4, %rdx
	cmpq	%rbx, %rdx
	jae	.LBB14_164
	movb	$16, %al
.LBB14_143:
	movb	$1, %cl
	xorl	%ebx, %ebx
.LBB14_144:
	movq	40(%rsp), %r14
.LBB14_158:
	xorl	%edx, %edx
	testb	%cl, %cl
	movzbl	%al, %eax
	cmovel	%edx, %eax
	cmoveq	%rbx, %rdx
	movb	%cl, (%r14)
	movb	%al, 1(%r14)
	movq	%rdx, 8(%r14)
	addq	$31048, %rsp
	popq	%rbx
	popq	%r12
	popq	%r13
	popq	%r14
	popq	%r15
	popq	%rbp
	retq
.LBB14_164:
	leaq	(,%rbx,8), %rax
	leaq	(%rax,%rax,2), %rdx
	leaq	(%rsp,%rsi,8), %rsi
	addq	$280, %rsi
	movq	128(%rsp), %rdi
	callq	memcpy@PLT
	xorl	%ecx, %ecx
	xorl	%eax, %eax
	jmp	.LBB14_144
.LBB14_159:
	leaq	(%rsp,%rdx,8), %rdx
	addq	$281, %rdx
	movq	40(%rsp), %r14
	jmp	.LBB14_59
.LBB14_160:
	leaq	(%rsp,%rdx,8), %rdx
	addq	$281, %rdx
	movq	40(%rsp), %r14
	movq	128(%rsp), %r15
	jmp	.LBB14_59
.Lfunc_end14:
	.size	"algebra::answer::write_sum", .Lfunc_end14-"algebra::answer::write_sum"

	.section	.rodata.cst8,"aM",@progbits,8
	.p2align	3, 0x0
.LCPI15_0:
	.quad	0x3ff0000000000000
.LCPI15_1:
	.quad	0xbcb0000000000000
.LCPI15_2:
	.quad	0x3cb0000000000000
.LCPI15_3:
	.quad	0x3fe0000000000000
.LCPI15_4:
	.quad	0x4000000000000000
	.section	".text.writing::write_term","ax",@progbits
	.p2align	4
	.type	"writing::write_term",@function
"writing::write_term":
	pushq	%rbp
	pushq	%r15
	pushq	%r14
	pushq	%r13
	pushq	%r12
	pushq	%rbx
	subq	$280, %rsp
	movq	%r9, 104(%rsp)
	movq	%rcx, %r15
	movq	352(%rsp), %rax
	movq	344(%rsp), %rcx
	movq	336(%rsp), %r10
	movzbl	(%rdx), %r9d
	movsd	8(%rdx), %xmm3
	movsd	16(%rdx), %xmm0
	movsd	%xmm0, 48(%rsp)
	movsd	24(%rdx), %xmm2
	cmpl	$1, %r9d
	jne	.LBB15_5
	movaps	%xmm3, %xmm1
	xorpd	%xmm0, %xmm0
	ucomisd	%xmm0, %xmm1
	jne	.LBB15_31
	jp	.LBB15_31
	leaq	(%rax,%rax,2), %r14
	movb	$1, (%r10,%r14,8)
	xorpd	%xmm1, %xmm1
	movupd	%xmm1, 1(%r10,%r14,8)
	movq	$0, 16(%r10,%r14,8)
	movw	$2565, 24(%r10,%r14,8)
	movupd	%xmm1, 26(%r10,%r14,8)
	movq	$0, 40(%r10,%r14,8)
	testb	%r8b, %r8b
	je	.LBB15_33
	movsd	48(%rsp), %xmm1
	subsd	%xmm1, %xmm1
	xorl	%r11d, %r11d
	ucomisd	%xmm0, %xmm1
	movb	$14, %sil
	movb	$1, %dl
	jne	.LBB15_47
	jp	.LBB15_47
	movl	%r8d, %ebp
	movq	%r10, %rbx
	movapd	%xmm2, %xmm1
	subsd	%xmm2, %xmm1
	movb	$2, %r9b
	ucomisd	%xmm0, %xmm1
	movl	$0, %r10d
	jne	.LBB15_68
	jnp	.LBB15_36
	jmp	.LBB15_68
.LBB15_5:
	movzbl	1(%rdx), %r14d
	addq	%r15, %r14
	cmpq	%r14, %r15
	jae	.LBB15_29
	movq	%r9, 72(%rsp)
	movq	%rdi, 40(%rsp)
	decq	104(%rsp)
	leaq	146(%rsp), %r12
	xorps	%xmm4, %xmm4
	movsd	.LCPI15_0(%rip), %xmm5
	movsd	.LCPI15_1(%rip), %xmm0
	movsd	%xmm0, 184(%rsp)
	movsd	.LCPI15_2(%rip), %xmm0
	movsd	%xmm0, 176(%rsp)
	xorl	%ebp, %ebp
	movsd	%xmm2, 88(%rsp)
	movsd	%xmm3, 80(%rsp)
	movq	%r14, 56(%rsp)
	movsd	%xmm4, 200(%rsp)
	movsd	%xmm5, 192(%rsp)
	jmp	.LBB15_9
	.p2align	4
.LBB15_7:
.LBB15_8:
	cmpneqsd	%xmm4, %xmm8
	cmpneqsd	%xmm4, %xmm7
	orpd	%xmm8, %xmm7
	movd	%xmm7, %edx
	cmpb	$1, %bl
	sete	%r11b
	ucomisd	%xmm5, %xmm6
	setnp	%dil
	sete	%r9b
	andb	%dil, %r9b
	andb	%r11b, %r9b
	andb	%dl, %r9b
	orb	%r9b, %bpl
	addq	%r13, %r15
	cmpq	%r14, %r15
	jae	.LBB15_37
.LBB15_9:
	leaq	(%r15,%r15,2), %rdx
	movq	32(%rsi), %r11
	movsd	16(%r11,%rdx,8), %xmm1
	movq	(%rsi), %rdi
	movq	16(%rsi), %r9
	movzbl	(%rdi,%r15), %ebx
	movzbl	(%r9,%r15), %r13d
	incq	%r15
	movb	%bl, 144(%rsp)
	movb	%r13b, 145(%rsp)
	movw	$0, 4(%r12)
	movl	$0, (%r12)
	movupd	(%r11,%rdx,8), %xmm6
	movapd	%xmm6, %xmm9
	unpckhpd	%xmm6, %xmm9
	movupd	%xmm6, 152(%rsp)
	movsd	%xmm1, 168(%rsp)
	xorpd	%xmm0, %xmm0
	movapd	%xmm0, 112(%rsp)
	movq	$0, 128(%rsp)
	movapd	%xmm9, %xmm7
	ucomisd	%xmm4, %xmm7
	movapd	%xmm1, %xmm8
	jne	.LBB15_11
	jp	.LBB15_11
	ucomisd	%xmm4, %xmm8
	jne	.LBB15_11
	jnp	.LBB15_7
.LBB15_11:
	cmpq	%rcx, %rax
	setne	%dl
	orb	%bpl, %dl
	movb	%dl, 39(%rsp)
	testb	$1, %dl
	movq	%r13, 64(%rsp)
	movapd	%xmm6, 256(%rsp)
	movapd	%xmm7, 240(%rsp)
	movapd	%xmm8, 224(%rsp)
	movsd	%xmm1, 96(%rsp)
	movapd	%xmm9, 208(%rsp)
	je	.LBB15_14
	cmpq	%rcx, %rax
	je	.LBB15_15
	leaq	-2(%rcx), %rdx
	movl	%eax, %r9d
	subl	%ecx, %r9d
	leal	1(%r9), %edi
	leaq	(%rcx,%rcx,2), %rcx
	movl	$774, -48(%r10,%rcx,8)
	movl	%edi, -44(%r10,%rcx,8)
	movupd	%xmm0, -40(%r10,%rcx,8)
	movl	$65543, -24(%r10,%rcx,8)
	movl	%r9d, -20(%r10,%rcx,8)
	movupd	%xmm0, -16(%r10,%rcx,8)
	jmp	.LBB15_16
	.p2align	4
.LBB15_14:
	movq	%rax, %rdx
	jmp	.LBB15_16
.LBB15_15:
	leaq	(%rax,%rax,2), %rcx
	movw	$773, (%r10,%rcx,8)
	movq	%rax, %rdx
	incq	%rax
	movupd	%xmm0, 2(%r10,%rcx,8)
	movq	$0, 16(%r10,%rcx,8)
.LBB15_16:
	movq	%rax, 16(%rsp)
	movq	%rdx, 8(%rsp)
	movq	%r10, %r14
	movq	%r10, (%rsp)
	movl	%r8d, %r12d
	movzbl	%r8b, %r8d
	leaq	112(%rsp), %rdi
	leaq	144(%rsp), %rdx
	movq	%rsi, %r13
	movq	%r15, %rcx
	movq	104(%rsp), %r9
	callq	"writing::write_term"
	cmpb	$0, 112(%rsp)
	jne	.LBB15_40
	movq	120(%rsp), %rcx
	movq	128(%rsp), %rax
	cmpb	$1, %bl
	setne	%dl
	movaps	256(%rsp), %xmm6
	movsd	200(%rsp), %xmm4
	ucomisd	%xmm4, %xmm6
	setp	%dil
	setne	%sil
	movapd	224(%rsp), %xmm8
	movapd	%xmm8, %xmm0
	cmpeqsd	%xmm4, %xmm0
	movapd	240(%rsp), %xmm7
	movapd	%xmm7, %xmm1
	movsd	192(%rsp), %xmm5
	cmpeqsd	%xmm5, %xmm1
	andpd	%xmm0, %xmm1
	movd	%xmm1, %r8d
	testb	$1, %r8b
	jne	.LBB15_22
	orb	%dil, %sil
	orb	%dl, %sil
	movq	%r14, %r10
	movsd	88(%rsp), %xmm2
	movsd	80(%rsp), %xmm3
	movl	%r12d, %r8d
	movq	%r13, %rsi
	je	.LBB15_23
	movapd	208(%rsp), %xmm9
	movapd	%xmm9, %xmm0
	subsd	%xmm9, %xmm0
	testb	%r8b, %r8b
	movq	56(%rsp), %r14
	leaq	146(%rsp), %r12
	movq	64(%rsp), %r13
	je	.LBB15_24
	ucomisd	%xmm4, %xmm0
	movb	$14, %dl
	movsd	96(%rsp), %xmm1
	jne	.LBB15_41
	jp	.LBB15_41
	movapd	%xmm1, %xmm0
	subsd	%xmm1, %xmm0
	movb	$2, %r9b
	ucomisd	%xmm4, %xmm0
	jne	.LBB15_41
	jnp	.LBB15_27
	jmp	.LBB15_41
.LBB15_22:
	movq	%r14, %r10
	movsd	88(%rsp), %xmm2
	movsd	80(%rsp), %xmm3
	movl	%r12d, %r8d
	movq	%r13, %rsi
.LBB15_23:
	movq	56(%rsp), %r14
	leaq	146(%rsp), %r12
	movq	64(%rsp), %r13
	testb	$1, 39(%rsp)
	je	.LBB15_8
	jmp	.LBB15_28
.LBB15_24:
	ucomisd	%xmm4, %xmm0
	movb	$14, %dl
	movsd	96(%rsp), %xmm1
	jne	.LBB15_41
	jp	.LBB15_41
	ucomisd	184(%rsp), %xmm8
	jbe	.LBB15_41
	movb	$1, %r9b
	movsd	176(%rsp), %xmm0
	ucomisd	%xmm8, %xmm0
	jbe	.LBB15_41
.LBB15_27:
	movq	%xmm1, %rdx
	xorl	%edi, %edi
	testb	%r8b, %r8b
	cmovneq	%rdx, %rdi
	leaq	(%rax,%rax,2), %rdx
	movb	%r9b, (%r10,%rdx,8)
	movl	$0, 1(%r10,%rdx,8)
	movl	$0, 4(%r10,%rdx,8)
	movsd	%xmm9, 8(%r10,%rdx,8)
	movq	%rdi, 16(%r10,%rdx,8)
	movw	$2565, 24(%r10,%rdx,8)
	addq	$2, %rax
	xorpd	%xmm0, %xmm0
	movupd	%xmm0, 26(%r10,%rdx,8)
	movq	$0, 40(%r10,%rdx,8)
	testb	$1, 39(%rsp)
	je	.LBB15_8
.LBB15_28:
	leaq	(%rax,%rax,2), %rdx
	movw	$2053, (%r10,%rdx,8)
	incq	%rax
	xorpd	%xmm0, %xmm0
	movupd	%xmm0, 2(%r10,%rdx,8)
	movq	$0, 16(%r10,%rdx,8)
	jmp	.LBB15_8
.LBB15_29:
	cmpq	%rax, %rcx
	jne	.LBB15_50
	leaq	(%rcx,%rcx,2), %rax
	leaq	(%r10,%rax,8), %rdx
	leaq	(%r10,%rax,8), %rax
	incq	%rax
	jmp	.LBB15_49
.LBB15_31:
	movsd	.LCPI15_3(%rip), %xmm0
	ucomisd	%xmm0, %xmm1
	jne	.LBB15_43
	jp	.LBB15_43
	leaq	(%rax,%rax,2), %rdx
	movw	$1797, (%r10,%rdx,8)
	incq	%rax
	xorpd	%xmm0, %xmm0
	movupd	%xmm0, 2(%r10,%rdx,8)
	movq	$0, 16(%r10,%rdx,8)
	jmp	.LBB15_66
.LBB15_33:
	movsd	48(%rsp), %xmm1
	subsd	%xmm1, %xmm1
	xorl	%r11d, %r11d
	ucomisd	%xmm0, %xmm1
	movb	$14, %sil
	movb	$1, %r9b
	jne	.LBB15_46
	jp	.LBB15_46
	movsd	.LCPI15_1(%rip), %xmm1
	movapd	%xmm2, %xmm0
	ucomisd	%xmm1, %xmm0
	jbe	.LBB15_46
	movl	%r8d, %ebp
	movq	%r10, %rbx
	movsd	.LCPI15_2(%rip), %xmm1
	ucomisd	%xmm0, %xmm1
	movb	$1, %dl
	movl	$0, %r10d
	jbe	.LBB15_68
.LBB15_36:
	leaq	(%rbx,%r14,8), %rsi
	movq	%xmm2, %r8
	xorl	%edx, %edx
	testb	%bpl, %bpl
	cmoveq	%rdx, %r8
	movb	%r9b, 48(%rsi)
	movl	$0, 49(%rsi)
	movl	$0, 52(%rsi)
	movsd	48(%rsp), %xmm0
	movsd	%xmm0, 56(%rsi)
	movq	%r8, 64(%rsi)
	movw	$2053, 72(%rsi)
	addq	$4, %rax
	xorpd	%xmm0, %xmm0
	movupd	%xmm0, 74(%rsi)
	movq	$0, 88(%rsi)
	jmp	.LBB15_67
.LBB15_37:
	cmpq	%rax, %rcx
	jne	.LBB15_42
	leaq	(%rcx,%rcx,2), %rax
	leaq	(%r10,%rax,8), %rdx
	testb	$1, %bpl
	movq	72(%rsp), %r9
	je	.LBB15_48
	movw	$261, (%rdx)
	leaq	1(%rcx), %rax
	xorpd	%xmm0, %xmm0
	movupd	%xmm0, 2(%rdx)
	movq	$0, 16(%rdx)
	movq	40(%rsp), %rdi
	jmp	.LBB15_50
.LBB15_40:
	movzbl	113(%rsp), %edx
.LBB15_41:
	movq	40(%rsp), %rax
	movb	$1, (%rax)
	movb	%dl, 1(%rax)
	xorpd	%xmm0, %xmm0
	movupd	%xmm0, 8(%rax)
	jmp	.LBB15_69
.LBB15_42:
	movq	40(%rsp), %rdi
	movq	72(%rsp), %r9
	jmp	.LBB15_50
.LBB15_43:
	movsd	.LCPI15_0(%rip), %xmm0
	ucomisd	%xmm0, %xmm1
	jne	.LBB15_44
	jnp	.LBB15_66
.LBB15_44:
	movsd	.LCPI15_4(%rip), %xmm0
	ucomisd	%xmm0, %xmm1
	leaq	(%rax,%rax,2), %rsi
	leaq	(%r10,%rsi,8), %rdx
	jne	.LBB15_64
	jp	.LBB15_64
	movw	$773, (%rdx)
	xorpd	%xmm0, %xmm0
	movupd	%xmm0, 2(%rdx)
	movq	$0, 16(%rdx)
	movw	$2565, 24(%rdx)
	addq	$2, %rax
	jmp	.LBB15_65
.LBB15_46:
	movb	$1, %dl
.LBB15_47:
	xorl	%r10d, %r10d
	jmp	.LBB15_68
.LBB15_48:
	leaq	(%r10,%rax,8), %rax
	incq	%rax
	movq	40(%rsp), %rdi
.LBB15_49:
	movb	$1, (%rdx)
	xorpd	%xmm0, %xmm0
	movupd	%xmm0, (%rax)
	movq	$0, 15(%rax)
	movw	$2565, 24(%rdx)
	leaq	2(%rcx), %rax
	movupd	%xmm0, 26(%rdx)
	movq	$0, 40(%rdx)
.LBB15_50:
	addl	$-2, %r9d
	cmpl	$5, %r9d
	ja	.LBB15_60
	leaq	.LJTI15_0(%rip), %rdx
	movslq	(%rdx,%r9,4), %rsi
	addq	%rdx, %rsi
	jmpq	*%rsi
.LBB15_52:
	movsd	48(%rsp), %xmm1
	movsd	.LCPI15_0(%rip), %xmm0
	ucomisd	%xmm0, %xmm1
	leaq	(%rax,%rax,2), %rsi
	leaq	(%r10,%rsi,8), %rdx
	jne	.LBB15_63
	jp	.LBB15_63
	xorpd	%xmm0, %xmm0
	ucomisd	%xmm0, %xmm2
	jne	.LBB15_63
	jp	.LBB15_63
	movw	$4101, (%rdx)
	incq	%rax
	xorpd	%xmm0, %xmm0
	movupd	%xmm0, 2(%rdx)
	movq	$0, 16(%rdx)
	jmp	.LBB15_62
.LBB15_55:
	movb	$15, %dl
	jmp	.LBB15_61
.LBB15_56:
	movb	$13, %dl
	jmp	.LBB15_61
.LBB15_57:
	movb	$14, %dl
	jmp	.LBB15_61
.LBB15_58:
	leaq	(%rax,%rax,2), %rdx
	movb	$1, (%r10,%rdx,8)
	movl	$0, 1(%r10,%rdx,8)
	movl	$0, 4(%r10,%rdx,8)
	movsd	%xmm3, 8(%r10,%rdx,8)
	movq	$0, 16(%r10,%rdx,8)
	movw	$8709, 24(%r10,%rdx,8)
	addq	$2, %rax
	xorpd	%xmm0, %xmm0
	movupd	%xmm0, 26(%r10,%rdx,8)
	movq	$0, 40(%r10,%rdx,8)
	jmp	.LBB15_62
.LBB15_59:
	movb	$19, %dl
	jmp	.LBB15_61
.LBB15_60:
	movb	$20, %dl
.LBB15_61:
	leaq	(%rax,%rax,2), %rsi
	movb	$5, (%r10,%rsi,8)
	movb	%dl, 1(%r10,%rsi,8)
	incq	%rax
	xorpd	%xmm0, %xmm0
	movupd	%xmm0, 2(%r10,%rsi,8)
	movq	$0, 16(%r10,%rsi,8)
.LBB15_62:
	movw	$0, (%rdi)
	movq	%rcx, 8(%rdi)
	movq	%rax, 16(%rdi)
	jmp	.LBB15_69
.LBB15_63:
	leaq	(%r10,%rsi,8), %rsi
	incq	%rsi
	movb	$1, (%rdx)
	movl	$0, 3(%rsi)
	movl	$0, (%rsi)
	movabsq	$4607182418800017408, %rsi
	movq	%rsi, 8(%rdx)
	movq	$0, 16(%rdx)
	movw	$1029, 24(%rdx)
	xorpd	%xmm0, %xmm0
	movupd	%xmm0, 26(%rdx)
	movq	$0, 40(%rdx)
	movw	$2821, 48(%rdx)
	addq	$3, %rax
	movupd	%xmm0, 50(%rdx)
	movq	$0, 64(%rdx)
	jmp	.LBB15_62
.LBB15_64:
	leaq	(%r10,%rsi,8), %rsi
	incq	%rsi
	movb	$1, (%rdx)
	movl	$0, 3(%rsi)
	movl	$0, (%rsi)
	movsd	%xmm3, 8(%rdx)
	movq	$0, 16(%rdx)
	movw	$3077, 24(%rdx)
	addq	$2, %rax
	xorpd	%xmm0, %xmm0
.LBB15_65:
	movupd	%xmm0, 26(%rdx)
	movq	$0, 40(%rdx)
.LBB15_66:
	xorl	%edx, %edx
.LBB15_67:
	xorl	%esi, %esi
	movq	%rcx, %r11
	movq	%rax, %r10
.LBB15_68:
	movb	%dl, (%rdi)
	movb	%sil, 1(%rdi)
	movq	%r11, 8(%rdi)
	movq	%r10, 16(%rdi)
.LBB15_69:
	addq	$280, %rsp
	popq	%rbx
	popq	%r12
	popq	%r13
	popq	%r14
	popq	%r15
	popq	%rbp
	retq
.Lfunc_end15:
	.size	"writing::write_term", .Lfunc_end15-"writing::write_term"
	.section	".rodata.writing::write_term","a",@progbits
	.p2align	2, 0x0
.LJTI15_0:
	.long	.LBB15_52-.LJTI15_0
	.long	.LBB15_58-.LJTI15_0
	.long	.LBB15_56-.LJTI15_0
	.long	.LBB15_57-.LJTI15_0
	.long	.LBB15_55-.LJTI15_0
	.long	.LBB15_59-.LJTI15_0

	.section	.rodata.cst8,"aM",@progbits,8
	.p2align	3, 0x0
.LCPI16_0:
	.quad	0x3ff0000000000000
.LCPI16_1:
	.quad	0xbcb0000000000000
.LCPI16_2:
	.quad	0x3cb0000000000000
.LCPI16_3:
	.quad	0x3fe0000000000000
.LCPI16_4:
	.quad	0x4000000000000000
	.section	".text.writing::faithful::write_term","ax",@progbits
	.p2align	4
	.type	"writing::faithful::write_term",@function
"writing::faithful::write_term":
	pushq	%rbp
	pushq	%r15
	pushq	%r14
	pushq	%r13
	pushq	%r12
	pushq	%rbx
	subq	$296, %rsp
	movq	%r9, 120(%rsp)
	movq	%rsi, 72(%rsp)
	movq	376(%rsp), %r14
	movq	368(%rsp), %r11
	movq	352(%rsp), %rbx
	movzbl	(%rdx), %r13d
	movsd	8(%rdx), %xmm3
	movsd	16(%rdx), %xmm0
	movsd	%xmm0, 40(%rsp)
	movsd	24(%rdx), %xmm2
	cmpl	$1, %r13d
	jne	.LBB16_21
	movapd	%xmm3, %xmm1
	xorpd	%xmm0, %xmm0
	ucomisd	%xmm0, %xmm1
	jne	.LBB16_11
	jp	.LBB16_11
	leaq	(%r14,%r14,2), %rsi
	movb	$1, (%rbx,%rsi,8)
	xorpd	%xmm1, %xmm1
	movupd	%xmm1, 1(%rbx,%rsi,8)
	movq	$0, 16(%rbx,%rsi,8)
	movw	$2565, 24(%rbx,%rsi,8)
	movupd	%xmm1, 26(%rbx,%rsi,8)
	movq	$0, 40(%rbx,%rsi,8)
	testb	%r8b, %r8b
	je	.LBB16_6
	movsd	40(%rsp), %xmm1
	subsd	%xmm1, %xmm1
	xorl	%edx, %edx
	ucomisd	%xmm0, %xmm1
	movb	$14, %cl
	movb	$1, %al
	jne	.LBB16_4
	jp	.LBB16_4
	movapd	%xmm2, %xmm1
	subsd	%xmm2, %xmm1
	movb	$2, %r9b
	ucomisd	%xmm0, %xmm1
	movl	$0, %r10d
	jne	.LBB16_20
	jnp	.LBB16_10
	jmp	.LBB16_20
.LBB16_21:
	movq	%rcx, %r15
	movsd	%xmm3, 96(%rsp)
	movzbl	1(%rdx), %r12d
	leaq	(,%r14,8), %rax
	leaq	(%rax,%rax,2), %rbp
	leaq	(%rbx,%rbp), %r9
	addq	%rcx, %r12
	cmpq	%r12, %rcx
	jae	.LBB16_22
	movq	%r13, 88(%rsp)
	movq	%rdi, 56(%rsp)
	movq	360(%rsp), %rax
	movq	%rbp, 48(%rsp)
	subq	%rbp, %rax
	movq	%rax, 184(%rsp)
	decq	120(%rsp)
	leaq	194(%rsp), %rbx
	xorpd	%xmm3, %xmm3
	movsd	.LCPI16_0(%rip), %xmm4
	movsd	.LCPI16_1(%rip), %xmm0
	movsd	%xmm0, 160(%rsp)
	movsd	.LCPI16_2(%rip), %xmm0
	movsd	%xmm0, 152(%rsp)
	movl	$128, %eax
	xorl	%ebp, %ebp
	movl	$128, %ecx
	movsd	%xmm2, 104(%rsp)
	movq	72(%rsp), %rsi
	movq	%r12, 64(%rsp)
	movsd	%xmm3, 176(%rsp)
	movsd	%xmm4, 168(%rsp)
	jmp	.LBB16_24
	.p2align	4
.LBB16_26:
.LBB16_47:
	cmpneqsd	%xmm3, %xmm7
	cmpneqsd	%xmm3, %xmm6
	orpd	%xmm7, %xmm6
	movd	%xmm6, %edx
	cmpb	$1, %r13b
	sete	%r11b
	ucomisd	%xmm4, %xmm5
	setnp	%dil
	sete	%r10b
	andb	%dil, %r10b
	andb	%r11b, %r10b
	andb	%dl, %r10b
	orb	%r10b, %bpl
	addq	%r14, %r15
	cmpq	%r12, %r15
	jae	.LBB16_48
.LBB16_24:
	leaq	(%r15,%r15,2), %rdx
	movq	32(%rsi), %r11
	movsd	16(%r11,%rdx,8), %xmm1
	movq	(%rsi), %rdi
	movq	16(%rsi), %r10
	movzbl	(%rdi,%r15), %r13d
	movzbl	(%r10,%r15), %r14d
	incq	%r15
	movb	%r13b, 192(%rsp)
	movb	%r14b, 193(%rsp)
	movw	$0, 4(%rbx)
	movl	$0, (%rbx)
	movupd	(%r11,%rdx,8), %xmm5
	movapd	%xmm5, %xmm8
	unpckhpd	%xmm5, %xmm8
	movupd	%xmm5, 200(%rsp)
	movsd	%xmm1, 216(%rsp)
	xorpd	%xmm0, %xmm0
	movapd	%xmm0, 128(%rsp)
	movq	$0, 144(%rsp)
	movapd	%xmm8, %xmm6
	ucomisd	%xmm3, %xmm6
	movapd	%xmm1, %xmm7
	jne	.LBB16_27
	jp	.LBB16_27
	ucomisd	%xmm3, %xmm7
	jne	.LBB16_27
	jnp	.LBB16_26
.LBB16_27:
	cmpq	%rcx, %rax
	setne	%bl
	orb	%bpl, %bl
	testb	$1, %bl
	movq	%r14, 80(%rsp)
	movapd	%xmm5, 272(%rsp)
	movapd	%xmm6, 256(%rsp)
	movapd	%xmm7, 240(%rsp)
	movsd	%xmm1, 112(%rsp)
	movapd	%xmm8, 224(%rsp)
	je	.LBB16_28
	cmpq	%rcx, %rax
	je	.LBB16_30
	leaq	-2(%rcx), %rdx
	movl	%eax, %r10d
	subl	%ecx, %r10d
	leal	1(%r10), %edi
	leaq	(%rcx,%rcx,2), %rcx
	movl	$774, -48(%r9,%rcx,8)
	movl	%edi, -44(%r9,%rcx,8)
	movupd	%xmm0, -40(%r9,%rcx,8)
	movl	$65543, -24(%r9,%rcx,8)
	movl	%r10d, -20(%r9,%rcx,8)
	movupd	%xmm0, -16(%r9,%rcx,8)
	jmp	.LBB16_32
	.p2align	4
.LBB16_28:
	movq	%rax, %rdx
	jmp	.LBB16_32
.LBB16_30:
	leaq	(%rax,%rax,2), %rcx
	movw	$773, (%r9,%rcx,8)
	movq	%rax, %rdx
	incq	%rax
	movupd	%xmm0, 2(%r9,%rcx,8)
	movq	$0, 16(%r9,%rcx,8)
.LBB16_32:
	movq	%rax, 24(%rsp)
	movq	%rdx, 16(%rsp)
	movq	184(%rsp), %rax
	movq	%rax, 8(%rsp)
	movq	%r9, %r14
	movq	%r9, (%rsp)
	movl	%r8d, %r12d
	movzbl	%r8b, %r8d
	leaq	128(%rsp), %rdi
	leaq	192(%rsp), %rdx
	movq	%r15, %rcx
	movq	120(%rsp), %r9
	callq	"writing::faithful::write_term"
	cmpb	$0, 128(%rsp)
	jne	.LBB16_81
	movq	136(%rsp), %rcx
	movq	144(%rsp), %rax
	cmpb	$1, %r13b
	setne	%dl
	movaps	272(%rsp), %xmm5
	movsd	176(%rsp), %xmm3
	ucomisd	%xmm3, %xmm5
	setp	%dil
	setne	%sil
	movapd	240(%rsp), %xmm7
	movapd	%xmm7, %xmm0
	cmpeqsd	%xmm3, %xmm0
	movapd	256(%rsp), %xmm6
	movapd	%xmm6, %xmm1
	movsd	168(%rsp), %xmm4
	cmpeqsd	%xmm4, %xmm1
	andpd	%xmm0, %xmm1
	movd	%xmm1, %r8d
	testb	$1, %r8b
	jne	.LBB16_34
	orb	%dil, %sil
	orb	%dl, %sil
	movsd	104(%rsp), %xmm2
	movq	%r14, %r9
	movl	%r12d, %r8d
	movq	72(%rsp), %rsi
	je	.LBB16_36
	movapd	224(%rsp), %xmm8
	movapd	%xmm8, %xmm0
	subsd	%xmm8, %xmm0
	testb	%r8b, %r8b
	movq	64(%rsp), %r12
	movq	80(%rsp), %r14
	je	.LBB16_40
	ucomisd	%xmm3, %xmm0
	movb	$14, %dl
	movsd	112(%rsp), %xmm1
	jne	.LBB16_82
	jp	.LBB16_82
	movapd	%xmm1, %xmm0
	subsd	%xmm1, %xmm0
	movb	$2, %r10b
	ucomisd	%xmm3, %xmm0
	jne	.LBB16_82
	jnp	.LBB16_43
	jmp	.LBB16_82
.LBB16_34:
	movsd	104(%rsp), %xmm2
	movq	%r14, %r9
	movl	%r12d, %r8d
	movq	72(%rsp), %rsi
.LBB16_36:
	movq	64(%rsp), %r12
	movq	80(%rsp), %r14
	testb	$1, %bl
	je	.LBB16_46
.LBB16_45:
	leaq	(%rax,%rax,2), %rdx
	movw	$2053, (%r9,%rdx,8)
	incq	%rax
	xorpd	%xmm0, %xmm0
	movupd	%xmm0, 2(%r9,%rdx,8)
	movq	$0, 16(%r9,%rdx,8)
.LBB16_46:
	leaq	194(%rsp), %rbx
	jmp	.LBB16_47
.LBB16_40:
	ucomisd	%xmm3, %xmm0
	movb	$14, %dl
	movsd	112(%rsp), %xmm1
	jne	.LBB16_82
	jp	.LBB16_82
	ucomisd	160(%rsp), %xmm7
	jbe	.LBB16_82
	movb	$1, %r10b
	movsd	152(%rsp), %xmm0
	ucomisd	%xmm7, %xmm0
	jbe	.LBB16_82
.LBB16_43:
	movq	%xmm1, %rdx
	xorl	%edi, %edi
	testb	%r8b, %r8b
	cmovneq	%rdx, %rdi
	leaq	(%rax,%rax,2), %rdx
	movb	%r10b, (%r9,%rdx,8)
	movl	$0, 1(%r9,%rdx,8)
	movl	$0, 4(%r9,%rdx,8)
	movsd	%xmm8, 8(%r9,%rdx,8)
	movq	%rdi, 16(%r9,%rdx,8)
	movw	$2565, 24(%r9,%rdx,8)
	addq	$2, %rax
	xorpd	%xmm0, %xmm0
	movupd	%xmm0, 26(%r9,%rdx,8)
	movq	$0, 40(%r9,%rdx,8)
	testb	$1, %bl
	jne	.LBB16_45
	jmp	.LBB16_46
.LBB16_22:
	leaq	3072(%r9), %rdx
	leaq	3073(%r9), %rax
	movl	$128, %ecx
.LBB16_52:
	movb	$1, (%rdx)
	xorpd	%xmm0, %xmm0
	movupd	%xmm0, (%rax)
	movq	$0, 15(%rax)
	movw	$2565, 24(%rdx)
	leaq	2(%rcx), %rax
	movupd	%xmm0, 26(%rdx)
	movq	$0, 40(%rdx)
.LBB16_53:
	movq	%rax, %rdx
	subq	%rcx, %rdx
	leaq	(,%rdx,8), %rsi
	leaq	(%rsi,%rsi,2), %rsi
	testq	%rsi, %rsi
	movsd	96(%rsp), %xmm0
	je	.LBB16_66
	shlq	$3, %rcx
	leaq	(%rcx,%rcx,2), %rcx
	movq	%rcx, %r8
	negq	%r8
	cmpq	$32, %r8
	jae	.LBB16_58
	xorl	%r10d, %r10d
.LBB16_56:
	leaq	(%rcx,%r9), %rax
	addq	$3, %rax
	leaq	(%rbx,%rbp), %rcx
	addq	$3, %rcx
	.p2align	4
.LBB16_57:
	movzbl	-3(%rax,%r10), %r8d
	movb	%r8b, -3(%rcx,%r10)
	movzbl	-2(%rax,%r10), %r8d
	movb	%r8b, -2(%rcx,%r10)
	movzbl	-1(%rax,%r10), %r8d
	movb	%r8b, -1(%rcx,%r10)
	movzbl	(%rax,%r10), %r8d
	movb	%r8b, (%rcx,%r10)
	addq	$4, %r10
	cmpq	%r10, %rsi
	jne	.LBB16_57
	jmp	.LBB16_66
.LBB16_11:
	movsd	.LCPI16_3(%rip), %xmm0
	ucomisd	%xmm0, %xmm1
	jne	.LBB16_13
	jp	.LBB16_13
	leaq	(%r14,%r14,2), %rax
	movw	$1797, (%rbx,%rax,8)
	incq	%r14
	xorpd	%xmm0, %xmm0
	movupd	%xmm0, 2(%rbx,%rax,8)
	movq	$0, 16(%rbx,%rax,8)
	jmp	.LBB16_18
.LBB16_6:
	movsd	40(%rsp), %xmm1
	subsd	%xmm1, %xmm1
	xorl	%edx, %edx
	ucomisd	%xmm0, %xmm1
	movb	$14, %cl
	movb	$1, %r9b
	jne	.LBB16_7
	jp	.LBB16_7
	movsd	.LCPI16_1(%rip), %xmm1
	movapd	%xmm2, %xmm0
	ucomisd	%xmm1, %xmm0
	jbe	.LBB16_7
	movsd	.LCPI16_2(%rip), %xmm1
	ucomisd	%xmm0, %xmm1
	movb	$1, %al
	movl	$0, %r10d
	jbe	.LBB16_20
.LBB16_10:
	leaq	(%rbx,%rsi,8), %rcx
	movq	%xmm2, %rdx
	xorl	%eax, %eax
	testb	%r8b, %r8b
	cmoveq	%rax, %rdx
	movb	%r9b, 48(%rcx)
	movl	$0, 49(%rcx)
	movl	$0, 52(%rcx)
	movsd	40(%rsp), %xmm0
	movsd	%xmm0, 56(%rcx)
	movq	%rdx, 64(%rcx)
	movw	$2053, 72(%rcx)
	addq	$4, %r14
	xorpd	%xmm0, %xmm0
	movupd	%xmm0, 74(%rcx)
	movq	$0, 88(%rcx)
	jmp	.LBB16_19
.LBB16_48:
	cmpq	%rax, %rcx
	jne	.LBB16_49
	leaq	(%rcx,%rcx,2), %rax
	leaq	(%r9,%rax,8), %rdx
	testb	$1, %bpl
	movq	56(%rsp), %rdi
	movq	368(%rsp), %r11
	movq	88(%rsp), %r13
	je	.LBB16_51
	movw	$261, (%rdx)
	leaq	1(%rcx), %rax
	xorpd	%xmm0, %xmm0
	movupd	%xmm0, 2(%rdx)
	movq	$0, 16(%rdx)
	movq	352(%rsp), %rbx
	movq	376(%rsp), %r14
	movq	48(%rsp), %rbp
	jmp	.LBB16_53
.LBB16_58:
	cmpq	$32, %rsi
	jae	.LBB16_60
	xorl	%r10d, %r10d
	jmp	.LBB16_64
.LBB16_81:
	movzbl	129(%rsp), %edx
.LBB16_82:
	movq	56(%rsp), %rax
	movb	$1, (%rax)
	movb	%dl, 1(%rax)
	xorpd	%xmm0, %xmm0
	movupd	%xmm0, 8(%rax)
	jmp	.LBB16_80
.LBB16_49:
	movq	56(%rsp), %rdi
	movq	368(%rsp), %r11
	movq	352(%rsp), %rbx
	movq	376(%rsp), %r14
	movq	88(%rsp), %r13
	movq	48(%rsp), %rbp
	jmp	.LBB16_53
.LBB16_13:
	movsd	.LCPI16_0(%rip), %xmm0
	ucomisd	%xmm0, %xmm1
	jne	.LBB16_14
	jnp	.LBB16_18
.LBB16_14:
	movsd	.LCPI16_4(%rip), %xmm0
	ucomisd	%xmm0, %xmm1
	leaq	(%r14,%r14,2), %rcx
	leaq	(%rbx,%rcx,8), %rax
	jne	.LBB16_16
	jp	.LBB16_16
	movw	$773, (%rax)
	xorpd	%xmm0, %xmm0
	movupd	%xmm0, 2(%rax)
	movq	$0, 16(%rax)
	movw	$2565, 24(%rax)
	addq	$2, %r14
	jmp	.LBB16_17
.LBB16_60:
	movq	%r9, %r15
	movq	%rsi, %r10
	andq	$-32, %r10
	leaq	(%rbx,%rbp), %r8
	addq	$16, %r8
	movq	%r10, %r9
	.p2align	4
.LBB16_61:
	movupd	-16(%r8,%rcx), %xmm0
	movupd	(%r8,%rcx), %xmm1
	movupd	%xmm0, -16(%r8)
	movupd	%xmm1, (%r8)
	addq	$32, %r8
	addq	$-32, %r9
	jne	.LBB16_61
	cmpq	%r10, %rsi
	movsd	96(%rsp), %xmm0
	je	.LBB16_66
	movq	%r15, %r9
	testb	$24, %sil
	je	.LBB16_56
.LBB16_64:
	shlq	$3, %rax
	leaq	(%rax,%rax,2), %rax
	subq	%r10, %rax
	addq	%r10, %rbp
	addq	%rbx, %rbp
	.p2align	4
.LBB16_65:
	movq	(%rbp,%rcx), %rsi
	movq	%rsi, (%rbp)
	addq	$-8, %rax
	addq	$8, %rbp
	cmpq	%rax, %rcx
	jne	.LBB16_65
.LBB16_66:
	addq	%r14, %rdx
	addl	$-2, %r13d
	cmpl	$5, %r13d
	ja	.LBB16_77
	leaq	.LJTI16_0(%rip), %rax
	movslq	(%rax,%r13,4), %rcx
	addq	%rax, %rcx
	jmpq	*%rcx
.LBB16_69:
	movsd	40(%rsp), %xmm1
	movsd	.LCPI16_0(%rip), %xmm0
	ucomisd	%xmm0, %xmm1
	leaq	(%rdx,%rdx,2), %rcx
	leaq	(%rbx,%rcx,8), %rax
	jne	.LBB16_72
	jp	.LBB16_72
	xorpd	%xmm0, %xmm0
	ucomisd	%xmm0, %xmm2
	jne	.LBB16_72
	jp	.LBB16_72
	movw	$4101, (%rax)
	incq	%rdx
	xorpd	%xmm0, %xmm0
	movupd	%xmm0, 2(%rax)
	movq	$0, 16(%rax)
	jmp	.LBB16_79
.LBB16_7:
	movb	$1, %al
	xorl	%r10d, %r10d
	jmp	.LBB16_20
.LBB16_75:
	movb	$15, %al
	jmp	.LBB16_78
.LBB16_68:
	movb	$13, %al
	jmp	.LBB16_78
.LBB16_74:
	movb	$14, %al
	jmp	.LBB16_78
.LBB16_73:
	leaq	(%rdx,%rdx,2), %rax
	movb	$1, (%rbx,%rax,8)
	movl	$0, 1(%rbx,%rax,8)
	movl	$0, 4(%rbx,%rax,8)
	movsd	%xmm0, 8(%rbx,%rax,8)
	movq	$0, 16(%rbx,%rax,8)
	movw	$8709, 24(%rbx,%rax,8)
	addq	$2, %rdx
	xorpd	%xmm0, %xmm0
	movupd	%xmm0, 26(%rbx,%rax,8)
	movq	$0, 40(%rbx,%rax,8)
	jmp	.LBB16_79
.LBB16_76:
	movb	$19, %al
	jmp	.LBB16_78
.LBB16_77:
	movb	$20, %al
.LBB16_78:
	leaq	(%rdx,%rdx,2), %rcx
	movb	$5, (%rbx,%rcx,8)
	movb	%al, 1(%rbx,%rcx,8)
	incq	%rdx
	xorpd	%xmm0, %xmm0
	movupd	%xmm0, 2(%rbx,%rcx,8)
	movq	$0, 16(%rbx,%rcx,8)
.LBB16_79:
	movw	$0, (%rdi)
	movq	%r11, 8(%rdi)
	movq	%rdx, 16(%rdi)
	jmp	.LBB16_80
.LBB16_4:
	xorl	%r10d, %r10d
	jmp	.LBB16_20
.LBB16_51:
	leaq	(%r9,%rax,8), %rax
	incq	%rax
	movq	352(%rsp), %rbx
	movq	376(%rsp), %r14
	movq	48(%rsp), %rbp
	jmp	.LBB16_52
.LBB16_72:
	leaq	(%rbx,%rcx,8), %rcx
	incq	%rcx
	movb	$1, (%rax)
	movl	$0, 3(%rcx)
	movl	$0, (%rcx)
	movabsq	$4607182418800017408, %rcx
	movq	%rcx, 8(%rax)
	movq	$0, 16(%rax)
	movw	$1029, 24(%rax)
	xorpd	%xmm0, %xmm0
	movupd	%xmm0, 26(%rax)
	movq	$0, 40(%rax)
	movw	$2821, 48(%rax)
	addq	$3, %rdx
	movupd	%xmm0, 50(%rax)
	movq	$0, 64(%rax)
	jmp	.LBB16_79
.LBB16_16:
	leaq	(%rbx,%rcx,8), %rcx
	incq	%rcx
	movb	$1, (%rax)
	movl	$0, 3(%rcx)
	movl	$0, (%rcx)
	movsd	%xmm3, 8(%rax)
	movq	$0, 16(%rax)
	movw	$3077, 24(%rax)
	addq	$2, %r14
	xorpd	%xmm0, %xmm0
.LBB16_17:
	movupd	%xmm0, 26(%rax)
	movq	$0, 40(%rax)
.LBB16_18:
	xorl	%eax, %eax
.LBB16_19:
	xorl	%ecx, %ecx
	movq	%r11, %rdx
	movq	%r14, %r10
.LBB16_20:
	movb	%al, (%rdi)
	movb	%cl, 1(%rdi)
	movq	%rdx, 8(%rdi)
	movq	%r10, 16(%rdi)
.LBB16_80:
	addq	$296, %rsp
	popq	%rbx
	popq	%r12
	popq	%r13
	popq	%r14
	popq	%r15
	popq	%rbp
	retq
.Lfunc_end16:
	.size	"writing::faithful::write_term", .Lfunc_end16-"writing::faithful::write_term"
	.section	".rodata.writing::faithful::write_term","a",@progbits
	.p2align	2, 0x0
.LJTI16_0:
	.long	.LBB16_69-.LJTI16_0
	.long	.LBB16_73-.LJTI16_0
	.long	.LBB16_68-.LJTI16_0
	.long	.LBB16_74-.LJTI16_0
	.long	.LBB16_75-.LJTI16_0
	.long	.LBB16_76-.LJTI16_0

	.section	".text.sums::good::good_sum","ax",@progbits
	.p2align	4
	.type	"sums::good::good_sum",@function
"sums::good::good_sum":
	pushq	%rbp
	pushq	%r15
	pushq	%r14
	pushq	%r13
	pushq	%r12
	pushq	%rbx
	subq	$136, %rsp
	movq	%rdi, 8(%rsp)
	movq	%rcx, 16(%rsp)
	testq	%rcx, %rcx
	je	.LBB17_15
	addq	%rsi, %rdx
	cmpq	%rdx, %rsi
	jae	.LBB17_18
	movabsq	$9218868437227405312, %rbp
	movq	8(%rsp), %rax
	movq	32(%rax), %r15
	movq	(%rax), %rcx
	movq	%rcx, 40(%rsp)
	movq	16(%rax), %rax
	movq	%rax, 32(%rsp)
	decq	16(%rsp)
	movq	%rsi, %r12
	movq	%rdx, 48(%rsp)
	movq	%r15, 24(%rsp)
	jmp	.LBB17_4
	.p2align	4
.LBB17_3:
	addq	%r13, %rbp
	movq	%r12, %rsi
	movq	%rbp, %r12
	movq	48(%rsp), %rdx
	cmpq	%rdx, %rbp
	movabsq	$9218868437227405312, %rbp
	movq	24(%rsp), %r15
	jae	.LBB17_18
.LBB17_4:
	movq	%rsi, 64(%rsp)
	leaq	(%r12,%r12,2), %r9
	movq	(%r15,%r9,8), %rbx
	movq	32(%rsp), %rax
	movzbl	(%rax,%r12), %r13d
	testq	%r13, %r13
	setne	%r8b
	movq	40(%rsp), %rax
	movzbl	(%rax,%r12), %r14d
	movl	%r14d, %r11d
	decb	%r11b
	sete	%cl
	cmpb	$3, %r14b
	sete	%sil
	testq	%rbx, %rbx
	sete	%dil
	movq	%r12, %r10
	notq	%r10
	addq	%rdx, %r10
	xorl	%eax, %eax
	cmpq	%r13, %r10
	jb	.LBB17_19
	movq	%rbx, %r10
	andq	%rbp, %r10
	cmpq	%rbp, %r10
	je	.LBB17_19
	movq	%rbx, 56(%rsp)
	movq	8(%r15,%r9,8), %rbx
	movq	%rbx, %r10
	andq	%rbp, %r10
	cmpq	%rbp, %r10
	je	.LBB17_19
	movq	16(%r15,%r9,8), %r15
	movq	%r15, %r9
	andq	%rbp, %r9
	cmpq	%rbp, %r9
	je	.LBB17_19
	xorb	%cl, %r8b
	je	.LBB17_19
	cmpb	$7, %r11b
	ja	.LBB17_19
	orb	%sil, %cl
	orb	%dil, %cl
	je	.LBB17_19
	leaq	1(%r12), %rbp
	movq	8(%rsp), %rdi
	movq	%rbp, %rsi
	movq	%r13, %rdx
	movq	16(%rsp), %rcx
	callq	"sums::good::good_sum"
	testb	%al, %al
	je	.LBB17_17
	movq	64(%rsp), %r8
	cmpq	%r8, %r12
	jbe	.LBB17_3
	leaq	(%r8,%r8,2), %rax
	movq	24(%rsp), %rsi
	movsd	16(%rsi,%rax,8), %xmm0
	movq	40(%rsp), %rcx
	movzbl	(%rcx,%r8), %ecx
	movq	32(%rsp), %rdx
	movzbl	(%rdx,%r8), %edx
	movb	%cl, 104(%rsp)
	movb	%dl, 105(%rsp)
	leaq	106(%rsp), %rcx
	movw	$0, 4(%rcx)
	movl	$0, (%rcx)
	movups	(%rsi,%rax,8), %xmm1
	movups	%xmm1, 112(%rsp)
	movsd	%xmm0, 128(%rsp)
	movb	%r14b, 72(%rsp)
	movb	%r13b, 73(%rsp)
	leaq	74(%rsp), %rax
	movw	$0, 4(%rax)
	movl	$0, (%rax)
	movq	56(%rsp), %rax
	movq	%rax, 80(%rsp)
	movq	%rbx, 88(%rsp)
	movq	%r15, 96(%rsp)
	incq	%r8
	leaq	104(%rsp), %rsi
	leaq	72(%rsp), %rcx
	movq	8(%rsp), %rdi
	movq	%r8, %rdx
	movq	%rbp, %r8
	movq	16(%rsp), %r9
	callq	"sums::order::cmp_term"
	testb	%al, %al
	je	.LBB17_3
.LBB17_17:
	xorl	%eax, %eax
	jmp	.LBB17_19
.LBB17_18:
	movb	$1, %al
	jmp	.LBB17_19
.LBB17_15:
	testq	%rdx, %rdx
	sete	%al
.LBB17_19:
	addq	$136, %rsp
	popq	%rbx
	popq	%r12
	popq	%r13
	popq	%r14
	popq	%r15
	popq	%rbp
	retq
.Lfunc_end17:
	.size	"sums::good::good_sum", .Lfunc_end17-"sums::good::good_sum"

	.section	.rodata.cst8,"aM",@progbits,8
	.p2align	3, 0x0
.LCPI18_0:
	.quad	0xc330000000000000
.LCPI18_1:
	.quad	0x4330000000000000
.LCPI18_2:
	.quad	0x4050000000000000
.LCPI18_3:
	.quad	0x3ff0000000000000
.LCPI18_4:
	.quad	0x43e0000000000000
.LCPI18_5:
	.quad	0x3fe0000000000000
.LCPI18_6:
	.quad	0x3ff8000000000000
	.section	.rodata.cst16,"aM",@progbits,16
	.p2align	4, 0x0
.LCPI18_7:
	.quad	0x8000000000000000
	.quad	0x8000000000000000
	.section	".text.running::run::walk","ax",@progbits
	.p2align	4
	.type	"running::run::walk",@function
"running::run::walk":
	pushq	%rbp
	pushq	%r15
	pushq	%r14
	pushq	%r13
	pushq	%r12
	pushq	%rbx
	subq	$200, %rsp
	movq	%rcx, %r12
	movq	%rdx, %r14
	movq	%rsi, %r13
	movq	%rdi, %rbx
	movq	(%r9), %rax
	movq	8(%r9), %rsi
	movq	16(%r9), %rdx
	movq	%rax, %rcx
	shrq	$8, %rcx
	cmpq	%r12, %r14
	jae	.LBB18_16
	movq	%r8, %r15
	movq	264(%rsp), %rdi
	movq	256(%rsp), %r11
	leaq	-1(%rdi), %r8
	movq	%r8, 144(%rsp)
	leaq	1(%r11), %r8
	movq	%r8, 136(%rsp)
	addq	$-2, %rdi
	movq	%rdi, 96(%rsp)
	xorps	%xmm7, %xmm7
	movsd	.LCPI18_0(%rip), %xmm0
	movsd	%xmm0, 120(%rsp)
	movsd	.LCPI18_1(%rip), %xmm0
	movsd	%xmm0, 104(%rsp)
	movsd	.LCPI18_2(%rip), %xmm0
	movsd	%xmm0, 112(%rsp)
	movsd	.LCPI18_3(%rip), %xmm0
	movsd	%xmm0, 128(%rsp)
	movsd	%xmm7, 48(%rsp)
	.p2align	4
.LBB18_6:
	leaq	(%r14,%r14,2), %r9
	movzbl	(%r13,%r9,8), %r8d
	movzbl	1(%r13,%r9,8), %edi
	movl	%r8d, %r10d
	andb	$-5, %r10b
	movzbl	%al, %eax
	cmpb	$1, %r10b
	jne	.LBB18_11
	shlq	$8, %rcx
	orq	%rcx, %rax
	cmpl	$1, %r8d
	jne	.LBB18_17
	movq	8(%r13,%r9,8), %rdi
	movq	%rdi, %r8
	notq	%r8
	movl	$14, %ecx
	movabsq	$9218868437227405312, %r9
	testq	%r9, %r8
	je	.LBB18_116
	movq	%rdi, %xmm0
	subsd	%xmm0, %xmm0
	ucomisd	%xmm7, %xmm0
	jne	.LBB18_116
	jp	.LBB18_116
	movq	%rdi, (%r15,%rax,8)
	incq	%rax
	leaq	(%rax,%r11), %rcx
	cmpq	$256, %rcx
	jbe	.LBB18_5
	jmp	.LBB18_107
	.p2align	4
.LBB18_11:
	movl	4(%r13,%r9,8), %ebp
	xorpd	%xmm0, %xmm0
	movapd	%xmm0, 32(%rsp)
	movapd	%xmm0, 16(%rsp)
	leal	-1(%r8), %r10d
	movb	$1, %r9b
	cmpb	$12, %r10b
	ja	.LBB18_110
	shlq	$8, %rcx
	orq	%rcx, %rax
	addl	$-2, %r8d
	leaq	.LJTI18_0(%rip), %rcx
	movslq	(%rcx,%r8,4), %r8
	addq	%rcx, %r8
	jmpq	*%r8
.LBB18_13:
	incq	%rsi
	movq	%rax, 152(%rsp)
	movq	%rsi, 160(%rsp)
	movq	%rdx, 168(%rsp)
	leaq	1(%r14), %rdx
	leaq	1(%r14,%rbp), %rcx
	movq	144(%rsp), %rax
	movq	%rax, 8(%rsp)
	movq	%r11, (%rsp)
	leaq	16(%rsp), %rdi
	leaq	152(%rsp), %r9
	movq	%r13, %rsi
	movq	%r15, %r8
	callq	"running::run::walk"
	movsd	48(%rsp), %xmm7
	movzbl	16(%rsp), %edi
	movzbl	24(%rsp), %eax
	movzbl	31(%rsp), %ecx
	shll	$16, %ecx
	movzwl	29(%rsp), %edx
	orl	%ecx, %edx
	shlq	$32, %rdx
	movl	25(%rsp), %ecx
	orq	%rdx, %rcx
	movq	32(%rsp), %rsi
	movq	40(%rsp), %rdx
.LBB18_14:
	testb	%dil, %dil
	jne	.LBB18_108
	addq	%rbp, %r14
	incq	%r14
	movq	256(%rsp), %r11
	cmpq	%r12, %r14
	jb	.LBB18_6
	jmp	.LBB18_16
	.p2align	4
.LBB18_17:
	movl	$1, %ecx
	decl	%edi
	cmpl	$38, %edi
	ja	.LBB18_116
	leaq	.LJTI18_1(%rip), %r8
	movslq	(%r8,%rdi,4), %rdi
	addq	%r8, %rdi
	jmpq	*%rdi
.LBB18_19:
	xorl	%ecx, %ecx
	jmp	.LBB18_41
.LBB18_20:
	cmpl	$3, %edi
	jne	.LBB18_27
	leaq	1(%r14), %rdi
	leaq	(%r14,%rbp), %rcx
	incq	%rcx
	cmpq	%rcx, %rdi
	jae	.LBB18_25
	movl	$1, %r8d
	.p2align	4
.LBB18_23:
	leaq	(%rdi,%rdi,2), %r9
	movl	4(%r13,%r9,8), %r9d
	addq	%r9, %rdi
	incq	%rdi
	decq	%r8
	cmpq	%rcx, %rdi
	jb	.LBB18_23
	testq	%r8, %r8
	je	.LBB18_67
.LBB18_25:
	movq	$1, 16(%rsp)
	movq	$7, 24(%rsp)
	movq	%r14, 32(%rsp)
	movb	$1, %dil
	movb	$7, %al
.LBB18_26:
	xorl	%edx, %edx
	movq	%r14, %rsi
	xorl	%ecx, %ecx
	jmp	.LBB18_14
.LBB18_27:
	movq	$1, 16(%rsp)
	movq	$1, 24(%rsp)
	movq	%r14, 32(%rsp)
	movb	$1, %al
	xorl	%edx, %edx
	movq	%r14, %rsi
	xorl	%ecx, %ecx
	movb	$1, %dil
	jmp	.LBB18_14
.LBB18_28:
	movb	$6, %cl
	jmp	.LBB18_41
.LBB18_29:
	cmpq	$2, %rax
	jb	.LBB18_115
	movsd	-8(%r15,%rax,8), %xmm0
	movapd	%xmm0, %xmm1
	ucomisd	%xmm7, %xmm1
	movsd	.LCPI18_3(%rip), %xmm2
	jne	.LBB18_71
	jp	.LBB18_71
.LBB18_31:
	movapd	%xmm2, %xmm0
	subsd	%xmm2, %xmm0
	ucomisd	%xmm7, %xmm0
	jne	.LBB18_55
	jp	.LBB18_55
	movsd	%xmm2, -16(%r15,%rax,8)
	jmp	.LBB18_3
.LBB18_33:
	movb	$5, %cl
	jmp	.LBB18_41
.LBB18_34:
	cmpq	$2, %rax
	jb	.LBB18_115
	movupd	-16(%r15,%rax,8), %xmm0
	shufpd	$1, %xmm0, %xmm0
	movupd	%xmm0, -16(%r15,%rax,8)
	leaq	(%rax,%r11), %rcx
	cmpq	$256, %rcx
	jbe	.LBB18_5
	jmp	.LBB18_107
.LBB18_36:
	movb	$4, %cl
	jmp	.LBB18_41
.LBB18_37:
	cmpq	$2, %rax
	jb	.LBB18_115
	movsd	-16(%r15,%rax,8), %xmm0
	jmp	.LBB18_45
.LBB18_39:
	movb	$1, %cl
	jmp	.LBB18_41
.LBB18_40:
	movb	$3, %cl
.LBB18_41:
	testq	%rax, %rax
	je	.LBB18_115
	movsd	-8(%r15,%rax,8), %xmm0
	movzbl	%cl, %ecx
	leaq	.LJTI18_2(%rip), %rdi
	movslq	(%rdi,%rcx,4), %rcx
	addq	%rdi, %rcx
	jmpq	*%rcx
.LBB18_57:
	pxor	.LCPI18_7(%rip), %xmm0
	jmp	.LBB18_65
.LBB18_43:
	testq	%rax, %rax
	je	.LBB18_115
	movsd	-8(%r15,%rax,8), %xmm0
.LBB18_45:
	movsd	%xmm0, (%r15,%rax,8)
	incq	%rax
	leaq	(%rax,%r11), %rcx
	cmpq	$256, %rcx
	jbe	.LBB18_5
	jmp	.LBB18_107
.LBB18_46:
	cmpq	$2, %rax
	jb	.LBB18_115
	movsd	-8(%r15,%rax,8), %xmm0
	mulsd	-16(%r15,%rax,8), %xmm0
	jmp	.LBB18_48
.LBB18_49:
	cmpq	$2, %rax
	jb	.LBB18_115
	movsd	-8(%r15,%rax,8), %xmm0
	addsd	-16(%r15,%rax,8), %xmm0
	jmp	.LBB18_48
.LBB18_51:
	cmpq	$2, %rax
	jb	.LBB18_115
	movsd	-16(%r15,%rax,8), %xmm0
	subsd	-8(%r15,%rax,8), %xmm0
	jmp	.LBB18_48
.LBB18_53:
	cmpq	$2, %rax
	jb	.LBB18_115
	movsd	-16(%r15,%rax,8), %xmm0
	divsd	-8(%r15,%rax,8), %xmm0
.LBB18_48:
	movapd	%xmm0, %xmm1
	subsd	%xmm0, %xmm1
	ucomisd	%xmm7, %xmm1
	jne	.LBB18_55
	jp	.LBB18_55
	movsd	%xmm0, -16(%r15,%rax,8)
.LBB18_3:
	decq	%rax
	leaq	(%rax,%r11), %rcx
	cmpq	$256, %rcx
	jbe	.LBB18_5
	jmp	.LBB18_107
.LBB18_56:
	movsd	.LCPI18_3(%rip), %xmm1
	subsd	%xmm0, %xmm1
	jmp	.LBB18_64
.LBB18_58:
	movapd	%xmm0, %xmm1
	ucomisd	%xmm1, %xmm7
	ja	.LBB18_112
	ucomisd	%xmm7, %xmm1
	jne	.LBB18_60
	jnp	.LBB18_65
.LBB18_60:
	movapd	%xmm0, %xmm1
	subsd	%xmm0, %xmm1
	ucomisd	%xmm7, %xmm1
	jne	.LBB18_65
	jp	.LBB18_65
	movabsq	$4503599627370495, %r9
	movq	%xmm0, %rdi
	movq	%rdi, %rcx
	shrq	$52, %rcx
	andq	%r9, %rdi
	testq	%rcx, %rcx
	je	.LBB18_78
	leaq	(%r9,%rdi), %r8
	incq	%r8
	addq	$1073, %rcx
	jmp	.LBB18_80
.LBB18_63:
	movsd	.LCPI18_3(%rip), %xmm1
	divsd	%xmm0, %xmm1
.LBB18_64:
	movapd	%xmm1, %xmm0
.LBB18_65:
	movdqa	%xmm0, %xmm1
	subsd	%xmm0, %xmm1
	ucomisd	%xmm7, %xmm1
	jne	.LBB18_55
	jp	.LBB18_55
	movsd	%xmm0, -8(%r15,%rax,8)
	leaq	(%rax,%r11), %rcx
	cmpq	$256, %rcx
	ja	.LBB18_107
	.p2align	4
.LBB18_5:
	cmpq	%rdx, %rcx
	cmovaq	%rcx, %rdx
	incq	%rsi
	movq	%rax, %rcx
	shrq	$8, %rcx
	incq	%r14
	cmpq	%r12, %r14
	jb	.LBB18_6
	jmp	.LBB18_16
.LBB18_67:
	testq	%rax, %rax
	je	.LBB18_75
	movq	136(%rsp), %r8
	leaq	(%rax,%r8), %rdi
	cmpq	$256, %rdi
	ja	.LBB18_76
	cmpq	%rdx, %rdi
	cmovaq	%rdi, %rdx
	movsd	-8(%r15,%rax,8), %xmm0
	movsd	%xmm0, 88(%rsp)
	leaq	1(%rsi), %rdi
	movq	$0, 56(%rsp)
	movq	%rax, 64(%rsp)
	movq	%rdi, 72(%rsp)
	movq	%rdx, 80(%rsp)
	addq	$2, %rsi
	movq	%rax, 176(%rsp)
	movq	%rsi, 184(%rsp)
	movq	%rdx, 192(%rsp)
	leaq	2(%r14), %rdx
	movq	96(%rsp), %rax
	movq	%rax, 8(%rsp)
	movq	%r8, (%rsp)
	leaq	56(%rsp), %rdi
	leaq	176(%rsp), %r9
	movq	%r13, %rsi
	movq	%r15, %r8
	callq	"running::run::walk"
	cmpb	$0, 56(%rsp)
	movq	64(%rsp), %rax
	movq	72(%rsp), %rsi
	je	.LBB18_92
	movq	$1, 16(%rsp)
	movzbl	%al, %ecx
	movq	%rcx, 24(%rsp)
	movb	$1, %dil
	xorl	%edx, %edx
	xorl	%ecx, %ecx
	jmp	.LBB18_93
.LBB18_71:
	movsd	120(%rsp), %xmm2
	ucomisd	%xmm1, %xmm2
	jae	.LBB18_77
	ucomisd	104(%rsp), %xmm1
	jae	.LBB18_77
	ucomisd	%xmm1, %xmm7
	jbe	.LBB18_94
	movsd	.LCPI18_0(%rip), %xmm2
	addsd	%xmm0, %xmm2
	addsd	.LCPI18_1(%rip), %xmm2
	jmp	.LBB18_95
.LBB18_75:
	movq	$1, 16(%rsp)
	movq	$0, 24(%rsp)
	movb	$1, %dil
	xorl	%edx, %edx
	movq	%r14, %rsi
	xorl	%ecx, %ecx
	xorl	%eax, %eax
	jmp	.LBB18_14
.LBB18_76:
	movq	$1, 56(%rsp)
	movq	$11, 64(%rsp)
	movq	%r14, 72(%rsp)
	movq	$1, 16(%rsp)
	movq	$11, 24(%rsp)
	movq	%r14, 32(%rsp)
	movb	$1, %dil
	movb	$11, %al
	jmp	.LBB18_26
.LBB18_77:
	movapd	%xmm0, %xmm2
	subsd	%xmm0, %xmm2
	cmpeqsd	%xmm7, %xmm2
	jmp	.LBB18_96
.LBB18_78:
	movl	$1074, %ecx
	.p2align	4
.LBB18_79:
	leaq	(%rdi,%rdi), %r8
	decq	%rcx
	shrq	$51, %rdi
	movq	%r8, %rdi
	je	.LBB18_79
.LBB18_80:
	movl	%ecx, %r10d
	andl	$1, %r10d
	leaq	1(%r10), %rdi
	imulq	%r8, %rdi
	shlq	$52, %r10
	movabsq	$4602678819172646912, %r11
	addq	%r8, %r11
	addq	%r10, %r11
	movq	%r11, %xmm0
	movsd	.LCPI18_5(%rip), %xmm1
	movdqa	%xmm0, %xmm2
	mulsd	%xmm1, %xmm2
	movabsq	$4602678819172646911, %r11
	addq	%r8, %r11
	movq	%r10, %r8
	orq	%r11, %r8
	xorq	%r10, %r11
	shrq	%r11
	subq	%r8, %r11
	movabsq	$6910469410427058089, %r8
	addq	%r11, %r8
	movq	%r8, %xmm3
	movapd	%xmm2, %xmm4
	mulsd	%xmm3, %xmm4
	mulsd	%xmm3, %xmm4
	movsd	.LCPI18_6(%rip), %xmm5
	movapd	%xmm5, %xmm6
	subsd	%xmm4, %xmm6
	mulsd	%xmm3, %xmm6
	movapd	%xmm2, %xmm3
	mulsd	%xmm6, %xmm3
	mulsd	%xmm6, %xmm3
	movapd	%xmm5, %xmm4
	subsd	%xmm3, %xmm4
	mulsd	%xmm6, %xmm4
	mulsd	%xmm4, %xmm2
	mulsd	%xmm4, %xmm2
	subsd	%xmm2, %xmm5
	mulsd	%xmm4, %xmm5
	movapd	%xmm5, %xmm2
	mulsd	%xmm0, %xmm2
	mulsd	%xmm1, %xmm5
	movapd	%xmm2, %xmm1
	mulsd	%xmm2, %xmm1
	subsd	%xmm1, %xmm0
	mulsd	%xmm5, %xmm0
	addsd	%xmm2, %xmm0
	movq	%xmm0, %r8
	andq	%r9, %r8
	addq	%r9, %r8
	ucomisd	128(%rsp), %xmm0
	cmovbq	%r9, %r8
	movq	%r8, %r9
	shrq	$27, %r9
	movq	%r9, %r10
	imulq	%r9, %r10
	shlq	$2, %r10
	xorl	%r11d, %r11d
	movq	%rdi, %rbp
	subq	%r10, %rbp
	cmovaeq	%rbp, %r11
	jb	.LBB18_86
	movabsq	$68719476735, %r10
	cmpq	%r10, %r11
	ja	.LBB18_86
	movl	%r8d, %ebp
	andl	$134217727, %ebp
	shlq	$25, %r11
	imulq	%rbp, %r9
	addq	%r9, %r9
	xorl	%r10d, %r10d
	subq	%r9, %r11
	cmovaeq	%r11, %r10
	jb	.LBB18_86
	movabsq	$68719476735, %r9
	cmpq	%r9, %r10
	ja	.LBB18_86
	shlq	$27, %r10
	imulq	%rbp, %rbp
	subq	%rbp, %r10
	jb	.LBB18_86
	leaq	(%r8,%r8), %r11
	xorl	%r9d, %r9d
	xorl	%ebp, %ebp
	cmpq	%r10, %r11
	setb	%bpl
	notq	%r11
	cmovaeq	%r9, %r11
	leaq	(%r8,%rbp), %r9
	addq	%r10, %r11
	addq	%r9, %r9
	cmpq	%r11, %r9
	adcq	%rbp, %r8
	cmpq	%r11, %r9
	notq	%r9
	movl	$0, %r10d
	cmovaeq	%r10, %r9
	addq	%r11, %r9
	leaq	(%r8,%r8), %r10
	cmpq	%r10, %r9
	jbe	.LBB18_91
.LBB18_86:
	movl	$53, %r10d
	xorl	%r9d, %r9d
	xorl	%r8d, %r8d
	jmp	.LBB18_89
	.p2align	4
.LBB18_87:
	addq	%r8, %r8
.LBB18_88:
	movq	%rdi, %r11
	shlq	$2, %r11
	movabsq	$18014398509481980, %rdi
	andq	%r11, %rdi
	decq	%r10
	je	.LBB18_91
.LBB18_89:
	movq	%rdi, %r11
	shrq	$52, %r11
	leaq	(%r11,%r9,4), %r9
	leaq	(,%r8,4), %r11
	cmpq	%r9, %r11
	jae	.LBB18_87
	notq	%r11
	leaq	1(,%r8,2), %r8
	addq	%r11, %r9
	jmp	.LBB18_88
.LBB18_91:
	andl	$8190, %ecx
	shlq	$51, %rcx
	cmpq	%r9, %r8
	adcq	%r8, %rcx
	movabsq	$-117093590311632896, %rdi
	addq	%rcx, %rdi
	movq	%rdi, %xmm0
	movq	256(%rsp), %r11
	jmp	.LBB18_65
.LBB18_92:
	movq	80(%rsp), %rdx
	movsd	88(%rsp), %xmm0
	movsd	%xmm0, (%r15,%rax,8)
	incq	%rax
	movq	$0, 16(%rsp)
	movq	%rax, 24(%rsp)
	movq	%rax, %rcx
	shrq	$8, %rcx
	xorl	%edi, %edi
.LBB18_93:
	movsd	48(%rsp), %xmm7
	jmp	.LBB18_14
.LBB18_94:
	movsd	.LCPI18_1(%rip), %xmm2
	addsd	%xmm0, %xmm2
	addsd	.LCPI18_0(%rip), %xmm2
.LBB18_95:
	cmpeqsd	%xmm1, %xmm2
.LBB18_96:
	movq	%xmm2, %rdi
	andl	$1, %edi
	movsd	112(%rsp), %xmm2
	ucomisd	%xmm1, %xmm2
	movl	$13, %ecx
	jb	.LBB18_116
	ucomisd	%xmm7, %xmm1
	jbe	.LBB18_116
	testb	%dil, %dil
	je	.LBB18_116
	cvttsd2si	%xmm0, %rcx
	movq	%rcx, %rdi
	subsd	.LCPI18_4(%rip), %xmm0
	cvttsd2si	%xmm0, %r8
	sarq	$63, %rdi
	andq	%rdi, %r8
	orq	%rcx, %r8
	movsd	.LCPI18_3(%rip), %xmm2
	je	.LBB18_31
	movsd	-16(%r15,%rax,8), %xmm0
	cmpq	$1, %r8
	jne	.LBB18_102
	movapd	%xmm0, %xmm2
	jmp	.LBB18_31
.LBB18_102:
	leaq	-1(%r8), %rdi
	addq	$-2, %r8
	movl	%edi, %ecx
	andl	$7, %ecx
	movapd	%xmm0, %xmm2
	cmpq	$7, %r8
	jb	.LBB18_106
	andq	$-8, %rdi
	movapd	%xmm0, %xmm2
.LBB18_104:
	mulsd	%xmm0, %xmm2
	mulsd	%xmm0, %xmm2
	mulsd	%xmm0, %xmm2
	mulsd	%xmm0, %xmm2
	mulsd	%xmm0, %xmm2
	mulsd	%xmm0, %xmm2
	mulsd	%xmm0, %xmm2
	mulsd	%xmm0, %xmm2
	addq	$-8, %rdi
	jne	.LBB18_104
	testq	%rcx, %rcx
	je	.LBB18_31
.LBB18_106:
	mulsd	%xmm0, %xmm2
	decq	%rcx
	jne	.LBB18_106
	jmp	.LBB18_31
.LBB18_16:
	movq	$0, (%rbx)
	shlq	$8, %rcx
	movzbl	%al, %eax
	orq	%rcx, %rax
	movq	%rax, 8(%rbx)
	movq	%rsi, 16(%rbx)
	movq	%rdx, 24(%rbx)
	jmp	.LBB18_118
.LBB18_107:
	movl	$11, %ecx
	jmp	.LBB18_116
.LBB18_108:
	movq	%rsi, %r14
	jmp	.LBB18_111
.LBB18_109:
	movb	$5, %r9b
	jmp	.LBB18_110
.LBB18_112:
	movl	$13, %ecx
	jmp	.LBB18_116
.LBB18_115:
	xorl	%ecx, %ecx
	jmp	.LBB18_116
.LBB18_55:
	movl	$14, %ecx
.LBB18_116:
	movq	$1, (%rbx)
	movq	%rcx, 8(%rbx)
	jmp	.LBB18_117
.LBB18_113:
	movb	$4, %r9b
.LBB18_110:
	movl	%r9d, %eax
.LBB18_111:
	movq	$1, (%rbx)
	movzbl	%al, %eax
	movq	%rax, 8(%rbx)
.LBB18_117:
	movq	%r14, 16(%rbx)
	movq	$0, 24(%rbx)
.LBB18_118:
	addq	$200, %rsp
	popq	%rbx
	popq	%r12
	popq	%r13
	popq	%r14
	popq	%r15
	popq	%rbp
	retq
.LBB18_114:
	movl	$5, %ecx
	jmp	.LBB18_116
.LBB18_119:
	ud2
.Lfunc_end18:
	.size	"running::run::walk", .Lfunc_end18-"running::run::walk"
	.section	".rodata.running::run::walk","a",@progbits
	.p2align	2, 0x0
.LJTI18_0:
	.long	.LBB18_109-.LJTI18_0
	.long	.LBB18_113-.LJTI18_0
	.long	.LBB18_109-.LJTI18_0
	.long	.LBB18_119-.LJTI18_0
	.long	.LBB18_20-.LJTI18_0
	.long	.LBB18_13-.LJTI18_0
	.long	.LBB18_13-.LJTI18_0
	.long	.LBB18_110-.LJTI18_0
	.long	.LBB18_110-.LJTI18_0
	.long	.LBB18_110-.LJTI18_0
	.long	.LBB18_110-.LJTI18_0
	.long	.LBB18_110-.LJTI18_0
.LJTI18_1:
	.long	.LBB18_19-.LJTI18_1
	.long	.LBB18_39-.LJTI18_1
	.long	.LBB18_43-.LJTI18_1
	.long	.LBB18_34-.LJTI18_1
	.long	.LBB18_40-.LJTI18_1
	.long	.LBB18_36-.LJTI18_1
	.long	.LBB18_33-.LJTI18_1
	.long	.LBB18_49-.LJTI18_1
	.long	.LBB18_51-.LJTI18_1
	.long	.LBB18_46-.LJTI18_1
	.long	.LBB18_53-.LJTI18_1
	.long	.LBB18_29-.LJTI18_1
	.long	.LBB18_112-.LJTI18_1
	.long	.LBB18_112-.LJTI18_1
	.long	.LBB18_112-.LJTI18_1
	.long	.LBB18_28-.LJTI18_1
	.long	.LBB18_114-.LJTI18_1
	.long	.LBB18_112-.LJTI18_1
	.long	.LBB18_112-.LJTI18_1
	.long	.LBB18_112-.LJTI18_1
	.long	.LBB18_116-.LJTI18_1
	.long	.LBB18_116-.LJTI18_1
	.long	.LBB18_116-.LJTI18_1
	.long	.LBB18_116-.LJTI18_1
	.long	.LBB18_116-.LJTI18_1
	.long	.LBB18_116-.LJTI18_1
	.long	.LBB18_116-.LJTI18_1
	.long	.LBB18_116-.LJTI18_1
	.long	.LBB18_116-.LJTI18_1
	.long	.LBB18_116-.LJTI18_1
	.long	.LBB18_116-.LJTI18_1
	.long	.LBB18_112-.LJTI18_1
	.long	.LBB18_112-.LJTI18_1
	.long	.LBB18_112-.LJTI18_1
	.long	.LBB18_112-.LJTI18_1
	.long	.LBB18_112-.LJTI18_1
	.long	.LBB18_112-.LJTI18_1
	.long	.LBB18_37-.LJTI18_1
	.long	.LBB18_112-.LJTI18_1
.LJTI18_2:
	.long	.LBB18_65-.LJTI18_2
	.long	.LBB18_3-.LJTI18_2
	.long	.LBB18_45-.LJTI18_2
	.long	.LBB18_57-.LJTI18_2
	.long	.LBB18_56-.LJTI18_2
	.long	.LBB18_58-.LJTI18_2
	.long	.LBB18_63-.LJTI18_2

	.section	.text.uplink_cost,"ax",@progbits
	.globl	uplink_cost
	.p2align	4
	.type	uplink_cost,@function
uplink_cost:
	pushq	%rbp
	pushq	%r15
	pushq	%r14
	pushq	%r13
	pushq	%r12
	pushq	%rbx
	subq	$424, %rsp
	movq	%rdx, %rbp
	movq	%rdi, %rcx
	xorl	%r8d, %r8d
	testq	%rdi, %rdi
	sete	%dil
	movabsq	$-6148914691236517205, %rdx
	movq	%rsi, %rax
	mulq	%rdx
	xorl	%eax, %eax
	cmpq	$49175, %rsi
	ja	.LBB19_8
	shrq	$4, %rdx
	leaq	(,%rdx,8), %r9
	leaq	(%r9,%r9,2), %r9
	movq	%rsi, %r10
	subq	%r9, %r10
	jne	.LBB19_8
	movb	%dil, %r8b
	shll	$12, %r8d
	leaq	(%rcx,%r8), %rdi
	cmpq	$24, %rsi
	jb	.LBB19_50
	leaq	(%r8,%rcx), %rsi
	addq	$16, %rsi
	xorl	%eax, %eax
	.p2align	4
.LBB19_4:
	movq	-16(%rsi), %r10
	cmpq	$1, %r10
	sete	%r9b
	andq	$-65281, %r10
	xorq	$5, %r10
	orq	-8(%rsi), %r10
	sete	%r10b
	cmpq	$0, (%rsi)
	jne	.LBB19_9
	orb	%r10b, %r9b
	je	.LBB19_9
	incq	%rax
	addq	$24, %rsi
	cmpq	%rax, %rdx
	jne	.LBB19_4
	jmp	.LBB19_50
.LBB19_9:
	cmpq	%rax, %rdx
	je	.LBB19_50
	movq	%rbp, 8(%rsp)
	xorps	%xmm0, %xmm0
	movaps	%xmm0, 160(%rsp)
	movaps	%xmm0, 176(%rsp)
	movaps	%xmm0, 192(%rsp)
	movaps	%xmm0, 208(%rsp)
	movaps	%xmm0, 224(%rsp)
	movaps	%xmm0, 240(%rsp)
	movaps	%xmm0, 256(%rsp)
	movaps	%xmm0, 272(%rsp)
	movaps	%xmm0, 288(%rsp)
	movaps	%xmm0, 304(%rsp)
	movaps	%xmm0, 320(%rsp)
	movaps	%xmm0, 336(%rsp)
	movaps	%xmm0, 352(%rsp)
	movaps	%xmm0, 368(%rsp)
	movaps	%xmm0, 384(%rsp)
	movaps	%xmm0, 400(%rsp)
	movaps	%xmm0, 32(%rsp)
	movaps	%xmm0, 48(%rsp)
	movaps	%xmm0, 64(%rsp)
	movaps	%xmm0, 80(%rsp)
	movaps	%xmm0, 96(%rsp)
	movaps	%xmm0, 112(%rsp)
	movaps	%xmm0, 128(%rsp)
	movaps	%xmm0, 144(%rsp)
	addq	%rcx, %r8
	addq	$16, %r8
	xorl	%ebp, %ebp
	movq	%rdx, 16(%rsp)
	movq	%rdx, %r14
	xorl	%edx, %edx
	movq	%r8, 24(%rsp)
	.p2align	4
.LBB19_11:
	movq	%rax, %r9
	movq	%r14, %rax
.LBB19_12:
	testb	$1, %bpl
	je	.LBB19_17
.LBB19_13:
	cmpq	%rax, %r9
	je	.LBB19_31
	leaq	(%r9,%r9,2), %r12
	movl	4(%rdi,%r12,8), %r11d
	movq	8(%rdi,%r12,8), %r15
	movq	16(%rdi,%r12,8), %r14
	movzbl	(%rdi,%r12,8), %r10d
	movzbl	1(%rdi,%r12,8), %ecx
	movzbl	3(%rdi,%r12,8), %ebx
	cmpl	$7, %r10d
	je	.LBB19_22
	movzbl	2(%rdi,%r12,8), %r13d
	cmpl	$6, %r10d
	jne	.LBB19_24
	orb	%r13b, %bl
	jmp	.LBB19_23
	.p2align	4
.LBB19_17:
	cmpq	%rax, %r9
	jae	.LBB19_31
	leaq	(%r9,%r9,2), %rcx
	leaq	(%r8,%rcx,8), %r10
	.p2align	4
.LBB19_19:
	movq	-16(%r10), %r11
	cmpq	$1, %r11
	sete	%cl
	andq	$-65281, %r11
	xorq	$5, %r11
	orq	-8(%r10), %r11
	sete	%r11b
	cmpq	$0, (%r10)
	jne	.LBB19_13
	orb	%r11b, %cl
	je	.LBB19_13
	incq	%r9
	addq	$24, %r10
	cmpq	%r9, %rax
	jne	.LBB19_19
	jmp	.LBB19_31
	.p2align	4
.LBB19_22:
	orb	%cl, %bl
.LBB19_23:
	sete	%cl
	orq	%r15, %r14
	sete	%r15b
	andb	%cl, %r15b
	jmp	.LBB19_25
	.p2align	4
.LBB19_24:
	leal	-1(%r10), %r12d
	cmpb	$13, %r12b
	setb	%r8b
	cmpb	$2, %r10b
	sete	%sil
	testb	%bl, %bl
	sete	%bl
	andb	%r8b, %bl
	testb	%cl, %cl
	sete	%cl
	leal	-5(%r10), %r8d
	cmpb	$2, %r8b
	setb	%r8b
	orb	%cl, %r8b
	andb	%bl, %r8b
	testb	%r13b, %r13b
	sete	%cl
	testq	%r11, %r11
	sete	%bl
	leal	-6(%r10), %r13d
	cmpb	$4, %r13b
	setb	%r13b
	orb	%bl, %r13b
	andb	%cl, %r13b
	andb	%r8b, %r13b
	testq	%r15, %r15
	sete	%cl
	cmpb	$2, %r12b
	setb	%r8b
	orb	%cl, %r8b
	testq	%r14, %r14
	sete	%r15b
	orb	%sil, %r15b
	andb	%r8b, %r15b
	movq	24(%rsp), %r8
	andb	%r13b, %r15b
.LBB19_25:
	leaq	(%r9,%r11), %r14
	incq	%r14
	cmpb	$7, %r10b
	setne	%cl
	cmpq	%rax, %r14
	ja	.LBB19_33
	xorb	%bpl, %cl
	testb	$1, %cl
	je	.LBB19_33
	testb	%r15b, %r15b
	je	.LBB19_33
	incq	%r9
	testq	%r11, %r11
	je	.LBB19_12
	cmpq	$128, %rdx
	je	.LBB19_33
	movw	%ax, 160(%rsp,%rdx,2)
	movb	%bpl, 32(%rsp,%rdx)
	incq	%rdx
	cmpb	$6, %r10b
	sete	%bpl
	movq	%r9, %rax
	jmp	.LBB19_11
	.p2align	4
.LBB19_31:
	testq	%rdx, %rdx
	je	.LBB19_49
	movzwl	158(%rsp,%rdx,2), %r14d
	movzbl	31(%rsp,%rdx), %ebp
	decq	%rdx
	jmp	.LBB19_11
.LBB19_33:
	movq	16(%rsp), %rdx
	movq	%rdx, %rcx
	movq	8(%rsp), %rbp
	jmp	.LBB19_35
.LBB19_34:
	movq	%rdx, %rcx
	decq	%rcx
	movq	16(%rsp), %rdx
	je	.LBB19_55
.LBB19_35:
	leaq	-8(,%rcx,8), %rax
	leaq	(%rax,%rax,2), %rax
	movl	4(%rdi,%rax), %r8d
	leaq	(%rcx,%r8), %rsi
	cmpq	%rsi, %rdx
	jb	.LBB19_54
	movq	%rcx, %rdx
	testl	%r8d, %r8d
	je	.LBB19_34
	movzbl	(%rdi,%rax), %r8d
	movq	%rdx, %r9
	.p2align	4
.LBB19_38:
	leaq	(%r9,%r9,2), %r15
	movl	4(%rdi,%r15,8), %eax
	movq	8(%rdi,%r15,8), %r14
	movq	16(%rdi,%r15,8), %r11
	movzbl	(%rdi,%r15,8), %r10d
	movzbl	1(%rdi,%r15,8), %r13d
	movzbl	3(%rdi,%r15,8), %ebx
	cmpl	$7, %r10d
	je	.LBB19_41
	movzbl	2(%rdi,%r15,8), %r12d
	cmpl	$6, %r10d
	jne	.LBB19_43
	orb	%r12b, %bl
	jmp	.LBB19_42
	.p2align	4
.LBB19_41:
	orb	%r13b, %bl
.LBB19_42:
	sete	%bl
	orq	%r14, %r11
	sete	%r11b
	andb	%bl, %r11b
	jmp	.LBB19_44
	.p2align	4
.LBB19_43:
	leal	-1(%r10), %r15d
	cmpb	$13, %r15b
	setb	%cl
	cmpb	$2, %r10b
	sete	%bpl
	testb	%bl, %bl
	sete	%bl
	andb	%cl, %bl
	testb	%r13b, %r13b
	sete	%cl
	leal	-5(%r10), %r13d
	cmpb	$2, %r13b
	setb	%r13b
	orb	%cl, %r13b
	andb	%bl, %r13b
	testb	%r12b, %r12b
	sete	%cl
	testq	%rax, %rax
	sete	%bl
	leal	-6(%r10), %r12d
	cmpb	$4, %r12b
	setb	%r12b
	orb	%bl, %r12b
	andb	%cl, %r12b
	andb	%r13b, %r12b
	testq	%r14, %r14
	sete	%cl
	cmpb	$2, %r15b
	setb	%bl
	orb	%cl, %bl
	testq	%r11, %r11
	sete	%r11b
	orb	%bpl, %r11b
	movq	8(%rsp), %rbp
	andb	%bl, %r11b
	andb	%r12b, %r11b
.LBB19_44:
	cmpb	$6, %r8b
	sete	%bl
	addq	%rax, %r9
	incq	%r9
	cmpb	$7, %r10b
	setne	%r10b
	xorl	%eax, %eax
	cmpq	%rsi, %r9
	ja	.LBB19_8
	xorb	%r10b, %bl
	je	.LBB19_8
	testb	%r11b, %r11b
	je	.LBB19_8
	cmpq	%rsi, %r9
	jb	.LBB19_38
	jmp	.LBB19_34
.LBB19_49:
	movq	8(%rsp), %rbp
	movq	16(%rsp), %rdx
.LBB19_50:
	xorl	%r14d, %r14d
	movl	$129, %ecx
	xorl	%esi, %esi
	callq	"reading::cost::stretch_steps"
	jmp	.LBB19_51
.LBB19_54:
	xorl	%eax, %eax
	movl	$11, %r14d
	jmp	.LBB19_51
.LBB19_55:
	xorl	%ecx, %ecx
.LBB19_56:
	leaq	(,%rcx,8), %rax
	leaq	(%rax,%rax,2), %r14
	movl	4(%rdi,%r14), %eax
	movq	8(%rdi,%r14), %r8
	movq	16(%rdi,%r14), %rsi
	movzbl	(%rdi,%r14), %r9d
	movzbl	2(%rdi,%r14), %ebp
	movzbl	3(%rdi,%r14), %ebx
	cmpl	$6, %r9d
	je	.LBB19_59
	cmpl	$7, %r9d
	je	.LBB19_63
	leal	-1(%r9), %r11d
	cmpb	$13, %r11b
	setb	%r15b
	cmpb	$2, %r9b
	sete	%r10b
	testb	%bl, %bl
	sete	%bl
	andb	%r15b, %bl
	cmpb	$0, 1(%rdi,%r14)
	sete	%r14b
	leal	-5(%r9), %r15d
	cmpb	$2, %r15b
	setb	%r15b
	orb	%r14b, %r15b
	andb	%bl, %r15b
	testb	%bpl, %bpl
	sete	%bl
	testq	%rax, %rax
	sete	%bpl
	addb	$-6, %r9b
	cmpb	$4, %r9b
	setb	%r9b
	orb	%bpl, %r9b
	andb	%bl, %r9b
	andb	%r15b, %r9b
	testq	%r8, %r8
	sete	%r8b
	cmpb	$2, %r11b
	setb	%r11b
	orb	%r8b, %r11b
	testq	%rsi, %rsi
	sete	%sil
	orb	%r10b, %sil
	andb	%r11b, %sil
	movq	16(%rsp), %rdx
	jmp	.LBB19_60
.LBB19_59:
	orb	%bpl, %bl
	sete	%r9b
	orq	%r8, %rsi
	sete	%sil
.LBB19_60:
	andb	%r9b, %sil
	addq	%rax, %rcx
	incq	%rcx
	xorl	%eax, %eax
	cmpq	%rdx, %rcx
	movq	8(%rsp), %rbp
	ja	.LBB19_8
	testb	%sil, %sil
	je	.LBB19_8
	movl	$13, %r14d
	xorl	%eax, %eax
	cmpq	%rdx, %rcx
	jb	.LBB19_56
	jmp	.LBB19_51
.LBB19_8:
	movl	$11, %r14d
.LBB19_51:
	movq	$0, (%rbp)
	movq	%rax, 8(%rbp)
	movq	%r14, %rax
	addq	$424, %rsp
	popq	%rbx
	popq	%r12
	popq	%r13
	popq	%r14
	popq	%r15
	popq	%rbp
	retq
.LBB19_63:
	xorl	%eax, %eax
	movl	$11, %r14d
	movq	8(%rsp), %rbp
	jmp	.LBB19_51
.Lfunc_end19:
	.size	uplink_cost, .Lfunc_end19-uplink_cost

	.section	.rodata.cst8,"aM",@progbits,8
	.p2align	3, 0x0
.LCPI20_0:
	.quad	0x3ff0000000000000
.LCPI20_1:
	.quad	0xbcb0000000000000
.LCPI20_2:
	.quad	0x3cb0000000000000
	.section	.text.uplink_derivative,"ax",@progbits
	.globl	uplink_derivative
	.p2align	4
	.type	uplink_derivative,@function
uplink_derivative:
	pushq	%rbp
	pushq	%r15
	pushq	%r14
	pushq	%r13
	pushq	%r12
	pushq	%rbx
	movq	%rsp, %r11
	subq	$46080, %r11
.LBB20_1:
	subq	$3072, %rsp
	movq	$0, (%rsp)
	cmpq	%r11, %rsp
	jne	.LBB20_1
	subq	$2440, %rsp
	movq	%r8, 24(%rsp)
	movq	%rcx, 144(%rsp)
	movq	%rsi, %r13
	xorl	%ebp, %ebp
	testq	%rdi, %rdi
	sete	%bpl
	shll	$12, %ebp
	addq	%rdi, %rbp
	xorl	%r15d, %r15d
	testq	%rdx, %rdx
	sete	%r15b
	shll	$12, %r15d
	addq	%rdx, %r15
	xorpd	%xmm0, %xmm0
	movapd	%xmm0, 384(%rsp)
	movapd	%xmm0, 368(%rsp)
	movapd	%xmm0, 2768(%rsp)
	movapd	%xmm0, 2784(%rsp)
	movapd	%xmm0, 2800(%rsp)
	movapd	%xmm0, 2816(%rsp)
	movapd	%xmm0, 2832(%rsp)
	movapd	%xmm0, 2848(%rsp)
	movapd	%xmm0, 2864(%rsp)
	movapd	%xmm0, 2880(%rsp)
	movapd	%xmm0, 2896(%rsp)
	movapd	%xmm0, 2912(%rsp)
	movapd	%xmm0, 2928(%rsp)
	movapd	%xmm0, 2944(%rsp)
	movapd	%xmm0, 2960(%rsp)
	movapd	%xmm0, 2976(%rsp)
	movapd	%xmm0, 2992(%rsp)
	movapd	%xmm0, 3008(%rsp)
	movapd	%xmm0, 1856(%rsp)
	movapd	%xmm0, 1840(%rsp)
	movapd	%xmm0, 1824(%rsp)
	movapd	%xmm0, 1808(%rsp)
	movapd	%xmm0, 1792(%rsp)
	movapd	%xmm0, 1776(%rsp)
	movapd	%xmm0, 1760(%rsp)
	movapd	%xmm0, 1744(%rsp)
	movapd	%xmm0, 1728(%rsp)
	movapd	%xmm0, 1712(%rsp)
	movapd	%xmm0, 1696(%rsp)
	movapd	%xmm0, 1680(%rsp)
	movapd	%xmm0, 1664(%rsp)
	movapd	%xmm0, 1648(%rsp)
	movapd	%xmm0, 1632(%rsp)
	movapd	%xmm0, 1616(%rsp)
	leaq	3928(%rsp), %rbx
	movl	$6144, %edx
	movq	%rbx, %rdi
	xorl	%esi, %esi
	callq	memset@PLT
	xorpd	%xmm0, %xmm0
	movapd	%xmm0, 464(%rsp)
	movapd	%xmm0, 480(%rsp)
	movapd	%xmm0, 496(%rsp)
	movapd	%xmm0, 512(%rsp)
	movapd	%xmm0, 528(%rsp)
	movapd	%xmm0, 544(%rsp)
	movapd	%xmm0, 560(%rsp)
	movapd	%xmm0, 576(%rsp)
	movapd	%xmm0, 592(%rsp)
	movapd	%xmm0, 608(%rsp)
	movapd	%xmm0, 624(%rsp)
	movapd	%xmm0, 640(%rsp)
	movapd	%xmm0, 656(%rsp)
	movapd	%xmm0, 672(%rsp)
	movapd	%xmm0, 688(%rsp)
	movapd	%xmm0, 704(%rsp)
	leaq	2768(%rsp), %rax
	movq	%rax, 272(%rsp)
	movq	$256, 280(%rsp)
	leaq	1616(%rsp), %r14
	movq	%r14, 288(%rsp)
	movq	$256, 296(%rsp)
	movq	%rbx, 304(%rsp)
	movq	$256, 312(%rsp)
	leaq	464(%rsp), %r12
	movq	%r12, 320(%rsp)
	movq	$256, 328(%rsp)
	leaq	368(%rsp), %rdi
	leaq	272(%rsp), %rcx
	movl	$256, %r8d
	movq	%rbp, %rsi
	movq	%r13, 152(%rsp)
	movq	%r13, %rdx
	callq	"algebra::lists::read_sum"
	movq	376(%rsp), %rcx
	cmpb	$1, 368(%rsp)
	jne	.LBB20_4
	movzbl	369(%rsp), %eax
	movq	24(%rsp), %rbx
	cmpb	$11, %al
	jne	.LBB20_141
.LBB20_6:
	xorpd	%xmm0, %xmm0
	movapd	%xmm0, 384(%rsp)
	movapd	%xmm0, 368(%rsp)
	movl	$1152, %edx
	leaq	2768(%rsp), %r13
	movq	%r13, %rdi
	xorl	%esi, %esi
	callq	memset@PLT
	movl	$1152, %edx
	movq	%r14, %rdi
	xorl	%esi, %esi
	callq	memset@PLT
	leaq	20872(%rsp), %rbx
	movl	$27648, %edx
	movq	%rbx, %rdi
	xorl	%esi, %esi
	callq	memset@PLT
	movl	$1152, %edx
	movq	%r12, %rdi
	xorl	%esi, %esi
	callq	memset@PLT
	movq	%r13, 272(%rsp)
	movq	$1152, 280(%rsp)
	movq	%r14, 288(%rsp)
	movq	$1152, 296(%rsp)
	movq	%rbx, 304(%rsp)
	movq	$1152, 312(%rsp)
	movq	%r12, 320(%rsp)
	movq	$1152, 328(%rsp)
	leaq	368(%rsp), %rdi
	leaq	272(%rsp), %rcx
	movl	$1152, %r8d
	movq	%rbp, %rsi
	movq	152(%rsp), %rdx
	callq	"algebra::lists::read_sum"
	movq	376(%rsp), %rcx
	cmpb	$1, 368(%rsp)
	jne	.LBB20_34
	movzbl	369(%rsp), %eax
	movq	24(%rsp), %rbx
	movzbl	%al, %eax
	jmp	.LBB20_142
.LBB20_4:
	movzbl	384(%rsp), %ebx
	xorpd	%xmm0, %xmm0
	movapd	%xmm0, 192(%rsp)
	leaq	192(%rsp), %rdi
	leaq	272(%rsp), %rsi
	movl	$128, %edx
	xorl	%r8d, %r8d
	callq	"calculus::derivative::expr_deriv"
	cmpb	$1, 192(%rsp)
	jne	.LBB20_8
	movzbl	193(%rsp), %eax
	xorl	%ecx, %ecx
	movq	24(%rsp), %rbx
	cmpb	$11, %al
	je	.LBB20_6
.LBB20_141:
	movzbl	%al, %eax
.LBB20_142:
	incq	%rax
	xorl	%ebp, %ebp
.LBB20_143:
	movq	%rcx, (%rbx)
	movq	%rbp, 8(%rbx)
	addq	$48520, %rsp
	popq	%rbx
	popq	%r12
	popq	%r13
	popq	%r14
	popq	%r15
	popq	%rbp
	retq
.LBB20_8:
	movq	200(%rsp), %r13
	movq	272(%rsp), %rsi
	movq	280(%rsp), %rax
	movq	296(%rsp), %rcx
	movq	288(%rsp), %rdi
	movq	312(%rsp), %rdx
	movq	304(%rsp), %r8
	movq	%rsi, 56(%rsp)
	movq	%rsi, 408(%rsp)
	movq	%rax, 416(%rsp)
	movq	%rdi, 168(%rsp)
	movq	%rdi, 424(%rsp)
	movq	%rcx, 432(%rsp)
	movq	%r8, 160(%rsp)
	movq	%r8, 440(%rsp)
	movq	%rdx, 448(%rsp)
	movzbl	%bl, %eax
	movl	%eax, 336(%rsp)
	cmpq	$16, %r13
	movq	%r13, 48(%rsp)
	movq	%rbp, 456(%rsp)
	ja	.LBB20_36
	leaq	20872(%rsp), %rdi
	movl	$4272, %edx
	xorl	%esi, %esi
	callq	memset@PLT
	testq	%r13, %r13
	je	.LBB20_114
	movq	%r13, %r8
	movb	%bl, 40(%rsp)
	movq	%r15, 32(%rsp)
	leaq	114(%rsp), %r9
	xorps	%xmm2, %xmm2
	movsd	.LCPI20_0(%rip), %xmm3
	movsd	.LCPI20_1(%rip), %xmm0
	movsd	%xmm0, 264(%rsp)
	movsd	.LCPI20_2(%rip), %xmm0
	movsd	%xmm0, 256(%rsp)
	movl	$32, %ebp
	xorl	%r12d, %r12d
	movl	$32, %ecx
	xorl	%r15d, %r15d
	movsd	%xmm2, 104(%rsp)
	movsd	%xmm3, 96(%rsp)
	jmp	.LBB20_13
	.p2align	4
.LBB20_11:
.LBB20_12:
	cmpneqsd	%xmm2, %xmm6
	cmpneqsd	%xmm2, %xmm5
	orpd	%xmm6, %xmm5
	movd	%xmm5, %eax
	cmpb	$1, %r13b
	sete	%dl
	ucomisd	%xmm3, %xmm4
	setnp	%sil
	sete	%dil
	andb	%sil, %dil
	andb	%dl, %dil
	andb	%al, %dil
	orb	%dil, %r12b
	addq	%r14, %r15
	cmpq	%r8, %r15
	jae	.LBB20_116
.LBB20_13:
	leaq	(%r15,%r15,2), %rax
	movq	160(%rsp), %rsi
	movsd	16(%rsi,%rax,8), %xmm1
	movq	56(%rsp), %rdx
	movzbl	(%rdx,%r15), %r13d
	movq	168(%rsp), %rdx
	movzbl	(%rdx,%r15), %r14d
	incq	%r15
	movb	%r13b, 112(%rsp)
	movb	%r14b, 113(%rsp)
	movw	$0, 4(%r9)
	movl	$0, (%r9)
	movupd	(%rsi,%rax,8), %xmm4
	movapd	%xmm4, %xmm7
	unpckhpd	%xmm4, %xmm7
	movupd	%xmm4, 120(%rsp)
	movsd	%xmm1, 136(%rsp)
	xorpd	%xmm0, %xmm0
	movapd	%xmm0, 64(%rsp)
	movq	$0, 80(%rsp)
	movapd	%xmm7, %xmm5
	ucomisd	%xmm2, %xmm5
	movapd	%xmm1, %xmm6
	jne	.LBB20_15
	jp	.LBB20_15
	ucomisd	%xmm2, %xmm6
	jne	.LBB20_15
	jnp	.LBB20_11
.LBB20_15:
	cmpq	%rcx, %rbp
	setne	%bl
	orb	%r12b, %bl
	testb	$1, %bl
	movapd	%xmm4, 352(%rsp)
	movapd	%xmm5, 240(%rsp)
	movapd	%xmm6, 224(%rsp)
	movsd	%xmm1, 176(%rsp)
	movapd	%xmm7, 208(%rsp)
	je	.LBB20_18
	cmpq	%rcx, %rbp
	je	.LBB20_19
	leaq	-2(%rcx), %rax
	movl	%ebp, %edx
	subl	%ecx, %edx
	leal	1(%rdx), %esi
	leaq	(%rcx,%rcx,2), %rcx
	movl	$774, 20824(%rsp,%rcx,8)
	movl	%esi, 20828(%rsp,%rcx,8)
	movupd	%xmm0, 20832(%rsp,%rcx,8)
	movl	$65543, 20848(%rsp,%rcx,8)
	movl	%edx, 20852(%rsp,%rcx,8)
	movupd	%xmm0, 20856(%rsp,%rcx,8)
	jmp	.LBB20_20
	.p2align	4
.LBB20_18:
	movq	%rbp, %rax
	jmp	.LBB20_20
.LBB20_19:
	leaq	(,%rbp,2), %rcx
	addq	%rbp, %rcx
	movw	$773, 20872(%rsp,%rcx,8)
	movq	%rbp, %rax
	incq	%rbp
	movupd	%xmm0, 20874(%rsp,%rcx,8)
	movq	$0, 20888(%rsp,%rcx,8)
.LBB20_20:
	movq	%rbp, 16(%rsp)
	movq	%rax, 8(%rsp)
	leaq	20872(%rsp), %rax
	movq	%rax, (%rsp)
	movl	336(%rsp), %r8d
	andl	$1, %r8d
	leaq	64(%rsp), %rdi
	leaq	408(%rsp), %rsi
	leaq	112(%rsp), %rdx
	movl	$3, %r9d
	movq	%r15, %rcx
	callq	"writing::write_term"
	cmpb	$0, 64(%rsp)
	jne	.LBB20_89
	movq	72(%rsp), %rcx
	movq	80(%rsp), %rbp
	cmpb	$1, %r13b
	setne	%al
	movaps	352(%rsp), %xmm4
	movsd	104(%rsp), %xmm2
	ucomisd	%xmm2, %xmm4
	setp	%sil
	setne	%dl
	movapd	224(%rsp), %xmm6
	movapd	%xmm6, %xmm0
	cmpeqsd	%xmm2, %xmm0
	movapd	240(%rsp), %xmm5
	movapd	%xmm5, %xmm1
	movsd	96(%rsp), %xmm3
	cmpeqsd	%xmm3, %xmm1
	andpd	%xmm0, %xmm1
	movd	%xmm1, %edi
	testb	$1, %dil
	jne	.LBB20_26
	orb	%sil, %dl
	orb	%al, %dl
	movq	48(%rsp), %r8
	je	.LBB20_31
	movapd	208(%rsp), %xmm7
	movapd	%xmm7, %xmm0
	subsd	%xmm7, %xmm0
	testb	$1, 40(%rsp)
	je	.LBB20_27
	ucomisd	%xmm2, %xmm0
	movb	$14, %al
	movsd	176(%rsp), %xmm1
	jne	.LBB20_90
	jp	.LBB20_90
	movapd	%xmm1, %xmm0
	subsd	%xmm1, %xmm0
	movb	$2, %dl
	ucomisd	%xmm2, %xmm0
	jne	.LBB20_90
	jnp	.LBB20_30
	jmp	.LBB20_90
.LBB20_26:
	movq	48(%rsp), %r8
	jmp	.LBB20_31
.LBB20_27:
	ucomisd	%xmm2, %xmm0
	movb	$14, %al
	movsd	176(%rsp), %xmm1
	jne	.LBB20_90
	jp	.LBB20_90
	ucomisd	264(%rsp), %xmm6
	jbe	.LBB20_90
	movb	$1, %dl
	movsd	256(%rsp), %xmm0
	ucomisd	%xmm6, %xmm0
	jbe	.LBB20_90
.LBB20_30:
	movq	%xmm1, %rax
	xorl	%esi, %esi
	testb	$1, 40(%rsp)
	cmovneq	%rax, %rsi
	leaq	(%rbp,%rbp,2), %rax
	movb	%dl, 20872(%rsp,%rax,8)
	movl	$0, 20873(%rsp,%rax,8)
	movl	$0, 20876(%rsp,%rax,8)
	movsd	%xmm7, 20880(%rsp,%rax,8)
	movq	%rsi, 20888(%rsp,%rax,8)
	movw	$2565, 20896(%rsp,%rax,8)
	addq	$2, %rbp
	xorpd	%xmm0, %xmm0
	movupd	%xmm0, 20898(%rsp,%rax,8)
	movq	$0, 20912(%rsp,%rax,8)
.LBB20_31:
	testb	$1, %bl
	je	.LBB20_33
	leaq	(,%rbp,2), %rax
	addq	%rbp, %rax
	movw	$2053, 20872(%rsp,%rax,8)
	incq	%rbp
	xorpd	%xmm0, %xmm0
	movupd	%xmm0, 20874(%rsp,%rax,8)
	movq	$0, 20888(%rsp,%rax,8)
.LBB20_33:
	leaq	114(%rsp), %r9
	jmp	.LBB20_12
.LBB20_34:
	movzbl	384(%rsp), %eax
	movb	%al, 56(%rsp)
	xorpd	%xmm0, %xmm0
	movapd	%xmm0, 192(%rsp)
	leaq	192(%rsp), %rdi
	leaq	272(%rsp), %rsi
	movl	$128, %edx
	xorl	%r8d, %r8d
	callq	"calculus::derivative::expr_deriv"
	cmpb	$1, 192(%rsp)
	movq	24(%rsp), %rbx
	jne	.LBB20_60
	movzbl	193(%rsp), %eax
	xorl	%ecx, %ecx
	movzbl	%al, %eax
	jmp	.LBB20_142
.LBB20_36:
	movb	%bl, 40(%rsp)
	movq	%r15, 32(%rsp)
	leaq	114(%rsp), %rbx
	xorpd	%xmm0, %xmm0
	movsd	%xmm0, 104(%rsp)
	movsd	.LCPI20_0(%rip), %xmm0
	movsd	%xmm0, 96(%rsp)
	movsd	.LCPI20_1(%rip), %xmm0
	movsd	%xmm0, 264(%rsp)
	movsd	.LCPI20_2(%rip), %xmm0
	movsd	%xmm0, 256(%rsp)
	leaq	20872(%rsp), %rdi
	xorl	%r12d, %r12d
	movl	$16944, %edx
	xorl	%esi, %esi
	callq	memset@PLT
	movsd	96(%rsp), %xmm3
	movsd	104(%rsp), %xmm2
	movl	$128, %ebp
	movl	$128, %ecx
	xorl	%r15d, %r15d
	movq	%r13, %r8
	jmp	.LBB20_39
	.p2align	4
.LBB20_37:
.LBB20_38:
	cmpneqsd	%xmm2, %xmm6
	cmpneqsd	%xmm2, %xmm5
	orpd	%xmm6, %xmm5
	movd	%xmm5, %eax
	cmpb	$1, %r13b
	sete	%dl
	ucomisd	%xmm3, %xmm4
	setnp	%sil
	sete	%dil
	andb	%sil, %dil
	andb	%dl, %dil
	andb	%al, %dil
	orb	%dil, %r12b
	addq	%r14, %r15
	cmpq	%r8, %r15
	jae	.LBB20_86
.LBB20_39:
	leaq	(%r15,%r15,2), %rax
	movq	160(%rsp), %rsi
	movsd	16(%rsi,%rax,8), %xmm1
	movq	56(%rsp), %rdx
	movzbl	(%rdx,%r15), %r13d
	movq	168(%rsp), %rdx
	movzbl	(%rdx,%r15), %r14d
	incq	%r15
	movb	%r13b, 112(%rsp)
	movb	%r14b, 113(%rsp)
	movw	$0, 4(%rbx)
	movl	$0, (%rbx)
	movupd	(%rsi,%rax,8), %xmm4
	movapd	%xmm4, %xmm7
	unpckhpd	%xmm4, %xmm7
	movupd	%xmm4, 120(%rsp)
	movsd	%xmm1, 136(%rsp)
	xorpd	%xmm0, %xmm0
	movapd	%xmm0, 64(%rsp)
	movq	$0, 80(%rsp)
	movapd	%xmm7, %xmm5
	ucomisd	%xmm2, %xmm5
	movapd	%xmm1, %xmm6
	jne	.LBB20_41
	jp	.LBB20_41
	ucomisd	%xmm2, %xmm6
	jne	.LBB20_41
	jnp	.LBB20_37
.LBB20_41:
	cmpq	%rcx, %rbp
	setne	%bl
	orb	%r12b, %bl
	testb	$1, %bl
	movapd	%xmm4, 352(%rsp)
	movapd	%xmm5, 240(%rsp)
	movapd	%xmm6, 224(%rsp)
	movsd	%xmm1, 176(%rsp)
	movapd	%xmm7, 208(%rsp)
	je	.LBB20_44
	cmpq	%rcx, %rbp
	je	.LBB20_45
	leaq	-2(%rcx), %rax
	movl	%ebp, %edx
	subl	%ecx, %edx
	leal	1(%rdx), %esi
	leaq	(%rcx,%rcx,2), %rcx
	movl	$774, 20824(%rsp,%rcx,8)
	movl	%esi, 20828(%rsp,%rcx,8)
	movupd	%xmm0, 20832(%rsp,%rcx,8)
	movl	$65543, 20848(%rsp,%rcx,8)
	movl	%edx, 20852(%rsp,%rcx,8)
	movupd	%xmm0, 20856(%rsp,%rcx,8)
	jmp	.LBB20_46
	.p2align	4
.LBB20_44:
	movq	%rbp, %rax
	jmp	.LBB20_46
.LBB20_45:
	leaq	(,%rbp,2), %rcx
	addq	%rbp, %rcx
	movw	$773, 20872(%rsp,%rcx,8)
	movq	%rbp, %rax
	incq	%rbp
	movupd	%xmm0, 20874(%rsp,%rcx,8)
	movq	$0, 20888(%rsp,%rcx,8)
.LBB20_46:
	movq	%rbp, 16(%rsp)
	movq	%rax, 8(%rsp)
	leaq	20872(%rsp), %rax
	movq	%rax, (%rsp)
	movl	336(%rsp), %r8d
	andl	$1, %r8d
	leaq	64(%rsp), %rdi
	leaq	408(%rsp), %rsi
	leaq	112(%rsp), %rdx
	movl	$3, %r9d
	movq	%r15, %rcx
	callq	"writing::write_term"
	cmpb	$0, 64(%rsp)
	jne	.LBB20_89
	movq	72(%rsp), %rcx
	movq	80(%rsp), %rbp
	cmpb	$1, %r13b
	setne	%al
	movaps	352(%rsp), %xmm4
	movsd	104(%rsp), %xmm2
	ucomisd	%xmm2, %xmm4
	setp	%sil
	setne	%dl
	movapd	224(%rsp), %xmm6
	movapd	%xmm6, %xmm0
	cmpeqsd	%xmm2, %xmm0
	movapd	240(%rsp), %xmm5
	movapd	%xmm5, %xmm1
	movsd	96(%rsp), %xmm3
	cmpeqsd	%xmm3, %xmm1
	andpd	%xmm0, %xmm1
	movd	%xmm1, %edi
	testb	$1, %dil
	jne	.LBB20_52
	orb	%sil, %dl
	orb	%al, %dl
	movq	48(%rsp), %r8
	je	.LBB20_57
	movapd	208(%rsp), %xmm7
	movapd	%xmm7, %xmm0
	subsd	%xmm7, %xmm0
	testb	$1, 40(%rsp)
	je	.LBB20_53
	ucomisd	%xmm2, %xmm0
	movb	$14, %al
	movsd	176(%rsp), %xmm1
	jne	.LBB20_90
	jp	.LBB20_90
	movapd	%xmm1, %xmm0
	subsd	%xmm1, %xmm0
	movb	$2, %dl
	ucomisd	%xmm2, %xmm0
	jne	.LBB20_90
	jnp	.LBB20_56
	jmp	.LBB20_90
.LBB20_52:
	movq	48(%rsp), %r8
	jmp	.LBB20_57
.LBB20_53:
	ucomisd	%xmm2, %xmm0
	movb	$14, %al
	movsd	176(%rsp), %xmm1
	jne	.LBB20_90
	jp	.LBB20_90
	ucomisd	264(%rsp), %xmm6
	jbe	.LBB20_90
	movb	$1, %dl
	movsd	256(%rsp), %xmm0
	ucomisd	%xmm6, %xmm0
	jbe	.LBB20_90
.LBB20_56:
	movq	%xmm1, %rax
	xorl	%esi, %esi
	testb	$1, 40(%rsp)
	cmovneq	%rax, %rsi
	leaq	(%rbp,%rbp,2), %rax
	movb	%dl, 20872(%rsp,%rax,8)
	movl	$0, 20873(%rsp,%rax,8)
	movl	$0, 20876(%rsp,%rax,8)
	movsd	%xmm7, 20880(%rsp,%rax,8)
	movq	%rsi, 20888(%rsp,%rax,8)
	movw	$2565, 20896(%rsp,%rax,8)
	addq	$2, %rbp
	xorpd	%xmm0, %xmm0
	movupd	%xmm0, 20898(%rsp,%rax,8)
	movq	$0, 20912(%rsp,%rax,8)
.LBB20_57:
	testb	$1, %bl
	je	.LBB20_59
	leaq	(,%rbp,2), %rax
	addq	%rbp, %rax
	movw	$2053, 20872(%rsp,%rax,8)
	incq	%rbp
	xorpd	%xmm0, %xmm0
	movupd	%xmm0, 20874(%rsp,%rax,8)
	movq	$0, 20888(%rsp,%rax,8)
.LBB20_59:
	leaq	114(%rsp), %rbx
	jmp	.LBB20_38
.LBB20_60:
	movq	200(%rsp), %r12
	movq	272(%rsp), %rsi
	movq	280(%rsp), %rax
	movq	296(%rsp), %rcx
	movq	288(%rsp), %rdi
	movq	312(%rsp), %rdx
	movq	304(%rsp), %r8
	movq	%rsi, 168(%rsp)
	movq	%rsi, 408(%rsp)
	movq	%rax, 416(%rsp)
	movq	%rdi, 160(%rsp)
	movq	%rdi, 424(%rsp)
	movq	%rcx, 432(%rsp)
	movq	%r8, 352(%rsp)
	movq	%r8, 440(%rsp)
	movq	%rdx, 448(%rsp)
	cmpq	$16, %r12
	movq	%r12, 48(%rsp)
	ja	.LBB20_91
	leaq	3928(%rsp), %rdi
	movl	$4272, %edx
	xorl	%esi, %esi
	callq	memset@PLT
	testq	%r12, %r12
	je	.LBB20_129
	movq	%r15, 32(%rsp)
	leaq	114(%rsp), %r8
	xorpd	%xmm2, %xmm2
	movsd	.LCPI20_0(%rip), %xmm3
	movsd	.LCPI20_1(%rip), %xmm0
	movsd	%xmm0, 104(%rsp)
	movsd	.LCPI20_2(%rip), %xmm0
	movsd	%xmm0, 96(%rsp)
	movl	$32, %ebp
	xorl	%r15d, %r15d
	movl	$32, %ecx
	xorl	%ebx, %ebx
	movsd	%xmm2, 208(%rsp)
	movsd	%xmm3, 152(%rsp)
	jmp	.LBB20_65
	.p2align	4
.LBB20_63:
.LBB20_64:
	cmpneqsd	%xmm2, %xmm6
	cmpneqsd	%xmm2, %xmm5
	orpd	%xmm6, %xmm5
	movd	%xmm5, %eax
	cmpb	$1, %r13b
	sete	%dl
	ucomisd	%xmm3, %xmm4
	setnp	%sil
	sete	%dil
	andb	%sil, %dil
	andb	%dl, %dil
	andb	%al, %dil
	orb	%dil, %r15b
	addq	%r14, %rbx
	cmpq	%r12, %rbx
	jae	.LBB20_131
.LBB20_65:
	leaq	(%rbx,%rbx,2), %rax
	movq	352(%rsp), %rsi
	movsd	16(%rsi,%rax,8), %xmm1
	movq	168(%rsp), %rdx
	movzbl	(%rdx,%rbx), %r13d
	movq	160(%rsp), %rdx
	movzbl	(%rdx,%rbx), %r14d
	incq	%rbx
	movb	%r13b, 112(%rsp)
	movb	%r14b, 113(%rsp)
	movw	$0, 4(%r8)
	movl	$0, (%r8)
	movupd	(%rsi,%rax,8), %xmm4
	movapd	%xmm4, %xmm7
	unpckhpd	%xmm4, %xmm7
	movupd	%xmm4, 120(%rsp)
	movsd	%xmm1, 136(%rsp)
	xorpd	%xmm0, %xmm0
	movapd	%xmm0, 64(%rsp)
	movq	$0, 80(%rsp)
	movapd	%xmm7, %xmm5
	ucomisd	%xmm2, %xmm5
	movapd	%xmm1, %xmm6
	jne	.LBB20_67
	jp	.LBB20_67
	ucomisd	%xmm2, %xmm6
	jne	.LBB20_67
	jnp	.LBB20_63
.LBB20_67:
	cmpq	%rcx, %rbp
	setne	%r12b
	orb	%r15b, %r12b
	testb	$1, %r12b
	movapd	%xmm4, 240(%rsp)
	movapd	%xmm5, 224(%rsp)
	movapd	%xmm6, 336(%rsp)
	movsd	%xmm1, 40(%rsp)
	movapd	%xmm7, 176(%rsp)
	je	.LBB20_70
	cmpq	%rcx, %rbp
	je	.LBB20_71
	leaq	-2(%rcx), %rax
	movl	%ebp, %edx
	subl	%ecx, %edx
	leal	1(%rdx), %esi
	leaq	(%rcx,%rcx,2), %rcx
	movl	$774, 3880(%rsp,%rcx,8)
	movl	%esi, 3884(%rsp,%rcx,8)
	movupd	%xmm0, 3888(%rsp,%rcx,8)
	movl	$65543, 3904(%rsp,%rcx,8)
	movl	%edx, 3908(%rsp,%rcx,8)
	movupd	%xmm0, 3912(%rsp,%rcx,8)
	jmp	.LBB20_72
.LBB20_70:
	movq	%rbp, %rax
	jmp	.LBB20_72
.LBB20_71:
	leaq	(,%rbp,2), %rcx
	addq	%rbp, %rcx
	movw	$773, 3928(%rsp,%rcx,8)
	movq	%rbp, %rax
	incq	%rbp
	movupd	%xmm0, 3930(%rsp,%rcx,8)
	movq	$0, 3944(%rsp,%rcx,8)
.LBB20_72:
	movq	%rbp, 16(%rsp)
	movq	%rax, 8(%rsp)
	leaq	3928(%rsp), %rax
	movq	%rax, (%rsp)
	movzbl	56(%rsp), %r8d
	andl	$1, %r8d
	leaq	64(%rsp), %rdi
	leaq	408(%rsp), %rsi
	leaq	112(%rsp), %rdx
	movl	$3, %r9d
	movq	%rbx, %rcx
	callq	"writing::write_term"
	cmpb	$0, 64(%rsp)
	jne	.LBB20_122
	movq	72(%rsp), %rcx
	movq	80(%rsp), %rbp
	cmpb	$1, %r13b
	setne	%al
	movaps	240(%rsp), %xmm4
	movsd	208(%rsp), %xmm2
	ucomisd	%xmm2, %xmm4
	setp	%sil
	setne	%dl
	movapd	336(%rsp), %xmm6
	movapd	%xmm6, %xmm0
	cmpeqsd	%xmm2, %xmm0
	movapd	224(%rsp), %xmm5
	movapd	%xmm5, %xmm1
	movsd	152(%rsp), %xmm3
	cmpeqsd	%xmm3, %xmm1
	andpd	%xmm0, %xmm1
	movd	%xmm1, %edi
	testb	$1, %dil
	jne	.LBB20_78
	orb	%sil, %dl
	orb	%al, %dl
	leaq	114(%rsp), %r8
	je	.LBB20_83
	movapd	176(%rsp), %xmm7
	movapd	%xmm7, %xmm0
	subsd	%xmm7, %xmm0
	testb	$1, 56(%rsp)
	je	.LBB20_79
	ucomisd	%xmm2, %xmm0
	movb	$14, %al
	movsd	40(%rsp), %xmm1
	jne	.LBB20_152
	jp	.LBB20_152
	movapd	%xmm1, %xmm0
	subsd	%xmm1, %xmm0
	movb	$2, %dl
	ucomisd	%xmm2, %xmm0
	jne	.LBB20_152
	jnp	.LBB20_82
	jmp	.LBB20_152
.LBB20_78:
	leaq	114(%rsp), %r8
	jmp	.LBB20_83
.LBB20_79:
	ucomisd	%xmm2, %xmm0
	movb	$14, %al
	movsd	40(%rsp), %xmm1
	jne	.LBB20_152
	jp	.LBB20_152
	ucomisd	104(%rsp), %xmm6
	jbe	.LBB20_152
	movb	$1, %dl
	movsd	96(%rsp), %xmm0
	ucomisd	%xmm6, %xmm0
	jbe	.LBB20_152
.LBB20_82:
	movq	%xmm1, %rax
	xorl	%esi, %esi
	testb	$1, 56(%rsp)
	cmovneq	%rax, %rsi
	leaq	(%rbp,%rbp,2), %rax
	movb	%dl, 3928(%rsp,%rax,8)
	movl	$0, 3929(%rsp,%rax,8)
	movl	$0, 3932(%rsp,%rax,8)
	movsd	%xmm7, 3936(%rsp,%rax,8)
	movq	%rsi, 3944(%rsp,%rax,8)
	movw	$2565, 3952(%rsp,%rax,8)
	addq	$2, %rbp
	xorpd	%xmm0, %xmm0
	movupd	%xmm0, 3954(%rsp,%rax,8)
	movq	$0, 3968(%rsp,%rax,8)
.LBB20_83:
	testb	$1, %r12b
	je	.LBB20_85
	leaq	(,%rbp,2), %rax
	addq	%rbp, %rax
	movw	$2053, 3928(%rsp,%rax,8)
	incq	%rbp
	xorpd	%xmm0, %xmm0
	movupd	%xmm0, 3930(%rsp,%rax,8)
	movq	$0, 3944(%rsp,%rax,8)
.LBB20_85:
	movq	48(%rsp), %r12
	jmp	.LBB20_64
.LBB20_86:
	leaq	(%rcx,%rcx,2), %rsi
	cmpq	%rbp, %rcx
	movq	32(%rsp), %r15
	jne	.LBB20_135
	leaq	(%rsp,%rsi,8), %rax
	addq	$20872, %rax
	testb	$1, %r12b
	je	.LBB20_134
	movw	$261, (%rax)
	leaq	1(%rcx), %rbp
	xorpd	%xmm0, %xmm0
	movupd	%xmm0, 2(%rax)
	movq	$0, 16(%rax)
	jmp	.LBB20_135
.LBB20_89:
	movzbl	65(%rsp), %eax
.LBB20_90:
	movb	$1, %cl
	xorl	%ebp, %ebp
	movq	24(%rsp), %rbx
	movq	32(%rsp), %r15
	leaq	1616(%rsp), %r14
	leaq	464(%rsp), %r12
	testb	%cl, %cl
	je	.LBB20_128
.LBB20_140:
	xorl	%ecx, %ecx
	movq	456(%rsp), %rbp
	cmpb	$11, %al
	je	.LBB20_6
	jmp	.LBB20_141
.LBB20_91:
	movq	%r15, 32(%rsp)
	xorpd	%xmm0, %xmm0
	movsd	%xmm0, 208(%rsp)
	movsd	.LCPI20_0(%rip), %xmm0
	movsd	%xmm0, 152(%rsp)
	movsd	.LCPI20_1(%rip), %xmm0
	movsd	%xmm0, 104(%rsp)
	movsd	.LCPI20_2(%rip), %xmm0
	movsd	%xmm0, 96(%rsp)
	leaq	3928(%rsp), %rdi
	xorl	%r14d, %r14d
	movl	$16944, %edx
	xorl	%esi, %esi
	callq	memset@PLT
	movsd	152(%rsp), %xmm3
	movsd	208(%rsp), %xmm2
	movl	$128, %ebp
	movl	$128, %ecx
	xorl	%r15d, %r15d
	jmp	.LBB20_94
	.p2align	4
.LBB20_92:
.LBB20_93:
	cmpneqsd	%xmm2, %xmm6
	cmpneqsd	%xmm2, %xmm5
	orpd	%xmm6, %xmm5
	movd	%xmm5, %eax
	cmpb	$1, %bl
	sete	%dl
	ucomisd	%xmm3, %xmm4
	setnp	%sil
	sete	%dil
	andb	%sil, %dil
	andb	%dl, %dil
	andb	%al, %dil
	orb	%dil, %r14b
	addq	%r13, %r15
	cmpq	%r12, %r15
	jae	.LBB20_119
.LBB20_94:
	leaq	(%r15,%r15,2), %rax
	movq	352(%rsp), %rsi
	movsd	16(%rsi,%rax,8), %xmm1
	movq	168(%rsp), %rdx
	movzbl	(%rdx,%r15), %ebx
	movq	160(%rsp), %rdx
	movzbl	(%rdx,%r15), %r13d
	incq	%r15
	movb	%bl, 112(%rsp)
	movb	%r13b, 113(%rsp)
	leaq	114(%rsp), %rdx
	movw	$0, 4(%rdx)
	movl	$0, (%rdx)
	movupd	(%rsi,%rax,8), %xmm4
	movapd	%xmm4, %xmm7
	unpckhpd	%xmm4, %xmm7
	movupd	%xmm4, 120(%rsp)
	movsd	%xmm1, 136(%rsp)
	xorpd	%xmm0, %xmm0
	movapd	%xmm0, 64(%rsp)
	movq	$0, 80(%rsp)
	movapd	%xmm7, %xmm5
	ucomisd	%xmm2, %xmm5
	movapd	%xmm1, %xmm6
	jne	.LBB20_96
	jp	.LBB20_96
	ucomisd	%xmm2, %xmm6
	jne	.LBB20_96
	jnp	.LBB20_92
.LBB20_96:
	cmpq	%rcx, %rbp
	setne	%r12b
	orb	%r14b, %r12b
	testb	$1, %r12b
	movapd	%xmm4, 240(%rsp)
	movapd	%xmm5, 224(%rsp)
	movapd	%xmm6, 336(%rsp)
	movsd	%xmm1, 40(%rsp)
	movapd	%xmm7, 176(%rsp)
	je	.LBB20_99
	cmpq	%rcx, %rbp
	je	.LBB20_100
	leaq	-2(%rcx), %rax
	movl	%ebp, %edx
	subl	%ecx, %edx
	leal	1(%rdx), %esi
	leaq	(%rcx,%rcx,2), %rcx
	movl	$774, 3880(%rsp,%rcx,8)
	movl	%esi, 3884(%rsp,%rcx,8)
	movupd	%xmm0, 3888(%rsp,%rcx,8)
	movl	$65543, 3904(%rsp,%rcx,8)
	movl	%edx, 3908(%rsp,%rcx,8)
	movupd	%xmm0, 3912(%rsp,%rcx,8)
	jmp	.LBB20_101
	.p2align	4
.LBB20_99:
	movq	%rbp, %rax
	jmp	.LBB20_101
.LBB20_100:
	leaq	(,%rbp,2), %rcx
	addq	%rbp, %rcx
	movw	$773, 3928(%rsp,%rcx,8)
	movq	%rbp, %rax
	incq	%rbp
	movupd	%xmm0, 3930(%rsp,%rcx,8)
	movq	$0, 3944(%rsp,%rcx,8)
.LBB20_101:
	movq	%rbp, 16(%rsp)
	movq	%rax, 8(%rsp)
	leaq	3928(%rsp), %rax
	movq	%rax, (%rsp)
	movzbl	56(%rsp), %r8d
	andl	$1, %r8d
	leaq	64(%rsp), %rdi
	leaq	408(%rsp), %rsi
	leaq	112(%rsp), %rdx
	movl	$3, %r9d
	movq	%r15, %rcx
	callq	"writing::write_term"
	cmpb	$0, 64(%rsp)
	jne	.LBB20_122
	movq	72(%rsp), %rcx
	movq	80(%rsp), %rbp
	cmpb	$1, %bl
	setne	%al
	movaps	240(%rsp), %xmm4
	movsd	208(%rsp), %xmm2
	ucomisd	%xmm2, %xmm4
	setp	%sil
	setne	%dl
	movapd	336(%rsp), %xmm6
	movapd	%xmm6, %xmm0
	cmpeqsd	%xmm2, %xmm0
	movapd	224(%rsp), %xmm5
	movapd	%xmm5, %xmm1
	movsd	152(%rsp), %xmm3
	cmpeqsd	%xmm3, %xmm1
	andpd	%xmm0, %xmm1
	movd	%xmm1, %edi
	testb	$1, %dil
	jne	.LBB20_111
	orb	%sil, %dl
	orb	%al, %dl
	je	.LBB20_111
	movapd	176(%rsp), %xmm7
	movapd	%xmm7, %xmm0
	subsd	%xmm7, %xmm0
	testb	$1, 56(%rsp)
	je	.LBB20_107
	ucomisd	%xmm2, %xmm0
	movb	$14, %al
	movsd	40(%rsp), %xmm1
	jne	.LBB20_152
	jp	.LBB20_152
	movapd	%xmm1, %xmm0
	subsd	%xmm1, %xmm0
	movb	$2, %dl
	ucomisd	%xmm2, %xmm0
	jne	.LBB20_152
	jnp	.LBB20_110
	jmp	.LBB20_152
.LBB20_107:
	ucomisd	%xmm2, %xmm0
	movb	$14, %al
	movsd	40(%rsp), %xmm1
	jne	.LBB20_152
	jp	.LBB20_152
	ucomisd	104(%rsp), %xmm6
	jbe	.LBB20_152
	movb	$1, %dl
	movsd	96(%rsp), %xmm0
	ucomisd	%xmm6, %xmm0
	jbe	.LBB20_152
.LBB20_110:
	movq	%xmm1, %rax
	xorl	%esi, %esi
	testb	$1, 56(%rsp)
	cmovneq	%rax, %rsi
	leaq	(%rbp,%rbp,2), %rax
	movb	%dl, 3928(%rsp,%rax,8)
	movl	$0, 3929(%rsp,%rax,8)
	movl	$0, 3932(%rsp,%rax,8)
	movsd	%xmm7, 3936(%rsp,%rax,8)
	movq	%rsi, 3944(%rsp,%rax,8)
	movw	$2565, 3952(%rsp,%rax,8)
	addq	$2, %rbp
	xorpd	%xmm0, %xmm0
	movupd	%xmm0, 3954(%rsp,%rax,8)
	movq	$0, 3968(%rsp,%rax,8)
.LBB20_111:
	testb	$1, %r12b
	je	.LBB20_113
	leaq	(,%rbp,2), %rax
	addq	%rbp, %rax
	movw	$2053, 3928(%rsp,%rax,8)
	incq	%rbp
	xorpd	%xmm0, %xmm0
	movupd	%xmm0, 3930(%rsp,%rax,8)
	movq	$0, 3944(%rsp,%rax,8)
.LBB20_113:
	movq	48(%rsp), %r12
	jmp	.LBB20_93
.LBB20_114:
	leaq	21640(%rsp), %rax
	movl	$32, %ecx
	leaq	21641(%rsp), %rdx
	movq	24(%rsp), %rbx
.LBB20_115:
	movb	$1, (%rax)
	xorpd	%xmm0, %xmm0
	movupd	%xmm0, (%rdx)
	movq	$0, 15(%rdx)
	movw	$2565, 24(%rax)
	leaq	2(%rcx), %rbp
	movupd	%xmm0, 26(%rax)
	movq	$0, 40(%rax)
	jmp	.LBB20_125
.LBB20_116:
	cmpq	%rbp, %rcx
	jne	.LBB20_123
	leaq	(%rcx,%rcx,2), %rdx
	leaq	(%rsp,%rdx,8), %rax
	addq	$20872, %rax
	testb	$1, %r12b
	movq	32(%rsp), %r15
	je	.LBB20_144
	movw	$261, (%rax)
	leaq	1(%rcx), %rbp
	xorpd	%xmm0, %xmm0
	movupd	%xmm0, 2(%rax)
	movq	$0, 16(%rax)
	movq	24(%rsp), %rbx
	jmp	.LBB20_124
.LBB20_119:
	leaq	(%rcx,%rcx,2), %rsi
	cmpq	%rbp, %rcx
	movq	32(%rsp), %rdi
	movq	144(%rsp), %rax
	jne	.LBB20_150
	leaq	(%rsp,%rsi,8), %r8
	addq	$3928, %r8
	testb	$1, %r14b
	je	.LBB20_149
	movw	$261, (%r8)
	leaq	1(%rcx), %rbp
	xorpd	%xmm0, %xmm0
	movupd	%xmm0, 2(%r8)
	movq	$0, 16(%r8)
	jmp	.LBB20_150
.LBB20_122:
	movzbl	65(%rsp), %eax
	jmp	.LBB20_152
.LBB20_123:
	movq	24(%rsp), %rbx
	movq	32(%rsp), %r15
.LBB20_124:
	leaq	1616(%rsp), %r14
	leaq	464(%rsp), %r12
.LBB20_125:
	movabsq	$-6148914691236517205, %rdx
	movq	144(%rsp), %rax
	mulq	%rdx
	subq	%rcx, %rbp
	shrq	$4, %rdx
	cmpq	%rbp, %rdx
	jae	.LBB20_127
	movb	$16, %al
	movb	$1, %cl
	xorl	%ebp, %ebp
	testb	%cl, %cl
	jne	.LBB20_140
	jmp	.LBB20_128
.LBB20_127:
	leaq	(%rcx,%rcx,2), %rax
	leaq	(,%rbp,8), %rcx
	leaq	(%rcx,%rcx,2), %rdx
	leaq	(%rsp,%rax,8), %rsi
	addq	$20872, %rsi
	movq	%r15, %rdi
	callq	memcpy@PLT
	xorl	%ecx, %ecx
	xorl	%eax, %eax
	testb	%cl, %cl
	jne	.LBB20_140
	jmp	.LBB20_128
.LBB20_129:
	leaq	4696(%rsp), %rsi
	movl	$32, %ecx
	leaq	4697(%rsp), %rdx
	movq	144(%rsp), %rax
.LBB20_130:
	movb	$1, (%rsi)
	xorpd	%xmm0, %xmm0
	movupd	%xmm0, (%rdx)
	movq	$0, 15(%rdx)
	movw	$2565, 24(%rsi)
	leaq	2(%rcx), %rbp
	movupd	%xmm0, 26(%rsi)
	movq	$0, 40(%rsi)
	jmp	.LBB20_146
.LBB20_131:
	cmpq	%rbp, %rcx
	jne	.LBB20_145
	leaq	(%rcx,%rcx,2), %rdx
	leaq	(%rsp,%rdx,8), %rsi
	addq	$3928, %rsi
	testb	$1, %r15b
	movq	24(%rsp), %rbx
	movq	32(%rsp), %r15
	movq	144(%rsp), %rax
	je	.LBB20_156
	movw	$261, (%rsi)
	leaq	1(%rcx), %rbp
	xorpd	%xmm0, %xmm0
	movupd	%xmm0, 2(%rsi)
	movq	$0, 16(%rsi)
	jmp	.LBB20_146
.LBB20_134:
	leaq	(%rsp,%rsi,8), %rdx
	addq	$20873, %rdx
	movb	$1, (%rax)
	xorpd	%xmm0, %xmm0
	movupd	%xmm0, (%rdx)
	movq	$0, 15(%rdx)
	movw	$2565, 24(%rax)
	leaq	2(%rcx), %rbp
	movupd	%xmm0, 26(%rax)
	movq	$0, 40(%rax)
.LBB20_135:
	movabsq	$-6148914691236517205, %rdx
	movq	144(%rsp), %rax
	mulq	%rdx
	subq	%rcx, %rbp
	shrq	$4, %rdx
	cmpq	%rbp, %rdx
	jae	.LBB20_137
	movb	$16, %al
	movb	$1, %cl
	xorl	%ebp, %ebp
	jmp	.LBB20_138
.LBB20_137:
	leaq	(,%rbp,8), %rax
	leaq	(%rax,%rax,2), %rdx
	leaq	(%rsp,%rsi,8), %rsi
	addq	$20872, %rsi
	movq	%r15, %rdi
	callq	memcpy@PLT
	xorl	%ecx, %ecx
	xorl	%eax, %eax
.LBB20_138:
	movq	24(%rsp), %rbx
	leaq	1616(%rsp), %r14
	leaq	464(%rsp), %r12
	testb	%cl, %cl
	jne	.LBB20_140
.LBB20_128:
	xorl	%ecx, %ecx
	xorl	%eax, %eax
	jmp	.LBB20_143
.LBB20_144:
	leaq	(%rsp,%rdx,8), %rdx
	addq	$20873, %rdx
	movq	24(%rsp), %rbx
	leaq	1616(%rsp), %r14
	leaq	464(%rsp), %r12
	jmp	.LBB20_115
.LBB20_145:
	movq	24(%rsp), %rbx
	movq	32(%rsp), %r15
	movq	144(%rsp), %rax
.LBB20_146:
	movabsq	$-6148914691236517205, %rdx
	mulq	%rdx
	subq	%rcx, %rbp
	shrq	$4, %rdx
	cmpq	%rbp, %rdx
	jae	.LBB20_148
	movb	$16, %al
	movb	$1, %dl
	xorl	%ebp, %ebp
	jmp	.LBB20_155
.LBB20_148:
	leaq	(%rcx,%rcx,2), %rax
	leaq	(,%rbp,8), %rcx
	leaq	(%rcx,%rcx,2), %rdx
	leaq	(%rsp,%rax,8), %rsi
	addq	$3928, %rsi
	movq	%r15, %rdi
	callq	memcpy@PLT
	xorl	%edx, %edx
	xorl	%eax, %eax
	jmp	.LBB20_155
.LBB20_149:
	leaq	(%rsp,%rsi,8), %rdx
	addq	$3929, %rdx
	movb	$1, (%r8)
	xorpd	%xmm0, %xmm0
	movupd	%xmm0, (%rdx)
	movq	$0, 15(%rdx)
	movw	$2565, 24(%r8)
	leaq	2(%rcx), %rbp
	movupd	%xmm0, 26(%r8)
	movq	$0, 40(%r8)
.LBB20_150:
	movabsq	$-6148914691236517205, %rdx
	mulq	%rdx
	subq	%rcx, %rbp
	shrq	$4, %rdx
	cmpq	%rbp, %rdx
	jae	.LBB20_153
	movb	$16, %al
.LBB20_152:
	movb	$1, %dl
	xorl	%ebp, %ebp
	jmp	.LBB20_154
.LBB20_153:
	leaq	(,%rbp,8), %rax
	leaq	(%rax,%rax,2), %rdx
	leaq	(%rsp,%rsi,8), %rsi
	addq	$3928, %rsi
	callq	memcpy@PLT
	xorl	%edx, %edx
	xorl	%eax, %eax
.LBB20_154:
	movq	24(%rsp), %rbx
.LBB20_155:
	xorl	%ecx, %ecx
	testb	%dl, %dl
	movzbl	%al, %eax
	cmovel	%ecx, %eax
	movzbl	%al, %eax
	cmovneq	%rcx, %rbp
	incq	%rax
	testb	%dl, %dl
	cmoveq	%rcx, %rax
	jmp	.LBB20_143
.LBB20_156:
	leaq	(%rsp,%rdx,8), %rdx
	addq	$3929, %rdx
	jmp	.LBB20_130
.Lfunc_end20:
	.size	uplink_derivative, .Lfunc_end20-uplink_derivative

	.section	.text.uplink_derivative_faithful,"ax",@progbits
	.globl	uplink_derivative_faithful
	.p2align	4
	.type	uplink_derivative_faithful,@function
uplink_derivative_faithful:
	pushq	%rbp
	pushq	%r15
	pushq	%r14
	pushq	%r13
	pushq	%r12
	pushq	%rbx
	movq	%rsp, %r11
	subq	$30720, %r11
.LBB21_1:
	subq	$3072, %rsp
	movq	$0, (%rsp)
	cmpq	%r11, %rsp
	jne	.LBB21_1
	subq	$600, %rsp
	movq	%r8, %rbx
	movq	%rcx, 144(%rsp)
	movq	%rsi, %r12
	xorl	%r13d, %r13d
	testq	%rdi, %rdi
	sete	%r13b
	shll	$12, %r13d
	addq	%rdi, %r13
	xorl	%r15d, %r15d
	testq	%rdx, %rdx
	sete	%r15b
	shll	$12, %r15d
	addq	%rdx, %r15
	xorps	%xmm0, %xmm0
	movaps	%xmm0, 64(%rsp)
	movaps	%xmm0, 48(%rsp)
	movaps	%xmm0, 1360(%rsp)
	movaps	%xmm0, 1376(%rsp)
	movaps	%xmm0, 1392(%rsp)
	movaps	%xmm0, 1408(%rsp)
	movaps	%xmm0, 1424(%rsp)
	movaps	%xmm0, 1440(%rsp)
	movaps	%xmm0, 1456(%rsp)
	movaps	%xmm0, 1472(%rsp)
	movaps	%xmm0, 1488(%rsp)
	movaps	%xmm0, 1504(%rsp)
	movaps	%xmm0, 1520(%rsp)
	movaps	%xmm0, 1536(%rsp)
	movaps	%xmm0, 1552(%rsp)
	movaps	%xmm0, 1568(%rsp)
	movaps	%xmm0, 1584(%rsp)
	movaps	%xmm0, 1600(%rsp)
	movaps	%xmm0, 448(%rsp)
	movaps	%xmm0, 432(%rsp)
	movaps	%xmm0, 416(%rsp)
	movaps	%xmm0, 400(%rsp)
	movaps	%xmm0, 384(%rsp)
	movaps	%xmm0, 368(%rsp)
	movaps	%xmm0, 352(%rsp)
	movaps	%xmm0, 336(%rsp)
	movaps	%xmm0, 320(%rsp)
	movaps	%xmm0, 304(%rsp)
	movaps	%xmm0, 288(%rsp)
	movaps	%xmm0, 272(%rsp)
	movaps	%xmm0, 256(%rsp)
	movaps	%xmm0, 240(%rsp)
	movaps	%xmm0, 224(%rsp)
	movaps	%xmm0, 208(%rsp)
	leaq	3672(%rsp), %rbp
	movl	$6144, %edx
	movq	%rbp, %rdi
	xorl	%esi, %esi
	callq	memset@PLT
	xorps	%xmm0, %xmm0
	movaps	%xmm0, 2512(%rsp)
	movaps	%xmm0, 2528(%rsp)
	movaps	%xmm0, 2544(%rsp)
	movaps	%xmm0, 2560(%rsp)
	movaps	%xmm0, 2576(%rsp)
	movaps	%xmm0, 2592(%rsp)
	movaps	%xmm0, 2608(%rsp)
	movaps	%xmm0, 2624(%rsp)
	movaps	%xmm0, 2640(%rsp)
	movaps	%xmm0, 2656(%rsp)
	movaps	%xmm0, 2672(%rsp)
	movaps	%xmm0, 2688(%rsp)
	movaps	%xmm0, 2704(%rsp)
	movaps	%xmm0, 2720(%rsp)
	movaps	%xmm0, 2736(%rsp)
	movaps	%xmm0, 2752(%rsp)
	leaq	1360(%rsp), %r14
	movq	%r14, 80(%rsp)
	movq	$256, 88(%rsp)
	leaq	208(%rsp), %rax
	movq	%rax, 96(%rsp)
	movq	$256, 104(%rsp)
	movq	%rbp, 112(%rsp)
	movq	$256, 120(%rsp)
	leaq	2512(%rsp), %rax
	movq	%rax, %rbp
	movq	%rax, 128(%rsp)
	movq	$256, 136(%rsp)
	leaq	48(%rsp), %rdi
	leaq	80(%rsp), %rcx
	movl	$256, %r8d
	movq	%r13, %rsi
	movq	%r12, 152(%rsp)
	movq	%r12, %rdx
	callq	"algebra::lists::read_sum"
	movq	56(%rsp), %rcx
	cmpb	$1, 48(%rsp)
	jne	.LBB21_4
	movzbl	49(%rsp), %eax
	cmpb	$11, %al
	jne	.LBB21_10
.LBB21_11:
	xorps	%xmm0, %xmm0
	movaps	%xmm0, 64(%rsp)
	movaps	%xmm0, 48(%rsp)
	movl	$1152, %edx
	movq	%r14, %rdi
	xorl	%esi, %esi
	callq	memset@PLT
	movl	$1152, %edx
	leaq	208(%rsp), %rdi
	xorl	%esi, %esi
	callq	memset@PLT
	movl	$27648, %edx
	leaq	3672(%rsp), %r12
	movq	%r12, %rdi
	xorl	%esi, %esi
	callq	memset@PLT
	movl	$1152, %edx
	movq	%rbp, %rdi
	xorl	%esi, %esi
	callq	memset@PLT
	movq	%r14, 80(%rsp)
	movq	$1152, 88(%rsp)
	leaq	208(%rsp), %rax
	movq	%rax, 96(%rsp)
	movq	$1152, 104(%rsp)
	movq	%r12, 112(%rsp)
	movq	$1152, 120(%rsp)
	movq	%rbp, 128(%rsp)
	movq	$1152, 136(%rsp)
	leaq	48(%rsp), %rdi
	leaq	80(%rsp), %rcx
	movl	$1152, %r8d
	movq	%r13, %rsi
	movq	152(%rsp), %rdx
	callq	"algebra::lists::read_sum"
	movq	56(%rsp), %r8
	cmpb	$1, 48(%rsp)
	jne	.LBB21_13
	movzbl	49(%rsp), %eax
	jmp	.LBB21_15
.LBB21_4:
	movq	%rbx, %r14
	movzbl	64(%rsp), %ebx
	xorps	%xmm0, %xmm0
	movaps	%xmm0, 32(%rsp)
	movaps	%xmm0, 16(%rsp)
	leaq	32(%rsp), %rdi
	leaq	80(%rsp), %rsi
	movl	$128, %edx
	xorl	%r8d, %r8d
	callq	"calculus::derivative::expr_deriv"
	cmpb	$1, 32(%rsp)
	jne	.LBB21_6
	movzbl	33(%rsp), %eax
	xorl	%ecx, %ecx
	jmp	.LBB21_8
.LBB21_6:
	movq	40(%rsp), %rcx
	movups	80(%rsp), %xmm0
	movups	96(%rsp), %xmm1
	movups	112(%rsp), %xmm2
	movups	%xmm0, 160(%rsp)
	movups	%xmm1, 176(%rsp)
	movups	%xmm2, 192(%rsp)
	movq	144(%rsp), %rax
	movq	%rax, (%rsp)
	movzbl	%bl, %r8d
	andl	$1, %r8d
	leaq	16(%rsp), %rdi
	leaq	160(%rsp), %rdx
	movl	$1, %esi
	movq	%r15, %r9
	callq	"algebra::answer::write_sum"
	movq	24(%rsp), %rcx
	cmpb	$0, 16(%rsp)
	je	.LBB21_18
	movzbl	17(%rsp), %eax
.LBB21_8:
	movq	%r14, %rbx
	leaq	1360(%rsp), %r14
	cmpb	$11, %al
	je	.LBB21_11
.LBB21_10:
	movzbl	%al, %eax
	incq	%rax
	movq	%rcx, %r8
	xorl	%ecx, %ecx
	jmp	.LBB21_20
.LBB21_13:
	movq	%rbx, %r14
	movzbl	64(%rsp), %ebp
	xorps	%xmm0, %xmm0
	movaps	%xmm0, 32(%rsp)
	movaps	%xmm0, 16(%rsp)
	xorl	%ebx, %ebx
	leaq	32(%rsp), %rdi
	leaq	80(%rsp), %rsi
	movl	$128, %edx
	movq	%r8, %rcx
	xorl	%r8d, %r8d
	callq	"calculus::derivative::expr_deriv"
	cmpb	$1, 32(%rsp)
	jne	.LBB21_16
	movzbl	33(%rsp), %eax
	xorl	%r8d, %r8d
	movq	%r14, %rbx
.LBB21_15:
	movzbl	%al, %eax
	incq	%rax
	xorl	%ecx, %ecx
	jmp	.LBB21_20
.LBB21_16:
	movq	40(%rsp), %rcx
	movups	80(%rsp), %xmm0
	movups	96(%rsp), %xmm1
	movups	112(%rsp), %xmm2
	movups	%xmm0, 160(%rsp)
	movups	%xmm1, 176(%rsp)
	movups	%xmm2, 192(%rsp)
	movq	144(%rsp), %rax
	movq	%rax, (%rsp)
	movzbl	%bpl, %r8d
	andl	$1, %r8d
	leaq	16(%rsp), %rdi
	leaq	160(%rsp), %rdx
	movl	$1, %esi
	movq	%r15, %r9
	callq	"algebra::answer::write_sum"
	movzbl	16(%rsp), %eax
	movq	24(%rsp), %rcx
	testb	%al, %al
	movzbl	17(%rsp), %eax
	cmovel	%ebx, %eax
	je	.LBB21_18
	movzbl	%al, %eax
	incq	%rax
	movq	%rcx, %r8
	xorl	%ecx, %ecx
	jmp	.LBB21_19
.LBB21_18:
	xorl	%r8d, %r8d
	xorl	%eax, %eax
.LBB21_19:
	movq	%r14, %rbx
.LBB21_20:
	movq	%r8, (%rbx)
	movq	%rcx, 8(%rbx)
	addq	$31320, %rsp
	popq	%rbx
	popq	%r12
	popq	%r13
	popq	%r14
	popq	%r15
	popq	%rbp
	retq
.Lfunc_end21:
	.size	uplink_derivative_faithful, .Lfunc_end21-uplink_derivative_faithful

	.section	.text.uplink_derive,"ax",@progbits
	.globl	uplink_derive
	.p2align	4
	.type	uplink_derive,@function
uplink_derive:
	pushq	%rbp
	pushq	%r15
	pushq	%r14
	pushq	%r13
	pushq	%r12
	pushq	%rbx
	subq	$3072, %rsp
	movq	$0, (%rsp)
	subq	$2056, %rsp
	movq	%r8, 8(%rsp)
	movq	%rcx, 64(%rsp)
	movq	%rsi, %r12
	movq	%rdi, %r13
	xorl	%ebx, %ebx
	testq	%rdi, %rdi
	sete	%bpl
	xorl	%r15d, %r15d
	movq	%rdx, 72(%rsp)
	testq	%rdx, %rdx
	sete	7(%rsp)
	xorps	%xmm0, %xmm0
	movaps	%xmm0, 320(%rsp)
	movaps	%xmm0, 336(%rsp)
	movaps	%xmm0, 352(%rsp)
	movaps	%xmm0, 368(%rsp)
	movaps	%xmm0, 384(%rsp)
	movaps	%xmm0, 400(%rsp)
	movaps	%xmm0, 416(%rsp)
	movaps	%xmm0, 432(%rsp)
	movaps	%xmm0, 448(%rsp)
	movaps	%xmm0, 464(%rsp)
	movaps	%xmm0, 480(%rsp)
	movaps	%xmm0, 496(%rsp)
	movaps	%xmm0, 128(%rsp)
	movaps	%xmm0, 144(%rsp)
	movaps	%xmm0, 160(%rsp)
	movaps	%xmm0, 176(%rsp)
	movaps	%xmm0, 192(%rsp)
	movaps	%xmm0, 208(%rsp)
	movaps	%xmm0, 224(%rsp)
	movaps	%xmm0, 240(%rsp)
	movaps	%xmm0, 256(%rsp)
	movaps	%xmm0, 272(%rsp)
	movaps	%xmm0, 288(%rsp)
	movaps	%xmm0, 304(%rsp)
	leaq	520(%rsp), %r14
	movl	$4608, %edx
	movq	%r14, %rdi
	xorl	%esi, %esi
	callq	memset@PLT
	leaq	320(%rsp), %rcx
	movq	%rcx, 80(%rsp)
	movq	$192, 88(%rsp)
	leaq	128(%rsp), %rdx
	movq	%rdx, 96(%rsp)
	movq	$192, 104(%rsp)
	movq	%r14, 112(%rsp)
	movq	$192, 120(%rsp)
	movl	$11, %eax
	cmpq	$2079, %r12
	ja	.LBB22_9
	movl	%r12d, %esi
	andl	$31, %esi
	jne	.LBB22_9
	shrq	$5, %r12
	je	.LBB22_9
	movb	%bpl, %bl
	shll	$12, %ebx
	addq	%rbx, %r13
	movzbl	7(%rsp), %esi
	movb	%sil, %r15b
	shll	$12, %r15d
	movq	72(%rsp), %rbx
	addq	%r15, %rbx
	leaq	536(%rsp), %rsi
	xorl	%edi, %edi
	.p2align	4
.LBB22_4:
	movl	(%r13), %r8d
	cmpl	$255, %r8d
	ja	.LBB22_9
	movl	4(%r13), %r9d
	cmpl	$63, %r9d
	ja	.LBB22_9
	movq	24(%r13), %r10
	movb	%r8b, 320(%rsp,%rdi)
	movb	%r9b, 128(%rsp,%rdi)
	movups	8(%r13), %xmm0
	movups	%xmm0, -16(%rsi)
	movq	%r10, (%rsi)
	incq	%rdi
	addq	$24, %rsi
	addq	$32, %r13
	cmpq	%rdi, %r12
	jne	.LBB22_4
	movq	%rcx, 16(%rsp)
	movq	$192, 24(%rsp)
	movq	%rdx, 32(%rsp)
	movq	$192, 40(%rsp)
	movq	%r14, 48(%rsp)
	movq	$192, 56(%rsp)
	leaq	16(%rsp), %rdi
	movl	$4, %ecx
	xorl	%esi, %esi
	movq	%r12, %rdx
	callq	"sums::good::good_sum"
	testb	%al, %al
	je	.LBB22_8
	xorps	%xmm0, %xmm0
	movaps	%xmm0, 16(%rsp)
	leaq	16(%rsp), %rdi
	leaq	80(%rsp), %rsi
	movl	$64, %r8d
	xorl	%edx, %edx
	movq	%r12, %rcx
	callq	"calculus::derivative::expr_deriv"
	cmpb	$1, 16(%rsp)
	jne	.LBB22_13
	movzbl	17(%rsp), %eax
	incq	%rax
	movq	8(%rsp), %r11
	jmp	.LBB22_12
.LBB22_8:
	leaq	16(%rsp), %rdi
	movl	$64, %ecx
	xorl	%esi, %esi
	movq	%r12, %rdx
	callq	"sums::good::good_sum"
	movzbl	%al, %eax
	leaq	11(,%rax,2), %rax
.LBB22_9:
	xorl	%ecx, %ecx
	movq	8(%rsp), %r11
.LBB22_22:
	movq	$0, (%r11)
	movq	%rcx, 8(%r11)
	addq	$5128, %rsp
	popq	%rbx
	popq	%r12
	popq	%r13
	popq	%r14
	popq	%r15
	popq	%rbp
	retq
.LBB22_13:
	movq	24(%rsp), %rcx
	movq	64(%rsp), %rdx
	shrq	$5, %rdx
	movl	$17, %eax
	cmpq	%rcx, %rdx
	movq	8(%rsp), %r11
	jae	.LBB22_14
.LBB22_12:
	xorl	%ecx, %ecx
	jmp	.LBB22_22
.LBB22_14:
	testq	%rcx, %rcx
	je	.LBB22_21
	cmpq	$1, %rcx
	jne	.LBB22_17
	xorl	%eax, %eax
	jmp	.LBB22_20
.LBB22_17:
	movq	%rcx, %rdx
	andq	$-2, %rdx
	leaq	2096(%rsp), %rsi
	xorl	%eax, %eax
	movq	%rbx, %rdi
	.p2align	4
.LBB22_18:
	movq	-24(%rsi), %r8
	movzbl	384(%rsp,%rax), %r9d
	movzbl	192(%rsp,%rax), %r10d
	movl	%r9d, (%rdi)
	movl	%r10d, 4(%rdi)
	movups	-40(%rsi), %xmm0
	movups	%xmm0, 8(%rdi)
	movq	%r8, 24(%rdi)
	movq	(%rsi), %r8
	movzbl	385(%rsp,%rax), %r9d
	movzbl	193(%rsp,%rax), %r10d
	movl	%r9d, 32(%rdi)
	movl	%r10d, 36(%rdi)
	movups	-16(%rsi), %xmm0
	movups	%xmm0, 40(%rdi)
	movq	%r8, 56(%rdi)
	addq	$2, %rax
	addq	$64, %rdi
	addq	$48, %rsi
	cmpq	%rax, %rdx
	jne	.LBB22_18
	testb	$1, %cl
	je	.LBB22_21
.LBB22_20:
	leaq	(%rax,%rax,2), %rdx
	addq	$192, %rdx
	movq	536(%rsp,%rdx,8), %rsi
	movzbl	384(%rsp,%rax), %edi
	movzbl	192(%rsp,%rax), %r8d
	shlq	$5, %rax
	movl	%edi, (%rbx,%rax)
	movl	%r8d, 4(%rbx,%rax)
	movups	520(%rsp,%rdx,8), %xmm0
	movups	%xmm0, 8(%rbx,%rax)
	movq	%rsi, 24(%rbx,%rax)
.LBB22_21:
	xorl	%eax, %eax
	jmp	.LBB22_22
.Lfunc_end22:
	.size	uplink_derive, .Lfunc_end22-uplink_derive

	.section	.rodata.cst8,"aM",@progbits,8
	.p2align	3, 0x0
.LCPI23_0:
	.quad	0x3ff0000000000000
.LCPI23_2:
	.quad	0xbcb0000000000000
.LCPI23_3:
	.quad	0x3cb0000000000000
	.section	.rodata.cst16,"aM",@progbits,16
	.p2align	4, 0x0
.LCPI23_1:
	.quad	0x8000000000000000
	.quad	0x8000000000000000
	.section	.text.uplink_integral,"ax",@progbits
	.globl	uplink_integral
	.p2align	4
	.type	uplink_integral,@function
uplink_integral:
	pushq	%rbp
	pushq	%r15
	pushq	%r14
	pushq	%r13
	pushq	%r12
	pushq	%rbx
	movq	%rsp, %r11
	subq	$46080, %r11
.LBB23_1:
	subq	$3072, %rsp
	movq	$0, (%rsp)
	cmpq	%r11, %rsp
	jne	.LBB23_1
	subq	$2472, %rsp
	movq	%r8, 488(%rsp)
	movq	%rcx, 368(%rsp)
	movq	%rsi, %rbx
	xorl	%r14d, %r14d
	testq	%rdi, %rdi
	sete	%r14b
	shll	$12, %r14d
	addq	%rdi, %r14
	xorl	%eax, %eax
	testq	%rdx, %rdx
	sete	%al
	shll	$12, %eax
	addq	%rdx, %rax
	movq	%rax, 360(%rsp)
	xorpd	%xmm0, %xmm0
	movapd	%xmm0, 464(%rsp)
	movapd	%xmm0, 448(%rsp)
	movapd	%xmm0, 2800(%rsp)
	movapd	%xmm0, 2816(%rsp)
	movapd	%xmm0, 2832(%rsp)
	movapd	%xmm0, 2848(%rsp)
	movapd	%xmm0, 2864(%rsp)
	movapd	%xmm0, 2880(%rsp)
	movapd	%xmm0, 2896(%rsp)
	movapd	%xmm0, 2912(%rsp)
	movapd	%xmm0, 2928(%rsp)
	movapd	%xmm0, 2944(%rsp)
	movapd	%xmm0, 2960(%rsp)
	movapd	%xmm0, 2976(%rsp)
	movapd	%xmm0, 2992(%rsp)
	movapd	%xmm0, 3008(%rsp)
	movapd	%xmm0, 3024(%rsp)
	movapd	%xmm0, 3040(%rsp)
	movapd	%xmm0, 1888(%rsp)
	movapd	%xmm0, 1872(%rsp)
	movapd	%xmm0, 1856(%rsp)
	movapd	%xmm0, 1840(%rsp)
	movapd	%xmm0, 1824(%rsp)
	movapd	%xmm0, 1808(%rsp)
	movapd	%xmm0, 1792(%rsp)
	movapd	%xmm0, 1776(%rsp)
	movapd	%xmm0, 1760(%rsp)
	movapd	%xmm0, 1744(%rsp)
	movapd	%xmm0, 1728(%rsp)
	movapd	%xmm0, 1712(%rsp)
	movapd	%xmm0, 1696(%rsp)
	movapd	%xmm0, 1680(%rsp)
	movapd	%xmm0, 1664(%rsp)
	movapd	%xmm0, 1648(%rsp)
	leaq	3960(%rsp), %r15
	movl	$6144, %edx
	movq	%r15, %rdi
	xorl	%esi, %esi
	callq	memset@PLT
	xorpd	%xmm0, %xmm0
	movapd	%xmm0, 496(%rsp)
	movapd	%xmm0, 512(%rsp)
	movapd	%xmm0, 528(%rsp)
	movapd	%xmm0, 544(%rsp)
	movapd	%xmm0, 560(%rsp)
	movapd	%xmm0, 576(%rsp)
	movapd	%xmm0, 592(%rsp)
	movapd	%xmm0, 608(%rsp)
	movapd	%xmm0, 624(%rsp)
	movapd	%xmm0, 640(%rsp)
	movapd	%xmm0, 656(%rsp)
	movapd	%xmm0, 672(%rsp)
	movapd	%xmm0, 688(%rsp)
	movapd	%xmm0, 704(%rsp)
	movapd	%xmm0, 720(%rsp)
	movapd	%xmm0, 736(%rsp)
	leaq	2800(%rsp), %rax
	movq	%rax, 232(%rsp)
	movq	$256, 240(%rsp)
	leaq	1648(%rsp), %rax
	movq	%rax, 248(%rsp)
	movq	$256, 256(%rsp)
	movq	%r15, 264(%rsp)
	movq	$256, 272(%rsp)
	leaq	496(%rsp), %rax
	movq	%rax, 280(%rsp)
	movq	$256, 288(%rsp)
	leaq	448(%rsp), %rdi
	leaq	232(%rsp), %rcx
	movl	$256, %r8d
	movq	%r14, 392(%rsp)
	movq	%r14, %rsi
	movq	%rbx, %rdx
	callq	"algebra::lists::read_sum"
	movq	456(%rsp), %r9
	cmpb	$1, 448(%rsp)
	jne	.LBB23_4
	movzbl	449(%rsp), %eax
	cmpb	$11, %al
	je	.LBB23_155
.LBB23_316:
	movzbl	%al, %eax
	jmp	.LBB23_317
.LBB23_4:
	movzbl	464(%rsp), %eax
	movb	%al, 32(%rsp)
	xorpd	%xmm0, %xmm0
	movapd	%xmm0, 432(%rsp)
	movapd	%xmm0, 416(%rsp)
	movapd	%xmm0, 400(%rsp)
	movq	232(%rsp), %rsi
	movb	$1, 64(%rsi)
	movq	248(%rsp), %rdi
	movb	$0, 64(%rdi)
	movq	264(%rsp), %r8
	movabsq	$4607182418800017408, %rax
	movq	%rax, 1536(%r8)
	movq	%rax, 1544(%r8)
	movq	$0, 1552(%r8)
	subq	$-128, %r9
	cmpq	$129, %r9
	movq	%rbx, 296(%rsp)
	jb	.LBB23_89
	movsd	.LCPI23_0(%rip), %xmm0
	movsd	%xmm0, 136(%rsp)
	xorps	%xmm3, %xmm3
	movl	$128, %r11d
	xorl	%r10d, %r10d
	movq	%r9, 48(%rsp)
	movsd	%xmm3, 64(%rsp)
	jmp	.LBB23_11
.LBB23_89:
	xorl	%r10d, %r10d
	jmp	.LBB23_91
.LBB23_67:
	movq	48(%rsp), %r9
	movq	96(%rsp), %r11
	.p2align	4
.LBB23_9:
	movq	%rcx, %r10
	testb	%r13b, %r13b
	jne	.LBB23_315
.LBB23_10:
	addq	%r15, %r11
	cmpq	%r9, %r11
	jae	.LBB23_90
.LBB23_11:
	movq	232(%rsp), %rbx
	movq	248(%rsp), %r12
	movq	264(%rsp), %r14
	leaq	(,%r11,8), %rax
	leaq	(%rax,%rax,2), %rax
	movdqu	8(%r14,%rax), %xmm4
	movzbl	(%rbx,%r11), %edx
	movzbl	(%r12,%r11), %r15d
	incq	%r11
	cmpq	$1, %rdx
	movq	%r10, 40(%rsp)
	movq	%r12, 208(%rsp)
	jne	.LBB23_17
	movsd	(%r14,%rax), %xmm0
	addsd	.LCPI23_0(%rip), %xmm0
	movapd	%xmm0, %xmm1
	ucomisd	%xmm3, %xmm1
	jne	.LBB23_31
	jp	.LBB23_31
	movq	%r15, 80(%rsp)
	movq	%r11, 96(%rsp)
	movapd	%xmm4, %xmm0
	unpckhpd	%xmm4, %xmm0
	movq	240(%rsp), %rax
	movq	256(%rsp), %rcx
	movq	272(%rsp), %rdx
	movq	%rbx, 20904(%rsp)
	movq	%rax, 20912(%rsp)
	movq	%r12, 20920(%rsp)
	movq	%rcx, 20928(%rsp)
	movq	%r14, 20936(%rsp)
	movq	%rdx, 20944(%rsp)
	movw	$259, 176(%rsp)
	leaq	178(%rsp), %rax
	movw	$0, 4(%rax)
	movl	$0, (%rax)
	movabsq	$4613303445314885481, %rax
	movq	%rax, 184(%rsp)
	movaps	%xmm4, 112(%rsp)
	movupd	%xmm4, 192(%rsp)
	testq	%r10, %r10
	movapd	%xmm0, 304(%rsp)
	je	.LBB23_61
	xorl	%ebp, %ebp
	.p2align	4
.LBB23_15:
	leaq	(,%rbp,8), %rax
	leaq	(%rax,%rax,2), %r13
	movsd	16(%r14,%r13), %xmm0
	movzbl	(%rbx,%rbp), %eax
	movzbl	(%r12,%rbp), %r12d
	movb	%al, 144(%rsp)
	movb	%r12b, 145(%rsp)
	leaq	146(%rsp), %rax
	movw	$0, 4(%rax)
	movl	$0, (%rax)
	movupd	(%r14,%r13), %xmm1
	movupd	%xmm1, 152(%rsp)
	movsd	%xmm0, 168(%rsp)
	leaq	1(%rbp), %r15
	leaq	20904(%rsp), %rdi
	leaq	176(%rsp), %rsi
	leaq	144(%rsp), %rcx
	movl	$64, %edx
	movl	$4, %r9d
	movq	%r15, %r8
	callq	"sums::order::cmp_term"
	cmpb	$2, %al
	jne	.LBB23_57
	addq	%r12, %r15
	movq	%r15, %rbp
	cmpq	40(%rsp), %r15
	movq	208(%rsp), %r12
	jb	.LBB23_15
	jmp	.LBB23_62
	.p2align	4
.LBB23_17:
	movb	$6, %al
	cmpb	$5, %dl
	jb	.LBB23_315
	cmpb	$1, %r15b
	jne	.LBB23_315
	leaq	(%r11,%r11,2), %rcx
	movsd	(%r14,%rcx,8), %xmm0
	ucomisd	136(%rsp), %xmm0
	jne	.LBB23_315
	jp	.LBB23_315
	cmpb	$1, (%rbx,%r11)
	jne	.LBB23_315
	movq	%r15, 80(%rsp)
	movq	%r11, 96(%rsp)
	leal	(,%rdx,8), %ecx
	movabsq	$577874754439415559, %rax
	shrq	%cl, %rax
	cmpb	$8, %dl
	movl	$7, %esi
	cmovbl	%eax, %esi
	xorl	%eax, %eax
	cmpq	$5, %rdx
	sete	%al
	movdqa	.LCPI23_1(%rip), %xmm0
	pxor	%xmm4, %xmm0
	movd	%eax, %xmm1
	pshufd	$0, %xmm1, %xmm1
	pslld	$31, %xmm1
	psrad	$31, %xmm1
	pand	%xmm1, %xmm0
	pandn	%xmm4, %xmm1
	por	%xmm0, %xmm1
	movq	240(%rsp), %rax
	movq	256(%rsp), %rcx
	movq	272(%rsp), %rdx
	movq	%rbx, 20904(%rsp)
	movq	%rax, 20912(%rsp)
	movq	%r12, 20920(%rsp)
	movq	%rcx, 20928(%rsp)
	movq	%r14, 20936(%rsp)
	movq	%rdx, 20944(%rsp)
	movl	%esi, 304(%rsp)
	movb	%sil, 176(%rsp)
	movb	$1, 177(%rsp)
	leaq	178(%rsp), %rax
	movq	$0, 6(%rax)
	movq	$0, (%rax)
	movdqa	%xmm1, 112(%rsp)
	movdqu	%xmm1, 192(%rsp)
	testq	%r10, %r10
	je	.LBB23_51
	xorl	%r15d, %r15d
	.p2align	4
.LBB23_23:
	leaq	(,%r15,8), %rax
	leaq	(%rax,%rax,2), %r13
	movq	16(%r14,%r13), %xmm0
	movzbl	(%rbx,%r15), %eax
	movzbl	(%r12,%r15), %r12d
	movb	%al, 144(%rsp)
	movb	%r12b, 145(%rsp)
	leaq	146(%rsp), %rax
	movw	$0, 4(%rax)
	movl	$0, (%rax)
	movdqu	(%r14,%r13), %xmm1
	movdqu	%xmm1, 152(%rsp)
	movq	%xmm0, 168(%rsp)
	leaq	1(%r15), %rbp
	leaq	20904(%rsp), %rdi
	leaq	176(%rsp), %rsi
	leaq	144(%rsp), %rcx
	movl	$64, %edx
	movl	$4, %r9d
	movq	%rbp, %r8
	callq	"sums::order::cmp_term"
	cmpb	$2, %al
	jne	.LBB23_25
	addq	%r12, %rbp
	movq	%rbp, %r15
	cmpq	40(%rsp), %rbp
	movq	208(%rsp), %r12
	jb	.LBB23_23
	jmp	.LBB23_52
.LBB23_25:
	movzbl	%al, %eax
	movq	%r15, %rbp
	testl	%eax, %eax
	movq	208(%rsp), %r12
	je	.LBB23_52
	movapd	112(%rsp), %xmm0
	subpd	%xmm0, %xmm0
	movapd	%xmm0, %xmm1
	xorl	%ecx, %ecx
	movsd	64(%rsp), %xmm3
	ucomisd	%xmm3, %xmm1
	movb	$14, %al
	jne	.LBB23_78
	jp	.LBB23_78
	unpckhpd	%xmm0, %xmm0
	ucomisd	%xmm3, %xmm0
	movq	80(%rsp), %r15
	jne	.LBB23_60
	jp	.LBB23_60
.LBB23_29:
	movl	$64, %esi
	movl	$1, %edx
	movl	$3, %ecx
	movq	%r12, %rdi
	callq	"sums::order::nests_inside"
	testb	%al, %al
	je	.LBB23_79
	movapd	112(%rsp), %xmm0
	movupd	%xmm0, 8(%r14,%r13)
	xorl	%r13d, %r13d
	xorl	%eax, %eax
	movq	40(%rsp), %rcx
	jmp	.LBB23_69
.LBB23_31:
	xorl	%eax, %eax
	testq	%r10, %r10
	je	.LBB23_35
	.p2align	4
.LBB23_32:
	cmpb	$1, (%rbx,%rax)
	jne	.LBB23_35
	incq	%rax
	cmpq	%rax, %r10
	jne	.LBB23_32
	movq	%r10, %rax
.LBB23_35:
	movapd	%xmm0, %xmm2
	subsd	%xmm0, %xmm2
	ucomisd	%xmm3, %xmm2
	jne	.LBB23_309
	jp	.LBB23_309
	movapd	%xmm0, %xmm2
	unpcklpd	%xmm0, %xmm2
	divpd	%xmm2, %xmm4
	leaq	(%rax,%rax,2), %rcx
	leaq	8(,%rcx,8), %rsi
	.p2align	4
.LBB23_37:
	movq	%rax, %rdx
	movq	%rsi, %rcx
	subq	$1, %rax
	jb	.LBB23_40
	movsd	-32(%r14,%rcx), %xmm2
	ucomisd	%xmm2, %xmm1
	seta	%sil
	incb	%sil
	xorl	%r8d, %r8d
	ucomisd	%xmm1, %xmm2
	movzbl	%sil, %edi
	cmoval	%r8d, %edi
	leaq	-24(%rcx), %rsi
	testb	%dil, %dil
	je	.LBB23_37
	movzbl	%dil, %eax
	cmpl	$2, %eax
	jne	.LBB23_71
.LBB23_40:
	movapd	%xmm4, %xmm1
	subpd	%xmm4, %xmm1
	movapd	%xmm1, %xmm2
	ucomisd	%xmm3, %xmm2
	movb	$14, %al
	jne	.LBB23_315
	jp	.LBB23_315
	unpckhpd	%xmm1, %xmm1
	ucomisd	%xmm3, %xmm1
	jne	.LBB23_315
	jp	.LBB23_315
	leaq	1(%r10), %rax
	cmpq	$64, %rax
	ja	.LBB23_314
	cmpq	%rdx, %r10
	jbe	.LBB23_50
	movl	%r10d, %edi
	subl	%edx, %edi
	leaq	-1(%r10), %rsi
	testb	$1, %dil
	je	.LBB23_46
	movzbl	-1(%rbx,%r10), %edi
	movb	%dil, (%rbx,%r10)
	movzbl	-1(%r12,%r10), %edi
	movb	%dil, (%r12,%r10)
	leaq	(%r10,%r10,2), %rdi
	movq	-8(%r14,%rdi,8), %r8
	movq	%r8, 16(%r14,%rdi,8)
	movupd	-24(%r14,%rdi,8), %xmm1
	movupd	%xmm1, (%r14,%rdi,8)
	movq	%rsi, %r10
.LBB23_46:
	cmpq	%rdx, %rsi
	je	.LBB23_49
	leaq	(%r10,%r10,2), %rsi
	leaq	(%r14,%rsi,8), %rsi
	.p2align	4
.LBB23_48:
	movzbl	-1(%rbx,%r10), %edi
	movb	%dil, (%rbx,%r10)
	movzbl	-1(%r12,%r10), %edi
	movb	%dil, (%r12,%r10)
	movq	-8(%rsi), %rdi
	movq	%rdi, 16(%rsi)
	movups	-24(%rsi), %xmm1
	movups	%xmm1, (%rsi)
	movzbl	-2(%rbx,%r10), %edi
	movb	%dil, -1(%rbx,%r10)
	movzbl	-2(%r12,%r10), %edi
	movb	%dil, -1(%r12,%r10)
	addq	$-2, %r10
	movq	-32(%rsi), %r8
	movq	%r8, -8(%rsi)
	movupd	-48(%rsi), %xmm1
	movupd	%xmm1, -24(%rsi)
	addq	$-48, %rsi
	cmpq	%r10, %rdx
	jb	.LBB23_48
.LBB23_49:
	movq	232(%rsp), %rbx
.LBB23_50:
	movb	$1, (%rbx,%rdx)
	movq	248(%rsp), %rsi
	movb	$0, (%rsi,%rdx)
	movq	264(%rsp), %rdx
	movsd	%xmm0, -8(%rdx,%rcx)
	movupd	%xmm4, (%rdx,%rcx)
	movq	%rax, %r10
	jmp	.LBB23_10
.LBB23_51:
	xorl	%ebp, %ebp
.LBB23_52:
	movapd	112(%rsp), %xmm0
	subpd	%xmm0, %xmm0
	movapd	%xmm0, %xmm1
	xorl	%ecx, %ecx
	movsd	64(%rsp), %xmm3
	ucomisd	%xmm3, %xmm1
	movb	$14, %al
	movb	$1, %r13b
	jne	.LBB23_6
	jp	.LBB23_6
	unpckhpd	%xmm0, %xmm0
	ucomisd	%xmm3, %xmm0
	movq	80(%rsp), %r15
	jne	.LBB23_67
	jp	.LBB23_67
	movl	$64, %esi
	movl	$1, %edx
	movl	$3, %ecx
	movq	%r12, %rdi
	callq	"sums::order::nests_inside"
	testb	%al, %al
	je	.LBB23_68
	movq	40(%rsp), %rsi
	leaq	2(%rsi), %rcx
	cmpq	$64, %rcx
	movq	48(%rsp), %r9
	movq	96(%rsp), %r11
	jbe	.LBB23_74
	movb	$11, %al
	xorl	%ecx, %ecx
	movsd	64(%rsp), %xmm3
	jmp	.LBB23_9
.LBB23_57:
	movzbl	%al, %eax
	movq	%rbp, %r15
	testl	%eax, %eax
	movq	208(%rsp), %r12
	je	.LBB23_62
	movapd	112(%rsp), %xmm0
	subsd	%xmm0, %xmm0
	xorl	%ecx, %ecx
	movsd	64(%rsp), %xmm3
	ucomisd	%xmm3, %xmm0
	movb	$14, %al
	jne	.LBB23_78
	jp	.LBB23_78
	movapd	304(%rsp), %xmm0
	subsd	%xmm0, %xmm0
	ucomisd	%xmm3, %xmm0
	movq	80(%rsp), %r15
	jne	.LBB23_60
	jnp	.LBB23_29
.LBB23_60:
	movq	48(%rsp), %r9
	jmp	.LBB23_80
.LBB23_61:
	xorl	%r15d, %r15d
.LBB23_62:
	movapd	112(%rsp), %xmm0
	subsd	%xmm0, %xmm0
	xorl	%ecx, %ecx
	movsd	64(%rsp), %xmm3
	ucomisd	%xmm3, %xmm0
	movb	$14, %al
	movb	$1, %r13b
	jne	.LBB23_6
	jp	.LBB23_6
	movapd	304(%rsp), %xmm0
	subsd	%xmm0, %xmm0
	ucomisd	%xmm3, %xmm0
	jne	.LBB23_6
	jp	.LBB23_6
	movl	$64, %esi
	movl	$1, %edx
	movl	$3, %ecx
	movq	%r12, %rdi
	callq	"sums::order::nests_inside"
	testb	%al, %al
	je	.LBB23_70
	movq	40(%rsp), %rsi
	leaq	2(%rsi), %rcx
	cmpq	$64, %rcx
	movq	48(%rsp), %r9
	movq	96(%rsp), %r11
	jbe	.LBB23_81
	movb	$11, %al
	xorl	%ecx, %ecx
	movsd	64(%rsp), %xmm3
	jmp	.LBB23_8
	.p2align	4
.LBB23_6:
	movq	48(%rsp), %r9
	jmp	.LBB23_7
.LBB23_68:
	movb	$12, %al
	xorl	%ecx, %ecx
.LBB23_69:
	movq	48(%rsp), %r9
	movsd	64(%rsp), %xmm3
	movq	96(%rsp), %r11
	jmp	.LBB23_9
.LBB23_70:
	movb	$12, %al
	xorl	%ecx, %ecx
	movq	48(%rsp), %r9
	movsd	64(%rsp), %xmm3
.LBB23_7:
	movq	96(%rsp), %r11
.LBB23_8:
	movq	80(%rsp), %r15
	jmp	.LBB23_9
.LBB23_71:
	movapd	%xmm4, %xmm0
	subpd	%xmm4, %xmm0
	movapd	%xmm0, %xmm1
	ucomisd	%xmm3, %xmm1
	movb	$14, %al
	jne	.LBB23_315
	jp	.LBB23_315
	unpckhpd	%xmm0, %xmm0
	ucomisd	%xmm3, %xmm0
	jne	.LBB23_315
	jp	.LBB23_315
	movupd	%xmm4, (%r14,%rsi)
	jmp	.LBB23_10
.LBB23_74:
	cmpq	%rsi, %rbp
	jae	.LBB23_85
	leaq	(%rsi,%rsi,2), %rax
	leaq	(%r14,%rax,8), %rax
	addq	$24, %rax
	movl	304(%rsp), %edi
	.p2align	4
.LBB23_76:
	movzbl	-1(%rbx,%rsi), %edx
	movb	%dl, 1(%rbx,%rsi)
	movzbl	-1(%r12,%rsi), %edx
	movb	%dl, 1(%r12,%rsi)
	leaq	-1(%rsi), %rdx
	movq	-32(%rax), %rsi
	movq	%rsi, 16(%rax)
	movupd	-48(%rax), %xmm0
	movupd	%xmm0, (%rax)
	addq	$-24, %rax
	cmpq	%rdx, %rbp
	movq	%rdx, %rsi
	jb	.LBB23_76
	movq	232(%rsp), %rbx
	movsd	64(%rsp), %xmm3
	jmp	.LBB23_86
.LBB23_78:
	movq	48(%rsp), %r9
	movq	96(%rsp), %r11
	movq	80(%rsp), %r15
	movb	$1, %r13b
	jmp	.LBB23_9
.LBB23_79:
	movb	$12, %al
	xorl	%ecx, %ecx
	movq	48(%rsp), %r9
	movsd	64(%rsp), %xmm3
.LBB23_80:
	movq	96(%rsp), %r11
	movb	$1, %r13b
	jmp	.LBB23_9
.LBB23_81:
	cmpq	%rsi, %r15
	jae	.LBB23_87
	leaq	(%rsi,%rsi,2), %rax
	leaq	(%r14,%rax,8), %rax
	addq	$24, %rax
	movapd	112(%rsp), %xmm1
	.p2align	4
.LBB23_83:
	movzbl	-1(%rbx,%rsi), %edx
	movb	%dl, 1(%rbx,%rsi)
	movzbl	-1(%r12,%rsi), %edx
	movb	%dl, 1(%r12,%rsi)
	leaq	-1(%rsi), %rdx
	movq	-32(%rax), %rsi
	movq	%rsi, 16(%rax)
	movupd	-48(%rax), %xmm0
	movupd	%xmm0, (%rax)
	addq	$-24, %rax
	cmpq	%rdx, %r15
	movq	%rdx, %rsi
	jb	.LBB23_83
	movq	232(%rsp), %rbx
	movsd	64(%rsp), %xmm3
	jmp	.LBB23_88
.LBB23_85:
	movsd	64(%rsp), %xmm3
	movl	304(%rsp), %edi
.LBB23_86:
	movb	%dil, (%rbx,%rbp)
	movq	248(%rsp), %rax
	movb	$1, (%rax,%rbp)
	leaq	(,%rbp,8), %rax
	leaq	(%rax,%rax,2), %rax
	movq	264(%rsp), %rdx
	movq	$0, (%rdx,%rax)
	movaps	112(%rsp), %xmm0
	movups	%xmm0, 8(%rdx,%rax)
	movq	232(%rsp), %rdx
	movq	248(%rsp), %rsi
	movq	264(%rsp), %rdi
	movzbl	64(%rdx), %r8d
	movb	%r8b, 1(%rdx,%rbp)
	movzbl	64(%rsi), %edx
	movb	%dl, 1(%rsi,%rbp)
	movupd	1536(%rdi), %xmm0
	movq	1552(%rdi), %rdx
	movq	%rdx, 40(%rdi,%rax)
	movupd	%xmm0, 24(%rdi,%rax)
	xorl	%r13d, %r13d
	xorl	%eax, %eax
	jmp	.LBB23_9
.LBB23_87:
	movsd	64(%rsp), %xmm3
	movapd	112(%rsp), %xmm1
.LBB23_88:
	movb	$3, (%rbx,%r15)
	movq	248(%rsp), %rax
	movb	$1, (%rax,%r15)
	leaq	(,%r15,8), %rax
	leaq	(%rax,%rax,2), %rax
	movq	264(%rsp), %rdx
	movabsq	$4613303445314885481, %rsi
	movq	%rsi, (%rdx,%rax)
	movupd	%xmm1, 8(%rdx,%rax)
	movq	232(%rsp), %rdx
	movq	248(%rsp), %rsi
	movq	264(%rsp), %rdi
	movzbl	64(%rdx), %r8d
	movb	%r8b, 1(%rdx,%r15)
	movzbl	64(%rsi), %edx
	movb	%dl, 1(%rsi,%r15)
	movupd	1536(%rdi), %xmm0
	movq	1552(%rdi), %rdx
	movq	%rdx, 40(%rdi,%rax)
	movupd	%xmm0, 24(%rdi,%rax)
	xorl	%r13d, %r13d
	xorl	%eax, %eax
	jmp	.LBB23_8
.LBB23_90:
	movq	232(%rsp), %rsi
	movq	248(%rsp), %rdi
	movq	264(%rsp), %r8
	movq	296(%rsp), %rbx
.LBB23_91:
	movq	240(%rsp), %rax
	movq	256(%rsp), %rcx
	movq	272(%rsp), %rdx
	movq	%rsi, 48(%rsp)
	movq	%rsi, 400(%rsp)
	movq	%rax, 408(%rsp)
	movq	%rdi, 112(%rsp)
	movq	%rdi, 416(%rsp)
	movq	%rcx, 424(%rsp)
	movq	%r8, 136(%rsp)
	movq	%r8, 432(%rsp)
	movq	%rdx, 440(%rsp)
	movzbl	32(%rsp), %eax
	movl	%eax, 304(%rsp)
	cmpq	$16, %r10
	movq	%r10, %r14
	movq	%r10, 40(%rsp)
	ja	.LBB23_117
	leaq	20904(%rsp), %rdi
	movl	$4272, %edx
	xorl	%esi, %esi
	callq	memset@PLT
	testq	%r14, %r14
	je	.LBB23_145
	movq	%r14, %r9
	leaq	178(%rsp), %r12
	xorpd	%xmm2, %xmm2
	movsd	.LCPI23_0(%rip), %xmm3
	movsd	.LCPI23_2(%rip), %xmm0
	movsd	%xmm0, 384(%rsp)
	movsd	.LCPI23_3(%rip), %xmm0
	movsd	%xmm0, 376(%rsp)
	movl	$32, %r8d
	xorl	%r13d, %r13d
	movl	$32, %ecx
	xorl	%ebp, %ebp
	movq	48(%rsp), %r10
	movq	112(%rsp), %r11
	movq	136(%rsp), %r14
	movsd	%xmm2, 328(%rsp)
	movsd	%xmm3, 320(%rsp)
	jmp	.LBB23_96
	.p2align	4
.LBB23_94:
	movq	48(%rsp), %r10
	movq	112(%rsp), %r11
	movq	136(%rsp), %r14
.LBB23_95:
	cmpneqsd	%xmm2, %xmm6
	cmpneqsd	%xmm2, %xmm5
	orpd	%xmm6, %xmm5
	movd	%xmm5, %eax
	cmpb	$1, %r15b
	sete	%dl
	ucomisd	%xmm3, %xmm4
	setnp	%sil
	sete	%dil
	andb	%sil, %dil
	andb	%dl, %dil
	andb	%al, %dil
	orb	%dil, %r13b
	addq	%rbx, %rbp
	cmpq	%r9, %rbp
	jae	.LBB23_147
.LBB23_96:
	leaq	(,%rbp,2), %rax
	addq	%rbp, %rax
	movsd	16(%r14,%rax,8), %xmm1
	movzbl	(%r10,%rbp), %r15d
	movzbl	(%r11,%rbp), %ebx
	incq	%rbp
	movb	%r15b, 176(%rsp)
	movb	%bl, 177(%rsp)
	movw	$0, 4(%r12)
	movl	$0, (%r12)
	movupd	(%r14,%rax,8), %xmm4
	movapd	%xmm4, %xmm7
	unpckhpd	%xmm4, %xmm7
	movupd	%xmm4, 184(%rsp)
	movsd	%xmm1, 200(%rsp)
	xorpd	%xmm0, %xmm0
	movapd	%xmm0, 144(%rsp)
	movq	$0, 160(%rsp)
	movapd	%xmm7, %xmm5
	ucomisd	%xmm2, %xmm5
	movapd	%xmm1, %xmm6
	jne	.LBB23_99
	jp	.LBB23_99
	ucomisd	%xmm2, %xmm6
	jne	.LBB23_99
	jp	.LBB23_99
	jmp	.LBB23_95
	.p2align	4
.LBB23_99:
	cmpq	%rcx, %r8
	setne	%r14b
	orb	%r13b, %r14b
	testb	$1, %r14b
	movapd	%xmm4, 208(%rsp)
	movapd	%xmm5, 96(%rsp)
	movapd	%xmm6, 80(%rsp)
	movsd	%xmm1, 64(%rsp)
	movapd	%xmm7, 336(%rsp)
	je	.LBB23_102
	cmpq	%rcx, %r8
	je	.LBB23_103
	leaq	-2(%rcx), %rax
	movl	%r8d, %edx
	subl	%ecx, %edx
	leal	1(%rdx), %esi
	leaq	(%rcx,%rcx,2), %rcx
	movl	$774, 20856(%rsp,%rcx,8)
	movl	%esi, 20860(%rsp,%rcx,8)
	movupd	%xmm0, 20864(%rsp,%rcx,8)
	movl	$65543, 20880(%rsp,%rcx,8)
	movl	%edx, 20884(%rsp,%rcx,8)
	movupd	%xmm0, 20888(%rsp,%rcx,8)
	jmp	.LBB23_104
	.p2align	4
.LBB23_102:
	movq	%r8, %rax
	jmp	.LBB23_104
.LBB23_103:
	leaq	(%r8,%r8,2), %rcx
	movw	$773, 20904(%rsp,%rcx,8)
	movq	%r8, %rax
	incq	%r8
	movupd	%xmm0, 20906(%rsp,%rcx,8)
	movq	$0, 20920(%rsp,%rcx,8)
.LBB23_104:
	movq	%r8, 16(%rsp)
	movq	%rax, 8(%rsp)
	leaq	20904(%rsp), %rax
	movq	%rax, (%rsp)
	movl	304(%rsp), %r8d
	andl	$1, %r8d
	leaq	144(%rsp), %rdi
	leaq	400(%rsp), %rsi
	leaq	176(%rsp), %rdx
	movl	$3, %r9d
	movq	%rbp, %rcx
	callq	"writing::write_term"
	cmpb	$0, 144(%rsp)
	jne	.LBB23_144
	movq	152(%rsp), %rcx
	movq	160(%rsp), %r8
	cmpb	$1, %r15b
	setne	%al
	movaps	208(%rsp), %xmm4
	movsd	328(%rsp), %xmm2
	ucomisd	%xmm2, %xmm4
	setp	%sil
	setne	%dl
	movapd	80(%rsp), %xmm6
	movapd	%xmm6, %xmm0
	cmpeqsd	%xmm2, %xmm0
	movapd	96(%rsp), %xmm5
	movapd	%xmm5, %xmm1
	movsd	320(%rsp), %xmm3
	cmpeqsd	%xmm3, %xmm1
	andpd	%xmm0, %xmm1
	movd	%xmm1, %edi
	testb	$1, %dil
	jne	.LBB23_110
	orb	%sil, %dl
	orb	%al, %dl
	movq	40(%rsp), %r9
	je	.LBB23_115
	movapd	336(%rsp), %xmm7
	movapd	%xmm7, %xmm0
	subsd	%xmm7, %xmm0
	testb	$1, 32(%rsp)
	je	.LBB23_111
	ucomisd	%xmm2, %xmm0
	movb	$14, %al
	movsd	64(%rsp), %xmm1
	jne	.LBB23_305
	jp	.LBB23_305
	movapd	%xmm1, %xmm0
	subsd	%xmm1, %xmm0
	movb	$2, %dl
	ucomisd	%xmm2, %xmm0
	jne	.LBB23_305
	jnp	.LBB23_114
	jmp	.LBB23_305
.LBB23_110:
	movq	40(%rsp), %r9
	jmp	.LBB23_115
.LBB23_111:
	ucomisd	%xmm2, %xmm0
	movb	$14, %al
	movsd	64(%rsp), %xmm1
	jne	.LBB23_305
	jp	.LBB23_305
	ucomisd	384(%rsp), %xmm6
	jbe	.LBB23_305
	movb	$1, %dl
	movsd	376(%rsp), %xmm0
	ucomisd	%xmm6, %xmm0
	jbe	.LBB23_305
.LBB23_114:
	movq	%xmm1, %rax
	xorl	%esi, %esi
	testb	$1, 32(%rsp)
	cmovneq	%rax, %rsi
	leaq	(%r8,%r8,2), %rax
	movb	%dl, 20904(%rsp,%rax,8)
	movl	$0, 20905(%rsp,%rax,8)
	movl	$0, 20908(%rsp,%rax,8)
	movsd	%xmm7, 20912(%rsp,%rax,8)
	movq	%rsi, 20920(%rsp,%rax,8)
	movw	$2565, 20928(%rsp,%rax,8)
	addq	$2, %r8
	xorpd	%xmm0, %xmm0
	movupd	%xmm0, 20930(%rsp,%rax,8)
	movq	$0, 20944(%rsp,%rax,8)
.LBB23_115:
	testb	$1, %r14b
	je	.LBB23_94
	leaq	(%r8,%r8,2), %rax
	movw	$2053, 20904(%rsp,%rax,8)
	incq	%r8
	xorpd	%xmm0, %xmm0
	movupd	%xmm0, 20906(%rsp,%rax,8)
	movq	$0, 20920(%rsp,%rax,8)
	jmp	.LBB23_94
.LBB23_117:
	leaq	178(%rsp), %r12
	xorpd	%xmm0, %xmm0
	movsd	%xmm0, 328(%rsp)
	movsd	.LCPI23_0(%rip), %xmm0
	movsd	%xmm0, 320(%rsp)
	movsd	.LCPI23_2(%rip), %xmm0
	movsd	%xmm0, 384(%rsp)
	movsd	.LCPI23_3(%rip), %xmm0
	movsd	%xmm0, 376(%rsp)
	leaq	20904(%rsp), %rdi
	xorl	%r13d, %r13d
	movl	$16944, %edx
	xorl	%esi, %esi
	callq	memset@PLT
	movsd	320(%rsp), %xmm3
	movsd	328(%rsp), %xmm2
	movl	$128, %r8d
	movl	$128, %ecx
	xorl	%ebp, %ebp
	movq	%r14, %r9
	movq	48(%rsp), %r10
	movq	112(%rsp), %r11
	movq	136(%rsp), %r14
	jmp	.LBB23_120
	.p2align	4
.LBB23_118:
	movq	48(%rsp), %r10
	movq	112(%rsp), %r11
	movq	136(%rsp), %r14
.LBB23_119:
	cmpneqsd	%xmm2, %xmm6
	cmpneqsd	%xmm2, %xmm5
	orpd	%xmm6, %xmm5
	movd	%xmm5, %eax
	cmpb	$1, %r15b
	sete	%dl
	ucomisd	%xmm3, %xmm4
	setnp	%sil
	sete	%dil
	andb	%sil, %dil
	andb	%dl, %dil
	andb	%al, %dil
	orb	%dil, %r13b
	addq	%rbx, %rbp
	cmpq	%r9, %rbp
	jae	.LBB23_141
.LBB23_120:
	leaq	(,%rbp,2), %rax
	addq	%rbp, %rax
	movsd	16(%r14,%rax,8), %xmm1
	movzbl	(%r10,%rbp), %r15d
	movzbl	(%r11,%rbp), %ebx
	incq	%rbp
	movb	%r15b, 176(%rsp)
	movb	%bl, 177(%rsp)
	movw	$0, 4(%r12)
	movl	$0, (%r12)
	movupd	(%r14,%rax,8), %xmm4
	movapd	%xmm4, %xmm7
	unpckhpd	%xmm4, %xmm7
	movupd	%xmm4, 184(%rsp)
	movsd	%xmm1, 200(%rsp)
	xorpd	%xmm0, %xmm0
	movapd	%xmm0, 144(%rsp)
	movq	$0, 160(%rsp)
	movapd	%xmm7, %xmm5
	ucomisd	%xmm2, %xmm5
	movapd	%xmm1, %xmm6
	jne	.LBB23_123
	jp	.LBB23_123
	ucomisd	%xmm2, %xmm6
	jne	.LBB23_123
	jp	.LBB23_123
	jmp	.LBB23_119
	.p2align	4
.LBB23_123:
	cmpq	%rcx, %r8
	setne	%r14b
	orb	%r13b, %r14b
	testb	$1, %r14b
	movapd	%xmm4, 208(%rsp)
	movapd	%xmm5, 96(%rsp)
	movapd	%xmm6, 80(%rsp)
	movsd	%xmm1, 336(%rsp)
	movapd	%xmm7, 64(%rsp)
	je	.LBB23_126
	cmpq	%rcx, %r8
	je	.LBB23_127
	leaq	-2(%rcx), %rax
	movl	%r8d, %edx
	subl	%ecx, %edx
	leal	1(%rdx), %esi
	leaq	(%rcx,%rcx,2), %rcx
	movl	$774, 20856(%rsp,%rcx,8)
	movl	%esi, 20860(%rsp,%rcx,8)
	movupd	%xmm0, 20864(%rsp,%rcx,8)
	movl	$65543, 20880(%rsp,%rcx,8)
	movl	%edx, 20884(%rsp,%rcx,8)
	movupd	%xmm0, 20888(%rsp,%rcx,8)
	jmp	.LBB23_128
	.p2align	4
.LBB23_126:
	movq	%r8, %rax
	jmp	.LBB23_128
.LBB23_127:
	leaq	(%r8,%r8,2), %rcx
	movw	$773, 20904(%rsp,%rcx,8)
	movq	%r8, %rax
	incq	%r8
	movupd	%xmm0, 20906(%rsp,%rcx,8)
	movq	$0, 20920(%rsp,%rcx,8)
.LBB23_128:
	movq	%r8, 16(%rsp)
	movq	%rax, 8(%rsp)
	leaq	20904(%rsp), %rax
	movq	%rax, (%rsp)
	movl	304(%rsp), %r8d
	andl	$1, %r8d
	leaq	144(%rsp), %rdi
	leaq	400(%rsp), %rsi
	leaq	176(%rsp), %rdx
	movl	$3, %r9d
	movq	%rbp, %rcx
	callq	"writing::write_term"
	cmpb	$0, 144(%rsp)
	jne	.LBB23_144
	movq	152(%rsp), %rcx
	movq	160(%rsp), %r8
	cmpb	$1, %r15b
	setne	%al
	movaps	208(%rsp), %xmm4
	movsd	328(%rsp), %xmm2
	ucomisd	%xmm2, %xmm4
	setp	%sil
	setne	%dl
	movapd	80(%rsp), %xmm6
	movapd	%xmm6, %xmm0
	cmpeqsd	%xmm2, %xmm0
	movapd	96(%rsp), %xmm5
	movapd	%xmm5, %xmm1
	movsd	320(%rsp), %xmm3
	cmpeqsd	%xmm3, %xmm1
	andpd	%xmm0, %xmm1
	movd	%xmm1, %edi
	testb	$1, %dil
	movapd	64(%rsp), %xmm7
	jne	.LBB23_134
	orb	%sil, %dl
	orb	%al, %dl
	movq	40(%rsp), %r9
	je	.LBB23_139
	testb	$1, 32(%rsp)
	je	.LBB23_135
	movapd	%xmm7, %xmm0
	subsd	%xmm7, %xmm0
	ucomisd	%xmm2, %xmm0
	movb	$14, %al
	movsd	336(%rsp), %xmm1
	jne	.LBB23_305
	jp	.LBB23_305
	movapd	%xmm1, %xmm0
	subsd	%xmm1, %xmm0
	movb	$2, %dl
	ucomisd	%xmm2, %xmm0
	jne	.LBB23_305
	jnp	.LBB23_138
	jmp	.LBB23_305
.LBB23_134:
	movq	40(%rsp), %r9
	jmp	.LBB23_139
.LBB23_135:
	movapd	%xmm7, %xmm0
	subsd	%xmm7, %xmm0
	ucomisd	%xmm2, %xmm0
	movb	$14, %al
	movsd	336(%rsp), %xmm1
	jne	.LBB23_305
	jp	.LBB23_305
	ucomisd	384(%rsp), %xmm6
	jbe	.LBB23_305
	movb	$1, %dl
	movsd	376(%rsp), %xmm0
	ucomisd	%xmm6, %xmm0
	jbe	.LBB23_305
.LBB23_138:
	movq	%xmm1, %rax
	xorl	%esi, %esi
	testb	$1, 32(%rsp)
	cmovneq	%rax, %rsi
	leaq	(%r8,%r8,2), %rax
	movb	%dl, 20904(%rsp,%rax,8)
	movl	$0, 20905(%rsp,%rax,8)
	movl	$0, 20908(%rsp,%rax,8)
	movsd	%xmm7, 20912(%rsp,%rax,8)
	movq	%rsi, 20920(%rsp,%rax,8)
	movw	$2565, 20928(%rsp,%rax,8)
	addq	$2, %r8
	xorpd	%xmm0, %xmm0
	movupd	%xmm0, 20930(%rsp,%rax,8)
	movq	$0, 20944(%rsp,%rax,8)
.LBB23_139:
	testb	$1, %r14b
	je	.LBB23_118
	leaq	(%r8,%r8,2), %rax
	movw	$2053, 20904(%rsp,%rax,8)
	incq	%r8
	xorpd	%xmm0, %xmm0
	movupd	%xmm0, 20906(%rsp,%rax,8)
	movq	$0, 20920(%rsp,%rax,8)
	jmp	.LBB23_118
.LBB23_141:
	leaq	(%rcx,%rcx,2), %rsi
	cmpq	%r8, %rcx
	jne	.LBB23_303
	leaq	(%rsp,%rsi,8), %rax
	addq	$20904, %rax
	testb	$1, %r13b
	je	.LBB23_302
	movw	$261, (%rax)
	leaq	1(%rcx), %r8
	xorpd	%xmm0, %xmm0
	movupd	%xmm0, 2(%rax)
	movq	$0, 16(%rax)
	jmp	.LBB23_303
.LBB23_144:
	movzbl	145(%rsp), %eax
	jmp	.LBB23_305
.LBB23_145:
	leaq	21672(%rsp), %rax
	movl	$32, %ecx
	leaq	21673(%rsp), %rdx
.LBB23_146:
	movb	$1, (%rax)
	xorpd	%xmm0, %xmm0
	movupd	%xmm0, (%rdx)
	movq	$0, 15(%rdx)
	movw	$2565, 24(%rax)
	leaq	2(%rcx), %r8
	movupd	%xmm0, 26(%rax)
	movq	$0, 40(%rax)
	jmp	.LBB23_151
.LBB23_147:
	cmpq	%r8, %rcx
	jne	.LBB23_150
	leaq	(%rcx,%rcx,2), %rdx
	leaq	(%rsp,%rdx,8), %rax
	addq	$20904, %rax
	testb	$1, %r13b
	je	.LBB23_310
	movw	$261, (%rax)
	leaq	1(%rcx), %r8
	xorpd	%xmm0, %xmm0
	movupd	%xmm0, 2(%rax)
	movq	$0, 16(%rax)
.LBB23_150:
	movq	296(%rsp), %rbx
.LBB23_151:
	movabsq	$-6148914691236517205, %rdx
	movq	368(%rsp), %rax
	mulq	%rdx
	subq	%rcx, %r8
	shrq	$4, %rdx
	cmpq	%r8, %rdx
	jae	.LBB23_153
	movb	$16, %al
	movb	$1, %cl
	xorl	%edx, %edx
	xorl	%r9d, %r9d
	testb	%cl, %cl
	jne	.LBB23_154
.LBB23_308:
	xorl	%eax, %eax
	jmp	.LBB23_318
.LBB23_153:
	leaq	(%rcx,%rcx,2), %rax
	leaq	(,%r8,8), %rcx
	leaq	(%rcx,%rcx,2), %rdx
	leaq	(%rsp,%rax,8), %rsi
	addq	$20904, %rsi
	movq	360(%rsp), %rdi
	movq	%r8, %r14
	callq	memcpy@PLT
	movq	%r14, %rdx
	xorl	%ecx, %ecx
	xorl	%eax, %eax
	xorl	%r9d, %r9d
	testb	%cl, %cl
	jne	.LBB23_154
	jmp	.LBB23_308
.LBB23_302:
	leaq	(%rsp,%rsi,8), %rdx
	addq	$20905, %rdx
	movb	$1, (%rax)
	xorpd	%xmm0, %xmm0
	movupd	%xmm0, (%rdx)
	movq	$0, 15(%rdx)
	movw	$2565, 24(%rax)
	leaq	2(%rcx), %r8
	movupd	%xmm0, 26(%rax)
	movq	$0, 40(%rax)
.LBB23_303:
	movabsq	$-6148914691236517205, %rdx
	movq	368(%rsp), %rax
	mulq	%rdx
	subq	%rcx, %r8
	shrq	$4, %rdx
	cmpq	%r8, %rdx
	jae	.LBB23_306
	movb	$16, %al
.LBB23_305:
	movb	$1, %cl
	xorl	%edx, %edx
	movq	296(%rsp), %rbx
	xorl	%r9d, %r9d
	testb	%cl, %cl
	jne	.LBB23_154
	jmp	.LBB23_308
.LBB23_306:
	leaq	(,%r8,8), %rax
	leaq	(%rax,%rax,2), %rdx
	leaq	(%rsp,%rsi,8), %rsi
	addq	$20904, %rsi
	movq	360(%rsp), %rdi
	movq	%r8, %rbx
	callq	memcpy@PLT
	movq	%rbx, %rdx
	xorl	%ecx, %ecx
	xorl	%eax, %eax
	movq	296(%rsp), %rbx
	xorl	%r9d, %r9d
	testb	%cl, %cl
	je	.LBB23_308
.LBB23_154:
	cmpb	$11, %al
	jne	.LBB23_316
.LBB23_155:
	xorpd	%xmm0, %xmm0
	movapd	%xmm0, 464(%rsp)
	movapd	%xmm0, 448(%rsp)
	movl	$1152, %edx
	leaq	2800(%rsp), %r14
	movq	%r14, %rdi
	xorl	%esi, %esi
	callq	memset@PLT
	movl	$1152, %edx
	leaq	1648(%rsp), %r12
	movq	%r12, %rdi
	xorl	%esi, %esi
	callq	memset@PLT
	leaq	20904(%rsp), %r15
	movl	$27648, %edx
	movq	%r15, %rdi
	xorl	%esi, %esi
	callq	memset@PLT
	movl	$1152, %edx
	leaq	496(%rsp), %r13
	movq	%r13, %rdi
	xorl	%esi, %esi
	callq	memset@PLT
	movq	%r14, 232(%rsp)
	movq	$1152, 240(%rsp)
	movq	%r12, 248(%rsp)
	movq	$1152, 256(%rsp)
	movq	%r15, 264(%rsp)
	movq	$1152, 272(%rsp)
	movq	%r13, 280(%rsp)
	movq	$1152, 288(%rsp)
	leaq	448(%rsp), %rdi
	leaq	232(%rsp), %rcx
	movl	$1152, %r8d
	movq	392(%rsp), %rsi
	movq	%rbx, %rdx
	callq	"algebra::lists::read_sum"
	movq	456(%rsp), %r9
	cmpb	$1, 448(%rsp)
	jne	.LBB23_157
	movzbl	449(%rsp), %ecx
	movzbl	%cl, %eax
	jmp	.LBB23_317
.LBB23_157:
	movzbl	464(%rsp), %r13d
	xorpd	%xmm0, %xmm0
	movapd	%xmm0, 432(%rsp)
	movapd	%xmm0, 416(%rsp)
	movapd	%xmm0, 400(%rsp)
	movq	232(%rsp), %r14
	movb	$1, 64(%r14)
	movq	248(%rsp), %rsi
	movb	$0, 64(%rsi)
	movq	264(%rsp), %rdi
	movabsq	$4607182418800017408, %rax
	movq	%rax, 1536(%rdi)
	movq	%rax, 1544(%rdi)
	movq	$0, 1552(%rdi)
	subq	$-128, %r9
	cmpq	$129, %r9
	jb	.LBB23_159
	movsd	.LCPI23_0(%rip), %xmm0
	movsd	%xmm0, 136(%rsp)
	xorpd	%xmm3, %xmm3
	movl	$128, %r11d
	xorl	%r10d, %r10d
	movq	%r9, 48(%rsp)
	movb	%r13b, 96(%rsp)
	movsd	%xmm3, 32(%rsp)
	jmp	.LBB23_164
.LBB23_221:
	movq	48(%rsp), %r9
	movzbl	96(%rsp), %r13d
	movq	80(%rsp), %r11
	movq	64(%rsp), %r15
	.p2align	4
.LBB23_162:
	movq	%rax, %r10
	testb	%bpl, %bpl
	jne	.LBB23_322
.LBB23_163:
	addq	%r15, %r11
	cmpq	%r9, %r11
	jae	.LBB23_241
.LBB23_164:
	movq	232(%rsp), %rbx
	movq	248(%rsp), %r12
	movq	264(%rsp), %r14
	leaq	(,%r11,8), %rax
	leaq	(%rax,%rax,2), %rcx
	movdqu	8(%r14,%rcx), %xmm4
	movzbl	(%rbx,%r11), %eax
	movzbl	(%r12,%r11), %r15d
	incq	%r11
	cmpq	$1, %rax
	movq	%r10, 40(%rsp)
	jne	.LBB23_170
	movsd	(%r14,%rcx), %xmm0
	addsd	.LCPI23_0(%rip), %xmm0
	movapd	%xmm0, %xmm1
	ucomisd	%xmm3, %xmm1
	jne	.LBB23_183
	jp	.LBB23_183
	movq	%r15, 64(%rsp)
	movq	%r11, 80(%rsp)
	movapd	%xmm4, %xmm0
	unpckhpd	%xmm4, %xmm0
	movapd	%xmm0, 304(%rsp)
	movq	240(%rsp), %rax
	movq	256(%rsp), %rcx
	movq	272(%rsp), %rdx
	movq	%rbx, 3960(%rsp)
	movq	%rax, 3968(%rsp)
	movq	%r12, 208(%rsp)
	movq	%r12, 3976(%rsp)
	movq	%rcx, 3984(%rsp)
	movq	%r14, 3992(%rsp)
	movq	%rdx, 4000(%rsp)
	movw	$259, 176(%rsp)
	leaq	178(%rsp), %rax
	movw	$0, 4(%rax)
	movl	$0, (%rax)
	movabsq	$4613303445314885481, %rax
	movq	%rax, 184(%rsp)
	movaps	%xmm4, 112(%rsp)
	movupd	%xmm4, 192(%rsp)
	testq	%r10, %r10
	je	.LBB23_214
	xorl	%r12d, %r12d
	.p2align	4
.LBB23_168:
	leaq	(,%r12,8), %rax
	leaq	(%rax,%rax,2), %rbp
	movsd	16(%r14,%rbp), %xmm0
	movzbl	(%rbx,%r12), %eax
	movq	208(%rsp), %rcx
	movzbl	(%rcx,%r12), %r13d
	movb	%al, 144(%rsp)
	movb	%r13b, 145(%rsp)
	leaq	146(%rsp), %rax
	movw	$0, 4(%rax)
	movl	$0, (%rax)
	movupd	(%r14,%rbp), %xmm1
	movupd	%xmm1, 152(%rsp)
	movsd	%xmm0, 168(%rsp)
	leaq	1(%r12), %r15
	leaq	3960(%rsp), %rdi
	leaq	176(%rsp), %rsi
	leaq	144(%rsp), %rcx
	movl	$64, %edx
	movl	$4, %r9d
	movq	%r15, %r8
	callq	"sums::order::cmp_term"
	cmpb	$2, %al
	jne	.LBB23_209
	addq	%r13, %r15
	movq	%r15, %r12
	cmpq	40(%rsp), %r15
	jb	.LBB23_168
	jmp	.LBB23_215
	.p2align	4
.LBB23_170:
	movb	$6, %cl
	cmpb	$5, %al
	jb	.LBB23_322
	cmpb	$1, %r15b
	jne	.LBB23_322
	leaq	(%r11,%r11,2), %rdx
	movsd	(%r14,%rdx,8), %xmm0
	ucomisd	136(%rsp), %xmm0
	jne	.LBB23_322
	jp	.LBB23_322
	cmpb	$1, (%rbx,%r11)
	jne	.LBB23_322
	movq	%r15, 64(%rsp)
	movq	%r11, 80(%rsp)
	leal	(,%rax,8), %ecx
	movabsq	$577874754439415559, %rdx
	shrq	%cl, %rdx
	cmpb	$8, %al
	movl	$7, %esi
	cmovbl	%edx, %esi
	xorl	%ecx, %ecx
	cmpq	$5, %rax
	sete	%cl
	movdqa	.LCPI23_1(%rip), %xmm0
	pxor	%xmm4, %xmm0
	movd	%ecx, %xmm1
	pshufd	$0, %xmm1, %xmm1
	pslld	$31, %xmm1
	psrad	$31, %xmm1
	pand	%xmm1, %xmm0
	pandn	%xmm4, %xmm1
	por	%xmm0, %xmm1
	movq	240(%rsp), %rax
	movq	256(%rsp), %rcx
	movq	272(%rsp), %rdx
	movq	%rbx, 3960(%rsp)
	movq	%rax, 3968(%rsp)
	movq	%r12, 208(%rsp)
	movq	%r12, 3976(%rsp)
	movq	%rcx, 3984(%rsp)
	movq	%r14, 3992(%rsp)
	movq	%rdx, 4000(%rsp)
	movl	%esi, 304(%rsp)
	movb	%sil, 176(%rsp)
	movb	$1, 177(%rsp)
	leaq	178(%rsp), %rax
	movq	$0, 6(%rax)
	movq	$0, (%rax)
	movdqa	%xmm1, 112(%rsp)
	movdqu	%xmm1, 192(%rsp)
	testq	%r10, %r10
	je	.LBB23_203
	xorl	%r15d, %r15d
	.p2align	4
.LBB23_176:
	leaq	(,%r15,8), %rax
	leaq	(%rax,%rax,2), %rbp
	movq	16(%r14,%rbp), %xmm0
	movzbl	(%rbx,%r15), %eax
	movq	208(%rsp), %rcx
	movzbl	(%rcx,%r15), %r13d
	movb	%al, 144(%rsp)
	movb	%r13b, 145(%rsp)
	leaq	146(%rsp), %rax
	movw	$0, 4(%rax)
	movl	$0, (%rax)
	movdqu	(%r14,%rbp), %xmm1
	movdqu	%xmm1, 152(%rsp)
	movq	%xmm0, 168(%rsp)
	leaq	1(%r15), %r12
	leaq	3960(%rsp), %rdi
	leaq	176(%rsp), %rsi
	leaq	144(%rsp), %rcx
	movl	$64, %edx
	movl	$4, %r9d
	movq	%r12, %r8
	callq	"sums::order::cmp_term"
	cmpb	$2, %al
	jne	.LBB23_178
	addq	%r13, %r12
	movq	%r12, %r15
	cmpq	40(%rsp), %r12
	jb	.LBB23_176
	jmp	.LBB23_204
.LBB23_178:
	movzbl	%al, %eax
	movq	%r15, %r12
	testl	%eax, %eax
	je	.LBB23_204
	movapd	112(%rsp), %xmm0
	subpd	%xmm0, %xmm0
	movapd	%xmm0, %xmm1
	xorl	%eax, %eax
	movsd	32(%rsp), %xmm3
	ucomisd	%xmm3, %xmm1
	movb	$14, %cl
	jne	.LBB23_231
	jp	.LBB23_231
	unpckhpd	%xmm0, %xmm0
	ucomisd	%xmm3, %xmm0
	movq	64(%rsp), %r15
	jne	.LBB23_236
	jp	.LBB23_236
	movl	$64, %esi
	movl	$1, %edx
	movl	$3, %ecx
	movq	208(%rsp), %rdi
	callq	"sums::order::nests_inside"
	testb	%al, %al
	movzbl	96(%rsp), %r13d
	jne	.LBB23_213
	jmp	.LBB23_182
.LBB23_183:
	xorl	%ecx, %ecx
	testq	%r10, %r10
	je	.LBB23_187
	.p2align	4
.LBB23_184:
	cmpb	$1, (%rbx,%rcx)
	jne	.LBB23_187
	incq	%rcx
	cmpq	%rcx, %r10
	jne	.LBB23_184
	movq	%r10, %rcx
.LBB23_187:
	movapd	%xmm0, %xmm2
	subsd	%xmm0, %xmm2
	ucomisd	%xmm3, %xmm2
	jne	.LBB23_319
	jp	.LBB23_319
	movapd	%xmm0, %xmm2
	unpcklpd	%xmm0, %xmm2
	divpd	%xmm2, %xmm4
	leaq	(%rcx,%rcx,2), %rax
	leaq	8(,%rax,8), %rsi
	.p2align	4
.LBB23_189:
	movq	%rcx, %rdx
	movq	%rsi, %rax
	subq	$1, %rcx
	jb	.LBB23_192
	movsd	-32(%r14,%rax), %xmm2
	ucomisd	%xmm2, %xmm1
	seta	%sil
	incb	%sil
	xorl	%r8d, %r8d
	ucomisd	%xmm1, %xmm2
	movzbl	%sil, %edi
	cmoval	%r8d, %edi
	leaq	-24(%rax), %rsi
	testb	%dil, %dil
	je	.LBB23_189
	movzbl	%dil, %ecx
	cmpl	$2, %ecx
	jne	.LBB23_223
.LBB23_192:
	movapd	%xmm4, %xmm1
	subpd	%xmm4, %xmm1
	movapd	%xmm1, %xmm2
	ucomisd	%xmm3, %xmm2
	movb	$14, %cl
	jne	.LBB23_322
	jp	.LBB23_322
	unpckhpd	%xmm1, %xmm1
	ucomisd	%xmm3, %xmm1
	jne	.LBB23_322
	jp	.LBB23_322
	leaq	1(%r10), %rcx
	cmpq	$64, %rcx
	ja	.LBB23_321
	cmpq	%rdx, %r10
	jbe	.LBB23_202
	movl	%r10d, %edi
	subl	%edx, %edi
	leaq	-1(%r10), %rsi
	testb	$1, %dil
	je	.LBB23_198
	movzbl	-1(%rbx,%r10), %edi
	movb	%dil, (%rbx,%r10)
	movzbl	-1(%r12,%r10), %edi
	movb	%dil, (%r12,%r10)
	leaq	(%r10,%r10,2), %rdi
	movq	-8(%r14,%rdi,8), %r8
	movq	%r8, 16(%r14,%rdi,8)
	movupd	-24(%r14,%rdi,8), %xmm1
	movupd	%xmm1, (%r14,%rdi,8)
	movq	%rsi, %r10
.LBB23_198:
	cmpq	%rdx, %rsi
	je	.LBB23_201
	leaq	(%r10,%r10,2), %rsi
	leaq	(%r14,%rsi,8), %rsi
	.p2align	4
.LBB23_200:
	movzbl	-1(%rbx,%r10), %edi
	movb	%dil, (%rbx,%r10)
	movzbl	-1(%r12,%r10), %edi
	movb	%dil, (%r12,%r10)
	movq	-8(%rsi), %rdi
	movq	%rdi, 16(%rsi)
	movups	-24(%rsi), %xmm1
	movups	%xmm1, (%rsi)
	movzbl	-2(%rbx,%r10), %edi
	movb	%dil, -1(%rbx,%r10)
	movzbl	-2(%r12,%r10), %edi
	movb	%dil, -1(%r12,%r10)
	addq	$-2, %r10
	movq	-32(%rsi), %r8
	movq	%r8, -8(%rsi)
	movupd	-48(%rsi), %xmm1
	movupd	%xmm1, -24(%rsi)
	addq	$-48, %rsi
	cmpq	%r10, %rdx
	jb	.LBB23_200
.LBB23_201:
	movq	232(%rsp), %rbx
.LBB23_202:
	movb	$1, (%rbx,%rdx)
	movq	248(%rsp), %rsi
	movb	$0, (%rsi,%rdx)
	movq	264(%rsp), %rdx
	movsd	%xmm0, -8(%rdx,%rax)
	movupd	%xmm4, (%rdx,%rax)
	movq	%rcx, %r10
	jmp	.LBB23_163
.LBB23_203:
	xorl	%r12d, %r12d
.LBB23_204:
	movapd	112(%rsp), %xmm0
	subpd	%xmm0, %xmm0
	movapd	%xmm0, %xmm1
	xorl	%eax, %eax
	movsd	32(%rsp), %xmm3
	ucomisd	%xmm3, %xmm1
	movb	$14, %cl
	movb	$1, %bpl
	jne	.LBB23_221
	jp	.LBB23_221
	unpckhpd	%xmm0, %xmm0
	ucomisd	%xmm3, %xmm0
	movq	64(%rsp), %r15
	jne	.LBB23_160
	jp	.LBB23_160
	movl	$64, %esi
	movl	$1, %edx
	movl	$3, %ecx
	movq	208(%rsp), %rbp
	movq	%rbp, %rdi
	callq	"sums::order::nests_inside"
	testb	%al, %al
	movzbl	96(%rsp), %r13d
	je	.LBB23_182
	movq	40(%rsp), %rsi
	leaq	2(%rsi), %rax
	cmpq	$64, %rax
	movq	48(%rsp), %r9
	movq	80(%rsp), %r11
	jbe	.LBB23_226
	movb	$11, %cl
	xorl	%eax, %eax
	movsd	32(%rsp), %xmm3
	movb	$1, %bpl
	jmp	.LBB23_162
.LBB23_209:
	movzbl	%al, %eax
	movq	%r12, %r15
	testl	%eax, %eax
	je	.LBB23_215
	movapd	112(%rsp), %xmm0
	subsd	%xmm0, %xmm0
	xorl	%eax, %eax
	movsd	32(%rsp), %xmm3
	ucomisd	%xmm3, %xmm0
	movb	$14, %cl
	jne	.LBB23_231
	jp	.LBB23_231
	movapd	304(%rsp), %xmm0
	subsd	%xmm0, %xmm0
	ucomisd	%xmm3, %xmm0
	movzbl	96(%rsp), %r13d
	movq	64(%rsp), %r15
	jne	.LBB23_237
	jp	.LBB23_237
	movl	$64, %esi
	movl	$1, %edx
	movl	$3, %ecx
	movq	208(%rsp), %rdi
	callq	"sums::order::nests_inside"
	testb	%al, %al
	je	.LBB23_182
.LBB23_213:
	movapd	112(%rsp), %xmm0
	movupd	%xmm0, 8(%r14,%rbp)
	xorl	%ebp, %ebp
	xorl	%ecx, %ecx
	movq	40(%rsp), %rax
	movq	48(%rsp), %r9
	movsd	32(%rsp), %xmm3
	jmp	.LBB23_161
.LBB23_182:
	movb	$12, %cl
	xorl	%eax, %eax
	movq	48(%rsp), %r9
	movsd	32(%rsp), %xmm3
.LBB23_238:
	movq	80(%rsp), %r11
	movb	$1, %bpl
	jmp	.LBB23_162
.LBB23_214:
	xorl	%r15d, %r15d
.LBB23_215:
	movapd	112(%rsp), %xmm0
	subsd	%xmm0, %xmm0
	xorl	%eax, %eax
	movsd	32(%rsp), %xmm3
	ucomisd	%xmm3, %xmm0
	movb	$14, %cl
	movb	$1, %bpl
	jne	.LBB23_221
	jp	.LBB23_221
	movapd	304(%rsp), %xmm0
	subsd	%xmm0, %xmm0
	ucomisd	%xmm3, %xmm0
	movzbl	96(%rsp), %r13d
	jne	.LBB23_220
	jp	.LBB23_220
	movl	$64, %esi
	movl	$1, %edx
	movl	$3, %ecx
	movq	208(%rsp), %r12
	movq	%r12, %rdi
	callq	"sums::order::nests_inside"
	testb	%al, %al
	je	.LBB23_222
	movq	40(%rsp), %rsi
	leaq	2(%rsi), %rax
	cmpq	$64, %rax
	movq	48(%rsp), %r9
	movq	80(%rsp), %r11
	jbe	.LBB23_232
	movb	$11, %cl
	xorl	%eax, %eax
	movsd	32(%rsp), %xmm3
	movq	64(%rsp), %r15
	jmp	.LBB23_162
.LBB23_160:
	movq	48(%rsp), %r9
	movzbl	96(%rsp), %r13d
.LBB23_161:
	movq	80(%rsp), %r11
	jmp	.LBB23_162
.LBB23_220:
	movq	48(%rsp), %r9
	movq	80(%rsp), %r11
	movq	64(%rsp), %r15
	jmp	.LBB23_162
.LBB23_222:
	movb	$12, %cl
	xorl	%eax, %eax
	movq	48(%rsp), %r9
	movsd	32(%rsp), %xmm3
	movq	80(%rsp), %r11
	movq	64(%rsp), %r15
	jmp	.LBB23_162
.LBB23_223:
	movapd	%xmm4, %xmm0
	subpd	%xmm4, %xmm0
	movapd	%xmm0, %xmm1
	ucomisd	%xmm3, %xmm1
	movb	$14, %cl
	jne	.LBB23_322
	jp	.LBB23_322
	unpckhpd	%xmm0, %xmm0
	ucomisd	%xmm3, %xmm0
	jne	.LBB23_322
	jp	.LBB23_322
	movupd	%xmm4, (%r14,%rsi)
	jmp	.LBB23_163
.LBB23_226:
	cmpq	%rsi, %r12
	jae	.LBB23_230
	leaq	(%rsi,%rsi,2), %rcx
	leaq	(%r14,%rcx,8), %rcx
	addq	$24, %rcx
	.p2align	4
.LBB23_228:
	movzbl	-1(%rbx,%rsi), %edx
	movb	%dl, 1(%rbx,%rsi)
	movzbl	-1(%rbp,%rsi), %edx
	movb	%dl, 1(%rbp,%rsi)
	leaq	-1(%rsi), %rdx
	movq	-32(%rcx), %rsi
	movq	%rsi, 16(%rcx)
	movupd	-48(%rcx), %xmm0
	movupd	%xmm0, (%rcx)
	addq	$-24, %rcx
	cmpq	%rdx, %r12
	movq	%rdx, %rsi
	jb	.LBB23_228
	movq	232(%rsp), %rbx
.LBB23_230:
	movsd	32(%rsp), %xmm3
	movl	304(%rsp), %ecx
	movb	%cl, (%rbx,%r12)
	movq	248(%rsp), %rcx
	movb	$1, (%rcx,%r12)
	leaq	(,%r12,8), %rcx
	leaq	(%rcx,%rcx,2), %rcx
	movq	264(%rsp), %rdx
	movq	$0, (%rdx,%rcx)
	movaps	112(%rsp), %xmm0
	movups	%xmm0, 8(%rdx,%rcx)
	movq	232(%rsp), %rdx
	movq	248(%rsp), %rsi
	movq	264(%rsp), %rdi
	movzbl	64(%rdx), %r8d
	movb	%r8b, 1(%rdx,%r12)
	movzbl	64(%rsi), %edx
	movb	%dl, 1(%rsi,%r12)
	movupd	1536(%rdi), %xmm0
	movq	1552(%rdi), %rdx
	movq	%rdx, 40(%rdi,%rcx)
	movupd	%xmm0, 24(%rdi,%rcx)
	xorl	%ebp, %ebp
	xorl	%ecx, %ecx
	jmp	.LBB23_162
.LBB23_231:
	movq	48(%rsp), %r9
	movzbl	96(%rsp), %r13d
	movq	80(%rsp), %r11
	movq	64(%rsp), %r15
	movb	$1, %bpl
	jmp	.LBB23_162
.LBB23_232:
	cmpq	%rsi, %r15
	jae	.LBB23_239
	leaq	(%rsi,%rsi,2), %rcx
	leaq	(%r14,%rcx,8), %rcx
	addq	$24, %rcx
	movapd	112(%rsp), %xmm1
	.p2align	4
.LBB23_234:
	movzbl	-1(%rbx,%rsi), %edx
	movb	%dl, 1(%rbx,%rsi)
	movzbl	-1(%r12,%rsi), %edx
	movb	%dl, 1(%r12,%rsi)
	leaq	-1(%rsi), %rdx
	movq	-32(%rcx), %rsi
	movq	%rsi, 16(%rcx)
	movupd	-48(%rcx), %xmm0
	movupd	%xmm0, (%rcx)
	addq	$-24, %rcx
	cmpq	%rdx, %r15
	movq	%rdx, %rsi
	jb	.LBB23_234
	movq	232(%rsp), %rbx
	movsd	32(%rsp), %xmm3
	jmp	.LBB23_240
.LBB23_236:
	movq	48(%rsp), %r9
	movzbl	96(%rsp), %r13d
	jmp	.LBB23_238
.LBB23_237:
	movq	48(%rsp), %r9
	jmp	.LBB23_238
.LBB23_239:
	movsd	32(%rsp), %xmm3
	movapd	112(%rsp), %xmm1
.LBB23_240:
	movb	$3, (%rbx,%r15)
	movq	248(%rsp), %rcx
	movb	$1, (%rcx,%r15)
	leaq	(,%r15,8), %rcx
	leaq	(%rcx,%rcx,2), %rcx
	movq	264(%rsp), %rdx
	movabsq	$4613303445314885481, %rsi
	movq	%rsi, (%rdx,%rcx)
	movupd	%xmm1, 8(%rdx,%rcx)
	movq	232(%rsp), %rdx
	movq	248(%rsp), %rsi
	movq	264(%rsp), %rdi
	movzbl	64(%rdx), %r8d
	movb	%r8b, 1(%rdx,%r15)
	movzbl	64(%rsi), %edx
	movb	%dl, 1(%rsi,%r15)
	movupd	1536(%rdi), %xmm0
	movq	1552(%rdi), %rdx
	movq	%rdx, 40(%rdi,%rcx)
	movupd	%xmm0, 24(%rdi,%rcx)
	xorl	%ebp, %ebp
	xorl	%ecx, %ecx
	movq	64(%rsp), %r15
	jmp	.LBB23_162
.LBB23_159:
	xorl	%r10d, %r10d
	jmp	.LBB23_242
.LBB23_241:
	movq	232(%rsp), %r14
	movq	248(%rsp), %rsi
	movq	264(%rsp), %rdi
.LBB23_242:
	movq	240(%rsp), %rax
	movq	256(%rsp), %rcx
	movq	272(%rsp), %rdx
	movq	%r14, 400(%rsp)
	movq	%rax, 408(%rsp)
	movq	%rsi, 32(%rsp)
	movq	%rsi, 416(%rsp)
	movq	%rcx, 424(%rsp)
	movq	%rdi, 112(%rsp)
	movq	%rdi, 432(%rsp)
	movq	%rdx, 440(%rsp)
	cmpq	$16, %r10
	movq	%r10, %rbx
	movq	%r10, 40(%rsp)
	ja	.LBB23_268
	leaq	3960(%rsp), %rdi
	movl	$4272, %edx
	xorl	%esi, %esi
	callq	memset@PLT
	testq	%rbx, %rbx
	je	.LBB23_295
	movq	%rbx, %r9
	xorpd	%xmm2, %xmm2
	movsd	.LCPI23_0(%rip), %xmm3
	movsd	.LCPI23_2(%rip), %xmm0
	movsd	%xmm0, 336(%rsp)
	movsd	.LCPI23_3(%rip), %xmm0
	movsd	%xmm0, 320(%rsp)
	movl	$32, %r8d
	xorl	%ebp, %ebp
	movl	$32, %ecx
	xorl	%r12d, %r12d
	movq	32(%rsp), %r10
	movq	112(%rsp), %r11
	movsd	%xmm2, 136(%rsp)
	movsd	%xmm3, 304(%rsp)
	movq	%r14, 328(%rsp)
	jmp	.LBB23_247
	.p2align	4
.LBB23_245:
.LBB23_246:
	cmpneqsd	%xmm2, %xmm6
	cmpneqsd	%xmm2, %xmm5
	orpd	%xmm6, %xmm5
	movd	%xmm5, %eax
	cmpb	$1, %r15b
	sete	%dl
	ucomisd	%xmm3, %xmm4
	setnp	%sil
	sete	%dil
	andb	%sil, %dil
	andb	%dl, %dil
	andb	%al, %dil
	orb	%dil, %bpl
	addq	%rbx, %r12
	cmpq	%r9, %r12
	jae	.LBB23_297
.LBB23_247:
	leaq	(%r12,%r12,2), %rax
	movsd	16(%r11,%rax,8), %xmm1
	movzbl	(%r14,%r12), %r15d
	movzbl	(%r10,%r12), %ebx
	incq	%r12
	movb	%r15b, 176(%rsp)
	movb	%bl, 177(%rsp)
	leaq	178(%rsp), %rdx
	movw	$0, 4(%rdx)
	movl	$0, (%rdx)
	movupd	(%r11,%rax,8), %xmm4
	movapd	%xmm4, %xmm7
	unpckhpd	%xmm4, %xmm7
	movupd	%xmm4, 184(%rsp)
	movsd	%xmm1, 200(%rsp)
	xorpd	%xmm0, %xmm0
	movapd	%xmm0, 144(%rsp)
	movq	$0, 160(%rsp)
	movapd	%xmm7, %xmm5
	ucomisd	%xmm2, %xmm5
	movapd	%xmm1, %xmm6
	jne	.LBB23_249
	jp	.LBB23_249
	ucomisd	%xmm2, %xmm6
	jne	.LBB23_249
	jnp	.LBB23_245
.LBB23_249:
	cmpq	%rcx, %r8
	setne	%r14b
	orb	%bpl, %r14b
	testb	$1, %r14b
	movapd	%xmm4, 208(%rsp)
	movapd	%xmm5, 96(%rsp)
	movapd	%xmm6, 80(%rsp)
	movsd	%xmm1, 64(%rsp)
	movapd	%xmm7, 48(%rsp)
	je	.LBB23_252
	cmpq	%rcx, %r8
	je	.LBB23_253
	leaq	-2(%rcx), %rax
	movl	%r8d, %edx
	subl	%ecx, %edx
	leal	1(%rdx), %esi
	leaq	(%rcx,%rcx,2), %rcx
	movl	$774, 3912(%rsp,%rcx,8)
	movl	%esi, 3916(%rsp,%rcx,8)
	movupd	%xmm0, 3920(%rsp,%rcx,8)
	movl	$65543, 3936(%rsp,%rcx,8)
	movl	%edx, 3940(%rsp,%rcx,8)
	movupd	%xmm0, 3944(%rsp,%rcx,8)
	jmp	.LBB23_254
	.p2align	4
.LBB23_252:
	movq	%r8, %rax
	jmp	.LBB23_254
.LBB23_253:
	leaq	(%r8,%r8,2), %rcx
	movw	$773, 3960(%rsp,%rcx,8)
	movq	%r8, %rax
	incq	%r8
	movupd	%xmm0, 3962(%rsp,%rcx,8)
	movq	$0, 3976(%rsp,%rcx,8)
.LBB23_254:
	movq	%r8, 16(%rsp)
	movq	%rax, 8(%rsp)
	leaq	3960(%rsp), %rax
	movq	%rax, (%rsp)
	movzbl	%r13b, %r8d
	andl	$1, %r8d
	leaq	144(%rsp), %rdi
	leaq	400(%rsp), %rsi
	leaq	176(%rsp), %rdx
	movl	$3, %r9d
	movq	%r12, %rcx
	callq	"writing::write_term"
	cmpb	$0, 144(%rsp)
	jne	.LBB23_294
	movq	152(%rsp), %rcx
	movq	160(%rsp), %r8
	cmpb	$1, %r15b
	setne	%al
	movaps	208(%rsp), %xmm4
	movsd	136(%rsp), %xmm2
	ucomisd	%xmm2, %xmm4
	setp	%sil
	setne	%dl
	movapd	80(%rsp), %xmm6
	movapd	%xmm6, %xmm0
	cmpeqsd	%xmm2, %xmm0
	movapd	96(%rsp), %xmm5
	movapd	%xmm5, %xmm1
	movsd	304(%rsp), %xmm3
	cmpeqsd	%xmm3, %xmm1
	andpd	%xmm0, %xmm1
	movd	%xmm1, %edi
	testb	$1, %dil
	jne	.LBB23_260
	orb	%sil, %dl
	orb	%al, %dl
	movq	40(%rsp), %r9
	movq	32(%rsp), %r10
	movq	112(%rsp), %r11
	je	.LBB23_265
	movapd	48(%rsp), %xmm7
	movapd	%xmm7, %xmm0
	subsd	%xmm7, %xmm0
	testb	$1, %r13b
	je	.LBB23_261
	ucomisd	%xmm2, %xmm0
	movb	$14, %al
	movsd	64(%rsp), %xmm1
	jne	.LBB23_312
	jp	.LBB23_312
	movapd	%xmm1, %xmm0
	subsd	%xmm1, %xmm0
	movb	$2, %dl
	ucomisd	%xmm2, %xmm0
	jne	.LBB23_312
	jnp	.LBB23_264
	jmp	.LBB23_312
.LBB23_260:
	movq	40(%rsp), %r9
	movq	32(%rsp), %r10
	movq	112(%rsp), %r11
	jmp	.LBB23_265
.LBB23_261:
	ucomisd	%xmm2, %xmm0
	movb	$14, %al
	movsd	64(%rsp), %xmm1
	jne	.LBB23_312
	jp	.LBB23_312
	ucomisd	336(%rsp), %xmm6
	jbe	.LBB23_312
	movb	$1, %dl
	movsd	320(%rsp), %xmm0
	ucomisd	%xmm6, %xmm0
	jbe	.LBB23_312
.LBB23_264:
	movq	%xmm1, %rax
	xorl	%esi, %esi
	testb	$1, %r13b
	cmovneq	%rax, %rsi
	leaq	(%r8,%r8,2), %rax
	movb	%dl, 3960(%rsp,%rax,8)
	movl	$0, 3961(%rsp,%rax,8)
	movl	$0, 3964(%rsp,%rax,8)
	movsd	%xmm7, 3968(%rsp,%rax,8)
	movq	%rsi, 3976(%rsp,%rax,8)
	movw	$2565, 3984(%rsp,%rax,8)
	addq	$2, %r8
	xorpd	%xmm0, %xmm0
	movupd	%xmm0, 3986(%rsp,%rax,8)
	movq	$0, 4000(%rsp,%rax,8)
.LBB23_265:
	testb	$1, %r14b
	je	.LBB23_267
	leaq	(%r8,%r8,2), %rax
	movw	$2053, 3960(%rsp,%rax,8)
	incq	%r8
	xorpd	%xmm0, %xmm0
	movupd	%xmm0, 3962(%rsp,%rax,8)
	movq	$0, 3976(%rsp,%rax,8)
.LBB23_267:
	movq	328(%rsp), %r14
	jmp	.LBB23_246
.LBB23_268:
	movb	%r13b, 96(%rsp)
	xorpd	%xmm0, %xmm0
	movsd	%xmm0, 304(%rsp)
	movsd	.LCPI23_0(%rip), %xmm0
	movsd	%xmm0, 336(%rsp)
	movsd	.LCPI23_2(%rip), %xmm0
	movsd	%xmm0, 320(%rsp)
	movsd	.LCPI23_3(%rip), %xmm0
	movsd	%xmm0, 392(%rsp)
	leaq	3960(%rsp), %rdi
	xorl	%ebp, %ebp
	movl	$16944, %edx
	xorl	%esi, %esi
	callq	memset@PLT
	movsd	336(%rsp), %xmm3
	movsd	304(%rsp), %xmm2
	movl	$128, %r8d
	movl	$128, %ecx
	xorl	%r12d, %r12d
	movq	%rbx, %r9
	movq	32(%rsp), %r10
	movq	112(%rsp), %r11
	jmp	.LBB23_271
	.p2align	4
.LBB23_269:
.LBB23_270:
	cmpneqsd	%xmm2, %xmm6
	cmpneqsd	%xmm2, %xmm5
	orpd	%xmm6, %xmm5
	movd	%xmm5, %eax
	cmpb	$1, %r15b
	sete	%dl
	ucomisd	%xmm3, %xmm4
	setnp	%sil
	sete	%dil
	andb	%sil, %dil
	andb	%dl, %dil
	andb	%al, %dil
	orb	%dil, %bpl
	addq	%r13, %r12
	cmpq	%r9, %r12
	jae	.LBB23_291
.LBB23_271:
	leaq	(%r12,%r12,2), %rax
	movsd	16(%r11,%rax,8), %xmm1
	movzbl	(%r14,%r12), %r15d
	movzbl	(%r10,%r12), %r13d
	incq	%r12
	movb	%r15b, 176(%rsp)
	movb	%r13b, 177(%rsp)
	leaq	178(%rsp), %rdx
	movw	$0, 4(%rdx)
	movl	$0, (%rdx)
	movupd	(%r11,%rax,8), %xmm4
	movapd	%xmm4, %xmm7
	unpckhpd	%xmm4, %xmm7
	movupd	%xmm4, 184(%rsp)
	movsd	%xmm1, 200(%rsp)
	xorpd	%xmm0, %xmm0
	movapd	%xmm0, 144(%rsp)
	movq	$0, 160(%rsp)
	movapd	%xmm7, %xmm5
	ucomisd	%xmm2, %xmm5
	movapd	%xmm1, %xmm6
	jne	.LBB23_273
	jp	.LBB23_273
	ucomisd	%xmm2, %xmm6
	jne	.LBB23_273
	jnp	.LBB23_269
.LBB23_273:
	cmpq	%rcx, %r8
	setne	%bl
	orb	%bpl, %bl
	testb	$1, %bl
	movapd	%xmm4, 208(%rsp)
	movapd	%xmm5, 80(%rsp)
	movapd	%xmm6, 64(%rsp)
	movsd	%xmm1, 136(%rsp)
	movapd	%xmm7, 48(%rsp)
	je	.LBB23_276
	cmpq	%rcx, %r8
	je	.LBB23_277
	leaq	-2(%rcx), %rax
	movl	%r8d, %edx
	subl	%ecx, %edx
	leal	1(%rdx), %esi
	leaq	(%rcx,%rcx,2), %rcx
	movl	$774, 3912(%rsp,%rcx,8)
	movl	%esi, 3916(%rsp,%rcx,8)
	movupd	%xmm0, 3920(%rsp,%rcx,8)
	movl	$65543, 3936(%rsp,%rcx,8)
	movl	%edx, 3940(%rsp,%rcx,8)
	movupd	%xmm0, 3944(%rsp,%rcx,8)
	jmp	.LBB23_278
	.p2align	4
.LBB23_276:
	movq	%r8, %rax
	jmp	.LBB23_278
.LBB23_277:
	leaq	(%r8,%r8,2), %rcx
	movw	$773, 3960(%rsp,%rcx,8)
	movq	%r8, %rax
	incq	%r8
	movupd	%xmm0, 3962(%rsp,%rcx,8)
	movq	$0, 3976(%rsp,%rcx,8)
.LBB23_278:
	movq	%r8, 16(%rsp)
	movq	%rax, 8(%rsp)
	leaq	3960(%rsp), %rax
	movq	%rax, (%rsp)
	movzbl	96(%rsp), %r8d
	andl	$1, %r8d
	leaq	144(%rsp), %rdi
	leaq	400(%rsp), %rsi
	leaq	176(%rsp), %rdx
	movl	$3, %r9d
	movq	%r12, %rcx
	callq	"writing::write_term"
	cmpb	$0, 144(%rsp)
	jne	.LBB23_294
	movq	152(%rsp), %rcx
	movq	160(%rsp), %r8
	cmpb	$1, %r15b
	setne	%al
	movaps	208(%rsp), %xmm4
	movsd	304(%rsp), %xmm2
	ucomisd	%xmm2, %xmm4
	setp	%sil
	setne	%dl
	movapd	64(%rsp), %xmm6
	movapd	%xmm6, %xmm0
	cmpeqsd	%xmm2, %xmm0
	movapd	80(%rsp), %xmm5
	movapd	%xmm5, %xmm1
	movsd	336(%rsp), %xmm3
	cmpeqsd	%xmm3, %xmm1
	andpd	%xmm0, %xmm1
	movd	%xmm1, %edi
	testb	$1, %dil
	movapd	48(%rsp), %xmm7
	jne	.LBB23_284
	orb	%sil, %dl
	orb	%al, %dl
	movq	40(%rsp), %r9
	movq	32(%rsp), %r10
	movq	112(%rsp), %r11
	je	.LBB23_289
	testb	$1, 96(%rsp)
	je	.LBB23_285
	movapd	%xmm7, %xmm0
	subsd	%xmm7, %xmm0
	ucomisd	%xmm2, %xmm0
	movb	$14, %al
	movsd	136(%rsp), %xmm1
	jne	.LBB23_312
	jp	.LBB23_312
	movapd	%xmm1, %xmm0
	subsd	%xmm1, %xmm0
	movb	$2, %dl
	ucomisd	%xmm2, %xmm0
	jne	.LBB23_312
	jnp	.LBB23_288
	jmp	.LBB23_312
.LBB23_284:
	movq	40(%rsp), %r9
	movq	32(%rsp), %r10
	movq	112(%rsp), %r11
	jmp	.LBB23_289
.LBB23_285:
	movapd	%xmm7, %xmm0
	subsd	%xmm7, %xmm0
	ucomisd	%xmm2, %xmm0
	movb	$14, %al
	movsd	136(%rsp), %xmm1
	jne	.LBB23_312
	jp	.LBB23_312
	ucomisd	320(%rsp), %xmm6
	jbe	.LBB23_312
	movb	$1, %dl
	movsd	392(%rsp), %xmm0
	ucomisd	%xmm6, %xmm0
	jbe	.LBB23_312
.LBB23_288:
	movq	%xmm1, %rax
	xorl	%esi, %esi
	testb	$1, 96(%rsp)
	cmovneq	%rax, %rsi
	leaq	(%r8,%r8,2), %rax
	movb	%dl, 3960(%rsp,%rax,8)
	movl	$0, 3961(%rsp,%rax,8)
	movl	$0, 3964(%rsp,%rax,8)
	movsd	%xmm7, 3968(%rsp,%rax,8)
	movq	%rsi, 3976(%rsp,%rax,8)
	movw	$2565, 3984(%rsp,%rax,8)
	addq	$2, %r8
	xorpd	%xmm0, %xmm0
	movupd	%xmm0, 3986(%rsp,%rax,8)
	movq	$0, 4000(%rsp,%rax,8)
.LBB23_289:
	testb	$1, %bl
	je	.LBB23_270
	leaq	(%r8,%r8,2), %rax
	movw	$2053, 3960(%rsp,%rax,8)
	incq	%r8
	xorpd	%xmm0, %xmm0
	movupd	%xmm0, 3962(%rsp,%rax,8)
	movq	$0, 3976(%rsp,%rax,8)
	jmp	.LBB23_270
.LBB23_291:
	cmpq	%r8, %rcx
	jne	.LBB23_300
	leaq	(%rcx,%rcx,2), %rdx
	leaq	(%rsp,%rdx,8), %rax
	addq	$3960, %rax
	testb	$1, %bpl
	je	.LBB23_293
.LBB23_299:
	movw	$261, (%rax)
	leaq	1(%rcx), %r8
	xorpd	%xmm0, %xmm0
	movupd	%xmm0, 2(%rax)
	movq	$0, 16(%rax)
	jmp	.LBB23_300
.LBB23_294:
	movzbl	145(%rsp), %eax
	jmp	.LBB23_312
.LBB23_295:
	leaq	4728(%rsp), %rax
	movl	$32, %ecx
	leaq	4729(%rsp), %rdx
	jmp	.LBB23_296
.LBB23_297:
	cmpq	%r8, %rcx
	jne	.LBB23_300
	leaq	(%rcx,%rcx,2), %rdx
	leaq	(%rsp,%rdx,8), %rax
	addq	$3960, %rax
	testb	$1, %bpl
	jne	.LBB23_299
.LBB23_293:
	leaq	(%rsp,%rdx,8), %rdx
	addq	$3961, %rdx
.LBB23_296:
	movb	$1, (%rax)
	xorpd	%xmm0, %xmm0
	movupd	%xmm0, (%rdx)
	movq	$0, 15(%rdx)
	movw	$2565, 24(%rax)
	leaq	2(%rcx), %r8
	movupd	%xmm0, 26(%rax)
	movq	$0, 40(%rax)
.LBB23_300:
	movabsq	$-6148914691236517205, %rdx
	movq	368(%rsp), %rax
	mulq	%rdx
	subq	%rcx, %r8
	shrq	$4, %rdx
	cmpq	%r8, %rdx
	jae	.LBB23_301
	movb	$16, %al
.LBB23_312:
	movb	$1, %cl
	xorl	%edx, %edx
	jmp	.LBB23_313
.LBB23_301:
	leaq	(%rcx,%rcx,2), %rax
	leaq	(,%r8,8), %rcx
	leaq	(%rcx,%rcx,2), %rdx
	leaq	(%rsp,%rax,8), %rsi
	addq	$3960, %rsi
	movq	360(%rsp), %rdi
	movq	%r8, %rbx
	callq	memcpy@PLT
	movq	%rbx, %rdx
	xorl	%ecx, %ecx
	xorl	%eax, %eax
.LBB23_313:
	xorl	%r9d, %r9d
	testb	%cl, %cl
	movzbl	%al, %eax
	cmovel	%r9d, %eax
	movzbl	%al, %eax
	cmovneq	%r9, %rdx
	incq	%rax
	testb	%cl, %cl
	cmoveq	%r9, %rax
	jmp	.LBB23_318
.LBB23_309:
	movb	$17, %al
	jmp	.LBB23_315
.LBB23_310:
	leaq	(%rsp,%rdx,8), %rdx
	addq	$20905, %rdx
	movq	296(%rsp), %rbx
	jmp	.LBB23_146
.LBB23_314:
	movb	$11, %al
.LBB23_315:
	xorl	%r9d, %r9d
	movq	296(%rsp), %rbx
	cmpb	$11, %al
	je	.LBB23_155
	jmp	.LBB23_316
.LBB23_319:
	movb	$17, %cl
	jmp	.LBB23_322
.LBB23_321:
	movb	$11, %cl
.LBB23_322:
	xorl	%r9d, %r9d
	movzbl	%cl, %eax
.LBB23_317:
	incq	%rax
	xorl	%edx, %edx
.LBB23_318:
	movq	488(%rsp), %rcx
	movq	%r9, (%rcx)
	movq	%rdx, 8(%rcx)
	addq	$48552, %rsp
	popq	%rbx
	popq	%r12
	popq	%r13
	popq	%r14
	popq	%r15
	popq	%rbp
	retq
.Lfunc_end23:
	.size	uplink_integral, .Lfunc_end23-uplink_integral

	.section	.rodata.cst8,"aM",@progbits,8
	.p2align	3, 0x0
.LCPI24_0:
	.quad	0x3ff0000000000000
	.section	.rodata.cst16,"aM",@progbits,16
	.p2align	4, 0x0
.LCPI24_1:
	.quad	0x8000000000000000
	.quad	0x8000000000000000
	.section	.text.uplink_integral_faithful,"ax",@progbits
	.globl	uplink_integral_faithful
	.p2align	4
	.type	uplink_integral_faithful,@function
uplink_integral_faithful:
	pushq	%rbp
	pushq	%r15
	pushq	%r14
	pushq	%r13
	pushq	%r12
	pushq	%rbx
	movq	%rsp, %r11
	subq	$30720, %r11
.LBB24_1:
	subq	$3072, %rsp
	movq	$0, (%rsp)
	cmpq	%r11, %rsp
	jne	.LBB24_1
	subq	$824, %rsp
	movq	%r8, %rbx
	movq	%rcx, %r15
	movq	%rsi, %r12
	xorl	%r13d, %r13d
	testq	%rdi, %rdi
	sete	%r13b
	shll	$12, %r13d
	addq	%rdi, %r13
	xorl	%r14d, %r14d
	testq	%rdx, %rdx
	sete	%r14b
	shll	$12, %r14d
	addq	%rdx, %r14
	xorpd	%xmm0, %xmm0
	movapd	%xmm0, 352(%rsp)
	movapd	%xmm0, 336(%rsp)
	movapd	%xmm0, 2736(%rsp)
	movapd	%xmm0, 2752(%rsp)
	movapd	%xmm0, 2768(%rsp)
	movapd	%xmm0, 2784(%rsp)
	movapd	%xmm0, 2800(%rsp)
	movapd	%xmm0, 2816(%rsp)
	movapd	%xmm0, 2832(%rsp)
	movapd	%xmm0, 2848(%rsp)
	movapd	%xmm0, 2864(%rsp)
	movapd	%xmm0, 2880(%rsp)
	movapd	%xmm0, 2896(%rsp)
	movapd	%xmm0, 2912(%rsp)
	movapd	%xmm0, 2928(%rsp)
	movapd	%xmm0, 2944(%rsp)
	movapd	%xmm0, 2960(%rsp)
	movapd	%xmm0, 2976(%rsp)
	movapd	%xmm0, 1824(%rsp)
	movapd	%xmm0, 1808(%rsp)
	movapd	%xmm0, 1792(%rsp)
	movapd	%xmm0, 1776(%rsp)
	movapd	%xmm0, 1760(%rsp)
	movapd	%xmm0, 1744(%rsp)
	movapd	%xmm0, 1728(%rsp)
	movapd	%xmm0, 1712(%rsp)
	movapd	%xmm0, 1696(%rsp)
	movapd	%xmm0, 1680(%rsp)
	movapd	%xmm0, 1664(%rsp)
	movapd	%xmm0, 1648(%rsp)
	movapd	%xmm0, 1632(%rsp)
	movapd	%xmm0, 1616(%rsp)
	movapd	%xmm0, 1600(%rsp)
	movapd	%xmm0, 1584(%rsp)
	leaq	3896(%rsp), %rbp
	movl	$6144, %edx
	movq	%rbp, %rdi
	xorl	%esi, %esi
	callq	memset@PLT
	xorpd	%xmm0, %xmm0
	movapd	%xmm0, 432(%rsp)
	movapd	%xmm0, 448(%rsp)
	movapd	%xmm0, 464(%rsp)
	movapd	%xmm0, 480(%rsp)
	movapd	%xmm0, 496(%rsp)
	movapd	%xmm0, 512(%rsp)
	movapd	%xmm0, 528(%rsp)
	movapd	%xmm0, 544(%rsp)
	movapd	%xmm0, 560(%rsp)
	movapd	%xmm0, 576(%rsp)
	movapd	%xmm0, 592(%rsp)
	movapd	%xmm0, 608(%rsp)
	movapd	%xmm0, 624(%rsp)
	movapd	%xmm0, 640(%rsp)
	movapd	%xmm0, 656(%rsp)
	movapd	%xmm0, 672(%rsp)
	leaq	2736(%rsp), %rax
	movq	%rax, 80(%rsp)
	movq	$256, 88(%rsp)
	leaq	1584(%rsp), %rax
	movq	%rax, 96(%rsp)
	movq	$256, 104(%rsp)
	movq	%rbp, 112(%rsp)
	movq	$256, 120(%rsp)
	leaq	432(%rsp), %rax
	movq	%rax, 128(%rsp)
	movq	$256, 136(%rsp)
	leaq	336(%rsp), %rdi
	leaq	80(%rsp), %rcx
	movl	$256, %r8d
	movq	%r13, 304(%rsp)
	movq	%r13, %rsi
	movq	%r12, 320(%rsp)
	movq	%r12, %rdx
	callq	"algebra::lists::read_sum"
	movq	344(%rsp), %r9
	cmpb	$1, 336(%rsp)
	jne	.LBB24_4
	movzbl	337(%rsp), %ecx
	cmpb	$11, %cl
	jne	.LBB24_178
.LBB24_88:
	movq	%r15, 208(%rsp)
	xorpd	%xmm0, %xmm0
	movapd	%xmm0, 352(%rsp)
	movapd	%xmm0, 336(%rsp)
	movl	$1152, %edx
	leaq	2736(%rsp), %r13
	movq	%r13, %rdi
	xorl	%esi, %esi
	callq	memset@PLT
	movl	$1152, %edx
	leaq	1584(%rsp), %rbp
	movq	%rbp, %rdi
	xorl	%esi, %esi
	callq	memset@PLT
	movl	$27648, %edx
	leaq	3896(%rsp), %r12
	movq	%r12, %rdi
	xorl	%esi, %esi
	callq	memset@PLT
	movl	$1152, %edx
	leaq	432(%rsp), %r15
	movq	%r15, %rdi
	xorl	%esi, %esi
	callq	memset@PLT
	movq	%r13, 80(%rsp)
	movq	$1152, 88(%rsp)
	movq	%rbp, 96(%rsp)
	movq	$1152, 104(%rsp)
	movq	%r12, 112(%rsp)
	movq	$1152, 120(%rsp)
	movq	%r15, 128(%rsp)
	movq	$1152, 136(%rsp)
	leaq	336(%rsp), %rdi
	leaq	80(%rsp), %rcx
	movl	$1152, %r8d
	movq	304(%rsp), %rsi
	movq	320(%rsp), %rdx
	callq	"algebra::lists::read_sum"
	movq	344(%rsp), %r10
	cmpb	$1, 336(%rsp)
	jne	.LBB24_90
	movzbl	337(%rsp), %ecx
	jmp	.LBB24_183
.LBB24_4:
	movq	%r14, 216(%rsp)
	movzbl	352(%rsp), %r10d
	xorpd	%xmm0, %xmm0
	movapd	%xmm0, 192(%rsp)
	movapd	%xmm0, 368(%rsp)
	movapd	%xmm0, 384(%rsp)
	movapd	%xmm0, 400(%rsp)
	movq	80(%rsp), %rax
	movb	$1, 64(%rax)
	movq	96(%rsp), %rcx
	movb	$0, 64(%rcx)
	movq	112(%rsp), %rdx
	movabsq	$4607182418800017408, %rsi
	movq	%rsi, 1536(%rdx)
	movq	%rsi, 1544(%rdx)
	movq	$0, 1552(%rdx)
	subq	$-128, %r9
	cmpq	$129, %r9
	jb	.LBB24_84
	movb	%r10b, 63(%rsp)
	movq	%r15, 208(%rsp)
	movq	%rbx, 152(%rsp)
	movsd	.LCPI24_0(%rip), %xmm0
	movsd	%xmm0, 312(%rsp)
	xorps	%xmm3, %xmm3
	movl	$128, %r10d
	xorl	%r14d, %r14d
	movq	%r9, 32(%rsp)
	movsd	%xmm3, 40(%rsp)
	jmp	.LBB24_10
	.p2align	4
.LBB24_6:
	movq	32(%rsp), %r9
.LBB24_7:
	movq	24(%rsp), %r10
	movq	16(%rsp), %r11
.LBB24_8:
	movq	%rax, %r14
	testb	%r13b, %r13b
	jne	.LBB24_177
.LBB24_9:
	addq	%r11, %r10
	cmpq	%r9, %r10
	jae	.LBB24_85
.LBB24_10:
	movq	80(%rsp), %rbx
	movq	96(%rsp), %r12
	movq	112(%rsp), %r15
	leaq	(,%r10,8), %rax
	leaq	(%rax,%rax,2), %rcx
	movdqu	8(%r15,%rcx), %xmm4
	movzbl	(%rbx,%r10), %eax
	movzbl	(%r12,%r10), %r11d
	incq	%r10
	cmpq	$1, %rax
	movq	%r12, 144(%rsp)
	jne	.LBB24_16
	movsd	(%r15,%rcx), %xmm0
	addsd	.LCPI24_0(%rip), %xmm0
	movapd	%xmm0, %xmm1
	ucomisd	%xmm3, %xmm1
	jne	.LBB24_27
	jp	.LBB24_27
	movq	%r11, 16(%rsp)
	movq	%r10, 24(%rsp)
	movapd	%xmm4, %xmm0
	unpckhpd	%xmm4, %xmm0
	movq	88(%rsp), %rax
	movq	104(%rsp), %rcx
	movq	120(%rsp), %rdx
	movq	%rbx, 48(%rsp)
	movq	%rbx, 256(%rsp)
	movq	%rax, 264(%rsp)
	movq	%r12, 272(%rsp)
	movq	%rcx, 280(%rsp)
	movq	%r15, 288(%rsp)
	movq	%rdx, 296(%rsp)
	movw	$259, 224(%rsp)
	leaq	226(%rsp), %rax
	movw	$0, 4(%rax)
	movl	$0, (%rax)
	movabsq	$4613303445314885481, %rax
	movq	%rax, 232(%rsp)
	movaps	%xmm4, 64(%rsp)
	movupd	%xmm4, 240(%rsp)
	testq	%r14, %r14
	movapd	%xmm0, 416(%rsp)
	je	.LBB24_61
	xorl	%ebp, %ebp
	.p2align	4
.LBB24_14:
	leaq	(,%rbp,8), %rax
	leaq	(%rax,%rax,2), %r13
	movsd	16(%r15,%r13), %xmm0
	movq	48(%rsp), %rax
	movzbl	(%rax,%rbp), %eax
	movzbl	(%r12,%rbp), %r12d
	movb	%al, 160(%rsp)
	movb	%r12b, 161(%rsp)
	leaq	162(%rsp), %rax
	movw	$0, 4(%rax)
	movl	$0, (%rax)
	movupd	(%r15,%r13), %xmm1
	movupd	%xmm1, 168(%rsp)
	movsd	%xmm0, 184(%rsp)
	leaq	1(%rbp), %rbx
	leaq	256(%rsp), %rdi
	leaq	224(%rsp), %rsi
	leaq	160(%rsp), %rcx
	movl	$64, %edx
	movl	$4, %r9d
	movq	%rbx, %r8
	callq	"sums::order::cmp_term"
	cmpb	$2, %al
	jne	.LBB24_56
	addq	%r12, %rbx
	movq	%rbx, %rbp
	cmpq	%r14, %rbx
	movq	144(%rsp), %r12
	jb	.LBB24_14
	jmp	.LBB24_62
	.p2align	4
.LBB24_16:
	movb	$6, %cl
	cmpb	$5, %al
	jb	.LBB24_177
	cmpb	$1, %r11b
	jne	.LBB24_177
	leaq	(%r10,%r10,2), %rdx
	movsd	(%r15,%rdx,8), %xmm0
	ucomisd	312(%rsp), %xmm0
	jne	.LBB24_177
	jp	.LBB24_177
	cmpb	$1, (%rbx,%r10)
	jne	.LBB24_177
	movq	%r11, 16(%rsp)
	movq	%r10, 24(%rsp)
	leal	(,%rax,8), %ecx
	movabsq	$577874754439415559, %rdx
	shrq	%cl, %rdx
	cmpb	$8, %al
	movl	$7, %esi
	cmovbl	%edx, %esi
	xorl	%ecx, %ecx
	cmpq	$5, %rax
	sete	%cl
	movdqa	.LCPI24_1(%rip), %xmm0
	pxor	%xmm4, %xmm0
	movd	%ecx, %xmm1
	pshufd	$0, %xmm1, %xmm1
	pslld	$31, %xmm1
	psrad	$31, %xmm1
	pand	%xmm1, %xmm0
	pandn	%xmm4, %xmm1
	por	%xmm0, %xmm1
	movq	88(%rsp), %rax
	movq	104(%rsp), %rcx
	movq	120(%rsp), %rdx
	movq	%rbx, 48(%rsp)
	movq	%rbx, 256(%rsp)
	movq	%rax, 264(%rsp)
	movq	%r12, 272(%rsp)
	movq	%rcx, 280(%rsp)
	movq	%r15, 288(%rsp)
	movq	%rdx, 296(%rsp)
	movl	%esi, 416(%rsp)
	movb	%sil, 224(%rsp)
	movb	$1, 225(%rsp)
	leaq	226(%rsp), %rax
	movq	$0, 6(%rax)
	movq	$0, (%rax)
	movdqa	%xmm1, 64(%rsp)
	movdqu	%xmm1, 240(%rsp)
	testq	%r14, %r14
	je	.LBB24_47
	xorl	%ebx, %ebx
	.p2align	4
.LBB24_22:
	leaq	(,%rbx,8), %rax
	leaq	(%rax,%rax,2), %r13
	movq	16(%r15,%r13), %xmm0
	movq	48(%rsp), %rax
	movzbl	(%rax,%rbx), %eax
	movzbl	(%r12,%rbx), %r12d
	movb	%al, 160(%rsp)
	movb	%r12b, 161(%rsp)
	leaq	162(%rsp), %rax
	movw	$0, 4(%rax)
	movl	$0, (%rax)
	movdqu	(%r15,%r13), %xmm1
	movdqu	%xmm1, 168(%rsp)
	movq	%xmm0, 184(%rsp)
	leaq	1(%rbx), %rbp
	leaq	256(%rsp), %rdi
	leaq	224(%rsp), %rsi
	leaq	160(%rsp), %rcx
	movl	$64, %edx
	movl	$4, %r9d
	movq	%rbp, %r8
	callq	"sums::order::cmp_term"
	cmpb	$2, %al
	jne	.LBB24_24
	addq	%r12, %rbp
	movq	%rbp, %rbx
	cmpq	%r14, %rbp
	movq	144(%rsp), %r12
	jb	.LBB24_22
	jmp	.LBB24_48
.LBB24_24:
	movzbl	%al, %eax
	movq	%rbx, %rbp
	testl	%eax, %eax
	movq	144(%rsp), %r12
	je	.LBB24_48
	movapd	64(%rsp), %xmm0
	subpd	%xmm0, %xmm0
	movapd	%xmm0, %xmm1
	xorl	%eax, %eax
	movsd	40(%rsp), %xmm3
	ucomisd	%xmm3, %xmm1
	movb	$14, %cl
	jne	.LBB24_69
	jp	.LBB24_69
	unpckhpd	%xmm0, %xmm0
	ucomisd	%xmm3, %xmm0
	jne	.LBB24_69
	jnp	.LBB24_59
	jmp	.LBB24_69
.LBB24_27:
	xorl	%ecx, %ecx
	testq	%r14, %r14
	je	.LBB24_31
	.p2align	4
.LBB24_28:
	cmpb	$1, (%rbx,%rcx)
	jne	.LBB24_31
	incq	%rcx
	cmpq	%rcx, %r14
	jne	.LBB24_28
	movq	%r14, %rcx
.LBB24_31:
	movapd	%xmm0, %xmm2
	subsd	%xmm0, %xmm2
	ucomisd	%xmm3, %xmm2
	jne	.LBB24_175
	jp	.LBB24_175
	movapd	%xmm0, %xmm2
	unpcklpd	%xmm0, %xmm2
	divpd	%xmm2, %xmm4
	leaq	(%rcx,%rcx,2), %rax
	leaq	8(,%rax,8), %rsi
	.p2align	4
.LBB24_33:
	movq	%rcx, %rdx
	movq	%rsi, %rax
	subq	$1, %rcx
	jb	.LBB24_36
	movsd	-32(%r15,%rax), %xmm2
	ucomisd	%xmm2, %xmm1
	seta	%sil
	incb	%sil
	xorl	%r8d, %r8d
	ucomisd	%xmm1, %xmm2
	movzbl	%sil, %edi
	cmoval	%r8d, %edi
	leaq	-24(%rax), %rsi
	testb	%dil, %dil
	je	.LBB24_33
	movzbl	%dil, %ecx
	cmpl	$2, %ecx
	jne	.LBB24_70
.LBB24_36:
	movapd	%xmm4, %xmm1
	subpd	%xmm4, %xmm1
	movapd	%xmm1, %xmm2
	ucomisd	%xmm3, %xmm2
	movb	$14, %cl
	jne	.LBB24_177
	jp	.LBB24_177
	unpckhpd	%xmm1, %xmm1
	ucomisd	%xmm3, %xmm1
	jne	.LBB24_177
	jp	.LBB24_177
	leaq	1(%r14), %rcx
	cmpq	$64, %rcx
	ja	.LBB24_176
	cmpq	%rdx, %r14
	jbe	.LBB24_46
	movl	%r14d, %edi
	subl	%edx, %edi
	leaq	-1(%r14), %rsi
	testb	$1, %dil
	je	.LBB24_42
	movzbl	-1(%rbx,%r14), %edi
	movb	%dil, (%rbx,%r14)
	movzbl	-1(%r12,%r14), %edi
	movb	%dil, (%r12,%r14)
	leaq	(%r14,%r14,2), %rdi
	movq	-8(%r15,%rdi,8), %r8
	movq	%r8, 16(%r15,%rdi,8)
	movupd	-24(%r15,%rdi,8), %xmm1
	movupd	%xmm1, (%r15,%rdi,8)
	movq	%rsi, %r14
.LBB24_42:
	cmpq	%rdx, %rsi
	je	.LBB24_45
	leaq	(%r14,%r14,2), %rsi
	leaq	(%r15,%rsi,8), %rsi
	.p2align	4
.LBB24_44:
	movzbl	-1(%rbx,%r14), %edi
	movb	%dil, (%rbx,%r14)
	movzbl	-1(%r12,%r14), %edi
	movb	%dil, (%r12,%r14)
	movq	-8(%rsi), %rdi
	movq	%rdi, 16(%rsi)
	movups	-24(%rsi), %xmm1
	movups	%xmm1, (%rsi)
	movzbl	-2(%rbx,%r14), %edi
	movb	%dil, -1(%rbx,%r14)
	movzbl	-2(%r12,%r14), %edi
	movb	%dil, -1(%r12,%r14)
	addq	$-2, %r14
	movq	-32(%rsi), %rdi
	movq	%rdi, -8(%rsi)
	movupd	-48(%rsi), %xmm1
	movupd	%xmm1, -24(%rsi)
	addq	$-48, %rsi
	cmpq	%r14, %rdx
	jb	.LBB24_44
.LBB24_45:
	movq	80(%rsp), %rbx
.LBB24_46:
	movb	$1, (%rbx,%rdx)
	movq	96(%rsp), %rsi
	movb	$0, (%rsi,%rdx)
	movq	112(%rsp), %rdx
	movsd	%xmm0, -8(%rdx,%rax)
	movupd	%xmm4, (%rdx,%rax)
	movq	%rcx, %r14
	jmp	.LBB24_9
.LBB24_47:
	xorl	%ebp, %ebp
.LBB24_48:
	movapd	64(%rsp), %xmm0
	subpd	%xmm0, %xmm0
	movapd	%xmm0, %xmm1
	xorl	%eax, %eax
	movsd	40(%rsp), %xmm3
	ucomisd	%xmm3, %xmm1
	movb	$14, %cl
	movb	$1, %r13b
	jne	.LBB24_6
	jp	.LBB24_6
	unpckhpd	%xmm0, %xmm0
	ucomisd	%xmm3, %xmm0
	jne	.LBB24_6
	jp	.LBB24_6
	movl	$64, %esi
	movl	$1, %edx
	movl	$3, %ecx
	movq	%r12, %rdi
	callq	"sums::order::nests_inside"
	testb	%al, %al
	je	.LBB24_67
	leaq	2(%r14), %rax
	cmpq	$64, %rax
	movq	32(%rsp), %r9
	movq	24(%rsp), %r10
	movq	16(%rsp), %r11
	ja	.LBB24_66
	cmpq	%r14, %rbp
	jae	.LBB24_79
	leaq	(%r14,%r14,2), %rcx
	leaq	(%r15,%rcx,8), %rcx
	addq	$24, %rcx
	movq	48(%rsp), %rsi
	movl	416(%rsp), %edi
	.p2align	4
.LBB24_54:
	movzbl	-1(%rsi,%r14), %edx
	movb	%dl, 1(%rsi,%r14)
	movzbl	-1(%r12,%r14), %edx
	movb	%dl, 1(%r12,%r14)
	decq	%r14
	movq	-32(%rcx), %rdx
	movq	%rdx, 16(%rcx)
	movupd	-48(%rcx), %xmm0
	movupd	%xmm0, (%rcx)
	addq	$-24, %rcx
	cmpq	%r14, %rbp
	jb	.LBB24_54
	movq	80(%rsp), %rcx
	movsd	40(%rsp), %xmm3
	jmp	.LBB24_80
.LBB24_56:
	movzbl	%al, %eax
	movq	%rbp, %rbx
	testl	%eax, %eax
	movq	144(%rsp), %r12
	je	.LBB24_62
	movapd	64(%rsp), %xmm0
	subsd	%xmm0, %xmm0
	xorl	%eax, %eax
	movsd	40(%rsp), %xmm3
	ucomisd	%xmm3, %xmm0
	movb	$14, %cl
	jne	.LBB24_69
	jp	.LBB24_69
	movapd	416(%rsp), %xmm0
	subsd	%xmm0, %xmm0
	ucomisd	%xmm3, %xmm0
	jne	.LBB24_69
	jp	.LBB24_69
.LBB24_59:
	movl	$64, %esi
	movl	$1, %edx
	movl	$3, %ecx
	movq	%r12, %rdi
	callq	"sums::order::nests_inside"
	testb	%al, %al
	je	.LBB24_73
	movapd	64(%rsp), %xmm0
	movupd	%xmm0, 8(%r15,%r13)
	xorl	%r13d, %r13d
	xorl	%ecx, %ecx
	movq	%r14, %rax
	jmp	.LBB24_68
.LBB24_61:
	xorl	%ebx, %ebx
.LBB24_62:
	movapd	64(%rsp), %xmm0
	subsd	%xmm0, %xmm0
	xorl	%eax, %eax
	movsd	40(%rsp), %xmm3
	ucomisd	%xmm3, %xmm0
	movb	$14, %cl
	movb	$1, %r13b
	jne	.LBB24_6
	jp	.LBB24_6
	movapd	416(%rsp), %xmm0
	subsd	%xmm0, %xmm0
	ucomisd	%xmm3, %xmm0
	jne	.LBB24_6
	jp	.LBB24_6
	movl	$64, %esi
	movl	$1, %edx
	movl	$3, %ecx
	movq	%r12, %rdi
	callq	"sums::order::nests_inside"
	testb	%al, %al
	je	.LBB24_67
	leaq	2(%r14), %rax
	cmpq	$64, %rax
	movq	32(%rsp), %r9
	movq	24(%rsp), %r10
	movq	16(%rsp), %r11
	jbe	.LBB24_75
.LBB24_66:
	movb	$11, %cl
	xorl	%eax, %eax
	movsd	40(%rsp), %xmm3
	jmp	.LBB24_8
.LBB24_67:
	movb	$12, %cl
	xorl	%eax, %eax
.LBB24_68:
	movq	32(%rsp), %r9
	movsd	40(%rsp), %xmm3
	jmp	.LBB24_7
.LBB24_69:
	movq	32(%rsp), %r9
	jmp	.LBB24_74
.LBB24_70:
	movapd	%xmm4, %xmm0
	subpd	%xmm4, %xmm0
	movapd	%xmm0, %xmm1
	ucomisd	%xmm3, %xmm1
	movb	$14, %cl
	jne	.LBB24_177
	jp	.LBB24_177
	unpckhpd	%xmm0, %xmm0
	ucomisd	%xmm3, %xmm0
	jne	.LBB24_177
	jp	.LBB24_177
	movupd	%xmm4, (%r15,%rsi)
	jmp	.LBB24_9
.LBB24_73:
	movb	$12, %cl
	xorl	%eax, %eax
	movq	32(%rsp), %r9
	movsd	40(%rsp), %xmm3
.LBB24_74:
	movq	24(%rsp), %r10
	movq	16(%rsp), %r11
	movb	$1, %r13b
	jmp	.LBB24_8
.LBB24_75:
	cmpq	%r14, %rbx
	jae	.LBB24_81
	leaq	(%r14,%r14,2), %rcx
	leaq	(%r15,%rcx,8), %rcx
	addq	$24, %rcx
	movq	48(%rsp), %rsi
	movapd	64(%rsp), %xmm1
	.p2align	4
.LBB24_77:
	movzbl	-1(%rsi,%r14), %edx
	movb	%dl, 1(%rsi,%r14)
	movzbl	-1(%r12,%r14), %edx
	movb	%dl, 1(%r12,%r14)
	decq	%r14
	movq	-32(%rcx), %rdx
	movq	%rdx, 16(%rcx)
	movupd	-48(%rcx), %xmm0
	movupd	%xmm0, (%rcx)
	addq	$-24, %rcx
	cmpq	%r14, %rbx
	jb	.LBB24_77
	movq	80(%rsp), %rcx
	movsd	40(%rsp), %xmm3
	jmp	.LBB24_82
.LBB24_79:
	movsd	40(%rsp), %xmm3
	movq	48(%rsp), %rcx
	movl	416(%rsp), %edi
.LBB24_80:
	movb	%dil, (%rcx,%rbp)
	movq	96(%rsp), %rcx
	movb	$1, (%rcx,%rbp)
	leaq	(,%rbp,8), %rcx
	leaq	(%rcx,%rcx,2), %rcx
	movq	112(%rsp), %rdx
	movq	$0, (%rdx,%rcx)
	movapd	64(%rsp), %xmm0
	movupd	%xmm0, 8(%rdx,%rcx)
	movq	80(%rsp), %rdx
	movq	96(%rsp), %rsi
	movq	112(%rsp), %rdi
	movzbl	64(%rdx), %r8d
	movb	%r8b, 1(%rdx,%rbp)
	movzbl	64(%rsi), %edx
	movb	%dl, 1(%rsi,%rbp)
	jmp	.LBB24_83
.LBB24_81:
	movsd	40(%rsp), %xmm3
	movq	48(%rsp), %rcx
	movapd	64(%rsp), %xmm1
.LBB24_82:
	movb	$3, (%rcx,%rbx)
	movq	96(%rsp), %rcx
	movb	$1, (%rcx,%rbx)
	leaq	(,%rbx,8), %rcx
	leaq	(%rcx,%rcx,2), %rcx
	movq	112(%rsp), %rdx
	movabsq	$4613303445314885481, %rsi
	movq	%rsi, (%rdx,%rcx)
	movupd	%xmm1, 8(%rdx,%rcx)
	movq	80(%rsp), %rdx
	movq	96(%rsp), %rsi
	movq	112(%rsp), %rdi
	movzbl	64(%rdx), %r8d
	movb	%r8b, 1(%rdx,%rbx)
	movzbl	64(%rsi), %edx
	movb	%dl, 1(%rsi,%rbx)
.LBB24_83:
	movupd	1536(%rdi), %xmm0
	movq	1552(%rdi), %rdx
	movq	%rdx, 40(%rdi,%rcx)
	movupd	%xmm0, 24(%rdi,%rcx)
	xorl	%r13d, %r13d
	xorl	%ecx, %ecx
	jmp	.LBB24_8
.LBB24_84:
	xorl	%r14d, %r14d
	jmp	.LBB24_86
.LBB24_90:
	movq	%r14, 216(%rsp)
	movzbl	352(%rsp), %eax
	movb	%al, 304(%rsp)
	xorpd	%xmm0, %xmm0
	movapd	%xmm0, 192(%rsp)
	movapd	%xmm0, 368(%rsp)
	movapd	%xmm0, 384(%rsp)
	movapd	%xmm0, 400(%rsp)
	movq	80(%rsp), %rax
	movb	$1, 64(%rax)
	movq	96(%rsp), %rcx
	movb	$0, 64(%rcx)
	movq	112(%rsp), %rdx
	movabsq	$4607182418800017408, %rsi
	movq	%rsi, 1536(%rdx)
	movq	%rsi, 1544(%rdx)
	movq	$0, 1552(%rdx)
	subq	$-128, %r10
	xorl	%r15d, %r15d
	cmpq	$129, %r10
	jb	.LBB24_170
	movq	%rbx, 152(%rsp)
	movsd	.LCPI24_0(%rip), %xmm0
	movsd	%xmm0, 312(%rsp)
	xorpd	%xmm3, %xmm3
	movl	$128, %r9d
	xorl	%r14d, %r14d
	movq	%r10, 32(%rsp)
	movsd	%xmm3, 40(%rsp)
	jmp	.LBB24_96
	.p2align	4
.LBB24_92:
	movq	32(%rsp), %r10
.LBB24_93:
	movq	24(%rsp), %r9
	movq	16(%rsp), %r11
.LBB24_94:
	movq	%rax, %r14
	testb	%bpl, %bpl
	jne	.LBB24_182
.LBB24_95:
	addq	%r11, %r9
	cmpq	%r10, %r9
	jae	.LBB24_171
.LBB24_96:
	movq	80(%rsp), %rbx
	movq	96(%rsp), %r13
	movq	112(%rsp), %r15
	leaq	(,%r9,8), %rax
	leaq	(%rax,%rax,2), %rcx
	movdqu	8(%r15,%rcx), %xmm4
	movzbl	(%rbx,%r9), %eax
	movzbl	(%r13,%r9), %r11d
	incq	%r9
	cmpq	$1, %rax
	movq	%r13, 144(%rsp)
	jne	.LBB24_102
	movsd	(%r15,%rcx), %xmm0
	addsd	.LCPI24_0(%rip), %xmm0
	movapd	%xmm0, %xmm1
	ucomisd	%xmm3, %xmm1
	jne	.LBB24_113
	jp	.LBB24_113
	movq	%r11, 16(%rsp)
	movq	%r9, 24(%rsp)
	movapd	%xmm4, %xmm0
	unpckhpd	%xmm4, %xmm0
	movapd	%xmm0, 320(%rsp)
	movq	88(%rsp), %rax
	movq	104(%rsp), %rcx
	movq	120(%rsp), %rdx
	movq	%rbx, 48(%rsp)
	movq	%rbx, 256(%rsp)
	movq	%rax, 264(%rsp)
	movq	%r13, 272(%rsp)
	movq	%rcx, 280(%rsp)
	movq	%r15, 288(%rsp)
	movq	%rdx, 296(%rsp)
	movw	$259, 224(%rsp)
	leaq	226(%rsp), %rax
	movw	$0, 4(%rax)
	movl	$0, (%rax)
	movabsq	$4613303445314885481, %rax
	movq	%rax, 232(%rsp)
	movaps	%xmm4, 64(%rsp)
	movupd	%xmm4, 240(%rsp)
	testq	%r14, %r14
	je	.LBB24_147
	xorl	%r12d, %r12d
	.p2align	4
.LBB24_100:
	leaq	(,%r12,8), %rax
	leaq	(%rax,%rax,2), %rbp
	movsd	16(%r15,%rbp), %xmm0
	movq	48(%rsp), %rax
	movzbl	(%rax,%r12), %eax
	movzbl	(%r13,%r12), %r13d
	movb	%al, 160(%rsp)
	movb	%r13b, 161(%rsp)
	leaq	162(%rsp), %rax
	movw	$0, 4(%rax)
	movl	$0, (%rax)
	movupd	(%r15,%rbp), %xmm1
	movupd	%xmm1, 168(%rsp)
	movsd	%xmm0, 184(%rsp)
	leaq	1(%r12), %rbx
	leaq	256(%rsp), %rdi
	leaq	224(%rsp), %rsi
	leaq	160(%rsp), %rcx
	movl	$64, %edx
	movl	$4, %r9d
	movq	%rbx, %r8
	callq	"sums::order::cmp_term"
	cmpb	$2, %al
	jne	.LBB24_142
	addq	%r13, %rbx
	movq	%rbx, %r12
	cmpq	%r14, %rbx
	movq	144(%rsp), %r13
	jb	.LBB24_100
	jmp	.LBB24_148
	.p2align	4
.LBB24_102:
	movb	$6, %cl
	cmpb	$5, %al
	jb	.LBB24_182
	cmpb	$1, %r11b
	jne	.LBB24_182
	leaq	(%r9,%r9,2), %rdx
	movsd	(%r15,%rdx,8), %xmm0
	ucomisd	312(%rsp), %xmm0
	jne	.LBB24_182
	jp	.LBB24_182
	cmpb	$1, (%rbx,%r9)
	jne	.LBB24_182
	movq	%r11, 16(%rsp)
	movq	%r9, 24(%rsp)
	leal	(,%rax,8), %ecx
	movabsq	$577874754439415559, %rdx
	shrq	%cl, %rdx
	cmpb	$8, %al
	movl	$7, %esi
	cmovbl	%edx, %esi
	xorl	%ecx, %ecx
	cmpq	$5, %rax
	sete	%cl
	movdqa	.LCPI24_1(%rip), %xmm0
	pxor	%xmm4, %xmm0
	movd	%ecx, %xmm1
	pshufd	$0, %xmm1, %xmm1
	pslld	$31, %xmm1
	psrad	$31, %xmm1
	pand	%xmm1, %xmm0
	pandn	%xmm4, %xmm1
	por	%xmm0, %xmm1
	movq	88(%rsp), %rax
	movq	104(%rsp), %rcx
	movq	120(%rsp), %rdx
	movq	%rbx, 48(%rsp)
	movq	%rbx, 256(%rsp)
	movq	%rax, 264(%rsp)
	movq	%r13, 272(%rsp)
	movq	%rcx, 280(%rsp)
	movq	%r15, 288(%rsp)
	movq	%rdx, 296(%rsp)
	movl	%esi, 320(%rsp)
	movb	%sil, 224(%rsp)
	movb	$1, 225(%rsp)
	leaq	226(%rsp), %rax
	movq	$0, 6(%rax)
	movq	$0, (%rax)
	movdqa	%xmm1, 64(%rsp)
	movdqu	%xmm1, 240(%rsp)
	testq	%r14, %r14
	je	.LBB24_133
	xorl	%ebx, %ebx
	.p2align	4
.LBB24_108:
	leaq	(,%rbx,8), %rax
	leaq	(%rax,%rax,2), %rbp
	movq	16(%r15,%rbp), %xmm0
	movq	48(%rsp), %rax
	movzbl	(%rax,%rbx), %eax
	movzbl	(%r13,%rbx), %r13d
	movb	%al, 160(%rsp)
	movb	%r13b, 161(%rsp)
	leaq	162(%rsp), %rax
	movw	$0, 4(%rax)
	movl	$0, (%rax)
	movdqu	(%r15,%rbp), %xmm1
	movdqu	%xmm1, 168(%rsp)
	movq	%xmm0, 184(%rsp)
	leaq	1(%rbx), %r12
	leaq	256(%rsp), %rdi
	leaq	224(%rsp), %rsi
	leaq	160(%rsp), %rcx
	movl	$64, %edx
	movl	$4, %r9d
	movq	%r12, %r8
	callq	"sums::order::cmp_term"
	cmpb	$2, %al
	jne	.LBB24_110
	addq	%r13, %r12
	movq	%r12, %rbx
	cmpq	%r14, %r12
	movq	144(%rsp), %r13
	jb	.LBB24_108
	jmp	.LBB24_134
.LBB24_110:
	movzbl	%al, %eax
	movq	%rbx, %r12
	testl	%eax, %eax
	movq	144(%rsp), %r13
	je	.LBB24_134
	movapd	64(%rsp), %xmm0
	subpd	%xmm0, %xmm0
	movapd	%xmm0, %xmm1
	xorl	%eax, %eax
	movsd	40(%rsp), %xmm3
	ucomisd	%xmm3, %xmm1
	movb	$14, %cl
	jne	.LBB24_155
	jp	.LBB24_155
	unpckhpd	%xmm0, %xmm0
	ucomisd	%xmm3, %xmm0
	jne	.LBB24_155
	jnp	.LBB24_145
	jmp	.LBB24_155
.LBB24_113:
	xorl	%ecx, %ecx
	testq	%r14, %r14
	je	.LBB24_117
	.p2align	4
.LBB24_114:
	cmpb	$1, (%rbx,%rcx)
	jne	.LBB24_117
	incq	%rcx
	cmpq	%rcx, %r14
	jne	.LBB24_114
	movq	%r14, %rcx
.LBB24_117:
	movapd	%xmm0, %xmm2
	subsd	%xmm0, %xmm2
	ucomisd	%xmm3, %xmm2
	jne	.LBB24_180
	jp	.LBB24_180
	movapd	%xmm0, %xmm2
	unpcklpd	%xmm0, %xmm2
	divpd	%xmm2, %xmm4
	leaq	(%rcx,%rcx,2), %rax
	leaq	8(,%rax,8), %rsi
	.p2align	4
.LBB24_119:
	movq	%rcx, %rdx
	movq	%rsi, %rax
	subq	$1, %rcx
	jb	.LBB24_122
	movsd	-32(%r15,%rax), %xmm2
	ucomisd	%xmm2, %xmm1
	seta	%sil
	incb	%sil
	xorl	%r8d, %r8d
	ucomisd	%xmm1, %xmm2
	movzbl	%sil, %edi
	cmoval	%r8d, %edi
	leaq	-24(%rax), %rsi
	testb	%dil, %dil
	je	.LBB24_119
	movzbl	%dil, %ecx
	cmpl	$2, %ecx
	jne	.LBB24_156
.LBB24_122:
	movapd	%xmm4, %xmm1
	subpd	%xmm4, %xmm1
	movapd	%xmm1, %xmm2
	ucomisd	%xmm3, %xmm2
	movb	$14, %cl
	jne	.LBB24_182
	jp	.LBB24_182
	unpckhpd	%xmm1, %xmm1
	ucomisd	%xmm3, %xmm1
	jne	.LBB24_182
	jp	.LBB24_182
	leaq	1(%r14), %rcx
	cmpq	$64, %rcx
	ja	.LBB24_181
	cmpq	%rdx, %r14
	jbe	.LBB24_132
	movl	%r14d, %edi
	subl	%edx, %edi
	leaq	-1(%r14), %rsi
	testb	$1, %dil
	je	.LBB24_128
	movzbl	-1(%rbx,%r14), %edi
	movb	%dil, (%rbx,%r14)
	movzbl	-1(%r13,%r14), %edi
	movb	%dil, (%r13,%r14)
	leaq	(%r14,%r14,2), %rdi
	movq	-8(%r15,%rdi,8), %r8
	movq	%r8, 16(%r15,%rdi,8)
	movupd	-24(%r15,%rdi,8), %xmm1
	movupd	%xmm1, (%r15,%rdi,8)
	movq	%rsi, %r14
.LBB24_128:
	cmpq	%rdx, %rsi
	je	.LBB24_131
	leaq	(%r14,%r14,2), %rsi
	leaq	(%r15,%rsi,8), %rsi
	.p2align	4
.LBB24_130:
	movzbl	-1(%rbx,%r14), %edi
	movb	%dil, (%rbx,%r14)
	movzbl	-1(%r13,%r14), %edi
	movb	%dil, (%r13,%r14)
	movq	-8(%rsi), %rdi
	movq	%rdi, 16(%rsi)
	movups	-24(%rsi), %xmm1
	movups	%xmm1, (%rsi)
	movzbl	-2(%rbx,%r14), %edi
	movb	%dil, -1(%rbx,%r14)
	movzbl	-2(%r13,%r14), %edi
	movb	%dil, -1(%r13,%r14)
	addq	$-2, %r14
	movq	-32(%rsi), %rdi
	movq	%rdi, -8(%rsi)
	movupd	-48(%rsi), %xmm1
	movupd	%xmm1, -24(%rsi)
	addq	$-48, %rsi
	cmpq	%r14, %rdx
	jb	.LBB24_130
.LBB24_131:
	movq	80(%rsp), %rbx
.LBB24_132:
	movb	$1, (%rbx,%rdx)
	movq	96(%rsp), %rsi
	movb	$0, (%rsi,%rdx)
	movq	112(%rsp), %rdx
	movsd	%xmm0, -8(%rdx,%rax)
	movupd	%xmm4, (%rdx,%rax)
	movq	%rcx, %r14
	jmp	.LBB24_95
.LBB24_133:
	xorl	%r12d, %r12d
.LBB24_134:
	movapd	64(%rsp), %xmm0
	subpd	%xmm0, %xmm0
	movapd	%xmm0, %xmm1
	xorl	%eax, %eax
	movsd	40(%rsp), %xmm3
	ucomisd	%xmm3, %xmm1
	movb	$14, %cl
	movb	$1, %bpl
	jne	.LBB24_92
	jp	.LBB24_92
	unpckhpd	%xmm0, %xmm0
	ucomisd	%xmm3, %xmm0
	jne	.LBB24_92
	jp	.LBB24_92
	movl	$64, %esi
	movl	$1, %edx
	movl	$3, %ecx
	movq	%r13, %rdi
	callq	"sums::order::nests_inside"
	testb	%al, %al
	je	.LBB24_153
	leaq	2(%r14), %rax
	cmpq	$64, %rax
	movq	32(%rsp), %r10
	movq	24(%rsp), %r9
	movq	16(%rsp), %r11
	ja	.LBB24_152
	cmpq	%r14, %r12
	jae	.LBB24_165
	leaq	(%r14,%r14,2), %rcx
	leaq	(%r15,%rcx,8), %rcx
	addq	$24, %rcx
	movq	48(%rsp), %rsi
	.p2align	4
.LBB24_140:
	movzbl	-1(%rsi,%r14), %edx
	movb	%dl, 1(%rsi,%r14)
	movzbl	-1(%r13,%r14), %edx
	movb	%dl, 1(%r13,%r14)
	decq	%r14
	movq	-32(%rcx), %rdx
	movq	%rdx, 16(%rcx)
	movupd	-48(%rcx), %xmm0
	movupd	%xmm0, (%rcx)
	addq	$-24, %rcx
	cmpq	%r14, %r12
	jb	.LBB24_140
	movq	80(%rsp), %rcx
	movsd	40(%rsp), %xmm3
	jmp	.LBB24_166
.LBB24_142:
	movzbl	%al, %eax
	movq	%r12, %rbx
	testl	%eax, %eax
	movq	144(%rsp), %r13
	je	.LBB24_148
	movapd	64(%rsp), %xmm0
	subsd	%xmm0, %xmm0
	xorl	%eax, %eax
	movsd	40(%rsp), %xmm3
	ucomisd	%xmm3, %xmm0
	movb	$14, %cl
	jne	.LBB24_155
	jp	.LBB24_155
	movapd	320(%rsp), %xmm0
	subsd	%xmm0, %xmm0
	ucomisd	%xmm3, %xmm0
	jne	.LBB24_155
	jp	.LBB24_155
.LBB24_145:
	movl	$64, %esi
	movl	$1, %edx
	movl	$3, %ecx
	movq	%r13, %rdi
	callq	"sums::order::nests_inside"
	testb	%al, %al
	je	.LBB24_159
	movapd	64(%rsp), %xmm0
	movupd	%xmm0, 8(%r15,%rbp)
	xorl	%ebp, %ebp
	xorl	%ecx, %ecx
	movq	%r14, %rax
	jmp	.LBB24_154
.LBB24_147:
	xorl	%ebx, %ebx
.LBB24_148:
	movapd	64(%rsp), %xmm0
	subsd	%xmm0, %xmm0
	xorl	%eax, %eax
	movsd	40(%rsp), %xmm3
	ucomisd	%xmm3, %xmm0
	movb	$14, %cl
	movb	$1, %bpl
	jne	.LBB24_92
	jp	.LBB24_92
	movapd	320(%rsp), %xmm0
	subsd	%xmm0, %xmm0
	ucomisd	%xmm3, %xmm0
	jne	.LBB24_92
	jp	.LBB24_92
	movl	$64, %esi
	movl	$1, %edx
	movl	$3, %ecx
	movq	%r13, %rdi
	callq	"sums::order::nests_inside"
	testb	%al, %al
	je	.LBB24_153
	leaq	2(%r14), %rax
	cmpq	$64, %rax
	movq	32(%rsp), %r10
	movq	24(%rsp), %r9
	movq	16(%rsp), %r11
	jbe	.LBB24_161
.LBB24_152:
	movb	$11, %cl
	xorl	%eax, %eax
	movsd	40(%rsp), %xmm3
	jmp	.LBB24_94
.LBB24_153:
	movb	$12, %cl
	xorl	%eax, %eax
.LBB24_154:
	movq	32(%rsp), %r10
	movsd	40(%rsp), %xmm3
	jmp	.LBB24_93
.LBB24_155:
	movq	32(%rsp), %r10
	jmp	.LBB24_160
.LBB24_156:
	movapd	%xmm4, %xmm0
	subpd	%xmm4, %xmm0
	movapd	%xmm0, %xmm1
	ucomisd	%xmm3, %xmm1
	movb	$14, %cl
	jne	.LBB24_182
	jp	.LBB24_182
	unpckhpd	%xmm0, %xmm0
	ucomisd	%xmm3, %xmm0
	jne	.LBB24_182
	jp	.LBB24_182
	movupd	%xmm4, (%r15,%rsi)
	jmp	.LBB24_95
.LBB24_159:
	movb	$12, %cl
	xorl	%eax, %eax
	movq	32(%rsp), %r10
	movsd	40(%rsp), %xmm3
.LBB24_160:
	movq	24(%rsp), %r9
	movq	16(%rsp), %r11
	movb	$1, %bpl
	jmp	.LBB24_94
.LBB24_161:
	cmpq	%r14, %rbx
	jae	.LBB24_167
	leaq	(%r14,%r14,2), %rcx
	leaq	(%r15,%rcx,8), %rcx
	addq	$24, %rcx
	movq	48(%rsp), %rsi
	movapd	64(%rsp), %xmm1
	.p2align	4
.LBB24_163:
	movzbl	-1(%rsi,%r14), %edx
	movb	%dl, 1(%rsi,%r14)
	movzbl	-1(%r13,%r14), %edx
	movb	%dl, 1(%r13,%r14)
	decq	%r14
	movq	-32(%rcx), %rdx
	movq	%rdx, 16(%rcx)
	movupd	-48(%rcx), %xmm0
	movupd	%xmm0, (%rcx)
	addq	$-24, %rcx
	cmpq	%r14, %rbx
	jb	.LBB24_163
	movq	80(%rsp), %rcx
	movsd	40(%rsp), %xmm3
	jmp	.LBB24_168
.LBB24_165:
	movsd	40(%rsp), %xmm3
	movq	48(%rsp), %rcx
.LBB24_166:
	movl	320(%rsp), %edx
	movb	%dl, (%rcx,%r12)
	movq	96(%rsp), %rcx
	movb	$1, (%rcx,%r12)
	leaq	(,%r12,8), %rcx
	leaq	(%rcx,%rcx,2), %rcx
	movq	112(%rsp), %rdx
	movq	$0, (%rdx,%rcx)
	movapd	64(%rsp), %xmm0
	movupd	%xmm0, 8(%rdx,%rcx)
	movq	80(%rsp), %rdx
	movq	96(%rsp), %rsi
	movq	112(%rsp), %rdi
	movzbl	64(%rdx), %r8d
	movb	%r8b, 1(%rdx,%r12)
	movzbl	64(%rsi), %edx
	movb	%dl, 1(%rsi,%r12)
	jmp	.LBB24_169
.LBB24_167:
	movsd	40(%rsp), %xmm3
	movq	48(%rsp), %rcx
	movapd	64(%rsp), %xmm1
.LBB24_168:
	movb	$3, (%rcx,%rbx)
	movq	96(%rsp), %rcx
	movb	$1, (%rcx,%rbx)
	leaq	(,%rbx,8), %rcx
	leaq	(%rcx,%rcx,2), %rcx
	movq	112(%rsp), %rdx
	movabsq	$4613303445314885481, %rsi
	movq	%rsi, (%rdx,%rcx)
	movupd	%xmm1, 8(%rdx,%rcx)
	movq	80(%rsp), %rdx
	movq	96(%rsp), %rsi
	movq	112(%rsp), %rdi
	movzbl	64(%rdx), %r8d
	movb	%r8b, 1(%rdx,%rbx)
	movzbl	64(%rsi), %edx
	movb	%dl, 1(%rsi,%rbx)
.LBB24_169:
	movupd	1536(%rdi), %xmm0
	movq	1552(%rdi), %rdx
	movq	%rdx, 40(%rdi,%rcx)
	movupd	%xmm0, 24(%rdi,%rcx)
	xorl	%ebp, %ebp
	xorl	%ecx, %ecx
	jmp	.LBB24_94
.LBB24_170:
	xorl	%r14d, %r14d
	jmp	.LBB24_172
.LBB24_85:
	movq	80(%rsp), %rax
	movq	96(%rsp), %rcx
	movq	112(%rsp), %rdx
	movq	152(%rsp), %rbx
	movq	208(%rsp), %r15
	movzbl	63(%rsp), %r10d
.LBB24_86:
	movq	88(%rsp), %rsi
	movq	104(%rsp), %rdi
	movq	120(%rsp), %r8
	movq	%rax, 368(%rsp)
	movq	%rsi, 376(%rsp)
	movq	%rcx, 384(%rsp)
	movq	%rdi, 392(%rsp)
	movq	%rdx, 400(%rsp)
	movq	%r8, 408(%rsp)
	movq	%r15, (%rsp)
	movzbl	%r10b, %r8d
	andl	$1, %r8d
	leaq	192(%rsp), %rdi
	leaq	368(%rsp), %rdx
	movl	$1, %esi
	movq	%r14, %rcx
	movq	216(%rsp), %r14
	movq	%r14, %r9
	callq	"algebra::answer::write_sum"
	movq	200(%rsp), %r9
	cmpb	$0, 192(%rsp)
	je	.LBB24_174
	movzbl	193(%rsp), %ecx
	cmpb	$11, %cl
	je	.LBB24_88
.LBB24_178:
	movzbl	%cl, %eax
.LBB24_179:
	incq	%rax
	movq	%r9, %r10
	jmp	.LBB24_184
.LBB24_171:
	movq	80(%rsp), %rax
	movq	96(%rsp), %rcx
	movq	112(%rsp), %rdx
	movq	152(%rsp), %rbx
	xorl	%r15d, %r15d
.LBB24_172:
	movq	88(%rsp), %rsi
	movq	104(%rsp), %rdi
	movq	120(%rsp), %r8
	movq	%rax, 368(%rsp)
	movq	%rsi, 376(%rsp)
	movq	%rcx, 384(%rsp)
	movq	%rdi, 392(%rsp)
	movq	%rdx, 400(%rsp)
	movq	%r8, 408(%rsp)
	movq	208(%rsp), %rax
	movq	%rax, (%rsp)
	movzbl	304(%rsp), %r8d
	andl	$1, %r8d
	leaq	192(%rsp), %rdi
	leaq	368(%rsp), %rdx
	movl	$1, %esi
	movq	%r14, %rcx
	movq	216(%rsp), %r9
	callq	"algebra::answer::write_sum"
	movzbl	192(%rsp), %eax
	movq	200(%rsp), %r9
	testb	%al, %al
	movzbl	193(%rsp), %eax
	cmovel	%r15d, %eax
	je	.LBB24_174
	movzbl	%al, %eax
	jmp	.LBB24_179
.LBB24_174:
	xorl	%r10d, %r10d
	xorl	%eax, %eax
	jmp	.LBB24_185
.LBB24_175:
	movb	$17, %cl
	jmp	.LBB24_177
.LBB24_176:
	movb	$11, %cl
.LBB24_177:
	xorl	%r9d, %r9d
	movq	152(%rsp), %rbx
	movq	208(%rsp), %r15
	movq	216(%rsp), %r14
	cmpb	$11, %cl
	je	.LBB24_88
	jmp	.LBB24_178
.LBB24_180:
	movb	$17, %cl
	jmp	.LBB24_182
.LBB24_181:
	movb	$11, %cl
.LBB24_182:
	xorl	%r10d, %r10d
	movq	152(%rsp), %rbx
.LBB24_183:
	movzbl	%cl, %eax
	incq	%rax
.LBB24_184:
	xorl	%r9d, %r9d
.LBB24_185:
	movq	%r10, (%rbx)
	movq	%r9, 8(%rbx)
	addq	$31544, %rsp
	popq	%rbx
	popq	%r12
	popq	%r13
	popq	%r14
	popq	%r15
	popq	%rbp
	retq
.Lfunc_end24:
	.size	uplink_integral_faithful, .Lfunc_end24-uplink_integral_faithful

	.section	.rodata.cst8,"aM",@progbits,8
	.p2align	3, 0x0
.LCPI25_0:
	.quad	0x3ff0000000000000
	.section	.rodata.cst16,"aM",@progbits,16
	.p2align	4, 0x0
.LCPI25_1:
	.quad	0x8000000000000000
	.quad	0x8000000000000000
	.section	.text.uplink_integrate,"ax",@progbits
	.globl	uplink_integrate
	.p2align	4
	.type	uplink_integrate,@function
uplink_integrate:
	pushq	%rbp
	pushq	%r15
	pushq	%r14
	pushq	%r13
	pushq	%r12
	pushq	%rbx
	subq	$3072, %rsp
	movq	$0, (%rsp)
	subq	$2152, %rsp
	movq	%r8, 8(%rsp)
	movq	%rcx, 408(%rsp)
	movq	%rsi, %r15
	movq	%rdi, %rbp
	xorl	%r14d, %r14d
	testq	%rdi, %rdi
	sete	%r13b
	xorl	%ebx, %ebx
	movq	%rdx, 72(%rsp)
	testq	%rdx, %rdx
	sete	%r12b
	xorpd	%xmm0, %xmm0
	movapd	%xmm0, 208(%rsp)
	movapd	%xmm0, 224(%rsp)
	movapd	%xmm0, 240(%rsp)
	movapd	%xmm0, 256(%rsp)
	movapd	%xmm0, 272(%rsp)
	movapd	%xmm0, 288(%rsp)
	movapd	%xmm0, 304(%rsp)
	movapd	%xmm0, 320(%rsp)
	movapd	%xmm0, 336(%rsp)
	movapd	%xmm0, 352(%rsp)
	movapd	%xmm0, 368(%rsp)
	movapd	%xmm0, 384(%rsp)
	movapd	%xmm0, 416(%rsp)
	movapd	%xmm0, 432(%rsp)
	movapd	%xmm0, 448(%rsp)
	movapd	%xmm0, 464(%rsp)
	movapd	%xmm0, 480(%rsp)
	movapd	%xmm0, 496(%rsp)
	movapd	%xmm0, 512(%rsp)
	movapd	%xmm0, 528(%rsp)
	movapd	%xmm0, 544(%rsp)
	movapd	%xmm0, 560(%rsp)
	movapd	%xmm0, 576(%rsp)
	movapd	%xmm0, 592(%rsp)
	leaq	616(%rsp), %rdi
	movl	$4608, %edx
	xorl	%esi, %esi
	callq	memset@PLT
	movl	$10, %eax
	cmpq	$2079, %r15
	ja	.LBB25_10
	movl	%r15d, %ecx
	andl	$31, %ecx
	jne	.LBB25_10
	shrq	$5, %r15
	je	.LBB25_10
	movb	%r13b, %r14b
	shll	$12, %r14d
	addq	%r14, %rbp
	movb	%r12b, %bl
	shll	$12, %ebx
	movq	72(%rsp), %r14
	addq	%rbx, %r14
	leaq	632(%rsp), %rcx
	xorl	%r9d, %r9d
	.p2align	4
.LBB25_4:
	movl	(%rbp), %esi
	cmpl	$255, %esi
	ja	.LBB25_10
	movl	4(%rbp), %edi
	cmpl	$63, %edi
	ja	.LBB25_10
	movq	24(%rbp), %r8
	movb	%sil, 208(%rsp,%r9)
	movb	%dil, 416(%rsp,%r9)
	movupd	8(%rbp), %xmm0
	movupd	%xmm0, -16(%rcx)
	movq	%r8, (%rcx)
	incq	%r9
	addq	$24, %rcx
	addq	$32, %rbp
	cmpq	%r9, %r15
	jne	.LBB25_4
	leaq	208(%rsp), %r12
	movq	%r12, 80(%rsp)
	movq	$192, 88(%rsp)
	leaq	416(%rsp), %rax
	movq	%rax, 96(%rsp)
	movq	$192, 104(%rsp)
	leaq	616(%rsp), %rax
	movq	%rax, 112(%rsp)
	movq	$192, 120(%rsp)
	leaq	80(%rsp), %rdi
	movl	$4, %ecx
	xorl	%esi, %esi
	movq	%r15, %rdx
	movq	%r15, %rbx
	callq	"sums::good::good_sum"
	testb	%al, %al
	je	.LBB25_9
	movq	%r14, 72(%rsp)
	movb	$1, 336(%rsp)
	movb	$0, 544(%rsp)
	movabsq	$4607182418800017408, %rax
	movq	%rax, 3688(%rsp)
	movq	%rax, 3696(%rsp)
	movq	$0, 3704(%rsp)
	movsd	.LCPI25_0(%rip), %xmm0
	movsd	%xmm0, 400(%rsp)
	xorps	%xmm3, %xmm3
	xorl	%r10d, %r10d
	xorl	%r14d, %r14d
	movq	8(%rsp), %r15
	movq	%rbx, %r9
	movq	%rbx, 32(%rsp)
	movsd	%xmm3, 40(%rsp)
	jmp	.LBB25_19
.LBB25_9:
	leaq	80(%rsp), %rdi
	movl	$64, %ecx
	xorl	%esi, %esi
	movq	%rbx, %rdx
	callq	"sums::good::good_sum"
	movzbl	%al, %eax
	leaq	10(,%rax,2), %rax
.LBB25_10:
	movq	8(%rsp), %r15
.LBB25_11:
	incq	%rax
	xorl	%r14d, %r14d
.LBB25_12:
	movq	$0, (%r15)
	movq	%r14, 8(%r15)
	addq	$5224, %rsp
	popq	%rbx
	popq	%r12
	popq	%r13
	popq	%r14
	popq	%r15
	popq	%rbp
	retq
.LBB25_13:
	movl	$12, %eax
	xorl	%ecx, %ecx
	movq	8(%rsp), %r15
.LBB25_14:
	movq	32(%rsp), %r9
.LBB25_15:
	movsd	40(%rsp), %xmm3
.LBB25_16:
	movq	24(%rsp), %r10
	movq	16(%rsp), %r11
.LBB25_17:
	movq	%rcx, %r14
	testb	%bpl, %bpl
	jne	.LBB25_11
.LBB25_18:
	addq	%r11, %r10
	cmpq	%r9, %r10
	jae	.LBB25_98
.LBB25_19:
	leaq	(,%r10,8), %rax
	leaq	(%rax,%rax,2), %rax
	movdqu	624(%rsp,%rax), %xmm4
	movzbl	208(%rsp,%r10), %edx
	movzbl	416(%rsp,%r10), %r11d
	incq	%r10
	cmpq	$1, %rdx
	jne	.LBB25_25
	movsd	616(%rsp,%rax), %xmm0
	addsd	.LCPI25_0(%rip), %xmm0
	movapd	%xmm0, %xmm1
	ucomisd	%xmm3, %xmm1
	jne	.LBB25_33
	jp	.LBB25_33
	movq	%r11, 16(%rsp)
	movq	%r10, 24(%rsp)
	movapd	%xmm4, %xmm0
	unpckhpd	%xmm4, %xmm0
	movapd	%xmm0, 160(%rsp)
	movq	%r12, 80(%rsp)
	movq	$192, 88(%rsp)
	leaq	416(%rsp), %rax
	movq	%rax, 96(%rsp)
	movq	$192, 104(%rsp)
	leaq	616(%rsp), %rax
	movq	%rax, 112(%rsp)
	movq	$192, 120(%rsp)
	movw	$259, 176(%rsp)
	leaq	178(%rsp), %rax
	movw	$0, 4(%rax)
	movl	$0, (%rax)
	movabsq	$4613303445314885481, %rax
	movq	%rax, 184(%rsp)
	movaps	%xmm4, 48(%rsp)
	movupd	%xmm4, 192(%rsp)
	leaq	64(%r14), %rax
	movl	$64, %r12d
	movq	%rax, %r13
	cmpq	$65, %rax
	jb	.LBB25_51
	movl	$64, %ebp
	.p2align	4
.LBB25_23:
	leaq	(,%rbp,8), %rax
	leaq	(%rax,%rax,2), %rbx
	movsd	632(%rsp,%rbx), %xmm0
	movzbl	208(%rsp,%rbp), %eax
	movzbl	416(%rsp,%rbp), %r15d
	movb	%al, 128(%rsp)
	movb	%r15b, 129(%rsp)
	leaq	130(%rsp), %rax
	movw	$0, 4(%rax)
	movl	$0, (%rax)
	movupd	616(%rsp,%rbx), %xmm1
	movupd	%xmm1, 136(%rsp)
	movsd	%xmm0, 152(%rsp)
	leaq	1(%rbp), %r12
	leaq	80(%rsp), %rdi
	leaq	176(%rsp), %rsi
	leaq	128(%rsp), %rcx
	movl	$128, %edx
	movl	$4, %r9d
	movq	%r12, %r8
	callq	"sums::order::cmp_term"
	cmpb	$2, %al
	jne	.LBB25_50
	addq	%r15, %r12
	movq	%r12, %rbp
	cmpq	%r13, %r12
	jb	.LBB25_23
	jmp	.LBB25_51
	.p2align	4
.LBB25_25:
	movl	$6, %eax
	cmpb	$5, %dl
	jb	.LBB25_11
	cmpb	$1, %r11b
	jne	.LBB25_11
	leaq	(%r10,%r10,2), %rcx
	movsd	616(%rsp,%rcx,8), %xmm0
	ucomisd	400(%rsp), %xmm0
	jne	.LBB25_11
	jp	.LBB25_11
	cmpb	$1, 208(%rsp,%r10)
	jne	.LBB25_11
	movq	%r11, 16(%rsp)
	movq	%r10, 24(%rsp)
	leal	(,%rdx,8), %ecx
	movabsq	$577874754439415559, %rax
	shrq	%cl, %rax
	cmpb	$8, %dl
	movl	$7, %ecx
	cmovbl	%eax, %ecx
	xorl	%eax, %eax
	cmpq	$5, %rdx
	sete	%al
	movdqa	.LCPI25_1(%rip), %xmm0
	pxor	%xmm4, %xmm0
	movd	%eax, %xmm1
	pshufd	$0, %xmm1, %xmm1
	pslld	$31, %xmm1
	psrad	$31, %xmm1
	pand	%xmm1, %xmm0
	pandn	%xmm4, %xmm1
	por	%xmm0, %xmm1
	movq	%r12, 80(%rsp)
	movq	$192, 88(%rsp)
	leaq	416(%rsp), %rax
	movq	%rax, 96(%rsp)
	movq	$192, 104(%rsp)
	leaq	616(%rsp), %rax
	movq	%rax, 112(%rsp)
	movq	$192, 120(%rsp)
	movl	%ecx, 160(%rsp)
	movb	%cl, 176(%rsp)
	movb	$1, 177(%rsp)
	leaq	178(%rsp), %rax
	movq	$0, 6(%rax)
	movq	$0, (%rax)
	movdqa	%xmm1, 48(%rsp)
	movdqu	%xmm1, 192(%rsp)
	leaq	64(%r14), %rbx
	movl	$64, %r15d
	cmpq	$65, %rbx
	jb	.LBB25_45
	movl	$64, %ebp
	.p2align	4
.LBB25_31:
	leaq	(,%rbp,8), %rax
	leaq	(%rax,%rax,2), %r12
	movq	632(%rsp,%r12), %xmm0
	movzbl	208(%rsp,%rbp), %eax
	movzbl	416(%rsp,%rbp), %r13d
	movb	%al, 128(%rsp)
	movb	%r13b, 129(%rsp)
	leaq	130(%rsp), %rax
	movw	$0, 4(%rax)
	movl	$0, (%rax)
	movdqu	616(%rsp,%r12), %xmm1
	movdqu	%xmm1, 136(%rsp)
	movq	%xmm0, 152(%rsp)
	leaq	1(%rbp), %r15
	leaq	80(%rsp), %rdi
	leaq	176(%rsp), %rsi
	leaq	128(%rsp), %rcx
	movl	$128, %edx
	movl	$4, %r9d
	movq	%r15, %r8
	callq	"sums::order::cmp_term"
	cmpb	$2, %al
	jne	.LBB25_44
	addq	%r13, %r15
	movq	%r15, %rbp
	cmpq	%rbx, %r15
	jb	.LBB25_31
	jmp	.LBB25_45
.LBB25_33:
	leaq	64(%r14), %rdx
	movq	%rdx, %rcx
	cmpq	$65, %rdx
	jb	.LBB25_38
	movq	%r14, %rax
	negq	%rax
	movl	$64, %ecx
	.p2align	4
.LBB25_35:
	cmpb	$1, 208(%rsp,%rcx)
	jne	.LBB25_38
	leaq	(%rax,%rcx), %rsi
	incq	%rsi
	incq	%rcx
	cmpq	$64, %rsi
	jne	.LBB25_35
	movq	%rdx, %rcx
.LBB25_38:
	movapd	%xmm0, %xmm2
	subsd	%xmm0, %xmm2
	ucomisd	%xmm3, %xmm2
	jne	.LBB25_102
	jp	.LBB25_102
	movapd	%xmm0, %xmm2
	unpcklpd	%xmm0, %xmm2
	divpd	%xmm2, %xmm4
	leaq	(%rcx,%rcx,2), %rax
	leaq	3688(%rsp), %rsi
	leaq	(%rsi,%rax,8), %rsi
	addq	$-3064, %rsi
	.p2align	4
.LBB25_40:
	cmpq	$65, %rcx
	jb	.LBB25_63
	decq	%rcx
	movsd	-32(%rsi), %xmm2
	ucomisd	%xmm2, %xmm1
	seta	%al
	incb	%al
	xorl	%edi, %edi
	ucomisd	%xmm1, %xmm2
	movzbl	%al, %eax
	cmoval	%edi, %eax
	addq	$-24, %rsi
	testb	%al, %al
	je	.LBB25_40
	movzbl	%al, %eax
	cmpl	$2, %eax
	jne	.LBB25_74
	incq	%rcx
	jmp	.LBB25_64
.LBB25_44:
	movzbl	%al, %eax
	movq	%rbp, %r15
	testl	%eax, %eax
	jne	.LBB25_56
.LBB25_45:
	movapd	48(%rsp), %xmm0
	subpd	%xmm0, %xmm0
	movapd	%xmm0, %xmm1
	xorl	%ecx, %ecx
	movsd	40(%rsp), %xmm3
	ucomisd	%xmm3, %xmm1
	movl	$14, %eax
	movb	$1, %bpl
	jne	.LBB25_60
	jp	.LBB25_60
	unpckhpd	%xmm0, %xmm0
	ucomisd	%xmm3, %xmm0
	jne	.LBB25_60
	jp	.LBB25_60
	leaq	416(%rsp), %rdi
	movl	$128, %esi
	movl	$1, %edx
	movl	$3, %ecx
	callq	"sums::order::nests_inside"
	testb	%al, %al
	leaq	208(%rsp), %r12
	je	.LBB25_13
	leaq	2(%r14), %rcx
	cmpq	$64, %rcx
	movq	32(%rsp), %r9
	movsd	40(%rsp), %xmm3
	movq	24(%rsp), %r10
	movq	16(%rsp), %r11
	jbe	.LBB25_84
	movl	$11, %eax
	xorl	%ecx, %ecx
	jmp	.LBB25_88
.LBB25_50:
	movzbl	%al, %eax
	movq	%rbp, %r12
	testl	%eax, %eax
	jne	.LBB25_77
.LBB25_51:
	movapd	48(%rsp), %xmm0
	subsd	%xmm0, %xmm0
	xorl	%ecx, %ecx
	movsd	40(%rsp), %xmm3
	ucomisd	%xmm3, %xmm0
	movl	$14, %eax
	movb	$1, %bpl
	jne	.LBB25_81
	jp	.LBB25_81
	movapd	160(%rsp), %xmm0
	subsd	%xmm0, %xmm0
	ucomisd	%xmm3, %xmm0
	movq	8(%rsp), %r15
	jne	.LBB25_82
	jp	.LBB25_82
	leaq	416(%rsp), %rdi
	movl	$128, %esi
	movl	$1, %edx
	movl	$3, %ecx
	callq	"sums::order::nests_inside"
	testb	%al, %al
	je	.LBB25_62
	leaq	2(%r14), %rcx
	cmpq	$64, %rcx
	movq	32(%rsp), %r9
	movsd	40(%rsp), %xmm3
	movq	24(%rsp), %r10
	movq	16(%rsp), %r11
	movapd	48(%rsp), %xmm1
	jbe	.LBB25_89
	movl	$11, %eax
	xorl	%ecx, %ecx
	leaq	208(%rsp), %r12
	jmp	.LBB25_17
.LBB25_56:
	movapd	48(%rsp), %xmm0
	subpd	%xmm0, %xmm0
	movapd	%xmm0, %xmm1
	xorl	%ecx, %ecx
	movsd	40(%rsp), %xmm3
	ucomisd	%xmm3, %xmm1
	movl	$14, %eax
	movb	$1, %bpl
	jne	.LBB25_60
	jp	.LBB25_60
	unpckhpd	%xmm0, %xmm0
	ucomisd	%xmm3, %xmm0
	movq	8(%rsp), %r15
	jne	.LBB25_61
	jp	.LBB25_61
	leaq	416(%rsp), %rdi
	movl	$128, %esi
	movl	$1, %edx
	movl	$3, %ecx
	callq	"sums::order::nests_inside"
	testb	%al, %al
	je	.LBB25_93
	movapd	48(%rsp), %xmm0
	movupd	%xmm0, 624(%rsp,%r12)
	xorl	%ebp, %ebp
	xorl	%eax, %eax
	movq	%r14, %rcx
	jmp	.LBB25_94
	.p2align	4
.LBB25_60:
	movq	8(%rsp), %r15
.LBB25_61:
	movq	32(%rsp), %r9
	leaq	208(%rsp), %r12
	jmp	.LBB25_16
.LBB25_62:
	movl	$12, %eax
	xorl	%ecx, %ecx
	movq	32(%rsp), %r9
	movsd	40(%rsp), %xmm3
	jmp	.LBB25_83
.LBB25_63:
	movl	$64, %ecx
.LBB25_64:
	movapd	%xmm4, %xmm1
	subpd	%xmm4, %xmm1
	movapd	%xmm1, %xmm2
	ucomisd	%xmm3, %xmm2
	movl	$14, %eax
	jne	.LBB25_11
	jp	.LBB25_11
	unpckhpd	%xmm1, %xmm1
	ucomisd	%xmm3, %xmm1
	jne	.LBB25_11
	jp	.LBB25_11
	leaq	1(%r14), %rax
	cmpq	$64, %rax
	ja	.LBB25_108
	cmpq	%rdx, %rcx
	jae	.LBB25_73
	movl	%r14d, %edi
	subl	%ecx, %edi
	leaq	63(%r14), %rsi
	testb	$1, %dil
	je	.LBB25_70
	movzbl	271(%rsp,%r14), %edi
	movb	%dil, 272(%rsp,%r14)
	movzbl	479(%rsp,%r14), %edi
	movb	%dil, 480(%rsp,%r14)
	leaq	(%rsi,%rsi,2), %rdi
	leaq	(%rdx,%rdx,2), %rdx
	movq	632(%rsp,%rdi,8), %r8
	movq	%r8, 632(%rsp,%rdx,8)
	movupd	616(%rsp,%rdi,8), %xmm1
	movupd	%xmm1, 616(%rsp,%rdx,8)
	movq	%rsi, %rdx
.LBB25_70:
	cmpq	%rcx, %rsi
	je	.LBB25_73
	leaq	(%rdx,%rdx,2), %rsi
	leaq	(%rsp,%rsi,8), %rsi
	addq	$616, %rsi
	.p2align	4
.LBB25_72:
	movzbl	207(%rsp,%rdx), %edi
	movb	%dil, 208(%rsp,%rdx)
	movzbl	415(%rsp,%rdx), %edi
	movb	%dil, 416(%rsp,%rdx)
	movq	-8(%rsi), %rdi
	movq	%rdi, 16(%rsi)
	movups	-24(%rsi), %xmm1
	movups	%xmm1, (%rsi)
	movzbl	206(%rsp,%rdx), %edi
	movb	%dil, 207(%rsp,%rdx)
	movzbl	414(%rsp,%rdx), %edi
	movb	%dil, 415(%rsp,%rdx)
	addq	$-2, %rdx
	movupd	-48(%rsi), %xmm1
	movupd	%xmm1, -24(%rsi)
	movq	-32(%rsi), %rdi
	movq	%rdi, -8(%rsi)
	addq	$-48, %rsi
	cmpq	%rdx, %rcx
	jb	.LBB25_72
.LBB25_73:
	movb	$1, 208(%rsp,%rcx)
	movb	$0, 416(%rsp,%rcx)
	leaq	(%rcx,%rcx,2), %rcx
	movsd	%xmm0, 616(%rsp,%rcx,8)
	movupd	%xmm4, 624(%rsp,%rcx,8)
	movq	%rax, %r14
	jmp	.LBB25_18
.LBB25_74:
	movapd	%xmm4, %xmm0
	subpd	%xmm4, %xmm0
	movapd	%xmm0, %xmm1
	ucomisd	%xmm3, %xmm1
	movl	$14, %eax
	jne	.LBB25_11
	jp	.LBB25_11
	unpckhpd	%xmm0, %xmm0
	ucomisd	%xmm3, %xmm0
	jne	.LBB25_11
	jp	.LBB25_11
	movupd	%xmm4, (%rsi)
	jmp	.LBB25_18
.LBB25_77:
	movapd	48(%rsp), %xmm0
	subsd	%xmm0, %xmm0
	xorl	%ecx, %ecx
	movsd	40(%rsp), %xmm3
	ucomisd	%xmm3, %xmm0
	movl	$14, %eax
	movb	$1, %bpl
	jne	.LBB25_81
	jp	.LBB25_81
	movapd	160(%rsp), %xmm0
	subsd	%xmm0, %xmm0
	ucomisd	%xmm3, %xmm0
	movq	8(%rsp), %r15
	leaq	208(%rsp), %r12
	jne	.LBB25_95
	jp	.LBB25_95
	leaq	416(%rsp), %rdi
	movl	$128, %esi
	movl	$1, %edx
	movl	$3, %ecx
	callq	"sums::order::nests_inside"
	testb	%al, %al
	je	.LBB25_96
	movapd	48(%rsp), %xmm0
	movupd	%xmm0, 624(%rsp,%rbx)
	xorl	%ebp, %ebp
	xorl	%eax, %eax
	movq	%r14, %rcx
	jmp	.LBB25_14
.LBB25_81:
	movq	8(%rsp), %r15
.LBB25_82:
	movq	32(%rsp), %r9
.LBB25_83:
	movq	24(%rsp), %r10
	movq	16(%rsp), %r11
	leaq	208(%rsp), %r12
	jmp	.LBB25_17
.LBB25_84:
	cmpq	%rbx, %r15
	jae	.LBB25_87
	leaq	(%r14,%r14,2), %rax
	leaq	3688(%rsp), %rdx
	leaq	(%rdx,%rax,8), %rax
	addq	$-1512, %rax
	addq	$65, %r14
	.p2align	4
.LBB25_86:
	movzbl	206(%rsp,%r14), %edx
	movb	%dl, 208(%rsp,%r14)
	movzbl	414(%rsp,%r14), %edx
	movb	%dl, 416(%rsp,%r14)
	movq	-32(%rax), %rdx
	movq	%rdx, 16(%rax)
	movupd	-48(%rax), %xmm0
	movupd	%xmm0, (%rax)
	addq	$-24, %rax
	leaq	-1(%r14), %rdx
	addq	$-2, %r14
	cmpq	%r14, %r15
	movq	%rdx, %r14
	jb	.LBB25_86
.LBB25_87:
	movl	160(%rsp), %eax
	movb	%al, 208(%rsp,%r15)
	movb	$1, 416(%rsp,%r15)
	leaq	(%r15,%r15,2), %rax
	movq	$0, 616(%rsp,%rax,8)
	movaps	48(%rsp), %xmm0
	movups	%xmm0, 624(%rsp,%rax,8)
	movzbl	336(%rsp), %edx
	movb	%dl, 209(%rsp,%r15)
	movzbl	544(%rsp), %edx
	movb	%dl, 417(%rsp,%r15)
	leaq	3688(%rsp), %rdx
	movupd	(%rdx), %xmm0
	movq	16(%rdx), %rdx
	movq	%rdx, 656(%rsp,%rax,8)
	movupd	%xmm0, 640(%rsp,%rax,8)
	xorl	%ebp, %ebp
	xorl	%eax, %eax
.LBB25_88:
	movq	8(%rsp), %r15
	jmp	.LBB25_17
.LBB25_89:
	cmpq	%r13, %r12
	jae	.LBB25_92
	leaq	(%r14,%r14,2), %rax
	leaq	3688(%rsp), %rdx
	leaq	(%rdx,%rax,8), %rax
	addq	$-1512, %rax
	addq	$65, %r14
	.p2align	4
.LBB25_91:
	movzbl	206(%rsp,%r14), %edx
	movb	%dl, 208(%rsp,%r14)
	movzbl	414(%rsp,%r14), %edx
	movb	%dl, 416(%rsp,%r14)
	movq	-32(%rax), %rdx
	movq	%rdx, 16(%rax)
	movupd	-48(%rax), %xmm0
	movupd	%xmm0, (%rax)
	addq	$-24, %rax
	leaq	-1(%r14), %rdx
	addq	$-2, %r14
	cmpq	%r14, %r12
	movq	%rdx, %r14
	jb	.LBB25_91
.LBB25_92:
	movb	$3, 208(%rsp,%r12)
	movb	$1, 416(%rsp,%r12)
	leaq	(%r12,%r12,2), %rax
	movabsq	$4613303445314885481, %rdx
	movq	%rdx, 616(%rsp,%rax,8)
	movupd	%xmm1, 624(%rsp,%rax,8)
	movzbl	336(%rsp), %edx
	movb	%dl, 209(%rsp,%r12)
	movzbl	544(%rsp), %edx
	movb	%dl, 417(%rsp,%r12)
	leaq	3688(%rsp), %rdx
	movupd	(%rdx), %xmm0
	movq	16(%rdx), %rdx
	movq	%rdx, 656(%rsp,%rax,8)
	movupd	%xmm0, 640(%rsp,%rax,8)
	xorl	%ebp, %ebp
	xorl	%eax, %eax
	leaq	208(%rsp), %r12
	jmp	.LBB25_17
.LBB25_93:
	movl	$12, %eax
	xorl	%ecx, %ecx
.LBB25_94:
	movq	32(%rsp), %r9
	leaq	208(%rsp), %r12
	jmp	.LBB25_15
.LBB25_95:
	movq	32(%rsp), %r9
	jmp	.LBB25_16
.LBB25_96:
	movl	$12, %eax
	xorl	%ecx, %ecx
	jmp	.LBB25_14
.LBB25_98:
	movq	408(%rsp), %rcx
	shrq	$5, %rcx
	movl	$16, %eax
	cmpq	%r14, %rcx
	jb	.LBB25_11
	testq	%r14, %r14
	je	.LBB25_107
	cmpq	$1, %r14
	jne	.LBB25_103
	xorl	%eax, %eax
	jmp	.LBB25_106
.LBB25_102:
	movl	$17, %eax
	jmp	.LBB25_11
.LBB25_103:
	movq	%r14, %rcx
	andq	$-2, %rcx
	leaq	2192(%rsp), %rdx
	xorl	%eax, %eax
	movq	72(%rsp), %rsi
.LBB25_104:
	movq	-24(%rdx), %rdi
	movzbl	272(%rsp,%rax), %r8d
	movzbl	480(%rsp,%rax), %r9d
	movl	%r8d, (%rsi)
	movl	%r9d, 4(%rsi)
	movups	-40(%rdx), %xmm0
	movups	%xmm0, 8(%rsi)
	movq	%rdi, 24(%rsi)
	movq	(%rdx), %rdi
	movzbl	273(%rsp,%rax), %r8d
	movzbl	481(%rsp,%rax), %r9d
	movl	%r8d, 32(%rsi)
	movl	%r9d, 36(%rsi)
	movupd	-16(%rdx), %xmm0
	movupd	%xmm0, 40(%rsi)
	movq	%rdi, 56(%rsi)
	addq	$2, %rax
	addq	$64, %rsi
	addq	$48, %rdx
	cmpq	%rax, %rcx
	jne	.LBB25_104
	testb	$1, %r14b
	je	.LBB25_107
.LBB25_106:
	leaq	(%rax,%rax,2), %rcx
	addq	$192, %rcx
	movq	632(%rsp,%rcx,8), %rdx
	movzbl	272(%rsp,%rax), %esi
	movzbl	480(%rsp,%rax), %edi
	shlq	$5, %rax
	movq	72(%rsp), %r8
	movl	%esi, (%r8,%rax)
	movl	%edi, 4(%r8,%rax)
	movupd	616(%rsp,%rcx,8), %xmm0
	movupd	%xmm0, 8(%r8,%rax)
	movq	%rdx, 24(%r8,%rax)
.LBB25_107:
	xorl	%eax, %eax
	jmp	.LBB25_12
.LBB25_108:
	movl	$11, %eax
	jmp	.LBB25_11
.Lfunc_end25:
	.size	uplink_integrate, .Lfunc_end25-uplink_integrate

	.section	.text.uplink_inverse,"ax",@progbits
	.globl	uplink_inverse
	.p2align	4
	.type	uplink_inverse,@function
uplink_inverse:
	pushq	%rbp
	pushq	%r15
	pushq	%r14
	pushq	%r13
	pushq	%r12
	pushq	%rbx
	movq	%rsp, %r11
	subq	$30720, %r11
.LBB26_1:
	subq	$3072, %rsp
	movq	$0, (%rsp)
	cmpq	%r11, %rsp
	jne	.LBB26_1
	subq	$568, %rsp
	movq	%r8, 136(%rsp)
	movq	%rcx, %r12
	movq	%rsi, %rbp
	xorl	%r13d, %r13d
	testq	%rdi, %rdi
	sete	%r13b
	shll	$12, %r13d
	addq	%rdi, %r13
	xorl	%r15d, %r15d
	testq	%rdx, %rdx
	sete	%r15b
	shll	$12, %r15d
	addq	%rdx, %r15
	xorps	%xmm0, %xmm0
	movaps	%xmm0, 16(%rsp)
	movaps	%xmm0, 32(%rsp)
	movaps	%xmm0, 144(%rsp)
	movaps	%xmm0, 160(%rsp)
	movaps	%xmm0, 2480(%rsp)
	movaps	%xmm0, 2496(%rsp)
	movaps	%xmm0, 2512(%rsp)
	movaps	%xmm0, 2528(%rsp)
	movaps	%xmm0, 2544(%rsp)
	movaps	%xmm0, 2560(%rsp)
	movaps	%xmm0, 2576(%rsp)
	movaps	%xmm0, 2592(%rsp)
	movaps	%xmm0, 2608(%rsp)
	movaps	%xmm0, 2624(%rsp)
	movaps	%xmm0, 2640(%rsp)
	movaps	%xmm0, 2656(%rsp)
	movaps	%xmm0, 2672(%rsp)
	movaps	%xmm0, 2688(%rsp)
	movaps	%xmm0, 2704(%rsp)
	movaps	%xmm0, 2720(%rsp)
	movaps	%xmm0, 1568(%rsp)
	movaps	%xmm0, 1552(%rsp)
	movaps	%xmm0, 1536(%rsp)
	movaps	%xmm0, 1520(%rsp)
	movaps	%xmm0, 1504(%rsp)
	movaps	%xmm0, 1488(%rsp)
	movaps	%xmm0, 1472(%rsp)
	movaps	%xmm0, 1456(%rsp)
	movaps	%xmm0, 1440(%rsp)
	movaps	%xmm0, 1424(%rsp)
	movaps	%xmm0, 1408(%rsp)
	movaps	%xmm0, 1392(%rsp)
	movaps	%xmm0, 1376(%rsp)
	movaps	%xmm0, 1360(%rsp)
	movaps	%xmm0, 1344(%rsp)
	movaps	%xmm0, 1328(%rsp)
	leaq	3640(%rsp), %rbx
	movl	$6144, %edx
	movq	%rbx, %rdi
	xorl	%esi, %esi
	callq	memset@PLT
	xorps	%xmm0, %xmm0
	movaps	%xmm0, 176(%rsp)
	movaps	%xmm0, 192(%rsp)
	movaps	%xmm0, 208(%rsp)
	movaps	%xmm0, 224(%rsp)
	movaps	%xmm0, 240(%rsp)
	movaps	%xmm0, 256(%rsp)
	movaps	%xmm0, 272(%rsp)
	movaps	%xmm0, 288(%rsp)
	movaps	%xmm0, 304(%rsp)
	movaps	%xmm0, 320(%rsp)
	movaps	%xmm0, 336(%rsp)
	movaps	%xmm0, 352(%rsp)
	movaps	%xmm0, 368(%rsp)
	movaps	%xmm0, 384(%rsp)
	movaps	%xmm0, 400(%rsp)
	movaps	%xmm0, 416(%rsp)
	leaq	2480(%rsp), %rax
	movq	%rax, 56(%rsp)
	movq	$256, 64(%rsp)
	leaq	1328(%rsp), %rax
	movq	%rax, 72(%rsp)
	movq	$256, 80(%rsp)
	movq	%rbx, 88(%rsp)
	movq	$256, 96(%rsp)
	leaq	176(%rsp), %rax
	movq	%rax, 104(%rsp)
	movq	$256, 112(%rsp)
	leaq	144(%rsp), %rbx
	leaq	56(%rsp), %r14
	movl	$256, %r8d
	movq	%rbx, %rdi
	movq	%r13, %rsi
	movq	%rbp, 120(%rsp)
	movq	%rbp, %rdx
	movq	%r14, %rcx
	callq	"algebra::lists::read_sum"
	movq	%r12, 128(%rsp)
	movq	%r12, (%rsp)
	leaq	16(%rsp), %rdi
	movl	$3, %esi
	xorl	%edx, %edx
	movq	%rbx, %rcx
	movq	%r14, %r8
	movq	%r15, %r9
	callq	"algebra::lists::make_of"
	movzbl	16(%rsp), %ecx
	movzbl	17(%rsp), %eax
	testb	%cl, %cl
	setne	%dl
	cmpb	$11, %al
	sete	%sil
	andb	%dl, %sil
	cmpb	$1, %sil
	jne	.LBB26_4
	xorps	%xmm0, %xmm0
	movaps	%xmm0, 16(%rsp)
	movaps	%xmm0, 32(%rsp)
	movaps	%xmm0, 144(%rsp)
	movaps	%xmm0, 160(%rsp)
	movl	$1152, %edx
	leaq	2480(%rsp), %r14
	movq	%r14, %rdi
	xorl	%esi, %esi
	callq	memset@PLT
	movl	$1152, %edx
	leaq	1328(%rsp), %r12
	movq	%r12, %rdi
	xorl	%esi, %esi
	callq	memset@PLT
	movl	$27648, %edx
	leaq	3640(%rsp), %rbx
	movq	%rbx, %rdi
	xorl	%esi, %esi
	callq	memset@PLT
	movl	$1152, %edx
	leaq	176(%rsp), %rbp
	movq	%rbp, %rdi
	xorl	%esi, %esi
	callq	memset@PLT
	movq	%r14, 56(%rsp)
	movq	$1152, 64(%rsp)
	movq	%r12, 72(%rsp)
	movq	$1152, 80(%rsp)
	movq	%rbx, 88(%rsp)
	movq	$1152, 96(%rsp)
	movq	%rbp, 104(%rsp)
	movq	$1152, 112(%rsp)
	leaq	144(%rsp), %rbx
	leaq	56(%rsp), %r14
	movl	$1152, %r8d
	movq	%rbx, %rdi
	movq	%r13, %rsi
	movq	120(%rsp), %rdx
	movq	%r14, %rcx
	callq	"algebra::lists::read_sum"
	movq	128(%rsp), %rax
	movq	%rax, (%rsp)
	leaq	16(%rsp), %rdi
	movl	$3, %esi
	xorl	%edx, %edx
	movq	%rbx, %rcx
	movq	%r14, %r8
	movq	%r15, %r9
	callq	"algebra::lists::make_of"
	movzbl	16(%rsp), %ecx
	movzbl	17(%rsp), %eax
.LBB26_4:
	movq	24(%rsp), %rdx
	testb	%cl, %cl
	movzbl	%al, %eax
	movl	$0, %edi
	cmovel	%edi, %eax
	movzbl	%al, %eax
	movq	%rdx, %rsi
	cmoveq	%rdi, %rsi
	cmovneq	%rdi, %rdx
	incq	%rax
	testb	%cl, %cl
	cmoveq	%rdi, %rax
	movq	136(%rsp), %rcx
	movq	%rsi, (%rcx)
	movq	%rdx, 8(%rcx)
	addq	$31288, %rsp
	popq	%rbx
	popq	%r12
	popq	%r13
	popq	%r14
	popq	%r15
	popq	%rbp
	retq
.Lfunc_end26:
	.size	uplink_inverse, .Lfunc_end26-uplink_inverse

	.section	.text.uplink_read,"ax",@progbits
	.globl	uplink_read
	.p2align	4
	.type	uplink_read,@function
uplink_read:
	pushq	%rbp
	pushq	%r15
	pushq	%r14
	pushq	%r13
	pushq	%r12
	pushq	%rbx
	movq	%rsp, %r11
	subq	$30720, %r11
.LBB27_1:
	subq	$3072, %rsp
	movq	$0, (%rsp)
	cmpq	%r11, %rsp
	jne	.LBB27_1
	subq	$504, %rsp
	movq	%r8, 104(%rsp)
	movq	%rcx, %rbp
	movq	%rsi, %r14
	xorl	%r12d, %r12d
	testq	%rdi, %rdi
	sete	%r12b
	shll	$12, %r12d
	addq	%rdi, %r12
	xorl	%r15d, %r15d
	testq	%rdx, %rdx
	sete	%r15b
	shll	$12, %r15d
	addq	%rdx, %r15
	xorps	%xmm0, %xmm0
	movaps	%xmm0, 16(%rsp)
	movaps	%xmm0, (%rsp)
	movaps	%xmm0, 112(%rsp)
	movaps	%xmm0, 128(%rsp)
	movaps	%xmm0, 144(%rsp)
	movaps	%xmm0, 160(%rsp)
	movaps	%xmm0, 176(%rsp)
	movaps	%xmm0, 192(%rsp)
	movaps	%xmm0, 208(%rsp)
	movaps	%xmm0, 224(%rsp)
	movaps	%xmm0, 240(%rsp)
	movaps	%xmm0, 256(%rsp)
	movaps	%xmm0, 272(%rsp)
	movaps	%xmm0, 288(%rsp)
	movaps	%xmm0, 304(%rsp)
	movaps	%xmm0, 320(%rsp)
	movaps	%xmm0, 336(%rsp)
	movaps	%xmm0, 352(%rsp)
	movaps	%xmm0, 2656(%rsp)
	movaps	%xmm0, 2640(%rsp)
	movaps	%xmm0, 2624(%rsp)
	movaps	%xmm0, 2608(%rsp)
	movaps	%xmm0, 2592(%rsp)
	movaps	%xmm0, 2576(%rsp)
	movaps	%xmm0, 2560(%rsp)
	movaps	%xmm0, 2544(%rsp)
	movaps	%xmm0, 2528(%rsp)
	movaps	%xmm0, 2512(%rsp)
	movaps	%xmm0, 2496(%rsp)
	movaps	%xmm0, 2480(%rsp)
	movaps	%xmm0, 2464(%rsp)
	movaps	%xmm0, 2448(%rsp)
	movaps	%xmm0, 2432(%rsp)
	movaps	%xmm0, 2416(%rsp)
	leaq	3576(%rsp), %r13
	movl	$6144, %edx
	movq	%r13, %rdi
	xorl	%esi, %esi
	callq	memset@PLT
	xorps	%xmm0, %xmm0
	movaps	%xmm0, 1264(%rsp)
	movaps	%xmm0, 1280(%rsp)
	movaps	%xmm0, 1296(%rsp)
	movaps	%xmm0, 1312(%rsp)
	movaps	%xmm0, 1328(%rsp)
	movaps	%xmm0, 1344(%rsp)
	movaps	%xmm0, 1360(%rsp)
	movaps	%xmm0, 1376(%rsp)
	movaps	%xmm0, 1392(%rsp)
	movaps	%xmm0, 1408(%rsp)
	movaps	%xmm0, 1424(%rsp)
	movaps	%xmm0, 1440(%rsp)
	movaps	%xmm0, 1456(%rsp)
	movaps	%xmm0, 1472(%rsp)
	movaps	%xmm0, 1488(%rsp)
	movaps	%xmm0, 1504(%rsp)
	leaq	112(%rsp), %rax
	movq	%rax, 32(%rsp)
	movq	$256, 40(%rsp)
	leaq	2416(%rsp), %rax
	movq	%rax, 48(%rsp)
	movq	$256, 56(%rsp)
	movq	%r13, 64(%rsp)
	movq	$256, 72(%rsp)
	leaq	1264(%rsp), %rax
	movq	%rax, 80(%rsp)
	movq	$256, 88(%rsp)
	movq	%rsp, %rdi
	leaq	32(%rsp), %rcx
	movl	$256, %r8d
	movq	%r12, %rsi
	movq	%r14, %rbx
	movq	%r14, %rdx
	callq	"algebra::lists::read_sum"
	movq	8(%rsp), %rcx
	cmpb	$1, (%rsp)
	jne	.LBB27_7
	movq	%rbp, 96(%rsp)
	movzbl	1(%rsp), %eax
	cmpb	$11, %al
	jne	.LBB27_23
	xorps	%xmm0, %xmm0
	movaps	%xmm0, 16(%rsp)
	movaps	%xmm0, (%rsp)
	movl	$1152, %edx
	leaq	112(%rsp), %rdi
	xorl	%esi, %esi
	callq	memset@PLT
	movl	$1152, %edx
	leaq	2416(%rsp), %r14
	movq	%r14, %rdi
	xorl	%esi, %esi
	callq	memset@PLT
	movl	$27648, %edx
	movq	%r13, %rdi
	xorl	%esi, %esi
	callq	memset@PLT
	movl	$1152, %edx
	leaq	1264(%rsp), %rbp
	movq	%rbp, %rdi
	xorl	%esi, %esi
	callq	memset@PLT
	leaq	112(%rsp), %rax
	movq	%rax, 32(%rsp)
	movq	$1152, 40(%rsp)
	movq	%r14, 48(%rsp)
	movq	$1152, 56(%rsp)
	movq	%r13, 64(%rsp)
	movq	$1152, 72(%rsp)
	movq	%rbp, 80(%rsp)
	movq	$1152, 88(%rsp)
	movq	%rsp, %rdi
	leaq	32(%rsp), %rcx
	movl	$1152, %r8d
	movq	%r12, %rsi
	movq	%rbx, %rdx
	callq	"algebra::lists::read_sum"
	movq	8(%rsp), %rcx
	cmpb	$1, (%rsp)
	jne	.LBB27_11
	movb	$1, %dil
	movzbl	1(%rsp), %eax
	xorl	%esi, %esi
	xorl	%edx, %edx
	testb	%dil, %dil
	jne	.LBB27_23
.LBB27_6:
	xorl	%eax, %eax
	xorl	%edi, %edi
	jmp	.LBB27_24
.LBB27_7:
	movzbl	16(%rsp), %esi
	shrq	$5, %rbp
	cmpq	%rcx, %rbp
	movq	%rbp, %r13
	jb	.LBB27_15
	movq	24(%rsp), %rdx
	testq	%rcx, %rcx
	je	.LBB27_16
	movq	32(%rsp), %rdi
	movq	48(%rsp), %r8
	movq	64(%rsp), %rax
	cmpq	$1, %rcx
	jne	.LBB27_17
.LBB27_10:
	xorl	%r9d, %r9d
	jmp	.LBB27_20
.LBB27_11:
	movzbl	16(%rsp), %esi
	movq	96(%rsp), %r13
	shrq	$5, %r13
	cmpq	%rcx, %r13
	jb	.LBB27_15
	movq	24(%rsp), %rdx
	testq	%rcx, %rcx
	je	.LBB27_16
	movq	32(%rsp), %rdi
	movq	48(%rsp), %r8
	movq	64(%rsp), %rax
	cmpq	$1, %rcx
	je	.LBB27_10
	movq	%rcx, %r10
	andq	$-2, %r10
	leaq	3112(%rax), %r11
	xorl	%r9d, %r9d
	movq	%r15, %rbx
	.p2align	4
.LBB27_26:
	movq	-24(%r11), %r14
	movzbl	128(%rdi,%r9), %ebp
	movzbl	128(%r8,%r9), %r12d
	movups	-40(%r11), %xmm0
	movl	%ebp, (%rbx)
	movl	%r12d, 4(%rbx)
	movups	%xmm0, 8(%rbx)
	movq	%r14, 24(%rbx)
	movq	(%r11), %r14
	movzbl	129(%rdi,%r9), %ebp
	movzbl	129(%r8,%r9), %r12d
	movups	-16(%r11), %xmm0
	movl	%ebp, 32(%rbx)
	movl	%r12d, 36(%rbx)
	movups	%xmm0, 40(%rbx)
	movq	%r14, 56(%rbx)
	addq	$2, %r9
	addq	$64, %rbx
	addq	$48, %r11
	cmpq	%r9, %r10
	jne	.LBB27_26
	jmp	.LBB27_19
.LBB27_15:
	movb	$1, %dil
	movb	$16, %al
	xorl	%edx, %edx
	xorl	%r8d, %r8d
	jmp	.LBB27_22
.LBB27_16:
	xorl	%eax, %eax
	xorl	%edi, %edi
	xorl	%r8d, %r8d
	jmp	.LBB27_22
.LBB27_17:
	movq	%rcx, %r10
	andq	$-2, %r10
	leaq	3112(%rax), %r11
	xorl	%r9d, %r9d
	movq	%r15, %rbx
	.p2align	4
.LBB27_18:
	movq	-24(%r11), %r14
	movzbl	128(%rdi,%r9), %ebp
	movzbl	128(%r8,%r9), %r12d
	movups	-40(%r11), %xmm0
	movl	%ebp, (%rbx)
	movl	%r12d, 4(%rbx)
	movups	%xmm0, 8(%rbx)
	movq	%r14, 24(%rbx)
	movq	(%r11), %r14
	movzbl	129(%rdi,%r9), %ebp
	movzbl	129(%r8,%r9), %r12d
	movups	-16(%r11), %xmm0
	movl	%ebp, 32(%rbx)
	movl	%r12d, 36(%rbx)
	movups	%xmm0, 40(%rbx)
	movq	%r14, 56(%rbx)
	addq	$2, %r9
	addq	$64, %rbx
	addq	$48, %r11
	cmpq	%r9, %r10
	jne	.LBB27_18
.LBB27_19:
	testb	$1, %cl
	je	.LBB27_21
.LBB27_20:
	leaq	(%r9,%r9,2), %r10
	addq	$384, %r10
	movq	16(%rax,%r10,8), %r11
	movzbl	128(%rdi,%r9), %edi
	movzbl	128(%r8,%r9), %r8d
	shlq	$5, %r9
	movups	(%rax,%r10,8), %xmm0
	movl	%edi, (%r15,%r9)
	movl	%r8d, 4(%r15,%r9)
	movups	%xmm0, 8(%r15,%r9)
	movq	%r11, 24(%r15,%r9)
.LBB27_21:
	xorl	%eax, %eax
	xorl	%edi, %edi
	movq	%rcx, %r8
.LBB27_22:
	cmpq	%rcx, %r13
	setae	%cl
	andb	%sil, %cl
	movzbl	%cl, %esi
	movq	%r8, %rcx
	testb	%dil, %dil
	je	.LBB27_6
.LBB27_23:
	movzbl	%al, %eax
	incq	%rax
	xorl	%esi, %esi
	movq	%rcx, %rdi
	xorl	%ecx, %ecx
	xorl	%edx, %edx
.LBB27_24:
	movq	104(%rsp), %r8
	movq	%rdi, (%r8)
	movq	%rcx, 8(%r8)
	movq	%rsi, 16(%r8)
	movq	%rdx, 24(%r8)
	addq	$31224, %rsp
	popq	%rbx
	popq	%r12
	popq	%r13
	popq	%r14
	popq	%r15
	popq	%rbp
	retq
.Lfunc_end27:
	.size	uplink_read, .Lfunc_end27-uplink_read

	.section	.text.uplink_run,"ax",@progbits
	.globl	uplink_run
	.p2align	4
	.type	uplink_run,@function
uplink_run:
	pushq	%rbp
	pushq	%r15
	pushq	%r14
	pushq	%r13
	pushq	%r12
	pushq	%rbx
	subq	$2280, %rsp
	movq	%rcx, %rbp
	movq	%rdx, %r11
	movq	%rsi, %r10
	xorl	%r9d, %r9d
	testq	%rdi, %rdi
	sete	%sil
	movabsq	$-6148914691236517205, %rcx
	movq	%r10, %rax
	mulq	%rcx
	xorl	%r8d, %r8d
	cmpq	$49175, %r10
	ja	.LBB28_74
	shrq	$4, %rdx
	leaq	(,%rdx,8), %rax
	leaq	(%rax,%rax,2), %rax
	movq	%r10, %rcx
	subq	%rax, %rcx
	jne	.LBB28_74
	movb	%sil, %r9b
	shll	$12, %r9d
	leaq	(%rdi,%r9), %r14
	cmpq	$24, %r10
	jb	.LBB28_47
	leaq	(%r9,%rdi), %r8
	addq	$16, %r8
	xorl	%eax, %eax
	.p2align	4
.LBB28_4:
	movq	-16(%r8), %rsi
	cmpq	$1, %rsi
	sete	%cl
	andq	$-65281, %rsi
	xorq	$5, %rsi
	orq	-8(%r8), %rsi
	sete	%sil
	cmpq	$0, (%r8)
	jne	.LBB28_7
	orb	%sil, %cl
	je	.LBB28_7
	incq	%rax
	addq	$24, %r8
	cmpq	%rax, %rdx
	jne	.LBB28_4
	jmp	.LBB28_47
.LBB28_7:
	cmpq	%rax, %rdx
	je	.LBB28_47
	movq	%r10, 72(%rsp)
	movq	%rbp, 40(%rsp)
	movq	%r11, 24(%rsp)
	xorpd	%xmm1, %xmm1
	movapd	%xmm1, 208(%rsp)
	movapd	%xmm1, 224(%rsp)
	movapd	%xmm1, 240(%rsp)
	movapd	%xmm1, 256(%rsp)
	movapd	%xmm1, 272(%rsp)
	movapd	%xmm1, 288(%rsp)
	movapd	%xmm1, 304(%rsp)
	movapd	%xmm1, 320(%rsp)
	movapd	%xmm1, 336(%rsp)
	movapd	%xmm1, 352(%rsp)
	movapd	%xmm1, 368(%rsp)
	movapd	%xmm1, 384(%rsp)
	movapd	%xmm1, 400(%rsp)
	movapd	%xmm1, 416(%rsp)
	movapd	%xmm1, 432(%rsp)
	movapd	%xmm1, 448(%rsp)
	movapd	%xmm1, 80(%rsp)
	movapd	%xmm1, 96(%rsp)
	movapd	%xmm1, 112(%rsp)
	movapd	%xmm1, 128(%rsp)
	movapd	%xmm1, 144(%rsp)
	movapd	%xmm1, 160(%rsp)
	movapd	%xmm1, 176(%rsp)
	movapd	%xmm1, 192(%rsp)
	addq	%rdi, %r9
	addq	$16, %r9
	xorl	%ebp, %ebp
	movq	%rdx, %r12
	xorl	%r8d, %r8d
	.p2align	4
.LBB28_9:
	movq	%rax, %r10
	movq	%r12, %rax
.LBB28_10:
	testb	$1, %bpl
	je	.LBB28_15
.LBB28_11:
	cmpq	%rax, %r10
	je	.LBB28_20
	leaq	(%r10,%r10,2), %rdi
	movl	4(%r14,%rdi,8), %r15d
	movq	8(%r14,%rdi,8), %r13
	movq	16(%r14,%rdi,8), %r12
	movzbl	(%r14,%rdi,8), %r11d
	movzbl	1(%r14,%rdi,8), %esi
	movzbl	3(%r14,%rdi,8), %ecx
	cmpl	$7, %r11d
	je	.LBB28_22
	movzbl	2(%r14,%rdi,8), %edi
	cmpl	$6, %r11d
	jne	.LBB28_24
	orb	%dil, %cl
	jmp	.LBB28_23
	.p2align	4
.LBB28_15:
	cmpq	%rax, %r10
	jae	.LBB28_20
	leaq	(%r10,%r10,2), %rcx
	leaq	(%r9,%rcx,8), %r11
	.p2align	4
.LBB28_17:
	movq	-16(%r11), %rsi
	cmpq	$1, %rsi
	sete	%cl
	andq	$-65281, %rsi
	xorq	$5, %rsi
	orq	-8(%r11), %rsi
	sete	%sil
	cmpq	$0, (%r11)
	jne	.LBB28_11
	orb	%sil, %cl
	je	.LBB28_11
	incq	%r10
	addq	$24, %r11
	cmpq	%r10, %rax
	jne	.LBB28_17
	jmp	.LBB28_20
	.p2align	4
.LBB28_22:
	orb	%sil, %cl
.LBB28_23:
	sete	%cl
	orq	%r13, %r12
	sete	%bl
	andb	%cl, %bl
	jmp	.LBB28_25
	.p2align	4
.LBB28_24:
	leal	-1(%r11), %ebx
	cmpb	$13, %bl
	movq	%r8, 32(%rsp)
	movq	%rdx, %r8
	movq	%r9, %rdx
	setb	%r9b
	cmpb	$2, %r11b
	sete	23(%rsp)
	testb	%cl, %cl
	sete	%cl
	andb	%r9b, %cl
	testb	%sil, %sil
	sete	%sil
	leal	-5(%r11), %r9d
	cmpb	$2, %r9b
	setb	%r9b
	orb	%sil, %r9b
	andb	%cl, %r9b
	testb	%dil, %dil
	sete	%cl
	testq	%r15, %r15
	sete	%sil
	leal	-6(%r11), %edi
	cmpb	$4, %dil
	setb	%dil
	orb	%sil, %dil
	andb	%cl, %dil
	andb	%r9b, %dil
	movq	%rdx, %r9
	movq	%r8, %rdx
	movq	32(%rsp), %r8
	testq	%r13, %r13
	sete	%cl
	cmpb	$2, %bl
	setb	%sil
	orb	%cl, %sil
	testq	%r12, %r12
	sete	%bl
	orb	23(%rsp), %bl
	andb	%sil, %bl
	andb	%dil, %bl
.LBB28_25:
	leaq	(%r10,%r15), %r12
	incq	%r12
	cmpb	$7, %r11b
	setne	%cl
	cmpq	%rax, %r12
	ja	.LBB28_31
	xorb	%bpl, %cl
	testb	$1, %cl
	je	.LBB28_31
	testb	%bl, %bl
	je	.LBB28_31
	incq	%r10
	testq	%r15, %r15
	je	.LBB28_10
	cmpq	$128, %r8
	je	.LBB28_31
	movw	%ax, 208(%rsp,%r8,2)
	movb	%bpl, 80(%rsp,%r8)
	incq	%r8
	cmpb	$6, %r11b
	sete	%bpl
	movq	%r10, %rax
	jmp	.LBB28_9
	.p2align	4
.LBB28_20:
	testq	%r8, %r8
	je	.LBB28_46
	movzwl	206(%rsp,%r8,2), %r12d
	movzbl	79(%rsp,%r8), %ebp
	decq	%r8
	jmp	.LBB28_9
.LBB28_31:
	movq	%rdx, %rax
	movq	40(%rsp), %rbp
	jmp	.LBB28_33
.LBB28_32:
	movq	32(%rsp), %rax
	decq	%rax
	je	.LBB28_65
.LBB28_33:
	leaq	-8(,%rax,8), %rcx
	leaq	(%rcx,%rcx,2), %rcx
	movl	4(%r14,%rcx), %edi
	leaq	(%rax,%rdi), %rsi
	cmpq	%rsi, %rdx
	jb	.LBB28_63
	movq	%rax, 32(%rsp)
	testl	%edi, %edi
	je	.LBB28_32
	movzbl	(%r14,%rcx), %edi
	movq	32(%rsp), %r9
	.p2align	4
.LBB28_36:
	leaq	(%r9,%r9,2), %rbx
	movl	4(%r14,%rbx,8), %r8d
	movq	8(%r14,%rbx,8), %r15
	movq	16(%r14,%rbx,8), %r11
	movzbl	(%r14,%rbx,8), %r10d
	movzbl	1(%r14,%rbx,8), %ecx
	movzbl	3(%r14,%rbx,8), %r13d
	cmpl	$7, %r10d
	je	.LBB28_39
	movzbl	2(%r14,%rbx,8), %r12d
	cmpl	$6, %r10d
	jne	.LBB28_41
	orb	%r12b, %r13b
	jmp	.LBB28_40
	.p2align	4
.LBB28_39:
	orb	%cl, %r13b
.LBB28_40:
	sete	%cl
	orq	%r15, %r11
	sete	%r11b
	andb	%cl, %r11b
	jmp	.LBB28_42
	.p2align	4
.LBB28_41:
	leal	-1(%r10), %ebx
	cmpb	$13, %bl
	setb	%al
	cmpb	$2, %r10b
	sete	%bpl
	testb	%r13b, %r13b
	sete	%r13b
	andb	%al, %r13b
	testb	%cl, %cl
	sete	%al
	leal	-5(%r10), %ecx
	cmpb	$2, %cl
	setb	%cl
	orb	%al, %cl
	andb	%r13b, %cl
	testb	%r12b, %r12b
	sete	%al
	testq	%r8, %r8
	sete	%r12b
	leal	-6(%r10), %r13d
	cmpb	$4, %r13b
	setb	%r13b
	orb	%r12b, %r13b
	andb	%al, %r13b
	andb	%cl, %r13b
	testq	%r15, %r15
	sete	%al
	cmpb	$2, %bl
	setb	%cl
	orb	%al, %cl
	testq	%r11, %r11
	sete	%r11b
	orb	%bpl, %r11b
	movq	40(%rsp), %rbp
	andb	%cl, %r11b
	andb	%r13b, %r11b
.LBB28_42:
	cmpb	$6, %dil
	sete	%cl
	addq	%r8, %r9
	incq	%r9
	cmpb	$7, %r10b
	setne	%r10b
	xorl	%r8d, %r8d
	cmpq	%rsi, %r9
	ja	.LBB28_64
	xorb	%r10b, %cl
	je	.LBB28_64
	testb	%r11b, %r11b
	je	.LBB28_64
	cmpq	%rsi, %r9
	jb	.LBB28_36
	jmp	.LBB28_32
.LBB28_46:
	movq	24(%rsp), %r11
	movq	40(%rsp), %rbp
	movq	72(%rsp), %r10
.LBB28_47:
	movapd	%xmm0, %xmm2
	subsd	%xmm0, %xmm2
	xorpd	%xmm1, %xmm1
	ucomisd	%xmm1, %xmm2
	jne	.LBB28_50
	jp	.LBB28_50
	movsd	%xmm0, 32(%rsp)
	movq	%r11, %rbx
	movq	%rdx, %r15
	leaq	216(%rsp), %rdi
	cmpq	$1560, %r10
	jae	.LBB28_51
	movl	$536, %edx
	jmp	.LBB28_52
.LBB28_50:
	movl	$14, %esi
	xorl	%r8d, %r8d
	jmp	.LBB28_55
.LBB28_51:
	movl	$2064, %edx
.LBB28_52:
	xorl	%esi, %esi
	callq	memset@PLT
	xorpd	%xmm0, %xmm0
	movapd	%xmm0, 96(%rsp)
	movapd	%xmm0, 80(%rsp)
	movsd	32(%rsp), %xmm0
	movsd	%xmm0, 208(%rsp)
	movq	$1, 48(%rsp)
	movq	$0, 56(%rsp)
	movq	$1, 64(%rsp)
	movq	$129, 8(%rsp)
	movq	$0, (%rsp)
	leaq	80(%rsp), %rdi
	leaq	208(%rsp), %r8
	leaq	48(%rsp), %r9
	movq	%r14, %rsi
	xorl	%edx, %edx
	movq	%r15, %rcx
	callq	"running::run::walk"
	cmpb	$0, 80(%rsp)
	je	.LBB28_58
	movzbl	88(%rsp), %esi
	movq	96(%rsp), %r8
	movb	$1, %al
	xorl	%edx, %edx
	movq	%rbx, %r11
.LBB28_54:
	testb	%al, %al
	jne	.LBB28_55
	xorl	%eax, %eax
	xorl	%ecx, %ecx
	jmp	.LBB28_56
.LBB28_58:
	movb	$1, %al
	movq	88(%rsp), %r8
	testq	%r8, %r8
	movq	%rbx, %r11
	je	.LBB28_61
	cmpq	$1, %r8
	jne	.LBB28_62
	movq	96(%rsp), %r8
	movq	104(%rsp), %rdx
	movq	208(%rsp), %rsi
	xorl	%eax, %eax
	jmp	.LBB28_54
.LBB28_61:
	movl	$2, %esi
	movq	%r8, %rdx
	jmp	.LBB28_54
.LBB28_62:
	movl	$3, %esi
	xorl	%r8d, %r8d
	xorl	%edx, %edx
	jmp	.LBB28_54
.LBB28_63:
	xorl	%r8d, %r8d
.LBB28_64:
	movl	$10, %esi
	movq	24(%rsp), %r11
	jmp	.LBB28_55
.LBB28_65:
	xorl	%eax, %eax
	movq	24(%rsp), %r11
.LBB28_66:
	leaq	(,%rax,8), %rcx
	leaq	(%rcx,%rcx,2), %r15
	movl	4(%r14,%r15), %esi
	movq	8(%r14,%r15), %r8
	movq	16(%r14,%r15), %rdi
	movzbl	(%r14,%r15), %r9d
	movzbl	2(%r14,%r15), %ebx
	movzbl	3(%r14,%r15), %ecx
	cmpl	$6, %r9d
	je	.LBB28_69
	cmpl	$7, %r9d
	je	.LBB28_73
	leal	-1(%r9), %r11d
	cmpb	$13, %r11b
	setb	%bpl
	cmpb	$2, %r9b
	sete	%r10b
	testb	%cl, %cl
	sete	%cl
	andb	%bpl, %cl
	cmpb	$0, 1(%r14,%r15)
	sete	%bpl
	leal	-5(%r9), %r15d
	cmpb	$2, %r15b
	setb	%r15b
	orb	%bpl, %r15b
	movq	40(%rsp), %rbp
	andb	%cl, %r15b
	testb	%bl, %bl
	sete	%cl
	testq	%rsi, %rsi
	sete	%bl
	addb	$-6, %r9b
	cmpb	$4, %r9b
	setb	%r9b
	orb	%bl, %r9b
	andb	%cl, %r9b
	andb	%r15b, %r9b
	testq	%r8, %r8
	sete	%cl
	cmpb	$2, %r11b
	movq	24(%rsp), %r11
	setb	%r8b
	orb	%cl, %r8b
	testq	%rdi, %rdi
	sete	%cl
	orb	%r10b, %cl
	andb	%r8b, %cl
	jmp	.LBB28_70
.LBB28_69:
	orb	%bl, %cl
	sete	%r9b
	orq	%r8, %rdi
	sete	%cl
.LBB28_70:
	andb	%r9b, %cl
	addq	%rsi, %rax
	incq	%rax
	xorl	%r8d, %r8d
	cmpq	%rdx, %rax
	ja	.LBB28_74
	testb	%cl, %cl
	je	.LBB28_74
	movl	$12, %esi
	xorl	%r8d, %r8d
	cmpq	%rdx, %rax
	jb	.LBB28_66
	jmp	.LBB28_55
.LBB28_73:
	xorl	%r8d, %r8d
.LBB28_74:
	movl	$10, %esi
.LBB28_55:
	movzbl	%sil, %eax
	incq	%rax
	xorl	%esi, %esi
	movq	%r8, %rcx
	xorl	%r8d, %r8d
	xorl	%edx, %edx
.LBB28_56:
	movq	%rcx, (%rbp)
	movq	%r8, 8(%rbp)
	movq	%rdx, 16(%rbp)
	movq	%rsi, (%r11)
	addq	$2280, %rsp
	popq	%rbx
	popq	%r12
	popq	%r13
	popq	%r14
	popq	%r15
	popq	%rbp
	retq
.Lfunc_end28:
	.size	uplink_run, .Lfunc_end28-uplink_run

	.section	.rodata.cst8,"aM",@progbits,8
	.p2align	3, 0x0
.LCPI29_0:
	.quad	0xbcb0000000000000
.LCPI29_1:
	.quad	0x3cb0000000000000
.LCPI29_2:
	.quad	0xc330000000000000
.LCPI29_3:
	.quad	0x4330000000000000
.LCPI29_4:
	.quad	0x4050000000000000
.LCPI29_5:
	.quad	0x3ff0000000000000
.LCPI29_6:
	.quad	0xbff0000000000000
.LCPI29_7:
	.quad	0x43e0000000000000
	.section	.text.uplink_value,"ax",@progbits
	.globl	uplink_value
	.p2align	4
	.type	uplink_value,@function
uplink_value:
	pushq	%rbp
	pushq	%r15
	pushq	%r14
	pushq	%r13
	pushq	%r12
	pushq	%rbx
	subq	$1784, %rsp
	movq	%rcx, %r14
	movq	%rdx, %r13
	xorl	%eax, %eax
	testq	%rdi, %rdi
	sete	%cl
	cmpq	$2079, %rsi
	ja	.LBB29_79
	movq	%rsi, %r15
	movl	%r15d, %edx
	andl	$31, %edx
	jne	.LBB29_79
	shrq	$5, %r15
	je	.LBB29_79
	movapd	%xmm0, %xmm9
	movb	%cl, %al
	shll	$12, %eax
	leaq	(%rdi,%rax), %r12
	movapd	%xmm0, %xmm1
	subsd	%xmm9, %xmm1
	xorpd	%xmm0, %xmm0
	xorps	%xmm15, %xmm15
	movsd	%xmm1, 48(%rsp)
	ucomisd	%xmm15, %xmm1
	movsd	%xmm9, 24(%rsp)
	jne	.LBB29_81
	jp	.LBB29_81
	movabsq	$9218868437227405312, %rcx
	movsd	.LCPI29_0(%rip), %xmm1
	movsd	.LCPI29_1(%rip), %xmm2
	movsd	.LCPI29_2(%rip), %xmm4
	movsd	.LCPI29_3(%rip), %xmm5
	movsd	.LCPI29_4(%rip), %xmm6
	movsd	.LCPI29_5(%rip), %xmm3
	movsd	%xmm3, 40(%rsp)
	movapd	%xmm9, %xmm3
	mulsd	%xmm0, %xmm3
	movq	%r15, %rsi
	negq	%rsi
	addq	%rdi, %rax
	addq	$56, %rax
	movq	%rax, 56(%rsp)
	movb	$1, %dl
	movl	$1, %ebx
	movsd	.LCPI29_6(%rip), %xmm10
	xorl	%r8d, %r8d
	movq	$0, 16(%rsp)
	movb	$1, %r10b
	movq	%r14, 8(%rsp)
.LBB29_5:
	movq	%r13, %r14
	movq	%r8, %r13
	shlq	$5, %r13
	cmpq	$1, (%r12,%r13)
	jne	.LBB29_80
	movq	8(%r12,%r13), %r11
	movq	%r11, %rax
	andq	%rcx, %rax
	cmpq	%rcx, %rax
	je	.LBB29_80
	movq	16(%r12,%r13), %rax
	movq	%rax, %rdi
	andq	%rcx, %rdi
	cmpq	%rcx, %rdi
	je	.LBB29_80
	movq	24(%r12,%r13), %rdi
	movq	%rdi, %r9
	andq	%rcx, %r9
	cmpq	%rcx, %r9
	je	.LBB29_80
	movq	%r11, %xmm13
	movdqa	%xmm13, %xmm8
	ucomisd	%xmm10, %xmm8
	jbe	.LBB29_80
	movq	%rax, %xmm11
	movq	%rdi, %xmm10
	movdqa	%xmm11, %xmm12
	ucomisd	%xmm15, %xmm12
	setnp	%al
	sete	%dil
	andb	%al, %dil
	ucomisd	%xmm15, %xmm10
	setnp	%al
	sete	%bpl
	andb	%al, %bpl
	testb	%bpl, %dil
	jne	.LBB29_60
	movapd	%xmm1, %xmm14
	cmpltsd	%xmm10, %xmm14
	cmpltsd	%xmm2, %xmm10
	andpd	%xmm14, %xmm10
	movd	%xmm10, %eax
	andb	%dl, %al
	movl	%eax, %edx
	andb	$1, %dl
	ucomisd	%xmm15, %xmm8
	jne	.LBB29_12
	jnp	.LBB29_61
.LBB29_12:
	ucomisd	%xmm8, %xmm4
	jae	.LBB29_16
	ucomisd	%xmm5, %xmm8
	jae	.LBB29_16
	ucomisd	%xmm8, %xmm15
	jbe	.LBB29_17
	movsd	.LCPI29_2(%rip), %xmm10
	addsd	%xmm13, %xmm10
	addsd	.LCPI29_3(%rip), %xmm10
	jmp	.LBB29_18
	.p2align	4
.LBB29_16:
	movapd	%xmm13, %xmm10
	subsd	%xmm13, %xmm10
	cmpeqsd	%xmm15, %xmm10
	movq	%xmm10, %rax
	andl	$1, %eax
	ucomisd	%xmm8, %xmm6
	jae	.LBB29_19
	jmp	.LBB29_21
.LBB29_17:
	movsd	.LCPI29_3(%rip), %xmm10
	addsd	%xmm13, %xmm10
	addsd	.LCPI29_2(%rip), %xmm10
.LBB29_18:
	cmpeqsd	%xmm8, %xmm10
	movq	%xmm10, %rax
	andl	$1, %eax
	ucomisd	%xmm8, %xmm6
	jb	.LBB29_21
.LBB29_19:
	ucomisd	%xmm15, %xmm8
	jbe	.LBB29_21
	testb	%al, %al
	jne	.LBB29_62
.LBB29_21:
	incq	%r8
	xorpd	%xmm8, %xmm8
	movl	$14, %eax
	cmpq	%r15, %r8
	je	.LBB29_131
	addq	56(%rsp), %r13
	movapd	%xmm13, %xmm10
	jmp	.LBB29_24
	.p2align	4
.LBB29_23:
	incq	%r8
	addq	$32, %r13
	movq	%rsi, %rdi
	addq	%r8, %rdi
	je	.LBB29_131
.LBB29_24:
	cmpq	$1, -24(%r13)
	jne	.LBB29_80
	movq	-16(%r13), %r11
	movq	%r11, %rdi
	andq	%rcx, %rdi
	cmpq	%rcx, %rdi
	je	.LBB29_80
	movq	-8(%r13), %r10
	movq	%r10, %rdi
	andq	%rcx, %rdi
	cmpq	%rcx, %rdi
	je	.LBB29_80
	movq	(%r13), %rdi
	movq	%rdi, %r9
	andq	%rcx, %r9
	cmpq	%rcx, %r9
	je	.LBB29_80
	movapd	%xmm10, %xmm11
	movq	%r11, %xmm10
	movdqa	%xmm10, %xmm13
	ucomisd	%xmm11, %xmm13
	jbe	.LBB29_80
	movq	%r10, %xmm11
	movq	%rdi, %xmm14
	movdqa	%xmm11, %xmm12
	ucomisd	%xmm15, %xmm12
	setnp	%dil
	sete	%r9b
	andb	%dil, %r9b
	ucomisd	%xmm15, %xmm14
	setnp	%dil
	sete	%bpl
	andb	%dil, %bpl
	testb	%bpl, %r9b
	jne	.LBB29_48
	movapd	%xmm15, %xmm7
	movapd	%xmm1, %xmm15
	cmpltsd	%xmm14, %xmm15
	cmpltsd	%xmm2, %xmm14
	andpd	%xmm15, %xmm14
	movapd	%xmm7, %xmm15
	movd	%xmm14, %edi
	andb	%dl, %dil
	movl	%edi, %edx
	andb	$1, %dl
	ucomisd	%xmm7, %xmm13
	jne	.LBB29_31
	jnp	.LBB29_49
.LBB29_31:
	ucomisd	%xmm13, %xmm4
	jae	.LBB29_35
	ucomisd	%xmm5, %xmm13
	jae	.LBB29_35
	ucomisd	%xmm13, %xmm15
	jbe	.LBB29_36
	movsd	.LCPI29_2(%rip), %xmm14
	addsd	%xmm10, %xmm14
	addsd	.LCPI29_3(%rip), %xmm14
	jmp	.LBB29_37
	.p2align	4
.LBB29_35:
	movapd	%xmm10, %xmm14
	subsd	%xmm10, %xmm14
	cmpeqsd	%xmm15, %xmm14
	movq	%xmm14, %r10
	andl	$1, %r10d
	ucomisd	%xmm13, %xmm6
	jae	.LBB29_38
	jmp	.LBB29_23
	.p2align	4
.LBB29_36:
	movsd	.LCPI29_3(%rip), %xmm14
	addsd	%xmm10, %xmm14
	addsd	.LCPI29_2(%rip), %xmm14
.LBB29_37:
	cmpeqsd	%xmm13, %xmm14
	movq	%xmm14, %r10
	andl	$1, %r10d
	ucomisd	%xmm13, %xmm6
	jb	.LBB29_23
.LBB29_38:
	ucomisd	%xmm15, %xmm13
	jbe	.LBB29_23
	testb	%r10b, %r10b
	je	.LBB29_23
	xorl	%r10d, %r10d
.LBB29_41:
	cvttsd2si	%xmm10, %rdi
	movq	%rdi, %r9
	sarq	$63, %r9
	movapd	%xmm10, %xmm8
	subsd	.LCPI29_7(%rip), %xmm8
	cvttsd2si	%xmm8, %rax
	andq	%r9, %rax
	orq	%rdi, %rax
	movsd	24(%rsp), %xmm7
	je	.LBB29_50
	movq	%rbx, %r11
	subq	%rax, %r11
	jbe	.LBB29_53
	movq	%rax, %r11
	movapd	%xmm7, %xmm9
	decq	%r11
	je	.LBB29_66
	movq	%r11, %r9
	andq	$7, %r9
	je	.LBB29_63
	xorl	%edi, %edi
	movapd	%xmm7, %xmm9
	.p2align	4
.LBB29_46:
	mulsd	%xmm7, %xmm9
	incq	%rdi
	cmpq	%rdi, %r9
	jne	.LBB29_46
	subq	%rdi, %r11
	jmp	.LBB29_64
.LBB29_48:
	leaq	(%rsi,%r8), %rdi
	incq	%r8
	xorl	%r10d, %r10d
	cmpq	$-1, %rdi
	movq	%r14, %r13
	movq	8(%rsp), %r14
	jne	.LBB29_5
	jmp	.LBB29_139
.LBB29_49:
	xorl	%r10d, %r10d
.LBB29_50:
	movq	%r14, %r13
	addsd	%xmm3, %xmm11
	testb	$1, 16(%rsp)
	movq	8(%rsp), %r14
	je	.LBB29_52
	addsd	%xmm0, %xmm11
.LBB29_52:
	movb	$1, %al
	movq	%rax, 16(%rsp)
	movapd	%xmm11, %xmm0
	jmp	.LBB29_72
.LBB29_53:
	movq	%rax, %r13
	subq	%rbx, %r13
	je	.LBB29_66
	movq	%r13, %r9
	andq	$7, %r9
	je	.LBB29_58
	xorl	%edi, %edi
	.p2align	4
.LBB29_56:
	mulsd	%xmm7, %xmm9
	incq	%rdi
	cmpq	%rdi, %r9
	jne	.LBB29_56
	subq	%rdi, %r13
.LBB29_58:
	cmpq	$-8, %r11
	ja	.LBB29_66
	.p2align	4
.LBB29_59:
	mulsd	%xmm7, %xmm9
	mulsd	%xmm7, %xmm9
	mulsd	%xmm7, %xmm9
	mulsd	%xmm7, %xmm9
	mulsd	%xmm7, %xmm9
	mulsd	%xmm7, %xmm9
	mulsd	%xmm7, %xmm9
	mulsd	%xmm7, %xmm9
	addq	$-8, %r13
	jne	.LBB29_59
	jmp	.LBB29_66
.LBB29_60:
	movapd	%xmm13, %xmm10
	movq	%r14, %r13
	movq	8(%rsp), %r14
	jmp	.LBB29_72
.LBB29_61:
	movapd	%xmm13, %xmm10
	jmp	.LBB29_50
.LBB29_62:
	movapd	%xmm13, %xmm10
	jmp	.LBB29_41
.LBB29_63:
	movapd	%xmm7, %xmm9
.LBB29_64:
	leaq	-2(%rax), %rdi
	cmpq	$7, %rdi
	jb	.LBB29_66
	.p2align	4
.LBB29_65:
	mulsd	%xmm7, %xmm9
	mulsd	%xmm7, %xmm9
	mulsd	%xmm7, %xmm9
	mulsd	%xmm7, %xmm9
	mulsd	%xmm7, %xmm9
	mulsd	%xmm7, %xmm9
	mulsd	%xmm7, %xmm9
	mulsd	%xmm7, %xmm9
	addq	$-8, %r11
	jne	.LBB29_65
.LBB29_66:
	mulsd	%xmm9, %xmm11
	movapd	%xmm9, %xmm8
	testb	%bpl, %bpl
	jne	.LBB29_68
	movapd	%xmm11, %xmm8
.LBB29_68:
	cmpeqsd	40(%rsp), %xmm12
	movapd	%xmm12, %xmm13
	andnpd	%xmm11, %xmm13
	andpd	%xmm8, %xmm12
	orpd	%xmm13, %xmm12
	testb	$1, 16(%rsp)
	movq	%r14, %r13
	jne	.LBB29_70
	movapd	%xmm12, %xmm0
	jmp	.LBB29_71
.LBB29_70:
	addsd	%xmm12, %xmm0
.LBB29_71:
	movq	8(%rsp), %r14
	movb	$1, %dil
	movq	%rdi, 16(%rsp)
	movq	%rax, %rbx
.LBB29_72:
	incq	%r8
	cmpq	%r15, %r8
	jne	.LBB29_5
	xorpd	%xmm8, %xmm8
	movl	$14, %eax
	testb	$1, %r10b
	je	.LBB29_139
	movl	$15, %eax
	cmpb	$1, %dl
	jne	.LBB29_139
	testb	$1, 16(%rsp)
	jne	.LBB29_77
	movapd	%xmm3, %xmm0
.LBB29_77:
	movapd	%xmm0, %xmm1
	subsd	%xmm0, %xmm1
	ucomisd	%xmm15, %xmm1
	jne	.LBB29_139
	jp	.LBB29_139
	xorl	%eax, %eax
	movapd	%xmm0, %xmm8
	jmp	.LBB29_139
.LBB29_79:
	movl	$11, %eax
.LBB29_138:
	xorpd	%xmm8, %xmm8
.LBB29_139:
	xorpd	%xmm0, %xmm0
	movupd	%xmm0, (%r14)
	movsd	%xmm8, (%r13)
	addq	$1784, %rsp
	popq	%rbx
	popq	%r12
	popq	%r13
	popq	%r14
	popq	%r15
	popq	%rbp
	retq
.LBB29_80:
	movsd	%xmm15, 32(%rsp)
	xorpd	%xmm0, %xmm0
	movapd	%xmm0, 128(%rsp)
	movapd	%xmm0, 144(%rsp)
	movapd	%xmm0, 160(%rsp)
	movapd	%xmm0, 176(%rsp)
	movapd	%xmm0, 64(%rsp)
	movapd	%xmm0, 80(%rsp)
	movapd	%xmm0, 96(%rsp)
	movapd	%xmm0, 112(%rsp)
	leaq	248(%rsp), %rdi
	movl	$1536, %edx
	xorl	%esi, %esi
	callq	memset@PLT
	movq	%r14, %r13
	movq	8(%rsp), %r14
	jmp	.LBB29_82
.LBB29_81:
	movsd	%xmm15, 32(%rsp)
	xorpd	%xmm0, %xmm0
	movapd	%xmm0, 128(%rsp)
	movapd	%xmm0, 144(%rsp)
	movapd	%xmm0, 160(%rsp)
	movapd	%xmm0, 176(%rsp)
	movapd	%xmm0, 64(%rsp)
	movapd	%xmm0, 80(%rsp)
	movapd	%xmm0, 96(%rsp)
	movapd	%xmm0, 112(%rsp)
	leaq	248(%rsp), %rdi
	movl	$1536, %edx
	xorl	%esi, %esi
	callq	memset@PLT
.LBB29_82:
	leaq	264(%rsp), %rcx
	xorl	%edx, %edx
	.p2align	4
.LBB29_83:
	movl	(%r12), %esi
	movl	$11, %eax
	cmpl	$255, %esi
	ja	.LBB29_138
	movl	4(%r12), %edi
	cmpl	$63, %edi
	ja	.LBB29_138
	movq	24(%r12), %rax
	movb	%sil, 128(%rsp,%rdx)
	movb	%dil, 64(%rsp,%rdx)
	movupd	8(%r12), %xmm0
	movupd	%xmm0, -16(%rcx)
	movq	%rax, (%rcx)
	incq	%rdx
	addq	$24, %rcx
	addq	$32, %r12
	cmpq	%rdx, %r15
	jne	.LBB29_83
	leaq	128(%rsp), %rax
	movq	%rax, 200(%rsp)
	movq	$64, 208(%rsp)
	leaq	64(%rsp), %rax
	movq	%rax, 216(%rsp)
	movq	$64, 224(%rsp)
	leaq	248(%rsp), %rax
	movq	%rax, 232(%rsp)
	movq	$64, 240(%rsp)
	leaq	200(%rsp), %rdi
	movl	$4, %ecx
	xorl	%esi, %esi
	movq	%r15, %rdx
	callq	"sums::good::good_sum"
	testb	%al, %al
	je	.LBB29_130
	movsd	32(%rsp), %xmm15
	movsd	48(%rsp), %xmm0
	ucomisd	%xmm15, %xmm0
	jne	.LBB29_141
	jp	.LBB29_141
	movsd	.LCPI29_0(%rip), %xmm0
	movsd	.LCPI29_1(%rip), %xmm1
	movsd	.LCPI29_2(%rip), %xmm3
	movsd	.LCPI29_3(%rip), %xmm4
	movsd	.LCPI29_4(%rip), %xmm5
	movsd	.LCPI29_5(%rip), %xmm6
	xorpd	%xmm8, %xmm8
	movsd	24(%rsp), %xmm7
	movapd	%xmm7, %xmm2
	mulsd	%xmm8, %xmm2
	movb	$1, %cl
	movl	$1, %r8d
	xorl	%eax, %eax
	xorl	%esi, %esi
	movb	$1, %dl
	jmp	.LBB29_91
	.p2align	4
.LBB29_89:
	movb	$1, %sil
	movapd	%xmm9, %xmm8
.LBB29_90:
	addq	%rdi, %rax
	incq	%rax
	cmpq	%r15, %rax
	jae	.LBB29_132
.LBB29_91:
	leaq	(%rax,%rax,2), %rdi
	movsd	248(%rsp,%rdi,8), %xmm12
	movsd	256(%rsp,%rdi,8), %xmm9
	movsd	264(%rsp,%rdi,8), %xmm10
	movzbl	128(%rsp,%rax), %r10d
	movzbl	64(%rsp,%rax), %edi
	movapd	%xmm9, %xmm11
	ucomisd	%xmm15, %xmm11
	jne	.LBB29_93
	jp	.LBB29_93
	ucomisd	%xmm15, %xmm10
	jne	.LBB29_93
	jnp	.LBB29_90
.LBB29_93:
	movapd	%xmm10, %xmm13
	cmpltsd	%xmm1, %xmm13
	movapd	%xmm0, %xmm14
	cmpltsd	%xmm10, %xmm14
	andpd	%xmm13, %xmm14
	movd	%xmm14, %r9d
	andb	%cl, %r9b
	movl	%r9d, %ecx
	andb	$1, %cl
	movapd	%xmm12, %xmm13
	ucomisd	%xmm15, %xmm13
	jne	.LBB29_97
	jp	.LBB29_97
	cmpb	$1, %r10b
	sete	%r9b
	andb	%r9b, %dl
.LBB29_95:
	addsd	%xmm2, %xmm9
	testb	$1, %sil
	je	.LBB29_89
	addsd	%xmm8, %xmm9
	jmp	.LBB29_89
.LBB29_97:
	ucomisd	%xmm13, %xmm3
	jae	.LBB29_101
	ucomisd	%xmm4, %xmm13
	jae	.LBB29_101
	ucomisd	%xmm13, %xmm15
	jbe	.LBB29_111
	movsd	.LCPI29_2(%rip), %xmm14
	addsd	%xmm12, %xmm14
	addsd	.LCPI29_3(%rip), %xmm14
	jmp	.LBB29_112
.LBB29_101:
	movapd	%xmm12, %xmm14
	subsd	%xmm12, %xmm14
	cmpeqsd	%xmm15, %xmm14
	movq	%xmm14, %r9
	andl	$1, %r9d
	ucomisd	%xmm13, %xmm5
	jae	.LBB29_102
	jmp	.LBB29_113
.LBB29_111:
	movsd	.LCPI29_3(%rip), %xmm14
	addsd	%xmm12, %xmm14
	addsd	.LCPI29_2(%rip), %xmm14
.LBB29_112:
	cmpeqsd	%xmm13, %xmm14
	movq	%xmm14, %r9
	andl	$1, %r9d
	ucomisd	%xmm13, %xmm5
	jb	.LBB29_113
.LBB29_102:
	ucomisd	%xmm15, %xmm13
	jbe	.LBB29_113
	testb	%r9b, %r9b
	movsd	24(%rsp), %xmm13
	je	.LBB29_113
	cvttsd2si	%xmm12, %r11
	movq	%r11, %r12
	sarq	$63, %r12
	subsd	.LCPI29_7(%rip), %xmm12
	cvttsd2si	%xmm12, %r9
	andq	%r12, %r9
	orq	%r11, %r9
	cmpb	$1, %r10b
	sete	%r10b
	andb	%r10b, %dl
	testq	%r9, %r9
	je	.LBB29_95
	movq	%r8, %r11
	subq	%r9, %r11
	jbe	.LBB29_114
	movq	%r9, %r8
	movapd	%xmm13, %xmm7
	decq	%r8
	je	.LBB29_126
	movq	%r8, %r10
	andq	$7, %r10
	je	.LBB29_123
	xorl	%r11d, %r11d
	movapd	%xmm13, %xmm7
	.p2align	4
.LBB29_109:
	mulsd	%xmm13, %xmm7
	incq	%r11
	cmpq	%r11, %r10
	jne	.LBB29_109
	subq	%r11, %r8
	jmp	.LBB29_124
.LBB29_113:
	xorl	%edx, %edx
	jmp	.LBB29_90
.LBB29_114:
	movq	%r9, %r10
	subq	%r8, %r10
	je	.LBB29_126
	movq	%r10, %r8
	andq	$7, %r8
	je	.LBB29_119
	xorl	%r12d, %r12d
	.p2align	4
.LBB29_117:
	mulsd	%xmm13, %xmm7
	incq	%r12
	cmpq	%r12, %r8
	jne	.LBB29_117
	subq	%r12, %r10
.LBB29_119:
	cmpq	$-8, %r11
	ja	.LBB29_126
	.p2align	4
.LBB29_120:
	mulsd	%xmm13, %xmm7
	mulsd	%xmm13, %xmm7
	mulsd	%xmm13, %xmm7
	mulsd	%xmm13, %xmm7
	mulsd	%xmm13, %xmm7
	mulsd	%xmm13, %xmm7
	mulsd	%xmm13, %xmm7
	mulsd	%xmm13, %xmm7
	addq	$-8, %r10
	jne	.LBB29_120
	jmp	.LBB29_126
.LBB29_123:
	movapd	%xmm13, %xmm7
.LBB29_124:
	leaq	-2(%r9), %r10
	cmpq	$7, %r10
	jb	.LBB29_126
	.p2align	4
.LBB29_125:
	mulsd	%xmm13, %xmm7
	mulsd	%xmm13, %xmm7
	mulsd	%xmm13, %xmm7
	mulsd	%xmm13, %xmm7
	mulsd	%xmm13, %xmm7
	mulsd	%xmm13, %xmm7
	mulsd	%xmm13, %xmm7
	mulsd	%xmm13, %xmm7
	addq	$-8, %r8
	jne	.LBB29_125
.LBB29_126:
	mulsd	%xmm7, %xmm9
	cmpeqsd	%xmm6, %xmm11
	movapd	%xmm11, %xmm12
	andnpd	%xmm9, %xmm12
	cmpeqsd	%xmm15, %xmm10
	movapd	%xmm10, %xmm13
	andnpd	%xmm9, %xmm13
	andpd	%xmm7, %xmm10
	orpd	%xmm13, %xmm10
	andpd	%xmm11, %xmm10
	orpd	%xmm12, %xmm10
	testb	$1, %sil
	jne	.LBB29_128
	movapd	%xmm10, %xmm8
	jmp	.LBB29_129
.LBB29_128:
	addsd	%xmm10, %xmm8
.LBB29_129:
	movb	$1, %sil
	movq	%r9, %r8
	jmp	.LBB29_90
.LBB29_130:
	leaq	200(%rsp), %rdi
	movl	$64, %ecx
	xorl	%esi, %esi
	movq	%r15, %rdx
	callq	"sums::good::good_sum"
	movzbl	%al, %eax
	leaq	11(,%rax,2), %rax
	jmp	.LBB29_138
.LBB29_131:
	movq	%r14, %r13
	movq	8(%rsp), %r14
	jmp	.LBB29_139
.LBB29_132:
	movl	$14, %eax
	cmpb	$1, %dl
	jne	.LBB29_138
	cmpb	$1, %cl
	jne	.LBB29_141
	testb	$1, %sil
	jne	.LBB29_136
	movapd	%xmm2, %xmm8
.LBB29_136:
	movapd	%xmm8, %xmm0
	subsd	%xmm8, %xmm0
	ucomisd	%xmm15, %xmm0
	movl	$15, %eax
	jne	.LBB29_138
	jp	.LBB29_138
	xorl	%eax, %eax
	jmp	.LBB29_139
.LBB29_141:
	movl	$15, %eax
	jmp	.LBB29_138
.Lfunc_end29:
	.size	uplink_value, .Lfunc_end29-uplink_value

	.section	.rodata.cst8,"aM",@progbits,8
	.p2align	3, 0x0
.LCPI30_0:
	.quad	0x3ff0000000000000
.LCPI30_1:
	.quad	0xbcb0000000000000
.LCPI30_2:
	.quad	0x3cb0000000000000
	.section	.text.uplink_write,"ax",@progbits
	.globl	uplink_write
	.p2align	4
	.type	uplink_write,@function
uplink_write:
	pushq	%rbp
	pushq	%r15
	pushq	%r14
	pushq	%r13
	pushq	%r12
	pushq	%rbx
	subq	$3072, %rsp
	movq	$0, (%rsp)
	subq	$3072, %rsp
	movq	$0, (%rsp)
	subq	$3072, %rsp
	movq	$0, (%rsp)
	subq	$3072, %rsp
	movq	$0, (%rsp)
	subq	$3072, %rsp
	movq	$0, (%rsp)
	subq	$3072, %rsp
	movq	$0, (%rsp)
	subq	$3072, %rsp
	movq	$0, (%rsp)
	subq	$728, %rsp
	movq	%r9, 64(%rsp)
	movq	%r8, 136(%rsp)
	movl	%edx, 36(%rsp)
	movq	%rsi, %r13
	movq	%rdi, %r15
	xorl	%ebp, %ebp
	testq	%rdi, %rdi
	sete	%r12b
	xorl	%r14d, %r14d
	movq	%rcx, 88(%rsp)
	testq	%rcx, %rcx
	sete	%bl
	xorpd	%xmm0, %xmm0
	movupd	%xmm0, 272(%rsp)
	movapd	%xmm0, 480(%rsp)
	movapd	%xmm0, 496(%rsp)
	movapd	%xmm0, 512(%rsp)
	movapd	%xmm0, 528(%rsp)
	movapd	%xmm0, 544(%rsp)
	movapd	%xmm0, 560(%rsp)
	movapd	%xmm0, 576(%rsp)
	movapd	%xmm0, 592(%rsp)
	movapd	%xmm0, 608(%rsp)
	movapd	%xmm0, 624(%rsp)
	movapd	%xmm0, 640(%rsp)
	movapd	%xmm0, 656(%rsp)
	movapd	%xmm0, 288(%rsp)
	movapd	%xmm0, 304(%rsp)
	movapd	%xmm0, 320(%rsp)
	movapd	%xmm0, 336(%rsp)
	movapd	%xmm0, 352(%rsp)
	movapd	%xmm0, 368(%rsp)
	movapd	%xmm0, 384(%rsp)
	movapd	%xmm0, 400(%rsp)
	movapd	%xmm0, 416(%rsp)
	movapd	%xmm0, 432(%rsp)
	movapd	%xmm0, 448(%rsp)
	movapd	%xmm0, 464(%rsp)
	leaq	17624(%rsp), %rdi
	movl	$4608, %edx
	xorl	%esi, %esi
	callq	memset@PLT
	movl	$11, %eax
	cmpq	$2079, %r13
	ja	.LBB30_9
	movl	%r13d, %ecx
	andl	$31, %ecx
	jne	.LBB30_9
	movq	%r13, %rdx
	shrq	$5, %rdx
	je	.LBB30_9
	movb	%r12b, %bpl
	shll	$12, %ebp
	addq	%rbp, %r15
	movb	%bl, %r14b
	shll	$12, %r14d
	movq	88(%rsp), %r12
	addq	%r14, %r12
	leaq	17640(%rsp), %rcx
	xorl	%r9d, %r9d
	leaq	17624(%rsp), %rbp
	.p2align	4
.LBB30_4:
	movl	(%r15), %esi
	cmpl	$255, %esi
	ja	.LBB30_9
	movl	4(%r15), %edi
	cmpl	$63, %edi
	ja	.LBB30_9
	movq	24(%r15), %r8
	movb	%sil, 480(%rsp,%r9)
	movb	%dil, 288(%rsp,%r9)
	movupd	8(%r15), %xmm0
	movupd	%xmm0, -16(%rcx)
	movq	%r8, (%rcx)
	incq	%r9
	addq	$24, %rcx
	addq	$32, %r15
	cmpq	%r9, %rdx
	jne	.LBB30_4
	leaq	480(%rsp), %rbx
	movq	%rbx, 680(%rsp)
	movq	$192, 688(%rsp)
	leaq	288(%rsp), %r14
	movq	%r14, 696(%rsp)
	movq	$192, 704(%rsp)
	movq	%rbp, 712(%rsp)
	movq	$192, 720(%rsp)
	leaq	680(%rsp), %rdi
	movl	$4, %ecx
	xorl	%esi, %esi
	movq	%rdx, %r15
	callq	"sums::good::good_sum"
	testb	%al, %al
	je	.LBB30_8
	movq	%r15, 40(%rsp)
	movq	%rbx, 240(%rsp)
	movq	$192, 248(%rsp)
	movq	%r14, 256(%rsp)
	movq	$192, 264(%rsp)
	movq	%rbp, 272(%rsp)
	movq	$192, 280(%rsp)
	cmpq	$543, %r13
	movq	%r12, 88(%rsp)
	ja	.LBB30_41
	leaq	680(%rsp), %rdi
	xorl	%r15d, %r15d
	movl	$4272, %edx
	xorl	%esi, %esi
	callq	memset@PLT
	leaq	146(%rsp), %r12
	xorps	%xmm2, %xmm2
	movsd	.LCPI30_0(%rip), %xmm3
	movsd	.LCPI30_1(%rip), %xmm0
	movsd	%xmm0, 128(%rsp)
	movsd	.LCPI30_2(%rip), %xmm0
	movsd	%xmm0, 120(%rsp)
	movl	$32, %ebx
	movl	$32, %ecx
	xorl	%r13d, %r13d
	movq	40(%rsp), %r8
	movsd	%xmm2, 80(%rsp)
	movsd	%xmm3, 72(%rsp)
	jmp	.LBB30_12
	.p2align	4
.LBB30_14:
.LBB30_34:
	cmpneqsd	%xmm2, %xmm6
	cmpneqsd	%xmm2, %xmm5
	orpd	%xmm6, %xmm5
	movd	%xmm5, %eax
	cmpb	$1, %bpl
	sete	%dl
	ucomisd	%xmm3, %xmm4
	setnp	%sil
	sete	%dil
	andb	%sil, %dil
	andb	%dl, %dil
	andb	%al, %dil
	orb	%dil, %r15b
	addq	%r9, %r13
	cmpq	%r8, %r13
	jae	.LBB30_35
.LBB30_12:
	leaq	(,%r13,2), %rax
	addq	%r13, %rax
	movsd	17640(%rsp,%rax,8), %xmm1
	movzbl	480(%rsp,%r13), %ebp
	movzbl	288(%rsp,%r13), %r9d
	incq	%r13
	movb	%bpl, 144(%rsp)
	movb	%r9b, 145(%rsp)
	movw	$0, 4(%r12)
	movl	$0, (%r12)
	movupd	17624(%rsp,%rax,8), %xmm4
	movapd	%xmm4, %xmm7
	unpckhpd	%xmm4, %xmm7
	movupd	%xmm4, 152(%rsp)
	movsd	%xmm1, 168(%rsp)
	xorpd	%xmm0, %xmm0
	movapd	%xmm0, 96(%rsp)
	movq	$0, 112(%rsp)
	movapd	%xmm7, %xmm5
	ucomisd	%xmm2, %xmm5
	movapd	%xmm1, %xmm6
	jne	.LBB30_15
	jp	.LBB30_15
	ucomisd	%xmm2, %xmm6
	jne	.LBB30_15
	jnp	.LBB30_14
.LBB30_15:
	movq	%r9, 56(%rsp)
	cmpq	%rcx, %rbx
	setne	%r14b
	orb	%r15b, %r14b
	testb	$1, %r14b
	movapd	%xmm4, 224(%rsp)
	movapd	%xmm5, 208(%rsp)
	movapd	%xmm6, 192(%rsp)
	movsd	%xmm1, 48(%rsp)
	movapd	%xmm7, 176(%rsp)
	je	.LBB30_16
	cmpq	%rcx, %rbx
	je	.LBB30_18
	leaq	-2(%rcx), %rax
	movl	%ebx, %edx
	subl	%ecx, %edx
	leal	1(%rdx), %esi
	leaq	(%rcx,%rcx,2), %rcx
	movl	$774, 632(%rsp,%rcx,8)
	movl	%esi, 636(%rsp,%rcx,8)
	movupd	%xmm0, 640(%rsp,%rcx,8)
	movl	$65543, 656(%rsp,%rcx,8)
	movl	%edx, 660(%rsp,%rcx,8)
	movupd	%xmm0, 664(%rsp,%rcx,8)
	jmp	.LBB30_20
	.p2align	4
.LBB30_16:
	movq	%rbx, %rax
	jmp	.LBB30_20
.LBB30_18:
	leaq	(%rbx,%rbx,2), %rcx
	movw	$773, 680(%rsp,%rcx,8)
	movq	%rbx, %rax
	incq	%rbx
	movupd	%xmm0, 682(%rsp,%rcx,8)
	movq	$0, 696(%rsp,%rcx,8)
.LBB30_20:
	xorl	%r8d, %r8d
	cmpb	$0, 36(%rsp)
	setne	%r8b
	movq	%rbx, 16(%rsp)
	movq	%rax, 8(%rsp)
	leaq	680(%rsp), %rax
	movq	%rax, (%rsp)
	leaq	96(%rsp), %rdi
	leaq	240(%rsp), %rsi
	leaq	144(%rsp), %rdx
	movl	$3, %r9d
	movq	%r13, %rcx
	callq	"writing::write_term"
	cmpb	$0, 96(%rsp)
	jne	.LBB30_68
	movq	104(%rsp), %rcx
	movq	112(%rsp), %rbx
	cmpb	$1, %bpl
	setne	%al
	movaps	224(%rsp), %xmm4
	movsd	80(%rsp), %xmm2
	ucomisd	%xmm2, %xmm4
	setp	%sil
	setne	%dl
	movapd	192(%rsp), %xmm6
	movapd	%xmm6, %xmm0
	cmpeqsd	%xmm2, %xmm0
	movapd	208(%rsp), %xmm5
	movapd	%xmm5, %xmm1
	movsd	72(%rsp), %xmm3
	cmpeqsd	%xmm3, %xmm1
	andpd	%xmm0, %xmm1
	movd	%xmm1, %edi
	testb	$1, %dil
	jne	.LBB30_22
	orb	%sil, %dl
	orb	%al, %dl
	movq	40(%rsp), %r8
	je	.LBB30_31
	movapd	176(%rsp), %xmm7
	movapd	%xmm7, %xmm0
	subsd	%xmm7, %xmm0
	cmpb	$0, 36(%rsp)
	je	.LBB30_27
	ucomisd	%xmm2, %xmm0
	movb	$14, %al
	movsd	48(%rsp), %xmm1
	jne	.LBB30_69
	jp	.LBB30_69
	movapd	%xmm1, %xmm0
	subsd	%xmm1, %xmm0
	movb	$2, %dl
	ucomisd	%xmm2, %xmm0
	jne	.LBB30_69
	jnp	.LBB30_30
	jmp	.LBB30_69
.LBB30_22:
	movq	40(%rsp), %r8
	jmp	.LBB30_31
.LBB30_27:
	ucomisd	%xmm2, %xmm0
	movb	$14, %al
	movsd	48(%rsp), %xmm1
	jne	.LBB30_69
	jp	.LBB30_69
	ucomisd	128(%rsp), %xmm6
	jbe	.LBB30_69
	movb	$1, %dl
	movsd	120(%rsp), %xmm0
	ucomisd	%xmm6, %xmm0
	jbe	.LBB30_69
.LBB30_30:
	xorl	%eax, %eax
	cmpb	$0, 36(%rsp)
	movq	%xmm1, %rsi
	cmovneq	%rsi, %rax
	leaq	(%rbx,%rbx,2), %rsi
	movb	%dl, 680(%rsp,%rsi,8)
	movl	$0, 681(%rsp,%rsi,8)
	movl	$0, 684(%rsp,%rsi,8)
	movsd	%xmm7, 688(%rsp,%rsi,8)
	movq	%rax, 696(%rsp,%rsi,8)
	movw	$2565, 704(%rsp,%rsi,8)
	addq	$2, %rbx
	xorpd	%xmm0, %xmm0
	movupd	%xmm0, 706(%rsp,%rsi,8)
	movq	$0, 720(%rsp,%rsi,8)
.LBB30_31:
	testb	$1, %r14b
	je	.LBB30_33
	leaq	(%rbx,%rbx,2), %rax
	movw	$2053, 680(%rsp,%rax,8)
	incq	%rbx
	xorpd	%xmm0, %xmm0
	movupd	%xmm0, 682(%rsp,%rax,8)
	movq	$0, 696(%rsp,%rax,8)
.LBB30_33:
	movq	56(%rsp), %r9
	jmp	.LBB30_34
.LBB30_8:
	leaq	680(%rsp), %rdi
	movl	$64, %ecx
	xorl	%esi, %esi
	movq	%r15, %rdx
	callq	"sums::good::good_sum"
	movzbl	%al, %eax
	leaq	11(,%rax,2), %rax
.LBB30_9:
	xorl	%ebx, %ebx
	movq	64(%rsp), %r12
.LBB30_71:
	movq	$0, (%r12)
	movq	%rbx, 8(%r12)
	addq	$22232, %rsp
	popq	%rbx
	popq	%r12
	popq	%r13
	popq	%r14
	popq	%r15
	popq	%rbp
	retq
.LBB30_41:
	leaq	146(%rsp), %r12
	xorpd	%xmm0, %xmm0
	movsd	%xmm0, 80(%rsp)
	movsd	.LCPI30_0(%rip), %xmm0
	movsd	%xmm0, 72(%rsp)
	movsd	.LCPI30_1(%rip), %xmm0
	movsd	%xmm0, 128(%rsp)
	movsd	.LCPI30_2(%rip), %xmm0
	movsd	%xmm0, 120(%rsp)
	leaq	680(%rsp), %rdi
	xorl	%r14d, %r14d
	movl	$16944, %edx
	xorl	%esi, %esi
	callq	memset@PLT
	movsd	72(%rsp), %xmm3
	movsd	80(%rsp), %xmm2
	movl	$128, %ebx
	movl	$128, %ecx
	xorl	%r13d, %r13d
	movq	40(%rsp), %r8
	jmp	.LBB30_42
	.p2align	4
.LBB30_44:
.LBB30_64:
	cmpneqsd	%xmm2, %xmm6
	cmpneqsd	%xmm2, %xmm5
	orpd	%xmm6, %xmm5
	movd	%xmm5, %eax
	cmpb	$1, %bpl
	sete	%dl
	ucomisd	%xmm3, %xmm4
	setnp	%sil
	sete	%dil
	andb	%sil, %dil
	andb	%dl, %dil
	andb	%al, %dil
	orb	%dil, %r14b
	addq	%r9, %r13
	cmpq	%r8, %r13
	jae	.LBB30_65
.LBB30_42:
	leaq	(,%r13,2), %rax
	addq	%r13, %rax
	movsd	17640(%rsp,%rax,8), %xmm1
	movzbl	480(%rsp,%r13), %ebp
	movzbl	288(%rsp,%r13), %r9d
	incq	%r13
	movb	%bpl, 144(%rsp)
	movb	%r9b, 145(%rsp)
	movw	$0, 4(%r12)
	movl	$0, (%r12)
	movupd	17624(%rsp,%rax,8), %xmm4
	movapd	%xmm4, %xmm7
	unpckhpd	%xmm4, %xmm7
	movupd	%xmm4, 152(%rsp)
	movsd	%xmm1, 168(%rsp)
	xorpd	%xmm0, %xmm0
	movapd	%xmm0, 96(%rsp)
	movq	$0, 112(%rsp)
	movapd	%xmm7, %xmm5
	ucomisd	%xmm2, %xmm5
	movapd	%xmm1, %xmm6
	jne	.LBB30_45
	jp	.LBB30_45
	ucomisd	%xmm2, %xmm6
	jne	.LBB30_45
	jnp	.LBB30_44
.LBB30_45:
	movq	%r9, 56(%rsp)
	cmpq	%rcx, %rbx
	setne	%r15b
	orb	%r14b, %r15b
	testb	$1, %r15b
	movapd	%xmm4, 224(%rsp)
	movapd	%xmm5, 208(%rsp)
	movapd	%xmm6, 192(%rsp)
	movsd	%xmm1, 48(%rsp)
	movapd	%xmm7, 176(%rsp)
	je	.LBB30_46
	cmpq	%rcx, %rbx
	je	.LBB30_48
	leaq	-2(%rcx), %rax
	movl	%ebx, %edx
	subl	%ecx, %edx
	leal	1(%rdx), %esi
	leaq	(%rcx,%rcx,2), %rcx
	movl	$774, 632(%rsp,%rcx,8)
	movl	%esi, 636(%rsp,%rcx,8)
	movupd	%xmm0, 640(%rsp,%rcx,8)
	movl	$65543, 656(%rsp,%rcx,8)
	movl	%edx, 660(%rsp,%rcx,8)
	movupd	%xmm0, 664(%rsp,%rcx,8)
	jmp	.LBB30_50
	.p2align	4
.LBB30_46:
	movq	%rbx, %rax
	jmp	.LBB30_50
.LBB30_48:
	leaq	(%rbx,%rbx,2), %rcx
	movw	$773, 680(%rsp,%rcx,8)
	movq	%rbx, %rax
	incq	%rbx
	movupd	%xmm0, 682(%rsp,%rcx,8)
	movq	$0, 696(%rsp,%rcx,8)
.LBB30_50:
	xorl	%r8d, %r8d
	cmpb	$0, 36(%rsp)
	setne	%r8b
	movq	%rbx, 16(%rsp)
	movq	%rax, 8(%rsp)
	leaq	680(%rsp), %rax
	movq	%rax, (%rsp)
	leaq	96(%rsp), %rdi
	leaq	240(%rsp), %rsi
	leaq	144(%rsp), %rdx
	movl	$3, %r9d
	movq	%r13, %rcx
	callq	"writing::write_term"
	cmpb	$0, 96(%rsp)
	jne	.LBB30_68
	movq	104(%rsp), %rcx
	movq	112(%rsp), %rbx
	cmpb	$1, %bpl
	setne	%al
	movaps	224(%rsp), %xmm4
	movsd	80(%rsp), %xmm2
	ucomisd	%xmm2, %xmm4
	setp	%sil
	setne	%dl
	movapd	192(%rsp), %xmm6
	movapd	%xmm6, %xmm0
	cmpeqsd	%xmm2, %xmm0
	movapd	208(%rsp), %xmm5
	movapd	%xmm5, %xmm1
	movsd	72(%rsp), %xmm3
	cmpeqsd	%xmm3, %xmm1
	andpd	%xmm0, %xmm1
	movd	%xmm1, %edi
	testb	$1, %dil
	jne	.LBB30_52
	orb	%sil, %dl
	orb	%al, %dl
	movq	40(%rsp), %r8
	je	.LBB30_61
	movapd	176(%rsp), %xmm7
	movapd	%xmm7, %xmm0
	subsd	%xmm7, %xmm0
	cmpb	$0, 36(%rsp)
	je	.LBB30_57
	ucomisd	%xmm2, %xmm0
	movb	$14, %al
	movsd	48(%rsp), %xmm1
	jne	.LBB30_69
	jp	.LBB30_69
	movapd	%xmm1, %xmm0
	subsd	%xmm1, %xmm0
	movb	$2, %dl
	ucomisd	%xmm2, %xmm0
	jne	.LBB30_69
	jnp	.LBB30_60
	jmp	.LBB30_69
.LBB30_52:
	movq	40(%rsp), %r8
	jmp	.LBB30_61
.LBB30_57:
	ucomisd	%xmm2, %xmm0
	movb	$14, %al
	movsd	48(%rsp), %xmm1
	jne	.LBB30_69
	jp	.LBB30_69
	ucomisd	128(%rsp), %xmm6
	jbe	.LBB30_69
	movb	$1, %dl
	movsd	120(%rsp), %xmm0
	ucomisd	%xmm6, %xmm0
	jbe	.LBB30_69
.LBB30_60:
	xorl	%eax, %eax
	cmpb	$0, 36(%rsp)
	movq	%xmm1, %rsi
	cmovneq	%rsi, %rax
	leaq	(%rbx,%rbx,2), %rsi
	movb	%dl, 680(%rsp,%rsi,8)
	movl	$0, 681(%rsp,%rsi,8)
	movl	$0, 684(%rsp,%rsi,8)
	movsd	%xmm7, 688(%rsp,%rsi,8)
	movq	%rax, 696(%rsp,%rsi,8)
	movw	$2565, 704(%rsp,%rsi,8)
	addq	$2, %rbx
	xorpd	%xmm0, %xmm0
	movupd	%xmm0, 706(%rsp,%rsi,8)
	movq	$0, 720(%rsp,%rsi,8)
.LBB30_61:
	testb	$1, %r15b
	je	.LBB30_63
	leaq	(%rbx,%rbx,2), %rax
	movw	$2053, 680(%rsp,%rax,8)
	incq	%rbx
	xorpd	%xmm0, %xmm0
	movupd	%xmm0, 682(%rsp,%rax,8)
	movq	$0, 696(%rsp,%rax,8)
.LBB30_63:
	movq	56(%rsp), %r9
	jmp	.LBB30_64
.LBB30_68:
	movzbl	97(%rsp), %eax
.LBB30_69:
	movb	$1, %cl
	xorl	%ebx, %ebx
	movq	64(%rsp), %r12
	jmp	.LBB30_70
.LBB30_35:
	movq	88(%rsp), %rdi
	leaq	(%rcx,%rcx,2), %rsi
	cmpq	%rbx, %rcx
	movq	64(%rsp), %r12
	jne	.LBB30_39
	leaq	(%rsp,%rsi,8), %rax
	addq	$680, %rax
	testb	$1, %r15b
	je	.LBB30_38
.LBB30_37:
	movw	$261, (%rax)
	leaq	1(%rcx), %rbx
	xorpd	%xmm0, %xmm0
	movupd	%xmm0, 2(%rax)
	movq	$0, 16(%rax)
	jmp	.LBB30_39
.LBB30_65:
	movq	88(%rsp), %rdi
	leaq	(%rcx,%rcx,2), %rsi
	cmpq	%rbx, %rcx
	movq	64(%rsp), %r12
	jne	.LBB30_39
	leaq	(%rsp,%rsi,8), %rax
	addq	$680, %rax
	testb	$1, %r14b
	jne	.LBB30_37
.LBB30_38:
	leaq	(%rsp,%rsi,8), %rdx
	addq	$681, %rdx
	movb	$1, (%rax)
	xorpd	%xmm0, %xmm0
	movupd	%xmm0, (%rdx)
	movq	$0, 15(%rdx)
	movw	$2565, 24(%rax)
	leaq	2(%rcx), %rbx
	movupd	%xmm0, 26(%rax)
	movq	$0, 40(%rax)
.LBB30_39:
	movabsq	$-6148914691236517205, %rdx
	movq	136(%rsp), %rax
	mulq	%rdx
	subq	%rcx, %rbx
	shrq	$4, %rdx
	cmpq	%rbx, %rdx
	jae	.LBB30_67
	movb	$16, %al
	movb	$1, %cl
	xorl	%ebx, %ebx
	jmp	.LBB30_70
.LBB30_67:
	leaq	(,%rbx,8), %rax
	leaq	(%rax,%rax,2), %rdx
	leaq	(%rsp,%rsi,8), %rsi
	addq	$680, %rsi
	callq	memcpy@PLT
	xorl	%ecx, %ecx
	xorl	%eax, %eax
.LBB30_70:
	xorl	%edx, %edx
	testb	%cl, %cl
	movzbl	%al, %eax
	cmovel	%edx, %eax
	movzbl	%al, %eax
	cmovneq	%rdx, %rbx
	incq	%rax
	testb	%cl, %cl
	cmoveq	%rdx, %rax
	jmp	.LBB30_71
.Lfunc_end30:
	.size	uplink_write, .Lfunc_end30-uplink_write

	.section	.text.uplink_write_faithful,"ax",@progbits
	.globl	uplink_write_faithful
	.p2align	4
	.type	uplink_write_faithful,@function
uplink_write_faithful:
	pushq	%rbp
	pushq	%r15
	pushq	%r14
	pushq	%r13
	pushq	%r12
	pushq	%rbx
	subq	$3072, %rsp
	movq	$0, (%rsp)
	subq	$2088, %rsp
	movq	%r9, 16(%rsp)
	movq	%r8, 48(%rsp)
	movl	%edx, 28(%rsp)
	movq	%rsi, %r14
	movq	%rdi, %r13
	xorl	%r12d, %r12d
	testq	%rdi, %rdi
	sete	%r15b
	xorl	%ebp, %ebp
	movq	%rcx, 56(%rsp)
	testq	%rcx, %rcx
	sete	%bl
	xorps	%xmm0, %xmm0
	movaps	%xmm0, 32(%rsp)
	movups	%xmm0, 96(%rsp)
	movaps	%xmm0, 352(%rsp)
	movaps	%xmm0, 368(%rsp)
	movaps	%xmm0, 384(%rsp)
	movaps	%xmm0, 400(%rsp)
	movaps	%xmm0, 416(%rsp)
	movaps	%xmm0, 432(%rsp)
	movaps	%xmm0, 448(%rsp)
	movaps	%xmm0, 464(%rsp)
	movaps	%xmm0, 480(%rsp)
	movaps	%xmm0, 496(%rsp)
	movaps	%xmm0, 512(%rsp)
	movaps	%xmm0, 528(%rsp)
	movaps	%xmm0, 160(%rsp)
	movaps	%xmm0, 176(%rsp)
	movaps	%xmm0, 192(%rsp)
	movaps	%xmm0, 208(%rsp)
	movaps	%xmm0, 224(%rsp)
	movaps	%xmm0, 240(%rsp)
	movaps	%xmm0, 256(%rsp)
	movaps	%xmm0, 272(%rsp)
	movaps	%xmm0, 288(%rsp)
	movaps	%xmm0, 304(%rsp)
	movaps	%xmm0, 320(%rsp)
	movaps	%xmm0, 336(%rsp)
	leaq	552(%rsp), %rdi
	movl	$4608, %edx
	xorl	%esi, %esi
	callq	memset@PLT
	movl	$11, %eax
	cmpq	$2079, %r14
	ja	.LBB31_10
	movl	%r14d, %ecx
	andl	$31, %ecx
	jne	.LBB31_10
	shrq	$5, %r14
	je	.LBB31_10
	movb	%r15b, %r12b
	shll	$12, %r12d
	addq	%r12, %r13
	movb	%bl, %bpl
	shll	$12, %ebp
	movq	56(%rsp), %rcx
	addq	%rbp, %rcx
	movq	%rcx, %rbp
	leaq	568(%rsp), %rcx
	xorl	%edx, %edx
	.p2align	4
.LBB31_4:
	movl	(%r13), %esi
	cmpl	$255, %esi
	ja	.LBB31_10
	movl	4(%r13), %edi
	cmpl	$63, %edi
	ja	.LBB31_10
	movq	24(%r13), %r8
	movb	%sil, 352(%rsp,%rdx)
	movb	%dil, 160(%rsp,%rdx)
	movups	8(%r13), %xmm0
	movups	%xmm0, -16(%rcx)
	movq	%r8, (%rcx)
	incq	%rdx
	addq	$24, %rcx
	addq	$32, %r13
	cmpq	%rdx, %r14
	jne	.LBB31_4
	leaq	352(%rsp), %rbx
	movq	%rbx, 112(%rsp)
	movq	$192, 120(%rsp)
	leaq	160(%rsp), %r15
	movq	%r15, 128(%rsp)
	movq	$192, 136(%rsp)
	leaq	552(%rsp), %r13
	movq	%r13, 144(%rsp)
	movq	$192, 152(%rsp)
	leaq	112(%rsp), %rdi
	movl	$4, %ecx
	xorl	%esi, %esi
	movq	%r14, %rdx
	callq	"sums::good::good_sum"
	testb	%al, %al
	movq	16(%rsp), %r12
	je	.LBB31_15
	xorl	%r8d, %r8d
	cmpb	$0, 28(%rsp)
	setne	%r8b
	movq	%rbx, 64(%rsp)
	movq	$192, 72(%rsp)
	movq	%r15, 80(%rsp)
	movq	$192, 88(%rsp)
	movq	%r13, 96(%rsp)
	movq	$192, 104(%rsp)
	movq	48(%rsp), %rax
	movq	%rax, (%rsp)
	leaq	32(%rsp), %rdi
	leaq	64(%rsp), %rdx
	movl	$1, %esi
	movq	%r14, %rcx
	movq	%rbp, %r9
	callq	"algebra::answer::write_sum"
	movq	40(%rsp), %rcx
	cmpb	$0, 32(%rsp)
	je	.LBB31_19
	movzbl	33(%rsp), %eax
	incq	%rax
	movq	%rcx, %rdx
	jmp	.LBB31_17
.LBB31_10:
	movq	16(%rsp), %r12
.LBB31_16:
	xorl	%edx, %edx
.LBB31_17:
	xorl	%ecx, %ecx
.LBB31_18:
	movq	%rdx, (%r12)
	movq	%rcx, 8(%r12)
	addq	$5160, %rsp
	popq	%rbx
	popq	%r12
	popq	%r13
	popq	%r14
	popq	%r15
	popq	%rbp
	retq
.LBB31_15:
	leaq	112(%rsp), %rdi
	movl	$64, %ecx
	xorl	%esi, %esi
	movq	%r14, %rdx
	callq	"sums::good::good_sum"
	movzbl	%al, %eax
	leaq	11(,%rax,2), %rax
	jmp	.LBB31_16
.LBB31_19:
	xorl	%edx, %edx
	xorl	%eax, %eax
	jmp	.LBB31_18
.Lfunc_end31:
	.size	uplink_write_faithful, .Lfunc_end31-uplink_write_faithful

	.type	.Lstatic.0,@object
	.section	.rodata..Lstatic.0,"a",@progbits
.Lstatic.0:
	.asciz	"\000\005\001\t\n\025\025\025\026\026\026\026\026\025\025\025\025\006\000\000\000\000\000\000\000\000\000\000\000\000\000\000\025\025\026\025\025\025\016\000\000\000\000\000\000\000\000\000\000\000\000\000\000\000\000\000\000\000\000\000\000\000\000\000\000\000\000\000\000\000\000\000\000\000\000\000\000\000\000\000\000\000\000\000\000\000\000\000\000\000\000\000\000\000\000\000\000\000\000\000\000\000\000\000\000\000\000\000\000\000\000\000\000\000\000\000\000\000\000\000\000\000\000\000\000\000\000\000\000\000\000\000\000\000\000\000\000\000\000\000\000\000\000\000\000\000\000\000\000\000\000\000\000\000\000\000\000\000\000\000\000\000\000\000\000\000\000\000\000\000\000\000\000\000\000\000\000\000\000\000\000\000\000\000\000\000\000\000\000\000\000\000\000\000\000\000\000\000\000\000\000\000\000\000\000\000\000\000\000\000\000\000\000\000\000\000\000\000\000\000\000\000\000\000\000\000\000\000\000\000\000\000\000\000\000\000\000\000\000\000\000\000\000\000\000\000\000\000\000\000\000\000\000\000\000"
	.size	.Lstatic.0, 256

	.type	.Lstatic.1,@object
	.section	.rodata..Lstatic.1,"a",@progbits
.Lstatic.1:
	.ascii	"\001\002\003\003\003\003\003\003\000\004\000\000\000\000\000\000\000\000\004\000\000\000\000\000\000\000\000\004\000\000\000\000\000\000\000\000\004\000\000\000\000\000\000\000\000\004\000\000\000\000\000\000\000\000\004\000\000\000\000\000\000\000\000\004"
	.size	.Lstatic.1, 64

	.type	.Lstatic.2,@object
	.section	.rodata..Lstatic.2,"a",@progbits
.Lstatic.2:
	.asciz	"\001\000\000\000\000\000\000\000\000\002\000\000\000\000\000\000\000\000\000\000\000\000\000\000\000\000\000\000\000\000\000\000\000\000\000\000\000\000\000\000\000\000\000\000\000\000\000\000\000\000\000\000\000\000\000\000\000\000\000\000\000\000\000"
	.size	.Lstatic.2, 64

	.section	".note.GNU-stack","",@progbits
