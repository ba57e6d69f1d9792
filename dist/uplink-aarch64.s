/* The proved crate uplink, compiled by tools/dist for Linux on aarch64. PROOF, beside this file, says of what and how; nothing here is written by hand. */
	.section	".text.reading::cost::stretch_steps","ax",@progbits
	.p2align	2
	.type	"reading::cost::stretch_steps",@function
"reading::cost::stretch_steps":
	stp	x29, x30, [sp, #-64]!
	cmp	x1, x2
	stp	x24, x23, [sp, #16]
	mov	x29, sp
	stp	x22, x21, [sp, #32]
	stp	x20, x19, [sp, #48]
	b.hs	.LBB0_27
	mov	x19, x2
	mov	x20, x1
	mov	x21, x0
	mov	x22, xzr
	sub	x23, x3, #1
	b	.LBB0_5
.LBB0_2:
	mov	x0, x21
	mov	x2, x20
	mov	x3, x23
	bl	"reading::cost::stretch_steps"
.LBB0_3:
	mov	w8, #1
.LBB0_4:
	adds	x8, x22, x8
	csinv	x22, x8, xzr, lo
	cmp	x20, x19
	b.hs	.LBB0_28
.LBB0_5:
	mov	w8, #24
	add	x1, x20, #1
	madd	x8, x20, x8, x21
	ldrb	w9, [x8]
	ldr	w10, [x8, #4]
	sub	w11, w9, #1
	add	x20, x1, x10
	cmp	w11, #12
	b.hi	.LBB0_2
	mov	w10, #1
	ldrb	w8, [x8, #1]
	lsl	w9, w10, w9
	mov	w10, #15422
	tst	w9, w10
	b.ne	.LBB0_2
	tst	w9, #0x380
	b.eq	.LBB0_10
.LBB0_8:
	mov	x0, x21
	mov	x2, x20
	mov	x3, x23
	bl	"reading::cost::stretch_steps"
.LBB0_9:
	adds	x8, x0, #1
	csinv	x8, x8, xzr, lo
	b	.LBB0_4
.LBB0_10:
	cmp	x1, x20
	b.hs	.LBB0_19
	mov	x24, xzr
	mov	x9, x1
.LBB0_12:
	mov	w10, #24
	add	x24, x24, #1
	madd	x10, x9, x10, x21
	ldr	w10, [x10, #4]
	add	x9, x9, x10
	add	x9, x9, #1
	cmp	x9, x20
	b.lo	.LBB0_12
	cmp	w8, #3
	b.le	.LBB0_20
.LBB0_14:
	cmp	w8, #5
	b.gt	.LBB0_24
	cmp	w8, #4
	b.eq	.LBB0_23
	cmp	w8, #5
	b.ne	.LBB0_2
	cmp	x24, #1
	b.ne	.LBB0_2
	mov	x0, x21
	mov	x2, x20
	mov	x3, x23
	bl	"reading::cost::stretch_steps"
	adds	x8, x0, x0
	csinv	x8, x8, xzr, lo
	adds	x8, x8, #1
	csinv	x8, x8, xzr, lo
	b	.LBB0_4
.LBB0_19:
	mov	x24, xzr
	cmp	w8, #3
	b.gt	.LBB0_14
.LBB0_20:
	cmp	w8, #1
	b.eq	.LBB0_23
	cmp	w8, #2
	b.eq	.LBB0_23
	cmp	w8, #3
	b.ne	.LBB0_2
.LBB0_23:
	mov	x0, x21
	mov	x2, x20
	mov	x3, x23
	bl	"reading::cost::stretch_steps"
	cmp	x24, #1
	b.ne	.LBB0_3
	b	.LBB0_9
.LBB0_24:
	cmp	w8, #6
	b.eq	.LBB0_26
	cmp	w8, #7
	b.eq	.LBB0_8
	b	.LBB0_2
.LBB0_26:
	mov	x0, x21
	mov	x2, x20
	mov	x3, x23
	bl	"reading::cost::stretch_steps"
	cmp	x24, #2
	b.ne	.LBB0_3
	b	.LBB0_9
.LBB0_27:
	mov	x22, xzr
.LBB0_28:
	mov	x0, x22
	ldp	x20, x19, [sp, #48]
	ldp	x22, x21, [sp, #32]
	ldp	x24, x23, [sp, #16]
	ldp	x29, x30, [sp], #64
	ret
.Lfunc_end0:
	.size	"reading::cost::stretch_steps", .Lfunc_end0-"reading::cost::stretch_steps"

	.section	".text.algebra::lists::read_sum","ax",@progbits
	.p2align	2
	.type	"algebra::lists::read_sum",@function
"algebra::lists::read_sum":
	stp	x29, x30, [sp, #-96]!
	stp	x28, x27, [sp, #16]
	mov	x29, sp
	stp	x26, x25, [sp, #32]
	stp	x24, x23, [sp, #48]
	stp	x22, x21, [sp, #64]
	stp	x20, x19, [sp, #80]
	sub	sp, sp, #512
	mov	w9, #49175
	mov	x19, x0
	mov	w8, wzr
	mov	x23, xzr
	cmp	x2, x9
	mov	w10, #10
	mov	w11, #1
	b.hi	.LBB1_7
	mov	x9, #-6148914691236517206
	mov	x28, x23
	movk	x9, #43691
	umulh	x9, x2, x9
	lsr	x27, x9, #4
	mov	w9, #24
	msub	x12, x27, x9, x2
	mov	w9, w8
	cbnz	x12, .LBB1_67
	mov	x6, x4
	mov	x21, x3
	mov	x20, x1
	cmp	x2, #24
	b.lo	.LBB1_9
	mov	x9, xzr
	mov	x8, x27
	add	x10, x20, #16
.LBB1_4:
	ldp	x11, x12, [x10, #-16]
	and	x13, x11, #0xffffffffffff00ff
	cmp	x13, #5
	ldr	x13, [x10], #24
	ccmp	x12, #0, #0, eq
	ccmp	x11, #1, #4, ne
	cset	w11, eq
	cbnz	x13, .LBB1_8
	cbz	w11, .LBB1_8
	add	x9, x9, #1
	cmp	x27, x9
	b.ne	.LBB1_4
	b	.LBB1_9
.LBB1_7:
	mov	w9, w8
	mov	x28, x23
	b	.LBB1_67
.LBB1_8:
	cmp	x27, x9
	b.ne	.LBB1_68
.LBB1_9:
	ldr	x8, [x21]
	mov	w9, #1
	fmov	v0.2d, #1.00000000
	cmp	x2, #23
	stp	xzr, xzr, [x29, #-80]
	strb	w9, [x8, #128]
	ldr	x8, [x21, #16]
	stp	xzr, xzr, [x29, #-96]
	stp	xzr, xzr, [x29, #-112]
	strb	wzr, [x8, #128]
	ldr	x8, [x21, #32]
	str	q0, [x8, #3072]
	str	xzr, [x8, #3088]
	ldr	x8, [x21, #48]
	strb	w9, [x8, #128]
	b.hi	.LBB1_11
	ldr	x10, [x21, #48]
	mov	w9, wzr
	mov	w8, wzr
	mov	x28, xzr
	mov	w4, #129
	b	.LBB1_52
.LBB1_11:
	mov	x23, xzr
	mov	x24, xzr
	mov	w12, wzr
	mov	x28, xzr
	mov	w4, #129
	str	x6, [sp, #8]
.LBB1_12:
	mov	w8, #24
	add	x9, x20, #4
	madd	x8, x23, x8, x9
.LBB1_13:
	ldurb	w22, [x8, #-4]
	sub	w9, w22, #1
	cmp	w9, #12
	b.hi	.LBB1_24
	sub	w9, w22, #6
	cmp	w9, #8
	b.hs	.LBB1_17
.LBB1_15:
	sub	w9, w22, #7
	cmp	w9, #3
	b.hs	.LBB1_24
	add	x23, x23, #1
	add	x8, x8, #24
	cmp	x23, x27
	b.lo	.LBB1_13
	b	.LBB1_51
.LBB1_17:
	mov	w9, #1
	lsl	w9, w9, w22
	tst	w9, #0x18
	b.ne	.LBB1_15
	ldurb	w10, [x8, #-3]
	ldurh	w9, [x8, #-2]
	sub	x0, x29, #112
	ldr	w25, [x8]
	ldur	q0, [x8, #4]
	sub	x8, x29, #88
	sub	x1, x29, #88
	mov	x2, x21
	mov	x3, x6
	mov	x5, x24
	mov	w26, w12
	str	x10, [sp]
	sturb	w10, [x29, #-87]
	sturh	w9, [x29, #-86]
	stur	w25, [x29, #-84]
	stur	q0, [x8, #8]
	sturb	w22, [x29, #-88]
	bl	"stack::leaf::leaf"
	ldurb	w8, [x29, #-112]
	cmp	w8, #1
	b.eq	.LBB1_112
	ldur	x8, [x29, #-96]
	adds	x8, x28, x8
	csinv	x28, x8, xzr, lo
	cmp	x24, #2
	b.eq	.LBB1_34
	cmp	w22, #5
	b.ne	.LBB1_34
	ldp	x10, x6, [sp]
	mov	w12, w26
	cmp	w10, #38
	b.hi	.LBB1_50
	mov	w8, #1
	mov	w9, #6048
	lsl	x8, x8, x10
	tst	x8, x9
	b.eq	.LBB1_43
	cmp	x24, #0
	mov	w8, #1
	cinc	x24, x8, ne
	b	.LBB1_44
.LBB1_24:
	ldur	q0, [x8, #4]
	ldurb	w26, [x8, #-3]
	cmp	w22, #6
	ldurh	w9, [x8, #-2]
	ldr	w25, [x8]
	sub	x8, x29, #88
	stur	q0, [x8, #8]
	movi	v0.2d, #0000000000000000
	and	w8, w12, #0x1
	strb	w8, [sp, #40]
	add	x8, sp, #16
	sturb	w26, [x29, #-87]
	sturh	w9, [x29, #-86]
	stur	w25, [x29, #-84]
	stp	x4, x24, [sp, #16]
	str	x28, [sp, #32]
	stur	wzr, [x8, #25]
	stur	wzr, [x8, #28]
	stp	q0, q0, [sp, #144]
	str	xzr, [sp, #176]
	b.ne	.LBB1_26
	add	x0, sp, #144
	add	x7, sp, #16
	mov	x1, x20
	mov	x2, x23
	mov	w3, w26
	mov	w4, w25
	mov	x5, x21
	bl	"reading::walk::modify"
	ldp	x4, x24, [sp, #152]
	ldrb	w8, [sp, #144]
	ldrb	w10, [sp, #145]
	ldr	x28, [sp, #168]
	ldrb	w12, [sp, #176]
	b	.LBB1_41
.LBB1_26:
	sub	x8, x29, #88
	sub	x0, x29, #64
	sub	x1, x29, #40
	ldur	q0, [x8, #8]
	sub	x8, x29, #40
	mov	x2, x21
	mov	x3, x6
	mov	x5, x24
	str	w12, [sp]
	sturb	w22, [x29, #-40]
	sturb	w26, [x29, #-39]
	sturh	w9, [x29, #-38]
	stur	w25, [x29, #-36]
	stur	q0, [x8, #8]
	stp	xzr, xzr, [x29, #-56]
	stur	xzr, [x29, #-64]
	bl	"stack::leaf::leaf"
	ldurb	w8, [x29, #-64]
	cmp	w8, #1
	b.ne	.LBB1_28
	ldurb	w11, [x29, #-62]
	ldurb	w10, [x29, #-63]
	mov	x9, xzr
	mov	x28, xzr
	mov	w12, wzr
	mov	x4, x23
	and	x11, x11, #0x1
	b	.LBB1_40
.LBB1_28:
	cmp	x24, #2
	b.eq	.LBB1_33
	cmp	w22, #5
	b.ne	.LBB1_33
	ldr	w12, [sp]
	cmp	w26, #38
	b.hi	.LBB1_49
	mov	w9, w26
	mov	w10, #1
	mov	w11, #6048
	lsl	x10, x10, x9
	tst	x10, x11
	b.eq	.LBB1_37
	cmp	x24, #0
	mov	w9, #1
	cinc	x24, x9, ne
	b	.LBB1_38
.LBB1_33:
	ldr	w12, [sp]
	cmp	w22, #5
	b.eq	.LBB1_38
	b	.LBB1_39
.LBB1_34:
	ldr	x6, [sp, #8]
	cmp	w22, #2
	mov	w12, w26
	b.le	.LBB1_45
	sub	w8, w22, #3
	cmp	w8, #2
	b.lo	.LBB1_46
	ldr	x10, [sp]
	b	.LBB1_44
.LBB1_37:
	mov	w10, #1
	lsl	x9, x10, x9
	mov	x10, #28
	movk	x10, #64, lsl #32
	tst	x9, x10
	b.eq	.LBB1_49
.LBB1_38:
	cmp	w26, #17
	cset	w9, eq
	orr	w12, w12, w9
.LBB1_39:
	ldp	x4, x9, [x29, #-56]
	mov	w10, wzr
	and	x11, x24, #0xff
	adds	x9, x28, x9
	csinv	x28, x9, xzr, lo
	and	x9, x24, #0xffffffffffffff00
.LBB1_40:
	orr	x24, x9, x11
.LBB1_41:
	cmp	w8, #1
	b.eq	.LBB1_102
	ldr	x6, [sp, #8]
	add	x8, x23, w25, uxtw
	add	x23, x8, #1
	cmp	x23, x27
	b.lo	.LBB1_12
	b	.LBB1_51
.LBB1_43:
	mov	w8, #1
	mov	x9, #28
	lsl	x8, x8, x10
	movk	x9, #64, lsl #32
	tst	x8, x9
	b.eq	.LBB1_50
.LBB1_44:
	cmp	w10, #17
	cset	w8, eq
	b	.LBB1_48
.LBB1_45:
	cmp	w22, #1
	b.ne	.LBB1_47
.LBB1_46:
	mov	w8, wzr
	b	.LBB1_48
.LBB1_47:
	mov	w8, #1
.LBB1_48:
	ldur	x4, [x29, #-104]
	orr	w12, w12, w8
	add	x8, x23, w25, uxtw
	add	x23, x8, #1
	cmp	x23, x27
	b.lo	.LBB1_12
	b	.LBB1_51
.LBB1_49:
	adrp	x9, .Lstatic.0
	add	x9, x9, :lo12:.Lstatic.0
	cmp	x24, #0
	ldrb	w9, [x9, x26]
	mov	w10, #1
	cinc	x10, x10, ne
	and	w9, w9, #0xf0
	cmp	w9, #16
	csel	x24, x10, x24, eq
	b	.LBB1_38
.LBB1_50:
	adrp	x8, .Lstatic.0
	add	x8, x8, :lo12:.Lstatic.0
	cmp	x24, #0
	ldrb	w8, [x8, x10]
	mov	w9, #1
	cinc	x9, x9, ne
	and	w8, w8, #0xf0
	cmp	w8, #16
	csel	x24, x9, x24, eq
	b	.LBB1_44
.LBB1_51:
	cmp	x24, #1
	ldr	x10, [x21, #48]
	and	w8, w12, #0x1
	cset	w9, hi
	cmp	x4, #129
	b.lo	.LBB1_61
.LBB1_52:
	movi	d0, #0000000000000000
	fmov	d1, #1.00000000
	ldr	x11, [x21]
	ldr	x12, [x21, #32]
	mov	x15, x4
	b	.LBB1_54
.LBB1_53:
	cmp	x13, #128
	mov	x15, x13
	b.ls	.LBB1_61
.LBB1_54:
	add	x13, x10, x15
	ldurb	w14, [x13, #-1]
	sub	x13, x15, x14
	cmp	x13, x15
	b.hs	.LBB1_53
	mov	w16, #24
	mul	x17, x15, x16
	add	x15, x11, x15
	umsubl	x16, w14, w16, x17
	neg	x14, x14
	add	x16, x12, x16
	b	.LBB1_57
.LBB1_56:
	adds	x14, x14, #1
	b.hs	.LBB1_53
.LBB1_57:
	ldrb	w17, [x15, x14]
	ldr	d2, [x16], #24
	cmp	w17, #1
	b.ne	.LBB1_56
	fcmp	d2, d0
	b.eq	.LBB1_56
	fcmp	d2, d1
	b.eq	.LBB1_56
	mov	w9, #1
.LBB1_61:
	cmp	x4, #128
	b.ne	.LBB1_63
	mov	x23, xzr
	mov	x28, xzr
	mov	w10, #2
	b	.LBB1_66
.LBB1_63:
	add	x10, x10, x4
	ldurb	w23, [x10, #-1]
	add	x10, x23, #128
	cmp	x10, x4
	b.ne	.LBB1_65
	mov	w11, wzr
	mov	w10, wzr
	b	.LBB1_67
.LBB1_65:
	mov	x23, xzr
	mov	x28, xzr
	mov	w10, #3
.LBB1_66:
	mov	w11, #1
	mov	w8, w9
	mov	w9, wzr
.LBB1_67:
	strb	w11, [x19]
	strb	w10, [x19, #1]
	str	x23, [x19, #8]
	strb	w8, [x19, #16]
	strb	w9, [x19, #17]
	str	x28, [x19, #24]
	add	sp, sp, #512
	ldp	x20, x19, [sp, #80]
	ldp	x22, x21, [sp, #64]
	ldp	x24, x23, [sp, #48]
	ldp	x26, x25, [sp, #32]
	ldp	x28, x27, [sp, #16]
	ldp	x29, x30, [sp], #96
	ret
.LBB1_68:
	movi	v0.2d, #0000000000000000
	mov	w11, wzr
	mov	x10, xzr
	add	x12, x20, #16
	mov	x16, x8
	stp	q0, q0, [sp, #16]
	stp	q0, q0, [sp, #48]
	stp	q0, q0, [sp, #80]
	stp	q0, q0, [sp, #112]
	stp	q0, q0, [sp, #144]
	stp	q0, q0, [sp, #176]
	stp	q0, q0, [sp, #208]
	stp	q0, q0, [sp, #240]
	stp	q0, q0, [sp, #272]
	stp	q0, q0, [sp, #304]
	stp	q0, q0, [sp, #336]
	stp	q0, q0, [sp, #368]
.LBB1_69:
	mov	x13, x9
	mov	x9, x16
.LBB1_70:
	tbz	w11, #0, .LBB1_75
.LBB1_71:
	cmp	x13, x9
	b.eq	.LBB1_88
	mov	w14, #24
	madd	x1, x13, x14, x20
	ldrb	w14, [x1]
	ldp	x17, x16, [x1, #8]
	ldr	w15, [x1, #4]
	ldrb	w0, [x1, #1]
	ldrb	w18, [x1, #3]
	cmp	w14, #7
	b.eq	.LBB1_80
	ldrb	w1, [x1, #2]
	subs	w3, w14, #6
	b.ne	.LBB1_82
	orr	x16, x16, x17
	orr	w17, w18, w1
	b	.LBB1_81
.LBB1_75:
	cmp	x13, x9
	b.hs	.LBB1_88
	mov	w14, #24
	madd	x14, x13, x14, x12
.LBB1_77:
	ldp	x15, x16, [x14, #-16]
	and	x17, x15, #0xffffffffffff00ff
	cmp	x17, #5
	ldr	x17, [x14], #24
	ccmp	x16, #0, #0, eq
	ccmp	x15, #1, #4, ne
	cset	w15, eq
	cbnz	x17, .LBB1_71
	cbz	w15, .LBB1_71
	add	x13, x13, #1
	cmp	x9, x13
	b.ne	.LBB1_77
	b	.LBB1_88
.LBB1_80:
	orr	x16, x16, x17
	orr	w17, w18, w0
.LBB1_81:
	cmp	x16, #0
	ccmp	w17, #0, #0, eq
	cset	w17, eq
	add	x13, x13, #1
	cmp	w14, #7
	add	x16, x13, x15
	cset	w18, ne
	cmp	x16, x9
	b.ls	.LBB1_83
	b	.LBB1_91
.LBB1_82:
	sub	w4, w14, #5
	tst	w4, #0xfe
	sub	w4, w14, #1
	ccmp	w0, #0, #4, ne
	cset	w0, eq
	cmp	w4, #13
	ccmp	w18, #0, #0, lo
	csel	w18, wzr, w0, ne
	cmp	w1, #0
	csel	w18, wzr, w18, ne
	tst	w3, #0xfc
	ccmp	w15, #0, #4, ne
	csel	w18, wzr, w18, ne
	cmp	x17, #0
	ccmp	w4, #2, #0, ne
	csel	w17, wzr, w18, hs
	cmp	x16, #0
	ccmp	w14, #2, #4, ne
	csel	w17, wzr, w17, ne
	add	x13, x13, #1
	cmp	w14, #7
	add	x16, x13, x15
	cset	w18, ne
	cmp	x16, x9
	b.hi	.LBB1_91
.LBB1_83:
	eor	w18, w11, w18
	tbz	w18, #0, .LBB1_91
	cbz	w17, .LBB1_91
	cbz	w15, .LBB1_70
	cmp	x10, #128
	b.eq	.LBB1_91
	add	x15, sp, #144
	add	x17, sp, #16
	cmp	w14, #6
	strh	w9, [x15, x10, lsl #1]
	and	w9, w11, #0x1
	cset	w11, eq
	strb	w9, [x17, x10]
	add	x10, x10, #1
	mov	x9, x13
	b	.LBB1_69
.LBB1_88:
	cbz	x10, .LBB1_9
	sub	x10, x10, #1
	add	x11, sp, #144
	add	x13, sp, #16
	ldrh	w16, [x11, x10, lsl #1]
	ldrb	w11, [x13, x10]
	b	.LBB1_69
.LBB1_90:
	mov	x8, x9
	cbz	x9, .LBB1_104
.LBB1_91:
	sub	x9, x8, #1
	mov	w10, #24
	madd	x11, x9, x10, x20
	ldr	w12, [x11, #4]
	add	x10, x8, x12
	cmp	x27, x10
	b.lo	.LBB1_111
	cbz	w12, .LBB1_90
	ldrb	w11, [x11]
.LBB1_94:
	mov	w12, #24
	madd	x18, x8, x12, x20
	ldrb	w12, [x18]
	ldp	x15, x14, [x18, #8]
	ldr	w13, [x18, #4]
	ldrb	w17, [x18, #1]
	ldrb	w16, [x18, #3]
	cmp	w12, #7
	b.eq	.LBB1_97
	ldrb	w18, [x18, #2]
	subs	w0, w12, #6
	b.ne	.LBB1_99
	orr	x14, x14, x15
	orr	w15, w16, w18
	b	.LBB1_98
.LBB1_97:
	orr	x14, x14, x15
	orr	w15, w16, w17
.LBB1_98:
	cmp	x14, #0
	ccmp	w15, #0, #0, eq
	cset	w14, eq
	b	.LBB1_100
.LBB1_99:
	sub	w1, w12, #5
	tst	w1, #0xfe
	sub	w1, w12, #1
	ccmp	w17, #0, #4, ne
	cset	w17, eq
	cmp	w1, #13
	ccmp	w16, #0, #0, lo
	csel	w16, wzr, w17, ne
	cmp	w18, #0
	csel	w16, wzr, w16, ne
	tst	w0, #0xfc
	ccmp	w13, #0, #4, ne
	csel	w16, wzr, w16, ne
	cmp	x15, #0
	ccmp	w1, #2, #0, ne
	csel	w15, wzr, w16, hs
	cmp	x14, #0
	ccmp	w12, #2, #4, ne
	csel	w14, wzr, w15, ne
.LBB1_100:
	cmp	w11, #6
	add	x8, x8, x13
	cset	w15, eq
	cmp	w12, #7
	add	x8, x8, #1
	cset	w12, ne
	cmp	x8, x10
	eor	w12, w15, w12
	ccmp	w12, #0, #4, ls
	ccmp	w14, #0, #4, ne
	b.eq	.LBB1_111
	cmp	x8, x10
	b.lo	.LBB1_94
	b	.LBB1_90
.LBB1_102:
	mov	x23, x4
	mov	w8, w24
.LBB1_103:
	mov	w9, wzr
	mov	x28, xzr
	mov	w11, #1
	b	.LBB1_67
.LBB1_104:
	mov	x12, xzr
.LBB1_105:
	mov	w8, #24
	madd	x14, x12, x8, x20
	ldrb	w9, [x14]
	ldp	x11, x10, [x14, #8]
	ldr	w8, [x14, #4]
	ldrb	w13, [x14, #2]
	ldrb	w16, [x14, #3]
	subs	w15, w9, #6
	b.eq	.LBB1_108
	cmp	w9, #7
	b.eq	.LBB1_111
	sub	w17, w9, #1
	ldrb	w14, [x14, #1]
	cmp	w17, #13
	ccmp	w16, #0, #0, lo
	sub	w16, w9, #5
	cset	w18, eq
	tst	w16, #0xfe
	ccmp	w14, #0, #4, ne
	csel	w14, wzr, w18, ne
	cmp	w13, #0
	csel	w13, wzr, w14, ne
	tst	w15, #0xfc
	ccmp	w8, #0, #4, ne
	csel	w13, wzr, w13, ne
	cmp	x11, #0
	ccmp	w17, #2, #0, ne
	csel	w11, wzr, w13, hs
	cmp	x10, #0
	ccmp	w9, #2, #4, ne
	csel	w9, wzr, w11, ne
	b	.LBB1_109
.LBB1_108:
	orr	x9, x10, x11
	orr	w10, w16, w13
	cmp	x9, #0
	ccmp	w10, #0, #0, eq
	cset	w9, eq
.LBB1_109:
	add	x8, x12, x8
	add	x12, x8, #1
	cmp	x12, x27
	ccmp	w9, #0, #4, ls
	b.eq	.LBB1_111
	mov	x23, xzr
	mov	w8, wzr
	mov	w9, wzr
	mov	x28, xzr
	cmp	x12, x27
	mov	w10, #12
	mov	w11, #1
	b.lo	.LBB1_105
	b	.LBB1_67
.LBB1_111:
	mov	x23, xzr
	mov	w8, wzr
	mov	w9, wzr
	mov	x28, xzr
	mov	w10, #10
	mov	w11, #1
	b	.LBB1_67
.LBB1_112:
	ldurb	w10, [x29, #-111]
	ldurb	w8, [x29, #-110]
	b	.LBB1_103
.Lfunc_end1:
	.size	"algebra::lists::read_sum", .Lfunc_end1-"algebra::lists::read_sum"

	.section	.rodata.cst16,"aM",@progbits,16
	.p2align	4, 0x0
.LCPI2_0:
	.xword	0x0000000000000000
	.xword	0x3ff0000000000000
.LCPI2_1:
	.xword	0x3ff0000000000000
	.xword	0x0000000000000000
.LCPI2_3:
	.xword	0x4005bf0a8b145769
	.xword	0x3ff0000000000000
.LCPI2_4:
	.xword	0x4000000000000000
	.xword	0x3ff0000000000000
.LCPI2_5:
	.xword	0x4024000000000000
	.xword	0x3ff0000000000000
	.section	.rodata.cst8,"aM",@progbits,8
	.p2align	3, 0x0
.LCPI2_2:
	.xword	0x4005bf0a8b145769
	.section	".text.stack::leaf::leaf","ax",@progbits
	.p2align	2
	.type	"stack::leaf::leaf",@function
"stack::leaf::leaf":
	stp	d13, d12, [sp, #-144]!
	stp	d11, d10, [sp, #16]
	stp	d9, d8, [sp, #32]
	stp	x29, x30, [sp, #48]
	add	x29, sp, #48
	stp	x28, x27, [sp, #64]
	stp	x26, x25, [sp, #80]
	stp	x24, x23, [sp, #96]
	stp	x22, x21, [sp, #112]
	stp	x20, x19, [sp, #128]
	sub	sp, sp, #3072
	str	xzr, [sp]
	sub	sp, sp, #2128
	str	xzr, [sp]
	ldrb	w8, [x1]
	sub	w9, w8, #1
	cmp	w9, #12
	b.hi	.LBB2_6
	cmp	w8, #5
	b.le	.LBB2_24
	cmp	w8, #11
	b.ge	.LBB2_28
.LBB2_3:
	mov	w8, #1
.LBB2_4:
	cmp	x4, #129
	b.lo	.LBB2_804
	movi	d0, #0000000000000000
	fmov	d1, #1.00000000
	ldr	x9, [x2]
	ldr	x10, [x2, #32]
	ldr	x11, [x2, #48]
	b	.LBB2_17
.LBB2_6:
	cmp	x4, #129
	b.lo	.LBB2_113
	movi	d0, #0000000000000000
	fmov	d1, #1.00000000
	ldr	x8, [x2]
	ldr	x9, [x2, #32]
	ldr	x10, [x2, #48]
	b	.LBB2_9
.LBB2_8:
	cmp	x11, #128
	mov	x4, x11
	b.ls	.LBB2_113
.LBB2_9:
	add	x11, x10, x4
	ldurb	w12, [x11, #-1]
	sub	x11, x4, x12
	cmp	x11, x4
	b.hs	.LBB2_8
	mov	w13, #24
	mul	x14, x4, x13
	umsubl	x14, w12, w13, x14
	neg	x12, x12
	add	x13, x8, x4
	add	x14, x9, x14
	b	.LBB2_12
.LBB2_11:
	adds	x12, x12, #1
	b.hs	.LBB2_8
.LBB2_12:
	ldrb	w15, [x13, x12]
	ldr	d2, [x14], #24
	cmp	w15, #1
	b.ne	.LBB2_11
	fcmp	d2, d0
	b.eq	.LBB2_11
	fcmp	d2, d1
	b.eq	.LBB2_11
.LBB2_15:
	mov	w8, #1
	b	.LBB2_114
.LBB2_16:
	cmp	x12, #128
	mov	x4, x12
	b.ls	.LBB2_804
.LBB2_17:
	add	x12, x11, x4
	ldurb	w13, [x12, #-1]
	sub	x12, x4, x13
	cmp	x12, x4
	b.hs	.LBB2_16
	mov	w14, #24
	mul	x15, x4, x14
	umsubl	x15, w13, w14, x15
	neg	x13, x13
	add	x14, x9, x4
	add	x15, x10, x15
	b	.LBB2_20
.LBB2_19:
	adds	x13, x13, #1
	b.hs	.LBB2_16
.LBB2_20:
	ldrb	w16, [x14, x13]
	ldr	d2, [x15], #24
	cmp	w16, #1
	b.ne	.LBB2_19
	fcmp	d2, d0
	b.eq	.LBB2_19
	fcmp	d2, d1
	b.eq	.LBB2_19
.LBB2_23:
	mov	w9, #1
	b	.LBB2_805
.LBB2_24:
	cmp	w8, #2
	b.le	.LBB2_31
	cmp	w8, #3
	b.eq	.LBB2_36
	cmp	w8, #4
	b.ne	.LBB2_37
	mov	w8, #5
	b	.LBB2_4
.LBB2_28:
	b.eq	.LBB2_35
	cmp	w8, #12
	b.ne	.LBB2_3
	mov	w11, wzr
	mov	w8, wzr
	mov	w10, wzr
	mov	x22, xzr
	b	.LBB2_807
.LBB2_31:
	ldr	x9, [x1, #8]
	cmp	w8, #1
	b.ne	.LBB2_51
	mov	x8, #9218868437227405312
	bics	xzr, x8, x9
	b.ne	.LBB2_74
	cmp	x4, #129
	b.lo	.LBB2_72
	movi	d0, #0000000000000000
	fmov	d1, #1.00000000
	ldr	x8, [x2]
	ldr	x9, [x2, #32]
	ldr	x10, [x2, #48]
	b	.LBB2_56
.LBB2_35:
	mov	w8, #8
	b	.LBB2_4
.LBB2_36:
	mov	w8, #4
	b	.LBB2_4
.LBB2_37:
	ldrb	w8, [x1, #1]
	add	x17, sp, #1, lsl #12
	sub	x18, x29, #248
	add	x17, x17, #712
	cmp	w8, #38
	b.hi	.LBB2_90
	mov	w9, #1
	mov	x10, #5904
	lsl	x9, x9, x8
	movk	x10, #64, lsl #32
	tst	x9, x10
	b.eq	.LBB2_78
.LBB2_39:
	cmp	x4, #128
	b.eq	.LBB2_80
	ldr	x9, [x2, #48]
	add	x10, x9, x4
	ldurb	w25, [x10, #-1]
	sub	x21, x4, x25
	cmp	x21, #128
	b.eq	.LBB2_80
	cmp	w8, #38
	b.hi	.LBB2_152
	mov	w10, #1
	mov	w11, #6048
	lsl	x10, x10, x8
	tst	x10, x11
	b.eq	.LBB2_115
.LBB2_43:
	add	x9, x9, x21
	cmp	w8, #10
	ldurb	w23, [x9, #-1]
	sub	x27, x21, x23
	b.le	.LBB2_100
	cmp	w8, #16
	b.gt	.LBB2_123
	cmp	w8, #11
	b.eq	.LBB2_211
	cmp	w8, #12
	b.ne	.LBB2_208
	ldr	x19, [x2]
	ldr	x8, [x2, #32]
	cmp	w23, #1
	stp	xzr, xzr, [sp, #200]
	str	xzr, [sp, #216]
	b.ne	.LBB2_396
	mov	w9, #24
	movi	d0, #0000000000000000
	mov	w10, wzr
	madd	x9, x27, x9, x8
	ldr	d1, [x9]
	fcmp	d1, d0
	b.ne	.LBB2_397
	ldrb	w11, [x19, x27]
	cmp	w11, #1
	b.ne	.LBB2_397
	adrp	x10, .LCPI2_2
	ldr	d1, [x9, #8]
	ldr	d2, [x10, :lo12:.LCPI2_2]
	fcmp	d1, d2
	ldr	d1, [x9, #16]
	cset	w9, eq
	fcmp	d1, d0
	csel	w10, wzr, w9, ne
	b	.LBB2_397
.LBB2_51:
	mov	x8, #9218868437227405312
	bics	xzr, x8, x9
	b.eq	.LBB2_62
	ldr	x12, [x1, #16]
	and	x10, x12, #0x7ff0000000000000
	cmp	x10, x8
	b.eq	.LBB2_62
	cmp	x3, x4
	mov	w11, #1
	b.ls	.LBB2_77
	ldr	x13, [x2]
	mov	w14, #24
	mov	w8, wzr
	mov	w10, wzr
	mov	x22, xzr
	strb	w11, [x13, x4]
	ldr	x13, [x2, #16]
	strb	wzr, [x13, x4]
	ldr	x13, [x2, #32]
	madd	x13, x4, x14, x13
	stp	xzr, x9, [x13]
	str	x12, [x13, #16]
	b	.LBB2_76
.LBB2_55:
	cmp	x11, #128
	mov	x4, x11
	b.ls	.LBB2_72
.LBB2_56:
	add	x11, x10, x4
	ldurb	w12, [x11, #-1]
	sub	x11, x4, x12
	cmp	x11, x4
	b.hs	.LBB2_55
	mov	w13, #24
	mul	x14, x4, x13
	umsubl	x14, w12, w13, x14
	neg	x12, x12
	add	x13, x8, x4
	add	x14, x9, x14
	b	.LBB2_59
.LBB2_58:
	adds	x12, x12, #1
	b.hs	.LBB2_55
.LBB2_59:
	ldrb	w15, [x13, x12]
	ldr	d2, [x14], #24
	cmp	w15, #1
	b.ne	.LBB2_58
	fcmp	d2, d0
	b.eq	.LBB2_58
	fcmp	d2, d1
	b.eq	.LBB2_58
	b	.LBB2_71
.LBB2_62:
	cmp	x4, #129
	b.lo	.LBB2_72
	movi	d0, #0000000000000000
	fmov	d1, #1.00000000
	ldr	x8, [x2]
	ldr	x9, [x2, #32]
	ldr	x10, [x2, #48]
	b	.LBB2_65
.LBB2_64:
	cmp	x11, #128
	mov	x4, x11
	b.ls	.LBB2_72
.LBB2_65:
	add	x11, x10, x4
	ldurb	w12, [x11, #-1]
	sub	x11, x4, x12
	cmp	x11, x4
	b.hs	.LBB2_64
	mov	w13, #24
	mul	x14, x4, x13
	umsubl	x14, w12, w13, x14
	neg	x12, x12
	add	x13, x8, x4
	add	x14, x9, x14
	b	.LBB2_68
.LBB2_67:
	adds	x12, x12, #1
	b.hs	.LBB2_64
.LBB2_68:
	ldrb	w15, [x13, x12]
	ldr	d2, [x14], #24
	cmp	w15, #1
	b.ne	.LBB2_67
	fcmp	d2, d0
	b.eq	.LBB2_67
	fcmp	d2, d1
	b.eq	.LBB2_67
.LBB2_71:
	mov	w8, #1
	b	.LBB2_73
.LBB2_72:
	mov	w8, wzr
.LBB2_73:
	cmp	x5, #1
	mov	x4, xzr
	mov	x22, xzr
	csinc	w10, w8, wzr, ls
	mov	w8, #14
	b	.LBB2_806
.LBB2_74:
	cmp	x3, x4
	mov	w11, #1
	b.ls	.LBB2_77
	ldr	x12, [x2]
	mov	w13, #24
	mov	w8, wzr
	mov	w10, wzr
	mov	x22, xzr
	strb	w11, [x12, x4]
	ldr	x12, [x2, #16]
	strb	wzr, [x12, x4]
	ldr	x12, [x2, #32]
	madd	x12, x4, x13, x12
	stp	xzr, x9, [x12]
	str	xzr, [x12, #16]
.LBB2_76:
	ldr	x9, [x2, #48]
	strb	w11, [x9, x4]
	add	x4, x4, #1
	mov	w11, wzr
	b	.LBB2_807
.LBB2_77:
	mov	w10, wzr
	mov	x4, xzr
	mov	x22, xzr
	mov	w8, #11
	b	.LBB2_807
.LBB2_78:
	mov	w9, #1
	mov	w10, #172
	lsl	x9, x9, x8
	tst	x9, x10
	b.eq	.LBB2_90
.LBB2_79:
	cmp	x4, #128
	b.ne	.LBB2_81
.LBB2_80:
	cmp	x5, #1
	mov	w8, wzr
	mov	x4, xzr
	mov	x22, xzr
	cset	w10, hi
	b	.LBB2_806
.LBB2_81:
	ldr	x9, [x2, #48]
	cmp	w8, #38
	add	x9, x9, x4
	ldurb	w27, [x9, #-1]
	b.hi	.LBB2_136
	mov	w9, #1
	mov	w10, #6048
	lsl	x9, x9, x8
	tst	x9, x10
	b.eq	.LBB2_94
.LBB2_83:
	sub	w8, w8, #5
	sub	x28, x4, x27
	cmp	w8, #32
	b.hi	.LBB2_376
	adrp	x9, .LJTI2_0
	add	x9, x9, :lo12:.LJTI2_0
.Ltmp0:
	adr	x10, .Ltmp0
	ldrsw	x11, [x9, x8, lsl #2]
	add	x10, x10, x11
	br	x10
.LBB2_85:
	cbz	w27, .LBB2_380
	mov	w8, #24
	ldr	x10, [x2, #16]
	ldr	x11, [x2, #32]
	mul	x9, x4, x8
	mov	x12, x27
	umsubl	x8, w27, w8, x9
	ldr	x9, [x2]
.LBB2_87:
	ldrb	w13, [x9, x28]
	add	x14, x11, x8
	subs	x12, x12, #1
	strb	w13, [x9], #1
	ldrb	w13, [x10, x28]
	strb	w13, [x10], #1
	ldr	x13, [x14, #16]
	ldr	q0, [x14]
	str	x13, [x11, #16]
	str	q0, [x11], #24
	b.ne	.LBB2_87
	mov	x8, xzr
.LBB2_89:
	mov	w9, #24
	ldr	x10, [x2, #32]
	madd	x9, x8, x9, x10
	ldr	x10, [x2, #16]
	ldrb	w10, [x10, x8]
	add	x8, x8, x10
	ldur	q0, [x9, #8]
	add	x8, x8, #1
	cmp	x8, x27
	fneg	v0.2d, v0.2d
	stur	q0, [x9, #8]
	b.lo	.LBB2_89
	b	.LBB2_379
.LBB2_90:
	adrp	x9, .Lstatic.0
	add	x9, x9, :lo12:.Lstatic.0
	ldrb	w9, [x9, x8]
	and	w9, w9, #0x3
	cmp	w9, #1
	b.eq	.LBB2_79
	cbnz	w9, .LBB2_39
	cmp	x4, #129
	b.lo	.LBB2_113
	movi	d0, #0000000000000000
	fmov	d1, #1.00000000
	ldr	x8, [x2]
	ldr	x9, [x2, #32]
	ldr	x10, [x2, #48]
	b	.LBB2_107
.LBB2_94:
	mov	w9, #1
	lsl	x9, x9, x8
	and	x9, x9, #0x7ffffffff8
	tst	x9, #0xffffffc00000001f
	b.eq	.LBB2_135
.LBB2_95:
	sub	x8, x3, x4
	cmp	x8, x27
	b.lo	.LBB2_795
	sub	x15, x4, x27
	ldr	x9, [x2]
	ldr	x10, [x2, #16]
	ldr	x11, [x2, #32]
	cmp	x4, x15
	b.ls	.LBB2_154
	cbz	w27, .LBB2_157
	add	x12, x4, x27
	mov	w13, #24
	sub	x16, x4, #1
	madd	x14, x12, x13, x11
	mov	x8, xzr
	madd	x15, x4, x13, x11
	sub	x13, x12, #1
	neg	x11, x27
	add	x12, x10, x13
	add	x13, x9, x13
	add	x10, x10, x16
	add	x9, x9, x16
	sub	x14, x14, #24
	sub	x15, x15, #24
.LBB2_99:
	ldrb	w16, [x9, x8]
	strb	w16, [x13, x8]
	ldrb	w16, [x10, x8]
	strb	w16, [x12, x8]
	sub	x8, x8, #1
	ldr	x16, [x15, #16]
	ldr	q0, [x15], #-24
	cmp	x11, x8
	str	x16, [x14, #16]
	str	q0, [x14], #-24
	b.ne	.LBB2_99
	b	.LBB2_157
.LBB2_100:
	cmp	w8, #8
	b.eq	.LBB2_158
	cmp	w8, #9
	b.eq	.LBB2_216
	cmp	w8, #10
	b.ne	.LBB2_208
	ldr	x19, [x2, #16]
	cmp	x27, x21
	b.hs	.LBB2_405
	mov	x8, xzr
	sub	x9, x21, x23
.LBB2_105:
	ldrb	w10, [x19, x9]
	add	x8, x8, #1
	add	x9, x9, x10
	add	x9, x9, #1
	cmp	x9, x21
	b.lo	.LBB2_105
	b	.LBB2_406
.LBB2_106:
	cmp	x11, #128
	mov	x4, x11
	b.ls	.LBB2_113
.LBB2_107:
	add	x11, x10, x4
	ldurb	w12, [x11, #-1]
	sub	x11, x4, x12
	cmp	x11, x4
	b.hs	.LBB2_106
	mov	w13, #24
	mul	x14, x4, x13
	umsubl	x14, w12, w13, x14
	neg	x12, x12
	add	x13, x8, x4
	add	x14, x9, x14
	b	.LBB2_110
.LBB2_109:
	adds	x12, x12, #1
	b.hs	.LBB2_106
.LBB2_110:
	ldrb	w15, [x13, x12]
	ldr	d2, [x14], #24
	cmp	w15, #1
	b.ne	.LBB2_109
	fcmp	d2, d0
	b.eq	.LBB2_109
	fcmp	d2, d1
	b.eq	.LBB2_109
	b	.LBB2_15
.LBB2_113:
	mov	w8, wzr
.LBB2_114:
	cmp	x5, #1
	mov	x4, xzr
	mov	x22, xzr
	csinc	w10, w8, wzr, ls
	mov	w11, #1
	mov	w8, #1
	b	.LBB2_807
.LBB2_115:
	cmp	x8, #4
	b.eq	.LBB2_139
	cmp	x8, #38
	b.ne	.LBB2_152
	add	x8, x9, x21
	ldurb	w9, [x8, #-1]
.LBB2_118:
	sub	x8, x3, x4
	cmp	x8, x9
	b.lo	.LBB2_795
	sub	x16, x21, x9
	ldr	x10, [x2]
	ldr	x11, [x2, #16]
	ldr	x13, [x2, #32]
	cmp	x4, x16
	b.ls	.LBB2_420
	cbz	w9, .LBB2_423
	mov	w12, #24
	add	x14, x9, x4
	mvn	x18, x25
	mul	x16, x4, x12
	mov	x8, xzr
	madd	x15, x14, x12, x13
	umsubl	x17, w25, w12, x16
	sub	x16, x14, #1
	neg	x12, x9
	add	x13, x17, x13
	add	x17, x18, x4
	sub	x14, x15, #24
	add	x15, x11, x16
	add	x16, x10, x16
	sub	x13, x13, #24
	add	x11, x11, x17
	add	x10, x10, x17
.LBB2_122:
	ldrb	w17, [x10, x8]
	strb	w17, [x16, x8]
	ldrb	w17, [x11, x8]
	strb	w17, [x15, x8]
	sub	x8, x8, #1
	ldr	x17, [x13, #16]
	ldr	q0, [x13], #-24
	cmp	x12, x8
	str	x17, [x14, #16]
	str	q0, [x14], #-24
	b.ne	.LBB2_122
	b	.LBB2_423
.LBB2_123:
	cmp	w8, #17
	b.eq	.LBB2_214
	cmp	w8, #34
	b.ne	.LBB2_208
	mov	x28, x23
	ldr	x23, [x2]
	cmp	w25, #1
	b.ne	.LBB2_403
	mov	w8, #24
	ldr	x9, [x2, #32]
	movi	d0, #0000000000000000
	madd	x9, x21, x8, x9
	mov	w8, #6
	ldr	d1, [x9]
	fcmp	d1, d0
	b.ne	.LBB2_758
	ldrb	w10, [x23, x21]
	cmp	w10, #1
	b.ne	.LBB2_758
	mov	x8, #-4850376798678024192
	ldr	d1, [x9, #16]
	fmov	d2, x8
	mov	x8, #4372995238176751616
	fcmp	d2, d1
	fmov	d2, x8
	mov	w8, #6
	cset	w11, mi
	fcmp	d1, d2
	//APP
	//NO_APP
	cset	w10, mi
	//APP
	//NO_APP
	cbz	w11, .LBB2_758
	cbz	w10, .LBB2_758
	ldr	d8, [x9, #8]
	mov	x19, x5
	mov	x21, x2
	mov	x24, x0
	fsub	d1, d8, d8
	fcmp	d1, d0
	b.ne	.LBB2_639
	mov	x20, x25
	mov	x25, x3
	mov	x26, x4
	cbz	w28, .LBB2_715
	ldr	x0, [x21, #16]
	mov	x1, x27
	mov	x2, x28
	mov	w3, #3
	bl	"sums::order::nests_inside"
	cbz	w0, .LBB2_731
	cmp	w28, #63
	b.ls	.LBB2_770
	mov	w8, #11
	b	.LBB2_732
.LBB2_135:
	cmp	x8, #2
	b.eq	.LBB2_138
.LBB2_136:
	adrp	x9, .Lstatic.0
	add	x9, x9, :lo12:.Lstatic.0
	ldrb	w9, [x9, x8]
	ubfx	w9, w9, #2, #2
	cmp	w9, #1
	b.eq	.LBB2_83
	cbnz	w9, .LBB2_95
.LBB2_138:
	mov	w11, wzr
	mov	w8, wzr
	mov	w10, wzr
	mov	x22, xzr
	sub	x4, x4, x27
	b	.LBB2_807
.LBB2_139:
	add	x8, x9, x21
	ldurb	w9, [x8, #-1]
.LBB2_140:
	ldr	x11, [x2]
	ldr	x12, [x2, #16]
	sub	x8, x21, x9
	ldr	x13, [x2, #32]
	cbz	w9, .LBB2_144
	add	x10, x8, x8, lsl #1
	mov	x14, x9
	lsl	x10, x10, #3
.LBB2_142:
	ldrb	w15, [x11, x8]
	add	x16, x13, x10
	subs	x14, x14, #1
	strb	w15, [x11], #1
	ldrb	w15, [x12, x8]
	strb	w15, [x12], #1
	ldr	x15, [x16, #16]
	ldr	q0, [x16]
	str	x15, [x13, #16]
	str	q0, [x13], #24
	b.ne	.LBB2_142
	ldr	x11, [x2]
	ldr	x12, [x2, #16]
	ldr	x13, [x2, #32]
.LBB2_144:
	cmp	x21, x9
	b.hs	.LBB2_267
	cbz	w25, .LBB2_577
	mov	w14, #24
	sub	x18, x4, #1
	mov	x10, xzr
	madd	x16, x4, x14, x13
	lsl	x14, x9, #3
	sub	x17, x18, x9
	neg	x13, x25
	add	x15, x12, x17
	add	x17, x11, x17
	sub	x14, x14, x9, lsl #5
	add	x12, x12, x18
	add	x11, x11, x18
	sub	x16, x16, #24
.LBB2_147:
	ldrb	w18, [x11, x10]
	strb	w18, [x17, x10]
	ldrb	w18, [x12, x10]
	strb	w18, [x15, x10]
	sub	x10, x10, #1
	add	x18, x16, x14
	ldr	q0, [x16]
	ldr	x1, [x16, #16]
	cmp	x13, x10
	sub	x16, x16, #24
	str	q0, [x18]
	str	x1, [x18, #16]
	b.ne	.LBB2_147
	ldr	x10, [x2, #48]
	cmp	w25, #8
	mov	x15, x25
	b.lo	.LBB2_575
	cmp	x9, #32
	mov	x15, x25
	b.lo	.LBB2_575
	mov	x13, x4
	mov	x11, x2
	mov	x12, x0
	cmp	w25, #32
	b.hs	.LBB2_563
	mov	x14, xzr
	b	.LBB2_572
.LBB2_152:
	adrp	x10, .Lstatic.0
	add	x10, x10, :lo12:.Lstatic.0
	ldrb	w10, [x10, x8]
	ubfx	w10, w10, #2, #2
	cmp	w10, #1
	b.eq	.LBB2_43
	add	x8, x9, x21
	cmp	w10, #2
	ldurb	w9, [x8, #-1]
	b.ne	.LBB2_118
	b	.LBB2_140
.LBB2_154:
	cbz	w27, .LBB2_157
	mov	w12, #24
	lsl	x13, x27, #3
	mov	x8, xzr
	madd	x11, x4, x12, x11
	add	x12, x10, x4
	add	x14, x9, x4
	sub	x13, x13, x27, lsl #5
	add	x10, x10, x15
	add	x9, x9, x15
.LBB2_156:
	ldrb	w15, [x9, x8]
	add	x16, x11, x13
	strb	w15, [x14, x8]
	ldrb	w15, [x10, x8]
	strb	w15, [x12, x8]
	add	x8, x8, #1
	ldr	x15, [x16, #16]
	ldr	q0, [x16]
	cmp	x27, x8
	str	x15, [x11, #16]
	str	q0, [x11], #24
	b.ne	.LBB2_156
.LBB2_157:
	ldr	x9, [x2, #48]
	add	x4, x4, x27
	mov	w11, wzr
	mov	w8, wzr
	mov	w10, wzr
	mov	x22, xzr
	add	x9, x4, x9
	sturb	w27, [x9, #-1]
	b	.LBB2_807
.LBB2_158:
	cbz	w23, .LBB2_161
	add	x11, x27, x27, lsl #1
	ldr	x8, [x2]
	ldr	x9, [x2, #16]
	ldr	x10, [x2, #32]
	mov	x12, x23
	lsl	x11, x11, #3
.LBB2_160:
	ldrb	w13, [x8, x27]
	add	x14, x10, x11
	subs	x12, x12, #1
	strb	w13, [x8], #1
	ldrb	w13, [x9, x27]
	strb	w13, [x9], #1
	ldr	x13, [x14, #16]
	ldr	q0, [x14]
	str	x13, [x10, #16]
	str	q0, [x10], #24
	b.ne	.LBB2_160
.LBB2_161:
	cmp	x21, x4
	b.hs	.LBB2_221
	sub	x8, x21, x23
	movi	d8, #0000000000000000
	add	x9, sp, #1, lsl #12
	str	x8, [sp, #64]
	sub	x8, x29, #248
	add	x9, x9, #712
	orr	x8, x8, #0x2
	mov	x19, x23
	str	x23, [sp, #8]
	stp	x8, x25, [sp, #24]
	orr	x8, x9, #0x2
	stp	x3, x8, [sp, #112]
	stp	x5, x2, [sp, #88]
	str	x0, [sp, #104]
	str	x4, [sp, #80]
	b	.LBB2_165
.LBB2_163:
	mov	w10, #1
	strb	w10, [x23, x9]
	add	x19, x19, #1
	ldr	x10, [x2, #16]
	strb	wzr, [x10, x9]
	ldr	x9, [x2, #32]
	add	x8, x9, x8
	stp	d9, d1, [x8, #-16]
	str	d0, [x8]
.LBB2_164:
	add	x21, x20, x24
	cmp	x21, x4
	b.hs	.LBB2_504
.LBB2_165:
	mov	w8, #24
	ldr	x25, [x2, #32]
	ldr	x23, [x2]
	madd	x8, x21, x8, x25
	ldr	x26, [x2, #16]
	add	x20, x21, #1
	ldrb	w10, [x23, x21]
	ldrb	w24, [x26, x21]
	cmp	w10, #1
	ldp	d9, d11, [x8]
	ldr	d10, [x8, #16]
	b.ne	.LBB2_181
	mov	x10, xzr
	cbz	x19, .LBB2_170
.LBB2_167:
	ldrb	w8, [x23, x10]
	cmp	w8, #1
	b.ne	.LBB2_170
	add	x10, x10, #1
	cmp	x19, x10
	b.ne	.LBB2_167
	mov	x10, x19
.LBB2_170:
	fsub	d0, d9, d9
	fcmp	d0, d8
	b.ne	.LBB2_533
	mov	w8, #24
	mov	x9, #16
	fmov	d0, d9
	madd	x11, x10, x8, x9
.LBB2_172:
	mov	x9, x10
	mov	x8, x11
	cbz	x10, .LBB2_175
	add	x10, x25, x8
	ldur	d1, [x10, #-40]
	fcmp	d0, d1
	cset	w10, mi
	fcmp	d1, d0
	//APP
	//NO_APP
	cset	w11, mi
	//APP
	//NO_APP
	cmp	w11, #0
	mov	w11, #1
	cinc	w11, w11, ne
	cmp	w10, #0
	sub	x10, x9, #1
	csel	w12, wzr, w11, ne
	sub	x11, x8, #24
	cbz	w12, .LBB2_172
	cmp	w12, #2
	b.ne	.LBB2_202
.LBB2_175:
	movi	d0, #0000000000000000
	fadd	d1, d11, d0
	fadd	d0, d10, d0
	fsub	d2, d1, d1
	fsub	d3, d0, d0
	fcmp	d2, d8
	fccmp	d3, d8, #0, eq
	b.ne	.LBB2_535
	cmp	x19, #63
	b.hi	.LBB2_601
	cmp	x9, x19
	b.hs	.LBB2_163
	mov	w10, #24
	add	x14, x26, x19
	add	x15, x23, x19
	madd	x10, x19, x10, x25
	mov	x11, x19
	mov	x12, x15
	mov	x13, x14
.LBB2_179:
	ldrb	w16, [x12, #-1]!
	sub	x11, x11, #1
	cmp	x9, x11
	strb	w16, [x15]
	ldrb	w15, [x13, #-1]!
	strb	w15, [x14]
	mov	x15, x12
	ldur	q2, [x10, #-24]
	ldur	x14, [x10, #-8]
	str	q2, [x10]
	str	x14, [x10, #16]
	sub	x10, x10, #24
	mov	x14, x13
	b.lo	.LBB2_179
	ldr	x23, [x2]
	b	.LBB2_163
.LBB2_181:
	fsub	d0, d9, d9
	fcmp	d0, d8
	b.ne	.LBB2_467
	add	x8, x21, #1
	ldr	x9, [x2, #24]
	mov	x27, xzr
	str	x8, [sp, #48]
	ldr	x8, [x2, #8]
	str	x23, [sp, #200]
	stp	x8, x26, [sp, #208]
	ldr	x8, [x2, #40]
	stp	x9, x25, [sp, #224]
	str	x8, [sp, #240]
	ldr	x8, [sp, #24]
	str	w10, [sp, #40]
	strb	w10, [x18]
	strb	w24, [x18, #1]
	str	wzr, [x8]
	strh	wzr, [x8, #4]
	stp	d9, d11, [x29, #-240]
	stur	d10, [x29, #-224]
	cbz	x19, .LBB2_186
.LBB2_183:
	mov	w8, #24
	ldrb	w20, [x26, x27]
	add	x3, sp, #1, lsl #12
	madd	x22, x27, x8, x25
	ldrb	w8, [x23, x27]
	add	x0, sp, #200
	sub	x1, x29, #248
	add	x2, x21, #1
	add	x3, x3, #712
	add	x4, x27, #1
	mov	w5, #4
	add	x28, x27, #1
	ldr	d12, [x22, #16]
	strb	w8, [x17]
	ldr	x8, [sp, #120]
	strb	w20, [x17, #1]
	str	wzr, [x8]
	strh	wzr, [x8, #4]
	ldr	q0, [x22]
	ldr	d13, [x22, #8]
	str	d12, [sp, #4832]
	stur	q0, [x17, #8]
	bl	"sums::order::cmp_term"
	and	w8, w0, #0xff
	cmp	w8, #2
	b.ne	.LBB2_185
	add	x27, x28, x20
	add	x17, sp, #1, lsl #12
	cmp	x27, x19
	add	x17, x17, #712
	b.lo	.LBB2_183
	b	.LBB2_186
.LBB2_185:
	add	x17, sp, #1, lsl #12
	add	x17, x17, #712
	cbnz	w8, .LBB2_204
.LBB2_186:
	movi	d0, #0000000000000000
	fadd	d11, d11, d0
	fadd	d10, d10, d0
	fsub	d0, d11, d11
	fsub	d1, d10, d10
	fcmp	d0, d8
	fccmp	d1, d8, #0, eq
	b.ne	.LBB2_467
	cbz	w24, .LBB2_189
	add	x1, x21, #1
	mov	x0, x26
	mov	x2, x24
	mov	w3, #3
	bl	"sums::order::nests_inside"
	add	x17, sp, #1, lsl #12
	add	x17, x17, #712
	cbz	w0, .LBB2_603
.LBB2_189:
	add	x8, x19, x24
	ldr	x4, [sp, #80]
	add	x8, x8, #1
	cmp	x8, #64
	b.hi	.LBB2_596
	ldp	x2, x0, [sp, #96]
	cmp	x27, x19
	ldr	x3, [sp, #112]
	ldr	x5, [sp, #88]
	sub	x18, x29, #248
	b.hs	.LBB2_194
	mov	w9, #24
	add	x10, x19, x24
	add	x11, x23, x24
	madd	x12, x19, x9, x25
	madd	x9, x10, x9, x25
	add	x10, x26, x24
	sub	x12, x12, #24
.LBB2_192:
	add	x13, x23, x19
	add	x14, x26, x19
	ldurb	w13, [x13, #-1]
	strb	w13, [x11, x19]
	ldurb	w13, [x14, #-1]
	strb	w13, [x10, x19]
	sub	x19, x19, #1
	ldr	x13, [x12, #16]
	ldr	q0, [x12], #-24
	cmp	x27, x19
	str	x13, [x9, #16]
	str	q0, [x9], #-24
	b.lo	.LBB2_192
	ldr	x23, [x2]
.LBB2_194:
	ldr	w9, [sp, #40]
	mov	w10, #24
	cmp	x27, x21
	strb	w9, [x23, x27]
	ldr	x9, [x2, #16]
	strb	w24, [x9, x27]
	ldr	x9, [x2, #32]
	madd	x9, x27, x10, x9
	stp	d9, d11, [x9]
	str	d10, [x9, #16]
	ldr	x15, [x2]
	ldr	x14, [x2, #16]
	ldr	x11, [x2, #32]
	b.ls	.LBB2_198
	cbz	w24, .LBB2_201
	add	x10, x27, x24
	mov	w12, #24
	add	x13, x21, x24
	madd	x10, x10, x12, x11
	mov	x9, xzr
	madd	x11, x13, x12, x11
	add	x12, x14, x27
	add	x13, x15, x27
	add	x14, x14, x21
	add	x15, x15, x21
.LBB2_197:
	ldrb	w16, [x15, x24]
	add	x9, x9, #1
	sub	x15, x15, #1
	strb	w16, [x13, x24]
	sub	x13, x13, #1
	cmp	x24, x9
	ldrb	w16, [x14, x24]
	sub	x14, x14, #1
	strb	w16, [x12, x24]
	sub	x12, x12, #1
	ldr	x16, [x11, #16]
	ldr	q0, [x11], #-24
	str	x16, [x10, #16]
	str	q0, [x10], #-24
	b.ne	.LBB2_197
	b	.LBB2_201
.LBB2_198:
	cbz	w24, .LBB2_201
	mov	w12, #24
	add	x11, x11, #24
	add	x14, x14, #1
	madd	x10, x27, x12, x11
	add	x15, x15, #1
	mov	x9, xzr
	add	x13, x15, x27
	add	x15, x15, x21
	madd	x11, x21, x12, x11
	add	x12, x14, x27
	add	x14, x14, x21
.LBB2_200:
	ldrb	w16, [x15, x9]
	strb	w16, [x13, x9]
	ldrb	w16, [x14, x9]
	strb	w16, [x12, x9]
	add	x9, x9, #1
	ldr	x16, [x11, #16]
	ldr	q0, [x11], #24
	cmp	x24, x9
	str	x16, [x10, #16]
	str	q0, [x10], #24
	b.ne	.LBB2_200
.LBB2_201:
	ldr	x20, [sp, #48]
	mov	x19, x8
	b	.LBB2_164
.LBB2_202:
	add	x8, x25, x11
	ldp	d0, d1, [x8, #-8]
	fadd	d0, d11, d0
	fadd	d1, d10, d1
	fsub	d2, d0, d0
	fsub	d3, d1, d1
	fcmp	d2, d8
	fccmp	d3, d8, #0, eq
	b.ne	.LBB2_535
	stur	d0, [x8, #-8]
	str	d1, [x25, x11]
	b	.LBB2_164
.LBB2_204:
	fadd	d9, d11, d13
	fadd	d10, d10, d12
	fsub	d0, d9, d9
	fsub	d1, d10, d10
	fcmp	d0, d8
	fccmp	d1, d8, #0, eq
	b.ne	.LBB2_467
	ldr	x20, [sp, #48]
	cbz	w24, .LBB2_207
	mov	x0, x26
	mov	x1, x20
	mov	x2, x24
	mov	w3, #3
	bl	"sums::order::nests_inside"
	add	x17, sp, #1, lsl #12
	add	x17, x17, #712
	cbz	w0, .LBB2_603
.LBB2_207:
	ldp	x2, x0, [sp, #96]
	sub	x18, x29, #248
	ldp	x4, x5, [sp, #80]
	ldr	x3, [sp, #112]
	stp	d9, d10, [x22, #8]
	b	.LBB2_164
.LBB2_208:
	cbz	w23, .LBB2_424
	add	x11, x27, x27, lsl #1
	ldr	x8, [x2]
	ldr	x9, [x2, #16]
	ldr	x10, [x2, #32]
	mov	x12, x23
	lsl	x11, x11, #3
.LBB2_210:
	ldrb	w13, [x8, x27]
	add	x14, x10, x11
	subs	x12, x12, #1
	strb	w13, [x8], #1
	ldrb	w13, [x9, x27]
	strb	w13, [x9], #1
	ldr	x13, [x14, #16]
	ldr	q0, [x14]
	str	x13, [x10, #16]
	str	q0, [x10], #24
	b.ne	.LBB2_210
	b	.LBB2_221
.LBB2_211:
	ldr	x12, [x2, #16]
	ldr	x26, [x2]
	ldr	x14, [x2, #32]
	str	x25, [sp, #32]
	ldrb	w20, [x12, x21]
	str	x14, [sp, #120]
	str	x27, [sp, #64]
	add	x8, x20, #1
	cmp	x8, x25
	b.ne	.LBB2_381
	mov	w8, #24
	ldr	x9, [x2, #8]
	ldrb	w16, [x26, x21]
	madd	x8, x21, x8, x14
	cmp	x27, x21
	ldp	d8, d9, [x8]
	ldr	d10, [x8, #16]
	ldr	x8, [x2, #24]
	stp	x26, x9, [sp, #200]
	ldr	x9, [x2, #40]
	stp	x12, x8, [sp, #216]
	add	x8, x21, #1
	stp	x14, x9, [sp, #232]
	str	x8, [sp, #48]
	b.hs	.LBB2_461
	movi	d11, #0000000000000000
	sub	x8, x29, #248
	add	x9, sp, #1, lsl #12
	add	x9, x9, #712
	orr	x22, x8, #0x2
	add	x8, x21, #1
	orr	x1, x9, #0x2
	add	x28, x8, x20
	sub	x8, x21, x23
	stp	x2, x0, [sp, #96]
	str	x3, [sp, #112]
	str	x4, [sp, #80]
	str	x21, [sp, #40]
	str	x1, [sp, #24]
	b	.LBB2_449
.LBB2_214:
	ldr	x9, [x2]
	ldr	x8, [x2, #32]
	cmp	w23, #1
	stp	xzr, xzr, [sp, #200]
	b.ne	.LBB2_387
	mov	w10, #24
	movi	d0, #0000000000000000
	madd	x11, x27, x10, x8
	ldrb	w10, [x9, x27]
	ldr	d1, [x11]
	fcmp	d1, d0
	ldur	q1, [x11, #8]
	ccmp	w10, #1, #0, eq
	cset	w10, ne
	dup	v0.2s, w10
	ushll	v0.2d, v0.2s, #0
	shl	v0.2d, v0.2d, #63
	cmge	v0.2d, v0.2d, #0
	and	v0.16b, v0.16b, v1.16b
	b	.LBB2_388
.LBB2_216:
	cbz	w23, .LBB2_219
	add	x11, x27, x27, lsl #1
	ldr	x8, [x2]
	ldr	x9, [x2, #16]
	ldr	x10, [x2, #32]
	mov	x12, x23
	lsl	x11, x11, #3
.LBB2_218:
	ldrb	w13, [x8, x27]
	add	x14, x10, x11
	subs	x12, x12, #1
	strb	w13, [x8], #1
	ldrb	w13, [x9, x27]
	strb	w13, [x9], #1
	ldr	x13, [x14, #16]
	ldr	q0, [x14]
	str	x13, [x10, #16]
	str	q0, [x10], #24
	b.ne	.LBB2_218
.LBB2_219:
	cmp	x21, x4
	b.hs	.LBB2_221
	sub	x8, x21, x23
	movi	d8, #0000000000000000
	add	x9, sp, #1, lsl #12
	str	x8, [sp, #64]
	sub	x8, x29, #248
	add	x9, x9, #712
	orr	x8, x8, #0x2
	mov	x19, x23
	str	x25, [sp, #32]
	stp	x23, x8, [sp, #8]
	orr	x8, x9, #0x2
	stp	x3, x8, [sp, #112]
	stp	x5, x2, [sp, #88]
	str	x0, [sp, #104]
	str	x4, [sp, #80]
	b	.LBB2_224
.LBB2_221:
	mov	x22, xzr
	mov	x19, x23
	b	.LBB2_780
.LBB2_222:
	mov	w10, #1
	strb	w10, [x23, x9]
	add	x19, x19, #1
	ldr	x10, [x2, #16]
	strb	wzr, [x10, x9]
	ldr	x9, [x2, #32]
	add	x8, x9, x8
	stp	d9, d1, [x8, #-16]
	str	d0, [x8]
.LBB2_223:
	add	x21, x20, x24
	cmp	x21, x4
	b.hs	.LBB2_504
.LBB2_224:
	mov	w8, #24
	ldr	x25, [x2, #32]
	ldr	x23, [x2]
	madd	x8, x21, x8, x25
	ldr	x26, [x2, #16]
	add	x20, x21, #1
	ldrb	w10, [x23, x21]
	ldrb	w24, [x26, x21]
	cmp	w10, #1
	ldr	d9, [x8]
	ldur	q3, [x8, #8]
	b.ne	.LBB2_240
	mov	x10, xzr
	cbz	x19, .LBB2_229
.LBB2_226:
	ldrb	w8, [x23, x10]
	cmp	w8, #1
	b.ne	.LBB2_229
	add	x10, x10, #1
	cmp	x19, x10
	b.ne	.LBB2_226
	mov	x10, x19
.LBB2_229:
	fsub	d0, d9, d9
	fcmp	d0, d8
	b.ne	.LBB2_533
	mov	w8, #24
	mov	x9, #16
	fmov	d0, d9
	madd	x11, x10, x8, x9
.LBB2_231:
	mov	x9, x10
	mov	x8, x11
	cbz	x10, .LBB2_234
	add	x10, x25, x8
	ldur	d1, [x10, #-40]
	fcmp	d0, d1
	cset	w10, mi
	fcmp	d1, d0
	//APP
	//NO_APP
	cset	w11, mi
	//APP
	//NO_APP
	cmp	w11, #0
	mov	w11, #1
	cinc	w11, w11, ne
	cmp	w10, #0
	sub	x10, x9, #1
	csel	w12, wzr, w11, ne
	sub	x11, x8, #24
	cbz	w12, .LBB2_231
	cmp	w12, #2
	b.ne	.LBB2_261
.LBB2_234:
	movi	d0, #0000000000000000
	mov	d2, v3.d[1]
	fsub	d1, d0, d3
	fsub	d0, d0, d2
	fsub	d2, d1, d1
	fsub	d3, d0, d0
	fcmp	d2, d8
	fccmp	d3, d8, #0, eq
	b.ne	.LBB2_535
	cmp	x19, #63
	b.hi	.LBB2_601
	cmp	x9, x19
	b.hs	.LBB2_222
	mov	w10, #24
	add	x14, x26, x19
	add	x15, x23, x19
	madd	x10, x19, x10, x25
	mov	x11, x19
	mov	x12, x15
	mov	x13, x14
.LBB2_238:
	ldrb	w16, [x12, #-1]!
	sub	x11, x11, #1
	cmp	x9, x11
	strb	w16, [x15]
	ldrb	w15, [x13, #-1]!
	strb	w15, [x14]
	mov	x15, x12
	ldur	q2, [x10, #-24]
	ldur	x14, [x10, #-8]
	str	q2, [x10]
	str	x14, [x10, #16]
	sub	x10, x10, #24
	mov	x14, x13
	b.lo	.LBB2_238
	ldr	x23, [x2]
	b	.LBB2_222
.LBB2_240:
	fsub	d0, d9, d9
	fcmp	d0, d8
	b.ne	.LBB2_467
	add	x8, x21, #1
	fneg	v0.2d, v3.2d
	ldr	x9, [x2, #24]
	str	x8, [sp, #40]
	ldr	x8, [x2, #8]
	mov	x28, xzr
	str	x23, [sp, #200]
	stp	x8, x26, [sp, #208]
	ldr	x8, [x2, #40]
	stp	x9, x25, [sp, #224]
	str	x8, [sp, #240]
	ldr	x8, [sp, #16]
	str	w10, [sp, #24]
	strb	w10, [x18]
	str	q3, [sp, #48]
	strb	w24, [x18, #1]
	str	wzr, [x8]
	strh	wzr, [x8, #4]
	stur	d9, [x29, #-240]
	str	q0, [x18, #16]
	cbz	x19, .LBB2_245
.LBB2_242:
	mov	w8, #24
	ldrb	w20, [x26, x28]
	add	x3, sp, #1, lsl #12
	madd	x22, x28, x8, x25
	ldrb	w8, [x23, x28]
	add	x0, sp, #200
	sub	x1, x29, #248
	add	x2, x21, #1
	add	x3, x3, #712
	add	x4, x28, #1
	mov	w5, #4
	add	x27, x28, #1
	ldr	d10, [x22, #16]
	strb	w8, [x17]
	ldr	x8, [sp, #120]
	strb	w20, [x17, #1]
	str	wzr, [x8]
	strh	wzr, [x8, #4]
	ldr	q0, [x22]
	ldr	d11, [x22, #8]
	str	d10, [sp, #4832]
	stur	q0, [x17, #8]
	bl	"sums::order::cmp_term"
	and	w8, w0, #0xff
	cmp	w8, #2
	b.ne	.LBB2_244
	add	x28, x27, x20
	add	x17, sp, #1, lsl #12
	cmp	x28, x19
	add	x17, x17, #712
	b.lo	.LBB2_242
	b	.LBB2_245
.LBB2_244:
	add	x17, sp, #1, lsl #12
	add	x17, x17, #712
	cbnz	w8, .LBB2_263
.LBB2_245:
	movi	d0, #0000000000000000
	ldr	q2, [sp, #48]
	mov	d1, v2.d[1]
	fsub	d10, d0, d2
	fsub	d11, d0, d1
	fsub	d0, d10, d10
	fsub	d1, d11, d11
	fcmp	d0, d8
	fccmp	d1, d8, #0, eq
	b.ne	.LBB2_467
	cbz	w24, .LBB2_248
	add	x1, x21, #1
	mov	x0, x26
	mov	x2, x24
	mov	w3, #3
	bl	"sums::order::nests_inside"
	add	x17, sp, #1, lsl #12
	add	x17, x17, #712
	cbz	w0, .LBB2_603
.LBB2_248:
	add	x8, x19, x24
	ldr	x4, [sp, #80]
	add	x8, x8, #1
	cmp	x8, #64
	b.hi	.LBB2_596
	ldp	x2, x0, [sp, #96]
	cmp	x28, x19
	ldr	x3, [sp, #112]
	ldr	x5, [sp, #88]
	sub	x18, x29, #248
	b.hs	.LBB2_253
	mov	w9, #24
	add	x10, x19, x24
	add	x11, x23, x24
	madd	x12, x19, x9, x25
	madd	x9, x10, x9, x25
	add	x10, x26, x24
	sub	x12, x12, #24
.LBB2_251:
	add	x13, x23, x19
	add	x14, x26, x19
	ldurb	w13, [x13, #-1]
	strb	w13, [x11, x19]
	ldurb	w13, [x14, #-1]
	strb	w13, [x10, x19]
	sub	x19, x19, #1
	ldr	x13, [x12, #16]
	ldr	q0, [x12], #-24
	cmp	x28, x19
	str	x13, [x9, #16]
	str	q0, [x9], #-24
	b.lo	.LBB2_251
	ldr	x23, [x2]
.LBB2_253:
	ldr	w9, [sp, #24]
	mov	w10, #24
	cmp	x28, x21
	strb	w9, [x23, x28]
	ldr	x9, [x2, #16]
	strb	w24, [x9, x28]
	ldr	x9, [x2, #32]
	madd	x9, x28, x10, x9
	stp	d9, d10, [x9]
	str	d11, [x9, #16]
	ldr	x15, [x2]
	ldr	x14, [x2, #16]
	ldr	x11, [x2, #32]
	b.ls	.LBB2_257
	cbz	w24, .LBB2_260
	add	x10, x28, x24
	mov	w12, #24
	add	x13, x21, x24
	madd	x10, x10, x12, x11
	mov	x9, xzr
	madd	x11, x13, x12, x11
	add	x12, x14, x28
	add	x13, x15, x28
	add	x14, x14, x21
	add	x15, x15, x21
.LBB2_256:
	ldrb	w16, [x15, x24]
	add	x9, x9, #1
	sub	x15, x15, #1
	strb	w16, [x13, x24]
	sub	x13, x13, #1
	cmp	x24, x9
	ldrb	w16, [x14, x24]
	sub	x14, x14, #1
	strb	w16, [x12, x24]
	sub	x12, x12, #1
	ldr	x16, [x11, #16]
	ldr	q0, [x11], #-24
	str	x16, [x10, #16]
	str	q0, [x10], #-24
	b.ne	.LBB2_256
	b	.LBB2_260
.LBB2_257:
	cbz	w24, .LBB2_260
	mov	w12, #24
	add	x11, x11, #24
	add	x14, x14, #1
	madd	x10, x28, x12, x11
	add	x15, x15, #1
	mov	x9, xzr
	add	x13, x15, x28
	add	x15, x15, x21
	madd	x11, x21, x12, x11
	add	x12, x14, x28
	add	x14, x14, x21
.LBB2_259:
	ldrb	w16, [x15, x9]
	strb	w16, [x13, x9]
	ldrb	w16, [x14, x9]
	strb	w16, [x12, x9]
	add	x9, x9, #1
	ldr	x16, [x11, #16]
	ldr	q0, [x11], #24
	cmp	x24, x9
	str	x16, [x10, #16]
	str	q0, [x10], #24
	b.ne	.LBB2_259
.LBB2_260:
	ldr	x20, [sp, #40]
	mov	x19, x8
	b	.LBB2_223
.LBB2_261:
	add	x8, x25, x11
	mov	d1, v3.d[1]
	ldp	d0, d2, [x8, #-8]
	fsub	d0, d0, d3
	fsub	d1, d2, d1
	fsub	d2, d0, d0
	fsub	d3, d1, d1
	fcmp	d2, d8
	fccmp	d3, d8, #0, eq
	b.ne	.LBB2_535
	stur	d0, [x8, #-8]
	str	d1, [x25, x11]
	b	.LBB2_223
.LBB2_263:
	ldr	q1, [sp, #48]
	mov	d0, v1.d[1]
	fsub	d9, d11, d1
	fsub	d10, d10, d0
	fsub	d0, d9, d9
	fsub	d1, d10, d10
	fcmp	d0, d8
	fccmp	d1, d8, #0, eq
	b.ne	.LBB2_467
	ldr	x20, [sp, #40]
	cbz	w24, .LBB2_266
	mov	x0, x26
	mov	x1, x20
	mov	x2, x24
	mov	w3, #3
	bl	"sums::order::nests_inside"
	add	x17, sp, #1, lsl #12
	add	x17, x17, #712
	cbz	w0, .LBB2_603
.LBB2_266:
	ldp	x2, x0, [sp, #96]
	sub	x18, x29, #248
	ldp	x4, x5, [sp, #80]
	ldr	x3, [sp, #112]
	stp	d9, d10, [x22, #8]
	b	.LBB2_223
.LBB2_267:
	cbz	w25, .LBB2_577
	mov	w10, #24
	mov	x14, xzr
	mul	x16, x4, x10
	madd	x15, x8, x10, x13
	umsubl	x1, w25, w10, x16
	sub	x10, x4, x9
	neg	x16, x25
	add	x17, x12, x10
	add	x18, x11, x10
	add	x12, x12, x4
	add	x11, x11, x4
	add	x13, x13, x1
.LBB2_269:
	ldrb	w1, [x11, x16]
	sub	x14, x14, #1
	add	x11, x11, #1
	strb	w1, [x18, x16]
	add	x18, x18, #1
	cmp	x16, x14
	ldrb	w1, [x12, x16]
	add	x12, x12, #1
	strb	w1, [x17, x16]
	add	x17, x17, #1
	ldr	x1, [x13, #16]
	ldr	q0, [x13], #24
	str	x1, [x15, #16]
	str	q0, [x15], #24
	b.ne	.LBB2_269
	ldr	x11, [x2, #48]
	cmp	w25, #8
	b.hs	.LBB2_502
	mov	x12, xzr
	b	.LBB2_561
.LBB2_272:
	ldr	x20, [x2]
	cbz	w27, .LBB2_468
	mov	x21, x0
	ldr	x0, [x2, #16]
	mov	x23, x3
	mov	x19, x2
	sub	x1, x4, x27
	mov	x2, x27
	mov	w3, #3
	mov	x22, x5
	mov	x25, x4
	bl	"sums::order::nests_inside"
	cbz	w0, .LBB2_366
	cmp	w27, #63
	b.hi	.LBB2_365
	add	x24, x27, #1
	mov	x0, x21
	mov	x2, x19
	mov	x4, x25
	mov	x3, x23
	b	.LBB2_469
.LBB2_276:
	mov	x8, #-4382002437431492608
	fmov	d1, #0.50000000
	fmov	d0, x8
	mov	x8, #4841369599423283200
	fcmp	d1, d0
	fmov	d0, x8
	cset	w8, ls
	fcmp	d0, d1
	//APP
	//NO_APP
	movi	d0, #0000000000000000
	cset	w9, ls
	//APP
	//NO_APP
	orr	w9, w8, w9
	cmp	w9, #0
	cset	w8, ne
	fcmp	d0, d1
	cset	w10, ge
	//APP
	//NO_APP
	orr	w9, w10, w9
	cset	w10, ls
	cmp	w9, #0
	cset	w9, ne
	//APP
	//NO_APP
	cbz	w10, .LBB2_425
	cbz	w9, .LBB2_425
	fcmp	d1, d0
	b.eq	.LBB2_282
	cmp	w8, #0
	mov	x8, #4634204016564240384
	fcsel	d2, d0, d1, ne
	fcmp	d0, d1
	fmov	d3, x8
	cset	w8, mi
	fcmp	d1, d3
	//APP
	//NO_APP
	cset	w9, ls
	//APP
	//NO_APP
	cbz	w9, .LBB2_607
	cbz	w8, .LBB2_607
	fcmp	d0, d2
	b.ne	.LBB2_607
.LBB2_282:
	ldr	x8, [x2]
	mov	w24, #1
	strb	w24, [x8]
	ldr	x8, [x2, #16]
	strb	wzr, [x8]
	ldr	x8, [x2, #32]
	stp	xzr, xzr, [x8]
	str	xzr, [x8, #16]
	b	.LBB2_794
.LBB2_283:
	ldr	x20, [x2]
	cbz	w27, .LBB2_473
	mov	x21, x0
	ldr	x0, [x2, #16]
	mov	x23, x3
	mov	x19, x2
	sub	x1, x4, x27
	mov	x2, x27
	mov	w3, #3
	mov	x22, x5
	mov	x25, x4
	bl	"sums::order::nests_inside"
	cbz	w0, .LBB2_366
	cmp	w27, #63
	b.hi	.LBB2_365
	add	x24, x27, #1
	mov	x0, x21
	mov	x2, x19
	mov	x4, x25
	mov	x3, x23
	b	.LBB2_474
.LBB2_287:
	ldr	x20, [x2]
	cbz	w27, .LBB2_478
	mov	x21, x0
	ldr	x0, [x2, #16]
	mov	x23, x3
	mov	x19, x2
	sub	x1, x4, x27
	mov	x2, x27
	mov	w3, #3
	mov	x22, x5
	mov	x25, x4
	bl	"sums::order::nests_inside"
	cbz	w0, .LBB2_366
	cmp	w27, #63
	b.hi	.LBB2_365
	add	x24, x27, #1
	mov	x0, x21
	mov	x2, x19
	mov	x4, x25
	mov	x3, x23
	b	.LBB2_479
.LBB2_291:
	ldr	x8, [x2]
	mov	w24, #1
	adrp	x9, .LCPI2_0
	ldr	q0, [x9, :lo12:.LCPI2_0]
	cmp	x28, x4
	strb	w24, [x8]
	ldr	x8, [x2, #16]
	strb	wzr, [x8]
	ldr	x8, [x2, #32]
	str	q0, [x8]
	str	xzr, [x8, #16]
	b.hs	.LBB2_794
	movi	d8, #0000000000000000
	sub	x8, x29, #248
	add	x9, sp, #1, lsl #12
	add	x9, x9, #712
	orr	x8, x8, #0x2
	mov	w24, #1
	stp	x8, x28, [sp, #16]
	orr	x8, x9, #0x2
	sub	x22, x4, x27
	stp	x3, x8, [sp, #112]
	stp	x5, x2, [sp, #88]
	str	x0, [sp, #104]
	str	x4, [sp, #80]
	str	x27, [sp, #48]
	b	.LBB2_295
.LBB2_293:
	mov	w10, #1
	strb	w10, [x20, x9]
	add	x24, x24, #1
	ldr	x10, [x2, #16]
	strb	wzr, [x10, x9]
	ldr	x9, [x2, #32]
	add	x8, x9, x8
	stp	d9, d1, [x8, #-16]
	str	d0, [x8]
.LBB2_294:
	add	x22, x19, x21
	cmp	x22, x4
	b.hs	.LBB2_794
.LBB2_295:
	mov	w8, #24
	ldr	x25, [x2, #32]
	ldr	x20, [x2]
	madd	x8, x22, x8, x25
	ldr	x23, [x2, #16]
	add	x19, x22, #1
	ldrb	w10, [x20, x22]
	ldrb	w21, [x23, x22]
	cmp	w10, #1
	ldr	d9, [x8]
	ldur	q3, [x8, #8]
	b.ne	.LBB2_311
	mov	x11, xzr
.LBB2_297:
	ldrb	w8, [x20, x11]
	cmp	w8, #1
	b.ne	.LBB2_300
	add	x11, x11, #1
	cmp	x24, x11
	b.ne	.LBB2_297
	mov	x11, x24
.LBB2_300:
	fsub	d0, d9, d9
	fcmp	d0, d8
	b.ne	.LBB2_626
	mov	w8, #24
	mov	x9, #16
	fmov	d0, d9
	madd	x10, x11, x8, x9
.LBB2_302:
	mov	x9, x11
	mov	x8, x10
	cbz	x11, .LBB2_305
	add	x10, x25, x8
	ldur	d1, [x10, #-40]
	fcmp	d0, d1
	cset	w10, mi
	fcmp	d1, d0
	//APP
	//NO_APP
	cset	w11, mi
	//APP
	//NO_APP
	cmp	w11, #0
	mov	w11, #1
	cinc	w11, w11, ne
	cmp	w10, #0
	sub	x10, x8, #24
	csel	w12, wzr, w11, ne
	sub	x11, x9, #1
	cbz	w12, .LBB2_302
	cmp	w12, #2
	b.ne	.LBB2_332
.LBB2_305:
	movi	d0, #0000000000000000
	mov	d2, v3.d[1]
	fsub	d1, d0, d3
	fsub	d0, d0, d2
	fsub	d2, d1, d1
	fsub	d3, d0, d0
	fcmp	d2, d8
	fccmp	d3, d8, #0, eq
	b.ne	.LBB2_640
	cmp	x24, #63
	b.hi	.LBB2_716
	cmp	x9, x24
	b.hs	.LBB2_293
	mov	w10, #24
	add	x14, x23, x24
	add	x15, x20, x24
	madd	x10, x24, x10, x25
	mov	x11, x24
	mov	x12, x15
	mov	x13, x14
.LBB2_309:
	ldrb	w16, [x12, #-1]!
	sub	x11, x11, #1
	cmp	x9, x11
	strb	w16, [x15]
	ldrb	w15, [x13, #-1]!
	strb	w15, [x14]
	mov	x15, x12
	ldur	q2, [x10, #-24]
	ldur	x14, [x10, #-8]
	str	q2, [x10]
	str	x14, [x10, #16]
	sub	x10, x10, #24
	mov	x14, x13
	b.lo	.LBB2_309
	ldr	x20, [x2]
	b	.LBB2_293
.LBB2_311:
	fsub	d0, d9, d9
	add	x8, x22, #1
	str	x8, [sp, #32]
	fcmp	d0, d8
	b.ne	.LBB2_598
	ldr	x8, [x2, #8]
	fneg	v0.2d, v3.2d
	ldr	x9, [x2, #24]
	mov	x26, xzr
	str	x20, [sp, #200]
	stp	x8, x23, [sp, #208]
	ldr	x8, [x2, #40]
	stp	x9, x25, [sp, #224]
	str	x8, [sp, #240]
	ldr	x8, [sp, #16]
	str	w10, [sp, #40]
	strb	w10, [x17, #192]
	str	q3, [sp, #64]
	strb	w21, [x17, #193]
	str	wzr, [x8]
	strh	wzr, [x8, #4]
	stur	d9, [x29, #-240]
	str	q0, [x17, #208]
.LBB2_313:
	mov	w8, #24
	ldrb	w19, [x23, x26]
	add	x3, sp, #1, lsl #12
	madd	x27, x26, x8, x25
	ldrb	w8, [x20, x26]
	add	x0, sp, #200
	sub	x1, x29, #248
	add	x2, x22, #1
	add	x3, x3, #712
	add	x4, x26, #1
	mov	w5, #4
	add	x28, x26, #1
	ldr	d10, [x27, #16]
	strb	w8, [x17]
	ldr	x8, [sp, #120]
	strb	w19, [x17, #1]
	str	wzr, [x8]
	strh	wzr, [x8, #4]
	ldr	q0, [x27]
	ldr	d11, [x27, #8]
	str	d10, [sp, #4832]
	stur	q0, [x17, #8]
	bl	"sums::order::cmp_term"
	and	w8, w0, #0xff
	cmp	w8, #2
	b.ne	.LBB2_315
	add	x26, x28, x19
	add	x17, sp, #1, lsl #12
	cmp	x26, x24
	add	x17, x17, #712
	b.lo	.LBB2_313
	b	.LBB2_316
.LBB2_315:
	add	x17, sp, #1, lsl #12
	add	x17, x17, #712
	cbnz	w8, .LBB2_328
.LBB2_316:
	movi	d0, #0000000000000000
	ldr	q2, [sp, #64]
	mov	d1, v2.d[1]
	fsub	d10, d0, d2
	fsub	d11, d0, d1
	fsub	d0, d10, d10
	fsub	d1, d11, d11
	fcmp	d0, d8
	fccmp	d1, d8, #0, eq
	b.ne	.LBB2_598
	add	x19, x22, #1
	cbz	w21, .LBB2_319
	add	x1, x22, #1
	mov	x0, x23
	mov	x2, x21
	mov	w3, #3
	bl	"sums::order::nests_inside"
	add	x17, sp, #1, lsl #12
	add	x17, x17, #712
	cbz	w0, .LBB2_718
.LBB2_319:
	add	x8, x24, x21
	ldr	x2, [sp, #96]
	ldr	w15, [sp, #40]
	add	x8, x8, #1
	cmp	x8, #64
	b.hi	.LBB2_717
	ldp	x0, x3, [sp, #104]
	cmp	x26, x24
	ldp	x4, x5, [sp, #80]
	ldr	x28, [sp, #24]
	ldr	x27, [sp, #48]
	b.hs	.LBB2_324
	mov	w9, #24
	add	x10, x24, x21
	add	x11, x20, x21
	madd	x12, x24, x9, x25
	madd	x9, x10, x9, x25
	add	x10, x23, x21
	sub	x12, x12, #24
.LBB2_322:
	add	x13, x20, x24
	add	x14, x23, x24
	ldurb	w13, [x13, #-1]
	strb	w13, [x11, x24]
	ldurb	w13, [x14, #-1]
	strb	w13, [x10, x24]
	sub	x24, x24, #1
	ldr	x13, [x12, #16]
	ldr	q0, [x12], #-24
	cmp	x26, x24
	str	x13, [x9, #16]
	str	q0, [x9], #-24
	b.lo	.LBB2_322
	ldr	x20, [x2]
.LBB2_324:
	strb	w15, [x20, x26]
	mov	w10, #24
	ldr	x9, [x2, #16]
	strb	w21, [x9, x26]
	ldr	x9, [x2, #32]
	madd	x9, x26, x10, x9
	stp	d9, d10, [x9]
	str	d11, [x9, #16]
	add	x9, x26, #1
	ldr	x15, [x2]
	ldr	x14, [x2, #16]
	ldr	x11, [x2, #32]
	cmp	x9, x19
	b.ls	.LBB2_334
	cbz	w21, .LBB2_337
	add	x10, x26, x21
	mov	w12, #24
	add	x13, x22, x21
	madd	x10, x10, x12, x11
	mov	x9, xzr
	madd	x11, x13, x12, x11
	add	x12, x14, x26
	add	x13, x15, x26
	add	x14, x14, x22
	add	x15, x15, x22
.LBB2_327:
	ldrb	w16, [x15, x21]
	add	x9, x9, #1
	sub	x15, x15, #1
	strb	w16, [x13, x21]
	sub	x13, x13, #1
	cmp	x21, x9
	ldrb	w16, [x14, x21]
	sub	x14, x14, #1
	strb	w16, [x12, x21]
	sub	x12, x12, #1
	ldr	x16, [x11, #16]
	ldr	q0, [x11], #-24
	str	x16, [x10, #16]
	str	q0, [x10], #-24
	b.ne	.LBB2_327
	b	.LBB2_337
.LBB2_328:
	ldr	q1, [sp, #64]
	mov	d0, v1.d[1]
	fsub	d9, d11, d1
	fsub	d10, d10, d0
	fsub	d0, d9, d9
	fsub	d1, d10, d10
	fcmp	d0, d8
	fccmp	d1, d8, #0, eq
	b.ne	.LBB2_598
	ldp	x28, x19, [sp, #24]
	cbz	w21, .LBB2_331
	mov	x0, x23
	mov	x1, x19
	mov	x2, x21
	mov	w3, #3
	bl	"sums::order::nests_inside"
	add	x17, sp, #1, lsl #12
	add	x17, x17, #712
	cbz	w0, .LBB2_718
.LBB2_331:
	ldp	x2, x0, [sp, #96]
	stp	d9, d10, [x27, #8]
	ldp	x4, x5, [sp, #80]
	ldr	x3, [sp, #112]
	ldr	x27, [sp, #48]
	b	.LBB2_294
.LBB2_332:
	add	x8, x25, x10
	mov	d1, v3.d[1]
	ldp	d0, d2, [x8, #-8]
	fsub	d0, d0, d3
	fsub	d1, d2, d1
	fsub	d2, d0, d0
	fsub	d3, d1, d1
	fcmp	d2, d8
	fccmp	d3, d8, #0, eq
	b.ne	.LBB2_640
	stur	d0, [x8, #-8]
	str	d1, [x25, x10]
	b	.LBB2_294
.LBB2_334:
	cbz	w21, .LBB2_337
	mov	w12, #24
	add	x11, x11, #24
	add	x14, x14, #1
	madd	x10, x26, x12, x11
	add	x15, x15, #1
	mov	x9, xzr
	add	x13, x15, x26
	add	x15, x15, x22
	madd	x11, x22, x12, x11
	add	x12, x14, x26
	add	x14, x14, x22
.LBB2_336:
	ldrb	w16, [x15, x9]
	strb	w16, [x13, x9]
	ldrb	w16, [x14, x9]
	strb	w16, [x12, x9]
	add	x9, x9, #1
	ldr	x16, [x11, #16]
	ldr	q0, [x11], #24
	cmp	x21, x9
	str	x16, [x10, #16]
	str	q0, [x10], #24
	b.ne	.LBB2_336
.LBB2_337:
	mov	x24, x8
	b	.LBB2_294
.LBB2_338:
	mov	w8, #24
	ldr	x9, [x2, #32]
	mov	w10, #1
	madd	x9, x28, x8, x9
	ldr	x26, [x2]
	ldr	x8, [x2, #16]
	str	xzr, [sp, #4816]
	str	xzr, [sp, #4808]
	stur	x10, [x29, #-248]
	ldrb	w10, [x26, x28]
	ldrb	w11, [x8, x28]
	ldr	d0, [x9, #16]
	stur	wzr, [sp, #202]
	strb	w10, [sp, #200]
	strb	w11, [sp, #201]
	strh	wzr, [sp, #206]
	ldr	q1, [x9]
	add	x9, x11, #1
	str	d0, [sp, #224]
	cmp	x9, x27
	stur	q1, [sp, #208]
	b.ne	.LBB2_443
	adrp	x8, .LCPI2_0
	mov	x19, x0
	add	x0, sp, #1, lsl #12
	ldr	q0, [x8, :lo12:.LCPI2_0]
	add	x0, x0, #712
	mov	x1, x2
	sub	x2, x29, #248
	mov	x20, x3
	add	x3, sp, #200
	mov	x22, x4
	add	x4, x28, #1
	mov	x23, x5
	mov	x5, xzr
	add	x24, sp, #1, lsl #12
	stur	q0, [x17, #200]
	stur	xzr, [x29, #-224]
	mov	x21, x1
	add	x24, x24, #712
	bl	"powers::divide::div_term"
	ldrb	w9, [x24]
	ldrb	w8, [x24, #1]
	mov	x5, x23
	ldr	x24, [sp, #4816]
	mov	x3, x20
	mov	x4, x22
	mov	x0, x19
	b	.LBB2_748
.LBB2_340:
	ldr	x20, [x2]
	cmp	w27, #1
	b.ne	.LBB2_442
	add	x8, x28, x28, lsl #1
	ldr	x9, [x2, #32]
	ldrb	w10, [x20, x28]
	mov	x25, x5
	mov	x22, x0
	str	x3, [sp, #112]
	lsl	x21, x8, #3
	cmp	w10, #1
	add	x9, x9, x21
	ldr	d0, [x9]
	b.ne	.LBB2_344
	fmov	d1, #2.00000000
	adrp	x8, .LCPI2_2
	ldr	d2, [x8, :lo12:.LCPI2_2]
	fcmp	d1, d2
	b.ne	.LBB2_344
	fmov	d1, #1.00000000
	fcmp	d0, d1
	b.eq	.LBB2_372
.LBB2_344:
	movi	d1, #0000000000000000
	sub	x28, x4, x27
	mov	x21, x2
	mov	w8, #6
	str	x27, [sp, #48]
	fcmp	d0, d1
	b.ne	.LBB2_600
	cmp	w10, #1
	b.ne	.LBB2_600
	mov	x8, #-4850376798678024192
	ldr	d0, [x9, #16]
	fmov	d1, x8
	mov	x8, #4372995238176751616
	fcmp	d1, d0
	fmov	d1, x8
	mov	w8, #6
	cset	w11, mi
	fcmp	d0, d1
	//APP
	//NO_APP
	cset	w10, mi
	//APP
	//NO_APP
	cbz	w11, .LBB2_600
	mov	x0, x22
	mov	x2, x21
	mov	x5, x25
	cbz	w10, .LBB2_720
	movi	v0.2d, #0000000000000000
	add	x20, sp, #1, lsl #12
	add	x19, sp, #200
	ldr	d8, [x9, #8]
	sub	x23, x29, #248
	add	x20, x20, #712
	add	x0, x19, #24
	mov	w1, wzr
	mov	w2, #4584
	mov	x26, x4
	stp	xzr, xzr, [sp, #128]
	str	xzr, [sp, #144]
	stur	q0, [x23, #1]
	stur	q0, [x23, #17]
	stur	q0, [x23, #33]
	stur	q0, [x23, #49]
	stur	q0, [x23, #65]
	stur	q0, [x23, #81]
	stur	q0, [x23, #97]
	stur	q0, [x23, #113]
	stur	q0, [x23, #129]
	stur	q0, [x23, #145]
	stur	q0, [x23, #161]
	str	q0, [x23, #176]
	str	q0, [x20, #176]
	stur	q0, [x20, #161]
	stur	q0, [x20, #145]
	stur	q0, [x20, #129]
	stur	q0, [x20, #113]
	stur	q0, [x20, #97]
	stur	q0, [x20, #81]
	stur	q0, [x20, #65]
	stur	q0, [x20, #49]
	stur	q0, [x20, #33]
	stur	q0, [x20, #17]
	stur	q0, [x20, #1]
	bl	memset
	sub	x8, x29, #248
	mov	w9, #192
	fmov	d0, d8
	stp	x8, x9, [sp, #152]
	add	x8, sp, #1, lsl #12
	add	x0, sp, #128
	add	x8, x8, #712
	add	x1, sp, #152
	mov	x2, xzr
	stp	x8, x9, [sp, #168]
	mov	w8, #1
	mov	w3, #1
	strb	w8, [x23]
	mov	x8, #4611686018427387904
	mov	w4, #64
	stp	x19, x9, [sp, #184]
	strb	wzr, [x20]
	stp	xzr, x8, [sp, #200]
	str	xzr, [sp, #216]
	bl	"powers::raise::power_by"
	ldrb	w8, [sp, #128]
	cbnz	w8, .LBB2_520
	ldr	x24, [sp, #136]
	cbz	x24, .LBB2_746
	add	x13, sp, #1, lsl #12
	ldr	x9, [x21]
	ldr	x10, [x21, #16]
	ldr	x11, [x21, #32]
	add	x12, sp, #200
	add	x13, x13, #712
	sub	x14, x29, #248
	mov	x8, xzr
	add	x12, x12, #1536
	add	x13, x13, #64
	add	x14, x14, #64
.LBB2_351:
	ldrb	w15, [x14, x8]
	strb	w15, [x9, x8]
	ldrb	w15, [x13, x8]
	strb	w15, [x10, x8]
	add	x8, x8, #1
	ldr	x15, [x12, #16]
	ldr	q0, [x12], #24
	cmp	x24, x8
	str	x15, [x11, #16]
	str	q0, [x11], #24
	b.ne	.LBB2_351
	b	.LBB2_746
.LBB2_352:
	ldr	x20, [x2]
	cmp	w27, #1
	b.ne	.LBB2_442
	add	x8, x28, x28, lsl #1
	ldr	x9, [x2, #32]
	fmov	d1, #1.00000000
	ldrb	w10, [x20, x28]
	mov	x25, x5
	mov	x22, x0
	lsl	x24, x8, #3
	str	x3, [sp, #112]
	add	x9, x9, x24
	ldr	d0, [x9]
	fcmp	d0, d1
	b.ne	.LBB2_507
	cmp	w10, #1
	b.ne	.LBB2_507
	ldr	x0, [x2, #16]
	mov	x21, x2
	sub	x1, x4, x27
	mov	w2, #1
	mov	w3, #3
	mov	x26, x4
	mov	x23, x27
	mov	w19, #1
	bl	"sums::order::nests_inside"
	cbz	w0, .LBB2_599
	mov	w8, #4
	adrp	x10, .LCPI2_0
	mov	x12, x28
	strb	w8, [x20]
	ldr	q0, [x10, :lo12:.LCPI2_0]
	ldr	x9, [x21, #16]
	strb	w19, [x9]
	ldr	x9, [x21, #32]
	str	q0, [x9]
	str	xzr, [x9, #16]
	ldr	x10, [x21]
	ldr	x9, [x21, #16]
	ldr	x8, [x21, #32]
	cbz	x28, .LBB2_643
	ldrb	w11, [x10, x12]
	mov	x28, x12
	mov	x0, x22
	mov	x2, x21
	mov	x4, x26
	strb	w11, [x10, #1]
	add	x11, x8, x24
	mov	w24, #2
	b	.LBB2_375
.LBB2_358:
	ldr	x20, [x2]
	cbz	w27, .LBB2_483
	mov	x21, x0
	ldr	x0, [x2, #16]
	mov	x23, x3
	mov	x19, x2
	sub	x1, x4, x27
	mov	x2, x27
	mov	w3, #3
	mov	x22, x5
	mov	x25, x4
	bl	"sums::order::nests_inside"
	cbz	w0, .LBB2_366
	cmp	w27, #63
	b.hi	.LBB2_365
	add	x24, x27, #1
	mov	x0, x21
	mov	x2, x19
	mov	x4, x25
	mov	x3, x23
	b	.LBB2_484
.LBB2_362:
	ldr	x20, [x2]
	cbz	w27, .LBB2_488
	mov	x21, x0
	ldr	x0, [x2, #16]
	mov	x23, x3
	mov	x19, x2
	sub	x1, x4, x27
	mov	x2, x27
	mov	w3, #3
	mov	x22, x5
	mov	x25, x4
	bl	"sums::order::nests_inside"
	cbz	w0, .LBB2_366
	cmp	w27, #63
	b.ls	.LBB2_583
.LBB2_365:
	mov	w8, #11
	b	.LBB2_367
.LBB2_366:
	mov	w8, #12
.LBB2_367:
	mov	x0, x21
	mov	x2, x19
	mov	x5, x22
	cmp	x28, #129
	b.hs	.LBB2_721
	b	.LBB2_804
.LBB2_368:
	ldr	x20, [x2]
	cmp	w27, #1
	b.ne	.LBB2_442
	add	x8, x28, x28, lsl #1
	ldr	x9, [x2, #32]
	ldrb	w10, [x20, x28]
	mov	x25, x5
	mov	x22, x0
	str	x3, [sp, #112]
	lsl	x21, x8, #3
	cmp	w10, #1
	add	x9, x9, x21
	ldr	d0, [x9]
	b.ne	.LBB2_515
	fmov	d1, #10.00000000
	adrp	x8, .LCPI2_2
	ldr	d2, [x8, :lo12:.LCPI2_2]
	fcmp	d1, d2
	b.ne	.LBB2_515
	fmov	d1, #1.00000000
	fcmp	d0, d1
	b.ne	.LBB2_515
.LBB2_372:
	ldr	x0, [x2, #16]
	mov	x8, x27
	mov	x26, x2
	sub	x1, x4, x27
	mov	w2, #1
	mov	w3, #3
	mov	x27, x4
	mov	x23, x8
	mov	w19, #1
	bl	"sums::order::nests_inside"
	cbz	w0, .LBB2_506
	mov	w8, #4
	adrp	x10, .LCPI2_0
	mov	x12, x28
	strb	w8, [x20]
	ldr	q0, [x10, :lo12:.LCPI2_0]
	ldr	x9, [x26, #16]
	strb	w19, [x9]
	ldr	x9, [x26, #32]
	str	q0, [x9]
	str	xzr, [x9, #16]
	ldr	x10, [x26]
	ldr	x9, [x26, #16]
	ldr	x8, [x26, #32]
	cbz	x28, .LBB2_613
	ldrb	w11, [x10, x12]
	mov	x28, x12
	mov	w24, #2
	mov	x0, x22
	mov	x2, x26
	mov	x4, x27
	strb	w11, [x10, #1]
	add	x11, x8, x21
.LBB2_375:
	ldrb	w10, [x9, x12]
	strb	w10, [x9, #1]
	ldr	x9, [x11, #16]
	ldr	q0, [x11]
	str	x9, [x8, #40]
	stur	q0, [x8, #24]
	ldr	x3, [sp, #112]
	mov	x27, x23
	b	.LBB2_794
.LBB2_376:
	cbz	w27, .LBB2_380
	mov	w8, #24
	ldr	x10, [x2, #16]
	ldr	x11, [x2, #32]
	mul	x9, x4, x8
	mov	x12, x27
	umsubl	x8, w27, w8, x9
	ldr	x9, [x2]
.LBB2_378:
	ldrb	w13, [x9, x28]
	add	x14, x11, x8
	subs	x12, x12, #1
	strb	w13, [x9], #1
	ldrb	w13, [x10, x28]
	strb	w13, [x10], #1
	ldr	x13, [x14, #16]
	ldr	q0, [x14]
	str	x13, [x11, #16]
	str	q0, [x11], #24
	b.ne	.LBB2_378
.LBB2_379:
	mov	x24, x27
	b	.LBB2_794
.LBB2_380:
	mov	x24, xzr
	b	.LBB2_800
.LBB2_381:
	cmp	w23, #1
	b.ne	.LBB2_466
	mov	w8, #24
	movi	d0, #0000000000000000
	mov	x19, xzr
	madd	x9, x27, x8, x14
	mov	w13, #1
	mov	w8, #6
	ldr	d1, [x9]
	fcmp	d1, d0
	b.ne	.LBB2_595
	ldrb	w10, [x26, x27]
	cmp	w10, #1
	b.ne	.LBB2_595
	ldp	d1, d2, [x9, #8]
	mov	x20, x23
	mov	x27, x4
	mov	x24, x2
	mov	x28, x0
	str	x5, [sp, #88]
	fcmp	d2, d0
	str	x3, [sp, #112]
	b.ne	.LBB2_614
	fcmp	d1, d0
	b.ne	.LBB2_614
	mov	w19, #1
	ldr	x10, [sp, #64]
	mov	w8, wzr
	strb	w19, [x26]
	mov	w13, wzr
	ldrb	w10, [x12, x10]
	strb	w10, [x12]
	ldr	x10, [x9, #16]
	ldr	q0, [x9]
	ldr	x9, [sp, #120]
	str	x10, [x9, #16]
	str	q0, [x9]
	b	.LBB2_818
.LBB2_387:
	movi	v0.2d, #0000000000000000
	mov	w10, #1
.LBB2_388:
	sub	x27, x21, x23
	mov	x20, x25
	cmp	w25, #1
	b.ne	.LBB2_393
	mov	w11, #24
	movi	d1, #0000000000000000
	madd	x8, x21, x11, x8
	ldr	d2, [x8]
	fcmp	d2, d1
	b.ne	.LBB2_393
	ldrb	w11, [x9, x21]
	cmp	w11, #1
	b.ne	.LBB2_393
	mov	x28, x23
	mov	x24, x5
	mov	x25, x3
	mov	x23, x2
	mov	x26, x0
	tbz	w10, #0, .LBB2_536
	add	x0, sp, #200
	mov	x3, x28
	sub	x2, x21, x28
	mov	x21, x4
	sub	x4, x4, x20
	mov	x1, x23
	mov	w5, #1
	b	.LBB2_394
.LBB2_393:
	mov	x25, x3
	mov	x1, x2
	mov	x3, x23
	mov	x24, x5
	mov	x26, x0
	add	x0, sp, #200
	sub	x2, x21, x23
	mov	x21, x4
	mov	x5, x20
	sub	x4, x4, x20
	mov	x23, x1
	mov	x28, x3
.LBB2_394:
	bl	"primitives::add_times_i"
	ldrb	w13, [sp, #200]
	ldrb	w8, [sp, #201]
	ldr	x19, [sp, #208]
.LBB2_395:
	mov	x22, xzr
	mov	x0, x26
	mov	x2, x23
	mov	x4, x21
	mov	x3, x25
	mov	x5, x24
	mov	x25, x20
	mov	x23, x28
	cbnz	w13, .LBB2_757
	b	.LBB2_780
.LBB2_396:
	mov	w10, wzr
.LBB2_397:
	cmp	w25, #1
	b.ne	.LBB2_404
	add	x9, x21, x21, lsl #1
	fmov	d1, #1.00000000
	ldrb	w11, [x19, x21]
	lsl	x26, x9, #3
	add	x9, x8, x26
	ldr	d0, [x9]
	fcmp	d0, d1
	csel	w8, wzr, w10, ne
	cmp	w11, #1
	b.ne	.LBB2_489
	cbz	w8, .LBB2_489
	sub	x8, x21, x23
	mov	x24, x3
	mov	x20, x2
	str	x8, [sp, #64]
	mov	x8, x25
	mov	x25, x0
	ldr	x0, [x2, #16]
	sub	x1, x4, x8
	mov	w2, #1
	mov	w3, #3
	str	x23, [sp, #8]
	mov	x23, x5
	mov	x27, x4
	mov	x28, x8
	mov	w22, #1
	bl	"sums::order::nests_inside"
	cbz	w0, .LBB2_548
	mov	w8, #4
	adrp	x9, .LCPI2_0
	mov	x2, x20
	strb	w8, [x19]
	ldr	q0, [x9, :lo12:.LCPI2_0]
	mov	x4, x27
	ldr	x8, [x20, #16]
	cmp	x27, #1
	strb	w22, [x8]
	ldr	x8, [x20, #32]
	str	q0, [x8]
	str	xzr, [x8, #16]
	ldr	x11, [x20]
	ldr	x10, [x20, #16]
	ldr	x9, [x20, #32]
	b.ne	.LBB2_624
	ldrb	w12, [x11]
	mov	w13, wzr
	mov	w8, wzr
	mov	x22, xzr
	strb	w12, [x11, #1]
	ldrb	w11, [x10]
	strb	w11, [x10, #1]
	ldr	q0, [x9]
	ldr	x10, [x9, #16]
	stur	q0, [x9, #24]
	str	x10, [x9, #40]
	b	.LBB2_625
.LBB2_403:
	mov	w8, #6
	b	.LBB2_758
.LBB2_404:
	mov	x19, xzr
	mov	x22, xzr
	mov	w8, #6
	mov	w13, #1
	cbnz	w13, .LBB2_757
	b	.LBB2_780
.LBB2_405:
	mov	x8, xzr
.LBB2_406:
	cmp	x21, x4
	b.hs	.LBB2_409
	mov	x22, xzr
	sub	x9, x4, x25
.LBB2_408:
	ldrb	w10, [x19, x9]
	add	x22, x22, x8
	add	x9, x9, x10
	add	x9, x9, #1
	cmp	x9, x4
	b.lo	.LBB2_408
	b	.LBB2_410
.LBB2_409:
	mov	x22, xzr
.LBB2_410:
	cmp	w25, #1
	b.ne	.LBB2_417
	cmp	w23, #1
	b.ne	.LBB2_417
	mov	x20, x23
	ldr	x23, [x2]
	ldr	x8, [x2, #32]
	ldrb	w10, [x23, x27]
	ldrb	w9, [x23, x21]
	cmp	w10, #1
	b.ne	.LBB2_495
	cmp	w9, #1
	b.ne	.LBB2_495
	mov	w9, #24
	mul	x10, x27, x9
	madd	x9, x21, x9, x8
	add	x8, x8, x10
	ldr	d1, [x8]
	ldr	d0, [x9]
	fadd	d0, d0, d1
	movi	d1, #0000000000000000
	fsub	d2, d0, d0
	fcmp	d2, d1
	b.ne	.LBB2_597
	ldur	q2, [x8, #8]
	ldp	d4, d5, [x9, #8]
	ext	v3.16b, v2.16b, v2.16b, #8
	fmul	v2.2d, v2.2d, v4.d[0]
	fmul	v3.2d, v3.2d, v5.d[0]
	fsub	v4.2d, v2.2d, v3.2d
	fadd	v2.2d, v2.2d, v3.2d
	mov	v4.d[1], v2.d[1]
	movi	v2.2d, #0000000000000000
	fadd	v2.2d, v4.2d, v2.2d
	fsub	v3.2d, v2.2d, v2.2d
	mov	d4, v3.d[1]
	fcmp	d3, d1
	fccmp	d4, d1, #0, eq
	b.eq	.LBB2_602
	mov	w8, #14
	b	.LBB2_758
.LBB2_417:
	ldr	x20, [x2]
	cmp	x27, x21
	stp	xzr, xzr, [sp, #200]
	b.hs	.LBB2_494
	cmp	w23, #8
	b.hs	.LBB2_538
	mov	w8, #1
	sub	x10, x21, x23
	b	.LBB2_657
.LBB2_420:
	cbz	w9, .LBB2_423
	mov	w14, #24
	mov	x8, xzr
	add	x15, x10, x4
	madd	x12, x4, x14, x13
	add	x10, x10, x16
	madd	x13, x16, x14, x13
	add	x14, x11, x4
	add	x11, x11, x16
.LBB2_422:
	ldrb	w16, [x10, x8]
	strb	w16, [x15, x8]
	ldrb	w16, [x11, x8]
	strb	w16, [x14, x8]
	add	x8, x8, #1
	ldr	x16, [x13, #16]
	ldr	q0, [x13], #24
	cmp	x9, x8
	str	x16, [x12, #16]
	str	q0, [x12], #24
	b.ne	.LBB2_422
.LBB2_423:
	ldr	x12, [x2, #48]
	mov	w11, wzr
	mov	w8, wzr
	mov	w10, wzr
	mov	x22, xzr
	add	x12, x12, x4
	add	x4, x9, x4
	add	x12, x12, x9
	sturb	w9, [x12, #-1]
	b	.LBB2_807
.LBB2_424:
	mov	x22, xzr
	mov	x19, xzr
	b	.LBB2_785
.LBB2_425:
	ldr	x10, [x2, #16]
	ldr	x20, [x2]
	subs	x13, x28, x4
	neg	x11, x27
	csel	x13, xzr, x13, lo
	add	x9, x10, x4
	add	x12, x20, x4
.LBB2_426:
	cmp	x13, x11
	b.eq	.LBB2_442
	ldrb	w14, [x9, x11]
	mvn	x14, x14
	cmp	x14, x11
	b.ne	.LBB2_442
	ldrb	w14, [x12, x11]
	add	x11, x11, #1
	cmp	w14, #2
	b.eq	.LBB2_426
	cmp	w14, #1
	b.ne	.LBB2_442
	ldr	x11, [x2, #32]
	mov	x9, x2
	mov	x17, x28
	cmp	x28, x4
	b.hs	.LBB2_435
	mov	w12, #24
	mov	x16, x27
	fmov	d2, #1.00000000
	mul	x14, x4, x12
	umsubl	x12, w16, w12, x14
	neg	x14, x27
	add	x15, x12, x11
	add	x12, x10, x4
	add	x13, x15, #16
.LBB2_432:
	ldp	d3, d4, [x13, #-8]
	fcmp	d3, d2
	fccmp	d4, d0, #0, eq
	b.ne	.LBB2_736
	adds	x15, x14, #1
	b.hs	.LBB2_435
	ldrb	w16, [x12, x14]
	add	x13, x13, #24
	mov	x14, x15
	cbnz	w16, .LBB2_432
.LBB2_435:
	cbz	w27, .LBB2_735
	mov	w12, #24
	mov	x14, x27
	mov	x28, x17
	mul	x13, x4, x12
	umsubl	x12, w14, w12, x13
	mov	x13, x27
.LBB2_437:
	ldrb	w14, [x20, x28]
	add	x15, x11, x12
	subs	x13, x13, #1
	strb	w14, [x20], #1
	ldrb	w14, [x10, x28]
	strb	w14, [x10], #1
	ldr	x14, [x15, #16]
	ldr	q2, [x15]
	str	x14, [x11, #16]
	str	q2, [x11], #24
	b.ne	.LBB2_437
	cbz	w8, .LBB2_737
	mov	x8, xzr
	mov	x10, xzr
	mov	x2, x9
.LBB2_440:
	ldr	x9, [x2, #32]
	fmov	d1, #0.50000000
	ldr	x20, [x2]
	ldr	d2, [x9, x8]
	ldrb	w11, [x20, x10]
	fmul	d1, d2, d1
	movi	d2, #0000000000000000
	cmp	w11, #1
	fcsel	d1, d1, d2, eq
	fsub	d2, d1, d1
	fcmp	d2, d0
	b.ne	.LBB2_626
	adrp	x11, .LCPI2_1
	add	x10, x10, #1
	add	x9, x9, x8
	ldr	q2, [x11, :lo12:.LCPI2_1]
	cmp	x27, x10
	add	x8, x8, #24
	str	d1, [x9]
	stur	q2, [x9, #8]
	b.ne	.LBB2_440
	b	.LBB2_379
.LBB2_442:
	mov	w8, #6
	cmp	x28, #129
	b.hs	.LBB2_721
	b	.LBB2_804
.LBB2_443:
	mov	x20, x5
	mov	x22, x3
	mov	x23, x0
	cbz	w27, .LBB2_534
	mov	x21, x2
	sub	x1, x4, x27
	mov	x0, x8
	mov	x2, x27
	mov	w3, #3
	mov	x25, x4
	bl	"sums::order::nests_inside"
	cbz	w0, .LBB2_582
	mov	x10, x27
	cmp	w27, #63
	b.ls	.LBB2_627
	mov	x24, xzr
	mov	w8, #11
	mov	w9, #1
	mov	x0, x23
	mov	x4, x25
	mov	x3, x22
	mov	x5, x20
	mov	x27, x10
	b	.LBB2_748
.LBB2_447:
	cbz	w8, .LBB2_466
.LBB2_448:
	add	x8, x24, x27
	cmp	x8, x21
	b.hs	.LBB2_461
.LBB2_449:
	mov	w9, #24
	ldrb	w27, [x12, x8]
	add	x24, x8, #1
	madd	x10, x8, x9, x14
	ldrb	w9, [x26, x8]
	ldr	d1, [x10, #16]
	strb	w9, [x18]
	strb	w27, [x18, #1]
	str	wzr, [x22]
	strh	wzr, [x22, #4]
	ldr	q0, [x10]
	adrp	x10, .Lstatic.1
	add	x10, x10, :lo12:.Lstatic.1
	add	x10, x10, w9, uxtw #3
	strb	w16, [x17]
	strb	w20, [x17, #1]
	add	x10, x10, x16
	str	wzr, [x1]
	ldurb	w10, [x10, #-9]
	strh	wzr, [x1, #4]
	stur	d1, [x29, #-224]
	cmp	w10, #2
	stur	q0, [x18, #8]
	str	d8, [sp, #4816]
	str	d9, [sp, #4824]
	str	d10, [sp, #4832]
	b.gt	.LBB2_456
	cmp	w10, #1
	b.eq	.LBB2_448
	cmp	w10, #2
	b.ne	.LBB2_466
	fcmp	d0, d11
	ccmp	w9, #1, #0, eq
	ldr	x9, [sp, #48]
	cset	w8, eq
	cmp	x9, x28
	b.hs	.LBB2_448
	add	x9, x21, #1
.LBB2_454:
	ldrb	w10, [x26, x9]
	cmp	w10, #1
	b.ne	.LBB2_447
	ldrb	w10, [x12, x9]
	add	x9, x9, x10
	add	x9, x9, #1
	cmp	x9, x28
	b.lo	.LBB2_454
	b	.LBB2_448
.LBB2_456:
	cmp	w10, #3
	b.eq	.LBB2_459
	cmp	w10, #4
	b.ne	.LBB2_466
	add	x3, sp, #1, lsl #12
	add	x0, sp, #200
	sub	x1, x29, #248
	add	x3, x3, #712
	add	x4, x21, #1
	mov	x2, x24
	mov	x25, x23
	mov	x23, x5
	mov	w5, #4
	mov	x19, x12
	mov	x21, x16
	bl	"sums::order::eq_term"
	ldp	x3, x14, [sp, #112]
	mov	w8, w0
	ldp	x2, x0, [sp, #96]
	mov	x16, x21
	ldr	x1, [sp, #24]
	ldr	x21, [sp, #40]
	add	x17, sp, #1, lsl #12
	ldr	x4, [sp, #80]
	mov	x12, x19
	sub	x18, x29, #248
	add	x17, x17, #712
	mov	x5, x23
	mov	x23, x25
	tbnz	w8, #0, .LBB2_448
	b	.LBB2_466
.LBB2_459:
	fcmp	d0, d11
	mov	x19, xzr
	mov	w13, #1
	mov	w8, #6
	b.ne	.LBB2_595
	cmp	w9, #1
	b.eq	.LBB2_448
	b	.LBB2_595
.LBB2_461:
	sub	x8, x21, x23
	mov	x22, x23
	strb	w16, [x18]
	cmp	x8, x21
	strb	w20, [x18, #1]
	stur	wzr, [x18, #2]
	sturh	wzr, [x29, #-242]
	stp	d8, d9, [x29, #-240]
	stur	d10, [x29, #-224]
	stp	xzr, xzr, [sp, #152]
	b.hs	.LBB2_505
	add	x8, sp, #1, lsl #12
	mov	x23, x3
	mov	x24, x4
	add	x8, x8, #712
	mov	x25, x0
	mov	x19, xzr
	orr	x26, x8, #0x2
	sub	x27, x21, x22
	str	x5, [sp, #88]
.LBB2_463:
	mov	w8, #24
	ldr	x9, [x2, #32]
	ldr	x10, [x2, #16]
	madd	x8, x27, x8, x9
	ldr	x9, [x2]
	mov	x1, x2
	ldrb	w20, [x10, x27]
	add	x2, sp, #1, lsl #12
	add	x0, sp, #152
	ldrb	w9, [x9, x27]
	add	x2, x2, #712
	sub	x3, x29, #248
	add	x4, x21, #1
	mov	x5, x19
	mov	x28, x1
	ldr	d0, [x8, #16]
	strb	w9, [x17]
	strb	w20, [x17, #1]
	str	wzr, [x26]
	strh	wzr, [x26, #4]
	ldr	q1, [x8]
	str	d0, [sp, #4832]
	stur	q1, [x17, #8]
	bl	"powers::divide::div_term"
	ldrb	w8, [sp, #152]
	cbnz	w8, .LBB2_592
	add	x8, x27, x20
	ldr	x19, [sp, #160]
	add	x17, sp, #1, lsl #12
	add	x27, x8, #1
	mov	x2, x28
	add	x17, x17, #712
	cmp	x27, x21
	b.lo	.LBB2_463
	mov	w13, wzr
	mov	w8, wzr
	mov	x0, x25
	b	.LBB2_593
.LBB2_466:
	mov	x19, xzr
	mov	w13, #1
	mov	w8, #6
	b	.LBB2_595
.LBB2_467:
	mov	w8, #14
	b	.LBB2_604
.LBB2_468:
	mov	w24, #1
.LBB2_469:
	mov	w8, #3
	adrp	x9, .LCPI2_4
	strb	w8, [x20]
	ldr	q0, [x9, :lo12:.LCPI2_4]
	ldr	x8, [x2, #16]
	strb	w27, [x8]
	ldr	x8, [x2, #32]
	str	q0, [x8]
	str	xzr, [x8, #16]
	ldr	x8, [x2]
	ldr	x9, [x2, #16]
	ldr	x10, [x2, #32]
	cbz	x28, .LBB2_521
	cbz	w27, .LBB2_794
	mov	w11, #24
	mov	x14, xzr
	add	x13, x8, x28
	mul	x12, x4, x11
	umsubl	x11, w27, w11, x12
	add	x12, x9, x28
.LBB2_472:
	ldrb	w15, [x13, x14]
	add	x16, x8, x14
	strb	w15, [x16, #1]
	add	x16, x9, x14
	ldrb	w15, [x12, x14]
	add	x14, x14, #1
	cmp	x27, x14
	strb	w15, [x16, #1]
	add	x15, x10, x11
	ldr	x16, [x15, #16]
	ldr	q0, [x15]
	add	x15, x10, #24
	str	x16, [x10, #40]
	stur	q0, [x10, #24]
	mov	x10, x15
	b.ne	.LBB2_472
	b	.LBB2_794
.LBB2_473:
	mov	w24, #1
.LBB2_474:
	mov	w8, #6
	adrp	x9, .LCPI2_0
	strb	w8, [x20]
	ldr	q0, [x9, :lo12:.LCPI2_0]
	ldr	x8, [x2, #16]
	strb	w27, [x8]
	ldr	x8, [x2, #32]
	str	q0, [x8]
	str	xzr, [x8, #16]
	ldr	x8, [x2]
	ldr	x9, [x2, #16]
	ldr	x10, [x2, #32]
	cbz	x28, .LBB2_524
	cbz	w27, .LBB2_794
	mov	w11, #24
	mov	x14, xzr
	add	x13, x8, x28
	mul	x12, x4, x11
	umsubl	x11, w27, w11, x12
	add	x12, x9, x28
.LBB2_477:
	ldrb	w15, [x13, x14]
	add	x16, x8, x14
	strb	w15, [x16, #1]
	add	x16, x9, x14
	ldrb	w15, [x12, x14]
	add	x14, x14, #1
	cmp	x27, x14
	strb	w15, [x16, #1]
	add	x15, x10, x11
	ldr	x16, [x15, #16]
	ldr	q0, [x15]
	add	x15, x10, #24
	str	x16, [x10, #40]
	stur	q0, [x10, #24]
	mov	x10, x15
	b.ne	.LBB2_477
	b	.LBB2_794
.LBB2_478:
	mov	w24, #1
.LBB2_479:
	mov	w8, #3
	adrp	x9, .LCPI2_5
	strb	w8, [x20]
	ldr	q0, [x9, :lo12:.LCPI2_5]
	ldr	x8, [x2, #16]
	strb	w27, [x8]
	ldr	x8, [x2, #32]
	str	q0, [x8]
	str	xzr, [x8, #16]
	ldr	x8, [x2]
	ldr	x9, [x2, #16]
	ldr	x10, [x2, #32]
	cbz	x28, .LBB2_527
	cbz	w27, .LBB2_794
	mov	w11, #24
	mov	x14, xzr
	add	x13, x8, x28
	mul	x12, x4, x11
	umsubl	x11, w27, w11, x12
	add	x12, x9, x28
.LBB2_482:
	ldrb	w15, [x13, x14]
	add	x16, x8, x14
	strb	w15, [x16, #1]
	add	x16, x9, x14
	ldrb	w15, [x12, x14]
	add	x14, x14, #1
	cmp	x27, x14
	strb	w15, [x16, #1]
	add	x15, x10, x11
	ldr	x16, [x15, #16]
	ldr	q0, [x15]
	add	x15, x10, #24
	str	x16, [x10, #40]
	stur	q0, [x10, #24]
	mov	x10, x15
	b.ne	.LBB2_482
	b	.LBB2_794
.LBB2_483:
	mov	w24, #1
.LBB2_484:
	mov	w8, #5
	adrp	x9, .LCPI2_0
	strb	w8, [x20]
	ldr	q0, [x9, :lo12:.LCPI2_0]
	ldr	x8, [x2, #16]
	strb	w27, [x8]
	ldr	x8, [x2, #32]
	str	q0, [x8]
	str	xzr, [x8, #16]
	ldr	x8, [x2]
	ldr	x9, [x2, #16]
	ldr	x10, [x2, #32]
	cbz	x28, .LBB2_530
	cbz	w27, .LBB2_794
	mov	w11, #24
	mov	x14, xzr
	add	x13, x8, x28
	mul	x12, x4, x11
	umsubl	x11, w27, w11, x12
	add	x12, x9, x28
.LBB2_487:
	ldrb	w15, [x13, x14]
	add	x16, x8, x14
	strb	w15, [x16, #1]
	add	x16, x9, x14
	ldrb	w15, [x12, x14]
	add	x14, x14, #1
	cmp	x27, x14
	strb	w15, [x16, #1]
	add	x15, x10, x11
	ldr	x16, [x15, #16]
	ldr	q0, [x15]
	add	x15, x10, #24
	str	x16, [x10, #40]
	stur	q0, [x10, #24]
	mov	x10, x15
	b.ne	.LBB2_487
	b	.LBB2_794
.LBB2_488:
	mov	w24, #1
	b	.LBB2_584
.LBB2_489:
	movi	d1, #0000000000000000
	mov	x19, xzr
	mov	w8, #6
	mov	w13, #1
	fcmp	d0, d1
	b.ne	.LBB2_620
	cmp	w11, #1
	mov	x22, x19
	b.ne	.LBB2_756
	mov	x8, #-4850376798678024192
	ldr	d0, [x9, #16]
	mov	x19, xzr
	fmov	d1, x8
	mov	x8, #4372995238176751616
	mov	w13, #1
	mov	x22, xzr
	fcmp	d1, d0
	fmov	d1, x8
	mov	w8, #6
	cset	w11, mi
	fcmp	d0, d1
	//APP
	//NO_APP
	cset	w10, mi
	//APP
	//NO_APP
	cbz	w11, .LBB2_756
	cbz	w10, .LBB2_756
	ldr	d0, [x9, #8]
	mov	x19, x0
	add	x0, sp, #200
	mov	x1, x2
	mov	x20, x2
	mov	x2, x27
	mov	x21, x3
	mov	x3, x23
	mov	x22, x4
	mov	x4, xzr
	mov	x26, x23
	mov	x23, x5
	bl	"powers::raise::power_by"
	mov	x4, x22
	mov	x0, x19
	ldrb	w13, [sp, #200]
	ldp	x19, x22, [sp, #208]
	ldrb	w8, [sp, #201]
	mov	x5, x23
	mov	x23, x26
	mov	x3, x21
	mov	x2, x20
	cbnz	w13, .LBB2_757
	b	.LBB2_780
.LBB2_494:
	mov	w8, #1
	b	.LBB2_659
.LBB2_495:
	cmp	w10, #1
	stp	xzr, xzr, [sp, #200]
	cset	w10, ne
	adds	x12, x27, #1
	stp	x5, x2, [sp, #88]
	cset	w11, hs
	cmn	x21, #1
	stp	x0, x3, [sp, #104]
	ccmp	w9, #1, #4, ne
	bic	w10, w10, w11
	str	x4, [sp, #80]
	cset	w9, eq
	tbnz	w10, #0, .LBB2_540
	cbz	w9, .LBB2_540
	sub	x11, x21, x20
	cmn	x27, #1
	b.eq	.LBB2_606
	mov	x12, x21
	cmn	x21, #1
	b.eq	.LBB2_606
	mov	w9, #24
	mul	x10, x11, x9
	madd	x9, x12, x9, x8
	add	x8, x8, x10
	ldr	d0, [x8]
	ldr	d1, [x9]
	fadd	d0, d0, d1
	movi	d1, #0000000000000000
	fsub	d2, d0, d0
	fcmp	d2, d1
	b.ne	.LBB2_741
	ldur	q2, [x8, #8]
	ldp	d4, d5, [x9, #8]
	mov	w19, #1
	ext	v3.16b, v2.16b, v2.16b, #8
	fmul	v2.2d, v2.2d, v4.d[0]
	fmul	v3.2d, v3.2d, v5.d[0]
	fsub	v4.2d, v2.2d, v3.2d
	fadd	v2.2d, v2.2d, v3.2d
	mov	v4.d[1], v2.d[1]
	movi	v2.2d, #0000000000000000
	fadd	v2.2d, v4.2d, v2.2d
	fsub	v3.2d, v2.2d, v2.2d
	mov	d4, v3.d[1]
	fcmp	d3, d1
	fccmp	d4, d1, #0, eq
	b.eq	.LBB2_751
	mov	x19, xzr
	mov	w8, #14
	b	.LBB2_742
.LBB2_502:
	cmp	w25, #32
	b.hs	.LBB2_549
	mov	x12, xzr
	b	.LBB2_558
.LBB2_504:
	ldr	x25, [sp, #32]
	ldr	x27, [sp, #64]
	mov	x22, xzr
	ldr	x23, [sp, #8]
	b	.LBB2_780
.LBB2_505:
	mov	w13, wzr
	mov	w8, wzr
	mov	x19, xzr
	b	.LBB2_594
.LBB2_506:
	mov	w8, #12
	mov	x0, x22
	mov	x2, x26
	mov	x5, x25
	cmp	x28, #129
	b.hs	.LBB2_721
	b	.LBB2_804
.LBB2_507:
	movi	d1, #0000000000000000
	sub	x28, x4, x27
	mov	x21, x2
	mov	w8, #6
	str	x27, [sp, #48]
	fcmp	d0, d1
	b.ne	.LBB2_600
	cmp	w10, #1
	b.ne	.LBB2_600
	mov	x8, #-4850376798678024192
	ldr	d0, [x9, #16]
	fmov	d1, x8
	mov	x8, #4372995238176751616
	fcmp	d1, d0
	fmov	d1, x8
	mov	w8, #6
	cset	w11, mi
	fcmp	d0, d1
	//APP
	//NO_APP
	cset	w10, mi
	//APP
	//NO_APP
	cbz	w11, .LBB2_600
	mov	x0, x22
	mov	x2, x21
	mov	x5, x25
	cbz	w10, .LBB2_720
	movi	v0.2d, #0000000000000000
	add	x20, sp, #1, lsl #12
	add	x19, sp, #200
	ldr	d8, [x9, #8]
	add	x20, x20, #712
	sub	x23, x29, #248
	add	x0, x19, #24
	mov	w1, wzr
	mov	w2, #4584
	mov	x26, x4
	stp	xzr, xzr, [sp, #128]
	str	xzr, [sp, #144]
	stur	q0, [x20, #193]
	stur	q0, [x20, #209]
	stur	q0, [x20, #225]
	stur	q0, [x20, #241]
	stur	q0, [x23, #65]
	stur	q0, [x23, #81]
	stur	q0, [x23, #97]
	stur	q0, [x23, #113]
	stur	q0, [x23, #129]
	stur	q0, [x23, #145]
	stur	q0, [x23, #161]
	str	q0, [x23, #176]
	str	q0, [x20, #176]
	stur	q0, [x20, #161]
	stur	q0, [x20, #145]
	stur	q0, [x20, #129]
	stur	q0, [x20, #113]
	stur	q0, [x20, #97]
	stur	q0, [x20, #81]
	stur	q0, [x20, #65]
	stur	q0, [x20, #49]
	stur	q0, [x20, #33]
	stur	q0, [x20, #17]
	stur	q0, [x20, #1]
	bl	memset
	sub	x8, x29, #248
	mov	w9, #192
	fmov	d0, d8
	stp	x8, x9, [sp, #152]
	add	x8, sp, #1, lsl #12
	add	x0, sp, #128
	add	x8, x8, #712
	add	x1, sp, #152
	mov	x2, xzr
	stp	x8, x9, [sp, #168]
	mov	w8, #1
	mov	w3, #1
	strb	w8, [x23]
	mov	x8, #22377
	mov	w4, #64
	movk	x8, #35604, lsl #16
	stp	x19, x9, [sp, #184]
	movk	x8, #48906, lsl #32
	strb	wzr, [x20]
	movk	x8, #16389, lsl #48
	str	xzr, [sp, #216]
	stp	xzr, x8, [sp, #200]
	bl	"powers::raise::power_by"
	ldrb	w8, [sp, #128]
	cbnz	w8, .LBB2_520
	ldr	x24, [sp, #136]
	cbz	x24, .LBB2_746
	add	x13, sp, #1, lsl #12
	ldr	x9, [x21]
	ldr	x10, [x21, #16]
	ldr	x11, [x21, #32]
	add	x12, sp, #200
	add	x13, x13, #712
	sub	x14, x29, #248
	mov	x8, xzr
	add	x12, x12, #1536
	add	x13, x13, #64
	add	x14, x14, #64
.LBB2_514:
	ldrb	w15, [x14, x8]
	strb	w15, [x9, x8]
	ldrb	w15, [x13, x8]
	strb	w15, [x10, x8]
	add	x8, x8, #1
	ldr	x15, [x12, #16]
	ldr	q0, [x12], #24
	cmp	x24, x8
	str	x15, [x11, #16]
	str	q0, [x11], #24
	b.ne	.LBB2_514
	b	.LBB2_746
.LBB2_515:
	movi	d1, #0000000000000000
	sub	x28, x4, x27
	mov	x21, x2
	mov	w8, #6
	str	x27, [sp, #48]
	fcmp	d0, d1
	b.ne	.LBB2_600
	cmp	w10, #1
	b.ne	.LBB2_600
	mov	x8, #-4850376798678024192
	ldr	d0, [x9, #16]
	fmov	d1, x8
	mov	x8, #4372995238176751616
	fcmp	d1, d0
	fmov	d1, x8
	mov	w8, #6
	cset	w11, mi
	fcmp	d0, d1
	//APP
	//NO_APP
	cset	w10, mi
	//APP
	//NO_APP
	cbz	w11, .LBB2_600
	mov	x0, x22
	mov	x2, x21
	mov	x5, x25
	cbz	w10, .LBB2_720
	movi	v0.2d, #0000000000000000
	add	x20, sp, #1, lsl #12
	add	x19, sp, #200
	ldr	d8, [x9, #8]
	sub	x23, x29, #248
	add	x20, x20, #712
	add	x0, x19, #24
	mov	w1, wzr
	mov	w2, #4584
	mov	x26, x4
	stp	xzr, xzr, [sp, #128]
	str	xzr, [sp, #144]
	stur	q0, [x23, #1]
	stur	q0, [x23, #17]
	stur	q0, [x23, #33]
	stur	q0, [x23, #49]
	stur	q0, [x23, #65]
	stur	q0, [x23, #81]
	stur	q0, [x23, #97]
	stur	q0, [x23, #113]
	stur	q0, [x23, #129]
	stur	q0, [x23, #145]
	stur	q0, [x23, #161]
	str	q0, [x23, #176]
	str	q0, [x20, #176]
	stur	q0, [x20, #161]
	stur	q0, [x20, #145]
	stur	q0, [x20, #129]
	stur	q0, [x20, #113]
	stur	q0, [x20, #97]
	stur	q0, [x20, #81]
	stur	q0, [x20, #65]
	stur	q0, [x20, #49]
	stur	q0, [x20, #33]
	stur	q0, [x20, #17]
	stur	q0, [x20, #1]
	bl	memset
	sub	x8, x29, #248
	mov	w9, #192
	fmov	d0, d8
	stp	x8, x9, [sp, #152]
	add	x8, sp, #1, lsl #12
	add	x0, sp, #128
	add	x8, x8, #712
	add	x1, sp, #152
	mov	x2, xzr
	stp	x8, x9, [sp, #168]
	mov	w8, #1
	mov	w3, #1
	strb	w8, [x23]
	mov	x8, #4621819117588971520
	mov	w4, #64
	stp	x19, x9, [sp, #184]
	strb	wzr, [x20]
	stp	xzr, x8, [sp, #200]
	str	xzr, [sp, #216]
	bl	"powers::raise::power_by"
	ldrb	w8, [sp, #128]
	cbz	w8, .LBB2_743
.LBB2_520:
	ldrb	w8, [sp, #129]
	mov	x24, xzr
	mov	w9, #1
	b	.LBB2_747
.LBB2_521:
	cbz	w27, .LBB2_794
	mov	w11, #24
	add	x12, x9, x27
	add	x13, x8, x27
	umaddl	x10, w27, w11, x10
	mov	x15, x27
	mov	x9, x13
	mov	x11, x12
.LBB2_523:
	ldrb	w14, [x9, #-1]!
	sub	x27, x27, #1
	strb	w14, [x13]
	ldrb	w13, [x11, #-1]!
	strb	w13, [x12]
	mov	x13, x9
	ldur	q0, [x10, #-24]
	ldur	x12, [x10, #-8]
	str	q0, [x10]
	str	x12, [x10, #16]
	sub	x10, x10, #24
	mov	x12, x11
	cbnz	x27, .LBB2_523
	b	.LBB2_591
.LBB2_524:
	cbz	w27, .LBB2_794
	mov	w11, #24
	add	x12, x9, x27
	add	x13, x8, x27
	umaddl	x10, w27, w11, x10
	mov	x15, x27
	mov	x9, x13
	mov	x11, x12
.LBB2_526:
	ldrb	w14, [x9, #-1]!
	sub	x27, x27, #1
	strb	w14, [x13]
	ldrb	w13, [x11, #-1]!
	strb	w13, [x12]
	mov	x13, x9
	ldur	q0, [x10, #-24]
	ldur	x12, [x10, #-8]
	str	q0, [x10]
	str	x12, [x10, #16]
	sub	x10, x10, #24
	mov	x12, x11
	cbnz	x27, .LBB2_526
	b	.LBB2_591
.LBB2_527:
	cbz	w27, .LBB2_794
	mov	w11, #24
	add	x12, x9, x27
	add	x13, x8, x27
	umaddl	x10, w27, w11, x10
	mov	x15, x27
	mov	x9, x13
	mov	x11, x12
.LBB2_529:
	ldrb	w14, [x9, #-1]!
	sub	x27, x27, #1
	strb	w14, [x13]
	ldrb	w13, [x11, #-1]!
	strb	w13, [x12]
	mov	x13, x9
	ldur	q0, [x10, #-24]
	ldur	x12, [x10, #-8]
	str	q0, [x10]
	str	x12, [x10, #16]
	sub	x10, x10, #24
	mov	x12, x11
	cbnz	x27, .LBB2_529
	b	.LBB2_591
.LBB2_530:
	cbz	w27, .LBB2_794
	mov	w11, #24
	add	x12, x9, x27
	add	x13, x8, x27
	umaddl	x10, w27, w11, x10
	mov	x15, x27
	mov	x9, x13
	mov	x11, x12
.LBB2_532:
	ldrb	w14, [x9, #-1]!
	sub	x27, x27, #1
	strb	w14, [x13]
	ldrb	w13, [x11, #-1]!
	strb	w13, [x12]
	mov	x13, x9
	ldur	q0, [x10, #-24]
	ldur	x12, [x10, #-8]
	str	q0, [x10]
	str	x12, [x10, #16]
	sub	x10, x10, #24
	mov	x12, x11
	cbnz	x27, .LBB2_532
	b	.LBB2_591
.LBB2_533:
	mov	w8, #17
	b	.LBB2_605
.LBB2_534:
	mov	x25, x4
	mov	w24, #1
	b	.LBB2_628
.LBB2_535:
	mov	w8, #14
	b	.LBB2_605
.LBB2_536:
	movi	v2.2d, #0000000000000000
	ldur	q3, [x8, #8]
	mov	x21, x4
	mov	w10, #1
	fmul	v2.2d, v3.2d, v2.2d
	ext	v3.16b, v3.16b, v3.16b, #8
	fsub	v4.2d, v2.2d, v3.2d
	fadd	v2.2d, v2.2d, v3.2d
	mov	v4.d[1], v2.d[1]
	fadd	v0.2d, v0.2d, v4.2d
	fsub	v2.2d, v0.2d, v0.2d
	mov	d3, v2.d[1]
	fcmp	d2, d1
	fccmp	d3, d1, #0, eq
	b.eq	.LBB2_621
	mov	x19, xzr
	mov	w8, #14
	mov	w13, w10
	b	.LBB2_395
.LBB2_538:
	sub	x14, x4, x25
	sub	x12, x21, x23
	mov	x13, x23
	cmp	w23, #32
	b.hs	.LBB2_622
	mov	x9, xzr
	mov	w8, #1
	b	.LBB2_654
.LBB2_540:
	sub	x8, x21, x20
	cmn	x27, #1
	str	x25, [sp, #32]
	str	x8, [sp, #64]
	b.eq	.LBB2_547
	add	x8, x21, #1
	cmn	x21, #1
	sub	x9, x21, x20
	str	x8, [sp, #120]
	sub	x8, x21, x20
	str	x12, [sp, #48]
	b.eq	.LBB2_546
.LBB2_542:
	ldrb	w25, [x19, x8]
	ldrb	w26, [x23, x8]
	add	x27, x8, #1
	ldr	x8, [sp, #32]
	sub	x8, x4, x8
.LBB2_543:
	ldrb	w28, [x19, x8]
	ldrb	w3, [x23, x8]
	add	x24, x8, #1
	mov	w8, #3
	mov	w0, w26
	mov	x1, x27
	mov	x2, x25
	mov	x4, x24
	mov	x5, x28
	mov	x6, x23
	mov	x7, x19
	str	x8, [sp]
	bl	"arithmetic::multiply::can_pair"
	tbz	w0, #0, .LBB2_638
	ldr	x9, [sp, #120]
	add	x8, x24, x28
	cmp	x8, x9
	b.lo	.LBB2_543
	ldr	x12, [sp, #48]
	add	x8, x27, x25
	ldr	x4, [sp, #80]
	cmp	x8, x12
	b.lo	.LBB2_542
	b	.LBB2_547
.LBB2_546:
	ldrb	w8, [x19, x9]
	add	x8, x9, x8
	add	x9, x8, #1
	cmp	x9, x12
	b.lo	.LBB2_546
.LBB2_547:
	ldr	x25, [sp, #32]
	ldr	x1, [sp, #96]
	add	x0, sp, #200
	sub	x2, x21, x20
	mov	w3, #1
	mov	w5, #1
	sub	x4, x4, x25
	mov	x6, xzr
	mov	w7, #4
	mov	x23, x20
	bl	"arithmetic::multiply::expr_mul"
	ldrb	w13, [sp, #200]
	ldrb	w8, [sp, #201]
	ldr	x19, [sp, #208]
	ldr	x27, [sp, #64]
	b	.LBB2_754
.LBB2_548:
	mov	x4, x27
	mov	x5, x23
	ldr	x27, [sp, #64]
	ldr	x23, [sp, #8]
	mov	x19, xzr
	mov	x22, xzr
	mov	w8, #12
	mov	x0, x25
	mov	x2, x20
	mov	x3, x24
	mov	x25, x28
	mov	w13, #1
	cbnz	w13, .LBB2_757
	b	.LBB2_780
.LBB2_549:
	add	x13, x11, x21
	and	x12, x25, #0xe0
	add	x14, x11, x8
	ldp	q0, q1, [x13]
	mov	x15, x25
	cmp	x12, #32
	stp	q0, q1, [x14]
	b.eq	.LBB2_556
	ldp	q0, q1, [x13, #32]
	cmp	x12, #64
	stp	q0, q1, [x14, #32]
	b.eq	.LBB2_556
	ldp	q0, q1, [x13, #64]
	cmp	x12, #96
	stp	q0, q1, [x14, #64]
	b.eq	.LBB2_556
	ldp	q0, q1, [x13, #96]
	cmp	x12, #128
	stp	q0, q1, [x14, #96]
	b.eq	.LBB2_556
	ldp	q0, q1, [x13, #128]
	cmp	x12, #160
	stp	q0, q1, [x14, #128]
	b.eq	.LBB2_556
	ldp	q0, q1, [x13, #160]
	cmp	x12, #192
	stp	q0, q1, [x14, #160]
	b.eq	.LBB2_556
	ldp	q0, q1, [x13, #192]
	stp	q0, q1, [x14, #192]
.LBB2_556:
	mov	x25, x15
	cmp	x12, x15
	b.eq	.LBB2_577
	and	x13, x25, #0x18
	cbz	x13, .LBB2_561
.LBB2_558:
	mov	x13, x12
	and	x12, x25, #0xf8
	add	x14, x13, x4
	sub	x13, x13, x12
	sub	x15, x14, x25
	neg	x14, x9
	add	x15, x11, x15
.LBB2_559:
	ldr	d0, [x15]
	adds	x13, x13, #8
	str	d0, [x15, x14]
	add	x15, x15, #8
	b.ne	.LBB2_559
	cmp	x12, x25
	b.eq	.LBB2_577
.LBB2_561:
	sub	x12, x12, x25
	add	x10, x11, x10
	add	x11, x11, x4
.LBB2_562:
	ldrb	w13, [x11, x12]
	strb	w13, [x10, x12]
	adds	x12, x12, #1
	b.lo	.LBB2_562
	b	.LBB2_577
.LBB2_563:
	add	x15, x10, x21
	sub	x17, x25, #1
	add	x16, x10, x8
	add	x18, x15, x17
	and	x14, x25, #0xe0
	add	x17, x16, x17
	ldur	q0, [x18, #-15]
	ldur	q1, [x18, #-31]
	cmp	x14, #32
	stur	q0, [x17, #-15]
	stur	q1, [x17, #-31]
	b.eq	.LBB2_570
	sub	x17, x25, #33
	cmp	x14, #64
	add	x18, x15, x17
	add	x17, x16, x17
	ldur	q0, [x18, #-15]
	ldur	q1, [x18, #-31]
	stur	q0, [x17, #-15]
	stur	q1, [x17, #-31]
	b.eq	.LBB2_570
	sub	x17, x25, #65
	cmp	x14, #96
	add	x18, x15, x17
	add	x17, x16, x17
	ldur	q0, [x18, #-15]
	ldur	q1, [x18, #-31]
	stur	q0, [x17, #-15]
	stur	q1, [x17, #-31]
	b.eq	.LBB2_570
	sub	x17, x25, #97
	cmp	x14, #128
	add	x18, x15, x17
	add	x17, x16, x17
	ldur	q0, [x18, #-15]
	ldur	q1, [x18, #-31]
	stur	q0, [x17, #-15]
	stur	q1, [x17, #-31]
	b.eq	.LBB2_570
	sub	x17, x25, #129
	cmp	x14, #160
	add	x18, x15, x17
	add	x17, x16, x17
	ldur	q0, [x18, #-15]
	ldur	q1, [x18, #-31]
	stur	q0, [x17, #-15]
	stur	q1, [x17, #-31]
	b.eq	.LBB2_570
	sub	x17, x25, #161
	cmp	x14, #192
	add	x18, x15, x17
	add	x17, x16, x17
	ldur	q0, [x18, #-15]
	ldur	q1, [x18, #-31]
	stur	q0, [x17, #-15]
	stur	q1, [x17, #-31]
	b.eq	.LBB2_570
	sub	x17, x25, #193
	add	x15, x15, x17
	add	x16, x16, x17
	ldur	q0, [x15, #-15]
	ldur	q1, [x15, #-31]
	stur	q0, [x16, #-15]
	stur	q1, [x16, #-31]
.LBB2_570:
	cmp	x14, x25
	mov	x0, x12
	mov	x2, x11
	mov	x4, x13
	b.eq	.LBB2_577
	and	x15, x25, #0x18
	cbz	x15, .LBB2_769
.LBB2_572:
	mov	x4, x13
	sub	x13, x13, #8
	add	x17, x9, x14
	and	x16, x25, #0xf8
	sub	x18, x13, x14
	sub	x17, x13, x17
	and	x15, x25, #0x7
	add	x13, x10, x18
	add	x17, x10, x17
	sub	x14, x14, x16
.LBB2_573:
	ldr	d0, [x13], #-8
	adds	x14, x14, #8
	str	d0, [x17], #-8
	b.ne	.LBB2_573
	cmp	x16, x25
	mov	x0, x12
	mov	x2, x11
	b.eq	.LBB2_577
.LBB2_575:
	add	x11, x15, x4
	mvn	x12, x25
	add	x12, x12, x11
	neg	x11, x9
	add	x10, x10, x12
.LBB2_576:
	ldrb	w12, [x10]
	sub	x15, x15, #1
	strb	w12, [x10, x11]
	sub	x10, x10, #1
	cbnz	x15, .LBB2_576
.LBB2_577:
	cbz	w9, .LBB2_581
	add	x8, x8, x25
	cbz	x8, .LBB2_581
	mov	w10, #24
	ldr	x11, [x2, #32]
	ldr	x12, [x2, #16]
	madd	x16, x4, x10, x11
	ldr	x13, [x2]
	sub	x14, x9, #1
	sub	x17, x4, #1
	mov	x8, xzr
	umaddl	x15, w9, w10, x11
	add	x10, x12, x14
	add	x11, x12, x17
	add	x12, x13, x17
	add	x13, x13, x14
	neg	x14, x9
	sub	x15, x15, #24
	sub	x16, x16, #24
.LBB2_580:
	ldrb	w17, [x13, x8]
	strb	w17, [x12, x8]
	ldrb	w17, [x10, x8]
	strb	w17, [x11, x8]
	sub	x8, x8, #1
	ldr	x17, [x15, #16]
	ldr	q0, [x15], #-24
	cmp	x14, x8
	str	x17, [x16, #16]
	str	q0, [x16], #-24
	b.ne	.LBB2_580
.LBB2_581:
	ldr	x12, [x2, #48]
	mov	w11, wzr
	mov	w8, wzr
	mov	w10, wzr
	mov	x22, xzr
	add	x12, x12, x4
	sturb	w9, [x12, #-1]
	b	.LBB2_807
.LBB2_582:
	mov	x24, xzr
	mov	w8, #12
	mov	w9, #1
	b	.LBB2_633
.LBB2_583:
	add	x24, x27, #1
	mov	x0, x21
	mov	x2, x19
	mov	x4, x25
	mov	x3, x23
.LBB2_584:
	mov	w8, #3
	adrp	x9, .LCPI2_3
	strb	w8, [x20]
	ldr	q0, [x9, :lo12:.LCPI2_3]
	ldr	x8, [x2, #16]
	strb	w27, [x8]
	ldr	x8, [x2, #32]
	str	q0, [x8]
	str	xzr, [x8, #16]
	ldr	x8, [x2]
	ldr	x9, [x2, #16]
	ldr	x10, [x2, #32]
	cbz	x28, .LBB2_588
	cbz	w27, .LBB2_794
	mov	w11, #24
	mov	x14, xzr
	add	x13, x8, x28
	mul	x12, x4, x11
	umsubl	x11, w27, w11, x12
	add	x12, x9, x28
.LBB2_587:
	ldrb	w15, [x13, x14]
	add	x16, x8, x14
	strb	w15, [x16, #1]
	add	x16, x9, x14
	ldrb	w15, [x12, x14]
	add	x14, x14, #1
	cmp	x27, x14
	strb	w15, [x16, #1]
	add	x15, x10, x11
	ldr	x16, [x15, #16]
	ldr	q0, [x15]
	add	x15, x10, #24
	str	x16, [x10, #40]
	stur	q0, [x10, #24]
	mov	x10, x15
	b.ne	.LBB2_587
	b	.LBB2_794
.LBB2_588:
	cbz	w27, .LBB2_794
	mov	w11, #24
	add	x12, x9, x27
	add	x13, x8, x27
	umaddl	x10, w27, w11, x10
	mov	x15, x27
	mov	x9, x13
	mov	x11, x12
.LBB2_590:
	ldrb	w14, [x9, #-1]!
	sub	x27, x27, #1
	strb	w14, [x13]
	ldrb	w13, [x11, #-1]!
	strb	w13, [x12]
	mov	x13, x9
	ldur	q0, [x10, #-24]
	ldur	x12, [x10, #-8]
	str	q0, [x10]
	str	x12, [x10, #16]
	sub	x10, x10, #24
	mov	x12, x11
	cbnz	x27, .LBB2_590
.LBB2_591:
	mov	x27, x15
	b	.LBB2_794
.LBB2_592:
	ldrb	w8, [sp, #153]
	mov	x19, xzr
	mov	w13, #1
	mov	x0, x25
	mov	x2, x28
.LBB2_593:
	ldr	x5, [sp, #88]
	mov	x4, x24
	mov	x3, x23
.LBB2_594:
	mov	x23, x22
.LBB2_595:
	ldr	x25, [sp, #32]
	ldr	x27, [sp, #64]
	mov	x22, xzr
	cbnz	w13, .LBB2_757
	b	.LBB2_780
.LBB2_596:
	mov	w8, #11
	b	.LBB2_604
.LBB2_597:
	mov	w8, #17
	b	.LBB2_758
.LBB2_598:
	mov	w8, #14
	b	.LBB2_719
.LBB2_599:
	mov	w8, #12
.LBB2_600:
	mov	x0, x22
	mov	x2, x21
	mov	x5, x25
	cmp	x28, #129
	b.hs	.LBB2_721
	b	.LBB2_804
.LBB2_601:
	mov	w8, #11
	b	.LBB2_605
.LBB2_602:
	mov	w19, #1
	strb	w19, [x23]
	mov	x23, x20
	ldr	x8, [x2, #16]
	strb	wzr, [x8]
	ldr	x8, [x2, #32]
	str	d0, [x8]
	stur	q2, [x8, #8]
	b	.LBB2_780
.LBB2_603:
	mov	w8, #12
.LBB2_604:
	ldp	x2, x0, [sp, #96]
	ldr	x5, [sp, #88]
.LBB2_605:
	ldr	x27, [sp, #64]
	b	.LBB2_758
.LBB2_606:
	mov	w13, wzr
	mov	w8, wzr
	mov	x19, xzr
	b	.LBB2_752
.LBB2_607:
	ldr	x20, [x2]
	mov	x27, x2
	cmp	x28, x4
	str	x5, [sp, #88]
	str	x0, [sp, #104]
	b.hs	.LBB2_642
	ldr	x19, [x27, #16]
	mov	x26, x4
	mov	x9, x28
.LBB2_609:
	ldrb	w21, [x19, x9]
	ldrb	w22, [x20, x9]
	add	x23, x9, #1
	mov	x8, x28
.LBB2_610:
	ldrb	w24, [x19, x8]
	ldrb	w3, [x20, x8]
	add	x25, x8, #1
	mov	w8, #3
	mov	w0, w22
	mov	x1, x23
	mov	x2, x21
	mov	x4, x25
	mov	x5, x24
	mov	x6, x20
	mov	x7, x19
	str	x8, [sp]
	bl	"arithmetic::multiply::can_pair"
	tbz	w0, #0, .LBB2_713
	add	x8, x25, x24
	cmp	x8, x26
	b.lo	.LBB2_610
	add	x9, x23, x21
	mov	w8, #15
	cmp	x9, x26
	b.lo	.LBB2_609
	b	.LBB2_714
.LBB2_613:
	ldrb	w11, [x10]
	mov	w24, #2
	mov	x0, x22
	mov	x2, x26
	mov	x4, x27
	b	.LBB2_644
.LBB2_614:
	fcmp	d2, d0
	mov	x19, xzr
	b.ne	.LBB2_750
	fmov	d0, #1.00000000
	ldr	x3, [sp, #112]
	ldr	x5, [sp, #88]
	mov	x0, x28
	mov	x2, x24
	mov	x4, x27
	mov	x23, x20
	mov	w13, #1
	fcmp	d1, d0
	b.ne	.LBB2_595
	ldr	x8, [sp, #32]
	cbz	w8, .LBB2_786
	ldr	x2, [sp, #32]
	mov	x0, x12
	mov	w3, #3
	sub	x1, x27, x2
	bl	"sums::order::nests_inside"
	cbz	w0, .LBB2_787
	ldr	x8, [sp, #32]
	cmp	w8, #63
	b.ls	.LBB2_808
	mov	x19, xzr
	mov	w13, #1
	mov	w8, #11
	b	.LBB2_818
.LBB2_620:
	mov	x22, x19
	cbnz	w13, .LBB2_757
	b	.LBB2_780
.LBB2_621:
	strb	w10, [x9]
	mov	w8, wzr
	mov	w13, wzr
	ldr	x10, [x23, #16]
	mov	w19, #1
	strb	wzr, [x10]
	ldr	x9, [x23, #32]
	str	xzr, [x9]
	stur	q0, [x9, #8]
	b	.LBB2_395
.LBB2_622:
	movi	v1.16b, #1
	add	x8, x20, x12
	and	x9, x13, #0xe0
	ldp	q0, q2, [x8]
	cmp	x9, #32
	b.ne	.LBB2_645
	cmeq	v0.16b, v0.16b, v1.16b
	cmeq	v1.16b, v2.16b, v1.16b
	b	.LBB2_651
.LBB2_624:
	ldrb	w12, [x11, x21]
	mov	w13, wzr
	mov	w8, wzr
	mov	x22, xzr
	strb	w12, [x11, #1]
	add	x12, x9, x26
	ldrb	w11, [x10, x21]
	strb	w11, [x10, #1]
	ldr	x10, [x12, #16]
	ldr	q0, [x12]
	str	x10, [x9, #40]
	stur	q0, [x9, #24]
.LBB2_625:
	mov	w19, #2
	mov	x0, x25
	mov	x3, x24
	mov	x5, x23
	mov	x25, x28
	b	.LBB2_712
.LBB2_626:
	mov	w8, #17
	cmp	x28, #129
	b.hs	.LBB2_721
	b	.LBB2_804
.LBB2_627:
	mov	x27, x10
	add	x24, x10, #1
	mov	x2, x21
.LBB2_628:
	mov	w8, #2
	mov	x21, x2
	mov	x15, x28
	strb	w8, [x26]
	ldr	x8, [x2, #16]
	strb	w27, [x8]
	adrp	x8, .LCPI2_1
	ldr	x9, [x2, #32]
	ldr	q0, [x8, :lo12:.LCPI2_1]
	str	xzr, [x9]
	stur	q0, [x9, #8]
	ldr	x8, [x2]
	ldr	x9, [x2, #16]
	ldr	x10, [x2, #32]
	cbz	x28, .LBB2_634
	mov	x13, x27
	cbz	w27, .LBB2_641
	mov	w11, #24
	mov	x27, x13
	mov	x14, xzr
	mul	x12, x25, x11
	mov	x28, x15
	add	x13, x8, x15
	umsubl	x11, w27, w11, x12
	add	x12, x9, x15
.LBB2_631:
	ldrb	w15, [x13, x14]
	add	x16, x8, x14
	strb	w15, [x16, #1]
	add	x16, x9, x14
	ldrb	w15, [x12, x14]
	add	x14, x14, #1
	cmp	x27, x14
	strb	w15, [x16, #1]
	add	x15, x10, x11
	ldr	x16, [x15, #16]
	ldr	q0, [x15]
	add	x15, x10, #24
	str	x16, [x10, #40]
	stur	q0, [x10, #24]
	mov	x10, x15
	b.ne	.LBB2_631
	mov	w9, wzr
	mov	w8, wzr
.LBB2_633:
	mov	x0, x23
	mov	x4, x25
	mov	x3, x22
	mov	x5, x20
	b	.LBB2_748
.LBB2_634:
	mov	x16, x27
	cbz	w27, .LBB2_729
	mov	w11, #24
	mov	x14, x16
	add	x12, x9, x16
	umaddl	x10, w14, w11, x10
	add	x13, x8, x16
	mov	x8, x16
	mov	x9, x13
	mov	x11, x12
.LBB2_636:
	ldrb	w14, [x9, #-1]!
	sub	x8, x8, #1
	strb	w14, [x13]
	ldrb	w13, [x11, #-1]!
	strb	w13, [x12]
	mov	x13, x9
	ldur	q0, [x10, #-24]
	ldur	x12, [x10, #-8]
	str	q0, [x10]
	str	x12, [x10, #16]
	sub	x10, x10, #24
	mov	x12, x11
	cbnz	x8, .LBB2_636
	mov	w9, wzr
	b	.LBB2_730
.LBB2_638:
	ldr	x25, [sp, #32]
	ldr	x27, [sp, #64]
	mov	x19, xzr
	mov	w8, #6
	mov	w13, #1
	b	.LBB2_753
.LBB2_639:
	mov	w8, #14
	b	.LBB2_732
.LBB2_640:
	mov	w8, #14
	cmp	x28, #129
	b.hs	.LBB2_721
	b	.LBB2_804
.LBB2_641:
	mov	w9, wzr
	mov	w8, wzr
	mov	x0, x23
	mov	x4, x25
	mov	x3, x22
	mov	x5, x20
	mov	x28, x15
	mov	x27, x13
	b	.LBB2_748
.LBB2_642:
	mov	w8, #15
	b	.LBB2_714
.LBB2_643:
	ldrb	w11, [x10]
	mov	w24, #2
	mov	x0, x22
	mov	x2, x21
	mov	x4, x26
.LBB2_644:
	strb	w11, [x10, #1]
	ldrb	w10, [x9]
	strb	w10, [x9, #1]
	ldr	q0, [x8]
	ldr	x9, [x8, #16]
	stur	q0, [x8, #24]
	str	x9, [x8, #40]
	ldr	x3, [sp, #112]
	mov	x28, x12
	mov	x27, x23
	b	.LBB2_794
.LBB2_645:
	ldp	q3, q4, [x8, #32]
	cmeq	v2.16b, v2.16b, v1.16b
	cmeq	v0.16b, v0.16b, v1.16b
	cmp	x9, #64
	cmeq	v3.16b, v3.16b, v1.16b
	cmeq	v1.16b, v4.16b, v1.16b
	and	v0.16b, v0.16b, v3.16b
	and	v1.16b, v2.16b, v1.16b
	b.eq	.LBB2_651
	movi	v2.16b, #1
	add	x8, x20, x12
	cmp	x9, #96
	ldp	q3, q4, [x8, #64]
	cmeq	v3.16b, v3.16b, v2.16b
	cmeq	v4.16b, v4.16b, v2.16b
	and	v0.16b, v0.16b, v3.16b
	and	v1.16b, v1.16b, v4.16b
	b.eq	.LBB2_651
	ldp	q3, q4, [x8, #96]
	cmp	x9, #128
	cmeq	v3.16b, v3.16b, v2.16b
	cmeq	v2.16b, v4.16b, v2.16b
	and	v0.16b, v0.16b, v3.16b
	and	v1.16b, v1.16b, v2.16b
	b.eq	.LBB2_651
	movi	v2.16b, #1
	add	x8, x20, x12
	cmp	x9, #160
	ldp	q3, q4, [x8, #128]
	cmeq	v3.16b, v3.16b, v2.16b
	cmeq	v4.16b, v4.16b, v2.16b
	and	v0.16b, v0.16b, v3.16b
	and	v1.16b, v1.16b, v4.16b
	b.eq	.LBB2_651
	ldp	q3, q4, [x8, #160]
	cmp	x9, #192
	cmeq	v3.16b, v3.16b, v2.16b
	cmeq	v2.16b, v4.16b, v2.16b
	and	v0.16b, v0.16b, v3.16b
	and	v1.16b, v1.16b, v2.16b
	b.eq	.LBB2_651
	movi	v2.16b, #1
	add	x8, x20, x12
	ldp	q3, q4, [x8, #192]
	cmeq	v3.16b, v3.16b, v2.16b
	cmeq	v2.16b, v4.16b, v2.16b
	and	v0.16b, v0.16b, v3.16b
	and	v1.16b, v1.16b, v2.16b
.LBB2_651:
	and	v0.16b, v1.16b, v0.16b
	cmp	x9, x13
	shl	v0.16b, v0.16b, #7
	cmlt	v0.16b, v0.16b, #0
	uminv	b0, v0.16b
	fmov	w8, s0
	b.ne	.LBB2_653
	mov	x23, x13
	mov	x21, x14
	sub	x27, x14, x13
	b	.LBB2_659
.LBB2_653:
	and	x10, x13, #0x18
	cbz	x10, .LBB2_788
.LBB2_654:
	movi	v0.2d, #0xffffffffffffffff
	mov	v0.b[0], w8
	add	x8, x9, x4
	sub	x10, x8, x13
	and	x8, x13, #0xf8
	sub	x11, x10, x25
	add	x10, x12, x8
	sub	x9, x9, x8
	add	x11, x20, x11
.LBB2_655:
	movi	v1.8b, #1
	ldr	d2, [x11], #8
	adds	x9, x9, #8
	cmeq	v1.8b, v2.8b, v1.8b
	and	v0.8b, v0.8b, v1.8b
	b.ne	.LBB2_655
	shl	v0.8b, v0.8b, #7
	cmp	x8, x13
	mov	x23, x13
	mov	x21, x14
	sub	x27, x14, x13
	cmlt	v0.8b, v0.8b, #0
	uminv	b0, v0.8b
	fmov	w8, s0
	b.eq	.LBB2_659
.LBB2_657:
	add	x9, x10, x25
	add	x10, x20, x10
	sub	x9, x9, x4
.LBB2_658:
	ldrb	w11, [x10], #1
	cmp	w11, #1
	cset	w11, eq
	adds	x9, x9, #1
	and	w8, w8, w11
	b.lo	.LBB2_658
.LBB2_659:
	cmp	x21, x4
	b.hs	.LBB2_662
	cmp	w25, #8
	b.hs	.LBB2_663
	mov	w10, #1
	sub	x11, x4, x25
	b	.LBB2_679
.LBB2_662:
	mov	w10, #1
	b	.LBB2_681
.LBB2_663:
	mov	x13, x25
	cmp	w25, #32
	b.hs	.LBB2_665
	mov	x9, xzr
	mov	w10, #1
	b	.LBB2_676
.LBB2_665:
	movi	v1.16b, #1
	add	x10, x20, x21
	and	x9, x13, #0xe0
	ldp	q0, q2, [x10]
	cmp	x9, #32
	b.ne	.LBB2_667
	cmeq	v0.16b, v0.16b, v1.16b
	cmeq	v1.16b, v2.16b, v1.16b
	b	.LBB2_673
.LBB2_667:
	ldp	q3, q4, [x10, #32]
	cmeq	v2.16b, v2.16b, v1.16b
	cmeq	v0.16b, v0.16b, v1.16b
	cmp	x9, #64
	cmeq	v3.16b, v3.16b, v1.16b
	cmeq	v1.16b, v4.16b, v1.16b
	and	v0.16b, v0.16b, v3.16b
	and	v1.16b, v2.16b, v1.16b
	b.eq	.LBB2_673
	movi	v2.16b, #1
	add	x10, x20, x21
	cmp	x9, #96
	ldp	q3, q4, [x10, #64]
	cmeq	v3.16b, v3.16b, v2.16b
	cmeq	v4.16b, v4.16b, v2.16b
	and	v0.16b, v0.16b, v3.16b
	and	v1.16b, v1.16b, v4.16b
	b.eq	.LBB2_673
	ldp	q3, q4, [x10, #96]
	cmp	x9, #128
	cmeq	v3.16b, v3.16b, v2.16b
	cmeq	v2.16b, v4.16b, v2.16b
	and	v0.16b, v0.16b, v3.16b
	and	v1.16b, v1.16b, v2.16b
	b.eq	.LBB2_673
	movi	v2.16b, #1
	add	x10, x20, x21
	cmp	x9, #160
	ldp	q3, q4, [x10, #128]
	cmeq	v3.16b, v3.16b, v2.16b
	cmeq	v4.16b, v4.16b, v2.16b
	and	v0.16b, v0.16b, v3.16b
	and	v1.16b, v1.16b, v4.16b
	b.eq	.LBB2_673
	ldp	q3, q4, [x10, #160]
	cmp	x9, #192
	cmeq	v3.16b, v3.16b, v2.16b
	cmeq	v2.16b, v4.16b, v2.16b
	and	v0.16b, v0.16b, v3.16b
	and	v1.16b, v1.16b, v2.16b
	b.eq	.LBB2_673
	movi	v2.16b, #1
	add	x10, x20, x21
	ldp	q3, q4, [x10, #192]
	cmeq	v3.16b, v3.16b, v2.16b
	cmeq	v2.16b, v4.16b, v2.16b
	and	v0.16b, v0.16b, v3.16b
	and	v1.16b, v1.16b, v2.16b
.LBB2_673:
	and	v0.16b, v1.16b, v0.16b
	cmp	x9, x13
	shl	v0.16b, v0.16b, #7
	cmlt	v0.16b, v0.16b, #0
	uminv	b0, v0.16b
	fmov	w10, s0
	b.ne	.LBB2_675
	mov	x25, x13
	sub	x27, x21, x23
	b	.LBB2_681
.LBB2_675:
	and	x11, x13, #0x18
	cbz	x11, .LBB2_789
.LBB2_676:
	movi	v0.2d, #0xffffffffffffffff
	add	x11, x9, x4
	sub	x12, x11, x13
	add	x12, x20, x12
	mov	v0.b[0], w10
	and	x10, x13, #0xf8
	add	x11, x21, x10
	sub	x9, x9, x10
.LBB2_677:
	movi	v1.8b, #1
	ldr	d2, [x12], #8
	adds	x9, x9, #8
	cmeq	v1.8b, v2.8b, v1.8b
	and	v0.8b, v0.8b, v1.8b
	b.ne	.LBB2_677
	shl	v0.8b, v0.8b, #7
	cmp	x10, x13
	mov	x25, x13
	sub	x27, x21, x23
	cmlt	v0.8b, v0.8b, #0
	uminv	b0, v0.8b
	fmov	w10, s0
	b.eq	.LBB2_681
.LBB2_679:
	sub	x9, x4, x11
	add	x11, x20, x11
.LBB2_680:
	ldrb	w12, [x11], #1
	cmp	w12, #1
	cset	w12, eq
	subs	x9, x9, #1
	and	w10, w10, w12
	b.ne	.LBB2_680
.LBB2_681:
	and	w8, w8, w10
	tbz	w8, #0, .LBB2_701
	cmp	x27, x21
	b.hs	.LBB2_710
	cmp	x21, x4
	b.hs	.LBB2_710
	movi	d0, #0000000000000000
	mov	x26, x21
	mov	x19, xzr
	sub	x9, x21, x23
.LBB2_685:
	mov	w8, #24
	ldr	x10, [x2, #32]
	mov	x20, x23
	madd	x8, x9, x8, x10
	sub	x27, x26, x23
	mov	x7, x25
	ldp	d1, d2, [x8]
	ldr	d3, [x8, #16]
	sub	x8, x4, x25
	b	.LBB2_687
.LBB2_686:
	add	x12, x13, x19
	mov	w13, #1
	strb	w13, [x12, x10]
	ldr	x12, [x2, #16]
	add	x12, x12, x19
	mov	x19, x16
	strb	wzr, [x12, x10]
	ldr	x10, [x2, #32]
	add	x10, x10, x11
	stp	d4, d5, [x10]
	str	d6, [x10, #16]
	add	x8, x8, #1
	cmp	x8, x4
	b.eq	.LBB2_700
.LBB2_687:
	mov	w10, #24
	ldr	x12, [x2, #32]
	madd	x10, x8, x10, x12
	ldr	d4, [x10]
	fadd	d4, d1, d4
	fsub	d5, d4, d4
	fcmp	d5, d0
	b.ne	.LBB2_733
	ldp	d5, d6, [x10, #8]
	add	x10, x19, x19, lsl #1
	ldr	x13, [x2]
	ldr	x14, [x2, #16]
	mov	x16, xzr
	lsl	x15, x10, #3
	fmul	d7, d2, d5
	fmul	d16, d3, d6
	fmul	d6, d2, d6
	fmul	d17, d3, d5
	mov	x17, x15
	fsub	d5, d7, d16
	fmov	d7, d4
	fadd	d6, d17, d6
.LBB2_689:
	mov	x10, x16
	cmn	x19, x16
	mov	x11, x17
	b.eq	.LBB2_692
	add	x16, x12, x11
	ldur	d16, [x16, #-24]
	fcmp	d7, d16
	cset	w16, mi
	fcmp	d16, d7
	//APP
	//NO_APP
	cset	w17, mi
	//APP
	//NO_APP
	cmp	w17, #0
	mov	w17, #1
	cinc	w17, w17, ne
	cmp	w16, #0
	sub	x16, x10, #1
	csel	w18, wzr, w17, ne
	sub	x17, x11, #24
	cbz	w18, .LBB2_689
	cmp	w18, #2
	b.ne	.LBB2_698
.LBB2_692:
	movi	d7, #0000000000000000
	fadd	d5, d5, d7
	fadd	d6, d6, d7
	fsub	d7, d5, d5
	fsub	d16, d6, d6
	fcmp	d7, d0
	fccmp	d16, d0, #0, eq
	b.ne	.LBB2_734
	add	x16, x19, #1
	cmp	x16, #64
	b.hi	.LBB2_767
	add	x17, x19, x10
	cmp	x17, x19
	b.hs	.LBB2_686
	add	x18, x14, x19
	add	x1, x13, x19
	add	x12, x12, x15
	mov	x13, x19
	mov	x14, x1
	mov	x15, x18
.LBB2_696:
	ldrb	w6, [x14, #-1]!
	sub	x13, x13, #1
	cmp	x17, x13
	strb	w6, [x1]
	ldrb	w1, [x15, #-1]!
	strb	w1, [x18]
	mov	x1, x14
	ldur	q7, [x12, #-24]
	ldur	x18, [x12, #-8]
	str	q7, [x12]
	str	x18, [x12, #16]
	sub	x12, x12, #24
	mov	x18, x15
	b.lo	.LBB2_696
	ldr	x13, [x2]
	b	.LBB2_686
.LBB2_698:
	add	x10, x12, x17
	ldp	d4, d7, [x10, #8]
	fadd	d4, d5, d4
	fadd	d5, d6, d7
	fsub	d6, d4, d4
	fsub	d7, d5, d5
	fcmp	d6, d0
	fccmp	d7, d0, #0, eq
	b.ne	.LBB2_734
	stp	d4, d5, [x10, #8]
	add	x8, x8, #1
	cmp	x8, x4
	b.ne	.LBB2_687
.LBB2_700:
	add	x9, x9, #1
	mov	w13, wzr
	mov	w8, wzr
	cmp	x9, x26
	mov	x25, x7
	mov	x23, x20
	sub	x27, x26, x20
	b.ne	.LBB2_685
	b	.LBB2_756
.LBB2_701:
	cmp	x27, x21
	stp	x5, x2, [sp, #88]
	stp	x0, x3, [sp, #104]
	b.hs	.LBB2_709
	cmp	x21, x4
	sub	x8, x21, x23
	b.hs	.LBB2_708
	sub	x8, x21, x23
	stp	x25, x21, [sp, #32]
	str	x23, [sp, #8]
.LBB2_704:
	sub	x9, x21, x23
	ldrb	w24, [x19, x8]
	add	x26, x8, #1
	str	x9, [sp, #64]
	mov	x9, x25
	ldrb	w25, [x20, x8]
	mov	x23, x4
	sub	x8, x4, x9
.LBB2_705:
	ldrb	w27, [x19, x8]
	ldrb	w3, [x20, x8]
	add	x28, x8, #1
	mov	x6, x20
	mov	w8, #3
	mov	w0, w25
	mov	x1, x26
	mov	x2, x24
	mov	x4, x28
	mov	x5, x27
	mov	x7, x19
	str	x8, [sp]
	bl	"arithmetic::multiply::can_pair"
	tbz	w0, #0, .LBB2_711
	add	x8, x28, x27
	cmp	x8, x23
	b.lo	.LBB2_705
	ldp	x25, x21, [sp, #32]
	mov	x4, x23
	ldr	x23, [sp, #8]
	add	x8, x26, x24
	cmp	x8, x21
	sub	x27, x21, x23
	b.lo	.LBB2_704
	b	.LBB2_709
.LBB2_708:
	ldrb	w9, [x19, x8]
	add	x8, x8, x9
	add	x8, x8, #1
	cmp	x8, x21
	b.lo	.LBB2_708
.LBB2_709:
	ldr	x19, [sp, #96]
	add	x0, sp, #200
	sub	x2, x21, x23
	mov	x20, x4
	sub	x4, x4, x25
	mov	x3, x23
	mov	x1, x19
	mov	x5, x25
	mov	x6, xzr
	mov	w7, #4
	bl	"arithmetic::multiply::expr_mul"
	mov	x2, x19
	ldrb	w13, [sp, #200]
	ldrb	w8, [sp, #201]
	ldr	x19, [sp, #208]
	ldr	x0, [sp, #104]
	mov	x4, x20
	b	.LBB2_755
.LBB2_710:
	mov	w13, wzr
	mov	w8, wzr
	mov	x19, xzr
	cbnz	w13, .LBB2_757
	b	.LBB2_780
.LBB2_711:
	ldp	x2, x0, [sp, #96]
	mov	x19, xzr
	ldr	x3, [sp, #112]
	ldr	x5, [sp, #88]
	mov	w8, #6
	ldr	x25, [sp, #32]
	mov	w13, #1
	mov	x4, x23
.LBB2_712:
	ldr	x27, [sp, #64]
	ldr	x23, [sp, #8]
	cbnz	w13, .LBB2_757
	b	.LBB2_780
.LBB2_713:
	mov	w8, #6
.LBB2_714:
	ldr	x0, [sp, #104]
	ldr	x5, [sp, #88]
	mov	x2, x27
	cmp	x28, #129
	b.hs	.LBB2_721
	b	.LBB2_804
.LBB2_715:
	mov	w19, #1
	b	.LBB2_771
.LBB2_716:
	mov	w8, #11
	cmp	x28, #129
	b.hs	.LBB2_721
	b	.LBB2_804
.LBB2_717:
	mov	w8, #11
	b	.LBB2_719
.LBB2_718:
	mov	w8, #12
.LBB2_719:
	ldp	x2, x0, [sp, #96]
	ldr	x5, [sp, #88]
	ldr	x28, [sp, #24]
.LBB2_720:
	cmp	x28, #129
	b.lo	.LBB2_804
.LBB2_721:
	movi	d0, #0000000000000000
	fmov	d1, #1.00000000
	ldr	x9, [x2, #32]
	ldr	x10, [x2, #48]
	b	.LBB2_723
.LBB2_722:
	cmp	x11, #128
	mov	x28, x11
	b.ls	.LBB2_804
.LBB2_723:
	add	x11, x10, x28
	ldurb	w12, [x11, #-1]
	sub	x11, x28, x12
	cmp	x11, x28
	b.hs	.LBB2_722
	mov	w13, #24
	mul	x14, x28, x13
	umsubl	x14, w12, w13, x14
	neg	x12, x12
	add	x13, x20, x28
	add	x14, x9, x14
	b	.LBB2_726
.LBB2_725:
	adds	x12, x12, #1
	b.hs	.LBB2_722
.LBB2_726:
	ldrb	w15, [x13, x12]
	ldr	d2, [x14], #24
	cmp	w15, #1
	b.ne	.LBB2_725
	fcmp	d2, d0
	b.eq	.LBB2_725
	fcmp	d2, d1
	b.eq	.LBB2_725
	b	.LBB2_23
.LBB2_729:
	mov	w9, wzr
	mov	w8, wzr
.LBB2_730:
	mov	x0, x23
	mov	x4, x25
	mov	x3, x22
	mov	x5, x20
	mov	x28, x15
	mov	x27, x16
	b	.LBB2_748
.LBB2_731:
	mov	w8, #12
.LBB2_732:
	mov	x0, x24
	mov	x2, x21
	mov	x5, x19
	b	.LBB2_758
.LBB2_733:
	mov	x19, xzr
	mov	w8, #17
	b	.LBB2_768
.LBB2_734:
	mov	x19, xzr
	mov	w8, #14
	b	.LBB2_768
.LBB2_735:
	mov	x24, xzr
	mov	x2, x9
	mov	x28, x17
	b	.LBB2_800
.LBB2_736:
	mov	w8, #13
	mov	x2, x9
	mov	x28, x17
	cmp	x17, #129
	b.hs	.LBB2_721
	b	.LBB2_804
.LBB2_737:
	fcmp	d1, d0
	cset	w8, mi
	//APP
	//NO_APP
	cbz	w8, .LBB2_790
	mov	x8, xzr
	mov	x10, xzr
.LBB2_739:
	ldr	x11, [x9, #32]
	fmov	d1, #0.50000000
	ldr	x20, [x9]
	ldr	d2, [x11, x8]
	ldrb	w12, [x20, x10]
	fmul	d1, d2, d1
	movi	d2, #0000000000000000
	cmp	w12, #1
	fcsel	d1, d1, d2, eq
	fsub	d2, d1, d1
	fcmp	d2, d0
	b.ne	.LBB2_803
	adrp	x12, .LCPI2_1
	add	x10, x10, #1
	add	x11, x11, x8
	ldr	q2, [x12, :lo12:.LCPI2_1]
	cmp	x27, x10
	add	x8, x8, #24
	str	d1, [x11]
	stur	q2, [x11, #8]
	b.ne	.LBB2_739
	b	.LBB2_793
.LBB2_741:
	mov	x19, xzr
	mov	w8, #17
.LBB2_742:
	mov	w13, #1
	b	.LBB2_752
.LBB2_743:
	ldr	x24, [sp, #136]
	cbz	x24, .LBB2_746
	add	x13, sp, #1, lsl #12
	ldr	x9, [x21]
	ldr	x10, [x21, #16]
	ldr	x11, [x21, #32]
	add	x12, sp, #200
	add	x13, x13, #712
	sub	x14, x29, #248
	mov	x8, xzr
	add	x12, x12, #1536
	add	x13, x13, #64
	add	x14, x14, #64
.LBB2_745:
	ldrb	w15, [x14, x8]
	strb	w15, [x9, x8]
	ldrb	w15, [x13, x8]
	strb	w15, [x10, x8]
	add	x8, x8, #1
	ldr	x15, [x12, #16]
	ldr	q0, [x12], #24
	cmp	x24, x8
	str	x15, [x11, #16]
	str	q0, [x11], #24
	b.ne	.LBB2_745
.LBB2_746:
	mov	w9, wzr
	mov	w8, wzr
.LBB2_747:
	ldr	x3, [sp, #112]
	ldr	x27, [sp, #48]
	mov	x0, x22
	mov	x4, x26
	mov	x5, x25
.LBB2_748:
	mov	x2, x21
	cbz	w9, .LBB2_794
	ldr	x20, [x2]
	cmp	x28, #129
	b.hs	.LBB2_721
	b	.LBB2_804
.LBB2_750:
	ldr	x3, [sp, #112]
	ldr	x5, [sp, #88]
	mov	x0, x28
	mov	x2, x24
	mov	x4, x27
	mov	x23, x20
	mov	w13, #1
	b	.LBB2_595
.LBB2_751:
	ldr	x9, [sp, #96]
	strb	w19, [x23]
	mov	w13, wzr
	mov	w8, wzr
	ldr	x10, [x9, #16]
	strb	wzr, [x10]
	ldr	x9, [x9, #32]
	str	d0, [x9]
	stur	q2, [x9, #8]
.LBB2_752:
	mov	x27, x11
.LBB2_753:
	mov	x23, x20
.LBB2_754:
	ldp	x2, x0, [sp, #96]
	ldr	x4, [sp, #80]
.LBB2_755:
	ldr	x3, [sp, #112]
	ldr	x5, [sp, #88]
.LBB2_756:
	cbz	w13, .LBB2_780
.LBB2_757:
	ldr	x23, [x2]
.LBB2_758:
	cmp	x27, #129
	b.lo	.LBB2_804
	movi	d0, #0000000000000000
	fmov	d1, #1.00000000
	ldr	x9, [x2, #32]
	ldr	x10, [x2, #48]
	b	.LBB2_761
.LBB2_760:
	cmp	x11, #128
	mov	x27, x11
	b.ls	.LBB2_804
.LBB2_761:
	add	x11, x10, x27
	ldurb	w12, [x11, #-1]
	sub	x11, x27, x12
	cmp	x11, x27
	b.hs	.LBB2_760
	mov	w13, #24
	mul	x14, x27, x13
	umsubl	x14, w12, w13, x14
	neg	x12, x12
	add	x13, x23, x27
	add	x14, x9, x14
	b	.LBB2_764
.LBB2_763:
	adds	x12, x12, #1
	b.hs	.LBB2_760
.LBB2_764:
	ldrb	w15, [x13, x12]
	ldr	d2, [x14], #24
	cmp	w15, #1
	b.ne	.LBB2_763
	fcmp	d2, d0
	b.eq	.LBB2_763
	fcmp	d2, d1
	b.eq	.LBB2_763
	b	.LBB2_23
.LBB2_767:
	mov	x19, xzr
	mov	w8, #11
.LBB2_768:
	mov	w13, #1
	mov	x25, x7
	mov	x23, x20
	cbnz	w13, .LBB2_757
	b	.LBB2_780
.LBB2_769:
	and	x15, x25, #0x1f
	mov	x0, x12
	mov	x2, x11
	mov	x4, x13
	b	.LBB2_575
.LBB2_770:
	add	x19, x28, #1
.LBB2_771:
	mov	w8, #3
	strb	w8, [x23]
	ldr	x8, [x21, #16]
	strb	w28, [x8]
	adrp	x8, .LCPI2_1
	ldr	x9, [x21, #32]
	ldr	q0, [x8, :lo12:.LCPI2_1]
	str	d8, [x9]
	stur	q0, [x9, #8]
	ldr	x8, [x21]
	ldr	x9, [x21, #16]
	ldr	x10, [x21, #32]
	cbz	x27, .LBB2_776
	cbz	w28, .LBB2_779
	add	x11, x27, x27, lsl #1
	sub	x12, x26, x28
	mov	x14, xzr
	sub	x13, x12, x20
	mov	x23, x28
	lsl	x11, x11, #3
	add	x12, x9, x13
	add	x13, x8, x13
.LBB2_774:
	ldrb	w15, [x13, x14]
	add	x16, x8, x14
	strb	w15, [x16, #1]
	add	x16, x9, x14
	ldrb	w15, [x12, x14]
	add	x14, x14, #1
	cmp	x23, x14
	strb	w15, [x16, #1]
	add	x15, x10, x11
	ldr	x16, [x15, #16]
	ldr	q0, [x15]
	add	x15, x10, #24
	str	x16, [x10, #40]
	stur	q0, [x10, #24]
	mov	x10, x15
	b.ne	.LBB2_774
	mov	x22, xzr
	mov	x0, x24
	mov	x2, x21
	mov	x4, x26
	mov	x3, x25
	mov	x25, x20
	b	.LBB2_780
.LBB2_776:
	cbz	w28, .LBB2_779
	mov	w11, #24
	mov	x14, x28
	add	x12, x9, x28
	umaddl	x10, w14, w11, x10
	add	x13, x8, x28
	mov	x8, x28
	mov	x9, x13
	mov	x11, x12
.LBB2_778:
	ldrb	w14, [x9, #-1]!
	sub	x8, x8, #1
	strb	w14, [x13]
	ldrb	w13, [x11, #-1]!
	strb	w13, [x12]
	mov	x13, x9
	ldur	q0, [x10, #-24]
	ldur	x12, [x10, #-8]
	str	q0, [x10]
	str	x12, [x10, #16]
	sub	x10, x10, #24
	mov	x12, x11
	cbnz	x8, .LBB2_778
.LBB2_779:
	mov	x22, xzr
	mov	x0, x24
	mov	x2, x21
	mov	x4, x26
	mov	x3, x25
	mov	x25, x20
	mov	x23, x28
.LBB2_780:
	sub	x8, x3, x27
	cmp	x8, x19
	b.lo	.LBB2_795
	cbz	x27, .LBB2_785
	cbz	x19, .LBB2_785
	mov	w9, #24
	add	x10, x19, x4
	ldr	x11, [x2, #32]
	mul	x10, x10, x9
	add	x13, x25, x23
	ldr	x14, [x2]
	mov	x8, xzr
	madd	x12, x19, x9, x11
	umsubl	x10, w13, w9, x10
	mvn	x9, x23
	ldr	x13, [x2, #16]
	add	x15, x9, x4
	sub	x15, x15, x25
	sub	x9, x13, #1
	add	x11, x10, x11
	sub	x10, x12, #24
	add	x12, x13, x15
	sub	x11, x11, #24
	add	x13, x14, x15
	sub	x14, x14, #1
.LBB2_784:
	ldrb	w15, [x14, x19]
	add	x8, x8, #1
	sub	x14, x14, #1
	strb	w15, [x13, x19]
	cmp	x19, x8
	sub	x13, x13, #1
	ldrb	w15, [x9, x19]
	sub	x9, x9, #1
	strb	w15, [x12, x19]
	sub	x12, x12, #1
	ldr	x15, [x10, #16]
	ldr	q0, [x10], #-24
	str	x15, [x11, #16]
	str	q0, [x11], #-24
	b.ne	.LBB2_784
.LBB2_785:
	ldr	x9, [x2, #48]
	mov	w11, wzr
	mov	w8, wzr
	mov	w10, wzr
	add	x4, x19, x27
	add	x9, x9, x27
	add	x9, x9, x19
	sturb	w19, [x9, #-1]
	b	.LBB2_807
.LBB2_786:
	mov	w19, #1
	b	.LBB2_809
.LBB2_787:
	mov	x19, xzr
	mov	w13, #1
	mov	w8, #12
	b	.LBB2_818
.LBB2_788:
	sub	x27, x14, x13
	mov	x23, x13
	mov	x21, x14
	add	x10, x27, x9
	b	.LBB2_657
.LBB2_789:
	add	x11, x21, x9
	mov	x25, x13
	sub	x27, x21, x23
	b	.LBB2_679
.LBB2_790:
	fcmp	d0, d1
	mov	x8, xzr
	mov	x10, xzr
	b.ne	.LBB2_802
.LBB2_791:
	ldr	x11, [x9, #32]
	fmov	d1, #0.50000000
	ldr	x20, [x9]
	ldr	d2, [x11, x8]
	ldrb	w12, [x20, x10]
	fmul	d1, d2, d1
	movi	d2, #0000000000000000
	cmp	w12, #1
	fcsel	d1, d1, d2, eq
	fsub	d2, d1, d1
	fcmp	d2, d0
	b.ne	.LBB2_803
	adrp	x12, .LCPI2_1
	add	x10, x10, #1
	add	x11, x11, x8
	ldr	q2, [x12, :lo12:.LCPI2_1]
	cmp	x27, x10
	add	x8, x8, #24
	str	d1, [x11]
	stur	q2, [x11, #8]
	b.ne	.LBB2_791
.LBB2_793:
	mov	x24, x27
	mov	x2, x9
.LBB2_794:
	sub	x8, x3, x28
	cmp	x8, x24
	b.hs	.LBB2_796
.LBB2_795:
	mov	w10, wzr
	mov	x4, xzr
	mov	x22, xzr
	mov	w8, #11
	b	.LBB2_806
.LBB2_796:
	cbz	x28, .LBB2_800
	cbz	x24, .LBB2_800
	mov	w9, #24
	add	x10, x24, x4
	ldr	x11, [x2, #32]
	mul	x10, x10, x9
	ldr	x13, [x2, #16]
	ldr	x14, [x2]
	mov	x8, xzr
	madd	x12, x24, x9, x11
	umsubl	x9, w27, w9, x10
	mvn	x10, x27
	add	x15, x10, x4
	add	x11, x9, x11
	sub	x9, x13, #1
	sub	x10, x12, #24
	sub	x11, x11, #24
	add	x12, x13, x15
	add	x13, x14, x15
	sub	x14, x14, #1
.LBB2_799:
	ldrb	w15, [x14, x24]
	add	x8, x8, #1
	sub	x14, x14, #1
	strb	w15, [x13, x24]
	cmp	x24, x8
	sub	x13, x13, #1
	ldrb	w15, [x9, x24]
	sub	x9, x9, #1
	strb	w15, [x12, x24]
	sub	x12, x12, #1
	ldr	x15, [x10, #16]
	ldr	q0, [x10], #-24
	str	x15, [x11, #16]
	str	q0, [x11], #-24
	b.ne	.LBB2_799
.LBB2_800:
	ldr	x9, [x2, #48]
	mov	w11, wzr
	mov	w8, wzr
	mov	w10, wzr
	mov	x22, xzr
	add	x4, x24, x28
	add	x9, x9, x28
	add	x9, x9, x24
	sturb	w24, [x9, #-1]
	b	.LBB2_807
.LBB2_801:
	add	x11, x11, x8
	add	x10, x10, #1
	mov	x12, #4607182418800017408
	ldr	d3, [x11, #16]
	cmp	x27, x10
	add	x8, x8, #24
	str	d2, [x11]
	fmul	d1, d3, d1
	str	x12, [x11, #8]
	str	d1, [x11, #16]
	b.eq	.LBB2_793
.LBB2_802:
	ldr	x11, [x9, #32]
	fmov	d1, #0.50000000
	ldr	x20, [x9]
	movi	d3, #0000000000000000
	ldr	d2, [x11, x8]
	ldrb	w12, [x20, x10]
	fmul	d2, d2, d1
	cmp	w12, #1
	fcsel	d2, d2, d3, eq
	fsub	d3, d2, d2
	fcmp	d3, d0
	b.eq	.LBB2_801
.LBB2_803:
	mov	w8, #17
	mov	x2, x9
	cmp	x28, #129
	b.hs	.LBB2_721
.LBB2_804:
	mov	w9, wzr
.LBB2_805:
	cmp	x5, #1
	mov	x4, xzr
	mov	x22, xzr
	csinc	w10, w9, wzr, ls
.LBB2_806:
	mov	w11, #1
.LBB2_807:
	strb	w11, [x0]
	strb	w8, [x0, #1]
	strb	w10, [x0, #2]
	stp	x4, x22, [x0, #8]
	add	sp, sp, #1, lsl #12
	add	sp, sp, #1104
	ldp	x20, x19, [sp, #128]
	ldp	x22, x21, [sp, #112]
	ldp	x24, x23, [sp, #96]
	ldp	x26, x25, [sp, #80]
	ldp	x28, x27, [sp, #64]
	ldp	x29, x30, [sp, #48]
	ldp	d9, d8, [sp, #32]
	ldp	d11, d10, [sp, #16]
	ldp	d13, d12, [sp], #144
	ret
.LBB2_808:
	ldr	x8, [sp, #32]
	add	x19, x8, #1
.LBB2_809:
	mov	w8, #2
	ldr	x11, [sp, #32]
	strb	w8, [x26]
	ldr	x8, [x24, #16]
	cmp	x27, x11
	strb	w11, [x8]
	adrp	x8, .LCPI2_1
	ldr	x9, [x24, #32]
	ldr	q0, [x8, :lo12:.LCPI2_1]
	str	xzr, [x9]
	stur	q0, [x9, #8]
	ldr	x8, [x24]
	ldr	x9, [x24, #16]
	ldr	x10, [x24, #32]
	b.ne	.LBB2_813
	ldr	x11, [sp, #32]
	cbz	w11, .LBB2_816
	mov	w11, #24
	add	x12, x9, x27
	add	x13, x8, x27
	madd	x10, x27, x11, x10
	mov	x8, x27
	mov	x9, x13
	mov	x11, x12
.LBB2_812:
	ldrb	w14, [x9, #-1]!
	sub	x8, x8, #1
	strb	w14, [x13]
	ldrb	w13, [x11, #-1]!
	strb	w13, [x12]
	mov	x13, x9
	ldur	q0, [x10, #-24]
	ldur	x12, [x10, #-8]
	str	q0, [x10]
	str	x12, [x10, #16]
	sub	x10, x10, #24
	mov	x12, x11
	cbnz	x8, .LBB2_812
	b	.LBB2_817
.LBB2_813:
	ldr	x11, [sp, #32]
	cbz	w11, .LBB2_816
	mov	w11, #24
	ldr	x17, [sp, #32]
	mov	x14, xzr
	mul	x12, x27, x11
	add	x13, x8, x21
	umsubl	x11, w17, w11, x12
	add	x12, x9, x21
.LBB2_815:
	ldrb	w15, [x13, x14]
	add	x16, x8, x14
	strb	w15, [x16, #1]
	add	x16, x9, x14
	ldrb	w15, [x12, x14]
	add	x14, x14, #1
	cmp	x17, x14
	strb	w15, [x16, #1]
	add	x15, x10, x11
	ldr	x16, [x15, #16]
	ldr	q0, [x15]
	add	x15, x10, #24
	str	x16, [x10, #40]
	stur	q0, [x10, #24]
	mov	x10, x15
	b.ne	.LBB2_815
.LBB2_816:
	mov	w8, wzr
.LBB2_817:
	mov	w13, wzr
.LBB2_818:
	ldr	x3, [sp, #112]
	ldr	x5, [sp, #88]
	mov	x0, x28
	mov	x2, x24
	mov	x4, x27
	mov	x23, x20
	b	.LBB2_595
.Lfunc_end2:
	.size	"stack::leaf::leaf", .Lfunc_end2-"stack::leaf::leaf"
	.section	".rodata.stack::leaf::leaf","a",@progbits
	.p2align	2, 0x0
.LJTI2_0:
	.word	.LBB2_85-.Ltmp0
	.word	.LBB2_291-.Ltmp0
	.word	.LBB2_276-.Ltmp0
	.word	.LBB2_376-.Ltmp0
	.word	.LBB2_376-.Ltmp0
	.word	.LBB2_376-.Ltmp0
	.word	.LBB2_376-.Ltmp0
	.word	.LBB2_376-.Ltmp0
	.word	.LBB2_352-.Ltmp0
	.word	.LBB2_358-.Ltmp0
	.word	.LBB2_283-.Ltmp0
	.word	.LBB2_338-.Ltmp0
	.word	.LBB2_376-.Ltmp0
	.word	.LBB2_376-.Ltmp0
	.word	.LBB2_376-.Ltmp0
	.word	.LBB2_376-.Ltmp0
	.word	.LBB2_376-.Ltmp0
	.word	.LBB2_376-.Ltmp0
	.word	.LBB2_376-.Ltmp0
	.word	.LBB2_376-.Ltmp0
	.word	.LBB2_376-.Ltmp0
	.word	.LBB2_376-.Ltmp0
	.word	.LBB2_376-.Ltmp0
	.word	.LBB2_376-.Ltmp0
	.word	.LBB2_376-.Ltmp0
	.word	.LBB2_376-.Ltmp0
	.word	.LBB2_376-.Ltmp0
	.word	.LBB2_340-.Ltmp0
	.word	.LBB2_368-.Ltmp0
	.word	.LBB2_376-.Ltmp0
	.word	.LBB2_362-.Ltmp0
	.word	.LBB2_272-.Ltmp0
	.word	.LBB2_287-.Ltmp0

	.section	".text.sums::order::nests_inside","ax",@progbits
	.p2align	2
	.type	"sums::order::nests_inside",@function
"sums::order::nests_inside":
	cbz	x3, .LBB3_6
	stp	x29, x30, [sp, #-64]!
	str	x23, [sp, #16]
	add	x23, x2, x1
	mov	x29, sp
	cmp	x1, x23
	stp	x22, x21, [sp, #32]
	stp	x20, x19, [sp, #48]
	b.hs	.LBB3_7
	mov	x19, x0
	sub	x20, x3, #1
.LBB3_3:
	ldrb	w21, [x19, x1]
	add	x22, x1, #1
	mov	x0, x19
	mov	x1, x22
	mov	x3, x20
	mov	x2, x21
	bl	"sums::order::nests_inside"
	cbz	w0, .LBB3_5
	add	x1, x22, x21
	cmp	x1, x23
	b.lo	.LBB3_3
.LBB3_5:
	ldp	x20, x19, [sp, #48]
	ldr	x23, [sp, #16]
	ldp	x22, x21, [sp, #32]
	ldp	x29, x30, [sp], #64
	ret
.LBB3_6:
	cmp	x2, #0
	cset	w0, eq
	ret
.LBB3_7:
	mov	w0, #1
	ldp	x20, x19, [sp, #48]
	ldr	x23, [sp, #16]
	ldp	x22, x21, [sp, #32]
	ldp	x29, x30, [sp], #64
	ret
.Lfunc_end3:
	.size	"sums::order::nests_inside", .Lfunc_end3-"sums::order::nests_inside"

	.section	".text.sums::order::cmp_term","ax",@progbits
	.p2align	2
	.type	"sums::order::cmp_term",@function
"sums::order::cmp_term":
	ldrb	w8, [x3]
	ldrb	w9, [x1]
	mov	w10, #1
	ldr	d0, [x1, #8]
	ldr	d1, [x3, #8]
	cmp	w8, w9
	cinc	w11, w10, lo
	cmp	w9, w8
	csel	w8, wzr, w11, lo
	fcmp	d0, d1
	cset	w9, mi
	fcmp	d1, d0
	//APP
	//NO_APP
	cset	w11, mi
	//APP
	//NO_APP
	cmp	w11, #0
	cinc	w10, w10, ne
	cmp	w9, #0
	csel	w9, wzr, w10, ne
	cmp	w8, #1
	csel	w8, w9, w8, eq
	cmp	w8, #1
	b.ne	.LBB4_15
	sub	sp, sp, #208
	ldrb	w8, [x1, #1]
	stp	x24, x23, [sp, #160]
	ldrb	w9, [x3, #1]
	ldr	x24, [x0, #16]
	stp	d11, d10, [sp, #80]
	add	x23, x2, x8
	stp	d9, d8, [sp, #96]
	cmp	x2, x23
	stp	x29, x30, [sp, #112]
	add	x29, sp, #112
	stp	x28, x27, [sp, #128]
	stp	x26, x25, [sp, #144]
	stp	x22, x21, [sp, #176]
	stp	x20, x19, [sp, #192]
	b.lo	.LBB4_3
	mov	x8, xzr
	b	.LBB4_5
.LBB4_3:
	mov	x8, xzr
	mov	x10, x2
.LBB4_4:
	ldrb	w11, [x24, x10]
	add	x8, x8, #1
	add	x10, x10, x11
	add	x10, x10, #1
	cmp	x10, x23
	b.lo	.LBB4_4
.LBB4_5:
	add	x10, x4, x9
	cmp	x4, x10
	b.hs	.LBB4_8
	mov	x9, xzr
	mov	x11, x4
.LBB4_7:
	ldrb	w12, [x24, x11]
	add	x9, x9, #1
	add	x11, x11, x12
	add	x11, x11, #1
	cmp	x11, x10
	b.lo	.LBB4_7
	b	.LBB4_9
.LBB4_8:
	mov	x9, xzr
.LBB4_9:
	cmp	x9, x8
	mov	w10, #1
	cinc	w10, w10, lo
	cmp	x8, x9
	csel	w10, wzr, w10, lo
	cmp	x9, x8
	csinc	w8, w10, wzr, ne
	b.ne	.LBB4_14
	cmp	x2, x23
	b.hs	.LBB4_14
	ldr	x8, [x0, #32]
	ldr	x26, [x0]
	add	x9, sp, #16
	orr	x28, x9, #0x2
	str	x8, [sp, #8]
	add	x8, sp, #48
	orr	x27, x8, #0x2
	sub	x8, x5, #1
	str	x8, [sp]
.LBB4_12:
	mov	w8, #24
	ldp	x5, x12, [sp]
	ldrb	w9, [x26, x2]
	madd	x10, x2, x8, x12
	ldrb	w11, [x26, x4]
	ldrb	w19, [x24, x2]
	ldrb	w20, [x24, x4]
	add	x22, x2, #1
	add	x21, x4, #1
	madd	x8, x4, x8, x12
	add	x1, sp, #48
	add	x3, sp, #16
	mov	x2, x22
	mov	x4, x21
	str	wzr, [x27]
	mov	x25, x0
	ldr	q0, [x10]
	ldp	d9, d8, [x10, #8]
	strh	wzr, [x27, #4]
	ldp	d11, d10, [x8, #8]
	stur	q0, [sp, #56]
	ldr	q0, [x8]
	strb	w9, [sp, #48]
	strb	w11, [sp, #16]
	strh	wzr, [x28, #4]
	strb	w19, [sp, #49]
	strb	w20, [sp, #17]
	str	d8, [sp, #72]
	str	wzr, [x28]
	stur	q0, [sp, #24]
	str	d10, [sp, #40]
	bl	"sums::order::cmp_term"
	fcmp	d9, d11
	cset	w8, mi
	fcmp	d11, d9
	//APP
	//NO_APP
	cset	w9, mi
	//APP
	//NO_APP
	cmp	w9, #0
	mov	w9, #1
	cinc	w10, w9, ne
	cmp	w8, #0
	csel	w8, wzr, w10, ne
	fcmp	d8, d10
	cset	w10, mi
	fcmp	d10, d8
	//APP
	//NO_APP
	cset	w11, mi
	//APP
	//NO_APP
	cmp	w11, #0
	cinc	w9, w9, ne
	cmp	w10, #0
	and	w10, w0, #0xff
	csel	w9, wzr, w9, ne
	cmp	w8, #1
	csel	w8, w9, w8, eq
	cmp	w10, #1
	csel	w8, w8, w10, eq
	cmp	w8, #1
	b.ne	.LBB4_14
	add	x2, x22, x19
	add	x4, x21, x20
	mov	x0, x25
	cmp	x2, x23
	b.lo	.LBB4_12
.LBB4_14:
	ldp	x20, x19, [sp, #192]
	ldp	x22, x21, [sp, #176]
	ldp	x24, x23, [sp, #160]
	ldp	x26, x25, [sp, #144]
	ldp	x28, x27, [sp, #128]
	ldp	x29, x30, [sp, #112]
	ldp	d9, d8, [sp, #96]
	ldp	d11, d10, [sp, #80]
	add	sp, sp, #208
.LBB4_15:
	mov	w0, w8
	ret
.Lfunc_end4:
	.size	"sums::order::cmp_term", .Lfunc_end4-"sums::order::cmp_term"

	.section	".text.powers::divide::div_term","ax",@progbits
	.p2align	2
	.type	"powers::divide::div_term",@function
"powers::divide::div_term":
	sub	sp, sp, #336
	ldp	d0, d1, [x3, #16]
	adrp	x8, .Lstatic.1
	add	x8, x8, :lo12:.Lstatic.1
	ldp	d2, d3, [x2, #16]
	stp	d9, d8, [sp, #224]
	ldrb	w9, [x2]
	ldrb	w10, [x3]
	fmul	d4, d0, d0
	fmul	d5, d1, d1
	stp	d11, d10, [sp, #208]
	fmul	d6, d2, d0
	fmul	d7, d3, d1
	add	x8, x8, w9, uxtw #3
	fmul	d0, d3, d0
	fmul	d1, d2, d1
	movi	d10, #0000000000000000
	add	x8, x8, x10
	stp	x22, x21, [sp, #304]
	mov	x21, x5
	fadd	d4, d4, d5
	ldurb	w12, [x8, #-9]
	ldrb	w8, [x3, #1]
	fadd	d5, d6, d7
	mov	x22, x4
	stp	d15, d14, [sp, #176]
	fsub	d0, d0, d1
	cmp	w12, #2
	stp	d13, d12, [sp, #192]
	stp	x29, x30, [sp, #240]
	add	x29, sp, #240
	stp	x28, x27, [sp, #256]
	fdiv	d8, d5, d4
	stp	x26, x25, [sp, #272]
	stp	x24, x23, [sp, #288]
	stp	x20, x19, [sp, #320]
	fdiv	d9, d0, d4
	ldr	d0, [x2, #8]
	b.eq	.LBB5_6
	fmul	d1, d9, d10
	fmul	d2, d8, d10
	ldr	x11, [x3, #8]
	cmp	w12, #3
	fsub	d10, d8, d1
	fadd	d8, d9, d2
	b.ne	.LBB5_10
	ldr	x9, [x1]
	cmp	x22, #65
	strb	w10, [x9, #64]
	mov	x10, #4607182418800017408
	ldr	x9, [x1, #16]
	strb	w8, [x9, #64]
	ldr	x9, [x1, #32]
	str	x11, [x9, #1536]
	str	x10, [x9, #1544]
	str	xzr, [x9, #1552]
	ldr	x10, [x1]
	ldr	x11, [x1, #16]
	ldr	x12, [x1, #32]
	b.hs	.LBB5_63
	cbz	w8, .LBB5_66
	mov	w13, #24
	add	x14, x22, x8
	sub	x17, x22, #1
	madd	x16, x14, x13, x12
	mov	x9, xzr
	add	x14, x10, #64
	add	x10, x10, x17
	umaddl	x15, w8, w13, x12
	add	x13, x11, #64
	add	x11, x11, x17
	add	x12, x15, #1536
	sub	x15, x16, #24
.LBB5_5:
	ldrb	w16, [x10, x8]
	add	x9, x9, #1
	sub	x10, x10, #1
	strb	w16, [x14, x8]
	sub	x14, x14, #1
	cmp	x8, x9
	ldrb	w16, [x11, x8]
	sub	x11, x11, #1
	strb	w16, [x13, x8]
	sub	x13, x13, #1
	ldr	x16, [x15, #16]
	ldr	q0, [x15], #-24
	str	x16, [x12, #16]
	str	q0, [x12], #-24
	b.ne	.LBB5_5
	b	.LBB5_66
.LBB5_6:
	cmp	w9, #1
	b.ne	.LBB5_70
	fmov	d1, d0
	fcmp	d1, d10
	b.ne	.LBB5_70
	add	x24, x22, x8
	cmp	x22, x24
	b.hs	.LBB5_98
	sub	x8, x29, #104
	add	x9, sp, #104
	str	x1, [sp, #32]
	orr	x8, x8, #0x2
	str	x24, [sp]
	str	x8, [sp, #16]
	orr	x8, x9, #0x2
	stp	x0, x8, [sp, #40]
	b	.LBB5_20
.LBB5_10:
	fmov	d1, #1.00000000
	cmp	w12, #1
	b.ne	.LBB5_14
	fmov	d1, x11
	cmp	w9, #1
	b.ne	.LBB5_106
	movi	d2, #0000000000000000
	fmov	d3, d0
	fcmp	d3, d2
	b.ne	.LBB5_106
	fneg	d1, d1
.LBB5_14:
	ldr	x8, [x1]
	mov	x11, xzr
	cbz	x21, .LBB5_107
.LBB5_15:
	ldrb	w9, [x8, x11]
	cmp	w9, #1
	b.ne	.LBB5_107
	add	x11, x11, #1
	cmp	x21, x11
	b.ne	.LBB5_15
	mov	x11, x21
	b	.LBB5_107
.LBB5_18:
	mov	w11, #1
	strb	w11, [x27, x9]
	mov	x21, x10
	ldr	x11, [x1, #16]
	strb	wzr, [x11, x9]
	ldr	x9, [x1, #32]
	add	x8, x9, x8
	stp	d11, d0, [x8, #-16]
	str	d1, [x8]
.LBB5_19:
	add	x22, x28, x23
	cmp	x22, x24
	b.hs	.LBB5_147
.LBB5_20:
	mov	w8, #24
	ldr	x19, [x1, #32]
	ldr	x27, [x1]
	madd	x8, x22, x8, x19
	ldr	x25, [x1, #16]
	add	x28, x22, #1
	ldrb	w10, [x27, x22]
	ldrb	w23, [x25, x22]
	cmp	w10, #1
	ldp	d0, d1, [x8, #8]
	ldr	d11, [x8]
	fmul	d2, d8, d0
	fmul	d3, d9, d1
	fmul	d1, d8, d1
	fmul	d0, d9, d0
	fsub	d13, d2, d3
	fadd	d12, d0, d1
	b.ne	.LBB5_32
	mov	x10, xzr
	cbz	x21, .LBB5_25
.LBB5_22:
	ldrb	w8, [x27, x10]
	cmp	w8, #1
	b.ne	.LBB5_25
	add	x10, x10, #1
	cmp	x21, x10
	b.ne	.LBB5_22
	mov	x10, x21
.LBB5_25:
	fsub	d0, d11, d11
	fcmp	d0, d10
	b.ne	.LBB5_196
	mov	w8, #24
	mov	x9, #16
	fmov	d0, d11
	madd	x11, x10, x8, x9
.LBB5_27:
	mov	x9, x10
	mov	x8, x11
	cbz	x10, .LBB5_36
	add	x10, x19, x8
	ldur	d1, [x10, #-40]
	fcmp	d0, d1
	cset	w10, mi
	fcmp	d1, d0
	//APP
	//NO_APP
	cset	w11, mi
	//APP
	//NO_APP
	cmp	w11, #0
	mov	w11, #1
	cinc	w11, w11, ne
	cmp	w10, #0
	sub	x10, x9, #1
	csel	w12, wzr, w11, ne
	sub	x11, x8, #24
	cbz	w12, .LBB5_27
	cmp	w12, #1
	b.ne	.LBB5_36
	add	x8, x19, x11
	ldp	d0, d1, [x8, #-8]
	fadd	d0, d13, d0
	fadd	d1, d12, d1
	fsub	d2, d0, d0
	fsub	d3, d1, d1
	fcmp	d2, d10
	fccmp	d3, d10, #0, eq
	b.ne	.LBB5_197
	stur	d0, [x8, #-8]
	str	d1, [x19, x11]
	b	.LBB5_19
.LBB5_32:
	fsub	d0, d11, d11
	fcmp	d0, d10
	b.ne	.LBB5_146
	add	x8, x22, #1
	ldr	x9, [x1, #24]
	mov	x26, xzr
	str	x8, [sp, #8]
	ldr	x8, [x1, #8]
	str	x27, [sp, #56]
	stp	x8, x25, [sp, #64]
	ldr	x8, [x1, #40]
	stp	x9, x19, [sp, #80]
	str	x8, [sp, #96]
	ldr	x8, [sp, #16]
	str	w10, [sp, #28]
	sturb	w10, [x29, #-104]
	sturb	w23, [x29, #-103]
	str	wzr, [x8]
	strh	wzr, [x8, #4]
	stp	d11, d13, [x29, #-96]
	stur	d12, [x29, #-80]
	cbz	x21, .LBB5_43
.LBB5_34:
	mov	w8, #24
	ldr	x9, [sp, #48]
	ldrb	w28, [x25, x26]
	madd	x20, x26, x8, x19
	ldrb	w8, [x27, x26]
	add	x0, sp, #56
	sub	x1, x29, #104
	add	x2, x22, #1
	add	x3, sp, #104
	add	x4, x26, #1
	mov	w5, #4
	str	wzr, [x9]
	strh	wzr, [x9, #4]
	add	x24, x26, #1
	strb	w8, [sp, #104]
	ldp	d15, d14, [x20, #8]
	ldr	q0, [x20]
	strb	w28, [sp, #105]
	stur	q0, [sp, #112]
	str	d14, [sp, #128]
	bl	"sums::order::cmp_term"
	and	w8, w0, #0xff
	cmp	w8, #2
	b.ne	.LBB5_42
	add	x26, x24, x28
	cmp	x26, x21
	b.lo	.LBB5_34
	b	.LBB5_43
.LBB5_36:
	movi	d1, #0000000000000000
	fadd	d0, d13, d1
	fadd	d1, d12, d1
	fsub	d2, d0, d0
	fsub	d3, d1, d1
	fcmp	d2, d10
	fccmp	d3, d10, #0, eq
	b.ne	.LBB5_197
	add	x10, x21, #1
	cmp	x10, #64
	b.hi	.LBB5_200
	cmp	x9, x21
	b.hs	.LBB5_18
	mov	w11, #24
	add	x14, x25, x21
	add	x15, x27, x21
	madd	x13, x21, x11, x19
	mov	x11, x15
	mov	x12, x14
.LBB5_40:
	ldrb	w16, [x11, #-1]!
	sub	x21, x21, #1
	cmp	x9, x21
	strb	w16, [x15]
	ldrb	w15, [x12, #-1]!
	strb	w15, [x14]
	mov	x15, x11
	ldur	q2, [x13, #-24]
	ldur	x14, [x13, #-8]
	str	q2, [x13]
	str	x14, [x13, #16]
	sub	x13, x13, #24
	mov	x14, x12
	b.lo	.LBB5_40
	ldr	x27, [x1]
	b	.LBB5_18
.LBB5_42:
	cbnz	w8, .LBB5_59
.LBB5_43:
	movi	d0, #0000000000000000
	fadd	d13, d13, d0
	fadd	d12, d12, d0
	fsub	d0, d13, d13
	fsub	d1, d12, d12
	fcmp	d0, d10
	fccmp	d1, d10, #0, eq
	b.ne	.LBB5_146
	cbz	w23, .LBB5_46
	add	x1, x22, #1
	mov	x0, x25
	mov	x2, x23
	mov	w3, #3
	bl	"sums::order::nests_inside"
	cbz	w0, .LBB5_201
.LBB5_46:
	add	x8, x21, x23
	add	x8, x8, #1
	cmp	x8, #64
	b.hi	.LBB5_199
	ldr	x1, [sp, #32]
	cmp	x26, x21
	add	x28, x22, #1
	b.hs	.LBB5_51
	mov	w9, #24
	add	x10, x21, x23
	add	x11, x27, x23
	madd	x12, x21, x9, x19
	madd	x9, x10, x9, x19
	add	x10, x25, x23
	sub	x12, x12, #24
.LBB5_49:
	add	x13, x27, x21
	add	x14, x25, x21
	ldurb	w13, [x13, #-1]
	strb	w13, [x11, x21]
	ldurb	w13, [x14, #-1]
	strb	w13, [x10, x21]
	sub	x21, x21, #1
	ldr	x13, [x12, #16]
	ldr	q0, [x12], #-24
	cmp	x26, x21
	str	x13, [x9, #16]
	str	q0, [x9], #-24
	b.lo	.LBB5_49
	ldr	x27, [x1]
.LBB5_51:
	ldr	w9, [sp, #28]
	mov	w10, #24
	strb	w9, [x27, x26]
	ldr	x9, [x1, #16]
	strb	w23, [x9, x26]
	ldr	x9, [x1, #32]
	madd	x9, x26, x10, x9
	stp	d11, d13, [x9]
	str	d12, [x9, #16]
	add	x9, x26, #1
	ldr	x15, [x1]
	ldr	x14, [x1, #16]
	ldr	x11, [x1, #32]
	cmp	x9, x28
	b.ls	.LBB5_55
	cbz	w23, .LBB5_58
	add	x10, x26, x23
	mov	w12, #24
	add	x13, x22, x23
	madd	x10, x10, x12, x11
	mov	x9, xzr
	madd	x11, x13, x12, x11
	add	x12, x14, x26
	add	x13, x15, x26
	add	x14, x14, x22
	add	x15, x15, x22
.LBB5_54:
	ldrb	w16, [x15, x23]
	add	x9, x9, #1
	sub	x15, x15, #1
	strb	w16, [x13, x23]
	sub	x13, x13, #1
	cmp	x23, x9
	ldrb	w16, [x14, x23]
	sub	x14, x14, #1
	strb	w16, [x12, x23]
	sub	x12, x12, #1
	ldr	x16, [x11, #16]
	ldr	q0, [x11], #-24
	str	x16, [x10, #16]
	str	q0, [x10], #-24
	b.ne	.LBB5_54
	b	.LBB5_58
.LBB5_55:
	cbz	w23, .LBB5_58
	mov	w12, #24
	add	x11, x11, #24
	add	x14, x14, #1
	madd	x10, x26, x12, x11
	add	x15, x15, #1
	mov	x9, xzr
	add	x13, x15, x26
	add	x15, x15, x22
	madd	x11, x22, x12, x11
	add	x12, x14, x26
	add	x14, x14, x22
.LBB5_57:
	ldrb	w16, [x15, x9]
	strb	w16, [x13, x9]
	ldrb	w16, [x14, x9]
	strb	w16, [x12, x9]
	add	x9, x9, #1
	ldr	x16, [x11, #16]
	ldr	q0, [x11], #24
	cmp	x23, x9
	str	x16, [x10, #16]
	str	q0, [x10], #24
	b.ne	.LBB5_57
.LBB5_58:
	ldr	x24, [sp]
	mov	x21, x8
	b	.LBB5_19
.LBB5_59:
	fadd	d11, d13, d15
	fadd	d12, d12, d14
	ldr	x24, [sp]
	fsub	d0, d11, d11
	fsub	d1, d12, d12
	fcmp	d0, d10
	fccmp	d1, d10, #0, eq
	b.ne	.LBB5_146
	ldr	x28, [sp, #8]
	cbz	w23, .LBB5_62
	mov	x0, x25
	mov	x1, x28
	mov	x2, x23
	mov	w3, #3
	bl	"sums::order::nests_inside"
	cbz	w0, .LBB5_201
.LBB5_62:
	ldr	x1, [sp, #32]
	stp	d11, d12, [x20, #8]
	b	.LBB5_19
.LBB5_63:
	cbz	w8, .LBB5_66
	add	x9, x22, x22, lsl #1
	mov	x13, x8
	lsl	x9, x9, #3
.LBB5_65:
	ldrb	w14, [x10, x22]
	add	x15, x12, x9
	subs	x13, x13, #1
	strb	w14, [x10, #65]
	add	x10, x10, #1
	ldrb	w14, [x11, x22]
	strb	w14, [x11, #65]
	add	x11, x11, #1
	ldr	x14, [x15, #16]
	ldr	q0, [x15]
	add	x15, x12, #1560
	str	x14, [x12, #1576]
	add	x12, x12, #24
	str	q0, [x15]
	b.ne	.LBB5_65
.LBB5_66:
	ldp	x25, x9, [x1]
	movi	d11, #0000000000000000
	ldp	x22, x10, [x1, #16]
	movi	d12, #0000000000000000
	add	w19, w8, #1
	mov	x24, xzr
	stp	x1, x0, [sp, #32]
	stp	x25, x9, [sp, #56]
	ldp	x26, x9, [x1, #32]
	stp	x22, x10, [sp, #72]
	mov	w10, #2
	sturb	w10, [x29, #-104]
	stp	x26, x9, [sp, #88]
	sturb	w19, [x29, #-103]
	stur	xzr, [x29, #-102]
	stur	xzr, [x29, #-96]
	stp	d10, d8, [x29, #-88]
	cbz	x21, .LBB5_100
	add	x8, sp, #104
	orr	x20, x8, #0x2
.LBB5_68:
	mov	w8, #24
	ldrb	w27, [x22, x24]
	add	x0, sp, #56
	madd	x23, x24, x8, x26
	ldrb	w8, [x25, x24]
	sub	x1, x29, #104
	add	x3, sp, #104
	add	x4, x24, #1
	mov	w2, #64
	mov	w5, #4
	str	wzr, [x20]
	add	x28, x24, #1
	strh	wzr, [x20, #4]
	strb	w8, [sp, #104]
	ldp	d9, d13, [x23, #8]
	ldr	q0, [x23]
	strb	w27, [sp, #105]
	stur	q0, [sp, #112]
	str	d13, [sp, #128]
	bl	"sums::order::cmp_term"
	and	w8, w0, #0xff
	cmp	w8, #2
	b.ne	.LBB5_99
	add	x24, x28, x27
	cmp	x24, x21
	b.lo	.LBB5_68
	b	.LBB5_100
.LBB5_70:
	add	x8, x22, x8
	cmp	x22, x8
	b.hs	.LBB5_98
	ldr	x9, [x1]
	ldr	x10, [x1, #16]
	mov	x11, x22
.LBB5_72:
	ldrb	w12, [x9, x11]
	cmp	w12, #1
	b.ne	.LBB5_128
	ldrb	w12, [x10, x11]
	add	x11, x11, x12
	add	x11, x11, #1
	cmp	x11, x8
	b.lo	.LBB5_72
	mov	x10, xzr
	b	.LBB5_76
.LBB5_75:
	mov	w9, #1
	strb	w9, [x12, x14]
	mov	w10, #24
	ldr	x9, [x1, #16]
	strb	wzr, [x9, x14]
	ldr	x9, [x1, #32]
	madd	x9, x14, x10, x9
	mov	x10, x16
	stp	d1, d3, [x9]
	str	d2, [x9, #16]
	add	x9, x22, x11
	add	x22, x9, #1
	cmp	x22, x8
	b.hs	.LBB5_96
.LBB5_76:
	add	x9, x10, #64
	ldr	x12, [x1]
	add	x14, x10, #64
	cmp	x9, #65
	b.lo	.LBB5_81
	neg	x11, x10
	mov	w14, #64
.LBB5_78:
	ldrb	w13, [x12, x14]
	cmp	w13, #1
	b.ne	.LBB5_81
	add	x14, x14, #1
	add	x13, x11, x14
	cmp	x13, #64
	b.ne	.LBB5_78
	add	x14, x10, #64
.LBB5_81:
	mov	w11, #24
	ldr	x13, [x1, #32]
	madd	x11, x22, x11, x13
	ldr	d1, [x11]
	fadd	d1, d0, d1
	fsub	d2, d1, d1
	fcmp	d2, d10
	b.ne	.LBB5_194
	movi	d2, #0000000000000000
	ldp	d3, d4, [x11, #8]
	mov	w11, #24
	ldr	x15, [x1, #16]
	madd	x16, x14, x11, x13
	ldrb	w11, [x15, x22]
	fmul	d5, d4, d2
	fmul	d2, d3, d2
	add	x16, x16, #16
	fsub	d3, d3, d5
	fadd	d2, d2, d4
	fmov	d4, d1
.LBB5_83:
	cmp	x14, #65
	b.lo	.LBB5_87
	ldur	d5, [x16, #-40]
	sub	x14, x14, #1
	sub	x16, x16, #24
	fcmp	d4, d5
	cset	w17, mi
	fcmp	d5, d4
	//APP
	//NO_APP
	cset	w18, mi
	//APP
	//NO_APP
	cmp	w18, #0
	mov	w18, #1
	cinc	w18, w18, ne
	cmp	w17, #0
	csel	w17, wzr, w18, ne
	cbz	w17, .LBB5_83
	cmp	w17, #2
	b.ne	.LBB5_94
	add	x14, x14, #1
	b	.LBB5_88
.LBB5_87:
	mov	w14, #64
.LBB5_88:
	movi	d4, #0000000000000000
	fadd	d2, d2, d4
	fadd	d3, d3, d4
	fsub	d4, d2, d2
	fsub	d5, d3, d3
	fcmp	d4, d10
	fccmp	d5, d10, #0, eq
	b.ne	.LBB5_195
	add	x16, x10, #1
	cmp	x16, #64
	b.hi	.LBB5_198
	cmp	x14, x9
	b.hs	.LBB5_75
	mov	w17, #24
	add	x15, x15, x10
	madd	x13, x10, x17, x13
	add	x10, x12, x10
	add	x15, x15, #64
	add	x17, x10, #64
	mov	x12, x17
	add	x10, x13, #1512
	mov	x13, x15
.LBB5_92:
	ldrb	w18, [x12, #-1]!
	sub	x9, x9, #1
	cmp	x14, x9
	strb	w18, [x17]
	ldrb	w17, [x13, #-1]!
	strb	w17, [x15]
	mov	x17, x12
	ldr	q4, [x10]
	ldr	x15, [x10, #16]
	stur	q4, [x10, #24]
	str	x15, [x10, #40]
	sub	x10, x10, #24
	mov	x15, x13
	b.lo	.LBB5_92
	ldr	x12, [x1]
	b	.LBB5_75
.LBB5_94:
	ldp	d1, d4, [x16, #-8]
	fadd	d1, d3, d1
	fadd	d2, d2, d4
	fsub	d3, d1, d1
	fsub	d4, d2, d2
	fcmp	d3, d10
	fccmp	d4, d10, #0, eq
	b.ne	.LBB5_195
	stp	d1, d2, [x16, #-8]
	add	x9, x22, x11
	add	x22, x9, #1
	cmp	x22, x8
	b.lo	.LBB5_76
.LBB5_96:
	cbz	x10, .LBB5_98
	sub	x8, x29, #104
	add	x9, sp, #104
	add	x17, x10, #64
	orr	x8, x8, #0x2
	mov	w25, #64
	str	x1, [sp, #32]
	str	x8, [sp, #16]
	orr	x8, x9, #0x2
	stp	x0, x8, [sp, #40]
	str	x17, [sp]
	b	.LBB5_150
.LBB5_98:
	mov	w9, wzr
	mov	w8, wzr
	b	.LBB5_205
.LBB5_99:
	cbnz	w8, .LBB5_116
.LBB5_100:
	fadd	d9, d10, d12
	ldr	x11, [sp, #40]
	mov	x8, xzr
	mov	w9, #14
	mov	w10, #1
	fsub	d0, d9, d9
	fcmp	d0, d11
	b.ne	.LBB5_145
	fadd	d8, d8, d12
	fsub	d0, d8, d8
	fcmp	d0, d11
	b.ne	.LBB5_145
	tst	w19, #0xff
	and	x23, x19, #0xff
	b.eq	.LBB5_104
	and	x2, x19, #0xff
	mov	x0, x22
	mov	w1, #64
	mov	w3, #3
	bl	"sums::order::nests_inside"
	cbz	w0, .LBB5_132
.LBB5_104:
	add	x8, x21, x23
	add	x8, x8, #1
	cmp	x8, #64
	b.ls	.LBB5_120
	mov	x8, xzr
	mov	w9, #11
	mov	w10, #1
	b	.LBB5_144
.LBB5_106:
	fsub	d1, d0, d1
	ldr	x8, [x1]
	mov	x11, xzr
	cbnz	x21, .LBB5_15
.LBB5_107:
	fsub	d2, d1, d1
	movi	d0, #0000000000000000
	fcmp	d2, d0
	b.ne	.LBB5_115
	add	x9, x11, x11, lsl #1
	fmov	d2, d1
	ldr	x12, [x1, #32]
	lsl	x13, x9, #3
.LBB5_109:
	mov	x10, x11
	mov	x9, x13
	cbz	x11, .LBB5_112
	add	x11, x12, x9
	ldur	d3, [x11, #-24]
	fcmp	d2, d3
	cset	w11, mi
	fcmp	d3, d2
	//APP
	//NO_APP
	cset	w13, mi
	//APP
	//NO_APP
	cmp	w13, #0
	mov	w13, #1
	cinc	w13, w13, ne
	cmp	w11, #0
	sub	x11, x10, #1
	csel	w14, wzr, w13, ne
	sub	x13, x9, #24
	cbz	w14, .LBB5_109
	cmp	w14, #2
	b.ne	.LBB5_118
.LBB5_112:
	movi	d3, #0000000000000000
	fadd	d2, d10, d3
	fadd	d3, d8, d3
	fsub	d4, d2, d2
	fsub	d5, d3, d3
	fcmp	d4, d0
	fccmp	d5, d0, #0, eq
	b.ne	.LBB5_119
	add	x11, x21, #1
	cmp	x11, #64
	b.ls	.LBB5_133
	mov	x21, xzr
	mov	w12, #11
	mov	w13, #1
	b	.LBB5_139
.LBB5_115:
	mov	x21, xzr
	mov	w12, #17
	mov	w13, #1
	b	.LBB5_139
.LBB5_116:
	fadd	d9, d10, d9
	fadd	d8, d8, d13
	fsub	d0, d9, d9
	fsub	d1, d8, d8
	fcmp	d0, d11
	fccmp	d1, d11, #0, eq
	b.eq	.LBB5_129
	mov	x8, xzr
	mov	w9, #14
	mov	w10, #1
	b	.LBB5_144
.LBB5_118:
	add	x8, x12, x13
	ldp	d1, d2, [x8, #8]
	fadd	d1, d10, d1
	fadd	d2, d8, d2
	fsub	d3, d1, d1
	fsub	d4, d2, d2
	fcmp	d3, d0
	fccmp	d4, d0, #0, eq
	b.eq	.LBB5_138
.LBB5_119:
	mov	x21, xzr
	mov	w12, #14
	mov	w13, #1
	b	.LBB5_139
.LBB5_120:
	ldr	x16, [sp, #32]
	cmp	x24, x21
	b.hs	.LBB5_124
	mov	w9, #24
	add	x10, x21, x23
	add	x11, x25, x23
	madd	x12, x21, x9, x26
	madd	x9, x10, x9, x26
	add	x10, x22, x23
	sub	x12, x12, #24
.LBB5_122:
	add	x13, x25, x21
	add	x14, x22, x21
	ldurb	w13, [x13, #-1]
	strb	w13, [x11, x21]
	ldurb	w13, [x14, #-1]
	strb	w13, [x10, x21]
	sub	x21, x21, #1
	ldr	x13, [x12, #16]
	ldr	q0, [x12], #-24
	cmp	x24, x21
	str	x13, [x9, #16]
	str	q0, [x9], #-24
	b.lo	.LBB5_122
	ldr	x25, [x16]
.LBB5_124:
	mov	w9, #2
	strb	w9, [x25, x24]
	mov	w10, #24
	ldr	x9, [x16, #16]
	add	x15, x24, #1
	cmp	x15, #64
	strb	w19, [x9, x24]
	ldr	x9, [x16, #32]
	madd	x9, x24, x10, x9
	str	xzr, [x9]
	stp	d9, d8, [x9, #8]
	ldr	x10, [x16]
	ldr	x12, [x16, #16]
	ldr	x13, [x16, #32]
	b.ls	.LBB5_140
	tst	w19, #0xff
	b.eq	.LBB5_143
	add	x11, x24, x23
	mov	w14, #24
	mov	x9, xzr
	madd	x11, x11, x14, x13
	umaddl	x15, w23, w14, x13
	add	x13, x12, x24
	add	x14, x10, x24
	add	x12, x12, #63
	add	x10, x10, #63
	add	x15, x15, #1512
.LBB5_127:
	ldrb	w16, [x10, x23]
	add	x9, x9, #1
	sub	x10, x10, #1
	strb	w16, [x14, x23]
	sub	x14, x14, #1
	cmp	x23, x9
	ldrb	w16, [x12, x23]
	sub	x12, x12, #1
	strb	w16, [x13, x23]
	sub	x13, x13, #1
	ldr	x16, [x15, #16]
	ldr	q0, [x15], #-24
	str	x16, [x11, #16]
	str	q0, [x11], #-24
	b.ne	.LBB5_127
	b	.LBB5_143
.LBB5_128:
	mov	x21, xzr
	mov	w8, #6
	b	.LBB5_204
.LBB5_129:
	tst	w19, #0xff
	b.eq	.LBB5_131
	and	x2, x19, #0xff
	mov	x0, x22
	mov	w1, #64
	mov	w3, #3
	bl	"sums::order::nests_inside"
	cbz	w0, .LBB5_132
.LBB5_131:
	mov	w10, wzr
	mov	w9, wzr
	stp	d9, d8, [x23, #8]
	mov	x8, x21
	b	.LBB5_144
.LBB5_132:
	mov	x8, xzr
	mov	w9, #12
	mov	w10, #1
	b	.LBB5_144
.LBB5_133:
	cmp	x10, x21
	b.hs	.LBB5_137
	mov	w13, #24
	add	x15, x8, x21
	madd	x13, x21, x13, x12
	ldr	x12, [x1, #16]
	mov	x8, x15
	add	x14, x12, x21
	mov	x12, x14
.LBB5_135:
	ldrb	w16, [x8, #-1]!
	sub	x21, x21, #1
	cmp	x10, x21
	strb	w16, [x15]
	ldrb	w15, [x12, #-1]!
	strb	w15, [x14]
	mov	x15, x8
	ldur	q0, [x13, #-24]
	ldur	x14, [x13, #-8]
	str	q0, [x13]
	str	x14, [x13, #16]
	sub	x13, x13, #24
	mov	x14, x12
	b.lo	.LBB5_135
	ldr	x8, [x1]
.LBB5_137:
	mov	w14, #1
	strb	w14, [x8, x10]
	mov	w13, wzr
	ldr	x8, [x1, #16]
	mov	w12, wzr
	mov	x21, x11
	strb	wzr, [x8, x10]
	ldr	x8, [x1, #32]
	add	x8, x8, x9
	stp	d1, d2, [x8]
	str	d3, [x8, #16]
	b	.LBB5_139
.LBB5_138:
	mov	w13, wzr
	mov	w12, wzr
	stp	d1, d2, [x8, #8]
.LBB5_139:
	strb	w13, [x0]
	strb	w12, [x0, #1]
	b	.LBB5_206
.LBB5_140:
	tst	w19, #0xff
	b.eq	.LBB5_143
	mov	w11, #24
	mov	x14, #24
	mov	x9, xzr
	madd	x11, x24, x11, x14
	add	x14, x12, x15
	add	x15, x10, x15
.LBB5_142:
	add	x16, x10, x9
	add	x17, x12, x9
	ldrb	w16, [x16, #64]
	strb	w16, [x15, x9]
	ldrb	w16, [x17, #64]
	add	x17, x13, x11
	strb	w16, [x14, x9]
	add	x9, x9, #1
	ldr	x16, [x13, #1552]
	ldr	q0, [x13, #1536]
	cmp	x23, x9
	add	x13, x13, #24
	str	x16, [x17, #16]
	str	q0, [x17]
	b.ne	.LBB5_142
.LBB5_143:
	mov	w10, wzr
	mov	w9, wzr
.LBB5_144:
	ldr	x11, [sp, #40]
.LBB5_145:
	strb	w10, [x11]
	strb	w9, [x11, #1]
	str	x8, [x11, #8]
	b	.LBB5_207
.LBB5_146:
	mov	w8, #14
	b	.LBB5_202
.LBB5_147:
	ldr	x0, [sp, #40]
	mov	w9, wzr
	mov	w8, wzr
	b	.LBB5_205
.LBB5_148:
	mov	w11, #1
	strb	w11, [x28, x9]
	mov	x21, x10
	ldr	x11, [x1, #16]
	strb	wzr, [x11, x9]
	ldr	x9, [x1, #32]
	add	x8, x9, x8
	stp	d11, d0, [x8, #-16]
	str	d1, [x8]
.LBB5_149:
	add	x25, x23, x22
	mov	w9, wzr
	mov	w8, wzr
	cmp	x25, x17
	b.hs	.LBB5_205
.LBB5_150:
	mov	w8, #24
	ldr	x26, [x1, #32]
	ldr	x28, [x1]
	madd	x8, x25, x8, x26
	ldr	x24, [x1, #16]
	add	x23, x25, #1
	ldrb	w10, [x28, x25]
	ldrb	w22, [x24, x25]
	cmp	w10, #1
	ldp	d0, d1, [x8, #8]
	ldr	d11, [x8]
	fmul	d2, d8, d0
	fmul	d3, d9, d1
	fmul	d1, d8, d1
	fmul	d0, d9, d0
	fsub	d13, d2, d3
	fadd	d12, d0, d1
	b.ne	.LBB5_166
	mov	x10, xzr
	cbz	x21, .LBB5_155
.LBB5_152:
	ldrb	w8, [x28, x10]
	cmp	w8, #1
	b.ne	.LBB5_155
	add	x10, x10, #1
	cmp	x21, x10
	b.ne	.LBB5_152
	mov	x10, x21
.LBB5_155:
	fsub	d0, d11, d11
	fcmp	d0, d10
	b.ne	.LBB5_194
	mov	w8, #24
	mov	x9, #16
	fmov	d0, d11
	madd	x11, x10, x8, x9
.LBB5_157:
	mov	x9, x10
	mov	x8, x11
	cbz	x10, .LBB5_160
	add	x10, x26, x8
	ldur	d1, [x10, #-40]
	fcmp	d0, d1
	cset	w10, mi
	fcmp	d1, d0
	//APP
	//NO_APP
	cset	w11, mi
	//APP
	//NO_APP
	cmp	w11, #0
	mov	w11, #1
	cinc	w11, w11, ne
	cmp	w10, #0
	sub	x10, x9, #1
	csel	w12, wzr, w11, ne
	sub	x11, x8, #24
	cbz	w12, .LBB5_157
	cmp	w12, #2
	b.ne	.LBB5_187
.LBB5_160:
	movi	d1, #0000000000000000
	fadd	d0, d13, d1
	fadd	d1, d12, d1
	fsub	d2, d0, d0
	fsub	d3, d1, d1
	fcmp	d2, d10
	fccmp	d3, d10, #0, eq
	b.ne	.LBB5_195
	add	x10, x21, #1
	cmp	x10, #64
	b.hi	.LBB5_198
	cmp	x9, x21
	b.hs	.LBB5_148
	mov	w11, #24
	add	x14, x24, x21
	add	x15, x28, x21
	madd	x13, x21, x11, x26
	mov	x11, x15
	mov	x12, x14
.LBB5_164:
	ldrb	w16, [x11, #-1]!
	sub	x21, x21, #1
	cmp	x9, x21
	strb	w16, [x15]
	ldrb	w15, [x12, #-1]!
	strb	w15, [x14]
	mov	x15, x11
	ldur	q2, [x13, #-24]
	ldur	x14, [x13, #-8]
	str	q2, [x13]
	str	x14, [x13, #16]
	sub	x13, x13, #24
	mov	x14, x12
	b.lo	.LBB5_164
	ldr	x28, [x1]
	b	.LBB5_148
.LBB5_166:
	fsub	d0, d11, d11
	fcmp	d0, d10
	b.ne	.LBB5_208
	add	x8, x25, #1
	ldr	x9, [x1, #24]
	mov	x19, xzr
	str	x8, [sp, #8]
	ldr	x8, [x1, #8]
	str	x28, [sp, #56]
	stp	x8, x24, [sp, #64]
	ldr	x8, [x1, #40]
	stp	x9, x26, [sp, #80]
	str	x8, [sp, #96]
	ldr	x8, [sp, #16]
	str	w10, [sp, #28]
	sturb	w10, [x29, #-104]
	sturb	w22, [x29, #-103]
	str	wzr, [x8]
	strh	wzr, [x8, #4]
	stp	d11, d13, [x29, #-96]
	stur	d12, [x29, #-80]
	cbz	x21, .LBB5_171
.LBB5_168:
	mov	w8, #24
	ldr	x9, [sp, #48]
	ldrb	w20, [x24, x19]
	madd	x27, x19, x8, x26
	ldrb	w8, [x28, x19]
	add	x0, sp, #56
	sub	x1, x29, #104
	add	x2, x25, #1
	add	x3, sp, #104
	add	x4, x19, #1
	mov	w5, #4
	str	wzr, [x9]
	strh	wzr, [x9, #4]
	add	x23, x19, #1
	strb	w8, [sp, #104]
	ldp	d15, d14, [x27, #8]
	ldr	q0, [x27]
	strb	w20, [sp, #105]
	stur	q0, [sp, #112]
	str	d14, [sp, #128]
	bl	"sums::order::cmp_term"
	and	w8, w0, #0xff
	cmp	w8, #2
	b.ne	.LBB5_170
	add	x19, x23, x20
	cmp	x19, x21
	b.lo	.LBB5_168
	b	.LBB5_171
.LBB5_170:
	cbnz	w8, .LBB5_189
.LBB5_171:
	movi	d0, #0000000000000000
	fadd	d13, d13, d0
	fadd	d12, d12, d0
	fsub	d0, d13, d13
	fsub	d1, d12, d12
	fcmp	d0, d10
	fccmp	d1, d10, #0, eq
	b.ne	.LBB5_209
	ldr	x20, [sp, #40]
	cbz	w22, .LBB5_174
	add	x1, x25, #1
	mov	x0, x24
	mov	x2, x22
	mov	w3, #3
	bl	"sums::order::nests_inside"
	cbz	w0, .LBB5_211
.LBB5_174:
	add	x8, x21, x22
	add	x8, x8, #1
	cmp	x8, #64
	b.hi	.LBB5_210
	ldr	x1, [sp, #32]
	cmp	x19, x21
	add	x23, x25, #1
	b.hs	.LBB5_179
	mov	w9, #24
	add	x10, x21, x22
	add	x11, x28, x22
	madd	x12, x21, x9, x26
	madd	x9, x10, x9, x26
	add	x10, x24, x22
	sub	x12, x12, #24
.LBB5_177:
	add	x13, x28, x21
	add	x14, x24, x21
	ldurb	w13, [x13, #-1]
	strb	w13, [x11, x21]
	ldurb	w13, [x14, #-1]
	strb	w13, [x10, x21]
	sub	x21, x21, #1
	ldr	x13, [x12, #16]
	ldr	q0, [x12], #-24
	cmp	x19, x21
	str	x13, [x9, #16]
	str	q0, [x9], #-24
	b.lo	.LBB5_177
	ldr	x28, [x1]
.LBB5_179:
	ldr	w9, [sp, #28]
	mov	w10, #24
	strb	w9, [x28, x19]
	ldr	x9, [x1, #16]
	strb	w22, [x9, x19]
	ldr	x9, [x1, #32]
	madd	x9, x19, x10, x9
	stp	d11, d13, [x9]
	str	d12, [x9, #16]
	add	x9, x19, #1
	ldr	x15, [x1]
	ldr	x14, [x1, #16]
	ldr	x11, [x1, #32]
	cmp	x9, x23
	b.ls	.LBB5_183
	cbz	w22, .LBB5_186
	add	x10, x19, x22
	mov	w12, #24
	add	x13, x25, x22
	madd	x10, x10, x12, x11
	mov	x9, xzr
	madd	x11, x13, x12, x11
	add	x12, x14, x19
	add	x13, x15, x19
	add	x14, x14, x25
	add	x15, x15, x25
.LBB5_182:
	ldrb	w16, [x15, x22]
	add	x9, x9, #1
	sub	x15, x15, #1
	strb	w16, [x13, x22]
	sub	x13, x13, #1
	cmp	x22, x9
	ldrb	w16, [x14, x22]
	sub	x14, x14, #1
	strb	w16, [x12, x22]
	sub	x12, x12, #1
	ldr	x16, [x11, #16]
	ldr	q0, [x11], #-24
	str	x16, [x10, #16]
	str	q0, [x10], #-24
	b.ne	.LBB5_182
	b	.LBB5_186
.LBB5_183:
	cbz	w22, .LBB5_186
	mov	w12, #24
	add	x11, x11, #24
	add	x14, x14, #1
	madd	x10, x19, x12, x11
	add	x15, x15, #1
	mov	x9, xzr
	add	x13, x15, x19
	add	x15, x15, x25
	madd	x11, x25, x12, x11
	add	x12, x14, x19
	add	x14, x14, x25
.LBB5_185:
	ldrb	w16, [x15, x9]
	strb	w16, [x13, x9]
	ldrb	w16, [x14, x9]
	strb	w16, [x12, x9]
	add	x9, x9, #1
	ldr	x16, [x11, #16]
	ldr	q0, [x11], #24
	cmp	x22, x9
	str	x16, [x10, #16]
	str	q0, [x10], #24
	b.ne	.LBB5_185
.LBB5_186:
	mov	x21, x8
	b	.LBB5_193
.LBB5_187:
	add	x8, x26, x11
	ldp	d0, d1, [x8, #-8]
	fadd	d0, d13, d0
	fadd	d1, d12, d1
	fsub	d2, d0, d0
	fsub	d3, d1, d1
	fcmp	d2, d10
	fccmp	d3, d10, #0, eq
	b.ne	.LBB5_195
	stur	d0, [x8, #-8]
	str	d1, [x26, x11]
	b	.LBB5_149
.LBB5_189:
	fadd	d11, d13, d15
	fadd	d12, d12, d14
	fsub	d0, d11, d11
	fsub	d1, d12, d12
	fcmp	d0, d10
	fccmp	d1, d10, #0, eq
	b.ne	.LBB5_209
	ldr	x20, [sp, #40]
	ldr	x23, [sp, #8]
	cbz	w22, .LBB5_192
	mov	x0, x24
	mov	x1, x23
	mov	x2, x22
	mov	w3, #3
	bl	"sums::order::nests_inside"
	cbz	w0, .LBB5_211
.LBB5_192:
	ldr	x1, [sp, #32]
	stp	d11, d12, [x27, #8]
.LBB5_193:
	ldr	x17, [sp]
	mov	x0, x20
	b	.LBB5_149
.LBB5_194:
	mov	x21, xzr
	mov	w8, #17
	b	.LBB5_204
.LBB5_195:
	mov	x21, xzr
	mov	w8, #14
	b	.LBB5_204
.LBB5_196:
	mov	x21, xzr
	mov	w8, #17
	b	.LBB5_203
.LBB5_197:
	mov	x21, xzr
	mov	w8, #14
	b	.LBB5_203
.LBB5_198:
	mov	x21, xzr
	mov	w8, #11
	b	.LBB5_204
.LBB5_199:
	mov	w8, #11
	b	.LBB5_202
.LBB5_200:
	mov	x21, xzr
	mov	w8, #11
	b	.LBB5_203
.LBB5_201:
	mov	w8, #12
.LBB5_202:
	mov	x21, xzr
.LBB5_203:
	ldr	x0, [sp, #40]
.LBB5_204:
	mov	w9, #1
.LBB5_205:
	strb	w9, [x0]
	strb	w8, [x0, #1]
.LBB5_206:
	str	x21, [x0, #8]
.LBB5_207:
	ldp	x20, x19, [sp, #320]
	ldp	x22, x21, [sp, #304]
	ldp	x24, x23, [sp, #288]
	ldp	x26, x25, [sp, #272]
	ldp	x28, x27, [sp, #256]
	ldp	x29, x30, [sp, #240]
	ldp	d9, d8, [sp, #224]
	ldp	d11, d10, [sp, #208]
	ldp	d13, d12, [sp, #192]
	ldp	d15, d14, [sp, #176]
	add	sp, sp, #336
	ret
.LBB5_208:
	mov	w8, #14
	b	.LBB5_213
.LBB5_209:
	ldr	x0, [sp, #40]
	mov	w8, #14
	b	.LBB5_213
.LBB5_210:
	mov	w8, #11
	b	.LBB5_212
.LBB5_211:
	mov	w8, #12
.LBB5_212:
	mov	x0, x20
.LBB5_213:
	mov	x21, xzr
	b	.LBB5_204
.Lfunc_end5:
	.size	"powers::divide::div_term", .Lfunc_end5-"powers::divide::div_term"

	.section	.rodata.cst16,"aM",@progbits,16
	.p2align	4, 0x0
.LCPI6_0:
	.xword	4607182418800017408
	.xword	0
	.section	".text.powers::raise::power_by","ax",@progbits
	.p2align	2
	.type	"powers::raise::power_by",@function
"powers::raise::power_by":
	sub	sp, sp, #272
	mov	x8, #-4382002437431492608
	fmov	d1, d0
	str	d8, [sp, #160]
	fmov	d2, x8
	mov	x8, #4841369599423283200
	stp	x29, x30, [sp, #176]
	stp	x28, x27, [sp, #192]
	add	x29, sp, #176
	stp	x26, x25, [sp, #208]
	fcmp	d1, d2
	stp	x24, x23, [sp, #224]
	fmov	d2, x8
	stp	x22, x21, [sp, #240]
	stp	x20, x19, [sp, #256]
	cset	w8, ls
	fcmp	d2, d1
	//APP
	//NO_APP
	cset	w9, ls
	//APP
	//NO_APP
	orr	w9, w8, w9
	cmp	w9, #0
	cset	w8, ne
	cbz	w9, .LBB6_2
	fsub	d2, d0, d0
	movi	d8, #0000000000000000
	fcmp	d2, d8
	cset	w9, eq
	fcmp	d8, d1
	cset	w10, ls
	//APP
	//NO_APP
	cbnz	w10, .LBB6_6
	b	.LBB6_10
.LBB6_2:
	movi	d8, #0000000000000000
	fcmp	d1, d8
	cset	w9, mi
	//APP
	//NO_APP
	cbz	w9, .LBB6_4
	mov	x9, #-4382002437431492608
	fmov	d2, x9
	mov	x9, #4841369599423283200
	b	.LBB6_5
.LBB6_4:
	mov	x9, #4841369599423283200
	fmov	d2, x9
	mov	x9, #-4382002437431492608
.LBB6_5:
	fadd	d2, d0, d2
	fmov	d3, x9
	fadd	d2, d2, d3
	fcmp	d2, d1
	cset	w9, eq
	fcmp	d8, d1
	cset	w10, ls
	//APP
	//NO_APP
	cbz	w10, .LBB6_10
.LBB6_6:
	tbz	w9, #0, .LBB6_10
	fcmp	d1, d8
	b.ne	.LBB6_27
.LBB6_8:
	ldr	x10, [x1]
	mov	w5, #1
	mov	w11, #24
	mov	x25, xzr
	mov	w9, wzr
	mov	w8, wzr
	strb	w5, [x10, x4]
	ldr	x10, [x1, #16]
	strb	wzr, [x10, x4]
	ldr	x10, [x1, #32]
	madd	x10, x4, x11, x10
	stp	xzr, xzr, [x10]
	str	xzr, [x10, #16]
.LBB6_9:
	strb	w8, [x0]
	strb	w9, [x0, #1]
	stp	x5, x25, [x0, #8]
	b	.LBB6_26
.LBB6_10:
	ldr	x9, [x1]
	ldr	x10, [x1, #16]
	add	x12, x3, x2
	subs	x15, x12, x2
	mov	x11, xzr
	add	x13, x10, x2
	add	x14, x9, x2
	csel	x15, xzr, x15, lo
.LBB6_11:
	cmp	x15, x11
	b.eq	.LBB6_24
	ldrb	w16, [x13, x11]
	mvn	x16, x16
	add	x16, x16, x3
	cmp	x16, x11
	b.ne	.LBB6_24
	ldrb	w16, [x14, x11]
	add	x11, x11, #1
	cmp	w16, #2
	b.eq	.LBB6_11
	cmp	w16, #1
	b.ne	.LBB6_24
	ldr	x11, [x1, #32]
	cmp	x2, x12
	b.hs	.LBB6_20
	mov	w12, #24
	fmov	d2, #1.00000000
	add	x13, x10, x2
	madd	x14, x2, x12, x11
	sub	x12, x3, #1
	add	x14, x14, #16
.LBB6_17:
	ldp	d3, d4, [x14, #-8]
	fcmp	d3, d2
	fccmp	d4, d8, #0, eq
	b.ne	.LBB6_62
	cbz	x12, .LBB6_20
	ldrb	w15, [x13], #1
	add	x14, x14, #24
	sub	x12, x12, #1
	cbnz	w15, .LBB6_17
.LBB6_20:
	cmp	x4, x2
	b.ls	.LBB6_53
	cbz	x3, .LBB6_82
	add	x13, x4, x3
	mov	w14, #24
	sub	x17, x2, #1
	madd	x15, x13, x14, x11
	add	x13, x3, x2
	mov	x12, xzr
	madd	x16, x13, x14, x11
	sub	x13, x4, #1
	add	x11, x10, x13
	add	x13, x9, x13
	add	x10, x10, x17
	add	x9, x9, x17
	sub	x14, x15, #24
	sub	x15, x16, #24
.LBB6_23:
	ldrb	w16, [x9, x3]
	add	x12, x12, #1
	sub	x9, x9, #1
	strb	w16, [x13, x3]
	sub	x13, x13, #1
	cmp	x3, x12
	ldrb	w16, [x10, x3]
	sub	x10, x10, #1
	strb	w16, [x11, x3]
	sub	x11, x11, #1
	ldr	x16, [x15, #16]
	ldr	q2, [x15], #-24
	str	x16, [x14, #16]
	str	q2, [x14], #-24
	b.ne	.LBB6_23
	b	.LBB6_56
.LBB6_24:
	mov	w8, #1537
.LBB6_25:
	strh	w8, [x0]
	stp	xzr, xzr, [x0, #8]
.LBB6_26:
	ldp	x20, x19, [sp, #256]
	ldr	d8, [sp, #160]
	ldp	x22, x21, [sp, #240]
	ldp	x24, x23, [sp, #224]
	ldp	x26, x25, [sp, #208]
	ldp	x28, x27, [sp, #192]
	ldp	x29, x30, [sp, #176]
	add	sp, sp, #272
	ret
.LBB6_27:
	cbz	w8, .LBB6_29
	fsub	d2, d0, d0
	fcmp	d2, d8
	b	.LBB6_30
.LBB6_29:
	mov	x8, #4841369599423283200
	fmov	d2, x8
	mov	x8, #-4382002437431492608
	fmov	d3, x8
	fadd	d2, d0, d2
	fadd	d2, d2, d3
	fcmp	d2, d1
.LBB6_30:
	mov	x8, #4634204016564240384
	cset	w9, eq
	fcmp	d8, d1
	fmov	d2, x8
	fcvtzu	x8, d0
	//APP
	//NO_APP
	cset	w10, mi
	fcmp	d1, d2
	//APP
	//NO_APP
	cset	w11, ls
	//APP
	//NO_APP
	cbz	w11, .LBB6_45
	cbz	w10, .LBB6_45
	cbz	w9, .LBB6_45
	cbz	x8, .LBB6_8
	subs	x26, x8, #1
	b.eq	.LBB6_69
	cmp	x3, #1
	stur	x4, [x29, #-64]
	stur	x1, [x29, #-48]
	b.ne	.LBB6_73
	ldr	x10, [x1]
	add	x9, x2, x2, lsl #1
	ldrb	w11, [x10, x2]
	lsl	x27, x9, #3
	cmp	w11, #1
	b.ne	.LBB6_87
	ldr	x9, [x1, #32]
	cmp	x26, #1
	add	x9, x9, x27
	ldp	d2, d0, [x9]
	ldr	d1, [x9, #16]
	fmov	d5, d1
	fmov	d4, d2
	fmov	d3, d0
	b.eq	.LBB6_42
	sub	x8, x8, #2
	fmov	d6, d1
	fmov	d3, d0
	fmov	d4, d2
.LBB6_39:
	fadd	d4, d2, d4
	fsub	d5, d4, d4
	fcmp	d5, d8
	b.ne	.LBB6_254
	fmul	d5, d0, d3
	fmul	d7, d1, d6
	movi	d16, #0000000000000000
	fmul	d3, d1, d3
	fmul	d6, d0, d6
	fsub	d5, d5, d7
	fadd	d6, d6, d3
	fadd	d3, d5, d16
	fadd	d5, d6, d16
	fsub	d6, d3, d3
	fsub	d7, d5, d5
	fcmp	d6, d8
	fccmp	d7, d8, #0, eq
	b.ne	.LBB6_258
	fmov	d6, d5
	subs	x8, x8, #1
	b.ne	.LBB6_39
.LBB6_42:
	fadd	d2, d2, d4
	fsub	d4, d2, d2
	fcmp	d4, d8
	b.ne	.LBB6_254
	fmul	d4, d0, d3
	fmul	d6, d1, d5
	mov	w8, #1
	fmul	d1, d1, d3
	fmul	d0, d0, d5
	fsub	d3, d4, d6
	movi	d4, #0000000000000000
	fadd	d1, d1, d0
	fadd	d0, d3, d4
	fadd	d1, d1, d4
	fsub	d3, d0, d0
	fsub	d4, d1, d1
	fcmp	d3, d8
	fccmp	d4, d8, #0, eq
	b.eq	.LBB6_257
	mov	x5, xzr
	b	.LBB6_259
.LBB6_45:
	add	x27, x3, x2
	cmp	x2, x27
	b.hs	.LBB6_51
	ldr	x19, [x1]
	ldr	x21, [x1, #16]
	mov	x10, x2
.LBB6_47:
	ldrb	w22, [x21, x10]
	ldrb	w20, [x19, x10]
	mov	x26, x0
	add	x23, x10, #1
	mov	x28, x2
	mov	x8, x2
.LBB6_48:
	ldrb	w24, [x21, x8]
	ldrb	w3, [x19, x8]
	add	x25, x8, #1
	mov	w8, #3
	mov	w0, w20
	mov	x1, x23
	mov	x2, x22
	mov	x4, x25
	mov	x5, x24
	mov	x6, x19
	mov	x7, x21
	str	x8, [sp]
	bl	"arithmetic::multiply::can_pair"
	tbz	w0, #0, .LBB6_52
	add	x8, x25, x24
	cmp	x8, x27
	b.lo	.LBB6_48
	add	x10, x23, x22
	mov	x5, xzr
	mov	x25, xzr
	cmp	x10, x27
	mov	w8, #1
	mov	w9, #15
	mov	x0, x26
	mov	x2, x28
	b.lo	.LBB6_47
	b	.LBB6_9
.LBB6_51:
	mov	x5, xzr
	mov	x25, xzr
	mov	w8, #1
	mov	w9, #15
	b	.LBB6_9
.LBB6_52:
	mov	x5, xzr
	mov	x25, xzr
	mov	w8, #1
	mov	w9, #6
	mov	x0, x26
	b	.LBB6_9
.LBB6_53:
	cbz	x3, .LBB6_82
	mov	w13, #24
	madd	x12, x4, x13, x11
	madd	x11, x2, x13, x11
	mov	x13, x3
.LBB6_55:
	ldrb	w14, [x9, x2]
	subs	x13, x13, #1
	strb	w14, [x9, x4]
	add	x9, x9, #1
	ldrb	w14, [x10, x2]
	strb	w14, [x10, x4]
	add	x10, x10, #1
	ldr	x14, [x11, #16]
	ldr	q2, [x11], #24
	str	x14, [x12, #16]
	str	q2, [x12], #24
	b.ne	.LBB6_55
.LBB6_56:
	add	x9, x4, x3
	cbz	w8, .LBB6_63
	fsub	d1, d0, d0
	add	x8, x4, x4, lsl #1
	lsl	x8, x8, #3
	fcmp	d1, d8
	b.ne	.LBB6_61
.LBB6_58:
	ldr	x10, [x1, #32]
	ldr	x11, [x1]
	movi	d2, #0000000000000000
	ldr	d1, [x10, x8]
	ldrb	w11, [x11, x4]
	fmul	d1, d0, d1
	cmp	w11, #1
	fcsel	d1, d1, d2, eq
	fsub	d2, d1, d1
	fcmp	d2, d8
	b.ne	.LBB6_85
	adrp	x11, .LCPI6_0
	add	x4, x4, #1
	add	x10, x10, x8
	ldr	q2, [x11, :lo12:.LCPI6_0]
	cmp	x4, x9
	add	x8, x8, #24
	str	d1, [x10]
	stur	q2, [x10, #8]
	b.lo	.LBB6_58
	b	.LBB6_82
.LBB6_60:
	add	x10, x10, x8
	add	x4, x4, #1
	mov	x11, #4607182418800017408
	ldr	d2, [x10, #16]
	cmp	x4, x9
	add	x8, x8, #24
	str	d1, [x10]
	fmul	d2, d0, d2
	str	x11, [x10, #8]
	str	d2, [x10, #16]
	b.hs	.LBB6_82
.LBB6_61:
	ldr	x10, [x1, #32]
	ldr	x11, [x1]
	movi	d2, #0000000000000000
	ldr	d1, [x10, x8]
	ldrb	w11, [x11, x4]
	fmul	d1, d0, d1
	cmp	w11, #1
	fcsel	d1, d1, d2, eq
	fsub	d2, d1, d1
	fcmp	d2, d8
	b.eq	.LBB6_60
	b	.LBB6_85
.LBB6_62:
	mov	w8, #3329
	b	.LBB6_25
.LBB6_63:
	fcmp	d1, d8
	mov	x10, #4841369599423283200
	mov	x11, #-4382002437431492608
	fmov	d2, x10
	fmov	d3, x11
	cset	w8, mi
	//APP
	//NO_APP
	cbz	w8, .LBB6_79
	fadd	d3, d0, d3
	add	x8, x4, x4, lsl #1
	lsl	x8, x8, #3
	fadd	d2, d3, d2
	fcmp	d2, d1
	b.ne	.LBB6_68
.LBB6_65:
	ldr	x10, [x1, #32]
	ldr	x11, [x1]
	movi	d2, #0000000000000000
	ldr	d1, [x10, x8]
	ldrb	w11, [x11, x4]
	fmul	d1, d0, d1
	cmp	w11, #1
	fcsel	d1, d1, d2, eq
	fsub	d2, d1, d1
	fcmp	d2, d8
	b.ne	.LBB6_85
	adrp	x11, .LCPI6_0
	add	x4, x4, #1
	add	x10, x10, x8
	ldr	q2, [x11, :lo12:.LCPI6_0]
	cmp	x4, x9
	add	x8, x8, #24
	str	d1, [x10]
	stur	q2, [x10, #8]
	b.lo	.LBB6_65
	b	.LBB6_82
.LBB6_67:
	add	x10, x10, x8
	add	x4, x4, #1
	mov	x11, #4607182418800017408
	ldr	d2, [x10, #16]
	cmp	x4, x9
	add	x8, x8, #24
	str	d1, [x10]
	fmul	d2, d0, d2
	str	x11, [x10, #8]
	str	d2, [x10, #16]
	b.hs	.LBB6_82
.LBB6_68:
	ldr	x10, [x1, #32]
	ldr	x11, [x1]
	movi	d2, #0000000000000000
	ldr	d1, [x10, x8]
	ldrb	w11, [x11, x4]
	fmul	d1, d0, d1
	cmp	w11, #1
	fcsel	d1, d1, d2, eq
	fsub	d2, d1, d1
	fcmp	d2, d8
	b.eq	.LBB6_67
	b	.LBB6_85
.LBB6_69:
	ldr	x14, [x1]
	ldr	x13, [x1, #16]
	cmp	x4, x2
	ldr	x10, [x1, #32]
	b.ls	.LBB6_75
	cbz	x3, .LBB6_250
	add	x9, x4, x3
	mov	w11, #24
	sub	x16, x2, #1
	madd	x12, x9, x11, x10
	add	x9, x3, x2
	mov	x8, xzr
	madd	x15, x9, x11, x10
	sub	x10, x4, #1
	add	x9, x13, x10
	add	x10, x14, x10
	add	x13, x13, x16
	add	x14, x14, x16
	sub	x11, x12, #24
	sub	x12, x15, #24
.LBB6_72:
	ldrb	w15, [x14, x3]
	add	x8, x8, #1
	sub	x14, x14, #1
	strb	w15, [x10, x3]
	sub	x10, x10, #1
	cmp	x3, x8
	ldrb	w15, [x13, x3]
	sub	x13, x13, #1
	strb	w15, [x9, x3]
	sub	x9, x9, #1
	ldr	x15, [x12, #16]
	ldr	q0, [x12], #-24
	str	x15, [x11, #16]
	str	q0, [x11], #-24
	b.ne	.LBB6_72
	b	.LBB6_78
.LBB6_73:
	add	x21, x3, x2
	cmp	x2, x21
	b.lo	.LBB6_173
	mov	x20, xzr
	b	.LBB6_175
.LBB6_75:
	cbz	x3, .LBB6_250
	mov	w11, #24
	mov	x8, xzr
	add	x12, x14, x4
	madd	x9, x4, x11, x10
	add	x14, x14, x2
	madd	x10, x2, x11, x10
	add	x11, x13, x4
	add	x13, x13, x2
.LBB6_77:
	ldrb	w15, [x14, x8]
	strb	w15, [x12, x8]
	ldrb	w15, [x13, x8]
	strb	w15, [x11, x8]
	add	x8, x8, #1
	ldr	x15, [x10, #16]
	ldr	q0, [x10], #24
	cmp	x3, x8
	str	x15, [x9, #16]
	str	q0, [x9], #24
	b.ne	.LBB6_77
.LBB6_78:
	mov	x25, xzr
	mov	w9, wzr
	mov	w8, wzr
	mov	x5, x3
	b	.LBB6_9
.LBB6_79:
	fadd	d2, d0, d2
	add	x8, x4, x4, lsl #1
	lsl	x8, x8, #3
	fadd	d2, d2, d3
	fcmp	d2, d1
	b.ne	.LBB6_84
.LBB6_80:
	ldr	x10, [x1, #32]
	ldr	x11, [x1]
	movi	d2, #0000000000000000
	ldr	d1, [x10, x8]
	ldrb	w11, [x11, x4]
	fmul	d1, d0, d1
	cmp	w11, #1
	fcsel	d1, d1, d2, eq
	fsub	d2, d1, d1
	fcmp	d2, d8
	b.ne	.LBB6_85
	adrp	x11, .LCPI6_0
	add	x4, x4, #1
	add	x10, x10, x8
	ldr	q2, [x11, :lo12:.LCPI6_0]
	cmp	x4, x9
	add	x8, x8, #24
	str	d1, [x10]
	stur	q2, [x10, #8]
	b.lo	.LBB6_80
.LBB6_82:
	mov	w9, wzr
	mov	w8, wzr
	b	.LBB6_86
.LBB6_83:
	add	x10, x10, x8
	add	x4, x4, #1
	mov	x11, #4607182418800017408
	ldr	d2, [x10, #16]
	cmp	x4, x9
	add	x8, x8, #24
	str	d1, [x10]
	fmul	d2, d0, d2
	str	x11, [x10, #8]
	str	d2, [x10, #16]
	b.hs	.LBB6_82
.LBB6_84:
	ldr	x10, [x1, #32]
	ldr	x11, [x1]
	movi	d2, #0000000000000000
	ldr	d1, [x10, x8]
	ldrb	w11, [x11, x4]
	fmul	d1, d0, d1
	cmp	w11, #1
	fcsel	d1, d1, d2, eq
	fsub	d2, d1, d1
	fcmp	d2, d8
	b.eq	.LBB6_83
.LBB6_85:
	mov	x3, xzr
	mov	w8, #17
	mov	w9, #1
.LBB6_86:
	strb	w9, [x0]
	strb	w8, [x0, #1]
	stp	x3, xzr, [x0, #8]
	b	.LBB6_26
.LBB6_87:
	mov	x28, xzr
	adds	x11, x2, #1
	b.hs	.LBB6_90
	ldr	x8, [x1, #16]
	mov	x9, x2
.LBB6_89:
	ldrb	w10, [x8, x9]
	add	x28, x28, #1
	add	x9, x9, x10
	add	x9, x9, #1
	cmp	x9, x11
	b.lo	.LBB6_89
.LBB6_90:
	mov	x25, xzr
	mov	x18, xzr
	mov	w5, #1
	mov	x22, x2
	stur	x11, [x29, #-8]
	stp	x28, x27, [sp, #56]
	stur	x0, [x29, #-72]
	stp	x26, x2, [sp, #80]
	b	.LBB6_95
.LBB6_91:
	ldp	x0, x4, [x29, #-72]
	mov	x5, xzr
	ldp	x25, x1, [x29, #-56]
	mov	w9, #6
	ldp	x26, x2, [sp, #80]
	mov	w10, #1
	ldp	x28, x27, [sp, #56]
.LBB6_92:
	ldur	x18, [x29, #-80]
.LBB6_93:
	cbnz	w10, .LBB6_256
.LBB6_94:
	madd	x25, x20, x28, x25
	add	x18, x18, #1
	mov	w9, wzr
	mov	w8, wzr
	cmp	x18, x26
	mov	x22, x21
	b.eq	.LBB6_9
.LBB6_95:
	ldr	x23, [x1, #16]
	cmp	x28, #1
	mov	x20, x5
	b.eq	.LBB6_99
	add	x8, x5, x22
	cmp	x22, x8
	b.hs	.LBB6_112
	mov	x20, xzr
	mov	x9, x22
.LBB6_98:
	ldrb	w10, [x23, x9]
	add	x20, x20, #1
	add	x9, x9, x10
	add	x9, x9, #1
	cmp	x9, x8
	b.lo	.LBB6_98
.LBB6_99:
	sub	w8, w26, w18
	cmp	x5, #1
	mvn	w8, w8, lsl #6
	and	x8, x8, #0x40
	add	x21, x8, x4
	b.ne	.LBB6_113
.LBB6_100:
	ldr	x24, [x1]
	ldr	x8, [x1, #32]
	ldrb	w10, [x24, x22]
	ldrb	w9, [x24, x2]
	cmp	w10, #1
	b.ne	.LBB6_105
	cmp	w9, #1
	b.ne	.LBB6_105
	mov	w9, #24
	madd	x9, x22, x9, x8
	add	x8, x8, x27
	ldr	d0, [x8]
	ldr	d1, [x9]
	fadd	d0, d0, d1
	fsub	d1, d0, d0
	fcmp	d1, d8
	b.ne	.LBB6_260
	ldur	q1, [x9, #8]
	ldp	d3, d4, [x8, #8]
	mov	w5, #1
	ext	v2.16b, v1.16b, v1.16b, #8
	fmul	v1.2d, v1.2d, v3.d[0]
	fmul	v2.2d, v2.2d, v4.d[0]
	fsub	v3.2d, v1.2d, v2.2d
	fadd	v1.2d, v1.2d, v2.2d
	mov	v3.d[1], v1.d[1]
	movi	v1.2d, #0000000000000000
	fadd	v1.2d, v3.2d, v1.2d
	fsub	v2.2d, v1.2d, v1.2d
	mov	d3, v2.d[1]
	fcmp	d2, d8
	fccmp	d3, d8, #0, eq
	b.ne	.LBB6_261
	strb	w5, [x24, x21]
	mov	w9, #24
	ldr	x8, [x1, #16]
	strb	wzr, [x8, x21]
	ldr	x8, [x1, #32]
	madd	x8, x21, x9, x8
	str	d0, [x8]
	stur	q1, [x8, #8]
	b	.LBB6_94
.LBB6_105:
	cmp	w10, #1
	stp	xzr, xzr, [x29, #-40]
	cset	w10, ne
	adds	x12, x22, #1
	cset	w11, hs
	cmn	x2, #1
	ccmp	w9, #1, #4, ne
	bic	w10, w10, w11
	cset	w9, eq
	tbnz	w10, #0, .LBB6_117
	cbz	w9, .LBB6_117
	mov	x5, xzr
	cmn	x2, #1
	mov	w10, wzr
	b.eq	.LBB6_168
	cmn	x22, #1
	mov	w9, w10
	b.eq	.LBB6_93
	mov	w9, #24
	madd	x9, x22, x9, x8
	add	x8, x8, x27
	ldr	d1, [x8]
	ldr	d0, [x9]
	fadd	d0, d0, d1
	fsub	d1, d0, d0
	fcmp	d1, d8
	b.ne	.LBB6_169
	ldur	q1, [x9, #8]
	ldp	d3, d4, [x8, #8]
	mov	w5, #1
	ext	v2.16b, v1.16b, v1.16b, #8
	fmul	v1.2d, v1.2d, v3.d[0]
	fmul	v2.2d, v2.2d, v4.d[0]
	fsub	v3.2d, v1.2d, v2.2d
	fadd	v1.2d, v1.2d, v2.2d
	mov	v3.d[1], v1.d[1]
	movi	v1.2d, #0000000000000000
	fadd	v1.2d, v3.2d, v1.2d
	fsub	v2.2d, v1.2d, v1.2d
	mov	d3, v2.d[1]
	fcmp	d2, d8
	fccmp	d3, d8, #0, eq
	b.eq	.LBB6_171
.LBB6_111:
	mov	x5, xzr
	mov	w9, #14
	mov	w10, #1
	b	.LBB6_93
.LBB6_112:
	mov	x20, xzr
	sub	w8, w26, w18
	cmp	x5, #1
	mvn	w8, w8, lsl #6
	and	x8, x8, #0x40
	add	x21, x8, x4
	b.eq	.LBB6_100
.LBB6_113:
	add	x3, x5, x22
	ldr	x24, [x1]
	stp	xzr, xzr, [x29, #-40]
	cmp	x22, x3
	b.lo	.LBB6_115
	mov	w9, #1
	b	.LBB6_136
.LBB6_115:
	cmp	x5, #8
	b.hs	.LBB6_125
	mov	w9, #1
	mov	x11, x22
	b	.LBB6_134
.LBB6_117:
	cmn	x22, #1
	stur	x18, [x29, #-80]
	b.eq	.LBB6_124
	cmn	x2, #1
	mov	x8, x22
	mov	x9, x22
	stur	x25, [x29, #-56]
	str	x12, [sp, #72]
	b.eq	.LBB6_123
.LBB6_119:
	ldrb	w28, [x23, x8]
	ldrb	w25, [x24, x8]
	add	x26, x8, #1
	mov	x8, x2
.LBB6_120:
	ldrb	w27, [x23, x8]
	ldrb	w3, [x24, x8]
	add	x19, x8, #1
	mov	w8, #3
	mov	w0, w25
	mov	x1, x26
	mov	x2, x28
	mov	x4, x19
	mov	x5, x27
	mov	x6, x24
	mov	x7, x23
	str	x8, [sp]
	bl	"arithmetic::multiply::can_pair"
	tbz	w0, #0, .LBB6_91
	ldur	x9, [x29, #-8]
	add	x8, x19, x27
	cmp	x8, x9
	b.lo	.LBB6_120
	add	x8, x26, x28
	ldp	x12, x26, [sp, #72]
	ldp	x28, x27, [sp, #56]
	ldr	x2, [sp, #88]
	ldur	x25, [x29, #-56]
	cmp	x8, x12
	b.lo	.LBB6_119
	b	.LBB6_124
.LBB6_123:
	ldrb	w8, [x23, x9]
	add	x8, x9, x8
	add	x9, x8, #1
	cmp	x9, x12
	b.lo	.LBB6_123
.LBB6_124:
	ldur	x1, [x29, #-48]
	sub	x0, x29, #40
	mov	x19, x2
	mov	x2, x22
	mov	w3, #1
	b	.LBB6_167
.LBB6_125:
	cmp	x5, #32
	b.hs	.LBB6_127
	mov	x10, xzr
	mov	w9, #1
	b	.LBB6_131
.LBB6_127:
	movi	v0.16b, #1
	movi	v1.16b, #1
	add	x9, x24, x22
	movi	v2.16b, #1
	and	x11, x5, #0x18
	and	x10, x5, #0xffffffffffffffe0
	add	x9, x9, #16
	and	x12, x5, #0xffffffffffffffe0
.LBB6_128:
	ldp	q3, q4, [x9, #-16]
	subs	x12, x12, #32
	add	x9, x9, #32
	cmeq	v3.16b, v3.16b, v0.16b
	cmeq	v4.16b, v4.16b, v0.16b
	and	v1.16b, v1.16b, v3.16b
	and	v2.16b, v2.16b, v4.16b
	b.ne	.LBB6_128
	and	v0.16b, v2.16b, v1.16b
	cmp	x5, x10
	shl	v0.16b, v0.16b, #7
	cmlt	v0.16b, v0.16b, #0
	uminv	b0, v0.16b
	fmov	w9, s0
	b.eq	.LBB6_136
	cbz	x11, .LBB6_172
.LBB6_131:
	movi	v0.2d, #0xffffffffffffffff
	add	x12, x10, x22
	add	x12, x24, x12
	mov	v0.b[0], w9
	and	x9, x5, #0xfffffffffffffff8
	add	x11, x22, x9
	sub	x10, x10, x9
.LBB6_132:
	movi	v1.8b, #1
	ldr	d2, [x12], #8
	adds	x10, x10, #8
	cmeq	v1.8b, v2.8b, v1.8b
	and	v0.8b, v0.8b, v1.8b
	b.ne	.LBB6_132
	shl	v0.8b, v0.8b, #7
	cmp	x5, x9
	cmlt	v0.8b, v0.8b, #0
	uminv	b0, v0.8b
	fmov	w9, s0
	b.eq	.LBB6_136
.LBB6_134:
	add	x10, x22, x5
	sub	x10, x10, x11
	add	x11, x24, x11
.LBB6_135:
	ldrb	w12, [x11], #1
	cmp	w12, #1
	cset	w12, eq
	subs	x10, x10, #1
	and	w9, w9, w12
	b.ne	.LBB6_135
.LBB6_136:
	cmn	x2, #1
	b.eq	.LBB6_158
	ldrb	w10, [x24, x2]
	cmp	w10, #1
	cset	w10, eq
	and	w9, w9, w10
	cmp	w9, #1
	b.ne	.LBB6_159
.LBB6_138:
	mov	x5, xzr
	cmn	x2, #1
	mov	w10, wzr
	b.eq	.LBB6_168
	cmp	x22, x3
	mov	w9, w10
	b.hs	.LBB6_93
	mov	x5, xzr
	b	.LBB6_142
.LBB6_141:
	mov	w9, #1
	strb	w9, [x12, x11]
	mov	w10, #24
	ldr	x9, [x1, #16]
	mov	x5, x15
	strb	wzr, [x9, x11]
	ldr	x9, [x1, #32]
	madd	x9, x11, x10, x9
	stp	d0, d1, [x9]
	str	d2, [x9, #16]
	add	x22, x22, #1
	cmp	x22, x3
	b.eq	.LBB6_157
.LBB6_142:
	mov	w9, #24
	ldr	x10, [x1, #32]
	madd	x11, x22, x9, x10
	add	x9, x10, x27
	ldr	d1, [x9]
	ldr	d0, [x11]
	fadd	d0, d0, d1
	fsub	d1, d0, d0
	fcmp	d1, d8
	b.ne	.LBB6_169
	ldp	d1, d2, [x11, #8]
	add	x15, x5, x21
	ldp	d3, d4, [x9, #8]
	add	x9, x5, x21
	add	x11, x9, x9, lsl #1
	ldr	x12, [x1]
	ldr	x14, [x1, #16]
	fmul	d5, d1, d3
	fmul	d6, d2, d4
	lsl	x13, x11, #3
	fmul	d4, d1, d4
	fmul	d2, d2, d3
	fmov	d3, d0
	add	x11, x10, x13
	add	x11, x11, #16
	fsub	d1, d5, d6
	fadd	d2, d2, d4
.LBB6_144:
	cmp	x21, x15
	b.hs	.LBB6_148
	ldur	d4, [x11, #-40]
	sub	x15, x15, #1
	sub	x11, x11, #24
	fcmp	d3, d4
	cset	w16, mi
	fcmp	d4, d3
	//APP
	//NO_APP
	cset	w17, mi
	//APP
	//NO_APP
	cmp	w17, #0
	mov	w17, #1
	cinc	w17, w17, ne
	cmp	w16, #0
	csel	w16, wzr, w17, ne
	cbz	w16, .LBB6_144
	cmp	w16, #2
	b.ne	.LBB6_155
	add	x11, x15, #1
	b	.LBB6_149
.LBB6_148:
	add	x11, x8, x4
.LBB6_149:
	movi	d3, #0000000000000000
	fadd	d1, d1, d3
	fadd	d2, d2, d3
	fsub	d3, d1, d1
	fsub	d4, d2, d2
	fcmp	d3, d8
	fccmp	d4, d8, #0, eq
	b.ne	.LBB6_111
	add	x15, x5, #1
	cmp	x15, #64
	b.hi	.LBB6_170
	cmp	x11, x9
	b.hs	.LBB6_141
	add	x14, x14, x4
	add	x12, x12, x4
	add	x13, x10, x13
	add	x14, x14, x8
	add	x12, x12, x8
	add	x14, x14, x5
	add	x16, x12, x5
	mov	x10, x16
	mov	x12, x14
.LBB6_153:
	ldrb	w17, [x10, #-1]!
	sub	x9, x9, #1
	cmp	x11, x9
	strb	w17, [x16]
	ldrb	w16, [x12, #-1]!
	strb	w16, [x14]
	mov	x16, x10
	ldur	q3, [x13, #-24]
	ldur	x14, [x13, #-8]
	str	q3, [x13]
	str	x14, [x13, #16]
	sub	x13, x13, #24
	mov	x14, x12
	b.lo	.LBB6_153
	ldr	x12, [x1]
	b	.LBB6_141
.LBB6_155:
	ldp	d0, d3, [x11, #-8]
	fadd	d0, d1, d0
	fadd	d1, d2, d3
	fsub	d2, d0, d0
	fsub	d3, d1, d1
	fcmp	d2, d8
	fccmp	d3, d8, #0, eq
	b.ne	.LBB6_111
	stp	d0, d1, [x11, #-8]
	add	x22, x22, #1
	cmp	x22, x3
	b.ne	.LBB6_142
.LBB6_157:
	mov	w10, wzr
	mov	w9, wzr
	b	.LBB6_93
.LBB6_158:
	mov	w10, #1
	and	w9, w9, w10
	cmp	w9, #1
	b.eq	.LBB6_138
.LBB6_159:
	cmp	x22, x3
	stur	x18, [x29, #-80]
	b.hs	.LBB6_166
	cmn	x2, #1
	mov	x8, x22
	mov	x9, x22
	stur	x25, [x29, #-56]
	str	x5, [sp, #72]
	str	x3, [sp, #48]
	b.eq	.LBB6_165
.LBB6_161:
	ldrb	w25, [x23, x8]
	ldrb	w26, [x24, x8]
	add	x27, x8, #1
	mov	x8, x2
.LBB6_162:
	ldrb	w28, [x23, x8]
	ldrb	w3, [x24, x8]
	add	x19, x8, #1
	mov	w8, #3
	mov	w0, w26
	mov	x1, x27
	mov	x2, x25
	mov	x4, x19
	mov	x5, x28
	mov	x6, x24
	mov	x7, x23
	str	x8, [sp]
	bl	"arithmetic::multiply::can_pair"
	tbz	w0, #0, .LBB6_91
	ldur	x9, [x29, #-8]
	add	x8, x19, x28
	cmp	x8, x9
	b.lo	.LBB6_162
	ldp	x3, x28, [sp, #48]
	add	x8, x27, x25
	ldp	x26, x2, [sp, #80]
	ldur	x25, [x29, #-56]
	ldp	x27, x5, [sp, #64]
	cmp	x8, x3
	b.lo	.LBB6_161
	b	.LBB6_166
.LBB6_165:
	ldrb	w8, [x23, x9]
	add	x8, x9, x8
	add	x9, x8, #1
	cmp	x9, x3
	b.lo	.LBB6_165
.LBB6_166:
	ldur	x1, [x29, #-48]
	sub	x0, x29, #40
	mov	x19, x2
	mov	x2, x22
	mov	x3, x5
.LBB6_167:
	mov	x4, x19
	mov	w5, #1
	mov	x6, x21
	mov	w7, #4
	bl	"arithmetic::multiply::expr_mul"
	ldp	x0, x4, [x29, #-72]
	mov	x2, x19
	ldur	x1, [x29, #-48]
	ldurb	w10, [x29, #-40]
	ldurb	w9, [x29, #-39]
	ldur	x5, [x29, #-32]
	b	.LBB6_92
.LBB6_168:
	mov	w9, w10
	b	.LBB6_93
.LBB6_169:
	mov	x5, xzr
	mov	w9, #17
	mov	w10, #1
	b	.LBB6_93
.LBB6_170:
	mov	x5, xzr
	mov	w9, #11
	mov	w10, #1
	b	.LBB6_93
.LBB6_171:
	strb	w5, [x24, x21]
	mov	w11, #24
	mov	w10, wzr
	ldr	x8, [x1, #16]
	mov	w9, wzr
	strb	wzr, [x8, x21]
	ldr	x8, [x1, #32]
	madd	x8, x21, x11, x8
	str	d0, [x8]
	stur	q1, [x8, #8]
	b	.LBB6_93
.LBB6_172:
	add	x11, x22, x10
	b	.LBB6_134
.LBB6_173:
	ldr	x8, [x1, #16]
	mov	x20, xzr
	mov	x9, x2
.LBB6_174:
	ldrb	w10, [x8, x9]
	add	x20, x20, #1
	add	x9, x9, x10
	add	x9, x9, #1
	cmp	x9, x21
	b.lo	.LBB6_174
.LBB6_175:
	and	x8, x3, #0xf8
	mov	x25, xzr
	mov	x23, xzr
	str	x8, [sp, #64]
	and	x8, x3, #0xfffffffffffffff8
	and	x27, x3, #0x18
	and	x28, x3, #0xe0
	neg	x8, x8
	mov	x6, x2
	mov	x5, x3
	str	x8, [sp, #56]
	stp	x3, x0, [x29, #-80]
.LBB6_176:
	ldr	x22, [x1, #16]
	stur	x25, [x29, #-56]
	cmp	x20, x3
	add	x7, x5, x6
	mov	x25, x5
	b.eq	.LBB6_181
	cmp	x6, x7
	b.hs	.LBB6_180
	mov	x25, xzr
	mov	x8, x6
.LBB6_179:
	ldrb	w9, [x22, x8]
	add	x25, x25, #1
	add	x8, x8, x9
	add	x8, x8, #1
	cmp	x8, x7
	b.lo	.LBB6_179
	b	.LBB6_181
.LBB6_180:
	mov	x25, xzr
.LBB6_181:
	ldr	x8, [x1]
	cmp	x6, x7
	stp	xzr, xzr, [x29, #-40]
	stur	x8, [x29, #-8]
	b.lo	.LBB6_183
	mov	w8, #1
	b	.LBB6_196
.LBB6_183:
	cmp	x5, #8
	b.hs	.LBB6_185
	mov	w8, #1
	mov	x10, x6
	b	.LBB6_194
.LBB6_185:
	cmp	x5, #32
	b.hs	.LBB6_187
	mov	x9, xzr
	mov	w8, #1
	b	.LBB6_191
.LBB6_187:
	movi	v0.16b, #1
	movi	v1.16b, #1
	ldur	x8, [x29, #-8]
	movi	v2.16b, #1
	and	x10, x5, #0x18
	and	x9, x5, #0xffffffffffffffe0
	add	x8, x8, x6
	and	x11, x5, #0xffffffffffffffe0
	add	x8, x8, #16
.LBB6_188:
	ldp	q3, q4, [x8, #-16]
	subs	x11, x11, #32
	add	x8, x8, #32
	cmeq	v3.16b, v3.16b, v0.16b
	cmeq	v4.16b, v4.16b, v0.16b
	and	v1.16b, v1.16b, v3.16b
	and	v2.16b, v2.16b, v4.16b
	b.ne	.LBB6_188
	and	v0.16b, v2.16b, v1.16b
	cmp	x5, x9
	shl	v0.16b, v0.16b, #7
	cmlt	v0.16b, v0.16b, #0
	uminv	b0, v0.16b
	fmov	w8, s0
	b.eq	.LBB6_196
	cbz	x10, .LBB6_249
.LBB6_191:
	movi	v0.2d, #0xffffffffffffffff
	ldur	x12, [x29, #-8]
	add	x11, x9, x6
	add	x11, x12, x11
	mov	v0.b[0], w8
	and	x8, x5, #0xfffffffffffffff8
	add	x10, x6, x8
	sub	x9, x9, x8
.LBB6_192:
	movi	v1.8b, #1
	ldr	d2, [x11], #8
	adds	x9, x9, #8
	cmeq	v1.8b, v2.8b, v1.8b
	and	v0.8b, v0.8b, v1.8b
	b.ne	.LBB6_192
	shl	v0.8b, v0.8b, #7
	cmp	x5, x8
	cmlt	v0.8b, v0.8b, #0
	uminv	b0, v0.8b
	fmov	w8, s0
	b.eq	.LBB6_196
.LBB6_194:
	ldur	x11, [x29, #-8]
	add	x9, x5, x6
	sub	x9, x9, x10
	add	x10, x11, x10
.LBB6_195:
	ldrb	w11, [x10], #1
	cmp	w11, #1
	cset	w11, eq
	subs	x9, x9, #1
	and	w8, w8, w11
	b.ne	.LBB6_195
.LBB6_196:
	cmp	x2, x21
	b.lo	.LBB6_198
	mov	w10, #1
	b	.LBB6_217
.LBB6_198:
	cmp	x3, #8
	b.hs	.LBB6_200
	mov	w10, #1
	mov	x11, x2
	b	.LBB6_215
.LBB6_200:
	cmp	x3, #32
	b.hs	.LBB6_202
	mov	x9, xzr
	mov	w10, #1
	b	.LBB6_212
.LBB6_202:
	ldur	x9, [x29, #-8]
	movi	v1.16b, #1
	cmp	x28, #32
	add	x9, x9, x2
	ldp	q0, q2, [x9]
	b.ne	.LBB6_204
	cmeq	v0.16b, v0.16b, v1.16b
	cmeq	v1.16b, v2.16b, v1.16b
	b	.LBB6_210
.LBB6_204:
	ldp	q3, q4, [x9, #32]
	cmeq	v2.16b, v2.16b, v1.16b
	cmeq	v0.16b, v0.16b, v1.16b
	cmp	x28, #64
	cmeq	v3.16b, v3.16b, v1.16b
	cmeq	v1.16b, v4.16b, v1.16b
	and	v0.16b, v0.16b, v3.16b
	and	v1.16b, v2.16b, v1.16b
	b.eq	.LBB6_210
	ldur	x9, [x29, #-8]
	movi	v2.16b, #1
	cmp	x28, #96
	add	x9, x9, x2
	ldp	q3, q4, [x9, #64]
	cmeq	v3.16b, v3.16b, v2.16b
	cmeq	v4.16b, v4.16b, v2.16b
	and	v0.16b, v0.16b, v3.16b
	and	v1.16b, v1.16b, v4.16b
	b.eq	.LBB6_210
	ldp	q3, q4, [x9, #96]
	cmp	x28, #128
	cmeq	v3.16b, v3.16b, v2.16b
	cmeq	v2.16b, v4.16b, v2.16b
	and	v0.16b, v0.16b, v3.16b
	and	v1.16b, v1.16b, v2.16b
	b.eq	.LBB6_210
	ldur	x9, [x29, #-8]
	movi	v2.16b, #1
	cmp	x28, #160
	add	x9, x9, x2
	ldp	q3, q4, [x9, #128]
	cmeq	v3.16b, v3.16b, v2.16b
	cmeq	v4.16b, v4.16b, v2.16b
	and	v0.16b, v0.16b, v3.16b
	and	v1.16b, v1.16b, v4.16b
	b.eq	.LBB6_210
	ldp	q3, q4, [x9, #160]
	cmp	x28, #192
	cmeq	v3.16b, v3.16b, v2.16b
	cmeq	v2.16b, v4.16b, v2.16b
	and	v0.16b, v0.16b, v3.16b
	and	v1.16b, v1.16b, v2.16b
	b.eq	.LBB6_210
	ldur	x9, [x29, #-8]
	movi	v2.16b, #1
	add	x9, x9, x2
	ldp	q3, q4, [x9, #192]
	cmeq	v3.16b, v3.16b, v2.16b
	cmeq	v2.16b, v4.16b, v2.16b
	and	v0.16b, v0.16b, v3.16b
	and	v1.16b, v1.16b, v2.16b
.LBB6_210:
	and	v0.16b, v1.16b, v0.16b
	cmp	x3, x28
	shl	v0.16b, v0.16b, #7
	cmlt	v0.16b, v0.16b, #0
	uminv	b0, v0.16b
	fmov	w10, s0
	b.eq	.LBB6_217
	and	x9, x3, #0xe0
	add	x11, x2, x28
	cbz	x27, .LBB6_215
.LBB6_212:
	movi	v0.2d, #0xffffffffffffffff
	ldr	x11, [sp, #56]
	mov	v0.b[0], w10
	ldur	x10, [x29, #-8]
	add	x10, x10, x2
	add	x10, x10, x9
	add	x9, x11, x9
.LBB6_213:
	movi	v1.8b, #1
	ldr	d2, [x10], #8
	adds	x9, x9, #8
	cmeq	v1.8b, v2.8b, v1.8b
	and	v0.8b, v0.8b, v1.8b
	b.ne	.LBB6_213
	shl	v0.8b, v0.8b, #7
	ldr	x9, [sp, #64]
	cmp	x3, x9
	add	x11, x2, x9
	cmlt	v0.8b, v0.8b, #0
	uminv	b0, v0.8b
	fmov	w10, s0
	b.eq	.LBB6_217
.LBB6_215:
	ldur	x12, [x29, #-8]
	sub	x9, x21, x11
	add	x11, x12, x11
.LBB6_216:
	ldrb	w12, [x11], #1
	cmp	w12, #1
	cset	w12, eq
	subs	x9, x9, #1
	and	w10, w10, w12
	b.ne	.LBB6_216
.LBB6_217:
	sub	w9, w26, w23
	and	w8, w8, w10
	mvn	w9, w9, lsl #6
	and	x9, x9, #0x40
	add	x24, x9, x4
	tbz	w8, #0, .LBB6_239
	cmp	x2, x21
	mov	x5, xzr
	b.hs	.LBB6_244
	cmp	x6, x7
	b.hs	.LBB6_244
	mov	x5, xzr
.LBB6_221:
	mov	w8, #24
	ldr	x10, [x1, #32]
	madd	x8, x6, x8, x10
	ldp	d0, d1, [x8]
	ldr	d2, [x8, #16]
	mov	x8, x2
	b	.LBB6_223
.LBB6_222:
	mov	w10, #1
	strb	w10, [x13, x12]
	mov	w11, #24
	ldr	x10, [x1, #16]
	mov	x5, x16
	strb	wzr, [x10, x12]
	ldr	x10, [x1, #32]
	madd	x10, x12, x11, x10
	stp	d3, d4, [x10]
	str	d5, [x10, #16]
	add	x8, x8, #1
	cmp	x8, x21
	b.eq	.LBB6_238
.LBB6_223:
	mov	w10, #24
	ldr	x11, [x1, #32]
	madd	x10, x8, x10, x11
	ldr	d3, [x10]
	fadd	d3, d0, d3
	fsub	d4, d3, d3
	fcmp	d4, d8
	b.ne	.LBB6_252
	ldp	d4, d5, [x10, #8]
	add	x10, x5, x24
	add	x12, x10, x10, lsl #1
	ldr	x13, [x1]
	ldr	x15, [x1, #16]
	add	x16, x5, x24
	fmul	d6, d1, d4
	fmul	d7, d2, d5
	lsl	x14, x12, #3
	fmul	d5, d1, d5
	fmul	d16, d2, d4
	add	x12, x11, x14
	add	x12, x12, #16
	fsub	d4, d6, d7
	fmov	d6, d3
	fadd	d5, d16, d5
.LBB6_225:
	cmp	x24, x16
	b.hs	.LBB6_229
	ldur	d7, [x12, #-40]
	sub	x16, x16, #1
	sub	x12, x12, #24
	fcmp	d6, d7
	cset	w17, mi
	fcmp	d7, d6
	//APP
	//NO_APP
	cset	w18, mi
	//APP
	//NO_APP
	cmp	w18, #0
	mov	w18, #1
	cinc	w18, w18, ne
	cmp	w17, #0
	csel	w17, wzr, w18, ne
	cbz	w17, .LBB6_225
	cmp	w17, #2
	b.ne	.LBB6_236
	add	x12, x16, #1
	b	.LBB6_230
.LBB6_229:
	add	x12, x9, x4
.LBB6_230:
	movi	d6, #0000000000000000
	fadd	d4, d4, d6
	fadd	d5, d5, d6
	fsub	d6, d4, d4
	fsub	d7, d5, d5
	fcmp	d6, d8
	fccmp	d7, d8, #0, eq
	b.ne	.LBB6_253
	add	x16, x5, #1
	cmp	x16, #64
	b.hi	.LBB6_255
	cmp	x12, x10
	b.hs	.LBB6_222
	add	x15, x15, x4
	add	x17, x9, x5
	add	x13, x13, x4
	add	x15, x15, x17
	add	x17, x13, x17
	add	x14, x11, x14
	mov	x11, x17
	mov	x13, x15
.LBB6_234:
	ldrb	w18, [x11, #-1]!
	sub	x10, x10, #1
	cmp	x12, x10
	strb	w18, [x17]
	ldrb	w17, [x13, #-1]!
	strb	w17, [x15]
	mov	x17, x11
	ldur	q6, [x14, #-24]
	ldur	x15, [x14, #-8]
	str	q6, [x14]
	str	x15, [x14, #16]
	sub	x14, x14, #24
	mov	x15, x13
	b.lo	.LBB6_234
	ldr	x13, [x1]
	b	.LBB6_222
.LBB6_236:
	ldp	d3, d6, [x12, #-8]
	fadd	d3, d4, d3
	fadd	d4, d5, d6
	fsub	d5, d3, d3
	fsub	d6, d4, d4
	fcmp	d5, d8
	fccmp	d6, d8, #0, eq
	b.ne	.LBB6_253
	stp	d3, d4, [x12, #-8]
	add	x8, x8, #1
	cmp	x8, x21
	b.ne	.LBB6_223
.LBB6_238:
	add	x6, x6, #1
	cmp	x6, x7
	b.ne	.LBB6_221
	b	.LBB6_244
.LBB6_239:
	cmp	x6, x7
	b.hs	.LBB6_242
	cmp	x2, x21
	mov	x8, x6
	mov	x9, x6
	b.lo	.LBB6_245
.LBB6_241:
	ldrb	w8, [x22, x9]
	add	x8, x9, x8
	add	x9, x8, #1
	cmp	x9, x7
	b.lo	.LBB6_241
.LBB6_242:
	mov	x3, x5
	ldur	x5, [x29, #-80]
	sub	x0, x29, #40
	mov	x4, x2
	mov	x2, x6
	mov	x6, x24
	mov	w7, #4
	mov	x19, x4
	bl	"arithmetic::multiply::expr_mul"
	ldurb	w8, [x29, #-40]
	cbnz	w8, .LBB6_262
	ldp	x0, x4, [x29, #-72]
	mov	x2, x19
	ldur	x5, [x29, #-32]
	ldur	x1, [x29, #-48]
	ldur	x3, [x29, #-80]
.LBB6_244:
	ldur	x10, [x29, #-56]
	madd	x25, x25, x20, x10
	add	x23, x23, #1
	mov	w9, wzr
	mov	w8, wzr
	cmp	x23, x26
	mov	x6, x24
	b.ne	.LBB6_176
	b	.LBB6_9
.LBB6_245:
	ldur	x9, [x29, #-8]
	stp	x28, x27, [sp, #32]
	add	x28, x8, #1
	stp	x5, x26, [sp, #72]
	ldrb	w26, [x22, x8]
	ldrb	w27, [x9, x8]
	stp	x7, x6, [sp, #16]
	mov	x8, x2
	str	x23, [sp, #48]
	str	x2, [sp, #88]
.LBB6_246:
	ldur	x6, [x29, #-8]
	ldrb	w19, [x22, x8]
	mov	x23, x21
	add	x21, x8, #1
	mov	w0, w27
	mov	x1, x28
	ldrb	w3, [x6, x8]
	mov	w8, #3
	mov	x2, x26
	mov	x4, x21
	mov	x5, x19
	mov	x7, x22
	str	x8, [sp]
	bl	"arithmetic::multiply::can_pair"
	tbz	w0, #0, .LBB6_251
	add	x8, x21, x19
	mov	x21, x23
	cmp	x8, x23
	b.lo	.LBB6_246
	ldp	x7, x6, [sp, #16]
	add	x8, x28, x26
	ldp	x26, x2, [sp, #80]
	ldur	x1, [x29, #-48]
	ldp	x27, x23, [sp, #40]
	ldr	x5, [sp, #72]
	cmp	x8, x7
	ldr	x28, [sp, #32]
	b.lo	.LBB6_245
	b	.LBB6_242
.LBB6_249:
	add	x10, x6, x9
	b	.LBB6_194
.LBB6_250:
	mov	x5, xzr
	mov	x25, xzr
	mov	w9, wzr
	mov	w8, wzr
	b	.LBB6_9
.LBB6_251:
	ldur	x0, [x29, #-72]
	mov	w9, #6
	b	.LBB6_256
.LBB6_252:
	mov	w9, #17
	b	.LBB6_256
.LBB6_253:
	mov	w9, #14
	b	.LBB6_256
.LBB6_254:
	mov	x5, xzr
	mov	w8, #1
	mov	w9, #17
	mov	x25, x26
	b	.LBB6_9
.LBB6_255:
	mov	w9, #11
.LBB6_256:
	mov	x5, xzr
	mov	x25, xzr
	mov	w8, #1
	b	.LBB6_9
.LBB6_257:
	strb	w8, [x10, x4]
	mov	w10, #24
	mov	w9, wzr
	ldr	x8, [x1, #16]
	mov	w5, #1
	mov	x25, x26
	strb	wzr, [x8, x4]
	ldr	x8, [x1, #32]
	madd	x8, x4, x10, x8
	stp	d2, d0, [x8]
	str	d1, [x8, #16]
	mov	w8, wzr
	b	.LBB6_9
.LBB6_258:
	mov	x5, xzr
	mov	w8, #1
.LBB6_259:
	mov	w9, #14
	mov	x25, x26
	b	.LBB6_9
.LBB6_260:
	mov	x5, xzr
	mov	x25, xzr
	mov	w8, #1
	mov	w9, #17
	b	.LBB6_9
.LBB6_261:
	mov	x5, xzr
	mov	x25, xzr
	mov	w8, #1
	mov	w9, #14
	b	.LBB6_9
.LBB6_262:
	ldurb	w9, [x29, #-39]
	ldur	x0, [x29, #-72]
	mov	x5, xzr
	mov	x25, xzr
	mov	w8, #1
	b	.LBB6_9
.Lfunc_end6:
	.size	"powers::raise::power_by", .Lfunc_end6-"powers::raise::power_by"

	.section	".text.arithmetic::multiply::expr_mul","ax",@progbits
	.p2align	2
	.type	"arithmetic::multiply::expr_mul",@function
"arithmetic::multiply::expr_mul":
	stp	d15, d14, [sp, #-160]!
	stp	d13, d12, [sp, #16]
	stp	d11, d10, [sp, #32]
	stp	d9, d8, [sp, #48]
	stp	x29, x30, [sp, #64]
	add	x29, sp, #64
	stp	x28, x27, [sp, #80]
	stp	x26, x25, [sp, #96]
	stp	x24, x23, [sp, #112]
	stp	x22, x21, [sp, #128]
	stp	x20, x19, [sp, #144]
	sub	sp, sp, #3072
	str	xzr, [sp]
	sub	sp, sp, #3072
	str	xzr, [sp]
	sub	sp, sp, #928
	add	x14, x3, x2
	cmp	x2, x14
	b.hs	.LBB7_68
	add	x25, x5, x4
	mov	x20, x2
	mov	x23, x1
	cmp	x4, x25
	b.hs	.LBB7_66
	sub	x8, x7, #1
	sub	x15, x29, #144
	add	x9, sp, #288
	str	x8, [sp, #136]
	sub	x8, x29, #112
	add	x10, sp, #1, lsl #12
	orr	x8, x8, #0x2
	add	x10, x10, #2336
	add	x11, sp, #1, lsl #12
	str	x8, [sp, #128]
	orr	x8, x15, #0x2
	add	x11, x11, #2592
	str	x8, [sp, #216]
	add	x8, x9, #1536
	mov	w12, #4608
	str	x8, [sp, #80]
	add	x8, x10, #64
	movi	d8, #0000000000000000
	str	x8, [sp, #72]
	add	x8, x11, #64
	add	x13, x6, x6, lsl #1
	str	x8, [sp, #64]
	add	x8, x9, x12
	add	x12, x11, #192
	str	x8, [sp, #192]
	add	x8, x10, #192
	mov	x21, x6
	stp	x12, x8, [sp, #152]
	mov	w8, #4584
	mov	x16, xzr
	add	x8, x9, x8
	lsl	x12, x13, #3
	stp	x0, x8, [sp, #48]
	add	x8, x9, #3048
	str	x8, [sp, #40]
	add	x8, x10, #127
	str	x8, [sp, #32]
	add	x8, x11, #127
	str	x12, [sp, #144]
	str	x8, [sp, #24]
	stp	x4, x14, [sp]
	stp	x25, x23, [sp, #96]
.LBB7_3:
	add	x8, x20, x20, lsl #1
	ldr	x9, [x23]
	ldr	x10, [x23, #32]
	adrp	x11, .Lstatic.2
	add	x11, x11, :lo12:.Lstatic.2
	mov	x24, x4
	lsl	x12, x8, #3
	ldrb	w9, [x9, x20]
	ldr	x8, [x23, #16]
	add	x10, x10, x12
	add	x9, x11, x9, lsl #3
	ldrb	w28, [x8, x20]
	ldp	d9, d10, [x10]
	ldr	d11, [x10, #16]
	add	x8, x20, #1
	sub	x17, x9, #9
	str	x12, [sp, #88]
	str	x8, [sp, #16]
	stp	x17, x28, [sp, #112]
	b	.LBB7_6
.LBB7_4:
	mov	w8, #1
	strb	w8, [x27, x9]
	mov	w11, #24
	ldr	x8, [x23, #16]
	mov	x16, x10
	strb	wzr, [x8, x9]
	ldr	x8, [x23, #32]
	madd	x8, x9, x11, x8
	stp	d0, d1, [x8]
	str	d2, [x8, #16]
.LBB7_5:
	add	x8, x24, #1
	add	x24, x8, x18
	cmp	x24, x25
	b.hs	.LBB7_65
.LBB7_6:
	mov	w8, #24
	ldr	x19, [x23, #32]
	ldr	x27, [x23]
	madd	x10, x24, x8, x19
	ldr	x26, [x23, #16]
	ldrb	w8, [x27, x24]
	ldrb	w18, [x26, x24]
	ldrb	w8, [x17, x8]
	ldp	d0, d1, [x10, #8]
	cmp	w8, #1
	fmul	d2, d10, d0
	fmul	d3, d11, d1
	fmul	d1, d10, d1
	fmul	d0, d11, d0
	fsub	d13, d2, d3
	fadd	d12, d0, d1
	b.ne	.LBB7_18
	add	x8, x16, x21
	add	x9, x16, x21
	cmp	x21, x8
	b.hs	.LBB7_12
	mov	x11, x16
	mov	x9, x21
.LBB7_9:
	ldrb	w12, [x27, x9]
	cmp	w12, #1
	b.ne	.LBB7_12
	subs	x11, x11, #1
	add	x9, x9, #1
	b.ne	.LBB7_9
	add	x9, x16, x21
.LBB7_12:
	ldr	d0, [x10]
	fadd	d0, d9, d0
	fsub	d1, d0, d0
	fcmp	d1, d8
	b.ne	.LBB7_73
	mov	w10, #24
	fmov	d1, d0
	madd	x10, x9, x10, x19
	add	x10, x10, #16
.LBB7_14:
	cmp	x21, x9
	b.hs	.LBB7_33
	ldur	d2, [x10, #-40]
	sub	x9, x9, #1
	sub	x10, x10, #24
	fcmp	d1, d2
	cset	w11, mi
	fcmp	d2, d1
	//APP
	//NO_APP
	cset	w12, mi
	//APP
	//NO_APP
	cmp	w12, #0
	mov	w12, #1
	cinc	w12, w12, ne
	cmp	w11, #0
	csel	w11, wzr, w12, ne
	cbz	w11, .LBB7_14
	cmp	w11, #2
	b.ne	.LBB7_59
	add	x9, x9, #1
	b	.LBB7_34
.LBB7_18:
	add	x0, sp, #288
	mov	w1, wzr
	mov	w2, #6144
	stp	x18, x16, [sp, #200]
	add	x22, sp, #288
	bl	memset
	movi	v0.2d, #0000000000000000
	mov	x8, #-6144
	stp	xzr, xzr, [sp, #224]
	str	q0, [sp, #6688]
	str	q0, [sp, #6704]
	str	q0, [sp, #6720]
	str	q0, [sp, #6736]
	str	q0, [sp, #6752]
	str	q0, [sp, #6768]
	str	q0, [sp, #6784]
	str	q0, [sp, #6800]
	str	q0, [sp, #6816]
	str	q0, [sp, #6832]
	str	q0, [sp, #6848]
	str	q0, [sp, #6864]
	str	q0, [sp, #6880]
	str	q0, [sp, #6896]
	str	q0, [sp, #6912]
	str	q0, [sp, #6928]
	str	q0, [sp, #6672]
	str	q0, [sp, #6656]
	str	q0, [sp, #6640]
	str	q0, [sp, #6624]
	str	q0, [sp, #6608]
	str	q0, [sp, #6592]
	str	q0, [sp, #6576]
	str	q0, [sp, #6560]
	str	q0, [sp, #6544]
	str	q0, [sp, #6528]
	str	q0, [sp, #6512]
	str	q0, [sp, #6496]
	str	q0, [sp, #6480]
	str	q0, [sp, #6464]
	str	q0, [sp, #6448]
	str	q0, [sp, #6432]
.LBB7_19:
	add	x9, x22, x8
	adds	x8, x8, #24
	str	xzr, [x9, #6160]
	str	q0, [x9, #6144]
	b.ne	.LBB7_19
	add	x8, sp, #1, lsl #12
	mov	w9, #256
	add	x8, x8, #2592
	stp	x8, x9, [sp, #240]
	add	x8, sp, #1, lsl #12
	add	x8, x8, #2336
	stp	x8, x9, [sp, #256]
	add	x8, sp, #288
	stp	x8, x9, [sp, #272]
	cbz	w28, .LBB7_23
	ldr	x8, [sp, #88]
	add	x9, x26, x20
	add	x10, x27, x20
	add	x12, sp, #1, lsl #12
	add	x13, sp, #1, lsl #12
	add	x9, x9, #1
	add	x8, x19, x8
	add	x10, x10, #1
	add	x11, sp, #288
	add	x8, x8, #24
	add	x12, x12, #2336
	add	x13, x13, #2592
	mov	x14, x28
.LBB7_22:
	ldrb	w15, [x10], #1
	subs	x14, x14, #1
	strb	w15, [x13], #1
	ldrb	w15, [x9], #1
	strb	w15, [x12], #1
	ldr	x15, [x8, #16]
	ldr	q0, [x8], #24
	str	x15, [x11, #16]
	str	q0, [x11], #24
	b.ne	.LBB7_22
.LBB7_23:
	ldp	x5, x22, [sp, #200]
	cbz	w5, .LBB7_26
	mov	w8, #24
	add	x9, x26, x24
	add	x10, x27, x24
	madd	x11, x24, x8, x19
	ldp	x8, x12, [sp, #64]
	ldr	x13, [sp, #80]
	add	x9, x9, #1
	add	x10, x10, #1
	mov	x14, x5
	add	x11, x11, #24
.LBB7_25:
	ldrb	w15, [x10], #1
	subs	x14, x14, #1
	strb	w15, [x8], #1
	ldrb	w15, [x9], #1
	strb	w15, [x12], #1
	ldr	x15, [x11, #16]
	ldr	q0, [x11], #24
	str	x15, [x13, #16]
	str	q0, [x13], #24
	b.ne	.LBB7_25
.LBB7_26:
	ldr	x7, [sp, #136]
	add	x0, sp, #224
	add	x1, sp, #240
	mov	x2, xzr
	mov	x3, x28
	mov	w4, #64
	mov	w6, #128
	bl	"arithmetic::multiply::expr_mul"
	ldrb	w9, [sp, #224]
	ldr	x8, [sp, #232]
	cmp	w9, #0
	csel	x27, x8, xzr, eq
	cbnz	w9, .LBB7_72
	ldr	x17, [x23]
	ldr	x18, [x23, #16]
	ldr	x0, [x23, #32]
	cbz	x22, .LBB7_30
	ldp	x9, x12, [sp, #144]
	add	x10, x18, x21
	ldr	x13, [sp, #160]
	ldr	x14, [sp, #192]
	add	x11, x17, x21
	mov	x15, x22
	add	x9, x0, x9
.LBB7_29:
	ldrb	w16, [x11], #1
	subs	x15, x15, #1
	strb	w16, [x12], #1
	ldrb	w16, [x10], #1
	strb	w16, [x13], #1
	ldr	x16, [x9, #16]
	ldr	q0, [x9], #24
	str	x16, [x14, #16]
	str	q0, [x14], #24
	b.ne	.LBB7_29
.LBB7_30:
	add	x9, sp, #1, lsl #12
	mov	w10, #256
	and	w19, w8, #0xff
	add	x9, x9, #2592
	sub	x8, x29, #144
	add	x28, x22, #192
	stp	x9, x10, [x29, #-192]
	add	x9, sp, #1, lsl #12
	cmp	x28, #193
	add	x9, x9, #2336
	strb	w19, [x8, #33]
	mov	w26, #192
	stp	x9, x10, [x29, #-176]
	add	x9, sp, #288
	stp	x9, x10, [x29, #-160]
	mov	w9, #2
	strb	w9, [x8, #32]
	ldr	x8, [sp, #128]
	stp	x0, x18, [sp, #168]
	str	x17, [sp, #184]
	str	xzr, [x8]
	stur	xzr, [x8, #6]
	stp	d13, d12, [x29, #-96]
	b.lo	.LBB7_41
.LBB7_31:
	mov	w8, #24
	add	x9, sp, #288
	ldr	x10, [sp, #216]
	madd	x22, x26, x8, x9
	add	x8, sp, #1, lsl #12
	add	x9, sp, #1, lsl #12
	add	x8, x8, #2592
	add	x9, x9, #2336
	sub	x0, x29, #192
	ldrb	w8, [x8, x26]
	ldrb	w23, [x9, x26]
	sub	x9, x29, #144
	sub	x1, x29, #112
	sub	x3, x29, #144
	add	x4, x26, #1
	mov	w2, #128
	mov	w5, #4
	str	wzr, [x10]
	ldp	d15, d14, [x22, #8]
	ldr	q0, [x22]
	strh	wzr, [x10, #4]
	add	x25, x26, #1
	strb	w8, [x9]
	strb	w23, [x9, #1]
	stur	q0, [x9, #8]
	stur	d14, [x29, #-120]
	bl	"sums::order::cmp_term"
	and	w8, w0, #0xff
	cmp	w8, #2
	b.ne	.LBB7_40
	add	x26, x25, x23
	cmp	x26, x28
	b.lo	.LBB7_31
	b	.LBB7_41
.LBB7_33:
	mov	x9, x21
.LBB7_34:
	movi	d2, #0000000000000000
	fadd	d1, d13, d2
	fadd	d2, d12, d2
	fsub	d3, d1, d1
	fsub	d4, d2, d2
	fcmp	d3, d8
	fccmp	d4, d8, #0, eq
	b.ne	.LBB7_71
	add	x10, x16, #1
	cmp	x10, #64
	b.hi	.LBB7_70
	cmp	x9, x8
	b.hs	.LBB7_4
	mov	w11, #24
	add	x12, x26, x21
	add	x13, x27, x21
	madd	x11, x8, x11, x19
	add	x14, x12, x16
	add	x15, x13, x16
	mov	x12, x15
	mov	x13, x14
.LBB7_38:
	ldrb	w16, [x12, #-1]!
	sub	x8, x8, #1
	cmp	x9, x8
	strb	w16, [x15]
	ldrb	w15, [x13, #-1]!
	strb	w15, [x14]
	mov	x15, x12
	ldur	q3, [x11, #-24]
	ldur	x14, [x11, #-8]
	str	q3, [x11]
	str	x14, [x11, #16]
	sub	x11, x11, #24
	mov	x14, x13
	b.lo	.LBB7_38
	ldr	x27, [x23]
	b	.LBB7_4
.LBB7_40:
	cbnz	w8, .LBB7_61
.LBB7_41:
	movi	d0, #0000000000000000
	mov	w8, #14
	fadd	d13, d13, d0
	fsub	d1, d13, d13
	fcmp	d1, d8
	b.ne	.LBB7_75
	fadd	d12, d12, d0
	ldr	x22, [sp, #208]
	fsub	d0, d12, d12
	fcmp	d0, d8
	b.ne	.LBB7_75
	and	x27, x27, #0xff
	cbz	w19, .LBB7_45
	add	x0, sp, #1, lsl #12
	mov	w1, #128
	mov	x2, x27
	add	x0, x0, #2336
	mov	w3, #3
	bl	"sums::order::nests_inside"
	cbz	w0, .LBB7_74
.LBB7_45:
	add	x8, x22, x27
	add	x8, x8, #1
	cmp	x8, #64
	b.hi	.LBB7_70
	cmp	x26, x28
	b.hs	.LBB7_49
	add	x9, x22, x27
	mov	w10, #24
	ldr	x11, [sp, #192]
	madd	x9, x9, x10, x11
	ldr	x11, [sp, #56]
	add	x12, sp, #1, lsl #12
	add	x12, x12, #2592
	madd	x10, x22, x10, x11
	add	x11, sp, #1, lsl #12
	add	x14, x12, x27
	add	x11, x11, #2336
	add	x13, x11, x27
.LBB7_48:
	add	x15, x12, x28
	add	x16, x11, x28
	ldr	q0, [x10]
	ldurb	w15, [x15, #-1]
	ldurb	w16, [x16, #-1]
	strb	w15, [x14, x28]
	ldr	x15, [x10, #16]
	sub	x10, x10, #24
	strb	w16, [x13, x28]
	sub	x28, x28, #1
	str	q0, [x9]
	cmp	x26, x28
	str	x15, [x9, #16]
	sub	x9, x9, #24
	b.lo	.LBB7_48
.LBB7_49:
	add	x9, x26, x26, lsl #1
	add	x11, sp, #1, lsl #12
	add	x13, sp, #288
	ldp	x25, x23, [sp, #96]
	add	x11, x11, #2592
	lsl	x10, x9, #3
	add	x9, sp, #1, lsl #12
	ldr	x17, [sp, #112]
	add	x9, x9, #2336
	ldr	x18, [sp, #200]
	mov	w12, #2
	strb	w19, [x9, x26]
	add	x9, x26, #1
	strb	w12, [x11, x26]
	add	x11, x13, x10
	cmp	x9, #128
	str	xzr, [x11]
	stp	d13, d12, [x11, #8]
	b.ls	.LBB7_53
	ldr	x28, [sp, #120]
	cbz	w19, .LBB7_56
	add	x10, x26, x27
	mov	w11, #24
	add	x12, sp, #288
	madd	x10, x10, x11, x12
	ldp	x15, x13, [sp, #32]
	add	x12, sp, #1, lsl #12
	ldr	x14, [sp, #24]
	mov	x9, xzr
	umaddl	x11, w27, w11, x13
	add	x13, sp, #1, lsl #12
	add	x12, x12, #2336
	add	x13, x13, #2592
	add	x12, x12, x26
	add	x13, x13, x26
.LBB7_52:
	ldrb	w16, [x15, x27]
	ldr	q0, [x11]
	add	x9, x9, #1
	strb	w16, [x12, x27]
	ldr	x16, [x11, #16]
	sub	x12, x12, #1
	str	q0, [x10]
	cmp	x27, x9
	sub	x11, x11, #24
	str	x16, [x10, #16]
	ldrb	w16, [x14, x27]
	sub	x10, x10, #24
	strb	w16, [x13, x27]
	sub	x13, x13, #1
	sub	x15, x15, #1
	sub	x14, x14, #1
	b.ne	.LBB7_52
	b	.LBB7_56
.LBB7_53:
	ldr	x28, [sp, #120]
	cbz	w19, .LBB7_56
	add	x12, sp, #1, lsl #12
	add	x13, sp, #1, lsl #12
	add	x10, x10, #24
	add	x11, sp, #288
	add	x12, x12, #2336
	add	x13, x13, #2592
.LBB7_55:
	ldrb	w15, [x12, #128]
	ldrb	w14, [x13, #128]
	subs	x27, x27, #1
	ldr	q0, [x11, #3072]
	strb	w15, [x12, x9]
	add	x12, x12, #1
	ldr	x15, [x11, #3088]
	strb	w14, [x13, x9]
	add	x14, x11, x10
	add	x11, x11, #24
	add	x13, x13, #1
	str	q0, [x14]
	str	x15, [x14, #16]
	b.ne	.LBB7_55
.LBB7_56:
	mov	x16, x8
	cbz	x8, .LBB7_5
.LBB7_57:
	ldp	x8, x11, [sp, #144]
	mov	x14, x16
	ldp	x12, x9, [sp, #160]
	ldr	x13, [sp, #192]
	add	x8, x9, x8
	ldp	x9, x10, [sp, #176]
	add	x9, x9, x21
	add	x10, x10, x21
.LBB7_58:
	ldrb	w15, [x11], #1
	subs	x14, x14, #1
	strb	w15, [x10], #1
	ldrb	w15, [x12], #1
	strb	w15, [x9], #1
	ldr	x15, [x13, #16]
	ldr	q0, [x13], #24
	str	x15, [x8, #16]
	str	q0, [x8], #24
	b.ne	.LBB7_58
	b	.LBB7_5
.LBB7_59:
	ldp	d0, d1, [x10, #-8]
	fadd	d0, d13, d0
	fadd	d1, d12, d1
	fsub	d2, d0, d0
	fsub	d3, d1, d1
	fcmp	d2, d8
	fccmp	d3, d8, #0, eq
	b.ne	.LBB7_71
	stp	d0, d1, [x10, #-8]
	b	.LBB7_5
.LBB7_61:
	fadd	d13, d13, d15
	fadd	d12, d12, d14
	fsub	d0, d13, d13
	fsub	d1, d12, d12
	fcmp	d0, d8
	fccmp	d1, d8, #0, eq
	b.ne	.LBB7_71
	cbz	w19, .LBB7_64
	add	x0, sp, #1, lsl #12
	and	x2, x27, #0xff
	mov	w1, #128
	add	x0, x0, #2336
	mov	w3, #3
	bl	"sums::order::nests_inside"
	cbz	w0, .LBB7_74
.LBB7_64:
	ldp	x25, x23, [sp, #96]
	stp	d13, d12, [x22, #8]
	ldp	x17, x28, [sp, #112]
	ldp	x18, x16, [sp, #200]
	cbnz	x16, .LBB7_57
	b	.LBB7_5
.LBB7_65:
	ldp	x14, x8, [sp, #8]
	ldr	x0, [sp, #48]
	ldr	x4, [sp]
	add	x20, x8, x28
	cmp	x20, x14
	b.lo	.LBB7_3
	b	.LBB7_69
.LBB7_66:
	ldr	x8, [x23, #16]
.LBB7_67:
	ldrb	w9, [x8, x20]
	add	x9, x20, x9
	add	x20, x9, #1
	cmp	x20, x14
	b.lo	.LBB7_67
.LBB7_68:
	mov	x16, xzr
.LBB7_69:
	strh	wzr, [x0]
	str	x16, [x0, #8]
	b	.LBB7_76
.LBB7_70:
	mov	w8, #11
	b	.LBB7_75
.LBB7_71:
	mov	w8, #14
	b	.LBB7_75
.LBB7_72:
	ldrb	w8, [sp, #225]
	b	.LBB7_75
.LBB7_73:
	mov	w8, #17
	b	.LBB7_75
.LBB7_74:
	mov	w8, #12
.LBB7_75:
	ldr	x10, [sp, #48]
	mov	w9, #1
	strb	w8, [x10, #1]
	strb	w9, [x10]
	str	xzr, [x10, #8]
.LBB7_76:
	add	sp, sp, #1, lsl #12
	add	sp, sp, #2976
	ldp	x20, x19, [sp, #144]
	ldp	x22, x21, [sp, #128]
	ldp	x24, x23, [sp, #112]
	ldp	x26, x25, [sp, #96]
	ldp	x28, x27, [sp, #80]
	ldp	x29, x30, [sp, #64]
	ldp	d9, d8, [sp, #48]
	ldp	d11, d10, [sp, #32]
	ldp	d13, d12, [sp, #16]
	ldp	d15, d14, [sp], #160
	ret
.Lfunc_end7:
	.size	"arithmetic::multiply::expr_mul", .Lfunc_end7-"arithmetic::multiply::expr_mul"

	.section	".text.arithmetic::multiply::can_pair","ax",@progbits
	.p2align	2
	.type	"arithmetic::multiply::can_pair",@function
"arithmetic::multiply::can_pair":
	adrp	x8, .Lstatic.2
	add	x8, x8, :lo12:.Lstatic.2
	add	x8, x8, w0, uxtb #3
	add	x8, x8, w3, uxtb
	ldurb	w8, [x8, #-9]
	cmp	w8, #2
	b.eq	.LBB8_3
	cmp	w8, #1
	b.ne	.LBB8_12
	mov	w0, #1
	ret
.LBB8_3:
	sub	sp, sp, #112
	stp	x26, x25, [sp, #48]
	add	x26, x2, x1
	cmp	x1, x26
	stp	x29, x30, [sp, #16]
	add	x29, sp, #16
	stp	x28, x27, [sp, #32]
	stp	x24, x23, [sp, #64]
	stp	x22, x21, [sp, #80]
	stp	x20, x19, [sp, #96]
	b.hs	.LBB8_11
	add	x27, x5, x4
	mov	x19, x7
	cmp	x4, x27
	b.hs	.LBB8_10
	ldr	x8, [x29, #96]
	mov	x20, x6
	str	x4, [sp, #8]
	sub	x28, x8, #1
.LBB8_6:
	ldrb	w21, [x19, x1]
	ldrb	w22, [x20, x1]
	add	x23, x1, #1
	mov	x8, x4
.LBB8_7:
	ldrb	w24, [x19, x8]
	ldrb	w3, [x20, x8]
	add	x25, x8, #1
	mov	w0, w22
	mov	x1, x23
	mov	x2, x21
	mov	x4, x25
	mov	x5, x24
	mov	x6, x20
	mov	x7, x19
	str	x28, [sp]
	bl	"arithmetic::multiply::can_pair"
	tbz	w0, #0, .LBB8_13
	add	x8, x25, x24
	cmp	x8, x27
	b.lo	.LBB8_7
	add	x1, x23, x21
	ldr	x4, [sp, #8]
	mov	w0, #1
	cmp	x1, x26
	b.lo	.LBB8_6
	b	.LBB8_14
.LBB8_10:
	ldrb	w8, [x19, x1]
	add	x8, x1, x8
	add	x1, x8, #1
	cmp	x1, x26
	b.lo	.LBB8_10
.LBB8_11:
	mov	w0, #1
	b	.LBB8_14
.LBB8_12:
	mov	w0, wzr
	ret
.LBB8_13:
	mov	w0, wzr
.LBB8_14:
	ldp	x20, x19, [sp, #96]
	ldp	x22, x21, [sp, #80]
	ldp	x24, x23, [sp, #64]
	ldp	x26, x25, [sp, #48]
	ldp	x28, x27, [sp, #32]
	ldp	x29, x30, [sp, #16]
	add	sp, sp, #112
	ret
.Lfunc_end8:
	.size	"arithmetic::multiply::can_pair", .Lfunc_end8-"arithmetic::multiply::can_pair"

	.section	".text.sums::order::eq_term","ax",@progbits
	.p2align	2
	.type	"sums::order::eq_term",@function
"sums::order::eq_term":
	sub	sp, sp, #192
	ldrb	w8, [x1]
	ldrb	w9, [x3]
	str	x0, [sp, #24]
	mov	w0, wzr
	stp	x29, x30, [sp, #96]
	add	x29, sp, #96
	cmp	w8, w9
	stp	x28, x27, [sp, #112]
	stp	x26, x25, [sp, #128]
	stp	x24, x23, [sp, #144]
	stp	x22, x21, [sp, #160]
	stp	x20, x19, [sp, #176]
	b.ne	.LBB9_9
	ldr	d0, [x1, #8]
	ldr	d1, [x3, #8]
	fcmp	d0, d1
	b.ne	.LBB9_9
	ldrb	w8, [x3, #1]
	ldrb	w9, [x1, #1]
	add	x8, x4, x8
	add	x20, x2, x9
	cmp	x4, x8
	str	x8, [sp, #16]
	b.hs	.LBB9_8
	cmp	x2, x20
	b.hs	.LBB9_8
	ldr	x9, [sp, #24]
	sub	x8, x29, #32
	orr	x28, x8, #0x2
	sub	x8, x5, #1
	ldr	x25, [x9, #32]
	ldr	x26, [x9]
	ldr	x27, [x9, #16]
	add	x9, sp, #32
	str	x8, [sp, #8]
	orr	x24, x9, #0x2
.LBB9_5:
	mov	w8, #24
	ldrb	w9, [x26, x2]
	ldrb	w11, [x26, x4]
	madd	x10, x2, x8, x25
	ldrb	w23, [x27, x2]
	ldrb	w19, [x27, x4]
	add	x21, x2, #1
	add	x22, x4, #1
	ldr	x0, [sp, #24]
	madd	x8, x4, x8, x25
	ldr	x5, [sp, #8]
	sub	x1, x29, #32
	add	x3, sp, #32
	mov	x2, x21
	mov	x4, x22
	str	wzr, [x28]
	ldr	q0, [x10]
	ldr	d1, [x10, #16]
	strh	wzr, [x28, #4]
	sturb	w9, [x29, #-32]
	stur	q0, [x29, #-24]
	ldr	q0, [x8]
	stur	d1, [x29, #-8]
	ldr	d1, [x8, #16]
	strb	w11, [sp, #32]
	str	wzr, [x24]
	sturb	w23, [x29, #-31]
	strb	w19, [sp, #33]
	strh	wzr, [x24, #4]
	stur	q0, [sp, #40]
	str	d1, [sp, #56]
	bl	"sums::order::eq_term"
	cbz	w0, .LBB9_9
	ldr	x8, [sp, #16]
	add	x4, x22, x19
	add	x2, x21, x23
	cmp	x4, x8
	b.hs	.LBB9_8
	cmp	x2, x20
	b.lo	.LBB9_5
.LBB9_8:
	ldr	x8, [sp, #16]
	cmp	x4, x8
	ccmp	x2, x20, #0, eq
	cset	w0, eq
.LBB9_9:
	ldp	x20, x19, [sp, #176]
	ldp	x22, x21, [sp, #160]
	ldp	x24, x23, [sp, #144]
	ldp	x26, x25, [sp, #128]
	ldp	x28, x27, [sp, #112]
	ldp	x29, x30, [sp, #96]
	add	sp, sp, #192
	ret
.Lfunc_end9:
	.size	"sums::order::eq_term", .Lfunc_end9-"sums::order::eq_term"

	.section	".text.primitives::add_times_i","ax",@progbits
	.p2align	2
	.type	"primitives::add_times_i",@function
"primitives::add_times_i":
	sub	sp, sp, #336
	ldr	x8, [x1]
	mov	w9, #1
	stp	x24, x23, [sp, #288]
	stp	x22, x21, [sp, #304]
	mov	x23, x4
	mov	x21, x3
	strb	w9, [x8]
	mov	x9, #4607182418800017408
	cmp	x5, #1
	ldr	x8, [x1, #16]
	stp	d13, d12, [sp, #192]
	stp	d11, d10, [sp, #208]
	strb	wzr, [x8]
	ldr	x8, [x1, #32]
	stp	d9, d8, [sp, #224]
	stp	x29, x30, [sp, #240]
	add	x29, sp, #240
	stp	x28, x27, [sp, #256]
	stp	x26, x25, [sp, #272]
	stp	x20, x19, [sp, #320]
	stp	xzr, xzr, [x8]
	str	x9, [x8, #16]
	b.ne	.LBB10_6
	ldr	x24, [x1]
	ldr	x25, [x1, #16]
	ldr	x8, [x1, #32]
	ldrb	w9, [x24, x23]
	ldrb	w26, [x24]
	cmp	w9, #1
	b.ne	.LBB10_9
	cmp	w26, #1
	b.ne	.LBB10_9
	mov	w9, #24
	ldr	d0, [x8]
	movi	d3, #0000000000000000
	madd	x9, x23, x9, x8
	ldr	d1, [x9]
	fadd	d0, d0, d1
	movi	d1, #0000000000000000
	fsub	d2, d0, d0
	fcmp	d2, d1
	b.ne	.LBB10_24
	ldp	d2, d4, [x8, #8]
	ldp	d6, d5, [x9, #8]
	fmul	d7, d2, d6
	fmul	d16, d5, d4
	fmul	d2, d2, d5
	fmul	d4, d4, d6
	fsub	d5, d7, d16
	fadd	d4, d2, d4
	fadd	d2, d5, d3
	fadd	d3, d4, d3
	fsub	d4, d2, d2
	fsub	d5, d3, d3
	fcmp	d4, d1
	fccmp	d5, d1, #0, eq
	b.eq	.LBB10_25
	mov	w9, #14
	b	.LBB10_73
.LBB10_6:
	add	x9, x5, x23
	ldr	x24, [x1]
	add	x8, x5, x23
	cmp	x23, x9
	stp	x8, xzr, [sp, #64]
	str	xzr, [sp, #80]
	b.hs	.LBB10_15
	cmp	x5, #8
	b.hs	.LBB10_22
	mov	w9, #1
	mov	x10, x23
	b	.LBB10_41
.LBB10_9:
	cmp	w9, #1
	str	x0, [sp, #56]
	cset	w9, ne
	adds	x22, x23, #1
	stp	xzr, xzr, [sp, #72]
	cset	w10, hs
	bic	w9, w9, w10
	tbnz	w9, #0, .LBB10_17
	cmp	w26, #1
	b.ne	.LBB10_17
	cmn	x23, #1
	b.eq	.LBB10_28
	mov	w9, #24
	ldr	d1, [x8]
	movi	d3, #0000000000000000
	madd	x9, x23, x9, x8
	ldr	x0, [sp, #56]
	ldr	d0, [x9]
	fadd	d0, d0, d1
	movi	d1, #0000000000000000
	fsub	d2, d0, d0
	fcmp	d2, d1
	b.ne	.LBB10_67
	ldp	d4, d2, [x9, #8]
	ldp	d5, d6, [x8, #8]
	mov	w8, #1
	fmul	d7, d5, d4
	fmul	d16, d2, d6
	fmul	d2, d2, d5
	fmul	d4, d4, d6
	fsub	d5, d7, d16
	fadd	d4, d2, d4
	fadd	d2, d5, d3
	fadd	d3, d4, d3
	fsub	d4, d2, d2
	fsub	d5, d3, d3
	fcmp	d4, d1
	fccmp	d5, d1, #0, eq
	b.eq	.LBB10_127
.LBB10_14:
	mov	x8, xzr
	mov	w9, #14
	mov	w20, #1
	b	.LBB10_72
.LBB10_15:
	ldrb	w8, [x24]
	mov	x22, x1
	stp	x2, x0, [sp, #48]
	str	x5, [sp, #32]
	cmp	w8, #1
	b.ne	.LBB10_66
	mov	w20, wzr
	mov	w9, wzr
	mov	x8, xzr
	b	.LBB10_69
.LBB10_17:
	cmn	x23, #1
	stp	x1, x2, [sp, #40]
	b.eq	.LBB10_21
	ldrb	w27, [x25]
	mov	x8, x23
.LBB10_19:
	ldrb	w28, [x25, x8]
	ldrb	w0, [x24, x8]
	add	x19, x8, #1
	mov	w8, #3
	mov	x1, x19
	mov	w3, w26
	mov	x2, x28
	mov	w4, #1
	mov	x5, x27
	mov	x6, x24
	mov	x7, x25
	str	x8, [sp]
	mov	w20, #1
	bl	"arithmetic::multiply::can_pair"
	cbz	w0, .LBB10_29
	add	x8, x19, x28
	cmp	x8, x22
	b.lo	.LBB10_19
.LBB10_21:
	ldr	x19, [sp, #40]
	add	x0, sp, #72
	mov	x2, x23
	mov	w3, #1
	mov	x4, xzr
	mov	w5, #1
	mov	x1, x19
	mov	w6, #64
	mov	w7, #4
	bl	"arithmetic::multiply::expr_mul"
	ldp	x2, x0, [sp, #48]
	mov	x1, x19
	ldrb	w20, [sp, #72]
	ldrb	w9, [sp, #73]
	ldr	x8, [sp, #80]
	b	.LBB10_72
.LBB10_22:
	cmp	x5, #32
	b.hs	.LBB10_26
	mov	x8, xzr
	mov	w9, #1
	b	.LBB10_38
.LBB10_24:
	mov	w9, #17
	b	.LBB10_73
.LBB10_25:
	mov	w8, #1
	strb	w8, [x24, #64]
	ldr	x9, [x1, #16]
	strb	wzr, [x9, #64]
	ldr	x9, [x1, #32]
	str	d0, [x9, #1536]
	str	d2, [x9, #1544]
	str	d3, [x9, #1552]
	b	.LBB10_74
.LBB10_26:
	movi	v1.16b, #1
	add	x9, x24, x23
	and	x8, x5, #0xe0
	ldp	q0, q2, [x9]
	cmp	x8, #32
	b.ne	.LBB10_30
	cmeq	v0.16b, v0.16b, v1.16b
	cmeq	v1.16b, v2.16b, v1.16b
	b	.LBB10_36
.LBB10_28:
	mov	w20, wzr
	mov	w9, wzr
	mov	x8, xzr
	b	.LBB10_71
.LBB10_29:
	ldp	x2, x0, [sp, #48]
	mov	x8, xzr
	ldr	x1, [sp, #40]
	mov	w9, #6
	b	.LBB10_72
.LBB10_30:
	ldp	q3, q4, [x9, #32]
	cmeq	v2.16b, v2.16b, v1.16b
	cmeq	v0.16b, v0.16b, v1.16b
	cmp	x8, #64
	cmeq	v3.16b, v3.16b, v1.16b
	cmeq	v1.16b, v4.16b, v1.16b
	and	v0.16b, v0.16b, v3.16b
	and	v1.16b, v2.16b, v1.16b
	b.eq	.LBB10_36
	movi	v2.16b, #1
	add	x9, x24, x23
	cmp	x8, #96
	ldp	q3, q4, [x9, #64]
	cmeq	v3.16b, v3.16b, v2.16b
	cmeq	v4.16b, v4.16b, v2.16b
	and	v0.16b, v0.16b, v3.16b
	and	v1.16b, v1.16b, v4.16b
	b.eq	.LBB10_36
	ldp	q3, q4, [x9, #96]
	cmp	x8, #128
	cmeq	v3.16b, v3.16b, v2.16b
	cmeq	v2.16b, v4.16b, v2.16b
	and	v0.16b, v0.16b, v3.16b
	and	v1.16b, v1.16b, v2.16b
	b.eq	.LBB10_36
	movi	v2.16b, #1
	add	x9, x24, x23
	cmp	x8, #160
	ldp	q3, q4, [x9, #128]
	cmeq	v3.16b, v3.16b, v2.16b
	cmeq	v4.16b, v4.16b, v2.16b
	and	v0.16b, v0.16b, v3.16b
	and	v1.16b, v1.16b, v4.16b
	b.eq	.LBB10_36
	ldp	q3, q4, [x9, #160]
	cmp	x8, #192
	cmeq	v3.16b, v3.16b, v2.16b
	cmeq	v2.16b, v4.16b, v2.16b
	and	v0.16b, v0.16b, v3.16b
	and	v1.16b, v1.16b, v2.16b
	b.eq	.LBB10_36
	movi	v2.16b, #1
	add	x9, x24, x23
	ldp	q3, q4, [x9, #192]
	cmeq	v3.16b, v3.16b, v2.16b
	cmeq	v2.16b, v4.16b, v2.16b
	and	v0.16b, v0.16b, v3.16b
	and	v1.16b, v1.16b, v2.16b
.LBB10_36:
	and	v0.16b, v1.16b, v0.16b
	cmp	x5, x8
	shl	v0.16b, v0.16b, #7
	cmlt	v0.16b, v0.16b, #0
	uminv	b0, v0.16b
	fmov	w9, s0
	b.eq	.LBB10_43
	and	x10, x5, #0x18
	cbz	x10, .LBB10_139
.LBB10_38:
	movi	v0.2d, #0xffffffffffffffff
	add	x11, x8, x23
	add	x11, x24, x11
	mov	v0.b[0], w9
	and	x9, x5, #0xf8
	add	x10, x23, x9
	sub	x8, x8, x9
.LBB10_39:
	movi	v1.8b, #1
	ldr	d2, [x11], #8
	adds	x8, x8, #8
	cmeq	v1.8b, v2.8b, v1.8b
	and	v0.8b, v0.8b, v1.8b
	b.ne	.LBB10_39
	shl	v0.8b, v0.8b, #7
	cmp	x5, x9
	cmlt	v0.8b, v0.8b, #0
	uminv	b0, v0.8b
	fmov	w9, s0
	b.eq	.LBB10_43
.LBB10_41:
	add	x8, x5, x23
	sub	x8, x8, x10
	add	x10, x24, x10
.LBB10_42:
	ldrb	w11, [x10], #1
	cmp	w11, #1
	cset	w11, eq
	subs	x8, x8, #1
	and	w9, w9, w11
	b.ne	.LBB10_42
.LBB10_43:
	ldr	x26, [x1, #16]
	ldrb	w27, [x24]
	tbz	w9, #0, .LBB10_63
	cmp	w27, #1
	b.ne	.LBB10_63
	movi	d0, #0000000000000000
	mov	x8, xzr
	b	.LBB10_47
.LBB10_46:
	mov	w8, #1
	strb	w8, [x12, x11]
	mov	w9, #24
	ldr	x8, [x1, #16]
	strb	wzr, [x8, x11]
	ldr	x8, [x1, #32]
	madd	x8, x11, x9, x8
	stp	d1, d2, [x8]
	str	d3, [x8, #16]
	mov	x8, x15
	ldr	x9, [sp, #64]
	add	x23, x23, #1
	cmp	x23, x9
	b.eq	.LBB10_62
.LBB10_47:
	mov	w9, #24
	ldr	x10, [x1, #32]
	madd	x9, x23, x9, x10
	ldr	d2, [x10]
	ldr	d1, [x9]
	fadd	d1, d1, d2
	fsub	d2, d1, d1
	fcmp	d2, d0
	b.ne	.LBB10_67
	ldp	d2, d3, [x9, #8]
	add	x9, x8, x8, lsl #1
	ldp	d4, d5, [x10, #8]
	add	x15, x8, #64
	lsl	x13, x9, #3
	ldr	x12, [x1]
	ldr	x14, [x1, #16]
	add	x9, x8, #64
	fmul	d6, d2, d4
	fmul	d7, d3, d5
	add	x11, x10, x13
	fmul	d5, d2, d5
	fmul	d3, d3, d4
	fmov	d4, d1
	add	x11, x11, #1552
	fsub	d2, d6, d7
	fadd	d3, d3, d5
.LBB10_49:
	cmp	x15, #65
	b.lo	.LBB10_53
	ldur	d5, [x11, #-40]
	sub	x15, x15, #1
	sub	x11, x11, #24
	fcmp	d4, d5
	cset	w16, mi
	fcmp	d5, d4
	//APP
	//NO_APP
	cset	w17, mi
	//APP
	//NO_APP
	cmp	w17, #0
	mov	w17, #1
	cinc	w17, w17, ne
	cmp	w16, #0
	csel	w16, wzr, w17, ne
	cbz	w16, .LBB10_49
	cmp	w16, #2
	b.ne	.LBB10_60
	add	x11, x15, #1
	b	.LBB10_54
.LBB10_53:
	mov	w11, #64
.LBB10_54:
	movi	d4, #0000000000000000
	fadd	d2, d2, d4
	fadd	d3, d3, d4
	fsub	d4, d2, d2
	fsub	d5, d3, d3
	fcmp	d4, d0
	fccmp	d5, d0, #0, eq
	b.ne	.LBB10_14
	add	x15, x8, #1
	cmp	x15, #64
	b.hi	.LBB10_130
	cmp	x11, x9
	b.hs	.LBB10_46
	add	x14, x14, x8
	add	x8, x12, x8
	add	x10, x10, x13
	add	x13, x14, #64
	add	x14, x8, #64
	add	x8, x10, #1512
	mov	x10, x14
	mov	x12, x13
.LBB10_58:
	ldrb	w16, [x10, #-1]!
	sub	x9, x9, #1
	cmp	x11, x9
	strb	w16, [x14]
	ldrb	w14, [x12, #-1]!
	strb	w14, [x13]
	mov	x14, x10
	ldr	q4, [x8]
	ldr	x13, [x8, #16]
	stur	q4, [x8, #24]
	str	x13, [x8, #40]
	sub	x8, x8, #24
	mov	x13, x12
	b.lo	.LBB10_58
	ldr	x12, [x1]
	b	.LBB10_46
.LBB10_60:
	ldp	d1, d4, [x11, #-8]
	fadd	d1, d2, d1
	fadd	d2, d3, d4
	fsub	d3, d1, d1
	fsub	d4, d2, d2
	fcmp	d3, d0
	fccmp	d4, d0, #0, eq
	b.ne	.LBB10_14
	stp	d1, d2, [x11, #-8]
	ldr	x9, [sp, #64]
	add	x23, x23, #1
	cmp	x23, x9
	b.ne	.LBB10_47
.LBB10_62:
	mov	w20, wzr
	mov	w9, wzr
	b	.LBB10_72
.LBB10_63:
	ldrb	w28, [x26]
	mov	x22, x1
	mov	x8, x23
	stp	x2, x0, [sp, #48]
	str	x5, [sp, #32]
.LBB10_64:
	ldrb	w19, [x26, x8]
	ldrb	w0, [x24, x8]
	add	x25, x8, #1
	mov	w8, #3
	mov	x1, x25
	mov	w3, w27
	mov	x2, x19
	mov	w4, #1
	mov	x5, x28
	mov	x6, x24
	mov	x7, x26
	str	x8, [sp]
	mov	w20, #1
	bl	"arithmetic::multiply::can_pair"
	cbz	w0, .LBB10_68
	ldr	x9, [sp, #64]
	add	x8, x25, x19
	cmp	x8, x9
	b.lo	.LBB10_64
.LBB10_66:
	ldr	x3, [sp, #32]
	add	x0, sp, #72
	mov	x1, x22
	mov	x2, x23
	mov	x4, xzr
	mov	w5, #1
	mov	w6, #64
	mov	w7, #4
	bl	"arithmetic::multiply::expr_mul"
	ldrb	w20, [sp, #72]
	ldrb	w9, [sp, #73]
	mov	x1, x22
	ldr	x8, [sp, #80]
	b	.LBB10_70
.LBB10_67:
	mov	x8, xzr
	mov	w9, #17
	mov	w20, #1
	b	.LBB10_72
.LBB10_68:
	mov	x8, xzr
	mov	w9, #6
.LBB10_69:
	mov	x1, x22
.LBB10_70:
	ldr	x2, [sp, #48]
.LBB10_71:
	ldr	x0, [sp, #56]
.LBB10_72:
	cbz	w20, .LBB10_74
.LBB10_73:
	mov	w8, #1
	strb	w9, [x0, #1]
	strb	w8, [x0]
	str	xzr, [x0, #8]
	b	.LBB10_138
.LBB10_74:
	cbz	x21, .LBB10_77
	add	x12, x2, x2, lsl #1
	ldr	x9, [x1]
	ldr	x10, [x1, #16]
	ldr	x11, [x1, #32]
	mov	x13, x21
	lsl	x12, x12, #3
.LBB10_76:
	ldrb	w14, [x9, x2]
	add	x15, x11, x12
	subs	x13, x13, #1
	strb	w14, [x9], #1
	ldrb	w14, [x10, x2]
	strb	w14, [x10], #1
	ldr	x14, [x15, #16]
	ldr	q0, [x15]
	str	x14, [x11, #16]
	str	q0, [x11], #24
	b.ne	.LBB10_76
.LBB10_77:
	add	x19, x8, #64
	cmp	x19, #65
	b.lo	.LBB10_124
	movi	d8, #0000000000000000
	sub	x8, x29, #88
	add	x9, sp, #120
	orr	x8, x8, #0x2
	mov	w25, #64
	str	x19, [sp, #16]
	stp	x8, x1, [sp, #32]
	orr	x8, x9, #0x2
	stp	x0, x8, [sp, #56]
	b	.LBB10_81
.LBB10_79:
	mov	w10, #1
	strb	w10, [x27, x9]
	add	x21, x21, #1
	ldr	x10, [x1, #16]
	strb	wzr, [x10, x9]
	ldr	x9, [x1, #32]
	add	x8, x9, x8
	stp	d9, d1, [x8, #-16]
	str	d0, [x8]
.LBB10_80:
	add	x25, x23, x22
	cmp	x25, x19
	b.hs	.LBB10_126
.LBB10_81:
	mov	w8, #24
	ldr	x28, [x1, #32]
	ldr	x27, [x1]
	madd	x8, x25, x8, x28
	ldr	x24, [x1, #16]
	add	x23, x25, #1
	ldrb	w10, [x27, x25]
	ldrb	w22, [x24, x25]
	cmp	w10, #1
	ldp	d9, d11, [x8]
	ldr	d10, [x8, #16]
	b.ne	.LBB10_97
	mov	x10, xzr
	cbz	x21, .LBB10_86
.LBB10_83:
	ldrb	w8, [x27, x10]
	cmp	w8, #1
	b.ne	.LBB10_86
	add	x10, x10, #1
	cmp	x21, x10
	b.ne	.LBB10_83
	mov	x10, x21
.LBB10_86:
	fsub	d0, d9, d9
	fcmp	d0, d8
	b.ne	.LBB10_128
	mov	w8, #24
	mov	x9, #16
	fmov	d0, d9
	madd	x11, x10, x8, x9
.LBB10_88:
	mov	x9, x10
	mov	x8, x11
	cbz	x10, .LBB10_91
	add	x10, x28, x8
	ldur	d1, [x10, #-40]
	fcmp	d0, d1
	cset	w10, mi
	fcmp	d1, d0
	//APP
	//NO_APP
	cset	w11, mi
	//APP
	//NO_APP
	cmp	w11, #0
	mov	w11, #1
	cinc	w11, w11, ne
	cmp	w10, #0
	sub	x10, x9, #1
	csel	w12, wzr, w11, ne
	sub	x11, x8, #24
	cbz	w12, .LBB10_88
	cmp	w12, #2
	b.ne	.LBB10_118
.LBB10_91:
	movi	d0, #0000000000000000
	fadd	d1, d11, d0
	fadd	d0, d10, d0
	fsub	d2, d1, d1
	fsub	d3, d0, d0
	fcmp	d2, d8
	fccmp	d3, d8, #0, eq
	b.ne	.LBB10_129
	cmp	x21, #63
	b.hi	.LBB10_132
	cmp	x9, x21
	b.hs	.LBB10_79
	mov	w10, #24
	add	x14, x24, x21
	add	x15, x27, x21
	madd	x10, x21, x10, x28
	mov	x11, x21
	mov	x12, x15
	mov	x13, x14
.LBB10_95:
	ldrb	w16, [x12, #-1]!
	sub	x11, x11, #1
	cmp	x9, x11
	strb	w16, [x15]
	ldrb	w15, [x13, #-1]!
	strb	w15, [x14]
	mov	x15, x12
	ldur	q2, [x10, #-24]
	ldur	x14, [x10, #-8]
	str	q2, [x10]
	str	x14, [x10, #16]
	sub	x10, x10, #24
	mov	x14, x13
	b.lo	.LBB10_95
	ldr	x27, [x1]
	b	.LBB10_79
.LBB10_97:
	fsub	d0, d9, d9
	fcmp	d0, d8
	b.ne	.LBB10_125
	add	x8, x25, #1
	ldr	x9, [x1, #24]
	mov	x19, xzr
	str	x8, [sp, #24]
	ldr	x8, [x1, #8]
	str	x27, [sp, #72]
	stp	x8, x24, [sp, #80]
	ldr	x8, [x1, #40]
	stp	x9, x28, [sp, #96]
	str	x8, [sp, #112]
	ldr	x8, [sp, #32]
	str	w10, [sp, #48]
	sturb	w10, [x29, #-88]
	sturb	w22, [x29, #-87]
	str	wzr, [x8]
	strh	wzr, [x8, #4]
	stp	d9, d11, [x29, #-80]
	stur	d10, [x29, #-64]
	cbz	x21, .LBB10_102
.LBB10_99:
	mov	w8, #24
	ldr	x9, [sp, #64]
	ldrb	w26, [x24, x19]
	madd	x20, x19, x8, x28
	ldrb	w8, [x27, x19]
	add	x0, sp, #72
	sub	x1, x29, #88
	add	x2, x25, #1
	add	x3, sp, #120
	add	x4, x19, #1
	mov	w5, #4
	str	wzr, [x9]
	strh	wzr, [x9, #4]
	add	x23, x19, #1
	strb	w8, [sp, #120]
	ldp	d13, d12, [x20, #8]
	ldr	q0, [x20]
	strb	w26, [sp, #121]
	stur	q0, [sp, #128]
	str	d12, [sp, #144]
	bl	"sums::order::cmp_term"
	and	w8, w0, #0xff
	cmp	w8, #2
	b.ne	.LBB10_101
	add	x19, x23, x26
	cmp	x19, x21
	b.lo	.LBB10_99
	b	.LBB10_102
.LBB10_101:
	cbnz	w8, .LBB10_120
.LBB10_102:
	movi	d0, #0000000000000000
	fadd	d11, d11, d0
	fadd	d10, d10, d0
	fsub	d0, d11, d11
	fsub	d1, d10, d10
	fcmp	d0, d8
	fccmp	d1, d8, #0, eq
	b.ne	.LBB10_125
	cbz	w22, .LBB10_105
	add	x1, x25, #1
	mov	x0, x24
	mov	x2, x22
	mov	w3, #3
	bl	"sums::order::nests_inside"
	cbz	w0, .LBB10_133
.LBB10_105:
	add	x8, x21, x22
	add	x8, x8, #1
	cmp	x8, #64
	b.hi	.LBB10_131
	ldr	x1, [sp, #40]
	cmp	x19, x21
	add	x23, x25, #1
	b.hs	.LBB10_110
	mov	w9, #24
	add	x10, x21, x22
	add	x11, x27, x22
	madd	x12, x21, x9, x28
	madd	x9, x10, x9, x28
	add	x10, x24, x22
	sub	x12, x12, #24
.LBB10_108:
	add	x13, x27, x21
	add	x14, x24, x21
	ldurb	w13, [x13, #-1]
	strb	w13, [x11, x21]
	ldurb	w13, [x14, #-1]
	strb	w13, [x10, x21]
	sub	x21, x21, #1
	ldr	x13, [x12, #16]
	ldr	q0, [x12], #-24
	cmp	x19, x21
	str	x13, [x9, #16]
	str	q0, [x9], #-24
	b.lo	.LBB10_108
	ldr	x27, [x1]
.LBB10_110:
	ldr	w9, [sp, #48]
	mov	w10, #24
	cmp	x19, x25
	strb	w9, [x27, x19]
	ldr	x9, [x1, #16]
	strb	w22, [x9, x19]
	ldr	x9, [x1, #32]
	madd	x9, x19, x10, x9
	stp	d9, d11, [x9]
	str	d10, [x9, #16]
	ldr	x15, [x1]
	ldr	x14, [x1, #16]
	ldr	x11, [x1, #32]
	b.ls	.LBB10_114
	cbz	w22, .LBB10_117
	add	x10, x19, x22
	mov	w12, #24
	add	x13, x25, x22
	madd	x10, x10, x12, x11
	mov	x9, xzr
	madd	x11, x13, x12, x11
	add	x12, x14, x19
	add	x13, x15, x19
	add	x14, x14, x25
	add	x15, x15, x25
.LBB10_113:
	ldrb	w16, [x15, x22]
	add	x9, x9, #1
	sub	x15, x15, #1
	strb	w16, [x13, x22]
	sub	x13, x13, #1
	cmp	x22, x9
	ldrb	w16, [x14, x22]
	sub	x14, x14, #1
	strb	w16, [x12, x22]
	sub	x12, x12, #1
	ldr	x16, [x11, #16]
	ldr	q0, [x11], #-24
	str	x16, [x10, #16]
	str	q0, [x10], #-24
	b.ne	.LBB10_113
	b	.LBB10_117
.LBB10_114:
	cbz	w22, .LBB10_117
	mov	w12, #24
	add	x11, x11, #24
	add	x14, x14, #1
	madd	x10, x19, x12, x11
	add	x15, x15, #1
	mov	x9, xzr
	add	x13, x15, x19
	add	x15, x15, x25
	madd	x11, x25, x12, x11
	add	x12, x14, x19
	add	x14, x14, x25
.LBB10_116:
	ldrb	w16, [x15, x9]
	strb	w16, [x13, x9]
	ldrb	w16, [x14, x9]
	strb	w16, [x12, x9]
	add	x9, x9, #1
	ldr	x16, [x11, #16]
	ldr	q0, [x11], #24
	cmp	x22, x9
	str	x16, [x10, #16]
	str	q0, [x10], #24
	b.ne	.LBB10_116
.LBB10_117:
	ldr	x19, [sp, #16]
	mov	x21, x8
	b	.LBB10_80
.LBB10_118:
	add	x8, x28, x11
	ldp	d0, d1, [x8, #-8]
	fadd	d0, d11, d0
	fadd	d1, d10, d1
	fsub	d2, d0, d0
	fsub	d3, d1, d1
	fcmp	d2, d8
	fccmp	d3, d8, #0, eq
	b.ne	.LBB10_129
	stur	d0, [x8, #-8]
	str	d1, [x28, x11]
	b	.LBB10_80
.LBB10_120:
	fadd	d9, d11, d13
	fadd	d10, d10, d12
	ldr	x19, [sp, #16]
	fsub	d0, d9, d9
	fsub	d1, d10, d10
	fcmp	d0, d8
	fccmp	d1, d8, #0, eq
	b.ne	.LBB10_125
	ldr	x23, [sp, #24]
	cbz	w22, .LBB10_123
	mov	x0, x24
	mov	x1, x23
	mov	x2, x22
	mov	w3, #3
	bl	"sums::order::nests_inside"
	cbz	w0, .LBB10_133
.LBB10_123:
	ldr	x1, [sp, #40]
	stp	d9, d10, [x20, #8]
	b	.LBB10_80
.LBB10_124:
	mov	w9, wzr
	mov	w8, wzr
	b	.LBB10_137
.LBB10_125:
	mov	w8, #14
	b	.LBB10_134
.LBB10_126:
	mov	w9, wzr
	mov	w8, wzr
	b	.LBB10_136
.LBB10_127:
	strb	w8, [x24, #64]
	mov	w20, wzr
	mov	w9, wzr
	ldr	x10, [x1, #16]
	strb	wzr, [x10, #64]
	ldr	x10, [x1, #32]
	str	d0, [x10, #1536]
	str	d2, [x10, #1544]
	str	d3, [x10, #1552]
	b	.LBB10_72
.LBB10_128:
	mov	x21, xzr
	mov	w8, #17
	b	.LBB10_135
.LBB10_129:
	mov	x21, xzr
	mov	w8, #14
	b	.LBB10_135
.LBB10_130:
	mov	x8, xzr
	mov	w9, #11
	mov	w20, #1
	b	.LBB10_72
.LBB10_131:
	mov	w8, #11
	b	.LBB10_134
.LBB10_132:
	mov	x21, xzr
	mov	w8, #11
	b	.LBB10_135
.LBB10_133:
	mov	w8, #12
.LBB10_134:
	mov	x21, xzr
.LBB10_135:
	mov	w9, #1
.LBB10_136:
	ldr	x0, [sp, #56]
.LBB10_137:
	strb	w9, [x0]
	strb	w8, [x0, #1]
	str	x21, [x0, #8]
.LBB10_138:
	ldp	x20, x19, [sp, #320]
	ldp	x22, x21, [sp, #304]
	ldp	x24, x23, [sp, #288]
	ldp	x26, x25, [sp, #272]
	ldp	x28, x27, [sp, #256]
	ldp	x29, x30, [sp, #240]
	ldp	d9, d8, [sp, #224]
	ldp	d11, d10, [sp, #208]
	ldp	d13, d12, [sp, #192]
	add	sp, sp, #336
	ret
.LBB10_139:
	add	x10, x23, x8
	b	.LBB10_41
.Lfunc_end10:
	.size	"primitives::add_times_i", .Lfunc_end10-"primitives::add_times_i"

	.section	".text.reading::walk::modify","ax",@progbits
	.p2align	2
	.type	"reading::walk::modify",@function
"reading::walk::modify":
	sub	sp, sp, #464
	stp	x20, x19, [sp, #448]
	add	x20, x2, #1
	ldr	x18, [x7, #16]
	stp	x29, x30, [sp, #368]
	mov	x8, xzr
	add	x29, sp, #368
	stp	x28, x27, [sp, #384]
	add	x27, x20, w4, uxtw
	ldp	x28, x30, [x7]
	stp	x26, x25, [sp, #400]
	ldrb	w26, [x7, #24]
	cmp	x20, x27
	stp	x24, x23, [sp, #416]
	stp	x22, x21, [sp, #432]
	str	wzr, [sp, #168]
	stur	wzr, [sp, #171]
	b.hs	.LBB11_3
	add	x9, x2, #1
.LBB11_2:
	mov	w10, #24
	add	x8, x8, #1
	madd	x10, x9, x10, x1
	ldr	w10, [x10, #4]
	add	x9, x9, x10
	add	x9, x9, #1
	cmp	x9, x27
	b.lo	.LBB11_2
.LBB11_3:
	and	w9, w3, #0xff
	sub	x22, x29, #80
	sub	w10, w9, #1
	cmp	w10, #5
	b.hs	.LBB11_8
	cmp	x8, #1
	b.ne	.LBB11_27
	mov	w8, #24
	stur	wzr, [x29, #-173]
	madd	x9, x20, x8, x1
	and	w8, w3, #0xff
	stur	wzr, [x29, #-176]
	cmp	w8, #5
	ldr	w10, [x9, #4]
	ldrb	w12, [x9, #2]
	add	x9, x2, x10
	add	x23, x9, #2
	b.ne	.LBB11_21
	mov	x8, x23
	mov	x10, x5
	mov	x11, xzr
	ldr	x13, [x10, #48]!
	cbz	w12, .LBB11_26
.LBB11_7:
	mov	w12, w12
	mov	x27, x8
	add	x21, x2, #1
	b	.LBB11_43
.LBB11_8:
	cmp	w9, #6
	b.eq	.LBB11_24
	cmp	w9, #7
	b.ne	.LBB11_28
	cmp	x20, x27
	stur	wzr, [sp, #179]
	str	wzr, [sp, #176]
	b.hs	.LBB11_61
	mov	x24, xzr
	add	x8, x2, #1
.LBB11_12:
	mov	w9, #24
	madd	x9, x8, x9, x1
	ldr	w10, [x9, #4]
	ldrb	w9, [x9, #2]
	add	x8, x8, x10
	cmp	x9, x24
	add	x8, x8, #1
	csel	x24, x9, x24, hi
	cmp	x8, x27
	b.lo	.LBB11_12
	mov	x19, x5
	ldr	x10, [x19, #48]!
	cbz	x24, .LBB11_62
	mov	x8, x24
	mov	x4, x28
.LBB11_15:
	cmp	x4, #129
	b.lo	.LBB11_82
	add	x9, x10, x4
	subs	x8, x8, #1
	ldurb	w9, [x9, #-1]
	sub	x4, x4, x9
	b.ne	.LBB11_15
	cmp	x4, x28
	sub	x8, x6, x28
	b.hs	.LBB11_63
	mov	w10, #24
	ldr	x11, [x5, #32]
	ldr	x14, [x5, #16]
	madd	x12, x28, x10, x11
	ldr	x15, [x5]
	sub	x16, x28, #1
	sub	x17, x6, #1
	mov	x9, xzr
	madd	x13, x6, x10, x11
	add	x10, x14, x16
	sub	x11, x12, #24
	sub	x12, x13, #24
	add	x13, x14, x17
	add	x14, x15, x17
	add	x15, x15, x16
.LBB11_19:
	ldrb	w16, [x15, x9]
	strb	w16, [x14, x9]
	ldrb	w16, [x10, x9]
	strb	w16, [x13, x9]
	sub	x9, x9, #1
	ldr	x16, [x11, #16]
	ldr	q0, [x11], #-24
	add	x17, x28, x9
	cmp	x4, x17
	str	x16, [x12, #16]
	str	q0, [x12], #-24
	b.lo	.LBB11_19
	ldr	x10, [x19]
	b	.LBB11_63
.LBB11_21:
	cmp	w8, #2
	b.gt	.LBB11_40
	cmp	w8, #1
	b.ne	.LBB11_74
	mov	x11, xzr
	b	.LBB11_42
.LBB11_24:
	cmp	x8, #2
	b.ne	.LBB11_27
	mov	w8, #24
	stur	wzr, [x29, #-173]
	mov	x23, x27
	madd	x8, x20, x8, x1
	stur	wzr, [x29, #-176]
	ldr	w9, [x8, #4]
	ldrb	w12, [x8, #2]
	add	x9, x2, x9
	add	x8, x9, #2
	mov	x20, x8
	mov	x10, x5
	mov	x11, xzr
	ldr	x13, [x10, #48]!
	cbnz	w12, .LBB11_7
.LBB11_26:
	mov	x12, xzr
	sub	x9, x6, x28
	mov	x27, x8
	add	x21, x2, #1
	mov	x8, x28
	b	.LBB11_50
.LBB11_27:
	mov	w8, #7
	cmp	x28, #129
	b.hs	.LBB11_29
	b	.LBB11_38
.LBB11_28:
	mov	w8, #1
	cmp	x28, #129
	b.lo	.LBB11_38
.LBB11_29:
	movi	d0, #0000000000000000
	fmov	d1, #1.00000000
	ldr	x9, [x5]
	ldr	x10, [x5, #32]
	ldr	x11, [x5, #48]
	b	.LBB11_31
.LBB11_30:
	cmp	x12, #128
	mov	x28, x12
	b.ls	.LBB11_38
.LBB11_31:
	add	x12, x11, x28
	ldurb	w13, [x12, #-1]
	sub	x12, x28, x13
	cmp	x12, x28
	b.hs	.LBB11_30
	mov	w14, #24
	mul	x15, x28, x14
	umsubl	x15, w13, w14, x15
	neg	x13, x13
	add	x14, x9, x28
	add	x15, x10, x15
	b	.LBB11_34
.LBB11_33:
	adds	x13, x13, #1
	b.hs	.LBB11_30
.LBB11_34:
	ldrb	w16, [x14, x13]
	ldr	d2, [x15], #24
	cmp	w16, #1
	b.ne	.LBB11_33
	fcmp	d2, d0
	b.eq	.LBB11_33
	fcmp	d2, d1
	b.eq	.LBB11_33
	mov	w10, #1
	b	.LBB11_39
.LBB11_38:
	mov	w10, wzr
.LBB11_39:
	cmp	x30, #1
	mov	x9, xzr
	mov	x18, xzr
	mov	w26, wzr
	csinc	w30, w10, wzr, ls
	mov	w10, #1
	b	.LBB11_448
.LBB11_40:
	cmp	w8, #3
	b.ne	.LBB11_76
	mov	w11, #1
.LBB11_42:
	mov	x10, x5
	mov	w12, #1
	mov	x21, x27
	ldr	x13, [x10, #48]!
.LBB11_43:
	mov	x9, x12
	mov	x8, x28
.LBB11_44:
	cmp	x8, #129
	b.lo	.LBB11_248
	add	x14, x13, x8
	subs	x9, x9, #1
	ldurb	w14, [x14, #-1]
	sub	x8, x8, x14
	b.ne	.LBB11_44
	cmp	x8, x28
	sub	x9, x6, x28
	b.hs	.LBB11_50
	mov	w14, #24
	ldr	x15, [x5, #32]
	mov	x19, x18
	madd	x16, x28, x14, x15
	ldr	x18, [x5, #16]
	ldr	x3, [x5]
	sub	x4, x28, #1
	sub	x7, x6, #1
	mov	x13, xzr
	madd	x17, x6, x14, x15
	add	x14, x18, x4
	sub	x15, x16, #24
	sub	x16, x17, #24
	add	x17, x18, x7
	add	x18, x3, x7
	add	x3, x3, x4
.LBB11_48:
	ldrb	w4, [x3, x13]
	strb	w4, [x18, x13]
	ldrb	w4, [x14, x13]
	strb	w4, [x17, x13]
	sub	x13, x13, #1
	ldr	x4, [x15, #16]
	ldr	q0, [x15], #-24
	add	x7, x28, x13
	cmp	x8, x7
	str	x4, [x16, #16]
	str	q0, [x16], #-24
	b.lo	.LBB11_48
	ldr	x13, [x10]
	mov	x18, x19
.LBB11_50:
	add	x14, x8, x9
	sub	x24, x28, x8
	cmp	x14, x8
	b.ls	.LBB11_56
	cbz	x24, .LBB11_101
	cmp	x24, #8
	sub	x14, x28, x8
	b.lo	.LBB11_90
	sub	x14, x28, x6
	cmp	x14, #32
	sub	x14, x28, x8
	b.lo	.LBB11_90
	cmp	x24, #32
	b.hs	.LBB11_83
	mov	x15, xzr
	b	.LBB11_87
.LBB11_56:
	cmp	x28, x8
	b.eq	.LBB11_101
	cmp	x24, #8
	mov	x14, xzr
	b.lo	.LBB11_99
	cmp	x9, #32
	b.lo	.LBB11_99
	cmp	x24, #32
	b.hs	.LBB11_92
	mov	x14, xzr
	b	.LBB11_96
.LBB11_61:
	mov	x19, x5
	ldr	x10, [x19, #48]!
.LBB11_62:
	mov	x24, xzr
	sub	x8, x6, x28
	mov	x4, x28
.LBB11_63:
	add	x9, x4, x8
	cmp	x9, x4
	sub	x9, x28, x4
	b.ls	.LBB11_69
	cbz	x9, .LBB11_141
	cmp	x9, #8
	b.lo	.LBB11_122
	sub	x11, x28, x6
	cmp	x11, #32
	sub	x11, x28, x4
	b.lo	.LBB11_130
	cmp	x9, #32
	b.hs	.LBB11_123
	mov	x12, xzr
	b	.LBB11_127
.LBB11_69:
	cmp	x28, x4
	b.eq	.LBB11_141
	cmp	x9, #8
	mov	x11, xzr
	b.lo	.LBB11_139
	cmp	x8, #32
	b.lo	.LBB11_139
	cmp	x9, #32
	b.hs	.LBB11_132
	mov	x11, xzr
	b	.LBB11_136
.LBB11_74:
	cmp	x28, #129
	b.lo	.LBB11_248
	ldr	x8, [x5, #48]
	mov	x24, xzr
	add	x8, x8, x28
	ldurb	w8, [x8, #-1]
	sub	x4, x28, x8
	b	.LBB11_331
.LBB11_76:
	ldr	x11, [x5, #48]
	mov	x8, x28
	mov	x9, x28
	cbz	w12, .LBB11_237
	mov	x9, x12
	mov	x8, x28
.LBB11_78:
	cmp	x8, #129
	b.lo	.LBB11_248
	add	x10, x11, x8
	subs	x9, x9, #1
	ldurb	w10, [x10, #-1]
	sub	x8, x8, x10
	b.ne	.LBB11_78
	cmp	w12, #1
	b.ne	.LBB11_234
	mov	x9, x28
	b	.LBB11_237
.LBB11_82:
	cmp	x30, #1
	mov	x9, xzr
	mov	x18, xzr
	mov	w26, wzr
	mov	w8, wzr
	cset	w30, hi
	mov	w10, #1
	b	.LBB11_233
.LBB11_83:
	add	x16, x28, x13
	add	x17, x6, x13
	mov	x3, x18
	and	x14, x24, #0x18
	and	x15, x24, #0xffffffffffffffe0
	sub	x16, x16, #16
	sub	x17, x17, #16
	and	x18, x24, #0xffffffffffffffe0
.LBB11_84:
	ldp	q1, q0, [x16, #-16]
	sub	x18, x18, #32
	sub	x16, x16, #32
	stp	q1, q0, [x17, #-16]
	sub	x17, x17, #32
	cbnz	x18, .LBB11_84
	cmp	x24, x15
	mov	x18, x3
	b.eq	.LBB11_101
	cbz	x14, .LBB11_278
.LBB11_87:
	mov	x3, x18
	sub	x17, x28, x15
	sub	x18, x6, x15
	and	x16, x24, #0xfffffffffffffff8
	add	x17, x17, x13
	add	x18, x18, x13
	and	x14, x24, #0x7
	sub	x17, x17, #8
	sub	x18, x18, #8
	sub	x15, x15, x16
.LBB11_88:
	ldr	d0, [x17], #-8
	adds	x15, x15, #8
	str	d0, [x18], #-8
	b.ne	.LBB11_88
	cmp	x24, x16
	mov	x18, x3
	b.eq	.LBB11_101
.LBB11_90:
	add	x15, x8, x14
	add	x13, x15, x13
	sub	x13, x13, #1
.LBB11_91:
	ldrb	w15, [x13]
	sub	x14, x14, #1
	strb	w15, [x13, x9]
	sub	x13, x13, #1
	cbnz	x14, .LBB11_91
	b	.LBB11_101
.LBB11_92:
	add	x16, x8, x13
	mov	x3, x18
	and	x15, x24, #0x18
	and	x14, x24, #0xffffffffffffffe0
	add	x16, x16, #16
	and	x17, x24, #0xffffffffffffffe0
.LBB11_93:
	ldp	q0, q1, [x16, #-16]
	add	x18, x16, x9
	subs	x17, x17, #32
	add	x16, x16, #32
	stp	q0, q1, [x18, #-16]
	b.ne	.LBB11_93
	cmp	x24, x14
	mov	x18, x3
	b.eq	.LBB11_101
	cbz	x15, .LBB11_99
.LBB11_96:
	mov	x15, x14
	and	x14, x24, #0xfffffffffffffff8
	add	x16, x8, x15
	sub	x15, x15, x14
	add	x16, x13, x16
.LBB11_97:
	ldr	d0, [x16]
	adds	x15, x15, #8
	str	d0, [x16, x9]
	add	x16, x16, #8
	b.ne	.LBB11_97
	cmp	x24, x14
	b.eq	.LBB11_101
.LBB11_99:
	sub	x15, x28, x14
	add	x16, x8, x14
	sub	x14, x15, x8
	add	x13, x13, x16
.LBB11_100:
	ldrb	w15, [x13]
	subs	x14, x14, #1
	strb	w15, [x13, x9]
	add	x13, x13, #1
	b.ne	.LBB11_100
.LBB11_101:
	subs	x11, x11, x12
	sub	x13, x6, x24
	mov	x12, x6
	b.hs	.LBB11_105
	ldr	x14, [x10]
	mov	x12, x6
.LBB11_103:
	cmp	x12, x13
	b.ls	.LBB11_106
	add	x15, x14, x12
	adds	x11, x11, #1
	ldurb	w15, [x15, #-1]
	sub	x12, x12, x15
	b.lo	.LBB11_103
.LBB11_105:
	sub	x11, x12, x13
	add	x4, x11, x8
	cmp	x13, x4
	b.hs	.LBB11_107
.LBB11_106:
	mov	w30, wzr
	mov	w8, #11
	b	.LBB11_249
.LBB11_107:
	ldr	x14, [x5]
	ldr	x15, [x5, #16]
	cmp	x8, x13
	ldr	x17, [x5, #32]
	b.ls	.LBB11_115
	cbz	x11, .LBB11_332
	mov	x7, x18
	add	x16, x12, x28
	mov	w18, #24
	mul	x16, x16, x18
	madd	x2, x12, x18, x17
	msub	x16, x6, x18, x16
	mvn	x18, x6
	add	x18, x18, x28
	sub	x2, x2, #24
	add	x3, x16, x17
	add	x16, x15, x18
	add	x17, x14, x18
	sub	x18, x3, #24
	sub	x15, x15, #1
	sub	x14, x14, #1
.LBB11_110:
	ldrb	w3, [x14, x12]
	add	x13, x13, #1
	sub	x14, x14, #1
	strb	w3, [x17, x12]
	sub	x17, x17, #1
	cmp	x12, x13
	ldrb	w3, [x15, x12]
	sub	x15, x15, #1
	strb	w3, [x16, x12]
	sub	x16, x16, #1
	ldr	x3, [x2, #16]
	ldr	q0, [x2], #-24
	str	x3, [x18, #16]
	str	q0, [x18], #-24
	b.ne	.LBB11_110
	ldr	x10, [x10]
	cmp	x11, #8
	b.lo	.LBB11_255
	cmp	x9, #32
	mov	x18, x7
	b.lo	.LBB11_264
	cmp	x11, #32
	b.hs	.LBB11_257
	mov	x9, xzr
	b	.LBB11_261
.LBB11_115:
	cbz	x11, .LBB11_332
	mov	x19, x18
	mov	w18, #24
	add	x2, x14, x9
	madd	x16, x8, x18, x17
	add	x3, x11, x8
	madd	x17, x13, x18, x17
	add	x18, x15, x9
.LBB11_117:
	ldrb	w7, [x2, x8]
	sub	x3, x3, #1
	add	x2, x2, #1
	strb	w7, [x14, x8]
	add	x14, x14, #1
	cmp	x8, x3
	ldrb	w7, [x18, x8]
	add	x18, x18, #1
	strb	w7, [x15, x8]
	add	x15, x15, #1
	ldr	x7, [x17, #16]
	ldr	q0, [x17], #24
	str	x7, [x16, #16]
	str	q0, [x16], #24
	b.ne	.LBB11_117
	ldr	x10, [x10]
	cmp	x11, #8
	mov	x14, xzr
	b.lo	.LBB11_256
	sub	x15, x28, x6
	mov	x18, x19
	cmp	x15, #32
	b.lo	.LBB11_273
	cmp	x11, #32
	b.hs	.LBB11_266
	mov	x14, xzr
	b	.LBB11_270
.LBB11_122:
	sub	x11, x28, x4
	b	.LBB11_130
.LBB11_123:
	add	x13, x28, x10
	add	x14, x6, x10
	and	x11, x9, #0x18
	and	x12, x9, #0xffffffffffffffe0
	sub	x13, x13, #16
	sub	x14, x14, #16
	and	x15, x9, #0xffffffffffffffe0
.LBB11_124:
	ldp	q1, q0, [x13, #-16]
	sub	x15, x15, #32
	sub	x13, x13, #32
	stp	q1, q0, [x14, #-16]
	sub	x14, x14, #32
	cbnz	x15, .LBB11_124
	cmp	x9, x12
	b.eq	.LBB11_141
	cbz	x11, .LBB11_279
.LBB11_127:
	sub	x14, x28, x12
	sub	x15, x6, x12
	and	x13, x9, #0xfffffffffffffff8
	add	x14, x14, x10
	add	x15, x15, x10
	and	x11, x9, #0x7
	sub	x14, x14, #8
	sub	x15, x15, #8
	sub	x12, x12, x13
.LBB11_128:
	ldr	d0, [x14], #-8
	adds	x12, x12, #8
	str	d0, [x15], #-8
	b.ne	.LBB11_128
	cmp	x9, x13
	b.eq	.LBB11_141
.LBB11_130:
	add	x12, x4, x11
	add	x10, x12, x10
	sub	x10, x10, #1
.LBB11_131:
	ldrb	w12, [x10]
	sub	x11, x11, #1
	strb	w12, [x10, x8]
	sub	x10, x10, #1
	cbnz	x11, .LBB11_131
	b	.LBB11_141
.LBB11_132:
	add	x13, x4, x10
	and	x12, x9, #0x18
	and	x11, x9, #0xffffffffffffffe0
	add	x13, x13, #16
	and	x14, x9, #0xffffffffffffffe0
.LBB11_133:
	ldp	q0, q1, [x13, #-16]
	add	x15, x13, x8
	subs	x14, x14, #32
	add	x13, x13, #32
	stp	q0, q1, [x15, #-16]
	b.ne	.LBB11_133
	cmp	x9, x11
	b.eq	.LBB11_141
	cbz	x12, .LBB11_139
.LBB11_136:
	mov	x12, x11
	and	x11, x9, #0xfffffffffffffff8
	add	x13, x4, x12
	sub	x12, x12, x11
	add	x13, x10, x13
.LBB11_137:
	ldr	d0, [x13]
	adds	x12, x12, #8
	str	d0, [x13, x8]
	add	x13, x13, #8
	b.ne	.LBB11_137
	cmp	x9, x11
	b.eq	.LBB11_141
.LBB11_139:
	sub	x12, x28, x11
	add	x13, x4, x11
	sub	x11, x12, x4
	add	x10, x10, x13
.LBB11_140:
	ldrb	w12, [x10]
	subs	x11, x11, #1
	strb	w12, [x10, x8]
	add	x10, x10, #1
	b.ne	.LBB11_140
.LBB11_141:
	cmp	x20, x27
	stur	wzr, [x29, #-176]
	stur	wzr, [x29, #-173]
	str	wzr, [sp, #184]
	stur	wzr, [sp, #187]
	b.hs	.LBB11_229
	str	w26, [sp, #136]
	mov	x26, xzr
	sub	x20, x6, x9
	add	x8, x2, #1
.LBB11_143:
	mov	w10, #24
	add	x26, x26, #1
	madd	x10, x8, x10, x1
	ldr	w10, [x10, #4]
	add	x8, x8, x10
	add	x8, x8, #1
	cmp	x8, x27
	b.lo	.LBB11_143
	stur	wzr, [x29, #-165]
	stur	wzr, [x29, #-168]
	cbz	x26, .LBB11_231
	add	x12, x4, x6
	mov	w8, #24
	mov	x11, #-24
	msub	x8, x12, x8, x11
	add	x10, x20, x20, lsl #1
	sub	x23, x26, #1
	stp	x6, x1, [sp, #152]
	str	x5, [sp, #144]
	str	x19, [sp, #96]
	str	x8, [sp, #80]
	sub	x8, x28, x12
	str	x8, [sp, #48]
	lsl	x8, x10, #3
	sub	x10, x12, x28
	str	x8, [sp, #72]
	add	x8, x4, x6
	stp	x8, x10, [sp, #32]
	sub	x8, x9, x6
	add	x9, x10, #16
	str	x9, [sp, #24]
	sub	x9, x8, #1
	str	x9, [sp, #64]
	sub	x9, x8, #16
	sub	x8, x8, #8
	stp	x9, x8, [sp, #8]
	sub	x8, x10, #1
	str	x8, [sp, #56]
	add	x8, x1, #4
	stp	x2, x8, [sp, #104]
	b	.LBB11_147
.LBB11_146:
	ldr	x23, [sp, #120]
	stur	wzr, [sp, #187]
	str	wzr, [sp, #184]
	sub	x23, x23, #1
	stur	wzr, [x29, #-168]
	stur	wzr, [x29, #-165]
	cbz	x26, .LBB11_275
.LBB11_147:
	subs	x26, x26, #1
	add	x21, x2, #1
	b.eq	.LBB11_150
	mov	x8, x23
	add	x21, x2, #1
.LBB11_149:
	mov	w9, #24
	subs	x8, x8, #1
	madd	x9, x21, x9, x1
	ldr	w9, [x9, #4]
	add	x9, x21, x9
	add	x21, x9, #1
	b.ne	.LBB11_149
.LBB11_150:
	mov	w8, #24
	mov	x11, x6
	madd	x8, x21, x8, x1
	ldrb	w10, [x8, #2]
	ldr	w8, [x8, #4]
	cmp	x24, x10
	b.ls	.LBB11_154
	ldr	x9, [x19]
	neg	x11, x24
	add	x10, x11, x10
	mov	x11, x6
.LBB11_152:
	cmp	x11, x20
	b.ls	.LBB11_230
	add	x12, x9, x11
	adds	x10, x10, #1
	ldurb	w12, [x12, #-1]
	sub	x11, x11, x12
	b.lo	.LBB11_152
.LBB11_154:
	sub	x10, x11, x20
	add	x9, x10, x4
	cmp	x20, x9
	b.lo	.LBB11_230
	mov	x7, x18
	ldr	x17, [x5]
	ldr	x16, [x5, #16]
	ldr	x18, [x5, #32]
	cmp	x4, x20
	b.ls	.LBB11_163
	cbz	x10, .LBB11_188
	mov	w12, #24
	add	x13, x28, x4
	ldr	x14, [sp, #80]
	madd	x15, x11, x12, x18
	add	x13, x13, x11
	add	x14, x18, x14
	mov	x18, x20
	madd	x12, x13, x12, x14
	ldr	x14, [sp, #64]
	add	x13, x16, x14
	add	x14, x17, x14
	sub	x16, x16, #1
	add	x13, x13, x4
	add	x14, x14, x4
	sub	x15, x15, #24
	sub	x17, x17, #1
.LBB11_158:
	ldrb	w3, [x17, x11]
	add	x18, x18, #1
	sub	x17, x17, #1
	strb	w3, [x14, x11]
	sub	x14, x14, #1
	cmp	x11, x18
	ldrb	w3, [x16, x11]
	sub	x16, x16, #1
	strb	w3, [x13, x11]
	sub	x13, x13, #1
	ldr	x3, [x15, #16]
	ldr	q0, [x15], #-24
	str	x3, [x12, #16]
	str	q0, [x12], #-24
	b.ne	.LBB11_158
	ldr	x12, [x19]
	cmp	x10, #8
	b.lo	.LBB11_186
	ldr	x14, [sp, #32]
	add	x13, x28, x4
	sub	x13, x14, x13
	cmp	x13, #32
	b.lo	.LBB11_186
	cmp	x10, #32
	b.hs	.LBB11_179
	mov	x13, xzr
	b	.LBB11_183
.LBB11_163:
	cbz	x10, .LBB11_188
	mov	w13, #24
	ldr	x3, [sp, #72]
	mov	x12, xzr
	madd	x13, x4, x13, x18
	add	x14, x16, x4
	add	x15, x17, x4
	add	x18, x18, x3
	add	x16, x16, x20
	add	x17, x17, x20
.LBB11_165:
	ldrb	w3, [x17, x12]
	strb	w3, [x15, x12]
	ldrb	w3, [x16, x12]
	strb	w3, [x14, x12]
	add	x12, x12, #1
	ldr	x3, [x18, #16]
	ldr	q0, [x18], #24
	cmp	x10, x12
	str	x3, [x13, #16]
	str	q0, [x13], #24
	b.ne	.LBB11_165
	ldr	x12, [x19]
	cmp	x10, #8
	mov	x13, xzr
	b.lo	.LBB11_177
	ldr	x14, [sp, #48]
	add	x14, x14, x4
	cmp	x14, #32
	b.lo	.LBB11_177
	cmp	x10, #32
	b.hs	.LBB11_170
	mov	x13, xzr
	b	.LBB11_174
.LBB11_170:
	ldr	x15, [sp, #24]
	add	x16, x12, x4
	and	x14, x10, #0x18
	and	x13, x10, #0xffffffffffffffe0
	add	x16, x16, #16
	and	x17, x10, #0xffffffffffffffe0
	add	x15, x12, x15
.LBB11_171:
	ldp	q0, q1, [x15, #-16]
	subs	x17, x17, #32
	add	x15, x15, #32
	stp	q0, q1, [x16, #-16]
	add	x16, x16, #32
	b.ne	.LBB11_171
	cmp	x10, x13
	b.eq	.LBB11_188
	cbz	x14, .LBB11_177
.LBB11_174:
	mov	x16, x13
	and	x13, x10, #0xfffffffffffffff8
	add	x17, x12, x20
	add	x15, x4, x16
	sub	x14, x16, x13
	add	x16, x17, x16
	add	x15, x12, x15
.LBB11_175:
	ldr	d0, [x16], #8
	adds	x14, x14, #8
	str	d0, [x15], #8
	b.ne	.LBB11_175
	cmp	x10, x13
	b.eq	.LBB11_188
.LBB11_177:
	ldr	x10, [sp, #40]
	add	x14, x13, x4
	add	x15, x12, x20
	add	x10, x10, x13
	sub	x10, x10, x11
	add	x11, x12, x14
	add	x12, x15, x13
.LBB11_178:
	ldrb	w13, [x12], #1
	adds	x10, x10, #1
	strb	w13, [x11], #1
	b.lo	.LBB11_178
	b	.LBB11_188
.LBB11_179:
	ldr	x16, [sp, #8]
	add	x15, x12, x11
	add	x17, x4, x11
	and	x14, x10, #0x18
	and	x13, x10, #0xffffffffffffffe0
	sub	x15, x15, #16
	add	x16, x12, x16
	add	x16, x16, x17
	and	x17, x10, #0xffffffffffffffe0
.LBB11_180:
	ldp	q1, q0, [x15, #-16]
	sub	x17, x17, #32
	sub	x15, x15, #32
	stp	q1, q0, [x16, #-16]
	sub	x16, x16, #32
	cbnz	x17, .LBB11_180
	cmp	x10, x13
	b.eq	.LBB11_188
	cbz	x14, .LBB11_228
.LBB11_183:
	ldr	x17, [sp, #16]
	sub	x16, x11, x13
	add	x11, x4, x11
	and	x15, x10, #0xfffffffffffffff8
	add	x16, x12, x16
	sub	x18, x11, x13
	add	x17, x12, x17
	and	x14, x10, #0x7
	sub	x11, x16, #8
	add	x16, x17, x18
	sub	x13, x13, x15
.LBB11_184:
	ldr	d0, [x11], #-8
	adds	x13, x13, #8
	str	d0, [x16], #-8
	b.ne	.LBB11_184
	cmp	x10, x15
	mov	x10, x14
	b.eq	.LBB11_188
.LBB11_186:
	ldr	x13, [sp, #56]
	add	x11, x12, x4
	sub	x11, x11, #1
	add	x12, x12, x13
	add	x12, x12, x10
.LBB11_187:
	mov	x13, x10
	subs	x10, x10, #1
	ldrb	w14, [x12], #-1
	strb	w14, [x11, x13]
	b.ne	.LBB11_187
.LBB11_188:
	add	x8, x21, x8
	mov	x4, x9
	mov	x18, x7
	add	x27, x8, #1
	str	x23, [sp, #120]
	cmp	x21, x27
	stur	wzr, [x29, #-173]
	stur	wzr, [x29, #-176]
	stp	xzr, xzr, [x29, #-136]
	stur	xzr, [x29, #-120]
	stp	xzr, xzr, [x29, #-152]
	stur	xzr, [x29, #-160]
	b.hs	.LBB11_146
.LBB11_189:
	mov	w8, #24
	ldr	x9, [sp, #112]
	madd	x8, x21, x8, x9
.LBB11_190:
	ldurb	w25, [x8, #-4]
	sub	w9, w25, #1
	cmp	w9, #12
	b.hi	.LBB11_201
	sub	w9, w25, #6
	cmp	w9, #8
	b.hs	.LBB11_194
.LBB11_192:
	sub	w9, w25, #7
	cmp	w9, #3
	b.hs	.LBB11_201
	add	x21, x21, #1
	add	x8, x8, #24
	cmp	x21, x27
	b.lo	.LBB11_190
	b	.LBB11_146
.LBB11_194:
	mov	w9, #1
	lsl	w9, w9, w25
	tst	w9, #0x18
	b.ne	.LBB11_192
	ldurb	w11, [x8, #-3]
	ldurh	w9, [x8, #-2]
	sub	x1, x29, #136
	ldr	w10, [x8]
	ldur	q0, [x8, #4]
	mov	x23, x5
	str	x0, [sp, #88]
	sub	x0, x29, #160
	mov	x2, x5
	mov	x3, x20
	mov	x5, x30
	mov	x19, x18
	str	x11, [sp]
	mov	x22, x30
	sturb	w11, [x29, #-135]
	sturh	w9, [x29, #-134]
	str	w10, [sp, #128]
	stur	w10, [x29, #-132]
	stur	q0, [x29, #-128]
	sturb	w25, [x29, #-136]
	bl	"stack::leaf::leaf"
	ldurb	w8, [x29, #-160]
	cmp	w8, #1
	b.eq	.LBB11_463
	ldur	x8, [x29, #-144]
	ldr	x0, [sp, #88]
	mov	x30, x22
	adds	x8, x19, x8
	csinv	x18, x8, xzr, lo
	cmp	x22, #2
	b.eq	.LBB11_211
	cmp	w25, #5
	b.ne	.LBB11_211
	ldr	x11, [sp]
	ldp	x6, x1, [sp, #152]
	ldp	x19, x2, [sp, #96]
	mov	x5, x23
	ldr	w10, [sp, #128]
	cmp	w11, #38
	sub	x22, x29, #80
	b.hi	.LBB11_227
	mov	w8, #1
	mov	w9, #6048
	lsl	x8, x8, x11
	tst	x8, x9
	b.eq	.LBB11_220
	cmp	x30, #0
	mov	w8, #1
	cinc	x30, x8, ne
	b	.LBB11_221
.LBB11_201:
	ldur	q0, [x8, #4]
	ldurb	w23, [x8, #-3]
	mov	x19, x0
	ldurh	w9, [x8, #-2]
	ldr	w10, [x8]
	cmp	w25, #6
	stur	q0, [x29, #-128]
	ldr	w8, [sp, #136]
	movi	v0.2d, #0000000000000000
	sturb	w23, [x29, #-135]
	and	w8, w8, #0x1
	sturh	w9, [x29, #-134]
	sturb	w8, [x29, #-88]
	sub	x8, x29, #112
	stur	w10, [x29, #-132]
	sturb	w25, [x29, #-136]
	stp	x4, x30, [x29, #-112]
	stur	x18, [x29, #-96]
	stur	wzr, [x8, #25]
	stur	wzr, [x8, #28]
	stur	q0, [x29, #-80]
	str	q0, [x22, #16]
	stur	xzr, [x29, #-48]
	str	w10, [sp, #128]
	b.ne	.LBB11_203
	sub	x0, x29, #80
	sub	x7, x29, #112
	mov	x2, x21
	mov	w3, w23
	mov	w4, w10
	mov	x6, x20
	bl	"reading::walk::modify"
	ldp	x4, x30, [x29, #-72]
	mov	x0, x19
	ldurb	w10, [x29, #-48]
	ldp	x19, x2, [sp, #96]
	ldurb	w9, [x29, #-80]
	ldurb	w8, [x29, #-79]
	ldur	x18, [x29, #-56]
	ldr	x6, [sp, #152]
	str	w10, [sp, #136]
	b	.LBB11_218
.LBB11_203:
	sub	x0, x29, #40
	sub	x1, x29, #136
	mov	x2, x5
	mov	x3, x20
	mov	x5, x30
	str	x18, [sp, #88]
	stp	xzr, xzr, [x29, #-40]
	mov	x22, x30
	stur	xzr, [x29, #-24]
	bl	"stack::leaf::leaf"
	ldurb	w9, [x29, #-40]
	cmp	w9, #1
	b.ne	.LBB11_205
	ldurb	w11, [x29, #-38]
	mov	x0, x19
	ldurb	w8, [x29, #-39]
	ldp	x19, x2, [sp, #96]
	mov	x10, xzr
	ldr	x6, [sp, #152]
	mov	x18, xzr
	str	wzr, [sp, #136]
	and	x11, x11, #0x1
	mov	x4, x21
	sub	x22, x29, #80
	b	.LBB11_217
.LBB11_205:
	cmp	x22, #2
	mov	x0, x19
	mov	x12, x22
	b.eq	.LBB11_210
	cmp	w25, #5
	b.ne	.LBB11_210
	ldr	x6, [sp, #152]
	ldr	x2, [sp, #104]
	cmp	w23, #38
	ldr	x11, [sp, #88]
	sub	x22, x29, #80
	b.hi	.LBB11_226
	mov	w8, #1
	mov	w10, #6048
	lsl	x8, x8, x23
	tst	x8, x10
	b.eq	.LBB11_214
	cmp	x12, #0
	mov	w8, #1
	cinc	x12, x8, ne
	b	.LBB11_215
.LBB11_210:
	ldr	x6, [sp, #152]
	ldr	x2, [sp, #104]
	cmp	w25, #5
	ldr	x11, [sp, #88]
	sub	x22, x29, #80
	b.eq	.LBB11_215
	b	.LBB11_216
.LBB11_211:
	ldp	x6, x1, [sp, #152]
	cmp	w25, #2
	ldr	x2, [sp, #104]
	ldr	w10, [sp, #128]
	mov	x5, x23
	sub	x22, x29, #80
	b.le	.LBB11_222
	sub	w8, w25, #3
	ldr	x19, [sp, #96]
	cmp	w8, #2
	b.lo	.LBB11_223
	ldr	x11, [sp]
	b	.LBB11_221
.LBB11_214:
	mov	w8, #1
	mov	x10, #28
	lsl	x8, x8, x23
	movk	x10, #64, lsl #32
	tst	x8, x10
	b.eq	.LBB11_226
.LBB11_215:
	cmp	w23, #17
	ldr	w10, [sp, #136]
	cset	w8, eq
	orr	w10, w10, w8
	str	w10, [sp, #136]
.LBB11_216:
	ldp	x4, x10, [x29, #-32]
	mov	w8, wzr
	ldr	x19, [sp, #96]
	adds	x10, x11, x10
	and	x11, x12, #0xff
	csinv	x18, x10, xzr, lo
	and	x10, x12, #0xffffffffffffff00
.LBB11_217:
	orr	x30, x10, x11
.LBB11_218:
	cmp	w9, #1
	b.eq	.LBB11_276
	ldr	x5, [sp, #144]
	ldr	x1, [sp, #160]
	ldr	w10, [sp, #128]
	add	x8, x21, w10, uxtw
	add	x21, x8, #1
	cmp	x21, x27
	b.lo	.LBB11_189
	b	.LBB11_146
.LBB11_220:
	mov	w8, #1
	mov	x9, #28
	lsl	x8, x8, x11
	movk	x9, #64, lsl #32
	tst	x8, x9
	b.eq	.LBB11_227
.LBB11_221:
	cmp	w11, #17
	cset	w8, eq
	b	.LBB11_225
.LBB11_222:
	ldr	x19, [sp, #96]
	cmp	w25, #1
	b.ne	.LBB11_224
.LBB11_223:
	mov	w8, wzr
	b	.LBB11_225
.LBB11_224:
	mov	w8, #1
.LBB11_225:
	ldr	w9, [sp, #136]
	ldur	x4, [x29, #-152]
	orr	w9, w9, w8
	str	w9, [sp, #136]
	add	x8, x21, w10, uxtw
	add	x21, x8, #1
	cmp	x21, x27
	b.lo	.LBB11_189
	b	.LBB11_146
.LBB11_226:
	adrp	x8, .Lstatic.0
	add	x8, x8, :lo12:.Lstatic.0
	cmp	x12, #0
	ldrb	w8, [x8, x23]
	mov	w10, #1
	cinc	x10, x10, ne
	and	w8, w8, #0xf0
	cmp	w8, #16
	csel	x12, x10, x12, eq
	b	.LBB11_215
.LBB11_227:
	adrp	x8, .Lstatic.0
	add	x8, x8, :lo12:.Lstatic.0
	cmp	x30, #0
	ldrb	w8, [x8, x11]
	mov	w9, #1
	cinc	x9, x9, ne
	and	w8, w8, #0xf0
	cmp	w8, #16
	csel	x30, x9, x30, eq
	b	.LBB11_221
.LBB11_228:
	and	x10, x10, #0x1f
	b	.LBB11_186
.LBB11_229:
	stur	wzr, [x29, #-165]
	stur	wzr, [x29, #-168]
	b	.LBB11_232
.LBB11_230:
	stur	wzr, [x29, #-173]
	mov	x9, xzr
	stur	wzr, [x29, #-176]
	mov	x18, xzr
	mov	w26, wzr
	ldur	w10, [x29, #-173]
	mov	w30, wzr
	str	wzr, [sp, #176]
	mov	w8, #11
	stur	w10, [sp, #179]
	mov	w10, #1
	b	.LBB11_233
.LBB11_231:
	ldr	w26, [sp, #136]
.LBB11_232:
	ldur	w11, [x29, #-168]
	ldur	w12, [x29, #-165]
	mov	w10, wzr
	mov	w8, wzr
	lsr	x9, x30, #8
	mov	x2, x4
	str	w11, [sp, #176]
	stur	w12, [sp, #179]
.LBB11_233:
	ldr	w11, [sp, #176]
	ldur	w12, [sp, #179]
	b	.LBB11_447
.LBB11_234:
	sub	x10, x12, #1
	mov	x9, x28
.LBB11_235:
	cmp	x9, x8
	b.ls	.LBB11_248
	add	x12, x11, x9
	subs	x10, x10, #1
	ldurb	w12, [x12, #-1]
	sub	x9, x9, x12
	b.ne	.LBB11_235
.LBB11_237:
	sub	x10, x9, x8
	add	x4, x10, x28
	cmp	x6, x4
	b.lo	.LBB11_106
	subs	x12, x28, x8
	b.ls	.LBB11_242
	mov	w11, #24
	add	x13, x9, x28
	ldr	x14, [x5, #32]
	mul	x13, x13, x11
	ldr	x16, [x5, #16]
	ldr	x17, [x5]
	mov	x7, x18
	madd	x15, x28, x11, x14
	msub	x13, x8, x11, x13
	sub	x11, x16, #1
	add	x18, x13, x14
	add	x13, x16, x10
	sub	x14, x15, #24
	sub	x15, x18, #24
	add	x16, x17, x10
	sub	x17, x17, #1
	mov	x18, x28
.LBB11_240:
	ldrb	w2, [x17, x18]
	add	x3, x16, x18
	sturb	w2, [x3, #-1]
	add	x3, x13, x18
	ldrb	w2, [x11, x18]
	sub	x18, x18, #1
	cmp	x8, x18
	sturb	w2, [x3, #-1]
	ldr	x2, [x14, #16]
	ldr	q0, [x14], #-24
	str	x2, [x15, #16]
	str	q0, [x15], #-24
	b.lo	.LBB11_240
	ldr	x11, [x5, #48]
	mov	x18, x7
.LBB11_242:
	subs	x13, x8, x9
	b.hs	.LBB11_250
	cbz	x12, .LBB11_298
	cmp	x12, #8
	b.lo	.LBB11_287
	cmp	x13, #32
	b.lo	.LBB11_287
	cmp	x12, #32
	b.hs	.LBB11_280
	mov	x13, xzr
	b	.LBB11_284
.LBB11_248:
	cmp	x30, #1
	mov	w8, wzr
	cset	w30, hi
.LBB11_249:
	mov	x9, xzr
	mov	x18, xzr
	mov	w26, wzr
	mov	w10, #1
	b	.LBB11_446
.LBB11_250:
	cmp	x28, x8
	b.eq	.LBB11_298
	cmp	x12, #8
	mov	x13, xzr
	b.lo	.LBB11_296
	cmp	x10, #32
	b.lo	.LBB11_296
	cmp	x12, #32
	b.hs	.LBB11_289
	mov	x13, xzr
	b	.LBB11_293
.LBB11_255:
	mov	x18, x7
	b	.LBB11_264
.LBB11_256:
	mov	x18, x19
	b	.LBB11_273
.LBB11_257:
	add	x14, x12, x10
	and	x13, x11, #0x18
	and	x9, x11, #0xffffffffffffffe0
	sub	x14, x14, #16
	sub	x15, x28, x6
	and	x16, x11, #0xffffffffffffffe0
.LBB11_258:
	ldp	q1, q0, [x14, #-16]
	add	x17, x14, x15
	sub	x16, x16, #32
	sub	x14, x14, #32
	stp	q1, q0, [x17, #-16]
	cbnz	x16, .LBB11_258
	cmp	x11, x9
	b.eq	.LBB11_332
	cbz	x13, .LBB11_459
.LBB11_261:
	add	x14, x12, x28
	add	x15, x9, x6
	sub	x16, x12, x9
	sub	x14, x14, x15
	and	x13, x11, #0xfffffffffffffff8
	add	x15, x16, x10
	add	x16, x14, x10
	and	x12, x11, #0x7
	sub	x14, x15, #8
	sub	x15, x16, #8
	sub	x9, x9, x13
.LBB11_262:
	ldr	d0, [x14], #-8
	adds	x9, x9, #8
	str	d0, [x15], #-8
	b.ne	.LBB11_262
	cmp	x11, x13
	mov	x11, x12
	b.eq	.LBB11_332
.LBB11_264:
	add	x8, x8, x10
	add	x9, x11, x6
	sub	x8, x8, #1
	sub	x9, x9, x28
.LBB11_265:
	mov	x10, x11
	sub	x11, x11, #1
	ldrb	w12, [x8, x9]
	sub	x9, x9, #1
	strb	w12, [x8, x10]
	cbnz	x11, .LBB11_265
	b	.LBB11_332
.LBB11_266:
	add	x16, x8, x10
	add	x15, x10, x13
	and	x13, x11, #0x18
	and	x14, x11, #0xffffffffffffffe0
	add	x16, x16, #16
	and	x17, x11, #0xffffffffffffffe0
.LBB11_267:
	ldp	q0, q1, [x15], #32
	subs	x17, x17, #32
	stp	q0, q1, [x16, #-16]
	add	x16, x16, #32
	b.ne	.LBB11_267
	cmp	x11, x14
	b.eq	.LBB11_332
	cbz	x13, .LBB11_273
.LBB11_270:
	mov	x13, x14
	and	x14, x11, #0xfffffffffffffff8
	add	x15, x8, x13
	sub	x13, x13, x14
	add	x15, x10, x15
.LBB11_271:
	ldr	d0, [x15, x9]
	adds	x13, x13, #8
	str	d0, [x15], #8
	b.ne	.LBB11_271
	cmp	x11, x14
	b.eq	.LBB11_332
.LBB11_273:
	add	x11, x12, x28
	add	x12, x8, x14
	sub	x11, x11, x14
	add	x10, x10, x12
	sub	x11, x11, x8
	sub	x8, x11, x6
.LBB11_274:
	ldrb	w11, [x10, x9]
	subs	x8, x8, #1
	strb	w11, [x10], #1
	b.ne	.LBB11_274
	b	.LBB11_332
.LBB11_275:
	ldr	w26, [sp, #136]
	and	w26, w26, #0x1
	b	.LBB11_232
.LBB11_276:
	mov	x21, x4
	stur	wzr, [sp, #187]
	str	wzr, [sp, #184]
.LBB11_277:
	ldr	w10, [sp, #184]
	ldur	w11, [sp, #187]
	mov	x9, xzr
	mov	x18, xzr
	mov	w26, wzr
	mov	x2, x21
	str	w10, [sp, #176]
	mov	w10, #1
	stur	w11, [sp, #179]
	b	.LBB11_233
.LBB11_278:
	and	x14, x24, #0x1f
	b	.LBB11_90
.LBB11_279:
	and	x11, x9, #0x1f
	b	.LBB11_130
.LBB11_280:
	add	x15, x28, x11
	and	x14, x12, #0x18
	and	x13, x12, #0xffffffffffffffe0
	sub	x15, x15, #16
	and	x16, x12, #0xffffffffffffffe0
.LBB11_281:
	ldp	q1, q0, [x15, #-16]
	add	x17, x15, x10
	sub	x16, x16, #32
	sub	x15, x15, #32
	stp	q1, q0, [x17, #-16]
	cbnz	x16, .LBB11_281
	cmp	x12, x13
	b.eq	.LBB11_298
	cbz	x14, .LBB11_465
.LBB11_284:
	sub	x15, x28, x13
	and	x14, x12, #0xfffffffffffffff8
	add	x16, x15, x11
	and	x15, x12, #0x7
	sub	x13, x13, x14
	sub	x16, x16, #8
.LBB11_285:
	ldr	d0, [x16]
	adds	x13, x13, #8
	str	d0, [x16, x10]
	sub	x16, x16, #8
	b.ne	.LBB11_285
	cmp	x12, x14
	mov	x12, x15
	b.eq	.LBB11_298
.LBB11_287:
	add	x13, x9, x11
	add	x14, x8, x11
	sub	x11, x13, #1
	sub	x13, x14, #1
.LBB11_288:
	mov	x14, x12
	ldrb	w15, [x13, x12]
	subs	x12, x12, #1
	strb	w15, [x11, x14]
	b.ne	.LBB11_288
	b	.LBB11_298
.LBB11_289:
	add	x15, x9, x11
	add	x16, x8, x11
	and	x14, x12, #0x18
	and	x13, x12, #0xffffffffffffffe0
	add	x15, x15, #16
	add	x16, x16, #16
	and	x17, x12, #0xffffffffffffffe0
.LBB11_290:
	ldp	q0, q1, [x16, #-16]
	subs	x17, x17, #32
	add	x16, x16, #32
	stp	q0, q1, [x15, #-16]
	add	x15, x15, #32
	b.ne	.LBB11_290
	cmp	x12, x13
	b.eq	.LBB11_298
	cbz	x14, .LBB11_296
.LBB11_293:
	mov	x14, x13
	and	x13, x12, #0xfffffffffffffff8
	add	x15, x9, x14
	add	x16, x8, x14
	sub	x14, x14, x13
	add	x15, x11, x15
	add	x16, x11, x16
.LBB11_294:
	ldr	d0, [x16], #8
	adds	x14, x14, #8
	str	d0, [x15], #8
	b.ne	.LBB11_294
	cmp	x12, x13
	b.eq	.LBB11_298
.LBB11_296:
	add	x14, x13, x8
	add	x13, x9, x13
	sub	x12, x14, x28
	add	x13, x11, x13
	add	x11, x11, x14
.LBB11_297:
	ldrb	w14, [x11], #1
	adds	x12, x12, #1
	strb	w14, [x13], #1
	b.lo	.LBB11_297
.LBB11_298:
	ldr	x11, [x5]
	ldr	x12, [x5, #16]
	subs	x13, x8, x9
	ldr	x16, [x5, #32]
	b.ls	.LBB11_305
	cbz	x10, .LBB11_330
	mov	w15, #48
	mov	w17, #24
	mov	x7, x18
	mul	x15, x9, x15
	mvn	x2, x8
	mov	x14, xzr
	add	x2, x2, x9, lsl #1
	madd	x18, x9, x17, x16
	msub	x17, x8, x17, x15
	sub	x15, x18, #24
	sub	x18, x9, #1
	add	x3, x17, x16
	add	x16, x12, x18
	add	x17, x11, x18
	sub	x18, x3, #24
	add	x12, x12, x2
	add	x11, x11, x2
.LBB11_301:
	ldrb	w2, [x11, x14]
	strb	w2, [x17, x14]
	ldrb	w2, [x12, x14]
	strb	w2, [x16, x14]
	sub	x14, x14, #1
	ldr	x2, [x18, #16]
	ldr	q0, [x18], #-24
	cmp	x13, x14
	str	x2, [x15, #16]
	str	q0, [x15], #-24
	b.ne	.LBB11_301
	ldr	x11, [x5, #48]
	cmp	x10, #8
	mov	x18, x7
	b.lo	.LBB11_319
	cmp	x10, #32
	b.hs	.LBB11_312
	mov	x12, xzr
	b	.LBB11_316
.LBB11_305:
	cbz	x10, .LBB11_330
	mov	w14, #24
	sub	x15, x9, x8
	madd	x13, x8, x14, x16
	madd	x14, x9, x14, x16
.LBB11_307:
	ldrb	w16, [x11, x9]
	subs	x15, x15, #1
	strb	w16, [x11, x8]
	add	x11, x11, #1
	ldrb	w16, [x12, x9]
	strb	w16, [x12, x8]
	add	x12, x12, #1
	ldr	x16, [x14, #16]
	ldr	q0, [x14], #24
	str	x16, [x13, #16]
	str	q0, [x13], #24
	b.ne	.LBB11_307
	ldr	x11, [x5, #48]
	cmp	x10, #8
	b.hs	.LBB11_310
	mov	x12, xzr
	b	.LBB11_328
.LBB11_310:
	cmp	x10, #32
	b.hs	.LBB11_321
	mov	x12, xzr
	b	.LBB11_325
.LBB11_312:
	sub	x12, x11, x8
	add	x15, x9, x11
	and	x13, x10, #0x18
	add	x14, x12, x9, lsl #1
	and	x12, x10, #0xffffffffffffffe0
	sub	x15, x15, #16
	and	x16, x10, #0xffffffffffffffe0
	sub	x14, x14, #16
.LBB11_313:
	ldp	q1, q0, [x14, #-16]
	sub	x16, x16, #32
	sub	x14, x14, #32
	stp	q1, q0, [x15, #-16]
	sub	x15, x15, #32
	cbnz	x16, .LBB11_313
	cmp	x10, x12
	b.eq	.LBB11_330
	cbz	x13, .LBB11_464
.LBB11_316:
	lsl	x13, x9, #1
	sub	x16, x9, x12
	add	x16, x16, x11
	sub	x14, x13, x8
	and	x13, x10, #0xfffffffffffffff8
	sub	x16, x16, #8
	sub	x15, x14, x12
	and	x14, x10, #0x7
	sub	x12, x12, x13
	add	x15, x15, x11
	sub	x15, x15, #8
.LBB11_317:
	ldr	d0, [x15], #-8
	adds	x12, x12, #8
	str	d0, [x16], #-8
	b.ne	.LBB11_317
	cmp	x10, x13
	mov	x10, x14
	b.eq	.LBB11_330
.LBB11_319:
	add	x8, x8, x11
	add	x9, x9, x11
	sub	x8, x8, #1
	sub	x9, x9, #1
.LBB11_320:
	mov	x11, x10
	ldrb	w12, [x9, x10]
	subs	x10, x10, #1
	strb	w12, [x8, x11]
	b.ne	.LBB11_320
	b	.LBB11_330
.LBB11_321:
	add	x14, x8, x11
	add	x15, x9, x11
	and	x13, x10, #0x18
	and	x12, x10, #0xffffffffffffffe0
	add	x14, x14, #16
	add	x15, x15, #16
	and	x16, x10, #0xffffffffffffffe0
.LBB11_322:
	ldp	q0, q1, [x15, #-16]
	subs	x16, x16, #32
	add	x15, x15, #32
	stp	q0, q1, [x14, #-16]
	add	x14, x14, #32
	b.ne	.LBB11_322
	cmp	x10, x12
	b.eq	.LBB11_330
	cbz	x13, .LBB11_328
.LBB11_325:
	mov	x13, x12
	and	x12, x10, #0xfffffffffffffff8
	add	x14, x8, x13
	add	x15, x9, x13
	sub	x13, x13, x12
	add	x14, x11, x14
	add	x15, x11, x15
.LBB11_326:
	ldr	d0, [x15], #8
	adds	x13, x13, #8
	str	d0, [x14], #8
	b.ne	.LBB11_326
	cmp	x10, x12
	b.eq	.LBB11_330
.LBB11_328:
	add	x10, x12, x8
	add	x12, x9, x12
	sub	x8, x10, x9
	add	x9, x11, x10
	add	x10, x11, x12
.LBB11_329:
	ldrb	w11, [x10], #1
	adds	x8, x8, #1
	strb	w11, [x9], #1
	b.lo	.LBB11_329
.LBB11_330:
	mov	x24, xzr
.LBB11_331:
	mov	x21, x27
.LBB11_332:
	cmp	x20, x23
	sub	x28, x6, x24
	stur	wzr, [x29, #-165]
	stur	wzr, [x29, #-168]
	stp	xzr, xzr, [x29, #-128]
	stp	xzr, xzr, [x29, #-144]
	stp	xzr, xzr, [x29, #-160]
	stp	x6, x1, [sp, #152]
	str	x5, [sp, #144]
	b.hs	.LBB11_375
	add	x8, x1, #4
	str	x28, [sp, #112]
	stp	x23, x8, [sp, #120]
.LBB11_334:
	mov	w8, #24
	ldr	x9, [sp, #128]
	madd	x8, x20, x8, x9
.LBB11_335:
	ldurb	w25, [x8, #-4]
	sub	w9, w25, #1
	cmp	w9, #12
	b.hi	.LBB11_346
	sub	w9, w25, #6
	cmp	w9, #8
	b.hs	.LBB11_339
.LBB11_337:
	sub	w9, w25, #7
	cmp	w9, #3
	b.hs	.LBB11_346
	add	x20, x20, #1
	add	x8, x8, #24
	cmp	x20, x23
	b.lo	.LBB11_335
	b	.LBB11_375
.LBB11_339:
	mov	w9, #1
	lsl	w9, w9, w25
	tst	w9, #0x18
	b.ne	.LBB11_337
	ldurb	w11, [x8, #-3]
	ldurh	w9, [x8, #-2]
	sub	x1, x29, #136
	ldr	w10, [x8]
	ldur	q0, [x8, #4]
	sub	x3, x6, x24
	str	x0, [sp, #88]
	sub	x0, x29, #160
	mov	x23, x5
	mov	x2, x5
	mov	x5, x30
	str	w26, [sp, #136]
	mov	x26, x18
	str	x11, [sp, #104]
	mov	w22, w10
	sturb	w11, [x29, #-135]
	mov	x19, x6
	mov	x28, x30
	sturh	w9, [x29, #-134]
	stur	w10, [x29, #-132]
	stur	q0, [x29, #-128]
	sturb	w25, [x29, #-136]
	bl	"stack::leaf::leaf"
	ldurb	w8, [x29, #-160]
	cmp	w8, #1
	b.eq	.LBB11_461
	ldur	x8, [x29, #-144]
	ldr	x0, [sp, #88]
	mov	x30, x28
	adds	x8, x26, x8
	csinv	x18, x8, xzr, lo
	cmp	x28, #2
	b.eq	.LBB11_356
	cmp	w25, #5
	b.ne	.LBB11_356
	ldp	x11, x28, [sp, #104]
	mov	x5, x23
	ldr	x1, [sp, #160]
	ldr	w26, [sp, #136]
	mov	x6, x19
	ldr	x23, [sp, #120]
	mov	w10, w22
	cmp	w11, #38
	b.hi	.LBB11_374
	mov	w8, #1
	mov	w9, #6048
	lsl	x8, x8, x11
	tst	x8, x9
	b.eq	.LBB11_365
	cmp	x30, #0
	mov	w8, #1
	sub	x22, x29, #80
	cinc	x30, x8, ne
	b	.LBB11_367
.LBB11_346:
	ldur	q0, [x8, #4]
	ldurb	w23, [x8, #-3]
	mov	x19, x0
	ldurh	w9, [x8, #-2]
	ldr	w10, [x8]
	and	w8, w26, #0x1
	stur	q0, [x29, #-128]
	movi	v0.2d, #0000000000000000
	cmp	w25, #6
	sturb	w8, [x29, #-88]
	sub	x8, x29, #112
	sturb	w23, [x29, #-135]
	sturh	w9, [x29, #-134]
	stur	w10, [x29, #-132]
	sturb	w25, [x29, #-136]
	stp	x4, x30, [x29, #-112]
	stur	x18, [x29, #-96]
	stur	wzr, [x8, #25]
	stur	wzr, [x8, #28]
	stur	q0, [x29, #-80]
	str	q0, [x22, #16]
	stur	xzr, [x29, #-48]
	str	w10, [sp, #136]
	b.ne	.LBB11_348
	sub	x0, x29, #80
	sub	x6, x6, x24
	sub	x7, x29, #112
	mov	x2, x20
	mov	w3, w23
	mov	w4, w10
	bl	"reading::walk::modify"
	ldp	x4, x30, [x29, #-72]
	mov	x0, x19
	ldurb	w9, [x29, #-80]
	ldurb	w8, [x29, #-79]
	ldur	x18, [x29, #-56]
	ldurb	w26, [x29, #-48]
	ldr	x23, [sp, #120]
	b	.LBB11_363
.LBB11_348:
	sub	x0, x29, #40
	sub	x1, x29, #136
	sub	x3, x6, x24
	mov	x2, x5
	mov	x5, x30
	mov	w22, w26
	mov	x26, x18
	stp	xzr, xzr, [x29, #-40]
	mov	x28, x30
	stur	xzr, [x29, #-24]
	bl	"stack::leaf::leaf"
	ldurb	w9, [x29, #-40]
	cmp	w9, #1
	b.ne	.LBB11_350
	ldurb	w11, [x29, #-38]
	ldp	x28, x23, [sp, #112]
	ldurb	w8, [x29, #-39]
	mov	x10, xzr
	mov	x18, xzr
	mov	w26, wzr
	and	x11, x11, #0x1
	mov	x4, x20
	mov	x0, x19
	sub	x22, x29, #80
	b	.LBB11_362
.LBB11_350:
	cmp	x28, #2
	mov	x0, x19
	mov	x12, x28
	b.eq	.LBB11_355
	cmp	w25, #5
	b.ne	.LBB11_355
	ldr	x28, [sp, #112]
	cmp	w23, #38
	mov	x11, x26
	mov	w26, w22
	sub	x22, x29, #80
	b.hi	.LBB11_373
	mov	w8, #1
	mov	w10, #6048
	lsl	x8, x8, x23
	tst	x8, x10
	b.eq	.LBB11_359
	cmp	x12, #0
	mov	w8, #1
	cinc	x12, x8, ne
	b	.LBB11_360
.LBB11_355:
	ldr	x28, [sp, #112]
	cmp	w25, #5
	mov	x11, x26
	mov	w26, w22
	sub	x22, x29, #80
	b.eq	.LBB11_360
	b	.LBB11_361
.LBB11_356:
	ldr	x1, [sp, #160]
	ldr	w26, [sp, #136]
	cmp	w25, #2
	ldr	x28, [sp, #112]
	mov	x5, x23
	mov	x6, x19
	mov	w10, w22
	b.le	.LBB11_368
	sub	w8, w25, #3
	ldr	x23, [sp, #120]
	cmp	w8, #2
	b.lo	.LBB11_369
	ldr	x11, [sp, #104]
	b	.LBB11_366
.LBB11_359:
	mov	w8, #1
	mov	x10, #28
	lsl	x8, x8, x23
	movk	x10, #64, lsl #32
	tst	x8, x10
	b.eq	.LBB11_373
.LBB11_360:
	cmp	w23, #17
	cset	w8, eq
	orr	w26, w26, w8
.LBB11_361:
	ldp	x4, x10, [x29, #-32]
	mov	w8, wzr
	ldr	x23, [sp, #120]
	adds	x10, x11, x10
	and	x11, x12, #0xff
	csinv	x18, x10, xzr, lo
	and	x10, x12, #0xffffffffffffff00
.LBB11_362:
	orr	x30, x10, x11
.LBB11_363:
	cmp	w9, #1
	b.eq	.LBB11_456
	ldp	x5, x6, [sp, #144]
	ldr	x1, [sp, #160]
	ldr	w10, [sp, #136]
	add	x8, x20, w10, uxtw
	add	x20, x8, #1
	cmp	x20, x23
	b.lo	.LBB11_334
	b	.LBB11_375
.LBB11_365:
	mov	w8, #1
	mov	x9, #28
	lsl	x8, x8, x11
	movk	x9, #64, lsl #32
	tst	x8, x9
	b.eq	.LBB11_374
.LBB11_366:
	sub	x22, x29, #80
.LBB11_367:
	cmp	w11, #17
	cset	w8, eq
	b	.LBB11_372
.LBB11_368:
	ldr	x23, [sp, #120]
	cmp	w25, #1
	b.ne	.LBB11_370
.LBB11_369:
	mov	w8, wzr
	b	.LBB11_371
.LBB11_370:
	mov	w8, #1
.LBB11_371:
	sub	x22, x29, #80
.LBB11_372:
	ldur	x4, [x29, #-152]
	orr	w26, w26, w8
	add	x8, x20, w10, uxtw
	add	x20, x8, #1
	cmp	x20, x23
	b.lo	.LBB11_334
	b	.LBB11_375
.LBB11_373:
	adrp	x8, .Lstatic.0
	add	x8, x8, :lo12:.Lstatic.0
	cmp	x12, #0
	ldrb	w8, [x8, x23]
	mov	w10, #1
	cinc	x10, x10, ne
	and	w8, w8, #0xf0
	cmp	w8, #16
	csel	x12, x10, x12, eq
	b	.LBB11_360
.LBB11_374:
	adrp	x8, .Lstatic.0
	add	x8, x8, :lo12:.Lstatic.0
	cmp	x30, #0
	ldrb	w8, [x8, x11]
	mov	w9, #1
	sub	x22, x29, #80
	cinc	x9, x9, ne
	and	w8, w8, #0xf0
	cmp	w8, #16
	csel	x30, x9, x30, eq
	b	.LBB11_367
.LBB11_375:
	ldr	x9, [x5]
	ldr	x10, [x5, #16]
	cmp	x4, x28
	ldr	x14, [x5, #32]
	b.ls	.LBB11_383
	cbz	x24, .LBB11_402
	add	x11, x4, x24
	mov	w12, #24
	sub	x15, x6, #1
	madd	x13, x11, x12, x14
	mov	x8, xzr
	madd	x14, x6, x12, x14
	sub	x12, x11, #1
	add	x11, x10, x12
	add	x12, x9, x12
	add	x10, x10, x15
	add	x9, x9, x15
	sub	x13, x13, #24
	sub	x14, x14, #24
.LBB11_378:
	ldrb	w15, [x9, x8]
	strb	w15, [x12, x8]
	ldrb	w15, [x10, x8]
	strb	w15, [x11, x8]
	sub	x8, x8, #1
	ldr	x15, [x14, #16]
	ldr	q0, [x14], #-24
	add	x16, x24, x8
	str	x15, [x13, #16]
	str	q0, [x13], #-24
	cbnz	x16, .LBB11_378
	ldr	x8, [x5, #48]
	cmp	x24, #8
	mov	x9, x24
	b.lo	.LBB11_400
	add	x9, x4, x24
	sub	x9, x6, x9
	cmp	x9, #32
	mov	x9, x24
	b.lo	.LBB11_400
	cmp	x24, #32
	b.hs	.LBB11_393
	mov	x10, xzr
	b	.LBB11_397
.LBB11_383:
	cbz	x24, .LBB11_402
	mov	w11, #24
	mov	x8, xzr
	add	x13, x9, x4
	mul	x12, x6, x11
	add	x9, x9, x28
	msub	x15, x24, x11, x12
	add	x12, x10, x4
	add	x10, x10, x28
	madd	x11, x4, x11, x14
	add	x14, x14, x15
.LBB11_385:
	ldrb	w15, [x9, x8]
	strb	w15, [x13, x8]
	ldrb	w15, [x10, x8]
	strb	w15, [x12, x8]
	add	x8, x8, #1
	ldr	x15, [x14, #16]
	ldr	q0, [x14], #24
	cmp	x24, x8
	str	x15, [x11, #16]
	str	q0, [x11], #24
	b.ne	.LBB11_385
	ldr	x8, [x5, #48]
	cmp	x24, #8
	b.lo	.LBB11_388
	add	x9, x4, x24
	sub	x9, x9, x6
	cmp	x9, #32
	b.hs	.LBB11_391
.LBB11_388:
	mov	x9, xzr
.LBB11_389:
	add	x10, x9, x4
	sub	x9, x9, x24
	add	x10, x8, x10
	add	x8, x8, x6
.LBB11_390:
	ldrb	w11, [x8, x9]
	adds	x9, x9, #1
	strb	w11, [x10], #1
	b.lo	.LBB11_390
	b	.LBB11_402
.LBB11_391:
	cmp	x24, #32
	b.hs	.LBB11_449
	mov	x9, xzr
	b	.LBB11_453
.LBB11_393:
	add	x11, x4, x24
	add	x12, x6, x8
	and	x9, x24, #0x18
	add	x13, x11, x8
	and	x10, x24, #0xffffffffffffffe0
	sub	x11, x12, #16
	sub	x12, x13, #16
	and	x13, x24, #0xffffffffffffffe0
.LBB11_394:
	ldp	q1, q0, [x11, #-16]
	sub	x13, x13, #32
	sub	x11, x11, #32
	stp	q1, q0, [x12, #-16]
	sub	x12, x12, #32
	cbnz	x13, .LBB11_394
	cmp	x24, x10
	b.eq	.LBB11_402
	cbz	x9, .LBB11_460
.LBB11_397:
	sub	x12, x6, x10
	sub	x13, x4, x10
	and	x11, x24, #0xfffffffffffffff8
	add	x12, x12, x8
	add	x13, x13, x8
	and	x9, x24, #0x7
	sub	x12, x12, #8
	sub	x13, x13, #8
	sub	x10, x10, x11
.LBB11_398:
	ldr	d0, [x12], #-8
	adds	x10, x10, #8
	str	d0, [x13, x24]
	sub	x13, x13, #8
	b.ne	.LBB11_398
	cmp	x24, x11
	b.eq	.LBB11_402
.LBB11_400:
	add	x10, x9, x4
	add	x11, x9, x6
	mvn	x12, x24
	add	x10, x10, x8
	add	x11, x12, x11
	neg	x9, x9
	sub	x10, x10, #1
	add	x8, x8, x11
.LBB11_401:
	ldrb	w11, [x8], #-1
	adds	x9, x9, #1
	strb	w11, [x10], #-1
	b.lo	.LBB11_401
.LBB11_402:
	cmp	x21, x27
	add	x4, x4, x24
	stp	xzr, xzr, [x29, #-128]
	stp	xzr, xzr, [x29, #-144]
	stp	xzr, xzr, [x29, #-160]
	b.hs	.LBB11_443
	sub	x23, x29, #112
	add	x28, x1, #4
.LBB11_404:
	mov	w8, #24
	sub	x10, x29, #80
	madd	x8, x21, x8, x28
.LBB11_405:
	ldurb	w24, [x8, #-4]
	sub	w9, w24, #1
	cmp	w9, #12
	b.hi	.LBB11_416
	sub	w9, w24, #6
	cmp	w9, #8
	b.hs	.LBB11_409
.LBB11_407:
	sub	w9, w24, #7
	cmp	w9, #3
	b.hs	.LBB11_416
	add	x21, x21, #1
	add	x8, x8, #24
	cmp	x21, x27
	b.lo	.LBB11_405
	b	.LBB11_443
.LBB11_409:
	mov	w9, #1
	lsl	w9, w9, w24
	tst	w9, #0x18
	b.ne	.LBB11_407
	ldurb	w10, [x8, #-3]
	ldurh	w9, [x8, #-2]
	mov	w22, w26
	ldr	w20, [x8]
	ldur	q0, [x8, #4]
	mov	x25, x1
	str	x0, [sp, #88]
	sub	x0, x29, #160
	sub	x1, x29, #136
	mov	x26, x5
	mov	x2, x5
	mov	x3, x6
	mov	x5, x30
	mov	x19, x18
	stp	x10, x28, [sp, #128]
	sturb	w10, [x29, #-135]
	mov	x28, x6
	mov	x23, x30
	sturh	w9, [x29, #-134]
	stur	w20, [x29, #-132]
	stur	q0, [x29, #-128]
	sturb	w24, [x29, #-136]
	bl	"stack::leaf::leaf"
	ldurb	w8, [x29, #-160]
	cmp	w8, #1
	b.eq	.LBB11_462
	ldur	x8, [x29, #-144]
	ldr	x0, [sp, #88]
	mov	x30, x23
	adds	x8, x19, x8
	csinv	x18, x8, xzr, lo
	cmp	x23, #2
	b.eq	.LBB11_426
	cmp	w24, #5
	b.ne	.LBB11_426
	mov	x6, x28
	ldp	x10, x28, [sp, #128]
	mov	x5, x26
	mov	x1, x25
	mov	w26, w22
	cmp	w10, #38
	sub	x23, x29, #112
	b.hi	.LBB11_442
	mov	w8, #1
	mov	w9, #6048
	lsl	x8, x8, x10
	tst	x8, x9
	b.eq	.LBB11_435
	cmp	x30, #0
	mov	w8, #1
	cinc	x30, x8, ne
	b	.LBB11_436
.LBB11_416:
	ldur	q0, [x8, #4]
	ldurb	w22, [x8, #-3]
	mov	x19, x0
	ldurh	w9, [x8, #-2]
	ldr	w20, [x8]
	and	w8, w26, #0x1
	stur	q0, [x29, #-128]
	movi	v0.2d, #0000000000000000
	cmp	w24, #6
	sturb	w22, [x29, #-135]
	sturh	w9, [x29, #-134]
	stur	w20, [x29, #-132]
	sturb	w24, [x29, #-136]
	stp	x4, x30, [x29, #-112]
	stur	x18, [x29, #-96]
	sturb	w8, [x29, #-88]
	stur	wzr, [x23, #25]
	stur	wzr, [x23, #28]
	stur	q0, [x29, #-80]
	str	q0, [x10, #16]
	stur	xzr, [x29, #-48]
	b.ne	.LBB11_418
	sub	x0, x29, #80
	sub	x7, x29, #112
	mov	x2, x21
	mov	w3, w22
	mov	w4, w20
	bl	"reading::walk::modify"
	ldp	x4, x30, [x29, #-72]
	mov	x0, x19
	ldurb	w9, [x29, #-80]
	ldurb	w8, [x29, #-79]
	ldur	x18, [x29, #-56]
	ldurb	w26, [x29, #-48]
	b	.LBB11_433
.LBB11_418:
	sub	x0, x29, #40
	sub	x1, x29, #136
	mov	x2, x5
	mov	x3, x6
	mov	x5, x30
	mov	w25, w26
	mov	x26, x18
	stp	xzr, xzr, [x29, #-40]
	mov	x23, x30
	stur	xzr, [x29, #-24]
	bl	"stack::leaf::leaf"
	ldurb	w9, [x29, #-40]
	cmp	w9, #1
	b.ne	.LBB11_420
	ldurb	w11, [x29, #-38]
	ldurb	w8, [x29, #-39]
	mov	x10, xzr
	mov	x18, xzr
	mov	w26, wzr
	mov	x4, x21
	and	x11, x11, #0x1
	mov	x0, x19
	sub	x23, x29, #112
	b	.LBB11_432
.LBB11_420:
	cmp	x23, #2
	mov	x0, x19
	mov	x12, x23
	b.eq	.LBB11_425
	cmp	w24, #5
	b.ne	.LBB11_425
	cmp	w22, #38
	mov	x11, x26
	mov	w26, w25
	sub	x23, x29, #112
	b.hi	.LBB11_441
	mov	w8, #1
	mov	w10, #6048
	lsl	x8, x8, x22
	tst	x8, x10
	b.eq	.LBB11_429
	cmp	x12, #0
	mov	w8, #1
	cinc	x12, x8, ne
	b	.LBB11_430
.LBB11_425:
	cmp	w24, #5
	mov	x11, x26
	mov	w26, w25
	sub	x23, x29, #112
	b.eq	.LBB11_430
	b	.LBB11_431
.LBB11_426:
	cmp	w24, #2
	mov	x5, x26
	mov	x6, x28
	mov	x1, x25
	b.le	.LBB11_437
	sub	w8, w24, #3
	ldr	x28, [sp, #136]
	mov	w26, w22
	cmp	w8, #2
	sub	x23, x29, #112
	b.lo	.LBB11_438
	ldr	x10, [sp, #128]
	b	.LBB11_436
.LBB11_429:
	mov	w8, #1
	mov	x10, #28
	lsl	x8, x8, x22
	movk	x10, #64, lsl #32
	tst	x8, x10
	b.eq	.LBB11_441
.LBB11_430:
	cmp	w22, #17
	cset	w8, eq
	orr	w26, w26, w8
.LBB11_431:
	ldp	x4, x10, [x29, #-32]
	mov	w8, wzr
	adds	x10, x11, x10
	and	x11, x12, #0xff
	csinv	x18, x10, xzr, lo
	and	x10, x12, #0xffffffffffffff00
.LBB11_432:
	orr	x30, x10, x11
.LBB11_433:
	cmp	w9, #1
	b.eq	.LBB11_458
	ldp	x5, x6, [sp, #144]
	ldr	x1, [sp, #160]
	add	x8, x21, w20, uxtw
	add	x21, x8, #1
	cmp	x21, x27
	b.lo	.LBB11_404
	b	.LBB11_443
.LBB11_435:
	mov	w8, #1
	mov	x9, #28
	lsl	x8, x8, x10
	movk	x9, #64, lsl #32
	tst	x8, x9
	b.eq	.LBB11_442
.LBB11_436:
	cmp	w10, #17
	cset	w8, eq
	b	.LBB11_440
.LBB11_437:
	ldr	x28, [sp, #136]
	cmp	w24, #1
	mov	w26, w22
	sub	x23, x29, #112
	b.ne	.LBB11_439
.LBB11_438:
	mov	w8, wzr
	b	.LBB11_440
.LBB11_439:
	mov	w8, #1
.LBB11_440:
	ldur	x4, [x29, #-152]
	orr	w26, w26, w8
	add	x8, x21, w20, uxtw
	add	x21, x8, #1
	cmp	x21, x27
	b.lo	.LBB11_404
	b	.LBB11_443
.LBB11_441:
	adrp	x8, .Lstatic.0
	add	x8, x8, :lo12:.Lstatic.0
	cmp	x12, #0
	ldrb	w8, [x8, x22]
	mov	w10, #1
	cinc	x10, x10, ne
	and	w8, w8, #0xf0
	cmp	w8, #16
	csel	x12, x10, x12, eq
	b	.LBB11_430
.LBB11_442:
	adrp	x8, .Lstatic.0
	add	x8, x8, :lo12:.Lstatic.0
	cmp	x30, #0
	ldrb	w8, [x8, x10]
	mov	w9, #1
	cinc	x9, x9, ne
	and	w8, w8, #0xf0
	cmp	w8, #16
	csel	x30, x9, x30, eq
	b	.LBB11_436
.LBB11_443:
	mov	w10, wzr
	mov	w8, wzr
	lsr	x9, x30, #8
	stur	wzr, [x29, #-165]
	and	w26, w26, #0x1
.LBB11_444:
	stur	wzr, [x29, #-168]
	mov	x21, x4
.LBB11_445:
	ldur	w11, [x29, #-168]
	ldur	w12, [x29, #-165]
	mov	x2, x21
	stur	w11, [x29, #-176]
	stur	w12, [x29, #-173]
.LBB11_446:
	ldur	w11, [x29, #-176]
	ldur	w12, [x29, #-173]
.LBB11_447:
	str	w11, [sp, #168]
	stur	w12, [sp, #171]
.LBB11_448:
	strb	w8, [x0, #1]
	lsr	x8, x9, #48
	stur	w9, [x0, #17]
	lsr	x9, x9, #32
	strb	w30, [x0, #16]
	ldp	x20, x19, [sp, #448]
	strb	w8, [x0, #23]
	ldr	w8, [sp, #168]
	sturh	w9, [x0, #21]
	ldur	w9, [sp, #171]
	strb	w26, [x0, #32]
	ldp	x22, x21, [sp, #432]
	ldp	x24, x23, [sp, #416]
	strb	w10, [x0]
	ldp	x26, x25, [sp, #400]
	str	x2, [x0, #8]
	str	x18, [x0, #24]
	ldp	x28, x27, [sp, #384]
	stur	w8, [x0, #33]
	ldp	x29, x30, [sp, #368]
	str	w9, [x0, #36]
	add	sp, sp, #464
	ret
.LBB11_449:
	add	x11, x4, x8
	add	x12, x28, x8
	and	x10, x24, #0x18
	and	x9, x24, #0xffffffffffffffe0
	add	x11, x11, #16
	add	x12, x12, #16
	and	x13, x24, #0xffffffffffffffe0
.LBB11_450:
	ldp	q0, q1, [x12, #-16]
	subs	x13, x13, #32
	add	x12, x12, #32
	stp	q0, q1, [x11, #-16]
	add	x11, x11, #32
	b.ne	.LBB11_450
	cmp	x24, x9
	b.eq	.LBB11_402
	cbz	x10, .LBB11_389
.LBB11_453:
	mov	x10, x9
	and	x9, x24, #0xfffffffffffffff8
	add	x11, x10, x6
	add	x12, x4, x10
	sub	x10, x10, x9
	sub	x13, x11, x24
	add	x11, x8, x12
	add	x12, x8, x13
.LBB11_454:
	ldr	d0, [x12], #8
	adds	x10, x10, #8
	str	d0, [x11], #8
	b.ne	.LBB11_454
	cmp	x24, x9
	b.eq	.LBB11_402
	b	.LBB11_389
.LBB11_456:
	mov	x20, x4
.LBB11_457:
	mov	x9, xzr
	mov	x18, xzr
	mov	w26, wzr
	mov	w10, #1
	mov	x21, x20
	b	.LBB11_445
.LBB11_458:
	mov	x9, xzr
	mov	x18, xzr
	mov	w26, wzr
	mov	w10, #1
	stur	wzr, [x29, #-165]
	b	.LBB11_444
.LBB11_459:
	and	x11, x11, #0x1f
	b	.LBB11_264
.LBB11_460:
	and	x9, x24, #0x1f
	b	.LBB11_400
.LBB11_461:
	ldurb	w8, [x29, #-159]
	ldurb	w30, [x29, #-158]
	ldr	x0, [sp, #88]
	b	.LBB11_457
.LBB11_462:
	ldurb	w8, [x29, #-159]
	ldurb	w30, [x29, #-158]
	mov	x9, xzr
	ldr	x0, [sp, #88]
	mov	x18, xzr
	mov	w26, wzr
	stur	wzr, [x29, #-168]
	mov	w10, #1
	stur	wzr, [x29, #-165]
	b	.LBB11_445
.LBB11_463:
	ldurb	w8, [x29, #-159]
	ldurb	w30, [x29, #-158]
	ldr	x0, [sp, #88]
	str	wzr, [sp, #184]
	stur	wzr, [sp, #187]
	b	.LBB11_277
.LBB11_464:
	and	x10, x10, #0x1f
	b	.LBB11_319
.LBB11_465:
	and	x12, x12, #0x1f
	b	.LBB11_287
.Lfunc_end11:
	.size	"reading::walk::modify", .Lfunc_end11-"reading::walk::modify"

	.section	".text.algebra::lists::make_of","ax",@progbits
	.p2align	2
	.type	"algebra::lists::make_of",@function
"algebra::lists::make_of":
	stp	d11, d10, [sp, #-128]!
	stp	d9, d8, [sp, #16]
	stp	x29, x30, [sp, #32]
	add	x29, sp, #32
	stp	x28, x27, [sp, #48]
	stp	x26, x25, [sp, #64]
	stp	x24, x23, [sp, #80]
	stp	x22, x21, [sp, #96]
	stp	x20, x19, [sp, #112]
	sub	sp, sp, #656
	mov	x8, x3
	ldrb	w9, [x3]
	ldr	x3, [x3, #8]
	ldrb	w21, [x8, #16]
	cmp	w9, #1
	b.ne	.LBB12_2
	and	w11, w1, #0xff
	ldrb	w8, [x8, #1]
	mov	w12, #9
	cmp	w11, #3
	mov	w9, wzr
	mov	x10, xzr
	cset	w11, ne
	cmp	w8, #9
	orr	w11, w11, w21
	csel	w12, w8, w12, hi
	csel	x13, xzr, x3, lo
	tst	w11, #0x1
	csel	w11, w8, w12, ne
	csel	x3, x3, x13, ne
	mov	w8, #1
	b	.LBB12_271
.LBB12_2:
	and	w9, w1, #0xff
	ldr	x23, [x8, #24]
	mov	x22, x4
	cmp	w9, #1
	b.gt	.LBB12_6
	mov	x20, x5
	cbnz	w9, .LBB12_9
	cmp	x3, x6, lsr #5
	b.ls	.LBB12_88
	mov	x3, xzr
	mov	w9, #16
	b	.LBB12_269
.LBB12_6:
	cmp	w9, #2
	b.ne	.LBB12_11
	movi	v0.2d, #0000000000000000
	ldr	x8, [x22]
	mov	w9, #1
	mov	x24, xzr
	str	w2, [sp, #4]
	strb	w9, [x8, #64]
	add	x9, x3, #128
	ldr	x8, [x22, #16]
	cmp	x9, #129
	stp	x6, x5, [sp, #8]
	stp	q0, q0, [sp, #80]
	str	q0, [sp, #112]
	fmov	v0.2d, #1.00000000
	strb	wzr, [x8, #64]
	ldr	x8, [x22, #32]
	stp	x23, x0, [sp, #24]
	str	w21, [sp, #44]
	stp	xzr, xzr, [sp, #128]
	str	x9, [sp, #56]
	str	q0, [x8, #1536]
	str	xzr, [x8, #1552]
	b.lo	.LBB12_86
	movi	d8, #0000000000000000
	fmov	d9, #1.00000000
	add	x8, sp, #176
	add	x9, sp, #144
	orr	x8, x8, #0x2
	mov	x24, xzr
	str	x8, [sp, #48]
	orr	x20, x9, #0x2
	mov	w8, #128
	b	.LBB12_21
.LBB12_9:
	mov	w25, w2
	mov	x19, x0
	add	x0, sp, #80
	mov	x1, x22
	mov	w2, #128
	mov	x4, xzr
	mov	x24, x6
	stp	xzr, xzr, [sp, #80]
	stp	xzr, xzr, [sp, #176]
	bl	"calculus::derivative::expr_deriv"
	ldrb	w8, [sp, #80]
	cmp	w8, #1
	b.ne	.LBB12_92
	ldrb	w9, [sp, #81]
	mov	x3, xzr
	mov	x0, x19
	b	.LBB12_270
.LBB12_11:
	ldrb	w8, [x8, #17]
	tbz	w8, #0, .LBB12_93
	movi	v0.2d, #0000000000000000
	ldr	x9, [x22]
	ldr	x10, [x22, #16]
	add	x11, x3, #128
	ldr	x12, [x22, #32]
	add	x8, sp, #208
	cmp	x11, #129
	stp	q0, q0, [sp, #224]
	stp	q0, q0, [sp, #256]
	stp	q0, q0, [sp, #288]
	stp	q0, q0, [sp, #320]
	stp	q0, q0, [sp, #352]
	stp	q0, q0, [sp, #384]
	stp	q0, q0, [sp, #416]
	stp	q0, q0, [sp, #448]
	stp	q0, q0, [sp, #480]
	stp	q0, q0, [sp, #512]
	stp	q0, q0, [sp, #544]
	stp	q0, q0, [sp, #576]
	stp	q0, q0, [sp, #608]
	str	q0, [sp, #208]
	b.lo	.LBB12_94
	fmov	d19, #2.00000000
	mov	w13, #128
.LBB12_14:
	add	x14, x13, x13, lsl #1
	ldrb	w15, [x9, x13]
	lsl	x14, x14, #3
	ldr	d0, [x12, x14]
	fcmp	d0, d19
	ccmp	w15, #1, #0, eq
	b.eq	.LBB12_95
	ldrb	w14, [x10, x13]
	add	x13, x13, x14
	add	x13, x13, #1
	cmp	x13, x11
	b.lo	.LBB12_14
	movi	d4, #0000000000000000
	movi	d2, #0000000000000000
	b	.LBB12_96
.LBB12_17:
	ldr	x21, [sp, #64]
.LBB12_18:
	ldr	x19, [sp, #72]
.LBB12_19:
	mov	x24, x8
	cbnz	w27, .LBB12_120
.LBB12_20:
	ldr	x9, [sp, #56]
	add	x8, x21, x19
	cmp	x8, x9
	b.hs	.LBB12_86
.LBB12_21:
	mov	w9, #24
	ldr	x23, [x22, #32]
	ldr	x28, [x22]
	madd	x9, x8, x9, x23
	ldr	x25, [x22, #16]
	add	x21, x8, #1
	ldrb	w10, [x28, x8]
	ldrb	w19, [x25, x8]
	cmp	w10, #1
	ldp	d11, d10, [x9, #8]
	b.ne	.LBB12_26
	fmov	d0, #1.00000000
	ldr	d1, [x9]
	fadd	d0, d1, d0
	fmov	d3, d0
	fcmp	d3, d8
	b.ne	.LBB12_38
	ldr	x8, [x22, #8]
	ldr	x9, [x22, #24]
	stp	x21, x19, [sp, #64]
	mov	x19, xzr
	str	x28, [sp, #208]
	stp	x8, x25, [sp, #216]
	ldr	x8, [x22, #40]
	stp	x9, x23, [sp, #232]
	str	x8, [sp, #248]
	mov	w8, #259
	strh	w8, [sp, #176]
	ldr	x8, [sp, #48]
	stp	d11, d10, [sp, #192]
	str	wzr, [x8]
	strh	wzr, [x8, #4]
	mov	x8, #22377
	movk	x8, #35604, lsl #16
	movk	x8, #48906, lsl #32
	movk	x8, #16389, lsl #48
	str	x8, [sp, #184]
	cbz	x24, .LBB12_55
.LBB12_24:
	mov	w8, #24
	ldrb	w26, [x25, x19]
	add	x0, sp, #208
	madd	x21, x19, x8, x23
	ldrb	w8, [x28, x19]
	add	x1, sp, #176
	add	x3, sp, #144
	add	x4, x19, #1
	mov	w2, #64
	mov	w5, #4
	str	wzr, [x20]
	add	x27, x19, #1
	strh	wzr, [x20, #4]
	strb	w8, [sp, #144]
	ldr	q0, [x21]
	ldr	d1, [x21, #16]
	strb	w26, [sp, #145]
	stur	q0, [sp, #152]
	str	d1, [sp, #168]
	bl	"sums::order::cmp_term"
	and	w8, w0, #0xff
	cmp	w8, #2
	b.ne	.LBB12_54
	add	x19, x27, x26
	cmp	x19, x24
	b.lo	.LBB12_24
	b	.LBB12_55
.LBB12_26:
	mov	x3, xzr
	cmp	w10, #5
	mov	w8, #1
	mov	w9, #6
	b.lo	.LBB12_87
	cmp	w19, #1
	b.ne	.LBB12_87
	mov	w8, #24
	mul	x8, x21, x8
	ldr	d0, [x23, x8]
	ldrb	w8, [x28, x21]
	fcmp	d0, d9
	ccmp	w8, #1, #0, eq
	mov	w8, #1
	b.ne	.LBB12_143
	mov	x12, #506381209866536711
	lsl	x9, x10, #3
	fneg	d0, d11
	movk	x12, #1543, lsl #32
	fneg	d1, d10
	cmp	w10, #7
	movk	x12, #2053, lsl #48
	ldr	x11, [x22, #8]
	ldr	x13, [x22, #24]
	lsr	x9, x12, x9
	mov	w12, #7
	strb	w8, [sp, #177]
	stp	x28, x11, [sp, #208]
	ldr	x11, [x22, #40]
	ldr	x8, [sp, #48]
	csel	w9, w12, w9, hi
	cmp	w10, #5
	stp	x21, x19, [sp, #64]
	fcsel	d11, d0, d11, eq
	fcsel	d10, d1, d10, eq
	mov	x19, xzr
	stp	x25, x13, [sp, #224]
	stp	x23, x11, [sp, #240]
	str	w9, [sp, #40]
	strb	w9, [sp, #176]
	str	xzr, [x8]
	stur	xzr, [x8, #6]
	stp	d11, d10, [sp, #192]
	cbz	x24, .LBB12_33
.LBB12_30:
	mov	w8, #24
	ldrb	w27, [x25, x19]
	add	x0, sp, #208
	madd	x26, x19, x8, x23
	ldrb	w8, [x28, x19]
	add	x1, sp, #176
	add	x3, sp, #144
	add	x4, x19, #1
	mov	w2, #64
	mov	w5, #4
	str	wzr, [x20]
	add	x21, x19, #1
	strh	wzr, [x20, #4]
	strb	w8, [sp, #144]
	ldr	q0, [x26]
	ldr	d1, [x26, #16]
	strb	w27, [sp, #145]
	stur	q0, [sp, #152]
	str	d1, [sp, #168]
	bl	"sums::order::cmp_term"
	and	w8, w0, #0xff
	cmp	w8, #2
	b.ne	.LBB12_32
	add	x19, x21, x27
	cmp	x19, x24
	b.lo	.LBB12_30
	b	.LBB12_33
.LBB12_32:
	cbnz	w8, .LBB12_60
.LBB12_33:
	fsub	d0, d11, d11
	mov	x8, xzr
	mov	w9, #14
	mov	w27, #1
	fcmp	d0, d8
	b.ne	.LBB12_17
	fsub	d0, d10, d10
	ldr	x21, [sp, #64]
	fcmp	d0, d8
	b.ne	.LBB12_18
	mov	x0, x25
	mov	w1, #64
	mov	w2, #1
	mov	w3, #3
	mov	w27, #1
	bl	"sums::order::nests_inside"
	cbz	w0, .LBB12_64
	add	x8, x24, #2
	cmp	x8, #64
	b.ls	.LBB12_73
	mov	x8, xzr
	mov	w9, #11
	mov	w27, #1
	b	.LBB12_18
.LBB12_38:
	mov	x11, xzr
	cbz	x24, .LBB12_42
.LBB12_39:
	ldrb	w8, [x28, x11]
	cmp	w8, #1
	b.ne	.LBB12_42
	add	x11, x11, #1
	cmp	x24, x11
	b.ne	.LBB12_39
	mov	x11, x24
.LBB12_42:
	fsub	d1, d0, d0
	fcmp	d1, d8
	b.ne	.LBB12_169
	fdiv	d2, d11, d0
	mov	w8, #24
	mov	x9, #16
	madd	x10, x11, x8, x9
	fdiv	d1, d10, d0
.LBB12_44:
	mov	x9, x11
	mov	x8, x10
	cbz	x11, .LBB12_47
	add	x10, x23, x8
	ldur	d4, [x10, #-40]
	fcmp	d3, d4
	cset	w10, mi
	fcmp	d4, d3
	//APP
	//NO_APP
	cset	w11, mi
	//APP
	//NO_APP
	cmp	w11, #0
	mov	w11, #1
	cinc	w11, w11, ne
	cmp	w10, #0
	sub	x10, x8, #24
	csel	w12, wzr, w11, ne
	sub	x11, x9, #1
	cbz	w12, .LBB12_44
	cmp	w12, #2
	b.ne	.LBB12_70
.LBB12_47:
	fsub	d3, d2, d2
	fsub	d4, d1, d1
	fcmp	d3, d8
	fccmp	d4, d8, #0, eq
	b.ne	.LBB12_198
	add	x10, x24, #1
	cmp	x10, #64
	b.hi	.LBB12_199
	cmp	x9, x24
	b.hs	.LBB12_53
	mov	w11, #24
	add	x14, x25, x24
	add	x15, x28, x24
	madd	x13, x24, x11, x23
	mov	x11, x15
	mov	x12, x14
.LBB12_51:
	ldrb	w16, [x11, #-1]!
	sub	x24, x24, #1
	cmp	x9, x24
	strb	w16, [x15]
	ldrb	w15, [x12, #-1]!
	strb	w15, [x14]
	mov	x15, x11
	ldur	q3, [x13, #-24]
	ldur	x14, [x13, #-8]
	str	q3, [x13]
	str	x14, [x13, #16]
	sub	x13, x13, #24
	mov	x14, x12
	b.lo	.LBB12_51
	ldr	x28, [x22]
.LBB12_53:
	mov	w11, #1
	strb	w11, [x28, x9]
	mov	x24, x10
	ldr	x11, [x22, #16]
	strb	wzr, [x11, x9]
	ldr	x9, [x22, #32]
	add	x8, x9, x8
	stp	d0, d2, [x8, #-16]
	str	d1, [x8]
	b	.LBB12_20
.LBB12_54:
	cbnz	w8, .LBB12_65
.LBB12_55:
	fsub	d0, d11, d11
	fsub	d1, d10, d10
	fcmp	d0, d8
	fccmp	d1, d8, #0, eq
	b.eq	.LBB12_57
	mov	x8, xzr
	mov	w9, #14
	mov	w27, #1
	b	.LBB12_83
.LBB12_57:
	mov	x0, x25
	mov	w1, #64
	mov	w2, #1
	mov	w3, #3
	mov	w27, #1
	bl	"sums::order::nests_inside"
	cbz	w0, .LBB12_69
	add	x8, x24, #2
	cmp	x8, #64
	b.ls	.LBB12_78
	mov	x8, xzr
	mov	w9, #11
	mov	w27, #1
	b	.LBB12_83
.LBB12_60:
	fsub	d0, d11, d11
	mov	x8, xzr
	mov	w9, #14
	mov	w27, #1
	fcmp	d0, d8
	b.ne	.LBB12_17
	fsub	d0, d10, d10
	ldr	x21, [sp, #64]
	fcmp	d0, d8
	b.ne	.LBB12_18
	mov	x0, x25
	mov	w1, #64
	mov	w2, #1
	mov	w3, #3
	mov	w27, #1
	bl	"sums::order::nests_inside"
	cbz	w0, .LBB12_64
	mov	w27, wzr
	mov	w9, wzr
	stp	d11, d10, [x26, #8]
	mov	x8, x24
	b	.LBB12_18
.LBB12_64:
	mov	x8, xzr
	mov	w9, #12
	b	.LBB12_18
.LBB12_65:
	fsub	d0, d11, d11
	mov	x8, xzr
	mov	w9, #14
	mov	w27, #1
	fcmp	d0, d8
	b.ne	.LBB12_83
	fsub	d0, d10, d10
	ldr	x19, [sp, #72]
	fcmp	d0, d8
	b.ne	.LBB12_84
	mov	x0, x25
	mov	w1, #64
	mov	w2, #1
	mov	w3, #3
	mov	w27, #1
	bl	"sums::order::nests_inside"
	cbz	w0, .LBB12_85
	stp	d11, d10, [x21, #8]
	ldr	x21, [sp, #64]
	mov	w27, wzr
	mov	w9, wzr
	mov	x8, x24
	b	.LBB12_19
.LBB12_69:
	mov	x8, xzr
	mov	w9, #12
	b	.LBB12_83
.LBB12_70:
	fsub	d0, d2, d2
	mov	x3, xzr
	mov	w8, #1
	mov	w9, #14
	fcmp	d0, d8
	b.ne	.LBB12_87
	fsub	d0, d1, d1
	fcmp	d0, d8
	b.ne	.LBB12_87
	add	x8, x23, x10
	stp	d2, d1, [x8, #-8]
	b	.LBB12_20
.LBB12_73:
	cmp	x19, x24
	b.hs	.LBB12_77
	mov	w9, #24
	add	x10, x25, x24
	add	x11, x28, x24
	madd	x9, x24, x9, x23
	add	x10, x10, #1
	add	x11, x11, #1
	sub	x9, x9, #24
.LBB12_75:
	ldurb	w12, [x11, #-2]
	sub	x24, x24, #1
	cmp	x19, x24
	strb	w12, [x11], #-1
	ldurb	w12, [x10, #-2]
	strb	w12, [x10], #-1
	ldr	q0, [x9]
	ldr	x12, [x9, #16]
	str	q0, [x9, #48]
	str	x12, [x9, #64]
	sub	x9, x9, #24
	b.lo	.LBB12_75
	ldr	x28, [x22]
.LBB12_77:
	ldr	w10, [sp, #40]
	add	x11, x19, x19, lsl #1
	mov	w12, #1
	strb	w10, [x28, x19]
	mov	w27, wzr
	mov	w9, wzr
	ldr	x10, [x22, #16]
	strb	w12, [x10, x19]
	lsl	x10, x11, #3
	add	x12, x19, #1
	ldr	x11, [x22, #32]
	add	x11, x11, x10
	str	xzr, [x11]
	stp	d11, d10, [x11, #8]
	ldr	x11, [x22]
	ldr	x13, [x22, #16]
	ldr	x15, [x22, #32]
	ldrb	w14, [x11, #64]
	add	x10, x10, x15
	strb	w14, [x11, x12]
	ldrb	w11, [x13, #64]
	strb	w11, [x13, x12]
	ldr	x11, [x15, #1552]
	ldr	q0, [x15, #1536]
	str	x11, [x10, #40]
	stur	q0, [x10, #24]
	b	.LBB12_18
.LBB12_78:
	cmp	x19, x24
	b.hs	.LBB12_82
	mov	w9, #24
	add	x10, x25, x24
	add	x11, x28, x24
	madd	x9, x24, x9, x23
	add	x10, x10, #1
	add	x11, x11, #1
	sub	x9, x9, #24
.LBB12_80:
	ldurb	w12, [x11, #-2]
	sub	x24, x24, #1
	cmp	x19, x24
	strb	w12, [x11], #-1
	ldurb	w12, [x10, #-2]
	strb	w12, [x10], #-1
	ldr	q0, [x9]
	ldr	x12, [x9, #16]
	str	q0, [x9, #48]
	str	x12, [x9, #64]
	sub	x9, x9, #24
	b.lo	.LBB12_80
	ldr	x28, [x22]
.LBB12_82:
	mov	w10, #3
	strb	w10, [x28, x19]
	add	x11, x19, x19, lsl #1
	ldr	x10, [x22, #16]
	mov	w12, #1
	mov	w27, wzr
	mov	w9, wzr
	strb	w12, [x10, x19]
	mov	x12, #22377
	lsl	x10, x11, #3
	ldr	x11, [x22, #32]
	movk	x12, #35604, lsl #16
	movk	x12, #48906, lsl #32
	add	x11, x11, x10
	movk	x12, #16389, lsl #48
	str	x12, [x11]
	add	x12, x19, #1
	stp	d11, d10, [x11, #8]
	ldr	x11, [x22]
	ldr	x13, [x22, #16]
	ldr	x15, [x22, #32]
	ldrb	w14, [x11, #64]
	add	x10, x10, x15
	strb	w14, [x11, x12]
	ldrb	w11, [x13, #64]
	strb	w11, [x13, x12]
	ldr	x11, [x15, #1552]
	ldr	q0, [x15, #1536]
	str	x11, [x10, #40]
	stur	q0, [x10, #24]
.LBB12_83:
	ldr	x19, [sp, #72]
.LBB12_84:
	ldr	x21, [sp, #64]
	b	.LBB12_19
.LBB12_85:
	ldr	x21, [sp, #64]
	mov	x8, xzr
	mov	w9, #12
	b	.LBB12_19
.LBB12_86:
	ldp	x8, x9, [x22, #32]
	add	x0, sp, #128
	ldp	q0, q1, [x22]
	add	x2, sp, #80
	ldp	x6, x5, [sp, #8]
	mov	x3, x24
	stp	x8, x9, [sp, #112]
	ldr	w8, [sp, #44]
	ldr	w1, [sp, #4]
	stp	q0, q1, [sp, #80]
	and	w4, w8, #0x1
	bl	"algebra::answer::write_sum"
	ldrb	w8, [sp, #128]
	ldrb	w9, [sp, #129]
	ldr	x3, [sp, #136]
.LBB12_87:
	ldp	x23, x0, [sp, #24]
	ldr	w21, [sp, #44]
	b	.LBB12_270
.LBB12_88:
	cbz	x3, .LBB12_91
	ldr	x11, [x22]
	ldr	x10, [x22, #16]
	mov	x8, xzr
	ldr	x12, [x22, #32]
	add	x9, x20, #24
	add	x10, x10, #128
	add	x11, x11, #128
	add	x12, x12, #3088
.LBB12_90:
	ldrb	w13, [x11, x8]
	ldrb	w14, [x10, x8]
	add	x8, x8, #1
	ldr	x15, [x12]
	ldur	q0, [x12, #-16]
	cmp	x3, x8
	add	x12, x12, #24
	stp	w13, w14, [x9, #-24]
	stur	q0, [x9, #-16]
	str	x15, [x9], #32
	b.ne	.LBB12_90
.LBB12_91:
	mov	w8, wzr
	mov	w9, wzr
	b	.LBB12_270
.LBB12_92:
	ldp	q0, q1, [x22]
	add	x0, sp, #176
	ldp	x8, x9, [x22, #32]
	add	x2, sp, #208
	ldr	x3, [sp, #88]
	and	w4, w21, #0x1
	mov	w1, w25
	mov	x5, x20
	mov	x6, x24
	stp	q0, q1, [sp, #208]
	stp	x8, x9, [sp, #240]
	bl	"algebra::answer::write_sum"
	ldrb	w8, [sp, #176]
	ldrb	w9, [sp, #177]
	mov	x0, x19
	ldr	x3, [sp, #184]
	b	.LBB12_270
.LBB12_93:
	mov	x3, xzr
	mov	w9, #9
	b	.LBB12_269
.LBB12_94:
	movi	d16, #0000000000000000
	movi	d1, #0000000000000000
	movi	d3, #0000000000000000
	movi	d4, #0000000000000000
	movi	d2, #0000000000000000
	movi	d6, #0000000000000000
	movi	d5, #0000000000000000
	fmov	d18, d16
	fmov	d7, d16
	fmov	d17, d16
	fmov	d0, d16
	fcmp	d16, d0
	cset	w9, eq
	fcmp	d18, d0
	csel	w9, wzr, w9, ne
	fcmp	d17, d0
	b.eq	.LBB12_123
	b	.LBB12_129
.LBB12_95:
	add	x13, x12, x14
	ldp	d2, d4, [x13, #8]
.LBB12_96:
	fmov	d16, #1.00000000
	mov	w13, #128
.LBB12_97:
	add	x14, x13, x13, lsl #1
	ldrb	w15, [x9, x13]
	lsl	x14, x14, #3
	ldr	d0, [x12, x14]
	fcmp	d0, d16
	ccmp	w15, #1, #0, eq
	b.eq	.LBB12_100
	ldrb	w14, [x10, x13]
	add	x13, x13, x14
	add	x13, x13, #1
	cmp	x13, x11
	b.lo	.LBB12_97
	movi	d3, #0000000000000000
	movi	d1, #0000000000000000
	b	.LBB12_101
.LBB12_100:
	add	x13, x12, x14
	ldp	d1, d3, [x13, #8]
.LBB12_101:
	movi	d0, #0000000000000000
	mov	w13, #128
.LBB12_102:
	add	x14, x13, x13, lsl #1
	ldrb	w15, [x9, x13]
	lsl	x14, x14, #3
	ldr	d5, [x12, x14]
	fcmp	d5, d0
	ccmp	w15, #1, #0, eq
	b.eq	.LBB12_105
	ldrb	w14, [x10, x13]
	add	x13, x13, x14
	add	x13, x13, #1
	cmp	x13, x11
	b.lo	.LBB12_102
	movi	d6, #0000000000000000
	movi	d5, #0000000000000000
	b	.LBB12_106
.LBB12_105:
	add	x13, x12, x14
	ldp	d5, d6, [x13, #8]
.LBB12_106:
	movi	d7, #0000000000000000
	movi	d18, #0000000000000000
	mov	w14, wzr
	movi	d17, #0000000000000000
	mov	w13, #128
	b	.LBB12_109
.LBB12_107:
	movi	d7, #0000000000000000
	ldp	d17, d18, [x15, #8]
	cmp	w16, #1
	mov	w14, #2
	csinc	w14, w14, wzr, ne
	fcsel	d17, d7, d17, ne
	fcsel	d18, d7, d18, ne
	fcsel	d7, d7, d20, ne
.LBB12_108:
	ldrb	w15, [x10, x13]
	add	x13, x13, x15
	add	x13, x13, #1
	cmp	x13, x11
	b.hs	.LBB12_112
.LBB12_109:
	mov	w15, #24
	ldrb	w16, [x9, x13]
	madd	x15, x13, x15, x12
	ldr	d20, [x15]
	fmov	d21, d20
	fcmp	d21, d16
	fccmp	d21, d0, #4, ne
	fccmp	d21, d19, #4, ne
	ccmp	w16, #1, #0, eq
	b.eq	.LBB12_108
	cbz	w14, .LBB12_107
	movi	d17, #0000000000000000
	movi	d18, #0000000000000000
	mov	w14, #2
	movi	d7, #0000000000000000
	b	.LBB12_108
.LBB12_112:
	cmp	w14, #2
	b.eq	.LBB12_121
	cmp	w14, #1
	b.ne	.LBB12_122
	fcmp	d4, d0
	mov	w9, #6
	b.ne	.LBB12_268
	fcmp	d2, d0
	b.ne	.LBB12_268
	fcmp	d3, d0
	b.ne	.LBB12_268
	fcmp	d1, d0
	b.ne	.LBB12_268
	mov	x9, #-4382002437431492608
	fmov	d1, d17
	mov	x14, x6
	fmov	d2, x9
	mov	x9, #4841369599423283200
	mov	x13, x5
	fcmp	d1, d2
	fmov	d2, x9
	cset	w9, ls
	fcmp	d2, d1
	//APP
	//NO_APP
	cset	w10, ls
	//APP
	//NO_APP
	orr	w9, w9, w10
	cbz	w9, .LBB12_170
	fsub	d2, d17, d17
	fcmp	d2, d0
	b	.LBB12_215
.LBB12_120:
	mov	x3, xzr
	mov	w8, #1
	b	.LBB12_87
.LBB12_121:
	mov	w9, #6
	b	.LBB12_268
.LBB12_122:
	fmov	d17, d1
	fmov	d7, d3
	fmov	d18, d2
	fmov	d16, d4
	fcmp	d16, d0
	cset	w9, eq
	fcmp	d18, d0
	csel	w9, wzr, w9, ne
	fcmp	d17, d0
	b.ne	.LBB12_129
.LBB12_123:
	fcmp	d7, d0
	b.ne	.LBB12_129
	cbz	w9, .LBB12_139
	fmov	d1, d6
	mov	w9, #517
	stur	xzr, [x8, #10]
	strh	w9, [sp, #208]
	stur	xzr, [x8, #2]
	str	xzr, [sp, #224]
	fcmp	d1, d0
	b.eq	.LBB12_164
	fsub	d2, d6, d6
	mov	w9, #14
	fcmp	d2, d0
	b.ne	.LBB12_268
	fsub	d2, d5, d5
	fcmp	d2, d0
	b.ne	.LBB12_268
	mov	x11, x6
	mov	x10, x5
	mov	w9, #2
	b	.LBB12_168
.LBB12_129:
	cbz	w9, .LBB12_135
	fmov	d2, d6
	fcmp	d2, d0
	b.ne	.LBB12_144
	fmov	d4, d5
	fcmp	d4, d0
	b.ne	.LBB12_144
	fmov	d2, #1.00000000
	fcmp	d17, d2
	b.ne	.LBB12_180
	fcmp	d7, d0
	b.ne	.LBB12_180
	mov	w9, #261
	stur	xzr, [x8, #10]
	strh	w9, [sp, #208]
	stur	xzr, [x8, #2]
	mov	w8, #1
	str	xzr, [sp, #224]
	b	.LBB12_266
.LBB12_135:
	tbz	w21, #0, .LBB12_148
	fsub	d16, d6, d6
	mov	w9, #14
	fcmp	d16, d0
	b.ne	.LBB12_268
	fsub	d16, d5, d5
	fcmp	d16, d0
	b.ne	.LBB12_268
	mov	x13, x6
	mov	x12, x5
	mov	w9, #2
	b	.LBB12_152
.LBB12_139:
	tbz	w21, #0, .LBB12_156
	fsub	d1, d6, d6
	mov	w9, #14
	fcmp	d1, d0
	b.ne	.LBB12_268
	fsub	d1, d5, d5
	fcmp	d1, d0
	b.ne	.LBB12_268
	mov	x13, x6
	mov	x12, x5
	mov	w9, #2
	b	.LBB12_160
.LBB12_143:
	mov	x3, xzr
	b	.LBB12_87
.LBB12_144:
	tbz	w21, #0, .LBB12_172
	fsub	d2, d6, d6
	mov	w9, #14
	fcmp	d2, d0
	b.ne	.LBB12_268
	fsub	d2, d5, d5
	fcmp	d2, d0
	b.ne	.LBB12_268
	mov	x13, x6
	mov	x12, x5
	mov	w9, #2
	b	.LBB12_176
.LBB12_148:
	mov	x9, #-4850376798678024192
	fmov	d17, d6
	fmov	d16, x9
	mov	x9, #4372995238176751616
	fcmp	d16, d17
	fmov	d16, x9
	mov	w9, #14
	cset	w11, mi
	fcmp	d17, d16
	//APP
	//NO_APP
	cset	w10, mi
	//APP
	//NO_APP
	cbz	w11, .LBB12_268
	cbz	w10, .LBB12_268
	fsub	d16, d5, d5
	fcmp	d16, d0
	b.ne	.LBB12_268
	mov	x13, x6
	mov	x12, x5
	mov	w9, #1
.LBB12_152:
	str	d5, [sp, #216]
	fmov	d5, #-4.00000000
	tst	w21, #0x1
	strb	w9, [sp, #208]
	fmov	x9, d6
	stur	wzr, [x8, #1]
	fmul	d6, d2, d5
	fmul	d5, d4, d5
	str	wzr, [sp, #212]
	csel	x9, x9, xzr, ne
	stur	xzr, [x8, #34]
	str	x9, [sp, #224]
	mov	w9, #1029
	strh	w9, [sp, #232]
	mov	w9, #2309
	stur	xzr, [x8, #26]
	str	xzr, [sp, #248]
	strh	w9, [sp, #256]
	stur	xzr, [x8, #58]
	stur	xzr, [x8, #50]
	str	xzr, [sp, #272]
	tbz	w21, #0, .LBB12_185
	fsub	d16, d5, d5
	mov	w9, #14
	fcmp	d16, d0
	b.ne	.LBB12_268
	fsub	d16, d6, d6
	fcmp	d16, d0
	b.ne	.LBB12_268
	mov	w9, #2
	b	.LBB12_189
.LBB12_156:
	mov	x9, #-4850376798678024192
	fmov	d3, d6
	fmov	d1, x9
	mov	x9, #4372995238176751616
	fcmp	d1, d3
	fmov	d1, x9
	mov	w9, #14
	cset	w11, mi
	fcmp	d3, d1
	//APP
	//NO_APP
	cset	w10, mi
	//APP
	//NO_APP
	cbz	w11, .LBB12_268
	cbz	w10, .LBB12_268
	fsub	d1, d5, d5
	fcmp	d1, d0
	b.ne	.LBB12_268
	mov	x13, x6
	mov	x12, x5
	mov	w9, #1
.LBB12_160:
	strb	w9, [sp, #208]
	fmov	x9, d6
	tst	w21, #0x1
	stur	wzr, [x8, #1]
	str	wzr, [sp, #212]
	csel	x9, x9, xzr, ne
	str	d5, [sp, #216]
	str	x9, [sp, #224]
	mov	w9, #2309
	strh	w9, [sp, #232]
	stur	xzr, [x8, #34]
	stur	xzr, [x8, #26]
	str	xzr, [sp, #248]
	tbz	w21, #0, .LBB12_193
	fsub	d1, d4, d4
	mov	w9, #14
	fcmp	d1, d0
	b.ne	.LBB12_268
	fsub	d1, d2, d2
	fcmp	d1, d0
	b.ne	.LBB12_268
	mov	w9, #2
	b	.LBB12_197
.LBB12_164:
	mov	x9, #-4850376798678024192
	fmov	d2, x9
	mov	x9, #4372995238176751616
	fcmp	d2, d1
	fmov	d2, x9
	mov	w9, #14
	cset	w11, mi
	fcmp	d1, d2
	//APP
	//NO_APP
	cset	w10, mi
	//APP
	//NO_APP
	cbz	w11, .LBB12_268
	cbz	w10, .LBB12_268
	fsub	d2, d5, d5
	fcmp	d2, d0
	b.ne	.LBB12_268
	mov	x11, x6
	mov	x10, x5
	mov	w9, #1
.LBB12_168:
	fcmp	d1, d0
	stur	wzr, [x8, #25]
	fmov	x8, d6
	mov	x5, x10
	mov	x6, x11
	strb	w9, [sp, #232]
	str	wzr, [sp, #236]
	csel	x8, x8, xzr, ne
	str	d5, [sp, #240]
	str	x8, [sp, #248]
	mov	w8, #2
	b	.LBB12_266
.LBB12_169:
	mov	x3, xzr
	mov	w8, #1
	mov	w9, #17
	b	.LBB12_87
.LBB12_170:
	fcmp	d1, d0
	cset	w9, mi
	//APP
	//NO_APP
	cbz	w9, .LBB12_213
	mov	x9, #-4382002437431492608
	fmov	d2, x9
	mov	x9, #4841369599423283200
	b	.LBB12_214
.LBB12_172:
	mov	x9, #-4850376798678024192
	fmov	d4, x9
	mov	x9, #4372995238176751616
	fcmp	d4, d2
	fmov	d4, x9
	mov	w9, #14
	cset	w11, mi
	fcmp	d2, d4
	//APP
	//NO_APP
	cset	w10, mi
	//APP
	//NO_APP
	cbz	w11, .LBB12_268
	cbz	w10, .LBB12_268
	fsub	d2, d5, d5
	fcmp	d2, d0
	b.ne	.LBB12_268
	mov	x13, x6
	mov	x12, x5
	mov	w9, #1
.LBB12_176:
	strb	w9, [sp, #208]
	fmov	x9, d6
	tst	w21, #0x1
	stur	wzr, [x8, #1]
	str	wzr, [sp, #212]
	csel	x9, x9, xzr, ne
	str	d5, [sp, #216]
	str	x9, [sp, #224]
	mov	w9, #2309
	strh	w9, [sp, #232]
	stur	xzr, [x8, #34]
	stur	xzr, [x8, #26]
	str	xzr, [sp, #248]
	tbz	w21, #0, .LBB12_200
	fsub	d2, d1, d1
	mov	w9, #14
	fcmp	d2, d0
	b.ne	.LBB12_268
	fsub	d2, d3, d3
	fcmp	d2, d0
	b.ne	.LBB12_268
	mov	w9, #2
	b	.LBB12_204
.LBB12_180:
	fmul	d2, d1, d1
	fmul	d4, d3, d3
	mov	x9, #1
	movk	x9, #16368, lsl #48
	fadd	d2, d2, d4
	fmov	d4, x9
	fmov	d5, d2
	fcmp	d4, d5
	cset	w9, mi
	//APP
	//NO_APP
	cbz	w9, .LBB12_224
	tbz	w21, #0, .LBB12_228
	fsub	d2, d1, d1
	mov	w9, #14
	fcmp	d2, d0
	b.ne	.LBB12_268
	fsub	d2, d3, d3
	fcmp	d2, d0
	b.ne	.LBB12_268
	mov	w9, #2
	b	.LBB12_232
.LBB12_185:
	mov	x9, #-4850376798678024192
	fmov	d17, d5
	fmov	d16, x9
	mov	x9, #4372995238176751616
	fcmp	d16, d17
	fmov	d16, x9
	mov	w9, #14
	cset	w11, mi
	fcmp	d17, d16
	//APP
	//NO_APP
	cset	w10, mi
	//APP
	//NO_APP
	cbz	w11, .LBB12_268
	cbz	w10, .LBB12_268
	fsub	d16, d6, d6
	fcmp	d16, d0
	b.ne	.LBB12_268
	mov	w9, #1
.LBB12_189:
	fmul	d16, d1, d1
	str	d6, [sp, #288]
	fmul	d6, d3, d3
	fmul	d17, d1, d3
	strb	w9, [sp, #280]
	fmov	x9, d5
	tst	w21, #0x1
	stur	wzr, [x8, #73]
	str	wzr, [sp, #284]
	fsub	d5, d16, d6
	csel	x9, x9, xzr, ne
	stur	xzr, [x8, #106]
	fadd	d6, d17, d17
	str	x9, [sp, #296]
	mov	w9, #2565
	strh	w9, [sp, #304]
	stur	xzr, [x8, #98]
	str	xzr, [sp, #320]
	tbz	w21, #0, .LBB12_205
	fsub	d16, d5, d5
	mov	w9, #14
	fcmp	d16, d0
	b.ne	.LBB12_268
	fsub	d16, d6, d6
	fcmp	d16, d0
	b.ne	.LBB12_268
	mov	w9, #2
	b	.LBB12_209
.LBB12_193:
	mov	x9, #-4850376798678024192
	fmov	d1, x9
	mov	x9, #4372995238176751616
	fcmp	d1, d16
	fmov	d1, x9
	mov	w9, #14
	cset	w11, mi
	fcmp	d16, d1
	//APP
	//NO_APP
	cset	w10, mi
	//APP
	//NO_APP
	cbz	w11, .LBB12_268
	cbz	w10, .LBB12_268
	fsub	d1, d2, d2
	fcmp	d1, d0
	b.ne	.LBB12_268
	mov	w9, #1
.LBB12_197:
	strb	w9, [sp, #256]
	fmov	x9, d4
	tst	w21, #0x1
	mov	x5, x12
	mov	x6, x13
	stur	wzr, [x8, #49]
	str	wzr, [sp, #260]
	csel	x9, x9, xzr, ne
	str	d2, [sp, #264]
	str	x9, [sp, #272]
	mov	w9, #2821
	strh	w9, [sp, #280]
	mov	w9, #1797
	stur	xzr, [x8, #82]
	stur	xzr, [x8, #74]
	str	xzr, [sp, #296]
	strh	w9, [sp, #304]
	stur	xzr, [x8, #106]
	stur	xzr, [x8, #98]
	mov	w8, #5
	str	xzr, [sp, #320]
	b	.LBB12_266
.LBB12_198:
	mov	x3, xzr
	mov	w8, #1
	mov	w9, #14
	b	.LBB12_87
.LBB12_199:
	mov	x3, xzr
	mov	w8, #1
	mov	w9, #11
	b	.LBB12_87
.LBB12_200:
	mov	x9, #-4850376798678024192
	fmov	d2, x9
	mov	x9, #4372995238176751616
	fcmp	d2, d7
	fmov	d2, x9
	mov	w9, #14
	cset	w11, mi
	fcmp	d7, d2
	//APP
	//NO_APP
	cset	w10, mi
	//APP
	//NO_APP
	cbz	w11, .LBB12_268
	cbz	w10, .LBB12_268
	fsub	d2, d1, d1
	fcmp	d2, d0
	b.ne	.LBB12_268
	mov	w9, #1
.LBB12_204:
	strb	w9, [sp, #256]
	fmov	x9, d3
	tst	w21, #0x1
	mov	x5, x12
	mov	x6, x13
	stur	wzr, [x8, #49]
	str	wzr, [sp, #260]
	csel	x9, x9, xzr, ne
	str	d1, [sp, #264]
	str	x9, [sp, #272]
	mov	w9, #2821
	strh	w9, [sp, #280]
	stur	xzr, [x8, #82]
	stur	xzr, [x8, #74]
	mov	w8, #4
	str	xzr, [sp, #296]
	b	.LBB12_266
.LBB12_205:
	mov	x9, #-4850376798678024192
	fmov	d17, d6
	fsub	d18, d5, d5
	fmov	d16, x9
	mov	x9, #4372995238176751616
	fcmp	d16, d17
	fmov	d16, x9
	mov	w9, #14
	cset	w11, mi
	fcmp	d17, d16
	//APP
	//NO_APP
	cset	w10, mi
	fcmp	d18, d0
	//APP
	//NO_APP
	b.ne	.LBB12_268
	cbz	w11, .LBB12_268
	cbz	w10, .LBB12_268
	mov	w9, #1
.LBB12_209:
	strb	w9, [sp, #328]
	fmov	x9, d6
	tst	w21, #0x1
	stur	wzr, [x8, #121]
	str	wzr, [sp, #332]
	csel	x9, x9, xzr, ne
	str	d5, [sp, #336]
	str	x9, [sp, #344]
	mov	w9, #2053
	strh	w9, [sp, #352]
	mov	w9, #1797
	strh	w9, [sp, #376]
	mov	w9, #773
	stur	xzr, [x8, #154]
	stur	xzr, [x8, #146]
	str	xzr, [sp, #368]
	stur	xzr, [x8, #178]
	stur	xzr, [x8, #170]
	str	xzr, [sp, #392]
	strh	w9, [sp, #400]
	str	xzr, [sp, #416]
	stur	xzr, [x8, #194]
	stur	xzr, [x8, #202]
	tbz	w21, #0, .LBB12_245
	fsub	d5, d1, d1
	mov	w9, #14
	fcmp	d5, d0
	b.ne	.LBB12_268
	fsub	d5, d3, d3
	fcmp	d5, d0
	b.ne	.LBB12_268
	mov	w9, #2
	b	.LBB12_249
.LBB12_213:
	mov	x9, #4841369599423283200
	fmov	d2, x9
	mov	x9, #-4382002437431492608
.LBB12_214:
	fadd	d2, d17, d2
	fmov	d3, x9
	fadd	d2, d2, d3
	fcmp	d2, d1
.LBB12_215:
	fmov	d2, d18
	cset	w10, eq
	mov	w9, #13
	fcmp	d2, d0
	b.ne	.LBB12_268
	cbz	w10, .LBB12_268
	fmov	d3, d6
	fcmp	d3, d0
	b.ne	.LBB12_220
	fmov	d4, d5
	fcmp	d4, d0
	b.ne	.LBB12_220
	mov	x8, xzr
	b	.LBB12_238
.LBB12_220:
	tbz	w21, #0, .LBB12_233
	fsub	d3, d6, d6
	mov	w9, #14
	fcmp	d3, d0
	b.ne	.LBB12_268
	fsub	d3, d5, d5
	fcmp	d3, d0
	b.ne	.LBB12_268
	mov	w9, #2
	b	.LBB12_237
.LBB12_224:
	fneg	d3, d3
	fdiv	d1, d1, d2
	fdiv	d2, d3, d2
	tbz	w21, #0, .LBB12_260
	fsub	d3, d1, d1
	mov	w9, #14
	fcmp	d3, d0
	b.ne	.LBB12_268
	fsub	d3, d2, d2
	fcmp	d3, d0
	b.ne	.LBB12_268
	mov	w9, #2
	b	.LBB12_264
.LBB12_228:
	mov	x9, #-4850376798678024192
	fmov	d2, x9
	mov	x9, #4372995238176751616
	fcmp	d2, d7
	fmov	d2, x9
	mov	w9, #14
	cset	w11, mi
	fcmp	d7, d2
	//APP
	//NO_APP
	cset	w10, mi
	//APP
	//NO_APP
	cbz	w11, .LBB12_268
	cbz	w10, .LBB12_268
	fsub	d2, d1, d1
	fcmp	d2, d0
	b.ne	.LBB12_268
	mov	w9, #1
.LBB12_232:
	strb	w9, [sp, #208]
	fmov	x9, d3
	tst	w21, #0x1
	stur	wzr, [x8, #1]
	str	wzr, [sp, #212]
	csel	x9, x9, xzr, ne
	str	d1, [sp, #216]
	str	x9, [sp, #224]
	mov	w9, #2821
	b	.LBB12_265
.LBB12_233:
	mov	x9, #-4850376798678024192
	fmov	d4, x9
	mov	x9, #4372995238176751616
	fcmp	d4, d3
	fmov	d4, x9
	mov	w9, #14
	cset	w11, mi
	fcmp	d3, d4
	//APP
	//NO_APP
	cset	w10, mi
	//APP
	//NO_APP
	cbz	w11, .LBB12_268
	cbz	w10, .LBB12_268
	fsub	d3, d5, d5
	fcmp	d3, d0
	b.ne	.LBB12_268
	mov	w9, #1
.LBB12_237:
	strb	w9, [sp, #208]
	fmov	x9, d6
	tst	w21, #0x1
	stur	wzr, [x8, #1]
	stur	xzr, [x8, #34]
	csel	x9, x9, xzr, ne
	stur	xzr, [x8, #26]
	mov	w8, #2
	str	x9, [sp, #224]
	mov	w9, #2309
	str	wzr, [sp, #212]
	str	d5, [sp, #216]
	strh	w9, [sp, #232]
	str	xzr, [sp, #248]
.LBB12_238:
	fcmp	d1, d16
	mov	x5, x13
	mov	x6, x14
	b.eq	.LBB12_243
	tbz	w21, #0, .LBB12_253
	fsub	d1, d17, d17
	mov	w9, #14
	fcmp	d1, d0
	b.ne	.LBB12_268
	fsub	d1, d18, d18
	fcmp	d1, d0
	b.ne	.LBB12_268
	mov	w9, #2
	b	.LBB12_257
.LBB12_243:
	fmov	d1, d7
	fmov	d2, #0.50000000
	fcmp	d1, d2
	b.ne	.LBB12_258
.LBB12_244:
	mov	w9, #24
	add	x10, sp, #208
	umaddl	x9, w8, w9, x10
	mov	w10, #773
	add	x8, x8, #2
	strh	w10, [x9]
	mov	w10, #2565
	stur	xzr, [x9, #10]
	stur	xzr, [x9, #2]
	str	xzr, [x9, #16]
	strh	w10, [x9, #24]
	stur	xzr, [x9, #34]
	stur	xzr, [x9, #26]
	str	xzr, [x9, #40]
	b	.LBB12_266
.LBB12_245:
	mov	x9, #-4850376798678024192
	fmov	d5, x9
	mov	x9, #4372995238176751616
	fcmp	d5, d7
	fmov	d5, x9
	mov	w9, #14
	cset	w11, mi
	fcmp	d7, d5
	//APP
	//NO_APP
	cset	w10, mi
	//APP
	//NO_APP
	cbz	w11, .LBB12_268
	cbz	w10, .LBB12_268
	fsub	d5, d1, d1
	fcmp	d5, d0
	b.ne	.LBB12_268
	mov	w9, #1
.LBB12_249:
	strb	w9, [sp, #424]
	fmov	x9, d3
	tst	w21, #0x1
	stur	wzr, [x8, #217]
	stur	xzr, [x8, #250]
	csel	x10, x9, xzr, ne
	mov	w9, #2309
	stur	xzr, [x8, #242]
	strh	w9, [sp, #448]
	mov	w8, #1029
	add	x9, sp, #208
	strh	w8, [sp, #472]
	add	x8, x9, #274
	add	x11, x9, #266
	str	xzr, [x8]
	mov	w8, #1285
	strh	w8, [sp, #496]
	add	x8, x9, #290
	str	xzr, [x8]
	add	x8, x9, #298
	str	wzr, [sp, #428]
	str	d1, [sp, #432]
	str	x10, [sp, #440]
	str	xzr, [sp, #464]
	str	xzr, [x11]
	str	xzr, [sp, #488]
	str	xzr, [x8]
	str	xzr, [sp, #512]
	tbz	w21, #0, .LBB12_273
	fsub	d5, d1, d1
	mov	w9, #14
	fcmp	d5, d0
	b.ne	.LBB12_268
	fsub	d3, d3, d3
	fcmp	d3, d0
	b.ne	.LBB12_268
	mov	w8, #2
	b	.LBB12_277
.LBB12_253:
	mov	x9, #-4850376798678024192
	fsub	d3, d17, d17
	fmov	d1, x9
	mov	x9, #4372995238176751616
	fcmp	d1, d2
	fmov	d1, x9
	mov	w9, #14
	cset	w11, mi
	fcmp	d2, d1
	//APP
	//NO_APP
	cset	w10, mi
	fcmp	d3, d0
	//APP
	//NO_APP
	b.ne	.LBB12_268
	cbz	w11, .LBB12_268
	cbz	w10, .LBB12_268
	mov	w9, #1
.LBB12_257:
	mov	w10, #24
	add	x11, sp, #208
	fmov	d1, d7
	umaddl	x10, w8, w10, x11
	fmov	d2, #0.50000000
	tst	w21, #0x1
	mov	w11, #2821
	add	x8, x8, #2
	mov	x5, x13
	mov	x6, x14
	strb	w9, [x10]
	fmov	x9, d18
	stur	wzr, [x10, #1]
	str	wzr, [x10, #4]
	csel	x9, x9, xzr, ne
	fcmp	d1, d2
	str	d17, [x10, #8]
	str	x9, [x10, #16]
	strh	w11, [x10, #24]
	stur	xzr, [x10, #34]
	stur	xzr, [x10, #26]
	str	xzr, [x10, #40]
	b.eq	.LBB12_244
.LBB12_258:
	fmov	d2, #-1.00000000
	fcmp	d1, d2
	b.ne	.LBB12_281
	mov	w9, #24
	add	x10, sp, #208
	umaddl	x9, w8, w9, x10
	mov	w10, #4101
	add	x8, x8, #1
	strh	w10, [x9]
	stur	xzr, [x9, #10]
	stur	xzr, [x9, #2]
	str	xzr, [x9, #16]
	b	.LBB12_266
.LBB12_260:
	mov	x9, #-4850376798678024192
	fmov	d4, d2
	fsub	d5, d1, d1
	fmov	d3, x9
	mov	x9, #4372995238176751616
	fcmp	d3, d4
	fmov	d3, x9
	mov	w9, #14
	cset	w11, mi
	fcmp	d4, d3
	//APP
	//NO_APP
	cset	w10, mi
	fcmp	d5, d0
	//APP
	//NO_APP
	b.ne	.LBB12_268
	cbz	w11, .LBB12_268
	cbz	w10, .LBB12_268
	mov	w9, #1
.LBB12_264:
	strb	w9, [sp, #208]
	fmov	x9, d2
	tst	w21, #0x1
	stur	wzr, [x8, #1]
	str	wzr, [sp, #212]
	csel	x9, x9, xzr, ne
	str	d1, [sp, #216]
	str	x9, [sp, #224]
	mov	w9, #2565
.LBB12_265:
	strh	w9, [sp, #232]
	stur	xzr, [x8, #34]
	stur	xzr, [x8, #26]
	mov	w8, #2
	str	xzr, [sp, #248]
.LBB12_266:
	mov	x9, #-6148914691236517206
	movk	x9, #43691
	umulh	x9, x6, x9
	cmp	x8, x9, lsr #4
	b.ls	.LBB12_272
	mov	w9, #16
.LBB12_268:
	mov	x3, xzr
.LBB12_269:
	mov	w8, #1
.LBB12_270:
	cmp	w8, #0
	cset	w10, eq
	csel	w11, wzr, w9, eq
	and	w9, w10, w21
	csel	x10, x23, xzr, eq
.LBB12_271:
	strb	w8, [x0]
	strb	w11, [x0, #1]
	str	x3, [x0, #8]
	strb	w9, [x0, #16]
	str	x10, [x0, #24]
	add	sp, sp, #656
	ldp	x20, x19, [sp, #112]
	ldp	x22, x21, [sp, #96]
	ldp	x24, x23, [sp, #80]
	ldp	x26, x25, [sp, #64]
	ldp	x28, x27, [sp, #48]
	ldp	x29, x30, [sp, #32]
	ldp	d9, d8, [sp, #16]
	ldp	d11, d10, [sp], #128
	ret
.LBB12_272:
	add	x9, x8, x8, lsl #1
	add	x1, sp, #208
	mov	x20, x0
	mov	x0, x5
	mov	x19, x8
	lsl	x2, x9, #3
	bl	memcpy
	mov	x0, x20
	mov	x3, x19
	b	.LBB12_91
.LBB12_273:
	mov	x8, #-4850376798678024192
	mov	w9, #14
	fmov	d3, x8
	mov	x8, #4372995238176751616
	fcmp	d3, d7
	fmov	d3, x8
	cset	w11, mi
	fcmp	d7, d3
	//APP
	//NO_APP
	cset	w8, mi
	//APP
	//NO_APP
	cbz	w11, .LBB12_268
	cbz	w8, .LBB12_268
	fsub	d3, d1, d1
	fcmp	d3, d0
	b.ne	.LBB12_268
	mov	w8, #1
.LBB12_277:
	add	x9, sp, #208
	strb	w8, [sp, #520]
	add	x8, x9, #313
	str	d1, [sp, #528]
	fadd	d1, d2, d2
	str	wzr, [x8]
	mov	w8, #2309
	fadd	d2, d4, d4
	strh	w8, [sp, #544]
	add	x8, x9, #346
	str	xzr, [x8]
	mov	w8, #4613
	str	x10, [sp, #536]
	add	x10, x9, #338
	strh	w8, [sp, #568]
	add	x8, x9, #370
	add	x9, x9, #362
	str	wzr, [sp, #524]
	str	xzr, [x10]
	str	xzr, [sp, #560]
	str	xzr, [x8]
	str	xzr, [x9]
	str	xzr, [sp, #584]
	tbz	w21, #0, .LBB12_284
	fsub	d3, d2, d2
	mov	w9, #14
	fcmp	d3, d0
	b.ne	.LBB12_268
	fsub	d3, d1, d1
	fcmp	d3, d0
	b.ne	.LBB12_268
	mov	w8, #2
	b	.LBB12_288
.LBB12_281:
	tbz	w21, #0, .LBB12_289
	fsub	d1, d7, d7
	fcmp	d1, d0
	b.ne	.LBB12_294
	mov	w9, #2
	b	.LBB12_293
.LBB12_284:
	mov	x8, #-4850376798678024192
	fmov	d4, d2
	mov	w9, #14
	fmov	d3, x8
	mov	x8, #4372995238176751616
	fcmp	d3, d4
	fmov	d3, x8
	cset	w10, mi
	fcmp	d4, d3
	//APP
	//NO_APP
	cset	w8, mi
	//APP
	//NO_APP
	cbz	w10, .LBB12_268
	cbz	w8, .LBB12_268
	fsub	d3, d1, d1
	fcmp	d3, d0
	b.ne	.LBB12_268
	mov	w8, #1
.LBB12_288:
	add	x9, sp, #208
	strb	w8, [sp, #592]
	tst	w21, #0x1
	add	x8, x9, #385
	mov	x5, x12
	mov	x6, x13
	str	wzr, [x8]
	fmov	x8, d2
	str	wzr, [sp, #596]
	str	d1, [sp, #600]
	csel	x8, x8, xzr, ne
	str	x8, [sp, #608]
	mov	w8, #2821
	strh	w8, [sp, #616]
	add	x8, x9, #418
	add	x9, x9, #410
	str	xzr, [x8]
	mov	w8, #18
	str	xzr, [x9]
	str	xzr, [sp, #632]
	b	.LBB12_266
.LBB12_289:
	mov	x9, #-4850376798678024192
	mov	x12, x0
	fmov	d1, x9
	mov	x9, #4372995238176751616
	fcmp	d1, d0
	fmov	d1, x9
	mov	w9, #14
	cset	w11, mi
	fcmp	d0, d1
	//APP
	//NO_APP
	cset	w10, mi
	//APP
	//NO_APP
	cbz	w11, .LBB12_295
	cbz	w10, .LBB12_295
	fsub	d1, d7, d7
	mov	x0, x12
	fcmp	d1, d0
	b.ne	.LBB12_268
	mov	w9, #1
.LBB12_293:
	mov	w10, #24
	add	x11, sp, #208
	mov	x5, x13
	umaddl	x10, w8, w10, x11
	add	x8, x8, #2
	mov	x6, x14
	strb	w9, [x10]
	mov	w9, #9989
	stur	wzr, [x10, #1]
	str	wzr, [x10, #4]
	str	d7, [x10, #8]
	str	xzr, [x10, #16]
	strh	w9, [x10, #24]
	stur	xzr, [x10, #34]
	stur	xzr, [x10, #26]
	str	xzr, [x10, #40]
	b	.LBB12_266
.LBB12_294:
	mov	w9, #14
	b	.LBB12_268
.LBB12_295:
	mov	x0, x12
	b	.LBB12_268
.Lfunc_end12:
	.size	"algebra::lists::make_of", .Lfunc_end12-"algebra::lists::make_of"

	.section	.rodata.cst8,"aM",@progbits,8
	.p2align	3, 0x0
.LCPI13_0:
	.xword	0x4005bf0a8b145769
.LCPI13_1:
	.xword	0x3fe62e42fefa39ef
.LCPI13_2:
	.xword	0x40026bb1bbb55516
	.section	".text.calculus::derivative::expr_deriv","ax",@progbits
	.p2align	2
	.type	"calculus::derivative::expr_deriv",@function
"calculus::derivative::expr_deriv":
	sub	sp, sp, #400
	add	x8, x3, x2
	stp	x22, x21, [sp, #368]
	mov	x22, x1
	cmp	x2, x8
	stp	d15, d14, [sp, #240]
	stp	d13, d12, [sp, #256]
	stp	d11, d10, [sp, #272]
	stp	d9, d8, [sp, #288]
	stp	x29, x30, [sp, #304]
	add	x29, sp, #304
	stp	x28, x27, [sp, #320]
	stp	x26, x25, [sp, #336]
	stp	x24, x23, [sp, #352]
	stp	x20, x19, [sp, #384]
	str	x8, [sp, #96]
	b.hs	.LBB13_251
	mov	w8, #24
	mov	x9, #1536
	movi	d8, #0000000000000000
	madd	x8, x4, x8, x9
	fmov	d9, #1.00000000
	fmov	d10, #2.00000000
	fmov	d0, #10.00000000
	sub	x9, x29, #136
	mov	x26, x2
	mov	x1, xzr
	str	d0, [sp, #16]
	stp	x8, x0, [sp, #32]
	adrp	x8, .LCPI13_0
	ldr	d12, [x8, :lo12:.LCPI13_0]
	add	x8, x4, #64
	str	x8, [sp, #48]
	sub	x8, x29, #104
	orr	x8, x8, #0x2
	stp	x8, x22, [sp, #56]
	orr	x8, x9, #0x2
	stp	x4, x8, [sp, #104]
	add	x8, x4, #63
	str	x8, [sp, #24]
	b	.LBB13_6
.LBB13_2:
	ldr	x22, [sp, #64]
.LBB13_3:
	ldr	x28, [sp, #72]
	ldr	x21, [sp, #88]
.LBB13_4:
	mov	x1, x9
	cbnz	w10, .LBB13_248
.LBB13_5:
	ldr	x8, [sp, #96]
	add	x26, x21, x28
	cmp	x26, x8
	b.hs	.LBB13_249
.LBB13_6:
	mov	w8, #24
	ldr	x19, [x22, #32]
	ldr	x24, [x22]
	madd	x8, x26, x8, x19
	ldr	x25, [x22, #16]
	add	x21, x26, #1
	ldrb	w23, [x24, x26]
	ldrb	w28, [x25, x26]
	cmp	w23, #2
	ldp	d14, d13, [x8, #8]
	b.eq	.LBB13_21
	ldr	d0, [x8]
	cmp	w23, #1
	b.ne	.LBB13_26
	fmul	d2, d0, d14
	fmul	d1, d0, d13
	fmov	d3, d2
	fcmp	d3, d8
	fmov	d3, d1
	fccmp	d3, d8, #0, eq
	b.eq	.LBB13_5
	add	x8, x1, x4
	add	x9, x1, x4
	cbz	x1, .LBB13_14
	mov	x10, x1
	mov	x9, x4
.LBB13_11:
	ldrb	w11, [x24, x9]
	cmp	w11, #1
	b.ne	.LBB13_14
	subs	x10, x10, #1
	add	x9, x9, #1
	b.ne	.LBB13_11
	add	x9, x1, x4
.LBB13_14:
	fmov	d3, #-1.00000000
	fadd	d0, d0, d3
	fsub	d3, d0, d0
	fcmp	d3, d8
	b.ne	.LBB13_253
	mov	w10, #24
	fmov	d3, d0
	madd	x10, x9, x10, x19
	add	x10, x10, #16
.LBB13_16:
	cmp	x4, x9
	b.hs	.LBB13_67
	ldur	d4, [x10, #-40]
	sub	x9, x9, #1
	sub	x10, x10, #24
	fcmp	d3, d4
	cset	w11, mi
	fcmp	d4, d3
	//APP
	//NO_APP
	cset	w12, mi
	//APP
	//NO_APP
	cmp	w12, #0
	mov	w12, #1
	cinc	w12, w12, ne
	cmp	w11, #0
	csel	w11, wzr, w12, ne
	cbz	w11, .LBB13_16
	cmp	w11, #1
	b.ne	.LBB13_68
	ldp	d0, d3, [x10, #-8]
	fadd	d0, d2, d0
	fadd	d1, d1, d3
	fsub	d2, d0, d0
	fsub	d3, d1, d1
	fcmp	d2, d8
	fccmp	d3, d8, #0, eq
	b.ne	.LBB13_254
	stp	d0, d1, [x10, #-8]
	b	.LBB13_5
.LBB13_21:
	cmp	w28, #1
	stp	x28, x1, [sp, #72]
	b.ne	.LBB13_35
	ldrb	w8, [x24, x21]
	cmp	w8, #1
	b.ne	.LBB13_52
	mov	w8, #24
	madd	x8, x21, x8, x19
	ldr	d0, [x8]
	fadd	d0, d0, d0
	fsub	d1, d0, d0
	fcmp	d1, d8
	b.ne	.LBB13_253
	ldp	d1, d2, [x8, #8]
	movi	d4, #0000000000000000
	fmul	d3, d1, d2
	fmul	d1, d1, d1
	fmul	d2, d2, d2
	fadd	d3, d3, d3
	fsub	d1, d1, d2
	fadd	d2, d3, d4
	fsub	d3, d1, d1
	fsub	d4, d2, d2
	fcmp	d3, d8
	fccmp	d4, d8, #0, eq
	b.ne	.LBB13_254
	ldr	x9, [sp, #48]
	mov	w19, #1
	strb	w19, [x24, x9]
	ldr	x8, [x22, #16]
	strb	wzr, [x8, x9]
	ldr	x9, [sp, #32]
	ldr	x8, [x22, #32]
	add	x8, x8, x9
	stp	d0, d1, [x8]
	str	d2, [x8, #16]
	b	.LBB13_193
.LBB13_26:
	cmp	w23, #4
	b.eq	.LBB13_38
	cmp	w23, #3
	b.ne	.LBB13_45
	movi	d2, #0000000000000000
	movi	d1, #0000000000000000
	add	x8, x21, x28
	cmp	x21, x8
	b.hs	.LBB13_60
	mov	w8, #24
	mov	x10, x28
	madd	x9, x26, x8, x19
	add	x8, x24, x26
	add	x8, x8, #1
	add	x9, x9, #40
	b	.LBB13_32
.LBB13_30:
	fadd	d2, d2, d4
	fadd	d1, d1, d3
.LBB13_31:
	subs	x10, x10, #1
	add	x9, x9, #24
	b.eq	.LBB13_60
.LBB13_32:
	ldrb	w11, [x8], #1
	cmp	w11, #1
	b.ne	.LBB13_247
	ldp	d4, d3, [x9, #-8]
	ldur	d5, [x9, #-16]
	fmul	d3, d5, d3
	fmul	d4, d5, d4
	fmov	d6, d3
	fcmp	d6, d8
	fmov	d6, d4
	fccmp	d6, d8, #0, eq
	b.eq	.LBB13_31
	fmov	d6, #-1.00000000
	fadd	d5, d5, d6
	fcmp	d5, d8
	b.eq	.LBB13_30
	b	.LBB13_247
.LBB13_35:
	add	x8, x21, x28
	add	x20, x21, x28
	stp	xzr, xzr, [sp, #120]
	cmp	x21, x8
	b.hs	.LBB13_59
	cmp	w28, #8
	b.hs	.LBB13_87
	mov	w8, #1
	add	x10, x26, #1
	b	.LBB13_144
.LBB13_38:
	cmp	w28, #1
	b.ne	.LBB13_247
	mov	w8, #24
	madd	x9, x21, x8, x19
	mov	w8, #6
	ldr	d0, [x9]
	fcmp	d0, d9
	b.ne	.LBB13_248
	ldrb	w10, [x24, x21]
	cmp	w10, #1
	b.ne	.LBB13_248
	ldp	d0, d1, [x9, #8]
	add	x8, x26, #1
	ldr	x10, [sp, #56]
	mov	w9, #260
	stp	x1, x8, [sp, #80]
	ldr	x8, [x22, #24]
	sturh	w9, [x29, #-104]
	mov	x21, x28
	fmul	d2, d14, d0
	fmul	d3, d13, d1
	str	xzr, [x10]
	fmul	d1, d14, d1
	fmul	d0, d13, d0
	stur	xzr, [x10, #6]
	ldr	x10, [x22, #8]
	ldr	x9, [x22, #40]
	add	x20, x1, x4
	mov	x23, x4
	str	x24, [sp, #120]
	fsub	d13, d2, d3
	stp	x10, x25, [sp, #128]
	fadd	d14, d0, d1
	stp	x8, x19, [sp, #144]
	str	x9, [sp, #160]
	stp	d13, d14, [x29, #-88]
	cbz	x1, .LBB13_77
	ldr	x23, [sp, #104]
.LBB13_43:
	mov	w8, #24
	ldr	x9, [sp, #112]
	ldrb	w22, [x25, x23]
	madd	x27, x23, x8, x19
	ldrb	w8, [x24, x23]
	add	x0, sp, #120
	sub	x1, x29, #104
	add	x2, x26, #1
	sub	x3, x29, #136
	add	x4, x23, #1
	mov	w5, #4
	str	wzr, [x9]
	strh	wzr, [x9, #4]
	add	x28, x23, #1
	sturb	w8, [x29, #-136]
	ldp	d15, d11, [x27, #8]
	ldr	q0, [x27]
	sturb	w22, [x29, #-135]
	stur	q0, [x29, #-128]
	stur	d11, [x29, #-112]
	bl	"sums::order::cmp_term"
	and	w8, w0, #0xff
	cmp	w8, #2
	b.ne	.LBB13_76
	add	x23, x28, x22
	cmp	x23, x20
	b.lo	.LBB13_43
	b	.LBB13_77
.LBB13_45:
	movi	d1, #0000000000000000
	movi	d0, #0000000000000000
	add	x8, x21, x28
	cmp	x21, x8
	b.hs	.LBB13_63
	mov	w8, #24
	mov	x10, x28
	madd	x9, x26, x8, x19
	add	x8, x24, x26
	add	x8, x8, #1
	add	x9, x9, #40
	b	.LBB13_48
.LBB13_47:
	subs	x10, x10, #1
	add	x9, x9, #24
	b.eq	.LBB13_63
.LBB13_48:
	ldrb	w11, [x8], #1
	cmp	w11, #1
	b.ne	.LBB13_247
	ldp	d3, d2, [x9, #-8]
	ldur	d4, [x9, #-16]
	fmul	d2, d4, d2
	fmul	d3, d4, d3
	fmov	d5, d2
	fcmp	d5, d8
	fmov	d5, d3
	fccmp	d5, d8, #0, eq
	b.eq	.LBB13_47
	fmov	d5, #-1.00000000
	fadd	d4, d4, d5
	fcmp	d4, d8
	b.ne	.LBB13_247
	fadd	d1, d1, d3
	fadd	d0, d0, d2
	b	.LBB13_47
.LBB13_52:
	cmn	x21, #1
	stp	xzr, xzr, [sp, #120]
	b.eq	.LBB13_59
	add	x23, x26, #1
	add	x20, x26, #2
	mov	x8, x23
.LBB13_54:
	ldrb	w26, [x25, x8]
	ldrb	w27, [x24, x8]
	add	x28, x8, #1
	mov	x21, x23
.LBB13_55:
	ldrb	w19, [x25, x23]
	ldrb	w3, [x24, x23]
	add	x23, x23, #1
	mov	w8, #3
	mov	w0, w27
	mov	x1, x28
	mov	x2, x26
	mov	x4, x23
	mov	x5, x19
	mov	x6, x24
	mov	x7, x25
	str	x8, [sp]
	bl	"arithmetic::multiply::can_pair"
	tbz	w0, #0, .LBB13_190
	add	x23, x23, x19
	cmp	x23, x20
	b.lo	.LBB13_55
	add	x8, x28, x26
	mov	x23, x21
	cmp	x8, x20
	b.lo	.LBB13_54
	ldr	x19, [sp, #104]
	add	x0, sp, #120
	mov	x1, x22
	mov	x2, x23
	mov	w3, #1
	mov	x4, x23
	add	x6, x19, #64
	mov	w5, #1
	mov	w7, #4
	bl	"arithmetic::multiply::expr_mul"
	mov	x4, x19
	ldrb	w10, [sp, #120]
	ldrb	w8, [sp, #121]
	ldrb	w19, [sp, #128]
	ldr	x1, [sp, #80]
	mov	x21, x23
	b	.LBB13_192
.LBB13_59:
	mov	w10, wzr
	mov	w8, wzr
	mov	x19, xzr
	b	.LBB13_192
.LBB13_60:
	fcmp	d0, d12
	fmov	d3, #1.00000000
	b.eq	.LBB13_104
	fcmp	d0, d10
	b.ne	.LBB13_102
	adrp	x8, .LCPI13_1
	ldr	d3, [x8, :lo12:.LCPI13_1]
	b	.LBB13_104
.LBB13_63:
	add	x8, x26, #1
	mov	x10, #506381209866536711
	fmul	d2, d14, d1
	fmul	d3, d13, d0
	fmul	d0, d14, d0
	str	x8, [sp, #88]
	fmul	d1, d13, d1
	lsl	x8, x23, #3
	movk	x10, #1543, lsl #32
	movk	x10, #2053, lsl #48
	ldr	x9, [x22, #8]
	cmp	w23, #7
	lsr	x8, x10, x8
	mov	w10, #7
	ldr	x11, [x22, #24]
	fsub	d13, d2, d3
	stp	x24, x9, [sp, #120]
	ldr	x9, [x22, #40]
	fadd	d14, d1, d0
	csel	w8, w10, w8, hi
	stp	x28, x1, [sp, #72]
	str	w8, [sp, #12]
	mov	x27, x4
	sturb	w8, [x29, #-104]
	ldr	x8, [sp, #56]
	sturb	w28, [x29, #-103]
	add	x28, x1, x4
	stp	x25, x11, [sp, #136]
	stp	x19, x9, [sp, #152]
	str	xzr, [x8]
	stur	xzr, [x8, #6]
	stp	d13, d14, [x29, #-88]
	cbz	x1, .LBB13_90
	ldr	x27, [sp, #104]
.LBB13_65:
	mov	w8, #24
	ldr	x9, [sp, #112]
	ldrb	w22, [x25, x27]
	madd	x20, x27, x8, x19
	ldrb	w8, [x24, x27]
	add	x0, sp, #120
	sub	x1, x29, #104
	add	x2, x26, #1
	sub	x3, x29, #136
	add	x4, x27, #1
	mov	w5, #4
	str	wzr, [x9]
	strh	wzr, [x9, #4]
	add	x21, x27, #1
	sturb	w8, [x29, #-136]
	ldp	d11, d15, [x20, #8]
	ldr	q0, [x20]
	sturb	w22, [x29, #-135]
	stur	q0, [x29, #-128]
	stur	d15, [x29, #-112]
	bl	"sums::order::cmp_term"
	and	w8, w0, #0xff
	cmp	w8, #2
	b.ne	.LBB13_89
	add	x27, x21, x22
	cmp	x27, x28
	b.lo	.LBB13_65
	b	.LBB13_90
.LBB13_67:
	mov	x9, x4
	b	.LBB13_69
.LBB13_68:
	add	x9, x9, #1
.LBB13_69:
	movi	d3, #0000000000000000
	fadd	d2, d2, d3
	fadd	d1, d1, d3
	fsub	d3, d2, d2
	fsub	d4, d1, d1
	fcmp	d3, d8
	fccmp	d4, d8, #0, eq
	b.ne	.LBB13_254
	cmp	x1, #63
	b.hi	.LBB13_255
	cmp	x9, x8
	b.hs	.LBB13_75
	mov	w10, #24
	add	x11, x25, x4
	add	x12, x24, x4
	madd	x10, x8, x10, x19
	add	x13, x11, x1
	add	x14, x12, x1
	mov	x11, x14
	mov	x12, x13
.LBB13_73:
	ldrb	w15, [x11, #-1]!
	sub	x8, x8, #1
	cmp	x9, x8
	strb	w15, [x14]
	ldrb	w14, [x12, #-1]!
	strb	w14, [x13]
	mov	x14, x11
	ldur	q3, [x10, #-24]
	ldur	x13, [x10, #-8]
	str	q3, [x10]
	str	x13, [x10, #16]
	sub	x10, x10, #24
	mov	x13, x12
	b.lo	.LBB13_73
	ldr	x24, [x22]
.LBB13_75:
	mov	w8, #1
	strb	w8, [x24, x9]
	mov	w10, #24
	ldr	x8, [x22, #16]
	add	x1, x1, #1
	strb	wzr, [x8, x9]
	ldr	x8, [x22, #32]
	madd	x8, x9, x10, x8
	stp	d0, d2, [x8]
	str	d1, [x8, #16]
	b	.LBB13_5
.LBB13_76:
	cbnz	w8, .LBB13_95
.LBB13_77:
	movi	d0, #0000000000000000
	fadd	d13, d13, d0
	fadd	d14, d14, d0
	fsub	d0, d13, d13
	fsub	d1, d14, d14
	fcmp	d0, d8
	fccmp	d1, d8, #0, eq
	b.ne	.LBB13_116
	add	x1, x26, #1
	mov	x0, x25
	mov	x2, x21
	mov	w3, #3
	mov	x28, x21
	bl	"sums::order::nests_inside"
	cbz	w0, .LBB13_114
	ldr	x10, [sp, #80]
	ldr	x4, [sp, #104]
	add	x21, x26, #1
	ldr	x22, [sp, #64]
	add	x8, x10, x28
	add	x9, x8, #1
	cmp	x9, #64
	b.hi	.LBB13_113
	cmp	x23, x20
	b.hs	.LBB13_84
	mov	w8, #24
	add	x10, x4, x10
	add	x11, x24, x28
	madd	x12, x20, x8, x19
	add	x10, x10, x28
	madd	x8, x10, x8, x19
	add	x10, x25, x28
	sub	x12, x12, #24
.LBB13_82:
	add	x13, x24, x20
	add	x14, x25, x20
	ldurb	w13, [x13, #-1]
	strb	w13, [x11, x20]
	ldurb	w13, [x14, #-1]
	strb	w13, [x10, x20]
	sub	x20, x20, #1
	ldr	x13, [x12, #16]
	ldr	q0, [x12], #-24
	cmp	x23, x20
	str	x13, [x8, #16]
	str	q0, [x8], #-24
	b.lo	.LBB13_82
	ldr	x24, [x22]
.LBB13_84:
	mov	w8, #4
	strb	w8, [x24, x23]
	mov	w10, #1
	ldr	x8, [x22, #16]
	mov	w11, #24
	strb	w10, [x8, x23]
	ldr	x8, [x22, #32]
	madd	x8, x23, x11, x8
	str	xzr, [x8]
	stp	d13, d14, [x8, #8]
	add	x8, x23, #1
	ldr	x15, [x22]
	ldr	x14, [x22, #16]
	ldr	x11, [x22, #32]
	cmp	x8, x21
	b.ls	.LBB13_241
	add	x10, x23, x28
	mov	w12, #24
	add	x13, x26, x28
	madd	x10, x10, x12, x11
	mov	x8, xzr
	madd	x11, x13, x12, x11
	add	x12, x14, x23
	add	x13, x15, x23
	add	x14, x14, x26
	add	x15, x15, x26
.LBB13_86:
	ldrb	w16, [x15, x28]
	add	x8, x8, #1
	sub	x15, x15, #1
	strb	w16, [x13, x28]
	sub	x13, x13, #1
	cmp	x28, x8
	ldrb	w16, [x14, x28]
	sub	x14, x14, #1
	strb	w16, [x12, x28]
	sub	x12, x12, #1
	ldr	x16, [x11, #16]
	ldr	q0, [x11], #-24
	str	x16, [x10, #16]
	str	q0, [x10], #-24
	b.ne	.LBB13_86
	b	.LBB13_243
.LBB13_87:
	cmp	w28, #32
	b.hs	.LBB13_98
	mov	x9, xzr
	mov	w8, #1
	b	.LBB13_141
.LBB13_89:
	cbnz	w8, .LBB13_100
.LBB13_90:
	fneg	d0, d13
	cmp	w23, #6
	movi	d1, #0000000000000000
	fneg	d2, d14
	fcsel	d0, d0, d13, eq
	fadd	d13, d0, d1
	fcsel	d0, d2, d14, eq
	fadd	d14, d0, d1
	fsub	d0, d13, d13
	fsub	d1, d14, d14
	fcmp	d0, d8
	fccmp	d1, d8, #0, eq
	b.ne	.LBB13_101
	ldr	x20, [sp, #72]
	cbz	w20, .LBB13_93
	add	x1, x26, #1
	mov	x0, x25
	mov	x2, x20
	mov	w3, #3
	bl	"sums::order::nests_inside"
	cbz	w0, .LBB13_227
.LBB13_93:
	ldr	x10, [sp, #80]
	ldr	x4, [sp, #104]
	add	x21, x26, #1
	ldr	x22, [sp, #64]
	add	x8, x10, x20
	add	x9, x8, #1
	cmp	x9, #64
	b.ls	.LBB13_117
	ldr	x28, [sp, #72]
	mov	x9, xzr
	mov	w8, #11
	mov	w10, #1
	b	.LBB13_4
.LBB13_95:
	fadd	d13, d13, d15
	fadd	d11, d14, d11
	fsub	d0, d13, d13
	fsub	d1, d11, d11
	fcmp	d0, d8
	fccmp	d1, d8, #0, eq
	b.ne	.LBB13_116
	ldr	x1, [sp, #88]
	mov	x0, x25
	mov	x2, x21
	mov	w3, #3
	mov	x28, x21
	bl	"sums::order::nests_inside"
	cbz	w0, .LBB13_114
	ldp	x9, x21, [sp, #80]
	mov	w10, wzr
	ldr	x4, [sp, #104]
	ldr	x22, [sp, #64]
	mov	w8, wzr
	stp	d13, d11, [x27, #8]
	b	.LBB13_4
.LBB13_98:
	movi	v1.16b, #1
	add	x8, x24, x21
	and	x9, x28, #0xe0
	ldp	q0, q2, [x8]
	cmp	x9, #32
	b.ne	.LBB13_133
	cmeq	v0.16b, v0.16b, v1.16b
	cmeq	v1.16b, v2.16b, v1.16b
	b	.LBB13_139
.LBB13_100:
	fneg	d0, d13
	cmp	w23, #6
	fneg	d1, d14
	fcsel	d0, d0, d13, eq
	fadd	d11, d0, d11
	fcsel	d0, d1, d14, eq
	fadd	d13, d0, d15
	fsub	d0, d11, d11
	fsub	d1, d13, d13
	fcmp	d0, d8
	fccmp	d1, d8, #0, eq
	b.eq	.LBB13_228
.LBB13_101:
	ldr	x4, [sp, #104]
	ldr	x22, [sp, #64]
	mov	x9, xzr
	mov	w8, #14
	mov	w10, #1
	b	.LBB13_3
.LBB13_102:
	ldr	d3, [sp, #16]
	fcmp	d0, d3
	b.ne	.LBB13_256
	adrp	x8, .LCPI13_2
	ldr	d3, [x8, :lo12:.LCPI13_2]
.LBB13_104:
	fmul	d0, d14, d2
	fmul	d4, d13, d1
	add	x8, x26, #1
	stp	x1, x8, [sp, #80]
	ldr	x8, [x22, #8]
	ldr	x9, [x22, #24]
	mov	x21, x28
	add	x20, x1, x4
	mov	x23, x4
	stp	x24, x8, [sp, #120]
	ldr	x8, [x22, #40]
	fsub	d0, d0, d4
	stp	x25, x9, [sp, #136]
	stp	x19, x8, [sp, #152]
	mov	w8, #2
	sturb	w8, [x29, #-104]
	ldr	x8, [sp, #56]
	sturb	w28, [x29, #-103]
	fdiv	d15, d0, d3
	fmul	d0, d14, d1
	fmul	d1, d13, d2
	str	xzr, [x8]
	stur	xzr, [x8, #6]
	fadd	d0, d1, d0
	fdiv	d14, d0, d3
	stp	d15, d14, [x29, #-88]
	cbz	x1, .LBB13_109
	ldr	x23, [sp, #104]
.LBB13_106:
	mov	w8, #24
	ldr	x9, [sp, #112]
	ldrb	w22, [x25, x23]
	madd	x27, x23, x8, x19
	ldrb	w8, [x24, x23]
	add	x0, sp, #120
	sub	x1, x29, #104
	add	x2, x26, #1
	sub	x3, x29, #136
	add	x4, x23, #1
	mov	w5, #4
	str	wzr, [x9]
	strh	wzr, [x9, #4]
	add	x28, x23, #1
	sturb	w8, [x29, #-136]
	ldp	d11, d13, [x27, #8]
	ldr	q0, [x27]
	sturb	w22, [x29, #-135]
	stur	q0, [x29, #-128]
	stur	d13, [x29, #-112]
	bl	"sums::order::cmp_term"
	and	w8, w0, #0xff
	cmp	w8, #2
	b.ne	.LBB13_108
	add	x23, x28, x22
	cmp	x23, x20
	b.lo	.LBB13_106
	b	.LBB13_109
.LBB13_108:
	cbnz	w8, .LBB13_115
.LBB13_109:
	movi	d0, #0000000000000000
	fadd	d13, d15, d0
	fadd	d14, d14, d0
	fsub	d0, d13, d13
	fsub	d1, d14, d14
	fcmp	d0, d8
	fccmp	d1, d8, #0, eq
	b.ne	.LBB13_116
	mov	x28, x21
	cbz	w28, .LBB13_112
	add	x1, x26, #1
	mov	x0, x25
	mov	x2, x28
	mov	w3, #3
	bl	"sums::order::nests_inside"
	cbz	w0, .LBB13_114
.LBB13_112:
	ldr	x10, [sp, #80]
	ldr	x4, [sp, #104]
	add	x21, x26, #1
	ldr	x22, [sp, #64]
	add	x8, x10, x28
	add	x9, x8, #1
	cmp	x9, #64
	b.ls	.LBB13_125
.LBB13_113:
	mov	x9, xzr
	mov	w8, #11
	mov	w10, #1
	b	.LBB13_4
.LBB13_114:
	ldr	x4, [sp, #104]
	ldr	x22, [sp, #64]
	mov	x9, xzr
	ldr	x21, [sp, #88]
	mov	w8, #12
	mov	w10, #1
	b	.LBB13_4
.LBB13_115:
	fadd	d11, d15, d11
	fadd	d13, d14, d13
	fsub	d0, d11, d11
	fsub	d1, d13, d13
	fcmp	d0, d8
	fccmp	d1, d8, #0, eq
	b.eq	.LBB13_231
.LBB13_116:
	ldr	x4, [sp, #104]
	ldr	x22, [sp, #64]
	mov	x28, x21
	ldr	x21, [sp, #88]
	mov	x9, xzr
	mov	w8, #14
	mov	w10, #1
	b	.LBB13_4
.LBB13_117:
	cmp	x27, x28
	b.hs	.LBB13_121
	ldr	x11, [sp, #72]
	mov	w8, #24
	add	x10, x4, x10
	madd	x12, x28, x8, x19
	add	x10, x10, x11
	madd	x8, x10, x8, x19
	add	x10, x25, x11
	add	x11, x24, x11
	sub	x12, x12, #24
.LBB13_119:
	add	x13, x24, x28
	add	x14, x25, x28
	ldurb	w13, [x13, #-1]
	strb	w13, [x11, x28]
	ldurb	w13, [x14, #-1]
	strb	w13, [x10, x28]
	sub	x28, x28, #1
	ldr	x13, [x12, #16]
	ldr	q0, [x12], #-24
	cmp	x27, x28
	str	x13, [x8, #16]
	str	q0, [x8], #-24
	b.lo	.LBB13_119
	ldr	x24, [x22]
.LBB13_121:
	ldr	w8, [sp, #12]
	ldr	x28, [sp, #72]
	mov	w10, #24
	strb	w8, [x24, x27]
	ldr	x8, [x22, #16]
	strb	w28, [x8, x27]
	ldr	x8, [x22, #32]
	madd	x8, x27, x10, x8
	str	xzr, [x8]
	stp	d13, d14, [x8, #8]
	add	x8, x27, #1
	ldr	x15, [x22]
	ldr	x14, [x22, #16]
	ldr	x11, [x22, #32]
	cmp	x8, x21
	b.ls	.LBB13_235
	cbz	w28, .LBB13_243
	add	x10, x27, x28
	mov	w12, #24
	add	x13, x26, x28
	madd	x10, x10, x12, x11
	mov	x8, xzr
	madd	x11, x13, x12, x11
	add	x12, x14, x27
	add	x13, x15, x27
	add	x14, x14, x26
	add	x15, x15, x26
.LBB13_124:
	ldrb	w16, [x15, x28]
	add	x8, x8, #1
	sub	x15, x15, #1
	strb	w16, [x13, x28]
	sub	x13, x13, #1
	cmp	x28, x8
	ldrb	w16, [x14, x28]
	sub	x14, x14, #1
	strb	w16, [x12, x28]
	sub	x12, x12, #1
	ldr	x16, [x11, #16]
	ldr	q0, [x11], #-24
	str	x16, [x10, #16]
	str	q0, [x10], #-24
	b.ne	.LBB13_124
	b	.LBB13_243
.LBB13_125:
	cmp	x23, x20
	b.hs	.LBB13_129
	mov	w8, #24
	add	x10, x4, x10
	add	x11, x24, x28
	madd	x12, x20, x8, x19
	add	x10, x10, x28
	madd	x8, x10, x8, x19
	add	x10, x25, x28
	sub	x12, x12, #24
.LBB13_127:
	add	x13, x24, x20
	add	x14, x25, x20
	ldurb	w13, [x13, #-1]
	strb	w13, [x11, x20]
	ldurb	w13, [x14, #-1]
	strb	w13, [x10, x20]
	sub	x20, x20, #1
	ldr	x13, [x12, #16]
	ldr	q0, [x12], #-24
	cmp	x23, x20
	str	x13, [x8, #16]
	str	q0, [x8], #-24
	b.lo	.LBB13_127
	ldr	x24, [x22]
.LBB13_129:
	mov	w8, #2
	strb	w8, [x24, x23]
	mov	w10, #24
	ldr	x8, [x22, #16]
	strb	w28, [x8, x23]
	ldr	x8, [x22, #32]
	madd	x8, x23, x10, x8
	str	xzr, [x8]
	stp	d13, d14, [x8, #8]
	add	x8, x23, #1
	ldr	x15, [x22]
	ldr	x14, [x22, #16]
	ldr	x11, [x22, #32]
	cmp	x8, x21
	b.ls	.LBB13_238
	cbz	w28, .LBB13_243
	add	x10, x23, x28
	mov	w12, #24
	add	x13, x26, x28
	madd	x10, x10, x12, x11
	mov	x8, xzr
	madd	x11, x13, x12, x11
	add	x12, x14, x23
	add	x13, x15, x23
	add	x14, x14, x26
	add	x15, x15, x26
.LBB13_132:
	ldrb	w16, [x15, x28]
	add	x8, x8, #1
	sub	x15, x15, #1
	strb	w16, [x13, x28]
	sub	x13, x13, #1
	cmp	x28, x8
	ldrb	w16, [x14, x28]
	sub	x14, x14, #1
	strb	w16, [x12, x28]
	sub	x12, x12, #1
	ldr	x16, [x11, #16]
	ldr	q0, [x11], #-24
	str	x16, [x10, #16]
	str	q0, [x10], #-24
	b.ne	.LBB13_132
	b	.LBB13_243
.LBB13_133:
	ldp	q3, q4, [x8, #32]
	cmeq	v2.16b, v2.16b, v1.16b
	cmeq	v0.16b, v0.16b, v1.16b
	cmp	x9, #64
	cmeq	v3.16b, v3.16b, v1.16b
	cmeq	v1.16b, v4.16b, v1.16b
	and	v0.16b, v0.16b, v3.16b
	and	v1.16b, v2.16b, v1.16b
	b.eq	.LBB13_139
	movi	v2.16b, #1
	add	x8, x24, x21
	cmp	x9, #96
	ldp	q3, q4, [x8, #64]
	cmeq	v3.16b, v3.16b, v2.16b
	cmeq	v4.16b, v4.16b, v2.16b
	and	v0.16b, v0.16b, v3.16b
	and	v1.16b, v1.16b, v4.16b
	b.eq	.LBB13_139
	ldp	q3, q4, [x8, #96]
	cmp	x9, #128
	cmeq	v3.16b, v3.16b, v2.16b
	cmeq	v2.16b, v4.16b, v2.16b
	and	v0.16b, v0.16b, v3.16b
	and	v1.16b, v1.16b, v2.16b
	b.eq	.LBB13_139
	movi	v2.16b, #1
	add	x8, x24, x21
	cmp	x9, #160
	ldp	q3, q4, [x8, #128]
	cmeq	v3.16b, v3.16b, v2.16b
	cmeq	v4.16b, v4.16b, v2.16b
	and	v0.16b, v0.16b, v3.16b
	and	v1.16b, v1.16b, v4.16b
	b.eq	.LBB13_139
	ldp	q3, q4, [x8, #160]
	cmp	x9, #192
	cmeq	v3.16b, v3.16b, v2.16b
	cmeq	v2.16b, v4.16b, v2.16b
	and	v0.16b, v0.16b, v3.16b
	and	v1.16b, v1.16b, v2.16b
	b.eq	.LBB13_139
	movi	v2.16b, #1
	add	x8, x24, x21
	ldp	q3, q4, [x8, #192]
	cmeq	v3.16b, v3.16b, v2.16b
	cmeq	v2.16b, v4.16b, v2.16b
	and	v0.16b, v0.16b, v3.16b
	and	v1.16b, v1.16b, v2.16b
.LBB13_139:
	and	v0.16b, v1.16b, v0.16b
	cmp	x9, x28
	shl	v0.16b, v0.16b, #7
	cmlt	v0.16b, v0.16b, #0
	uminv	b0, v0.16b
	fmov	w8, s0
	b.eq	.LBB13_146
	and	x10, x28, #0x18
	cbz	x10, .LBB13_245
.LBB13_141:
	movi	v0.2d, #0xffffffffffffffff
	add	x10, x9, x26
	add	x11, x24, x10
	add	x11, x11, #1
	mov	v0.b[0], w8
	and	x8, x28, #0xf8
	add	x10, x21, x8
	sub	x9, x9, x8
.LBB13_142:
	movi	v1.8b, #1
	ldr	d2, [x11], #8
	adds	x9, x9, #8
	cmeq	v1.8b, v2.8b, v1.8b
	and	v0.8b, v0.8b, v1.8b
	b.ne	.LBB13_142
	shl	v0.8b, v0.8b, #7
	cmp	x8, x28
	cmlt	v0.8b, v0.8b, #0
	uminv	b0, v0.8b
	fmov	w8, s0
	b.eq	.LBB13_146
.LBB13_144:
	add	x9, x26, x28
	sub	x9, x9, x10
	add	x10, x24, x10
	add	x9, x9, #1
.LBB13_145:
	ldrb	w11, [x10], #1
	cmp	w11, #1
	cset	w11, eq
	subs	x9, x9, #1
	and	w8, w8, w11
	b.ne	.LBB13_145
.LBB13_146:
	cmp	w28, #8
	b.hs	.LBB13_148
	mov	w10, #1
	add	x11, x26, #1
	b	.LBB13_163
.LBB13_148:
	cmp	w28, #32
	b.hs	.LBB13_150
	mov	x9, xzr
	mov	w10, #1
	b	.LBB13_160
.LBB13_150:
	movi	v1.16b, #1
	add	x10, x24, x21
	and	x9, x28, #0xe0
	ldp	q0, q2, [x10]
	cmp	x9, #32
	b.ne	.LBB13_152
	cmeq	v0.16b, v0.16b, v1.16b
	cmeq	v1.16b, v2.16b, v1.16b
	b	.LBB13_158
.LBB13_152:
	ldp	q3, q4, [x10, #32]
	cmeq	v2.16b, v2.16b, v1.16b
	cmeq	v0.16b, v0.16b, v1.16b
	cmp	x9, #64
	cmeq	v3.16b, v3.16b, v1.16b
	cmeq	v1.16b, v4.16b, v1.16b
	and	v0.16b, v0.16b, v3.16b
	and	v1.16b, v2.16b, v1.16b
	b.eq	.LBB13_158
	movi	v2.16b, #1
	add	x10, x24, x21
	cmp	x9, #96
	ldp	q3, q4, [x10, #64]
	cmeq	v3.16b, v3.16b, v2.16b
	cmeq	v4.16b, v4.16b, v2.16b
	and	v0.16b, v0.16b, v3.16b
	and	v1.16b, v1.16b, v4.16b
	b.eq	.LBB13_158
	ldp	q3, q4, [x10, #96]
	cmp	x9, #128
	cmeq	v3.16b, v3.16b, v2.16b
	cmeq	v2.16b, v4.16b, v2.16b
	and	v0.16b, v0.16b, v3.16b
	and	v1.16b, v1.16b, v2.16b
	b.eq	.LBB13_158
	movi	v2.16b, #1
	add	x10, x24, x21
	cmp	x9, #160
	ldp	q3, q4, [x10, #128]
	cmeq	v3.16b, v3.16b, v2.16b
	cmeq	v4.16b, v4.16b, v2.16b
	and	v0.16b, v0.16b, v3.16b
	and	v1.16b, v1.16b, v4.16b
	b.eq	.LBB13_158
	ldp	q3, q4, [x10, #160]
	cmp	x9, #192
	cmeq	v3.16b, v3.16b, v2.16b
	cmeq	v2.16b, v4.16b, v2.16b
	and	v0.16b, v0.16b, v3.16b
	and	v1.16b, v1.16b, v2.16b
	b.eq	.LBB13_158
	movi	v2.16b, #1
	add	x10, x24, x21
	ldp	q3, q4, [x10, #192]
	cmeq	v3.16b, v3.16b, v2.16b
	cmeq	v2.16b, v4.16b, v2.16b
	and	v0.16b, v0.16b, v3.16b
	and	v1.16b, v1.16b, v2.16b
.LBB13_158:
	and	v0.16b, v1.16b, v0.16b
	cmp	x9, x28
	shl	v0.16b, v0.16b, #7
	cmlt	v0.16b, v0.16b, #0
	uminv	b0, v0.16b
	fmov	w10, s0
	b.eq	.LBB13_165
	and	x11, x28, #0x18
	cbz	x11, .LBB13_246
.LBB13_160:
	movi	v0.2d, #0xffffffffffffffff
	add	x11, x9, x26
	add	x12, x24, x11
	add	x12, x12, #1
	mov	v0.b[0], w10
	and	x10, x28, #0xf8
	add	x11, x21, x10
	sub	x9, x9, x10
.LBB13_161:
	movi	v1.8b, #1
	ldr	d2, [x12], #8
	adds	x9, x9, #8
	cmeq	v1.8b, v2.8b, v1.8b
	and	v0.8b, v0.8b, v1.8b
	b.ne	.LBB13_161
	shl	v0.8b, v0.8b, #7
	cmp	x10, x28
	cmlt	v0.8b, v0.8b, #0
	uminv	b0, v0.8b
	fmov	w10, s0
	b.eq	.LBB13_165
.LBB13_163:
	add	x9, x26, x28
	sub	x9, x9, x11
	add	x11, x24, x11
	add	x9, x9, #1
.LBB13_164:
	ldrb	w12, [x11], #1
	cmp	w12, #1
	cset	w12, eq
	subs	x9, x9, #1
	and	w10, w10, w12
	b.ne	.LBB13_164
.LBB13_165:
	and	w9, w8, w10
	mov	x8, x21
	tbz	w9, #0, .LBB13_185
	mov	x19, xzr
	mov	x9, x21
.LBB13_167:
	mov	w8, #24
	ldr	x10, [x22, #32]
	ldr	x0, [sp, #48]
	madd	x8, x9, x8, x10
	ldp	d0, d1, [x8]
	ldr	d2, [x8, #16]
	mov	x8, x21
	b	.LBB13_169
.LBB13_168:
	mov	w10, #1
	strb	w10, [x13, x12]
	mov	w11, #24
	ldr	x10, [x22, #16]
	mov	x19, x16
	strb	wzr, [x10, x12]
	ldr	x10, [x22, #32]
	madd	x10, x12, x11, x10
	stp	d3, d4, [x10]
	str	d5, [x10, #16]
	add	x8, x8, #1
	cmp	x8, x20
	b.eq	.LBB13_184
.LBB13_169:
	mov	w10, #24
	ldr	x11, [x22, #32]
	madd	x10, x8, x10, x11
	ldr	d3, [x10]
	fadd	d3, d0, d3
	fsub	d4, d3, d3
	fcmp	d4, d8
	b.ne	.LBB13_222
	ldp	d4, d5, [x10, #8]
	add	x10, x4, x19
	add	x10, x10, x10, lsl #1
	ldr	x13, [x22]
	ldr	x15, [x22, #16]
	add	x16, x19, x0
	fmul	d6, d1, d4
	fmul	d7, d2, d5
	lsl	x14, x10, #3
	fmul	d5, d1, d5
	fmul	d16, d2, d4
	add	x10, x19, x0
	add	x12, x11, x14
	add	x12, x12, #1552
	fsub	d4, d6, d7
	fmov	d6, d3
	fadd	d5, d16, d5
.LBB13_171:
	cmp	x0, x16
	b.hs	.LBB13_175
	ldur	d7, [x12, #-40]
	sub	x16, x16, #1
	sub	x12, x12, #24
	fcmp	d6, d7
	cset	w17, mi
	fcmp	d7, d6
	//APP
	//NO_APP
	cset	w18, mi
	//APP
	//NO_APP
	cmp	w18, #0
	mov	w18, #1
	cinc	w18, w18, ne
	cmp	w17, #0
	csel	w17, wzr, w18, ne
	cbz	w17, .LBB13_171
	cmp	w17, #2
	b.ne	.LBB13_182
	add	x12, x16, #1
	b	.LBB13_176
.LBB13_175:
	add	x12, x4, #64
.LBB13_176:
	movi	d6, #0000000000000000
	fadd	d4, d4, d6
	fadd	d5, d5, d6
	fsub	d6, d4, d4
	fsub	d7, d5, d5
	fcmp	d6, d8
	fccmp	d7, d8, #0, eq
	b.ne	.LBB13_223
	add	x16, x19, #1
	cmp	x16, #64
	b.hi	.LBB13_226
	cmp	x12, x10
	b.hs	.LBB13_168
	add	x15, x15, x0
	add	x13, x13, x0
	add	x11, x11, x14
	add	x15, x15, x19
	add	x17, x13, x19
	add	x11, x11, #1512
	mov	x13, x17
	mov	x14, x15
.LBB13_180:
	ldrb	w18, [x13, #-1]!
	sub	x10, x10, #1
	cmp	x12, x10
	strb	w18, [x17]
	ldrb	w17, [x14, #-1]!
	strb	w17, [x15]
	mov	x17, x13
	ldr	q6, [x11]
	ldr	x15, [x11, #16]
	stur	q6, [x11, #24]
	str	x15, [x11, #40]
	sub	x11, x11, #24
	mov	x15, x14
	b.lo	.LBB13_180
	ldr	x13, [x22]
	b	.LBB13_168
.LBB13_182:
	ldp	d3, d6, [x12, #-8]
	fadd	d3, d4, d3
	fadd	d4, d5, d6
	fsub	d5, d3, d3
	fsub	d6, d4, d4
	fcmp	d5, d8
	fccmp	d6, d8, #0, eq
	b.ne	.LBB13_223
	stp	d3, d4, [x12, #-8]
	add	x8, x8, #1
	cmp	x8, x20
	b.ne	.LBB13_169
.LBB13_184:
	add	x9, x9, #1
	mov	w10, wzr
	mov	w8, wzr
	cmp	x9, x20
	b.ne	.LBB13_167
	b	.LBB13_192
.LBB13_185:
	ldrb	w26, [x25, x8]
	ldrb	w27, [x24, x8]
	add	x28, x8, #1
	mov	x8, x21
.LBB13_186:
	ldrb	w19, [x25, x8]
	ldrb	w3, [x24, x8]
	add	x23, x8, #1
	mov	w8, #3
	mov	w0, w27
	mov	x1, x28
	mov	x2, x26
	mov	x4, x23
	mov	x5, x19
	mov	x6, x24
	mov	x7, x25
	str	x8, [sp]
	bl	"arithmetic::multiply::can_pair"
	tbz	w0, #0, .LBB13_190
	add	x8, x23, x19
	cmp	x8, x20
	b.lo	.LBB13_186
	add	x8, x28, x26
	ldr	x9, [sp, #104]
	ldr	x28, [sp, #72]
	cmp	x8, x20
	b.lo	.LBB13_185
	add	x0, sp, #120
	add	x6, x9, #64
	mov	x1, x22
	mov	x2, x21
	mov	x3, x28
	mov	x4, x21
	mov	x5, x28
	mov	w7, #4
	bl	"arithmetic::multiply::expr_mul"
	ldr	x1, [sp, #80]
	ldr	x4, [sp, #104]
	ldrb	w10, [sp, #120]
	ldrb	w8, [sp, #121]
	ldrb	w19, [sp, #128]
	b	.LBB13_192
.LBB13_190:
	ldr	x4, [sp, #104]
	ldr	x1, [sp, #80]
	mov	x19, xzr
	mov	w8, #6
.LBB13_191:
	mov	w10, #1
.LBB13_192:
	cbnz	w10, .LBB13_248
.LBB13_193:
	ldp	x27, x8, [x22]
	add	x28, x1, x4
	ldp	x25, x9, [x22, #16]
	mov	x23, x4
	str	x21, [sp, #88]
	and	w21, w19, #0xff
	stp	x27, x8, [sp, #120]
	ldp	x20, x8, [x22, #32]
	stp	x25, x9, [sp, #136]
	mov	w9, #2
	sturb	w9, [x29, #-104]
	stp	x20, x8, [sp, #152]
	ldr	x8, [sp, #56]
	sturb	w19, [x29, #-103]
	str	xzr, [x8]
	stur	xzr, [x8, #6]
	stp	d14, d13, [x29, #-88]
	cbz	x1, .LBB13_198
	mov	x23, x4
.LBB13_195:
	mov	w8, #24
	ldr	x9, [sp, #112]
	ldrb	w22, [x25, x23]
	madd	x24, x23, x8, x20
	ldrb	w8, [x27, x23]
	add	x0, sp, #120
	sub	x1, x29, #104
	add	x2, x4, #64
	sub	x3, x29, #136
	add	x4, x23, #1
	mov	w5, #4
	str	wzr, [x9]
	strh	wzr, [x9, #4]
	add	x26, x23, #1
	sturb	w8, [x29, #-136]
	ldp	d11, d15, [x24, #8]
	ldr	q0, [x24]
	sturb	w22, [x29, #-135]
	stur	q0, [x29, #-128]
	stur	d15, [x29, #-112]
	bl	"sums::order::cmp_term"
	and	w8, w0, #0xff
	cmp	w8, #2
	b.ne	.LBB13_197
	add	x23, x26, x22
	ldr	x4, [sp, #104]
	cmp	x23, x28
	b.lo	.LBB13_195
	b	.LBB13_198
.LBB13_197:
	ldr	x4, [sp, #104]
	cbnz	w8, .LBB13_204
.LBB13_198:
	movi	d0, #0000000000000000
	mov	x9, xzr
	mov	w8, #14
	mov	w10, #1
	fadd	d14, d14, d0
	fsub	d1, d14, d14
	fcmp	d1, d8
	b.ne	.LBB13_2
	fadd	d13, d13, d0
	ldr	x22, [sp, #64]
	fsub	d0, d13, d13
	fcmp	d0, d8
	b.ne	.LBB13_3
	and	x24, x19, #0xff
	mov	w19, w21
	cbz	w21, .LBB13_202
	add	x1, x4, #64
	mov	x0, x25
	mov	x2, x24
	mov	w3, #3
	bl	"sums::order::nests_inside"
	ldr	x4, [sp, #104]
	cbz	w0, .LBB13_214
.LBB13_202:
	ldr	x21, [sp, #80]
	add	x8, x21, x24
	add	x9, x8, #1
	cmp	x9, #64
	b.ls	.LBB13_206
	mov	x9, xzr
	mov	w8, #11
	mov	w10, #1
	b	.LBB13_3
.LBB13_204:
	fadd	d11, d14, d11
	fadd	d13, d13, d15
	fsub	d0, d11, d11
	fsub	d1, d13, d13
	fcmp	d0, d8
	fccmp	d1, d8, #0, eq
	b.eq	.LBB13_215
	mov	x9, xzr
	mov	w8, #14
	b	.LBB13_225
.LBB13_206:
	cmp	x23, x28
	b.hs	.LBB13_210
	mov	w8, #24
	add	x10, x4, x21
	add	x11, x27, x24
	madd	x12, x28, x8, x20
	add	x10, x10, x24
	madd	x8, x10, x8, x20
	add	x10, x25, x24
	sub	x12, x12, #24
.LBB13_208:
	add	x13, x27, x28
	add	x14, x25, x28
	ldurb	w13, [x13, #-1]
	strb	w13, [x11, x28]
	ldurb	w13, [x14, #-1]
	strb	w13, [x10, x28]
	sub	x28, x28, #1
	ldr	x13, [x12, #16]
	ldr	q0, [x12], #-24
	cmp	x23, x28
	str	x13, [x8, #16]
	str	q0, [x8], #-24
	b.lo	.LBB13_208
	ldr	x27, [x22]
.LBB13_210:
	mov	w8, #2
	strb	w8, [x27, x23]
	mov	w10, #24
	ldr	x8, [x22, #16]
	ldr	x17, [sp, #48]
	strb	w19, [x8, x23]
	cmp	x23, x17
	ldr	x8, [x22, #32]
	madd	x8, x23, x10, x8
	str	xzr, [x8]
	stp	d14, d13, [x8, #8]
	ldr	x15, [x22]
	ldr	x14, [x22, #16]
	ldr	x13, [x22, #32]
	b.hs	.LBB13_218
	cbz	w19, .LBB13_221
	mov	w10, #24
	ldr	x16, [sp, #32]
	add	x11, x15, x23
	madd	x12, x23, x10, x13
	add	x10, x14, x23
	mov	x8, xzr
	add	x10, x10, #1
	add	x11, x11, #1
	add	x13, x13, x16
	add	x14, x14, x17
	add	x15, x15, x17
	add	x12, x12, #24
.LBB13_213:
	ldrb	w16, [x15, x8]
	strb	w16, [x11, x8]
	ldrb	w16, [x14, x8]
	strb	w16, [x10, x8]
	add	x8, x8, #1
	ldr	x16, [x13, #16]
	ldr	q0, [x13], #24
	cmp	x24, x8
	str	x16, [x12, #16]
	str	q0, [x12], #24
	b.ne	.LBB13_213
	b	.LBB13_221
.LBB13_214:
	mov	x9, xzr
	mov	w8, #12
	mov	w10, #1
	b	.LBB13_3
.LBB13_215:
	cbz	w21, .LBB13_217
	add	x1, x4, #64
	and	x2, x19, #0xff
	mov	x0, x25
	mov	w3, #3
	bl	"sums::order::nests_inside"
	ldr	x4, [sp, #104]
	cbz	w0, .LBB13_224
.LBB13_217:
	ldr	x9, [sp, #80]
	ldr	x22, [sp, #64]
	mov	w10, wzr
	mov	w8, wzr
	stp	d11, d13, [x24, #8]
	b	.LBB13_3
.LBB13_218:
	cbz	w19, .LBB13_221
	mov	w10, #24
	add	x11, x4, x24
	mov	x8, xzr
	madd	x16, x11, x10, x13
	add	x11, x23, x24
	add	x12, x15, x23
	madd	x10, x11, x10, x13
	add	x11, x14, x23
	add	x13, x16, #1512
	ldr	x16, [sp, #24]
	add	x14, x14, x16
	add	x15, x15, x16
.LBB13_220:
	ldrb	w16, [x15, x24]
	add	x8, x8, #1
	sub	x15, x15, #1
	strb	w16, [x12, x24]
	sub	x12, x12, #1
	cmp	x24, x8
	ldrb	w16, [x14, x24]
	sub	x14, x14, #1
	strb	w16, [x11, x24]
	sub	x11, x11, #1
	ldr	x16, [x13, #16]
	ldr	q0, [x13], #-24
	str	x16, [x10, #16]
	str	q0, [x10], #-24
	b.ne	.LBB13_220
.LBB13_221:
	mov	w10, wzr
	mov	w8, wzr
	b	.LBB13_3
.LBB13_222:
	mov	x19, xzr
	mov	w8, #17
	b	.LBB13_191
.LBB13_223:
	mov	x19, xzr
	mov	w8, #14
	b	.LBB13_191
.LBB13_224:
	mov	x9, xzr
	mov	w8, #12
.LBB13_225:
	ldr	x22, [sp, #64]
	mov	w10, #1
	b	.LBB13_3
.LBB13_226:
	mov	x19, xzr
	mov	w8, #11
	b	.LBB13_191
.LBB13_227:
	ldr	x4, [sp, #104]
	ldr	x22, [sp, #64]
	mov	x9, xzr
	ldr	x21, [sp, #88]
	mov	w8, #12
	mov	w10, #1
	mov	x28, x20
	b	.LBB13_4
.LBB13_228:
	ldr	x28, [sp, #72]
	ldr	x21, [sp, #88]
	cbz	w28, .LBB13_230
	mov	x0, x25
	mov	x1, x21
	mov	x2, x28
	mov	w3, #3
	bl	"sums::order::nests_inside"
	cbz	w0, .LBB13_244
.LBB13_230:
	mov	w10, wzr
	mov	w8, wzr
	stp	d11, d13, [x20, #8]
	b	.LBB13_234
.LBB13_231:
	mov	x28, x21
	ldr	x21, [sp, #88]
	cbz	w28, .LBB13_233
	mov	x0, x25
	mov	x1, x21
	mov	x2, x28
	mov	w3, #3
	bl	"sums::order::nests_inside"
	cbz	w0, .LBB13_244
.LBB13_233:
	mov	w10, wzr
	mov	w8, wzr
	stp	d11, d13, [x27, #8]
.LBB13_234:
	ldr	x4, [sp, #104]
	ldr	x22, [sp, #64]
	ldr	x9, [sp, #80]
	b	.LBB13_4
.LBB13_235:
	cbz	w28, .LBB13_243
	mov	w12, #24
	add	x11, x11, #24
	add	x14, x14, #1
	madd	x10, x27, x12, x11
	add	x15, x15, #1
	mov	x8, xzr
	add	x13, x15, x27
	add	x15, x15, x26
	madd	x11, x26, x12, x11
	add	x12, x14, x27
	add	x14, x14, x26
.LBB13_237:
	ldrb	w16, [x15, x8]
	strb	w16, [x13, x8]
	ldrb	w16, [x14, x8]
	strb	w16, [x12, x8]
	add	x8, x8, #1
	ldr	x16, [x11, #16]
	ldr	q0, [x11], #24
	cmp	x28, x8
	str	x16, [x10, #16]
	str	q0, [x10], #24
	b.ne	.LBB13_237
	b	.LBB13_243
.LBB13_238:
	cbz	w28, .LBB13_243
	mov	w12, #24
	add	x11, x11, #24
	add	x14, x14, #1
	madd	x10, x23, x12, x11
	add	x15, x15, #1
	mov	x8, xzr
	add	x13, x15, x23
	add	x15, x15, x26
	madd	x11, x26, x12, x11
	add	x12, x14, x23
	add	x14, x14, x26
.LBB13_240:
	ldrb	w16, [x15, x8]
	strb	w16, [x13, x8]
	ldrb	w16, [x14, x8]
	strb	w16, [x12, x8]
	add	x8, x8, #1
	ldr	x16, [x11, #16]
	ldr	q0, [x11], #24
	cmp	x28, x8
	str	x16, [x10, #16]
	str	q0, [x10], #24
	b.ne	.LBB13_240
	b	.LBB13_243
.LBB13_241:
	mov	w12, #24
	add	x11, x11, #24
	add	x14, x14, #1
	madd	x10, x23, x12, x11
	add	x15, x15, #1
	mov	x8, xzr
	add	x13, x15, x23
	add	x15, x15, x26
	madd	x11, x26, x12, x11
	add	x12, x14, x23
	add	x14, x14, x26
.LBB13_242:
	ldrb	w16, [x15, x8]
	strb	w16, [x13, x8]
	ldrb	w16, [x14, x8]
	strb	w16, [x12, x8]
	add	x8, x8, #1
	ldr	x16, [x11, #16]
	ldr	q0, [x11], #24
	cmp	x28, x8
	str	x16, [x10, #16]
	str	q0, [x10], #24
	b.ne	.LBB13_242
.LBB13_243:
	mov	w10, wzr
	mov	w8, wzr
	b	.LBB13_4
.LBB13_244:
	ldr	x4, [sp, #104]
	ldr	x22, [sp, #64]
	mov	x9, xzr
	mov	w8, #12
	mov	w10, #1
	b	.LBB13_4
.LBB13_245:
	add	x10, x21, x9
	b	.LBB13_144
.LBB13_246:
	add	x11, x21, x9
	b	.LBB13_163
.LBB13_247:
	mov	w8, #6
.LBB13_248:
	ldr	x10, [sp, #40]
	mov	w9, #1
	strb	w8, [x10, #1]
	strb	w9, [x10]
	str	xzr, [x10, #8]
	b	.LBB13_252
.LBB13_249:
	ldr	x0, [sp, #40]
	cbz	x1, .LBB13_251
	strh	wzr, [x0]
	str	x1, [x0, #8]
	b	.LBB13_252
.LBB13_251:
	ldr	x8, [x22]
	mov	w9, #1
	mov	w10, #24
	strb	w9, [x8, x4]
	ldr	x8, [x22, #16]
	strb	wzr, [x8, x4]
	ldr	x8, [x22, #32]
	madd	x8, x4, x10, x8
	stp	xzr, xzr, [x8]
	str	xzr, [x8, #16]
	strh	wzr, [x0]
	str	x9, [x0, #8]
.LBB13_252:
	ldp	x20, x19, [sp, #384]
	ldp	x22, x21, [sp, #368]
	ldp	x24, x23, [sp, #352]
	ldp	x26, x25, [sp, #336]
	ldp	x28, x27, [sp, #320]
	ldp	x29, x30, [sp, #304]
	ldp	d9, d8, [sp, #288]
	ldp	d11, d10, [sp, #272]
	ldp	d13, d12, [sp, #256]
	ldp	d15, d14, [sp, #240]
	add	sp, sp, #400
	ret
.LBB13_253:
	mov	w8, #17
	b	.LBB13_248
.LBB13_254:
	mov	w8, #14
	b	.LBB13_248
.LBB13_255:
	mov	w8, #11
	b	.LBB13_248
.LBB13_256:
	mov	w8, #13
	b	.LBB13_248
.Lfunc_end13:
	.size	"calculus::derivative::expr_deriv", .Lfunc_end13-"calculus::derivative::expr_deriv"

	.section	.rodata.cst8,"aM",@progbits,8
	.p2align	3, 0x0
.LCPI14_0:
	.byte	6
	.byte	3
	.byte	0
	.byte	0
	.zero	1
	.zero	1
	.zero	1
	.zero	1
.LCPI14_1:
	.byte	7
	.byte	0
	.byte	1
	.byte	0
	.zero	1
	.zero	1
	.zero	1
	.zero	1
	.section	".text.algebra::answer::write_sum","ax",@progbits
	.p2align	2
	.type	"algebra::answer::write_sum",@function
"algebra::answer::write_sum":
	stp	d15, d14, [sp, #-160]!
	sub	x9, sp, #7, lsl #12
	stp	d13, d12, [sp, #16]
	sub	x9, x9, #2048
	stp	d11, d10, [sp, #32]
	stp	d9, d8, [sp, #48]
	stp	x29, x30, [sp, #64]
	add	x29, sp, #64
	stp	x28, x27, [sp, #80]
	stp	x26, x25, [sp, #96]
	stp	x24, x23, [sp, #112]
	stp	x22, x21, [sp, #128]
	stp	x20, x19, [sp, #144]
.LBB14_1:
	sub	sp, sp, #3072
	cmp	sp, x9
	str	xzr, [sp]
	b.ne	.LBB14_1
	sub	sp, sp, #176
	mov	x22, x6
	mov	x20, x5
	mov	x23, x3
	mov	x21, x0
	str	w4, [sp, #60]
	str	x2, [sp, #48]
	tbz	w1, #0, .LBB14_7
	cbz	x23, .LBB14_55
	ldr	x8, [sp, #48]
	stp	x22, x21, [sp, #32]
	str	x20, [sp, #24]
	ldr	x27, [x8]
	mov	x8, xzr
.LBB14_5:
	ldrb	w9, [x27, x8]
	cmp	w9, #1
	b.ne	.LBB14_60
	add	x8, x8, #1
	cmp	x23, x8
	b.ne	.LBB14_5
	b	.LBB14_61
.LBB14_7:
	cmp	x23, #16
	b.hi	.LBB14_32
	add	x0, sp, #64
	mov	w1, wzr
	mov	w2, #4272
	add	x19, sp, #64
	bl	memset
	cbz	x23, .LBB14_56
	mov	x8, #-4850376798678024192
	movi	d8, #0000000000000000
	mov	x9, #4372995238176751616
	fmov	d0, x8
	ldr	x8, [sp, #48]
	fmov	d9, #1.00000000
	fmov	d11, x9
	str	x21, [sp, #40]
	sub	x11, x29, #104
	ldr	x26, [x8, #32]
	ldr	x28, [x8]
	ldr	x21, [x8, #16]
	mov	w27, wzr
	mov	x10, xzr
	orr	x19, x11, #0x2
	mov	w9, #32
	mov	w8, #32
	sub	x13, x29, #128
	stp	x20, x22, [sp, #24]
	str	d0, [sp, #16]
	b	.LBB14_12
.LBB14_10:
.LBB14_11:
	fcmp	d13, d8
	cset	w10, ne
	fcmp	d14, d8
	csinc	w11, w10, wzr, eq
	fcmp	d12, d9
	add	x10, x25, x24
	ccmp	w22, #1, #0, eq
	csel	w11, wzr, w11, ne
	cmp	x10, x23
	orr	w27, w27, w11
	b.hs	.LBB14_111
.LBB14_12:
	mov	w11, #24
	ldrb	w22, [x28, x10]
	ldrb	w24, [x21, x10]
	madd	x11, x10, x11, x26
	add	x25, x10, #1
	str	wzr, [x19]
	strb	w22, [x13, #24]
	strb	w24, [x13, #25]
	strh	wzr, [x19, #4]
	stp	xzr, xzr, [x29, #-128]
	ldp	d12, d15, [x11]
	ldr	d10, [x11, #16]
	stur	xzr, [x29, #-112]
	fmov	d14, d10
	stur	d10, [x29, #-80]
	fmov	d13, d15
	stp	d12, d15, [x29, #-96]
	fcmp	d13, d8
	fccmp	d14, d8, #0, eq
	b.eq	.LBB14_10
	cmp	x9, x8
	cset	w10, ne
	orr	w20, w27, w10
	tbz	w20, #0, .LBB14_16
	cmp	x9, x8
	b.eq	.LBB14_17
	mov	w10, #24
	add	x11, sp, #64
	adrp	x13, .LCPI14_1
	madd	x10, x8, x10, x11
	adrp	x11, .LCPI14_0
	sub	x7, x8, #2
	ldr	d0, [x11, :lo12:.LCPI14_0]
	sub	w11, w9, w8
	add	w12, w11, #1
	stur	s0, [x10, #-48]
	ldr	d0, [x13, :lo12:.LCPI14_1]
	stur	w12, [x10, #-44]
	stp	xzr, xzr, [x10, #-40]
	stur	s0, [x10, #-24]
	stur	w11, [x10, #-20]
	stp	xzr, xzr, [x10, #-16]
	b	.LBB14_18
.LBB14_16:
	mov	x7, x9
	b	.LBB14_18
.LBB14_17:
	mov	w8, #24
	add	x10, sp, #64
	mov	x7, x9
	madd	x8, x9, x8, x10
	mov	w10, #773
	strh	w10, [x8]
	add	x10, x9, #1
	stur	xzr, [x8, #10]
	mov	x9, x10
	stur	xzr, [x8, #2]
	str	xzr, [x8, #16]
.LBB14_18:
	ldr	x1, [sp, #48]
	ldr	w4, [sp, #60]
	sub	x0, x29, #128
	sub	x2, x29, #104
	add	x6, sp, #64
	mov	x3, x25
	mov	w5, #3
	str	x9, [sp]
	bl	"writing::write_term"
	sub	x13, x29, #128
	ldrb	w8, [x13]
	cbnz	w8, .LBB14_138
	fcmp	d12, d8
	ldp	x8, x9, [x29, #-120]
	ccmp	w22, #1, #0, eq
	cset	w10, ne
	fcmp	d14, d8
	fccmp	d13, d9, #0, eq
	b.eq	.LBB14_30
	cbz	w10, .LBB14_30
	ldr	w10, [sp, #60]
	cbz	w10, .LBB14_25
	fsub	d0, d15, d15
	mov	w10, #14
	fcmp	d0, d8
	b.ne	.LBB14_139
	fsub	d0, d10, d10
	fcmp	d0, d8
	b.ne	.LBB14_139
	mov	w10, #2
	b	.LBB14_29
.LBB14_25:
	ldr	d0, [sp, #16]
	mov	w10, #14
	fcmp	d0, d14
	fsub	d0, d15, d15
	cset	w12, mi
	fcmp	d14, d11
	//APP
	//NO_APP
	cset	w11, mi
	fcmp	d0, d8
	//APP
	//NO_APP
	b.ne	.LBB14_139
	cbz	w12, .LBB14_139
	cbz	w11, .LBB14_139
	mov	w10, #1
.LBB14_29:
	mov	w11, #24
	add	x12, sp, #64
	madd	x11, x9, x11, x12
	ldr	w12, [sp, #60]
	add	x9, x9, #2
	cmp	w12, #0
	mov	w12, #2565
	strb	w10, [x11]
	fmov	x10, d10
	stur	wzr, [x11, #1]
	str	wzr, [x11, #4]
	csel	x10, x10, xzr, ne
	str	d15, [x11, #8]
	str	x10, [x11, #16]
	strh	w12, [x11, #24]
	stur	xzr, [x11, #34]
	stur	xzr, [x11, #26]
	str	xzr, [x11, #40]
.LBB14_30:
	tbz	w20, #0, .LBB14_11
	mov	w10, #24
	add	x11, sp, #64
	madd	x10, x9, x10, x11
	mov	w11, #2053
	add	x9, x9, #1
	strh	w11, [x10]
	stur	xzr, [x10, #10]
	stur	xzr, [x10, #2]
	str	xzr, [x10, #16]
	b	.LBB14_11
.LBB14_32:
	movi	d8, #0000000000000000
	mov	x8, #-4850376798678024192
	mov	x9, #4372995238176751616
	fmov	d9, #1.00000000
	fmov	d0, x8
	fmov	d11, x9
	sub	x10, x29, #104
	add	x0, sp, #64
	mov	w1, wzr
	mov	w2, #16944
	stp	x20, x22, [sp, #24]
	orr	x27, x10, #0x2
	str	x21, [sp, #40]
	str	d0, [sp, #16]
	bl	memset
	ldr	x8, [sp, #48]
	mov	w28, wzr
	mov	x10, xzr
	mov	w9, #128
	sub	x13, x29, #128
	ldr	x19, [x8, #32]
	ldr	x20, [x8]
	ldr	x21, [x8, #16]
	mov	w8, #128
	b	.LBB14_35
.LBB14_33:
.LBB14_34:
	fcmp	d13, d8
	cset	w10, ne
	fcmp	d14, d8
	csinc	w11, w10, wzr, eq
	fcmp	d12, d9
	add	x10, x25, x22
	ccmp	w24, #1, #0, eq
	csel	w11, wzr, w11, ne
	cmp	x10, x23
	orr	w28, w28, w11
	b.hs	.LBB14_85
.LBB14_35:
	mov	w11, #24
	ldrb	w24, [x20, x10]
	ldrb	w22, [x21, x10]
	madd	x11, x10, x11, x19
	add	x25, x10, #1
	str	wzr, [x27]
	strb	w24, [x13, #24]
	strb	w22, [x13, #25]
	strh	wzr, [x27, #4]
	stp	xzr, xzr, [x29, #-128]
	ldp	d12, d15, [x11]
	ldr	d10, [x11, #16]
	stur	xzr, [x29, #-112]
	fmov	d14, d10
	stur	d10, [x29, #-80]
	fmov	d13, d15
	stp	d12, d15, [x29, #-96]
	fcmp	d13, d8
	fccmp	d14, d8, #0, eq
	b.eq	.LBB14_33
	cmp	x8, x9
	cset	w10, ne
	orr	w26, w28, w10
	tbz	w26, #0, .LBB14_39
	cmp	x8, x9
	b.eq	.LBB14_40
	mov	w10, #24
	add	x11, sp, #64
	adrp	x13, .LCPI14_1
	madd	x10, x9, x10, x11
	adrp	x11, .LCPI14_0
	sub	x7, x9, #2
	ldr	d0, [x11, :lo12:.LCPI14_0]
	sub	w11, w8, w9
	add	w12, w11, #1
	stur	s0, [x10, #-48]
	ldr	d0, [x13, :lo12:.LCPI14_1]
	stur	w12, [x10, #-44]
	stp	xzr, xzr, [x10, #-40]
	stur	s0, [x10, #-24]
	stur	w11, [x10, #-20]
	stp	xzr, xzr, [x10, #-16]
	b	.LBB14_41
.LBB14_39:
	mov	x7, x8
	b	.LBB14_41
.LBB14_40:
	mov	w9, #24
	add	x10, sp, #64
	mov	x7, x8
	madd	x9, x8, x9, x10
	mov	w10, #773
	strh	w10, [x9]
	add	x10, x8, #1
	stur	xzr, [x9, #10]
	mov	x8, x10
	stur	xzr, [x9, #2]
	str	xzr, [x9, #16]
.LBB14_41:
	ldr	x1, [sp, #48]
	ldr	w4, [sp, #60]
	sub	x0, x29, #128
	sub	x2, x29, #104
	add	x6, sp, #64
	mov	x3, x25
	mov	w5, #3
	str	x8, [sp]
	bl	"writing::write_term"
	sub	x13, x29, #128
	ldrb	w8, [x13]
	cbnz	w8, .LBB14_138
	fcmp	d12, d8
	ldp	x9, x8, [x29, #-120]
	ccmp	w24, #1, #0, eq
	cset	w10, ne
	fcmp	d14, d8
	fccmp	d13, d9, #0, eq
	b.eq	.LBB14_53
	cbz	w10, .LBB14_53
	fsub	d0, d15, d15
	ldr	w10, [sp, #60]
	cbz	w10, .LBB14_48
	fcmp	d0, d8
	mov	w10, #14
	b.ne	.LBB14_139
	fsub	d0, d10, d10
	fcmp	d0, d8
	b.ne	.LBB14_139
	mov	w10, #2
	b	.LBB14_52
.LBB14_48:
	ldr	d1, [sp, #16]
	mov	w10, #14
	fcmp	d1, d14
	cset	w11, mi
	fcmp	d14, d11
	//APP
	//NO_APP
	cset	w12, mi
	fcmp	d0, d8
	//APP
	//NO_APP
	b.ne	.LBB14_139
	cbz	w11, .LBB14_139
	cbz	w12, .LBB14_139
	mov	w10, #1
.LBB14_52:
	mov	w11, #24
	add	x12, sp, #64
	madd	x11, x8, x11, x12
	ldr	w12, [sp, #60]
	add	x8, x8, #2
	cmp	w12, #0
	mov	w12, #2565
	strb	w10, [x11]
	fmov	x10, d10
	stur	wzr, [x11, #1]
	str	wzr, [x11, #4]
	csel	x10, x10, xzr, ne
	str	d15, [x11, #8]
	str	x10, [x11, #16]
	strh	w12, [x11, #24]
	stur	xzr, [x11, #34]
	stur	xzr, [x11, #26]
	str	xzr, [x11, #40]
.LBB14_53:
	tbz	w26, #0, .LBB14_34
	mov	w10, #24
	add	x11, sp, #64
	madd	x10, x8, x10, x11
	mov	w11, #2053
	add	x8, x8, #1
	strh	w11, [x10]
	stur	xzr, [x10, #10]
	stur	xzr, [x10, #2]
	str	xzr, [x10, #16]
	b	.LBB14_34
.LBB14_55:
	add	x0, sp, #64
	mov	w1, wzr
	mov	w2, #4272
	add	x19, sp, #64
	bl	memset
.LBB14_56:
	add	x10, x19, #768
	add	x9, x19, #769
	mov	w8, #32
.LBB14_57:
	mov	w11, #1
	strb	w11, [x10]
	stp	xzr, xzr, [x9]
	stur	xzr, [x9, #15]
	mov	w9, #2565
	strh	w9, [x10, #24]
	add	x9, x8, #2
	str	xzr, [x10, #40]
	stur	xzr, [x10, #26]
	stur	xzr, [x10, #34]
.LBB14_58:
	mov	x10, #-6148914691236517206
	sub	x19, x9, x8
	movk	x10, #43691
	umulh	x10, x22, x10
	cmp	x19, x10, lsr #4
	b.hi	.LBB14_160
	mov	w9, #24
	add	x10, sp, #64
	mov	x0, x20
	madd	x1, x8, x9, x10
	add	x8, x19, x19, lsl #1
	b	.LBB14_163
.LBB14_60:
	cmp	x23, x8
	b.ne	.LBB14_115
.LBB14_61:
	cmp	x23, #16
	b.hi	.LBB14_88
	add	x0, sp, #64
	mov	w1, wzr
	mov	w2, #4272
	bl	memset
	mov	x8, #-4850376798678024192
	movi	d8, #0000000000000000
	fmov	d9, #1.00000000
	fmov	d0, x8
	mov	x8, #4372995238176751616
	sub	x9, x29, #104
	fmov	d11, x8
	ldr	x8, [sp, #48]
	mov	w28, wzr
	mov	x10, xzr
	orr	x21, x9, #0x2
	mov	w9, #32
	ldr	x19, [x8, #32]
	ldr	x20, [x8, #16]
	mov	w8, #32
	sub	x13, x29, #128
	str	d0, [sp, #16]
	b	.LBB14_65
.LBB14_63:
.LBB14_64:
	fcmp	d13, d8
	cset	w10, ne
	fcmp	d14, d8
	csinc	w11, w10, wzr, eq
	fcmp	d12, d9
	add	x10, x25, x22
	ccmp	w24, #1, #0, eq
	csel	w11, wzr, w11, ne
	cmp	x10, x23
	orr	w28, w28, w11
	b.hs	.LBB14_140
.LBB14_65:
	mov	w11, #24
	ldrb	w24, [x27, x10]
	ldrb	w22, [x20, x10]
	madd	x11, x10, x11, x19
	add	x25, x10, #1
	str	wzr, [x21]
	strb	w24, [x13, #24]
	strb	w22, [x13, #25]
	strh	wzr, [x21, #4]
	stp	xzr, xzr, [x29, #-128]
	ldp	d12, d15, [x11]
	ldr	d10, [x11, #16]
	stur	xzr, [x29, #-112]
	fmov	d14, d10
	stur	d10, [x29, #-80]
	fmov	d13, d15
	stp	d12, d15, [x29, #-96]
	fcmp	d13, d8
	fccmp	d14, d8, #0, eq
	b.eq	.LBB14_63
	cmp	x9, x8
	cset	w10, ne
	orr	w26, w28, w10
	tbz	w26, #0, .LBB14_69
	cmp	x9, x8
	b.eq	.LBB14_70
	mov	w10, #24
	add	x11, sp, #64
	adrp	x13, .LCPI14_1
	madd	x10, x8, x10, x11
	adrp	x11, .LCPI14_0
	sub	x7, x8, #2
	ldr	d0, [x11, :lo12:.LCPI14_0]
	sub	w11, w9, w8
	add	w12, w11, #1
	stur	s0, [x10, #-48]
	ldr	d0, [x13, :lo12:.LCPI14_1]
	stur	w12, [x10, #-44]
	stp	xzr, xzr, [x10, #-40]
	stur	s0, [x10, #-24]
	stur	w11, [x10, #-20]
	stp	xzr, xzr, [x10, #-16]
	b	.LBB14_71
.LBB14_69:
	mov	x7, x9
	b	.LBB14_71
.LBB14_70:
	mov	w8, #24
	add	x10, sp, #64
	mov	x7, x9
	madd	x8, x9, x8, x10
	mov	w10, #773
	strh	w10, [x8]
	add	x10, x9, #1
	stur	xzr, [x8, #10]
	mov	x9, x10
	stur	xzr, [x8, #2]
	str	xzr, [x8, #16]
.LBB14_71:
	ldr	x1, [sp, #48]
	ldr	w4, [sp, #60]
	sub	x0, x29, #128
	sub	x2, x29, #104
	add	x6, sp, #64
	mov	x3, x25
	mov	w5, #3
	str	x9, [sp]
	bl	"writing::write_term"
	sub	x13, x29, #128
	ldrb	w8, [x13]
	cbnz	w8, .LBB14_138
	fcmp	d12, d8
	ldp	x8, x9, [x29, #-120]
	ccmp	w24, #1, #0, eq
	cset	w10, ne
	fcmp	d14, d8
	fccmp	d13, d9, #0, eq
	b.eq	.LBB14_83
	cbz	w10, .LBB14_83
	fsub	d0, d15, d15
	ldr	w10, [sp, #60]
	cbz	w10, .LBB14_78
	fcmp	d0, d8
	mov	w10, #14
	b.ne	.LBB14_139
	fsub	d0, d10, d10
	fcmp	d0, d8
	b.ne	.LBB14_139
	mov	w10, #2
	b	.LBB14_82
.LBB14_78:
	ldr	d1, [sp, #16]
	mov	w10, #14
	fcmp	d1, d14
	cset	w11, mi
	fcmp	d14, d11
	//APP
	//NO_APP
	cset	w12, mi
	fcmp	d0, d8
	//APP
	//NO_APP
	b.ne	.LBB14_139
	cbz	w11, .LBB14_139
	cbz	w12, .LBB14_139
	mov	w10, #1
.LBB14_82:
	mov	w11, #24
	add	x12, sp, #64
	madd	x11, x9, x11, x12
	ldr	w12, [sp, #60]
	add	x9, x9, #2
	cmp	w12, #0
	mov	w12, #2565
	strb	w10, [x11]
	fmov	x10, d10
	stur	wzr, [x11, #1]
	str	wzr, [x11, #4]
	csel	x10, x10, xzr, ne
	str	d15, [x11, #8]
	str	x10, [x11, #16]
	strh	w12, [x11, #24]
	stur	xzr, [x11, #34]
	stur	xzr, [x11, #26]
	str	xzr, [x11, #40]
.LBB14_83:
	tbz	w26, #0, .LBB14_64
	mov	w10, #24
	add	x11, sp, #64
	madd	x10, x9, x10, x11
	mov	w11, #2053
	add	x9, x9, #1
	strh	w11, [x10]
	stur	xzr, [x10, #10]
	stur	xzr, [x10, #2]
	str	xzr, [x10, #16]
	b	.LBB14_64
.LBB14_85:
	ldr	x11, [sp, #32]
	cmp	x9, x8
	b.ne	.LBB14_150
	mov	w8, #24
	add	x10, sp, #64
	madd	x10, x9, x8, x10
	tbz	w28, #0, .LBB14_149
	mov	w8, #261
	stur	xzr, [x10, #10]
	strh	w8, [x10]
	add	x8, x9, #1
	stur	xzr, [x10, #2]
	str	xzr, [x10, #16]
	b	.LBB14_150
.LBB14_88:
	movi	d8, #0000000000000000
	mov	x8, #-4850376798678024192
	mov	x9, #4372995238176751616
	fmov	d9, #1.00000000
	fmov	d0, x8
	fmov	d11, x9
	sub	x10, x29, #104
	add	x0, sp, #64
	mov	w1, wzr
	mov	w2, #16944
	orr	x28, x10, #0x2
	str	d0, [sp, #16]
	bl	memset
	ldr	x8, [sp, #48]
	mov	w20, wzr
	mov	x10, xzr
	mov	w9, #128
	sub	x13, x29, #128
	ldr	x19, [x8, #32]
	ldr	x21, [x8, #16]
	mov	w8, #128
	b	.LBB14_91
.LBB14_89:
.LBB14_90:
	fcmp	d13, d8
	cset	w10, ne
	fcmp	d14, d8
	csinc	w11, w10, wzr, eq
	fcmp	d12, d9
	add	x10, x25, x22
	ccmp	w24, #1, #0, eq
	csel	w11, wzr, w11, ne
	cmp	x10, x23
	orr	w20, w20, w11
	b.hs	.LBB14_143
.LBB14_91:
	mov	w11, #24
	ldrb	w24, [x27, x10]
	ldrb	w22, [x21, x10]
	madd	x11, x10, x11, x19
	add	x25, x10, #1
	str	wzr, [x28]
	strb	w24, [x13, #24]
	strb	w22, [x13, #25]
	strh	wzr, [x28, #4]
	stp	xzr, xzr, [x29, #-128]
	ldp	d12, d15, [x11]
	ldr	d10, [x11, #16]
	stur	xzr, [x29, #-112]
	fmov	d14, d10
	stur	d10, [x29, #-80]
	fmov	d13, d15
	stp	d12, d15, [x29, #-96]
	fcmp	d13, d8
	fccmp	d14, d8, #0, eq
	b.eq	.LBB14_89
	cmp	x8, x9
	cset	w10, ne
	orr	w26, w20, w10
	tbz	w26, #0, .LBB14_95
	cmp	x8, x9
	b.eq	.LBB14_96
	mov	w10, #24
	add	x11, sp, #64
	adrp	x13, .LCPI14_1
	madd	x10, x9, x10, x11
	adrp	x11, .LCPI14_0
	sub	x7, x9, #2
	ldr	d0, [x11, :lo12:.LCPI14_0]
	sub	w11, w8, w9
	add	w12, w11, #1
	stur	s0, [x10, #-48]
	ldr	d0, [x13, :lo12:.LCPI14_1]
	stur	w12, [x10, #-44]
	stp	xzr, xzr, [x10, #-40]
	stur	s0, [x10, #-24]
	stur	w11, [x10, #-20]
	stp	xzr, xzr, [x10, #-16]
	b	.LBB14_97
.LBB14_95:
	mov	x7, x8
	b	.LBB14_97
.LBB14_96:
	mov	w9, #24
	add	x10, sp, #64
	mov	x7, x8
	madd	x9, x8, x9, x10
	mov	w10, #773
	strh	w10, [x9]
	add	x10, x8, #1
	stur	xzr, [x9, #10]
	mov	x8, x10
	stur	xzr, [x9, #2]
	str	xzr, [x9, #16]
.LBB14_97:
	ldr	x1, [sp, #48]
	ldr	w4, [sp, #60]
	sub	x0, x29, #128
	sub	x2, x29, #104
	add	x6, sp, #64
	mov	x3, x25
	mov	w5, #3
	str	x8, [sp]
	bl	"writing::write_term"
	sub	x13, x29, #128
	ldrb	w8, [x13]
	cbnz	w8, .LBB14_138
	fcmp	d12, d8
	ldp	x9, x8, [x29, #-120]
	ccmp	w24, #1, #0, eq
	cset	w10, ne
	fcmp	d14, d8
	fccmp	d13, d9, #0, eq
	b.eq	.LBB14_109
	cbz	w10, .LBB14_109
	fsub	d0, d15, d15
	ldr	w10, [sp, #60]
	cbz	w10, .LBB14_104
	fcmp	d0, d8
	mov	w10, #14
	b.ne	.LBB14_139
	fsub	d0, d10, d10
	fcmp	d0, d8
	b.ne	.LBB14_139
	mov	w10, #2
	b	.LBB14_108
.LBB14_104:
	ldr	d1, [sp, #16]
	mov	w10, #14
	fcmp	d1, d14
	cset	w11, mi
	fcmp	d14, d11
	//APP
	//NO_APP
	cset	w12, mi
	fcmp	d0, d8
	//APP
	//NO_APP
	b.ne	.LBB14_139
	cbz	w11, .LBB14_139
	cbz	w12, .LBB14_139
	mov	w10, #1
.LBB14_108:
	mov	w11, #24
	add	x12, sp, #64
	madd	x11, x8, x11, x12
	ldr	w12, [sp, #60]
	add	x8, x8, #2
	cmp	w12, #0
	mov	w12, #2565
	strb	w10, [x11]
	fmov	x10, d10
	stur	wzr, [x11, #1]
	str	wzr, [x11, #4]
	csel	x10, x10, xzr, ne
	str	d15, [x11, #8]
	str	x10, [x11, #16]
	strh	w12, [x11, #24]
	stur	xzr, [x11, #34]
	stur	xzr, [x11, #26]
	str	xzr, [x11, #40]
.LBB14_109:
	tbz	w26, #0, .LBB14_90
	mov	w10, #24
	add	x11, sp, #64
	madd	x10, x8, x10, x11
	mov	w11, #2053
	add	x8, x8, #1
	strh	w11, [x10]
	stur	xzr, [x10, #10]
	stur	xzr, [x10, #2]
	str	xzr, [x10, #16]
	b	.LBB14_90
.LBB14_111:
	ldr	x20, [sp, #24]
	cmp	x8, x9
	b.ne	.LBB14_114
	mov	w9, #24
	add	x10, sp, #64
	madd	x10, x8, x9, x10
	tbz	w27, #0, .LBB14_153
	mov	w9, #261
	stur	xzr, [x10, #10]
	strh	w9, [x10]
	add	x9, x8, #1
	stur	xzr, [x10, #2]
	str	xzr, [x10, #16]
.LBB14_114:
	ldp	x22, x21, [sp, #32]
	b	.LBB14_58
.LBB14_115:
	add	x0, sp, #64
	mov	w1, wzr
	mov	w2, #30768
	bl	memset
	mov	x8, #-4850376798678024192
	movi	d8, #0000000000000000
	fmov	d9, #1.00000000
	fmov	d0, x8
	mov	x8, #4372995238176751616
	sub	x9, x29, #104
	fmov	d11, x8
	ldr	x8, [sp, #48]
	sub	x13, x29, #128
	mov	w28, wzr
	mov	x10, xzr
	orr	x21, x9, #0x2
	ldr	x26, [x8, #32]
	ldr	x20, [x8, #16]
	mov	w9, #128
	mov	w8, #128
	str	d0, [sp, #16]
	b	.LBB14_118
.LBB14_116:
.LBB14_117:
	fcmp	d13, d8
	cset	w10, ne
	fcmp	d14, d8
	csinc	w11, w10, wzr, eq
	fcmp	d12, d9
	add	x10, x25, x24
	ccmp	w22, #1, #0, eq
	csel	w11, wzr, w11, ne
	cmp	x10, x23
	orr	w28, w28, w11
	b.hs	.LBB14_146
.LBB14_118:
	mov	w11, #24
	ldrb	w22, [x27, x10]
	ldrb	w24, [x20, x10]
	madd	x11, x10, x11, x26
	add	x25, x10, #1
	str	wzr, [x21]
	strb	w22, [x13, #24]
	strb	w24, [x13, #25]
	strh	wzr, [x21, #4]
	stp	xzr, xzr, [x29, #-128]
	ldp	d12, d15, [x11]
	ldr	d10, [x11, #16]
	stur	xzr, [x29, #-112]
	fmov	d14, d10
	stur	d10, [x29, #-80]
	fmov	d13, d15
	stp	d12, d15, [x29, #-96]
	fcmp	d13, d8
	fccmp	d14, d8, #0, eq
	b.eq	.LBB14_116
	cmp	x9, x8
	cset	w10, ne
	orr	w19, w28, w10
	tbz	w19, #0, .LBB14_122
	cmp	x9, x8
	b.eq	.LBB14_123
	mov	w10, #24
	add	x11, sp, #64
	adrp	x13, .LCPI14_1
	madd	x10, x8, x10, x11
	adrp	x11, .LCPI14_0
	ldr	d0, [x11, :lo12:.LCPI14_0]
	sub	w11, w9, w8
	sub	x8, x8, #2
	add	w12, w11, #1
	stur	s0, [x10, #-48]
	ldr	d0, [x13, :lo12:.LCPI14_1]
	stur	w12, [x10, #-44]
	stp	xzr, xzr, [x10, #-40]
	stur	s0, [x10, #-24]
	stur	w11, [x10, #-20]
	stp	xzr, xzr, [x10, #-16]
	b	.LBB14_124
.LBB14_122:
	mov	x8, x9
	b	.LBB14_124
.LBB14_123:
	mov	w8, #24
	add	x10, sp, #64
	add	x11, x9, #1
	madd	x10, x9, x8, x10
	mov	w8, #773
	strh	w8, [x10]
	mov	x8, x9
	mov	x9, x11
	stur	xzr, [x10, #10]
	stur	xzr, [x10, #2]
	str	xzr, [x10, #16]
.LBB14_124:
	ldr	x1, [sp, #48]
	ldr	w4, [sp, #60]
	sub	x0, x29, #128
	sub	x2, x29, #104
	add	x6, sp, #64
	mov	x3, x25
	mov	w5, #3
	mov	w7, #30768
	stp	x8, x9, [sp]
	bl	"writing::faithful::write_term"
	sub	x13, x29, #128
	ldrb	w8, [x13]
	cbnz	w8, .LBB14_138
	fcmp	d12, d8
	ldp	x8, x9, [x29, #-120]
	ccmp	w22, #1, #0, eq
	cset	w10, ne
	fcmp	d14, d8
	fccmp	d13, d9, #0, eq
	b.eq	.LBB14_136
	cbz	w10, .LBB14_136
	fsub	d0, d15, d15
	ldr	w10, [sp, #60]
	cbz	w10, .LBB14_131
	fcmp	d0, d8
	mov	w10, #14
	b.ne	.LBB14_139
	fsub	d0, d10, d10
	fcmp	d0, d8
	b.ne	.LBB14_139
	mov	w10, #2
	b	.LBB14_135
.LBB14_131:
	ldr	d1, [sp, #16]
	mov	w10, #14
	fcmp	d1, d14
	cset	w11, mi
	fcmp	d14, d11
	//APP
	//NO_APP
	cset	w12, mi
	fcmp	d0, d8
	//APP
	//NO_APP
	b.ne	.LBB14_139
	cbz	w11, .LBB14_139
	cbz	w12, .LBB14_139
	mov	w10, #1
.LBB14_135:
	mov	w11, #24
	add	x12, sp, #64
	madd	x11, x9, x11, x12
	ldr	w12, [sp, #60]
	add	x9, x9, #2
	cmp	w12, #0
	mov	w12, #2565
	strb	w10, [x11]
	fmov	x10, d10
	stur	wzr, [x11, #1]
	str	wzr, [x11, #4]
	csel	x10, x10, xzr, ne
	str	d15, [x11, #8]
	str	x10, [x11, #16]
	strh	w12, [x11, #24]
	stur	xzr, [x11, #34]
	stur	xzr, [x11, #26]
	str	xzr, [x11, #40]
.LBB14_136:
	tbz	w19, #0, .LBB14_117
	mov	w10, #24
	add	x11, sp, #64
	madd	x10, x9, x10, x11
	mov	w11, #2053
	add	x9, x9, #1
	strh	w11, [x10]
	stur	xzr, [x10, #10]
	stur	xzr, [x10, #2]
	str	xzr, [x10, #16]
	b	.LBB14_117
.LBB14_138:
	ldrb	w10, [x13, #1]
.LBB14_139:
	ldr	x21, [sp, #40]
	mov	x19, xzr
	mov	w8, #1
	b	.LBB14_164
.LBB14_140:
	cmp	x8, x9
	b.ne	.LBB14_152
	mov	w9, #24
	add	x10, sp, #64
	madd	x10, x8, x9, x10
	ldp	x22, x21, [sp, #32]
	tbz	w28, #0, .LBB14_154
	mov	w9, #261
	ldr	x20, [sp, #24]
	stur	xzr, [x10, #10]
	strh	w9, [x10]
	add	x9, x8, #1
	stur	xzr, [x10, #2]
	str	xzr, [x10, #16]
	b	.LBB14_58
.LBB14_143:
	ldp	x11, x21, [sp, #32]
	cmp	x9, x8
	ldr	x0, [sp, #24]
	b.ne	.LBB14_156
	mov	w8, #24
	add	x10, sp, #64
	madd	x10, x9, x8, x10
	tbz	w20, #0, .LBB14_155
	mov	w8, #261
	stur	xzr, [x10, #10]
	strh	w8, [x10]
	add	x8, x9, #1
	stur	xzr, [x10, #2]
	str	xzr, [x10, #16]
	b	.LBB14_156
.LBB14_146:
	ldp	x11, x21, [sp, #32]
	cmp	x8, x9
	b.ne	.LBB14_159
	mov	w9, #24
	add	x10, sp, #64
	madd	x10, x8, x9, x10
	tbz	w28, #0, .LBB14_158
	mov	w9, #261
	stur	xzr, [x10, #10]
	strh	w9, [x10]
	add	x9, x8, #1
	stur	xzr, [x10, #2]
	str	xzr, [x10, #16]
	b	.LBB14_159
.LBB14_149:
	mov	w8, #1
	stur	xzr, [x10, #9]
	strb	w8, [x10]
	mov	w8, #2565
	strh	w8, [x10, #24]
	add	x8, x9, #2
	stur	xzr, [x10, #1]
	stur	xzr, [x10, #16]
	stur	xzr, [x10, #34]
	stur	xzr, [x10, #26]
	str	xzr, [x10, #40]
.LBB14_150:
	mov	x10, #-6148914691236517206
	sub	x19, x8, x9
	ldr	x21, [sp, #40]
	movk	x10, #43691
	umulh	x10, x11, x10
	cmp	x19, x10, lsr #4
	b.hi	.LBB14_160
	mov	w8, #24
	add	x10, sp, #64
	madd	x1, x9, x8, x10
	b	.LBB14_162
.LBB14_152:
	ldp	x22, x21, [sp, #32]
	ldr	x20, [sp, #24]
	b	.LBB14_58
.LBB14_153:
	ldp	x22, x21, [sp, #32]
	add	x9, x10, #1
	b	.LBB14_57
.LBB14_154:
	ldr	x20, [sp, #24]
	add	x9, x10, #1
	b	.LBB14_57
.LBB14_155:
	mov	w8, #1
	stur	xzr, [x10, #9]
	strb	w8, [x10]
	mov	w8, #2565
	strh	w8, [x10, #24]
	add	x8, x9, #2
	stur	xzr, [x10, #1]
	stur	xzr, [x10, #16]
	stur	xzr, [x10, #34]
	stur	xzr, [x10, #26]
	str	xzr, [x10, #40]
.LBB14_156:
	mov	x10, #-6148914691236517206
	sub	x19, x8, x9
	movk	x10, #43691
	umulh	x10, x11, x10
	cmp	x19, x10, lsr #4
	b.hi	.LBB14_160
	mov	w8, #24
	add	x10, sp, #64
	madd	x1, x9, x8, x10
	add	x8, x19, x19, lsl #1
	b	.LBB14_163
.LBB14_158:
	mov	w9, #1
	stur	xzr, [x10, #9]
	strb	w9, [x10]
	mov	w9, #2565
	strh	w9, [x10, #24]
	add	x9, x8, #2
	stur	xzr, [x10, #1]
	stur	xzr, [x10, #16]
	stur	xzr, [x10, #34]
	stur	xzr, [x10, #26]
	str	xzr, [x10, #40]
.LBB14_159:
	mov	x10, #-6148914691236517206
	sub	x19, x9, x8
	movk	x10, #43691
	umulh	x10, x11, x10
	cmp	x19, x10, lsr #4
	b.ls	.LBB14_161
.LBB14_160:
	mov	x19, xzr
	mov	w10, #16
	mov	w8, #1
	b	.LBB14_164
.LBB14_161:
	mov	w9, #24
	add	x10, sp, #64
	madd	x1, x8, x9, x10
.LBB14_162:
	add	x8, x19, x19, lsl #1
	ldr	x0, [sp, #24]
.LBB14_163:
	lsl	x2, x8, #3
	bl	memcpy
	mov	w8, wzr
	mov	w10, wzr
.LBB14_164:
	cmp	w8, #0
	strb	w8, [x21]
	csel	w8, wzr, w10, eq
	csel	x9, x19, xzr, eq
	strb	w8, [x21, #1]
	str	x9, [x21, #8]
	add	sp, sp, #7, lsl #12
	add	sp, sp, #2224
	ldp	x20, x19, [sp, #144]
	ldp	x22, x21, [sp, #128]
	ldp	x24, x23, [sp, #112]
	ldp	x26, x25, [sp, #96]
	ldp	x28, x27, [sp, #80]
	ldp	x29, x30, [sp, #64]
	ldp	d9, d8, [sp, #48]
	ldp	d11, d10, [sp, #32]
	ldp	d13, d12, [sp, #16]
	ldp	d15, d14, [sp], #160
	ret
.Lfunc_end14:
	.size	"algebra::answer::write_sum", .Lfunc_end14-"algebra::answer::write_sum"

	.section	.rodata.cst8,"aM",@progbits,8
	.p2align	3, 0x0
.LCPI15_0:
	.byte	6
	.byte	3
	.byte	0
	.byte	0
	.zero	1
	.zero	1
	.zero	1
	.zero	1
.LCPI15_1:
	.byte	7
	.byte	0
	.byte	1
	.byte	0
	.zero	1
	.zero	1
	.zero	1
	.zero	1
	.section	".text.writing::write_term","ax",@progbits
	.p2align	2
	.type	"writing::write_term",@function
"writing::write_term":
	sub	sp, sp, #288
	stp	x29, x30, [sp, #192]
	add	x29, sp, #192
	ldrb	w11, [x2]
	ldp	d2, d5, [x2, #8]
	ldr	x8, [x29, #96]
	ldr	d4, [x2, #24]
	cmp	w11, #1
	stp	x22, x21, [sp, #256]
	stp	x20, x19, [sp, #272]
	mov	x20, x6
	mov	w21, w4
	stp	d15, d14, [sp, #128]
	stp	d13, d12, [sp, #144]
	stp	d11, d10, [sp, #160]
	stp	d9, d8, [sp, #176]
	stp	x28, x27, [sp, #208]
	stp	x26, x25, [sp, #224]
	stp	x24, x23, [sp, #240]
	b.ne	.LBB15_6
	movi	d0, #0000000000000000
	fmov	d1, d2
	fcmp	d1, d0
	b.ne	.LBB15_32
	mov	w9, #24
	mov	x12, xzr
	madd	x11, x8, x9, x20
	mov	w9, #1
	strb	w9, [x11]
	mov	w9, #2565
	stur	xzr, [x11, #9]
	stur	xzr, [x11, #1]
	str	xzr, [x11, #16]
	strh	w9, [x11, #24]
	stur	xzr, [x11, #34]
	stur	xzr, [x11, #26]
	str	xzr, [x11, #40]
	cbz	w21, .LBB15_34
	fsub	d1, d5, d5
	mov	w9, #14
	mov	w10, #1
	fcmp	d1, d0
	b.ne	.LBB15_41
	fsub	d1, d4, d4
	mov	x13, x12
	fcmp	d1, d0
	b.ne	.LBB15_72
	mov	w10, #2
	b	.LBB15_37
.LBB15_6:
	ldrb	w9, [x2, #1]
	add	x27, x3, x9
	cmp	x3, x27
	b.hs	.LBB15_30
	movi	d11, #0000000000000000
	mov	x9, #-4850376798678024192
	mov	x10, #4372995238176751616
	fmov	d12, #1.00000000
	fmov	d0, x9
	fmov	d14, x10
	str	w11, [sp, #12]
	add	x11, sp, #88
	mov	x22, x1
	mov	w26, wzr
	sub	x9, x5, #1
	orr	x28, x11, #0x2
	stp	d2, d5, [sp, #16]
	str	d4, [sp, #32]
	str	x0, [sp, #40]
	str	x9, [sp, #56]
	str	d0, [sp, #48]
	b	.LBB15_10
.LBB15_8:
.LBB15_9:
	fcmp	d8, d11
	add	x3, x24, x19
	cset	w9, ne
	fcmp	d9, d11
	csinc	w9, w9, wzr, eq
	fcmp	d15, d12
	ccmp	w25, #1, #0, eq
	csel	w9, wzr, w9, ne
	cmp	x3, x27
	orr	w26, w26, w9
	b.hs	.LBB15_38
.LBB15_10:
	mov	w9, #24
	ldr	x10, [x22, #32]
	ldr	x11, [x22, #16]
	madd	x9, x3, x9, x10
	ldr	x10, [x22]
	add	x24, x3, #1
	ldrb	w19, [x11, x3]
	str	wzr, [x28]
	ldrb	w25, [x10, x3]
	strh	wzr, [x28, #4]
	strb	w19, [sp, #89]
	strb	w25, [sp, #88]
	ldp	d15, d10, [x9]
	ldr	d13, [x9, #16]
	stp	xzr, xzr, [sp, #64]
	fmov	d9, d13
	str	d13, [sp, #112]
	fmov	d8, d10
	stp	d15, d10, [sp, #96]
	str	xzr, [sp, #80]
	fcmp	d8, d11
	fccmp	d9, d11, #0, eq
	b.eq	.LBB15_8
	cmp	x8, x7
	cset	w9, ne
	orr	w23, w26, w9
	tbz	w23, #0, .LBB15_14
	mov	w9, #24
	cmp	x8, x7
	b.eq	.LBB15_15
	madd	x9, x7, x9, x20
	adrp	x10, .LCPI15_0
	adrp	x12, .LCPI15_1
	ldr	d0, [x10, :lo12:.LCPI15_0]
	sub	w10, w8, w7
	sub	x7, x7, #2
	add	w11, w10, #1
	stur	s0, [x9, #-48]
	ldr	d0, [x12, :lo12:.LCPI15_1]
	stur	w11, [x9, #-44]
	stp	xzr, xzr, [x9, #-40]
	stur	s0, [x9, #-24]
	stur	w10, [x9, #-20]
	stp	xzr, xzr, [x9, #-16]
	b	.LBB15_16
.LBB15_14:
	mov	x7, x8
	b	.LBB15_16
.LBB15_15:
	madd	x9, x8, x9, x20
	mov	w10, #773
	mov	x7, x8
	strh	w10, [x9]
	add	x10, x8, #1
	stur	xzr, [x9, #10]
	mov	x8, x10
	stur	xzr, [x9, #2]
	str	xzr, [x9, #16]
.LBB15_16:
	ldr	x5, [sp, #56]
	add	x0, sp, #64
	add	x2, sp, #88
	mov	x1, x22
	mov	x3, x24
	mov	w4, w21
	mov	x6, x20
	str	x8, [sp]
	bl	"writing::write_term"
	ldrb	w8, [sp, #64]
	cbnz	w8, .LBB15_42
	fcmp	d15, d11
	ldp	x7, x8, [sp, #72]
	ccmp	w25, #1, #0, eq
	cset	w9, ne
	fcmp	d9, d11
	fccmp	d8, d12, #0, eq
	b.eq	.LBB15_28
	cbz	w9, .LBB15_28
	fsub	d0, d10, d10
	cbz	w21, .LBB15_23
	fcmp	d0, d11
	mov	w9, #14
	b.ne	.LBB15_43
	fsub	d0, d13, d13
	fcmp	d0, d11
	b.ne	.LBB15_43
	mov	w9, #2
	b	.LBB15_27
.LBB15_23:
	ldr	d1, [sp, #48]
	mov	w9, #14
	fcmp	d1, d9
	cset	w10, mi
	fcmp	d9, d14
	//APP
	//NO_APP
	cset	w11, mi
	fcmp	d0, d11
	//APP
	//NO_APP
	b.ne	.LBB15_43
	cbz	w10, .LBB15_43
	cbz	w11, .LBB15_43
	mov	w9, #1
.LBB15_27:
	mov	w10, #24
	cmp	w21, #0
	mov	w11, #2565
	madd	x10, x8, x10, x20
	add	x8, x8, #2
	strb	w9, [x10]
	fmov	x9, d13
	stur	wzr, [x10, #1]
	str	wzr, [x10, #4]
	csel	x9, x9, xzr, ne
	str	d10, [x10, #8]
	str	x9, [x10, #16]
	strh	w11, [x10, #24]
	stur	xzr, [x10, #34]
	stur	xzr, [x10, #26]
	str	xzr, [x10, #40]
.LBB15_28:
	tbz	w23, #0, .LBB15_9
	mov	w9, #24
	mov	w10, #2053
	madd	x9, x8, x9, x20
	add	x8, x8, #1
	strh	w10, [x9]
	stur	xzr, [x9, #10]
	stur	xzr, [x9, #2]
	str	xzr, [x9, #16]
	b	.LBB15_9
.LBB15_30:
	cmp	x7, x8
	b.ne	.LBB15_45
	mov	w8, #24
	madd	x9, x7, x8, x20
	add	x8, x9, #1
	b	.LBB15_57
.LBB15_32:
	fmov	d0, #0.50000000
	fcmp	d1, d0
	b.ne	.LBB15_50
	mov	w11, #24
	mov	w12, #1797
	mov	w10, wzr
	madd	x11, x8, x11, x20
	mov	w9, wzr
	add	x13, x8, #1
	strh	w12, [x11]
	mov	x12, x7
	stur	xzr, [x11, #10]
	stur	xzr, [x11, #2]
	str	xzr, [x11, #16]
	b	.LBB15_72
.LBB15_34:
	mov	x9, #-4850376798678024192
	fmov	d2, d4
	fsub	d3, d5, d5
	fmov	d1, x9
	mov	x9, #4372995238176751616
	mov	w10, #1
	fcmp	d1, d2
	fmov	d1, x9
	mov	w9, #14
	cset	w13, mi
	fcmp	d2, d1
	//APP
	//NO_APP
	cset	w14, mi
	fcmp	d3, d0
	//APP
	//NO_APP
	b.ne	.LBB15_41
	cbz	w13, .LBB15_41
	mov	x13, x12
	cbz	w14, .LBB15_72
.LBB15_37:
	strb	w10, [x11, #48]
	fmov	x10, d4
	cmp	w21, #0
	mov	w9, wzr
	stur	wzr, [x11, #49]
	add	x13, x8, #4
	str	wzr, [x11, #52]
	mov	x12, x7
	csel	x10, x10, xzr, ne
	str	d5, [x11, #56]
	str	x10, [x11, #64]
	mov	w10, #2053
	strh	w10, [x11, #72]
	mov	w10, wzr
	stur	xzr, [x11, #82]
	stur	xzr, [x11, #74]
	str	xzr, [x11, #88]
	b	.LBB15_72
.LBB15_38:
	cmp	x7, x8
	b.ne	.LBB15_44
	mov	w8, #24
	ldr	w11, [sp, #12]
	madd	x9, x7, x8, x20
	tbz	w26, #0, .LBB15_56
	ldp	d5, d4, [sp, #24]
	mov	w8, #261
	ldr	x0, [sp, #40]
	ldr	d2, [sp, #16]
	stur	xzr, [x9, #10]
	strh	w8, [x9]
	add	x8, x7, #1
	stur	xzr, [x9, #2]
	str	xzr, [x9, #16]
	cmp	w11, #4
	b.le	.LBB15_46
	b	.LBB15_58
.LBB15_41:
	mov	x13, x12
	b	.LBB15_72
.LBB15_42:
	ldrb	w9, [sp, #65]
.LBB15_43:
	ldr	x10, [sp, #40]
	mov	w8, #1
	strb	w9, [x10, #1]
	strb	w8, [x10]
	stp	xzr, xzr, [x10, #8]
	b	.LBB15_73
.LBB15_44:
	ldp	d5, d4, [sp, #24]
	ldr	x0, [sp, #40]
	ldr	d2, [sp, #16]
	ldr	w11, [sp, #12]
.LBB15_45:
	cmp	w11, #4
	b.gt	.LBB15_58
.LBB15_46:
	cmp	w11, #2
	b.eq	.LBB15_52
	cmp	w11, #3
	b.eq	.LBB15_55
	cmp	w11, #4
	b.ne	.LBB15_63
	mov	w9, #13
	b	.LBB15_65
.LBB15_50:
	fmov	d0, #1.00000000
	fcmp	d1, d0
	b.ne	.LBB15_68
	mov	w10, wzr
	mov	w9, wzr
	mov	x12, x7
	mov	x13, x8
	b	.LBB15_72
.LBB15_52:
	fmov	d0, #1.00000000
	mov	w9, #24
	madd	x9, x8, x9, x20
	fcmp	d5, d0
	b.ne	.LBB15_67
	movi	d0, #0000000000000000
	fcmp	d4, d0
	b.ne	.LBB15_67
	mov	w10, #4101
	stur	xzr, [x9, #10]
	add	x8, x8, #1
	strh	w10, [x9]
	stur	xzr, [x9, #2]
	str	xzr, [x9, #16]
	b	.LBB15_66
.LBB15_55:
	mov	w9, #24
	mov	w10, #1
	madd	x9, x8, x9, x20
	add	x8, x8, #2
	strb	w10, [x9]
	mov	w10, #8709
	stur	wzr, [x9, #1]
	str	wzr, [x9, #4]
	str	d2, [x9, #8]
	str	xzr, [x9, #16]
	strh	w10, [x9, #24]
	stur	xzr, [x9, #34]
	stur	xzr, [x9, #26]
	str	xzr, [x9, #40]
	b	.LBB15_66
.LBB15_56:
	ldp	d5, d4, [sp, #24]
	add	x8, x9, #1
	ldr	x0, [sp, #40]
	ldr	d2, [sp, #16]
.LBB15_57:
	stp	xzr, xzr, [x8]
	mov	w10, #1
	stur	xzr, [x8, #15]
	mov	w8, #2565
	strh	w8, [x9, #24]
	add	x8, x7, #2
	strb	w10, [x9]
	str	xzr, [x9, #40]
	stur	xzr, [x9, #26]
	stur	xzr, [x9, #34]
	cmp	w11, #4
	b.le	.LBB15_46
.LBB15_58:
	cmp	w11, #5
	b.eq	.LBB15_62
	cmp	w11, #6
	b.eq	.LBB15_64
	cmp	w11, #7
	b.ne	.LBB15_63
	mov	w9, #19
	b	.LBB15_65
.LBB15_62:
	mov	w9, #14
	b	.LBB15_65
.LBB15_63:
	mov	w9, #20
	b	.LBB15_65
.LBB15_64:
	mov	w9, #15
.LBB15_65:
	mov	w10, #24
	mov	w11, #5
	madd	x10, x8, x10, x20
	add	x8, x8, #1
	strb	w11, [x10]
	strb	w9, [x10, #1]
	stur	xzr, [x10, #10]
	stur	xzr, [x10, #2]
	str	xzr, [x10, #16]
.LBB15_66:
	strh	wzr, [x0]
	stp	x7, x8, [x0, #8]
	b	.LBB15_73
.LBB15_67:
	mov	w10, #1
	stur	wzr, [x9, #1]
	add	x8, x8, #3
	strb	w10, [x9]
	mov	x10, #4607182418800017408
	stp	x10, xzr, [x9, #8]
	mov	w10, #1029
	strh	w10, [x9, #24]
	mov	w10, #2821
	stur	wzr, [x9, #4]
	stur	xzr, [x9, #34]
	stur	xzr, [x9, #26]
	str	xzr, [x9, #40]
	strh	w10, [x9, #48]
	stur	xzr, [x9, #58]
	stur	xzr, [x9, #50]
	str	xzr, [x9, #64]
	b	.LBB15_66
.LBB15_68:
	fmov	d0, #2.00000000
	mov	w9, #24
	mov	w10, wzr
	madd	x11, x8, x9, x20
	mov	w9, wzr
	fcmp	d1, d0
	b.ne	.LBB15_70
	mov	w12, #773
	stur	xzr, [x11, #10]
	strh	w12, [x11]
	mov	w12, #2565
	stur	xzr, [x11, #2]
	b	.LBB15_71
.LBB15_70:
	mov	w12, #1
	stur	wzr, [x11, #1]
	strb	w12, [x11]
	mov	w12, #3077
	stur	wzr, [x11, #4]
	str	d2, [x11, #8]
.LBB15_71:
	str	xzr, [x11, #16]
	strh	w12, [x11, #24]
	add	x13, x8, #2
	mov	x12, x7
	stur	xzr, [x11, #34]
	stur	xzr, [x11, #26]
	str	xzr, [x11, #40]
.LBB15_72:
	strb	w10, [x0]
	strb	w9, [x0, #1]
	stp	x12, x13, [x0, #8]
.LBB15_73:
	ldp	x20, x19, [sp, #272]
	ldp	x22, x21, [sp, #256]
	ldp	x24, x23, [sp, #240]
	ldp	x26, x25, [sp, #224]
	ldp	x28, x27, [sp, #208]
	ldp	x29, x30, [sp, #192]
	ldp	d9, d8, [sp, #176]
	ldp	d11, d10, [sp, #160]
	ldp	d13, d12, [sp, #144]
	ldp	d15, d14, [sp, #128]
	add	sp, sp, #288
	ret
.Lfunc_end15:
	.size	"writing::write_term", .Lfunc_end15-"writing::write_term"

	.section	.rodata.cst8,"aM",@progbits,8
	.p2align	3, 0x0
.LCPI16_0:
	.byte	6
	.byte	3
	.byte	0
	.byte	0
	.zero	1
	.zero	1
	.zero	1
	.zero	1
.LCPI16_1:
	.byte	7
	.byte	0
	.byte	1
	.byte	0
	.zero	1
	.zero	1
	.zero	1
	.zero	1
	.section	".text.writing::faithful::write_term","ax",@progbits
	.p2align	2
	.type	"writing::faithful::write_term",@function
"writing::faithful::write_term":
	sub	sp, sp, #336
	stp	x29, x30, [sp, #240]
	add	x29, sp, #240
	ldr	d4, [x2, #24]
	stp	x22, x21, [sp, #304]
	mov	x22, x1
	ldrb	w1, [x2]
	ldp	x17, x18, [x29, #96]
	stp	d15, d14, [sp, #176]
	ldp	d2, d5, [x2, #8]
	cmp	w1, #1
	stp	d13, d12, [sp, #192]
	stp	d11, d10, [sp, #208]
	stp	d9, d8, [sp, #224]
	stp	x28, x27, [sp, #256]
	stp	x26, x25, [sp, #272]
	stp	x24, x23, [sp, #288]
	stp	x20, x19, [sp, #320]
	b.ne	.LBB16_6
	movi	d0, #0000000000000000
	fmov	d1, d2
	fcmp	d1, d0
	b.ne	.LBB16_39
	mov	w8, #24
	mov	x11, xzr
	madd	x10, x18, x8, x6
	mov	w8, #1
	strb	w8, [x10]
	mov	w8, #2565
	stur	xzr, [x10, #9]
	stur	xzr, [x10, #1]
	str	xzr, [x10, #16]
	strh	w8, [x10, #24]
	stur	xzr, [x10, #34]
	stur	xzr, [x10, #26]
	str	xzr, [x10, #40]
	cbz	w4, .LBB16_41
	fsub	d1, d5, d5
	mov	w8, #14
	mov	w9, #1
	fcmp	d1, d0
	b.ne	.LBB16_50
	fsub	d1, d4, d4
	mov	x12, x11
	fcmp	d1, d0
	b.ne	.LBB16_86
	mov	w9, #2
	b	.LBB16_44
.LBB16_6:
	add	x9, x18, x18, lsl #1
	ldrb	w8, [x2, #1]
	lsl	x30, x9, #3
	add	x13, x3, x8
	cmp	x3, x13
	add	x14, x6, x30
	b.hs	.LBB16_32
	sub	x8, x7, x30
	movi	d11, #0000000000000000
	mov	x9, #4372995238176751616
	str	x8, [sp, #104]
	sub	x8, x5, #1
	fmov	d12, #1.00000000
	stp	x14, x8, [sp, #88]
	mov	x8, #-4850376798678024192
	fmov	d14, x9
	fmov	d0, x8
	sub	x10, x29, #104
	mov	w19, wzr
	orr	x28, x10, #0x2
	mov	w8, #128
	mov	w9, #128
	str	w1, [sp, #20]
	stp	d2, d5, [sp, #24]
	str	d4, [sp, #40]
	stp	x18, x17, [sp, #48]
	str	x0, [sp, #64]
	str	d0, [sp, #72]
	str	x13, [sp, #80]
	b	.LBB16_10
.LBB16_8:
.LBB16_9:
	fcmp	d8, d11
	add	x3, x25, x20
	cset	w10, ne
	fcmp	d9, d11
	csinc	w10, w10, wzr, eq
	fcmp	d15, d12
	ccmp	w23, #1, #0, eq
	csel	w10, wzr, w10, ne
	cmp	x3, x13
	orr	w19, w19, w10
	b.hs	.LBB16_45
.LBB16_10:
	mov	w10, #24
	ldr	x11, [x22, #32]
	ldr	x12, [x22, #16]
	madd	x10, x3, x10, x11
	ldr	x11, [x22]
	add	x25, x3, #1
	ldrb	w20, [x12, x3]
	str	wzr, [x28]
	ldrb	w23, [x11, x3]
	strh	wzr, [x28, #4]
	sturb	w20, [x29, #-103]
	sturb	w23, [x29, #-104]
	ldp	d15, d10, [x10]
	ldr	d13, [x10, #16]
	stp	xzr, xzr, [sp, #112]
	fmov	d9, d13
	stur	d13, [x29, #-80]
	fmov	d8, d10
	stp	d15, d10, [x29, #-96]
	str	xzr, [sp, #128]
	fcmp	d8, d11
	fccmp	d9, d11, #0, eq
	b.eq	.LBB16_8
	cmp	x8, x9
	cset	w10, ne
	orr	w26, w19, w10
	tbz	w26, #0, .LBB16_14
	cmp	x8, x9
	b.eq	.LBB16_15
	mov	w10, #24
	adrp	x11, .LCPI16_0
	adrp	x13, .LCPI16_1
	madd	x10, x9, x10, x14
	ldr	d0, [x11, :lo12:.LCPI16_0]
	sub	w11, w8, w9
	add	w12, w11, #1
	sub	x9, x9, #2
	stur	s0, [x10, #-48]
	ldr	d0, [x13, :lo12:.LCPI16_1]
	stur	w12, [x10, #-44]
	stp	xzr, xzr, [x10, #-40]
	stur	s0, [x10, #-24]
	stur	w11, [x10, #-20]
	stp	xzr, xzr, [x10, #-16]
	b	.LBB16_16
.LBB16_14:
	mov	x9, x8
	b	.LBB16_16
.LBB16_15:
	mov	w9, #24
	add	x11, x8, #1
	madd	x10, x8, x9, x14
	mov	w9, #773
	strh	w9, [x10]
	mov	x9, x8
	mov	x8, x11
	stur	xzr, [x10, #10]
	stur	xzr, [x10, #2]
	str	xzr, [x10, #16]
.LBB16_16:
	ldp	x5, x7, [sp, #96]
	add	x0, sp, #112
	sub	x2, x29, #104
	mov	x24, x6
	add	x6, x6, x30
	mov	x1, x22
	mov	x3, x25
	stp	x9, x8, [sp]
	mov	x21, x30
	mov	w27, w4
	bl	"writing::faithful::write_term"
	ldrb	w8, [sp, #112]
	cbnz	w8, .LBB16_51
	fcmp	d15, d11
	ldp	x9, x8, [sp, #120]
	mov	x6, x24
	mov	x30, x21
	mov	w4, w27
	ccmp	w23, #1, #0, eq
	cset	w10, ne
	fcmp	d9, d11
	fccmp	d8, d12, #0, eq
	b.eq	.LBB16_23
	ldr	x14, [sp, #88]
	cbz	w10, .LBB16_29
	fsub	d0, d10, d10
	cbz	w4, .LBB16_24
	fcmp	d0, d11
	mov	w10, #14
	b.ne	.LBB16_52
	fsub	d0, d13, d13
	fcmp	d0, d11
	b.ne	.LBB16_52
	mov	w10, #2
	b	.LBB16_28
.LBB16_23:
	ldr	x14, [sp, #88]
	b	.LBB16_29
.LBB16_24:
	ldr	d1, [sp, #72]
	mov	w10, #14
	fcmp	d1, d9
	cset	w11, mi
	fcmp	d9, d14
	//APP
	//NO_APP
	cset	w12, mi
	fcmp	d0, d11
	//APP
	//NO_APP
	b.ne	.LBB16_52
	cbz	w11, .LBB16_52
	cbz	w12, .LBB16_52
	mov	w10, #1
.LBB16_28:
	mov	w11, #24
	cmp	w4, #0
	mov	w12, #2565
	madd	x11, x8, x11, x14
	add	x8, x8, #2
	strb	w10, [x11]
	fmov	x10, d13
	stur	wzr, [x11, #1]
	str	wzr, [x11, #4]
	csel	x10, x10, xzr, ne
	str	d10, [x11, #8]
	str	x10, [x11, #16]
	strh	w12, [x11, #24]
	stur	xzr, [x11, #34]
	stur	xzr, [x11, #26]
	str	xzr, [x11, #40]
.LBB16_29:
	tbz	w26, #0, .LBB16_31
	mov	w10, #24
	mov	w11, #2053
	madd	x10, x8, x10, x14
	add	x8, x8, #1
	strh	w11, [x10]
	stur	xzr, [x10, #10]
	stur	xzr, [x10, #2]
	str	xzr, [x10, #16]
.LBB16_31:
	ldr	x13, [sp, #80]
	b	.LBB16_9
.LBB16_32:
	add	x10, x14, #3072
	add	x8, x14, #3073
	mov	w9, #128
.LBB16_33:
	stp	xzr, xzr, [x8]
	mov	w11, #1
	stur	xzr, [x8, #15]
	mov	w8, #2565
	strh	w8, [x10, #24]
	add	x8, x9, #2
	strb	w11, [x10]
	str	xzr, [x10, #40]
	stur	xzr, [x10, #26]
	stur	xzr, [x10, #34]
.LBB16_34:
	sub	x10, x8, x9
	add	x11, x10, x10, lsl #1
	lsl	x12, x11, #3
	cbz	x12, .LBB16_62
	lsl	x11, x9, #3
	add	x13, x9, x9, lsl #1
	sub	x11, x11, x9, lsl #5
	lsl	x9, x13, #3
	cmp	x11, #32
	b.hs	.LBB16_48
	mov	x11, xzr
.LBB16_37:
	mov	w12, #24
	neg	x13, x11
	add	x11, x11, x30
	madd	x8, x8, x12, x13
	add	x11, x6, x11
	sub	x8, x8, x9
.LBB16_38:
	ldrb	w12, [x11, x9]
	subs	x8, x8, #1
	strb	w12, [x11], #1
	b.ne	.LBB16_38
	b	.LBB16_62
.LBB16_39:
	fmov	d0, #0.50000000
	fcmp	d1, d0
	b.ne	.LBB16_54
	mov	w10, #24
	mov	w11, #1797
	mov	w9, wzr
	madd	x10, x18, x10, x6
	mov	w8, wzr
	add	x12, x18, #1
	strh	w11, [x10]
	mov	x11, x17
	stur	xzr, [x10, #10]
	stur	xzr, [x10, #2]
	str	xzr, [x10, #16]
	b	.LBB16_86
.LBB16_41:
	mov	x8, #-4850376798678024192
	fmov	d2, d4
	fsub	d3, d5, d5
	fmov	d1, x8
	mov	x8, #4372995238176751616
	mov	w9, #1
	fcmp	d1, d2
	fmov	d1, x8
	mov	w8, #14
	cset	w12, mi
	fcmp	d2, d1
	//APP
	//NO_APP
	cset	w13, mi
	fcmp	d3, d0
	//APP
	//NO_APP
	b.ne	.LBB16_50
	cbz	w12, .LBB16_50
	mov	x12, x11
	cbz	w13, .LBB16_86
.LBB16_44:
	strb	w9, [x10, #48]
	fmov	x9, d4
	cmp	w4, #0
	mov	w8, wzr
	stur	wzr, [x10, #49]
	add	x12, x18, #4
	str	wzr, [x10, #52]
	mov	x11, x17
	csel	x9, x9, xzr, ne
	str	d5, [x10, #56]
	str	x9, [x10, #64]
	mov	w9, #2053
	strh	w9, [x10, #72]
	mov	w9, wzr
	stur	xzr, [x10, #82]
	stur	xzr, [x10, #74]
	str	xzr, [x10, #88]
	b	.LBB16_86
.LBB16_45:
	cmp	x9, x8
	b.ne	.LBB16_53
	mov	w8, #24
	ldp	d5, d4, [sp, #32]
	madd	x10, x9, x8, x14
	ldr	d2, [sp, #24]
	tbz	w19, #0, .LBB16_80
	ldp	x17, x0, [sp, #56]
	mov	w8, #261
	ldr	x18, [sp, #48]
	ldr	w1, [sp, #20]
	stur	xzr, [x10, #10]
	strh	w8, [x10]
	add	x8, x9, #1
	stur	xzr, [x10, #2]
	str	xzr, [x10, #16]
	b	.LBB16_34
.LBB16_48:
	cmp	x12, #32
	b.hs	.LBB16_56
	mov	x11, xzr
	b	.LBB16_60
.LBB16_50:
	mov	x12, x11
	b	.LBB16_86
.LBB16_51:
	ldrb	w10, [sp, #113]
.LBB16_52:
	ldr	x9, [sp, #64]
	mov	w8, #1
	strb	w10, [x9, #1]
	strb	w8, [x9]
	stp	xzr, xzr, [x9, #8]
	b	.LBB16_87
.LBB16_53:
	ldp	x17, x0, [sp, #56]
	ldr	x18, [sp, #48]
	ldp	d5, d4, [sp, #32]
	ldr	d2, [sp, #24]
	ldr	w1, [sp, #20]
	b	.LBB16_34
.LBB16_54:
	fmov	d0, #1.00000000
	fcmp	d1, d0
	b.ne	.LBB16_82
	mov	w9, wzr
	mov	w8, wzr
	mov	x11, x17
	mov	x12, x18
	b	.LBB16_86
.LBB16_56:
	add	x15, x30, x6
	add	x14, x14, x9
	and	x13, x12, #0x18
	and	x11, x12, #0xffffffffffffffe0
	add	x15, x15, #16
	and	x16, x12, #0xffffffffffffffe0
.LBB16_57:
	ldp	q0, q1, [x14], #32
	subs	x16, x16, #32
	stp	q0, q1, [x15, #-16]
	add	x15, x15, #32
	b.ne	.LBB16_57
	cmp	x12, x11
	b.eq	.LBB16_62
	cbz	x13, .LBB16_37
.LBB16_60:
	mov	w12, #24
	neg	x13, x11
	add	x11, x11, x30
	madd	x8, x8, x12, x13
	add	x11, x6, x11
	sub	x8, x8, x9
.LBB16_61:
	ldr	d0, [x11, x9]
	subs	x8, x8, #8
	str	d0, [x11], #8
	b.ne	.LBB16_61
.LBB16_62:
	cmp	w1, #4
	add	x8, x10, x18
	b.gt	.LBB16_67
	cmp	w1, #2
	b.eq	.LBB16_71
	cmp	w1, #3
	b.eq	.LBB16_76
	cmp	w1, #4
	b.ne	.LBB16_75
	mov	w9, #13
	b	.LBB16_78
.LBB16_67:
	cmp	w1, #5
	b.eq	.LBB16_74
	cmp	w1, #6
	b.eq	.LBB16_77
	cmp	w1, #7
	b.ne	.LBB16_75
	mov	w9, #19
	b	.LBB16_78
.LBB16_71:
	fmov	d0, #1.00000000
	mov	w9, #24
	madd	x9, x8, x9, x6
	fcmp	d5, d0
	b.ne	.LBB16_81
	movi	d0, #0000000000000000
	fcmp	d4, d0
	b.ne	.LBB16_81
	mov	w10, #4101
	stur	xzr, [x9, #10]
	add	x8, x8, #1
	strh	w10, [x9]
	stur	xzr, [x9, #2]
	str	xzr, [x9, #16]
	b	.LBB16_79
.LBB16_74:
	mov	w9, #14
	b	.LBB16_78
.LBB16_75:
	mov	w9, #20
	b	.LBB16_78
.LBB16_76:
	mov	w9, #24
	mov	w10, #1
	madd	x9, x8, x9, x6
	add	x8, x8, #2
	strb	w10, [x9]
	mov	w10, #8709
	stur	wzr, [x9, #1]
	str	wzr, [x9, #4]
	str	d2, [x9, #8]
	str	xzr, [x9, #16]
	strh	w10, [x9, #24]
	stur	xzr, [x9, #34]
	stur	xzr, [x9, #26]
	str	xzr, [x9, #40]
	b	.LBB16_79
.LBB16_77:
	mov	w9, #15
.LBB16_78:
	mov	w10, #24
	mov	w11, #5
	madd	x10, x8, x10, x6
	add	x8, x8, #1
	strb	w11, [x10]
	strb	w9, [x10, #1]
	stur	xzr, [x10, #10]
	stur	xzr, [x10, #2]
	str	xzr, [x10, #16]
.LBB16_79:
	strh	wzr, [x0]
	stp	x17, x8, [x0, #8]
	b	.LBB16_87
.LBB16_80:
	ldp	x17, x0, [sp, #56]
	add	x8, x10, #1
	ldr	x18, [sp, #48]
	ldr	w1, [sp, #20]
	b	.LBB16_33
.LBB16_81:
	mov	w10, #1
	stur	wzr, [x9, #1]
	add	x8, x8, #3
	strb	w10, [x9]
	mov	x10, #4607182418800017408
	stp	x10, xzr, [x9, #8]
	mov	w10, #1029
	strh	w10, [x9, #24]
	mov	w10, #2821
	stur	wzr, [x9, #4]
	stur	xzr, [x9, #34]
	stur	xzr, [x9, #26]
	str	xzr, [x9, #40]
	strh	w10, [x9, #48]
	stur	xzr, [x9, #58]
	stur	xzr, [x9, #50]
	str	xzr, [x9, #64]
	b	.LBB16_79
.LBB16_82:
	fmov	d0, #2.00000000
	mov	w8, #24
	mov	w9, wzr
	madd	x10, x18, x8, x6
	mov	w8, wzr
	fcmp	d1, d0
	b.ne	.LBB16_84
	mov	w11, #773
	stur	xzr, [x10, #10]
	strh	w11, [x10]
	mov	w11, #2565
	stur	xzr, [x10, #2]
	b	.LBB16_85
.LBB16_84:
	mov	w11, #1
	stur	wzr, [x10, #1]
	strb	w11, [x10]
	mov	w11, #3077
	stur	wzr, [x10, #4]
	str	d2, [x10, #8]
.LBB16_85:
	str	xzr, [x10, #16]
	strh	w11, [x10, #24]
	add	x12, x18, #2
	mov	x11, x17
	stur	xzr, [x10, #34]
	stur	xzr, [x10, #26]
	str	xzr, [x10, #40]
.LBB16_86:
	strb	w9, [x0]
	strb	w8, [x0, #1]
	stp	x11, x12, [x0, #8]
.LBB16_87:
	ldp	x20, x19, [sp, #320]
	ldp	x22, x21, [sp, #304]
	ldp	x24, x23, [sp, #288]
	ldp	x26, x25, [sp, #272]
	ldp	x28, x27, [sp, #256]
	ldp	x29, x30, [sp, #240]
	ldp	d9, d8, [sp, #224]
	ldp	d11, d10, [sp, #208]
	ldp	d13, d12, [sp, #192]
	ldp	d15, d14, [sp, #176]
	add	sp, sp, #336
	ret
.Lfunc_end16:
	.size	"writing::faithful::write_term", .Lfunc_end16-"writing::faithful::write_term"

	.section	".text.sums::good::good_sum","ax",@progbits
	.p2align	2
	.type	"sums::good::good_sum",@function
"sums::good::good_sum":
	cbz	x3, .LBB17_12
	sub	sp, sp, #208
	stp	x24, x23, [sp, #160]
	add	x23, x2, x1
	stp	x28, x27, [sp, #128]
	mov	x27, x1
	cmp	x1, x23
	stp	x29, x30, [sp, #112]
	add	x29, sp, #112
	stp	x26, x25, [sp, #144]
	stp	x22, x21, [sp, #176]
	stp	x20, x19, [sp, #192]
	b.hs	.LBB17_10
	ldr	x8, [x0, #32]
	add	x9, sp, #48
	mov	x19, x0
	mov	x21, x27
	str	x8, [sp, #40]
	ldr	x8, [x0, #16]
	str	x8, [sp, #32]
	sub	x8, x3, #1
	str	x8, [sp, #16]
	ldr	x8, [x0]
	str	x8, [sp, #24]
	sub	x8, x29, #32
	orr	x8, x8, #0x2
	str	x8, [sp, #8]
	orr	x8, x9, #0x2
	str	x8, [sp]
	b	.LBB17_4
.LBB17_3:
	add	x8, x26, x22
	mov	x27, x21
	cmp	x8, x23
	mov	x21, x8
	b.hs	.LBB17_10
.LBB17_4:
	mov	w8, #24
	ldr	x9, [sp, #40]
	mvn	x12, x21
	madd	x10, x21, x8, x9
	ldr	x8, [sp, #32]
	add	x13, x23, x12
	mov	w0, wzr
	ldrb	w22, [x8, x21]
	ldr	x8, [sp, #24]
	ldrb	w24, [x8, x21]
	cmp	x22, #0
	ldr	x28, [x10]
	cset	w9, ne
	subs	w8, w24, #1
	cset	w11, eq
	cmp	x28, #0
	ccmp	w24, #3, #4, ne
	csinc	w12, w11, wzr, ne
	cmp	x13, x22
	b.lo	.LBB17_11
	ldp	x25, x20, [x10, #8]
	and	x10, x28, #0x7ff0000000000000
	mov	x13, #9218868437227405312
	eor	w9, w9, w11
	cmp	x10, x13
	and	x14, x25, #0x7ff0000000000000
	and	x10, x20, #0x7ff0000000000000
	ccmp	x14, x13, #4, ne
	ccmp	x10, x13, #4, ne
	ccmp	w9, #0, #4, ne
	ccmp	w8, #7, #2, ne
	ccmp	w12, #0, #4, ls
	b.eq	.LBB17_11
	ldr	x3, [sp, #16]
	add	x1, x21, #1
	mov	x0, x19
	mov	x2, x22
	add	x26, x21, #1
	bl	"sums::good::good_sum"
	cbz	w0, .LBB17_11
	cmp	x21, x27
	b.ls	.LBB17_3
	mov	w8, #24
	ldp	x11, x10, [sp]
	ldr	x9, [sp, #40]
	madd	x8, x27, x8, x9
	ldr	x5, [sp, #16]
	sub	x1, x29, #32
	add	x2, x27, #1
	add	x3, sp, #48
	str	wzr, [x10]
	add	x4, x21, #1
	mov	x0, x19
	strh	wzr, [x10, #4]
	ldp	x9, x10, [sp, #24]
	strb	w24, [sp, #48]
	ldr	q0, [x8]
	ldr	d1, [x8, #16]
	strb	w22, [sp, #49]
	ldrb	w9, [x9, x27]
	ldrb	w10, [x10, x27]
	str	wzr, [x11]
	stur	q0, [x29, #-24]
	sturb	w9, [x29, #-32]
	sturb	w10, [x29, #-31]
	stur	d1, [x29, #-8]
	strh	wzr, [x11, #4]
	stp	x28, x25, [sp, #56]
	str	x20, [sp, #72]
	bl	"sums::order::cmp_term"
	tst	w0, #0xff
	b.eq	.LBB17_3
	mov	w0, wzr
	b	.LBB17_11
.LBB17_10:
	mov	w0, #1
.LBB17_11:
	ldp	x20, x19, [sp, #192]
	ldp	x22, x21, [sp, #176]
	ldp	x24, x23, [sp, #160]
	ldp	x26, x25, [sp, #144]
	ldp	x28, x27, [sp, #128]
	ldp	x29, x30, [sp, #112]
	add	sp, sp, #208
	ret
.LBB17_12:
	cmp	x2, #0
	cset	w0, eq
	ret
.Lfunc_end17:
	.size	"sums::good::good_sum", .Lfunc_end17-"sums::good::good_sum"

	.section	.rodata.cst16,"aM",@progbits,16
	.p2align	4, 0x0
.LCPI18_0:
	.xword	1
	.xword	7
.LCPI18_1:
	.xword	1
	.xword	11
.LCPI18_2:
	.xword	1
	.xword	0
	.section	".text.running::run::walk","ax",@progbits
	.p2align	2
	.type	"running::run::walk",@function
"running::run::walk":
	sub	sp, sp, #272
	ldp	x11, x9, [x5]
	cmp	x2, x3
	ldr	x8, [x5, #16]
	stp	x20, x19, [sp, #256]
	mov	x19, x0
	stp	d13, d12, [sp, #128]
	lsr	x10, x11, #8
	and	x11, x11, #0xff
	stp	d11, d10, [sp, #144]
	stp	d9, d8, [sp, #160]
	stp	x29, x30, [sp, #176]
	add	x29, sp, #176
	stp	x28, x27, [sp, #192]
	stp	x26, x25, [sp, #208]
	stp	x24, x23, [sp, #224]
	stp	x22, x21, [sp, #240]
	b.hs	.LBB18_98
	movi	d8, #0000000000000000
	mov	x12, #-4382002437431492608
	mov	x13, #4841369599423283200
	mov	x14, #4634204016564240384
	fmov	d9, #1.00000000
	fmov	d10, x12
	fmov	d11, x13
	fmov	d12, x14
	mov	x21, x6
	mov	x22, x4
	mov	x23, x3
	mov	x20, x2
	mov	x24, x1
	sub	x25, x7, #1
	add	x27, x6, #1
	sub	x26, x7, #2
.LBB18_2:
	mov	w12, #24
	madd	x14, x20, x12, x24
	ldrb	w13, [x14]
	ldrb	w12, [x14, #1]
	and	w15, w13, #0xfffffffb
	cmp	w15, #1
	b.ne	.LBB18_7
	orr	x10, x11, x10, lsl #8
	cmp	w13, #1
	b.ne	.LBB18_13
	ldr	x11, [x14, #8]
	mov	x12, #9218868437227405312
	bics	xzr, x12, x11
	b.eq	.LBB18_100
	fmov	d0, x11
	fsub	d0, d0, d0
	fcmp	d0, d8
	b.ne	.LBB18_100
	str	x11, [x22, x10, lsl #3]
	add	x13, x10, #1
	b	.LBB18_67
.LBB18_7:
	movi	v0.2d, #0000000000000000
	sub	w15, w13, #1
	ldr	w28, [x14, #4]
	cmp	w15, #12
	stp	q0, q0, [sp]
	b.hi	.LBB18_99
	orr	x10, x11, x10, lsl #8
	cmp	w13, #6
	b.le	.LBB18_16
	sub	w11, w13, #7
	cmp	w11, #2
	b.hs	.LBB18_99
	add	x9, x9, #1
	mov	x0, sp
	add	x2, x20, #1
	stp	x10, x9, [sp, #40]
	add	x9, x20, #1
	add	x5, sp, #40
	add	x3, x9, x28
	mov	x1, x24
	mov	x4, x22
	mov	x6, x21
	mov	x7, x25
	str	x8, [sp, #56]
	bl	"running::run::walk"
	ldrb	w8, [sp, #15]
	ldurh	w9, [sp, #13]
	ldrb	w12, [sp]
	ldrb	w11, [sp, #8]
	orr	w8, w9, w8, lsl #16
	ldur	w9, [sp, #9]
	orr	x10, x9, x8, lsl #32
	ldp	x9, x8, [sp, #16]
.LBB18_11:
	cbnz	w12, .LBB18_105
	add	x12, x20, x28
	add	x20, x12, #1
	cmp	x20, x23
	b.lo	.LBB18_2
	b	.LBB18_98
.LBB18_13:
	sub	w11, w12, #1
	mov	w12, #1
	cmp	w11, #38
	b.hi	.LBB18_110
	adrp	x13, .LJTI18_0
	add	x13, x13, :lo12:.LJTI18_0
.Ltmp1:
	adr	x14, .Ltmp1
	ldrsw	x15, [x13, x11, lsl #2]
	add	x14, x14, x15
	br	x14
.LBB18_15:
	mov	w12, wzr
	b	.LBB18_36
.LBB18_16:
	cmp	w13, #4
	b.le	.LBB18_102
	cmp	w13, #6
	b.ne	.LBB18_114
	cmp	w12, #3
	b.ne	.LBB18_24
	add	x11, x20, #1
	add	x3, x11, x28
	cmp	x11, x3
	b.hs	.LBB18_23
	mov	w12, #1
.LBB18_21:
	mov	w13, #24
	sub	x12, x12, #1
	madd	x13, x11, x13, x24
	ldr	w13, [x13, #4]
	add	x11, x11, x13
	add	x11, x11, #1
	cmp	x11, x3
	b.lo	.LBB18_21
	cbz	x12, .LBB18_69
.LBB18_23:
	adrp	x9, .LCPI18_0
	mov	x8, xzr
	mov	x10, xzr
	ldr	q0, [x9, :lo12:.LCPI18_0]
	str	x20, [sp, #16]
	mov	w12, #1
	mov	w11, #7
	mov	x9, x20
	str	q0, [sp]
	b	.LBB18_11
.LBB18_24:
	mov	w11, #1
	mov	x8, xzr
	mov	x10, xzr
	dup	v0.2d, x11
	str	x20, [sp, #16]
	mov	x9, x20
	mov	w12, #1
	str	q0, [sp]
	b	.LBB18_11
.LBB18_25:
	mov	w12, #6
	b	.LBB18_36
.LBB18_26:
	cmp	x10, #2
	b.lo	.LBB18_109
	add	x11, x22, x10, lsl #3
	fmov	d0, #1.00000000
	ldur	d1, [x11, #-8]
	fmov	d2, d1
	fcmp	d2, d8
	b.ne	.LBB18_73
.LBB18_28:
	fsub	d1, d0, d0
	fcmp	d1, d8
	b.eq	.LBB18_61
	b	.LBB18_100
.LBB18_29:
	mov	w12, #5
	b	.LBB18_36
.LBB18_30:
	cmp	x10, #2
	b.lo	.LBB18_109
	add	x11, x22, x10, lsl #3
	ldur	q0, [x11, #-16]
	ext	v0.16b, v0.16b, v0.16b, #8
	stur	q0, [x11, #-16]
	b	.LBB18_66
.LBB18_32:
	mov	w12, #4
	b	.LBB18_36
.LBB18_33:
	cmp	x10, #2
	b.lo	.LBB18_109
	add	x11, x22, x10, lsl #3
	ldur	d0, [x11, #-16]
	b	.LBB18_52
.LBB18_35:
	mov	w12, #3
.LBB18_36:
	cbz	x10, .LBB18_109
	sub	x13, x10, #1
	cmp	w12, #2
	add	x11, x22, x13, lsl #3
	ldr	d0, [x11]
	b.le	.LBB18_41
	cmp	w12, #4
	b.gt	.LBB18_44
	cmp	w12, #3
	b.ne	.LBB18_62
	fneg	d0, d0
	fsub	d1, d0, d0
	fcmp	d1, d8
	b.eq	.LBB18_65
	b	.LBB18_100
.LBB18_41:
	cbz	w12, .LBB18_64
	cmp	w12, #1
	b.eq	.LBB18_67
	str	d0, [x11, #8]
	add	x13, x10, #1
	b	.LBB18_67
.LBB18_44:
	cmp	w12, #5
	b.ne	.LBB18_63
	fmov	d1, d0
	fcmp	d1, d8
	cset	w12, mi
	//APP
	//NO_APP
	cbnz	w12, .LBB18_108
	fcmp	d1, d8
	b.eq	.LBB18_64
	fsub	d1, d0, d0
	fcmp	d1, d8
	b.ne	.LBB18_64
	fmov	x13, d0
	lsr	x12, x13, #52
	and	x13, x13, #0xfffffffffffff
	cbz	x12, .LBB18_79
	orr	x13, x13, #0x10000000000000
	add	x12, x12, #1073
	b	.LBB18_81
.LBB18_50:
	cbz	x10, .LBB18_109
	add	x11, x22, x10, lsl #3
	ldur	d0, [x11, #-8]
.LBB18_52:
	str	d0, [x11]
	add	x13, x10, #1
	b	.LBB18_67
.LBB18_53:
	cmp	x10, #2
	b.lo	.LBB18_109
	add	x11, x22, x10, lsl #3
	ldp	d1, d0, [x11, #-16]
	fmul	d0, d0, d1
	fsub	d1, d0, d0
	fcmp	d1, d8
	b.eq	.LBB18_61
	b	.LBB18_100
.LBB18_55:
	cmp	x10, #2
	b.lo	.LBB18_109
	add	x11, x22, x10, lsl #3
	ldp	d1, d0, [x11, #-16]
	fadd	d0, d0, d1
	fsub	d1, d0, d0
	fcmp	d1, d8
	b.eq	.LBB18_61
	b	.LBB18_100
.LBB18_57:
	cmp	x10, #2
	b.lo	.LBB18_109
	add	x11, x22, x10, lsl #3
	ldp	d1, d0, [x11, #-16]
	fsub	d0, d1, d0
	fsub	d1, d0, d0
	fcmp	d1, d8
	b.eq	.LBB18_61
	b	.LBB18_100
.LBB18_59:
	cmp	x10, #2
	b.lo	.LBB18_109
	add	x11, x22, x10, lsl #3
	ldp	d1, d0, [x11, #-16]
	fdiv	d0, d1, d0
	fsub	d1, d0, d0
	fcmp	d1, d8
	b.ne	.LBB18_100
.LBB18_61:
	stur	d0, [x11, #-16]
	sub	x13, x10, #1
	b	.LBB18_67
.LBB18_62:
	fmov	d1, #1.00000000
	fsub	d0, d1, d0
	fsub	d1, d0, d0
	fcmp	d1, d8
	b.eq	.LBB18_65
	b	.LBB18_100
.LBB18_63:
	fmov	d1, #1.00000000
	fdiv	d0, d1, d0
.LBB18_64:
	fsub	d1, d0, d0
	fcmp	d1, d8
	b.ne	.LBB18_100
.LBB18_65:
	str	d0, [x11]
.LBB18_66:
	mov	x13, x10
.LBB18_67:
	add	x11, x13, x21
	cmp	x11, #256
	b.hi	.LBB18_101
	cmp	x11, x8
	lsr	x10, x13, #8
	add	x9, x9, #1
	csel	x8, x11, x8, hi
	and	x11, x13, #0xff
	add	x20, x20, #1
	cmp	x20, x23
	b.lo	.LBB18_2
	b	.LBB18_98
.LBB18_69:
	cbz	x10, .LBB18_75
	add	x11, x10, x27
	cmp	x11, #256
	b.hi	.LBB18_76
	cmp	x11, x8
	add	x12, x9, #1
	add	x9, x9, #2
	csel	x8, x11, x8, hi
	add	x11, x22, x10, lsl #3
	add	x0, sp, #64
	add	x2, x20, #2
	sub	x5, x29, #80
	add	x6, x21, #1
	ldur	d13, [x11, #-8]
	mov	x1, x24
	mov	x4, x22
	mov	x7, x26
	stp	xzr, x10, [sp, #64]
	stp	x12, x8, [sp, #80]
	stp	x10, x9, [x29, #-80]
	stur	x8, [x29, #-64]
	bl	"running::run::walk"
	ldp	x11, x9, [sp, #72]
	ldrb	w8, [sp, #64]
	cbz	w8, .LBB18_86
	mov	x8, xzr
	mov	x10, xzr
	mov	w12, #1
	and	x11, x11, #0xff
	stp	x12, x11, [sp]
	b	.LBB18_11
.LBB18_73:
	fcmp	d2, d10
	cset	w12, ls
	fcmp	d11, d2
	//APP
	//NO_APP
	cset	w13, ls
	//APP
	//NO_APP
	orr	w12, w12, w13
	cbz	w12, .LBB18_77
	fsub	d3, d1, d1
	fcmp	d3, d8
	b	.LBB18_89
.LBB18_75:
	adrp	x9, .LCPI18_2
	mov	x8, xzr
	mov	x11, xzr
	ldr	q0, [x9, :lo12:.LCPI18_2]
	mov	w12, #1
	mov	x9, x20
	str	q0, [sp]
	b	.LBB18_11
.LBB18_76:
	adrp	x9, .LCPI18_1
	mov	x8, xzr
	mov	x10, xzr
	ldr	q0, [x9, :lo12:.LCPI18_1]
	str	x20, [sp, #80]
	mov	w12, #1
	str	x20, [sp, #16]
	mov	w11, #11
	mov	x9, x20
	str	q0, [sp, #64]
	str	q0, [sp]
	b	.LBB18_11
.LBB18_77:
	fcmp	d2, d8
	cset	w12, mi
	//APP
	//NO_APP
	cbz	w12, .LBB18_87
	mov	x12, #-4382002437431492608
	fmov	d3, x12
	mov	x12, #4841369599423283200
	b	.LBB18_88
.LBB18_79:
	mov	w12, #1074
.LBB18_80:
	lsr	x14, x13, #51
	lsl	x13, x13, #1
	sub	x12, x12, #1
	cbz	x14, .LBB18_80
.LBB18_81:
	and	x15, x12, #0x1
	mov	x16, #4602678819172646912
	mov	x17, #4602678819172646911
	lsl	x14, x15, #52
	add	x16, x13, x16
	add	x17, x13, x17
	fmov	d0, #0.50000000
	fmov	d5, #1.50000000
	madd	x13, x13, x15, x13
	add	x16, x14, x16
	eor	x18, x14, x17
	orr	x14, x14, x17
	fmov	d1, x16
	lsr	x16, x18, #1
	mov	x17, #4503599627370495
	sub	x14, x16, x14
	mov	x16, #14249
	movk	x16, #51125, lsl #16
	fmul	d2, d1, d0
	movk	x16, #60240, lsl #32
	movk	x16, #24550, lsl #48
	add	x14, x14, x16
	fmov	d3, x14
	fmul	d4, d2, d3
	fmul	d4, d4, d3
	fsub	d4, d5, d4
	fmul	d3, d4, d3
	fmul	d4, d2, d3
	fmul	d4, d3, d4
	fsub	d4, d5, d4
	fmul	d3, d3, d4
	fmul	d2, d2, d3
	fmul	d2, d3, d2
	fsub	d2, d5, d2
	fmul	d2, d3, d2
	fmul	d3, d2, d1
	fmul	d0, d2, d0
	fmul	d4, d3, d3
	fsub	d1, d1, d4
	fmul	d0, d0, d1
	fadd	d0, d3, d0
	fmov	d1, d0
	fmov	x14, d0
	and	x14, x14, #0xfffffffffffff
	fcmp	d9, d1
	add	x14, x14, x17
	cset	w16, hi
	//APP
	//NO_APP
	cmp	w16, #0
	csel	x14, x17, x14, ne
	lsr	x15, x14, #27
	umull	x16, w15, w15
	subs	x16, x13, x16, lsl #2
	csel	x16, xzr, x16, lo
	lsr	x17, x16, #36
	ccmp	x17, #0, #0, hs
	b.ne	.LBB18_83
	and	x17, x14, #0x7ffffff
	lsl	x16, x16, #25
	umull	x15, w17, w15
	subs	x15, x16, x15, lsl #1
	csel	x16, xzr, x15, lo
	umull	x15, w17, w17
	lsr	x18, x16, #36
	lsl	x16, x16, #27
	ccmp	x18, #0, #0, hs
	ccmp	x16, x15, #0, eq
	b.hs	.LBB18_97
.LBB18_83:
	mov	x15, xzr
	mov	x14, xzr
	mov	w16, #53
.LBB18_84:
	lsr	x17, x13, #52
	lsl	x18, x14, #2
	mov	w0, #1
	ubfiz	x13, x13, #2, #52
	add	x15, x17, x15, lsl #2
	lsl	x17, x14, #1
	orr	x14, x0, x14, lsl #1
	mvn	x0, x18
	cmp	x18, x15
	add	x18, x15, x0
	csel	x14, x17, x14, hs
	csel	x15, x15, x18, hs
	subs	x16, x16, #1
	b.ne	.LBB18_84
.LBB18_85:
	lsr	x12, x12, #1
	cmp	x14, x15
	mov	x13, #-117093590311632896
	add	x12, x14, x12, lsl #52
	cinc	x12, x12, lo
	add	x12, x12, x13
	fmov	d0, x12
	fsub	d1, d0, d0
	fcmp	d1, d8
	b.eq	.LBB18_65
	b	.LBB18_100
.LBB18_86:
	add	x13, x11, #1
	ldr	x8, [sp, #88]
	mov	w12, wzr
	str	d13, [x22, x11, lsl #3]
	lsr	x10, x13, #8
	and	x11, x13, #0xff
	stp	xzr, x13, [sp]
	b	.LBB18_11
.LBB18_87:
	mov	x12, #4841369599423283200
	fmov	d3, x12
	mov	x12, #-4382002437431492608
.LBB18_88:
	fadd	d3, d1, d3
	fmov	d4, x12
	fadd	d3, d3, d4
	fcmp	d3, d2
.LBB18_89:
	cset	w13, eq
	fcmp	d8, d2
	fcvtzu	x14, d1
	mov	w12, #13
	//APP
	//NO_APP
	cset	w15, mi
	fcmp	d2, d12
	//APP
	//NO_APP
	cset	w16, ls
	//APP
	//NO_APP
	cbz	w16, .LBB18_110
	cbz	w15, .LBB18_110
	cbz	w13, .LBB18_110
	cbz	x14, .LBB18_28
	ldur	d1, [x11, #-16]
	subs	x12, x14, #1
	b.ne	.LBB18_95
	fmov	d0, d1
	b	.LBB18_28
.LBB18_95:
	fmov	d0, d1
.LBB18_96:
	fmul	d0, d1, d0
	subs	x12, x12, #1
	b.ne	.LBB18_96
	b	.LBB18_28
.LBB18_97:
	lsl	x17, x14, #1
	sub	x15, x16, x15
	cmp	x17, x15
	cinc	x14, x14, lo
	csinv	x16, xzr, x17, hs
	lsl	x17, x14, #1
	add	x15, x16, x15
	cmp	x17, x15
	csinv	x16, xzr, x17, hs
	cinc	x14, x14, lo
	add	x15, x16, x15
	cmp	x15, x14, lsl #1
	b.hi	.LBB18_83
	b	.LBB18_85
.LBB18_98:
	orr	x10, x11, x10, lsl #8
	stp	x9, x8, [x19, #16]
	stp	xzr, x10, [x19]
	b	.LBB18_112
.LBB18_99:
	mov	w11, #1
	b	.LBB18_107
.LBB18_100:
	mov	w12, #14
	b	.LBB18_110
.LBB18_101:
	mov	w12, #11
	b	.LBB18_110
.LBB18_102:
	cmp	w13, #2
	b.eq	.LBB18_106
	cmp	w13, #3
	b.ne	.LBB18_106
	mov	w11, #4
	b	.LBB18_107
.LBB18_105:
	mov	x20, x9
	b	.LBB18_107
.LBB18_106:
	mov	w11, #5
.LBB18_107:
	mov	w8, #1
	stp	x8, x11, [x19]
	b	.LBB18_111
.LBB18_108:
	mov	w12, #13
	b	.LBB18_110
.LBB18_109:
	mov	x12, xzr
.LBB18_110:
	mov	w8, #1
	stp	x8, x12, [x19]
.LBB18_111:
	stp	x20, xzr, [x19, #16]
.LBB18_112:
	ldp	x20, x19, [sp, #256]
	ldp	x22, x21, [sp, #240]
	ldp	x24, x23, [sp, #224]
	ldp	x26, x25, [sp, #208]
	ldp	x28, x27, [sp, #192]
	ldp	x29, x30, [sp, #176]
	ldp	d9, d8, [sp, #160]
	ldp	d11, d10, [sp, #144]
	ldp	d13, d12, [sp, #128]
	add	sp, sp, #272
	ret
.LBB18_113:
	mov	w12, #5
	b	.LBB18_110
.LBB18_114:
	brk	#0x1
.Lfunc_end18:
	.size	"running::run::walk", .Lfunc_end18-"running::run::walk"
	.section	".rodata.running::run::walk","a",@progbits
	.p2align	2, 0x0
.LJTI18_0:
	.word	.LBB18_15-.Ltmp1
	.word	.LBB18_36-.Ltmp1
	.word	.LBB18_50-.Ltmp1
	.word	.LBB18_30-.Ltmp1
	.word	.LBB18_35-.Ltmp1
	.word	.LBB18_32-.Ltmp1
	.word	.LBB18_29-.Ltmp1
	.word	.LBB18_55-.Ltmp1
	.word	.LBB18_57-.Ltmp1
	.word	.LBB18_53-.Ltmp1
	.word	.LBB18_59-.Ltmp1
	.word	.LBB18_26-.Ltmp1
	.word	.LBB18_108-.Ltmp1
	.word	.LBB18_108-.Ltmp1
	.word	.LBB18_108-.Ltmp1
	.word	.LBB18_25-.Ltmp1
	.word	.LBB18_113-.Ltmp1
	.word	.LBB18_108-.Ltmp1
	.word	.LBB18_108-.Ltmp1
	.word	.LBB18_108-.Ltmp1
	.word	.LBB18_110-.Ltmp1
	.word	.LBB18_110-.Ltmp1
	.word	.LBB18_110-.Ltmp1
	.word	.LBB18_110-.Ltmp1
	.word	.LBB18_110-.Ltmp1
	.word	.LBB18_110-.Ltmp1
	.word	.LBB18_110-.Ltmp1
	.word	.LBB18_110-.Ltmp1
	.word	.LBB18_110-.Ltmp1
	.word	.LBB18_110-.Ltmp1
	.word	.LBB18_110-.Ltmp1
	.word	.LBB18_108-.Ltmp1
	.word	.LBB18_108-.Ltmp1
	.word	.LBB18_108-.Ltmp1
	.word	.LBB18_108-.Ltmp1
	.word	.LBB18_108-.Ltmp1
	.word	.LBB18_108-.Ltmp1
	.word	.LBB18_33-.Ltmp1
	.word	.LBB18_108-.Ltmp1

	.section	.text.uplink_cost,"ax",@progbits
	.globl	uplink_cost
	.p2align	2
	.type	uplink_cost,@function
uplink_cost:
	sub	sp, sp, #416
	cmp	x0, #0
	mov	w10, #4096
	mov	w11, #49175
	stp	x28, x19, [sp, #400]
	mov	x19, x2
	mov	x9, xzr
	csel	x13, x10, xzr, eq
	cmp	x1, x11
	mov	w10, #11
	stp	x29, x30, [sp, #384]
	add	x29, sp, #384
	b.hi	.LBB19_9
	mov	x11, #-6148914691236517206
	mov	w12, #24
	movk	x11, #43691
	umulh	x11, x1, x11
	lsr	x11, x11, #4
	msub	x12, x11, x12, x1
	cbnz	x12, .LBB19_9
	mov	x8, x0
	cmp	x1, #24
	add	x0, x0, x13
	mov	x2, x11
	b.lo	.LBB19_8
	add	x10, x13, x8
	mov	x9, xzr
	add	x10, x10, #16
.LBB19_4:
	ldp	x12, x14, [x10, #-16]
	and	x15, x12, #0xffffffffffff00ff
	cmp	x15, #5
	ldr	x15, [x10], #24
	ccmp	x14, #0, #0, eq
	ccmp	x12, #1, #4, ne
	cset	w12, eq
	cbnz	x15, .LBB19_7
	cbz	w12, .LBB19_7
	add	x9, x9, #1
	cmp	x11, x9
	b.ne	.LBB19_4
	b	.LBB19_8
.LBB19_7:
	cmp	x11, x9
	b.ne	.LBB19_10
.LBB19_8:
	mov	x1, xzr
	mov	w3, #129
	bl	"reading::cost::stretch_steps"
	mov	x9, x0
	mov	x10, xzr
.LBB19_9:
	stp	xzr, x9, [x19]
	ldp	x28, x19, [sp, #400]
	ldp	x29, x30, [sp, #384]
	mov	x0, x10
	add	sp, sp, #416
	ret
.LBB19_10:
	movi	v0.2d, #0000000000000000
	add	x8, x13, x8
	mov	w12, wzr
	mov	x10, xzr
	add	x8, x8, #8
	mov	x16, x2
	stp	q0, q0, [sp]
	stp	q0, q0, [sp, #32]
	stp	q0, q0, [sp, #64]
	stp	q0, q0, [sp, #96]
	stp	q0, q0, [sp, #128]
	stp	q0, q0, [sp, #160]
	stp	q0, q0, [sp, #192]
	stp	q0, q0, [sp, #224]
	stp	q0, q0, [sp, #256]
	stp	q0, q0, [sp, #288]
	stp	q0, q0, [sp, #320]
	stp	q0, q0, [sp, #352]
.LBB19_11:
	mov	x13, x9
	mov	x9, x16
.LBB19_12:
	tbz	w12, #0, .LBB19_17
.LBB19_13:
	cmp	x13, x9
	b.eq	.LBB19_30
	mov	w14, #24
	madd	x3, x13, x14, x0
	ldrb	w14, [x3]
	ldp	x17, x16, [x3, #8]
	ldr	w15, [x3, #4]
	ldrb	w1, [x3, #1]
	ldrb	w18, [x3, #3]
	cmp	w14, #7
	b.eq	.LBB19_22
	ldrb	w3, [x3, #2]
	subs	w4, w14, #6
	b.ne	.LBB19_24
	orr	x16, x16, x17
	orr	w17, w18, w3
	b	.LBB19_23
.LBB19_17:
	cmp	x13, x9
	b.hs	.LBB19_30
	mov	w14, #24
	madd	x14, x13, x14, x8
.LBB19_19:
	ldp	x15, x16, [x14, #-8]
	and	x17, x15, #0xffffffffffff00ff
	cmp	x17, #5
	ldr	x17, [x14, #8]
	ccmp	x16, #0, #0, eq
	ccmp	x15, #1, #4, ne
	cset	w15, eq
	cbnz	x17, .LBB19_13
	cbz	w15, .LBB19_13
	add	x13, x13, #1
	add	x14, x14, #24
	cmp	x9, x13
	b.ne	.LBB19_19
	b	.LBB19_30
.LBB19_22:
	orr	x16, x16, x17
	orr	w17, w18, w1
.LBB19_23:
	cmp	x16, #0
	ccmp	w17, #0, #0, eq
	cset	w17, eq
	add	x13, x13, #1
	cmp	w14, #7
	add	x16, x13, x15
	cset	w18, ne
	cmp	x16, x9
	b.ls	.LBB19_25
	b	.LBB19_33
.LBB19_24:
	sub	w5, w14, #5
	tst	w5, #0xfe
	sub	w5, w14, #1
	ccmp	w1, #0, #4, ne
	cset	w1, eq
	cmp	w5, #13
	ccmp	w18, #0, #0, lo
	csel	w18, wzr, w1, ne
	cmp	w3, #0
	csel	w18, wzr, w18, ne
	tst	w4, #0xfc
	ccmp	w15, #0, #4, ne
	csel	w18, wzr, w18, ne
	cmp	x17, #0
	ccmp	w5, #2, #0, ne
	csel	w17, wzr, w18, hs
	cmp	x16, #0
	ccmp	w14, #2, #4, ne
	csel	w17, wzr, w17, ne
	add	x13, x13, #1
	cmp	w14, #7
	add	x16, x13, x15
	cset	w18, ne
	cmp	x16, x9
	b.hi	.LBB19_33
.LBB19_25:
	eor	w18, w12, w18
	tbz	w18, #0, .LBB19_33
	cbz	w17, .LBB19_33
	cbz	w15, .LBB19_12
	cmp	x10, #128
	b.eq	.LBB19_33
	add	x15, sp, #128
	mov	x17, sp
	cmp	w14, #6
	strh	w9, [x15, x10, lsl #1]
	and	w9, w12, #0x1
	cset	w12, eq
	strb	w9, [x17, x10]
	add	x10, x10, #1
	mov	x9, x13
	b	.LBB19_11
.LBB19_30:
	cbz	x10, .LBB19_8
	sub	x10, x10, #1
	add	x12, sp, #128
	mov	x13, sp
	ldrh	w16, [x12, x10, lsl #1]
	ldrb	w12, [x13, x10]
	b	.LBB19_11
.LBB19_32:
	mov	x2, x8
	cbz	x8, .LBB19_45
.LBB19_33:
	sub	x8, x2, #1
	mov	w9, #24
	madd	x10, x8, x9, x0
	ldr	w12, [x10, #4]
	add	x9, x2, x12
	cmp	x11, x9
	b.lo	.LBB19_50
	cbz	w12, .LBB19_32
	ldrb	w10, [x10]
.LBB19_36:
	mov	w12, #24
	madd	x18, x2, x12, x0
	ldrb	w12, [x18]
	ldp	x15, x14, [x18, #8]
	ldr	w13, [x18, #4]
	ldrb	w17, [x18, #1]
	ldrb	w16, [x18, #3]
	cmp	w12, #7
	b.eq	.LBB19_39
	ldrb	w18, [x18, #2]
	subs	w1, w12, #6
	b.ne	.LBB19_41
	orr	x14, x14, x15
	orr	w15, w16, w18
	b	.LBB19_40
.LBB19_39:
	orr	x14, x14, x15
	orr	w15, w16, w17
.LBB19_40:
	cmp	x14, #0
	ccmp	w15, #0, #0, eq
	cset	w14, eq
	b	.LBB19_42
.LBB19_41:
	sub	w3, w12, #5
	tst	w3, #0xfe
	sub	w3, w12, #1
	ccmp	w17, #0, #4, ne
	cset	w17, eq
	cmp	w3, #13
	ccmp	w16, #0, #0, lo
	csel	w16, wzr, w17, ne
	cmp	w18, #0
	csel	w16, wzr, w16, ne
	tst	w1, #0xfc
	ccmp	w13, #0, #4, ne
	csel	w16, wzr, w16, ne
	cmp	x15, #0
	ccmp	w3, #2, #0, ne
	csel	w15, wzr, w16, hs
	cmp	x14, #0
	ccmp	w12, #2, #4, ne
	csel	w14, wzr, w15, ne
.LBB19_42:
	cmp	w10, #6
	add	x13, x2, x13
	cset	w15, eq
	cmp	w12, #7
	add	x2, x13, #1
	cset	w12, ne
	cmp	x2, x9
	eor	w12, w15, w12
	ccmp	w12, #0, #4, ls
	ccmp	w14, #0, #4, ne
	b.eq	.LBB19_50
	cmp	x2, x9
	b.lo	.LBB19_36
	b	.LBB19_32
.LBB19_44:
	mov	x9, xzr
	cmp	x8, x11
	mov	w10, #13
	b.hs	.LBB19_9
.LBB19_45:
	mov	w9, #24
	madd	x15, x8, x9, x0
	ldrb	w10, [x15]
	ldp	x13, x12, [x15, #8]
	ldr	w9, [x15, #4]
	ldrb	w14, [x15, #2]
	ldrb	w17, [x15, #3]
	subs	w16, w10, #6
	b.eq	.LBB19_48
	cmp	w10, #7
	b.eq	.LBB19_50
	sub	w18, w10, #1
	ldrb	w15, [x15, #1]
	cmp	w18, #13
	ccmp	w17, #0, #0, lo
	sub	w17, w10, #5
	cset	w1, eq
	tst	w17, #0xfe
	ccmp	w15, #0, #4, ne
	csel	w15, wzr, w1, ne
	cmp	w14, #0
	csel	w14, wzr, w15, ne
	tst	w16, #0xfc
	ccmp	w9, #0, #4, ne
	csel	w14, wzr, w14, ne
	cmp	x13, #0
	ccmp	w18, #2, #0, ne
	csel	w13, wzr, w14, hs
	cmp	x12, #0
	ccmp	w10, #2, #4, ne
	csel	w10, wzr, w13, ne
	b	.LBB19_49
.LBB19_48:
	orr	x10, x12, x13
	orr	w12, w17, w14
	cmp	x10, #0
	ccmp	w12, #0, #0, eq
	cset	w10, eq
.LBB19_49:
	add	x8, x8, x9
	add	x8, x8, #1
	cmp	x8, x11
	ccmp	w10, #0, #4, ls
	b.ne	.LBB19_44
.LBB19_50:
	mov	w10, #11
	stp	xzr, xzr, [x19]
	ldp	x28, x19, [sp, #400]
	ldp	x29, x30, [sp, #384]
	mov	x0, x10
	add	sp, sp, #416
	ret
.Lfunc_end19:
	.size	uplink_cost, .Lfunc_end19-uplink_cost

	.section	.rodata.cst8,"aM",@progbits,8
	.p2align	3, 0x0
.LCPI20_0:
	.byte	6
	.byte	3
	.byte	0
	.byte	0
	.zero	1
	.zero	1
	.zero	1
	.zero	1
.LCPI20_1:
	.byte	7
	.byte	0
	.byte	1
	.byte	0
	.zero	1
	.zero	1
	.zero	1
	.zero	1
	.section	.text.uplink_derivative,"ax",@progbits
	.globl	uplink_derivative
	.p2align	2
	.type	uplink_derivative,@function
uplink_derivative:
	stp	d15, d14, [sp, #-160]!
	sub	x9, sp, #11, lsl #12
	stp	d13, d12, [sp, #16]
	sub	x9, x9, #1024
	stp	d11, d10, [sp, #32]
	stp	d9, d8, [sp, #48]
	stp	x29, x30, [sp, #64]
	add	x29, sp, #64
	stp	x28, x27, [sp, #80]
	stp	x26, x25, [sp, #96]
	stp	x24, x23, [sp, #112]
	stp	x22, x21, [sp, #128]
	stp	x20, x19, [sp, #144]
.LBB20_1:
	sub	sp, sp, #3072
	cmp	sp, x9
	str	xzr, [sp]
	b.ne	.LBB20_1
	sub	sp, sp, #2320
	movi	v0.2d, #0000000000000000
	mov	x25, x0
	cmp	x0, #0
	mov	w8, #4096
	add	x0, sp, #7, lsl #12
	mov	x28, x2
	mov	x23, x1
	csel	x27, x8, xzr, eq
	cmp	x2, #0
	add	x20, sp, #7, lsl #12
	add	x0, x0, #2712
	mov	w1, wzr
	mov	w2, #6144
	add	x19, sp, #7, lsl #12
	str	xzr, [sp]
	mov	x22, x4
	mov	x21, x3
	stp	q0, q0, [sp, #112]
	str	q0, [sp, #30160]
	sub	x26, x29, #136
	add	x20, x20, #2696
	str	q0, [sp, #30176]
	csel	x24, x8, xzr, eq
	add	x19, x19, #2712
	str	q0, [sp, #30192]
	str	q0, [sp, #30208]
	str	q0, [sp, #30224]
	str	q0, [sp, #30240]
	str	q0, [sp, #30256]
	str	q0, [sp, #30272]
	str	q0, [sp, #30288]
	str	q0, [sp, #30304]
	str	q0, [sp, #30320]
	str	q0, [sp, #30336]
	str	q0, [sp, #30352]
	str	q0, [sp, #30368]
	str	q0, [sp, #30384]
	str	q0, [sp, #30400]
	str	q0, [sp, #29248]
	str	q0, [sp, #29232]
	str	q0, [sp, #29216]
	str	q0, [sp, #29200]
	str	q0, [sp, #29184]
	str	q0, [sp, #29168]
	str	q0, [sp, #29152]
	str	q0, [sp, #29136]
	str	q0, [sp, #29120]
	str	q0, [sp, #29104]
	str	q0, [sp, #29088]
	str	q0, [sp, #29072]
	str	q0, [sp, #29056]
	str	q0, [sp, #29040]
	str	q0, [sp, #29024]
	str	q0, [sp, #29008]
	bl	memset
	add	x8, sp, #7, lsl #12
	movi	v0.2d, #0000000000000000
	mov	w9, #256
	add	x8, x8, #1488
	add	x0, sp, #112
	add	x1, x25, x27
	stp	x8, x9, [sp, #144]
	add	x8, sp, #7, lsl #12
	add	x3, sp, #144
	add	x8, x8, #336
	mov	x2, x23
	mov	w4, #256
	stp	x8, x9, [sp, #160]
	add	x8, sp, #208
	stp	q0, q0, [sp, #208]
	stp	q0, q0, [sp, #240]
	stp	q0, q0, [sp, #272]
	stp	q0, q0, [sp, #304]
	stp	q0, q0, [sp, #336]
	stp	q0, q0, [sp, #368]
	stp	q0, q0, [sp, #400]
	stp	q0, q0, [sp, #432]
	stp	x19, x9, [sp, #176]
	stp	x8, x9, [sp, #192]
	bl	"algebra::lists::read_sum"
	ldrb	w8, [sp, #112]
	ldr	x3, [sp, #120]
	cmp	w8, #1
	b.ne	.LBB20_4
	ldrb	w10, [sp, #113]
	b	.LBB20_6
.LBB20_4:
	ldrb	w8, [sp, #128]
	add	x0, sp, #7, lsl #12
	add	x1, sp, #144
	add	x0, x0, #2696
	mov	w2, #128
	mov	x4, xzr
	str	w8, [sp, #108]
	str	xzr, [sp, #31376]
	str	xzr, [sp, #31368]
	bl	"calculus::derivative::expr_deriv"
	ldrb	w8, [x20]
	cmp	w8, #1
	b.ne	.LBB20_10
	ldrb	w10, [x20, #1]
	mov	x3, xzr
.LBB20_6:
	cmp	w10, #11
	b.ne	.LBB20_9
	movi	v0.2d, #0000000000000000
	add	x0, sp, #7, lsl #12
	mov	w1, wzr
	add	x0, x0, #1488
	mov	w2, #1152
	add	x20, sp, #7, lsl #12
	stp	x24, x21, [sp, #72]
	mov	x24, x22
	mov	w19, #1152
	str	x28, [sp, #88]
	add	x20, x20, #1488
	stp	q0, q0, [sp, #112]
	bl	memset
	add	x0, sp, #7, lsl #12
	mov	w1, wzr
	mov	w2, #1152
	add	x0, x0, #336
	add	x21, sp, #7, lsl #12
	add	x21, x21, #336
	bl	memset
	add	x0, sp, #1360
	mov	w1, wzr
	mov	w2, #27648
	add	x22, sp, #1360
	bl	memset
	add	x0, sp, #208
	mov	w1, wzr
	mov	w2, #1152
	add	x28, sp, #208
	bl	memset
	add	x0, sp, #112
	add	x1, x25, x27
	add	x3, sp, #144
	mov	x2, x23
	mov	w4, #1152
	stp	x20, x19, [sp, #144]
	stp	x21, x19, [sp, #160]
	stp	x22, x19, [sp, #176]
	stp	x28, x19, [sp, #192]
	bl	"algebra::lists::read_sum"
	ldrb	w8, [sp, #112]
	ldr	x3, [sp, #120]
	cmp	w8, #1
	b.ne	.LBB20_36
	ldrb	w8, [sp, #113]
	mov	x22, x24
	b	.LBB20_38
.LBB20_9:
	mov	w8, w10
	mov	x19, xzr
	add	x0, x8, #1
	b	.LBB20_150
.LBB20_10:
	mov	x20, x21
	ldp	x21, x8, [sp, #144]
	ldp	x10, x9, [sp, #160]
	ldr	x19, [sp, #31376]
	str	x8, [sp, #31328]
	cmp	x19, #16
	str	x10, [sp, #56]
	str	x10, [sp, #31336]
	ldp	x10, x8, [sp, #176]
	str	x21, [sp, #31320]
	str	x9, [sp, #31344]
	str	x10, [sp, #48]
	str	x10, [sp, #31352]
	str	x8, [sp, #31360]
	str	x21, [sp, #96]
	b.hi	.LBB20_39
	add	x0, sp, #1360
	mov	w1, wzr
	mov	w2, #4272
	add	x21, sp, #1360
	bl	memset
	cbz	x19, .LBB20_116
	movi	d8, #0000000000000000
	mov	x8, #-4850376798678024192
	mov	x9, #4372995238176751616
	stp	x24, x20, [sp, #72]
	fmov	d9, #1.00000000
	fmov	d0, x8
	str	x22, [sp, #64]
	fmov	d11, x9
	sub	x11, x29, #112
	ldp	x20, x22, [sp, #48]
	ldr	x12, [sp, #96]
	stp	x27, x25, [sp, #16]
	mov	x10, xzr
	orr	x27, x11, #0x2
	str	x28, [sp, #88]
	mov	w28, wzr
	mov	w9, #32
	mov	w8, #32
	str	x23, [sp, #32]
	str	d0, [sp, #40]
	b	.LBB20_15
.LBB20_13:
.LBB20_14:
	fcmp	d13, d8
	cset	w10, ne
	fcmp	d14, d8
	csinc	w11, w10, wzr, eq
	fcmp	d12, d9
	add	x10, x24, x23
	ccmp	w25, #1, #0, eq
	csel	w11, wzr, w11, ne
	cmp	x10, x19
	orr	w28, w28, w11
	b.hs	.LBB20_118
.LBB20_15:
	mov	w11, #24
	ldrb	w25, [x12, x10]
	ldrb	w23, [x22, x10]
	madd	x11, x10, x11, x20
	add	x24, x10, #1
	str	wzr, [x27]
	strb	w25, [x26, #24]
	strb	w23, [x26, #25]
	strh	wzr, [x27, #4]
	ldp	d12, d15, [x11]
	ldr	d10, [x11, #16]
	add	x11, sp, #7, lsl #12
	fmov	d14, d10
	add	x11, x11, #2696
	str	d10, [x26, #48]
	fmov	d13, d15
	stp	d12, d15, [x26, #32]
	str	xzr, [x11, #16960]
	str	xzr, [x11, #16976]
	str	xzr, [x11, #16968]
	fcmp	d13, d8
	fccmp	d14, d8, #0, eq
	b.eq	.LBB20_13
	cmp	x9, x8
	cset	w10, ne
	orr	w21, w28, w10
	tbz	w21, #0, .LBB20_19
	cmp	x9, x8
	b.eq	.LBB20_20
	mov	w10, #24
	add	x11, sp, #1360
	sub	x7, x8, #2
	madd	x10, x8, x10, x11
	adrp	x11, .LCPI20_0
	ldr	d0, [x11, :lo12:.LCPI20_0]
	sub	w11, w9, w8
	add	w12, w11, #1
	stur	w12, [x10, #-44]
	adrp	x12, .LCPI20_1
	stur	s0, [x10, #-48]
	ldr	d0, [x12, :lo12:.LCPI20_1]
	stp	xzr, xzr, [x10, #-40]
	stur	s0, [x10, #-24]
	stur	w11, [x10, #-20]
	stp	xzr, xzr, [x10, #-16]
	b	.LBB20_21
.LBB20_19:
	mov	x7, x9
	b	.LBB20_21
.LBB20_20:
	mov	w8, #24
	add	x10, sp, #1360
	mov	x7, x9
	madd	x8, x9, x8, x10
	mov	w10, #773
	strh	w10, [x8]
	add	x10, x9, #1
	stur	xzr, [x8, #10]
	mov	x9, x10
	stur	xzr, [x8, #2]
	str	xzr, [x8, #16]
.LBB20_21:
	ldr	w8, [sp, #108]
	add	x1, sp, #7, lsl #12
	sub	x0, x29, #136
	add	x1, x1, #2648
	sub	x2, x29, #112
	add	x6, sp, #1360
	and	w4, w8, #0x1
	mov	x3, x24
	mov	w5, #3
	str	x9, [sp]
	bl	"writing::write_term"
	ldrb	w8, [x26]
	cbnz	w8, .LBB20_91
	fcmp	d12, d8
	ldp	x8, x9, [x26, #8]
	ccmp	w25, #1, #0, eq
	cset	w10, ne
	fcmp	d14, d8
	fccmp	d13, d9, #0, eq
	b.eq	.LBB20_33
	cbz	w10, .LBB20_33
	fsub	d0, d15, d15
	ldr	w10, [sp, #108]
	tbz	w10, #0, .LBB20_28
	fcmp	d0, d8
	mov	w10, #14
	b.ne	.LBB20_92
	fsub	d0, d10, d10
	fcmp	d0, d8
	b.ne	.LBB20_92
	mov	w10, #2
	b	.LBB20_32
.LBB20_28:
	ldr	d1, [sp, #40]
	mov	w10, #14
	fcmp	d1, d14
	cset	w11, mi
	fcmp	d14, d11
	//APP
	//NO_APP
	cset	w12, mi
	fcmp	d0, d8
	//APP
	//NO_APP
	b.ne	.LBB20_92
	cbz	w11, .LBB20_92
	cbz	w12, .LBB20_92
	mov	w10, #1
.LBB20_32:
	mov	w11, #24
	add	x12, sp, #1360
	madd	x11, x9, x11, x12
	ldr	w12, [sp, #108]
	add	x9, x9, #2
	tst	w12, #0x1
	mov	w12, #2565
	strb	w10, [x11]
	fmov	x10, d10
	stur	wzr, [x11, #1]
	str	wzr, [x11, #4]
	csel	x10, x10, xzr, ne
	str	d15, [x11, #8]
	str	x10, [x11, #16]
	strh	w12, [x11, #24]
	stur	xzr, [x11, #34]
	stur	xzr, [x11, #26]
	str	xzr, [x11, #40]
.LBB20_33:
	tbz	w21, #0, .LBB20_35
	mov	w10, #24
	add	x11, sp, #1360
	madd	x10, x9, x10, x11
	mov	w11, #2053
	add	x9, x9, #1
	strh	w11, [x10]
	stur	xzr, [x10, #10]
	stur	xzr, [x10, #2]
	str	xzr, [x10, #16]
.LBB20_35:
	ldr	x12, [sp, #96]
	b	.LBB20_14
.LBB20_36:
	ldrb	w8, [sp, #128]
	add	x0, sp, #7, lsl #12
	add	x1, sp, #144
	add	x0, x0, #2696
	mov	w2, #128
	mov	x4, xzr
	str	w8, [sp, #108]
	str	xzr, [sp, #31376]
	str	xzr, [sp, #31368]
	bl	"calculus::derivative::expr_deriv"
	add	x9, sp, #7, lsl #12
	mov	x22, x24
	add	x9, x9, #2696
	ldrb	w8, [x9]
	cmp	w8, #1
	b.ne	.LBB20_63
	ldrb	w8, [x9, #1]
	mov	x3, xzr
.LBB20_38:
	mov	w8, w8
	mov	x19, xzr
	add	x0, x8, #1
	b	.LBB20_150
.LBB20_39:
	movi	d8, #0000000000000000
	mov	x8, #-4850376798678024192
	mov	x9, #4372995238176751616
	fmov	d9, #1.00000000
	fmov	d0, x8
	fmov	d11, x9
	sub	x10, x29, #112
	add	x0, sp, #1360
	mov	w1, wzr
	mov	w2, #16944
	stp	x27, x25, [sp, #16]
	str	x23, [sp, #32]
	stp	x24, x20, [sp, #72]
	str	x28, [sp, #88]
	orr	x28, x10, #0x2
	str	x22, [sp, #64]
	str	d0, [sp, #40]
	bl	memset
	ldp	x20, x22, [sp, #48]
	mov	w27, wzr
	mov	x10, xzr
	mov	w8, #128
	mov	w9, #128
	b	.LBB20_42
.LBB20_40:
.LBB20_41:
	fcmp	d13, d8
	cset	w10, ne
	fcmp	d14, d8
	csinc	w11, w10, wzr, eq
	fcmp	d12, d9
	add	x10, x24, x23
	ccmp	w25, #1, #0, eq
	csel	w11, wzr, w11, ne
	cmp	x10, x19
	orr	w27, w27, w11
	b.hs	.LBB20_88
.LBB20_42:
	mov	w11, #24
	ldrb	w25, [x21, x10]
	ldrb	w23, [x22, x10]
	madd	x11, x10, x11, x20
	add	x24, x10, #1
	str	wzr, [x28]
	strb	w25, [x26, #24]
	strb	w23, [x26, #25]
	strh	wzr, [x28, #4]
	stp	xzr, xzr, [x26]
	ldp	d12, d15, [x11]
	ldr	d10, [x11, #16]
	str	xzr, [x26, #16]
	fmov	d14, d10
	str	d10, [x26, #48]
	fmov	d13, d15
	stp	d12, d15, [x26, #32]
	fcmp	d13, d8
	fccmp	d14, d8, #0, eq
	b.eq	.LBB20_40
	cmp	x8, x9
	cset	w10, ne
	orr	w21, w27, w10
	tbz	w21, #0, .LBB20_46
	cmp	x8, x9
	b.eq	.LBB20_47
	mov	w10, #24
	add	x11, sp, #1360
	sub	x7, x9, #2
	madd	x10, x9, x10, x11
	adrp	x11, .LCPI20_0
	ldr	d0, [x11, :lo12:.LCPI20_0]
	sub	w11, w8, w9
	add	w12, w11, #1
	stur	w12, [x10, #-44]
	adrp	x12, .LCPI20_1
	stur	s0, [x10, #-48]
	ldr	d0, [x12, :lo12:.LCPI20_1]
	stp	xzr, xzr, [x10, #-40]
	stur	s0, [x10, #-24]
	stur	w11, [x10, #-20]
	stp	xzr, xzr, [x10, #-16]
	b	.LBB20_48
.LBB20_46:
	mov	x7, x8
	b	.LBB20_48
.LBB20_47:
	mov	w9, #24
	add	x10, sp, #1360
	mov	x7, x8
	madd	x9, x8, x9, x10
	mov	w10, #773
	strh	w10, [x9]
	add	x10, x8, #1
	stur	xzr, [x9, #10]
	mov	x8, x10
	stur	xzr, [x9, #2]
	str	xzr, [x9, #16]
.LBB20_48:
	ldr	w9, [sp, #108]
	add	x1, sp, #7, lsl #12
	sub	x0, x29, #136
	add	x1, x1, #2648
	sub	x2, x29, #112
	add	x6, sp, #1360
	and	w4, w9, #0x1
	mov	x3, x24
	mov	w5, #3
	str	x8, [sp]
	bl	"writing::write_term"
	ldrb	w8, [x26]
	cbnz	w8, .LBB20_91
	fcmp	d12, d8
	ldp	x9, x8, [x26, #8]
	ccmp	w25, #1, #0, eq
	cset	w10, ne
	fcmp	d14, d8
	fccmp	d13, d9, #0, eq
	b.eq	.LBB20_60
	cbz	w10, .LBB20_60
	fsub	d0, d15, d15
	ldr	w10, [sp, #108]
	tbz	w10, #0, .LBB20_55
	fcmp	d0, d8
	mov	w10, #14
	b.ne	.LBB20_92
	fsub	d0, d10, d10
	fcmp	d0, d8
	b.ne	.LBB20_92
	mov	w10, #2
	b	.LBB20_59
.LBB20_55:
	ldr	d1, [sp, #40]
	mov	w10, #14
	fcmp	d1, d14
	cset	w11, mi
	fcmp	d14, d11
	//APP
	//NO_APP
	cset	w12, mi
	fcmp	d0, d8
	//APP
	//NO_APP
	b.ne	.LBB20_92
	cbz	w11, .LBB20_92
	cbz	w12, .LBB20_92
	mov	w10, #1
.LBB20_59:
	mov	w11, #24
	add	x12, sp, #1360
	madd	x11, x8, x11, x12
	ldr	w12, [sp, #108]
	add	x8, x8, #2
	tst	w12, #0x1
	mov	w12, #2565
	strb	w10, [x11]
	fmov	x10, d10
	stur	wzr, [x11, #1]
	str	wzr, [x11, #4]
	csel	x10, x10, xzr, ne
	str	d15, [x11, #8]
	str	x10, [x11, #16]
	strh	w12, [x11, #24]
	stur	xzr, [x11, #34]
	stur	xzr, [x11, #26]
	str	xzr, [x11, #40]
.LBB20_60:
	tbz	w21, #0, .LBB20_62
	mov	w10, #24
	add	x11, sp, #1360
	madd	x10, x8, x10, x11
	mov	w11, #2053
	add	x8, x8, #1
	strh	w11, [x10]
	stur	xzr, [x10, #10]
	stur	xzr, [x10, #2]
	str	xzr, [x10, #16]
.LBB20_62:
	ldr	x21, [sp, #96]
	b	.LBB20_41
.LBB20_63:
	ldp	x9, x8, [sp, #144]
	ldr	x25, [sp, #31376]
	cmp	x25, #16
	str	x9, [sp, #96]
	str	x9, [sp, #31320]
	ldp	x21, x9, [sp, #160]
	str	x8, [sp, #31328]
	ldp	x27, x8, [sp, #176]
	str	x21, [sp, #31336]
	str	x9, [sp, #31344]
	str	x27, [sp, #31352]
	str	x8, [sp, #31360]
	b.hi	.LBB20_93
	add	x0, sp, #7, lsl #12
	mov	w1, wzr
	mov	w2, #4272
	add	x0, x0, #2712
	add	x19, sp, #7, lsl #12
	add	x19, x19, #2712
	bl	memset
	ldr	x14, [sp, #88]
	cbz	x25, .LBB20_130
	movi	d8, #0000000000000000
	mov	x8, #-4850376798678024192
	mov	x9, #4372995238176751616
	fmov	d9, #1.00000000
	fmov	d0, x8
	fmov	d11, x9
	sub	x11, x29, #112
	mov	w19, wzr
	mov	x10, xzr
	orr	x20, x11, #0x2
	mov	w9, #32
	mov	w8, #32
	str	x22, [sp, #64]
	str	d0, [sp, #56]
	b	.LBB20_68
.LBB20_66:
.LBB20_67:
	fcmp	d13, d8
	cset	w10, ne
	fcmp	d14, d8
	csinc	w11, w10, wzr, eq
	fcmp	d12, d9
	add	x10, x22, x28
	ccmp	w23, #1, #0, eq
	csel	w11, wzr, w11, ne
	cmp	x10, x25
	orr	w19, w19, w11
	b.hs	.LBB20_132
.LBB20_68:
	mov	w11, #24
	ldr	x12, [sp, #96]
	ldrb	w28, [x21, x10]
	madd	x11, x10, x11, x27
	add	x22, x10, #1
	str	wzr, [x20]
	ldrb	w23, [x12, x10]
	strb	w28, [x26, #25]
	strh	wzr, [x20, #4]
	strb	w23, [x26, #24]
	stp	xzr, xzr, [x26]
	ldp	d12, d15, [x11]
	ldr	d10, [x11, #16]
	str	xzr, [x26, #16]
	fmov	d14, d10
	str	d10, [x26, #48]
	fmov	d13, d15
	stp	d12, d15, [x26, #32]
	fcmp	d13, d8
	fccmp	d14, d8, #0, eq
	b.eq	.LBB20_66
	cmp	x9, x8
	cset	w10, ne
	orr	w24, w19, w10
	tbz	w24, #0, .LBB20_72
	cmp	x9, x8
	b.eq	.LBB20_73
	mov	w10, #24
	add	x11, sp, #7, lsl #12
	adrp	x13, .LCPI20_1
	add	x11, x11, #2712
	madd	x10, x8, x10, x11
	sub	x7, x8, #2
	adrp	x11, .LCPI20_0
	ldr	d0, [x11, :lo12:.LCPI20_0]
	sub	w11, w9, w8
	add	w12, w11, #1
	stur	s0, [x10, #-48]
	ldr	d0, [x13, :lo12:.LCPI20_1]
	stur	w12, [x10, #-44]
	stp	xzr, xzr, [x10, #-40]
	stur	s0, [x10, #-24]
	stur	w11, [x10, #-20]
	stp	xzr, xzr, [x10, #-16]
	b	.LBB20_74
.LBB20_72:
	mov	x7, x9
	b	.LBB20_74
.LBB20_73:
	mov	w8, #24
	add	x10, sp, #7, lsl #12
	mov	x7, x9
	add	x10, x10, #2712
	madd	x8, x9, x8, x10
	mov	w10, #773
	strh	w10, [x8]
	add	x10, x9, #1
	stur	xzr, [x8, #10]
	mov	x9, x10
	stur	xzr, [x8, #2]
	str	xzr, [x8, #16]
.LBB20_74:
	ldr	w8, [sp, #108]
	add	x1, sp, #7, lsl #12
	add	x6, sp, #7, lsl #12
	sub	x0, x29, #136
	add	x1, x1, #2648
	sub	x2, x29, #112
	and	w4, w8, #0x1
	add	x6, x6, #2712
	mov	x3, x22
	mov	w5, #3
	str	x9, [sp]
	bl	"writing::write_term"
	ldrb	w8, [x26]
	cbnz	w8, .LBB20_124
	fcmp	d12, d8
	ldp	x8, x9, [x26, #8]
	ccmp	w23, #1, #0, eq
	cset	w10, ne
	fcmp	d14, d8
	fccmp	d13, d9, #0, eq
	b.eq	.LBB20_86
	cbz	w10, .LBB20_86
	fsub	d0, d15, d15
	ldr	w10, [sp, #108]
	tbz	w10, #0, .LBB20_81
	fcmp	d0, d8
	mov	w10, #14
	b.ne	.LBB20_125
	fsub	d0, d10, d10
	fcmp	d0, d8
	b.ne	.LBB20_125
	mov	w10, #2
	b	.LBB20_85
.LBB20_81:
	ldr	d1, [sp, #56]
	mov	w10, #14
	fcmp	d1, d14
	cset	w11, mi
	fcmp	d14, d11
	//APP
	//NO_APP
	cset	w12, mi
	fcmp	d0, d8
	//APP
	//NO_APP
	b.ne	.LBB20_125
	cbz	w11, .LBB20_125
	cbz	w12, .LBB20_125
	mov	w10, #1
.LBB20_85:
	mov	w11, #24
	add	x12, sp, #7, lsl #12
	add	x12, x12, #2712
	madd	x11, x9, x11, x12
	add	x9, x9, #2
	ldr	w12, [sp, #108]
	tst	w12, #0x1
	mov	w12, #2565
	strb	w10, [x11]
	fmov	x10, d10
	stur	wzr, [x11, #1]
	str	wzr, [x11, #4]
	csel	x10, x10, xzr, ne
	str	d15, [x11, #8]
	str	x10, [x11, #16]
	strh	w12, [x11, #24]
	stur	xzr, [x11, #34]
	stur	xzr, [x11, #26]
	str	xzr, [x11, #40]
.LBB20_86:
	tbz	w24, #0, .LBB20_67
	mov	w10, #24
	add	x11, sp, #7, lsl #12
	add	x11, x11, #2712
	madd	x10, x9, x10, x11
	add	x9, x9, #1
	mov	w11, #2053
	strh	w11, [x10]
	stur	xzr, [x10, #10]
	stur	xzr, [x10, #2]
	str	xzr, [x10, #16]
	b	.LBB20_67
.LBB20_88:
	ldp	x21, x28, [sp, #80]
	cmp	x9, x8
	ldr	x22, [sp, #64]
	b.ne	.LBB20_136
	mov	w8, #24
	add	x10, sp, #1360
	madd	x10, x9, x8, x10
	tbz	w27, #0, .LBB20_135
	mov	w8, #261
	stur	xzr, [x10, #10]
	strh	w8, [x10]
	add	x8, x9, #1
	stur	xzr, [x10, #2]
	str	xzr, [x10, #16]
	b	.LBB20_136
.LBB20_91:
	ldrb	w10, [x26, #1]
.LBB20_92:
	ldp	x21, x28, [sp, #80]
	mov	x19, xzr
	ldp	x22, x24, [sp, #64]
	mov	w8, #1
	ldp	x25, x23, [sp, #24]
	ldr	x27, [sp, #16]
	mov	x3, xzr
	cbnz	w8, .LBB20_6
	b	.LBB20_139
.LBB20_93:
	movi	d8, #0000000000000000
	mov	x8, #-4850376798678024192
	mov	x9, #4372995238176751616
	fmov	d9, #1.00000000
	fmov	d0, x8
	fmov	d11, x9
	add	x0, sp, #7, lsl #12
	sub	x10, x29, #112
	mov	w1, wzr
	add	x0, x0, #2712
	mov	w2, #16944
	str	x22, [sp, #64]
	orr	x19, x10, #0x2
	str	d0, [sp, #56]
	bl	memset
	mov	w20, wzr
	mov	x10, xzr
	mov	w8, #128
	mov	w9, #128
	b	.LBB20_96
.LBB20_94:
.LBB20_95:
	fcmp	d13, d8
	cset	w10, ne
	fcmp	d14, d8
	csinc	w11, w10, wzr, eq
	fcmp	d12, d9
	add	x10, x22, x28
	ccmp	w23, #1, #0, eq
	csel	w11, wzr, w11, ne
	cmp	x10, x25
	orr	w20, w20, w11
	b.hs	.LBB20_121
.LBB20_96:
	mov	w11, #24
	ldr	x12, [sp, #96]
	ldrb	w28, [x21, x10]
	madd	x11, x10, x11, x27
	add	x22, x10, #1
	str	wzr, [x19]
	ldrb	w23, [x12, x10]
	strb	w28, [x26, #25]
	strh	wzr, [x19, #4]
	strb	w23, [x26, #24]
	stp	xzr, xzr, [x26]
	ldp	d12, d15, [x11]
	ldr	d10, [x11, #16]
	str	xzr, [x26, #16]
	fmov	d14, d10
	str	d10, [x26, #48]
	fmov	d13, d15
	stp	d12, d15, [x26, #32]
	fcmp	d13, d8
	fccmp	d14, d8, #0, eq
	b.eq	.LBB20_94
	cmp	x8, x9
	cset	w10, ne
	orr	w24, w20, w10
	tbz	w24, #0, .LBB20_100
	cmp	x8, x9
	b.eq	.LBB20_101
	mov	w10, #24
	add	x11, sp, #7, lsl #12
	adrp	x13, .LCPI20_1
	add	x11, x11, #2712
	madd	x10, x9, x10, x11
	sub	x7, x9, #2
	adrp	x11, .LCPI20_0
	ldr	d0, [x11, :lo12:.LCPI20_0]
	sub	w11, w8, w9
	add	w12, w11, #1
	stur	s0, [x10, #-48]
	ldr	d0, [x13, :lo12:.LCPI20_1]
	stur	w12, [x10, #-44]
	stp	xzr, xzr, [x10, #-40]
	stur	s0, [x10, #-24]
	stur	w11, [x10, #-20]
	stp	xzr, xzr, [x10, #-16]
	b	.LBB20_102
.LBB20_100:
	mov	x7, x8
	b	.LBB20_102
.LBB20_101:
	mov	w9, #24
	add	x10, sp, #7, lsl #12
	mov	x7, x8
	add	x10, x10, #2712
	madd	x9, x8, x9, x10
	mov	w10, #773
	strh	w10, [x9]
	add	x10, x8, #1
	stur	xzr, [x9, #10]
	mov	x8, x10
	stur	xzr, [x9, #2]
	str	xzr, [x9, #16]
.LBB20_102:
	ldr	w9, [sp, #108]
	add	x1, sp, #7, lsl #12
	add	x6, sp, #7, lsl #12
	sub	x0, x29, #136
	add	x1, x1, #2648
	sub	x2, x29, #112
	and	w4, w9, #0x1
	add	x6, x6, #2712
	mov	x3, x22
	mov	w5, #3
	str	x8, [sp]
	bl	"writing::write_term"
	ldrb	w8, [x26]
	cbnz	w8, .LBB20_124
	fcmp	d12, d8
	ldp	x9, x8, [x26, #8]
	ccmp	w23, #1, #0, eq
	cset	w10, ne
	fcmp	d14, d8
	fccmp	d13, d9, #0, eq
	b.eq	.LBB20_114
	cbz	w10, .LBB20_114
	fsub	d0, d15, d15
	ldr	w10, [sp, #108]
	tbz	w10, #0, .LBB20_109
	fcmp	d0, d8
	mov	w10, #14
	b.ne	.LBB20_125
	fsub	d0, d10, d10
	fcmp	d0, d8
	b.ne	.LBB20_125
	mov	w10, #2
	b	.LBB20_113
.LBB20_109:
	ldr	d1, [sp, #56]
	mov	w10, #14
	fcmp	d1, d14
	cset	w11, mi
	fcmp	d14, d11
	//APP
	//NO_APP
	cset	w12, mi
	fcmp	d0, d8
	//APP
	//NO_APP
	b.ne	.LBB20_125
	cbz	w11, .LBB20_125
	cbz	w12, .LBB20_125
	mov	w10, #1
.LBB20_113:
	mov	w11, #24
	add	x12, sp, #7, lsl #12
	add	x12, x12, #2712
	madd	x11, x8, x11, x12
	add	x8, x8, #2
	ldr	w12, [sp, #108]
	tst	w12, #0x1
	mov	w12, #2565
	strb	w10, [x11]
	fmov	x10, d10
	stur	wzr, [x11, #1]
	str	wzr, [x11, #4]
	csel	x10, x10, xzr, ne
	str	d15, [x11, #8]
	str	x10, [x11, #16]
	strh	w12, [x11, #24]
	stur	xzr, [x11, #34]
	stur	xzr, [x11, #26]
	str	xzr, [x11, #40]
.LBB20_114:
	tbz	w24, #0, .LBB20_95
	mov	w10, #24
	add	x11, sp, #7, lsl #12
	add	x11, x11, #2712
	madd	x10, x8, x10, x11
	add	x8, x8, #1
	mov	w11, #2053
	strh	w11, [x10]
	stur	xzr, [x10, #10]
	stur	xzr, [x10, #2]
	str	xzr, [x10, #16]
	b	.LBB20_95
.LBB20_116:
	add	x10, x21, #768
	add	x9, x21, #769
	mov	w8, #32
	mov	x21, x20
.LBB20_117:
	stp	xzr, xzr, [x9]
	mov	w11, #1
	stur	xzr, [x9, #15]
	mov	w9, #2565
	strh	w9, [x10, #24]
	add	x9, x8, #2
	strb	w11, [x10]
	str	xzr, [x10, #40]
	stur	xzr, [x10, #26]
	stur	xzr, [x10, #34]
	b	.LBB20_127
.LBB20_118:
	cmp	x8, x9
	b.ne	.LBB20_126
	mov	w9, #24
	add	x10, sp, #1360
	ldr	x27, [sp, #16]
	madd	x10, x8, x9, x10
	ldp	x24, x21, [sp, #72]
	tbz	w28, #0, .LBB20_140
	ldp	x25, x23, [sp, #24]
	mov	w9, #261
	ldr	x22, [sp, #64]
	ldr	x28, [sp, #88]
	stur	xzr, [x10, #10]
	strh	w9, [x10]
	add	x9, x8, #1
	stur	xzr, [x10, #2]
	str	xzr, [x10, #16]
	b	.LBB20_127
.LBB20_121:
	ldp	x22, x13, [sp, #64]
	cmp	x9, x8
	ldp	x12, x11, [sp, #80]
	b.ne	.LBB20_145
	add	x10, sp, #7, lsl #12
	mov	w8, #24
	add	x10, x10, #2712
	madd	x10, x9, x8, x10
	tbz	w20, #0, .LBB20_144
	mov	w8, #261
	stur	xzr, [x10, #10]
	strh	w8, [x10]
	add	x8, x9, #1
	stur	xzr, [x10, #2]
	str	xzr, [x10, #16]
	b	.LBB20_145
.LBB20_124:
	ldrb	w10, [x26, #1]
.LBB20_125:
	ldr	x22, [sp, #64]
	mov	x19, xzr
	mov	w8, #1
	b	.LBB20_149
.LBB20_126:
	ldp	x22, x24, [sp, #64]
	ldr	x27, [sp, #16]
	ldp	x21, x28, [sp, #80]
	ldp	x25, x23, [sp, #24]
.LBB20_127:
	mov	x10, #-6148914691236517206
	sub	x19, x9, x8
	movk	x10, #43691
	umulh	x10, x21, x10
	cmp	x19, x10, lsr #4
	b.ls	.LBB20_129
	mov	x19, xzr
	mov	w10, #16
	mov	w8, #1
	mov	x3, xzr
	cbnz	w8, .LBB20_6
	b	.LBB20_139
.LBB20_129:
	mov	w9, #24
	add	x10, sp, #1360
	add	x0, x28, x24
	madd	x1, x8, x9, x10
	add	x8, x19, x19, lsl #1
	lsl	x2, x8, #3
	bl	memcpy
	mov	w10, wzr
	mov	x3, xzr
	b	.LBB20_139
.LBB20_130:
	ldp	x13, x12, [sp, #72]
	add	x10, x19, #768
	add	x9, x19, #769
	mov	w8, #32
.LBB20_131:
	stp	xzr, xzr, [x9]
	mov	w11, #1
	stur	xzr, [x9, #15]
	mov	w9, #2565
	strh	w9, [x10, #24]
	add	x9, x8, #2
	strb	w11, [x10]
	str	xzr, [x10, #40]
	stur	xzr, [x10, #26]
	stur	xzr, [x10, #34]
	b	.LBB20_142
.LBB20_132:
	cmp	x8, x9
	b.ne	.LBB20_141
	add	x10, sp, #7, lsl #12
	mov	w9, #24
	add	x10, x10, #2712
	ldp	x22, x13, [sp, #64]
	madd	x10, x8, x9, x10
	ldp	x12, x14, [sp, #80]
	tbz	w19, #0, .LBB20_151
	mov	w9, #261
	stur	xzr, [x10, #10]
	strh	w9, [x10]
	add	x9, x8, #1
	stur	xzr, [x10, #2]
	str	xzr, [x10, #16]
	b	.LBB20_142
.LBB20_135:
	mov	w8, #1
	stur	xzr, [x10, #9]
	strb	w8, [x10]
	mov	w8, #2565
	strh	w8, [x10, #24]
	add	x8, x9, #2
	stur	xzr, [x10, #1]
	stur	xzr, [x10, #16]
	stur	xzr, [x10, #34]
	stur	xzr, [x10, #26]
	str	xzr, [x10, #40]
.LBB20_136:
	mov	x10, #-6148914691236517206
	sub	x19, x8, x9
	movk	x10, #43691
	umulh	x10, x21, x10
	cmp	x19, x10, lsr #4
	b.ls	.LBB20_138
	mov	x19, xzr
	mov	w10, #16
	mov	w8, #1
	ldr	x24, [sp, #72]
	ldp	x25, x23, [sp, #24]
	ldr	x27, [sp, #16]
	mov	x3, xzr
	cbnz	w8, .LBB20_6
	b	.LBB20_139
.LBB20_138:
	mov	w8, #24
	add	x10, sp, #1360
	ldr	x24, [sp, #72]
	madd	x1, x9, x8, x10
	add	x8, x19, x19, lsl #1
	add	x0, x28, x24
	lsl	x2, x8, #3
	bl	memcpy
	mov	w10, wzr
	ldp	x25, x23, [sp, #24]
	ldr	x27, [sp, #16]
	mov	x3, xzr
.LBB20_139:
	mov	x0, xzr
	b	.LBB20_150
.LBB20_140:
	ldp	x25, x23, [sp, #24]
	add	x9, x10, #1
	ldr	x22, [sp, #64]
	ldr	x28, [sp, #88]
	b	.LBB20_117
.LBB20_141:
	ldp	x22, x13, [sp, #64]
	ldp	x12, x14, [sp, #80]
.LBB20_142:
	mov	x10, #-6148914691236517206
	sub	x19, x9, x8
	movk	x10, #43691
	umulh	x10, x12, x10
	cmp	x19, x10, lsr #4
	b.hi	.LBB20_146
	mov	w9, #24
	add	x10, sp, #7, lsl #12
	add	x0, x14, x13
	add	x10, x10, #2712
	madd	x1, x8, x9, x10
	b	.LBB20_148
.LBB20_144:
	mov	w8, #1
	stur	xzr, [x10, #9]
	strb	w8, [x10]
	mov	w8, #2565
	strh	w8, [x10, #24]
	add	x8, x9, #2
	stur	xzr, [x10, #1]
	stur	xzr, [x10, #16]
	stur	xzr, [x10, #34]
	stur	xzr, [x10, #26]
	str	xzr, [x10, #40]
.LBB20_145:
	mov	x10, #-6148914691236517206
	sub	x19, x8, x9
	movk	x10, #43691
	umulh	x10, x12, x10
	cmp	x19, x10, lsr #4
	b.ls	.LBB20_147
.LBB20_146:
	mov	x19, xzr
	mov	w10, #16
	mov	w8, #1
	b	.LBB20_149
.LBB20_147:
	mov	w8, #24
	add	x10, sp, #7, lsl #12
	add	x0, x11, x13
	add	x10, x10, #2712
	madd	x1, x9, x8, x10
.LBB20_148:
	add	x8, x19, x19, lsl #1
	lsl	x2, x8, #3
	bl	memcpy
	mov	w8, wzr
	mov	w10, wzr
.LBB20_149:
	cmp	w8, #0
	mov	x3, xzr
	csel	w8, wzr, w10, eq
	csel	x19, x19, xzr, eq
	csinc	x0, xzr, x8, eq
.LBB20_150:
	stp	x3, x19, [x22]
	add	sp, sp, #11, lsl #12
	add	sp, sp, #3344
	ldp	x20, x19, [sp, #144]
	ldp	x22, x21, [sp, #128]
	ldp	x24, x23, [sp, #112]
	ldp	x26, x25, [sp, #96]
	ldp	x28, x27, [sp, #80]
	ldp	x29, x30, [sp, #64]
	ldp	d9, d8, [sp, #48]
	ldp	d11, d10, [sp, #32]
	ldp	d13, d12, [sp, #16]
	ldp	d15, d14, [sp], #160
	ret
.LBB20_151:
	add	x9, x10, #1
	b	.LBB20_131
.Lfunc_end20:
	.size	uplink_derivative, .Lfunc_end20-uplink_derivative

	.section	.text.uplink_derivative_faithful,"ax",@progbits
	.globl	uplink_derivative_faithful
	.p2align	2
	.type	uplink_derivative_faithful,@function
uplink_derivative_faithful:
	stp	x29, x30, [sp, #-96]!
	sub	x9, sp, #7, lsl #12
	stp	x28, x27, [sp, #16]
	mov	x29, sp
	sub	x9, x9, #2048
	stp	x26, x25, [sp, #32]
	stp	x24, x23, [sp, #48]
	stp	x22, x21, [sp, #64]
	stp	x20, x19, [sp, #80]
.LBB21_1:
	sub	sp, sp, #3072
	cmp	sp, x9
	str	xzr, [sp]
	b.ne	.LBB21_1
	sub	sp, sp, #592
	movi	v0.2d, #0000000000000000
	cmp	x0, #0
	mov	w8, #4096
	mov	x21, x2
	mov	x22, x1
	mov	x23, x0
	csel	x26, x8, xzr, eq
	cmp	x2, #0
	add	x0, sp, #1264
	mov	w1, wzr
	mov	w2, #6144
	mov	x19, x4
	mov	x20, x3
	stp	q0, q0, [sp, #16]
	sub	x24, x29, #48
	str	q0, [sp, #30064]
	csel	x25, x8, xzr, eq
	add	x27, sp, #1264
	str	q0, [sp, #30080]
	str	q0, [sp, #30096]
	str	q0, [sp, #30112]
	str	q0, [sp, #30128]
	str	q0, [sp, #30144]
	str	q0, [sp, #30160]
	str	q0, [sp, #30176]
	str	q0, [sp, #30192]
	str	q0, [sp, #30208]
	str	q0, [sp, #30224]
	str	q0, [sp, #30240]
	str	q0, [sp, #30256]
	str	q0, [sp, #30272]
	str	q0, [sp, #30288]
	str	q0, [sp, #30304]
	str	q0, [sp, #29152]
	str	q0, [sp, #29136]
	str	q0, [sp, #29120]
	str	q0, [sp, #29104]
	str	q0, [sp, #29088]
	str	q0, [sp, #29072]
	str	q0, [sp, #29056]
	str	q0, [sp, #29040]
	str	q0, [sp, #29024]
	str	q0, [sp, #29008]
	str	q0, [sp, #28992]
	str	q0, [sp, #28976]
	str	q0, [sp, #28960]
	str	q0, [sp, #28944]
	str	q0, [sp, #28928]
	str	q0, [sp, #28912]
	bl	memset
	add	x8, sp, #7, lsl #12
	movi	v0.2d, #0000000000000000
	mov	w9, #256
	add	x8, x8, #1392
	add	x0, sp, #16
	add	x1, x23, x26
	stp	x8, x9, [sp, #48]
	add	x8, sp, #7, lsl #12
	add	x3, sp, #48
	add	x8, x8, #240
	mov	x2, x22
	mov	w4, #256
	stp	x8, x9, [sp, #64]
	add	x8, sp, #112
	stp	q0, q0, [sp, #112]
	stp	q0, q0, [sp, #144]
	stp	q0, q0, [sp, #176]
	stp	q0, q0, [sp, #208]
	stp	q0, q0, [sp, #240]
	stp	q0, q0, [sp, #272]
	stp	q0, q0, [sp, #304]
	stp	q0, q0, [sp, #336]
	stp	x27, x9, [sp, #80]
	stp	x8, x9, [sp, #96]
	bl	"algebra::lists::read_sum"
	ldrb	w8, [sp, #16]
	ldr	x3, [sp, #24]
	cmp	w8, #1
	b.ne	.LBB21_4
	ldrb	w8, [sp, #17]
	cmp	w8, #11
	b.eq	.LBB21_6
	b	.LBB21_10
.LBB21_4:
	ldrb	w27, [sp, #32]
	sub	x0, x29, #32
	add	x1, sp, #48
	mov	w2, #128
	mov	x4, xzr
	stp	xzr, xzr, [x29, #-32]
	stp	xzr, xzr, [x29, #-48]
	bl	"calculus::derivative::expr_deriv"
	ldrb	w8, [x24, #16]
	cmp	w8, #1
	b.ne	.LBB21_8
	ldrb	w8, [x24, #17]
	mov	x3, xzr
	cmp	w8, #11
	b.ne	.LBB21_10
.LBB21_6:
	movi	v0.2d, #0000000000000000
	add	x0, sp, #7, lsl #12
	mov	w1, wzr
	add	x0, x0, #1392
	mov	w2, #1152
	add	x28, sp, #7, lsl #12
	stp	x25, x20, [sp]
	mov	w27, #1152
	add	x28, x28, #1392
	stp	q0, q0, [sp, #16]
	bl	memset
	add	x0, sp, #7, lsl #12
	mov	w1, wzr
	mov	w2, #1152
	add	x0, x0, #240
	add	x20, sp, #7, lsl #12
	add	x20, x20, #240
	bl	memset
	add	x0, sp, #1264
	mov	w1, wzr
	mov	w2, #27648
	add	x24, sp, #1264
	bl	memset
	add	x0, sp, #112
	mov	w1, wzr
	mov	w2, #1152
	add	x25, sp, #112
	bl	memset
	add	x0, sp, #16
	add	x1, x23, x26
	add	x3, sp, #48
	mov	x2, x22
	mov	w4, #1152
	stp	x28, x27, [sp, #48]
	stp	x20, x27, [sp, #64]
	stp	x24, x27, [sp, #80]
	stp	x25, x27, [sp, #96]
	bl	"algebra::lists::read_sum"
	ldrb	w9, [sp, #16]
	ldr	x8, [sp, #24]
	cmp	w9, #1
	b.ne	.LBB21_12
	ldrb	w9, [sp, #17]
	b	.LBB21_14
.LBB21_8:
	ldp	q0, q1, [sp, #48]
	sub	x0, x29, #48
	ldp	x8, x9, [sp, #80]
	sub	x2, x29, #96
	ldur	x3, [x29, #-24]
	and	w4, w27, #0x1
	add	x5, x21, x25
	mov	w1, #1
	mov	x6, x20
	stp	q0, q1, [x29, #-96]
	stp	x8, x9, [x29, #-64]
	bl	"algebra::answer::write_sum"
	ldrb	w8, [x24]
	ldur	x3, [x29, #-40]
	cbz	w8, .LBB21_17
	ldrb	w8, [x24, #1]
	cmp	w8, #11
	b.eq	.LBB21_6
.LBB21_10:
	mov	w8, w8
.LBB21_11:
	add	x0, x8, #1
	mov	x8, x3
	mov	x3, xzr
	b	.LBB21_18
.LBB21_12:
	ldrb	w22, [sp, #32]
	sub	x0, x29, #32
	add	x1, sp, #48
	mov	w2, #128
	mov	x3, x8
	mov	x4, xzr
	stp	xzr, xzr, [x29, #-32]
	stp	xzr, xzr, [x29, #-48]
	bl	"calculus::derivative::expr_deriv"
	sub	x20, x29, #48
	ldrb	w8, [x20, #16]
	cmp	w8, #1
	b.ne	.LBB21_15
	ldrb	w9, [x20, #17]
	mov	x8, xzr
.LBB21_14:
	mov	w9, w9
	mov	x3, xzr
	add	x0, x9, #1
	b	.LBB21_18
.LBB21_15:
	ldp	x8, x9, [sp, #80]
	sub	x0, x29, #48
	ldp	q0, q1, [sp, #48]
	sub	x2, x29, #96
	ldur	x3, [x29, #-24]
	and	w4, w22, #0x1
	mov	w1, #1
	stp	x8, x9, [x29, #-64]
	ldp	x8, x6, [sp]
	stp	q0, q1, [x29, #-96]
	add	x5, x21, x8
	bl	"algebra::answer::write_sum"
	ldrb	w8, [x20]
	ldrb	w9, [x20, #1]
	ldur	x3, [x29, #-40]
	ands	w10, w8, #0xff
	csel	w8, wzr, w9, eq
	cbz	w10, .LBB21_17
	and	x8, x8, #0xff
	b	.LBB21_11
.LBB21_17:
	mov	x8, xzr
	mov	x0, xzr
.LBB21_18:
	stp	x8, x3, [x19]
	add	sp, sp, #7, lsl #12
	add	sp, sp, #2640
	ldp	x20, x19, [sp, #80]
	ldp	x22, x21, [sp, #64]
	ldp	x24, x23, [sp, #48]
	ldp	x26, x25, [sp, #32]
	ldp	x28, x27, [sp, #16]
	ldp	x29, x30, [sp], #96
	ret
.Lfunc_end21:
	.size	uplink_derivative_faithful, .Lfunc_end21-uplink_derivative_faithful

	.section	.text.uplink_derive,"ax",@progbits
	.globl	uplink_derive
	.p2align	2
	.type	uplink_derive,@function
uplink_derive:
	stp	x29, x30, [sp, #-96]!
	str	x28, [sp, #16]
	mov	x29, sp
	stp	x26, x25, [sp, #32]
	stp	x24, x23, [sp, #48]
	stp	x22, x21, [sp, #64]
	stp	x20, x19, [sp, #80]
	sub	sp, sp, #3072
	str	xzr, [sp]
	sub	sp, sp, #2016
	movi	v0.2d, #0000000000000000
	cmp	x0, #0
	mov	w8, #4096
	mov	x20, x2
	mov	x22, x1
	mov	x23, x0
	csel	x25, x8, xzr, eq
	cmp	x2, #0
	add	x0, sp, #48
	mov	w1, wzr
	mov	w2, #4608
	str	xzr, [sp]
	mov	x19, x4
	mov	x21, x3
	stp	q0, q0, [x29, #-240]
	stp	q0, q0, [x29, #-208]
	csel	x24, x8, xzr, eq
	add	x26, sp, #48
	stp	q0, q0, [x29, #-176]
	stp	q0, q0, [x29, #-144]
	stp	q0, q0, [x29, #-112]
	stp	q0, q0, [x29, #-80]
	str	q0, [sp, #4656]
	str	q0, [sp, #4672]
	str	q0, [sp, #4688]
	str	q0, [sp, #4704]
	str	q0, [sp, #4720]
	str	q0, [sp, #4736]
	str	q0, [sp, #4752]
	str	q0, [sp, #4768]
	str	q0, [sp, #4784]
	str	q0, [sp, #4800]
	str	q0, [sp, #4816]
	str	q0, [sp, #4832]
	bl	memset
	sub	x8, x29, #240
	mov	w9, #192
	cmp	x22, #2079
	stp	x8, x9, [sp]
	add	x8, sp, #1, lsl #12
	mov	w0, #11
	add	x8, x8, #560
	stp	x26, x9, [sp, #32]
	stp	x8, x9, [sp, #16]
	b.hi	.LBB22_11
	and	x8, x22, #0x1f
	cbnz	x8, .LBB22_11
	lsr	x22, x22, #5
	cbz	x22, .LBB22_11
	add	x9, sp, #48
	add	x10, x25, x23
	mov	x8, xzr
	sub	x23, x29, #48
	add	x9, x9, #16
	add	x10, x10, #24
.LBB22_4:
	ldur	w13, [x10, #-24]
	mov	w0, #11
	cmp	w13, #255
	b.hi	.LBB22_11
	ldur	w14, [x10, #-20]
	cmp	w14, #63
	b.hi	.LBB22_11
	add	x11, sp, #1, lsl #12
	sub	x12, x29, #240
	ldur	q0, [x10, #-16]
	add	x11, x11, #560
	strb	w13, [x12, x8]
	ldr	x13, [x10], #32
	strb	w14, [x11, x8]
	add	x8, x8, #1
	stur	q0, [x9, #-16]
	cmp	x22, x8
	str	x13, [x9], #24
	b.ne	.LBB22_4
	mov	w8, #192
	add	x9, sp, #48
	sub	x0, x29, #48
	mov	x1, xzr
	mov	x2, x22
	mov	w3, #4
	stp	x12, x8, [x29, #-48]
	stp	x11, x8, [x29, #-32]
	stp	x9, x8, [x29, #-16]
	bl	"sums::good::good_sum"
	tbz	w0, #0, .LBB22_10
	sub	x0, x29, #48
	mov	x1, sp
	mov	x2, xzr
	mov	x3, x22
	mov	w4, #64
	stp	xzr, xzr, [x29, #-48]
	bl	"calculus::derivative::expr_deriv"
	ldrb	w8, [x23]
	cmp	w8, #1
	b.ne	.LBB22_13
	ldrb	w8, [x23, #1]
	add	x0, x8, #1
	b	.LBB22_11
.LBB22_10:
	sub	x0, x29, #48
	mov	x1, xzr
	mov	x2, x22
	mov	w3, #64
	bl	"sums::good::good_sum"
	mov	w8, #11
	cmp	w0, #0
	mov	w9, #13
	csel	x0, x9, x8, ne
.LBB22_11:
	mov	x8, xzr
.LBB22_12:
	stp	xzr, x8, [x19]
	add	sp, sp, #1, lsl #12
	add	sp, sp, #992
	ldp	x20, x19, [sp, #80]
	ldr	x28, [sp, #16]
	ldp	x22, x21, [sp, #64]
	ldp	x24, x23, [sp, #48]
	ldp	x26, x25, [sp, #32]
	ldp	x29, x30, [sp], #96
	ret
.LBB22_13:
	ldur	x8, [x29, #-40]
	cmp	x8, x21, lsr #5
	b.ls	.LBB22_15
	mov	w0, #17
	b	.LBB22_11
.LBB22_15:
	cbz	x8, .LBB22_18
	add	x11, sp, #1, lsl #12
	add	x9, x24, x20
	add	x10, sp, #48
	add	x11, x11, #560
	sub	x12, x29, #240
	add	x9, x9, #24
	add	x10, x10, #1552
	add	x11, x11, #64
	add	x12, x12, #64
	mov	x13, x8
.LBB22_17:
	ldrb	w14, [x12], #1
	ldur	q0, [x10, #-16]
	ldrb	w15, [x11], #1
	subs	x13, x13, #1
	stur	q0, [x9, #-16]
	stp	w14, w15, [x9, #-24]
	ldr	x14, [x10], #24
	str	x14, [x9], #32
	b.ne	.LBB22_17
.LBB22_18:
	mov	x0, xzr
	b	.LBB22_12
.Lfunc_end22:
	.size	uplink_derive, .Lfunc_end22-uplink_derive

	.section	.rodata.cst8,"aM",@progbits,8
	.p2align	3, 0x0
.LCPI23_0:
	.byte	6
	.byte	3
	.byte	0
	.byte	0
	.zero	1
	.zero	1
	.zero	1
	.zero	1
.LCPI23_1:
	.byte	7
	.byte	0
	.byte	1
	.byte	0
	.zero	1
	.zero	1
	.zero	1
	.zero	1
	.section	.text.uplink_integral,"ax",@progbits
	.globl	uplink_integral
	.p2align	2
	.type	uplink_integral,@function
uplink_integral:
	stp	d15, d14, [sp, #-160]!
	sub	x9, sp, #11, lsl #12
	stp	d13, d12, [sp, #16]
	sub	x9, x9, #1024
	stp	d11, d10, [sp, #32]
	stp	d9, d8, [sp, #48]
	stp	x29, x30, [sp, #64]
	add	x29, sp, #64
	stp	x28, x27, [sp, #80]
	stp	x26, x25, [sp, #96]
	stp	x24, x23, [sp, #112]
	stp	x22, x21, [sp, #128]
	stp	x20, x19, [sp, #144]
.LBB23_1:
	sub	sp, sp, #3072
	cmp	sp, x9
	str	xzr, [sp]
	b.ne	.LBB23_1
	sub	sp, sp, #2304
	movi	v0.2d, #0000000000000000
	cmp	x0, #0
	mov	w8, #4096
	csel	x21, x8, xzr, eq
	cmp	x2, #0
	mov	x20, x0
	csel	x8, x8, xzr, eq
	add	x0, sp, #7, lsl #12
	str	xzr, [sp]
	mov	x25, x1
	stp	x8, x2, [sp, #24]
	add	x0, x0, #2720
	mov	w1, wzr
	mov	w2, #6144
	add	x19, sp, #7, lsl #12
	mov	x24, x4
	str	x3, [sp, #40]
	add	x19, x19, #2720
	stp	q0, q0, [sp, #112]
	str	q0, [sp, #30160]
	str	q0, [sp, #30176]
	str	q0, [sp, #30192]
	str	q0, [sp, #30208]
	str	q0, [sp, #30224]
	str	q0, [sp, #30240]
	str	q0, [sp, #30256]
	str	q0, [sp, #30272]
	str	q0, [sp, #30288]
	str	q0, [sp, #30304]
	str	q0, [sp, #30320]
	str	q0, [sp, #30336]
	str	q0, [sp, #30352]
	str	q0, [sp, #30368]
	str	q0, [sp, #30384]
	str	q0, [sp, #30400]
	str	q0, [sp, #29248]
	str	q0, [sp, #29232]
	str	q0, [sp, #29216]
	str	q0, [sp, #29200]
	str	q0, [sp, #29184]
	str	q0, [sp, #29168]
	str	q0, [sp, #29152]
	str	q0, [sp, #29136]
	str	q0, [sp, #29120]
	str	q0, [sp, #29104]
	str	q0, [sp, #29088]
	str	q0, [sp, #29072]
	str	q0, [sp, #29056]
	str	q0, [sp, #29040]
	str	q0, [sp, #29024]
	str	q0, [sp, #29008]
	bl	memset
	add	x8, sp, #7, lsl #12
	movi	v0.2d, #0000000000000000
	mov	w9, #256
	add	x8, x8, #1488
	add	x0, sp, #112
	add	x1, x20, x21
	stp	x8, x9, [sp, #144]
	add	x8, sp, #7, lsl #12
	add	x3, sp, #144
	add	x8, x8, #336
	mov	x2, x25
	mov	w4, #256
	stp	x8, x9, [sp, #160]
	add	x8, sp, #208
	stp	q0, q0, [sp, #208]
	stp	q0, q0, [sp, #240]
	stp	q0, q0, [sp, #272]
	stp	q0, q0, [sp, #304]
	stp	q0, q0, [sp, #336]
	stp	q0, q0, [sp, #368]
	stp	q0, q0, [sp, #400]
	stp	q0, q0, [sp, #432]
	stp	x19, x9, [sp, #176]
	stp	x8, x9, [sp, #192]
	stp	x21, x20, [sp, #48]
	bl	"algebra::lists::read_sum"
	ldrb	w8, [sp, #112]
	ldr	x10, [sp, #120]
	cmp	w8, #1
	b.ne	.LBB23_5
	ldrb	w8, [sp, #113]
	cmp	w8, #11
	b.eq	.LBB23_133
.LBB23_4:
	mov	w8, w8
	b	.LBB23_302
.LBB23_5:
	movi	v1.2d, #0000000000000000
	ldr	x19, [sp, #144]
	fmov	v0.2d, #1.00000000
	mov	w8, #1
	ldr	x22, [sp, #160]
	ldr	x23, [sp, #176]
	strb	w8, [x19, #64]
	add	x28, x10, #128
	ldrb	w8, [sp, #128]
	cmp	x28, #129
	mov	x21, xzr
	strb	wzr, [x22, #64]
	str	q1, [sp, #31344]
	str	q1, [sp, #31328]
	str	q1, [sp, #31312]
	str	w8, [sp, #104]
	str	q0, [x23, #1536]
	str	xzr, [x23, #1552]
	str	x24, [sp, #64]
	str	x25, [sp, #16]
	b.lo	.LBB23_77
	movi	d8, #0000000000000000
	fmov	d9, #1.00000000
	sub	x8, x29, #112
	add	x9, sp, #7, lsl #12
	orr	x8, x8, #0x2
	add	x9, x9, #2688
	stp	x8, x28, [sp, #72]
	mov	w8, #128
	orr	x22, x9, #0x2
	b	.LBB23_12
.LBB23_7:
	ldr	x27, [sp, #88]
.LBB23_8:
	ldr	x28, [sp, #80]
.LBB23_9:
	ldr	x19, [sp, #96]
.LBB23_10:
	mov	x21, x9
	cbnz	w26, .LBB23_295
.LBB23_11:
	add	x8, x27, x19
	cmp	x8, x28
	b.hs	.LBB23_76
.LBB23_12:
	mov	w9, #24
	ldr	x20, [sp, #176]
	ldr	x25, [sp, #144]
	madd	x10, x8, x9, x20
	ldr	x24, [sp, #160]
	add	x27, x8, #1
	ldrb	w9, [x25, x8]
	ldrb	w19, [x24, x8]
	cmp	w9, #1
	ldp	d11, d10, [x10, #8]
	b.ne	.LBB23_17
	fmov	d0, #1.00000000
	ldr	d1, [x10]
	fadd	d0, d1, d0
	fmov	d3, d0
	fcmp	d3, d8
	b.ne	.LBB23_29
	ldr	x8, [sp, #152]
	ldr	x9, [sp, #168]
	mov	x28, x27
	str	x19, [sp, #96]
	mov	x19, xzr
	str	x8, [sp, #1368]
	ldr	x8, [sp, #184]
	str	x9, [sp, #1384]
	sub	x9, x29, #112
	str	x8, [sp, #1400]
	mov	w8, #259
	strh	w8, [x9]
	ldr	x8, [sp, #72]
	str	x24, [sp, #1376]
	str	wzr, [x8]
	strh	wzr, [x8, #4]
	mov	x8, #22377
	movk	x8, #35604, lsl #16
	str	x25, [sp, #1360]
	movk	x8, #48906, lsl #32
	str	x20, [sp, #1392]
	movk	x8, #16389, lsl #48
	stp	d11, d10, [x9, #16]
	str	x8, [x9, #8]
	cbz	x21, .LBB23_46
.LBB23_15:
	mov	w8, #24
	ldrb	w26, [x24, x19]
	add	x9, sp, #7, lsl #12
	madd	x23, x19, x8, x20
	ldrb	w8, [x25, x19]
	add	x3, sp, #7, lsl #12
	add	x9, x9, #2688
	add	x0, sp, #1360
	sub	x1, x29, #112
	add	x3, x3, #2688
	add	x4, x19, #1
	mov	w2, #64
	mov	w5, #4
	str	wzr, [x22]
	add	x27, x19, #1
	strh	wzr, [x22, #4]
	ldr	q0, [x23]
	ldr	d1, [x23, #16]
	strb	w8, [x9]
	strb	w26, [x9, #1]
	stur	q0, [x9, #8]
	str	d1, [sp, #31384]
	bl	"sums::order::cmp_term"
	and	w8, w0, #0xff
	cmp	w8, #2
	b.ne	.LBB23_45
	add	x19, x27, x26
	cmp	x19, x21
	b.lo	.LBB23_15
	b	.LBB23_46
.LBB23_17:
	cmp	w9, #5
	mov	w8, #6
	b.lo	.LBB23_295
	cmp	w19, #1
	b.ne	.LBB23_295
	mov	w8, #24
	mul	x8, x27, x8
	ldr	d0, [x20, x8]
	ldrb	w8, [x25, x27]
	fcmp	d0, d9
	ccmp	w8, #1, #0, eq
	b.ne	.LBB23_213
	ldr	x8, [sp, #152]
	lsl	x11, x9, #3
	ldr	x10, [sp, #168]
	fneg	d0, d11
	fneg	d1, d10
	cmp	w9, #7
	str	x8, [sp, #1368]
	mov	x8, #506381209866536711
	mov	x28, xzr
	movk	x8, #1543, lsl #32
	str	x10, [sp, #1384]
	mov	w10, #7
	movk	x8, #2053, lsl #48
	stp	x27, x19, [sp, #88]
	lsr	x8, x8, x11
	ldr	x11, [sp, #184]
	str	x25, [sp, #1360]
	str	x24, [sp, #1376]
	csel	w19, w10, w8, hi
	cmp	w9, #5
	sub	x9, x29, #112
	mov	w8, #1
	fcsel	d11, d0, d11, eq
	fcsel	d10, d1, d10, eq
	strb	w8, [x9, #1]
	ldr	x8, [sp, #72]
	str	x20, [sp, #1392]
	str	x11, [sp, #1400]
	strb	w19, [x9]
	str	xzr, [x8]
	stur	xzr, [x8, #6]
	stp	d11, d10, [x9, #16]
	cbz	x21, .LBB23_24
.LBB23_21:
	mov	w8, #24
	ldrb	w26, [x24, x28]
	add	x9, sp, #7, lsl #12
	madd	x23, x28, x8, x20
	ldrb	w8, [x25, x28]
	add	x3, sp, #7, lsl #12
	add	x9, x9, #2688
	add	x0, sp, #1360
	sub	x1, x29, #112
	add	x3, x3, #2688
	add	x4, x28, #1
	mov	w2, #64
	mov	w5, #4
	str	wzr, [x22]
	add	x27, x28, #1
	strh	wzr, [x22, #4]
	ldr	q0, [x23]
	ldr	d1, [x23, #16]
	strb	w8, [x9]
	strb	w26, [x9, #1]
	stur	q0, [x9, #8]
	str	d1, [sp, #31384]
	bl	"sums::order::cmp_term"
	and	w8, w0, #0xff
	cmp	w8, #2
	b.ne	.LBB23_23
	add	x28, x27, x26
	cmp	x28, x21
	b.lo	.LBB23_21
	b	.LBB23_24
.LBB23_23:
	cbnz	w8, .LBB23_52
.LBB23_24:
	fsub	d0, d11, d11
	mov	x9, xzr
	mov	w8, #14
	mov	w26, #1
	fcmp	d0, d8
	b.ne	.LBB23_7
	fsub	d0, d10, d10
	ldr	x27, [sp, #88]
	fcmp	d0, d8
	b.ne	.LBB23_8
	mov	x0, x24
	mov	w1, #64
	mov	w2, #1
	mov	w3, #3
	mov	w26, #1
	bl	"sums::order::nests_inside"
	cbz	w0, .LBB23_56
	add	x9, x21, #2
	cmp	x9, #64
	b.ls	.LBB23_65
	mov	x9, xzr
	mov	w8, #11
	mov	w26, #1
	b	.LBB23_8
.LBB23_29:
	mov	x10, xzr
	cbz	x21, .LBB23_33
.LBB23_30:
	ldrb	w8, [x25, x10]
	cmp	w8, #1
	b.ne	.LBB23_33
	add	x10, x10, #1
	cmp	x21, x10
	b.ne	.LBB23_30
	mov	x10, x21
.LBB23_33:
	fsub	d1, d0, d0
	fcmp	d1, d8
	b.ne	.LBB23_282
	fdiv	d2, d11, d0
	mov	w8, #24
	mov	x9, #16
	madd	x11, x10, x8, x9
	fdiv	d1, d10, d0
.LBB23_35:
	mov	x9, x10
	mov	x8, x11
	cbz	x10, .LBB23_38
	add	x10, x20, x8
	ldur	d4, [x10, #-40]
	fcmp	d3, d4
	cset	w10, mi
	fcmp	d4, d3
	//APP
	//NO_APP
	cset	w11, mi
	//APP
	//NO_APP
	cmp	w11, #0
	mov	w11, #1
	cinc	w11, w11, ne
	cmp	w10, #0
	sub	x10, x9, #1
	csel	w12, wzr, w11, ne
	sub	x11, x8, #24
	cbz	w12, .LBB23_35
	cmp	w12, #2
	b.ne	.LBB23_62
.LBB23_38:
	fsub	d3, d2, d2
	fsub	d4, d1, d1
	fcmp	d3, d8
	fccmp	d4, d8, #0, eq
	b.ne	.LBB23_293
	add	x10, x21, #1
	cmp	x10, #64
	b.hi	.LBB23_294
	cmp	x9, x21
	b.hs	.LBB23_44
	mov	w11, #24
	add	x14, x24, x21
	add	x15, x25, x21
	madd	x13, x21, x11, x20
	mov	x11, x15
	mov	x12, x14
.LBB23_42:
	ldrb	w16, [x11, #-1]!
	sub	x21, x21, #1
	cmp	x9, x21
	strb	w16, [x15]
	ldrb	w15, [x12, #-1]!
	strb	w15, [x14]
	mov	x15, x11
	ldur	q3, [x13, #-24]
	ldur	x14, [x13, #-8]
	str	q3, [x13]
	str	x14, [x13, #16]
	sub	x13, x13, #24
	mov	x14, x12
	b.lo	.LBB23_42
	ldr	x25, [sp, #144]
.LBB23_44:
	mov	w11, #1
	strb	w11, [x25, x9]
	mov	x21, x10
	ldr	x11, [sp, #160]
	strb	wzr, [x11, x9]
	ldr	x9, [sp, #176]
	add	x8, x9, x8
	stp	d0, d2, [x8, #-16]
	str	d1, [x8]
	b	.LBB23_11
.LBB23_45:
	cbnz	w8, .LBB23_57
.LBB23_46:
	fsub	d0, d11, d11
	fsub	d1, d10, d10
	fcmp	d0, d8
	fccmp	d1, d8, #0, eq
	b.eq	.LBB23_49
	mov	x9, xzr
	mov	w8, #14
	mov	w26, #1
.LBB23_48:
	ldr	x19, [sp, #96]
	mov	x27, x28
	ldr	x28, [sp, #80]
	b	.LBB23_10
.LBB23_49:
	mov	x0, x24
	mov	w1, #64
	mov	w2, #1
	mov	w3, #3
	mov	w26, #1
	bl	"sums::order::nests_inside"
	mov	x27, x28
	cbz	w0, .LBB23_61
	add	x9, x21, #2
	ldr	x28, [sp, #80]
	cmp	x9, #64
	b.ls	.LBB23_70
	mov	x9, xzr
	mov	w8, #11
	mov	w26, #1
	b	.LBB23_9
.LBB23_52:
	fsub	d0, d11, d11
	mov	x9, xzr
	mov	w8, #14
	mov	w26, #1
	fcmp	d0, d8
	b.ne	.LBB23_7
	fsub	d0, d10, d10
	ldr	x27, [sp, #88]
	fcmp	d0, d8
	b.ne	.LBB23_8
	mov	x0, x24
	mov	w1, #64
	mov	w2, #1
	mov	w3, #3
	mov	w26, #1
	bl	"sums::order::nests_inside"
	cbz	w0, .LBB23_56
	mov	w26, wzr
	mov	w8, wzr
	stp	d11, d10, [x23, #8]
	mov	x9, x21
	b	.LBB23_8
.LBB23_56:
	mov	x9, xzr
	mov	w8, #12
	b	.LBB23_8
.LBB23_57:
	fsub	d0, d11, d11
	mov	x9, xzr
	mov	w8, #14
	mov	w26, #1
	fcmp	d0, d8
	b.ne	.LBB23_48
	fsub	d0, d10, d10
	ldr	x19, [sp, #96]
	mov	x27, x28
	ldr	x28, [sp, #80]
	fcmp	d0, d8
	b.ne	.LBB23_10
	mov	x0, x24
	mov	w1, #64
	mov	w2, #1
	mov	w3, #3
	mov	w26, #1
	bl	"sums::order::nests_inside"
	cbz	w0, .LBB23_75
	mov	w26, wzr
	mov	w8, wzr
	stp	d11, d10, [x23, #8]
	mov	x9, x21
	b	.LBB23_10
.LBB23_61:
	ldr	x19, [sp, #96]
	ldr	x28, [sp, #80]
	mov	x9, xzr
	mov	w8, #12
	b	.LBB23_10
.LBB23_62:
	fsub	d0, d2, d2
	mov	w8, #14
	fcmp	d0, d8
	b.ne	.LBB23_295
	fsub	d0, d1, d1
	fcmp	d0, d8
	b.ne	.LBB23_295
	add	x8, x20, x11
	stp	d2, d1, [x8, #-8]
	b	.LBB23_11
.LBB23_65:
	cmp	x28, x21
	b.hs	.LBB23_69
	mov	w8, #24
	add	x10, x24, x21
	add	x11, x25, x21
	madd	x8, x21, x8, x20
	add	x10, x10, #1
	add	x11, x11, #1
	sub	x8, x8, #24
.LBB23_67:
	ldurb	w12, [x11, #-2]
	sub	x21, x21, #1
	cmp	x28, x21
	strb	w12, [x11], #-1
	ldurb	w12, [x10, #-2]
	strb	w12, [x10], #-1
	ldr	q0, [x8]
	ldr	x12, [x8, #16]
	str	q0, [x8, #48]
	str	x12, [x8, #64]
	sub	x8, x8, #24
	b.lo	.LBB23_67
	ldr	x25, [sp, #144]
.LBB23_69:
	strb	w19, [x25, x28]
	add	x11, x28, x28, lsl #1
	mov	w12, #1
	ldr	x10, [sp, #160]
	mov	w26, wzr
	mov	w8, wzr
	strb	w12, [x10, x28]
	lsl	x10, x11, #3
	add	x12, x28, #1
	ldr	x11, [sp, #176]
	add	x11, x11, x10
	str	xzr, [x11]
	stp	d11, d10, [x11, #8]
	ldr	x11, [sp, #144]
	ldr	x13, [sp, #160]
	ldr	x15, [sp, #176]
	ldrb	w14, [x11, #64]
	add	x10, x10, x15
	strb	w14, [x11, x12]
	ldrb	w11, [x13, #64]
	strb	w11, [x13, x12]
	ldr	x11, [x15, #1552]
	ldr	q0, [x15, #1536]
	str	x11, [x10, #40]
	stur	q0, [x10, #24]
	b	.LBB23_8
.LBB23_70:
	cmp	x19, x21
	b.hs	.LBB23_74
	mov	w8, #24
	add	x10, x24, x21
	add	x11, x25, x21
	madd	x8, x21, x8, x20
	add	x10, x10, #1
	add	x11, x11, #1
	sub	x8, x8, #24
.LBB23_72:
	ldurb	w12, [x11, #-2]
	sub	x21, x21, #1
	cmp	x19, x21
	strb	w12, [x11], #-1
	ldurb	w12, [x10, #-2]
	strb	w12, [x10], #-1
	ldr	q0, [x8]
	ldr	x12, [x8, #16]
	str	q0, [x8, #48]
	str	x12, [x8, #64]
	sub	x8, x8, #24
	b.lo	.LBB23_72
	ldr	x25, [sp, #144]
.LBB23_74:
	mov	w10, #3
	strb	w10, [x25, x19]
	add	x11, x19, x19, lsl #1
	ldr	x10, [sp, #160]
	mov	w12, #1
	mov	w26, wzr
	mov	w8, wzr
	strb	w12, [x10, x19]
	mov	x12, #22377
	lsl	x10, x11, #3
	ldr	x11, [sp, #176]
	movk	x12, #35604, lsl #16
	movk	x12, #48906, lsl #32
	add	x11, x11, x10
	movk	x12, #16389, lsl #48
	str	x12, [x11]
	add	x12, x19, #1
	stp	d11, d10, [x11, #8]
	ldr	x11, [sp, #144]
	ldr	x13, [sp, #160]
	ldr	x15, [sp, #176]
	ldrb	w14, [x11, #64]
	add	x10, x10, x15
	strb	w14, [x11, x12]
	ldrb	w11, [x13, #64]
	strb	w11, [x13, x12]
	ldr	x11, [x15, #1552]
	ldr	q0, [x15, #1536]
	str	x11, [x10, #40]
	stur	q0, [x10, #24]
	b	.LBB23_9
.LBB23_75:
	mov	x9, xzr
	mov	w8, #12
	b	.LBB23_10
.LBB23_76:
	ldr	x19, [sp, #144]
	ldr	x22, [sp, #160]
	ldr	x23, [sp, #176]
	ldr	x24, [sp, #64]
	ldr	x25, [sp, #16]
.LBB23_77:
	ldr	x8, [sp, #152]
	ldr	x9, [sp, #168]
	cmp	x21, #16
	mov	x27, x19
	str	x22, [sp, #31328]
	str	x8, [sp, #31320]
	ldr	x8, [sp, #184]
	str	x19, [sp, #31312]
	str	x9, [sp, #31336]
	str	x23, [sp, #31344]
	str	x8, [sp, #31352]
	b.hi	.LBB23_103
	add	x0, sp, #1360
	mov	w1, wzr
	mov	w2, #4272
	add	x19, sp, #1360
	bl	memset
	cbz	x21, .LBB23_205
	movi	d8, #0000000000000000
	mov	x9, #-4850376798678024192
	mov	x10, #4372995238176751616
	fmov	d9, #1.00000000
	fmov	d0, x9
	fmov	d11, x10
	sub	x11, x29, #112
	mov	w25, wzr
	mov	x8, xzr
	orr	x20, x11, #0x2
	mov	w10, #32
	mov	w9, #32
	mov	x12, x27
	str	d0, [sp, #96]
	b	.LBB23_82
.LBB23_80:
.LBB23_81:
	fcmp	d13, d8
	cset	w8, ne
	fcmp	d14, d8
	csinc	w11, w8, wzr, eq
	fcmp	d12, d9
	add	x8, x24, x28
	ccmp	w26, #1, #0, eq
	csel	w11, wzr, w11, ne
	cmp	x8, x21
	orr	w25, w25, w11
	b.hs	.LBB23_207
.LBB23_82:
	mov	w11, #24
	ldrb	w26, [x12, x8]
	ldrb	w28, [x22, x8]
	madd	x11, x8, x11, x23
	add	x24, x8, #1
	str	xzr, [sp, #31360]
	str	xzr, [sp, #31376]
	str	xzr, [sp, #31368]
	ldp	d12, d15, [x11]
	ldr	d10, [x11, #16]
	sub	x11, x29, #112
	str	wzr, [x20]
	fmov	d14, d10
	strb	w26, [x11]
	fmov	d13, d15
	strb	w28, [x11, #1]
	strh	wzr, [x20, #4]
	stp	d12, d15, [x11, #8]
	str	d10, [x11, #24]
	fcmp	d13, d8
	fccmp	d14, d8, #0, eq
	b.eq	.LBB23_80
	cmp	x10, x9
	cset	w8, ne
	orr	w19, w25, w8
	tbz	w19, #0, .LBB23_86
	mov	w8, #24
	cmp	x10, x9
	b.eq	.LBB23_87
	add	x11, sp, #1360
	madd	x8, x9, x8, x11
	sub	x7, x9, #2
	adrp	x11, .LCPI23_0
	ldr	d0, [x11, :lo12:.LCPI23_0]
	sub	w11, w10, w9
	add	w12, w11, #1
	stur	w12, [x8, #-44]
	adrp	x12, .LCPI23_1
	stur	s0, [x8, #-48]
	ldr	d0, [x12, :lo12:.LCPI23_1]
	stp	xzr, xzr, [x8, #-40]
	stur	s0, [x8, #-24]
	stur	w11, [x8, #-20]
	stp	xzr, xzr, [x8, #-16]
	b	.LBB23_88
.LBB23_86:
	mov	x7, x10
	b	.LBB23_88
.LBB23_87:
	add	x9, sp, #1360
	madd	x8, x10, x8, x9
	mov	x7, x10
	mov	w9, #773
	strh	w9, [x8]
	add	x9, x10, #1
	stur	xzr, [x8, #10]
	mov	x10, x9
	stur	xzr, [x8, #2]
	str	xzr, [x8, #16]
.LBB23_88:
	ldr	w8, [sp, #104]
	add	x0, sp, #7, lsl #12
	add	x1, sp, #7, lsl #12
	add	x0, x0, #2688
	add	x1, x1, #2640
	sub	x2, x29, #112
	and	w4, w8, #0x1
	add	x6, sp, #1360
	mov	x3, x24
	mov	w5, #3
	str	x10, [sp]
	bl	"writing::write_term"
	add	x8, sp, #7, lsl #12
	add	x8, x8, #2688
	ldrb	w8, [x8]
	cbnz	w8, .LBB23_130
	fcmp	d12, d8
	ldr	x9, [sp, #31368]
	ldr	x10, [sp, #31376]
	ccmp	w26, #1, #0, eq
	cset	w8, ne
	fcmp	d14, d8
	fccmp	d13, d9, #0, eq
	b.eq	.LBB23_100
	cbz	w8, .LBB23_100
	ldr	w8, [sp, #104]
	tbz	w8, #0, .LBB23_95
	fsub	d0, d15, d15
	mov	w8, #14
	fcmp	d0, d8
	b.ne	.LBB23_131
	fsub	d0, d10, d10
	fcmp	d0, d8
	b.ne	.LBB23_131
	mov	w8, #2
	b	.LBB23_99
.LBB23_95:
	ldr	d0, [sp, #96]
	mov	w8, #14
	fcmp	d0, d14
	fsub	d0, d15, d15
	cset	w12, mi
	fcmp	d14, d11
	//APP
	//NO_APP
	cset	w11, mi
	fcmp	d0, d8
	//APP
	//NO_APP
	b.ne	.LBB23_131
	cbz	w12, .LBB23_131
	cbz	w11, .LBB23_131
	mov	w8, #1
.LBB23_99:
	mov	w11, #24
	add	x12, sp, #1360
	madd	x11, x10, x11, x12
	ldr	w12, [sp, #104]
	add	x10, x10, #2
	tst	w12, #0x1
	mov	w12, #2565
	strb	w8, [x11]
	fmov	x8, d10
	stur	wzr, [x11, #1]
	str	wzr, [x11, #4]
	csel	x8, x8, xzr, ne
	str	d15, [x11, #8]
	str	x8, [x11, #16]
	strh	w12, [x11, #24]
	stur	xzr, [x11, #34]
	stur	xzr, [x11, #26]
	str	xzr, [x11, #40]
.LBB23_100:
	tbz	w19, #0, .LBB23_102
	mov	w8, #24
	add	x11, sp, #1360
	madd	x8, x10, x8, x11
	mov	w11, #2053
	add	x10, x10, #1
	strh	w11, [x8]
	stur	xzr, [x8, #10]
	stur	xzr, [x8, #2]
	str	xzr, [x8, #16]
.LBB23_102:
	mov	x12, x27
	b	.LBB23_81
.LBB23_103:
	movi	d8, #0000000000000000
	mov	x8, #-4850376798678024192
	mov	x9, #4372995238176751616
	fmov	d9, #1.00000000
	fmov	d0, x8
	fmov	d11, x9
	sub	x10, x29, #112
	add	x0, sp, #1360
	mov	w1, wzr
	mov	w2, #16944
	orr	x25, x10, #0x2
	str	d0, [sp, #96]
	bl	memset
	mov	w20, wzr
	mov	x8, xzr
	mov	w9, #128
	mov	w10, #128
	b	.LBB23_106
.LBB23_104:
.LBB23_105:
	fcmp	d13, d8
	cset	w8, ne
	fcmp	d14, d8
	csinc	w11, w8, wzr, eq
	fcmp	d12, d9
	add	x8, x24, x26
	ccmp	w28, #1, #0, eq
	csel	w11, wzr, w11, ne
	cmp	x8, x21
	orr	w20, w20, w11
	b.hs	.LBB23_127
.LBB23_106:
	mov	w11, #24
	ldrb	w28, [x19, x8]
	ldrb	w26, [x22, x8]
	madd	x11, x8, x11, x23
	add	x24, x8, #1
	str	xzr, [sp, #31360]
	str	xzr, [sp, #31376]
	str	xzr, [sp, #31368]
	ldp	d12, d15, [x11]
	ldr	d10, [x11, #16]
	sub	x11, x29, #112
	str	wzr, [x25]
	fmov	d14, d10
	strb	w28, [x11]
	fmov	d13, d15
	strb	w26, [x11, #1]
	strh	wzr, [x25, #4]
	stp	d12, d15, [x11, #8]
	str	d10, [x11, #24]
	fcmp	d13, d8
	fccmp	d14, d8, #0, eq
	b.eq	.LBB23_104
	cmp	x9, x10
	cset	w8, ne
	orr	w19, w20, w8
	tbz	w19, #0, .LBB23_110
	mov	w8, #24
	cmp	x9, x10
	b.eq	.LBB23_111
	add	x11, sp, #1360
	madd	x8, x10, x8, x11
	sub	x7, x10, #2
	adrp	x11, .LCPI23_0
	ldr	d0, [x11, :lo12:.LCPI23_0]
	sub	w11, w9, w10
	add	w12, w11, #1
	stur	w12, [x8, #-44]
	adrp	x12, .LCPI23_1
	stur	s0, [x8, #-48]
	ldr	d0, [x12, :lo12:.LCPI23_1]
	stp	xzr, xzr, [x8, #-40]
	stur	s0, [x8, #-24]
	stur	w11, [x8, #-20]
	stp	xzr, xzr, [x8, #-16]
	b	.LBB23_112
.LBB23_110:
	mov	x7, x9
	b	.LBB23_112
.LBB23_111:
	add	x10, sp, #1360
	madd	x8, x9, x8, x10
	mov	x7, x9
	mov	w10, #773
	strh	w10, [x8]
	add	x10, x9, #1
	stur	xzr, [x8, #10]
	mov	x9, x10
	stur	xzr, [x8, #2]
	str	xzr, [x8, #16]
.LBB23_112:
	ldr	w8, [sp, #104]
	add	x0, sp, #7, lsl #12
	add	x1, sp, #7, lsl #12
	add	x0, x0, #2688
	add	x1, x1, #2640
	sub	x2, x29, #112
	and	w4, w8, #0x1
	add	x6, sp, #1360
	mov	x3, x24
	mov	w5, #3
	str	x9, [sp]
	bl	"writing::write_term"
	add	x8, sp, #7, lsl #12
	add	x8, x8, #2688
	ldrb	w8, [x8]
	cbnz	w8, .LBB23_130
	fcmp	d12, d8
	ldr	x10, [sp, #31368]
	ldr	x9, [sp, #31376]
	ccmp	w28, #1, #0, eq
	cset	w8, ne
	fcmp	d14, d8
	fccmp	d13, d9, #0, eq
	b.eq	.LBB23_124
	cbz	w8, .LBB23_124
	fsub	d0, d15, d15
	ldr	w8, [sp, #104]
	tbz	w8, #0, .LBB23_119
	fcmp	d0, d8
	mov	w8, #14
	b.ne	.LBB23_131
	fsub	d0, d10, d10
	fcmp	d0, d8
	b.ne	.LBB23_131
	mov	w8, #2
	b	.LBB23_123
.LBB23_119:
	ldr	d1, [sp, #96]
	mov	w8, #14
	fcmp	d1, d14
	cset	w11, mi
	fcmp	d14, d11
	//APP
	//NO_APP
	cset	w12, mi
	fcmp	d0, d8
	//APP
	//NO_APP
	b.ne	.LBB23_131
	cbz	w11, .LBB23_131
	cbz	w12, .LBB23_131
	mov	w8, #1
.LBB23_123:
	mov	w11, #24
	add	x12, sp, #1360
	madd	x11, x9, x11, x12
	ldr	w12, [sp, #104]
	add	x9, x9, #2
	tst	w12, #0x1
	mov	w12, #2565
	strb	w8, [x11]
	fmov	x8, d10
	stur	wzr, [x11, #1]
	str	wzr, [x11, #4]
	csel	x8, x8, xzr, ne
	str	d15, [x11, #8]
	str	x8, [x11, #16]
	strh	w12, [x11, #24]
	stur	xzr, [x11, #34]
	stur	xzr, [x11, #26]
	str	xzr, [x11, #40]
.LBB23_124:
	tbz	w19, #0, .LBB23_126
	mov	w8, #24
	add	x11, sp, #1360
	madd	x8, x9, x8, x11
	mov	w11, #2053
	add	x9, x9, #1
	strh	w11, [x8]
	stur	xzr, [x8, #10]
	stur	xzr, [x8, #2]
	str	xzr, [x8, #16]
.LBB23_126:
	mov	x19, x27
	b	.LBB23_105
.LBB23_127:
	ldr	x25, [sp, #16]
	cmp	x10, x9
	b.ne	.LBB23_276
	mov	w8, #24
	add	x9, sp, #1360
	madd	x8, x10, x8, x9
	tbz	w20, #0, .LBB23_275
	mov	w9, #261
	stur	xzr, [x8, #10]
	strh	w9, [x8]
	add	x9, x10, #1
	stur	xzr, [x8, #2]
	str	xzr, [x8, #16]
	b	.LBB23_276
.LBB23_130:
	add	x8, sp, #7, lsl #12
	add	x8, x8, #2688
	ldrb	w8, [x8, #1]
.LBB23_131:
	ldr	x24, [sp, #64]
	ldr	x25, [sp, #16]
	mov	x19, xzr
	mov	w9, #1
	mov	x10, xzr
	cbz	w9, .LBB23_280
.LBB23_132:
	cmp	w8, #11
	b.ne	.LBB23_4
.LBB23_133:
	movi	v0.2d, #0000000000000000
	add	x0, sp, #7, lsl #12
	mov	w1, wzr
	add	x0, x0, #1488
	mov	w2, #1152
	add	x20, sp, #7, lsl #12
	mov	w19, #1152
	add	x20, x20, #1488
	stp	q0, q0, [sp, #112]
	bl	memset
	add	x0, sp, #7, lsl #12
	mov	w1, wzr
	mov	w2, #1152
	add	x0, x0, #336
	add	x21, sp, #7, lsl #12
	add	x21, x21, #336
	bl	memset
	add	x0, sp, #1360
	mov	w1, wzr
	mov	w2, #27648
	add	x22, sp, #1360
	bl	memset
	add	x0, sp, #208
	mov	w1, wzr
	mov	w2, #1152
	add	x23, sp, #208
	bl	memset
	ldp	x9, x8, [sp, #48]
	add	x0, sp, #112
	add	x3, sp, #144
	mov	x2, x25
	mov	w4, #1152
	stp	x20, x19, [sp, #144]
	add	x1, x8, x9
	stp	x21, x19, [sp, #160]
	stp	x22, x19, [sp, #176]
	stp	x23, x19, [sp, #192]
	bl	"algebra::lists::read_sum"
	ldrb	w8, [sp, #112]
	ldr	x10, [sp, #120]
	cmp	w8, #1
	b.ne	.LBB23_135
	ldrb	w9, [sp, #113]
	b	.LBB23_301
.LBB23_135:
	movi	v1.2d, #0000000000000000
	ldr	x11, [sp, #144]
	fmov	v0.2d, #1.00000000
	mov	w8, #1
	ldr	x21, [sp, #160]
	ldr	x25, [sp, #176]
	strb	w8, [x11, #64]
	add	x8, x10, #128
	ldrb	w27, [sp, #128]
	str	x24, [sp, #64]
	cmp	x8, #129
	mov	x24, xzr
	str	q1, [sp, #31344]
	str	q1, [sp, #31328]
	str	q1, [sp, #31312]
	strb	wzr, [x21, #64]
	str	q0, [x25, #1536]
	str	x8, [sp, #96]
	str	xzr, [x25, #1552]
	b.lo	.LBB23_215
	movi	d8, #0000000000000000
	fmov	d9, #1.00000000
	add	x9, sp, #7, lsl #12
	sub	x8, x29, #112
	add	x9, x9, #2688
	str	w27, [sp, #56]
	orr	x8, x8, #0x2
	orr	x28, x9, #0x2
	mov	w9, #128
	str	x8, [sp, #80]
	b	.LBB23_139
.LBB23_137:
	mov	w11, #1
	strb	w11, [x23, x9]
	mov	x24, x10
	ldr	x11, [sp, #160]
	strb	wzr, [x11, x9]
	ldr	x9, [sp, #176]
	add	x8, x9, x8
	stp	d0, d2, [x8, #-16]
	str	d1, [x8]
.LBB23_138:
	ldr	x8, [sp, #96]
	add	x9, x21, x25
	cmp	x9, x8
	b.hs	.LBB23_214
.LBB23_139:
	mov	w8, #24
	ldr	x20, [sp, #176]
	ldr	x23, [sp, #144]
	madd	x10, x9, x8, x20
	ldr	x22, [sp, #160]
	add	x21, x9, #1
	ldrb	w8, [x23, x9]
	ldrb	w25, [x22, x9]
	cmp	w8, #1
	ldp	d11, d10, [x10, #8]
	b.ne	.LBB23_144
	fmov	d0, #1.00000000
	ldr	d1, [x10]
	fadd	d0, d1, d0
	fmov	d3, d0
	fcmp	d3, d8
	b.ne	.LBB23_160
	ldr	x8, [sp, #152]
	ldr	x9, [sp, #168]
	mov	x27, x25
	str	x21, [sp, #104]
	mov	x21, xzr
	str	x8, [sp, #31400]
	ldr	x8, [sp, #184]
	str	x9, [sp, #31416]
	sub	x9, x29, #112
	str	x8, [sp, #31432]
	mov	w8, #259
	strh	w8, [x9]
	ldr	x8, [sp, #80]
	str	x22, [sp, #31408]
	str	wzr, [x8]
	strh	wzr, [x8, #4]
	mov	x8, #22377
	movk	x8, #35604, lsl #16
	str	x23, [sp, #31392]
	movk	x8, #48906, lsl #32
	str	x20, [sp, #31424]
	movk	x8, #16389, lsl #48
	stp	d11, d10, [x9, #16]
	str	x8, [x9, #8]
	cbz	x24, .LBB23_176
.LBB23_142:
	mov	w8, #24
	ldrb	w25, [x22, x21]
	add	x9, sp, #7, lsl #12
	madd	x19, x21, x8, x20
	ldrb	w8, [x23, x21]
	add	x0, sp, #7, lsl #12
	add	x3, sp, #7, lsl #12
	add	x9, x9, #2688
	add	x0, x0, #2720
	sub	x1, x29, #112
	add	x3, x3, #2688
	add	x4, x21, #1
	mov	w2, #64
	mov	w5, #4
	str	wzr, [x28]
	strh	wzr, [x28, #4]
	add	x26, x21, #1
	ldr	q0, [x19]
	ldr	d1, [x19, #16]
	strb	w8, [x9]
	strb	w25, [x9, #1]
	stur	q0, [x9, #8]
	str	d1, [sp, #31384]
	bl	"sums::order::cmp_term"
	and	w8, w0, #0xff
	cmp	w8, #2
	b.ne	.LBB23_175
	add	x21, x26, x25
	cmp	x21, x24
	b.lo	.LBB23_142
	b	.LBB23_176
.LBB23_144:
	cmp	w8, #5
	mov	w9, #6
	b.lo	.LBB23_300
	cmp	w25, #1
	b.ne	.LBB23_300
	mov	w9, #24
	mul	x9, x21, x9
	ldr	d0, [x20, x9]
	ldrb	w9, [x23, x21]
	fcmp	d0, d9
	ccmp	w9, #1, #0, eq
	b.ne	.LBB23_281
	ldr	x9, [sp, #152]
	lsl	x11, x8, #3
	ldr	x10, [sp, #168]
	fneg	d0, d11
	fneg	d1, d10
	cmp	w8, #7
	str	x9, [sp, #31400]
	mov	x9, #506381209866536711
	movk	x9, #1543, lsl #32
	str	x10, [sp, #31416]
	mov	w10, #7
	movk	x9, #2053, lsl #48
	str	x21, [sp, #104]
	mov	x21, xzr
	lsr	x9, x9, x11
	ldr	x11, [sp, #184]
	str	x25, [sp, #88]
	mov	w25, w27
	str	x23, [sp, #31392]
	csel	w10, w10, w9, hi
	cmp	w8, #5
	sub	x9, x29, #112
	mov	w8, #1
	fcsel	d11, d0, d11, eq
	fcsel	d10, d1, d10, eq
	strb	w8, [x9, #1]
	ldr	x8, [sp, #80]
	str	x22, [sp, #31408]
	str	x20, [sp, #31424]
	str	x11, [sp, #31432]
	str	w10, [sp, #72]
	strb	w10, [x9]
	str	xzr, [x8]
	stur	xzr, [x8, #6]
	stp	d11, d10, [x9, #16]
	cbz	x24, .LBB23_151
.LBB23_148:
	mov	w8, #24
	ldrb	w26, [x22, x21]
	add	x9, sp, #7, lsl #12
	madd	x19, x21, x8, x20
	ldrb	w8, [x23, x21]
	add	x0, sp, #7, lsl #12
	add	x3, sp, #7, lsl #12
	add	x9, x9, #2688
	add	x0, x0, #2720
	sub	x1, x29, #112
	add	x3, x3, #2688
	add	x4, x21, #1
	mov	w2, #64
	mov	w5, #4
	str	wzr, [x28]
	strh	wzr, [x28, #4]
	add	x27, x21, #1
	ldr	q0, [x19]
	ldr	d1, [x19, #16]
	strb	w8, [x9]
	strb	w26, [x9, #1]
	stur	q0, [x9, #8]
	str	d1, [sp, #31384]
	bl	"sums::order::cmp_term"
	and	w8, w0, #0xff
	cmp	w8, #2
	b.ne	.LBB23_150
	add	x21, x27, x26
	cmp	x21, x24
	b.lo	.LBB23_148
	b	.LBB23_151
.LBB23_150:
	cbnz	w8, .LBB23_182
.LBB23_151:
	fsub	d0, d11, d11
	mov	x8, xzr
	mov	w9, #14
	mov	w26, #1
	fcmp	d0, d8
	b.ne	.LBB23_186
	fsub	d0, d10, d10
	mov	w27, w25
	ldr	x25, [sp, #88]
	fcmp	d0, d8
	b.ne	.LBB23_202
	mov	x0, x22
	mov	w1, #64
	mov	w2, #1
	mov	w3, #3
	mov	w26, #1
	bl	"sums::order::nests_inside"
	cbz	w0, .LBB23_187
	add	x8, x24, #2
	cmp	x8, #64
	b.hi	.LBB23_181
	cmp	x21, x24
	b.hs	.LBB23_159
	mov	w9, #24
	add	x10, x22, x24
	add	x11, x23, x24
	madd	x9, x24, x9, x20
	add	x10, x10, #1
	add	x11, x11, #1
	sub	x9, x9, #24
.LBB23_157:
	ldurb	w12, [x11, #-2]
	sub	x24, x24, #1
	cmp	x21, x24
	strb	w12, [x11], #-1
	ldurb	w12, [x10, #-2]
	strb	w12, [x10], #-1
	ldr	q0, [x9]
	ldr	x12, [x9, #16]
	str	q0, [x9, #48]
	str	x12, [x9, #64]
	sub	x9, x9, #24
	b.lo	.LBB23_157
	ldr	x23, [sp, #144]
.LBB23_159:
	ldr	w10, [sp, #72]
	add	x11, x21, x21, lsl #1
	mov	w12, #1
	strb	w10, [x23, x21]
	mov	w26, wzr
	mov	w9, wzr
	ldr	x10, [sp, #160]
	strb	w12, [x10, x21]
	lsl	x10, x11, #3
	ldr	x11, [sp, #176]
	add	x11, x11, x10
	str	xzr, [x11]
	b	.LBB23_201
.LBB23_160:
	mov	x10, xzr
	cbz	x24, .LBB23_164
.LBB23_161:
	ldrb	w8, [x23, x10]
	cmp	w8, #1
	b.ne	.LBB23_164
	add	x10, x10, #1
	cmp	x24, x10
	b.ne	.LBB23_161
	mov	x10, x24
.LBB23_164:
	fsub	d1, d0, d0
	fcmp	d1, d8
	b.ne	.LBB23_296
	fdiv	d2, d11, d0
	mov	w8, #24
	mov	x9, #16
	madd	x11, x10, x8, x9
	fdiv	d1, d10, d0
.LBB23_166:
	mov	x9, x10
	mov	x8, x11
	cbz	x10, .LBB23_169
	add	x10, x20, x8
	ldur	d4, [x10, #-40]
	fcmp	d3, d4
	cset	w10, mi
	fcmp	d4, d3
	//APP
	//NO_APP
	cset	w11, mi
	//APP
	//NO_APP
	cmp	w11, #0
	mov	w11, #1
	cinc	w11, w11, ne
	cmp	w10, #0
	sub	x10, x9, #1
	csel	w12, wzr, w11, ne
	sub	x11, x8, #24
	cbz	w12, .LBB23_166
	cmp	w12, #2
	b.ne	.LBB23_193
.LBB23_169:
	fsub	d3, d2, d2
	fsub	d4, d1, d1
	fcmp	d3, d8
	fccmp	d4, d8, #0, eq
	b.ne	.LBB23_298
	add	x10, x24, #1
	cmp	x10, #64
	b.hi	.LBB23_299
	cmp	x9, x24
	b.hs	.LBB23_137
	mov	w11, #24
	add	x14, x22, x24
	add	x15, x23, x24
	madd	x13, x24, x11, x20
	mov	x11, x15
	mov	x12, x14
.LBB23_173:
	ldrb	w16, [x11, #-1]!
	sub	x24, x24, #1
	cmp	x9, x24
	strb	w16, [x15]
	ldrb	w15, [x12, #-1]!
	strb	w15, [x14]
	mov	x15, x11
	ldur	q3, [x13, #-24]
	ldur	x14, [x13, #-8]
	str	q3, [x13]
	str	x14, [x13, #16]
	sub	x13, x13, #24
	mov	x14, x12
	b.lo	.LBB23_173
	ldr	x23, [sp, #144]
	b	.LBB23_137
.LBB23_175:
	cbnz	w8, .LBB23_188
.LBB23_176:
	fsub	d0, d11, d11
	fsub	d1, d10, d10
	fcmp	d0, d8
	fccmp	d1, d8, #0, eq
	b.eq	.LBB23_179
	mov	x8, xzr
	mov	w9, #14
	mov	w26, #1
.LBB23_178:
	mov	x25, x27
	ldr	w27, [sp, #56]
	b	.LBB23_202
.LBB23_179:
	mov	x0, x22
	mov	w1, #64
	mov	w2, #1
	mov	w3, #3
	mov	w26, #1
	bl	"sums::order::nests_inside"
	mov	x25, x27
	cbz	w0, .LBB23_192
	add	x8, x24, #2
	ldr	w27, [sp, #56]
	cmp	x8, #64
	b.ls	.LBB23_196
.LBB23_181:
	mov	x8, xzr
	mov	w9, #11
	mov	w26, #1
	b	.LBB23_202
.LBB23_182:
	fsub	d0, d11, d11
	mov	x8, xzr
	mov	w9, #14
	mov	w26, #1
	fcmp	d0, d8
	b.ne	.LBB23_186
	fsub	d0, d10, d10
	mov	w27, w25
	ldr	x25, [sp, #88]
	fcmp	d0, d8
	b.ne	.LBB23_202
	mov	x0, x22
	mov	w1, #64
	mov	w2, #1
	mov	w3, #3
	mov	w26, #1
	bl	"sums::order::nests_inside"
	cbz	w0, .LBB23_187
	mov	w26, wzr
	mov	w9, wzr
	stp	d11, d10, [x19, #8]
	mov	x8, x24
	b	.LBB23_202
.LBB23_186:
	mov	w27, w25
	ldr	x25, [sp, #88]
	b	.LBB23_202
.LBB23_187:
	mov	x8, xzr
	mov	w9, #12
	b	.LBB23_202
.LBB23_188:
	fsub	d0, d11, d11
	mov	x8, xzr
	mov	w9, #14
	mov	w26, #1
	fcmp	d0, d8
	b.ne	.LBB23_178
	fsub	d0, d10, d10
	mov	x25, x27
	ldr	w27, [sp, #56]
	ldr	x21, [sp, #104]
	fcmp	d0, d8
	b.ne	.LBB23_203
	mov	x0, x22
	mov	w1, #64
	mov	w2, #1
	mov	w3, #3
	mov	w26, #1
	bl	"sums::order::nests_inside"
	cbz	w0, .LBB23_204
	mov	w26, wzr
	mov	w9, wzr
	stp	d11, d10, [x19, #8]
	cbz	w26, .LBB23_138
	b	.LBB23_300
.LBB23_192:
	ldr	w27, [sp, #56]
	mov	x8, xzr
	mov	w9, #12
	b	.LBB23_202
.LBB23_193:
	fsub	d0, d2, d2
	mov	w9, #14
	fcmp	d0, d8
	b.ne	.LBB23_300
	fsub	d0, d1, d1
	fcmp	d0, d8
	b.ne	.LBB23_300
	add	x8, x20, x11
	stp	d2, d1, [x8, #-8]
	b	.LBB23_138
.LBB23_196:
	cmp	x21, x24
	b.hs	.LBB23_200
	mov	w9, #24
	add	x10, x22, x24
	add	x11, x23, x24
	madd	x9, x24, x9, x20
	add	x10, x10, #1
	add	x11, x11, #1
	sub	x9, x9, #24
.LBB23_198:
	ldurb	w12, [x11, #-2]
	sub	x24, x24, #1
	cmp	x21, x24
	strb	w12, [x11], #-1
	ldurb	w12, [x10, #-2]
	strb	w12, [x10], #-1
	ldr	q0, [x9]
	ldr	x12, [x9, #16]
	str	q0, [x9, #48]
	str	x12, [x9, #64]
	sub	x9, x9, #24
	b.lo	.LBB23_198
	ldr	x23, [sp, #144]
.LBB23_200:
	mov	w10, #3
	strb	w10, [x23, x21]
	add	x11, x21, x21, lsl #1
	ldr	x10, [sp, #160]
	mov	w12, #1
	mov	w26, wzr
	mov	w9, wzr
	strb	w12, [x10, x21]
	mov	x12, #22377
	lsl	x10, x11, #3
	ldr	x11, [sp, #176]
	movk	x12, #35604, lsl #16
	movk	x12, #48906, lsl #32
	add	x11, x11, x10
	movk	x12, #16389, lsl #48
	str	x12, [x11]
.LBB23_201:
	stp	d11, d10, [x11, #8]
	add	x12, x21, #1
	ldr	x11, [sp, #144]
	ldr	x13, [sp, #160]
	ldr	x15, [sp, #176]
	ldrb	w14, [x11, #64]
	add	x10, x10, x15
	strb	w14, [x11, x12]
	ldrb	w11, [x13, #64]
	strb	w11, [x13, x12]
	ldr	x11, [x15, #1552]
	ldr	q0, [x15, #1536]
	str	x11, [x10, #40]
	stur	q0, [x10, #24]
.LBB23_202:
	ldr	x21, [sp, #104]
.LBB23_203:
	mov	x24, x8
	cbz	w26, .LBB23_138
	b	.LBB23_300
.LBB23_204:
	mov	x8, xzr
	mov	w9, #12
	mov	x24, x8
	cbz	w26, .LBB23_138
	b	.LBB23_300
.LBB23_205:
	add	x8, x19, #768
	add	x10, x19, #769
	mov	w9, #32
.LBB23_206:
	stp	xzr, xzr, [x10]
	mov	w11, #1
	stur	xzr, [x10, #15]
	mov	w10, #2565
	strh	w10, [x8, #24]
	add	x10, x9, #2
	strb	w11, [x8]
	str	xzr, [x8, #40]
	stur	xzr, [x8, #26]
	stur	xzr, [x8, #34]
	b	.LBB23_211
.LBB23_207:
	cmp	x9, x10
	b.ne	.LBB23_210
	mov	w8, #24
	add	x10, sp, #1360
	madd	x8, x9, x8, x10
	tbz	w25, #0, .LBB23_283
	mov	w10, #261
	stur	xzr, [x8, #10]
	strh	w10, [x8]
	add	x10, x9, #1
	stur	xzr, [x8, #2]
	str	xzr, [x8, #16]
.LBB23_210:
	ldr	x24, [sp, #64]
	ldr	x25, [sp, #16]
.LBB23_211:
	mov	x8, #-6148914691236517206
	ldr	x11, [sp, #40]
	sub	x19, x10, x9
	movk	x8, #43691
	umulh	x8, x11, x8
	cmp	x19, x8, lsr #4
	b.hi	.LBB23_277
	mov	w8, #24
	add	x10, sp, #1360
	madd	x1, x9, x8, x10
	b	.LBB23_279
.LBB23_213:
	mov	w8, #6
	b	.LBB23_295
.LBB23_214:
	ldr	x11, [sp, #144]
	ldr	x21, [sp, #160]
	ldr	x25, [sp, #176]
.LBB23_215:
	ldr	x8, [sp, #152]
	ldr	x9, [sp, #168]
	cmp	x24, #16
	str	x21, [sp, #31328]
	str	x8, [sp, #31320]
	ldr	x8, [sp, #184]
	str	x11, [sp, #104]
	str	x11, [sp, #31312]
	str	x9, [sp, #31336]
	str	x25, [sp, #31344]
	str	x8, [sp, #31352]
	b.hi	.LBB23_241
	add	x0, sp, #7, lsl #12
	mov	w1, wzr
	mov	w2, #4272
	add	x0, x0, #2720
	add	x19, sp, #7, lsl #12
	add	x19, x19, #2720
	bl	memset
	cbz	x24, .LBB23_270
	movi	d8, #0000000000000000
	mov	x8, #-4850376798678024192
	mov	x9, #4372995238176751616
	fmov	d9, #1.00000000
	fmov	d0, x8
	fmov	d11, x9
	sub	x11, x29, #112
	ldr	x13, [sp, #104]
	mov	w20, wzr
	mov	x10, xzr
	orr	x23, x11, #0x2
	mov	w9, #32
	mov	w8, #32
	str	d0, [sp, #96]
	b	.LBB23_220
.LBB23_218:
.LBB23_219:
	fcmp	d13, d8
	cset	w10, ne
	fcmp	d14, d8
	csinc	w11, w10, wzr, eq
	fcmp	d12, d9
	add	x10, x22, x19
	ccmp	w26, #1, #0, eq
	csel	w11, wzr, w11, ne
	cmp	x10, x24
	orr	w20, w20, w11
	b.hs	.LBB23_272
.LBB23_220:
	mov	w11, #24
	ldrb	w26, [x13, x10]
	ldrb	w19, [x21, x10]
	madd	x11, x10, x11, x25
	add	x22, x10, #1
	str	xzr, [sp, #31360]
	str	xzr, [sp, #31376]
	str	xzr, [sp, #31368]
	ldp	d12, d15, [x11]
	ldr	d10, [x11, #16]
	sub	x11, x29, #112
	str	wzr, [x23]
	fmov	d14, d10
	strb	w26, [x11]
	fmov	d13, d15
	strb	w19, [x11, #1]
	strh	wzr, [x23, #4]
	stp	d12, d15, [x11, #8]
	str	d10, [x11, #24]
	fcmp	d13, d8
	fccmp	d14, d8, #0, eq
	b.eq	.LBB23_218
	cmp	x9, x8
	cset	w10, ne
	orr	w28, w20, w10
	tbz	w28, #0, .LBB23_224
	cmp	x9, x8
	b.eq	.LBB23_225
	mov	w10, #24
	add	x11, sp, #7, lsl #12
	adrp	x13, .LCPI23_1
	add	x11, x11, #2720
	madd	x10, x8, x10, x11
	sub	x7, x8, #2
	adrp	x11, .LCPI23_0
	ldr	d0, [x11, :lo12:.LCPI23_0]
	sub	w11, w9, w8
	add	w12, w11, #1
	stur	s0, [x10, #-48]
	ldr	d0, [x13, :lo12:.LCPI23_1]
	stur	w12, [x10, #-44]
	stp	xzr, xzr, [x10, #-40]
	stur	s0, [x10, #-24]
	stur	w11, [x10, #-20]
	stp	xzr, xzr, [x10, #-16]
	b	.LBB23_226
.LBB23_224:
	mov	x7, x9
	b	.LBB23_226
.LBB23_225:
	mov	w8, #24
	add	x10, sp, #7, lsl #12
	mov	x7, x9
	add	x10, x10, #2720
	madd	x8, x9, x8, x10
	mov	w10, #773
	strh	w10, [x8]
	add	x10, x9, #1
	stur	xzr, [x8, #10]
	mov	x9, x10
	stur	xzr, [x8, #2]
	str	xzr, [x8, #16]
.LBB23_226:
	add	x0, sp, #7, lsl #12
	add	x1, sp, #7, lsl #12
	add	x6, sp, #7, lsl #12
	add	x0, x0, #2688
	add	x1, x1, #2640
	sub	x2, x29, #112
	and	w4, w27, #0x1
	add	x6, x6, #2720
	mov	x3, x22
	mov	w5, #3
	str	x9, [sp]
	bl	"writing::write_term"
	add	x8, sp, #7, lsl #12
	add	x8, x8, #2688
	ldrb	w8, [x8]
	cbnz	w8, .LBB23_268
	fcmp	d12, d8
	ldr	x8, [sp, #31368]
	ldr	x9, [sp, #31376]
	ccmp	w26, #1, #0, eq
	cset	w10, ne
	fcmp	d14, d8
	fccmp	d13, d9, #0, eq
	b.eq	.LBB23_233
	ldr	x13, [sp, #104]
	cbz	w10, .LBB23_239
	fsub	d0, d15, d15
	tbz	w27, #0, .LBB23_234
	fcmp	d0, d8
	mov	w11, #14
	b.ne	.LBB23_269
	fsub	d0, d10, d10
	fcmp	d0, d8
	b.ne	.LBB23_269
	mov	w10, #2
	b	.LBB23_238
.LBB23_233:
	ldr	x13, [sp, #104]
	b	.LBB23_239
.LBB23_234:
	ldr	d1, [sp, #96]
	mov	w11, #14
	fcmp	d1, d14
	cset	w10, mi
	fcmp	d14, d11
	//APP
	//NO_APP
	cset	w12, mi
	fcmp	d0, d8
	//APP
	//NO_APP
	b.ne	.LBB23_269
	cbz	w10, .LBB23_269
	cbz	w12, .LBB23_269
	mov	w10, #1
.LBB23_238:
	mov	w11, #24
	add	x12, sp, #7, lsl #12
	tst	w27, #0x1
	add	x12, x12, #2720
	madd	x11, x9, x11, x12
	add	x9, x9, #2
	mov	w12, #2565
	strb	w10, [x11]
	fmov	x10, d10
	stur	wzr, [x11, #1]
	str	wzr, [x11, #4]
	csel	x10, x10, xzr, ne
	str	d15, [x11, #8]
	str	x10, [x11, #16]
	strh	w12, [x11, #24]
	stur	xzr, [x11, #34]
	stur	xzr, [x11, #26]
	str	xzr, [x11, #40]
.LBB23_239:
	tbz	w28, #0, .LBB23_219
	mov	w10, #24
	add	x11, sp, #7, lsl #12
	add	x11, x11, #2720
	madd	x10, x9, x10, x11
	add	x9, x9, #1
	mov	w11, #2053
	strh	w11, [x10]
	stur	xzr, [x10, #10]
	stur	xzr, [x10, #2]
	str	xzr, [x10, #16]
	b	.LBB23_219
.LBB23_241:
	movi	d8, #0000000000000000
	mov	x8, #-4850376798678024192
	mov	x9, #4372995238176751616
	fmov	d9, #1.00000000
	fmov	d0, x8
	fmov	d11, x9
	add	x0, sp, #7, lsl #12
	sub	x10, x29, #112
	mov	w1, wzr
	add	x0, x0, #2720
	mov	w2, #16944
	orr	x20, x10, #0x2
	str	d0, [sp, #96]
	bl	memset
	ldr	x13, [sp, #104]
	mov	w23, wzr
	mov	x10, xzr
	mov	w8, #128
	mov	w9, #128
	b	.LBB23_244
.LBB23_242:
.LBB23_243:
	fcmp	d13, d8
	cset	w10, ne
	fcmp	d14, d8
	csinc	w11, w10, wzr, eq
	fcmp	d12, d9
	add	x10, x22, x28
	ccmp	w19, #1, #0, eq
	csel	w11, wzr, w11, ne
	cmp	x10, x24
	orr	w23, w23, w11
	b.hs	.LBB23_265
.LBB23_244:
	mov	w11, #24
	ldrb	w19, [x13, x10]
	ldrb	w28, [x21, x10]
	madd	x11, x10, x11, x25
	add	x22, x10, #1
	str	xzr, [sp, #31360]
	str	xzr, [sp, #31376]
	str	xzr, [sp, #31368]
	ldp	d12, d15, [x11]
	ldr	d10, [x11, #16]
	sub	x11, x29, #112
	str	wzr, [x20]
	fmov	d14, d10
	strb	w19, [x11]
	fmov	d13, d15
	strb	w28, [x11, #1]
	strh	wzr, [x20, #4]
	stp	d12, d15, [x11, #8]
	str	d10, [x11, #24]
	fcmp	d13, d8
	fccmp	d14, d8, #0, eq
	b.eq	.LBB23_242
	cmp	x8, x9
	cset	w10, ne
	orr	w26, w23, w10
	tbz	w26, #0, .LBB23_248
	cmp	x8, x9
	b.eq	.LBB23_249
	mov	w10, #24
	add	x11, sp, #7, lsl #12
	adrp	x13, .LCPI23_1
	add	x11, x11, #2720
	madd	x10, x9, x10, x11
	sub	x7, x9, #2
	adrp	x11, .LCPI23_0
	ldr	d0, [x11, :lo12:.LCPI23_0]
	sub	w11, w8, w9
	add	w12, w11, #1
	stur	s0, [x10, #-48]
	ldr	d0, [x13, :lo12:.LCPI23_1]
	stur	w12, [x10, #-44]
	stp	xzr, xzr, [x10, #-40]
	stur	s0, [x10, #-24]
	stur	w11, [x10, #-20]
	stp	xzr, xzr, [x10, #-16]
	b	.LBB23_250
.LBB23_248:
	mov	x7, x8
	b	.LBB23_250
.LBB23_249:
	mov	w9, #24
	add	x10, sp, #7, lsl #12
	mov	x7, x8
	add	x10, x10, #2720
	madd	x9, x8, x9, x10
	mov	w10, #773
	strh	w10, [x9]
	add	x10, x8, #1
	stur	xzr, [x9, #10]
	mov	x8, x10
	stur	xzr, [x9, #2]
	str	xzr, [x9, #16]
.LBB23_250:
	add	x0, sp, #7, lsl #12
	add	x1, sp, #7, lsl #12
	add	x6, sp, #7, lsl #12
	add	x0, x0, #2688
	add	x1, x1, #2640
	sub	x2, x29, #112
	and	w4, w27, #0x1
	add	x6, x6, #2720
	mov	x3, x22
	mov	w5, #3
	str	x8, [sp]
	bl	"writing::write_term"
	add	x8, sp, #7, lsl #12
	add	x8, x8, #2688
	ldrb	w8, [x8]
	cbnz	w8, .LBB23_268
	fcmp	d12, d8
	ldr	x9, [sp, #31368]
	ldr	x8, [sp, #31376]
	ccmp	w19, #1, #0, eq
	cset	w10, ne
	fcmp	d14, d8
	fccmp	d13, d9, #0, eq
	b.eq	.LBB23_257
	ldr	x13, [sp, #104]
	cbz	w10, .LBB23_263
	tbz	w27, #0, .LBB23_258
	fsub	d0, d15, d15
	mov	w11, #14
	fcmp	d0, d8
	b.ne	.LBB23_269
	fsub	d0, d10, d10
	fcmp	d0, d8
	b.ne	.LBB23_269
	mov	w10, #2
	b	.LBB23_262
.LBB23_257:
	ldr	x13, [sp, #104]
	b	.LBB23_263
.LBB23_258:
	ldr	d0, [sp, #96]
	mov	w11, #14
	fcmp	d0, d14
	fsub	d0, d15, d15
	cset	w12, mi
	fcmp	d14, d11
	//APP
	//NO_APP
	cset	w10, mi
	fcmp	d0, d8
	//APP
	//NO_APP
	b.ne	.LBB23_269
	cbz	w12, .LBB23_269
	cbz	w10, .LBB23_269
	mov	w10, #1
.LBB23_262:
	mov	w11, #24
	add	x12, sp, #7, lsl #12
	tst	w27, #0x1
	add	x12, x12, #2720
	madd	x11, x8, x11, x12
	add	x8, x8, #2
	mov	w12, #2565
	strb	w10, [x11]
	fmov	x10, d10
	stur	wzr, [x11, #1]
	str	wzr, [x11, #4]
	csel	x10, x10, xzr, ne
	str	d15, [x11, #8]
	str	x10, [x11, #16]
	strh	w12, [x11, #24]
	stur	xzr, [x11, #34]
	stur	xzr, [x11, #26]
	str	xzr, [x11, #40]
.LBB23_263:
	tbz	w26, #0, .LBB23_243
	mov	w10, #24
	add	x11, sp, #7, lsl #12
	add	x11, x11, #2720
	madd	x10, x8, x10, x11
	add	x8, x8, #1
	mov	w11, #2053
	strh	w11, [x10]
	stur	xzr, [x10, #10]
	stur	xzr, [x10, #2]
	str	xzr, [x10, #16]
	b	.LBB23_243
.LBB23_265:
	ldr	x24, [sp, #64]
	cmp	x9, x8
	b.ne	.LBB23_288
	add	x10, sp, #7, lsl #12
	mov	w8, #24
	add	x10, x10, #2720
	madd	x10, x9, x8, x10
	tbz	w23, #0, .LBB23_287
	mov	w8, #261
	stur	xzr, [x10, #10]
	strh	w8, [x10]
	add	x8, x9, #1
	stur	xzr, [x10, #2]
	str	xzr, [x10, #16]
	b	.LBB23_288
.LBB23_268:
	add	x8, sp, #7, lsl #12
	add	x8, x8, #2688
	ldrb	w11, [x8, #1]
.LBB23_269:
	ldr	x24, [sp, #64]
	mov	x19, xzr
	mov	w8, #1
	b	.LBB23_292
.LBB23_270:
	ldr	x24, [sp, #64]
	add	x10, x19, #768
	add	x9, x19, #769
	mov	w8, #32
.LBB23_271:
	stp	xzr, xzr, [x9]
	mov	w11, #1
	stur	xzr, [x9, #15]
	mov	w9, #2565
	strh	w9, [x10, #24]
	add	x9, x8, #2
	strb	w11, [x10]
	str	xzr, [x10, #40]
	stur	xzr, [x10, #26]
	stur	xzr, [x10, #34]
	b	.LBB23_285
.LBB23_272:
	cmp	x8, x9
	b.ne	.LBB23_284
	add	x10, sp, #7, lsl #12
	mov	w9, #24
	ldr	x24, [sp, #64]
	add	x10, x10, #2720
	madd	x10, x8, x9, x10
	tbz	w20, #0, .LBB23_297
	mov	w9, #261
	stur	xzr, [x10, #10]
	strh	w9, [x10]
	add	x9, x8, #1
	stur	xzr, [x10, #2]
	str	xzr, [x10, #16]
	b	.LBB23_285
.LBB23_275:
	mov	w9, #1
	stur	xzr, [x8, #9]
	strb	w9, [x8]
	mov	w9, #2565
	strh	w9, [x8, #24]
	add	x9, x10, #2
	stur	xzr, [x8, #1]
	stur	xzr, [x8, #16]
	stur	xzr, [x8, #34]
	stur	xzr, [x8, #26]
	str	xzr, [x8, #40]
.LBB23_276:
	mov	x8, #-6148914691236517206
	ldr	x11, [sp, #40]
	sub	x19, x9, x10
	movk	x8, #43691
	ldr	x24, [sp, #64]
	umulh	x8, x11, x8
	cmp	x19, x8, lsr #4
	b.ls	.LBB23_278
.LBB23_277:
	mov	x19, xzr
	mov	w8, #16
	mov	w9, #1
	mov	x10, xzr
	cbnz	w9, .LBB23_132
	b	.LBB23_280
.LBB23_278:
	mov	w8, #24
	add	x9, sp, #1360
	madd	x1, x10, x8, x9
.LBB23_279:
	add	x8, x19, x19, lsl #1
	lsl	x2, x8, #3
	ldp	x9, x8, [sp, #24]
	add	x0, x8, x9
	bl	memcpy
	mov	w8, wzr
	mov	x10, xzr
.LBB23_280:
	mov	x0, xzr
	b	.LBB23_303
.LBB23_281:
	mov	w9, #6
	b	.LBB23_300
.LBB23_282:
	mov	w8, #17
	b	.LBB23_295
.LBB23_283:
	ldr	x24, [sp, #64]
	ldr	x25, [sp, #16]
	add	x10, x8, #1
	b	.LBB23_206
.LBB23_284:
	ldr	x24, [sp, #64]
.LBB23_285:
	mov	x10, #-6148914691236517206
	ldr	x11, [sp, #40]
	sub	x19, x9, x8
	movk	x10, #43691
	umulh	x10, x11, x10
	cmp	x19, x10, lsr #4
	b.hi	.LBB23_289
	mov	w9, #24
	add	x10, sp, #7, lsl #12
	add	x10, x10, #2720
	madd	x1, x8, x9, x10
	b	.LBB23_291
.LBB23_287:
	mov	w8, #1
	stur	xzr, [x10, #9]
	strb	w8, [x10]
	mov	w8, #2565
	strh	w8, [x10, #24]
	add	x8, x9, #2
	stur	xzr, [x10, #1]
	stur	xzr, [x10, #16]
	stur	xzr, [x10, #34]
	stur	xzr, [x10, #26]
	str	xzr, [x10, #40]
.LBB23_288:
	mov	x10, #-6148914691236517206
	ldr	x11, [sp, #40]
	sub	x19, x8, x9
	movk	x10, #43691
	umulh	x10, x11, x10
	cmp	x19, x10, lsr #4
	b.ls	.LBB23_290
.LBB23_289:
	mov	x19, xzr
	mov	w11, #16
	mov	w8, #1
	b	.LBB23_292
.LBB23_290:
	mov	w8, #24
	add	x10, sp, #7, lsl #12
	add	x10, x10, #2720
	madd	x1, x9, x8, x10
.LBB23_291:
	add	x8, x19, x19, lsl #1
	lsl	x2, x8, #3
	ldp	x9, x8, [sp, #24]
	add	x0, x8, x9
	bl	memcpy
	mov	w8, wzr
	mov	w11, wzr
.LBB23_292:
	cmp	w8, #0
	mov	x10, xzr
	csel	w8, wzr, w11, eq
	csel	x19, x19, xzr, eq
	csinc	x0, xzr, x8, eq
	b	.LBB23_303
.LBB23_293:
	mov	w8, #14
	b	.LBB23_295
.LBB23_294:
	mov	w8, #11
.LBB23_295:
	ldr	x24, [sp, #64]
	ldr	x25, [sp, #16]
	mov	x10, xzr
	cmp	w8, #11
	b.eq	.LBB23_133
	b	.LBB23_4
.LBB23_296:
	mov	w9, #17
	b	.LBB23_300
.LBB23_297:
	add	x9, x10, #1
	b	.LBB23_271
.LBB23_298:
	mov	w9, #14
	b	.LBB23_300
.LBB23_299:
	mov	w9, #11
.LBB23_300:
	ldr	x24, [sp, #64]
	mov	x10, xzr
.LBB23_301:
	mov	w8, w9
.LBB23_302:
	mov	x19, xzr
	add	x0, x8, #1
.LBB23_303:
	stp	x10, x19, [x24]
	add	sp, sp, #11, lsl #12
	add	sp, sp, #3328
	ldp	x20, x19, [sp, #144]
	ldp	x22, x21, [sp, #128]
	ldp	x24, x23, [sp, #112]
	ldp	x26, x25, [sp, #96]
	ldp	x28, x27, [sp, #80]
	ldp	x29, x30, [sp, #64]
	ldp	d9, d8, [sp, #48]
	ldp	d11, d10, [sp, #32]
	ldp	d13, d12, [sp, #16]
	ldp	d15, d14, [sp], #160
	ret
.Lfunc_end23:
	.size	uplink_integral, .Lfunc_end23-uplink_integral

	.section	.text.uplink_integral_faithful,"ax",@progbits
	.globl	uplink_integral_faithful
	.p2align	2
	.type	uplink_integral_faithful,@function
uplink_integral_faithful:
	stp	d11, d10, [sp, #-128]!
	sub	x9, sp, #7, lsl #12
	stp	d9, d8, [sp, #16]
	sub	x9, x9, #2048
	stp	x29, x30, [sp, #32]
	add	x29, sp, #32
	stp	x28, x27, [sp, #48]
	stp	x26, x25, [sp, #64]
	stp	x24, x23, [sp, #80]
	stp	x22, x21, [sp, #96]
	stp	x20, x19, [sp, #112]
.LBB24_1:
	sub	sp, sp, #3072
	cmp	sp, x9
	str	xzr, [sp]
	b.ne	.LBB24_1
	sub	sp, sp, #784
	movi	v0.2d, #0000000000000000
	cmp	x0, #0
	mov	w8, #4096
	mov	x21, x2
	mov	x25, x1
	mov	x27, x0
	csel	x28, x8, xzr, eq
	cmp	x2, #0
	add	x0, sp, #1360
	mov	w1, wzr
	mov	w2, #6144
	mov	x24, x4
	mov	x20, x3
	stp	q0, q0, [sp, #112]
	sub	x26, x29, #176
	str	q0, [sp, #30160]
	csel	x22, x8, xzr, eq
	add	x19, sp, #1360
	str	q0, [sp, #30176]
	str	q0, [sp, #30192]
	str	q0, [sp, #30208]
	str	q0, [sp, #30224]
	str	q0, [sp, #30240]
	str	q0, [sp, #30256]
	str	q0, [sp, #30272]
	str	q0, [sp, #30288]
	str	q0, [sp, #30304]
	str	q0, [sp, #30320]
	str	q0, [sp, #30336]
	str	q0, [sp, #30352]
	str	q0, [sp, #30368]
	str	q0, [sp, #30384]
	str	q0, [sp, #30400]
	str	q0, [sp, #29248]
	str	q0, [sp, #29232]
	str	q0, [sp, #29216]
	str	q0, [sp, #29200]
	str	q0, [sp, #29184]
	str	q0, [sp, #29168]
	str	q0, [sp, #29152]
	str	q0, [sp, #29136]
	str	q0, [sp, #29120]
	str	q0, [sp, #29104]
	str	q0, [sp, #29088]
	str	q0, [sp, #29072]
	str	q0, [sp, #29056]
	str	q0, [sp, #29040]
	str	q0, [sp, #29024]
	str	q0, [sp, #29008]
	bl	memset
	add	x8, sp, #7, lsl #12
	movi	v0.2d, #0000000000000000
	mov	w9, #256
	add	x8, x8, #1488
	add	x0, sp, #112
	add	x1, x27, x28
	stp	x8, x9, [sp, #144]
	add	x8, sp, #7, lsl #12
	add	x3, sp, #144
	add	x8, x8, #336
	mov	x2, x25
	mov	w4, #256
	stp	x8, x9, [sp, #160]
	add	x8, sp, #208
	stp	q0, q0, [sp, #208]
	stp	q0, q0, [sp, #240]
	stp	q0, q0, [sp, #272]
	stp	q0, q0, [sp, #304]
	stp	q0, q0, [sp, #336]
	stp	q0, q0, [sp, #368]
	stp	q0, q0, [sp, #400]
	stp	q0, q0, [sp, #432]
	stp	x19, x9, [sp, #176]
	stp	x8, x9, [sp, #192]
	bl	"algebra::lists::read_sum"
	ldrb	w9, [sp, #112]
	ldr	x8, [sp, #120]
	cmp	w9, #1
	b.ne	.LBB24_6
	ldrb	w9, [sp, #113]
	cmp	w9, #11
	b.ne	.LBB24_150
.LBB24_4:
	movi	v0.2d, #0000000000000000
	add	x0, sp, #7, lsl #12
	str	x20, [sp, #56]
	mov	w1, wzr
	add	x0, x0, #1488
	mov	w2, #1152
	add	x20, sp, #7, lsl #12
	stp	x22, x21, [sp, #40]
	mov	w19, #1152
	add	x20, x20, #1488
	stp	q0, q0, [sp, #112]
	bl	memset
	add	x0, sp, #7, lsl #12
	mov	w1, wzr
	mov	w2, #1152
	add	x0, x0, #336
	add	x21, sp, #7, lsl #12
	add	x21, x21, #336
	bl	memset
	add	x0, sp, #1360
	mov	w1, wzr
	mov	w2, #27648
	add	x22, sp, #1360
	bl	memset
	add	x0, sp, #208
	mov	w1, wzr
	mov	w2, #1152
	add	x23, sp, #208
	bl	memset
	add	x0, sp, #112
	add	x1, x27, x28
	add	x3, sp, #144
	mov	x2, x25
	mov	w4, #1152
	stp	x20, x19, [sp, #144]
	stp	x21, x19, [sp, #160]
	stp	x22, x19, [sp, #176]
	stp	x23, x19, [sp, #192]
	bl	"algebra::lists::read_sum"
	ldrb	w8, [sp, #112]
	ldr	x10, [sp, #120]
	cmp	w8, #1
	b.ne	.LBB24_78
	ldrb	w9, [sp, #113]
	b	.LBB24_167
.LBB24_6:
	movi	v0.2d, #0000000000000000
	ldr	x9, [sp, #144]
	mov	w10, #1
	ldr	x11, [sp, #160]
	add	x8, x8, #128
	ldrb	w13, [sp, #128]
	strb	w10, [x9, #64]
	ldr	x10, [sp, #176]
	cmp	x8, #129
	str	x24, [sp, #64]
	stp	q0, q0, [x29, #-224]
	stur	q0, [x29, #-192]
	fmov	v0.2d, #1.00000000
	stp	xzr, xzr, [x29, #-176]
	strb	wzr, [x11, #64]
	str	x8, [sp, #88]
	str	q0, [x10, #1536]
	str	xzr, [x10, #1552]
	b.lo	.LBB24_77
	movi	d8, #0000000000000000
	fmov	d9, #1.00000000
	sub	x8, x29, #80
	sub	x9, x29, #112
	stp	x21, x20, [sp, #48]
	mov	x24, xzr
	orr	x8, x8, #0x2
	orr	x21, x9, #0x2
	mov	w9, #128
	str	w13, [sp, #12]
	stp	x28, x27, [sp, #16]
	stp	x25, x22, [sp, #32]
	str	x8, [sp, #80]
	b	.LBB24_12
.LBB24_8:
	ldr	x20, [sp, #96]
.LBB24_9:
	ldr	x19, [sp, #104]
.LBB24_10:
	mov	x24, x8
	cbnz	w27, .LBB24_162
.LBB24_11:
	ldr	x8, [sp, #88]
	add	x9, x20, x19
	cmp	x9, x8
	b.hs	.LBB24_147
.LBB24_12:
	mov	w8, #24
	ldr	x23, [sp, #176]
	ldr	x28, [sp, #144]
	madd	x10, x9, x8, x23
	ldr	x25, [sp, #160]
	add	x20, x9, #1
	ldrb	w8, [x28, x9]
	ldrb	w19, [x25, x9]
	cmp	w8, #1
	ldp	d11, d10, [x10, #8]
	b.ne	.LBB24_17
	fmov	d0, #1.00000000
	ldr	d1, [x10]
	fadd	d0, d1, d0
	fmov	d3, d0
	fcmp	d3, d8
	b.ne	.LBB24_29
	ldr	x8, [sp, #152]
	ldr	x9, [sp, #168]
	stp	x20, x19, [sp, #96]
	mov	x19, xzr
	stur	x28, [x29, #-160]
	stp	x8, x25, [x29, #-152]
	ldr	x8, [sp, #184]
	stp	x9, x23, [x29, #-136]
	stur	x8, [x29, #-120]
	mov	w8, #259
	strh	w8, [x26, #96]
	ldr	x8, [sp, #80]
	stp	d11, d10, [x29, #-64]
	str	wzr, [x8]
	strh	wzr, [x8, #4]
	mov	x8, #22377
	movk	x8, #35604, lsl #16
	movk	x8, #48906, lsl #32
	movk	x8, #16389, lsl #48
	stur	x8, [x29, #-72]
	cbz	x24, .LBB24_46
.LBB24_15:
	mov	w8, #24
	ldrb	w22, [x25, x19]
	sub	x0, x29, #160
	madd	x20, x19, x8, x23
	ldrb	w8, [x28, x19]
	sub	x1, x29, #80
	sub	x3, x29, #112
	add	x4, x19, #1
	mov	w2, #64
	mov	w5, #4
	str	wzr, [x21]
	add	x27, x19, #1
	strh	wzr, [x21, #4]
	strb	w8, [x26, #64]
	ldr	q0, [x20]
	ldr	d1, [x20, #16]
	strb	w22, [x26, #65]
	stur	q0, [x26, #72]
	stur	d1, [x29, #-88]
	bl	"sums::order::cmp_term"
	and	w8, w0, #0xff
	cmp	w8, #2
	b.ne	.LBB24_45
	add	x19, x27, x22
	cmp	x19, x24
	b.lo	.LBB24_15
	b	.LBB24_46
.LBB24_17:
	cmp	w8, #5
	mov	w9, #6
	b.lo	.LBB24_162
	cmp	w19, #1
	b.ne	.LBB24_162
	mov	w9, #24
	mul	x9, x20, x9
	ldr	d0, [x23, x9]
	ldrb	w9, [x28, x20]
	fcmp	d0, d9
	ccmp	w9, #1, #0, eq
	b.ne	.LBB24_153
	ldr	x9, [sp, #152]
	lsl	x11, x8, #3
	ldr	x10, [sp, #168]
	fneg	d0, d11
	fneg	d1, d10
	cmp	w8, #7
	stp	x28, x9, [x29, #-160]
	mov	x9, #506381209866536711
	movk	x9, #1543, lsl #32
	stp	x25, x10, [x29, #-144]
	mov	w10, #7
	movk	x9, #2053, lsl #48
	stp	x20, x19, [sp, #96]
	mov	x19, xzr
	lsr	x9, x9, x11
	ldr	x11, [sp, #184]
	csel	w9, w10, w9, hi
	cmp	w8, #5
	mov	w8, #1
	fcsel	d11, d0, d11, eq
	fcsel	d10, d1, d10, eq
	strb	w8, [x26, #97]
	ldr	x8, [sp, #80]
	stp	x23, x11, [x29, #-128]
	str	w9, [sp, #76]
	strb	w9, [x26, #96]
	str	xzr, [x8]
	stur	xzr, [x8, #6]
	stp	d11, d10, [x29, #-64]
	cbz	x24, .LBB24_24
.LBB24_21:
	mov	w8, #24
	ldrb	w27, [x25, x19]
	sub	x0, x29, #160
	madd	x22, x19, x8, x23
	ldrb	w8, [x28, x19]
	sub	x1, x29, #80
	sub	x3, x29, #112
	add	x4, x19, #1
	mov	w2, #64
	mov	w5, #4
	str	wzr, [x21]
	add	x20, x19, #1
	strh	wzr, [x21, #4]
	strb	w8, [x26, #64]
	ldr	q0, [x22]
	ldr	d1, [x22, #16]
	strb	w27, [x26, #65]
	stur	q0, [x26, #72]
	stur	d1, [x29, #-88]
	bl	"sums::order::cmp_term"
	and	w8, w0, #0xff
	cmp	w8, #2
	b.ne	.LBB24_23
	add	x19, x20, x27
	cmp	x19, x24
	b.lo	.LBB24_21
	b	.LBB24_24
.LBB24_23:
	cbnz	w8, .LBB24_51
.LBB24_24:
	fsub	d0, d11, d11
	mov	x8, xzr
	mov	w9, #14
	mov	w27, #1
	fcmp	d0, d8
	b.ne	.LBB24_8
	fsub	d0, d10, d10
	ldr	x20, [sp, #96]
	fcmp	d0, d8
	b.ne	.LBB24_9
	mov	x0, x25
	mov	w1, #64
	mov	w2, #1
	mov	w3, #3
	mov	w27, #1
	bl	"sums::order::nests_inside"
	cbz	w0, .LBB24_55
	add	x8, x24, #2
	cmp	x8, #64
	b.ls	.LBB24_64
	mov	x8, xzr
	mov	w9, #11
	mov	w27, #1
	b	.LBB24_9
.LBB24_29:
	mov	x10, xzr
	cbz	x24, .LBB24_33
.LBB24_30:
	ldrb	w8, [x28, x10]
	cmp	w8, #1
	b.ne	.LBB24_33
	add	x10, x10, #1
	cmp	x24, x10
	b.ne	.LBB24_30
	mov	x10, x24
.LBB24_33:
	fsub	d1, d0, d0
	fcmp	d1, d8
	b.ne	.LBB24_159
	fdiv	d2, d11, d0
	mov	w8, #24
	mov	x9, #16
	madd	x11, x10, x8, x9
	fdiv	d1, d10, d0
.LBB24_35:
	mov	x9, x10
	mov	x8, x11
	cbz	x10, .LBB24_38
	add	x10, x23, x8
	ldur	d4, [x10, #-40]
	fcmp	d3, d4
	cset	w10, mi
	fcmp	d4, d3
	//APP
	//NO_APP
	cset	w11, mi
	//APP
	//NO_APP
	cmp	w11, #0
	mov	w11, #1
	cinc	w11, w11, ne
	cmp	w10, #0
	sub	x10, x9, #1
	csel	w12, wzr, w11, ne
	sub	x11, x8, #24
	cbz	w12, .LBB24_35
	cmp	w12, #2
	b.ne	.LBB24_61
.LBB24_38:
	fsub	d3, d2, d2
	fsub	d4, d1, d1
	fcmp	d3, d8
	fccmp	d4, d8, #0, eq
	b.ne	.LBB24_160
	add	x10, x24, #1
	cmp	x10, #64
	b.hi	.LBB24_161
	cmp	x9, x24
	b.hs	.LBB24_44
	mov	w11, #24
	add	x14, x25, x24
	add	x15, x28, x24
	madd	x13, x24, x11, x23
	mov	x11, x15
	mov	x12, x14
.LBB24_42:
	ldrb	w16, [x11, #-1]!
	sub	x24, x24, #1
	cmp	x9, x24
	strb	w16, [x15]
	ldrb	w15, [x12, #-1]!
	strb	w15, [x14]
	mov	x15, x11
	ldur	q3, [x13, #-24]
	ldur	x14, [x13, #-8]
	str	q3, [x13]
	str	x14, [x13, #16]
	sub	x13, x13, #24
	mov	x14, x12
	b.lo	.LBB24_42
	ldr	x28, [sp, #144]
.LBB24_44:
	mov	w11, #1
	strb	w11, [x28, x9]
	mov	x24, x10
	ldr	x11, [sp, #160]
	strb	wzr, [x11, x9]
	ldr	x9, [sp, #176]
	add	x8, x9, x8
	stp	d0, d2, [x8, #-16]
	str	d1, [x8]
	b	.LBB24_11
.LBB24_45:
	cbnz	w8, .LBB24_56
.LBB24_46:
	fsub	d0, d11, d11
	fsub	d1, d10, d10
	fcmp	d0, d8
	fccmp	d1, d8, #0, eq
	b.eq	.LBB24_48
	mov	x8, xzr
	mov	w9, #14
	mov	w27, #1
	b	.LBB24_74
.LBB24_48:
	mov	x0, x25
	mov	w1, #64
	mov	w2, #1
	mov	w3, #3
	mov	w27, #1
	bl	"sums::order::nests_inside"
	cbz	w0, .LBB24_60
	add	x8, x24, #2
	cmp	x8, #64
	b.ls	.LBB24_69
	mov	x8, xzr
	mov	w9, #11
	mov	w27, #1
	b	.LBB24_74
.LBB24_51:
	fsub	d0, d11, d11
	mov	x8, xzr
	mov	w9, #14
	mov	w27, #1
	fcmp	d0, d8
	b.ne	.LBB24_8
	fsub	d0, d10, d10
	ldr	x20, [sp, #96]
	fcmp	d0, d8
	b.ne	.LBB24_9
	mov	x0, x25
	mov	w1, #64
	mov	w2, #1
	mov	w3, #3
	mov	w27, #1
	bl	"sums::order::nests_inside"
	cbz	w0, .LBB24_55
	mov	w27, wzr
	mov	w9, wzr
	stp	d11, d10, [x22, #8]
	mov	x8, x24
	b	.LBB24_9
.LBB24_55:
	mov	x8, xzr
	mov	w9, #12
	b	.LBB24_9
.LBB24_56:
	fsub	d0, d11, d11
	mov	x8, xzr
	mov	w9, #14
	mov	w27, #1
	fcmp	d0, d8
	b.ne	.LBB24_74
	fsub	d0, d10, d10
	ldr	x19, [sp, #104]
	fcmp	d0, d8
	b.ne	.LBB24_75
	mov	x0, x25
	mov	w1, #64
	mov	w2, #1
	mov	w3, #3
	mov	w27, #1
	bl	"sums::order::nests_inside"
	cbz	w0, .LBB24_76
	stp	d11, d10, [x20, #8]
	ldr	x20, [sp, #96]
	mov	w27, wzr
	mov	w9, wzr
	mov	x8, x24
	b	.LBB24_10
.LBB24_60:
	mov	x8, xzr
	mov	w9, #12
	b	.LBB24_74
.LBB24_61:
	fsub	d0, d2, d2
	mov	w9, #14
	fcmp	d0, d8
	b.ne	.LBB24_162
	fsub	d0, d1, d1
	fcmp	d0, d8
	b.ne	.LBB24_162
	add	x8, x23, x11
	stp	d2, d1, [x8, #-8]
	b	.LBB24_11
.LBB24_64:
	cmp	x19, x24
	b.hs	.LBB24_68
	mov	w9, #24
	add	x10, x25, x24
	add	x11, x28, x24
	madd	x9, x24, x9, x23
	add	x10, x10, #1
	add	x11, x11, #1
	sub	x9, x9, #24
.LBB24_66:
	ldurb	w12, [x11, #-2]
	sub	x24, x24, #1
	cmp	x19, x24
	strb	w12, [x11], #-1
	ldurb	w12, [x10, #-2]
	strb	w12, [x10], #-1
	ldr	q0, [x9]
	ldr	x12, [x9, #16]
	str	q0, [x9, #48]
	str	x12, [x9, #64]
	sub	x9, x9, #24
	b.lo	.LBB24_66
	ldr	x28, [sp, #144]
.LBB24_68:
	ldr	w10, [sp, #76]
	add	x11, x19, x19, lsl #1
	mov	w12, #1
	strb	w10, [x28, x19]
	mov	w27, wzr
	mov	w9, wzr
	ldr	x10, [sp, #160]
	strb	w12, [x10, x19]
	lsl	x10, x11, #3
	add	x12, x19, #1
	ldr	x11, [sp, #176]
	add	x11, x11, x10
	str	xzr, [x11]
	stp	d11, d10, [x11, #8]
	ldr	x11, [sp, #144]
	ldr	x13, [sp, #160]
	ldr	x15, [sp, #176]
	ldrb	w14, [x11, #64]
	add	x10, x10, x15
	strb	w14, [x11, x12]
	ldrb	w11, [x13, #64]
	strb	w11, [x13, x12]
	ldr	x11, [x15, #1552]
	ldr	q0, [x15, #1536]
	str	x11, [x10, #40]
	stur	q0, [x10, #24]
	b	.LBB24_9
.LBB24_69:
	cmp	x19, x24
	b.hs	.LBB24_73
	mov	w9, #24
	add	x10, x25, x24
	add	x11, x28, x24
	madd	x9, x24, x9, x23
	add	x10, x10, #1
	add	x11, x11, #1
	sub	x9, x9, #24
.LBB24_71:
	ldurb	w12, [x11, #-2]
	sub	x24, x24, #1
	cmp	x19, x24
	strb	w12, [x11], #-1
	ldurb	w12, [x10, #-2]
	strb	w12, [x10], #-1
	ldr	q0, [x9]
	ldr	x12, [x9, #16]
	str	q0, [x9, #48]
	str	x12, [x9, #64]
	sub	x9, x9, #24
	b.lo	.LBB24_71
	ldr	x28, [sp, #144]
.LBB24_73:
	mov	w10, #3
	strb	w10, [x28, x19]
	add	x11, x19, x19, lsl #1
	ldr	x10, [sp, #160]
	mov	w12, #1
	mov	w27, wzr
	mov	w9, wzr
	strb	w12, [x10, x19]
	mov	x12, #22377
	lsl	x10, x11, #3
	ldr	x11, [sp, #176]
	movk	x12, #35604, lsl #16
	movk	x12, #48906, lsl #32
	add	x11, x11, x10
	movk	x12, #16389, lsl #48
	str	x12, [x11]
	add	x12, x19, #1
	stp	d11, d10, [x11, #8]
	ldr	x11, [sp, #144]
	ldr	x13, [sp, #160]
	ldr	x15, [sp, #176]
	ldrb	w14, [x11, #64]
	add	x10, x10, x15
	strb	w14, [x11, x12]
	ldrb	w11, [x13, #64]
	strb	w11, [x13, x12]
	ldr	x11, [x15, #1552]
	ldr	q0, [x15, #1536]
	str	x11, [x10, #40]
	stur	q0, [x10, #24]
.LBB24_74:
	ldr	x19, [sp, #104]
.LBB24_75:
	ldr	x20, [sp, #96]
	b	.LBB24_10
.LBB24_76:
	ldr	x20, [sp, #96]
	mov	x8, xzr
	mov	w9, #12
	b	.LBB24_10
.LBB24_77:
	mov	x24, xzr
	b	.LBB24_148
.LBB24_78:
	movi	v0.2d, #0000000000000000
	ldr	x8, [sp, #144]
	mov	w9, #1
	ldr	x11, [sp, #160]
	add	x10, x10, #128
	ldrb	w13, [sp, #128]
	strb	w9, [x8, #64]
	ldr	x9, [sp, #176]
	cmp	x10, #129
	stp	xzr, xzr, [x29, #-176]
	stp	q0, q0, [x29, #-224]
	stur	q0, [x29, #-192]
	fmov	v0.2d, #1.00000000
	strb	wzr, [x11, #64]
	str	x10, [sp, #88]
	str	xzr, [x9, #1552]
	str	q0, [x9, #1536]
	b.lo	.LBB24_146
	movi	d8, #0000000000000000
	fmov	d9, #1.00000000
	sub	x8, x29, #80
	sub	x9, x29, #112
	mov	x22, xzr
	orr	x8, x8, #0x2
	orr	x21, x9, #0x2
	mov	w9, #128
	str	w13, [sp, #32]
	str	x24, [sp, #64]
	str	x8, [sp, #80]
	b	.LBB24_82
.LBB24_80:
	mov	w11, #1
	strb	w11, [x27, x9]
	mov	x22, x10
	ldr	x11, [sp, #160]
	strb	wzr, [x11, x9]
	ldr	x9, [sp, #176]
	add	x8, x9, x8
	stp	d0, d2, [x8, #-16]
	str	d1, [x8]
.LBB24_81:
	ldr	x8, [sp, #88]
	add	x9, x19, x28
	cmp	x9, x8
	b.hs	.LBB24_154
.LBB24_82:
	mov	w8, #24
	ldr	x20, [sp, #176]
	ldr	x27, [sp, #144]
	madd	x10, x9, x8, x20
	ldr	x23, [sp, #160]
	add	x19, x9, #1
	ldrb	w8, [x27, x9]
	ldrb	w28, [x23, x9]
	cmp	w8, #1
	ldp	d11, d10, [x10, #8]
	b.ne	.LBB24_87
	fmov	d0, #1.00000000
	ldr	d1, [x10]
	fadd	d0, d1, d0
	fmov	d3, d0
	fcmp	d3, d8
	b.ne	.LBB24_103
	ldr	x8, [sp, #152]
	ldr	x9, [sp, #168]
	stp	x28, x19, [sp, #96]
	mov	x19, xzr
	stur	x27, [x29, #-160]
	stp	x8, x23, [x29, #-152]
	ldr	x8, [sp, #184]
	stp	x9, x20, [x29, #-136]
	stur	x8, [x29, #-120]
	mov	w8, #259
	strh	w8, [x26, #96]
	ldr	x8, [sp, #80]
	stp	d11, d10, [x29, #-64]
	str	wzr, [x8]
	strh	wzr, [x8, #4]
	mov	x8, #22377
	movk	x8, #35604, lsl #16
	movk	x8, #48906, lsl #32
	movk	x8, #16389, lsl #48
	stur	x8, [x29, #-72]
	cbz	x22, .LBB24_119
.LBB24_85:
	mov	w8, #24
	ldrb	w24, [x23, x19]
	sub	x0, x29, #160
	madd	x25, x19, x8, x20
	ldrb	w8, [x27, x19]
	sub	x1, x29, #80
	sub	x3, x29, #112
	add	x4, x19, #1
	mov	w2, #64
	mov	w5, #4
	str	wzr, [x21]
	add	x28, x19, #1
	strh	wzr, [x21, #4]
	strb	w8, [x26, #64]
	ldr	q0, [x25]
	ldr	d1, [x25, #16]
	strb	w24, [x26, #65]
	stur	q0, [x26, #72]
	stur	d1, [x29, #-88]
	bl	"sums::order::cmp_term"
	and	w8, w0, #0xff
	cmp	w8, #2
	b.ne	.LBB24_118
	add	x19, x28, x24
	cmp	x19, x22
	b.lo	.LBB24_85
	b	.LBB24_119
.LBB24_87:
	cmp	w8, #5
	mov	w9, #6
	b.lo	.LBB24_166
	cmp	w28, #1
	b.ne	.LBB24_166
	mov	w9, #24
	mul	x9, x19, x9
	ldr	d0, [x20, x9]
	ldrb	w9, [x27, x19]
	fcmp	d0, d9
	ccmp	w9, #1, #0, eq
	b.ne	.LBB24_158
	ldr	x9, [sp, #152]
	lsl	x11, x8, #3
	ldr	x10, [sp, #168]
	fneg	d0, d11
	fneg	d1, d10
	cmp	w8, #7
	stp	x27, x9, [x29, #-160]
	mov	x9, #506381209866536711
	movk	x9, #1543, lsl #32
	stp	x23, x10, [x29, #-144]
	mov	w10, #7
	movk	x9, #2053, lsl #48
	stp	x28, x19, [sp, #96]
	mov	x19, xzr
	lsr	x9, x9, x11
	ldr	x11, [sp, #184]
	csel	w9, w10, w9, hi
	cmp	w8, #5
	mov	w8, #1
	fcsel	d11, d0, d11, eq
	fcsel	d10, d1, d10, eq
	strb	w8, [x26, #97]
	ldr	x8, [sp, #80]
	stp	x20, x11, [x29, #-128]
	str	w9, [sp, #76]
	strb	w9, [x26, #96]
	str	xzr, [x8]
	stur	xzr, [x8, #6]
	stp	d11, d10, [x29, #-64]
	cbz	x22, .LBB24_94
.LBB24_91:
	mov	w8, #24
	ldrb	w24, [x23, x19]
	sub	x0, x29, #160
	madd	x25, x19, x8, x20
	ldrb	w8, [x27, x19]
	sub	x1, x29, #80
	sub	x3, x29, #112
	add	x4, x19, #1
	mov	w2, #64
	mov	w5, #4
	str	wzr, [x21]
	add	x28, x19, #1
	strh	wzr, [x21, #4]
	strb	w8, [x26, #64]
	ldr	q0, [x25]
	ldr	d1, [x25, #16]
	strb	w24, [x26, #65]
	stur	q0, [x26, #72]
	stur	d1, [x29, #-88]
	bl	"sums::order::cmp_term"
	and	w8, w0, #0xff
	cmp	w8, #2
	b.ne	.LBB24_93
	add	x19, x28, x24
	cmp	x19, x22
	b.lo	.LBB24_91
	b	.LBB24_94
.LBB24_93:
	cbnz	w8, .LBB24_124
.LBB24_94:
	fsub	d0, d11, d11
	mov	x8, xzr
	mov	w9, #14
	mov	w24, #1
	fcmp	d0, d8
	b.ne	.LBB24_133
	fsub	d0, d10, d10
	ldr	x28, [sp, #96]
	fcmp	d0, d8
	b.ne	.LBB24_143
	mov	x0, x23
	mov	w1, #64
	mov	w2, #1
	mov	w3, #3
	mov	w24, #1
	bl	"sums::order::nests_inside"
	cbz	w0, .LBB24_128
	add	x8, x22, #2
	cmp	x8, #64
	b.hi	.LBB24_123
	cmp	x19, x22
	b.hs	.LBB24_102
	mov	w9, #24
	add	x10, x23, x22
	add	x11, x27, x22
	madd	x9, x22, x9, x20
	add	x10, x10, #1
	add	x11, x11, #1
	sub	x9, x9, #24
.LBB24_100:
	ldurb	w12, [x11, #-2]
	sub	x22, x22, #1
	cmp	x19, x22
	strb	w12, [x11], #-1
	ldurb	w12, [x10, #-2]
	strb	w12, [x10], #-1
	ldr	q0, [x9]
	ldr	x12, [x9, #16]
	str	q0, [x9, #48]
	str	x12, [x9, #64]
	sub	x9, x9, #24
	b.lo	.LBB24_100
	ldr	x27, [sp, #144]
.LBB24_102:
	ldr	w10, [sp, #76]
	add	x11, x19, x19, lsl #1
	mov	w12, #1
	strb	w10, [x27, x19]
	mov	w24, wzr
	mov	w9, wzr
	ldr	x10, [sp, #160]
	strb	w12, [x10, x19]
	lsl	x10, x11, #3
	ldr	x11, [sp, #176]
	add	x11, x11, x10
	str	xzr, [x11]
	b	.LBB24_142
.LBB24_103:
	mov	x10, xzr
	cbz	x22, .LBB24_107
.LBB24_104:
	ldrb	w8, [x27, x10]
	cmp	w8, #1
	b.ne	.LBB24_107
	add	x10, x10, #1
	cmp	x22, x10
	b.ne	.LBB24_104
	mov	x10, x22
.LBB24_107:
	fsub	d1, d0, d0
	fcmp	d1, d8
	b.ne	.LBB24_163
	fdiv	d2, d11, d0
	mov	w8, #24
	mov	x9, #16
	madd	x11, x10, x8, x9
	fdiv	d1, d10, d0
.LBB24_109:
	mov	x9, x10
	mov	x8, x11
	cbz	x10, .LBB24_112
	add	x10, x20, x8
	ldur	d4, [x10, #-40]
	fcmp	d3, d4
	cset	w10, mi
	fcmp	d4, d3
	//APP
	//NO_APP
	cset	w11, mi
	//APP
	//NO_APP
	cmp	w11, #0
	mov	w11, #1
	cinc	w11, w11, ne
	cmp	w10, #0
	sub	x10, x9, #1
	csel	w12, wzr, w11, ne
	sub	x11, x8, #24
	cbz	w12, .LBB24_109
	cmp	w12, #2
	b.ne	.LBB24_134
.LBB24_112:
	fsub	d3, d2, d2
	fsub	d4, d1, d1
	fcmp	d3, d8
	fccmp	d4, d8, #0, eq
	b.ne	.LBB24_164
	add	x10, x22, #1
	cmp	x10, #64
	b.hi	.LBB24_165
	cmp	x9, x22
	b.hs	.LBB24_80
	mov	w11, #24
	add	x14, x23, x22
	add	x15, x27, x22
	madd	x13, x22, x11, x20
	mov	x11, x15
	mov	x12, x14
.LBB24_116:
	ldrb	w16, [x11, #-1]!
	sub	x22, x22, #1
	cmp	x9, x22
	strb	w16, [x15]
	ldrb	w15, [x12, #-1]!
	strb	w15, [x14]
	mov	x15, x11
	ldur	q3, [x13, #-24]
	ldur	x14, [x13, #-8]
	str	q3, [x13]
	str	x14, [x13, #16]
	sub	x13, x13, #24
	mov	x14, x12
	b.lo	.LBB24_116
	ldr	x27, [sp, #144]
	b	.LBB24_80
.LBB24_118:
	cbnz	w8, .LBB24_129
.LBB24_119:
	fsub	d0, d11, d11
	fsub	d1, d10, d10
	fcmp	d0, d8
	fccmp	d1, d8, #0, eq
	b.eq	.LBB24_121
	ldr	x28, [sp, #96]
	mov	x8, xzr
	mov	w9, #14
	mov	w24, #1
	b	.LBB24_143
.LBB24_121:
	mov	x0, x23
	mov	w1, #64
	mov	w2, #1
	mov	w3, #3
	mov	w24, #1
	bl	"sums::order::nests_inside"
	ldr	x28, [sp, #96]
	cbz	w0, .LBB24_128
	add	x8, x22, #2
	cmp	x8, #64
	b.ls	.LBB24_137
.LBB24_123:
	mov	x8, xzr
	mov	w9, #11
	mov	w24, #1
	b	.LBB24_143
.LBB24_124:
	fsub	d0, d11, d11
	mov	x8, xzr
	mov	w9, #14
	mov	w24, #1
	fcmp	d0, d8
	b.ne	.LBB24_133
	fsub	d0, d10, d10
	ldr	x28, [sp, #96]
	fcmp	d0, d8
	b.ne	.LBB24_143
	mov	x0, x23
	mov	w1, #64
	mov	w2, #1
	mov	w3, #3
	mov	w24, #1
	bl	"sums::order::nests_inside"
	cbz	w0, .LBB24_128
	mov	w24, wzr
	mov	w9, wzr
	stp	d11, d10, [x25, #8]
	mov	x8, x22
	b	.LBB24_143
.LBB24_128:
	mov	x8, xzr
	mov	w9, #12
	b	.LBB24_143
.LBB24_129:
	fsub	d0, d11, d11
	mov	x8, xzr
	mov	w9, #14
	mov	w24, #1
	fcmp	d0, d8
	b.ne	.LBB24_133
	fsub	d0, d10, d10
	ldp	x28, x19, [sp, #96]
	fcmp	d0, d8
	b.ne	.LBB24_144
	mov	x0, x23
	mov	w1, #64
	mov	w2, #1
	mov	w3, #3
	mov	w24, #1
	bl	"sums::order::nests_inside"
	cbz	w0, .LBB24_145
	mov	w24, wzr
	mov	w9, wzr
	stp	d11, d10, [x25, #8]
	cbz	w24, .LBB24_81
	b	.LBB24_166
.LBB24_133:
	ldr	x28, [sp, #96]
	b	.LBB24_143
.LBB24_134:
	fsub	d0, d2, d2
	mov	w9, #14
	fcmp	d0, d8
	b.ne	.LBB24_166
	fsub	d0, d1, d1
	fcmp	d0, d8
	b.ne	.LBB24_166
	add	x8, x20, x11
	stp	d2, d1, [x8, #-8]
	b	.LBB24_81
.LBB24_137:
	cmp	x19, x22
	b.hs	.LBB24_141
	mov	w9, #24
	add	x10, x23, x22
	add	x11, x27, x22
	madd	x9, x22, x9, x20
	add	x10, x10, #1
	add	x11, x11, #1
	sub	x9, x9, #24
.LBB24_139:
	ldurb	w12, [x11, #-2]
	sub	x22, x22, #1
	cmp	x19, x22
	strb	w12, [x11], #-1
	ldurb	w12, [x10, #-2]
	strb	w12, [x10], #-1
	ldr	q0, [x9]
	ldr	x12, [x9, #16]
	str	q0, [x9, #48]
	str	x12, [x9, #64]
	sub	x9, x9, #24
	b.lo	.LBB24_139
	ldr	x27, [sp, #144]
.LBB24_141:
	mov	w10, #3
	strb	w10, [x27, x19]
	add	x11, x19, x19, lsl #1
	ldr	x10, [sp, #160]
	mov	w12, #1
	mov	w24, wzr
	mov	w9, wzr
	strb	w12, [x10, x19]
	mov	x12, #22377
	lsl	x10, x11, #3
	ldr	x11, [sp, #176]
	movk	x12, #35604, lsl #16
	movk	x12, #48906, lsl #32
	add	x11, x11, x10
	movk	x12, #16389, lsl #48
	str	x12, [x11]
.LBB24_142:
	stp	d11, d10, [x11, #8]
	add	x12, x19, #1
	ldr	x11, [sp, #144]
	ldr	x13, [sp, #160]
	ldr	x15, [sp, #176]
	ldrb	w14, [x11, #64]
	add	x10, x10, x15
	strb	w14, [x11, x12]
	ldrb	w11, [x13, #64]
	strb	w11, [x13, x12]
	ldr	x11, [x15, #1552]
	ldr	q0, [x15, #1536]
	str	x11, [x10, #40]
	stur	q0, [x10, #24]
.LBB24_143:
	ldr	x19, [sp, #104]
.LBB24_144:
	mov	x22, x8
	cbz	w24, .LBB24_81
	b	.LBB24_166
.LBB24_145:
	mov	x8, xzr
	mov	w9, #12
	mov	x22, x8
	cbz	w24, .LBB24_81
	b	.LBB24_166
.LBB24_146:
	mov	x22, xzr
	b	.LBB24_155
.LBB24_147:
	ldp	x21, x20, [sp, #48]
	ldr	x9, [sp, #144]
	ldp	x25, x22, [sp, #32]
	ldr	x11, [sp, #160]
	ldr	x10, [sp, #176]
	ldr	w13, [sp, #12]
	ldp	x28, x27, [sp, #16]
.LBB24_148:
	ldr	x8, [sp, #152]
	ldr	x12, [sp, #168]
	sub	x0, x29, #176
	sub	x2, x29, #224
	and	w4, w13, #0x1
	add	x5, x21, x22
	stp	x8, x11, [x29, #-216]
	ldr	x8, [sp, #184]
	mov	w1, #1
	mov	x3, x24
	mov	x6, x20
	stur	x9, [x29, #-224]
	stp	x12, x10, [x29, #-200]
	stur	x8, [x29, #-184]
	bl	"algebra::answer::write_sum"
	ldrb	w9, [x26]
	ldur	x8, [x29, #-168]
	cbz	w9, .LBB24_152
	ldrb	w9, [x26, #1]
	ldr	x24, [sp, #64]
	cmp	w9, #11
	b.eq	.LBB24_4
.LBB24_150:
	mov	w9, w9
.LBB24_151:
	add	x0, x9, #1
	mov	x10, x8
	mov	x8, xzr
	b	.LBB24_168
.LBB24_152:
	ldr	x24, [sp, #64]
	mov	x10, xzr
	mov	x0, xzr
	b	.LBB24_168
.LBB24_153:
	mov	w9, #6
	b	.LBB24_162
.LBB24_154:
	ldr	x8, [sp, #144]
	ldr	x11, [sp, #160]
	ldr	x9, [sp, #176]
	ldr	x24, [sp, #64]
	ldr	w13, [sp, #32]
.LBB24_155:
	ldr	x12, [sp, #168]
	stur	x8, [x29, #-224]
	sub	x0, x29, #176
	ldr	x8, [sp, #184]
	ldr	x10, [sp, #152]
	sub	x2, x29, #224
	stp	x12, x9, [x29, #-200]
	ldr	x6, [sp, #56]
	and	w4, w13, #0x1
	stur	x8, [x29, #-184]
	ldp	x9, x8, [sp, #40]
	mov	w1, #1
	mov	x3, x22
	stp	x10, x11, [x29, #-216]
	add	x5, x8, x9
	bl	"algebra::answer::write_sum"
	ldrb	w9, [x26]
	ldrb	w10, [x26, #1]
	ldur	x8, [x29, #-168]
	ands	w11, w9, #0xff
	csel	w9, wzr, w10, eq
	cbz	w11, .LBB24_157
	and	x9, x9, #0xff
	b	.LBB24_151
.LBB24_157:
	mov	x10, xzr
	mov	x0, xzr
	b	.LBB24_168
.LBB24_158:
	mov	w9, #6
	b	.LBB24_166
.LBB24_159:
	mov	w9, #17
	b	.LBB24_162
.LBB24_160:
	mov	w9, #14
	b	.LBB24_162
.LBB24_161:
	mov	w9, #11
.LBB24_162:
	ldp	x20, x24, [sp, #56]
	mov	x8, xzr
	ldp	x22, x21, [sp, #40]
	ldr	x28, [sp, #16]
	ldp	x27, x25, [sp, #24]
	cmp	w9, #11
	b.eq	.LBB24_4
	b	.LBB24_150
.LBB24_163:
	mov	w9, #17
	b	.LBB24_166
.LBB24_164:
	mov	w9, #14
	b	.LBB24_166
.LBB24_165:
	mov	w9, #11
.LBB24_166:
	ldr	x24, [sp, #64]
	mov	x10, xzr
.LBB24_167:
	mov	w9, w9
	mov	x8, xzr
	add	x0, x9, #1
.LBB24_168:
	stp	x10, x8, [x24]
	add	sp, sp, #7, lsl #12
	add	sp, sp, #2832
	ldp	x20, x19, [sp, #112]
	ldp	x22, x21, [sp, #96]
	ldp	x24, x23, [sp, #80]
	ldp	x26, x25, [sp, #64]
	ldp	x28, x27, [sp, #48]
	ldp	x29, x30, [sp, #32]
	ldp	d9, d8, [sp, #16]
	ldp	d11, d10, [sp], #128
	ret
.Lfunc_end24:
	.size	uplink_integral_faithful, .Lfunc_end24-uplink_integral_faithful

	.section	.text.uplink_integrate,"ax",@progbits
	.globl	uplink_integrate
	.p2align	2
	.type	uplink_integrate,@function
uplink_integrate:
	stp	d11, d10, [sp, #-128]!
	stp	d9, d8, [sp, #16]
	stp	x29, x30, [sp, #32]
	add	x29, sp, #32
	stp	x28, x27, [sp, #48]
	stp	x26, x25, [sp, #64]
	stp	x24, x23, [sp, #80]
	stp	x22, x21, [sp, #96]
	stp	x20, x19, [sp, #112]
	sub	sp, sp, #3072
	str	xzr, [sp]
	sub	sp, sp, #2160
	movi	v0.2d, #0000000000000000
	cmp	x0, #0
	mov	w8, #4096
	mov	x20, x2
	mov	x22, x1
	mov	x23, x0
	csel	x19, x8, xzr, eq
	cmp	x2, #0
	add	x0, sp, #112
	mov	w1, wzr
	mov	w2, #4608
	str	xzr, [sp]
	mov	x27, x4
	mov	x21, x3
	str	q0, [sp, #4912]
	str	q0, [sp, #4928]
	csel	x24, x8, xzr, eq
	str	q0, [sp, #4944]
	str	q0, [sp, #4960]
	str	q0, [sp, #4976]
	str	q0, [sp, #4992]
	str	q0, [sp, #5008]
	str	q0, [sp, #5024]
	str	q0, [sp, #5040]
	str	q0, [sp, #5056]
	str	q0, [sp, #5072]
	str	q0, [sp, #5088]
	str	q0, [sp, #4720]
	str	q0, [sp, #4736]
	str	q0, [sp, #4752]
	str	q0, [sp, #4768]
	str	q0, [sp, #4784]
	str	q0, [sp, #4800]
	str	q0, [sp, #4816]
	str	q0, [sp, #4832]
	str	q0, [sp, #4848]
	str	q0, [sp, #4864]
	str	q0, [sp, #4880]
	str	q0, [sp, #4896]
	bl	memset
	cmp	x22, #2079
	mov	w9, #10
	b.hi	.LBB25_79
	and	x8, x22, #0x1f
	cbnz	x8, .LBB25_79
	lsr	x22, x22, #5
	cbz	x22, .LBB25_79
	add	x9, sp, #112
	add	x11, x19, x23
	mov	x8, xzr
	sub	x25, x29, #112
	add	x10, x9, #16
	add	x11, x11, #24
.LBB25_4:
	ldur	w13, [x11, #-24]
	mov	w9, #10
	cmp	w13, #255
	b.hi	.LBB25_79
	ldur	w14, [x11, #-20]
	cmp	w14, #63
	b.hi	.LBB25_79
	add	x12, sp, #1, lsl #12
	add	x9, sp, #1, lsl #12
	ldur	q0, [x11, #-16]
	add	x12, x12, #816
	add	x9, x9, #624
	strb	w13, [x12, x8]
	ldr	x13, [x11], #32
	strb	w14, [x9, x8]
	add	x8, x8, #1
	cmp	x22, x8
	stur	q0, [x10, #-16]
	str	x13, [x10], #24
	b.ne	.LBB25_4
	mov	w8, #192
	add	x19, sp, #112
	sub	x0, x29, #160
	mov	x1, xzr
	mov	x2, x22
	mov	w3, #4
	stp	x12, x8, [x29, #-160]
	stp	x9, x8, [x29, #-144]
	stp	x19, x8, [x29, #-128]
	bl	"sums::good::good_sum"
	tbz	w0, #0, .LBB25_78
	add	x12, sp, #1, lsl #12
	add	x10, x19, #3072
	mov	w9, #1
	add	x12, x12, #624
	str	x10, [sp, #56]
	sub	x10, x29, #80
	strb	w9, [x12, #320]
	orr	x9, x10, #0x2
	sub	x11, x29, #112
	stp	x9, x27, [sp, #88]
	add	x9, sp, #1, lsl #12
	fmov	v0.2d, #1.00000000
	movi	d8, #0000000000000000
	orr	x26, x11, #0x2
	add	x9, x9, #624
	add	x10, sp, #1, lsl #12
	add	x11, x19, #1512
	fmov	d9, #1.00000000
	add	x10, x10, #816
	str	x11, [sp, #64]
	add	x11, x9, #65
	str	x11, [sp, #32]
	add	x11, x10, #65
	add	x9, x9, #64
	stp	x21, x11, [sp, #16]
	mov	x8, xzr
	mov	x21, xzr
	add	x11, x19, #16
	str	x9, [sp, #48]
	add	x9, x10, #64
	stp	x24, x20, [sp]
	str	q0, [sp, #3184]
	strb	wzr, [x12, #128]
	str	xzr, [sp, #3200]
	str	x11, [sp, #72]
	str	x9, [sp, #40]
	b	.LBB25_13
.LBB25_9:
	mov	x24, x28
	ldr	x28, [sp, #104]
.LBB25_10:
	ldr	x27, [sp, #96]
.LBB25_11:
	mov	x21, x8
	cbnz	w20, .LBB25_79
.LBB25_12:
	add	x8, x28, x24
	cmp	x8, x22
	b.hs	.LBB25_81
.LBB25_13:
	mov	w9, #24
	add	x10, sp, #112
	add	x11, sp, #1, lsl #12
	madd	x9, x8, x9, x10
	add	x10, sp, #1, lsl #12
	add	x11, x11, #624
	add	x10, x10, #816
	ldrb	w24, [x11, x8]
	add	x28, x8, #1
	ldrb	w10, [x10, x8]
	cmp	w10, #1
	ldp	d11, d10, [x9, #8]
	b.ne	.LBB25_18
	fmov	d0, #1.00000000
	ldr	d1, [x9]
	fadd	d0, d1, d0
	fmov	d3, d0
	fcmp	d3, d8
	b.ne	.LBB25_24
	add	x8, sp, #1, lsl #12
	mov	w9, #192
	add	x19, x21, #64
	add	x8, x8, #816
	str	x28, [sp, #104]
	mov	x27, x24
	stp	x8, x9, [x29, #-160]
	add	x8, sp, #1, lsl #12
	cmp	x19, #65
	add	x8, x8, #624
	mov	w28, #64
	stp	d11, d10, [x29, #-64]
	stp	x8, x9, [x29, #-144]
	add	x8, sp, #112
	stp	x8, x9, [x29, #-128]
	mov	w8, #259
	sturh	w8, [x29, #-80]
	ldr	x8, [sp, #88]
	str	wzr, [x8]
	strh	wzr, [x8, #4]
	mov	x8, #22377
	movk	x8, #35604, lsl #16
	movk	x8, #48906, lsl #32
	movk	x8, #16389, lsl #48
	stur	x8, [x29, #-72]
	b.lo	.LBB25_42
.LBB25_16:
	mov	w8, #24
	add	x9, sp, #112
	sub	x0, x29, #160
	madd	x23, x28, x8, x9
	add	x8, sp, #1, lsl #12
	add	x9, sp, #1, lsl #12
	add	x8, x8, #816
	add	x9, x9, #624
	sub	x1, x29, #80
	ldrb	w8, [x8, x28]
	ldrb	w20, [x9, x28]
	add	x9, sp, #1, lsl #12
	add	x9, x9, #624
	sub	x3, x29, #112
	add	x4, x28, #1
	mov	w2, #128
	mov	w5, #4
	str	wzr, [x26]
	ldr	q0, [x23]
	ldr	d1, [x23, #16]
	strh	wzr, [x26, #4]
	strb	w8, [x9, #432]
	add	x24, x28, #1
	strb	w20, [x9, #433]
	stur	q0, [x25, #8]
	stur	d1, [x29, #-88]
	bl	"sums::order::cmp_term"
	and	w8, w0, #0xff
	cmp	w8, #2
	b.ne	.LBB25_41
	add	x28, x24, x20
	cmp	x28, x19
	b.lo	.LBB25_16
	b	.LBB25_42
.LBB25_18:
	cmp	w10, #5
	mov	w9, #6
	b.lo	.LBB25_79
	cmp	w24, #1
	b.ne	.LBB25_79
	mov	w8, #24
	mul	x9, x28, x8
	add	x8, sp, #112
	ldr	d0, [x8, x9]
	add	x9, sp, #1, lsl #12
	add	x9, x9, #816
	fcmp	d0, d9
	ldrb	w11, [x9, x28]
	ccmp	w11, #1, #0, eq
	b.ne	.LBB25_83
	mov	w11, #192
	lsl	x12, x10, #3
	fneg	d0, d11
	stp	x9, x11, [x29, #-160]
	add	x9, sp, #1, lsl #12
	fneg	d1, d10
	add	x9, x9, #624
	cmp	w10, #7
	stp	x8, x11, [x29, #-128]
	stp	x9, x11, [x29, #-144]
	mov	x9, #506381209866536711
	add	x23, x21, #64
	movk	x9, #1543, lsl #32
	str	x28, [sp, #104]
	mov	x28, x24
	movk	x9, #2053, lsl #48
	sub	x25, x29, #112
	mov	w19, #64
	lsr	x9, x9, x12
	mov	w12, #7
	csel	w8, w12, w9, hi
	cmp	w10, #5
	sub	x9, x29, #112
	str	w8, [sp, #84]
	fcsel	d11, d0, d11, eq
	fcsel	d10, d1, d10, eq
	strb	w8, [x9, #32]
	mov	w8, #1
	cmp	x23, #65
	strb	w8, [x9, #33]
	ldr	x8, [sp, #88]
	stp	d11, d10, [x29, #-64]
	str	xzr, [x8]
	stur	xzr, [x8, #6]
	b.lo	.LBB25_36
.LBB25_22:
	mov	w8, #24
	add	x9, sp, #112
	sub	x0, x29, #160
	madd	x27, x19, x8, x9
	add	x8, sp, #1, lsl #12
	add	x9, sp, #1, lsl #12
	add	x8, x8, #816
	add	x9, x9, #624
	sub	x1, x29, #80
	ldrb	w8, [x8, x19]
	ldrb	w20, [x9, x19]
	sub	x9, x29, #112
	sub	x3, x29, #112
	add	x4, x19, #1
	mov	w2, #128
	mov	w5, #4
	str	wzr, [x26]
	sub	x25, x29, #112
	ldr	q0, [x27]
	ldr	d1, [x27, #16]
	strh	wzr, [x26, #4]
	strb	w8, [x9]
	add	x24, x19, #1
	strb	w20, [x9, #1]
	stur	q0, [x9, #8]
	stur	d1, [x29, #-88]
	bl	"sums::order::cmp_term"
	and	w8, w0, #0xff
	cmp	w8, #2
	b.ne	.LBB25_35
	add	x19, x24, x20
	cmp	x19, x23
	b.lo	.LBB25_22
	b	.LBB25_36
.LBB25_24:
	add	x8, x21, #64
	add	x9, x21, #64
	cmp	x8, #65
	b.lo	.LBB25_29
	neg	x10, x21
	mov	w9, #64
.LBB25_26:
	add	x11, sp, #1, lsl #12
	add	x11, x11, #816
	ldrb	w11, [x11, x9]
	cmp	w11, #1
	b.ne	.LBB25_29
	add	x9, x9, #1
	add	x11, x10, x9
	cmp	x11, #64
	b.ne	.LBB25_26
	add	x9, x21, #64
.LBB25_29:
	fsub	d1, d0, d0
	fcmp	d1, d8
	b.ne	.LBB25_88
	fdiv	d2, d11, d0
	mov	w10, #24
	ldr	x11, [sp, #72]
	madd	x10, x9, x10, x11
	fdiv	d1, d10, d0
.LBB25_31:
	cmp	x9, #65
	b.lo	.LBB25_53
	ldur	d4, [x10, #-40]
	sub	x9, x9, #1
	sub	x10, x10, #24
	fcmp	d3, d4
	cset	w11, mi
	fcmp	d4, d3
	//APP
	//NO_APP
	cset	w12, mi
	//APP
	//NO_APP
	cmp	w12, #0
	mov	w12, #1
	cinc	w12, w12, ne
	cmp	w11, #0
	csel	w11, wzr, w12, ne
	cbz	w11, .LBB25_31
	cmp	w11, #2
	b.ne	.LBB25_60
	add	x9, x9, #1
	b	.LBB25_54
.LBB25_35:
	cbnz	w8, .LBB25_47
.LBB25_36:
	fsub	d0, d11, d11
	mov	x8, xzr
	mov	w20, #1
	mov	w9, #14
	fcmp	d0, d8
	b.ne	.LBB25_9
	fsub	d0, d10, d10
	mov	x24, x28
	ldr	x28, [sp, #104]
	fcmp	d0, d8
	b.ne	.LBB25_10
	add	x0, sp, #1, lsl #12
	mov	w1, #128
	mov	w2, #1
	add	x0, x0, #624
	mov	w3, #3
	mov	w20, #1
	bl	"sums::order::nests_inside"
	cbz	w0, .LBB25_51
	add	x8, x21, #2
	cmp	x8, #64
	b.ls	.LBB25_68
	mov	x8, xzr
	mov	w20, #1
	mov	w9, #11
	b	.LBB25_10
.LBB25_41:
	cbnz	w8, .LBB25_63
.LBB25_42:
	fsub	d0, d11, d11
	mov	x8, xzr
	mov	w20, #1
	mov	w9, #14
	fcmp	d0, d8
	b.ne	.LBB25_67
	fsub	d0, d10, d10
	mov	x24, x27
	ldr	x27, [sp, #96]
	fcmp	d0, d8
	b.ne	.LBB25_76
	add	x0, sp, #1, lsl #12
	mov	w1, #128
	mov	w2, #1
	add	x0, x0, #624
	mov	w3, #3
	mov	w20, #1
	bl	"sums::order::nests_inside"
	cbz	w0, .LBB25_52
	add	x8, x21, #2
	cmp	x8, #64
	b.ls	.LBB25_72
	ldr	x28, [sp, #104]
	mov	x8, xzr
	mov	w20, #1
	mov	w9, #11
	b	.LBB25_11
.LBB25_47:
	fsub	d0, d11, d11
	mov	x8, xzr
	mov	w20, #1
	mov	w9, #14
	fcmp	d0, d8
	b.ne	.LBB25_9
	fsub	d0, d10, d10
	mov	x24, x28
	ldr	x28, [sp, #104]
	fcmp	d0, d8
	b.ne	.LBB25_10
	add	x0, sp, #1, lsl #12
	mov	w1, #128
	mov	w2, #1
	add	x0, x0, #624
	mov	w3, #3
	mov	w20, #1
	bl	"sums::order::nests_inside"
	cbz	w0, .LBB25_51
	mov	w20, wzr
	mov	x9, xzr
	stp	d11, d10, [x27, #8]
	mov	x8, x21
	b	.LBB25_10
.LBB25_51:
	mov	x8, xzr
	mov	w9, #12
	b	.LBB25_10
.LBB25_52:
	ldr	x28, [sp, #104]
	mov	x8, xzr
	mov	w9, #12
	b	.LBB25_11
.LBB25_53:
	mov	w9, #64
.LBB25_54:
	fsub	d3, d2, d2
	fsub	d4, d1, d1
	fcmp	d3, d8
	fccmp	d4, d8, #0, eq
	b.ne	.LBB25_89
	add	x10, x21, #1
	cmp	x10, #64
	b.hi	.LBB25_90
	cmp	x9, x8
	b.hs	.LBB25_59
	mov	w11, #24
	ldr	x12, [sp, #64]
	madd	x11, x21, x11, x12
	ldr	x12, [sp, #48]
	add	x14, x12, x21
	ldr	x12, [sp, #40]
	mov	x13, x14
	add	x15, x12, x21
	mov	x12, x15
.LBB25_58:
	ldrb	w16, [x12, #-1]!
	ldr	q3, [x11]
	ldrb	w17, [x13, #-1]!
	sub	x8, x8, #1
	strb	w16, [x15]
	ldr	x15, [x11, #16]
	cmp	x9, x8
	strb	w17, [x14]
	mov	x14, x13
	stur	q3, [x11, #24]
	str	x15, [x11, #40]
	sub	x11, x11, #24
	mov	x15, x12
	b.lo	.LBB25_58
.LBB25_59:
	mov	w8, #24
	add	x11, sp, #112
	add	x13, sp, #1, lsl #12
	madd	x8, x9, x8, x11
	add	x11, sp, #1, lsl #12
	add	x13, x13, #624
	add	x11, x11, #816
	mov	w12, #1
	strb	wzr, [x13, x9]
	strb	w12, [x11, x9]
	mov	x21, x10
	stp	d0, d2, [x8]
	str	d1, [x8, #16]
	b	.LBB25_12
.LBB25_60:
	fsub	d0, d2, d2
	mov	w9, #14
	fcmp	d0, d8
	b.ne	.LBB25_79
	fsub	d0, d1, d1
	fcmp	d0, d8
	b.ne	.LBB25_79
	stp	d2, d1, [x10, #-8]
	b	.LBB25_12
.LBB25_63:
	fsub	d0, d11, d11
	mov	x8, xzr
	mov	w20, #1
	mov	w9, #14
	fcmp	d0, d8
	b.ne	.LBB25_67
	fsub	d0, d10, d10
	mov	x24, x27
	ldr	x27, [sp, #96]
	fcmp	d0, d8
	b.ne	.LBB25_76
	add	x0, sp, #1, lsl #12
	mov	w1, #128
	mov	w2, #1
	add	x0, x0, #624
	mov	w3, #3
	mov	w20, #1
	bl	"sums::order::nests_inside"
	cbz	w0, .LBB25_77
	ldr	x28, [sp, #104]
	mov	w20, wzr
	mov	x9, xzr
	stp	d11, d10, [x23, #8]
	mov	x8, x21
	b	.LBB25_11
.LBB25_67:
	mov	x24, x27
	ldp	x27, x28, [sp, #96]
	b	.LBB25_11
.LBB25_68:
	cmp	x19, x23
	b.hs	.LBB25_71
	mov	w9, #24
	ldr	x10, [sp, #64]
	madd	x9, x21, x9, x10
	ldp	x11, x10, [sp, #24]
	add	x10, x10, x21
	add	x11, x11, x21
.LBB25_70:
	ldr	q0, [x9]
	ldr	x12, [x9, #16]
	sub	x23, x23, #1
	ldurb	w13, [x11, #-2]
	ldurb	w14, [x10, #-2]
	cmp	x19, x23
	str	q0, [x9, #48]
	str	x12, [x9, #64]
	sub	x9, x9, #24
	strb	w13, [x11], #-1
	strb	w14, [x10], #-1
	b.lo	.LBB25_70
.LBB25_71:
	mov	w10, #24
	add	x11, sp, #112
	add	x12, sp, #1, lsl #12
	madd	x10, x19, x10, x11
	add	x11, sp, #1, lsl #12
	ldr	w13, [sp, #84]
	add	x11, x11, #816
	add	x15, sp, #1, lsl #12
	add	x12, x12, #624
	strb	w13, [x11, x19]
	mov	w13, #1
	add	x15, x15, #624
	strb	w13, [x12, x19]
	add	x13, x19, #1
	ldrb	w14, [x15, #320]
	strb	w14, [x11, x13]
	ldrb	w11, [x15, #128]
	ldr	x15, [sp, #56]
	str	xzr, [x10]
	mov	w20, wzr
	mov	x9, xzr
	stp	d11, d10, [x10, #8]
	ldr	x14, [x15, #16]
	ldr	q0, [x15]
	strb	w11, [x12, x13]
	str	x14, [x10, #40]
	stur	q0, [x10, #24]
	b	.LBB25_10
.LBB25_72:
	cmp	x28, x19
	b.hs	.LBB25_75
	mov	w9, #24
	ldr	x10, [sp, #64]
	madd	x9, x21, x9, x10
	ldp	x11, x10, [sp, #24]
	add	x10, x10, x21
	add	x11, x11, x21
.LBB25_74:
	ldr	q0, [x9]
	ldr	x12, [x9, #16]
	sub	x19, x19, #1
	ldurb	w13, [x11, #-2]
	ldurb	w14, [x10, #-2]
	cmp	x28, x19
	str	q0, [x9, #48]
	str	x12, [x9, #64]
	sub	x9, x9, #24
	strb	w13, [x11], #-1
	strb	w14, [x10], #-1
	b.lo	.LBB25_74
.LBB25_75:
	mov	w10, #24
	add	x11, sp, #112
	mov	w12, #3
	madd	x10, x28, x10, x11
	add	x11, sp, #1, lsl #12
	add	x13, sp, #1, lsl #12
	add	x11, x11, #816
	add	x13, x13, #624
	add	x15, sp, #1, lsl #12
	strb	w12, [x11, x28]
	mov	w12, #1
	add	x15, x15, #624
	strb	w12, [x13, x28]
	mov	x12, #22377
	ldrb	w14, [x15, #320]
	movk	x12, #35604, lsl #16
	mov	w20, wzr
	mov	x9, xzr
	movk	x12, #48906, lsl #32
	stp	d11, d10, [x10, #8]
	movk	x12, #16389, lsl #48
	str	x12, [x10]
	add	x12, x28, #1
	strb	w14, [x11, x12]
	ldrb	w11, [x15, #128]
	ldr	x15, [sp, #56]
	strb	w11, [x13, x12]
	ldr	x14, [x15, #16]
	ldr	q0, [x15]
	str	x14, [x10, #40]
	stur	q0, [x10, #24]
.LBB25_76:
	ldr	x28, [sp, #104]
	b	.LBB25_11
.LBB25_77:
	ldr	x28, [sp, #104]
	mov	x8, xzr
	mov	w9, #12
	b	.LBB25_11
.LBB25_78:
	sub	x0, x29, #160
	mov	x1, xzr
	mov	x2, x22
	mov	w3, #64
	bl	"sums::good::good_sum"
	mov	w8, #10
	cmp	w0, #0
	mov	w9, #12
	csel	x9, x9, x8, ne
.LBB25_79:
	mov	x21, xzr
	add	x0, x9, #1
.LBB25_80:
	stp	xzr, x21, [x27]
	add	sp, sp, #1, lsl #12
	add	sp, sp, #1136
	ldp	x20, x19, [sp, #112]
	ldp	x22, x21, [sp, #96]
	ldp	x24, x23, [sp, #80]
	ldp	x26, x25, [sp, #64]
	ldp	x28, x27, [sp, #48]
	ldp	x29, x30, [sp, #32]
	ldp	d9, d8, [sp, #16]
	ldp	d11, d10, [sp], #128
	ret
.LBB25_81:
	ldr	x8, [sp, #16]
	cmp	x21, x8, lsr #5
	b.ls	.LBB25_84
	mov	w9, #16
	b	.LBB25_79
.LBB25_83:
	mov	w9, #6
	b	.LBB25_79
.LBB25_84:
	cbz	x21, .LBB25_87
	ldp	x9, x8, [sp]
	add	x10, sp, #1, lsl #12
	add	x11, sp, #1, lsl #12
	add	x10, x10, #624
	mov	x12, x21
	add	x11, x11, #816
	add	x10, x10, #64
	add	x8, x9, x8
	add	x9, sp, #112
	add	x11, x11, #64
	add	x8, x8, #24
	add	x9, x9, #1552
.LBB25_86:
	ldrb	w13, [x11], #1
	ldur	q0, [x9, #-16]
	ldrb	w14, [x10], #1
	subs	x12, x12, #1
	stur	q0, [x8, #-16]
	stp	w13, w14, [x8, #-24]
	ldr	x13, [x9], #24
	str	x13, [x8], #32
	b.ne	.LBB25_86
.LBB25_87:
	mov	x0, xzr
	b	.LBB25_80
.LBB25_88:
	mov	w9, #17
	b	.LBB25_79
.LBB25_89:
	mov	w9, #14
	b	.LBB25_79
.LBB25_90:
	mov	w9, #11
	b	.LBB25_79
.Lfunc_end25:
	.size	uplink_integrate, .Lfunc_end25-uplink_integrate

	.section	.text.uplink_inverse,"ax",@progbits
	.globl	uplink_inverse
	.p2align	2
	.type	uplink_inverse,@function
uplink_inverse:
	stp	x29, x30, [sp, #-96]!
	sub	x9, sp, #7, lsl #12
	stp	x28, x27, [sp, #16]
	mov	x29, sp
	sub	x9, x9, #2048
	stp	x26, x25, [sp, #32]
	stp	x24, x23, [sp, #48]
	stp	x22, x21, [sp, #64]
	stp	x20, x19, [sp, #80]
.LBB26_1:
	sub	sp, sp, #3072
	cmp	sp, x9
	str	xzr, [sp]
	b.ne	.LBB26_1
	sub	sp, sp, #528
	movi	v0.2d, #0000000000000000
	cmp	x0, #0
	mov	w8, #4096
	mov	x21, x2
	mov	x22, x1
	mov	x23, x0
	csel	x26, x8, xzr, eq
	cmp	x2, #0
	add	x0, sp, #1248
	mov	w1, wzr
	mov	w2, #6144
	mov	x19, x4
	mov	x20, x3
	stp	q0, q0, [x29, #-48]
	sub	x24, x29, #48
	stp	q0, q0, [sp]
	csel	x25, x8, xzr, eq
	add	x27, sp, #1248
	str	q0, [sp, #30048]
	str	q0, [sp, #30064]
	str	q0, [sp, #30080]
	str	q0, [sp, #30096]
	str	q0, [sp, #30112]
	str	q0, [sp, #30128]
	str	q0, [sp, #30144]
	str	q0, [sp, #30160]
	str	q0, [sp, #30176]
	str	q0, [sp, #30192]
	str	q0, [sp, #30208]
	str	q0, [sp, #30224]
	str	q0, [sp, #30240]
	str	q0, [sp, #30256]
	str	q0, [sp, #30272]
	str	q0, [sp, #30288]
	str	q0, [sp, #29136]
	str	q0, [sp, #29120]
	str	q0, [sp, #29104]
	str	q0, [sp, #29088]
	str	q0, [sp, #29072]
	str	q0, [sp, #29056]
	str	q0, [sp, #29040]
	str	q0, [sp, #29024]
	str	q0, [sp, #29008]
	str	q0, [sp, #28992]
	str	q0, [sp, #28976]
	str	q0, [sp, #28960]
	str	q0, [sp, #28944]
	str	q0, [sp, #28928]
	str	q0, [sp, #28912]
	str	q0, [sp, #28896]
	bl	memset
	add	x8, sp, #7, lsl #12
	movi	v0.2d, #0000000000000000
	mov	w9, #256
	add	x8, x8, #1376
	mov	x0, sp
	add	x1, x23, x26
	stp	x8, x9, [sp, #32]
	add	x8, sp, #7, lsl #12
	add	x3, sp, #32
	add	x8, x8, #224
	mov	x2, x22
	mov	w4, #256
	stp	x8, x9, [sp, #48]
	add	x8, sp, #96
	stp	q0, q0, [sp, #96]
	stp	q0, q0, [sp, #128]
	stp	q0, q0, [sp, #160]
	stp	q0, q0, [sp, #192]
	stp	q0, q0, [sp, #224]
	stp	q0, q0, [sp, #256]
	stp	q0, q0, [sp, #288]
	stp	q0, q0, [sp, #320]
	stp	x27, x9, [sp, #64]
	stp	x8, x9, [sp, #80]
	bl	"algebra::lists::read_sum"
	sub	x0, x29, #48
	mov	x3, sp
	add	x4, sp, #32
	add	x5, x21, x25
	mov	w1, #3
	mov	w2, wzr
	mov	x6, x20
	bl	"algebra::lists::make_of"
	ldrb	w8, [x24]
	ldrb	w10, [x24, #1]
	ldur	x9, [x29, #-40]
	cbz	w8, .LBB26_5
	cmp	w10, #11
	b.ne	.LBB26_5
	movi	v0.2d, #0000000000000000
	add	x0, sp, #7, lsl #12
	mov	w1, wzr
	add	x0, x0, #1376
	mov	w2, #1152
	mov	w27, #1152
	stp	q0, q0, [x29, #-48]
	stp	q0, q0, [sp]
	bl	memset
	add	x0, sp, #7, lsl #12
	mov	w1, wzr
	mov	w2, #1152
	add	x0, x0, #224
	bl	memset
	add	x0, sp, #1248
	mov	w1, wzr
	mov	w2, #27648
	add	x28, sp, #1248
	bl	memset
	add	x0, sp, #96
	mov	w1, wzr
	mov	w2, #1152
	add	x24, sp, #96
	bl	memset
	add	x8, sp, #7, lsl #12
	mov	x0, sp
	add	x1, x23, x26
	add	x8, x8, #1376
	add	x3, sp, #32
	mov	x2, x22
	stp	x8, x27, [sp, #32]
	add	x8, sp, #7, lsl #12
	mov	w4, #1152
	add	x8, x8, #224
	stp	x28, x27, [sp, #64]
	stp	x8, x27, [sp, #48]
	stp	x24, x27, [sp, #80]
	bl	"algebra::lists::read_sum"
	sub	x0, x29, #48
	mov	x3, sp
	add	x4, sp, #32
	add	x5, x21, x25
	mov	w1, #3
	mov	w2, wzr
	mov	x6, x20
	bl	"algebra::lists::make_of"
	sub	x9, x29, #48
	ldrb	w8, [x9]
	ldrb	w10, [x9, #1]
	ldur	x9, [x29, #-40]
.LBB26_5:
	cmp	w8, #0
	csel	w8, wzr, w10, eq
	csinc	x0, xzr, x8, eq
	csel	x8, xzr, x9, eq
	csel	x9, x9, xzr, eq
	stp	x8, x9, [x19]
	add	sp, sp, #7, lsl #12
	add	sp, sp, #2576
	ldp	x20, x19, [sp, #80]
	ldp	x22, x21, [sp, #64]
	ldp	x24, x23, [sp, #48]
	ldp	x26, x25, [sp, #32]
	ldp	x28, x27, [sp, #16]
	ldp	x29, x30, [sp], #96
	ret
.Lfunc_end26:
	.size	uplink_inverse, .Lfunc_end26-uplink_inverse

	.section	.text.uplink_read,"ax",@progbits
	.globl	uplink_read
	.p2align	2
	.type	uplink_read,@function
uplink_read:
	stp	x29, x30, [sp, #-96]!
	sub	x9, sp, #7, lsl #12
	stp	x28, x27, [sp, #16]
	mov	x29, sp
	sub	x9, x9, #2048
	stp	x26, x25, [sp, #32]
	stp	x24, x23, [sp, #48]
	stp	x22, x21, [sp, #64]
	stp	x20, x19, [sp, #80]
.LBB27_1:
	sub	sp, sp, #3072
	cmp	sp, x9
	str	xzr, [sp]
	b.ne	.LBB27_1
	movi	v0.2d, #0000000000000000
	mov	x19, x4
	mov	x21, x3
	mov	x20, x2
	mov	x22, x1
	mov	x23, x0
	stp	q0, q0, [sp, #-496]!
	cmp	x0, #0
	mov	w8, #4096
	add	x0, sp, #1248
	csel	x25, x8, xzr, eq
	cmp	x2, #0
	mov	w1, wzr
	mov	w2, #6144
	str	q0, [sp, #30048]
	csel	x24, x8, xzr, eq
	str	q0, [sp, #30064]
	add	x26, sp, #1248
	str	q0, [sp, #30080]
	str	q0, [sp, #30096]
	str	q0, [sp, #30112]
	str	q0, [sp, #30128]
	str	q0, [sp, #30144]
	str	q0, [sp, #30160]
	str	q0, [sp, #30176]
	str	q0, [sp, #30192]
	str	q0, [sp, #30208]
	str	q0, [sp, #30224]
	str	q0, [sp, #30240]
	str	q0, [sp, #30256]
	str	q0, [sp, #30272]
	str	q0, [sp, #30288]
	str	q0, [sp, #29136]
	str	q0, [sp, #29120]
	str	q0, [sp, #29104]
	str	q0, [sp, #29088]
	str	q0, [sp, #29072]
	str	q0, [sp, #29056]
	str	q0, [sp, #29040]
	str	q0, [sp, #29024]
	str	q0, [sp, #29008]
	str	q0, [sp, #28992]
	str	q0, [sp, #28976]
	str	q0, [sp, #28960]
	str	q0, [sp, #28944]
	str	q0, [sp, #28928]
	str	q0, [sp, #28912]
	str	q0, [sp, #28896]
	bl	memset
	add	x8, sp, #7, lsl #12
	movi	v0.2d, #0000000000000000
	mov	w9, #256
	add	x8, x8, #1376
	mov	x0, sp
	add	x1, x23, x25
	stp	x8, x9, [sp, #32]
	add	x8, sp, #7, lsl #12
	add	x3, sp, #32
	add	x8, x8, #224
	mov	x2, x22
	mov	w4, #256
	stp	x8, x9, [sp, #48]
	add	x8, sp, #96
	stp	q0, q0, [sp, #96]
	stp	q0, q0, [sp, #128]
	stp	q0, q0, [sp, #160]
	stp	q0, q0, [sp, #192]
	stp	q0, q0, [sp, #224]
	stp	q0, q0, [sp, #256]
	stp	q0, q0, [sp, #288]
	stp	q0, q0, [sp, #320]
	stp	x26, x9, [sp, #64]
	stp	x8, x9, [sp, #80]
	bl	"algebra::lists::read_sum"
	ldrb	w9, [sp]
	ldr	x8, [sp, #8]
	cmp	w9, #1
	b.ne	.LBB27_7
	ldrb	w10, [sp, #1]
	cmp	w10, #11
	b.ne	.LBB27_18
	movi	v0.2d, #0000000000000000
	add	x0, sp, #7, lsl #12
	mov	w1, wzr
	add	x0, x0, #1376
	mov	w2, #1152
	mov	w26, #1152
	stp	q0, q0, [sp]
	bl	memset
	add	x0, sp, #7, lsl #12
	mov	w1, wzr
	mov	w2, #1152
	add	x0, x0, #224
	bl	memset
	add	x0, sp, #1248
	mov	w1, wzr
	mov	w2, #27648
	add	x27, sp, #1248
	bl	memset
	add	x0, sp, #96
	mov	w1, wzr
	mov	w2, #1152
	add	x28, sp, #96
	bl	memset
	add	x8, sp, #7, lsl #12
	mov	x0, sp
	add	x1, x23, x25
	add	x8, x8, #1376
	add	x3, sp, #32
	mov	x2, x22
	stp	x8, x26, [sp, #32]
	add	x8, sp, #7, lsl #12
	mov	w4, #1152
	add	x8, x8, #224
	stp	x27, x26, [sp, #64]
	stp	x8, x26, [sp, #48]
	stp	x28, x26, [sp, #80]
	bl	"algebra::lists::read_sum"
	ldrb	w9, [sp]
	ldr	x8, [sp, #8]
	cmp	w9, #1
	b.ne	.LBB27_12
	ldrb	w10, [sp, #1]
	mov	x11, xzr
	mov	x9, xzr
	mov	w13, #1
	cbnz	w13, .LBB27_18
.LBB27_6:
	mov	x0, xzr
	mov	x10, xzr
	b	.LBB27_19
.LBB27_7:
	lsr	x12, x21, #5
	ldrb	w11, [sp, #16]
	cmp	x12, x8
	b.lo	.LBB27_16
	ldr	x9, [sp, #24]
	cbz	x8, .LBB27_17
	ldr	x15, [sp, #32]
	ldr	x14, [sp, #48]
	add	x13, x24, x20
	ldr	x16, [sp, #64]
	mov	x10, xzr
	add	x13, x13, #24
	add	x14, x14, #128
	add	x15, x15, #128
	add	x16, x16, #3088
.LBB27_10:
	ldrb	w17, [x15, x10]
	ldrb	w18, [x14, x10]
	add	x10, x10, #1
	ldr	x0, [x16]
	ldur	q0, [x16, #-16]
	cmp	x8, x10
	add	x16, x16, #24
	stp	w17, w18, [x13, #-24]
	stur	q0, [x13, #-16]
	str	x0, [x13], #32
	b.ne	.LBB27_10
.LBB27_11:
	mov	w10, wzr
	cmp	x12, x8
	cset	w12, hs
	and	w11, w12, w11
	b	.LBB27_6
.LBB27_12:
	lsr	x12, x21, #5
	ldrb	w11, [sp, #16]
	cmp	x12, x8
	b.lo	.LBB27_16
	ldr	x9, [sp, #24]
	cbz	x8, .LBB27_17
	ldr	x15, [sp, #32]
	ldr	x14, [sp, #48]
	add	x13, x24, x20
	ldr	x16, [sp, #64]
	mov	x10, xzr
	add	x13, x13, #24
	add	x14, x14, #128
	add	x15, x15, #128
	add	x16, x16, #3088
.LBB27_15:
	ldrb	w17, [x15, x10]
	ldrb	w18, [x14, x10]
	add	x10, x10, #1
	ldr	x0, [x16]
	ldur	q0, [x16, #-16]
	cmp	x8, x10
	add	x16, x16, #24
	stp	w17, w18, [x13, #-24]
	stur	q0, [x13, #-16]
	str	x0, [x13], #32
	b.ne	.LBB27_15
	b	.LBB27_11
.LBB27_16:
	mov	x9, xzr
	mov	x0, xzr
	mov	w13, #1
	mov	w10, #16
	cmp	x12, x8
	mov	x8, x0
	cset	w12, hs
	and	w11, w12, w11
	cbnz	w13, .LBB27_18
	b	.LBB27_6
.LBB27_17:
	mov	w10, wzr
	mov	x0, xzr
	cmp	x12, x8
	mov	x8, x0
	cset	w12, hs
	and	w11, w12, w11
	b	.LBB27_6
.LBB27_18:
	mov	w10, w10
	mov	x11, xzr
	mov	x9, xzr
	add	x0, x10, #1
	mov	x10, x8
	mov	x8, xzr
.LBB27_19:
	stp	x10, x8, [x19]
	stp	x11, x9, [x19, #16]
	add	sp, sp, #7, lsl #12
	add	sp, sp, #2544
	ldp	x20, x19, [sp, #80]
	ldp	x22, x21, [sp, #64]
	ldp	x24, x23, [sp, #48]
	ldp	x26, x25, [sp, #32]
	ldp	x28, x27, [sp, #16]
	ldp	x29, x30, [sp], #96
	ret
.Lfunc_end27:
	.size	uplink_read, .Lfunc_end27-uplink_read

	.section	.rodata.cst16,"aM",@progbits,16
	.p2align	4, 0x0
.LCPI28_0:
	.xword	1
	.xword	0
	.section	.text.uplink_run,"ax",@progbits
	.globl	uplink_run
	.p2align	2
	.type	uplink_run,@function
uplink_run:
	str	d8, [sp, #-64]!
	stp	x29, x30, [sp, #8]
	add	x29, sp, #8
	str	x28, [sp, #24]
	stp	x22, x21, [sp, #32]
	stp	x20, x19, [sp, #48]
	sub	sp, sp, #2240
	cmp	x0, #0
	mov	w8, #4096
	mov	w10, #49175
	mov	x9, xzr
	csel	x12, x8, xzr, eq
	cmp	x1, x10
	mov	w10, #10
	str	xzr, [sp]
	b.hi	.LBB28_64
	mov	x8, #-6148914691236517206
	mov	w11, #24
	movk	x8, #43691
	umulh	x8, x1, x8
	lsr	x8, x8, #4
	msub	x11, x8, x11, x1
	cbnz	x11, .LBB28_64
	cmp	x1, #24
	add	x19, x0, x12
	mov	x20, x8
	b.lo	.LBB28_8
	add	x10, x12, x0
	mov	x9, xzr
	add	x10, x10, #16
.LBB28_4:
	ldp	x11, x13, [x10, #-16]
	and	x14, x11, #0xffffffffffff00ff
	cmp	x14, #5
	ldr	x14, [x10], #24
	ccmp	x13, #0, #0, eq
	ccmp	x11, #1, #4, ne
	cset	w11, eq
	cbnz	x14, .LBB28_7
	cbz	w11, .LBB28_7
	add	x9, x9, #1
	cmp	x8, x9
	b.ne	.LBB28_4
	b	.LBB28_8
.LBB28_7:
	cmp	x8, x9
	b.ne	.LBB28_20
.LBB28_8:
	fsub	d1, d0, d0
	movi	d2, #0000000000000000
	fcmp	d1, d2
	b.ne	.LBB28_11
	fmov	d8, d0
	add	x8, sp, #128
	mov	x21, x3
	mov	x22, x2
	add	x0, x8, #8
	cmp	x1, #1560
	b.hs	.LBB28_12
	mov	w1, wzr
	mov	w2, #536
	b	.LBB28_13
.LBB28_11:
	mov	x9, xzr
	mov	w10, #14
	b	.LBB28_64
.LBB28_12:
	mov	w1, wzr
	mov	w2, #2064
.LBB28_13:
	bl	memset
	movi	v0.2d, #0000000000000000
	adrp	x8, .LCPI28_0
	mov	x0, sp
	ldr	q1, [x8, :lo12:.LCPI28_0]
	mov	w8, #1
	add	x4, sp, #128
	sub	x5, x29, #40
	mov	x1, x19
	mov	x2, xzr
	mov	x3, x20
	mov	x6, xzr
	mov	w7, #129
	str	d8, [sp, #128]
	stur	q1, [x29, #-40]
	stp	q0, q0, [sp]
	stur	x8, [x29, #-24]
	bl	"running::run::walk"
	ldrb	w8, [sp]
	cbz	w8, .LBB28_17
	ldrb	w10, [sp, #8]
	ldr	x9, [sp, #16]
	mov	x8, xzr
	mov	w11, #1
	mov	x2, x22
	mov	x3, x21
.LBB28_15:
	cbnz	w11, .LBB28_64
	mov	x0, xzr
	mov	x11, xzr
	b	.LBB28_65
.LBB28_17:
	ldr	x9, [sp, #8]
	mov	x2, x22
	mov	x3, x21
	cbz	x9, .LBB28_54
	cmp	x9, #1
	b.ne	.LBB28_55
	ldp	x9, x8, [sp, #16]
	mov	w11, wzr
	ldr	x10, [sp, #128]
	b	.LBB28_15
.LBB28_20:
	movi	v1.2d, #0000000000000000
	add	x12, x12, x0
	mov	w11, wzr
	mov	x10, xzr
	add	x12, x12, #8
	mov	x16, x20
	stp	q1, q1, [sp]
	stp	q1, q1, [sp, #32]
	stp	q1, q1, [sp, #64]
	stp	q1, q1, [sp, #96]
	stp	q1, q1, [sp, #128]
	stp	q1, q1, [sp, #160]
	stp	q1, q1, [sp, #192]
	stp	q1, q1, [sp, #224]
	stp	q1, q1, [sp, #256]
	stp	q1, q1, [sp, #288]
	stp	q1, q1, [sp, #320]
	stp	q1, q1, [sp, #352]
.LBB28_21:
	mov	x13, x9
	mov	x9, x16
.LBB28_22:
	tbz	w11, #0, .LBB28_27
.LBB28_23:
	cmp	x13, x9
	b.eq	.LBB28_40
	mov	w14, #24
	madd	x4, x13, x14, x19
	ldrb	w14, [x4]
	ldp	x17, x16, [x4, #8]
	ldr	w15, [x4, #4]
	ldrb	w0, [x4, #1]
	ldrb	w18, [x4, #3]
	cmp	w14, #7
	b.eq	.LBB28_32
	ldrb	w4, [x4, #2]
	subs	w5, w14, #6
	b.ne	.LBB28_34
	orr	x16, x16, x17
	orr	w17, w18, w4
	b	.LBB28_33
.LBB28_27:
	cmp	x13, x9
	b.hs	.LBB28_40
	mov	w14, #24
	madd	x14, x13, x14, x12
.LBB28_29:
	ldp	x15, x16, [x14, #-8]
	and	x17, x15, #0xffffffffffff00ff
	cmp	x17, #5
	ldr	x17, [x14, #8]
	ccmp	x16, #0, #0, eq
	ccmp	x15, #1, #4, ne
	cset	w15, eq
	cbnz	x17, .LBB28_23
	cbz	w15, .LBB28_23
	add	x13, x13, #1
	add	x14, x14, #24
	cmp	x9, x13
	b.ne	.LBB28_29
	b	.LBB28_40
.LBB28_32:
	orr	x16, x16, x17
	orr	w17, w18, w0
.LBB28_33:
	cmp	x16, #0
	ccmp	w17, #0, #0, eq
	cset	w17, eq
	add	x13, x13, #1
	cmp	w14, #7
	add	x16, x13, x15
	cset	w18, ne
	cmp	x16, x9
	b.ls	.LBB28_35
	b	.LBB28_43
.LBB28_34:
	sub	w6, w14, #5
	tst	w6, #0xfe
	sub	w6, w14, #1
	ccmp	w0, #0, #4, ne
	cset	w0, eq
	cmp	w6, #13
	ccmp	w18, #0, #0, lo
	csel	w18, wzr, w0, ne
	cmp	w4, #0
	csel	w18, wzr, w18, ne
	tst	w5, #0xfc
	ccmp	w15, #0, #4, ne
	csel	w18, wzr, w18, ne
	cmp	x17, #0
	ccmp	w6, #2, #0, ne
	csel	w17, wzr, w18, hs
	cmp	x16, #0
	ccmp	w14, #2, #4, ne
	csel	w17, wzr, w17, ne
	add	x13, x13, #1
	cmp	w14, #7
	add	x16, x13, x15
	cset	w18, ne
	cmp	x16, x9
	b.hi	.LBB28_43
.LBB28_35:
	eor	w18, w11, w18
	tbz	w18, #0, .LBB28_43
	cbz	w17, .LBB28_43
	cbz	w15, .LBB28_22
	cmp	x10, #128
	b.eq	.LBB28_43
	add	x15, sp, #128
	mov	x17, sp
	cmp	w14, #6
	strh	w9, [x15, x10, lsl #1]
	and	w9, w11, #0x1
	cset	w11, eq
	strb	w9, [x17, x10]
	add	x10, x10, #1
	mov	x9, x13
	b	.LBB28_21
.LBB28_40:
	cbz	x10, .LBB28_8
	sub	x10, x10, #1
	add	x11, sp, #128
	mov	x13, sp
	ldrh	w16, [x11, x10, lsl #1]
	ldrb	w11, [x13, x10]
	b	.LBB28_21
.LBB28_42:
	mov	x20, x9
	cbz	x9, .LBB28_56
.LBB28_43:
	sub	x9, x20, #1
	mov	w10, #24
	madd	x11, x9, x10, x19
	ldr	w12, [x11, #4]
	add	x10, x20, x12
	cmp	x8, x10
	b.lo	.LBB28_63
	cbz	w12, .LBB28_42
	ldrb	w11, [x11]
.LBB28_46:
	mov	w12, #24
	madd	x18, x20, x12, x19
	ldrb	w12, [x18]
	ldp	x15, x14, [x18, #8]
	ldr	w13, [x18, #4]
	ldrb	w17, [x18, #1]
	ldrb	w16, [x18, #3]
	cmp	w12, #7
	b.eq	.LBB28_49
	ldrb	w18, [x18, #2]
	subs	w0, w12, #6
	b.ne	.LBB28_51
	orr	x14, x14, x15
	orr	w15, w16, w18
	b	.LBB28_50
.LBB28_49:
	orr	x14, x14, x15
	orr	w15, w16, w17
.LBB28_50:
	cmp	x14, #0
	ccmp	w15, #0, #0, eq
	cset	w14, eq
	b	.LBB28_52
.LBB28_51:
	sub	w1, w12, #5
	tst	w1, #0xfe
	sub	w1, w12, #1
	ccmp	w17, #0, #4, ne
	cset	w17, eq
	cmp	w1, #13
	ccmp	w16, #0, #0, lo
	csel	w16, wzr, w17, ne
	cmp	w18, #0
	csel	w16, wzr, w16, ne
	tst	w0, #0xfc
	ccmp	w13, #0, #4, ne
	csel	w16, wzr, w16, ne
	cmp	x15, #0
	ccmp	w1, #2, #0, ne
	csel	w15, wzr, w16, hs
	cmp	x14, #0
	ccmp	w12, #2, #4, ne
	csel	w14, wzr, w15, ne
.LBB28_52:
	cmp	w11, #6
	add	x13, x20, x13
	cset	w15, eq
	cmp	w12, #7
	add	x20, x13, #1
	cset	w12, ne
	cmp	x20, x10
	eor	w12, w15, w12
	ccmp	w12, #0, #4, ls
	ccmp	w14, #0, #4, ne
	b.eq	.LBB28_63
	cmp	x20, x10
	b.lo	.LBB28_46
	b	.LBB28_42
.LBB28_54:
	mov	w11, #1
	mov	w10, #2
	mov	x8, x9
	b	.LBB28_15
.LBB28_55:
	mov	x9, xzr
	mov	x8, xzr
	mov	w11, #1
	mov	w10, #3
	b	.LBB28_15
.LBB28_56:
	mov	x11, xzr
.LBB28_57:
	mov	w9, #24
	madd	x15, x11, x9, x19
	ldrb	w10, [x15]
	ldp	x13, x12, [x15, #8]
	ldr	w9, [x15, #4]
	ldrb	w14, [x15, #2]
	ldrb	w17, [x15, #3]
	subs	w16, w10, #6
	b.eq	.LBB28_60
	cmp	w10, #7
	b.eq	.LBB28_63
	sub	w18, w10, #1
	ldrb	w15, [x15, #1]
	cmp	w18, #13
	ccmp	w17, #0, #0, lo
	sub	w17, w10, #5
	cset	w0, eq
	tst	w17, #0xfe
	ccmp	w15, #0, #4, ne
	csel	w15, wzr, w0, ne
	cmp	w14, #0
	csel	w14, wzr, w15, ne
	tst	w16, #0xfc
	ccmp	w9, #0, #4, ne
	csel	w14, wzr, w14, ne
	cmp	x13, #0
	ccmp	w18, #2, #0, ne
	csel	w13, wzr, w14, hs
	cmp	x12, #0
	ccmp	w10, #2, #4, ne
	csel	w10, wzr, w13, ne
	b	.LBB28_61
.LBB28_60:
	orr	x10, x12, x13
	orr	w12, w17, w14
	cmp	x10, #0
	ccmp	w12, #0, #0, eq
	cset	w10, eq
.LBB28_61:
	add	x9, x11, x9
	add	x11, x9, #1
	cmp	x11, x8
	ccmp	w10, #0, #4, ls
	b.eq	.LBB28_63
	mov	x9, xzr
	cmp	x11, x8
	mov	w10, #12
	b.lo	.LBB28_57
	b	.LBB28_64
.LBB28_63:
	mov	x9, xzr
	mov	w10, #10
.LBB28_64:
	and	x10, x10, #0xff
	mov	x8, xzr
	mov	x11, x9
	add	x0, x10, #1
	mov	x10, xzr
	mov	x9, xzr
.LBB28_65:
	stp	x11, x9, [x3]
	str	x8, [x3, #16]
	str	x10, [x2]
	add	sp, sp, #2240
	ldp	x20, x19, [sp, #48]
	ldr	x28, [sp, #24]
	ldp	x22, x21, [sp, #32]
	ldp	x29, x30, [sp, #8]
	ldr	d8, [sp], #64
	ret
.Lfunc_end28:
	.size	uplink_run, .Lfunc_end28-uplink_run

	.section	.text.uplink_value,"ax",@progbits
	.globl	uplink_value
	.p2align	2
	.type	uplink_value,@function
uplink_value:
	str	d10, [sp, #-96]!
	stp	d9, d8, [sp, #16]
	stp	x29, x30, [sp, #32]
	add	x29, sp, #32
	stp	x28, x23, [sp, #48]
	stp	x22, x21, [sp, #64]
	stp	x20, x19, [sp, #80]
	sub	sp, sp, #1712
	mov	w8, #4096
	cmp	x0, #0
	mov	x20, x3
	mov	x19, x2
	csel	x23, x8, xzr, eq
	cmp	x1, #2079
	str	xzr, [sp]
	b.hi	.LBB29_5
	and	x8, x1, #0x1f
	cbnz	x8, .LBB29_5
	lsr	x21, x1, #5
	cbz	x21, .LBB29_5
	fsub	d9, d0, d0
	movi	d8, #0000000000000000
	mov	x22, x0
	movi	d1, #0000000000000000
	fcmp	d9, d8
	b.ne	.LBB29_56
	mov	x10, #-4850376798678024192
	mov	x11, #4372995238176751616
	fmul	d5, d0, d1
	fmov	d2, x10
	mov	x10, #-4382002437431492608
	fmov	d17, d0
	fmov	d4, x10
	mov	x10, #4841369599423283200
	fmov	d3, x11
	fmov	d7, x10
	mov	x10, #4634204016564240384
	fmov	d6, #1.00000000
	fmov	d16, x10
	fmov	d19, #-1.00000000
	add	x11, x23, x22
	mov	x9, xzr
	mov	w8, wzr
	add	x10, x22, x23
	add	x11, x11, #56
	mov	w13, #1
	mov	w12, #1
	mov	w14, #1
	b	.LBB29_12
.LBB29_5:
	mov	w9, #10
.LBB29_6:
	movi	d0, #0000000000000000
	add	x0, x9, #1
.LBB29_7:
	stp	xzr, xzr, [x20]
	str	d0, [x19]
	add	sp, sp, #1712
	ldp	x20, x19, [sp, #80]
	ldp	x22, x21, [sp, #64]
	ldp	x28, x23, [sp, #48]
	ldp	x29, x30, [sp, #32]
	ldp	d9, d8, [sp, #16]
	ldr	d10, [sp], #96
	ret
.LBB29_8:
	mov	w14, wzr
.LBB29_9:
	fadd	d19, d5, d19
.LBB29_10:
	tst	w8, #0x1
	mov	w8, #1
	fadd	d1, d1, d19
	fcsel	d1, d1, d19, ne
.LBB29_11:
	fmov	d19, d18
	add	x9, x9, #1
	cmp	x9, x21
	b.eq	.LBB29_84
.LBB29_12:
	add	x16, x10, x9, lsl #5
	ldp	x18, x17, [x16]
	ldp	x15, x16, [x16, #16]
	and	x0, x17, #0x7ff0000000000000
	cmp	x18, #1
	mov	x18, #9218868437227405312
	and	x1, x15, #0x7ff0000000000000
	ccmp	x0, x18, #4, eq
	and	x0, x16, #0x7ff0000000000000
	ccmp	x1, x18, #4, ne
	ccmp	x0, x18, #4, ne
	b.eq	.LBB29_56
	fmov	d18, x17
	fmov	d21, d18
	fcmp	d19, d21
	cset	w17, pl
	//APP
	//NO_APP
	cbnz	w17, .LBB29_56
	fmov	d19, x15
	fmov	d22, x16
	fmov	d20, d19
	fcmp	d22, d8
	cset	w15, eq
	fcmp	d20, d8
	b.ne	.LBB29_16
	fcmp	d22, d8
	b.eq	.LBB29_11
.LBB29_16:
	fcmp	d2, d22
	cset	w16, mi
	fcmp	d22, d3
	//APP
	//NO_APP
	cset	w17, mi
	cmp	w16, #0
	//APP
	//NO_APP
	ccmp	w17, #0, #4, ne
	cset	w16, ne
	fcmp	d21, d8
	and	w12, w12, w16
	b.eq	.LBB29_9
	fcmp	d21, d4
	cset	w16, ls
	fcmp	d7, d21
	//APP
	//NO_APP
	cset	w17, ls
	//APP
	//NO_APP
	orr	w16, w16, w17
	cbz	w16, .LBB29_19
	fsub	d22, d18, d18
	fcmp	d22, d8
	b	.LBB29_23
.LBB29_19:
	fcmp	d21, d8
	cset	w16, mi
	//APP
	//NO_APP
	cbz	w16, .LBB29_21
	mov	x16, #-4382002437431492608
	fmov	d22, x16
	mov	x16, #4841369599423283200
	b	.LBB29_22
.LBB29_21:
	mov	x16, #4841369599423283200
	fmov	d22, x16
	mov	x16, #-4382002437431492608
.LBB29_22:
	fadd	d22, d18, d22
	fmov	d23, x16
	fadd	d22, d22, d23
	fcmp	d22, d21
.LBB29_23:
	cset	w16, eq
	fcmp	d8, d21
	cset	w17, mi
	fcmp	d21, d16
	//APP
	//NO_APP
	cset	w18, ls
	//APP
	//NO_APP
	cbz	w18, .LBB29_31
	cbz	w17, .LBB29_31
	tbz	w16, #0, .LBB29_31
	fcvtzu	x16, d18
	//APP
	//NO_APP
	cbz	x16, .LBB29_9
.LBB29_27:
	subs	x17, x13, x16
	b.ls	.LBB29_52
	fmov	d17, d0
	subs	x13, x16, #1
	b.eq	.LBB29_54
	fmov	d17, d0
.LBB29_30:
	fmul	d17, d0, d17
	subs	x13, x13, #1
	b.ne	.LBB29_30
	b	.LBB29_54
.LBB29_31:
	add	x15, x9, #1
	cmp	x15, x21
	b.eq	.LBB29_90
	add	x14, x11, x9, lsl #5
	mov	x9, x15
	b	.LBB29_34
.LBB29_33:
	add	x9, x9, #1
	add	x14, x14, #32
	cmp	x21, x9
	b.eq	.LBB29_90
.LBB29_34:
	ldur	x15, [x14, #-24]
	cmp	x15, #1
	b.ne	.LBB29_56
	ldur	x17, [x14, #-16]
	mov	x16, #9218868437227405312
	and	x15, x17, #0x7ff0000000000000
	cmp	x15, x16
	b.eq	.LBB29_56
	ldur	x15, [x14, #-8]
	and	x18, x15, #0x7ff0000000000000
	cmp	x18, x16
	b.eq	.LBB29_56
	ldr	x16, [x14]
	mov	x0, #9218868437227405312
	and	x18, x16, #0x7ff0000000000000
	cmp	x18, x0
	b.eq	.LBB29_56
	fmov	d22, x17
	fmov	d21, d22
	fcmp	d18, d21
	cset	w17, pl
	//APP
	//NO_APP
	cbnz	w17, .LBB29_56
	fmov	d19, x15
	fmov	d23, x16
	fmov	d18, d22
	fmov	d20, d19
	fcmp	d23, d8
	cset	w15, eq
	fcmp	d20, d8
	b.ne	.LBB29_41
	fcmp	d23, d8
	b.eq	.LBB29_55
.LBB29_41:
	fcmp	d2, d23
	cset	w16, mi
	fcmp	d23, d3
	//APP
	//NO_APP
	cset	w17, mi
	cmp	w16, #0
	//APP
	//NO_APP
	ccmp	w17, #0, #4, ne
	cset	w16, ne
	fcmp	d21, d8
	and	w12, w12, w16
	b.eq	.LBB29_8
	fcmp	d21, d4
	cset	w16, ls
	fcmp	d7, d21
	//APP
	//NO_APP
	cset	w17, ls
	//APP
	//NO_APP
	orr	w16, w16, w17
	cbz	w16, .LBB29_44
	fsub	d22, d22, d22
	fcmp	d22, d8
	b	.LBB29_48
.LBB29_44:
	fcmp	d21, d8
	cset	w16, mi
	//APP
	//NO_APP
	cbz	w16, .LBB29_46
	mov	x16, #-4382002437431492608
	fmov	d23, x16
	mov	x16, #4841369599423283200
	b	.LBB29_47
.LBB29_46:
	mov	x16, #4841369599423283200
	fmov	d23, x16
	mov	x16, #-4382002437431492608
.LBB29_47:
	fadd	d22, d22, d23
	fmov	d23, x16
	fadd	d22, d22, d23
	fcmp	d22, d21
.LBB29_48:
	cset	w16, eq
	fcmp	d8, d21
	cset	w17, mi
	fcmp	d21, d16
	//APP
	//NO_APP
	cset	w18, ls
	//APP
	//NO_APP
	cbz	w18, .LBB29_33
	cbz	w17, .LBB29_33
	cbz	w16, .LBB29_33
	mov	w14, wzr
	fcvtzu	x16, d18
	//APP
	//NO_APP
	cbnz	x16, .LBB29_27
	b	.LBB29_9
.LBB29_52:
	cmp	x16, x13
	b.eq	.LBB29_54
.LBB29_53:
	fmul	d17, d0, d17
	adds	x17, x17, #1
	b.lo	.LBB29_53
.LBB29_54:
	fcmp	d20, d6
	fmul	d19, d19, d17
	cset	w13, eq
	tst	w13, w15
	mov	x13, x16
	fcsel	d19, d17, d19, ne
	b	.LBB29_10
.LBB29_55:
	mov	w14, wzr
	b	.LBB29_11
.LBB29_56:
	fmov	d10, d0
	movi	v0.2d, #0000000000000000
	mov	x0, sp
	mov	w1, wzr
	mov	w2, #1536
	stp	q0, q0, [x29, #-208]
	stp	q0, q0, [x29, #-176]
	stp	q0, q0, [x29, #-144]
	stp	q0, q0, [x29, #-112]
	bl	memset
	mov	x9, sp
	add	x11, x23, x22
	mov	x8, xzr
	add	x10, x9, #16
	add	x11, x11, #24
.LBB29_57:
	ldur	w13, [x11, #-24]
	mov	w9, #10
	cmp	w13, #255
	b.hi	.LBB29_6
	ldur	w14, [x11, #-20]
	cmp	w14, #63
	b.hi	.LBB29_6
	sub	x12, x29, #144
	sub	x9, x29, #208
	ldur	q0, [x11, #-16]
	strb	w13, [x12, x8]
	ldr	x13, [x11], #32
	strb	w14, [x9, x8]
	add	x8, x8, #1
	cmp	x21, x8
	stur	q0, [x10, #-16]
	str	x13, [x10], #24
	b.ne	.LBB29_57
	mov	w8, #64
	sub	x0, x29, #80
	mov	x1, xzr
	stp	x9, x8, [x29, #-64]
	mov	x9, sp
	mov	x2, x21
	mov	w3, #4
	stp	x12, x8, [x29, #-80]
	stp	x9, x8, [x29, #-48]
	bl	"sums::good::good_sum"
	tbz	w0, #0, .LBB29_83
	fcmp	d9, d8
	b.ne	.LBB29_89
	movi	d0, #0000000000000000
	mov	x10, #-4850376798678024192
	mov	x11, #4841369599423283200
	fmov	d2, x10
	mov	x10, #4372995238176751616
	mov	x12, #4634204016564240384
	fmov	d3, x10
	mov	x10, #-4382002437431492608
	fmov	d5, d10
	fmov	d17, d10
	fmov	d4, #1.00000000
	fmov	d6, x10
	fmul	d1, d10, d0
	fmov	d7, x11
	fmov	d16, x12
	mov	x9, xzr
	mov	w8, wzr
	mov	w12, #1
	mov	w10, #1
	mov	w11, #1
	b	.LBB29_65
.LBB29_63:
	mov	w11, wzr
.LBB29_64:
	sub	x13, x29, #208
	ldrb	w13, [x13, x9]
	add	x9, x9, x13
	add	x9, x9, #1
	cmp	x9, x21
	b.hs	.LBB29_87
.LBB29_65:
	mov	w13, #24
	mov	x14, sp
	madd	x13, x9, x13, x14
	ldp	d18, d20, [x13, #8]
	fmov	d19, d18
	fcmp	d19, d8
	fccmp	d20, d8, #0, eq
	b.eq	.LBB29_64
	fcmp	d2, d20
	ldr	d21, [x13]
	fmov	d22, d21
	cset	w14, mi
	fcmp	d20, d3
	//APP
	//NO_APP
	cset	w13, mi
	cmp	w14, #0
	//APP
	//NO_APP
	ccmp	w13, #0, #4, ne
	cset	w14, ne
	fcmp	d22, d8
	sub	x13, x29, #144
	ldrb	w13, [x13, x9]
	and	w10, w10, w14
	b.ne	.LBB29_69
	cmp	w13, #1
	cset	w13, eq
	and	w11, w11, w13
.LBB29_68:
	fadd	d18, d1, d18
	tst	w8, #0x1
	mov	w8, #1
	fadd	d0, d0, d18
	fcsel	d0, d0, d18, ne
	b	.LBB29_64
.LBB29_69:
	fcmp	d22, d6
	cset	w14, ls
	fcmp	d7, d22
	//APP
	//NO_APP
	cset	w15, ls
	//APP
	//NO_APP
	orr	w14, w14, w15
	cbz	w14, .LBB29_71
	fsub	d23, d21, d21
	fcmp	d23, d8
	cset	w15, eq
	b	.LBB29_72
.LBB29_71:
	mov	x14, #4841369599423283200
	mov	x15, #-4382002437431492608
	fcmp	d22, d8
	fmov	d23, x14
	mov	x14, #-4382002437431492608
	fmov	d25, x15
	fmov	d24, x14
	mov	x14, #4841369599423283200
	fadd	d23, d21, d23
	fadd	d24, d21, d24
	fadd	d23, d23, d25
	fmov	d25, x14
	cset	w14, mi
	//APP
	//NO_APP
	fadd	d24, d24, d25
	fcmp	d23, d22
	cset	w15, eq
	fcmp	d24, d22
	cset	w16, eq
	cmp	w14, #0
	csel	w15, w15, w16, eq
.LBB29_72:
	fcmp	d8, d22
	fcvtzu	x14, d21
	//APP
	//NO_APP
	cset	w16, mi
	fcmp	d22, d16
	//APP
	//NO_APP
	cset	w17, ls
	//APP
	//NO_APP
	cbz	w17, .LBB29_63
	cbz	w16, .LBB29_63
	cbz	w15, .LBB29_63
	cmp	w13, #1
	cset	w13, eq
	and	w11, w11, w13
	cbz	x14, .LBB29_68
	subs	x13, x12, x14
	b.ls	.LBB29_80
	fmov	d17, d5
	subs	x12, x14, #1
	b.eq	.LBB29_82
	fmov	d17, d5
.LBB29_79:
	fmul	d17, d5, d17
	subs	x12, x12, #1
	b.ne	.LBB29_79
	b	.LBB29_82
.LBB29_80:
	cmp	x14, x12
	b.eq	.LBB29_82
.LBB29_81:
	fmul	d17, d5, d17
	adds	x13, x13, #1
	b.lo	.LBB29_81
.LBB29_82:
	fcmp	d20, d8
	fmul	d18, d18, d17
	mov	x12, x14
	fccmp	d19, d4, #0, eq
	fcsel	d18, d17, d18, eq
	tst	w8, #0x1
	mov	w8, #1
	fadd	d0, d0, d18
	fcsel	d0, d0, d18, ne
	b	.LBB29_64
.LBB29_83:
	sub	x0, x29, #80
	mov	x1, xzr
	mov	x2, x21
	mov	w3, #64
	bl	"sums::good::good_sum"
	mov	w8, #10
	cmp	w0, #0
	mov	w9, #12
	csel	x9, x9, x8, ne
	b	.LBB29_6
.LBB29_84:
	ands	w9, w14, #0x1
	and	w10, w9, w12
	mov	w9, #13
	cinc	x9, x9, ne
	cmp	w10, #1
	b.ne	.LBB29_6
	tst	w8, #0x1
	fcsel	d0, d1, d5, ne
	fsub	d1, d0, d0
	fcmp	d1, d8
	b.ne	.LBB29_89
.LBB29_86:
	mov	x0, xzr
	b	.LBB29_7
.LBB29_87:
	ands	w9, w11, #0x1
	and	w10, w9, w10
	mov	w9, #13
	cinc	x9, x9, ne
	cmp	w10, #1
	b.ne	.LBB29_6
	tst	w8, #0x1
	fcsel	d0, d0, d1, ne
	fsub	d1, d0, d0
	fcmp	d1, d8
	b.eq	.LBB29_86
.LBB29_89:
	mov	w9, #14
	b	.LBB29_6
.LBB29_90:
	mov	w9, #13
	b	.LBB29_6
.Lfunc_end29:
	.size	uplink_value, .Lfunc_end29-uplink_value

	.section	.rodata.cst8,"aM",@progbits,8
	.p2align	3, 0x0
.LCPI30_0:
	.byte	6
	.byte	3
	.byte	0
	.byte	0
	.zero	1
	.zero	1
	.zero	1
	.zero	1
.LCPI30_1:
	.byte	7
	.byte	0
	.byte	1
	.byte	0
	.zero	1
	.zero	1
	.zero	1
	.zero	1
	.section	.text.uplink_write,"ax",@progbits
	.globl	uplink_write
	.p2align	2
	.type	uplink_write,@function
uplink_write:
	stp	d15, d14, [sp, #-160]!
	sub	x9, sp, #5, lsl #12
	stp	d13, d12, [sp, #16]
	sub	x9, x9, #1024
	stp	d11, d10, [sp, #32]
	stp	d9, d8, [sp, #48]
	stp	x29, x30, [sp, #64]
	add	x29, sp, #64
	stp	x28, x27, [sp, #80]
	stp	x26, x25, [sp, #96]
	stp	x24, x23, [sp, #112]
	stp	x22, x21, [sp, #128]
	stp	x20, x19, [sp, #144]
.LBB30_1:
	sub	sp, sp, #3072
	cmp	sp, x9
	str	xzr, [sp]
	b.ne	.LBB30_1
	sub	sp, sp, #608
	movi	v0.2d, #0000000000000000
	cmp	x0, #0
	mov	w8, #4096
	mov	w22, w2
	mov	x24, x1
	mov	x25, x0
	csel	x20, x8, xzr, eq
	cmp	x3, #0
	add	x0, sp, #96
	mov	w1, wzr
	mov	w2, #4608
	mov	x19, x5
	mov	x26, x4
	mov	x21, x3
	stp	xzr, xzr, [sp, #80]
	str	q0, [sp, #4896]
	csel	x27, x8, xzr, eq
	str	q0, [sp, #4912]
	str	q0, [sp, #4928]
	str	q0, [sp, #4944]
	str	q0, [sp, #4960]
	str	q0, [sp, #4976]
	str	q0, [sp, #4992]
	str	q0, [sp, #5008]
	str	q0, [sp, #5024]
	str	q0, [sp, #5040]
	str	q0, [sp, #5056]
	str	q0, [sp, #5072]
	str	q0, [sp, #4704]
	str	q0, [sp, #4720]
	str	q0, [sp, #4736]
	str	q0, [sp, #4752]
	str	q0, [sp, #4768]
	str	q0, [sp, #4784]
	str	q0, [sp, #4800]
	str	q0, [sp, #4816]
	str	q0, [sp, #4832]
	str	q0, [sp, #4848]
	str	q0, [sp, #4864]
	str	q0, [sp, #4880]
	bl	memset
	cmp	x24, #2079
	mov	w0, #11
	b.hi	.LBB30_35
	and	x8, x24, #0x1f
	cbnz	x8, .LBB30_35
	lsr	x23, x24, #5
	cbz	x23, .LBB30_35
	add	x9, sp, #96
	add	x10, x20, x25
	mov	x8, xzr
	sub	x25, x29, #136
	add	x9, x9, #16
	add	x10, x10, #24
.LBB30_6:
	ldur	w13, [x10, #-24]
	mov	w0, #11
	cmp	w13, #255
	b.hi	.LBB30_35
	ldur	w14, [x10, #-20]
	cmp	w14, #63
	b.hi	.LBB30_35
	add	x12, sp, #1, lsl #12
	add	x11, sp, #1, lsl #12
	ldur	q0, [x10, #-16]
	add	x12, x12, #800
	add	x11, x11, #608
	strb	w13, [x12, x8]
	ldr	x13, [x10], #32
	strb	w14, [x11, x8]
	add	x8, x8, #1
	cmp	x23, x8
	stur	q0, [x9, #-16]
	str	x13, [x9], #24
	b.ne	.LBB30_6
	add	x0, sp, #1, lsl #12
	mov	w8, #192
	add	x20, sp, #96
	add	x0, x0, #1000
	mov	x1, xzr
	mov	x2, x23
	mov	w3, #4
	str	x12, [sp, #5096]
	str	x8, [sp, #5104]
	str	x11, [sp, #5112]
	str	x8, [sp, #5120]
	str	x20, [sp, #5128]
	str	x8, [sp, #5136]
	bl	"sums::good::good_sum"
	tbz	w0, #0, .LBB30_34
	add	x8, sp, #1, lsl #12
	mov	w9, #192
	cmp	x24, #543
	add	x8, x8, #800
	stp	x27, x21, [sp, #24]
	stp	x26, x8, [sp, #40]
	add	x8, sp, #1, lsl #12
	add	x8, x8, #608
	stp	x9, x20, [sp, #72]
	stp	x9, x8, [sp, #56]
	str	x9, [sp, #88]
	b.hi	.LBB30_37
	add	x0, sp, #1, lsl #12
	mov	w1, wzr
	mov	w2, #4272
	add	x0, x0, #1000
	bl	memset
	movi	d8, #0000000000000000
	mov	x8, #-4850376798678024192
	mov	x9, #4372995238176751616
	fmov	d9, #1.00000000
	fmov	d0, x8
	fmov	d11, x9
	sub	x11, x29, #112
	mov	w27, wzr
	mov	x10, xzr
	orr	x28, x11, #0x2
	mov	w8, #32
	mov	w9, #32
	str	d0, [sp, #16]
	b	.LBB30_14
.LBB30_12:
.LBB30_13:
	fcmp	d13, d8
	cset	w10, ne
	fcmp	d14, d8
	csinc	w11, w10, wzr, eq
	fcmp	d12, d9
	add	x10, x24, x26
	ccmp	w21, #1, #0, eq
	csel	w11, wzr, w11, ne
	cmp	x10, x23
	orr	w27, w27, w11
	b.hs	.LBB30_62
.LBB30_14:
	mov	w11, #24
	add	x12, sp, #96
	add	x24, x10, #1
	madd	x11, x10, x11, x12
	add	x12, sp, #1, lsl #12
	str	wzr, [x28]
	add	x12, x12, #800
	strh	wzr, [x28, #4]
	ldrb	w21, [x12, x10]
	add	x12, sp, #1, lsl #12
	stp	xzr, xzr, [x29, #-136]
	add	x12, x12, #608
	stur	xzr, [x29, #-120]
	ldrb	w26, [x12, x10]
	strb	w21, [x25, #24]
	ldp	d12, d15, [x11]
	ldr	d10, [x11, #16]
	strb	w26, [x25, #25]
	fmov	d14, d10
	stur	d10, [x29, #-88]
	fmov	d13, d15
	stp	d12, d15, [x29, #-104]
	fcmp	d13, d8
	fccmp	d14, d8, #0, eq
	b.eq	.LBB30_12
	cmp	x8, x9
	cset	w10, ne
	orr	w20, w27, w10
	tbz	w20, #0, .LBB30_18
	cmp	x8, x9
	b.eq	.LBB30_19
	mov	w10, #24
	add	x11, sp, #1, lsl #12
	adrp	x13, .LCPI30_1
	add	x11, x11, #1000
	madd	x10, x9, x10, x11
	sub	x7, x9, #2
	adrp	x11, .LCPI30_0
	ldr	d0, [x11, :lo12:.LCPI30_0]
	sub	w11, w8, w9
	add	w12, w11, #1
	stur	s0, [x10, #-48]
	ldr	d0, [x13, :lo12:.LCPI30_1]
	stur	w12, [x10, #-44]
	stp	xzr, xzr, [x10, #-40]
	stur	s0, [x10, #-24]
	stur	w11, [x10, #-20]
	stp	xzr, xzr, [x10, #-16]
	b	.LBB30_20
.LBB30_18:
	mov	x7, x8
	b	.LBB30_20
.LBB30_19:
	mov	w9, #24
	add	x10, sp, #1, lsl #12
	mov	x7, x8
	add	x10, x10, #1000
	madd	x9, x8, x9, x10
	mov	w10, #773
	strh	w10, [x9]
	add	x10, x8, #1
	stur	xzr, [x9, #10]
	mov	x8, x10
	stur	xzr, [x9, #2]
	str	xzr, [x9, #16]
.LBB30_20:
	tst	w22, #0xff
	add	x6, sp, #1, lsl #12
	sub	x0, x29, #136
	cset	w4, ne
	add	x1, sp, #48
	sub	x2, x29, #112
	add	x6, x6, #1000
	mov	x3, x24
	mov	w5, #3
	str	x8, [sp]
	bl	"writing::write_term"
	ldrb	w8, [x25]
	cbnz	w8, .LBB30_60
	fcmp	d12, d8
	ldp	x9, x8, [x29, #-128]
	ccmp	w21, #1, #0, eq
	cset	w10, ne
	fcmp	d14, d8
	fccmp	d13, d9, #0, eq
	b.eq	.LBB30_32
	cbz	w10, .LBB30_32
	tst	w22, #0xff
	b.eq	.LBB30_27
	fsub	d0, d15, d15
	mov	w10, #14
	fcmp	d0, d8
	b.ne	.LBB30_61
	fsub	d0, d10, d10
	fcmp	d0, d8
	b.ne	.LBB30_61
	mov	w10, #2
	b	.LBB30_31
.LBB30_27:
	ldr	d0, [sp, #16]
	mov	w10, #14
	fcmp	d0, d14
	fsub	d0, d15, d15
	cset	w12, mi
	fcmp	d14, d11
	//APP
	//NO_APP
	cset	w11, mi
	fcmp	d0, d8
	//APP
	//NO_APP
	b.ne	.LBB30_61
	cbz	w12, .LBB30_61
	cbz	w11, .LBB30_61
	mov	w10, #1
.LBB30_31:
	mov	w11, #24
	add	x12, sp, #1, lsl #12
	tst	w22, #0xff
	add	x12, x12, #1000
	madd	x11, x8, x11, x12
	add	x8, x8, #2
	mov	w12, #2565
	strb	w10, [x11]
	fmov	x10, d10
	stur	wzr, [x11, #1]
	str	wzr, [x11, #4]
	csel	x10, x10, xzr, ne
	str	d15, [x11, #8]
	str	x10, [x11, #16]
	strh	w12, [x11, #24]
	stur	xzr, [x11, #34]
	stur	xzr, [x11, #26]
	str	xzr, [x11, #40]
.LBB30_32:
	tbz	w20, #0, .LBB30_13
	mov	w10, #24
	add	x11, sp, #1, lsl #12
	add	x11, x11, #1000
	madd	x10, x8, x10, x11
	add	x8, x8, #1
	mov	w11, #2053
	strh	w11, [x10]
	stur	xzr, [x10, #10]
	stur	xzr, [x10, #2]
	str	xzr, [x10, #16]
	b	.LBB30_13
.LBB30_34:
	add	x0, sp, #1, lsl #12
	mov	x1, xzr
	mov	x2, x23
	add	x0, x0, #1000
	mov	w3, #64
	bl	"sums::good::good_sum"
	mov	w8, #11
	cmp	w0, #0
	mov	w9, #13
	csel	x0, x9, x8, ne
.LBB30_35:
	mov	x8, xzr
.LBB30_36:
	stp	xzr, x8, [x19]
	add	sp, sp, #5, lsl #12
	add	sp, sp, #1632
	ldp	x20, x19, [sp, #144]
	ldp	x22, x21, [sp, #128]
	ldp	x24, x23, [sp, #112]
	ldp	x26, x25, [sp, #96]
	ldp	x28, x27, [sp, #80]
	ldp	x29, x30, [sp, #64]
	ldp	d9, d8, [sp, #48]
	ldp	d11, d10, [sp, #32]
	ldp	d13, d12, [sp, #16]
	ldp	d15, d14, [sp], #160
	ret
.LBB30_37:
	movi	d8, #0000000000000000
	mov	x8, #-4850376798678024192
	mov	x9, #4372995238176751616
	fmov	d9, #1.00000000
	fmov	d0, x8
	fmov	d11, x9
	add	x0, sp, #1, lsl #12
	sub	x10, x29, #112
	mov	w1, wzr
	add	x0, x0, #1000
	mov	w2, #16944
	orr	x27, x10, #0x2
	str	d0, [sp, #16]
	bl	memset
	mov	w28, wzr
	mov	x10, xzr
	mov	w8, #128
	mov	w9, #128
	b	.LBB30_40
.LBB30_38:
.LBB30_39:
	fcmp	d13, d8
	cset	w10, ne
	fcmp	d14, d8
	csinc	w11, w10, wzr, eq
	fcmp	d12, d9
	add	x10, x24, x26
	ccmp	w21, #1, #0, eq
	csel	w11, wzr, w11, ne
	cmp	x10, x23
	orr	w28, w28, w11
	b.hs	.LBB30_65
.LBB30_40:
	mov	w11, #24
	add	x12, sp, #96
	add	x24, x10, #1
	madd	x11, x10, x11, x12
	add	x12, sp, #1, lsl #12
	str	wzr, [x27]
	add	x12, x12, #800
	strh	wzr, [x27, #4]
	ldrb	w21, [x12, x10]
	add	x12, sp, #1, lsl #12
	stp	xzr, xzr, [x29, #-136]
	add	x12, x12, #608
	stur	xzr, [x29, #-120]
	ldrb	w26, [x12, x10]
	strb	w21, [x25, #24]
	ldp	d12, d15, [x11]
	ldr	d10, [x11, #16]
	strb	w26, [x25, #25]
	fmov	d14, d10
	stur	d10, [x29, #-88]
	fmov	d13, d15
	stp	d12, d15, [x29, #-104]
	fcmp	d13, d8
	fccmp	d14, d8, #0, eq
	b.eq	.LBB30_38
	cmp	x8, x9
	cset	w10, ne
	orr	w20, w28, w10
	tbz	w20, #0, .LBB30_44
	cmp	x8, x9
	b.eq	.LBB30_45
	mov	w10, #24
	add	x11, sp, #1, lsl #12
	adrp	x13, .LCPI30_1
	add	x11, x11, #1000
	madd	x10, x9, x10, x11
	sub	x7, x9, #2
	adrp	x11, .LCPI30_0
	ldr	d0, [x11, :lo12:.LCPI30_0]
	sub	w11, w8, w9
	add	w12, w11, #1
	stur	s0, [x10, #-48]
	ldr	d0, [x13, :lo12:.LCPI30_1]
	stur	w12, [x10, #-44]
	stp	xzr, xzr, [x10, #-40]
	stur	s0, [x10, #-24]
	stur	w11, [x10, #-20]
	stp	xzr, xzr, [x10, #-16]
	b	.LBB30_46
.LBB30_44:
	mov	x7, x8
	b	.LBB30_46
.LBB30_45:
	mov	w9, #24
	add	x10, sp, #1, lsl #12
	mov	x7, x8
	add	x10, x10, #1000
	madd	x9, x8, x9, x10
	mov	w10, #773
	strh	w10, [x9]
	add	x10, x8, #1
	stur	xzr, [x9, #10]
	mov	x8, x10
	stur	xzr, [x9, #2]
	str	xzr, [x9, #16]
.LBB30_46:
	tst	w22, #0xff
	add	x6, sp, #1, lsl #12
	sub	x0, x29, #136
	cset	w4, ne
	add	x1, sp, #48
	sub	x2, x29, #112
	add	x6, x6, #1000
	mov	x3, x24
	mov	w5, #3
	str	x8, [sp]
	bl	"writing::write_term"
	ldrb	w8, [x25]
	cbnz	w8, .LBB30_60
	fcmp	d12, d8
	ldp	x9, x8, [x29, #-128]
	ccmp	w21, #1, #0, eq
	cset	w10, ne
	fcmp	d14, d8
	fccmp	d13, d9, #0, eq
	b.eq	.LBB30_58
	cbz	w10, .LBB30_58
	tst	w22, #0xff
	b.eq	.LBB30_53
	fsub	d0, d15, d15
	mov	w10, #14
	fcmp	d0, d8
	b.ne	.LBB30_61
	fsub	d0, d10, d10
	fcmp	d0, d8
	b.ne	.LBB30_61
	mov	w10, #2
	b	.LBB30_57
.LBB30_53:
	ldr	d0, [sp, #16]
	mov	w10, #14
	fcmp	d0, d14
	fsub	d0, d15, d15
	cset	w12, mi
	fcmp	d14, d11
	//APP
	//NO_APP
	cset	w11, mi
	fcmp	d0, d8
	//APP
	//NO_APP
	b.ne	.LBB30_61
	cbz	w12, .LBB30_61
	cbz	w11, .LBB30_61
	mov	w10, #1
.LBB30_57:
	mov	w11, #24
	add	x12, sp, #1, lsl #12
	tst	w22, #0xff
	add	x12, x12, #1000
	madd	x11, x8, x11, x12
	add	x8, x8, #2
	mov	w12, #2565
	strb	w10, [x11]
	fmov	x10, d10
	stur	wzr, [x11, #1]
	str	wzr, [x11, #4]
	csel	x10, x10, xzr, ne
	str	d15, [x11, #8]
	str	x10, [x11, #16]
	strh	w12, [x11, #24]
	stur	xzr, [x11, #34]
	stur	xzr, [x11, #26]
	str	xzr, [x11, #40]
.LBB30_58:
	tbz	w20, #0, .LBB30_39
	mov	w10, #24
	add	x11, sp, #1, lsl #12
	add	x11, x11, #1000
	madd	x10, x8, x10, x11
	add	x8, x8, #1
	mov	w11, #2053
	strh	w11, [x10]
	stur	xzr, [x10, #10]
	stur	xzr, [x10, #2]
	str	xzr, [x10, #16]
	b	.LBB30_39
.LBB30_60:
	ldrb	w10, [x25, #1]
.LBB30_61:
	mov	x20, xzr
	b	.LBB30_74
.LBB30_62:
	ldr	x11, [sp, #40]
	cmp	x9, x8
	b.ne	.LBB30_69
	add	x10, sp, #1, lsl #12
	mov	w8, #24
	add	x10, x10, #1000
	madd	x10, x9, x8, x10
	tbz	w27, #0, .LBB30_68
	mov	w8, #261
	stur	xzr, [x10, #10]
	strh	w8, [x10]
	add	x8, x9, #1
	stur	xzr, [x10, #2]
	str	xzr, [x10, #16]
	b	.LBB30_69
.LBB30_65:
	ldp	x11, x12, [sp, #32]
	cmp	x9, x8
	ldr	x13, [sp, #24]
	b.ne	.LBB30_72
	add	x10, sp, #1, lsl #12
	mov	w8, #24
	add	x10, x10, #1000
	madd	x10, x9, x8, x10
	tbz	w28, #0, .LBB30_71
	mov	w8, #261
	stur	xzr, [x10, #10]
	strh	w8, [x10]
	add	x8, x9, #1
	stur	xzr, [x10, #2]
	str	xzr, [x10, #16]
	b	.LBB30_72
.LBB30_68:
	mov	w8, #1
	stur	xzr, [x10, #9]
	strb	w8, [x10]
	mov	w8, #2565
	strh	w8, [x10, #24]
	add	x8, x9, #2
	stur	xzr, [x10, #1]
	stur	xzr, [x10, #16]
	stur	xzr, [x10, #34]
	stur	xzr, [x10, #26]
	str	xzr, [x10, #40]
.LBB30_69:
	mov	x10, #-6148914691236517206
	sub	x20, x8, x9
	movk	x10, #43691
	umulh	x10, x11, x10
	cmp	x20, x10, lsr #4
	b.hi	.LBB30_73
	mov	w8, #24
	add	x10, sp, #1, lsl #12
	add	x10, x10, #1000
	madd	x1, x9, x8, x10
	add	x8, x20, x20, lsl #1
	lsl	x2, x8, #3
	ldp	x9, x8, [sp, #24]
	add	x0, x8, x9
	b	.LBB30_76
.LBB30_71:
	mov	w8, #1
	stur	xzr, [x10, #9]
	strb	w8, [x10]
	mov	w8, #2565
	strh	w8, [x10, #24]
	add	x8, x9, #2
	stur	xzr, [x10, #1]
	stur	xzr, [x10, #16]
	stur	xzr, [x10, #34]
	stur	xzr, [x10, #26]
	str	xzr, [x10, #40]
.LBB30_72:
	mov	x10, #-6148914691236517206
	sub	x20, x8, x9
	movk	x10, #43691
	umulh	x10, x12, x10
	cmp	x20, x10, lsr #4
	b.ls	.LBB30_75
.LBB30_73:
	mov	x20, xzr
	mov	w10, #16
.LBB30_74:
	mov	w8, #1
	b	.LBB30_77
.LBB30_75:
	mov	w8, #24
	add	x10, sp, #1, lsl #12
	add	x0, x11, x13
	add	x10, x10, #1000
	madd	x1, x9, x8, x10
	add	x8, x20, x20, lsl #1
	lsl	x2, x8, #3
.LBB30_76:
	bl	memcpy
	mov	w8, wzr
	mov	w10, wzr
.LBB30_77:
	cmp	w8, #0
	csel	w8, wzr, w10, eq
	csinc	x0, xzr, x8, eq
	csel	x8, x20, xzr, eq
	b	.LBB30_36
.Lfunc_end30:
	.size	uplink_write, .Lfunc_end30-uplink_write

	.section	.text.uplink_write_faithful,"ax",@progbits
	.globl	uplink_write_faithful
	.p2align	2
	.type	uplink_write_faithful,@function
uplink_write_faithful:
	stp	x29, x30, [sp, #-96]!
	str	x28, [sp, #16]
	mov	x29, sp
	stp	x26, x25, [sp, #32]
	stp	x24, x23, [sp, #48]
	stp	x22, x21, [sp, #64]
	stp	x20, x19, [sp, #80]
	sub	sp, sp, #3072
	str	xzr, [sp]
	sub	sp, sp, #2032
	movi	v0.2d, #0000000000000000
	cmp	x0, #0
	mov	w8, #4096
	mov	w22, w2
	mov	x23, x1
	mov	x24, x0
	csel	x26, x8, xzr, eq
	cmp	x3, #0
	add	x0, sp, #64
	mov	w1, wzr
	mov	w2, #4608
	str	xzr, [sp]
	mov	x19, x5
	mov	x20, x4
	mov	x21, x3
	stp	xzr, xzr, [sp, #48]
	csel	x25, x8, xzr, eq
	stp	xzr, xzr, [sp, #32]
	stp	q0, q0, [x29, #-240]
	stp	q0, q0, [x29, #-208]
	stp	q0, q0, [x29, #-176]
	stp	q0, q0, [x29, #-144]
	stp	q0, q0, [x29, #-112]
	stp	q0, q0, [x29, #-80]
	str	q0, [sp, #4848]
	str	q0, [sp, #4832]
	str	q0, [sp, #4816]
	str	q0, [sp, #4800]
	str	q0, [sp, #4784]
	str	q0, [sp, #4768]
	str	q0, [sp, #4752]
	str	q0, [sp, #4736]
	str	q0, [sp, #4720]
	str	q0, [sp, #4704]
	str	q0, [sp, #4688]
	str	q0, [sp, #4672]
	bl	memset
	cmp	x23, #2079
	mov	w0, #11
	b.hi	.LBB31_11
	and	x8, x23, #0x1f
	cbnz	x8, .LBB31_11
	lsr	x23, x23, #5
	cbz	x23, .LBB31_11
	add	x9, sp, #64
	add	x10, x26, x24
	mov	x8, xzr
	add	x9, x9, #16
	add	x10, x10, #24
.LBB31_4:
	ldur	w13, [x10, #-24]
	mov	w0, #11
	cmp	w13, #255
	b.hi	.LBB31_11
	ldur	w14, [x10, #-20]
	cmp	w14, #63
	b.hi	.LBB31_11
	add	x11, sp, #1, lsl #12
	sub	x12, x29, #240
	ldur	q0, [x10, #-16]
	add	x11, x11, #576
	strb	w13, [x12, x8]
	ldr	x13, [x10], #32
	strb	w14, [x11, x8]
	add	x8, x8, #1
	stur	q0, [x9, #-16]
	cmp	x23, x8
	str	x13, [x9], #24
	b.ne	.LBB31_4
	mov	w8, #192
	add	x24, sp, #64
	sub	x0, x29, #48
	mov	x1, xzr
	mov	x2, x23
	mov	w3, #4
	stp	x12, x8, [x29, #-48]
	stp	x11, x8, [x29, #-32]
	stp	x24, x8, [x29, #-16]
	bl	"sums::good::good_sum"
	tbz	w0, #0, .LBB31_10
	sub	x8, x29, #240
	mov	w9, #192
	tst	w22, #0xff
	stp	x8, x9, [sp]
	add	x8, sp, #1, lsl #12
	cset	w4, ne
	add	x8, x8, #576
	add	x0, sp, #48
	mov	x2, sp
	add	x5, x21, x25
	mov	w1, #1
	mov	x3, x23
	mov	x6, x20
	stp	x8, x9, [sp, #16]
	stp	x24, x9, [sp, #32]
	bl	"algebra::answer::write_sum"
	ldrb	w9, [sp, #48]
	ldr	x8, [sp, #56]
	cbz	w9, .LBB31_14
	ldrb	w9, [sp, #49]
	add	x0, x9, #1
	mov	x9, x8
	b	.LBB31_12
.LBB31_10:
	sub	x0, x29, #48
	mov	x1, xzr
	mov	x2, x23
	mov	w3, #64
	bl	"sums::good::good_sum"
	mov	w8, #11
	cmp	w0, #0
	mov	w9, #13
	csel	x0, x9, x8, ne
.LBB31_11:
	mov	x9, xzr
.LBB31_12:
	mov	x8, xzr
.LBB31_13:
	stp	x9, x8, [x19]
	add	sp, sp, #1, lsl #12
	add	sp, sp, #1008
	ldp	x20, x19, [sp, #80]
	ldr	x28, [sp, #16]
	ldp	x22, x21, [sp, #64]
	ldp	x24, x23, [sp, #48]
	ldp	x26, x25, [sp, #32]
	ldp	x29, x30, [sp], #96
	ret
.LBB31_14:
	mov	x9, xzr
	mov	x0, xzr
	b	.LBB31_13
.Lfunc_end31:
	.size	uplink_write_faithful, .Lfunc_end31-uplink_write_faithful

	.type	.Lstatic.0,@object
	.section	.rodata..Lstatic.0,"a",@progbits
.Lstatic.0:
	.asciz	"\000\005\001\t\n\025\025\025\026\026\026\026\026\025\025\025\025\006\000\000\000\000\000\000\000\000\000\000\000\000\000\000\025\025\026\025\025\025\016\000\000\000\000\000\000\000\000\000\000\000\000\000\000\000\000\000\000\000\000\000\000\000\000\000\000\000\000\000\000\000\000\000\000\000\000\000\000\000\000\000\000\000\000\000\000\000\000\000\000\000\000\000\000\000\000\000\000\000\000\000\000\000\000\000\000\000\000\000\000\000\000\000\000\000\000\000\000\000\000\000\000\000\000\000\000\000\000\000\000\000\000\000\000\000\000\000\000\000\000\000\000\000\000\000\000\000\000\000\000\000\000\000\000\000\000\000\000\000\000\000\000\000\000\000\000\000\000\000\000\000\000\000\000\000\000\000\000\000\000\000\000\000\000\000\000\000\000\000\000\000\000\000\000\000\000\000\000\000\000\000\000\000\000\000\000\000\000\000\000\000\000\000\000\000\000\000\000\000\000\000\000\000\000\000\000\000\000\000\000\000\000\000\000\000\000\000\000\000\000\000\000\000\000\000\000\000\000\000\000\000\000\000\000\000\000"
	.size	.Lstatic.0, 256

	.type	.Lstatic.1,@object
	.section	.rodata..Lstatic.1,"a",@progbits
.Lstatic.1:
	.ascii	"\001\002\003\003\003\003\003\003\000\004\000\000\000\000\000\000\000\000\004\000\000\000\000\000\000\000\000\004\000\000\000\000\000\000\000\000\004\000\000\000\000\000\000\000\000\004\000\000\000\000\000\000\000\000\004\000\000\000\000\000\000\000\000\004"
	.size	.Lstatic.1, 64

	.type	.Lstatic.2,@object
	.section	.rodata..Lstatic.2,"a",@progbits
.Lstatic.2:
	.asciz	"\001\000\000\000\000\000\000\000\000\002\000\000\000\000\000\000\000\000\000\000\000\000\000\000\000\000\000\000\000\000\000\000\000\000\000\000\000\000\000\000\000\000\000\000\000\000\000\000\000\000\000\000\000\000\000\000\000\000\000\000\000\000\000"
	.size	.Lstatic.2, 64

	.section	".note.GNU-stack","",@progbits
