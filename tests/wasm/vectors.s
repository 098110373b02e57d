# Each load and store of a vector or of one of its lanes, by 64 bits of what comes of it; and constants, shuffles and lanes between them.
	.macro	load instruction, rest:vararg
	.globl	\instruction
	.functype	\instruction (i64) -> (i64)
\instruction:
	.functype	\instruction (i64) -> (i64)
	.local	v128
	local.get	0
	\instruction	8 \rest
	local.tee	1
	i64x2.extract_lane	0
	local.get	1
	i64x2.extract_lane	1
	i64.const	5
	i64.mul
	i64.add
	end_function
	.endm

	load	v128.load
	load	i16x8.load8x8_s
	load	i16x8.load8x8_u
	load	i32x4.load16x4_s
	load	i32x4.load16x4_u
	load	i64x2.load32x2_s
	load	i64x2.load32x2_u
	load	v128.load8_splat
	load	v128.load16_splat
	load	v128.load32_splat
	load	v128.load64_splat
	load	v128.load32_zero
	load	v128.load64_zero

	.macro	load_lane instruction, lane
	.globl	\instruction
	.functype	\instruction (i64) -> (i64)
\instruction:
	.functype	\instruction (i64) -> (i64)
	.local	v128
	local.get	0
	v128.const	1, 2
	\instruction	8, \lane
	local.tee	1
	i64x2.extract_lane	0
	local.get	1
	i64x2.extract_lane	1
	i64.const	5
	i64.mul
	i64.add
	end_function
	.endm

	load_lane	v128.load8_lane, 9
	load_lane	v128.load16_lane, 3
	load_lane	v128.load32_lane, 1
	load_lane	v128.load64_lane, 1

	.macro	store instruction, lane:vararg
	.globl	\instruction
	.functype	\instruction (i64) -> (i64)
\instruction:
	.functype	\instruction (i64) -> (i64)
	local.get	0
	v128.const	0x8182838485868788, 0x9192939495969798
	\instruction	8 \lane
	local.get	0
	i64.load	8
	local.get	0
	i64.load	16
	i64.const	5
	i64.mul
	i64.add
	end_function
	.endm

	store	v128.store
	store	v128.store8_lane, , 3
	store	v128.store16_lane, , 5
	store	v128.store32_lane, , 2
	store	v128.store64_lane, , 1

#> v128.load 1016n = 9150038405455994712n
#> i16x8.load8x8_s 1016n = -138486105192923866n
#> i16x8.load8x8_u 1016n = 221521468140290854n
#> i32x4.load16x4_s 1016n = -541376332848346n
#> i32x4.load16x4_u 1016n = 865977076196134n
#> i64x2.load32x2_s 1016n = -8260902106n
#> i64x2.load32x2_u 1016n = 13213934374n
#> v128.load8_splat 1016n = 1519143629599610130n
#> v128.load16_splat 1016n = 1085947030386380562n
#> v128.load32_splat 1016n = -214467349434724590n
#> v128.load64_splat 1016n = 1738714005318799122n
#> v128.load32_zero 1016n = 2139161219n
#> v128.load64_zero 1016n = -8933586369301642621n
#> v128.load8_lane 1016n = 167691n
#> v128.load16_lane 1016n = 180988410024951819n
#> v128.load32_lane 1016n = 9187627476476493835n
#> v128.load64_lane 1016n = -7774443699089109872n
#> v128.store 2000n = 6439977504302660992n
#> v128.store8_lane 2100n = 133n
#> v128.store16_lane 2200n = 38294n
#> v128.store32_lane 2300n = 2509674392n
#> v128.store64_lane 2400n = -7957135325236127848n

# The memory's last bytes, and one byte farther.
#> v128.load 65512n = 0n
#> v128.load 65513n = trap
#> i64x2.load32x2_u 65521n = trap
#> v128.load8_lane 65527n = 11n
#> v128.load8_lane 65528n = trap
#> v128.store 65513n = trap
#> v128.store64_lane 65521n = trap
#> v128.store8_lane 65528n = trap
#> v128.load 4294967295n = trap
#> v128.store 4294967288n = trap
#> v128.load8_lane -8n = trap

# An upper half that isn't 0.
#> v128.load 4294968312n = trap, cut 9150038405455994712n
#> v128.store64_lane 4294969796n = trap, cut -7957135325236127848n

	.section	.data.bytes,"",@
bytes:
	.ascii	"\203\002\201\177\207\206\005\204\221\222\223\224\225\226\227\230"
	.size	bytes, 16
