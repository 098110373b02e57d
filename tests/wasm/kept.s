# Instructions that stay as they are, with everything that may stand behind their numbers, between loads and stores.
	.globl	choice
	.functype	choice (i32) -> (i64)
choice:
	.functype	choice (i32) -> (i64)
	block
	block
	block
	local.get	0
	br_table	{0, 1, 2}
	end_block
	i64.const	1024
	i64.load	0
	return
	end_block
	i64.const	1032
	i64.load	0
	return
	end_block
	i64.const	-9223372036854775808
	end_function
#> choice 0 = 81985529216486895n
#> choice 1 = 7n
#> choice 2 = -9223372036854775808n
#> choice 300 = -9223372036854775808n

	.globl	sum
	.functype	sum (i64, i64) -> (i64)
sum:
	.functype	sum (i64, i64) -> (i64)
	.local	i64, i32, f64
	loop
	local.get	0
	i64.load8_u	0
	local.get	2
	i64.add
	local.set	2
	local.get	0
	i64.const	1
	i64.add
	local.tee	0
	local.get	1
	i64.lt_u
	br_if	0
	end_loop
	local.get	2
	i32.const	0
	if
	unreachable
	else
	nop
	end_if
	end_function
#> sum 1024n 1040n = 967n

# A load whose address is what a block leaves, and one behind a jump.
	.globl	of_block
	.functype	of_block (i32) -> (i64)
of_block:
	.functype	of_block (i32) -> (i64)
	block	i64
	i64.const	1032
	i64.const	1024
	local.get	0
	i64.select
	end_block
	i64.load	0
	return
	i64.load	16
	end_function
#> of_block 1 = 7n
#> of_block 0 = 81985529216486895n

	.globl	numbers
	.functype	numbers (f32, f64) -> (f64)
numbers:
	.functype	numbers (f32, f64) -> (f64)
	local.get	0
	f32.const	0.5
	f32.add
	f64.promote_f32
	local.get	1
	f64.const	-0.25
	f64.mul
	f64.add
	i64.trunc_sat_f64_s
	f64.convert_i64_s
	i64.const	1032
	i64.load	0
	f64.convert_i64_u
	f64.add
	end_function
#> numbers 2.5 -4 = 11

	.globl	vectors
	.functype	vectors (i64) -> (i64)
vectors:
	.functype	vectors (i64) -> (i64)
	local.get	0
	v128.load	0
	v128.const	1, 2
	i8x16.shuffle	0, 1, 2, 3, 4, 5, 6, 7, 16, 17, 18, 19, 20, 21, 22, 23
	i64x2.extract_lane	0
	v128.const	3, 4
	i64.const	1024
	i64.load	0
	i64x2.replace_lane	1
	i64x2.extract_lane	1
	i64.sub
	i64.const	17
	i64x2.splat
	i64x2.extract_lane	1
	i64.add
	end_function
#> vectors 1024n = 17n

# A function that has a number of its own, a global, and a sign that is extended.
	.globaltype	held, i64
	.globl	held
held:
	.globl	hold
	.functype	hold (i64) -> (i64)
hold:
	.functype	hold (i64) -> (i64)
	global.get	held
	local.get	0
	global.set	held
	i64.const	1032
	i64.const	-128
	i64.store8	0
	i64.extend8_s
	end_function
	.functype	held_twice (i64) -> (i64)
	.globl	held_twice
held_twice:
	.functype	held_twice (i64) -> (i64)
	local.get	0
	call	hold
	drop
	local.get	0
	call	hold
	end_function
#> held_twice 41n = 41n

	.section	.data.bytes,"",@
bytes:
	.int64	81985529216486895
	.int64	7
	.size	bytes, 16
