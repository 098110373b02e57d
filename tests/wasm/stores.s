# Each store of a number: what is stored, and what is then read from there.
	.macro	store instruction, type, load
	.globl	\instruction
	.functype	\instruction (i64, \type) -> (\type)
\instruction:
	.functype	\instruction (i64, \type) -> (\type)
	local.get	0
	local.get	1
	\instruction	4
	local.get	0
	\load	4
	end_function
	.endm

	store	i32.store, i32, i32.load
	store	i64.store, i64, i64.load
	store	f32.store, f32, f32.load
	store	f64.store, f64, f64.load
	store	i32.store8, i32, i32.load
	store	i32.store16, i32, i32.load
	store	i64.store8, i64, i64.load
	store	i64.store16, i64, i64.load
	store	i64.store32, i64, i64.load

#> i32.store 2000n -2138996093 = -2138996093
#> i64.store 2010n -8897557572265868669n = -8897557572265868669n
#> f32.store 2020n 1.5 = 1.5
#> f64.store 2030n -2.25 = -2.25
#> i32.store8 2040n -125 = 131
#> i32.store16 2050n -32125 = 33411
#> i64.store8 2060n -125n = 131n
#> i64.store16 2070n -32125n = 33411n
#> i64.store32 2080n -2138996093n = 2155971203n

# The memory's last bytes, and one byte farther.
#> i32.store 65528n 7 = 7
#> i32.store 65529n 7 = trap
#> i64.store 65524n 7n = 7n
#> i64.store 65525n 7n = trap
#> i64.store 4294967292n 7n = trap
#> i64.store 4294967295n 7n = trap
#> i64.store -8n 7n = trap
#> i64.store -1n 7n = trap

# An upper half that isn't 0.
#> i64.store 4294969296n 9n = trap, cut 9n

# A store in the middle of other work: what lies below it and above it stays.
	.globl	between
	.functype	between (i64, i64) -> (i64)
between:
	.functype	between (i64, i64) -> (i64)
	.local	f64, i64
	local.get	1
	i64.const	2
	i64.mul
	local.tee	3
	local.get	0
	local.get	1
	i64.store	0
	local.get	0
	i32.const	-1
	i32.store8	1
	local.get	0
	i64.load	0
	i64.add
	local.get	3
	i64.add
	end_function
#> between 3000n 5n = 65305n

# An offset that 32 bits don't hold: the store is never reached, or traps.
	.globl	farthest
	.functype	farthest (i64, i64) -> (i64)
farthest:
	.functype	farthest (i64, i64) -> (i64)
	block
	local.get	0
	i64.eqz
	br_if	0
	i64.const	0
	local.get	1
	i64.store	18446744073709551584
	end_block
	local.get	1
	end_function
#> farthest 0n 5n = 5n
#> farthest 1n 5n = trap
