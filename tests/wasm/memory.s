# The memory's size, its growth, copies, fillings, and segments that are copied. It grows to four pages at most.
#! --max-memory=262144
	.globl	size
	.functype	size () -> (i64)
size:
	.functype	size () -> (i64)
	memory.size	0
	end_function

	.globl	grow
	.functype	grow (i64) -> (i64)
grow:
	.functype	grow (i64) -> (i64)
	local.get	0
	memory.grow	0
	end_function

# In the middle of other work.
	.globl	grown
	.functype	grown (i64, i64) -> (i64)
grown:
	.functype	grown (i64, i64) -> (i64)
	local.get	1
	local.get	0
	memory.grow	0
	local.get	1
	memory.size	0
	i64.add
	i64.mul
	i64.add
	end_function

#> size = 1n
#> grow 0n = 1n
#> grow 4n = -1n
#> grow 65535n = -1n
#> grow 65536n = -1n
#> grow 4294967295n = -1n
#> grow 4294967296n = -1n
#> grow 4294967297n = -1n
#> grow -1n = -1n
#> grow -4294967295n = -1n
#> size = 1n
#> grow 1n = 1n
#> grown 1n 100n = 306n
#> size = 3n
#> grow 2n = -1n
#> size = 3n

	.globl	fill
	.functype	fill (i64, i32, i64) -> ()
fill:
	.functype	fill (i64, i32, i64) -> ()
	local.get	0
	local.get	1
	local.get	2
	memory.fill	0
	end_function

	.globl	copy
	.functype	copy (i64, i64, i64) -> ()
copy:
	.functype	copy (i64, i64, i64) -> ()
	local.get	0
	local.get	1
	local.get	2
	memory.copy	0, 0
	end_function

	.globl	word
	.functype	word (i64) -> (i64)
word:
	.functype	word (i64) -> (i64)
	local.get	0
	i64.load	0
	end_function

#> fill 2001n -1 3n =
#> word 2000n = 4294967040n
#> fill 196607n 7 1n =
#> fill 196607n 7 2n = trap
#> fill 196608n 7 0n =
#> fill 196609n 7 0n = trap
#> fill 4294967295n 7 1n = trap
#> fill 0n 7 4294967295n = trap
#> fill -1n 7 2n = trap
#> fill 4294970000n 1 1n = trap, cut
#> fill 2704n 1 4294967297n = trap, cut
#> copy 3000n 2000n 8n =
#> word 3000n = 4294967040n
#> copy 3001n 3000n 6n =
#> word 3000n = 1099511562240n
#> copy 3000n 3001n 6n =
#> word 3000n = 4294967040n
#> copy 196600n 3000n 8n =
#> word 196600n = 4294967040n
#> copy 196601n 3000n 8n = trap
#> copy 3000n 196601n 8n = trap
#> copy 3000n 4294967295n 1n = trap
#> copy 4294967295n 3000n 1n = trap
#> copy 3000n 3000n 4294967295n = trap
#> copy 4294970300n 3000n 1n = trap, cut
#> copy 3000n 4294970300n 1n = trap, cut

# A copy in the middle of other work.
	.globl	between
	.functype	between (i64, i64) -> (i64)
between:
	.functype	between (i64, i64) -> (i64)
	.local	i32
	local.get	0
	i64.const	11
	i64.mul
	local.get	0
	local.get	1
	i64.const	8
	memory.copy	0, 0
	local.get	0
	i64.load	0
	i64.add
	end_function
#> between 5000n 2000n = 4295022040n
