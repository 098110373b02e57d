# Calls through a table, and what reads and changes one. The table of functions holds two, from 1 on.
#! --growable-table
	.tabletype	__indirect_function_table, funcref
	.globl	more
	.functype	more (i64) -> (i64)
more:
	.functype	more (i64) -> (i64)
	local.get	0
	i64.const	1
	i64.add
	end_function

	.globl	half
	.functype	half (i32) -> (i32)
half:
	.functype	half (i32) -> (i32)
	local.get	0
	i32.const	1
	i32.shr_u
	end_function

	.globl	addresses
	.functype	addresses () -> (i64)
addresses:
	.functype	addresses () -> (i64)
	i64.const	more
	i64.const	10
	i64.mul
	i64.const	half
	i64.add
	end_function

	.globl	indirect
	.functype	indirect (i64, i64) -> (i64)
indirect:
	.functype	indirect (i64, i64) -> (i64)
	local.get	0
	local.get	1
	call_indirect	(i64) -> (i64)
	end_function

#> addresses = 12n
#> indirect 41n 1n = 42n
#> indirect 41n 2n = trap
#> indirect 41n 0n = trap
#> indirect 41n 3n = trap
#> indirect 41n 4294967295n = trap
#> indirect 41n -1n = trap
#> indirect 41n 4294967297n = trap, cut 42n

	.tabletype	things, externref
	.globl	things
things:
	.globl	size
	.functype	size () -> (i64)
size:
	.functype	size () -> (i64)
	table.size	things
	end_function

	.globl	grow
	.functype	grow (i64) -> (i64)
grow:
	.functype	grow (i64) -> (i64)
	ref.null_extern
	local.get	0
	table.grow	things
	end_function

	.globl	put
	.functype	put (i64, externref) -> ()
put:
	.functype	put (i64, externref) -> ()
	local.get	0
	local.get	1
	table.set	things
	end_function

	.globl	is_empty
	.functype	is_empty (i64) -> (i32)
is_empty:
	.functype	is_empty (i64) -> (i32)
	local.get	0
	table.get	things
	ref.is_null	
	end_function

	.globl	fill
	.functype	fill (i64, externref, i64) -> ()
fill:
	.functype	fill (i64, externref, i64) -> ()
	local.get	0
	local.get	1
	local.get	2
	table.fill	things
	end_function

	.globl	copy
	.functype	copy (i64, i64, i64) -> ()
copy:
	.functype	copy (i64, i64, i64) -> ()
	local.get	0
	local.get	1
	local.get	2
	table.copy	things, things
	end_function

#> size = 0n
#> grow 4n = 0n
#> grow 4294967295n = -1n
#> grow 4294967296n = -1n
#> grow -1n = -1n
#> size = 4n
#> is_empty 3n = 1
#> put 3n 7 =
#> put 4n 7 = trap
#> is_empty 3n = 0
#> is_empty 4n = trap
#> is_empty -1n = trap
#> is_empty 4294967299n = trap, cut 0
#> copy 1n 2n 2n =
#> is_empty 1n = 1
#> is_empty 2n = 0
#> copy 2n 1n 3n = trap
#> fill 0n 7 2n =
#> is_empty 1n = 0
#> fill 0n 7 5n = trap
