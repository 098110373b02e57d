# Each load of a number, from bytes that have their upper bits set, with an offset of 4.
	.macro	load instruction, result
	.globl	\instruction
	.functype	\instruction (i64) -> (\result)
\instruction:
	.functype	\instruction (i64) -> (\result)
	local.get	0
	\instruction	4
	end_function
	.endm

	load	i32.load, i32
	load	i64.load, i64
	load	f32.load, f32
	load	f64.load, f64
	load	i32.load8_s, i32
	load	i32.load8_u, i32
	load	i32.load16_s, i32
	load	i32.load16_u, i32
	load	i64.load8_s, i64
	load	i64.load8_u, i64
	load	i64.load16_s, i64
	load	i64.load16_u, i64
	load	i64.load32_s, i64
	load	i64.load32_u, i64

#> i32.load 1028n = -2138996093
#> i64.load 1028n = -8897557572265868669n
#> f32.load 1036n = 1.5
#> f64.load 1040n = -2.25
#> i32.load8_s 1028n = -125
#> i32.load8_u 1028n = 131
#> i32.load16_s 1028n = -32125
#> i32.load16_u 1028n = 33411
#> i64.load8_s 1028n = -125n
#> i64.load8_u 1028n = 131n
#> i64.load16_s 1028n = -32125n
#> i64.load16_u 1028n = 33411n
#> i64.load32_s 1028n = -2138996093n
#> i64.load32_u 1028n = 2155971203n

# The memory's last bytes, and one byte farther.
#> i32.load 65528n = 0
#> i32.load 65529n = trap
#> i64.load 65524n = 0n
#> i64.load 65525n = trap
#> i32.load8_u 65531n = 0
#> i32.load8_u 65532n = trap

# What 32 bits hold, and more with the offset; a negative address.
#> i32.load8_u 4294967291n = trap
#> i32.load8_u 4294967292n = trap
#> i32.load8_u 4294967295n = trap
#> i32.load8_u -1n = trap
#> i64.load -8n = trap

# An upper half that isn't 0.
#> i32.load8_u 4294968324n = trap, cut 131
#> i32.load8_u -9223372036854774780n = trap, cut 131

# Offsets: the largest that 32 bits hold, and those that they don't.
	.macro	far name, offset
	.globl	\name
	.functype	\name (i64) -> (i64)
\name:
	.functype	\name (i64) -> (i64)
	local.get	0
	i64.load	\offset
	i64.const	1
	i64.add
	end_function
	.endm

	far	at_most, 4294967295
	far	beyond, 4294967296
	far	farthest, 18446744073709551584
	far	near, 1024

#> near 8n = -8897557572265868668n
#> at_most 0n = trap
#> at_most 1033n = trap
#> at_most -4294966263n = trap
#> beyond 1032n = trap
#> beyond 0n = trap
#> farthest 0n = trap
#> farthest 1064n = trap

	.section	.data.bytes,"",@
bytes:
	.int64	0
	.ascii	"\203\202\201\200\207\206\205\204"
	.int32	0x3FC00000
	.int64	0xC002000000000000
	.size	bytes, 28
