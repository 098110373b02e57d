# A memory and a function that are imported: the function's parameters stay as wide as they are.
#! --import-memory
	.functype	next (i64) -> (i64)
	.import_name	next, next
	.import_module	next, env
	.globl	ask
	.functype	ask (i64) -> (i64)
ask:
	.functype	ask (i64) -> (i64)
	local.get	0
	call	next
	local.get	0
	i64.store	0
	local.get	0
	i64.const	1
	i64.add
	i64.load	0
	end_function
#> ask 2000n = 2000n
#> ask 65527n = 65527n
#> ask 65528n = trap
