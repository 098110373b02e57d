/* For the toolchain's compiler, which has no headers of its own. */
#define bool _Bool
