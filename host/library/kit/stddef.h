/* For the toolchain's compiler, which has no headers of its own. */
#define NULL ((void *)0)
#define offsetof(type, field) __builtin_offsetof(type, field)
typedef __SIZE_TYPE__ size_t;
