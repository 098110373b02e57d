/* libipxr @VERSION@ in one file of C: cc server.c libipxr.c
 *
 * This file is made by a machine. The proved library was compiled to WebAssembly, and that was written as C. docs/EMBED.md of its sources
 * tells how, and docs/PROVED.md what is proved and what is trusted.
 *
 * Any compiler of C99, or of C++11, on a system of 32 or 64 bits, whichever byte of a number comes first there. Beside it lie the headers
 * with all that a caller needs to know, and README.
 *
 * IPXR_STATIC        to #include this file instead of the headers, in the one file that makes the calls. They are static then.
 * IPXR_MALLOC(size), IPXR_REALLOC(block, size), IPXR_FREE(block)
 *                    an allocator of your own, all three: a block's address is one that 8 divides. Without them it is C's.
 * IPXR_COPIES        for tests: structs are copied and numbers are read byte by byte, as where no other way is known. */
#ifdef IPXR_STATIC
#ifdef __GNUC__
#define IPXR_CALL static __attribute__((unused))
#else
#define IPXR_CALL static
#endif
#endif

@HEADERS@
#include <stdlib.h>
#include <string.h>

#if !defined(IPXR_MALLOC) && !defined(IPXR_REALLOC) && !defined(IPXR_FREE)
#define IPXR_MALLOC(size) malloc(size)
#define IPXR_REALLOC(block, size) realloc(block, size)
#define IPXR_FREE(block) free(block)
#elif !defined(IPXR_MALLOC) || !defined(IPXR_REALLOC) || !defined(IPXR_FREE)
#error "IPXR_MALLOC, IPXR_REALLOC and IPXR_FREE belong together"
#endif
