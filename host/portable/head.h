/* ipxr @VERSION@ in one file of C: cc -O2 ipxr.c -o ipxr
 *
 * This file is made by a machine. The proved program was compiled to WebAssembly, and that was written as C. docs/PROVED.md of its sources
 * tells how, and what is proved and what is trusted.
 *
 * Any compiler of C99, on a system of 32 or 64 bits, whichever byte of a number comes first there, with files as on Unix or on Windows.
 *
 * IPXR_COPIES        for tests: numbers are read and written byte by byte, as where no other way is known. */

/* (loops over bytes are to be done for many at once, which gcc ventures in few of them by itself; and on ways that no run takes, with counts
 * that no memory has, it would warn of copies) */
#if defined(__GNUC__) && !defined(__clang__)
#pragma GCC optimize("tree-vectorize", "vect-cost-model=dynamic")
#pragma GCC diagnostic ignored "-Wstringop-overflow"
#endif

/* (systems show all that they have, and open files of any length, whatever standard is asked for) */
#define _DEFAULT_SOURCE 1
#define _FILE_OFFSET_BITS 64

#include <errno.h>
#include <fcntl.h>
#include <stdbool.h>
#include <stddef.h>
#include <stdint.h>
#include <stdlib.h>
#include <string.h>
#ifdef _WIN32
#include <io.h>
#else
#include <signal.h>
#include <unistd.h>
#endif

#define IPXR_MALLOC(size) malloc(size)
#define IPXR_REALLOC(block, size) realloc(block, size)
#define IPXR_FREE(block) free(block)
