/* What the program asks of Linux beside the C library and include/heap.c: its arguments, and the number of the last fault. The
 * toolchain brings these for x86-64; tools/platforms builds the program for other processors with this file. */
#include <errno.h>
#include <stddef.h>
#include <stdint.h>
#include <string.h>

static size_t argument_count;
static char **arguments;

/* (glibc hands the arguments to what runs before main) */
__attribute__((constructor)) static void keep_arguments(int count, char **texts)
{
    argument_count = (size_t)count;
    arguments = texts;
}

/* Copies an argument. Returns its length; -1 if there is none of that number, -2 if it is longer than the room, which is then full. */
intptr_t rattle_arg(size_t number, uint8_t *buffer, size_t room)
{
    if (number >= argument_count)
        return -1;
    size_t length = strlen(arguments[number]);
    memcpy(buffer, arguments[number], length < room ? length : room);
    return length <= room ? (intptr_t)length : -2;
}

int32_t rattle_errno(void)
{
    return errno;
}

void rattle_set_errno(int32_t number)
{
    errno = number;
}
