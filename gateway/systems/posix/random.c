#include "systems/system.h"

#include <errno.h>
#include <fcntl.h>
#include <unistd.h>

/* (the calls for it have other names on each system; the file is on all) */
bool system_random(uint8_t *bytes, size_t count)
{
    int fd = open("/dev/urandom", O_RDONLY | O_CLOEXEC);
    if (fd < 0)
        return false;
    ssize_t length = read(fd, bytes, count);
    int why = length < 0 ? errno : EIO;
    close(fd);
    errno = why;
    return length == (ssize_t)count;
}
