/* Windows has no switches of VDE: no configuration gets this far with one. */
#include "systems/plug.h"

#include <errno.h>

int plug_call(plug *it, const char *path)
{
    (void)path;
    it->call = -1;
    errno = ENOSYS;
    return -1;
}

plug_state plug_looks(plug *it, int fd)
{
    (void)it;
    (void)fd;
    return PLUG_REFUSED;
}

bool plug_receive(plug *it, int fd, arrivals *in)
{
    (void)it;
    (void)fd;
    in->count = 0;
    errno = ENOSYS;
    return false;
}

void plug_end(plug *it, int *fd)
{
    it->call = *fd = -1;
}
