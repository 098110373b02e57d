/* local.h of a made-up system: the status socket. */
#include "systems/local.h"

#include <errno.h>

#include "chance.h"
#include "descriptors.h"
#include "outside.h"
#include "play.h"
#include "systems/sockets.h"
#include "weather.h"

static const int OF_LISTENING[] = {EADDRINUSE, EACCES, EMFILE, ENOMEM, 0};
static const int OF_TAKING[] = {EAGAIN, EMFILE, ENFILE, ENOBUFS, ENOMEM, ECONNABORTED, 0};

bool has_local(void)
{
    return true;
}

const char *local_usual(void)
{
    return "status";
}

int local_open(const char *path)
{
    return path == NULL || fails(OF_LISTENING) ? -1 : descriptor_open(STATUS);
}

void local_close(int *fd, const char *path)
{
    if (path == NULL)
        wrong("the status socket is closed, and has no path");
    close_any(fd);
}

int local_take(int listener)
{
    descriptor *it = descriptor_at(listener, STATUS);
    if (fails(OF_TAKING))
        return -1;
    errno = EAGAIN;
    if (it->calls == 0)
        return -1;
    int fd = descriptor_open(VIEWER);
    if (fd < 0)
        return -1; /* (who calls goes on waiting) */
    it->calls--;
    descriptor *made = descriptor_at(fd, VIEWER);
    made->stage = CONNECTED;
    made->takes = one_in(3) ? 100000 : below(2) * 5000;
    return fd;
}

ssize_t local_receive(int fd, uint8_t *bytes, size_t room)
{
    return connection_receive(fd, bytes, room);
}

void local_end(int *fd)
{
    close_any(fd);
}

/* (the gateway that is played asks no other one) */
int local_connect(const char *path)
{
    (void)path;
    errno = ECONNREFUSED;
    return -1;
}
