/* (for sockets of this machine) */
#define _DEFAULT_SOURCE
#include "systems/local.h"

#include <errno.h>
#include <fcntl.h>
#include <string.h>
#include <sys/socket.h>
#include <sys/stat.h>
#include <sys/un.h>
#include <unistd.h>

#include "systems/sockets.h"
#include "systems/unix/passed.h"

/* (macOS has no such type: there nobody waits who connects) */
#ifndef SOCK_NONBLOCK
#define SOCK_NONBLOCK 0
#endif

/* What the owner and the group may not: nothing; all others: anything. Nobody executes it. */
enum { WITHHELD = 0117, MOST_WAITING = 16 };

/* The file that was made, by which it is known again; and its path, by which they are known who ask there. */
static struct stat made;
static const char *asked_at = "";

bool has_local(void)
{
    return true;
}

/* (the service listens there) */
const char *local_usual(void)
{
    return "/run/ipxr-gateway/status";
}

/* The address of a path; false where it is too long. */
static bool named(const char *path, struct sockaddr_un *at)
{
    memset(at, 0, sizeof *at);
    at->sun_family = AF_UNIX;
    if (strlen(path) >= sizeof at->sun_path) {
        errno = ENAMETOOLONG;
        return false;
    }
    strcpy(at->sun_path, path);
    return true;
}

static int closed(int fd)
{
    int why = errno;
    close_any(&fd);
    errno = why;
    return -1;
}

/* Lets no signal tell that a connection is lost, where the calls that send have no word for that. */
static int unsignalled(int fd)
{
#ifdef SO_NOSIGPIPE
    int yes = 1;
    (void)setsockopt(fd, SOL_SOCKET, SO_NOSIGPIPE, &yes, sizeof yes);
#endif
    return fd;
}

/* Connects to a path by a socket of some type. Returns it, or -1. */
static int connected(const char *path, int type)
{
    struct sockaddr_un at;
    int fd = named(path, &at) ? unsignalled(socket(AF_UNIX, type, 0)) : -1;
    if (fd < 0 || connect(fd, (const struct sockaddr *)&at, sizeof at) == 0)
        return fd;
    return closed(fd);
}

int local_connect(const char *path)
{
    return connected(path, SOCK_STREAM);
}

/* Removes a socket at which nobody listens any more. (it doesn't wait for one who listens, and takes nobody) */
static void remove_left(const char *path)
{
    struct stat found;
    int fd = connected(path, SOCK_STREAM | SOCK_NONBLOCK);
    if (fd < 0 && errno == ECONNREFUSED && lstat(path, &found) == 0 && S_ISSOCK(found.st_mode))
        unlink(path);
    close_any(&fd);
}

/* (the rights are those of the file from its first moment on) */
static bool is_bound(int fd, const struct sockaddr_un *at)
{
    mode_t before = umask(WITHHELD);
    bool is_well = bind(fd, (const struct sockaddr *)at, sizeof *at) == 0;
    umask(before);
    return is_well;
}

static bool unwaiting(int fd)
{
    int flags = fcntl(fd, F_GETFL);
    return flags >= 0 && fcntl(fd, F_SETFL, flags | O_NONBLOCK) == 0 && fcntl(fd, F_SETFD, FD_CLOEXEC) == 0;
}

int local_open(const char *path)
{
    struct sockaddr_un at;
    if (!named(path, &at))
        return -1;
    remove_left(path);
    asked_at = path;
    int fd = socket(AF_UNIX, SOCK_STREAM, 0);
    if (fd < 0 || (unwaiting(fd) && is_bound(fd, &at) && lstat(path, &made) == 0 && listen(fd, MOST_WAITING) == 0))
        return fd;
    return closed(fd);
}

/* (whoever waits to come in may have passed something already) */
void local_close(int *fd, const char *path)
{
    struct stat found;
    if (*fd >= 0 && lstat(path, &found) == 0 && found.st_dev == made.st_dev && found.st_ino == made.st_ino)
        unlink(path);
    if (*fd >= 0)
        (void)shutdown(*fd, SHUT_RDWR);
    for (int next = *fd < 0 ? -1 : accept(*fd, NULL, NULL); next >= 0; next = accept(*fd, NULL, NULL)) {
        (void)unwaiting(next);
        local_end(&next);
    }
    close_any(fd);
}

int local_take(int listener)
{
    errno = EBUSY;
    int fd = passed_is_closing(asked_at, 1) ? -1 : accept(listener, NULL, NULL);
    if (fd < 0 || unwaiting(fd))
        return fd;
    return closed(fd);
}

ssize_t local_receive(int fd, uint8_t *bytes, size_t room)
{
    struct iovec piece = {bytes, room};
    struct msghdr what = {.msg_iov = &piece, .msg_iovlen = 1};
    passed them;
    ssize_t length = passed_receive(fd, &what, &them);
    if (them.count > 0)
        passed_close(&them, asked_at);
    if (!them.is_any)
        return length;
    errno = EPROTO;
    return -1;
}

void local_end(int *fd)
{
    passed_end(fd, asked_at);
}
