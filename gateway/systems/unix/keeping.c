#include "systems/keeping.h"

#include <errno.h>
#include <fcntl.h>
#include <limits.h>
#include <stdio.h>
#include <stdlib.h>
#include <string.h>
#include <sys/stat.h>
#include <unistd.h>

/* (its owner alone may read and write it) */
enum { RIGHTS = 0600 };

/* The path of a file in the folder that systemd names for the service, the first where there are several. Returns false where there is none. */
static bool path_of(const char *name, const char *end, char path[PATH_MAX])
{
    const char *folder = getenv("STATE_DIRECTORY");
    int length = folder != NULL ? (int)strcspn(folder, ":") : 0;
    return length > 0 && length < PATH_MAX && snprintf(path, PATH_MAX, "%.*s/%s%s", length, folder, name, end) < PATH_MAX;
}

static kept closed(int fd, kept became)
{
    int why = errno;
    close(fd);
    errno = why;
    return became;
}

/* Whether a link stood where a file was to be opened. (FreeBSD and NetBSD tell it by faults of their own) */
static bool is_of_link(int fault)
{
#ifdef EFTYPE
    if (fault == EFTYPE)
        return true;
#endif
    return fault == ELOOP || fault == EMLINK;
}

kept keeping_read(const char *name, uint8_t *bytes, size_t count)
{
    char path[PATH_MAX];
    struct stat about;
    if (!path_of(name, "", path))
        return HAS_NO_FOLDER;
    int fd = open(path, O_RDONLY | O_NONBLOCK | O_CLOEXEC | O_NOFOLLOW);
    if (fd < 0)
        return errno == ENOENT ? IS_NOT_YET : is_of_link(errno) ? IS_ANOTHER : CANT_BE_KEPT;
    if (fstat(fd, &about) != 0)
        return closed(fd, CANT_BE_KEPT);
    if (!S_ISREG(about.st_mode) || about.st_size != (off_t)count)
        return closed(fd, IS_ANOTHER);
    ssize_t length = read(fd, bytes, count);
    return closed(fd, length == (ssize_t)count ? IS_KEPT : length < 0 ? CANT_BE_KEPT : IS_ANOTHER);
}

/* Writes all to a file, which lies there then whatever happens to the machine. */
static bool is_written(int fd, const uint8_t *bytes, size_t count)
{
    ssize_t length = write(fd, bytes, count);
    if (length >= 0 && length != (ssize_t)count)
        errno = ENOSPC;
    return length == (ssize_t)count && fsync(fd) == 0;
}

/* (under another name first: what has the right one is whole. A file that a gateway left there which was killed meanwhile is in nobody's use) */
kept keeping_write(const char *name, const uint8_t *bytes, size_t count)
{
    char path[PATH_MAX], new_path[PATH_MAX];
    if (!path_of(name, "", path) || !path_of(name, ".new", new_path))
        return HAS_NO_FOLDER;
    unlink(new_path);
    int fd = open(new_path, O_WRONLY | O_CREAT | O_EXCL | O_CLOEXEC | O_NOFOLLOW, RIGHTS);
    if (fd < 0)
        return CANT_BE_KEPT;
    if (closed(fd, is_written(fd, bytes, count) ? IS_KEPT : CANT_BE_KEPT) == IS_KEPT && rename(new_path, path) == 0)
        return IS_KEPT;
    int why = errno;
    unlink(new_path);
    errno = why;
    return CANT_BE_KEPT;
}
