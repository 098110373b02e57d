/* What a plug says to its switch, and hears: one request, in which it names the file of its socket for frames, and one answer, the address
 * of the switch's. A switch has no reason to pass descriptors. One that does is taken for none, and isn't called before they are closed. What
 * others pass is closed, too, and isn't held against the switch. */
/* (for sockets of this machine, and descriptors that are passed) */
#define _DEFAULT_SOURCE
#include "systems/plug.h"

#include <errno.h>
#include <fcntl.h>
#include <stdio.h>
#include <string.h>
#include <sys/socket.h>
#include <sys/stat.h>
#include <sys/un.h>
#include <unistd.h>

#include "systems/fault.h"
#include "systems/sockets.h"
#include "systems/unix/passed.h"

/* (not all systems have this flag for a call) */
#ifndef MSG_NOSIGNAL
#define MSG_NOSIGNAL 0
#endif

/* What a request begins with: the number of all requests, the version of this form, and that a port is wanted, whichever is free. */
static const uint32_t FRONT[] = {0xFEEDFACE, 3, 0};

/* Numbers of plugs of one process at one switch; what is read at once of what a switch says beside its answer; and threads that close what
 * those pass who aren't the switch. */
enum { MOST_PLUGS = 256, MOST_READ = 1024, MOST_OF_STRANGERS = 64 };

/* By what they are known: no path is empty. */
static const char STRANGERS[] = "";

/* The rights of a socket's file that matter: its owner's, and those of all others. */
enum { BY_OWNER = 0600, BY_OTHERS = 0066, BY_ALL = 0666, ANY_RIGHTS = 0777 };

/* Who asks, in words for whoever looks after the switch. */
static const char WHO[] = "ipxr-gateway";

/* (an answer has room) */
typedef char has_room_for_answer[sizeof(struct sockaddr_un) <= PLUG_ANSWER ? 1 : -1];

/* ---- What is heard ---- */

/* Whether the switch itself sent a message: by the connection, or from its own socket. */
static bool is_from_switch(const plug *it, const struct msghdr *what)
{
    const struct sockaddr_un *from = what->msg_name;
    return from == NULL || (it->far[0] != '\0' && strncmp(from->sun_path, it->far, sizeof from->sun_path) == 0);
}

/* Receives a message. Returns what the system answers; where descriptors came with it, they are refused, and the plug is wrong if the switch
 * sent them. */
static ssize_t receive(plug *it, int fd, struct msghdr *what)
{
    passed them;
    ssize_t length = passed_receive(fd, what, &them);
    bool is_switch = them.is_any && is_from_switch(it, what);
    it->is_wrong = it->is_wrong || is_switch;
    if (them.count > 0)
        passed_close(&them, is_switch ? it->path : STRANGERS);
    return length;
}

/* ---- Ends ---- */

static plug none(void)
{
    return (plug){.call = -1};
}

/* Removes the file, unless it is another's meanwhile. */
static void remove_file(plug *it)
{
    struct stat found;
    if (it->file[0] != '\0' && lstat(it->file, &found) == 0 && (uint64_t)found.st_dev == it->device && (uint64_t)found.st_ino == it->number)
        unlink(it->file);
    it->file[0] = '\0';
}

void plug_end(plug *it, int *fd)
{
    int why = errno;
    remove_file(it);
    passed_end(&it->call, it->path);
    passed_end(fd, it->far[0] != '\0' ? it->path : STRANGERS);
    *it = none();
    errno = why;
}

/* ---- Calling ---- */

/* The address of a path, which is two pieces; false where it is too long. */
static bool named(struct sockaddr_un *at, const char *path, const char *rest)
{
    memset(at, 0, sizeof *at);
    at->sun_family = AF_UNIX;
    int length = snprintf(at->sun_path, sizeof at->sun_path, "%s%s", path, rest);
    errno = ENAMETOOLONG;
    return length >= 0 && (size_t)length < sizeof at->sun_path;
}

/* A path that means the same in each folder, as the switch's own may be another one. */
static bool is_whole(const char *path, char whole[PLUG_PATH])
{
    size_t at = 0;
    if (path[0] != '/') {
        if (getcwd(whole, PLUG_PATH - 1) == NULL)
            return false;
        at = strlen(whole);
        whole[at++] = '/';
    }
    errno = ENAMETOOLONG;
    if (at + strlen(path) >= PLUG_PATH)
        return false;
    strcpy(whole + at, path);
    return true;
}

/* A socket that doesn't wait. */
static int opened(int type)
{
    int fd = socket(AF_UNIX, type, 0), flags = fd < 0 ? -1 : fcntl(fd, F_GETFL);
    if (flags >= 0 && fcntl(fd, F_SETFL, flags | O_NONBLOCK) == 0 && fcntl(fd, F_SETFD, FD_CLOEXEC) == 0)
        return fd;
    int why = errno;
    close_any(&fd);
    errno = why;
    return -1;
}

static bool reaches(int fd, const struct sockaddr_un *at)
{
    return connect(fd, (const struct sockaddr *)at, sizeof *at) == 0;
}

/* Removes the socket of a process that is gone. */
static void remove_left(const struct sockaddr_un *at)
{
    struct stat found;
    int fd = opened(SOCK_DGRAM);
    if (fd >= 0 && !reaches(fd, at) && errno == ECONNREFUSED && lstat(at->sun_path, &found) == 0 && S_ISSOCK(found.st_mode))
        unlink(at->sun_path);
    close_any(&fd);
}

/* Whether a socket has a file. (the rights are those of the file from its first moment on) */
static bool is_bound(int fd, const struct sockaddr_un *at, mode_t rights)
{
    remove_left(at);
    mode_t before = umask(ANY_RIGHTS & ~rights);
    bool is_well = bind(fd, (const struct sockaddr *)at, sizeof *at) == 0;
    int why = errno;
    umask(before);
    errno = why;
    return is_well;
}

/* Gives the socket for frames a file: its name is the process', and a number. */
static bool takes_file(plug *it, int fd, const char *beside, unsigned number, mode_t rights)
{
    struct sockaddr_un at;
    struct stat made;
    char name[24];
    snprintf(name, sizeof name, "ipxr-%x-%x", (unsigned)getpid(), number);
    if (!named(&at, beside, name) || !is_bound(fd, &at, rights) || lstat(at.sun_path, &made) != 0)
        return false;
    strcpy(it->file, at.sun_path);
    it->device = (uint64_t)made.st_dev;
    it->number = (uint64_t)made.st_ino;
    return true;
}

/* The same by the first number that is free. (in another container another process may have the same name) */
static bool has_file(plug *it, int fd, const char *beside, mode_t rights)
{
    unsigned number = 0;
    while (!takes_file(it, fd, beside, number, rights))
        if (errno != EADDRINUSE || ++number == MOST_PLUGS)
            return false;
    return true;
}

/* Where a switch is called, what the names of its plugs' files begin with, and the rights of these: those that others have who may call it;
 * and where it is another user's, who has to reach the file, those of all. */
typedef struct place {
    struct sockaddr_un control;
    char beside[PLUG_PATH + 1];
    mode_t rights;
} place;

static bool finds(const char *path, place *at)
{
    char whole[PLUG_PATH];
    struct stat found;
    if (!is_whole(path, whole))
        return false;
    bool is_socket = stat(whole, &found) == 0 && S_ISSOCK(found.st_mode);
    snprintf(at->beside, sizeof at->beside, "%s%s", whole, is_socket ? "." : "/");
    if (!named(&at->control, whole, is_socket ? "" : "/ctl") || stat(at->control.sun_path, &found) != 0)
        return false;
    bool is_of_another = geteuid() == 0 && found.st_uid != 0;
    at->rights = is_of_another ? BY_ALL : BY_OWNER | (found.st_mode & BY_OTHERS);
    return true;
}

/* Asks for a port: what a request begins with, the file, and who asks. */
static bool asks(const plug *it)
{
    struct sockaddr_un file;
    uint8_t bytes[sizeof FRONT + sizeof file + sizeof WHO - 1];
    if (!named(&file, it->file, ""))
        return false;
    memcpy(bytes, FRONT, sizeof FRONT);
    memcpy(bytes + sizeof FRONT, &file, sizeof file);
    memcpy(bytes + sizeof FRONT + sizeof file, WHO, sizeof WHO - 1);
    return send(it->call, bytes, sizeof bytes, MSG_NOSIGNAL) == (ssize_t)sizeof bytes;
}

int plug_call(plug *it, const char *path)
{
    place at;
    int fd = -1;
    *it = none();
    errno = ENAMETOOLONG;
    if (strlen(path) >= sizeof it->path)
        return -1;
    strcpy(it->path, path);
    errno = EBUSY;
    if (passed_is_closing(path, 1) || passed_is_closing(STRANGERS, MOST_OF_STRANGERS) || !finds(path, &at))
        return -1;
    it->call = opened(SOCK_STREAM);
    if (it->call >= 0 && reaches(it->call, &at.control))
        fd = opened(SOCK_DGRAM);
    if (fd >= 0 && has_file(it, fd, at.beside, at.rights) && asks(it))
        return fd;
    plug_end(it, &fd);
    return -1;
}

/* ---- The port ---- */

/* Takes the port that the switch has answered. */
static plug_state take_port(plug *it, int fd)
{
    struct sockaddr_un at;
    memcpy(&at, it->answer, sizeof at);
    errno = EPROTO;
    if (at.sun_family != AF_UNIX || at.sun_path[0] == '\0' || memchr(at.sun_path, '\0', sizeof at.sun_path) == NULL || !reaches(fd, &at))
        return PLUG_WRONG;
    strcpy(it->far, at.sun_path);
    return PLUG_HAS_PORT;
}

/* (what a switch says behind its answer means nothing) */
plug_state plug_looks(plug *it, int fd)
{
    uint8_t more[MOST_READ];
    bool has_port = it->far[0] != '\0';
    struct iovec piece = {more, sizeof more};
    struct msghdr what = {.msg_iov = &piece, .msg_iovlen = 1};
    if (!has_port)
        piece = (struct iovec){it->answer + it->answered, sizeof(struct sockaddr_un) - it->answered};
    ssize_t length = it->is_wrong ? -1 : receive(it, it->call, &what);
    if (it->is_wrong) {
        errno = EPROTO;
        return PLUG_WRONG;
    }
    if (length == 0 || (length < 0 && !may_pass(errno)))
        return PLUG_REFUSED;
    if (has_port)
        return PLUG_HAS_PORT;
    it->answered += length > 0 ? (size_t)length : 0;
    return it->answered < sizeof(struct sockaddr_un) ? PLUG_WAITS : take_port(it, fd);
}

/* Receives the next frame. Returns whether there was one, and tells whether the switch sent it. */
static bool receive_next(plug *it, int fd, arrival *into, bool *is_heard)
{
    struct sockaddr_un from;
    struct iovec piece = {into->bytes, sizeof into->bytes};
    struct msghdr what = {.msg_name = &from, .msg_namelen = sizeof from, .msg_iov = &piece, .msg_iovlen = 1};
    memset(&from, 0, sizeof from);
    ssize_t length = receive(it, fd, &what);
    if (length < 0)
        return false;
    into->is_sent = false;
    into->length = (size_t)length + ((what.msg_flags & MSG_TRUNC) != 0);
    *is_heard = is_from_switch(it, &what);
    return true;
}

bool plug_receive(plug *it, int fd, arrivals *in)
{
    bool is_heard = false;
    size_t came = 0;
    in->count = 0;
    for (; came < in->most && !it->is_wrong && receive_next(it, fd, &in->list[in->count], &is_heard); came++)
        in->count += is_heard && !it->is_wrong;
    if (it->is_wrong)
        errno = EPROTO;
    else if (came == in->most) /* (of others there may be more) */
        errno = EAGAIN;
    return in->count > 0;
}
