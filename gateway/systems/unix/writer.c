#include "systems/writer.h"

#include <errno.h>
#include <fcntl.h>
#include <poll.h>
#include <pthread.h>
#include <signal.h>
#include <unistd.h>

#include "systems/fault.h"
#include "systems/unix/woken.h"

enum { SECOND = 1000 /* milliseconds */ };

static struct {
    int file;
    const char *fifo; /* to be opened, or NULL; */
    int fault;        /* and why it couldn't be, or 0 */
    pthread_mutex_t lock;
    void (*write_on)(writer which);
    writer which;
} writers[WRITERS];

static void *run(void *given)
{
    writer which = *(writer *)given;
    if (writers[which].fifo != NULL && (writers[which].file = open(writers[which].fifo, O_WRONLY | O_CLOEXEC)) < 0)
        writers[which].fault = errno;
    writers[which].write_on(which);
    return NULL;
}

/* (signals are for the thread that routes: it waits no longer then) */
static bool begin(writer which, void (*write_on)(writer which))
{
    pthread_t thread;
    sigset_t all, before;
    writers[which].which = which;
    writers[which].write_on = write_on;
    if ((errno = pthread_mutex_init(&writers[which].lock, NULL)) != 0 || !woken_begin(which))
        return false;
    sigfillset(&all);
    pthread_sigmask(SIG_SETMASK, &all, &before);
    int fault = pthread_create(&thread, NULL, run, &writers[which].which);
    pthread_sigmask(SIG_SETMASK, &before, NULL);
    if (fault == 0)
        pthread_detach(thread);
    errno = fault;
    return fault == 0;
}

bool writer_begin(writer which, FILE *file, void (*write_on)(writer which))
{
    writers[which].file = fileno(file);
    return begin(which, write_on);
}

bool writer_begin_fifo(writer which, const char *name, void (*write_on)(writer which))
{
    writers[which].fifo = name;
    return begin(which, write_on);
}

void writer_lock(writer which)
{
    pthread_mutex_lock(&writers[which].lock);
}

void writer_unlock(writer which)
{
    pthread_mutex_unlock(&writers[which].lock);
}

void writer_wait(writer which)
{
    writer_unlock(which);
    woken_wait(which);
    writer_lock(which);
}

void writer_wake(writer which)
{
    woken_wake(which);
}

void writer_rest(int milliseconds)
{
    (void)poll(NULL, 0, milliseconds);
}

/* (a file that is full has room again, perhaps; a reader that went doesn't come back) */
ssize_t writer_write(writer which, const char *bytes, size_t count)
{
    ssize_t written;
    struct pollfd room = {writers[which].file, POLLOUT, 0};
    if ((errno = writers[which].fault) != 0)
        return -1;
    do
        written = write(writers[which].file, bytes, count);
    while (written < 0 && (errno == EINTR || (errno == EAGAIN && poll(&room, 1, SECOND) > 0)));
    if (written > 0)
        return written;
    if (is_of_reader(errno) || (which == CAPTURE && errno != EAGAIN))
        return -1;
    if (errno != EAGAIN)
        (void)poll(NULL, 0, SECOND);
    return 0;
}
