/* writer.h of a made-up system. A thread runs where the driver's stands, and stands where that runs. */
#include "writers.h"

#include <errno.h>
#include <pthread.h>
#include <string.h>

#include "chance.h"
#include "files.h"
#include "play.h"
#include "systems/writer.h"
#include "weather.h"

static pthread_mutex_t lock = PTHREAD_MUTEX_INITIALIZER;
static pthread_cond_t turned = PTHREAD_COND_INITIALIZER;

static struct thread {
    bool is_begun, is_woken, is_stuck;
    bool is_its_turn;
    bool is_locked;
    bool is_fifo; /* it waits for a reader before it begins */
    FILE *file; /* a pipe's, which stays open */
    void (*write_on)(writer which);
    writer which;
} threads[WRITERS];

static bool are_read = true, is_capture_gone;

void writers_are_read(bool are)
{
    are_read = are;
}

void capture_is_gone(void)
{
    is_capture_gone = true;
}

/* ---- Turns ---- */

/* The thread gives its turn back, and waits for the next. */
static void rest(struct thread *it)
{
    it->is_its_turn = false;
    pthread_cond_broadcast(&turned);
    while (!it->is_its_turn)
        pthread_cond_wait(&turned, &lock);
}

/* The driver gives a thread its turn, and waits until it rests. */
static void give_turn(struct thread *it)
{
    pthread_mutex_lock(&lock);
    it->is_its_turn = true;
    pthread_cond_broadcast(&turned);
    while (it->is_its_turn)
        pthread_cond_wait(&turned, &lock);
    pthread_mutex_unlock(&lock);
}

static void *run(void *at)
{
    struct thread *it = at;
    pthread_mutex_lock(&lock);
    while (!it->is_its_turn)
        pthread_cond_wait(&turned, &lock);
    it->is_stuck = it->is_fifo;
    while (it->is_fifo && !are_read)
        rest(it);
    it->write_on(it->which);
    return NULL;
}

void writers_write(void)
{
    for (int k = 0; k < WRITERS; k++)
        if (threads[k].is_begun && (threads[k].is_woken || (threads[k].is_stuck && are_read)))
            give_turn(&threads[k]);
}

/* ---- Of the gateway ---- */

static bool begin(writer which, void (*write_on)(writer which))
{
    pthread_t thread;
    struct thread *it = &threads[which];
    if (it->is_begun)
        return true; /* (of the start before) */
    it->is_begun = it->is_woken = true;
    it->which = which;
    it->write_on = write_on;
    if ((errno = pthread_create(&thread, NULL, run, it)) != 0)
        wrong("the test itself has no thread");
    pthread_detach(thread);
    return true;
}

bool writer_begin(writer which, FILE *file, void (*write_on)(writer which))
{
    if (which == CAPTURE) {
        own_close(threads[which].file);
        threads[which].file = file;
    }
    return begin(which, write_on);
}

bool writer_begin_fifo(writer which, const char *name, void (*write_on)(writer which))
{
    (void)name;
    threads[which].is_fifo = true;
    return begin(which, write_on);
}

void writer_lock(writer which)
{
    if (threads[which].is_locked)
        wrong("writer %d is locked twice", which);
    threads[which].is_locked = true;
}

void writer_unlock(writer which)
{
    if (!threads[which].is_locked)
        wrong("writer %d is unlocked, and isn't locked", which);
    threads[which].is_locked = false;
}

void writer_wait(writer which)
{
    threads[which].is_locked = false;
    while (!threads[which].is_woken)
        rest(&threads[which]);
    threads[which].is_woken = false;
    threads[which].is_locked = true;
}

void writer_wake(writer which)
{
    threads[which].is_woken = true;
}

/* (the end waits: the threads write meanwhile) */
void writer_rest(int milliseconds)
{
    (void)milliseconds;
    writers_write();
}

static bool is_disk_full(void)
{
    return the_weather.calls > 0 && one_in(the_weather.calls);
}

ssize_t writer_write(writer which, const char *bytes, size_t count)
{
    threads[which].is_stuck = !are_read;
    if (!are_read) {
        rest(&threads[which]);
        return 0;
    }
    if (which == CAPTURE && (is_capture_gone || is_disk_full())) {
        errno = is_capture_gone ? EPIPE : ENOSPC;
        return -1;
    }
    if (the_play.tells && which != CAPTURE)
        told("%.*s", (int)count - 1, bytes);
    return (ssize_t)count;
}
