/* (macOS has no semaphores without a name) */
#include "systems/unix/woken.h"

#include <errno.h>
#include <pthread.h>

static struct {
    pthread_mutex_t lock;
    pthread_cond_t changes;
    bool is_woken;
} writers[WRITERS];

bool woken_begin(writer which)
{
    errno = pthread_mutex_init(&writers[which].lock, NULL);
    if (errno == 0)
        errno = pthread_cond_init(&writers[which].changes, NULL);
    return errno == 0;
}

void woken_wait(writer which)
{
    pthread_mutex_lock(&writers[which].lock);
    while (!writers[which].is_woken)
        pthread_cond_wait(&writers[which].changes, &writers[which].lock);
    writers[which].is_woken = false;
    pthread_mutex_unlock(&writers[which].lock);
}

void woken_wake(writer which)
{
    pthread_mutex_lock(&writers[which].lock);
    writers[which].is_woken = true;
    pthread_cond_signal(&writers[which].changes);
    pthread_mutex_unlock(&writers[which].lock);
}
