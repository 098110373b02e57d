#include "systems/unix/woken.h"

#include <semaphore.h>

static sem_t woken[WRITERS];

bool woken_begin(writer which)
{
    return sem_init(&woken[which], 0, 0) == 0;
}

void woken_wait(writer which)
{
    while (sem_wait(&woken[which]) != 0)
        ;
}

void woken_wake(writer which)
{
    int count = 0;
    if (sem_getvalue(&woken[which], &count) == 0 && count == 0)
        sem_post(&woken[which]);
}
