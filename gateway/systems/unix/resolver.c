#include "systems/resolver.h"

#include <netdb.h>
#include <netinet/in.h>
#include <pthread.h>
#include <signal.h>
#include <stdlib.h>
#include <string.h>
#include <sys/socket.h>

static pthread_mutex_t lock = PTHREAD_MUTEX_INITIALIZER;

/* What a thread is to do. */
typedef struct task {
    void (*run)(void *);
    void *with;
} task;

static void *work(void *given)
{
    task it = *(task *)given;
    free(given);
    it.run(it.with);
    return NULL;
}

/* (signals are for the thread that routes) */
static bool begin(task *it)
{
    pthread_t thread;
    sigset_t all, before;
    sigfillset(&all);
    pthread_sigmask(SIG_SETMASK, &all, &before);
    int fault = pthread_create(&thread, NULL, work, it);
    pthread_sigmask(SIG_SETMASK, &before, NULL);
    if (fault == 0)
        pthread_detach(thread);
    return fault == 0;
}

bool resolver_begin(void (*run)(void *), void *with)
{
    task *it = malloc(sizeof *it);
    if (it == NULL)
        return false;
    *it = (task){run, with};
    if (begin(it))
        return true;
    free(it);
    return false;
}

void resolver_lock(void)
{
    pthread_mutex_lock(&lock);
}

void resolver_unlock(void)
{
    pthread_mutex_unlock(&lock);
}

/* An address as the system says it. */
static address of_system(const struct sockaddr *at)
{
    struct sockaddr_in four;
    struct sockaddr_in6 six;
    address it = {.is_six = at->sa_family == AF_INET6};
    if (it.is_six) {
        memcpy(&six, at, sizeof six);
        memcpy(it.six, &six.sin6_addr, sizeof it.six);
    } else {
        memcpy(&four, at, sizeof four);
        memcpy(it.host, &four.sin_addr, sizeof it.host);
    }
    return it;
}

void resolver_ask(const char *host, wanted which, answers *found)
{
    static const int FAMILIES[] = {[ANY_ADDRESS] = AF_UNSPEC, [ADDRESS_OF_IPV4] = AF_INET, [ADDRESS_OF_IPV6] = AF_INET6};
    struct addrinfo hints = {.ai_family = FAMILIES[which], .ai_socktype = SOCK_DGRAM}, *first = NULL;
    found->count = 0;
    if (getaddrinfo(host, NULL, &hints, &first) != 0)
        return;
    for (const struct addrinfo *it = first; it != NULL && found->count < MOST_ANSWERS; it = it->ai_next)
        if (it->ai_family == AF_INET || it->ai_family == AF_INET6)
            found->list[found->count++] = of_system(it->ai_addr);
    freeaddrinfo(first);
}
