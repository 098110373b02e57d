#include "systems/resolver.h"

#include <stdlib.h>
#include <string.h>

#include "systems/windows/net.h"

static SRWLOCK lock = SRWLOCK_INIT;

/* What a thread is to do. */
typedef struct task {
    void (*run)(void *);
    void *with;
} task;

static DWORD WINAPI work(void *given)
{
    task it = *(task *)given;
    free(given);
    it.run(it.with);
    return 0;
}

bool resolver_begin(void (*run)(void *), void *with)
{
    task *it = malloc(sizeof *it);
    if (it == NULL)
        return false;
    *it = (task){run, with};
    HANDLE thread = CreateThread(NULL, 0, work, it, 0, NULL);
    if (thread == NULL) {
        free(it);
        return false;
    }
    CloseHandle(thread);
    return true;
}

void resolver_lock(void)
{
    AcquireSRWLockExclusive(&lock);
}

void resolver_unlock(void)
{
    ReleaseSRWLockExclusive(&lock);
}

/* An address as the system says it. */
static address of_system(const struct sockaddr *at)
{
    struct sockaddr_in four;
    struct sockaddr_in6 six;
    address it = {.is_six = at->sa_family == AF_INET6};
    if (it.is_six) {
        memcpy(&six, at, sizeof six);
        memcpy(it.six, &six.sin6_addr, sizeof it.six);
    } else {
        memcpy(&four, at, sizeof four);
        memcpy(it.host, &four.sin_addr, sizeof it.host);
    }
    return it;
}

void resolver_ask(const char *host, wanted which, answers *found)
{
    static const int FAMILIES[] = {[ANY_ADDRESS] = AF_UNSPEC, [ADDRESS_OF_IPV4] = AF_INET, [ADDRESS_OF_IPV6] = AF_INET6};
    struct addrinfo hints = {.ai_family = FAMILIES[which], .ai_socktype = SOCK_DGRAM}, *first = NULL;
    found->count = 0;
    if (getaddrinfo(host, NULL, &hints, &first) != 0)
        return;
    for (const struct addrinfo *it = first; it != NULL && found->count < MOST_ANSWERS; it = it->ai_next)
        if (it->ai_family == AF_INET || it->ai_family == AF_INET6)
            found->list[found->count++] = of_system(it->ai_addr);
    freeaddrinfo(first);
}
