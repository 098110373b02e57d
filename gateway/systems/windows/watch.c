#include "systems/watch.h"

#include "systems/windows/bell.h"

/* What is waited for, and afterwards what came: something to receive, room to send, a connection that failed. */
typedef struct sets {
    fd_set receive, send, fault;
} sets;

static void fill(sets *it, const watch *list, size_t count)
{
    FD_ZERO(&it->receive);
    FD_ZERO(&it->send);
    FD_ZERO(&it->fault);
    for (size_t k = 0; k < count; k++) {
        SOCKET fd = (SOCKET)list[k].fd;
        FD_SET(fd, &it->receive);
        if (list[k].sends) {
            FD_SET(fd, &it->send);
            FD_SET(fd, &it->fault);
        }
    }
    if (bell_socket() != INVALID_SOCKET)
        FD_SET(bell_socket(), &it->receive);
}

/* Waits for the sets. Windows doesn't wait for none: then the time alone passes. */
static bool waits(sets *it, int milliseconds)
{
    struct timeval most = {milliseconds / 1000, milliseconds % 1000 * 1000};
    if (it->receive.fd_count > 0)
        return select(0, &it->receive, &it->send, &it->fault, &most) >= 0;
    Sleep((DWORD)milliseconds);
    return true;
}

/* (Winsock tells no order by a fault) */
static bool may_have_come_everywhere(watch *list, size_t count, int milliseconds)
{
    Sleep((DWORD)(milliseconds < MOMENT ? milliseconds : MOMENT));
    for (size_t k = 0; k < count; k++) {
        list[k].has_come = true;
        list[k].has_changed = false;
    }
    return true;
}

bool watch_all(watch *list, size_t count, int milliseconds)
{
    sets all;
    fill(&all, list, count);
    if (!waits(&all, milliseconds))
        return may_have_come_everywhere(list, count, milliseconds);
    if (bell_socket() != INVALID_SOCKET && FD_ISSET(bell_socket(), &all.receive))
        bell_hush();
    for (size_t k = 0; k < count; k++) {
        SOCKET fd = (SOCKET)list[k].fd;
        list[k].has_changed = FD_ISSET(fd, &all.send) || FD_ISSET(fd, &all.fault);
        list[k].has_come = FD_ISSET(fd, &all.receive) || list[k].has_changed;
    }
    return true;
}
