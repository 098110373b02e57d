#include "systems/watch.h"

#include <errno.h>
#include <poll.h>
#include <time.h>

/* Lets a moment pass, or fewer milliseconds. */
static void rest(int milliseconds)
{
    struct timespec moment = {.tv_nsec = 1000000L * (milliseconds < MOMENT ? milliseconds : MOMENT)};
    (void)nanosleep(&moment, NULL);
}

bool watch_all(watch *list, size_t count, int milliseconds)
{
    struct pollfd polls[MOST_WATCHED];
    for (size_t k = 0; k < count; k++)
        polls[k] = (struct pollfd){list[k].fd, (short)(list[k].sends ? POLLIN | POLLOUT : POLLIN), 0};
    bool is_known = poll(polls, (nfds_t)count, milliseconds) >= 0;
    if (!is_known && errno == EINTR)
        return false;
    if (!is_known)
        rest(milliseconds);
    for (size_t k = 0; k < count; k++) {
        list[k].has_come = !is_known || polls[k].revents != 0;
        list[k].has_changed = is_known && polls[k].revents != 0 && polls[k].revents != POLLIN;
    }
    return true;
}
