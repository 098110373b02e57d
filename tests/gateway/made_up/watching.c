/* watch.h of a made-up system. */
#include "systems/watch.h"

#include <errno.h>

#include "chance.h"
#include "descriptors.h"
#include "outside.h"
#include "play.h"
#include "weather.h"

static const int OF_WAITING[] = {EINTR, ENOMEM, EAGAIN, 0};

/* Whether something can be sent. */
static bool takes_something(const descriptor *it)
{
    return (it->is != CONNECTION && it->is != VIEWER) || (it->stage != UNDER_WAY && it->takes > 0);
}

static void look(watch *one)
{
    const descriptor *it = descriptor_if_open(one->fd);
    if (it == NULL) {
        wrong("descriptor %d is waited for, and isn't open", one->fd);
        return;
    }
    bool is_cut = (it->is == CONNECTION || it->is == VIEWER) && it->stage == CUT;
    bool sends = one->sends && takes_something(it);
    one->has_come = has_something(it) || sends || is_cut;
    one->has_changed = one->has_come && (sends || is_cut || it->is_complained);
}

/* Whether any has something. */
static bool look_at_all(watch *list, size_t count)
{
    bool has_any = false;
    for (size_t k = 0; k < count; k++) {
        look(&list[k]);
        has_any = has_any || list[k].has_come;
    }
    return has_any;
}

/* It isn't known where something came. */
static void anything_came(watch *list, size_t count)
{
    for (size_t k = 0; k < count; k++) {
        look(&list[k]);
        list[k].has_come = true;
        list[k].has_changed = false;
    }
}

bool watch_all(watch *list, size_t count, int milliseconds)
{
    if (count > MOST_WATCHED || milliseconds < 0)
        wrong("%zu descriptors are waited for, %d milliseconds", count, milliseconds);
    bool is_known = !fails(OF_WAITING);
    if (!is_known && errno == EINTR)
        return false;
    if (!is_known) {
        anything_came(list, count);
        outside_waits(milliseconds < MOMENT ? milliseconds : MOMENT);
        return true;
    }
    if (!look_at_all(list, count))
        outside_waits(milliseconds);
    return true;
}
