/* A switch says nothing of its own: a port is there for as long as the connection stays by which it was asked for. Whoever takes the call and
 * doesn't answer is called again after some seconds, and nobody waits for him. */
#include "links/plugged.h"

#include <errno.h>

#include "systems/clock.h"

/* Milliseconds from one call to the next; and those that a switch has to answer. */
enum { BETWEEN = 1000, ANSWERS = 5000 };

/* The port has gone, or there is none. */
static void unplug(cable *it, const char *lacks, int fault)
{
    it->was_lost = it->was_lost || it->is_settled;
    it->is_settled = false;
    plug_end(&it->plug, &it->fd);
    it->lacks = lacks;
    it->fault = fault;
}

/* Calls the switch. Returns whether it may answer. */
static bool calls(cable *it)
{
    uint64_t now = clock_now();
    if (it->tried != 0 && now - it->tried < BETWEEN)
        return false;
    it->tried = now;
    it->fd = plug_call(&it->plug, it->set->host);
    if (it->fd >= 0)
        return true;
    it->lacks = "can't call the switch";
    it->fault = errno;
    return false;
}

bool plugged_is_up(cable *it)
{
    if (it->fd < 0 && !calls(it))
        return false;
    plug_state state = plug_looks(&it->plug, it->fd);
    int fault = errno;
    if (state == PLUG_REFUSED)
        unplug(it, it->is_settled ? "the switch has ended" : "the switch gives no port", 0);
    else if (state == PLUG_WRONG)
        unplug(it, "what it says isn't what a switch says", fault);
    else if (state == PLUG_WAITS && clock_now() - it->tried >= ANSWERS)
        unplug(it, "the switch doesn't answer", 0);
    it->is_settled = state == PLUG_HAS_PORT;
    return it->is_settled;
}
