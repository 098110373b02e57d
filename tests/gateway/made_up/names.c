/* resolver.h of a made-up system. Its threads are tasks that run when the driver wants, one behind the other. */
#include "names.h"

#include <string.h>

#include "chance.h"
#include "play.h"
#include "systems/resolver.h"
#include "weather.h"

enum { MOST_TASKS = 256 };

static struct {
    void (*run)(void *);
    void *with;
} tasks[MOST_TASKS];
static size_t count;
static bool is_locked;

bool resolver_begin(void (*run)(void *), void *with)
{
    if (count == MOST_TASKS || (the_weather.calls > 0 && one_in(the_weather.calls)))
        return false;
    tasks[count].run = run;
    tasks[count++].with = with;
    return true;
}

void resolver_lock(void)
{
    if (is_locked)
        wrong("the resolver is locked twice");
    is_locked = true;
}

void resolver_unlock(void)
{
    if (!is_locked)
        wrong("the resolver is unlocked, and isn't locked");
    is_locked = false;
}

size_t names_asked(void)
{
    return count;
}

void name_is_answered(void)
{
    size_t at = below((uint32_t)count);
    if (count == 0)
        return;
    void (*run)(void *) = tasks[at].run;
    void *with = tasks[at].with;
    tasks[at] = tasks[--count];
    run(with);
}

static address any_address(wanted which)
{
    address it = {.is_six = which == ADDRESS_OF_IPV6 || (which == ANY_ADDRESS && one_in(3))};
    if (it.is_six) {
        it.six[15] = (uint8_t)between(1, 9);
    } else {
        it.host[0] = 10;
        it.host[3] = (uint8_t)between(1, 9);
    }
    return it;
}

void resolver_ask(const char *host, wanted which, answers *found)
{
    if (strlen(host) == 0)
        wrong("a name without a letter is asked for");
    found->count = one_in(3) ? 0 : between(1, MOST_ANSWERS);
    for (size_t k = 0; k < found->count; k++)
        found->list[k] = any_address(which);
}
