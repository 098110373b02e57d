#include "monitoring/status.c"

#include "inside.h"
#include "play.h"

size_t status_descriptors(void)
{
    size_t count = (the.listener >= 0) + the.refused_count;
    for (size_t k = 0; k < MOST_VIEWERS; k++)
        count += the.viewers[k].state != ABSENT;
    return count;
}

void status_is_well(void)
{
    if (the.refused_count > MOST_REFUSED)
        wrong("%zu who were refused are waited for", the.refused_count);
    for (size_t k = 0; k < MOST_VIEWERS; k++) {
        const viewer *v = &the.viewers[k];
        if (v->state != ABSENT && (v->sent > v->count || v->count > sizeof v->text || v->fd < 0))
            wrong("viewer %zu: %zu of %zu bytes sent, descriptor %d", k, v->sent, v->count, v->fd);
    }
}
