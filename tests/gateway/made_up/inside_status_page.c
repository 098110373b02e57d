#include "monitoring/status_page.c"

#include "inside.h"
#include "play.h"

size_t status_page_descriptors(void)
{
    size_t count = the.listener >= 0;
    for (size_t k = 0; k < MOST_VISITORS; k++)
        count += the.visitors[k].state != AWAY;
    return count;
}

int status_page_listener(void)
{
    return the.listener;
}

int status_page_any_visitor(size_t from)
{
    for (size_t k = 0; k < MOST_VISITORS; k++) {
        const visitor *v = &the.visitors[(from + k) % MOST_VISITORS];
        if (v->state != AWAY)
            return v->fd;
    }
    return -1;
}

/* (one who was answered all isn't left waiting for more; and what he said lies within its room) */
void status_page_is_well(void)
{
    for (size_t k = 0; k < MOST_VISITORS; k++) {
        const visitor *v = &the.visitors[k];
        bool is_asking = v->state == IS_ASKING, is_done = v->state == IS_LEAVING;
        if (v->state == AWAY)
            continue;
        if (v->fd < 0 || v->sent > v->count || v->count > sizeof v->text || v->head_count > sizeof v->head)
            wrong("visitor %zu: %zu of %zu bytes sent, %zu said, descriptor %d", k, v->sent, v->count, v->head_count, v->fd);
        if ((is_asking || is_done) && visitor_pending(v) > 0)
            wrong("visitor %zu has %zu bytes to take, in state %d", k, visitor_pending(v), (int)v->state);
        if (v->state == IS_ANSWERED && v->is_whole && visitor_pending(v) == 0)
            wrong("visitor %zu was told all, and is told more", k);
    }
}
