#include "web/web.h"

#include <errno.h>
#include <stdlib.h>
#include <string.h>

#include "ipx.h"
#include "systems/clock.h"
#include "web/hub.h"
#include "web/site.h"

/* Milliseconds for which somebody does nothing before another may have his place. */
enum { IDLE = 10000, LEAST_OF_LINK = 8 };

static web webs[MOST_LINKS];

/* ---- Beginning and end ---- */

void web_follow(web *it, const network_setting *set)
{
    it->set = set;
    among_follow(&it->among, set);
}

web *web_open(const network_setting *set, address *local)
{
    web *it = webs;
    while (it < webs + MOST_LINKS - 1 && it->set != NULL)
        it++;
    site *at = site_open(set, local);
    if (at == NULL)
        return NULL;
    memset(it, 0, sizeof *it);
    it->at = at;
    web_follow(it, set);
    return it;
}

/* A page goes at once, and is told why. */
static void dismiss(page *it, uint16_t status)
{
    if (it->state == PAGE_IS_OPEN)
        page_end(it, status);
    page_push(it);
    page_drop(it);
}

void web_close(web *it)
{
    for (size_t k = 0; k < it->count; k++)
        dismiss(it->pages[k], CLOSED_GOING_AWAY);
    site_close(it->at);
    it->set = NULL;
}

/* How many links there are, so how many pages each may have: together no more than there is room for. */
static size_t most_of_link(void)
{
    size_t count = 0;
    for (size_t k = 0; k < MOST_LINKS; k++)
        count += webs[k].set != NULL;
    size_t part = count > 0 ? MOST_PAGES / count : MOST_PAGES;
    return part < LEAST_OF_LINK ? LEAST_OF_LINK : part < MOST_OF_LINK ? part : MOST_OF_LINK;
}

web *web_at(const struct site *at, bool is_tunnel, uint32_t network)
{
    for (web *it = webs; it < webs + MOST_LINKS; it++)
        if (it->set != NULL && it->at == at && has_tunnel(it->set) == is_tunnel && it->set->network == network)
            return it;
    return NULL;
}

/* ---- Who is there ---- */

static bool same_host(const page *one, const page *other)
{
    return memcmp(one->from.host, other->from.host, sizeof one->from.host) == 0;
}

/* Whether an address has more than half of all pages. */
static bool has_most(const web *it, const page *one)
{
    size_t count = 0;
    for (size_t k = 0; k < it->count; k++)
        count += same_host(it->pages[k], one);
    return 2 * count > it->count;
}

/* Whether a page may give way to somebody: it has no place, and did nothing for a while; or it is of an address that has most of all pages, and
 * isn't his. (a client of the tunnel never does) */
static bool may_go(const web *it, const page *one, const page *for_whom)
{
    bool is_client = one->has_place && has_tunnel(it->set), is_idle = !one->has_place && clock_now() - one->spoke >= IDLE;
    return one->state == PAGE_IS_OPEN && !is_client && (is_idle || (!same_host(one, for_whom) && has_most(it, one)));
}

/* Of those the one who did nothing for longest, or NULL. */
static page *idle_one(const web *it, const page *for_whom)
{
    page *found = NULL;
    for (size_t k = 0; k < it->count; k++) {
        page *next = it->pages[k];
        if ((found == NULL || next->spoke < found->spoke) && may_go(it, next, for_whom))
            found = next;
    }
    return found;
}

bool web_lets_join(web *it, const page *who)
{
    if (it->count < most_of_link() && site_has_room())
        return true;
    page *idle = idle_one(it, who);
    if (idle == NULL) {
        it->refused++;
        return false;
    }
    dismiss(idle, CLOSED_NOT_NOW);
    web_leave(it, idle);
    return true;
}

static bool has_number(const web *it, uint8_t number)
{
    size_t k = 0;
    while (k < it->count && it->pages[k]->number != number)
        k++;
    return k < it->count;
}

/* The lowest number that nobody has. (there is one: they are fewer than numbers) */
static uint8_t free_number(const web *it)
{
    uint8_t number = 1;
    while (has_number(it, number))
        number++;
    return number;
}

bool web_join(web *it, page *who)
{
    who->reads = has_tunnel(it->set) ? NULL : calloc(1, sizeof *who->reads);
    if (who->reads == NULL && !has_tunnel(it->set))
        return false;
    who->of = it;
    who->number = free_number(it);
    who->socket.most = has_tunnel(it->set) ? LONGEST : IPXR_LONGEST_FRAME;
    page_is(who, PAGE_IS_OPEN);
    it->pages[it->count++] = who;
    return true;
}

void web_leave(web *it, page *who)
{
    size_t k = 0;
    while (k < it->count && it->pages[k] != who)
        k++;
    if (k == it->count)
        return;
    memmove(it->pages + k, it->pages + k + 1, (--it->count - k) * sizeof *it->pages);
    it->has_gone = true;
    among_forgets(&it->among, who->number);
}

/* Who comes from somewhere, or NULL. (mostly the next of them in their order is asked for) */
static page *page_from(web *it, const address *from)
{
    for (size_t k = 0; k < it->count; k++) {
        size_t index = (it->last + k) % it->count;
        if (it->pages[index]->state == PAGE_IS_OPEN && same_address(&it->pages[index]->from, from)) {
            it->last = index;
            return it->pages[index];
        }
    }
    return NULL;
}

bool web_has(web *it, const address *from)
{
    return page_from(it, from) != NULL;
}

void web_admits(web *it, const address *from)
{
    page *who = page_from(it, from);
    if (who != NULL)
        who->has_place = true;
}

/* ---- What comes ---- */

bool web_has_more(const web *it)
{
    for (size_t k = 0; k < it->count; k++)
        if (it->pages[k]->state == PAGE_IS_OPEN && (it->pages[k]->is_behind || it->pages[k]->has_come))
            return true;
    return false;
}

/* A message is one that the gateway hears. */
static void take(arrivals *in, const page *by)
{
    arrival *next = &in->list[in->count++];
    next->from = by->from;
    next->is_sent = false;
    next->length = by->socket.length;
    memcpy(next->bytes, by->socket.message, by->socket.length);
}

/* The next messages of a page, of so many frames of all that are left. */
static void hear(web *it, page *by, arrivals *in, unsigned *left)
{
    unsigned most = *left < MOST_FRAMES ? *left : MOST_FRAMES, frames = most;
    bool is_tunnel = has_tunnel(it->set);
    while (page_says(by, &frames)) {
        by->spoke = clock_now();
        by->has_place = by->has_place || !is_tunnel;
        if (is_tunnel || hub_hears(it, by, by->socket.message, by->socket.length))
            take(in, by);
    }
    *left -= most - frames;
    it->has_gone = it->has_gone || by->state != PAGE_IS_OPEN; /* (who said goodbye is gone, though his connection isn't yet) */
}

/* (who is asked next has had the least) */
bool web_receive(web *it, arrivals *in)
{
    unsigned left = (unsigned)in->most;
    in->count = 0;
    for (size_t k = 0; k < it->count && left > 0; k++) {
        page *next = it->pages[it->turn++ % it->count];
        if (next->state == PAGE_IS_OPEN && (next->is_behind || next->has_come))
            hear(it, next, in, &left);
    }
    errno = EAGAIN;
    return left < in->most;
}

/* ---- What goes ---- */

bool web_send_to(web *it, const departure *what)
{
    page *to = page_from(it, &what->to);
    errno = EAGAIN;
    return to != NULL && page_send(to, what->bytes, what->length);
}

bool web_send(web *it, const uint8_t *frame, size_t length)
{
    errno = EAGAIN;
    return hub_sends(it, frame, length);
}
