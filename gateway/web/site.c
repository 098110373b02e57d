/* Whoever hasn't asked after some seconds goes; and where too many ask at once, of the address that has the most the one who came first. So
 * nobody who opens connections and says nothing keeps others out. */
#include "web/site.h"

#include <errno.h>
#include <string.h>

#include "configuration/words.h"
#include "monitoring/note.h"
#include "systems/clock.h"
#include "systems/fault.h"
#include "systems/sockets.h"
#include "systems/system.h"
#include "web/asking.h"
#include "web/web.h"

enum {
    MOST_TAKEN = 16,      /* who come in at a time */
    TIME_TO_ASK = 5000,   /* milliseconds in which somebody asks who has come in, */
    TIME_TO_GO = 2000,    /* in which he goes who was told to, */
    TIME_TO_TAKE = 60000, /* and in which he takes something of what is for him */
    REST = 1000,          /* and for which nobody is taken where the system has no room */
};

static site sites[MOST_LINKS];
static size_t open_now; /* so many of them: mostly none */

static struct {
    page *list[MOST_CONNECTIONS];
    size_t count;
} all;

/* ---- Listeners ---- */

static site *site_at(const address *at)
{
    for (site *it = sites; it < sites + MOST_LINKS; it++)
        if (it->links > 0 && at->port != 0 && same_address(&it->asked, at))
            return it;
    return NULL;
}

static site *new_site(const address *at)
{
    site *it = sites;
    while (it < sites + MOST_LINKS - 1 && it->links > 0)
        it++;
    memset(it, 0, sizeof *it);
    it->asked = it->local = *at;
    it->fd = listener_open(&it->local);
    open_now += it->fd >= 0;
    return it->fd >= 0 ? it : NULL;
}

site *site_open(const network_setting *set, address *local)
{
    site *it = site_at(&set->local);
    if (it == NULL)
        it = new_site(&set->local);
    if (it == NULL)
        return NULL;
    it->links++;
    *local = it->local;
    return it;
}

void site_close(site *it)
{
    if (--it->links > 0)
        return;
    for (size_t k = 0; k < all.count; k++)
        if (all.list[k]->at == it)
            page_drop(all.list[k]);
    close_any(&it->fd);
    open_now--;
}

/* ---- Who comes in ---- */

/* How many are pages of links; and how many aren't, yet or any more. */
static size_t pages(bool are_of_links)
{
    size_t count = 0;
    for (size_t k = 0; k < all.count; k++)
        count += (all.list[k]->of != NULL) == are_of_links && all.list[k]->state != PAGE_IS_GONE;
    return count;
}

bool site_has_room(void)
{
    return pages(true) < MOST_PAGES;
}

static bool same_host(const page *one, const page *other)
{
    return memcmp(one->from.host, other->from.host, sizeof one->from.host) == 0;
}

/* How many of somebody's address are no pages of links. */
static size_t askers_beside(const page *one)
{
    size_t count = 0;
    for (size_t k = 0; k < all.count; k++)
        count += all.list[k]->of == NULL && all.list[k]->state != PAGE_IS_GONE && same_host(all.list[k], one);
    return count;
}

/* Too many ask: who came first of the address that has the most goes. */
static void make_room(void)
{
    page *gone = NULL;
    size_t most = 0;
    for (size_t k = 0; k < all.count; k++) {
        page *next = all.list[k];
        size_t count = next->of == NULL && next->state != PAGE_IS_GONE ? askers_beside(next) : 0;
        if (count > most) {
            most = count;
            gone = next;
        }
    }
    if (gone != NULL)
        page_drop(gone);
}

static void begin(site *it, int fd, const address *from)
{
    if (pages(false) >= MOST_ASKING)
        make_room();
    page *made = all.count < MOST_CONNECTIONS ? page_begin(fd, from, it) : NULL;
    if (made == NULL)
        connection_drop(&fd);
    else
        all.list[all.count++] = made;
}

/* Nobody is taken for a while, where the system has no room for one more connection; it is told once. */
static void rest(site *it, int fault)
{
    char at[ADDRESS_ROOM];
    bool is_told = it->rests;
    it->rests = fault != 0 && !is_of_nobody(fault);
    it->rested = clock_now();
    address_words(&it->local, at);
    errno = fault;
    if (it->rests && !is_told)
        event("nobody can come in at web %s now: %s", at, fault_words());
}

static void take_all(site *it)
{
    address from;
    int fd = 0;
    for (int k = 0; k < MOST_TAKEN && fd >= 0; k++) {
        fd = listener_take(it->fd, &from);
        rest(it, fd < 0 ? errno : 0);
        if (fd >= 0)
            begin(it, fd, &from);
    }
    it->has_come = false;
}

/* ---- Waiting ---- */

static bool waits(const site *it)
{
    return it->links > 0 && (!it->rests || clock_now() - it->rested >= REST);
}

size_t sites_wait(watch *list)
{
    size_t count = 0;
    for (size_t k = 0; open_now > 0 && k < MOST_LINKS; k++)
        if (waits(&sites[k]))
            list[count++] = (watch){.fd = sites[k].fd};
    for (size_t k = 0; k < all.count; k++)
        if (all.list[k]->fd >= 0)
            list[count++] = (watch){.fd = all.list[k]->fd, .sends = page_is_pending(all.list[k])};
    return count;
}

/* Whether something has come of a descriptor. (they stand in the order in which they are asked for) */
static bool has_come(const watch *list, size_t count, size_t *at, int fd)
{
    size_t k = *at;
    while (k < count && list[k].fd != fd)
        k++;
    if (k == count)
        return false;
    *at = k + 1;
    return list[k].has_come;
}

/* What has come of a page. One of a link is heard as it is its turn. */
static void attend(page *it)
{
    it->has_come = true;
    it->is_full = false;
    page_push(it);
    if (it->state == PAGE_ASKS)
        asking_hear(it);
    else if (it->state == PAGE_ENDS)
        page_fades(it);
}

void sites_attend(const watch *list, size_t count)
{
    size_t at = 0;
    for (size_t k = 0; open_now > 0 && k < MOST_LINKS; k++)
        sites[k].has_come = sites[k].links > 0 && has_come(list, count, &at, sites[k].fd);
    for (size_t k = 0; k < all.count; k++)
        if (all.list[k]->fd >= 0 && has_come(list, count, &at, all.list[k]->fd))
            attend(all.list[k]);
    for (size_t k = 0; open_now > 0 && k < MOST_LINKS; k++)
        if (sites[k].has_come)
            take_all(&sites[k]);
}

void sites_push(void)
{
    for (size_t k = 0; k < all.count; k++)
        page_push(all.list[k]);
}

/* ---- Seconds ---- */

/* Whether the time is over that somebody has. */
static bool is_too_late(const page *it)
{
    uint64_t now = clock_now(), passed = now - it->since;
    bool takes_nothing = page_is_pending(it) && now - it->took >= TIME_TO_TAKE;
    return (it->state == PAGE_ASKS && passed >= TIME_TO_ASK) || (it->state == PAGE_ENDS && passed >= TIME_TO_GO) || takes_nothing ||
           connection_is_dead(it->fd);
}

void sites_second(void)
{
    for (size_t k = 0; k < all.count; k++)
        if (all.list[k]->fd >= 0 && is_too_late(all.list[k]))
            page_drop(all.list[k]);
}

void sites_forget(void)
{
    size_t kept = 0;
    for (size_t k = 0; k < all.count; k++) {
        page *next = all.list[k];
        if (next->state != PAGE_IS_GONE) {
            all.list[kept++] = next;
            continue;
        }
        if (next->of != NULL)
            web_leave(next->of, next);
        page_free(next);
    }
    all.count = kept;
}
