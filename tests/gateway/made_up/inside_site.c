#include "web/site.c"

#include "descriptors.h"
#include "inside.h"
#include "play.h"

size_t web_descriptors(void)
{
    size_t count = 0;
    for (size_t k = 0; k < MOST_LINKS; k++)
        count += sites[k].links > 0;
    for (size_t k = 0; k < all.count; k++)
        count += all.list[k]->fd >= 0;
    return count;
}

page *page_at(int fd)
{
    for (size_t k = 0; k < all.count; k++)
        if (fd >= 0 && all.list[k]->fd == fd)
            return all.list[k];
    return NULL;
}

bool is_site(int fd)
{
    for (size_t k = 0; k < MOST_LINKS; k++)
        if (sites[k].links > 0 && sites[k].fd == fd)
            return true;
    return false;
}

/* How often a page is among those of its link. */
static size_t times_listed(const page *it)
{
    size_t count = 0;
    for (size_t k = 0; it->of != NULL && k < it->of->count; k++)
        count += it->of->pages[k] == it;
    return count;
}

static void check_page(const page *it)
{
    if ((it->state == PAGE_IS_GONE) != (it->fd < 0) || (it->fd >= 0 && descriptor_if_open(it->fd) == NULL))
        wrong("a page in state %d has descriptor %d", it->state, it->fd);
    if (it->taken > it->in || it->in > PAGE_COMING || it->sent > it->out || it->out > PAGE_GOING)
        wrong("a page heard %zu of %zu bytes, and sent %zu of %zu", it->taken, it->in, it->sent, it->out);
    if ((it->state == PAGE_IS_OPEN) > (it->of != NULL) || (it->state == PAGE_ASKS && it->of != NULL))
        wrong("a page is in state %d, and has %s link", it->state, it->of != NULL ? "a" : "no");
    if (it->of != NULL && it->fd >= 0 && (times_listed(it) != 1 || it->of->set == NULL || it->of->at != it->at))
        wrong("a page is %zu times at its link", times_listed(it));
}

void pages_are_well(void)
{
    if (all.count > MOST_CONNECTIONS)
        wrong("%zu pages are there", all.count);
    for (size_t k = 0; k < all.count; k++)
        check_page(all.list[k]);
}
