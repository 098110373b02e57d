#include "web/hub.h"

#include "ipx.h"

enum { FRONT = 2 * NODE /* bytes of a frame's nodes */ };

/* What a page says goes to another; it is counted where that has no room. */
static void put(web *it, page *to, const page *by, const uint8_t *frame, size_t length)
{
    if (!among_lets(&it->among, to->reads, by->number, length))
        it->late++;
    else if (!page_send(to, frame, length))
        it->unsent++;
}

bool hub_hears(web *it, const page *by, const uint8_t *frame, size_t length)
{
    uint8_t to = length >= FRONT ? among_says(&it->among, by->number, frame) : OF_ALL;
    for (size_t k = 0; length >= FRONT && to != OF_GATEWAY && to != by->number && k < it->count; k++)
        if (it->pages[k] != by && it->pages[k]->state == PAGE_IS_OPEN && (to == OF_ALL || to == it->pages[k]->number))
            put(it, it->pages[k], by, frame, length);
    if (to != OF_ALL && to != OF_GATEWAY && to != by->number)
        return false;
    bool is_let = among_lets(&it->among, &it->among.heard, by->number, length);
    it->late += !is_let;
    return is_let;
}

bool hub_sends(web *it, const uint8_t *frame, size_t length)
{
    size_t sent = 0, refused = 0;
    uint8_t to = among_says(&it->among, OF_GATEWAY, frame);
    for (size_t k = 0; k < it->count; k++) {
        if (it->pages[k]->state != PAGE_IS_OPEN || (to != OF_ALL && to != it->pages[k]->number))
            continue;
        bool is_sent = page_send(it->pages[k], frame, length);
        sent += is_sent;
        refused += !is_sent;
    }
    return sent > 0 || refused == 0;
}
