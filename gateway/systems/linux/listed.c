/* (for the names of all interfaces) */
#define _DEFAULT_SOURCE
#include "systems/card.h"

#include <net/if.h>
#include <stdio.h>

const char *cards_lack(void)
{
    return NULL;
}

/* Whether an interface is there and Ethernet; then it is listed. */
static bool is_listed(const char *name, card_listed *it)
{
    unsigned index;
    *it = (card_listed){.state = CARD_UNKNOWN};
    it->state = interface_state(name, &index, it->card);
    snprintf(it->name, sizeof it->name, "%s", name);
    return it->state == CARD_OFF || it->state == CARD_UNPLUGGED || it->state == CARD_UP;
}

size_t cards_list(card_listed *list, size_t room)
{
    size_t count = 0;
    struct if_nameindex *all = if_nameindex();
    for (const struct if_nameindex *next = all; next != NULL && next->if_index != 0 && count < room; next++)
        if (is_listed(next->if_name, &list[count]))
            count++;
    if (all != NULL)
        if_freenameindex(all);
    return count;
}
