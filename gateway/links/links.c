#include "links/links.h"

#include <errno.h>
#include <inttypes.h>
#include <string.h>

#include "configuration/words.h"
#include "links/segment.h"
#include "links/statics.h"
#include "monitoring/events.h"
#include "monitoring/note.h"
#include "systems/clock.h"
#include "systems/system.h"

/* Milliseconds. */
enum { MINUTE = 60000 };

const char *link_lacks(const network *on, int *fault)
{
    *fault = loop_is_shut(&on->loop) ? 0 : on->cable->fault;
    return loop_is_shut(&on->loop) ? on->loop.why : on->cable->lacks;
}

const char *part_of(const network *on)
{
    return on->set->is_of_several ? "a link of " : "";
}

static void tell_up(network *on)
{
    char link[LINK_ROOM], node[WORDS], pc[ADDRESS_ROOM];
    const address *with = cable_with(on->cable);
    event("%snetwork %08" PRIX32 " is up: %s, node %s%s%s", part_of(on), on->set->network, cable_words(on->cable, on->set, link),
          node_words(on->node, node), with != NULL ? ", with " : "", with != NULL ? address_words(with, pc) : "");
    on->lacks = NULL;
    memset(on->told, 0, sizeof on->told);
}

/* Whether a reason was told within a minute: the addresses of a name may fail by turns, each in its own way. */
static bool was_told_lately(const network *on, const char *lacks, int fault)
{
    for (size_t k = 0; k < DOWN_LINES; k++)
        if (on->told[k].lacks == lacks && on->told[k].fault == fault && clock_now() - on->told[k].when < MINUTE)
            return true;
    return false;
}

/* Tells what a network lacks. Returns false where that was told. */
static bool tell_down(network *on)
{
    char link[LINK_ROOM];
    int fault;
    const char *lacks = link_lacks(on, &fault);
    if (lacks == NULL || (on->lacks != NULL && strcmp(on->lacks, lacks) == 0 && on->fault == fault) || was_told_lately(on, lacks, fault))
        return false;
    on->told[on->told_next++ % DOWN_LINES] = (down_line){lacks, fault, clock_now()};
    on->lacks = lacks;
    on->fault = errno = fault;
    event("%snetwork %08" PRIX32 " is down: %s: %s%s%s", part_of(on), on->set->network, cable_words(on->cable, on->set, link), lacks,
          fault != 0 ? ": " : "", fault != 0 ? fault_words() : "");
    return true;
}

/* The router's port is up as long as one of its links is. Returns false where the router has no memory for it. */
static bool port_follows(gateway *it, const network *on, bool is_up)
{
    port *router_port = port_of(it, on);
    for (const network *other = first_of(it, router_port); other < first_of(it, router_port) + router_port->count; other++)
        is_up = is_up || (other != on && other->is_up);
    if (router_port->is_up == is_up)
        return true;
    if ((is_up ? ipxr_port_up(&it->router, on->set->port) : ipxr_port_down(&it->router, on->set->port)) < 0)
        return false;
    router_port->is_up = is_up;
    if (is_up)
        statics_say(it, first_of(it, router_port));
    return true;
}

static void look_at(gateway *it, network *on, bool is_up)
{
    if (!on->is_up && !is_up)
        (void)port_follows(it, on, false); /* (the router may have had no memory for it before) */
    if (on->is_up == is_up || (is_up && has_new_address(on)))
        return; /* (a card that isn't known yet comes up with its own address, gateway_renew) */
    if (!port_follows(it, on, is_up))
        return; /* (no memory: it is tried again with the next look) */
    on->is_up = is_up;
    kinds_forget_all(&on->kinds);
    segment_change(on);
    if (is_up)
        loop_ask(it, on);
    if (is_up)
        tell_up(on);
    else
        tell_down(on);
    events_link(on);
}

static void look(gateway *it, cable *carrier)
{
    bool is_up = cable_is_up(carrier), was_lost = cable_was_lost(carrier);
    first_on(it, carrier)->counts.refused += cable_refused(carrier);
    for (size_t k = 0; k < it->count; k++) {
        network *on = &it->networks[k];
        if (on->cable != carrier)
            continue;
        if (was_lost)
            look_at(it, on, false);
        look_at(it, on, is_up && !loop_is_shut(&on->loop));
        if (!on->is_up && tell_down(on))
            events_link(on);
    }
}

void links_look(gateway *it, cable *carrier)
{
    look(it, carrier);
    gateway_send_all(it);
}

/* (what the router has to say is sent once it is known where nobody hears it) */
void links_look_at_all(gateway *it)
{
    for (size_t k = 0; k < it->cable_count; k++)
        look(it, &it->cables[k]);
    gateway_send_all(it);
}
