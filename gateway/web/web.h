/* A link by WebSocket: pages and programs that are connected at the path of its network. In the tunnel a message is a packet, and a page's place
 * is where its connection comes from; with frames a message is a frame, and the pages are stations of one cable. Links at one address share a
 * listener (site.h). There is one gateway in a program. */
#ifndef WEB_H
#define WEB_H

#include <stdbool.h>
#include <stddef.h>
#include <stdint.h>

#include "configuration/settings.h"
#include "links/among.h"
#include "systems/datagram.h"
#include "web/page.h"

enum {
    MOST_OF_LINK = MOST_NUMBER, /* pages of a link: each has a number of its own among those who speak, */
    MOST_FRAMES = 16,           /* frames of a page that are heard at a time, so that each has its turn */
};

struct site;

typedef struct web {
    const network_setting *set; /* NULL where there is none */
    struct site *at;
    page *pages[MOST_OF_LINK];
    size_t count;
    size_t turn;      /* whose turn it is to be heard, */
    size_t last;      /* and who was found last */
    bool has_gone;    /* somebody went since one looked */
    uint64_t refused; /* how many found no place since one looked, */
    uint64_t late;    /* and frames among pages, or of pages, for which somebody had no room: too many came, */
    uint64_t unsent;  /* or he doesn't read */
    among among;      /* what its pages say, where they have frames */
} web;

/* A link at an address, which is told the port that it took. Returns NULL where it can't be there; errno has the reason. */
web *web_open(const network_setting *set, address *local);
void web_close(web *it);

/* The same link by another configuration. */
void web_follow(web *it, const network_setting *set);

/* Whether there is something that wasn't heard; and the next messages, of pages by turns. Returns false where there are none now. (all that came may
 * have been for other pages: then there are some, of which the gateway hears none) */
bool web_has_more(const web *it);
bool web_receive(web *it, arrivals *in);

/* A packet goes to a place; a frame goes to all stations that it is for. Returns whether it is on its way. */
bool web_send_to(web *it, const departure *what);
bool web_send(web *it, const uint8_t *frame, size_t length);

/* Whether somebody is connected who comes from there. And that he is a client now: nobody else may have his place. */
bool web_has(web *it, const address *from);
void web_admits(web *it, const address *from);

/* The link at a listener that has a network, in the tunnel or with frames; or NULL. */
web *web_at(const struct site *at, bool is_tunnel, uint32_t network);

/* Whether somebody may come now: where there is no room, another who does nothing there gives way, if there is one. And he comes; false where there
 * is no memory. */
bool web_lets_join(web *it, const page *who);
bool web_join(web *it, page *who);

/* A page has gone. */
void web_leave(web *it, page *who);

#endif
