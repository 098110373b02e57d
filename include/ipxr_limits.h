/* ipxr_limits.h: what a gateway lets pass where many send more than somebody can read, for C and for whatever can call C. It belongs
 * to ipxr.h and is in the same library.
 *
 * A packet passes several limits before it is heard: a client pings, asks the router and tells it only so much; it reads only so
 * fast, and so do all clients of one address together. A call that decides is given limits and what is used of them. It returns
 * IPXR_PASSES, or why the packet is dropped. What passes is counted by all limits that it has to pass; what one of them drops is
 * counted by none. What each call does is proved from its code; docs/LIMITS.md has the numbers of the limits, and what follows.
 *
 *     ipxr_limits limits;
 *     ipxr_reader client = {0};
 *     uint64_t clock = now;
 *     if (!ipxr_limits_make(&limits, IPXR_LIMITS_TUNNEL, 800, 50, 300, 100)) ...;   -- there are none
 *     ipxr_fair_make(&client.packets, &limits.received.packets);
 *     ipxr_fair_make(&client.pieces, &limits.received.pieces);
 *     ...
 *     ipxr_reader_look(&client, &clock, now);        -- once for all packets that came together
 *     if (ipxr_limits_receives(&limits, &client, queue, length) == IPXR_PASSES) ...;   -- send it
 *
 * WHICH CALLS. First ask whether a packet goes on at all, by the limits of the network where it comes from: ipxr_limits_says, or
 * ipxr_limits_frames_say if it came in a frame. Then ask for each who may get it: a client (ipxr_limits_receives, or
 * ipxr_household_receives if its address has limits) and a link with frames (ipxr_limits_carries, of a client's packet), by the limits
 * of their own network; the router (ipxr_limits_hands, ipxr_limits_frames_hand), by those of the network where the packet comes from.
 * What the router says to a client: ipxr_limits_router_answers if it answers a question, then ipxr_limits_hears_router, or
 * ipxr_household_receives_of_router.
 *
 * A NARROW LINE (ipxr_line_..) is shared by all clients that it reaches. Ask ipxr_line_room before the client, and ipxr_line_send if the
 * copy goes out.
 *
 * QUEUES. Whoever speaks to a client has a queue there, one of IPXR_SPEAKERS, and the same one at the client's address. Its number is
 * yours, or one that ipxr_queues_take gives. Those who have one together share its part.
 *
 * ALL NUMBERS OF LIMITS ARE NANOSECONDS, as in ipxr_fair.h.
 *
 * WHAT C HAS TO PROMISE is what ipxr_fair.h says, of the values here too. They are your own, with nothing to free. What is used begins
 * with all bytes 0, and its receivers are changed by these calls and those of ipxr_fair.h alone; a limit may be any number, of a call's
 * making or yours. Everything else is answered: any setting, any number for a link, a kind or a queue, any bytes, any time. No call takes
 * memory. */
#ifndef IPXR_LIMITS_H
#define IPXR_LIMITS_H

#include "ipxr_fair.h"

#ifdef __cplusplus
extern "C" {
#endif

/* ---- What a network's link is. These numbers have no words. ---- */

#define IPXR_LIMITS_TUNNEL 0 /* a tunnel, whose clients are computers with one program each */
#define IPXR_LIMITS_FRAMES 1 /* a link with frames, on which there may be many computers and routers; any other number means this, too */

/* ---- What a packet is, as far as limits differ. These numbers have no words. ---- */

#define IPXR_KIND_OTHER 0    /* anything else; any other number means this, too */
#define IPXR_KIND_PING 1     /* a ping to all: each client answers it */
#define IPXR_KIND_ANSWER 2   /* the answer to a ping, or a ping to one node */
#define IPXR_KIND_QUESTION 3 /* a request of RIP or a query of SAP, which routers answer at length */
#define IPXR_KIND_TOLD 4     /* what else goes to the sockets of RIP and SAP: what routers tell each other */

/* ---- What becomes of a packet. These numbers have no words. ---- */

#define IPXR_PASSES 0                  /* it goes on */
#define IPXR_TOO_MANY_PINGS 1          /* the client, or all of its network together, ping too much */
#define IPXR_TOO_MANY_QUESTIONS 2      /* the client, its address, or the link with frames asks the router too much */
#define IPXR_TOO_MANY_ADVERTISEMENTS 3 /* the address, the link with frames, or all such links together tell the router too much */
#define IPXR_TOO_MUCH_FOR_ROUTER 4     /* the address hands the router too much */
#define IPXR_TOO_MUCH_FOR_CLIENT 5     /* the client has no room for it */
#define IPXR_TOO_MUCH_FOR_ADDRESS 6    /* the client's address has none */
#define IPXR_TOO_MUCH_FOR_LINK 7       /* the link with frames has none */
#define IPXR_TOO_MANY_ANSWERS 8        /* the gateway, or the router, answered the client or its address too often */
#define IPXR_TOO_MUCH_FOR_STRANGERS 9  /* the place without a client, or all such places together, were sent too much */

/* ---- Limits ---- */

/* So much in so much time. */
typedef struct ipxr_limit {
    uint64_t each;  /* nanoseconds for each */
    uint64_t burst; /* nanoseconds for what comes at once */
} ipxr_limit;

/* How fast somebody reads. Packets are read one after the other, however long they are; and there is so much memory for those that
 * aren't read yet. A packet takes 22 pieces of it, one of more than 110 bytes 37, and one of more than 600 bytes 89. */
typedef struct ipxr_reading {
    uint64_t packet;           /* nanoseconds for a packet, */
    uint64_t piece;            /* and for each of its pieces */
    ipxr_fair_setting packets; /* the settings of the reader's receivers: how many packets may wait, */
    ipxr_fair_setting pieces;  /* and how many pieces */
} ipxr_reading;

/* The limits of a network. */
typedef struct ipxr_limits {
    ipxr_reading received;     /* by a client of all who speak to it, or by a link with frames of clients */
    ipxr_limit handed;         /* to the router by an address */
    uint64_t handed_answers;   /* of which no more than this may be used with an answer to a ping */
    ipxr_limit pings;          /* of a client to all others, */
    ipxr_limit all_pings;      /* and of all clients */
    ipxr_limit questions;      /* of a client, or of a link with frames, to the router */
    ipxr_limit advertisements; /* what else an address, or a link with frames, says to the router as routers do */
    ipxr_limit answers;        /* of the gateway to a client */
    ipxr_limit pages;          /* packets of the router's answers to what a client asks */
} ipxr_limits;

/* What all clients of an address receive. */
typedef struct ipxr_household_limits {
    ipxr_fair_setting received; /* of other addresses, each of which has a queue: the setting of a receiver */
    uint64_t packet;            /* nanoseconds for a packet, of others or of their own, */
    uint64_t among;             /* and for what they may say to each other at once */
} ipxr_household_limits;

/* What goes to places that have no client: somebody may have forged them. */
typedef struct ipxr_strangers_limits {
    ipxr_limit all; /* to all, */
    ipxr_limit one; /* and to one address */
} ipxr_strangers_limits;

/* ---- What is used of them ---- */

/* What waits for somebody who reads packets. With all bytes 0 he hears nothing: make both receivers by ipxr_fair_make, of the settings of
 * ipxr_reading, and make them again if these change. */
typedef struct ipxr_reader {
    ipxr_fair packets;
    ipxr_fair pieces;
} ipxr_reader;

/* What a client uses. */
typedef struct ipxr_client_use {
    ipxr_meter pinged;   /* its pings to all others */
    ipxr_meter asked;    /* its questions to the router */
    ipxr_meter answered; /* answers of the gateway to it */
    ipxr_meter paged;    /* packets of the router's answers to it */
} ipxr_client_use;

/* What all clients of an address use. */
typedef struct ipxr_address_use {
    ipxr_meter asked;    /* their questions to the router */
    ipxr_meter answered; /* answers of the gateway to them */
    ipxr_meter paged;    /* packets of the router's answers to them */
} ipxr_address_use;

/* Who has which queue. With all bytes 0 nobody has one. */
typedef struct ipxr_queues {
    uint32_t users[256]; /* how many have each */
    uint8_t last;        /* the one that was given last */
} ipxr_queues;

/* ---- A narrow line ---- */

/* A line by which clients are reached, and which is narrow. With all bytes 0 it carries one kilobit a second, and nobody is on it. Moments are
 * nanoseconds of your clock. */
typedef struct ipxr_line {
    uint32_t kilobits;     /* a second, where 0 is 1. Set it when you like */
    uint32_t addresses;    /* how many have clients there, */
    uint32_t speakers;     /* and how many speak to these, with clients there or elsewhere */
    uint64_t used;         /* the moment until which the line is busy, */
    uint64_t own;          /* until which the part of your own datagrams is used, */
    uint64_t to_strangers; /* and until which that of datagrams to those who are no clients is */
    ipxr_queues numbers;   /* who has which number */
} ipxr_line;

/* An address that has clients there, or speaks to such. With all bytes 0 it has none, and never spoke. */
typedef struct ipxr_line_address {
    uint32_t clients;    /* that it has there */
    uint8_t number;      /* that it has while it speaks, or 0, */
    uint8_t quiet;       /* and seconds since it did */
    uint64_t received;   /* the moment until which its part of the line is used, */
    uint64_t within[64]; /* until which the parts of that are, of each who speaks to it, by his number, */
    uint64_t spoken[64]; /* and until which is used what each may say to it beyond that */
} ipxr_line_address;

/* Which copies come first, the last of all. These numbers have no words. */
#define IPXR_LINE_FULL 0       /* there is no room */
#define IPXR_LINE_BEYOND 1     /* beyond all parts; any other number means this, too */
#define IPXR_LINE_OF_ADDRESS 2 /* within the part of the address */
#define IPXR_LINE_OF_SPEAKER 3 /* within what the speaker may say to the address at once */
#define IPXR_LINE_LITTLE 4     /* the speaker says little to all together */
#define IPXR_LINE_WITHIN 5     /* within the part that the speaker has of the address' part */

/* ---- Making ---- */

/* Makes the limits of a network whose link is of that kind. A client there receives `rate` packets a second and two shares more; a `share`
 * is what somebody who says little says in a second. Of each at most 1,000,000 count. `routes` and `services` are the network's shares of
 * the router's tables, as in ipxr_port. Returns whether there are limits: not if the rate is 0, and then they stay as they were. */
IPXR_CALL ipxr_flag ipxr_limits_make(ipxr_limits *limits, uint8_t link, uint32_t rate, uint32_t share, uint16_t routes, uint16_t services);

/* The same of what all clients of an address receive, so many packets a second. */
IPXR_CALL ipxr_flag ipxr_household_make(ipxr_household_limits *limits, uint32_t rate);

/* The same of what goes to places without a client, so many datagrams a second. */
IPXR_CALL ipxr_flag ipxr_strangers_make(ipxr_strangers_limits *limits, uint32_t rate);

/* Makes the receiver of what all links with frames tell the router, where none has told anything yet. Each link has a queue there. */
IPXR_CALL void ipxr_told_make(ipxr_fair *links);

/* ---- Time ---- */

/* The time passes that your clock shows beyond what it showed at the last look, which `clock` has; none if it went back. `clock` is `now`
 * then, so each value needs one of its own. For what an address receives, and for `links`, there is ipxr_fair_look, for a single meter
 * ipxr_meter_pass. */
IPXR_CALL void ipxr_reader_look(ipxr_reader *reader, uint64_t *clock, uint64_t now);
IPXR_CALL void ipxr_client_look(ipxr_client_use *client, uint64_t *clock, uint64_t now);
IPXR_CALL void ipxr_address_look(ipxr_address_use *address, uint64_t *clock, uint64_t now);

/* ---- What is said ---- */

/* What the packet in the bytes is: one of IPXR_KIND_.. Bytes that are no packet are IPXR_KIND_OTHER. */
IPXR_CALL uint8_t ipxr_kind_of(const uint8_t *packet, size_t length);

/* Whether a packet of that kind, which a client says, goes on. Only pings to all have limits: the client's own, and its network's, of which
 * `all` is used. The same of a packet that came in a frame, where nobody knows whose it is. */
IPXR_CALL uint8_t ipxr_limits_says(const ipxr_limits *limits, uint8_t kind, ipxr_client_use *client, ipxr_meter *all);
IPXR_CALL uint8_t ipxr_limits_frames_say(const ipxr_limits *limits, uint8_t kind, ipxr_meter *all);

/* Whether the gateway answers a client that registers or pings. `clients` is how many its address has: it is answered as often as all of
 * them may be, or four of them if there are more. */
IPXR_CALL uint8_t ipxr_limits_answers(const ipxr_limits *limits, uint32_t clients, ipxr_client_use *client, ipxr_address_use *address);

/* Whether a client gets a packet by which the router answers what it asked, or what somebody asked in its name. Its address has so many
 * clients, as before. */
IPXR_CALL uint8_t ipxr_limits_router_answers(const ipxr_limits *limits, uint32_t clients, ipxr_client_use *client,
                                             ipxr_address_use *address);

/* Whether the router hears a packet of that kind of a client, whose address has so many clients. Its address uses `handed` of what the
 * router hears of it, and `advertised` of what it may tell the router. */
IPXR_CALL uint8_t ipxr_limits_hands(const ipxr_limits *limits, uint32_t clients, uint8_t kind, ipxr_client_use *client,
                                    ipxr_address_use *address, ipxr_meter *handed, ipxr_meter *advertised);

/* Whether the router hears a packet of that kind of a link with frames, which uses `asked` of its questions and `advertised` of what it may
 * tell. What it tells counts for all such links, too: `link` is the number of its queue there. */
IPXR_CALL uint8_t ipxr_limits_frames_hand(const ipxr_limits *limits, uint8_t link, uint8_t kind, ipxr_meter *asked, ipxr_meter *advertised,
                                          ipxr_fair *links);

/* ---- What is received ---- */

/* Whether a client whose address has no limits receives a packet of so many bytes, of somebody who has that queue there. */
IPXR_CALL uint8_t ipxr_limits_receives(const ipxr_limits *limits, ipxr_reader *client, uint8_t queue, size_t bytes);

/* The same client receives a packet of the router, which has that queue there. It isn't dropped; the client counts it if it has room. */
IPXR_CALL void ipxr_limits_hears_router(const ipxr_limits *limits, ipxr_reader *client, uint8_t queue, size_t bytes);

/* Whether a link with frames gets a packet of so many bytes, of somebody who has that queue there, in so many frames: all of them or none. */
IPXR_CALL uint8_t ipxr_limits_carries(const ipxr_limits *limits, ipxr_reader *link, uint8_t queue, size_t bytes, uint32_t frames);

/* Whether a client receives a packet of another address, which has that queue there, and at the client's address. Both must have room. */
IPXR_CALL uint8_t ipxr_household_receives(const ipxr_household_limits *household, const ipxr_limits *limits, ipxr_reader *client,
                                          ipxr_fair *address, uint8_t queue, size_t bytes);

/* The same of a packet of its own address; `among` is used of what its clients say to each other. */
IPXR_CALL uint8_t ipxr_household_receives_of_own(const ipxr_household_limits *household, const ipxr_limits *limits, ipxr_reader *client,
                                                 ipxr_meter *among, uint8_t queue, size_t bytes);

/* The same of a packet of the router: only the limit of the address drops it; the client counts what passes if it has room. */
IPXR_CALL uint8_t ipxr_household_receives_of_router(const ipxr_household_limits *household, const ipxr_limits *limits, ipxr_reader *client,
                                                    ipxr_fair *address, uint8_t queue, size_t bytes);

/* ---- Who has which queue ---- */

/* Gives somebody who begins to speak a queue, of those from the first to the last, and returns its number: one that the fewest have, and of
 * several the first behind the one that was given last, round and round. So as long as fewer speak than there are queues, whoever begins
 * gets one that nobody has. If the last isn't behind the first, the first is given. */
IPXR_CALL uint8_t ipxr_queues_take(ipxr_queues *queues, uint8_t first, uint8_t last);

/* Somebody who shares his queue gets one of those from the first to the last that nobody has, if there is one: as when those have left for
 * whom there were none. Returns the number that he has then. */
IPXR_CALL uint8_t ipxr_queues_unshare(ipxr_queues *queues, uint8_t queue, uint8_t first, uint8_t last);

/* Somebody who has that queue speaks no more. A queue that nobody has stays so. */
IPXR_CALL void ipxr_queues_give_back(ipxr_queues *queues, uint8_t queue);

/* ---- Strangers ---- */

/* Whether so many datagrams go to a place without a client, all of them or none. `address` is used of what may go to its address, and `all`
 * of what may go to all such places. */
IPXR_CALL uint8_t ipxr_strangers_send(const ipxr_strangers_limits *limits, uint32_t count, ipxr_meter *address, ipxr_meter *all);

/* ---- A narrow line ---- */

/* An address has one more client there, or one fewer. */
IPXR_CALL void ipxr_line_join(ipxr_line *line, ipxr_line_address *address);
IPXR_CALL void ipxr_line_leave(ipxr_line *line, ipxr_line_address *address);

/* An address speaks, with clients there or elsewhere. Returns the number that it has then, one from 1 to 63. It has it until a second finds it
 * silent for ten; or until it is silenced, since it is gone. If more speak than there are numbers, some share one; in a second after which there is one for
 * them, they have their own again. */
IPXR_CALL uint8_t ipxr_line_speak(ipxr_line *line, ipxr_line_address *address);
IPXR_CALL void ipxr_line_second(ipxr_line *line, ipxr_line_address *address);
IPXR_CALL void ipxr_line_silence(ipxr_line *line, ipxr_line_address *address);

/* Whether there is room for a copy of a packet of so many bytes to an address: its rank, or IPXR_LINE_FULL. The speaker has that number, or 0
 * if it has no part; `said` is the moment until which his part of what he says to all is used, 0 at first.
 * Nothing is used yet but that debts of the parts are held to what is owed now. What an address says to its only client there is never
 * IPXR_LINE_WITHIN. */
IPXR_CALL uint8_t ipxr_line_room(const ipxr_line *line, uint64_t now, uint8_t number, size_t bytes, uint64_t *said, ipxr_line_address *to);

/* It goes out with that rank. */
IPXR_CALL void ipxr_line_send(ipxr_line *line, uint64_t now, uint8_t number, size_t bytes, uint8_t rank, uint64_t *said,
                              ipxr_line_address *to);

/* Whether there is room for a copy beyond all parts, which goes out as IPXR_LINE_BEYOND: for what clients answer to pings, so that nobody fills
 * the line with that. */
IPXR_CALL ipxr_flag ipxr_line_lets_beyond(const ipxr_line *line, uint64_t now);

/* Whether an answer of your own goes out to a client; and it does. `address` is the moment until which the part is used which his address has
 * of all such answers, 0 at first. */
IPXR_CALL ipxr_flag ipxr_line_lets_answer(const ipxr_line *line, uint64_t now, uint64_t *address);
IPXR_CALL void ipxr_line_send_answer(ipxr_line *line, uint64_t now, size_t bytes, uint64_t *address);

/* A ping goes out, for which there is always room: by it clients stay. */
IPXR_CALL void ipxr_line_send_ping(ipxr_line *line, uint64_t now, size_t bytes);

/* The same of what you say to one who is no client, and of the part which his address has of that. */
IPXR_CALL ipxr_flag ipxr_line_lets_stranger(ipxr_line *line, uint64_t now, uint64_t *address);
IPXR_CALL void ipxr_line_send_to_stranger(ipxr_line *line, uint64_t now, size_t bytes, uint64_t *address);

/* Makes limits of what goes to all who are no clients by a line of that width, on all networks, for ipxr_strangers_send: count four datagrams
 * when somebody registers. Those that follow, up to nine seconds later, are counted so; let each wait until the line has room. */
IPXR_CALL void ipxr_line_strangers(const ipxr_line *line, ipxr_strangers_limits *limits);

/* Writes into `between` how many nanoseconds should pass from a ping of so many bytes to the next, so that those of many clients keep
 * to the part of your own datagrams. */
IPXR_CALL void ipxr_line_between_pings(const ipxr_line *line, size_t bytes, uint64_t *between);

#ifdef __cplusplus
}
#endif

#endif
