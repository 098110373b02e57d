/* DOSBox' tunnel: a datagram is an IPX packet, and the gateway is its server. Who is a client, and who gets what, the library says. */
#ifndef TUNNEL_H
#define TUNNEL_H

#include "gateway.h"

/* Makes the tunnel of a network. Returns 0, or the library's fault. */
int32_t tunnel_open(const gateway *it, network *on);
void tunnel_close(network *on);

/* Makes only who is a client, as the library has it, by the network's line. */
int32_t tunnel_make(const network *on, ipxr_keyed *made);

/* A datagram came on a network of the tunnel. Its bytes stay where they are until gateway_flush. */
void tunnel_hear(gateway *it, network *on, uint8_t *bytes, size_t length, const address *from);

/* A second passed: who doesn't answer leaves, who is silent is asked, and who registered lately is answered again, and then pinged. */
void tunnel_second(network *on);

/* Pings clients whose pings wait for room on a narrow line, and those again that haven't answered, as far as it is time. */
void tunnel_ping(const gateway *it, network *on);

/* Sends a packet of the router's to the client that has a node, or to all. Its bytes stay where they are until gateway_flush. */
void tunnel_send(network *on, const origin *by, const uint8_t *node, const uint8_t *packet, size_t length);

/* ---- For those who change a tunnel ---- */

/* Whether a network lets somebody in who sends from that address; and who he is for the library. */
bool tunnel_lets_in(const network_setting *set, const address *from);
ipxr_keyed_sender tunnel_sender(const gateway *it, network *on, const address *from);

/* Whether so many datagrams for a registration may go to a stranger now, or soon; they are counted then. */
bool tunnel_lets_newcomer(network *on, const uint8_t place[6], uint32_t count);

/* Puts a client into the list of clients. */
void tunnel_list(network *on, const uint8_t place[6], const uint8_t node[6]);

/* Notes of a client whether its registration is remembered, with how many seconds. */
void tunnel_note_registration(const gateway *it, network *on, member *client);

/* Whether what goes to strangers of a network is limited by a narrow line. */
bool tunnel_strangers_are_by_line(const network *on);

/* Sends a datagram of the gateway's own, which is counted. */
void tunnel_send_counted(network *on, const ipxr_own *own, bool is_client);

/* Somebody who registered lately is answered again, or pinged: he was let in for that, so by a narrow line it waits until there is room. */
void tunnel_send_again(network *on, const ipxr_own *own);

/* Lists the client that came last, and tells of it. */
void tunnel_tell_comes(const gateway *it, network *on);

/* Tells of an address that isn't allowed: it may be a friend's new one. */
void tunnel_tell_refused(network *on, const address *from);

/* Tells that a client leaves, and takes it from the list. */
void tunnel_tell_leaves(network *on, const uint8_t place[6], const uint8_t node[6]);

/* ---- Reports (clients.c) ---- */

/* A client as the gateway tells of it. */
typedef struct known_client {
    uint8_t place[6];
    uint8_t node[6];
    address at;
    bool is_trusted;
    int heard;        /* seconds since it answered, or, where it is trusted, said anything */
    uint64_t refused; /* datagrams for it that the system didn't take */
    uint64_t dropped[DROPS];
} known_client;

/* The client with exactly `index` others before it. Returns false where there is none. */
bool tunnel_client(network *on, size_t index, known_client *client);

/* In a second of the tunnels, how many ago a client answered, also before a reload. */
int tunnel_silence(network *on, uint64_t second, const known_client *client);

/* Says a line for each client, in that second. */
void tunnel_show(network *on, uint64_t second);

#endif
