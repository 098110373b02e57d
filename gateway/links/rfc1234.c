#include "links/rfc1234.h"

#include <stdlib.h>
#include <string.h>

#include "ipx.h"
#include "links/node.h"
#include "systems/clock.h"
#include "systems/sockets.h"

/* Milliseconds of silence, after which a name is asked for again, and from which on somebody may not be there. */
enum { SILENT = 90000, MAY_BE_GONE = 10000 };

/* Bytes of the longest packet that a frame carries. */
enum { MOST_FRAMED = IPXR_LONGEST_FRAME - 2 * NODE - 2 };

/* ---- Peers ---- */

static far_end far_end_of_peer(rfc1234 *it, const rfc1234_peer *who)
{
    return (far_end){who->host, who->at, ADDRESS_OF_IPV4, &it->asking};
}

static void begin(rfc1234 *it, rfc1234_peer *who, const peer_setting *line)
{
    *who = (rfc1234_peer){.at = line->at};
    strcpy(who->host, line->host);
    far_end of = far_end_of_peer(it, who);
    remote_begin(&who->remote, &of);
}

/* Whom a line names, who is a peer already: of so many, of whom he is taken away. Returns whether he is. */
static bool takes_old(rfc1234_peer *it, rfc1234_peer *list, size_t *count, const peer_setting *line)
{
    size_t k = 0;
    while (k < *count && (strcmp(list[k].host, line->host) != 0 || !same_address(&list[k].at, &line->at)))
        k++;
    if (k == *count)
        return false;
    *it = list[k];
    list[k] = list[--*count];
    return true;
}

void rfc1234_follow(rfc1234 *it, const network_setting *set)
{
    rfc1234_peer before[MOST_PEERS];
    size_t count = it->count;
    memcpy(before, it->peers, sizeof before);
    it->set = set;
    for (it->count = 0; it->count < set->peer_count; it->count++)
        if (!takes_old(&it->peers[it->count], before, &count, &set->peers[it->count]))
            begin(it, &it->peers[it->count], &set->peers[it->count]);
    while (count > 0)
        remote_end(&before[--count].remote);
}

rfc1234 *rfc1234_open(const network_setting *set)
{
    rfc1234 *it = calloc(1, sizeof *it);
    if (it != NULL)
        rfc1234_follow(it, set);
    return it;
}

void rfc1234_close(rfc1234 *it)
{
    while (it->count > 0)
        remote_end(&it->peers[--it->count].remote);
    free(it);
}

void rfc1234_look(rfc1234 *it)
{
    it->turn++;
    for (size_t k = 0; k < it->count; k++) {
        rfc1234_peer *who = &it->peers[(it->turn + k) % it->count];
        far_end of = far_end_of_peer(it, who);
        (void)remote_look(&who->remote, &of, clock_now() - who->heard >= SILENT);
    }
}

/* ---- What comes ---- */

/* Who is at an address with its port, or NULL. */
static rfc1234_peer *peer_at(rfc1234 *it, const address *at)
{
    for (rfc1234_peer *who = it->peers; who < it->peers + it->count; who++)
        if (who->remote.is_known && same_address(&who->remote.at, at))
            return who;
    return NULL;
}

/* Whether a packet says that it is from this network, and names another node there than the one of the machine from which it came. (a packet that
 * a peer hands on from another network keeps its source) */
static bool is_forged(const rfc1234 *it, const uint8_t *packet, const uint8_t node[NODE])
{
    uint32_t network = get32(packet + AT_FROM_NETWORK);
    return (network == 0 || network == EVERY_NETWORK || network == it->set->network) && !same_node(packet + AT_FROM_NODE, node);
}

/* Makes a frame of a datagram: from the node of the machine from which it came, to all or to the gateway, whoever the packet is for in the end.
 * What stands behind the packet is left out. Returns false where it isn't one. */
static bool is_framed(rfc1234 *it, arrival *in, const uint8_t from[NODE])
{
    static const uint8_t ALL[NODE] = {0xFF, 0xFF, 0xFF, 0xFF, 0xFF, 0xFF};
    uint8_t frame[IPXR_LONGEST_FRAME], own[NODE];
    node_of_address(it->set->local.host, own);
    const uint8_t *to = is_broadcast(in->bytes + AT_TO_NODE) ? ALL : own;
    size_t length = ipxr_frame_write(it->set->kind, to, from, in->bytes, get16(in->bytes + AT_LENGTH), frame, sizeof frame);
    memcpy(in->bytes, frame, length);
    in->length = length;
    return length > 0;
}

/* Takes a datagram, as a frame. Returns why it isn't heard, or REASONS where it is. */
static reason takes(rfc1234 *it, arrival *in)
{
    uint8_t node[NODE];
    rfc1234_peer *by = peer_at(it, &in->from);
    if (by == NULL)
        return STRANGER;
    by->heard = clock_now();
    if (!has_length(in->bytes, in->length < MOST_RECEIVED ? in->length : MOST_RECEIVED))
        return in->length > MOST_RECEIVED ? TOO_LONG : NO_IPX;
    if (get16(in->bytes + AT_LENGTH) > MOST_FRAMED)
        return TOO_LONG;
    node_of_address(in->from.host, node);
    if (is_forged(it, in->bytes, node))
        return FALSE_SOURCE;
    return is_framed(it, in, node) ? REASONS : NO_IPX;
}

void rfc1234_receive(rfc1234 *it, arrivals *in)
{
    size_t kept = 0;
    it->lost_count = 0;
    for (size_t k = 0; k < in->count; k++) {
        reason why = takes(it, &in->list[k]);
        if (why != REASONS)
            it->lost[it->lost_count++] = why;
        else if (kept++ < k)
            in->list[kept - 1] = in->list[k];
    }
    in->count = kept;
}

/* ---- What goes ---- */

static bool has_node(const rfc1234_peer *who, const uint8_t *node)
{
    uint8_t own[NODE];
    node_of_address(who->remote.at.host, own);
    return same_node(node, own);
}

/* Sends a packet to some at once. Returns whether it is on its way to any. (one for whom the system refuses it keeps it from nobody else) */
static bool goes_to_all(int fd, const departure *list, size_t count)
{
    bool is_sent = false;
    for (size_t next = 0; next < count;) {
        size_t sent = datagrams_send(fd, list + next, count - next);
        is_sent = is_sent || sent > 0;
        next += sent > 0 ? sent : 1;
    }
    return is_sent;
}

bool rfc1234_send(rfc1234 *it, int fd, const uint8_t *frame, size_t length)
{
    size_t front, count = 0;
    bool is_sent = false;
    departure there[MOST_PEERS];
    if (ipxr_frame_read(frame, length, &front) == IPXR_NO_FRAME || !has_length(frame + front, length - front))
        return false;
    const uint8_t *packet = frame + front;
    for (const rfc1234_peer *who = it->peers; who < it->peers + it->count; who++) {
        departure what = {.to = who->remote.at, .length = get16(packet + AT_LENGTH), .bytes = packet};
        if (!who->remote.is_known || !(is_broadcast(frame) || has_node(who, frame)))
            continue;
        if (clock_now() - who->heard >= MAY_BE_GONE)
            is_sent = datagram_send_to(fd, &what) || is_sent;
        else
            there[count++] = what;
    }
    return goes_to_all(fd, there, count) || is_sent;
}
