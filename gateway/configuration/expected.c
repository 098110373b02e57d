/* What was expected where a line is wrong, as it is told. */
#include "configuration/reader.h"
#include "configuration/words.h"
#include "ipx.h"
#include "systems/card.h"

#define KIND_WORDS "raw, ethernet2, llc, snap or auto"

/* What is told of each fault in which nothing else is. */
static const char *const TOLD[] = {
    [IPXR_EXPECTED_LINE] = "expected network, link, extend, clients, allow, trust, rate, strangers, line, nodes, internal, adopt, permit, deny, route, service, origins or peer",
    [IPXR_EXPECTED_NETWORK] = "expected the number of a network in hexadecimal digits, 1 to FFFFFFFD",
    [IPXR_EXPECTED_COST] = "expected the cost in ticks, 1 to 65535",
    [IPXR_EXPECTED_ROUTES] = "expected the most routes, 0 to 65535",
    [IPXR_EXPECTED_SERVICES] = "expected the most services, 0 to 65535",
    [IPXR_EXPECTED_ADDRESS] = "expected a numeric address and a port, such as 127.0.0.1:5001, or a port alone",
    [IPXR_EXPECTED_ADDRESS_OF_FOUR] = "expected an address of IPv4: a client's node is its address and port, and has six bytes",
    [IPXR_EXPECTED_REMOTE] = "expected an address and a port, such as 127.0.0.1:5001 or b.example.net:5001",
    [IPXR_EXPECTED_REMOTE_OF_FOUR] = "expected an address of IPv4, like the one before it",
    [IPXR_EXPECTED_REMOTE_OF_SIX] = "expected an address of IPv6, like the one before it",
    [IPXR_EXPECTED_CONNECTION] = "expected listen or connect",
    [IPXR_EXPECTED_FRAMES] = "expected the kind of frames: " KIND_WORDS,
    [IPXR_EXPECTED_NODE_WORD] = "expected node, or nothing more",
    [IPXR_EXPECTED_NODE] = "expected a node, twelve digits, such as 02005E000001, whose first byte is even",
    [IPXR_EXPECTED_NOTHING] = "expected nothing more",
    [IPXR_EXPECTED_SOCKET] = "expected a socket in hexadecimal digits, 1 to FFFF",
    [IPXR_EXPECTED_RANGE] = "expected a numeric address and the bits that count, such as 192.168.1.0/24, or an address alone",
    [IPXR_EXPECTED_FEWER_WORDS] = "expected at most 32 words",
    [IPXR_EXPECTED_BY_ADDRESS] = "expected by-address",
    [IPXR_EXPECTED_NO] = "expected no",
    [IPXR_EXPECTED_RULE] = "expected type, socket, nearest, route or service",
    [IPXR_EXPECTED_PACKET_TYPE] = "expected a type of packets, 0 to 255",
    [IPXR_EXPECTED_NETWORKS] = "expected the number of a network, or the first and the last of several, such as 1000-1FFF",
    [IPXR_EXPECTED_WAY] = "expected in or out",
    [IPXR_EXPECTED_SERVICE_TYPE] = "expected a type of services in hexadecimal digits, 0 to FFFF, or * for every one",
    [IPXR_EXPECTED_SERVICE_NAMES] = "expected the name of a service, how names begin and *, or * for all of them",
    [IPXR_EXPECTED_DESTINATION] = "expected the number of a network in hexadecimal digits, 1 to FFFFFFFE",
    [IPXR_EXPECTED_HOPS] = "expected the routers on the way, 1 to 15",
    [IPXR_EXPECTED_TICKS] = "expected the ticks of the way, 1 to 65535",
    [IPXR_EXPECTED_VIA] = "expected via",
    [IPXR_EXPECTED_ONE_TYPE] = "expected the type of a service in hexadecimal digits, 1 to FFFE",
    [IPXR_EXPECTED_SERVICE_NAME] = "expected the name of a service, of at most 47 printable characters, without *",
    [IPXR_EXPECTED_GROUP] = "expected the address and port of a group, such as 230.0.0.1:1234",
    [IPXR_EXPECTED_VIA_OR_FRAMES] = "expected via and the address of a card, or the kind of frames: " KIND_WORDS,
    [IPXR_EXPECTED_CARD] = "expected the numeric address of a card of this machine, such as 192.168.1.2",
    [IPXR_EXPECTED_SWITCH] = "expected the path of a switch's folder or socket, of at most 90 bytes",
    [IPXR_EXPECTED_FRAMES_OR_NOTHING] = "expected nothing more, or the kind of frames: " KIND_WORDS,
    [IPXR_EXPECTED_ORIGIN] = "expected where pages come from, such as https://games.example, or * for all of them",
    [IPXR_EXPECTED_KEY_FILE] = "expected the path of the file with the key, of at most 253 bytes",
    [IPXR_EXPECTED_CARD_AND_PORT] = "expected the numeric address of a card of this machine and a port, such as 192.168.1.2:213",
    [IPXR_EXPECTED_SERVICE_ADDRESS] = "expected network, node and socket, such as A1.000000000001.451",
    [IPXR_EXPECTED_BELOW_NETWORK] = "expected below the line of a network",
    [IPXR_EXPECTED_BELOW_LINK] = "expected below the line of a link",
    [IPXR_EXPECTED_BELOW_TUNNEL] = "expected below the line of a network of dosbox, or of web without a kind of frames",
    [IPXR_EXPECTED_BELOW_TUNNEL_LINK] = "expected below the line of a link of dosbox, or of web without a kind of frames",
    [IPXR_EXPECTED_BELOW_WEB] = "expected below the line of a network or a link of web",
    [IPXR_EXPECTED_BELOW_PEERS] = "expected below the line of a network or a link of peers, or of rfc1234",
    [IPXR_EXPECTED_PEER_OF_FOUR] = "expected an address of IPv4, like the gateway's own on this link",
    [IPXR_EXPECTED_PEER_OF_SIX] = "expected an address of IPv6, like the gateway's own on this link",
    [IPXR_EXPECTED_OWN_LINE] = "expected on the line of a network, of which it is the only link",
    [IPXR_EXPECTED_BELOW_SEVERAL] = "expected below the line of a network that names no link itself",
    [IPXR_EXPECTED_OTHER_SOCKET] = "expected another socket: this one is there already",
};

#define LINK_WORDS "dosbox, web, peers, rfc1234, qemu-udp, udp, qemu-tcp"

/* The words of links that a system has, by its cards; and what of cards and switches it has. */
static const struct {
    const char *links, *cards;
} CHOICES[] = {
    [IPXR_CARDS_NONE] = {LINK_WORDS " or qemu-mcast", "this system has no TAPs, interfaces or switches of VDE"},
    [IPXR_CARDS_ALL] = {LINK_WORDS ", qemu-mcast, tap, interface or vde", "this system has TAPs, interfaces and switches of VDE"},
    [IPXR_CARDS_INTERFACES] = {LINK_WORDS ", qemu-mcast or interface", "this system has interfaces, but no TAPs and no switches of VDE"},
};

static const char *link_choices(void)
{
    return CHOICES[has_cards()].links;
}

/* Who receives what a rate limits: clients of DOSBox, or a link with frames. */
static const char *receiver_words(const reader *r)
{
    return r->wrong.is_below_tunnel ? "the packets that a client receives" : "the packets that the link receives from clients";
}

static bool fault_of_rate(reader *r, const char *word, const char *what)
{
    return reader_fault(r, word, "expected %s a second, 1 to %d, or none", what, MOST_RATE);
}

static bool fault_of_name(reader *r, const char *word, const char *what)
{
    return reader_fault(r, word, "expected the name of %s, of at most %d bytes, without %% / and :", what, NAME_ROOM - 1);
}

/* Tells what is wrong with a line by itself. Returns whether it is that. (a fault that was told is false) */
static bool tell_line(reader *r, const char *word)
{
    unsigned long first = r->said.numbers[0];
    switch (r->expected) {
    case IPXR_EXPECTED_LONGEST:
        return !reader_fault(r, word, "expected the bytes of the longest packet, %d to %d", SHORTEST_LONGEST, LONGEST);
    case IPXR_EXPECTED_LINK:
        return !reader_fault(r, word, "expected %s", link_choices());
    case IPXR_EXPECTED_LINK_OF_SYSTEM:
        return !reader_fault(r, word, "expected %s: %s", link_choices(), CHOICES[has_cards()].cards);
    case IPXR_EXPECTED_TAP:
        return !fault_of_name(r, word, "a TAP");
    case IPXR_EXPECTED_INTERFACE:
        return !fault_of_name(r, word, "an interface");
    case IPXR_EXPECTED_CLIENTS:
        return !reader_fault(r, word, "expected the most clients, 1 to %d", IPXR_MOST_CLIENTS);
    case IPXR_EXPECTED_OF_ADDRESS:
        return !reader_fault(r, word, "expected the most clients from one address, 1 to %lu", first);
    case IPXR_EXPECTED_RATE:
        return !fault_of_rate(r, word, receiver_words(r));
    case IPXR_EXPECTED_SHARE:
        return !reader_fault(r, word, "expected the share of a quiet sender in packets a second, 1 to %lu", first);
    case IPXR_EXPECTED_HOUSEHOLD:
        return !fault_of_rate(r, word, "the packets that all clients of an address receive");
    case IPXR_EXPECTED_STRANGERS:
        return !fault_of_rate(r, word, "the datagrams for strangers");
    case IPXR_EXPECTED_KILOBITS:
        return !reader_fault(r, word, "expected the kilobits a second of the line to the clients, 1 to %d", MOST_KILOBITS);
    case IPXR_EXPECTED_FIRST:
        return !reader_fault(r, word, "expected an address that is 0 behind its %d bits", r->said.bits);
    default:
        return false;
    }
}

/* The same of what is too much. */
static bool tell_too_much(reader *r, const char *word)
{
    switch (r->expected) {
    case IPXR_EXPECTED_FEWER_NETWORKS:
        return !reader_fault(r, word, "expected at most %d networks", IPXR_MOST_PORTS);
    case IPXR_EXPECTED_FEWER_LINKS:
        return !reader_fault(r, word, "expected at most %d links", MOST_LINKS);
    case IPXR_EXPECTED_FEWER_LINKS_OF_NETWORK:
        return !reader_fault(r, word, "expected at most %d links of a network", IPXR_MOST_LINKS);
    case IPXR_EXPECTED_FEWER_SOCKETS:
        return !reader_fault(r, word, "expected at most %d sockets", IPXR_ALL_SOCKETS);
    case IPXR_EXPECTED_FEWER_RANGES:
        return !reader_fault(r, word, "expected at most %d of them", IPXR_ALL_RANGES);
    case IPXR_EXPECTED_FEWER_RULES:
        return !reader_fault(r, word, "expected at most %d rules of a network", IPXR_ALL_RULES);
    case IPXR_EXPECTED_FEWER_ROUTES:
        return !reader_fault(r, word, "expected at most %d routes of a network", IPXR_ALL_STATIC_ROUTES);
    case IPXR_EXPECTED_FEWER_SERVICES:
        return !reader_fault(r, word, "expected at most %d services of a network", IPXR_ALL_STATIC_SERVICES);
    case IPXR_EXPECTED_FEWER_PEERS:
        return !reader_fault(r, word, "expected at most %d of them in a network", IPXR_ALL_PEERS);
    default:
        return false;
    }
}

/* The same of what another line says. */
static bool tell_other_line(reader *r, const char *word)
{
    size_t line = r->wrong.line;
    switch (r->expected) {
    case IPXR_EXPECTED_OTHER_NETWORK:
        return !reader_fault(r, word, "expected another network, this one is that of line %zu", line);
    case IPXR_EXPECTED_OTHER_SERVICE:
        return !reader_fault(r, word, "expected another name, line %zu says a service of this type that has it", line);
    case IPXR_EXPECTED_OTHER_PEER:
        return !reader_fault(r, word, "expected another place, line %zu has this one", line);
    case IPXR_EXPECTED_ONCE:
        return !reader_fault(r, word, "expected only once: line %zu has it", line);
    case IPXR_EXPECTED_SAME_KILOBITS:
        return !reader_fault(r, word, "expected %lu, as line %zu says: all networks share one", (unsigned long)r->wrong.numbers[0], line);
    default:
        return false;
    }
}

/* The address that a link would take: of a group that is the group's own. */
static address address_taken(const ipxr_setting_link *it)
{
    return address_said(it->carrier == IPXR_OVER_GROUP ? &it->remote : &it->local);
}

/* The same of what is wrong with a link whose words are right: that, and not the word, is shown. */
static bool tell_link(reader *r)
{
    char words[ADDRESS_ROOM], longest[12];
    const char *kind = kind_word(r->said.link.frames);
    address taken = address_taken(&r->said.link), remote = address_said(&r->said.link.remote);
    size_t line = r->wrong.line;
    switch (r->expected) {
    case IPXR_EXPECTED_OTHER_LINK:
        return !reader_fault(r, kind, "expected another link, line %zu has all kinds of frames there", line);
    case IPXR_EXPECTED_ONE_KIND:
        return !reader_fault(r, kind, "expected one kind of frames, line %zu has another there", line);
    case IPXR_EXPECTED_OTHER_KIND:
        return !reader_fault(r, kind, "expected another kind of frames, line %zu has these there", line);
    case IPXR_EXPECTED_OTHER_PORT:
        return !reader_fault(r, address_words(&taken, words), "expected another port, line %zu has this one", line);
    case IPXR_EXPECTED_ONE_PEERS:
        return !reader_fault(r, "peers", "expected another link, line %zu has that of the network's peers", line);
    case IPXR_EXPECTED_OTHER_MACHINE:
        return !reader_fault(r, address_words(&remote, words), "expected QEMU's address, this is the gateway's own");
    case IPXR_EXPECTED_LONGEST_OF_LINK:
        snprintf(longest, sizeof longest, "%lu", (unsigned long)r->wrong.numbers[0]);
        return !reader_fault(r, longest, "expected the bytes of the longest packet, %d to %lu on this link", SHORTEST_LONGEST,
                             (unsigned long)r->wrong.numbers[1]);
    default:
        return false;
    }
}

void reader_tell(reader *r)
{
    if (r->expected == 0 || tell_link(r))
        return;
    const char *word = reader_word(r, r->wrong.word);
    if (!tell_line(r, word) && !tell_too_much(r, word) && !tell_other_line(r, word))
        reader_fault(r, word, "%s", TOLD[r->expected]);
}

void reader_tell_unlinked(reader *r, size_t line)
{
    size_t here = r->line;
    if (line == 0)
        return;
    r->line = line;
    reader_fault(r, NULL, "expected %s, or lines below it that begin with link", link_choices());
    r->line = here;
}
