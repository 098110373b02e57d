/* Calls every export of the headers, and is made of these alone. Each argument and each field has a value of its own, and what each call
 * answers is read back: the first wrong answer is named, and the program ends with 1. dev/exports sees that it fails where two exports,
 * two arguments or two fields are exchanged. What is wanted was given here, or follows from the documents: docs/PACKETS.md,
 * docs/ROUTER.md, docs/TUNNEL.md, docs/SEGMENT.md, docs/RELOAD.md, docs/GATEWAY-REFERENCE.md, docs/FAIR.md, docs/LIMITS.md,
 * docs/CABLE.md, docs/FATES.md, docs/EDGE.md and docs/PEERS.md. */
#include <stdio.h>
#include <stdlib.h>
#include <string.h>

#include "ipxr_cable.h"
#include "ipxr_configuration.h"
#include "ipxr_edge.h"
#include "ipxr_fates.h"
#include "ipxr_limits.h"
#include "ipxr_peers.h"
#include "ipxr_plan.h"
#include "ipxr_segment.h"
#include "ipxr_settings.h"
#include "ipxr_keyed.h"
#include "ipxr_tunnel.h"

/* A call, and the number that it must return. */
#define ANSWERS(wanted, call) (is_number(#call, (long long)(call), wanted), called = #call)
/* A call that returns nothing: the next ones show what it did. */
#define CALLS(call) ((call), called = #call)
/* A number, or bytes in hexadecimal, that the last call must have written. */
#define WROTE(wanted, number) is_number(#number, (long long)(number), wanted)
#define WROTE_BYTES(wanted, bytes) are_bytes(#bytes, bytes, wanted)

enum { HEADER = 30, GAME_SOCKET = 0x4142 };

/* The broadcast node. */
#define EVERYONE {0xFF, 0xFF, 0xFF, 0xFF, 0xFF, 0xFF}

static const char *called = "nothing";
static uint8_t buffer[1024];

static void is_number(const char *what, long long number, long long wanted)
{
    if (number == wanted)
        return;
    printf("%s is %lld, not %lld, after %s\n", what, number, wanted, called);
    exit(1);
}

/* The text has two digits for each byte; blanks may stand between bytes. */
static void are_bytes(const char *what, const uint8_t *bytes, const char *wanted)
{
    char digits[3];
    for (size_t k = 0; *wanted; k++, wanted += 2) {
        wanted += strspn(wanted, " ");
        sprintf(digits, "%02X", bytes[k]);
        if (memcmp(digits, wanted, 2) == 0)
            continue;
        printf("%s has %s, not %.2s, at byte %u, after %s\n", what, digits, wanted, (unsigned)k, called);
        exit(1);
    }
}

/* ---- Words and version ---- */

static void words(void)
{
    char text[IPXR_MOST_WORD];
    ANSWERS(IPXR_VERSION, ipxr_version());
    ANSWERS(12, ipxr_word(IPXR_NO_ROUTE, buffer, 13));
    WROTE_BYTES("64726F70204E6F526F75746500", buffer);
    ANSWERS(7, ipxr_word(IPXR_STOPPED, buffer, 7));
    WROTE_BYTES("64726F70204E6F526F75746500", buffer);
    ANSWERS(9, ipxr_text(IPXR_FORWARDED, text, sizeof text));
    WROTE_BYTES("666F7277617264656400", (const uint8_t *)text);
}

/* ---- Packets and frames ---- */

static const ipxr_address FROM = {.network = 0xB1B2B3B4, .node = {0xB5, 0xB6, 0xB7, 0xB8, 0xB9, 0xBA}, .socket = 0xBBBC};
static const ipxr_address TO = {.network = 0xC1C2C3C4, .node = {0xC5, 0xC6, 0xC7, 0xC8, 0xC9, 0xCA}, .socket = 0xCBCC};
#define TO_AND_FROM "C1C2C3C4 C5C6C7C8C9CA CBCC B1B2B3B4 B5B6B7B8B9BA BBBC "

static const ipxr_route_entry ENTRIES[2] = {
    {.network = 0xD1D2D3D4, .hops = 0xD5D6, .ticks = 0xD7D8},
    {.network = 0xE1E2E3E4, .hops = 0xE5E6, .ticks = 0xE7E8},
};

static const ipxr_service_entry OFFERS[2] = {
    {.name = "FILES", .network = 0x01020304, .node = {5, 6, 7, 8, 9, 10}, .socket = 0x0B0C, .type = 0x0D0E, .hops = 0x0F10},
    {.name = "PRINT", .network = 0x11121314, .node = {21, 22, 23, 24, 25, 26}, .socket = 0x1B1C, .type = 0x1D1E, .hops = 0x1F20},
};
#define ZEROS_8 "0000000000000000"
#define BEHIND_A_NAME "000000 " ZEROS_8 ZEROS_8 ZEROS_8 ZEROS_8 ZEROS_8 " "

static const uint8_t DATA[20] = {0xF1, 0xF2, 0xF3, 0xF4};

static void packets(void)
{
    ANSWERS(48, ipxr_write_rip(&FROM, &TO, IPXR_RIP_RESPONSE, ENTRIES, 2, buffer, 49));
    WROTE_BYTES("FFFF 0030 00 01 " TO_AND_FROM "0002 D1D2D3D4 D5D6 D7D8 E1E2E3E4 E5E6 E7E8", buffer);
    ANSWERS(34, ipxr_write_query(&FROM, &TO, 1, 0x0304, buffer, 35));
    WROTE_BYTES("FFFF 0022 00 04 " TO_AND_FROM "0003 0304", buffer);
    ANSWERS(160, ipxr_write_sap(&FROM, &TO, 0, OFFERS, 2, buffer, 161));
    WROTE_BYTES("FFFF 00A0 00 04 " TO_AND_FROM "0002 "
                "0D0E 46494C4553 " BEHIND_A_NAME "01020304 05060708090A 0B0C 0F10 "
                "1D1E 5052494E54 " BEHIND_A_NAME "11121314 15161718191A 1B1C 1F20",
                buffer);
    ANSWERS(50, ipxr_write_packet(&FROM, &TO, 6, 3, DATA, sizeof DATA, buffer, 51));
    WROTE_BYTES("FFFF 0032 03 06 " TO_AND_FROM "F1F2F3F4", buffer);
}

/* Nothing is written without entries, nor where the buffer is a byte short. */
static void packets_refused(void)
{
    ANSWERS(IPXR_BAD_OPERATION, ipxr_write_rip(&FROM, &TO, 3, ENTRIES, 2, buffer, 48));
    ANSWERS(IPXR_SHORT_BUFFER, ipxr_write_rip(&FROM, &TO, IPXR_RIP_RESPONSE, ENTRIES, 2, buffer, 47));
    ANSWERS(IPXR_SHORT_BUFFER, ipxr_write_query(&FROM, &TO, 1, 0x0304, buffer, 33));
    ANSWERS(IPXR_NO_ENTRIES, ipxr_write_sap(&FROM, &TO, 1, OFFERS, 0, buffer, 160));
    ANSWERS(IPXR_SHORT_BUFFER, ipxr_write_sap(&FROM, &TO, 1, OFFERS, 2, buffer, 159));
    ANSWERS(IPXR_SHORT_BUFFER, ipxr_write_packet(&FROM, &TO, 6, 3, DATA, sizeof DATA, buffer, 49));
    WROTE_BYTES("FFFF 0032 03 06 " TO_AND_FROM "F1F2F3F4", buffer);
}

/* The packet that packets() wrote last, in a frame. */
static void frames(void)
{
    uint8_t frame[80];
    size_t front = 0;
    ANSWERS(67, ipxr_frame_write(IPXR_FRAME_LLC, TO.node, FROM.node, buffer, 50, frame, sizeof frame));
    WROTE_BYTES("C5C6C7C8C9CA B5B6B7B8B9BA 0035 E0E003 FFFF 0032 03 06 " TO_AND_FROM "F1F2F3F4", frame);
    ANSWERS(IPXR_FRAME_LLC, ipxr_frame_read(frame, 67, &front));
    WROTE(17, front);
    ANSWERS(IPXR_NO_FRAME, ipxr_frame_read(frame, 13, &front));
}

/* ---- A router ---- */

static const ipxr_port PORTS[2] = {
    {.network = 0x11121314, .node = {0x21, 0x22, 0x23, 0x24, 0x25, 0x26}, .cost = 5, .longest = 600, .routes = 1, .services = 9},
    {.network = 0x31323334, .node = {0x41, 0x42, 0x43, 0x44, 0x45, 0x46}, .cost = 7, .longest = 700, .routes = 3, .services = 2},
};

/* A neighbour on the second port's network, and what it advertises there: a route and a service more than are learned. */
static const ipxr_address NEIGHBOUR = {.network = 0x31323334, .node = {0x71, 0x72, 0x73, 0x74, 0x75, 0x76}, .socket = IPXR_RIP_SOCKET};
static const ipxr_address ALL_RIP = {.network = 0x31323334, .node = EVERYONE, .socket = IPXR_RIP_SOCKET};
static const ipxr_address ALL_SAP = {.network = 0x31323334, .node = EVERYONE, .socket = IPXR_SAP_SOCKET};
static const ipxr_route_entry ROUTES[4] = {
    {.network = 0x51, .hops = 4, .ticks = 0x0102},
    {.network = 0x52, .hops = 5, .ticks = 0x0103},
    {.network = 0x53, .hops = 6, .ticks = 0x0104},
    {.network = 0x54, .hops = 7, .ticks = 0x0105},
};
static const ipxr_service_entry SERVICES[3] = {
    {.name = "FILES A", .network = 0x51, .node = {0x91, 0x92, 0x93, 0x94, 0x95, 0x96}, .socket = 0xA1A2, .type = 4, .hops = 5},
    {.name = "FILES B", .network = 0x52, .node = {0x91, 0x92, 0x93, 0x94, 0x95, 0x97}, .socket = 0xA1A3, .type = 4, .hops = 6},
    {.name = "FILES C", .network = 0x53, .node = {0x91, 0x92, 0x93, 0x94, 0x95, 0x98}, .socket = 0xA1A4, .type = 4, .hops = 7},
};

/* Every call with a handle that has no router. */
static void without_router(ipxr *router)
{
    ipxr_packet_sent sent;
    ipxr_route_record route;
    ipxr_service_record service;
    ANSWERS(IPXR_NO_ROUTER, ipxr_start(router));
    ANSWERS(IPXR_NO_ROUTER, ipxr_stop(router));
    ANSWERS(IPXR_NO_ROUTER, ipxr_second(router));
    ANSWERS(IPXR_NO_ROUTER, ipxr_packet(router, 1, DATA, sizeof DATA));
    ANSWERS(IPXR_NO_ROUTER, ipxr_port_down(router, 1));
    ANSWERS(IPXR_NO_ROUTER, ipxr_port_up(router, 1));
    ANSWERS(0, ipxr_sent(router));
    ANSWERS(IPXR_NO_ROUTER, ipxr_get(router, 0, &sent, buffer, sizeof buffer));
    CALLS(ipxr_clear(router));
    ANSWERS(IPXR_NO_ROUTER, ipxr_is_running(router));
    ANSWERS(IPXR_NO_ROUTER, ipxr_is_up(router, 1));
    ANSWERS(0, ipxr_routes(router));
    ANSWERS(0, ipxr_services(router));
    ANSWERS(IPXR_NO_ROUTER, ipxr_route(router, 0, &route));
    ANSWERS(IPXR_NO_ROUTER, ipxr_service(router, 0, &service));
    CALLS(ipxr_free(router));
}

/* It starts, and asks both networks for their routes and services. */
static void starts(ipxr *router)
{
    ipxr_packet_sent sent;
    ANSWERS(IPXR_NO_PORTS, ipxr_make(router, PORTS, 0));
    ANSWERS(0, ipxr_make(router, PORTS, 2));
    ANSWERS(0, ipxr_is_running(router));
    ANSWERS(0, ipxr_is_up(router, 1));
    ANSWERS(IPXR_NO_PORT, ipxr_is_up(router, 2));
    ANSWERS(IPXR_NOT_RUNNING, ipxr_stop(router));
    ANSWERS(IPXR_NOT_RUNNING, ipxr_second(router));
    ANSWERS(IPXR_STARTED, ipxr_start(router));
    ANSWERS(IPXR_ALREADY_RUNNING, ipxr_start(router));
    ANSWERS(1, ipxr_is_running(router));
    ANSWERS(1, ipxr_is_up(router, 1));
    ANSWERS(6, ipxr_sent(router));
    ANSWERS(0, ipxr_get(router, 5, &sent, buffer, 35));
    WROTE(34, sent.length);
    WROTE(1, sent.port);
    WROTE_BYTES("FFFFFFFFFFFF", sent.node);
    WROTE_BYTES("FFFF 0022 00 04 31323334 FFFFFFFFFFFF 0452 31323334 414243444546 0452 0001 FFFF", buffer);
    ANSWERS(IPXR_SHORT_BUFFER, ipxr_get(router, 5, &sent, buffer, 33));
    ANSWERS(IPXR_NO_PACKET, ipxr_get(router, 6, &sent, buffer, 35));
    CALLS(ipxr_clear(router));
    ANSWERS(0, ipxr_sent(router));
    ANSWERS(1, ipxr_is_running(router));
}

/* It learns what the second port's shares let in, and advertises it on the first network, with its cost. */
static void learns(ipxr *router)
{
    ipxr_packet_sent sent;
    int32_t length = ipxr_write_rip(&NEIGHBOUR, &ALL_RIP, IPXR_RIP_RESPONSE, ROUTES, 4, buffer, sizeof buffer);
    ANSWERS(IPXR_NO_PORT, ipxr_packet(router, 2, buffer, (size_t)length));
    ANSWERS(IPXR_LEARNED, ipxr_packet(router, 1, buffer, (size_t)length));
    ANSWERS(3, ipxr_routes(router));
    ANSWERS(0, ipxr_services(router));
    ANSWERS(0, ipxr_get(router, 0, &sent, buffer, sizeof buffer));
    WROTE(0, sent.port);
    WROTE_BYTES("FFFF 0038 00 01 11121314 FFFFFFFFFFFF 0453 11121314 212223242526 0453 0002 "
                "00000051 0005 0107 00000052 0006 0108 00000053 0007 0109",
                buffer);
    ANSWERS(IPXR_TICKED, ipxr_second(router));
    length = ipxr_write_sap(&NEIGHBOUR, &ALL_SAP, 0, SERVICES, 3, buffer, sizeof buffer);
    ANSWERS(IPXR_LEARNED, ipxr_packet(router, 1, buffer, (size_t)length));
    ANSWERS(2, ipxr_services(router));
    ANSWERS(3, ipxr_routes(router));
    ANSWERS(IPXR_TICKED, ipxr_second(router));
    ANSWERS(IPXR_TICKED, ipxr_second(router));
}

static void knows(ipxr *router)
{
    ipxr_route_record route;
    ipxr_service_record service;
    ANSWERS(0, ipxr_route(router, 2, &route));
    WROTE(0x53, route.network);
    WROTE(6, route.hops);
    WROTE(0x0104, route.ticks);
    WROTE_BYTES("717273747576", route.node);
    WROTE(1, route.port);
    WROTE(3, route.age);
    ANSWERS(0, ipxr_service(router, 1, &service));
    WROTE_BYTES("46494C45532042 00", service.name);
    WROTE(0x52, service.network);
    WROTE_BYTES("919293949597", service.node);
    WROTE(0xA1A3, service.socket);
    WROTE(4, service.type);
    WROTE(6, service.hops);
    WROTE_BYTES("717273747576", service.neighbour);
    WROTE(1, service.port);
    WROTE(2, service.age);
    ANSWERS(IPXR_NO_RECORD, ipxr_service(router, 2, &service));
    ANSWERS(0, ipxr_route(router, 0, &route));
    WROTE(0x51, route.network);
    ANSWERS(IPXR_NO_RECORD, ipxr_route(router, 3, &route));
}

/* Writes a packet from the neighbour to a node of the first network, so many bytes long, and returns how many these are. */
static size_t packet_of(size_t length)
{
    static const uint8_t data[1024];
    static const ipxr_address to = {.network = 0x11121314, .node = {0x61, 0x62, 0x63, 0x64, 0x65, 0x66}, .socket = GAME_SOCKET};
    ipxr_write_packet(&NEIGHBOUR, &to, 0, 0, data, length - HEADER, buffer, sizeof buffer);
    return length;
}

/* It forwards, loses a port and has it again, and stops. */
static void forwards(ipxr *router)
{
    ipxr_packet_sent sent;
    CALLS(ipxr_clear(router));
    ANSWERS(IPXR_TOO_LONG, ipxr_packet(router, 1, buffer, packet_of(601)));
    ANSWERS(IPXR_FORWARDED, ipxr_packet(router, 1, buffer, packet_of(600)));
    ANSWERS(1, ipxr_sent(router));
    ANSWERS(0, ipxr_get(router, 0, &sent, buffer, sizeof buffer));
    WROTE(600, sent.length);
    WROTE_BYTES("616263646566", sent.node);
    ANSWERS(IPXR_WENT_DOWN, ipxr_port_down(router, 1));
    ANSWERS(IPXR_ALREADY_DOWN, ipxr_port_down(router, 1));
    ANSWERS(0, ipxr_is_up(router, 1));
    ANSWERS(1, ipxr_is_up(router, 0));
    ANSWERS(IPXR_CAME_UP, ipxr_port_up(router, 1));
    ANSWERS(1, ipxr_is_up(router, 1));
    ANSWERS(IPXR_ALREADY_UP, ipxr_port_up(router, 1));
    ANSWERS(IPXR_STOPPED, ipxr_stop(router));
    ANSWERS(0, ipxr_is_running(router));
}

static void a_router(void)
{
    ipxr router = IPXR_NONE;
    without_router(&router);
    starts(&router);
    learns(&router);
    knows(&router);
    forwards(&router);
    CALLS(ipxr_free(&router));
    without_router(&router);
}

/* ---- A tunnel ---- */

static const ipxr_tunnel_setting TUNNEL = {
    .network = 0x11121314, .node = {0x21, 0x22, 0x23, 0x24, 0x25, 0x26}, .capacity = 3, .share = 2};
enum { TUNNEL_SOCKET = 2 };

static const uint8_t NOBODY[6] = {0}, ALL[6] = EVERYONE;

/* One who has to answer, and two at one trusted address. */
static const ipxr_sender STRANGER = {.place = {0x51, 0x52, 0x53, 0x54, 0x55, 0x56},
                                     .current = {0x61, 0x62, 0x63, 0x64, 0x65, 0x66},
                                     .previous = {0x71, 0x72, 0x73, 0x74, 0x75, 0x76},
                                     .is_trusted = false};
static const ipxr_sender PLAYERS[2] = {
    {.place = {0x81, 0x82, 0x83, 0x84, 0x85, 0x86}, .current = {0x91}, .previous = {0xA1}, .is_trusted = true},
    {.place = {0x81, 0x82, 0x83, 0x84, 0x85, 0x87}, .current = {0x92}, .previous = {0xA2}, .is_trusted = true},
};

static void without_tunnel(ipxr_tunnel *tunnel)
{
    ipxr_own own;
    ipxr_client client;
    uint8_t place[6];
    ANSWERS(IPXR_NO_TUNNEL, ipxr_tunnel_hear(tunnel, &STRANGER, DATA, sizeof DATA));
    ANSWERS(IPXR_NO_TUNNEL, ipxr_tunnel_second(tunnel));
    ANSWERS(IPXR_NO_TUNNEL, ipxr_tunnel_send(tunnel, ALL));
    ANSWERS(0, ipxr_tunnel_owns(tunnel));
    ANSWERS(IPXR_NO_TUNNEL, ipxr_tunnel_own(tunnel, 0, &own));
    ANSWERS(0, ipxr_tunnel_receivers(tunnel));
    ANSWERS(IPXR_NO_TUNNEL, ipxr_tunnel_receiver(tunnel, 0, place));
    ANSWERS(0, ipxr_tunnel_carried(tunnel));
    ANSWERS(0, ipxr_tunnel_is_heard(tunnel));
    ANSWERS(0, ipxr_tunnel_leavers(tunnel));
    ANSWERS(IPXR_NO_TUNNEL, ipxr_tunnel_leaver(tunnel, 0, place));
    ANSWERS(0, ipxr_tunnel_clients(tunnel));
    ANSWERS(IPXR_NO_TUNNEL, ipxr_tunnel_client(tunnel, 0, &client));
    CALLS(ipxr_tunnel_free(tunnel));
}

/* Writes a datagram of a sender for that node and socket, a packet of 32 bytes and 7 bytes behind it, and returns how many these are. */
static size_t datagram(const ipxr_sender *sender, const uint8_t *node, uint16_t socket)
{
    ipxr_address from = {.network = 0x11121314, .socket = socket}, to = {.network = 0x11121314, .socket = socket};
    memcpy(from.node, sender->place, sizeof from.node);
    memcpy(to.node, node, sizeof to.node);
    ipxr_write_packet(&from, &to, 0, 0, DATA, 2, buffer, sizeof buffer);
    return 39;
}

/* The stranger registers, and answers the ping with the older of its cookies. */
static void registers(ipxr_tunnel *tunnel)
{
    ipxr_own own;
    ipxr_client client;
    ANSWERS(0, ipxr_tunnel_make(tunnel, &TUNNEL));
    ANSWERS(IPXR_REGISTERS, ipxr_tunnel_hear(tunnel, &STRANGER, buffer, datagram(&STRANGER, NOBODY, TUNNEL_SOCKET)));
    ANSWERS(2, ipxr_tunnel_owns(tunnel));
    ANSWERS(0, ipxr_tunnel_leavers(tunnel));
    ANSWERS(0, ipxr_tunnel_own(tunnel, 1, &own));
    WROTE_BYTES("515253545556", own.place);
    WROTE_BYTES("FFFF 001E 00 00 11121314 FFFFFFFFFFFF 0002 11121314 616263646566 0002", own.bytes);
    ANSWERS(IPXR_NO_RECORD, ipxr_tunnel_own(tunnel, 2, &own));
    ANSWERS(0, ipxr_tunnel_clients(tunnel));
    ANSWERS(IPXR_ANSWERS, ipxr_tunnel_hear(tunnel, &STRANGER, buffer, datagram(&STRANGER, STRANGER.previous, TUNNEL_SOCKET)));
    ANSWERS(1, ipxr_tunnel_clients(tunnel));
    ANSWERS(IPXR_REGISTERS, ipxr_tunnel_hear(tunnel, &PLAYERS[0], buffer, datagram(&PLAYERS[0], NOBODY, TUNNEL_SOCKET)));
    ANSWERS(IPXR_REGISTERS, ipxr_tunnel_hear(tunnel, &PLAYERS[1], buffer, datagram(&PLAYERS[1], NOBODY, TUNNEL_SOCKET)));
    ANSWERS(3, ipxr_tunnel_clients(tunnel));
    ANSWERS(0, ipxr_tunnel_client(tunnel, 2, &client));
    WROTE_BYTES("818283848587", client.place);
    WROTE(180, client.seconds_left);
    ANSWERS(IPXR_NO_RECORD, ipxr_tunnel_client(tunnel, 3, &client));
}

/* A player speaks to all, the router to a player; then the stranger leaves, since it answers no ping. */
static void passes_on(ipxr_tunnel *tunnel)
{
    uint8_t place[6] = {0};
    ANSWERS(IPXR_SPEAKS, ipxr_tunnel_hear(tunnel, &PLAYERS[0], buffer, datagram(&PLAYERS[0], ALL, GAME_SOCKET)));
    ANSWERS(32, ipxr_tunnel_carried(tunnel));
    ANSWERS(1, ipxr_tunnel_is_heard(tunnel));
    ANSWERS(0, ipxr_tunnel_owns(tunnel));
    ANSWERS(2, ipxr_tunnel_receivers(tunnel));
    ANSWERS(0, ipxr_tunnel_receiver(tunnel, 1, place));
    WROTE_BYTES("818283848587", place);
    ANSWERS(IPXR_NO_RECORD, ipxr_tunnel_leaver(tunnel, 0, place));
    ANSWERS(0, ipxr_tunnel_send(tunnel, PLAYERS[0].place));
    ANSWERS(0, ipxr_tunnel_carried(tunnel));
    ANSWERS(0, ipxr_tunnel_is_heard(tunnel));
    ANSWERS(1, ipxr_tunnel_receivers(tunnel));
    ANSWERS(0, ipxr_tunnel_receiver(tunnel, 0, place));
    WROTE_BYTES("818283848586", place);
    for (int seconds = 0; seconds < 30; seconds++)
        ANSWERS(0, ipxr_tunnel_second(tunnel));
    ANSWERS(0, ipxr_tunnel_receivers(tunnel));
    ANSWERS(1, ipxr_tunnel_leavers(tunnel));
    ANSWERS(0, ipxr_tunnel_leaver(tunnel, 0, place));
    WROTE_BYTES("515253545556", place);
    ANSWERS(IPXR_NO_RECORD, ipxr_tunnel_receiver(tunnel, 0, place));
    ANSWERS(2, ipxr_tunnel_clients(tunnel));
}

/* A broadcast to the second of two sockets, with a byte behind its packet, goes to another network too. The further sockets are looked at
 * only if another argument is taken for their number. */
static void extends(void)
{
    static const uint16_t sockets[64] = {GAME_SOCKET + 1, GAME_SOCKET};
    const ipxr_address from = {.network = 0x10, .node = {0xB5, 0xB6, 0xB7, 0xB8, 0xB9, 0xBA}, .socket = GAME_SOCKET};
    const ipxr_address to = {.network = 0x10, .node = EVERYONE, .socket = GAME_SOCKET};
    ipxr_write_packet(&from, &to, 0, 0, DATA, 2, buffer, sizeof buffer);
    ANSWERS(0, ipxr_tunnel_extend(0x10, sockets, 1, 0x11, buffer, 33));
    ANSWERS(1, ipxr_tunnel_extend(0x10, sockets, 2, 0x11, buffer, 33));
    WROTE_BYTES("FFFF 0020 00 00 00000011 FFFFFFFFFFFF 4142 00000010 B5B6B7B8B9BA 4142 F1F2", buffer);
}

static void a_tunnel(void)
{
    ipxr_tunnel tunnel = IPXR_TUNNEL_NONE;
    without_tunnel(&tunnel);
    registers(&tunnel);
    passes_on(&tunnel);
    CALLS(ipxr_tunnel_free(&tunnel));
    without_tunnel(&tunnel);
    extends();
}

/* ---- A tunnel with keyed nodes ---- */

static const ipxr_keyed_setting KEYED = {.network = 0x11121314,
                                         .node = {0x21, 0x22, 0x23, 0x24, 0x25, 0x26},
                                         .capacity = 4,
                                         .share = 3,
                                         .remembered = 2,
                                         .remembered_share = 1};

/* One who registers, one who has its former node still, two at one trusted address, and one whose registration doesn't count. */
static const ipxr_keyed_sender NEWCOMER = {.place = {0x51, 0x52, 0x53, 0x54, 0x55, 0x56},
                                           .node = {0x02, 0x61},
                                           .former = {0x02, 0x71},
                                           .current = {0x03, 0x81},
                                           .previous = {0x03, 0x91},
                                           .may_register = true};
static const ipxr_keyed_sender OLD = {.place = {0x52, 0x52, 0x53, 0x54, 0x55, 0x57},
                                      .node = {0x02, 0x62},
                                      .former = {0x02, 0x72},
                                      .current = {0x03, 0x82},
                                      .previous = {0x03, 0x92},
                                      .may_register = true};
static const ipxr_keyed_sender TRUSTED[2] = {
    {.place = {0x81, 0x82, 0x83, 0x84, 0x85, 0x86}, .node = {0x02, 0x63}, .former = {0x02, 0x63}, .current = {0x03}, .is_trusted = true},
    {.place = {0x81, 0x82, 0x83, 0x84, 0x85, 0x87}, .node = {0x02, 0x64}, .former = {0x02, 0x64}, .current = {0x04}, .is_trusted = true},
};

static void without_keyed(ipxr_keyed *tunnel)
{
    ipxr_own own;
    ipxr_keyed_member member;
    uint8_t place[6];
    ANSWERS(IPXR_NO_TUNNEL, ipxr_keyed_hear(tunnel, &NEWCOMER, DATA, sizeof DATA));
    ANSWERS(IPXR_NO_TUNNEL, ipxr_keyed_second(tunnel));
    ANSWERS(IPXR_NO_TUNNEL, ipxr_keyed_send(tunnel, ALL));
    ANSWERS(0, ipxr_keyed_owns(tunnel));
    ANSWERS(0, ipxr_keyed_pings(tunnel));
    ANSWERS(IPXR_NO_TUNNEL, ipxr_keyed_own(tunnel, 0, &own));
    ANSWERS(0, ipxr_keyed_receivers(tunnel));
    ANSWERS(IPXR_NO_TUNNEL, ipxr_keyed_receiver(tunnel, 0, place));
    ANSWERS(0, ipxr_keyed_carried(tunnel));
    ANSWERS(0, ipxr_keyed_is_heard(tunnel));
    ANSWERS(0, ipxr_keyed_leavers(tunnel));
    ANSWERS(IPXR_NO_TUNNEL, ipxr_keyed_leaver(tunnel, 0, &member));
    ANSWERS(0, ipxr_keyed_clients(tunnel));
    ANSWERS(IPXR_NO_TUNNEL, ipxr_keyed_client(tunnel, 0, &member));
    ANSWERS(0, ipxr_keyed_waiters(tunnel));
    ANSWERS(IPXR_NO_TUNNEL, ipxr_keyed_waiter(tunnel, 0, &member));
    CALLS(ipxr_keyed_free(tunnel));
}

/* What a sender says, naming a node of its own, to a node and socket; a packet of 32 bytes, and 7 bytes behind it. */
static int32_t says(ipxr_keyed *tunnel, const ipxr_keyed_sender *sender, const uint8_t *as, const uint8_t *node, uint16_t socket)
{
    ipxr_sender named = {.place = {0}};
    memcpy(named.place, as, sizeof named.place);
    size_t length = datagram(&named, node, socket);
    return ipxr_keyed_hear(tunnel, sender, buffer, length);
}

static void passes(ipxr_keyed *tunnel, int seconds)
{
    for (int k = 0; k < seconds; k++)
        ANSWERS(0, ipxr_keyed_second(tunnel));
}

/* The newcomer registers: it is answered, remembered, and answered again. The other, by its former node, is pinged, and answers with the
 * older of its cookies. */
static void comes_keyed(ipxr_keyed *tunnel)
{
    ipxr_own own;
    ipxr_keyed_member member;
    ANSWERS(0, ipxr_keyed_make(tunnel, &KEYED));
    ANSWERS(IPXR_REGISTERS, says(tunnel, &NEWCOMER, NEWCOMER.place, NOBODY, TUNNEL_SOCKET));
    ANSWERS(1, ipxr_keyed_owns(tunnel));
    ANSWERS(0, ipxr_keyed_own(tunnel, 0, &own));
    WROTE_BYTES("515253545556", own.place);
    WROTE_BYTES("FFFF 001E 00 00 11121314 026100000000 0002 11121314 212223242526 0002", own.bytes);
    ANSWERS(IPXR_NO_RECORD, ipxr_keyed_own(tunnel, 1, &own));
    ANSWERS(1, ipxr_keyed_waiters(tunnel));
    ANSWERS(0, ipxr_keyed_waiter(tunnel, 0, &member));
    WROTE_BYTES("515253545556", member.place);
    WROTE_BYTES("026100000000", member.node);
    WROTE(9, member.seconds_left);
    ANSWERS(IPXR_NO_RECORD, ipxr_keyed_waiter(tunnel, 1, &member));
    ANSWERS(IPXR_SPEAKS, says(tunnel, &OLD, OLD.former, ALL, GAME_SOCKET));
    ANSWERS(1, ipxr_keyed_owns(tunnel));
    ANSWERS(0, ipxr_keyed_own(tunnel, 0, &own));
    WROTE_BYTES("FFFF 001E 00 00 11121314 FFFFFFFFFFFF 0002 11121314 038200000000 0002", own.bytes);
    ANSWERS(0, ipxr_keyed_clients(tunnel));
    ANSWERS(IPXR_ANSWERS, says(tunnel, &OLD, OLD.former, OLD.previous, TUNNEL_SOCKET));
    ANSWERS(1, ipxr_keyed_clients(tunnel));
    passes(tunnel, 1);
    ANSWERS(1, ipxr_keyed_owns(tunnel));
    ANSWERS(0, ipxr_keyed_pings(tunnel));
    ANSWERS(0, ipxr_keyed_own(tunnel, 0, &own));
    WROTE_BYTES("FFFF 001E 00 00 11121314 026100000000 0002 11121314 212223242526 0002", own.bytes);
    ANSWERS(IPXR_SAID_NOTHING, says(tunnel, &TRUSTED[0], NOBODY, NOBODY, TUNNEL_SOCKET));
}

/* The newcomer's first word brings it in, and is carried; two of a trusted address come in by theirs. */
static void speaks_keyed(ipxr_keyed *tunnel)
{
    ipxr_keyed_member member;
    uint8_t place[6] = {0};
    ANSWERS(IPXR_SPEAKS, says(tunnel, &NEWCOMER, NEWCOMER.node, ALL, GAME_SOCKET));
    ANSWERS(2, ipxr_keyed_clients(tunnel));
    ANSWERS(32, ipxr_keyed_carried(tunnel));
    ANSWERS(1, ipxr_keyed_is_heard(tunnel));
    ANSWERS(0, ipxr_keyed_owns(tunnel));
    ANSWERS(1, ipxr_keyed_receivers(tunnel));
    ANSWERS(0, ipxr_keyed_receiver(tunnel, 0, place));
    WROTE_BYTES("525253545557", place);
    ANSWERS(IPXR_NO_RECORD, ipxr_keyed_receiver(tunnel, 1, place));
    ANSWERS(IPXR_SPEAKS, says(tunnel, &TRUSTED[0], TRUSTED[0].node, TRUSTED[0].node, GAME_SOCKET));
    ANSWERS(IPXR_SPEAKS, says(tunnel, &TRUSTED[1], TRUSTED[1].node, ALL, GAME_SOCKET));
    ANSWERS(4, ipxr_keyed_clients(tunnel));
    ANSWERS(0, ipxr_keyed_client(tunnel, 3, &member));
    WROTE_BYTES("818283848587", member.place);
    WROTE_BYTES("026400000000", member.node);
    WROTE(180, member.seconds_left);
    ANSWERS(IPXR_NO_RECORD, ipxr_keyed_client(tunnel, 4, &member));
    ANSWERS(0, ipxr_keyed_send(tunnel, TRUSTED[0].node));
    ANSWERS(0, ipxr_keyed_carried(tunnel));
    ANSWERS(0, ipxr_keyed_is_heard(tunnel));
    ANSWERS(1, ipxr_keyed_receivers(tunnel));
    ANSWERS(0, ipxr_keyed_receiver(tunnel, 0, place));
    WROTE_BYTES("818283848586", place);
}

/* Six seconds later the newcomer is pinged as one who is remembered, the trusted as clients a second before; in the end those leave who
 * don't answer. */
static void leaves_keyed(ipxr_keyed *tunnel)
{
    ipxr_own own;
    ipxr_keyed_member member;
    passes(tunnel, 5);
    ANSWERS(2, ipxr_keyed_owns(tunnel));
    ANSWERS(2, ipxr_keyed_pings(tunnel));
    passes(tunnel, 1);
    ANSWERS(1, ipxr_keyed_owns(tunnel));
    ANSWERS(0, ipxr_keyed_pings(tunnel));
    ANSWERS(0, ipxr_keyed_own(tunnel, 0, &own));
    WROTE_BYTES("515253545556", own.place);
    WROTE_BYTES("FFFF 001E 00 00 11121314 FFFFFFFFFFFF 0002 11121314 038100000000 0002", own.bytes);
    passes(tunnel, 23);
    ANSWERS(1, ipxr_keyed_leavers(tunnel));
    ANSWERS(0, ipxr_keyed_leaver(tunnel, 0, &member));
    WROTE_BYTES("525253545557", member.place);
    WROTE_BYTES("027200000000", member.node);
    ANSWERS(IPXR_NO_RECORD, ipxr_keyed_leaver(tunnel, 1, &member));
    ANSWERS(0, ipxr_keyed_receivers(tunnel));
    ANSWERS(3, ipxr_keyed_clients(tunnel));
    ANSWERS(0, ipxr_keyed_waiters(tunnel));
}

/* Of one address one registration is remembered, and two of all. */
static void remembers_keyed(ipxr_keyed *tunnel)
{
    static const uint8_t HOSTS[4] = {1, 1, 2, 3};
    static const int REMEMBERED[4] = {1, 1, 2, 2};
    ANSWERS(0, ipxr_keyed_make(tunnel, &KEYED));
    for (uint8_t k = 0; k < 4; k++) {
        const ipxr_keyed_sender one = {.place = {10, 0, 0, HOSTS[k], 0, k}, .node = {0x02, k}, .current = {0x03}, .may_register = true};
        ANSWERS(IPXR_REGISTERS, says(tunnel, &one, one.place, NOBODY, TUNNEL_SOCKET));
        ANSWERS(1, ipxr_keyed_owns(tunnel));
        ANSWERS(REMEMBERED[k], ipxr_keyed_waiters(tunnel));
    }
    CALLS(ipxr_keyed_free(tunnel));
}

static void a_keyed_tunnel(void)
{
    ipxr_keyed tunnel = IPXR_KEYED_NONE;
    without_keyed(&tunnel);
    comes_keyed(&tunnel);
    speaks_keyed(&tunnel);
    leaves_keyed(&tunnel);
    CALLS(ipxr_keyed_free(&tunnel));
    without_keyed(&tunnel);
    remembers_keyed(&tunnel);
}

/* ---- A segment ---- */

enum { FIRST, SECOND, THIRD, FOURTH, LINKS };

static const ipxr_segment_setting SEGMENT = {
    .network = 0x11121314, .node = {0x21, 0x22, 0x23, 0x24, 0x25, 0x26}, .links = LINKS, .capacity = 5};
static const ipxr_link WIRE = {.kind = IPXR_LINK_CABLE, .share = 6}, SURE = {.kind = IPXR_LINK_SURE, .share = 7};
static const uint8_t ONE[6] = {0x51, 0x52, 0x53, 0x54, 0x55, 0x56}, TWO[6] = {0x61, 0x62, 0x63, 0x64, 0x65, 0x66};
static const ipxr_address NEAR = {.network = 0x11121314, .node = {0xB5, 0xB6, 0xB7, 0xB8, 0xB9, 0xBA}, .socket = 0xBBBC};

static void without_segment(ipxr_segment *segment)
{
    ipxr_station station;
    ipxr_link values;
    uint8_t link, node[6];
    ANSWERS(IPXR_NO_SEGMENT, ipxr_segment_change(segment, FIRST, &WIRE));
    ANSWERS(IPXR_NO_SEGMENT, ipxr_segment_hear(segment, FIRST, ONE, TWO));
    ANSWERS(IPXR_NO_SEGMENT, ipxr_segment_come(segment, FIRST, ONE));
    ANSWERS(IPXR_NO_SEGMENT, ipxr_segment_leave(segment, FIRST, ONE));
    ANSWERS(IPXR_NO_SEGMENT, ipxr_segment_second(segment));
    ANSWERS(IPXR_NO_SEGMENT, ipxr_segment_send(segment, ONE));
    ANSWERS(0, ipxr_segment_receivers(segment));
    ANSWERS(IPXR_NO_SEGMENT, ipxr_segment_receiver(segment, 0, &link));
    ANSWERS(0, ipxr_segment_stations(segment));
    ANSWERS(IPXR_NO_SEGMENT, ipxr_segment_station(segment, 0, &station));
    ANSWERS(IPXR_NO_SEGMENT, ipxr_segment_link(segment, FIRST, &values));
    ANSWERS(IPXR_NO_SEGMENT, ipxr_segment_next_node(segment, &NEAR, node));
    CALLS(ipxr_segment_free(segment));
}

static void links(ipxr_segment *segment)
{
    ipxr_link values;
    ANSWERS(0, ipxr_segment_make(segment, &SEGMENT));
    ANSWERS(0, ipxr_segment_change(segment, FIRST, &WIRE));
    ANSWERS(0, ipxr_segment_change(segment, SECOND, &SURE));
    ANSWERS(0, ipxr_segment_change(segment, THIRD, &WIRE));
    ANSWERS(0, ipxr_segment_change(segment, FOURTH, &WIRE));
    ANSWERS(IPXR_NO_LINK, ipxr_segment_change(segment, LINKS, &WIRE));
    ANSWERS(0, ipxr_segment_link(segment, SECOND, &values));
    WROTE(IPXR_LINK_SURE, values.kind);
    WROTE(7, values.share);
    ANSWERS(IPXR_NO_LINK, ipxr_segment_link(segment, LINKS, &values));
}

/* One comes to the sure link, and two is heard on a cable. */
static void stations(ipxr_segment *segment)
{
    ipxr_station station;
    uint8_t link = LINKS;
    ANSWERS(0, ipxr_segment_come(segment, SECOND, ONE));
    ANSWERS(1, ipxr_segment_stations(segment));
    ANSWERS(0, ipxr_segment_receivers(segment));
    ANSWERS(1, ipxr_segment_hear(segment, THIRD, TWO, ALL));
    ANSWERS(3, ipxr_segment_receivers(segment));
    ANSWERS(0, ipxr_segment_receiver(segment, 2, &link));
    WROTE(FOURTH, link);
    ANSWERS(IPXR_NO_RECORD, ipxr_segment_receiver(segment, 3, &link));
    ANSWERS(0, ipxr_segment_second(segment));
    ANSWERS(0, ipxr_segment_receivers(segment));
    ANSWERS(2, ipxr_segment_stations(segment));
    ANSWERS(0, ipxr_segment_station(segment, 1, &station));
    WROTE_BYTES("616263646566", station.node);
    WROTE(THIRD, station.link);
    WROTE(0, station.is_sure);
    WROTE(299, station.seconds_left);
    ANSWERS(0, ipxr_segment_station(segment, 0, &station));
    WROTE_BYTES("515253545556", station.node);
    WROTE(SECOND, station.link);
    WROTE(1, station.is_sure);
    ANSWERS(IPXR_NO_RECORD, ipxr_segment_station(segment, 2, &station));
}

/* A packet for a station goes to its link alone, from another one and from the router; then the station leaves. */
static void delivers(ipxr_segment *segment)
{
    uint8_t link = LINKS, node[6] = {0};
    ANSWERS(0, ipxr_segment_hear(segment, SECOND, ONE, TWO));
    ANSWERS(1, ipxr_segment_receivers(segment));
    ANSWERS(0, ipxr_segment_receiver(segment, 0, &link));
    WROTE(THIRD, link);
    ANSWERS(0, ipxr_segment_send(segment, ONE));
    ANSWERS(0, ipxr_segment_receiver(segment, 0, &link));
    WROTE(SECOND, link);
    ANSWERS(0, ipxr_segment_next_node(segment, &NEAR, node));
    WROTE_BYTES("B5B6B7B8B9BA", node);
    ANSWERS(0, ipxr_segment_next_node(segment, &FROM, node));
    WROTE_BYTES("212223242526", node);
    ANSWERS(0, ipxr_segment_leave(segment, SECOND, ONE));
    ANSWERS(1, ipxr_segment_stations(segment));
}

static void a_segment(void)
{
    ipxr_segment segment = IPXR_SEGMENT_NONE;
    without_segment(&segment);
    links(&segment);
    stations(&segment);
    delivers(&segment);
    CALLS(ipxr_segment_free(&segment));
    without_segment(&segment);
}

/* ---- Receivers and meters ---- */

static const ipxr_fair_setting SHARES = {.one = 10, .own = 20, .reserve = 300, .room = 100};

/* Three speakers fill their queues, and time serves them alike: of 13 nanoseconds each gets 4, and one is left. */
static void shares(ipxr_fair *fair)
{
    uint64_t clock = 1000;
    ANSWERS(1, ipxr_fair_make(fair, &SHARES));
    ANSWERS(1, ipxr_fair_says(fair, 1, 50));
    ANSWERS(0, ipxr_fair_says(fair, 1, 1));
    ANSWERS(1, ipxr_fair_says(fair, 2, 15));
    ANSWERS(1, ipxr_fair_says(fair, 3, 7));
    CALLS(ipxr_fair_look(fair, &clock, 1013));
    WROTE(1013, clock);
    WROTE(1, fair->left);
    WROTE(4, fair->served);
    WROTE(50, fair->latest);
    WROTE(2, fair->spare);
    WROTE(3, fair->waits);
    WROTE(60, fair->total);
    WROTE(15, fair->ends[2]);
    WROTE(300, fair->setting.reserve);
}

static void a_receiver(void)
{
    ipxr_fair fair = {.left = 0};
    const ipxr_fair_setting bad = {.one = 21, .own = 20};
    ANSWERS(0, ipxr_fair_says(&fair, 0, 1));
    shares(&fair);
    ANSWERS(0, ipxr_fair_make(&fair, &bad));
    CALLS(ipxr_fair_pass(&fair, 5));
    WROTE(54, fair.total);
    CALLS(ipxr_fair_pass(&fair, 54));
    WROTE(0, fair.total);
}

/* What the second receiver doesn't hear isn't in the queue of the first. */
static void two_receivers(void)
{
    const ipxr_fair_setting few = {.one = 5, .own = 6, .reserve = 7, .room = 8};
    ipxr_fair fair = {.left = 0}, other = {.left = 0};
    ANSWERS(1, ipxr_fair_make(&fair, &SHARES));
    ANSWERS(1, ipxr_fair_make(&other, &few));
    ANSWERS(1, ipxr_fair_both_hear(&fair, &other, 9, 30, 4));
    WROTE(30, fair.total);
    WROTE(4, other.total);
    WROTE(30, fair.ends[9]);
    ANSWERS(0, ipxr_fair_both_hear(&fair, &other, 9, 31, 5));
    ANSWERS(0, ipxr_fair_both_hear(&fair, &other, 9, 41, 1));
    WROTE(30, fair.total);
    WROTE(4, other.total);
}

static void a_meter(void)
{
    ipxr_meter meter = {.used = 0}, other = {.used = 0};
    ANSWERS(1, ipxr_meter_lets(&meter, 100, 70));
    ANSWERS(0, ipxr_meter_lets(&meter, 100, 31));
    CALLS(ipxr_meter_pass(&meter, 30));
    WROTE(40, meter.used);
    ANSWERS(1, ipxr_meter_both_let(&meter, 100, 60, &other, 50, 20));
    WROTE(100, meter.used);
    WROTE(20, other.used);
    ANSWERS(0, ipxr_meter_both_let(&meter, 200, 10, &other, 50, 31));
    WROTE(100, meter.used);
    WROTE(20, other.used);
}

/* ---- Limits that are made ---- */

static void is_limit(uint64_t each, uint64_t burst, ipxr_limit limit)
{
    WROTE((long long)each, limit.each);
    WROTE((long long)burst, limit.burst);
}

static void is_setting(uint64_t one, uint64_t own, uint64_t reserve, uint64_t room, ipxr_fair_setting setting)
{
    WROTE((long long)one, setting.one);
    WROTE((long long)own, setting.own);
    WROTE((long long)reserve, setting.reserve);
    WROTE((long long)room, setting.room);
}

enum { MICRO = 1000, MILLI = 1000 * MICRO, PIECES = 89 };
static const uint64_t A_SECOND = (uint64_t)1000 * MILLI;

/* A client receives 1,000 packets a second: 900, and two shares of 50. The tables take 20 packets of routes, and 100 of services. */
static void limits_of_a_tunnel(void)
{
    ipxr_limits limits = {.handed_answers = 1};
    ANSWERS(0, ipxr_limits_make(&limits, IPXR_LIMITS_TUNNEL, 0, 50, 1000, 700));
    WROTE(1, limits.handed_answers);
    ANSWERS(1, ipxr_limits_make(&limits, IPXR_LIMITS_TUNNEL, 900, 50, 1000, 700));
    WROTE(MILLI, limits.received.packet);
    WROTE(MILLI / PIECES, limits.received.piece);
    is_setting(MILLI, 50 * MILLI / 8, 50 * MILLI, 200 * MILLI, limits.received.packets);
    is_setting(MILLI, MILLI, 0, 64 * MILLI, limits.received.pieces);
    is_limit(2 * A_SECOND / 900, 2 * A_SECOND / 900 * 64, limits.handed);
    WROTE((long long)(2 * A_SECOND / 900 * 32), limits.handed_answers);
    is_limit(A_SECOND, 2 * A_SECOND, limits.pings);
    is_limit(A_SECOND / 4, 8 * A_SECOND / 4, limits.all_pings);
    is_limit(A_SECOND, 4 * A_SECOND, limits.questions);
    is_limit(A_SECOND / 4, 240 * A_SECOND / 4, limits.advertisements);
    is_limit(A_SECOND / 2, 8 * A_SECOND / 2, limits.answers);
    is_limit(A_SECOND / 20, 188 * (A_SECOND / 20), limits.pages);
}

/* A packet may go out in four frames. */
static void limits_of_a_link(void)
{
    ipxr_limits limits;
    ANSWERS(1, ipxr_limits_make(&limits, IPXR_LIMITS_FRAMES, 900, 50, 1000, 700));
    is_setting(4 * MILLI, 50 * MILLI / 8, 50 * MILLI, 200 * MILLI, limits.received.packets);
    is_setting(4 * MILLI, 4 * MILLI, 0, 64 * MILLI, limits.received.pieces);
    is_limit(A_SECOND / 20, 80 * A_SECOND / 20, limits.questions);
    is_limit(A_SECOND / 100, 400 * A_SECOND / 100, limits.advertisements);
}

static void other_limits(void)
{
    ipxr_household_limits household = {.packet = 1};
    ipxr_strangers_limits strangers = {.one = {.each = 1}};
    ipxr_fair links = {.left = 0};
    ANSWERS(0, ipxr_household_make(&household, 0));
    WROTE(1, household.packet);
    ANSWERS(1, ipxr_household_make(&household, 1000));
    is_setting(MILLI, 250 * MILLI / 8, 250 * MILLI, 1000 * MILLI, household.received);
    WROTE(MILLI, household.packet);
    WROTE(500 * MILLI, household.among);
    ANSWERS(0, ipxr_strangers_make(&strangers, 0));
    WROTE(1, strangers.one.each);
    ANSWERS(1, ipxr_strangers_make(&strangers, 100));
    is_limit(A_SECOND / 100, 2 * A_SECOND, strangers.all);
    is_limit(8 * A_SECOND / 100, 8 * A_SECOND, strangers.one);
    shares(&links);
    CALLS(ipxr_told_make(&links));
    WROTE(0, links.total);
    is_setting(2 * A_SECOND, 2 * A_SECOND, 2 * A_SECOND, 8 * A_SECOND, links.setting);
}

/* ---- What limits let pass ---- */

static const ipxr_limits LIMITS_OF = {
    .received = {.packet = 10, .piece = 2},
    .handed = {.each = 5, .burst = 60},
    .handed_answers = 15,
    .pings = {.each = 7, .burst = 20},
    .all_pings = {.each = 11, .burst = 32},
    .questions = {.each = 20, .burst = 50},
    .advertisements = {.each = 30, .burst = 100},
    .answers = {.each = 12, .burst = 40},
    .pages = {.each = 16, .burst = 50},
};
static const ipxr_household_limits HOUSE = {.packet = 40, .among = 100};
static const ipxr_strangers_limits STRANGERS = {.all = {.each = 3, .burst = 15}, .one = {.each = 5, .burst = 22}};

/* Packets of more than 600 bytes have so many pieces, and a queue of a number of its own. */
enum { BYTES = 700, QUEUE = 9, CLIENTS = 2 };

/* A reader with room for so much at once, of packets and of pieces. */
static void room_for(ipxr_reader *reader, uint64_t packets, uint64_t pieces)
{
    const ipxr_fair_setting of_packets = {.one = packets, .own = packets}, of_pieces = {.one = pieces, .own = pieces};
    ANSWERS(1, ipxr_fair_make(&reader->packets, &of_packets));
    ANSWERS(1, ipxr_fair_make(&reader->pieces, &of_pieces));
}

static void is_read(uint64_t packets, uint64_t pieces, const ipxr_reader *reader)
{
    WROTE((long long)packets, reader->packets.ends[QUEUE]);
    WROTE((long long)pieces, reader->pieces.ends[QUEUE]);
}

static void kinds(void)
{
    const ipxr_address all = {.network = 0xC1, .node = EVERYONE, .socket = TUNNEL_SOCKET};
    const ipxr_address one = {.network = 0xC1, .node = {0xC5}, .socket = TUNNEL_SOCKET};
    int32_t length = ipxr_write_packet(&FROM, &all, 0, 0, DATA, 2, buffer, sizeof buffer);
    ANSWERS(IPXR_KIND_PING, ipxr_kind_of(buffer, (size_t)length));
    ANSWERS(IPXR_KIND_OTHER, ipxr_kind_of(buffer, HEADER + 1));
    length = ipxr_write_packet(&FROM, &one, 0, 0, DATA, 2, buffer, sizeof buffer);
    ANSWERS(IPXR_KIND_ANSWER, ipxr_kind_of(buffer, (size_t)length));
    length = ipxr_write_rip(&NEIGHBOUR, &ALL_RIP, IPXR_RIP_RESPONSE, ROUTES, 4, buffer, sizeof buffer);
    ANSWERS(IPXR_KIND_TOLD, ipxr_kind_of(buffer, (size_t)length));
    length = ipxr_write_query(&NEIGHBOUR, &ALL_SAP, 1, 4, buffer, sizeof buffer);
    ANSWERS(IPXR_KIND_QUESTION, ipxr_kind_of(buffer, (size_t)length));
}

static void pings(void)
{
    ipxr_client_use client = {.pinged = {0}};
    ipxr_meter all = {0};
    ANSWERS(IPXR_PASSES, ipxr_limits_says(&LIMITS_OF, IPXR_KIND_PING, &client, &all));
    ANSWERS(IPXR_PASSES, ipxr_limits_says(&LIMITS_OF, IPXR_KIND_PING, &client, &all));
    ANSWERS(IPXR_TOO_MANY_PINGS, ipxr_limits_says(&LIMITS_OF, IPXR_KIND_PING, &client, &all));
    ANSWERS(IPXR_PASSES, ipxr_limits_says(&LIMITS_OF, IPXR_KIND_ANSWER, &client, &all));
    WROTE(14, client.pinged.used);
    WROTE(22, all.used);
    all.used = 21;
    ANSWERS(IPXR_PASSES, ipxr_limits_frames_say(&LIMITS_OF, IPXR_KIND_PING, &all));
    ANSWERS(IPXR_TOO_MANY_PINGS, ipxr_limits_frames_say(&LIMITS_OF, IPXR_KIND_PING, &all));
    ANSWERS(IPXR_PASSES, ipxr_limits_frames_say(&LIMITS_OF, IPXR_KIND_OTHER, &all));
    WROTE(32, all.used);
}

/* An address with several clients has as much for each. */
static void answers(void)
{
    ipxr_client_use client = {.answered = {4}};
    ipxr_address_use address = {.answered = {28}};
    ANSWERS(IPXR_PASSES, ipxr_limits_answers(&LIMITS_OF, CLIENTS, &client, &address));
    WROTE(16, client.answered.used);
    WROTE(34, address.answered.used);
    ANSWERS(IPXR_PASSES, ipxr_limits_answers(&LIMITS_OF, CLIENTS, &client, &address));
    ANSWERS(IPXR_TOO_MANY_ANSWERS, ipxr_limits_answers(&LIMITS_OF, CLIENTS, &client, &address));
    ANSWERS(IPXR_TOO_MANY_ANSWERS, ipxr_limits_answers(&LIMITS_OF, 1, &client, &address));
    WROTE(28, client.answered.used);
    WROTE(40, address.answered.used);
    address.answered.used = 0;
    client.answered.used = 29;
    ANSWERS(IPXR_TOO_MANY_ANSWERS, ipxr_limits_answers(&LIMITS_OF, CLIENTS, &client, &address));
}

/* The same of the router's answers. */
static void pages(void)
{
    ipxr_client_use client = {.paged = {3}};
    ipxr_address_use address = {.paged = {30}};
    ANSWERS(IPXR_PASSES, ipxr_limits_router_answers(&LIMITS_OF, CLIENTS, &client, &address));
    WROTE(19, client.paged.used);
    WROTE(38, address.paged.used);
    ANSWERS(IPXR_PASSES, ipxr_limits_router_answers(&LIMITS_OF, CLIENTS, &client, &address));
    ANSWERS(IPXR_TOO_MANY_ANSWERS, ipxr_limits_router_answers(&LIMITS_OF, CLIENTS, &client, &address));
    WROTE(35, client.paged.used);
    WROTE(46, address.paged.used);
    address.paged.used = 0;
    ANSWERS(IPXR_TOO_MANY_ANSWERS, ipxr_limits_router_answers(&LIMITS_OF, CLIENTS, &client, &address));
    WROTE(0, client.answered.used);
    WROTE(0, address.answered.used);
}

static void hands(void)
{
    ipxr_client_use client = {.asked = {0}};
    ipxr_address_use address = {.asked = {0}};
    ipxr_meter handed = {0}, advertised = {1};
    ANSWERS(IPXR_PASSES, ipxr_limits_hands(&LIMITS_OF, CLIENTS, IPXR_KIND_QUESTION, &client, &address, &handed, &advertised));
    WROTE(20, client.asked.used);
    WROTE(10, address.asked.used);
    ANSWERS(IPXR_PASSES, ipxr_limits_hands(&LIMITS_OF, CLIENTS, IPXR_KIND_TOLD, &client, &address, &handed, &advertised));
    ANSWERS(IPXR_PASSES, ipxr_limits_hands(&LIMITS_OF, CLIENTS, IPXR_KIND_ANSWER, &client, &address, &handed, &advertised));
    WROTE(15, handed.used);
    WROTE(31, advertised.used);
    ANSWERS(IPXR_TOO_MUCH_FOR_ROUTER, ipxr_limits_hands(&LIMITS_OF, CLIENTS, IPXR_KIND_ANSWER, &client, &address, &handed, &advertised));
    address.asked.used = 41;
    ANSWERS(IPXR_TOO_MANY_QUESTIONS, ipxr_limits_hands(&LIMITS_OF, CLIENTS, IPXR_KIND_QUESTION, &client, &address, &handed, &advertised));
    advertised.used = 71;
    ANSWERS(IPXR_TOO_MANY_ADVERTISEMENTS, ipxr_limits_hands(&LIMITS_OF, CLIENTS, IPXR_KIND_TOLD, &client, &address, &handed, &advertised));
    handed.used = 56;
    ANSWERS(IPXR_TOO_MUCH_FOR_ROUTER, ipxr_limits_hands(&LIMITS_OF, CLIENTS, IPXR_KIND_OTHER, &client, &address, &handed, &advertised));
    WROTE(20, client.asked.used);
    WROTE(41, address.asked.used);
    WROTE(56, handed.used);
    WROTE(71, advertised.used);
}

static void frames_hand(void)
{
    ipxr_meter asked = {1}, advertised = {3};
    ipxr_fair links = {.left = 0};
    ANSWERS(IPXR_TOO_MANY_ADVERTISEMENTS, ipxr_limits_frames_hand(&LIMITS_OF, QUEUE, IPXR_KIND_TOLD, &asked, &advertised, &links));
    CALLS(ipxr_told_make(&links));
    ANSWERS(IPXR_PASSES, ipxr_limits_frames_hand(&LIMITS_OF, QUEUE, IPXR_KIND_TOLD, &asked, &advertised, &links));
    WROTE(10 * MILLI, links.ends[QUEUE]);
    ANSWERS(IPXR_PASSES, ipxr_limits_frames_hand(&LIMITS_OF, QUEUE, IPXR_KIND_QUESTION, &asked, &advertised, &links));
    ANSWERS(IPXR_PASSES, ipxr_limits_frames_hand(&LIMITS_OF, QUEUE, IPXR_KIND_QUESTION, &asked, &advertised, &links));
    ANSWERS(IPXR_TOO_MANY_QUESTIONS, ipxr_limits_frames_hand(&LIMITS_OF, QUEUE, IPXR_KIND_QUESTION, &asked, &advertised, &links));
    WROTE(41, asked.used);
    WROTE(33, advertised.used);
    ANSWERS(IPXR_PASSES, ipxr_limits_frames_hand(&LIMITS_OF, QUEUE, IPXR_KIND_TOLD, &asked, &advertised, &links));
    ANSWERS(IPXR_PASSES, ipxr_limits_frames_hand(&LIMITS_OF, QUEUE, IPXR_KIND_TOLD, &asked, &advertised, &links));
    ANSWERS(IPXR_TOO_MANY_ADVERTISEMENTS, ipxr_limits_frames_hand(&LIMITS_OF, QUEUE, IPXR_KIND_TOLD, &asked, &advertised, &links));
    ANSWERS(IPXR_PASSES, ipxr_limits_frames_hand(&LIMITS_OF, QUEUE, IPXR_KIND_OTHER, &asked, &advertised, &links));
    WROTE(30 * MILLI, links.total);
}

/* A client that has room for two packets, then for the pieces of one; and a link with frames. */
static void receives(void)
{
    ipxr_reader reader;
    memset(&reader, 0, sizeof reader);
    ANSWERS(IPXR_TOO_MUCH_FOR_CLIENT, ipxr_limits_receives(&LIMITS_OF, &reader, QUEUE, BYTES));
    room_for(&reader, 20, 1000);
    ANSWERS(IPXR_PASSES, ipxr_limits_receives(&LIMITS_OF, &reader, QUEUE, BYTES));
    is_read(10, 178, &reader);
    CALLS(ipxr_limits_hears_router(&LIMITS_OF, &reader, QUEUE, BYTES));
    is_read(20, 356, &reader);
    CALLS(ipxr_limits_hears_router(&LIMITS_OF, &reader, QUEUE, BYTES));
    ANSWERS(IPXR_TOO_MUCH_FOR_CLIENT, ipxr_limits_receives(&LIMITS_OF, &reader, QUEUE, BYTES));
    is_read(20, 356, &reader);
    room_for(&reader, 1000, 177);
    ANSWERS(IPXR_TOO_MUCH_FOR_CLIENT, ipxr_limits_receives(&LIMITS_OF, &reader, QUEUE, BYTES));
    ANSWERS(IPXR_PASSES, ipxr_limits_receives(&LIMITS_OF, &reader, QUEUE, 600));
    is_read(10, 74, &reader);
    room_for(&reader, 1000, 1000);
    ANSWERS(IPXR_PASSES, ipxr_limits_carries(&LIMITS_OF, &reader, QUEUE, BYTES, 3));
    is_read(30, 534, &reader);
    ANSWERS(IPXR_TOO_MUCH_FOR_LINK, ipxr_limits_carries(&LIMITS_OF, &reader, QUEUE, BYTES, 3));
    is_read(30, 534, &reader);
}

/* A client, all of its address, and what these say to each other. */
static void household_receives(void)
{
    const ipxr_fair_setting three = {.one = 120, .own = 120};
    ipxr_reader client;
    ipxr_fair address = {.left = 0};
    ipxr_meter among = {8};
    memset(&client, 0, sizeof client);
    room_for(&client, 20, 1000);
    ANSWERS(1, ipxr_fair_make(&address, &three));
    ANSWERS(IPXR_PASSES, ipxr_household_receives(&HOUSE, &LIMITS_OF, &client, &address, QUEUE, BYTES));
    is_read(10, 178, &client);
    WROTE(40, address.ends[QUEUE]);
    ANSWERS(IPXR_PASSES, ipxr_household_receives_of_own(&HOUSE, &LIMITS_OF, &client, &among, QUEUE, BYTES));
    is_read(20, 356, &client);
    WROTE(48, among.used);
    ANSWERS(IPXR_TOO_MUCH_FOR_CLIENT, ipxr_household_receives(&HOUSE, &LIMITS_OF, &client, &address, QUEUE, BYTES));
    ANSWERS(IPXR_TOO_MUCH_FOR_CLIENT, ipxr_household_receives_of_own(&HOUSE, &LIMITS_OF, &client, &among, QUEUE, BYTES));
    ANSWERS(IPXR_PASSES, ipxr_household_receives_of_router(&HOUSE, &LIMITS_OF, &client, &address, QUEUE, BYTES));
    WROTE(80, address.ends[QUEUE]);
    is_read(20, 356, &client);
    room_for(&client, 1000, 1000);
    ANSWERS(IPXR_PASSES, ipxr_household_receives_of_router(&HOUSE, &LIMITS_OF, &client, &address, QUEUE, BYTES));
    is_read(10, 178, &client);
    ANSWERS(IPXR_TOO_MUCH_FOR_ADDRESS, ipxr_household_receives_of_router(&HOUSE, &LIMITS_OF, &client, &address, QUEUE, BYTES));
    ANSWERS(IPXR_TOO_MUCH_FOR_ADDRESS, ipxr_household_receives(&HOUSE, &LIMITS_OF, &client, &address, QUEUE, BYTES));
    ANSWERS(IPXR_PASSES, ipxr_household_receives_of_own(&HOUSE, &LIMITS_OF, &client, &among, QUEUE, BYTES));
    ANSWERS(IPXR_TOO_MUCH_FOR_ADDRESS, ipxr_household_receives_of_own(&HOUSE, &LIMITS_OF, &client, &among, QUEUE, BYTES));
    WROTE(88, among.used);
    WROTE(120, address.ends[QUEUE]);
}

/* Of two queues that nobody has the one behind the last, and then the one that the fewest have. */
static void queues(void)
{
    ipxr_queues given = {.last = 0};
    ANSWERS(21, ipxr_queues_take(&given, 21, 23));
    ANSWERS(22, ipxr_queues_take(&given, 21, 23));
    ANSWERS(23, ipxr_queues_take(&given, 21, 23));
    ANSWERS(21, ipxr_queues_take(&given, 21, 23));
    CALLS(ipxr_queues_give_back(&given, 22));
    WROTE(2, given.users[21]);
    WROTE(0, given.users[22]);
    WROTE(1, given.users[23]);
    WROTE(21, given.last);
    ANSWERS(22, ipxr_queues_take(&given, 21, 23));
    ANSWERS(23, ipxr_queues_take(&given, 21, 23));
    WROTE(23, given.last);
    ANSWERS(21, ipxr_queues_unshare(&given, 21, 21, 23));
    ANSWERS(22, ipxr_queues_unshare(&given, 22, 21, 24));
    ANSWERS(24, ipxr_queues_unshare(&given, 21, 21, 24));
    WROTE(1, given.users[21]);
    WROTE(1, given.users[24]);
    CALLS(ipxr_queues_give_back(&given, 22));
    ANSWERS(22, ipxr_queues_unshare(&given, 23, 21, 24));
}

static void strangers(void)
{
    ipxr_meter address = {1}, all = {2};
    ANSWERS(IPXR_PASSES, ipxr_strangers_send(&STRANGERS, 2, &address, &all));
    WROTE(11, address.used);
    WROTE(8, all.used);
    address.used = 18;
    ANSWERS(IPXR_TOO_MUCH_FOR_STRANGERS, ipxr_strangers_send(&STRANGERS, 1, &address, &all));
    address.used = 0;
    ANSWERS(IPXR_TOO_MUCH_FOR_STRANGERS, ipxr_strangers_send(&STRANGERS, 3, &address, &all));
    WROTE(0, address.used);
    WROTE(8, all.used);
}

/* Each clock is looked at once, and time passes for all that it is the clock of. */
static void looks(void)
{
    uint64_t clocks[3] = {1000, 2000, 3000};
    ipxr_client_use client = {{50}, {60}, {70}, {80}};
    ipxr_address_use address = {{90}, {100}, {110}};
    ipxr_reader reader;
    memset(&reader, 0, sizeof reader);
    room_for(&reader, 1000, 1000);
    ANSWERS(IPXR_PASSES, ipxr_limits_receives(&LIMITS_OF, &reader, QUEUE, BYTES));
    CALLS(ipxr_reader_look(&reader, &clocks[0], 1004));
    WROTE(6, reader.packets.total);
    WROTE(174, reader.pieces.total);
    WROTE(1004, clocks[0]);
    CALLS(ipxr_client_look(&client, &clocks[1], 2015));
    WROTE(35, client.pinged.used);
    WROTE(45, client.asked.used);
    WROTE(55, client.answered.used);
    WROTE(65, client.paged.used);
    WROTE(2015, clocks[1]);
    CALLS(ipxr_address_look(&address, &clocks[2], 3025));
    WROTE(65, address.asked.used);
    WROTE(75, address.answered.used);
    WROTE(85, address.paged.used);
    WROTE(3025, clocks[2]);
}

/* ---- A narrow line: 44 bytes take a megabit 0.8 ms ---- */

enum { NOW = 1000, SPOKE = 5, SHORT_BYTES = 44 };

/* Addresses come, speak and go. */
static void line_members(void)
{
    ipxr_line line;
    ipxr_line_address one;
    memset(&line, 0, sizeof line);
    memset(&one, 0, sizeof one);
    CALLS(ipxr_line_join(&line, &one));
    CALLS(ipxr_line_join(&line, &one));
    WROTE(1, line.addresses);
    WROTE(2, one.clients);
    ANSWERS(1, ipxr_line_speak(&line, &one));
    WROTE(1, line.speakers);
    WROTE(1, line.numbers.users[1]);
    WROTE(1, one.number);
    one.quiet = 8;
    CALLS(ipxr_line_second(&line, &one));
    WROTE(9, one.quiet);
    WROTE(1, one.number);
    CALLS(ipxr_line_silence(&line, &one));
    WROTE(0, one.number);
    WROTE(9, one.quiet);
    WROTE(0, line.speakers);
    WROTE(1, line.addresses);
    CALLS(ipxr_line_leave(&line, &one));
    WROTE(1, one.clients);
    WROTE(1, line.addresses);
    CALLS(ipxr_line_leave(&line, &one));
    WROTE(0, line.addresses);
}

/* Two addresses receive by a line, and three speak. */
static const ipxr_line LINE = {.kilobits = 1000, .addresses = 2, .speakers = 3};

static void line_copies(void)
{
    ipxr_line line = LINE;
    ipxr_line_address to;
    uint64_t said = 0;
    memset(&to, 0, sizeof to);
    ANSWERS(IPXR_LINE_WITHIN, ipxr_line_room(&line, NOW, SPOKE, SHORT_BYTES, &said, &to));
    CALLS(ipxr_line_send(&line, NOW, SPOKE, SHORT_BYTES, IPXR_LINE_WITHIN, &said, &to));
    WROTE(801000, line.used);
    WROTE(5297554, to.within[SPOKE]);
    WROTE(4801000, to.spoken[SPOKE]);
    WROTE(1601000, to.received);
    CALLS(ipxr_line_send(&line, NOW, SPOKE, SHORT_BYTES, IPXR_LINE_LITTLE, &said, &to));
    WROTE(76801000, said);
    CALLS(ipxr_line_send(&line, NOW, SPOKE, SHORT_BYTES, IPXR_LINE_OF_SPEAKER, &said, &to));
    WROTE(9601000, to.spoken[SPOKE]);
    WROTE(2401000, line.used);
    CALLS(ipxr_line_send(&line, NOW, SPOKE, SHORT_BYTES, IPXR_LINE_OF_ADDRESS, &said, &to));
    WROTE(6401000, to.received);
    CALLS(ipxr_line_send(&line, NOW, SPOKE, SHORT_BYTES, IPXR_LINE_BEYOND, &said, &to));
    WROTE(6401000, to.received);
    WROTE(4001000, line.used);
}

/* What is used of each part decides which rank is next. */
static void line_ranks(void)
{
    ipxr_line line = LINE;
    ipxr_line_address to;
    uint64_t said = 0;
    memset(&to, 0, sizeof to);
    to.within[SPOKE] = 161001000;
    ANSWERS(IPXR_LINE_LITTLE, ipxr_line_room(&line, NOW, SPOKE, SHORT_BYTES, &said, &to));
    said = 1000001001;
    ANSWERS(IPXR_LINE_OF_SPEAKER, ipxr_line_room(&line, NOW, SPOKE, SHORT_BYTES, &said, &to));
    to.spoken[SPOKE] = 1000001001;
    ANSWERS(IPXR_LINE_OF_ADDRESS, ipxr_line_room(&line, NOW, SPOKE, SHORT_BYTES, &said, &to));
    to.received = 250001001;
    ANSWERS(IPXR_LINE_BEYOND, ipxr_line_room(&line, NOW, SPOKE, SHORT_BYTES, &said, &to));
    line.used = 20000900;
    ANSWERS(IPXR_LINE_BEYOND, ipxr_line_room(&line, NOW, SPOKE, SHORT_BYTES, &said, &to));
    ANSWERS(1, ipxr_line_lets_beyond(&line, NOW));
    line.used = 20001001;
    ANSWERS(0, ipxr_line_lets_beyond(&line, NOW));
    ANSWERS(IPXR_LINE_FULL, ipxr_line_room(&line, NOW, SPOKE, SHORT_BYTES, &said, &to));
}

/* What an address says to its only client there has no part, as long as nobody else has its number. */
static void line_itself(void)
{
    ipxr_line line = LINE;
    ipxr_line_address to;
    uint64_t said = 0;
    memset(&to, 0, sizeof to);
    to.clients = 2;
    to.number = SPOKE;
    ANSWERS(IPXR_LINE_WITHIN, ipxr_line_room(&line, NOW, SPOKE, SHORT_BYTES, &said, &to));
    to.clients = 1;
    ANSWERS(IPXR_LINE_LITTLE, ipxr_line_room(&line, NOW, SPOKE, SHORT_BYTES, &said, &to));
    ANSWERS(IPXR_LINE_WITHIN, ipxr_line_room(&line, NOW, SPOKE + 1, SHORT_BYTES, &said, &to));
    line.numbers.users[SPOKE] = 2;
    ANSWERS(IPXR_LINE_WITHIN, ipxr_line_room(&line, NOW, SPOKE, SHORT_BYTES, &said, &to));
}

static void line_own(void)
{
    ipxr_line line = LINE;
    uint64_t between = 0, address = 0, answered = 0;
    ipxr_strangers_limits newcomers;
    CALLS(ipxr_line_send_ping(&line, NOW, SHORT_BYTES));
    WROTE(801000, line.used);
    WROTE(25601000, line.own);
    line = LINE;
    CALLS(ipxr_line_send_answer(&line, NOW, SHORT_BYTES, &answered));
    WROTE(204801000, answered);
    WROTE(801000, line.used);
    WROTE(25601000, line.own);
    CALLS(ipxr_line_send_to_stranger(&line, NOW, SHORT_BYTES, &address));
    WROTE(204801000, address);
    WROTE(1601000, line.used);
    WROTE(25601000, line.own);
    WROTE(25601000, line.to_strangers);
    CALLS(ipxr_line_strangers(&line, &newcomers));
    WROTE(27022200, newcomers.all.each);
    WROTE(1000000000, newcomers.all.burst);
    WROTE(216177600, newcomers.one.each);
    WROTE(3458841600, newcomers.one.burst);
    CALLS(ipxr_line_between_pings(&line, SHORT_BYTES, &between));
    WROTE(25600000, between);
    line.used = 20001001;
    line.own = 1000001001;
    ANSWERS(0, ipxr_line_lets_answer(&line, NOW, &answered));
    ANSWERS(1, ipxr_line_lets_stranger(&line, NOW, &address));
    line.own = 0;
    line.to_strangers = 1000001001;
    ANSWERS(1, ipxr_line_lets_answer(&line, NOW, &answered));
    ANSWERS(0, ipxr_line_lets_stranger(&line, NOW, &address));
    line.to_strangers = 0;
    address = answered = 1000001001;
    ANSWERS(0, ipxr_line_lets_stranger(&line, NOW, &address));
    ANSWERS(0, ipxr_line_lets_answer(&line, NOW, &answered));
    answered = UINT64_MAX;
    ANSWERS(0, ipxr_line_lets_answer(&line, NOW, &answered));
    WROTE(4518009832, answered);
    line.used = 20001000;
    ANSWERS(1, ipxr_line_lets_answer(&line, NOW, &answered));
}

static void limits(void)
{
    limits_of_a_tunnel();
    limits_of_a_link();
    other_limits();
    kinds();
    pings();
    answers();
    pages();
    hands();
    frames_hand();
    receives();
    household_receives();
    queues();
    strangers();
    looks();
    line_members();
    line_copies();
    line_ranks();
    line_itself();
    line_own();
}

/* ---- Plans ---- */

/* A tunnel, and a card. */
static const ipxr_plan_link TUNNEL_LINE = {
    .network = 0x11, .carrier = IPXR_CARRIER_TUNNEL, .frames = 0x21, .udp_port = 0x3132, .number = 0x41, .port = 0x51, .clients = 0x61,
    .sockets = 0x71, .node = {0x81}, .has_node = 1, .is_of_several = 0, .is_first = 1};
static const ipxr_plan_link CARD_LINE = {
    .network = 0x12, .carrier = IPXR_CARRIER_CARD, .frames = 0x22, .number = 0x42, .port = 0x52, .clients = 0x62, .sockets = 0x72,
    .node = {0x82}, .has_node = 1, .is_of_several = 0, .is_first = 1};

/* What must be said of a plan of one link: of the router, of what the new link is made from, and of what becomes of the old one. */
static void plans(const ipxr_plan_link *old, const ipxr_plan_link *links, const char *wanted)
{
    char text[64];
    ipxr_plan_origin o;
    ipxr_plan_fate f;
    int32_t stays = ipxr_plan(old, 1, links, 1, &o, 1, &f, 1);
    snprintf(text, sizeof text, "%d: %u %u %u%u %u %u%u, %u %u%u", (int)stays, (unsigned)o.was, (unsigned)o.cable, o.is_kept,
             o.is_as_before, o.tunnel, o.has_other_clients, o.has_other_sockets, (unsigned)f.becomes, f.is_closed, f.ends_tunnel);
    if (strcmp(text, wanted) != 0) {
        printf("a plan is %s, not %s\n", text, wanted);
        exit(1);
    }
    called = wanted;
}

/* With one field that differs. */
#define CHANGED(line, field, value, wanted) \
    do { \
        ipxr_plan_link it = line; \
        it.field = value; \
        plans(&line, &it, wanted); \
    } while (0)

static void plans_of_one(void)
{
    ipxr_plan_link a = TUNNEL_LINE, b = TUNNEL_LINE;
    plans(&TUNNEL_LINE, &TUNNEL_LINE, "1: 0 0 11 1 00, 0 00");
    CHANGED(TUNNEL_LINE, network, 0x13, "0: 64 0 10 3 00, 64 01");
    CHANGED(TUNNEL_LINE, carrier, IPXR_CARRIER_SHARED, "0: 0 0 00 0 00, 0 11");
    CHANGED(TUNNEL_LINE, frames, 0x23, "1: 0 0 10 2 00, 0 00");
    CHANGED(TUNNEL_LINE, udp_port, 0x3133, "1: 0 0 00 3 00, 0 11");
    CHANGED(TUNNEL_LINE, number, 0x43, "1: 0 0 00 2 00, 0 10");
    CHANGED(TUNNEL_LINE, port, 0x53, "0: 0 0 11 1 00, 0 00");
    CHANGED(TUNNEL_LINE, clients, 0x63, "1: 0 0 11 2 10, 0 00");
    CHANGED(TUNNEL_LINE, sockets, 0x73, "1: 0 0 11 1 01, 0 00");
    CHANGED(CARD_LINE, number, 0x43, "1: 0 0 00 0 00, 0 10");
    CHANGED(CARD_LINE, node[5], 0x83, "0: 0 0 11 0 00, 0 00");
    CHANGED(CARD_LINE, is_of_several, 1, "0: 0 0 00 0 00, 0 10");
    /* a card that isn't there yet may be the same; and a link that isn't the first of its network is no port */
    a = b = CARD_LINE;
    b.node[5] = 0x83;
    b.has_node = 0;
    plans(&a, &b, "1: 0 0 11 0 00, 0 00");
    a = b = TUNNEL_LINE;
    a.is_first = b.is_first = 0;
    b.port = 0x53;
    plans(&a, &b, "1: 0 0 11 1 00, 0 00");
    /* of several it is another link, if it isn't carried alike */
    a = b = CARD_LINE;
    a.is_of_several = b.is_of_several = 1;
    b.number = 0x43;
    plans(&a, &b, "1: 64 0 00 0 00, 64 10");
}

static void a_plan(void)
{
    ipxr_plan_link old[3] = {CARD_LINE, TUNNEL_LINE, TUNNEL_LINE}, links[2] = {TUNNEL_LINE, CARD_LINE};
    ipxr_plan_origin origins[4] = {{0}};
    ipxr_plan_fate fates[5] = {{0}};
    plans_of_one();
    old[2].network = 0x14;
    origins[2].was = fates[3].becomes = 0x91;
    ANSWERS(0, ipxr_plan(old, 3, links, 2, origins, 4, fates, 5));
    WROTE(1, origins[0].was);
    WROTE(0, origins[1].was);
    WROTE(0x91, origins[2].was);
    WROTE(1, fates[0].becomes);
    WROTE(0, fates[1].becomes);
    WROTE(IPXR_NO_ONE, fates[2].becomes);
    WROTE(0x91, fates[3].becomes);
    ANSWERS(1, ipxr_plan(links, 2, links, 2, origins, 2, fates, 2));
    ANSWERS(IPXR_SHORT_BUFFER, ipxr_plan(old, 3, links, 2, origins, 1, fates, 3));
    ANSWERS(IPXR_SHORT_BUFFER, ipxr_plan(old, 3, links, 2, origins, 2, fates, 2));
    ANSWERS(0, ipxr_plan(old, 3, links, 2, origins, 2, fates, 3));
    links[1].carrier = IPXR_CARRIER_OWN + 1;
    ANSWERS(IPXR_BAD_LINK, ipxr_plan(old, 3, links, 2, origins, 2, fates, 3));
}

/* ---- Cables ---- */

/* Two stations of one bucket, and what is said of them. */
static void kinds_of_stations(void)
{
    static const uint8_t NODE[6] = {0xA1, 0xA2, 0xA3, 0xA4, 0xA5, 0xA6}, OTHER[6] = {0xB1, 0xB2, 0xB3, 0xB4, 0xB5, 0xB6}, ALL[6] = EVERYONE;
    ipxr_kinds it;
    memset(&it, 0, sizeof it);
    ANSWERS(1, ipxr_kinds_speaks(&it, 9, NODE, IPXR_FRAME_LLC));
    ANSWERS(0, ipxr_kinds_is_used(&it, IPXR_FRAME_LLC));
    ANSWERS(0, ipxr_kinds_hear(&it, 9, NODE, IPXR_FRAME_KINDS + 1, 0));
    ANSWERS(1, ipxr_kinds_hear(&it, 64 + 9, NODE, IPXR_FRAME_SNAP, 0));
    WROTE_BYTES("A1A2A3A4A5A6", it.buckets[9].stations[0].node);
    WROTE(IPXR_FRAME_SNAP, it.buckets[9].stations[0].kind);
    WROTE(300, it.buckets[9].stations[0].left);
    WROTE(3600, it.left[IPXR_FRAME_SNAP - 1]);
    CALLS(ipxr_kinds_second(&it));
    WROTE(299, it.buckets[9].stations[0].left);
    WROTE(3599, it.left[IPXR_FRAME_SNAP - 1]);
    ANSWERS(1, ipxr_kinds_hear(&it, 9, OTHER, IPXR_FRAME_RAW, 1));
    ANSWERS(0, ipxr_kinds_hear(&it, 9, OTHER, IPXR_FRAME_LLC, 1));
    ANSWERS(0, ipxr_kinds_is_used(&it, IPXR_FRAME_LLC));
    ANSWERS(1, ipxr_kinds_hear(&it, 9, OTHER, IPXR_FRAME_LLC, 0));
    ANSWERS(1, ipxr_kinds_is_used(&it, IPXR_FRAME_LLC));
    ANSWERS(IPXR_FRAME_SNAP, ipxr_kinds_of(&it, 9, NODE));
    ANSWERS(IPXR_FRAME_RAW, ipxr_kinds_of(&it, 9, OTHER));
    ANSWERS(IPXR_NO_FRAME, ipxr_kinds_of(&it, 8, OTHER));
    ANSWERS(0, ipxr_kinds_speaks(&it, 9, NODE, IPXR_FRAME_LLC));
    ANSWERS(1, ipxr_kinds_speaks(&it, 9, NODE, IPXR_FRAME_SNAP));
    ANSWERS(1, ipxr_kinds_speaks(&it, 8, NODE, IPXR_FRAME_LLC));
    ANSWERS(1, ipxr_kinds_speaks(&it, 9, ALL, IPXR_FRAME_LLC));
    ANSWERS(0, ipxr_kinds_speaks(&it, 9, ALL, IPXR_NO_FRAME));
}

/* Of links 3 and 5 the later is shut, by whichever probe comes first. */
static void loops(void)
{
    ipxr_loop third = {0}, fifth = {0};
    ANSWERS(IPXR_PROBE_LATE, ipxr_loop_probe(5, 3, 1001, 1005, &fifth, &third));
    ANSWERS(IPXR_PROBE_LATE, ipxr_loop_probe(5, 3, 1002, 1001, &fifth, &third));
    ANSWERS(IPXR_PROBE_HERE, ipxr_loop_probe(5, 3, 1001, 1003, &fifth, &third));
    WROTE(6, fifth.left);
    WROTE(0, third.left);
    ANSWERS(0, ipxr_loop_second(&fifth));
    WROTE(5, fifth.left);
    ANSWERS(IPXR_PROBE_NOTHING, ipxr_loop_probe(3, 5, 1001, 1003, &third, &fifth));
    WROTE(5, fifth.left);
    ANSWERS(IPXR_PROBE_NOTHING, ipxr_loop_probe(5, 3, 1001, 1003, &fifth, &third));
    WROTE(6, fifth.left);
    fifth.left = 1;
    ANSWERS(1, ipxr_loop_second(&fifth));
    WROTE(0, fifth.left);
    ANSWERS(IPXR_PROBE_THERE, ipxr_loop_probe(3, 5, 1001, 1003, &third, &fifth));
    WROTE(6, fifth.left);
    WROTE(0, third.left);
}

static void ranges(void)
{
    static const uint8_t INSIDE[4] = {10, 11, 12, 13}, OUTSIDE[4] = {10, 11, 13, 12};
    ipxr_range list[3] = {{{127, 0, 0, 1}, 32}, {{10, 11, 12, 8}, 24}, {{10, 11, 13, 0}, 24}};
    ANSWERS(1, ipxr_ranges_have(list, 2, INSIDE));
    ANSWERS(0, ipxr_ranges_have(list, 2, OUTSIDE));
    ANSWERS(1, ipxr_ranges_have(list, 3, OUTSIDE));
    ANSWERS(1, ipxr_range_is_first(&list[0]));
    ANSWERS(0, ipxr_range_is_first(&list[1]));
    list[1].bits = 29;
    ANSWERS(1, ipxr_range_is_first(&list[1]));
}

/* Four wait, then two more; each call has its own second. */
static void a_pace(void)
{
    const uint64_t begin = 1000000007u, apart = 900000000u;
    ipxr_pace pace = {0, 0};
    CALLS(ipxr_pace_more_wait(&pace, 4, apart, begin));
    WROTE(1000000007, pace.next);
    WROTE(900000000, pace.between);
    ANSWERS(0, ipxr_pace_lets_go(&pace, 4, begin - 1));
    ANSWERS(0, ipxr_pace_lets_go(&pace, 0, begin));
    ANSWERS(1, ipxr_pace_lets_go(&pace, 4, begin));
    WROTE(1900000007, pace.next);
    CALLS(ipxr_pace_more_wait(&pace, 5, apart, begin));
    WROTE(800000000, pace.between);
    WROTE(1800000007, pace.next);
    ANSWERS(1, ipxr_pace_lets_go(&pace, 1, begin + apart));
    WROTE(0, pace.next);
    WROTE(0, pace.between);
}

/* A node is on link 2 in odd seconds, on link 7 in even ones: it is told once, in its fifth second with a move. */
static void twins(void)
{
    static const uint8_t NODE[6] = {0xA1, 0xA2, 0xA3, 0xA4, 0xA5, 0xA6};
    ipxr_twins it;
    uint8_t before = 99;
    memset(&it, 0, sizeof it);
    for (uint64_t second = 1001; second < 1006; second++)
        ANSWERS(0, ipxr_twins_hear(&it, NODE, second % 2 ? 2 : 7, second, &before));
    WROTE(99, before);
    ANSWERS(1, ipxr_twins_hear(&it, NODE, 7, 1006, &before));
    WROTE(2, before);
    WROTE(1006, it.told);
    WROTE_BYTES("A1A2A3A4A5A6", it.list[(0xA5 + 0xA6) % 64].node);
    WROTE(7, it.list[(0xA5 + 0xA6) % 64].link);
    WROTE(5, it.list[(0xA5 + 0xA6) % 64].moves);
    WROTE(1002, it.list[(0xA5 + 0xA6) % 64].began);
    WROTE(1006, it.list[(0xA5 + 0xA6) % 64].moved);
    WROTE(1, it.list[(0xA5 + 0xA6) % 64].is_told);
}

static void who_is_asked_again(void)
{
    const uint64_t now = 1000000007u, number = 100000000u; /* 350 ms later */
    ipxr_asked one = {0}, other = {0};
    ipxr_asks all = {0};
    ANSWERS(0, ipxr_asks_are_due(&all, now));
    ANSWERS(77, ipxr_asks_patience(&all, 77, now));
    CALLS(ipxr_asked_ask(&one, &all, now, number));
    WROTE(1350000007, one.again);
    CALLS(ipxr_asked_ask(&other, &all, now, number + 1));
    WROTE(1350000008, other.again);
    WROTE(1350000007, all.next);
    ANSWERS(350, ipxr_asks_patience(&all, 1000, now));
    ANSWERS(349, ipxr_asks_patience(&all, 349, now));
    ANSWERS(0, ipxr_asks_are_due(&all, now + 349999999));
    ANSWERS(1, ipxr_asks_are_due(&all, now + 350000000));
    WROTE(0, all.next);
    ANSWERS(1, ipxr_asked_is_due(&one, &all, now + 350000000));
    ANSWERS(0, ipxr_asked_is_due(&other, &all, now + 350000000));
    WROTE(1350000008, all.next);
    CALLS(ipxr_asked_answer(&one));
    WROTE(0, one.again);
    ANSWERS(0, ipxr_asked_is_due(&one, &all, now + 350000000));
}

static void own_nodes(void)
{
    static const uint8_t CARD[6] = {0xA1, 0xA2, 0xA3, 0xA4, 0xA5, 0xA6}, NO_CARD[6] = {0}, SAID[6] = {0xB1, 0xB2, 0xB3, 0xB4, 0xB5, 0xB6};
    const uint64_t hash = 0x1122334455667788u;
    uint8_t node[6];
    CALLS(ipxr_node_choose(1, 0, 1, SAID, CARD, hash, node));
    WROTE_BYTES("000000000001", node);
    CALLS(ipxr_node_choose(0, 0, 1, SAID, CARD, hash, node));
    WROTE_BYTES("A1A2A3A4A5A6", node);
    CALLS(ipxr_node_choose(1, 1, 1, SAID, CARD, hash, node));
    WROTE_BYTES("B1B2B3B4B5B6", node);
    CALLS(ipxr_node_choose(0, 0, 0, SAID, NO_CARD, hash, node));
    WROTE_BYTES("027766554433", node);
}

/* ---- Fates ---- */

/* A frame of the gateway's own, and one of several links that the router drops. */
static void a_frame(void)
{
    static const uint16_t OWN[5] = {1, 1, 0, 2, 0}, ROUTED[17] = {1, 1, 0, 0, 1, 0, 0, IPXR_NO_REASON, 1, 1, 0, 0, 0, 1, IPXR_NO_REASON, 0, 0};
    ipxr_course way = {9, 9, 9}, other;
    ipxr_counts counts;
    memset(&counts, 0, sizeof counts);
    CALLS(ipxr_course_of_frame(&way));
    WROTE(IPXR_NEXT_FRAME_IS_FRAME, way.next);
    WROTE(0, way.fate);
    WROTE(0, way.number);
    other = way;
    for (size_t k = 0; k < 5; k++)
        CALLS(ipxr_course_answer(&way, OWN[k]));
    WROTE(IPXR_NEXT_END, way.next);
    WROTE(IPXR_FATE_LOST, way.fate);
    WROTE(IPXR_LOST_OWN_FRAME, way.number);
    CALLS(ipxr_counts_count(&counts, &way));
    CALLS(ipxr_counts_count(&counts, &other));
    WROTE(1, counts.in);
    WROTE(1, counts.lost[IPXR_LOST_OWN_FRAME]);
    for (size_t k = 0; k < 17; k++)
        CALLS(ipxr_course_answer(&other, ROUTED[k]));
    WROTE(IPXR_NEXT_ROUTER_HEAR, other.next);
    CALLS(ipxr_course_answer(&other, 0));
    CALLS(ipxr_course_answer(&other, IPXR_BAD_SAP_OPERATION));
    WROTE(IPXR_FATE_DROPPED, other.fate);
    WROTE(IPXR_BAD_SAP_OPERATION, other.number);
    CALLS(ipxr_counts_count(&counts, &other));
    WROTE(2, counts.in);
    WROTE(1, counts.dropped[122]);
    CALLS(ipxr_counts_lose(&counts, IPXR_LOST_NOT_SENT));
    CALLS(ipxr_counts_lose(&counts, IPXR_NO_REASON));
    WROTE(1, counts.lost[IPXR_LOST_NOT_SENT]);
    WROTE(2, counts.in);
}

/* A client's word for routers of another network. */
static void a_datagram(void)
{
    static const uint16_t FAR[8] = {0, 0, 1, IPXR_SPEAKS, 1, 0, 1, 1};
    ipxr_course way;
    CALLS(ipxr_course_of_datagram(&way));
    WROTE(IPXR_NEXT_DATAGRAM_IS_TOO_LONG, way.next);
    for (size_t k = 0; k < 8; k++)
        CALLS(ipxr_course_answer(&way, FAR[k]));
    WROTE(IPXR_FATE_LOST, way.fate);
    WROTE(IPXR_LOST_FOR_FAR_ROUTERS, way.number);
}

/* ---- Lines of a configuration ---- */

#define READS(text) (const uint8_t *)(text), sizeof(text) - 1

static void a_link(void)
{
    ipxr_setting said;
    memset(&said, 0xAA, sizeof said);
    ANSWERS(0, ipxr_settings_line(READS("network 1F 2 1400 7 9 qemu-udp 1.2.3.4:5 6.7.8.9:10 llc node 02:00:00:00:00:07"), 1, 0, 100, &said));
    WROTE(12, said.read);
    WROTE(IPXR_SETTING_NETWORK, said.kind);
    WROTE(0, said.bits);
    WROTE(0x1F, said.network.number);
    WROTE(1, said.network.has_head);
    WROTE(1, said.network.has_shares);
    WROTE(2, said.network.cost);
    WROTE(1400, said.network.longest);
    WROTE(7, said.network.routes);
    WROTE(9, said.network.services);
    WROTE(1, said.network.has_node);
    WROTE_BYTES("020000000007", said.network.node);
    WROTE(IPXR_OVER_UDP, said.link.carrier);
    WROTE(IPXR_FRAME_LLC, said.link.frames);
    WROTE(1, said.link.has_word);
    WROTE_BYTES("01020304", said.link.local.four);
    WROTE(5, said.link.local.port);
    WROTE(0, said.link.local.is_six);
    WROTE_BYTES("06070809", said.link.remote.four);
    WROTE(10, said.link.remote.port);
    WROTE(0, said.link.host[0]);
    WROTE(0, said.link.name[0]);
    WROTE(0, said.numbers[0]);
    ANSWERS(0, ipxr_settings_line(READS("network 1F 2 1400 7 9 tap Aa raw"), 1, 0, 100, &said));
    WROTE(1, said.network.has_shares);
    WROTE(0, said.network.has_node);
    ANSWERS(0, ipxr_settings_line(READS("network 1F 2 1400 tap Aa raw"), 1, 0, 100, &said));
    WROTE(1, said.network.has_head);
    WROTE(0, said.network.has_shares);
    WROTE(0, said.network.has_node);
    WROTE(IPXR_OVER_TAP, said.link.carrier);
    WROTE_BYTES("4161 0000", said.link.name);
    ANSWERS(IPXR_EXPECTED_LINK_OF_SYSTEM, ipxr_settings_line(READS("link tap Aa raw"), 0, 1, 100, &said));
    WROTE(IPXR_SETTING_LINK, said.kind);
    WROTE(0, said.link.has_word);
    WROTE(0, said.network.has_head);
    ANSWERS(0, ipxr_settings_line(READS("link qemu-tcp connect Bb:6 auto"), 1, 0, 100, &said));
    WROTE_BYTES("4262 0000", said.link.host);
    WROTE(6, said.link.remote.port);
    ANSWERS(0, ipxr_settings_line(READS("link qemu-tcp listen [1:2:3:4:5:6:7:8]:9 snap"), 1, 0, 100, &said));
    WROTE(1, said.link.local.is_six);
    WROTE(1, said.link.local.six[0]);
    WROTE(8, said.link.local.six[7]);
}

/* Whether so many bytes of a room are that text, and the byte behind them was left. */
#define WROTE_TEXT(text, room) \
    do { \
        WROTE(0, memcmp(text, room, sizeof(text) - 1)); \
        WROTE(0xAA, room[sizeof(text) - 1]); \
    } while (0)

static void words_of_a_link(void)
{
    static const char UDP[] = "qemu-udp 1.2.3.4:5 Bb:6 llc", SIX[] = "qemu-udp [fd00::1:2]:9 [::ffff:10.20.30.40]:65535 snap",
                      TAP[] = "tap Aa auto";
    uint8_t room[IPXR_LONGEST_LINK];
    ipxr_setting said;
    memset(room, 0xAA, sizeof room);
    ANSWERS(0, ipxr_settings_line(READS("link qemu-udp 1.2.3.4:5 Bb:6 llc"), 1, 0, 100, &said));
    ANSWERS(9, ipxr_settings_address_words(&said.link.local, room, 9));
    WROTE_TEXT("1.2.3.4:5", room);
    ANSWERS(sizeof UDP - 1, ipxr_settings_link_words(&said.link, room, sizeof room));
    WROTE_TEXT(UDP, room);
    memset(room, 0xAA, sizeof room);
    ANSWERS(0, ipxr_settings_address_words(&said.link.local, room, 8));
    ANSWERS(0, ipxr_settings_link_words(&said.link, room, sizeof UDP - 2));
    WROTE_TEXT("", room);
    said.link.frames = IPXR_NO_FRAME;
    ANSWERS(0, ipxr_settings_link_words(&said.link, room, sizeof room));
    said.link.carrier = IPXR_OVER_NONE;
    ANSWERS(0, ipxr_settings_link_words(&said.link, room, sizeof room));
    ANSWERS(0, ipxr_settings_line(READS("link qemu-udp [FD00:0::0:1:2]:9 [0:0:0:0:0:ffff:a14:1e28]:65535 snap"), 1, 0, 100, &said));
    ANSWERS(sizeof SIX - 1, ipxr_settings_link_words(&said.link, room, sizeof room));
    WROTE_TEXT(SIX, room);
    memset(room, 0xAA, sizeof room);
    ANSWERS(0, ipxr_settings_line(READS("link tap Aa auto"), 1, 0, 100, &said));
    ANSWERS(sizeof TAP - 1, ipxr_settings_link_words(&said.link, room, sizeof TAP - 1));
    WROTE_TEXT(TAP, room);
}

/* Links to a group and to a switch, and what a system has. */
static void a_group_and_a_switch(void)
{
    static const char GROUP[] = "qemu-mcast 230.0.0.1:1234 via 192.168.1.2 raw", SWITCH[] = "vde /run/a snap";
    uint8_t room[IPXR_LONGEST_LINK];
    ipxr_setting said;
    memset(&said, 0xAA, sizeof said);
    memset(room, 0xAA, sizeof room);
    ANSWERS(0, ipxr_settings_line(READS("link qemu-mcast 230.0.0.1:1234 via 192.168.1.2 raw"), IPXR_CARDS_NONE, 0, 100, &said));
    WROTE(IPXR_OVER_GROUP, said.link.carrier);
    WROTE_BYTES("C0A80102", said.link.local.four);
    WROTE(0, said.link.local.port);
    WROTE_BYTES("E6000001", said.link.remote.four);
    WROTE(1234, said.link.remote.port);
    ANSWERS(sizeof GROUP - 1, ipxr_settings_link_words(&said.link, room, sizeof room));
    WROTE_TEXT(GROUP, room);
    memset(room, 0xAA, sizeof room);
    ANSWERS(0, ipxr_settings_line(READS("link vde /run/a snap"), IPXR_CARDS_ALL, 0, 100, &said));
    WROTE(IPXR_OVER_SWITCH, said.link.carrier);
    WROTE_BYTES("2F72756E2F61 0000", said.link.host);
    ANSWERS(sizeof SWITCH - 1, ipxr_settings_link_words(&said.link, room, sizeof room));
    WROTE_TEXT(SWITCH, room);
    ANSWERS(IPXR_EXPECTED_LINK_OF_SYSTEM, ipxr_settings_line(READS("link vde /run/a snap"), IPXR_CARDS_INTERFACES, 0, 100, &said));
    ANSWERS(IPXR_EXPECTED_LINK_OF_SYSTEM, ipxr_settings_line(READS("link tap Aa raw"), IPXR_CARDS_INTERFACES, 0, 100, &said));
    ANSWERS(0, ipxr_settings_line(READS("link interface Aa raw"), IPXR_CARDS_INTERFACES, 0, 100, &said));
    ANSWERS(IPXR_EXPECTED_GROUP, ipxr_settings_line(READS("link qemu-mcast 1.2.3.4:5 raw"), IPXR_CARDS_NONE, 0, 100, &said));
    ANSWERS(IPXR_EXPECTED_VIA_OR_FRAMES, ipxr_settings_line(READS("link qemu-mcast 230.0.0.1:1"), IPXR_CARDS_NONE, 0, 100, &said));
    ANSWERS(IPXR_EXPECTED_CARD, ipxr_settings_line(READS("link qemu-mcast 230.0.0.1:1 via 0.0.0.0 raw"), IPXR_CARDS_NONE, 0, 100, &said));
    ANSWERS(IPXR_EXPECTED_SWITCH, ipxr_settings_line(READS("link vde"), IPXR_CARDS_ALL, 0, 100, &said));
}

/* Links of clients by WebSocket, and where their pages come from. */
static void clients_by_websocket(void)
{
    static const char TUNNEL[] = "web 127.0.0.1:8080", FRAMES[] = "web 0.0.0.0:8080 raw";
    uint8_t room[IPXR_LONGEST_LINK];
    ipxr_setting said;
    memset(&said, 0xAA, sizeof said);
    memset(room, 0xAA, sizeof room);
    ANSWERS(0, ipxr_settings_line(READS("link web 8080"), IPXR_CARDS_NONE, 0, 100, &said));
    WROTE(IPXR_OVER_WEB, said.link.carrier);
    WROTE(IPXR_NO_FRAME, said.link.frames);
    WROTE_BYTES("7F000001", said.link.local.four);
    WROTE(8080, said.link.local.port);
    ANSWERS(sizeof TUNNEL - 1, ipxr_settings_link_words(&said.link, room, sizeof room));
    WROTE_TEXT(TUNNEL, room);
    memset(room, 0xAA, sizeof room);
    ANSWERS(0, ipxr_settings_line(READS("link web 0.0.0.0:8080 raw"), IPXR_CARDS_NONE, 0, 100, &said));
    WROTE(IPXR_OVER_WEB, said.link.carrier);
    WROTE(IPXR_FRAME_RAW, said.link.frames);
    ANSWERS(sizeof FRAMES - 1, ipxr_settings_link_words(&said.link, room, sizeof room));
    WROTE_TEXT(FRAMES, room);
    ANSWERS(IPXR_EXPECTED_FRAMES_OR_NOTHING, ipxr_settings_line(READS("link web 8080 fast"), IPXR_CARDS_NONE, 0, 100, &said));
    ANSWERS(0, ipxr_settings_line(READS("origins http://a *"), IPXR_CARDS_NONE, 1, 100, &said));
    WROTE(IPXR_SETTING_ORIGINS, said.kind);
    ANSWERS(IPXR_EXPECTED_ORIGIN, ipxr_settings_line(READS("origins a"), IPXR_CARDS_NONE, 1, 100, &said));
}

/* Links to other places, and where these are. */
static void other_places(void)
{
    static const char PEERS[] = "peers 0.0.0.0:2131 /a.key llc", RFC1234[] = "rfc1234 192.0.2.7:213";
    uint8_t room[IPXR_LONGEST_LINK];
    ipxr_setting said;
    memset(&said, 0xAA, sizeof said);
    memset(room, 0xAA, sizeof room);
    ANSWERS(0, ipxr_settings_line(READS("link peers 0.0.0.0:2131 /a.key llc"), IPXR_CARDS_NONE, 0, 100, &said));
    WROTE(IPXR_OVER_PEERS, said.link.carrier);
    WROTE(IPXR_FRAME_LLC, said.link.frames);
    WROTE(2131, said.link.local.port);
    WROTE_BYTES("2F612E6B6579 0000", said.link.host);
    ANSWERS(sizeof PEERS - 1, ipxr_settings_link_words(&said.link, room, sizeof room));
    WROTE_TEXT(PEERS, room);
    memset(room, 0xAA, sizeof room);
    ANSWERS(0, ipxr_settings_line(READS("network 1 1 576 rfc1234 192.0.2.7:213"), IPXR_CARDS_NONE, 0, 100, &said));
    WROTE(IPXR_OVER_RFC1234, said.link.carrier);
    WROTE(IPXR_NO_FRAME, said.link.frames);
    WROTE_BYTES("C0000207", said.link.local.four);
    ANSWERS(sizeof RFC1234 - 1, ipxr_settings_link_words(&said.link, room, sizeof room));
    WROTE_TEXT(RFC1234, room);
    ANSWERS(IPXR_EXPECTED_KEY_FILE, ipxr_settings_line(READS("link peers 2131"), IPXR_CARDS_NONE, 0, 100, &said));
    ANSWERS(IPXR_EXPECTED_CARD_AND_PORT, ipxr_settings_line(READS("link rfc1234 0.0.0.0:213"), IPXR_CARDS_NONE, 0, 100, &said));
    ANSWERS(0, ipxr_settings_line(READS("peer 192.0.2.9:213"), IPXR_CARDS_NONE, 0, 100, &said));
    WROTE(IPXR_SETTING_PEER, said.kind);
    WROTE(0, said.link.has_word);
    WROTE_BYTES("C0000209", said.link.remote.four);
    WROTE(213, said.link.remote.port);
    ANSWERS(0, ipxr_settings_line(READS("peer a.b:213"), IPXR_CARDS_NONE, 0, 100, &said));
    WROTE_BYTES("612E62 0000", said.link.host);
    ANSWERS(IPXR_EXPECTED_REMOTE, ipxr_settings_line(READS("peer 192.0.2.9"), IPXR_CARDS_NONE, 0, 100, &said));
}

/* A route and a service by way of a node. */
static void a_static_line(void)
{
    ipxr_setting said;
    memset(&said, 0xAA, sizeof said);
    ANSWERS(0, ipxr_settings_line(READS("route A1 2 3 via 00001B0204AA"), 0, 0, 99, &said));
    WROTE(IPXR_SETTING_ROUTE, said.kind);
    WROTE(6, said.read);
    WROTE(0, said.route.line);
    WROTE(0xA1, said.route.route.network);
    WROTE(2, said.route.route.hops);
    WROTE(3, said.route.route.ticks);
    WROTE_BYTES("00001B0204AA", said.route.via);
    WROTE(0, said.service.service.type);
    WROTE_BYTES("000000000000", said.service.via);
    ANSWERS(0, ipxr_settings_line(READS("service 4 AB A1.000000000001.451 5 via 00001B0204BB"), 0, 0, 99, &said));
    WROTE(IPXR_SETTING_SERVICE, said.kind);
    WROTE(7, said.read);
    WROTE(0, said.service.line);
    WROTE(4, said.service.service.type);
    WROTE_BYTES("4142 0000", said.service.service.name);
    WROTE(0xA1, said.service.service.network);
    WROTE_BYTES("000000000001", said.service.service.node);
    WROTE(0x451, said.service.service.socket);
    WROTE(5, said.service.service.hops);
    WROTE_BYTES("00001B0204BB", said.service.via);
    WROTE(0, said.route.route.hops);
    ANSWERS(IPXR_EXPECTED_DESTINATION, ipxr_settings_line(READS("route FFFFFFFF"), 0, 0, 99, &said));
    ANSWERS(IPXR_EXPECTED_HOPS, ipxr_settings_line(READS("route A1 16"), 0, 0, 99, &said));
    ANSWERS(IPXR_EXPECTED_TICKS, ipxr_settings_line(READS("route A1 15 0"), 0, 0, 99, &said));
    ANSWERS(IPXR_EXPECTED_VIA, ipxr_settings_line(READS("route A1 15 1"), 0, 0, 99, &said));
    WROTE(0, said.route.route.network);
    ANSWERS(IPXR_EXPECTED_NODE, ipxr_settings_line(READS("route A1 15 1 via FFFFFFFFFFFF"), 0, 0, 99, &said));
    ANSWERS(IPXR_EXPECTED_ONE_TYPE, ipxr_settings_line(READS("service FFFF"), 0, 0, 99, &said));
    ANSWERS(IPXR_EXPECTED_SERVICE_NAME, ipxr_settings_line(READS("service 4 A*"), 0, 0, 99, &said));
    ANSWERS(IPXR_EXPECTED_SERVICE_ADDRESS, ipxr_settings_line(READS("service 4 AB A1.000000000000.451"), 0, 0, 99, &said));
}

static void a_line(void)
{
    size_t start = 77;
    uint32_t number = 5;
    uint8_t node[6] = {1};
    ipxr_setting said;
    ipxr_setting_range range = {{0}, 0};
    a_link();
    words_of_a_link();
    a_group_and_a_switch();
    clients_by_websocket();
    other_places();
    ANSWERS(0, ipxr_settings_line(READS("rate 100 50 70"), 0, 1, 100, &said));
    WROTE(100, said.numbers[0]);
    WROTE(50, said.numbers[1]);
    WROTE(70, said.numbers[2]);
    ANSWERS(IPXR_EXPECTED_NOTHING, ipxr_settings_line(READS("rate 100 50 70"), 1, 0, 100, &said));
    ANSWERS(0, ipxr_settings_line(READS("clients 100"), 1, 0, 100, &said));
    ANSWERS(IPXR_EXPECTED_CLIENTS, ipxr_settings_line(READS("clients 100"), 1, 0, 99, &said));
    ANSWERS(IPXR_EXPECTED_FIRST, ipxr_settings_line(READS("allow 1.2.3.4/24"), 1, 0, 99, &said));
    WROTE(24, said.bits);
    WROTE(1, said.read);
    WROTE(IPXR_SETTING_ALLOW, said.kind);
    ANSWERS(IPXR_EXPECTED_BY_ADDRESS, ipxr_settings_line(READS("nodes by-name"), 0, 1, 99, &said));
    WROTE(1, said.read);
    WROTE(IPXR_SETTING_NODES, said.kind);
    ANSWERS(0, ipxr_settings_line(READS("internal 2F node 02:00:00:00:00:07"), 0, 0, 99, &said));
    WROTE(IPXR_SETTING_INTERNAL, said.kind);
    WROTE(0x2F, said.network.number);
    WROTE(0, said.network.has_head);
    WROTE(1, said.network.has_node);
    WROTE_BYTES("020000000007", said.network.node);
    ANSWERS(0, ipxr_settings_line(READS("permit service 0004 LAB* out"), 0, 0, 99, &said));
    WROTE(IPXR_SETTING_PERMIT, said.kind);
    WROTE(1, said.rule.permits);
    WROTE(IPXR_RULE_SERVICES, said.rule.what);
    WROTE(IPXR_WAY_OUT, said.rule.way);
    WROTE(IPXR_NAMES_BEGIN, said.rule.names);
    WROTE(4, said.rule.type);
    WROTE(0, said.rule.socket);
    WROTE_BYTES("4C41 4200", said.rule.name);
    ANSWERS(0, ipxr_settings_line(READS("deny route 1000-1FFF in"), 0, 0, 99, &said));
    WROTE(IPXR_SETTING_DENY, said.kind);
    WROTE(0, said.rule.permits);
    WROTE(0x1000, said.rule.from);
    WROTE(0x1FFF, said.rule.to);
    ANSWERS(IPXR_EXPECTED_WAY, ipxr_settings_line(READS("deny route 1000"), 0, 0, 99, &said));
    WROTE(0, said.rule.what);
    ANSWERS(0, ipxr_settings_line(READS("deny socket 0457"), 0, 0, 99, &said));
    WROTE(IPXR_RULE_SOCKET, said.rule.what);
    WROTE(0x457, said.rule.socket);
    a_static_line();
    ANSWERS(IPXR_EXPECTED_NO, ipxr_settings_line(READS("adopt yes"), 0, 0, 99, &said));
    WROTE(IPXR_SETTING_ADOPT, said.kind);
    ANSWERS(IPXR_EXPECTED_NODE_WORD, ipxr_settings_line(READS("internal 2F nodes"), 0, 0, 99, &said));
    WROTE(2, said.read);
    WROTE(0, said.network.has_node);
    ANSWERS(4, ipxr_settings_word(READS("one three four # five"), 2, &start));
    WROTE(10, start);
    ANSWERS(0, ipxr_settings_word(READS("one three four # five"), 3, &start));
    WROTE(10, start);
    ANSWERS(0x4003, ipxr_settings_socket(READS("4003")));
    ANSWERS(0, ipxr_settings_socket(READS("14003")));
    ANSWERS(1, ipxr_settings_hexadecimal(READS("1F"), 4, &number));
    WROTE(0x1F, number);
    ANSWERS(0, ipxr_settings_hexadecimal(READS("1F2F"), 2, &number));
    WROTE(0x1F, number);
    ANSWERS(1, ipxr_settings_node(READS("0102030405FF"), node));
    WROTE_BYTES("0102030405FF", node);
    ANSWERS(0, ipxr_settings_node(READS("0102030405F"), node));
    ANSWERS(1, ipxr_settings_range(READS("10.20.30.0/24"), &range));
    WROTE_BYTES("0A141E00", range.first);
    WROTE(24, range.bits);
    ANSWERS(0, ipxr_settings_range(READS("10.20.30/24"), &range));
}

/* ---- Lines of a configuration together ---- */

static ipxr_configuration all;

#define SAYS(line, text) ipxr_configuration_line(&all, READS(text), line, 1, &said, &wrong)

static void a_network_is_kept(size_t number, int line, int first, int has_link, int has_shares, int is_of_several, int has_node)
{
    const ipxr_network_setting *it = &all.networks.list[number];
    WROTE(line, it->line);
    WROTE(first, it->first);
    WROTE(has_link, it->has_link);
    WROTE(has_shares, it->has_shares);
    WROTE(is_of_several, it->is_of_several);
    WROTE(has_node, it->has_node);
}

/* What memory has of the networks and links that a_configuration reads. */
static void all_is_kept(void)
{
    const ipxr_network_setting *network = &all.networks.list[1];
    const ipxr_link_setting *link = &all.links.list[0];
    a_network_is_kept(0, 11, 0, 1, 0, 0, 0);
    a_network_is_kept(1, 21, 1, 1, 1, 0, 1);
    a_network_is_kept(2, 31, 2, 1, 1, 1, 0);
    WROTE(3, all.networks.count);
    WROTE(4, all.links.count);
    WROTE(2, all.above);
    WROTE(0xB, network->number);
    WROTE(4, network->cost);
    WROTE(1300, network->longest);
    WROTE(40, network->routes);
    WROTE(41, network->services);
    WROTE_BYTES("020000000007", network->node);
    WROTE(0x4003, all.networks.list[0].sockets.list[0]);
    WROTE(3, all.networks.list[0].sockets.count);
    WROTE(22, all.networks.list[1].adopt_line);
    WROTE(0, all.networks.list[2].adopt_line);
    WROTE(1, all.networks.list[1].rules.count);
    WROTE(20, all.networks.list[1].rules.list[0].type);
    WROTE(0, all.networks.list[2].rules.count);
    WROTE(2, all.networks.list[1].static_routes.count);
    WROTE(25, all.networks.list[1].static_routes.list[1].line);
    WROTE(0, all.networks.list[2].static_routes.count);
    WROTE(1, all.networks.list[1].static_services.count);
    WROTE(26, all.networks.list[1].static_services.list[0].line);
    WROTE(0, all.networks.list[2].static_services.count);
    WROTE(11, link->line);
    WROTE(0, link->network);
    WROTE(12, link->clients.line);
    WROTE(9, link->clients.all);
    WROTE(8, link->clients.of_address);
    WROTE(13, link->rate.line);
    WROTE(70, link->rate.rate);
    WROTE(60, link->rate.share);
    WROTE(90, link->rate.household);
    WROTE(14, link->strangers.line);
    WROTE(77, link->strangers.number);
    WROTE(15, link->kilobits.line);
    WROTE(88, link->kilobits.number);
    WROTE(1, link->allowed.count);
    WROTE(2, link->trusted.count);
    WROTE(24, link->trusted.list[1].bits);
    WROTE(20, link->nodes_line);
}

/* What all lines say of the links of these networks. */
static void all_is_told(void)
{
    ipxr_configured link;
    memset(&link, 0xAA, sizeof link);
    ANSWERS(1, ipxr_configuration_link(&all, 0, &link));
    WROTE(9, link.clients);
    WROTE(8, link.of_address);
    WROTE(70, link.rate);
    WROTE(60, link.share);
    WROTE(90, link.household);
    WROTE(77, link.strangers);
    WROTE(88, link.kilobits);
    WROTE(3, link.sockets.count);
    WROTE(1, link.allowed.count);
    WROTE(2, link.trusted.count);
    WROTE(1, link.nodes_by_address);
    WROTE(1, link.adopts);
    WROTE(64, link.routes);
    WROTE(32, link.services);
    ANSWERS(1, ipxr_configuration_link(&all, 1, &link));
    WROTE(0xB, link.number);
    WROTE(4, link.cost);
    WROTE(1300, link.longest);
    WROTE(40, link.routes);
    WROTE(41, link.services);
    WROTE(0, link.is_of_several);
    WROTE(1, link.has_node);
    WROTE(0, link.nodes_by_address);
    WROTE(0, link.adopts);
    WROTE(1, link.rules.count);
    WROTE(IPXR_RULE_TYPE, link.rules.list[0].what);
    WROTE(20, link.rules.list[0].type);
    WROTE(2, link.static_routes.count);
    WROTE(24, link.static_routes.list[0].line);
    WROTE(0xFFFFFFFE, link.static_routes.list[1].route.network);
    WROTE(15, link.static_routes.list[1].route.hops);
    WROTE(4, link.static_routes.list[1].route.ticks);
    WROTE_BYTES("00001B0204BB", link.static_routes.list[1].via);
    WROTE(1, link.static_services.count);
    WROTE(26, link.static_services.list[0].line);
    WROTE_BYTES("4142 0000", link.static_services.list[0].service.name);
    WROTE(0xA1, link.static_services.list[0].service.network);
    WROTE_BYTES("000000000001", link.static_services.list[0].service.node);
    WROTE(0x451, link.static_services.list[0].service.socket);
    WROTE(6, link.static_services.list[0].service.type);
    WROTE(7, link.static_services.list[0].service.hops);
    WROTE_BYTES("00001B0204AA", link.static_services.list[0].via);
    WROTE_BYTES("020000000007", link.node);
    WROTE(IPXR_OVER_UDP, link.carrier.number);
    WROTE(IPXR_FRAME_LLC, link.carrier.frames);
    WROTE(52, link.carrier.local.port);
    WROTE(53, link.carrier.remote.port);
    ANSWERS(1, ipxr_configuration_link(&all, 3, &link));
    WROTE(33, link.line);
    WROTE(31, link.network_line);
    WROTE(2, link.port);
    WROTE(256, link.clients);
    WROTE(42, link.routes);
    WROTE(43, link.services);
    WROTE(1, link.is_of_several);
    WROTE_BYTES("4162 0000", link.carrier.name);
    WROTE(0, link.nodes_by_address);
    WROTE(1, link.adopts);
    ANSWERS(0, ipxr_configuration_link(&all, 4, &link));
}

/* Lines that are wrong beside those of a_configuration. */
static void a_line_is_wrong(void)
{
    ipxr_setting said;
    ipxr_line_wrong wrong;
    ANSWERS(IPXR_EXPECTED_OTHER_KIND, SAYS(34, "link tap Ab raw"));
    WROTE(33, wrong.line);
    WROTE(0, wrong.unlinked);
    ANSWERS(IPXR_EXPECTED_LONGEST_OF_LINK, SAYS(35, "network E 1 1498 tap Bb llc"));
    WROTE(1498, wrong.numbers[0]);
    WROTE(1497, wrong.numbers[1]);
    ANSWERS(0, SAYS(41, "network D 6 1100"));
    ANSWERS(41, ipxr_configuration_unlinked(&all));
    ANSWERS(IPXR_EXPECTED_OTHER_NETWORK, SAYS(42, "network B 1 1400 dosbox 54"));
    WROTE(41, wrong.unlinked);
    WROTE(1, wrong.word);
    WROTE(21, wrong.line);
    WROTE(0, wrong.is_below_tunnel);
    ANSWERS(0, ipxr_configuration_unlinked(&all));
}

/* The router's own network beside those of a_configuration. */
static void an_own_network(void)
{
    ipxr_setting said;
    ipxr_line_wrong wrong;
    ipxr_internal own;
    memset(&own, 0xAA, sizeof own);
    ANSWERS(0, ipxr_configuration_internal(&all, &own));
    ANSWERS(0, SAYS(43, "network F 6 1100"));
    ANSWERS(IPXR_EXPECTED_OTHER_NETWORK, SAYS(44, "internal B"));
    WROTE(43, wrong.unlinked);
    WROTE(1, wrong.word);
    WROTE(21, wrong.line);
    ANSWERS(IPXR_EXPECTED_BELOW_SEVERAL, SAYS(45, "link tap Bb raw"));
    ANSWERS(0, SAYS(46, "internal 10"));
    ANSWERS(IPXR_EXPECTED_ONCE, SAYS(47, "internal 11"));
    WROTE(46, wrong.line);
    WROTE(0, wrong.word);
    ANSWERS(IPXR_EXPECTED_OTHER_NETWORK, SAYS(48, "network 10 1 1400 dosbox 54"));
    WROTE(46, wrong.line);
    ANSWERS(1, ipxr_configuration_internal(&all, &own));
    WROTE(46, own.line);
    WROTE(0x10, own.number);
    WROTE_BYTES("000000000001", own.node);
    WROTE(46, all.internal.line);
    WROTE(4, all.above);
}

/* Where the pages of clients by WebSocket come from. */
static void pages_of_clients(void)
{
    ipxr_setting said;
    ipxr_line_wrong wrong;
    ipxr_configured link;
    memset(&link, 0xAA, sizeof link);
    ANSWERS(0, SAYS(49, "network 50 1 1424 dosbox 55"));
    ANSWERS(IPXR_EXPECTED_BELOW_WEB, SAYS(50, "origins *"));
    ANSWERS(0, SAYS(51, "network 51 1 1424 web 8080"));
    ANSWERS(0, SAYS(52, "origins http://a *"));
    WROTE(1, wrong.is_below_tunnel);
    WROTE(2, all.links.list[all.links.count - 1].origins.count);
    WROTE_BYTES("2A 00", all.links.list[all.links.count - 1].origins.list[1].text);
    ANSWERS(1, ipxr_configuration_link(&all, all.links.count - 1, &link));
    WROTE(IPXR_OVER_WEB, link.carrier.number);
    WROTE(0, link.trusted.count);
    WROTE(2, link.origins.count);
    WROTE_BYTES("687474703A2F2F61 00", link.origins.list[0].text);
    WROTE(0, link.nodes_by_address);
    WROTE(1, link.adopts);
    WROTE(64, link.routes);
}

/* Other places of a network. */
static void places_of_a_network(void)
{
    ipxr_setting said;
    ipxr_line_wrong wrong;
    ipxr_configured link;
    memset(&link, 0xAA, sizeof link);
    ANSWERS(0, SAYS(53, "network 60 1 1360"));
    ANSWERS(IPXR_EXPECTED_BELOW_PEERS, SAYS(54, "peer 192.0.2.9:2131"));
    ANSWERS(IPXR_EXPECTED_OWN_LINE, SAYS(55, "link rfc1234 192.0.2.7:213"));
    WROTE(1, wrong.word);
    ANSWERS(0, SAYS(56, "link peers 2131 /a.key raw"));
    ANSWERS(IPXR_EXPECTED_ONE_PEERS, SAYS(57, "link peers 2132 /b.key raw"));
    WROTE(56, wrong.line);
    ANSWERS(0, SAYS(58, "link dosbox 2133"));
    ANSWERS(0, SAYS(59, "peer 192.0.2.9:2131"));
    ANSWERS(0, SAYS(60, "peer a.b:2131"));
    ANSWERS(IPXR_EXPECTED_OTHER_PEER, SAYS(61, "peer a.b:2131"));
    WROTE(1, wrong.word);
    WROTE(60, wrong.line);
    ANSWERS(IPXR_EXPECTED_PEER_OF_FOUR, SAYS(62, "peer [::1]:2131"));
    WROTE(1, wrong.word);
    ANSWERS(1, ipxr_configuration_link(&all, all.links.count - 2, &link));
    WROTE(IPXR_OVER_PEERS, link.carrier.number);
    WROTE(2, link.peers.count);
    WROTE(59, link.peers.list[0].line);
    WROTE_BYTES("C0000209", link.peers.list[0].at.four);
    WROTE_BYTES("612E62 0000", link.peers.list[1].host);
    WROTE(2131, link.peers.list[1].at.port);
    ANSWERS(0, SAYS(63, "network 61 1 1472 rfc1234 192.0.2.7:213"));
    ANSWERS(IPXR_EXPECTED_LONGEST_OF_LINK, SAYS(64, "network 62 1 1473 rfc1234 192.0.2.8:213"));
    WROTE(1472, wrong.numbers[1]);
}

static void a_configuration(void)
{
    ipxr_setting said;
    ipxr_line_wrong wrong;
    memset(&wrong, 0xAA, sizeof wrong);
    ANSWERS(0, SAYS(11, "network A 3 1400 dosbox 1.2.3.4:51"));
    WROTE(0, wrong.unlinked);
    WROTE(IPXR_SETTING_NETWORK, said.kind);
    ANSWERS(0, SAYS(12, "clients 9 8"));
    ANSWERS(0, SAYS(13, "rate 70 60 90"));
    ANSWERS(0, SAYS(14, "strangers 77"));
    ANSWERS(0, SAYS(15, "line 88"));
    ANSWERS(0, SAYS(16, "allow 10.0.0.0/8"));
    ANSWERS(0, SAYS(17, "trust 11.0.0.0/16 12.0.0.0/24"));
    ANSWERS(0, SAYS(18, "extend 4003 4004 4005"));
    ANSWERS(IPXR_EXPECTED_ONCE, SAYS(19, "rate 70"));
    WROTE(13, wrong.line);
    WROTE(0, wrong.word);
    WROTE(1, wrong.is_below_tunnel);
    ANSWERS(0, SAYS(20, "nodes by-address"));
    ANSWERS(0, SAYS(21, "network B 4 1300 40 41 qemu-udp 1.2.3.4:52 6.7.8.9:53 llc node 02:00:00:00:00:07"));
    ANSWERS(0, SAYS(22, "adopt no"));
    ANSWERS(0, SAYS(23, "deny type 20"));
    ANSWERS(0, SAYS(24, "route A1 2 3 via 00001B0204AA"));
    ANSWERS(0, SAYS(25, "route FFFFFFFE 15 4 via 00001B0204BB"));
    ANSWERS(0, SAYS(26, "service 6 AB A1.000000000001.451 7 via 00001B0204AA"));
    ANSWERS(IPXR_EXPECTED_OTHER_NETWORK, SAYS(27, "route A1 5 6 via 00001B0204BB"));
    WROTE(24, wrong.line);
    WROTE(1, wrong.word);
    ANSWERS(IPXR_EXPECTED_OTHER_SERVICE, SAYS(28, "service 6 AB A2.000000000001.451 7 via 00001B0204BB"));
    WROTE(26, wrong.line);
    WROTE(2, wrong.word);
    ANSWERS(IPXR_EXPECTED_OTHER_NETWORK, SAYS(29, "route A 5 6 via 00001B0204BB"));
    WROTE(11, wrong.line);
    ANSWERS(0, SAYS(31, "network C 5 1200 42 43"));
    ANSWERS(31, ipxr_configuration_unlinked(&all));
    ANSWERS(0, SAYS(32, "link tap Aa raw"));
    ANSWERS(0, SAYS(33, "link tap Ab raw"));
    all_is_kept();
    all_is_told();
    a_line_is_wrong();
    an_own_network();
    pages_of_clients();
    places_of_a_network();
}

/* ---- The edge of a cable ---- */

/* What a packet from network 0 to all on RIP's socket becomes: told by a neighbour, it is numbered; carried by a router, it is held, but
 * numbered by the call for that alone. A port without a cost is none. */
static void edges(void)
{
    const ipxr_port port = {.network = 0x11121314, .node = {0x21}, .cost = 1, .longest = 576};
    const ipxr_port none = {.network = 0x11121314, .node = {0x21}, .longest = 576};
    const ipxr_address from = {.node = {0x31}, .socket = IPXR_RIP_SOCKET}, to = {.node = EVERYONE, .socket = IPXR_RIP_SOCKET};
    ANSWERS(30, ipxr_write_packet(&from, &to, 0, 0, DATA, 0, buffer, sizeof buffer));
    ANSWERS(IPXR_BAD_COST, ipxr_edge_enter(&none, buffer, 30));
    ANSWERS(IPXR_BAD_COST, ipxr_edge_is_held(&none, buffer, 30));
    ANSWERS(IPXR_BAD_COST, ipxr_edge_number(&none, buffer, 30));
    ANSWERS(0, ipxr_edge_is_held(&port, buffer, 30));
    WROTE_BYTES("FFFF 001E 00 00 00000000 FFFFFFFFFFFF 0453 00000000 310000000000 0453", buffer);
    ANSWERS(1, ipxr_edge_enter(&port, buffer, 30));
    WROTE_BYTES("FFFF 001E 00 00 00000000 FFFFFFFFFFFF 0453 11121314 310000000000 0453", buffer);
    ANSWERS(30, ipxr_write_packet(&from, &to, 0, 1, DATA, 0, buffer, sizeof buffer));
    ANSWERS(1, ipxr_edge_is_held(&port, buffer, 30));
    ANSWERS(0, ipxr_edge_enter(&port, buffer, 30));
    WROTE_BYTES("FFFF 001E 01 00 00000000 FFFFFFFFFFFF 0453 00000000 310000000000 0453", buffer);
    ANSWERS(0, ipxr_edge_number(&port, buffer, 30));
    WROTE_BYTES("FFFF 001E 01 00 00000000 FFFFFFFFFFFF 0453 11121314 310000000000 0453", buffer);
}

/* A neighbour's number for the cable, where it is another one; and an answer that names nothing nearer. */
static void others_on_the_cable(void)
{
    const ipxr_port port = {.network = 0x11121314, .node = {0x21}, .cost = 1, .longest = 576};
    const ipxr_port none = {.network = 0x11121314, .node = {0x21}, .longest = 576};
    const ipxr_address own = {.network = 0x11121314, .node = {0x21}, .socket = IPXR_SAP_SOCKET};
    uint32_t network = 77;
    ANSWERS(48, ipxr_write_rip(&NEIGHBOUR, &ALL_RIP, IPXR_RIP_RESPONSE, ENTRIES, 2, buffer, sizeof buffer));
    ANSWERS(IPXR_BAD_COST, ipxr_edge_claim(&none, buffer, 48, &network));
    WROTE(77, network);
    ANSWERS(1, ipxr_edge_claim(&port, buffer, 48, &network));
    WROTE(0x31323334, network);
    ANSWERS(0, ipxr_edge_claim(&port, buffer, 47, &network));
    WROTE(0, network);
    ANSWERS(160, ipxr_write_sap(&own, &FROM, 1, OFFERS, 2, buffer, sizeof buffer));
    ANSWERS(IPXR_BAD_COST, ipxr_edge_is_needless(&none, 0x0F10, buffer, 160));
    ANSWERS(1, ipxr_edge_is_needless(&port, 0x0F10, buffer, 160));
    ANSWERS(0, ipxr_edge_is_needless(&port, 0x0F11, buffer, 160));
}

/* Routes and services in a neighbour's name. */
static void said_for_others(void)
{
    const ipxr_port port = {.network = 0x11121314, .node = {0x21}, .cost = 1, .longest = 576};
    const ipxr_port none = {.network = 0x11121314, .node = {0x21}, .longest = 576};
    const uint8_t node[6] = {0x61, 0x62, 0x63, 0x64, 0x65, 0x66};
    const ipxr_service_entry nameless = {.network = 0x01020304, .type = 4};
    ANSWERS(IPXR_BAD_COST, ipxr_edge_write_routes(&none, node, ENTRIES, 0, buffer, 48));
    ANSWERS(IPXR_NO_ENTRIES, ipxr_edge_write_routes(&port, node, ENTRIES, 0, buffer, 48));
    ANSWERS(IPXR_SHORT_BUFFER, ipxr_edge_write_routes(&port, node, ENTRIES, 2, buffer, 47));
    ANSWERS(48, ipxr_edge_write_routes(&port, node, ENTRIES, 2, buffer, 49));
    WROTE_BYTES("FFFF 0030 00 01 11121314 FFFFFFFFFFFF 0453 11121314 616263646566 0453 0002 D1D2D3D4 D5D6 D7D8 E1E2E3E4 E5E6 E7E8", buffer);
    ANSWERS(IPXR_BAD_COST, ipxr_edge_write_services(&none, node, OFFERS, 0, buffer, 96));
    ANSWERS(IPXR_NO_ENTRIES, ipxr_edge_write_services(&port, node, OFFERS, 0, buffer, 96));
    ANSWERS(IPXR_BAD_NAME, ipxr_edge_write_services(&port, node, &nameless, 1, buffer, 95));
    ANSWERS(IPXR_SHORT_BUFFER, ipxr_edge_write_services(&port, node, OFFERS, 1, buffer, 95));
    ANSWERS(96, ipxr_edge_write_services(&port, node, OFFERS, 1, buffer, 97));
    WROTE_BYTES("FFFF 0060 00 04 11121314 FFFFFFFFFFFF 0452 11121314 616263646566 0452 0002 0D0E 46494C4553 " BEHIND_A_NAME
                "01020304 05060708090A 0B0C 0F10", buffer);
}

/* As many rules as a filter has, and one more: the first are rules, and zeros are none. */
static const ipxr_rule RULES_OF_ROUTES[IPXR_MOST_RULES + 1] = {
    {.permits = 0, .what = IPXR_RULE_ROUTES, .way = IPXR_WAY_IN, .from = 0xD0000002, .to = 0xD1D2D3D4},
};
static const ipxr_rule RULES_OF_SERVICES[IPXR_MOST_RULES] = {
    {.permits = 1, .what = IPXR_RULE_SERVICES, .way = IPXR_WAY_OUT, .names = IPXR_NAMES_BEGIN, .type = 0xFFFF, .name = "FI"},
    {.permits = 0, .what = IPXR_RULE_SERVICES, .way = IPXR_WAY_OUT, .names = IPXR_NAMES_ALL, .type = 0xFFFF},
};
static const ipxr_rule RULES_OF_PACKETS[IPXR_MOST_RULES] = {
    {.permits = 1, .what = IPXR_RULE_TYPE, .type = 1},
    {.permits = 0, .what = IPXR_RULE_NEAREST},
    {.permits = 0, .what = IPXR_RULE_SOCKET, .socket = 0x0457},
    {.permits = 0, .what = IPXR_RULE_SERVICES, .way = IPXR_WAY_IN, .names = IPXR_NAMES_IS, .type = 0x0D0E, .name = "FILES"},
};
static const ipxr_port EDGE = {.network = 0x11121314, .node = {0x21}, .cost = 1, .longest = 576};
static const ipxr_address SERVER = {.node = {0x31}, .socket = IPXR_SAP_SOCKET};
static const ipxr_address ALL_SERVERS = {.node = EVERYONE, .socket = IPXR_SAP_SOCKET};

/* Of three routes that come in, one is within the range. No filter is made of what is none, the first of these. */
static void filtered_routes(void)
{
    const ipxr_port none = {.network = 0x11121314, .node = {0x21}, .longest = 576};
    const ipxr_address from = {.node = {0x31}, .socket = IPXR_RIP_SOCKET}, to = {.node = EVERYONE, .socket = IPXR_RIP_SOCKET};
    const ipxr_route_entry routes[3] = {{.network = 0x01020304, .hops = 1, .ticks = 2}, ENTRIES[0], ENTRIES[1]};
    const ipxr_rule *rules = RULES_OF_ROUTES;
    size_t passes = 77;
    ANSWERS(56, ipxr_write_rip(&from, &to, IPXR_RIP_RESPONSE, routes, 3, buffer, sizeof buffer));
    ANSWERS(IPXR_BAD_WAY, ipxr_edge_filter(0, &none, rules, IPXR_MOST_RULES + 1, buffer, 56, &passes));
    ANSWERS(IPXR_BAD_COST, ipxr_edge_filter(IPXR_WAY_OUT, &none, rules, IPXR_MOST_RULES + 1, buffer, 56, &passes));
    ANSWERS(IPXR_MANY_RULES, ipxr_edge_filter(IPXR_WAY_OUT, &EDGE, rules, IPXR_MOST_RULES + 1, buffer, 56, &passes));
    ANSWERS(IPXR_BAD_RULE, ipxr_edge_filter(IPXR_WAY_OUT, &EDGE, rules, IPXR_MOST_RULES, buffer, 56, &passes));
    WROTE(77, passes);
    ANSWERS(1, ipxr_edge_filter(IPXR_WAY_OUT, &EDGE, rules, 1, buffer, 56, &passes));
    WROTE(56, passes);
    ANSWERS(1, ipxr_edge_filter(IPXR_WAY_IN, &EDGE, rules, 1, buffer, 56, &passes));
    WROTE(48, passes);
    WROTE_BYTES("FFFF 0030 00 01 00000000 FFFFFFFFFFFF 0453 00000000 310000000000 0453 0002 01020304 0001 0002 E1E2E3E4 E5E6 E7E8", buffer);
}

/* Of two services that go out, the one whose name begins so passes; then none does, and the bytes stay. */
static void filtered_services(void)
{
    const ipxr_address from = {.network = 0x11121314, .node = {0x21}, .socket = IPXR_SAP_SOCKET};
    size_t passes = 77;
    ANSWERS(160, ipxr_write_sap(&from, &ALL_SERVERS, 0, OFFERS, 2, buffer, sizeof buffer));
    ANSWERS(1, ipxr_edge_filter(IPXR_WAY_OUT, &EDGE, RULES_OF_SERVICES, 2, buffer, 160, &passes));
    WROTE(96, passes);
    WROTE_BYTES("FFFF 0060 00 04 00000000 FFFFFFFFFFFF 0452 11121314 210000000000 0452 0002 0D0E 46494C4553 " BEHIND_A_NAME
                "01020304 05060708090A 0B0C 0F10", buffer);
    ANSWERS(0, ipxr_edge_filter(IPXR_WAY_OUT, &EDGE, RULES_OF_SERVICES + 1, 1, buffer, 96, &passes));
    WROTE(0, passes);
    WROTE_BYTES("FFFF 0060 00 04", buffer);
    ANSWERS(160, ipxr_write_sap(&SERVER, &ALL_SERVERS, 0, OFFERS, 2, buffer, sizeof buffer));
    ANSWERS(1, ipxr_edge_filter(IPXR_WAY_IN, &EDGE, RULES_OF_PACKETS, 4, buffer, 160, &passes));
    WROTE(96, passes);
}

/* A packet that a rule permits goes whole, though a later one denies it; a query, and one from a socket that is denied, don't. */
static void filtered_packets(void)
{
    const ipxr_address to = {.network = 0x11121314, .node = {0x51}, .socket = 0x0457};
    size_t passes = 77;
    ANSWERS(50, ipxr_write_packet(&SERVER, &to, 1, 0, DATA, sizeof DATA, buffer, sizeof buffer));
    ANSWERS(1, ipxr_edge_filter(IPXR_WAY_IN, &EDGE, RULES_OF_PACKETS, 4, buffer, 50, &passes));
    WROTE(50, passes);
    ANSWERS(50, ipxr_write_packet(&SERVER, &to, 4, 0, DATA, sizeof DATA, buffer, sizeof buffer));
    ANSWERS(0, ipxr_edge_filter(IPXR_WAY_IN, &EDGE, RULES_OF_PACKETS, 4, buffer, 50, &passes));
    ANSWERS(34, ipxr_write_query(&SERVER, &ALL_SERVERS, 1, 4, buffer, sizeof buffer));
    ANSWERS(0, ipxr_edge_filter(IPXR_WAY_IN, &EDGE, RULES_OF_PACKETS, 4, buffer, 34, &passes));
    ANSWERS(34, ipxr_write_query(&SERVER, &ALL_SERVERS, 0, 4, buffer, sizeof buffer));
    ANSWERS(1, ipxr_edge_filter(IPXR_WAY_IN, &EDGE, RULES_OF_PACKETS, 4, buffer, 34, &passes));
    WROTE(34, passes);
}

/* ---- Gateways that share a network ---- */

/* The session is 16 bytes from a first one on, the address 24. */
static void opened(ipxr_opened *it, uint8_t session, uint8_t echo, uint8_t address, uint64_t number)
{
    for (size_t k = 0; k < sizeof it->address; k++) {
        it->address[k] = (uint8_t)(address + k);
        if (k < sizeof it->session)
            it->session[k] = (uint8_t)(session + k), it->echo[k] = (uint8_t)(echo + k);
    }
    it->number = number;
}

/* A place says its fifth datagram, then its 300th from elsewhere; another one comes, and the first falls silent. */
static void peers(void)
{
    static const uint8_t OWN[16] = {0x11, 0x12, 0x13, 0x14, 0x15, 0x16, 0x17, 0x18, 0x19, 0x1A, 0x1B, 0x1C, 0x1D, 0x1E, 0x1F, 0x20};
    static ipxr_peers it;
    ipxr_opened one;
    uint8_t place = 99, session[16], address[24];
    opened(&one, 0x51, 0x11, 0x81, 5);
    ANSWERS(IPXR_PEERS_DROPPED, ipxr_peers_hear(&it, &one, &place));
    CALLS(ipxr_peers_begin(&it, OWN));
    WROTE_BYTES("1112131415161718191A1B1C1D1E1F20", it.session);
    one.echo[15] = 0;
    ANSWERS(IPXR_PEERS_GREET, ipxr_peers_hear(&it, &one, &place));
    WROTE(99, place);
    opened(&one, 0x51, 0x11, 0x81, 5);
    ANSWERS(IPXR_PEERS_NEW, ipxr_peers_hear(&it, &one, &place));
    WROTE(0, place);
    ANSWERS(IPXR_PEERS_REPEATED, ipxr_peers_hear(&it, &one, &place));
    opened(&one, 0x51, 0x11, 0xA1, 300);
    place = 99;
    ANSWERS(IPXR_PEERS_HEARD, ipxr_peers_hear(&it, &one, &place));
    WROTE(0, place);
    CALLS(ipxr_peers_second(&it));
    opened(&one, 0x71, 0x11, 0xC1, 9);
    ANSWERS(IPXR_PEERS_NEW, ipxr_peers_hear(&it, &one, &place));
    WROTE(1, place);
    WROTE(2, it.used);
    WROTE(179, it.places[0].left);
    WROTE(180, it.places[1].left);
    WROTE(300, it.places[0].newest);
    WROTE(5, it.places[0].slots[5]);
    WROTE(300, it.places[0].slots[44]);
    ANSWERS(1, ipxr_peers_number(&it));
    ANSWERS(2, ipxr_peers_number(&it));
    WROTE(2, it.sent);
    ANSWERS(1, ipxr_peers_present(&it, 0, session, address));
    WROTE_BYTES("5152535455565758595A5B5C5D5E5F60", session);
    WROTE_BYTES("A1A2A3A4A5A6A7A8A9AAABACADAEAFB0B1B2B3B4B5B6B7B8", address);
    WROTE_BYTES("5152535455565758595A5B5C5D5E5F60", it.places[0].session);
    WROTE_BYTES("A1A2A3A4A5A6A7A8A9AAABACADAEAFB0B1B2B3B4B5B6B7B8", it.places[0].address);
    for (int second = 0; second < 179; second++)
        CALLS(ipxr_peers_second(&it));
    ANSWERS(0, ipxr_peers_present(&it, 0, session, address));
    ANSWERS(1, ipxr_peers_present(&it, 1, session, address));
    WROTE_BYTES("7172737475767778797A7B7C7D7E7F80", session);
    for (uint8_t k = 2; k < IPXR_MOST_PEERS; k++) {
        opened(&one, k, 0x11, (uint8_t)(k + 100), 1);
        one.session[0] = 0xEE;
        ANSWERS(IPXR_PEERS_NEW, ipxr_peers_hear(&it, &one, &place));
    }
    opened(&one, 0xF1, 0x11, 0x31, 1);
    ANSWERS(IPXR_PEERS_AGAIN, ipxr_peers_hear(&it, &one, &place));
    opened(&one, 0x51, 0x11, 0xA1, 301);
    ANSWERS(IPXR_PEERS_HEARD, ipxr_peers_hear(&it, &one, &place));
    opened(&one, 0xF1, 0x11, 0x31, 1);
    ANSWERS(IPXR_PEERS_FULL, ipxr_peers_hear(&it, &one, &place));
}

int main(void)
{
    words();
    packets();
    packets_refused();
    frames();
    a_router();
    a_tunnel();
    a_keyed_tunnel();
    a_segment();
    a_receiver();
    two_receivers();
    a_meter();
    limits();
    a_plan();
    kinds_of_stations();
    loops();
    ranges();
    a_pace();
    twins();
    who_is_asked_again();
    own_nodes();
    a_frame();
    a_datagram();
    a_line();
    a_configuration();
    edges();
    filtered_routes();
    filtered_services();
    filtered_packets();
    others_on_the_cable();
    said_for_others();
    peers();
    return 0;
}
