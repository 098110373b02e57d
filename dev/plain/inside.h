/* What the files of the plain router share. */
#ifndef INSIDE_H
#define INSIDE_H

#include <endian.h>
#include <string.h>

#include "plain.h"

/* Types of packets, sockets, and operations of their data. */
enum { RIP_TYPE = 1, SAP_TYPE = 4, NETBIOS_TYPE = 20, SAP_SOCKET = 0x452, RIP_SOCKET = 0x453 };
enum { REQUEST = 1, RESPONSE = 2, NEAREST_QUERY = 3, NEAREST_RESPONSE = 4 };

/* Bytes of a header, of what precedes the entries of the router's own packets, and of an entry of a route. */
enum { HEADER = 30, HEAD = 32, ROUTE = 8 };

/* The most entries of a packet. */
enum { MOST_ROUTES = 50, MOST_SERVICES = 7 };

/* Where an entry of a service has its name and its hops. */
enum { NAME = 2, NAME_LENGTH = 48, HOPS = 62 };

/* The hops of what is unreachable; what has one less is not advertised. */
enum { UNREACHABLE = 16, LAST_HOP = 15, ENDLESS = 0xFFFF };

/* The seconds after which a record expires, and from one broadcast of everything to the next. */
enum { LIFETIME = 180, PERIOD = 60 };

/* The network at hand; all routes, in a request; the default route. The type of service that stands for every type. */
#define LOCAL UINT32_C(0)
#define ALL_ROUTES UINT32_C(0xFFFFFFFF)
#define DEFAULT_ROUTE UINT32_C(0xFFFFFFFE)
#define ANY_TYPE 0xFFFF

typedef struct address {
    uint64_t node;
    uint32_t network;
    uint16_t socket;
} address;

/* ---- Numbers, highest byte first ---- */

static inline uint16_t get16(const uint8_t *at)
{
    uint16_t number;
    memcpy(&number, at, sizeof number);
    return be16toh(number);
}

static inline uint32_t get32(const uint8_t *at)
{
    uint32_t number;
    memcpy(&number, at, sizeof number);
    return be32toh(number);
}

static inline uint64_t get48(const uint8_t *at)
{
    return (uint64_t)get32(at) << 16 | get16(at + 4);
}

static inline void put16(uint8_t *at, uint16_t number)
{
    number = htobe16(number);
    memcpy(at, &number, sizeof number);
}

static inline void put32(uint8_t *at, uint32_t number)
{
    number = htobe32(number);
    memcpy(at, &number, sizeof number);
}

static inline void put48(uint8_t *at, uint64_t number)
{
    put32(at, (uint32_t)(number >> 16));
    put16(at + 4, (uint16_t)number);
}

static inline void put64(uint8_t *at, uint64_t number)
{
    number = htobe64(number);
    memcpy(at, &number, sizeof number);
}

/* ---- Memory: the program ends where it is refused ---- */

void *grown(void *block, size_t count, size_t size);

/* ---- The outbox ---- */

/* Room behind the packets for one of this length, to be ended by `outbox_end`. */
uint8_t *outbox_room(plain_outbox *out, size_t length);
void outbox_end(plain_outbox *out, uint8_t port, uint64_t link, size_t length);

/* ---- Tables. An offer or a second notes what it changes; what expired stays in its place, as unreachable, until it was advertised and is
 * removed. ---- */

void routes_make(plain_routes *it, plain_route_changes *changes, size_t most);
void routes_free(plain_routes *it, plain_route_changes *changes);
const plain_route *routes_find(const plain_routes *it, uint32_t network);
void routes_offer(plain_routes *it, const plain_route *offer, plain_route_changes *changes);
void routes_second(plain_routes *it, plain_route_changes *changes);
void routes_remove_gone(plain_routes *it);

void services_make(plain_services *it, plain_service_changes *changes, size_t most);
void services_free(plain_services *it, plain_service_changes *changes);
void services_offer(plain_services *it, const plain_service *offer, plain_service_changes *changes);
void services_second(plain_services *it, plain_service_changes *changes);
void services_remove_gone(plain_services *it);
int by_type_and_name(const plain_service *one, const plain_service *other);

/* Makes all records a second older. Whether any expires. */
bool grow_old(uint8_t *ages, size_t count);

/* ---- Lists of routes and services, a page a packet ---- */

/* Advertises everything on a port, and what expired in this second. */
void send_everything(plain_router *router, uint8_t port);
/* Advertises what the event changed, on every port. */
void send_changes(plain_router *router);
void send_requests(plain_router *router, uint8_t port);
/* Answers a request, whose entries name networks; a query for a type; one for the nearest of a type. */
void answer_routes(plain_router *router, uint8_t port, address to, const uint8_t *asked, size_t asked_count);
void answer_services(plain_router *router, uint8_t port, address to, uint16_t type);
void answer_nearest(plain_router *router, uint8_t port, address to, uint16_t type);

#endif
