/* Uses what the header has, in the C of 1989, which is also the C++ of 1998: it is read by each standard of both without a
 * warning. Run, it ends with 0 where a handle that begins as IPXR_NONE has no router, and a text has the words of an answer. */
#include <string.h>

#include "ipxr.h"

static const ipxr_port PORT = {0x10, {0, 0, 0, 0, 0, 1}, 1, 576, IPXR_NO_LIMIT, IPXR_NO_LIMIT};
static const ipxr_port PORTS[IPXR_MOST_PORTS] = {{0x10, {0, 0, 0, 0, 0, 1}, 1, 1500, 0, 0}};

static int has_none(ipxr *router)
{
    ipxr_packet_sent sent;
    ipxr_route_record route;
    ipxr_service_record service;
    uint8_t bytes[576];
    return ipxr_start(router) == IPXR_NO_ROUTER && ipxr_stop(router) == IPXR_NO_ROUTER && ipxr_second(router) == IPXR_NO_ROUTER &&
           ipxr_packet(router, 0, PORT.node, sizeof PORT.node) == IPXR_NO_ROUTER && ipxr_port_down(router, 0) == IPXR_NO_ROUTER &&
           ipxr_port_up(router, 0) == IPXR_NO_ROUTER && ipxr_get(router, 0, &sent, bytes, sizeof bytes) == IPXR_NO_ROUTER &&
           ipxr_is_running(router) == IPXR_NO_ROUTER && ipxr_is_up(router, 0) == IPXR_NO_ROUTER &&
           ipxr_route(router, 0, &route) == IPXR_NO_ROUTER && ipxr_service(router, 0, &service) == IPXR_NO_ROUTER &&
           ipxr_sent(router) + ipxr_routes(router) + ipxr_services(router) == 0;
}

static int has_words(void)
{
    char text[IPXR_MOST_WORD];
    uint8_t bytes[IPXR_MOST_WORD];
    size_t length = ipxr_text(IPXR_NO_ROUTE, text, sizeof text);
    return IPXR_DROPPED(IPXR_NO_ROUTE) && strcmp(text, "drop NoRoute") == 0 && length == strlen(text) &&
           ipxr_word(IPXR_NO_ROUTE, bytes, sizeof bytes) == length && memcmp(bytes, text, length + 1) == 0;
}

static int carries_none(void)
{
    uint8_t frame[IPXR_LONGEST_FRAME];
    size_t front;
    return ipxr_frame_write(IPXR_NO_FRAME, PORT.node, PORT.node, PORT.node, sizeof PORT.node, frame, sizeof frame) == 0 &&
           ipxr_frame_read(PORT.node, sizeof PORT.node, &front) == IPXR_NO_FRAME;
}

/* Of 30 bytes, of 34, of a route and of a service. */
static int writes(void)
{
    static const ipxr_address HERE = {0x10, {0, 0, 0, 0, 0, 1}, IPXR_RIP_SOCKET};
    static const ipxr_route_entry ROUTE = {0x20, 1, 2};
    static const ipxr_service_entry SERVICE = {{'A', 0}, 0x20, {0, 0, 0, 0, 0, 1}, 0x451, 4, 1};
    uint8_t bytes[576];
    return ipxr_write_packet(&HERE, &HERE, 0, 0, PORT.node, 0, bytes, sizeof bytes) == 30 &&
           ipxr_write_query(&HERE, &HERE, 0, 4, bytes, sizeof bytes) == 34 &&
           ipxr_write_rip(&HERE, &HERE, IPXR_RIP_RESPONSE, &ROUTE, 1, bytes, sizeof bytes) == 40 &&
           ipxr_write_sap(&HERE, &HERE, 0, &SERVICE, 1, bytes, sizeof bytes) == 96;
}

int main(void)
{
    ipxr router = IPXR_NONE;
    int is_right = has_none(&router) && has_words() && carries_none() && writes() && ipxr_version() == IPXR_VERSION;
    is_right = is_right && ipxr_make(&router, PORTS, 1) == 0 && ipxr_start(&router) == IPXR_STARTED;
    ipxr_clear(&router);
    ipxr_free(&router);
    return is_right && has_none(&router) ? 0 : 1;
}
