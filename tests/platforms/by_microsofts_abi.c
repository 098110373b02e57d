/* A program as Microsoft's compiler makes one, with the DLL and nothing of a C library. It ends with 0 where a router of two networks
 * starts, sends six packets, copies one out, learns a route and tells it. */
#include "ipxr.h"

__declspec(dllimport) void ExitProcess(unsigned status);

static const uint8_t RESPONSE[] = {
    0xFF, 0xFF, 0, 40, 0, 1, 0, 0, 0, 0x20, 0xFF, 0xFF, 0xFF, 0xFF, 0xFF, 0xFF, 0x04, 0x53,
    0, 0, 0, 0x20, 0, 0, 0, 0, 0, 0xBB, 0x04, 0x53, 0, 2, 0, 0, 0, 0x30, 0, 1, 0, 2,
};

static int is_well(void)
{
    static const ipxr_port ports[] = {
        {0x10, {0, 0, 0, 0, 0, 1}, 1, 576, IPXR_NO_LIMIT, IPXR_NO_LIMIT},
        {0x20, {0, 0, 0, 0, 0, 2}, 1, 1500, IPXR_NO_LIMIT, IPXR_NO_LIMIT},
    };
    static ipxr_packet_sent sent;
    static ipxr_route_record route;
    static uint8_t bytes[1500];
    ipxr router = IPXR_NONE;
    int is_made = ipxr_make(&router, ports, 2) >= 0 && ipxr_start(&router) == IPXR_STARTED && ipxr_sent(&router) == 6;
    int is_copied = ipxr_get(&router, 5, &sent, bytes, sizeof bytes) == 0 && sent.port == 1 && bytes[0] == 0xFF;
    ipxr_clear(&router);
    int is_learned = ipxr_packet(&router, 1, RESPONSE, sizeof RESPONSE) == IPXR_LEARNED && ipxr_route(&router, 0, &route) == 0;
    int is_route = route.network == 0x30 && route.hops == 1 && route.ticks == 2 && route.node[5] == 0xBB && route.port == 1;
    ipxr_free(&router);
    return is_made && is_copied && is_learned && is_route;
}

void begin(void)
{
    ExitProcess(is_well() ? 0 : 1);
}
