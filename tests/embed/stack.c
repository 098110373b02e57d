/* Makes a router, and lets a neighbour's routes and services end, on a thread with IPXR_STACK bytes of stack, which is painted before:
 * ends with 0 where a quarter of it was never touched. */
#define _POSIX_C_SOURCE 200809L
#include <pthread.h>
#include <stdlib.h>
#include <string.h>

#include "ipxr.h"
#include "../../examples/embed/c/packets.h"

enum { PAINT = 0xA5, ROUNDS = 20, SECONDS = 181, LONGEST = 576 };

static const uint8_t NEIGHBOUR[6] = {0, 0, 0, 0, 0, 0xBB};

static const ipxr_port PORTS[2] = {
    {0x10, {0, 0, 0, 0, 0, 1}, 1, LONGEST, IPXR_NO_LIMIT, IPXR_NO_LIMIT},
    {0x20, {0, 0, 0, 0, 0, 2}, 1, LONGEST, IPXR_NO_LIMIT, IPXR_NO_LIMIT},
};

static bool has_learned(ipxr *router, uint32_t round)
{
    uint8_t bytes[LONGEST];
    struct address offered = {0x30, NEIGHBOUR, 0x0451};
    char name[] = "FILES A";
    uint8_t *at = put_response(bytes, RIP, ENTRIES, PORTS[1].network, NEIGHBOUR);
    for (uint32_t k = 0; k < ENTRIES; k++)
        at = put_entry(at, 0x100 + ENTRIES * round + k, 1, 2);
    int32_t routes = ipxr_packet(router, 1, bytes, (size_t)(at - bytes));
    at = put_response(bytes, SAP, 1, PORTS[1].network, NEIGHBOUR);
    name[sizeof name - 2] = (char)('A' + round);
    at = put_service(at, 4, name, offered, 1);
    return routes == IPXR_LEARNED && ipxr_packet(router, 1, bytes, (size_t)(at - bytes)) == IPXR_LEARNED;
}

/* What a router does with its tables, each once at least; whether it went as it should. */
static void *play(void *unused)
{
    static char well;
    ipxr router = IPXR_NONE;
    bool is_well = ipxr_make(&router, PORTS, 2) == 0 && ipxr_start(&router) == IPXR_STARTED;
    (void)unused;
    for (int times = 0; times < 2; times++) {
        for (uint32_t round = 0; round < ROUNDS; round++)
            is_well = is_well && has_learned(&router, round);
        is_well = is_well && ipxr_routes(&router) == ROUNDS * ENTRIES && ipxr_services(&router) == ROUNDS;
        if (times == 0) {
            is_well = is_well && ipxr_port_down(&router, 1) == IPXR_WENT_DOWN && ipxr_port_up(&router, 1) == IPXR_CAME_UP;
            continue;
        }
        for (int second = 0; second < SECONDS; second++)
            is_well = is_well && ipxr_second(&router) == IPXR_TICKED;
    }
    is_well = is_well && ipxr_routes(&router) == 0 && ipxr_make(&router, PORTS, 1) == 0 && ipxr_stop(&router) == IPXR_NOT_RUNNING;
    ipxr_free(&router);
    return is_well ? &well : NULL;
}

int main(void)
{
    void *stack = NULL, *answer = NULL;
    pthread_attr_t how;
    pthread_t thread;
    size_t untouched = 0;
    if (posix_memalign(&stack, 65536, IPXR_STACK) != 0)
        return 2;
    memset(stack, PAINT, IPXR_STACK);
    if (pthread_attr_init(&how) != 0 || pthread_attr_setstack(&how, stack, IPXR_STACK) != 0 ||
        pthread_create(&thread, &how, play, NULL) != 0 || pthread_join(thread, &answer) != 0)
        return 2;
    while (untouched < IPXR_STACK && ((uint8_t *)stack)[untouched] == PAINT)
        untouched++;
    pthread_attr_destroy(&how);
    free(stack);
    return answer != NULL && untouched >= IPXR_STACK / 4 ? 0 : 1;
}
