/* Offers a file server that is a part of this program, and prints what a client hears of it.
 *
 *    CC ---- network 10 ---- [port 0  router  port 1] ---- network E0: nothing but this program ---- the server, node 2
 *
 * The second network is nobody's cable. What the router sends there to the server's node is the server's to read, and what the
 * server sends is given to the router as a packet that came there. */
#include <stdio.h>
#include <string.h>

#include "ipxr.h"

enum { CABLE, INSIDE, PORTS, LONGEST = 576, PERIOD = 60 };

/* A type of services, and the type of a client's packets for one. */
enum { FILE_SERVER = 4, NCP = 17 };

/* The server and a client as addresses, and all nodes of their networks. */
static const ipxr_address SERVICE = {0xE0, {0, 0, 0, 0, 0, 2}, 0x0451}, CC = {0x10, {0, 0, 0, 0, 0, 0xCC}, 0x4003};
static const ipxr_address ALL_INSIDE = {0xE0, {0xFF, 0xFF, 0xFF, 0xFF, 0xFF, 0xFF}, IPXR_SAP_SOCKET};
static const ipxr_address ALL_ON_CABLE = {0x10, {0xFF, 0xFF, 0xFF, 0xFF, 0xFF, 0xFF}, IPXR_SAP_SOCKET};

/* The server advertises that it is there, one router away. */
static int32_t offer(ipxr *router)
{
    static const ipxr_service_entry FILES = {"FILES", 0xE0, {0, 0, 0, 0, 0, 2}, 0x0451, FILE_SERVER, 1};
    uint8_t bytes[LONGEST];
    int32_t length = ipxr_write_sap(&SERVICE, &ALL_INSIDE, 0, &FILES, 1, bytes, sizeof bytes);
    return ipxr_packet(router, INSIDE, bytes, (size_t)length);
}

/* The client asks for the nearest file server. */
static int32_t ask(ipxr *router)
{
    uint8_t bytes[LONGEST];
    int32_t length = ipxr_write_query(&CC, &ALL_ON_CABLE, 1, FILE_SERVER, bytes, sizeof bytes);
    return ipxr_packet(router, CABLE, bytes, (size_t)length);
}

/* The client writes to the server. */
static int32_t say(ipxr *router, const char *text)
{
    uint8_t bytes[LONGEST];
    int32_t length = ipxr_write_packet(&CC, &SERVICE, NCP, 0, (const uint8_t *)text, strlen(text), bytes, sizeof bytes);
    return ipxr_packet(router, CABLE, bytes, (size_t)length);
}

static void print_hex(const uint8_t *bytes, size_t length)
{
    for (size_t k = 0; k < length; k++)
        printf("%02X", bytes[k]);
}

/* Prints what became of an event, the packets for the cable, and those that the server reads. */
static void show(ipxr *router, const char *event, int32_t answer)
{
    char word[IPXR_MOST_WORD];
    ipxr_text(answer, word, sizeof word);
    printf("%s: %s\n", event, word);
    for (size_t k = 0; k < ipxr_sent(router); k++) {
        ipxr_packet_sent sent;
        uint8_t bytes[LONGEST];
        if (ipxr_get(router, k, &sent, bytes, sizeof bytes) < 0)
            continue;
        if (sent.port == CABLE) {
            printf("out ");
            print_hex(sent.node, sizeof sent.node);
            printf(" ");
            print_hex(bytes, sent.length);
            printf("\n");
        } else if (memcmp(sent.node, SERVICE.node, sizeof sent.node) == 0) {
            printf("the server reads a packet of %zu bytes\n", sent.length);
        }
    }
    ipxr_clear(router);
}

int main(void)
{
    const ipxr_port ports[PORTS] = {
        {0x10, {0, 0, 0, 0, 0, 1}, 1, LONGEST, IPXR_NO_LIMIT, IPXR_NO_LIMIT},
        {0xE0, {0, 0, 0, 0, 0, 1}, 1, LONGEST, IPXR_NO_LIMIT, IPXR_NO_LIMIT},
    };
    ipxr router = IPXR_NONE;
    if (ipxr_make(&router, ports, PORTS) < 0)
        return 1;
    show(&router, "start", ipxr_start(&router));
    for (int second = 0; second < 3 * PERIOD; second++) {
        if (second % PERIOD == 0)
            show(&router, "the server offers its files", offer(&router));
        ipxr_second(&router);
        ipxr_clear(&router);
    }
    printf("after %d seconds %zu service\n", 3 * PERIOD, ipxr_services(&router));
    show(&router, "CC asks for the nearest file server", ask(&router));
    show(&router, "CC writes to the server", say(&router, "HELLO"));
    ipxr_free(&router);
    return 0;
}
