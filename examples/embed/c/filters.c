/* A filter between a network that strangers join and the router's port there, without a router: what comes in and what goes out, by one list
 * of rules. NetBIOS is denied, one route of a range may be learned and the others may not, and some servers aren't advertised. */
#include <stdio.h>

#include "ipxr_edge.h"

#define COUNT(list) (sizeof(list) / sizeof *(list))

static const ipxr_port PORT = {.network = 0x20, .node = {2}, .cost = 1, .longest = 1500, .routes = 50, .services = 7};
static const ipxr_address HOST = {.network = 0x20, .node = {0xAA}, .socket = 0x4003};

static const ipxr_rule RULES[] = {
    {.permits = 0, .what = IPXR_RULE_TYPE, .type = 20},
    {.permits = 0, .what = IPXR_RULE_SOCKET, .socket = 0x0455},
    {.permits = 0, .what = IPXR_RULE_NEAREST},
    {.permits = 1, .what = IPXR_RULE_ROUTES, .way = IPXR_WAY_IN, .from = 0x1000, .to = 0x1000},
    {.permits = 0, .what = IPXR_RULE_ROUTES, .way = IPXR_WAY_IN, .from = 0x1000, .to = 0x1FFF},
    {.permits = 0, .what = IPXR_RULE_SERVICES, .way = IPXR_WAY_OUT, .type = 4, .names = IPXR_NAMES_BEGIN, .name = "LAB"},
};

static uint8_t bytes[576];
static int32_t length;

/* From a socket of a node to the same socket of all. */
static ipxr_address on_socket(const uint8_t *node, uint16_t socket)
{
    ipxr_address address = {.network = PORT.network, .socket = socket};
    for (size_t k = 0; k < sizeof address.node; k++)
        address.node[k] = node ? node[k] : 0xFF;
    return address;
}

static void show(const char *what, uint8_t way)
{
    size_t passes;
    int32_t answer = ipxr_edge_filter(way, &PORT, RULES, COUNT(RULES), bytes, (size_t)length, &passes);
    if (answer == 1)
        printf("%s: %zu of %d bytes pass\n", what, passes, (int)length);
    else
        printf("%s: %s\n", what, answer == 0 ? "nothing passes" : "a fault");
}

static void packets(void)
{
    ipxr_address to = on_socket(NULL, 0x4003);
    const uint8_t data[40] = {0};
    length = ipxr_write_packet(&HOST, &to, 0, 0, data, sizeof data, bytes, sizeof bytes);
    show("a game's packet", IPXR_WAY_IN);
    length = ipxr_write_packet(&HOST, &to, 20, 0, data, sizeof data, bytes, sizeof bytes);
    show("a packet of type 20", IPXR_WAY_IN);
    to.socket = 0x0455;
    length = ipxr_write_packet(&HOST, &to, 0, 0, data, sizeof data, bytes, sizeof bytes);
    show("a packet to socket 0455 that goes out", IPXR_WAY_OUT);
    to.socket = IPXR_SAP_SOCKET;
    length = ipxr_write_query(&HOST, &to, 1, 4, bytes, sizeof bytes);
    show("a query for the nearest server", IPXR_WAY_IN);
}

/* A response of three routes, in from a neighbour and out from the port. */
static void routes(const char *what, const uint8_t *node, uint8_t way)
{
    const ipxr_address from = on_socket(node, IPXR_RIP_SOCKET), to = on_socket(NULL, IPXR_RIP_SOCKET);
    const ipxr_route_entry entries[] = {{0x1000, 1, 2}, {0x1001, 1, 2}, {0x2000, 1, 2}};
    length = ipxr_write_rip(&from, &to, IPXR_RIP_RESPONSE, entries, COUNT(entries), bytes, sizeof bytes);
    show(what, way);
}

static void services(const char *what, const char *name, uint8_t way)
{
    const ipxr_address from = on_socket(PORT.node, IPXR_SAP_SOCKET), to = on_socket(NULL, IPXR_SAP_SOCKET);
    ipxr_service_entry entry = {.network = 0x30, .node = {1}, .socket = 0x0451, .type = 4, .hops = 1};
    for (size_t k = 0; name[k]; k++)
        entry.name[k] = (uint8_t)name[k];
    length = ipxr_write_sap(&from, &to, 0, &entry, 1, bytes, sizeof bytes);
    show(what, way);
}

/* Values that are no rule, and more rules than a filter has. */
static void faults(void)
{
    static const ipxr_rule none, many[IPXR_MOST_RULES + 1];
    char words[IPXR_MOST_WORD];
    size_t passes;
    ipxr_text(ipxr_edge_filter(IPXR_WAY_IN, &PORT, &none, 1, bytes, (size_t)length, &passes), words, sizeof words);
    printf("a rule of zeros: %s\n", words);
    ipxr_text(ipxr_edge_filter(IPXR_WAY_IN, &PORT, many, COUNT(many), bytes, (size_t)length, &passes), words, sizeof words);
    printf("%u rules: %s\n", (unsigned)COUNT(many), words);
    ipxr_text(ipxr_edge_filter(0, &PORT, RULES, COUNT(RULES), bytes, (size_t)length, &passes), words, sizeof words);
    printf("neither in nor out: %s\n", words);
}

int main(void)
{
    packets();
    routes("routes to 1000, 1001 and 2000 that come in", HOST.node, IPXR_WAY_IN);
    routes("the same that the router advertises", PORT.node, IPXR_WAY_OUT);
    services("server LAB1 that the router advertises", "LAB1", IPXR_WAY_OUT);
    services("server FILES", "FILES", IPXR_WAY_OUT);
    faults();
    return 0;
}
