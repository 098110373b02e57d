/* What the gateway knows and what it has counted. */
#include <inttypes.h>
#include <stdio.h>

#include "gateway.h"
#include "links/segment.h"
#include "monitoring/capture.h"
#include "monitoring/note.h"
#include "monitoring/output.h"
#include "tunnel/tunnel.h"

static void show_network(const gateway *it, network *on)
{
    char words[LINK_ROOM], node[WORDS], kinds[KINDS_ROOM], extended[40] = "";
    const network_setting *set = on->set;
    say("network %08" PRIX32 " %s, cost %u, longest %u, on %s, node %s", set->network, on->is_up ? "up" : "down", set->cost,
        set->longest, cable_words(on->cable, on->set, words), node_words(on->node, node));
    if (set->socket_count > 0)
        snprintf(extended, sizeof extended, ", extended %" PRIu64, on->counts.extended);
    say("  in %" PRIu64 ", out %" PRIu64 "%s", on->counts.packets.in, on->counts.out, extended);
    counts_show(&on->counts);
    if (set->kind == ANY_KIND)
        say("  kinds: %s", kinds_words(&on->kinds, kinds));
    if (set->type == LINK_QEMU_LISTEN)
        say("  connected: %d", on->cable->stream.is_connected ? 1 : 0);
    if (on->cable->web != NULL)
        say("  connected: %zu", on->cable->web->count);
    if (on->cable->peers != NULL)
        say("  peers: %zu", peers_present(on->cable->peers));
    if (on->counts.refused > 0)
        say("  refused: %" PRIu64, on->counts.refused);
    if (set->type == LINK_QEMU_LISTEN && on->cable->not_taken > 0)
        say("  not taken: %" PRIu64, on->cable->not_taken);
    if (has_tunnel(set))
        tunnel_show(on, it->seconds);
}

static void show_internal(const gateway *it)
{
    char node[WORDS];
    if (it->internal != NULL)
        say("network %08" PRIX32 " is the router's own, node %s", it->internal->network, node_words(it->internal->node, node));
}

static void show_routes(gateway *it)
{
    char node[WORDS];
    ipxr_route_record route;
    say("routes: %zu", ipxr_routes(&it->router));
    for (size_t k = 0; ipxr_route(&it->router, k, &route) == 0; k++)
        say("  %08" PRIX32 " hops %u ticks %u by %s on %08" PRIX32 ", age %u s", route.network, route.hops, route.ticks,
            node_words(route.node, node), port_network(it, route.port), route.age);
}

static void show_services(gateway *it)
{
    char node[WORDS], by[WORDS];
    ipxr_service_record service;
    say("services: %zu", ipxr_services(&it->router));
    for (size_t k = 0; ipxr_service(&it->router, k, &service) == 0; k++) {
        char name[sizeof service.name + 1] = {0};
        for (size_t c = 0; c < sizeof service.name && service.name[c] != 0; c++)
            name[c] = service.name[c] > ' ' && service.name[c] < 127 ? (char)service.name[c] : '.';
        say("  %04X %s at %08" PRIX32 ".%s.%04X hops %u by %s on %08" PRIX32 ", age %u s", service.type, name, service.network,
            node_words(service.node, node), service.socket, service.hops, node_words(service.neighbour, by),
            port_network(it, service.port), service.age);
    }
}

void gateway_report(gateway *it)
{
    say("report after %" PRIu64 " s", it->told);
    for (size_t k = 0; k < it->count; k++)
        show_network(it, &it->networks[k]);
    show_internal(it);
    for (size_t k = 0; k < it->port_count; k++)
        stations_show(it, &it->ports[k]);
    show_routes(it);
    show_services(it);
    capture_show();
    say("end of report");
}
