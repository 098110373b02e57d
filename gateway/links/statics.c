#include "links/statics.h"

#include <string.h>

#include "ipx.h"
#include "ipxr_edge.h"
#include "links/edge.h"

/* What a packet has room for; and the hops of what is reached no more. */
enum { ROUTES_OF_ONE = 50, SERVICES_OF_ONE = 7, UNREACHABLE = 16 };

/* The router hears a packet that was written, and what it says then goes out. (without memory for it, it is heard with the next) */
static void hear(gateway *it, const network *on, const uint8_t *packet, int32_t length)
{
    if (length > 0)
        (void)ipxr_packet(&it->router, on->set->port, packet, (size_t)length);
    gateway_send_all(it);
}

/* ---- What lines say what ---- */

static bool says_route(const network_setting *set, uint32_t to, const uint8_t via[NODE])
{
    size_t k = 0;
    while (k < set->static_route_count && (set->static_routes[k].route.network != to || !same_node(set->static_routes[k].via, via)))
        k++;
    return k < set->static_route_count;
}

static bool is_same_service(const ipxr_service_entry *one, uint16_t type, const uint8_t *name)
{
    return one->type == type && memcmp(one->name, name, sizeof one->name) == 0;
}

static bool says_service(const network_setting *set, uint16_t type, const uint8_t *name, const uint8_t via[NODE])
{
    const ipxr_static_service *list = set->static_services;
    size_t k = 0;
    while (k < set->static_service_count && (!is_same_service(&list[k].service, type, name) || !same_node(list[k].via, via)))
        k++;
    return k < set->static_service_count;
}

bool statics_have(const network_setting *set, const ipxr_service_record *service)
{
    return says_service(set, service->type, service->name, service->neighbour);
}

/* ---- How the router hears of them ---- */

static void hear_routes(gateway *it, const network *on, const uint8_t *via, const ipxr_route_entry *routes, size_t count)
{
    uint8_t packet[LONGEST];
    const ipxr_port at = edge_port(on);
    hear(it, on, packet, ipxr_edge_write_routes(&at, via, routes, count, packet, sizeof packet));
}

static void hear_services(gateway *it, const network *on, const uint8_t *via, const ipxr_service_entry *services, size_t count)
{
    uint8_t packet[LONGEST];
    const ipxr_port at = edge_port(on);
    hear(it, on, packet, ipxr_edge_write_services(&at, via, services, count, packet, sizeof packet));
}

/* The routes of a network. Those of lines that follow each other, and have one node, are said together. */
static void say_routes(gateway *it, const network *on)
{
    ipxr_route_entry routes[ROUTES_OF_ONE];
    const ipxr_static_route *list = on->set->static_routes;
    size_t count = 0;
    for (size_t k = 0; k < on->set->static_route_count; k++) {
        routes[count++] = list[k].route;
        if (count < ROUTES_OF_ONE && k + 1 < on->set->static_route_count && same_node(list[k].via, list[k + 1].via))
            continue;
        hear_routes(it, on, list[k].via, routes, count);
        count = 0;
    }
}

static void say_services(gateway *it, const network *on)
{
    ipxr_service_entry services[SERVICES_OF_ONE];
    const ipxr_static_service *list = on->set->static_services;
    size_t count = 0;
    for (size_t k = 0; k < on->set->static_service_count; k++) {
        services[count++] = list[k].service;
        if (count < SERVICES_OF_ONE && k + 1 < on->set->static_service_count && same_node(list[k].via, list[k + 1].via))
            continue;
        hear_services(it, on, list[k].via, services, count);
        count = 0;
    }
}

/* ---- That nobody else says the same ---- */

/* What a packet of routes or services leaves by rules that deny what lines say: so many bytes of it, 0 for nothing. */
static size_t leave(const ipxr_port *at, const ipxr_rule *rules, size_t count, uint8_t *packet, size_t length)
{
    size_t left = length;
    if (count > 0 && length > 0)
        (void)ipxr_edge_filter(IPXR_WAY_IN, at, rules, count, packet, length, &left);
    return left;
}

static size_t leave_routes(const network_setting *set, const ipxr_port *at, uint8_t *packet, size_t length)
{
    ipxr_rule rules[MOST_STATICS];
    for (size_t k = 0; k < set->static_route_count; k++) {
        const uint32_t to = set->static_routes[k].route.network;
        rules[k] = (ipxr_rule){.what = IPXR_RULE_ROUTES, .way = IPXR_WAY_IN, .from = to, .to = to};
    }
    return leave(at, rules, set->static_route_count, packet, length);
}

static size_t leave_services(const network_setting *set, const ipxr_port *at, uint8_t *packet, size_t length)
{
    ipxr_rule rules[MOST_STATICS];
    for (size_t k = 0; k < set->static_service_count; k++) {
        const ipxr_service_entry *said = &set->static_services[k].service;
        rules[k] = (ipxr_rule){.what = IPXR_RULE_SERVICES, .way = IPXR_WAY_IN, .names = IPXR_NAMES_IS, .type = said->type};
        memcpy(rules[k].name, said->name, sizeof rules[k].name);
    }
    return leave(at, rules, set->static_service_count, packet, length);
}

bool statics_may_name(gateway *it, const uint8_t *packet)
{
    const uint16_t to = get16(packet + AT_TO_SOCKET);
    for (size_t k = 0; (to == IPXR_RIP_SOCKET || to == IPXR_SAP_SOCKET) && k < it->port_count; k++) {
        const network_setting *set = first_of(it, &it->ports[k])->set;
        if (it->ports[k].is_up && set->static_route_count + set->static_service_count > 0)
            return true;
    }
    return false;
}

size_t statics_leave(gateway *it, const ipxr_port *at, uint8_t *packet, size_t length)
{
    for (size_t k = 0; k < it->port_count; k++) {
        const network_setting *set = first_of(it, &it->ports[k])->set;
        if (it->ports[k].is_up)
            length = leave_services(set, at, packet, leave_routes(set, at, packet, length));
    }
    return length;
}

/* ---- When they are said ---- */

/* A route or a service that a neighbour told before ends: the one that a network's line says takes its place. */
static void end_route(gateway *it, const ipxr_route_record *route)
{
    const ipxr_route_entry end = {.network = route->network, .hops = UNREACHABLE, .ticks = route->ticks};
    hear_routes(it, first_of(it, &it->ports[route->port]), route->node, &end, 1);
}

static void end_service(gateway *it, const ipxr_service_record *service)
{
    ipxr_service_entry end = {.network = service->network, .socket = service->socket, .type = service->type, .hops = UNREACHABLE};
    memcpy(end.name, service->name, sizeof end.name);
    memcpy(end.node, service->node, sizeof end.node);
    hear_services(it, first_of(it, &it->ports[service->port]), service->neighbour, &end, 1);
}

/* Whether a line of the network by which it came says a route, or a service: two networks may have lines that say the same. */
static bool is_lines_route(gateway *it, const ipxr_route_record *route)
{
    return says_route(first_of(it, &it->ports[route->port])->set, route->network, route->node);
}

static bool is_lines_service(gateway *it, const ipxr_service_record *service)
{
    return statics_have(first_of(it, &it->ports[service->port])->set, service);
}

static bool names_route(const network_setting *set, uint32_t to)
{
    size_t k = 0;
    while (k < set->static_route_count && set->static_routes[k].route.network != to)
        k++;
    return k < set->static_route_count;
}

static bool names_service(const network_setting *set, const ipxr_service_record *service)
{
    size_t k = 0;
    while (k < set->static_service_count && !is_same_service(&set->static_services[k].service, service->type, service->name))
        k++;
    return k < set->static_service_count;
}

/* What others told of a line's network, before the line's network was up, ends where the line has room. */
static void end_routes(gateway *it, const network *on)
{
    ipxr_route_record route, ended[MOST_STATICS];
    size_t here = 0, found = 0;
    for (size_t k = 0; on->set->static_route_count > 0 && ipxr_route(&it->router, k, &route) == 0; k++) {
        here += route.port == on->set->port;
        if (names_route(on->set, route.network) && !is_lines_route(it, &route))
            ended[found++] = route;
    }
    for (size_t k = 0; k < found; k++)
        if (ended[k].port == on->set->port || here++ < on->set->routes)
            end_route(it, &ended[k]);
}

static void end_services(gateway *it, const network *on)
{
    ipxr_service_record service, ended[MOST_STATICS];
    size_t here = 0, found = 0;
    for (size_t k = 0; on->set->static_service_count > 0 && ipxr_service(&it->router, k, &service) == 0; k++) {
        here += service.port == on->set->port;
        if (names_service(on->set, &service) && !is_lines_service(it, &service))
            ended[found++] = service;
    }
    for (size_t k = 0; k < found; k++)
        if (ended[k].port == on->set->port || here++ < on->set->services)
            end_service(it, &ended[k]);
}

void statics_say(gateway *it, const network *on)
{
    end_routes(it, on);
    say_routes(it, on);
    end_services(it, on);
    say_services(it, on);
}

void statics_second(gateway *it)
{
    for (size_t k = 0; k < it->port_count; k++)
        if (it->ports[k].is_up)
            statics_say(it, first_of(it, &it->ports[k]));
}

/* ---- Other lines ---- */

void statics_change(gateway *it, const network *on, const network_setting *was)
{
    for (size_t k = 0; k < was->static_route_count; k++) {
        ipxr_route_entry route = was->static_routes[k].route;
        route.hops = UNREACHABLE;
        if (!says_route(on->set, route.network, was->static_routes[k].via))
            hear_routes(it, on, was->static_routes[k].via, &route, 1);
    }
    for (size_t k = 0; k < was->static_service_count; k++) {
        ipxr_service_entry service = was->static_services[k].service;
        service.hops = UNREACHABLE;
        if (!says_service(on->set, service.type, service.name, was->static_services[k].via))
            hear_services(it, on, was->static_services[k].via, &service, 1);
    }
}
