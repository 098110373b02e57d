#include "links/extend.h"

#include <string.h>

#include "ipx.h"
#include "links/edge.h"

static bool names(const network_setting *it, uint16_t socket)
{
    for (size_t k = 0; k < it->socket_count; k++)
        if (it->sockets[k] == socket)
            return true;
    return false;
}

/* Sends the copy for another network, where the library makes one. */
static void hand_to(gateway *it, port *router_port, const origin *by, const network_setting *from, const uint8_t *packet, size_t length)
{
    network *to = first_of(it, router_port);
    if (!router_port->is_up)
        return;
    uint8_t *copy = gateway_room(it);
    memcpy(copy, packet, length);
    if (ipxr_tunnel_extend(from->network, from->sockets, from->socket_count, to->set->network, copy, length) != 1)
        return;
    if (length > to->set->longest) {
        gateway_lose(to, NOT_EXTENDED);
        return;
    }
    size_t left = edge_lets_out(it, to, copy, length);
    if (left == 0)
        return;
    to->counts.extended++;
    gateway_send(it, router_port, by, copy + AT_TO_NODE, copy, left);
}

void extend(gateway *it, network *on, const origin *by, const uint8_t *packet, size_t length)
{
    uint16_t socket = get16(packet + AT_TO_SOCKET);
    if (packet[AT_TYPE] == PROPAGATED || !names(on->set, socket))
        return;
    if (get32(packet + AT_FROM_NETWORK) != on->set->network) {
        gateway_lose(on, NOT_EXTENDED);
        return;
    }
    for (size_t k = 0; k < it->port_count; k++)
        if (k != on->set->port && names(first_of(it, &it->ports[k])->set, socket))
            hand_to(it, &it->ports[k], by, on->set, packet, length);
}
