/* Uses what the header of tunnels has, in the C of 1989, which is also the C++ of 1998: it is read by each standard of both without a
 * warning. Run, it ends with 0 where a handle that begins as IPXR_TUNNEL_NONE has no tunnel, and one that is made has no clients. */
#include "ipxr_tunnel.h"

static const ipxr_tunnel_setting SETTING = {0x10, {0, 0, 0, 0, 0, 1}, 64, 16};
static const ipxr_sender SENDER = {{10, 0, 0, 1, 8, 82}, {2}, {2}, 0};

static int has_none(ipxr_tunnel *tunnel)
{
    ipxr_own own;
    ipxr_client client;
    uint8_t place[6];
    return ipxr_tunnel_hear(tunnel, &SENDER, SENDER.place, sizeof SENDER.place) == IPXR_NO_TUNNEL &&
           ipxr_tunnel_second(tunnel) == IPXR_NO_TUNNEL && ipxr_tunnel_send(tunnel, SENDER.place) == IPXR_NO_TUNNEL &&
           ipxr_tunnel_own(tunnel, 0, &own) == IPXR_NO_TUNNEL && ipxr_tunnel_client(tunnel, 0, &client) == IPXR_NO_TUNNEL &&
           ipxr_tunnel_receiver(tunnel, 0, place) == IPXR_NO_TUNNEL && ipxr_tunnel_leaver(tunnel, 0, place) == IPXR_NO_TUNNEL &&
           ipxr_tunnel_owns(tunnel) + ipxr_tunnel_receivers(tunnel) + ipxr_tunnel_leavers(tunnel) + ipxr_tunnel_clients(tunnel) == 0 &&
           ipxr_tunnel_carried(tunnel) == 0 && !ipxr_tunnel_is_heard(tunnel);
}

int main(void)
{
    static const uint16_t SOCKETS[1] = {0x4545};
    uint8_t bytes[1] = {0};
    ipxr_own own;
    ipxr_tunnel tunnel = IPXR_TUNNEL_NONE;
    int is_right = has_none(&tunnel) && ipxr_tunnel_make(&tunnel, &SETTING) == 0 && ipxr_tunnel_clients(&tunnel) == 0;
    is_right = is_right && ipxr_tunnel_hear(&tunnel, &SENDER, bytes, sizeof bytes) == IPXR_SAID_NOTHING;
    is_right = is_right && ipxr_tunnel_own(&tunnel, 0, &own) == IPXR_NO_RECORD;
    is_right = is_right && !ipxr_tunnel_extend(0x10, SOCKETS, 1, 0x20, bytes, sizeof bytes);
    ipxr_tunnel_free(&tunnel);
    return is_right && has_none(&tunnel) ? 0 : 1;
}
