/* Uses what the header of tunnels with keyed nodes has, in the C of 1989, which is also the C++ of 1998: it is read by each standard of
 * both without a warning. Run, it ends with 0 where a handle that begins as IPXR_KEYED_NONE has no tunnel, and one that is made answers a
 * registration and remembers it. */
#include "ipxr_keyed.h"

static const ipxr_keyed_setting SETTING = {0x10, {0, 0, 0, 0, 0, 1}, 64, 16, 1024, 64};
static const ipxr_keyed_sender SENDER = {{10, 0, 0, 1, 8, 82}, {2, 1}, {2, 1}, {3, 1}, {3, 2}, 0, 1};
static const uint8_t REGISTRATION[30] = {255, 255, 0, 30, 0, 0, 0, 0, 0, 0, 0, 0, 0, 0, 0, 0, 0, 2, 0, 0, 0, 0, 0, 0, 0, 0, 0, 0, 0, 2};

static int has_none(ipxr_keyed *tunnel)
{
    ipxr_own own;
    ipxr_keyed_member member;
    uint8_t place[6];
    return ipxr_keyed_hear(tunnel, &SENDER, SENDER.place, sizeof SENDER.place) == IPXR_NO_TUNNEL &&
           ipxr_keyed_second(tunnel) == IPXR_NO_TUNNEL && ipxr_keyed_send(tunnel, SENDER.node) == IPXR_NO_TUNNEL &&
           ipxr_keyed_own(tunnel, 0, &own) == IPXR_NO_TUNNEL && ipxr_keyed_client(tunnel, 0, &member) == IPXR_NO_TUNNEL &&
           ipxr_keyed_waiter(tunnel, 0, &member) == IPXR_NO_TUNNEL && ipxr_keyed_receiver(tunnel, 0, place) == IPXR_NO_TUNNEL &&
           ipxr_keyed_leaver(tunnel, 0, &member) == IPXR_NO_TUNNEL &&
           ipxr_keyed_owns(tunnel) + ipxr_keyed_pings(tunnel) + ipxr_keyed_receivers(tunnel) + ipxr_keyed_leavers(tunnel) == 0 &&
           ipxr_keyed_clients(tunnel) + ipxr_keyed_waiters(tunnel) + ipxr_keyed_carried(tunnel) == 0 && !ipxr_keyed_is_heard(tunnel);
}

int main(void)
{
    ipxr_own own;
    ipxr_keyed tunnel = IPXR_KEYED_NONE;
    int is_right = has_none(&tunnel) && ipxr_keyed_make(&tunnel, &SETTING) == 0 && ipxr_keyed_clients(&tunnel) == 0;
    is_right = is_right && ipxr_keyed_hear(&tunnel, &SENDER, REGISTRATION, sizeof REGISTRATION) == IPXR_REGISTERS;
    is_right = is_right && ipxr_keyed_own(&tunnel, 0, &own) == 0 && ipxr_keyed_waiters(&tunnel) == 1;
    ipxr_keyed_free(&tunnel);
    return is_right && has_none(&tunnel) ? 0 : 1;
}
