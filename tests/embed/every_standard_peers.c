/* Uses what the header of gateways that share a network has, in the C of 1989, which is also the C++ of 1998: it is read by each standard
 * of both without a warning. Run, it ends with 0 where a stranger is greeted, a place is heard once by each number and is where its newest
 * datagram came from, and isn't present after 180 seconds. */
#include "ipxr_peers.h"

static ipxr_peers peers;

static int becomes(uint8_t echo, uint8_t at, unsigned number, uint8_t *place)
{
    ipxr_opened opened = {{2}, {0}, {0}, 0};
    opened.echo[0] = echo;
    opened.address[0] = at;
    opened.number = number;
    return ipxr_peers_hear(&peers, &opened, place);
}

static int is_heard_once(void)
{
    uint8_t place = 99;
    int is_right = becomes(0, 9, 1, &place) == IPXR_PEERS_GREET && place == 99 && becomes(1, 9, 5, &place) == IPXR_PEERS_NEW && place == 0;
    return is_right && becomes(1, 9, 5, &place) == IPXR_PEERS_REPEATED && becomes(1, 8, 6, &place) == IPXR_PEERS_HEARD;
}

int main(void)
{
    static const uint8_t own[16] = {1};
    uint8_t session[16], address[24], place = 99;
    int second;
    int is_right = becomes(1, 9, 1, &place) == IPXR_PEERS_DROPPED;
    ipxr_peers_begin(&peers, own);
    is_right = is_right && is_heard_once() && peers.used == 1 && peers.places[0].newest == 6 && peers.places[0].slots[5] == 5;
    is_right = is_right && ipxr_peers_number(&peers) == 1 && ipxr_peers_number(&peers) == 2 && peers.sent == 2;
    is_right = is_right && ipxr_peers_present(&peers, 0, session, address) && session[0] == 2 && address[0] == 8;
    for (second = 0; second < 180; second++)
        ipxr_peers_second(&peers);
    return !(is_right && peers.places[0].left == 0 && !ipxr_peers_present(&peers, 0, session, address) &&
             !ipxr_peers_present(&peers, IPXR_MOST_PEERS, session, address));
}
