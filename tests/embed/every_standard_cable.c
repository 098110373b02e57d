/* Uses what the header of cables has, in the C of 1989, which is also the C++ of 1998: it is read by each standard of both without a
 * warning. Run, it ends with 0 where a station is spoken to in its kind, the later of two links that are one cable is shut for six seconds,
 * a range has the addresses that begin as it does, of two that wait one goes a second after the other, a node that moves five times is told,
 * and whoever doesn't answer is asked again. */
#include "ipxr_cable.h"

static ipxr_kinds kinds;

static int are_known(void)
{
    static const uint8_t node[6] = {2, 0, 0, 0, 0, 1}, other[6] = {2, 0, 0, 0, 0, 2};
    int is_right = ipxr_kinds_speaks(&kinds, 7, node, IPXR_FRAME_KINDS) && ipxr_kinds_hear(&kinds, 7, node, IPXR_FRAME_RAW, 1) &&
                   !ipxr_kinds_hear(&kinds, 7, node, IPXR_FRAME_LLC, 1);
    ipxr_kinds_second(&kinds);
    return is_right && ipxr_kinds_of(&kinds, 7, node) == IPXR_FRAME_RAW && ipxr_kinds_is_used(&kinds, IPXR_FRAME_RAW) &&
           !ipxr_kinds_speaks(&kinds, 7, other, IPXR_FRAME_LLC) && kinds.buckets[7].stations[0].left == 299 && kinds.left[1] == 3599;
}

static int is_shut(void)
{
    ipxr_loop first = {0}, second = {0};
    int seconds = 1;
    int is_right = ipxr_loop_probe(1, 0, 60, 64, &second, &first) == IPXR_PROBE_LATE &&
                   ipxr_loop_probe(1, 0, 60, 63, &second, &first) == IPXR_PROBE_HERE &&
                   ipxr_loop_probe(0, 1, 60, 63, &first, &second) == IPXR_PROBE_NOTHING && first.left == 0 && second.left == 6;
    while (!ipxr_loop_second(&second))
        seconds++;
    return is_right && seconds == 6 && ipxr_loop_probe(0, 1, 60, 63, &first, &second) == IPXR_PROBE_THERE;
}

static int are_apart(void)
{
    ipxr_pace pace = {0, 0};
    ipxr_pace_more_wait(&pace, 2, 1000000000u, 1000);
    return ipxr_pace_lets_go(&pace, 2, 1000) && !ipxr_pace_lets_go(&pace, 1, 1000000999u) && pace.next == 1000001000u &&
           ipxr_pace_lets_go(&pace, 1, 1000001000u) && pace.between == 0;
}

static int is_told(void)
{
    static const uint8_t node[6] = {2, 0, 0, 0, 0, 1};
    static ipxr_twins twins;
    uint8_t before = 0;
    unsigned second = 1;
    while (second < 60 && !ipxr_twins_hear(&twins, node, (uint8_t)(second % 2 + 1), second, &before))
        second++;
    return second == 6 && before == 2;
}

static int is_asked_again(void)
{
    static const uint8_t card[6] = {2, 0, 0, 0, 0, 1}, said[6] = {2, 0, 0, 0, 0, 2};
    ipxr_asked asked = {0};
    ipxr_asks all = {0};
    uint8_t node[6];
    ipxr_asked_ask(&asked, &all, 1000, 0);
    ipxr_node_choose(0, 1, 1, said, card, 7, node);
    return ipxr_asks_patience(&all, 1000, 1000) == 250 && ipxr_asks_are_due(&all, 250001000u) &&
           ipxr_asked_is_due(&asked, &all, 250001000u) && node[5] == 2;
}

int main(void)
{
    static const ipxr_range range = {{192, 168, 1, 0}, 24};
    static const uint8_t inside[4] = {192, 168, 1, 7}, outside[4] = {192, 168, 2, 7};
    int are_right = are_known() && is_shut() && are_apart() && is_told() && is_asked_again();
    int is_right = are_right && ipxr_range_is_first(&range) && ipxr_ranges_have(&range, 1, inside) && !ipxr_ranges_have(&range, 1, outside);
    return is_right ? 0 : 1;
}
