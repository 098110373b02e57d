/* Uses what the header of fates has, in the C of 1989, which is also the C++ of 1998: it is read by each standard of both without a warning.
 * Run, it ends with 0 where each packet of which every question is answered by no, and by yes, comes to its fate, and is counted. */
#include "ipxr_fates.h"

static ipxr_counts counts;

/* The way of a packet of which all is answered alike, to its end. Returns how many steps it has. */
static int steps_of(ipxr_course *way, uint16_t answer)
{
    int steps = 0;
    for (; way->next != IPXR_NEXT_END; steps++)
        ipxr_course_answer(way, answer);
    ipxr_counts_count(&counts, way);
    return steps;
}

static int is_lost(const ipxr_course *way, uint16_t why)
{
    return way->fate == IPXR_FATE_LOST && way->number == why && counts.lost[why] == 1;
}

int main(void)
{
    ipxr_course frame, datagram, long_frame, long_datagram;
    int is_right = 1;
    ipxr_course_of_frame(&frame);
    ipxr_course_of_datagram(&datagram);
    is_right = frame.next == IPXR_NEXT_FRAME_IS_FRAME && datagram.next == IPXR_NEXT_DATAGRAM_IS_TOO_LONG;
    long_frame = frame;
    long_datagram = datagram;
    is_right = steps_of(&frame, 0) == 1 && is_lost(&frame, IPXR_LOST_NO_IPX) && is_right;
    is_right = steps_of(&datagram, 0) == 3 && is_lost(&datagram, IPXR_LOST_NOT_ALLOWED) && is_right;
    is_right = steps_of(&long_frame, 1) == 3 && is_lost(&long_frame, IPXR_LOST_TOO_LONG) && is_right;
    is_right = steps_of(&long_datagram, 1) == 1 && long_datagram.number == IPXR_LOST_TOO_LONG && is_right;
    ipxr_counts_lose(&counts, IPXR_LOST_NOT_SENT);
    is_right = is_right && counts.in == 4 && counts.lost[IPXR_LOST_TOO_LONG] == 2 && counts.lost[IPXR_LOST_NOT_SENT] == 1;
    return is_right && counts.dropped[0] == 0 ? 0 : 1;
}
