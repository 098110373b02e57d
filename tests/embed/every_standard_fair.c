/* Uses what the header of receivers and meters has, in the C of 1989, which is also the C++ of 1998: it is read by each standard of both
 * without a warning. Run, it ends with 0 where a receiver of zeros hears nothing, one that is made hears a packet of its speaker's own, and
 * a meter lets pass what it has room for. */
#include "ipxr_fair.h"

static const ipxr_fair_setting SHARES = {1000, 2000, 4000, 8000};

int main(void)
{
    ipxr_fair zeros = {{0, 0, 0, 0}, 0, 0, 0, 0, 0, 0, {0}};
    ipxr_fair fair = zeros;
    ipxr_meter meter = {0};
    ipxr_meter other = {0};
    uint64_t clock = 0;
    int is_right = !ipxr_fair_says(&fair, IPXR_SPEAKERS - 1, 1) && ipxr_fair_make(&fair, &SHARES) && SHARES.room < IPXR_MOST_TIME;
    is_right = is_right && ipxr_fair_says(&fair, IPXR_SPEAKERS - 1, 1000) && fair.total == 1000;
    ipxr_fair_look(&fair, &clock, 600);
    ipxr_fair_pass(&fair, 400);
    is_right = is_right && clock == 600 && fair.total == 0 && !ipxr_fair_both_hear(&fair, &zeros, 0, 1, 1) && fair.total == 0;
    is_right = is_right && ipxr_meter_lets(&meter, 10, 7) && !ipxr_meter_both_let(&meter, 10, 4, &other, 10, 4) && other.used == 0;
    ipxr_meter_pass(&meter, 7);
    return is_right && meter.used == 0 ? 0 : 1;
}
