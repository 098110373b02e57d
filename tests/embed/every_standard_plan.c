/* Uses what the header of plans has, in the C of 1989, which is also the C++ of 1998: it is read by each standard of both without a
 * warning. Run, it ends with 0 where two networks on one connection are planned as their links say. */
#include "ipxr_plan.h"

static const ipxr_plan_link OLD[2] = {
    {0x10, IPXR_CARRIER_SHARED, 1, 0, 1, 1, 1, 1, {0, 0, 0, 0, 0, 1}, 1, 0, 1},
    {0x20, IPXR_CARRIER_SHARED, 2, 0, 1, 1, 1, 1, {0, 0, 0, 0, 0, 2}, 1, 0, 1}
};

int main(void)
{
    ipxr_plan_origin origins[1];
    ipxr_plan_fate fates[2];
    int is_right = ipxr_plan(OLD, 2, &OLD[1], 1, origins, 1, fates, 2) == 0 && origins[0].was == 1 && origins[0].is_kept == 1;
    is_right = is_right && origins[0].cable == 0 && origins[0].tunnel == IPXR_TUNNEL_ABSENT && origins[0].is_as_before == 1;
    is_right = is_right && fates[0].becomes == IPXR_NO_ONE && fates[0].is_closed == 0 && fates[1].becomes == 0 && fates[1].ends_tunnel == 0;
    return is_right ? 0 : 1;
}
