// What stays when a gateway reads another configuration: docs/RELOAD.md has the rules.
#ifndef IPXR_PLAN_HPP
#define IPXR_PLAN_HPP

#include "answer.hpp"
#include "ipxr_plan.h"
#include "packets.hpp"

namespace ipx {

/// What stays: whether the router does, what each new link is made from, and what becomes of each old one.
struct Plan {
    bool router_stays;
    std::vector<ipxr_plan_origin> origins;
    std::vector<ipxr_plan_fate> fates;
};

/// Plans what stays when a gateway with the links `old` gets the links `links`. It takes IPXR_PLAN_STACK bytes of stack at most.
///
/// ```cpp
/// ipxr_plan_link tunnel = ipxr_plan_link();
/// tunnel.network = 0x10;
/// tunnel.carrier = IPXR_CARRIER_TUNNEL;
/// tunnel.udp_port = 2130;
/// tunnel.has_node = tunnel.is_first = true;
/// ipx::Plan same = ipx::plan({tunnel}, {tunnel}).value;
/// assert(same.router_stays && same.origins[0].tunnel == IPXR_TUNNEL_STAYS);
/// assert(ipx::plan({tunnel}, {}).value.fates[0].is_closed);
/// ```
inline Result<Plan> plan(const std::vector<ipxr_plan_link> &old, const std::vector<ipxr_plan_link> &links)
{
    // (one more of each, since C takes no pointer that leads nowhere)
    Plan made = {false, std::vector<ipxr_plan_origin>(links.size() + 1), std::vector<ipxr_plan_fate>(old.size() + 1)};
    const std::int32_t answer = ipxr_plan(of_packets::list_of(old), old.size(), of_packets::list_of(links), links.size(),
                                          made.origins.data(), links.size(), made.fates.data(), old.size());
    made.router_stays = answer == 1;
    made.origins.pop_back();
    made.fates.pop_back();
    return {answer, made};
}

} // namespace ipx

#endif
