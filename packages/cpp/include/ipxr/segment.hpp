// One network over several links.
#ifndef IPXR_SEGMENT_HPP
#define IPXR_SEGMENT_HPP

#include "ipxr_segment.h"
#include "owner.hpp"
#include "text.hpp"

namespace ipx {

/// What a segment is made from: its network, the router's node there, how many links it has, and how many stations it knows at one time.
inline ipxr_segment_setting segment_setting(std::uint32_t network, const Node &node, std::uint8_t links, std::uint16_t capacity)
{
    ipxr_segment_setting made = {network, {0, 0, 0, 0, 0, 0}, links, capacity};
    put_node(made.node, node);
    return made;
}

/// What a link is: down; a cable, where every node that is heard is a station; or sure, where stations come and leave. `share` is how many
/// stations of it are known at one time at most.
inline ipxr_link link_down() { return {IPXR_LINK_DOWN, 0}; }
inline ipxr_link link_cable(std::uint16_t share) { return {IPXR_LINK_CABLE, share}; }
inline ipxr_link link_sure(std::uint16_t share) { return {IPXR_LINK_SURE, share}; }

/// Several links that are one network, such as cards, TAPs and a tunnel.
///
/// ```cpp
/// ipx::Segment segment;
/// if (!segment.make(ipx::segment_setting(0x10, {{0, 0, 0, 0, 0, 1}}, 2, 1024)))
///     return;
/// segment.change(0, ipx::link_cable(512));
/// segment.change(1, ipx::link_sure(512));
/// segment.come(1, {{2, 0, 0, 0, 0, 7}});
/// assert(segment.hear(0, {{0, 0, 0x1B, 0, 0, 1}}, ipx::ALL_NODES) == 1); // hand it to the router, too
/// assert(segment.receivers() == std::vector<std::uint8_t>{1});
/// ```
class Segment : public Owner<ipxr_segment, ipxr_segment_free> {
public:
    /// Makes a segment with that setting, whose links are all down.
    Answer make(const ipxr_segment_setting &setting) { return ipxr_segment_make(&handle, &setting); }

    /// A link goes up or down, or changes. Its stations are forgotten in any case.
    Answer change(std::uint8_t link, const ipxr_link &to) { return ipxr_segment_change(&handle, link, &to); }

    /// A packet was heard at a link, from a node for a node, or for all. The answer is 1 if the router hears it.
    Answer hear(std::uint8_t link, const Node &source, const Node &destination)
    {
        return ipxr_segment_hear(&handle, link, source.data(), destination.data());
    }

    /// A node came to a sure link, or left it.
    Answer come(std::uint8_t link, const Node &node) { return ipxr_segment_come(&handle, link, node.data()); }
    Answer leave(std::uint8_t link, const Node &node) { return ipxr_segment_leave(&handle, link, node.data()); }

    /// A second has passed.
    Answer second() { return ipxr_segment_second(&handle); }

    /// The router sends a packet on the segment's network to that node, or to all.
    Answer send(const Node &node) { return ipxr_segment_send(&handle, node.data()); }

    /// The links that get the packet of the last event, in order.
    std::vector<std::uint8_t> receivers() { return listed<std::uint8_t>(ipxr_segment_receivers(&handle), ipxr_segment_receiver); }

    /// Its stations, in the order in which they came to their links.
    std::vector<ipxr_station> stations() { return listed<ipxr_station>(ipxr_segment_stations(&handle), ipxr_segment_station); }

    /// What a link is.
    Result<ipxr_link> link(std::uint8_t number)
    {
        ipxr_link values = link_down();
        const std::int32_t answer = ipxr_segment_link(&handle, number, &values);
        return {answer, values};
    }

    /// The node that a packet with that destination goes to on the segment's network, if no frame says it.
    Result<Node> next_node(const ipxr_address &destination)
    {
        Node node = {};
        const std::int32_t answer = ipxr_segment_next_node(&handle, &destination, node.data());
        return {answer, node};
    }
};

} // namespace ipx

#endif
