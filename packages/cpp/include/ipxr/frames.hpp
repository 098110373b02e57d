// Frames of Ethernet: reading and writing them, without a router.
#ifndef IPXR_FRAMES_HPP
#define IPXR_FRAMES_HPP

#include "text.hpp"

namespace ipx {

/// How a frame carries an IPX packet.
enum class FrameKind : std::uint8_t {
    None = IPXR_NO_FRAME,             // it carries none
    Ethernet2 = IPXR_FRAME_ETHERNET2, // its type is 8137h
    Raw = IPXR_FRAME_RAW,             // behind a length: Novell's own kind, for packets without a checksum
    Llc = IPXR_FRAME_LLC,             // behind a length and the 802.2 header E0 E0 03
    Snap = IPXR_FRAME_SNAP,           // behind a length and the 802.2 header AA AA 03 00 00 00 81 37
};

static_assert(IPXR_FRAME_KINDS == IPXR_FRAME_SNAP, "the header has another kind of frames");

/// A frame that was read: its kind, and the bytes from the packet on, with any padding, where they were.
struct Frame {
    FrameKind kind;
    View packet;

    explicit operator bool() const { return kind != FrameKind::None; }
};

/// Reads a frame. It is false if it carries no IPX.
///
/// ```cpp
/// const std::uint8_t hello[] = {'h', 'e', 'l', 'l', 'o'};
/// ipx::Bytes packet = ipx::write_packet(ipxr_address(), ipxr_address(), 0, hello).value;
/// ipx::Bytes bytes = ipx::write_frame(ipx::FrameKind::Raw, ipx::ALL_NODES, {{0, 0, 0x1B, 0, 0, 1}}, packet);
/// assert(bytes.size() == 60);
/// ipx::Frame frame = ipx::read_frame(bytes);
/// assert(frame.kind == ipx::FrameKind::Raw && ipx::read_packet(frame.packet).value.data.length == 5);
/// ```
inline Frame read_frame(View frame)
{
    std::size_t front = 0;
    const auto kind = static_cast<FrameKind>(ipxr_frame_read(frame.at, frame.length, &front));
    if (kind == FrameKind::None)
        return {kind, View(frame.at, 0)};
    return {kind, View(frame.at + front, frame.length - front)};
}

/// The frame in which a packet is sent to a node from a node, padded to 60 bytes. It is empty if the packet is too long for a frame, or has
/// a checksum and the frame would be raw.
inline Bytes write_frame(FrameKind kind, const Node &to, const Node &from, View packet)
{
    Bytes frame(IPXR_LONGEST_FRAME);
    frame.resize(ipxr_frame_write(static_cast<std::uint8_t>(kind), to.data(), from.data(), packet.at, packet.length, frame.data(),
                                  frame.size()));
    return frame;
}

} // namespace ipx

#endif
