//! Frames of Ethernet: reading and writing them, without a router.
//!
//! ```
//! use ipxr::frames::{self, Kind};
//! use ipxr::{Address, Node, packets};
//!
//! let packet = packets::write_packet(&Address::default(), &Address::default(), 0, 0, b"hello")?;
//! let frame = frames::write(Kind::Raw, Node::ALL, "00:00:1B:00:00:01".parse()?, &packet).ok_or("no such frame")?;
//! assert_eq!(frame.len(), 60);
//! let (kind, bytes) = frames::read(&frame).ok_or("no IPX")?;
//! assert_eq!(kind, Kind::Raw);
//! assert!(bytes.starts_with(&packet)); // padding and all, as the router takes it
//! # Ok::<(), Box<dyn std::error::Error>>(())
//! ```
use crate::sys;
use crate::Node;
use alloc::vec;
use alloc::vec::Vec;

/// How a frame carries an IPX packet.
#[derive(Clone, Copy, Debug, PartialEq, Eq, Hash)]
pub enum Kind {
    /// Its type is 8137h.
    Ethernet2,
    /// Behind a length: Novell's own kind, for packets without a checksum.
    Raw,
    /// Behind a length and the 802.2 header E0 E0 03.
    Llc,
    /// Behind a length and the 802.2 header AA AA 03 00 00 00 81 37.
    Snap,
}

impl Kind {
    /// All kinds.
    pub const ALL: [Kind; sys::IPXR_FRAME_KINDS as usize] = [Kind::Ethernet2, Kind::Raw, Kind::Llc, Kind::Snap];

    /// Its number for C.
    pub fn number(self) -> u8 {
        match self {
            Kind::Ethernet2 => sys::IPXR_FRAME_ETHERNET2,
            Kind::Raw => sys::IPXR_FRAME_RAW,
            Kind::Llc => sys::IPXR_FRAME_LLC,
            Kind::Snap => sys::IPXR_FRAME_SNAP,
        }
    }

    /// The kind of that number, or none.
    pub fn of(number: u8) -> Option<Kind> {
        Kind::ALL.into_iter().find(|it| it.number() == number)
    }
}

/// How a frame carries a packet, and the bytes from the packet on, with any padding. Nothing if it carries no IPX.
pub fn read(frame: &[u8]) -> Option<(Kind, &[u8])> {
    let mut front = 0;
    // SAFETY: pointer and length are a slice's.
    let kind = unsafe { sys::ipxr_frame_read(frame.as_ptr(), frame.len(), &mut front) };
    Some((Kind::of(kind)?, frame.get(front..)?))
}

/// The frame in which a packet is sent to a node from a node, padded to 60 bytes. Nothing if the packet is too long for a frame, or has a
/// checksum and the frame would be raw.
pub fn write(kind: Kind, to: Node, from: Node, packet: &[u8]) -> Option<Vec<u8>> {
    let mut frame = vec![0; sys::IPXR_LONGEST_FRAME];
    let (bytes, room) = (frame.as_mut_ptr(), frame.len());
    // SAFETY: pointers and lengths are those of slices and nodes that lie apart.
    let length = unsafe { sys::ipxr_frame_write(kind.number(), to.as_ptr(), from.as_ptr(), packet.as_ptr(), packet.len(), bytes, room) };
    frame.truncate(length);
    (length > 0).then_some(frame)
}
