//! Made of `ipxr_segment.h` by tools/lib/rust_sys.py: change that, and make it again.

use core::ffi::c_void;
use super::{ipxr_address};

/// The most links that one segment can have, and the most stations that it can know.
pub const IPXR_MOST_LINKS: usize = 32;
/// The most links that one segment can have, and the most stations that it can know.
pub const IPXR_MOST_STATIONS: usize = 8192;
/// nothing goes there, and what comes from there is ignored
pub const IPXR_LINK_DOWN: u8 = 0;
/// every node that is heard there is a station
pub const IPXR_LINK_CABLE: u8 = 1;
/// it proves who is there: its stations come and leave
pub const IPXR_LINK_SURE: u8 = 2;
/// the handle has no segment
pub const IPXR_NO_SEGMENT: i32 = -8;
/// there is no link of that number
pub const IPXR_NO_LINK: i32 = -9;
/// its kind is none of the three
pub const IPXR_BAD_LINK: i32 = -10;
/// it would have more than IPXR_MOST_LINKS
pub const IPXR_MANY_LINKS: i32 = -19;
/// it would know more than IPXR_MOST_STATIONS
pub const IPXR_MANY_STATIONS: i32 = -20;

/// A segment, or none. Begin with IPXR_SEGMENT_NONE, pass its address to the calls, and don't look inside.
#[repr(C)]
#[derive(Debug)]
pub struct ipxr_segment {
    pub made: bool,
    pub at: *mut c_void,
}

impl ipxr_segment {
    /// All its bytes are 0.
    pub const ZERO: ipxr_segment = ipxr_segment {
        made: false,
        at: core::ptr::null_mut(),
    };
}

/// What a segment is made from.
#[repr(C)]
#[derive(Clone, Copy, Debug, PartialEq, Eq)]
pub struct ipxr_segment_setting {
    /// the number of its network, as the router's port there has it
    pub network: u32,
    /// the router's node there: no station's
    pub node: [u8; 6],
    /// how many links it has: at most IPXR_MOST_LINKS
    pub links: u8,
    /// how many stations it knows at one time: at most IPXR_MOST_STATIONS. 0 knows none
    pub capacity: u16,
}

impl ipxr_segment_setting {
    /// All its bytes are 0.
    pub const ZERO: ipxr_segment_setting = ipxr_segment_setting {
        network: 0,
        node: [0; 6],
        links: 0,
        capacity: 0,
    };
}

/// A link.
#[repr(C)]
#[derive(Clone, Copy, Debug, PartialEq, Eq)]
pub struct ipxr_link {
    /// IPXR_LINK_DOWN, IPXR_LINK_CABLE or IPXR_LINK_SURE
    pub kind: u8,
    /// the most stations of it that are known at one time. A link that is down has none
    pub share: u16,
}

impl ipxr_link {
    /// All its bytes are 0.
    pub const ZERO: ipxr_link = ipxr_link {
        kind: 0,
        share: 0,
    };
}

/// A station that is known.
#[repr(C)]
#[derive(Clone, Copy, Debug, PartialEq, Eq)]
pub struct ipxr_station {
    pub node: [u8; 6],
    /// where it is
    pub link: u8,
    /// whether it came to a sure link: then it is known until it leaves
    pub is_sure: bool,
    /// how many seconds longer it is known, unless it is sure or heard again
    pub seconds_left: u16,
}

impl ipxr_station {
    /// All its bytes are 0.
    pub const ZERO: ipxr_station = ipxr_station {
        node: [0; 6],
        link: 0,
        is_sure: false,
        seconds_left: 0,
    };
}

extern "C" {
    /// Makes a segment with that setting, which is copied. All its links are down. A segment that the handle had is
    /// freed, but only if the new one could be made. Returns 0; or IPXR_MANY_LINKS, else IPXR_MANY_STATIONS, else
    /// IPXR_OUT_OF_MEMORY, and then the handle is as it was.
    pub fn ipxr_segment_make(segment: *mut ipxr_segment, setting: *const ipxr_segment_setting) -> i32;
    /// Frees the segment, if there is one; the handle then has none.
    pub fn ipxr_segment_free(segment: *mut ipxr_segment);
    /// A link goes up or down, or changes. Its stations are forgotten in any case. Returns 0.
    pub fn ipxr_segment_change(segment: *mut ipxr_segment, link: u8, to: *const ipxr_link) -> i32;
    /// A packet was heard at a link, from a node for a node, or for all. Returns 1 if the router hears it: then give it
    /// to ipxr_packet. Otherwise it returns 0: the packet is for another node, or is ignored, since its link is down,
    /// or its source is the router's node, the node that stands for all, or a station that came to another link.
    pub fn ipxr_segment_hear(segment: *mut ipxr_segment, link: u8, source: *const u8, destination: *const u8) -> i32;
    /// A node came to a link, or left it. Coming counts at a sure link alone. Each returns 0.
    pub fn ipxr_segment_come(segment: *mut ipxr_segment, link: u8, node: *const u8) -> i32;
    /// A node came to a link, or left it. Coming counts at a sure link alone. Each returns 0.
    pub fn ipxr_segment_leave(segment: *mut ipxr_segment, link: u8, node: *const u8) -> i32;
    /// A second has passed: stations that were not heard for 300 seconds are forgotten. Returns 0.
    pub fn ipxr_segment_second(segment: *mut ipxr_segment) -> i32;
    /// The router sends a packet on the segment's network to that node, or to all: ipxr_packet_sent has it. Returns 0.
    pub fn ipxr_segment_send(segment: *mut ipxr_segment, node: *const u8) -> i32;
    /// The links that get the packet of the last event, in order.
    pub fn ipxr_segment_receivers(segment: *mut ipxr_segment) -> usize;
    /// The links that get the packet of the last event, in order.
    pub fn ipxr_segment_receiver(segment: *mut ipxr_segment, index: usize, link: *mut u8) -> i32;
    /// Its stations, in the order in which they came to their links.
    pub fn ipxr_segment_stations(segment: *mut ipxr_segment) -> usize;
    /// Its stations, in the order in which they came to their links.
    pub fn ipxr_segment_station(segment: *mut ipxr_segment, index: usize, station: *mut ipxr_station) -> i32;
    /// Copies what the link of that number is. Returns 0; with IPXR_NO_SEGMENT and IPXR_NO_LINK `values` stays as it
    /// was.
    pub fn ipxr_segment_link(segment: *mut ipxr_segment, link: u8, values: *mut ipxr_link) -> i32;
    /// Copies the node that a packet with that destination goes to on the segment's network, if no frame says it: the
    /// destination's node if its network is this one (its number, 0 or FFFFFFFFh), otherwise the router's. Returns 0;
    /// with IPXR_NO_SEGMENT `node` stays as it was.
    pub fn ipxr_segment_next_node(segment: *mut ipxr_segment, destination: *const ipxr_address, node: *mut u8) -> i32;
}
