//! Made of `ipxr_plan.h` by tools/lib/rust_sys.py: change that, and make it again.

/// The most links of a configuration: one for each port of the router, and those of networks that have several.
pub const IPXR_MOST_PLANNED: usize = 64;
/// The number of a link, where there is none.
pub const IPXR_NO_ONE: usize = 64;
/// Bytes of stack that ipxr_plan takes at most.
pub const IPXR_PLAN_STACK: usize = 69632;
/// DOSBox's tunnel, at its UDP port
pub const IPXR_CARRIER_TUNNEL: u8 = 0;
/// a network card: each network there opens a socket of its own
pub const IPXR_CARRIER_CARD: u8 = 1;
/// a socket, a connection or a TAP: opened once for all networks on it
pub const IPXR_CARRIER_SHARED: u8 = 2;
/// a socket at whichever port is free: each link opens its own
pub const IPXR_CARRIER_OWN: u8 = 3;
/// the link has none
pub const IPXR_TUNNEL_ABSENT: u8 = 0;
/// it is the one of the old link that the link continues, as it stands
pub const IPXR_TUNNEL_STAYS: u8 = 1;
/// it is made anew, and that one's clients are let in again, as far as they may
pub const IPXR_TUNNEL_AGAIN: u8 = 2;
/// it is made anew, without clients
pub const IPXR_TUNNEL_NEW: u8 = 3;

/// A link of a configuration.
#[repr(C)]
#[derive(Clone, Copy, Debug, PartialEq, Eq)]
pub struct ipxr_plan_link {
    /// the number of its network
    pub network: u32,
    /// IPXR_CARRIER_TUNNEL and so on
    pub carrier: u8,
    /// the kind of its frames
    pub frames: u8,
    /// of a tunnel: its port, or 0 if it takes whichever is free
    pub udp_port: u16,
    /// the number of its carrier: of the addresses or the name
    pub number: u32,
    /// the number of what else the router's port is made from: cost, longest packet, shares
    pub port: u32,
    /// the number of the rules for its clients
    pub clients: u32,
    /// the number of the sockets whose broadcasts are extended
    pub sockets: u32,
    /// the router's node there: of an old link the one that it has, of a new one the one that a new router would have,
    pub node: [u8; 6],
    /// if it is known: 0 or 1. That of a card that isn't there isn't known
    pub has_node: bool,
    /// whether its network has several links: 0 or 1
    pub is_of_several: bool,
    /// whether it is the first of them, or the only one: 0 or 1
    pub is_first: bool,
}

impl ipxr_plan_link {
    /// All its bytes are 0.
    pub const ZERO: ipxr_plan_link = ipxr_plan_link {
        network: 0,
        carrier: 0,
        frames: 0,
        udp_port: 0,
        number: 0,
        port: 0,
        clients: 0,
        sockets: 0,
        node: [0; 6],
        has_node: false,
        is_of_several: false,
        is_first: false,
    };
}

/// What a new link is made from.
#[repr(C)]
#[derive(Clone, Copy, Debug, PartialEq, Eq)]
pub struct ipxr_plan_origin {
    /// the old link that it continues, or IPXR_NO_ONE if it is added
    pub was: usize,
    /// whose cable it has: if is_kept, that of this old link. Otherwise the one that is opened for this new link,
    /// itself or an earlier one
    pub cable: usize,
    /// IPXR_TUNNEL_ABSENT and so on
    pub tunnel: u8,
    /// whether the cable stays open
    pub is_kept: bool,
    /// whether it is carried as the link that it continues was. If not, it begins anew there
    pub is_as_before: bool,
    /// whether the rules for its clients are others than that one's
    pub has_other_clients: bool,
    /// whether it extends broadcasts to other sockets than that one
    pub has_other_sockets: bool,
}

impl ipxr_plan_origin {
    /// All its bytes are 0.
    pub const ZERO: ipxr_plan_origin = ipxr_plan_origin {
        was: 0,
        cable: 0,
        tunnel: 0,
        is_kept: false,
        is_as_before: false,
        has_other_clients: false,
        has_other_sockets: false,
    };
}

/// What becomes of an old link.
#[repr(C)]
#[derive(Clone, Copy, Debug, PartialEq, Eq)]
pub struct ipxr_plan_fate {
    /// the new link that continues it, or IPXR_NO_ONE if it is removed
    pub becomes: usize,
    /// whether its cable is closed. This is said of the first of the links that share it
    pub is_closed: bool,
    /// whether it is a tunnel that ends: its clients wouldn't find it again
    pub ends_tunnel: bool,
}

impl ipxr_plan_fate {
    /// All its bytes are 0.
    pub const ZERO: ipxr_plan_fate = ipxr_plan_fate {
        becomes: 0,
        is_closed: false,
        ends_tunnel: false,
    };
}

extern "C" {
    /// Plans what stays when a gateway with the links `old` gets the links `links`. Writes what each new link is made
    /// from, and what becomes of each old one; what lies behind stays as it is. Returns 1 if the router stays, 0 if it
    /// doesn't; or IPXR_MANY_LINKS if there are more than IPXR_MOST_PLANNED, else IPXR_SHORT_BUFFER if there is no room
    /// for what is said of each, else IPXR_BAD_LINK if a carrier is none of the four, and then nothing is written.
    pub fn ipxr_plan(old: *const ipxr_plan_link, old_count: usize, links: *const ipxr_plan_link, count: usize, origins: *mut ipxr_plan_origin, origins_room: usize, fates: *mut ipxr_plan_fate, fates_room: usize) -> i32;
}
