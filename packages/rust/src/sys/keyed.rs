//! Made of `ipxr_keyed.h` by tools/lib/rust_sys.py: change that, and make it again.

use core::ffi::c_void;
use super::{ipxr_own};

/// A tunnel, or none. Begin with IPXR_KEYED_NONE, pass its address to the calls, and don't look inside.
#[repr(C)]
#[derive(Debug)]
pub struct ipxr_keyed {
    pub made: bool,
    pub at: *mut c_void,
}

impl ipxr_keyed {
    /// All its bytes are 0.
    pub const ZERO: ipxr_keyed = ipxr_keyed {
        made: false,
        at: core::ptr::null_mut(),
    };
}

/// What a tunnel is made from.
#[repr(C)]
#[derive(Clone, Copy, Debug, PartialEq, Eq)]
pub struct ipxr_keyed_setting {
    /// the number of its network, as the router's port there has it
    pub network: u32,
    /// the server's node there, which is the router's too: no node of a client
    pub node: [u8; 6],
    /// how many clients it takes: at most IPXR_MOST_CLIENTS. 0 takes none
    pub capacity: u16,
    /// how many of them may have one IPv4 address. 0 takes none
    pub share: u16,
    /// how many registrations it remembers, each for nine seconds: at most IPXR_MOST_CLIENTS
    pub remembered: u16,
    /// how many of them may have one IPv4 address
    pub remembered_share: u16,
}

impl ipxr_keyed_setting {
    /// All its bytes are 0.
    pub const ZERO: ipxr_keyed_setting = ipxr_keyed_setting {
        network: 0,
        node: [0; 6],
        capacity: 0,
        share: 0,
        remembered: 0,
        remembered_share: 0,
    };
}

/// Where a datagram came from, and what you know of that place.
#[repr(C)]
#[derive(Clone, Copy, Debug, PartialEq, Eq)]
pub struct ipxr_keyed_sender {
    /// the place
    pub place: [u8; 6],
    /// its node
    pub node: [u8; 6],
    /// its former node, or its node again
    pub former: [u8; 6],
    /// its cookie of this minute
    pub current: [u8; 6],
    /// its cookie of the last minute, whose answer counts too
    pub previous: [u8; 6],
    /// whether its address is one of a network of yours, so that its first word makes it a client: 0 or 1
    pub is_trusted: bool,
    /// whether a registration counts now, which may bring it up to four datagrams: 0 or 1
    pub may_register: bool,
}

impl ipxr_keyed_sender {
    /// All its bytes are 0.
    pub const ZERO: ipxr_keyed_sender = ipxr_keyed_sender {
        place: [0; 6],
        node: [0; 6],
        former: [0; 6],
        current: [0; 6],
        previous: [0; 6],
        is_trusted: false,
        may_register: false,
    };
}

/// A client, or somebody who registered and is remembered.
#[repr(C)]
#[derive(Clone, Copy, Debug, PartialEq, Eq)]
pub struct ipxr_keyed_member {
    pub place: [u8; 6],
    pub node: [u8; 6],
    /// how many seconds longer it stays, unless it answers a ping (if it is trusted: says anything)
    pub seconds_left: u8,
}

impl ipxr_keyed_member {
    /// All its bytes are 0.
    pub const ZERO: ipxr_keyed_member = ipxr_keyed_member {
        place: [0; 6],
        node: [0; 6],
        seconds_left: 0,
    };
}

extern "C" {
    /// Makes a tunnel with that setting, which is copied. It has no clients, and no results of an event. A tunnel that
    /// the handle had is freed, but only if the new one could be made. Returns 0; or IPXR_MANY_CLIENTS or
    /// IPXR_OUT_OF_MEMORY, and then the handle is as it was.
    pub fn ipxr_keyed_make(tunnel: *mut ipxr_keyed, setting: *const ipxr_keyed_setting) -> i32;
    /// Frees the tunnel, if there is one; the handle then has none. Its clients are forgotten, and get no message.
    pub fn ipxr_keyed_free(tunnel: *mut ipxr_keyed);
    /// A datagram arrived. `bytes` is what it held, any bytes at all; they are only read, and only during the call.
    /// Don't give one with a packet longer than your network carries: it would be carried. Clear the packet's transport
    /// control (byte 4) first: DOSBox leaves there what its program left, and a router drops what has crossed sixteen.
    /// Returns what it said: IPXR_SAID_NOTHING, IPXR_REGISTERS, IPXR_ANSWERS or IPXR_SPEAKS.
    pub fn ipxr_keyed_hear(tunnel: *mut ipxr_keyed, sender: *const ipxr_keyed_sender, bytes: *const u8, length: usize) -> i32;
    /// A second has passed: clients that have not answered for five seconds, or ten, .. are pinged, and those whose
    /// time is over leave; who registered is answered again, and pinged in the seventh second and in the ninth. Returns
    /// 0. Call it once for each second of your clock, at most once for each turn of your loop: after a stall, clients
    /// shouldn't all be counted out at once.
    pub fn ipxr_keyed_second(tunnel: *mut ipxr_keyed) -> i32;
    /// The router sends a packet on the tunnel's network to that node, or to all: ipxr_packet_sent has it. The
    /// receivers, who are clients, get its bytes, which the tunnel doesn't need. Returns 0.
    pub fn ipxr_keyed_send(tunnel: *mut ipxr_keyed, node: *const u8) -> i32;
    /// Datagrams of the tunnel's own: send them first. After a datagram there is at most one; after a second one for
    /// each silent client, and behind these one for each remembered place that is answered again or pinged.
    pub fn ipxr_keyed_owns(tunnel: *mut ipxr_keyed) -> usize;
    /// Datagrams of the tunnel's own: send them first. After a datagram there is at most one; after a second one for
    /// each silent client, and behind these one for each remembered place that is answered again or pinged.
    pub fn ipxr_keyed_own(tunnel: *mut ipxr_keyed, index: usize, own: *mut ipxr_own) -> i32;
    /// How many of them, the first ones, are pings of clients after a second.
    pub fn ipxr_keyed_pings(tunnel: *mut ipxr_keyed) -> usize;
    /// The places that get the packet: of a datagram that was heard, or of what the router sends.
    pub fn ipxr_keyed_receivers(tunnel: *mut ipxr_keyed) -> usize;
    /// The places that get the packet: of a datagram that was heard, or of what the router sends.
    pub fn ipxr_keyed_receiver(tunnel: *mut ipxr_keyed, index: usize, place: *mut u8) -> i32;
    /// How many bytes of the datagram, from its first on, are the packet; what follows isn't carried. 0 if the event
    /// was no datagram, or one without a packet.
    pub fn ipxr_keyed_carried(tunnel: *mut ipxr_keyed) -> usize;
    /// 1 if the router hears the packet of the datagram, else 0: give these bytes to ipxr_packet then.
    pub fn ipxr_keyed_is_heard(tunnel: *mut ipxr_keyed) -> u8;
    /// The clients that left in the second.
    pub fn ipxr_keyed_leavers(tunnel: *mut ipxr_keyed) -> usize;
    /// The clients that left in the second.
    pub fn ipxr_keyed_leaver(tunnel: *mut ipxr_keyed, index: usize, member: *mut ipxr_keyed_member) -> i32;
    pub fn ipxr_keyed_clients(tunnel: *mut ipxr_keyed) -> usize;
    pub fn ipxr_keyed_client(tunnel: *mut ipxr_keyed, index: usize, member: *mut ipxr_keyed_member) -> i32;
    pub fn ipxr_keyed_waiters(tunnel: *mut ipxr_keyed) -> usize;
    pub fn ipxr_keyed_waiter(tunnel: *mut ipxr_keyed, index: usize, member: *mut ipxr_keyed_member) -> i32;
}
