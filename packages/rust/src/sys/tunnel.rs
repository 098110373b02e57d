//! Made of `ipxr_tunnel.h` by tools/lib/rust_sys.py: change that, and make it again.

use core::ffi::c_void;

/// The most clients that one tunnel can have.
pub const IPXR_MOST_CLIENTS: usize = 4096;
/// nothing that counts: it isn't a packet, or names a source other than its place on this network
pub const IPXR_SAID_NOTHING: i32 = 0;
/// that it wants to be a client
pub const IPXR_REGISTERS: i32 = 1;
/// that it heard its ping: it names one of its cookies
pub const IPXR_ANSWERS: i32 = 2;
/// something to others; of one who is no client nobody gets it
pub const IPXR_SPEAKS: i32 = 3;
/// the handle has no tunnel
pub const IPXR_NO_TUNNEL: i32 = -7;
/// it would have more than IPXR_MOST_CLIENTS
pub const IPXR_MANY_CLIENTS: i32 = -18;

/// A tunnel, or none. Begin with IPXR_TUNNEL_NONE, pass its address to the calls, and don't look inside.
#[repr(C)]
#[derive(Debug)]
pub struct ipxr_tunnel {
    pub made: bool,
    pub at: *mut c_void,
}

impl ipxr_tunnel {
    /// All its bytes are 0.
    pub const ZERO: ipxr_tunnel = ipxr_tunnel {
        made: false,
        at: core::ptr::null_mut(),
    };
}

/// What a tunnel is made from.
#[repr(C)]
#[derive(Clone, Copy, Debug, PartialEq, Eq)]
pub struct ipxr_tunnel_setting {
    /// the number of its network, as the router's port there has it
    pub network: u32,
    /// the server's node there, which is the router's too: no place of a client
    pub node: [u8; 6],
    /// how many clients it takes: at most IPXR_MOST_CLIENTS. 0 takes none
    pub capacity: u16,
    /// how many of them may have one IPv4 address. 0 takes none
    pub share: u16,
}

impl ipxr_tunnel_setting {
    /// All its bytes are 0.
    pub const ZERO: ipxr_tunnel_setting = ipxr_tunnel_setting {
        network: 0,
        node: [0; 6],
        capacity: 0,
        share: 0,
    };
}

/// Where a datagram came from.
#[repr(C)]
#[derive(Clone, Copy, Debug, PartialEq, Eq)]
pub struct ipxr_sender {
    /// the place
    pub place: [u8; 6],
    /// its cookie of this minute
    pub current: [u8; 6],
    /// its cookie of the last minute, whose answer counts too
    pub previous: [u8; 6],
    /// whether its address is one of a network of yours, so that it is a client without an answer: 0 or 1
    pub is_trusted: bool,
}

impl ipxr_sender {
    /// All its bytes are 0.
    pub const ZERO: ipxr_sender = ipxr_sender {
        place: [0; 6],
        current: [0; 6],
        previous: [0; 6],
        is_trusted: false,
    };
}

/// A datagram of the tunnel's own: an answer or a ping.
#[repr(C)]
#[derive(Clone, Copy, Debug, PartialEq, Eq)]
pub struct ipxr_own {
    /// where it goes
    pub place: [u8; 6],
    /// its bytes
    pub bytes: [u8; 30],
}

impl ipxr_own {
    /// All its bytes are 0.
    pub const ZERO: ipxr_own = ipxr_own {
        place: [0; 6],
        bytes: [0; 30],
    };
}

/// A client.
#[repr(C)]
#[derive(Clone, Copy, Debug, PartialEq, Eq)]
pub struct ipxr_client {
    pub place: [u8; 6],
    /// how many seconds longer it stays, unless it answers a ping (if it is trusted: says anything)
    pub seconds_left: u8,
}

impl ipxr_client {
    /// All its bytes are 0.
    pub const ZERO: ipxr_client = ipxr_client {
        place: [0; 6],
        seconds_left: 0,
    };
}

extern "C" {
    /// Makes a tunnel with that setting, which is copied. It has no clients, and no results of an event. A tunnel that
    /// the handle had is freed, but only if the new one could be made. Returns 0; or IPXR_MANY_CLIENTS or
    /// IPXR_OUT_OF_MEMORY, and then the handle is as it was.
    pub fn ipxr_tunnel_make(tunnel: *mut ipxr_tunnel, setting: *const ipxr_tunnel_setting) -> i32;
    /// Frees the tunnel, if there is one; the handle then has none. Its clients are forgotten, and get no message.
    pub fn ipxr_tunnel_free(tunnel: *mut ipxr_tunnel);
    /// A datagram arrived. `bytes` is what it held, any bytes at all; they are only read, and only during the call.
    /// Don't give one with a packet longer than your network carries: it would be carried. Clear the packet's transport
    /// control (byte 4) first: DOSBox leaves there what its program left, and a router drops what has crossed sixteen.
    /// Returns what it said.
    pub fn ipxr_tunnel_hear(tunnel: *mut ipxr_tunnel, sender: *const ipxr_sender, bytes: *const u8, length: usize) -> i32;
    /// A second has passed: clients that have not answered for five seconds, or ten, .. are pinged, and those whose
    /// time is over leave. Returns 0. Call it once for each second of your clock, at most once for each turn of your
    /// loop: after a stall, clients shouldn't all be counted out at once.
    pub fn ipxr_tunnel_second(tunnel: *mut ipxr_tunnel) -> i32;
    /// The router sends a packet on the tunnel's network to that node, or to all: ipxr_packet_sent has it. The
    /// receivers get its bytes, which the tunnel doesn't need. Returns 0.
    pub fn ipxr_tunnel_send(tunnel: *mut ipxr_tunnel, node: *const u8) -> i32;
    /// Datagrams of the tunnel's own: send them first. After a datagram there are at most two, after a second one for
    /// each silent client.
    pub fn ipxr_tunnel_owns(tunnel: *mut ipxr_tunnel) -> usize;
    /// Datagrams of the tunnel's own: send them first. After a datagram there are at most two, after a second one for
    /// each silent client.
    pub fn ipxr_tunnel_own(tunnel: *mut ipxr_tunnel, index: usize, own: *mut ipxr_own) -> i32;
    /// The places that get the packet: of a datagram that was heard, or of what the router sends.
    pub fn ipxr_tunnel_receivers(tunnel: *mut ipxr_tunnel) -> usize;
    /// The places that get the packet: of a datagram that was heard, or of what the router sends.
    pub fn ipxr_tunnel_receiver(tunnel: *mut ipxr_tunnel, index: usize, place: *mut u8) -> i32;
    /// How many bytes of the datagram, from its first on, are the packet; what follows isn't carried. 0 if the event
    /// was no datagram, or one without a packet.
    pub fn ipxr_tunnel_carried(tunnel: *mut ipxr_tunnel) -> usize;
    /// 1 if the router hears the packet of the datagram, else 0: give these bytes to ipxr_packet then.
    pub fn ipxr_tunnel_is_heard(tunnel: *mut ipxr_tunnel) -> u8;
    /// The places of the clients that left in the second.
    pub fn ipxr_tunnel_leavers(tunnel: *mut ipxr_tunnel) -> usize;
    /// The places of the clients that left in the second.
    pub fn ipxr_tunnel_leaver(tunnel: *mut ipxr_tunnel, index: usize, place: *mut u8) -> i32;
    pub fn ipxr_tunnel_clients(tunnel: *mut ipxr_tunnel) -> usize;
    pub fn ipxr_tunnel_client(tunnel: *mut ipxr_tunnel, index: usize, client: *mut ipxr_client) -> i32;
    /// Whether a packet that came on the network of that number is copied: it is a broadcast there to one of the
    /// `count` sockets, its source names the network, and it isn't of the type that routers propagate (20). If so, its
    /// bytes become those of the copy for the network `to`: they differ in the destination's network alone. Send the
    /// copy there as a packet to all; the call returns 1. Otherwise they stay as they were, and it returns 0. A copy
    /// isn't copied again, on any network and by any sockets, if `to` is a network other than `network`, and neither 0
    /// nor FFFFFFFFh. Ask only about what the router hears, with the bytes that were carried.
    pub fn ipxr_tunnel_extend(network: u32, sockets: *const u16, count: usize, to: u32, bytes: *mut u8, length: usize) -> u8;
}
