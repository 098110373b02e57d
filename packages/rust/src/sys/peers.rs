//! Made of `ipxr_peers.h` by tools/lib/rust_sys.py: change that, and make it again.

/// How many places there are.
pub const IPXR_MOST_PEERS: usize = 64;
/// nothing: it is your own, its session is zeros or its number 0, or you haven't begun
pub const IPXR_PEERS_DROPPED: u8 = 0;
/// its echo isn't your session: send an empty datagram there that echoes its session. Nothing is kept
pub const IPXR_PEERS_GREET: u8 = 1;
/// nothing: it was heard, or it came too late to tell
pub const IPXR_PEERS_REPEATED: u8 = 2;
/// it is heard, from a place that you know
pub const IPXR_PEERS_HEARD: u8 = 3;
/// it is heard, from a new place: answer with an empty datagram that echoes its session
pub const IPXR_PEERS_NEW: u8 = 4;
/// nothing: it is of a new place, and 64 others are present
pub const IPXR_PEERS_FULL: u8 = 5;
/// it is of a new place, and of the 64 some aren't present: begin again, and greet it
pub const IPXR_PEERS_AGAIN: u8 = 6;

/// A datagram that came, and whose seal was right.
#[repr(C)]
#[derive(Clone, Copy, Debug, PartialEq, Eq)]
pub struct ipxr_opened {
    /// the sender's
    pub session: [u8; 16],
    /// yours, as the sender knows it, or zeros
    pub echo: [u8; 16],
    /// where it came from: any bytes, the same for the same address
    pub address: [u8; 24],
    /// its number in the sender's session
    pub number: u64,
}

impl ipxr_opened {
    /// All its bytes are 0.
    pub const ZERO: ipxr_opened = ipxr_opened {
        session: [0; 16],
        echo: [0; 16],
        address: [0; 24],
        number: 0,
    };
}

/// A place. With all bytes 0 there is none.
#[repr(C)]
#[derive(Clone, Copy, Debug, PartialEq, Eq)]
pub struct ipxr_peer {
    pub session: [u8; 16],
    pub address: [u8; 24],
    /// for how many seconds it is present still, unless it is heard: at most 180. At 0 it isn't
    pub left: u64,
    /// the highest number that was heard
    pub newest: u64,
    /// and the highest of each remainder by 256
    pub slots: [u64; 256],
}

impl ipxr_peer {
    /// All its bytes are 0.
    pub const ZERO: ipxr_peer = ipxr_peer {
        session: [0; 16],
        address: [0; 24],
        left: 0,
        newest: 0,
        slots: [0; 256],
    };
}

/// All places. With all bytes 0 you haven't begun.
#[repr(C)]
#[derive(Debug, PartialEq, Eq)]
pub struct ipxr_peers {
    /// your own
    pub session: [u8; 16],
    /// your last number, or 0
    pub sent: u64,
    /// how many places were heard in this session: the first ones are theirs
    pub used: u64,
    pub places: [ipxr_peer; 64],
}

impl ipxr_peers {
    /// All its bytes are 0.
    pub const ZERO: ipxr_peers = ipxr_peers {
        session: [0; 16],
        sent: 0,
        used: 0,
        places: [ipxr_peer::ZERO; 64],
    };
}

extern "C" {
    /// Begins, or begins again, with a session, in which your numbers begin from 1. What was known of all places is
    /// forgotten.
    pub fn ipxr_peers_begin(peers: *mut ipxr_peers, session: *const u8);
    /// Hears a datagram. Returns what becomes of it, one of IPXR_PEERS_..; if it is heard (IPXR_PEERS_HEARD,
    /// IPXR_PEERS_NEW), `place` has the number of its place then, below IPXR_MOST_PEERS, which that place keeps until
    /// you begin again. If not, `place` stays as it was. A new place at another's address takes its turn: the other
    /// isn't present any more.
    pub fn ipxr_peers_hear(peers: *mut ipxr_peers, opened: *const ipxr_opened, place: *mut u8) -> u8;
    /// The number of the datagram that you send next, which you must seal with no other one. 0: there is none left,
    /// begin again.
    pub fn ipxr_peers_number(peers: *mut ipxr_peers) -> u64;
    /// Whether a place is present: a datagram to it echoes that session and goes to that address. If it isn't, both
    /// stay as they were.
    pub fn ipxr_peers_present(peers: *const ipxr_peers, place: u8, session: *mut u8, address: *mut u8) -> bool;
    /// A second passes.
    pub fn ipxr_peers_second(peers: *mut ipxr_peers);
}
