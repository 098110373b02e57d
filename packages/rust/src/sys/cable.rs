//! Made of `ipxr_cable.h` by tools/lib/rust_sys.py: change that, and make it again.

/// no other link is shut than before
pub const IPXR_PROBE_NOTHING: u8 = 0;
/// the link where it came is shut now, which was open
pub const IPXR_PROBE_HERE: u8 = 1;
/// the link that sent it is shut now, which was open
pub const IPXR_PROBE_THERE: u8 = 2;
/// nothing: it is more than three seconds old
pub const IPXR_PROBE_LATE: u8 = 3;

/// A station that is known there: `left` is for how many seconds still, unless it is heard again, at most 300. At 0
/// nobody is.
#[repr(C)]
#[derive(Clone, Copy, Debug, PartialEq, Eq)]
pub struct ipxr_kind_station {
    pub node: [u8; 6],
    /// the one that it uses
    pub kind: u8,
    pub left: u16,
}

impl ipxr_kind_station {
    /// All its bytes are 0.
    pub const ZERO: ipxr_kind_station = ipxr_kind_station {
        node: [0; 6],
        kind: 0,
        left: 0,
    };
}

/// The stations whose nodes have one hash (of its remainders by 64).
#[repr(C)]
#[derive(Clone, Copy, Debug, PartialEq, Eq)]
pub struct ipxr_kind_bucket {
    pub stations: [ipxr_kind_station; 8],
}

impl ipxr_kind_bucket {
    /// All its bytes are 0.
    pub const ZERO: ipxr_kind_bucket = ipxr_kind_bucket {
        stations: [ipxr_kind_station::ZERO; 8],
    };
}

/// What was heard. With all bytes 0 nothing was.
#[repr(C)]
#[derive(Clone, Copy, Debug, PartialEq, Eq)]
pub struct ipxr_kinds {
    /// for how many seconds each kind is still in use, in the order of their numbers: at most 3,600
    pub left: [u16; 4],
    /// and who is known
    pub buckets: [ipxr_kind_bucket; 64],
}

impl ipxr_kinds {
    /// All its bytes are 0.
    pub const ZERO: ipxr_kinds = ipxr_kinds {
        left: [0; 4],
        buckets: [ipxr_kind_bucket::ZERO; 64],
    };
}

/// Whether a link is shut: for `left` seconds more, unless a probe comes. At 0 it is open.
#[repr(C)]
#[derive(Clone, Copy, Debug, PartialEq, Eq)]
pub struct ipxr_loop {
    pub left: u8,
}

impl ipxr_loop {
    /// All its bytes are 0.
    pub const ZERO: ipxr_loop = ipxr_loop {
        left: 0,
    };
}

/// All addresses that begin with the same bits as `host`, as many as `bits` says: 32 at most, more are as many.
#[repr(C)]
#[derive(Clone, Copy, Debug, PartialEq, Eq)]
pub struct ipxr_range {
    pub host: [u8; 4],
    pub bits: u8,
}

impl ipxr_range {
    /// All its bytes are 0.
    pub const ZERO: ipxr_range = ipxr_range {
        host: [0; 4],
        bits: 0,
    };
}

/// How fast they go. With all bytes 0 nothing waits. Its clock may begin anywhere, but never shows 0.
#[repr(C)]
#[derive(Clone, Copy, Debug, PartialEq, Eq)]
pub struct ipxr_pace {
    /// the nanosecond of the clock from which on the first may go,
    pub next: u64,
    /// and how many lie between each and the next
    pub between: u64,
}

impl ipxr_pace {
    /// All its bytes are 0.
    pub const ZERO: ipxr_pace = ipxr_pace {
        next: 0,
        between: 0,
    };
}

/// A node that is watched.
#[repr(C)]
#[derive(Clone, Copy, Debug, PartialEq, Eq)]
pub struct ipxr_twin {
    pub node: [u8; 6],
    /// where it was heard last
    pub link: u8,
    /// in how many seconds it was heard on another link than before,
    pub moves: u8,
    /// from this second on,
    pub began: u64,
    /// and the last of them
    pub moved: u64,
    /// whether somebody has been told
    pub is_told: bool,
}

impl ipxr_twin {
    /// All its bytes are 0.
    pub const ZERO: ipxr_twin = ipxr_twin {
        node: [0; 6],
        link: 0,
        moves: 0,
        began: 0,
        moved: 0,
        is_told: false,
    };
}

/// The nodes of a network that are watched. With all bytes 0 none was heard.
#[repr(C)]
#[derive(Clone, Copy, Debug, PartialEq, Eq)]
pub struct ipxr_twins {
    /// each at a place of its own, which whoever comes there next takes
    pub list: [ipxr_twin; 64],
    /// the second in which somebody was told last, or 0
    pub told: u64,
}

impl ipxr_twins {
    /// All its bytes are 0.
    pub const ZERO: ipxr_twins = ipxr_twins {
        list: [ipxr_twin::ZERO; 64],
        told: 0,
    };
}

/// Somebody who was asked. With all bytes 0 he wasn't, or has answered.
#[repr(C)]
#[derive(Clone, Copy, Debug, PartialEq, Eq)]
pub struct ipxr_asked {
    /// the nanosecond from which on he is asked again, or 0
    pub again: u64,
}

impl ipxr_asked {
    /// All its bytes are 0.
    pub const ZERO: ipxr_asked = ipxr_asked {
        again: 0,
    };
}

/// When the next of many is asked again. With all bytes 0 nobody is.
#[repr(C)]
#[derive(Clone, Copy, Debug, PartialEq, Eq)]
pub struct ipxr_asks {
    /// the nanosecond from which on somebody may have to be, or 0
    pub next: u64,
}

impl ipxr_asks {
    /// All its bytes are 0.
    pub const ZERO: ipxr_asks = ipxr_asks {
        next: 0,
    };
}

extern "C" {
    /// A second passes.
    pub fn ipxr_kinds_second(kinds: *mut ipxr_kinds);
    /// A station, whose node has that hash, says a packet in a kind, to a node or to all. Returns whether that counts:
    /// not where it is for all and the station spoke in another kind less than five seconds ago, since it is a copy
    /// then, or comes from somebody else with its node. If there is no such kind, or it doesn't count, nothing changes.
    /// `is_for_all` is 0 or another number.
    pub fn ipxr_kinds_hear(kinds: *mut ipxr_kinds, hash: u64, node: *const u8, kind: u8, is_for_all: u8) -> bool;
    /// The kind that a station uses, or IPXR_NO_FRAME if it isn't known.
    pub fn ipxr_kinds_of(kinds: *const ipxr_kinds, hash: u64, node: *const u8) -> u8;
    /// Whether a kind was heard within the last hour.
    pub fn ipxr_kinds_is_used(kinds: *const ipxr_kinds, kind: u8) -> bool;
    /// Whether a packet for a node, or for all, goes out in a kind: for a station that is known in its own alone; for
    /// all, and for who isn't known, in each that is in use, or in all four if none is. So it goes out in at least one.
    pub fn ipxr_kinds_speaks(kinds: *const ipxr_kinds, hash: u64, node: *const u8, kind: u8) -> bool;
    /// A probe comes on link `here` that link `there` sent in second `sent`; it is another `now`. Both have their
    /// numbers in the order of the network's links: the later of both is shut, or stays so, for this second and five
    /// more. Where both are one link, nothing happens: then lend `at_there` another value.
    pub fn ipxr_loop_probe(here: u8, there: u8, sent: u64, now: u64, at_here: *mut ipxr_loop, at_there: *mut ipxr_loop) -> u8;
    /// A second passes for a link. Returns whether it opens by that.
    pub fn ipxr_loop_second(it: *mut ipxr_loop) -> bool;
    /// Whether an address is in one of so many ranges.
    pub fn ipxr_ranges_have(ranges: *const ipxr_range, count: usize, host: *const u8) -> bool;
    /// Whether a range's own address is the first of it: no bit behind its first ones is set.
    pub fn ipxr_range_is_first(range: *const ipxr_range) -> bool;
    /// So many wait now, where more came. They go so many nanoseconds apart; or closer together, if they went so
    /// before, or one would wait for more than four seconds.
    pub fn ipxr_pace_more_wait(pace: *mut ipxr_pace, waiting: u64, between: u64, now: u64);
    /// Whether the first of so many that wait goes now. If so, it waits no more.
    pub fn ipxr_pace_lets_go(pace: *mut ipxr_pace, waiting: u64, now: u64) -> bool;
    /// A node is heard on a link in a second. Returns whether it must be told that it moves to and fro, and then its
    /// link before: it moved in five seconds of a minute, nobody was told of it, and nobody of another for a minute. If
    /// not, `before` stays as it was.
    pub fn ipxr_twins_hear(twins: *mut ipxr_twins, node: *const u8, link: u8, second: u64, before: *mut u8) -> bool;
    /// He is asked now, and again 250 ms later and up to 500 more, as the number says: one that nobody else can tell,
    /// so that nobody can fill his buffer just then.
    pub fn ipxr_asked_ask(asked: *mut ipxr_asked, all: *mut ipxr_asks, now: u64, number: u64);
    /// He answers.
    pub fn ipxr_asked_answer(asked: *mut ipxr_asked);
    /// Whether he is to be asked again now. If it is later, the next moment of all is no later than his.
    pub fn ipxr_asked_is_due(asked: *const ipxr_asked, all: *mut ipxr_asks, now: u64) -> bool;
    /// Whether somebody may have to be asked now: then ask of each whether he is due. So nobody is forgotten.
    pub fn ipxr_asks_are_due(asks: *mut ipxr_asks, now: u64) -> bool;
    /// Milliseconds until then, at most so many.
    pub fn ipxr_asks_patience(asks: *const ipxr_asks, most: u64, now: u64) -> u64;
    /// Of DOSBox' tunnel it is one from which no datagram comes; of a card its address, which is zeros where it isn't
    /// known; else what is said, if something is, also where a network has several links. If none of these is known it
    /// is made of a hash.
    pub fn ipxr_node_choose(is_tunnel: u8, is_of_several: u8, has_said: u8, said: *const u8, card: *const u8, hash: u64, node: *mut u8);
}
