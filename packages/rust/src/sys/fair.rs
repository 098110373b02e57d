//! Made of `ipxr_fair.h` by tools/lib/rust_sys.py: change that, and make it again.

/// How many speakers a receiver has, and the largest number of a setting: 18 minutes.
pub const IPXR_SPEAKERS: usize = 256;
/// How many speakers a receiver has, and the largest number of a setting: 18 minutes.
pub const IPXR_MOST_TIME: u64 = 0x10000000000;

/// How much may wait. A packet is heard if its queue has no more than `one` with it; or no more than `own`, and all
/// queues together no more than `room` and `reserve`; or if its queue and all queues have no more than `room`, so that
/// somebody alone may fill half of it.
#[repr(C)]
#[derive(Clone, Copy, Debug, PartialEq, Eq)]
pub struct ipxr_fair_setting {
    /// what each queue may have in any case: the longest packet, in all its frames, at least
    pub one: u64,
    /// what each queue may have while the reserve lasts: no less than `one`
    pub own: u64,
    /// beyond the room, for queues that have no more than their own
    pub reserve: u64,
    /// what all queues may have
    pub room: u64,
}

impl ipxr_fair_setting {
    /// All its bytes are 0.
    pub const ZERO: ipxr_fair_setting = ipxr_fair_setting {
        one: 0,
        own: 0,
        reserve: 0,
        room: 0,
    };
}

/// A receiver. All bytes 0 are one with a setting of zeros, which hears packets of no weight alone.
#[repr(C)]
#[derive(Clone, Copy, Debug, PartialEq, Eq)]
pub struct ipxr_fair {
    pub setting: ipxr_fair_setting,
    /// time that served nobody yet: fewer nanoseconds than queues wait
    pub left: u64,
    /// what every queue that waits was served since the count began
    pub served: u64,
    /// no queue ends later
    pub latest: u64,
    /// every queue that waits has more than this
    pub spare: u64,
    /// how many queues wait
    pub waits: u64,
    /// what all queues have
    pub total: u64,
    /// where each queue ends: what lies beyond `served` is in it
    pub ends: [u64; 256],
}

impl ipxr_fair {
    /// All its bytes are 0.
    pub const ZERO: ipxr_fair = ipxr_fair {
        setting: ipxr_fair_setting::ZERO,
        left: 0,
        served: 0,
        latest: 0,
        spare: 0,
        waits: 0,
        total: 0,
        ends: [0; 256],
    };
}

/// How much of a limit is used.
#[repr(C)]
#[derive(Clone, Copy, Debug, PartialEq, Eq)]
pub struct ipxr_meter {
    pub used: u64,
}

impl ipxr_meter {
    /// All its bytes are 0.
    pub const ZERO: ipxr_meter = ipxr_meter {
        used: 0,
    };
}

extern "C" {
    /// Makes it a receiver of that setting, for which nothing waits. Returns whether there can be one: `one` is no more
    /// than `own`, and no number more than IPXR_MOST_TIME. If not, it stays as it was.
    pub fn ipxr_fair_make(fair: *mut ipxr_fair, setting: *const ipxr_fair_setting) -> bool;
    /// The time passes that your clock shows beyond what it showed at the last look, which `clock` has; none if it went
    /// back. `clock` is `now` then.
    pub fn ipxr_fair_look(fair: *mut ipxr_fair, clock: *mut u64, now: u64);
    /// So many nanoseconds pass.
    pub fn ipxr_fair_pass(fair: *mut ipxr_fair, nanoseconds: u64);
    /// A speaker says a packet of that weight. Returns whether it is heard: then it is in the speaker's queue, and you
    /// send it.
    pub fn ipxr_fair_says(fair: *mut ipxr_fair, speaker: u8, weight: u64) -> bool;
    /// The same of a packet that two receivers must hear, such as one that counts packets and one that counts their
    /// bytes: it is heard if both hear it, and is in the speaker's queue of both then. Otherwise it is in neither.
    pub fn ipxr_fair_both_hear(fair: *mut ipxr_fair, other: *mut ipxr_fair, speaker: u8, weight: u64, other_weight: u64) -> bool;
    /// So many nanoseconds pass: less of the limit is used.
    pub fn ipxr_meter_pass(meter: *mut ipxr_meter, nanoseconds: u64);
    /// Lets something of that weight pass if no more than `burst` is used then, and counts it. Returns whether it
    /// passes.
    pub fn ipxr_meter_lets(meter: *mut ipxr_meter, burst: u64, weight: u64) -> bool;
    /// The same by two meters: it passes if both let it, and both count it then; otherwise neither does.
    pub fn ipxr_meter_both_let(meter: *mut ipxr_meter, burst: u64, weight: u64, other: *mut ipxr_meter, other_burst: u64, other_weight: u64) -> bool;
}
