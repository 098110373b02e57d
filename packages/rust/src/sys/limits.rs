//! Made of `ipxr_limits.h` by tools/lib/rust_sys.py: change that, and make it again.

use super::{ipxr_fair, ipxr_fair_setting, ipxr_meter};

/// a tunnel, whose clients are computers with one program each
pub const IPXR_LIMITS_TUNNEL: u8 = 0;
/// a link with frames, on which there may be many computers and routers; any other number means this, too
pub const IPXR_LIMITS_FRAMES: u8 = 1;
/// anything else; any other number means this, too
pub const IPXR_KIND_OTHER: u8 = 0;
/// a ping to all: each client answers it
pub const IPXR_KIND_PING: u8 = 1;
/// the answer to a ping, or a ping to one node
pub const IPXR_KIND_ANSWER: u8 = 2;
/// a request of RIP or a query of SAP, which routers answer at length
pub const IPXR_KIND_QUESTION: u8 = 3;
/// what else goes to the sockets of RIP and SAP: what routers tell each other
pub const IPXR_KIND_TOLD: u8 = 4;
/// it goes on
pub const IPXR_PASSES: u8 = 0;
/// the client, or all of its network together, ping too much
pub const IPXR_TOO_MANY_PINGS: u8 = 1;
/// the client, its address, or the link with frames asks the router too much
pub const IPXR_TOO_MANY_QUESTIONS: u8 = 2;
/// the address, the link with frames, or all such links together tell the router too much
pub const IPXR_TOO_MANY_ADVERTISEMENTS: u8 = 3;
/// the address hands the router too much
pub const IPXR_TOO_MUCH_FOR_ROUTER: u8 = 4;
/// the client has no room for it
pub const IPXR_TOO_MUCH_FOR_CLIENT: u8 = 5;
/// the client's address has none
pub const IPXR_TOO_MUCH_FOR_ADDRESS: u8 = 6;
/// the link with frames has none
pub const IPXR_TOO_MUCH_FOR_LINK: u8 = 7;
/// the gateway, or the router, answered the client or its address too often
pub const IPXR_TOO_MANY_ANSWERS: u8 = 8;
/// the place without a client, or all such places together, were sent too much
pub const IPXR_TOO_MUCH_FOR_STRANGERS: u8 = 9;
/// there is no room
pub const IPXR_LINE_FULL: u8 = 0;
/// beyond all parts; any other number means this, too
pub const IPXR_LINE_BEYOND: u8 = 1;
/// within the part of the address
pub const IPXR_LINE_OF_ADDRESS: u8 = 2;
/// within what the speaker may say to the address at once
pub const IPXR_LINE_OF_SPEAKER: u8 = 3;
/// the speaker says little to all together
pub const IPXR_LINE_LITTLE: u8 = 4;
/// within the part that the speaker has of the address' part
pub const IPXR_LINE_WITHIN: u8 = 5;

/// So much in so much time.
#[repr(C)]
#[derive(Clone, Copy, Debug, PartialEq, Eq)]
pub struct ipxr_limit {
    /// nanoseconds for each
    pub each: u64,
    /// nanoseconds for what comes at once
    pub burst: u64,
}

impl ipxr_limit {
    /// All its bytes are 0.
    pub const ZERO: ipxr_limit = ipxr_limit {
        each: 0,
        burst: 0,
    };
}

/// How fast somebody reads. Packets are read one after the other, however long they are; and there is so much memory
/// for those that aren't read yet. A packet takes 22 pieces of it, one of more than 110 bytes 37, and one of more than
/// 600 bytes 89.
#[repr(C)]
#[derive(Clone, Copy, Debug, PartialEq, Eq)]
pub struct ipxr_reading {
    /// nanoseconds for a packet,
    pub packet: u64,
    /// and for each of its pieces
    pub piece: u64,
    /// the settings of the reader's receivers: how many packets may wait,
    pub packets: ipxr_fair_setting,
    /// and how many pieces
    pub pieces: ipxr_fair_setting,
}

impl ipxr_reading {
    /// All its bytes are 0.
    pub const ZERO: ipxr_reading = ipxr_reading {
        packet: 0,
        piece: 0,
        packets: ipxr_fair_setting::ZERO,
        pieces: ipxr_fair_setting::ZERO,
    };
}

/// The limits of a network.
#[repr(C)]
#[derive(Clone, Copy, Debug, PartialEq, Eq)]
pub struct ipxr_limits {
    /// by a client of all who speak to it, or by a link with frames of clients
    pub received: ipxr_reading,
    /// to the router by an address
    pub handed: ipxr_limit,
    /// of which no more than this may be used with an answer to a ping
    pub handed_answers: u64,
    /// of a client to all others,
    pub pings: ipxr_limit,
    /// and of all clients
    pub all_pings: ipxr_limit,
    /// of a client, or of a link with frames, to the router
    pub questions: ipxr_limit,
    /// what else an address, or a link with frames, says to the router as routers do
    pub advertisements: ipxr_limit,
    /// of the gateway to a client
    pub answers: ipxr_limit,
    /// packets of the router's answers to what a client asks
    pub pages: ipxr_limit,
}

impl ipxr_limits {
    /// All its bytes are 0.
    pub const ZERO: ipxr_limits = ipxr_limits {
        received: ipxr_reading::ZERO,
        handed: ipxr_limit::ZERO,
        handed_answers: 0,
        pings: ipxr_limit::ZERO,
        all_pings: ipxr_limit::ZERO,
        questions: ipxr_limit::ZERO,
        advertisements: ipxr_limit::ZERO,
        answers: ipxr_limit::ZERO,
        pages: ipxr_limit::ZERO,
    };
}

/// What all clients of an address receive.
#[repr(C)]
#[derive(Clone, Copy, Debug, PartialEq, Eq)]
pub struct ipxr_household_limits {
    /// of other addresses, each of which has a queue: the setting of a receiver
    pub received: ipxr_fair_setting,
    /// nanoseconds for a packet, of others or of their own,
    pub packet: u64,
    /// and for what they may say to each other at once
    pub among: u64,
}

impl ipxr_household_limits {
    /// All its bytes are 0.
    pub const ZERO: ipxr_household_limits = ipxr_household_limits {
        received: ipxr_fair_setting::ZERO,
        packet: 0,
        among: 0,
    };
}

/// What goes to places that have no client: somebody may have forged them.
#[repr(C)]
#[derive(Clone, Copy, Debug, PartialEq, Eq)]
pub struct ipxr_strangers_limits {
    /// to all,
    pub all: ipxr_limit,
    /// and to one address
    pub one: ipxr_limit,
}

impl ipxr_strangers_limits {
    /// All its bytes are 0.
    pub const ZERO: ipxr_strangers_limits = ipxr_strangers_limits {
        all: ipxr_limit::ZERO,
        one: ipxr_limit::ZERO,
    };
}

/// What waits for somebody who reads packets. With all bytes 0 he hears nothing: make both receivers by ipxr_fair_make,
/// of the settings of ipxr_reading, and make them again if these change.
#[repr(C)]
#[derive(Clone, Copy, Debug, PartialEq, Eq)]
pub struct ipxr_reader {
    pub packets: ipxr_fair,
    pub pieces: ipxr_fair,
}

impl ipxr_reader {
    /// All its bytes are 0.
    pub const ZERO: ipxr_reader = ipxr_reader {
        packets: ipxr_fair::ZERO,
        pieces: ipxr_fair::ZERO,
    };
}

/// What a client uses.
#[repr(C)]
#[derive(Clone, Copy, Debug, PartialEq, Eq)]
pub struct ipxr_client_use {
    /// its pings to all others
    pub pinged: ipxr_meter,
    /// its questions to the router
    pub asked: ipxr_meter,
    /// answers of the gateway to it
    pub answered: ipxr_meter,
    /// packets of the router's answers to it
    pub paged: ipxr_meter,
}

impl ipxr_client_use {
    /// All its bytes are 0.
    pub const ZERO: ipxr_client_use = ipxr_client_use {
        pinged: ipxr_meter::ZERO,
        asked: ipxr_meter::ZERO,
        answered: ipxr_meter::ZERO,
        paged: ipxr_meter::ZERO,
    };
}

/// What all clients of an address use.
#[repr(C)]
#[derive(Clone, Copy, Debug, PartialEq, Eq)]
pub struct ipxr_address_use {
    /// their questions to the router
    pub asked: ipxr_meter,
    /// answers of the gateway to them
    pub answered: ipxr_meter,
    /// packets of the router's answers to them
    pub paged: ipxr_meter,
}

impl ipxr_address_use {
    /// All its bytes are 0.
    pub const ZERO: ipxr_address_use = ipxr_address_use {
        asked: ipxr_meter::ZERO,
        answered: ipxr_meter::ZERO,
        paged: ipxr_meter::ZERO,
    };
}

/// Who has which queue. With all bytes 0 nobody has one.
#[repr(C)]
#[derive(Clone, Copy, Debug, PartialEq, Eq)]
pub struct ipxr_queues {
    /// how many have each
    pub users: [u32; 256],
    /// the one that was given last
    pub last: u8,
}

impl ipxr_queues {
    /// All its bytes are 0.
    pub const ZERO: ipxr_queues = ipxr_queues {
        users: [0; 256],
        last: 0,
    };
}

/// A line by which clients are reached, and which is narrow. With all bytes 0 it carries one kilobit a second, and
/// nobody is on it. Moments are nanoseconds of your clock.
#[repr(C)]
#[derive(Clone, Copy, Debug, PartialEq, Eq)]
pub struct ipxr_line {
    /// a second, where 0 is 1. Set it when you like
    pub kilobits: u32,
    /// how many have clients there,
    pub addresses: u32,
    /// and how many speak to these, with clients there or elsewhere
    pub speakers: u32,
    /// the moment until which the line is busy,
    pub used: u64,
    /// until which the part of your own datagrams is used,
    pub own: u64,
    /// and until which that of datagrams to those who are no clients is
    pub to_strangers: u64,
    /// who has which number
    pub numbers: ipxr_queues,
}

impl ipxr_line {
    /// All its bytes are 0.
    pub const ZERO: ipxr_line = ipxr_line {
        kilobits: 0,
        addresses: 0,
        speakers: 0,
        used: 0,
        own: 0,
        to_strangers: 0,
        numbers: ipxr_queues::ZERO,
    };
}

/// An address that has clients there, or speaks to such. With all bytes 0 it has none, and never spoke.
#[repr(C)]
#[derive(Clone, Copy, Debug, PartialEq, Eq)]
pub struct ipxr_line_address {
    /// that it has there
    pub clients: u32,
    /// that it has while it speaks, or 0,
    pub number: u8,
    /// and seconds since it did
    pub quiet: u8,
    /// the moment until which its part of the line is used,
    pub received: u64,
    /// until which the parts of that are, of each who speaks to it, by his number,
    pub within: [u64; 64],
    /// and until which is used what each may say to it beyond that
    pub spoken: [u64; 64],
}

impl ipxr_line_address {
    /// All its bytes are 0.
    pub const ZERO: ipxr_line_address = ipxr_line_address {
        clients: 0,
        number: 0,
        quiet: 0,
        received: 0,
        within: [0; 64],
        spoken: [0; 64],
    };
}

extern "C" {
    /// Makes the limits of a network whose link is of that kind. A client there receives `rate` packets a second and
    /// two shares more; a `share` is what somebody who says little says in a second. Of each at most 1,000,000 count.
    /// `routes` and `services` are the network's shares of the router's tables, as in ipxr_port. Returns whether there
    /// are limits: not if the rate is 0, and then they stay as they were.
    pub fn ipxr_limits_make(limits: *mut ipxr_limits, link: u8, rate: u32, share: u32, routes: u16, services: u16) -> bool;
    /// The same of what all clients of an address receive, so many packets a second.
    pub fn ipxr_household_make(limits: *mut ipxr_household_limits, rate: u32) -> bool;
    /// The same of what goes to places without a client, so many datagrams a second.
    pub fn ipxr_strangers_make(limits: *mut ipxr_strangers_limits, rate: u32) -> bool;
    /// Makes the receiver of what all links with frames tell the router, where none has told anything yet. Each link
    /// has a queue there.
    pub fn ipxr_told_make(links: *mut ipxr_fair);
    /// The time passes that your clock shows beyond what it showed at the last look, which `clock` has; none if it went
    /// back. `clock` is `now` then, so each value needs one of its own. For what an address receives, and for `links`,
    /// there is ipxr_fair_look, for a single meter ipxr_meter_pass.
    pub fn ipxr_reader_look(reader: *mut ipxr_reader, clock: *mut u64, now: u64);
    /// The time passes that your clock shows beyond what it showed at the last look, which `clock` has; none if it went
    /// back. `clock` is `now` then, so each value needs one of its own. For what an address receives, and for `links`,
    /// there is ipxr_fair_look, for a single meter ipxr_meter_pass.
    pub fn ipxr_client_look(client: *mut ipxr_client_use, clock: *mut u64, now: u64);
    /// The time passes that your clock shows beyond what it showed at the last look, which `clock` has; none if it went
    /// back. `clock` is `now` then, so each value needs one of its own. For what an address receives, and for `links`,
    /// there is ipxr_fair_look, for a single meter ipxr_meter_pass.
    pub fn ipxr_address_look(address: *mut ipxr_address_use, clock: *mut u64, now: u64);
    /// What the packet in the bytes is: one of IPXR_KIND_.. Bytes that are no packet are IPXR_KIND_OTHER.
    pub fn ipxr_kind_of(packet: *const u8, length: usize) -> u8;
    /// Whether a packet of that kind, which a client says, goes on. Only pings to all have limits: the client's own,
    /// and its network's, of which `all` is used. The same of a packet that came in a frame, where nobody knows whose
    /// it is.
    pub fn ipxr_limits_says(limits: *const ipxr_limits, kind: u8, client: *mut ipxr_client_use, all: *mut ipxr_meter) -> u8;
    /// Whether a packet of that kind, which a client says, goes on. Only pings to all have limits: the client's own,
    /// and its network's, of which `all` is used. The same of a packet that came in a frame, where nobody knows whose
    /// it is.
    pub fn ipxr_limits_frames_say(limits: *const ipxr_limits, kind: u8, all: *mut ipxr_meter) -> u8;
    /// Whether the gateway answers a client that registers or pings. `clients` is how many its address has: it is
    /// answered as often as all of them may be, or four of them if there are more.
    pub fn ipxr_limits_answers(limits: *const ipxr_limits, clients: u32, client: *mut ipxr_client_use, address: *mut ipxr_address_use) -> u8;
    /// Whether a client gets a packet by which the router answers what it asked, or what somebody asked in its name.
    /// Its address has so many clients, as before.
    pub fn ipxr_limits_router_answers(limits: *const ipxr_limits, clients: u32, client: *mut ipxr_client_use, address: *mut ipxr_address_use) -> u8;
    /// Whether the router hears a packet of that kind of a client, whose address has so many clients. Its address uses
    /// `handed` of what the router hears of it, and `advertised` of what it may tell the router.
    pub fn ipxr_limits_hands(limits: *const ipxr_limits, clients: u32, kind: u8, client: *mut ipxr_client_use, address: *mut ipxr_address_use, handed: *mut ipxr_meter, advertised: *mut ipxr_meter) -> u8;
    /// Whether the router hears a packet of that kind of a link with frames, which uses `asked` of its questions and
    /// `advertised` of what it may tell. What it tells counts for all such links, too: `link` is the number of its
    /// queue there.
    pub fn ipxr_limits_frames_hand(limits: *const ipxr_limits, link: u8, kind: u8, asked: *mut ipxr_meter, advertised: *mut ipxr_meter, links: *mut ipxr_fair) -> u8;
    /// Whether a client whose address has no limits receives a packet of so many bytes, of somebody who has that queue
    /// there.
    pub fn ipxr_limits_receives(limits: *const ipxr_limits, client: *mut ipxr_reader, queue: u8, bytes: usize) -> u8;
    /// The same client receives a packet of the router, which has that queue there. It isn't dropped; the client counts
    /// it if it has room.
    pub fn ipxr_limits_hears_router(limits: *const ipxr_limits, client: *mut ipxr_reader, queue: u8, bytes: usize);
    /// Whether a link with frames gets a packet of so many bytes, of somebody who has that queue there, in so many
    /// frames: all of them or none.
    pub fn ipxr_limits_carries(limits: *const ipxr_limits, link: *mut ipxr_reader, queue: u8, bytes: usize, frames: u32) -> u8;
    /// Whether a client receives a packet of another address, which has that queue there, and at the client's address.
    /// Both must have room.
    pub fn ipxr_household_receives(household: *const ipxr_household_limits, limits: *const ipxr_limits, client: *mut ipxr_reader, address: *mut ipxr_fair, queue: u8, bytes: usize) -> u8;
    /// The same of a packet of its own address; `among` is used of what its clients say to each other.
    pub fn ipxr_household_receives_of_own(household: *const ipxr_household_limits, limits: *const ipxr_limits, client: *mut ipxr_reader, among: *mut ipxr_meter, queue: u8, bytes: usize) -> u8;
    /// The same of a packet of the router: only the limit of the address drops it; the client counts what passes if it
    /// has room.
    pub fn ipxr_household_receives_of_router(household: *const ipxr_household_limits, limits: *const ipxr_limits, client: *mut ipxr_reader, address: *mut ipxr_fair, queue: u8, bytes: usize) -> u8;
    /// Gives somebody who begins to speak a queue, of those from the first to the last, and returns its number: one
    /// that the fewest have, and of several the first behind the one that was given last, round and round. So as long
    /// as fewer speak than there are queues, whoever begins gets one that nobody has. If the last isn't behind the
    /// first, the first is given.
    pub fn ipxr_queues_take(queues: *mut ipxr_queues, first: u8, last: u8) -> u8;
    /// Somebody who shares his queue gets one of those from the first to the last that nobody has, if there is one: as
    /// when those have left for whom there were none. Returns the number that he has then.
    pub fn ipxr_queues_unshare(queues: *mut ipxr_queues, queue: u8, first: u8, last: u8) -> u8;
    /// Somebody who has that queue speaks no more. A queue that nobody has stays so.
    pub fn ipxr_queues_give_back(queues: *mut ipxr_queues, queue: u8);
    /// Whether so many datagrams go to a place without a client, all of them or none. `address` is used of what may go
    /// to its address, and `all` of what may go to all such places.
    pub fn ipxr_strangers_send(limits: *const ipxr_strangers_limits, count: u32, address: *mut ipxr_meter, all: *mut ipxr_meter) -> u8;
    /// An address has one more client there, or one fewer.
    pub fn ipxr_line_join(line: *mut ipxr_line, address: *mut ipxr_line_address);
    /// An address has one more client there, or one fewer.
    pub fn ipxr_line_leave(line: *mut ipxr_line, address: *mut ipxr_line_address);
    /// An address speaks, with clients there or elsewhere. Returns the number that it has then, one from 1 to 63. It
    /// has it until a second finds it silent for ten; or until it is silenced, since it is gone. If more speak than
    /// there are numbers, some share one; in a second after which there is one for them, they have their own again.
    pub fn ipxr_line_speak(line: *mut ipxr_line, address: *mut ipxr_line_address) -> u8;
    /// An address speaks, with clients there or elsewhere. Returns the number that it has then, one from 1 to 63. It
    /// has it until a second finds it silent for ten; or until it is silenced, since it is gone. If more speak than
    /// there are numbers, some share one; in a second after which there is one for them, they have their own again.
    pub fn ipxr_line_second(line: *mut ipxr_line, address: *mut ipxr_line_address);
    /// An address speaks, with clients there or elsewhere. Returns the number that it has then, one from 1 to 63. It
    /// has it until a second finds it silent for ten; or until it is silenced, since it is gone. If more speak than
    /// there are numbers, some share one; in a second after which there is one for them, they have their own again.
    pub fn ipxr_line_silence(line: *mut ipxr_line, address: *mut ipxr_line_address);
    /// Whether there is room for a copy of a packet of so many bytes to an address: its rank, or IPXR_LINE_FULL. The
    /// speaker has that number, or 0 if it has no part; `said` is the moment until which his part of what he says to
    /// all is used, 0 at first. Nothing is used yet but that debts of the parts are held to what is owed now. What an
    /// address says to its only client there is never IPXR_LINE_WITHIN.
    pub fn ipxr_line_room(line: *const ipxr_line, now: u64, number: u8, bytes: usize, said: *mut u64, to: *mut ipxr_line_address) -> u8;
    /// It goes out with that rank.
    pub fn ipxr_line_send(line: *mut ipxr_line, now: u64, number: u8, bytes: usize, rank: u8, said: *mut u64, to: *mut ipxr_line_address);
    /// Whether there is room for a copy beyond all parts, which goes out as IPXR_LINE_BEYOND: for what clients answer
    /// to pings, so that nobody fills the line with that.
    pub fn ipxr_line_lets_beyond(line: *const ipxr_line, now: u64) -> bool;
    /// Whether an answer of your own goes out to a client; and it does. `address` is the moment until which the part is
    /// used which his address has of all such answers, 0 at first.
    pub fn ipxr_line_lets_answer(line: *const ipxr_line, now: u64, address: *mut u64) -> bool;
    /// Whether an answer of your own goes out to a client; and it does. `address` is the moment until which the part is
    /// used which his address has of all such answers, 0 at first.
    pub fn ipxr_line_send_answer(line: *mut ipxr_line, now: u64, bytes: usize, address: *mut u64);
    /// A ping goes out, for which there is always room: by it clients stay.
    pub fn ipxr_line_send_ping(line: *mut ipxr_line, now: u64, bytes: usize);
    /// The same of what you say to one who is no client, and of the part which his address has of that.
    pub fn ipxr_line_lets_stranger(line: *mut ipxr_line, now: u64, address: *mut u64) -> bool;
    /// The same of what you say to one who is no client, and of the part which his address has of that.
    pub fn ipxr_line_send_to_stranger(line: *mut ipxr_line, now: u64, bytes: usize, address: *mut u64);
    /// Makes limits of what goes to all who are no clients by a line of that width, on all networks, for
    /// ipxr_strangers_send: count four datagrams when somebody registers. Those that follow, up to nine seconds later,
    /// are counted so; let each wait until the line has room.
    pub fn ipxr_line_strangers(line: *const ipxr_line, limits: *mut ipxr_strangers_limits);
    /// Writes into `between` how many nanoseconds should pass from a ping of so many bytes to the next, so that those
    /// of many clients keep to the part of your own datagrams.
    pub fn ipxr_line_between_pings(line: *const ipxr_line, bytes: usize, between: *mut u64);
}
