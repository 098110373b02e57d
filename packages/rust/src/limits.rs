//! What a gateway lets pass where many send more than somebody can read. `docs/LIMITS.md` has the numbers.
//!
//! ```
//! use ipxr::limits::{Limits, LinkKind, Reader};
//! use ipxr::NO_LIMIT;
//!
//! let limits = Limits::new(LinkKind::Tunnel, 800, 50, NO_LIMIT, NO_LIMIT).ok_or("no such limits")?;
//! let mut client = Reader::new(&limits).ok_or("no such reader")?;
//! let mut clock = 0;
//! client.look(&mut clock, 1_000_000); // once for all packets that came together
//! let queue = 1; // of who speaks
//! assert_eq!(limits.receives(&mut client, queue, 100), Ok(())); // send it
//! # Ok::<(), &str>(())
//! ```
use crate::sys;
use crate::{Fair, FairSetting, Meter};
use core::fmt;

/// What a network's link is.
#[derive(Clone, Copy, Debug, PartialEq, Eq, Hash)]
pub enum LinkKind {
    /// A tunnel, whose clients are computers with one program each.
    Tunnel,
    /// A link with frames, on which there may be many computers and routers.
    Frames,
}

/// What a packet is, as far as limits differ.
#[derive(Clone, Copy, Debug, PartialEq, Eq, Hash)]
pub enum PacketKind {
    /// Anything else.
    Other,
    /// A ping to all: each client answers it.
    Ping,
    /// The answer to a ping, or a ping to one node.
    Answer,
    /// A request of RIP or a query of SAP, which routers answer at length.
    Question,
    /// What else goes to the sockets of RIP and SAP: what routers tell each other.
    Told,
}

impl PacketKind {
    /// What the packet in the bytes is. Bytes that are no packet are [`PacketKind::Other`].
    pub fn of(packet: &[u8]) -> PacketKind {
        // SAFETY: pointer and length are a slice's.
        match unsafe { sys::ipxr_kind_of(packet.as_ptr(), packet.len()) } {
            sys::IPXR_KIND_PING => PacketKind::Ping,
            sys::IPXR_KIND_ANSWER => PacketKind::Answer,
            sys::IPXR_KIND_QUESTION => PacketKind::Question,
            sys::IPXR_KIND_TOLD => PacketKind::Told,
            _ => PacketKind::Other,
        }
    }

    fn number(self) -> u8 {
        match self {
            PacketKind::Other => sys::IPXR_KIND_OTHER,
            PacketKind::Ping => sys::IPXR_KIND_PING,
            PacketKind::Answer => sys::IPXR_KIND_ANSWER,
            PacketKind::Question => sys::IPXR_KIND_QUESTION,
            PacketKind::Told => sys::IPXR_KIND_TOLD,
        }
    }
}

/// Why a packet is dropped.
#[derive(Clone, Copy, Debug, PartialEq, Eq, Hash)]
pub enum Refused {
    /// The client, or all of its network together, ping too much.
    TooManyPings,
    /// The client, its address, or the link with frames asks the router too much.
    TooManyQuestions,
    /// The address, the link with frames, or all such links together tell the router too much.
    TooManyAdvertisements,
    /// The address hands the router too much.
    TooMuchForRouter,
    /// The client has no room for it.
    TooMuchForClient,
    /// The client's address has none.
    TooMuchForAddress,
    /// The link with frames has none.
    TooMuchForLink,
    /// The gateway, or the router, answered the client or its address too often.
    TooManyAnswers,
    /// The place without a client, or all such places together, were sent too much.
    TooMuchForStrangers,
}

impl fmt::Display for Refused {
    fn fmt(&self, f: &mut fmt::Formatter<'_>) -> fmt::Result {
        f.pad(match self {
            Refused::TooManyPings => "too many pings",
            Refused::TooManyQuestions => "too many questions",
            Refused::TooManyAdvertisements => "too many advertisements",
            Refused::TooMuchForRouter => "too much for the router",
            Refused::TooMuchForClient => "too much for the client",
            Refused::TooMuchForAddress => "too much for the address",
            Refused::TooMuchForLink => "too much for the link",
            Refused::TooManyAnswers => "too many answers",
            Refused::TooMuchForStrangers => "too much for strangers",
        })
    }
}

impl core::error::Error for Refused {}

/// Whether it goes on.
fn passes(answer: u8) -> Result<(), Refused> {
    Err(match answer {
        sys::IPXR_PASSES => return Ok(()),
        sys::IPXR_TOO_MANY_PINGS => Refused::TooManyPings,
        sys::IPXR_TOO_MANY_QUESTIONS => Refused::TooManyQuestions,
        sys::IPXR_TOO_MANY_ADVERTISEMENTS => Refused::TooManyAdvertisements,
        sys::IPXR_TOO_MUCH_FOR_ROUTER => Refused::TooMuchForRouter,
        sys::IPXR_TOO_MUCH_FOR_CLIENT => Refused::TooMuchForClient,
        sys::IPXR_TOO_MUCH_FOR_ADDRESS => Refused::TooMuchForAddress,
        sys::IPXR_TOO_MUCH_FOR_LINK => Refused::TooMuchForLink,
        sys::IPXR_TOO_MANY_ANSWERS => Refused::TooManyAnswers,
        _ => Refused::TooMuchForStrangers,
    })
}

/// The limits of a network.
#[derive(Clone, Debug, PartialEq, Eq)]
pub struct Limits(sys::ipxr_limits);

/// What somebody who reads packets has before him: a client, or a link with frames.
#[derive(Clone, Debug, PartialEq, Eq)]
pub struct Reader(sys::ipxr_reader);

/// What a client uses of its limits.
#[derive(Clone, Debug, PartialEq, Eq)]
pub struct ClientUse(sys::ipxr_client_use);

/// What all clients of an address use.
#[derive(Clone, Debug, PartialEq, Eq)]
pub struct AddressUse(sys::ipxr_address_use);

impl Default for ClientUse {
    fn default() -> ClientUse {
        ClientUse(sys::ipxr_client_use::ZERO)
    }
}

impl Default for AddressUse {
    fn default() -> AddressUse {
        AddressUse(sys::ipxr_address_use::ZERO)
    }
}

impl Reader {
    /// Somebody who reads as those limits say, and for whom nothing waits.
    pub fn new(limits: &Limits) -> Option<Reader> {
        let mut reader = Reader(sys::ipxr_reader::ZERO);
        let received = &limits.0.received;
        // SAFETY: here and below pointers are to values that lie apart.
        let are_made = unsafe {
            sys::ipxr_fair_make(&mut reader.0.packets, &received.packets) && sys::ipxr_fair_make(&mut reader.0.pieces, &received.pieces)
        };
        are_made.then_some(reader)
    }

    /// The time passes that your clock shows beyond what it showed at the last look, which `clock` has.
    pub fn look(&mut self, clock: &mut u64, now: u64) {
        unsafe { sys::ipxr_reader_look(&mut self.0, clock, now) }
    }
}

impl ClientUse {
    /// The time passes, likewise.
    pub fn look(&mut self, clock: &mut u64, now: u64) {
        unsafe { sys::ipxr_client_look(&mut self.0, clock, now) }
    }
}

impl AddressUse {
    /// The time passes, likewise.
    pub fn look(&mut self, clock: &mut u64, now: u64) {
        unsafe { sys::ipxr_address_look(&mut self.0, clock, now) }
    }
}

impl Limits {
    /// The limits of a network whose link is of that kind. A client there receives `rate` packets a second; a `share` is what somebody who
    /// says little says in a second. `routes` and `services` are the network's shares of the router's tables. Nothing if the rate is 0.
    pub fn new(link: LinkKind, rate: u32, share: u32, routes: u16, services: u16) -> Option<Limits> {
        let mut limits = Limits(sys::ipxr_limits::ZERO);
        let link = match link {
            LinkKind::Tunnel => sys::IPXR_LIMITS_TUNNEL,
            LinkKind::Frames => sys::IPXR_LIMITS_FRAMES,
        };
        unsafe { sys::ipxr_limits_make(&mut limits.0, link, rate, share, routes, services) }.then_some(limits)
    }

    /// The numbers of the limits, to be read.
    pub fn raw(&self) -> &sys::ipxr_limits {
        &self.0
    }

    /// The numbers of the limits, to be changed: a limit may be any number.
    pub fn raw_mut(&mut self) -> &mut sys::ipxr_limits {
        &mut self.0
    }

    /// Whether a packet that a client says goes on. `all` is used of what all clients may ping.
    pub fn says(&self, kind: PacketKind, client: &mut ClientUse, all: &mut Meter) -> Result<(), Refused> {
        passes(unsafe { sys::ipxr_limits_says(&self.0, kind.number(), &mut client.0, &mut all.0) })
    }

    /// The same of a packet that came in a frame, where nobody knows whose it is.
    pub fn frames_say(&self, kind: PacketKind, all: &mut Meter) -> Result<(), Refused> {
        passes(unsafe { sys::ipxr_limits_frames_say(&self.0, kind.number(), &mut all.0) })
    }

    /// Whether the gateway answers a client that registers or pings. `clients` is how many its address has.
    pub fn answers(&self, clients: u32, client: &mut ClientUse, address: &mut AddressUse) -> Result<(), Refused> {
        passes(unsafe { sys::ipxr_limits_answers(&self.0, clients, &mut client.0, &mut address.0) })
    }

    /// Whether a client gets a packet by which the router answers what it asked.
    pub fn router_answers(&self, clients: u32, client: &mut ClientUse, address: &mut AddressUse) -> Result<(), Refused> {
        passes(unsafe { sys::ipxr_limits_router_answers(&self.0, clients, &mut client.0, &mut address.0) })
    }

    /// Whether the router hears a packet of a client. Its address uses `handed` of what the router hears of it, and `advertised` of what it
    /// may tell the router.
    pub fn hands(
        &self,
        clients: u32,
        kind: PacketKind,
        client: &mut ClientUse,
        address: &mut AddressUse,
        handed: &mut Meter,
        advertised: &mut Meter,
    ) -> Result<(), Refused> {
        let kind = kind.number();
        passes(unsafe { sys::ipxr_limits_hands(&self.0, clients, kind, &mut client.0, &mut address.0, &mut handed.0, &mut advertised.0) })
    }

    /// Whether the router hears a packet of a link with frames. `link` is the number of its queue in `links`, which [`told`] makes.
    pub fn frames_hand(
        &self,
        link: u8,
        kind: PacketKind,
        asked: &mut Meter,
        advertised: &mut Meter,
        links: &mut Fair,
    ) -> Result<(), Refused> {
        passes(unsafe { sys::ipxr_limits_frames_hand(&self.0, link, kind.number(), &mut asked.0, &mut advertised.0, &mut links.0) })
    }

    /// Whether a client whose address has no limits receives a packet of so many bytes, of somebody who has that queue there.
    pub fn receives(&self, client: &mut Reader, queue: u8, bytes: usize) -> Result<(), Refused> {
        passes(unsafe { sys::ipxr_limits_receives(&self.0, &mut client.0, queue, bytes) })
    }

    /// The same client receives a packet of the router. It isn't dropped.
    pub fn hears_router(&self, client: &mut Reader, queue: u8, bytes: usize) {
        unsafe { sys::ipxr_limits_hears_router(&self.0, &mut client.0, queue, bytes) }
    }

    /// Whether a link with frames gets a packet in so many frames: all of them or none.
    pub fn carries(&self, link: &mut Reader, queue: u8, bytes: usize, frames: u32) -> Result<(), Refused> {
        passes(unsafe { sys::ipxr_limits_carries(&self.0, &mut link.0, queue, bytes, frames) })
    }
}

/// The receiver of what all links with frames tell the router, where none has told anything yet.
///
/// ```
/// use ipxr::limits::{Limits, LinkKind, PacketKind, told};
/// use ipxr::{Meter, NO_LIMIT};
///
/// let limits = Limits::new(LinkKind::Frames, 800, 50, NO_LIMIT, NO_LIMIT).ok_or("no such limits")?;
/// let (mut asked, mut advertised, mut links) = (Meter::default(), Meter::default(), told());
/// limits.frames_hand(0, PacketKind::Question, &mut asked, &mut advertised, &mut links)?;
/// # Ok::<(), Box<dyn std::error::Error>>(())
/// ```
pub fn told() -> Fair {
    let mut links = Fair(sys::ipxr_fair::ZERO);
    unsafe { sys::ipxr_told_make(&mut links.0) };
    links
}

/// What all clients of an address receive.
///
/// ```
/// use ipxr::limits::{Household, Limits, LinkKind, Reader};
/// use ipxr::{Fair, NO_LIMIT};
///
/// let limits = Limits::new(LinkKind::Tunnel, 800, 50, NO_LIMIT, NO_LIMIT).ok_or("no such limits")?;
/// let household = Household::new(2000).ok_or("no such limits")?;
/// let mut address = Fair::new(&household.received()).ok_or("no such receiver")?;
/// let mut client = Reader::new(&limits).ok_or("no such reader")?;
/// household.receives(&limits, &mut client, &mut address, 1, 100)?;
/// # Ok::<(), Box<dyn std::error::Error>>(())
/// ```
#[derive(Clone, Debug, PartialEq, Eq)]
pub struct Household(sys::ipxr_household_limits);

impl Household {
    /// Limits of so many packets a second. Nothing if the rate is 0.
    pub fn new(rate: u32) -> Option<Household> {
        let mut limits = Household(sys::ipxr_household_limits::ZERO);
        unsafe { sys::ipxr_household_make(&mut limits.0, rate) }.then_some(limits)
    }

    /// The setting of the receiver for what comes of other addresses.
    pub fn received(&self) -> FairSetting {
        FairSetting::of(&self.0.received)
    }

    /// Whether a client receives a packet of another address, which has that queue there, and at the client's address.
    pub fn receives(&self, limits: &Limits, client: &mut Reader, address: &mut Fair, queue: u8, bytes: usize) -> Result<(), Refused> {
        passes(unsafe { sys::ipxr_household_receives(&self.0, &limits.0, &mut client.0, &mut address.0, queue, bytes) })
    }

    /// The same of a packet of its own address; `among` is used of what its clients say to each other.
    pub fn receives_of_own(&self, limits: &Limits, client: &mut Reader, among: &mut Meter, queue: u8, bytes: usize) -> Result<(), Refused> {
        passes(unsafe { sys::ipxr_household_receives_of_own(&self.0, &limits.0, &mut client.0, &mut among.0, queue, bytes) })
    }

    /// The same of a packet of the router: only the limit of the address drops it.
    pub fn receives_of_router(
        &self,
        limits: &Limits,
        client: &mut Reader,
        address: &mut Fair,
        queue: u8,
        bytes: usize,
    ) -> Result<(), Refused> {
        passes(unsafe { sys::ipxr_household_receives_of_router(&self.0, &limits.0, &mut client.0, &mut address.0, queue, bytes) })
    }
}

/// What goes to places that have no client: somebody may have forged them.
///
/// ```
/// use ipxr::limits::Strangers;
/// use ipxr::Meter;
///
/// let strangers = Strangers::new(100).ok_or("no such limits")?;
/// let (mut address, mut all) = (Meter::default(), Meter::default());
/// strangers.send(2, &mut address, &mut all)?; // both datagrams go out
/// # Ok::<(), Box<dyn std::error::Error>>(())
/// ```
#[derive(Clone, Debug, PartialEq, Eq)]
pub struct Strangers(pub(crate) sys::ipxr_strangers_limits);

impl Strangers {
    /// Limits of so many datagrams a second. Nothing if the rate is 0.
    pub fn new(rate: u32) -> Option<Strangers> {
        let mut limits = Strangers(sys::ipxr_strangers_limits::ZERO);
        unsafe { sys::ipxr_strangers_make(&mut limits.0, rate) }.then_some(limits)
    }

    /// Whether so many datagrams go to a place without a client, all of them or none.
    pub fn send(&self, count: u32, address: &mut Meter, all: &mut Meter) -> Result<(), Refused> {
        passes(unsafe { sys::ipxr_strangers_send(&self.0, count, &mut address.0, &mut all.0) })
    }
}

/// Who has which queue, where more may speak than there are queues.
///
/// ```
/// let mut queues = ipxr::limits::Queues::default();
/// assert_eq!((queues.take(1, 2), queues.take(1, 2), queues.take(1, 2)), (1, 2, 1)); // the third shares one,
/// queues.give_back(2);
/// assert_eq!(queues.unshare(1, 1, 2), 2); // and has one of its own again
/// ```
#[derive(Clone, Debug, PartialEq, Eq)]
pub struct Queues(sys::ipxr_queues);

impl Default for Queues {
    fn default() -> Queues {
        Queues(sys::ipxr_queues::ZERO)
    }
}

impl Queues {
    /// Gives somebody who begins to speak a queue, of those from the first to the last, and returns its number.
    pub fn take(&mut self, first: u8, last: u8) -> u8 {
        unsafe { sys::ipxr_queues_take(&mut self.0, first, last) }
    }

    /// Somebody who shares his queue gets one that nobody has, if there is one. Returns the number that he has then.
    pub fn unshare(&mut self, queue: u8, first: u8, last: u8) -> u8 {
        unsafe { sys::ipxr_queues_unshare(&mut self.0, queue, first, last) }
    }

    /// Somebody who has that queue speaks no more.
    pub fn give_back(&mut self, queue: u8) {
        unsafe { sys::ipxr_queues_give_back(&mut self.0, queue) }
    }
}
