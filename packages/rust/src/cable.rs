//! What a gateway decides about its cables. `docs/CABLE.md` has the rules.
use crate::frames::Kind;
use crate::sys;
use crate::Node;

/// In which kinds of frames a packet goes out, where stations may use any: what was heard. A node has the same `hash` each time, by a key
/// that strangers don't know.
///
/// ```
/// use ipxr::cable::Kinds;
/// use ipxr::frames::Kind;
/// use ipxr::Node;
///
/// let (mut kinds, station, hash) = (Kinds::default(), Node([0, 0, 0x1B, 0, 0, 7]), 0x1234_5678);
/// assert!(kinds.hear(hash, station, Kind::Raw, true));
/// assert_eq!(kinds.of(hash, station), Some(Kind::Raw));
/// assert!(!kinds.speaks(hash, station, Kind::Llc)); // send him a raw frame alone
/// ```
#[derive(Clone, Debug, PartialEq, Eq)]
pub struct Kinds(sys::ipxr_kinds);

impl Default for Kinds {
    fn default() -> Kinds {
        Kinds(sys::ipxr_kinds::ZERO)
    }
}

impl Kinds {
    /// A second passes.
    pub fn second(&mut self) {
        // SAFETY: here and below pointers are to values that lie apart, and a node has six bytes.
        unsafe { sys::ipxr_kinds_second(&mut self.0) }
    }

    /// A station says a packet in a kind, to a node or to all. Returns whether that counts.
    pub fn hear(&mut self, hash: u64, station: Node, kind: Kind, is_for_all: bool) -> bool {
        unsafe { sys::ipxr_kinds_hear(&mut self.0, hash, station.as_ptr(), kind.number(), is_for_all.into()) }
    }

    /// The kind that a station uses, if it is known.
    pub fn of(&self, hash: u64, station: Node) -> Option<Kind> {
        Kind::of(unsafe { sys::ipxr_kinds_of(&self.0, hash, station.as_ptr()) })
    }

    /// Whether a kind was heard within the last hour.
    pub fn is_used(&self, kind: Kind) -> bool {
        unsafe { sys::ipxr_kinds_is_used(&self.0, kind.number()) }
    }

    /// Whether a packet for a node, or for all, goes out in a kind.
    pub fn speaks(&self, hash: u64, node: Node, kind: Kind) -> bool {
        unsafe { sys::ipxr_kinds_speaks(&self.0, hash, node.as_ptr(), kind.number()) }
    }
}

/// What a probe does.
#[derive(Clone, Copy, Debug, PartialEq, Eq, Hash)]
pub enum Probed {
    /// No other link is shut than before.
    Nothing,
    /// The link where it came is shut now, which was open.
    Here,
    /// The link that sent it is shut now, which was open.
    There,
    /// Nothing: it is more than three seconds old.
    Late,
}

/// Whether a link is shut, since it is one cable with another link of its network.
///
/// ```
/// use ipxr::cable::{probe, Loop, Probed};
///
/// let (mut first, mut second) = (Loop::default(), Loop::default());
/// assert_eq!(probe(1, 0, 100, 100, &mut second, &mut first), Probed::Here); // the later of both is shut
/// assert!(second.is_shut() && !first.is_shut());
/// while second.is_shut() {
///     second.second();
/// }
/// ```
#[derive(Clone, Copy, Debug, Default, PartialEq, Eq)]
pub struct Loop(u8);

impl Loop {
    /// Whether it is shut.
    pub fn is_shut(&self) -> bool {
        self.0 > 0
    }

    /// For how many seconds it is shut, unless a probe comes.
    pub fn seconds_left(&self) -> u8 {
        self.0
    }

    /// A second passes. Returns whether it opens by that.
    pub fn second(&mut self) -> bool {
        let mut it = sys::ipxr_loop { left: self.0 };
        let opens = unsafe { sys::ipxr_loop_second(&mut it) };
        self.0 = it.left;
        opens
    }
}

/// A probe comes on link `here` that link `there` sent in second `sent`; it is another second `now`. Both have their numbers in the order
/// of the network's links.
pub fn probe(here: u8, there: u8, sent: u64, now: u64, at_here: &mut Loop, at_there: &mut Loop) -> Probed {
    let (mut one, mut other) = (sys::ipxr_loop { left: at_here.0 }, sys::ipxr_loop { left: at_there.0 });
    let did = unsafe { sys::ipxr_loop_probe(here, there, sent, now, &mut one, &mut other) };
    (at_here.0, at_there.0) = (one.left, other.left);
    match did {
        sys::IPXR_PROBE_HERE => Probed::Here,
        sys::IPXR_PROBE_THERE => Probed::There,
        sys::IPXR_PROBE_LATE => Probed::Late,
        _ => Probed::Nothing,
    }
}

/// All addresses of IPv4 that begin with the same bits as `host`.
///
/// ```
/// use ipxr::cable::{ranges_have, Range};
///
/// let home = Range { host: [192, 168, 1, 0], bits: 24 };
/// assert!(home.is_first());
/// assert!(ranges_have(&[home], [192, 168, 1, 7]));
/// ```
#[derive(Clone, Copy, Debug, PartialEq, Eq, Hash)]
pub struct Range {
    /// An address of the range.
    pub host: [u8; 4],
    /// How many bits all have in common: 32 at most.
    pub bits: u8,
}

impl Range {
    fn raw(&self) -> sys::ipxr_range {
        sys::ipxr_range { host: self.host, bits: self.bits }
    }

    /// Whether its own address is the first of it.
    pub fn is_first(&self) -> bool {
        unsafe { sys::ipxr_range_is_first(&self.raw()) }
    }
}

/// Whether an address is in one of several ranges.
pub fn ranges_have(ranges: &[Range], host: [u8; 4]) -> bool {
    ranges.iter().any(|it| unsafe { sys::ipxr_ranges_have(&it.raw(), 1, host.as_ptr()) })
}

/// How fast things go out that wait for each other, such as pings by a narrow line. Its clock never shows 0.
///
/// ```
/// let mut pace = ipxr::cable::Pace::default();
/// pace.more_wait(2, 1_000, 5_000);
/// assert!(pace.lets_go(2, 5_000));
/// assert!(!pace.lets_go(1, 5_500)); // not yet
/// assert!(pace.lets_go(1, 6_000));
/// ```
#[derive(Clone, Debug, PartialEq, Eq)]
pub struct Pace(sys::ipxr_pace);

impl Default for Pace {
    fn default() -> Pace {
        Pace(sys::ipxr_pace::ZERO)
    }
}

impl Pace {
    /// So many wait now, where more came. They go so many nanoseconds apart, or closer together.
    pub fn more_wait(&mut self, waiting: u64, between: u64, now: u64) {
        unsafe { sys::ipxr_pace_more_wait(&mut self.0, waiting, between, now) }
    }

    /// Whether the first of so many that wait goes now.
    pub fn lets_go(&mut self, waiting: u64, now: u64) -> bool {
        unsafe { sys::ipxr_pace_lets_go(&mut self.0, waiting, now) }
    }
}

/// The nodes of a network that are watched, since two machines may have one.
///
/// ```
/// use ipxr::cable::Twins;
/// use ipxr::Node;
///
/// let mut twins = Twins::default();
/// let told: Vec<_> = (0..8).filter_map(|k| twins.hear(Node([0, 0, 0x1B, 0, 0, 7]), (k % 2) as u8, 100 + k)).collect();
/// assert_eq!(told, [0]); // once: it moves to and fro, and was on link 0 before
/// ```
#[derive(Clone, Debug, PartialEq, Eq)]
pub struct Twins(sys::ipxr_twins);

impl Default for Twins {
    fn default() -> Twins {
        Twins(sys::ipxr_twins::ZERO)
    }
}

impl Twins {
    /// A node is heard on a link in a second. If somebody must be told that it moves to and fro, returns its link before.
    pub fn hear(&mut self, node: Node, link: u8, second: u64) -> Option<u8> {
        let mut before = 0;
        unsafe { sys::ipxr_twins_hear(&mut self.0, node.as_ptr(), link, second, &mut before) }.then_some(before)
    }
}

/// Somebody who is asked again until he answers.
///
/// ```
/// use ipxr::cable::{Asked, Asks};
///
/// let (mut asked, mut all) = (Asked::default(), Asks::default());
/// asked.ask(&mut all, 1_000_000_000, 77); // the number: one that nobody else can tell
/// let later = 1_000_000_000 + 750_000_000;
/// assert!(all.are_due(later) && asked.is_due(&mut all, later));
/// asked.answer();
/// assert!(!asked.is_due(&mut all, later));
/// ```
#[derive(Clone, Debug, PartialEq, Eq)]
pub struct Asked(sys::ipxr_asked);

impl Default for Asked {
    fn default() -> Asked {
        Asked(sys::ipxr_asked::ZERO)
    }
}

impl Asked {
    /// He is asked now, and again 250 to 750 ms later, as the number says.
    pub fn ask(&mut self, all: &mut Asks, now: u64, number: u64) {
        unsafe { sys::ipxr_asked_ask(&mut self.0, &mut all.0, now, number) }
    }

    /// He answers.
    pub fn answer(&mut self) {
        unsafe { sys::ipxr_asked_answer(&mut self.0) }
    }

    /// Whether he is to be asked again now.
    pub fn is_due(&self, all: &mut Asks, now: u64) -> bool {
        unsafe { sys::ipxr_asked_is_due(&self.0, &mut all.0, now) }
    }
}

/// When the next of many is asked again.
#[derive(Clone, Debug, PartialEq, Eq)]
pub struct Asks(sys::ipxr_asks);

impl Default for Asks {
    fn default() -> Asks {
        Asks(sys::ipxr_asks::ZERO)
    }
}

impl Asks {
    /// Whether somebody may have to be asked now: then ask of each whether he is due.
    pub fn are_due(&mut self, now: u64) -> bool {
        unsafe { sys::ipxr_asks_are_due(&mut self.0, now) }
    }

    /// Milliseconds until then, at most so many.
    pub fn patience(&self, most: u64, now: u64) -> u64 {
        unsafe { sys::ipxr_asks_patience(&self.0, most, now) }
    }
}

/// What is known of the gateway's own node on a network.
#[derive(Clone, Copy, Debug, Default, PartialEq, Eq)]
pub struct Known {
    /// The network is of a tunnel of DOSBox.
    pub is_tunnel: bool,
    /// It has several links.
    pub is_of_several: bool,
    /// The node that is said, if one is.
    pub said: Option<Node>,
    /// The card's address, if there is one and it is known.
    pub card: Option<Node>,
}

/// The gateway's own node on a network.
///
/// ```
/// use ipxr::cable::{choose_node, Known};
/// use ipxr::Node;
///
/// let card = Node([0, 0, 0x1B, 0, 0, 7]);
/// assert_eq!(choose_node(&Known { card: Some(card), ..Known::default() }, 0x1234), card);
/// ```
pub fn choose_node(known: &Known, hash: u64) -> Node {
    let (said, card, mut node) = (known.said.unwrap_or_default(), known.card.unwrap_or_default(), Node::default());
    let (is_tunnel, is_of_several, has_said) = (known.is_tunnel.into(), known.is_of_several.into(), known.said.is_some().into());
    unsafe { sys::ipxr_node_choose(is_tunnel, is_of_several, has_said, said.as_ptr(), card.as_ptr(), hash, node.0.as_mut_ptr()) };
    node
}
