//! One network over several links.
use crate::answers::{done, whether};
use crate::asked::all;
use crate::sys;
use crate::{Address, Fault, Network, Node};
use alloc::vec::Vec;

/// What a [`Segment`] is made from.
#[derive(Clone, Copy, Debug, PartialEq, Eq)]
pub struct SegmentSetting {
    /// The number of its network, as the router's port there has it.
    pub network: Network,
    /// The router's node there: no station's.
    pub node: Node,
    /// How many links it has: at most [`sys::IPXR_MOST_LINKS`].
    pub links: u8,
    /// How many stations it knows at one time: at most [`sys::IPXR_MOST_STATIONS`].
    pub capacity: u16,
}

/// A link of a segment. `share` is how many stations of it are known at one time at most.
#[derive(Clone, Copy, Debug, PartialEq, Eq)]
pub enum Link {
    /// Nothing goes there, and what comes from there is ignored.
    Down,
    /// Every node that is heard there is a station.
    Cable {
        /// The most stations.
        share: u16,
    },
    /// It proves who is there: its stations come and leave.
    Sure {
        /// The most stations.
        share: u16,
    },
}

impl Link {
    fn raw(self) -> sys::ipxr_link {
        match self {
            Link::Down => sys::ipxr_link { kind: sys::IPXR_LINK_DOWN, share: 0 },
            Link::Cable { share } => sys::ipxr_link { kind: sys::IPXR_LINK_CABLE, share },
            Link::Sure { share } => sys::ipxr_link { kind: sys::IPXR_LINK_SURE, share },
        }
    }

    fn of(it: sys::ipxr_link) -> Link {
        match it.kind {
            sys::IPXR_LINK_CABLE => Link::Cable { share: it.share },
            sys::IPXR_LINK_SURE => Link::Sure { share: it.share },
            _ => Link::Down,
        }
    }
}

/// A station that a segment knows.
#[derive(Clone, Copy, Debug, PartialEq, Eq)]
pub struct Station {
    /// Its node.
    pub node: Node,
    /// The link where it is.
    pub link: u8,
    /// Whether it came to a sure link: then it is known until it leaves.
    pub is_sure: bool,
    /// How many seconds longer it is known, unless it is sure or heard again.
    pub seconds_left: u16,
}

impl Station {
    fn of(it: sys::ipxr_station) -> Station {
        Station { node: Node(it.node), link: it.link, is_sure: it.is_sure, seconds_left: it.seconds_left }
    }
}

/// Several links that are one network, such as cards, TAPs and a tunnel. It is freed when it is dropped.
///
/// ```
/// use ipxr::{Link, Network, Node, Segment, SegmentSetting};
///
/// let mut segment = Segment::new(&SegmentSetting { network: Network(0x10), node: Node([0, 0, 0, 0, 0, 1]), links: 2, capacity: 1024 })?;
/// segment.change(0, Link::Cable { share: 512 })?;
/// segment.change(1, Link::Sure { share: 512 })?;
/// segment.come(1, "02:00:00:00:00:07".parse()?)?;
/// let is_heard = segment.hear(0, "00:00:1B:00:00:01".parse()?, Node::ALL)?;
/// assert!(is_heard); // hand it to the router, too
/// assert_eq!(segment.receivers()?, [1]);
/// # Ok::<(), Box<dyn std::error::Error>>(())
/// ```
#[derive(Debug)]
pub struct Segment {
    handle: sys::ipxr_segment,
}

// SAFETY: a handle may move from thread to thread between calls; `&mut self` sees to one call at a time.
unsafe impl Send for Segment {}

impl Segment {
    /// A segment with that setting, whose links are all down.
    pub fn new(setting: &SegmentSetting) -> Result<Segment, Fault> {
        let SegmentSetting { network, node, links, capacity } = *setting;
        let setting = sys::ipxr_segment_setting { network: network.0, node: node.0, links, capacity };
        let mut segment = Segment { handle: sys::ipxr_segment::ZERO };
        // SAFETY: the handle is empty.
        done(unsafe { sys::ipxr_segment_make(&mut segment.handle, &setting) })?;
        Ok(segment)
    }

    /// A link goes up or down, or changes. Its stations are forgotten in any case.
    pub fn change(&mut self, link: u8, to: Link) -> Result<(), Fault> {
        // SAFETY: here and below the handle is one that only these calls change.
        done(unsafe { sys::ipxr_segment_change(&mut self.handle, link, &to.raw()) })
    }

    /// A packet was heard at a link, from a node for a node, or for all. Returns whether the router hears it.
    pub fn hear(&mut self, link: u8, source: Node, destination: Node) -> Result<bool, Fault> {
        whether(unsafe { sys::ipxr_segment_hear(&mut self.handle, link, source.as_ptr(), destination.as_ptr()) })
    }

    /// A node came to a sure link.
    pub fn come(&mut self, link: u8, node: Node) -> Result<(), Fault> {
        done(unsafe { sys::ipxr_segment_come(&mut self.handle, link, node.as_ptr()) })
    }

    /// A node left a link.
    pub fn leave(&mut self, link: u8, node: Node) -> Result<(), Fault> {
        done(unsafe { sys::ipxr_segment_leave(&mut self.handle, link, node.as_ptr()) })
    }

    /// A second has passed.
    pub fn second(&mut self) -> Result<(), Fault> {
        done(unsafe { sys::ipxr_segment_second(&mut self.handle) })
    }

    /// The router sends a packet on the segment's network to that node, or to all.
    pub fn send(&mut self, node: Node) -> Result<(), Fault> {
        done(unsafe { sys::ipxr_segment_send(&mut self.handle, node.as_ptr()) })
    }

    /// The links that get the packet of the last event, in order.
    pub fn receivers(&mut self) -> Result<Vec<u8>, Fault> {
        let count = unsafe { sys::ipxr_segment_receivers(&mut self.handle) };
        all(count, 0, |k, it| unsafe { sys::ipxr_segment_receiver(&mut self.handle, k, it) }, |it| it)
    }

    /// Its stations, in the order in which they came to their links.
    pub fn stations(&mut self) -> Result<Vec<Station>, Fault> {
        let count = unsafe { sys::ipxr_segment_stations(&mut self.handle) };
        all(count, sys::ipxr_station::ZERO, |k, it| unsafe { sys::ipxr_segment_station(&mut self.handle, k, it) }, Station::of)
    }

    /// What a link is.
    pub fn link(&mut self, link: u8) -> Result<Link, Fault> {
        let mut it = sys::ipxr_link::ZERO;
        done(unsafe { sys::ipxr_segment_link(&mut self.handle, link, &mut it) })?;
        Ok(Link::of(it))
    }

    /// The node that a packet with that destination goes to on the segment's network, if no frame says it.
    pub fn next_node(&mut self, destination: &Address) -> Result<Node, Fault> {
        let mut node = Node::default();
        done(unsafe { sys::ipxr_segment_next_node(&mut self.handle, &destination.raw(), node.0.as_mut_ptr()) })?;
        Ok(node)
    }

    /// The handle, for the calls of [`sys`]. It stays this value's own.
    pub fn raw(&mut self) -> *mut sys::ipxr_segment {
        &mut self.handle
    }
}

impl Drop for Segment {
    fn drop(&mut self) {
        // SAFETY: it has one segment or none, and nobody else has it.
        unsafe { sys::ipxr_segment_free(&mut self.handle) };
    }
}
