//! DOSBox's tunnel with nodes that it hands out.
use crate::answers::done;
use crate::asked::all;
use crate::sys;
use crate::{Fault, Network, Node, Own, Place, Said};
use alloc::vec::Vec;

/// What a [`Keyed`] is made from.
#[derive(Clone, Copy, Debug, PartialEq, Eq)]
pub struct KeyedSetting {
    /// The number of its network, as the router's port there has it.
    pub network: Network,
    /// The server's node there, which is the router's too: no node of a client.
    pub node: Node,
    /// How many clients it takes: at most [`sys::IPXR_MOST_CLIENTS`].
    pub capacity: u16,
    /// How many of them may have one IPv4 address.
    pub share: u16,
    /// How many registrations it remembers, each for nine seconds: at most [`sys::IPXR_MOST_CLIENTS`].
    pub remembered: u16,
    /// How many of them may have one IPv4 address.
    pub remembered_share: u16,
}

/// Where a datagram came from, and what you know of that place. Its nodes and cookies are yours to make, and nobody may guess them:
/// `docs/EMBED.md` says how.
#[derive(Clone, Copy, Debug, PartialEq, Eq)]
pub struct KeyedSender {
    /// The place.
    pub place: Place,
    /// Its node: 02, and five bytes of a keyed hash of the place.
    pub node: Node,
    /// Its former node, or its node again.
    pub former: Node,
    /// Its cookie of this minute.
    pub current: Node,
    /// Its cookie of the last minute, whose answer counts too.
    pub previous: Node,
    /// Whether its address is one of a network of yours, so that its first word makes it a client.
    pub is_trusted: bool,
    /// Whether a registration counts now, which may bring it up to four datagrams.
    pub may_register: bool,
}

/// A client, or somebody who registered and is remembered.
#[derive(Clone, Copy, Debug, PartialEq, Eq)]
pub struct Member {
    /// Its place.
    pub place: Place,
    /// Its node.
    pub node: Node,
    /// How many seconds longer it stays, unless it answers a ping (if it is trusted: says anything).
    pub seconds_left: u8,
}

impl Member {
    fn of(it: sys::ipxr_keyed_member) -> Member {
        Member { place: Place(it.place), node: Node(it.node), seconds_left: it.seconds_left }
    }
}

/// The server of DOSBox's `IPXNET`, which hands out nodes of yours. It is freed when it is dropped.
///
/// ```
/// use ipxr::{Address, Keyed, KeyedSender, KeyedSetting, Network, Node, Said, packets};
///
/// let node = Node([0, 0, 0, 0, 0, 1]);
/// let setting = KeyedSetting { network: Network(0x10), node, capacity: 64, share: 16, remembered: 1024, remembered_share: 64 };
/// let mut tunnel = Keyed::new(&setting)?;
/// let own = Node([2, 1, 2, 3, 4, 5]); // yours: 02, and a keyed hash of the place
/// let cookie = Node([6, 1, 2, 3, 4, 5]); // yours: of the place and the minute, in another form
/// let sender = KeyedSender {
///     place: "192.168.1.7:2130".parse()?,
///     node: own,
///     former: own,
///     current: cookie,
///     previous: cookie,
///     is_trusted: false,
///     may_register: true,
/// };
/// let registers = packets::write_packet(&Address::default(), &Address::new(0, [0; 6], 2), 0, 0, &[])?;
/// assert_eq!(tunnel.hear(&sender, &registers)?, Said::Registers);
/// assert_eq!(tunnel.owns()?.len(), 1); // the answer; his first word, or a ping after seven seconds, makes him a client
/// assert_eq!(tunnel.waiters()?[0].node, own);
/// # Ok::<(), Box<dyn std::error::Error>>(())
/// ```
#[derive(Debug)]
pub struct Keyed {
    handle: sys::ipxr_keyed,
}

// SAFETY: a handle may move from thread to thread between calls; `&mut self` sees to one call at a time.
unsafe impl Send for Keyed {}

impl Keyed {
    /// A tunnel with that setting, and without clients.
    pub fn new(setting: &KeyedSetting) -> Result<Keyed, Fault> {
        let KeyedSetting { network, node, capacity, share, remembered, remembered_share } = *setting;
        let (network, node) = (network.0, node.0);
        let setting = sys::ipxr_keyed_setting { network, node, capacity, share, remembered, remembered_share };
        let mut tunnel = Keyed { handle: sys::ipxr_keyed::ZERO };
        // SAFETY: the handle is empty.
        done(unsafe { sys::ipxr_keyed_make(&mut tunnel.handle, &setting) })?;
        Ok(tunnel)
    }

    /// A datagram arrived. Clear the packet's transport control (byte 4) first, and don't hand in a packet that is longer than the router's
    /// port allows. Read what it left before the next event.
    pub fn hear(&mut self, sender: &KeyedSender, bytes: &[u8]) -> Result<Said, Fault> {
        let sender = sys::ipxr_keyed_sender {
            place: sender.place.0,
            node: sender.node.0,
            former: sender.former.0,
            current: sender.current.0,
            previous: sender.previous.0,
            is_trusted: sender.is_trusted,
            may_register: sender.may_register,
        };
        // SAFETY: here and below the handle is one that only these calls change; pointer and length are a slice's.
        Said::of(unsafe { sys::ipxr_keyed_hear(&mut self.handle, &sender, bytes.as_ptr(), bytes.len()) })
    }

    /// A second has passed: silent clients are pinged, those whose time is over leave, and who registered is answered again.
    pub fn second(&mut self) -> Result<(), Fault> {
        done(unsafe { sys::ipxr_keyed_second(&mut self.handle) })
    }

    /// The router sends a packet on the tunnel's network to that node, or to all.
    pub fn send(&mut self, node: Node) -> Result<(), Fault> {
        done(unsafe { sys::ipxr_keyed_send(&mut self.handle, node.as_ptr()) })
    }

    /// Datagrams of the tunnel's own that the last event left: send them first.
    pub fn owns(&mut self) -> Result<Vec<Own>, Fault> {
        let count = unsafe { sys::ipxr_keyed_owns(&mut self.handle) };
        all(count, sys::ipxr_own::ZERO, |k, it| unsafe { sys::ipxr_keyed_own(&mut self.handle, k, it) }, Own::of)
    }

    /// How many of them, the first ones, are pings of clients after a second.
    pub fn pings(&mut self) -> usize {
        unsafe { sys::ipxr_keyed_pings(&mut self.handle) }
    }

    /// The places that get the last event's packet.
    pub fn receivers(&mut self) -> Result<Vec<Place>, Fault> {
        let count = unsafe { sys::ipxr_keyed_receivers(&mut self.handle) };
        all(count, [0; 6], |k, it| unsafe { sys::ipxr_keyed_receiver(&mut self.handle, k, it.as_mut_ptr()) }, Place)
    }

    /// How many bytes of the datagram, from its first on, are the packet.
    pub fn carried(&mut self) -> usize {
        unsafe { sys::ipxr_keyed_carried(&mut self.handle) }
    }

    /// Whether the router hears the packet of the datagram: then hand it in there.
    pub fn is_heard(&mut self) -> bool {
        unsafe { sys::ipxr_keyed_is_heard(&mut self.handle) == 1 }
    }

    /// The clients that left in the second.
    pub fn leavers(&mut self) -> Result<Vec<Member>, Fault> {
        let count = unsafe { sys::ipxr_keyed_leavers(&mut self.handle) };
        all(count, sys::ipxr_keyed_member::ZERO, |k, it| unsafe { sys::ipxr_keyed_leaver(&mut self.handle, k, it) }, Member::of)
    }

    /// Its clients, in the order in which they came.
    pub fn clients(&mut self) -> Result<Vec<Member>, Fault> {
        let count = unsafe { sys::ipxr_keyed_clients(&mut self.handle) };
        all(count, sys::ipxr_keyed_member::ZERO, |k, it| unsafe { sys::ipxr_keyed_client(&mut self.handle, k, it) }, Member::of)
    }

    /// Who registered and is remembered.
    pub fn waiters(&mut self) -> Result<Vec<Member>, Fault> {
        let count = unsafe { sys::ipxr_keyed_waiters(&mut self.handle) };
        all(count, sys::ipxr_keyed_member::ZERO, |k, it| unsafe { sys::ipxr_keyed_waiter(&mut self.handle, k, it) }, Member::of)
    }

    /// The handle, for the calls of [`sys`]. It stays this value's own.
    pub fn raw(&mut self) -> *mut sys::ipxr_keyed {
        &mut self.handle
    }
}

impl Drop for Keyed {
    fn drop(&mut self) {
        // SAFETY: it has one tunnel or none, and nobody else has it.
        unsafe { sys::ipxr_keyed_free(&mut self.handle) };
    }
}
