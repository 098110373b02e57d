//! DOSBox's tunnel.
use crate::answers::{checked, done};
use crate::asked::all;
use crate::sys;
use crate::{Fault, Network, Node, Place, Socket};
use alloc::vec::Vec;

/// What a [`Tunnel`] is made from.
#[derive(Clone, Copy, Debug, PartialEq, Eq)]
pub struct TunnelSetting {
    /// The number of its network, as the router's port there has it.
    pub network: Network,
    /// The server's node there, which is the router's too: no place of a client.
    pub node: Node,
    /// How many clients it takes: at most [`sys::IPXR_MOST_CLIENTS`].
    pub capacity: u16,
    /// How many of them may have one IPv4 address.
    pub share: u16,
}

/// Where a datagram came from, and its cookies: six bytes that nobody can guess, a keyed hash of the place and the minute.
#[derive(Clone, Copy, Debug, PartialEq, Eq)]
pub struct Sender {
    /// The place.
    pub place: Place,
    /// Its cookie of this minute.
    pub current: Node,
    /// Its cookie of the last minute, whose answer counts too.
    pub previous: Node,
    /// Whether its address is one of a network of yours, so that it is a client without an answer.
    pub is_trusted: bool,
}

/// What a datagram said.
#[derive(Clone, Copy, Debug, PartialEq, Eq)]
pub enum Said {
    /// Nothing that counts.
    Nothing,
    /// That it wants to be a client.
    Registers,
    /// That it heard its ping.
    Answers,
    /// Something to others; of one who is no client nobody gets it.
    Speaks,
}

impl Said {
    pub(crate) fn of(answer: i32) -> Result<Said, Fault> {
        Ok(match checked(answer)? {
            sys::IPXR_REGISTERS => Said::Registers,
            sys::IPXR_ANSWERS => Said::Answers,
            sys::IPXR_SPEAKS => Said::Speaks,
            _ => Said::Nothing,
        })
    }
}

/// A datagram of the tunnel's own, an answer or a ping.
#[derive(Clone, Copy, Debug, PartialEq, Eq)]
pub struct Own {
    /// Where it goes.
    pub place: Place,
    /// Its bytes.
    pub bytes: [u8; 30],
}

impl Own {
    pub(crate) fn of(it: sys::ipxr_own) -> Own {
        Own { place: Place(it.place), bytes: it.bytes }
    }
}

/// A client of a [`Tunnel`].
#[derive(Clone, Copy, Debug, PartialEq, Eq)]
pub struct Client {
    /// Its place, which is its node.
    pub place: Place,
    /// How many seconds longer it stays, unless it answers a ping (if it is trusted: says anything).
    pub seconds_left: u8,
}

/// The server of DOSBox's `IPXNET`, whose clients' nodes are their places. It is freed when it is dropped. For a new server use
/// [`Keyed`](crate::Keyed).
///
/// ```
/// use ipxr::{Address, Network, Node, Place, Said, Sender, Socket, Tunnel, TunnelSetting, packets};
///
/// let setting = TunnelSetting { network: Network(0x10), node: Node([0, 0, 0, 0, 0, 1]), capacity: 64, share: 16 };
/// let mut tunnel = Tunnel::new(&setting)?;
/// let place: Place = "192.168.1.7:2130".parse()?;
/// let cookie = Node([2, 7, 7, 7, 7, 7]); // yours: a keyed hash of the place and the minute
/// let registers = packets::write_packet(&Address::default(), &Address::new(0, [0; 6], 2), 0, 0, &[])?;
/// let sender = Sender { place, current: cookie, previous: cookie, is_trusted: true };
/// assert_eq!(tunnel.hear(&sender, &registers)?, Said::Registers);
/// for own in tunnel.owns()? {
///     println!("send {} bytes to {}", own.bytes.len(), own.place);
/// }
/// assert_eq!(tunnel.clients()?[0].place, place);
/// # Ok::<(), Box<dyn std::error::Error>>(())
/// ```
#[derive(Debug)]
pub struct Tunnel {
    handle: sys::ipxr_tunnel,
}

// SAFETY: a handle may move from thread to thread between calls; `&mut self` sees to one call at a time.
unsafe impl Send for Tunnel {}

impl Tunnel {
    /// A tunnel with that setting, and without clients.
    pub fn new(setting: &TunnelSetting) -> Result<Tunnel, Fault> {
        let TunnelSetting { network, node, capacity, share } = *setting;
        let setting = sys::ipxr_tunnel_setting { network: network.0, node: node.0, capacity, share };
        let mut tunnel = Tunnel { handle: sys::ipxr_tunnel::ZERO };
        // SAFETY: the handle is empty.
        done(unsafe { sys::ipxr_tunnel_make(&mut tunnel.handle, &setting) })?;
        Ok(tunnel)
    }

    /// A datagram arrived. Clear the packet's transport control (byte 4) first, and don't hand in a packet that is longer than the router's
    /// port allows. Read what it left before the next event.
    pub fn hear(&mut self, sender: &Sender, bytes: &[u8]) -> Result<Said, Fault> {
        let Sender { place, current, previous, is_trusted } = *sender;
        let sender = sys::ipxr_sender { place: place.0, current: current.0, previous: previous.0, is_trusted };
        // SAFETY: here and below the handle is one that only these calls change; pointer and length are a slice's.
        Said::of(unsafe { sys::ipxr_tunnel_hear(&mut self.handle, &sender, bytes.as_ptr(), bytes.len()) })
    }

    /// A second has passed: silent clients are pinged, and those whose time is over leave.
    pub fn second(&mut self) -> Result<(), Fault> {
        done(unsafe { sys::ipxr_tunnel_second(&mut self.handle) })
    }

    /// The router sends a packet on the tunnel's network to that node, or to all.
    pub fn send(&mut self, node: Node) -> Result<(), Fault> {
        done(unsafe { sys::ipxr_tunnel_send(&mut self.handle, node.as_ptr()) })
    }

    /// Datagrams of the tunnel's own that the last event left: send them first.
    pub fn owns(&mut self) -> Result<Vec<Own>, Fault> {
        let count = unsafe { sys::ipxr_tunnel_owns(&mut self.handle) };
        all(count, sys::ipxr_own::ZERO, |k, it| unsafe { sys::ipxr_tunnel_own(&mut self.handle, k, it) }, Own::of)
    }

    /// The places that get the last event's packet.
    pub fn receivers(&mut self) -> Result<Vec<Place>, Fault> {
        let count = unsafe { sys::ipxr_tunnel_receivers(&mut self.handle) };
        all(count, [0; 6], |k, it| unsafe { sys::ipxr_tunnel_receiver(&mut self.handle, k, it.as_mut_ptr()) }, Place)
    }

    /// How many bytes of the datagram, from its first on, are the packet.
    pub fn carried(&mut self) -> usize {
        unsafe { sys::ipxr_tunnel_carried(&mut self.handle) }
    }

    /// Whether the router hears the packet of the datagram: then hand it in there.
    pub fn is_heard(&mut self) -> bool {
        unsafe { sys::ipxr_tunnel_is_heard(&mut self.handle) == 1 }
    }

    /// The places of the clients that left in the second.
    pub fn leavers(&mut self) -> Result<Vec<Place>, Fault> {
        let count = unsafe { sys::ipxr_tunnel_leavers(&mut self.handle) };
        all(count, [0; 6], |k, it| unsafe { sys::ipxr_tunnel_leaver(&mut self.handle, k, it.as_mut_ptr()) }, Place)
    }

    /// Its clients, in the order in which they came.
    pub fn clients(&mut self) -> Result<Vec<Client>, Fault> {
        let count = unsafe { sys::ipxr_tunnel_clients(&mut self.handle) };
        let read = |k, it: &mut sys::ipxr_client| unsafe { sys::ipxr_tunnel_client(&mut self.handle, k, it) };
        all(count, sys::ipxr_client::ZERO, read, |it| Client { place: Place(it.place), seconds_left: it.seconds_left })
    }

    /// The handle, for the calls of [`sys`]. It stays this value's own.
    pub fn raw(&mut self) -> *mut sys::ipxr_tunnel {
        &mut self.handle
    }
}

impl Drop for Tunnel {
    fn drop(&mut self) {
        // SAFETY: it has one tunnel or none, and nobody else has it.
        unsafe { sys::ipxr_tunnel_free(&mut self.handle) };
    }
}

/// Turns a broadcast on a network to one of the sockets into its copy for another network. Returns whether it is one that may be copied; if
/// not, the bytes stay as they were. Ask only about what the router hears.
///
/// ```
/// use ipxr::{Address, Node, Socket, extend, packets};
///
/// let from = Address::new(0x10, [2, 0, 0, 0, 0, 1], 0x4545);
/// let mut call = packets::write_packet(&from, &Address::new(0x10, Node::ALL, 0x4545), 0, 0, b"who plays?")?;
/// assert!(extend(0x10.into(), &[Socket(0x4545)], 0x20.into(), &mut call));
/// assert_eq!(packets::read(&call).unwrap().to.to_string(), "00000020.FFFFFFFFFFFF.4545");
/// # Ok::<(), ipxr::Fault>(())
/// ```
pub fn extend(network: Network, sockets: &[Socket], to: Network, bytes: &mut [u8]) -> bool {
    let sockets: Vec<u16> = sockets.iter().map(|it| it.0).collect();
    // SAFETY: pointers and lengths are of slices that lie apart.
    unsafe { sys::ipxr_tunnel_extend(network.0, sockets.as_ptr(), sockets.len(), to.0, bytes.as_mut_ptr(), bytes.len()) == 1 }
}
