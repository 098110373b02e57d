//! The router.
use crate::answers::{checked, done, outcome, whether};
use crate::sys;
use crate::{Address, Fault, Name, Network, Node, Outcome, Socket};
use alloc::vec;
use alloc::vec::Vec;

/// A share of the tables that limits nothing.
pub const NO_LIMIT: u16 = sys::IPXR_NO_LIMIT;

/// A port of a router, on a network of its own.
///
/// ```
/// use ipxr::{Network, Port};
///
/// let port = Port { longest: 1500, ..Port::new(0x10, "00:00:00:00:00:01".parse()?) };
/// assert_eq!((port.network, port.cost), (Network(0x10), 1));
/// # Ok::<(), ipxr::WrongText>(())
/// ```
#[derive(Clone, Copy, Debug, PartialEq, Eq)]
pub struct Port {
    /// The number of its network: not 0, FFFFFFFEh or FFFFFFFFh.
    pub network: Network,
    /// Its node there: not the broadcast.
    pub node: Node,
    /// Ticks (eighteenths of a second) that a packet takes to cross the network: at least 1.
    pub cost: u16,
    /// Bytes of the longest packet that may leave there, its 30 header bytes included: at least 576.
    pub longest: u16,
    /// The most routes in the table that came by it: [`NO_LIMIT`] for any number. 0 learns none.
    pub routes: u16,
    /// The most services, likewise.
    pub services: u16,
}

impl Port {
    /// A port of cost 1, for packets of 576 bytes, without limits.
    pub fn new(network: impl Into<Network>, node: Node) -> Port {
        Port { network: network.into(), node, cost: 1, longest: 576, routes: NO_LIMIT, services: NO_LIMIT }
    }

    pub(crate) fn raw(&self) -> sys::ipxr_port {
        let Port { network, node, cost, longest, routes, services } = *self;
        sys::ipxr_port { network: network.0, node: node.0, cost, longest, routes, services }
    }
}

/// A packet to be sent, without its bytes.
#[derive(Clone, Copy, Debug, PartialEq, Eq)]
pub struct Sent {
    /// The number of the port on which it leaves.
    pub port: u8,
    /// The node of the next hop on that port's network, or all nodes.
    pub node: Node,
    /// How many bytes it has.
    pub length: usize,
}

/// A packet to be sent.
#[derive(Clone, Debug, PartialEq, Eq)]
pub struct Packet {
    /// The number of the port on which it leaves.
    pub port: u8,
    /// The node of the next hop on that port's network, or all nodes.
    pub node: Node,
    /// Its bytes, from the checksum on.
    pub bytes: Vec<u8>,
}

/// A route that was learned.
#[derive(Clone, Copy, Debug, PartialEq, Eq)]
pub struct Route {
    /// Where it leads.
    pub network: Network,
    /// Routers on the way, as the neighbour advertised it: under 16.
    pub hops: u16,
    /// Ticks for the way, likewise.
    pub ticks: u16,
    /// The neighbour that advertised it.
    pub neighbour: Node,
    /// The port by which it came.
    pub port: u8,
    /// Seconds since it was advertised last.
    pub age: u8,
}

/// A service that was learned.
#[derive(Clone, Copy, Debug, PartialEq, Eq)]
pub struct Service {
    /// Its name.
    pub name: Name,
    /// Its type, such as 4 for a file server.
    pub kind: u16,
    /// Where it is offered.
    pub address: Address,
    /// Routers on the way, as the neighbour advertised it: under 16.
    pub hops: u16,
    /// The neighbour that advertised it.
    pub neighbour: Node,
    /// The port by which it came.
    pub port: u8,
    /// Seconds since it was advertised last.
    pub age: u8,
}

/// A router. It is freed when it is dropped.
///
/// Each event returns what became of it, and may leave packets to be sent: fetch them with [`take_sent`](Router::take_sent).
///
/// ```
/// use ipxr::{Node, Outcome, Port, Router};
///
/// let mut router = Router::new(&[Port::new(0x10, Node([0, 0, 0, 0, 0, 1])), Port::new(0x20, Node([0, 0, 0, 0, 0, 2]))])?;
/// router.start()?;
/// assert_eq!(router.take_sent()?.len(), 6);
/// assert_eq!(router.packet(0, b"no packet")?, Outcome::MALFORMED_SHORT);
/// assert_eq!(router.second()?, Outcome::TICKED);
/// # Ok::<(), ipxr::Fault>(())
/// ```
#[derive(Debug)]
pub struct Router {
    handle: sys::ipxr,
}

// SAFETY: a handle may move from thread to thread between calls; `&mut self` sees to one call at a time.
unsafe impl Send for Router {}

impl Router {
    /// A router of these ports, numbered from 0. It is stopped.
    ///
    /// It takes up to [`sys::IPXR_STACK`] bytes of stack, and nothing sees whether they are there: give a thread so many.
    pub fn new(ports: &[Port]) -> Result<Router, Fault> {
        let ports: Vec<_> = ports.iter().map(Port::raw).collect();
        let mut router = Router { handle: sys::ipxr::ZERO };
        // SAFETY: the handle is empty, and pointer and length are a slice's.
        done(unsafe { sys::ipxr_make(&mut router.handle, ports.as_ptr(), ports.len()) })?;
        Ok(router)
    }

    /// Starts it: [`Outcome::STARTED`] or [`Outcome::ALREADY_RUNNING`]. All ports are up.
    pub fn start(&mut self) -> Result<Outcome, Fault> {
        // SAFETY: here and below the handle is one that only these calls change.
        outcome(unsafe { sys::ipxr_start(&mut self.handle) })
    }

    /// Stops it. What it learned is forgotten, and advertised as unreachable.
    pub fn stop(&mut self) -> Result<Outcome, Fault> {
        outcome(unsafe { sys::ipxr_stop(&mut self.handle) })
    }

    /// A second has passed. Call it once for each second of your clock, late ones too.
    pub fn second(&mut self) -> Result<Outcome, Fault> {
        outcome(unsafe { sys::ipxr_second(&mut self.handle) })
    }

    /// A packet arrived on a port: the IPX packet from its checksum on, with any padding.
    pub fn packet(&mut self, port: u8, bytes: &[u8]) -> Result<Outcome, Fault> {
        // SAFETY: pointer and length are a slice's, which lies apart from the handle.
        outcome(unsafe { sys::ipxr_packet(&mut self.handle, port, bytes.as_ptr(), bytes.len()) })
    }

    /// A port lost its link.
    pub fn port_down(&mut self, port: u8) -> Result<Outcome, Fault> {
        outcome(unsafe { sys::ipxr_port_down(&mut self.handle, port) })
    }

    /// A port has its link again.
    pub fn port_up(&mut self, port: u8) -> Result<Outcome, Fault> {
        outcome(unsafe { sys::ipxr_port_up(&mut self.handle, port) })
    }

    /// Whether it runs.
    pub fn is_running(&mut self) -> bool {
        unsafe { sys::ipxr_is_running(&mut self.handle) == 1 }
    }

    /// Whether it runs and the port is up.
    pub fn is_up(&mut self, port: u8) -> Result<bool, Fault> {
        whether(unsafe { sys::ipxr_is_up(&mut self.handle, port) })
    }

    /// The packets to be sent, which are then removed.
    pub fn take_sent(&mut self) -> Result<Vec<Packet>, Fault> {
        let packets = (0..self.sent()).map(|index| self.packet_sent(index)).collect();
        self.clear();
        packets
    }

    /// How many packets there are to be sent. With [`get`](Router::get) and [`clear`](Router::clear) it serves who wants no memory of
    /// Rust's.
    pub fn sent(&mut self) -> usize {
        unsafe { sys::ipxr_sent(&mut self.handle) }
    }

    /// Copies packet number `index` to the front of a buffer. A buffer as long as the longest port allows is always long enough.
    pub fn get(&mut self, index: usize, buffer: &mut [u8]) -> Result<Sent, Fault> {
        let mut sent = sys::ipxr_packet_sent::ZERO;
        // SAFETY: pointer and length are a slice's, which lies apart from the handle.
        done(unsafe { sys::ipxr_get(&mut self.handle, index, &mut sent, buffer.as_mut_ptr(), buffer.len()) })?;
        Ok(Sent { port: sent.port, node: Node(sent.node), length: sent.length })
    }

    /// Removes all packets to be sent.
    pub fn clear(&mut self) {
        unsafe { sys::ipxr_clear(&mut self.handle) }
    }

    fn packet_sent(&mut self, index: usize) -> Result<Packet, Fault> {
        let mut sent = sys::ipxr_packet_sent::ZERO;
        let mut none = [0; 1];
        // SAFETY: the call only tells the length, since the buffer has none.
        unsafe { sys::ipxr_get(&mut self.handle, index, &mut sent, none.as_mut_ptr(), 0) };
        let mut bytes = vec![0; sent.length];
        let sent = self.get(index, &mut bytes)?;
        Ok(Packet { port: sent.port, node: sent.node, bytes })
    }

    /// The routes that it learned, by network.
    pub fn routes(&mut self) -> Result<Vec<Route>, Fault> {
        let count = unsafe { sys::ipxr_routes(&mut self.handle) };
        (0..count).map(|index| self.route(index)).collect()
    }

    fn route(&mut self, index: usize) -> Result<Route, Fault> {
        let mut it = sys::ipxr_route_record::ZERO;
        checked(unsafe { sys::ipxr_route(&mut self.handle, index, &mut it) })?;
        let (network, neighbour) = (Network(it.network), Node(it.node));
        Ok(Route { network, hops: it.hops, ticks: it.ticks, neighbour, port: it.port, age: it.age })
    }

    /// The services that it learned, by type and name.
    pub fn services(&mut self) -> Result<Vec<Service>, Fault> {
        let count = unsafe { sys::ipxr_services(&mut self.handle) };
        (0..count).map(|index| self.service(index)).collect()
    }

    fn service(&mut self, index: usize) -> Result<Service, Fault> {
        let mut it = sys::ipxr_service_record::ZERO;
        checked(unsafe { sys::ipxr_service(&mut self.handle, index, &mut it) })?;
        Ok(Service {
            name: Name::read(it.name),
            kind: it.r#type,
            address: Address { network: Network(it.network), node: Node(it.node), socket: Socket(it.socket) },
            hops: it.hops,
            neighbour: Node(it.neighbour),
            port: it.port,
            age: it.age,
        })
    }

    /// The handle, for the calls of [`sys`]. It stays this value's own.
    pub fn raw(&mut self) -> *mut sys::ipxr {
        &mut self.handle
    }
}

impl Drop for Router {
    fn drop(&mut self) {
        // SAFETY: it has one router or none, and nobody else has it.
        unsafe { sys::ipxr_free(&mut self.handle) };
    }
}
