//! What a packet passes between a cable and the router's port on it. `docs/EDGE.md` explains all of it.
//!
//! ```
//! use ipxr::edge::{self, Rule, Way};
//! use ipxr::{Address, Node, Port, packets};
//!
//! let port = Port::new(0x10, "00:00:00:00:00:01".parse()?);
//! let rules = [Rule::deny_type(20)];
//! let from = Address::new(0, [0, 0, 0x1B, 0, 0, 7], 0x4003); // it doesn't know its network's number
//! let mut bytes = packets::write_packet(&from, &Address::new(0x20, [0, 0, 0x1B, 0, 0, 9], 0x451), 17, 0, b"hello")?;
//! assert!(edge::enter(&port, &mut bytes)?);
//! let passes = edge::filter(Way::In, &port, &rules, &mut bytes)?;
//! assert_eq!(passes, 35); // hand the router so many bytes of it
//! assert_eq!(packets::read(&bytes).ok_or("no packet")?.from.network, port.network);
//! # Ok::<(), Box<dyn std::error::Error>>(())
//! ```
use crate::answers::{done, whether};
use crate::packets::{written, RouteEntry, ServiceEntry};
use crate::sys;
use crate::{Fault, Name, Network, Node, Port, Socket};
use alloc::vec::Vec;

const ROOM: usize = 576;

/// The way of a packet.
#[derive(Clone, Copy, Debug, PartialEq, Eq, Hash)]
pub enum Way {
    /// From a cable to the router.
    In,
    /// From the router to a cable.
    Out,
}

impl Way {
    fn number(self) -> u8 {
        match self {
            Way::In => sys::IPXR_WAY_IN,
            Way::Out => sys::IPXR_WAY_OUT,
        }
    }
}

/// Which services a rule names.
#[derive(Clone, Copy, Debug, PartialEq, Eq)]
pub enum Names {
    /// All, also those without a name.
    All,
    /// The one of that name.
    Is(Name),
    /// Those whose name begins so.
    Begin(Name),
}

/// A rule of a filter.
///
/// ```
/// use ipxr::edge::{Names, Rule, Way};
/// use ipxr::Network;
///
/// let rules = [
///     Rule::permit_services(Way::In, 4, Names::Begin("LAB".parse()?)),
///     Rule::deny_services(Way::In, 4, Names::All),
///     Rule::deny_routes(Way::Out, Network(0xA0), Network(0xAF)),
/// ];
/// # Ok::<(), ipxr::WrongText>(())
/// ```
#[derive(Clone, Copy, Debug, PartialEq, Eq)]
pub struct Rule(sys::ipxr_rule);

impl Rule {
    const NONE: sys::ipxr_rule = sys::ipxr_rule::ZERO;

    fn of_type(permits: u8, kind: u8) -> Rule {
        Rule(sys::ipxr_rule { permits, what: sys::IPXR_RULE_TYPE, r#type: kind.into(), ..Rule::NONE })
    }

    fn of_socket(permits: u8, socket: Socket) -> Rule {
        Rule(sys::ipxr_rule { permits, what: sys::IPXR_RULE_SOCKET, socket: socket.0, ..Rule::NONE })
    }

    fn of_nearest(permits: u8) -> Rule {
        Rule(sys::ipxr_rule { permits, what: sys::IPXR_RULE_NEAREST, ..Rule::NONE })
    }

    fn of_routes(permits: u8, way: Way, first: Network, last: Network) -> Rule {
        let (way, from, to) = (way.number(), first.0, last.0);
        Rule(sys::ipxr_rule { permits, what: sys::IPXR_RULE_ROUTES, way, from, to, ..Rule::NONE })
    }

    fn of_services(permits: u8, way: Way, kind: u16, which: Names) -> Rule {
        let (names, name) = match which {
            Names::All => (sys::IPXR_NAMES_ALL, [0; 48]),
            Names::Is(name) => (sys::IPXR_NAMES_IS, name.raw()),
            Names::Begin(name) => (sys::IPXR_NAMES_BEGIN, name.raw()),
        };
        Rule(sys::ipxr_rule { permits, what: sys::IPXR_RULE_SERVICES, way: way.number(), names, r#type: kind, name, ..Rule::NONE })
    }

    /// Packets of a type pass, in and out; 20 are NetBIOS broadcasts.
    pub fn permit_type(kind: u8) -> Rule {
        Rule::of_type(1, kind)
    }

    /// They don't.
    pub fn deny_type(kind: u8) -> Rule {
        Rule::of_type(0, kind)
    }

    /// Packets from a socket or to it pass, in and out.
    pub fn permit_socket(socket: Socket) -> Rule {
        Rule::of_socket(1, socket)
    }

    /// They don't.
    pub fn deny_socket(socket: Socket) -> Rule {
        Rule::of_socket(0, socket)
    }

    /// Queries for the nearest service pass that come in.
    pub fn permit_nearest() -> Rule {
        Rule::of_nearest(1)
    }

    /// They don't.
    pub fn deny_nearest() -> Rule {
        Rule::of_nearest(0)
    }

    /// Routes to the networks of a range pass.
    pub fn permit_routes(way: Way, first: Network, last: Network) -> Rule {
        Rule::of_routes(1, way, first, last)
    }

    /// They don't.
    pub fn deny_routes(way: Way, first: Network, last: Network) -> Rule {
        Rule::of_routes(0, way, first, last)
    }

    /// Services of a type with those names pass; FFFFh is every type.
    pub fn permit_services(way: Way, kind: u16, names: Names) -> Rule {
        Rule::of_services(1, way, kind, names)
    }

    /// They don't.
    pub fn deny_services(way: Way, kind: u16, names: Names) -> Rule {
        Rule::of_services(0, way, kind, names)
    }

    /// The rule of values as C has them, such as those that a configuration's line says; [`filter`] refuses what is none.
    pub fn of(values: sys::ipxr_rule) -> Rule {
        Rule(values)
    }
}

/// Whether a packet comes in from a cable: then its numbers are filled in. Otherwise it is held, and stays as it was.
pub fn enter(port: &Port, bytes: &mut [u8]) -> Result<bool, Fault> {
    // SAFETY: here and below pointers and lengths are those of slices and values that lie apart.
    whether(unsafe { sys::ipxr_edge_enter(&port.raw(), bytes.as_mut_ptr(), bytes.len()) })
}

/// Whether it is held: it is for RIP or SAP on the port's network, and came through a router.
pub fn is_held(port: &Port, bytes: &[u8]) -> Result<bool, Fault> {
    whether(unsafe { sys::ipxr_edge_is_held(&port.raw(), bytes.as_ptr(), bytes.len()) })
}

/// Fills in the port's network in the place of 0, held or not.
pub fn number(port: &Port, bytes: &mut [u8]) -> Result<(), Fault> {
    done(unsafe { sys::ipxr_edge_number(&port.raw(), bytes.as_mut_ptr(), bytes.len()) })
}

/// Filters a packet by rules: the first that names something decides, and what none names is permitted. Returns how many bytes of it pass;
/// 0 if nothing does.
pub fn filter(way: Way, port: &Port, rules: &[Rule], bytes: &mut [u8]) -> Result<usize, Fault> {
    let rules: Vec<_> = rules.iter().map(|it| it.0).collect();
    let (mut passes, way, port) = (0, way.number(), port.raw());
    let (list, count, length) = (rules.as_ptr(), rules.len(), bytes.len());
    done(unsafe { sys::ipxr_edge_filter(way, &port, list, count, bytes.as_mut_ptr(), length, &mut passes) })?;
    Ok(passes)
}

/// The other number that a neighbour claims for the cable by a packet that came from there.
pub fn claim(port: &Port, bytes: &[u8]) -> Result<Option<Network>, Fault> {
    let mut network = 0;
    let claims = whether(unsafe { sys::ipxr_edge_claim(&port.raw(), bytes.as_ptr(), bytes.len(), &mut network) })?;
    Ok(claims.then_some(Network(network)))
}

/// Whether a packet that goes out on the port is the router's answer to a query for the nearest service, and names none that is nearer than
/// `hops`.
pub fn is_needless(port: &Port, hops: u16, bytes: &[u8]) -> Result<bool, Fault> {
    whether(unsafe { sys::ipxr_edge_is_needless(&port.raw(), hops, bytes.as_ptr(), bytes.len()) })
}

/// Writes a response of routes as if the node had sent it to all routers on the port's network: hand it to the router each minute.
///
/// ```
/// use ipxr::packets::RouteEntry;
/// use ipxr::{Network, Port, edge};
///
/// let port = Port::new(0x10, "00:00:00:00:00:01".parse()?);
/// let route = RouteEntry { network: Network(0xA1), hops: 2, ticks: 3 };
/// let response = edge::write_routes(&port, "00:00:1B:02:04:AA".parse()?, &[route])?;
/// assert_eq!(response.len(), 40);
/// # Ok::<(), Box<dyn std::error::Error>>(())
/// ```
pub fn write_routes(port: &Port, node: Node, routes: &[RouteEntry]) -> Result<Vec<u8>, Fault> {
    let routes: Vec<_> = routes.iter().map(RouteEntry::raw).collect();
    written(ROOM, |buffer, room| unsafe {
        sys::ipxr_edge_write_routes(&port.raw(), node.as_ptr(), routes.as_ptr(), routes.len(), buffer, room)
    })
}

/// The same of services, to all servers and routers there.
pub fn write_services(port: &Port, node: Node, services: &[ServiceEntry]) -> Result<Vec<u8>, Fault> {
    let services: Vec<_> = services.iter().map(ServiceEntry::raw).collect();
    written(ROOM, |buffer, room| unsafe {
        sys::ipxr_edge_write_services(&port.raw(), node.as_ptr(), services.as_ptr(), services.len(), buffer, room)
    })
}
