//! Packets of your own: written by the library, which is proved; read here, by plain Rust that is only tested.
//!
//! ```
//! use ipxr::packets::{self, RouteEntry};
//! use ipxr::{Address, Node, Socket};
//!
//! let client: Address = "10.0000000000CC.4003".parse()?;
//! let routers = Address::new(0x10, Node::ALL, Socket::RIP);
//! let asks = packets::write_rip(&client, &routers, packets::REQUEST, &[RouteEntry::ALL])?;
//! let header = packets::read(&asks).ok_or("no packet")?;
//! assert_eq!((header.from, header.kind), (client, packets::RIP));
//! assert_eq!(packets::routes(header.data).collect::<Vec<_>>(), [RouteEntry::ALL]);
//! # Ok::<(), Box<dyn std::error::Error>>(())
//! ```
use crate::answers::length;
use crate::sys;
use crate::{Address, Fault, Name, Network, Node, Socket};
use alloc::vec;
use alloc::vec::Vec;

/// The operation of a request of routing information.
pub const REQUEST: u16 = sys::IPXR_RIP_REQUEST;
/// The operation of a response of routing information.
pub const RESPONSE: u16 = sys::IPXR_RIP_RESPONSE;
/// The type of packets with routing information.
pub const RIP: u8 = 1;
/// The type of packets with service advertising.
pub const SAP: u8 = 4;

const HEADER: usize = 30;
const ROOM: usize = 576;
const ROUTE: usize = 8;
const SERVICE: usize = 64;

/// A route of a packet.
#[derive(Clone, Copy, Debug, PartialEq, Eq)]
pub struct RouteEntry {
    /// Where it leads, or, in a request, what is asked for.
    pub network: Network,
    /// Routers on the way: 16 where it is unreachable, and FFFFh in a request.
    pub hops: u16,
    /// Ticks for the way: FFFFh in a request.
    pub ticks: u16,
}

impl RouteEntry {
    /// In a request: all routes.
    pub const ALL: RouteEntry = RouteEntry { network: Network::ALL, hops: 0xFFFF, ticks: 0xFFFF };

    pub(crate) fn raw(&self) -> sys::ipxr_route_entry {
        sys::ipxr_route_entry { network: self.network.0, hops: self.hops, ticks: self.ticks }
    }
}

/// A service of a packet.
#[derive(Clone, Copy, Debug, PartialEq, Eq)]
pub struct ServiceEntry {
    /// Its name.
    pub name: Name,
    /// Its type, such as 4 for a file server.
    pub kind: u16,
    /// Where it is offered.
    pub address: Address,
    /// Routers on the way: 1 of a server's own service, and 16 where it is unreachable.
    pub hops: u16,
}

impl ServiceEntry {
    pub(crate) fn raw(&self) -> sys::ipxr_service_entry {
        let Address { network, node, socket } = self.address;
        let (network, node, socket) = (network.0, node.0, socket.0);
        sys::ipxr_service_entry { name: self.name.raw(), network, node, socket, r#type: self.kind, hops: self.hops }
    }
}

/// A packet whose header was read.
#[derive(Clone, Copy, Debug, PartialEq, Eq)]
pub struct Header<'a> {
    /// The checksum: FFFFh where there is none.
    pub checksum: u16,
    /// How many routers it has crossed.
    pub control: u8,
    /// Its type, such as [`RIP`].
    pub kind: u8,
    /// Its destination.
    pub to: Address,
    /// Its source.
    pub from: Address,
    /// Its data, without padding.
    pub data: &'a [u8],
}

/// Writes a request or a response of routing information, with 1 to 50 routes.
pub fn write_rip(from: &Address, to: &Address, operation: u16, routes: &[RouteEntry]) -> Result<Vec<u8>, Fault> {
    let routes: Vec<_> = routes.iter().map(RouteEntry::raw).collect();
    // SAFETY: here and below pointers and lengths are those of slices and values that lie apart.
    written(ROOM, |buffer, room| unsafe {
        sys::ipxr_write_rip(&from.raw(), &to.raw(), operation, routes.as_ptr(), routes.len(), buffer, room)
    })
}

/// Writes a query for the services of a type, or of every type, which is FFFFh: for all of them, or for the nearest one.
///
/// ```
/// use ipxr::{Address, Node, Socket, packets};
///
/// let asks = packets::write_query(&"10.0000000000CC.4003".parse()?, &Address::new(0x10, Node::ALL, Socket::SAP), true, 4)?;
/// assert_eq!(asks.len(), 34);
/// # Ok::<(), Box<dyn std::error::Error>>(())
/// ```
pub fn write_query(from: &Address, to: &Address, is_nearest: bool, kind: u16) -> Result<Vec<u8>, Fault> {
    written(ROOM, |buffer, room| unsafe { sys::ipxr_write_query(&from.raw(), &to.raw(), is_nearest.into(), kind, buffer, room) })
}

/// Writes a response of 1 to 7 services: a general one, or the answer to a query for the nearest.
///
/// ```
/// use ipxr::packets::{self, ServiceEntry};
/// use ipxr::{Address, Node, Socket};
///
/// let server: Address = "E0.000000000002.451".parse()?;
/// let files = ServiceEntry { name: "FILES".parse()?, kind: 4, address: server, hops: 1 };
/// let offer = packets::write_sap(&server, &Address::new(0xE0, Node::ALL, Socket::SAP), false, &[files])?;
/// let header = packets::read(&offer).ok_or("no packet")?;
/// assert_eq!(packets::services(header.data).collect::<Vec<_>>(), [files]);
/// # Ok::<(), Box<dyn std::error::Error>>(())
/// ```
pub fn write_sap(from: &Address, to: &Address, is_nearest: bool, services: &[ServiceEntry]) -> Result<Vec<u8>, Fault> {
    let services: Vec<_> = services.iter().map(ServiceEntry::raw).collect();
    written(ROOM, |buffer, room| unsafe {
        sys::ipxr_write_sap(&from.raw(), &to.raw(), is_nearest.into(), services.as_ptr(), services.len(), buffer, room)
    })
}

/// Writes a packet of any type. `control` is how many routers it came through: 0 for a new packet.
pub fn write_packet(from: &Address, to: &Address, kind: u8, control: u8, data: &[u8]) -> Result<Vec<u8>, Fault> {
    written(HEADER + data.len(), |buffer, room| unsafe {
        sys::ipxr_write_packet(&from.raw(), &to.raw(), kind, control, data.as_ptr(), data.len(), buffer, room)
    })
}

/// The bytes that a call writes into a room.
pub(crate) fn written(room: usize, write: impl FnOnce(*mut u8, usize) -> i32) -> Result<Vec<u8>, Fault> {
    let mut bytes = vec![0; room];
    let length = length(write(bytes.as_mut_ptr(), room))?;
    bytes.truncate(length);
    Ok(bytes)
}

/// Reads a packet's header. Nothing if the bytes are no packet: fewer than 30, or a length below 30 or beyond them.
pub fn read(bytes: &[u8]) -> Option<Header<'_>> {
    let head: &[u8; HEADER] = bytes.first_chunk()?;
    let end = usize::from(number(&head[2..]));
    let data = bytes.get(HEADER..end)?;
    Some(Header { checksum: number(head), control: head[4], kind: head[5], to: address(&head[6..]), from: address(&head[18..]), data })
}

/// The operation of the data of a packet of routing information, or of service advertising.
pub fn operation(data: &[u8]) -> Option<u16> {
    data.first_chunk::<2>().map(|it| u16::from_be_bytes(*it))
}

/// The routes of the data of a packet of routing information. Bytes behind the last whole one are left out.
pub fn routes(data: &[u8]) -> impl Iterator<Item = RouteEntry> + '_ {
    let entries = data.get(2..).unwrap_or_default().chunks_exact(ROUTE);
    entries.map(|it| RouteEntry { network: network(it), hops: number(&it[4..]), ticks: number(&it[6..]) })
}

/// The services of the data of a response of service advertising. Those without a name are left out, and bytes behind the last whole one.
pub fn services(data: &[u8]) -> impl Iterator<Item = ServiceEntry> + '_ {
    data.get(2..).unwrap_or_default().chunks_exact(SERVICE).filter_map(service)
}

fn service(it: &[u8]) -> Option<ServiceEntry> {
    let name = &it[2..50];
    let end = name.iter().position(|byte| *byte == 0)?;
    let name = Name::new(&name[..end]).ok()?;
    Some(ServiceEntry { name, kind: number(it), address: address(&it[50..]), hops: number(&it[62..]) })
}

/// The number of two bytes.
fn number(bytes: &[u8]) -> u16 {
    u16::from_be_bytes([bytes[0], bytes[1]])
}

fn network(bytes: &[u8]) -> Network {
    Network(u32::from_be_bytes([bytes[0], bytes[1], bytes[2], bytes[3]]))
}

fn address(bytes: &[u8]) -> Address {
    let mut node = [0; 6];
    node.copy_from_slice(&bytes[4..10]);
    Address { network: network(bytes), node: Node(node), socket: Socket(number(&bytes[10..])) }
}
