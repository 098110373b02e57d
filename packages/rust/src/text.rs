//! Addresses and names, and their text.
use crate::sys;
use alloc::string::String;
use core::fmt;
use core::net::{Ipv4Addr, SocketAddrV4};
use core::str::FromStr;

/// Text that isn't what it should be.
///
/// ```
/// assert_eq!("12345".parse::<ipxr::Node>().unwrap_err().to_string(), "a node has twelve hexadecimal digits");
/// ```
#[derive(Clone, Copy, Debug, PartialEq, Eq)]
pub struct WrongText(&'static str);

impl fmt::Display for WrongText {
    fn fmt(&self, f: &mut fmt::Formatter<'_>) -> fmt::Result {
        f.write_str(self.0)
    }
}

impl core::error::Error for WrongText {}

/// The number of a network. Its text has up to eight hexadecimal digits.
///
/// ```
/// use ipxr::Network;
///
/// assert_eq!("10".parse(), Ok(Network(0x10)));
/// assert_eq!(Network(0x10).to_string(), "00000010");
/// ```
#[derive(Clone, Copy, Debug, Default, PartialEq, Eq, PartialOrd, Ord, Hash)]
pub struct Network(pub u32);

/// A socket. Its text has up to four hexadecimal digits.
///
/// ```
/// use ipxr::Socket;
///
/// assert_eq!("453".parse(), Ok(Socket::RIP));
/// assert_eq!(Socket::SAP.to_string(), "0452");
/// ```
#[derive(Clone, Copy, Debug, Default, PartialEq, Eq, PartialOrd, Ord, Hash)]
pub struct Socket(pub u16);

/// A node on a network: the address of a card, a client of a tunnel, or all nodes. Its text has twelve hexadecimal digits, with colons
/// between each two or without; `{:#}` writes the colons.
///
/// ```
/// use ipxr::Node;
///
/// let node: Node = "02:00:C0:A8:00:01".parse()?;
/// assert_eq!(node, Node([0x02, 0, 0xC0, 0xA8, 0, 1]));
/// assert_eq!(node.to_string(), "0200C0A80001");
/// assert_eq!(format!("{node:#}"), "02:00:C0:A8:00:01");
/// # Ok::<(), ipxr::WrongText>(())
/// ```
#[derive(Clone, Copy, Debug, Default, PartialEq, Eq, PartialOrd, Ord, Hash)]
pub struct Node(pub [u8; 6]);

/// A socket on a node of a network. Its text is the three with a point between each two.
///
/// ```
/// use ipxr::{Address, Network, Node, Socket};
///
/// let server: Address = "10.0200C0A80001.451".parse()?;
/// assert_eq!(server, Address { network: Network(0x10), node: Node([2, 0, 0xC0, 0xA8, 0, 1]), socket: Socket(0x451) });
/// assert_eq!(server.to_string(), "00000010.0200C0A80001.0451");
/// # Ok::<(), ipxr::WrongText>(())
/// ```
#[derive(Clone, Copy, Debug, Default, PartialEq, Eq, PartialOrd, Ord, Hash)]
pub struct Address {
    /// The network; 0 is the one at hand.
    pub network: Network,
    /// The node there, or all.
    pub node: Node,
    /// The socket there.
    pub socket: Socket,
}

/// Where a datagram of a tunnel comes from or goes to: an address of IPv4 and a port of UDP.
///
/// ```
/// use ipxr::Place;
/// use std::net::SocketAddrV4;
///
/// let place: Place = "192.168.1.7:2130".parse()?;
/// assert_eq!(SocketAddrV4::from(place).port(), 2130);
/// assert_eq!(place.to_string(), "192.168.1.7:2130");
/// # Ok::<(), ipxr::WrongText>(())
/// ```
#[derive(Clone, Copy, Debug, Default, PartialEq, Eq, PartialOrd, Ord, Hash)]
pub struct Place(pub [u8; 6]);

/// The name of a service: 1 to 47 bytes.
///
/// ```
/// use ipxr::Name;
///
/// let name: Name = "FILES".parse()?;
/// assert_eq!(name.bytes(), b"FILES");
/// assert_eq!(name.to_string(), "FILES");
/// # Ok::<(), ipxr::WrongText>(())
/// ```
#[derive(Clone, Copy, Debug, PartialEq, Eq, PartialOrd, Ord, Hash)]
pub struct Name([u8; 48]);

impl Network {
    /// The network at hand.
    pub const LOCAL: Network = Network(0);
    /// All networks, of a request for routes.
    pub const ALL: Network = Network(0xFFFF_FFFF);
}

impl Socket {
    /// Where routing information goes to.
    pub const RIP: Socket = Socket(sys::IPXR_RIP_SOCKET);
    /// Where service advertising goes to.
    pub const SAP: Socket = Socket(sys::IPXR_SAP_SOCKET);
}

impl Node {
    /// All nodes of a network.
    pub const ALL: Node = Node([sys::IPXR_BROADCAST_BYTE; 6]);

    pub(crate) fn as_ptr(&self) -> *const u8 {
        self.0.as_ptr()
    }
}

impl Address {
    /// The address of these three.
    pub fn new(network: impl Into<Network>, node: impl Into<Node>, socket: impl Into<Socket>) -> Address {
        Address { network: network.into(), node: node.into(), socket: socket.into() }
    }

    pub(crate) fn raw(&self) -> sys::ipxr_address {
        sys::ipxr_address { network: self.network.0, node: self.node.0, socket: self.socket.0 }
    }
}

impl Name {
    /// The name of these bytes.
    pub fn new(bytes: &[u8]) -> Result<Name, WrongText> {
        let mut name = [0; 48];
        if bytes.is_empty() || bytes.len() >= name.len() || bytes.contains(&0) {
            return Err(WrongText("a name has 1 to 47 bytes, and no zero"));
        }
        name[..bytes.len()].copy_from_slice(bytes);
        Ok(Name(name))
    }

    /// Its bytes, without the zeros behind.
    pub fn bytes(&self) -> &[u8] {
        let end = self.0.iter().position(|it| *it == 0).unwrap_or(self.0.len());
        &self.0[..end]
    }

    pub(crate) fn raw(&self) -> [u8; 48] {
        self.0
    }

    /// The name in 48 bytes that the library wrote.
    pub(crate) fn read(bytes: [u8; 48]) -> Name {
        Name(bytes)
    }
}

/// The number that hexadecimal digits are, at most so many.
fn hexadecimal(text: &str, digits: usize, wrong: &'static str) -> Result<u32, WrongText> {
    let mut number = 0;
    // SAFETY: pointer and length are the text's.
    let is_one = unsafe { sys::ipxr_settings_hexadecimal(text.as_ptr(), text.len(), digits, &mut number) };
    if is_one {
        Ok(number)
    } else {
        Err(WrongText(wrong))
    }
}

impl FromStr for Network {
    type Err = WrongText;

    fn from_str(text: &str) -> Result<Network, WrongText> {
        hexadecimal(text, 8, "a network has up to eight hexadecimal digits").map(Network)
    }
}

impl FromStr for Socket {
    type Err = WrongText;

    fn from_str(text: &str) -> Result<Socket, WrongText> {
        hexadecimal(text, 4, "a socket has up to four hexadecimal digits").map(|it| Socket(it as u16))
    }
}

impl FromStr for Node {
    type Err = WrongText;

    fn from_str(text: &str) -> Result<Node, WrongText> {
        let mut node = [0; 6];
        // SAFETY: pointer and length are the text's, and the node has six bytes.
        let is_one = unsafe { sys::ipxr_settings_node(text.as_ptr(), text.len(), node.as_mut_ptr()) };
        if is_one {
            Ok(Node(node))
        } else {
            Err(WrongText("a node has twelve hexadecimal digits"))
        }
    }
}

impl FromStr for Address {
    type Err = WrongText;

    fn from_str(text: &str) -> Result<Address, WrongText> {
        let mut parts = text.split('.');
        let (Some(network), Some(node), Some(socket), None) = (parts.next(), parts.next(), parts.next(), parts.next()) else {
            return Err(WrongText("an address is a network, a node and a socket, with a point between each two"));
        };
        Ok(Address { network: network.parse()?, node: node.parse()?, socket: socket.parse()? })
    }
}

impl FromStr for Place {
    type Err = WrongText;

    fn from_str(text: &str) -> Result<Place, WrongText> {
        let place: SocketAddrV4 =
            text.parse().map_err(|_| WrongText("a place is an address of IPv4 and a port, such as 192.168.1.7:2130"))?;
        Ok(place.into())
    }
}

impl FromStr for Name {
    type Err = WrongText;

    fn from_str(text: &str) -> Result<Name, WrongText> {
        Name::new(text.as_bytes())
    }
}

impl fmt::Display for Network {
    fn fmt(&self, f: &mut fmt::Formatter<'_>) -> fmt::Result {
        write!(f, "{:08X}", self.0)
    }
}

impl fmt::Display for Socket {
    fn fmt(&self, f: &mut fmt::Formatter<'_>) -> fmt::Result {
        write!(f, "{:04X}", self.0)
    }
}

impl fmt::Display for Node {
    fn fmt(&self, f: &mut fmt::Formatter<'_>) -> fmt::Result {
        for (number, byte) in self.0.iter().enumerate() {
            let between = if number > 0 && f.alternate() { ":" } else { "" };
            write!(f, "{between}{byte:02X}")?;
        }
        Ok(())
    }
}

impl fmt::Display for Address {
    fn fmt(&self, f: &mut fmt::Formatter<'_>) -> fmt::Result {
        write!(f, "{}.{}.{}", self.network, self.node, self.socket)
    }
}

impl fmt::Display for Place {
    fn fmt(&self, f: &mut fmt::Formatter<'_>) -> fmt::Result {
        SocketAddrV4::from(*self).fmt(f)
    }
}

impl fmt::Display for Name {
    fn fmt(&self, f: &mut fmt::Formatter<'_>) -> fmt::Result {
        f.pad(&String::from_utf8_lossy(self.bytes()))
    }
}

impl From<u32> for Network {
    fn from(number: u32) -> Network {
        Network(number)
    }
}

impl From<u16> for Socket {
    fn from(number: u16) -> Socket {
        Socket(number)
    }
}

impl From<[u8; 6]> for Node {
    fn from(bytes: [u8; 6]) -> Node {
        Node(bytes)
    }
}

/// A client's node in a [`Tunnel`](crate::Tunnel) is its place.
impl From<Place> for Node {
    fn from(place: Place) -> Node {
        Node(place.0)
    }
}

impl From<SocketAddrV4> for Place {
    fn from(place: SocketAddrV4) -> Place {
        let ([a, b, c, d], [high, low]) = (place.ip().octets(), place.port().to_be_bytes());
        Place([a, b, c, d, high, low])
    }
}

impl From<Place> for SocketAddrV4 {
    fn from(place: Place) -> SocketAddrV4 {
        let [a, b, c, d, high, low] = place.0;
        SocketAddrV4::new(Ipv4Addr::new(a, b, c, d), u16::from_be_bytes([high, low]))
    }
}
