//! Made of `ipxr.h` by tools/lib/rust_sys.py: change that, and make it again.

use core::ffi::c_void;

/// The most that one router can have. A full table learns no further network or service.
pub const IPXR_MOST_PORTS: usize = 32;
/// The most that one router can have. A full table learns no further network or service.
pub const IPXR_MOST_ROUTES: usize = 2048;
/// The most that one router can have. A full table learns no further network or service.
pub const IPXR_MOST_SERVICES: usize = 1024;
/// For how many seconds a router believes what a neighbour told it, if nothing more is heard of it.
pub const IPXR_LIFETIME: u8 = 180;
/// The broadcast node is six bytes of this.
pub const IPXR_BROADCAST_BYTE: u8 = 255;
/// A share that limits nothing.
pub const IPXR_NO_LIMIT: u16 = 65535;
/// Bytes enough for the words of any answer, with the 0 after them.
pub const IPXR_MOST_WORD: usize = 32;
/// Bytes of stack for a thread that makes these calls. ipxr_make needs the most: before a router's tables are in their
/// block, it holds them on the stack up to three times, 17 bytes a route and 77 a service. So it is 384 KB as
/// delivered, and 64 KB for small tables. All other calls take less than 16 KB, whatever the tables.
pub const IPXR_STACK: usize = 393216;
/// the router runs from now on
pub const IPXR_STARTED: i32 = 0;
/// it was running; nothing was done
pub const IPXR_ALREADY_RUNNING: i32 = 1;
/// it is stopped, and forgot what it learned
pub const IPXR_STOPPED: i32 = 2;
/// a second passed
pub const IPXR_TICKED: i32 = 3;
/// a response was accepted, even if it taught nothing: worse or unreachable offers, own networks, no room
pub const IPXR_LEARNED: i32 = 4;
/// a request or a query was heard; also if nothing is sent
pub const IPXR_ANSWERED: i32 = 5;
/// the packet goes on towards its network
pub const IPXR_FORWARDED: i32 = 6;
/// the packet goes on to each other network that is up, uncrossed and allows its length, if any
pub const IPXR_PROPAGATED: i32 = 7;
/// the port is down from now on
pub const IPXR_WENT_DOWN: i32 = 8;
/// the port is up from now on
pub const IPXR_CAME_UP: i32 = 9;
/// the port was down; nothing was done
pub const IPXR_ALREADY_DOWN: i32 = 10;
/// the port was up; nothing was done
pub const IPXR_ALREADY_UP: i32 = 11;
/// the router is stopped
pub const IPXR_NOT_RUNNING: i32 = 100;
/// under 30 bytes
pub const IPXR_MALFORMED_SHORT: i32 = 201;
/// a length under 30
pub const IPXR_MALFORMED_LENGTH_SMALL: i32 = 202;
/// a length beyond the bytes
pub const IPXR_MALFORMED_LENGTH_BEYOND: i32 = 203;
/// from the port itself
pub const IPXR_OWN_ECHO: i32 = 300;
/// from the broadcast node
pub const IPXR_BAD_SOURCE: i32 = 400;
/// propagated, no room for the networks crossed
pub const IPXR_CROSSED_SHORT: i32 = 500;
/// propagated, has crossed eight or more networks
pub const IPXR_CROSSED_FULL: i32 = 600;
/// propagated, has crossed the port's network
pub const IPXR_CROSSED_SEEN: i32 = 700;
/// for another node of the port's network
pub const IPXR_ELSEWHERE: i32 = 800;
/// for a socket that the router doesn't serve
pub const IPXR_OTHER_SOCKET: i32 = 900;
/// for the router, from another network
pub const IPXR_NOT_NEIGHBOUR: i32 = 1000;
/// RIP: under 2 bytes
pub const IPXR_BAD_RIP_SHORT: i32 = 1101;
/// RIP: neither a request nor a response
pub const IPXR_BAD_RIP_OPERATION: i32 = 1102;
/// RIP: no entry
pub const IPXR_BAD_RIP_NO_ENTRY: i32 = 1103;
/// RIP: over 50 entries
pub const IPXR_BAD_RIP_TOO_MANY: i32 = 1104;
/// SAP: under 2 bytes, or a query under 4
pub const IPXR_BAD_SAP_SHORT: i32 = 1201;
/// SAP: neither a query nor a response
pub const IPXR_BAD_SAP_OPERATION: i32 = 1202;
/// SAP: no entry
pub const IPXR_BAD_SAP_NO_ENTRY: i32 = 1203;
/// SAP: over 7 entries
pub const IPXR_BAD_SAP_TOO_MANY: i32 = 1204;
/// an answer to a query for the nearest service, which routers don't ask
pub const IPXR_NEAREST_REPLY: i32 = 1300;
/// came through sixteen routers or more
pub const IPXR_TOO_MANY_ROUTERS: i32 = 1400;
/// for another port of this router
pub const IPXR_FAR_SIDE: i32 = 1500;
/// for a network to which there is no route
pub const IPXR_NO_ROUTE: i32 = 1600;
/// to be forwarded, and longer than the outgoing port allows
pub const IPXR_TOO_LONG: i32 = 1700;
/// came on a port that is down
pub const IPXR_DOWN_PORT: i32 = 1800;
/// no drop of this version has a higher number
pub const IPXR_LAST_DROP: i32 = 1800;
/// the handle has no router
pub const IPXR_NO_ROUTER: i32 = -1;
/// there is no port of that number
pub const IPXR_NO_PORT: i32 = -2;
/// there is no packet of that number
pub const IPXR_NO_PACKET: i32 = -3;
/// there is no route or service of that number
pub const IPXR_NO_RECORD: i32 = -4;
/// the packet is longer than the buffer; ipxr_get gives its length
pub const IPXR_SHORT_BUFFER: i32 = -5;
/// the allocator refused; the call can be made again
pub const IPXR_OUT_OF_MEMORY: i32 = -6;
/// a port's longest packet is under 576 bytes
pub const IPXR_BAD_LONGEST: i32 = -11;
/// a port's cost is 0
pub const IPXR_BAD_COST: i32 = -12;
/// a port's network is 0, FFFFFFFEh or FFFFFFFFh
pub const IPXR_BAD_NETWORK: i32 = -13;
/// a port's node is the broadcast
pub const IPXR_BAD_NODE: i32 = -14;
/// there are no ports
pub const IPXR_NO_PORTS: i32 = -15;
/// there are more than IPXR_MOST_PORTS
pub const IPXR_MANY_PORTS: i32 = -16;
/// two ports are on one network
pub const IPXR_SAME_NETWORK: i32 = -17;
/// neither a request nor a response
pub const IPXR_BAD_OPERATION: i32 = -21;
/// there is no route or service to write
pub const IPXR_NO_ENTRIES: i32 = -22;
/// there are more routes or services than a packet may have
pub const IPXR_MANY_ENTRIES: i32 = -23;
/// a service's name is empty, or has no 0 behind it
pub const IPXR_BAD_NAME: i32 = -24;
/// with its data the packet would have more than 65,535 bytes
pub const IPXR_LONG_PACKET: i32 = -25;
/// it carries none
pub const IPXR_NO_FRAME: u8 = 0;
/// its type is 8137h
pub const IPXR_FRAME_ETHERNET2: u8 = 1;
/// behind a length: Novell's own kind, for packets without a checksum (FFFFh there)
pub const IPXR_FRAME_RAW: u8 = 2;
/// behind a length and the 802.2 header E0 E0 03
pub const IPXR_FRAME_LLC: u8 = 3;
/// behind a length and the 802.2 header AA AA 03 00 00 00 81 37
pub const IPXR_FRAME_SNAP: u8 = 4;
/// how many kinds there are: their numbers are 1 to this one, which a new kind raises
pub const IPXR_FRAME_KINDS: u8 = 4;
/// Bytes of the shortest and of the longest frame that is written, without the checksum that a card adds.
pub const IPXR_SHORTEST_FRAME: usize = 60;
/// Bytes of the shortest and of the longest frame that is written, without the checksum that a card adds.
pub const IPXR_LONGEST_FRAME: usize = 1514;
/// The sockets to which routing information and service advertising go, and from which routers send them.
pub const IPXR_RIP_SOCKET: u16 = 1107;
/// The sockets to which routing information and service advertising go, and from which routers send them.
pub const IPXR_SAP_SOCKET: u16 = 1106;
/// The operations of routing information.
pub const IPXR_RIP_REQUEST: u16 = 1;
/// The operations of routing information.
pub const IPXR_RIP_RESPONSE: u16 = 2;
/// The most routes, and the most services, of one packet. 576 bytes are room enough for them.
pub const IPXR_PACKET_ROUTES: usize = 50;
/// The most routes, and the most services, of one packet. 576 bytes are room enough for them.
pub const IPXR_PACKET_SERVICES: usize = 7;
/// The version of this interface: its major number times 65536, plus its minor number. This header is of IPXR_VERSION.
pub const IPXR_VERSION: u32 = 65538;

/// A router, or none. Begin with IPXR_NONE, pass its address to the calls, and don't look inside.
#[repr(C)]
#[derive(Debug)]
pub struct ipxr {
    pub made: bool,
    pub at: *mut c_void,
}

impl ipxr {
    /// All its bytes are 0.
    pub const ZERO: ipxr = ipxr {
        made: false,
        at: core::ptr::null_mut(),
    };
}

/// A port, as it is given to ipxr_make.
#[repr(C)]
#[derive(Clone, Copy, Debug, PartialEq, Eq)]
pub struct ipxr_port {
    /// the number of its network: not 0, not FFFFFFFEh, not FFFFFFFFh
    pub network: u32,
    /// its node there: not the broadcast
    pub node: [u8; 6],
    /// ticks (eighteenths of a second) that a packet takes to cross the network: at least 1
    pub cost: u16,
    /// bytes of the longest packet that may leave there, its 30 header bytes included: at least 576
    pub longest: u16,
    /// the most routes in the table that came by it: IPXR_NO_LIMIT for any number. 0 learns none
    pub routes: u16,
    /// the most services, likewise
    pub services: u16,
}

impl ipxr_port {
    /// All its bytes are 0.
    pub const ZERO: ipxr_port = ipxr_port {
        network: 0,
        node: [0; 6],
        cost: 0,
        longest: 0,
        routes: 0,
        services: 0,
    };
}

/// A packet to be sent, without its bytes.
#[repr(C)]
#[derive(Clone, Copy, Debug, PartialEq, Eq)]
pub struct ipxr_packet_sent {
    /// how many bytes it has
    pub length: usize,
    /// the number of the port on which it leaves, from 0
    pub port: u8,
    /// the node of the next hop on that port's network, or the broadcast
    pub node: [u8; 6],
}

impl ipxr_packet_sent {
    /// All its bytes are 0.
    pub const ZERO: ipxr_packet_sent = ipxr_packet_sent {
        length: 0,
        port: 0,
        node: [0; 6],
    };
}

/// A route that was learned.
#[repr(C)]
#[derive(Clone, Copy, Debug, PartialEq, Eq)]
pub struct ipxr_route_record {
    /// where it leads
    pub network: u32,
    /// routers on the way, as the neighbour advertised it: under 16
    pub hops: u16,
    /// ticks for the way, likewise
    pub ticks: u16,
    /// the neighbour that advertised it
    pub node: [u8; 6],
    /// the port by which it came
    pub port: u8,
    /// seconds since it was advertised last: under IPXR_LIFETIME
    pub age: u8,
}

impl ipxr_route_record {
    /// All its bytes are 0.
    pub const ZERO: ipxr_route_record = ipxr_route_record {
        network: 0,
        hops: 0,
        ticks: 0,
        node: [0; 6],
        port: 0,
        age: 0,
    };
}

/// A service that was learned.
#[repr(C)]
#[derive(Clone, Copy, Debug, PartialEq, Eq)]
pub struct ipxr_service_record {
    /// its name, 1 to 47 bytes, and zeros behind
    pub name: [u8; 48],
    /// where it is offered: network, node and socket
    pub network: u32,
    pub node: [u8; 6],
    pub socket: u16,
    /// its type, such as 4 for a file server
    pub r#type: u16,
    /// routers on the way, as the neighbour advertised it: under 16
    pub hops: u16,
    /// the neighbour that advertised it
    pub neighbour: [u8; 6],
    /// the port by which it came
    pub port: u8,
    /// seconds since it was advertised last: under IPXR_LIFETIME
    pub age: u8,
}

impl ipxr_service_record {
    /// All its bytes are 0.
    pub const ZERO: ipxr_service_record = ipxr_service_record {
        name: [0; 48],
        network: 0,
        node: [0; 6],
        socket: 0,
        r#type: 0,
        hops: 0,
        neighbour: [0; 6],
        port: 0,
        age: 0,
    };
}

/// An address, of a packet that is written: a socket on a node of a network.
#[repr(C)]
#[derive(Clone, Copy, Debug, PartialEq, Eq)]
pub struct ipxr_address {
    /// 0 is the network at hand
    pub network: u32,
    /// or the broadcast
    pub node: [u8; 6],
    pub socket: u16,
}

impl ipxr_address {
    /// All its bytes are 0.
    pub const ZERO: ipxr_address = ipxr_address {
        network: 0,
        node: [0; 6],
        socket: 0,
    };
}

/// A route of a packet that is written.
#[repr(C)]
#[derive(Clone, Copy, Debug, PartialEq, Eq)]
pub struct ipxr_route_entry {
    /// where it leads, or, in a request, what is asked for: FFFFFFFFh is all
    pub network: u32,
    /// routers on the way: 16 where it is unreachable, and FFFFh in a request
    pub hops: u16,
    /// ticks for the way: FFFFh in a request
    pub ticks: u16,
}

impl ipxr_route_entry {
    /// All its bytes are 0.
    pub const ZERO: ipxr_route_entry = ipxr_route_entry {
        network: 0,
        hops: 0,
        ticks: 0,
    };
}

/// A service of a packet that is written: its fields are the first of an ipxr_service_record.
#[repr(C)]
#[derive(Clone, Copy, Debug, PartialEq, Eq)]
pub struct ipxr_service_entry {
    /// its name, 1 to 47 bytes, and a 0 behind: the rest is written as zeros
    pub name: [u8; 48],
    /// where it is offered: network, node and socket
    pub network: u32,
    pub node: [u8; 6],
    pub socket: u16,
    /// its type, such as 4 for a file server
    pub r#type: u16,
    /// routers on the way: 1 of a server's own service, and 16 where it is unreachable
    pub hops: u16,
}

impl ipxr_service_entry {
    /// All its bytes are 0.
    pub const ZERO: ipxr_service_entry = ipxr_service_entry {
        name: [0; 48],
        network: 0,
        node: [0; 6],
        socket: 0,
        r#type: 0,
        hops: 0,
    };
}

extern "C" {
    /// Makes a router of `count` ports, which are numbered from 0. It is stopped, its tables are empty, and it has
    /// nothing to send. The ports are copied. A router that the handle had is freed, but only if the new one could be
    /// made. Returns 0, or the first fault: IPXR_NO_PORTS, IPXR_MANY_PORTS; of the first wrong port IPXR_BAD_LONGEST,
    /// IPXR_BAD_COST, IPXR_BAD_NETWORK or IPXR_BAD_NODE, in this order; IPXR_SAME_NETWORK; IPXR_OUT_OF_MEMORY. Then the
    /// handle is as it was.
    pub fn ipxr_make(router: *mut ipxr, ports: *const ipxr_port, count: usize) -> i32;
    /// Frees the router, if there is one; the handle then has none. Packets that it still had to send are lost.
    pub fn ipxr_free(router: *mut ipxr);
    /// Starts it: IPXR_STARTED or IPXR_ALREADY_RUNNING. All ports are up.
    pub fn ipxr_start(router: *mut ipxr) -> i32;
    /// Stops it: IPXR_STOPPED or IPXR_NOT_RUNNING. What it learned is forgotten, and advertised as unreachable.
    pub fn ipxr_stop(router: *mut ipxr) -> i32;
    /// A second has passed: IPXR_TICKED or IPXR_NOT_RUNNING. Call it once for each second of your clock, late ones too.
    pub fn ipxr_second(router: *mut ipxr) -> i32;
    /// A packet arrived on a port. `bytes` is the IPX packet from its checksum on, any bytes at all, without what
    /// carried it; they are only read, and only during the call.
    pub fn ipxr_packet(router: *mut ipxr, port: u8, bytes: *const u8, length: usize) -> i32;
    /// A port lost its link, or has it again: IPXR_WENT_DOWN or IPXR_ALREADY_DOWN, IPXR_CAME_UP or IPXR_ALREADY_UP;
    /// IPXR_NOT_RUNNING.
    pub fn ipxr_port_down(router: *mut ipxr, port: u8) -> i32;
    /// A port lost its link, or has it again: IPXR_WENT_DOWN or IPXR_ALREADY_DOWN, IPXR_CAME_UP or IPXR_ALREADY_UP;
    /// IPXR_NOT_RUNNING.
    pub fn ipxr_port_up(router: *mut ipxr, port: u8) -> i32;
    /// How many there are; 0 without a router.
    pub fn ipxr_sent(router: *mut ipxr) -> usize;
    /// Copies packet number `index`, counted from 0: its length, port and next hop into `sent`, its bytes to the front
    /// of `buffer`, which has room for `room` bytes; the rest of the buffer stays as it was. Returns 0. With
    /// IPXR_SHORT_BUFFER `sent` is filled all the same, and no byte is copied; with IPXR_NO_ROUTER and IPXR_NO_PACKET
    /// both stay as they were. A buffer as long as the longest port allows, and no shorter than 576, is always long
    /// enough.
    pub fn ipxr_get(router: *mut ipxr, index: usize, sent: *mut ipxr_packet_sent, buffer: *mut u8, room: usize) -> i32;
    /// Removes all of them. Their memory is kept for the next ones.
    pub fn ipxr_clear(router: *mut ipxr);
    /// 1 if it runs, 0 if it is stopped; IPXR_NO_ROUTER.
    pub fn ipxr_is_running(router: *mut ipxr) -> i32;
    /// 1 if the router runs and the port is up, 0 if not; IPXR_NO_ROUTER, IPXR_NO_PORT.
    pub fn ipxr_is_up(router: *mut ipxr, port: u8) -> i32;
    /// How many routes and services it has; 0 without a router.
    pub fn ipxr_routes(router: *mut ipxr) -> usize;
    /// How many routes and services it has; 0 without a router.
    pub fn ipxr_services(router: *mut ipxr) -> usize;
    /// Copies route number `index` by network, or service number `index` by type and name, each counted from 0. Returns
    /// 0; with IPXR_NO_ROUTER and IPXR_NO_RECORD `record` stays as it was.
    pub fn ipxr_route(router: *mut ipxr, index: usize, record: *mut ipxr_route_record) -> i32;
    /// Copies route number `index` by network, or service number `index` by type and name, each counted from 0. Returns
    /// 0; with IPXR_NO_ROUTER and IPXR_NO_RECORD `record` stays as it was.
    pub fn ipxr_service(router: *mut ipxr, index: usize, record: *mut ipxr_service_record) -> i32;
    /// Returns how the frame carries a packet, and puts into `front` how many bytes stand before the packet. Give
    /// ipxr_packet all bytes from there to the frame's end: it finds by itself what is padding. With IPXR_NO_FRAME
    /// `front` stays as it was. A frame begins with its six bytes of destination and six of source; check yourself that
    /// it is for you, and not your own.
    pub fn ipxr_frame_read(frame: *const u8, length: usize, front: *mut usize) -> u8;
    /// Writes the frame in which a packet is sent to a node from a node: its type, or its length and header, the
    /// packet, and zeros up to IPXR_SHORTEST_FRAME. Returns its length; the rest of the buffer stays as it was. Returns
    /// 0, and writes nothing, if `kind` is none of these, header and packet are more than 1,500 bytes, the frame is
    /// longer than `room`, or a raw frame would carry a packet with a checksum, since nobody would recognize it as IPX.
    pub fn ipxr_frame_write(kind: u8, to: *const u8, from: *const u8, packet: *const u8, length: usize, frame: *mut u8, room: usize) -> usize;
    /// Writes a request or a response of routing information, with `count` routes: 32 bytes, and 8 for each.
    /// IPXR_BAD_OPERATION, IPXR_NO_ENTRIES, IPXR_MANY_ENTRIES, IPXR_SHORT_BUFFER.
    pub fn ipxr_write_rip(from: *const ipxr_address, to: *const ipxr_address, operation: u16, routes: *const ipxr_route_entry, count: usize, buffer: *mut u8, room: usize) -> i32;
    /// Writes a query for the services of a type, or of every type, which is FFFFh: for all of them if `nearest` is 0,
    /// otherwise for the nearest one. It has 34 bytes. IPXR_SHORT_BUFFER.
    pub fn ipxr_write_query(from: *const ipxr_address, to: *const ipxr_address, nearest: u8, r#type: u16, buffer: *mut u8, room: usize) -> i32;
    /// Writes a response of `count` services: a general one if `nearest` is 0, otherwise an answer to a query for the
    /// nearest service. It has 32 bytes, and 64 for each. IPXR_NO_ENTRIES, IPXR_MANY_ENTRIES, IPXR_BAD_NAME,
    /// IPXR_SHORT_BUFFER.
    pub fn ipxr_write_sap(from: *const ipxr_address, to: *const ipxr_address, nearest: u8, services: *const ipxr_service_entry, count: usize, buffer: *mut u8, room: usize) -> i32;
    /// Writes a packet of any type: 30 bytes, and its data. `control` is how many routers it came through: 0 for a new
    /// packet. The data of type 20, NetBIOS, begin with 32 bytes of room for the networks crossed: the first `control`
    /// places have one each. In a new packet all are zeros. IPXR_LONG_PACKET, IPXR_SHORT_BUFFER.
    pub fn ipxr_write_packet(from: *const ipxr_address, to: *const ipxr_address, r#type: u8, control: u8, data: *const u8, length: usize, buffer: *mut u8, room: usize) -> i32;
    /// Copies the words of an answer into `buffer`, which has room for `room` bytes, with a 0 after them: for an event
    /// its outcome, such as "forwarded"; for a drop what `ipxr replay` prints, such as "drop NoRoute" or "drop
    /// Malformed:Short"; for a fault what it is, such as "no such port". Returns their length without the 0. If words
    /// and 0 don't fit, nothing is copied. A number that isn't in this header has no words: it returns 0.
    /// IPXR_MOST_WORD bytes are always enough.
    pub fn ipxr_word(answer: i32, buffer: *mut u8, room: usize) -> usize;
    /// The version of this interface: its major number times 65536, plus its minor number. This header is of
    /// IPXR_VERSION.
    pub fn ipxr_version() -> u32;
}
