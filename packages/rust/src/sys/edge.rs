//! Made of `ipxr_edge.h` by tools/lib/rust_sys.py: change that, and make it again.

use super::{ipxr_port, ipxr_route_entry, ipxr_service_entry};

/// a way that is neither in nor out
pub const IPXR_BAD_WAY: i32 = -26;
/// there are more than IPXR_MOST_RULES
pub const IPXR_MANY_RULES: i32 = -27;
/// values that are no rule: ipxr_rule says which are
pub const IPXR_BAD_RULE: i32 = -28;
/// The most rules that one filter has.
pub const IPXR_MOST_RULES: usize = 64;
/// from a cable to the router
pub const IPXR_WAY_IN: u8 = 1;
/// from the router to a cable
pub const IPXR_WAY_OUT: u8 = 2;
/// packets of a type, in and out; 20 are NetBIOS broadcasts
pub const IPXR_RULE_TYPE: u8 = 1;
/// packets from a socket or to it, in and out
pub const IPXR_RULE_SOCKET: u8 = 2;
/// queries for the nearest service that come in
pub const IPXR_RULE_NEAREST: u8 = 3;
/// routes to the networks of a range, that come in or go out
pub const IPXR_RULE_ROUTES: u8 = 4;
/// services of a type with certain names, that come in or go out
pub const IPXR_RULE_SERVICES: u8 = 5;
/// all
pub const IPXR_NAMES_ALL: u8 = 0;
/// one
pub const IPXR_NAMES_IS: u8 = 1;
/// those that begin so
pub const IPXR_NAMES_BEGIN: u8 = 2;

/// A rule. What it names says which of the values behind `what` count; the others may be anything. It is no rule where
/// `permits` is neither 1 nor 0, where `what` or a number that counts is none of those above, where a type of packets
/// is above 255, or where a name that counts is empty or has no 0 behind it. All bytes 0 are no rule.
#[repr(C)]
#[derive(Clone, Copy, Debug, PartialEq, Eq)]
pub struct ipxr_rule {
    /// 1 if it permits what it names, 0 if it denies it
    pub permits: u8,
    /// IPXR_RULE_TYPE and so on
    pub what: u8,
    /// of routes and services: IPXR_WAY_IN or IPXR_WAY_OUT
    pub way: u8,
    /// of services: IPXR_NAMES_ALL and so on
    pub names: u8,
    /// of packets, or of services: FFFFh for every type
    pub r#type: u16,
    /// of packets from a socket or to it
    pub socket: u16,
    /// of routes: the first network of the range,
    pub from: u32,
    /// and the last one
    pub to: u32,
    /// of services: the name, or what it begins with, and a 0 behind
    pub name: [u8; 48],
}

impl ipxr_rule {
    /// All its bytes are 0.
    pub const ZERO: ipxr_rule = ipxr_rule {
        permits: 0,
        what: 0,
        way: 0,
        names: 0,
        r#type: 0,
        socket: 0,
        from: 0,
        to: 0,
        name: [0; 48],
    };
}

extern "C" {
    /// Whether a packet comes in from a cable. Returns 1, and its numbers are filled in; or 0, where it is held, and
    /// stays as it was.
    pub fn ipxr_edge_enter(port: *const ipxr_port, bytes: *mut u8, length: usize) -> i32;
    /// Whether it is held, 1 or 0: it is for RIP or SAP on the port's network, and came through a router.
    pub fn ipxr_edge_is_held(port: *const ipxr_port, bytes: *const u8, length: usize) -> i32;
    /// Fills in the port's network in the place of 0, held or not. Returns 0.
    pub fn ipxr_edge_number(port: *const ipxr_port, bytes: *mut u8, length: usize) -> i32;
    /// Filters a packet that comes in from the port's cable or goes out to it, by `count` rules: the first that names
    /// something decides, and what none names is permitted. Returns 1 if anything passes: the first `\*passes` bytes. A
    /// response of routes or services may have lost some; all else passes whole. Returns 0 if nothing passes:
    /// `\*passes` is 0 then, and the bytes stay as they were. The first fault of IPXR_BAD_WAY, a port's,
    /// IPXR_MANY_RULES and IPXR_BAD_RULE: bytes and `\*passes` stay as they were.
    pub fn ipxr_edge_filter(way: u8, port: *const ipxr_port, rules: *const ipxr_rule, count: usize, bytes: *mut u8, length: usize, passes: *mut usize) -> i32;
    /// Whether a neighbour claims another number for the cable than the port's, by a packet that came from there.
    /// Returns 1, and `\*network` is that number; or 0, and it is 0.
    pub fn ipxr_edge_claim(port: *const ipxr_port, bytes: *const u8, length: usize, network: *mut u32) -> i32;
    /// Whether a packet that goes out on the port is the router's answer to a query for the nearest service, and names
    /// none that is nearer than `hops`: 1 or 0. If a server of that type was heard on this port from the cable itself,
    /// which is 1 hop, give 1, and leave it out.
    pub fn ipxr_edge_is_needless(port: *const ipxr_port, hops: u16, bytes: *const u8, length: usize) -> i32;
    /// Writes a response of `count` routes as if the node had sent it to all routers on the port's network, 32 bytes
    /// and 8 for each: hand it to the router each minute as a packet that came there. Returns how many bytes were
    /// written. The first fault of a port's, IPXR_NO_ENTRIES, IPXR_MANY_ENTRIES and IPXR_SHORT_BUFFER.
    pub fn ipxr_edge_write_routes(port: *const ipxr_port, node: *const u8, routes: *const ipxr_route_entry, count: usize, buffer: *mut u8, room: usize) -> i32;
    /// The same of services, to all servers and routers there, 32 bytes and 64 for each. The first fault of a port's,
    /// IPXR_NO_ENTRIES, IPXR_MANY_ENTRIES, IPXR_BAD_NAME and IPXR_SHORT_BUFFER.
    pub fn ipxr_edge_write_services(port: *const ipxr_port, node: *const u8, services: *const ipxr_service_entry, count: usize, buffer: *mut u8, room: usize) -> i32;
}
