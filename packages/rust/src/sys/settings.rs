//! Made of `ipxr_settings.h` by tools/lib/rust_sys.py: change that, and make it again.

use super::{ipxr_route_entry, ipxr_rule, ipxr_service_entry};

/// it has no word, or another one
pub const IPXR_SETTING_NONE: u8 = 0;
/// network
pub const IPXR_SETTING_NETWORK: u8 = 1;
/// link
pub const IPXR_SETTING_LINK: u8 = 2;
/// extend: the other words are sockets
pub const IPXR_SETTING_EXTEND: u8 = 3;
/// clients: of `numbers` the most clients, and of one address
pub const IPXR_SETTING_CLIENTS: u8 = 4;
/// allow: the other words are ranges of addresses
pub const IPXR_SETTING_ALLOW: u8 = 5;
/// trust: the same
pub const IPXR_SETTING_TRUST: u8 = 6;
/// rate: of `numbers` the rate, the share, and that of all clients of an address; 0 for none
pub const IPXR_SETTING_RATE: u8 = 7;
/// strangers: of `numbers` the rate; 0 for none
pub const IPXR_SETTING_STRANGERS: u8 = 8;
/// line: of `numbers` the kilobits
pub const IPXR_SETTING_KILOBITS: u8 = 9;
/// nodes: clients' nodes may be their addresses
pub const IPXR_SETTING_NODES: u8 = 10;
/// internal: the router's own network: of `network` the number, and the node
pub const IPXR_SETTING_INTERNAL: u8 = 11;
/// adopt: what comes from the cable is taken as it is
pub const IPXR_SETTING_ADOPT: u8 = 12;
/// permit: `rule`
pub const IPXR_SETTING_PERMIT: u8 = 13;
/// deny: the same
pub const IPXR_SETTING_DENY: u8 = 14;
/// route: `route`
pub const IPXR_SETTING_ROUTE: u8 = 15;
/// service: `service`
pub const IPXR_SETTING_SERVICE: u8 = 16;
/// origins: the other words are origins of pages
pub const IPXR_SETTING_ORIGINS: u8 = 17;
/// peer: of `link` where the other place is, `remote` and `host`
pub const IPXR_SETTING_PEER: u8 = 18;
/// not all of it was read
pub const IPXR_OVER_NONE: u8 = 0;
/// dosbox
pub const IPXR_OVER_TUNNEL: u8 = 1;
/// qemu-udp, or udp
pub const IPXR_OVER_UDP: u8 = 2;
/// qemu-tcp listen
pub const IPXR_OVER_LISTEN: u8 = 3;
/// qemu-tcp connect
pub const IPXR_OVER_CONNECT: u8 = 4;
/// tap
pub const IPXR_OVER_TAP: u8 = 5;
/// interface
pub const IPXR_OVER_INTERFACE: u8 = 6;
/// qemu-mcast: `remote` is the group, and local.four the address of the card by which its frames come and go
pub const IPXR_OVER_GROUP: u8 = 7;
/// vde: `host` is the path of the switch
pub const IPXR_OVER_SWITCH: u8 = 8;
/// web: clients by WebSocket, of DOSBox' datagrams where `frames` is IPXR_NO_FRAME, or else of frames
pub const IPXR_OVER_WEB: u8 = 9;
/// peers: other places, whose datagrams are sealed; `host` is the path of the file with the key
pub const IPXR_OVER_PEERS: u8 = 10;
/// rfc1234: other places by RFC 1234; `local` is the address of a card
pub const IPXR_OVER_RFC1234: u8 = 11;
/// none: the words tap, interface and vde begin no link there
pub const IPXR_CARDS_NONE: u8 = 0;
/// TAPs, Ethernet interfaces and switches of VDE
pub const IPXR_CARDS_ALL: u8 = 1;
/// Ethernet interfaces alone
pub const IPXR_CARDS_INTERFACES: u8 = 2;
/// The kind of frames of a link that has any: the number behind IPXR_FRAME_SNAP.
pub const IPXR_FRAME_ANY: u8 = 5;
/// one of the words that begin a line
pub const IPXR_EXPECTED_LINE: u8 = 1;
/// the number of a network, 1 to FFFFFFFD
pub const IPXR_EXPECTED_NETWORK: u8 = 2;
/// the cost in ticks, 1 to 65535
pub const IPXR_EXPECTED_COST: u8 = 3;
/// the bytes of the longest packet, 576 to 1500
pub const IPXR_EXPECTED_LONGEST: u8 = 4;
/// the most routes, 0 to 65535
pub const IPXR_EXPECTED_ROUTES: u8 = 5;
/// the most services, 0 to 65535
pub const IPXR_EXPECTED_SERVICES: u8 = 6;
/// one of the words that begin a link
pub const IPXR_EXPECTED_LINK: u8 = 7;
/// one of them that this system has: it has no such card or switch
pub const IPXR_EXPECTED_LINK_OF_SYSTEM: u8 = 8;
/// a numeric address with a port, or a port alone
pub const IPXR_EXPECTED_ADDRESS: u8 = 9;
/// one of IPv4: this one is of IPv6
pub const IPXR_EXPECTED_ADDRESS_OF_FOUR: u8 = 10;
/// an address or the name of a host, with a port that isn't 0
pub const IPXR_EXPECTED_REMOTE: u8 = 11;
/// one of IPv4, as the address before it
pub const IPXR_EXPECTED_REMOTE_OF_FOUR: u8 = 12;
/// one of IPv6, as the address before it
pub const IPXR_EXPECTED_REMOTE_OF_SIX: u8 = 13;
/// listen or connect
pub const IPXR_EXPECTED_CONNECTION: u8 = 14;
/// the name of a TAP
pub const IPXR_EXPECTED_TAP: u8 = 15;
/// the name of an interface
pub const IPXR_EXPECTED_INTERFACE: u8 = 16;
/// a kind of frames
pub const IPXR_EXPECTED_FRAMES: u8 = 17;
/// node, or nothing more
pub const IPXR_EXPECTED_NODE_WORD: u8 = 18;
/// a node of one computer
pub const IPXR_EXPECTED_NODE: u8 = 19;
/// nothing more
pub const IPXR_EXPECTED_NOTHING: u8 = 20;
/// a socket, 1 to FFFF
pub const IPXR_EXPECTED_SOCKET: u8 = 21;
/// the most clients, 1 to those of the call
pub const IPXR_EXPECTED_CLIENTS: u8 = 22;
/// the most clients of one address, 1 to the first of `numbers`
pub const IPXR_EXPECTED_OF_ADDRESS: u8 = 23;
/// a rate, 1 to 1,000,000, or none
pub const IPXR_EXPECTED_RATE: u8 = 24;
/// the share of a quiet sender, 1 to the first of `numbers`
pub const IPXR_EXPECTED_SHARE: u8 = 25;
/// what all clients of an address receive, 1 to 1,000,000, or none
pub const IPXR_EXPECTED_HOUSEHOLD: u8 = 26;
/// the datagrams for strangers, 1 to 1,000,000, or none
pub const IPXR_EXPECTED_STRANGERS: u8 = 27;
/// the kilobits a second, 1 to 10,000,000
pub const IPXR_EXPECTED_KILOBITS: u8 = 28;
/// an address of IPv4, and the bits that count
pub const IPXR_EXPECTED_RANGE: u8 = 29;
/// one that is 0 behind its `bits`
pub const IPXR_EXPECTED_FIRST: u8 = 30;
/// at most 32 words
pub const IPXR_EXPECTED_FEWER_WORDS: u8 = 31;
/// by-address (32 to 51 are in ipxr_configuration.h)
pub const IPXR_EXPECTED_BY_ADDRESS: u8 = 52;
/// no
pub const IPXR_EXPECTED_NO: u8 = 53;
/// one of the words that say what a rule names
pub const IPXR_EXPECTED_RULE: u8 = 54;
/// a type of packets, 0 to 255
pub const IPXR_EXPECTED_PACKET_TYPE: u8 = 55;
/// a network, or the first and the last of several, 1 to FFFFFFFE
pub const IPXR_EXPECTED_NETWORKS: u8 = 56;
/// in or out
pub const IPXR_EXPECTED_WAY: u8 = 57;
/// a type of services, 0 to FFFF, or \*
pub const IPXR_EXPECTED_SERVICE_TYPE: u8 = 58;
/// a name of at most 47 bytes, the beginning of one and \*, or \*
pub const IPXR_EXPECTED_SERVICE_NAMES: u8 = 59;
/// the network where a route leads, 1 to FFFFFFFE (60 is in ipxr_configuration.h)
pub const IPXR_EXPECTED_DESTINATION: u8 = 61;
/// the hops of a route or to a service, 1 to 15
pub const IPXR_EXPECTED_HOPS: u8 = 62;
/// the ticks of a route, 1 to 65535
pub const IPXR_EXPECTED_TICKS: u8 = 63;
/// via
pub const IPXR_EXPECTED_VIA: u8 = 64;
/// the type of a service, 1 to FFFE
pub const IPXR_EXPECTED_ONE_TYPE: u8 = 65;
/// the name of a service: 1 to 47 printable characters of ASCII, without a \*
pub const IPXR_EXPECTED_SERVICE_NAME: u8 = 66;
/// where a service is offered: network, node and socket, with a . between each two
pub const IPXR_EXPECTED_SERVICE_ADDRESS: u8 = 67;
/// an address of IPv4 from 224.0.0.0 to 239.255.255.255 with a port that isn't 0 (68 to 70 are in ipxr_configuration.h)
pub const IPXR_EXPECTED_GROUP: u8 = 71;
/// via, or a kind of frames
pub const IPXR_EXPECTED_VIA_OR_FRAMES: u8 = 72;
/// the address of a card: of IPv4, without a port, and not 0.0.0.0, a group's or 255.255.255.255
pub const IPXR_EXPECTED_CARD: u8 = 73;
/// the path of a switch, of 1 to 90 bytes, none of them 0
pub const IPXR_EXPECTED_SWITCH: u8 = 74;
/// a kind of frames, or nothing more
pub const IPXR_EXPECTED_FRAMES_OR_NOTHING: u8 = 75;
/// , or http:// or https:// and 1 to 80 printable characters of ASCII without /
pub const IPXR_EXPECTED_ORIGIN: u8 = 76;
/// the path of a file with a key, of 1 to 253 bytes, none of them 0 (77 is in ipxr_configuration.h)
pub const IPXR_EXPECTED_KEY_FILE: u8 = 78;
/// one like IPXR_EXPECTED_CARD, with a port that isn't 0
pub const IPXR_EXPECTED_CARD_AND_PORT: u8 = 79;
/// of an address with its port
pub const IPXR_LONGEST_ADDRESS: usize = 63;
/// of a link
pub const IPXR_LONGEST_LINK: usize = 348;

/// An address with its port. What isn't said is 0.
#[repr(C)]
#[derive(Clone, Copy, Debug, PartialEq, Eq)]
pub struct ipxr_setting_host {
    /// of IPv4: its four numbers,
    pub four: [u8; 4],
    /// or of IPv6: its eight groups
    pub six: [u16; 8],
    /// 0 where the system is to take a free one
    pub port: u16,
    pub is_six: bool,
}

impl ipxr_setting_host {
    /// All its bytes are 0.
    pub const ZERO: ipxr_setting_host = ipxr_setting_host {
        four: [0; 4],
        six: [0; 8],
        port: 0,
        is_six: false,
    };
}

/// What a line says of a link.
#[repr(C)]
#[derive(Clone, Copy, Debug, PartialEq, Eq)]
pub struct ipxr_setting_link {
    /// one of IPXR_OVER_..
    pub carrier: u8,
    /// one of IPXR_FRAME_.., or IPXR_NO_FRAME
    pub frames: u8,
    /// a word of it was read
    pub has_word: bool,
    /// where datagrams and connections come in, or with port 0 the address of the card of a group
    pub local: ipxr_setting_host,
    /// where they go,
    pub remote: ipxr_setting_host,
    /// or the name of the host there, or the path of a switch or of a key's file, with zeros behind it, all of them
    /// where there is none
    pub host: [u8; 254],
    /// of a TAP or an interface, alike
    pub name: [u8; 16],
}

impl ipxr_setting_link {
    /// All its bytes are 0.
    pub const ZERO: ipxr_setting_link = ipxr_setting_link {
        carrier: 0,
        frames: 0,
        has_word: false,
        local: ipxr_setting_host::ZERO,
        remote: ipxr_setting_host::ZERO,
        host: [0; 254],
        name: [0; 16],
    };
}

/// What a line says of a network; of the router's own, its number and node.
#[repr(C)]
#[derive(Clone, Copy, Debug, PartialEq, Eq)]
pub struct ipxr_setting_network {
    /// 0 where it wasn't read
    pub number: u32,
    /// all before the link was read: these
    pub has_head: bool,
    /// the line says them
    pub has_shares: bool,
    pub cost: u16,
    pub longest: u16,
    pub routes: u16,
    pub services: u16,
    /// the line says the gateway's node there
    pub has_node: bool,
    pub node: [u8; 6],
}

impl ipxr_setting_network {
    /// All its bytes are 0.
    pub const ZERO: ipxr_setting_network = ipxr_setting_network {
        number: 0,
        has_head: false,
        has_shares: false,
        cost: 0,
        longest: 0,
        routes: 0,
        services: 0,
        has_node: false,
        node: [0; 6],
    };
}

/// What a line `route` says: a route by way of a node that says nothing itself. `route` is for ipxr_edge_write_routes.
#[repr(C)]
#[derive(Clone, Copy, Debug, PartialEq, Eq)]
pub struct ipxr_static_route {
    /// the number of the line, or 0 in an ipxr_setting
    pub line: usize,
    pub route: ipxr_route_entry,
    /// the node
    pub via: [u8; 6],
}

impl ipxr_static_route {
    /// All its bytes are 0.
    pub const ZERO: ipxr_static_route = ipxr_static_route {
        line: 0,
        route: ipxr_route_entry::ZERO,
        via: [0; 6],
    };
}

/// What a line `service` says: a service by way of such a node. `service` is for ipxr_edge_write_services.
#[repr(C)]
#[derive(Clone, Copy, Debug, PartialEq, Eq)]
pub struct ipxr_static_service {
    /// the number of the line, or 0 in an ipxr_setting
    pub line: usize,
    pub service: ipxr_service_entry,
    /// the node
    pub via: [u8; 6],
}

impl ipxr_static_service {
    /// All its bytes are 0.
    pub const ZERO: ipxr_static_service = ipxr_static_service {
        line: 0,
        service: ipxr_service_entry::ZERO,
        via: [0; 6],
    };
}

/// What a line says, up to the first word that is wrong.
#[repr(C)]
#[derive(Clone, Copy, Debug, PartialEq, Eq)]
pub struct ipxr_setting {
    /// so many words could be read
    pub read: usize,
    /// one of IPXR_SETTING_..
    pub kind: u8,
    /// see IPXR_EXPECTED_FIRST
    pub bits: u8,
    pub network: ipxr_setting_network,
    /// of a network's line, or of a link's; of a line `peer` its `remote` and `host` alone
    pub link: ipxr_setting_link,
    /// what other lines say
    pub numbers: [u32; 3],
    /// what a rule says, where all its words were read, and else all bytes 0,
    pub rule: ipxr_rule,
    /// what a line `route` says, alike,
    pub route: ipxr_static_route,
    /// and a line `service`
    pub service: ipxr_static_service,
}

impl ipxr_setting {
    /// All its bytes are 0.
    pub const ZERO: ipxr_setting = ipxr_setting {
        read: 0,
        kind: 0,
        bits: 0,
        network: ipxr_setting_network::ZERO,
        link: ipxr_setting_link::ZERO,
        numbers: [0; 3],
        rule: ipxr_rule::ZERO,
        route: ipxr_static_route::ZERO,
        service: ipxr_static_service::ZERO,
    };
}

/// Addresses of IPv4 that begin with the same bits.
#[repr(C)]
#[derive(Clone, Copy, Debug, PartialEq, Eq)]
pub struct ipxr_setting_range {
    /// the first of them, if their other bits are 0
    pub first: [u8; 4],
    /// that all have in common
    pub bits: u8,
}

impl ipxr_setting_range {
    /// All its bytes are 0.
    pub const ZERO: ipxr_setting_range = ipxr_setting_range {
        first: [0; 4],
        bits: 0,
    };
}

extern "C" {
    /// Reads a line, with its end or without. `has_cards` is one of IPXR_CARDS_.., and any other number is that of all;
    /// `is_below_tunnel` is whether the line stands below a link whose clients send datagrams, by `dosbox`, or by `web`
    /// without a kind of frames; and `most_clients` is how many clients a network may have. Returns one of
    /// IPXR_EXPECTED_.., and then the word with the number `said-\>read` is wrong, or the line's end; or 0, and then
    /// the whole line is right.
    pub fn ipxr_settings_line(text: *const u8, length: usize, has_cards: u8, is_below_tunnel: u8, most_clients: u16, said: *mut ipxr_setting) -> u8;
    /// Where the word of a line with that number stands. Returns how many bytes it has; 0 if there is none, and `start`
    /// stays as it was.
    pub fn ipxr_settings_word(text: *const u8, length: usize, number: usize, start: *mut usize) -> usize;
    /// The socket that a word is, 1 to FFFF in hexadecimal digits; 0 if it is none.
    pub fn ipxr_settings_socket(word: *const u8, length: usize) -> u16;
    /// Reads a word of hexadecimal digits, at most so many of them. Returns whether it is one; if not, `number` stays
    /// as it was.
    pub fn ipxr_settings_hexadecimal(word: *const u8, length: usize, digits: usize, number: *mut u32) -> bool;
    /// Reads a word of twelve hexadecimal digits, with colons between each two or without. Returns whether it is one;
    /// if not, `node` stays as it was.
    pub fn ipxr_settings_node(word: *const u8, length: usize, node: *mut u8) -> bool;
    /// Reads a word that is a range: an address of IPv4, alone or with /BITS behind it. Returns whether it is one; if
    /// not, `range` stays as it was.
    pub fn ipxr_settings_range(word: *const u8, length: usize, range: *mut ipxr_setting_range) -> bool;
    /// Writes an address with its port as a line has it, such as 10.0.0.5:213 or \[fd00::5\]:213: IPv6 as RFC 5952 has
    /// it, and an address of IPv4 in it by four numbers. What is read again is the same. Returns how many bytes were
    /// written, without a 0 behind them; 0 if `buffer` has no room for them, and then nothing is written.
    /// IPXR_LONGEST_ADDRESS bytes are always enough.
    pub fn ipxr_settings_address_words(host: *const ipxr_setting_host, buffer: *mut u8, size: usize) -> usize;
    /// Writes the words of a link as a line has them, with a blank between each two: its `carrier` and `frames`, and
    /// what such a carrier has of `local`, `remote`, `host` and `name`. Returns and writes as above; 0 also if it is no
    /// link, by its numbers. IPXR_LONGEST_LINK bytes are always enough.
    pub fn ipxr_settings_link_words(link: *const ipxr_setting_link, buffer: *mut u8, size: usize) -> usize;
}
