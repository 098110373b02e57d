//! Made of `ipxr_configuration.h` by tools/lib/rust_sys.py: change that, and make it again.

use super::{ipxr_rule, ipxr_setting, ipxr_setting_host, ipxr_setting_range, ipxr_static_route, ipxr_static_service};

/// the most networks of a configuration, with the router's own; a library for fewer ports takes no more than these
pub const IPXR_ALL_NETWORKS: usize = 32;
/// the most links of all networks together
pub const IPXR_ALL_LINKS: usize = 64;
/// the most sockets that a network extends
pub const IPXR_ALL_SOCKETS: usize = 16;
/// the most ranges of a list
pub const IPXR_ALL_RANGES: usize = 16;
/// the most origins of a link
pub const IPXR_ALL_ORIGINS: usize = 16;
/// the most other places of a network
pub const IPXR_ALL_PEERS: usize = 32;
/// the most rules of a network, as many as a filter has
pub const IPXR_ALL_RULES: usize = 64;
/// the most routes by way of nodes on a network,
pub const IPXR_ALL_STATIC_ROUTES: usize = 64;
/// and services
pub const IPXR_ALL_STATIC_SERVICES: usize = 64;
/// a network above
pub const IPXR_EXPECTED_BELOW_NETWORK: u8 = 32;
/// a link above: there is none yet below the network's line
pub const IPXR_EXPECTED_BELOW_LINK: u8 = 33;
/// a network of DOSBox' above, or one of clients by WebSocket
pub const IPXR_EXPECTED_BELOW_TUNNEL: u8 = 34;
/// a link of DOSBox' above, or one of clients by WebSocket
pub const IPXR_EXPECTED_BELOW_TUNNEL_LINK: u8 = 35;
/// above, a network that names no link itself
pub const IPXR_EXPECTED_BELOW_SEVERAL: u8 = 36;
/// at most IPXR_MOST_PORTS networks, with the router's own
pub const IPXR_EXPECTED_FEWER_NETWORKS: u8 = 37;
/// at most IPXR_ALL_LINKS links
pub const IPXR_EXPECTED_FEWER_LINKS: u8 = 38;
/// at most IPXR_MOST_LINKS links of the network
pub const IPXR_EXPECTED_FEWER_LINKS_OF_NETWORK: u8 = 39;
/// another network than that of `line`, which is a network's or leads there by a route
pub const IPXR_EXPECTED_OTHER_NETWORK: u8 = 40;
/// another link: `line` has all kinds of frames there
pub const IPXR_EXPECTED_OTHER_LINK: u8 = 41;
/// one kind of frames: `line` has another there
pub const IPXR_EXPECTED_ONE_KIND: u8 = 42;
/// another kind of frames: `line` has this one there
pub const IPXR_EXPECTED_OTHER_KIND: u8 = 43;
/// another address to come in at: `line` has this one
pub const IPXR_EXPECTED_OTHER_PORT: u8 = 44;
/// another address to go to: this one is the link's own
pub const IPXR_EXPECTED_OTHER_MACHINE: u8 = 45;
/// packets of at most numbers\[1\] bytes on this link, and not of numbers\[0\]
pub const IPXR_EXPECTED_LONGEST_OF_LINK: u8 = 46;
/// that no other line says it: `line` does
pub const IPXR_EXPECTED_ONCE: u8 = 47;
/// the kilobits numbers\[0\], as `line` says them
pub const IPXR_EXPECTED_SAME_KILOBITS: u8 = 48;
/// a socket that isn't there already
pub const IPXR_EXPECTED_OTHER_SOCKET: u8 = 49;
/// at most IPXR_ALL_SOCKETS sockets
pub const IPXR_EXPECTED_FEWER_SOCKETS: u8 = 50;
/// at most IPXR_ALL_RANGES ranges, or IPXR_ALL_ORIGINS origins
pub const IPXR_EXPECTED_FEWER_RANGES: u8 = 51;
/// at most IPXR_ALL_RULES rules
pub const IPXR_EXPECTED_FEWER_RULES: u8 = 60;
/// at most IPXR_ALL_STATIC_ROUTES routes (61 to 67 are in ipxr_settings.h)
pub const IPXR_EXPECTED_FEWER_ROUTES: u8 = 68;
/// at most IPXR_ALL_STATIC_SERVICES services
pub const IPXR_EXPECTED_FEWER_SERVICES: u8 = 69;
/// another name of a service: `line` has one of the type with this one
pub const IPXR_EXPECTED_OTHER_SERVICE: u8 = 70;
/// below a link by WebSocket (71 to 76 are in ipxr_settings.h)
pub const IPXR_EXPECTED_BELOW_WEB: u8 = 77;
/// in a network with a link of peers or by RFC 1234 above (78 and 79 are in ipxr_settings.h)
pub const IPXR_EXPECTED_BELOW_PEERS: u8 = 80;
/// another place: `line` has this one
pub const IPXR_EXPECTED_OTHER_PEER: u8 = 81;
/// at most IPXR_ALL_PEERS other places
pub const IPXR_EXPECTED_FEWER_PEERS: u8 = 82;
/// an address of IPv4, as the link's own is
pub const IPXR_EXPECTED_PEER_OF_FOUR: u8 = 83;
/// one of IPv6, alike
pub const IPXR_EXPECTED_PEER_OF_SIX: u8 = 84;
/// another link: `line` has the network's link of peers
pub const IPXR_EXPECTED_ONE_PEERS: u8 = 85;
/// on the line of a network: the link is the only one of its network
pub const IPXR_EXPECTED_OWN_LINE: u8 = 86;

/// What carries a link.
#[repr(C)]
#[derive(Clone, Copy, Debug, PartialEq, Eq)]
pub struct ipxr_carrier {
    /// one of IPXR_OVER_..
    pub number: u8,
    /// one of IPXR_FRAME_.., or IPXR_NO_FRAME
    pub frames: u8,
    /// where datagrams and connections come in, or with port 0 the address of the card of a group
    pub local: ipxr_setting_host,
    /// where they go,
    pub remote: ipxr_setting_host,
    /// or the name of the host there, or the path of a switch or of a key's file, with zeros behind it, all of them
    /// where there is none
    pub host: [u8; 254],
    /// of a TAP or an interface, alike
    pub name: [u8; 16],
}

impl ipxr_carrier {
    /// All its bytes are 0.
    pub const ZERO: ipxr_carrier = ipxr_carrier {
        number: 0,
        frames: 0,
        local: ipxr_setting_host::ZERO,
        remote: ipxr_setting_host::ZERO,
        host: [0; 254],
        name: [0; 16],
    };
}

/// Sockets and ranges, in the order of their words.
#[repr(C)]
#[derive(Clone, Copy, Debug, PartialEq, Eq)]
pub struct ipxr_sockets {
    pub list: [u16; 16],
    pub count: usize,
}

impl ipxr_sockets {
    /// All its bytes are 0.
    pub const ZERO: ipxr_sockets = ipxr_sockets {
        list: [0; 16],
        count: 0,
    };
}

#[repr(C)]
#[derive(Clone, Copy, Debug, PartialEq, Eq)]
pub struct ipxr_setting_ranges {
    pub list: [ipxr_setting_range; 16],
    pub count: usize,
}

impl ipxr_setting_ranges {
    /// All its bytes are 0.
    pub const ZERO: ipxr_setting_ranges = ipxr_setting_ranges {
        list: [ipxr_setting_range::ZERO; 16],
        count: 0,
    };
}

/// Origins of pages, alike.
#[repr(C)]
#[derive(Clone, Copy, Debug, PartialEq, Eq)]
pub struct ipxr_origin {
    /// with zeros behind it
    pub text: [u8; 89],
}

impl ipxr_origin {
    /// All its bytes are 0.
    pub const ZERO: ipxr_origin = ipxr_origin {
        text: [0; 89],
    };
}

#[repr(C)]
#[derive(Clone, Copy, Debug, PartialEq, Eq)]
pub struct ipxr_origins {
    pub list: [ipxr_origin; 16],
    pub count: usize,
}

impl ipxr_origins {
    /// All its bytes are 0.
    pub const ZERO: ipxr_origins = ipxr_origins {
        list: [ipxr_origin::ZERO; 16],
        count: 0,
    };
}

/// Another place of a network.
#[repr(C)]
#[derive(Clone, Copy, Debug, PartialEq, Eq)]
pub struct ipxr_setting_peer {
    /// the number of the line that says it
    pub line: usize,
    /// where it is,
    pub at: ipxr_setting_host,
    /// or the name of the host there, with zeros behind it, all of them where there is none
    pub host: [u8; 254],
}

impl ipxr_setting_peer {
    /// All its bytes are 0.
    pub const ZERO: ipxr_setting_peer = ipxr_setting_peer {
        line: 0,
        at: ipxr_setting_host::ZERO,
        host: [0; 254],
    };
}

/// Those of a network, in the order of their lines: no two are the same.
#[repr(C)]
#[derive(Clone, Copy, Debug, PartialEq, Eq)]
pub struct ipxr_setting_peers {
    pub list: [ipxr_setting_peer; 32],
    pub count: usize,
}

impl ipxr_setting_peers {
    /// All its bytes are 0.
    pub const ZERO: ipxr_setting_peers = ipxr_setting_peers {
        list: [ipxr_setting_peer::ZERO; 32],
        count: 0,
    };
}

/// Rules, in the order of their lines.
#[repr(C)]
#[derive(Clone, Copy, Debug, PartialEq, Eq)]
pub struct ipxr_rules {
    pub list: [ipxr_rule; 64],
    pub count: usize,
}

impl ipxr_rules {
    /// All its bytes are 0.
    pub const ZERO: ipxr_rules = ipxr_rules {
        list: [ipxr_rule::ZERO; 64],
        count: 0,
    };
}

/// Routes and services by way of nodes on a network, in the order of their lines. No two routes lead to one network,
/// and no two services of one type have one name.
#[repr(C)]
#[derive(Clone, Copy, Debug, PartialEq, Eq)]
pub struct ipxr_static_routes {
    pub list: [ipxr_static_route; 64],
    pub count: usize,
}

impl ipxr_static_routes {
    /// All its bytes are 0.
    pub const ZERO: ipxr_static_routes = ipxr_static_routes {
        list: [ipxr_static_route::ZERO; 64],
        count: 0,
    };
}

#[repr(C)]
#[derive(Clone, Copy, Debug, PartialEq, Eq)]
pub struct ipxr_static_services {
    pub list: [ipxr_static_service; 64],
    pub count: usize,
}

impl ipxr_static_services {
    /// All its bytes are 0.
    pub const ZERO: ipxr_static_services = ipxr_static_services {
        list: [ipxr_static_service::ZERO; 64],
        count: 0,
    };
}

/// What lines below a link say. `line` is the number of the line, or 0 where none says it.
#[repr(C)]
#[derive(Clone, Copy, Debug, PartialEq, Eq)]
pub struct ipxr_clients_said {
    pub line: usize,
    pub all: u16,
    pub of_address: u16,
}

impl ipxr_clients_said {
    /// All its bytes are 0.
    pub const ZERO: ipxr_clients_said = ipxr_clients_said {
        line: 0,
        all: 0,
        of_address: 0,
    };
}

#[repr(C)]
#[derive(Clone, Copy, Debug, PartialEq, Eq)]
pub struct ipxr_rate_said {
    pub line: usize,
    pub rate: u32,
    pub share: u32,
    pub household: u32,
}

impl ipxr_rate_said {
    /// All its bytes are 0.
    pub const ZERO: ipxr_rate_said = ipxr_rate_said {
        line: 0,
        rate: 0,
        share: 0,
        household: 0,
    };
}

#[repr(C)]
#[derive(Clone, Copy, Debug, PartialEq, Eq)]
pub struct ipxr_number_said {
    pub line: usize,
    pub number: u32,
}

impl ipxr_number_said {
    /// All its bytes are 0.
    pub const ZERO: ipxr_number_said = ipxr_number_said {
        line: 0,
        number: 0,
    };
}

/// What a network's own line says.
#[repr(C)]
#[derive(Debug, PartialEq, Eq)]
pub struct ipxr_network_setting {
    pub line: usize,
    /// how many links stand above it
    pub first: usize,
    pub has_link: bool,
    pub number: u32,
    pub cost: u16,
    pub longest: u16,
    pub has_shares: bool,
    pub routes: u16,
    pub services: u16,
    /// its links stand in lines below it
    pub is_of_several: bool,
    pub has_node: bool,
    pub node: [u8; 6],
    pub sockets: ipxr_sockets,
    /// the number of the line that says that what comes from the cable is taken as it is, or 0
    pub adopt_line: usize,
    pub rules: ipxr_rules,
    pub static_routes: ipxr_static_routes,
    pub static_services: ipxr_static_services,
    pub peers: ipxr_setting_peers,
}

impl ipxr_network_setting {
    /// All its bytes are 0.
    pub const ZERO: ipxr_network_setting = ipxr_network_setting {
        line: 0,
        first: 0,
        has_link: false,
        number: 0,
        cost: 0,
        longest: 0,
        has_shares: false,
        routes: 0,
        services: 0,
        is_of_several: false,
        has_node: false,
        node: [0; 6],
        sockets: ipxr_sockets::ZERO,
        adopt_line: 0,
        rules: ipxr_rules::ZERO,
        static_routes: ipxr_static_routes::ZERO,
        static_services: ipxr_static_services::ZERO,
        peers: ipxr_setting_peers::ZERO,
    };
}

/// What a link's own line says, and those below it.
#[repr(C)]
#[derive(Clone, Copy, Debug, PartialEq, Eq)]
pub struct ipxr_link_setting {
    pub line: usize,
    /// the number of its network among all, from 0
    pub network: usize,
    pub carrier: ipxr_carrier,
    pub clients: ipxr_clients_said,
    pub rate: ipxr_rate_said,
    pub strangers: ipxr_number_said,
    pub kilobits: ipxr_number_said,
    pub allowed: ipxr_setting_ranges,
    pub trusted: ipxr_setting_ranges,
    /// the number of the line that says that clients' nodes may be their addresses, or 0
    pub nodes_line: usize,
    pub origins: ipxr_origins,
}

impl ipxr_link_setting {
    /// All its bytes are 0.
    pub const ZERO: ipxr_link_setting = ipxr_link_setting {
        line: 0,
        network: 0,
        carrier: ipxr_carrier::ZERO,
        clients: ipxr_clients_said::ZERO,
        rate: ipxr_rate_said::ZERO,
        strangers: ipxr_number_said::ZERO,
        kilobits: ipxr_number_said::ZERO,
        allowed: ipxr_setting_ranges::ZERO,
        trusted: ipxr_setting_ranges::ZERO,
        nodes_line: 0,
        origins: ipxr_origins::ZERO,
    };
}

#[repr(C)]
#[derive(Debug, PartialEq, Eq)]
pub struct ipxr_network_list {
    pub list: [ipxr_network_setting; 32],
    pub count: usize,
}

impl ipxr_network_list {
    /// All its bytes are 0.
    pub const ZERO: ipxr_network_list = ipxr_network_list {
        list: [ipxr_network_setting::ZERO; 32],
        count: 0,
    };
}

#[repr(C)]
#[derive(Debug, PartialEq, Eq)]
pub struct ipxr_link_list {
    pub list: [ipxr_link_setting; 64],
    pub count: usize,
}

impl ipxr_link_list {
    /// All its bytes are 0.
    pub const ZERO: ipxr_link_list = ipxr_link_list {
        list: [ipxr_link_setting::ZERO; 64],
        count: 0,
    };
}

/// What a line `internal` says: the router's own network, which no cable carries.
#[repr(C)]
#[derive(Clone, Copy, Debug, PartialEq, Eq)]
pub struct ipxr_internal {
    /// the number of the line, or 0 where none says it
    pub line: usize,
    /// of the network
    pub number: u32,
    /// the router's there: 000000000001 where the line doesn't say it
    pub node: [u8; 6],
}

impl ipxr_internal {
    /// All its bytes are 0.
    pub const ZERO: ipxr_internal = ipxr_internal {
        line: 0,
        number: 0,
        node: [0; 6],
    };
}

/// A configuration, as far as its lines were read. All bytes 0 are that of no line.
#[repr(C)]
#[derive(Debug, PartialEq, Eq)]
pub struct ipxr_configuration {
    pub networks: ipxr_network_list,
    pub links: ipxr_link_list,
    pub internal: ipxr_internal,
    /// what the next line stands below
    pub above: u8,
}

impl ipxr_configuration {
    /// All its bytes are 0.
    pub const ZERO: ipxr_configuration = ipxr_configuration {
        networks: ipxr_network_list::ZERO,
        links: ipxr_link_list::ZERO,
        internal: ipxr_internal::ZERO,
        above: 0,
    };
}

/// What is wrong with a line, but for what was expected there.
#[repr(C)]
#[derive(Clone, Copy, Debug, PartialEq, Eq)]
pub struct ipxr_line_wrong {
    /// the line of the network above, if that ends here and has no link, or 0
    pub unlinked: usize,
    /// the number of the word that is wrong, from 0, where the number of words is the line's end
    pub word: usize,
    /// of another line, or 0
    pub line: usize,
    pub numbers: [u32; 2],
    /// the line stands below a link of DOSBox', or by WebSocket without frames
    pub is_below_tunnel: bool,
}

impl ipxr_line_wrong {
    /// All its bytes are 0.
    pub const ZERO: ipxr_line_wrong = ipxr_line_wrong {
        unlinked: 0,
        word: 0,
        line: 0,
        numbers: [0; 2],
        is_below_tunnel: false,
    };
}

/// A link, with all that lines say of it and of its network, and what holds where none says it.
#[repr(C)]
#[derive(Debug, PartialEq, Eq)]
pub struct ipxr_configured {
    /// the number of the line that names the link,
    pub line: usize,
    /// and of its network's
    pub network_line: usize,
    /// the number of its network among all, from 0: the router's port
    pub port: usize,
    /// of the network
    pub number: u32,
    /// ticks
    pub cost: u16,
    /// bytes of the longest packet
    pub longest: u16,
    /// shares of the tables, or IPXR_NO_LIMIT
    pub routes: u16,
    pub services: u16,
    /// links of the network stand in lines below its own
    pub is_of_several: bool,
    /// the line says the gateway's node there
    pub has_node: bool,
    pub node: [u8; 6],
    pub carrier: ipxr_carrier,
    /// the most clients, of DOSBox' or by WebSocket,
    pub clients: u16,
    /// and of one address
    pub of_address: u16,
    /// packets a second that a client receives, or a link with frames of clients, or 0 for any number
    pub rate: u32,
    /// those of an address that says little
    pub share: u32,
    /// those that all clients of an address receive
    pub household: u32,
    /// datagrams a second for strangers
    pub strangers: u32,
    /// a second, of the line to the clients, or 0 where it isn't narrow
    pub kilobits: u32,
    /// whose broadcasts are extended
    pub sockets: ipxr_sockets,
    /// who may be a client, or none where all may
    pub allowed: ipxr_setting_ranges,
    /// who may be one though he answers no ping
    pub trusted: ipxr_setting_ranges,
    /// where pages may come from whose programs are clients by WebSocket, or none where no line says it
    pub origins: ipxr_origins,
    /// clients' nodes may be their addresses
    pub nodes_by_address: bool,
    /// what comes from the cable goes through ipxr_edge_enter
    pub adopts: bool,
    /// of the network's filter
    pub rules: ipxr_rules,
    /// by way of nodes on the network that say nothing themselves,
    pub static_routes: ipxr_static_routes,
    /// and services
    pub static_services: ipxr_static_services,
    /// other places of the network, or none where no line says one
    pub peers: ipxr_setting_peers,
}

impl ipxr_configured {
    /// All its bytes are 0.
    pub const ZERO: ipxr_configured = ipxr_configured {
        line: 0,
        network_line: 0,
        port: 0,
        number: 0,
        cost: 0,
        longest: 0,
        routes: 0,
        services: 0,
        is_of_several: false,
        has_node: false,
        node: [0; 6],
        carrier: ipxr_carrier::ZERO,
        clients: 0,
        of_address: 0,
        rate: 0,
        share: 0,
        household: 0,
        strangers: 0,
        kilobits: 0,
        sockets: ipxr_sockets::ZERO,
        allowed: ipxr_setting_ranges::ZERO,
        trusted: ipxr_setting_ranges::ZERO,
        origins: ipxr_origins::ZERO,
        nodes_by_address: false,
        adopts: false,
        rules: ipxr_rules::ZERO,
        static_routes: ipxr_static_routes::ZERO,
        static_services: ipxr_static_services::ZERO,
        peers: ipxr_setting_peers::ZERO,
    };
}

extern "C" {
    /// Reads the next line, with its end or without; `line` is its number, from 1. `has_cards` is one of IPXR_CARDS_..,
    /// and any other number is that of all. Tells what its words say, up to the first that is wrong, and what is wrong.
    /// Returns one of IPXR_EXPECTED_..; or 0, and then the line is right, or isn't looked at, since what stands above
    /// it is wrong.
    pub fn ipxr_configuration_line(it: *mut ipxr_configuration, text: *const u8, length: usize, line: usize, has_cards: u8, said: *mut ipxr_setting, wrong: *mut ipxr_line_wrong) -> u8;
    /// The line of the last network, if that has no link though no more lines come; or 0.
    pub fn ipxr_configuration_unlinked(it: *const ipxr_configuration) -> usize;
    /// What a line says of the router's own network, whose number no other network has. Returns whether one does; if
    /// not, `internal` stays as it was.
    pub fn ipxr_configuration_internal(it: *const ipxr_configuration, internal: *mut ipxr_internal) -> bool;
    /// What all lines say of the link with that number, from 0: links of one network stand behind each other. Returns
    /// whether there is one; if not, `link` stays as it was.
    pub fn ipxr_configuration_link(it: *const ipxr_configuration, number: usize, link: *mut ipxr_configured) -> bool;
}
