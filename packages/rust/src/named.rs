//! The names of answers. Made of the headers by tools/lib/rust_sys.py: change that, and make it again.

use crate::sys;
use crate::{Fault, Outcome};

impl Outcome {
    /// The router runs from now on.
    pub const STARTED: Outcome = Outcome(sys::IPXR_STARTED);
    /// It was running; nothing was done.
    pub const ALREADY_RUNNING: Outcome = Outcome(sys::IPXR_ALREADY_RUNNING);
    /// It is stopped, and forgot what it learned.
    pub const STOPPED: Outcome = Outcome(sys::IPXR_STOPPED);
    /// A second passed.
    pub const TICKED: Outcome = Outcome(sys::IPXR_TICKED);
    /// A response was accepted, even if it taught nothing: worse or unreachable offers, own networks, no room.
    pub const LEARNED: Outcome = Outcome(sys::IPXR_LEARNED);
    /// A request or a query was heard; also if nothing is sent.
    pub const ANSWERED: Outcome = Outcome(sys::IPXR_ANSWERED);
    /// The packet goes on towards its network.
    pub const FORWARDED: Outcome = Outcome(sys::IPXR_FORWARDED);
    /// The packet goes on to each other network that is up, uncrossed and allows its length, if any.
    pub const PROPAGATED: Outcome = Outcome(sys::IPXR_PROPAGATED);
    /// The port is down from now on.
    pub const WENT_DOWN: Outcome = Outcome(sys::IPXR_WENT_DOWN);
    /// The port is up from now on.
    pub const CAME_UP: Outcome = Outcome(sys::IPXR_CAME_UP);
    /// The port was down; nothing was done.
    pub const ALREADY_DOWN: Outcome = Outcome(sys::IPXR_ALREADY_DOWN);
    /// The port was up; nothing was done.
    pub const ALREADY_UP: Outcome = Outcome(sys::IPXR_ALREADY_UP);
    /// The router is stopped.
    pub const NOT_RUNNING: Outcome = Outcome(sys::IPXR_NOT_RUNNING);
    /// Under 30 bytes.
    pub const MALFORMED_SHORT: Outcome = Outcome(sys::IPXR_MALFORMED_SHORT);
    /// A length under 30.
    pub const MALFORMED_LENGTH_SMALL: Outcome = Outcome(sys::IPXR_MALFORMED_LENGTH_SMALL);
    /// A length beyond the bytes.
    pub const MALFORMED_LENGTH_BEYOND: Outcome = Outcome(sys::IPXR_MALFORMED_LENGTH_BEYOND);
    /// From the port itself.
    pub const OWN_ECHO: Outcome = Outcome(sys::IPXR_OWN_ECHO);
    /// From the broadcast node.
    pub const BAD_SOURCE: Outcome = Outcome(sys::IPXR_BAD_SOURCE);
    /// Propagated, no room for the networks crossed.
    pub const CROSSED_SHORT: Outcome = Outcome(sys::IPXR_CROSSED_SHORT);
    /// Propagated, has crossed eight or more networks.
    pub const CROSSED_FULL: Outcome = Outcome(sys::IPXR_CROSSED_FULL);
    /// Propagated, has crossed the port's network.
    pub const CROSSED_SEEN: Outcome = Outcome(sys::IPXR_CROSSED_SEEN);
    /// For another node of the port's network.
    pub const ELSEWHERE: Outcome = Outcome(sys::IPXR_ELSEWHERE);
    /// For a socket that the router doesn't serve.
    pub const OTHER_SOCKET: Outcome = Outcome(sys::IPXR_OTHER_SOCKET);
    /// For the router, from another network.
    pub const NOT_NEIGHBOUR: Outcome = Outcome(sys::IPXR_NOT_NEIGHBOUR);
    /// RIP: under 2 bytes.
    pub const BAD_RIP_SHORT: Outcome = Outcome(sys::IPXR_BAD_RIP_SHORT);
    /// RIP: neither a request nor a response.
    pub const BAD_RIP_OPERATION: Outcome = Outcome(sys::IPXR_BAD_RIP_OPERATION);
    /// RIP: no entry.
    pub const BAD_RIP_NO_ENTRY: Outcome = Outcome(sys::IPXR_BAD_RIP_NO_ENTRY);
    /// RIP: over 50 entries.
    pub const BAD_RIP_TOO_MANY: Outcome = Outcome(sys::IPXR_BAD_RIP_TOO_MANY);
    /// SAP: under 2 bytes, or a query under 4.
    pub const BAD_SAP_SHORT: Outcome = Outcome(sys::IPXR_BAD_SAP_SHORT);
    /// SAP: neither a query nor a response.
    pub const BAD_SAP_OPERATION: Outcome = Outcome(sys::IPXR_BAD_SAP_OPERATION);
    /// SAP: no entry.
    pub const BAD_SAP_NO_ENTRY: Outcome = Outcome(sys::IPXR_BAD_SAP_NO_ENTRY);
    /// SAP: over 7 entries.
    pub const BAD_SAP_TOO_MANY: Outcome = Outcome(sys::IPXR_BAD_SAP_TOO_MANY);
    /// An answer to a query for the nearest service, which routers don't ask.
    pub const NEAREST_REPLY: Outcome = Outcome(sys::IPXR_NEAREST_REPLY);
    /// Came through sixteen routers or more.
    pub const TOO_MANY_ROUTERS: Outcome = Outcome(sys::IPXR_TOO_MANY_ROUTERS);
    /// For another port of this router.
    pub const FAR_SIDE: Outcome = Outcome(sys::IPXR_FAR_SIDE);
    /// For a network to which there is no route.
    pub const NO_ROUTE: Outcome = Outcome(sys::IPXR_NO_ROUTE);
    /// To be forwarded, and longer than the outgoing port allows.
    pub const TOO_LONG: Outcome = Outcome(sys::IPXR_TOO_LONG);
    /// Came on a port that is down.
    pub const DOWN_PORT: Outcome = Outcome(sys::IPXR_DOWN_PORT);
}

impl Fault {
    /// The handle has no router.
    pub const NO_ROUTER: Fault = Fault(sys::IPXR_NO_ROUTER);
    /// There is no port of that number.
    pub const NO_PORT: Fault = Fault(sys::IPXR_NO_PORT);
    /// There is no packet of that number.
    pub const NO_PACKET: Fault = Fault(sys::IPXR_NO_PACKET);
    /// There is no route or service of that number.
    pub const NO_RECORD: Fault = Fault(sys::IPXR_NO_RECORD);
    /// The packet is longer than the buffer; ipxr_get gives its length.
    pub const SHORT_BUFFER: Fault = Fault(sys::IPXR_SHORT_BUFFER);
    /// The allocator refused; the call can be made again.
    pub const OUT_OF_MEMORY: Fault = Fault(sys::IPXR_OUT_OF_MEMORY);
    /// A port's longest packet is under 576 bytes.
    pub const BAD_LONGEST: Fault = Fault(sys::IPXR_BAD_LONGEST);
    /// A port's cost is 0.
    pub const BAD_COST: Fault = Fault(sys::IPXR_BAD_COST);
    /// A port's network is 0, FFFFFFFEh or FFFFFFFFh.
    pub const BAD_NETWORK: Fault = Fault(sys::IPXR_BAD_NETWORK);
    /// A port's node is the broadcast.
    pub const BAD_NODE: Fault = Fault(sys::IPXR_BAD_NODE);
    /// There are no ports.
    pub const NO_PORTS: Fault = Fault(sys::IPXR_NO_PORTS);
    /// There are more than IPXR_MOST_PORTS.
    pub const MANY_PORTS: Fault = Fault(sys::IPXR_MANY_PORTS);
    /// Two ports are on one network.
    pub const SAME_NETWORK: Fault = Fault(sys::IPXR_SAME_NETWORK);
    /// Neither a request nor a response.
    pub const BAD_OPERATION: Fault = Fault(sys::IPXR_BAD_OPERATION);
    /// There is no route or service to write.
    pub const NO_ENTRIES: Fault = Fault(sys::IPXR_NO_ENTRIES);
    /// There are more routes or services than a packet may have.
    pub const MANY_ENTRIES: Fault = Fault(sys::IPXR_MANY_ENTRIES);
    /// A service's name is empty, or has no 0 behind it.
    pub const BAD_NAME: Fault = Fault(sys::IPXR_BAD_NAME);
    /// With its data the packet would have more than 65,535 bytes.
    pub const LONG_PACKET: Fault = Fault(sys::IPXR_LONG_PACKET);
    /// The handle has no tunnel.
    pub const NO_TUNNEL: Fault = Fault(sys::IPXR_NO_TUNNEL);
    /// It would have more than IPXR_MOST_CLIENTS.
    pub const MANY_CLIENTS: Fault = Fault(sys::IPXR_MANY_CLIENTS);
    /// The handle has no segment.
    pub const NO_SEGMENT: Fault = Fault(sys::IPXR_NO_SEGMENT);
    /// There is no link of that number.
    pub const NO_LINK: Fault = Fault(sys::IPXR_NO_LINK);
    /// Its kind is none of the three.
    pub const BAD_LINK: Fault = Fault(sys::IPXR_BAD_LINK);
    /// It would have more than IPXR_MOST_LINKS.
    pub const MANY_LINKS: Fault = Fault(sys::IPXR_MANY_LINKS);
    /// It would know more than IPXR_MOST_STATIONS.
    pub const MANY_STATIONS: Fault = Fault(sys::IPXR_MANY_STATIONS);
    /// A way that is neither in nor out.
    pub const BAD_WAY: Fault = Fault(sys::IPXR_BAD_WAY);
    /// There are more than IPXR_MOST_RULES.
    pub const MANY_RULES: Fault = Fault(sys::IPXR_MANY_RULES);
    /// Values that are no rule: ipxr_rule says which are.
    pub const BAD_RULE: Fault = Fault(sys::IPXR_BAD_RULE);
}
