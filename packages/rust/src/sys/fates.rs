//! Made of `ipxr_fates.h` by tools/lib/rust_sys.py: change that, and make it again.

/// nothing: the packet has its fate
pub const IPXR_NEXT_END: u8 = 0;
pub const IPXR_MOST_STEPS: usize = 20;
/// is it a frame of one of the four kinds?
pub const IPXR_NEXT_FRAME_IS_FRAME: u8 = 1;
/// has a network on its cable that kind?
pub const IPXR_NEXT_FRAME_HAS_NETWORK: u8 = 2;
/// has a network on another cable of the same interface that kind?
pub const IPXR_NEXT_FRAME_IS_HEARD_BESIDE: u8 = 3;
/// is it longer than IPXR_LONGEST_FRAME?
pub const IPXR_NEXT_FRAME_IS_TOO_LONG: u8 = 4;
/// does it come from the gateway's own node?
pub const IPXR_NEXT_FRAME_IS_OWN: u8 = 5;
/// is it a probe of the gateway's (ipxr_loop_probe)? What follows of it is done
pub const IPXR_NEXT_FRAME_IS_PROBE: u8 = 6;
/// is it of its sender's kind, where any may be used (ipxr_kinds_hear)?
pub const IPXR_NEXT_FRAME_IS_OF_ITS_KIND: u8 = 7;
/// is it for another node, and its network has no other link?
pub const IPXR_NEXT_FRAME_IS_FOR_ANOTHER: u8 = 8;
/// do: write it to the capture
pub const IPXR_NEXT_FRAME_CAPTURE: u8 = 9;
/// limit: too much of its kind came (ipxr_limits_frames_say)
pub const IPXR_NEXT_FRAME_LETS_IN: u8 = 10;
/// has its network several links?
pub const IPXR_NEXT_FRAME_HAS_LINKS: u8 = 11;
/// of several links: does it hold a whole packet,
pub const IPXR_NEXT_FRAME_IS_PACKET: u8 = 12;
/// which is longer than the network allows,
pub const IPXR_NEXT_FRAME_IS_BEYOND_LINK: u8 = 13;
/// or names a client of a tunnel that is another link as its source?
pub const IPXR_NEXT_FRAME_NAMES_CLIENT: u8 = 14;
/// do: put it on the other links that get it (ipxr_segment_hear)
pub const IPXR_NEXT_FRAME_PUT_ON_LINKS: u8 = 15;
/// is it for the router, or for all?
pub const IPXR_NEXT_FRAME_IS_FOR_ROUTER: u8 = 16;
/// did any link get it?
pub const IPXR_NEXT_FRAME_WAS_PUT: u8 = 17;
/// does its frame come from the node of a client at another link?
pub const IPXR_NEXT_FRAME_IS_FROM_CLIENT: u8 = 18;
/// of one link: does it hold a whole packet?
pub const IPXR_NEXT_FRAME_IS_WHOLE: u8 = 19;
/// limit: its sender said too much for the router (ipxr_limits_hands, ipxr_limits_frames_hand); or it is held or denied
/// (ipxr_edge_enter)
pub const IPXR_NEXT_ROUTER_LETS_HEAR: u8 = 20;
/// is it for all of the network where it came?
pub const IPXR_NEXT_ROUTER_IS_FOR_ALL: u8 = 21;
/// do: hand copies to other networks that have its socket (ipxr_tunnel_extend)
pub const IPXR_NEXT_ROUTER_EXTEND: u8 = 22;
/// does somebody who asked wait for it? Then he gets it
pub const IPXR_NEXT_ROUTER_IS_AWAITED: u8 = 23;
/// do: the router hears it (ipxr_packet). Had it no memory?
pub const IPXR_NEXT_ROUTER_HEAR: u8 = 24;
/// number: what ipxr_packet returned
pub const IPXR_NEXT_ROUTER_OUTCOME: u8 = 25;
/// is it a ping, which the tunnel answers?
pub const IPXR_NEXT_WORD_IS_PING: u8 = 26;
/// may its sender be answered now?
pub const IPXR_NEXT_WORD_LETS_REPLY: u8 = 27;
/// do: send him the tunnel's answer
pub const IPXR_NEXT_WORD_REPLY: u8 = 28;
/// do: count that he isn't answered
pub const IPXR_NEXT_WORD_LEAVE_UNANSWERED: u8 = 29;
/// do clients get it, or the router, or has its network other links?
pub const IPXR_NEXT_WORD_IS_FOR_SOMEBODY: u8 = 30;
/// is it for routers of another network?
pub const IPXR_NEXT_WORD_IS_FOR_FAR_ROUTERS: u8 = 31;
/// limit: its sender said too much (ipxr_limits_says)
pub const IPXR_NEXT_WORD_LETS_SAY: u8 = 32;
/// do: send it to the clients that get it, and put it on other links
pub const IPXR_NEXT_WORD_CARRY: u8 = 33;
/// does the router hear it?
pub const IPXR_NEXT_WORD_IS_HEARD: u8 = 34;
/// did anybody get it, or has its network no other link?
pub const IPXR_NEXT_WORD_WAS_CARRIED: u8 = 35;
/// is it longer than the network allows?
pub const IPXR_NEXT_DATAGRAM_IS_TOO_LONG: u8 = 36;
/// do: write it to the capture
pub const IPXR_NEXT_DATAGRAM_CAPTURE: u8 = 37;
/// may its sender's address have clients?
pub const IPXR_NEXT_DATAGRAM_IS_ALLOWED: u8 = 38;
/// do: the tunnel hears it. Number: what ipxr_tunnel_hear returned
pub const IPXR_NEXT_DATAGRAM_HEAR: u8 = 39;
/// it says nothing: is it a packet, then of another's source?
pub const IPXR_NEXT_DATAGRAM_IS_PACKET: u8 = 40;
/// it registers: does the tunnel answer it,
pub const IPXR_NEXT_DATAGRAM_IS_ANSWERED: u8 = 41;
/// is its sender a client already,
pub const IPXR_NEXT_DATAGRAM_IS_CLIENT: u8 = 42;
/// and may he be answered now?
pub const IPXR_NEXT_DATAGRAM_LETS_ANSWER: u8 = 43;
/// do: send him the tunnel's answers
pub const IPXR_NEXT_DATAGRAM_ANSWER: u8 = 44;
/// or may a stranger be answered now?
pub const IPXR_NEXT_DATAGRAM_LETS_STRANGER: u8 = 45;
/// do: send him the tunnel's answer and its ping
pub const IPXR_NEXT_DATAGRAM_ANSWER_STRANGER: u8 = 46;
/// it answers a ping: is its sender a client now?
pub const IPXR_NEXT_DATAGRAM_IS_CLIENT_NOW: u8 = 47;
/// it speaks: is its sender a client?
pub const IPXR_NEXT_DATAGRAM_IS_FROM_CLIENT: u8 = 48;
/// he is none: does the tunnel ping him,
pub const IPXR_NEXT_DATAGRAM_IS_PINGED: u8 = 49;
/// and may he be pinged now?
pub const IPXR_NEXT_DATAGRAM_LETS_PING: u8 = 50;
/// do: send him the tunnel's ping
pub const IPXR_NEXT_DATAGRAM_PING: u8 = 51;
/// a network on another cable of the interface hears the frame; it isn't counted here
pub const IPXR_FATE_ELSEWHERE: u8 = 0;
/// the router heard it
pub const IPXR_FATE_HEARD: u8 = 1;
/// the router drops it: `number` is what ipxr_packet returned
pub const IPXR_FATE_DROPPED: u8 = 2;
/// it went to others of its network alone
pub const IPXR_FATE_HANDED_ON: u8 = 3;
/// the gateway answered it: it registers a client
pub const IPXR_FATE_ANSWERED: u8 = 4;
/// it answers a ping, and its client stays
pub const IPXR_FATE_STAYS: u8 = 5;
/// somebody who asked got it
pub const IPXR_FATE_AWAITED: u8 = 6;
/// it is a probe of the gateway's own
pub const IPXR_FATE_PROBE: u8 = 7;
/// it goes no further: `number` is the reason
pub const IPXR_FATE_LOST: u8 = 8;
/// longer than what the link carries
pub const IPXR_LOST_TOO_LONG: u8 = 0;
/// it names the address of another as its source
pub const IPXR_LOST_FALSE_SOURCE: u8 = 1;
/// its sender is no client of the tunnel; he was asked whether he hears
pub const IPXR_LOST_STRANGER: u8 = 2;
/// its sender is none, and there is no room for him
pub const IPXR_LOST_NO_ROOM: u8 = 3;
/// its sender may not be one
pub const IPXR_LOST_NOT_ALLOWED: u8 = 4;
/// for a node of the tunnel that nobody has
pub const IPXR_LOST_NO_CLIENT: u8 = 5;
/// a frame, or a datagram, without an IPX packet
pub const IPXR_LOST_NO_IPX: u8 = 6;
/// a frame of a kind that no network has there
pub const IPXR_LOST_OTHER_KIND: u8 = 7;
/// a frame for all in another kind than what its sender said a moment ago
pub const IPXR_LOST_SECOND_KIND: u8 = 8;
/// a frame for another node of the cable
pub const IPXR_LOST_FOR_ANOTHER: u8 = 9;
/// a frame of the gateway's own that came back
pub const IPXR_LOST_OWN_FRAME: u8 = 10;
/// the router had no memory for what it would have sent
pub const IPXR_LOST_NO_MEMORY: u8 = 11;
/// a broadcast that is extended, too long for another network, or its source doesn't know its network
pub const IPXR_LOST_NOT_EXTENDED: u8 = 12;
/// the system refused what was to be sent
pub const IPXR_LOST_NOT_SENT: u8 = 13;
/// somebody said that nobody hears at the other address
pub const IPXR_LOST_NOBODY_THERE: u8 = 14;
/// a stranger isn't answered: too many were lately
pub const IPXR_LOST_TOO_MANY_STRANGERS: u8 = 15;
/// a copy for a client that received too much lately
pub const IPXR_LOST_TOO_MUCH_FOR_CLIENT: u8 = 16;
/// or whose address did, of all its clients
pub const IPXR_LOST_TOO_MUCH_FOR_ADDRESS: u8 = 17;
/// or for which the line had no room
pub const IPXR_LOST_TOO_MUCH_FOR_LINE: u8 = 18;
/// what clients say, for a link with frames that received too much of them lately
pub const IPXR_LOST_TOO_MUCH_FOR_LINK: u8 = 19;
/// a ping for all, of a client that sent too many
pub const IPXR_LOST_TOO_MANY_PINGS: u8 = 20;
/// a question to the router, of one that asked too many
pub const IPXR_LOST_TOO_MANY_QUESTIONS: u8 = 21;
/// what a router tells, of an address that told too much
pub const IPXR_LOST_TOO_MANY_ADVERTISEMENTS: u8 = 22;
/// an answer of the gateway to a client that was answered too often
pub const IPXR_LOST_TOO_MANY_ANSWERS: u8 = 23;
/// what a client says to routers of another network
pub const IPXR_LOST_FOR_FAR_ROUTERS: u8 = 24;
/// all else that the router would hear, of an address that said too much
pub const IPXR_LOST_TOO_MUCH_FOR_ROUTER: u8 = 25;
/// what only neighbours may say to the router, which another router carried there
pub const IPXR_LOST_FROM_AFAR: u8 = 26;
/// a rule of the network denies it
pub const IPXR_LOST_DENIED: u8 = 27;
/// a datagram of a place that isn't sealed by the key of its network
pub const IPXR_LOST_NOT_SEALED: u8 = 28;
/// one that was heard before, or comes too late to tell
pub const IPXR_LOST_REPEATED: u8 = 29;
/// one for another session than the gateway's own: recorded, or its sender doesn't know that one yet
pub const IPXR_LOST_OTHER_SESSION: u8 = 30;
/// how many there are; of a limit, that it refuses nothing
pub const IPXR_NO_REASON: u8 = 31;
/// the router's drops have their places by their numbers: number / 100 \* 10 + number % 100
pub const IPXR_DROPS: usize = 190;

/// Where a packet is on its way. With all bytes 0 it is at an end, where nothing is counted.
#[repr(C)]
#[derive(Clone, Copy, Debug, PartialEq, Eq)]
pub struct ipxr_course {
    /// what is next, or IPXR_NEXT_END:
    pub next: u8,
    /// then its fate,
    pub fate: u8,
    /// and the number of its reason, or of the router's drop
    pub number: u16,
}

impl ipxr_course {
    /// All its bytes are 0.
    pub const ZERO: ipxr_course = ipxr_course {
        next: 0,
        fate: 0,
        number: 0,
    };
}

#[repr(C)]
#[derive(Clone, Copy, Debug, PartialEq, Eq)]
pub struct ipxr_counts {
    /// packets that came
    pub r#in: u64,
    /// packets, and all else, that are lost, by the reason
    pub lost: [u64; 31],
    /// packets that the router dropped, by its number
    pub dropped: [u64; 190],
}

impl ipxr_counts {
    /// All its bytes are 0.
    pub const ZERO: ipxr_counts = ipxr_counts {
        r#in: 0,
        lost: [0; 31],
        dropped: [0; 190],
    };
}

extern "C" {
    /// The way of a packet at its beginning: of what came on a cable with frames, or at a tunnel.
    pub fn ipxr_course_of_frame(course: *mut ipxr_course);
    /// The way of a packet at its beginning: of what came on a cable with frames, or at a tunnel.
    pub fn ipxr_course_of_datagram(course: *mut ipxr_course);
    /// What is next was answered. At its end a way stays.
    pub fn ipxr_course_answer(course: *mut ipxr_course, answer: u16);
    /// Counts the fate of a packet that is at the end of its way; of one that isn't, nothing.
    pub fn ipxr_counts_count(counts: *mut ipxr_counts, course: *const ipxr_course);
    /// Counts that something is lost for a reason: a copy, or what was to be sent. Any other number counts nothing.
    pub fn ipxr_counts_lose(counts: *mut ipxr_counts, why: u8);
}
