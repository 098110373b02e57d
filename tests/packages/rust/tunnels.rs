//! Tunnels and a segment.
use crate::{checked, list, Hex, Play};
use ipxr::{extend, packets, sys, Address, Keyed, KeyedSender, KeyedSetting, Link, Member, Network, Node};
use ipxr::{Own, Place, Segment, SegmentSetting, Sender, Socket, Tunnel, TunnelSetting};

const NETWORK: Network = Network(0x10);
const SERVER: Node = Node([2, 0, 0, 0, 0, 1]);

fn of_place(first: u8, place: Place) -> Node {
    let [_, _, third, fourth, high, low] = place.0;
    Node([first, 0, third, fourth, high, low])
}

fn datagram(play: &mut Play, own: Node, of: Place) -> Vec<u8> {
    let at = |node| Address { network: NETWORK, node, socket: Socket(2) };
    let to = [play.address(), at(of_place(6, of)), at(Node::default())];
    let to = play.pick(&to);
    let from = if play.chance(5) == 0 { play.address() } else { at(own) };
    let control = play.byte(3);
    let mut bytes = checked(packets::write_packet(&from, &to, 4, control, &play.data()));
    bytes[4] = 0;
    bytes
}

fn owns(found: Vec<Own>) -> Vec<String> {
    found.iter().map(|it| list(&[&it.place, &Hex(&it.bytes)])).collect()
}

fn members(found: Vec<Member>) -> Vec<String> {
    found.iter().map(|it| list(&[&it.place, &it.node, &it.seconds_left])).collect()
}

fn plain_turn(play: &mut Play, tunnel: &mut Tunnel) {
    let place = play.place();
    let cookie = of_place(6, place);
    let sender = Sender { place, current: cookie, previous: cookie, is_trusted: play.chance(9) == 0 };
    let bytes = datagram(play, place.into(), place);
    match play.chance(8) {
        0 => {
            checked(tunnel.second());
            play.add(&[&owns(checked(tunnel.owns())), &0, &checked(tunnel.leavers())]);
        }
        1 => {
            checked(tunnel.send(play.node()));
            play.add(&[&checked(tunnel.receivers())]);
        }
        _ => {
            let said = checked(tunnel.hear(&sender, &bytes)) as u8;
            let (carried, is_heard) = (tunnel.carried(), tunnel.is_heard());
            play.add(&[&said, &owns(checked(tunnel.owns())), &checked(tunnel.receivers()), &Hex(&bytes[..carried]), &is_heard]);
        }
    }
    let clients: Vec<_> = checked(tunnel.clients()).iter().map(|it| list(&[&it.place, &it.seconds_left])).collect();
    play.add(&[&clients]);
}

fn keyed_turn(play: &mut Play, tunnel: &mut Keyed) {
    let place = play.place();
    let (cookie, node) = (of_place(6, place), of_place(2, place));
    let (is_trusted, may_register) = (play.chance(9) == 0, play.chance(4) > 0);
    let sender = KeyedSender { place, node, former: node, current: cookie, previous: cookie, is_trusted, may_register };
    let bytes = datagram(play, node, place);
    match play.chance(8) {
        0 => {
            checked(tunnel.second());
            let left: Vec<_> = checked(tunnel.leavers()).iter().map(|it| it.place).collect();
            play.add(&[&owns(checked(tunnel.owns())), &tunnel.pings(), &left]);
        }
        1 => {
            checked(tunnel.send(play.node()));
            play.add(&[&checked(tunnel.receivers())]);
        }
        _ => {
            let said = checked(tunnel.hear(&sender, &bytes)) as u8;
            let (carried, is_heard) = (tunnel.carried(), tunnel.is_heard());
            play.add(&[&said, &owns(checked(tunnel.owns())), &checked(tunnel.receivers()), &Hex(&bytes[..carried]), &is_heard]);
        }
    }
    let mut all = members(checked(tunnel.clients()));
    all.extend(members(checked(tunnel.waiters())));
    play.add(&[&all]);
}

fn extend_turn(play: &mut Play) {
    let (here, sockets, there) = (play.network(), [play.socket(), play.socket()], play.network());
    let mut bytes = play.packet();
    let is_copied = extend(here, &sockets, there, &mut bytes);
    play.add(&[&is_copied.then_some(Hex(&bytes))]);
}

/// A change of a link, also to a kind that is none.
fn change(play: &mut Play, segment: &mut Segment, link: u8) -> i32 {
    let (kind, share) = (play.byte(4), 5 + play.chance(9) as u16);
    let to = match kind {
        sys::IPXR_LINK_CABLE => Link::Cable { share },
        sys::IPXR_LINK_SURE => Link::Sure { share },
        // SAFETY: the handle is the segment's.
        _ => return unsafe { sys::ipxr_segment_change(segment.raw(), link, &sys::ipxr_link { kind, share }) },
    };
    segment.change(link, to).err().map_or(0, |it| it.0)
}

fn segment_turn(play: &mut Play, segment: &mut Segment) {
    let (what, link) = (play.chance(8), play.byte(5));
    let done: Result<(), i32> = match what {
        0 => Err(change(play, segment, link)),
        1 => segment.come(link, play.node()).map_err(|it| it.0),
        2 => segment.leave(link, play.node()).map_err(|it| it.0),
        3 => segment.second().map_err(|it| it.0),
        4 => {
            checked(segment.send(play.node()));
            play.add(&[&checked(segment.receivers()), &()]);
            return stations(play, segment, link);
        }
        _ => match segment.hear(link, play.node(), play.node()) {
            Err(fault) => Err(fault.0),
            Ok(is_heard) => {
                play.add(&[&checked(segment.receivers()), &is_heard]);
                return stations(play, segment, link);
            }
        },
    };
    match done {
        Ok(()) | Err(0) => play.add(&[&(), &()]),
        Err(fault) => play.add(&[&fault, &()]),
    }
    stations(play, segment, link);
}

fn stations(play: &mut Play, segment: &mut Segment, link: u8) {
    let all: Vec<_> = checked(segment.stations()).iter().map(|it| list(&[&it.node, &it.link, &it.is_sure, &it.seconds_left])).collect();
    let next = checked(segment.next_node(&play.address()));
    play.add(&[&all, &next]);
    match segment.link(link) {
        Err(fault) => play.add(&[&fault, &fault]),
        Ok(Link::Down) => {
            let mut it = sys::ipxr_link::ZERO;
            // SAFETY: the handle is the segment's.
            unsafe { sys::ipxr_segment_link(segment.raw(), link, &mut it) };
            play.add(&[&it.kind, &it.share]);
        }
        Ok(Link::Cable { share }) => play.add(&[&1, &share]),
        Ok(Link::Sure { share }) => play.add(&[&2, &share]),
    }
}

pub fn play(play: &mut Play) {
    let mut plain = checked(Tunnel::new(&TunnelSetting { network: NETWORK, node: SERVER, capacity: 6, share: 3 }));
    let setting = KeyedSetting { network: NETWORK, node: SERVER, capacity: 6, share: 3, remembered: 4, remembered_share: 2 };
    let mut handing = checked(Keyed::new(&setting));
    let mut segment = checked(Segment::new(&SegmentSetting { network: NETWORK, node: SERVER, links: 4, capacity: 20 }));
    play.part("tunnel", 400, |play, _| plain_turn(play, &mut plain));
    play.part("keyed", 400, |play, _| keyed_turn(play, &mut handing));
    play.part("extend", 200, |play, _| extend_turn(play));
    play.part("segment", 500, |play, _| segment_turn(play, &mut segment));
}
