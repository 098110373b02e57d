//! A tour of the package without a socket: a tunnel with two players, one whose nodes are handed out, a network over two links, a service
//! that is found, a packet, frames, and a share that holds. The package for each language has this program, and all print the same.
use ipxr::edge;
use ipxr::frames::{self, Kind};
use ipxr::limits::{ClientUse, Limits, LinkKind, PacketKind};
use ipxr::packets::{self, RouteEntry, ServiceEntry};
use ipxr::{extend, Address, Fair, FairSetting, Keyed, KeyedSetting, Keys, Link, Meter, Name, Network, Node};
use ipxr::{Place, Port, Router, Said, Segment, SegmentSetting, Socket, Tunnel, TunnelSetting, NO_LIMIT};
use std::error::Error;

const NETWORK: Network = Network(0x10);
const NOBODY: Node = Node([0; 6]);
const SERVER: Node = Node([2, 0, 0, 0, 0, 1]);
const ANNA: Place = Place([10, 0, 0, 1, 0x08, 0x52]);
const BEN: Place = Place([10, 0, 0, 2, 0x08, 0x52]);
const STRANGER: Place = Place([192, 0, 2, 7, 0x03, 0xE8]);
const TUNNEL_SOCKET: u16 = 2;
const GAME_SOCKET: u16 = 0x4545;

type Told<T> = Result<T, Box<dyn Error>>;

fn datagram(source: Node, to: Node, socket: u16, text: &str) -> Told<Vec<u8>> {
    let network = if source == NOBODY { Network::LOCAL } else { NETWORK };
    let (from, to) = (Address::new(network, source, socket), Address::new(network, to, socket));
    Ok(packets::write_packet(&from, &to, 4, 0, text.as_bytes())?)
}

fn parts(bytes: &[u8]) -> Told<packets::Header<'_>> {
    packets::read(bytes).ok_or_else(|| "no packet".into())
}

fn joined<T: ToString>(list: impl IntoIterator<Item = T>) -> String {
    let words: Vec<_> = list.into_iter().map(|it| it.to_string()).collect();
    if words.is_empty() {
        "nobody".to_string()
    } else {
        words.join(", ")
    }
}

fn hear(tunnel: &mut Tunnel, keys: &Keys, what: &str, place: Place, to: Node, text: &str) -> Told<()> {
    tunnel.hear(&keys.sender(place, 600), &datagram(place.into(), to, GAME_SOCKET, text)?)?;
    let router = if tunnel.is_heard() { ", and to the router" } else { "" };
    println!("{what}: to {}{router}", joined(tunnel.receivers()?));
    Ok(())
}

fn come(tunnel: &mut Tunnel, keys: &Keys, place: Place) -> Told<()> {
    tunnel.hear(&keys.sender(place, 600), &datagram(NOBODY, NOBODY, TUNNEL_SOCKET, "")?)?;
    let owns = tunnel.owns()?;
    println!("{place} registers: {} datagrams of the tunnel's own", owns.len());
    let heads: Vec<_> = owns.iter().filter_map(|it| packets::read(&it.bytes)).collect();
    let ping = heads.iter().find(|it| it.to.node == Node::ALL).ok_or("no ping")?;
    tunnel.hear(&keys.sender(place, 600), &datagram(place.into(), ping.from.node, TUNNEL_SOCKET, "")?)?;
    println!("it answers its ping: clients {}", joined(tunnel.clients()?.iter().map(|it| it.place)));
    Ok(())
}

fn play_tunnel(keys: &Keys) -> Told<()> {
    println!("a tunnel for DOSBox");
    let mut tunnel = Tunnel::new(&TunnelSetting { network: NETWORK, node: SERVER, capacity: 64, share: 16 })?;
    come(&mut tunnel, keys, ANNA)?;
    come(&mut tunnel, keys, BEN)?;
    hear(&mut tunnel, keys, "Anna calls all", ANNA, Node::ALL, "who plays?")?;
    hear(&mut tunnel, keys, "Ben answers Anna", BEN, ANNA.into(), "I do")?;
    hear(&mut tunnel, keys, "a stranger calls all", STRANGER, Node::ALL, "")?;
    tunnel.send(Node::ALL)?;
    println!("the router sends to all: to {}", joined(tunnel.receivers()?));
    let mut left = Vec::new();
    for _ in 0..30 {
        tunnel.second()?;
        left.extend(tunnel.leavers()?);
    }
    println!("30 seconds without an answer: {} left", joined(left));
    Ok(())
}

fn play_keyed(keys: &Keys) -> Told<()> {
    println!("a tunnel that hands out nodes");
    let setting = KeyedSetting { network: NETWORK, node: SERVER, capacity: 64, share: 16, remembered: 1024, remembered_share: 64 };
    let mut tunnel = Keyed::new(&setting)?;
    tunnel.hear(&keys.keyed_sender(ANNA, 600), &datagram(NOBODY, NOBODY, TUNNEL_SOCKET, "")?)?;
    let node = parts(&tunnel.owns()?[0].bytes)?.to.node;
    println!("Anna registers: her node is {}", if node == keys.node(ANNA) { "the one of her place" } else { "another" });
    let said = tunnel.hear(&keys.keyed_sender(ANNA, 600), &datagram(node, Node::ALL, GAME_SOCKET, "who plays?")?)?;
    let is_heard = said == Said::Speaks && tunnel.is_heard();
    println!("she speaks from it: {}", if is_heard { "the router hears it" } else { "nobody hears it" });
    println!("clients: {}; waiters: {}", joined(tunnel.clients()?.iter().map(|it| it.place)), tunnel.waiters()?.len());
    Ok(())
}

fn play_segment() -> Told<()> {
    println!("one network over two links");
    let mut segment = Segment::new(&SegmentSetting { network: NETWORK, node: SERVER, links: 2, capacity: 100 })?;
    segment.change(0, Link::Cable { share: 50 })?;
    segment.change(1, Link::Cable { share: 50 })?;
    for (what, link, source, to) in [
        ("a PC at link 0 calls all", 0, "0200000000AA", "FFFFFFFFFFFF"),
        ("a PC at link 1 writes to it", 1, "0200000000BB", "0200000000AA"),
        ("the first writes to the router", 0, "0200000000AA", "020000000001"),
    ] {
        let is_heard = segment.hear(link, source.parse()?, to.parse()?)?;
        println!("{what}: to links {:?}{}", segment.receivers()?, if is_heard { ", and to the router" } else { "" });
    }
    println!("stations: {}", joined(segment.stations()?.iter().map(|it| format!("{} at link {}", it.node, it.link))));
    Ok(())
}

fn ask(router: &mut Router) -> Told<()> {
    let asks = packets::write_query(&"10.0200000000AA.4003".parse()?, &"10.FFFFFFFFFFFF.452".parse()?, true, 4)?;
    println!("a client asks for the nearest: {}", router.packet(0, &asks)?);
    for sent in router.take_sent()? {
        let services: Vec<_> = packets::services(parts(&sent.bytes)?.data).collect();
        let [ServiceEntry { name, address, hops, .. }] = services[..] else { return Err("no service".into()) };
        println!("to {} on port {}: {name} at {address}, {hops} hops", sent.node, sent.port);
    }
    let asks = packets::write_rip(&"10.0200000000AA.453".parse()?, &"10.FFFFFFFFFFFF.453".parse()?, packets::REQUEST, &[RouteEntry::ALL])?;
    router.packet(0, &asks)?;
    let answer = router.take_sent()?;
    let routes = packets::routes(parts(&answer[0].bytes)?.data);
    println!("routes: {}", joined(routes.map(|it| format!("{} {} {}", it.network, it.hops, it.ticks))));
    Ok(())
}

fn play_service() -> Told<Vec<u8>> {
    println!("a service that is found");
    let mut router = Router::new(&[Port::new(NETWORK, SERVER), Port { longest: 1500, ..Port::new(0x20, SERVER) }])?;
    router.start()?;
    router.clear();
    let files = ServiceEntry { name: Name::new(b"FILES")?, kind: 4, address: "20.0200000000FE.451".parse()?, hops: 1 };
    let told = packets::write_sap(&"20.0200000000FE.452".parse()?, &"20.FFFFFFFFFFFF.452".parse()?, false, &[files])?;
    println!("a server advertises FILES: {}", router.packet(1, &told)?);
    router.clear();
    for it in router.services()? {
        println!("the router knows {}, type {}, at {}", it.name, it.kind, it.address);
    }
    ask(&mut router)?;
    Ok(told)
}

fn play_frames(told: &[u8]) -> Told<()> {
    println!("a packet, and frames");
    let hello = packets::write_packet(&"10.0200000000AA.4003".parse()?, &"20.0200000000FE.451".parse()?, 17, 0, b"hello")?;
    let one = parts(&hello)?;
    println!("{} to {}, type {}: {}", one.from, one.to, one.kind, String::from_utf8_lossy(one.data));
    for kind in Kind::ALL {
        let frame = frames::write(kind, "02:00:00:00:00:fe".parse()?, "0200000000aa".parse()?, told).ok_or("no frame")?;
        let is_same = frames::read(&frame).is_some_and(|(found, bytes)| found == kind && bytes.starts_with(told));
        let name = format!("{kind:?}").to_uppercase();
        println!("{name}: {} bytes, {}", frame.len(), if is_same { "read as it was written" } else { "read otherwise" });
    }
    Ok(())
}

fn play_edge() -> Told<()> {
    let mut bytes = packets::write_packet(&"0.0200000000AA.4003".parse()?, &"0.FFFFFFFFFFFF.4545".parse()?, 4, 0, b"hello")?;
    edge::enter(&Port::new(NETWORK, SERVER), &mut bytes)?;
    println!("a station that doesn't know its network: {}", parts(&bytes)?.from);
    let mut copy = bytes.clone();
    extend(NETWORK, &[Socket(0x4545)], Network(0x20), &mut copy);
    println!("its broadcast on network 20: {}", parts(&copy)?.to);
    let is_copied = extend(NETWORK, &[Socket(0x4546)], Network(0x20), &mut bytes);
    println!("to a socket that isn't named: {}", if is_copied { "a copy" } else { "no copy" });
    Ok(())
}

fn play_shares() -> Told<()> {
    println!("a share that holds");
    let setting = FairSetting { one: 2_000_000, own: 12_000_000, reserve: 100_000_000, room: 150_000_000 };
    let mut reader = Fair::new(&setting).ok_or("no receiver")?;
    let (mut clock, mut quiet, mut flood) = (0, 0, 0);
    for step in 0..1000 {
        reader.look(&mut clock, step * 1_000_000);
        if step % 20 == 0 {
            quiet += u32::from(reader.says(0, 1_000_000));
        }
        flood += (0..3).filter(|_| reader.says(1, 1_000_000)).count();
    }
    println!("in a second: of the quiet one {quiet} of 50, of the flood {flood} of 3000");
    let limits = Limits::new(LinkKind::Tunnel, 800, 50, NO_LIMIT, NO_LIMIT).ok_or("no limits")?;
    let (mut client, mut pings) = (ClientUse::default(), Meter::default());
    let passed = (0..100).filter(|_| limits.says(PacketKind::Ping, &mut client, &mut pings).is_ok()).count();
    println!("pings at once: {passed} of 100");
    Ok(())
}

fn main() -> Told<()> {
    let keys = Keys::new([7; 16]); // a server's own are random
    play_tunnel(&keys)?;
    play_keyed(&keys)?;
    play_segment()?;
    play_frames(&play_service()?)?;
    play_edge()?;
    play_shares()?;
    println!("sockets {:x} and {:x}", Socket::RIP.0, Socket::SAP.0);
    Ok(())
}
