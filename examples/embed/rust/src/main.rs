//! Joins two networks, plays a few packets to the router, and prints what it sends; `c/two_networks.c` draws the networks.
use ipxr::{Fault, Node, Outcome, Port, Router};

const PACKETS: [(u8, &str, &str); 5] = [
    (1, "BB advertises network 30", "FFFF0028000100000020FFFFFFFFFFFF0453000000200000000000BB045300020000003000010002"),
    (0, "AA asks for all routes", "FFFF0028000100000010FFFFFFFFFFFF0453000000100000000000AA04530001FFFFFFFFFFFFFFFF"),
    (0, "AA writes to CC on network 20", "FFFF001E0000000000200000000000CC4003000000100000000000AA4003"),
    (0, "AA writes to network 99", "FFFF001E0000000000990000000000CC4003000000100000000000AA4003"),
    (0, "29 bytes come", "0000000000000000000000000000000000000000000000000000000000"),
];

fn hex(bytes: &[u8]) -> String {
    bytes.iter().map(|byte| format!("{byte:02X}")).collect()
}

fn from_hex(text: &str) -> Vec<u8> {
    let digits = |k: usize| u8::from_str_radix(&text[k..k + 2], 16).unwrap_or(0);
    (0..text.len()).step_by(2).map(digits).collect()
}

fn show(router: &mut Router, event: &str, outcome: Outcome) -> Result<(), Fault> {
    println!("{event}: {outcome}");
    for packet in router.take_sent()? {
        println!("out {} {} {}", packet.port, packet.node, hex(&packet.bytes));
    }
    Ok(())
}

fn main() -> Result<(), Fault> {
    let ports = [Port::new(0x10, Node([0, 0, 0, 0, 0, 1])), Port::new(0x20, Node([0, 0, 0, 0, 0, 2]))];
    let mut router = Router::new(&ports)?;
    let started = router.start()?;
    show(&mut router, "start", started)?;
    for (number, what, bytes) in PACKETS {
        let outcome = router.packet(number, &from_hex(bytes))?;
        show(&mut router, what, outcome)?;
    }
    for it in router.routes()? {
        println!("route {} {} {} {} {} {}", it.network, it.hops, it.ticks, it.port, it.neighbour, it.age);
    }
    let passed = router.second()?;
    show(&mut router, "second", passed)?;
    let down = router.port_down(1)?;
    show(&mut router, "port 1 goes down", down)?;
    let stopped = router.stop()?;
    show(&mut router, "stop", stopped)
}
