//! Plays made-up events to whatever the crate has, and prints for each part a sum of all that came of them, as made_up.py does.
use ipxr::packets::{self, RouteEntry, ServiceEntry};
use ipxr::{sys, Address, Fault, Name, Network, Node, Place, Port, Router, Socket};
use std::fmt::Display;

mod cables;
mod lines;
mod shares;
mod tunnels;

/// Chance, and the sum of what came.
pub struct Play {
    state: u32,
    total: u32,
}

impl Play {
    fn chance(&mut self, below: u32) -> u32 {
        self.state ^= self.state << 13;
        self.state ^= self.state >> 17;
        self.state ^= self.state << 5;
        self.state % below
    }

    fn flips(&mut self) -> bool {
        self.chance(2) == 1
    }

    fn byte(&mut self, below: u32) -> u8 {
        self.chance(below) as u8
    }

    fn pick<T: Copy>(&mut self, items: &[T]) -> T {
        items[self.chance(items.len() as u32) as usize]
    }

    fn add(&mut self, items: &[&dyn Shown]) {
        let line = items.iter().map(|it| it.shown()).collect::<Vec<_>>().join(" ") + "\n";
        for letter in line.chars() {
            self.total = (self.total ^ letter as u32).wrapping_mul(16_777_619);
        }
    }

    fn part(&mut self, name: &str, turns: u64, mut play: impl FnMut(&mut Play, u64)) {
        (self.state, self.total) = (1, 2_166_136_261);
        (0..turns).for_each(|turn| play(self, turn));
        println!("{name}: {turns} turns, {:08x}", self.total);
    }

    // ---- What packets are made of ----

    fn node(&mut self) -> Node {
        if self.chance(6) == 0 {
            Node::ALL
        } else {
            Node([2, 0, 0, 0, 0, 1 + self.byte(9)])
        }
    }

    fn network(&mut self) -> Network {
        Network(if self.chance(9) == 0 { 0 } else { 0x10 * (1 + self.chance(4)) })
    }

    fn socket(&mut self) -> Socket {
        Socket(self.pick(&[0x451, 0x452, 0x453, 0x4545, 2]))
    }

    fn address(&mut self) -> Address {
        Address { network: self.network(), node: self.node(), socket: self.socket() }
    }

    fn place(&mut self) -> Place {
        let (third, fourth, port) = (self.byte(3), self.byte(4), 2000 + self.chance(3) as u16);
        let [high, low] = port.to_be_bytes();
        Place([10, 0, third, fourth, high, low])
    }

    fn data(&mut self) -> Vec<u8> {
        (0..self.chance(60)).map(|_| self.byte(256)).collect()
    }

    fn route(&mut self) -> RouteEntry {
        RouteEntry { network: Network(0x10 * (1 + self.chance(30))), hops: self.chance(18) as u16, ticks: self.chance(40) as u16 }
    }

    fn service(&mut self) -> ServiceEntry {
        let name = Name::new(format!("S{}", self.chance(20)).as_bytes()).expect("a name");
        ServiceEntry { name, address: self.address(), kind: 1 + self.chance(5) as u16, hops: self.chance(18) as u16 }
    }

    fn several<T>(&mut self, most: u32, mut make: impl FnMut(&mut Play) -> T) -> Vec<T> {
        (0..1 + self.chance(most)).map(|_| make(self)).collect()
    }

    fn packet(&mut self) -> Vec<u8> {
        let (from, to, kind) = (self.address(), self.address(), self.chance(5));
        let made = match kind {
            0 => {
                let operation = 1 + self.chance(2) as u16;
                packets::write_rip(&from, &to, operation, &self.several(5, Play::route))
            }
            1 => {
                let is_nearest = self.flips();
                packets::write_sap(&from, &to, is_nearest, &self.several(3, Play::service))
            }
            2 => {
                let is_nearest = self.flips();
                packets::write_query(&from, &to, is_nearest, self.chance(6) as u16)
            }
            _ => {
                let control = self.byte(4);
                let data = if kind == 3 { self.data() } else { vec![0; 32] };
                packets::write_packet(&from, &to, if kind == 3 { 4 } else { 20 }, control, &data)
            }
        };
        made.expect("a packet")
    }
}

// ---- The same text in each language ----

/// What has a text in each language.
pub trait Shown {
    fn shown(&self) -> String;
}

macro_rules! shown {
    ($($kind:ty),*: $it:ident => $text:expr) => { $(impl Shown for $kind { fn shown(&self) -> String { let $it = self; $text } })* };
}

shown!(u8, u16, u32, u64, usize, i32, String, Address, Name: it => it.to_string());
shown!(str: it => it.to_string());
shown!(bool: it => u8::from(*it).to_string());
shown!(Network: it => it.0.to_string());
shown!(Node, Place: it => hex(&it.0));
shown!(Fault: it => it.0.to_string());

/// Bytes, which aren't a list of numbers.
pub struct Hex<'a>(pub &'a [u8]);

shown!(Hex<'_>: it => hex(it.0));

fn hex(bytes: &[u8]) -> String {
    bytes.iter().map(|it| format!("{it:02x}")).collect()
}

impl<T: Shown> Shown for Option<T> {
    fn shown(&self) -> String {
        self.as_ref().map_or("-".to_string(), Shown::shown)
    }
}

impl<T: Shown, E: Shown> Shown for Result<T, E> {
    fn shown(&self) -> String {
        self.as_ref().map_or_else(Shown::shown, Shown::shown)
    }
}

impl<T: Shown> Shown for [T] {
    fn shown(&self) -> String {
        format!("[{}]", self.iter().map(Shown::shown).collect::<Vec<_>>().join(" "))
    }
}

impl<T: Shown> Shown for Vec<T> {
    fn shown(&self) -> String {
        self.as_slice().shown()
    }
}

impl Shown for () {
    fn shown(&self) -> String {
        "-".to_string()
    }
}

/// A list of values of several types.
pub fn list(items: &[&dyn Shown]) -> String {
    format!("[{}]", items.iter().map(|it| it.shown()).collect::<Vec<_>>().join(" "))
}

/// The bytes before a 0, each as the character of its number.
pub fn name_of(bytes: &[u8]) -> String {
    bytes.iter().take_while(|it| **it != 0).map(|it| char::from(*it)).collect()
}

fn checked<T>(made: Result<T, impl Display>) -> T {
    made.unwrap_or_else(|why| panic!("{why}"))
}

// ---- A router ----

pub fn ports() -> [Port; 3] {
    [0x10, 0x20, 0x30].map(|it| Port::new(it, Node([2, 0, 0, 0, 0, 1])))
}

/// What a neighbour on a port's network tells.
fn told(play: &mut Play, port: u8, socket: Socket) -> Vec<u8> {
    let network = Network(0x10 * (1 + u32::from(port)));
    let from = Address { network, node: Node([2, 0, 0, 0, 0, 10]), socket };
    let to = Address { network, node: Node::ALL, socket };
    checked(if socket == Socket::RIP {
        packets::write_rip(&from, &to, packets::RESPONSE, &play.several(5, Play::route))
    } else {
        packets::write_sap(&from, &to, false, &play.several(3, Play::service))
    })
}

fn router_turn(play: &mut Play, router: &mut Router) {
    let (what, port) = (play.chance(12), play.byte(4));
    let outcome = match what {
        0 => router.second(),
        1 => router.port_down(port),
        2 | 5 => router.port_up(port),
        3 => router.packet(port, &told(play, port, Socket::RIP)),
        4 => router.packet(port, &told(play, port, Socket::SAP)),
        _ => router.packet(port, &play.packet()),
    };
    match outcome {
        Err(fault) => play.add(&[&fault]),
        Ok(outcome) => {
            let sent = checked(router.take_sent());
            let sent: Vec<_> = sent.iter().map(|it| list(&[&it.port, &it.node, &Hex(&it.bytes)])).collect();
            play.add(&[&outcome.0, &sent]);
        }
    }
}

fn tables(play: &mut Play, router: &mut Router) {
    for it in checked(router.routes()) {
        play.add(&[&it.network, &it.hops, &it.ticks, &it.neighbour, &it.port, &it.age]);
    }
    for it in checked(router.services()) {
        play.add(&[&it.name, &it.address, &it.kind, &it.hops, &it.neighbour, &it.port, &it.age]);
    }
}

fn main() {
    let mut play = Play { state: 1, total: 0 };
    let mut router = checked(Router::new(&ports()));
    checked(router.start());
    router.clear();
    play.part("router", 600, |play, _| router_turn(play, &mut router));
    play.part("tables", 1, |play, _| tables(play, &mut router));
    tunnels::play(&mut play);
    shares::play(&mut play);
    cables::play(&mut play);
    lines::play(&mut play);
    assert_eq!(unsafe { sys::ipxr_version() }, sys::IPXR_VERSION);
}
