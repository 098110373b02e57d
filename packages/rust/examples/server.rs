//! A server for DOSBox: `cargo run --release --example server 2130`, and in each DOSBox `IPXNET CONNECT ADDRESS 2130`. All players are on
//! one network, where a router answers what programs ask of one. It gives each a node of its own.
use ipxr::{Keyed, KeyedSetting, Keys, Network, Node, Port, Router};
use std::error::Error;
use std::fs::File;
use std::io::{ErrorKind, Read};
use std::net::{SocketAddr, SocketAddrV4, UdpSocket};
use std::time::{Duration, Instant};

const NETWORK: Network = Network(0x10);
const NODE: Node = Node([2, 0, 0, 0, 0, 1]);
const LONGEST: u16 = 1424;
const SECOND: Duration = Duration::from_secs(1);

/// A tunnel and a router on its network.
struct Server {
    udp: UdpSocket,
    keys: Keys,
    tunnel: Keyed,
    router: Router,
    begun: Instant,
}

type Done = Result<(), Box<dyn Error>>;

impl Server {
    fn new(port: u16) -> Result<Server, Box<dyn Error>> {
        let mut key = [0; 16];
        File::open("/dev/urandom")?.read_exact(&mut key)?; // (keep it, and clients find their nodes again after a restart)
        let udp = UdpSocket::bind(("0.0.0.0", port))?;
        udp.set_read_timeout(Some(SECOND))?;
        let setting = KeyedSetting { network: NETWORK, node: NODE, capacity: 64, share: 16, remembered: 1024, remembered_share: 64 };
        let router = Router::new(&[Port { longest: LONGEST, ..Port::new(NETWORK, NODE) }])?;
        Ok(Server { udp, keys: Keys::new(key), tunnel: Keyed::new(&setting)?, router, begun: Instant::now() })
    }

    fn send(&self, place: ipxr::Place, bytes: &[u8]) {
        let _ = self.udp.send_to(bytes, SocketAddrV4::from(place)); // what is lost is lost, as on a cable
    }

    fn send_owns(&mut self) -> Done {
        for own in self.tunnel.owns()? {
            self.send(own.place, &own.bytes);
        }
        Ok(())
    }

    fn send_packet(&mut self, bytes: &[u8]) -> Done {
        for place in self.tunnel.receivers()? {
            self.send(place, bytes);
        }
        Ok(())
    }

    /// What the router has to send.
    fn send_routers(&mut self) -> Done {
        for packet in self.router.take_sent()? {
            self.tunnel.send(packet.node)?;
            self.send_packet(&packet.bytes)?;
        }
        Ok(())
    }

    fn hear(&mut self, place: SocketAddrV4, bytes: &mut [u8]) -> Done {
        if let Some(control) = bytes.get_mut(4) {
            *control = 0; // DOSBox leaves here what its program wrote
        }
        let sender = self.keys.keyed_sender(place.into(), self.begun.elapsed().as_secs());
        self.tunnel.hear(&sender, bytes)?;
        self.send_owns()?;
        let packet = &bytes[..self.tunnel.carried()];
        self.send_packet(packet)?;
        if self.tunnel.is_heard() {
            self.router.packet(0, packet)?;
        }
        self.send_routers()
    }

    fn second(&mut self) -> Done {
        self.tunnel.second()?;
        self.send_owns()?;
        self.router.second()?;
        self.send_routers()
    }

    fn serve(&mut self) -> Done {
        self.router.start()?;
        self.send_routers()?;
        let (mut told, mut bytes) = (Instant::now(), [0; LONGEST as usize + 1]);
        loop {
            match self.udp.recv_from(&mut bytes) {
                Ok((length, SocketAddr::V4(place))) if length <= LONGEST.into() => self.hear(place, &mut bytes[..length])?,
                Err(why) if ![ErrorKind::WouldBlock, ErrorKind::TimedOut, ErrorKind::ConnectionReset].contains(&why.kind()) => {
                    return Err(why.into())
                }
                _ => {}
            }
            if told.elapsed() >= SECOND {
                told += SECOND;
                self.second()?;
            }
        }
    }
}

fn main() -> Done {
    let port = std::env::args().nth(1).and_then(|it| it.parse().ok()).unwrap_or(213);
    Server::new(port)?.serve()
}
