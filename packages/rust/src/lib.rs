//! An IPX router, DOSBox's tunnel, and what a gateway decides: a proved library, in safe Rust.
//!
//! Nothing here has a socket, a clock or a thread. You hand a [`Router`] each packet that arrives and each second that passes; it returns
//! the packets to send.
//!
//! ```
//! use ipxr::{Outcome, Port, Router};
//!
//! let mut router = Router::new(&[Port::new(0x10, "00:00:00:00:00:01".parse()?), Port::new(0x20, "00:00:00:00:00:02".parse()?)])?;
//! assert_eq!(router.start()?, Outcome::STARTED);
//! for packet in router.take_sent()? {
//!     println!("port {}, to {}: {} bytes", packet.port, packet.node, packet.bytes.len());
//! }
//! # Ok::<(), Box<dyn std::error::Error>>(())
//! ```
//!
//! | to | there is |
//! |---|---|
//! | route between networks | [`Router`] |
//! | serve DOSBox's `IPXNET CONNECT` | [`Keyed`], or [`Tunnel`], whose clients' nodes are their addresses |
//! | make one network of several links | [`Segment`] |
//! | write and read packets | [`packets`] |
//! | write and read frames of Ethernet | [`frames`] |
//! | share what somebody can read among those who send | [`Fair`], [`limits`], [`mod@line`] |
//! | number, hold, filter what passes between a cable and the router | [`edge`] |
//! | decide what a gateway decides about its cables | [`cable`] |
//! | know what becomes of each packet | [`fates`] |
//! | read a gateway's configuration, and another one while it runs | [`Configuration`], [`plan`] |
//!
//! Addresses are written as the project writes them: [`Address`] is `10.0200C0A80001.451`, [`Node`] is `0200C0A80001` or
//! `02:00:C0:A8:00:01`. Each type reads such text by `parse`, and shows itself.
//!
//! **Threads.** What owns memory of C ([`Router`], [`Tunnel`], [`Keyed`], [`Segment`]) can be moved to another thread, and is used by one
//! at a time, since each call takes `&mut self`. All else is plain values. A thread needs a stack of [`sys::IPXR_STACK`] bytes for
//! [`Router::new`].
//!
//! **`no_std`.** The crate needs `core` and `alloc`, and of C `malloc`, `realloc`, `free`, `abort` and what `string.h` has.
//!
//! [`sys`] is the library as C has it.
#![no_std]

extern crate alloc;

mod answers;
mod asked;
pub mod cable;
mod configuration;
pub mod edge;
mod fair;
pub mod fates;
pub mod frames;
mod keyed;
mod keys;
pub mod limits;
pub mod line;
#[rustfmt::skip]
mod named;
pub mod packets;
mod plan;
mod router;
mod segment;
pub mod settings;
#[rustfmt::skip]
pub mod sys;
mod text;
mod tunnel;

pub use answers::{version, Fault, Outcome, VERSION};
pub use configuration::{Configuration, Configured, Internal, LineRead, LineWrong};
pub use fair::{Fair, FairSetting, Meter};
pub use keyed::{Keyed, KeyedSender, KeyedSetting, Member};
pub use keys::Keys;
pub use plan::{plan, Plan, PlanFate, PlanLink, PlanOrigin};
pub use router::{Packet, Port, Route, Router, Sent, Service, NO_LIMIT};
pub use segment::{Link, Segment, SegmentSetting, Station};
pub use text::{Address, Name, Network, Node, Place, Socket, WrongText};
pub use tunnel::{extend, Client, Own, Said, Sender, Tunnel, TunnelSetting};

/// The page's examples are tried with those of the documentation.
#[cfg(doctest)]
#[doc = include_str!("../README.md")]
struct Page;

/// An owner is used by one thread at a time.
///
/// ```compile_fail
/// fn is_shared<T: Sync>() {}
/// is_shared::<ipxr::Router>();
/// ```
#[cfg(doctest)]
struct NotShared;
