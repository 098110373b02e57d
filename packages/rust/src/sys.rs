//! The raw layer: each number, struct and call of the headers of the library for C, by its own name and with its comment. The safe types of
//! this crate stand on it. What a caller has to promise is at the top of `ipxr.h`.
//!
//! Made of the headers by tools/lib/rust_sys.py: change the headers, and make it again.
#![allow(non_camel_case_types, missing_docs)]

mod router;
mod tunnel;
mod keyed;
mod segment;
mod plan;
mod settings;
mod fair;
mod limits;
mod cable;
mod configuration;
mod fates;
mod edge;
mod peers;

pub use router::*;
pub use tunnel::*;
pub use keyed::*;
pub use segment::*;
pub use plan::*;
pub use settings::*;
pub use fair::*;
pub use limits::*;
pub use cable::*;
pub use configuration::*;
pub use fates::*;
pub use edge::*;
pub use peers::*;
