//! A narrow line, shared by all clients that it reaches. `docs/LIMITS.md` has its parts.
//!
//! ```
//! use ipxr::line::{Address, Line, Rank};
//!
//! let mut line = Line::new(128);
//! let (mut speaker, mut to) = (Address::default(), Address::default());
//! line.join(&mut to);
//! let (number, mut said, now) = (line.speak(&mut speaker), 0, 1_000_000_000);
//! let rank = line.room(now, number, 100, &mut said, &mut to); // then ask the client's own limits
//! assert_ne!(rank, Rank::Full);
//! line.send(now, number, 100, rank, &mut said, &mut to); // it goes out
//! ```
use crate::limits::Strangers;
use crate::sys;

/// Which copies come first, the last of all.
#[derive(Clone, Copy, Debug, PartialEq, Eq, PartialOrd, Ord, Hash)]
pub enum Rank {
    /// There is no room.
    Full,
    /// Beyond all parts.
    Beyond,
    /// Within the part of the address.
    OfAddress,
    /// Within what the speaker may say to the address at once.
    OfSpeaker,
    /// The speaker says little to all together.
    Little,
    /// Within the part that the speaker has of the address' part.
    Within,
}

impl Rank {
    fn of(number: u8) -> Rank {
        match number {
            sys::IPXR_LINE_FULL => Rank::Full,
            sys::IPXR_LINE_OF_ADDRESS => Rank::OfAddress,
            sys::IPXR_LINE_OF_SPEAKER => Rank::OfSpeaker,
            sys::IPXR_LINE_LITTLE => Rank::Little,
            sys::IPXR_LINE_WITHIN => Rank::Within,
            _ => Rank::Beyond,
        }
    }

    fn number(self) -> u8 {
        match self {
            Rank::Full => sys::IPXR_LINE_FULL,
            Rank::Beyond => sys::IPXR_LINE_BEYOND,
            Rank::OfAddress => sys::IPXR_LINE_OF_ADDRESS,
            Rank::OfSpeaker => sys::IPXR_LINE_OF_SPEAKER,
            Rank::Little => sys::IPXR_LINE_LITTLE,
            Rank::Within => sys::IPXR_LINE_WITHIN,
        }
    }
}

/// A line by which clients are reached, and which is narrow. Moments are nanoseconds of your clock.
#[derive(Clone, Debug, PartialEq, Eq)]
pub struct Line(sys::ipxr_line);

/// An address that has clients on the line, or speaks to such.
#[derive(Clone, Debug, PartialEq, Eq)]
pub struct Address(sys::ipxr_line_address);

impl Default for Address {
    fn default() -> Address {
        Address(sys::ipxr_line_address::ZERO)
    }
}

impl Line {
    /// A line of so many kilobits a second, with nobody on it.
    pub fn new(kilobits: u32) -> Line {
        Line(sys::ipxr_line { kilobits, ..sys::ipxr_line::ZERO })
    }

    /// It has another width from now on.
    pub fn set_kilobits(&mut self, kilobits: u32) {
        self.0.kilobits = kilobits;
    }

    /// An address has one more client there.
    pub fn join(&mut self, address: &mut Address) {
        // SAFETY: here and below pointers are to values that lie apart.
        unsafe { sys::ipxr_line_join(&mut self.0, &mut address.0) }
    }

    /// An address has one client fewer there.
    pub fn leave(&mut self, address: &mut Address) {
        unsafe { sys::ipxr_line_leave(&mut self.0, &mut address.0) }
    }

    /// An address speaks. Returns the number that it has then, one from 1 to 63.
    pub fn speak(&mut self, address: &mut Address) -> u8 {
        unsafe { sys::ipxr_line_speak(&mut self.0, &mut address.0) }
    }

    /// A second passes for an address.
    pub fn second(&mut self, address: &mut Address) {
        unsafe { sys::ipxr_line_second(&mut self.0, &mut address.0) }
    }

    /// An address is gone.
    pub fn silence(&mut self, address: &mut Address) {
        unsafe { sys::ipxr_line_silence(&mut self.0, &mut address.0) }
    }

    /// Whether there is room for a copy of a packet of so many bytes to an address. The speaker has that number, or 0 if it has no part;
    /// `said` is the moment until which his part of what he says to all is used, 0 at first.
    pub fn room(&self, now: u64, number: u8, bytes: usize, said: &mut u64, to: &mut Address) -> Rank {
        Rank::of(unsafe { sys::ipxr_line_room(&self.0, now, number, bytes, said, &mut to.0) })
    }

    /// It goes out with that rank.
    pub fn send(&mut self, now: u64, number: u8, bytes: usize, rank: Rank, said: &mut u64, to: &mut Address) {
        unsafe { sys::ipxr_line_send(&mut self.0, now, number, bytes, rank.number(), said, &mut to.0) }
    }

    /// Whether there is room for a copy beyond all parts: for what clients answer to pings.
    pub fn lets_beyond(&self, now: u64) -> bool {
        unsafe { sys::ipxr_line_lets_beyond(&self.0, now) }
    }

    /// Whether an answer of your own goes out to a client. `address` is the moment until which the part of his address is used, 0 at first.
    pub fn lets_answer(&self, now: u64, address: &mut u64) -> bool {
        unsafe { sys::ipxr_line_lets_answer(&self.0, now, address) }
    }

    /// It goes out.
    pub fn send_answer(&mut self, now: u64, bytes: usize, address: &mut u64) {
        unsafe { sys::ipxr_line_send_answer(&mut self.0, now, bytes, address) }
    }

    /// A ping goes out, for which there is always room.
    pub fn send_ping(&mut self, now: u64, bytes: usize) {
        unsafe { sys::ipxr_line_send_ping(&mut self.0, now, bytes) }
    }

    /// Whether a datagram of your own goes out to one who is no client.
    pub fn lets_stranger(&mut self, now: u64, address: &mut u64) -> bool {
        unsafe { sys::ipxr_line_lets_stranger(&mut self.0, now, address) }
    }

    /// It goes out.
    pub fn send_to_stranger(&mut self, now: u64, bytes: usize, address: &mut u64) {
        unsafe { sys::ipxr_line_send_to_stranger(&mut self.0, now, bytes, address) }
    }

    /// The limits of what goes to all who are no clients by this line.
    pub fn strangers(&self) -> Strangers {
        let mut limits = Strangers(sys::ipxr_strangers_limits::ZERO);
        unsafe { sys::ipxr_line_strangers(&self.0, &mut limits.0) };
        limits
    }

    /// How many nanoseconds should pass from a ping of so many bytes to the next.
    pub fn between_pings(&self, bytes: usize) -> u64 {
        let mut between = 0;
        unsafe { sys::ipxr_line_between_pings(&self.0, bytes, &mut between) };
        between
    }
}
