//! What calls answer.
use crate::sys;
use alloc::string::String;
use core::fmt;

/// What became of an event. It shows itself in words, such as `forwarded` or `drop NoRoute`.
///
/// ```
/// use ipxr::Outcome;
///
/// assert_eq!(Outcome::FORWARDED.to_string(), "forwarded");
/// assert!(Outcome::NO_ROUTE.is_dropped());
/// ```
#[derive(Clone, Copy, Debug, PartialEq, Eq, Hash)]
pub struct Outcome(pub i32);

/// Why a call did nothing. It shows itself in words, such as `out of memory`.
///
/// ```
/// use ipxr::{Fault, Router};
///
/// assert_eq!(Router::new(&[]).err(), Some(Fault::NO_PORTS));
/// assert_eq!(Fault::NO_PORTS.to_string(), "no ports");
/// ```
#[derive(Clone, Copy, Debug, PartialEq, Eq, Hash)]
pub struct Fault(pub i32);

impl Outcome {
    /// Whether the router dropped the packet: then nothing was done, and nothing is sent.
    pub fn is_dropped(self) -> bool {
        self.0 >= Outcome::NOT_RUNNING.0
    }
}

/// The answer of a call, where it is none of the faults.
pub(crate) fn checked(answer: i32) -> Result<i32, Fault> {
    if answer < 0 {
        Err(Fault(answer))
    } else {
        Ok(answer)
    }
}

/// The same of a call that says nothing else.
pub(crate) fn done(answer: i32) -> Result<(), Fault> {
    checked(answer).map(|_| ())
}

/// The same of a call that says yes or no.
pub(crate) fn whether(answer: i32) -> Result<bool, Fault> {
    checked(answer).map(|it| it == 1)
}

/// The same of a call that says how many bytes it wrote.
pub(crate) fn length(answer: i32) -> Result<usize, Fault> {
    checked(answer).map(|it| it as usize)
}

/// The same of an event of a router.
pub(crate) fn outcome(answer: i32) -> Result<Outcome, Fault> {
    checked(answer).map(Outcome)
}

fn write_words(f: &mut fmt::Formatter<'_>, answer: i32) -> fmt::Result {
    let mut words = [0; sys::IPXR_MOST_WORD];
    // SAFETY: pointer and length are the array's.
    let length = unsafe { sys::ipxr_word(answer, words.as_mut_ptr(), words.len()) };
    f.pad(&String::from_utf8_lossy(&words[..length]))
}

impl fmt::Display for Outcome {
    fn fmt(&self, f: &mut fmt::Formatter<'_>) -> fmt::Result {
        write_words(f, self.0)
    }
}

impl fmt::Display for Fault {
    fn fmt(&self, f: &mut fmt::Formatter<'_>) -> fmt::Result {
        write_words(f, self.0)
    }
}

impl core::error::Error for Fault {}

/// The version of the library: its calls stay while the first number does.
///
/// ```
/// assert_eq!(ipxr::version(), ipxr::VERSION);
/// ```
pub fn version() -> (u16, u16) {
    // SAFETY: it takes nothing, and keeps nothing.
    halves(unsafe { sys::ipxr_version() })
}

/// The version that this crate is made for.
pub const VERSION: (u16, u16) = halves(sys::IPXR_VERSION);

const fn halves(version: u32) -> (u16, u16) {
    ((version >> 16) as u16, (version & 0xFFFF) as u16)
}
