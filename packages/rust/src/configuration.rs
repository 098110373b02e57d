//! A gateway's configuration.
use crate::sys;
use crate::{Network, Node};
use alloc::alloc::{alloc_zeroed, handle_alloc_error, Layout};
use alloc::boxed::Box;
use core::fmt;

/// What is wrong with a line of a [`Configuration`]. `sys` has the words of its numbers.
#[derive(Clone, Copy, Debug, PartialEq, Eq)]
pub struct LineWrong {
    /// What was expected there, one of `sys::IPXR_EXPECTED_..`; 0 if only `wrong.unlinked` says what is wrong.
    pub expected: u8,
    /// The number of the word that is wrong, and what else is said of it.
    pub wrong: sys::ipxr_line_wrong,
}

impl fmt::Display for LineWrong {
    fn fmt(&self, f: &mut fmt::Formatter<'_>) -> fmt::Result {
        match self.wrong.unlinked {
            0 => write!(f, "word {} is wrong: number {} was expected", self.wrong.word, self.expected),
            line => write!(f, "the network of line {line} has no link"),
        }
    }
}

impl core::error::Error for LineWrong {}

/// What the next line of a [`Configuration`] says.
#[derive(Clone, Debug, PartialEq, Eq)]
pub struct LineRead {
    /// What its words say, up to the first that is wrong.
    pub said: sys::ipxr_setting,
    /// What was expected there, one of `sys::IPXR_EXPECTED_..`, or 0.
    pub expected: u8,
    /// What else is said of what is wrong.
    pub wrong: sys::ipxr_line_wrong,
}

impl LineRead {
    /// Whether it is right, or what is wrong.
    pub fn result(&self) -> Result<(), LineWrong> {
        if self.expected == 0 && self.wrong.unlinked == 0 {
            Ok(())
        } else {
            Err(LineWrong { expected: self.expected, wrong: self.wrong })
        }
    }
}

/// A link, with all that lines say of it and of its network.
pub type Configured = sys::ipxr_configured;

/// The router's own network, which no cable carries.
#[derive(Clone, Copy, Debug, PartialEq, Eq)]
pub struct Internal {
    /// The number of the line that says it.
    pub line: usize,
    /// Its number.
    pub network: Network,
    /// The router's node there.
    pub node: Node,
}

/// A gateway's configuration, as far as its lines were read. `docs/CONFIGURATION.md` tells the rules.
///
/// ```
/// use ipxr::{Configuration, Network};
///
/// let mut all = Configuration::new();
/// all.lines("internal F0\nnetwork 10 1 1424 dosbox 2130\nclients 64 16\n", true).map_err(|(number, it)| format!("line {number}: {it}"))?;
/// let links: Vec<_> = all.links().collect();
/// assert_eq!((links.len(), links[0].number, links[0].longest, links[0].clients), (1, 0x10, 1424, 64));
/// assert_eq!(all.internal().map(|it| it.network), Some(Network(0xF0)));
/// # Ok::<(), String>(())
/// ```
#[derive(Debug)]
pub struct Configuration {
    all: Box<sys::ipxr_configuration>,
}

impl Default for Configuration {
    fn default() -> Configuration {
        Configuration::new()
    }
}

impl Configuration {
    /// That of no line.
    pub fn new() -> Configuration {
        let layout = Layout::new::<sys::ipxr_configuration>();
        // SAFETY: all bytes 0 are a value of it (`ipxr_configuration::ZERO`), which is too large for some stacks.
        let all = unsafe {
            let place = alloc_zeroed(layout).cast::<sys::ipxr_configuration>();
            if place.is_null() {
                handle_alloc_error(layout);
            }
            Box::from_raw(place)
        };
        Configuration { all }
    }

    /// Reads the next line; `line` is its number, from 1. `has_cards` is whether this system has all cards, or one of
    /// `sys::IPXR_CARDS_..`.
    pub fn line(&mut self, text: &str, line: usize, has_cards: impl Into<u8>) -> LineRead {
        let (mut said, mut wrong) = (sys::ipxr_setting::ZERO, sys::ipxr_line_wrong::ZERO);
        let (bytes, length, has_cards) = (text.as_ptr(), text.len(), has_cards.into());
        // SAFETY: here and below pointers and lengths are those of slices and values that lie apart.
        let expected = unsafe { sys::ipxr_configuration_line(&mut *self.all, bytes, length, line, has_cards, &mut said, &mut wrong) };
        LineRead { said, expected, wrong }
    }

    /// Reads all lines of a text up to the first that is wrong, and says its number.
    pub fn lines(&mut self, text: &str, has_cards: impl Into<u8>) -> Result<(), (usize, LineWrong)> {
        let has_cards = has_cards.into();
        for (number, line) in (1..).zip(text.lines()) {
            self.line(line, number, has_cards).result().map_err(|it| (number, it))?;
        }
        match self.unlinked() {
            None => Ok(()),
            Some(line) => {
                Err((line, LineWrong { expected: 0, wrong: sys::ipxr_line_wrong { unlinked: line, ..sys::ipxr_line_wrong::ZERO } }))
            }
        }
    }

    /// The line of the last network, if that has no link though no more lines come.
    pub fn unlinked(&self) -> Option<usize> {
        let line = unsafe { sys::ipxr_configuration_unlinked(&*self.all) };
        (line > 0).then_some(line)
    }

    /// What a line says of the router's own network.
    pub fn internal(&self) -> Option<Internal> {
        let mut it = sys::ipxr_internal::ZERO;
        let is_one = unsafe { sys::ipxr_configuration_internal(&*self.all, &mut it) };
        is_one.then_some(Internal { line: it.line, network: Network(it.number), node: Node(it.node) })
    }

    /// What all lines say of the link with that number, from 0.
    pub fn link(&self, number: usize) -> Option<Configured> {
        let mut it = Configured::ZERO;
        unsafe { sys::ipxr_configuration_link(&*self.all, number, &mut it) }.then_some(it)
    }

    /// The links; those of one network stand behind each other.
    pub fn links(&self) -> impl Iterator<Item = Configured> + '_ {
        (0..).map_while(|number| self.link(number))
    }
}
