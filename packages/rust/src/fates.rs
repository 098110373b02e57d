//! What becomes of each packet that comes to a gateway. `docs/FATES.md` has the conditions of each fate.
//!
//! ```
//! use ipxr::fates::{Counts, Course, Fate};
//! use ipxr::sys;
//!
//! let mut course = Course::of_frame();
//! while let Some(next) = course.next() {
//!     // your own: answers a question, or does a deed. Here a frame that carries no IPX:
//!     course.answer(u16::from(next != sys::IPXR_NEXT_FRAME_IS_FRAME));
//! }
//! assert_eq!(course.fate(), Some(Fate::Lost(sys::IPXR_LOST_NO_IPX)));
//! let mut counts = Counts::default();
//! counts.count(&course);
//! assert_eq!(counts.lost(sys::IPXR_LOST_NO_IPX), 1);
//! ```
use crate::sys;
use crate::Outcome;

/// The fate of a packet.
#[derive(Clone, Copy, Debug, PartialEq, Eq)]
pub enum Fate {
    /// A network on another cable of the interface hears the frame; it isn't counted here.
    Elsewhere,
    /// The router heard it.
    Heard,
    /// The router drops it.
    Dropped(Outcome),
    /// It went to others of its network alone.
    HandedOn,
    /// The gateway answered it: it registers a client.
    Answered,
    /// It answers a ping, and its client stays.
    Stays,
    /// Somebody who asked got it.
    Awaited,
    /// It is a probe of the gateway's own.
    Probe,
    /// It goes no further, for one of the reasons `sys::IPXR_LOST_..`
    Lost(u8),
}

/// Where a packet is on its way.
#[derive(Clone, Copy, Debug, PartialEq, Eq)]
pub struct Course(sys::ipxr_course);

impl Course {
    /// The way of what came on a cable with frames, at its beginning.
    pub fn of_frame() -> Course {
        let mut course = Course(sys::ipxr_course::ZERO);
        // SAFETY: here and below pointers are to values that lie apart.
        unsafe { sys::ipxr_course_of_frame(&mut course.0) };
        course
    }

    /// The way of what came at a tunnel.
    pub fn of_datagram() -> Course {
        let mut course = Course(sys::ipxr_course::ZERO);
        unsafe { sys::ipxr_course_of_datagram(&mut course.0) };
        course
    }

    /// What is next, one of `sys::IPXR_NEXT_..`; nothing at the end.
    #[allow(clippy::should_implement_trait)]
    pub fn next(&self) -> Option<u8> {
        (self.0.next != sys::IPXR_NEXT_END).then_some(self.0.next)
    }

    /// What is next was answered.
    pub fn answer(&mut self, answer: u16) {
        unsafe { sys::ipxr_course_answer(&mut self.0, answer) }
    }

    /// The packet's fate, at the end of its way.
    pub fn fate(&self) -> Option<Fate> {
        if self.next().is_some() {
            return None;
        }
        Some(match self.0.fate {
            sys::IPXR_FATE_HEARD => Fate::Heard,
            sys::IPXR_FATE_DROPPED => Fate::Dropped(Outcome(self.0.number.into())),
            sys::IPXR_FATE_HANDED_ON => Fate::HandedOn,
            sys::IPXR_FATE_ANSWERED => Fate::Answered,
            sys::IPXR_FATE_STAYS => Fate::Stays,
            sys::IPXR_FATE_AWAITED => Fate::Awaited,
            sys::IPXR_FATE_PROBE => Fate::Probe,
            sys::IPXR_FATE_LOST => Fate::Lost(self.0.number as u8),
            _ => Fate::Elsewhere,
        })
    }
}

/// How many packets had each fate.
#[derive(Clone, Debug, PartialEq, Eq)]
pub struct Counts(sys::ipxr_counts);

impl Default for Counts {
    fn default() -> Counts {
        Counts(sys::ipxr_counts::ZERO)
    }
}

impl Counts {
    /// Counts the fate of a packet that is at the end of its way.
    pub fn count(&mut self, course: &Course) {
        unsafe { sys::ipxr_counts_count(&mut self.0, &course.0) }
    }

    /// Counts that something is lost for a reason, one of `sys::IPXR_LOST_..`: a copy, or what was to be sent.
    pub fn lose(&mut self, why: u8) {
        unsafe { sys::ipxr_counts_lose(&mut self.0, why) }
    }

    /// Packets that came.
    pub fn came(&self) -> u64 {
        self.0.r#in
    }

    /// What was lost for a reason.
    pub fn lost(&self, why: u8) -> u64 {
        self.0.lost.get(usize::from(why)).copied().unwrap_or_default()
    }

    /// Packets that the router dropped so.
    pub fn dropped(&self, why: Outcome) -> u64 {
        let place = why.0 / 100 * 10 + why.0 % 100;
        usize::try_from(place).ok().and_then(|it| self.0.dropped.get(it)).copied().unwrap_or_default()
    }
}
