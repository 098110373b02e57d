//! Fair shares.
use crate::sys;

/// How much may wait for a [`Fair`] receiver, in nanoseconds: `docs/FAIR.md` says how to choose these.
#[derive(Clone, Copy, Debug, PartialEq, Eq)]
pub struct FairSetting {
    /// What each queue may have in any case: the longest packet, in all its frames, at least.
    pub one: u64,
    /// What each queue may have while the reserve lasts: no less than `one`.
    pub own: u64,
    /// Beyond the room, for queues that have no more than their own.
    pub reserve: u64,
    /// What all queues may have.
    pub room: u64,
}

impl FairSetting {
    pub(crate) fn raw(&self) -> sys::ipxr_fair_setting {
        let FairSetting { one, own, reserve, room } = *self;
        sys::ipxr_fair_setting { one, own, reserve, room }
    }

    pub(crate) fn of(it: &sys::ipxr_fair_setting) -> FairSetting {
        FairSetting { one: it.one, own: it.own, reserve: it.reserve, room: it.room }
    }
}

/// Somebody who reads only so fast, and to whom many speak: whoever says less than his part loses nothing.
///
/// ```
/// use ipxr::{Fair, FairSetting};
///
/// let setting = FairSetting { one: 2_000_000, own: 12_000_000, reserve: 100_000_000, room: 150_000_000 };
/// let mut client = Fair::new(&setting).ok_or("no such setting")?;
/// let (flood, player) = (1, 2);
/// while client.says(flood, 1_000_000) {}
/// assert!(client.says(player, 1_000_000)); // the flood is full, the player isn't
/// # Ok::<(), &str>(())
/// ```
#[derive(Clone, Debug, PartialEq, Eq)]
#[repr(transparent)]
pub struct Fair(pub(crate) sys::ipxr_fair);

impl Fair {
    /// A receiver of that setting, for which nothing waits. Nothing if `one` is more than `own`, or a number more than
    /// [`sys::IPXR_MOST_TIME`].
    pub fn new(setting: &FairSetting) -> Option<Fair> {
        let mut fair = Fair(sys::ipxr_fair::ZERO);
        // SAFETY: here and below pointers are to values that lie apart.
        unsafe { sys::ipxr_fair_make(&mut fair.0, &setting.raw()) }.then_some(fair)
    }

    /// The time passes that your clock shows beyond what it showed at the last look, which `clock` has.
    pub fn look(&mut self, clock: &mut u64, now: u64) {
        unsafe { sys::ipxr_fair_look(&mut self.0, clock, now) }
    }

    /// So many nanoseconds pass.
    pub fn pass(&mut self, nanoseconds: u64) {
        unsafe { sys::ipxr_fair_pass(&mut self.0, nanoseconds) }
    }

    /// A speaker says a packet of that weight. Returns whether it is heard: then you send it.
    pub fn says(&mut self, speaker: u8, weight: u64) -> bool {
        unsafe { sys::ipxr_fair_says(&mut self.0, speaker, weight) }
    }

    /// The same of a packet that two receivers must hear: both or neither do.
    pub fn both_hear(&mut self, other: &mut Fair, speaker: u8, weight: u64, other_weight: u64) -> bool {
        unsafe { sys::ipxr_fair_both_hear(&mut self.0, &mut other.0, speaker, weight, other_weight) }
    }

    /// What the library keeps of it, to be read.
    pub fn raw(&self) -> &sys::ipxr_fair {
        &self.0
    }
}

/// How much of a limit is used: so much in so much time, and so much at once.
///
/// ```
/// use ipxr::Meter;
///
/// let mut meter = Meter::default();
/// let lets = (0..5).filter(|_| meter.lets(3_000, 1_000)).count();
/// assert_eq!(lets, 3);
/// meter.pass(1_000);
/// assert!(meter.lets(3_000, 1_000));
/// ```
#[derive(Clone, Copy, Debug, PartialEq, Eq)]
#[repr(transparent)]
pub struct Meter(pub(crate) sys::ipxr_meter);

impl Default for Meter {
    fn default() -> Meter {
        Meter(sys::ipxr_meter::ZERO)
    }
}

impl Meter {
    /// So many nanoseconds pass: less of the limit is used.
    pub fn pass(&mut self, nanoseconds: u64) {
        unsafe { sys::ipxr_meter_pass(&mut self.0, nanoseconds) }
    }

    /// Lets something of that weight pass if no more than `burst` is used then, and counts it.
    pub fn lets(&mut self, burst: u64, weight: u64) -> bool {
        unsafe { sys::ipxr_meter_lets(&mut self.0, burst, weight) }
    }

    /// The same by two meters: it passes if both let it.
    pub fn both_let(&mut self, burst: u64, weight: u64, other: &mut Meter, other_burst: u64, other_weight: u64) -> bool {
        unsafe { sys::ipxr_meter_both_let(&mut self.0, burst, weight, &mut other.0, other_burst, other_weight) }
    }

    /// Nanoseconds of it that are used.
    pub fn used(&self) -> u64 {
        self.0.used
    }
}
