//! The calls of one side, so that the same code compares and times both. Answers and records are told in the types of
//! the plain Rust, refusals by their numbers and places.

use crate::plain::{Burst, Choice, Levels, PowerParameters, PowerRecord, Sent, Sweep, Verdict, Watch};
use std::collections::BTreeSet;
use std::fmt::{self, Debug};
use std::ops::Range;

/// A refusal by its number and the place that is told with it, if one is. It is one word, so that an answer with it is
/// as small as one with a number: the place and 1 stand above the number, or 0. A list has places 0 to 5; one that
/// the bits do not hold would be told as the highest that they do.
#[derive(Clone, Copy, PartialEq, Eq, PartialOrd, Ord)]
pub struct Refused(u32);

const NUMBER_BITS: u32 = 8;

impl Refused {
    #[inline(always)]
    pub fn new(number: u32, place: Option<u32>) -> Refused {
        let told = place.map_or(0, |place| place.saturating_add(1).min(u32::MAX >> NUMBER_BITS));
        Refused(told << NUMBER_BITS | number)
    }

    pub fn number(self) -> u32 {
        self.0 % (1 << NUMBER_BITS)
    }

    pub fn place(self) -> Option<u32> {
        (self.0 >> NUMBER_BITS).checked_sub(1)
    }
}

impl Debug for Refused {
    fn fmt(&self, f: &mut fmt::Formatter) -> fmt::Result {
        write!(f, "refusal {}", self.number())?;
        self.place().map_or(Ok(()), |place| write!(f, " at {place}"))
    }
}

/// Every refusal of a faulty list, with each place that it can tell. The first place repeats none.
pub fn list_refusals() -> BTreeSet<Refused> {
    let at = |number, places: Range<u32>| places.map(move |place| Refused::new(number, Some(place)));
    let long = Refused::new(11, None);
    at(12, 0..6).chain(at(13, 1..6)).chain(at(14, 0..6)).chain([long]).collect()
}

/// What a call answers, or its refusal.
pub type Answer<T> = Result<T, Refused>;

/// A record of one side.
pub trait Record: Clone {
    type Plain: Clone + PartialEq + Debug;
    fn of(plain: &Self::Plain) -> Self;
    fn told(&self) -> Self::Plain;
}

/// For calls that have no record.
impl Record for () {
    type Plain = ();
    fn of((): &()) {}
    fn told(&self) {}
}

/// The calls of one side. Records are changed in place; a refused call leaves its record as it was.
pub trait Library {
    type Sweep: Record<Plain = Sweep>;
    type Watch: Record<Plain = Watch>;
    type Power: Record<Plain = PowerRecord>;

    fn level_to_hundredths(x: f32) -> Answer<i32>;
    fn quality_to_hundredths(x: f32) -> Answer<i32>;
    fn level_to_float(h: i32) -> Answer<f32>;
    fn quality_to_float(h: i32) -> Answer<f32>;
    fn level_read_back(h: i32) -> Answer<i32>;
    fn quality_read_back(h: i32) -> Answer<i32>;
    fn burst_to_hundredths(level: f32, quality: f32) -> Answer<(i32, i32)>;

    fn file_swept(sweep: &mut Self::Sweep, channel: u16, burst: Burst) -> Answer<()>;
    /// None is done.
    fn next(sweep: &Self::Sweep) -> Answer<Option<u16>>;
    /// Visited and heard.
    fn counts(sweep: &Self::Sweep) -> Answer<(u32, u32)>;
    fn check_sweep(sweep: &Self::Sweep) -> Answer<()>;
    fn choose(sweep: &Self::Sweep, margin: i32, outcomes: &[u8]) -> Answer<Choice>;

    fn start(watch: &mut Self::Watch, serving: u16, depth: usize) -> Answer<()>;
    fn new_beam(watch: &mut Self::Watch, serving: u16, list: &[u16]) -> Answer<()>;
    fn file(watch: &mut Self::Watch, channel: u16, burst: Burst) -> Answer<()>;
    fn ask(watch: &Self::Watch, channel: u16) -> Answer<Levels>;
    fn verdict(watch: &Self::Watch, hysteresis: i32) -> Answer<Verdict>;
    fn check_watch(watch: &Self::Watch) -> Answer<()>;

    fn start_power(p: &PowerParameters) -> Answer<Self::Power>;
    fn step_decoded(r: &mut Self::Power, p: &PowerParameters, pan: u32, par: u32, sqi: i32) -> Answer<Sent>;
    fn step_failed(r: &mut Self::Power, p: &PowerParameters, sqi: i32) -> Answer<Sent>;
    /// The same steps by value: the record that comes back is stored.
    fn after_decoded(r: &mut Self::Power, p: &PowerParameters, pan: u32, par: u32, sqi: i32) -> Answer<Sent>;
    fn after_failed(r: &mut Self::Power, p: &PowerParameters, sqi: i32) -> Answer<Sent>;
    fn check_power(r: &Self::Power) -> Answer<()>;
}

/// A value as a number; two that differ have two numbers.
pub trait Told {
    fn number(self) -> u64;
}

impl Told for () {
    fn number(self) -> u64 {
        0
    }
}

impl Told for i32 {
    fn number(self) -> u64 {
        u64::from(self as u32)
    }
}

impl Told for f32 {
    fn number(self) -> u64 {
        u64::from(self.to_bits())
    }
}

impl Told for Option<u16> {
    fn number(self) -> u64 {
        self.map_or(1 << 16, u64::from)
    }
}

impl Told for (u32, u32) {
    fn number(self) -> u64 {
        u64::from(self.0) << 32 | u64::from(self.1)
    }
}

/// The sign of the first is turned, so that no level has one of the last numbers, which tell refusals.
impl Told for (i32, i32) {
    fn number(self) -> u64 {
        ((self.0 ^ i32::MIN) as u32, self.1 as u32).number()
    }
}

impl Told for Choice {
    fn number(self) -> u64 {
        let (kind, channel, tried) = match self {
            Choice::Camp { channel, tried } => (1, channel, tried),
            Choice::Read { channel, tried } => (2, channel, tried),
            Choice::NoBeam { tried } => (3, 0, tried),
        };
        kind << 48 | u64::from(channel) << 32 | u64::from(tried)
    }
}

impl Told for Levels {
    fn number(self) -> u64 {
        (self.count as u64) << 32 | self.mean.number()
    }
}

impl Told for Verdict {
    fn number(self) -> u64 {
        match self {
            Verdict::Wait => 1 << 16,
            Verdict::Stay => 2 << 16,
            Verdict::MoveTo(channel) => u64::from(channel),
        }
    }
}

impl Told for Sent {
    fn number(self) -> u64 {
        (self.par, self.pan).number()
    }
}

/// An answer as a number. Refusals have the last ones, which no value has.
#[inline(always)]
pub fn told<T: Told>(answer: Answer<T>) -> u64 {
    answer.map_or_else(|refusal| u64::MAX - u64::from(refusal.0), T::number)
}

/// The refusal that a number tells, or none.
pub fn refusal_of(answer: u64) -> Option<Refused> {
    u32::try_from(u64::MAX - answer).ok().map(Refused)
}
