//! The band sweep: what was heard on channels 2 to 1,086.

use crate::border::{self, SweepOutcome};
use crate::readings::{Burst, Reading};
use crate::refusal::{accepted, foreign, Refusal};

/// How many channel numbers there are: they run 0 to 1,087.
pub const CHANNELS: usize = 1_088;

/// How many words a map has, a bit per channel: channel c is bit c % 64 of word c / 64.
pub const WORDS: usize = CHANNELS / 64;

/// The sweep record: a level for each channel number, and the maps of visited and of heard channels.
///
/// It may be taken apart, kept and made again by its fields. Every call tests it first and refuses one that is not
/// well formed with 9. Well formed: heard only where visited, no bit outside 2 to 1,086, level 0 where not heard, each
/// level in -15,000 to 0.
#[derive(Clone, Debug, PartialEq, Eq)]
#[repr(C)]
pub struct Sweep {
    /// In hundredths of a dB; 0 where nothing was heard.
    pub levels: [i32; CHANNELS],
    /// The channels that a result was filed for.
    pub visited: [u64; WORDS],
    /// Those of them that were heard.
    pub heard: [u64; WORDS],
}

/// Which channel comes next in a sweep.
#[derive(Clone, Copy, Debug, PartialEq, Eq)]
pub enum Next {
    /// The lowest channel not visited.
    Channel(u16),
    /// All 1,085 channels are visited: the sweep is finished.
    Done,
}

/// How many channels a sweep has visited and heard.
#[derive(Clone, Copy, Debug, PartialEq, Eq)]
pub struct Counts {
    /// Channels that a result was filed for.
    pub visited: u32,
    /// Those of them that were heard.
    pub heard: u32,
}

impl Sweep {
    /// A sweep with nothing visited: all zero.
    pub fn fresh() -> Sweep {
        border::royukezan_sweep_fresh()
    }

    /// Files a burst's result for a channel not yet visited. Refusals 9, 2, 3, 1.
    #[inline]
    pub fn file(&mut self, channel: u16, burst: Burst) -> Result<(), Refusal> {
        match burst {
            Burst::Heard(Reading { level, quality }) => self.file_heard(channel, level, quality),
            Burst::Missed => self.file_missed(channel),
        }
    }

    /// Files a heard burst, its level in dBm and its quality in dB. Refusals 9, 2, 3, 1.
    #[inline]
    pub fn file_heard(&mut self, channel: u16, level: f32, quality: f32) -> Result<(), Refusal> {
        self.keep(border::royukezan_sweep_file_heard_by_value(self.clone(), channel, level, quality))
    }

    /// Files a missed burst. Refusals 9, 2, 3.
    #[inline]
    pub fn file_missed(&mut self, channel: u16) -> Result<(), Refusal> {
        self.keep(border::royukezan_sweep_file_missed_by_value(self.clone(), channel))
    }

    /// The record that a call hands back; refused, it is the one that was given.
    #[inline]
    fn keep(&mut self, outcome: SweepOutcome) -> Result<(), Refusal> {
        *self = outcome.sweep;
        accepted(outcome.refusal)
    }

    /// The next channel, or done. Refusal 9.
    #[inline]
    pub fn next(&self) -> Result<Next, Refusal> {
        let answer = border::royukezan_sweep_next_by_value(self.clone());
        accepted(answer.refusal).map(|()| match answer.next {
            1 => Next::Channel(answer.channel),
            2 => Next::Done,
            other => foreign(other),
        })
    }

    /// The numbers of channels visited and heard. Refusal 9.
    #[inline]
    pub fn counts(&self) -> Result<Counts, Refusal> {
        let answer = border::royukezan_sweep_counts_by_value(self.clone());
        accepted(answer.refusal).map(|()| Counts { visited: answer.visited, heard: answer.heard })
    }

    /// Whether the record is well formed. Refusal 9.
    #[inline]
    pub fn check(&self) -> Result<(), Refusal> {
        accepted(border::royukezan_sweep_check_by_value(self.clone()))
    }
}
