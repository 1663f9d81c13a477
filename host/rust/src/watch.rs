//! The neighbour watch: the serving channel and up to six neighbours, their levels, and whether to stay or move.

use crate::border::{self, WatchOutcome};
use crate::readings::{Burst, Reading};
use crate::refusal::{accepted, accepted_at, foreign, Refusal};

/// The lowest depth of a watch: how many of a channel's levels count.
pub const DEPTH_LOWEST: usize = 5;

/// The highest depth of a watch, and so the most levels that a channel keeps.
pub const DEPTH_HIGHEST: usize = 31;

/// How many places a track has for levels, at least the highest depth.
pub const CAPACITY: usize = 32;

/// How many channels are watched at most: the serving channel and six neighbours.
pub const ROOM: usize = 7;

/// A channel under watch with its levels.
#[derive(Clone, Copy, Debug, PartialEq, Eq)]
#[repr(C)]
pub struct Track {
    /// 0 to 1,087.
    pub channel: u16,
    /// How many levels there are, 0 to the depth of the watch.
    pub count: usize,
    /// In hundredths of a dB, oldest first; 0 from the count on.
    pub levels: [i16; CAPACITY],
}

/// The watch record: the first `watched` tracks are the serving channel and the list, in this order.
///
/// It may be taken apart, kept and made again by its fields. Every call tests it first and refuses one that is not
/// well formed with 9. Well formed: what some calls from a fresh watch leave. So channels differ and are in range,
/// counts are at most the depth, levels are in -15,000 to 0, and what is not used is 0. An idle watch is all zero.
#[derive(Clone, Debug, PartialEq, Eq)]
#[repr(C)]
pub struct Watch {
    /// How many tracks are in use, 0 to 7; 0 is an idle watch.
    pub watched: usize,
    /// The serving channel, then its neighbours; unused tracks are all zero.
    pub tracks: [Track; ROOM],
    /// How many of a channel's levels count: 5 to 31, given at the start; 0 in an idle watch.
    pub depth: usize,
}

/// The levels of a channel that count.
#[derive(Clone, Copy, Debug, PartialEq, Eq)]
pub struct Levels {
    /// 0 to the depth of the watch.
    pub count: u32,
    /// In hundredths of a dB: the largest whole number not above sum / count; 0 for a count of 0.
    pub mean: i32,
}

/// What to do about the serving channel.
#[derive(Clone, Copy, Debug, PartialEq, Eq)]
pub enum Verdict {
    /// The serving channel has fewer levels than the depth.
    Wait,
    /// No neighbour is better by more than the hysteresis.
    Stay,
    /// This neighbour is the best of those that are; of equals it is the lowest channel.
    MoveTo(u16),
}

impl Watch {
    /// An idle watch: all zero.
    pub fn fresh() -> Watch {
        border::royukezan_watch_fresh()
    }

    /// Watches this channel alone, as the serving one, without levels; what was watched before is forgotten. The
    /// depth, 5 to 31, is how many of a channel's levels count, the newest; it stays until the next accepted start.
    /// Refusals 9, 7, 2.
    #[inline]
    pub fn start(&mut self, serving: u16, depth: usize) -> Result<(), Refusal> {
        self.keep(border::royukezan_watch_start_by_value(self.clone(), serving, depth))
    }

    /// A new beam: this channel serves now, and its neighbours are those of the list, up to 6 other channels in any
    /// order. It may be the channel that serves already, a neighbour or a stranger. A channel watched before and after
    /// keeps its levels, in whichever role, and the depth stays. Refusals 9, 2, 11, then 12 to 14 with the place of the
    /// first faulty channel, 6.
    #[inline]
    pub fn new_beam(&mut self, serving: u16, list: &[u16]) -> Result<(), Refusal> {
        let (given, length) = (self.clone(), list.len());
        // SAFETY: the pointer of a slice is aligned and not null, of an empty one too, and its channels are only
        // read, during the call.
        let outcome = unsafe { border::royukezan_watch_new_beam_by_value(given, serving, list.as_ptr(), length) };
        self.keep(outcome)
    }

    /// Files a burst's result. Refusals 9, 6, 1.
    #[inline]
    pub fn file(&mut self, channel: u16, burst: Burst) -> Result<(), Refusal> {
        match burst {
            Burst::Heard(Reading { level, quality }) => self.file_heard(channel, level, quality),
            Burst::Missed => self.file_missed(channel),
        }
    }

    /// Files a heard burst, its level in dBm and its quality in dB: the level is added as the newest, and beyond the
    /// depth the oldest goes. Refusals 9, 6, 1.
    #[inline]
    pub fn file_heard(&mut self, channel: u16, level: f32, quality: f32) -> Result<(), Refusal> {
        self.keep(border::royukezan_watch_file_heard_by_value(self.clone(), channel, level, quality))
    }

    /// Files a missed burst, which changes nothing. Refusals 9, 6.
    #[inline]
    pub fn file_missed(&mut self, channel: u16) -> Result<(), Refusal> {
        self.keep(border::royukezan_watch_file_missed_by_value(self.clone(), channel))
    }

    /// The record that a call hands back; refused, it is the one that was given.
    #[inline]
    fn keep(&mut self, outcome: WatchOutcome) -> Result<(), Refusal> {
        *self = outcome.watch;
        accepted_at(outcome.refusal, outcome.place)
    }

    /// The count and the mean of a channel's levels. Refusals 9, 6.
    #[inline]
    pub fn ask(&self, channel: u16) -> Result<Levels, Refusal> {
        let answer = border::royukezan_watch_ask_by_value(self.clone(), channel);
        accepted(answer.refusal).map(|()| Levels { count: answer.count, mean: answer.mean })
    }

    /// Wait, stay or move, at a hysteresis of 0 to 6,000 hundredths of a dB. Refusals 9, 7, 6.
    #[inline]
    pub fn verdict(&self, hysteresis: i32) -> Result<Verdict, Refusal> {
        let answer = border::royukezan_watch_verdict_by_value(self.clone(), hysteresis);
        accepted(answer.refusal).map(|()| match answer.verdict {
            1 => Verdict::Wait,
            2 => Verdict::Stay,
            3 => Verdict::MoveTo(answer.channel),
            other => foreign(other),
        })
    }

    /// Whether the record is well formed. Refusal 9.
    #[inline]
    pub fn check(&self) -> Result<(), Refusal> {
        accepted(border::royukezan_watch_check_by_value(self.clone()))
    }
}
