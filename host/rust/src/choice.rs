//! Which beam to camp on or to read next, over a finished sweep.

use crate::border;
use crate::refusal::{accepted, foreign, Refusal};
use crate::sweep::Sweep;

/// Outcome byte: the channel's broadcast was not read yet.
pub const NOT_READ: u8 = 0;
/// Outcome byte: the beam suits.
pub const SUITABLE: u8 = 1;
/// Outcome byte: the beam is barred.
pub const BARRED: u8 = 2;
/// Outcome byte: the terminal's access class is not allowed.
pub const ACCESS_CLASS_NOT_ALLOWED: u8 = 3;
/// Outcome byte: the beam is another network's.
pub const OTHER_NETWORK: u8 = 4;
/// Outcome byte: the broadcast could not be read.
pub const UNREADABLE: u8 = 5;

/// What is chosen, with the number of beams tried: the chosen channel's place in the search order, counted from 1.
#[derive(Clone, Copy, Debug, PartialEq, Eq)]
pub enum Choice {
    /// Camp on this channel.
    Camp {
        /// The channel.
        channel: u16,
        /// Its place in the search order.
        tried: u32,
    },
    /// Read this channel's broadcast next, set its outcome byte, and choose again.
    Read {
        /// The channel.
        channel: u16,
        /// Its place in the search order.
        tried: u32,
    },
    /// Every heard beam within the margin was read, and none suits.
    NoBeam {
        /// How many these are; 0 if nothing was heard.
        tried: u32,
    },
}

/// The choice over a finished sweep, at a margin of 0 to 6,000 hundredths of a dB below the strongest level.
///
/// There is an outcome byte for each of the 1,088 channel numbers, 0 to 5; those of channels not heard are tested for
/// this range only. Refusals 9, 8, 7, 4.
#[inline]
pub fn choose(sweep: &Sweep, margin: i32, outcomes: &[u8]) -> Result<Choice, Refusal> {
    let (given, length) = (sweep.clone(), outcomes.len());
    // SAFETY: the pointer of a slice is not null, of an empty one too, and its bytes are only read, during the call.
    let answer = unsafe { border::royukezan_choose_by_value(given, margin, outcomes.as_ptr(), length) };
    let (channel, tried) = (answer.channel, answer.tried);
    accepted(answer.refusal).map(|()| match answer.choice {
        1 => Choice::Camp { channel, tried },
        2 => Choice::Read { channel, tried },
        3 => Choice::NoBeam { tried },
        other => foreign(other),
    })
}
