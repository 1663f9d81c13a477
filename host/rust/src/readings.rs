//! A burst's level and quality, from floats to whole hundredths of a dB and back.
//!
//! A level lies in -150 to 0 dBm, a quality in -30 to +40 dB, ends included; in hundredths -15,000 to 0 and -3,000 to
//! 4,000. The exact float is tested, before it is rounded. Any value may be given, a NaN too.

use crate::border::{self, FloatAnswer, HundredthsAnswer};
use crate::refusal::{accepted, Refusal};

/// The modem's result for one burst.
#[derive(Clone, Copy, Debug, PartialEq)]
pub enum Burst {
    /// The burst was heard, with these readings.
    Heard(Reading),
    /// It was not.
    Missed,
}

impl Burst {
    /// Heard, at a level in dBm and a quality in dB.
    pub const fn heard(level: f32, quality: f32) -> Burst {
        Burst::Heard(Reading { level, quality })
    }
}

/// What the modem measured of a heard burst.
#[derive(Clone, Copy, Debug, PartialEq)]
pub struct Reading {
    /// In dBm, -150 to 0.
    pub level: f32,
    /// In dB, -30 to +40.
    pub quality: f32,
}

/// The readings of a heard burst in whole hundredths of a dB.
#[derive(Clone, Copy, Debug, PartialEq, Eq)]
pub struct Hundredths {
    /// -15,000 to 0.
    pub level: i32,
    /// -3,000 to 4,000.
    pub quality: i32,
}

#[inline]
fn hundredths(answer: HundredthsAnswer) -> Result<i32, Refusal> {
    accepted(answer.refusal).map(|()| answer.hundredths)
}

#[inline]
fn float(answer: FloatAnswer) -> Result<f32, Refusal> {
    accepted(answer.refusal).map(|()| answer.value)
}

/// A level in dBm, in hundredths: the nearest whole number, an exact half to the lower. Refusal 1.
#[inline]
pub fn level_to_hundredths(x: f32) -> Result<i32, Refusal> {
    hundredths(border::royukezan_level_to_hundredths(x))
}

/// A quality in dB, in hundredths, rounded in the same way. Refusal 1.
#[inline]
pub fn quality_to_hundredths(x: f32) -> Result<i32, Refusal> {
    hundredths(border::royukezan_quality_to_hundredths(x))
}

/// A level of so many hundredths in dBm: h / 100, rounded once. Read again, it gives h. Refusal 1.
#[inline]
pub fn level_to_float(h: i32) -> Result<f32, Refusal> {
    float(border::royukezan_level_to_float(h))
}

/// A quality of so many hundredths in dB: h / 100, rounded once. Read again, it gives h. Refusal 1.
#[inline]
pub fn quality_to_float(h: i32) -> Result<f32, Refusal> {
    float(border::royukezan_quality_to_float(h))
}

/// A level's hundredths, shown as a float and read again: h. Refusal 1.
#[inline]
pub fn level_read_back(h: i32) -> Result<i32, Refusal> {
    hundredths(border::royukezan_level_read_back(h))
}

/// A quality's hundredths, shown as a float and read again: h. Refusal 1.
#[inline]
pub fn quality_read_back(h: i32) -> Result<i32, Refusal> {
    hundredths(border::royukezan_quality_read_back(h))
}

/// A heard burst in hundredths; both floats are tested. Refusal 1.
#[inline]
pub fn burst_to_hundredths(reading: Reading) -> Result<Hundredths, Refusal> {
    let answer = border::royukezan_burst_to_hundredths(reading.level, reading.quality);
    accepted(answer.refusal).map(|()| Hundredths { level: answer.level, quality: answer.quality })
}
