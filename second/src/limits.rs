//! The numbers of document 01, of request E8 and of the session format, each named once.

use std::ops::RangeInclusive;

/// A level in hundredths of a dBm.
pub const LEVEL_RANGE: RangeInclusive<i32> = -15_000..=0;
/// A quality in hundredths of a dB; SQI lies in it too.
pub const QUALITY_RANGE: RangeInclusive<i32> = -3_000..=4_000;

/// How many channel numbers there are; an outcome string has a byte for each.
pub const CHANNEL_NUMBERS: usize = 1_088;
/// The highest channel number.
pub const HIGHEST_CHANNEL: u16 = 1_087;
/// The channels that a sweep visits.
pub const SWEPT_CHANNELS: RangeInclusive<u16> = 2..=1_086;

/// The margin of a choice (SB_SELECTION_POWER), in hundredths.
pub const MARGIN_RANGE: RangeInclusive<i32> = 0..=6_000;
/// The highest outcome byte with a meaning.
pub const HIGHEST_OUTCOME: u8 = 5;
/// Outcome byte: not read yet.
pub const NOT_READ: u8 = 0;
/// Outcome byte: suitable.
pub const SUITABLE: u8 = 1;

/// How many neighbours a watch has at most.
pub const MOST_NEIGHBOURS: usize = 6;
/// The depth of a watch: how many levels make a full mean; older ones count no more.
pub const DEPTH_RANGE: RangeInclusive<u8> = 5..=31;
/// The depth that `start` means with a channel alone.
pub const USUAL_DEPTH: u8 = 15;
/// The hysteresis of a verdict, in hundredths.
pub const HYSTERESIS_RANGE: RangeInclusive<i32> = 0..=6_000;

/// SQT in 0.1 dB; 127 is null and refused.
pub const SQT_RANGE: RangeInclusive<i32> = 0..=126;
/// The numeric PAN and PAR codes, in 0.4 dB.
pub const NUMERIC_CODES: RangeInclusive<i32> = 0..=60;
/// The highest code of six bits; those above the numeric ones are escapes.
pub const HIGHEST_CODE: i32 = 63;
/// GainUp in 0.1.
pub const GAIN_UP_RANGE: RangeInclusive<i32> = 0..=31;
/// GainDn in 0.1.
pub const GAIN_DOWN_RANGE: RangeInclusive<i32> = 0..=10;
/// Mestep in 0.2 dB.
pub const MESTEP_RANGE: RangeInclusive<i32> = 0..=15;
/// Thousandths of a dB in one PAN or PAR code.
pub const CODE_STEP: i32 = 400;
/// Thousandths of a dB in one Mestep code.
pub const MESTEP_STEP: i32 = 200;
/// The greatest attenuation and the greatest increase, in thousandths.
pub const GREATEST_THOUSANDTHS: i32 = 24_000;

/// The longest line of a session that can be a call, in bytes.
pub const LONGEST_LINE: usize = 200;
/// How many digits a whole number of a session has at most.
pub const MOST_WHOLE_DIGITS: usize = 10;
/// How many digits a decimal float of a session has at most, in all.
pub const MOST_FLOAT_DIGITS: usize = 7;
/// How many channels a `beam` line can name after the serving one; more is an error line.
pub const MOST_LIST_WORDS: usize = 8;
