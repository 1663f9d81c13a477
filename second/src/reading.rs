//! Readings: single floats, held as their bits, to whole hundredths of a dB and back.
//! No float arithmetic is done; a float's bits are taken apart and all is worked out in whole numbers.

use crate::limits::{LEVEL_RANGE, QUALITY_RANGE};
use crate::refusal::Refusal;
use std::ops::RangeInclusive;

/// One result of the modem: heard with a level and a quality, both as the bits of a single float, or missed.
#[derive(Clone, Copy, Debug, PartialEq, Eq)]
pub enum Burst {
    Heard { level: u32, quality: u32 },
    Missed,
}

/// The exact value of a float as (whole, power), meaning whole x 2^power; None for NaN and the infinities.
fn taken_apart(bits: u32) -> Option<(i128, i32)> {
    let fraction = i128::from(bits & 0x007f_ffff);
    let (size, power) = match (bits >> 23) & 0xff {
        0xff => return None,
        0 => (fraction, -149),
        exponent => (fraction + (1 << 23), exponent as i32 - 150),
    };
    let negative = bits >> 31 == 1;
    Some((if negative { -size } else { size }, power))
}

/// The largest whole number not above whole x 2^power, for |whole| below 2^60 and power at most 60.
fn floor_of(whole: i128, power: i32) -> i128 {
    if power >= 0 {
        whole << power
    } else {
        // From 60 places on the answer is 0 or -1 and no longer changes, so 127 stands for any more.
        whole >> (-power).min(127)
    }
}

/// The smallest whole number not below whole x 2^power.
fn ceiling_of(whole: i128, power: i32) -> i128 {
    -floor_of(-whole, power)
}

/// Rule "hundredths": the whole number nearest to whole x 2^power, an exact half to the lower number.
fn nearest_half_lower(whole: i128, power: i32) -> i128 {
    let floor = floor_of(whole, power);
    let above_half = ceiling_of(2 * whole, power) > 2 * floor + 1;
    floor + i128::from(above_half)
}

/// The hundredths of a float, its exact value tested against the range before rounding.
fn hundredths(bits: u32, range: &RangeInclusive<i32>) -> Result<i32, Refusal> {
    let (whole, power) = taken_apart(bits).ok_or(Refusal::Reading)?;
    if power > 60 {
        // Such a float has a whole of at least 2^23 and lies far outside every range.
        return Err(Refusal::Reading);
    }
    let hundredfold = 100 * whole;
    let not_below = floor_of(hundredfold, power) >= i128::from(*range.start());
    let not_above = ceiling_of(hundredfold, power) <= i128::from(*range.end());
    if !(not_below && not_above) {
        return Err(Refusal::Reading);
    }
    i32::try_from(nearest_half_lower(hundredfold, power)).map_err(|_| Refusal::Reading)
}

/// Rule "a level lies in -150 to 0": its hundredths, or refusal 1.
pub fn level_hundredths(bits: u32) -> Result<i32, Refusal> {
    hundredths(bits, &LEVEL_RANGE)
}

/// Rule "a quality in -30 to +40": its hundredths, or refusal 1.
pub fn quality_hundredths(bits: u32) -> Result<i32, Refusal> {
    hundredths(bits, &QUALITY_RANGE)
}

/// Rule "both floats of a heard burst are tested": the level's hundredths, nothing for a missed burst, or refusal 1.
pub fn heard_level(burst: Burst) -> Result<Option<i32>, Refusal> {
    match burst {
        Burst::Missed => Ok(None),
        Burst::Heard { level, quality } => {
            quality_hundredths(quality)?;
            level_hundredths(level).map(Some)
        }
    }
}

/// The bits of the single float nearest to top / bottom, a tie to the even one.
/// Top is below 10^9, bottom at most 10^6, and top / bottom below 2^24; so the float is 0 or a normal one.
pub fn nearest_float(negative: bool, top: u128, bottom: u128) -> u32 {
    let sign = u32::from(negative) << 31;
    if top == 0 {
        return sign;
    }
    let mut doublings = 0;
    while (top << doublings) < (bottom << 23) {
        doublings += 1;
    }
    let scaled = top << doublings;
    let (mut mantissa, rest) = (scaled / bottom, scaled % bottom);
    if 2 * rest > bottom || (2 * rest == bottom && mantissa % 2 == 1) {
        mantissa += 1;
    }
    // A mantissa that has grown to 2^24 carries into the exponent by itself.
    sign | (((150 - doublings) << 23) + (mantissa as u32 - (1 << 23)))
}

/// Rule "shown again": the float h divided by 100, rounded once.
fn shown(hundredths: i32) -> u32 {
    nearest_float(hundredths < 0, u128::from(hundredths.unsigned_abs()), 100)
}

/// These hundredths of a level as a float, or refusal 1.
pub fn shown_level(hundredths: i32) -> Result<u32, Refusal> {
    if !LEVEL_RANGE.contains(&hundredths) {
        return Err(Refusal::Reading);
    }
    Ok(shown(hundredths))
}

/// These hundredths of a quality as a float, or refusal 1.
pub fn shown_quality(hundredths: i32) -> Result<u32, Refusal> {
    if !QUALITY_RANGE.contains(&hundredths) {
        return Err(Refusal::Reading);
    }
    Ok(shown(hundredths))
}

#[cfg(test)]
mod tests {
    use super::*;

    const REFUSED: Result<i32, Refusal> = Err(Refusal::Reading);

    fn level(float: f32) -> Result<i32, Refusal> {
        level_hundredths(float.to_bits())
    }

    fn quality(float: f32) -> Result<i32, Refusal> {
        quality_hundredths(float.to_bits())
    }

    #[test]
    fn checked_examples_of_readings() {
        assert_eq!(level(-100.125), Ok(-10_013));
        assert_eq!(quality(0.125), Ok(12));
        assert_eq!(quality(0.375), Ok(37));
        assert_eq!(level(-150.0), Ok(-15_000));
        assert_eq!(level_hundredths((-150.0_f32).to_bits() + 1), REFUSED);
        assert_eq!(level(f32::NAN), REFUSED);
        assert_eq!(quality(f32::NAN), REFUSED);
    }

    #[test]
    fn ends_are_in_and_the_next_floats_are_out() {
        assert_eq!(quality(-30.0), Ok(-3_000));
        assert_eq!(quality(40.0), Ok(4_000));
        assert_eq!(quality_hundredths((-30.0_f32).to_bits() + 1), REFUSED);
        assert_eq!(quality_hundredths(40.0_f32.to_bits() + 1), REFUSED);
        assert_eq!(quality_hundredths(40.0_f32.to_bits() - 1), Ok(4_000));
        assert_eq!(level(0.0), Ok(0));
        // The smallest float above 0 would round to 0, but its exact value is outside.
        assert_eq!(level_hundredths(1), REFUSED);
        assert_eq!(level_hundredths(0x8000_0001), Ok(0));
        assert_eq!(quality_hundredths(0x8000_0001), Ok(0));
    }

    #[test]
    fn minus_zero_is_zero_and_odd_patterns_are_refused() {
        assert_eq!(level_hundredths(0x8000_0000), Ok(0));
        assert_eq!(quality_hundredths(0x8000_0000), Ok(0));
        for bits in [0x7f80_0000, 0xff80_0000, 0x7f80_0001, 0xff80_0001, 0x7fc0_0000, 0xffff_ffff] {
            assert_eq!(level_hundredths(bits), REFUSED);
            assert_eq!(quality_hundredths(bits), REFUSED);
        }
        for bits in [0x7f7f_ffff, 0xff7f_ffff, 0x5f00_0000, 0xdf00_0000] {
            assert_eq!(level_hundredths(bits), REFUSED);
            assert_eq!(quality_hundredths(bits), REFUSED);
        }
    }

    /// 100 times a single float and half of it are exact as a double, which makes a check of its own kind.
    fn by_double(bits: u32, low: f64, high: f64) -> Result<i32, Refusal> {
        let exact = f64::from(f32::from_bits(bits));
        if !(low <= exact && exact <= high) {
            return REFUSED;
        }
        let hundredfold = 100.0 * exact;
        let floor = hundredfold.floor();
        Ok(floor as i32 + i32::from(hundredfold - floor > 0.5))
    }

    #[test]
    fn agrees_with_doubles_on_many_floats() {
        let mut bits: u32 = 0;
        for _ in 0..2_000_000 {
            bits = bits.wrapping_add(2_654_435_769);
            assert_eq!(level_hundredths(bits), by_double(bits, -150.0, 0.0), "{bits:08x}");
            assert_eq!(quality_hundredths(bits), by_double(bits, -30.0, 40.0), "{bits:08x}");
        }
    }

    #[test]
    fn agrees_with_doubles_next_to_every_half() {
        for h in -15_000..=4_000_i32 {
            let half = nearest_float(h < 0, u128::from((2 * h + 1).unsigned_abs()), 200);
            for bits in half.saturating_sub(2)..=half.saturating_add(2) {
                assert_eq!(level_hundredths(bits), by_double(bits, -150.0, 0.0), "{bits:08x}");
                assert_eq!(quality_hundredths(bits), by_double(bits, -30.0, 40.0), "{bits:08x}");
            }
        }
    }

    #[test]
    fn every_level_and_quality_reads_back() {
        for h in LEVEL_RANGE {
            assert_eq!(shown_level(h), Ok((h as f32 / 100.0).to_bits()));
            assert_eq!(level_hundredths(shown(h)), Ok(h));
        }
        for h in QUALITY_RANGE {
            assert_eq!(shown_quality(h), Ok((h as f32 / 100.0).to_bits()));
            assert_eq!(quality_hundredths(shown(h)), Ok(h));
        }
    }

    #[test]
    fn hundredths_outside_are_not_shown() {
        for h in [-15_001, 1, i32::MIN, i32::MAX] {
            assert_eq!(shown_level(h), Err(Refusal::Reading));
        }
        for h in [-3_001, 4_001, i32::MIN, i32::MAX] {
            assert_eq!(shown_quality(h), Err(Refusal::Reading));
        }
    }

    #[test]
    fn both_floats_of_a_heard_burst_are_tested() {
        let (good, bad) = ((-1.0_f32).to_bits(), 50.0_f32.to_bits());
        assert_eq!(heard_level(Burst::Heard { level: good, quality: good }), Ok(Some(-100)));
        assert_eq!(heard_level(Burst::Heard { level: good, quality: bad }), Err(Refusal::Reading));
        assert_eq!(heard_level(Burst::Heard { level: bad, quality: good }), Err(Refusal::Reading));
        assert_eq!(heard_level(Burst::Missed), Ok(None));
    }
}
