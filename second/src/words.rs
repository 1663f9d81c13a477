//! Number words for made sessions: floats at the ends, halves and odd patterns, and whole numbers in odd dress.

use crate::dice::Dice;
use crate::reading::nearest_float;

/// Bit patterns worth asking about: zeros, subnormals, the largest floats, infinities and NaN of every sort.
const ODD_BITS: [u32; 26] = [
    0x0000_0000, 0x8000_0000, 0x0000_0001, 0x8000_0001, 0x007f_ffff, 0x807f_ffff, 0x0080_0000, 0x8080_0000,
    0x7f7f_ffff, 0xff7f_ffff, 0x7f80_0000, 0xff80_0000, 0x7f80_0001, 0xff80_0001, 0x7fbf_ffff, 0xffbf_ffff,
    0x7fc0_0000, 0xffc0_0000, 0x7fff_ffff, 0xffff_ffff, 0x5e80_0000, 0xde80_0000, 0x3f80_0000, 0xbf80_0000,
    0x1234_5678, 0x9234_5678,
];

/// The ends of the ranges, and ends that a later request may bring: -150, 0, -30, 40, 20.
const END_BITS: [u32; 6] = [0xc316_0000, 0x0000_0000, 0x8000_0000, 0xc1f0_0000, 0x4220_0000, 0x41a0_0000];

/// Words for floats that are not plain decimals or bits.
const NAMED: [&str; 8] = ["nan", "inf", "-inf", "-0", "-0.0", "0", "0.0", "-0.00000"];

/// A float as its bits.
fn bits_word(bits: u32) -> String {
    format!("0x{bits:08x}")
}

/// Hundredths as a decimal, with two places or none that are not needed.
fn decimal_word(hundredths: i32) -> String {
    let sign = if hundredths < 0 { "-" } else { "" };
    let (whole, rest) = (hundredths.unsigned_abs() / 100, hundredths.unsigned_abs() % 100);
    match rest {
        0 => format!("{sign}{whole}"),
        _ if rest % 10 == 0 => format!("{sign}{whole}.{}", rest / 10),
        _ => format!("{sign}{whole}.{rest:02}"),
    }
}

/// A float that gives these hundredths: mostly a decimal, at times the bits of the float or of one beside it.
pub fn hundredths_word(dice: &mut Dice, hundredths: i32) -> String {
    let bits = nearest_float(hundredths < 0, u128::from(hundredths.unsigned_abs()), 100);
    match dice.below(8) {
        0 => bits_word(bits),
        // Towards zero, so that an end of the range is not passed.
        1 if bits & 0x7fff_ffff > 0 => bits_word(bits - 1),
        _ => decimal_word(hundredths),
    }
}

/// A float of any kind that a session can name.
pub fn any_float(dice: &mut Dice) -> String {
    match dice.below(12) {
        0 => dice.pick(&NAMED).to_string(),
        1 => bits_word(dice.pick(&ODD_BITS)),
        2 => bits_word(dice.pick(&END_BITS).wrapping_add(dice.pick(&[0, 0, 1, 2, u32::MAX, u32::MAX - 1]))),
        3 => bits_word(dice.bits() as u32),
        4 | 5 => exact_half(dice),
        6 | 7 => beside_a_half(dice),
        8 => long_decimal(dice),
        _ => {
            let hundredths = dice.between(-15_300, 4_300);
            decimal_word(hundredths)
        }
    }
}

/// A float whose hundredfold is exactly between two whole numbers: an odd number of eighths with a factor 25 below.
fn exact_half(dice: &mut Dice) -> String {
    let eighths = 2 * dice.between(-600, 160) + 1;
    let bits = nearest_float(eighths < 0, u128::from(eighths.unsigned_abs()), 8);
    match dice.below(4) {
        0 => bits_word(bits),
        1 => bits_word(bits.wrapping_add(dice.pick(&[1, u32::MAX]))),
        _ => {
            let thousandths = 125 * eighths.unsigned_abs();
            let sign = if eighths < 0 { "-" } else { "" };
            format!("{sign}{}.{:03}", thousandths / 1_000, thousandths % 1_000)
        }
    }
}

/// A float next to a half hundredth, on either side.
fn beside_a_half(dice: &mut Dice) -> String {
    let twice = 2 * dice.between(-15_001, 4_000) + 1;
    let bits = nearest_float(twice < 0, u128::from(twice.unsigned_abs()), 200);
    bits_word(bits.wrapping_add(dice.pick(&[0, 0, 1, 2, u32::MAX, u32::MAX - 1])))
}

/// A decimal of up to seven digits in any split.
fn long_decimal(dice: &mut Dice) -> String {
    let digits = dice.between(1, 7) as usize;
    let text: String = (0..digits).map(|_| char::from(b'0' + dice.below(10) as u8)).collect();
    let sign = if dice.one_in(4) { "" } else { "-" };
    let before = dice.between(1, digits.min(3) as i32) as usize;
    match text.split_at(before) {
        (whole, "") => format!("{sign}{whole}"),
        (whole, after) => format!("{sign}{whole}.{after}"),
    }
}

/// A whole number, at times with leading zeros or as minus zero.
pub fn whole_word(dice: &mut Dice, number: i32) -> String {
    let sign = if number < 0 || (number == 0 && dice.one_in(10)) { "-" } else { "" };
    match dice.below(20) {
        0 => format!("{sign}{:010}", number.unsigned_abs()),
        1 => format!("{sign}0{}", number.unsigned_abs()),
        _ => format!("{sign}{}", number.unsigned_abs()),
    }
}

#[cfg(test)]
mod tests {
    use super::*;
    use crate::limits::{LEVEL_RANGE, QUALITY_RANGE};
    use crate::parse::{call, Call, ReadingCall};
    use crate::reading::{level_hundredths, quality_hundredths};

    fn bits_of(word: &str) -> u32 {
        match call(format!("level {word}").as_bytes()) {
            Some(Call::Reading(ReadingCall::Level(bits))) => bits,
            _ => panic!("{word} is no float"),
        }
    }

    #[test]
    fn hundredths_words_give_their_hundredths() {
        let mut dice = Dice::seeded(1);
        for h in LEVEL_RANGE {
            assert_eq!(level_hundredths(bits_of(&hundredths_word(&mut dice, h))), Ok(h));
        }
        for h in QUALITY_RANGE {
            assert_eq!(quality_hundredths(bits_of(&hundredths_word(&mut dice, h))), Ok(h));
        }
    }

    #[test]
    fn every_float_made_is_a_word_of_the_format() {
        let mut dice = Dice::seeded(2);
        for _ in 0..50_000 {
            bits_of(&any_float(&mut dice));
        }
    }
}
