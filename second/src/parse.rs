//! The lines and words of a session file: a line of bytes to a call, or to nothing when it is none.

use crate::limits::{
    HIGHEST_CHANNEL, LONGEST_LINE, MOST_FLOAT_DIGITS, MOST_LIST_WORDS, MOST_WHOLE_DIGITS, USUAL_DEPTH,
};
use crate::power::{Codes, Parameters};
use crate::reading::{nearest_float, Burst};

/// One call of a session; a float is held as its bits.
#[derive(Clone, Debug, PartialEq, Eq)]
pub enum Call {
    Reading(ReadingCall),
    Sweep(SweepCall),
    Watch(WatchCall),
    Power(PowerCall),
}

/// The calls that turn floats to hundredths and back.
#[derive(Clone, Debug, PartialEq, Eq)]
pub enum ReadingCall {
    Level(u32),
    Quality(u32),
    ShowLevel(i32),
    ShowQuality(i32),
}

/// The calls on the sweep, and the choice over it.
#[derive(Clone, Debug, PartialEq, Eq)]
pub enum SweepCall {
    Fresh,
    File(u16, Burst),
    RestMissed,
    Next,
    Counts,
    Outcome(u16, u8),
    Choose(i32),
}

/// The calls on the watch; a start has the serving channel and the depth, a new beam the serving channel and its list.
#[derive(Clone, Debug, PartialEq, Eq)]
pub enum WatchCall {
    Start(u16, u8),
    Beam(u16, Vec<u16>),
    File(u16, Burst),
    Ask(u16),
    Verdict(i32),
}

/// The calls of the power loop.
#[derive(Clone, Debug, PartialEq, Eq)]
pub enum PowerCall {
    Params(Parameters),
    Start,
    Step(Option<Codes>, i32),
}

/// Rule "passed over": an empty line, and one that begins with `#`, whatever its length and bytes.
pub fn passed_over(line: &[u8]) -> bool {
    matches!(line.first(), None | Some(b'#'))
}

/// The call that a line makes; None writes an error line.
pub fn call(line: &[u8]) -> Option<Call> {
    if line.len() > LONGEST_LINE {
        return None;
    }
    // Rule "exactly one space": two together, or one at an end, give an empty word, which nothing takes.
    let words: Vec<&[u8]> = line.split(|byte| *byte == b' ').collect();
    match *words.first()? {
        b"level" | b"quality" | b"show" => reading_call(&words).map(Call::Reading),
        b"sweep" | b"outcome" | b"choose" => sweep_call(&words).map(Call::Sweep),
        b"start" | b"beam" | b"file" | b"ask" | b"verdict" => watch_call(&words).map(Call::Watch),
        b"params" | b"power" | b"step" => power_call(&words).map(Call::Power),
        _ => None,
    }
}

/// `level`, `quality`, `show level` and `show quality`.
fn reading_call(words: &[&[u8]]) -> Option<ReadingCall> {
    match *words {
        [b"level", float] => Some(ReadingCall::Level(num(float)?)),
        [b"quality", float] => Some(ReadingCall::Quality(num(float)?)),
        [b"show", b"level", hundredths] => Some(ReadingCall::ShowLevel(int(hundredths)?)),
        [b"show", b"quality", hundredths] => Some(ReadingCall::ShowQuality(int(hundredths)?)),
        _ => None,
    }
}

/// `sweep ..`, `outcome` and `choose`.
fn sweep_call(words: &[&[u8]]) -> Option<SweepCall> {
    match *words {
        [b"sweep", b"fresh"] => Some(SweepCall::Fresh),
        [b"sweep", b"file", channel, ref result @ ..] => Some(SweepCall::File(ch(channel)?, burst(result)?)),
        [b"sweep", b"rest", b"missed"] => Some(SweepCall::RestMissed),
        [b"sweep", b"next"] => Some(SweepCall::Next),
        [b"sweep", b"counts"] => Some(SweepCall::Counts),
        [b"outcome", channel, outcome] => {
            // Rule "a channel 0 to 1,087 (above: an error line)".
            let channel = ch(channel).filter(|channel| *channel <= HIGHEST_CHANNEL)?;
            Some(SweepCall::Outcome(channel, byte(outcome)?))
        }
        [b"choose", margin] => Some(SweepCall::Choose(int(margin)?)),
        _ => None,
    }
}

/// `start`, `beam`, `file`, `ask` and `verdict`.
fn watch_call(words: &[&[u8]]) -> Option<WatchCall> {
    match *words {
        [b"start", channel] => Some(WatchCall::Start(ch(channel)?, USUAL_DEPTH)),
        [b"start", channel, depth] => Some(WatchCall::Start(ch(channel)?, byte(depth)?)),
        [b"beam", serving, ref channels @ ..] if channels.len() <= MOST_LIST_WORDS => {
            let list: Option<Vec<u16>> = channels.iter().map(|channel| ch(channel)).collect();
            Some(WatchCall::Beam(ch(serving)?, list?))
        }
        [b"file", channel, ref result @ ..] => Some(WatchCall::File(ch(channel)?, burst(result)?)),
        [b"ask", channel] => Some(WatchCall::Ask(ch(channel)?)),
        [b"verdict", hysteresis] => Some(WatchCall::Verdict(int(hysteresis)?)),
        _ => None,
    }
}

/// `params`, `power start` and `step`.
fn power_call(words: &[&[u8]]) -> Option<PowerCall> {
    match *words {
        [b"params", sqt, init, min, max, up, down, step] => Some(PowerCall::Params(Parameters {
            sqt: i32::from(byte(sqt)?),
            pan_init: i32::from(byte(init)?),
            pan_min: i32::from(byte(min)?),
            pan_max: i32::from(byte(max)?),
            gain_up: i32::from(byte(up)?),
            gain_down: i32::from(byte(down)?),
            mestep: i32::from(byte(step)?),
        })),
        [b"power", b"start"] => Some(PowerCall::Start),
        [b"step", b"failed", sqi] => Some(PowerCall::Step(None, int(sqi)?)),
        [b"step", pan, par, sqi] => {
            let codes = Codes { pan: i32::from(byte(pan)?), par: i32::from(byte(par)?) };
            Some(PowerCall::Step(Some(codes), int(sqi)?))
        }
        _ => None,
    }
}

/// BURST: `heard NUM NUM` or `missed`.
fn burst(words: &[&[u8]]) -> Option<Burst> {
    match *words {
        [b"heard", level, quality] => Some(Burst::Heard { level: num(level)?, quality: num(quality)? }),
        [b"missed"] => Some(Burst::Missed),
        _ => None,
    }
}

/// A leading `-`, if there is one, and the rest of the word.
fn sign_and_rest(word: &[u8]) -> (bool, &[u8]) {
    match word {
        [b'-', rest @ ..] => (true, rest),
        _ => (false, word),
    }
}

/// The value of a run of decimal digits, at least one and at most `most` of them.
fn digits(word: &[u8], most: usize) -> Option<u64> {
    if word.is_empty() || word.len() > most || !word.iter().all(u8::is_ascii_digit) {
        return None;
    }
    Some(word.iter().fold(0, |value, digit| 10 * value + u64::from(digit - b'0')))
}

/// A whole number: an optional `-` and 1 to 10 decimal digits.
fn whole(word: &[u8]) -> Option<i64> {
    let (negative, rest) = sign_and_rest(word);
    let size = i64::try_from(digits(rest, MOST_WHOLE_DIGITS)?).ok()?;
    Some(if negative { -size } else { size })
}

/// INT: a whole number of 32 bits with a sign.
fn int(word: &[u8]) -> Option<i32> {
    i32::try_from(whole(word)?).ok()
}

/// CH: a whole number 0 to 65535.
fn ch(word: &[u8]) -> Option<u16> {
    u16::try_from(whole(word)?).ok()
}

/// BYTE: a whole number 0 to 255.
fn byte(word: &[u8]) -> Option<u8> {
    u8::try_from(whole(word)?).ok()
}

/// NUM: a decimal, bits, `nan`, `inf` or `-inf`, as the bits of a single float.
fn num(word: &[u8]) -> Option<u32> {
    match word {
        b"nan" => Some(0x7fc0_0000),
        b"inf" => Some(0x7f80_0000),
        b"-inf" => Some(0xff80_0000),
        [b'0', b'x', hex @ ..] => float_bits(hex),
        _ => decimal(word),
    }
}

/// Exactly 8 lower-case hex digits.
fn float_bits(hex: &[u8]) -> Option<u32> {
    if hex.len() != 8 {
        return None;
    }
    let mut bits = 0;
    for digit in hex {
        let value = match digit {
            b'0'..=b'9' => digit - b'0',
            b'a'..=b'f' => digit - b'a' + 10,
            _ => return None,
        };
        bits = 16 * bits + u32::from(value);
    }
    Some(bits)
}

/// A decimal of at most 7 digits in all, at least one before the point and, where there is a point, after it.
fn decimal(word: &[u8]) -> Option<u32> {
    let (negative, rest) = sign_and_rest(word);
    let parts: Vec<&[u8]> = rest.split(|byte| *byte == b'.').collect();
    let (before, after) = match *parts {
        [before] => (before, None),
        [before, after] => (before, Some(after)),
        _ => return None,
    };
    if before.is_empty() || after.is_some_and(<[u8]>::is_empty) {
        return None;
    }
    let after = after.unwrap_or(b"");
    let top = digits(&[before, after].concat(), MOST_FLOAT_DIGITS)?;
    let bottom = 10_u128.pow(u32::try_from(after.len()).ok()?);
    Some(nearest_float(negative, u128::from(top), bottom))
}

#[cfg(test)]
mod tests {
    use super::*;
    use super::{PowerCall as P, ReadingCall as R, SweepCall as S, WatchCall as W};

    fn is_error(line: &str) -> bool {
        call(line.as_bytes()).is_none()
    }

    #[test]
    fn a_word_has_exactly_one_space_around_it() {
        assert!(!is_error("sweep rest missed"));
        for line in [" sweep next", "sweep next ", "sweep  next", "sweep\tnext", " ", "  "] {
            assert!(is_error(line), "{line:?}");
        }
        for line in ["beam ", " beam 1", "beam  1", "beam 1 ", "beam 1  2", "# x".trim_start_matches('#')] {
            assert!(is_error(line), "{line:?}");
        }
    }

    #[test]
    fn odd_bytes_make_a_line_none_of_the_calls() {
        for odd in [b'\r', b'\t', 0, 0x80, 0xff, 0x0b, 0xa0] {
            for place in 0..=10 {
                let mut line = b"sweep next".to_vec();
                line.insert(place, odd);
                assert_eq!(call(&line), None);
            }
        }
    }

    #[test]
    fn lines_passed_over_are_empty_or_comments() {
        assert!(passed_over(b"") && passed_over(b"#") && passed_over(b"#\xff\0\r"));
        assert!(!passed_over(b" ") && !passed_over(b" #") && !passed_over(b"\r"));
    }

    #[test]
    fn whole_numbers_have_one_to_ten_digits_and_no_plus() {
        assert_eq!(int(b"-0"), Some(0));
        assert_eq!(int(b"0000000012"), Some(12));
        assert_eq!(int(b"-0000000012"), Some(-12));
        assert_eq!(int(b"2147483647"), Some(i32::MAX));
        assert_eq!(int(b"-2147483648"), Some(i32::MIN));
        for word in ["", "-", "--1", "+1", "1-", "00000000012", "2147483648", "-2147483649"] {
            assert_eq!(int(word.as_bytes()), None, "{word}");
        }
        for word in ["9999999999", "1.0", "1e2", "0x10", "nan", "1 ", "\u{661}"] {
            assert_eq!(int(word.as_bytes()), None, "{word}");
        }
    }

    #[test]
    fn channels_and_bytes_have_their_ranges() {
        assert_eq!((ch(b"-0"), ch(b"65535"), ch(b"0000065535")), (Some(0), Some(65_535), Some(65_535)));
        assert_eq!((ch(b"65536"), ch(b"-1"), ch(b"4294967296")), (None, None, None));
        assert_eq!((byte(b"-0"), byte(b"255"), byte(b"256"), byte(b"-1")), (Some(0), Some(255), None, None));
    }

    #[test]
    fn floats_by_bits_and_by_name() {
        assert_eq!(num(b"0xc3160000"), Some((-150.0_f32).to_bits()));
        assert_eq!(num(b"0xffffffff"), Some(u32::MAX));
        assert_eq!(num(b"nan").map(|bits| f32::from_bits(bits).is_nan()), Some(true));
        assert_eq!(num(b"inf"), Some(f32::INFINITY.to_bits()));
        assert_eq!(num(b"-inf"), Some(f32::NEG_INFINITY.to_bits()));
        for word in ["-nan", "+inf", "NaN", "Inf", "infinity", "0X00000000", "-0x00000000"] {
            assert_eq!(num(word.as_bytes()), None, "{word}");
        }
        for word in ["0x", "0x0000000", "0x000000000", "0xABCDEF01", "0x0000000g", "0x-0000001"] {
            assert_eq!(num(word.as_bytes()), None, "{word}");
        }
    }

    #[test]
    fn decimals_have_at_most_seven_digits() {
        assert_eq!(num(b"-0"), Some(0x8000_0000));
        assert_eq!(num(b"-0.0"), Some(0x8000_0000));
        assert_eq!(num(b"0"), Some(0));
        assert_eq!(num(b"0000001"), Some(1.0_f32.to_bits()));
        assert_eq!(num(b"-90.13"), Some((-90.13_f32).to_bits()));
        assert_eq!(num(b"9999999"), Some(9_999_999.0_f32.to_bits()));
        for word in ["", "-", "5.", ".5", "-.5", "-5.", ".", "-.", "1e2", "+1", "1.2.3", "1..2", "--1"] {
            assert_eq!(num(word.as_bytes()), None, "{word}");
        }
        for word in ["00000001", "12345678", "0.0000001", "1234.5678", "1-2", "1.-2", "0x1.8"] {
            assert_eq!(num(word.as_bytes()), None, "{word}");
        }
    }

    #[test]
    fn decimals_mean_the_nearest_float() {
        let mut top: u64 = 1;
        for _ in 0..200_000 {
            top = (top * 48_271) % 2_147_483_647;
            let (value, places) = (top % 10_000_000, (top / 10_000_000) % 7);
            let text = format!("{value:07}");
            let (before, after) = text.split_at(7 - places as usize);
            let word = if after.is_empty() { before.to_string() } else { format!("{before}.{after}") };
            // Rust's own reading of a decimal is correctly rounded.
            let expected = word.parse::<f32>().unwrap().to_bits();
            assert_eq!(num(word.as_bytes()), Some(expected), "{word}");
        }
    }

    #[test]
    fn every_call_is_read() {
        let heard = Burst::Heard { level: 0x8000_0000, quality: 0x7fc0_0000 };
        let cases = [
            ("level 1", Call::Reading(R::Level(1.0_f32.to_bits()))),
            ("quality 0x00000001", Call::Reading(R::Quality(1))),
            ("show level -5", Call::Reading(R::ShowLevel(-5))),
            ("show quality 7", Call::Reading(R::ShowQuality(7))),
            ("sweep fresh", Call::Sweep(S::Fresh)),
            ("sweep file 9 missed", Call::Sweep(S::File(9, Burst::Missed))),
            ("sweep file 9 heard -0 nan", Call::Sweep(S::File(9, heard))),
            ("sweep next", Call::Sweep(S::Next)),
            ("sweep counts", Call::Sweep(S::Counts)),
            ("outcome 1087 255", Call::Sweep(S::Outcome(1_087, 255))),
            ("choose -1", Call::Sweep(S::Choose(-1))),
            ("start 65535", Call::Watch(W::Start(65_535, 15))),
            ("start 65535 31", Call::Watch(W::Start(65_535, 31))),
            ("beam 9", Call::Watch(W::Beam(9, vec![]))),
            ("beam 65535 9 1 1 3 4 5 6 7", Call::Watch(W::Beam(65_535, vec![9, 1, 1, 3, 4, 5, 6, 7]))),
            ("file 3 missed", Call::Watch(W::File(3, Burst::Missed))),
            ("ask 0", Call::Watch(W::Ask(0))),
            ("verdict 6001", Call::Watch(W::Verdict(6_001))),
            ("power start", Call::Power(P::Start)),
            ("step failed -3000", Call::Power(P::Step(None, -3_000))),
            ("step 255 63 4", Call::Power(P::Step(Some(Codes { pan: 255, par: 63 }), 4))),
        ];
        for (line, expected) in cases {
            assert_eq!(call(line.as_bytes()), Some(expected), "{line}");
        }
    }

    #[test]
    fn the_depth_of_a_start_is_any_byte() {
        for (line, channel, depth) in [
            ("start 5", 5, 15), ("start 5 15", 5, 15), ("start 5 -0", 5, 0), ("start 5 0", 5, 0), ("start 5 4", 5, 4),
            ("start 5 255", 5, 255), ("start 5 0000000031", 5, 31), ("start -0 -00", 0, 0),
            ("start 1088 32", 1_088, 32),
        ] {
            assert_eq!(call(line.as_bytes()), Some(Call::Watch(W::Start(channel, depth))), "{line}");
        }
        for line in [
            "start 5 256", "start 5 -1", "start 5 1 2", "start 5 15 15", "start 5 x", "start 5 +5", "start 5 5.",
            "start 5 5.0", "start 5 0x05", "start 5 00000000005", "start 5 ", "start 5  6", "start 65536 5",
            "start x 5",
        ] {
            assert!(is_error(line), "{line}");
        }
    }

    #[test]
    fn too_many_and_too_few_words_are_errors() {
        for line in [
            "level", "level 1 2", "show 5", "show level", "sweep", "sweep rest", "sweep file", "sweep file 5",
            "sweep file 5 heard", "sweep file 5 heard 1", "sweep file 5 heard 1 2 3", "sweep file 5 missed 1",
            "sweep next 5", "outcome 5", "outcome 5 1 1", "outcome 1088 0", "outcome 5 256", "choose", "start",
            "file 5", "ask", "verdict", "power", "power stop", "power start 1", "params 1 2 3 4 5 6",
            "params 1 2 3 4 5 6 7 8", "step", "step failed", "step 1 2", "step failed 1 2", "step 1 failed 2",
            "step 256 0 0", "Level 1", "levels 1", "x", "-",
        ] {
            assert!(is_error(line), "{line}");
        }
    }

    #[test]
    fn a_beam_has_a_serving_channel_and_up_to_eight_others() {
        for line in ["beam 1", "beam 1 2", "beam 1 2 3 4 5 6 7 8 9", "beam 7 7 7 7 7 7 7 7 7", "beam -0 00 000065535"] {
            assert!(!is_error(line), "{line}");
        }
        for line in [
            "beam", "beam 1 2 3 4 5 6 7 8 9 10", "beam 7 7 7 7 7 7 7 7 7 7", "beam 65536", "beam 1 65536", "beam -1",
            "beam x 1", "beam 1 x", "beam 1 2 3 4 5 6 7 8 x", "beam 1.0", "beam nan", "beam 00000000001", "Beam 1",
            "beams 1", "beam1", "new beam 1",
        ] {
            assert!(is_error(line), "{line}");
        }
    }

    #[test]
    fn list_and_move_are_no_calls_any_more() {
        for line in ["list", "list 1", "list 1 2 3 4 5 6", "list 1 2 3 4 5 6 7 8 9", "move", "move 1", "move 1 2"] {
            assert!(is_error(line), "{line}");
        }
    }

    #[test]
    fn the_seven_parameters_come_in_their_order() {
        let expected = Parameters { sqt: 1, pan_init: 2, pan_min: 3, pan_max: 4, gain_up: 5, gain_down: 6, mestep: 7 };
        assert_eq!(call(b"params 1 2 3 4 5 6 7"), Some(Call::Power(P::Params(expected))));
    }
}
