//! Scenes of readings: floats to hundredths, hundredths shown, and shown floats read back.

use crate::limits::{LEVEL_RANGE, QUALITY_RANGE};
use crate::script::Script;
use crate::words::{any_float, whole_word};

/// Hundredths at and beside the ends of both ranges and of +20 dBm, and the ends of the numbers of 32 bits.
const ENDS: [i32; 8] = [-15_000, -3_000, 0, 2_000, 4_000, i32::MIN + 1, i32::MAX - 1, 50];

/// A run of calls on readings.
pub fn readings(script: &mut Script) {
    for _ in 0..script.dice.between(10, 30) {
        match script.dice.below(6) {
            0 | 1 => {
                let float = any_float(&mut script.dice);
                script.say(&format!("level {float}"));
            }
            2 | 3 => {
                let float = any_float(&mut script.dice);
                script.say(&format!("quality {float}"));
            }
            4 => {
                let float = any_float(&mut script.dice);
                script.say(&format!("level {float}"));
                script.say(&format!("quality {float}"));
            }
            _ => show_and_read_back(script),
        }
    }
}

/// Shows hundredths and reads the float that was shown.
fn show_and_read_back(script: &mut Script) {
    let (kind, range) = if script.dice.one_in(2) { ("level", LEVEL_RANGE) } else { ("quality", QUALITY_RANGE) };
    let hundredths = if script.dice.one_in(3) {
        script.dice.pick(&ENDS) + script.dice.between(-1, 1)
    } else {
        script.dice.within(&range)
    };
    let word = whole_word(&mut script.dice, hundredths);
    let answer = script.say(&format!("show {kind} {word}"));
    if let Some(float) = answer.strip_prefix("float ") {
        script.say(&format!("{kind} {float}"));
    }
}
