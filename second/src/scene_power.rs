//! Scenes of the power loop: parameters in and out of range, halves, escapes, and messages failing in runs.

use crate::limits::QUALITY_RANGE;
use crate::script::Script;
use crate::words::whole_word;

/// The seven parameters in the order of a `params` line.
type Seven = [i32; 7];

/// The highest value of each parameter.
const HIGHEST: Seven = [126, 60, 60, 60, 31, 10, 15];

/// A power record from its start through many steps.
pub fn power_loop(script: &mut Script) {
    let mut seven = sound_parameters(script);
    match script.dice.below(6) {
        0 | 1 => refused_start(script, seven),
        2 => each_parameter(script, seven),
        _ => {}
    }
    set(script, seven);
    script.say("power start");
    for _ in 0..script.dice.between(8, 40) {
        match script.dice.below(24) {
            0 | 1 => failing_run(script, seven),
            2 => {
                faulty_parameters(script, seven);
                step(script, seven);
                set(script, seven);
            }
            3 => {
                seven = sound_parameters(script);
                set(script, seven);
            }
            4 => refused_start(script, seven),
            _ => step(script, seven),
        }
    }
}

/// A start that is refused, and steps from the record of all zeros that it leaves.
fn refused_start(script: &mut Script, seven: Seven) {
    faulty_parameters(script, seven);
    script.say("power start");
    step(script, seven);
    set(script, seven);
    script.say(&format!("step failed {}", 10 * seven[0]));
    step(script, seven);
}

/// Sets the parameters.
fn set(script: &mut Script, seven: Seven) {
    let words: Vec<String> = seven.iter().map(|value| whole_word(&mut script.dice, *value)).collect();
    script.say(&format!("params {}", words.join(" ")));
}

/// Parameters in range, often at an end of it; the plain ones of the examples at times.
fn sound_parameters(script: &mut Script) -> Seven {
    let mut seven = [0; 7];
    for (value, highest) in seven.iter_mut().zip(HIGHEST) {
        *value = match script.dice.below(6) {
            0 => 0,
            1 => highest,
            _ => script.dice.between(0, highest),
        };
    }
    if script.dice.one_in(2) {
        (seven[2], seven[3]) = (0, 60);
    }
    if script.dice.one_in(3) {
        (seven[4], seven[5]) = (10, 10);
    }
    if seven[2] > seven[3] {
        seven.swap(2, 3);
    }
    seven
}

/// The same parameters with one or two just or far out of range, or with PANmin above PANmax.
fn faulty_parameters(script: &mut Script, mut seven: Seven) {
    if script.dice.one_in(5) {
        seven[2] = script.dice.between(1, 60);
        seven[3] = seven[2] - 1;
    } else {
        for _ in 0..script.dice.pick(&[1, 1, 1, 2]) {
            let place = script.dice.below(7);
            seven[place] = script.dice.pick(&[HIGHEST[place] + 1, HIGHEST[place] + 1, HIGHEST[place] + 1, 255]);
        }
    }
    set(script, seven);
}

/// A code: numeric mostly, also the escapes, those above 63 and the ends.
fn code(script: &mut Script) -> i32 {
    match script.dice.below(12) {
        0 | 1 => script.dice.between(61, 63),
        2 => script.dice.pick(&[0, 1, 59, 60]),
        3 if script.dice.one_in(2) => script.dice.pick(&[64, 65, 128, 255]),
        _ => script.dice.between(0, 60),
    }
}

/// An SQI: aimed at a half of a PAR code, near SQT, at the ends, outside, or anywhere in range.
fn sqi(script: &mut Script, seven: Seven) -> i32 {
    let target = 10 * seven[0];
    match script.dice.below(10) {
        0 => script.dice.pick(&[-3_001, -3_000, 3_999, 4_000, 4_001, -2_999, i32::MIN, i32::MAX]),
        1 => target + script.dice.between(-2, 2),
        2..=4 => half_of_a_code(script, seven).unwrap_or(target),
        5 => script.dice.within(&QUALITY_RANGE),
        _ => target + script.dice.between(-500, 500),
    }
}

/// An SQI at which the gain brings T to an odd number of half codes, if the gain allows one.
fn half_of_a_code(script: &mut Script, seven: Seven) -> Option<i32> {
    let above = script.dice.one_in(2);
    let gain = if above { seven[5] } else { seven[4] };
    let start = script.dice.between(1, 400);
    let distance = (start..start + 400).find(|distance| gain * distance % 400 == 200)?;
    let beside = script.dice.pick(&[0, 0, 0, 1, -1]);
    Some(10 * seven[0] + if above { distance + beside } else { -distance + beside })
}

/// One step, its message decoded or failed.
fn step(script: &mut Script, seven: Seven) {
    let sqi = sqi(script, seven);
    let sqi = whole_word(&mut script.dice, sqi);
    if script.dice.one_in(4) {
        script.say(&format!("step failed {sqi}"));
        return;
    }
    let (pan, par) = (code(script), code(script));
    let (pan, par) = (whole_word(&mut script.dice, pan), whole_word(&mut script.dice, par));
    script.say(&format!("step {pan} {par} {sqi}"));
}

/// Failed messages in a run, at times so many that the increase reaches its limit, then one that is decoded.
fn failing_run(script: &mut Script, seven: Seven) {
    if script.dice.one_in(2) {
        // Twice the highest PAR, so that PANbasic is the highest too.
        script.say(&format!("step 60 60 {}", 10 * seven[0]));
        script.say(&format!("step 60 60 {}", 10 * seven[0]));
    }
    for _ in 0..script.dice.pick(&[2, 3, 5, 9, 12, 16]) {
        let sqi = sqi(script, seven);
        script.say(&format!("step failed {sqi}"));
    }
    let pan = script.dice.pick(&[61, 62, 63, 0, 30, 60]);
    let par = script.dice.pick(&[61, 62, 63, 0, 30, 60]);
    script.say(&format!("step {pan} {par} {}", 10 * seven[0]));
}

/// Each parameter at its highest and one above, the others in range; PANmin one above PANmax comes last.
fn each_parameter(script: &mut Script, seven: Seven) {
    for place in 0..7 {
        for value in [HIGHEST[place], HIGHEST[place] + 1] {
            let mut tried = seven;
            tried[place] = value;
            tried[3] = if place == 2 { 60 } else { tried[3] };
            set(script, tried);
            script.say("power start");
        }
    }
    let lowest = script.dice.between(0, 59);
    set(script, [seven[0], seven[1], lowest + 1, lowest, seven[4], seven[5], seven[6]]);
    script.say("power start");
}
