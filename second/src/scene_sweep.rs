//! Scenes of the sweep and the choice: results filed in any order, and choices at the margins where answers turn.

use crate::limits::{HIGHEST_CHANNEL, LEVEL_RANGE, SWEPT_CHANNELS};
use crate::script::Script;
use crate::words::whole_word;

/// A sweep from fresh, with results, refusals and questions, then finished and chosen over.
pub fn sweep_and_choose(script: &mut Script) {
    script.say("sweep fresh");
    if script.dice.one_in(3) {
        in_rising_order(script);
    }
    let strongest = if script.dice.one_in(4) { 0 } else { script.dice.between(-9_000, -100) };
    for _ in 0..script.dice.between(0, 14) {
        file_one(script, strongest);
    }
    file_doubly_wrong(script);
    if script.dice.one_in(2) {
        choose_unfinished(script);
    }
    if script.dice.one_in(8) {
        return;
    }
    script.say("sweep rest missed");
    script.say("sweep next");
    script.say("sweep counts");
    file_one(script, strongest);
    set_far_outcomes(script);
    forget_outcomes(script);
    for _ in 0..script.dice.between(3, 14) {
        choose_and_read(script);
    }
}

/// A choice before the sweep is finished, at times with a faulty margin or outcome byte too.
fn choose_unfinished(script: &mut Script) {
    let margin = script.dice.pick(&[0, 300, 6_000, -1, 6_001]);
    if script.dice.one_in(3) {
        choose_with_bad_outcome(script, margin);
    } else {
        choose_at(script, margin);
    }
}

/// Sets the outcome of many heard channels back to 0, as earlier scenes have left others there.
fn forget_outcomes(script: &mut Script) {
    for (channel, _) in script.session.sweep.heard() {
        if !script.dice.one_in(3) {
            script.say(&format!("outcome {channel} 0"));
        }
    }
}

/// Follows "next" for a while, as a crew does.
fn in_rising_order(script: &mut Script) {
    for _ in 0..script.dice.between(1, 10) {
        let answer = script.say("sweep next");
        let Some(channel) = answer.strip_prefix("next ") else { return };
        let level = script.dice.within(&LEVEL_RANGE);
        let burst = if script.dice.one_in(2) { "missed".to_string() } else { script.heard(level) };
        script.say(&format!("sweep file {channel} {burst}"));
    }
}

/// A channel to file: mostly one of the sweep, also its ends, those outside and some filed before.
fn swept_channel(script: &mut Script) -> i32 {
    match script.dice.below(8) {
        0 => script.dice.pick(&[0, 1, 2, 3, 1_085, 1_086, 1_087, 1_088, 65_535]),
        1 => script.session.sweep.heard().last().map_or(2, |(channel, _)| i32::from(*channel)),
        2 => script.dice.between(2, 12),
        _ => script.dice.between(2, 1_086),
    }
}

/// Two refusals at once: a channel visited before or outside the sweep, with floats that are likely bad.
fn file_doubly_wrong(script: &mut Script) {
    let outside = script.dice.pick(&[0, 1, 1_087, 1_088]);
    let visited = script.session.sweep.heard().first().map_or(outside, |(channel, _)| i32::from(*channel));
    let (channel, burst) = (script.dice.pick(&[visited, visited, outside]), script.doubtful());
    script.say(&format!("sweep file {channel} {burst}"));
}

/// Files one result, its level near the strongest so that many are equal or at the margin.
fn file_one(script: &mut Script, strongest: i32) {
    let channel = swept_channel(script);
    let channel = whole_word(&mut script.dice, channel);
    let below = script.dice.pick(&[0, 0, 0, 1, 299, 300, 300, 301, 5_999, 6_000, 6_001]);
    let burst = match script.dice.below(8) {
        0 => "missed".to_string(),
        1 => script.doubtful(),
        2 => {
            let level = script.dice.within(&LEVEL_RANGE);
            script.heard(level)
        }
        _ => script.heard((strongest - below).max(*LEVEL_RANGE.start())),
    };
    script.say(&format!("sweep file {channel} {burst}"));
}

/// Sets outcomes of channels that mostly were not heard, at times out of range.
fn set_far_outcomes(script: &mut Script) {
    for _ in 0..script.dice.below(3) {
        let channel = script.dice.between(0, i32::from(HIGHEST_CHANNEL));
        let outcome = script.dice.pick(&[0, 1, 2, 3, 4, 5]);
        script.say(&format!("outcome {channel} {outcome}"));
    }
    if script.dice.one_in(4) {
        let margin = script.dice.pick(&[-1, 0, 300, 6_000, 6_001]);
        choose_with_bad_outcome(script, margin);
    }
}

/// A choice while some channel has an outcome byte out of range, which is set right again.
fn choose_with_bad_outcome(script: &mut Script, margin: i32) {
    let channel = script.dice.pick(&[0, 1, 2, 500, 1_086, 1_087]);
    let bad = script.dice.pick(&[6, 6, 7, 255]);
    script.say(&format!("outcome {channel} {bad}"));
    choose_at(script, margin);
    let good = script.dice.between(0, 5);
    script.add(format!("outcome {channel} {good}").into_bytes());
}

/// A choice at this margin.
fn choose_at(script: &mut Script, margin: i32) -> String {
    let margin = whole_word(&mut script.dice, margin);
    script.say(&format!("choose {margin}"))
}

/// A margin where the near part changes, or at an end of the range.
fn turning_margin(script: &mut Script) -> i32 {
    let levels: Vec<i32> = script.session.sweep.heard().iter().map(|(_, level)| *level).collect();
    let strongest = levels.iter().max().copied().unwrap_or(0);
    let gaps: Vec<i32> = levels.iter().map(|level| strongest - level).filter(|gap| *gap <= 6_001).collect();
    match script.dice.below(8) {
        0 => script.dice.pick(&[-1, 0, 6_000, 6_001, i32::MIN, i32::MAX]),
        1 => script.dice.between(0, 6_000),
        2 => 6_000,
        _ if gaps.is_empty() => 300,
        _ => script.dice.pick(&gaps) + script.dice.between(-1, 1),
    }
}

/// Chooses, and writes an outcome at the channel that was told.
fn choose_and_read(script: &mut Script) {
    let margin = turning_margin(script);
    let answer = choose_at(script, margin);
    let words: Vec<&str> = answer.split(' ').collect();
    match words[..] {
        ["read", channel, ..] => {
            let outcome = script.dice.pick(&[2, 3, 4, 5, 2, 3, 4, 5, 1, 1, 0]);
            script.say(&format!("outcome {channel} {outcome}"));
        }
        ["camp", channel, ..] => {
            let outcome = script.dice.pick(&[0, 1, 2, 3, 4, 5]);
            script.say(&format!("outcome {channel} {outcome}"));
        }
        ["no", ..] => open_one_again(script),
        _ => {}
    }
}

/// After "no beam": gives one heard channel another outcome.
fn open_one_again(script: &mut Script) {
    let heard = script.session.sweep.heard();
    if !heard.is_empty() {
        let (channel, _) = script.dice.pick(&heard);
        let outcome = script.dice.pick(&[0, 0, 1, 2, 3, 4, 5]);
        script.say(&format!("outcome {channel} {outcome}"));
    }
}

/// A whole sweep filed channel by channel.
pub fn whole_sweep(script: &mut Script) {
    script.say("sweep fresh");
    let mut channels: Vec<u16> = SWEPT_CHANNELS.collect();
    if script.dice.one_in(2) {
        script.dice.shuffle(&mut channels);
    }
    for channel in channels {
        let level = script.dice.between(-9_010, -9_000);
        let burst = if script.dice.one_in(20) { script.heard(level) } else { "missed".to_string() };
        script.say(&format!("sweep file {channel} {burst}"));
    }
    script.say("sweep next");
    script.say("sweep counts");
    forget_outcomes(script);
    for _ in 0..20 {
        choose_and_read(script);
    }
}
