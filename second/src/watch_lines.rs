//! The lines of a watch for made sessions, and the channels that the session beside them has under watch by now.

use crate::limits::{DEPTH_RANGE, HIGHEST_CHANNEL, USUAL_DEPTH};
use crate::script::Script;
use crate::words::whole_word;

/// The ends of the range of depths, and the depth of a start without one, to aim with.
pub const LOWEST: i32 = *DEPTH_RANGE.start() as i32;
const HIGHEST: i32 = *DEPTH_RANGE.end() as i32;
const USUAL: i32 = USUAL_DEPTH as i32;

/// The neighbours as the session has them now.
pub fn neighbours(script: &Script) -> Vec<i32> {
    script.session.watch.neighbours().iter().map(|channel| i32::from(*channel)).collect()
}

/// The serving channel as the session has it now; 0 for an idle watch.
pub fn serving(script: &Script) -> i32 {
    script.session.watch.serving().map_or(0, i32::from)
}

/// The serving channel and the neighbours.
pub fn watched(script: &Script) -> Vec<i32> {
    let mut channels = neighbours(script);
    channels.insert(0, serving(script));
    channels
}

/// These channels and others until there are so many, all different, often with the ends among them.
pub fn filled_up(script: &mut Script, mut channels: Vec<i32>, count: usize) -> Vec<i32> {
    while channels.len() < count {
        let channel = match script.dice.below(8) {
            0 => script.dice.pick(&[0, 1, 1_086, 1_087]),
            1..=3 => script.dice.between(0, 20),
            _ => script.dice.between(0, i32::from(HIGHEST_CHANNEL)),
        };
        if !channels.contains(&channel) {
            channels.push(channel);
        }
    }
    channels
}

/// Eight different channels, often with the ends among them.
pub fn eight_channels(script: &mut Script) -> Vec<i32> {
    filled_up(script, vec![], 8)
}

/// A channel that is not under watch.
pub fn stranger(script: &mut Script) -> i32 {
    let known = watched(script);
    let place = known.len();
    filled_up(script, known, place + 1)[place]
}

/// The line of a new beam, at times with numbers in odd dress.
pub fn beam_line(script: &mut Script, serving: i32, list: &[i32]) -> String {
    let (mut line, dressed) = ("beam".to_string(), script.dice.one_in(4));
    for channel in [&[serving], list].concat() {
        let word = if dressed { whole_word(&mut script.dice, channel) } else { channel.to_string() };
        line = format!("{line} {word}");
    }
    line
}

/// A new beam.
pub fn say_beam(script: &mut Script, serving: i32, list: &[i32]) -> String {
    let line = beam_line(script, serving, list);
    script.say(&line)
}

/// A depth in range: mostly an end of it, one beside an end, or the usual one.
pub fn sound_depth(script: &mut Script) -> i32 {
    match script.dice.below(8) {
        0 | 1 => LOWEST,
        2 => LOWEST + 1,
        3 => HIGHEST - 1,
        4 => HIGHEST,
        5 | 6 => USUAL,
        _ => script.dice.between(LOWEST, HIGHEST),
    }
}

/// A depth just or far out of range.
pub fn bad_depth(script: &mut Script) -> i32 {
    script.dice.pick(&[LOWEST - 1, LOWEST - 1, HIGHEST + 1, HIGHEST + 1, 0, 255])
}

/// A start at this depth; the usual one often goes without saying.
pub fn start_line(script: &mut Script, channel: i32, depth: i32) -> String {
    if depth == USUAL && !script.dice.one_in(3) {
        return format!("start {channel}");
    }
    let word = whole_word(&mut script.dice, depth);
    format!("start {channel} {word}")
}

/// A start that is refused: a depth out of range, a channel above 1,087, or both.
pub fn refused_start(script: &mut Script, strange: i32) {
    let here = script.dice.pick(&[serving(script), strange, 0, 1_087]);
    let above = script.dice.pick(&[1_088, 1_088, 1_089, 65_535]);
    let (sound, bad) = (sound_depth(script), bad_depth(script));
    let (channel, depth) = script.dice.pick(&[(here, bad), (here, bad), (above, bad), (above, sound)]);
    let line = start_line(script, channel, depth);
    script.say(&line);
}

/// A heard level under a channel.
pub fn say_level(script: &mut Script, channel: i32, level: i32) {
    let burst = script.heard(level);
    script.say(&format!("file {channel} {burst}"));
}

/// Asks about each of these channels, in any order.
pub fn ask_each(script: &mut Script, mut channels: Vec<i32>) {
    script.dice.shuffle(&mut channels);
    for channel in channels {
        let word = whole_word(&mut script.dice, channel);
        script.say(&format!("ask {word}"));
    }
}

/// Asks about every watched channel and a strange one.
pub fn ask_all(script: &mut Script, strange: i32) {
    let mut channels = watched(script);
    channels.push(strange);
    ask_each(script, channels);
}

/// A verdict at this hysteresis.
pub fn say_verdict(script: &mut Script, hysteresis: i32) -> String {
    let word = whole_word(&mut script.dice, hysteresis);
    script.say(&format!("verdict {word}"))
}

/// The lines `list` and `move`, as sessions had them before request E10: error lines, whatever the watch.
pub fn say_former_call(script: &mut Script) {
    let (channel, list) = (script.dice.pick(&watched(script)), neighbours(script));
    let words: String = list.iter().map(|channel| format!(" {channel}")).collect();
    let line = match script.dice.below(4) {
        0 => "list".to_string(),
        1 => format!("list{words}"),
        _ => format!("move {channel}"),
    };
    script.say(&line);
}
