//! Scenes of new beams: who serves, who stays in the list and who is dropped, and the levels that stay or go with them.

use crate::limits::{LEVEL_RANGE, MOST_NEIGHBOURS};
use crate::scene_refused::refused_beam;
use crate::script::Script;
use crate::watch_lines::{
    ask_each, eight_channels, neighbours, say_beam, say_former_call, say_level, say_verdict, serving, sound_depth,
    start_line, stranger, watched, LOWEST,
};

/// The same serving channel with the same list in another order, at times once more as it is.
pub fn reordered(script: &mut Script) {
    let (serving, mut list) = (serving(script), neighbours(script));
    script.dice.shuffle(&mut list);
    say_beam(script, serving, &list);
    if script.dice.one_in(4) {
        say_beam(script, serving, &list);
    }
}

/// The neighbours other than the channel to serve next, in any order, with room for one more in their list.
fn others(script: &mut Script, next: i32) -> Vec<i32> {
    let mut list = neighbours(script);
    list.retain(|channel| *channel != next);
    script.dice.shuffle(&mut list);
    list.truncate(MOST_NEIGHBOURS - 1);
    list
}

/// This channel serves, and the one that served stands at any place of its list; both keep their levels.
pub fn old_serving_in_list(script: &mut Script, next: i32) {
    let (old, mut list) = (serving(script), others(script, next));
    let place = script.dice.below(list.len() + 1);
    list.insert(place, old);
    say_beam(script, next, &list);
}

/// This channel serves, and the one that served is dropped; when it comes back, in either role, its levels are gone.
fn old_serving_dropped(script: &mut Script, next: i32) {
    let (old, mut list) = (serving(script), others(script, next));
    say_beam(script, next, &list);
    script.say(&format!("ask {old}"));
    if script.dice.one_in(2) {
        list.push(old);
        say_beam(script, next, &list);
    } else {
        old_serving_in_list(script, old);
    }
    script.say(&format!("ask {old}"));
}

/// A neighbour serves.
pub fn neighbour_serves(script: &mut Script) {
    let list = neighbours(script);
    if !list.is_empty() {
        let next = script.dice.pick(&list);
        if script.dice.one_in(2) {
            old_serving_in_list(script, next);
        } else {
            old_serving_dropped(script, next);
        }
    }
}

/// A stranger serves, which has no levels yet.
pub fn stranger_serves(script: &mut Script) {
    let next = stranger(script);
    if script.dice.one_in(2) {
        old_serving_in_list(script, next);
    } else {
        old_serving_dropped(script, next);
    }
    script.say(&format!("ask {next}"));
    say_verdict(script, 0);
}

/// A neighbour serves, and then the channel that served before; no channel is dropped and no level is lost.
pub fn there_and_back(script: &mut Script) {
    let (back, list) = (serving(script), neighbours(script));
    if !list.is_empty() {
        let there = script.dice.pick(&list);
        old_serving_in_list(script, there);
        match script.dice.below(4) {
            0 => reordered(script),
            1 => refused_beam(script),
            2 => ask_each(script, vec![there, back]),
            _ => {}
        }
        old_serving_in_list(script, back);
    }
}

/// Drops one neighbour and takes it back later, when it has no levels any more.
pub fn neighbour_dropped(script: &mut Script) {
    let (serving, list) = (serving(script), neighbours(script));
    if let Some((first, others)) = list.split_first() {
        say_beam(script, serving, others);
        script.say(&format!("ask {first}"));
        say_beam(script, serving, &list);
        script.say(&format!("ask {first}"));
    }
}

/// Puts a strange channel where a neighbour stood; it has no levels.
pub fn strange_in_its_place(script: &mut Script) {
    let (serving, mut list) = (serving(script), neighbours(script));
    if !list.is_empty() {
        let (place, strange) = (script.dice.below(list.len()), stranger(script));
        list[place] = strange;
        say_beam(script, serving, &list);
        script.say(&format!("ask {strange}"));
    }
}

/// Does what the verdict says, as a terminal would; at times its answer comes first as a line, which is no call.
pub fn follow_verdict(script: &mut Script, hysteresis: i32) {
    let answer = say_verdict(script, hysteresis);
    let Some(next) = answer.strip_prefix("move ").and_then(|channel| channel.parse().ok()) else { return };
    if script.dice.one_in(3) {
        script.say(&answer);
    }
    old_serving_in_list(script, next);
}

/// A beam of any of the channels, in any order, at times with one of them at any place once more.
pub fn loose_beam(script: &mut Script, channels: &[i32]) {
    let mut list = channels.to_vec();
    script.dice.shuffle(&mut list);
    let next = if script.dice.one_in(2) { serving(script) } else { list[0] };
    list.retain(|channel| *channel != next);
    list.truncate(script.dice.below(MOST_NEIGHBOURS + 1));
    if script.dice.one_in(6) {
        let place = script.dice.below(list.len() + 1);
        list.insert(place, script.dice.pick(channels));
    }
    say_beam(script, next, &list);
}

/// Files levels under each watched channel that has few, up to one short of the depth, to the depth, or beyond it.
fn top_up(script: &mut Script, depth: i32) {
    for channel in watched(script) {
        let goal = script.dice.pick(&[depth - 1, depth, depth, depth, depth + 2]);
        let held = script.session.watch.ask(channel as u16).map_or(0, |(count, _)| count as i32);
        let base = script.dice.pick(&[-9_000, -9_000, -9_001, -8_950, -9_300]);
        for _ in held..goal {
            let level = base + script.dice.between(-1, 1);
            say_level(script, channel, level);
        }
    }
}

/// One change of the beam, of any kind, at times refused.
fn change(script: &mut Script, channels: &[i32]) {
    match script.dice.below(16) {
        0 => reordered(script),
        1..=4 => neighbour_serves(script),
        5..=7 => stranger_serves(script),
        8 => neighbour_dropped(script),
        9 => strange_in_its_place(script),
        10 | 11 => refused_beam(script),
        12 => follow_verdict(script, 0),
        13 => say_former_call(script),
        14 => say_level(script, serving(script), *LEVEL_RANGE.end()),
        _ => loose_beam(script, channels),
    }
}

/// Beams that change again and again, with levels filed between the changes. After each, every channel that was watched
/// or is watched now is asked about, and then the verdict.
pub fn beam_changes(script: &mut Script) {
    let (depth, mut channels) = (sound_depth(script).min(sound_depth(script)), eight_channels(script));
    let few = depth > LOWEST + 1;
    channels.truncate(if few { 4 } else { 8 });
    let line = start_line(script, channels[0], depth);
    script.add(line.into_bytes());
    let count = script.dice.between(1, channels.len() as i32 - 2) as usize;
    say_beam(script, channels[0], &channels[1..=count]);
    for _ in 0..script.dice.between(3, if few { 5 } else { 9 }) {
        top_up(script, depth);
        let mut concerned = watched(script);
        change(script, &channels);
        concerned.extend(watched(script));
        concerned.sort_unstable();
        concerned.dedup();
        ask_each(script, concerned);
        let hysteresis = script.dice.pick(&[0, 0, 1, 49, 50, 300]);
        say_verdict(script, hysteresis);
    }
}
