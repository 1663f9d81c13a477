//! Scenes of refused beams: a serving channel above 1,087, and every fault of a list (request E2) at every place,
//! whichever channel is to serve.

use crate::limits::{MOST_LIST_WORDS, MOST_NEIGHBOURS};
use crate::scene_beam::{old_serving_in_list, reordered};
use crate::script::Script;
use crate::watch_lines::{
    ask_each, beam_line, filled_up, neighbours, say_beam, say_verdict, serving, stranger, watched,
};
use Part::{Above, Again, Once, Serving};

/// What is put at a place of a list.
#[derive(Clone, Copy)]
enum Part {
    /// A channel above 1,087.
    Above,
    /// The channel that the same line lets serve.
    Serving,
    /// A sound channel that comes once more.
    Once,
    /// The same channel again.
    Again,
}

/// The sizes of a list that is too long and still in a line of the format.
const TOO_LONG: [usize; 2] = [MOST_NEIGHBOURS + 1, MOST_LIST_WORDS];

/// One fault of a list.
const ALONE: [&[Part]; 3] = [&[Above], &[Serving], &[Once, Again]];

/// Several faults of a list, by rising place.
const TOGETHER: [&[Part]; 17] = [
    &[Above, Serving],
    &[Serving, Above],
    &[Above, Once, Again],
    &[Once, Above, Again],
    &[Once, Again, Above],
    &[Serving, Once, Again],
    &[Once, Serving, Again],
    &[Once, Again, Serving],
    &[Above, Above],
    &[Serving, Serving],
    &[Once, Again, Again],
    &[Above, Above, Above],
    &[Serving, Serving, Serving],
    &[Above, Serving, Once, Again],
    &[Serving, Once, Above, Again],
    &[Once, Again, Above, Serving],
    &[Once, Again, Serving, Above],
];

/// A channel to serve next: the one that serves now (0 on an idle watch), a neighbour or a stranger.
fn next_serving(script: &mut Script) -> i32 {
    let list = neighbours(script);
    match script.dice.below(3) {
        0 => serving(script),
        1 if !list.is_empty() => script.dice.pick(&list),
        _ => stranger(script),
    }
}

/// So many different channels other than this serving one, mostly those under watch before others.
fn sound_channels(script: &mut Script, serving: i32, count: usize) -> Vec<i32> {
    let mut known = if script.dice.one_in(3) { vec![] } else { watched(script) };
    known.retain(|channel| *channel != serving);
    script.dice.shuffle(&mut known);
    known.insert(0, serving);
    let mut channels = filled_up(script, known, count + 1)[1..=count].to_vec();
    script.dice.shuffle(&mut channels);
    channels
}

/// A channel just or far above 1,087, at times one whose last 11 bits are this serving channel.
fn channel_above(script: &mut Script, serving: i32) -> i32 {
    let alike = 2_048 + serving % 2_048;
    script.dice.pick(&[1_088, 1_088, 1_088, 1_089, 2_047, 4_000, 65_535, 65_535, alike, alike])
}

/// A list of this size with these parts at these places and sound channels at the others.
fn with_parts(script: &mut Script, serving: i32, parts: &[Part], size: usize, places: &[usize]) -> Vec<i32> {
    let mut list = sound_channels(script, serving, size);
    let (mut above, mut once) = (channel_above(script, serving), 0);
    for (part, place) in parts.iter().zip(places) {
        match part {
            Above => list[*place] = above,
            Serving => list[*place] = serving,
            Once => once = list[*place],
            Again => list[*place] = once,
        }
        if script.dice.one_in(4) {
            above = channel_above(script, serving);
        }
    }
    list
}

/// So many places of a list of this size, by rising place.
fn rising_places(script: &mut Script, size: usize, count: usize) -> Vec<usize> {
    let mut places: Vec<usize> = (0..size).collect();
    script.dice.shuffle(&mut places);
    places.truncate(count);
    places.sort_unstable();
    places
}

/// A list with a fault or several: often of six channels, at times of fewer, or too long, also where no other fault is.
fn faulty_list(script: &mut Script, serving: i32) -> Vec<i32> {
    let parts = if script.dice.one_in(3) { script.dice.pick(&TOGETHER) } else { script.dice.pick(&ALONE) };
    let (size, parts) = match script.dice.below(8) {
        0 => (script.dice.pick(&TOO_LONG), &[][..]),
        1 => (script.dice.pick(&TOO_LONG), parts),
        2..=4 => (MOST_NEIGHBOURS, parts),
        _ => (script.dice.between(parts.len() as i32, MOST_NEIGHBOURS as i32) as usize, parts),
    };
    let places = rising_places(script, size, parts.len());
    with_parts(script, serving, parts, size, &places)
}

/// A serving channel above 1,087 with a sound list, or with a faulty one, which it comes before.
fn serving_above(script: &mut Script) -> (i32, Vec<i32>) {
    let sound = next_serving(script);
    let above = channel_above(script, sound);
    let count = script.dice.below(MOST_NEIGHBOURS + 1);
    match script.dice.below(3) {
        0 => (above, sound_channels(script, sound, count)),
        1 => (above, faulty_list(script, above)),
        _ => (above, faulty_list(script, sound)),
    }
}

/// A serving channel and its list that are refused, mostly for the list.
fn faulty_beam(script: &mut Script) -> (i32, Vec<i32>) {
    if script.dice.one_in(5) {
        return serving_above(script);
    }
    let next = next_serving(script);
    (next, faulty_list(script, next))
}

/// A beam that is refused, at times in other orders too, so that another fault or another place is told; or questions
/// about its channels, a beam that is accepted, or a verdict, which shows who serves, after it.
pub fn refused_beam(script: &mut Script) {
    let (next, mut list) = faulty_beam(script);
    say_beam(script, next, &list);
    match script.dice.below(4) {
        0 => {
            list.reverse();
            say_beam(script, next, &list);
            script.dice.shuffle(&mut list);
            say_beam(script, next, &list);
        }
        1 => ask_each(script, [vec![next, serving(script)], list].concat()),
        2 => reordered(script),
        _ => drop(say_verdict(script, 0)),
    }
}

/// Beams for an idle watch: faulty ones, and sound ones, often with channel 0.
pub fn idle_beams(script: &mut Script) -> Vec<String> {
    let mut lines = vec![];
    for _ in 0..16 {
        let (next, list) = faulty_beam(script);
        lines.push(beam_line(script, next, &list));
    }
    for _ in 0..4 {
        let (next, count) = (next_serving(script), script.dice.below(MOST_NEIGHBOURS + 1));
        let list = sound_channels(script, next, count);
        lines.push(beam_line(script, next, &list));
    }
    lines
}

/// Each fault alone at every place of a list of six, a repeat at every two places, lists that are too long, and several
/// faults together, in any order, with other calls between them. An idle watch stays idle.
pub fn every_fault(script: &mut Script) {
    let mut plans: Vec<(&[Part], usize, Vec<usize>)> = vec![];
    for later in 0..MOST_NEIGHBOURS {
        plans.push((&[Above], MOST_NEIGHBOURS, vec![later]));
        plans.push((&[Serving], MOST_NEIGHBOURS, vec![later]));
        plans.extend((0..later).map(|earlier| (&[Once, Again][..], MOST_NEIGHBOURS, vec![earlier, later])));
    }
    for size in TOO_LONG {
        plans.push((&[], size, vec![]));
        plans.extend(ALONE.map(|parts| (parts, size, rising_places(script, size, parts.len()))));
    }
    for parts in TOGETHER {
        let size = script.dice.between(parts.len() as i32, MOST_NEIGHBOURS as i32) as usize;
        plans.push((parts, size, rising_places(script, size, parts.len())));
    }
    script.dice.shuffle(&mut plans);
    for (parts, size, places) in plans {
        let next = next_serving(script);
        let list = with_parts(script, next, parts, size, &places);
        say_beam(script, next, &list);
        between_faults(script);
    }
}

/// At times a question, a serving channel above 1,087, or a beam that is accepted, so that another channel serves.
fn between_faults(script: &mut Script) {
    match script.dice.below(12) {
        0 | 1 => ask_each(script, vec![serving(script)]),
        2 => {
            let (above, list) = serving_above(script);
            say_beam(script, above, &list);
        }
        3 | 4 => {
            let (next, count) = (next_serving(script), script.dice.below(MOST_NEIGHBOURS + 1));
            let list = sound_channels(script, next, count);
            say_beam(script, next, &list);
        }
        5 if script.session.watch.serving().is_some() => {
            let next = stranger(script);
            old_serving_in_list(script, next);
        }
        _ => {}
    }
}
