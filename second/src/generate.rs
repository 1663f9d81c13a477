//! Made sessions: scenes aimed at the wrong turns, one after another, from a seed.

use crate::scene_beam::beam_changes;
use crate::scene_faulty::{catalogue, faulty};
use crate::scene_power::power_loop;
use crate::scene_readings::readings;
use crate::scene_refused::every_fault;
use crate::scene_sweep::{sweep_and_choose, whole_sweep};
use crate::scene_watch::{idle_watch, loose_watch, planned_watch};
use crate::script::Script;
use std::io::{Result, Write};

/// A scene that leaves an idle watch idle.
fn scene_without_watch(script: &mut Script) {
    match script.dice.below(5) {
        0 => readings(script),
        1 => sweep_and_choose(script),
        2 => power_loop(script),
        3 => every_fault(script),
        _ => faulty(script),
    }
}

/// Any scene, the short ones more often.
fn scene(script: &mut Script) {
    match script.dice.below(27) {
        0..=4 => readings(script),
        5..=10 => sweep_and_choose(script),
        11..=14 => planned_watch(script),
        15 | 16 => loose_watch(script),
        17..=19 => beam_changes(script),
        20..=23 => power_loop(script),
        24 if script.dice.one_in(12) => whole_sweep(script),
        25 if script.dice.one_in(3) => catalogue(script),
        26 if script.dice.one_in(2) => every_fault(script),
        _ => faulty(script),
    }
}

/// Writes a session of `count` lines; the same seed always gives the same bytes.
pub fn generate(seed: u64, count: u64, output: &mut impl Write) -> Result<()> {
    let mut script = Script::seeded(seed);
    let bare_end = script.dice.one_in(3);
    let before_the_watch = script.dice.below(4);
    let (mut written, mut scenes) = (0, 0);
    while written < count {
        match scenes {
            0 => idle_watch(&mut script),
            _ if scenes <= before_the_watch => scene_without_watch(&mut script),
            _ => scene(&mut script),
        }
        scenes += 1;
        for line in script.take_lines() {
            if written == count {
                break;
            }
            written += 1;
            output.write_all(&line)?;
            // The last line may lack its newline; an empty one would then be no line.
            if written < count || !bare_end || line.is_empty() {
                output.write_all(b"\n")?;
            }
        }
    }
    output.flush()
}

#[cfg(test)]
mod tests {
    use super::*;
    use crate::answer::{answer_all, Session};
    use crate::parse::{call, Call, WatchCall};
    use crate::tally::kind;
    use crate::watch::Watch;
    use std::collections::{BTreeMap, BTreeSet};

    fn made(seed: u64, count: u64) -> Vec<u8> {
        let mut session = Vec::new();
        generate(seed, count, &mut session).unwrap();
        session
    }

    #[test]
    fn the_same_seed_gives_the_same_bytes() {
        assert_eq!(made(5, 2_000), made(5, 2_000));
        assert_ne!(made(5, 2_000), made(6, 2_000));
        assert_eq!(made(5, 0), b"");
    }

    #[test]
    fn a_session_has_the_number_of_lines_asked_for() {
        let mut ends = BTreeSet::new();
        for seed in 0..20 {
            let session = made(seed, 300);
            let newlines = session.iter().filter(|byte| **byte == b'\n').count();
            let bare = session.last() != Some(&b'\n');
            assert_eq!(newlines + usize::from(bare), 300);
            ends.insert(bare);
        }
        assert_eq!(ends.len(), 2);
    }

    #[test]
    fn every_kind_of_answer_occurs_and_no_other() {
        let mut answers = Vec::new();
        answer_all(&mut &made(1, 20_000)[..], &mut answers).unwrap();
        let mut times: BTreeMap<String, usize> = BTreeMap::new();
        for answer in String::from_utf8(answers).unwrap().lines() {
            *times.entry(kind(answer)).or_default() += 1;
        }
        let expected = [
            "accepted", "hundredths", "float", "next", "done", "visited", "camp", "read", "no beam", "count", "wait",
            "stay", "move", "par", "error", "refused 1", "refused 2", "refused 3", "refused 4", "refused 6",
            "refused 7", "refused 8", "refused 11", "refused 12 at", "refused 13 at", "refused 14 at",
        ];
        assert_eq!(times.keys().map(String::as_str).collect::<BTreeSet<_>>(), BTreeSet::from(expected));
        assert!(times.values().all(|times| *times >= 10), "{times:?}");
    }

    /// A beam of a session, the watch when it comes, and its answer.
    struct Told {
        before: Watch,
        serving: u16,
        list: Vec<u16>,
        answer: String,
    }

    /// The beams of a session.
    fn beams_told(session: &[u8]) -> Vec<Told> {
        let (mut session_now, mut beams) = (Session::fresh(), vec![]);
        for line in session.split(|byte| *byte == b'\n') {
            let before = session_now.watch.clone();
            let Some(answer) = session_now.answer_line(0, line) else { continue };
            if let Some(Call::Watch(WatchCall::Beam(serving, list))) = call(line) {
                beams.push(Told { before, serving, list, answer });
            }
        }
        beams
    }

    /// How often each answer was given.
    fn times_of(beams: &[Told]) -> BTreeMap<&str, usize> {
        let mut times = BTreeMap::new();
        for told in beams {
            *times.entry(told.answer.as_str()).or_default() += 1;
        }
        times
    }

    /// The refusals of a beam, each of those that tell a place at every place that it can have, and one more answer.
    fn all_refusals_and(other: &str) -> BTreeSet<String> {
        let first = |number: u8| usize::from(number == 13);
        let places = |number: u8| (first(number)..6).map(move |place| format!("refused {number} at {place}"));
        let mut all: BTreeSet<String> = (12..=14).flat_map(places).collect();
        all.extend(["refused 2", "refused 11", other].map(str::to_string));
        all
    }

    #[test]
    fn a_watch_is_told_every_fault_at_every_place_and_takes_many_beams() {
        let mut beams = beams_told(&made(1, 60_000));
        beams.retain(|told| told.before.serving().is_some());
        let times = times_of(&beams);
        let answers: BTreeSet<String> = times.keys().map(|answer| answer.to_string()).collect();
        assert_eq!(answers, all_refusals_and("accepted"));
        assert!(times.values().all(|times| *times >= 20), "{times:?}");
        assert!(3 * times["accepted"] >= beams.len(), "{times:?}");
        for (channel, place) in [1_088, 65_535].iter().flat_map(|channel| (0..6).map(move |place| (channel, place))) {
            let answer = format!("refused 12 at {place}");
            assert!(beams.iter().any(|told| told.answer == answer && told.list[place] == *channel), "{answer}");
        }
    }

    #[test]
    fn an_idle_watch_is_told_every_fault_at_every_place() {
        let mut beams: Vec<Told> = (0..60).flat_map(|seed| beams_told(&made(seed, 300))).collect();
        beams.retain(|told| told.before.serving().is_none());
        let times = times_of(&beams);
        let answers: BTreeSet<String> = times.keys().map(|answer| answer.to_string()).collect();
        assert_eq!(answers, all_refusals_and("refused 6"));
        assert!(times.values().all(|times| *times >= 10), "{times:?}");
    }

    /// The faults of a list by rising place: 12 above 1,087, 14 the serving channel, 13 any other repeat.
    fn faults(told: &Told) -> Vec<(usize, u8)> {
        let number = |place: usize| match told.list[place] {
            channel if channel > 1_087 => Some(12),
            channel if channel == told.serving => Some(14),
            channel if told.list[..place].contains(&channel) => Some(13),
            _ => None,
        };
        (0..told.list.len()).filter_map(|place| Some((place, number(place)?))).collect()
    }

    #[test]
    fn faults_come_together_in_either_order() {
        let mut times: BTreeMap<(bool, bool, Vec<u8>), usize> = BTreeMap::new();
        for told in beams_told(&made(1, 60_000)) {
            let numbers = faults(&told).iter().map(|(_, number)| *number).collect();
            *times.entry((told.serving > 1_087, told.list.len() > 6, numbers)).or_default() += 1;
        }
        let often = |above: bool, long: bool, numbers: &[u8]| {
            let found = times.get(&(above, long, numbers.to_vec())).copied().unwrap_or(0);
            assert!(found >= 5, "serving above {above}, over 6 {long}: {numbers:?} {found}");
        };
        for numbers in [
            &[12][..], &[13], &[14], &[12, 13], &[13, 12], &[12, 14], &[14, 12], &[13, 14], &[14, 13], &[12, 12],
            &[13, 13], &[14, 14], &[12, 12, 12], &[14, 14, 14],
        ] {
            often(false, false, numbers);
        }
        for numbers in [&[][..], &[12], &[13], &[14]] {
            often(false, true, numbers);
        }
        for (long, numbers) in [(false, &[][..]), (false, &[12]), (false, &[13]), (true, &[])] {
            often(true, long, numbers);
        }
    }

    #[test]
    fn repeats_stand_at_every_two_places() {
        let mut pairs = BTreeSet::new();
        for told in beams_told(&made(1, 60_000)).iter().filter(|told| told.list.len() == 6) {
            if let [(later, 13)] = faults(told)[..] {
                pairs.insert((told.list.iter().position(|channel| *channel == told.list[later]).unwrap(), later));
            }
        }
        assert_eq!(pairs.len(), 15);
    }

    #[test]
    fn a_list_in_another_order_is_told_another_fault() {
        let beams = beams_told(&made(1, 60_000));
        let sorted = |told: &Told| {
            let mut list = told.list.clone();
            list.sort_unstable();
            (told.serving, list)
        };
        let mut changes: BTreeSet<(String, String)> = BTreeSet::new();
        for two in beams.windows(2) {
            if sorted(&two[0]) == sorted(&two[1]) {
                changes.insert((kind(&two[0].answer), kind(&two[1].answer)));
            }
        }
        for (one, other) in [(12, 13), (13, 12), (12, 14), (14, 12), (13, 14), (14, 13)] {
            let change = (format!("refused {one} at"), format!("refused {other} at"));
            assert!(changes.contains(&change), "{change:?}");
        }
    }

    /// What the channel that is to serve was on the watch before, and what becomes of the one that served.
    fn roles(told: &Told) -> (&'static str, &'static str) {
        let old = told.before.serving();
        let (next, next_was_neighbour) = (Some(told.serving), told.before.neighbours().contains(&told.serving));
        let next_was = if next == old { "serving" } else if next_was_neighbour { "neighbour" } else { "stranger" };
        let listed = old.is_some_and(|old| told.list.contains(&old));
        (next_was, if next == old { "serves on" } else if listed { "in the list" } else { "dropped" })
    }

    #[test]
    fn accepted_beams_change_the_roles_in_every_way_and_old_serving_channels_have_levels() {
        let mut times: BTreeMap<(&str, &str), usize> = BTreeMap::new();
        for told in beams_told(&made(1, 60_000)).iter().filter(|told| told.answer == "accepted") {
            let old = told.before.serving().unwrap();
            if told.before.ask(old).unwrap().0 > 0 {
                *times.entry(roles(told)).or_default() += 1;
            }
        }
        let expected = [
            ("serving", "serves on"), ("neighbour", "in the list"), ("neighbour", "dropped"),
            ("stranger", "in the list"), ("stranger", "dropped"),
        ];
        assert_eq!(times.keys().copied().collect::<BTreeSet<_>>(), BTreeSet::from(expected));
        assert!(times.values().all(|times| *times >= 50), "{times:?}");
    }

    #[test]
    fn a_list_refused_with_14_and_an_accepted_one_hold_the_old_serving_channel() {
        let mut times: BTreeMap<(bool, String), usize> = BTreeMap::new();
        for told in beams_told(&made(1, 60_000)) {
            if told.before.serving().is_some_and(|old| told.list.contains(&old)) {
                *times.entry((told.before.serving() == Some(told.serving), kind(&told.answer))).or_default() += 1;
            }
        }
        for (serves_on, answer) in
            [(false, "accepted"), (true, "refused 14 at"), (false, "refused 14 at"), (false, "refused 12 at")]
        {
            let found = times.get(&(serves_on, answer.to_string())).copied().unwrap_or(0);
            assert!(found >= 20, "serves on {serves_on}: {answer} {found}");
        }
        assert!(!times.contains_key(&(true, "accepted".to_string())));
    }

    /// How often a start at a depth, and a verdict at the depth that then holds, gives each answer.
    fn answers_by_depth(session: &[u8]) -> BTreeMap<(u8, String), usize> {
        let (mut session_now, mut depth, mut times) = (Session::fresh(), 0, BTreeMap::new());
        for line in session.split(|byte| *byte == b'\n') {
            let Some(answer) = session_now.answer_line(0, line) else { continue };
            let key = match call(line) {
                Some(Call::Watch(WatchCall::Start(_, given))) => {
                    depth = if answer == "accepted" { given } else { depth };
                    (given, answer)
                }
                Some(Call::Watch(WatchCall::Verdict(_))) => (depth, answer.split(' ').next().unwrap().to_string()),
                _ => continue,
            };
            *times.entry(key).or_default() += 1;
        }
        times
    }

    #[test]
    fn watches_of_many_depths_come_to_every_verdict() {
        let times = answers_by_depth(&made(1, 60_000));
        let often = |depth: u8, answer: &str| {
            let found = times.get(&(depth, answer.to_string())).copied().unwrap_or(0);
            assert!(found >= 5, "depth {depth}: {answer} {found}");
        };
        for depth in [5, 6, 15, 30, 31] {
            for answer in ["accepted", "refused 2", "wait", "stay", "move"] {
                often(depth, answer);
            }
        }
        for depth in [0, 4, 32, 255] {
            often(depth, "refused 7");
        }
    }
}
