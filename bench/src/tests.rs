//! Tests of the plain Rust and of the scenes that are timed: document 01's checked examples, random calls compared with
//! the second program, damaged records compared with a plain reading of the rules, and what the scenes call.

// The parts that need the archive are not built here.
#[allow(dead_code)]
mod calls;
mod dice;
mod floats;
#[allow(dead_code)]
mod library;
#[allow(dead_code)]
mod made_up;
mod plain;
mod plain_calls;
mod scenes;

use calls::{Call, WatchCall};
use dice::Dice;
use library::{list_refusals, refusal_of, told, Answer, Refused, Told};
use made_up::{burst, heard};
use plain::{
    choose, level_to_float, level_to_hundredths, quality_to_float, quality_to_hundredths, Burst, Choice, Levels,
    PowerParameters, PowerRecord, Refusal, Sent, Sweep, Track, Verdict, Watch, CAPACITY, CHANNELS,
};
use plain_calls::Plain;
use scenes::{played, Choices, FullSweep, Scene, Steps, ToFloat, ToHundredths, Watched};
use std::collections::BTreeSet;

fn number<T>(answer: Result<T, Refusal>) -> u32 {
    answer.map_or_else(Refusal::number, |_| 0)
}

/// The same answer of the second program.
fn second_number<T>(answer: Result<T, second::refusal::Refusal>) -> u32 {
    answer.map_or_else(|refusal| u32::from(refusal.number()), |_| 0)
}

fn second_burst(burst: Burst) -> second::reading::Burst {
    match burst {
        Burst::Heard { level, quality } => {
            second::reading::Burst::Heard { level: level.to_bits(), quality: quality.to_bits() }
        }
        Burst::Missed => second::reading::Burst::Missed,
    }
}

// Readings.

#[test]
fn checked_examples_of_readings() {
    assert_eq!(level_to_hundredths(-100.125), Ok(-10_013));
    assert_eq!(quality_to_hundredths(0.125), Ok(12));
    assert_eq!(quality_to_hundredths(0.375), Ok(37));
    assert_eq!(level_to_hundredths(-150.0), Ok(-15_000));
    assert_eq!(level_to_hundredths((-150.0_f32).next_down()), Err(Refusal::ReadingOutOfRange));
    assert_eq!(level_to_hundredths(f32::NAN), Err(Refusal::ReadingOutOfRange));
    assert_eq!(level_to_hundredths(-0.0), Ok(0));
}

#[test]
fn conversion_agrees_with_exact_whole_numbers() {
    let dice = Dice::new(1);
    let random = (0..1_000_000).map(|_| dice.word());
    conversion_agrees_on(floats::turning_bits().into_iter().chain(random));
}

#[test]
#[ignore = "takes minutes"]
fn conversion_agrees_with_exact_whole_numbers_on_every_float() {
    conversion_agrees_on(0..=u32::MAX);
}

/// The plain conversions give what the second program works out in whole numbers.
fn conversion_agrees_on(all_bits: impl Iterator<Item = u32>) {
    for bits in all_bits {
        let x = f32::from_bits(bits);
        let level = second::reading::level_hundredths(bits);
        let quality = second::reading::quality_hundredths(bits);
        assert_eq!(
            level_to_hundredths(x).map_err(Refusal::number),
            level.map_err(|why| why.number().into()),
            "level {bits:08x}"
        );
        assert_eq!(
            quality_to_hundredths(x).map_err(Refusal::number),
            quality.map_err(|why| why.number().into()),
            "quality {bits:08x}"
        );
    }
}

#[test]
fn every_hundredth_is_shown_and_read_back() {
    for h in -20_000..=10_000 {
        let level = level_to_float(h).map(f32::to_bits).map_err(Refusal::number);
        let quality = quality_to_float(h).map(f32::to_bits).map_err(Refusal::number);
        assert_eq!(level, second::reading::shown_level(h).map_err(|why| why.number().into()), "level {h}");
        assert_eq!(quality, second::reading::shown_quality(h).map_err(|why| why.number().into()), "quality {h}");
        if let Ok(x) = level_to_float(h) {
            assert_eq!(level_to_hundredths(x), Ok(h));
        }
        if let Ok(x) = quality_to_float(h) {
            assert_eq!(quality_to_hundredths(x), Ok(h));
        }
    }
}

// The band sweep.

/// The rule of a well-formed sweep, as document 01 states it.
fn sweep_is_well_formed(s: &Sweep) -> bool {
    (0..CHANNELS).all(|c| {
        let visited = s.visited[c / 64] >> (c % 64) & 1 == 1;
        let heard = s.heard[c / 64] >> (c % 64) & 1 == 1;
        let inside = (2..=1_086).contains(&c);
        let level = s.levels[c];
        (visited || !heard) && (inside || !visited) && (heard || level == 0) && (-15_000..=0).contains(&level)
    })
}

#[test]
fn damaged_sweeps_are_refused_and_stay() {
    let dice = Dice::new(2);
    let (mut refused, mut accepted) = (0, 0);
    for round in 0..40 {
        let sweep = made_up::sweep(&dice, [0, 1, 4, 7, 8][round % 5], [8, 7, 4, 1][round % 4], -15_000, 0);
        for _ in 0..200 {
            let mut damaged = made_up::damaged_sweep(&dice, &sweep);
            let well_formed = sweep_is_well_formed(&damaged);
            let before = damaged.clone();
            assert_eq!(damaged.check().is_ok(), well_formed);
            assert_eq!(damaged.next().is_ok(), well_formed);
            assert_eq!(damaged.counts().is_ok(), well_formed);
            if !well_formed {
                assert_eq!(damaged.file(0, Burst::Missed), Err(Refusal::RecordNotWellFormed));
                assert_eq!(choose(&damaged, -1, &[9]), Err(Refusal::RecordNotWellFormed));
                refused += 1;
            } else {
                assert_eq!(damaged.file(0, Burst::Missed), Err(Refusal::ChannelOutOfRange));
                assert_eq!(choose(&damaged, -1, &[9]), Err(Refusal::OutcomesFaulty));
                accepted += 1;
            }
            assert_eq!(damaged, before);
        }
    }
    assert!(refused > 1_000 && accepted > 1_000, "{refused} refused, {accepted} accepted");
}

#[test]
fn sweeps_agree_with_the_second_program() {
    let dice = Dice::new(3);
    for _ in 0..4 {
        let mut plain = Sweep::fresh();
        let mut second = second::sweep::Sweep::default();
        while !second.finished() {
            let next = second.next().unwrap_or(0);
            assert_eq!(plain.next(), Ok(second.next()));
            let channel = dice.one_of(&[next, next, 3, dice.below(1_090) as u16, dice.word() as u16]);
            let burst = burst(&dice);
            let before = plain.clone();
            let answer = number(plain.file(channel, burst));
            assert_eq!(answer, second_number(second.file(channel, second_burst(burst))));
            assert!(answer == 0 || plain == before);
            assert_eq!(plain.counts(), Ok((second.visited_count() as u32, second.heard_count() as u32)));
        }
        assert_eq!(plain.next(), Ok(None));
        let heard = (0..CHANNELS).filter(|c| plain.heard[c / 64] >> (c % 64) & 1 == 1);
        let levels: Vec<(u16, i32)> = heard.map(|c| (c as u16, plain.levels[c])).collect();
        assert_eq!(levels, second.heard());
    }
}

// The choice.

fn swept(heard_levels: &[(u16, i32)]) -> Sweep {
    let mut sweep = Sweep::fresh();
    for &(channel, level) in heard_levels {
        assert_eq!(sweep.file(channel, heard(level)), Ok(()));
    }
    while let Ok(Some(channel)) = sweep.next() {
        assert_eq!(sweep.file(channel, Burst::Missed), Ok(()));
    }
    sweep
}

#[test]
fn checked_examples_of_the_choice() {
    let sweep = swept(&[(100, -9_000), (200, -9_000), (300, -9_300)]);
    let mut outcomes = [0; CHANNELS];
    assert_eq!(choose(&sweep, 300, &outcomes), Ok(Choice::Read { channel: 100, tried: 1 }));
    outcomes[100] = 2;
    outcomes[200] = 4;
    outcomes[300] = 1;
    assert_eq!(choose(&sweep, 300, &outcomes), Ok(Choice::Camp { channel: 300, tried: 3 }));
    assert_eq!(choose(&sweep, 299, &outcomes), Ok(Choice::NoBeam { tried: 2 }));
    assert_eq!(choose(&swept(&[]), 300, &outcomes), Ok(Choice::NoBeam { tried: 0 }));
}

#[test]
fn refusals_of_the_choice_come_in_order() {
    let unfinished = Sweep::fresh();
    assert_eq!(choose(&unfinished, 6_001, &[0; CHANNELS - 1]), Err(Refusal::OutcomesFaulty));
    assert_eq!(choose(&unfinished, 6_001, &[6; CHANNELS]), Err(Refusal::OutcomesFaulty));
    assert_eq!(choose(&unfinished, 6_001, &[5; CHANNELS]), Err(Refusal::ParameterOutOfRange));
    assert_eq!(choose(&unfinished, -1, &[5; CHANNELS]), Err(Refusal::ParameterOutOfRange));
    assert_eq!(choose(&unfinished, 6_000, &[5; CHANNELS]), Err(Refusal::SweepUnfinished));
}

#[test]
fn choices_agree_with_the_second_program() {
    let dice = Dice::new(4);
    for round in 0..60 {
        let mut plain = Sweep::fresh();
        let mut second = second::sweep::Sweep::default();
        // Few levels make many equals.
        let low = [-15_000, -9_100, -9_005, -1, -6_010][round % 5];
        let high = low + [15_000, 300, 3, 1, 6_010][round % 5];
        let heard_in_32 = [32, 31, 16, 1, 0, 4][round % 6];
        for channel in 2..=1_086 {
            let is_heard = dice.below(32) < heard_in_32;
            let burst = if is_heard { heard(dice.between(low, high)) } else { Burst::Missed };
            assert_eq!(number(plain.file(channel, burst)), second_number(second.file(channel, second_burst(burst))));
        }
        for _ in 0..40 {
            // How many channels are open, 0 or 1.
            let outcomes = made_up::outcomes(&dice, dice.one_of(&[1, 3, 20, 300, 2_000, 100_000]));
            let margin = dice.one_of(&[0, 1, 2, 300, 6_000, dice.between(0, 6_000)]);
            let told = match second::choice::choose(&second, margin, &outcomes) {
                Ok(second::choice::Choice::Camp { channel, tried }) => Choice::Camp { channel, tried: tried as u32 },
                Ok(second::choice::Choice::Read { channel, tried }) => Choice::Read { channel, tried: tried as u32 },
                Ok(second::choice::Choice::NoBeam { tried }) => Choice::NoBeam { tried: tried as u32 },
                Err(refusal) => panic!("refused: {refusal:?}"),
            };
            assert_eq!(choose(&plain, margin, &outcomes), Ok(told));
        }
    }
}

// The watch.

fn watching(serving: u16, list: &[u16], depth: usize) -> Watch {
    let mut watch = Watch::fresh();
    assert_eq!(watch.start(serving, depth), Ok(()));
    assert_eq!(watch.new_beam(serving, list), Ok(()));
    watch
}

#[test]
fn checked_examples_of_the_watch() {
    let mut watch = watching(5, &[], 15);
    watch.file(5, heard(-1)).unwrap();
    watch.file(5, heard(-2)).unwrap();
    assert_eq!(watch.ask(5), Ok(Levels { count: 2, mean: -2 }));

    // Document 01's depth is 15; at every other it is the same.
    for depth in 5..=31 {
        let mut watch = watching(10, &[20], depth);
        for _ in 0..depth - 1 {
            watch.file(10, heard(-10_000)).unwrap();
            watch.file(20, heard(-9_700)).unwrap();
        }
        watch.file(20, heard(-9_700)).unwrap();
        assert_eq!(watch.verdict(299), Ok(Verdict::Wait));
        watch.file(10, heard(-10_000)).unwrap();
        assert_eq!(watch.verdict(300), Ok(Verdict::Stay));
        assert_eq!(watch.verdict(299), Ok(Verdict::MoveTo(20)));
    }
}

#[test]
fn levels_at_the_ends_of_the_range() {
    for depth in 5..=31 {
        let mut watch = watching(10, &[20], depth);
        for _ in 0..depth {
            watch.file(10, heard(-15_000)).unwrap();
            watch.file(20, heard(0)).unwrap();
        }
        assert_eq!(watch.ask(10), Ok(Levels { count: depth, mean: -15_000 }));
        assert_eq!(watch.ask(20), Ok(Levels { count: depth, mean: 0 }));
        assert_eq!(watch.verdict(6_000), Ok(Verdict::MoveTo(20)));
    }
}

#[test]
fn refusals_of_a_start_come_in_order() {
    for mut watch in [Watch::fresh(), watching(10, &[20], 7)] {
        let before = watch.clone();
        for depth in [0, 4, 32, 1 << 32 | 15, usize::MAX] {
            assert_eq!(watch.start(10, depth), Err(Refusal::ParameterOutOfRange));
            assert_eq!(watch.start(1_088, depth), Err(Refusal::ParameterOutOfRange));
        }
        for depth in [5, 31] {
            assert_eq!(watch.start(1_088, depth), Err(Refusal::ChannelOutOfRange));
        }
        assert_eq!(watch, before);
    }
}

/// A new beam on this watch is refused so, and leaves it as it was.
fn beam_refused(watch: &Watch, serving: u16, list: &[u16], told: Refusal) {
    let mut after = watch.clone();
    assert_eq!(after.new_beam(serving, list), Err(told), "{serving} {list:?}");
    assert_eq!(&after, watch, "{serving} {list:?}");
}

#[test]
fn faulty_beams_are_told_with_the_first_faulty_place_of_their_list() {
    use Refusal::{ChannelOutOfRange, ListTooLong, ListedAgain, ListedOutOfRange, ListedServing};
    // Channel 10 serves, is a neighbour, is a stranger; nobody serves.
    for watch in [watching(10, &[20, 30], 15), watching(20, &[10], 15), watching(40, &[20], 15), Watch::fresh()] {
        for (list, told) in [
            (&[1, 2, 3, 4, 5, 6, 1_088][..], ListTooLong),
            (&[20, 1_088, 10], ListedOutOfRange { place: 1 }),
            (&[20, 10, 1_088], ListedServing { place: 1 }),
            (&[10, 20, 10], ListedServing { place: 0 }),
            (&[20, 30, 20, 10], ListedAgain { place: 2 }),
            (&[1, 2, 3, 4, 5, 10], ListedServing { place: 5 }),
        ] {
            beam_refused(&watch, 10, list, told);
            beam_refused(&watch, 1_088, list, ChannelOutOfRange);
        }
    }
    beam_refused(&Watch::fresh(), 10, &[1, 2, 3, 4, 5, 0], Refusal::NotWatched);
}

#[test]
fn levels_stay_with_a_channel_in_whichever_role() {
    let mut watch = watching(10, &[20, 30], 15);
    watch.file(10, heard(-10_000)).unwrap();
    watch.file(20, heard(-9_000)).unwrap();
    watch.file(20, heard(-9_000)).unwrap();
    let levels = |count, mean| Ok(Levels { count, mean });
    // A neighbour serves, then a stranger, then the first again.
    for (serving, list) in [(20, &[30, 10][..]), (40, &[10, 20]), (10, &[20]), (20, &[10])] {
        assert_eq!(watch.new_beam(serving, list), Ok(()));
        assert_eq!((watch.tracks[0].channel, watch.watched, watch.depth), (serving, 1 + list.len(), 15));
        assert_eq!((watch.ask(10), watch.ask(20)), (levels(1, -10_000), levels(2, -9_000)));
    }
    // Dropped, it has none when it comes back.
    assert_eq!(watch.new_beam(10, &[]), Ok(()));
    assert_eq!(watch.new_beam(20, &[10]), Ok(()));
    assert_eq!((watch.ask(10), watch.ask(20)), (levels(1, -10_000), levels(0, 0)));
}

#[test]
fn equal_sums_go_to_the_lowest_channel() {
    for list in [[20, 30, 40], [40, 30, 20], [30, 20, 40]] {
        let mut watch = watching(10, &list, 15);
        for (channel, level) in [(10, -10_000), (20, -9_001), (30, -9_000), (40, -9_000)] {
            for _ in 0..15 {
                watch.file(channel, heard(level)).unwrap();
            }
        }
        assert_eq!(watch.verdict(0), Ok(Verdict::MoveTo(30)));
        watch.new_beam(40, &[10, 20, 30]).unwrap();
        assert_eq!(watch.verdict(0), Ok(Verdict::Stay));
    }
}

/// The rule of a well-formed watch record.
fn watch_is_well_formed(w: &Watch) -> bool {
    let unused = Track { channel: 0, count: 0, levels: [0; CAPACITY] };
    let fine = |t: &Track| {
        let level_fine = |k: usize| if k < t.count { (-15_000..=0).contains(&t.levels[k]) } else { t.levels[k] == 0 };
        t.channel <= 1_087 && t.count <= w.depth && (0..CAPACITY).all(level_fine)
    };
    w.watched <= 7
        && if w.watched == 0 { w.depth == 0 } else { (5..=31).contains(&w.depth) }
        && w.tracks[..w.watched].iter().all(fine)
        && w.tracks[w.watched..].iter().all(|t| *t == unused)
        && (0..w.watched).all(|i| (0..i).all(|j| w.tracks[i].channel != w.tracks[j].channel))
}

#[test]
fn damaged_watches_are_refused_and_stay() {
    let dice = Dice::new(5);
    let (mut refused, mut accepted) = (0, 0);
    for round in 0..60 {
        let list = [0, 2, 3, 4, 5, 1_087];
        let mut watch = watching(1, &list[..round % 7], [5, 15, 31, 8, 30][round % 5]);
        for _ in 0..[0, 5, 60, 300][round % 4] {
            let _ = watch.file(dice.one_of(&[0, 1, 2, 3, 4, 5, 1_087]), burst(&dice));
        }
        if round % 9 == 8 {
            watch = Watch::fresh();
        }
        for _ in 0..300 {
            let mut damaged = made_up::damaged_watch(&dice, &watch);
            let well_formed = watch_is_well_formed(&damaged);
            let before = damaged.clone();
            assert_eq!(damaged.check().is_ok(), well_formed, "{damaged:?}");
            if well_formed {
                assert_eq!(damaged.start(1_088, 15), Err(Refusal::ChannelOutOfRange));
                assert_eq!(damaged.start(1_088, 32), Err(Refusal::ParameterOutOfRange));
                assert_eq!(damaged.file(1_088, heard(1)), Err(Refusal::NotWatched));
                accepted += 1;
            } else {
                let nine = Err(Refusal::RecordNotWellFormed);
                assert_eq!(damaged.start(1_088, 32), nine);
                assert_eq!(damaged.start(1, 15), nine);
                assert_eq!(damaged.new_beam(1_088, &[1_088]), nine);
                assert_eq!(damaged.new_beam(1, &[]), nine);
                assert_eq!(damaged.file(1_088, heard(1)), nine);
                assert_eq!(number(damaged.ask(1_088)), 9);
                assert_eq!(number(damaged.verdict(-1)), 9);
                refused += 1;
            }
            assert_eq!(damaged, before);
        }
    }
    assert!(refused > 1_000 && accepted > 1_000, "{refused} refused, {accepted} accepted");
}

/// The second program's answer to a call on a watch.
fn second_answer(second: &mut second::watch::Watch, call: &WatchCall) -> u64 {
    use second::watch::Verdict::{Move, Stay, Wait};
    fn by_number<T>(answer: Result<T, second::refusal::Refusal>) -> Answer<T> {
        answer.map_err(|refusal| Refused::new(refusal.number().into(), refusal.place().map(|place| place as u32)))
    }
    match *call {
        // A depth is a byte there. 255 stands for those beyond a byte, which are out of range too.
        WatchCall::Start(serving, depth) => {
            told(by_number(second.start(serving, u8::try_from(depth).unwrap_or(u8::MAX))))
        }
        WatchCall::NewBeam(serving, ref list) => told(by_number(second.new_beam(serving, list))),
        WatchCall::File(channel, burst) => told(by_number(second.file(channel, second_burst(burst)))),
        WatchCall::Ask(channel) => {
            told(by_number(second.ask(channel)).map(|(count, mean)| Levels { count, mean: mean as i32 }))
        }
        WatchCall::Verdict(hysteresis) => told(by_number(second.verdict(hysteresis)).map(|verdict| match verdict {
            Wait => Verdict::Wait,
            Stay => Verdict::Stay,
            Move(channel) => Verdict::MoveTo(channel),
        })),
        WatchCall::Check => told(Ok(())),
    }
}

#[test]
fn watches_agree_with_the_second_program() {
    let dice = Dice::new(6);
    for _ in 0..20 {
        let mut plain = Watch::fresh();
        let mut second = second::watch::Watch::default();
        for _ in 0..5_000 {
            let call = made_up::watch_call(&dice, &plain);
            let before = plain.clone();
            let answer = call.make::<Plain>(&mut plain);
            assert_eq!(answer, second_answer(&mut second, &call), "{call:?} on {before:?}");
            assert!(refusal_of(answer).is_none() || plain == before);
            assert!(watch_is_well_formed(&plain));
            let ask = WatchCall::Ask(dice.below(9) as u16);
            assert_eq!(ask.make::<Plain>(&mut plain), second_answer(&mut second, &ask), "after {call:?} on {before:?}");
        }
    }
}

#[test]
fn beams_agree_with_the_second_program() {
    let lists = made_up::every_list(&Dice::new(9));
    let mut refused = BTreeSet::new();
    for (calls, serving) in made_up::before_beams() {
        let (mut plain, mut second) = (Watch::fresh(), second::watch::Watch::default());
        for call in calls {
            assert_eq!(call.make::<Plain>(&mut plain), second_answer(&mut second, &call), "{call:?}");
        }
        for list in &lists {
            let (mut plain_after, mut second_after) = (plain.clone(), second.clone());
            let call = WatchCall::NewBeam(serving, list.clone());
            let answer = call.make::<Plain>(&mut plain_after);
            assert_eq!(answer, second_answer(&mut second_after, &call), "{call:?} on {plain:?}");
            refused.extend(refusal_of(answer));
            assert!(refusal_of(answer).is_none() || plain_after == plain, "{call:?} on {plain:?}");
            assert!(watch_is_well_formed(&plain_after));
            for ask in [0, 3, 5, 7, 9, 1_087].map(WatchCall::Ask) {
                assert_eq!(ask.make::<Plain>(&mut plain_after), second_answer(&mut second_after, &ask), "{call:?}");
            }
        }
    }
    let mut every = list_refusals();
    every.extend([Refusal::NotWatched, Refusal::ChannelOutOfRange].map(|refusal| Refused::new(refusal.number(), None)));
    assert_eq!(refused, every);
}

#[test]
fn watches_of_every_depth_agree_with_the_second_program() {
    let dice = Dice::new(8);
    for depth in 5..=31 {
        let mut plain = Watch::fresh();
        let mut second = second::watch::Watch::default();
        let mut both = |call: WatchCall| {
            let answer = call.make::<Plain>(&mut plain);
            assert_eq!(answer, second_answer(&mut second, &call), "{call:?} at depth {depth}");
            assert!(watch_is_well_formed(&plain));
            answer
        };
        both(WatchCall::Start(0, depth));
        both(WatchCall::NewBeam(0, vec![6, 5, 4, 3, 2, 1]));
        // How many wait, stay and move.
        let mut verdicts = [0; 3];
        for round in 0..3_000 {
            let channel = dice.below(7) as u16;
            both(WatchCall::File(channel, heard(-9_000 + 100 * dice.between(0, 2))));
            both(WatchCall::Ask(channel));
            let verdict = both(WatchCall::Verdict(dice.one_of(&[0, 1, 50])));
            let kind = [Verdict::Wait.number(), Verdict::Stay.number()].iter().position(|&told| told == verdict);
            verdicts[kind.unwrap_or(2)] += 1;
            if round % 100 == 99 {
                both(WatchCall::NewBeam(channel, (0..7).filter(|&other| other != channel).collect()));
            }
        }
        assert!(!verdicts.contains(&0), "{verdicts:?} at depth {depth}");
    }
}

// Power steps.

fn parameters(codes: [u32; 7]) -> PowerParameters {
    let [sqt, paninit, panmin, panmax, gainup, gaindn, mestep] = codes;
    PowerParameters { sqt, paninit, panmin, panmax, gainup, gaindn, mestep }
}

#[test]
fn checked_examples_of_power() {
    let p = parameters([85, 20, 0, 60, 10, 10, 0]);
    let (record, answer) = PowerRecord::start(&p);
    assert_eq!(answer, Ok(()));
    let par = |sqi| record.clone().step(&p, None, sqi).unwrap().par;
    assert_eq!((par(750), par(950)), (17, 22));

    let p = parameters([85, 30, 0, 60, 10, 10, 3]);
    let (mut record, _) = PowerRecord::start(&p);
    let messages = [Some((61, 20)), Some((61, 40)), Some((61, 40)), None, None];
    assert_eq!(messages.map(|decoded| record.step(&p, decoded, 0).unwrap().pan), [20, 20, 40, 38, 37]);
}

#[test]
fn a_refused_start_leaves_zeros() {
    let zeros = PowerRecord { panlast: 0, parsave: 0, panbasic: 0, increase: 0 };
    let p = parameters([127, 20, 0, 60, 10, 10, 0]);
    assert_eq!(PowerRecord::start(&p), (zeros, Err(Refusal::ParameterOutOfRange)));
}

#[test]
fn power_steps_agree_with_the_second_program() {
    let dice = Dice::new(7);
    let codes = |p: &PowerParameters| second::power::Parameters {
        sqt: p.sqt as i32,
        pan_init: p.paninit as i32,
        pan_min: p.panmin as i32,
        pan_max: p.panmax as i32,
        gain_up: p.gainup as i32,
        gain_down: p.gaindn as i32,
        mestep: p.mestep as i32,
    };
    for _ in 0..2_000 {
        let p = made_up::parameters(&dice);
        let (mut plain, answer) = PowerRecord::start(&p);
        let (mut second, told) = second::power::Power::start(&codes(&p));
        assert_eq!(number(answer), second_number(told));
        for _ in 0..50 {
            let p = if dice.once_in(2) { p } else { made_up::parameters(&dice) };
            let code = || dice.one_of(&[0, 60, 61, 63, 64, u32::MAX, dice.below(61), dice.below(61), dice.below(64)]);
            let (pan, par) = (code(), code());
            let decoded = (!dice.once_in(3)).then_some((pan, par));
            let sqi =
                dice.one_of(&[-3_001, -3_000, 4_000, 4_001, dice.between(-3_000, 4_000), dice.between(-3_000, 4_000)]);
            let before = plain;
            let answer = plain.step(&p, decoded, sqi);
            let told = decoded.map(|(pan, par)| second::power::Codes { pan: pan as i32, par: par as i32 });
            let told =
                second.step(&codes(&p), told, sqi).map(|sent| Sent { par: sent.par as u32, pan: sent.pan as u32 });
            assert_eq!(answer.map_err(Refusal::number), told.map_err(|why| why.number().into()));
            assert!(answer.is_ok() || plain == before);
        }
    }
}

#[test]
fn damaged_power_records_are_refused_and_stay() {
    let good = PowerRecord { panlast: 60, parsave: 60, panbasic: 60, increase: 24_000 };
    let p = parameters([127, 0, 0, 60, 0, 0, 0]);
    assert_eq!(good.clone().step(&p, None, 5_000), Err(Refusal::ParameterOutOfRange));
    let damages = [
        PowerRecord { panlast: 61, ..good },
        PowerRecord { parsave: 61, ..good },
        PowerRecord { panbasic: u32::MAX, ..good },
        PowerRecord { increase: 24_200, ..good },
        PowerRecord { increase: 23_999, ..good },
        PowerRecord { increase: 1, ..good },
    ];
    for damaged in damages {
        let mut record = damaged;
        assert_eq!(record.step(&p, Some((64, 64)), 5_000), Err(Refusal::RecordNotWellFormed));
        assert_eq!(record, damaged);
    }
}

// What is told of an answer.

#[test]
fn refusals_are_told_by_numbers_that_no_value_has() {
    for refusal in list_refusals().into_iter().chain([Refused::new(1, None), Refused::new(12, Some(u32::MAX))]) {
        assert_eq!(refusal_of(told::<()>(Err(refusal))), Some(refusal));
    }
    for level in [-15_000, -1, 0] {
        for quality in -3_000..=4_000 {
            assert_eq!(refusal_of((level, quality).number()), None);
        }
    }
}

// The scenes that are timed: the calls that the table names, and as many.

/// Every answer of a scene; none is refused.
fn answers<S: Scene>(scene: &S, calls: usize) -> Vec<u64> {
    let (answers, _) = played::<Plain, S>(scene);
    assert_eq!(scene.calls(), calls);
    assert!(!answers.iter().any(|&answer| refusal_of(answer).is_some()));
    answers
}

#[test]
fn scenes_of_readings() {
    let hundredths = answers(&ToHundredths::new(), 102_400);
    assert_eq!(hundredths.len(), 102_400);
    assert!(hundredths.iter().all(|&h| (-15_000..=0).contains(&(h as i32))));
    let floats = answers(&ToFloat::new(), 102_400);
    assert_eq!(floats.len(), 102_400);
    assert!(floats.iter().all(|&bits| (-150.0..=0.0).contains(&f32::from_bits(bits as u32))));
}

#[test]
fn a_full_sweep_goes_from_channel_to_channel_and_ends_with_its_counts() {
    let scene = FullSweep::new();
    let answers = answers(&scene, 1);
    let (_, sweep) = played::<Plain, _>(&scene);
    let mut told: Vec<u64> = (2..=1_086).flat_map(|channel| [Some(channel).number(), ().number()]).collect();
    let counts = sweep.counts().unwrap();
    assert_eq!(counts.0, 1_085);
    told.extend([None.number(), counts.number()]);
    assert_eq!(answers, told);
}

#[test]
fn scenes_of_the_choice() {
    let usual = Choices::usual();
    let first = choose(&usual.begin(), 0, &[0; CHANNELS]).unwrap();
    assert!(matches!(first, Choice::Read { tried: 1, .. }));
    assert_eq!(answers(&usual, 400), [first.number(); 400]);
    assert_eq!(answers(&Choices::worst(), 10), [Choice::NoBeam { tried: 1_085 }.number(); 10]);
}

#[test]
fn scenes_of_the_watch() {
    let beams = Watched::new_beam();
    assert_eq!(answers(&beams, 5_000), [().number(); 5_000]);
    // Whoever serves at the end, each channel has the levels that it had.
    let (before, after) = (beams.begin(), played::<Plain, _>(&beams).1);
    assert!((100..=700).step_by(100).all(|channel| before.ask(channel) == after.ask(channel)));
    assert_eq!(answers(&Watched::file(), 5_000), [().number(); 5_000]);
    // Every channel has all its levels: their count in the upper half of the number.
    assert!(answers(&Watched::ask(), 5_000).iter().all(|answer| answer >> 32 == scenes::DEPTH as u64));
    let verdicts = answers(&Watched::verdict(), 5_000);
    assert_eq!(verdicts.len(), 5_000);
    assert!(!verdicts.contains(&Verdict::Wait.number()));
    assert!(verdicts.contains(&Verdict::Stay.number()) && verdicts.iter().any(|&answer| answer < 1 << 16));
}

#[test]
fn scenes_of_the_power_steps() {
    for decoded in [true, false] {
        let scene = Steps::new(decoded);
        assert_eq!(answers(&scene, 102_400).len(), 102_400);
        let (_, record) = played::<Plain, _>(&scene);
        // A failed message raises the power to the highest; a decoded one clears the increase.
        assert_eq!(record.increase, if decoded { 0 } else { 24_000 });
    }
}
