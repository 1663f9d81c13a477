//! Made-up bursts, records, outcome bytes and calls for the comparisons: valid ones, and damaged ones among them.

use crate::calls::{PowerCall, SweepCall, WatchCall};
use crate::dice::Dice;
use crate::plain::{
    Burst, PowerParameters, PowerRecord, Sweep, Watch, CAPACITY, CHANNELS, DEPTH_HIGHEST, DEPTH_LOWEST, FIRST_SWEPT,
    LAST_SWEPT,
};

/// Heard at so many hundredths, at 10 dB.
pub fn heard(hundredths: i32) -> Burst {
    Burst::Heard { level: hundredths as f32 / 100.0, quality: 10.0 }
}

/// A burst that is mostly in range.
pub fn burst(dice: &Dice) -> Burst {
    match dice.below(8) {
        0 => Burst::Missed,
        1 => Burst::Heard { level: f32::from_bits(dice.word()), quality: f32::from_bits(dice.word()) },
        2 => heard(dice.between(-15_010, 10)),
        3 => Burst::Heard { level: -90.0, quality: dice.between(-3_100, 4_100) as f32 / 100.0 },
        _ => heard(-100 * dice.between(60, 120)),
    }
}

// Sweeps.

/// Levels at and around the ends of the range, and where narrower numbers turn.
const LEVELS: [i32; 14] =
    [i32::MIN, i32::MAX, -15_001, -15_000, -1, 0, 1, 32_767, 32_768, 65_536, -32_768, -32_769, -65_536, -80_536];

/// A sweep with so many of 8 channels visited, and so many of 8 of these heard, at levels from low to high.
pub fn sweep(dice: &Dice, visited_in_8: u32, heard_in_8: u32, low: i32, high: i32) -> Sweep {
    let mut sweep = Sweep::fresh();
    for channel in FIRST_SWEPT..=LAST_SWEPT {
        if dice.below(8) < visited_in_8 {
            let is_heard = dice.below(8) < heard_in_8;
            let burst = if is_heard { heard(dice.between(low, high)) } else { Burst::Missed };
            // In range, and each channel once: it is accepted.
            let _ = sweep.file(channel, burst);
        }
    }
    sweep
}

/// The record with a bit or a level changed; now and then it is still well formed.
pub fn damaged_sweep(dice: &Dice, sweep: &Sweep) -> Sweep {
    let mut damaged = sweep.clone();
    let channel = dice.one_of(&[0, 1, 2, 63, 64, 1_085, 1_086, 1_087, dice.below(CHANNELS as u32) as usize]);
    match dice.below(3) {
        0 => damaged.visited[channel / 64] ^= 1 << (channel % 64),
        1 => damaged.heard[channel / 64] ^= 1 << (channel % 64),
        _ => damaged.levels[channel] = dice.one_of(&LEVELS),
    }
    damaged
}

/// Outcome bytes of every kind, mixed: one channel in `open_in` is not read yet or suitable, the others do not suit.
pub fn outcomes(dice: &Dice, open_in: u32) -> Vec<u8> {
    let outcome = || if dice.once_in(open_in) { dice.below(2) } else { 2 + dice.below(4) };
    (0..CHANNELS).map(|_| outcome() as u8).collect()
}

/// A margin or a hysteresis, now and then out of range.
pub fn margin(dice: &Dice) -> i32 {
    dice.one_of(&[0, 1, 2, 300, 5_999, 6_000, 6_001, -1, i32::MIN, i32::MAX, dice.between(0, 6_000)])
}

/// Any call of a sweep but a choice; a filing is mostly for the next channel.
pub fn sweep_call(dice: &Dice, next: u16) -> SweepCall {
    match dice.below(10) {
        0 => SweepCall::Next,
        1 => SweepCall::Counts,
        2 => SweepCall::Check,
        _ => {
            let channel = dice.one_of(&[next, next, next, 3, dice.below(1_090) as u16, dice.word() as u16]);
            SweepCall::File(channel, burst(dice))
        }
    }
}

// Watches.

/// Numbers around the ends of the depth, and such as narrower numbers would take for a depth.
const DEPTHS: [usize; 14] = [0, 1, 4, 5, 6, 15, 30, 31, 32, 33, 1 << 8 | 15, 1 << 32, 1 << 32 | 15, usize::MAX];

/// Levels of a track at and around the ends of the range, and where the distance from an end does not fit 16 bits.
const TRACK_LEVELS: [i16; 10] = [i16::MIN, -32_767, -15_001, -15_000, -1, 0, 1, 17_767, 17_768, i16::MAX];

/// A depth of 5 to 31.
fn depth(dice: &Dice) -> usize {
    dice.between(DEPTH_LOWEST as i32, DEPTH_HIGHEST as i32) as usize
}

/// A depth that is mostly in range.
fn any_depth(dice: &Dice) -> usize {
    if dice.once_in(4) {
        dice.one_of(&DEPTHS)
    } else {
        depth(dice)
    }
}

/// The record with a number changed; now and then it is still well formed.
pub fn damaged_watch(dice: &Dice, watch: &Watch) -> Watch {
    let mut damaged = watch.clone();
    let depth = watch.depth;
    let track = &mut damaged.tracks[dice.below(7) as usize];
    match dice.below(5) {
        0 => damaged.watched = dice.one_of(&[0, 1, 2, 3, 4, 5, 6, 7, 8, usize::MAX]),
        1 => damaged.depth = dice.one_of(&[any_depth(dice), dice.one_of(&DEPTHS), track.count, track.count + 1]),
        2 => track.channel = dice.one_of(&[0, 1, 2, 3, 4, 5, 8, 1_087, 1_088, 65_535, 65_534, 65_530]),
        3 => track.count = dice.one_of(&[0, 1, depth, depth + 1, 14, 15, 16, 30, 31, 32, 33, usize::MAX, 1 << 32]),
        _ => {
            // The count of a sound watch is a place, too.
            let place = dice.one_of(&[dice.below(CAPACITY as u32) as usize, track.count, CAPACITY - 2, CAPACITY - 1]);
            track.levels[place] = dice.one_of(&TRACK_LEVELS);
        }
    }
    damaged
}

/// A watch of any depth whose channels have few different levels, so that sums are equal or apart by a hysteresis
/// exactly, at the ends of the range too.
pub fn close_watch(dice: &Dice) -> Watch {
    let mut watch = Watch::fresh();
    watch.watched = dice.between(1, 7) as usize;
    watch.depth = depth(dice);
    let first = dice.below(9) as u16;
    let lowest = dice.one_of(&[-14_999, -9_000, -201]);
    for (place, track) in watch.tracks[..watch.watched].iter_mut().enumerate() {
        let level = lowest + 100 * dice.between(0, 2) as i16;
        track.channel = (first + 5 * place as u16) % 9;
        track.count = if dice.once_in(10) { watch.depth - 1 } else { watch.depth };
        track.levels[..track.count].fill(level);
        track.levels[0] += dice.one_of(&[0, 0, 0, 1, -1]);
    }
    watch
}

/// A list of channels from 0 to 8, in some order, now and then too long, with a repeat or with another channel at any
/// place.
fn list(dice: &Dice) -> Vec<u16> {
    let length = dice.one_of(&[0, 1, 2, 3, 4, 5, 6, 6, 6, 7, 8]);
    let first = dice.below(9) as u16;
    let mut list: Vec<u16> = (first..first + length).map(|channel| channel % 9).collect();
    if dice.once_in(2) {
        list.reverse();
    }
    while dice.once_in(4) {
        let place = dice.below(list.len() as u32 + 1) as usize;
        list.insert(place, dice.one_of(&[0, 1, 2, 3, 1_087, 1_088, 65_535]));
    }
    list
}

/// What the lists below are made of: one above the range, and enough within it for a first fault at any place.
const LISTED: [u16; 7] = [0, 5, 7, 9, 11, 1_087, 1_088];

/// Every list of up to 6 of these channels, and some that are too long.
pub fn every_list(dice: &Dice) -> Vec<Vec<u16>> {
    let mut lists = vec![vec![]];
    // Each list is taken up once, and lengthened by each channel.
    for at in 0.. {
        if lists[at].len() == 6 {
            break;
        }
        lists.extend(LISTED.map(|channel| [&lists[at][..], &[channel]].concat()));
    }
    let too_long = |_| (0..dice.between(7, 12)).map(|_| dice.one_of(&LISTED)).collect();
    lists.extend((0..1_000).map(too_long));
    lists
}

/// Calls that lead to the watches for these lists, an idle one, and some in which one of the channels serves; each with
/// a serving channel that the lists come with: the same, a neighbour, a stranger, and one that is none.
pub fn before_beams() -> [(Vec<WatchCall>, u16); 8] {
    let watching = |serving| {
        let start = [WatchCall::Start(serving, 5), WatchCall::NewBeam(serving, vec![7, 3])];
        let filings = [7, 3, serving, 7].map(|channel| WatchCall::File(channel, heard(-9_000 - i32::from(channel))));
        start.into_iter().chain(filings).collect()
    };
    [
        (vec![], 0),
        (vec![], 5),
        (watching(0), 0),
        (watching(0), 7),
        (watching(5), 3),
        (watching(5), 9),
        (watching(1_087), 1_087),
        (watching(1_087), 1_088),
    ]
}

/// Any call on this watch; most are filings. Starts are few, and in a new beam mostly the same channel goes on serving,
/// so that channels come to all the levels of a high depth.
pub fn watch_call(dice: &Dice, watch: &Watch) -> WatchCall {
    let channel = dice.one_of(&[0, 1, 2, 3, 4, 5, 6, 7, 8, 1_087, 1_088, 65_535]);
    let (now, watched) = (watch.tracks[0].channel, watch.tracks[dice.below(7) as usize].channel);
    let serving = if dice.once_in(3) { dice.one_of(&[watched, watched, watched, channel]) } else { now };
    match dice.below(200) {
        0 if dice.once_in(2) => WatchCall::Start(channel, any_depth(dice)),
        1..=10 => WatchCall::NewBeam(serving, list(dice)),
        11..=45 => WatchCall::Verdict(margin(dice)),
        46..=75 => WatchCall::Ask(channel),
        76..=80 => WatchCall::Check,
        _ => WatchCall::File(channel, burst(dice)),
    }
}

/// Every kind of call of a watch.
pub fn watch_calls(dice: &Dice) -> [WatchCall; 8] {
    let channel = dice.below(9) as u16;
    [
        WatchCall::Check,
        WatchCall::Ask(channel),
        WatchCall::Verdict(margin(dice)),
        WatchCall::File(channel, burst(dice)),
        WatchCall::File(1_088, Burst::Missed),
        WatchCall::NewBeam(channel, list(dice)),
        WatchCall::NewBeam(dice.one_of(&[channel, 1_087, 1_088]), list(dice)),
        WatchCall::Start(dice.one_of(&[channel, 1_087, 1_088]), any_depth(dice)),
    ]
}

// Power steps.

/// A number from 0 to `most`, or now and then one beyond.
fn code(dice: &Dice, most: u32) -> u32 {
    if dice.once_in(40) {
        dice.one_of(&[most, most + 1, most + 2, 255, 1 << 31, u32::MAX, dice.word()])
    } else {
        dice.below(most + 1)
    }
}

pub fn parameters(dice: &Dice) -> PowerParameters {
    let [a, b] = [code(dice, 60), code(dice, 60)];
    let (panmin, panmax) = if dice.once_in(20) { (a, b) } else { (a.min(b), a.max(b)) };
    PowerParameters {
        sqt: code(dice, 126),
        paninit: code(dice, 60),
        panmin,
        panmax,
        gainup: code(dice, 31),
        gaindn: code(dice, 10),
        mestep: code(dice, 15),
    }
}

/// A record of any codes, or now and then a damaged one.
pub fn power_record(dice: &Dice) -> PowerRecord {
    let increase = 200 * dice.below(121);
    let beyond = dice.one_of(&[increase + 1, 24_200, 23_999, u32::MAX, dice.word()]);
    PowerRecord {
        panlast: code(dice, 60),
        parsave: code(dice, 60),
        panbasic: code(dice, 60),
        increase: if dice.once_in(20) { beyond } else { increase },
    }
}

/// A step with these parameters, or the test of a record.
pub fn power_call(dice: &Dice, p: PowerParameters) -> PowerCall {
    let (sqi, lent) = (dice.between(-3_050, 4_050), dice.once_in(2));
    match dice.below(12) {
        0 => PowerCall::Check,
        1..=4 => PowerCall::Failed { p, sqi, lent },
        _ => PowerCall::Decoded { p, pan: code(dice, 63), par: code(dice, 63), sqi, lent },
    }
}
