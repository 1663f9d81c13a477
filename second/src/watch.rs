//! The plain watch of document 01: a serving channel or none, a set of neighbours and, for each channel
//! under watch, the levels filed since it came under watch, oldest first. A place in a list exists only for the
//! refusal of a faulty one (request E2). Where document 01 says 15, the watch reads its depth (request E8).
//! A new serving channel and its list come in one call (request E10).

use crate::limits::{DEPTH_RANGE, HIGHEST_CHANNEL, HYSTERESIS_RANGE, MOST_NEIGHBOURS};
use crate::reading::{heard_level, Burst};
use crate::refusal::{judge, Refusal};
use std::collections::{BTreeMap, BTreeSet};

/// No answer looks behind as many last levels as the depth; so that memory stays bounded in a session of any length,
/// the older half goes when a channel holds this many.
const LEVELS_HELD: usize = 1_000_000;

/// The plain watch; a fresh one is idle.
#[derive(Clone, Debug, Default, PartialEq, Eq)]
pub struct Watch {
    serving: Option<u16>,
    /// Given at the start and kept for the watch's life; an idle watch has none, which 0 stands for.
    depth: u8,
    neighbours: BTreeSet<u16>,
    levels: BTreeMap<u16, Vec<i32>>,
}

/// What a verdict says.
#[derive(Clone, Copy, Debug, PartialEq, Eq)]
pub enum Verdict {
    Wait,
    Stay,
    Move(u16),
}

/// The last levels, as many as the depth, or all if fewer.
fn last_levels(levels: &[i32], depth: u8) -> &[i32] {
    &levels[levels.len().saturating_sub(usize::from(depth))..]
}

/// The sum of the last levels if there are as many as the depth.
fn full_sum(levels: &[i32], depth: u8) -> Option<i64> {
    let last = last_levels(levels, depth);
    (last.len() == usize::from(depth)).then(|| last.iter().copied().map(i64::from).sum())
}

/// The fault of one place of a list, in the order of request E2: range, serving, repeat of an earlier place.
/// The serving channel is the one that the list comes with, not the one before it.
fn fault_at(serving: u16, list: &[u16], place: usize) -> Option<Refusal> {
    let channel = list[place];
    if channel > HIGHEST_CHANNEL {
        Some(Refusal::ListRange(place))
    } else if channel == serving {
        Some(Refusal::ListServing(place))
    } else if list[..place].contains(&channel) {
        Some(Refusal::ListRepeat(place))
    } else {
        None
    }
}

/// Rule "places are looked at in rising order and the first faulty one is told".
fn first_fault(serving: u16, list: &[u16]) -> Option<Refusal> {
    (0..list.len()).find_map(|place| fault_at(serving, list, place))
}

impl Watch {
    /// The serving channel, if the watch is not idle.
    pub fn serving(&self) -> Option<u16> {
        self.serving
    }

    /// The neighbours.
    pub fn neighbours(&self) -> &BTreeSet<u16> {
        &self.neighbours
    }

    /// Rule "start": that channel alone, without levels, and this depth.
    pub fn start(&mut self, serving: u16, depth: u8) -> Result<(), Refusal> {
        judge(&[
            (Refusal::Parameter, !DEPTH_RANGE.contains(&depth)),
            (Refusal::Channel, serving > HIGHEST_CHANNEL),
        ])?;
        *self = Watch {
            serving: Some(serving),
            depth,
            neighbours: BTreeSet::new(),
            levels: BTreeMap::from([(serving, Vec::new())]),
        };
        Ok(())
    }

    /// Rule "new beam": this channel serves, with the channels of its list as neighbours. One watched before and after
    /// keeps its levels, in whichever role; any other has none; a dropped one loses them. The depth stays.
    pub fn new_beam(&mut self, serving: u16, list: &[u16]) -> Result<(), Refusal> {
        let mut faults = vec![
            (Refusal::Channel, serving > HIGHEST_CHANNEL),
            (Refusal::LongList, list.len() > MOST_NEIGHBOURS),
            (Refusal::NotWatched, self.serving.is_none()),
        ];
        faults.extend(first_fault(serving, list).map(|fault| (fault, true)));
        judge(&faults)?;
        self.serving = Some(serving);
        self.neighbours = list.iter().copied().collect();
        let mut under_watch = self.neighbours.clone();
        under_watch.insert(serving);
        self.levels.retain(|channel, _| under_watch.contains(channel));
        for channel in under_watch {
            self.levels.entry(channel).or_default();
        }
        Ok(())
    }

    /// Rule "file": a heard level goes to the end of the channel's levels; a missed burst changes nothing.
    pub fn file(&mut self, channel: u16, burst: Burst) -> Result<(), Refusal> {
        let level = heard_level(burst);
        judge(&[(Refusal::NotWatched, !self.levels.contains_key(&channel)), (Refusal::Reading, level.is_err())])?;
        if let Some(level) = level? {
            let levels = self.levels.entry(channel).or_default();
            levels.push(level);
            if levels.len() == LEVELS_HELD {
                levels.drain(..LEVELS_HELD / 2);
            }
        }
        Ok(())
    }

    /// Rule "ask": count and mean over the last levels, the mean rounded down, 0 for a count of 0.
    pub fn ask(&self, channel: u16) -> Result<(usize, i64), Refusal> {
        judge(&[(Refusal::NotWatched, !self.levels.contains_key(&channel))])?;
        let last = last_levels(&self.levels[&channel], self.depth);
        let sum: i64 = last.iter().copied().map(i64::from).sum();
        let mean = if last.is_empty() { 0 } else { sum.div_euclid(last.len() as i64) };
        Ok((last.len(), mean))
    }

    /// Rule "verdict": wait, stay, or move to the neighbour that counts with the greatest sum,
    /// the lowest channel number among equals.
    pub fn verdict(&self, hysteresis: i32) -> Result<Verdict, Refusal> {
        judge(&[
            (Refusal::Parameter, !HYSTERESIS_RANGE.contains(&hysteresis)),
            (Refusal::NotWatched, self.serving.is_none()),
        ])?;
        let serving_levels = self.serving.and_then(|serving| self.levels.get(&serving));
        let Some(serving_sum) = serving_levels.and_then(|levels| full_sum(levels, self.depth)) else {
            return Ok(Verdict::Wait);
        };
        let mut best: Option<(i64, u16)> = None;
        // By rising channel number, so among equal sums the lowest channel was there first.
        for channel in &self.neighbours {
            let Some(sum) = full_sum(&self.levels[channel], self.depth) else { continue };
            let counts = sum - serving_sum > i64::from(self.depth) * i64::from(hysteresis);
            if counts && best.is_none_or(|(greatest, _)| sum > greatest) {
                best = Some((sum, *channel));
            }
        }
        Ok(best.map_or(Verdict::Stay, |(_, channel)| Verdict::Move(channel)))
    }
}

#[cfg(test)]
mod tests {
    use super::*;
    use crate::reading::shown_level;

    const BAD: Burst = Burst::Heard { level: 0, quality: 0x7f80_0000 };

    fn heard(level: i32) -> Burst {
        Burst::Heard { level: shown_level(level).unwrap(), quality: 0 }
    }

    fn fill(watch: &mut Watch, channel: u16, times: usize, level: i32) {
        for _ in 0..times {
            watch.file(channel, heard(level)).unwrap();
        }
    }

    fn watching_at(depth: u8, serving: u16, list: &[u16]) -> Watch {
        let mut watch = Watch::default();
        watch.start(serving, depth).unwrap();
        watch.new_beam(serving, list).unwrap();
        watch
    }

    fn watching(serving: u16, list: &[u16]) -> Watch {
        watching_at(15, serving, list)
    }

    #[test]
    fn checked_example_of_the_mean() {
        let mut watch = watching(5, &[]);
        watch.file(5, heard(-1)).unwrap();
        watch.file(5, heard(-2)).unwrap();
        assert_eq!(watch.ask(5), Ok((2, -2)));
    }

    #[test]
    fn checked_examples_of_the_verdict() {
        let mut watch = watching(10, &[20]);
        fill(&mut watch, 20, 15, -9_700);
        fill(&mut watch, 10, 14, -10_000);
        assert_eq!(watch.verdict(299), Ok(Verdict::Wait));
        fill(&mut watch, 10, 1, -10_000);
        assert_eq!(watch.verdict(300), Ok(Verdict::Stay));
        assert_eq!(watch.verdict(299), Ok(Verdict::Move(20)));
    }

    #[test]
    fn more_than_15_times_the_hysteresis_is_strict_to_the_hundredth() {
        let mut watch = watching(10, &[20]);
        fill(&mut watch, 10, 15, -10_000);
        fill(&mut watch, 20, 15, -9_700);
        fill(&mut watch, 20, 1, -9_699);
        assert_eq!(watch.verdict(300), Ok(Verdict::Move(20)));
        assert_eq!(watch.verdict(301), Ok(Verdict::Stay));
        fill(&mut watch, 20, 15, -9_700);
        assert_eq!(watch.verdict(300), Ok(Verdict::Stay));
    }

    #[test]
    fn a_neighbour_with_14_levels_does_not_count() {
        let mut watch = watching(10, &[20]);
        fill(&mut watch, 10, 15, -10_000);
        fill(&mut watch, 20, 14, -1);
        assert_eq!(watch.verdict(0), Ok(Verdict::Stay));
        fill(&mut watch, 20, 1, -1);
        assert_eq!(watch.verdict(0), Ok(Verdict::Move(20)));
    }

    #[test]
    fn equal_sums_go_to_the_lowest_channel_whatever_its_place() {
        for list in [[7, 3, 900], [900, 7, 3], [3, 900, 7]] {
            let mut watch = watching(10, &list);
            for channel in [10, 7, 3, 900] {
                fill(&mut watch, channel, 15, if channel == 10 { -5_000 } else { -4_000 });
            }
            assert_eq!(watch.verdict(0), Ok(Verdict::Move(3)));
            fill(&mut watch, 900, 1, -3_999);
            assert_eq!(watch.verdict(0), Ok(Verdict::Move(900)));
        }
    }

    #[test]
    fn levels_follow_the_channel_through_a_reordered_list() {
        let mut watch = watching(1, &[2, 3, 4]);
        fill(&mut watch, 2, 1, -200);
        fill(&mut watch, 3, 2, -300);
        watch.new_beam(1, &[4, 3, 2]).unwrap();
        assert_eq!(watch.ask(2), Ok((1, -200)));
        assert_eq!(watch.ask(3), Ok((2, -300)));
        assert_eq!(watch.ask(4), Ok((0, 0)));
    }

    #[test]
    fn a_dropped_neighbour_comes_back_without_levels() {
        let mut watch = watching(1, &[2, 3]);
        fill(&mut watch, 2, 3, -200);
        watch.new_beam(1, &[3]).unwrap();
        assert_eq!(watch.ask(2), Err(Refusal::NotWatched));
        watch.new_beam(1, &[3, 2]).unwrap();
        assert_eq!(watch.ask(2), Ok((0, 0)));
    }

    #[test]
    fn a_neighbour_serves_and_the_old_serving_channel_in_the_list_keeps_its_levels() {
        let mut watch = watching(1, &[2, 3]);
        fill(&mut watch, 1, 4, -100);
        fill(&mut watch, 2, 2, -200);
        assert_eq!(watch.new_beam(2, &[3, 1]), Ok(()));
        assert_eq!(watch.serving(), Some(2));
        assert_eq!(watch.neighbours(), &BTreeSet::from([1, 3]));
        assert_eq!((watch.ask(1), watch.ask(2), watch.ask(3)), (Ok((4, -100)), Ok((2, -200)), Ok((0, 0))));
    }

    #[test]
    fn a_dropped_serving_channel_comes_back_without_levels() {
        for back in [(1, &[2][..]), (2, &[1]), (9, &[2, 1])] {
            let mut watch = watching(1, &[2]);
            fill(&mut watch, 1, 15, -100);
            fill(&mut watch, 2, 15, -200);
            watch.new_beam(2, &[3]).unwrap();
            assert_eq!(watch.ask(1), Err(Refusal::NotWatched));
            assert_eq!(watch.verdict(0), Ok(Verdict::Stay));
            watch.new_beam(back.0, back.1).unwrap();
            assert_eq!((watch.ask(1), watch.ask(2)), (Ok((0, 0)), Ok((15, -200))));
        }
    }

    #[test]
    fn a_stranger_serves_without_levels_and_the_verdict_waits() {
        let mut watch = watching(1, &[2]);
        fill(&mut watch, 1, 15, -100);
        fill(&mut watch, 2, 15, -90);
        watch.new_beam(7, &[1, 2]).unwrap();
        assert_eq!((watch.ask(7), watch.ask(1), watch.ask(2)), (Ok((0, 0)), Ok((15, -100)), Ok((15, -90))));
        fill(&mut watch, 7, 14, -200);
        assert_eq!(watch.verdict(0), Ok(Verdict::Wait));
        fill(&mut watch, 7, 1, -200);
        assert_eq!(watch.verdict(0), Ok(Verdict::Move(2)));
    }

    #[test]
    fn the_same_beam_again_changes_nothing() {
        let mut watch = watching(1, &[2, 3]);
        fill(&mut watch, 1, 20, -100);
        fill(&mut watch, 3, 2, -300);
        let before = watch.clone();
        for list in [[2, 3], [3, 2]] {
            assert_eq!(watch.new_beam(1, &list), Ok(()));
            assert_eq!(watch, before);
        }
    }

    /// Every serving channel with every list, in rising order, out of the channels 0 to 3.
    fn small_beams() -> Vec<(u16, Vec<u16>)> {
        let list = |bits: u16| (0..4).filter(|channel| bits >> channel & 1 == 1).collect::<Vec<u16>>();
        let beams = (0..4).flat_map(|serving| (0..16).map(move |bits| (serving, list(bits))));
        beams.filter(|(serving, list)| !list.contains(serving)).collect()
    }

    #[test]
    fn from_every_beam_to_every_beam_a_channel_watched_in_both_keeps_its_levels() {
        let is_in = |beam: &(u16, Vec<u16>), channel: u16| beam.0 == channel || beam.1.contains(&channel);
        for (before, after) in small_beams().iter().flat_map(|b| small_beams().into_iter().map(move |a| (b, a))) {
            let mut watch = watching_at(5, before.0, &before.1);
            for channel in (0..4).filter(|channel| is_in(before, *channel)) {
                fill(&mut watch, channel, 3 + 2 * usize::from(channel), -10 - i32::from(channel));
            }
            watch.new_beam(after.0, &after.1).unwrap();
            assert_eq!(watch.serving(), Some(after.0));
            assert_eq!(watch.neighbours(), &after.1.iter().copied().collect());
            for channel in 0..4 {
                let kept = Ok((5.min(3 + 2 * usize::from(channel)), -10 - i64::from(channel)));
                let expected = match (is_in(before, channel), is_in(&after, channel)) {
                    (true, true) => kept,
                    (false, true) => Ok((0, 0)),
                    (_, false) => Err(Refusal::NotWatched),
                };
                assert_eq!(watch.ask(channel), expected, "{before:?} {after:?}");
            }
        }
    }

    #[test]
    fn an_accepted_start_forgets_all_and_a_refused_one_nothing() {
        let mut watch = watching(1, &[2]);
        fill(&mut watch, 1, 15, -100);
        let before = watch.clone();
        assert_eq!(watch.start(1_088, 15), Err(Refusal::Channel));
        assert_eq!(watch, before);
        assert_eq!(watch.start(1, 15), Ok(()));
        assert_eq!(watch.ask(1), Ok((0, 0)));
        assert_eq!(watch.ask(2), Err(Refusal::NotWatched));
        assert_eq!(watch.start(1_087, 15), Ok(()));
        assert_eq!(watch.start(0, 15), Ok(()));
    }

    #[test]
    fn a_depth_out_of_range_is_told_before_a_channel() {
        let mut watch = Watch::default();
        for depth in [0, 4, 32, 255] {
            for channel in [0, 5, 1_087, 1_088, 65_535] {
                assert_eq!(watch.start(channel, depth), Err(Refusal::Parameter));
            }
        }
        for depth in [5, 15, 31] {
            assert_eq!(watch.start(1_088, depth), Err(Refusal::Channel));
            assert_eq!(watch.start(65_535, depth), Err(Refusal::Channel));
        }
        assert_eq!(watch, Watch::default());
        for depth in 5..=31 {
            assert_eq!(watch.start(1_087, depth), Ok(()));
        }
    }

    #[test]
    fn the_verdict_comes_with_as_many_levels_as_the_depth() {
        for depth in 5..=31 {
            let mut watch = watching_at(depth, 10, &[20]);
            for _ in 1..depth {
                fill(&mut watch, 10, 1, -10_000);
                assert_eq!(watch.verdict(0), Ok(Verdict::Wait));
            }
            fill(&mut watch, 10, 1, -10_000);
            assert_eq!(watch.verdict(0), Ok(Verdict::Stay));
            fill(&mut watch, 20, usize::from(depth) - 1, -9_000);
            assert_eq!(watch.verdict(0), Ok(Verdict::Stay));
            fill(&mut watch, 20, 1, -9_000);
            assert_eq!(watch.verdict(0), Ok(Verdict::Move(20)));
        }
    }

    #[test]
    fn at_depth_5_the_fifth_level_brings_the_verdict() {
        let mut watch = watching_at(5, 10, &[20]);
        fill(&mut watch, 20, 5, -9_000);
        fill(&mut watch, 10, 4, -10_000);
        assert_eq!(watch.verdict(0), Ok(Verdict::Wait));
        fill(&mut watch, 10, 1, -10_000);
        assert_eq!(watch.verdict(1_000), Ok(Verdict::Stay));
        assert_eq!(watch.verdict(999), Ok(Verdict::Move(20)));
    }

    #[test]
    fn at_depth_31_a_32nd_level_pushes_out_the_first() {
        let mut watch = watching_at(31, 10, &[]);
        fill(&mut watch, 10, 1, 0);
        fill(&mut watch, 10, 29, -3_100);
        assert_eq!(watch.ask(10), Ok((30, -2_997)));
        fill(&mut watch, 10, 1, -3_100);
        assert_eq!(watch.ask(10), Ok((31, -3_000)));
        fill(&mut watch, 10, 1, -3_100);
        assert_eq!(watch.ask(10), Ok((31, -3_100)));
    }

    #[test]
    fn the_hysteresis_is_multiplied_by_the_depth_of_the_watch() {
        for depth in [5, 6, 15, 30, 31] {
            for hysteresis in [0, 1, 300, 6_000] {
                let mut watch = watching_at(depth, 10, &[20]);
                fill(&mut watch, 10, usize::from(depth), -10_000);
                fill(&mut watch, 20, usize::from(depth), -10_000 + hysteresis);
                assert_eq!(watch.verdict(hysteresis), Ok(Verdict::Stay));
                // The sum is greater by one hundredth now.
                fill(&mut watch, 20, 1, -9_999 + hysteresis);
                assert_eq!(watch.verdict(hysteresis), Ok(Verdict::Move(20)));
            }
        }
    }

    #[test]
    fn a_refused_start_keeps_depth_and_levels() {
        let mut watch = watching_at(5, 10, &[20]);
        fill(&mut watch, 10, 5, -10_000);
        fill(&mut watch, 20, 4, -9_000);
        let before = watch.clone();
        for (channel, depth) in [(10, 4), (20, 32), (30, 0), (10, 255), (1_088, 31), (1_088, 4)] {
            assert!(watch.start(channel, depth).is_err());
            assert_eq!(watch, before);
        }
        fill(&mut watch, 10, 1, -9_990);
        assert_eq!(watch.ask(10), Ok((5, -9_998)));
        assert_eq!(watch.verdict(0), Ok(Verdict::Stay));
        fill(&mut watch, 20, 1, -9_000);
        assert_eq!(watch.verdict(0), Ok(Verdict::Move(20)));
    }

    #[test]
    fn a_second_start_takes_the_new_depth_and_forgets() {
        for (first, second) in [(5, 31), (31, 5), (15, 5), (15, 31), (6, 5), (30, 31)] {
            let mut watch = watching_at(first, 10, &[20]);
            fill(&mut watch, 10, 40, -10_000);
            fill(&mut watch, 20, 40, -9_000);
            assert_eq!(watch.ask(10), Ok((usize::from(first), -10_000)));
            watch.start(10, second).unwrap();
            assert_eq!(watch.ask(10), Ok((0, 0)));
            assert_eq!(watch.ask(20), Err(Refusal::NotWatched));
            fill(&mut watch, 10, usize::from(second) - 1, -8_000);
            assert_eq!(watch.verdict(0), Ok(Verdict::Wait));
            fill(&mut watch, 10, 2, -8_000);
            assert_eq!(watch.verdict(0), Ok(Verdict::Stay));
            assert_eq!(watch.ask(10), Ok((usize::from(second), -8_000)));
        }
    }

    #[test]
    fn a_new_beam_keeps_the_depth() {
        for depth in [5, 31] {
            let full = usize::from(depth);
            let mut watch = watching_at(depth, 10, &[20]);
            fill(&mut watch, 10, 40, -10_000);
            watch.new_beam(10, &[30, 20]).unwrap();
            fill(&mut watch, 30, 40, -9_000);
            watch.new_beam(30, &[10, 20]).unwrap();
            fill(&mut watch, 20, full - 1, -1);
            assert_eq!(watch.verdict(0), Ok(Verdict::Stay));
            fill(&mut watch, 20, 40, -1);
            assert_eq!(watch.verdict(0), Ok(Verdict::Move(20)));
            for channel in [10, 20, 30] {
                assert_eq!(watch.ask(channel).unwrap().0, full);
            }
            watch.new_beam(40, &[30]).unwrap();
            fill(&mut watch, 40, full - 1, -9_500);
            assert_eq!(watch.verdict(0), Ok(Verdict::Wait));
            fill(&mut watch, 40, 2, -9_500);
            assert_eq!(watch.ask(40), Ok((full, -9_500)));
            assert_eq!(watch.verdict(499), Ok(Verdict::Move(30)));
        }
    }

    /// A watch on 10 with two neighbours, of which one has levels.
    fn on_10() -> Watch {
        let mut watch = watching(10, &[1, 2]);
        fill(&mut watch, 1, 3, -100);
        watch
    }

    /// A watch on 99 with 10 in its list and an idle one; a beam is judged there as on 10.
    fn elsewhere() -> [Watch; 2] {
        [watching(99, &[1, 10]), Watch::default()]
    }

    /// The refusal of a new beam on this watch, which a refused one must leave as it was.
    fn refusal_of(watch: &Watch, serving: u16, list: &[u16]) -> Refusal {
        let mut after = watch.clone();
        let refusal = after.new_beam(serving, list).unwrap_err();
        assert_eq!(&after, watch, "{serving} {list:?}");
        refusal
    }

    /// The refusal of a new beam on 10, which is the same whatever the watch was before.
    fn refusal_on_10(list: &[u16]) -> Refusal {
        let refusal = refusal_of(&on_10(), 10, list);
        for watch in elsewhere() {
            assert_eq!(refusal_of(&watch, 10, list), refusal, "{list:?}");
        }
        refusal
    }

    #[test]
    fn each_fault_of_a_list_has_its_number_and_its_place() {
        for (list, number, place) in [
            (&[1, 2, 3, 4, 5, 6, 7][..], 11, None),
            (&[1, 1_088, 2], 12, Some(1)),
            (&[1, 2, 1], 13, Some(2)),
            (&[10, 1, 2], 14, Some(0)),
        ] {
            let refusal = refusal_on_10(list);
            assert_eq!((refusal.number(), refusal.place()), (number, place), "{list:?}");
        }
    }

    #[test]
    fn a_sound_list_has_up_to_6_channels_of_the_whole_range() {
        let mut watch = on_10();
        assert_eq!(watch.new_beam(10, &[1, 2, 3, 4, 5, 1_087]), Ok(()));
        assert_eq!(watch.new_beam(10, &[1_087, 0, 9, 11, 1, 2]), Ok(()));
        assert_eq!(watch.ask(1), Ok((3, -100)));
        assert_eq!(watch.new_beam(10, &[]), Ok(()));
        assert!(watch.neighbours().is_empty());
    }

    #[test]
    fn over_6_channels_are_told_before_any_place() {
        for list in [
            &[1, 2, 3, 4, 5, 6, 7][..],
            &[1, 2, 3, 4, 5, 6, 7, 8],
            &[1_088, 2, 3, 4, 5, 6, 7],
            &[1, 2, 3, 4, 5, 6, 65_535],
            &[10, 2, 3, 4, 5, 6, 7, 8],
            &[1, 2, 3, 4, 5, 6, 7, 10],
            &[1, 1, 3, 4, 5, 6, 7],
            &[1, 1, 1, 1, 1, 1, 1, 1],
            &[1_088; 7],
            &[10; 8],
        ] {
            assert_eq!(refusal_on_10(list), Refusal::LongList, "{list:?}");
        }
    }

    #[test]
    fn each_fault_is_told_at_every_place() {
        for size in 1..=6 {
            for place in 0..size {
                let mut list: Vec<u16> = (1..=6).take(size).collect();
                for above in [1_088, 1_089, 2_058, 65_535] {
                    list[place] = above;
                    assert_eq!(refusal_on_10(&list), Refusal::ListRange(place));
                }
                list[place] = 10;
                assert_eq!(refusal_on_10(&list), Refusal::ListServing(place));
            }
        }
    }

    #[test]
    fn a_repeat_is_told_at_its_later_place() {
        for later in 1..6 {
            for earlier in 0..later {
                let mut list = [1, 2, 3, 4, 5, 6];
                list[later] = list[earlier];
                assert_eq!(refusal_on_10(&list), Refusal::ListRepeat(later));
            }
        }
    }

    #[test]
    fn of_several_faulty_places_the_first_is_told() {
        for (list, told) in [
            (&[1_088, 1, 1][..], Refusal::ListRange(0)),
            (&[1, 1_088, 1], Refusal::ListRange(1)),
            (&[1, 1, 1_088], Refusal::ListRepeat(1)),
            (&[10, 1, 1], Refusal::ListServing(0)),
            (&[1, 10, 1], Refusal::ListServing(1)),
            (&[1, 1, 10], Refusal::ListRepeat(1)),
            (&[1, 10, 1_088], Refusal::ListServing(1)),
            (&[1, 1_088, 10], Refusal::ListRange(1)),
            (&[1, 10, 2, 10], Refusal::ListServing(1)),
            (&[1, 2, 1_088, 1_088], Refusal::ListRange(2)),
            (&[1, 2_000, 1_088], Refusal::ListRange(1)),
            (&[3, 1, 2, 1, 1], Refusal::ListRepeat(3)),
            (&[1, 2, 2, 1], Refusal::ListRepeat(2)),
            (&[10, 10, 10], Refusal::ListServing(0)),
            (&[1_088, 1_088, 1_088], Refusal::ListRange(0)),
            (&[1, 2, 3, 2, 10, 1_088], Refusal::ListRepeat(3)),
            (&[1, 2, 3, 1_088, 10, 2], Refusal::ListRange(3)),
            (&[1, 2, 3, 10, 2, 1_088], Refusal::ListServing(3)),
        ] {
            assert_eq!(refusal_on_10(list), told, "{list:?}");
        }
    }

    #[test]
    fn at_one_place_the_order_is_range_serving_repeat() {
        assert_eq!(fault_at(10, &[1_088, 1_088], 1), Some(Refusal::ListRange(1)));
        assert_eq!(fault_at(1_088, &[1_088, 1_088], 1), Some(Refusal::ListRange(1)));
        assert_eq!(fault_at(10, &[10, 10], 1), Some(Refusal::ListServing(1)));
        assert_eq!(fault_at(10, &[5, 5], 1), Some(Refusal::ListRepeat(1)));
        assert_eq!(fault_at(10, &[5, 6], 1), None);
    }

    /// Every list of up to four of these channels.
    fn short_lists(channels: &[u16]) -> Vec<Vec<u16>> {
        let (mut all, mut longest) = (vec![vec![]], vec![vec![]]);
        for _ in 0..4 {
            longest = longest
                .iter()
                .flat_map(|list: &Vec<u16>| channels.iter().map(|channel| [&list[..], &[*channel]].concat()))
                .collect();
            all.extend(longest.iter().cloned());
        }
        all
    }

    #[test]
    fn a_told_place_has_one_fault_and_all_before_it_have_none() {
        for list in short_lists(&[1, 2, 10, 1_087, 1_088, 65_535]) {
            let faults_at = |place: usize| {
                let channel = list[place];
                let repeats = list[..place].contains(&channel);
                [(12, channel > 1_087), (13, repeats), (14, channel == 10)].into_iter().filter(|(_, holds)| *holds)
            };
            let first = (0..list.len()).find(|place| faults_at(*place).count() > 0);
            let Some(first) = first else {
                assert_eq!(on_10().new_beam(10, &list), Ok(()), "{list:?}");
                assert_eq!(refusal_of(&Watch::default(), 10, &list), Refusal::NotWatched, "{list:?}");
                continue;
            };
            let told = refusal_on_10(&list);
            // What the order at one place decides cannot be seen in an answer: of two faults there, an earlier place
            // has the other already.
            let faults: Vec<(u8, bool)> = faults_at(first).collect();
            assert_eq!((faults, Some(first)), (vec![(told.number(), true)], told.place()), "{list:?}");
        }
    }

    #[test]
    fn a_serving_channel_above_1087_is_told_before_any_list_and_an_idle_watch() {
        for watch in [on_10(), Watch::default()] {
            for serving in [1_088, 1_089, 2_058, 65_535] {
                for list in short_lists(&[1, 10, 1_088, serving]) {
                    assert_eq!(refusal_of(&watch, serving, &list), Refusal::Channel, "{serving} {list:?}");
                }
                assert_eq!(refusal_of(&watch, serving, &[1; 7]), Refusal::Channel);
                assert_eq!(refusal_of(&watch, serving, &[1, 2, 3, 4, 5, 6, 7, 8]), Refusal::Channel);
            }
        }
    }

    #[test]
    fn an_idle_watch_tells_the_group_before_6() {
        let watch = Watch::default();
        for list in [&[][..], &[0], &[10], &[0, 10, 1_087], &[1, 2, 3, 4, 5, 6]] {
            assert_eq!(refusal_of(&watch, 99, list), Refusal::NotWatched);
        }
        assert_eq!(refusal_of(&watch, 1_087, &[0]), Refusal::NotWatched);
        assert_eq!(refusal_of(&watch, 0, &[1_087]), Refusal::NotWatched);
        assert_eq!(refusal_of(&watch, 0, &[0]), Refusal::ListServing(0));
        assert_eq!(refusal_of(&watch, 10, &[1, 2, 10]), Refusal::ListServing(2));
        assert_eq!(refusal_of(&watch, 10, &[0, 0]), Refusal::ListRepeat(1));
        assert_eq!(refusal_of(&watch, 10, &[1_088]), Refusal::ListRange(0));
        assert_eq!(refusal_of(&watch, 10, &[1; 7]), Refusal::LongList);
    }

    #[test]
    fn a_list_is_judged_against_the_serving_channel_that_it_comes_with() {
        let watch = on_10();
        assert_eq!(refusal_of(&watch, 2, &[10, 1, 2]), Refusal::ListServing(2));
        assert_eq!(refusal_of(&watch, 7, &[7, 10]), Refusal::ListServing(0));
        assert_eq!(refusal_of(&watch, 7, &[10, 10]), Refusal::ListRepeat(1));
        for (serving, list) in [(2, &[10, 1][..]), (1, &[2, 10]), (7, &[10]), (7, &[2, 10, 1]), (10, &[7])] {
            assert_eq!(watch.clone().new_beam(serving, list), Ok(()), "{serving} {list:?}");
        }
    }

    #[test]
    fn an_idle_watch_refuses_as_the_papers_say() {
        let mut watch = Watch::default();
        assert_eq!(watch.verdict(-1), Err(Refusal::Parameter));
        assert_eq!(watch.verdict(6_001), Err(Refusal::Parameter));
        assert_eq!(watch.verdict(0), Err(Refusal::NotWatched));
        assert_eq!(watch.ask(0), Err(Refusal::NotWatched));
        assert_eq!(watch.new_beam(0, &[]), Err(Refusal::NotWatched));
        assert_eq!(watch.file(0, heard(-1)), Err(Refusal::NotWatched));
        assert_eq!(watch.start(2_000, 15), Err(Refusal::Channel));
        assert_eq!(watch.start(0, 4), Err(Refusal::Parameter));
        assert_eq!(watch, Watch::default());
    }

    #[test]
    fn channel_0_is_watched_only_if_named() {
        let mut watch = watching(5, &[]);
        assert_eq!(watch.ask(0), Err(Refusal::NotWatched));
        watch.new_beam(5, &[0]).unwrap();
        assert_eq!(watch.file(0, heard(-7)), Ok(()));
        watch.new_beam(0, &[]).unwrap();
        assert_eq!(watch.ask(0), Ok((1, -7)));
    }

    #[test]
    fn a_bad_float_is_told_last_and_a_missed_burst_changes_nothing() {
        let mut watch = watching(5, &[6]);
        let before = watch.clone();
        assert_eq!(watch.file(7, BAD), Err(Refusal::NotWatched));
        assert_eq!(watch.file(65_535, BAD), Err(Refusal::NotWatched));
        assert_eq!(watch.file(6, BAD), Err(Refusal::Reading));
        assert_eq!(watch.file(6, Burst::Missed), Ok(()));
        assert_eq!(watch.file(7, Burst::Missed), Err(Refusal::NotWatched));
        assert_eq!(watch, before);
    }

    #[test]
    fn beyond_15_levels_the_oldest_goes() {
        let mut watch = watching(5, &[]);
        for n in 0..20 {
            watch.file(5, heard(-n)).unwrap();
        }
        assert_eq!(watch.ask(5), Ok((15, -12)));
        assert_eq!(watch.levels[&5].len(), 20);
    }

    #[test]
    fn the_bound_on_levels_held_is_not_seen_in_answers() {
        let mut watch = watching(5, &[]);
        watch.levels.insert(5, vec![-1; LEVELS_HELD - 1]);
        fill(&mut watch, 5, 1, -16);
        assert_eq!(watch.levels[&5].len(), LEVELS_HELD / 2);
        assert_eq!(watch.ask(5), Ok((15, -2)));
    }

    #[test]
    fn hysteresis_is_taken_to_its_ends() {
        let mut watch = watching(5, &[6]);
        fill(&mut watch, 5, 15, -15_000);
        fill(&mut watch, 6, 15, -8_999);
        assert_eq!(watch.verdict(6_000), Ok(Verdict::Move(6)));
        fill(&mut watch, 6, 15, -9_000);
        assert_eq!(watch.verdict(6_000), Ok(Verdict::Stay));
        assert_eq!(watch.verdict(6_001), Err(Refusal::Parameter));
        assert_eq!(watch.verdict(-1), Err(Refusal::Parameter));
    }
}
