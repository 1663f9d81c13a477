//! The watch through the archive: document 01's checked examples and wrong turns, the refusals, and damaged records.

mod common;

use royukezan::watch::{Levels, Track, CAPACITY, DEPTH_HIGHEST, DEPTH_LOWEST, ROOM};
use royukezan::{Burst, Refusal, Verdict, Watch};

/// Document 01's examples are at this depth.
const DEPTH: usize = 15;

fn watching(serving: u16, list: &[u16], depth: usize) -> Watch {
    let mut watch = Watch::fresh();
    assert_eq!(watch.start(serving, depth), Ok(()));
    assert_eq!(watch.new_beam(serving, list), Ok(()));
    watch
}

/// Files a level, in dBm, so many times.
fn file(watch: &mut Watch, channel: u16, level: f32, times: usize) {
    for _ in 0..times {
        assert_eq!(watch.file_heard(channel, level, 10.0), Ok(()));
    }
}

fn track(channel: u16, filed: &[i16]) -> Track {
    let mut levels = [0; CAPACITY];
    levels[..filed.len()].copy_from_slice(filed);
    Track { channel, count: filed.len(), levels }
}

/// A record made by hand.
fn made(tracks: &[Track], depth: usize) -> Watch {
    let mut watch = Watch { watched: tracks.len(), tracks: [track(0, &[]); ROOM], depth };
    watch.tracks[..tracks.len()].copy_from_slice(tracks);
    watch
}

#[test]
fn two_levels_and_their_mean() {
    let mut watch = watching(5, &[], DEPTH);
    assert_eq!(watch.ask(5), Ok(Levels { count: 0, mean: 0 }));
    file(&mut watch, 5, -0.01, 1);
    file(&mut watch, 5, -0.02, 1);
    assert_eq!(watch.ask(5), Ok(Levels { count: 2, mean: -2 }));
}

#[test]
fn wait_stay_and_move_at_each_depth() {
    for depth in DEPTH_LOWEST..=DEPTH_HIGHEST {
        let mut watch = watching(10, &[20], depth);
        file(&mut watch, 10, -100.0, depth - 1);
        file(&mut watch, 20, -97.0, depth);
        assert_eq!(watch.verdict(299), Ok(Verdict::Wait));
        file(&mut watch, 10, -100.0, 1);
        assert_eq!(watch.verdict(300), Ok(Verdict::Stay));
        assert_eq!(watch.verdict(299), Ok(Verdict::MoveTo(20)));
        assert_eq!(watch, made(&[track(10, &vec![-10_000; depth]), track(20, &vec![-9_700; depth])], depth));
    }
}

#[test]
fn a_neighbour_with_fewer_levels_does_not_count() {
    for depth in [5, 6, 15, 30, 31] {
        let mut watch = watching(10, &[20], depth);
        file(&mut watch, 10, -100.0, depth);
        file(&mut watch, 20, -90.0, depth - 1);
        assert_eq!(watch.verdict(0), Ok(Verdict::Stay));
        file(&mut watch, 20, -90.0, 1);
        assert_eq!(watch.verdict(0), Ok(Verdict::MoveTo(20)));
    }
}

#[test]
fn levels_stay_with_their_channel() {
    let mut watch = watching(10, &[20, 30, 40], DEPTH);
    file(&mut watch, 20, -90.0, 2);
    file(&mut watch, 40, -80.0, 3);
    assert_eq!(watch.new_beam(10, &[40, 50, 20]), Ok(()));
    assert_eq!(watch.ask(20), Ok(Levels { count: 2, mean: -9_000 }));
    assert_eq!(watch.ask(40), Ok(Levels { count: 3, mean: -8_000 }));
    assert_eq!(watch.ask(50), Ok(Levels { count: 0, mean: 0 }));
    assert_eq!(watch.ask(30), Err(Refusal::NotWatched));
    // A dropped one has lost its levels when it comes again.
    assert_eq!(watch.new_beam(10, &[20]), Ok(()));
    assert_eq!(watch.new_beam(10, &[20, 40]), Ok(()));
    assert_eq!(watch.ask(40), Ok(Levels { count: 0, mean: 0 }));
    assert_eq!(watch.new_beam(20, &[10, 40]), Ok(()));
    let told = made(&[track(20, &[-9_000, -9_000]), track(10, &[]), track(40, &[])], DEPTH);
    assert_eq!(watch, told);
}

/// The watch after a new beam that is accepted.
fn after_beam(watch: &Watch, serving: u16, list: &[u16]) -> Watch {
    let mut after = watch.clone();
    assert_eq!(after.new_beam(serving, list), Ok(()), "{serving} {list:?}");
    after
}

#[test]
fn levels_stay_with_their_channel_in_whichever_role() {
    let mut watch = watching(10, &[20, 30], DEPTH);
    file(&mut watch, 10, -100.0, 3);
    file(&mut watch, 20, -90.0, 2);
    let (ten, twenty) = (track(10, &[-10_000; 3]), track(20, &[-9_000; 2]));
    let (thirty, stranger) = (track(30, &[]), track(40, &[]));
    for (serving, list, told) in [
        (10, &[30, 20][..], &[ten, thirty, twenty][..]),
        (20, &[10, 30], &[twenty, ten, thirty]),
        (20, &[30, 40, 10], &[twenty, thirty, stranger, ten]),
        (20, &[30], &[twenty, thirty]),
        (40, &[10, 20], &[stranger, ten, twenty]),
        (40, &[20], &[stranger, twenty]),
        (40, &[], &[stranger]),
        (10, &[], &[ten]),
    ] {
        assert_eq!(after_beam(&watch, serving, list), made(told, DEPTH), "{serving} {list:?}");
    }
}

#[test]
fn a_serving_channel_that_was_dropped_comes_back_without_levels() {
    let mut watch = watching(10, &[20], DEPTH);
    file(&mut watch, 10, -100.0, 15);
    file(&mut watch, 20, -90.0, 15);
    let neighbour_serves = after_beam(&watch, 20, &[]);
    assert_eq!(neighbour_serves.ask(10), Err(Refusal::NotWatched));
    let full = track(20, &[-9_000; 15]);
    assert_eq!(after_beam(&neighbour_serves, 20, &[10]), made(&[full, track(10, &[])], DEPTH));
    assert_eq!(after_beam(&neighbour_serves, 10, &[20]), made(&[track(10, &[]), full], DEPTH));
    let stranger_serves = after_beam(&watch, 40, &[]);
    assert_eq!(after_beam(&stranger_serves, 10, &[20]), made(&[track(10, &[]), track(20, &[])], DEPTH));
}

#[test]
fn equal_sums_go_to_the_lowest_channel() {
    for list in [[20, 30, 40], [40, 30, 20], [30, 40, 20]] {
        let mut watch = watching(10, &list, DEPTH);
        for (channel, level) in [(10, -100.0), (20, -90.01), (30, -90.0), (40, -90.0)] {
            file(&mut watch, channel, level, 15);
        }
        assert_eq!(watch.verdict(0), Ok(Verdict::MoveTo(30)));
    }
}

#[test]
fn the_oldest_level_goes_beyond_the_depth() {
    for depth in DEPTH_LOWEST..=DEPTH_HIGHEST {
        let mut watch = watching(0, &[1_087], depth);
        let count = depth as u32;
        file(&mut watch, 1_087, -1.0, 1);
        file(&mut watch, 1_087, -2.0, depth - 1);
        assert_eq!(watch.ask(1_087), Ok(Levels { count, mean: -200 + 100 / depth as i32 }));
        file(&mut watch, 1_087, -2.0, 1);
        assert_eq!(watch.ask(1_087), Ok(Levels { count, mean: -200 }));
        assert_eq!(watch, made(&[track(0, &[]), track(1_087, &vec![-200; depth])], depth));
        let before = watch.clone();
        assert_eq!(watch.file_missed(1_087), Ok(()));
        assert_eq!(watch.file(0, Burst::Missed), Ok(()));
        assert_eq!(watch, before);
    }
}

#[test]
fn levels_at_the_ends_of_the_range() {
    for depth in DEPTH_LOWEST..=DEPTH_HIGHEST {
        let mut watch = watching(10, &[20], depth);
        let count = depth as u32;
        file(&mut watch, 10, -150.0, depth);
        file(&mut watch, 20, 0.0, depth);
        assert_eq!(watch.ask(10), Ok(Levels { count, mean: -15_000 }));
        assert_eq!(watch.ask(20), Ok(Levels { count, mean: 0 }));
        assert_eq!(watch.verdict(6_000), Ok(Verdict::MoveTo(20)));
        assert_eq!(watch, made(&[track(10, &vec![-15_000; depth]), track(20, &vec![0; depth])], depth));
    }
}

#[test]
fn a_new_beam_keeps_the_depth_and_a_start_gives_another() {
    let mut watch = watching(10, &[20, 30], 5);
    file(&mut watch, 20, -90.0, 6);
    assert_eq!(watch.new_beam(10, &[30, 20, 40]), Ok(()));
    assert_eq!(watch.new_beam(20, &[30, 10, 40]), Ok(()));
    file(&mut watch, 20, -80.0, 1);
    let levels = [-9_000, -9_000, -9_000, -9_000, -8_000];
    assert_eq!(watch, made(&[track(20, &levels), track(30, &[]), track(10, &[]), track(40, &[])], 5));
    assert_eq!(watch.start(20, 31), Ok(()));
    assert_eq!(watch, made(&[track(20, &[])], 31));
    assert_eq!(watch.start(1_087, 15), Ok(()));
    assert_eq!(watch, made(&[track(1_087, &[])], 15));
}

#[test]
fn a_record_that_was_kept_is_given_again() {
    let mut kept = made(&[track(10, &[-10_000; 15]), track(20, &[-9_700; 15])], DEPTH);
    assert_eq!(kept.check(), Ok(()));
    assert_eq!(kept.verdict(299), Ok(Verdict::MoveTo(20)));
    assert_eq!(kept.file(20, Burst::heard(-97.15, 8.0)), Ok(()));
    assert_eq!(kept.ask(20), Ok(Levels { count: 15, mean: -9_701 }));
    assert_eq!(kept.start(20, DEPTH), Ok(()));
    assert_eq!(kept, made(&[track(20, &[])], DEPTH));
    assert_eq!(Watch::fresh(), made(&[], 0));
}

/// Each call on this record is refused so, and leaves it as it was.
fn refused(watch: &Watch, calls: &[(common::Call<Watch>, Refusal)]) {
    for (at, (call, told)) in calls.iter().enumerate() {
        let mut given = watch.clone();
        assert_eq!(call(&mut given), Err(*told), "call {at}");
        assert_eq!(&given, watch, "call {at}");
    }
}

#[test]
fn refusals_of_an_idle_watch() {
    use Refusal::{ChannelOutOfRange, NotWatched, ParameterOutOfRange};
    refused(
        &Watch::fresh(),
        &[
            (|w| w.start(1_088, 15), ChannelOutOfRange),
            (|w| w.start(310, 0), ParameterOutOfRange),
            (|w| w.start(310, 4), ParameterOutOfRange),
            (|w| w.start(310, 32), ParameterOutOfRange),
            (|w| w.start(310, usize::MAX), ParameterOutOfRange),
            (|w| w.start(1_088, 4), ParameterOutOfRange),
            // Nobody serves, so that channel 0 is no fault in the list of another.
            (|w| w.new_beam(0, &[]), NotWatched),
            (|w| w.new_beam(1_087, &[]), NotWatched),
            (|w| w.new_beam(10, &[0]), NotWatched),
            (|w| w.new_beam(10, &[0, 1, 2, 3, 4, 5]), NotWatched),
            (|w| w.file_heard(0, f32::NAN, 0.0), NotWatched),
            (|w| w.file_missed(0), NotWatched),
            (|w| w.ask(0).map(drop), NotWatched),
            (|w| w.verdict(-1).map(drop), ParameterOutOfRange),
            (|w| w.verdict(6_000).map(drop), NotWatched),
        ],
    );
}

#[test]
fn refusals_come_in_their_order() {
    use Refusal::{ChannelOutOfRange, NotWatched, ParameterOutOfRange, ReadingOutOfRange};
    let mut watch = watching(10, &[20, 30], DEPTH);
    file(&mut watch, 20, -90.0, 3);
    refused(
        &watch,
        &[
            (|w| w.start(u16::MAX, 5), ChannelOutOfRange),
            (|w| w.start(1_088, 31), ChannelOutOfRange),
            (|w| w.start(1_088, 4), ParameterOutOfRange),
            (|w| w.start(1_088, 32), ParameterOutOfRange),
            (|w| w.start(1_088, usize::MAX), ParameterOutOfRange),
            (|w| w.start(10, 0), ParameterOutOfRange),
            (|w| w.start(10, 4), ParameterOutOfRange),
            (|w| w.start(10, 32), ParameterOutOfRange),
            // Of 32 bits it would be 15.
            (|w| w.start(10, (1 << 32) + 15), ParameterOutOfRange),
            (|w| w.start(10, usize::MAX), ParameterOutOfRange),
            (|w| w.new_beam(1_088, &[]), ChannelOutOfRange),
            (|w| w.new_beam(u16::MAX, &[20, 30]), ChannelOutOfRange),
            (|w| w.file_heard(40, f32::NAN, f32::NAN), NotWatched),
            (|w| w.file_heard(20, -150.5, 10.0), ReadingOutOfRange),
            (|w| w.file_heard(10, -90.0, f32::NAN), ReadingOutOfRange),
            (|w| w.file_missed(65_535), NotWatched),
            (|w| w.ask(40).map(drop), NotWatched),
            (|w| w.verdict(6_001).map(drop), ParameterOutOfRange),
            (|w| w.verdict(i32::MIN).map(drop), ParameterOutOfRange),
        ],
    );
}

/// The refusal of this new beam, which leaves the watch as it was.
fn refusal_of(watch: &Watch, serving: u16, list: &[u16]) -> Refusal {
    let mut given = watch.clone();
    let refusal = given.new_beam(serving, list).unwrap_err();
    assert_eq!(&given, watch, "{serving} {list:?}");
    refusal
}

/// A watch in which 10 serves and two neighbours have levels.
fn serving_10() -> Watch {
    let mut watch = watching(10, &[20, 30], DEPTH);
    file(&mut watch, 20, -90.0, 3);
    file(&mut watch, 30, -80.0, 15);
    watch
}

/// An idle watch, and such in which 10 serves, is a neighbour, and is a stranger: a beam is judged on each alike.
fn watches() -> [Watch; 4] {
    [Watch::fresh(), serving_10(), watching(20, &[30, 10], DEPTH), watching(40, &[50], DEPTH)]
}

#[test]
fn a_serving_channel_above_the_range_is_told_before_any_fault_of_its_list() {
    for watch in watches() {
        for serving in [1_088, u16::MAX] {
            for list in [&[][..], &[20], &[1, 2, 3, 4, 5, 6, 7], &[1_088], &[20, 20], &[1, serving]] {
                let refusal = refusal_of(&watch, serving, list);
                assert_eq!(refusal, Refusal::ChannelOutOfRange, "{serving} {list:?}");
                assert_eq!((refusal.number(), refusal.place()), (2, None));
            }
        }
    }
}

#[test]
fn over_6_channels_are_told_without_a_place_and_before_any_fault() {
    for watch in watches() {
        for list in [&[1, 2, 3, 4, 5, 6, 7][..], &[10; 7], &[1_088; 8], &[1; 300], &[20, 30, 20, 4, 5, 6, 1_088]] {
            let refusal = refusal_of(&watch, 10, list);
            assert_eq!(refusal, Refusal::ListTooLong, "{list:?}");
            assert_eq!((refusal.number(), refusal.place()), (11, None));
        }
    }
}

#[test]
fn each_fault_of_a_list_is_told_at_every_place() {
    for watch in watches() {
        for (at, place) in (0..6).zip(0..) {
            let mut list = [1, 2, 3, 4, 5, 6];
            for above in [1_088, u16::MAX] {
                list[at] = above;
                assert_eq!(refusal_of(&watch, 10, &list), Refusal::ListedOutOfRange { place });
            }
            list[at] = 10;
            assert_eq!(refusal_of(&watch, 10, &list), Refusal::ListedServing { place });
            for earlier in 0..at {
                list[at] = list[earlier];
                assert_eq!(refusal_of(&watch, 10, &list), Refusal::ListedAgain { place });
            }
        }
    }
}

#[test]
fn the_first_faulty_channel_of_a_list_is_told() {
    for (list, number, place) in [
        (&[1, 1_088, 10][..], 12, 1),
        (&[1, 10, 1_088], 14, 1),
        (&[1, 1_088, 1], 12, 1),
        (&[1, 1, 1_088], 13, 1),
        (&[20, 30, 10, 20], 14, 2),
        (&[20, 30, 20, 10], 13, 2),
        (&[10, 10], 14, 0),
        (&[1_088, 1_088], 12, 0),
        (&[1, 2, 2, 1], 13, 2),
        (&[1, 2, 3, 4, 5, 10], 14, 5),
    ] {
        for watch in watches() {
            let refusal = refusal_of(&watch, 10, list);
            assert_eq!((refusal.number(), refusal.place()), (number, Some(place)), "{list:?}");
        }
    }
}

#[test]
fn a_list_is_judged_against_the_serving_channel_that_it_comes_with() {
    let (idle, watch) = (Watch::fresh(), serving_10());
    for serving in [10, 20, 40] {
        for list in [&[30, 50, serving][..], &[1, 2, serving, 1_088], &[1, 2, serving, 1]] {
            assert_eq!(refusal_of(&watch, serving, list), Refusal::ListedServing { place: 2 });
            assert_eq!(refusal_of(&idle, serving, list), Refusal::ListedServing { place: 2 });
        }
    }
    for serving in [20, 40] {
        assert_eq!(after_beam(&watch, serving, &[30, 10]).tracks[0].channel, serving);
        assert_eq!(refusal_of(&watch, serving, &[10, 30, 10]), Refusal::ListedAgain { place: 2 });
    }
}

const DAMAGES: [fn(&mut Watch); 32] = [
    |w| w.watched = 8,
    |w| w.watched = usize::MAX,
    // A track beyond those in use is not all zero.
    |w| w.watched = 0,
    |w| w.watched = 2,
    |w| w.tracks[3].channel = 7,
    |w| w.tracks[6].levels[14] = -1,
    |w| w.tracks[6].levels[30] = -1,
    |w| w.tracks[6].levels[31] = -1,
    |w| w.tracks[4].count = 1,
    // A repeat, and a channel that is none.
    |w| w.tracks[1].channel = 10,
    |w| w.tracks[2].channel = 1_088,
    // A depth outside 5 to 31, or an idle watch that has one.
    |w| w.depth = 0,
    |w| w.depth = 4,
    |w| w.depth = 32,
    |w| w.depth = usize::MAX,
    |w| *w = Watch { depth: 15, ..Watch::fresh() },
    |w| *w = Watch { depth: 1, ..Watch::fresh() },
    |w| *w = Watch { watched: 1, depth: 0, ..Watch::fresh() },
    |w| *w = Watch { watched: 1, depth: 4, ..Watch::fresh() },
    // More levels than the depth, or than there is room for, one beyond the count, one that is none.
    |w| w.tracks[0].count = 16,
    |w| (w.depth, w.tracks[1].count) = (5, 6),
    |w| (w.depth, w.tracks[0].count) = (31, 32),
    |w| (w.depth, w.tracks[0].count) = (32, 32),
    |w| w.tracks[1].count = 2,
    |w| w.tracks[1].levels[3] = -1,
    |w| w.tracks[1].levels[30] = -1,
    |w| w.tracks[1].levels[31] = -1,
    |w| (w.depth, w.tracks[0].count, w.tracks[0].levels[31]) = (31, 31, -1),
    |w| w.tracks[1].levels[0] = -15_001,
    |w| w.tracks[1].levels[0] = i16::MIN,
    |w| w.tracks[1].levels[2] = 1,
    |w| w.tracks[1].levels[2] = i16::MAX,
];

#[test]
fn damaged_records_are_refused_first() {
    let mut watch = watching(10, &[20, 30], DEPTH);
    file(&mut watch, 20, -90.0, 3);
    common::all_refused(
        &watch,
        &DAMAGES,
        &[
            |w| w.check(),
            |w| w.start(1_088, 15),
            |w| w.start(1_088, 32),
            |w| w.start(10, 15),
            |w| w.new_beam(1_088, &[1_088]),
            |w| w.new_beam(10, &[1, 2, 3, 4, 5, 6, 7]),
            |w| w.new_beam(10, &[1_088]),
            |w| w.new_beam(40, &[]),
            |w| w.new_beam(20, &[10, 30]),
            |w| w.file_heard(40, f32::NAN, f32::NAN),
            |w| w.file_heard(10, -90.0, 10.0),
            |w| w.file_missed(40),
            |w| w.ask(40).map(drop),
            |w| w.ask(10).map(drop),
            |w| w.verdict(-1).map(drop),
            |w| w.verdict(300).map(drop),
        ],
    );
}
