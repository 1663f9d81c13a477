//! The band sweep through the archive.

mod common;

use royukezan::sweep::{Counts, CHANNELS, WORDS};
use royukezan::{choose, Burst, Next, Refusal, Sweep};

/// Channels 2 and 5 heard, 3 missed.
fn begun() -> Sweep {
    let mut sweep = Sweep::fresh();
    assert_eq!(sweep.file_heard(2, -100.125, 8.5), Ok(()));
    assert_eq!(sweep.file_missed(3), Ok(()));
    assert_eq!(sweep.file(5, Burst::heard(-150.0, -30.0)), Ok(()));
    sweep
}

#[test]
fn a_fresh_sweep_is_all_zero() {
    let zeros = Sweep { levels: [0; CHANNELS], visited: [0; WORDS], heard: [0; WORDS] };
    assert_eq!(Sweep::fresh(), zeros);
    assert_eq!(zeros.check(), Ok(()));
    assert_eq!(zeros.next(), Ok(Next::Channel(2)));
    assert_eq!(zeros.counts(), Ok(Counts { visited: 0, heard: 0 }));
}

#[test]
fn what_is_filed_stands_in_the_record() {
    let mut told = Sweep::fresh();
    told.levels[2] = -10_013;
    told.levels[5] = -15_000;
    told.visited[0] = 1 << 2 | 1 << 3 | 1 << 5;
    told.heard[0] = 1 << 2 | 1 << 5;
    // A record made by hand from what was kept is the same record.
    assert_eq!(begun(), told);
    assert_eq!(told.next(), Ok(Next::Channel(4)));
    assert_eq!(told.counts(), Ok(Counts { visited: 3, heard: 2 }));
}

#[test]
fn a_whole_sweep() {
    let mut sweep = begun();
    let mut visited = 3;
    while let Ok(Next::Channel(channel)) = sweep.next() {
        let burst = if channel % 2 == 0 { Burst::heard(-90.0, 10.0) } else { Burst::Missed };
        assert_eq!(sweep.file(channel, burst), Ok(()));
        visited += 1;
    }
    assert_eq!(visited, 1_085);
    assert_eq!(sweep.next(), Ok(Next::Done));
    // The even channels of 2 to 1,086, and channel 5.
    assert_eq!(sweep.counts(), Ok(Counts { visited: 1_085, heard: 544 }));
}

#[test]
fn refusals_come_in_their_order() {
    use Refusal::{ChannelOutOfRange, ChannelVisited, ReadingOutOfRange};
    let sweep = begun();
    for (channel, level, quality, told) in [
        (0, f32::NAN, 0.0, ChannelOutOfRange),
        (1, -90.0, 10.0, ChannelOutOfRange),
        (1_087, -90.0, 10.0, ChannelOutOfRange),
        (u16::MAX, -90.0, 10.0, ChannelOutOfRange),
        (2, f32::NAN, 0.0, ChannelVisited),
        (3, -90.0, 10.0, ChannelVisited),
        (1_086, f32::NAN, 10.0, ReadingOutOfRange),
        (4, -90.0, f32::INFINITY, ReadingOutOfRange),
        (4, 0.25, 10.0, ReadingOutOfRange),
    ] {
        let mut given = sweep.clone();
        assert_eq!(given.file_heard(channel, level, quality), Err(told), "channel {channel}");
        assert_eq!(given, sweep, "channel {channel}");
    }
    for (channel, told) in [(1, ChannelOutOfRange), (1_087, ChannelOutOfRange), (5, ChannelVisited)] {
        let mut given = sweep.clone();
        assert_eq!(given.file_missed(channel), Err(told), "channel {channel}");
        assert_eq!(given, sweep, "channel {channel}");
    }
}

const DAMAGES: [fn(&mut Sweep); 10] = [
    // Heard, and not visited.
    |s| s.heard[0] |= 1 << 4,
    |s| s.heard[16] = 1,
    |s| s.visited[0] = 0,
    // A channel that no sweep visits.
    |s| s.visited[0] |= 1,
    |s| s.visited[0] |= 1 << 1,
    |s| s.visited[16] |= 1 << 63,
    // A level where nothing was heard.
    |s| s.levels[3] = -1,
    |s| s.levels[1_087] = -9_000,
    // A level that is none.
    |s| s.levels[2] = -15_001,
    |s| s.levels[5] = 1,
];

#[test]
fn damaged_records_are_refused_first() {
    common::all_refused(
        &begun(),
        &DAMAGES,
        &[
            |s| s.check(),
            |s| s.next().map(drop),
            |s| s.counts().map(drop),
            |s| s.file_heard(0, f32::NAN, f32::NAN),
            |s| s.file_heard(7, -90.0, 10.0),
            |s| s.file_missed(0),
            |s| s.file_missed(7),
            |s| choose(s, -1, &[]).map(drop),
            |s| choose(s, 300, &[0; CHANNELS]).map(drop),
        ],
    );
}
