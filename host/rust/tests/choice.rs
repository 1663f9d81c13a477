//! The choice through the archive: document 01's checked examples, and the refusals.

use royukezan::choice::{ACCESS_CLASS_NOT_ALLOWED, BARRED, NOT_READ, OTHER_NETWORK, SUITABLE, UNREADABLE};
use royukezan::sweep::CHANNELS;
use royukezan::{choose, Choice, Next, Refusal, Sweep};

/// A finished sweep in which these channels were heard, at so many dBm.
fn swept(heard: &[(u16, f32)]) -> Sweep {
    let mut sweep = Sweep::fresh();
    for &(channel, level) in heard {
        assert_eq!(sweep.file_heard(channel, level, 10.0), Ok(()));
    }
    while let Ok(Next::Channel(channel)) = sweep.next() {
        assert_eq!(sweep.file_missed(channel), Ok(()));
    }
    sweep
}

fn example() -> Sweep {
    swept(&[(100, -90.0), (200, -90.0), (300, -93.0)])
}

/// All not read, but for these.
fn outcomes(read: &[(usize, u8)]) -> [u8; CHANNELS] {
    let mut outcomes = [NOT_READ; CHANNELS];
    for &(channel, outcome) in read {
        outcomes[channel] = outcome;
    }
    outcomes
}

#[test]
fn checked_examples() {
    let (sweep, nothing_read) = (example(), outcomes(&[]));
    let told = Choice::Read { channel: 100, tried: 1 };
    assert_eq!(choose(&sweep, 300, &nothing_read), Ok(told));
    let read = outcomes(&[(100, BARRED), (200, OTHER_NETWORK), (300, SUITABLE)]);
    assert_eq!(choose(&sweep, 300, &read), Ok(Choice::Camp { channel: 300, tried: 3 }));
    assert_eq!(choose(&sweep, 299, &read), Ok(Choice::NoBeam { tried: 2 }));
    assert_eq!(choose(&swept(&[]), 300, &nothing_read), Ok(Choice::NoBeam { tried: 0 }));
}

#[test]
fn a_barred_beam_does_not_end_the_search() {
    let sweep = example();
    for outcome in [BARRED, ACCESS_CLASS_NOT_ALLOWED, OTHER_NETWORK, UNREADABLE] {
        let told = Choice::Read { channel: 200, tried: 2 };
        assert_eq!(choose(&sweep, 0, &outcomes(&[(100, outcome)])), Ok(told));
    }
    // Not heard, so that it does not matter.
    let told = Choice::Read { channel: 100, tried: 1 };
    assert_eq!(choose(&sweep, 0, &outcomes(&[(50, SUITABLE), (0, UNREADABLE)])), Ok(told));
}

#[test]
fn refusals_come_in_their_order() {
    use Refusal::{OutcomesFaulty, ParameterOutOfRange, SweepUnfinished};
    let fresh = Sweep::fresh();
    let (good, bad) = (outcomes(&[]), outcomes(&[(1_087, 6)]));
    for (margin, outcomes, told) in [
        (6_001, &good[1..], OutcomesFaulty),
        (6_001, &[][..], OutcomesFaulty),
        (6_001, &[0; CHANNELS + 1], OutcomesFaulty),
        (-1, &bad[..], OutcomesFaulty),
        (-1, &[255; CHANNELS], OutcomesFaulty),
        (-1, &good[..], ParameterOutOfRange),
        (6_001, &good[..], ParameterOutOfRange),
        (i32::MIN, &good[..], ParameterOutOfRange),
        (6_000, &good[..], SweepUnfinished),
        (0, &good[..], SweepUnfinished),
    ] {
        assert_eq!(choose(&fresh, margin, outcomes), Err(told), "margin {margin}");
    }
    assert_eq!(choose(&example(), 6_001, &good), Err(ParameterOutOfRange));
    assert_eq!(choose(&example(), 6_000, &bad), Err(OutcomesFaulty));
}

#[test]
fn a_sweep_short_of_one_channel_is_unfinished() {
    let mut sweep = example();
    sweep.visited[1_086 / 64] &= !(1 << (1_086 % 64));
    assert_eq!(choose(&sweep, 300, &outcomes(&[])), Err(Refusal::SweepUnfinished));
}
