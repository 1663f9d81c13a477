//! Power steps through the archive: document 01's checked examples, the refusals, and damaged records.

mod common;

use royukezan::power::{Parameters, Record, Sent};
use royukezan::Refusal::{ParameterOutOfRange, ReadingOutOfRange};

const GOOD: Parameters = Parameters { sqt: 85, paninit: 30, panmin: 0, panmax: 60, gainup: 10, gaindn: 10, mestep: 3 };

fn record(panlast: u32, parsave: u32, panbasic: u32, increase: u32) -> Record {
    Record { panlast, parsave, panbasic, increase }
}

#[test]
fn par_of_the_checked_examples() {
    for (sqi, par) in [(750, 17), (950, 22)] {
        let mut started = Record::start(GOOD).unwrap();
        assert_eq!(started.step_decoded(GOOD, 20, 61, sqi).map(|sent| sent.par), Ok(par));
        // PANuse is 20 also where it comes from an earlier message.
        assert_eq!(started.step_failed(GOOD, sqi).map(|sent| sent.par), Ok(par));
    }
}

#[test]
fn pan_of_the_checked_example() {
    let mut started = Record::start(GOOD).unwrap();
    assert_eq!(started, record(30, 30, 30, 0));
    let decoded = [20, 40, 40].map(|par| started.step_decoded(GOOD, 30, par, 850).unwrap().pan);
    let failed = [(); 2].map(|()| started.step_failed(GOOD, 850).unwrap().pan);
    assert_eq!((decoded, failed), ([20, 20, 40], [38, 37]));
    assert_eq!(started, record(30, 40, 40, 1_200));
}

#[test]
fn codes_that_are_not_numeric() {
    let mut given = record(10, 20, 30, 600);
    assert_eq!(given.step_decoded(GOOD, 61, 63, 850), Ok(Sent { par: 10, pan: 30 }));
    assert_eq!(given, record(10, 20, 30, 0));
}

#[test]
fn by_value_and_lent_are_the_same_step() {
    let before = record(10, 20, 30, 600);
    let mut lent = before;
    let sent = lent.step_decoded(GOOD, 12, 25, 700).unwrap();
    assert_eq!(before.after_decoded(GOOD, 12, 25, 700), Ok((lent, sent)));
    let mut lent = before;
    let sent = lent.step_failed(GOOD, 700).unwrap();
    assert_eq!(before.after_failed(GOOD, 700), Ok((lent, sent)));
    assert_eq!(lent, record(10, 20, 30, 1_200));
}

const BAD: [Parameters; 9] = [
    Parameters { sqt: 127, ..GOOD },
    Parameters { paninit: 61, ..GOOD },
    Parameters { panmin: 61, panmax: 61, ..GOOD },
    Parameters { panmax: 61, ..GOOD },
    Parameters { panmin: 31, panmax: 30, ..GOOD },
    Parameters { gainup: 32, ..GOOD },
    Parameters { gaindn: 11, ..GOOD },
    Parameters { mestep: 16, ..GOOD },
    Parameters { sqt: u32::MAX, ..GOOD },
];

#[test]
fn parameters_out_of_range() {
    let before = record(10, 20, 30, 600);
    for parameters in BAD {
        assert_eq!(Record::start(parameters), Err(ParameterOutOfRange), "{parameters:?}");
        let mut given = before;
        // Before a quality out of range.
        assert_eq!(given.step_decoded(parameters, 20, 20, 4_001), Err(ParameterOutOfRange));
        assert_eq!(given.step_failed(parameters, -3_001), Err(ParameterOutOfRange));
        assert_eq!(given.after_decoded(parameters, 20, 20, 850), Err(ParameterOutOfRange));
        assert_eq!(given.after_failed(parameters, 850), Err(ParameterOutOfRange));
        assert_eq!(given, before);
    }
}

#[test]
fn codes_and_qualities_out_of_range() {
    let before = record(10, 20, 30, 600);
    let mut given = before;
    for (pan, par) in [(64, 20), (20, 64), (u32::MAX, 20), (20, 256)] {
        assert_eq!(given.step_decoded(GOOD, pan, par, i32::MAX), Err(ParameterOutOfRange));
    }
    for sqi in [-3_001, 4_001, i32::MIN, i32::MAX] {
        assert_eq!(given.step_decoded(GOOD, 20, 20, sqi), Err(ReadingOutOfRange));
        assert_eq!(given.step_failed(GOOD, sqi), Err(ReadingOutOfRange));
    }
    assert_eq!(given, before);
}

const DAMAGES: [fn(&mut Record); 8] = [
    |r| r.panlast = 61,
    |r| r.parsave = 61,
    |r| r.panbasic = 61,
    |r| r.panbasic = u32::MAX,
    |r| r.increase = 100,
    |r| r.increase = 24_200,
    |r| r.increase = u32::MAX,
    |r| *r = record(u32::MAX, u32::MAX, u32::MAX, u32::MAX),
];

#[test]
fn damaged_records_are_refused_first() {
    common::all_refused(
        &record(1, 2, 3, 200),
        &DAMAGES,
        &[
            |r| r.check(),
            |r| r.step_decoded(GOOD, 20, 20, 850).map(drop),
            |r| r.step_decoded(BAD[0], 64, 64, i32::MAX).map(drop),
            |r| r.step_failed(GOOD, 850).map(drop),
            |r| r.step_failed(BAD[0], i32::MIN).map(drop),
            |r| r.after_decoded(BAD[0], 64, 64, i32::MAX).map(drop),
            |r| r.after_failed(GOOD, 850).map(drop),
        ],
    );
}

#[test]
fn a_lent_record_alone_is_written() {
    let mut lent = [record(1, 2, 3, 200); 3];
    assert_eq!(lent[1].step_decoded(GOOD, 20, 30, 850), Ok(Sent { par: 20, pan: 2 }));
    assert_eq!(lent, [record(1, 2, 3, 200), record(20, 30, 2, 0), record(1, 2, 3, 200)]);
}
