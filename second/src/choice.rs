//! The choice of a beam over a finished sweep, a margin and the outcome bytes.

use crate::limits::{CHANNEL_NUMBERS, HIGHEST_OUTCOME, MARGIN_RANGE, NOT_READ, SUITABLE};
use crate::refusal::{judge, Refusal};
use crate::sweep::Sweep;
use std::cmp::Reverse;

/// What the choice answers, with the number of beams tried.
#[derive(Clone, Copy, Debug, PartialEq, Eq)]
pub enum Choice {
    Camp { channel: u16, tried: usize },
    Read { channel: u16, tried: usize },
    NoBeam { tried: usize },
}

/// Rule "the search order": the heard channels by falling level, equal levels by rising channel number.
fn search_order(sweep: &Sweep) -> Vec<(u16, i32)> {
    let mut order = sweep.heard();
    order.sort_by_key(|(channel, level)| (Reverse(*level), *channel));
    order
}

/// Rule "the near part": the channels at most the margin below the strongest heard level, whatever its outcome.
fn near_part(order: &[(u16, i32)], margin: i32) -> Vec<u16> {
    let strongest = order.iter().map(|(_, level)| *level).max();
    let near = |level: i32| strongest.is_some_and(|strongest| strongest - level <= margin);
    order.iter().filter(|(_, level)| near(*level)).map(|(channel, _)| *channel).collect()
}

/// Rule "the choice": the first near channel with outcome 0 or 1, else "no beam".
pub fn choose(sweep: &Sweep, margin: i32, outcomes: &[u8]) -> Result<Choice, Refusal> {
    let wrong_length = outcomes.len() != CHANNEL_NUMBERS;
    let wrong_byte = outcomes.iter().any(|outcome| *outcome > HIGHEST_OUTCOME);
    judge(&[
        (Refusal::Outcomes, wrong_length || wrong_byte),
        (Refusal::Parameter, !MARGIN_RANGE.contains(&margin)),
        (Refusal::Unfinished, !sweep.finished()),
    ])?;
    let near = near_part(&search_order(sweep), margin);
    for (place, channel) in near.iter().enumerate() {
        let tried = place + 1;
        match outcomes[usize::from(*channel)] {
            SUITABLE => return Ok(Choice::Camp { channel: *channel, tried }),
            NOT_READ => return Ok(Choice::Read { channel: *channel, tried }),
            _ => {}
        }
    }
    Ok(Choice::NoBeam { tried: near.len() })
}

#[cfg(test)]
mod tests {
    use super::*;
    use crate::reading::{shown_level, Burst};

    fn swept(heard: &[(u16, i32)]) -> Sweep {
        let mut sweep = Sweep::default();
        for (channel, level) in heard {
            let burst = Burst::Heard { level: shown_level(*level).unwrap(), quality: 0 };
            sweep.file(*channel, burst).unwrap();
        }
        sweep.file_rest_missed().unwrap();
        sweep
    }

    fn outcomes(set: &[(usize, u8)]) -> Vec<u8> {
        let mut bytes = vec![0; CHANNEL_NUMBERS];
        for (channel, outcome) in set {
            bytes[*channel] = *outcome;
        }
        bytes
    }

    const EXAMPLE: [(u16, i32); 3] = [(200, -9_000), (300, -9_300), (100, -9_000)];

    #[test]
    fn checked_examples_of_the_choice() {
        let sweep = swept(&EXAMPLE);
        let unread = outcomes(&[]);
        assert_eq!(choose(&sweep, 300, &unread), Ok(Choice::Read { channel: 100, tried: 1 }));
        let read = outcomes(&[(100, 2), (200, 4), (300, 1)]);
        assert_eq!(choose(&sweep, 300, &read), Ok(Choice::Camp { channel: 300, tried: 3 }));
        assert_eq!(choose(&sweep, 299, &read), Ok(Choice::NoBeam { tried: 2 }));
        assert_eq!(choose(&swept(&[]), 300, &unread), Ok(Choice::NoBeam { tried: 0 }));
    }

    #[test]
    fn a_barred_strongest_beam_does_not_stop_the_choice() {
        let sweep = swept(&[(50, -100), (40, -150), (60, -140)]);
        let barred = outcomes(&[(50, 2)]);
        assert_eq!(choose(&sweep, 50, &barred), Ok(Choice::Read { channel: 60, tried: 2 }));
        assert_eq!(choose(&sweep, 39, &barred), Ok(Choice::NoBeam { tried: 1 }));
        let two = outcomes(&[(50, 2), (60, 3)]);
        assert_eq!(choose(&sweep, 50, &two), Ok(Choice::Read { channel: 40, tried: 3 }));
        // A beam further down that was read already does not come before one not read yet.
        let later = outcomes(&[(50, 5), (40, 1)]);
        assert_eq!(choose(&sweep, 50, &later), Ok(Choice::Read { channel: 60, tried: 2 }));
    }

    #[test]
    fn the_margin_is_taken_to_its_ends() {
        let sweep = swept(&[(2, 0), (1_086, -6_000), (3, -6_001)]);
        let none = outcomes(&[(2, 2), (1_086, 5), (3, 5)]);
        assert_eq!(choose(&sweep, 6_000, &none), Ok(Choice::NoBeam { tried: 2 }));
        assert_eq!(choose(&sweep, 5_999, &none), Ok(Choice::NoBeam { tried: 1 }));
        assert_eq!(choose(&sweep, 0, &none), Ok(Choice::NoBeam { tried: 1 }));
        assert_eq!(choose(&sweep, 6_001, &none), Err(Refusal::Parameter));
        assert_eq!(choose(&sweep, -1, &none), Err(Refusal::Parameter));
    }

    #[test]
    fn outcome_bytes_are_tested_for_all_channels() {
        let sweep = swept(&EXAMPLE);
        for channel in [0, 1, 2, 100, 1_087] {
            assert_eq!(choose(&sweep, 300, &outcomes(&[(channel, 6)])), Err(Refusal::Outcomes));
            assert!(choose(&sweep, 300, &outcomes(&[(channel, 5)])).is_ok());
        }
        assert_eq!(choose(&sweep, 300, &[0; 1_087]), Err(Refusal::Outcomes));
        assert_eq!(choose(&sweep, 300, &[0; 1_089]), Err(Refusal::Outcomes));
    }

    #[test]
    fn refusals_come_in_order() {
        let (unfinished, good) = (Sweep::default(), outcomes(&[]));
        assert_eq!(choose(&unfinished, 6_001, &outcomes(&[(0, 255)])), Err(Refusal::Outcomes));
        assert_eq!(choose(&unfinished, 6_001, &good), Err(Refusal::Parameter));
        assert_eq!(choose(&unfinished, 6_000, &good), Err(Refusal::Unfinished));
    }
}
