//! The refusal numbers of document 01 and of request E2, and which one is told when several hold.

/// A refusal; 9 is missing because a session hands over no record that could be malformed.
/// A fault at a place of a list carries that place, counted from 0.
#[derive(Clone, Copy, Debug, PartialEq, Eq)]
pub enum Refusal {
    /// A level or quality outside its range.
    Reading,
    /// A swept channel outside 2 to 1,086; the channel of a start, or the serving one of a new beam, above 1,087.
    Channel,
    /// A channel already visited in this sweep.
    Visited,
    /// A choice over an unfinished sweep.
    Unfinished,
    /// A filed or asked channel not watched; a new beam or a verdict on an idle watch.
    NotWatched,
    /// A margin, hysteresis, depth, power parameter or code out of range.
    Parameter,
    /// A faulty outcome string.
    Outcomes,
    /// A list with over 6 channels.
    LongList,
    /// A list with a channel above 1,087 at this place.
    ListRange(usize),
    /// A list whose channel at this place stands at an earlier one too.
    ListRepeat(usize),
    /// A list with the serving channel that it comes with at this place.
    ListServing(usize),
}

/// Rule "several at once": the first of these numbers that holds is told. 11 to 14 stand where 5 stood, 11 first;
/// of 12 to 14 a list has only the one of its first faulty place.
const ORDER: [u8; 11] = [8, 7, 2, 11, 12, 13, 14, 6, 3, 4, 1];

impl Refusal {
    /// The number in document 01 or request E2.
    pub fn number(self) -> u8 {
        match self {
            Refusal::Reading => 1,
            Refusal::Channel => 2,
            Refusal::Visited => 3,
            Refusal::Unfinished => 4,
            Refusal::NotWatched => 6,
            Refusal::Parameter => 7,
            Refusal::Outcomes => 8,
            Refusal::LongList => 11,
            Refusal::ListRange(_) => 12,
            Refusal::ListRepeat(_) => 13,
            Refusal::ListServing(_) => 14,
        }
    }

    /// The place that is told with the number, if one is.
    pub fn place(self) -> Option<usize> {
        match self {
            Refusal::ListRange(place) | Refusal::ListRepeat(place) | Refusal::ListServing(place) => Some(place),
            _ => None,
        }
    }
}

/// Accepts when no fault holds; otherwise refuses with the first in the order of the papers.
pub fn judge(faults: &[(Refusal, bool)]) -> Result<(), Refusal> {
    for number in ORDER {
        for (refusal, holds) in faults {
            if *holds && refusal.number() == number {
                return Err(*refusal);
            }
        }
    }
    Ok(())
}

#[cfg(test)]
mod tests {
    use super::*;

    /// Every refusal, in the order in which they are told.
    const ALL: [Refusal; 11] = [
        Refusal::Outcomes,
        Refusal::Parameter,
        Refusal::Channel,
        Refusal::LongList,
        Refusal::ListRange(0),
        Refusal::ListRepeat(5),
        Refusal::ListServing(3),
        Refusal::NotWatched,
        Refusal::Visited,
        Refusal::Unfinished,
        Refusal::Reading,
    ];

    #[test]
    fn the_order_is_8_7_2_then_11_to_14_then_6_3_4_1() {
        let numbers: Vec<u8> = ALL.iter().map(|refusal| refusal.number()).collect();
        assert_eq!(numbers, [8, 7, 2, 11, 12, 13, 14, 6, 3, 4, 1]);
        assert_eq!(numbers, ORDER);
    }

    #[test]
    fn of_several_the_first_in_order_is_told() {
        for (place, told) in ALL.iter().enumerate() {
            let faults: Vec<_> = ALL[place..].iter().rev().map(|r| (*r, true)).collect();
            assert_eq!(judge(&faults), Err(*told));
        }
        assert_eq!(judge(&[(Refusal::LongList, false), (Refusal::Reading, false)]), Ok(()));
        assert_eq!(judge(&[(Refusal::LongList, false), (Refusal::Reading, true)]), Err(Refusal::Reading));
        assert_eq!(judge(&[]), Ok(()));
    }

    #[test]
    fn a_place_is_told_with_12_13_and_14_alone() {
        for refusal in ALL {
            assert_eq!(refusal.place().is_some(), matches!(refusal.number(), 12..=14));
        }
        assert_eq!(Refusal::ListRange(0).place(), Some(0));
        assert_eq!(Refusal::ListRepeat(5).place(), Some(5));
        assert_eq!(Refusal::ListServing(3).place(), Some(3));
    }
}
