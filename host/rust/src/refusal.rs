//! Document 01's table of refusals, with what document 02 adds.

use crate::border::NO_PLACE;
use core::error::Error;
use core::fmt;

/// Makes the enum of a table, with the number and the meaning of each refusal: first those that tell nothing besides,
/// then those of a channel in a list, which tell its place.
macro_rules! refusals {
    (
        $($number:literal $name:ident $meaning:literal,)*
        of a channel in a list: $($listed:literal $fault:ident $wrong:literal,)*
    ) => {
        /// Why a call is refused: document 01's table with what document 02 adds, each reason with its number.
        ///
        /// Where several hold at once, the one that comes first of 9, 8, 7, 2, 11, then 12 to 14, 6, 3, 4, 1 is given;
        /// which of 12 to 14, the first faulty channel of the list decides. A refused call leaves its record as it was.
        #[derive(Clone, Copy, Debug, PartialEq, Eq, Hash)]
        pub enum Refusal {
            $(#[doc = concat!($number, ": ", $meaning, ".")] $name,)*
            $(
                #[doc = concat!($listed, ": a channel of a list ", $wrong, ".")]
                $fault {
                    /// Where the channel stands in the list, counted from 0.
                    place: u32,
                },
            )*
        }

        impl Refusal {
            /// The number that document 01 or 02 gives it.
            pub const fn number(self) -> u32 {
                match self {
                    $(Refusal::$name => $number,)*
                    $(Refusal::$fault { .. } => $listed,)*
                }
            }

            /// The place that is told with 12, 13 and 14: that of the first faulty channel of the list, counted from 0.
            pub const fn place(self) -> Option<u32> {
                match self {
                    $(Refusal::$fault { place } => Some(place),)*
                    _ => None,
                }
            }

            /// The refusal of a number and, with 12, 13 and 14, a place; none where there is no such refusal.
            pub const fn of(number: u32, place: Option<u32>) -> Option<Refusal> {
                match (number, place) {
                    $(($number, None) => Some(Refusal::$name),)*
                    $(($listed, Some(place)) => Some(Refusal::$fault { place }),)*
                    _ => None,
                }
            }

            /// What is wrong, in plain words, without the place.
            pub const fn meaning(self) -> &'static str {
                match self {
                    $(Refusal::$name => $meaning,)*
                    $(Refusal::$fault { .. } => concat!("a channel of a list ", $wrong),)*
                }
            }
        }

        impl fmt::Display for Refusal {
            fn fmt(&self, f: &mut fmt::Formatter) -> fmt::Result {
                write!(f, "refused {}: ", self.number())?;
                match self {
                    $(Refusal::$fault { place } => {
                        write!(f, concat!("the channel at place {} of the list, counted from 0, ", $wrong), place)
                    })*
                    _ => f.write_str(self.meaning()),
                }
            }
        }
    };
}

refusals! {
    1 ReadingOutOfRange "a level or quality, as a float or in hundredths, is outside its range",
    2 ChannelOutOfRange "a swept channel outside 2 to 1,086; a start channel or the serving channel of a new beam \
        above 1,087",
    3 ChannelVisited "a channel already visited in this sweep",
    4 SweepUnfinished "a choice over an unfinished sweep",
    6 NotWatched "a filed or asked channel not watched; new beam or verdict on an idle watch",
    7 ParameterOutOfRange "a margin, hysteresis or power parameter out of range; PANmin above PANmax; \
        a code above 63; a depth outside 5 to 31",
    8 OutcomesFaulty "outcome string not 1,088 long, or a byte above 5",
    9 RecordNotWellFormed "a record not well formed",
    11 ListTooLong "a list of over 6 channels",
    of a channel in a list:
    12 ListedOutOfRange "is above 1,087",
    13 ListedAgain "repeats an earlier one",
    14 ListedServing "is the serving channel",
}

impl Error for Refusal {}

/// The refusal of an answer's first number, where the answer has no place; 0 is accepted.
#[inline]
pub(crate) fn accepted(number: u32) -> Result<(), Refusal> {
    accepted_at(number, NO_PLACE)
}

/// The refusal of an answer's first number and the place beside it; 0 without a place is accepted.
#[inline]
pub(crate) fn accepted_at(number: u32, place: u32) -> Result<(), Refusal> {
    if number == 0 && place == NO_PLACE {
        Ok(())
    } else {
        Err(refused(number, place))
    }
}

fn refused(number: u32, place: u32) -> Refusal {
    let told = (place != NO_PLACE).then_some(place);
    match (Refusal::of(number, told), told) {
        (Some(refusal), _) => refusal,
        (None, None) => foreign(format_args!("{number} without a place")),
        (None, Some(place)) => foreign(format_args!("{number} at place {place}")),
    }
}

/// Something in an answer that the archive is proved not to give: another archive was linked.
#[cold]
#[inline(never)]
pub(crate) fn foreign(answer: impl fmt::Display) -> ! {
    panic!("libroyukezan.a is not the archive that this package was written for: it answers {answer}");
}

#[cfg(test)]
mod tests {
    extern crate std;

    use super::{accepted, accepted_at, Refusal, NO_PLACE};
    use std::panic::catch_unwind;

    #[test]
    fn what_the_archive_answers_is_known() {
        assert_eq!(accepted(0), Ok(()));
        assert_eq!(accepted_at(0, NO_PLACE), Ok(()));
        assert_eq!(accepted(9), Err(Refusal::RecordNotWellFormed));
        assert_eq!(accepted_at(6, NO_PLACE), Err(Refusal::NotWatched));
        assert_eq!(accepted_at(11, NO_PLACE), Err(Refusal::ListTooLong));
        for place in [0, 1, 2, 3, 4, 5, 65_535, 65_536, NO_PLACE - 1] {
            assert_eq!(accepted_at(12, place), Err(Refusal::ListedOutOfRange { place }));
            assert_eq!(accepted_at(13, place), Err(Refusal::ListedAgain { place }));
            assert_eq!(accepted_at(14, place), Err(Refusal::ListedServing { place }));
        }
    }

    #[test]
    fn a_number_that_is_not_given_panics() {
        for number in [5, 10, 15, u32::MAX] {
            assert!(catch_unwind(|| accepted(number)).is_err(), "{number}");
            assert!(catch_unwind(|| accepted_at(number, 0)).is_err(), "{number}");
        }
    }

    #[test]
    fn a_place_that_is_not_told_panics_and_so_does_one_that_is_missing() {
        for (number, place) in [(0, 0), (2, 0), (6, 0), (9, 5), (11, 6), (11, NO_PLACE - 1)] {
            assert!(catch_unwind(|| accepted_at(number, place)).is_err(), "{number} at {place}");
        }
        for number in 12..=14 {
            assert!(catch_unwind(|| accepted(number)).is_err(), "{number}");
        }
    }
}
