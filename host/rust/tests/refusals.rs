//! The refusals: their numbers and places, and what they say.

use royukezan::Refusal;
use std::error::Error;

#[test]
fn numbers_go_to_refusals_and_back() {
    for number in [1, 2, 3, 4, 6, 7, 8, 9, 11] {
        let refusal = Refusal::of(number, None).unwrap();
        assert_eq!((refusal.number(), refusal.place()), (number, None));
    }
    for (number, place) in [(12, 0), (12, 5), (13, 1), (14, 3), (14, 65_536), (13, u32::MAX)] {
        let refusal = Refusal::of(number, Some(place)).unwrap();
        assert_eq!((refusal.number(), refusal.place()), (number, Some(place)));
    }
}

#[test]
fn other_numbers_and_places_are_no_refusals() {
    for number in [0, 5, 10, 15, u32::MAX] {
        assert_eq!(Refusal::of(number, None), None);
        assert_eq!(Refusal::of(number, Some(0)), None);
    }
    // A place is told with 12 to 14, and with these alone.
    for number in [12, 13, 14] {
        assert_eq!(Refusal::of(number, None), None);
    }
    for number in [1, 2, 3, 4, 6, 7, 8, 9, 11] {
        assert_eq!(Refusal::of(number, Some(0)), None);
    }
}

#[test]
fn a_refusal_says_its_number_and_what_it_means() {
    let says = |refusal: Refusal| {
        let refusal: Box<dyn Error> = Box::new(refusal);
        refusal.to_string()
    };
    assert_eq!(says(Refusal::RecordNotWellFormed), "refused 9: a record not well formed");
    assert_eq!(says(Refusal::ListTooLong), "refused 11: a list of over 6 channels");
    for (refusal, number, place, wrong) in [
        (Refusal::ListedOutOfRange { place: 3 }, 12, 3, "is above 1,087"),
        (Refusal::ListedAgain { place: 5 }, 13, 5, "repeats an earlier one"),
        (Refusal::ListedServing { place: 0 }, 14, 0, "is the serving channel"),
    ] {
        let said = format!("refused {number}: the channel at place {place} of the list, counted from 0, {wrong}");
        assert_eq!(says(refusal), said);
        assert_eq!(refusal.meaning(), format!("a channel of a list {wrong}"));
    }
}
