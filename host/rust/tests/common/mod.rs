//! What the tests share.

use royukezan::Refusal;
use std::fmt::Debug;

/// A call that is tried on a damaged record; what it would answer does not matter.
pub type Call<R> = fn(&mut R) -> Result<(), Refusal>;

/// Every call refuses every damaged record with 9 and leaves it as it was. The sound record is not refused with 9.
pub fn all_refused<R: Clone + PartialEq + Debug>(sound: &R, damages: &[fn(&mut R)], calls: &[Call<R>]) {
    for (at, call) in calls.iter().enumerate() {
        assert_ne!(call(&mut sound.clone()), Err(Refusal::RecordNotWellFormed), "call {at}, sound");
    }
    for (number, damage) in damages.iter().enumerate() {
        let mut damaged = sound.clone();
        damage(&mut damaged);
        assert_ne!(&damaged, sound, "damage {number} changes nothing");
        let before = damaged.clone();
        for (at, call) in calls.iter().enumerate() {
            let refused = call(&mut damaged);
            assert_eq!(refused, Err(Refusal::RecordNotWellFormed), "damage {number}, call {at}");
            assert_eq!(damaged, before, "damage {number}, call {at}");
        }
    }
}
