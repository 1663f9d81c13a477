//! The band sweep: which channels were visited, and the level of each one heard.

use crate::limits::SWEPT_CHANNELS;
use crate::reading::{heard_level, Burst};
use crate::refusal::{judge, Refusal};
use std::collections::{BTreeMap, BTreeSet};

/// A sweep; a fresh one is empty.
#[derive(Clone, Debug, Default, PartialEq, Eq)]
pub struct Sweep {
    visited: BTreeSet<u16>,
    heard: BTreeMap<u16, i32>,
}

impl Sweep {
    /// Rule "filing a result": marks the channel visited and, if heard, stores its level.
    pub fn file(&mut self, channel: u16, burst: Burst) -> Result<(), Refusal> {
        let level = heard_level(burst);
        judge(&[
            (Refusal::Channel, !SWEPT_CHANNELS.contains(&channel)),
            (Refusal::Visited, self.visited.contains(&channel)),
            (Refusal::Reading, level.is_err()),
        ])?;
        self.visited.insert(channel);
        if let Some(level) = level? {
            self.heard.insert(channel, level);
        }
        Ok(())
    }

    /// The session's "sweep rest missed": a missed result for every channel not yet visited.
    pub fn file_rest_missed(&mut self) -> Result<(), Refusal> {
        for channel in SWEPT_CHANNELS {
            if !self.visited.contains(&channel) {
                self.file(channel, Burst::Missed)?;
            }
        }
        Ok(())
    }

    /// Rule "the next channel": the lowest in 2 to 1,086 not visited; None is "done".
    pub fn next(&self) -> Option<u16> {
        SWEPT_CHANNELS.into_iter().find(|channel| !self.visited.contains(channel))
    }

    /// Rule "finished": all 1,085 are visited.
    pub fn finished(&self) -> bool {
        SWEPT_CHANNELS.into_iter().all(|channel| self.visited.contains(&channel))
    }

    /// The number of channels visited.
    pub fn visited_count(&self) -> usize {
        self.visited.len()
    }

    /// The number of channels heard.
    pub fn heard_count(&self) -> usize {
        self.heard.len()
    }

    /// The heard channels with their levels, by rising channel number.
    pub fn heard(&self) -> Vec<(u16, i32)> {
        self.heard.iter().map(|(channel, level)| (*channel, *level)).collect()
    }
}

#[cfg(test)]
mod tests {
    use super::*;
    use crate::reading::shown_level;

    fn heard(level: i32) -> Burst {
        Burst::Heard { level: shown_level(level).unwrap(), quality: 0 }
    }

    const BAD: Burst = Burst::Heard { level: 0x7fc0_0000, quality: 0 };

    #[test]
    fn a_fresh_sweep_is_empty() {
        let sweep = Sweep::default();
        assert_eq!((sweep.next(), sweep.finished()), (Some(2), false));
        assert_eq!((sweep.visited_count(), sweep.heard_count()), (0, 0));
    }

    #[test]
    fn filing_marks_and_counts() {
        let mut sweep = Sweep::default();
        assert_eq!(sweep.file(3, Burst::Missed), Ok(()));
        assert_eq!(sweep.next(), Some(2));
        assert_eq!(sweep.file(2, heard(-9_000)), Ok(()));
        assert_eq!(sweep.next(), Some(4));
        assert_eq!((sweep.visited_count(), sweep.heard_count()), (2, 1));
        assert_eq!(sweep.heard(), [(2, -9_000)]);
    }

    #[test]
    fn refusals_come_in_order_and_change_nothing() {
        let mut sweep = Sweep::default();
        sweep.file(5, heard(-1)).unwrap();
        let before = sweep.clone();
        for channel in [0, 1, 1_087, 1_088, 65_535] {
            assert_eq!(sweep.file(channel, BAD), Err(Refusal::Channel));
            assert_eq!(sweep.file(channel, Burst::Missed), Err(Refusal::Channel));
        }
        assert_eq!(sweep.file(5, BAD), Err(Refusal::Visited));
        assert_eq!(sweep.file(5, Burst::Missed), Err(Refusal::Visited));
        assert_eq!(sweep.file(6, BAD), Err(Refusal::Reading));
        let bad_quality = Burst::Heard { level: 0, quality: 0xff80_0000 };
        assert_eq!(sweep.file(6, bad_quality), Err(Refusal::Reading));
        assert_eq!(sweep, before);
    }

    #[test]
    fn all_1085_channels_make_it_finished() {
        let mut sweep = Sweep::default();
        for channel in (3..=1_086).rev() {
            sweep.file(channel, Burst::Missed).unwrap();
            assert!(!sweep.finished());
        }
        sweep.file(2, heard(0)).unwrap();
        assert_eq!((sweep.next(), sweep.finished()), (None, true));
        assert_eq!((sweep.visited_count(), sweep.heard_count()), (1_085, 1));
    }

    #[test]
    fn the_rest_can_be_missed_at_once() {
        let mut sweep = Sweep::default();
        sweep.file(700, heard(-5)).unwrap();
        assert_eq!(sweep.file_rest_missed(), Ok(()));
        assert_eq!(sweep.file_rest_missed(), Ok(()));
        assert!(sweep.finished());
        assert_eq!(sweep.heard(), [(700, -5)]);
    }
}
