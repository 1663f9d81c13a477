//! Calls on records as values, so that each is made on both sides in the same way.

use crate::library::{told, Library, Record};
use crate::plain::{Burst, PowerParameters, PowerRecord, Sweep, Watch};
use std::fmt::Debug;

/// A call on a record. Its answer is told as a number.
pub trait Call: Debug {
    type Plain: Clone + PartialEq + Debug;
    type Of<L: Library>: Record<Plain = Self::Plain>;
    fn make<L: Library>(&self, record: &mut Self::Of<L>) -> u64;
}

#[derive(Debug)]
pub enum SweepCall {
    File(u16, Burst),
    Next,
    Counts,
    Check,
    Choose { margin: i32, outcomes: Vec<u8> },
}

impl Call for SweepCall {
    type Plain = Sweep;
    type Of<L: Library> = L::Sweep;

    fn make<L: Library>(&self, sweep: &mut L::Sweep) -> u64 {
        match *self {
            SweepCall::File(channel, burst) => told(L::file_swept(sweep, channel, burst)),
            SweepCall::Next => told(L::next(sweep)),
            SweepCall::Counts => told(L::counts(sweep)),
            SweepCall::Check => told(L::check_sweep(sweep)),
            SweepCall::Choose { margin, ref outcomes } => told(L::choose(sweep, margin, outcomes)),
        }
    }
}

#[derive(Debug)]
pub enum WatchCall {
    Start(u16, usize),
    NewBeam(u16, Vec<u16>),
    File(u16, Burst),
    Ask(u16),
    Verdict(i32),
    Check,
}

impl Call for WatchCall {
    type Plain = Watch;
    type Of<L: Library> = L::Watch;

    fn make<L: Library>(&self, watch: &mut L::Watch) -> u64 {
        match *self {
            WatchCall::Start(serving, depth) => told(L::start(watch, serving, depth)),
            WatchCall::NewBeam(serving, ref list) => told(L::new_beam(watch, serving, list)),
            WatchCall::File(channel, burst) => told(L::file(watch, channel, burst)),
            WatchCall::Ask(channel) => told(L::ask(watch, channel)),
            WatchCall::Verdict(hysteresis) => told(L::verdict(watch, hysteresis)),
            WatchCall::Check => told(L::check_watch(watch)),
        }
    }
}

/// A power step, or the test of a record.
#[derive(Debug)]
pub enum PowerCall {
    Decoded { p: PowerParameters, pan: u32, par: u32, sqi: i32, lent: bool },
    Failed { p: PowerParameters, sqi: i32, lent: bool },
    Check,
}

impl Call for PowerCall {
    type Plain = PowerRecord;
    type Of<L: Library> = L::Power;

    fn make<L: Library>(&self, r: &mut L::Power) -> u64 {
        told(match *self {
            PowerCall::Decoded { ref p, pan, par, sqi, lent: true } => L::step_decoded(r, p, pan, par, sqi),
            PowerCall::Decoded { ref p, pan, par, sqi, lent: false } => L::after_decoded(r, p, pan, par, sqi),
            PowerCall::Failed { ref p, sqi, lent: true } => L::step_failed(r, p, sqi),
            PowerCall::Failed { ref p, sqi, lent: false } => L::after_failed(r, p, sqi),
            PowerCall::Check => return told(L::check_power(r)),
        })
    }
}
