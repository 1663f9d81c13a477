//! The calls of the plain Rust. None is inlined, so that both sides are calls.

use crate::library::{Answer, Library, Record, Refused};
use crate::plain::{self, Burst, Choice, Levels, PowerParameters, PowerRecord, Refusal, Sent, Sweep, Verdict, Watch};

pub struct Plain;

impl Record for Sweep {
    type Plain = Sweep;
    fn of(plain: &Sweep) -> Sweep {
        plain.clone()
    }
    fn told(&self) -> Sweep {
        self.clone()
    }
}

impl Record for Watch {
    type Plain = Watch;
    fn of(plain: &Watch) -> Watch {
        plain.clone()
    }
    fn told(&self) -> Watch {
        self.clone()
    }
}

impl Record for PowerRecord {
    type Plain = PowerRecord;
    fn of(plain: &PowerRecord) -> PowerRecord {
        *plain
    }
    fn told(&self) -> PowerRecord {
        *self
    }
}

#[inline(always)]
fn by_number<T>(answer: Result<T, Refusal>) -> Answer<T> {
    answer.map_err(|refusal| Refused::new(refusal.number(), refusal.place()))
}

/// Writes each call: not inlined, the refusal by its number and its place.
macro_rules! calls {
    ($($name:ident($($argument:ident: $type:ty),*) -> $value:ty { $body:expr })*) => {
        $(
            #[inline(never)]
            fn $name($($argument: $type),*) -> Answer<$value> {
                by_number($body)
            }
        )*
    };
}

impl Library for Plain {
    type Sweep = Sweep;
    type Watch = Watch;
    type Power = PowerRecord;

    calls! {
        level_to_hundredths(x: f32) -> i32 { plain::level_to_hundredths(x) }
        quality_to_hundredths(x: f32) -> i32 { plain::quality_to_hundredths(x) }
        level_to_float(h: i32) -> f32 { plain::level_to_float(h) }
        quality_to_float(h: i32) -> f32 { plain::quality_to_float(h) }
        level_read_back(h: i32) -> i32 { plain::level_to_float(h).and_then(plain::level_to_hundredths) }
        quality_read_back(h: i32) -> i32 { plain::quality_to_float(h).and_then(plain::quality_to_hundredths) }
        burst_to_hundredths(level: f32, quality: f32) -> (i32, i32) {
            plain::level_to_hundredths(level).and_then(|h| Ok((h, plain::quality_to_hundredths(quality)?)))
        }

        file_swept(sweep: &mut Sweep, channel: u16, burst: Burst) -> () { sweep.file(channel, burst) }
        next(sweep: &Sweep) -> Option<u16> { sweep.next() }
        counts(sweep: &Sweep) -> (u32, u32) { sweep.counts() }
        check_sweep(sweep: &Sweep) -> () { sweep.check() }
        choose(sweep: &Sweep, margin: i32, outcomes: &[u8]) -> Choice { plain::choose(sweep, margin, outcomes) }

        start(watch: &mut Watch, serving: u16, depth: usize) -> () { watch.start(serving, depth) }
        new_beam(watch: &mut Watch, serving: u16, list: &[u16]) -> () { watch.new_beam(serving, list) }
        file(watch: &mut Watch, channel: u16, burst: Burst) -> () { watch.file(channel, burst) }
        ask(watch: &Watch, channel: u16) -> Levels { watch.ask(channel) }
        verdict(watch: &Watch, hysteresis: i32) -> Verdict { watch.verdict(hysteresis) }
        check_watch(watch: &Watch) -> () { watch.check() }

        start_power(p: &PowerParameters) -> PowerRecord {
            match PowerRecord::start(p) {
                (record, Ok(())) => Ok(record),
                (_, Err(refusal)) => Err(refusal),
            }
        }
        step_decoded(r: &mut PowerRecord, p: &PowerParameters, pan: u32, par: u32, sqi: i32) -> Sent {
            r.step(p, Some((pan, par)), sqi)
        }
        step_failed(r: &mut PowerRecord, p: &PowerParameters, sqi: i32) -> Sent { r.step(p, None, sqi) }
        after_decoded(r: &mut PowerRecord, p: &PowerParameters, pan: u32, par: u32, sqi: i32) -> Sent {
            r.step(p, Some((pan, par)), sqi)
        }
        after_failed(r: &mut PowerRecord, p: &PowerParameters, sqi: i32) -> Sent { r.step(p, None, sqi) }
        check_power(r: &PowerRecord) -> () { r.check() }
    }
}
