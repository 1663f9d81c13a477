//! The calls of the archive, through the Rust package of host/rust, as a host makes them.

use crate::library::{Answer, Library, Record, Refused};
use crate::plain::{Burst, Choice, Levels, PowerParameters, PowerRecord, Sent, Sweep, Track, Verdict, Watch};
use royukezan::{power, readings, watch, Refusal};

pub struct Ours;

impl Record for royukezan::Sweep {
    type Plain = Sweep;
    fn of(plain: &Sweep) -> royukezan::Sweep {
        royukezan::Sweep { levels: plain.levels, visited: plain.visited, heard: plain.heard }
    }
    fn told(&self) -> Sweep {
        Sweep { levels: self.levels, visited: self.visited, heard: self.heard }
    }
}

impl Record for royukezan::Watch {
    type Plain = Watch;
    fn of(plain: &Watch) -> royukezan::Watch {
        let track = |t: Track| watch::Track { channel: t.channel, count: t.count, levels: t.levels };
        royukezan::Watch { watched: plain.watched, tracks: plain.tracks.map(track), depth: plain.depth }
    }
    fn told(&self) -> Watch {
        let track = |t: watch::Track| Track { channel: t.channel, count: t.count, levels: t.levels };
        Watch { watched: self.watched, tracks: self.tracks.map(track), depth: self.depth }
    }
}

impl Record for power::Record {
    type Plain = PowerRecord;
    fn of(&PowerRecord { panlast, parsave, panbasic, increase }: &PowerRecord) -> power::Record {
        power::Record { panlast, parsave, panbasic, increase }
    }
    fn told(&self) -> PowerRecord {
        let power::Record { panlast, parsave, panbasic, increase } = *self;
        PowerRecord { panlast, parsave, panbasic, increase }
    }
}

// The package's types in those of the plain Rust, and the reverse.

#[inline(always)]
fn by_number<T>(answer: Result<T, Refusal>) -> Answer<T> {
    answer.map_err(|refusal| Refused::new(refusal.number(), refusal.place()))
}

#[inline(always)]
fn package_burst(burst: Burst) -> royukezan::Burst {
    match burst {
        Burst::Heard { level, quality } => royukezan::Burst::heard(level, quality),
        Burst::Missed => royukezan::Burst::Missed,
    }
}

#[inline(always)]
fn package_parameters(p: &PowerParameters) -> power::Parameters {
    let &PowerParameters { sqt, paninit, panmin, panmax, gainup, gaindn, mestep } = p;
    power::Parameters { sqt, paninit, panmin, panmax, gainup, gaindn, mestep }
}

#[inline(always)]
fn plain_choice(choice: royukezan::Choice) -> Choice {
    match choice {
        royukezan::Choice::Camp { channel, tried } => Choice::Camp { channel, tried },
        royukezan::Choice::Read { channel, tried } => Choice::Read { channel, tried },
        royukezan::Choice::NoBeam { tried } => Choice::NoBeam { tried },
    }
}

#[inline(always)]
fn plain_verdict(verdict: royukezan::Verdict) -> Verdict {
    match verdict {
        royukezan::Verdict::Wait => Verdict::Wait,
        royukezan::Verdict::Stay => Verdict::Stay,
        royukezan::Verdict::MoveTo(channel) => Verdict::MoveTo(channel),
    }
}

#[inline(always)]
fn plain_next(next: royukezan::Next) -> Option<u16> {
    match next {
        royukezan::Next::Channel(channel) => Some(channel),
        royukezan::Next::Done => None,
    }
}

#[inline(always)]
fn plain_sent(sent: power::Sent) -> Sent {
    Sent { par: sent.par, pan: sent.pan }
}

/// Stores the record that a step by value hands back.
#[inline(always)]
fn stored(step: Result<(power::Record, power::Sent), Refusal>, r: &mut power::Record) -> Result<Sent, Refusal> {
    let (record, sent) = step?;
    *r = record;
    Ok(plain_sent(sent))
}

/// Writes each call: nothing but the call, the refusal by its number and its place.
macro_rules! calls {
    ($($name:ident($($argument:ident: $type:ty),*) -> $value:ty { $body:expr })*) => {
        $(
            #[inline(always)]
            fn $name($($argument: $type),*) -> Answer<$value> {
                by_number($body)
            }
        )*
    };
}

impl Library for Ours {
    type Sweep = royukezan::Sweep;
    type Watch = royukezan::Watch;
    type Power = power::Record;

    calls! {
        level_to_hundredths(x: f32) -> i32 { readings::level_to_hundredths(x) }
        quality_to_hundredths(x: f32) -> i32 { readings::quality_to_hundredths(x) }
        level_to_float(h: i32) -> f32 { readings::level_to_float(h) }
        quality_to_float(h: i32) -> f32 { readings::quality_to_float(h) }
        level_read_back(h: i32) -> i32 { readings::level_read_back(h) }
        quality_read_back(h: i32) -> i32 { readings::quality_read_back(h) }
        burst_to_hundredths(level: f32, quality: f32) -> (i32, i32) {
            readings::burst_to_hundredths(royukezan::Reading { level, quality }).map(|h| (h.level, h.quality))
        }

        file_swept(sweep: &mut Self::Sweep, channel: u16, burst: Burst) -> () {
            sweep.file(channel, package_burst(burst))
        }
        next(sweep: &Self::Sweep) -> Option<u16> { sweep.next().map(plain_next) }
        counts(sweep: &Self::Sweep) -> (u32, u32) { sweep.counts().map(|n| (n.visited, n.heard)) }
        check_sweep(sweep: &Self::Sweep) -> () { sweep.check() }
        choose(sweep: &Self::Sweep, margin: i32, outcomes: &[u8]) -> Choice {
            royukezan::choose(sweep, margin, outcomes).map(plain_choice)
        }

        start(watch: &mut Self::Watch, serving: u16, depth: usize) -> () { watch.start(serving, depth) }
        new_beam(watch: &mut Self::Watch, serving: u16, list: &[u16]) -> () { watch.new_beam(serving, list) }
        file(watch: &mut Self::Watch, channel: u16, burst: Burst) -> () { watch.file(channel, package_burst(burst)) }
        ask(watch: &Self::Watch, channel: u16) -> Levels {
            watch.ask(channel).map(|levels| Levels { count: levels.count as usize, mean: levels.mean })
        }
        verdict(watch: &Self::Watch, hysteresis: i32) -> Verdict { watch.verdict(hysteresis).map(plain_verdict) }
        check_watch(watch: &Self::Watch) -> () { watch.check() }

        start_power(p: &PowerParameters) -> power::Record { power::Record::start(package_parameters(p)) }
        step_decoded(r: &mut power::Record, p: &PowerParameters, pan: u32, par: u32, sqi: i32) -> Sent {
            r.step_decoded(package_parameters(p), pan, par, sqi).map(plain_sent)
        }
        step_failed(r: &mut power::Record, p: &PowerParameters, sqi: i32) -> Sent {
            r.step_failed(package_parameters(p), sqi).map(plain_sent)
        }
        after_decoded(r: &mut power::Record, p: &PowerParameters, pan: u32, par: u32, sqi: i32) -> Sent {
            stored(r.after_decoded(package_parameters(p), pan, par, sqi), r)
        }
        after_failed(r: &mut power::Record, p: &PowerParameters, sqi: i32) -> Sent {
            stored(r.after_failed(package_parameters(p), sqi), r)
        }
        check_power(r: &power::Record) -> () { r.check() }
    }
}
