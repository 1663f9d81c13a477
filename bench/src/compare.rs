//! Compares every answer of the archive with the plain Rust's, on valid and on damaged input, before anything is timed,
//! and the record after each call.

use crate::calls::{Call, PowerCall, SweepCall, WatchCall};
use crate::dice::Dice;
use crate::floats::turning_bits;
use crate::library::{list_refusals, refusal_of, told, Library, Record, Refused};
use crate::made_up;
use crate::ours::Ours;
use crate::plain::{Sweep, Watch, CHANNELS};
use crate::plain_calls::Plain;
use std::collections::{BTreeMap, BTreeSet};
use std::fmt::Debug;

/// How many answers were compared, and how many of them are each refusal; the first that differs ends the program.
#[derive(Default)]
pub struct Compared {
    count: u64,
    refused: BTreeMap<Refused, u64>,
}

/// Every refusal that there is, with each place that it can tell.
fn refusals() -> BTreeSet<Refused> {
    let without_place = [1, 2, 3, 4, 6, 7, 8, 9].map(|number| Refused::new(number, None));
    list_refusals().into_iter().chain(without_place).collect()
}

impl Compared {
    /// Compares an answer, told as a number.
    pub fn answer(&mut self, what: impl FnOnce() -> String, ours: u64, plain: u64) {
        self.count += 1;
        if let Some(refusal) = refusal_of(ours) {
            *self.refused.entry(refusal).or_default() += 1;
        }
        if ours != plain {
            differs(what(), &worded(ours), &worded(plain));
        }
    }

    /// How many answers are each refusal, whichever place is told.
    fn by_number(&self) -> BTreeMap<u32, u64> {
        let mut numbers = BTreeMap::new();
        for (refusal, count) in &self.refused {
            *numbers.entry(refusal.number()).or_default() += count;
        }
        numbers
    }

    /// Says how much was compared. No refusal and no place may be missing, or the comparison would not be what it
    /// should be.
    pub fn report(&self) {
        println!("bench: {} answers compared, all the same", self.count);
        let refused: Vec<String> = self.by_number().iter().map(|(n, count)| format!("{n}: {count}")).collect();
        println!("bench: of these are refused, by number: {}", refused.join(", "));
        let met: BTreeSet<Refused> = self.refused.keys().copied().collect();
        let odd = &met ^ &refusals();
        if !odd.is_empty() {
            println!("bench: not met, or met where there is no such refusal: {odd:?}");
            std::process::exit(1);
        }
    }
}

/// An answer in words.
fn worded(answer: u64) -> String {
    refusal_of(answer).map_or_else(|| format!("{answer:#x}"), |refusal| format!("{refusal:?}"))
}

fn differs(what: String, ours: &str, plain: &str) -> ! {
    println!("bench: {what} differs: the archive gives {ours}, the plain Rust {plain}");
    std::process::exit(1);
}

/// Ends the program where the two differ.
pub fn same<T: PartialEq + Debug>(what: impl FnOnce() -> String, ours: T, plain: T) {
    if ours != plain {
        differs(what(), &format!("{ours:?}"), &format!("{plain:?}"));
    }
}

/// Two records that are alike, one of each side.
struct Pair<C: Call> {
    ours: C::Of<Ours>,
    plain: C::Of<Plain>,
}

impl<C: Call> Pair<C> {
    fn of(record: &C::Plain) -> Pair<C> {
        Pair { ours: Record::of(record), plain: Record::of(record) }
    }

    /// Makes a call on both sides; they give the same answer and leave the same record, which is that of before where
    /// the call is refused.
    fn call(&mut self, compared: &mut Compared, call: &C) {
        let before = self.plain.told();
        let what = |part: &str| format!("the {part} of {call:?} on {before:?}");
        let ours = call.make::<Ours>(&mut self.ours);
        let plain = call.make::<Plain>(&mut self.plain);
        compared.answer(|| what("answer"), ours, plain);
        same(|| what("record"), self.ours.told(), self.plain.told());
    }
}

/// A call without a record, on both sides.
macro_rules! compare_call {
    ($compared:expr, $call:ident($($argument:expr),*)) => {
        $compared.answer(
            || format!(concat!("the answer of ", stringify!($call), " to {:?}"), ($($argument,)*)),
            told(Ours::$call($($argument),*)),
            told(Plain::$call($($argument),*)),
        )
    };
}

/// Floats around each half hundredth and each end, NaN, the infinities, and a million of any bits.
fn compare_hundredths(compared: &mut Compared) {
    let dice = Dice::new(11);
    let random = (0..1_000_000).map(|_| dice.word());
    let mut before = 0.0;
    for x in turning_bits().into_iter().chain(random).map(f32::from_bits) {
        compare_call!(compared, level_to_hundredths(x));
        compare_call!(compared, quality_to_hundredths(x));
        compare_call!(compared, burst_to_hundredths(x, before));
        compare_call!(compared, burst_to_hundredths(before, x));
        before = x;
    }
}

/// Every hundredth in and around both ranges, and a million of any.
fn compare_floats(compared: &mut Compared) {
    let dice = Dice::new(12);
    let random = (0..1_000_000).map(|_| dice.word() as i32);
    for h in (-20_000..=10_000).chain([i32::MIN, i32::MAX]).chain(random) {
        compare_call!(compared, level_to_float(h));
        compare_call!(compared, quality_to_float(h));
        compare_call!(compared, level_read_back(h));
        compare_call!(compared, quality_read_back(h));
    }
}

/// Whole sweeps from a fresh one, with calls that are refused among them.
fn compare_sweeps(compared: &mut Compared) {
    let dice = Dice::new(13);
    for _ in 0..10 {
        let mut pair = Pair::of(&Sweep::fresh());
        while let Ok(Some(next)) = Plain::next(&pair.plain) {
            pair.call(compared, &made_up::sweep_call(&dice, next));
        }
        for call in [SweepCall::Next, SweepCall::Counts, SweepCall::Check] {
            pair.call(compared, &call);
        }
    }
}

/// Every call on sweeps that are damaged.
fn compare_damaged_sweeps(compared: &mut Compared) {
    let dice = Dice::new(14);
    for round in 0..40 {
        let sweep = made_up::sweep(&dice, [0, 1, 4, 7, 8][round % 5], [8, 7, 4, 1][round % 4], -15_000, 0);
        for _ in 0..200 {
            let mut pair = Pair::of(&made_up::damaged_sweep(&dice, &sweep));
            for call in [
                SweepCall::Check,
                SweepCall::Next,
                SweepCall::Counts,
                SweepCall::Choose { margin: made_up::margin(&dice), outcomes: made_up::outcomes(&dice, 3) },
                SweepCall::File(0, made_up::burst(&dice)),
                SweepCall::File(dice.below(1_090) as u16, made_up::burst(&dice)),
            ] {
                pair.call(compared, &call);
            }
        }
    }
}

/// Choices over sweeps of many and of few levels, with outcome bytes of every kind mixed, strings and margins that are
/// none, and sweeps that lack a channel.
fn compare_choices(compared: &mut Compared) {
    let dice = Dice::new(15);
    for round in 0..60 {
        // Few levels make many equals.
        let low = [-15_000, -9_100, -9_005, -1, -6_010][round % 5];
        let high = low + [15_000, 300, 3, 1, 6_010][round % 5];
        let mut sweep = made_up::sweep(&dice, 8, [8, 7, 4, 1, 0, 2][round % 6], low, high);
        if round % 10 == 9 {
            sweep.visited[16] &= !(1 << 62);
            sweep.heard[16] &= !(1 << 62);
            sweep.levels[1_086] = 0;
        }
        let mut pair = Pair::of(&sweep);
        for _ in 0..40 {
            // How many channels are open, 0 or 1.
            let mut outcomes = made_up::outcomes(&dice, dice.one_of(&[1, 3, 20, 300, 2_000, 100_000]));
            if dice.once_in(8) {
                outcomes[dice.below(CHANNELS as u32) as usize] = dice.one_of(&[5, 6, 7, 255]);
            }
            if dice.once_in(8) {
                outcomes.resize(dice.one_of(&[0, 1, CHANNELS - 1, CHANNELS + 1]), 0);
            }
            pair.call(compared, &SweepCall::Choose { margin: made_up::margin(&dice), outcomes });
        }
    }
}

/// Watches from a fresh one, with calls that are refused among them; now and then every call on a damaged copy.
fn compare_watches(compared: &mut Compared) {
    let dice = Dice::new(16);
    for _ in 0..20 {
        let mut pair = Pair::of(&Watch::fresh());
        for _ in 0..20_000 {
            pair.call(compared, &made_up::watch_call(&dice, &pair.plain));
            if dice.once_in(8) {
                let damaged = made_up::damaged_watch(&dice, &pair.plain);
                for call in made_up::watch_calls(&dice) {
                    Pair::of(&damaged).call(compared, &call);
                }
            }
        }
    }
}

/// New beams with every list of a few channels, and with some that are too long, on watches and on an idle one.
fn compare_beams(compared: &mut Compared) {
    let lists = made_up::every_list(&Dice::new(19));
    for (calls, serving) in made_up::before_beams() {
        let mut pair = Pair::of(&Watch::fresh());
        for call in &calls {
            pair.call(compared, call);
        }
        for list in &lists {
            Pair::of(&pair.plain).call(compared, &WatchCall::NewBeam(serving, list.clone()));
        }
    }
}

/// Verdicts and means of every depth where sums are equal, or apart by a hysteresis exactly; then each call, a filing
/// where the oldest level goes among them.
fn compare_close_watches(compared: &mut Compared) {
    let dice = Dice::new(18);
    for _ in 0..20_000 {
        let mut pair = Pair::of(&made_up::close_watch(&dice));
        for hysteresis in [0, 99, 100, 101, 200] {
            pair.call(compared, &WatchCall::Verdict(hysteresis));
        }
        for channel in 0..9 {
            pair.call(compared, &WatchCall::Ask(channel));
        }
        for call in made_up::watch_calls(&dice) {
            pair.call(compared, &call);
        }
    }
}

/// Starts, and steps on valid and damaged records, with valid and damaged parameters, codes and SQI.
fn compare_power(compared: &mut Compared) {
    let dice = Dice::new(17);
    for _ in 0..50_000 {
        let p = made_up::parameters(&dice);
        let (ours, plain) = (Ours::start_power(&p), Plain::start_power(&p));
        let what = || format!("the power start with {p:?}");
        compared.answer(what, told(ours.map(drop)), told(plain.map(drop)));
        same(what, ours.map(|record| record.told()), plain);
        let started = plain.ok().filter(|_| dice.once_in(3));
        let mut pair: Pair<PowerCall> = Pair::of(&started.unwrap_or_else(|| made_up::power_record(&dice)));
        for _ in 0..20 {
            let p = if dice.once_in(3) { made_up::parameters(&dice) } else { p };
            pair.call(compared, &made_up::power_call(&dice, p));
        }
    }
}

/// Compares all calls.
pub fn compare_calls(compared: &mut Compared) {
    compare_hundredths(compared);
    compare_floats(compared);
    compare_sweeps(compared);
    compare_damaged_sweeps(compared);
    compare_choices(compared);
    compare_watches(compared);
    compare_beams(compared);
    compare_close_watches(compared);
    compare_power(compared);
}
