//! The made-up evenings that are timed. The same code makes the calls of both sides; it tells every answer, first to be
//! compared, then into a checksum while the time is taken. Inputs lie ready. Between two calls nothing is known of a
//! record (`black_box`), as in an application, where a burst is waited for.

use crate::dice::Dice;
use crate::library::{told, Library, Record};
use crate::plain::{Burst, PowerParameters, PowerRecord, Sweep, Watch, CHANNELS, FIRST_SWEPT, LAST_SWEPT};
use std::fmt::Debug;
use std::hint::black_box;

/// An evening: the record that it begins with, and its calls.
pub trait Scene {
    type Plain: Clone + PartialEq + Debug;
    type Of<L: Library>: Record<Plain = Self::Plain>;

    fn begin(&self) -> Self::Plain;
    fn play<L: Library>(&self, record: &mut Self::Of<L>, tell: impl FnMut(u64));
    /// How many of the calls that the table names are made.
    fn calls(&self) -> usize;
}

/// How many inputs are prepared for a short call, and how often they are gone through.
const INPUTS: usize = 4_096;
const TURNS: usize = 25;

/// So many inputs.
fn prepared<T>(count: usize, input: impl Fn() -> T) -> Vec<T> {
    (0..count).map(|_| input()).collect()
}

/// The numbers that a scene is made of, the same for every scene and at every run.
fn scene_dice() -> Dice {
    Dice::new(21)
}

/// A level to hundredths.
pub struct ToHundredths(Vec<f32>);

impl ToHundredths {
    pub fn new() -> ToHundredths {
        let dice = scene_dice();
        ToHundredths(prepared(INPUTS, || -150.0 * (dice.word() as f32 / u32::MAX as f32)))
    }
}

impl Scene for ToHundredths {
    type Plain = ();
    type Of<L: Library> = ();

    fn begin(&self) {}

    fn play<L: Library>(&self, (): &mut (), mut tell: impl FnMut(u64)) {
        for _ in 0..TURNS {
            for &x in black_box(&self.0) {
                tell(told(L::level_to_hundredths(x)));
            }
        }
    }

    fn calls(&self) -> usize {
        TURNS * self.0.len()
    }
}

/// A level to a float.
pub struct ToFloat(Vec<i32>);

impl ToFloat {
    pub fn new() -> ToFloat {
        let dice = scene_dice();
        ToFloat(prepared(INPUTS, || dice.between(-15_000, 0)))
    }
}

impl Scene for ToFloat {
    type Plain = ();
    type Of<L: Library> = ();

    fn begin(&self) {}

    fn play<L: Library>(&self, (): &mut (), mut tell: impl FnMut(u64)) {
        for _ in 0..TURNS {
            for &h in black_box(&self.0) {
                tell(told(L::level_to_float(h)));
            }
        }
    }

    fn calls(&self) -> usize {
        TURNS * self.0.len()
    }
}

/// Heard at -64 to -124 dBm, so that all are within 60 dB, and 8 to 16 dB.
fn heard(dice: &Dice) -> Burst {
    Burst::Heard {
        level: dice.between(-124_000, -64_000) as f32 / 1_000.0,
        quality: dice.below(8_000) as f32 / 1_000.0 + 8.0,
    }
}

/// The same, one in eight missed.
fn likely(dice: &Dice) -> Burst {
    if dice.once_in(8) {
        Burst::Missed
    } else {
        heard(dice)
    }
}

/// A full sweep: next and file for each of its channels, then done and the counts.
pub struct FullSweep(Vec<Burst>);

impl FullSweep {
    pub fn new() -> FullSweep {
        let dice = scene_dice();
        FullSweep(prepared(CHANNELS, || likely(&dice)))
    }
}

impl Scene for FullSweep {
    type Plain = Sweep;
    type Of<L: Library> = L::Sweep;

    fn begin(&self) -> Sweep {
        Sweep::fresh()
    }

    fn play<L: Library>(&self, sweep: &mut L::Sweep, mut tell: impl FnMut(u64)) {
        loop {
            let next = L::next(black_box(sweep));
            tell(told(next));
            let Ok(Some(channel)) = next else { break };
            tell(told(L::file_swept(black_box(sweep), channel, self.0[usize::from(channel)])));
        }
        tell(told(L::counts(black_box(sweep))));
    }

    fn calls(&self) -> usize {
        1
    }
}

/// Choices over a finished sweep with every channel heard.
pub struct Choices {
    sweep: Sweep,
    margins: Vec<i32>,
    outcomes: [u8; CHANNELS],
}

impl Choices {
    fn new(margins: Vec<i32>, outcome: u8) -> Choices {
        let dice = scene_dice();
        let mut sweep = Sweep::fresh();
        for channel in FIRST_SWEPT..=LAST_SWEPT {
            // In range, and each channel once: it is accepted.
            let _ = sweep.file(channel, heard(&dice));
        }
        Choices { sweep, margins, outcomes: [outcome; CHANNELS] }
    }

    /// Nothing read yet, at any margin.
    pub fn usual() -> Choices {
        let dice = scene_dice();
        Choices::new(prepared(400, || dice.between(0, 6_000)), 0)
    }

    /// All read, none suitable, at the widest margin. Few calls, so that most runs are not interrupted.
    pub fn worst() -> Choices {
        Choices::new(vec![6_000; 10], 2)
    }
}

impl Scene for Choices {
    type Plain = Sweep;
    type Of<L: Library> = L::Sweep;

    fn begin(&self) -> Sweep {
        self.sweep.clone()
    }

    fn play<L: Library>(&self, sweep: &mut L::Sweep, mut tell: impl FnMut(u64)) {
        for &margin in &self.margins {
            tell(told(L::choose(black_box(sweep), margin, black_box(&self.outcomes))));
        }
    }

    fn calls(&self) -> usize {
        self.margins.len()
    }
}

/// What is called on a watch.
pub enum OnWatch {
    /// The serving channel, then its list.
    NewBeam(Vec<[u16; 7]>),
    File(Vec<(u16, Burst)>),
    Ask(Vec<u16>),
    Verdict(Vec<i32>),
}

/// Calls on a watch of seven channels that have all their levels.
pub struct Watched {
    watch: Watch,
    calls: OnWatch,
}

/// The calls of a run, the bursts that are filed before, and the depth: that of all watches before one was given at the
/// start, so that times can be compared.
const WATCH_CALLS: usize = 5_000;
const WARM_UP: usize = 210;
pub const DEPTH: usize = 15;

/// The channels of the watch.
const SEVEN: [u16; 7] = [100, 200, 300, 400, 500, 600, 700];

/// One of the seven channels.
fn watched_channel(dice: &Dice) -> u16 {
    dice.one_of(&SEVEN)
}

/// One of the seven serves, and the others are its list: each keeps its levels.
fn beam(dice: &Dice) -> [u16; 7] {
    let mut channels = SEVEN;
    channels.rotate_left(dice.below(7) as usize);
    channels
}

impl Watched {
    fn new(calls: OnWatch) -> Watched {
        let dice = scene_dice();
        let mut watch = Watch::fresh();
        let _ = watch.start(SEVEN[0], DEPTH);
        let _ = watch.new_beam(SEVEN[0], &SEVEN[1..]);
        for _ in 0..WARM_UP {
            let _ = watch.file(watched_channel(&dice), likely(&dice));
        }
        Watched { watch, calls }
    }

    pub fn new_beam() -> Watched {
        let dice = scene_dice();
        Watched::new(OnWatch::NewBeam(prepared(WATCH_CALLS, || beam(&dice))))
    }

    pub fn file() -> Watched {
        let dice = scene_dice();
        Watched::new(OnWatch::File(prepared(WATCH_CALLS, || (watched_channel(&dice), likely(&dice)))))
    }

    pub fn ask() -> Watched {
        let dice = scene_dice();
        Watched::new(OnWatch::Ask(prepared(WATCH_CALLS, || watched_channel(&dice))))
    }

    pub fn verdict() -> Watched {
        let dice = scene_dice();
        Watched::new(OnWatch::Verdict(prepared(WATCH_CALLS, || dice.between(0, 6_000))))
    }
}

impl Scene for Watched {
    type Plain = Watch;
    type Of<L: Library> = L::Watch;

    fn begin(&self) -> Watch {
        self.watch.clone()
    }

    fn play<L: Library>(&self, watch: &mut L::Watch, mut tell: impl FnMut(u64)) {
        match &self.calls {
            OnWatch::NewBeam(beams) => {
                beams.iter().for_each(|beam| tell(told(L::new_beam(black_box(watch), beam[0], &beam[1..]))))
            }
            OnWatch::File(bursts) => {
                bursts.iter().for_each(|&(channel, burst)| tell(told(L::file(black_box(watch), channel, burst))))
            }
            OnWatch::Ask(channels) => {
                channels.iter().for_each(|&channel| tell(told(L::ask(black_box(watch), channel))))
            }
            OnWatch::Verdict(all) => {
                all.iter().for_each(|&hysteresis| tell(told(L::verdict(black_box(watch), hysteresis))))
            }
        }
    }

    fn calls(&self) -> usize {
        WATCH_CALLS
    }
}

/// Power steps, of messages that are all decoded, or all not.
pub struct Steps {
    decoded: bool,
    codes: Vec<(u32, u32, i32)>,
}

impl Steps {
    pub fn new(decoded: bool) -> Steps {
        let dice = scene_dice();
        let codes = || (dice.below(64), dice.below(64), dice.between(-3_000, 4_000));
        Steps { decoded, codes: prepared(INPUTS, codes) }
    }
}

impl Scene for Steps {
    type Plain = PowerRecord;
    type Of<L: Library> = L::Power;

    fn begin(&self) -> PowerRecord {
        PowerRecord { panlast: 30, parsave: 30, panbasic: 30, increase: 0 }
    }

    fn play<L: Library>(&self, r: &mut L::Power, mut tell: impl FnMut(u64)) {
        let p = PowerParameters { sqt: 85, paninit: 30, panmin: 2, panmax: 58, gainup: 10, gaindn: 5, mestep: 3 };
        let p = &black_box(p);
        for _ in 0..TURNS {
            let codes = black_box(&self.codes).iter();
            if self.decoded {
                codes.for_each(|&(pan, par, sqi)| tell(told(L::step_decoded(r, p, pan, par, sqi))));
            } else {
                codes.for_each(|&(_, _, sqi)| tell(told(L::step_failed(r, p, sqi))));
            }
        }
    }

    fn calls(&self) -> usize {
        TURNS * self.codes.len()
    }
}

/// Every answer of a scene, and the record that it leaves.
pub fn played<L: Library, S: Scene>(scene: &S) -> (Vec<u64>, S::Plain) {
    let mut record = S::Of::<L>::of(&scene.begin());
    let mut answers = Vec::new();
    scene.play::<L>(&mut record, |answer| answers.push(answer));
    (answers, record.told())
}
