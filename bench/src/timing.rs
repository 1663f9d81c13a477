//! Times the scenes of both sides on the same inputs, in turn, and prints the table.

use crate::compare::{same, Compared};
use crate::library::{Library, Record};
use crate::ours::Ours;
use crate::plain_calls::Plain;
use crate::scenes::{played, Choices, FullSweep, Scene, Steps, ToFloat, ToHundredths, Watched, DEPTH};
use std::hint::black_box;
use std::time::Instant;

/// How often each side is timed; the best counts, since whatever else runs on the machine only adds.
const ROUNDS: u32 = 101;

/// How many copies of a record are timed together.
const COPIES: u32 = 1_000;

/// What stands under the table.
const NOTES: &str = "\
Per call, the best of ROUNDS rounds over all rows, the two sides in turn, after one round that does not count.
Ours are calls of the Rust package (host/rust), which crosses the border to the archive: a record by value is copied for
each call, and copied back after a filing, beside the copies that are made within. The plain ones are functions that are
not inlined and change their records in place. No buffer is cleared first: the inputs lie ready and are the same for
both sides, caches are warm; records are made fresh before each timed run. Mixing the answer into a checksum counts on
both sides, telling an answer of the package in the types of the plain Rust on ours. The watches have depth DEPTH. Both
sides are built for any x86-64.";

/// One side of a row: its time in ns and the checksum of its answers, and the best time so far.
struct Side {
    run: Box<dyn Fn() -> (f64, u64)>,
    best: f64,
}

/// The time of a scene on one side, and the checksum of the answers.
#[inline(never)]
fn timed<L: Library, S: Scene>(scene: &S) -> (f64, u64) {
    let mut record = S::Of::<L>::of(&scene.begin());
    let mut sum = 0_u64;
    let start = Instant::now();
    scene.play::<L>(&mut record, |answer| sum = sum.rotate_left(5) ^ answer);
    let ns = start.elapsed().as_nanos() as f64;
    (ns, black_box(sum))
}

impl Side {
    fn new<L: Library, S: Scene>(scene: &'static S) -> Side {
        Side { run: Box::new(move || timed::<L, S>(scene)), best: f64::INFINITY }
    }

    /// Times it once more; the checksum.
    fn time(&mut self) -> u64 {
        let (ns, sum) = (self.run)();
        self.best = self.best.min(ns);
        sum
    }
}

/// How a row's record goes into a call.
#[derive(Clone, Copy)]
enum Passed {
    NoRecord,
    Lent(usize),
    /// By value: its bytes, and what one copy takes in ns.
    Copied(usize, f64),
}

impl Passed {
    /// By value: as many bytes as this record has.
    fn copied<R: Record>(record: &R) -> Passed {
        Passed::Copied(size_of::<R>(), copy_ns(record))
    }

    /// Two cells of the table.
    fn cells(self) -> String {
        match self {
            Passed::NoRecord => "none | -".to_string(),
            Passed::Lent(bytes) => format!("none, {bytes} lent | -"),
            Passed::Copied(bytes, ns) => format!("{} | {}", apart(bytes as f64), shown(ns)),
        }
    }
}

pub struct Row {
    call: &'static str,
    passed: Passed,
    calls: f64,
    ours: Side,
    plain: Side,
}

impl Row {
    /// The row of a scene, once every answer of it and the record that it leaves are compared.
    fn new<S: Scene + 'static>(compared: &mut Compared, call: &'static str, passed: Passed, scene: S) -> Row {
        let ((ours, ours_left), (plain, plain_left)) = (played::<Ours, S>(&scene), played::<Plain, S>(&scene));
        for (at, (&ours, &plain)) in ours.iter().zip(&plain).enumerate() {
            compared.answer(|| format!("answer {at} of the row {call}"), ours, plain);
        }
        same(|| format!("the number of answers of the row {call}"), ours.len(), plain.len());
        same(|| format!("the record after the row {call}"), ours_left, plain_left);
        let scene: &'static S = Box::leak(Box::new(scene));
        Row {
            call,
            passed,
            calls: scene.calls() as f64,
            ours: Side::new::<Ours, S>(scene),
            plain: Side::new::<Plain, S>(scene),
        }
    }

    /// Times both sides; the answers are still the same.
    fn time(&mut self) {
        let sums = (self.ours.time(), self.plain.time());
        same(|| format!("the checksum of the row {}", self.call), sums.0, sums.1);
    }

    fn forget(&mut self) {
        self.ours.best = f64::INFINITY;
        self.plain.best = f64::INFINITY;
    }
}

/// The rows of the table, compared and not yet timed.
pub fn rows(compared: &mut Compared) -> Vec<Row> {
    let none = Passed::NoRecord;
    let sweep = Passed::copied(&royukezan::Sweep::fresh());
    let watch = Passed::copied(&royukezan::Watch::fresh());
    let lent = Passed::Lent(size_of::<royukezan::power::Record>());
    vec![
        Row::new(compared, "level to hundredths", none, ToHundredths::new()),
        Row::new(compared, "level to float", none, ToFloat::new()),
        Row::new(compared, "full sweep: 1,085 times next and file, then counts", sweep, FullSweep::new()),
        Row::new(compared, "choice, usual: nothing read yet", sweep, Choices::usual()),
        Row::new(compared, "choice, worst: all read, none suitable", sweep, Choices::worst()),
        Row::new(compared, "watch: new beam, every channel staying", watch, Watched::new_beam()),
        Row::new(compared, "watch: file", watch, Watched::file()),
        Row::new(compared, "watch: ask", watch, Watched::ask()),
        Row::new(compared, "watch: verdict", watch, Watched::verdict()),
        Row::new(compared, "power step, decoded", lent, Steps::new(true)),
        Row::new(compared, "power step, failed", lent, Steps::new(false)),
    ]
}

/// What one copy of a record takes, in ns.
fn copy_ns<R: Record>(record: &R) -> f64 {
    let once = || {
        let start = Instant::now();
        for _ in 0..COPIES {
            black_box(&black_box(record).clone());
        }
        start.elapsed().as_nanos() as f64 / f64::from(COPIES)
    };
    (0..ROUNDS).map(|_| once()).fold(f64::INFINITY, f64::min)
}

/// A whole number with its thousands apart.
fn apart(number: f64) -> String {
    let whole = format!("{number:.0}");
    let mut apart = String::new();
    for (place, digit) in whole.chars().enumerate() {
        if place > 0 && (whole.len() - place) % 3 == 0 {
            apart.push(',');
        }
        apart.push(digit);
    }
    apart
}

/// A time in ns: tenths where they say something.
fn shown(ns: f64) -> String {
    if ns < 100.0 {
        format!("{ns:.1}")
    } else {
        apart(ns)
    }
}

/// Times all rows and prints the table.
pub fn time_all(mut rows: Vec<Row>) {
    for round in 0..=ROUNDS {
        for row in &mut rows {
            row.time();
            if round == 0 {
                row.forget();
            }
        }
    }
    println!("| call | Rattle ns | plain Rust ns | ratio | record by value, bytes | one copy of it, ns |");
    println!("|---|---:|---:|---:|---:|---:|");
    for Row { call, passed, calls, ours, plain } in rows {
        let (ours, plain) = (ours.best / calls, plain.best / calls);
        println!("| {call} | {} | {} | {:.2} | {} |", shown(ours), shown(plain), ours / plain, passed.cells());
    }
    println!();
    println!("{}", NOTES.replace("ROUNDS", &ROUNDS.to_string()).replace("DEPTH", &DEPTH.to_string()));
}
