//! A terminal as a program: it reads a session file on standard input, makes each call through the package `royukezan`,
//! and writes the lines that `replay` writes. docs/session-format.md has the format. First it tries records that no
//! session makes: each has to be refused with 9 and left as it was.

use royukezan::power::{Parameters, Record, Sent};
use royukezan::readings::{level_to_float, level_to_hundredths, quality_to_float, quality_to_hundredths};
use royukezan::sweep::CHANNELS;
use royukezan::{choose, Burst, Choice, Next, Refusal, Sweep, Verdict, Watch};
use std::io::{stdin, stdout, BufRead, BufWriter, Write};
use std::process::ExitCode;

/// What a terminal keeps from one call to the next.
struct Terminal {
    sweep: Sweep,
    outcomes: [u8; CHANNELS],
    watch: Watch,
    parameters: Parameters,
    power: Record,
}

impl Terminal {
    fn fresh() -> Terminal {
        Terminal {
            sweep: Sweep::fresh(),
            outcomes: [0; CHANNELS],
            watch: Watch::fresh(),
            parameters: Parameters::default(),
            power: Record::default(),
        }
    }
}

// The calls.

/// What a call writes, or its refusal; none where the words are not those of the call.
type Answer = Option<Result<String, Refusal>>;

/// Makes a call, with the words that follow its name.
type Call = fn(&mut Terminal, &[&str]) -> Answer;

/// The calls by name. `step failed` stands before `step`, which begins alike.
const CALLS: [(&[&str], Call); 20] = [
    (&["level"], |_, words| hundredths(words, level_to_hundredths)),
    (&["quality"], |_, words| hundredths(words, quality_to_hundredths)),
    (&["show", "level"], |_, words| float(words, level_to_float)),
    (&["show", "quality"], |_, words| float(words, quality_to_float)),
    (&["sweep", "fresh"], |t, words| {
        none(words)?;
        t.sweep = Sweep::fresh();
        accepted(Ok(()))
    }),
    (&["sweep", "file"], |t, words| {
        let (channel, burst) = filing(words)?;
        accepted(t.sweep.file(channel, burst))
    }),
    (&["sweep", "rest", "missed"], |t, words| {
        none(words)?;
        accepted(rest_missed(&mut t.sweep))
    }),
    (&["sweep", "next"], |t, words| {
        none(words)?;
        Some(t.sweep.next().map(next_text))
    }),
    (&["sweep", "counts"], |t, words| {
        none(words)?;
        Some(t.sweep.counts().map(|n| format!("visited {} heard {}", n.visited, n.heard)))
    }),
    (&["outcome"], |t, words| {
        let [channel, outcome] = exactly(words)?;
        let (channel, outcome): (u16, u8) = (whole(channel)?, whole(outcome)?);
        *t.outcomes.get_mut(usize::from(channel))? = outcome;
        accepted(Ok(()))
    }),
    (&["choose"], |t, words| Some(choose(&t.sweep, whole(one(words)?)?, &t.outcomes).map(choice_text))),
    (&["start"], |t, words| {
        let (serving, depth) = match words {
            [serving] => (serving, RECORDED_DEPTH),
            [serving, depth] => (serving, whole(depth)?),
            _ => return None,
        };
        accepted(t.watch.start(whole(serving)?, depth.into()))
    }),
    (&["beam"], |t, words| {
        let (serving, list) = words.split_first()?;
        let list: Option<Vec<u16>> = list.iter().map(|word| whole(word)).collect();
        accepted(t.watch.new_beam(whole(serving)?, &list.filter(|list| list.len() <= LIST_WORDS)?))
    }),
    (&["file"], |t, words| {
        let (channel, burst) = filing(words)?;
        accepted(t.watch.file(channel, burst))
    }),
    (&["ask"], |t, words| {
        let levels = t.watch.ask(whole(one(words)?)?);
        Some(levels.map(|levels| format!("count {} mean {}", levels.count, levels.mean)))
    }),
    (&["verdict"], |t, words| Some(t.watch.verdict(whole(one(words)?)?).map(verdict_text))),
    (&["params"], |t, words| {
        t.parameters = parameters(exactly(words)?)?;
        accepted(Ok(()))
    }),
    (&["power", "start"], |t, words| {
        none(words)?;
        let started = Record::start(t.parameters);
        // Refused, a start leaves a record of all zeros.
        t.power = started.unwrap_or_default();
        accepted(started.map(drop))
    }),
    (&["step", "failed"], |t, words| Some(t.power.step_failed(t.parameters, whole(one(words)?)?).map(sent_text))),
    (&["step"], |t, words| {
        let [pan, par, sqi] = exactly(words)?;
        let (pan, par, sqi) = (code(pan)?, code(par)?, whole(sqi)?);
        Some(t.power.step_decoded(t.parameters, pan, par, sqi).map(sent_text))
    }),
];

/// The depth of a start that names none: recorded sessions have such lines.
const RECORDED_DEPTH: u8 = 15;

/// How many channels the list of a line may have; one of more than 6 is refused.
const LIST_WORDS: usize = 8;

fn hundredths(words: &[&str], call: fn(f32) -> Result<i32, Refusal>) -> Answer {
    Some(call(number(one(words)?)?).map(|h| format!("hundredths {h}")))
}

fn float(words: &[&str], call: fn(i32) -> Result<f32, Refusal>) -> Answer {
    Some(call(whole(one(words)?)?).map(|x| format!("float 0x{:08x}", x.to_bits())))
}

/// Files "missed" for every channel that is not visited.
fn rest_missed(sweep: &mut Sweep) -> Result<(), Refusal> {
    while let Next::Channel(channel) = sweep.next()? {
        sweep.file_missed(channel)?;
    }
    Ok(())
}

// The texts of answers.

fn accepted(answer: Result<(), Refusal>) -> Answer {
    Some(answer.map(|()| "accepted".to_string()))
}

fn refusal_text(refusal: Refusal) -> String {
    let number = refusal.number();
    match refusal.place() {
        Some(place) => format!("refused {number} at {place}"),
        None => format!("refused {number}"),
    }
}

fn next_text(next: Next) -> String {
    match next {
        Next::Channel(channel) => format!("next {channel}"),
        Next::Done => "done".to_string(),
    }
}

fn choice_text(choice: Choice) -> String {
    match choice {
        Choice::Camp { channel, tried } => format!("camp {channel} tried {tried}"),
        Choice::Read { channel, tried } => format!("read {channel} tried {tried}"),
        Choice::NoBeam { tried } => format!("no beam tried {tried}"),
    }
}

fn verdict_text(verdict: Verdict) -> String {
    match verdict {
        Verdict::Wait => "wait".to_string(),
        Verdict::Stay => "stay".to_string(),
        Verdict::MoveTo(channel) => format!("move {channel}"),
    }
}

fn sent_text(sent: Sent) -> String {
    format!("par {} pan {}", sent.par, sent.pan)
}

// The words of a line.

fn exactly<'a, const N: usize>(words: &[&'a str]) -> Option<[&'a str; N]> {
    words.try_into().ok()
}

fn none(words: &[&str]) -> Option<()> {
    words.is_empty().then_some(())
}

fn one<'a>(words: &[&'a str]) -> Option<&'a str> {
    exactly(words).map(|[word]| word)
}

/// A whole number: an optional minus and 1 to 10 digits, in the range of its type.
fn whole<T: TryFrom<i64>>(word: &str) -> Option<T> {
    let digits = word.strip_prefix('-').unwrap_or(word);
    if !(1..=10).contains(&digits.len()) || !all_digits(digits) {
        return None;
    }
    T::try_from(word.parse().ok()?).ok()
}

/// A power code or parameter: a byte.
fn code(word: &str) -> Option<u32> {
    whole::<u8>(word).map(u32::from)
}

fn all_digits(word: &str) -> bool {
    word.bytes().all(|b| b.is_ascii_digit())
}

/// A decimal of at most 7 digits, with digits on both sides of a point.
fn decimal(word: &str) -> Option<f32> {
    let unsigned = word.strip_prefix('-').unwrap_or(word);
    let (before, after) = unsigned.split_once('.').unwrap_or((unsigned, "0"));
    let written = unsigned.bytes().filter(|b| b.is_ascii_digit()).count();
    if before.is_empty() || after.is_empty() || written > 7 {
        return None;
    }
    (all_digits(before) && all_digits(after)).then(|| word.parse().ok())?
}

/// A float by its 8 lower-case hex digits.
fn bits(hex: &str) -> Option<f32> {
    let lower_case = hex.bytes().all(|b| matches!(b, b'0'..=b'9' | b'a'..=b'f'));
    (hex.len() == 8 && lower_case).then(|| u32::from_str_radix(hex, 16).ok().map(f32::from_bits))?
}

/// A float by its bits, as a decimal, or `nan`, `inf`, `-inf`.
fn number(word: &str) -> Option<f32> {
    match (word, word.strip_prefix("0x")) {
        ("nan", _) => Some(f32::NAN),
        ("inf", _) => Some(f32::INFINITY),
        ("-inf", _) => Some(f32::NEG_INFINITY),
        (_, Some(hex)) => bits(hex),
        (_, None) => decimal(word),
    }
}

/// A channel, and what the modem gave of its burst.
fn filing(words: &[&str]) -> Option<(u16, Burst)> {
    let (channel, burst) = words.split_first()?;
    let burst = match burst {
        ["heard", level, quality] => Burst::heard(number(level)?, number(quality)?),
        ["missed"] => Burst::Missed,
        _ => return None,
    };
    Some((whole(channel)?, burst))
}

fn parameters(words: [&str; 7]) -> Option<Parameters> {
    let [sqt, paninit, panmin, panmax, gainup, gaindn, mestep] = words;
    Some(Parameters {
        sqt: code(sqt)?,
        paninit: code(paninit)?,
        panmin: code(panmin)?,
        panmax: code(panmax)?,
        gainup: code(gainup)?,
        gaindn: code(gaindn)?,
        mestep: code(mestep)?,
    })
}

// The session.

/// How many bytes a line may have, without its newline.
const LINE_BYTES: usize = 200;

/// Makes the call of a line; none where it is none of the calls.
fn answer(terminal: &mut Terminal, line: &[u8]) -> Answer {
    if line.len() > LINE_BYTES {
        return None;
    }
    let words: Vec<&str> = std::str::from_utf8(line).ok()?.split(' ').collect();
    let (name, call) = CALLS.iter().find(|(name, _)| words.starts_with(name))?;
    call(terminal, &words[name.len()..])
}

fn answer_session() -> std::io::Result<()> {
    let mut terminal = Terminal::fresh();
    let mut out = BufWriter::new(stdout().lock());
    for (line, number) in stdin().lock().split(b'\n').zip(1_u64..) {
        let line = line?;
        if line.is_empty() || line.starts_with(b"#") {
            continue;
        }
        match answer(&mut terminal, &line) {
            Some(Ok(said)) => writeln!(out, "{said}")?,
            Some(Err(refusal)) => writeln!(out, "{}", refusal_text(refusal))?,
            None => writeln!(out, "error line {number}")?,
        }
    }
    out.flush()
}

// Records that are not well formed.

/// A call on a record; its answer does not matter.
type Tried<R> = fn(&mut R) -> Result<(), Refusal>;

/// Whether each call refuses each damaged record with 9, and leaves it as it was.
fn all_refused<R: Clone + PartialEq>(sound: R, damages: &[fn(&mut R)], calls: &[Tried<R>]) -> bool {
    damages.iter().all(|damage| {
        let mut damaged = sound.clone();
        damage(&mut damaged);
        let before = damaged.clone();
        calls.iter().all(|call| call(&mut damaged) == Err(Refusal::RecordNotWellFormed) && damaged == before)
    })
}

fn damaged_sweeps_are_refused() -> bool {
    all_refused(
        Sweep::fresh(),
        &[
            |s| s.heard[1] = 1,
            |s| s.visited[0] = 1 << 1,
            |s| s.visited[16] = 1 << 63,
            |s| s.levels[100] = -1,
            |s| (s.visited[0], s.heard[0], s.levels[2]) = (1 << 2, 1 << 2, -15_001),
        ],
        &[
            |s| s.check(),
            |s| s.file_heard(0, f32::NAN, f32::NAN),
            |s| s.file_missed(0),
            |s| s.next().map(drop),
            |s| s.counts().map(drop),
            |s| choose(s, -1, &[]).map(drop),
        ],
    )
}

/// The sound one has channel 0 alone, without levels, so that it is all zero but for its first number and its depth.
fn damaged_watches_are_refused() -> bool {
    let mut sound = Watch::fresh();
    let started = sound.start(0, 15);
    let refused = all_refused(
        sound,
        &[
            |w| w.watched = 8,
            |w| w.watched = 2,
            |w| w.watched = 0,
            |w| w.depth = 0,
            |w| w.depth = 4,
            |w| w.depth = 32,
            |w| w.depth = usize::MAX,
            |w| w.tracks[0].channel = 1_088,
            |w| w.tracks[0].count = 16,
            |w| (w.depth, w.tracks[0].count) = (31, 32),
            |w| w.tracks[0].levels[0] = -1,
            |w| w.tracks[0].levels[30] = -1,
            |w| w.tracks[0].levels[31] = -1,
            |w| w.tracks[6].levels[30] = -1,
            |w| w.tracks[6].levels[31] = -1,
            |w| (w.tracks[0].count, w.tracks[0].levels[0]) = (1, i16::MIN),
            |w| (w.tracks[0].count, w.tracks[0].levels[0]) = (1, i16::MAX),
            |w| (w.depth, w.tracks[0].count, w.tracks[0].levels[31]) = (31, 31, -1),
        ],
        &[
            |w| w.check(),
            |w| w.start(1_088, 32),
            |w| w.new_beam(1_088, &[1_088]),
            |w| w.new_beam(0, &[42]),
            |w| w.file_heard(0, f32::NAN, f32::NAN),
            |w| w.file_missed(0),
            |w| w.ask(0).map(drop),
            |w| w.verdict(-1).map(drop),
        ],
    );
    started.is_ok() && refused
}

fn damaged_power_records_are_refused() -> bool {
    all_refused(
        Record::default(),
        &[
            |r| r.panlast = 61,
            |r| r.parsave = 61,
            |r| r.panbasic = u32::MAX,
            |r| r.increase = 100,
            |r| r.increase = 24_200,
        ],
        &[
            |r| r.check(),
            |r| r.step_decoded(Parameters::default(), 64, 64, i32::MAX).map(drop),
            |r| r.step_failed(Parameters { sqt: 127, ..Default::default() }, 0).map(drop),
            |r| r.after_decoded(Parameters::default(), 0, 0, 0).map(drop),
            |r| r.after_failed(Parameters::default(), 0).map(drop),
        ],
    )
}

fn main() -> ExitCode {
    let refused = damaged_sweeps_are_refused() && damaged_watches_are_refused() && damaged_power_records_are_refused();
    if !refused {
        eprintln!("modem: a record that is not well formed is not refused as it should be");
        return ExitCode::FAILURE;
    }
    if let Err(error) = answer_session() {
        eprintln!("modem: the session cannot be answered: {error}");
        return ExitCode::FAILURE;
    }
    ExitCode::SUCCESS
}
