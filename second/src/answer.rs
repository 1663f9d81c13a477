//! A session: its state, and the line written for each line read.

use crate::choice::{choose, Choice};
use crate::limits::CHANNEL_NUMBERS;
use crate::lines::next_line;
use crate::parse::{call, passed_over, Call, PowerCall, ReadingCall, SweepCall, WatchCall};
use crate::power::{Parameters, Power};
use crate::reading::{level_hundredths, quality_hundredths, shown_level, shown_quality};
use crate::refusal::Refusal;
use crate::sweep::Sweep;
use crate::watch::{Verdict, Watch};
use std::io::{BufRead, Result as IoResult, Write};

/// The records of a session; each call's record goes into the next call.
pub struct Session {
    pub sweep: Sweep,
    pub watch: Watch,
    outcomes: Vec<u8>,
    power: Power,
    parameters: Parameters,
}

/// What an accepted call writes that has nothing else to tell.
fn accepted() -> String {
    "accepted".to_string()
}

/// What a refused call writes: the number and, where one is told, the place.
fn refused(refusal: Refusal) -> String {
    let number = refusal.number();
    match refusal.place() {
        Some(place) => format!("refused {number} at {place}"),
        None => format!("refused {number}"),
    }
}

impl Session {
    /// Rule "at the start of a session": all is fresh, idle or zero.
    pub fn fresh() -> Session {
        Session {
            sweep: Sweep::default(),
            watch: Watch::default(),
            outcomes: vec![0; CHANNEL_NUMBERS],
            power: Power::default(),
            parameters: Parameters::default(),
        }
    }

    /// What line number `number` writes; None when it is passed over.
    pub fn answer_line(&mut self, number: u64, line: &[u8]) -> Option<String> {
        if passed_over(line) {
            return None;
        }
        let answer = match call(line) {
            None => return Some(format!("error line {number}")),
            Some(Call::Reading(call)) => answer_reading(&call),
            Some(Call::Sweep(call)) => self.answer_sweep(&call),
            Some(Call::Watch(call)) => self.answer_watch(&call),
            Some(Call::Power(call)) => self.answer_power(&call),
        };
        Some(answer.unwrap_or_else(refused))
    }

    /// The calls on the sweep, the outcome bytes and the choice.
    fn answer_sweep(&mut self, call: &SweepCall) -> Result<String, Refusal> {
        match call {
            SweepCall::Fresh => {
                self.sweep = Sweep::default();
                Ok(accepted())
            }
            SweepCall::File(channel, burst) => self.sweep.file(*channel, *burst).map(|()| accepted()),
            SweepCall::RestMissed => self.sweep.file_rest_missed().map(|()| accepted()),
            SweepCall::Next => Ok(match self.sweep.next() {
                Some(channel) => format!("next {channel}"),
                None => "done".to_string(),
            }),
            SweepCall::Counts => {
                let (visited, heard) = (self.sweep.visited_count(), self.sweep.heard_count());
                Ok(format!("visited {visited} heard {heard}"))
            }
            SweepCall::Outcome(channel, outcome) => {
                self.outcomes[usize::from(*channel)] = *outcome;
                Ok(accepted())
            }
            SweepCall::Choose(margin) => Ok(match choose(&self.sweep, *margin, &self.outcomes)? {
                Choice::Camp { channel, tried } => format!("camp {channel} tried {tried}"),
                Choice::Read { channel, tried } => format!("read {channel} tried {tried}"),
                Choice::NoBeam { tried } => format!("no beam tried {tried}"),
            }),
        }
    }

    /// The calls on the watch.
    fn answer_watch(&mut self, call: &WatchCall) -> Result<String, Refusal> {
        match call {
            WatchCall::Start(serving, depth) => self.watch.start(*serving, *depth).map(|()| accepted()),
            WatchCall::Beam(serving, list) => self.watch.new_beam(*serving, list).map(|()| accepted()),
            WatchCall::File(channel, burst) => self.watch.file(*channel, *burst).map(|()| accepted()),
            WatchCall::Ask(channel) => {
                let (count, mean) = self.watch.ask(*channel)?;
                Ok(format!("count {count} mean {mean}"))
            }
            WatchCall::Verdict(hysteresis) => Ok(match self.watch.verdict(*hysteresis)? {
                Verdict::Wait => "wait".to_string(),
                Verdict::Stay => "stay".to_string(),
                Verdict::Move(channel) => format!("move {channel}"),
            }),
        }
    }

    /// The calls of the power loop; a refused start leaves a record of all zeros.
    fn answer_power(&mut self, call: &PowerCall) -> Result<String, Refusal> {
        match call {
            PowerCall::Params(parameters) => {
                self.parameters = *parameters;
                Ok(accepted())
            }
            PowerCall::Start => {
                let (record, answer) = Power::start(&self.parameters);
                self.power = record;
                answer.map(|()| accepted())
            }
            PowerCall::Step(decoded, sqi) => {
                let sent = self.power.step(&self.parameters, *decoded, *sqi)?;
                Ok(format!("par {} pan {}", sent.par, sent.pan))
            }
        }
    }
}

/// The calls on readings, which have no record.
fn answer_reading(call: &ReadingCall) -> Result<String, Refusal> {
    match call {
        ReadingCall::Level(bits) => Ok(format!("hundredths {}", level_hundredths(*bits)?)),
        ReadingCall::Quality(bits) => Ok(format!("hundredths {}", quality_hundredths(*bits)?)),
        ReadingCall::ShowLevel(hundredths) => Ok(format!("float 0x{:08x}", shown_level(*hundredths)?)),
        ReadingCall::ShowQuality(hundredths) => Ok(format!("float 0x{:08x}", shown_quality(*hundredths)?)),
    }
}

/// Reads a session and writes its answers.
pub fn answer_all(input: &mut impl BufRead, output: &mut impl Write) -> IoResult<()> {
    let mut session = Session::fresh();
    let (mut number, mut line) = (0, Vec::new());
    while next_line(input, &mut line)? {
        number += 1;
        if let Some(answer) = session.answer_line(number, &line) {
            writeln!(output, "{answer}")?;
        }
    }
    output.flush()
}

#[cfg(test)]
mod tests {
    use super::*;

    /// The answers to a session given as text.
    fn answers(session: &[u8]) -> String {
        let mut written = Vec::new();
        answer_all(&mut &session[..], &mut written).unwrap();
        String::from_utf8(written).unwrap()
    }

    /// Checks a session given as pairs of a line and its answer.
    fn check(pairs: &[(&str, &str)]) {
        let mut session = Session::fresh();
        for (place, (line, answer)) in pairs.iter().enumerate() {
            let got = session.answer_line(place as u64 + 1, line.as_bytes());
            assert_eq!(got.as_deref(), Some(*answer), "line {}: {line}", place + 1);
        }
    }

    #[test]
    fn checked_examples_of_readings_as_a_session() {
        check(&[
            ("level -100.125", "hundredths -10013"),
            ("quality 0.125", "hundredths 12"),
            ("quality 0.375", "hundredths 37"),
            ("level -150", "hundredths -15000"),
            ("level 0xc3160001", "refused 1"),
            ("level nan", "refused 1"),
            ("level -0", "hundredths 0"),
            ("quality -0.0", "hundredths 0"),
            ("show level -15000", "float 0xc3160000"),
            ("show level 0", "float 0x00000000"),
            ("show quality 4000", "float 0x42200000"),
            ("show level 1", "refused 1"),
            ("show quality -3001", "refused 1"),
        ]);
    }

    #[test]
    fn checked_examples_of_the_choice_as_a_session() {
        check(&[
            ("choose 300", "refused 4"),
            ("sweep rest missed", "accepted"),
            ("choose 300", "no beam tried 0"),
            ("sweep fresh", "accepted"),
            ("sweep next", "next 2"),
            ("sweep file 300 heard -93 8.5", "accepted"),
            ("sweep file 200 heard -90 8.5", "accepted"),
            ("sweep file 100 heard -90 8.5", "accepted"),
            ("sweep file 100 heard nan 8.5", "refused 3"),
            ("sweep file 101 heard -90 40.01", "refused 1"),
            ("sweep file 1 heard nan nan", "refused 2"),
            ("sweep counts", "visited 3 heard 3"),
            ("sweep rest missed", "accepted"),
            ("sweep counts", "visited 1085 heard 3"),
            ("sweep next", "done"),
            ("choose 300", "read 100 tried 1"),
            ("outcome 100 2", "accepted"),
            ("outcome 200 4", "accepted"),
            ("outcome 300 1", "accepted"),
            ("choose 300", "camp 300 tried 3"),
            ("choose 299", "no beam tried 2"),
            ("choose 6001", "refused 7"),
            ("outcome 1087 6", "accepted"),
            ("choose 6001", "refused 8"),
            ("outcome 1088 0", "error line 25"),
        ]);
    }

    #[test]
    fn checked_examples_of_the_watch_as_a_session() {
        let mut session = Session::fresh();
        let mut say = |line: &str| session.answer_line(1, line.as_bytes()).unwrap();
        assert_eq!(say("start 10"), "accepted");
        assert_eq!(say("beam 10 20"), "accepted");
        assert_eq!(say("ask 20"), "count 0 mean 0");
        assert_eq!(say("file 20 heard -0.01 0"), "accepted");
        assert_eq!(say("file 20 heard -0.02 0"), "accepted");
        assert_eq!(say("ask 20"), "count 2 mean -2");
        for _ in 0..14 {
            say("file 10 heard -100 0");
            say("file 20 heard -97 0");
        }
        assert_eq!(say("verdict 299"), "wait");
        say("file 10 heard -100 0");
        say("file 20 heard -97 0");
        assert_eq!(say("verdict 300"), "stay");
        assert_eq!(say("verdict 299"), "move 20");
        assert_eq!(say("beam 20 10"), "accepted");
        assert_eq!(say("verdict 0"), "stay");
    }

    #[test]
    fn a_start_at_another_depth_as_a_session() {
        check(&[
            ("start 10 5", "accepted"),
            ("beam 10 20", "accepted"),
            ("file 10 heard -100 0", "accepted"),
            ("file 10 heard -100 0", "accepted"),
            ("file 10 heard -100 0", "accepted"),
            ("file 10 heard -100 0", "accepted"),
            ("verdict 0", "wait"),
            ("file 10 heard -101 0", "accepted"),
            ("verdict 0", "stay"),
            ("ask 10", "count 5 mean -10020"),
            ("start 10 4", "refused 7"),
            ("start 10 32", "refused 7"),
            ("start 1088 4", "refused 7"),
            ("start 1088 15", "refused 2"),
            ("start 1088", "refused 2"),
            ("start 10 256", "error line 16"),
            ("start 10 5 5", "error line 17"),
            ("file 10 heard -102 0", "accepted"),
            ("ask 10", "count 5 mean -10060"),
            ("start 20 31", "accepted"),
            ("ask 10", "refused 6"),
            ("ask 20", "count 0 mean 0"),
            ("verdict 0", "wait"),
        ]);
    }

    #[test]
    fn depth_15_by_name_answers_as_a_start_without_a_depth() {
        let rest = "\nbeam 10 20\n".to_string() + &"file 10 heard -100 0\nask 10\nverdict 0\n".repeat(17);
        let (named, unnamed) = (format!("start 10 15{rest}"), format!("start 10{rest}"));
        assert_eq!(answers(named.as_bytes()), answers(unnamed.as_bytes()));
        assert_eq!(answers(named.as_bytes()).lines().filter(|answer| *answer == "wait").count(), 14);
    }

    #[test]
    fn checked_examples_of_power_as_a_session() {
        check(&[
            ("step failed 0", "par 0 pan 0"),
            ("params 85 20 0 60 10 10 0", "accepted"),
            ("power start", "accepted"),
            ("step failed 750", "par 17 pan 20"),
            ("step failed 950", "par 22 pan 20"),
            ("params 85 30 0 60 10 10 3", "accepted"),
            ("power start", "accepted"),
            ("step 30 20 850", "par 30 pan 20"),
            ("step 30 40 850", "par 30 pan 20"),
            ("step 61 40 850", "par 30 pan 40"),
            ("step failed 850", "par 30 pan 38"),
            ("step failed 850", "par 30 pan 37"),
            ("step failed 4001", "refused 1"),
            ("step 64 0 4001", "refused 7"),
            ("params 127 0 0 60 10 10 3", "accepted"),
            ("step failed 850", "refused 7"),
            ("power start", "refused 7"),
            ("params 85 30 0 60 10 10 3", "accepted"),
            ("step failed 850", "par 0 pan 0"),
        ]);
    }

    #[test]
    fn an_idle_watch_as_a_session() {
        check(&[
            ("ask 0", "refused 6"),
            ("file 0 heard nan nan", "refused 6"),
            ("file 0 missed", "refused 6"),
            ("beam 0", "refused 6"),
            ("beam 0 1", "refused 6"),
            ("beam 0 0", "refused 14 at 0"),
            ("beam 1 0 0", "refused 13 at 1"),
            ("beam 1 0 1088", "refused 12 at 1"),
            ("beam 0 1 2 3 4 5 6", "refused 6"),
            ("beam 0 1 2 3 4 5 6 7", "refused 11"),
            ("beam 1088", "refused 2"),
            ("beam 1088 0 0", "refused 2"),
            ("verdict 0", "refused 6"),
            ("verdict -1", "refused 7"),
            ("start 1088", "refused 2"),
            ("start 1088 4", "refused 7"),
            ("start 0 32", "refused 7"),
            ("ask 0", "refused 6"),
            ("ask 1088", "refused 6"),
        ]);
    }

    #[test]
    fn faulty_lists_as_a_session() {
        check(&[
            ("start 10", "accepted"),
            ("beam 10 20 30", "accepted"),
            ("file 20 heard -90 0", "accepted"),
            ("beam 10 1 2 3 4 5 6 7", "refused 11"),
            ("beam 10 10 1088 3 3 5 6 7 8", "refused 11"),
            ("beam 10 1088", "refused 12 at 0"),
            ("beam 10 1 2 3 4 5 65535", "refused 12 at 5"),
            ("beam 10 20 30 20", "refused 13 at 2"),
            ("beam 10 0000000020 20", "refused 13 at 1"),
            ("beam 10 20 10 30", "refused 14 at 1"),
            ("beam 10 20 10 1088", "refused 14 at 1"),
            ("beam 10 20 1088 10", "refused 12 at 1"),
            ("beam 10 1088 1 2 3 4 5 6 7 8", "error line 13"),
            ("beam 10 1088 65536", "error line 14"),
            ("ask 20", "count 1 mean -9000"),
            ("ask 30", "count 0 mean 0"),
            ("ask 1", "refused 6"),
            ("beam 10 30 20 1087", "accepted"),
            ("ask 20", "count 1 mean -9000"),
        ]);
    }

    #[test]
    fn new_beams_as_a_session() {
        check(&[
            ("start 10 5", "accepted"),
            ("file 10 heard -90 0", "accepted"),
            ("beam 20 10", "accepted"),
            ("ask 10", "count 1 mean -9000"),
            ("ask 20", "count 0 mean 0"),
            ("file 20 heard -80 0", "accepted"),
            ("beam 20 10 20", "refused 14 at 1"),
            ("beam 1088 10 20 20", "refused 2"),
            ("beam 10 20", "accepted"),
            ("ask 10", "count 1 mean -9000"),
            ("beam 30 20", "accepted"),
            ("ask 10", "refused 6"),
            ("ask 20", "count 1 mean -8000"),
            ("list 10", "error line 14"),
            ("move 20", "error line 15"),
            ("beam", "error line 16"),
            ("verdict 0", "wait"),
            ("beam 10 20 30", "accepted"),
            ("ask 10", "count 0 mean 0"),
            ("ask 20", "count 1 mean -8000"),
        ]);
    }

    #[test]
    fn lines_are_counted_and_comments_write_nothing() {
        assert_eq!(answers(b""), "");
        assert_eq!(answers(b"\n\n"), "");
        let long = [b'#'; 5_000];
        assert_eq!(answers(&long), "");
        assert_eq!(answers(b"#\xff\n\nx\nsweep next\r\nsweep next"), "error line 3\nerror line 4\nnext 2\n");
    }

    #[test]
    fn a_long_line_is_an_error_and_the_rest_is_read() {
        for length in [199, 200, 201, 5_000] {
            let mut session = vec![b'0'; length];
            session.extend_from_slice(b"\nsweep next\n");
            assert_eq!(answers(&session), "error line 1\nnext 2\n");
        }
        let mut call_and_more = b"sweep next".to_vec();
        call_and_more.extend_from_slice(&[b' '; 191]);
        assert_eq!(answers(&call_and_more), "error line 1\n");
    }
}
