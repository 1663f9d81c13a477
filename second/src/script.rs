//! The lines of a scene as they are made, with a session of our own beside them to aim by.

use crate::answer::Session;
use crate::dice::Dice;
use crate::limits::QUALITY_RANGE;
use crate::parse::call;
use crate::scene_faulty::faulty_line;
use crate::words::{any_float, hundredths_word};

/// Starts that are refused, whatever the watch: a channel above 1,087, a depth outside 5 to 31, or both.
const REFUSED_STARTS: [&str; 12] = [
    "start 1088", "start 1089", "start 2000", "start 65535", "start 1088 15", "start 1088 31", "start 1088 4",
    "start 65535 32", "start 0 4", "start 5 32", "start 1087 0", "start 9 255",
];

/// Beams that are refused, whatever the watch: a serving channel above 1,087; a list with over 6 channels, one above
/// 1,087, a repeat or the serving channel of the same line; or several of these.
const REFUSED_BEAMS: [&str; 18] = [
    "beam 1088", "beam 65535", "beam 1088 7 7", "beam 1088 1088", "beam 2000 1 2 3 4 5 6 7", "beam 9 1 2 3 4 5 6 7",
    "beam 9 0 1 2 3 4 5 6 7", "beam 9 1088 1 1 3 4 5 6", "beam 9 1088", "beam 9 0 65535", "beam 4 5 6 7 8 9 1088",
    "beam 7 7", "beam 0 0", "beam 6 1 2 3 4 5 6", "beam 9 7 7", "beam 0 1087 9 1087 1088", "beam 5 1088 9 9",
    "beam 5 9 9 1088",
];

/// The dice, the lines made so far, and the session that these lines lead to.
pub struct Script {
    pub dice: Dice,
    pub session: Session,
    lines: Vec<Vec<u8>>,
}

impl Script {
    /// An empty script from a seed.
    pub fn seeded(seed: u64) -> Script {
        Script { dice: Dice::seeded(seed), session: Session::fresh(), lines: Vec::new() }
    }

    /// Adds a line, now and then with an aside before it, and gives its answer, empty for a comment.
    pub fn say(&mut self, line: &str) -> String {
        if self.dice.one_in(14) {
            self.aside();
        }
        self.add(line.as_bytes().to_vec())
    }

    /// Adds a line of any bytes and gives its answer.
    pub fn add(&mut self, line: Vec<u8>) -> String {
        let answer = self.session.answer_line(0, &line).unwrap_or_default();
        self.lines.push(line);
        answer
    }

    /// The lines made since the last time.
    pub fn take_lines(&mut self) -> Vec<Vec<u8>> {
        std::mem::take(&mut self.lines)
    }

    /// A line that leaves every record as it is: a comment, a faulty line, a question or a refusal.
    fn aside(&mut self) {
        let line = match self.dice.below(11) {
            0 => b"".to_vec(),
            1 => self.comment(),
            2..=4 => self.surely_faulty(),
            5 => format!("level {}", any_float(&mut self.dice)).into_bytes(),
            6 => format!("quality {}", any_float(&mut self.dice)).into_bytes(),
            7 => self.dice.pick(&REFUSED_STARTS).as_bytes().to_vec(),
            8 => self.dice.pick(&REFUSED_BEAMS).as_bytes().to_vec(),
            9 => b"sweep next".to_vec(),
            _ => b"sweep counts".to_vec(),
        };
        self.add(line);
    }

    /// A comment of any length, at times with odd bytes.
    pub fn comment(&mut self) -> Vec<u8> {
        let length = self.dice.pick(&[0, 1, 20, 198, 199, 200, 201, 1_000]);
        let mut line = vec![b'#'];
        for _ in 0..length {
            let odd = self.dice.pick(&[0, b'\r', b'\t', 0xff, 0x80]);
            line.push(if self.dice.one_in(9) { odd } else { b'a' + self.dice.below(26) as u8 });
        }
        line
    }

    /// A line that is none of the calls.
    pub fn surely_faulty(&mut self) -> Vec<u8> {
        for _ in 0..20 {
            let line = faulty_line(&mut self.dice);
            if call(&line).is_none() {
                return line;
            }
        }
        b"unknown".to_vec()
    }

    /// A heard burst with this level; the quality is any in range.
    pub fn heard(&mut self, level: i32) -> String {
        let quality = self.dice.within(&QUALITY_RANGE);
        let (level, quality) = (hundredths_word(&mut self.dice, level), hundredths_word(&mut self.dice, quality));
        format!("heard {level} {quality}")
    }

    /// A heard burst of which at least one float is likely out of range.
    pub fn doubtful(&mut self) -> String {
        let (good, any) = (self.dice.between(-3_000, 0), any_float(&mut self.dice));
        let good = hundredths_word(&mut self.dice, good);
        match self.dice.below(3) {
            0 => format!("heard {any} {good}"),
            1 => format!("heard {good} {any}"),
            _ => format!("heard {any} {}", any_float(&mut self.dice)),
        }
    }
}
