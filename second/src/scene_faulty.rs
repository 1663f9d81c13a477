//! Scenes of faulty lines: every kind of malformed line that the session format names.

use crate::dice::Dice;
use crate::parse::call;
use crate::script::Script;

/// Sound lines to be spoiled.
const SOUND: [&str; 26] = [
    "level -90.13", "quality 8.5", "level 0xc2b40000", "quality nan", "show level -9000", "show quality 850",
    "sweep fresh", "sweep file 100 heard -90 8.5", "sweep file 101 missed", "sweep rest missed", "sweep next",
    "sweep counts", "outcome 100 2", "choose 300", "start 100", "start 100 9", "beam 100 1 2 3 4 5 6", "beam 100",
    "beam 2 100 1", "file 2 heard -97.5 3", "file 2 missed", "ask 2", "verdict 300", "params 85 30 0 60 10 10 3",
    "step 20 30 850", "step failed 850",
];

/// Words that no number of the format may be, and some that only one kind may be.
const BAD_NUMBERS: [&str; 48] = [
    "+1", "5.", ".5", "-.5", "-5.", ".", "-", "--1", "1-", "1e2", "1E2", "-nan", "+nan", "NaN", "NAN", "Inf", "+inf",
    "infinity", "0X00000000", "-0x00000000", "0xC2B40000", "0xc2b4000", "0xc2b400000", "0x", "0xc2b4000g", "1.2.3",
    "12345678", "-12345678", "0.0000001", "1234567.8", "00000000001", "-00000000001", "65536", "4294967296",
    "2147483648", "-2147483649", "256", "9999999999", "-9999999999", "1,5", "1_000", "0b1", "1.0f", "'1'", "1/2", "-1",
    "18446744073709551617", "\u{663}",
];

/// Lines with a wrong number of words, or words that are none of the format's.
const WRONG_LINES: [&str; 72] = [
    "level", "level 1 2", "quality", "show", "show level", "show 5", "show level 5 5", "show power 5", "sweep",
    "sweep rest", "sweep rest missed now", "sweep fresh 1", "sweep file", "sweep file 5", "sweep file 5 heard",
    "sweep file 5 heard 1", "sweep file 5 heard 1 2 3", "sweep file 5 missed 1", "sweep next 5", "sweep done",
    "outcome", "outcome 5", "outcome 5 1 1", "outcome 1088 0", "outcome 65535 1", "outcome 5 256", "choose",
    "choose 1 2", "choose 1.5", "start", "start 1 2 3", "start 1 256", "start nan", "beam", "beam 0 1 2 3 4 5 6 7 8 9",
    "beam 1 2 3 4 5 6 7 8 9 10 11 12", "beam 1 2 x", "beam x 1 2", "beam 65536", "beam 65536 1", "beam 1 65536",
    "beam 7 7 7 7 7 7 7 7 7 7", "beam 1088 65536", "beam 1088 x", "beam 0 1 2 3 4 5 6 7 -1", "beam -1",
    "beam 1088 1 2 3 4 5 6 7 8 9", "beam list 1 2", "beam 1 list 2", "list", "list 1", "list 1 2 3 4 5 6", "list 1088",
    "list 7 7", "list 1 2 3 4 5 6 7 8 9", "move", "move 1", "move 2", "move 1 2", "move 65535", "file 5",
    "file 5 heard -90", "file 5 herd -90 5", "ask", "ask 1 2", "verdict", "verdict 0x10", "params 1 2 3 4 5 6",
    "params 1 2 3 4 5 6 7 8", "power", "power stop", "step 1 2",
];

/// More of them: letters in the other case, near misses, and lines of one byte.
const STRANGE_LINES: [&str; 24] = [
    "Level -90", "LEVEL -90", "levels -90", "leve -90", "Sweep next", "sweep Next", "START 5", "Beam 5", "BEAM 5 6",
    "beams 5", "beam5", "stop", "unknown", "x",
    " ", "  ", " #", "\t#", "\r", "step", "step failed", "step failed 1 2", "power start 1", "accepted",
];

/// A faulty line; now and then it happens to be sound.
pub fn faulty_line(dice: &mut Dice) -> Vec<u8> {
    match dice.below(10) {
        0 | 1 => dice.pick(&WRONG_LINES).as_bytes().to_vec(),
        2 => dice.pick(&STRANGE_LINES).as_bytes().to_vec(),
        3..=5 => with_bad_number(dice),
        6 | 7 => with_odd_byte(dice),
        8 => long_line(dice),
        _ => any_bytes(dice),
    }
}

/// A sound line of which one number is replaced.
fn with_bad_number(dice: &mut Dice) -> Vec<u8> {
    let sound = dice.pick(&SOUND);
    let mut words: Vec<&str> = sound.split(' ').collect();
    let starts_number = |word: &&str| word.starts_with(|c: char| c == '-' || c.is_ascii_digit());
    let places: Vec<usize> = (0..words.len()).filter(|place| starts_number(&words[*place])).collect();
    if places.is_empty() {
        words.push("1");
    } else {
        words[dice.pick(&places)] = dice.pick(&BAD_NUMBERS);
    }
    words.join(" ").into_bytes()
}

/// A sound line with a byte put in, doubled or changed: spaces, tabs, CR, NUL, bytes above 127, capitals.
fn with_odd_byte(dice: &mut Dice) -> Vec<u8> {
    let mut line = dice.pick(&SOUND).as_bytes().to_vec();
    let odd = dice.pick(&[b' ', b'\t', b'\r', 0, 0x80, 0xff, 0xc2, 0x7f, b'#', b'_']);
    let place = dice.below(line.len());
    match dice.below(7) {
        0 => line.insert(0, if odd == b'#' { b' ' } else { odd }),
        1 => line.push(odd),
        2 => line.push(b'\r'),
        3 => line.insert(place.max(1), odd),
        4 => line[place] = line[place].to_ascii_uppercase(),
        5 => match line.iter().position(|byte| *byte == b' ') {
            Some(space) => line.insert(space, b' '),
            None => line.push(b' '),
        },
        _ => match line.iter().position(|byte| *byte == b' ') {
            Some(space) => line[space] = b'\t',
            None => line.insert(0, b' '),
        },
    }
    line
}

/// A line at or above the longest that can be a call.
fn long_line(dice: &mut Dice) -> Vec<u8> {
    let length = dice.pick(&[199, 200, 201, 202, 400, 5_000]);
    let (begin, fill) = dice.pick(&[
        ("level ", b'0'),
        ("beam 1", b' '),
        ("sweep next ", b' '),
        ("ask 0", b'0'),
        ("x", b'x'),
        ("level 0x", b'0'),
        ("beam 1 ", b'1'),
        (" #", b'#'),
    ]);
    let mut line = begin.as_bytes().to_vec();
    line.resize(length, fill);
    line
}

/// Bytes of any kind other than a newline, not beginning as a comment.
fn any_bytes(dice: &mut Dice) -> Vec<u8> {
    let length = dice.between(1, 30);
    let mut line: Vec<u8> = (0..length).map(|_| dice.bits() as u8).filter(|byte| *byte != b'\n').collect();
    if matches!(line.first(), None | Some(b'#')) {
        line.insert(0, b'?');
    }
    line
}

/// Sound lines whose numbers are dressed as far as the format allows; none of them starts a watch.
const EDGE_LINES: [&str; 36] = [
    "ask -0", "ask 0000000000", "ask 0000065535", "ask 65535", "verdict -0", "verdict 0000006000",
    "verdict -2147483648", "verdict 2147483647", "verdict -0000000001", "choose -0", "level -0000.00", "level 0000000",
    "level -000090", "quality 0.00001", "quality 0.000001", "quality 9999999", "level -99.9999", "level -150.000",
    "level -150.001", "quality 40.0001", "quality 40.00000", "show level -0", "outcome 0001087 0000000000",
    "start 5 -0", "start -0 0000000032", "start 0000001088 0000000031", "beam 0000001088", "beam 0000065535 -0",
    "beam -0 00", "beam 0000000007 7", "beam 9 7 0000000007", "beam 0000001087 -0 0000000001",
    "beam 9 0000000001 2 3 4 5 0000065535", "beam 9 -0 1 2 3 4 5 0000001088", "beam 1 2 3 4 5 6 7 8 0000000009",
    "beam 0 0 0 0 0 0 0 0 0",
];

/// A run of faulty lines, comments, empty lines, and sound lines at the edge of the format.
pub fn faulty(script: &mut Script) {
    for _ in 0..script.dice.between(8, 24) {
        let line = match script.dice.below(8) {
            0 => script.comment(),
            1 => Vec::new(),
            2 => script.dice.pick(&EDGE_LINES).as_bytes().to_vec(),
            3 if script.session.watch.serving().is_some() => faulty_line(&mut script.dice),
            _ => script.surely_faulty(),
        };
        script.add(line);
    }
}

/// Every bad number as a float, a whole number, a channel and a byte, every wrong line and spoiled ones, in any order.
pub fn catalogue(script: &mut Script) {
    let mut lines: Vec<Vec<u8>> = Vec::new();
    for number in BAD_NUMBERS {
        for begin in ["level", "verdict", "ask", "outcome 5", "start 5"] {
            lines.push(format!("{begin} {number}").into_bytes());
        }
    }
    lines.extend(WRONG_LINES.iter().chain(&STRANGE_LINES).chain(&EDGE_LINES).map(|line| line.as_bytes().to_vec()));
    for _ in 0..40 {
        let line = with_odd_byte(&mut script.dice);
        if call(&line).is_none() {
            lines.push(line);
        }
    }
    script.dice.shuffle(&mut lines);
    for line in lines {
        script.add(line);
    }
}
