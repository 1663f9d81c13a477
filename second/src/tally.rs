//! How many answers of each kind there are, so that the coverage of a session can be seen.

use crate::lines::next_line;
use std::collections::BTreeMap;
use std::io::{BufRead, Result, Write};

/// The kind of an answer: its first word, with the second for `refused N` and `no beam`, and with `at` for a refusal
/// that tells a place, whichever place it is.
pub fn kind(answer: &str) -> String {
    let words: Vec<&str> = answer.split(' ').collect();
    match words[..] {
        ["refused", number, "at", ..] => format!("refused {number} at"),
        ["refused" | "no", second, ..] => format!("{} {second}", words[0]),
        _ => words[0].to_string(),
    }
}

/// Reads answers and writes each kind with its number, by the kind's name, and the number of all.
pub fn tally(input: &mut impl BufRead, output: &mut impl Write) -> Result<()> {
    let mut counts: BTreeMap<String, u64> = BTreeMap::new();
    let mut line = Vec::new();
    while next_line(input, &mut line)? {
        *counts.entry(kind(&String::from_utf8_lossy(&line))).or_default() += 1;
    }
    for (kind, count) in &counts {
        writeln!(output, "{kind}: {count}")?;
    }
    writeln!(output, "all: {}", counts.values().sum::<u64>())?;
    output.flush()
}

#[cfg(test)]
mod tests {
    use super::*;

    #[test]
    fn kinds_are_counted() {
        let answers = "accepted\nrefused 1\nno beam tried 2\naccepted\nrefused 7\nmove 5\nerror line 9\n";
        let mut written = Vec::new();
        tally(&mut answers.as_bytes(), &mut written).unwrap();
        let expected = "accepted: 2\nerror: 1\nmove: 1\nno beam: 1\nrefused 1: 1\nrefused 7: 1\nall: 7\n";
        assert_eq!(String::from_utf8(written).unwrap(), expected);
    }

    #[test]
    fn a_refusal_with_a_place_is_one_kind_for_all_places() {
        for (answer, expected) in [
            ("refused 1", "refused 1"), ("refused 11", "refused 11"), ("refused 12 at 0", "refused 12 at"),
            ("refused 12 at 5", "refused 12 at"), ("refused 13 at 1", "refused 13 at"),
        ] {
            assert_eq!(kind(answer), expected);
        }
    }
}
