//! Reading a session line by line in bounded memory.

use crate::limits::LONGEST_LINE;
use std::io::{BufRead, ErrorKind, Result};

/// Reads the next line without its newline into `kept`; false at the end of the file.
/// Of a line longer than LONGEST_LINE bytes, LONGEST_LINE + 1 are kept, which shows that it is longer.
pub fn next_line(input: &mut impl BufRead, kept: &mut Vec<u8>) -> Result<bool> {
    kept.clear();
    let mut begun = false;
    loop {
        let chunk = match input.fill_buf() {
            Err(error) if error.kind() == ErrorKind::Interrupted => continue,
            chunk => chunk?,
        };
        if chunk.is_empty() {
            return Ok(begun);
        }
        begun = true;
        let newline = chunk.iter().position(|byte| *byte == b'\n');
        let part = &chunk[..newline.unwrap_or(chunk.len())];
        let room = LONGEST_LINE + 1 - kept.len();
        kept.extend_from_slice(&part[..part.len().min(room)]);
        let used = part.len() + usize::from(newline.is_some());
        input.consume(used);
        if newline.is_some() {
            return Ok(true);
        }
    }
}

#[cfg(test)]
mod tests {
    use super::*;
    use std::io::BufReader;

    fn lines(text: &[u8], buffer: usize) -> Vec<Vec<u8>> {
        let mut input = BufReader::with_capacity(buffer, text);
        let (mut all, mut kept) = (Vec::new(), Vec::new());
        while next_line(&mut input, &mut kept).unwrap() {
            all.push(kept.clone());
        }
        all
    }

    #[test]
    fn the_last_line_may_lack_its_newline() {
        for buffer in [1, 2, 3, 100] {
            assert_eq!(lines(b"", buffer), Vec::<Vec<u8>>::new());
            assert_eq!(lines(b"\n", buffer), [b""]);
            assert_eq!(lines(b"ab", buffer), [b"ab"]);
            assert_eq!(lines(b"ab\n", buffer), [b"ab"]);
            assert_eq!(lines(b"ab\n\nc", buffer), [&b"ab"[..], b"", b"c"]);
            assert_eq!(lines(b"a\r\n\0\xff", buffer), [&b"a\r"[..], b"\0\xff"]);
        }
    }

    #[test]
    fn a_long_line_is_not_kept_whole() {
        for length in [199, 200, 201, 202, 5_000] {
            let mut text = vec![b'x'; length];
            text.extend_from_slice(b"\nnext");
            let read = lines(&text, 64);
            assert_eq!(read[0].len(), length.min(201));
            assert_eq!(read[1], b"next");
        }
    }
}
