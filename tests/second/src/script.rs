//! The script program (document 01, "The script program").

use std::io::{self, BufRead, Read, Write};

use crate::call::{Answer, Call};
use crate::layout::{ENTRY_WORDS, FRAME_WORDS};

/// Frames in the table of the script program (N).
pub const TABLE_FRAMES: usize = 8;
/// Frames in the memory of the script program (M).
pub const MEMORY_FRAMES: usize = 10;
/// The longest line, without its line feed.
pub const MAX_LINE: usize = 120;

const MAX_DIGITS: usize = 16;

/// The call in a line (without its line feed), unless the line is wrong.
#[rustfmt::skip]
pub fn parse(line: &[u8]) -> Option<Call> {
    if line.len() > MAX_LINE {
        return None;
    }
    let mut fields = line.split(|&byte| byte == b' ');
    let letter = fields.next()?;
    let numbers: Vec<u64> = fields.map(parse_hex).collect::<Option<_>>()?;
    match (letter, numbers.as_slice()) {
        (b"U", &[caller, hpa, gpa, asid, kind]) =>
            Some(Call::Rmpupdate { caller, hpa, gpa, asid, kind }),
        (b"V", &[caller, gpa, hpa, kind]) =>
            Some(Call::Pvalidate { caller, gpa, hpa, kind }),
        (b"F", &[caller, hpa, leaf]) =>
            Some(Call::Pfix { caller, hpa, leaf }),
        (b"M", &[caller, hpa1, hpa2]) =>
            Some(Call::Pmerge { caller, hpa1, hpa2 }),
        (b"D", &[caller, hpa1, hpa2, asid]) =>
            Some(Call::Punmerge { caller, hpa1, hpa2, asid }),
        (b"X", &[caller, hpa]) =>
            Some(Call::Punfix { caller, hpa }),
        (b"R", &[caller, gpa, hpa, gtype, ntype, index]) =>
            Some(Call::Read { caller, gpa, hpa, gtype, ntype, index }),
        (b"W", &[caller, gpa, hpa, gtype, ntype, index, value]) =>
            Some(Call::Write { caller, gpa, hpa, gtype, ntype, index, value }),
        (b"C", &[asid]) =>
            Some(Call::Census { asid }),
        _ => None,
    }
}

/// A number of 1 to 16 lower-case hex digits.
fn parse_hex(field: &[u8]) -> Option<u64> {
    if field.is_empty() || field.len() > MAX_DIGITS {
        return None;
    }
    field.iter().try_fold(0, |number, &byte| {
        let digit = match byte {
            b'0'..=b'9' => byte - b'0',
            b'a'..=b'f' => byte - b'a' + 10,
            _ => return None,
        };
        Some(number << 4 | u64::from(digit))
    })
}

/// The line printed for a call and its answer, without its line feed.
pub fn reply(call: &Call, answer: Answer) -> String {
    format!("{} {answer}", call.letter())
}

/// Runs a whole script on an empty table and zeroed memory.
pub fn run(mut input: impl BufRead, mut output: impl Write) -> io::Result<()> {
    let mut table = [0; TABLE_FRAMES * ENTRY_WORDS];
    let mut memory = [0; MEMORY_FRAMES * FRAME_WORDS];
    let mut line = Vec::with_capacity(MAX_LINE + 1);
    while read_line(&mut input, &mut line)? {
        match parse(&line) {
            Some(call) => {
                let answer = call.make(&mut table, &mut memory);
                writeln!(output, "{}", reply(&call, answer))?;
            }
            None => writeln!(output, "?")?,
        }
    }
    output.flush()
}

/// Reads the next line without its line feed; false if there is none. Of a
/// line that is too long only the first bytes are kept, still too many.
fn read_line(input: &mut impl BufRead, line: &mut Vec<u8>) -> io::Result<bool> {
    line.clear();
    let limit = MAX_LINE as u64 + 1;
    if input.by_ref().take(limit).read_until(b'\n', line)? == 0 {
        return Ok(false);
    }
    if line.last() == Some(&b'\n') {
        line.pop();
    } else if line.len() > MAX_LINE {
        input.skip_until(b'\n')?;
    }
    Ok(true)
}

#[cfg(test)]
mod tests {
    use super::*;

    fn output(input: &[u8]) -> String {
        let mut output = Vec::new();
        // A buffer shorter than a line, so that lines come in parts.
        run(io::BufReader::with_capacity(7, input), &mut output).unwrap();
        String::from_utf8(output).unwrap()
    }

    #[test]
    fn lines_end_at_the_line_feed_alone() {
        assert_eq!(output(b""), "");
        assert_eq!(output(b"\n"), "?\n");
        assert_eq!(output(b"C 1"), "C ok 0\n");
        assert_eq!(output(b"C 1\n"), "C ok 0\n");
        assert_eq!(output(b"C 1\n\nC 0"), "C ok 0\n?\nC no 2\n");
        assert_eq!(output(b"C 1\r\nC 1\rC 1\n"), "?\n?\n");
    }

    #[test]
    fn long_lines_are_one_wrong_line() {
        let mut longest = b"W".to_vec();
        for _ in 0..7 {
            longest.extend_from_slice(b" 0000000000000000");
        }
        assert_eq!(longest.len(), MAX_LINE);
        assert_eq!(output(&longest), "W ok\n");
        let ended = [longest.as_slice(), b"\nC 1\n"].concat();
        assert_eq!(output(&ended), "W ok\nC ok 0\n");
        for extra in [1, 2, 120, 121, 1000] {
            let mut long = longest.clone();
            long.resize(MAX_LINE + extra, b'0');
            assert_eq!(output(&long), "?\n");
            long.extend_from_slice(b"\nC 1\n");
            assert_eq!(output(&long), "?\nC ok 0\n");
        }
    }

    #[test]
    fn wrong_lines() {
        for line in [
            "",
            " ",
            "C",
            "C ",
            "C  1",
            " C 1",
            "C 1 ",
            "C 1 2",
            "c 1",
            "C A",
            "C +1",
            "C 0x1",
            "C 00000000000000001",
            "CC 1",
            "C1",
            "U 0 0 0 0",
            "Z 1",
            "C\t1",
            "C g",
            "C -1",
        ] {
            assert_eq!(parse(line.as_bytes()), None, "{line:?}");
        }
        let call = Some(Call::Census { asid: 1 });
        assert_eq!(parse(b"C 0000000000000001"), call);
    }

    #[test]
    fn a_refusal_prints_its_number_alone() {
        let call = Call::Punfix { caller: 0, hpa: 0 };
        for (number, reason, line) in [(5, 3, "X no 5"), (12, 0, "X no 12")] {
            assert_eq!(reply(&call, Answer::Refused { number, reason }), line);
        }
    }

    #[test]
    fn punfix_prints_the_new_owner() {
        let call = Call::Punfix { caller: 0, hpa: 0 };
        for (asid, line) in [(0, "X ok 0"), (7, "X ok 7"), (511, "X ok 1ff")] {
            assert_eq!(reply(&call, Answer::Unfixed { asid }), line);
        }
    }

    #[test]
    fn a_call_prints_as_its_line() {
        for line in [
            "U 0 1000 50000 7 2",
            "V 7 50000 1000 2",
            "F 0 1000 3000",
            "M 0 1000 2000",
            "D 0 1000 4000 9",
            "X 0 1000",
            "R 9 60000 1000 2 1 3",
            "W 7 50000 1000 2 1 3 ffffffffffffffff",
            "C 9",
        ] {
            assert_eq!(parse(line.as_bytes()).unwrap().to_string(), line);
        }
    }
}
