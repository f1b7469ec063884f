//! Lines that are wrong, each in one of the ways that docs/SCRIPT.md lists, made from a line that is right.

use crate::random::Random;

type Maker = fn(&mut Random, &[u8]) -> Vec<u8>;

/// Every way to be wrong, and a line that is.
pub const KINDS: [(&str, Maker); 25] = [
    ("another letter", |random, line| {
        with_letter(line, random.pick(b"ABEGHIJKLNOPQSTYZ@[?#"))
    }),
    ("a small letter", |_, line| {
        with_letter(line, line[0].to_ascii_lowercase())
    }),
    ("a letter twice", |_, line| [&line[..1], line].concat()),
    ("no letter", |_, line| line[2..].to_vec()),
    ("no space after the letter", |_, line| {
        [&line[..1], &line[2..]].concat()
    }),
    ("a letter alone", |_, line| line[..1].to_vec()),
    ("a number missing", |_, line| {
        line[..last_space(line)].to_vec()
    }),
    ("a number too many", |_, line| [line, b" 0"].concat()),
    ("17 digits", |random, line| {
        with_number(random, line, |number| format!("{number:0>17}"))
    }),
    ("an upper-case digit", |random, line| {
        let digit = char::from(random.pick(b"ABCDEF"));
        with_number(random, line, |_| format!("1{digit}"))
    }),
    ("a byte next to the digits", |random, line| {
        let byte = char::from(random.pick(b"/:`g@G"));
        with_number(random, line, |number| format!("{number}{byte}"))
    }),
    ("a sign", |random, line| {
        let sign = random.pick(&['+', '-']);
        with_number(random, line, |number| format!("{sign}{number}"))
    }),
    ("0x", |random, line| {
        with_number(random, line, |number| format!("0x{number}"))
    }),
    ("a tab", |random, line| {
        let blank = random.pick(b"\t\x0b\x0c");
        let place = space(random, line);
        [&line[..place], &[blank], &line[place + 1..]].concat()
    }),
    ("two spaces", |random, line| {
        let place = space(random, line);
        with_byte(line, place, b' ')
    }),
    ("a space at the start", |_, line| with_byte(line, 0, b' ')),
    ("a space at the end", |_, line| {
        with_byte(line, line.len(), b' ')
    }),
    ("a carriage return", |random, line| {
        let place = if random.chance(80) {
            line.len()
        } else {
            random.index(line.len())
        };
        with_byte(line, place, b'\r')
    }),
    ("nothing", |_, _| Vec::new()),
    ("a zero byte", |random, line| {
        let place = random.index(line.len() + 1);
        with_byte(line, place, 0)
    }),
    ("a high byte", |random, line| {
        let (place, byte) = (random.index(line.len() + 1), 0x80 | random.below(128) as u8);
        with_byte(line, place, byte)
    }),
    ("119 bytes", |random, line| lengthened(random, line, 119)),
    ("120 bytes", |random, line| lengthened(random, line, 120)),
    ("121 bytes", |random, line| lengthened(random, line, 121)),
    ("2,000 bytes", |random, line| lengthened(random, line, 2000)),
];

fn with_letter(line: &[u8], letter: u8) -> Vec<u8> {
    [&[letter], &line[1..]].concat()
}

fn with_byte(line: &[u8], place: usize, byte: u8) -> Vec<u8> {
    [&line[..place], &[byte], &line[place..]].concat()
}

fn last_space(line: &[u8]) -> usize {
    line.iter()
        .rposition(|&byte| byte == b' ')
        .expect("a right line has a space")
}

/// The place of one of the line's spaces.
fn space(random: &mut Random, line: &[u8]) -> usize {
    let places: Vec<usize> = (0..line.len())
        .filter(|&place| line[place] == b' ')
        .collect();
    random.pick(&places)
}

/// The line with one of its numbers written in another way.
pub fn with_number(random: &mut Random, line: &[u8], written: impl Fn(&str) -> String) -> Vec<u8> {
    let start = space(random, line) + 1;
    let length = line[start..].iter().position(|&byte| byte == b' ');
    let end = length.map_or(line.len(), |length| start + length);
    let number = String::from_utf8_lossy(&line[start..end]);
    [&line[..start], written(&number).as_bytes(), &line[end..]].concat()
}

/// The line made longer, to exactly so many bytes: by more numbers, by itself again, or by digits.
fn lengthened(random: &mut Random, line: &[u8], length: usize) -> Vec<u8> {
    let more: Vec<u8> = match random.below(3) {
        0 => b" 0".to_vec(),
        1 => [b" ", line].concat(),
        _ => b"0".to_vec(),
    };
    let mut long = line.to_vec();
    if long.len() > length - 20 {
        long.truncate(1); // what is added now is wrong even if the line nearly filled the length
    }
    long.extend(more.iter().cycle().take(length - long.len()));
    long
}

#[cfg(test)]
mod tests {
    use super::*;

    #[test]
    fn the_long_lines_have_their_lengths() {
        let mut random = Random::new(5);
        for (name, make) in KINDS {
            let length = make(&mut random, b"C 7").len();
            if let Some(bytes) = name.strip_suffix(" bytes") {
                assert_eq!(bytes.replace(',', ""), length.to_string());
            }
        }
    }

    #[test]
    fn each_kind_is_wrong() {
        let mut random = Random::new(6);
        for line in ["C 7", "X 0 1000", "W 7 50000 1000 2 2 3 ffffffffffffffff"] {
            for (name, make) in KINDS {
                for _ in 0..50 {
                    let wrong = make(&mut random, line.as_bytes());
                    assert_eq!(second::script::parse(&wrong), None, "{name}: {wrong:?}");
                    assert!(!wrong.contains(&b'\n'));
                }
            }
        }
    }
}
