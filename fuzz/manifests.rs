//! The texts of the pen bench: manifests, names in them, and the lines of pens.

use crate::random::Random;

/// Bytes that are not UTF-8: a byte that goes on alone, two bytes that begin, forms that are too long, surrogates, numbers over 0x10ffff, bytes that are
/// never there, and letters that are cut short.
const FAULTS: [&[u8]; 30] = [
    b"\x80",
    b"\xbf",
    b"\xe5",
    b"\xc3\xc3",
    b"\xc3a",
    b"\xc0\x80",
    b"\xc0\xaf",
    b"\xc1\xbf",
    b"\xe0\x80\x80",
    b"\xe0\x83\xa5",
    b"\xe0\x9f\xbf",
    b"\xed\xa0\x80",
    b"\xed\xaf\xbf",
    b"\xed\xbf\xbf",
    b"\xf0\x80\x83\xa5",
    b"\xf0\x8f\xbf\xbf",
    b"\xf4\x90\x80\x80",
    b"\xf4\xbf\xbf\xbf",
    b"\xf5\x80\x80\x80",
    b"\xf7\xbf\xbf\xbf",
    b"\xf8\x88\x80\x80\x80",
    b"\xfe",
    b"\xff",
    b"\xc3",
    b"\xe2",
    b"\xe2\x98",
    b"\xef\xbf",
    b"\xf0\x9f",
    b"\xf0\x9f\x90",
    b"\xf4\x8f\xbf",
];

/// Letters that no single byte stands for.
const STRANGERS: [char; 13] = [
    '\0',
    '\u{100}',
    '\u{101}',
    '\u{1e5}',
    '\u{7ff}',
    '\u{800}',
    '\u{fff}',
    '\u{d7ff}',
    '\u{e000}',
    '\u{ffff}',
    '\u{10000}',
    '\u{1f41f}',
    '\u{10ffff}',
];

/// Letters at the edges of those that one byte stands for.
const EDGES: [char; 8] = [
    '\u{1}', '\t', '\r', '\u{7f}', '\u{80}', '\u{bf}', '\u{c0}', '\u{ff}',
];

/// What is no number.
const JUNK: [&[u8]; 14] = [
    b"",
    b" ",
    b"-",
    b"x",
    b"0x7",
    b"1,000",
    b"1_0",
    b"7.",
    b"/",
    b":",
    b"\t",
    b"\0",
    b"\xd9\xa7",
    b"\xef\xbc\x97",
];

/// The numbers of one bench: few, some of which differ only in a digit or in high bits.
pub fn numbers(random: &mut Random) -> Vec<u64> {
    let base = match random.below(4) {
        0 => random.below(10),
        1 => random.below(1_000),
        2 => random.below(1_000_000_000),
        _ => random.pick(&[0, 9, 10, 99_999_999, 100_000_000, 999_999_999]),
    } as u64;
    let near = [
        base,
        base,
        base + 1,
        10 * base,
        base / 10,
        base + 256,
        base + 65_536,
        base ^ 1,
    ];
    let count = 1 + random.below(near.len());
    let numbers = (0..count).map(|_| random.pick(&near) % 1_000_000_000);
    numbers.collect()
}

/// A manifest: mostly of few lines, sometimes of hundreds. Names are sometimes as long as there is room in RAM.
pub fn manifest(random: &mut Random, numbers: &[u64], room: usize) -> Vec<u8> {
    let count = match random.below(50) {
        0..=4 => 0,
        5..=34 => 1 + random.below(8),
        35..=47 => 9 + random.below(32),
        _ => 100 + random.below(400),
    };
    let end: &[u8] = random.weighted(&[(6, b"\n"), (1, b"\r\n"), (1, b"\n\n")]);
    let mut text = Vec::new();
    for _ in 0..count {
        text.extend(line(random, numbers, room));
        text.extend(end);
    }
    if random.percent(35) && !text.is_empty() {
        text.truncate(text.len() - end.len());
    }
    text
}

/// A line of a manifest: seldom one that counts for nothing.
fn line(random: &mut Random, numbers: &[u64], room: usize) -> Vec<u8> {
    let number = match random.below(3) {
        0 => random.below(1_000_000_000) as u64,
        _ => random.pick(numbers),
    };
    let (digits, name) = (digits(random, number), name(random, room));
    let between: &[u8] =
        random.weighted(&[(40, b"\t"), (1, b"\t\t"), (1, b" "), (1, b" \t"), (1, b"")]);
    match random.below(30) {
        0 => name,
        1 => [random.pick(&JUNK), between, &name].concat(),
        2 => digits,
        _ => [&digits, between, &name].concat(),
    }
}

/// A number's digits, often with zeros before them, so that there are up to nine; seldom what is no number.
fn digits(random: &mut Random, number: u64) -> Vec<u8> {
    if random.percent(8) {
        return odd_digits(random, number);
    }
    let width = random.weighted(&[(6, 0), (1, 2), (1, 3), (1, 8), (3, 9)]);
    format!("{number:0width$}").into_bytes()
}

/// A number with too many zeros before it, with something beside it, or another one of ten digits that is the same modulo a power of two.
fn odd_digits(random: &mut Random, number: u64) -> Vec<u8> {
    let digits = number.to_string().into_bytes();
    match random.below(6) {
        0 => format!("{number:010}").into_bytes(),
        1 => format!("{number:011}").into_bytes(),
        2 => {
            let front: &[u8] = random.pick(&[b"+", b"-", b" ", b"\t", b"\r", b"x"]);
            [front, &digits].concat()
        }
        3 => {
            let end: &[u8] = random.pick(&[b" ", b"\r", b"\r", b"\t", b"\n", b".", b"\0"]);
            [&digits, end].concat()
        }
        4 => (number + random.pick(&[1 << 31, 1 << 32, 10_000_000_000]))
            .to_string()
            .into_bytes(),
        _ => [&digits[..], random.pick(&JUNK), &digits].concat(),
    }
}

/// A pen's line: mostly a number that a line of the manifests begins with, as it stands there or written otherwise.
pub fn pen(random: &mut Random, manifests: [&[u8]; 2]) -> Vec<u8> {
    let full: Vec<&[u8]> = manifests
        .into_iter()
        .filter(|text| !text.is_empty())
        .collect();
    match random.below(20) {
        0 => random.pick(&JUNK).to_vec(),
        1 => random_digits(random),
        2..=18 if !full.is_empty() => {
            let manifest = random.pick(&full);
            let front = front(manifest, random.below(manifest.len()));
            match number(front) {
                Some(number) if random.percent(70) => digits(random, number),
                _ => front.to_vec(),
            }
        }
        _ => {
            let number = random.below(1_000_000_000) as u64;
            digits(random, number)
        }
    }
}

/// The number that a text is, if it is one, with blanks beside it or without; nine digits of it.
fn number(text: &[u8]) -> Option<u64> {
    let number: u64 = std::str::from_utf8(text).ok()?.trim().parse().ok()?;
    Some(number % 1_000_000_000)
}

/// No digit to eleven.
fn random_digits(random: &mut Random) -> Vec<u8> {
    let count = random.below(12);
    (0..count).map(|_| b'0' + random.byte() % 10).collect()
}

/// The line around a place in a text, up to its first tab.
fn front(text: &[u8], place: usize) -> &[u8] {
    let before = text[..place].iter().rposition(|byte| *byte == b'\n');
    let line = &text[before.map_or(0, |newline| newline + 1)..];
    let end = line.iter().position(|byte| [b'\t', b'\n'].contains(byte));
    &line[..end.unwrap_or(line.len())]
}

/// A name: mostly one that has a byte for each letter.
fn name(random: &mut Random, room: usize) -> Vec<u8> {
    let mut name = letters(random);
    match random.below(30) {
        0 => name.clear(),
        1 => insert(random, &mut name, Part::Fault),
        2 => name.extend(random.pick(&FAULTS)),
        3 | 4 => insert(random, &mut name, Part::Stranger),
        5 => {
            insert(random, &mut name, Part::Stranger);
            insert(random, &mut name, Part::Fault);
        }
        6 => {
            let letters = (room + 2).saturating_sub(random.below(5));
            name = random.pick(&["x", "å"]).repeat(letters).into_bytes();
        }
        7 => name.extend((0..random.below(4)).map(|_| random.byte())),
        _ => {}
    }
    name
}

/// Letters that have one byte each.
fn letters(random: &mut Random) -> Vec<u8> {
    let letter = |random: &mut Random| match random.below(6) {
        0 => random.pick(&EDGES),
        1 | 2 => char::from(0x80 | random.byte()),
        _ => char::from(b'a' + random.byte() % 26),
    };
    let count = random.below(9);
    let text: String = (0..count).map(|_| letter(random)).collect();
    text.into_bytes()
}

/// What a name may have that has no byte of its own.
enum Part {
    Fault,
    Stranger,
}

/// Puts such a part at some place in a name.
fn insert(random: &mut Random, name: &mut Vec<u8>, part: Part) {
    let part = match part {
        Part::Fault => random.pick(&FAULTS).to_vec(),
        Part::Stranger => random.pick(&STRANGERS).to_string().into_bytes(),
    };
    let place = random.below(name.len() + 1);
    name.splice(place..place, part);
}
