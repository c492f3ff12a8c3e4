//! Pseudo-random pen lists and manifests.

use super::Random;

/// Names that firmware knows.
const NAMES: [&str; 14] = [
    "Frøya",
    "Hitra",
    "Bømlo",
    "Ålesund",
    "Sør-Arnøy",
    "Vågsøy",
    "laks",
    "laksen",
    "ørret",
    "sei",
    "ÆØÅ æøå",
    "Straße",
    "Ñandú",
    "\u{80}\u{ff}",
];

/// Bytes that are not UTF-8.
const FAULTS: [&[u8]; 12] = [
    b"\xe5",
    b"\xc3",
    b"\xa5",
    b"\xc0\x80",
    b"\xc1\xbf",
    b"\xe0\x9f\xbf",
    b"\xe2\x98",
    b"\xed\xa0\x80",
    b"\xf0\x8f\xbf\xbf",
    b"\xf4\x90\x80\x80",
    b"\xf5\x80\x80\x80",
    b"\xfe\xff",
];

/// Letters that no single byte stands for.
const STRANGERS: [&str; 7] = ["\0", "Ā", "Ł", "€", "\u{ffff}", "\u{10000}", "\u{10ffff}"];

/// Lines that have no number.
const JUNK: [&[u8]; 10] = [
    b"",
    b" ",
    b"x",
    b"+7",
    b"-7",
    b" 7",
    b"7 ",
    b"0x7",
    b"1234567890",
    b"\xff",
];

/// The pens of a night: numbers of few digits and of many.
pub fn numbers(random: &mut Random) -> Vec<u32> {
    let count = random.pick(&[3, 12, 30, 80]);
    let number = |random: &mut Random| match random.below(4) {
        0 => random.below(10) as u32,
        1 => 999_999_990 + random.below(10) as u32,
        2 => u32::from(random.word()) * 10_000 + random.below(10_000) as u32,
        _ => random.below(1_000) as u32,
    };
    (0..count).map(|_| number(random)).collect()
}

/// A pen list: all of the numbers twice in any order, others, which few
/// manifests have, and what is no number, such as one with a carriage return.
pub fn pens(random: &mut Random, numbers: &[u32]) -> Vec<u8> {
    let mut lines: Vec<Vec<u8>> = Vec::new();
    for number in numbers.iter().chain(numbers) {
        lines.push(match random.below(16) {
            0 => random.pick(&JUNK).to_vec(),
            1 => digits(random, number / 7 + 3),
            2 => [&digits(random, *number)[..], b"\r"].concat(),
            _ => digits(random, *number),
        });
    }
    random.shuffle(&mut lines);
    ended(random, lines, "\n")
}

/// A manifest: most of the numbers in any order, some of them twice, and lines
/// that count for nothing. Names have about as many letters as there is room
/// for, or fewer.
pub fn manifest(random: &mut Random, numbers: &[u32], room: usize) -> Vec<u8> {
    let end = random.pick(&["\n", "\n", "\n", "\n", "\n", "\r\n"]);
    let mut lines: Vec<Vec<u8>> = Vec::new();
    for number in numbers {
        for _ in 0..random.pick(&[0, 1, 1, 1, 1, 2]) {
            lines.push(line(random, *number, room));
        }
    }
    random.shuffle(&mut lines);
    ended(random, lines, end)
}

/// A line of a manifest.
fn line(random: &mut Random, number: u32, room: usize) -> Vec<u8> {
    let (digits, name) = (digits(random, number), name(random, room));
    match random.below(24) {
        0 => [&digits[..], b" ", &name].concat(),
        1 => [b" ", &digits[..], b"\t", &name].concat(),
        2 => [&digits[..], b" \t", &name].concat(),
        3 => [random.pick(&JUNK), b"\t", &name].concat(),
        4 => digits,
        _ => [&digits[..], b"\t", &name].concat(),
    }
}

/// A number's digits, sometimes with zeros before them, and then with all that
/// there may be, or with one more.
fn digits(random: &mut Random, number: u32) -> Vec<u8> {
    let width = random.pick(&[0, 0, 0, 0, 0, 0, 0, 2, 3, 9, 9, 10]);
    format!("{number:0width$}").into_bytes()
}

/// A name: mostly one that can be matched.
fn name(random: &mut Random, room: usize) -> Vec<u8> {
    let known = random.pick(&NAMES).as_bytes();
    match random.below(20) {
        0 => Vec::new(),
        1 => [known, random.pick(&FAULTS)].concat(),
        2 => [random.pick(&FAULTS), known, "€".as_bytes()].concat(),
        3 => [known, random.pick(&STRANGERS).as_bytes()].concat(),
        4 => [known, b"\t", known].concat(),
        5 | 6 => {
            let letters = (room + random.below(3)).saturating_sub(1);
            random.pick(&["x", "ø"]).repeat(letters).into_bytes()
        }
        _ => known.to_vec(),
    }
}

/// Lines with their ends, seldom without the last one, and seldom none.
fn ended(random: &mut Random, lines: Vec<Vec<u8>>, end: &str) -> Vec<u8> {
    if random.below(16) == 0 {
        return Vec::new();
    }
    let mut text = lines.join(end.as_bytes());
    if random.below(3) != 0 {
        text.extend(end.as_bytes());
    }
    text
}
