//! Vectors of the instruction set: the table of opcodes, the conditions, the
//! arithmetic and the names.

use super::{Digest, Random};
use crate::alu;
use crate::names;
use crate::opcode;

/// The number of words in the grid.
const GRID: usize = 160;
/// The number of words at the head of the grid, of which all pairs are shown.
const HEAD: usize = 9;

/// The first words of the grid: the edges of signed and unsigned numbers.
const EDGES: [u16; HEAD] = [
    0x0000, 0x0001, 0x0002, 0x7ffe, 0x7fff, 0x8000, 0x8001, 0xfffe, 0xffff,
];

/// Names that are close to the name of a register or a CSR, but are none.
const NEAR_MISSES: [&[u8]; 52] = [
    b"", b"r16", b"r01", b"r00", b"r1x", b"r", b"rr1", b"r99", b"r100", b"r010", b"r1_", b"r_1",
    b"_r1", b"1r", b"1", b"15", b"csr16", b"csr00", b"csr01", b"csr010", b"csr", b"csr1a", b"csrr",
    b"csrr1", b"sr1", b"r-1", b"r+1", b"r 1", b" r1", b"r1 ", b"\tr1", b"csr 1", b"s", b"p", b"c",
    b"i", b"a", b"pcc", b"fp", b"ff", b"f0", b"spp", b"xsp", b"ie", b"csp", b"csrf", b"csrsp",
    b"csrpc", b"r:", b"r/", b"r1:", b"r1/",
];

/// Names with bytes that are neither letters, digits nor underscores, some of
/// which only a careless change of case would take for letters or digits.
const ODD_BYTES: [&[u8]; 30] = [
    b"f\0",
    b"\0f",
    b"r1\0",
    b"r\x001",
    b"\0",
    b"pc\0\0",
    b"csr1\0",
    b"\0csr1",
    b"r\xe5",
    b"\xe5",
    b"\xff\xff",
    b"\xe6",
    b"\xc6",
    b"\xf21",
    b"r\xb1",
    b"\xf3\xf0",
    b"\x12\x11",
    b"R\x11",
    b"r\x11",
    b"S\x50",
    b"s\x10",
    b"p\x43",
    b"p\x03",
    b"\x53\x10",
    b"\x13\x10",
    b"\x06",
    b"&",
    b"@",
    b"[",
    b"CSR\x15",
];

/// Letters and digits of names, for pseudo-random names.
const NAME_ALPHABET: &[u8] = b"rRcCsSpPaAiIfF0123456789";

/// The words of the grid: the edges, the walking bits, their complements, then
/// pseudo-random words; each word once.
pub fn grid() -> Vec<u16> {
    let mut words = EDGES.to_vec();
    for index in 0..16 {
        push_new(&mut words, 1 << index);
    }
    for index in 0..16 {
        push_new(&mut words, !(1 << index));
    }
    let mut random = Random::new(5016);
    while words.len() < GRID {
        push_new(&mut words, random.word());
    }
    words
}

/// Appends a word that is not yet listed.
fn push_new(words: &mut Vec<u16>, word: u16) {
    if !words.contains(&word) {
        words.push(word);
    }
}

/// All names to look up.
pub fn all_names() -> Vec<Vec<u8>> {
    let mut all = known_names();
    all.extend(NEAR_MISSES.iter().map(|name| name.to_vec()));
    all.extend(ODD_BYTES.iter().map(|name| name.to_vec()));
    all.extend(long_names());
    all.extend(random_names());
    all
}

/// Every name of a register or CSR, in lower, upper and mixed case.
fn known_names() -> Vec<Vec<u8>> {
    let mut lower: Vec<String> = (0..16).map(|number| format!("r{number}")).collect();
    lower.extend((0..16).map(|number| format!("csr{number}")));
    lower.extend(names::ALIASES.iter().map(|(alias, _)| alias.to_string()));
    let mut all = Vec::new();
    for name in lower {
        for spelling in [name.clone(), name.to_uppercase(), mixed_case(&name)] {
            if !all.contains(&spelling) {
                all.push(spelling);
            }
        }
    }
    all.into_iter().map(String::into_bytes).collect()
}

/// Each second letter in upper case.
fn mixed_case(name: &str) -> String {
    let change = |(index, letter): (usize, char)| match index % 2 {
        0 => letter,
        _ => letter.to_ascii_uppercase(),
    };
    name.chars().enumerate().map(change).collect()
}

/// Long names.
fn long_names() -> Vec<Vec<u8>> {
    let mut all: Vec<Vec<u8>> = Vec::new();
    for length in [7, 8, 9, 16, 100] {
        all.push(vec![b'r'; length]);
    }
    all.push(b"registers".to_vec());
    all.push([b"r1".as_slice(), &[b'0'; 7]].concat());
    all.push([b"r1".as_slice(), &[b'0'; 40]].concat());
    all.push([b"r".as_slice(), &[b'0'; 40], b"1"].concat());
    all.push([b"csr1".as_slice(), &[b'0'; 40]].concat());
    all.push(b"sp".repeat(2));
    all.push(b"sp".repeat(30));
    all.push(b"r1".repeat(4));
    all
}

/// Pseudo-random short names, by turns of any bytes but a newline and of the
/// letters and digits of names.
fn random_names() -> Vec<Vec<u8>> {
    let mut random = Random::new(31);
    let mut all = Vec::new();
    while all.len() < 60 {
        let length = 1 + random.below(5);
        let name = match all.len() % 2 {
            0 => random.bytes(length),
            _ => random.bytes_of(NAME_ALPHABET, length),
        };
        if !name.contains(&b'\n') {
            all.push(name);
        }
    }
    all
}

/// The input: the grid, an empty line, the names.
pub fn input() -> Vec<u8> {
    let mut text = Vec::new();
    for word in grid() {
        text.extend(format!("{word:04x}\n").bytes());
    }
    text.push(b'\n');
    for name in all_names() {
        text.extend(name);
        text.push(b'\n');
    }
    text
}

/// The output for that input.
pub fn output() -> String {
    let grid = grid();
    let mut text = String::new();
    text += &opcode_lines();
    text += &condition_lines(&grid);
    text += &digest_lines(&grid);
    text += &pair_lines(&grid[..HEAD]);
    text += &shift_lines();
    text += &name_lines(&all_names());
    text
}

/// A line for each opcode byte: its mnemonic and its operation.
fn opcode_lines() -> String {
    let mut text = String::new();
    for (number, entry) in opcode::table().iter().enumerate() {
        let mnemonic = entry.mnemonic.as_deref().unwrap_or("-");
        text += &format!("{number:02x} {mnemonic} {}\n", entry.operation);
    }
    text
}

/// A line for each condition: whether it holds for each word of the grid.
fn condition_lines(grid: &[u16]) -> String {
    let mut text = String::new();
    for code in 0..16 {
        let mut digest = Digest::new();
        for f in grid {
            digest.absorb(u16::from(opcode::holds(code, *f)));
        }
        text += &format!("cond {code:x} {}\n", digest.digits());
    }
    text
}

/// A line for each operation and destination: a digest over all sources.
fn digest_lines(grid: &[u16]) -> String {
    let mut text = String::new();
    for (name, operation) in alu::OPERATIONS {
        for d in grid {
            let mut digest = Digest::new();
            for s in grid {
                let (value, flags) = operation(*d, *s);
                digest.absorb(value);
                digest.absorb(flags);
            }
            text += &format!("{name} {d:04x} {}\n", digest.digits());
        }
    }
    text
}

/// A line for each operation and each pair of words.
fn pair_lines(words: &[u16]) -> String {
    let mut text = String::new();
    for (name, operation) in alu::OPERATIONS {
        for d in words {
            for s in words {
                let (value, flags) = operation(*d, *s);
                text += &format!("{name} {d:04x} {s:04x} {value:04x} {flags:04x}\n");
            }
        }
    }
    text
}

/// A line for each shift and count: a digest over all words.
fn shift_lines() -> String {
    let shifts = alu::OPERATIONS
        .iter()
        .filter(|(name, _)| name.starts_with("sh"));
    let mut text = String::new();
    for (name, shift) in shifts {
        for count in 0..16 {
            let mut digest = Digest::new();
            for d in 0..=0xffff {
                let (value, flags) = shift(d, count);
                digest.absorb(value);
                digest.absorb(flags);
            }
            text += &format!("{name} by {count} {}\n", digest.digits());
        }
    }
    text
}

/// A line for each name: the numbers of the register and the CSR.
fn name_lines(all: &[Vec<u8>]) -> String {
    let mut text = String::new();
    for (index, name) in all.iter().enumerate() {
        let register = number_or_dash(names::register(name));
        let csr = number_or_dash(names::csr(name));
        text += &format!("{index} {register} {csr}\n");
    }
    text
}

/// A decimal number, or `-` for none.
fn number_or_dash(number: Option<u16>) -> String {
    match number {
        Some(number) => number.to_string(),
        None => "-".to_string(),
    }
}

#[cfg(test)]
mod tests {
    use super::*;

    #[test]
    fn the_grid() {
        let words = grid();
        assert_eq!(words.len(), GRID);
        assert_eq!(words[..HEAD], EDGES);
        assert_eq!(words[HEAD], 0x0004);
        assert_eq!(words[HEAD + 13], 0xfffd);
    }

    #[test]
    fn names_have_no_newline() {
        assert!(all_names().iter().all(|name| !name.contains(&b'\n')));
    }

    #[test]
    fn near_misses_are_unknown() {
        for name in NEAR_MISSES {
            assert_eq!(names::register(name), None);
            assert_eq!(names::csr(name), None);
        }
    }
}
