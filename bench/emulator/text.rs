//! Listing a word and assembling a line, without strings and in one pass.

use super::mnemonics;

const CSRR: u8 = 0x03;
const CSRW: u8 = 0x04;

/// A name in a fixed number of bytes, so that it is copied without a loop, and how long it is.
#[derive(Clone, Copy)]
struct Name {
    text: [u8; 8],
    length: usize,
}

/// What stands before the number of a register and of a CSR.
const PREFIXES: [&str; 2] = ["r", "csr"];

/// Registers 0 to 15, then CSRs; with the comma and blank that follow a first operand, and as a second one.
static FIRST: [Name; 32] = names(", ");
static SECOND: [Name; 32] = names("");

/// The name with these letters behind it.
const fn with(mut name: Name, letters: &[u8]) -> Name {
    let mut index = 0;
    while index < letters.len() {
        name.text[name.length] = letters[index];
        name.length += 1;
        index += 1;
    }
    name
}

const fn names(end: &str) -> [Name; 32] {
    let empty = Name {
        text: [0; 8],
        length: 0,
    };
    let mut table = [empty; 32];
    let mut index = 0;
    while index < 32 {
        let number = index % 16;
        let mut name = with(empty, PREFIXES[index / 16].as_bytes());
        if number > 9 {
            name = with(name, b"1");
        }
        name = with(name, &[b'0' + (number % 10) as u8]);
        table[index] = with(name, end.as_bytes());
        index += 1;
    }
    table
}

/// The boundary's answer: a refusal's number, or 0 and the text's length.
#[inline(always)]
pub fn list(word: u16, out: &mut [u8]) -> u64 {
    let [opcode, operands] = word.to_le_bytes();
    let mnemonic = &mnemonics::BY_OPCODE[usize::from(opcode)];
    if mnemonic.length == 0 {
        return 10;
    }
    let first = &FIRST[usize::from(operands >> 4) + 16 * usize::from(opcode == CSRW)];
    let second = &SECOND[usize::from(operands & 15) + 16 * usize::from(opcode == CSRR)];
    let mut text = [0; 24];
    text[..8].copy_from_slice(&mnemonic.text);
    let length = mnemonic.length;
    text[length..length + 8].copy_from_slice(&first.text);
    let length = length + first.length;
    text[length..length + 8].copy_from_slice(&second.text);
    let length = length + second.length;
    match out.get_mut(..length) {
        Some(place) => {
            place.copy_from_slice(&text[..length]);
            (length as u64) << 16
        }
        None => 11,
    }
}

/// The boundary's answer: a refusal's number, or 0 and the word.
#[inline(always)]
pub fn assemble(line: &[u8]) -> u64 {
    let (mnemonic, first, second) = match three_words(line) {
        Some(words) => words,
        None => return 12,
    };
    let opcode = match mnemonics::opcode(mnemonic) {
        Some(opcode) => opcode,
        None => return 13,
    };
    let destination = if opcode == CSRW {
        csr(first)
    } else {
        register(first)
    };
    let source = if opcode == CSRR {
        csr(second)
    } else {
        register(second)
    };
    match (destination, source) {
        (Some(d), Some(s)) => u64::from(u16::from_le_bytes([opcode, d << 4 | s])) << 16,
        _ => 14,
    }
}

const BLANK: u8 = 1;
const WORD: u8 = 2;

/// Which bytes are blanks and which are of words.
static CLASSES: [u8; 256] = classes();

const fn classes() -> [u8; 256] {
    let mut table = [0; 256];
    let mut byte = 0;
    while byte < 256 {
        table[byte] = match byte as u8 {
            b' ' | b'\t' => BLANK,
            b'a'..=b'z' | b'A'..=b'Z' | b'0'..=b'9' | b'_' => WORD,
            _ => 0,
        };
        byte += 1;
    }
    table
}

/// Where the bytes of a class end, from a place on.
#[inline(always)]
fn past(line: &[u8], mut at: usize, class: u8) -> usize {
    while at < line.len() && CLASSES[usize::from(line[at])] == class {
        at += 1;
    }
    at
}

/// The mnemonic and the two operands of a line of the right shape.
#[inline(always)]
fn three_words(line: &[u8]) -> Option<(&[u8], &[u8], &[u8])> {
    let start = past(line, 0, BLANK);
    let end = past(line, start, WORD);
    let first_start = past(line, end, BLANK);
    let first_end = past(line, first_start, WORD);
    let comma = past(line, first_end, BLANK);
    if start == end
        || end == first_start
        || first_start == first_end
        || line.get(comma) != Some(&b',')
    {
        return None;
    }
    let second_start = past(line, comma + 1, BLANK);
    let second_end = past(line, second_start, WORD);
    if second_start == second_end || past(line, second_end, BLANK) != line.len() {
        return None;
    }
    let first = &line[first_start..first_end];
    Some((&line[start..end], first, &line[second_start..second_end]))
}

/// The number of a register, by its canonical name or its alias. Setting bit 5 makes letters lower case.
#[inline(always)]
fn register(name: &[u8]) -> Option<u8> {
    match *name {
        [f] if f | 0x20 == b'f' => Some(14),
        [r, ref digits @ ..] if r | 0x20 == b'r' => number(digits),
        [first, second] => match [first | 0x20, second | 0x20] {
            [b's', b'p'] => Some(11),
            [b'c', b'a'] => Some(12),
            [b'i', b'a'] => Some(13),
            [b'p', b'c'] => Some(15),
            _ => None,
        },
        _ => None,
    }
}

/// The number of a CSR.
#[inline(always)]
fn csr(name: &[u8]) -> Option<u8> {
    match *name {
        [c, s, r, ref digits @ ..] if [c | 0x20, s | 0x20, r | 0x20] == *b"csr" => number(digits),
        _ => None,
    }
}

/// A number from 0 to 15 without leading zeros.
#[inline(always)]
fn number(digits: &[u8]) -> Option<u8> {
    match *digits {
        [digit @ b'0'..=b'9'] => Some(digit - b'0'),
        [b'1', digit @ b'0'..=b'5'] => Some(digit - b'0' + 10),
        _ => None,
    }
}
