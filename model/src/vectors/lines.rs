//! Vectors of text: the listing of every word, and lines to assemble.

use super::{Digest, Random};
use crate::names;
use crate::opcode::{self, Kind};
use crate::text;

/// The longest line, so that its length is one byte.
const LONGEST: usize = 255;

/// Blanks at the start, after the mnemonic, before the comma, after the comma
/// and at the end.
type Spacing = [&'static str; 5];

/// The usual spacing.
const PLAIN: Spacing = ["", " ", "", " ", ""];

/// Allowed spacings.
const SPACINGS: [Spacing; 10] = [
    PLAIN,
    ["", " ", "", "", ""],
    [" ", " ", "", " ", " "],
    ["\t", "\t", "", "\t", "\t"],
    ["", "   ", " ", " ", ""],
    ["", "\t \t", "\t", "  ", ""],
    ["  \t", " ", " \t ", "\t \t", " \t  "],
    ["", " ", " ", "", ""],
    ["", "\t", "", "", " "],
    ["\t\t", "  ", "  ", "  ", ""],
];

/// Names that are no operands, though words.
const BAD_OPERANDS: [&str; 26] = [
    "r16", "r01", "r00", "r", "rr1", "r1x", "r1_", "_r1", "r_1", "1r", "r100", "r99", "x", "_",
    "0", "1", "s", "pcc", "ff", "f0", "csr", "csr16", "csr00", "csr01", "csr1a", "csrsp",
];

/// Words that are no mnemonics.
const UNKNOWN: [&str; 53] = [
    "ldxz", "nop", "push", "pop", "jmp", "call", "ret", "retix", "r1", "csr", "csr1", "0", "_",
    "l", "ldx", "ldn", "ldnn", "ldf", "ldf4", "ldnf", "ldnfis", "ldnf4", "ldf0i", "ldf0si", "ldzi",
    "ldzs", "ldisz", "ldnis", "ldiss", "ldie", "ldnie", "ldI", "ldexc", "ldb_", "ldbz", "mvis",
    "mvzis", "mvn", "mvf", "mvnf", "mvf4", "mvnnz", "mvzn", "addz", "stoz", "dec", "inc", "dec3",
    "inc0", "cmp", "illl", "_mv", "mv_",
];

/// Lines that are no three words with a comma, and a few that are close.
const MALFORMED: [&str; 60] = [
    "",
    " ",
    "\t",
    " \t \t ",
    ",",
    ",,",
    " , ",
    "\n",
    "\r\n",
    "mv",
    "mv ",
    " mv",
    "mv r1",
    "mv r1,",
    "mv r1, ",
    "mv ,",
    "mv , r2",
    "mv, r2",
    "mv,r1,r2",
    "mv, r1, r2",
    "mv ,r1, r2",
    ",mv r1, r2",
    ", mv r1, r2",
    "mv r1 r2",
    "mv r1\tr2",
    "mv r1,,r2",
    "mv r1, ,r2",
    "mv r1, r2,",
    "mv r1, r2 ,",
    "mv r1, r2, r3",
    "mv r1, r2 r3",
    "mv r1 r3, r2",
    "mv mv r1, r2",
    "mvr1,r2",
    "mvr1, r2",
    "r1, r2",
    "r1,r2",
    "mv r1; r2",
    "mv r1. r2",
    "mv r1, r2;",
    "mv r1, r2 # move",
    "mv r1, r2#",
    "#mv r1, r2",
    "a: mv r1, r2",
    "mv r1, r2\n",
    "mv r1, r2\r",
    "mv r1, r2\r\n",
    "mv r1, r2 \n",
    "\nmv r1, r2",
    "mv\nr1, r2",
    "mv\rr1, r2",
    "mv r1,\nr2",
    "mv r1\n, r2",
    "mv r1, r2\nmv r1, r2",
    "mv r1, r2\0",
    "\0mv r1, r2",
    "mv\0r1, r2",
    "mv r1\0, r2",
    "mv \u{e5}, r2",
    "mv r\u{661}, r2",
];

/// Lines with several faults.
const SEVERAL_FAULTS: [&str; 20] = [
    "foo r99 r1",
    "foo r99, r1",
    "foo r1, r2",
    "mv r99, r1",
    "mv r99 r1",
    "foo r99, r1,",
    "neg r99, r1",
    "neg r99 r1",
    "neg r1, r2\n",
    "foo csr16, csr16",
    "mv csr16, foo\n",
    "csrr r16, csr16",
    "csrr r16, r16",
    "csrw r16, csr16",
    "csrw csr1, csr1\r",
    "exchz csr1, r01",
    "mulss _, _",
    "mulss _ _",
    "ldisx csr0, csr0 ",
    "ldisx csr0, csr0 0",
];

/// Pieces for pseudo-random lines.
const PIECES: [&str; 22] = [
    " ", " ", "\t", "  ", ",", ",", ", ", "mv", "ld", "LDNZIS", "csrr", "csrw", "r1", "R15", "sp",
    "F", "csr0", "CSR15", "r16", "_", "\n", "neg",
];

/// Bytes for pseudo-random lines and changes.
const ALPHABET: &[u8] = b" \trR0123456789_,csmvldpa\n";

/// All lines to assemble.
pub fn lines() -> Vec<Vec<u8>> {
    let mut all = Vec::new();
    all.extend(valid_lines());
    all.extend(operand_lines());
    all.extend(kind_lines());
    all.extend(mnemonic_lines());
    all.extend(given_lines());
    all.extend(fault_lines());
    all.extend(swept_lines());
    all.extend(changed_lines());
    all.extend(random_lines());
    all.extend(long_lines());
    for line in &mut all {
        line.truncate(LONGEST);
    }
    all
}

/// A line of three words in a spacing.
fn line(spacing: Spacing, mnemonic: &str, first: &str, second: &str) -> Vec<u8> {
    let [start, gap, before, after, end] = spacing;
    format!("{start}{mnemonic}{gap}{first}{before},{after}{second}{end}").into_bytes()
}

/// The mnemonics that can be assembled, with the kinds of their operands.
fn mnemonics() -> Vec<(String, [Kind; 2])> {
    let mut all = Vec::new();
    for entry in opcode::table() {
        if let Some(mnemonic) = &entry.mnemonic {
            all.push((mnemonic.clone(), entry.operands));
        }
    }
    all
}

/// A pseudo-random operand of a kind, sometimes by its alias.
fn operand(random: &mut Random, kind: Kind) -> String {
    let number = random.below(16) as u16;
    if kind == Kind::Csr {
        return format!("csr{number}");
    }
    let alias = names::ALIASES.iter().find(|(_, of)| *of == number);
    match alias {
        Some((alias, _)) if random.below(3) > 0 => alias.to_string(),
        _ => format!("r{number}"),
    }
}

/// A word in lower, upper, capital or pseudo-randomly mixed case.
fn in_case(random: &mut Random, style: usize, word: &str) -> String {
    match style % 4 {
        0 => word.to_string(),
        1 => word.to_ascii_uppercase(),
        2 => word[..1].to_ascii_uppercase() + &word[1..],
        _ => word
            .chars()
            .map(|letter| either_case(random, letter))
            .collect(),
    }
}

/// A letter in one of both cases.
fn either_case(random: &mut Random, letter: char) -> char {
    match random.below(2) {
        0 => letter,
        _ => letter.to_ascii_uppercase(),
    }
}

/// A valid line for a mnemonic with pseudo-random operands and case.
fn valid_line(random: &mut Random, spacing: Spacing, entry: &(String, [Kind; 2])) -> Vec<u8> {
    let style = random.below(4);
    let mnemonic = in_case(random, style, &entry.0);
    let first = operand(random, entry.1[0]);
    let second = operand(random, entry.1[1]);
    let style = random.below(4);
    let first = in_case(random, style, &first);
    let second = in_case(random, style, &second);
    line(spacing, &mnemonic, &first, &second)
}

/// Valid lines: every mnemonic in every spacing.
fn valid_lines() -> Vec<Vec<u8>> {
    let mut random = Random::new(101);
    let mut all = Vec::new();
    for entry in mnemonics() {
        for spacing in SPACINGS {
            all.push(valid_line(&mut random, spacing, &entry));
        }
    }
    all
}

/// The names of all registers, aliases and CSRs, and names of none.
fn operand_names() -> Vec<String> {
    let mut all: Vec<String> = (0..16).map(|number| format!("r{number}")).collect();
    all.extend(names::ALIASES.iter().map(|(alias, _)| alias.to_string()));
    all.extend((0..16).map(|number| format!("csr{number}")));
    all.extend(BAD_OPERANDS.iter().map(|name| name.to_string()));
    all
}

/// Every name as the first and as the second operand beside a good one.
fn operand_lines() -> Vec<Vec<u8>> {
    let mut all = Vec::new();
    for name in operand_names() {
        for (mnemonic, first, second) in [
            ("mv", "r1", "r2"),
            ("csrr", "r3", "csr4"),
            ("csrw", "csr5", "r6"),
        ] {
            all.push(line(PLAIN, mnemonic, &name, second));
            all.push(line(PLAIN, mnemonic, first, &name));
        }
    }
    all
}

/// Every mnemonic with every pair of kinds.
fn kind_lines() -> Vec<Vec<u8>> {
    let pairs = [
        ("csr1", "csr2"),
        ("csr3", "r4"),
        ("r5", "csr6"),
        ("r7", "r8"),
    ];
    let mut all = Vec::new();
    for (mnemonic, _) in mnemonics() {
        for (first, second) in pairs {
            all.push(line(PLAIN, &mnemonic, first, second));
        }
    }
    all
}

/// The mnemonics of the source that are not implemented.
fn unimplemented_mnemonics() -> Vec<String> {
    let given = ["ldisx", "neg", "mulss", "mulsu", "mulus", "muluu"];
    let mut all: Vec<String> = given.iter().map(|name| name.to_string()).collect();
    for flag in opcode::FLAGS {
        for condition in [flag.to_string(), format!("n{flag}")] {
            all.push(format!("exch{condition}"));
            all.push(format!("ldx{condition}is"));
        }
    }
    all
}

/// Unimplemented and unknown mnemonics, with good and bad operands.
fn mnemonic_lines() -> Vec<Vec<u8>> {
    let mut words = unimplemented_mnemonics();
    words.extend(UNKNOWN.iter().map(|word| word.to_string()));
    let mut all = Vec::new();
    for word in words {
        all.push(line(PLAIN, &word, "r1", "r2"));
        all.push(line(SPACINGS[6], &word.to_ascii_uppercase(), "sp", "r2"));
        all.push(line(PLAIN, &word, "r16", "csr16"));
    }
    all
}

/// The lines that are given one by one.
fn given_lines() -> Vec<Vec<u8>> {
    let given = MALFORMED.iter().chain(SEVERAL_FAULTS.iter());
    let mut all: Vec<Vec<u8>> = given.map(|line| line.as_bytes().to_vec()).collect();
    all.push(b"mv r1, r2\xff".to_vec());
    all.push(b"\xfemv r1, r2".to_vec());
    all.push(b"mv r\xb1, r2".to_vec());
    all.push(b"\xed\xf6 r1, r2".to_vec());
    all.push(b"mv\xa0r1, r2".to_vec());
    all.push(b"mv\x0br1, r2".to_vec());
    all.push(b"mv\x0cr1, r2".to_vec());
    all
}

/// Good, unimplemented and unknown mnemonics, good and bad operands, good and
/// bad punctuation, all together.
fn fault_lines() -> Vec<Vec<u8>> {
    let operands = [["r1", "r2"], ["r16", "r2"], ["r1", "r01"], ["csr1", "csr2"]];
    let mut all = Vec::new();
    for mnemonic in ["mv", "csrr", "csrw", "neg", "foo"] {
        for [a, b] in operands {
            all.push(format!("{mnemonic} {a}, {b}").into_bytes());
            all.push(format!("{mnemonic} {a} {b}").into_bytes());
            all.push(format!("{mnemonic} {a},, {b}").into_bytes());
            all.push(format!("{mnemonic} {a}, {b} x").into_bytes());
            all.push(format!("{mnemonic} {a}, {b}\n").into_bytes());
            all.push(format!("{mnemonic},{a}, {b}").into_bytes());
            all.push(format!("{mnemonic} {a}, {b}\0").into_bytes());
        }
    }
    all
}

/// Each byte in each of four places of a valid line.
fn swept_lines() -> Vec<Vec<u8>> {
    let frames: [(&[u8], &[u8]); 4] = [
        (b"mv", b"r1, r2"),
        (b"mv r1", b", r2"),
        (b"mv r1", b"r2"),
        (b"mv r1, r2", b""),
    ];
    let mut all = Vec::new();
    for (before, after) in frames {
        for byte in 0..=255 {
            all.push([before, &[byte], after].concat());
        }
    }
    all
}

/// Valid lines with one or two pseudo-random changes.
fn changed_lines() -> Vec<Vec<u8>> {
    let mut random = Random::new(202);
    let mnemonics = mnemonics();
    let mut all = Vec::new();
    for index in 0..450 {
        let spacing = random.pick(&SPACINGS);
        let entry = &mnemonics[random.below(mnemonics.len())];
        let mut changed = valid_line(&mut random, spacing, entry);
        change(&mut random, &mut changed);
        if index % 3 == 0 {
            change(&mut random, &mut changed);
        }
        all.push(changed);
    }
    all
}

/// Replaces, removes or inserts one byte of a line that is not empty.
fn change(random: &mut Random, line: &mut Vec<u8>) {
    let place = random.below(line.len());
    let byte = match random.below(3) {
        0 => random.byte(),
        _ => random.pick(ALPHABET),
    };
    match random.below(3) {
        0 => line[place] = byte,
        1 => {
            line.remove(place);
        }
        _ => line.insert(place, byte),
    }
}

/// Pseudo-random lines: of any bytes, of the alphabet, of pieces.
fn random_lines() -> Vec<Vec<u8>> {
    let mut random = Random::new(303);
    let mut all = Vec::new();
    for index in 0..150 {
        let longest = if index % 10 == 0 { LONGEST } else { 20 };
        let length = random.below(longest + 1);
        all.push(random.bytes(length));
    }
    for index in 0..200 {
        let longest = if index % 10 == 0 { LONGEST } else { 14 };
        let length = random.below(longest + 1);
        all.push(random.bytes_of(ALPHABET, length));
    }
    for _ in 0..250 {
        let count = 4 + random.below(6);
        let pieces: Vec<&str> = (0..count).map(|_| random.pick(&PIECES)).collect();
        all.push(pieces.concat().into_bytes());
    }
    all
}

/// A line of each length from 0 to 255, by turns of one kind or another.
fn long_lines() -> Vec<Vec<u8>> {
    (0..=LONGEST).map(long_line).collect()
}

/// A line of this length (or a little more, if that is too short for it).
fn long_line(length: usize) -> Vec<u8> {
    let blanks = " \t".repeat(128);
    let blanks = &blanks[..length.saturating_sub(8)];
    let text = match length % 10 {
        0 => " ".repeat(length),
        1 => "m".repeat(length),
        2 => format!("{blanks}mv r1,r2"),
        3 => format!("mv{blanks} r1,r2"),
        4 => format!("mv r1{blanks},r2"),
        5 => format!("mv r1,{blanks}r2"),
        6 => format!("mv r1,r2{blanks}"),
        7 => format!("{}v r1,r2", "m".repeat(length.saturating_sub(7))),
        8 => format!("mv r1{},r2", "0".repeat(length.saturating_sub(8))),
        _ => format!("mv r1,r{}2", "0".repeat(length.saturating_sub(8))),
    };
    text.into_bytes()
}

/// The input: for each line its length as one byte, then its bytes.
pub fn input() -> Vec<u8> {
    let mut records = Vec::new();
    for line in lines() {
        records.push(line.len() as u8);
        records.extend(line);
    }
    records
}

/// The output for that input.
pub fn output() -> String {
    let mut text = String::new();
    text += &word_lines();
    text += &room_lines();
    text += &assembled_lines();
    text
}

/// A line for each opcode byte: a digest over all second bytes.
fn word_lines() -> String {
    let mut text = String::new();
    for opcode in 0..=255 {
        let mut digest = Digest::new();
        for second in 0..=255u16 {
            absorb_word(&mut digest, opcode + 256 * second);
        }
        text += &format!("{opcode:02x} {}\n", digest.digits());
    }
    text
}

/// Absorbs what listing a word gives and what assembling the listing gives.
fn absorb_word(digest: &mut Digest, word: u16) {
    let mut output = [0xaa; 16];
    let (number, length) = listed(text::list_into(word, &mut output));
    digest.absorb(number);
    digest.absorb(length as u16);
    digest.absorb_bytes(&output);
    let (number, word) = match number {
        0 => assembled(text::assemble(&output[..length])),
        _ => (0, 0),
    };
    digest.absorb(number);
    digest.absorb(word);
}

/// The refusal's number or 0, and the text's length or 0.
fn listed(answer: Result<usize, u16>) -> (u16, usize) {
    match answer {
        Ok(length) => (0, length),
        Err(number) => (number, 0),
    }
}

/// The refusal's number or 0, and the word or 0.
fn assembled(answer: Result<u16, u16>) -> (u16, u16) {
    match answer {
        Ok(word) => (0, word),
        Err(number) => (number, 0),
    }
}

/// A line for each room from 0 to 16 bytes: the longest text listed into it.
fn room_lines() -> String {
    let word = text::assemble(b"ldnf0is r10, r11").expect("a valid line");
    let mut text = String::new();
    for room in 0..=16 {
        let mut output = vec![0xaa; room];
        let (number, length) = listed(text::list_into(word, &mut output));
        let mut digest = Digest::new();
        digest.absorb_bytes(&output);
        text += &format!("room {room} {number} {length} {}\n", digest.digits());
    }
    text
}

/// A line for each line to assemble: the refusal's number and the word.
fn assembled_lines() -> String {
    let mut text = String::new();
    for (index, line) in lines().iter().enumerate() {
        let (number, word) = assembled(text::assemble(line));
        text += &format!("{index} {number} {word:04x}\n");
    }
    text
}

#[cfg(test)]
mod tests {
    use super::*;

    #[test]
    fn valid_lines_are_valid() {
        for line in valid_lines() {
            assert!(text::assemble(&line).is_ok());
        }
    }

    #[test]
    fn wrong_mnemonics_are_unknown() {
        for line in mnemonic_lines() {
            assert_eq!(text::assemble(&line), Err(text::BAD_MNEMONIC));
        }
    }

    #[test]
    fn malformed_lines_are_refused() {
        for line in MALFORMED {
            assert_eq!(text::assemble(line.as_bytes()), Err(text::BAD_LINE));
        }
    }

    #[test]
    fn bad_operands_are_refused() {
        for name in BAD_OPERANDS {
            let line = line(PLAIN, "mv", name, "r1");
            assert_eq!(text::assemble(&line), Err(text::BAD_OPERAND));
        }
    }

    #[test]
    fn every_answer_occurs() {
        let answers: Vec<_> = lines().iter().map(|line| text::assemble(line)).collect();
        let count = |number| answers.iter().filter(|a| **a == Err(number)).count();
        assert!(answers.iter().filter(|a| a.is_ok()).count() > 900);
        assert!(count(text::BAD_LINE) > 900);
        assert!(count(text::BAD_MNEMONIC) > 300);
        assert!(count(text::BAD_OPERAND) > 300);
    }

    #[test]
    fn every_length_occurs() {
        let all = lines();
        for length in 0..=LONGEST {
            assert!(all.iter().any(|line| line.len() == length));
        }
    }
}
