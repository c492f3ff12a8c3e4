//! Lines to assemble: right ones written in many ways, wrong ones, and others.

use crate::opcode;
use crate::random::Random;

/// Operands that are none, beside those that are.
const ODD_OPERANDS: [&str; 12] = [
    "r16", "r01", "r00", "r", "r1x", "_r1", "csr", "csr16", "csr00", "f0", "pcc", "0",
];

const ALIASES: [&str; 5] = ["sp", "ca", "ia", "f", "pc"];

/// Mnemonics that are none, beside those that are.
const ODD_MNEMONICS: [&str; 12] = [
    "neg", "mulss", "exchz", "ldisx", "ldxzis", "nop", "ldn", "mvis", "_", "ill_", "ldnf0iss", "0",
];

/// What lines are made of when they are made of anything.
const PIECES: [&str; 16] = [
    " ", "\t", ",", ", ", "mv", "LDNZIS", "csrr", "csrw", "r1", "R15", "sp", "csr0", "r16", "_",
    "\n", "\0",
];

pub struct Lines {
    mnemonics: Vec<String>,
}

impl Lines {
    pub fn new() -> Lines {
        Lines {
            mnemonics: (0..=255)
                .filter_map(|byte| opcode::describe(byte).mnemonic)
                .collect(),
        }
    }

    /// A line of any kind.
    pub fn line(&self, random: &mut Random) -> Vec<u8> {
        match random.below(20) {
            0 => Vec::new(),
            1 => (0..random.below(40)).map(|_| random.byte()).collect(),
            2 | 3 => (0..random.below(9))
                .flat_map(|_| random.pick(&PIECES).bytes())
                .collect(),
            4 => self.overlong(random),
            5..=9 => {
                let mut line = self.good(random);
                mutate(random, &mut line);
                line
            }
            _ => self.good(random),
        }
    }

    /// Three words, mostly right ones, with blanks where they may be.
    fn good(&self, random: &mut Random) -> Vec<u8> {
        let mnemonic = match random.below(12) {
            0 => random.pick(&ODD_MNEMONICS).to_string(),
            1 => random.pick(&["csrr", "csrw"]).to_string(),
            _ => self.mnemonics[random.below(self.mnemonics.len())].clone(),
        };
        let first = operand(random, mnemonic == "csrw");
        let second = operand(random, mnemonic == "csrr");
        let [a, b, c, d] = [0; 4].map(|_| blanks(random));
        let mut line = format!("{a}{mnemonic} {b}{first}{c},{d}{second}{a}").into_bytes();
        if random.percent(40) {
            line.iter_mut()
                .filter(|_| random.percent(50))
                .for_each(u8::make_ascii_uppercase);
        }
        line
    }

    /// A line with very many blanks, or a very long word.
    fn overlong(&self, random: &mut Random) -> Vec<u8> {
        let mut line = self.good(random);
        let at = random.below(line.len() + 1);
        let piece = random.pick(&[" ", "\t", "r", "0", ","]);
        let count = random.pick(&[17, 255, 256, 300, 5_000]);
        line.splice(at..at, piece.repeat(count).into_bytes());
        line
    }
}

/// An operand, mostly of the wanted kind.
fn operand(random: &mut Random, csr: bool) -> String {
    match random.below(12) {
        0 => random.pick(&ODD_OPERANDS).to_string(),
        1 | 2 if !csr => random.pick(&ALIASES).to_string(),
        3 => format!("{}{}", if csr { "r" } else { "csr" }, random.below(16)),
        _ => format!("{}{}", if csr { "csr" } else { "r" }, random.below(18)),
    }
}

fn blanks(random: &mut Random) -> &'static str {
    random.pick(&["", "", "", " ", " ", "\t", "  ", " \t "])
}

/// Changes, takes away or puts in a byte, or two.
fn mutate(random: &mut Random, line: &mut Vec<u8>) {
    for _ in 0..=random.below(2) {
        let at = random.below(line.len() + 1);
        let byte = match random.below(3) {
            0 => random.byte(),
            1 => random.byte() | 0x80,
            _ => random.pick(b" \t,\n\r\0_rcsmvldiz0159;#@[`{/:"),
        };
        match random.below(3) {
            0 => line.insert(at, byte),
            1 if at < line.len() => line[at] = byte,
            _ if at < line.len() => drop(line.remove(at)),
            _ => line.push(byte),
        }
    }
}
