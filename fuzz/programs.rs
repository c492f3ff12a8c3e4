//! What stands in RAM: small programs, and instructions at random.

use crate::opcode;
use crate::random::Random;
use crate::text;

/// A program from address 0 on. A line is an instruction, or a dot and a word as four hexadecimal digits.
type Source = &'static [&'static str];

/// Counts, pushes and pops, with the handler at 0x1e answering interrupts by counting.
const STACK: Source = &[
    "ldis r1, pc",
    ".001e",
    "mv ia, r1",
    "csrw csr1, r1",
    "ldis f, pc",
    ".0100",
    "ldis sp, pc",
    ".0040",
    "inc1 r3, r3",
    "ddsto sp, r3",
    "ldis r4, sp",
    "ld pc, pc",
    ".0010",
    "ill r0, r0",
    "ill r0, r0",
    "inc1 r6, r6",
    "ldis r7, pc",
    ".01ff",
    "and f, r7",
    "reti pc, ia",
];

/// Copies bytes upwards through all of memory, over the devices too.
const COPY: Source = &[
    "ldis r1, pc",
    ".0000",
    "ldis r2, pc",
    ".0020",
    "ldb r3, r1",
    "stob r2, r3",
    "inc1 r1, r1",
    "inc1 r2, r2",
    "cmpu r2, r9",
    "ldnzis pc, pc",
    ".0008",
    "ld pc, pc",
    ".0000",
];

/// Sends what the keyboard sends, and reads the clock.
const ECHO: Source = &[
    "ldis r1, pc",
    ".ffe2",
    "ldis r2, pc",
    ".ffe0",
    "ldis r5, pc",
    ".fff0",
    "ld r6, r5",
    "ldb r3, r1",
    "ld r4, r2",
    "rev r4, r4",
    "stob r2, r4",
    "sto r2, r4",
    "ld pc, pc",
    ".000c",
];

/// Raises exceptions by illegal opcodes and by f, with a handler at 0x18.
const EXCEPTIONS: Source = &[
    "ldis ia, pc",
    ".0018",
    "csrw csr1, ia",
    "ldis f, pc",
    ".0100",
    "ill r1, r2",
    ".12b4",
    "csrw csr0, r8",
    "ldis r3, pc",
    ".0200",
    "or f, r3",
    "inc2 r8, r8",
    "csrr r4, csr0",
    "ldis r7, pc",
    ".01ff",
    "and f, r7",
    "reti pc, ia",
];

/// Computes with all the operations, then jumps back.
const COMPUTE: Source = &[
    "inc1 r1, r1",
    "add r2, r1",
    "xor r3, r2",
    "shl r4, r3",
    "shra r3, r1",
    "shr r6, r1",
    "rev r5, r2",
    "not r6, r5",
    "cmps r5, r6",
    "mvs r7, r5",
    "mvns r7, r6",
    "sub r8, r7",
    "dec2 r9, r8",
    "dec1 r4, r9",
    "or r4, r8",
    "exch r3, r10",
    "ldcis r0, r0",
    "ld pc, pc",
    ".0000",
];

/// Writes over itself: stores words in front of pc, and runs into them.
const CREEP: Source = &[
    "ldis r1, pc",
    ".000c",
    "ldis r2, pc",
    ".120e",
    "ddsto r1, r2",
    "stob r1, r2",
];

/// Adds letters to r0 up to a closing 0: the routine of a pen, if r2 and r3 are 0.
const LETTERS: Source = &[
    "ldb r2, r1",
    "add r0, r2",
    "inc1 r1, r1",
    "cmpu r2, r3",
    "ldnzis pc, pc",
    ".0000",
    "inc1 r4, r4",
    "ld pc, pc",
    ".000c",
];

/// The opcodes of sto, stob and ddsto.
const STORES: [u8; 3] = [0x15, 0x16, 0x17];

const SOURCES: [Source; 7] = [STACK, COPY, ECHO, EXCEPTIONS, COMPUTE, CREEP, LETTERS];

/// All that is put in RAM.
pub struct Programs {
    assembled: Vec<Vec<u8>>,
    legal: Vec<u8>,
}

impl Programs {
    /// Assembled once, since the model takes its time.
    pub fn new() -> Programs {
        let bytes = |source: &Source| {
            source
                .iter()
                .flat_map(|line| word(line).to_le_bytes())
                .collect()
        };
        Programs {
            assembled: SOURCES.iter().map(bytes).collect(),
            legal: (0..=255)
                .filter(|byte| opcode::describe(*byte).reason.is_none())
                .collect(),
        }
    }

    /// Bytes for a RAM of this length.
    pub fn ram(&self, random: &mut Random, length: usize) -> Vec<u8> {
        let mut ram: Vec<u8> = match random.below(4) {
            0 => vec![0; length],
            1 => (0..length).map(|_| random.byte()).collect(),
            _ => {
                let words = (0..length / 2 + 1).flat_map(|_| self.instruction(random));
                words.take(length).collect()
            }
        };
        if random.percent(40) {
            let program = &self.assembled[random.below(self.assembled.len())];
            let count = length.min(program.len());
            ram[..count].copy_from_slice(&program[..count]);
        }
        ram
    }

    /// The bytes of an instruction, which is seldom illegal, stores more often than by chance, and often names one register twice.
    pub fn instruction(&self, random: &mut Random) -> [u8; 2] {
        let opcode = match random.below(20) {
            0 => random.byte(),
            1..=4 => random.pick(&STORES),
            _ => random.pick(&self.legal),
        };
        let operands = match random.below(8) {
            0 => random.below(16) as u8 * 0x11,
            _ => random.byte(),
        };
        [opcode, operands]
    }
}

/// The word of a line.
fn word(line: &str) -> u16 {
    match line.strip_prefix('.') {
        Some(digits) => u16::from_str_radix(digits, 16).expect("four hexadecimal digits"),
        None => text::assemble(line.as_bytes()).expect("an instruction"),
    }
}
