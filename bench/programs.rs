//! The programs that are run. A line is an instruction, or a dot and a word as four hexadecimal digits; none of the programs ends.

use crate::emulator;
use crate::library::Entry;

/// A part of a program: the address of its first line, and its lines.
pub type Part = (usize, &'static [&'static str]);

/// Computes in registers alone.
pub const REGISTERS: &[Part] = &[(
    0x00,
    &[
        "ldis r1, pc",
        ".0001",
        "add r2, r1",
        "xor r3, r2",
        "sub r4, r3",
        "and r5, r4",
        "inc1 r6, r6",
        "cmpu r6, r7",
        "mvz r8, r6",
        "exch r9, r10",
        "ld pc, pc",
        ".0004",
    ],
)];

/// Copies 512 bytes again and again, byte by byte.
pub const COPY: &[Part] = &[(
    0x00,
    &[
        "ldis r1, pc",
        ".0400",
        "ldis r2, pc",
        ".0800",
        "ldis r3, pc",
        ".0200",
        "ldb r4, r1",
        "stob r2, r4",
        "inc1 r1, r1",
        "inc1 r2, r2",
        "dec1 r3, r3",
        "ldnzis pc, pc",
        ".000c",
        "ld pc, pc",
        ".0000",
    ],
)];

/// The second half of what it copies to, as a stretch that is protected.
pub const HALF_OF_COPY: [u16; 2] = [0x0900, 0x09ff];

/// Raises an interrupt in each round of a loop, beside those of the clock. The handler counts, takes the pending bits back and returns by
/// reti.
pub const INTERRUPTS: &[Part] = &[
    (
        0x00,
        &[
            "ldis r1, pc",
            ".0040",
            "mv ia, r1",
            "csrw csr1, r1",
            "ldis f, pc",
            ".0100",
            "ldis r2, pc",
            ".1000",
            "inc1 r3, r3",
            "add r4, r3",
            "or f, r2",
            "xor r5, r4",
            "ld pc, pc",
            ".0010",
        ],
    ),
    (
        0x40,
        &[
            "csrw csr2, r7",
            "inc1 r6, r6",
            "ldis r7, pc",
            ".01ff",
            "and f, r7",
            "csrr r7, csr2",
            "reti pc, ia",
        ],
    ),
];

/// Moves words: loads, stores, and a stack.
pub const WORDS: &[Part] = &[(
    0x00,
    &[
        "ldis sp, pc",
        ".0900",
        "ldis r1, pc",
        ".0401",
        "ld r2, r1",
        "ddsto sp, r2",
        "inc1 r2, r2",
        "sto r1, r2",
        "ldis r3, sp",
        "cmps r2, r3",
        "ldno r4, r1",
        "ld pc, pc",
        ".0008",
    ],
)];

/// Shifts and reverses bits.
pub const SHIFTS: &[Part] = &[(
    0x00,
    &[
        "ldis r1, pc",
        ".b5a7",
        "inc1 r2, r2",
        "mv r3, r1",
        "shl r3, r2",
        "rev r4, r3",
        "mv r5, r1",
        "shr r5, r2",
        "shra r3, r2",
        "rev r1, r5",
        "not r6, r1",
        "or r1, r3",
        "ld pc, pc",
        ".0004",
    ],
)];

/// Reverses a column of 32 words into another place again and again, as a display driver does.
pub const COLUMN: &[Part] = &[(
    0x00,
    &[
        "ldis r1, pc",
        ".0400",
        "ldis r2, pc",
        ".0800",
        "ldis r3, pc",
        ".0020",
        "ldis r4, r1",
        "rev r4, r4",
        "sto r2, r4",
        "inc2 r2, r2",
        "dec1 r3, r3",
        "ldnzis pc, pc",
        ".000c",
        "ld pc, pc",
        ".0000",
    ],
)];

/// Reverses and does nothing else, but for the jump back after every ten words.
pub const REVERSALS: &[Part] = &[(
    0x00,
    &[
        "ldis r1, pc",
        ".b5a7",
        "rev r2, r1",
        "rev r3, r2",
        "rev r4, r3",
        "rev r5, r4",
        "rev r6, r5",
        "rev r7, r6",
        "rev r8, r7",
        "rev r9, r8",
        "rev r10, r9",
        "rev r1, r10",
        "ld pc, pc",
        ".0004",
    ],
)];

/// Reads the clock and the keyboard and writes to it.
pub const DEVICES: &[Part] = &[(
    0x00,
    &[
        "ldis r1, pc",
        ".fff0",
        "ldis r2, pc",
        ".ffe0",
        "ldis r3, pc",
        ".ffe2",
        "ld r4, r1",
        "stob r2, r4",
        "ldb r5, r3",
        "sto r2, r5",
        "ld pc, pc",
        ".000c",
    ],
)];

/// Meets an illegal opcode in each round; the handler takes the exception back.
pub const EXCEPTIONS: &[Part] = &[
    (
        0x00,
        &[
            "ldis r1, pc",
            ".0040",
            "mv ia, r1",
            "csrw csr1, r1",
            "ldis f, pc",
            ".0100",
            "ill r0, r0",
            ".000d",
            "ld pc, pc",
            ".000c",
        ],
    ),
    (
        0x40,
        &[
            "csrr r4, csr0",
            "ldis r7, pc",
            ".01ff",
            "and f, r7",
            "reti pc, ia",
        ],
    ),
];

/// A RAM of the box's 30,000 bytes with a program in it, and other bytes elsewhere.
pub fn loaded(program: &[Part]) -> Vec<u8> {
    let mut ram: Vec<u8> = (0..30_000u32).map(|i| (37 * i % 251) as u8).collect();
    for (start, lines) in program {
        for (index, line) in lines.iter().enumerate() {
            let at = start + 2 * index;
            ram[at..at + 2].copy_from_slice(&word(line).to_le_bytes());
        }
    }
    ram
}

/// A list of so many entries for a watched run, breaks and watches in turn, at addresses of RAM that no program reaches or stores to.
pub fn unmet(entries: u16) -> Vec<Entry> {
    (0..entries)
        .map(|place| [0x1000 + 226 * place, 1 + place % 2, 0])
        .collect()
}

/// The word of a line.
fn word(line: &str) -> u16 {
    if let Some(digits) = line.strip_prefix('.') {
        return u16::from_str_radix(digits, 16).expect("four hexadecimal digits");
    }
    let answer = emulator::assemble(line.as_bytes());
    assert_eq!(answer & 0xffff, 0, "{line}");
    (answer >> 16) as u16
}
