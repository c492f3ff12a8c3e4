//! The programs that the scenarios of the call vectors run.
//!
//! A line is an instruction, or a dot and a word as four hexadecimal digits.

use super::Random;
use crate::opcode;
use crate::text;

/// A part of a program: the address of its first line, and its lines.
pub type Part = (u16, &'static [&'static str]);

/// All programs that need no more than 128 bytes.
pub const PROGRAMS: [&[Part]; 6] = [ECHO, EXCEPTIONS, SUBROUTINES, COPY, CLOCK, CREEP];

/// Counts and pushes and pops in a loop. The handler answers the keyboard:
/// each byte received is sent back.
const ECHO: &[Part] = &[
    (
        0x00,
        &[
            "ldis r1, pc",
            ".0040",
            "mv ia, r1",
            "csrw csr1, r1",
            "ldis r2, pc",
            ".0100",
            "or f, r2",
            "ldis sp, pc",
            ".0080",
            "inc1 r3, r3",
            "ddsto sp, r3",
            "ldis r4, sp",
            "cmpu r3, r4",
            "ldnzis pc, pc",
            ".0000",
            "ld pc, pc",
            ".0012",
        ],
    ),
    (
        0x40,
        &[
            "csrw csr2, r5",
            "csrw csr3, r6",
            "ldis r5, pc",
            ".ffe1",
            "ldb r6, r5",
            "stob r5, r6",
            "dec1 r5, r5",
            "stob r5, r6",
            "ldis r5, pc",
            ".fff0",
            "ld r7, r5",
            "ldis r5, pc",
            ".01ff",
            "and f, r5",
            "csrr r5, csr2",
            "csrr r6, csr3",
            "reti pc, ia",
        ],
    ),
];

/// Exceptions and interrupts, by illegal opcodes and by the program. The
/// handler keeps csr0 in RAM.
const EXCEPTIONS: &[Part] = &[
    (
        0x00,
        &[
            "ldis r1, pc",
            ".0040",
            "mv ia, r1",
            "csrw csr1, r1",
            "ldis f, pc",
            ".0100",
            "ill r1, r2",
            ".120d",
            "ldis r2, pc",
            ".a455",
            "csrw csr0, r2",
            "ldis r3, pc",
            ".0200",
            "or f, r3",
            "ldis r3, pc",
            ".9400",
            "xor f, r3",
            ".00ff",
            "inc1 r8, r8",
            "csrw csr9, r8",
            "csrr r9, csr9",
            "ld pc, pc",
            ".000c",
        ],
    ),
    (
        0x40,
        &[
            "csrr r4, csr0",
            "ldis r5, pc",
            ".0070",
            "sto r5, r4",
            "mv r6, f",
            "ldis r7, pc",
            ".01ff",
            "and f, r7",
            "reti r0, r0",
        ],
    ),
];

/// A subroutine within a subroutine, with the return address on the stack.
const SUBROUTINES: &[Part] = &[
    (
        0x00,
        &[
            "ldis sp, pc",
            ".0080",
            "ldis ca, pc",
            ".0020",
            "exch pc, ca",
            "inc1 r1, r1",
            "ld pc, pc",
            ".0004",
        ],
    ),
    (
        0x20,
        &[
            "ddsto sp, ca",
            "ldis ca, pc",
            ".0030",
            "exch pc, ca",
            "ldis ca, sp",
            "mv pc, ca",
        ],
    ),
    (
        0x30,
        &[
            "add r2, r1",
            "xor r3, r2",
            "shl r4, r3",
            "shra r3, r1",
            "shr r6, r1",
            "rev r5, r2",
            "not r6, r5",
            "cmps r5, r6",
            "mvs r7, r5",
            "mvns r7, r6",
            "sub r8, r7",
            "dec2 r9, r8",
            "exch pc, ca",
        ],
    ),
];

/// Copies words upwards through all of memory, over the devices too, until
/// the address is 0 again.
const COPY: &[Part] = &[(
    0x00,
    &[
        "ldis r1, pc",
        ".0000",
        "ldis r2, pc",
        ".0040",
        "ldis r3, r1",
        "sto r2, r3",
        "inc2 r2, r2",
        "cmpu r2, r4",
        "ldnzis pc, pc",
        ".0008",
        "inc1 r5, r5",
        "ld pc, pc",
        ".0000",
    ],
)];

/// Runs what the clock holds: each tick makes another instruction of it.
const CLOCK: &[Part] = &[
    (
        0x00,
        &[
            "ldis r1, pc",
            ".0020",
            "mv ia, r1",
            "csrw csr1, r1",
            "ldis f, pc",
            ".0100",
            "ld pc, pc",
            ".fff0",
        ],
    ),
    (
        0x20,
        &[
            "ldis r5, pc",
            ".01ff",
            "and f, r5",
            "ldis ia, pc",
            ".fff0",
            "reti pc, ia",
        ],
    ),
];

/// Stores bytes at ever higher addresses, which overwrites the program
/// sooner or later; it fits in 64 bytes.
const CREEP: &[Part] = &[
    (
        0x00,
        &[
            "ldis r1, pc",
            ".0030",
            "mv ia, r1",
            "csrw csr1, r1",
            "ldis f, pc",
            ".0100",
            "inc2 r3, r3",
            "stob r3, r4",
            "inc1 r4, r4",
            "ddsto sp, r4",
            "add r5, r4",
            "ldnf0is pc, pc",
            ".000c",
        ],
    ),
    (
        0x30,
        &[
            "ldis r5, pc",
            ".01ff",
            "and f, r5",
            "ldis ia, pc",
            ".0000",
            "reti pc, ia",
        ],
    ),
];

/// The bytes of some lines.
pub fn bytes_of(lines: &[&str]) -> Vec<u8> {
    lines
        .iter()
        .flat_map(|line| word_of(line).to_le_bytes())
        .collect()
}

/// The word of a line.
fn word_of(line: &str) -> u16 {
    match line.strip_prefix('.') {
        Some(digits) => u16::from_str_radix(digits, 16).expect("hexadecimal digits"),
        None => text::assemble(line.as_bytes()).expect("an instruction"),
    }
}

/// A program of `length` bytes (even, at least 32) of pseudo-random
/// instructions. It begins by setting the handler's address and enabling
/// interrupts; the handler is in the end, and begins the program anew.
pub fn soup(random: &mut Random, length: u16) -> Vec<u8> {
    let handler = length - 12;
    let mut bytes = bytes_of(&["ldis r1, pc"]);
    bytes.extend(handler.to_le_bytes());
    bytes.extend(bytes_of(&[
        "mv ia, r1",
        "csrw csr1, r1",
        "ldis f, pc",
        ".0100",
    ]));
    while bytes.len() < usize::from(handler) - 4 {
        bytes.extend(instruction(random));
    }
    bytes.extend(bytes_of(&["ld pc, pc", ".000c"]));
    bytes.extend(bytes_of(&[
        "ldis r5, pc",
        ".01ff",
        "and f, r5",
        "ldis ia, pc",
        ".0000",
        "reti r3, r4",
    ]));
    bytes
}

/// A pseudo-random instruction, seldom an illegal one, and not too often one
/// that stores in ia, f or pc.
fn instruction(random: &mut Random) -> [u8; 2] {
    let opcode = match random.below(40) {
        0 => random.byte(),
        1..=13 => random.pick(&[0x90, 0xa0, 0xc0]) + random.byte() % 16,
        _ => 1 + random.byte() % 0x1d,
    };
    let legal = opcode::describe(opcode).reason.is_none();
    if !legal && random.below(8) != 0 {
        return instruction(random);
    }
    let destination = match random.below(8) {
        0 => random.byte() % 16,
        _ => random.byte() % 13,
    };
    [opcode, 16 * destination + random.byte() % 16]
}

#[cfg(test)]
mod tests {
    use super::*;

    #[test]
    fn programs_fit() {
        for program in PROGRAMS {
            let mut end = 0;
            for (start, lines) in program {
                assert!(usize::from(*start) >= end);
                end = usize::from(*start) + bytes_of(lines).len();
            }
            assert!(end <= 128);
        }
        let (start, lines) = CREEP[1];
        assert!(usize::from(start) + bytes_of(lines).len() <= 64);
    }

    #[test]
    fn lines_as_bytes() {
        let bytes = bytes_of(&["mv r1, r2", ".abcd"]);
        assert_eq!(bytes, [0x0e, 0x12, 0xcd, 0xab]);
    }

    #[test]
    fn soups_have_the_length() {
        let mut random = Random::new(1);
        for length in [32, 64, 256, 300] {
            let bytes = soup(&mut random, length);
            assert_eq!(bytes.len(), usize::from(length));
            assert_eq!(bytes[2..4], (length - 12).to_le_bytes());
        }
    }
}
