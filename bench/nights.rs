//! Nights at the pen bench: firmware that matches names, and lists of pens and manifests of any length.

use crate::programs::{self, Part};

/// Where the routine starts, where it is done, where its table of names stands, and where a pen's name goes.
const START: u16 = 0x0100;
const DONE: u16 = 0x0144;
const TABLE: usize = 0x0200;
const NAME: u16 = 0x0400;

/// More steps than the routine takes.
const BUDGET: u16 = 5_000;

/// Goes through the table's names for one that is the pen's: r0 is its place, or ffff.
const ROUTINE: &[Part] = &[(
    START as usize,
    &[
        "ldis r0, pc",
        ".0000",
        "ldis r8, pc",
        ".0000",
        "ldis r2, pc",
        ".0200",
        "mv r4, r8",
        "mv r5, r8",
        "mv r3, r1",
        "ldb r4, r3",
        "ldb r5, r2",
        "inc1 r3, r3",
        "inc1 r2, r2",
        "cmpu r4, r5",
        "ldnzis pc, pc",
        ".012a",
        "cmpu r4, r8",
        "ldnzis pc, pc",
        ".0112",
        "ld pc, pc",
        ".0144",
        "cmpu r5, r8",
        "ldzis pc, pc",
        ".0138",
        "ldb r5, r2",
        "inc1 r2, r2",
        "ld pc, pc",
        ".012a",
        "inc1 r0, r0",
        "ldb r5, r2",
        "cmpu r5, r8",
        "ldnzis pc, pc",
        ".0110",
        "not r0, r8",
        "ill r0, r0",
    ],
)];

/// The names in the table. A pen has one of them, or the last one, which is not in it.
const NAMES: [&str; 13] = [
    "Ålesund",
    "Frøya",
    "Hitra",
    "Bømlo",
    "Vågsøy",
    "Sør-Arnøy",
    "Herøy",
    "Lurøy",
    "Træna",
    "Rødøy",
    "Meløy",
    "Gildeskål",
    "Værøy",
];

/// Pens of a list, and what they are given.
#[derive(Clone)]
pub struct Night {
    pub pens: Vec<Vec<u8>>,
    pub today: Vec<u8>,
    pub last_good: Vec<u8>,
    pub setup: Vec<u16>,
}

impl Night {
    /// Manifests of so many lines, and so many of their pens, which stand all over them. Of the pens nine in ten are in today's manifest, the
    /// others in the last good one alone.
    pub fn new(count: usize, pens: usize) -> Night {
        let pens = (0..pens).map(|place| number(place * 7_919 % count));
        Night {
            pens: pens.map(|pen| pen.to_string().into_bytes()).collect(),
            today: manifest(count, 1),
            last_good: manifest(count, 0),
            setup: vec![NAME, DONE, BUDGET, 1, NAME, 15, START],
        }
    }
}

/// The number of the pen at a place: nine digits, as if drawn by lot. No two of the first 10,000 are alike.
fn number(place: usize) -> usize {
    let mut mixed = place.wrapping_mul(0x9e37_79b9_7f4a_7c15);
    mixed = (mixed ^ mixed >> 32).wrapping_mul(0xd6e8_feb8_6659_fd93);
    100_000_000 + (mixed ^ mixed >> 32) % 800_000_000
}

/// A manifest. Every tenth line is of another pen, so many times over.
fn manifest(count: usize, others: usize) -> Vec<u8> {
    let line = |place: usize| {
        let other = others * usize::from(place % 10 == 9);
        let name = NAMES[(place + other) % NAMES.len()];
        format!("{}\t{name}\n", number(place) + 100_000_000 * other)
    };
    (0..count).map(line).collect::<String>().into_bytes()
}

/// A RAM of the box's 30,000 bytes with the routine and its table.
pub fn loaded() -> Vec<u8> {
    let mut ram = programs::loaded(ROUTINE);
    let known = NAMES[..NAMES.len() - 1].iter();
    let mut table: Vec<u8> = known
        .flat_map(|name| name.chars().map(|letter| letter as u8).chain([0]))
        .collect();
    table.push(0);
    ram[TABLE..TABLE + table.len()].copy_from_slice(&table);
    ram
}
