//! How a desk is at first, and what befalls it between calls.

use crate::desk::Desk;
use crate::library::{State, PROTECTED, START};
use crate::programs::Programs;
use crate::random::Random;

/// The words of a record.
const RECORD: usize = 32;

const F: usize = 14;
const PC: usize = 15;
const CSR0: usize = 16;
const MARKS: usize = 24;
const NEXT: usize = 25;
const HELD: usize = 26;

/// Words at the edges of numbers and of memory.
const EDGES: [u16; 22] = [
    0, 1, 2, 15, 16, 0x7ffe, 0x7fff, 0x8000, 0x8001, 0xfffe, 0xffff, 0xffde, 0xffdf, 0xffe0,
    0xffe1, 0xffe2, 0xffe3, 0xffef, 0xfff0, 0xfff1, 0xfff2, 0x0100,
];

/// A desk to begin with: often as after a reset, mostly right, sometimes one that every call refuses.
pub fn desk(random: &mut Random, programs: &Programs) -> Desk {
    let ram_length = ram_length(random);
    let slots = random.weighted(&[(6, 0), (6, 1), (6, 2), (6, 3), (2, 7), (2, 64), (4, 1_024)]);
    let mut length = RECORD * slots;
    if random.percent(4) {
        length = random.pick(&[1, 31, 33, 48, 32_767, 32_769, 32_800]);
    }
    let ram = programs.ram(random, ram_length);
    let journal = journal(random, length, ram_length);
    let mut state = if random.percent(35) {
        START
    } else {
        state(random, ram_length, slots)
    };
    let stretch = stretch(random, &state, ram_length);
    state[PROTECTED].copy_from_slice(&stretch);
    Desk::new(state, ram, journal)
}

/// Lengths at the edges and elsewhere; mostly small ones, since RAM is compared after each call.
fn ram_length(random: &mut Random) -> usize {
    match random.below(100) {
        0..=9 => random.below(5),
        10..=69 => random.pick(&[64, 64, 128, 250]),
        70..=84 => random.below(600),
        85..=90 => 30_000,
        91..=95 => 65_504,
        96 => 65_505,
        97 => 65_536,
        _ => random.below(65_505),
    }
}

/// The first and the last protected address: none; about what a register points to, where code and data are, one byte or a few; RAM from there on or
/// up to there; all of RAM; across its end; over the devices; the first above the last; all addresses; any two.
fn stretch(random: &mut Random, state: &State, ram_length: usize) -> [u16; 2] {
    let end = ram_length as u16;
    let last = end.wrapping_sub(1);
    let register = state[random.below(16)];
    let near = register.wrapping_add(random.pick(&[0, 0, 1, u16::MAX, u16::MAX - 1]));
    let low = random.below(ram_length.clamp(1, 80)) as u16;
    let place = random.pick(&[near, low]);
    let length = random.below(12) as u16;
    match random.below(24) {
        0..=5 => [1, 0],
        6..=9 => [place, place],
        10..=12 => [place, place.saturating_add(length)],
        13 => [place.saturating_sub(length), place],
        14 => [place, last],
        15 => [0, place],
        16 => [0, last],
        17 => [last.saturating_sub(length), end.saturating_add(length)],
        18 => [end, u16::MAX],
        19 => [0xffe0, random.pick(&[0xffe0, 0xffe1, 0xfff1])],
        20 => [place.saturating_add(1), place],
        21 => [u16::MAX, random.pick(&[0, u16::MAX])],
        22 => [0, u16::MAX],
        _ => [number(random, ram_length), number(random, ram_length)],
    }
}

/// A state without a stretch of its own.
fn state(random: &mut Random, ram_length: usize, slots: usize) -> State {
    let mut state = [0; 32];
    for word in &mut state[..24] {
        *word = number(random, ram_length);
    }
    state[F] = flags(random);
    if random.percent(75) {
        state[PC] = random.below(ram_length.max(1)) as u16 & !1;
    }
    state[CSR0] = random.word() % 512;
    state[MARKS] = random.pick(&[0, 1, 2, 3, 2, 6]);
    state[NEXT] = random.below(slots.max(1)) as u16;
    state[HELD] = random.below(slots + 1) as u16;
    if random.percent(30) {
        spoil_state(random, &mut state, slots);
    }
    state
}

/// A word at an edge, near the end of RAM, in RAM, or any.
fn number(random: &mut Random, ram_length: usize) -> u16 {
    match random.below(8) {
        0 | 1 => random.pick(&EDGES),
        2 => (ram_length + 2).wrapping_sub(random.below(5)) as u16,
        3 | 4 => random.below(ram_length.max(1)) as u16,
        5 => random.word() % 64,
        _ => random.word(),
    }
}

/// The register f: any flags, often with interrupts enabled, seldom with one pending.
fn flags(random: &mut Random) -> u16 {
    let mut f = random.word() & 0x00ff;
    if random.percent(50) {
        f |= 0x0100;
    }
    if random.percent(15) {
        f |= 0x0200 << random.below(7);
    }
    f
}

/// Makes a state that is refused, or one that has numbers where it need not.
fn spoil_state(random: &mut Random, state: &mut State, slots: usize) {
    let slots = slots as u16;
    match random.below(8) {
        0 => state[CSR0] = random.pick(&[511, 512, 513, 0x8000, 0xffff]),
        1 => state[HELD] = slots + random.pick(&[0, 1, 2, 100]),
        2 => state[NEXT] = slots + random.pick(&[0, 1, 2, 100]),
        3 => state[HELD] = 0xffff,
        4 | 5 => state[MARKS] = random.word(),
        _ => state[27 + random.below(3)] = random.word(),
    }
}

/// Journal words: zeros, anything, or records as they may be.
fn journal(random: &mut Random, length: usize, ram_length: usize) -> Vec<u16> {
    match random.below(4) {
        0 => vec![0; length],
        1 => (0..length).map(|_| random.word()).collect(),
        _ => {
            let records = (0..length / RECORD + 1).flat_map(|_| record(random, ram_length));
            records.take(length).collect()
        }
    }
}

/// A record that a step-back takes, seldom one that it refuses. Most of its words may be anything.
fn record(random: &mut Random, ram_length: usize) -> State {
    let mut record = [0; RECORD];
    let start = random.word();
    for (index, word) in record[..24].iter_mut().enumerate() {
        *word = start.wrapping_mul(index as u16 | 1);
    }
    record[CSR0] = random.word() % 512;
    record[MARKS] = random.word() % 8;
    record[25] = random.word() % 3;
    record[26] = number(random, ram_length);
    record[27] = random.word();
    if random.percent(5) {
        spoil_record(random, &mut record, 0);
    }
    record
}

/// Changes a word of the record that starts here to one at the edge of what is refused.
fn spoil_record(random: &mut Random, journal: &mut [u16], start: usize) {
    let (index, words): (usize, [u16; 3]) = random.pick(&[
        (CSR0, [511, 512, 0xffff]),
        (MARKS, [7, 8, 0x8000]),
        (25, [2, 3, 0x0100]),
        (26, [0xffff, 0, 0xffdf]),
        (27, [0xffff, 0x00ff, 0xff00]),
        (28, [0, 1, 0x8000]),
        (29, [0, 1, 0x8000]),
        (30, [0, 1, 0x8000]),
        (31, [0, 1, 0x8000]),
    ]);
    if let Some(word) = journal.get_mut(start + index) {
        *word = random.pick(&words);
    }
}

/// Changes something between two calls, for both machines alike.
pub fn disturb(random: &mut Random, desk: &mut Desk, programs: &Programs) {
    let (ram_length, slots) = (desk.ram().len(), desk.journal().len() / RECORD);
    match random.below(12) {
        0 => {
            let mut fresh = state(random, ram_length, slots);
            fresh[PROTECTED].copy_from_slice(&desk.state()[PROTECTED]);
            (0..32).for_each(|index| desk.set_state(index, fresh[index]));
        }
        1 => {
            let mut spoilt = *desk.state();
            spoil_state(random, &mut spoilt, slots);
            (0..32).for_each(|index| desk.set_state(index, spoilt[index]));
        }
        2 => {
            let stretch = stretch(random, desk.state(), ram_length);
            PROTECTED
                .zip(stretch)
                .for_each(|(index, word)| desk.set_state(index, word));
        }
        3 => desk.set_state(F, flags(random)),
        4 => mend(random, desk),
        7 => desk.set_state(27 + random.below(3), random.word()),
        5 | 6 if slots > 0 => spoil_newest(random, desk, slots),
        _ => {
            let at = usize::from(desk.state()[PC]);
            for (index, byte) in programs.instruction(random).iter().enumerate() {
                if at + index < ram_length {
                    desk.set_ram(at + index, *byte);
                }
            }
        }
    }
}

/// Makes a state that is refused one that is not, and that is not halted.
pub fn mend(random: &mut Random, desk: &mut Desk) {
    let slots = desk.journal().len() / RECORD;
    desk.set_state(CSR0, desk.state()[CSR0] % 512);
    desk.set_state(MARKS, random.word() % 4);
    desk.set_state(NEXT, desk.state()[NEXT] % slots.max(1) as u16);
    desk.set_state(HELD, desk.state()[HELD].min(slots as u16));
}

/// Damages the newest record.
fn spoil_newest(random: &mut Random, desk: &mut Desk, slots: usize) {
    let next = usize::from(desk.state()[NEXT]);
    let start = RECORD * ((next + slots - 1) % slots);
    let mut record = desk.journal()[start..start + RECORD].to_vec();
    spoil_record(random, &mut record, 0);
    for (index, word) in record.iter().enumerate() {
        desk.set_journal(start + index, *word);
    }
}
