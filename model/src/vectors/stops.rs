//! Watched runs made by hand: where they stop, what they count, and which
//! lists they refuse.

use super::programs;
use super::script::Script;
use crate::machine::Call;
use crate::watched::{Entry, BREAK, WATCH};

/// The address that stores go to in the scenarios that need one.
const PLACE: u16 = 0x30;

/// All of them.
pub fn write(script: &mut Script) {
    breaks(script);
    for ram_length in [64, 65_504] {
        for opcode in ["sto r1, r2", "stob r1, r2", "ddsto r1, r2"] {
            stores(script, ram_length, opcode);
        }
    }
    for journal_length in [0, 32, 96] {
        meetings(script, journal_length);
    }
    counts(script);
    lengths(script);
    kinds(script);
    refusals(script);
    interrupts(script);
    long_runs(script);
}

/// An entry without hits.
fn entry(kind: u16, address: u16) -> Entry {
    Entry {
        address,
        kind,
        hits: 0,
    }
}

/// A scenario with a program at 0, r1 the place of stores, r2 what is stored.
fn start(script: &mut Script, journal_length: u16, lines: &[&str]) {
    script.start(64, journal_length);
    script.load_lines(0, lines);
    script.register(1, PLACE);
    script.register(2, 0xabcd);
}

/// Breaks before, at and after each step of a program that loops, with runs
/// that go on from where they stopped.
fn breaks(script: &mut Script) {
    start(
        script,
        96,
        &["inc1 r3, r3", "inc1 r3, r3", "ld pc, pc", ".0000"],
    );
    for address in 0..8 {
        script.list(&[entry(BREAK, address), entry(WATCH, address)]);
        for budget in [0, 1, 2, 3, 4, 5, 9, 65_535] {
            script.watched(budget);
            script.watched(budget);
        }
        script.show();
    }
    start(script, 32, &["dec2 pc, pc"]);
    script.list(&[entry(BREAK, 0)]);
    for _ in 0..3 {
        script.watched(9);
    }
    script.show();
}

/// A store at each edge of memory, with watches on the addresses around it:
/// all at once, and one by one.
fn stores(script: &mut Script, ram_length: u16, line: &str) {
    script.start(ram_length, 64);
    script.load_lines(0x10, &["inc1 r3, r3", line, "ld pc, pc", ".0010"]);
    for address in [
        0, 1, 2, 62, 63, 64, 65, 0xffde, 0xffdf, 0xffe0, 0xffe1, 0xffe2, 0xffef, 0xfff0, 0xfff1,
        0xfffd, 0xfffe, 0xffff,
    ] {
        script.calls(&[Call::Reset]);
        script.register(1, address);
        script.register(2, 0x5ee5);
        script.register(15, 0x10);
        let around: Vec<Entry> = (0..6)
            .map(|offset| entry(WATCH, address.wrapping_add(offset).wrapping_sub(3)))
            .collect();
        script.list(&around);
        script.watched(6);
        script.watched(0);
        for one in &around {
            script.register(1, address);
            script.register(15, 0x10);
            script.list(&[*one]);
            script.watched(2);
        }
    }
    script.show();
}

/// Where causes meet: the last step of the budget stores, halts, or ends at a
/// break.
fn meetings(script: &mut Script, journal_length: u16) {
    let programs: [&[&str]; 5] = [
        &["inc1 r3, r3", "sto r1, r2", "inc1 r3, r3"],
        &["inc1 r3, r3", "ill r0, r0", "inc1 r3, r3"],
        &["inc1 r3, r3", "mv f, r4", "inc1 r3, r3"],
        &["inc1 r3, r3", "ddsto f, r2", "inc1 r3, r3"],
        &["sto r1, r2", "stob r1, r2", "sto r1, r2"],
    ];
    for lines in programs {
        start(script, journal_length, lines);
        script.register(4, 0x0200);
        for list in [
            vec![entry(BREAK, 4)],
            vec![entry(WATCH, PLACE)],
            vec![entry(BREAK, 4), entry(WATCH, PLACE)],
            vec![entry(WATCH, PLACE + 1), entry(BREAK, 4), entry(BREAK, 2)],
            vec![entry(WATCH, 0xfffe), entry(WATCH, 0xffff), entry(BREAK, 4)],
        ] {
            script.list(&list);
            for budget in [1, 2, 3, 7] {
                script.calls(&[Call::SetRegister(14, 0), Call::SetRegister(15, 0)]);
                script.watched(budget);
                script.watched(budget);
            }
        }
        script.show();
    }
}

/// Hits that come to 65,535 and stay there; several entries that match, and
/// step-backs that keep what was counted.
fn counts(script: &mut Script) {
    start(script, 96, &["sto r1, r2", "dec2 pc, pc"]);
    let mut list = vec![entry(BREAK, 2); 64];
    for place in 0..64 {
        let kind = if place % 3 == 0 { BREAK } else { WATCH };
        let addresses = [0, 2, PLACE, PLACE + 1, PLACE + 2];
        list[usize::from(place)] = entry(kind, addresses[usize::from(place) % 5]);
        list[usize::from(place)].hits = 65_535 - place % 4;
    }
    for first in [0, 1, 7, 32, 60, 63] {
        script.list(&list[first..]);
        for _ in 0..3 {
            script.calls(&[Call::SetRegister(15, 0)]);
            script.watched(5);
            script.watched(5);
            script.calls(&[Call::StepBack]);
            script.watched(1);
        }
        script.show();
    }
}

/// Lists of each length, the last entry of which is met.
fn lengths(script: &mut Script) {
    start(script, 32, &["inc1 r3, r3", "stob r1, r2", "inc1 r3, r3"]);
    let far: Vec<Entry> = (0..64)
        .map(|n| entry(1 + n % 2, 0x8000 + 0x0101 * n))
        .collect();
    for length in [0, 1, 2, 3, 31, 32, 33, 62, 63, 64, 65, 66, 127, 256, 65_535] {
        script.list(&far);
        if (1..=64).contains(&length) {
            let mut list = far[..usize::from(length)].to_vec();
            let kind = 1 + length % 2;
            list[usize::from(length) - 1] = entry(kind, [0, 2, PLACE][usize::from(kind)]);
            script.list(&list);
        }
        script.lend_entries(length);
        for budget in [0, 3] {
            script.register(15, 0);
            script.watched(budget);
        }
        script.show();
    }
}

/// Kinds that are none, in the first, the last and a middle entry lent, and
/// just past those lent, where nobody looks.
fn kinds(script: &mut Script) {
    start(script, 64, &["stob r1, r2", "inc1 r3, r3"]);
    let good = [entry(WATCH, PLACE), entry(BREAK, 2), entry(WATCH, 0)];
    for kind in [0, 1, 2, 3, 4, 255, 256, 257, 258, 0x8001, 0x8002, 65_535] {
        for place in 0..3 {
            let mut list = good;
            list[place].kind = kind;
            for count in [place, place + 1, 3, 65] {
                script.list(&list);
                script.lend_entries(count as u16);
                script.register(15, 0);
                script.watched(2);
            }
        }
        script.show();
    }
}

/// Refusals 1 to 3 come before those of the list, and those come also where no
/// step would be done.
fn refusals(script: &mut Script) {
    start(script, 64, &["stob r1, r2"]);
    for (kind, count) in [(WATCH, 1), (7, 1), (7, 65), (WATCH, 65)] {
        script.list(&[entry(kind, PLACE)]);
        script.lend_entries(count);
        for (ram_length, journal_length) in [(64, 64), (65_505, 64), (65_505, 63), (64, 63)] {
            script.lend(ram_length, journal_length);
            for (csr0, next, held) in [(0, 0, 0), (512, 0, 0), (0, 2, 0), (0, 0, 3)] {
                script.state(csr0, next, held);
                script.register(15, 0);
                script.watched(1);
            }
        }
        script.lend(64, 64);
        script.state(0, 0, 0);
        script.halted(true);
        script.watched(1);
        script.watched(0);
        script.halted(false);
        script.watched(0);
        script.show();
    }
}

/// Breaks at the handler and where it interrupts, and watches on what it
/// stores.
fn interrupts(script: &mut Script) {
    for (number, handler) in [(0, 0x40), (1, 0x40), (4, 0x20)] {
        for ram_length in [128, 256] {
            script.start(ram_length, 96);
            script.load_program(programs::PROGRAMS[number]);
            let list = [handler, handler + 2, 0x12, 0x16, 0xfff0].map(|at| entry(BREAK, at));
            script.list(&list);
            let watches = [0xffe0, 0xffe1, 0x70, 0x7e].map(|at| entry(WATCH, at));
            for round in 0..12u8 {
                script.calls(&[Call::Tick, Call::Receive(round), Call::Sent]);
                script.watched([1, 3, 40][usize::from(round) % 3]);
                script.watched(20);
            }
            script.list(&watches);
            for round in 0..12u8 {
                script.calls(&[Call::Receive(round), Call::Sent, Call::Tick]);
                script.watched(60);
                script.calls(&[Call::StepBack]);
            }
            script.show();
        }
    }
}

/// Runs with the largest budget: watches that are met late, and a list of 64
/// entries that is never met.
fn long_runs(script: &mut Script) {
    for (ram_length, journal_length, address) in
        [(65_504, 0, 0x9001), (256, 32_768, 0x4001), (64, 96, 0x2000)]
    {
        script.start(ram_length, journal_length);
        script.load_program(programs::PROGRAMS[3]);
        script.list(&[entry(BREAK, 0x0016), entry(WATCH, address)]);
        script.watched(65_535);
        script.watched(65_535);
        script.show();
    }
    script.start(128, 32_768);
    script.load_program(programs::PROGRAMS[2]);
    let odd: Vec<Entry> = (0..64).map(|n| entry(1 + n % 2, 2 * n + 0x0fff)).collect();
    script.list(&odd);
    script.watched(65_535);
    script.show();
}
