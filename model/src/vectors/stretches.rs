//! Scenarios of the protected stretch, made by hand for each sentence of the
//! request; and the stretches of the pseudo-random scenarios.

use super::hunts;
use super::programs;
use super::script::Script;
use crate::machine::Call;
use crate::watched::{Entry, BREAK, WATCH};

/// The address that most stores go to.
const PLACE: u16 = 0x30;
/// Where the instructions are that store to r1.
const STORES: [u16; 3] = [0x10, 0x12, 0x14];

/// The scenarios of calls.
pub fn write(script: &mut Script) {
    first_and_last(script);
    for ram_length in [64, 65_504] {
        ends(script, ram_length);
    }
    other_writers(script);
    every_call(script);
    long_runs(script);
    stacks(script);
}

/// The scenarios of watched runs.
pub fn write_watched(script: &mut Script) {
    watched_bytes(script);
    watched_ends(script);
    watched_runs(script);
}

/// A scenario with three slots, and instructions that store.
fn start(script: &mut Script, ram_length: u16) {
    script.start(ram_length, 96);
    script.load_lines(STORES[0], &["sto r1, r2", "stob r1, r2", "ddsto r1, r2"]);
}

/// Makes a store to this address the next step.
fn aim(script: &mut Script, instruction: u16, address: u16) {
    script.register(1, address);
    script.register(2, 0xc0de);
    script.register(15, instruction);
}

/// Stores before, at and after the first and the last address, of words that
/// have one byte in the stretch or two; half of them are undone.
fn first_and_last(script: &mut Script) {
    start(script, 64);
    for (first, last) in [
        (PLACE, PLACE),
        (PLACE, PLACE + 1),
        (PLACE - 1, PLACE + 2),
        (0, PLACE),
        (PLACE, 0xffff),
        (PLACE + 1, PLACE),
        (0xffff, 0),
    ] {
        script.stretch(first, last);
        for (turn, address) in (PLACE - 2..PLACE + 5).enumerate() {
            for instruction in STORES {
                aim(script, instruction, address);
                script.calls(&[Call::Step]);
                if turn % 2 == 0 {
                    script.calls(&[Call::StepBack]);
                }
            }
        }
        script.show();
    }
}

/// Stretches at the ends of RAM and of the addresses, and over the devices:
/// words that go on at 0, ignored bytes and those that a device takes.
fn ends(script: &mut Script, ram_length: u16) {
    start(script, ram_length);
    for (first, last) in [
        (0, 0),
        (0xffff, 0xffff),
        (1, 0xffff),
        (ram_length - 1, ram_length),
        (ram_length, 0xffff),
        (0xffe0, 0xffe1),
        (0, 0xffff),
    ] {
        script.stretch(first, last);
        for address in [
            0xffff,
            ram_length - 1,
            ram_length,
            0xffe0,
            0xffe1,
            0xfff0,
            0,
        ] {
            for instruction in STORES {
                script.calls(&[Call::Receive(0x41)]);
                aim(script, instruction, address);
                script.calls(&[Call::Step, Call::StepBack, Call::Step]);
                script.calls(&[Call::Sent]);
            }
        }
        script.show();
    }
}

/// Pokes and step-backs write in the stretch, whatever the records have; so
/// does a step-back of a store that was made before the stretch was there.
fn other_writers(script: &mut Script) {
    start(script, 64);
    for (first, last) in [(PLACE, PLACE), (PLACE + 1, PLACE + 1), (0, 0xffff)] {
        script.stretch(first, last);
        script.calls(&[Call::Poke(PLACE, 0x11), Call::Poke(PLACE + 1, 0x22)]);
        script.calls(&[
            Call::Poke(0, 0x33),
            Call::Poke(63, 0x44),
            Call::Poke(64, 0x55),
        ]);
        script.show();
        script.step_backs(2);
        aim(script, STORES[0], PLACE);
        script.calls(&[Call::Step]);
        script.damage(27, 0x7788);
        script.calls(&[Call::StepBack]);
        script.show();
        script.stretch(1, 0);
        aim(script, STORES[0], PLACE);
        script.calls(&[Call::Step]);
        script.stretch(first, last);
        script.calls(&[Call::StepBack]);
        script.show();
    }
}

/// No call changes the stretch, and a reset and a step-back keep it: after each
/// call a store is dropped in part.
fn every_call(script: &mut Script) {
    start(script, 64);
    script.stretch(PLACE, PLACE);
    for call in [
        Call::Step,
        Call::Tick,
        Call::Receive(0x41),
        Call::Sent,
        Call::SetRegister(3, PLACE),
        Call::Poke(PLACE + 2, 0x42),
        Call::Reset,
        Call::Run(3),
        Call::StepBack,
    ] {
        aim(script, STORES[1], PLACE + 4);
        script.calls(&[call]);
        script.register(14, 0);
        script.halted(false);
        aim(script, STORES[0], PLACE);
        script.calls(&[Call::Step]);
        script.show();
    }
}

/// Runs through all of memory, of which a part is protected: the code, a piece
/// of RAM, its end.
fn long_runs(script: &mut Script) {
    for (ram_length, journal_length, first, last) in [
        (256, 96, 0, 0x19),
        (256, 32_768, 0x51, 0x60),
        (30_000, 0, 29_999, 0xffff),
        (65_504, 96, 0x0041, 0x9000),
    ] {
        script.start(ram_length, journal_length);
        script.load_program(programs::PROGRAMS[3]);
        script.stretch(first, last);
        script.calls(&[Call::Run(65_535), Call::Run(40_000)]);
        script.step_backs(3);
        script.show();
    }
}

/// A stack of return addresses that is protected, in part or all of it.
fn stacks(script: &mut Script) {
    for (first, last) in [(0x7e, 0x7f), (0x7e, 0x7e), (0x7f, 0x7f), (0x80, 0x7f)] {
        script.start(128, 96);
        script.load_program(programs::PROGRAMS[2]);
        script.load(0x7e, &[0x28, 0x00]);
        script.stretch(first, last);
        script.calls(&[Call::Run(60), Call::StepBack, Call::Run(5)]);
        script.show();
    }
}

/// A watch without hits.
fn watch(address: u16) -> Entry {
    Entry {
        address,
        kind: WATCH,
        hits: 0,
    }
}

/// A scenario whose program stores a word and a byte to r1, counts and stays.
fn start_watched(script: &mut Script, ram_length: u16) {
    script.start(ram_length, 96);
    let lines = ["sto r1, r2", "stob r1, r2", "inc1 r3, r3", "dec2 pc, pc"];
    script.load_lines(STORES[0], &lines);
}

/// A dropped byte is no hit, and the word's other byte is one.
fn watched_bytes(script: &mut Script) {
    start_watched(script, 64);
    for (first, last) in [
        (PLACE, PLACE),
        (PLACE + 1, PLACE + 1),
        (PLACE, PLACE + 1),
        (PLACE + 2, PLACE - 1),
        (PLACE + 1, PLACE),
    ] {
        script.stretch(first, last);
        for list in [
            vec![watch(PLACE)],
            vec![watch(PLACE + 1)],
            vec![watch(PLACE + 1), watch(PLACE)],
            vec![watch(PLACE), watch(PLACE + 1), watch(PLACE)],
        ] {
            script.list(&list);
            for budget in [1, 2, 9] {
                aim(script, STORES[0], PLACE);
                script.watched(budget);
                script.watched(budget);
            }
        }
        script.show();
    }
}

/// An ignored byte is a hit also in the stretch, and one that a device takes.
fn watched_ends(script: &mut Script) {
    for ram_length in [64, 65_504] {
        start_watched(script, ram_length);
        for (first, last) in [
            (0, 0xffff),
            (0, 0),
            (ram_length - 1, ram_length),
            (ram_length, 0xffff),
        ] {
            script.stretch(first, last);
            for address in [0xffff, ram_length - 1, ram_length, 0xffe0, 0xffe1, 0xfff0] {
                script.list(&[watch(address.wrapping_add(1)), watch(address)]);
                aim(script, STORES[0], address);
                script.watched(3);
                script.list(&[watch(address.wrapping_add(1))]);
                aim(script, STORES[0], address);
                script.watched(3);
            }
        }
        script.show();
    }
}

/// Runs through all of memory that pass a watched byte in the stretch and stop
/// at the one after it, at a break, or not.
fn watched_runs(script: &mut Script) {
    for (first, last) in [(0x60, 0x6f), (0x61, 0x6e), (0, 0xffff)] {
        script.start(256, 96);
        script.load_program(programs::PROGRAMS[3]);
        script.stretch(first, last);
        let mut list: Vec<Entry> = [0x60, 0x61, 0x6e, 0x6f].map(watch).to_vec();
        list.push(Entry {
            kind: BREAK,
            ..watch(0x14)
        });
        script.list(&list);
        for _ in 0..3 {
            script.watched(2_000);
            script.calls(&[Call::StepBack]);
        }
        script.show();
    }
}

/// Sets a pseudo-random stretch: none, about where the next steps store to, in
/// the code, at the end of RAM, over the devices, or all.
pub fn any(script: &mut Script) {
    let ram_length = script.desk.ram_length as u16;
    let (_, mut stored) = hunts::path(script);
    stored.push(script.desk.machine.cpu.registers[1]);
    let near = script.random.pick(&[0, 0, 1, u16::MAX]);
    let place = script.random.pick(&stored).wrapping_add(near);
    let (code, length) = (script.random.word() % 0x80, script.random.word() % 16);
    let (first, last) = match script.random.below(14) {
        0..=3 => (1, 0),
        4 | 5 => (place, place),
        6 => (place, place.saturating_add(length)),
        7 => (code, code + length),
        8 => (code, ram_length.saturating_sub(1)),
        9 => (ram_length.saturating_sub(1), ram_length),
        10 => (ram_length, 0xffff),
        11 => (0xffe0, 0xfff1),
        12 => (place.saturating_add(1), place),
        _ => (0, 0xffff),
    };
    script.stretch(first, last);
}
