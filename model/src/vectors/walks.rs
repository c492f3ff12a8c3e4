//! Random walks: long pseudo-random sequences of calls, over RAM that holds
//! lively code.

use super::programs;
use super::script::Script;
use super::stretches;
use crate::machine::Call;

/// Lengths of RAM that have room for a program.
const RAMS: [u16; 4] = [64, 256, 30_000, 65_504];
/// Lengths of RAM that have none.
const TINY_RAMS: [u16; 4] = [0, 1, 2, 3];
/// Lengths of journals: of 0, 1, 2, 3 and 1,024 slots.
const JOURNALS: [u16; 5] = [0, 32, 64, 96, 32_768];

/// Budgets of runs; the longest is chosen more seldom still.
const BUDGETS: [u16; 12] = [0, 1, 2, 3, 4, 7, 15, 40, 40, 200, 1_000, 5_000];
/// Contents of f, with and without ie, bit 9 and other pending bits.
const FLAGS: [u16; 12] = [
    0x0000, 0x0100, 0x0200, 0x0300, 0x0400, 0x0500, 0x0dff, 0x0eff, 0x8100, 0xfe00, 0xff00, 0x0010,
];
/// Contents of f that let a halted machine go on.
const REVIVALS: [u16; 5] = [0x0000, 0x0100, 0x0100, 0x0500, 0x01f3];
/// Other words: edges and addresses of devices.
const WORDS: [u16; 14] = [
    0, 1, 2, 0x7fff, 0x8000, 0xffdf, 0xffe0, 0xffe1, 0xffe2, 0xffef, 0xfff0, 0xfff1, 0xfffe, 0xffff,
];

/// All walks.
pub fn write(script: &mut Script) {
    let mut turn = 0;
    for ram_length in RAMS {
        for journal_length in JOURNALS {
            soup_walk(script, ram_length, journal_length);
            program_walk(script, turn, ram_length, journal_length);
            turn += 1;
        }
    }
    for ram_length in TINY_RAMS {
        for journal_length in [0, 32, 64, 96] {
            script.start(ram_length, journal_length);
            stretches::any(script);
            for _ in 0..90 {
                one_call(script);
            }
            script.show();
        }
    }
}

/// A walk with a program of pseudo-random instructions.
fn soup_walk(script: &mut Script, ram_length: u16, journal_length: u16) {
    script.start(ram_length, journal_length);
    let bytes = programs::soup(&mut script.random, ram_length.min(256));
    script.load(0, &bytes);
    walk(script, 3, 130);
}

/// A walk with one of the written programs.
fn program_walk(script: &mut Script, turn: usize, ram_length: u16, journal_length: u16) {
    script.start(ram_length, journal_length);
    script.load_program(programs::PROGRAMS[turn % programs::PROGRAMS.len()]);
    walk(script, 2, 110);
}

/// Some rounds of calls, each with a stretch of its own, and shown.
fn walk(script: &mut Script, rounds: usize, calls: usize) {
    for _ in 0..rounds {
        stretches::any(script);
        for _ in 0..calls {
            one_call(script);
        }
        script.show();
    }
}

/// A pseudo-random call, or a few that belong together.
fn one_call(script: &mut Script) {
    let halted = script.desk.machine.cpu.halted;
    if halted && script.random.below(3) != 0 {
        return revive(script);
    }
    match script.random.below(100) {
        0..=29 => script.calls(&[Call::Step]),
        30..=41 => run(script),
        42..=49 => script.calls(&[Call::Tick]),
        50..=56 => receive(script),
        57..=62 => script.calls(&[Call::Sent]),
        63..=70 => set_register(script),
        71..=78 => poke(script),
        79 => script.calls(&[Call::Reset]),
        80..=85 => keyboard_instruction(script),
        _ => step_backs(script),
    }
}

/// A halted machine goes on, from the program's start or where it was.
fn revive(script: &mut Script) {
    let f = script.random.pick(&REVIVALS);
    script.call(Call::SetRegister(14, f));
    if script.random.below(4) != 0 {
        script.call(Call::SetRegister(15, 0));
    }
}

/// A run.
fn run(script: &mut Script) {
    let budget = match script.random.below(120) {
        0 => 65_535,
        _ => script.random.pick(&BUDGETS),
    };
    script.call(Call::Run(budget));
}

/// A byte is received.
fn receive(script: &mut Script) {
    let byte = script.random.byte();
    script.call(Call::Receive(byte));
}

/// A register is set; at times one that there is not.
fn set_register(script: &mut Script) {
    let number = script.random.pick(&[
        0, 1, 2, 3, 4, 5, 6, 7, 8, 9, 10, 11, 12, 13, 14, 14, 15, 16, 255,
    ]);
    let word = match number {
        14 => script.random.pick(&FLAGS),
        _ => word(script),
    };
    script.call(Call::SetRegister(number, word));
}

/// A word: an edge, an address at the end of RAM or anywhere, any word.
fn word(script: &mut Script) -> u16 {
    match script.random.below(4) {
        0 => script.random.pick(&WORDS),
        1 => address(script),
        2 => address(script) & 0xff,
        _ => script.random.word(),
    }
}

/// An address at the end of RAM, in RAM, or of a device.
fn address(script: &mut Script) -> u16 {
    let ram_length = script.desk.ram_length as u16;
    match script.random.below(8) {
        0 => ram_length.wrapping_sub(1),
        1 => ram_length,
        2 => ram_length.wrapping_add(1),
        3 => script.random.pick(&WORDS),
        _ => script.random.word() % ram_length.max(1),
    }
}

/// A byte is poked.
fn poke(script: &mut Script) {
    let address = address(script);
    let byte = script.random.byte();
    script.call(Call::Poke(address, byte));
}

/// An instruction whose opcode comes from the keyboard: it runs whatever RAM
/// there is. READY gives r0 as its destination.
fn keyboard_instruction(script: &mut Script) {
    let opcode = match script.random.below(3) {
        0 => script.random.pick(&[0x90, 0xa0, 0xc0]) + script.random.byte() % 16,
        _ => script.random.byte() % 0x1f,
    };
    let destination = address(script);
    script.call(Call::Receive(opcode));
    script.call(Call::SetRegister(0, destination));
    script.call(Call::SetRegister(15, 0xffe1));
    script.call(Call::Step);
    script.call(Call::Step);
}

/// Several steps back, at times more than there are records, if these are
/// few.
fn step_backs(script: &mut Script) {
    let held = script.desk.machine.held;
    let times = match script.random.below(4) {
        0 => (held + 1).min(6),
        1 => 2,
        2 => 3,
        _ => 1,
    };
    script.step_backs(times);
}
