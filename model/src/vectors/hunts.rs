//! Hunts: pseudo-random watched runs over RAM that holds lively code, with
//! entries where the run will come or store, and other calls between them.

use super::programs;
use super::script::Script;
use super::stretches;
use crate::cpu::PC;
use crate::machine::Call;
use crate::watched::{Entry, BREAK, WATCH};

/// Lengths of RAM.
const RAMS: [u16; 4] = [64, 256, 30_000, 65_504];
/// Lengths of journals: of 0, 1, 3 and 1,024 slots.
const JOURNALS: [u16; 4] = [0, 32, 96, 32_768];
/// How many entries a list has.
const COUNTS: [usize; 10] = [0, 1, 1, 2, 2, 3, 4, 6, 9, 20];
/// Budgets of runs.
const BUDGETS: [u16; 10] = [0, 1, 2, 3, 5, 9, 20, 60, 200, 2_000];
/// Hits that entries have at first.
const HITS: [u16; 6] = [0, 0, 0, 1, 65_534, 65_535];
/// Addresses at the edges.
const EDGES: [u16; 8] = [0, 1, 0xffdf, 0xffe0, 0xffe1, 0xfff0, 0xfffe, 0xffff];
/// How many steps are looked at for addresses.
const FORESEEN: usize = 60;

/// All hunts.
pub fn write(script: &mut Script) {
    let mut turn = 0;
    for ram_length in RAMS {
        for journal_length in JOURNALS {
            script.start(ram_length, journal_length);
            let bytes = programs::soup(&mut script.random, ram_length.min(128));
            script.load(0, &bytes);
            hunt(script);
            script.start(ram_length, journal_length);
            script.load_program(programs::PROGRAMS[turn % programs::PROGRAMS.len()]);
            hunt(script);
            turn += 1;
        }
    }
}

/// Some rounds, each with a list of its own, and most with a stretch.
fn hunt(script: &mut Script) {
    for _ in 0..20 {
        stretches::any(script);
        let list = list(script);
        script.list(&list);
        for _ in 0..4 {
            let budget = script.random.pick(&BUDGETS);
            script.watched(budget);
            between(script);
        }
    }
    script.show();
}

/// What comes between two watched runs: mostly nothing, or a call.
fn between(script: &mut Script) {
    if script.desk.machine.cpu.halted {
        let pc = script.random.pick(&[0, 0x0c]);
        return script.calls(&[Call::SetRegister(14, 0x0100), Call::SetRegister(15, pc)]);
    }
    match script.random.below(14) {
        0 => script.calls(&[Call::Tick]),
        1 => script.calls(&[Call::Receive(0x41), Call::Sent]),
        2 => script.calls(&[Call::StepBack]),
        3 => script.calls(&[Call::StepBack, Call::StepBack, Call::StepBack]),
        4 => script.calls(&[Call::Step]),
        5 => script.calls(&[Call::Run(7)]),
        6 => {
            let (number, word) = (script.random.byte() % 12, script.random.word());
            script.calls(&[Call::SetRegister(number, word)]);
        }
        _ => {}
    }
}

/// A list of entries that the run that comes will meet, and of others.
fn list(script: &mut Script) -> Vec<Entry> {
    let (pcs, stored) = path(script);
    let count = script.random.pick(&COUNTS);
    let mut list: Vec<Entry> = Vec::new();
    for _ in 0..count {
        let other = [BREAK, WATCH][script.random.below(2)];
        let (kind, address) = match script.random.below(10) {
            0..=2 => (BREAK, script.random.pick(&pcs)),
            3..=6 if !stored.is_empty() => (WATCH, script.random.pick(&stored)),
            7 => (other, script.random.pick(&EDGES)),
            8 if !list.is_empty() => (other, script.random.pick(&list).address),
            _ => (other, script.random.word() % 0x0080),
        };
        let hits = script.random.pick(&HITS);
        list.push(Entry {
            address,
            kind,
            hits,
        });
    }
    list
}

/// Where pc comes in the next steps, and the addresses that they store to;
/// they are taken on a copy.
pub fn path(script: &Script) -> (Vec<u16>, Vec<u16>) {
    let desk = &script.desk;
    let (mut cpu, mut ram) = (desk.machine.cpu, desk.ram[..desk.ram_length].to_vec());
    let (mut pcs, mut stored) = (vec![cpu.registers[PC]], Vec::new());
    while !cpu.halted && pcs.len() < FORESEEN {
        let written = cpu.step(&mut ram).written;
        stored.extend((0..written.count).map(|offset| written.first.wrapping_add(offset)));
        pcs.push(cpu.registers[PC]);
    }
    (pcs, stored)
}
