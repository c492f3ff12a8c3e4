//! The model behind the C boundary: the same words in, the same words and result out.

use crate::benches::Pen;
use crate::bus::Stretch;
use crate::cpu::{Cpu, PC};
use crate::library::{self, Call, State};
use crate::machine::{self, Answer, Cause, Machine};
use crate::pens::{self, Lists, Matched, Setup};
use crate::text;
use crate::watched::{self, Stop, Told};

/// Where pc is before each of some steps and after the last, and the addresses that they store to.
pub struct Path {
    pub pcs: Vec<u16>,
    pub stored: Vec<u16>,
}

/// The path of so many steps, which are taken on a copy; fewer where the machine halts.
pub fn path(state: &State, ram: &[u8], steps: usize) -> Path {
    let (mut cpu, mut ram) = (read(state).cpu, ram.to_vec());
    let mut path = Path {
        pcs: vec![cpu.registers[PC]],
        stored: Vec::new(),
    };
    while path.pcs.len() <= steps && !cpu.halted {
        let written = cpu.step(&mut ram).written;
        let addresses = (0..written.count).map(|offset| written.first.wrapping_add(offset));
        path.stored.extend(addresses);
        path.pcs.push(cpu.registers[PC]);
    }
    path
}

/// The path of a pen's run, or where the pen is refused, the path from the state as it is. The budget is the path's own.
pub fn pen_path(state: &State, ram: &[u8], given: &Pen, steps: usize) -> Path {
    let (mut state, mut ram, mut given) = (*state, ram.to_vec(), given.clone());
    given.setup[2] = 0;
    state[25..27].fill(0);
    pen(&mut state, &mut ram, &mut [], &given);
    path(&state, &ram, steps)
}

/// Makes a call on the model's machine.
pub fn call(call: Call, state: &mut State, ram: &mut [u8], journal: &mut [u16]) -> u64 {
    let mut machine = read(state);
    let answer = machine.call(translated(call), ram, journal);
    if answer.number == 0 {
        write(&machine, state);
    }
    result(call, &answer)
}

/// Makes a watched run on the model's machine.
pub fn run_watched(
    state: &mut State,
    ram: &mut [u8],
    journal: &mut [u16],
    list: &mut [library::Entry],
    budget: u16,
) -> u64 {
    let mut machine = read(state);
    let mut entries: Vec<watched::Entry> = list.iter().map(entry).collect();
    let told = watched::run(&mut machine, ram, journal, &mut entries, budget);
    for (words, entry) in list.iter_mut().zip(entries) {
        *words = [entry.address, entry.kind, entry.hits];
    }
    if told.number == 0 {
        write(&machine, state);
    }
    watched_result(&told)
}

/// Does a pen on the model's machine.
pub fn pen(state: &mut State, ram: &mut [u8], journal: &mut [u16], pen: &Pen) -> u64 {
    let mut machine = read(state);
    let lists = Lists {
        today: &pen.today,
        last_good: &pen.last_good,
    };
    let setup = Setup::of_words(&pen.setup);
    match pens::pen(&mut machine, ram, journal, &pen.line, lists, &setup) {
        Ok(matched) => {
            write(&machine, state);
            pen_result(&matched)
        }
        Err(number) => u64::from(number),
    }
}

/// Lists a word: the number, then the text's length.
pub fn list(word: u16, out: &mut [u8]) -> u64 {
    match text::list_into(word, out) {
        Ok(length) => (length as u64) << 16,
        Err(number) => u64::from(number),
    }
}

/// Assembles a line: the number, then the word.
pub fn assemble(line: &[u8]) -> u64 {
    match text::assemble(line) {
        Ok(word) => u64::from(word) << 16,
        Err(number) => u64::from(number),
    }
}

/// The state words: 0–15 registers, 16–21 csr0–csr5, 22 clock, 23 RXD + 256·TXD, 24 R + 2·T + 4·halted (modulo 8), 25 next slot, 26 records
/// held, 30 and 31 the first and the last protected address; the others are not read.
fn read(state: &State) -> Machine {
    let mut cpu = Cpu::new(Stretch {
        first: state[30],
        last: state[31],
    });
    cpu.registers.copy_from_slice(&state[..16]);
    cpu.csrs.copy_from_slice(&state[16..22]);
    cpu.devices.clock = state[22];
    cpu.devices.rxd = (state[23] % 256) as u8;
    cpu.devices.txd = (state[23] / 256) as u8;
    cpu.devices.r = state[24] % 2 == 1;
    cpu.devices.t = state[24] / 2 % 2 == 1;
    cpu.halted = state[24] / 4 % 2 == 1;
    Machine {
        cpu,
        next: usize::from(state[25]),
        held: usize::from(state[26]),
    }
}

/// The same words, with 27–29 as 0.
fn write(machine: &Machine, state: &mut State) {
    *state = [0; 32];
    state[..16].copy_from_slice(&machine.cpu.registers);
    state[16..22].copy_from_slice(&machine.cpu.csrs);
    state[22] = machine.cpu.devices.clock;
    state[23] = machine.cpu.keyboard();
    state[24] = machine.cpu.marks();
    state[25] = machine.next as u16;
    state[26] = machine.held as u16;
    state[30] = machine.cpu.stretch.first;
    state[31] = machine.cpu.stretch.last;
}

/// Bits 0–15 the number, 16–31 the steps of a run, 32–55 the bus bytes of a step or a run, 56–63 a run's cause. The model counts a lone step
/// as one step; the boundary has that count for a run only.
fn result(call: Call, answer: &Answer) -> u64 {
    let steps = match call {
        Call::Run(_) => u64::from(answer.steps),
        _ => 0,
    };
    let cause = u64::from(answer.cause == Cause::Halted);
    u64::from(answer.number) | steps << 16 | u64::from(answer.bus) << 32 | cause << 56
}

/// The entry of three words.
fn entry(words: &library::Entry) -> watched::Entry {
    let [address, kind, hits] = *words;
    watched::Entry {
        address,
        kind,
        hits,
    }
}

/// As of a run, but for bits 56–57, the cause, and 58–63, the place of the entry that is named.
fn watched_result(told: &Told) -> u64 {
    let (cause, place) = cause(told.stop);
    let counts = u64::from(told.steps) << 16 | u64::from(told.bus) << 32;
    u64::from(told.number) | counts | cause << 56 | place << 58
}

/// The number of a cause, and the place of the entry that it names.
fn cause(stop: Stop) -> (u64, u64) {
    match stop {
        Stop::None | Stop::Budget => (0, 0),
        Stop::Halted => (1, 0),
        Stop::Watch(place) => (2, place as u64),
        Stop::Break(place) => (3, place as u64),
    }
}

/// Bits 16–31 r0, 32–55 the bus bytes of the run, 56–57 its cause; the one entry is at place 0.
fn pen_result(matched: &Matched) -> u64 {
    let (cause, _) = cause(matched.stop);
    u64::from(matched.r0) << 16 | u64::from(matched.bus) << 32 | cause << 56
}

fn translated(call: Call) -> machine::Call {
    match call {
        Call::Step => machine::Call::Step,
        Call::Tick => machine::Call::Tick,
        Call::Receive(byte) => machine::Call::Receive(byte),
        Call::Sent => machine::Call::Sent,
        Call::SetRegister(number, content) => machine::Call::SetRegister(number, content),
        Call::Poke(address, byte) => machine::Call::Poke(address, byte),
        Call::Reset => machine::Call::Reset,
        Call::Run(budget) => machine::Call::Run(budget),
        Call::StepBack => machine::Call::StepBack,
    }
}
