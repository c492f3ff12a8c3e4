//! An emulator of the same rules in plain Rust, written for speed, as someone would write it who does not use the library: the yardstick of
//! the benchmark. Its calls have the C boundary's shape (a state of 32 words, a result of 64 bits) so that one harness drives both; inside,
//! the words become a struct once for each call.

mod alu;
pub mod boundary;
mod cpu;
pub mod image;
mod mnemonics;
pub mod pens;
mod text;
mod watch;

use cpu::{Cpu, Effect, Stretch, Written, EXC, F, HALTED, R, T};
use pens::Pen;
pub use text::{assemble, list};
pub use watch::Entry;

/// The state as it crosses the boundary.
pub type State = [u16; 32];

/// The words of a record.
const RECORD: usize = 32;
const LONGEST_RAM: usize = 65_504;
const LONGEST_JOURNAL: usize = 32_768;

const ICLK: u16 = 0x0400;
const IKBD: u16 = 0x0800;

/// A call's result, with the refusal's number where there is one.
type Answer = Result<u64, u64>;

/// The processor, and the place in the journal.
struct Machine {
    cpu: Cpu,
    next: usize,
    held: usize,
}

impl Machine {
    /// The machine that the words tell of, unless refusals 1 to 3 say otherwise.
    #[inline(always)]
    fn open(state: &State, ram: &[u8], journal: &[u16]) -> Result<Machine, u64> {
        let slots = journal.len() / RECORD;
        let (next, held) = (usize::from(state[25]), usize::from(state[26]));
        if ram.len() > LONGEST_RAM {
            return Err(1);
        }
        if journal.len() % RECORD != 0 || journal.len() > LONGEST_JOURNAL {
            return Err(2);
        }
        if state[16] > 511 || held > slots || next >= slots.max(1) {
            return Err(3);
        }
        let cpu = Cpu::from_words(state, Stretch::new(state[30], state[31]));
        Ok(Machine { cpu, next, held })
    }

    /// The machine as words. Words 30 and 31, the stretch, are there still.
    #[inline(always)]
    fn close(&self, state: &mut State) {
        self.cpu.to_words(state);
        state[25] = self.next as u16;
        state[26] = self.held as u16;
        state[27..30].fill(0);
    }

    /// Writes the record of an input that comes next, in place. What a step writes through memory is known only afterwards and is put in
    /// then.
    #[inline(always)]
    fn record<'a>(&mut self, journal: &'a mut [u16], written: Written) -> Option<&'a mut State> {
        let slots = journal.len() / RECORD;
        let slot = slot_mut(journal, self.next)?;
        self.cpu.to_words(slot);
        note(slot, written);
        slot[28..].fill(0);
        self.next = if self.next + 1 == slots {
            0
        } else {
            self.next + 1
        };
        self.held = slots.min(self.held + 1);
        Some(slot)
    }

    /// One step with its record.
    #[inline(always)]
    fn step(&mut self, ram: &mut [u8], journal: &mut [u16]) -> Effect {
        let slot = self.record(journal, Written::NOTHING);
        let effect = self.cpu.step(ram);
        if let Some(slot) = slot {
            note(slot, effect.written);
        }
        effect
    }

    fn is_halted(&self) -> bool {
        self.cpu.marks & HALTED != 0
    }

    /// Puts a word in a register.
    #[inline(always)]
    fn set_register(&mut self, journal: &mut [u16], number: u8, content: u16) -> Answer {
        let number = usize::from(number);
        if number > 15 {
            return Err(6);
        }
        self.record(journal, Written::NOTHING);
        self.cpu.registers[number] = content;
        if number == F && content & EXC == 0 {
            self.cpu.marks &= !HALTED;
        }
        Ok(0)
    }

    /// Puts a byte in RAM.
    #[inline(always)]
    fn poke(&mut self, ram: &mut [u8], journal: &mut [u16], address: u16, byte: u8) -> Answer {
        let place = ram.get_mut(usize::from(address)).ok_or(7u64)?;
        let written = Written {
            count: 1,
            first: address,
            old: u16::from(*place),
        };
        self.record(journal, written);
        *place = byte;
        Ok(0)
    }

    /// Steps until the budget is used up or the machine halts.
    #[inline(always)]
    fn run(&mut self, ram: &mut [u8], journal: &mut [u16], budget: u16) -> u64 {
        let (mut steps, mut bus) = (0u64, 0u64);
        while steps < u64::from(budget) && !self.is_halted() {
            bus += u64::from(self.step(ram, journal).bus);
            steps += 1;
        }
        steps << 16 | bus << 32 | u64::from(self.is_halted()) << 56
    }

    /// The loop without a journal; it and the next one are compiled each on its own, and never into their callers.
    #[inline(never)]
    fn run_alone(&mut self, ram: &mut [u8], budget: u16) -> u64 {
        self.run(ram, &mut [], budget)
    }

    #[inline(never)]
    fn run_recorded(&mut self, ram: &mut [u8], journal: &mut [u16], budget: u16) -> u64 {
        self.run(ram, journal, budget)
    }

    /// Undoes the newest record.
    fn step_back(&mut self, ram: &mut [u8], journal: &mut [u16]) -> Answer {
        if self.held == 0 {
            return Err(8);
        }
        let slots = journal.len() / RECORD;
        let newest = if self.next == 0 { slots } else { self.next } - 1;
        let record: &State = slot_mut(journal, newest).ok_or(8u64)?;
        if record[16] > 511 || record[24] > 7 || record[25] > 2 || record[28..] != [0; 4] {
            return Err(9);
        }
        for (index, byte) in record[27].to_le_bytes().into_iter().enumerate() {
            let address = record[26].wrapping_add(index as u16);
            if index < usize::from(record[25]) {
                if let Some(place) = ram.get_mut(usize::from(address)) {
                    *place = byte;
                }
            }
        }
        self.cpu = Cpu::from_words(record, self.cpu.stretch);
        self.next = newest;
        self.held -= 1;
        Ok(0)
    }
}

/// A slot of the journal, if it has that many.
#[inline(always)]
fn slot_mut(journal: &mut [u16], number: usize) -> Option<&mut State> {
    let start = number * RECORD;
    journal.get_mut(start..start + RECORD)?.try_into().ok()
}

/// Puts what was written through memory in a record.
#[inline(always)]
fn note(slot: &mut State, written: Written) {
    slot[25] = written.count;
    slot[26] = written.first;
    slot[27] = written.old;
}

/// Opens the machine, makes a call on it, and closes it unless the call is refused.
#[inline(always)]
fn call(
    state: &mut State,
    ram: &mut [u8],
    journal: &mut [u16],
    act: impl FnOnce(&mut Machine, &mut [u8], &mut [u16]) -> Answer,
) -> u64 {
    let answer = Machine::open(state, ram, journal).and_then(|mut machine| {
        let answer = act(&mut machine, ram, journal)?;
        machine.close(state);
        Ok(answer)
    });
    answer.unwrap_or_else(|number| number)
}

pub fn step(state: &mut State, ram: &mut [u8], journal: &mut [u16]) -> u64 {
    call(state, ram, journal, |machine, ram, journal| {
        if machine.is_halted() {
            return Err(4);
        }
        Ok(u64::from(machine.step(ram, journal).bus) << 32)
    })
}

pub fn tick(state: &mut State, ram: &mut [u8], journal: &mut [u16]) -> u64 {
    call(state, ram, journal, |machine, _, journal| {
        machine.record(journal, Written::NOTHING);
        machine.cpu.clock = machine.cpu.clock.wrapping_add(1);
        machine.cpu.interrupt(ICLK);
        Ok(0)
    })
}

pub fn receive(state: &mut State, ram: &mut [u8], journal: &mut [u16], byte: u8) -> u64 {
    call(state, ram, journal, |machine, _, journal| {
        if machine.cpu.marks & R != 0 {
            return Err(5);
        }
        machine.record(journal, Written::NOTHING);
        machine.cpu.rxd = byte;
        machine.cpu.marks |= R;
        machine.cpu.interrupt(IKBD);
        Ok(0)
    })
}

pub fn sent(state: &mut State, ram: &mut [u8], journal: &mut [u16]) -> u64 {
    call(state, ram, journal, |machine, _, journal| {
        if machine.cpu.marks & T != 0 {
            return Err(5);
        }
        machine.record(journal, Written::NOTHING);
        machine.cpu.marks |= T;
        machine.cpu.interrupt(IKBD);
        Ok(0)
    })
}

pub fn set_register(
    state: &mut State,
    ram: &mut [u8],
    journal: &mut [u16],
    number: u8,
    content: u16,
) -> u64 {
    call(state, ram, journal, |machine, _, journal| {
        machine.set_register(journal, number, content)
    })
}

pub fn poke(state: &mut State, ram: &mut [u8], journal: &mut [u16], address: u16, byte: u8) -> u64 {
    call(state, ram, journal, |machine, ram, journal| {
        machine.poke(ram, journal, address, byte)
    })
}

pub fn reset(state: &mut State, ram: &mut [u8], journal: &mut [u16]) -> u64 {
    call(state, ram, journal, |machine, _, journal| {
        machine.record(journal, Written::NOTHING);
        machine.cpu = Cpu::reset(machine.cpu.stretch);
        Ok(0)
    })
}

pub fn run(state: &mut State, ram: &mut [u8], journal: &mut [u16], budget: u16) -> u64 {
    call(state, ram, journal, |machine, ram, journal| {
        Ok(if journal.is_empty() {
            machine.run_alone(ram, budget)
        } else {
            machine.run_recorded(ram, journal, budget)
        })
    })
}

pub fn run_watched(
    state: &mut State,
    ram: &mut [u8],
    journal: &mut [u16],
    list: &mut [Entry],
    budget: u16,
) -> u64 {
    call(state, ram, journal, |machine, ram, journal| {
        watch::check(list)?;
        Ok(machine.run_watched(ram, journal, list, budget))
    })
}

/// A pen: the result of its run, with r0 where that has the steps.
pub fn pen(state: &mut State, ram: &mut [u8], journal: &mut [u16], pen: &Pen) -> u64 {
    call(state, ram, journal, |machine, ram, journal| {
        let told = machine.pen(ram, journal, || pen.name(), pen.setup)?;
        Ok(told & !0xffff_0000 | u64::from(machine.cpu.registers[0]) << 16)
    })
}

/// A pen whose name is known, or is known to be in no manifest: the result of its run.
pub fn named_pen(
    state: &mut State,
    ram: &mut [u8],
    journal: &mut [u16],
    name: Option<&[u8]>,
    setup: &[u16],
) -> u64 {
    call(state, ram, journal, |machine, ram, journal| {
        machine.pen(ram, journal, || name, setup)
    })
}

pub fn step_back(state: &mut State, ram: &mut [u8], journal: &mut [u16]) -> u64 {
    call(state, ram, journal, Machine::step_back)
}
