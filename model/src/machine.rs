//! The machine: the processor with the next slot and the records held, and
//! the calls on it. RAM and journal are lent to each call.
//!
//! "Every refusal returns its number and the state as given, counts [...] 0,
//! and changes no lent byte or word. A call on the machine checks 1, 2, 3,
//! then its own in the order shown."

use crate::bus::{self, Stretch, Written};
use crate::cpu::{Cpu, Effect, EXC, F, H};
use crate::journal::{self, LONGEST, RECORD};

#[cfg(test)]
mod tests;

/// "RAM: lent bytes, length 0 to 65,504."
const LONGEST_RAM: usize = 65_504;

/// Bit 10 of `f`: "Pending interrupt from system clock".
const ICLK: u16 = 0x0400;
/// Bit 11 of `f`: "Pending interrupt from the keyboard".
const IKBD: u16 = 0x0800;

/// "RAM longer than 65,504"
const LONG_RAM: u16 = 1;
/// "journal length no multiple of 32, or over 32,768"
const BAD_JOURNAL: u16 = 2;
/// "csr0 over 511; held over slots; next not below slots (with no slots: next
/// not 0)"
const BAD_STATE: u16 = 3;
/// "lone step while halted"
const HALTED: u16 = 4;
/// "Receive while R=1, or Sent while T=1"
const NOT_READY: u16 = 5;
/// "register number over 15"
const NO_REGISTER: u16 = 6;
/// "Poke at no RAM address"
const NO_RAM: u16 = 7;
/// "step-back with held 0"
const NONE_HELD: u16 = 8;
/// "record has csr0 over 511, word 24 over 7, word 25 over 2, or a nonzero
/// word 28–31"
const BAD_RECORD: u16 = 9;

/// The processor's state with what is beside the journal.
#[derive(Clone, Copy, Debug, PartialEq, Eq)]
pub struct Machine {
    /// The processor.
    pub cpu: Cpu,
    /// The next slot.
    pub next: usize,
    /// The records held.
    pub held: usize,
}

/// A call on the machine.
#[derive(Clone, Copy, Debug, PartialEq, Eq)]
pub enum Call {
    /// A lone step.
    Step,
    /// A tick of the clock.
    Tick,
    /// A byte comes from the keyboard.
    Receive(u8),
    /// The byte in TXD has been sent.
    Sent,
    /// A register, by its number, is set to a word.
    SetRegister(u8, u16),
    /// A byte is put at an address.
    Poke(u16, u8),
    /// A reset.
    Reset,
    /// A run with a budget of steps.
    Run(u16),
    /// The newest record is undone.
    StepBack,
}

/// Why a run stopped.
#[derive(Clone, Copy, Debug, PartialEq, Eq)]
pub enum Cause {
    /// The call was no run, or was refused.
    None,
    /// "budget used up"
    Budget,
    /// "machine halted"
    Halted,
}

/// What a call answers.
#[derive(Clone, Copy, Debug, PartialEq, Eq)]
pub struct Answer {
    /// The number of the refusal, or 0.
    pub number: u16,
    /// The steps done.
    pub steps: u16,
    /// The sum of their bus bytes.
    pub bus: u32,
    /// Why a run stopped.
    pub cause: Cause,
}

impl Answer {
    /// The answer of an accepted call that does no step.
    fn accepted() -> Answer {
        Answer::refused(0)
    }

    /// The answer of a refused call.
    fn refused(number: u16) -> Answer {
        Answer {
            number,
            steps: 0,
            bus: 0,
            cause: Cause::None,
        }
    }
}

impl Machine {
    /// "The starting state is this one with next slot and records held 0." The
    /// protected addresses are "fixed at start".
    pub fn new(stretch: Stretch) -> Machine {
        Machine {
            cpu: Cpu::new(stretch),
            next: 0,
            held: 0,
        }
    }

    /// Makes a call.
    pub fn call(&mut self, call: Call, ram: &mut [u8], journal: &mut [u16]) -> Answer {
        let refusal = self
            .refusal_of_any_call(ram, journal)
            .or_else(|| self.refusal_of(call, ram, journal));
        match refusal {
            Some(number) => Answer::refused(number),
            None => self.perform(call, ram, journal),
        }
    }

    /// What every call checks first.
    pub fn refusal_of_any_call(&self, ram: &[u8], journal: &[u16]) -> Option<u16> {
        if ram.len() > LONGEST_RAM {
            Some(LONG_RAM)
        } else if journal.len() % RECORD != 0 || journal.len() > LONGEST {
            Some(BAD_JOURNAL)
        } else if self.state_is_bad(journal.len() / RECORD) {
            Some(BAD_STATE)
        } else {
            None
        }
    }

    /// Whether the state does not go with this number of slots.
    fn state_is_bad(&self, slots: usize) -> bool {
        let next_is_bad = match slots {
            0 => self.next != 0,
            _ => self.next >= slots,
        };
        self.cpu.csrs[0] > 511 || self.held > slots || next_is_bad
    }

    /// What a call checks of its own.
    fn refusal_of(&self, call: Call, ram: &[u8], journal: &[u16]) -> Option<u16> {
        match call {
            Call::Step if self.cpu.halted => Some(HALTED),
            Call::Receive(_) if self.cpu.devices.r => Some(NOT_READY),
            Call::Sent if self.cpu.devices.t => Some(NOT_READY),
            Call::SetRegister(number, _) if number > 15 => Some(NO_REGISTER),
            Call::Poke(address, _) if usize::from(address) >= ram.len() => Some(NO_RAM),
            Call::StepBack if self.held == 0 => Some(NONE_HELD),
            Call::StepBack if journal::is_bad(self.newest(journal)) => Some(BAD_RECORD),
            _ => None,
        }
    }

    /// Does what an accepted call asks for.
    fn perform(&mut self, call: Call, ram: &mut [u8], journal: &mut [u16]) -> Answer {
        match call {
            Call::Run(budget) => self.run(budget, ram, journal),
            Call::Step => {
                let effect = self.recorded_step(ram, journal);
                Answer {
                    steps: 1,
                    bus: u32::from(effect.bus),
                    ..Answer::accepted()
                }
            }
            Call::StepBack => {
                self.step_back(ram, journal);
                Answer::accepted()
            }
            _ => {
                let before = self.cpu;
                let written = self.input(call, ram);
                self.record(&before, &written, journal);
                Answer::accepted()
            }
        }
    }

    /// "A run stops at the first of two: budget used up, or machine halted. It
    /// reports steps done, the sum of their bus bytes and the cause; where both
    /// hold, halted."
    fn run(&mut self, budget: u16, ram: &mut [u8], journal: &mut [u16]) -> Answer {
        let mut answer = Answer::accepted();
        answer.cause = loop {
            if self.cpu.halted {
                break Cause::Halted;
            }
            if answer.steps == budget {
                break Cause::Budget;
            }
            answer.bus += u32::from(self.recorded_step(ram, journal).bus);
            answer.steps += 1;
        };
        answer
    }

    /// One step with its record: "a run writes one for each step".
    pub fn recorded_step(&mut self, ram: &mut [u8], journal: &mut [u16]) -> Effect {
        let before = self.cpu;
        let effect = self.cpu.step(ram);
        self.record(&before, &effect.written, journal);
        effect
    }

    /// Does an input that is no step, and tells what it wrote through memory.
    fn input(&mut self, call: Call, ram: &mut [u8]) -> Written {
        match call {
            Call::Tick => tick(&mut self.cpu),
            Call::Receive(byte) => receive(&mut self.cpu, byte),
            Call::Sent => sent(&mut self.cpu),
            Call::SetRegister(number, word) => set_register(&mut self.cpu, number, word),
            Call::Poke(address, byte) => return poke(ram, address, byte),
            // a reset keeps the protected addresses
            Call::Reset => self.cpu = Cpu::new(self.cpu.stretch),
            Call::Step | Call::Run(_) | Call::StepBack => unreachable!("performed elsewhere"),
        }
        Written::default()
    }

    /// "Each accepted input but run writes one record at the next slot, over
    /// the oldest if full [...]. With no slots nothing is written."
    fn record(&mut self, before: &Cpu, written: &Written, journal: &mut [u16]) {
        let slots = journal.len() / RECORD;
        if slots == 0 {
            return;
        }
        let start = self.next * RECORD;
        journal[start..start + RECORD].copy_from_slice(&journal::encode(before, written));
        self.next = (self.next + 1) % slots;
        self.held = (self.held + 1).min(slots);
    }

    /// The slot of the newest record: "it moves next slot back (from 0 to the
    /// last)".
    fn newest_slot(&self, journal: &[u16]) -> usize {
        match self.next {
            0 => journal.len() / RECORD - 1,
            _ => self.next - 1,
        }
    }

    /// The newest record; at least one is held.
    fn newest<'a>(&self, journal: &'a [u16]) -> &'a [u16] {
        let start = self.newest_slot(journal) * RECORD;
        &journal[start..start + RECORD]
    }

    /// "A step-back restores the newest record's state and, of the one or two
    /// bytes that word 25 counts (the second address is the first plus 1
    /// modulo 65,536), those in RAM; it moves next slot back (from 0 to the
    /// last), lowers held by one and leaves the journal's words." It keeps the
    /// protected addresses, and is among those that "still write there".
    fn step_back(&mut self, ram: &mut [u8], journal: &[u16]) {
        let (cpu, written) = journal::decode(self.newest(journal), self.cpu.stretch);
        self.cpu = cpu;
        self.next = self.newest_slot(journal);
        self.held -= 1;
        let [first, second] = written.old.to_le_bytes();
        if written.count >= 1 {
            put_in_ram(ram, written.first, first);
        }
        if written.count >= 2 {
            put_in_ram(ram, written.first.wrapping_add(1), second);
        }
    }
}

/// Puts a byte at an address, if that is in RAM.
fn put_in_ram(ram: &mut [u8], address: u16, byte: u8) {
    if let Some(place) = ram.get_mut(usize::from(address)) {
        *place = byte;
    }
}

/// "Tick: counter plus 1 modulo 65,536, f bit 10 set, H=1."
fn tick(cpu: &mut Cpu) {
    cpu.devices.clock = cpu.devices.clock.wrapping_add(1);
    interrupt(cpu, ICLK);
}

/// "RXD takes it, R=1, f bit 11 set, H=1."
fn receive(cpu: &mut Cpu, byte: u8) {
    cpu.devices.rxd = byte;
    cpu.devices.r = true;
    interrupt(cpu, IKBD);
}

/// "T=1, f bit 11 set, H=1."
fn sent(cpu: &mut Cpu) {
    cpu.devices.t = true;
    interrupt(cpu, IKBD);
}

/// A device's interrupt: its bit of `f` is set, and H=1.
fn interrupt(cpu: &mut Cpu, bit: u16) {
    cpu.registers[F] |= bit;
    cpu.csrs[0] |= H;
}

/// "Set register: any number 0–15, any 16-bit content. If it is f and bit 9
/// is 0, the halted mark clears. H isn't touched."
fn set_register(cpu: &mut Cpu, number: u8, word: u16) {
    let number = usize::from(number);
    cpu.registers[number] = word;
    if number == F && word & EXC == 0 {
        cpu.halted = false;
    }
}

/// "Poke: one byte at a RAM address." It is among those that "still write
/// there", in the protected stretch.
fn poke(ram: &mut [u8], address: u16, byte: u8) -> Written {
    let old = u16::from(bus::ram_byte(ram, address));
    put_in_ram(ram, address, byte);
    Written {
        count: 1,
        first: address,
        old,
    }
}
