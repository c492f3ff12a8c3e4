//! Writes the commands of the call vectors and of the watched vectors. It
//! obeys each command as it is written, so that a scenario can look at the
//! machine to choose the next.

use super::desk::{self, Command, Desk};
use super::points;
use super::programs::{self, Part};
use super::Random;
use crate::journal::RECORD;
use crate::machine::{Answer, Call};
use crate::watched::{Entry, Told};

/// The commands so far, and the desk that has obeyed them.
pub struct Script {
    /// The desk.
    pub desk: Desk,
    /// The commands.
    pub commands: Vec<Command>,
    /// What scenarios choose with.
    pub random: Random,
}

impl Script {
    /// No commands.
    pub fn new() -> Script {
        Script {
            desk: Desk::new(),
            commands: Vec::new(),
            random: Random::new(1016),
        }
    }

    /// Adds a command.
    pub fn command(&mut self, kind: u8, y: u8, a: u16, b: u16) -> Option<Answer> {
        let command = Command { kind, y, a, b };
        self.commands.push(command);
        self.desk.obey(command)
    }

    /// Adds a call.
    pub fn call(&mut self, call: Call) -> Answer {
        let Command { kind, y, a, b } = Command::of_call(call);
        self.command(kind, y, a, b).expect("calls are answered")
    }

    /// Adds several calls.
    pub fn calls(&mut self, calls: &[Call]) {
        for call in calls {
            self.call(*call);
        }
    }

    /// Begins a scenario with these lengths of RAM and journal.
    pub fn start(&mut self, ram_length: u16, journal_length: u16) {
        let fill = self.random.byte();
        self.command(desk::START, fill, 0, 0);
        self.lend(ram_length, journal_length);
    }

    /// Changes what is lent.
    pub fn lend(&mut self, ram_length: u16, journal_length: u16) {
        self.command(desk::SET_RAM_LENGTH, 0, ram_length, 0);
        self.command(desk::SET_JOURNAL_LENGTH, 0, journal_length, 0);
    }

    /// Puts bytes in the RAM buffer.
    pub fn load(&mut self, address: u16, bytes: &[u8]) {
        for (offset, byte) in bytes.iter().enumerate() {
            let place = address.wrapping_add(offset as u16);
            self.command(desk::SET_RAM_BYTE, *byte, place, 0);
        }
    }

    /// Puts lines of a program in the RAM buffer.
    pub fn load_lines(&mut self, address: u16, lines: &[&str]) {
        self.load(address, &programs::bytes_of(lines));
    }

    /// Puts a program in the RAM buffer.
    pub fn load_program(&mut self, program: &[Part]) {
        for (address, lines) in program {
            self.load_lines(*address, lines);
        }
    }

    /// Sets a register without a call.
    pub fn register(&mut self, number: u8, word: u16) {
        self.command(desk::SET_REGISTER, number, word, 0);
    }

    /// Sets the halted mark without a call.
    pub fn halted(&mut self, halted: bool) {
        self.command(desk::SET_HALTED, u8::from(halted), 0, 0);
    }

    /// Sets csr0, the next slot and the records held without a call.
    pub fn state(&mut self, csr0: u16, next: u16, held: u16) {
        self.command(desk::SET_CSR0, 0, csr0, 0);
        self.command(desk::SET_NEXT, 0, next, 0);
        self.command(desk::SET_HELD, 0, held, 0);
    }

    /// Sets the protected addresses.
    pub fn stretch(&mut self, first: u16, last: u16) {
        self.command(desk::SET_STRETCH, 0, first, last);
    }

    /// Makes these entries the list; what stands there already is not written
    /// again.
    pub fn list(&mut self, entries: &[Entry]) {
        for (place, entry) in entries.iter().enumerate() {
            let Entry {
                address,
                kind,
                hits,
            } = *entry;
            let old = self.desk.points.entries[place];
            if (old.address, old.kind) != (address, kind) {
                self.command(points::SET_ENTRY, place as u8, address, kind);
            }
            if old.hits != hits {
                self.command(points::SET_HITS, place as u8, hits, 0);
            }
        }
        self.lend_entries(entries.len() as u16);
    }

    /// Lends so many entries, also more than there are.
    pub fn lend_entries(&mut self, count: u16) {
        self.command(points::SET_ENTRIES, 0, count, 0);
    }

    /// Adds a watched run.
    pub fn watched(&mut self, budget: u16) -> Told {
        self.command(desk::RUN_WATCHED, 0, budget, 0);
        self.desk.told.expect("the run was made")
    }

    /// Shows the digest.
    pub fn show(&mut self) {
        self.command(desk::SHOW, 0, 0, 0);
    }

    /// Steps back some times.
    pub fn step_backs(&mut self, times: usize) {
        for _ in 0..times {
            self.call(Call::StepBack);
        }
    }

    /// Where a word of the newest record is in the journal.
    pub fn place_in_newest(&self, word: usize) -> usize {
        let slots = self.desk.journal_length / RECORD;
        let slot = (self.desk.machine.next + slots - 1) % slots;
        slot * RECORD + word
    }

    /// Writes a word of the newest record.
    pub fn damage(&mut self, word: usize, content: u16) {
        let place = self.place_in_newest(word) as u16;
        self.command(desk::SET_JOURNAL_WORD, 0, place, content);
    }
}
