//! The commands of the call vectors and of the watched vectors, and the desk
//! that obeys them: a machine with RAM, a journal, a list and a digest.

use super::points::Points;
use super::Digest;
use crate::bus::Stretch;
use crate::machine::{Answer, Call, Cause, Machine};
use crate::watched::{self, Stop, Told};

/// The bytes of the RAM buffer.
const RAM: usize = 65_536;
/// The words of the journal buffer.
const JOURNAL: usize = 33_000;
/// The bytes of a command.
pub const COMMAND: usize = 6;

/// A word of the journal buffer is set.
pub const SET_JOURNAL_WORD: u8 = 9;
/// csr0 is set.
pub const SET_CSR0: u8 = 10;
/// The next slot is set.
pub const SET_NEXT: u8 = 11;
/// The records held are set.
pub const SET_HELD: u8 = 12;
/// The length of RAM is set.
pub const SET_RAM_LENGTH: u8 = 13;
/// The length of the journal is set.
pub const SET_JOURNAL_LENGTH: u8 = 14;
/// A scenario begins.
pub const START: u8 = 15;
/// A byte of the RAM buffer is set.
pub const SET_RAM_BYTE: u8 = 16;
/// RAM and journal are absorbed, and the digest is shown.
pub const SHOW: u8 = 17;
/// A register is set.
pub const SET_REGISTER: u8 = 18;
/// The halted mark is set.
pub const SET_HALTED: u8 = 19;
/// A watched run is made; the three kinds above it arrange its list.
pub const RUN_WATCHED: u8 = 20;
/// The protected addresses are set.
pub const SET_STRETCH: u8 = 24;

/// A command: its kind and what goes with it.
#[derive(Clone, Copy, Debug, PartialEq, Eq)]
pub struct Command {
    /// 0 to 8 are calls, the others arrange what the calls find.
    pub kind: u8,
    /// A byte.
    pub y: u8,
    /// A word.
    pub a: u16,
    /// Another word.
    pub b: u16,
}

impl Command {
    /// The command that makes a call.
    pub fn of_call(call: Call) -> Command {
        let (kind, y, a) = match call {
            Call::Step => (0, 0, 0),
            Call::Tick => (1, 0, 0),
            Call::Receive(byte) => (2, byte, 0),
            Call::Sent => (3, 0, 0),
            Call::SetRegister(number, word) => (4, number, word),
            Call::Poke(address, byte) => (5, byte, address),
            Call::Reset => (6, 0, 0),
            Call::Run(budget) => (7, 0, budget),
            Call::StepBack => (8, 0, 0),
        };
        Command { kind, y, a, b: 0 }
    }

    /// The call that the command makes, if it makes one.
    pub fn call(self) -> Option<Call> {
        match self.kind {
            0 => Some(Call::Step),
            1 => Some(Call::Tick),
            2 => Some(Call::Receive(self.y)),
            3 => Some(Call::Sent),
            4 => Some(Call::SetRegister(self.y, self.a)),
            5 => Some(Call::Poke(self.a, self.y)),
            6 => Some(Call::Reset),
            7 => Some(Call::Run(self.a)),
            8 => Some(Call::StepBack),
            _ => None,
        }
    }

    /// Kind and byte, then the words, low byte first.
    pub fn encode(self) -> [u8; COMMAND] {
        let [a_low, a_high] = self.a.to_le_bytes();
        let [b_low, b_high] = self.b.to_le_bytes();
        [self.kind, self.y, a_low, a_high, b_low, b_high]
    }

    /// The command of six bytes.
    pub fn decode(bytes: &[u8]) -> Command {
        Command {
            kind: bytes[0],
            y: bytes[1],
            a: u16::from_le_bytes([bytes[2], bytes[3]]),
            b: u16::from_le_bytes([bytes[4], bytes[5]]),
        }
    }
}

/// A machine, the buffers from which RAM and journal are lent, the list of
/// watched runs, and the lines shown so far.
pub struct Desk {
    /// The machine.
    pub machine: Machine,
    /// The RAM buffer.
    pub ram: Vec<u8>,
    /// The journal buffer.
    pub journal: Vec<u16>,
    /// How many bytes of the RAM buffer are lent.
    pub ram_length: usize,
    /// How many words of the journal buffer are lent.
    pub journal_length: usize,
    /// The list.
    pub points: Points,
    /// What the last watched run answered.
    pub told: Option<Told>,
    digest: Digest,
    lines: Vec<String>,
}

impl Desk {
    /// A desk before the first command, with nothing lent.
    pub fn new() -> Desk {
        Desk {
            machine: Machine::new(Stretch::NONE),
            ram: vec![0; RAM],
            journal: vec![0; JOURNAL],
            ram_length: 0,
            journal_length: 0,
            points: Points::new(),
            told: None,
            digest: Digest::new(),
            lines: Vec::new(),
        }
    }

    /// The lines shown.
    pub fn output(&self) -> String {
        self.lines.concat()
    }

    /// Obeys a command; a call gives its answer.
    pub fn obey(&mut self, command: Command) -> Option<Answer> {
        let call = command.call();
        if call.is_none() {
            self.arrange(command);
        }
        call.map(|call| self.make(call))
    }

    /// Makes a call, and absorbs the answer and the machine.
    fn make(&mut self, call: Call) -> Answer {
        let ram = &mut self.ram[..self.ram_length];
        let journal = &mut self.journal[..self.journal_length];
        let answer = self.machine.call(call, ram, journal);
        self.absorb_answer(&answer);
        self.absorb_machine();
        answer
    }

    /// Absorbs an answer.
    fn absorb_answer(&mut self, answer: &Answer) {
        let cause = match answer.cause {
            Cause::None => 0,
            Cause::Budget => 1,
            Cause::Halted => 2,
        };
        self.absorb_counts(answer.number, answer.steps, answer.bus);
        self.digest.absorb(cause);
    }

    /// Absorbs the numbers that every answer has.
    fn absorb_counts(&mut self, number: u16, steps: u16, bus: u32) {
        self.digest.absorb(number);
        self.digest.absorb(steps);
        self.digest.absorb((bus % 65_536) as u16);
        self.digest.absorb((bus / 65_536) as u16);
    }

    /// Makes a watched run, and absorbs the answer, the machine and the list.
    fn run_watched(&mut self, budget: u16) {
        let ram = &mut self.ram[..self.ram_length];
        let journal = &mut self.journal[..self.journal_length];
        let mut list = self.points.lent();
        let told = watched::run(&mut self.machine, ram, journal, &mut list, budget);
        self.points.take_back(&list);
        let (cause, place) = match told.stop {
            Stop::None => (0, 0),
            Stop::Budget => (1, 0),
            Stop::Halted => (2, 0),
            Stop::Watch(place) => (3, place),
            Stop::Break(place) => (4, place),
        };
        self.absorb_counts(told.number, told.steps, told.bus);
        self.digest.absorb(cause);
        self.digest.absorb(place as u16);
        self.absorb_machine();
        self.points.absorb(&mut self.digest);
        self.told = Some(told);
    }

    /// Absorbs the machine.
    fn absorb_machine(&mut self) {
        let cpu = &self.machine.cpu;
        for word in cpu.registers.iter().chain(&cpu.csrs) {
            self.digest.absorb(*word);
        }
        self.digest.absorb(cpu.devices.clock);
        self.digest.absorb(cpu.keyboard());
        self.digest.absorb(cpu.marks());
        self.digest.absorb((self.machine.next % 65_536) as u16);
        self.digest.absorb((self.machine.held % 65_536) as u16);
        self.digest.absorb(cpu.stretch.first);
        self.digest.absorb(cpu.stretch.last);
    }

    /// Obeys a command that makes no call; kinds that are none of these do
    /// nothing.
    fn arrange(&mut self, command: Command) {
        let Command { kind, y, a, b } = command;
        let number = usize::from(a);
        match kind {
            SET_JOURNAL_WORD if number < JOURNAL => self.journal[number] = b,
            SET_CSR0 => self.machine.cpu.csrs[0] = a,
            SET_NEXT => self.machine.next = number,
            SET_HELD => self.machine.held = number,
            SET_RAM_LENGTH => self.ram_length = number,
            SET_JOURNAL_LENGTH if number <= JOURNAL => self.journal_length = number,
            START => self.start(y),
            SET_RAM_BYTE => self.ram[number] = y,
            SHOW => self.show(),
            SET_REGISTER => self.machine.cpu.registers[usize::from(y % 16)] = a,
            SET_HALTED => self.machine.cpu.halted = y % 2 == 1,
            RUN_WATCHED => self.run_watched(a),
            SET_STRETCH => self.machine.cpu.stretch = Stretch { first: a, last: b },
            _ => self.points.arrange(command),
        }
    }

    /// Begins a scenario: the machine as at the start with nothing protected,
    /// the journal buffer all 0, the RAM buffer filled, no entries. Lengths of
    /// RAM and journal stay.
    fn start(&mut self, fill: u8) {
        self.machine = Machine::new(Stretch::NONE);
        self.points = Points::new();
        self.journal.fill(0);
        for (address, byte) in self.ram.iter_mut().enumerate() {
            *byte = ((address * 37 + usize::from(fill)) % 251) as u8;
        }
        self.digest = Digest::new();
    }

    /// Absorbs RAM and journal, and adds a line with its number and the
    /// digest, which goes on from there.
    fn show(&mut self) {
        self.digest.absorb_bytes(&self.ram[..self.ram_length]);
        for word in &self.journal[..self.journal_length] {
            self.digest.absorb(*word);
        }
        let line = format!("{} {}\n", self.lines.len(), self.digest.digits());
        self.lines.push(line);
    }
}

#[cfg(test)]
mod tests {
    use super::super::points::{SET_ENTRIES, SET_ENTRY};
    use super::*;

    /// A command of this kind.
    fn command(kind: u8, y: u8, a: u16, b: u16) -> Command {
        Command { kind, y, a, b }
    }

    /// A desk that has obeyed these commands.
    fn after(commands: &[Command]) -> Desk {
        let mut desk = Desk::new();
        for command in commands {
            desk.obey(*command);
        }
        desk
    }

    #[test]
    fn commands_as_bytes() {
        let one = command(9, 0x12, 0x3456, 0x789a);
        assert_eq!(one.encode(), [9, 0x12, 0x56, 0x34, 0x9a, 0x78]);
        assert_eq!(Command::decode(&one.encode()), one);
    }

    #[test]
    fn calls_as_commands() {
        let calls = [
            Call::Step,
            Call::Tick,
            Call::Receive(0x91),
            Call::Sent,
            Call::SetRegister(0x92, 0x1234),
            Call::Poke(0x5678, 0x93),
            Call::Reset,
            Call::Run(0x9abc),
            Call::StepBack,
        ];
        for (kind, call) in calls.iter().enumerate() {
            let command = Command::of_call(*call);
            assert_eq!(usize::from(command.kind), kind);
            assert_eq!(command.call(), Some(*call));
        }
        assert_eq!(command(9, 0, 0, 0).call(), None);
    }

    #[test]
    fn arrangements() {
        let desk = after(&[
            command(START, 7, 0, 0),
            command(SET_JOURNAL_WORD, 0, 32_999, 0xbeef),
            command(SET_JOURNAL_WORD, 0, 33_000, 0xbeef),
            command(SET_CSR0, 0, 0x1234, 0),
            command(SET_NEXT, 0, 5, 0),
            command(SET_HELD, 0, 6, 0),
            command(SET_RAM_LENGTH, 0, 65_535, 0),
            command(SET_JOURNAL_LENGTH, 0, 33_000, 0),
            command(SET_JOURNAL_LENGTH, 0, 33_001, 0),
            command(SET_RAM_BYTE, 0x99, 0xffff, 0),
            command(SET_REGISTER, 0x12, 0x4321, 0),
            command(SET_HALTED, 3, 0, 0),
            command(SET_STRETCH, 0, 0x1234, 0x5678),
            command(25, 1, 1, 1),
            command(255, 1, 1, 1),
        ]);
        assert_eq!(desk.journal[32_999], 0xbeef);
        assert_eq!(desk.machine.cpu.csrs[0], 0x1234);
        assert_eq!((desk.machine.next, desk.machine.held), (5, 6));
        assert_eq!((desk.ram_length, desk.journal_length), (65_535, 33_000));
        assert_eq!((desk.ram[0], desk.ram[1], desk.ram[7]), (7, 44, 15));
        assert_eq!(desk.ram[0xffff], 0x99);
        assert_eq!(desk.machine.cpu.registers[2], 0x4321);
        assert!(desk.machine.cpu.halted);
        let stretch = desk.machine.cpu.stretch;
        assert_eq!((stretch.first, stretch.last), (0x1234, 0x5678));
        assert_eq!(desk.output(), "");
        assert_eq!(desk.points, Points::new());
    }

    #[test]
    fn a_start_keeps_only_lengths_and_lines() {
        let desk = after(&[
            command(SET_RAM_LENGTH, 0, 2, 0),
            command(SET_JOURNAL_LENGTH, 0, 32, 0),
            command(1, 0, 0, 0),
            command(SET_ENTRY, 5, 1, 2),
            command(SET_ENTRIES, 0, 7, 0),
            command(SET_STRETCH, 0, 0, 9),
            command(SHOW, 0, 0, 0),
            command(START, 1, 0, 0),
            command(SHOW, 0, 0, 0),
        ]);
        let mut digest = Digest::new();
        digest.absorb_bytes(&[1, 38]);
        digest.absorb_bytes(&[0; 32]);
        let line = format!("1 {}\n", digest.digits());
        assert_eq!(desk.lines.len(), 2);
        assert_eq!(desk.lines[1], line);
        assert_eq!(desk.machine, Machine::new(Stretch::NONE));
        assert_eq!(desk.points, Points::new());
    }

    #[test]
    fn what_a_watched_run_absorbs() {
        let desk = after(&[
            command(SET_RAM_LENGTH, 0, 2, 0),
            command(START, 0, 0, 0),
            command(SET_RAM_BYTE, 0x16, 0, 0),
            command(SET_RAM_BYTE, 0x12, 1, 0),
            command(SET_ENTRY, 1, 0, 2),
            command(SET_ENTRY, 0, 9, 1),
            command(SET_ENTRIES, 0, 2, 0),
            command(RUN_WATCHED, 0, 5, 0),
            command(SHOW, 0, 0, 0),
        ]);
        let mut digest = Digest::new();
        let answer = [0, 1, 3, 0, 3, 1];
        answer.iter().for_each(|word| digest.absorb(*word));
        (0..15).for_each(|_| digest.absorb(0));
        digest.absorb(2);
        (0..8).for_each(|_| digest.absorb(0));
        [2, 0, 0, 1, 0].iter().for_each(|word| digest.absorb(*word));
        digest.absorb(2);
        for two in [[9, 0], [1, 2], [0, 1]] {
            two.iter().for_each(|word| digest.absorb(*word));
            (0..62).for_each(|_| digest.absorb(0));
        }
        digest.absorb_bytes(&[0, 0x12]);
        assert_eq!(desk.output(), format!("0 {}\n", digest.digits()));
    }

    #[test]
    fn what_a_call_absorbs() {
        let desk = after(&[
            command(START, 0, 0, 0),
            command(1, 0, 0, 0),
            command(2, 0x55, 0, 0),
            command(3, 0, 0, 0),
            command(7, 0, 2, 0),
            command(SHOW, 0, 0, 0),
        ]);
        let mut digest = Digest::new();
        let tails = [
            ([0, 0, 0, 0, 0], 0, [0x0400, 0], [1, 0x0000, 2]),
            ([0, 0, 0, 0, 0], 0, [0x0c00, 0], [1, 0x0055, 3]),
            ([5, 0, 0, 0, 0], 0, [0x0c00, 0], [1, 0x0055, 3]),
            ([0, 1, 2, 0, 2], 1, [0x0e00, 2], [1, 0x0055, 7]),
        ];
        for (answer, reason, f_and_pc, rest) in tails {
            answer.iter().for_each(|word| digest.absorb(*word));
            (0..14).for_each(|_| digest.absorb(0));
            f_and_pc.iter().for_each(|word| digest.absorb(*word));
            digest.absorb(0x0100 + reason);
            (0..5).for_each(|_| digest.absorb(0));
            rest.iter().for_each(|word| digest.absorb(*word));
            (0..2).for_each(|_| digest.absorb(0));
            [1, 0].iter().for_each(|word| digest.absorb(*word));
        }
        assert_eq!(desk.output(), format!("0 {}\n", digest.digits()));
    }
}
