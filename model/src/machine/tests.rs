//! When each refusal is given, and what accepted calls leave.

use super::*;
use crate::bus::{RXD, TXD};
use crate::cpu::{IA, PC};

mod stretches;

/// Every call.
const CALLS: [Call; 9] = [
    Call::Step,
    Call::Tick,
    Call::Receive(7),
    Call::Sent,
    Call::SetRegister(3, 0x1234),
    Call::Poke(5, 0x77),
    Call::Reset,
    Call::Run(3),
    Call::StepBack,
];

/// A machine with its RAM and journal.
#[derive(Clone, Debug, PartialEq)]
struct Desk {
    machine: Machine,
    ram: Vec<u8>,
    journal: Vec<u16>,
}

impl Desk {
    /// A machine at the start.
    fn new(ram: usize, journal: usize) -> Desk {
        Desk {
            machine: Machine::new(Stretch::NONE),
            ram: vec![0; ram],
            journal: vec![0; journal],
        }
    }

    /// With these instructions, low byte first, from address 0 on.
    fn with(ram: usize, journal: usize, words: &[u16]) -> Desk {
        let mut desk = Desk::new(ram, journal);
        for (index, word) in words.iter().enumerate() {
            desk.ram[2 * index..2 * index + 2].copy_from_slice(&word.to_le_bytes());
        }
        desk
    }

    /// Makes a call.
    fn call(&mut self, call: Call) -> Answer {
        self.machine.call(call, &mut self.ram, &mut self.journal)
    }

    /// Makes a call that is to be accepted.
    fn accept(&mut self, call: Call) -> Answer {
        let answer = self.call(call);
        assert_eq!(answer.number, 0, "{call:?}");
        answer
    }

    /// Makes a call that is to be refused with this number, and sees that it
    /// changes nothing.
    fn refuse(&mut self, call: Call, number: u16) {
        let before = self.clone();
        assert_eq!(self.call(call), Answer::refused(number), "{call:?}");
        assert_eq!(*self, before);
    }

    /// A record of the journal.
    fn record(&self, slot: usize) -> &[u16] {
        &self.journal[RECORD * slot..RECORD * (slot + 1)]
    }
}

#[test]
fn refusal_1() {
    for call in CALLS {
        Desk::new(65_505, 32).refuse(call, 1);
        Desk::new(65_536, 31).refuse(call, 1);
        Desk::new(70_000, 0).refuse(call, 1);
        assert_ne!(Desk::new(65_504, 32).call(call).number, 1);
    }
}

#[test]
fn refusal_2() {
    for call in CALLS {
        for length in [1, 31, 33, 32_767, 32_769, 32_800, 65_536] {
            let mut desk = Desk::new(64, length);
            desk.machine.cpu.csrs[0] = 512;
            desk.refuse(call, 2);
        }
        for length in [0, 32, 64, 32_736, 32_768] {
            assert_ne!(Desk::new(64, length).call(call).number, 2);
        }
    }
}

/// The number of each call's answer for csr0, the next slot and the records
/// held, with a number of slots.
fn refused_with_3(csr0: u16, next: usize, held: usize, slots: usize) -> bool {
    let numbers = CALLS.map(|call| {
        let mut desk = Desk::new(64, RECORD * slots);
        desk.machine.cpu.csrs[0] = csr0;
        desk.machine.next = next;
        desk.machine.held = held;
        let before = desk.clone();
        let number = desk.call(call).number;
        assert!(number != 3 || desk == before);
        number == 3
    });
    assert!(numbers.iter().all(|is_3| *is_3 == numbers[0]));
    numbers[0]
}

#[test]
fn refusal_3() {
    for csr0 in [512, 0x8000, 0xffff] {
        assert!(refused_with_3(csr0, 0, 0, 0));
        assert!(refused_with_3(csr0, 0, 0, 2));
    }
    assert!(!refused_with_3(511, 0, 0, 2));
    assert!(!refused_with_3(0, 0, 0, 0));
    assert!(refused_with_3(0, 1, 0, 0));
    assert!(refused_with_3(0, 0, 1, 0));
    assert!(!refused_with_3(0, 0, 2, 2));
    assert!(!refused_with_3(0, 1, 2, 2));
    assert!(refused_with_3(0, 2, 2, 2));
    assert!(refused_with_3(0, 2, 0, 2));
    assert!(refused_with_3(0, 1, 3, 2));
    assert!(!refused_with_3(0, 0, 1, 1));
    assert!(refused_with_3(0, 1, 0, 1));
}

#[test]
fn refusal_4_is_of_a_lone_step_only() {
    let mut desk = Desk::new(64, 32);
    desk.machine.cpu.halted = true;
    desk.refuse(Call::Step, 4);
    for call in CALLS {
        if call != Call::Step {
            assert_ne!(desk.clone().call(call).number, 4);
        }
    }
    let before = desk.clone();
    let answer = desk.accept(Call::Run(5));
    assert_eq!(answer.steps, 0);
    assert_eq!((answer.bus, answer.cause), (0, Cause::Halted));
    assert_eq!(desk, before);
}

#[test]
fn refusal_5() {
    let mut desk = Desk::new(64, 32);
    desk.refuse(Call::Sent, 5);
    desk.accept(Call::Receive(0));
    desk.refuse(Call::Receive(1), 5);
    desk.machine.cpu.devices.t = false;
    desk.refuse(Call::Receive(1), 5);
    desk.accept(Call::Sent);
    desk.refuse(Call::Sent, 5);
}

#[test]
fn refusal_6() {
    let mut desk = Desk::new(64, 32);
    for number in 16..=255 {
        desk.refuse(Call::SetRegister(number, 1), 6);
    }
    for number in 0..16 {
        desk.accept(Call::SetRegister(number, 0xfe00 + u16::from(number)));
        let register = desk.machine.cpu.registers[usize::from(number)];
        assert_eq!(register, 0xfe00 + u16::from(number));
    }
}

#[test]
fn refusal_7() {
    let mut desk = Desk::new(64, 32);
    for address in [64, 65, 0xffe0, 0xffff] {
        desk.refuse(Call::Poke(address, 1), 7);
    }
    desk.accept(Call::Poke(63, 0xab));
    assert_eq!(desk.ram[63], 0xab);
    Desk::new(0, 32).refuse(Call::Poke(0, 1), 7);
    Desk::new(65_504, 0).accept(Call::Poke(0xffdf, 1));
    Desk::new(65_504, 0).refuse(Call::Poke(0xffe0, 1), 7);
}

#[test]
fn refusal_8() {
    for slots in [0, 1, 2] {
        let mut desk = Desk::new(64, RECORD * slots);
        desk.journal.fill(0xffff);
        desk.refuse(Call::StepBack, 8);
        desk.accept(Call::Tick);
        let number = desk.call(Call::StepBack).number;
        assert_eq!(number, if slots == 0 { 8 } else { 0 });
        desk.refuse(Call::StepBack, 8);
    }
}

#[test]
fn refusal_9() {
    let limits = [
        (16, 511),
        (24, 7),
        (25, 2),
        (28, 0),
        (29, 0),
        (30, 0),
        (31, 0),
    ];
    for (index, limit) in limits {
        for newest in [0, 1] {
            let mut desk = Desk::new(64, 64);
            desk.machine.next = 1 - newest;
            desk.machine.held = 1;
            desk.journal[RECORD * newest + index] = limit + 1;
            desk.refuse(Call::StepBack, 9);
            desk.journal[RECORD * newest + index] = limit;
            desk.journal[RECORD * (1 - newest) + index] = limit + 1;
            desk.accept(Call::StepBack);
        }
    }
}

/// What a call leaves of a machine whose state is not that of the start.
fn after(call: Call) -> Desk {
    let mut desk = Desk::new(64, 32);
    desk.ram[5] = 0x55;
    desk.machine.cpu.registers = [0x5678; 16];
    desk.machine.cpu.registers[F] = 0x0211;
    desk.machine.cpu.csrs = [0x0055, 1, 2, 3, 4, 5];
    desk.machine.cpu.devices.clock = 0xffff;
    desk.machine.cpu.devices.rxd = 0x31;
    desk.machine.cpu.devices.txd = 0x32;
    desk.machine.cpu.devices.t = false;
    desk.machine.cpu.halted = true;
    let before = journal::encode(&desk.machine.cpu, &Written::default());
    desk.accept(call);
    assert_eq!(desk.record(0)[..25], before[..25]);
    assert_eq!((desk.machine.next, desk.machine.held), (0, 1));
    desk
}

#[test]
fn ticks() {
    let desk = after(Call::Tick);
    let cpu = desk.machine.cpu;
    assert_eq!(cpu.devices.clock, 0);
    assert_eq!((cpu.registers[F], cpu.csrs[0]), (0x0611, 0x0155));
    assert!(cpu.halted);
    assert_eq!(desk.record(0)[25..], [0; 7]);
}

#[test]
fn receives() {
    let cpu = after(Call::Receive(0x99)).machine.cpu;
    assert_eq!((cpu.devices.rxd, cpu.devices.r), (0x99, true));
    assert_eq!((cpu.devices.txd, cpu.devices.t), (0x32, false));
    assert_eq!((cpu.registers[F], cpu.csrs[0]), (0x0a11, 0x0155));
    assert!(cpu.halted);
}

#[test]
fn sents() {
    let cpu = after(Call::Sent).machine.cpu;
    assert_eq!((cpu.devices.rxd, cpu.devices.r), (0x31, false));
    assert_eq!((cpu.devices.txd, cpu.devices.t), (0x32, true));
    assert_eq!((cpu.registers[F], cpu.csrs[0]), (0x0a11, 0x0155));
    assert!(cpu.halted);
}

#[test]
fn set_registers() {
    let cpu = after(Call::SetRegister(3, 0x1234)).machine.cpu;
    assert_eq!((cpu.registers[3], cpu.csrs[0]), (0x1234, 0x0055));
    assert!(cpu.halted);
    let cpu = after(Call::SetRegister(14, 0xfdff)).machine.cpu;
    assert_eq!((cpu.registers[F], cpu.csrs[0]), (0xfdff, 0x0055));
    assert!(!cpu.halted);
    assert!(after(Call::SetRegister(14, 0x0200)).machine.cpu.halted);
    assert!(after(Call::SetRegister(15, 0)).machine.cpu.halted);
    let mut desk = Desk::new(64, 32);
    desk.accept(Call::SetRegister(14, 0x0200));
    assert!(!desk.machine.cpu.halted);
}

#[test]
fn pokes() {
    let desk = after(Call::Poke(5, 0x77));
    assert_eq!(desk.ram[5], 0x77);
    assert_eq!(desk.record(0)[25..], [1, 5, 0x55, 0, 0, 0, 0]);
    assert!(desk.machine.cpu.halted);
}

#[test]
fn resets() {
    let desk = after(Call::Reset);
    assert_eq!(desk.machine.cpu, Cpu::new(Stretch::NONE));
    assert_eq!(desk.ram[5], 0x55);
}

#[test]
fn lone_steps() {
    let mut desk = Desk::with(64, 32, &[0x1215]);
    desk.machine.cpu.registers[1] = 0x20;
    desk.machine.cpu.registers[2] = 0xabcd;
    desk.ram[0x20] = 0x11;
    desk.ram[0x21] = 0x22;
    let before = journal::encode(&desk.machine.cpu, &Written::default());
    let answer = desk.accept(Call::Step);
    assert_eq!((answer.steps, answer.bus), (1, 4));
    assert_eq!(answer.cause, Cause::None);
    assert_eq!(desk.record(0)[..25], before[..25]);
    assert_eq!(desk.record(0)[25..], [2, 0x20, 0x2211, 0, 0, 0, 0]);
}

#[test]
fn records_of_ignored_writes() {
    let mut desk = Desk::with(64, 32, &[0x1216]);
    desk.machine.cpu.registers[1] = TXD;
    desk.accept(Call::Step);
    assert_eq!(desk.record(0)[25..28], [1, TXD, 0]);
    desk.machine.cpu.registers[1] = 63;
    desk.machine.cpu.registers[PC] = 0;
    desk.ram[0] = 0x15;
    desk.ram[63] = 0x99;
    desk.accept(Call::Step);
    assert_eq!(desk.record(0)[25..28], [2, 63, 0x0099]);
}

#[test]
fn records_go_round() {
    let mut desk = Desk::new(64, 96);
    for tick in 0..7 {
        assert_eq!(desk.machine.next, tick % 3);
        assert_eq!(desk.machine.held, tick.min(3));
        desk.accept(Call::Tick);
    }
    let clocks = [0, 1, 2].map(|slot| desk.record(slot)[22]);
    assert_eq!(clocks, [6, 4, 5]);
    let words = desk.journal.clone();
    for (clock, next) in [(6, 0), (5, 2), (4, 1)] {
        desk.accept(Call::StepBack);
        assert_eq!(desk.machine.cpu.devices.clock, clock);
        assert_eq!(desk.machine.next, next);
    }
    assert_eq!(desk.journal, words);
    desk.refuse(Call::StepBack, 8);
}

#[test]
fn one_slot() {
    let mut desk = Desk::new(64, 32);
    for _ in 0..3 {
        desk.accept(Call::Tick);
        assert_eq!((desk.machine.next, desk.machine.held), (0, 1));
    }
    desk.accept(Call::StepBack);
    assert_eq!(desk.machine.cpu.devices.clock, 2);
    assert_eq!((desk.machine.next, desk.machine.held), (0, 0));
}

#[test]
fn no_slots() {
    let mut desk = Desk::new(64, 0);
    desk.accept(Call::Tick);
    desk.accept(Call::Poke(1, 2));
    desk.accept(Call::Run(1));
    assert_eq!((desk.machine.next, desk.machine.held), (0, 0));
    assert_eq!(desk.machine.cpu.devices.clock, 1);
    assert_eq!(desk.ram[1], 2);
    desk.refuse(Call::StepBack, 8);
}

/// Every call that writes one record is undone by one step-back.
#[test]
fn step_backs_undo() {
    let mut calls = CALLS.to_vec();
    calls.retain(|call| *call != Call::StepBack && *call != Call::Run(3));
    calls.push(Call::Run(1));
    for call in calls {
        let mut desk = Desk::with(64, 32, &[0x1215]);
        desk.machine.cpu.registers[1] = 63;
        desk.machine.cpu.registers[2] = 0xabcd;
        desk.machine.cpu.devices.t = false;
        let before = desk.clone();
        desk.accept(call);
        assert_ne!((desk.machine, &desk.ram), (before.machine, &before.ram));
        desk.accept(Call::StepBack);
        assert_eq!((desk.machine, &desk.ram), (before.machine, &before.ram));
    }
}

/// Stores at the last byte of RAM, at 0xffff and at 0.
#[test]
fn step_backs_through_stores_at_edges() {
    for address in [0, 62, 63, 64, 0xffdf, 0xffe0, 0xffe1, 0xfffe, 0xffff] {
        for opcode in [0x1215, 0x1216, 0x1217] {
            let mut desk = Desk::with(64, 64, &[opcode]);
            desk.ram[63] = 0x3f;
            desk.machine.cpu.registers[1] = address;
            desk.machine.cpu.registers[2] = 0xabcd;
            desk.machine.cpu.devices.r = true;
            let before = desk.clone();
            desk.accept(Call::Step);
            desk.accept(Call::StepBack);
            assert_eq!((desk.machine, &desk.ram), (before.machine, &before.ram));
        }
    }
}

#[test]
fn step_backs_with_another_ram() {
    let mut desk = Desk::with(64, 32, &[0x1215]);
    desk.machine.cpu.registers[1] = 63;
    desk.machine.cpu.registers[2] = 0xabcd;
    desk.ram[63] = 0x3f;
    desk.accept(Call::Step);
    desk.ram.push(0x40);
    desk.accept(Call::StepBack);
    assert_eq!(desk.ram[63..], [0x3f, 0]);
    desk.machine.held = 1;
    desk.ram.truncate(63);
    desk.accept(Call::StepBack);
    assert_eq!(desk.ram.len(), 63);
}

/// The count decides: bytes that it does not count are not restored.
#[test]
fn step_backs_with_damaged_counts() {
    for count in 0..3 {
        let mut desk = Desk::new(4, 32);
        desk.machine.held = 1;
        desk.journal[25..28].copy_from_slice(&[count, 0xffff, 0x2211]);
        desk.accept(Call::StepBack);
        let first = if count == 2 { 0x22 } else { 0 };
        assert_eq!(desk.ram, [first, 0, 0, 0]);
        desk.machine.held = 1;
        desk.journal[26] = 1;
        desk.accept(Call::StepBack);
        let restored = [[0, 0], [0x11, 0], [0x11, 0x22]][usize::from(count)];
        assert_eq!(desk.ram[1..3], restored);
    }
}

#[test]
fn runs() {
    let mut desk = Desk::with(64, 64, &[0x1215, 0x120a, 0x1201, 0x0000]);
    desk.machine.cpu.registers[1] = RXD;
    let answer = desk.clone().accept(Call::Run(0));
    assert_eq!((answer.steps, answer.bus), (0, 0));
    assert_eq!(answer.cause, Cause::Budget);
    let answer = desk.clone().accept(Call::Run(3));
    assert_eq!((answer.steps, answer.bus), (3, 10));
    assert_eq!(answer.cause, Cause::Budget);
    for budget in [4, 5, 65_535] {
        let mut desk = desk.clone();
        let answer = desk.accept(Call::Run(budget));
        assert_eq!((answer.steps, answer.bus), (4, 12));
        assert_eq!(answer.cause, Cause::Halted);
        assert_eq!((desk.machine.next, desk.machine.held), (0, 2));
        assert_eq!(desk.record(1)[PC], 6);
        let answer = desk.accept(Call::Run(0));
        assert_eq!((answer.steps, answer.cause), (0, Cause::Halted));
    }
}

#[test]
fn the_longest_run() {
    let mut desk = Desk::with(64, 32_768, &[0xff06]);
    desk.machine.cpu.registers[PC] = 0;
    let answer = desk.accept(Call::Run(65_535));
    assert_eq!((answer.steps, answer.bus), (65_535, 131_070));
    assert_eq!(answer.cause, Cause::Budget);
    assert_eq!((desk.machine.next, desk.machine.held), (1023, 1024));
}

/// A run is its steps: state, RAM and journal are the same.
#[test]
fn a_run_is_its_steps() {
    let words = [0x1215, 0x1209, 0x2107, 0xff0a, 0x0000];
    let mut desk = Desk::with(64, 96, &words);
    desk.machine.cpu.registers[1] = 0x20;
    let mut other = desk.clone();
    let mut bus = 0;
    for _ in 0..9 {
        bus += desk.accept(Call::Step).bus;
    }
    assert_eq!(other.accept(Call::Run(9)).bus, bus);
    assert_eq!(desk, other);
}

#[test]
fn an_interrupt_from_a_tick_is_taken_in_a_run() {
    let mut desk = Desk::new(64, 96);
    desk.machine.cpu.registers[IA] = 0x10;
    desk.machine.cpu.registers[F] = 0x0100;
    desk.accept(Call::Tick);
    let answer = desk.accept(Call::Run(1));
    assert_eq!((answer.steps, answer.bus), (1, 0));
    assert_eq!(desk.machine.cpu.registers[PC], 0x10);
    assert_eq!(desk.machine.cpu.registers[F], 0x0400);
    desk.accept(Call::SetRegister(14, 0x0c00));
    assert_eq!(desk.machine.cpu.csrs[0], 0x0100);
}
