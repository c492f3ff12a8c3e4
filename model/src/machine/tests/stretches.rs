//! Each sentence about the protected stretch, tried: change request Q-4. What
//! watches make of it is with the tests of the watched run, what a pen makes of
//! it with those of the bench.

use super::*;
use crate::bus::{CLOCK_LOW, READY};

/// `sto r1, r2`
const STO: u16 = 0x1215;
/// `stob r1, r2`
const STOB: u16 = 0x1216;
/// `ddsto r1, r2`
const DDSTO: u16 = 0x1217;

/// A machine with 64 bytes of RAM that are 0x55, 3 slots and these protected
/// addresses. It is about to run an instruction at 0 with these r1 and r2.
fn protected(first: u16, last: u16, instruction: u16, r1: u16, r2: u16) -> Desk {
    let mut desk = Desk::with(64, 96, &[]);
    desk.machine = Machine::new(Stretch { first, last });
    desk.ram.fill(0x55);
    desk.ram[..2].copy_from_slice(&instruction.to_le_bytes());
    desk.machine.cpu.registers[1] = r1;
    desk.machine.cpu.registers[2] = r2;
    desk
}

/// The bytes at 40, 41, 42 and 43 after a store of 0xabcd to this address.
fn stored(first: u16, last: u16, instruction: u16, address: u16) -> [u8; 4] {
    let mut desk = protected(first, last, instruction, address, 0xabcd);
    desk.accept(Call::Step);
    desk.ram[40..44].try_into().expect("four bytes")
}

/// "A store by an instruction to a protected RAM byte is dropped", the first
/// and the last address among them.
#[test]
fn bytes_are_dropped_from_the_first_to_the_last_address() {
    let at = |address| stored(41, 42, STOB, address);
    assert_eq!(at(40), [0xcd, 0x55, 0x55, 0x55]);
    assert_eq!(at(41), [0x55; 4]);
    assert_eq!(at(42), [0x55; 4]);
    assert_eq!(at(43), [0x55, 0x55, 0x55, 0xcd]);
}

/// "the word's other byte still goes in"
#[test]
fn the_other_byte_of_a_word_goes_in() {
    for (instruction, address) in [(STO, 41), (DDSTO, 43)] {
        let with = |first, last| stored(first, last, instruction, address);
        assert_eq!(with(41, 41), [0x55, 0x55, 0xab, 0x55]);
        assert_eq!(with(42, 42), [0x55, 0xcd, 0x55, 0x55]);
        assert_eq!(with(41, 42), [0x55; 4]);
        assert_eq!(with(0, 41), [0x55, 0x55, 0xab, 0x55]);
        assert_eq!(with(42, 0xffff), [0x55, 0xcd, 0x55, 0x55]);
        assert_eq!(with(40, 40), [0x55, 0xcd, 0xab, 0x55]);
        assert_eq!(with(43, 43), [0x55, 0xcd, 0xab, 0x55]);
    }
}

/// "first above last means none"
#[test]
fn first_above_last_means_none() {
    for (first, last) in [(1, 0), (42, 41), (0xffff, 0), (0xffff, 41), (42, 0)] {
        assert_eq!(stored(first, last, STO, 41), [0x55, 0xcd, 0xab, 0x55]);
    }
    assert_eq!(stored(41, 41, STOB, 41), [0x55; 4]);
}

/// A word at 0xffff goes on at 0, whatever its first address is.
#[test]
fn a_word_round_the_end() {
    for (first, last, byte) in [(0, 0, 0x15), (0xffff, 0xffff, 0xab), (1, 0xffff, 0xab)] {
        let mut desk = protected(first, last, STO, 0xffff, 0xabcd);
        desk.accept(Call::Step);
        assert_eq!(desk.ram[..2], [byte, 0x12]);
        assert_eq!(desk.record(0)[25..28], [2, 0xffff, 0x1500]);
    }
}

/// Only "a protected RAM byte": a stretch may go past the end of RAM, and a word
/// there has one byte that is dropped and one that is ignored.
#[test]
fn past_the_end_of_ram() {
    let mut desk = protected(63, 64, STO, 63, 0xabcd);
    assert_eq!(desk.accept(Call::Step).bus, 4);
    assert_eq!(desk.ram[63], 0x55);
    assert_eq!(desk.record(0)[25..28], [2, 63, 0x0055]);
    let mut desk = protected(64, 0xffff, STO, 63, 0xabcd);
    desk.accept(Call::Step);
    assert_eq!(desk.ram[63], 0xcd);
}

/// Devices in the stretch are no RAM, and work as ever.
#[test]
fn devices_in_the_stretch() {
    let mut desk = protected(0, 0xffff, STO, TXD, 0xabcd);
    desk.machine.cpu.devices.r = true;
    desk.accept(Call::Step);
    let devices = desk.machine.cpu.devices;
    assert_eq!((devices.txd, devices.t, devices.r), (0xcd, false, false));
    for address in [READY, CLOCK_LOW, 64] {
        let mut desk = protected(0, 0xffff, STO, address, 0xabcd);
        let before = desk.machine.cpu.devices;
        assert_eq!(desk.accept(Call::Step).bus, 4);
        assert_eq!(desk.machine.cpu.devices, before);
        assert_eq!(desk.record(0)[25..28], [2, address, 0]);
    }
}

/// "Bus bytes and journal records count dropped bytes as before, and word 27
/// keeps a dropped byte's old value as for one written".
#[test]
fn counts_and_old_values_are_as_without_a_stretch() {
    for instruction in [STO, STOB, DDSTO] {
        for address in [40, 41, 42, 63, 64, 0xffff, 0, RXD] {
            let after = |first, last| {
                let mut desk = protected(first, last, instruction, address, 0xabcd);
                let answer = desk.accept(Call::Step);
                (answer, desk.journal)
            };
            let plain = after(1, 0);
            for (first, last) in [(41, 41), (40, 43), (0, 0), (0, 0xffff)] {
                assert_eq!(after(first, last), plain);
            }
        }
    }
    let mut desk = protected(41, 41, STO, 40, 0xabcd);
    desk.ram[40..42].copy_from_slice(&[0x11, 0x22]);
    assert_eq!(desk.accept(Call::Step).bus, 4);
    assert_eq!(desk.record(0)[25..28], [2, 40, 0x2211]);
}

/// No record holds the stretch: its words 28 to 31 are 0.
#[test]
fn records_do_not_hold_the_stretch() {
    for call in CALLS {
        let mut desk = protected(7, 0x1234, STO, 40, 0xabcd);
        desk.call(call);
        let ends = desk.journal.chunks(RECORD).map(|record| &record[28..]);
        assert!(ends.into_iter().all(|end| end == [0; 4]), "{call:?}");
    }
}

/// "Poke, step-back and Q-1 loads still write there."
#[test]
fn pokes_write_there() {
    let mut desk = protected(0, 0xffff, STO, 40, 0xabcd);
    for address in [0, 41, 63] {
        desk.accept(Call::Poke(address, 0x77));
        assert_eq!(desk.ram[usize::from(address)], 0x77);
        desk.accept(Call::StepBack);
        assert_ne!(desk.ram[usize::from(address)], 0x77);
    }
    desk.refuse(Call::Poke(64, 0x77), 7);
}

/// A step-back writes what the record has, wherever that is.
#[test]
fn step_backs_write_there() {
    let mut desk = protected(0, 0xffff, STO, 40, 0xabcd);
    desk.accept(Call::Step);
    desk.journal[27] = 0x2211;
    desk.accept(Call::StepBack);
    assert_eq!(desk.ram[40..42], [0x11, 0x22]);
}

/// The addresses are "fixed at start": no call changes them, accepted or
/// refused.
#[test]
fn no_call_changes_the_stretch() {
    let stretch = Stretch {
        first: 7,
        last: 0x1234,
    };
    for call in CALLS {
        let mut desk = protected(7, 0x1234, STO, 40, 0xabcd);
        desk.accept(Call::Tick);
        desk.call(call);
        assert_eq!(desk.machine.cpu.stretch, stretch, "{call:?}");
    }
    let mut desk = protected(7, 0x1234, STO, 40, 0xabcd);
    desk.accept(Call::Reset);
    assert_eq!(desk.machine.cpu, Cpu::new(stretch));
}

/// "No new refusals": what is refused without a stretch is, and nothing else.
#[test]
fn no_new_refusals() {
    for call in CALLS {
        let number = |first, last| protected(first, last, STO, 40, 0xabcd).call(call).number;
        let plain = number(1, 0);
        for (first, last) in [(0, 0), (0, 0xffff), (0xffff, 0), (0xffff, 0xffff), (5, 5)] {
            assert_eq!(number(first, last), plain, "{call:?}");
        }
    }
}

/// Demand 3 with the drop: steps that drop are taken back exactly.
#[test]
fn steps_that_drop_are_taken_back() {
    for (first, last) in [(41, 41), (40, 40), (0, 63)] {
        let mut desk = protected(first, last, STO, 40, 0xabcd);
        desk.ram[2..6].copy_from_slice(&[0x17, 0x12, 0x16, 0x12]);
        let before = desk.clone();
        desk.accept(Call::Run(3));
        for _ in 0..3 {
            desk.accept(Call::StepBack);
        }
        assert_eq!((desk.machine, desk.ram), (before.machine, before.ram));
    }
}

/// Instructions in the stretch are read and run as any.
#[test]
fn instructions_in_the_stretch_run() {
    let mut desk = protected(0, 1, STO, 0, 0xabcd);
    desk.accept(Call::Step);
    desk.machine.cpu.registers[PC] = 0;
    desk.machine.cpu.registers[1] = 40;
    desk.accept(Call::Step);
    assert_eq!(desk.ram[40..42], [0xcd, 0xab]);
}
