//! Each sentence of the request, tried.

use super::*;
use crate::bus::{Stretch, CLOCK_HIGH, CLOCK_LOW, READY, RXD, TXD};
use crate::cpu::{F, IA};
use crate::journal::RECORD;
use crate::machine::{Call, Cause};

/// `sto r1, r2`
const STO: u16 = 0x1215;
/// `stob r1, r2`
const STOB: u16 = 0x1216;
/// `ddsto r1, r2`
const DDSTO: u16 = 0x1217;
/// `inc1 r3, r3`
const INC: u16 = 0x3308;
/// `dec2 pc, pc`, which stays where it is
const STAY: u16 = 0xff06;
/// `ill r0, r0`
const ILL: u16 = 0x0000;

/// A machine with its RAM and journal.
#[derive(Clone, Debug, PartialEq)]
struct Desk {
    machine: Machine,
    ram: Vec<u8>,
    journal: Vec<u16>,
}

impl Desk {
    /// A machine at the start with 64 bytes of RAM, 3 slots, and these
    /// instructions, low byte first, from address 0 on.
    fn with(words: &[u16]) -> Desk {
        let mut desk = Desk {
            machine: Machine::new(Stretch::NONE),
            ram: words.iter().flat_map(|word| word.to_le_bytes()).collect(),
            journal: vec![0; 3 * RECORD],
        };
        desk.ram.resize(64, 0);
        desk
    }

    /// The same with r1 as given: it is what stores store to.
    fn storing(words: &[u16], r1: u16) -> Desk {
        let mut desk = Desk::with(words);
        desk.machine.cpu.registers[1] = r1;
        desk.machine.cpu.registers[2] = 0xabcd;
        desk
    }

    /// Makes another call that is to be accepted: its steps, bus bytes and
    /// cause.
    fn call(&mut self, call: Call) -> (u16, u32, Cause) {
        let answer = self.machine.call(call, &mut self.ram, &mut self.journal);
        assert_eq!(answer.number, 0, "{call:?}");
        (answer.steps, answer.bus, answer.cause)
    }

    /// Makes a watched run.
    fn watched(&mut self, list: &mut [Entry], budget: u16) -> Told {
        let (ram, journal) = (&mut self.ram, &mut self.journal);
        run(&mut self.machine, ram, journal, list, budget)
    }

    /// Makes a watched run that is to be accepted: why it stopped, and after
    /// how many steps.
    fn stops(&mut self, list: &mut [Entry], budget: u16) -> (Stop, u16) {
        let told = self.watched(list, budget);
        assert_eq!(told.number, 0);
        (told.stop, told.steps)
    }

    fn pc(&self) -> u16 {
        self.machine.cpu.registers[PC]
    }
}

fn entry(kind: u16, address: u16, hits: u16) -> Entry {
    Entry {
        address,
        kind,
        hits,
    }
}

/// Entries without hits.
fn list<const N: usize>(of: [(u16, u16); N]) -> [Entry; N] {
    of.map(|(kind, address)| entry(kind, address, 0))
}

fn hits(list: &[Entry]) -> Vec<u16> {
    list.iter().map(|one| one.hits).collect()
}

#[test]
fn it_stops_before_a_step_at_a_break_address() {
    let mut desk = Desk::with(&[INC, INC, INC, INC]);
    let mut points = list([(BREAK, 4)]);
    assert_eq!(desk.stops(&mut points, 9), (Stop::Break(0), 2));
    assert_eq!((desk.pc(), desk.machine.cpu.registers[3]), (4, 2));
    assert_eq!(points, [entry(BREAK, 4, 1)]);
}

#[test]
fn the_first_step_of_a_run_is_excepted() {
    let mut desk = Desk::with(&[INC, INC, INC]);
    let mut points = list([(BREAK, 0), (BREAK, 2)]);
    assert_eq!(desk.stops(&mut points, 9), (Stop::Break(1), 1));
    assert_eq!(desk.stops(&mut points, 1), (Stop::Budget, 1));
    assert_eq!((desk.pc(), hits(&points)), (4, vec![0, 1]));
}

#[test]
fn only_the_first_step_is_excepted() {
    let mut desk = Desk::with(&[STAY]);
    let mut points = list([(BREAK, 0)]);
    for hit in 1..4 {
        assert_eq!(desk.stops(&mut points, 9), (Stop::Break(0), 1));
        assert_eq!(hits(&points), [hit]);
    }
}

#[test]
fn it_stops_after_a_step_that_stored_to_a_watched_address() {
    let mut desk = Desk::storing(&[INC, STOB, INC], 40);
    let mut points = list([(WATCH, 40)]);
    assert_eq!(desk.stops(&mut points, 9), (Stop::Watch(0), 2));
    assert_eq!((desk.pc(), desk.ram[40]), (4, 0xcd));
    assert_eq!(points, [entry(WATCH, 40, 1)]);
}

#[test]
fn the_first_step_is_not_excepted_from_a_watch() {
    let mut desk = Desk::storing(&[STOB], 40);
    let mut points = list([(WATCH, 40)]);
    assert_eq!(desk.stops(&mut points, 9), (Stop::Watch(0), 1));
}

#[test]
fn a_store_that_changes_no_byte_is_a_store() {
    let mut desk = Desk::storing(&[STO], 40);
    desk.ram[40..42].copy_from_slice(&[0xcd, 0xab]);
    let mut points = list([(WATCH, 41)]);
    assert_eq!(desk.stops(&mut points, 9), (Stop::Watch(0), 1));
}

/// Which of the addresses from 38 to 43 a store to 40 hits.
fn hit_by(instruction: u16) -> Vec<u16> {
    let is_hit = |address: &u16| {
        let mut desk = Desk::storing(&[instruction], 40);
        let (stop, _) = desk.stops(&mut list([(WATCH, *address)]), 1);
        stop == Stop::Watch(0)
    };
    (38..44).filter(is_hit).collect()
}

#[test]
fn a_word_has_two_addresses_and_a_byte_has_one() {
    assert_eq!(hit_by(STO), [40, 41]);
    assert_eq!(hit_by(STOB), [40]);
    assert_eq!(hit_by(DDSTO), [38, 39]);
}

#[test]
fn both_bytes_of_a_word_are_hits_of_one_step() {
    let mut desk = Desk::storing(&[STO], 40);
    let mut points = list([(WATCH, 41), (WATCH, 40), (WATCH, 42)]);
    assert_eq!(desk.stops(&mut points, 9), (Stop::Watch(0), 1));
    assert_eq!(hits(&points), [1, 1, 0]);
}

#[test]
fn a_word_at_the_last_address_goes_on_at_0() {
    for address in [0xffff, 0] {
        let mut desk = Desk::storing(&[STO], 0xffff);
        let mut points = list([(WATCH, 1), (WATCH, 0xfffe), (WATCH, address)]);
        assert_eq!(desk.stops(&mut points, 1), (Stop::Watch(2), 1));
        assert_eq!(hits(&points), [0, 0, 1]);
    }
}

#[test]
fn an_ignored_byte_is_a_hit() {
    for address in [64, 0x8000, TXD, READY, CLOCK_LOW, CLOCK_HIGH, 0xffff] {
        let mut desk = Desk::storing(&[STOB], address);
        desk.machine.cpu.devices.t = false;
        let before = (desk.machine.cpu.devices, desk.ram.clone());
        assert_eq!(
            desk.stops(&mut list([(WATCH, address)]), 9),
            (Stop::Watch(0), 1)
        );
        assert_eq!((desk.machine.cpu.devices, desk.ram), before);
    }
}

#[test]
fn a_byte_that_only_a_device_takes_is_a_hit() {
    for address in [TXD, RXD] {
        let mut desk = Desk::storing(&[STOB], address);
        desk.machine.cpu.devices.r = true;
        let before = desk.machine.cpu.devices;
        assert_eq!(
            desk.stops(&mut list([(WATCH, address)]), 9),
            (Stop::Watch(0), 1)
        );
        assert_ne!(desk.machine.cpu.devices, before);
    }
}

/// Which of the addresses 40 and 41 a store to 40 hits with this stretch.
fn hit_with(first: u16, last: u16, instruction: u16) -> Vec<u16> {
    let is_hit = |address: &u16| {
        let mut desk = Desk::storing(&[instruction], 40);
        desk.machine.cpu.stretch = Stretch { first, last };
        let mut points = list([(WATCH, *address)]);
        let (stop, _) = desk.stops(&mut points, 1);
        assert_eq!(points[0].hits, u16::from(stop == Stop::Watch(0)));
        stop == Stop::Watch(0)
    };
    (40..42).filter(is_hit).collect()
}

/// "a byte dropped under Q-4 is no hit"
#[test]
fn a_dropped_byte_is_no_hit() {
    assert_eq!(hit_with(1, 0, STO), [40, 41]);
    assert_eq!(hit_with(40, 40, STO), [41]);
    assert_eq!(hit_with(41, 41, STO), [40]);
    assert_eq!(hit_with(40, 41, STO), []);
    assert_eq!(hit_with(0, 0xffff, STOB), []);
    assert_eq!(hit_with(41, 40, STOB), [40]);
}

/// A dropped byte neither stops the run nor is it counted where another entry
/// stops it.
#[test]
fn a_dropped_byte_is_not_counted() {
    let mut desk = Desk::storing(&[STO, INC, ILL], 40);
    desk.machine.cpu.stretch = Stretch {
        first: 41,
        last: 41,
    };
    let mut points = list([(WATCH, 41), (WATCH, 40)]);
    assert_eq!(desk.stops(&mut points, 9), (Stop::Watch(1), 1));
    assert_eq!(hits(&points), [0, 1]);
    let mut points = list([(WATCH, 41), (BREAK, 4)]);
    desk.machine.cpu.registers[PC] = 0;
    assert_eq!(desk.stops(&mut points, 9), (Stop::Break(1), 2));
    assert_eq!(hits(&points), [0, 1]);
}

/// "an ignored one is", also in the stretch, and so is one for a device.
#[test]
fn an_ignored_byte_in_the_stretch_is_a_hit() {
    for address in [64, TXD, RXD, READY, CLOCK_HIGH, 0xffff] {
        let mut desk = Desk::storing(&[STOB], address);
        desk.machine.cpu.stretch = Stretch {
            first: 0,
            last: 0xffff,
        };
        let mut points = list([(WATCH, address)]);
        assert_eq!(desk.stops(&mut points, 9), (Stop::Watch(0), 1));
    }
    let mut desk = Desk::storing(&[STO], 63);
    desk.machine.cpu.stretch = Stretch {
        first: 63,
        last: 64,
    };
    let mut points = list([(WATCH, 63), (WATCH, 64)]);
    assert_eq!(desk.stops(&mut points, 9), (Stop::Watch(1), 1));
    assert_eq!(hits(&points), [0, 1]);
}

#[test]
fn what_is_read_is_no_hit() {
    // ld r4, r1; ldb r4, r1; ldis r4, r1
    let mut desk = Desk::storing(&[0x410a, 0x410b, 0x410c], 40);
    let mut points = list([(WATCH, 0), (WATCH, 1), (WATCH, 40), (WATCH, 41)]);
    assert_eq!(desk.stops(&mut points, 3), (Stop::Budget, 3));
    assert_eq!(hits(&points), [0; 4]);
}

#[test]
fn a_break_is_no_watch_and_a_watch_no_break() {
    let mut desk = Desk::storing(&[INC, STOB, INC], 40);
    let mut points = list([(BREAK, 40), (WATCH, 2)]);
    assert_eq!(desk.stops(&mut points, 3), (Stop::Budget, 3));
    assert_eq!(hits(&points), [0, 0]);
}

/// A step that stores has no way to halt under today's rules: of f, a store
/// changes only what `ddsto f, ..` takes from it, and a borrow that turns bit 9
/// on leaves ie 1.
#[test]
fn no_step_stores_and_halts() {
    for f in 0..=u16::MAX {
        for opcode in [0x15, 0x16, 0x17] {
            let mut desk = Desk::with(&[opcode + 0xe100]);
            desk.machine.cpu.registers[F] = f;
            let effect = desk.machine.cpu.step(&mut desk.ram);
            assert!(effect.written.count == 0 || !desk.machine.cpu.halted);
        }
    }
}

/// So the first two causes can meet in no run; the order is tried by itself.
#[test]
fn halted_comes_before_a_watch_whose_hits_are_counted() {
    let matches = Matches {
        watches: vec![0, 2],
        breaks: vec![1],
    };
    let mut points = list([(WATCH, 5), (BREAK, 0), (WATCH, 6)]);
    assert_eq!(stop(true, &matches, true), Some(Stop::Halted));
    mark(&mut points, Stop::Halted, &matches);
    assert_eq!(hits(&points), [1, 0, 1]);
}

#[test]
fn halted_comes_before_budget_and_break() {
    let mut desk = Desk::with(&[ILL]);
    let mut points = list([(BREAK, 2)]);
    assert_eq!(desk.stops(&mut points, 1), (Stop::Halted, 1));
    assert_eq!((desk.pc(), hits(&points)), (2, vec![0]));
    for budget in [0, 1, 65_535] {
        assert_eq!(desk.stops(&mut points, budget), (Stop::Halted, 0));
    }
    assert_eq!(hits(&points), [0]);
}

#[test]
fn a_watch_comes_before_budget_and_break() {
    for budget in [1, 2] {
        let mut desk = Desk::storing(&[STOB, INC], 40);
        let mut points = list([(BREAK, 2), (WATCH, 40)]);
        assert_eq!(desk.stops(&mut points, budget), (Stop::Watch(1), 1));
        assert_eq!(hits(&points), [0, 1]);
    }
}

#[test]
fn the_budget_comes_before_a_break_and_counts_nothing() {
    let mut desk = Desk::with(&[INC, INC]);
    let mut points = list([(BREAK, 2)]);
    assert_eq!(desk.stops(&mut points, 1), (Stop::Budget, 1));
    assert_eq!((desk.pc(), hits(&points)), (2, vec![0]));
    assert_eq!(desk.stops(&mut points, 0), (Stop::Budget, 0));
    assert_eq!(hits(&points), [0]);
}

#[test]
fn all_that_match_are_counted_and_the_first_is_named() {
    let mut desk = Desk::storing(&[STO, STO, INC], 40);
    let mut points = list([
        (BREAK, 40),
        (WATCH, 42),
        (WATCH, 41),
        (BREAK, 4),
        (WATCH, 40),
        (WATCH, 41),
        (BREAK, 4),
    ]);
    assert_eq!(desk.stops(&mut points, 9), (Stop::Watch(2), 1));
    assert_eq!(hits(&points), [0, 0, 1, 0, 1, 1, 0]);
    desk.machine.cpu.registers[1] = 50;
    assert_eq!(desk.stops(&mut points, 9), (Stop::Break(3), 1));
    assert_eq!(hits(&points), [0, 0, 1, 1, 1, 1, 1]);
}

#[test]
fn hit_counts_stop_at_65535() {
    let mut desk = Desk::with(&[STAY]);
    let mut points = [entry(BREAK, 0, 65_533), entry(BREAK, 0, 65_535)];
    for expected in [65_534, 65_535, 65_535, 65_535] {
        assert_eq!(desk.stops(&mut points, 9), (Stop::Break(0), 1));
        assert_eq!(hits(&points), [expected, 65_535]);
    }
    let mut desk = Desk::storing(&[STOB], 40);
    let mut points = [entry(WATCH, 40, 65_535)];
    assert_eq!(desk.stops(&mut points, 9), (Stop::Watch(0), 1));
    assert_eq!(hits(&points), [65_535]);
}

/// Sees that a call is refused with this number, and changes nothing.
fn refuse(mut desk: Desk, points: &[Entry], number: u16) {
    let (before, mut after) = (desk.clone(), points.to_vec());
    let told = desk.watched(&mut after, 5);
    assert_eq!(told, Told::nothing_done(number));
    assert_eq!((desk, after.as_slice()), (before, points));
}

#[test]
fn refusals_40_and_41_change_nothing() {
    let desk = || Desk::storing(&[STO, STAY], 40);
    for length in [65, 66, 1_000] {
        refuse(desk(), &vec![entry(WATCH, 40, 7); length], 40);
    }
    for kind in [0, 3, 4, 0x0101, 0x0102, 0x8001, 0xffff] {
        for place in [0, 1, 63] {
            let mut points = vec![entry(WATCH, 40, 7); 64];
            points[place].kind = kind;
            refuse(desk(), &points, 41);
            refuse(desk(), &points[place..=place], 41);
        }
    }
}

#[test]
fn a_halted_machine_or_no_budget_spares_no_list() {
    let mut desk = Desk::with(&[ILL]);
    desk.call(Call::Step);
    refuse(desk.clone(), &[entry(3, 0, 0)], 41);
    assert_eq!(desk.watched(&mut list([(0, 0)]), 0).number, 41);
}

#[test]
fn refusals_come_in_order() {
    let bad = [entry(3, 0, 0); 65];
    let mut desk = Desk::with(&[STAY]);
    refuse(desk.clone(), &bad, 40);
    refuse(desk.clone(), &bad[..64], 41);
    desk.machine.cpu.csrs[0] = 512;
    refuse(desk.clone(), &bad, 3);
    desk.journal.push(0);
    refuse(desk.clone(), &bad, 2);
    desk.ram.resize(65_505, 0);
    refuse(desk.clone(), &bad, 1);
    refuse(desk, &[], 1);
}

#[test]
fn sixty_four_entries_are_taken() {
    let mut points = vec![entry(WATCH, 50, 0); 64];
    points[63] = entry(BREAK, 2, 0);
    let mut desk = Desk::with(&[INC, INC]);
    assert_eq!(desk.stops(&mut points, 9), (Stop::Break(63), 1));
    assert_eq!(points[63].hits, 1);
}

/// A program that stores, loops, takes an exception and halts.
fn varied() -> Desk {
    // ddsto r1, r2; inc1 r3, r3; sto r4, r3; stob r3, r2; shl r5, r3; ill
    let mut desk = Desk::storing(&[DDSTO, INC, 0x4315, 0x3216, 0x5312, ILL], 50);
    desk.machine.cpu.registers[3] = 55;
    desk
}

#[test]
fn with_no_entries_it_is_a_run() {
    for budget in [0, 1, 3, 6, 7, 65_535] {
        let (mut ours, mut plain) = (varied(), varied());
        let told = ours.watched(&mut [], budget);
        let (steps, bus, cause) = plain.call(Call::Run(budget));
        let stop = match cause {
            Cause::Halted => Stop::Halted,
            _ => Stop::Budget,
        };
        assert_eq!((told.steps, told.bus, told.stop), (steps, bus, stop));
        assert_eq!(ours, plain);
    }
}

#[test]
fn up_to_its_stop_it_is_a_run() {
    for address in 0..64 {
        let (mut ours, mut plain) = (varied(), varied());
        let told = ours.watched(&mut list([(BREAK, address), (WATCH, address)]), 9);
        let (steps, bus, _) = plain.call(Call::Run(told.steps));
        assert_eq!((told.steps, told.bus), (steps, bus));
        assert_eq!(ours, plain);
    }
}

#[test]
fn a_plain_run_goes_on_from_a_stop_to_the_same_end() {
    let mut whole = varied();
    let (steps, bus, cause) = whole.call(Call::Run(9));
    for address in 0..64 {
        let mut desk = varied();
        let told = desk.watched(&mut list([(BREAK, address), (WATCH, address)]), 9);
        let rest = desk.call(Call::Run(9 - told.steps));
        assert_eq!(
            (told.steps + rest.0, told.bus + rest.1, rest.2),
            (steps, bus, cause)
        );
        assert_eq!(desk, whole);
    }
}

#[test]
fn a_step_back_keeps_the_hits() {
    let mut desk = Desk::storing(&[INC, STOB, INC], 40);
    let mut points = list([(WATCH, 40)]);
    for hit in 1..4 {
        desk.stops(&mut points, 9);
        assert_eq!((desk.pc(), desk.ram[40]), (4, 0xcd));
        desk.call(Call::StepBack);
        assert_eq!((desk.pc(), desk.ram[40]), (2, 0));
        assert_eq!(hits(&points), [hit]);
    }
}

#[test]
fn entering_an_interrupt_is_a_step() {
    let mut desk = Desk::with(&[INC, INC, INC, INC, INC]);
    desk.machine.cpu.registers[IA] = 8;
    desk.machine.cpu.registers[F] = 0x0100;
    desk.call(Call::Tick);
    let mut points = list([(BREAK, 8)]);
    let told = desk.watched(&mut points, 9);
    assert_eq!((told.stop, told.steps, told.bus), (Stop::Break(0), 1, 0));
    assert_eq!((desk.pc(), desk.machine.cpu.registers[3]), (8, 0));
}

/// pc counts, and not whether the step there will run the instruction.
#[test]
fn it_stops_before_a_step_that_would_enter_an_interrupt() {
    // or f, r4, which raises an interrupt
    let mut desk = Desk::with(&[INC, 0xe411, INC]);
    desk.machine.cpu.registers[F] = 0x0100;
    desk.machine.cpu.registers[4] = 0x0400;
    desk.machine.cpu.registers[IA] = 0x20;
    let mut points = list([(BREAK, 4)]);
    assert_eq!(desk.stops(&mut points, 9), (Stop::Break(0), 2));
    assert_eq!(desk.stops(&mut points, 1), (Stop::Budget, 1));
    assert_eq!((desk.pc(), hits(&points)), (0x20, vec![1]));
}
