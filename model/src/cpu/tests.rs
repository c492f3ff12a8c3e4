//! The marked examples, the easy slips, and the edges of one step.

use super::*;
use crate::bus::{READY, RXD, TXD};
use crate::text;

/// A processor at the start, with 256 bytes of RAM.
struct Bench {
    cpu: Cpu,
    ram: Vec<u8>,
}

impl Bench {
    /// With an instruction at address 0.
    fn with(line: &str) -> Bench {
        let mut bench = Bench {
            cpu: Cpu::new(Stretch::NONE),
            ram: vec![0; 256],
        };
        bench.put_word(0, word_of(line));
        bench
    }

    /// With these bytes at address 0.
    fn with_bytes(bytes: [u8; 2]) -> Bench {
        let mut bench = Bench::with("ill r0, r0");
        bench.ram[..2].copy_from_slice(&bytes);
        bench
    }

    /// Sets a register.
    fn set(mut self, number: usize, word: u16) -> Bench {
        self.cpu.registers[number] = word;
        self
    }

    /// Sets a CSR.
    fn csr(mut self, number: usize, word: u16) -> Bench {
        self.cpu.csrs[number] = word;
        self
    }

    /// Sets a word of RAM.
    fn word(mut self, address: usize, word: u16) -> Bench {
        self.put_word(address, word);
        self
    }

    /// Sets a word of RAM.
    fn put_word(&mut self, address: usize, word: u16) {
        self.ram[address..address + 2].copy_from_slice(&word.to_le_bytes());
    }

    /// A word of RAM.
    fn word_at(&self, address: usize) -> u16 {
        u16::from_le_bytes([self.ram[address], self.ram[address + 1]])
    }

    /// Takes one step.
    fn step(&mut self) -> Effect {
        self.cpu.step(&mut self.ram)
    }

    /// Takes one step, in a chain.
    fn stepped(mut self) -> Bench {
        self.step();
        self
    }

    /// A register and `f`.
    fn register_and_f(&self, number: usize) -> (u16, u16) {
        (self.cpu.registers[number], self.cpu.registers[F])
    }
}

/// The word of a line.
fn word_of(line: &str) -> u16 {
    text::assemble(line.as_bytes()).expect("a good line")
}

/// What an instruction makes of r1 and f, from r1 and r2.
fn on_r1_r2(mnemonic: &str, r1: u16, r2: u16) -> (u16, u16) {
    let line = format!("{mnemonic} r1, r2");
    let bench = Bench::with(&line).set(1, r1).set(2, r2).stepped();
    assert_eq!(bench.cpu.registers[PC], 2);
    assert_eq!(bench.cpu.registers[2], r2);
    bench.register_and_f(1)
}

#[test]
fn marked_examples_1_to_5() {
    assert_eq!(on_r1_r2("add", 0xffff, 1), (0, 0x30));
    assert_eq!(on_r1_r2("add", 0x7fff, 1), (0x8000, 0xc0));
    assert_eq!(on_r1_r2("sub", 0, 1), (0xffff, 0x60));
    assert_eq!(on_r1_r2("cmps", 0x8000, 0x7fff), (0x8000, 0x60));
    assert_eq!(on_r1_r2("cmpu", 0x8000, 0x7fff), (0x8000, 0));
}

#[test]
fn marked_example_6() {
    let bench = Bench::with("ldb r1, r2").set(1, 0x12ff).set(2, 0x40);
    let mut bench = bench.word(0x40, 0x77e5);
    let effect = bench.step();
    assert_eq!(bench.register_and_f(1), (0x12e5, 0));
    assert_eq!((effect.bus, effect.written.count), (3, 0));
}

#[test]
fn marked_examples_7_and_8() {
    assert_eq!(on_r1_r2("dec2", 0x5555, 0x8001), (0x7fff, 0x80));
    assert_eq!(on_r1_r2("shra", 0xffff, 1), (0xffff, 0xe0));
}

#[test]
fn marked_examples_9_and_10() {
    assert_eq!(text::list(0xfc07).as_deref(), Ok("exch r15, r12"));
    assert_eq!(text::list(0xff9c).as_deref(), Ok("ldz r15, r15"));
    let bench = Bench::with_bytes([0x07, 0xfc]).set(12, 0x1234).stepped();
    assert_eq!(bench.cpu.registers[12], 2);
    assert_eq!(bench.cpu.registers[PC], 0x1234);
    let bench = Bench::with_bytes([0x9c, 0xff]).word(2, 0x4321);
    assert_eq!(bench.set(F, 0x10).stepped().cpu.registers[PC], 0x4321);
    let bench = Bench::with_bytes([0x9c, 0xff]).word(2, 0x4321);
    assert_eq!(bench.stepped().cpu.registers[PC], 2);
}

#[test]
fn marked_example_11() {
    let bench = Bench::with_bytes([0xa4, 0x12]).set(2, 0x40);
    let mut bench = bench.word(0x40, 0xabcd);
    assert_eq!(bench.step().bus, 4);
    assert_eq!(bench.cpu.registers[1], 0xabcd);
    assert_eq!(bench.cpu.registers[2], 0x40);
}

#[test]
fn marked_examples_12_and_13() {
    let bench = Bench::with("ldis r1, r1").set(1, 0x10).word(0x10, 0x1234);
    assert_eq!(bench.stepped().register_and_f(1), (0x1236, 0));
    let mut bench = Bench::with("ddsto r1, r1");
    let before = bench.ram.clone();
    let effect = bench.step();
    assert_eq!(bench.register_and_f(1), (0xfffe, 0));
    assert_eq!(bench.ram, before);
    assert_eq!((effect.bus, effect.written.count), (4, 2));
    assert_eq!((effect.written.first, effect.written.old), (0xfffe, 0));
}

#[test]
fn marked_example_14() {
    let mut bench = Bench::with("ill r0, r0").set(F, 0x0100);
    assert_eq!(bench.step().bus, 2);
    assert_eq!(bench.register_and_f(PC), (2, 0x0300));
    assert_eq!(bench.cpu.csrs[0], 0x0101);
    assert!(!bench.cpu.halted);
    assert_eq!(bench.step().bus, 0);
    assert_eq!(bench.register_and_f(IA), (2, 0x0200));
    assert_eq!(bench.cpu.registers[PC], 0);
    assert_eq!(bench.cpu.csrs[0], 0x0101);
    assert!(!bench.cpu.halted);
}

#[test]
fn marked_examples_15_and_16() {
    let bench = Bench::with("ill r0, r0").stepped();
    assert_eq!(bench.register_and_f(PC), (2, 0x0200));
    assert!(bench.cpu.halted);
    let bench = Bench::with("mv f, r1").set(1, 0x0400).csr(0, 0x0101);
    let bench = bench.stepped();
    assert_eq!(bench.cpu.registers[F], 0x0400);
    assert_eq!(bench.cpu.csrs[0], 0x0001);
    assert!(!bench.cpu.halted);
}

/// Every opcode does what the table says of it.
#[test]
fn opcodes_follow_the_table() {
    for opcode in 0..=255 {
        let reason = opcode::describe(opcode).reason;
        let bench = Bench::with_bytes([opcode, 0x12]).csr(0, 0x0155).stepped();
        let csr0 = match reason {
            Some(reason) => 0x0100 + reason,
            None => 0x0155,
        };
        assert_eq!(bench.cpu.csrs[0], csr0);
        assert_eq!(bench.cpu.halted, reason.is_some());
    }
}

/// The arithmetic of every mnemonic, from distinct operands.
#[test]
fn computations_follow_the_arithmetic_unit() {
    for (mnemonic, operation) in alu::OPERATIONS {
        for (d, s) in [(0x8d31, 0x7f02), (0xffff, 1), (0, 0xffff), (5, 5)] {
            let (value, flags) = operation(d, s);
            let stores = !mnemonic.starts_with("cmp");
            let r1 = if stores { value } else { d };
            assert_eq!(on_r1_r2(mnemonic, d, s), (r1, flags));
        }
    }
}

#[test]
fn computations_leave_the_other_bits_of_f() {
    let bench = Bench::with("add r1, r2").set(F, 0xfeff);
    assert_eq!(bench.stepped().register_and_f(1), (0, 0xfe1f));
    let bench = Bench::with("cmpu r1, r2").set(F, 0xfeff).set(2, 1);
    assert_eq!(bench.stepped().register_and_f(1), (0, 0xfe6f));
}

#[test]
fn computing_into_f_replaces_the_computed_flags() {
    let bench = Bench::with("add f, r1").set(F, 0x000f).set(1, 0x0031);
    assert_eq!(bench.stepped().cpu.registers[F], 0x0040);
    let bench = Bench::with("xor f, f").set(F, 0xfe95);
    assert_eq!(bench.stepped().cpu.registers[F], 0);
    let bench = Bench::with("shl f, f").set(F, 0x0011);
    assert_eq!(bench.stepped().cpu.registers[F], 0x0022);
}

#[test]
fn comparing_f_sets_flags() {
    let bench = Bench::with("cmpu f, r1").set(F, 0x008f).set(1, 0x0090);
    assert_eq!(bench.stepped().register_and_f(1), (0x0090, 0x006f));
    let bench = Bench::with("cmps f, f").set(F, 0x00c0);
    assert_eq!(bench.stepped().cpu.registers[F], 0x0030);
}

#[test]
fn f_as_source_is_read_before_flags_are_set() {
    let bench = Bench::with("add r1, f").set(F, 0x00f0).set(1, 0xffff);
    assert_eq!(bench.stepped().register_and_f(1), (0x00ef, 0x0020));
}

#[test]
fn pc_as_operand_is_past_the_instruction() {
    let bench = Bench::with("mv r1, pc").stepped();
    assert_eq!(bench.cpu.registers[1], 2);
    let bench = Bench::with("inc2 pc, pc").stepped();
    assert_eq!(bench.cpu.registers[PC], 4);
    let bench = Bench::with("dec2 pc, pc").stepped();
    assert_eq!(bench.register_and_f(PC), (0, 0x10));
    let bench = Bench::with("sto r1, pc").set(1, 0x80).stepped();
    assert_eq!(bench.word_at(0x80), 2);
}

#[test]
fn loads_after_pc() {
    let bench = Bench::with("ldis r1, pc").word(2, 0xbeef).stepped();
    assert_eq!(bench.cpu.registers[1], 0xbeef);
    assert_eq!(bench.cpu.registers[PC], 4);
    let bench = Bench::with("ld pc, pc").word(2, 0xbeef).stepped();
    assert_eq!(bench.cpu.registers[PC], 0xbeef);
    let bench = Bench::with("ldis pc, pc").word(2, 0xbeef).stepped();
    assert_eq!(bench.cpu.registers[PC], 0xbef1);
    let bench = Bench::with("ldzis pc, pc").word(2, 0xbeef).stepped();
    assert_eq!(bench.cpu.registers[PC], 4);
}

#[test]
fn same_register_cases() {
    let bench = Bench::with("exch r1, r1").set(1, 7).stepped();
    assert_eq!(bench.register_and_f(1), (7, 0));
    let bench = Bench::with("ldb r1, r1").set(1, 0x40).word(0x40, 0xaabb);
    assert_eq!(bench.stepped().cpu.registers[1], 0x00bb);
    let bench = Bench::with("ld r1, r1").set(1, 0x40).word(0x40, 0xaabb);
    assert_eq!(bench.stepped().cpu.registers[1], 0xaabb);
    let bench = Bench::with("sto r1, r1").set(1, 0x40).stepped();
    assert_eq!((bench.ram[0x40], bench.ram[0x41]), (0x40, 0));
    let bench = Bench::with("ddsto r1, r1").set(1, 0x42).stepped();
    assert_eq!(bench.cpu.registers[1], 0x40);
    assert_eq!(bench.word_at(0x40), 0x40);
    let bench = Bench::with("sub r1, r1").set(1, 0x8000).stepped();
    assert_eq!(bench.register_and_f(1), (0, 0x10));
}

#[test]
fn ldis_of_two_registers() {
    let bench = Bench::with("ldis r1, r2").set(2, 0x40).word(0x40, 0x1234);
    let bench = bench.stepped();
    assert_eq!(bench.cpu.registers[1], 0x1234);
    assert_eq!(bench.cpu.registers[2], 0x42);
    let bench = Bench::with("ldis r1, r2").set(2, 0xffff).stepped();
    assert_eq!(bench.cpu.registers[1], 0x0c00);
    assert_eq!(bench.cpu.registers[2], 1);
}

/// "Incrementing the source when a conditional ld..is loads" is a slip.
#[test]
fn conditional_ld_is() {
    let bench = Bench::with("ldz r1, r2").set(2, 0x40).word(0x40, 0x1234);
    let mut bench = bench.set(1, 9);
    assert_eq!(bench.step().bus, 2);
    assert_eq!((bench.cpu.registers[1], bench.cpu.registers[2]), (9, 0x40));
    let bench = Bench::with("ldzis r1, r2").set(2, 0x40).word(0x40, 0x1234);
    let mut bench = bench.set(1, 9);
    assert_eq!(bench.step().bus, 2);
    assert_eq!((bench.cpu.registers[1], bench.cpu.registers[2]), (9, 0x42));
    let bench = Bench::with("ldzis r1, r1").set(1, 0x40).word(0x40, 0x1234);
    let bench = bench.set(F, 0x10).stepped();
    assert_eq!(bench.cpu.registers[1], 0x1234);
}

#[test]
fn conditional_mv() {
    let bench = Bench::with("mvc r1, r2").set(2, 7);
    assert_eq!(bench.stepped().cpu.registers[1], 0);
    let bench = Bench::with("mvc r1, r2").set(2, 7).set(F, 0x20);
    assert_eq!(bench.stepped().cpu.registers[1], 7);
    let bench = Bench::with("mvnf0 f, r2").set(2, 0x81).set(F, 0xf0);
    assert_eq!(bench.stepped().cpu.registers[F], 0x81);
}

/// "Clearing the upper byte on ldb" is a slip, for f and pc too.
#[test]
fn ldb_into_f_and_pc() {
    let bench = Bench::with("ldb f, r1").set(1, 0x40).word(0x40, 0x77aa);
    assert_eq!(bench.set(F, 0x0455).stepped().cpu.registers[F], 0x04aa);
    let bench = Bench::with("ldb pc, r1").set(1, 0x40).word(0x40, 0x77aa);
    assert_eq!(bench.stepped().cpu.registers[PC], 0x00aa);
}

#[test]
fn stores_tell_what_they_write() {
    let bench = Bench::with("sto r1, r2").set(1, 0x40).set(2, 0xabcd);
    let mut bench = bench.word(0x40, 0x1234);
    let effect = bench.step();
    assert_eq!(bench.word_at(0x40), 0xabcd);
    assert_eq!((effect.bus, effect.written.count), (4, 2));
    assert_eq!((effect.written.first, effect.written.old), (0x40, 0x1234));
    let bench = Bench::with("stob r1, r2").set(1, 0x40).set(2, 0xabcd);
    let mut bench = bench.word(0x40, 0x1234);
    let effect = bench.step();
    assert_eq!(bench.word_at(0x40), 0x12cd);
    assert_eq!((effect.bus, effect.written.count), (3, 1));
    assert_eq!((effect.written.first, effect.written.old), (0x40, 0x0034));
}

#[test]
fn stores_at_the_edges_of_ram() {
    let bench = Bench::with("sto r1, r2").set(1, 255).set(2, 0xabcd);
    let mut bench = bench.word(254, 0x5566);
    let effect = bench.step();
    assert_eq!(bench.word_at(254), 0xcd66);
    assert_eq!((effect.bus, effect.written.old), (4, 0x0055));
    let mut bench = Bench::with("sto r1, r2").set(1, 0xffff).set(2, 0xabcd);
    let effect = bench.step();
    assert_eq!(bench.ram[0], 0xab);
    assert_eq!((effect.written.first, effect.written.old), (0xffff, 0x1500));
    let mut bench = Bench::with("ddsto r1, r2").set(1, 1).set(2, 0xabcd);
    assert_eq!(bench.step().written.first, 0xffff);
    assert_eq!(bench.ram[0], 0xab);
    assert_eq!(bench.cpu.registers[1], 0xffff);
    let mut bench = Bench::with("stob r1, r2").set(1, 256).set(2, 0xabcd);
    let effect = bench.step();
    assert_eq!((effect.bus, effect.written.count), (3, 1));
    assert_eq!((effect.written.first, effect.written.old), (256, 0));
}

#[test]
fn stores_at_the_keyboard() {
    let mut bench = Bench::with("stob r1, r2").set(1, TXD).set(2, 0xabcd);
    let effect = bench.step();
    assert_eq!((bench.cpu.devices.txd, bench.cpu.devices.t), (0xcd, false));
    assert_eq!((effect.bus, effect.written.count), (3, 1));
    assert_eq!((effect.written.first, effect.written.old), (TXD, 0));
    let mut bench = Bench::with("stob r1, r2").set(1, TXD).set(2, 0xabcd);
    bench.cpu.devices.t = false;
    assert_eq!(bench.step().bus, 3);
    assert_eq!((bench.cpu.devices.txd, bench.cpu.devices.t), (0, false));
    let mut bench = Bench::with("sto r1, r2").set(1, RXD).set(2, 0xabcd);
    bench.cpu.devices.rxd = 0x33;
    bench.cpu.devices.r = true;
    assert_eq!(bench.step().bus, 4);
    assert_eq!((bench.cpu.devices.rxd, bench.cpu.devices.r), (0x33, false));
    assert_eq!(bench.cpu.registers[F], 0);
    let bench = Bench::with("sto r1, r2").set(1, 0xfff0).set(2, 7);
    assert_eq!(bench.stepped().cpu.devices, Devices::new());
}

#[test]
fn loads_from_the_devices() {
    let mut bench = Bench::with("ld r1, r2").set(2, RXD);
    bench.cpu.devices.rxd = 0x33;
    bench.cpu.devices.r = true;
    assert_eq!(bench.stepped().cpu.registers[1], 0x0333);
    let bench = Bench::with("ldb r1, r2").set(2, READY);
    assert_eq!(bench.stepped().cpu.registers[1], 2);
    let mut bench = Bench::with("ld r1, r2").set(2, 0xfff0);
    bench.cpu.devices.clock = 0x5678;
    assert_eq!(bench.stepped().cpu.registers[1], 0x5678);
}

#[test]
fn instructions_at_the_edges() {
    let mut cpu = Cpu::new(Stretch::NONE);
    cpu.registers[PC] = 0xfff0;
    cpu.registers[2] = 9;
    cpu.devices.clock = word_of("mv r1, r2");
    assert_eq!(cpu.step(&mut []).bus, 2);
    assert_eq!((cpu.registers[1], cpu.registers[PC]), (9, 0xfff2));
    let mut cpu = Cpu::new(Stretch::NONE);
    cpu.registers[PC] = RXD;
    cpu.devices.rxd = 0x08;
    cpu.step(&mut []);
    assert_eq!((cpu.registers[2], cpu.registers[PC]), (0, 0xffe3));
    assert_eq!(cpu.registers[0], 1);
    let mut cpu = Cpu::new(Stretch::NONE);
    cpu.registers[PC] = 0xffff;
    cpu.step(&mut [0x08]);
    assert_eq!((cpu.registers[PC], cpu.csrs[0]), (1, 0x0101));
    let mut cpu = Cpu::new(Stretch::NONE);
    cpu.registers[PC] = 2;
    cpu.step(&mut [0, 0, 0x08]);
    assert_eq!((cpu.registers[0], cpu.registers[PC]), (1, 4));
}

#[test]
fn every_pending_bit_interrupts_when_enabled() {
    for bit in 9..16 {
        let mut bench = Bench::with("inc1 r1, r1").set(IA, 0x40);
        bench.cpu.registers[F] = 0x01f5 | 1 << bit;
        bench.cpu.csrs[0] = 0x0007;
        let effect = bench.step();
        assert_eq!((effect.bus, effect.written), (0, Written::default()));
        assert_eq!(bench.register_and_f(PC), (0x40, 0x00f5 | 1 << bit));
        assert_eq!((bench.cpu.registers[IA], bench.cpu.registers[1]), (0, 0));
        assert_eq!((bench.cpu.csrs[0], bench.cpu.halted), (0x0007, false));
    }
}

#[test]
fn no_interrupt_when_disabled_or_none_pending() {
    for f in [0x0000, 0x0100, 0x0200, 0x8000, 0xfe00] {
        let bench = Bench::with("mv r1, pc").set(F, f).stepped();
        assert_eq!(bench.register_and_f(1), (2, f));
        assert!(!bench.cpu.halted);
    }
}

#[test]
fn illegal_opcodes() {
    for (opcode, reason) in [(0x00, 1), (0x0d, 2), (0x1e, 2), (0x8f, 2), (0xff, 2)] {
        for (f, halts) in [(0x00ff, true), (0xfe00, true), (0x0155, false)] {
            let bench = Bench::with_bytes([opcode, 0xef]).set(F, f);
            let mut bench = bench.csr(0, 0x00aa);
            let before = bench.cpu;
            assert_eq!(bench.step(), Effect::loading(0));
            assert_eq!(bench.register_and_f(PC), (2, f | 0x0200));
            assert_eq!(bench.cpu.csrs[0], 0x0100 + reason);
            assert_eq!(bench.cpu.halted, halts);
            assert_eq!(bench.cpu.registers[..F], before.registers[..F]);
            assert_eq!(bench.cpu.devices, before.devices);
        }
    }
}

/// What moving a number to `f` leaves in csr0, and whether it halts.
fn settled(f_before: u16, f_after: u16) -> (u16, bool) {
    let bench = Bench::with("mv f, r1").set(F, f_before).set(1, f_after);
    let bench = bench.csr(0, 0x01c3).stepped();
    assert_eq!(bench.cpu.registers[F], f_after);
    (bench.cpu.csrs[0], bench.cpu.halted)
}

#[test]
fn settling() {
    assert_eq!(settled(0, 0x0200), (0x00c3, true));
    assert_eq!(settled(0, 0x0300), (0x00c3, false));
    assert_eq!(settled(0x0100, 0x0200), (0x00c3, true));
    assert_eq!(settled(0x0200, 0x0200), (0x01c3, false));
    assert_eq!(settled(0x0200, 0x0600), (0x00c3, false));
    assert_eq!(settled(0x0400, 0x0600), (0x00c3, true));
    assert_eq!(settled(0x0600, 0x0200), (0x01c3, false));
    assert_eq!(settled(0xfe00, 0xffff), (0x01c3, false));
    assert_eq!(settled(0, 0x01ff), (0x01c3, false));
    for bit in 10..16 {
        assert_eq!(settled(0, 1 << bit), (0x00c3, false));
        assert_eq!(settled(1 << bit, 0x0100 | 1 << bit), (0x01c3, false));
    }
}

/// Taking "ie 0 and bit 9 set" for halted is a slip: a handler goes on.
#[test]
fn a_handler_with_bit_9_set_goes_on() {
    let bench = Bench::with("inc1 r1, r1").set(F, 0x0200).stepped();
    assert_eq!(bench.register_and_f(1), (1, 0x0200));
    assert!(!bench.cpu.halted);
}

#[test]
fn other_writes_of_f_settle_too() {
    let bench = Bench::with("ldis r1, f").set(F, 0x01fe).csr(0, 0x0109);
    let bench = bench.stepped();
    assert_eq!(bench.cpu.registers[F], 0x0200);
    assert_eq!((bench.cpu.csrs[0], bench.cpu.halted), (0x0009, true));
    let bench = Bench::with("ddsto f, r1").csr(0, 0x0109).stepped();
    assert_eq!(bench.cpu.registers[F], 0xfffe);
    assert_eq!((bench.cpu.csrs[0], bench.cpu.halted), (0x0009, false));
    let bench = Bench::with("exch r1, f").set(1, 0x0200).stepped();
    assert!(bench.cpu.halted);
    let bench = Bench::with("ldnzis r1, f").set(F, 0x01fe).stepped();
    assert_eq!(bench.register_and_f(1), (0, 0x0200));
    assert!(bench.cpu.halted);
}

/// "Letting csrw reach H" is a slip.
#[test]
fn csrw_to_csr0() {
    let bench = Bench::with("csrw csr0, r1").set(1, 0xffff);
    assert_eq!(bench.stepped().cpu.csrs[0], 0x00ff);
    let bench = Bench::with("csrw csr0, r1").set(1, 0).csr(0, 0x01aa);
    assert_eq!(bench.stepped().cpu.csrs[0], 0x0100);
}

#[test]
fn csrs() {
    for number in 1..6 {
        let line = format!("csrw csr{number}, r1");
        let bench = Bench::with(&line).set(1, 0xabcd).stepped();
        assert_eq!(bench.cpu.csrs[number], 0xabcd);
        let line = format!("csrr r1, csr{number}");
        let bench = Bench::with(&line).csr(number, 0xabcd).stepped();
        assert_eq!(bench.register_and_f(1), (0xabcd, 0));
    }
    for number in 6..16 {
        let line = format!("csrw csr{number}, r1");
        let bench = Bench::with(&line).set(1, 0xabcd).stepped();
        assert_eq!(bench.cpu.csrs, [0; 6]);
        let line = format!("csrr r1, csr{number}");
        assert_eq!(Bench::with(&line).set(1, 9).stepped().cpu.registers[1], 0);
    }
    let bench = Bench::with("csrr f, csr0").csr(0, 0x01ff).stepped();
    assert_eq!(bench.register_and_f(F), (0x01ff, 0x01ff));
    let bench = Bench::with("csrr f, csr2").csr(2, 0x0200).csr(0, 0x0104);
    let bench = bench.stepped();
    assert_eq!((bench.cpu.csrs[0], bench.cpu.halted), (0x0004, true));
}

#[test]
fn returning_from_the_handler() {
    for second in [0x00, 0xfd, 0xee, 0xdf] {
        let bench = Bench::with_bytes([0x1c, second]).set(IA, 0x1234);
        let bench = bench.set(F, 0x08a5).csr(1, 0x4321).csr(0, 0x0101);
        let bench = bench.stepped();
        assert_eq!(bench.register_and_f(PC), (0x1234, 0x09a5));
        assert_eq!(bench.cpu.registers[IA], 0x4321);
        assert_eq!((bench.cpu.csrs[0], bench.cpu.csrs[1]), (0x0101, 0x4321));
    }
}

/// "If an exception or interrupt bit in `f` remains set when returning from
/// the handler, the handler is called immediately again".
#[test]
fn a_bit_that_remains_calls_the_handler_again() {
    let bench = Bench::with("reti pc, ia").set(IA, 0x80).set(F, 0x0800);
    let bench = bench.csr(1, 0x40).stepped().stepped();
    assert_eq!(bench.register_and_f(PC), (0x40, 0x0800));
    assert_eq!(bench.cpu.registers[IA], 0x80);
}
