//! Scenarios of edges: stores at the ends of memory, runs that halt at the
//! budget, halted machines, the keyboard, and journals that go round.

use super::desk;
use super::programs;
use super::script::Script;
use crate::machine::Call;

/// Addresses of stores, beside those at the end of RAM.
const ADDRESSES: [u16; 15] = [
    0, 1, 2, 0xffdd, 0xffde, 0xffdf, 0xffe0, 0xffe1, 0xffe2, 0xffef, 0xfff0, 0xfff1, 0xfff2,
    0xfffe, 0xffff,
];

/// All scenarios of edges.
pub fn write(script: &mut Script) {
    for ram_length in [64, 256, 30_000, 65_504] {
        stores(script, ram_length);
    }
    stores_with_another_ram(script);
    for ram_length in [0, 1] {
        keyboard_instructions(script, ram_length);
        keyboard_stores(script, ram_length);
    }
    runs_that_halt(script);
    halted_machines(script);
    keyboard(script);
    clock(script);
    long_runs(script);
    journals_that_go_round(script, 256);
    journals_that_go_round(script, 65_504);
}

/// Stores of words and bytes at each address; half of them are undone.
fn stores(script: &mut Script, ram_length: u16) {
    script.start(ram_length, 96);
    script.load_lines(0x20, &["sto r1, r2", "stob r1, r2", "ddsto r1, r2"]);
    script.load_lines(0x26, &["sto r1, r1", "ddsto r1, r1", "sto r1, pc"]);
    let mut addresses = ADDRESSES.to_vec();
    addresses.extend((0..5).map(|back| ram_length + 2 - back));
    for (turn, address) in addresses.iter().enumerate() {
        for instruction in 0..6 {
            script.register(1, *address);
            script.register(2, 0xc0de + instruction);
            script.register(15, 0x20 + 2 * instruction);
            script.calls(&[Call::Step]);
            if (turn + usize::from(instruction)) % 2 == 0 {
                script.calls(&[Call::StepBack]);
            }
        }
        if turn % 5 == 4 {
            script.calls(&[Call::StepBack, Call::StepBack, Call::Reset]);
            script.show();
        }
    }
}

/// Stores that are undone when RAM is shorter or longer than it was.
fn stores_with_another_ram(script: &mut Script) {
    script.start(64, 64);
    for (before, after) in [(64, 63), (64, 65), (63, 64), (64, 0), (1, 0), (64, 1)] {
        for address in [0, 62, 63, 64, 0xffff] {
            script.lend(64, 64);
            script.load_lines(0x10, &["sto r1, r2"]);
            script.lend(before, 64);
            script.register(1, address);
            script.register(2, 0xdead);
            script.register(15, 0x10);
            script.halted(false);
            script.calls(&[Call::Step]);
            script.lend(after, 64);
            script.calls(&[Call::StepBack]);
        }
        script.lend(64, 64);
        script.show();
    }
}

/// Instructions whose opcode the keyboard gives, with hardly any RAM: READY
/// gives r0 as destination, and r1 or r3 as source.
fn keyboard_instructions(script: &mut Script, ram_length: u16) {
    script.start(ram_length, 64);
    for opcode in (0..=0x22).chain([0x8f, 0x90, 0x9f, 0xa4, 0xac, 0xb0, 0xc4, 0xcc, 0xd0]) {
        script.calls(&[Call::Reset, Call::Receive(opcode)]);
        script.register(0, [0xffe0, 0xffe1, 0xffff, 0][usize::from(opcode % 4)]);
        script.register(1, 0x0301);
        script.register(3, [0xffe1, 0xfff0, 1, 0xffff][usize::from(opcode / 4 % 4)]);
        script.register(15, 0xffe1);
        script.calls(&[Call::Step]);
        if opcode % 2 == 0 {
            script.calls(&[Call::Tick, Call::StepBack, Call::StepBack]);
        }
    }
    script.show();
}

/// The same for stores, at each address.
fn keyboard_stores(script: &mut Script, ram_length: u16) {
    script.start(ram_length, 96);
    for opcode in [0x15, 0x16, 0x17] {
        for address in [0, 1, 2, 3, 0xffe0, 0xffe1, 0xffff] {
            script.calls(&[Call::Reset, Call::Receive(opcode)]);
            script.register(0, address);
            script.register(3, 0x5ee5);
            script.register(15, 0xffe1);
            script.calls(&[Call::Step, Call::StepBack, Call::Step]);
        }
        script.calls(&[Call::StepBack, Call::StepBack]);
    }
    script.show();
}

/// Runs of a program that halts at its fifth step, with budgets around it.
fn runs_that_halt(script: &mut Script) {
    let lines = [
        "inc1 r1, r1",
        "sto r2, r1",
        "ldb r3, r2",
        "ld r4, r2",
        "ill r0, r0",
    ];
    for journal_length in [0, 32, 64, 96, 32_768] {
        script.start(64, journal_length);
        script.load_lines(0, &lines);
        for budget in [0, 1, 3, 4, 5, 6, 65_535] {
            script.calls(&[Call::Reset, Call::SetRegister(2, 0x30)]);
            script.calls(&[Call::Run(budget), Call::Run(0), Call::Run(1)]);
            script.calls(&[Call::Step, Call::StepBack, Call::Run(2)]);
        }
        script.show();
    }
}

/// Halted machines: what is refused, and what lets them go on.
fn halted_machines(script: &mut Script) {
    script.start(64, 32_768);
    script.load_lines(0, &["ill r0, r0", "mv f, r1", "or f, r1"]);
    script.load_lines(6, &["inc1 r2, r2", "inc1 r2, r2"]);
    for f in [
        0x0000, 0x0200, 0x0300, 0x0100, 0xfdff, 0xffff, 0x0500, 0x0400,
    ] {
        halted_by_ill(script, f);
    }
    script.show();
    let exception = 0x0200;
    for f in [0, 0x0100, 0x0400, exception] {
        for pc in [2, 4] {
            halted_by_f(script, f, exception, pc);
            halted_by_f(script, f, exception | 0x0100, pc);
        }
    }
    script.show();
}

/// A machine that an illegal opcode halts; then f is set.
fn halted_by_ill(script: &mut Script, f: u16) {
    script.calls(&[Call::Reset, Call::Step, Call::Step, Call::Run(3)]);
    script.calls(&[Call::Tick, Call::Receive(0x55), Call::Sent]);
    script.calls(&[Call::Poke(60, 1), Call::SetRegister(13, 0x0200)]);
    script.calls(&[Call::SetRegister(15, 6), Call::Step]);
    script.calls(&[Call::SetRegister(14, f), Call::Step, Call::Run(2)]);
    script.step_backs(4);
    script.calls(&[Call::Run(1), Call::StepBack, Call::Step]);
}

/// A machine that may be halted by what an instruction makes of f.
fn halted_by_f(script: &mut Script, f: u16, r1: u16, pc: u16) {
    script.calls(&[Call::Reset, Call::Tick, Call::SetRegister(1, r1)]);
    script.calls(&[Call::SetRegister(14, f), Call::SetRegister(15, pc)]);
    script.calls(&[Call::Run(1), Call::Run(1), Call::Step]);
    script.calls(&[Call::StepBack, Call::Step]);
    script.calls(&[Call::SetRegister(14, 0x0011), Call::Step]);
}

/// Ticks, bytes received and bytes sent, while the handler answers them or
/// does not.
fn keyboard(script: &mut Script) {
    for (turn, journal_length) in [64, 32_768, 0].iter().enumerate() {
        script.start(256, *journal_length);
        script.load_program(programs::PROGRAMS[0]);
        script.calls(&[Call::Run(9)]);
        for byte in 0..24u8 {
            script.calls(&[Call::Receive(byte), Call::Receive(byte + 1), Call::Sent]);
            let pause = script.random.pick(&[0, 1, 2, 6, 7, 9, 16, 40]);
            script.calls(&[Call::Run(pause), Call::Sent, Call::Tick]);
            script.calls(&[Call::Step, Call::Sent]);
            if usize::from(byte) % 3 == turn {
                script.calls(&[Call::StepBack, Call::Sent, Call::StepBack, Call::StepBack]);
            }
        }
        script.show();
    }
}

/// The clock goes round from 0xffff to 0, and its instructions are run.
fn clock(script: &mut Script) {
    script.start(64, 64);
    script.calls(&[Call::Tick]);
    script.damage(22, 0xfffe);
    script.calls(&[Call::StepBack, Call::Tick, Call::Tick, Call::Tick]);
    script.calls(&[Call::StepBack, Call::StepBack, Call::StepBack, Call::Tick]);
    script.show();
    script.start(64, 96);
    for ticks in 0..0x23 {
        script.calls(&[Call::Tick]);
        script.register(0, 0x003f);
        script.register(14, 0x0010);
        script.register(15, 0xfff0);
        script.calls(&[Call::Step]);
        if ticks % 3 == 0 {
            script.calls(&[Call::StepBack, Call::Step]);
        }
        script.halted(false);
    }
    script.show();
}

/// Runs with the largest budgets, through all of memory and the devices.
fn long_runs(script: &mut Script) {
    for (ram_length, journal_length) in [(65_504, 0), (30_000, 32_768), (256, 96)] {
        script.start(ram_length, journal_length);
        script.load_program(programs::PROGRAMS[3]);
        script.calls(&[Call::Run(65_535), Call::Run(65_534)]);
        script.show();
        script.calls(&[Call::Run(40_000), Call::StepBack, Call::StepBack]);
        script.show();
    }
    script.start(128, 32_768);
    script.load_program(programs::PROGRAMS[1]);
    script.calls(&[Call::Run(65_535), Call::Tick, Call::Run(65_535)]);
    script.show();
}

/// A journal of 1,024 slots that goes round, and is then stepped back to its
/// oldest record and once more.
fn journals_that_go_round(script: &mut Script, ram_length: u16) {
    script.start(ram_length, 32_768);
    let bytes = programs::soup(&mut script.random, 128);
    script.load(0, &bytes);
    for _ in 0..12 {
        script.calls(&[Call::Run(300), Call::Tick, Call::Receive(3), Call::Sent]);
        script.calls(&[Call::Poke(0x7f, 0xff), Call::SetRegister(14, 0x0100)]);
        script.calls(&[Call::SetRegister(15, 0)]);
    }
    script.show();
    script.step_backs(500);
    script.show();
    script.calls(&[Call::Run(20), Call::Poke(5, 5)]);
    script.step_backs(script.desk.machine.held + 2);
    script.show();
    script.calls(&[Call::Run(40)]);
    script.step_backs(3);
    script.command(desk::SET_HELD, 0, 1024, 0);
    script.step_backs(60);
    script.show();
}
