//! Refusals: their order where there are several reasons, their limits, and
//! damaged records.

use super::desk;
use super::script::Script;
use crate::machine::Call;

/// Every call; the first six have a refusal of their own in the scenario of
/// several faults.
const CALLS: [Call; 9] = [
    Call::Step,
    Call::Receive(0x41),
    Call::Sent,
    Call::SetRegister(16, 0x1234),
    Call::Poke(64, 0x42),
    Call::StepBack,
    Call::Tick,
    Call::Run(2),
    Call::Reset,
];

/// Lengths of journals, good and bad.
const JOURNALS: [u16; 16] = [
    0, 1, 16, 31, 32, 33, 63, 64, 65, 32_736, 32_767, 32_768, 32_769, 32_800, 32_832, 33_000,
];

/// Words that damage a record, among them the limits of words 16, 24 and 25.
const DAMAGE: [u16; 14] = [
    0, 1, 2, 3, 4, 7, 8, 0xff, 0x1ff, 0x200, 0x7fff, 0x8000, 0xfffe, 0xffff,
];

/// First addresses that damage a record, for a RAM of 64 bytes.
const ADDRESSES: [u16; 11] = [
    0, 1, 62, 63, 64, 0xffdf, 0xffe0, 0xffe1, 0xfff0, 0xfffe, 0xffff,
];

/// All scenarios of faults.
pub fn write(script: &mut Script) {
    several_faults(script);
    limits_of_lengths(script);
    limits_of_the_state(script);
    limits_of_calls(script);
    any_faults(script);
    for slots in 1..=3 {
        damaged_records(script, slots);
    }
    damaged_addresses(script);
}

/// Every set of the five faults of refusals 1 to 3, under a call with a fault
/// of its own.
fn several_faults(script: &mut Script) {
    script.start(64, 64);
    for faults in 0..32u16 {
        let has = |fault: u16| faults & (1 << fault) != 0;
        prepare_own_faults(script);
        let ram_length = if has(0) { 65_505 } else { 64 };
        let journal_length = if has(1) { 32_800 } else { 64 };
        script.lend(ram_length, journal_length);
        let csr0 = if has(2) { 0x0200 } else { 0x01ff };
        let next = if has(3) { 2 } else { 1 };
        let held = if has(4) { 3 } else { 2 };
        script.state(csr0, next, held);
        script.calls(&CALLS);
        script.state(csr0, next, 0);
        script.calls(&[Call::StepBack]);
        script.lend(64, 64);
        if faults % 4 == 3 {
            script.show();
        }
    }
}

/// Makes the machine halted, with R=1 and T=1, and the record in the first
/// slot, of two, a bad one.
fn prepare_own_faults(script: &mut Script) {
    script.state(0, 0, 0);
    script.calls(&[Call::Reset, Call::Receive(0x40)]);
    script.halted(true);
    script.command(desk::SET_JOURNAL_WORD, 0, 24, 9);
}

/// Lengths around the limits.
fn limits_of_lengths(script: &mut Script) {
    script.start(64, 64);
    for ram_length in [65_503, 65_504, 65_505, 65_535] {
        script.lend(ram_length, 64);
        script.calls(&CALLS);
        script.calls(&[Call::Poke(0xffdf, 1), Call::Poke(0xffe0, 2)]);
        script.calls(&[Call::StepBack, Call::StepBack, Call::StepBack]);
    }
    script.lend(64, 64);
    script.show();
    for journal_length in JOURNALS {
        script.lend(64, journal_length);
        script.state(0, 0, 0);
        script.calls(&CALLS);
        script.calls(&[Call::StepBack, Call::StepBack]);
        script.show();
    }
}

/// csr0, next slot and records held around the limits.
fn limits_of_the_state(script: &mut Script) {
    script.start(64, 32);
    for csr0 in [0, 255, 256, 510, 511, 512, 513, 1023, 0x8000, 0xffff] {
        script.state(csr0, 0, 0);
        script.calls(&[Call::Tick, Call::Step, Call::StepBack]);
    }
    for slots in [0, 1, 2, 1024u16] {
        script.lend(64, 32 * slots);
        let around = [0, slots.wrapping_sub(1), slots, slots + 1, 0xffff];
        for next in around {
            for held in around {
                script.state(0, next, held);
                script.calls(&[Call::Tick, Call::StepBack, Call::StepBack]);
            }
        }
        script.show();
    }
}

/// Register numbers, poke addresses and the keyboard around the limits.
fn limits_of_calls(script: &mut Script) {
    script.start(64, 96);
    for number in [0, 11, 12, 13, 14, 15, 16, 17, 31, 127, 128, 240, 255] {
        script.calls(&[Call::SetRegister(number, 0x0155)]);
    }
    for ram_length in [0, 1, 2, 64, 65_504] {
        script.lend(ram_length, 96);
        let last = ram_length.wrapping_sub(1);
        for address in [0, 1, last, ram_length, 0xffdf, 0xffe0, 0xffe1, 0xffff] {
            script.calls(&[Call::Poke(address, 0x5a)]);
        }
        script.step_backs(4);
        script.show();
    }
    for byte in 0..6 {
        script.calls(&[Call::Receive(byte), Call::Sent, Call::Receive(byte)]);
        script.calls(&[Call::Reset, Call::Sent, Call::StepBack]);
    }
    script.show();
}

/// Any lengths and states, most of them good, with all calls.
fn any_faults(script: &mut Script) {
    for round in 0..96 {
        if round % 12 == 0 {
            script.start(64, 64);
        }
        let ram_length = script.random.pick(&[0, 64, 64, 256, 65_504, 65_505]);
        let journal_length = script.random.pick(&[0, 32, 33, 64, 96, 96, 32_768, 32_800]);
        let slots: u16 = journal_length / 32;
        let near = [0, 0, 0, 1, slots.wrapping_sub(1), slots, slots + 1];
        let csr0 = script.random.pick(&[0, 0x0101, 0x01ff, 0x0200]);
        let next = script.random.pick(&near);
        let held = script.random.pick(&near);
        let halted = script.random.below(2) == 0;
        script.lend(ram_length, journal_length);
        script.state(csr0, next, held);
        script.halted(halted);
        let mut calls = CALLS;
        script.random.shuffle(&mut calls);
        script.calls(&calls);
        if round % 12 == 11 {
            script.show();
        }
    }
}

/// Every word of the newest record, which is in the last slot, is damaged in
/// many ways. The records are of a store at the last byte of RAM, by turns of
/// a word and of one byte.
fn damaged_records(script: &mut Script, slots: u16) {
    script.start(64, 32 * slots);
    script.load_lines(0, &["sto r1, r2", "stob r1, r2"]);
    script.command(desk::SET_NEXT, 0, slots - 1, 0);
    for word in 0..32 {
        for (turn, content) in DAMAGE.iter().enumerate() {
            let is_left_out = word < 16 && turn % 4 != word % 4;
            if !is_left_out {
                make_record(script, word, turn % 2);
                step_back_damaged(script, word, *content);
            }
        }
        if word % 4 == 3 {
            script.show();
        }
    }
}

/// A step that stores, with its record. What the last damage of this word may
/// have changed is set anew.
fn make_record(script: &mut Script, word: usize, turn: usize) {
    if word < 16 {
        script.register(1, 63);
        script.register(2, 0xabcd);
        script.register(14, 0x0055);
    }
    script.register(15, 2 * turn as u16);
    script.command(desk::SET_CSR0, 0, 0x0101, 0);
    script.halted(false);
    script.call(Call::Step);
}

/// Damages a word and steps back; if that is refused, the word is mended.
fn step_back_damaged(script: &mut Script, word: usize, content: u16) {
    let good = script.desk.journal[script.place_in_newest(word)];
    script.damage(word, content);
    if script.call(Call::StepBack).number != 0 {
        script.damage(word, good);
        script.call(Call::StepBack);
    }
}

/// Records whose count, first address and old bytes are all damaged.
fn damaged_addresses(script: &mut Script) {
    for ram_length in [64, 0, 65_504] {
        script.start(ram_length, 64);
        for count in 0..3 {
            for address in ADDRESSES {
                script.calls(&[Call::Tick]);
                script.damage(25, count);
                script.damage(26, address);
                script.damage(27, 0xb1a0 + 0x0101 * count);
                script.calls(&[Call::StepBack]);
            }
            script.show();
        }
    }
}
