//! Vectors of single steps: in each of some hundred states, every instruction
//! word is run once.

use super::{Digest, Random};
use crate::bus::{self, Stretch, CLOCK_LOW, RXD};
use crate::cpu::{Cpu, Effect, F, PC};

/// The bytes of one record.
const RECORD: usize = 56;

/// Lengths of small RAMs: most registers point past them, and some of the
/// addresses that matter are close together.
const SMALL: [u16; 6] = [0, 1, 2, 3, 64, 256];

/// The edges of signed and unsigned numbers.
const EDGES: [u16; 7] = [0, 1, 2, 0x7fff, 0x8000, 0xfffe, 0xffff];

/// Addresses of the device registers, of their neighbours, and those from
/// which subtracting 2 leads there.
const DEVICES: [u16; 12] = [
    0xffde, 0xffdf, 0xffe0, 0xffe1, 0xffe2, 0xffe3, 0xffee, 0xffef, 0xfff0, 0xfff1, 0xfff2, 0xfff3,
];

/// Numbers that, stored in f, turn on pending bits or ie.
const FOR_F: [u16; 14] = [
    0x0100, 0x0200, 0x0300, 0x0400, 0x0500, 0x0800, 0x0a00, 0x1000, 0x2000, 0x4000, 0x8000, 0xfe00,
    0xff00, 0x01fe,
];

/// Contents of csr0: none, a reason, H, both, all.
const CSR0: [u16; 8] = [0, 1, 2, 0xff, 0x100, 0x101, 0x102, 0x1ff];

/// A state in which every word is tried.
#[derive(Clone, Debug, PartialEq)]
struct State {
    /// The length of RAM.
    ram_length: u16,
    /// What RAM is filled from.
    fill: u8,
    /// All but RAM; never halted.
    cpu: Cpu,
}

impl State {
    /// The record: "all words low byte first".
    fn encode(&self) -> Vec<u8> {
        let mut words = vec![self.ram_length];
        words.extend(self.cpu.registers);
        words.extend(self.cpu.csrs);
        words.push(self.cpu.devices.clock);
        words.push(self.cpu.keyboard());
        let marks = self.cpu.marks() as u8;
        words.push(u16::from_le_bytes([marks, self.fill]));
        words.extend([self.cpu.stretch.first, self.cpu.stretch.last]);
        words.iter().flat_map(|word| word.to_le_bytes()).collect()
    }

    /// The state of a record.
    fn decode(record: &[u8]) -> State {
        let word = |index: usize| u16::from_le_bytes([record[2 * index], record[2 * index + 1]]);
        let mut cpu = Cpu::new(Stretch {
            first: word(26),
            last: word(27),
        });
        for (index, register) in cpu.registers.iter_mut().enumerate() {
            *register = word(1 + index);
        }
        for (index, csr) in cpu.csrs.iter_mut().enumerate() {
            *csr = word(17 + index);
        }
        cpu.devices.clock = word(23);
        cpu.devices.rxd = record[48];
        cpu.devices.txd = record[49];
        cpu.devices.r = record[50] & 1 != 0;
        cpu.devices.t = record[50] & 2 != 0;
        State {
            ram_length: word(0),
            fill: record[51],
            cpu,
        }
    }

    /// RAM before the first word.
    fn ram(&self) -> Vec<u8> {
        let byte = |address| (usize::from(address) * 37 + usize::from(self.fill)) % 251;
        (0..self.ram_length)
            .map(|address| byte(address) as u8)
            .collect()
    }
}

/// The input: the records.
pub fn input() -> Vec<u8> {
    states().iter().flat_map(State::encode).collect()
}

/// The output for that input: a line for each record.
pub fn output() -> String {
    let mut text = String::new();
    for (number, record) in input().chunks(RECORD).enumerate() {
        let digest = digest_of_all_words(&State::decode(record));
        text += &format!("{number} {}\n", digest.digits());
    }
    text
}

/// Runs each word in the state; only RAM runs on from word to word.
fn digest_of_all_words(state: &State) -> Digest {
    let mut ram = state.ram();
    let mut digest = Digest::new();
    for word in 0..=u16::MAX {
        let mut cpu = state.cpu;
        place(word, &mut cpu, &mut ram);
        let effect = cpu.step(&mut ram);
        absorb_step(&mut digest, &cpu, &effect, &ram);
    }
    digest.absorb_bytes(&ram);
    digest
}

/// Puts a word where pc points, if it can be put there: in RAM, in the clock,
/// or its first byte in RXD.
fn place(word: u16, cpu: &mut Cpu, ram: &mut [u8]) {
    let [low, high] = word.to_le_bytes();
    let pc = cpu.registers[PC];
    if let Some(byte) = ram.get_mut(usize::from(pc)) {
        *byte = low;
    }
    if let Some(byte) = ram.get_mut(usize::from(pc.wrapping_add(1))) {
        *byte = high;
    }
    match pc {
        CLOCK_LOW => cpu.devices.clock = word,
        RXD => cpu.devices.rxd = low,
        _ => {}
    }
}

/// Absorbs the state after a step, and what the step did.
fn absorb_step(digest: &mut Digest, cpu: &Cpu, effect: &Effect, ram: &[u8]) {
    let registers = &cpu.registers;
    let csrs = &cpu.csrs;
    for three in registers[..15].chunks(3) {
        digest.absorb_three(three[0], three[1], three[2]);
    }
    digest.absorb_three(registers[15], csrs[0], csrs[1]);
    digest.absorb_three(csrs[2], csrs[3], csrs[4]);
    digest.absorb_three(csrs[5], cpu.devices.clock, cpu.keyboard());
    let first = effect.written.first;
    digest.absorb_three(cpu.marks(), effect.written.count, first);
    let byte = u16::from(bus::ram_byte(ram, first));
    let next = u16::from(bus::ram_byte(ram, first.wrapping_add(1)));
    digest.absorb_three(effect.bus, byte, next);
}

/// All states.
fn states() -> Vec<State> {
    let mut maker = Maker::new();
    maker.pending_bits();
    maker.every_flag_combination();
    maker.instructions_at_edges();
    maker.large_rams();
    maker.anything();
    maker.protect();
    maker.states
}

/// Makes states, each with other pseudo-random contents.
struct Maker {
    random: Random,
    states: Vec<State>,
}

impl Maker {
    /// A maker that has made none yet.
    fn new() -> Maker {
        Maker {
            random: Random::new(16),
            states: Vec::new(),
        }
    }

    /// Adds a state with this RAM, pc and f; R and T go through all four
    /// combinations. Nothing is protected yet.
    fn add(&mut self, ram_length: u16, pc: u16, f: u16) {
        let mut cpu = Cpu::new(Stretch::NONE);
        self.fill_registers(&mut cpu.registers, ram_length);
        cpu.registers[PC] = pc;
        cpu.registers[F] = f;
        self.fill_csrs(&mut cpu.csrs, ram_length);
        cpu.devices.clock = self.number(ram_length);
        cpu.devices.rxd = self.random.byte();
        cpu.devices.txd = self.random.byte();
        cpu.devices.r = self.states.len() % 2 != 0;
        cpu.devices.t = self.states.len() / 2 % 2 != 0;
        self.states.push(State {
            ram_length,
            fill: self.random.byte(),
            cpu,
        });
    }

    /// Fills the registers with addresses in and around RAM, addresses of
    /// devices, edges, numbers for f, and others, in any order.
    fn fill_registers(&mut self, registers: &mut [u16; 16], ram_length: u16) {
        for (index, register) in registers.iter_mut().enumerate() {
            *register = match index {
                0..=3 => self.ram_address(ram_length),
                4..=7 => self.random.pick(&DEVICES),
                8..=10 => self.random.pick(&EDGES),
                11..=12 => self.random.pick(&FOR_F),
                13 => self.random.word() % 18,
                _ => self.random.word(),
            };
        }
        self.random.shuffle(registers);
    }

    /// Fills csr0 with one of its contents, the others with any numbers.
    fn fill_csrs(&mut self, csrs: &mut [u16; 6], ram_length: u16) {
        for csr in csrs.iter_mut() {
            *csr = self.number(ram_length);
        }
        csrs[0] = match self.random.below(3) {
            0 => self.random.word() % 512,
            _ => self.random.pick(&CSR0),
        };
    }

    /// An address at the ends of RAM, or anywhere in it.
    fn ram_address(&mut self, ram_length: u16) -> u16 {
        match self.random.below(8) {
            0 => ram_length.wrapping_sub(2),
            1 => ram_length.wrapping_sub(1),
            2 => ram_length,
            3 => ram_length.wrapping_add(1),
            4 => self.random.word() % 4,
            _ => self.random.word() % ram_length.max(1),
        }
    }

    /// A number that matters for one reason or another.
    fn number(&mut self, ram_length: u16) -> u16 {
        match self.random.below(5) {
            0 => self.ram_address(ram_length),
            1 => self.random.pick(&EDGES),
            2 => self.random.pick(&DEVICES),
            3 => self.random.pick(&FOR_F),
            _ => self.random.word(),
        }
    }

    /// A place for instructions from which every word can be run: inside RAM
    /// if it has two bytes, or else the clock.
    fn place_for_all_words(&mut self, ram_length: u16) -> u16 {
        let inside = ram_length >= 2 && self.random.below(2) == 0;
        if !inside {
            return CLOCK_LOW;
        }
        match self.random.below(3) {
            0 => 0,
            1 => ram_length - 2,
            _ => self.random.word() % (ram_length - 1),
        }
    }

    /// A small RAM, and not too often a tiny one.
    fn small_ram(&mut self) -> u16 {
        match self.random.below(4) {
            0 | 1 => self.random.pick(&SMALL),
            2 => 64,
            _ => 256,
        }
    }

    /// Every pending bit alone, and all together, with ie 0 and with ie 1.
    /// Where ie is 1, every word takes the same step, so that few such states
    /// are enough.
    fn pending_bits(&mut self) {
        let mut bits: Vec<u16> = (9..16).map(|bit| 1 << bit).collect();
        bits.push(0xfe00);
        for pending in bits {
            let flags = u16::from(self.random.byte());
            let ram_length = self.random.pick(&[2, 3, 64, 256]);
            let pc = self.place_for_all_words(ram_length);
            self.add(ram_length, pc, pending | flags);
            self.add(ram_length, pc, 0x0100 | pending | !flags & 0xff);
        }
        self.add(0, 0xffff, 0x0700);
        self.add(64, 63, 0x8bff);
    }

    /// Every combination of the eight flags; f's upper byte has no bit, ie
    /// only, or pending bits without ie.
    fn every_flag_combination(&mut self) {
        for flags in 0..256 {
            let upper = match self.random.below(5) {
                0 | 1 => 0,
                2 => 0x0100,
                3 => self.random.word() & 0xfe00,
                _ => 0x0200 << self.random.below(7),
            };
            let ram_length = self.small_ram();
            let pc = self.place_for_all_words(ram_length);
            self.add(ram_length, pc, upper | flags);
        }
    }

    /// Instructions that are partly or wholly not in RAM.
    fn instructions_at_edges(&mut self) {
        for ram_length in [1, 2, 3, 64, 256] {
            let f = self.quiet_f();
            self.add(ram_length, ram_length - 1, f);
        }
        for ram_length in [2, 3, 64, 256] {
            let f = self.quiet_f();
            self.add(ram_length, ram_length - 2, f);
        }
        for ram_length in [0, 1, 64, 256] {
            let f = self.quiet_f();
            self.add(ram_length, 0xffff, f);
            let f = self.quiet_f();
            self.add(ram_length, RXD, f);
        }
        for pc in [0xfffe, 0xffe0, 0xffef, 0xffdf] {
            self.add(0, pc, 0x0000);
            self.add(64, pc, 0x01f0);
        }
        for ram_length in [0, 64] {
            self.add(ram_length, 0, 0);
            self.add(ram_length, ram_length, 0x0133);
        }
        self.high_byte_of_the_clock();
    }

    /// Instructions whose opcode is the high byte of the clock.
    fn high_byte_of_the_clock(&mut self) {
        for opcode in [0x00, 0x09, 0x17, 0x21] {
            self.add(256, 0xfff1, 0x0000);
            let last = self.states.len() - 1;
            self.states[last].cpu.devices.clock = opcode * 256 + 0x77;
        }
    }

    /// An f without an interrupt that is due.
    fn quiet_f(&mut self) -> u16 {
        let f = self.random.word();
        match self.random.below(2) {
            0 => f & 0xfeff,
            _ => f & 0x01ff,
        }
    }

    /// The longest RAM and the one of the boat's box.
    fn large_rams(&mut self) {
        for pc in [0, 0xffde, 0xffdf] {
            let f = self.quiet_f();
            self.add(65_504, pc, f);
        }
        for pc in [CLOCK_LOW, 29_998] {
            let f = self.quiet_f();
            self.add(30_000, pc, f);
        }
    }

    /// States of any kind.
    fn anything(&mut self) {
        for _ in 0..48 {
            let ram_length = self.small_ram();
            let pc = self.place_for_all_words(ram_length);
            let f = self.quiet_f();
            self.add(ram_length, pc, f);
            let last = self.states.len() - 1;
            for number in 0..14 {
                if self.random.below(3) != 0 {
                    self.states[last].cpu.registers[number] = self.number(ram_length);
                }
            }
        }
    }

    /// Gives two states in three a protected stretch.
    fn protect(&mut self) {
        for index in 0..self.states.len() {
            if index % 3 != 0 {
                self.states[index].cpu.stretch = self.stretch(index);
            }
        }
    }

    /// A stretch that begins, ends or lies where the state's stores go: at the
    /// addresses in its registers, and 2 before them for ddsto.
    fn stretch(&mut self, index: usize) -> Stretch {
        let ram_length = self.states[index].ram_length;
        let registers = self.states[index].cpu.registers;
        let is_ram = |address: &u16| *address < ram_length;
        let mut places: Vec<u16> = registers[..F].iter().copied().filter(is_ram).collect();
        places.push(0);
        let near = self.random.pick(&[0, 0, 1, u16::MAX, u16::MAX - 1]);
        let place = self.random.pick(&places).wrapping_add(near);
        let other = self.random.pick(&places);
        let (first, last) = match self.random.below(12) {
            0..=3 => (place, place),
            4 => (place, place.saturating_add(1)),
            5 => (place, ram_length.saturating_sub(1)),
            6 => (0, place),
            7 => (place.min(other), place.max(other)),
            8 => (ram_length.saturating_sub(1), self.random.pick(&DEVICES)),
            9 => (place.saturating_add(1), place),
            10 => (self.random.pick(&DEVICES), 0xffff),
            _ => (0, 0xffff),
        };
        Stretch { first, last }
    }
}

#[cfg(test)]
mod tests {
    use super::*;

    /// The states as they are read from the input.
    fn read_states() -> Vec<State> {
        input().chunks(RECORD).map(State::decode).collect()
    }

    /// How many states are such.
    fn count(is_such: impl Fn(&State) -> bool) -> usize {
        read_states().iter().filter(|state| is_such(state)).count()
    }

    /// Whether an interrupt is due.
    fn interrupt_is_due(state: &State) -> bool {
        let f = state.cpu.registers[F];
        f & 0x0100 != 0 && f & 0xfe00 != 0
    }

    #[test]
    fn records() {
        let all = states();
        assert!((300..=400).contains(&all.len()), "{}", all.len());
        assert_eq!(input().len(), RECORD * all.len());
        assert_eq!(read_states(), all);
        assert!(all.iter().all(|state| state.cpu.csrs[0] < 512));
    }

    #[test]
    fn every_pending_bit_and_flag_combination_occurs() {
        let has_f = |f| count(|state| state.cpu.registers[F] & 0xff00 == f) > 0;
        for bit in 9..16 {
            assert!(has_f(1 << bit));
            assert!(has_f(0x0100 | 1 << bit));
        }
        assert!(has_f(0xfe00) && has_f(0xff00) && has_f(0) && has_f(0x0100));
        for flags in 0..256 {
            assert!(count(|s| !interrupt_is_due(s) && s.cpu.registers[F] & 0xff == flags) > 0);
        }
        assert!(count(interrupt_is_due) < 15);
    }

    #[test]
    fn every_place_of_instructions_occurs() {
        let at = |pc| count(|s| !interrupt_is_due(s) && s.cpu.registers[PC] == pc);
        for pc in [0, 0xfffe, 0xffff, 0xffe0, 0xffe1, 0xffef, 0xffdf, 0xfff1] {
            assert!(at(pc) >= 2);
        }
        for ram_length in [0, 1, 2, 3, 64, 256, 30_000, 65_504] {
            let here = |s: &State| s.ram_length == ram_length && !interrupt_is_due(s);
            assert!(count(here) >= 2);
            if ram_length < 65_504 {
                assert!(count(|s| here(s) && s.cpu.registers[PC] == CLOCK_LOW) > 0);
            }
            let from_end = |back| move |s: &State| s.cpu.registers[PC] == s.ram_length - back;
            for back in 1..=ram_length.min(2) {
                assert!(ram_length == 30_000 || count(|s| here(s) && from_end(back)(s)) > 0);
            }
        }
    }

    #[test]
    fn every_edge_of_memory_is_pointed_at() {
        let pointed = |ram_length: u16, address: u16| {
            let points = |s: &State| s.cpu.registers[..F].contains(&address);
            count(|s| s.ram_length == ram_length && !interrupt_is_due(s) && points(s)) > 0
        };
        for ram_length in SMALL {
            for address in (0xffde..=0xffe3)
                .chain(0xffee..=0xfff3)
                .chain(0xfffe..=0xffff)
            {
                assert!(pointed(ram_length, address), "{ram_length} {address}");
            }
            for past in 0..4 {
                let address = ram_length.wrapping_add(1).wrapping_sub(past);
                assert!(pointed(ram_length, address), "{ram_length} {address}");
            }
            assert!(pointed(ram_length, 0) && pointed(ram_length, 1));
        }
    }

    /// Where words are stored: by sto to the addresses in registers, by ddsto 2
    /// before them.
    fn places(state: &State) -> Vec<u16> {
        let pointed = &state.cpu.registers[..F];
        let pushed = pointed.iter().map(|address| address.wrapping_sub(2));
        pointed.iter().copied().chain(pushed).collect()
    }

    /// Stores to the first and to the last protected address, beside them, of
    /// words with one protected byte and with two, and round the end.
    #[test]
    fn every_edge_of_a_stretch_is_stored_to() {
        let ram = [0; 65_504];
        let drops = |s: &State, at: u16| s.cpu.stretch.drops(&ram[..usize::from(s.ram_length)], at);
        let met = |is_such: &dyn Fn(&State, u16) -> bool| {
            let any = |s: &State| places(s).into_iter().any(|at| is_such(s, at));
            count(|s| !interrupt_is_due(s) && any(s)) >= 2
        };
        let stretch = |s: &State| (s.cpu.stretch.first, s.cpu.stretch.last);
        assert!(met(&|s, at| drops(s, at) && at == stretch(s).0));
        assert!(met(&|s, at| drops(s, at) && at == stretch(s).1));
        assert!(met(&|s, at| !drops(s, at) && drops(s, at.wrapping_add(1))));
        assert!(met(&|s, at| drops(s, at) && !drops(s, at.wrapping_add(1))));
        assert!(met(&|s, at| drops(s, at) && drops(s, at.wrapping_add(1))));
        assert!(met(&|s, at| at == 0xffff && drops(s, 0)));
        let is_inside = |s: &State, at| stretch(s).0 <= at && at <= stretch(s).1;
        for at in [bus::TXD, RXD, CLOCK_LOW] {
            assert!(met(&|s, first| first == at && is_inside(s, at)));
        }
        assert!(met(&|s, at| at >= s.ram_length && is_inside(s, at)));
        assert!(count(|s| stretch(s).0 > stretch(s).1 && stretch(s) != (1, 0)) >= 5);
        assert!(count(|s| stretch(s) == (0, 0xffff)) >= 5);
    }

    #[test]
    fn every_mark_edge_and_reason_occurs() {
        for marks in 0..4 {
            assert!(count(|s| !interrupt_is_due(s) && s.cpu.marks() == marks) > 50);
        }
        for csr0 in CSR0 {
            assert!(count(|s| s.cpu.csrs[0] == csr0) > 0);
        }
        for edge in EDGES {
            assert!(count(|s| s.cpu.csrs[1] == edge) > 0);
            for number in 0..14 {
                assert!(count(|s| s.cpu.registers[number] == edge) > 0);
            }
        }
    }

    /// A state whose every step is foreseen: the interrupt is taken.
    #[test]
    fn the_digest_of_a_plain_state() {
        let mut cpu = Cpu::new(Stretch::NONE);
        cpu.registers[F] = 0x0300;
        cpu.registers[PC] = 9;
        let state = State {
            ram_length: 1,
            fill: 5,
            cpu,
        };
        let mut expected = Digest::new();
        for _ in 0..65_536 {
            for _ in 0..4 {
                expected.absorb_three(0, 0, 0);
            }
            expected.absorb_three(0, 9, 0x0200);
            for _ in 0..3 {
                expected.absorb_three(0, 0, 0);
            }
            expected.absorb_three(2, 0, 0);
            expected.absorb_three(0, 5, 0);
        }
        expected.absorb(5);
        assert_eq!(digest_of_all_words(&state).digits(), expected.digits());
    }

    #[test]
    fn words_are_placed() {
        let mut cpu = Cpu::new(Stretch::NONE);
        let mut ram = [0; 3];
        for (pc, after) in [(0, [1, 2, 0]), (2, [1, 2, 1]), (0xffff, [2, 2, 1])] {
            cpu.registers[PC] = pc;
            place(0x0201, &mut cpu, &mut ram);
            assert_eq!(ram, after);
        }
        assert_eq!((cpu.devices.clock, cpu.devices.rxd), (0, 0));
        cpu.registers[PC] = CLOCK_LOW;
        place(0x0201, &mut cpu, &mut ram);
        cpu.registers[PC] = RXD;
        place(0x0403, &mut cpu, &mut ram);
        assert_eq!((cpu.devices.clock, cpu.devices.rxd), (0x0201, 0x03));
        assert_eq!(ram, [2, 2, 1]);
    }
}
