//! The processor with its devices, and one step.

use super::alu;

const IA: usize = 13;
pub const F: usize = 14;
pub const PC: usize = 15;

const IE: u16 = 0x0100;
pub const EXC: u16 = 0x0200;
const PENDING: u16 = 0xfe00;
/// Bit 8 of csr0.
const H: u16 = 0x0100;

/// The marks, as word 24 of a record has them.
pub const R: u16 = 1;
pub const T: u16 = 2;
pub const HALTED: u16 = 4;

const TXD: u16 = 0xffe0;
const RXD: u16 = 0xffe1;
const READY: u16 = 0xffe2;
const CLOCK_LOW: u16 = 0xfff0;
const CLOCK_HIGH: u16 = 0xfff1;

/// The last address of the longest RAM.
const LAST_OF_RAM: u16 = 0xffdf;

/// The addresses that a store does not reach, as the first of them and how many there are: one comparison finds them. Those that are never RAM are
/// left out, so that the number is a word.
#[derive(Clone, Copy)]
pub struct Stretch {
    first: u16,
    length: u16,
}

impl Stretch {
    /// The stretch from a first address to a last one, which is empty where the first is above the last.
    pub fn new(first: u16, last: u16) -> Stretch {
        let end = last.min(LAST_OF_RAM) + 1;
        Stretch {
            first,
            length: end.saturating_sub(first),
        }
    }

    #[inline(always)]
    pub fn has(self, address: u16) -> bool {
        address.wrapping_sub(self.first) < self.length
    }

    /// Whether a word's bytes are to be looked at one by one: one of them may be in the stretch. Of an empty one this is so for a single address.
    #[inline(always)]
    fn may_have_of_word(self, address: u16) -> bool {
        address.wrapping_sub(self.first).wrapping_add(1) <= self.length
    }
}

/// The state but RAM and journal. R, T and the halted mark stand in one word as in a record, so that a record is made by copying.
pub struct Cpu {
    pub registers: [u16; 16],
    pub csrs: [u16; 6],
    pub clock: u16,
    pub rxd: u8,
    pub txd: u8,
    pub marks: u16,
    /// Fixed at start, and in no record.
    pub stretch: Stretch,
}

/// What an input wrote through memory: words 25, 26 and 27 of its record.
#[derive(Clone, Copy)]
pub struct Written {
    pub count: u16,
    pub first: u16,
    pub old: u16,
}

impl Written {
    pub const NOTHING: Written = Written {
        count: 0,
        first: 0,
        old: 0,
    };
}

/// What a step did on the bus.
pub struct Effect {
    pub bus: u32,
    pub written: Written,
}

/// A step that stored nothing.
#[inline(always)]
fn bus(bytes: u32) -> Effect {
    Effect {
        bus: bytes,
        written: Written::NOTHING,
    }
}

/// Whether the condition in the opcode's low nibble holds.
#[inline(always)]
fn holds(opcode: u8, f: u16) -> bool {
    (f >> (opcode & 7) ^ u16::from(opcode >> 3)) & 1 == 0
}

impl Cpu {
    /// The state after a reset.
    pub fn reset(stretch: Stretch) -> Cpu {
        Cpu {
            registers: [0; 16],
            csrs: [0; 6],
            clock: 0,
            rxd: 0,
            txd: 0,
            marks: T,
            stretch,
        }
    }

    /// The state from the first 25 words of a record, or of the boundary's state.
    #[inline(always)]
    pub fn from_words(words: &[u16; 32], stretch: Stretch) -> Cpu {
        let [rxd, txd] = words[23].to_le_bytes();
        let mut cpu = Cpu {
            registers: [0; 16],
            csrs: [0; 6],
            clock: words[22],
            rxd,
            txd,
            marks: words[24] & 7,
            stretch,
        };
        cpu.registers.copy_from_slice(&words[..16]);
        cpu.csrs.copy_from_slice(&words[16..22]);
        cpu
    }

    /// Those 25 words.
    #[inline(always)]
    pub fn to_words(&self, words: &mut [u16; 32]) {
        words[..16].copy_from_slice(&self.registers);
        words[16..22].copy_from_slice(&self.csrs);
        words[22] = self.clock;
        words[23] = u16::from_le_bytes([self.rxd, self.txd]);
        words[24] = self.marks;
    }

    /// A device's interrupt: its bit of f is set, and H=1.
    pub fn interrupt(&mut self, bit: u16) {
        self.registers[F] |= bit;
        self.csrs[0] |= H;
    }

    /// One step of a machine that is not halted.
    #[inline(always)]
    pub fn step(&mut self, ram: &mut [u8]) -> Effect {
        let f = self.registers[F];
        if f & IE != 0 && f & PENDING != 0 {
            self.registers[F] = f & !IE;
            self.registers.swap(IA, PC);
            return bus(0);
        }
        let [opcode, operands] = self.read_word(ram, self.registers[PC]).to_le_bytes();
        self.registers[PC] = self.registers[PC].wrapping_add(2);
        self.execute(
            ram,
            opcode,
            usize::from(operands >> 4),
            usize::from(operands & 15),
        )
    }

    #[inline(always)]
    fn execute(&mut self, ram: &mut [u8], opcode: u8, d: usize, s: usize) -> Effect {
        let f = self.registers[F];
        let (dst, src) = (self.registers[d], self.registers[s]);
        let effect = match opcode {
            0x01 => self.compute(d, alu::add(dst, src)),
            0x02 => self.compute(d, alu::logic(dst & src)),
            0x03 => self.put(d, self.csrs.get(s).copied().unwrap_or(0)),
            0x04 => self.write_csr(d, src),
            0x05 => self.compute(d, alu::sub(src, 1)),
            0x06 => self.compute(d, alu::sub(src, 2)),
            0x07 => self.exchange(d, s),
            0x08 => self.compute(d, alu::add(src, 1)),
            0x09 => self.compute(d, alu::add(src, 2)),
            0x0a => self.load(ram, d, src),
            0x0b => self.load_byte(ram, d, src),
            0x0c => self.load_and_step(ram, d, s),
            0x0e => self.put(d, src),
            0x10 => self.compute(d, alu::logic(!src)),
            0x11 => self.compute(d, alu::logic(dst | src)),
            0x12 => self.compute(d, alu::shl(dst, src)),
            0x13 => self.compute(d, alu::shr(dst, src)),
            0x14 => self.compute(d, alu::shra(dst, src)),
            0x15 => self.store(ram, dst, src),
            0x16 => self.store_byte(ram, dst, src as u8),
            0x17 => self.push(ram, d, s),
            0x18 => self.compute(d, alu::sub(dst, src)),
            0x19 => self.set_flags(alu::compare(dst, src)),
            0x1a => self.compute(d, alu::logic(dst ^ src)),
            0x1b => self.set_flags(alu::compare(dst as i16, src as i16)),
            0x1c => self.return_from_interrupt(),
            0x1d => self.compute(d, alu::logic(src.reverse_bits())),
            0x90..=0x9f if holds(opcode, f) => self.load(ram, d, src),
            0xa0..=0xaf if holds(opcode, f) => self.load(ram, d, src),
            0xa0..=0xaf => self.put(s, src.wrapping_add(2)),
            0xc0..=0xcf if holds(opcode, f) => self.put(d, src),
            0x90..=0x9f | 0xc0..=0xcf => bus(2),
            _ => return self.except(1 + u16::from(opcode != 0)),
        };
        self.settle(f);
        effect
    }

    /// Stores a register; then the flags that the instruction computed no longer count if it is f.
    #[inline(always)]
    fn compute(&mut self, d: usize, (value, flags): (u16, u16)) -> Effect {
        self.registers[F] = self.registers[F] & !alu::COMPUTED | flags;
        self.put(d, value)
    }

    #[inline(always)]
    fn set_flags(&mut self, flags: u16) -> Effect {
        self.registers[F] = self.registers[F] & !alu::COMPUTED | flags;
        bus(2)
    }

    #[inline(always)]
    fn put(&mut self, d: usize, value: u16) -> Effect {
        self.registers[d] = value;
        bus(2)
    }

    #[inline(always)]
    fn exchange(&mut self, d: usize, s: usize) -> Effect {
        self.registers.swap(d, s);
        bus(2)
    }

    /// A program reaches only REASON of csr0, and nothing from csr6 on.
    #[inline(always)]
    fn write_csr(&mut self, d: usize, word: u16) -> Effect {
        match d {
            0 => self.csrs[0] = self.csrs[0] & 0xff00 | word & 0x00ff,
            1..=5 => self.csrs[d] = word,
            _ => {}
        }
        bus(2)
    }

    #[inline(always)]
    fn return_from_interrupt(&mut self) -> Effect {
        self.registers[F] |= IE;
        self.registers[PC] = self.registers[IA];
        self.registers[IA] = self.csrs[1];
        bus(2)
    }

    #[inline(always)]
    fn load(&mut self, ram: &[u8], d: usize, address: u16) -> Effect {
        self.registers[d] = self.read_word(ram, address);
        bus(4)
    }

    #[inline(always)]
    fn load_byte(&mut self, ram: &[u8], d: usize, address: u16) -> Effect {
        let byte = self.read_byte(ram, address);
        self.registers[d] = self.registers[d] & 0xff00 | u16::from(byte);
        bus(3)
    }

    /// ldis; the source is read again, for the one register that may be both.
    #[inline(always)]
    fn load_and_step(&mut self, ram: &[u8], d: usize, s: usize) -> Effect {
        self.registers[d] = self.read_word(ram, self.registers[s]);
        self.registers[s] = self.registers[s].wrapping_add(2);
        bus(4)
    }

    /// ddsto; the source is read after the decrement, for the one register that may be both.
    #[inline(always)]
    fn push(&mut self, ram: &mut [u8], d: usize, s: usize) -> Effect {
        self.registers[d] = self.registers[d].wrapping_sub(2);
        self.store(ram, self.registers[d], self.registers[s])
    }

    #[inline(always)]
    fn store(&mut self, ram: &mut [u8], address: u16, word: u16) -> Effect {
        let at = usize::from(address);
        let old = match ram.get_mut(at..at + 2) {
            Some(place) if !self.stretch.may_have_of_word(address) => {
                let old = u16::from_le_bytes([place[0], place[1]]);
                place.copy_from_slice(&word.to_le_bytes());
                old
            }
            _ => self.store_by_bytes(ram, address, word),
        };
        Effect {
            bus: 4,
            written: Written {
                count: 2,
                first: address,
                old,
            },
        }
    }

    #[inline(always)]
    fn store_byte(&mut self, ram: &mut [u8], address: u16, byte: u8) -> Effect {
        let old = self.write_byte(ram, address, byte);
        Effect {
            bus: 3,
            written: Written {
                count: 1,
                first: address,
                old: u16::from(old),
            },
        }
    }

    /// An illegal opcode.
    #[cold]
    fn except(&mut self, reason: u16) -> Effect {
        self.csrs[0] = H | reason;
        self.registers[F] |= EXC;
        if self.registers[F] & IE == 0 {
            self.marks |= HALTED;
        }
        bus(2)
    }

    /// What a legal instruction does by turning on any of f bits 9 to 15.
    #[inline(always)]
    fn settle(&mut self, before: u16) {
        let f = self.registers[F];
        let turned_on = f & !before & PENDING;
        if turned_on != 0 {
            self.csrs[0] &= !H;
            if turned_on & EXC != 0 && f & IE == 0 {
                self.marks |= HALTED;
            }
        }
    }

    #[inline(always)]
    fn read_word(&self, ram: &[u8], address: u16) -> u16 {
        let at = usize::from(address);
        match ram.get(at..at + 2) {
            Some(bytes) => u16::from_le_bytes([bytes[0], bytes[1]]),
            None => self.read_by_bytes(ram, address),
        }
    }

    /// A word that is not wholly in RAM.
    #[cold]
    fn read_by_bytes(&self, ram: &[u8], address: u16) -> u16 {
        let low = self.read_byte(ram, address);
        let high = self.read_byte(ram, address.wrapping_add(1));
        u16::from_le_bytes([low, high])
    }

    #[inline(always)]
    fn read_byte(&self, ram: &[u8], address: u16) -> u8 {
        match ram.get(usize::from(address)) {
            Some(byte) => *byte,
            None => self.read_device(address),
        }
    }

    fn read_device(&self, address: u16) -> u8 {
        match address {
            RXD => self.rxd,
            READY => (self.marks & (R | T)) as u8,
            CLOCK_LOW => self.clock as u8,
            CLOCK_HIGH => (self.clock >> 8) as u8,
            _ => 0,
        }
    }

    /// A word that is not wholly in RAM, or of which a byte may be in the stretch, its lower address first; the old bytes of RAM. It is never the
    /// same byte twice, so writing the first does not disturb the old second.
    #[cold]
    fn store_by_bytes(&mut self, ram: &mut [u8], address: u16, word: u16) -> u16 {
        let [low, high] = word.to_le_bytes();
        let first = self.write_byte(ram, address, low);
        let second = self.write_byte(ram, address.wrapping_add(1), high);
        u16::from_le_bytes([first, second])
    }

    /// Writes a byte, unless it is one of RAM in the stretch, and gives the old one, or 0 where it is not in RAM.
    #[inline(always)]
    fn write_byte(&mut self, ram: &mut [u8], address: u16, byte: u8) -> u8 {
        match ram.get_mut(usize::from(address)) {
            Some(place) if self.stretch.has(address) => *place,
            Some(place) => std::mem::replace(place, byte),
            None => {
                self.write_device(address, byte);
                0
            }
        }
    }

    fn write_device(&mut self, address: u16, byte: u8) {
        match address {
            TXD if self.marks & T != 0 => {
                self.txd = byte;
                self.marks &= !T;
            }
            RXD => self.marks &= !R,
            _ => {}
        }
    }
}
