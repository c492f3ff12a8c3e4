//! Which calls are made.

use crate::benches::{self, Pen};
use crate::desk::{self, Desk};
use crate::entries;
use crate::library::{Call, Entry};
use crate::lines::Lines;
use crate::random::Random;
use std::fmt;

/// A call of any of the thirteen functions.
pub enum Play {
    OnMachine(Call),
    Watched { list: Vec<Entry>, budget: u16 },
    Pen(Pen),
    List { word: u16, room: usize },
    Assemble(Vec<u8>),
}

/// The functions, in the order of `Play::number`.
pub const NAMES: [&str; 13] = [
    "step",
    "tick",
    "receive",
    "sent",
    "set_register",
    "poke",
    "reset",
    "run",
    "step_back",
    "list",
    "assemble",
    "run_watched",
    "pen",
];

/// Which of them is the watched run, and which is the pen.
pub const WATCHED: usize = 11;
pub const PEN: usize = 12;

/// The calls that come next: mostly one, sometimes a burst of step-backs.
pub fn next(random: &mut Random, desk: &Desk, lines: &Lines) -> Vec<Play> {
    let halted = desk.state()[24] & 4 != 0;
    // There are few desks of which every call is refused; a pen is tried on most of them.
    if desk.has_odd_length() && random.percent(40) {
        return vec![pen(random, desk)];
    }
    if halted && random.percent(40) {
        return vec![Play::OnMachine(revival(random))];
    }
    let call = match random.below(110) {
        0..=27 => Call::Step,
        28..=37 => Call::Run(budget(random)),
        38..=46 if halted && random.percent(80) => revival(random),
        38..=46 => return vec![watched(random, desk)],
        47..=60 => Call::StepBack,
        61..=62 => return burst(random, desk),
        63..=67 => Call::Tick,
        68..=72 => Call::Receive(random.byte()),
        73..=76 => Call::Sent,
        77..=83 => Call::SetRegister(register(random), content(random)),
        84..=90 => Call::Poke(address(random, desk.ram().len()), random.byte()),
        91 => Call::Reset,
        92..=96 => return vec![listing(random)],
        97..=99 => return vec![Play::Assemble(lines.line(random))],
        _ => return vec![pen(random, desk)],
    };
    vec![Play::OnMachine(call)]
}

/// A call that may clear the halted mark.
fn revival(random: &mut Random) -> Call {
    match random.below(8) {
        0 => Call::Reset,
        1..=3 => Call::StepBack,
        _ => Call::SetRegister(14, content(random) & 0xfdff),
    }
}

/// Mostly small ones, since the model takes its time.
pub fn budget(random: &mut Random) -> u16 {
    match random.below(400) {
        0..=39 => 0,
        40..=119 => 1,
        120..=179 => 2,
        180..=359 => random.below(40) as u16,
        360..=396 => random.below(1_200) as u16,
        397 | 398 => random.below(5_000) as u16,
        _ => u16::MAX,
    }
}

/// A run with a list of breakpoints and watches.
fn watched(random: &mut Random, desk: &Desk) -> Play {
    Play::Watched {
        list: entries::list(random, desk),
        budget: budget(random),
    }
}

/// A pen of the pen bench.
pub fn pen(random: &mut Random, desk: &Desk) -> Play {
    Play::Pen(benches::pen(random, desk))
}

/// Step-backs until a few more than there are records, or fewer.
fn burst(random: &mut Random, desk: &Desk) -> Vec<Play> {
    let held = usize::from(desk.state()[26]);
    let count = match random.below(3) {
        0 => held.min(1_024) + 2,
        _ => random.below(held.min(40) + 3),
    };
    (0..count)
        .map(|_| Play::OnMachine(Call::StepBack))
        .collect()
}

fn register(random: &mut Random) -> u8 {
    match random.below(10) {
        0 => random.pick(&[16, 17, 31, 32, 128, 255]),
        1 | 2 => 14,
        _ => random.below(16) as u8,
    }
}

fn content(random: &mut Random) -> u16 {
    match random.below(3) {
        0 => random.pick(&[
            0, 1, 1, 2, 0x7fff, 0x8000, 0xfffe, 0xffff, 0xffff, 0x0100, 0x0200, 0x0300, 0xffe0,
            0xfff0,
        ]),
        1 => random.word() % 64,
        _ => random.word(),
    }
}

/// Often the first or the last byte of RAM or the one past it.
fn address(random: &mut Random, ram_length: usize) -> u16 {
    match random.below(8) {
        0 => ram_length.wrapping_sub(1) as u16,
        1 => ram_length as u16,
        2 => random.pick(&[0, 0xffff, 0xffe0, 0xffe1, 0xffdf]),
        3 => random.word(),
        _ => random.below(ram_length.max(1)) as u16,
    }
}

/// A word, half of them of opcodes that are listed, into up to 40 bytes.
fn listing(random: &mut Random) -> Play {
    let opcode = match random.below(8) {
        0 => random.byte(),
        1..=4 => random.byte() % 0x20,
        _ => random.pick(&[0x90, 0xa0, 0xc0]) | random.byte() % 16,
    };
    Play::List {
        word: u16::from_le_bytes([opcode, random.byte()]),
        room: random.below(41),
    }
}

impl Play {
    /// Makes the call on both sides; the result, or what differs.
    pub fn make(&self, desk: &mut Desk) -> Result<u64, Vec<String>> {
        match self {
            Play::OnMachine(call) => desk.call(*call),
            Play::Watched { list, budget } => desk.run_watched(list, *budget),
            Play::Pen(pen) => desk.do_pen(pen),
            Play::List { word, room } => desk::list(*word, *room),
            Play::Assemble(line) => desk::assemble(line),
        }
    }

    /// Which function it is, as in `NAMES`.
    pub fn number(&self) -> usize {
        match self {
            Play::OnMachine(Call::Step) => 0,
            Play::OnMachine(Call::Tick) => 1,
            Play::OnMachine(Call::Receive(_)) => 2,
            Play::OnMachine(Call::Sent) => 3,
            Play::OnMachine(Call::SetRegister(..)) => 4,
            Play::OnMachine(Call::Poke(..)) => 5,
            Play::OnMachine(Call::Reset) => 6,
            Play::OnMachine(Call::Run(_)) => 7,
            Play::OnMachine(Call::StepBack) => 8,
            Play::List { .. } => 9,
            Play::Assemble(_) => 10,
            Play::Watched { .. } => WATCHED,
            Play::Pen(_) => PEN,
        }
    }
}

impl fmt::Display for Play {
    fn fmt(&self, f: &mut fmt::Formatter) -> fmt::Result {
        write!(f, "mb50_{}", NAMES[self.number()])?;
        match self {
            Play::OnMachine(Call::Receive(byte)) => write!(f, " byte 0x{byte:02x}"),
            Play::OnMachine(Call::SetRegister(number, content)) => {
                write!(f, " number {number} content 0x{content:04x}")
            }
            Play::OnMachine(Call::Poke(address, byte)) => {
                write!(f, " address 0x{address:04x} byte 0x{byte:02x}")
            }
            Play::OnMachine(Call::Run(budget)) => write!(f, " budget {budget}"),
            Play::Watched { list, budget } => {
                write!(f, " budget {budget} entries {}", list.len())?;
                let mut entries = list.iter();
                entries.try_for_each(|[at, kind, hits]| write!(f, " [{at:04x} {kind} {hits}]"))
            }
            Play::Pen(pen) => {
                let [line, today, last_good] = [&pen.line, &pen.today, &pen.last_good];
                write!(f, " line \"{}\"", line.escape_ascii())?;
                write!(f, " today \"{}\"", today.escape_ascii())?;
                write!(f, " last_good \"{}\"", last_good.escape_ascii())?;
                write!(f, " setup {:04x?}", pen.setup)
            }
            Play::List { word, room } => write!(f, " word 0x{word:04x} room {room}"),
            Play::Assemble(line) => write!(f, " line \"{}\"", line.escape_ascii()),
            Play::OnMachine(_) => Ok(()),
        }
    }
}
