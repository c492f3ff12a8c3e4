//! What a pen of the pen bench is given beside the machine.

use crate::desk::Desk;
use crate::manifests;
use crate::pens::{self, Lists};
use crate::play;
use crate::random::Random;
use crate::reference;

const F: u16 = 14;
const PC: u16 = 15;

/// What sets the matching routine of `programs.rs` going, which reads the name at r1.
const ROUTINE: [[u16; 2]; 3] = [[2, 0], [3, 0], [PC, 0]];

/// The bit of f by which a machine stays halted.
const EXC: u16 = 0x0200;

/// How many steps of the run that comes are looked at.
const FORESEEN: [usize; 4] = [4, 20, 40, 400];

/// Numbers of no register; some have the bits of one.
const ODD_REGISTERS: [u16; 10] = [16, 17, 31, 32, 255, 256, 257, 271, 0x8000, 0xffff];

/// Addresses at the ends.
const EDGES: [u16; 6] = [0, 1, 0xffdf, 0xffe0, 0xfffe, 0xffff];

/// A pen's line, both manifests, and the words of the setup.
#[derive(Clone)]
pub struct Pen {
    pub line: Vec<u8>,
    pub today: Vec<u8>,
    pub last_good: Vec<u8>,
    pub setup: Vec<u16>,
}

/// A pen: often the next of the bench of which the last pen on the desk was one, unless that halted the machine.
pub fn pen(random: &mut Random, desk: &Desk) -> Pen {
    let last = desk.pen().filter(|_| random.percent(60));
    let goes_on = last.is_some() && random.percent(if is_halted(desk) { 15 } else { 65 });
    let mut pen = match last {
        Some(last) => last.clone(),
        None => bench(random, desk),
    };
    pen.line = manifests::pen(random, [&pen.today, &pen.last_good]);
    if !goes_on {
        pen.setup = setup(random, desk, &pen);
    }
    pen
}

fn is_halted(desk: &Desk) -> bool {
    desk.state()[24] & 4 != 0
}

/// New manifests.
fn bench(random: &mut Random, desk: &Desk) -> Pen {
    let numbers = manifests::numbers(random);
    // longer names than this would only take time
    let room = desk.ram().len().min(300);
    Pen {
        line: Vec::new(),
        today: manifests::manifest(random, &numbers, room),
        last_good: manifests::manifest(random, &numbers, room),
        setup: Vec::new(),
    }
}

/// A setup that goes with a pen: mostly its name fits, and the run comes to the address to stop at.
fn setup(random: &mut Random, desk: &Desk, pen: &Pen) -> Vec<u16> {
    let address = address(random, desk, pen);
    let mut setup = vec![address, 0, 0];
    setup.extend(registers(random, desk, address));
    setup[1] = stop(random, desk, pen, &setup);
    setup[2] = budget(random);
    match random.below(30) {
        0 => setup.truncate(random.below(3)),
        1..=5 => setup.push(random.pick(&[0, 16, 0xffff])),
        _ => {}
    }
    setup
}

/// Mostly enough steps to come to the address where the run stops.
fn budget(random: &mut Random) -> u16 {
    match random.below(8) {
        0 | 1 => play::budget(random),
        2 => random.pick(&[0, 1, 2, 3]),
        _ => 10 + random.below(500) as u16,
    }
}

/// Where the name goes: often where it just fits RAM or just does not.
fn address(random: &mut Random, desk: &Desk, pen: &Pen) -> u16 {
    let ram = desk.ram().len();
    let lists = Lists {
        today: &pen.today,
        last_good: &pen.last_good,
    };
    let letters = pens::name(&pen.line, lists).map(pens::letters);
    match (random.below(10), letters) {
        (0..=4, Some(Ok(letters))) => {
            let beside = random.pick(&[1, 1, 1, 2, 0, 3]);
            ram.wrapping_sub(letters.len() + beside) as u16
        }
        (5, _) => random.pick(&EDGES),
        (6, _) => random.word(),
        _ => random.below(ram.max(1)) as u16,
    }
}

/// The given registers, pc often among them. A machine that is halted mostly goes on by them.
fn registers(random: &mut Random, desk: &Desk, address: u16) -> Vec<u16> {
    let count = random.weighted(&[(3, 0), (4, 1), (4, 2), (3, 3), (1, 7), (1, 20)]);
    let mut pairs: Vec<[u16; 2]> = (0..count).map(|_| pair(random, desk)).collect();
    if random.percent(if is_halted(desk) { 85 } else { 20 }) {
        pairs.push([F, random.word() & random.pick(&[0x00ff, 0x01ff, !EXC])]);
    }
    match random.below(10) {
        0..=2 => pairs.extend([&[[1, address]][..], &ROUTINE].concat()),
        3..=6 => pairs.push([PC, random.below(desk.ram().len().max(1)) as u16 & !1]),
        _ => {}
    }
    if random.percent(4) && !pairs.is_empty() {
        let odd = random.below(pairs.len());
        pairs[odd][0] = random.pick(&ODD_REGISTERS);
    }
    pairs.concat()
}

/// A register's number and its content.
fn pair(random: &mut Random, desk: &Desk) -> [u16; 2] {
    let content = match random.below(3) {
        0 => random.below(desk.ram().len().max(1)) as u16,
        1 => random.word() % 64,
        _ => random.word(),
    };
    [random.below(16) as u16, content]
}

/// The address to stop at: mostly one that pc comes to, the first too, in a run with these words.
fn stop(random: &mut Random, desk: &Desk, pen: &Pen, setup: &[u16]) -> u16 {
    if random.percent(15) {
        return random.word();
    }
    let pen = Pen {
        setup: setup.to_vec(),
        ..pen.clone()
    };
    let steps = random.pick(&FORESEEN);
    let pcs = reference::pen_path(desk.state(), desk.ram(), &pen, steps).pcs;
    match &pcs[1..] {
        later if !later.is_empty() && random.percent(85) => random.pick(later),
        _ => random.pick(&pcs),
    }
}
