//! Lists of breakpoints and watches.

use crate::desk::Desk;
use crate::library::Entry;
use crate::random::Random;
use crate::reference::{self, Path};

const BREAK: u16 = 1;
const WATCH: u16 = 2;

/// How many steps of the run that comes are looked at.
const FORESEEN: [usize; 4] = [10, 40, 40, 400];

/// Kinds that are none; some have the bits of one.
const ODD_KINDS: [u16; 10] = [0, 3, 4, 255, 256, 257, 258, 0x8001, 0x8002, 0xffff];

/// Addresses of devices, and the ends of the addresses.
const EDGES: [u16; 14] = [
    0, 0, 1, 2, 0xffdf, 0xffe0, 0xffe1, 0xffe2, 0xffe3, 0xfff0, 0xfff1, 0xfffe, 0xffff, 0xffff,
];

/// A list: often the one that the last watched run on the desk left, so that hits add up.
pub fn list(random: &mut Random, desk: &Desk) -> Vec<Entry> {
    if !desk.list().is_empty() && random.percent(40) {
        return desk.list().to_vec();
    }
    let path = reference::path(desk.state(), desk.ram(), random.pick(&FORESEEN));
    let count = count(random);
    // Entries that the run seldom meets stand before the others, so that late ones are named too.
    let strangers = match random.below(3) {
        0 => random.below(count + 1),
        _ => 0,
    };
    let mut list = Vec::new();
    for place in 0..count {
        let [address, kind] = match place < strangers {
            true => [random.word(), either(random)],
            false => point(random, desk, &path, &list),
        };
        list.push([address, kind, hits(random)]);
    }
    if !list.is_empty() && random.percent(5) {
        let odd = random.below(list.len());
        list[odd][1] = random.pick(&ODD_KINDS);
    }
    list
}

/// How many entries: mostly few, since a run with many stops soon; seldom more than are allowed.
fn count(random: &mut Random) -> usize {
    match random.below(40) {
        0..=2 => 0,
        3..=27 => 1 + random.below(4),
        28..=33 => 5 + random.below(12),
        34 | 35 => 17 + random.below(46),
        36 => 63,
        37 | 38 => 64,
        _ => 65 + random.below(2),
    }
}

/// A kind.
fn either(random: &mut Random) -> u16 {
    random.pick(&[BREAK, WATCH])
}

/// Mostly none, sometimes nearly as many as can be counted.
fn hits(random: &mut Random) -> u16 {
    match random.below(8) {
        0 => u16::MAX,
        1 => u16::MAX - 1 - random.below(3) as u16,
        2 => random.word(),
        _ => 0,
    }
}

/// An address and a kind: what the run meets, what it passes by, or an address that is in the list already.
fn point(random: &mut Random, desk: &Desk, path: &Path, list: &[Entry]) -> [u16; 2] {
    let either = either(random);
    match random.below(16) {
        0..=3 => [random.pick(&path.pcs), BREAK],
        4..=8 if !path.stored.is_empty() => [near(random.pick(&path.stored), random), WATCH],
        9 if !list.is_empty() => [random.pick(list)[0], either],
        10 => [near(random.pick(&path.pcs), random), either],
        11 => [near(desk.state()[random.below(16)], random), either],
        12 => [random.pick(&EDGES), either],
        13 => [near(desk.ram().len() as u16, random), either],
        14 => [random.word() % 64, either],
        _ => [random.word(), either],
    }
}

/// The address, or seldom one beside it.
fn near(address: u16, random: &mut Random) -> u16 {
    address.wrapping_add(random.pick(&[0, 0, 0, 1, 2, u16::MAX, u16::MAX - 1]))
}
