//! The files of a night at the pen bench, pseudo-random ones of a seed: the
//! firmware, the pens, the manifests, the bench's arguments and its output.

use super::firmware::{Firmware, MATCHES, SUMS};
use super::manifests;
use super::Random;
use crate::bus::Stretch;
use crate::cpu::{F, PC};
use crate::names::ALIASES;
use crate::night::{self, Night};
use crate::pens::{self, Lists, Setup};

/// The number of sp.
const SP: u16 = 11;

/// Lengths of RAM and numbers of slots.
const RAMS: [usize; 5] = [1_300, 4_096, 30_000, 30_000, 65_504];
const SLOTS: [usize; 5] = [0, 1, 3, 1_024, 1_024];
/// Addresses of the firmware.
const STARTS: [u16; 4] = [0, 0x0040, 0x0100, 0x0203];
/// Budgets of runs.
const BUDGETS: [u16; 10] = [0, 0, 60, 60, 200, 500, 500, 500, 3_000, 65_535];
/// What f is set to, where it is given.
const FLAGS: [u16; 5] = [0, 0, 0, 0x00ff, 0x0100];
/// The most names in the firmware's table.
const KNOWN: usize = 12;

/// The names of the files.
const FIRMWARE: &str = "firmware.img";
const PENS: &str = "pens.txt";
const TODAY: &str = "today.txt";
const LAST_GOOD: &str = "lastgood.txt";
const ARGUMENTS: &str = "arguments";
const EXPECTED: &str = "expected";

/// A file: its name and its bytes.
pub type File = (&'static str, Vec<u8>);

/// What a night is made of.
struct Plan {
    ram: usize,
    slots: usize,
    firmware: Firmware,
    setup: Setup,
    /// The protected addresses, where they are given.
    stretch: Option<Stretch>,
    pens: Vec<u8>,
    today: Vec<u8>,
    last_good: Vec<u8>,
}

/// The files of a seed.
pub fn files(seed: u64) -> [File; 6] {
    let mut random = Random::new(seed);
    let plan = Plan::new(&mut random);
    let (arguments, expected) = (plan.arguments(&mut random), plan.expected());
    [
        (FIRMWARE, plan.firmware.image()),
        (PENS, plan.pens),
        (TODAY, plan.today),
        (LAST_GOOD, plan.last_good),
        (ARGUMENTS, arguments.into_bytes()),
        (EXPECTED, expected),
    ]
}

impl Plan {
    fn new(random: &mut Random) -> Plan {
        let (ram, slots) = (random.pick(&RAMS), random.pick(&SLOTS));
        let address = address(random, ram);
        let numbers = manifests::numbers(random);
        let pens = manifests::pens(random, &numbers);
        // a name is made as long as the room only where that is short
        let room = (ram - usize::from(address) - 1).min(60);
        let today = manifests::manifest(random, &numbers, room);
        let last_good = manifests::manifest(random, &numbers, room);
        let lists = Lists {
            today: &today,
            last_good: &last_good,
        };
        let known = known(random, &numbers, lists);
        let firmware = firmware(random, address, &known);
        let mut setup = setup(random, address, &firmware);
        let stack = stack(random, ram, &mut setup);
        let stretch = stretch(random, address, stack, &firmware);
        Plan {
            ram,
            slots,
            firmware,
            setup,
            stretch,
            pens,
            today,
            last_good,
        }
    }

    /// The arguments, one a line.
    fn arguments(&self, random: &mut Random) -> String {
        let Setup {
            address,
            stop,
            budget,
            ..
        } = self.setup;
        let mut options = vec![format!("--at\n{}\n", number(random, address))];
        options.push(format!("--stop\n{}\n", number(random, stop)));
        options.push(format!("--budget\n{}\n", number(random, budget)));
        for (register, content) in &self.setup.registers {
            let given = format!("{}={}", called(random, *register), number(random, *content));
            options.push(format!("--set\n{given}\n"));
        }
        options.push(format!("--ram\n{}\n", self.ram));
        options.push(format!("--slots\n{}\n", self.slots));
        if let Some(Stretch { first, last }) = self.stretch {
            let (first, last) = (number(random, first), number(random, last));
            let place = random.below(options.len() + 1);
            options.insert(place, format!("--protect\n{first}\n{last}\n"));
        }
        options.extend([FIRMWARE, PENS, TODAY, LAST_GOOD].map(|file| format!("{file}\n")));
        options.concat()
    }

    /// The bench's output.
    fn expected(&self) -> Vec<u8> {
        night::output(&Night {
            ram: self.ram,
            slots: self.slots,
            stretch: self.stretch.unwrap_or(Stretch::NONE),
            firmware: (self.firmware.start, &self.firmware.bytes),
            pens: &self.pens,
            lists: Lists {
                today: &self.today,
                last_good: &self.last_good,
            },
            setup: &self.setup,
        })
    }
}

/// Where names are poked: near the end of RAM, in its middle, or seldom in the
/// firmware.
fn address(random: &mut Random, ram: usize) -> u16 {
    let address = match random.below(8) {
        0..=4 => ram - 3 - random.below(40),
        5 | 6 => ram - 100 - random.below(100),
        _ => random.below(ram.min(0x0300)),
    };
    address as u16
}

/// Names that pens of the night have, as the firmware's table has them.
fn known(random: &mut Random, numbers: &[u32], lists: Lists) -> Vec<Vec<u8>> {
    let names = numbers.iter().filter_map(|pen| {
        let name = pens::name(pen.to_string().as_bytes(), lists)?;
        pens::letters(name).ok().filter(|name| !name.is_empty())
    });
    let mut known: Vec<Vec<u8>> = names.collect();
    random.shuffle(&mut known);
    known.truncate(KNOWN);
    known
}

/// The firmware, with a table of names.
fn firmware(random: &mut Random, address: u16, known: &[Vec<u8>]) -> Firmware {
    let start = random.pick(&STARTS);
    if random.below(2) == 0 {
        let odd = random.pick(&[b'F', b'l', b'x', 0xc5]);
        let labels = [("name", address), ("odd", u16::from(odd))];
        return Firmware::new(start, SUMS, b"", labels);
    }
    let mut table: Vec<u8> = known
        .iter()
        .flat_map(|name| [name, &b"\0"[..]].concat())
        .collect();
    table.push(0);
    let labels = [("name", address), ("odd", random.below(KNOWN) as u16)];
    Firmware::new(start, MATCHES, &table, labels)
}

/// What all pens share. Mostly pc is given; without it a run goes on from where
/// the one before ended. Without f a machine that halted stays so.
fn setup(random: &mut Random, address: u16, firmware: &Firmware) -> Setup {
    let stop = random.pick(&["done", "done", "done", "done", "start", "letter"]);
    let mut registers: Vec<[u16; 2]> = Vec::new();
    if random.below(8) != 0 {
        registers.push([PC as u16, firmware.label("start")]);
    }
    if random.below(3) != 0 {
        registers.push([F as u16, random.pick(&FLAGS)]);
    }
    for _ in 0..random.below(3) {
        registers.push([random.pick(&[SP, 7, 9, 10, 12]), random.word()]);
    }
    random.shuffle(&mut registers);
    let mut words = vec![address, firmware.label(stop), random.pick(&BUDGETS)];
    words.extend(registers.concat());
    Setup::of_words(&words)
}

/// Where the firmware's stack ends: in RAM, unless sp is given already.
fn stack(random: &mut Random, ram: usize, setup: &mut Setup) -> u16 {
    let is_sp = |given: &&(u16, u16)| given.0 == SP;
    if let Some((_, content)) = setup.registers.iter().rfind(is_sp) {
        return *content;
    }
    let end = (ram - 300 + random.below(50)) as u16;
    if random.below(4) != 0 {
        setup.registers.push((SP, end));
    }
    end
}

/// What is protected, in two nights of three: what the firmware pushes or one
/// byte of it, where names go, the firmware, all, or nothing.
fn stretch(random: &mut Random, name: u16, stack: u16, firmware: &Firmware) -> Option<Stretch> {
    let pushed = stack.wrapping_sub(2);
    let (first, last) = match random.below(15) {
        0..=4 => return None,
        5 | 6 => (pushed, pushed),
        7 | 8 => (pushed.wrapping_add(1), pushed.wrapping_add(1)),
        9 => (pushed.saturating_sub(20), pushed.saturating_add(20)),
        10 => (name, name.saturating_add(20)),
        11 => (firmware.start, firmware.start + firmware.bytes.len() as u16),
        12 => (0, name),
        13 => (stack, pushed),
        _ => (0, 0xffff),
    };
    Some(Stretch { first, last })
}

/// A number as the desk reads it.
fn number(random: &mut Random, number: u16) -> String {
    match random.below(3) {
        0 => number.to_string(),
        1 => format!("{number:#06x}"),
        _ => format!("{number:#x}"),
    }
}

/// A register by one of its names.
fn called(random: &mut Random, register: u16) -> String {
    let alias = ALIASES.iter().find(|alias| alias.1 == register);
    match alias {
        Some(alias) if random.below(4) != 0 => alias.0.to_string(),
        _ => format!("r{register}"),
    }
}

#[cfg(test)]
mod tests {
    use super::*;

    /// The seeds that are tried here, from 0 on; the bench needs no more.
    const SEEDS: u64 = 40;

    fn file(seed: u64, name: &str) -> Vec<u8> {
        let mut files = files(seed).into_iter();
        files.find(|file| file.0 == name).expect("a file").1
    }

    #[test]
    fn a_line_for_each_pen() {
        for seed in 0..SEEDS {
            let pens = pens::lines(&file(seed, PENS)).len();
            assert_eq!(pens::lines(&file(seed, EXPECTED)).len(), pens);
        }
    }

    #[test]
    fn some_seeds_reach_everything() {
        let told: Vec<u8> = (0..SEEDS).flat_map(|seed| file(seed, EXPECTED)).collect();
        let told = String::from_utf8_lossy(&told);
        let answers = [
            "\tstop\t",
            "\thalted\t",
            "\tbudget\t",
            "\thalted\t0\t0\t",
            "\tbudget\t0\t0\t",
            "\trefused\t80\n",
            "\trefused\t81\n",
            "\trefused\t82\n",
            "\trefused\t83\n",
            "?\trefused\t83\n",
        ];
        for answer in answers {
            assert!(told.matches(answer).count() > 5, "{answer:?}");
        }
    }

    #[test]
    fn names_that_just_fit_and_that_just_do_not() {
        for letter in ["x", "ø"] {
            let all = |name| (0..SEEDS).flat_map(move |seed| file(seed, name));
            let longest = |text: Vec<u8>| {
                let text = String::from_utf8_lossy(&text).into_owned();
                (1..60)
                    .filter(|count| text.contains(&letter.repeat(*count)))
                    .count()
            };
            assert!(longest(all(EXPECTED).collect()) >= 5);
            assert!(longest(all(TODAY).collect()) >= longest(all(EXPECTED).collect()));
        }
    }

    /// Some nights come out otherwise than they would with nothing protected.
    #[test]
    fn stretches_that_matter() {
        let plans = || (0..SEEDS).map(|seed| Plan::new(&mut Random::new(seed)));
        assert!((5..20).contains(&plans().filter(|plan| plan.stretch.is_none()).count()));
        let matters = |plan: &mut Plan| {
            let expected = plan.expected();
            plan.stretch = None;
            expected != plan.expected()
        };
        let count = plans()
            .filter_map(|mut plan| matters(&mut plan).then_some(()))
            .count();
        assert!(count >= 5, "{count}");
    }

    #[test]
    fn arguments_are_as_the_bench_takes_them() {
        for seed in 0..SEEDS {
            let arguments = String::from_utf8(file(seed, ARGUMENTS)).expect("ASCII");
            let arguments: Vec<&str> = arguments.lines().collect();
            assert!(["--at", "--protect"].contains(&arguments[0]));
            let files = &arguments[arguments.len() - 4..];
            assert_eq!(files, [FIRMWARE, PENS, TODAY, LAST_GOOD]);
        }
    }
}
