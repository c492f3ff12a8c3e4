//! Vectors of watched runs: many scenarios, each a series of commands. They
//! are those of the call vectors, and four more.

use super::script::Script;
use super::{hunts, stops, stretches};

/// All commands.
pub fn input() -> Vec<u8> {
    let commands = script().commands;
    commands.iter().flat_map(|one| one.encode()).collect()
}

/// All scenarios.
fn script() -> Script {
    let mut script = Script::new();
    stops::write(&mut script);
    hunts::write(&mut script);
    stretches::write_watched(&mut script);
    script
}

#[cfg(test)]
mod tests {
    use super::*;
    use crate::cpu::{F, IE, PC, PENDING};
    use crate::journal::RECORD;
    use crate::vectors::calls::shown;
    use crate::vectors::desk::RUN_WATCHED;
    use crate::vectors::desk::{Command, Desk, COMMAND};
    use crate::vectors::points::Points;
    use crate::watched::{Stop, Told, BREAK, WATCH};

    /// A watched run, and what stood around it.
    struct Seen {
        /// What it answered.
        told: Told,
        /// Its budget.
        budget: u16,
        /// The length of RAM.
        ram: usize,
        /// The list before it.
        before: Points,
        /// The list after it.
        after: Points,
        /// pc and f after it.
        pc: u16,
        f: u16,
        /// The bytes that its last step wrote and the first address, where the
        /// journal has them.
        stored: (u16, u16),
        /// Whether a byte that it wrote is watched, and was dropped.
        dropped: bool,
    }

    impl Seen {
        fn is_watch(&self) -> bool {
            matches!(self.told.stop, Stop::Watch(_))
        }

        fn is_break(&self) -> bool {
            matches!(self.told.stop, Stop::Break(_))
        }

        /// The place of the entry that is named.
        fn named(&self) -> Option<usize> {
            match self.told.stop {
                Stop::Watch(place) | Stop::Break(place) => Some(place),
                _ => None,
            }
        }

        /// How many entries were counted.
        fn counted(&self) -> usize {
            let both = self.before.entries.iter().zip(&self.after.entries);
            both.filter(|(before, after)| before.hits != after.hits)
                .count()
        }

        /// Whether a lent entry of this kind is at this address.
        fn has(&self, kind: u16, address: u16) -> bool {
            let lent = self.before.lent();
            lent.iter().any(|e| e.kind == kind && e.address == address)
        }

        /// Whether it did a step and ended with pc at a break.
        fn ends_at_break(&self) -> bool {
            self.told.steps > 0 && self.has(BREAK, self.pc)
        }
    }

    /// All watched runs of the vectors.
    fn all_seen() -> Vec<Seen> {
        let mut desk = Desk::new();
        let mut seen = Vec::new();
        for bytes in input().chunks(COMMAND) {
            let command = Command::decode(bytes);
            let before = desk.points.clone();
            desk.obey(command);
            if command.kind == RUN_WATCHED {
                let stored = newest_written(&desk);
                seen.push(Seen {
                    told: desk.told.expect("the run was made"),
                    budget: command.a,
                    ram: desk.ram_length,
                    before,
                    after: desk.points.clone(),
                    pc: desk.machine.cpu.registers[PC],
                    f: desk.machine.cpu.registers[F],
                    stored,
                    dropped: is_dropped(&desk, stored),
                });
            }
        }
        seen
    }

    /// What the newest record has for bytes written and first address.
    fn newest_written(desk: &Desk) -> (u16, u16) {
        let slots = desk.journal_length / RECORD;
        if slots == 0 || desk.machine.held == 0 {
            return (0, 0);
        }
        let start = (desk.machine.next + slots - 1) % slots * RECORD;
        (desk.journal[start + 25], desk.journal[start + 26])
    }

    /// Whether one of these bytes is watched, and is dropped.
    fn is_dropped(desk: &Desk, (count, first): (u16, u16)) -> bool {
        let (stretch, ram) = (desk.machine.cpu.stretch, &desk.ram[..desk.ram_length]);
        let mut addresses = (0..count).map(|offset| first.wrapping_add(offset));
        let watches = |at| {
            desk.points
                .lent()
                .iter()
                .any(|e| (e.kind, e.address) == (WATCH, at))
        };
        addresses.any(|at| stretch.drops(ram, at) && watches(at))
    }

    #[test]
    fn sizes() {
        let commands = script().commands;
        assert!(commands.len() <= 45_000, "{}", commands.len());
        let lines = shown(&input()).lines().count();
        assert!((80..=150).contains(&lines), "{lines}");
        for kind in 20..24 {
            assert!(commands.iter().any(|command| command.kind == kind));
        }
    }

    /// Each answer is met, with lists of each length.
    #[test]
    fn answers() {
        let seen = all_seen();
        assert!((2_000..5_000).contains(&seen.len()), "{}", seen.len());
        let count = |is_such: &dyn Fn(&Seen) -> bool| seen.iter().filter(|s| is_such(s)).count();
        for number in [1, 2, 3, 40, 41] {
            assert!(count(&|s| s.told.number == number) >= 12, "{number}");
        }
        assert!(count(&|s| s.told.stop == Stop::Budget) > 200);
        assert!(count(&|s| s.told.stop == Stop::Halted) > 200);
        assert!(count(&|s| s.is_watch()) > 200);
        assert!(count(&|s| s.is_break()) > 200);
        for length in [0, 1, 2, 3, 4, 6, 9, 20, 63, 64] {
            assert!(count(&|s| s.told.number == 0 && s.before.count == length) > 0);
        }
        assert!(count(&|s| s.told.steps == 65_535) >= 2);
        assert!(count(&|s| s.is_watch() && s.told.steps > 1_000) >= 3);
    }

    /// Causes meet, in each way that they can.
    #[test]
    fn meetings() {
        let seen = all_seen();
        let is_met = |is_such: &dyn Fn(&Seen) -> bool| seen.iter().any(is_such);
        assert!(is_met(&|s| s.is_watch() && s.told.steps == s.budget));
        assert!(is_met(&|s| s.is_watch() && s.ends_at_break()));
        let ends = |stop| is_met(&|s| s.told.stop == stop && s.ends_at_break() && s.counted() == 0);
        assert!(ends(Stop::Budget) && ends(Stop::Halted));
        assert!(is_met(&|s| s.told.stop == Stop::Halted
            && s.told.steps == s.budget
            && s.ends_at_break()));
        assert!(is_met(&|s| s.is_break()
            && s.f & IE != 0
            && s.f & PENDING != 0));
        assert!(is_met(&|s| s.is_break() && s.told.bus == 0));
    }

    /// Each of a word's bytes is watched, in RAM, past it and at the ends.
    #[test]
    fn stores() {
        let seen = all_seen();
        let is_met = |count, first, address| {
            let is_such = |s: &Seen| s.stored == (count, first) && s.has(WATCH, address);
            seen.iter()
                .any(|s| s.is_watch() && s.counted() == 1 && is_such(s))
        };
        for first in [0u16, 61, 63, 64, 0xffdf, 0xffe0, 0xfff0, 0xffff] {
            assert!(is_met(2, first, first), "{first}");
            assert!(is_met(2, first, first.wrapping_add(1)), "{first}");
            assert!(first == 61 || is_met(1, first, first), "{first}");
        }
        let past = |s: &&Seen| s.is_watch() && usize::from(s.stored.1) >= s.ram;
        assert!(seen.iter().filter(past).count() > 50);
        let dropped = |watch| {
            seen.iter()
                .filter(move |s| s.dropped && s.is_watch() == watch)
        };
        let counts = (dropped(false).count(), dropped(true).count());
        assert!(counts.0 > 15 && counts.1 > 15, "{counts:?}");
    }

    /// Several entries are counted, up to 65,535; the first is named, wherever
    /// it stands. What is past those lent is not looked at.
    #[test]
    fn counts() {
        let seen = all_seen();
        let is_met = |is_such: &dyn Fn(&Seen) -> bool| seen.iter().any(is_such);
        for kind in [BREAK, WATCH] {
            let of_kind = |s: &Seen, place: usize| s.before.entries[place].kind == kind;
            let named = |place| is_met(&|s| s.named() == Some(place) && of_kind(s, place));
            assert!((0..4).all(named));
            assert!([30, 31, 61, 62, 63].iter().any(|place| named(*place)));
            let full = |s: &Seen| {
                s.named()
                    .is_some_and(|p| of_kind(s, p) && s.before.entries[p].hits == 65_535)
            };
            assert!(is_met(&full));
        }
        assert!(is_met(&|s| s.counted() > 5));
        assert!(is_met(&|s| s.named() == Some(63)));
        let is_odd = |s: &Seen| s.before.entries[s.before.count].kind > 2;
        assert!(is_met(&|s| s.before.count < 64
            && is_odd(s)
            && s.told.number == 0));
    }
}
