//! The watched run: a run with breakpoints and watches, change request Q-9.
//!
//! "It stops before a step that starts with pc at a break address, the first
//! step of a run excepted, and after any step that stored to a watched
//! address". Its steps are those of a run, each with its record.

use crate::bus::Written;
use crate::cpu::PC;
use crate::machine::Machine;

#[cfg(test)]
mod tests;

/// "a list of up to 64 entries"
pub const MOST_ENTRIES: usize = 64;
/// "40 too many entries"
const TOO_MANY: u16 = 40;
/// "41 unknown kind"
const UNKNOWN_KIND: u16 = 41;

/// "a kind (1 break, 2 watch)"
pub const BREAK: u16 = 1;
/// The other kind.
pub const WATCH: u16 = 2;

/// An entry of the list: "each an address, a kind (1 break, 2 watch) and a hit
/// count".
#[derive(Clone, Copy, Debug, PartialEq, Eq)]
pub struct Entry {
    /// The address.
    pub address: u16,
    /// The kind.
    pub kind: u16,
    /// The hit count.
    pub hits: u16,
}

/// Why a watched run stopped; a watch and a break name an entry by its place
/// in the list, from 0.
#[derive(Clone, Copy, Debug, PartialEq, Eq)]
pub enum Stop {
    /// The call was refused.
    None,
    /// "budget used up"
    Budget,
    /// "machine halted"
    Halted,
    /// The last step stored to a watched address.
    Watch(usize),
    /// The next step would start with pc at a break address.
    Break(usize),
}

/// What a watched run answers.
#[derive(Clone, Copy, Debug, PartialEq, Eq)]
pub struct Told {
    /// The number of the refusal, or 0.
    pub number: u16,
    /// The steps done.
    pub steps: u16,
    /// The sum of their bus bytes.
    pub bus: u32,
    /// Why it stopped.
    pub stop: Stop,
}

impl Told {
    /// The answer of a call that does no step; 0 for one that is accepted.
    fn nothing_done(number: u16) -> Told {
        Told {
            number,
            steps: 0,
            bus: 0,
            stop: Stop::None,
        }
    }
}

/// The places in the list of the entries that match.
struct Matches {
    /// The watches on an address to which the last step stored.
    watches: Vec<usize>,
    /// The breaks at which pc is, unless the next step is the first of the run.
    breaks: Vec<usize>,
}

/// Runs up to this many steps, and marks the hits in the list. "Refusals,
/// after 1 to 3, the list unchanged: 40 too many entries, 41 unknown kind."
pub fn run(
    machine: &mut Machine,
    ram: &mut [u8],
    journal: &mut [u16],
    list: &mut [Entry],
    budget: u16,
) -> Told {
    let refusal = machine
        .refusal_of_any_call(ram, journal)
        .or_else(|| refusal_of_list(list));
    match refusal {
        Some(number) => Told::nothing_done(number),
        None => perform(machine, ram, journal, list, budget),
    }
}

/// What is checked of the list.
fn refusal_of_list(list: &[Entry]) -> Option<u16> {
    if list.len() > MOST_ENTRIES {
        Some(TOO_MANY)
    } else if list.iter().any(|e| e.kind != BREAK && e.kind != WATCH) {
        Some(UNKNOWN_KIND)
    } else {
        None
    }
}

/// Does the run. Before the first step nothing has been stored.
fn perform(
    machine: &mut Machine,
    ram: &mut [u8],
    journal: &mut [u16],
    list: &mut [Entry],
    budget: u16,
) -> Told {
    let mut told = Told::nothing_done(0);
    let mut stored = Written::default();
    loop {
        let matches = matches(machine, ram, list, &stored, told.steps);
        if let Some(stop) = stop(machine.cpu.halted, &matches, told.steps == budget) {
            mark(list, stop, &matches);
            return Told { stop, ..told };
        }
        let effect = machine.recorded_step(ram, journal);
        stored = effect.written;
        told.steps += 1;
        told.bus += u32::from(effect.bus);
    }
}

/// The entries that match after so many steps, of which the last one stored
/// these bytes.
fn matches(machine: &Machine, ram: &[u8], list: &[Entry], stored: &Written, steps: u16) -> Matches {
    let pc = machine.cpu.registers[PC];
    // "a byte dropped under Q-4 is no hit, an ignored one is"
    let is_hit = |at| is_stored(stored, at) && !machine.cpu.stretch.drops(ram, at);
    Matches {
        watches: places(list, |e| e.kind == WATCH && is_hit(e.address)),
        breaks: places(list, |e| e.kind == BREAK && steps > 0 && e.address == pc),
    }
}

/// The places of such entries, the first one first.
fn places(list: &[Entry], is_such: impl Fn(&Entry) -> bool) -> Vec<usize> {
    (0..list.len()).filter(|i| is_such(&list[*i])).collect()
}

/// Whether one of the bytes was written at this address; "an ignored one" is a
/// hit too, and every address sum is taken modulo 65,536.
fn is_stored(stored: &Written, address: u16) -> bool {
    (0..stored.count).any(|offset| stored.first.wrapping_add(offset) == address)
}

/// Why the run stops here, if it does: "Where causes meet, the order is halted,
/// watch, budget, break", and "the first in the list is named".
fn stop(halted: bool, matches: &Matches, budget_is_used_up: bool) -> Option<Stop> {
    if halted {
        Some(Stop::Halted)
    } else if let Some(first) = matches.watches.first() {
        Some(Stop::Watch(*first))
    } else if budget_is_used_up {
        Some(Stop::Budget)
    } else {
        matches.breaks.first().map(|first| Stop::Break(*first))
    }
}

/// "only the hits of a named watch or break stop, or of a watch on the step
/// that halted, are counted. When several entries match, all are counted".
fn mark(list: &mut [Entry], stop: Stop, matches: &Matches) {
    let counted: &[usize] = match stop {
        Stop::Halted | Stop::Watch(_) => &matches.watches,
        Stop::Break(_) => &matches.breaks,
        Stop::Budget | Stop::None => &[],
    };
    for place in counted {
        // "Hit counts stop at 65,535"
        list[*place].hits = list[*place].hits.saturating_add(1);
    }
}
