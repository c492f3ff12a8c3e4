//! A run with breaks and watches: it stops before an address, or after a store to one.

use super::cpu::PC;
use super::Machine;

/// An entry of the list as it crosses the boundary: its address, its kind and its hits.
pub type Entry = [u16; 3];

pub const BREAK: u16 = 1;
const WATCH: u16 = 2;

/// The most entries of a list.
const LONGEST_LIST: usize = 64;

/// Why a run stopped, as bits 56 and 57 of its result have it; above them stands the place of the entry that is named.
const BY_BUDGET: u64 = 0;
const BY_HALT: u64 = 1;
const BY_WATCH: u64 = 2;
const BY_BREAK: u64 = 3;

/// Refusals 40 and 41.
pub fn check(list: &[Entry]) -> Result<(), u64> {
    if list.len() > LONGEST_LIST {
        return Err(40);
    }
    let known = list
        .iter()
        .all(|[_, kind, _]| [BREAK, WATCH].contains(kind));
    known.then_some(()).ok_or(41)
}

/// The addresses of the entries of a kind.
fn addresses(list: &[Entry], kind: u16) -> Vec<u16> {
    let of_kind = list.iter().filter(|entry| entry[1] == kind);
    of_kind.map(|entry| entry[0]).collect()
}

/// Counts a hit of every entry of a kind at one of the addresses; the place of the first such entry.
#[cold]
fn hit(list: &mut [Entry], kind: u16, is_met: impl Fn(u16) -> bool) -> u64 {
    let mut named = None;
    for (place, [address, its_kind, hits]) in list.iter_mut().enumerate() {
        if *its_kind == kind && is_met(*address) {
            *hits = hits.saturating_add(1);
            named = named.or(Some(place as u64));
        }
    }
    named.unwrap_or(0)
}

impl Machine {
    /// Steps until the budget is used up, the machine halts, a step wrote to a watched address, or pc is a break's address before a step
    /// that is not the first. The addresses of each kind are gathered once: a step looks through those of the breaks one by one, and through
    /// those of the watches if it wrote. A watch on a byte of RAM that no store reaches is left out. The list itself is gone through only when an
    /// entry is met.
    #[inline(never)]
    pub fn run_watched(
        &mut self,
        ram: &mut [u8],
        journal: &mut [u16],
        list: &mut [Entry],
        budget: u16,
    ) -> u64 {
        let (stretch, length) = (self.cpu.stretch, ram.len());
        let is_reached = |at: u16| usize::from(at) >= length || !stretch.has(at);
        let (breaks, mut watches) = (addresses(list, BREAK), addresses(list, WATCH));
        watches.retain(|at| is_reached(*at));
        let (mut steps, mut bus) = (0u64, 0u64);
        let stop = loop {
            if self.is_halted() {
                break BY_HALT;
            }
            if steps == u64::from(budget) {
                break BY_BUDGET;
            }
            let pc = self.cpu.registers[PC];
            if steps > 0 && breaks.contains(&pc) {
                break BY_BREAK | hit(list, BREAK, |at| at == pc) << 2;
            }
            let effect = self.step(ram, journal);
            bus += u64::from(effect.bus);
            steps += 1;
            let (first, count) = (effect.written.first, effect.written.count);
            let is_written = |at: u16| at.wrapping_sub(first) < count;
            if count > 0 && watches.iter().any(|at| is_written(*at)) {
                let place = hit(list, WATCH, |at| is_written(at) && is_reached(at));
                // A halt comes before a watch, whose hits are counted all the same.
                break if self.is_halted() {
                    BY_HALT
                } else {
                    BY_WATCH | place << 2
                };
            }
        };
        steps << 16 | bus << 32 | stop << 56
    }
}
