//! A differential fuzzer: the model against the library of the C boundary, call by call. After each call the result, the state, RAM, the
//! journal, the list of a watched run, what a pen is lent, and guards around each of them are compared; the first call after which something
//! differs is told, and the status is 1.
//!
//! Usage: fuzz CALLS SEED [pen]: with the last word all calls are pens

#[allow(dead_code)]
#[path = "../model/src/alu.rs"]
mod alu;
mod benches;
#[allow(dead_code)]
#[path = "../model/src/bus.rs"]
mod bus;
#[path = "../model/src/cpu.rs"]
mod cpu;
mod desk;
mod entries;
mod guarded;
#[path = "../model/src/journal.rs"]
mod journal;
#[path = "../bench/library.rs"]
mod library;
mod lines;
#[allow(dead_code)]
#[path = "../model/src/machine.rs"]
mod machine;
mod manifests;
#[path = "../model/src/names.rs"]
mod names;
#[allow(dead_code)]
#[path = "../model/src/opcode.rs"]
mod opcode;
#[allow(dead_code)]
#[path = "../model/src/pens.rs"]
mod pens;
mod play;
mod programs;
mod random;
mod reference;
mod scene;
#[path = "../model/src/text.rs"]
mod text;
#[path = "../model/src/utf8.rs"]
mod utf8;
#[allow(dead_code)]
#[path = "../model/src/watched.rs"]
mod watched;

#[cfg(standin)]
extern crate mb50;

use desk::Desk;
use lines::Lines;
use play::Play;
use programs::Programs;
use random::Random;
use std::process::ExitCode;

/// The calls from which on every function, every refusal and every cause must have been met.
const MANY: u64 = 100_000;

/// The numbers of the refusals.
const REFUSALS: [usize; 20] = [
    1, 2, 3, 4, 5, 6, 7, 8, 9, 10, 11, 12, 13, 14, 40, 41, 80, 81, 82, 83,
];

/// The highest of them.
const LAST: usize = REFUSALS[REFUSALS.len() - 1];

/// Those of a pen, in the order in which it is refused.
const PEN_REFUSALS: [usize; 8] = [1, 2, 3, 6, 83, 80, 81, 82];

/// Why a watched run ends, in the order of the cause's numbers.
const CAUSES: [&str; 4] = ["budget", "halted", "watch", "break"];

/// Why a pen's run ends: the cause's number, and what it is called here.
const PEN_CAUSES: [(usize, &str); 3] = [(0, "budget"), (1, "halted"), (3, "stop")];

struct Fuzz {
    random: Random,
    programs: Programs,
    lines: Lines,
    calls: u64,
    /// Whether all calls are pens.
    pens_alone: bool,
    /// How often each function was accepted.
    accepted: [u64; play::NAMES.len()],
    /// What calls met, with the causes of watched runs; and what pens met of it, with the causes of their runs.
    met: Met,
    met_by_pens: Met,
}

/// How often each refusal was met by its number, and how often a run ended for each cause.
struct Met {
    refused: [u64; LAST + 1],
    ended: [u64; CAUSES.len()],
}

fn main() -> ExitCode {
    let (calls, seed, pens_alone) = match arguments() {
        Some(given) => given,
        None => {
            eprintln!("usage: fuzz CALLS SEED [pen]");
            return ExitCode::from(2);
        }
    };
    let mut fuzz = Fuzz::new(seed, pens_alone);
    while fuzz.calls < calls {
        if let Err(report) = fuzz.episode(calls) {
            println!("fuzz: seed {seed}, call {}: {report}", fuzz.calls);
            return ExitCode::FAILURE;
        }
    }
    fuzz.tell();
    if calls >= MANY && fuzz.is_narrow() {
        println!("fuzz: a function was never accepted, a refusal never met, or a cause never told");
        return ExitCode::FAILURE;
    }
    println!("fuzz: {calls} calls, seed {seed}: no difference");
    ExitCode::SUCCESS
}

/// The calls and the seed, and whether all calls are pens.
fn arguments() -> Option<(u64, u64, bool)> {
    let given: Vec<String> = std::env::args().skip(1).collect();
    let (calls, seed, pens_alone) = match given.as_slice() {
        [calls, seed] => (calls, seed, false),
        [calls, seed, only] if only == "pen" => (calls, seed, true),
        _ => return None,
    };
    Some((calls.parse().ok()?, seed.parse().ok()?, pens_alone))
}

impl Fuzz {
    fn new(seed: u64, pens_alone: bool) -> Fuzz {
        Fuzz {
            random: Random::new(seed),
            programs: Programs::new(),
            lines: Lines::new(),
            calls: 0,
            pens_alone,
            accepted: [0; play::NAMES.len()],
            met: Met::nothing(),
            met_by_pens: Met::nothing(),
        }
    }

    /// Calls on one desk, up to this number of calls in all. It ends early where the lengths have every call refused, and a refused state is
    /// mended after a while.
    fn episode(&mut self, limit: u64) -> Result<(), String> {
        let mut desk = scene::desk(&mut self.random, &self.programs);
        for _ in 0..self.random.below(200) {
            if self.random.percent(6) {
                scene::disturb(&mut self.random, &mut desk, &self.programs);
            }
            let refusal = self.plays(&mut desk, limit)?;
            if self.calls == limit || refusal < 3 && refusal > 0 && self.random.percent(30) {
                return Ok(());
            }
            if refusal == 3 && self.random.percent(30) {
                scene::mend(&mut self.random, &mut desk);
            }
        }
        Ok(())
    }

    /// The calls that come next, until one is refused; the last one's number.
    fn plays(&mut self, desk: &mut Desk, limit: u64) -> Result<usize, String> {
        let mut refusal = 0;
        let plays = match self.pens_alone {
            true => vec![play::pen(&mut self.random, desk)],
            false => play::next(&mut self.random, desk, &self.lines),
        };
        for play in plays {
            if self.calls < limit && refusal == 0 {
                refusal = self.make(desk, &play)?;
            }
        }
        Ok(refusal)
    }

    /// Makes a call on both sides; its number, or a report of what differs.
    fn make(&mut self, desk: &mut Desk, play: &Play) -> Result<usize, String> {
        self.calls += 1;
        let before = *desk.state();
        match play.make(desk) {
            Ok(result) => {
                self.count(play, result);
                Ok((result & 0xffff) as usize)
            }
            Err(differences) => {
                let (ram, journal) = (desk.ram().len(), desk.journal().len());
                let differences = differences.join("\n  ");
                Err(format!(
                    "{play}\n  RAM of {ram} bytes, journal of {journal} words\n  state before: {before:04x?}\n  {differences}"
                ))
            }
        }
    }

    /// Notes what a call met.
    fn count(&mut self, play: &Play, result: u64) {
        let (function, number) = (play.number(), (result & 0xffff) as usize);
        if number == 0 {
            self.accepted[function] += 1;
        }
        let watched = function == play::WATCHED;
        self.met.count(number, watched.then_some(result >> 56));
        if function == play::PEN {
            self.met_by_pens.count(number, Some(result >> 56));
        }
    }

    /// Says what was met.
    fn tell(&self) {
        if !self.pens_alone {
            println!("accepted: {}", counts(&play::NAMES, &self.accepted));
            println!("watched runs ended: {}", counts(&CAUSES, &self.met.ended));
            println!("refused by number: {}", self.met.refusals(&REFUSALS));
        }
        let (names, ended): (Vec<&str>, Vec<u64>) = self.pens_ended().into_iter().unzip();
        println!("pens ended: {}", counts(&names, &ended));
        let refused = self.met_by_pens.refusals(&PEN_REFUSALS);
        println!("pens refused by number: {refused}");
    }

    /// How often a pen's run ended for each of its causes.
    fn pens_ended(&self) -> [(&'static str, u64); 3] {
        PEN_CAUSES.map(|(number, name)| (name, self.met_by_pens.ended[number]))
    }

    fn is_narrow(&self) -> bool {
        let ended = self.pens_ended();
        let pens = ended.iter().any(|cause| cause.1 == 0) || self.met_by_pens.lacks(&PEN_REFUSALS);
        let ended = self.met.ended.contains(&0);
        let others = self.accepted.contains(&0) || ended || self.met.lacks(&REFUSALS);
        pens || !self.pens_alone && others
    }
}

impl Met {
    fn nothing() -> Met {
        Met {
            refused: [0; LAST + 1],
            ended: [0; CAUSES.len()],
        }
    }

    /// Notes a call's number, and its cause if it is accepted and has one.
    fn count(&mut self, number: usize, cause: Option<u64>) {
        match (number, cause) {
            (0, Some(cause)) => self.ended[cause as usize % CAUSES.len()] += 1,
            (0, None) => {}
            (number, _) => self.refused[number] += 1,
        }
    }

    /// The refusals of these numbers with their counts.
    fn refusals(&self, numbers: &[usize]) -> String {
        let told: Vec<String> = numbers
            .iter()
            .map(|number| format!("{number}: {}", self.refused[*number]))
            .collect();
        told.join(", ")
    }

    /// Whether one of these refusals was never met.
    fn lacks(&self, numbers: &[usize]) -> bool {
        numbers.iter().any(|number| self.refused[*number] == 0)
    }
}

/// Each name with its count.
fn counts(names: &[&str], counts: &[u64]) -> String {
    let both = names.iter().zip(counts);
    let told: Vec<String> = both
        .map(|(name, count)| format!("{name} {count}"))
        .collect();
    told.join(", ")
}
