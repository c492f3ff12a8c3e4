//! What is measured: a desk, and work on it that either implementation does.

use crate::library::{Call, Entry, Functions, Pen, State, START};
use crate::nights::Night;
use std::time::{Duration, Instant};

/// The most bytes of a word's text.
pub const ROOM: usize = 16;

/// All that calls change.
#[derive(Clone, PartialEq)]
pub struct Desk {
    pub state: State,
    pub ram: Vec<u8>,
    pub journal: Vec<u16>,
    /// The breaks and watches of watched runs.
    pub list: Vec<Entry>,
    /// All results, folded into one number.
    pub results: u64,
}

/// Work on a desk.
#[derive(Clone, Copy)]
pub enum Work<'a> {
    /// Runs of a budget, each after a tick if so told.
    Runs {
        budget: u16,
        ticks: bool,
        calls: u32,
    },
    /// Runs of a budget with the desk's list.
    WatchedRuns { budget: u16, calls: u32 },
    /// The pens of a night.
    Pens { night: &'a Night, rounds: u32 },
    /// Lone steps.
    Steps { calls: u32 },
    /// Rounds of step-backs over the whole journal; the steps that fill it are not timed.
    StepBacks { rounds: u32 },
    /// Rounds of every input that is no step.
    Inputs { rounds: u32 },
    /// Every word listed, into RAM.
    Listings,
    /// Lines assembled.
    Lines { lines: &'a [Vec<u8>], rounds: u32 },
}

/// One round of inputs. After a reset all are accepted but Sent, since T=1; the last one resets.
const INPUTS: [Call; 8] = [
    Call::Tick,
    Call::Receive(0xe5),
    Call::Sent,
    Call::SetRegister(14, 0x0300),
    Call::Poke(29_999, 7),
    Call::SetRegister(3, 0xabcd),
    Call::Poke(0, 8),
    Call::Reset,
];

impl Desk {
    /// A desk after a reset, with nothing protected.
    pub fn new(ram: Vec<u8>, slots: usize) -> Desk {
        Desk {
            state: START,
            ram,
            journal: vec![0x5555; 32 * slots],
            list: Vec::new(),
            results: 0,
        }
    }

    /// Makes a call and keeps its result.
    #[inline(always)]
    fn call(&mut self, functions: &Functions, call: Call) {
        let result = functions.call(call, &mut self.state, &mut self.ram, &mut self.journal);
        self.keep(result);
    }

    #[inline(always)]
    fn keep(&mut self, result: u64) {
        self.results = (self.results ^ result).wrapping_mul(0x9e37_79b9_7f4a_7c15);
    }

    /// Does the work; the time that it took.
    pub fn work(&mut self, functions: &Functions, work: Work) -> Duration {
        match work {
            Work::StepBacks { rounds } => self.step_backs(functions, rounds),
            Work::Listings => timed(|| self.listings(functions)),
            Work::Lines { lines, rounds } => self.lines(functions, lines, rounds),
            Work::Pens { night, rounds } => self.pens(functions, night, rounds),
            Work::Steps { calls } => timed(|| self.repeat(functions, Call::Step, calls)),
            Work::Runs {
                budget,
                ticks: false,
                calls,
            } => timed(|| self.repeat(functions, Call::Run(budget), calls)),
            Work::Runs { budget, calls, .. } => timed(|| {
                for _ in 0..calls {
                    self.call(functions, Call::Tick);
                    self.call(functions, Call::Run(budget));
                }
            }),
            Work::WatchedRuns { budget, calls } => {
                timed(|| self.watched_runs(functions, budget, calls))
            }
            Work::Inputs { rounds } => timed(|| {
                for _ in 0..rounds {
                    INPUTS.iter().for_each(|input| self.call(functions, *input));
                }
            }),
        }
    }

    fn repeat(&mut self, functions: &Functions, call: Call, times: u32) {
        for _ in 0..times {
            self.call(functions, call);
        }
    }

    fn watched_runs(&mut self, functions: &Functions, budget: u16, calls: u32) {
        for _ in 0..calls {
            let (ram, journal) = (&mut self.ram, &mut self.journal);
            let list = &mut self.list;
            let result = functions.run_watched(&mut self.state, ram, journal, list, budget);
            self.keep(result);
        }
    }

    fn pens(&mut self, functions: &Functions, night: &Night, rounds: u32) -> Duration {
        let mut night = night.clone();
        timed(|| {
            for _ in 0..rounds {
                for line in &mut night.pens {
                    let pen = Pen {
                        line,
                        today: &mut night.today,
                        last_good: &mut night.last_good,
                        setup: &mut night.setup,
                    };
                    let (ram, journal) = (&mut self.ram, &mut self.journal);
                    let result = functions.pen(&mut self.state, ram, journal, pen);
                    self.keep(result);
                }
            }
        })
    }

    fn step_backs(&mut self, functions: &Functions, rounds: u32) -> Duration {
        let slots = (self.journal.len() / 32) as u32;
        let mut total = Duration::ZERO;
        for _ in 0..rounds {
            self.call(functions, Call::Run(slots as u16));
            total += timed(|| self.repeat(functions, Call::StepBack, slots));
        }
        total
    }

    fn listings(&mut self, functions: &Functions) {
        for word in 0..=u16::MAX {
            let start = ROOM * usize::from(word);
            let result = functions.list(word, &mut self.ram[start..start + ROOM]);
            self.keep(result);
        }
    }

    fn lines(&mut self, functions: &Functions, lines: &[Vec<u8>], rounds: u32) -> Duration {
        let mut lines = lines.to_vec();
        timed(|| {
            for _ in 0..rounds {
                for line in &mut lines {
                    let result = functions.assemble(line);
                    self.keep(result);
                }
            }
        })
    }

    /// What first differs from another desk.
    pub fn difference(&self, other: &Desk) -> Option<String> {
        let differ = |name: &str, a: &[u16], b: &[u16]| {
            let at = (0..a.len()).find(|i| a[*i] != b[*i])?;
            Some(format!("{name} {at}: 0x{:04x}, 0x{:04x}", a[at], b[at]))
        };
        let words = |bytes: &[u8]| {
            bytes
                .iter()
                .map(|byte| u16::from(*byte))
                .collect::<Vec<_>>()
        };
        differ("state word", &self.state, &other.state)
            .or_else(|| differ("RAM byte", &words(&self.ram), &words(&other.ram)))
            .or_else(|| differ("journal word", &self.journal, &other.journal))
            .or_else(|| differ("list word", &self.list.concat(), &other.list.concat()))
            .or_else(|| (self.results != other.results).then(|| "results".to_string()))
    }
}

impl Work<'_> {
    /// Watched runs as runs without the list. They leave the same, since no entry of the list is met.
    pub fn without_list(&self) -> Option<Work<'static>> {
        match *self {
            Work::WatchedRuns { budget, calls } => Some(Work::Runs {
                budget,
                ticks: false,
                calls,
            }),
            _ => None,
        }
    }

    /// How many items the work has: steps, pens, step-backs, inputs, words or lines.
    pub fn items(&self, desk: &Desk) -> u64 {
        match *self {
            Work::Runs { budget, calls, .. } | Work::WatchedRuns { budget, calls } => {
                u64::from(budget) * u64::from(calls)
            }
            Work::Pens { night, rounds } => night.pens.len() as u64 * u64::from(rounds),
            Work::Steps { calls } => u64::from(calls),
            Work::StepBacks { rounds } => desk.journal.len() as u64 / 32 * u64::from(rounds),
            Work::Inputs { rounds } => INPUTS.len() as u64 * u64::from(rounds),
            Work::Listings => 65_536,
            Work::Lines { lines, rounds } => lines.len() as u64 * u64::from(rounds),
        }
    }
}

/// The time that something takes.
fn timed(work: impl FnOnce()) -> Duration {
    let start = Instant::now();
    work();
    start.elapsed()
}
