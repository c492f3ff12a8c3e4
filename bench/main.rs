//! Measures the library of the C boundary beside an emulator in plain Rust, on the same work in one run, and prints for each row its name,
//! its items and both times in nanoseconds, and for watched runs the library's time without the list; `bench/run` makes a table of them.
//! All must leave the same state, RAM, journal, list and results; otherwise it says what differs and stops.
//!
//! Usage: bench [FRONT]: only the rows whose names begin so

#[allow(dead_code)] // an image's listing is listing.rs's
mod emulator;
mod library;
mod nights;
mod programs;
mod work;

#[cfg(standin)]
extern crate mb50;

use emulator::boundary;
use library::{Functions, LINKED, PROTECTED};
use nights::Night;
use programs::Part;
use std::process::ExitCode;
use work::{Desk, Work, ROOM};

/// The emulator's functions.
const THEIRS: Functions = Functions {
    step: boundary::step,
    tick: boundary::tick,
    receive: boundary::receive,
    sent: boundary::sent,
    set_register: boundary::set_register,
    poke: boundary::poke,
    reset: boundary::reset,
    run: boundary::run,
    run_watched: boundary::run_watched,
    pen: boundary::pen,
    step_back: boundary::step_back,
    list: boundary::list,
    assemble: boundary::assemble,
};

/// How often each row is measured; the best time of each counts, since all that disturbs a measurement makes it longer.
const REPETITIONS: usize = 7;

/// The slots of the longest journal.
const SLOTS: usize = 1_024;

/// How many pens of a list are done: all of one of 10,000 take long where each goes through a manifest.
const PENS: usize = 100;

/// How many lines the manifests have, and how often the pens are done.
const LISTS: [(usize, u32); 3] = [(100, 20), (1_000, 10), (10_000, 2)];

/// A row of the table.
struct Row<'a> {
    name: String,
    desk: Desk,
    work: Work<'a>,
}

/// Who does a row's work: a name to tell a difference by, the functions, and the work.
type Side<'a> = (&'static str, &'static Functions, Work<'a>);

fn main() -> ExitCode {
    let front = std::env::args().nth(1).unwrap_or_default();
    let listed = listed_lines();
    let other = other_lines(&listed);
    let long = long_lines();
    let nights = LISTS.map(|(count, _)| Night::new(count, PENS));
    let mut rows = step_rows();
    rows.extend(watched_rows());
    rows.extend(pen_rows(&nights));
    rows.extend(text_rows(&listed, &other, &long));
    rows.retain(|row| row.name.starts_with(&front));
    if rows.is_empty() {
        eprintln!("no row has a name that begins with {front}");
        return ExitCode::FAILURE;
    }
    for Row { name, desk, work } in rows {
        match measure(&desk, &sides(work)) {
            Ok(times) => {
                print!("{name}|{}", work.items(&desk));
                times.iter().for_each(|time| print!("|{time}"));
                println!();
            }
            Err(difference) => {
                eprintln!("{name}: they differ: {difference}");
                return ExitCode::FAILURE;
            }
        }
    }
    ExitCode::SUCCESS
}

/// The library and the emulator, and where the work has a list, the library without it.
fn sides(work: Work) -> Vec<Side> {
    let mut sides = vec![("ours", &LINKED, work), ("the emulator's", &THEIRS, work)];
    let plain = work.without_list();
    sides.extend(plain.map(|plain| ("ours without the list", &LINKED, plain)));
    sides
}

/// The best time of each side in nanoseconds, or what differs between what two of them leave.
fn measure(desk: &Desk, sides: &[Side]) -> Result<Vec<u128>, String> {
    let mut best = vec![u128::MAX; sides.len()];
    for repetition in 0..REPETITIONS {
        let mut desks = vec![desk.clone(); sides.len()];
        // Each goes first in turn, so that none always finds another's traces in the caches. And each has each desk in turn, since they lie
        // in memory in different ways: a journal whose slots lie across the lines of the caches is slower.
        for turn in 0..sides.len() {
            let side = (repetition + turn) % sides.len();
            let (_, functions, work) = sides[side];
            let time = desks[turn].work(functions, work);
            best[side] = best[side].min(time.as_nanos());
        }
        desks.rotate_right(repetition % sides.len());
        for ((name, ..), other) in sides.iter().zip(&desks).skip(1) {
            if let Some(difference) = desks[0].difference(other) {
                return Err(format!("ours and {name}: {difference}"));
            }
        }
    }
    Ok(best)
}

/// Rows of steps, step-backs and inputs, each without a journal where it needs none and with the longest.
fn step_rows() -> Vec<Row<'static>> {
    let mut rows = Vec::new();
    let main: [(&str, &[Part], bool); 3] = [
        ("registers", programs::REGISTERS, false),
        ("copied bytes", programs::COPY, false),
        ("interrupts", programs::INTERRUPTS, true),
    ];
    for (name, program, ticks) in main {
        for slots in [0, SLOTS] {
            rows.push(long_runs(name, program, ticks, slots));
            rows.push(short_runs(name, program, ticks, slots));
            rows.push(lone_steps(name, program, slots));
        }
    }
    let more: [(&str, &[Part]); 6] = [
        ("words and stack", programs::WORDS),
        ("shifts and rev", programs::SHIFTS),
        ("rev, a column", programs::COLUMN),
        ("rev alone", programs::REVERSALS),
        ("devices", programs::DEVICES),
        ("exceptions", programs::EXCEPTIONS),
    ];
    for (name, program) in more {
        rows.push(long_runs(name, program, false, 0));
        rows.push(long_runs(name, program, false, SLOTS));
        rows.push(lone_steps(name, program, SLOTS));
    }
    rows.extend([0, SLOTS].map(protected_runs));
    rows.push(step_backs("registers", programs::REGISTERS));
    rows.push(step_backs("copied bytes", programs::COPY));
    rows.push(step_backs("words and stack", programs::WORDS));
    rows.push(inputs(0));
    rows.push(inputs(SLOTS));
    rows
}

/// The steps of a program in long runs.
fn long_runs(name: &str, program: &[Part], ticks: bool, slots: usize) -> Row<'static> {
    Row {
        name: format!("steps: {name}, runs of 65,535, {slots} slots"),
        desk: Desk::new(programs::loaded(program), slots),
        work: Work::Runs {
            budget: u16::MAX,
            ticks,
            calls: 4,
        },
    }
}

/// The steps of the program that copies bytes, of which half are dropped.
fn protected_runs(slots: usize) -> Row<'static> {
    let mut row = long_runs("half protected", programs::COPY, false, slots);
    row.desk.state[PROTECTED].copy_from_slice(&programs::HALF_OF_COPY);
    row
}

/// The steps of a program in short runs.
fn short_runs(name: &str, program: &[Part], ticks: bool, slots: usize) -> Row<'static> {
    Row {
        name: format!("steps: {name}, runs of 100, {slots} slots"),
        desk: Desk::new(programs::loaded(program), slots),
        work: Work::Runs {
            budget: 100,
            ticks,
            calls: 2_000,
        },
    }
}

/// The steps of a program, each a call.
fn lone_steps(name: &str, program: &[Part], slots: usize) -> Row<'static> {
    Row {
        name: format!("steps: {name}, one by one, {slots} slots"),
        desk: Desk::new(programs::loaded(program), slots),
        work: Work::Steps { calls: 50_000 },
    }
}

/// The steps of a program taken back.
fn step_backs(name: &str, program: &[Part]) -> Row<'static> {
    Row {
        name: format!("step-backs: {name}, {SLOTS} slots"),
        desk: Desk::new(programs::loaded(program), SLOTS),
        work: Work::StepBacks { rounds: 50 },
    }
}

/// The other inputs.
fn inputs(slots: usize) -> Row<'static> {
    Row {
        name: format!("inputs that are no steps, {slots} slots"),
        desk: Desk::new(programs::loaded(&[]), slots),
        work: Work::Inputs { rounds: 5_000 },
    }
}

/// Rows of runs with lists of which no entry is met, with the longest journal: of a program that stores nothing, and of one that stores.
fn watched_rows() -> Vec<Row<'static>> {
    let mut rows = Vec::new();
    let programs: [(&str, &[Part]); 2] = [
        ("registers", programs::REGISTERS),
        ("copied bytes", programs::COPY),
    ];
    let lists = [
        ("no entry", 0),
        ("1 entry", 1),
        ("8 entries", 8),
        ("64 entries", 64),
    ];
    for (name, program) in programs {
        for (count, entries) in lists {
            rows.push(watched_runs(name, program, count, entries));
        }
    }
    rows
}

/// The steps of a program in long runs with a list.
fn watched_runs(name: &str, program: &[Part], count: &str, entries: u16) -> Row<'static> {
    Row {
        name: format!("watched runs: {name}, {count}, {SLOTS} slots"),
        desk: Desk {
            list: programs::unmet(entries),
            ..Desk::new(programs::loaded(program), SLOTS)
        },
        work: Work::WatchedRuns {
            budget: u16::MAX,
            calls: 4,
        },
    }
}

/// Rows of pens, each a call, with the longest journal.
fn pen_rows(nights: &[Night]) -> Vec<Row<'_>> {
    let mut rows = Vec::new();
    for (night, (lines, rounds)) in nights.iter().zip(LISTS) {
        rows.push(Row {
            name: format!("pens: a call each, {lines} lines, {SLOTS} slots"),
            desk: Desk::new(nights::loaded(), SLOTS),
            work: Work::Pens { night, rounds },
        });
    }
    rows
}

/// Rows of listing and assembling.
fn text_rows<'a>(listed: &'a [Vec<u8>], other: &'a [Vec<u8>], long: &'a [Vec<u8>]) -> [Row<'a>; 4] {
    let lines = |name: &str, lines, rounds| Row {
        name: name.to_string(),
        desk: Desk::new(Vec::new(), 0),
        work: Work::Lines { lines, rounds },
    };
    let listings = Row {
        name: "listed words, every word".to_string(),
        desk: Desk::new(vec![0xaa; ROOM << 16], 0),
        work: Work::Listings,
    };
    [
        listings,
        lines("assembled lines, as listed", listed, 1),
        lines("assembled lines, spaced, aliases, faulty", other, 1),
        lines("assembled lines of 10,000 bytes", long, 25),
    ]
}

/// The listing of every word that has one.
fn listed_lines() -> Vec<Vec<u8>> {
    let mut lines = Vec::new();
    for word in 0..=u16::MAX {
        let mut text = [0; ROOM];
        let answer = emulator::list(word, &mut text);
        if answer & 0xffff == 0 {
            lines.push(text[..(answer >> 16) as usize].to_vec());
        }
    }
    lines
}

/// Those lines written in other ways, and every third one with a fault.
fn other_lines(listed: &[Vec<u8>]) -> Vec<Vec<u8>> {
    let aliases = [
        ("r11", "SP"),
        ("r12", "ca"),
        ("r13", "Ia"),
        ("r14", "f"),
        ("r15", "pc"),
    ];
    let rewrite = |(index, line): (usize, &Vec<u8>)| {
        let mut text = String::from_utf8_lossy(line).into_owned();
        for (name, alias) in aliases {
            text = text.replace(name, alias);
        }
        match index % 6 {
            0 => format!("  {}\t", text.replace(", ", "\t ,  ")),
            1 => text.to_uppercase(),
            2 => text.replace(", ", ","),
            3 => text.replace(", ", " "),
            4 => format!("x{text}"),
            _ => format!("{text}9"),
        }
        .into_bytes()
    };
    listed.iter().enumerate().map(rewrite).collect()
}

/// Lines of 10,000 bytes, with many blanks or with long words.
fn long_lines() -> Vec<Vec<u8>> {
    let blanks = |n: usize| " ".repeat(n);
    let letters = |n: usize| "r".repeat(n);
    let lines = [
        format!("mv r1, r2{}", blanks(9_991)),
        format!("{}mv r1, r2", blanks(9_991)),
        format!("mv{}r1, r2", blanks(9_992)),
        format!("{} r1, r2", letters(9_993)),
        format!("mv r1, {}", letters(9_993)),
        letters(10_000),
        blanks(10_000),
    ];
    lines.iter().map(|line| line.clone().into_bytes()).collect()
}
