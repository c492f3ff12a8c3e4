//! An independent model of the MB5016 rules: it writes the inputs and the
//! expected outputs with which another implementation is compared.

mod alu;
mod bus;
mod cpu;
mod journal;
mod listing;
mod machine;
mod names;
mod night;
mod opcode;
mod pens;
mod text;
mod utf8;
mod vectors;
mod watched;

use std::fs;
use std::io::{self, Read, Write};
use std::path::Path;
use std::process::ExitCode;

use bus::Stretch;
use night::Night;
use pens::{Lists, Setup};
use vectors::{calls, images, isa, lines, nights, steps};

const USAGE: &str = "usage: model isa-input | isa-output | text-input | text-output | steps-input | steps-output | \
                     calls-input | calls-output | listing | listing-case K | pen-lists SEED DIR | \
                     night [--protect FIRST LAST] RAM SLOTS FIRMWARE PENS TODAY LASTGOOD WORD..";

/// The option of `night`.
const PROTECT: &str = "--protect";

/// The status when there is no such case.
const NO_CASE: u8 = 1;
/// The status of a wrong call, or when reading or writing fails.
const FAILED: u8 = 2;

fn main() -> ExitCode {
    let arguments: Vec<String> = std::env::args().skip(1).collect();
    let arguments: Vec<&str> = arguments.iter().map(String::as_str).collect();
    match arguments.as_slice() {
        ["isa-input"] => write(&isa::input()),
        ["isa-output"] => write(isa::output().as_bytes()),
        ["text-input"] => write(&lines::input()),
        ["text-output"] => write(lines::output().as_bytes()),
        ["steps-input"] => write(&steps::input()),
        ["steps-output"] => write(steps::output().as_bytes()),
        ["calls-input"] => write(&calls::all_input()),
        ["calls-output"] => write(calls::all_output().as_bytes()),
        ["listing"] => list_standard_input(),
        ["listing-case", number] => write_case(number),
        ["pen-lists", seed, folder] => write_lists(seed, Path::new(folder)),
        ["night", arguments @ ..] => write_night(arguments),
        _ => failed(USAGE),
    }
}

/// Reads standard input whole and writes its listing.
fn list_standard_input() -> ExitCode {
    let mut input = Vec::new();
    match io::stdin().lock().read_to_end(&mut input) {
        Ok(_) => write(&listing::listing(&input)),
        Err(error) => failed(&error.to_string()),
    }
}

/// Writes the input of a case of the listing program.
fn write_case(number: &str) -> ExitCode {
    match number.parse().map(images::case) {
        Ok(Some(input)) => write(&input),
        Ok(None) => ExitCode::from(NO_CASE),
        Err(_) => failed(USAGE),
    }
}

/// Writes the files of a night at the pen bench into a folder, which is made
/// where there is none.
fn write_lists(seed: &str, folder: &Path) -> ExitCode {
    let files = match seed.parse() {
        Ok(seed) => nights::files(seed),
        Err(_) => return failed(USAGE),
    };
    let mut written = fs::create_dir_all(folder);
    for (name, bytes) in files {
        written = written.and_then(|()| fs::write(folder.join(name), bytes));
    }
    match written {
        Ok(()) => ExitCode::SUCCESS,
        Err(error) => failed(&error.to_string()),
    }
}

/// Takes the protected addresses out of the arguments, wherever they stand:
/// none where they are not given.
fn take_stretch(arguments: &mut Vec<&str>) -> Option<Stretch> {
    let Some(place) = arguments.iter().position(|one| *one == PROTECT) else {
        return Some(Stretch::NONE);
    };
    let first = arguments.get(place + 1)?.parse().ok()?;
    let last = arguments.get(place + 2)?.parse().ok()?;
    arguments.drain(place..place + 3);
    Some(Stretch { first, last })
}

/// Writes what the pen bench prints for files: by so many bytes of RAM and
/// slots, and by the words of a setup.
fn write_night(arguments: &[&str]) -> ExitCode {
    let mut arguments = arguments.to_vec();
    let stretch = take_stretch(&mut arguments);
    let [ram, slots, firmware, pens, today, last_good, words @ ..] = arguments.as_slice() else {
        return failed(USAGE);
    };
    let words: Result<Vec<u16>, _> = words.iter().map(|word| word.parse()).collect();
    let (Some(stretch), Ok(ram), Ok(slots), Ok(words)) =
        (stretch, ram.parse(), slots.parse(), words)
    else {
        return failed(USAGE);
    };
    let names = [firmware, pens, today, last_good];
    let files: io::Result<Vec<Vec<u8>>> = names.iter().map(fs::read).collect();
    let files = match files {
        Ok(files) => files,
        Err(error) => return failed(&error.to_string()),
    };
    let Some((start, bytes)) = listing::header(&files[0]) else {
        return failed("the firmware has no header");
    };
    write(&night::output(&Night {
        ram,
        slots,
        stretch,
        firmware: (start as u16, bytes),
        pens: &files[1],
        lists: Lists {
            today: &files[2],
            last_good: &files[3],
        },
        setup: &Setup::of_words(&words),
    }))
}

/// Writes bytes to standard output.
fn write(bytes: &[u8]) -> ExitCode {
    let mut output = io::stdout().lock();
    match output.write_all(bytes).and_then(|()| output.flush()) {
        Ok(()) => ExitCode::SUCCESS,
        Err(error) => failed(&error.to_string()),
    }
}

/// Says on standard error what failed.
fn failed(message: &str) -> ExitCode {
    eprintln!("{message}");
    ExitCode::from(FAILED)
}
