//! One pen of the overnight pen bench, change request Q-14.
//!
//! "A pen is looked up by number in today's manifest and otherwise in the last
//! good one [...]. Each name is turned into single bytes by ISO 8859-1 (å is
//! 0xe5), poked with a closing 0 at a given address, given registers are set,
//! the firmware's matching routine runs until pc is a given address (as a Q-9
//! break), the machine halts or the budget ends, and r0 is reported."

use crate::machine::{Call, Machine};
use crate::utf8;
use crate::watched::{self, Entry, Stop, Told, BREAK};

#[cfg(test)]
mod tests;

/// "numbers have 1 to 9 digits"
const MOST_DIGITS: usize = 9;
/// The last code point of ISO 8859-1.
const LAST_LETTER: u32 = 0xff;
/// The last register.
const LAST_REGISTER: u16 = 15;

/// "6 for a given register before any pen"
const NO_REGISTER: u16 = 6;
/// "83 pen in neither list or its line no number"
const UNKNOWN: u16 = 83;
/// "80 name not UTF-8"
const NOT_UTF8: u16 = 80;
/// "81 code point over 0xff or NUL"
const NO_LETTER: u16 = 81;
/// "82 name and 0 don't fit RAM"
const NO_FIT: u16 = 82;

/// The two manifests.
#[derive(Clone, Copy, Debug)]
pub struct Lists<'a> {
    /// Today's.
    pub today: &'a [u8],
    /// The last good one.
    pub last_good: &'a [u8],
}

/// What all pens of a bench share.
#[derive(Clone, Debug, PartialEq, Eq)]
pub struct Setup {
    /// Where names are poked.
    pub address: u16,
    /// The address at which a run stops.
    pub stop: u16,
    /// The most steps of a run.
    pub budget: u16,
    /// The given registers: numbers and contents.
    pub registers: Vec<(u16, u16)>,
}

/// What is told of a pen that was accepted.
#[derive(Clone, Copy, Debug, PartialEq, Eq)]
pub struct Matched<'a> {
    /// "the name handed back is the very bytes of whichever list held it"
    pub name: &'a [u8],
    /// "and r0 is reported"
    pub r0: u16,
    /// The steps of the run.
    pub steps: u16,
    /// Their bus bytes.
    pub bus: u32,
    /// Why the run ended; a break is the given address.
    pub stop: Stop,
}

impl Setup {
    /// The setup of some words: "0 the name's address, 1 the address to stop
    /// at, 2 the budget, then for each given register its number and its
    /// content (a last word without its pair is not read)"; "A setup shorter
    /// than three words reads as 0 where it has none."
    pub fn of_words(words: &[u16]) -> Setup {
        let word = |index: usize| words.get(index).copied().unwrap_or(0);
        let pairs = words.get(3..).unwrap_or_default().chunks_exact(2);
        Setup {
            address: word(0),
            stop: word(1),
            budget: word(2),
            registers: pairs.map(|pair| (pair[0], pair[1])).collect(),
        }
    }
}

/// Does one pen: what is told of it, or the refusal's number. "a refused pen
/// touches neither" state nor RAM.
pub fn pen<'a>(
    machine: &mut Machine,
    ram: &mut [u8],
    journal: &mut [u16],
    line: &[u8],
    lists: Lists<'a>,
    setup: &Setup,
) -> Result<Matched<'a>, u16> {
    if let Some(number) = machine.refusal_of_any_call(ram, journal) {
        return Err(number);
    }
    if setup.registers.iter().any(|given| given.0 > LAST_REGISTER) {
        return Err(NO_REGISTER);
    }
    let name = name(line, lists).ok_or(UNKNOWN)?;
    let letters = letters(name)?;
    // "name and 0 don't fit RAM"
    if usize::from(setup.address) + letters.len() + 1 > ram.len() {
        return Err(NO_FIT);
    }
    for input in inputs(&letters, setup) {
        let answer = machine.call(input, ram, journal);
        assert_eq!(answer.number, 0, "{input:?} is accepted");
    }
    let told = run(machine, ram, journal, setup);
    Ok(Matched {
        name,
        r0: machine.cpu.registers[0],
        steps: told.steps,
        bus: told.bus,
        stop: told.stop,
    })
}

/// The name of the pen of a line, where it is a number that a list has: "looked
/// up by number in today's manifest and otherwise in the last good one".
pub fn name<'a>(line: &[u8], lists: Lists<'a>) -> Option<&'a [u8]> {
    let pen = number(line)?;
    found(pen, lists.today).or_else(|| found(pen, lists.last_good))
}

/// The name in "the first matching line".
fn found(pen: u32, manifest: &[u8]) -> Option<&[u8]> {
    let mut entries = lines(manifest).into_iter().filter_map(entry);
    entries.find(|entry| entry.0 == pen).map(|entry| entry.1)
}

/// The number and the name of a manifest's line: "a decimal number, a tab and a
/// name". A line "without such a number and a tab in front" has none. The name
/// is all after the first tab.
fn entry(line: &[u8]) -> Option<(u32, &[u8])> {
    let tab = line.iter().position(|byte| *byte == b'\t')?;
    Some((number(&line[..tab])?, &line[tab + 1..]))
}

/// The number that a text is: "1 to 9 digits" and nothing else.
pub fn number(text: &[u8]) -> Option<u32> {
    let is_number = !text.is_empty()
        && text.len() <= MOST_DIGITS
        && text.iter().all(|byte| (b'0'..=b'9').contains(byte));
    let digits = text.iter().map(|byte| u32::from(byte - b'0'));
    is_number.then(|| digits.fold(0, |sum, digit| 10 * sum + digit))
}

/// The lines of a text: each ends at a newline, which is no part of it; bytes
/// after the last newline are a line too.
pub fn lines(text: &[u8]) -> Vec<&[u8]> {
    let mut lines: Vec<&[u8]> = text.split(|byte| *byte == b'\n').collect();
    // what follows the last newline, if nothing does, is no line
    if lines.last() == Some(&&b""[..]) {
        lines.pop();
    }
    lines
}

/// The bytes that a name is "turned into [...] by ISO 8859-1", or why it cannot
/// be: 80 for any fault of UTF-8 before 81 for any code point.
pub fn letters(name: &[u8]) -> Result<Vec<u8>, u16> {
    let points = utf8::code_points(name).ok_or(NOT_UTF8)?;
    if points
        .iter()
        .any(|point| *point == 0 || *point > LAST_LETTER)
    {
        return Err(NO_LETTER);
    }
    Ok(points.into_iter().map(|point| point as u8).collect())
}

/// The inputs before the run: the name "poked with a closing 0 at a given
/// address", then "given registers are set".
fn inputs(letters: &[u8], setup: &Setup) -> Vec<Call> {
    let closed = letters.iter().chain(&[0]);
    let pokes = closed.enumerate().map(|(offset, byte)| {
        let address = usize::from(setup.address) + offset;
        Call::Poke(address as u16, *byte)
    });
    let registers = setup.registers.iter();
    pokes
        .chain(registers.map(|(number, content)| Call::SetRegister(*number as u8, *content)))
        .collect()
}

/// "runs until pc is a given address (as a Q-9 break), the machine halts or the
/// budget ends".
fn run(machine: &mut Machine, ram: &mut [u8], journal: &mut [u16], setup: &Setup) -> Told {
    let mut list = [Entry {
        address: setup.stop,
        kind: BREAK,
        hits: 0,
    }];
    watched::run(machine, ram, journal, &mut list, setup.budget)
}
