//! The overnight pen bench as a function, from its files to its whole standard
//! output: "the whole day's pen list run through the firmware overnight".

use crate::bus::Stretch;
use crate::journal::RECORD;
use crate::machine::Machine;
use crate::pens::{self, Lists, Matched, Setup};
use crate::watched::Stop;

/// All that a night is given.
pub struct Night<'a> {
    /// The bytes of RAM.
    pub ram: usize,
    /// The slots of the journal.
    pub slots: usize,
    /// The protected addresses.
    pub stretch: Stretch,
    /// Where the firmware is in RAM, and its bytes.
    pub firmware: (u16, &'a [u8]),
    /// "pen numbers, one decimal a line"
    pub pens: &'a [u8],
    /// The manifests.
    pub lists: Lists<'a>,
    /// What all pens share.
    pub setup: &'a Setup,
}

/// The output: a line for each pen. "State and RAM go on from pen to pen; a
/// refused pen touches neither and the next pen follows."
pub fn output(night: &Night) -> Vec<u8> {
    let mut machine = Machine::new(night.stretch);
    let mut ram = loaded(night);
    let mut journal = vec![0; RECORD * night.slots];
    let mut output = Vec::new();
    for line in pens::lines(night.pens) {
        let (ram, journal) = (&mut ram, &mut journal);
        let told = pens::pen(&mut machine, ram, journal, line, night.lists, night.setup);
        output.extend(shown(line));
        output.extend(match told {
            Ok(matched) => accepted(&matched),
            Err(number) => format!("\trefused\t{number}\n").into_bytes(),
        });
    }
    output
}

/// The RAM before the start, with the firmware, which fits.
fn loaded(night: &Night) -> Vec<u8> {
    let (start, bytes) = night.firmware;
    let start = usize::from(start);
    let mut ram = vec![0; night.ram];
    ram[start..start + bytes.len()].copy_from_slice(bytes);
    ram
}

/// The line as it is given, or a question mark where it is no number.
fn shown(line: &[u8]) -> &[u8] {
    match pens::number(line) {
        Some(_) => line,
        None => b"?",
    }
}

/// What follows the number of an accepted pen.
fn accepted(matched: &Matched) -> Vec<u8> {
    let cause = match matched.stop {
        Stop::Break(_) => "stop",
        Stop::Halted => "halted",
        Stop::Budget => "budget",
        Stop::Watch(_) | Stop::None => unreachable!("nothing is watched"),
    };
    let Matched { r0, steps, bus, .. } = matched;
    let numbers = format!("\t{r0:04x}\t{cause}\t{steps}\t{bus}\t");
    [numbers.as_bytes(), matched.name, b"\n"].concat()
}

#[cfg(test)]
mod tests {
    use super::*;

    /// `ldb r0, r1`, `inc1 r3, r3`, `ill r0, r0`
    const FIRMWARE: [u8; 6] = [0x0b, 0x01, 0x08, 0x33, 0x00, 0x00];

    /// What is told of pens by some lists. The routine starts at 0x10, loads a
    /// name's first letter, and stops at the stop address.
    fn told(pens: &str, today: &[u8], last_good: &[u8], stop: u16) -> String {
        let setup = Setup::of_words(&[40, stop, 2, 1, 40, 15, 0x10]);
        let night = Night {
            ram: 50,
            slots: 2,
            stretch: Stretch::NONE,
            firmware: (0x10, &FIRMWARE),
            pens: pens.as_bytes(),
            lists: Lists { today, last_good },
            setup: &setup,
        };
        String::from_utf8(output(&night)).expect("the names are UTF-8")
    }

    #[test]
    fn a_line_for_each_pen() {
        let today = "7\tåre\n8\t\u{100}\n9\tlong enough\n".as_bytes();
        let last_good = b"7\tb\n010\tlaks\ttre\n11\t\xff\n";
        let expected = "7\t00e5\tstop\t1\t3\tåre\n\
                        ?\trefused\t83\n\
                        ?\trefused\t83\n\
                        10\t006c\tstop\t1\t3\tlaks\ttre\n\
                        8\trefused\t81\n\
                        9\trefused\t82\n\
                        11\trefused\t80\n\
                        12\trefused\t83\n\
                        007\t00e5\tstop\t1\t3\tåre\n";
        let pens = "7\n\n7\r\n10\n8\n9\n11\n12\n007";
        assert_eq!(told(pens, today, last_good, 0x12), expected);
    }

    #[test]
    fn other_causes() {
        let expected = "1\t0061\tbudget\t2\t5\ta\n";
        assert_eq!(told("1\n", b"1\ta\n", b"", 0), expected);
        let expected = "1\t0000\thalted\t0\t0\t\n2\t0000\thalted\t0\t0\tb\n";
        let setup = Setup::of_words(&[40, 0x10, 9]);
        let night = Night {
            ram: 50,
            slots: 0,
            stretch: Stretch::NONE,
            firmware: (0, &FIRMWARE[4..]),
            pens: b"1\n2\n",
            lists: Lists {
                today: b"1\t\n2\tb\n",
                last_good: b"",
            },
            setup: &setup,
        };
        let told = String::from_utf8(output(&night)).expect("the names are UTF-8");
        assert_eq!(told, expected.replacen("\t0\t0\t", "\t1\t2\t", 1));
    }

    /// "Poke [...] still write there": names are in the protected stretch. What
    /// the routine stores there is dropped.
    #[test]
    fn a_protected_stretch() {
        // `ddsto r1, r2`, `ld r0, r1`
        let firmware = [0x17, 0x12, 0x0a, 0x01];
        let setup = Setup::of_words(&[40, 0x14, 9, 1, 42, 2, 0x7878, 15, 0x10]);
        let told = |first, last| {
            let night = Night {
                ram: 50,
                slots: 2,
                stretch: Stretch { first, last },
                firmware: (0x10, &firmware),
                pens: b"1\n",
                lists: Lists {
                    today: b"1\tab\n",
                    last_good: b"",
                },
                setup: &setup,
            };
            String::from_utf8(output(&night)).expect("the names are UTF-8")
        };
        let expected = |r0: &str| format!("1\t{r0}\tstop\t2\t8\tab\n");
        assert_eq!(told(1, 0), expected("7878"));
        assert_eq!(told(0, 40), expected("7861"));
        assert_eq!(told(41, 41), expected("6278"));
        assert_eq!(told(40, 0xffff), expected("6261"));
    }

    #[test]
    fn no_pens() {
        assert_eq!(told("", b"1\ta\n", b"", 0), "");
    }
}
