//! Matching routines for lists of pens.
//!
//! A line is an instruction, a dot and a word as hexadecimal digits, an `@` and
//! a label, which is the word that the label stands for, or a label with a colon
//! after it, which stands for the address of what follows.

use super::programs;

/// Looks a name up in a table of names, each with a closing 0, and another 0
/// after the last: r0 is its place in the table, from 0, or ffff. It meets an
/// illegal opcode where the place is the number `odd`.
pub const MATCHES: &[&str] = &[
    "start:",
    "ldis r1, pc",
    "@name",
    "ldis r0, pc",
    ".0000",
    "ldis r8, pc",
    ".0000",
    "ldis r2, pc",
    "@table",
    "mv r4, r8",
    "mv r5, r8",
    "entry:",
    "mv r3, r1",
    "letter:",
    "ldb r4, r3",
    "ldb r5, r2",
    "inc1 r3, r3",
    "inc1 r2, r2",
    "cmpu r4, r5",
    "ldnzis pc, pc",
    "@skip",
    "cmpu r4, r8",
    "ldnzis pc, pc",
    "@letter",
    "ldis r6, pc",
    "@odd",
    "cmpu r0, r6",
    "ldnzis pc, pc",
    "@done",
    "ill r0, r0",
    "skip:",
    "cmpu r5, r8",
    "ldzis pc, pc",
    "@next",
    "ldb r5, r2",
    "inc1 r2, r2",
    "ld pc, pc",
    "@skip",
    "next:",
    "inc1 r0, r0",
    "ldb r5, r2",
    "cmpu r5, r8",
    "ldnzis pc, pc",
    "@entry",
    "not r0, r8",
    "done:",
    "ld pc, pc",
    "@start",
    "table:",
];

/// Adds a name's letters to r0, which goes on from pen to pen, and puts the sum
/// on a stack, from where it takes r0. It meets an illegal opcode where the name is empty, and goes on
/// for ever where the first letter is `odd`.
pub const SUMS: &[&str] = &[
    "start:",
    "ldis r1, pc",
    "@name",
    "ldis r8, pc",
    ".0000",
    "mv r4, r8",
    "ldb r4, r1",
    "cmpu r4, r8",
    "ldnzis pc, pc",
    "@some",
    "ill r0, r0",
    "some:",
    "ldis r6, pc",
    "@odd",
    "cmpu r4, r6",
    "ldzis pc, pc",
    "@some",
    "letter:",
    "add r0, r4",
    "inc1 r1, r1",
    "ldb r4, r1",
    "cmpu r4, r8",
    "ldnzis pc, pc",
    "@letter",
    "ddsto sp, r0",
    "ld r0, sp",
    "done:",
    "ld pc, pc",
    "@start",
    "table:",
];

/// A routine in its place.
pub struct Firmware {
    /// Its address.
    pub start: u16,
    /// Its bytes.
    pub bytes: Vec<u8>,
    /// What its labels stand for.
    labels: Vec<(&'static str, u16)>,
}

impl Firmware {
    /// The routine of these lines at an address, with a table after it; other
    /// labels are given.
    pub fn new(
        start: u16,
        lines: &[&'static str],
        table: &[u8],
        given: [(&'static str, u16); 2],
    ) -> Firmware {
        let mut labels = given.to_vec();
        let mut address = start;
        for line in lines {
            match line.strip_suffix(':') {
                Some(label) => labels.push((label, address)),
                None => address += 2,
            }
        }
        let mut firmware = Firmware {
            start,
            bytes: Vec::new(),
            labels,
        };
        let words = lines.iter().filter(|line| !line.ends_with(':'));
        firmware.bytes = words.flat_map(|line| firmware.bytes_of(line)).collect();
        firmware.bytes.extend(table);
        firmware
    }

    /// What a label stands for.
    pub fn label(&self, name: &str) -> u16 {
        let mut labels = self.labels.iter();
        labels.find(|label| label.0 == name).expect("a label").1
    }

    /// The bytes of a line that is no label.
    fn bytes_of(&self, line: &str) -> Vec<u8> {
        match line.strip_prefix('@') {
            Some(label) => self.label(label).to_le_bytes().to_vec(),
            None => programs::bytes_of(&[line]),
        }
    }

    /// Its image, as the desk loads it.
    pub fn image(&self) -> Vec<u8> {
        [format!("{:04x}\n", self.start).as_bytes(), &self.bytes].concat()
    }
}

#[cfg(test)]
mod tests {
    use super::*;
    use crate::bus::Stretch;
    use crate::night::{self, Night};
    use crate::pens::{Lists, Setup};

    /// What is told of all pens of a manifest by a routine with an odd number.
    fn told(lines: &[&'static str], table: &[u8], odd: u16, today: &str) -> Vec<String> {
        let firmware = Firmware::new(0x0101, lines, table, [("name", 0x0300), ("odd", odd)]);
        let (start, done) = (firmware.label("start"), firmware.label("done"));
        let setup = Setup::of_words(&[0x0300, done, 500, 15, start, 14, 0, 11, 0x0400]);
        let pens = today.replace('\t', "\n");
        let night = Night {
            ram: 0x0400,
            slots: 0,
            stretch: Stretch::NONE,
            firmware: (firmware.start, &firmware.bytes),
            pens: pens.as_bytes(),
            lists: Lists {
                today: today.as_bytes(),
                last_good: b"",
            },
            setup: &setup,
        };
        let output = String::from_utf8(night::output(&night)).expect("the names are UTF-8");
        let accepted = output.lines().filter(|line| !line.contains("refused"));
        accepted
            .map(|line| line.split('\t').take(3).collect::<Vec<_>>().join(" "))
            .collect()
    }

    #[test]
    fn matches() {
        let table = b"laks\0\xe5\0laksen\0sei\0\0";
        let today = "1\tlaks\n2\tå\n3\tlaksen\n4\tsei\n5\tlakse\n6\t\n7\tse";
        let expected = [
            "1 0000 stop",
            "2 0001 stop",
            "3 0002 halted",
            "4 0003 stop",
            "5 ffff stop",
            "6 ffff stop",
            "7 ffff stop",
        ];
        assert_eq!(told(MATCHES, table, 2, today), expected);
    }

    #[test]
    fn sums() {
        let today = "1\tå\n2\tab\n3\tx\n4\t\n5\tå";
        let expected = [
            "1 00e5 stop",
            "2 01a8 stop",
            "3 01a8 budget",
            "4 01a8 halted",
            "5 028d stop",
        ];
        assert_eq!(told(SUMS, b"", u16::from(b'x'), today), expected);
    }

    #[test]
    fn images() {
        let lines = ["mv r1, r2", "here:", "@here", ".00ff"];
        let firmware = Firmware::new(0x0100, &lines, b"t", [("name", 0), ("odd", 0)]);
        assert_eq!(firmware.image(), b"0100\n\x0e\x12\x02\x01\xff\x00t");
    }
}
