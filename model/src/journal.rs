//! The journal's records.
//!
//! "Journal: lent 16-bit words, a multiple of 32, 0 to 32,768; one record is
//! 32 words."

use crate::bus::{Stretch, Written};
use crate::cpu::Cpu;

/// The words of one record.
pub const RECORD: usize = 32;
/// The most words of a journal.
pub const LONGEST: usize = 32_768;

/// Where csr0 is in a record.
const CSR0: usize = 16;
/// Where "R + 2T + 4·halted" is.
const MARKS: usize = 24;
/// Where the number of bytes written is.
const COUNT: usize = 25;
/// Where the words begin that are always 0.
const ZERO: usize = 28;

/// "State before the input: words 0–15 registers, 16–21 csr0–csr5, 22 clock,
/// 23 RXD + 256·TXD, 24 R + 2T + 4·halted, 25 bytes written [...], 26 first
/// address, 27 old first byte + 256·old second [...], 28–31 zero".
pub fn encode(before: &Cpu, written: &Written) -> [u16; RECORD] {
    let mut record = [0; RECORD];
    record[..16].copy_from_slice(&before.registers);
    record[16..22].copy_from_slice(&before.csrs);
    record[22] = before.devices.clock;
    record[23] = before.keyboard();
    record[24] = before.marks();
    record[25] = written.count;
    record[26] = written.first;
    record[27] = written.old;
    record
}

/// "record has csr0 over 511, word 24 over 7, word 25 over 2, or a nonzero
/// word 28–31"
pub fn is_bad(record: &[u16]) -> bool {
    record[CSR0] > 511
        || record[MARKS] > 7
        || record[COUNT] > 2
        || record[ZERO..RECORD].iter().any(|word| *word != 0)
}

/// The state of a record that is not bad, and the bytes that were written. No
/// record holds the protected addresses: they are the machine's.
pub fn decode(record: &[u16], stretch: Stretch) -> (Cpu, Written) {
    let mut cpu = Cpu::new(stretch);
    cpu.registers.copy_from_slice(&record[..16]);
    cpu.csrs.copy_from_slice(&record[16..22]);
    cpu.devices.clock = record[22];
    let [rxd, txd] = record[23].to_le_bytes();
    cpu.devices.rxd = rxd;
    cpu.devices.txd = txd;
    cpu.devices.r = record[24] & 1 != 0;
    cpu.devices.t = record[24] & 2 != 0;
    cpu.halted = record[24] & 4 != 0;
    let written = Written {
        count: record[25],
        first: record[26],
        old: record[27],
    };
    (cpu, written)
}

#[cfg(test)]
mod tests {
    use super::*;

    /// A state in which everything differs.
    fn state() -> Cpu {
        let mut cpu = Cpu::new(Stretch {
            first: 0x4000,
            last: 0x4001,
        });
        for number in 0..16 {
            cpu.registers[number] = 0x1000 + number as u16;
        }
        cpu.csrs = [0x1ff, 0x2001, 0x2002, 0x2003, 0x2004, 0x2005];
        cpu.devices.clock = 0x3000;
        cpu.devices.rxd = 0x41;
        cpu.devices.txd = 0x42;
        cpu.halted = true;
        cpu
    }

    /// Two bytes written.
    fn written() -> Written {
        Written {
            count: 2,
            first: 0xffff,
            old: 0x7700,
        }
    }

    #[test]
    fn words_of_a_record() {
        let record = encode(&state(), &written());
        for (number, word) in record[..16].iter().enumerate() {
            assert_eq!(*word, 0x1000 + number as u16);
        }
        let csrs = [0x1ff, 0x2001, 0x2002, 0x2003, 0x2004, 0x2005];
        assert_eq!(record[16..22], csrs);
        assert_eq!(record[22..25], [0x3000, 0x4241, 6]);
        assert_eq!(record[25..], [2, 0xffff, 0x7700, 0, 0, 0, 0]);
    }

    #[test]
    fn marks_of_a_record() {
        for marks in 0..8 {
            let mut cpu = state();
            cpu.devices.r = marks % 2 == 1;
            cpu.devices.t = marks / 2 % 2 == 1;
            cpu.halted = marks / 4 == 1;
            let record = encode(&cpu, &written());
            assert_eq!(record[24], marks);
            assert_eq!(decode(&record, cpu.stretch), (cpu, written()));
        }
    }

    #[test]
    fn bad_records() {
        let limits = [
            (16, 511),
            (24, 7),
            (25, 2),
            (28, 0),
            (29, 0),
            (30, 0),
            (31, 0),
        ];
        let good = encode(&state(), &written());
        assert!(!is_bad(&good));
        for (index, limit) in limits {
            let mut record = good;
            record[index] = limit;
            assert!(!is_bad(&record));
            record[index] = limit + 1;
            assert!(is_bad(&record));
            record[index] = 0xffff;
            assert!(is_bad(&record));
        }
    }

    #[test]
    fn all_other_words_may_be_anything() {
        for index in (0..16).chain(17..24).chain(26..28) {
            let mut record = encode(&state(), &written());
            record[index] = 0xffff;
            assert!(!is_bad(&record));
        }
    }
}
