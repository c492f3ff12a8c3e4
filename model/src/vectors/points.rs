//! The list of breakpoints and watches of the watched vectors: 64 entries, of
//! which the first ones are lent.

use super::desk::Command;
use super::Digest;
use crate::watched::{Entry, BREAK, MOST_ENTRIES};

/// An entry's address and kind are set.
pub const SET_ENTRY: u8 = 21;
/// An entry's hits are set.
pub const SET_HITS: u8 = 22;
/// The number of entries lent is set.
pub const SET_ENTRIES: u8 = 23;

/// All entries, and how many are lent.
#[derive(Clone, Debug, PartialEq)]
pub struct Points {
    /// How many entries are lent; it may be more than there are.
    pub count: usize,
    /// The entries.
    pub entries: [Entry; MOST_ENTRIES],
}

impl Points {
    /// None lent, and all words 0.
    pub fn new() -> Points {
        let nothing = Entry {
            address: 0,
            kind: 0,
            hits: 0,
        };
        Points {
            count: 0,
            entries: [nothing; MOST_ENTRIES],
        }
    }

    /// Obeys a command of these three kinds; others do nothing.
    pub fn arrange(&mut self, command: Command) {
        let Command { kind, y, a, b } = command;
        let entry = &mut self.entries[usize::from(y) % MOST_ENTRIES];
        match kind {
            SET_ENTRY => {
                entry.address = a;
                entry.kind = b;
            }
            SET_HITS => entry.hits = a,
            SET_ENTRIES => self.count = usize::from(a),
            _ => {}
        }
    }

    /// The entries lent. Where more are lent than there are, the others are
    /// breaks: such a list is refused whatever they are.
    pub fn lent(&self) -> Vec<Entry> {
        let mut lent = self.entries.to_vec();
        let other = Entry {
            kind: BREAK,
            ..self.entries[0]
        };
        lent.resize(self.count.max(MOST_ENTRIES), other);
        lent.truncate(self.count);
        lent
    }

    /// Takes back what a run left of the entries lent.
    pub fn take_back(&mut self, lent: &[Entry]) {
        for (ours, theirs) in self.entries.iter_mut().zip(lent) {
            *ours = *theirs;
        }
    }

    /// Absorbs the number lent, then the addresses, the kinds and the hits of
    /// all entries.
    pub fn absorb(&self, digest: &mut Digest) {
        digest.absorb((self.count % 65_536) as u16);
        let all = || self.entries.iter();
        all().for_each(|entry| digest.absorb(entry.address));
        all().for_each(|entry| digest.absorb(entry.kind));
        all().for_each(|entry| digest.absorb(entry.hits));
    }
}

#[cfg(test)]
mod tests {
    use super::*;

    /// Points that have obeyed these commands.
    fn after(commands: &[(u8, u8, u16, u16)]) -> Points {
        let mut points = Points::new();
        for (kind, y, a, b) in commands.iter().copied() {
            points.arrange(Command { kind, y, a, b });
        }
        points
    }

    #[test]
    fn arrangements() {
        let points = after(&[
            (SET_ENTRY, 1, 0x1234, 2),
            (SET_ENTRY, 127, 0xffff, 0xabcd),
            (SET_HITS, 65, 7, 9),
            (SET_ENTRIES, 9, 3, 9),
            (24, 1, 1, 1),
        ]);
        let entry = points.entries[1];
        assert_eq!((entry.address, entry.kind, entry.hits), (0x1234, 2, 7));
        let entry = points.entries[63];
        assert_eq!((entry.address, entry.kind, entry.hits), (0xffff, 0xabcd, 0));
        assert_eq!(points.lent(), points.entries[..3]);
    }

    #[test]
    fn more_lent_than_there_are() {
        let mut points = after(&[(SET_ENTRIES, 0, 66, 0)]);
        let mut lent = points.lent();
        assert_eq!((lent.len(), lent[65].kind), (66, BREAK));
        lent[63].hits = 5;
        points.take_back(&lent);
        assert_eq!(points.entries[63].hits, 5);
        points.take_back(&[]);
        assert_eq!(points.entries[63].hits, 5);
    }

    #[test]
    fn what_is_absorbed() {
        let points = after(&[(SET_ENTRY, 0, 3, 1), (SET_HITS, 0, 9, 0)]);
        let mut ours = Digest::new();
        points.absorb(&mut ours);
        let mut digest = Digest::new();
        digest.absorb(0);
        for first in [3, 1, 9] {
            digest.absorb(first);
            (0..63).for_each(|_| digest.absorb(0));
        }
        assert_eq!(ours.digits(), digest.digits());
    }
}
