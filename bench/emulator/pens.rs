//! A pen of the overnight bench: its name is looked up, poked as ISO 8859-1, and the firmware's matching routine is run.

use super::watch::BREAK;
use super::{Answer, Machine};

/// The most digits of a pen's number.
const MOST_DIGITS: usize = 9;

/// The most of a manifest's line that a number and its tab take.
const FRONT: usize = MOST_DIGITS + 1;

/// A pen's line, the two manifests, and the setup's words: where the name goes, where to stop, the budget, registers and contents.
pub struct Pen<'a> {
    pub line: &'a [u8],
    pub today: &'a [u8],
    pub last_good: &'a [u8],
    pub setup: &'a [u16],
}

impl<'a> Pen<'a> {
    /// The pen's name, today's or the last good one, by going through the lines.
    pub fn name(&self) -> Option<&'a [u8]> {
        let pen = number(self.line)?;
        find(pen, self.today).or_else(|| find(pen, self.last_good))
    }
}

/// A number of 1 to 9 digits.
pub fn number(digits: &[u8]) -> Option<u32> {
    if digits.is_empty() || digits.len() > MOST_DIGITS {
        return None;
    }
    digits.iter().try_fold(0, |number, digit| {
        Some(10 * number + char::from(*digit).to_digit(10)?)
    })
}

/// The number and the name of a manifest's line.
pub fn entry(line: &[u8]) -> Option<(u32, &[u8])> {
    let tab = line.iter().take(FRONT).position(|byte| *byte == b'\t')?;
    Some((number(&line[..tab])?, &line[tab + 1..]))
}

/// The name in the first line with this number.
fn find(pen: u32, manifest: &[u8]) -> Option<&[u8]> {
    let mut entries = manifest.split(|byte| *byte == b'\n').filter_map(entry);
    entries
        .find(|(number, _)| *number == pen)
        .map(|(_, name)| name)
}

/// Refusals 80 and 81: a name as text, each letter of which is one byte.
fn text(name: &[u8]) -> Result<&str, u64> {
    let text = std::str::from_utf8(name).map_err(|_| 80u64)?;
    let fits = |letter: char| letter != '\0' && letter <= '\u{ff}';
    text.chars().all(fits).then_some(text).ok_or(81)
}

impl Machine {
    /// Does a pen by its name and the setup; what its run told. All is checked before the first poke, so that none of the calls is refused.
    pub fn pen<'a>(
        &mut self,
        ram: &mut [u8],
        journal: &mut [u16],
        name: impl FnOnce() -> Option<&'a [u8]>,
        setup: &[u16],
    ) -> Answer {
        let word = |index: usize| setup.get(index).copied().unwrap_or(0);
        let given = setup.get(3..).unwrap_or_default().chunks_exact(2);
        if given.clone().any(|pair| pair[0] > 15) {
            return Err(6);
        }
        let text = text(name().ok_or(83u64)?)?;
        let address = word(0);
        if usize::from(address) + text.chars().count() >= ram.len() {
            return Err(82);
        }
        let letters = text.chars().map(|letter| letter as u8).chain([0]);
        for (address, byte) in (address..).zip(letters) {
            self.poke(ram, journal, address, byte)?;
        }
        for pair in given {
            self.set_register(journal, pair[0] as u8, pair[1])?;
        }
        Ok(self.run_watched(ram, journal, &mut [[word(1), BREAK, 0]], word(2)))
    }
}
