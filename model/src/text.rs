//! Listing a word as text and assembling a line of text to a word.
//!
//! "Listing has only 10 and 11, assembling a line only 12 to 14, in that
//! order."

use crate::names;
use crate::opcode::{self, Kind};

/// "listing a word whose opcode gives reason 2"
pub const NOT_LISTED: u16 = 10;
/// "output shorter than the text"
pub const NO_ROOM: u16 = 11;
/// "line isn't: word, one or more blanks, word, comma, word; a newline or any
/// other byte counts here"
pub const BAD_LINE: u16 = 12;
/// "unknown or unimplemented mnemonic"
pub const BAD_MNEMONIC: u16 = 13;
/// "operand unknown or of the wrong kind"
pub const BAD_OPERAND: u16 = 14;

/// The text of a word: "lower case, `mv r1, r2`, canonical register names, at
/// most 16 bytes". "First byte is the opcode; the second has the destination
/// in its upper and the source in its lower four bits."
pub fn list(word: u16) -> Result<String, u16> {
    let entry = opcode::describe((word % 256) as u8);
    let second = word / 256;
    if entry.reason == Some(2) {
        return Err(NOT_LISTED);
    }
    let mnemonic = entry.mnemonic.as_ref().expect("it has a mnemonic");
    let destination = operand_text(entry.operands[0], second / 16);
    let source = operand_text(entry.operands[1], second % 16);
    Ok(format!("{mnemonic} {destination}, {source}"))
}

/// Lists a word into lent bytes and gives the text's length: "output past it
/// stays as it was"; a refusal "changes no lent byte".
pub fn list_into(word: u16, output: &mut [u8]) -> Result<usize, u16> {
    let text = list(word)?;
    if output.len() < text.len() {
        return Err(NO_ROOM);
    }
    output[..text.len()].copy_from_slice(text.as_bytes());
    Ok(text.len())
}

/// The canonical name of an operand.
fn operand_text(kind: Kind, number: u16) -> String {
    match kind {
        Kind::Register => format!("r{number}"),
        Kind::Csr => format!("csr{number}"),
    }
}

/// The word that a line stands for.
pub fn assemble(line: &[u8]) -> Result<u16, u16> {
    let [mnemonic, first, second] = three_words(line).ok_or(BAD_LINE)?;
    let number = opcode_of(mnemonic).ok_or(BAD_MNEMONIC)?;
    let kinds = opcode::describe(number).operands;
    let destination = operand_number(kinds[0], first).ok_or(BAD_OPERAND)?;
    let source = operand_number(kinds[1], second).ok_or(BAD_OPERAND)?;
    Ok(u16::from(number) + 256 * (16 * destination + source))
}

/// The opcode with this mnemonic in either case.
fn opcode_of(mnemonic: &[u8]) -> Option<u8> {
    (0..=255).find(|number| match &opcode::describe(*number).mnemonic {
        Some(name) => mnemonic.eq_ignore_ascii_case(name.as_bytes()),
        None => false,
    })
}

/// The number of an operand of the wanted kind.
fn operand_number(kind: Kind, name: &[u8]) -> Option<u16> {
    match kind {
        Kind::Register => names::register(name),
        Kind::Csr => names::csr(name),
    }
}

/// The three words of a line: "word, one or more blanks, word, comma, word",
/// with "spaces and tabs at both ends and around the comma".
fn three_words(line: &[u8]) -> Option<[&[u8]; 3]> {
    let (_, rest) = blanks(line);
    let (mnemonic, rest) = word(rest)?;
    let (gap, rest) = blanks(rest);
    if gap == 0 {
        return None;
    }
    let (first, rest) = word(rest)?;
    let (_, rest) = blanks(rest);
    let rest = comma(rest)?;
    let (_, rest) = blanks(rest);
    let (second, rest) = word(rest)?;
    let (_, rest) = blanks(rest);
    if !rest.is_empty() {
        return None;
    }
    Some([mnemonic, first, second])
}

/// The number of blanks in front, and what follows them.
fn blanks(text: &[u8]) -> (usize, &[u8]) {
    let count = text.iter().take_while(|byte| is_blank(**byte)).count();
    (count, &text[count..])
}

/// The word in front, and what follows it: "Words are one or more letters,
/// digits or underscores."
fn word(text: &[u8]) -> Option<(&[u8], &[u8])> {
    let count = text.iter().take_while(|byte| is_of_word(**byte)).count();
    if count == 0 {
        return None;
    }
    Some(text.split_at(count))
}

/// What follows the comma in front.
fn comma(text: &[u8]) -> Option<&[u8]> {
    text.strip_prefix(b",")
}

/// Whether a byte is a space or a tab.
fn is_blank(byte: u8) -> bool {
    byte == b' ' || byte == b'\t'
}

/// Whether a byte is a letter, a digit or an underscore.
fn is_of_word(byte: u8) -> bool {
    byte.is_ascii_alphabetic() || byte.is_ascii_digit() || byte == b'_'
}

#[cfg(test)]
mod tests {
    use super::*;

    /// The word of two bytes in memory.
    fn bytes(first: u8, second: u8) -> u16 {
        u16::from_le_bytes([first, second])
    }

    #[test]
    fn marked_examples_9_and_10() {
        assert_eq!(list(bytes(0x07, 0xfc)), Ok("exch r15, r12".to_string()));
        assert_eq!(list(bytes(0x9c, 0xff)), Ok("ldz r15, r15".to_string()));
    }

    #[test]
    fn other_listings() {
        assert_eq!(list(bytes(0x0e, 0x12)), Ok("mv r1, r2".to_string()));
        assert_eq!(list(bytes(0x03, 0x12)), Ok("csrr r1, csr2".to_string()));
        assert_eq!(list(bytes(0x04, 0x12)), Ok("csrw csr1, r2".to_string()));
        assert_eq!(list(bytes(0x00, 0x00)), Ok("ill r0, r0".to_string()));
        assert_eq!(list(bytes(0x0f, 0x12)), Err(NOT_LISTED));
    }

    #[test]
    fn listing_and_assembling_returns_the_word() {
        let mut longest = 0;
        for word in 0..=0xffff {
            match list(word) {
                Ok(text) => {
                    longest = longest.max(text.len());
                    assert_eq!(assemble(text.as_bytes()), Ok(word));
                }
                Err(number) => assert_eq!(number, NOT_LISTED),
            }
        }
        assert_eq!(longest, 16);
    }

    #[test]
    fn room() {
        let word = assemble(b"ldnf0is r10, r11").unwrap();
        let mut output = [0xaa; 16];
        assert_eq!(list_into(word, &mut output[..15]), Err(NO_ROOM));
        assert_eq!(output, [0xaa; 16]);
        assert_eq!(list_into(word, &mut output), Ok(16));
        assert_eq!(&output, b"ldnf0is r10, r11");
        assert_eq!(list_into(0x000f, &mut []), Err(NOT_LISTED));
    }

    #[test]
    fn accepted_lines() {
        assert_eq!(assemble(b"\t MV  Sp\t,\tpC \t"), Ok(0xbf0e));
        assert_eq!(assemble(b"mv f,ia"), Ok(0xed0e));
        assert_eq!(assemble(b"CSRW CSR5 , CA"), Ok(0x5c04));
        assert_eq!(assemble(b"ill r0, r0"), Ok(0));
    }

    #[test]
    fn refused_lines() {
        let lines: [(&[u8], u16); 16] = [
            (b"", BAD_LINE),
            (b"mv r1 r2", BAD_LINE),
            (b"mv r1, r2\n", BAD_LINE),
            (b"mv r1, r2, r3", BAD_LINE),
            (b"mvr1,r2", BAD_LINE),
            (b"mv ,r2", BAD_LINE),
            (b"foo r99, \0", BAD_LINE),
            (b"neg r1, r2", BAD_MNEMONIC),
            (b"mulss r1, r2", BAD_MNEMONIC),
            (b"foo r99, r1", BAD_MNEMONIC),
            (b"_ _, _", BAD_MNEMONIC),
            (b"mv r01, r1", BAD_OPERAND),
            (b"mv r1, r16", BAD_OPERAND),
            (b"mv r1, csr1", BAD_OPERAND),
            (b"csrr csr1, r1", BAD_OPERAND),
            (b"csrw r1, csr1", BAD_OPERAND),
        ];
        for (line, number) in lines {
            assert_eq!(assemble(line), Err(number));
        }
    }
}
