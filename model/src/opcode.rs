//! What each opcode byte is.
//!
//! "One table of 256 entries says for each opcode byte what it is."

/// The kind of register that an operand names.
#[derive(Clone, Copy, Debug, PartialEq, Eq)]
pub enum Kind {
    /// One of `r0` to `r15`.
    Register,
    /// One of `csr0` to `csr15`.
    Csr,
}

/// One entry of the table of opcodes.
#[derive(Clone, Debug)]
pub struct Opcode {
    /// The canonical (lower case) mnemonic; none where the reason is 2.
    pub mnemonic: Option<String>,
    /// The label of what is done: the mnemonic of an unconditional
    /// instruction, `ldif`, `ldisif`, `mvif`, `illegal1` or `illegal2`.
    pub operation: String,
    /// The kinds of the destination and of the source.
    pub operands: [Kind; 2],
    /// The reason of the exception, if the opcode is illegal.
    pub reason: Option<u16>,
}

/// "01 add, 02 and, 03 csrr, 04 csrw, 05 dec1, 06 dec2, 07 exch, 08 inc1, 09
/// inc2, 0a ld, 0b ldb, 0c ldis, 0e mv, 10 not, 11 or, 12 shl, 13 shr, 14
/// shra, 15 sto, 16 stob, 17 ddsto, 18 sub, 19 cmpu, 1a xor, 1b cmps, 1c reti,
/// 1d rev"
const UNCONDITIONAL: [(u8, &str); 27] = [
    (0x01, "add"),
    (0x02, "and"),
    (0x03, "csrr"),
    (0x04, "csrw"),
    (0x05, "dec1"),
    (0x06, "dec2"),
    (0x07, "exch"),
    (0x08, "inc1"),
    (0x09, "inc2"),
    (0x0a, "ld"),
    (0x0b, "ldb"),
    (0x0c, "ldis"),
    (0x0e, "mv"),
    (0x10, "not"),
    (0x11, "or"),
    (0x12, "shl"),
    (0x13, "shr"),
    (0x14, "shra"),
    (0x15, "sto"),
    (0x16, "stob"),
    (0x17, "ddsto"),
    (0x18, "sub"),
    (0x19, "cmpu"),
    (0x1a, "xor"),
    (0x1b, "cmps"),
    (0x1c, "reti"),
    (0x1d, "rev"),
];

/// "`F` is any flag name: `f0`, `f1`, `f2`, `f3`, `z`, `c`, `s`, `o`", in the
/// order of the bits of register `f`.
pub const FLAGS: [&str; 8] = ["f0", "f1", "f2", "f3", "z", "c", "s", "o"];

/// The table of 256 entries.
pub fn table() -> Vec<Opcode> {
    (0..=255).map(describe).collect()
}

/// The entry of one opcode byte, from the rules.
pub fn describe(opcode: u8) -> Opcode {
    if opcode == 0x00 {
        return ill();
    }
    if let Some(mnemonic) = unconditional(opcode) {
        return legal(mnemonic.to_string(), mnemonic);
    }
    if let Some((mnemonic, operation)) = conditional(opcode) {
        return legal(mnemonic, operation);
    }
    unimplemented_opcode()
}

/// "00 is ill, reason 1."
fn ill() -> Opcode {
    Opcode {
        mnemonic: Some("ill".to_string()),
        operation: "illegal1".to_string(),
        operands: [Kind::Register, Kind::Register],
        reason: Some(1),
    }
}

/// "All others, with 0d, 0f, 80–8f, b0–bf, give reason 2." "the multiplies
/// 1e–21 give reason 2"
fn unimplemented_opcode() -> Opcode {
    Opcode {
        mnemonic: None,
        operation: "illegal2".to_string(),
        operands: [Kind::Register, Kind::Register],
        reason: Some(2),
    }
}

/// The entry of an implemented opcode.
fn legal(mnemonic: String, operation: &str) -> Opcode {
    let operands = operand_kinds(&mnemonic);
    Opcode {
        mnemonic: Some(mnemonic),
        operation: operation.to_string(),
        operands,
        reason: None,
    }
}

/// "csrr names a register then a CSR, csrw a CSR then a register, every other
/// mnemonic two registers."
fn operand_kinds(mnemonic: &str) -> [Kind; 2] {
    match mnemonic {
        "csrr" => [Kind::Register, Kind::Csr],
        "csrw" => [Kind::Csr, Kind::Register],
        _ => [Kind::Register, Kind::Register],
    }
}

/// The mnemonic of an implemented unconditional opcode.
fn unconditional(opcode: u8) -> Option<&'static str> {
    UNCONDITIONAL
        .iter()
        .find(|(number, _)| *number == opcode)
        .map(|(_, mnemonic)| *mnemonic)
}

/// "90–9f ld, a0–af ld..is, c0–cf mv under a condition": the mnemonic and the
/// label of the operation.
fn conditional(opcode: u8) -> Option<(String, &'static str)> {
    let condition = condition_name(opcode & 0x0f);
    match opcode >> 4 {
        0x9 => Some((format!("ld{condition}"), "ldif")),
        0xa => Some((format!("ld{condition}is"), "ldisif")),
        0xc => Some((format!("mv{condition}"), "mvif")),
        _ => None,
    }
}

/// "`N` is missing if the expected flag value is 1, or `n` if the expected
/// value is 0", then the name of the flag.
fn condition_name(code: u8) -> String {
    let flag = FLAGS[flag_index(code)];
    if wanted(code) {
        flag.to_string()
    } else {
        format!("n{flag}")
    }
}

/// "bit 3 the wanted bit"
fn wanted(code: u8) -> bool {
    code & 0x08 != 0
}

/// "bits 0–2 the flag's index"
fn flag_index(code: u8) -> usize {
    (code & 0x07) as usize
}

/// Whether the condition of a conditional opcode (its low nibble counts) holds
/// with `f` as the flags: "An instruction can test a single bit of flags for
/// being 0 or 1."
pub fn holds(code: u8, f: u16) -> bool {
    let bit = 1u16 << flag_index(code);
    let is_one = f & bit != 0;
    is_one == wanted(code)
}

#[cfg(test)]
mod tests {
    use super::*;

    /// The mnemonic of an opcode, or `-`.
    fn name(opcode: u8) -> String {
        describe(opcode).mnemonic.unwrap_or_else(|| "-".to_string())
    }

    #[test]
    fn names_of_conditional_opcodes() {
        assert_eq!(name(0x9c), "ldz");
        assert_eq!(name(0x94), "ldnz");
        assert_eq!(name(0xa0), "ldnf0is");
        assert_eq!(name(0xa4), "ldnzis");
        assert_eq!(name(0xaf), "ldois");
        assert_eq!(name(0xcb), "mvf3");
        assert_eq!(name(0xc5), "mvnc");
    }

    #[test]
    fn counts_of_the_table() {
        let with = |reason| table().iter().filter(|e| e.reason == reason).count();
        assert_eq!(table().len(), 256);
        assert_eq!(with(Some(1)), 1);
        assert_eq!(with(None), 27 + 48);
        assert_eq!(with(Some(2)), 256 - 1 - 27 - 48);
    }

    #[test]
    fn named_illegal_opcodes() {
        let mut illegal = vec![0x0d, 0x0f];
        illegal.extend(0x1e..=0x8f);
        illegal.extend(0xb0..=0xbf);
        illegal.extend(0xd0..=0xff);
        for opcode in illegal {
            assert_eq!(describe(opcode).reason, Some(2));
            assert_eq!(name(opcode), "-");
        }
    }

    #[test]
    fn mnemonics_differ() {
        let mut names: Vec<_> = table().iter().filter_map(|e| e.mnemonic.clone()).collect();
        names.sort();
        names.dedup();
        assert_eq!(names.len(), 76);
    }

    #[test]
    fn conditions() {
        assert!(holds(0x9c, 0x0010));
        assert!(!holds(0x9c, 0xffef));
        assert!(holds(0xa4, 0));
        assert!(!holds(0xa4, 0x0010));
        assert!(holds(0x0f, 0x0080));
        assert!(!holds(0x07, 0x0080));
    }
}
