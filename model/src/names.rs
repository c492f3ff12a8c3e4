//! The numbers of registers and CSRs from their names.
//!
//! A name is any bytes; "The line reader takes either case, aliases".

/// "Registers 11 to 15 carry the fixed names sp, ca, ia, f, pc."
pub const ALIASES: [(&str, u16); 5] = [("sp", 11), ("ca", 12), ("ia", 13), ("f", 14), ("pc", 15)];

/// Whether the bytes spell the word, in either case.
fn spells(name: &[u8], word: &str) -> bool {
    name.eq_ignore_ascii_case(word.as_bytes())
}

/// The number of a register: "named `r0` ... `r15`", or an alias. "`r01` is
/// unknown."
pub fn register(name: &[u8]) -> Option<u16> {
    let canonical = (0..16).find(|number| spells(name, &format!("r{number}")));
    canonical.or_else(|| alias(name))
}

/// The number of the register with this alias.
fn alias(name: &[u8]) -> Option<u16> {
    ALIASES
        .iter()
        .find(|(word, _)| spells(name, word))
        .map(|(_, number)| *number)
}

/// The number of a control and status register: "named `csr0` ... `csr15`".
pub fn csr(name: &[u8]) -> Option<u16> {
    (0..16).find(|number| spells(name, &format!("csr{number}")))
}

#[cfg(test)]
mod tests {
    use super::*;

    #[test]
    fn known_names() {
        for number in 0..16 {
            assert_eq!(register(format!("r{number}").as_bytes()), Some(number));
            assert_eq!(register(format!("R{number}").as_bytes()), Some(number));
            assert_eq!(csr(format!("csr{number}").as_bytes()), Some(number));
            assert_eq!(csr(format!("CsR{number}").as_bytes()), Some(number));
        }
        assert_eq!(register(b"sP"), Some(11));
        assert_eq!(register(b"CA"), Some(12));
        assert_eq!(register(b"ia"), Some(13));
        assert_eq!(register(b"F"), Some(14));
        assert_eq!(register(b"Pc"), Some(15));
    }

    #[test]
    fn unknown_names() {
        let names: [&[u8]; 10] = [
            b"", b"r", b"r01", b"r16", b"r1 ", b"f\0", b"\0", b"csr", b"csr01", b"csr16",
        ];
        for name in names {
            assert_eq!(register(name), None);
            assert_eq!(csr(name), None);
        }
    }

    #[test]
    fn kinds_are_apart() {
        assert_eq!(register(b"csr1"), None);
        assert_eq!(csr(b"r1"), None);
        assert_eq!(csr(b"sp"), None);
    }
}
