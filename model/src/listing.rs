//! The listing program, as a function from its whole input to its whole
//! output.

use crate::text;

/// "at most 60,000 bytes after it"
const LONGEST_IMAGE: usize = 60_000;
/// "also when address plus length passes 65,536"
const END_OF_ADDRESSES: usize = 65_536;

/// The whole standard output for the whole standard input. "Otherwise it
/// prints only one line, `bad header` (this first), or `too long`".
pub fn listing(input: &[u8]) -> Vec<u8> {
    let (address, image) = match header(input) {
        Some(found) => found,
        None => return b"bad header\n".to_vec(),
    };
    if image.len() > LONGEST_IMAGE || address + image.len() > END_OF_ADDRESSES {
        return b"too long\n".to_vec();
    }
    let mut output = String::new();
    for (index, bytes) in image.chunks(2).enumerate() {
        output += &line(address + 2 * index, bytes);
        output += "\n";
    }
    output.into_bytes()
}

/// The address and the image: "four hex digits of either case, newline", then
/// the image.
pub fn header(input: &[u8]) -> Option<(usize, &[u8])> {
    if input.len() < 5 || input[4] != b'\n' {
        return None;
    }
    let mut address = 0;
    for digit in &input[..4] {
        address = 16 * address + hex_digit(*digit)?;
    }
    Some((address, &input[5..]))
}

/// The value of a hexadecimal digit of either case.
fn hex_digit(byte: u8) -> Option<usize> {
    match byte {
        b'0'..=b'9' => Some(usize::from(byte - b'0')),
        b'a'..=b'f' => Some(usize::from(byte - b'a') + 10),
        b'A'..=b'F' => Some(usize::from(byte - b'A') + 10),
        _ => None,
    }
}

/// The line for one or two bytes at an address, as in `0100 0e 12 mv r1, r2`,
/// `0102 0f 12 ?` and `0104 ff`.
fn line(address: usize, bytes: &[u8]) -> String {
    match bytes {
        [first, second] => {
            let word = u16::from(*first) + 256 * u16::from(*second);
            let text = text::list(word).unwrap_or("?".to_string());
            format!("{address:04x} {first:02x} {second:02x} {text}")
        }
        [last] => format!("{address:04x} {last:02x}"),
        _ => unreachable!("chunks have one or two bytes"),
    }
}

#[cfg(test)]
mod tests {
    use super::*;

    #[test]
    fn example_of_the_paper() {
        let expected = "0100 0e 12 mv r1, r2\n0102 0f 12 ?\n0104 ff\n";
        let output = listing(b"0100\n\x0e\x12\x0f\x12\xff");
        assert_eq!(output, expected.as_bytes());
    }

    #[test]
    fn bad_headers() {
        let inputs: [&[u8]; 8] = [
            b"",
            b"0100",
            b"010\n",
            b"01000\n",
            b"01g0\n",
            b"0100\r\n",
            b"\n",
            b" 0100\n",
        ];
        for input in inputs {
            assert_eq!(listing(input), b"bad header\n");
        }
    }

    #[test]
    fn edges_of_the_addresses() {
        assert_eq!(listing(b"0100\n"), b"");
        assert_eq!(listing(b"FFFF\n\x0a"), b"ffff 0a\n");
        assert_eq!(listing(b"fFfE\n\x00\x00"), b"fffe 00 00 ill r0, r0\n");
        assert_eq!(listing(b"FFFF\n\x00\x00"), b"too long\n");
    }

    #[test]
    fn edges_of_the_length() {
        let image = |header: &str, length: usize| {
            let mut input = header.as_bytes().to_vec();
            input.resize(5 + length, 0);
            listing(&input)
        };
        assert_eq!(image("0000\n", 60_001), b"too long\n");
        assert_eq!(image("15a1\n", 60_000), b"too long\n");
        assert_ne!(image("15a0\n", 60_000), b"too long\n");
        assert_ne!(image("0000\n", 60_000), b"too long\n");
        assert_eq!(image("000g\n", 60_001), b"bad header\n");
    }
}
