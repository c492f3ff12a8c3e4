//! Edge cases for the listing program.

use super::Random;

/// The input of one case, or none where there is no such case.
pub fn case(number: usize) -> Option<Vec<u8>> {
    cases().into_iter().nth(number)
}

/// All cases.
fn cases() -> Vec<Vec<u8>> {
    let mut all = short_cases();
    all.extend(long_cases());
    all.extend(word_cases());
    all
}

/// Cases with few bytes.
fn short_cases() -> Vec<Vec<u8>> {
    let given: [&[u8]; 28] = [
        b"",
        b"0100\n\x0e\x12\x0f\x12\xff",
        b"ABCD\n\x0e\x12\x07\xfc",
        b"aBcD\n\x0e\x12\x07\xfc",
        b"0100\n",
        b"0100",
        b"010\n",
        b"010\n\x0e\x12",
        b"01000\n\x0e\x12",
        b"01g0\n\x0e\x12",
        b"01G0\n\x0e\x12",
        b"0100\r\n\x0e\x12",
        b"010\r\n\x0e\x12",
        b"\n",
        b"\n\n\n\n\n\n",
        b"0100\n\x0e",
        b"FFFF\n\x0e",
        b"FFFF\n\x0e\x12",
        b"FFFE\n\x0e\x12",
        b"FFFE\n\x0e\x12\x0e",
        b" 0100\n\x0e\x12",
        b" 100\n\x0e\x12",
        b"0x10\n\x0e\x12",
        b"-100\n\x0e\x12",
        b"0100 \n\x0e\x12",
        b"01\x000\n\x0e\x12",
        b"/:@G\n\x0e\x12",
        b"0101\n\n\r\0\x20\x0a\x0a\x0e\n",
    ];
    given.iter().map(|input| input.to_vec()).collect()
}

/// Cases at the edges of the longest images.
fn long_cases() -> Vec<Vec<u8>> {
    vec![
        random_image("0000\n", 60_000),
        random_image("0000\n", 60_001),
        random_image("15A0\n", 60_000),
        random_image("15A1\n", 60_000),
        random_image("15a1\n", 59_999),
        random_image("0000\n", 59_999),
        random_image("0000\n", 65_536),
        random_image("0000\n", 70_000),
        random_image("bad!\n", 70_000),
        random_image("0100", 70_000),
    ]
}

/// A header and pseudo-random bytes.
fn random_image(header: &str, length: usize) -> Vec<u8> {
    let mut random = Random::new(length as u64);
    let mut input = header.as_bytes().to_vec();
    input.extend(random.bytes(length));
    input
}

/// Cases that together have all 65,536 words: every opcode byte with a quarter
/// of the second bytes in each.
fn word_cases() -> Vec<Vec<u8>> {
    vec![
        words("0000\n", 0x00..=0x3f),
        words("8000\n", 0x40..=0x7f),
        words("4001\n", 0x80..=0xbf),
        words("7FFF\n", 0xc0..=0xff),
    ]
}

/// A header and every opcode byte with each of these second bytes.
fn words(header: &str, seconds: std::ops::RangeInclusive<u8>) -> Vec<u8> {
    let mut input = header.as_bytes().to_vec();
    for opcode in 0..=255 {
        for second in seconds.clone() {
            input.extend([opcode, second]);
        }
    }
    input
}

#[cfg(test)]
mod tests {
    use super::*;
    use crate::listing::listing;

    #[test]
    fn word_cases_have_every_word() {
        let mut seen = vec![false; 65_536];
        for input in word_cases() {
            for word in input[5..].chunks(2) {
                seen[usize::from(u16::from_le_bytes([word[0], word[1]]))] = true;
            }
            assert_eq!(
                listing(&input).iter().filter(|b| **b == b'\n').count(),
                16_384
            );
        }
        assert!(seen.iter().all(|seen| *seen));
    }

    #[test]
    fn answers_of_the_long_cases() {
        let too_long: Vec<bool> = long_cases()
            .iter()
            .map(|input| listing(input) == b"too long\n")
            .collect();
        let expected = [
            false, true, false, true, false, false, true, true, false, false,
        ];
        assert_eq!(too_long, expected);
    }
}
