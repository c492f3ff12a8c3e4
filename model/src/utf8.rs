//! UTF-8, read strictly, by value: each code point in as few bytes as it
//! needs, no surrogate, nothing over 0x10ffff.

/// The last code point.
const LAST: u32 = 0x10_ffff;

/// The code points of a text, or none where it is not UTF-8.
pub fn code_points(text: &[u8]) -> Option<Vec<u32>> {
    let mut points = Vec::new();
    let mut rest = text;
    while !rest.is_empty() {
        let (point, length) = first(rest)?;
        points.push(point);
        rest = &rest[length..];
    }
    Some(points)
}

/// The first code point of a text that is not empty, and the bytes that it
/// takes.
fn first(text: &[u8]) -> Option<(u32, usize)> {
    let (length, bits) = lead(text[0])?;
    let mut point = u32::from(bits);
    for byte in text.get(1..length)? {
        // a byte that goes on is 10 in its upper two bits
        if byte / 64 != 2 {
            return None;
        }
        point = 64 * point + u32::from(byte % 64);
    }
    (shortest(point) == length && is_allowed(point)).then_some((point, length))
}

/// How many bytes a code point takes that begins with this byte, and the bits
/// of it that the byte has.
fn lead(byte: u8) -> Option<(usize, u8)> {
    match byte {
        0x00..=0x7f => Some((1, byte)),
        0xc0..=0xdf => Some((2, byte - 0xc0)),
        0xe0..=0xef => Some((3, byte - 0xe0)),
        0xf0..=0xf7 => Some((4, byte - 0xf0)),
        _ => None,
    }
}

/// How many bytes a code point needs.
fn shortest(point: u32) -> usize {
    match point {
        0..=0x7f => 1,
        0x80..=0x7ff => 2,
        0x800..=0xffff => 3,
        _ => 4,
    }
}

/// Whether a number is a code point that a text may have.
fn is_allowed(point: u32) -> bool {
    point <= LAST && !(0xd800..=0xdfff).contains(&point)
}

#[cfg(test)]
mod tests {
    use super::*;

    /// Bytes at the edges of what they may be, and some between.
    const EDGES: [u8; 30] = [
        0x00, 0x01, 0x41, 0x7e, 0x7f, 0x80, 0x81, 0x8f, 0x90, 0x91, 0x9f, 0xa0, 0xa1, 0xa5, 0xbe,
        0xbf, 0xc0, 0xc1, 0xc2, 0xc3, 0xdf, 0xe0, 0xe1, 0xec, 0xed, 0xef, 0xf0, 0xf3, 0xf4, 0xf5,
    ];

    /// The standard library is the judge, of the code points too.
    fn judge(text: &[u8]) {
        let expected = std::str::from_utf8(text).ok();
        let expected = expected.map(|text| text.chars().map(u32::from).collect());
        assert_eq!(code_points(text), expected, "{text:02x?}");
    }

    #[test]
    fn no_byte_one_byte_and_two() {
        judge(&[]);
        for first in 0..=255 {
            judge(&[first]);
            for second in 0..=255 {
                judge(&[first, second]);
            }
        }
    }

    #[test]
    fn three_bytes() {
        for first in 0..=255 {
            for second in 0..=255 {
                EDGES
                    .iter()
                    .for_each(|third| judge(&[first, second, *third]));
            }
        }
    }

    #[test]
    fn four_bytes() {
        for first in 0xe0..=255 {
            for second in 0..=255 {
                for third in EDGES {
                    EDGES
                        .iter()
                        .for_each(|fourth| judge(&[first, second, third, *fourth]));
                }
            }
        }
    }

    #[test]
    fn every_code_point() {
        for point in (0..=LAST).filter_map(char::from_u32) {
            judge(point.to_string().as_bytes());
        }
    }

    #[test]
    fn letters_one_after_the_other() {
        let text = "a\u{7f}\u{80}åø\u{ff}\u{100}\u{7ff}\u{800}\u{ffff}\u{10000}\u{10ffff}z\0";
        judge(text.as_bytes());
        for cut in 0..text.len() {
            judge(&text.as_bytes()[..cut]);
            judge(&text.as_bytes()[cut..]);
        }
    }
}
