//! The listing of an image: a header, then a line for every two bytes.

use super::text;

/// The most bytes after the header.
const LONGEST: usize = 60_000;

const DIGITS: &[u8; 16] = b"0123456789abcdef";

/// What the listing program writes for its input, at the front of the output, which has room for 28 bytes a line; its length.
pub fn listing(input: &[u8], out: &mut [u8]) -> usize {
    let address = match header(input) {
        Some(address) => address,
        None => return put(b"bad header\n", out),
    };
    let bytes = &input[5..];
    if bytes.len() > LONGEST || usize::from(address) + bytes.len() > 65_536 {
        return put(b"too long\n", out);
    }
    let mut at = 0;
    for (index, pair) in bytes.chunks(2).enumerate() {
        let address = address.wrapping_add(2 * index as u16);
        at += line(address, pair, &mut out[at..]);
    }
    at
}

fn put(text: &[u8], out: &mut [u8]) -> usize {
    out[..text.len()].copy_from_slice(text);
    text.len()
}

/// Four hexadecimal digits and a newline.
fn header(input: &[u8]) -> Option<u16> {
    if input.get(4) != Some(&b'\n') {
        return None;
    }
    input[..4].iter().try_fold(0, |number, digit| {
        Some(16 * number + (*digit as char).to_digit(16)? as u16)
    })
}

/// A line at the front of the output, and its length.
#[inline(always)]
fn line(address: u16, pair: &[u8], out: &mut [u8]) -> usize {
    let [high, low] = address.to_be_bytes();
    hex(high, out, 0);
    hex(low, out, 2);
    out[4] = b' ';
    hex(pair[0], out, 5);
    let (first, second) = match *pair {
        [first, second] => (first, second),
        _ => {
            out[7] = b'\n';
            return 8;
        }
    };
    out[7] = b' ';
    hex(second, out, 8);
    out[10] = b' ';
    let answer = text::list(u16::from_le_bytes([first, second]), &mut out[11..]);
    let length = 11 + if answer & 0xffff == 0 { (answer >> 16) as usize } else { 1 };
    if answer & 0xffff != 0 {
        out[11] = b'?';
    }
    out[length] = b'\n';
    length + 1
}

#[inline(always)]
fn hex(byte: u8, out: &mut [u8], at: usize) {
    out[at] = DIGITS[usize::from(byte >> 4)];
    out[at + 1] = DIGITS[usize::from(byte & 15)];
}
