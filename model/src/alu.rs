//! The arithmetic unit: the value and the flags of each computation.
//!
//! Each operation takes the destination's and the source's word and gives the
//! value for the destination and the flags z, c, s, o in their places in `f`
//! (all other bits 0). "Unary operations use the source register as the
//! operand"; "Binary operations use the destination register as the first and
//! the source register as the second operand."

/// Bit 4 of `f`: "Zero".
pub const Z: u16 = 0x10;
/// Bit 5 of `f`: "Carry (or borrow) from the highest bit".
pub const C: u16 = 0x20;
/// Bit 6 of `f`: "Sign of a result (0 = zero or positive, 1 = negative)".
pub const S: u16 = 0x40;
/// Bit 7 of `f`: "Arithmetic overflow".
pub const O: u16 = 0x80;

/// From the destination's and the source's word to the value and the flags.
pub type Operation = fn(u16, u16) -> (u16, u16);

/// All operations by mnemonic; `cmpu` and `cmps` store no register and have
/// the value 0 here.
pub const OPERATIONS: [(&str, Operation); 16] = [
    ("add", add),
    ("and", and),
    ("dec1", dec1),
    ("dec2", dec2),
    ("inc1", inc1),
    ("inc2", inc2),
    ("not", not),
    ("or", or),
    ("rev", rev),
    ("shl", shl),
    ("shr", shr),
    ("shra", shra),
    ("sub", sub),
    ("xor", xor),
    ("cmpu", cmpu),
    ("cmps", cmps),
];

/// A word read as a two's complement number.
fn signed(word: u16) -> i32 {
    if word < 0x8000 {
        i32::from(word)
    } else {
        i32::from(word) - 0x1_0000
    }
}

/// A word read as a number without sign.
fn unsigned(word: u16) -> i32 {
    i32::from(word)
}

/// The lowest 16 bits of a number.
fn lowest_16_bits(number: i32) -> u16 {
    number.rem_euclid(0x1_0000) as u16
}

/// Whether a number is outside of the range of signed words.
fn overflows(number: i32) -> bool {
    !(-0x8000..=0x7fff).contains(&number)
}

/// Whether bit `index` of a word is 1.
fn bit(word: u16, index: usize) -> bool {
    word & (1 << index) != 0
}

/// The word whose bit `index` is `bits(index)`.
fn from_bits(bits: impl Fn(usize) -> bool) -> u16 {
    let mut word = 0;
    for index in 0..16 {
        if bits(index) {
            word |= 1 << index;
        }
    }
    word
}

/// The four flags in their places in `f`.
fn flags(z: bool, c: bool, s: bool, o: bool) -> u16 {
    let mut f = 0;
    if z {
        f |= Z;
    }
    if c {
        f |= C;
    }
    if s {
        f |= S;
    }
    if o {
        f |= O;
    }
    f
}

/// A value with "`z` to 1 if the result is zero" and "`s` to 1 if the result
/// is negative (copies the highest bit of the result)", and c and o as given.
fn result(value: u16, c: bool, o: bool) -> (u16, u16) {
    (value, flags(value == 0, c, bit(value, 15), o))
}

/// "Adds the value in register `srcr` to register `dstr`"; "`c` to the carry
/// from the highest bit"; "`o` to 1 if a signed overflow occurs".
pub fn add(d: u16, s: u16) -> (u16, u16) {
    let sum = unsigned(d) + unsigned(s);
    let carry = sum > 0xffff;
    result(lowest_16_bits(sum), carry, overflows(signed(d) + signed(s)))
}

/// "Subtracts the value in register `srcr` from register `dstr`"; "`c` to the
/// borrow from the highest bit"; "`o` to 1 if a signed overflow occurs".
pub fn sub(d: u16, s: u16) -> (u16, u16) {
    let difference = unsigned(d) - unsigned(s);
    let borrow = difference < 0;
    let overflow = overflows(signed(d) - signed(s));
    result(lowest_16_bits(difference), borrow, overflow)
}

/// "Computes the binary AND of contents of registers `srcr` and `dstr`"; "`c`
/// to 0"; "`o` to 0".
pub fn and(d: u16, s: u16) -> (u16, u16) {
    result(from_bits(|i| bit(d, i) && bit(s, i)), false, false)
}

/// "Computes the binary OR of contents of registers `srcr` and `dstr`"; "`c`
/// to 0"; "`o` to 0".
pub fn or(d: u16, s: u16) -> (u16, u16) {
    result(from_bits(|i| bit(d, i) || bit(s, i)), false, false)
}

/// "Computes the binary XOR of contents of registers `srcr` and `dstr`"; "`c`
/// to 0"; "`o` to 0".
pub fn xor(d: u16, s: u16) -> (u16, u16) {
    result(from_bits(|i| bit(d, i) != bit(s, i)), false, false)
}

/// "Inverts all bits of the value in register `srcr`"; "`c` to 0"; "`o` to 0".
pub fn not(_d: u16, s: u16) -> (u16, u16) {
    result(from_bits(|i| !bit(s, i)), false, false)
}

/// "Reverses the order of bits of the value in register `srcr`"; "`c` to 0";
/// "`o` to 0".
pub fn rev(_d: u16, s: u16) -> (u16, u16) {
    result(from_bits(|i| bit(s, 15 - i)), false, false)
}

/// "Subtracts 1 from the value in register `srcr`"; "`c` to the borrow from
/// the highest bit (1 if the result is 0xffff)"; "`o` to 1 if a signed
/// overflow occurs (the result is 0x7fff)".
pub fn dec1(_d: u16, s: u16) -> (u16, u16) {
    let value = lowest_16_bits(unsigned(s) - 1);
    result(value, value == 0xffff, value == 0x7fff)
}

/// "Subtracts 2 from the value in register `srcr`"; "`c` to the borrow from
/// the highest bit (1 if the result is 0xffff or 0xfffe)"; "`o` to 1 if
/// a signed overflow occurs (the result is 0x7fff or 0x7ffe)".
pub fn dec2(_d: u16, s: u16) -> (u16, u16) {
    let value = lowest_16_bits(unsigned(s) - 2);
    let borrow = value == 0xffff || value == 0xfffe;
    let overflow = value == 0x7fff || value == 0x7ffe;
    result(value, borrow, overflow)
}

/// "Adds 1 to the value in register `srcr`"; "`c` to the carry from the
/// highest bit (1 if the result is 0x0000)"; "`o` to 1 if a signed overflow
/// occurs (the result is 0x8000)".
pub fn inc1(_d: u16, s: u16) -> (u16, u16) {
    let value = lowest_16_bits(unsigned(s) + 1);
    result(value, value == 0x0000, value == 0x8000)
}

/// "Adds 2 to the value in register `srcr`"; "`c` to the carry from the
/// highest bit (1 if the result is 0x0000 or 0x0001)"; "`o` to 1 if a signed
/// overflow occurs (the result is 0x8000 or 0x8001)".
pub fn inc2(_d: u16, s: u16) -> (u16, u16) {
    let value = lowest_16_bits(unsigned(s) + 2);
    let carry = value == 0x0000 || value == 0x0001;
    let overflow = value == 0x8000 || value == 0x8001;
    result(value, carry, overflow)
}

/// "Shifts use the source's lowest 4 bits."
fn shift_count(s: u16) -> usize {
    usize::from(s % 16)
}

/// "Shifts the value of register `dstr` to the left (adding zeros at the
/// right)".
fn left(d: u16, count: usize) -> u16 {
    from_bits(|i| i >= count && bit(d, i - count))
}

/// "Shifts the value of register `dstr` to the right (adding zeros at the
/// left)".
fn right(d: u16, count: usize) -> u16 {
    from_bits(|i| i + count <= 15 && bit(d, i + count))
}

/// "Shifts the value of register `dstr` to the right, setting the shifted-from
/// bits at the left to the value of the sign (highest) bit".
fn right_signed(d: u16, count: usize) -> u16 {
    from_bits(|i| bit(d, (i + count).min(15)))
}

/// 02, Q-2: "For a count of 2 to 15 the carry is the last bit shifted out, for
/// shl, shr and shra alike; for count 0 it is 0": the word is shifted by 1 bit
/// as often as `count` says, and each time the bit at `end` goes out.
fn last_bit_out(d: u16, count: usize, end: usize, shift: fn(u16, usize) -> u16) -> bool {
    let mut word = d;
    let mut last = false;
    for _ in 0..count {
        last = bit(word, end);
        word = shift(word, 1);
    }
    last
}

/// "`c` to the highest bit of the original value of `dstr` if shifting by 1
/// bit"; "`o` to 1 if the operation changes the value of the highest bit of
/// `dstr`".
pub fn shl(d: u16, s: u16) -> (u16, u16) {
    let count = shift_count(s);
    let value = left(d, count);
    let carry = last_bit_out(d, count, 15, left);
    result(value, carry, bit(value, 15) != bit(d, 15))
}

/// "`c` to the lowest bit of the original value of `dstr` if shifting by 1
/// bit"; "`o` to 1 if the operation changes the value of the highest bit of
/// `dstr`".
pub fn shr(d: u16, s: u16) -> (u16, u16) {
    let count = shift_count(s);
    let value = right(d, count);
    let carry = last_bit_out(d, count, 0, right);
    result(value, carry, bit(value, 15) != bit(d, 15))
}

/// "`c` to the lowest bit of the original value of `dstr` if shifting by 1
/// bit"; "shra has o=1 only for count 1 on 0xffff, else 0".
pub fn shra(d: u16, s: u16) -> (u16, u16) {
    let count = shift_count(s);
    let value = right_signed(d, count);
    let carry = last_bit_out(d, count, 0, right_signed);
    result(value, carry, count == 1 && d == 0xffff)
}

/// "`z` to 1 if the values are equal; `c` to 1 if `dstr` is less or equal to
/// `srcr`; `s` to 1 if `dstr` is less than `srcr`; `o` to 0." "cmps and cmpu
/// store no register"
fn compare(d: i32, s: i32) -> (u16, u16) {
    (0, flags(d == s, d <= s, d < s, false))
}

/// "Compares the values in registers `dstr` and `srcr` as unsigned integers".
pub fn cmpu(d: u16, s: u16) -> (u16, u16) {
    compare(unsigned(d), unsigned(s))
}

/// "Compares the values in registers `dstr` and `srcr` as signed integers".
pub fn cmps(d: u16, s: u16) -> (u16, u16) {
    compare(signed(d), signed(s))
}

#[cfg(test)]
mod tests {
    use super::*;

    #[test]
    fn marked_examples_1_to_3() {
        assert_eq!(add(0xffff, 1), (0, 0x30));
        assert_eq!(add(0x7fff, 1), (0x8000, 0xc0));
        assert_eq!(sub(0, 1), (0xffff, 0x60));
    }

    #[test]
    fn marked_examples_4_and_5() {
        assert_eq!(cmps(0x8000, 0x7fff), (0, 0x60));
        assert_eq!(cmpu(0x8000, 0x7fff), (0, 0));
    }

    #[test]
    fn marked_examples_7_and_8() {
        assert_eq!(dec2(0, 0x8001), (0x7fff, 0x80));
        assert_eq!(shra(0xffff, 1), (0xffff, 0xe0));
    }

    /// The source's notes in brackets agree with adding and subtracting.
    #[test]
    fn increments_and_decrements_are_sums() {
        for word in 0..=0xffff {
            assert_eq!(inc1(0x5555, word), add(word, 1));
            assert_eq!(inc2(0x5555, word), add(word, 2));
            assert_eq!(dec1(0x5555, word), sub(word, 1));
            assert_eq!(dec2(0x5555, word), sub(word, 2));
        }
    }

    /// The bits agree with the operators of the language.
    #[test]
    fn bits_agree_with_operators() {
        let other = 0x5a3c;
        for word in 0..=0xffffu16 {
            assert_eq!(and(word, other).0, word & other);
            assert_eq!(or(word, other).0, word | other);
            assert_eq!(xor(word, other).0, word ^ other);
            assert_eq!(not(other, word).0, !word);
            assert_eq!(rev(other, word).0, word.reverse_bits());
        }
    }

    /// The shifted bits agree with the operators of the language.
    #[test]
    fn shifts_agree_with_operators() {
        for word in 0..=0xffffu16 {
            for count in 0..16 {
                let s = 0xab30 + count;
                assert_eq!(shl(word, s).0, word << count);
                assert_eq!(shr(word, s).0, word >> count);
                assert_eq!(shra(word, s).0, ((word as i16) >> count) as u16);
            }
        }
    }

    #[test]
    fn shift_flags() {
        assert_eq!(shl(0x8000, 1), (0, Z | C | O));
        assert_eq!(shl(0x8000, 2), (0, Z | O));
        assert_eq!(shl(0x4000, 2), (0, Z | C));
        assert_eq!(shl(0x0002, 15), (0, Z | C));
        assert_eq!(shl(0xc000, 0x11), (0x8000, C | S));
        assert_eq!(shr(0x8001, 1), (0x4000, C | O));
        assert_eq!(shr(0x8001, 16), (0x8001, S));
        assert_eq!(shr(0x0006, 2), (0x0001, C));
        assert_eq!(shr(0x4000, 15), (0, Z | C));
        assert_eq!(shra(0xffff, 2), (0xffff, C | S));
        assert_eq!(shra(0x8001, 2), (0xe000, S));
        assert_eq!(shra(0xbfff, 15), (0xffff, S));
        assert_eq!(shra(0x8001, 1), (0xc000, C | S));
        assert_eq!(shra(0x0001, 1), (0, Z | C));
    }

    /// The bit that goes out last agrees with the place where it stood.
    #[test]
    fn carries_of_shifts_agree_with_places() {
        for word in 0..=0xffffu16 {
            for count in 1..16 {
                let high = (word >> (16 - count) & 1) << 5;
                let low = (word >> (count - 1) & 1) << 5;
                assert_eq!(shl(word, count).1 & C, high);
                assert_eq!(shr(word, count).1 & C, low);
                assert_eq!(shra(word, count).1 & C, low);
            }
            for operation in [shl, shr, shra] {
                assert_eq!(operation(word, 0).1 & C, 0);
            }
        }
    }

    #[test]
    fn equal_compares() {
        assert_eq!(cmpu(7, 7), (0, Z | C));
        assert_eq!(cmps(0x8000, 0x8000), (0, Z | C));
        assert_eq!(cmps(1, 0xffff), (0, 0));
        assert_eq!(cmpu(1, 0xffff), (0, C | S));
    }
}
