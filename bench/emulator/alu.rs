//! The value and the flags of each computation, on machine words throughout.

/// The flags that computations set: z, c, s and o.
pub const COMPUTED: u16 = 0x00f0;

/// A value for the destination with its flags.
type Computed = (u16, u16);

/// A value with z and s as it has them, and c and o as given. The flags are shifted into place rather than chosen by branches.
#[inline(always)]
fn flagged(value: u16, c: bool, o: bool) -> Computed {
    let z = u16::from(value == 0) << 4;
    let s = (value >> 15) << 6;
    (value, z | u16::from(c) << 5 | s | u16::from(o) << 7)
}

#[inline(always)]
pub fn add(d: u16, s: u16) -> Computed {
    let (value, carry) = d.overflowing_add(s);
    flagged(value, carry, (d ^ value) & (s ^ value) & 0x8000 != 0)
}

#[inline(always)]
pub fn sub(d: u16, s: u16) -> Computed {
    let (value, borrow) = d.overflowing_sub(s);
    flagged(value, borrow, (d ^ s) & (d ^ value) & 0x8000 != 0)
}

/// Of and, or, xor, not and rev: c and o are 0.
#[inline(always)]
pub fn logic(value: u16) -> Computed {
    flagged(value, false, false)
}

/// c is the last bit shifted out, and 0 where the count is 0: after a shift in 32 bits it stands just above the word.
#[inline(always)]
pub fn shl(d: u16, s: u16) -> Computed {
    let wide = u32::from(d) << (s & 15);
    let value = wide as u16;
    flagged(value, wide & 0x10000 != 0, (d ^ value) & 0x8000 != 0)
}

/// The last bit shifted out to the right: that of the doubled word which comes to stand lowest, 0 where the count is 0.
#[inline(always)]
fn last_right(d: u16, count: u16) -> bool {
    u32::from(d) << 1 >> count & 1 != 0
}

#[inline(always)]
pub fn shr(d: u16, s: u16) -> Computed {
    let count = s & 15;
    let value = d >> count;
    flagged(value, last_right(d, count), (d ^ value) & 0x8000 != 0)
}

#[inline(always)]
pub fn shra(d: u16, s: u16) -> Computed {
    let count = s & 15;
    let value = (d as i16 >> count) as u16;
    flagged(value, last_right(d, count), count == 1 && d == 0xffff)
}

/// The flags of a comparison of two words.
#[inline(always)]
pub fn compare<T: Ord>(d: T, s: T) -> u16 {
    u16::from(d == s) << 4 | u16::from(d <= s) << 5 | u16::from(d < s) << 6
}
