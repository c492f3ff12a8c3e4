//! What the vectors are made with: a digest and a generator of pseudo-random
//! numbers. The vectors themselves are in the files below `vectors`.

pub mod calls;
mod desk;
mod edges;
mod faults;
mod firmware;
mod hunts;
pub mod images;
pub mod isa;
pub mod lines;
mod manifests;
pub mod nights;
mod points;
mod programs;
mod script;
pub mod steps;
mod stops;
mod stretches;
mod walks;
pub mod watches;

/// A digest of a series of numbers: it starts at 1, and absorbing `x` makes it
/// `(h * 65599 + x) mod 4294967291`.
pub struct Digest(u64);

impl Digest {
    /// The digest of no numbers.
    pub fn new() -> Digest {
        Digest(1)
    }

    /// Absorbs one number.
    pub fn absorb(&mut self, x: u16) {
        self.0 = (self.0 * 65_599 + u64::from(x)) % 4_294_967_291;
    }

    /// Absorbs three numbers at once: as one number of 48 bits, the first one
    /// lowest, which takes a third of the time of absorbing one by one.
    pub fn absorb_three(&mut self, a: u16, b: u16, c: u16) {
        let number = u64::from(a) + (u64::from(b) << 16) + (u64::from(c) << 32);
        self.0 = (self.0 * 65_599 + number) % 4_294_967_291;
    }

    /// Absorbs each byte as a number.
    pub fn absorb_bytes(&mut self, bytes: &[u8]) {
        for byte in bytes {
            self.absorb(u16::from(*byte));
        }
    }

    /// The digest as 8 lower-case hexadecimal digits.
    pub fn digits(&self) -> String {
        format!("{:08x}", self.0)
    }
}

/// A generator of pseudo-random numbers with a fixed start: a 64-bit linear
/// congruential generator of which the highest bits are taken.
pub struct Random(u64);

impl Random {
    /// The generator with this start.
    pub fn new(start: u64) -> Random {
        Random(start)
    }

    /// The next 16 bits.
    pub fn word(&mut self) -> u16 {
        self.0 = self
            .0
            .wrapping_mul(6_364_136_223_846_793_005)
            .wrapping_add(1_442_695_040_888_963_407);
        (self.0 >> 48) as u16
    }

    /// The next 8 bits.
    pub fn byte(&mut self) -> u8 {
        (self.word() >> 8) as u8
    }

    /// A number below the limit (at most 65,536).
    pub fn below(&mut self, limit: usize) -> usize {
        usize::from(self.word()) * limit / 65_536
    }

    /// One of the given things.
    pub fn pick<T: Copy>(&mut self, things: &[T]) -> T {
        things[self.below(things.len())]
    }

    /// Brings things into another order.
    pub fn shuffle<T>(&mut self, things: &mut [T]) {
        for last in (1..things.len()).rev() {
            things.swap(last, self.below(last + 1));
        }
    }

    /// Some random bytes.
    pub fn bytes(&mut self, length: usize) -> Vec<u8> {
        (0..length).map(|_| self.byte()).collect()
    }

    /// Some bytes picked from an alphabet.
    pub fn bytes_of(&mut self, alphabet: &[u8], length: usize) -> Vec<u8> {
        (0..length).map(|_| self.pick(alphabet)).collect()
    }
}

#[cfg(test)]
mod tests {
    use super::*;

    #[test]
    fn digests() {
        let mut digest = Digest::new();
        assert_eq!(digest.digits(), "00000001");
        digest.absorb(0);
        assert_eq!(digest.digits(), "0001003f");
        digest.absorb(5);
        let expected = (65_599u64 * 65_599 + 5) % 4_294_967_291;
        assert_eq!(digest.digits(), format!("{expected:08x}"));
    }

    #[test]
    fn digests_of_three() {
        let mut digest = Digest::new();
        digest.absorb_three(1, 0, 0);
        assert_eq!(digest.digits(), format!("{:08x}", 65_600));
        digest.absorb_three(0xffff, 0xfffe, 0xfffd);
        let sum = 65_600u64 * 65_599 + 65_535 + 65_534 * 65_536 + 65_533 * 4_294_967_296;
        let expected = sum % 4_294_967_291;
        assert_eq!(digest.digits(), format!("{expected:08x}"));
    }
}
