//! The bus: what is read and written at each address.
//!
//! "Addresses below the RAM length are RAM. 0xffe0 TXD (reads 0), 0xffe1 RXD,
//! 0xffe2 READY (R in bit 0, T in bit 1), 0xfff0/0xfff1 clock low/high.
//! Anything else reads 0 and ignores writes (house)."

/// The address of TXD.
pub const TXD: u16 = 0xffe0;
/// The address of RXD.
pub const RXD: u16 = 0xffe1;
/// The address of READY.
pub const READY: u16 = 0xffe2;
/// The address of the clock's low byte.
pub const CLOCK_LOW: u16 = 0xfff0;
/// The address of the clock's high byte.
pub const CLOCK_HIGH: u16 = 0xfff1;

/// "Clock counter (16 bits), RXD, TXD, ready bits R and T".
#[derive(Clone, Copy, Debug, PartialEq, Eq)]
pub struct Devices {
    /// The clock counter.
    pub clock: u16,
    /// The byte received.
    pub rxd: u8,
    /// The byte to transmit.
    pub txd: u8,
    /// "1 if there is an unacknowledged byte in `RXD`"
    pub r: bool,
    /// "1 if a new byte can be sent to the keyboard"
    pub t: bool,
}

/// The addresses that instructions cannot write, change request Q-4: "a first
/// and last protected address, fixed at start".
#[derive(Clone, Copy, Debug, PartialEq, Eq)]
pub struct Stretch {
    /// The first protected address.
    pub first: u16,
    /// The last protected address.
    pub last: u16,
}

impl Stretch {
    /// "first above last means none"
    pub const NONE: Stretch = Stretch { first: 1, last: 0 };

    /// Whether a store to this address is dropped: "A store by an instruction
    /// to a protected RAM byte is dropped". What is not RAM is stored to as
    /// before.
    pub fn drops(self, ram: &[u8], address: u16) -> bool {
        let is_protected = self.first <= address && address <= self.last;
        is_protected && usize::from(address) < ram.len()
    }
}

/// The bytes that an input writes through memory, as a record keeps them. "Bus
/// bytes and journal records count dropped bytes as before".
#[derive(Clone, Copy, Debug, Default, PartialEq, Eq)]
pub struct Written {
    /// "bytes written by the input, a store or a poke, through memory (0, 1,
    /// 2; ignored ones count)"
    pub count: u16,
    /// "first address"; 0 if nothing is written.
    pub first: u16,
    /// "old first byte + 256·old second (0 where not RAM or not written)"; it
    /// "keeps a dropped byte's old value as for one written"
    pub old: u16,
}

/// The byte of RAM at an address, or 0 "where not RAM".
pub fn ram_byte(ram: &[u8], address: u16) -> u8 {
    ram.get(usize::from(address)).copied().unwrap_or(0)
}

impl Devices {
    /// "clock, RXD, TXD are 0; R=0, T=1"
    pub fn new() -> Devices {
        Devices {
            clock: 0,
            rxd: 0,
            txd: 0,
            r: false,
            t: true,
        }
    }

    /// The byte read at an address.
    pub fn read_byte(&self, ram: &[u8], address: u16) -> u8 {
        match ram.get(usize::from(address)) {
            Some(byte) => *byte,
            None => self.read_register(address),
        }
    }

    /// The word read at an address: "Low byte first; odd addresses are fine;
    /// every address sum [...] is taken modulo 65,536."
    pub fn read_word(&self, ram: &[u8], address: u16) -> u16 {
        let low = self.read_byte(ram, address);
        let high = self.read_byte(ram, address.wrapping_add(1));
        u16::from_le_bytes([low, high])
    }

    /// Writes one byte, as an instruction does.
    pub fn write_byte(
        &mut self,
        ram: &mut [u8],
        stretch: Stretch,
        address: u16,
        byte: u8,
    ) -> Written {
        let old = u16::from(ram_byte(ram, address));
        self.put_byte(ram, stretch, address, byte);
        Written {
            count: 1,
            first: address,
            old,
        }
    }

    /// Writes one word, as an instruction does: "A word is written lower
    /// address first, then the next." Of a word with one protected byte "the
    /// word's other byte still goes in".
    pub fn write_word(
        &mut self,
        ram: &mut [u8],
        stretch: Stretch,
        address: u16,
        word: u16,
    ) -> Written {
        let next = address.wrapping_add(1);
        let old = u16::from_le_bytes([ram_byte(ram, address), ram_byte(ram, next)]);
        let [low, high] = word.to_le_bytes();
        self.put_byte(ram, stretch, address, low);
        self.put_byte(ram, stretch, next, high);
        Written {
            count: 2,
            first: address,
            old,
        }
    }

    /// The byte read at an address that is not RAM.
    fn read_register(&self, address: u16) -> u8 {
        let [clock_low, clock_high] = self.clock.to_le_bytes();
        match address {
            RXD => self.rxd,
            READY => u8::from(self.r) + 2 * u8::from(self.t),
            CLOCK_LOW => clock_low,
            CLOCK_HIGH => clock_high,
            _ => 0,
        }
    }

    /// Puts a byte where the address says, unless it is dropped.
    fn put_byte(&mut self, ram: &mut [u8], stretch: Stretch, address: u16, byte: u8) {
        if stretch.drops(ram, address) {
            return;
        }
        match ram.get_mut(usize::from(address)) {
            Some(place) => *place = byte,
            None => self.write_register(address, byte),
        }
    }

    /// Writes at an address that is not RAM: "Writing RXD sets R=0 and keeps
    /// the byte. Writing TXD with T=1 stores the byte and sets T=0; with T=0
    /// it is ignored; writes to READY and the clock are ignored (house)."
    fn write_register(&mut self, address: u16, byte: u8) {
        match address {
            TXD if self.t => {
                self.txd = byte;
                self.t = false;
            }
            RXD => self.r = false,
            _ => {}
        }
    }
}

#[cfg(test)]
mod tests {
    use super::*;

    /// Devices whose every register differs from 0.
    fn busy() -> Devices {
        Devices {
            clock: 0xc1c0,
            rxd: 0x5a,
            txd: 0xa5,
            r: true,
            t: false,
        }
    }

    #[test]
    fn device_registers_read() {
        let devices = busy();
        assert_eq!(devices.read_byte(&[], TXD), 0);
        assert_eq!(devices.read_byte(&[], RXD), 0x5a);
        assert_eq!(devices.read_byte(&[], READY), 1);
        assert_eq!(devices.read_byte(&[], CLOCK_LOW), 0xc0);
        assert_eq!(devices.read_byte(&[], CLOCK_HIGH), 0xc1);
        assert_eq!(Devices::new().read_byte(&[], READY), 2);
    }

    #[test]
    fn everything_else_reads_0() {
        let devices = busy();
        for address in 0..=u16::MAX {
            if ![RXD, READY, CLOCK_LOW, CLOCK_HIGH].contains(&address) {
                assert_eq!(devices.read_byte(&[], address), 0);
            }
        }
    }

    #[test]
    fn words_across_device_registers() {
        let devices = busy();
        let ram = [0x77; 65_504];
        assert_eq!(devices.read_word(&ram, 0xffde), 0x7777);
        assert_eq!(devices.read_word(&ram, 0xffdf), 0x0077);
        assert_eq!(devices.read_word(&ram, TXD), 0x5a00);
        assert_eq!(devices.read_word(&ram, RXD), 0x015a);
        assert_eq!(devices.read_word(&ram, READY), 0x0001);
        assert_eq!(devices.read_word(&ram, 0xffef), 0xc000);
        assert_eq!(devices.read_word(&ram, CLOCK_LOW), 0xc1c0);
        assert_eq!(devices.read_word(&ram, CLOCK_HIGH), 0x00c1);
        assert_eq!(devices.read_word(&ram, 0xfff2), 0);
        assert_eq!(devices.read_word(&ram, 0xffff), 0x7700);
    }

    /// "Treating 0xffff as the end of memory for a word" is a slip.
    #[test]
    fn a_word_at_the_last_address_goes_on_at_0() {
        let mut devices = Devices::new();
        let mut ram = [0x11, 0x22];
        assert_eq!(devices.read_word(&ram, 0xffff), 0x1100);
        let written = devices.write_word(&mut ram, Stretch::NONE, 0xffff, 0xabcd);
        assert_eq!(ram, [0xab, 0x22]);
        assert_eq!((written.count, written.first), (2, 0xffff));
        assert_eq!(written.old, 0x1100);
    }

    #[test]
    fn a_word_at_the_last_byte_of_ram() {
        let mut devices = Devices::new();
        let mut ram = [0x11, 0x22, 0x33];
        assert_eq!(devices.read_word(&ram, 2), 0x0033);
        let written = devices.write_word(&mut ram, Stretch::NONE, 2, 0xabcd);
        assert_eq!(ram, [0x11, 0x22, 0xcd]);
        assert_eq!(written.old, 0x0033);
        let written = devices.write_word(&mut ram, Stretch::NONE, 3, 0xabcd);
        assert_eq!(ram, [0x11, 0x22, 0xcd]);
        assert_eq!((written.count, written.first, written.old), (2, 3, 0));
        assert_eq!(devices, Devices::new());
    }

    #[test]
    fn txd_is_stored_only_when_ready() {
        let mut devices = Devices::new();
        devices.write_byte(&mut [], Stretch::NONE, TXD, 0x42);
        assert_eq!((devices.txd, devices.t), (0x42, false));
        let written = devices.write_byte(&mut [], Stretch::NONE, TXD, 0x43);
        assert_eq!((devices.txd, devices.t), (0x42, false));
        assert_eq!((written.count, written.first, written.old), (1, TXD, 0));
    }

    #[test]
    fn writing_rxd_acknowledges_and_keeps_the_byte() {
        let mut devices = busy();
        devices.write_byte(&mut [], Stretch::NONE, RXD, 0x99);
        assert_eq!((devices.rxd, devices.r), (0x5a, false));
    }

    #[test]
    fn a_word_at_txd_reaches_rxd_too() {
        let mut devices = busy();
        devices.t = true;
        devices.write_word(&mut [], Stretch::NONE, TXD, 0x1234);
        assert_eq!((devices.txd, devices.t), (0x34, false));
        assert_eq!((devices.rxd, devices.r), (0x5a, false));
    }

    #[test]
    fn a_word_before_txd_gives_it_the_upper_byte() {
        let mut devices = Devices::new();
        let mut ram = [0; 65_504];
        devices.write_word(&mut ram, Stretch::NONE, 0xffdf, 0x1234);
        assert_eq!(ram[0xffdf], 0x34);
        assert_eq!((devices.txd, devices.t), (0x12, false));
    }

    #[test]
    fn other_writes_are_ignored() {
        let mut devices = busy();
        for address in 0..=u16::MAX {
            if address != TXD && address != RXD {
                devices.write_byte(&mut [], Stretch::NONE, address, 0xee);
            }
        }
        assert_eq!(devices, busy());
    }
}
