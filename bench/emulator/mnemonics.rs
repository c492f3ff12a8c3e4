//! The mnemonics, in a table by opcode for listing and in a hash table by name for assembling. Both are made when this is compiled.

/// The mnemonic of an opcode with the blank after it, and how long that is; 0 for an opcode that is not listed.
#[derive(Clone, Copy)]
pub struct Mnemonic {
    pub text: [u8; 8],
    pub length: usize,
}

/// All mnemonics by opcode.
pub static BY_OPCODE: [Mnemonic; 256] = by_opcode();

const NONE: Mnemonic = Mnemonic {
    text: [0; 8],
    length: 0,
};

const UNCONDITIONAL: [(usize, &str); 28] = [
    (0x00, "ill"),
    (0x01, "add"),
    (0x02, "and"),
    (0x03, "csrr"),
    (0x04, "csrw"),
    (0x05, "dec1"),
    (0x06, "dec2"),
    (0x07, "exch"),
    (0x08, "inc1"),
    (0x09, "inc2"),
    (0x0a, "ld"),
    (0x0b, "ldb"),
    (0x0c, "ldis"),
    (0x0e, "mv"),
    (0x10, "not"),
    (0x11, "or"),
    (0x12, "shl"),
    (0x13, "shr"),
    (0x14, "shra"),
    (0x15, "sto"),
    (0x16, "stob"),
    (0x17, "ddsto"),
    (0x18, "sub"),
    (0x19, "cmpu"),
    (0x1a, "xor"),
    (0x1b, "cmps"),
    (0x1c, "reti"),
    (0x1d, "rev"),
];

/// By the low nibble of a conditional opcode.
const CONDITIONS: [&str; 16] = [
    "nf0", "nf1", "nf2", "nf3", "nz", "nc", "ns", "no", "f0", "f1", "f2", "f3", "z", "c", "s", "o",
];

/// The mnemonic with these letters behind it.
const fn with(mut mnemonic: Mnemonic, letters: &str) -> Mnemonic {
    let letters = letters.as_bytes();
    let mut index = 0;
    while index < letters.len() {
        mnemonic.text[mnemonic.length] = letters[index];
        mnemonic.length += 1;
        index += 1;
    }
    mnemonic
}

const fn by_opcode() -> [Mnemonic; 256] {
    let mut table = [NONE; 256];
    let mut index = 0;
    while index < UNCONDITIONAL.len() {
        let (opcode, name) = UNCONDITIONAL[index];
        table[opcode] = with(with(NONE, name), " ");
        index += 1;
    }
    let mut code = 0;
    while code < 16 {
        let condition = CONDITIONS[code];
        table[0x90 + code] = with(with(with(NONE, "ld"), condition), " ");
        table[0xa0 + code] = with(with(with(NONE, "ld"), condition), "is ");
        table[0xc0 + code] = with(with(with(NONE, "mv"), condition), " ");
        code += 1;
    }
    table
}

/// Open addressing: a name's place is the first free one from its hash on.
static BY_NAME: [(u64, u8); 256] = by_name();

/// The bytes of a name as one number, in lower case; 0 for a name that is longer than any mnemonic. Setting bit 5 makes letters lower case,
/// leaves digits, and makes the underscore a byte that no mnemonic has.
#[inline(always)]
fn key(name: &[u8]) -> u64 {
    if name.len() > 7 {
        return 0;
    }
    name.iter()
        .fold(0, |key, byte| key << 8 | u64::from(byte | 0x20))
}

const fn hash(key: u64) -> usize {
    (key.wrapping_mul(0x9e37_79b9_7f4a_7c15) >> 56) as usize
}

const fn by_name() -> [(u64, u8); 256] {
    let table = by_opcode();
    let mut places = [(0, 0); 256];
    let mut opcode = 0;
    while opcode < 256 {
        let mut key = 0;
        let mut index = 0;
        while index + 1 < table[opcode].length {
            key = key << 8 | table[opcode].text[index] as u64;
            index += 1;
        }
        let mut place = hash(key);
        while key != 0 && places[place].0 != 0 {
            place = (place + 1) % 256;
        }
        if key != 0 {
            places[place] = (key, opcode as u8);
        }
        opcode += 1;
    }
    places
}

/// The opcode with this mnemonic.
#[inline(always)]
pub fn opcode(name: &[u8]) -> Option<u8> {
    let key = key(name);
    let mut place = hash(key);
    loop {
        match BY_NAME[place] {
            (0, _) => return None,
            (found, opcode) if found == key => return Some(opcode),
            _ => place = (place + 1) % 256,
        }
    }
}
