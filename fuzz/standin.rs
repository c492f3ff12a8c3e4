//! A library with the boundary's names over the benchmark's emulator, to stand in for the proved one: the harness and the fuzzer can be tried
//! without it, the fuzzer tests the emulator itself, and a copy with a fault shows that the fuzzer finds faults.
//!
//! `MB50_BROKEN`, when this is compiled, names the fault: `flag`, `journal`, `guard`, `state`, `watch`, `hits`, one of those of a pen, which
//! `broken_pen` has, or one of the protected stretch: `last`, `word`, `bus`, `old`, `device`, `poked` and `hit`, which `drops.rs` has, and `given`, by
//! which a reset forgets the stretch. Each shows only now and then.

mod drops;

#[path = "../bench/emulator/mod.rs"]
#[allow(dead_code)]
mod emulator;

use emulator::pens::Pen;
use emulator::{boundary, Entry, State};
use std::slice::{from_raw_parts, from_raw_parts_mut};

/// The fault of this copy.
const BROKEN: &str = match option_env!("MB50_BROKEN") {
    Some(name) => name,
    None => "",
};

/// A function of the library over the emulator's.
macro_rules! export {
    ($name:ident, $call:ident $(, $argument:ident: $type:ty)*) => {
        /// # Safety
        /// The boundary's own terms.
        #[no_mangle]
        pub unsafe extern "C" fn $name(
            state: *mut u16,
            ram: *mut u8,
            n: usize,
            journal: *mut u16,
            m: usize,
            $($argument: $type,)*
        ) -> u64 {
            boundary::$call(state, ram, n, journal, m, $($argument),*)
        }
    };
}

export!(mb50_tick, tick);
export!(mb50_receive, receive, byte: u8);
export!(mb50_sent, sent);
export!(mb50_set_register, set_register, number: u8, content: u16);
export!(mb50_run, run, budget: u16);

/// # Safety
/// The boundary's own terms.
#[no_mangle]
pub unsafe extern "C" fn mb50_step(
    state: *mut u16,
    ram: *mut u8,
    n: usize,
    journal: *mut u16,
    m: usize,
) -> u64 {
    if BROKEN.is_empty() {
        return boundary::step(state, ram, n, journal, m);
    }
    let state = &mut *state.cast::<State>();
    let (ram, journal) = (from_raw_parts_mut(ram, n), from_raw_parts_mut(journal, m));
    broken_step(state, ram, journal)
}

/// The faults of a lone step: dec2 leaves o 0, a word's old upper byte is not kept, and those of the stretch.
fn broken_step(state: &mut State, ram: &mut [u8], journal: &mut [u16]) -> u64 {
    let before = *state;
    let opcode = ram.get(usize::from(before[15])).copied();
    if BROKEN == "last" {
        drops::narrow(state);
    }
    let result = emulator::step(state, ram, journal);
    state[30..].copy_from_slice(&before[30..]);
    if result & 0xffff != 0 {
        return result;
    }
    if BROKEN == "flag" && opcode == Some(0x06) {
        state[14] &= !0x80;
    }
    let start = 32 * usize::from(before[25]);
    match journal.get_mut(start..start + 32) {
        Some(record) if BROKEN == "journal" => {
            record[27] &= 0x00ff;
            result
        }
        Some(record) => drops::spoil_step(BROKEN, result, state, ram, record),
        None => result,
    }
}

/// # Safety
/// The boundary's own terms.
#[no_mangle]
pub unsafe extern "C" fn mb50_poke(
    state: *mut u16,
    ram: *mut u8,
    n: usize,
    journal: *mut u16,
    m: usize,
    address: u16,
    byte: u8,
) -> u64 {
    let kept = drops::kept(from_raw_parts(state, 32), from_raw_parts(ram, n), address);
    let result = boundary::poke(state, ram, n, journal, m, address, byte);
    if let ("poked", Some(kept)) = (BROKEN, kept) {
        from_raw_parts_mut(ram, n)[usize::from(address)] = kept;
    }
    result
}

/// # Safety
/// The boundary's own terms.
#[no_mangle]
pub unsafe extern "C" fn mb50_reset(
    state: *mut u16,
    ram: *mut u8,
    n: usize,
    journal: *mut u16,
    m: usize,
) -> u64 {
    let result = boundary::reset(state, ram, n, journal, m);
    if BROKEN == "given" && result == 0 {
        from_raw_parts_mut(state, 32)[30..].fill(0);
    }
    result
}

/// # Safety
/// The boundary's own terms.
#[no_mangle]
pub unsafe extern "C" fn mb50_step_back(
    state: *mut u16,
    ram: *mut u8,
    n: usize,
    journal: *mut u16,
    m: usize,
) -> u64 {
    let word = *state.add(29);
    let result = boundary::step_back(state, ram, n, journal, m);
    if BROKEN == "state" && result == 0 {
        *state.add(29) = word;
    }
    result
}

/// # Safety
/// The boundary's own terms.
#[no_mangle]
pub unsafe extern "C" fn mb50_run_watched(
    state: *mut u16,
    ram: *mut u8,
    n: usize,
    journal: *mut u16,
    m: usize,
    list: *mut Entry,
    entries: usize,
    budget: u16,
) -> u64 {
    if BROKEN == "hit" && budget > 0 {
        let (state, ram) = (&mut *state.cast::<State>(), from_raw_parts_mut(ram, n));
        let (journal, list) = (
            from_raw_parts_mut(journal, m),
            from_raw_parts_mut(list, entries),
        );
        if let Some(result) = stops_by_drop(state, ram, journal, list) {
            return result;
        }
    }
    let before = from_raw_parts(list, entries).to_vec();
    let result = boundary::run_watched(state, ram, n, journal, m, list, entries, budget);
    if BROKEN.is_empty() || result & 0xffff != 0 {
        return result;
    }
    let (state, journal) = (from_raw_parts(state, 32), from_raw_parts(journal, m));
    let list = from_raw_parts_mut(list, entries);
    match (BROKEN, result >> 56 & 3) {
        ("hits", BY_BUDGET) => count_breaks(state[15], list),
        ("watch", BY_WATCH) if !meets_first(state, journal, list) => {
            list.copy_from_slice(&before);
            return result & 0x00ff_ffff_ffff_ffff;
        }
        _ => {}
    }
    result
}

/// A fault of the watched run: its first step stops it by a dropped byte. Where it does not, nothing changes.
fn stops_by_drop(
    state: &mut State,
    ram: &mut [u8],
    journal: &mut [u16],
    list: &mut [Entry],
) -> Option<u64> {
    let next = usize::from(state[25]);
    let (mut words, mut bytes, mut records) = (*state, ram.to_vec(), journal.to_vec());
    let mut entries = list.to_vec();
    let result = emulator::run_watched(&mut words, &mut bytes, &mut records, &mut entries, 1);
    let record = records.get(32 * next..32 * next + 32)?;
    if result & 0xffff != 0 || result >> 16 & 0xffff == 0 || result >> 56 != BY_BUDGET {
        return None;
    }
    let place = drops::hit(&words, &bytes, record, &mut entries)?;
    *state = words;
    ram.copy_from_slice(&bytes);
    journal.copy_from_slice(&records);
    list.copy_from_slice(&entries);
    Some(result | BY_WATCH << 56 | place << 58)
}

/// Why a watched run stopped, as its result has it.
const BY_BUDGET: u64 = 0;
const BY_WATCH: u64 = 2;

/// Another: breaks where the budget ended are counted.
fn count_breaks(pc: u16, list: &mut [Entry]) {
    for entry in list.iter_mut().filter(|entry| entry[..2] == [pc, 1]) {
        entry[2] = entry[2].saturating_add(1);
    }
}

/// Another: only the first byte of a store is looked for, which the newest record has. Without a journal the fault does not show.
fn meets_first(state: &[u16], journal: &[u16], list: &[Entry]) -> bool {
    let slots = journal.len() / 32;
    if slots == 0 {
        return true;
    }
    let newest = (usize::from(state[25]) + slots - 1) % slots;
    let first = journal[32 * newest + 26];
    list.iter().any(|entry| entry[..2] == [first, 2])
}

/// # Safety
/// The boundary's own terms.
#[no_mangle]
pub unsafe extern "C" fn mb50_pen(
    state: *mut u16,
    ram: *mut u8,
    n: usize,
    journal: *mut u16,
    m: usize,
    line: *mut u8,
    digits: usize,
    today: *mut u8,
    a: usize,
    last_good: *mut u8,
    b: usize,
    setup: *mut u16,
    words: usize,
) -> u64 {
    if BROKEN.is_empty() {
        return boundary::pen(
            state, ram, n, journal, m, line, digits, today, a, last_good, b, setup, words,
        );
    }
    let state = &mut *state.cast::<State>();
    let (ram, journal) = (from_raw_parts_mut(ram, n), from_raw_parts_mut(journal, m));
    let pen = Pen {
        line: from_raw_parts(line, digits),
        today: from_raw_parts(today, a),
        last_good: from_raw_parts(last_good, b),
        setup: from_raw_parts(setup, words),
    };
    broken_pen(state, ram, journal, pen)
}

/// The faults of a pen: `lists` has the last good manifest first, `order` 81 before 80, `touch` pokes though the pen is refused, `answer` tells r1,
/// `closing` leaves the closing 0 out, `wide` takes a register's number modulo 256, `return` drops a carriage return after the pen's number.
fn broken_pen(state: &mut State, ram: &mut [u8], journal: &mut [u16], pen: Pen) -> u64 {
    let mut setup = pen.setup.to_vec();
    let mut given = pen;
    match BROKEN {
        "lists" => std::mem::swap(&mut given.today, &mut given.last_good),
        "wide" => setup
            .iter_mut()
            .skip(3)
            .step_by(2)
            .for_each(|number| *number %= 256),
        "return" => given.line = given.line.strip_suffix(b"\r").unwrap_or(given.line),
        _ => {}
    }
    let before = ram.to_vec();
    let pen = Pen {
        setup: &setup,
        ..given
    };
    let result = emulator::pen(state, ram, journal, &pen);
    let text = String::from_utf8_lossy(pen.name().unwrap_or_default());
    let address = usize::from(setup.first().copied().unwrap_or(0));
    let end = address + text.chars().count();
    match (BROKEN, result & 0xffff) {
        ("order", 80) if text.chars().any(|letter| letter == '\0' || is_wide(letter)) => 81,
        ("touch", 82) if address < ram.len() => {
            ram[address] = text.bytes().next().unwrap_or(0);
            result
        }
        ("answer", 0) => result & 0xffff_ffff_0000_ffff | u64::from(state[1]) << 16,
        ("closing", 0) => {
            ram[end] = before[end];
            result
        }
        _ => result,
    }
}

/// Whether a letter is over 0xff, and not one that stands for a fault.
fn is_wide(letter: char) -> bool {
    letter > '\u{ff}' && letter != char::REPLACEMENT_CHARACTER
}

/// # Safety
/// The boundary's own terms, but for the fault that writes past the output.
#[no_mangle]
pub unsafe extern "C" fn mb50_list(word: u16, out: *mut u8, n: usize) -> u64 {
    let result = boundary::list(word, out, n);
    if BROKEN == "guard" && result == (n as u64) << 16 {
        *out.add(n) = 0;
    }
    result
}

/// # Safety
/// The boundary's own terms.
#[no_mangle]
pub unsafe extern "C" fn mb50_assemble(line: *mut u8, n: usize) -> u64 {
    boundary::assemble(line, n)
}
