//! The emulator's calls as C functions of the boundary's signatures, so that the harness calls it exactly as it calls the library.
//!
//! Each is safe to call under the boundary's own terms: the state has 32 words, each slice its length, and no pointer is null.

use super::pens::Pen;
use super::{Entry, State};
use std::slice::{from_raw_parts, from_raw_parts_mut};

/// A C function over the emulator's function of the same name, with what its call takes beside state, RAM and journal.
macro_rules! call {
    ($name:ident $(, $argument:ident: $type:ty)*) => {
        /// # Safety
        /// The boundary's own terms.
        pub unsafe extern "C" fn $name(
            state: *mut u16,
            ram: *mut u8,
            n: usize,
            journal: *mut u16,
            m: usize,
            $($argument: $type,)*
        ) -> u64 {
            let state = &mut *state.cast::<State>();
            let ram = from_raw_parts_mut(ram, n);
            super::$name(state, ram, from_raw_parts_mut(journal, m), $($argument),*)
        }
    };
}

call!(step);
call!(tick);
call!(receive, byte: u8);
call!(sent);
call!(set_register, number: u8, content: u16);
call!(poke, address: u16, byte: u8);
call!(reset);
call!(run, budget: u16);
call!(step_back);

/// # Safety
/// The boundary's own terms.
pub unsafe extern "C" fn run_watched(
    state: *mut u16,
    ram: *mut u8,
    n: usize,
    journal: *mut u16,
    m: usize,
    list: *mut Entry,
    entries: usize,
    budget: u16,
) -> u64 {
    let state = &mut *state.cast::<State>();
    let (ram, journal) = (from_raw_parts_mut(ram, n), from_raw_parts_mut(journal, m));
    super::run_watched(
        state,
        ram,
        journal,
        from_raw_parts_mut(list, entries),
        budget,
    )
}

/// # Safety
/// The boundary's own terms.
pub unsafe extern "C" fn pen(
    state: *mut u16,
    ram: *mut u8,
    n: usize,
    journal: *mut u16,
    m: usize,
    line: *mut u8,
    digits: usize,
    today: *mut u8,
    a: usize,
    last_good: *mut u8,
    b: usize,
    setup: *mut u16,
    words: usize,
) -> u64 {
    let state = &mut *state.cast::<State>();
    let (ram, journal) = (from_raw_parts_mut(ram, n), from_raw_parts_mut(journal, m));
    let pen = Pen {
        line: from_raw_parts(line, digits),
        today: from_raw_parts(today, a),
        last_good: from_raw_parts(last_good, b),
        setup: from_raw_parts(setup, words),
    };
    super::pen(state, ram, journal, &pen)
}

/// # Safety
/// The boundary's own terms.
pub unsafe extern "C" fn list(word: u16, out: *mut u8, n: usize) -> u64 {
    super::list(word, from_raw_parts_mut(out, n))
}

/// # Safety
/// The boundary's own terms.
pub unsafe extern "C" fn assemble(line: *mut u8, n: usize) -> u64 {
    super::assemble(from_raw_parts(line, n))
}
