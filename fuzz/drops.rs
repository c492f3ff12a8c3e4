//! The faults of the stand-in library that are of the protected stretch. Those of a lone step are made from its record, so that they do not show
//! without a journal.

use crate::emulator::Entry;

/// Where the state has the first and the last protected address.
const FIRST: usize = 30;
const LAST: usize = 31;

/// The device registers that a store changes.
const TXD: u16 = 0xffe0;
const RXD: u16 = 0xffe1;

const WATCH: u16 = 2;

/// `last`: the last address is left out.
pub fn narrow(state: &mut [u16]) {
    match state[LAST] {
        0 => state[FIRST] = 1,
        last => state[LAST] = last - 1,
    }
}

fn is_protected(state: &[u16], address: u16) -> bool {
    state[FIRST] <= address && address <= state[LAST]
}

/// The addresses of the bytes that a record counts.
fn written(record: &[u16]) -> impl Iterator<Item = u16> + '_ {
    (0..record[25]).map(|offset| record[26].wrapping_add(offset))
}

/// Whether each of these bytes was dropped.
fn dropped(state: &[u16], ram: &[u8], record: &[u16]) -> Vec<bool> {
    let is_dropped = |at: u16| is_protected(state, at) && usize::from(at) < ram.len();
    written(record).map(is_dropped).collect()
}

/// A lone step with a fault: `word` drops both bytes of a word where one is protected, `bus` does not count dropped bytes, `old` keeps 0 for them,
/// `device` drops what is for a device in the stretch. The result.
pub fn spoil_step(
    fault: &str,
    result: u64,
    state: &mut [u16],
    ram: &mut [u8],
    record: &mut [u16],
) -> u64 {
    let dropped = dropped(state, ram, record);
    let addresses: Vec<u16> = written(record).collect();
    let old = record[27].to_le_bytes();
    match fault {
        "word" if dropped.contains(&true) => {
            for (address, byte) in addresses.iter().zip(old) {
                if let Some(place) = ram.get_mut(usize::from(*address)) {
                    *place = byte;
                }
            }
        }
        "bus" => {
            let count = dropped.iter().filter(|is_so| **is_so).count() as u64;
            return result - (count << 32);
        }
        "old" => {
            let kept = [0, 1].map(|index| match dropped.get(index) {
                Some(true) => 0,
                _ => old[index],
            });
            record[27] = u16::from_le_bytes(kept);
        }
        "device" => {
            let is_such = |at: &u16| [TXD, RXD].contains(at) && is_protected(state, *at);
            if addresses.iter().any(is_such) {
                state[23] = record[23];
                state[24] = state[24] & 4 | record[24] & 3;
            }
        }
        _ => {}
    }
    result
}

/// `poked`: a poke is dropped as a store is. What stood there, if it is to be put back.
pub fn kept(state: &[u16], ram: &[u8], address: u16) -> Option<u8> {
    let byte = ram.get(usize::from(address)).copied();
    byte.filter(|_| is_protected(state, address))
}

/// `hit`: a watch is hit by a dropped byte. After a run of one step that no entry stopped: whether it is so, with the hits then counted, and the
/// place of the first entry.
pub fn hit(state: &[u16], ram: &[u8], record: &[u16], list: &mut [Entry]) -> Option<u64> {
    let dropped = dropped(state, ram, record);
    let met: Vec<u16> = written(record)
        .zip(dropped)
        .filter_map(|(address, is_so)| is_so.then_some(address))
        .collect();
    let mut named = None;
    for (place, [address, kind, hits]) in list.iter_mut().enumerate() {
        if *kind == WATCH && met.contains(address) {
            *hits = hits.saturating_add(1);
            named = named.or(Some(place as u64));
        }
    }
    named
}
