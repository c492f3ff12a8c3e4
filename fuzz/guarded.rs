//! A slice with guards on both sides, which nobody may change.

/// How many elements a guard has.
const GUARD: usize = 64;

pub struct Guarded<T> {
    all: Vec<T>,
    guard: [T; GUARD],
}

impl<T: Copy + PartialEq> Guarded<T> {
    /// The content between two guards, which are filled with an element that content seldom has.
    pub fn new(content: &[T], filler: T) -> Guarded<T> {
        let guard = [filler; GUARD];
        Guarded {
            all: [&guard, content, &guard].concat(),
            guard,
        }
    }

    pub fn content(&self) -> &[T] {
        &self.all[GUARD..self.all.len() - GUARD]
    }

    pub fn content_mut(&mut self) -> &mut [T] {
        let end = self.all.len() - GUARD;
        &mut self.all[GUARD..end]
    }

    /// Where a guard has changed.
    pub fn broken(&self) -> Option<String> {
        let (before, rest) = self.all.split_at(GUARD);
        let after = &rest[rest.len() - GUARD..];
        if before == self.guard && after == self.guard {
            return None;
        }
        let changed = |guard: &[T]| (0..GUARD).find(|index| guard[*index] != self.guard[*index]);
        match (changed(before), changed(after)) {
            (Some(index), _) => Some(format!("before its start, at -{}", GUARD - index)),
            (_, Some(index)) => Some(format!("past its end, at +{index}")),
            _ => None,
        }
    }
}
