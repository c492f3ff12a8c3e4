//! The same machine twice, the library's between guards and the model's, and the comparison of the two after each call.

use crate::benches::Pen;
use crate::guarded::Guarded;
use crate::library::{self, Call, Entry, State, LINKED};
use crate::reference;
use std::fmt::LowerHex;

const BYTE_FILLER: u8 = 0xa7;
const WORD_FILLER: u16 = 0xa7b9;
const ENTRY_FILLER: Entry = [WORD_FILLER; 3];

/// Both machines. Between calls they are equal.
pub struct Desk {
    state: Guarded<u16>,
    ram: Guarded<u8>,
    journal: Guarded<u16>,
    model_state: State,
    model_ram: Vec<u8>,
    model_journal: Vec<u16>,
    /// What the last watched run that was accepted left of its list.
    list: Vec<Entry>,
    /// What the last pen was given.
    pen: Option<Pen>,
}

impl Desk {
    pub fn new(state: State, ram: Vec<u8>, journal: Vec<u16>) -> Desk {
        Desk {
            state: Guarded::new(&state, WORD_FILLER),
            ram: Guarded::new(&ram, BYTE_FILLER),
            journal: Guarded::new(&journal, WORD_FILLER),
            model_state: state,
            model_ram: ram,
            model_journal: journal,
            list: Vec::new(),
            pen: None,
        }
    }

    pub fn state(&self) -> &State {
        &self.model_state
    }

    pub fn ram(&self) -> &[u8] {
        &self.model_ram
    }

    pub fn journal(&self) -> &[u16] {
        &self.model_journal
    }

    /// Whether every call is refused, by 1 or 2.
    pub fn has_odd_length(&self) -> bool {
        let (ram, journal) = (self.model_ram.len(), self.model_journal.len());
        ram > 65_504 || journal % 32 != 0 || journal > 32_768
    }

    pub fn list(&self) -> &[Entry] {
        &self.list
    }

    pub fn pen(&self) -> Option<&Pen> {
        self.pen.as_ref()
    }

    pub fn set_state(&mut self, index: usize, word: u16) {
        self.model_state[index] = word;
        self.state.content_mut()[index] = word;
    }

    pub fn set_ram(&mut self, index: usize, byte: u8) {
        self.model_ram[index] = byte;
        self.ram.content_mut()[index] = byte;
    }

    pub fn set_journal(&mut self, index: usize, word: u16) {
        self.model_journal[index] = word;
        self.journal.content_mut()[index] = word;
    }

    /// Makes a call on both; the result, or what differs.
    pub fn call(&mut self, call: Call) -> Result<u64, Vec<String>> {
        let (ram, journal) = (self.ram.content_mut(), self.journal.content_mut());
        let state = self.state.content_mut().try_into().expect("32 words");
        let ours = LINKED.call(call, state, ram, journal);
        let (ram, journal) = (&mut self.model_ram, &mut self.model_journal);
        let models = reference::call(call, &mut self.model_state, ram, journal);
        settled(models, self.differences(ours, models))
    }

    /// Makes a watched run on both, with this list; the result, or what differs.
    pub fn run_watched(&mut self, list: &[Entry], budget: u16) -> Result<u64, Vec<String>> {
        let (ram, journal) = (self.ram.content_mut(), self.journal.content_mut());
        let state = self.state.content_mut().try_into().expect("32 words");
        let mut lent = Guarded::new(list, ENTRY_FILLER);
        let ours = LINKED.run_watched(state, ram, journal, lent.content_mut(), budget);
        let (state, ram) = (&mut self.model_state, &mut self.model_ram);
        let mut models_list = list.to_vec();
        let journal = &mut self.model_journal;
        let models = reference::run_watched(state, ram, journal, &mut models_list, budget);
        let mut found = self.differences(ours, models);
        found.extend(list_differences(&lent, &models_list));
        if models & 0xffff == 0 {
            self.list = models_list;
        }
        settled(models, found)
    }

    /// Does a pen on both; the result, or what differs.
    pub fn do_pen(&mut self, pen: &Pen) -> Result<u64, Vec<String>> {
        let (ram, journal) = (self.ram.content_mut(), self.journal.content_mut());
        let state = self.state.content_mut().try_into().expect("32 words");
        let mut lent = Lent::new(pen);
        let ours = LINKED.pen(state, ram, journal, lent.pen());
        let (ram, journal) = (&mut self.model_ram, &mut self.model_journal);
        let models = reference::pen(&mut self.model_state, ram, journal, pen);
        let mut found = self.differences(ours, models);
        found.extend(lent.differences(pen));
        self.pen = Some(pen.clone());
        settled(models, found)
    }

    fn differences(&self, ours: u64, models: u64) -> Vec<String> {
        let (state, journal) = (self.state.content(), self.journal.content());
        let mut found = Vec::new();
        found.extend(result_difference(ours, models));
        found.extend(difference(state, &self.model_state, |i| {
            format!("state word {i}")
        }));
        found.extend(difference(self.ram.content(), &self.model_ram, |i| {
            format!("RAM byte 0x{i:04x}")
        }));
        found.extend(difference(journal, &self.model_journal, |i| {
            format!("journal word {i} (slot {}, word {})", i / 32, i % 32)
        }));
        found.extend(
            self.state
                .broken()
                .map(|place| format!("the state is written {place}")),
        );
        found.extend(
            self.ram
                .broken()
                .map(|place| format!("RAM is written {place}")),
        );
        found.extend(
            self.journal
                .broken()
                .map(|place| format!("the journal is written {place}")),
        );
        found
    }
}

/// What differs between the list that was lent and the model's.
fn list_differences(lent: &Guarded<Entry>, models: &[Entry]) -> Vec<String> {
    let parts = ["address", "kind", "hits"];
    let mut found = Vec::new();
    found.extend(difference(
        &lent.content().concat(),
        &models.concat(),
        |i| format!("{} of entry {}", parts[i % 3], i / 3),
    ));
    found.extend(
        lent.broken()
            .map(|place| format!("the list is written {place}")),
    );
    found
}

/// What a pen is lent, all of which must stay as it is.
struct Lent {
    line: Guarded<u8>,
    today: Guarded<u8>,
    last_good: Guarded<u8>,
    setup: Guarded<u16>,
}

impl Lent {
    fn new(pen: &Pen) -> Lent {
        Lent {
            line: Guarded::new(&pen.line, BYTE_FILLER),
            today: Guarded::new(&pen.today, BYTE_FILLER),
            last_good: Guarded::new(&pen.last_good, BYTE_FILLER),
            setup: Guarded::new(&pen.setup, WORD_FILLER),
        }
    }

    fn pen(&mut self) -> library::Pen<'_> {
        library::Pen {
            line: self.line.content_mut(),
            today: self.today.content_mut(),
            last_good: self.last_good.content_mut(),
            setup: self.setup.content_mut(),
        }
    }

    fn differences(&self, pen: &Pen) -> Vec<String> {
        let mut found = changes("the line", &self.line, &pen.line);
        found.extend(changes("today's manifest", &self.today, &pen.today));
        found.extend(changes(
            "the last good manifest",
            &self.last_good,
            &pen.last_good,
        ));
        found.extend(changes("the setup", &self.setup, &pen.setup));
        found
    }
}

/// What has changed of something that must stay as it is.
fn changes<T: Copy + PartialEq + LowerHex>(
    name: &str,
    lent: &Guarded<T>,
    given: &[T],
) -> Vec<String> {
    let mut found = Vec::new();
    found.extend(difference(lent.content(), given, |i| {
        format!("{name} at {i}")
    }));
    found.extend(
        lent.broken()
            .map(|place| format!("{name} is written {place}")),
    );
    found
}

/// Lists a word with both, into so many bytes; the result, or what differs.
pub fn list(word: u16, room: usize) -> Result<u64, Vec<String>> {
    let mut models_out = vec![0x55; room];
    let mut out = Guarded::new(&models_out, BYTE_FILLER);
    let ours = LINKED.list(word, out.content_mut());
    let models = reference::list(word, &mut models_out);
    let mut found = Vec::new();
    found.extend(result_difference(ours, models));
    found.extend(difference(out.content(), &models_out, |i| {
        format!("output byte {i}")
    }));
    found.extend(
        out.broken()
            .map(|place| format!("the output is written {place}")),
    );
    settled(models, found)
}

/// Assembles a line with both; the result, or what differs.
pub fn assemble(line: &[u8]) -> Result<u64, Vec<String>> {
    let mut lent = Guarded::new(line, BYTE_FILLER);
    let ours = LINKED.assemble(lent.content_mut());
    let models = reference::assemble(line);
    let mut found = Vec::new();
    found.extend(result_difference(ours, models));
    found.extend(difference(lent.content(), line, |i| {
        format!("byte {i} of the line")
    }));
    found.extend(
        lent.broken()
            .map(|place| format!("the line is written {place}")),
    );
    settled(models, found)
}

fn settled(models: u64, found: Vec<String>) -> Result<u64, Vec<String>> {
    if found.is_empty() {
        Ok(models)
    } else {
        Err(found)
    }
}

fn result_difference(ours: u64, models: u64) -> Option<String> {
    (ours != models).then(|| format!("result: ours 0x{ours:016x}, the model's 0x{models:016x}"))
}

/// The first element that differs. Slices are compared whole at first, which is quick.
fn difference<T: PartialEq + LowerHex>(
    ours: &[T],
    models: &[T],
    name: impl Fn(usize) -> String,
) -> Option<String> {
    if ours == models {
        return None;
    }
    let at = (0..ours.len()).find(|index| ours[*index] != models[*index])?;
    Some(format!(
        "{}: ours 0x{:x}, the model's 0x{:x}",
        name(at),
        ours[at],
        models[at]
    ))
}
