//! The calls of the C boundary: the functions of the linked library, and any other set of functions of the same signatures.

use std::ops::Range;

/// The state as it crosses the boundary.
pub type State = [u16; 32];

/// The starting state: T=1, and a first protected address above the last one, which means none.
pub const START: State = {
    let mut state = [0; 32];
    state[24] = 2;
    state[PROTECTED.start] = 1;
    state
};

/// The words of the state that have the first and the last protected address.
pub const PROTECTED: Range<usize> = 30..32;

/// An entry of a watched run's list as it crosses the boundary: its address, its kind (1 break, 2 watch) and its hits.
pub type Entry = [u16; 3];

type OfMachine = unsafe extern "C" fn(*mut u16, *mut u8, usize, *mut u16, usize) -> u64;
type OfByte = unsafe extern "C" fn(*mut u16, *mut u8, usize, *mut u16, usize, u8) -> u64;
type OfRegister = unsafe extern "C" fn(*mut u16, *mut u8, usize, *mut u16, usize, u8, u16) -> u64;
type OfAddress = unsafe extern "C" fn(*mut u16, *mut u8, usize, *mut u16, usize, u16, u8) -> u64;
type OfBudget = unsafe extern "C" fn(*mut u16, *mut u8, usize, *mut u16, usize, u16) -> u64;
type OfList =
    unsafe extern "C" fn(*mut u16, *mut u8, usize, *mut u16, usize, *mut Entry, usize, u16) -> u64;
type OfPen = unsafe extern "C" fn(
    *mut u16,
    *mut u8,
    usize,
    *mut u16,
    usize,
    *mut u8,
    usize,
    *mut u8,
    usize,
    *mut u8,
    usize,
    *mut u16,
    usize,
) -> u64;
type OfWord = unsafe extern "C" fn(u16, *mut u8, usize) -> u64;
type OfLine = unsafe extern "C" fn(*mut u8, usize) -> u64;

/// The functions. They are called through pointers so that neither of two implementations is compiled into its caller.
#[derive(Clone, Copy)]
pub struct Functions {
    pub step: OfMachine,
    pub tick: OfMachine,
    pub receive: OfByte,
    pub sent: OfMachine,
    pub set_register: OfRegister,
    pub poke: OfAddress,
    pub reset: OfMachine,
    pub run: OfBudget,
    pub run_watched: OfList,
    pub pen: OfPen,
    pub step_back: OfMachine,
    pub list: OfWord,
    pub assemble: OfLine,
}

extern "C" {
    fn mb50_step(state: *mut u16, ram: *mut u8, n: usize, journal: *mut u16, m: usize) -> u64;
    fn mb50_tick(state: *mut u16, ram: *mut u8, n: usize, journal: *mut u16, m: usize) -> u64;
    fn mb50_receive(
        state: *mut u16,
        ram: *mut u8,
        n: usize,
        journal: *mut u16,
        m: usize,
        byte: u8,
    ) -> u64;
    fn mb50_sent(state: *mut u16, ram: *mut u8, n: usize, journal: *mut u16, m: usize) -> u64;
    fn mb50_set_register(
        state: *mut u16,
        ram: *mut u8,
        n: usize,
        journal: *mut u16,
        m: usize,
        number: u8,
        content: u16,
    ) -> u64;
    fn mb50_poke(
        state: *mut u16,
        ram: *mut u8,
        n: usize,
        journal: *mut u16,
        m: usize,
        address: u16,
        byte: u8,
    ) -> u64;
    fn mb50_reset(state: *mut u16, ram: *mut u8, n: usize, journal: *mut u16, m: usize) -> u64;
    fn mb50_run(
        state: *mut u16,
        ram: *mut u8,
        n: usize,
        journal: *mut u16,
        m: usize,
        budget: u16,
    ) -> u64;
    fn mb50_run_watched(
        state: *mut u16,
        ram: *mut u8,
        n: usize,
        journal: *mut u16,
        m: usize,
        list: *mut Entry,
        entries: usize,
        budget: u16,
    ) -> u64;
    fn mb50_pen(
        state: *mut u16,
        ram: *mut u8,
        n: usize,
        journal: *mut u16,
        m: usize,
        line: *mut u8,
        digits: usize,
        today: *mut u8,
        a: usize,
        last_good: *mut u8,
        b: usize,
        setup: *mut u16,
        words: usize,
    ) -> u64;
    fn mb50_step_back(state: *mut u16, ram: *mut u8, n: usize, journal: *mut u16, m: usize) -> u64;
    fn mb50_list(word: u16, out: *mut u8, n: usize) -> u64;
    fn mb50_assemble(line: *mut u8, n: usize) -> u64;
}

/// The functions of the library that this program is linked with.
pub const LINKED: Functions = Functions {
    step: mb50_step,
    tick: mb50_tick,
    receive: mb50_receive,
    sent: mb50_sent,
    set_register: mb50_set_register,
    poke: mb50_poke,
    reset: mb50_reset,
    run: mb50_run,
    run_watched: mb50_run_watched,
    pen: mb50_pen,
    step_back: mb50_step_back,
    list: mb50_list,
    assemble: mb50_assemble,
};

/// What a pen is given beside the machine: its line, the two manifests, and the setup: the name's address, the address to stop at, the budget,
/// then numbers of registers and their contents. The library only reads them; they are lent as if it might not, so that the fuzzer sees if it
/// writes.
pub struct Pen<'a> {
    pub line: &'a mut [u8],
    pub today: &'a mut [u8],
    pub last_good: &'a mut [u8],
    pub setup: &'a mut [u16],
}

/// A call on the machine.
#[derive(Clone, Copy, Debug)]
pub enum Call {
    Step,
    Tick,
    Receive(u8),
    Sent,
    SetRegister(u8, u16),
    Poke(u16, u8),
    Reset,
    Run(u16),
    StepBack,
}

impl Functions {
    /// Makes a call on the machine.
    #[inline(always)]
    pub fn call(&self, call: Call, state: &mut State, ram: &mut [u8], journal: &mut [u16]) -> u64 {
        let (n, m) = (ram.len(), journal.len());
        let (s, r, j) = (state.as_mut_ptr(), ram.as_mut_ptr(), journal.as_mut_ptr());
        // All that is lent is lent for the time of the call, each with its length, and no pointer of a slice is null.
        unsafe {
            match call {
                Call::Step => (self.step)(s, r, n, j, m),
                Call::Tick => (self.tick)(s, r, n, j, m),
                Call::Receive(byte) => (self.receive)(s, r, n, j, m, byte),
                Call::Sent => (self.sent)(s, r, n, j, m),
                Call::SetRegister(number, content) => {
                    (self.set_register)(s, r, n, j, m, number, content)
                }
                Call::Poke(address, byte) => (self.poke)(s, r, n, j, m, address, byte),
                Call::Reset => (self.reset)(s, r, n, j, m),
                Call::Run(budget) => (self.run)(s, r, n, j, m, budget),
                Call::StepBack => (self.step_back)(s, r, n, j, m),
            }
        }
    }

    /// Runs with a list of breaks and watches.
    #[inline(always)]
    pub fn run_watched(
        &self,
        state: &mut State,
        ram: &mut [u8],
        journal: &mut [u16],
        list: &mut [Entry],
        budget: u16,
    ) -> u64 {
        let (n, m, entries) = (ram.len(), journal.len(), list.len());
        let (s, r, j) = (state.as_mut_ptr(), ram.as_mut_ptr(), journal.as_mut_ptr());
        // All that is lent is lent for the time of the call, each with its length, and no pointer of a slice is null.
        unsafe { (self.run_watched)(s, r, n, j, m, list.as_mut_ptr(), entries, budget) }
    }

    /// Does a pen.
    #[inline(always)]
    pub fn pen(&self, state: &mut State, ram: &mut [u8], journal: &mut [u16], pen: Pen) -> u64 {
        let (n, m, digits) = (ram.len(), journal.len(), pen.line.len());
        let (s, r, j) = (state.as_mut_ptr(), ram.as_mut_ptr(), journal.as_mut_ptr());
        let (today, a) = (pen.today.as_mut_ptr(), pen.today.len());
        let (last_good, b) = (pen.last_good.as_mut_ptr(), pen.last_good.len());
        let (line, setup, words) = (
            pen.line.as_mut_ptr(),
            pen.setup.as_mut_ptr(),
            pen.setup.len(),
        );
        // All that is lent is lent for the time of the call, each with its length, and no pointer of a slice is null.
        unsafe {
            (self.pen)(
                s, r, n, j, m, line, digits, today, a, last_good, b, setup, words,
            )
        }
    }

    /// Lists a word.
    #[inline(always)]
    pub fn list(&self, word: u16, out: &mut [u8]) -> u64 {
        // The output is lent for the time of the call with its length, and its pointer is not null.
        unsafe { (self.list)(word, out.as_mut_ptr(), out.len()) }
    }

    /// Assembles a line.
    #[inline(always)]
    pub fn assemble(&self, line: &mut [u8]) -> u64 {
        // The line is lent for the time of the call with its length, and its pointer is not null.
        unsafe { (self.assemble)(line.as_mut_ptr(), line.len()) }
    }
}
