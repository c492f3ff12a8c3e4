//! Vectors of the machine's calls: many scenarios, each a series of commands.

use super::desk::{Command, Desk, COMMAND};
use super::script::Script;
use super::{edges, faults, stretches, walks, watches};

/// The input: all commands, and after them those of the watched runs.
pub fn all_input() -> Vec<u8> {
    let mut bytes = input();
    bytes.extend(watches::input());
    bytes
}

/// The output for that input: a line for each time that the digest is shown.
pub fn all_output() -> String {
    shown(&all_input())
}

/// The commands of the calls that are no watched run.
fn input() -> Vec<u8> {
    let commands = script().commands;
    commands.iter().flat_map(|one| one.encode()).collect()
}

/// The lines that commands show.
pub fn shown(commands: &[u8]) -> String {
    let mut desk = Desk::new();
    for command in commands.chunks(COMMAND) {
        desk.obey(Command::decode(command));
    }
    desk.output()
}

/// All scenarios but those of watched runs.
fn script() -> Script {
    let mut script = Script::new();
    walks::write(&mut script);
    faults::write(&mut script);
    edges::write(&mut script);
    stretches::write(&mut script);
    script
}

#[cfg(test)]
mod tests {
    use super::*;
    use crate::bus::Written;
    use crate::cpu::{Cpu, Effect, PC};
    use crate::journal::{self, RECORD};
    use crate::machine::{Answer, Call, Cause};
    use crate::opcode;
    use crate::vectors::desk::SET_STRETCH;

    /// What happens in all scenarios.
    struct Coverage {
        /// How often each number is answered, 0 for accepted calls.
        numbers: [usize; 10],
        /// How often each opcode is run.
        opcodes: [usize; 256],
        /// How many interrupts are taken.
        interrupts: usize,
        /// How many stores drop no byte, the first, the second, both.
        drops: [usize; 4],
        /// The budget, the steps and the cause of each run.
        runs: Vec<(u16, u16, Cause)>,
        /// The accepted step-backs: the length of RAM, the bytes counted, the
        /// first address, and the next slot before.
        step_backs: Vec<(usize, u16, u16, usize)>,
        /// How often a halted machine goes on after a call.
        revived: usize,
        /// The lengths of RAM and journal of accepted calls.
        lengths: Vec<(usize, usize)>,
    }

    impl Coverage {
        /// That of all scenarios.
        fn new() -> Coverage {
            let mut coverage = Coverage {
                numbers: [0; 10],
                opcodes: [0; 256],
                interrupts: 0,
                drops: [0; 4],
                runs: Vec::new(),
                step_backs: Vec::new(),
                revived: 0,
                lengths: Vec::new(),
            };
            let mut desk = Desk::new();
            for bytes in input().chunks(COMMAND) {
                coverage.follow(&mut desk, Command::decode(bytes));
            }
            coverage
        }

        /// Obeys a command and, if it makes a call, notes what happens.
        fn follow(&mut self, desk: &mut Desk, command: Command) {
            let machine = desk.machine;
            let mut ram = Vec::new();
            if let Some(Call::Step | Call::Run(_)) = command.call() {
                ram.extend(&desk.ram[..desk.ram_length]);
            }
            let answer = match desk.obey(command) {
                Some(answer) => answer,
                None => return,
            };
            self.numbers[usize::from(answer.number)] += 1;
            if answer.number == 0 {
                self.lengths.push((desk.ram_length, desk.journal_length));
                self.revived += usize::from(machine.cpu.halted && !desk.machine.cpu.halted);
                self.note_steps(machine.cpu, &mut ram, &answer);
                self.note_call(desk, command.call(), machine.next, &answer);
            }
        }

        /// Takes the steps of a call once more and notes what they run.
        fn note_steps(&mut self, mut cpu: Cpu, ram: &mut [u8], answer: &Answer) {
            for _ in 0..answer.steps {
                let opcode = cpu.devices.read_byte(ram, cpu.registers[PC]);
                let Effect { bus, written } = cpu.step(ram);
                self.drops[usize::from(drops(&cpu, ram, &written))] += 1;
                if bus == 0 {
                    self.interrupts += 1;
                } else {
                    self.opcodes[usize::from(opcode)] += 1;
                }
            }
        }

        /// Notes a run or a step-back.
        fn note_call(&mut self, desk: &Desk, call: Option<Call>, next: usize, answer: &Answer) {
            match call {
                Some(Call::Run(budget)) => self.runs.push((budget, answer.steps, answer.cause)),
                Some(Call::StepBack) => {
                    let start = RECORD * desk.machine.next;
                    let record = &desk.journal[start..start + RECORD];
                    let (_, written) = journal::decode(record, desk.machine.cpu.stretch);
                    let edge = (desk.ram_length, written.count, written.first, next);
                    self.step_backs.push(edge);
                }
                _ => {}
            }
        }

        /// Whether there is such a step-back.
        fn steps_back(&self, is_such: impl Fn(usize, u16, u16, usize) -> bool) -> bool {
            let mut all = self.step_backs.iter();
            all.any(|(length, count, first, next)| is_such(*length, *count, *first, *next))
        }
    }

    /// 1 if the first byte is dropped, and 2 if the second is.
    fn drops(cpu: &Cpu, ram: &[u8], written: &Written) -> u16 {
        let bytes = (0..written.count).map(|offset| {
            let address = written.first.wrapping_add(offset);
            u16::from(cpu.stretch.drops(ram, address)) << offset
        });
        bytes.sum()
    }

    #[test]
    fn sizes() {
        let commands = script().commands;
        assert_eq!(input().len(), COMMAND * commands.len());
        assert!(commands.len() <= 48_000, "{}", commands.len());
        let lines = shown(&input()).lines().count();
        assert!((150..=300).contains(&lines), "{lines}");
        for kind in (0..20).chain([SET_STRETCH]) {
            assert!(commands.iter().any(|command| command.kind == kind));
        }
    }

    #[test]
    fn coverage() {
        let coverage = Coverage::new();
        assert!(coverage.numbers.iter().all(|count| *count >= 100));
        check_opcodes(&coverage);
        check_runs(&coverage);
        check_step_backs(&coverage);
        check_lengths(&coverage);
        assert!(coverage.revived > 500);
        assert!(
            coverage.drops.iter().all(|count| *count >= 50),
            "{:?}",
            coverage.drops
        );
    }

    /// Every legal opcode is run, and illegal ones of both reasons.
    fn check_opcodes(coverage: &Coverage) {
        for (number, entry) in opcode::table().iter().enumerate() {
            assert!(entry.reason == Some(2) || coverage.opcodes[number] > 0);
        }
        assert!([0x0d, 0x0f, 0x1e, 0x8f, 0xb0, 0xff]
            .iter()
            .all(|n| coverage.opcodes[*n] > 0));
        assert!(coverage.interrupts > 1_000);
    }

    /// Runs stop for both causes, at once, in the midst and in the end.
    fn check_runs(coverage: &Coverage) {
        let stops = |is_such: &dyn Fn(u16, u16) -> bool, cause| {
            let mut all = coverage.runs.iter();
            all.any(|(budget, steps, why)| is_such(*budget, *steps) && *why == cause)
        };
        assert!(stops(&|budget, _| budget == 0, Cause::Budget));
        assert!(stops(&|budget, _| budget == 0, Cause::Halted));
        assert!(stops(&|budget, _| budget == 65_535, Cause::Budget));
        assert!(stops(
            &|budget, steps| budget == steps && steps > 0,
            Cause::Halted
        ));
        assert!(stops(
            &|budget, steps| budget > steps && steps > 0,
            Cause::Halted
        ));
        assert!(stops(
            &|budget, steps| budget > 0 && steps == 0,
            Cause::Halted
        ));
        let steps: usize = coverage.runs.iter().map(|run| usize::from(run.1)).sum();
        assert!((500_000..3_000_000).contains(&steps), "{steps}");
    }

    /// Step-backs succeed with each count, at the edges of memory, and with
    /// the newest record in the last slot.
    fn check_step_backs(coverage: &Coverage) {
        for count in 0..3 {
            assert!(coverage.steps_back(|_, n, _, next| n == count && next == 0));
            assert!(coverage.steps_back(|_, n, _, next| n == count && next > 0));
        }
        for count in 1..3 {
            let at = |address| coverage.steps_back(|_, n, first, _| n == count && first == address);
            assert!([0, 0xffdf, 0xffe0, 0xffe1, 0xfff0, 0xffff]
                .iter()
                .all(|a| at(*a)));
            for ram in [1, 64, 256, 65_504] {
                let past = |past| {
                    coverage.steps_back(|length, n, first, _| {
                        length == ram && n == count && usize::from(first) + 1 == length + past
                    })
                };
                assert!(past(0) && past(1), "{count} {ram}");
            }
        }
    }

    /// Calls are accepted with each length of RAM and of the journal.
    fn check_lengths(coverage: &Coverage) {
        for ram in [0, 1, 64, 256, 30_000, 65_504] {
            for journal in [0, 32, 64, 96, 32_768] {
                assert!(coverage.lengths.contains(&(ram, journal)) || ram == 1);
            }
        }
    }
}
