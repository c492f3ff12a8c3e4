//! Each sentence of the request, tried.

use super::*;
use crate::bus::Stretch;
use crate::cpu::{F, PC};
use crate::journal::RECORD;

/// `inc1 r3, r3`
const INC: u16 = 0x3308;
/// `ldb r0, r1`
const LDB: u16 = 0x010b;
/// `ill r0, r0`
const ILL: u16 = 0x0000;

/// Where names are poked, unless a test says otherwise.
const AT: u16 = 40;

/// A machine with its RAM and journal, and what pens are given.
#[derive(Clone, Debug, PartialEq)]
struct Desk {
    machine: Machine,
    ram: Vec<u8>,
    journal: Vec<u16>,
    setup: Setup,
}

impl Desk {
    /// A machine at the start with 64 bytes of RAM, 8 slots, and these
    /// instructions, low byte first, from address 0 on. A run starts at 0 with
    /// the name's address in r1, and stops at 4.
    fn with(words: &[u16]) -> Desk {
        let mut desk = Desk {
            machine: Machine::new(Stretch::NONE),
            ram: words.iter().flat_map(|word| word.to_le_bytes()).collect(),
            journal: vec![0; 8 * RECORD],
            setup: Setup::of_words(&[AT, 4, 100, 1, AT, 15, 0]),
        };
        desk.ram.resize(64, 0x77);
        desk
    }

    /// Does a pen by these lists.
    fn pen<'a>(&mut self, line: &str, today: &'a [u8], good: &'a [u8]) -> Result<Matched<'a>, u16> {
        let lists = Lists {
            today,
            last_good: good,
        };
        let (ram, journal) = (&mut self.ram, &mut self.journal);
        let line = line.as_bytes();
        pen(&mut self.machine, ram, journal, line, lists, &self.setup)
    }

    /// Does pen 7, which has this name today: its number, after which nothing
    /// has changed if it is refused.
    fn refusal(&mut self, name: &[u8]) -> u16 {
        let before = self.clone();
        let number = self.pen("7", &[b"7\t", name].concat(), b"").err();
        if number.is_some() {
            assert_eq!(*self, before);
        }
        number.unwrap_or(0)
    }
}

fn named<'a>(line: &str, today: &'a str, last_good: &'a str) -> Option<&'a str> {
    let lists = Lists {
        today: today.as_bytes(),
        last_good: last_good.as_bytes(),
    };
    let found = name(line.as_bytes(), lists)?;
    Some(std::str::from_utf8(found).expect("the tests' names are UTF-8"))
}

#[test]
fn numbers_have_1_to_9_digits() {
    assert_eq!(number(b"0"), Some(0));
    assert_eq!(number(b"7"), Some(7));
    assert_eq!(number(b"000000007"), Some(7));
    assert_eq!(number(b"999999999"), Some(999_999_999));
    let none = [
        "",
        "0000000007",
        "1000000000",
        "4294967303",
        "+7",
        "-7",
        " 7",
        "7 ",
        "7\r",
        "7\n",
        "\t7",
        "7\t",
        "0x7",
        "7.",
        "1_0",
        "a",
        "/",
        ":",
        "٧",
    ];
    for text in none {
        assert_eq!(number(text.as_bytes()), None, "{text:?}");
    }
}

#[test]
fn lines_end_at_newlines() {
    let none: [&[u8]; 0] = [];
    assert_eq!(lines(b""), none);
    assert_eq!(lines(b"\n"), [b""]);
    assert_eq!(lines(b"a"), [b"a"]);
    assert_eq!(lines(b"a\n"), [b"a"]);
    assert_eq!(lines(b"a\n\n"), [&b"a"[..], b""]);
    assert_eq!(lines(b"\na\r\nb"), [&b""[..], b"a\r", b"b"]);
}

#[test]
fn today_goes_before_the_last_good() {
    let (today, good) = ("7\tå\n8\tb", "7\tc\n9\td\n");
    assert_eq!(named("7", today, good), Some("å"));
    assert_eq!(named("8", today, good), Some("b"));
    assert_eq!(named("9", today, good), Some("d"));
    assert_eq!(named("10", today, good), None);
    assert_eq!(named("7", "", good), Some("c"));
    assert_eq!(named("7", "", ""), None);
}

#[test]
fn numbers_are_compared_and_not_digits() {
    assert_eq!(named("007", "7\ta\n", ""), Some("a"));
    assert_eq!(named("7", "000000007\ta\n", ""), Some("a"));
    assert_eq!(named("0", "00\tnull\n", ""), Some("null"));
    assert_eq!(named("7", "70\ta\n77\tb\n", ""), None);
}

#[test]
fn the_first_matching_line_counts() {
    assert_eq!(named("7", "8\tx\n07\ta\n7\tb\n", ""), Some("a"));
    assert_eq!(named("7", "7\t\n7\tb\n", "7\tc\n"), Some(""));
}

#[test]
fn a_line_without_number_and_tab_never_matches() {
    let broken = "7\n7 a\n 7\ta\n7 \ta\n+7\ta\n\t7\ta\n\n0000000007\ta\nx7\ta\n7\r\ta\n";
    assert_eq!(named("7", broken, ""), None);
    assert_eq!(named("7", &format!("{broken}7\tb"), ""), Some("b"));
    assert_eq!(named("7", broken, "7\tc\n"), Some("c"));
}

#[test]
fn the_name_is_all_up_to_the_newline() {
    assert_eq!(named("7", "7\ta\tb\r\n", ""), Some("a\tb\r"));
    assert_eq!(named("7", "7\t\t\n", ""), Some("\t"));
    assert_eq!(named("7", "7\t a ", ""), Some(" a "));
    assert_eq!(named("7", "7\t", ""), Some(""));
}

#[test]
fn the_name_is_a_part_of_its_list() {
    let (today, good) = (b"7\tsame\n".to_vec(), b"8\tsame\n".to_vec());
    let lists = Lists {
        today: &today,
        last_good: &good,
    };
    assert!(std::ptr::eq(name(b"7", lists).unwrap(), &today[2..6]));
    assert!(std::ptr::eq(name(b"8", lists).unwrap(), &good[2..6]));
}

#[test]
fn letters_are_single_bytes() {
    assert_eq!(
        letters("Åsø\u{7f}\u{80}ÿ".as_bytes()),
        Ok(b"\xc5s\xf8\x7f\x80\xff".to_vec())
    );
    assert_eq!(letters(b""), Ok(Vec::new()));
    assert_eq!(letters("\u{1}\t\r ".as_bytes()), Ok(b"\x01\t\r ".to_vec()));
}

#[test]
fn names_that_are_not_utf8() {
    let names: [&[u8]; 12] = [
        b"\xe5",
        b"a\xc3",
        b"\xa5",
        b"\xc0\x80",
        b"\xc1\xa5",
        b"\xe0\x83\xa5",
        b"\xf0\x80\x83\xa5",
        b"\xed\xa0\x80",
        b"\xf4\x90\x80\x80",
        b"\xf5\x80\x80\x80",
        b"\xff",
        b"\xc3a",
    ];
    for name in names {
        assert_eq!(letters(name), Err(80), "{name:02x?}");
    }
}

#[test]
fn code_points_that_are_no_letters() {
    for name in [
        "\0",
        "a\0b",
        "\u{100}",
        "å\u{2603}",
        "\u{ffff}",
        "\u{10ffff}",
        "\u{feff}a",
    ] {
        assert_eq!(letters(name.as_bytes()), Err(81), "{name:?}");
    }
}

#[test]
fn a_fault_of_utf8_goes_before_a_code_point() {
    assert_eq!(letters(b"\0\xff"), Err(80));
    assert_eq!(letters(b"\xff\0"), Err(80));
    assert_eq!(letters("\u{2603}a".as_bytes()), Err(81));
    assert_eq!(letters(b"\xe2\x98\x83a\xc3"), Err(80));
}

#[test]
fn a_pen_with_a_letter_of_its_own() {
    let mut desk = Desk::with(&[LDB, INC, ILL]);
    let today = "6\tlaks\n7\tå\n".as_bytes();
    let matched = desk.pen("7", today, b"").expect("accepted");
    assert_eq!(matched.name, "å".as_bytes());
    assert_eq!((matched.r0, matched.steps, matched.bus), (0xe5, 2, 5));
    assert_eq!(matched.stop, Stop::Break(0));
    assert_eq!(desk.ram[39..43], [0x77, 0xe5, 0, 0x77]);
    assert_eq!(desk.machine.cpu.registers[PC], 4);
    // two pokes, two registers, two steps
    assert_eq!((desk.machine.next, desk.machine.held), (6, 6));
}

/// "State and RAM go on from pen to pen": all is done by the machine's calls.
#[test]
fn a_pen_is_its_calls() {
    let mut desk = Desk::with(&[LDB, INC, ILL]);
    desk.setup = Setup::of_words(&[AT, 4, 9, 1, AT, 3, 5, 3, 6, 14, 0x000f]);
    let mut other = desk.clone();
    let matched = desk.pen("7", "7\tåb".as_bytes(), b"").expect("accepted");
    let calls = [
        Call::Poke(AT, 0xe5),
        Call::Poke(AT + 1, b'b'),
        Call::Poke(AT + 2, 0),
        Call::SetRegister(1, AT),
        Call::SetRegister(3, 5),
        Call::SetRegister(3, 6),
        Call::SetRegister(14, 0x000f),
    ];
    for call in calls {
        other.machine.call(call, &mut other.ram, &mut other.journal);
    }
    let told = run(
        &mut other.machine,
        &mut other.ram,
        &mut other.journal,
        &other.setup,
    );
    assert_eq!(desk, other);
    assert_eq!((matched.r0, matched.stop), (0xe5, told.stop));
    assert_eq!((matched.steps, matched.bus), (told.steps, told.bus));
    assert_eq!(desk.machine.cpu.registers[3], 7);
}

#[test]
fn why_a_run_ends() {
    let mut desk = Desk::with(&[LDB, INC, INC]);
    let today = b"7\ta\n";
    desk.setup.budget = 2;
    // "the order is halted, watch, budget, break"
    assert_eq!(desk.pen("7", today, b"").unwrap().stop, Stop::Budget);
    desk.setup.budget = 3;
    assert_eq!(desk.pen("7", today, b"").unwrap().stop, Stop::Break(0));
    desk.setup.budget = 0;
    assert_eq!(desk.pen("7", today, b"").unwrap().steps, 0);
    desk.ram[2..4].fill(0);
    desk.setup.budget = 100;
    let matched = desk.pen("7", today, b"").unwrap();
    assert_eq!((matched.stop, matched.steps), (Stop::Halted, 2));
}

#[test]
fn a_halted_machine_stays_halted_unless_f_is_given() {
    let mut desk = Desk::with(&[LDB, ILL]);
    let today = b"7\ta\n8\tb\n";
    assert_eq!(desk.pen("7", today, b"").unwrap().stop, Stop::Halted);
    let matched = desk.pen("8", today, b"").unwrap();
    assert_eq!(
        (matched.stop, matched.steps, matched.r0),
        (Stop::Halted, 0, 0x61)
    );
    assert_eq!(desk.ram[40..42], [b'b', 0]);
    desk.setup.registers.push((F as u16, 0));
    let matched = desk.pen("8", today, b"").unwrap();
    assert_eq!(
        (matched.stop, matched.steps, matched.r0),
        (Stop::Halted, 2, 0x62)
    );
}

/// "the first step of a run excepted"
#[test]
fn a_run_may_start_at_the_address_where_it_stops() {
    let mut desk = Desk::with(&[INC, 0xff0a, 0x0000]);
    desk.setup.stop = 0;
    let matched = desk.pen("7", b"7\ta\n", b"").unwrap();
    assert_eq!((matched.stop, matched.steps), (Stop::Break(0), 2));
}

#[test]
fn a_name_found_today_is_judged_though_the_last_good_one_would_do() {
    let mut desk = Desk::with(&[LDB, INC]);
    let before = desk.clone();
    assert_eq!(desk.pen("7", b"7\t\xe5\n", b"7\ta\n"), Err(80));
    assert_eq!(desk.pen("7", "7\t\u{100}\n".as_bytes(), b"7\ta\n"), Err(81));
    assert_eq!(
        desk.pen("7", &[b"7\t", &[b'x'; 24][..]].concat(), b"7\ta\n"),
        Err(82)
    );
    assert_eq!(desk, before);
}

#[test]
fn name_and_0_fit_ram() {
    let mut desk = Desk::with(&[LDB, INC]);
    assert_eq!(desk.refusal(&[b'x'; 23]), 0);
    assert_eq!(desk.refusal(&[b'x'; 24]), 82);
    // letters count, and not their bytes
    assert_eq!(desk.refusal("ø".repeat(23).as_bytes()), 0);
    assert_eq!(desk.refusal("ø".repeat(24).as_bytes()), 82);
    desk.setup.address = 63;
    assert_eq!(desk.refusal(b""), 0);
    assert_eq!(desk.ram[63], 0);
    assert_eq!(desk.refusal(b"x"), 82);
    desk.setup.address = 64;
    assert_eq!(desk.refusal(b""), 82);
    desk.setup.address = u16::MAX;
    assert_eq!(desk.refusal(b"xyz"), 82);
    desk.ram.clear();
    desk.setup.address = 0;
    assert_eq!(desk.refusal(b""), 82);
}

#[test]
fn no_name_wraps() {
    let mut desk = Desk::with(&[LDB, INC]);
    desk.ram.resize(65_504, 0x77);
    desk.setup.address = 0xffdf;
    assert_eq!(desk.refusal(b""), 0);
    assert_eq!(desk.refusal(b"x"), 82);
    assert_eq!(desk.refusal(&[b'x'; 40]), 82);
}

#[test]
fn refusals_in_their_order() {
    let mut desk = Desk::with(&[LDB, INC]);
    desk.setup.address = 63;
    desk.setup.registers.push((16, 0));
    desk.machine.cpu.csrs[0] = 512;
    desk.journal.push(0);
    desk.ram.resize(65_505, 0);
    let faulty = "\u{100}\u{100}";
    assert_eq!(desk.refusal(faulty.as_bytes()), 1);
    desk.ram.truncate(64);
    assert_eq!(desk.refusal(faulty.as_bytes()), 2);
    desk.journal.pop();
    assert_eq!(desk.refusal(faulty.as_bytes()), 3);
    desk.machine.cpu.csrs[0] = 511;
    assert_eq!(desk.refusal(faulty.as_bytes()), 6);
    assert_eq!(desk.pen("x", b"", b""), Err(6));
    desk.setup.registers.pop();
    assert_eq!(desk.pen("x", b"7\t\xff", b""), Err(83));
    assert_eq!(desk.pen("8", b"7\t\xff", b""), Err(83));
    assert_eq!(desk.refusal(&[faulty.as_bytes(), b"\xff"].concat()), 80);
    assert_eq!(desk.refusal(faulty.as_bytes()), 81);
    assert_eq!(desk.refusal("åø".as_bytes()), 82);
    desk.setup.address = 61;
    assert_eq!(desk.refusal("åø".as_bytes()), 0);
}

/// A number is not taken modulo anything.
#[test]
fn given_registers_over_15() {
    let mut desk = Desk::with(&[LDB, INC]);
    for number in [16, 17, 31, 255, 256, 257, 0x8000, u16::MAX] {
        desk.setup.registers = vec![(0, 0), (number, 0), (1, 0)];
        assert_eq!(desk.refusal(b"a"), 6, "{number}");
    }
}

#[test]
fn words_of_a_setup() {
    let of = |address, stop, budget, registers| Setup {
        address,
        stop,
        budget,
        registers,
    };
    assert_eq!(Setup::of_words(&[]), of(0, 0, 0, vec![]));
    assert_eq!(Setup::of_words(&[1]), of(1, 0, 0, vec![]));
    assert_eq!(Setup::of_words(&[1, 2]), of(1, 2, 0, vec![]));
    assert_eq!(Setup::of_words(&[1, 2, 3]), of(1, 2, 3, vec![]));
    assert_eq!(Setup::of_words(&[1, 2, 3, 99]), of(1, 2, 3, vec![]));
    assert_eq!(Setup::of_words(&[1, 2, 3, 4, 5]), of(1, 2, 3, vec![(4, 5)]));
    assert_eq!(
        Setup::of_words(&[1, 2, 3, 4, 5, 6]),
        of(1, 2, 3, vec![(4, 5)])
    );
}
