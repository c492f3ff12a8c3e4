//! The program of the pen bench in plain Rust, over the emulator, with the arguments and the output of the proved one: it looks pens up by an index,
//! which has the first line of each number. `bench/run` is to measure it beside the proved program.
//!
//! Usage: pens --at N --stop N --budget N [--set REGISTER=N].. --ram N --slots N [--protect N N] FIRMWARE PENS TODAY LASTGOOD
//!        pens make LINES PENS FOLDER: writes the files of a night with manifests of so many lines and so many pens, and its arguments, one a line

#[allow(dead_code)] // the rest is for the benchmark of the calls
mod emulator;
#[allow(dead_code)]
mod library;
mod nights;
#[allow(dead_code)]
mod programs;

use emulator::{named_pen, pens};
use library::{PROTECTED, START};
use nights::Night;
use std::collections::HashMap;
use std::io::{self, Write};
use std::path::Path;
use std::{env, fs};

/// The slots of the longest journal, as the desk has it.
const SLOTS: usize = 1_024;

/// The files of a night.
const FILES: [&str; 4] = ["firmware.img", "pens.txt", "today.txt", "lastgood.txt"];

/// Why a run ended, by the cause's number; none ends by a watch.
const CAUSES: [&str; 4] = ["budget", "halted", "", "stop"];

/// What the arguments give.
#[derive(Default)]
struct Given {
    setup: [u16; 3],
    registers: Vec<u16>,
    ram: usize,
    slots: usize,
    /// The first and the last protected address.
    protected: Option<[u16; 2]>,
    files: Vec<String>,
}

fn main() -> io::Result<()> {
    let arguments: Vec<String> = env::args().skip(1).collect();
    if let [make, lines, pens, folder] = &arguments[..] {
        assert_eq!(make, "make");
        let count = |text: &String| text.parse().expect("a count");
        return write(&Night::new(count(lines), count(pens)), Path::new(folder));
    }
    let given = given(arguments).expect("arguments as the first line of this file has them");
    let mut texts = Vec::new();
    for file in &given.files {
        texts.push(fs::read(file)?);
    }
    io::stdout().lock().write_all(&night(&given, &texts))
}

/// Writes the files of a night.
fn write(night: &Night, folder: &Path) -> io::Result<()> {
    let pens: Vec<u8> = night
        .pens
        .iter()
        .flat_map(|pen| [pen, &b"\n"[..]].concat())
        .collect();
    let firmware = [b"0000\n", &nights::loaded()[..]].concat();
    fs::create_dir_all(folder)?;
    for (name, bytes) in FILES
        .iter()
        .zip([&firmware, &pens, &night.today, &night.last_good])
    {
        fs::write(folder.join(name), bytes)?;
    }
    let mut arguments = vec![format!("--ram\n30000\n--slots\n{SLOTS}\n")];
    for (option, word) in ["--at", "--stop", "--budget"].iter().zip(&night.setup) {
        arguments.push(format!("{option}\n{word}\n"));
    }
    for pair in night.setup[3..].chunks(2) {
        arguments.push(format!("--set\nr{}={}\n", pair[0], pair[1]));
    }
    arguments.push(format!("{}\n", FILES.join("\n")));
    fs::write(folder.join("arguments"), arguments.concat())
}

/// Reads the arguments.
fn given(arguments: Vec<String>) -> Option<Given> {
    let mut given = Given::default();
    let mut arguments = arguments.into_iter();
    while let Some(argument) = arguments.next() {
        let mut value = || arguments.next();
        match argument.as_str() {
            "--at" => given.setup[0] = number(&value()?)?,
            "--stop" => given.setup[1] = number(&value()?)?,
            "--budget" => given.setup[2] = number(&value()?)?,
            "--ram" => given.ram = number(&value()?)?.into(),
            "--slots" => given.slots = number(&value()?)?.into(),
            "--protect" => given.protected = Some([number(&value()?)?, number(&value()?)?]),
            "--set" => {
                let (name, content) = value()?.split_once('=').map(pair)?;
                given.registers.extend([name?, content?]);
            }
            _ => given.files.push(argument),
        }
    }
    (given.files.len() == FILES.len()).then_some(given)
}

/// A register's number and its content.
fn pair((name, content): (&str, &str)) -> (Option<u16>, Option<u16>) {
    let aliases = ["sp", "ca", "ia", "f", "pc"];
    let named = aliases.iter().position(|alias| *alias == name);
    let register = match named {
        Some(place) => Some(11 + place as u16),
        None => name.strip_prefix('r').and_then(number),
    };
    (register, number(content))
}

/// A number in decimal or hexadecimal digits.
fn number(text: &str) -> Option<u16> {
    match text.strip_prefix("0x") {
        Some(digits) => u16::from_str_radix(digits, 16).ok(),
        None => text.parse().ok(),
    }
}

/// What is written for the texts of the firmware, the pens and both manifests.
fn night(given: &Given, texts: &[Vec<u8>]) -> Vec<u8> {
    let index = index(&texts[2..]);
    let setup = [&given.setup[..], &given.registers].concat();
    let mut state = START;
    if let Some(protected) = given.protected {
        state[PROTECTED].copy_from_slice(&protected);
    }
    let mut ram = loaded(given.ram, &texts[0]);
    let mut journal = vec![0; 32 * given.slots];
    let mut out = Vec::new();
    for line in lines(&texts[1]) {
        let number = pens::number(line);
        let name = number.and_then(|number| index.get(&number).copied());
        let told = named_pen(&mut state, &mut ram, &mut journal, name, &setup);
        out.extend(number.map_or(&b"?"[..], |_| line));
        match (told as u16, name) {
            (0, Some(name)) => {
                out.extend(numbers(told, state[0]).bytes());
                out.extend(name);
            }
            (refusal, _) => out.extend(format!("\trefused\t{refusal}").bytes()),
        }
        out.push(b'\n');
    }
    out
}

/// What stands between a pen and its name.
fn numbers(told: u64, r0: u16) -> String {
    let (steps, bus) = (told as u32 >> 16, told >> 32 & 0xff_ffff);
    let cause = CAUSES[(told >> 56) as usize % CAUSES.len()];
    format!("\t{r0:04x}\t{cause}\t{steps}\t{bus}\t")
}

/// The lines of a text.
fn lines(text: &[u8]) -> impl Iterator<Item = &[u8]> {
    let whole = text.split_inclusive(|byte| *byte == b'\n');
    whole.map(|line| line.strip_suffix(b"\n").unwrap_or(line))
}

/// The name of each number: the first one, today's before the last good one.
fn index(manifests: &[Vec<u8>]) -> HashMap<u32, &[u8]> {
    let mut index = HashMap::new();
    for (number, name) in manifests
        .iter()
        .flat_map(|text| lines(text))
        .filter_map(pens::entry)
    {
        index.entry(number).or_insert(name);
    }
    index
}

/// A RAM with an image in it.
fn loaded(length: usize, image: &[u8]) -> Vec<u8> {
    let mut ram = vec![0; length];
    let digits = std::str::from_utf8(&image[..4]).expect("digits");
    let start = usize::from_str_radix(digits, 16).expect("four hexadecimal digits");
    let bytes = &image[5..];
    ram[start..start + bytes.len()].copy_from_slice(bytes);
    ram
}
