//! The program: `reference [--dump] [FILE..]` runs each file (or standard input) as a command list
//! and writes the lines of `callrun`. `reference [--dump] --lists FILE` runs many lists, each after
//! its length in four bytes, little-endian, and writes `end` after the lines of each. A lock taken
//! twice exits with 3, a panic of the Rust with 4.

use kernel_hal::sync::LockTaken;
use reference::run::{last_call, run_list_with};
use std::io::{self, Read, Write};
use std::panic::{catch_unwind, AssertUnwindSafe};
use std::process::exit;

const UNREADABLE: i32 = 2;
const LOCK_TAKEN_TWICE: i32 = 3;
const PANICKED: i32 = 4;

struct Options {
    dump: bool,
    lists: bool,
    files: Vec<String>,
}

fn main() {
    let options = options();
    let mut out = Vec::new();
    if options.files.is_empty() {
        let mut input = Vec::new();
        io::stdin().read_to_end(&mut input).unwrap_or_else(|error| fail("standard input", &error));
        run_input(&options, &input, &mut out);
    }
    for file in &options.files {
        let input = std::fs::read(file).unwrap_or_else(|error| fail(file, &error));
        run_input(&options, &input, &mut out);
    }
    write_away(&mut out);
}

fn options() -> Options {
    let mut options = Options { dump: false, lists: false, files: Vec::new() };
    for argument in std::env::args().skip(1) {
        match argument.as_str() {
            "--dump" => options.dump = true,
            "--lists" => options.lists = true,
            option if option.starts_with("--") => fail(option, &"no such option"),
            _ => options.files.push(argument),
        }
    }
    options
}

fn fail(what: &str, why: &dyn std::fmt::Display) -> ! {
    eprintln!("reference: {}: {}", what, why);
    exit(UNREADABLE)
}

fn run_input(options: &Options, input: &[u8], out: &mut Vec<u8>) {
    if !options.lists {
        return run_guarded(options.dump, input, out);
    }
    let mut rest = input;
    while !rest.is_empty() {
        let (list, after) = split_list(rest).unwrap_or_else(|| {
            write_away(out);
            fail("--lists", &"the last list is cut short")
        });
        run_guarded(options.dump, list, out);
        out.extend(b"end\n");
        rest = after;
    }
}

/// The list at the front and what follows it.
fn split_list(input: &[u8]) -> Option<(&[u8], &[u8])> {
    let length = input.get(..4)?;
    let length = u32::from_le_bytes([length[0], length[1], length[2], length[3]]) as usize;
    let list = input.get(4..4 + length)?;
    Some((list, &input[4 + length..]))
}

/// Runs one list. A panic names the call and ends the program, after the lines before it.
fn run_guarded(dump: bool, input: &[u8], out: &mut Vec<u8>) {
    let run = AssertUnwindSafe(|| {
        let harness = run_list_with(input, out, |lines| {
            if lines.len() > 1 << 16 {
                write_away(lines);
            }
        });
        if dump {
            out.extend(harness.records().to_string().bytes());
        }
    });
    if let Err(payload) = catch_unwind(run) {
        let (number, byte) = last_call();
        write_away(out);
        let (what, code) = match payload.is::<LockTaken>() {
            true => ("a lock was taken twice", LOCK_TAKEN_TWICE),
            false => ("a panic", PANICKED),
        };
        eprintln!("reference: call {}, command {:02x}: {}", number, byte, what);
        exit(code);
    }
}

fn write_away(lines: &mut Vec<u8>) {
    io::stdout().write_all(lines).unwrap_or_else(|error| fail("standard output", &error));
    lines.clear();
}
