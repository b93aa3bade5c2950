//! A whole input as `callrun` takes it: bytes to lines.

use crate::commands::{decode, Command, Decoded};
use crate::harness::Harness;
use crate::reply::write_stop;
use std::cell::Cell;
use std::mem::ManuallyDrop;

thread_local! {
    /// The call under way: its number and command byte, for the report of a panic.
    static CURRENT: Cell<(u64, u8)> = const { Cell::new((0, 0)) };
}

/// Number and command byte of the last call begun.
pub fn last_call() -> (u64, u8) {
    CURRENT.with(Cell::get)
}

/// Runs `input` from a fresh root and appends its lines to `out`.
pub fn run_list(input: &[u8], out: &mut Vec<u8>) -> Harness {
    run_list_with(input, out, |_| {})
}

/// As `run_list`; `between` sees the lines after each call and may write them away.
pub fn run_list_with(
    input: &[u8],
    out: &mut Vec<u8>,
    mut between: impl FnMut(&mut Vec<u8>),
) -> Harness {
    // Never dropped while a panic unwinds: the drops of the Rust would lock and panic again.
    let mut harness = ManuallyDrop::new(Harness::fresh());
    let mut rest = input;
    for line in 1.. {
        match decode(rest) {
            Decoded::Whole(command, length) => {
                make_call(&mut harness, line, &command, out);
                rest = &rest[length..];
            }
            Decoded::Stop => {
                write_stop(line, out);
                break;
            }
            Decoded::End => break,
        }
        between(out);
    }
    ManuallyDrop::into_inner(harness)
}

fn make_call(harness: &mut Harness, line: u64, command: &Command, out: &mut Vec<u8>) {
    CURRENT.with(|current| current.set((line, command.byte())));
    harness.call(command).write_line(line, out);
}
