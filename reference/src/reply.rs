//! The answer to one call and the line that `callrun` writes for it.

use crate::records::Policy;

/// Lines are bytes, appended to a buffer that the program writes at its end.
#[derive(Copy, Clone, Debug, Eq, PartialEq)]
pub struct Reply {
    pub answer: i64,
    pub fields: Fields,
}

/// What follows the answer on the line.
#[derive(Copy, Clone, Debug, Eq, PartialEq)]
pub enum Fields {
    None,
    /// 14 and 15: the owner of the level that holds the exception, 0 where none.
    Owner(u8),
    Job {
        killed: bool,
        terminated: bool,
        amount: i64,
        mode: u8,
        policy: Policy,
    },
    Process {
        code: i64,
        started: bool,
        exited: bool,
        debugger: bool,
        terminated: bool,
    },
    Thread {
        shown: u16,
        waiting: u8,
        suspends: u32,
    },
}

impl Reply {
    /// An answer without fields.
    pub fn plain(answer: i64) -> Reply {
        Reply { answer, fields: Fields::None }
    }

    /// Appends the line of call `number`, newline included.
    pub fn write_line(&self, number: u64, out: &mut Vec<u8>) {
        push_number(number as i64, out);
        field(self.answer, out);
        match self.fields {
            Fields::None => {}
            Fields::Owner(owner) => field(owner.into(), out),
            Fields::Job { killed, terminated, amount, mode, policy } => {
                [killed.into(), terminated.into(), amount, mode.into()]
                    .iter()
                    .for_each(|n| field(*n, out));
                out.push(b' ');
                out.extend(
                    policy.iter().map(|entry| if *entry == 0 { b'-' } else { b'0' + entry - 1 }),
                );
            }
            Fields::Process { code, started, exited, debugger, terminated } => {
                let flags = [started, exited, debugger, terminated];
                field(code, out);
                flags.iter().for_each(|flag| field((*flag).into(), out));
            }
            Fields::Thread { shown, waiting, suspends } => {
                [shown.into(), waiting.into(), suspends.into()].iter().for_each(|n| field(*n, out));
            }
        }
        out.push(b'\n');
    }
}

/// Appends the line of a command that is no call.
pub fn write_stop(number: u64, out: &mut Vec<u8>) {
    push_number(number as i64, out);
    out.extend(b" stop\n");
}

fn field(number: i64, out: &mut Vec<u8>) {
    out.push(b' ');
    push_number(number, out);
}

fn push_number(number: i64, out: &mut Vec<u8>) {
    if number < 0 {
        out.push(b'-');
    }
    let mut digits = [0; 20];
    let mut rest = number.unsigned_abs();
    let mut first = digits.len();
    loop {
        first -= 1;
        digits[first] = b'0' + (rest % 10) as u8;
        rest /= 10;
        if rest == 0 {
            break;
        }
    }
    out.extend_from_slice(&digits[first..]);
}
