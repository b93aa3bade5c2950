//! The records of one run as plain data: what `--dump` prints, and what the generator looks at.
//! Nothing here knows how the Rust holds them; `harness.rs` reads them off the running objects.

use std::fmt;

/// A channel level of an exception: see document 01, exception.rs.
#[derive(Copy, Clone, Debug, Eq, PartialEq)]
pub enum Level {
    Unbound,
    Bound,
    HungUp,
    Shut,
}

#[derive(Copy, Clone, Debug, Eq, PartialEq)]
pub enum Status {
    Init,
    Running,
    Exited(i64),
}

/// Entry 0 is none, a + 1 the action a.
pub type Policy = [u8; 15];

#[derive(Copy, Clone, Debug)]
pub struct JobRecord {
    pub parent: Option<u8>,
    pub listed: bool,
    pub killed: bool,
    pub terminated: bool,
    pub job_level: Level,
    pub debugger_level: Level,
    pub slack_amount: i64,
    pub slack_mode: u8,
    pub own: Policy,
    pub inherited: Policy,
}

#[derive(Copy, Clone, Debug)]
pub struct ProcessRecord {
    pub job: u8,
    pub listed: bool,
    pub status: Status,
    pub terminated: bool,
    pub debugger_level: Level,
    pub process_level: Level,
    /// The bound job, and whether only nonzero codes count.
    pub critical: Option<(u8, bool)>,
    pub fixed: Policy,
}

/// An exception that a handler holds.
#[derive(Copy, Clone, Debug)]
pub struct ExceptionRecord {
    pub kind: u16,
    /// `current_channel_type`: 0 while a ThreadExiting waits at level 1.
    pub current: u8,
    pub handled: bool,
    pub second_chance: bool,
}

#[derive(Copy, Clone, Debug)]
pub struct ThreadRecord {
    pub process: u8,
    pub listed: bool,
    /// The stored state and the shown one, as numbers of `ThreadState`.
    pub stored: u16,
    pub shown: u16,
    /// 1 running, 2 suspended, 4 terminated.
    pub signals: u8,
    pub suspends: u32,
    pub killed: bool,
    pub started: bool,
    pub finished: bool,
    pub thread_level: Level,
    pub exception: Option<ExceptionRecord>,
    /// The state of a plain wait that was begun and not yet polled to its end.
    pub wait: Option<u16>,
}

#[derive(Copy, Clone, Debug)]
pub enum TokenRecord {
    /// Kind (1 process, 2 thread) and name of its task.
    Held(u8, u8),
    Dropped,
}

/// A made name has `Some`.
pub struct Records {
    pub jobs: [Option<JobRecord>; 32],
    pub processes: [Option<ProcessRecord>; 64],
    pub threads: [Option<ThreadRecord>; 128],
    pub tokens: [Option<TokenRecord>; 64],
}

// -- The dump ----------------------------------------------------------------------------------

/// One line for each made name, tables in the order of the fields. README.md gives the format.
impl fmt::Display for Records {
    fn fmt(&self, f: &mut fmt::Formatter) -> fmt::Result {
        write_table(f, "job", &self.jobs)?;
        write_table(f, "process", &self.processes)?;
        write_table(f, "thread", &self.threads)?;
        write_table(f, "token", &self.tokens)
    }
}

fn write_table<R: fmt::Display>(
    f: &mut fmt::Formatter,
    kind: &str,
    table: &[Option<R>],
) -> fmt::Result {
    for (name, record) in table.iter().enumerate() {
        if let Some(record) = record {
            writeln!(f, "{} {} {}", kind, name, record)?;
        }
    }
    Ok(())
}

impl fmt::Display for JobRecord {
    fn fmt(&self, f: &mut fmt::Formatter) -> fmt::Result {
        write!(f, "parent {} listed {}", OrDash(self.parent), u8::from(self.listed))?;
        write!(f, " killed {} terminated {}", u8::from(self.killed), u8::from(self.terminated))?;
        write!(f, " level4 {} level5 {}", self.job_level, self.debugger_level)?;
        write!(f, " slack {} {}", self.slack_amount, self.slack_mode)?;
        write!(f, " own {} inherited {}", Entries(&self.own), Entries(&self.inherited))
    }
}

impl fmt::Display for ProcessRecord {
    fn fmt(&self, f: &mut fmt::Formatter) -> fmt::Result {
        write!(f, "job {} listed {}", self.job, u8::from(self.listed))?;
        match self.status {
            Status::Init => write!(f, " status init")?,
            Status::Running => write!(f, " status running")?,
            Status::Exited(code) => write!(f, " status exited {}", code)?,
        }
        write!(f, " terminated {}", u8::from(self.terminated))?;
        write!(f, " level1 {} level3 {}", self.debugger_level, self.process_level)?;
        match self.critical {
            None => write!(f, " critical -")?,
            Some((job, nonzero)) => write!(f, " critical {} {}", job, u8::from(nonzero))?,
        }
        write!(f, " fixed {}", Entries(&self.fixed))
    }
}

impl fmt::Display for ThreadRecord {
    fn fmt(&self, f: &mut fmt::Formatter) -> fmt::Result {
        write!(f, "process {} listed {}", self.process, u8::from(self.listed))?;
        write!(f, " stored {} shown {} signals {}", self.stored, self.shown, self.signals)?;
        write!(f, " suspends {} killed {}", self.suspends, u8::from(self.killed))?;
        write!(f, " started {} finished {}", u8::from(self.started), u8::from(self.finished))?;
        write!(f, " level2 {} exception ", self.thread_level)?;
        match &self.exception {
            None => write!(f, "-")?,
            Some(e) => {
                let (handled, second) = (u8::from(e.handled), u8::from(e.second_chance));
                write!(f, "{} {} {} {}", e.kind, e.current, handled, second)?
            }
        }
        write!(f, " wait {}", OrDash(self.wait))
    }
}

impl fmt::Display for TokenRecord {
    fn fmt(&self, f: &mut fmt::Formatter) -> fmt::Result {
        match self {
            TokenRecord::Held(kind, name) => write!(f, "held {} {}", kind, name),
            TokenRecord::Dropped => write!(f, "dropped"),
        }
    }
}

impl fmt::Display for Level {
    fn fmt(&self, f: &mut fmt::Formatter) -> fmt::Result {
        f.write_str(match self {
            Level::Unbound => "unbound",
            Level::Bound => "bound",
            Level::HungUp => "hungup",
            Level::Shut => "shut",
        })
    }
}

/// A number, or `-` for none.
struct OrDash<N>(Option<N>);

impl<N: fmt::Display> fmt::Display for OrDash<N> {
    fn fmt(&self, f: &mut fmt::Formatter) -> fmt::Result {
        match &self.0 {
            Some(number) => number.fmt(f),
            None => f.write_str("-"),
        }
    }
}

/// The fifteen characters of a policy, as in the answer of 1b.
struct Entries<'a>(&'a Policy);

impl fmt::Display for Entries<'_> {
    fn fmt(&self, f: &mut fmt::Formatter) -> fmt::Result {
        self.0.iter().try_for_each(|entry| match entry {
            0 => f.write_str("-"),
            _ => write!(f, "{}", entry - 1),
        })
    }
}
