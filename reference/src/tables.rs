//! The objects made so far, by name. Their maker keeps every one alive, with the handlers' ends of
//! the exception channels and what a started thread is doing.

use futures::channel::oneshot::Sender;
use std::future::Future;
use std::pin::Pin;
use std::sync::Arc;
use zircon_object::ipc::Channel;
use zircon_object::task::*;
use zircon_object::ZxResult;

/// A kind of name; tokens are no task.
#[derive(Copy, Clone, Debug, Eq, PartialEq)]
pub enum Table {
    Jobs,
    Processes,
    Threads,
    Tokens,
}

impl Table {
    /// The names of a table are those below this number.
    pub fn size(self) -> u8 {
        match self {
            Table::Jobs => 32,
            Table::Processes | Table::Tokens => 64,
            Table::Threads => 128,
        }
    }

    /// The table that a kind byte picks.
    pub fn of_kind(kind: u8) -> Table {
        match kind {
            0 => Table::Jobs,
            1 => Table::Processes,
            _ => Table::Threads,
        }
    }

    /// The table of a level's owner.
    pub fn of_level(level: u8) -> Table {
        match level {
            1 | 3 => Table::Processes,
            2 => Table::Threads,
            _ => Table::Jobs,
        }
    }
}

/// The handler's end of an exception channel, from its binding until it hangs up.
pub type Handler = Option<Arc<Channel>>;

pub struct JobSlot {
    pub job: Arc<Job>,
    pub parent: Option<u8>,
    pub handler: Handler,
    pub debugger: Handler,
}

pub struct ProcessSlot {
    pub process: Arc<Process>,
    pub job: u8,
    pub handler: Handler,
    pub debugger: Handler,
}

pub struct ThreadSlot {
    pub thread: Arc<Thread>,
    pub process: u8,
    pub handler: Handler,
    pub doing: Doing,
}

impl ThreadSlot {
    /// Takes `CurrentThread` for a future that gives it back, or for its drop.
    pub fn take_current(&mut self) -> CurrentThread {
        match std::mem::replace(&mut self.doing, Doing::Finished) {
            Doing::Running(current) => current,
            _ => unreachable!("105: neither unstarted, finished nor waiting"),
        }
    }
}

/// What a thread's `CurrentThread` is used for.
pub enum Doing {
    Unstarted,
    Running(CurrentThread),
    Raised(Raised),
    Waiting(Wait),
    Finished,
}

/// A thread in `handle_exception`. The future hands `CurrentThread` back at its end.
pub struct Raised {
    pub future: Pin<Box<dyn Future<Output = CurrentThread>>>,
    /// What the handler holds, and where it was delivered: none before the first poll and after a
    /// close.
    pub delivered: Option<Delivered>,
}

pub struct Delivered {
    pub object: Arc<ExceptionObject>,
    pub level: u8,
    pub owner: u8,
}

/// A thread in `blocking_run`.
pub struct Wait {
    pub future: Pin<Box<dyn Future<Output = (CurrentThread, ZxResult)>>>,
    pub cancel: Option<Sender<()>>,
    pub state: u16,
}

pub enum TokenSlot {
    /// `token` is kept for its drop.
    #[allow(dead_code)]
    Held {
        token: Arc<SuspendToken>,
        kind: u8,
        name: u8,
    },
    Dropped,
}

pub struct Tables {
    pub jobs: [Option<JobSlot>; 32],
    pub processes: [Option<ProcessSlot>; 64],
    pub threads: [Option<ThreadSlot>; 128],
    pub tokens: [Option<TokenSlot>; 64],
}

const NO_JOB: Option<JobSlot> = None;
const NO_PROCESS: Option<ProcessSlot> = None;
const NO_THREAD: Option<ThreadSlot> = None;
const NO_TOKEN: Option<TokenSlot> = None;

impl Tables {
    /// Nothing but the root.
    pub fn fresh() -> Tables {
        let mut tables = Tables {
            jobs: [NO_JOB; 32],
            processes: [NO_PROCESS; 64],
            threads: [NO_THREAD; 128],
            tokens: [NO_TOKEN; 64],
        };
        tables.jobs[0] =
            Some(JobSlot { job: Job::root(), parent: None, handler: None, debugger: None });
        tables
    }

    // The next six are asked only for names that the front has let pass.

    pub fn job(&self, name: u8) -> &JobSlot {
        self.jobs[name as usize].as_ref().expect("a made job")
    }

    pub fn process(&self, name: u8) -> &ProcessSlot {
        self.processes[name as usize].as_ref().expect("a made process")
    }

    pub fn thread(&self, name: u8) -> &ThreadSlot {
        self.threads[name as usize].as_ref().expect("a made thread")
    }

    pub fn job_mut(&mut self, name: u8) -> &mut JobSlot {
        self.jobs[name as usize].as_mut().expect("a made job")
    }

    pub fn process_mut(&mut self, name: u8) -> &mut ProcessSlot {
        self.processes[name as usize].as_mut().expect("a made process")
    }

    pub fn thread_mut(&mut self, name: u8) -> &mut ThreadSlot {
        self.threads[name as usize].as_mut().expect("a made thread")
    }

    /// Whether `name` was ever made; a dropped token was.
    pub fn used(&self, table: Table, name: u8) -> bool {
        let at = name as usize;
        match table {
            Table::Jobs => self.jobs[at].is_some(),
            Table::Processes => self.processes[at].is_some(),
            Table::Threads => self.threads[at].is_some(),
            Table::Tokens => self.tokens[at].is_some(),
        }
    }

    /// Whether `name` can be named as an old one; a dropped token can't.
    pub fn present(&self, table: Table, name: u8) -> bool {
        match table {
            Table::Tokens => matches!(self.tokens[name as usize], Some(TokenSlot::Held { .. })),
            _ => self.used(table, name),
        }
    }

    /// The kernel end of a level.
    pub fn exceptionate(&self, level: u8, owner: u8) -> Arc<Exceptionate> {
        match level {
            1 => self.process(owner).process.debug_exceptionate(),
            2 => self.thread(owner).thread.exceptionate(),
            3 => self.process(owner).process.exceptionate(),
            4 => self.job(owner).job.exceptionate(),
            _ => self.job(owner).job.debug_exceptionate(),
        }
    }

    /// The handler's end of a level.
    pub fn handler(&mut self, level: u8, owner: u8) -> &mut Handler {
        match level {
            1 => &mut self.process_mut(owner).debugger,
            2 => &mut self.thread_mut(owner).handler,
            3 => &mut self.process_mut(owner).handler,
            4 => &mut self.job_mut(owner).handler,
            _ => &mut self.job_mut(owner).debugger,
        }
    }

    /// Whether some thread concerned by a suspend or resume of this process or thread is as
    /// `asked`.
    pub fn any_concerned(&self, kind: u8, name: u8, asked: impl Fn(&Thread) -> bool) -> bool {
        match Table::of_kind(kind) {
            Table::Processes => self.process(name).process.any_listed(asked),
            Table::Threads => asked(&self.thread(name).thread),
            _ => false,
        }
    }
}

/// Objects hold one another in circles; after a list these are cut, so that the memory comes back.
/// Tokens stand last in `Tables` and so drop after their tasks: nothing is resumed by them.
impl Drop for Tables {
    fn drop(&mut self) {
        self.processes.iter().flatten().for_each(|slot| slot.process.let_go());
        self.jobs.iter().flatten().for_each(|slot| slot.job.let_go());
        self.threads.iter().flatten().for_each(|slot| slot.thread.let_go());
    }
}
