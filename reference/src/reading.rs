//! Reads the records off the running objects. Parents, lists and bindings are the Rust's own,
//! turned into names.

use crate::harness::Harness;
use crate::records::*;
use crate::tables::{Doing, TokenSlot};
use zircon_object::object::{KernelObject, KoID, Signal};
use zircon_object::shown::ChannelShown;
use zircon_object::task::{Exceptionate, JobPolicy, Status as Stored, Task};

impl Harness {
    /// Every record of a made name.
    pub fn records(&self) -> Records {
        let mut records = Records {
            jobs: [None; 32],
            processes: [None; 64],
            threads: [None; 128],
            tokens: [None; 64],
        };
        (0..32).for_each(|name| records.jobs[name as usize] = self.job(name));
        (0..64).for_each(|name| records.processes[name as usize] = self.process(name));
        (0..128).for_each(|name| records.threads[name as usize] = self.thread(name));
        (0..64).for_each(|name| records.tokens[name as usize] = self.token(name));
        records
    }

    pub fn job(&self, name: u8) -> Option<JobRecord> {
        let job = &self.tables.jobs.get(name as usize)?.as_ref()?.job;
        let shown = job.shown();
        Some(JobRecord {
            parent: job.parent().map(|parent| self.job_name(parent.id())),
            listed: job.parent().map_or(false, |parent| parent.children_ids().contains(&job.id())),
            killed: shown.killed,
            terminated: terminated(&**job),
            job_level: level(&job.exceptionate()),
            debugger_level: level(&job.debug_exceptionate()),
            slack_amount: shown.slack_amount,
            slack_mode: shown.slack_mode as u8,
            own: policy(shown.own),
            inherited: policy(shown.inherited),
        })
    }

    pub fn process(&self, name: u8) -> Option<ProcessRecord> {
        let process = &self.tables.processes.get(name as usize)?.as_ref()?.process;
        let job = process.job();
        let critical = process.critical();
        Some(ProcessRecord {
            job: self.job_name(job.id()),
            listed: job.process_ids().contains(&process.id()),
            status: match process.status() {
                Stored::Init => Status::Init,
                Stored::Running => Status::Running,
                Stored::Exited(code) => Status::Exited(code),
            },
            terminated: terminated(&**process),
            debugger_level: level(&process.debug_exceptionate()),
            process_level: level(&process.exceptionate()),
            critical: critical.map(|(job, nonzero)| (self.job_name(job), nonzero)),
            fixed: policy(process.fixed()),
        })
    }

    pub fn thread(&self, name: u8) -> Option<ThreadRecord> {
        let slot = self.tables.threads.get(name as usize)?.as_ref()?;
        let thread = &slot.thread;
        let shown = thread.shown();
        Some(ThreadRecord {
            process: self.process_name(thread.proc().id()),
            listed: thread.proc().thread_ids().contains(&thread.id()),
            stored: shown.stored as u16,
            shown: thread.state() as u16,
            signals: signals(thread.signal()),
            suspends: shown.suspends as u32,
            killed: shown.killed,
            started: !matches!(slot.doing, Doing::Unstarted),
            finished: matches!(slot.doing, Doing::Finished),
            thread_level: level(&thread.exceptionate()),
            exception: shown.exception.map(|exception| ExceptionRecord {
                kind: exception.kind as u16,
                current: exception.current as u8,
                handled: exception.handled,
                second_chance: exception.second_chance,
            }),
            wait: match &slot.doing {
                Doing::Waiting(wait) => Some(wait.state),
                _ => None,
            },
        })
    }

    pub fn token(&self, name: u8) -> Option<TokenRecord> {
        match self.tables.tokens.get(name as usize)?.as_ref()? {
            TokenSlot::Held { kind, name, .. } => Some(TokenRecord::Held(*kind, *name)),
            TokenSlot::Dropped => Some(TokenRecord::Dropped),
        }
    }

    fn job_name(&self, id: KoID) -> u8 {
        let is = |slot: &Option<crate::tables::JobSlot>| {
            slot.as_ref().map_or(false, |slot| slot.job.id() == id)
        };
        self.tables.jobs.iter().position(is).expect("a made job") as u8
    }

    fn process_name(&self, id: KoID) -> u8 {
        let is = |slot: &Option<crate::tables::ProcessSlot>| {
            slot.as_ref().map_or(false, |slot| slot.process.id() == id)
        };
        self.tables.processes.iter().position(is).expect("a made process") as u8
    }
}

/// Whether the signal of a job's or a process's end is up.
pub(crate) fn terminated(object: &dyn KernelObject) -> bool {
    object.signal().contains(Signal::JOB_TERMINATED)
}

pub(crate) fn policy(policy: JobPolicy) -> Policy {
    let mut entries = [0; 15];
    for (number, entry) in entries.iter_mut().enumerate() {
        let action = policy.get_action(crate::front::condition(number as u8));
        *entry = action.map_or(0, |action| action as u8 + 1);
    }
    entries
}

fn level(exceptionate: &Exceptionate) -> Level {
    match exceptionate.shown() {
        ChannelShown::Unbound => Level::Unbound,
        ChannelShown::Bound => Level::Bound,
        ChannelShown::HungUp => Level::HungUp,
        ChannelShown::Shut => Level::Shut,
    }
}

fn signals(signal: Signal) -> u8 {
    let bit = |flag, number| if signal.contains(flag) { number } else { 0 };
    bit(Signal::THREAD_RUNNING, 1)
        | bit(Signal::THREAD_SUSPENDED, 2)
        | bit(Signal::THREAD_TERMINATED, 4)
}
