//! Questions that the generator asks of the records before it chooses a call: which names are
//! made, which threads can act, what lies above a job.

use reference::records::{
    JobRecord, Level, ProcessRecord, Records, Status, ThreadRecord, TokenRecord,
};

pub struct View<'a>(pub &'a Records);

fn made<T>(table: &[Option<T>], wanted: impl Fn(&T) -> bool) -> Vec<u8> {
    let mut names = Vec::new();
    for (name, entry) in table.iter().enumerate() {
        if entry.as_ref().map_or(false, &wanted) {
            names.push(name as u8);
        }
    }
    names
}

fn unmade<T>(table: &[Option<T>]) -> Vec<u8> {
    let mut names = Vec::new();
    for (name, entry) in table.iter().enumerate() {
        if entry.is_none() {
            names.push(name as u8);
        }
    }
    names
}

impl View<'_> {
    // -- Made names -------------------------------------------------------------------------

    pub fn jobs(&self, wanted: impl Fn(&JobRecord) -> bool) -> Vec<u8> {
        made(&self.0.jobs, wanted)
    }

    pub fn processes(&self, wanted: impl Fn(&ProcessRecord) -> bool) -> Vec<u8> {
        made(&self.0.processes, wanted)
    }

    pub fn threads(&self, wanted: impl Fn(&ThreadRecord) -> bool) -> Vec<u8> {
        made(&self.0.threads, wanted)
    }

    /// The tokens still held.
    pub fn tokens(&self) -> Vec<u8> {
        made(&self.0.tokens, |token| matches!(token, TokenRecord::Held(..)))
    }

    pub fn job(&self, name: u8) -> Option<&JobRecord> {
        self.0.jobs.get(name as usize)?.as_ref()
    }

    pub fn process(&self, name: u8) -> Option<&ProcessRecord> {
        self.0.processes.get(name as usize)?.as_ref()
    }

    pub fn thread(&self, name: u8) -> Option<&ThreadRecord> {
        self.0.threads.get(name as usize)?.as_ref()
    }

    // -- New names --------------------------------------------------------------------------

    pub fn free_jobs(&self) -> Vec<u8> {
        unmade(&self.0.jobs)
    }

    pub fn free_processes(&self) -> Vec<u8> {
        unmade(&self.0.processes)
    }

    pub fn free_threads(&self) -> Vec<u8> {
        unmade(&self.0.threads)
    }

    pub fn free_tokens(&self) -> Vec<u8> {
        unmade(&self.0.tokens)
    }

    // -- Relations --------------------------------------------------------------------------

    /// The job itself, its parent, and so on up to the root.
    pub fn upward(&self, job: u8) -> Vec<u8> {
        let mut path = vec![job];
        while let Some(parent) = self.job(path[path.len() - 1]).and_then(|job| job.parent) {
            path.push(parent);
        }
        path
    }

    /// Whether the job lists no child and no process.
    pub fn is_empty(&self, job: u8) -> bool {
        let child = |record: &JobRecord| record.listed && record.parent == Some(job);
        let member = |record: &ProcessRecord| record.listed && record.job == job;
        self.jobs(child).is_empty() && self.processes(member).is_empty()
    }

    /// The listed threads of a process.
    pub fn listed_threads(&self, process: u8) -> Vec<u8> {
        self.threads(|thread| thread.listed && thread.process == process)
    }

    /// Whether every thread that a resume of this task concerns has a count above 0.
    pub fn can_resume(&self, kind: u8, name: u8) -> bool {
        let counted = |thread: &u8| self.thread(*thread).map_or(false, |t| t.suspends > 0);
        match kind {
            1 => self.listed_threads(name).iter().all(counted),
            2 => counted(&name),
            _ => false,
        }
    }

    /// The state of a level: 1 and 3 of a process, 2 of a thread, 4 and 5 of a job.
    pub fn level(&self, level: u8, owner: u8) -> Option<Level> {
        match level {
            1 => self.process(owner).map(|process| process.debugger_level),
            2 => self.thread(owner).map(|thread| thread.thread_level),
            3 => self.process(owner).map(|process| process.process_level),
            4 => self.job(owner).map(|job| job.job_level),
            5 => self.job(owner).map(|job| job.debugger_level),
            _ => None,
        }
    }

    /// All owners of a level.
    pub fn owners(&self, level: u8) -> Vec<u8> {
        match level {
            1 | 3 => self.processes(|_| true),
            2 => self.threads(|_| true),
            _ => self.jobs(|_| true),
        }
    }

    // -- Threads ----------------------------------------------------------------------------

    /// The threads that may exit, finish, raise or begin a wait.
    pub fn able_threads(&self) -> Vec<u8> {
        self.threads(is_able)
    }
}

pub fn is_able(thread: &ThreadRecord) -> bool {
    thread.started && !thread.finished && !is_waiting(thread)
}

pub fn is_waiting(thread: &ThreadRecord) -> bool {
    thread.wait.is_some() || thread.exception.is_some()
}

pub fn has_exited(process: &ProcessRecord) -> bool {
    matches!(process.status, Status::Exited(_))
}
