//! Chooses the next call of a list. `aimed` looks at the records so that the call does real work;
//! `loose` takes any made names, so that refusals by the Rust and calls out of turn occur.

use crate::layout::*;
use crate::profile::Profile;
use reference::records::{Level, Records, Status};
use crate::rng::Rng;
use crate::view::{has_exited, is_able, is_waiting, View};

/// A task by kind (0 job, 1 process, 2 thread) and name.
pub type Task = (u8, u8);

/// The bytes of a call and the task that it is about.
pub type Chosen = (Vec<u8>, Option<Task>);

pub struct Chooser<'a> {
    pub rng: &'a mut Rng,
    pub view: View<'a>,
    pub profile: &'a Profile,
    /// The task of the call before, which information is often asked of.
    recent: Option<Task>,
}

/// The next call, spoiled in the profile's share of cases.
pub fn next_call(
    rng: &mut Rng,
    records: &Records,
    profile: &Profile,
    recent: Option<Task>,
) -> Chosen {
    let mut chooser = Chooser { rng, view: View(records), profile, recent };
    let call = chooser.choose();
    (chooser.maybe_spoil(call.clone()), about(&call))
}

/// The task that a call names first, if it names one.
fn about(call: &[u8]) -> Option<Task> {
    match operands(call[0])?[0] {
        Operand::Job => Some((0, call[1])),
        Operand::Process => Some((1, call[1])),
        Operand::Thread => Some((2, call[1])),
        Operand::Kind => Some((call[1], call[2])),
        Operand::NewToken => Some((call[2], call[3])),
        _ => None,
    }
}

fn with_half(command: u8, thread: u8, half: u16) -> Vec<u8> {
    let bytes = half.to_le_bytes();
    vec![command, thread, bytes[0], bytes[1]]
}

fn push_half(half: u16, call: &mut Vec<u8>) -> Option<()> {
    call.extend(half.to_le_bytes());
    Some(())
}

impl Chooser<'_> {
    // -- Which command ----------------------------------------------------------------------

    fn choose(&mut self) -> Vec<u8> {
        let weights = self.weights();
        for _ in 0..40 {
            let command = 1 + self.rng.weighted(&weights).unwrap_or(0x1a) as u8;
            let aimed = self.rng.chance(self.aimed_share(command));
            let call = if aimed { self.aimed(command) } else { self.loose(command) };
            if let Some(call) = call {
                return call;
            }
        }
        vec![0x1b, 0]
    }

    /// Few threads wait at a time, so that a loose call on a wait is nearly always out of turn:
    /// there are fewer of them.
    fn aimed_share(&self, command: u8) -> usize {
        match command {
            0x15..=0x18 | 0x1a => 100 - (100 - self.profile.aimed) / 3,
            _ => self.profile.aimed,
        }
    }

    /// The profile's weights, with what the state lacks weighted up: a list that has killed all
    /// it had begins anew.
    fn weights(&self) -> [usize; 31] {
        let mut weights = self.profile.weights;
        let living = self.view.processes(|process| !has_exited(process)).len();
        let hopeful = self.view.threads(|thread| !thread.finished && thread.stored != DYING).len();
        if self.view.jobs(|job| !job.killed).len() < 3 {
            weights[0x01 - 1] *= 3;
        }
        if living < 2 {
            weights[0x03 - 1] *= 5;
        }
        if hopeful < 3 {
            weights[0x08 - 1] *= 3;
        }
        if self.view.able_threads().is_empty() {
            weights[0x09 - 1] *= 4;
        }
        weights
    }

    // -- Operands that suit the state --------------------------------------------------------

    fn aimed(&mut self, command: u8) -> Option<Vec<u8>> {
        let c = command;
        Some(match command {
            0x01 => vec![c, self.growing_job(3)?, self.new_job()?],
            0x02 => vec![c, self.job_to_kill()?],
            0x03 => vec![c, self.growing_job(2)?, self.new_process()?],
            0x04 => self.process_start()?,
            0x05 => self.with_value(c, self.view.processes(|p| !has_exited(p)))?,
            0x06 => vec![c, self.pick(self.view.processes(|p| !has_exited(p)))?],
            0x07 => self.critical()?,
            0x08 => vec![c, self.process_for_thread()?, self.new_thread()?],
            0x09 => vec![c, self.pick(self.view.threads(|t| !t.started))?],
            0x0a => vec![c, self.thread_to_kill()?],
            0x0b | 0x0c => vec![c, self.pick(self.view.able_threads())?],
            0x0d => self.token()?,
            0x0e => vec![c, self.token_to_drop()?],
            0x0f => self.policy(true)?,
            0x10 => self.slack(true)?,
            0x11 => self.question()?,
            0x12 => self.bind()?,
            0x13 => self.hang_up()?,
            0x14 => self.raise()?,
            0x15 | 0x18 => vec![c, self.pick(self.view.threads(|t| t.exception.is_some()))?],
            0x16 => self.set_state()?,
            0x17 => self.set_strategy()?,
            0x19 => self.begin_wait()?,
            0x1a => self.poll()?,
            0x1b..=0x1d => self.information(c)?,
            0x1e => self.suspend()?,
            _ => self.resume()?,
        })
    }

    pub fn pick(&mut self, names: Vec<u8>) -> Option<u8> {
        self.rng.pick(&names)
    }

    /// A job to make something in: not killed, the deepest of a few picked by chance.
    fn growing_job(&mut self, picks: usize) -> Option<u8> {
        let jobs = self.view.jobs(|job| !job.killed);
        let mut deepest = self.rng.pick(&jobs)?;
        for _ in 1..picks {
            let other = self.rng.pick(&jobs)?;
            if self.view.upward(other).len() > self.view.upward(deepest).len() {
                deepest = other;
            }
        }
        Some(deepest)
    }

    /// Seldom the root, since nothing can be made after its end.
    fn job_to_kill(&mut self) -> Option<u8> {
        let job = self.pick(self.view.jobs(|job| !job.killed))?;
        if job == 0 && !self.rng.chance(10) {
            return None;
        }
        Some(job)
    }

    fn new_job(&mut self) -> Option<u8> {
        self.pick(self.view.free_jobs())
    }

    fn new_process(&mut self) -> Option<u8> {
        self.pick(self.view.free_processes())
    }

    fn new_thread(&mut self) -> Option<u8> {
        self.pick(self.view.free_threads())
    }

    fn process_start(&mut self) -> Option<Vec<u8>> {
        let waiting = self.view.processes(|p| p.status == Status::Init);
        let threads = self.view.threads(|t| !t.started && waiting.contains(&t.process));
        let thread = self.pick(threads)?;
        Some(vec![0x04, self.view.thread(thread)?.process, thread])
    }

    /// A process bound to its own job or one above it, mostly not the root.
    fn critical(&mut self) -> Option<Vec<u8>> {
        let process = self.pick(self.view.processes(|p| p.critical.is_none()))?;
        let mut path = self.view.upward(self.view.process(process)?.job);
        if path.len() > 1 && !self.rng.chance(10) {
            path.pop();
        }
        Some(vec![0x07, process, self.pick(path)?, self.rng.below(2) as u8])
    }

    /// A living process; often one that a token holds, so that its counts differ.
    fn process_for_thread(&mut self) -> Option<u8> {
        let living = self.view.processes(|p| !has_exited(p));
        let held: Vec<u8> = living.iter().copied().filter(|p| self.is_held(*p)).collect();
        if !held.is_empty() && self.rng.chance(40) {
            return self.pick(held);
        }
        self.pick(living)
    }

    fn is_held(&self, process: u8) -> bool {
        use reference::records::TokenRecord::Held;
        let on = |token: &Option<_>| matches!(token, Some(Held(1, name)) if *name == process);
        self.view.0.tokens.iter().any(on)
    }

    /// Half of the kills meet a waiting thread, some one that was never started.
    fn thread_to_kill(&mut self) -> Option<u8> {
        let preferred = match self.rng.below(10) {
            0..=4 => self.view.threads(is_waiting),
            5..=6 => self.view.threads(|t| !t.started && t.stored != DYING),
            _ => self.view.threads(|t| !t.finished),
        };
        self.pick(preferred)
    }

    fn token(&mut self) -> Option<Vec<u8>> {
        let new = self.pick(self.view.free_tokens())?;
        let (kind, name) = self.task_to_suspend()?;
        Some(vec![0x0d, new, kind, name])
    }

    fn token_to_drop(&mut self) -> Option<u8> {
        use reference::records::TokenRecord::Held;
        let mut good = Vec::new();
        for token in self.view.tokens() {
            if let Some(Held(kind, name)) = self.view.0.tokens[token as usize] {
                if self.view.can_resume(kind, name) {
                    good.push(token);
                }
            }
        }
        self.pick(good)
    }

    fn task_to_suspend(&mut self) -> Option<Task> {
        if self.rng.chance(45) {
            return Some((1, self.pick(self.view.processes(|p| !p.terminated))?));
        }
        let finished = self.rng.chance(10);
        Some((2, self.pick(self.view.threads(|t| finished || !t.finished))?))
    }

    fn suspend(&mut self) -> Option<Vec<u8>> {
        let (kind, name) = self.task_to_suspend()?;
        Some(vec![0x1e, kind, name])
    }

    fn resume(&mut self) -> Option<Vec<u8>> {
        let kind = self.rng.between(1, 2) as u8;
        let mut names = if kind == 1 {
            self.view.processes(|p| !p.terminated)
        } else {
            self.view.threads(|_| true)
        };
        names.retain(|name| self.view.can_resume(kind, *name));
        Some(vec![0x1f, kind, self.pick(names)?])
    }

    // -- Policies ---------------------------------------------------------------------------

    /// A list of up to four pairs; `aimed` asks for an empty job. Few conditions, so that a
    /// child often meets one that its parent set.
    fn policy(&mut self, aimed: bool) -> Option<Vec<u8>> {
        let job = self.pick(self.jobs_for_policy(aimed))?;
        let count = self.rng.weighted(&[1, 4, 5, 4, 3])? as u8;
        let mut call = vec![0x0f, job, self.rng.below(2) as u8, count];
        for place in 0..4 {
            if place < count {
                call.push(self.condition());
                call.push(self.rng.weighted(&[6, 6, 1, 1, 1])? as u8);
            } else {
                // Past the count any byte may stand.
                call.push(self.rng.byte());
                call.push(self.rng.byte());
            }
        }
        Some(call)
    }

    fn condition(&mut self) -> u8 {
        if self.rng.chance(60) {
            return self.rng.pick(&[3, 4, 5, 12]).unwrap_or(3);
        }
        self.rng.below(15) as u8
    }

    fn jobs_for_policy(&self, aimed: bool) -> Vec<u8> {
        let mut jobs = self.view.jobs(|_| true);
        jobs.retain(|job| !aimed || self.view.is_empty(*job));
        jobs
    }

    fn slack(&mut self, aimed: bool) -> Option<Vec<u8>> {
        let jobs = self.jobs_for_policy(aimed);
        let mut call = self.with_value(0x10, jobs)?;
        if aimed && call[9] > 127 && self.rng.chance(80) {
            call[9] -= 128;
        }
        call.push(self.rng.below(3) as u8);
        Some(call)
    }

    /// Mostly a condition that the process's policy has an entry for.
    fn question(&mut self) -> Option<Vec<u8>> {
        let process = self.pick(self.view.processes(|_| true))?;
        let fixed = self.view.process(process)?.fixed;
        let mut set: Vec<u8> = (0..15).filter(|c| fixed[*c as usize] != 0).collect();
        if !self.rng.chance(30) {
            set.retain(|c| fixed[*c as usize] <= 2);
        }
        if set.is_empty() || self.rng.chance(25) {
            return Some(vec![0x11, process, self.rng.below(15) as u8]);
        }
        Some(vec![0x11, process, self.pick(set)?])
    }

    /// A call `command name V` with an edge or a small number for V.
    fn with_value(&mut self, command: u8, names: Vec<u8>) -> Option<Vec<u8>> {
        let edges = [0, 0, 0, 1, 7, -1, -1028, 1_000_000_000, i64::MAX, i64::MIN];
        let mut value = self.rng.pick(&edges)?;
        if self.rng.chance(15) {
            value = self.rng.next() as i64;
        }
        let mut call = vec![command, self.pick(names)?];
        call.extend(value.to_le_bytes());
        Some(call)
    }

    // -- Exceptions -------------------------------------------------------------------------

    /// The owner of a level near a thread that can act: itself, its process, a job above.
    fn near_owner(&mut self, level: u8) -> Option<u8> {
        let thread = self.pick(self.view.able_threads())?;
        let process = self.view.thread(thread)?.process;
        match level {
            1 | 3 => Some(process),
            2 => Some(thread),
            _ => {
                let path = self.view.upward(self.view.process(process)?.job);
                self.pick(path)
            }
        }
    }

    fn bind(&mut self) -> Option<Vec<u8>> {
        let level = self.rng.between(1, 5) as u8;
        let open = [Some(Level::Unbound), Some(Level::HungUp)];
        let mut owner = None;
        if self.rng.chance(80) {
            owner = self.near_owner(level);
        }
        let owner = match owner {
            Some(owner) => owner,
            None => self.pick(self.view.owners(level))?,
        };
        if !open.contains(&self.view.level(level, owner)) {
            return None;
        }
        Some(vec![0x12, level, owner])
    }

    fn hang_up(&mut self) -> Option<Vec<u8>> {
        let mut bound = Vec::new();
        for level in 1..=5 {
            for owner in self.view.owners(level) {
                if self.view.level(level, owner) == Some(Level::Bound) {
                    bound.push((level, owner));
                }
            }
        }
        let (level, owner) = self.rng.pick(&bound)?;
        Some(vec![0x13, level, owner])
    }

    fn raise(&mut self) -> Option<Vec<u8>> {
        let dying = self.rng.chance(15);
        let able = self.view.threads(|t| is_able(t) && (dying || t.stored != DYING));
        let thread = self.pick(able)?;
        let exiting = self.view.thread(thread)?.stored == DYING && self.rng.chance(60);
        let kind = if exiting { THREAD_EXITING } else { self.exception_type()? };
        if !self.is_heard(thread, kind) && self.rng.chance(80) {
            return None;
        }
        Some(with_half(0x14, thread, kind))
    }

    /// Whether a level on the exception's way is open.
    fn is_heard(&self, thread: u8, kind: u16) -> bool {
        let process = match self.view.thread(thread) {
            Some(thread) => thread.process,
            None => return false,
        };
        let open = |level, owner| self.view.level(level, owner) == Some(Level::Bound);
        let above = |level| {
            let path = self.view.process(process).map(|process| self.view.upward(process.job));
            path.unwrap_or_default().iter().any(|job| open(level, *job))
        };
        match kind {
            PROCESS_STARTING => above(5),
            THREAD_STARTING | THREAD_EXITING => open(1, process),
            _ => open(1, process) || open(2, thread) || open(3, process) || above(4),
        }
    }

    /// Ordinary types in most cases; each of the other routes often enough.
    fn exception_type(&mut self) -> Option<u16> {
        match self.rng.below(20) {
            0..=1 => Some(THREAD_STARTING),
            2..=4 => Some(THREAD_EXITING),
            5..=8 => Some(PROCESS_STARTING),
            9..=11 => self.rng.pick(&[0x8000, 0x8208]),
            _ => self.rng.pick(&EXCEPTION_TYPES[0..6]),
        }
    }

    fn with_word(&mut self, command: u8, thread: u8) -> Option<Vec<u8>> {
        let word: u32 = match self.rng.below(20) {
            0 => self.rng.pick(&[2, 3, 0x100, 0x8000_0000, u32::MAX])?,
            1..=8 => 0,
            _ => 1,
        };
        let mut call = vec![command, thread];
        call.extend(word.to_le_bytes());
        Some(call)
    }

    fn set_state(&mut self) -> Option<Vec<u8>> {
        let thread = self.pick(self.view.threads(|t| t.exception.is_some()))?;
        self.with_word(0x16, thread)
    }

    /// Mostly at levels 1 and 5, where it is accepted.
    fn set_strategy(&mut self) -> Option<Vec<u8>> {
        let any = self.rng.chance(15);
        let threads = self.view.threads(|t| match t.exception {
            Some(exception) => any || exception.current == 1 || exception.current == 5,
            None => false,
        });
        let thread = self.pick(threads)?;
        self.with_word(0x17, thread)
    }

    // -- Waits and information --------------------------------------------------------------

    fn begin_wait(&mut self) -> Option<Vec<u8>> {
        let dying = self.rng.chance(10);
        let able = self.view.threads(|t| is_able(t) && (dying || t.stored != DYING));
        let thread = self.pick(able)?;
        let state = self.rng.pick(&WAIT_STATES)?;
        Some(with_half(0x19, thread, state))
    }

    fn poll(&mut self) -> Option<Vec<u8>> {
        let thread = self.pick(self.view.threads(|t| t.wait.is_some()))?;
        let ready = if self.rng.chance(35) { 0 } else { self.rng.below(8) as u8 };
        Some(vec![0x1a, thread, ready])
    }

    fn information(&mut self, command: u8) -> Option<Vec<u8>> {
        let kind = command - 0x1b;
        if let Some((recent, name)) = self.recent {
            if recent == kind && self.rng.chance(70) {
                return Some(vec![command, name]);
            }
        }
        Some(vec![command, self.any_task(kind)?])
    }

    // -- Any made names ---------------------------------------------------------------------

    fn any_task(&mut self, kind: u8) -> Option<u8> {
        match kind {
            0 => self.pick(self.view.jobs(|_| true)),
            1 => self.pick(self.view.processes(|_| true)),
            _ => self.pick(self.view.threads(|_| true)),
        }
    }

    /// Fields inside their lists and made names, whatever their state; new names are new.
    fn loose(&mut self, command: u8) -> Option<Vec<u8>> {
        match command {
            0x02 => return Some(vec![command, self.job_to_kill()?]),
            0x05 => return self.with_value(command, self.view.processes(|_| true)),
            0x0f => return self.policy(false),
            0x10 => return self.slack(false),
            0x16 | 0x17 => {
                let thread = self.any_task(2)?;
                return self.with_word(command, thread);
            }
            _ => {}
        }
        let mut call = vec![command];
        for operand in operands(command)? {
            self.push_loose(*operand, &mut call)?;
        }
        Some(call)
    }

    fn push_loose(&mut self, operand: Operand, call: &mut Vec<u8>) -> Option<()> {
        let byte = match operand {
            Operand::Job => self.any_task(0)?,
            Operand::Process => self.any_task(1)?,
            Operand::Thread => self.any_task(2)?,
            Operand::Token => self.pick(self.view.tokens())?,
            Operand::NewJob => self.new_job()?,
            Operand::NewProcess => self.new_process()?,
            Operand::NewThread => self.new_thread()?,
            Operand::NewToken => self.pick(self.view.free_tokens())?,
            Operand::Kind => self.rng.below(3) as u8,
            Operand::KindName => self.any_task(call[call.len() - 1])?,
            Operand::Level => self.rng.between(1, 5) as u8,
            Operand::LevelOwner => self.pick(self.view.owners(call[call.len() - 1]))?,
            Operand::Flag => self.rng.below(2) as u8,
            Operand::Condition => self.rng.below(15) as u8,
            Operand::Ready => self.rng.below(8) as u8,
            Operand::Type => return push_half(self.rng.pick(&EXCEPTION_TYPES)?, call),
            Operand::WaitState => return push_half(self.rng.pick(&WAIT_STATES)?, call),
            _ => return None,
        };
        call.push(byte);
        Some(())
    }
}
