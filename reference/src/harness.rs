//! One run of the Rust: a fresh root, then one call at a time. Each call is first turned back in
//! front or handed to the Rust; then every thread waiting in an exception is polled to rest.

use crate::commands::Command::{self, *};
use crate::front;
use crate::reply::{Fields, Reply};
use crate::tables::*;
use futures::channel::oneshot;
use futures::future::poll_fn;
use futures::task::noop_waker;
use kernel_hal::thread::set_deadline_passed;
use std::cell::Cell;
use std::future::Future;
use std::sync::Arc;
use std::task::{Context, Poll, Waker};
use std::time::Duration;
use zircon_object::object::Rights;
use zircon_object::signal::Slack;
use zircon_object::task::{
    BasicPolicy, CurrentThread, PolicyAction, Process, SetPolicyOptions, SuspendToken, Task,
    Thread, TimerSlackPolicy,
};
use zircon_object::ZxResult;

pub struct Harness {
    pub(crate) tables: Tables,
    /// The threads that wait in an exception.
    pub(crate) raised: Vec<u8>,
    pub(crate) waker: Waker,
}

thread_local! {
    /// Where a started thread leaves its `CurrentThread`.
    static STARTED: Cell<Option<CurrentThread>> = const { Cell::new(None) };
    /// Whether a plain wait's own future is done, in the poll to come.
    static DONE: Cell<bool> = const { Cell::new(false) };
}

/// The answer of a call that gives nothing but a result.
pub(crate) fn number<T>(result: ZxResult<T>) -> i64 {
    result.map_or_else(|error| error as i32 as i64, |_| 0)
}

impl Harness {
    /// The fresh root.
    pub fn fresh() -> Harness {
        Harness { tables: Tables::fresh(), raised: Vec::new(), waker: noop_waker() }
    }

    /// Makes one call and lets the exceptions come to rest.
    pub fn call(&mut self, command: &Command) -> Reply {
        if let Some(refused) = front::refusal(&self.tables, command) {
            return Reply::plain(refused);
        }
        let reply = match *command {
            Raise { thread, kind } => self.raise(thread, kind),
            Close { thread } => self.close(thread),
            JobInfo { job } => self.job_info(job),
            ProcessInfo { process } => self.process_info(process),
            ThreadInfo { thread } => self.thread_info(thread),
            _ => Reply::plain(self.perform(command)),
        };
        self.poll_to_rest();
        reply
    }

    fn perform(&mut self, command: &Command) -> i64 {
        match *command {
            CreateChild { job, new } => self.create_child(job, new),
            CreateProcess { job, new } => self.create_process(job, new),
            CreateThread { process, new } => self.create_thread(process, new),
            StartProcess { process, thread } => self.start_process(process, thread),
            StartThread { thread } => self.start_thread(thread),
            FinishThread { thread } => self.finish_thread(thread),
            MakeToken { new, kind, name } => self.make_token(new, kind, name),
            DropToken { token } => self.drop_token(token),
            SetPolicy { job, option, count, pairs } => {
                self.set_policy(job, option, &pairs[..count as usize])
            }
            SetSlack { job, amount, mode } => self.set_slack(job, amount, mode),
            Bind { level, owner } => self.bind(level, owner),
            HangUp { level, owner } => self.hang_up(level, owner),
            BeginWait { thread, state } => self.begin_wait(thread, state),
            PollWait { thread, ready } => self.poll_wait(thread, ready),
            _ => self.perform_simply(command),
        }
    }

    /// The calls that are one function of the Rust.
    fn perform_simply(&mut self, command: &Command) -> i64 {
        let tables = &self.tables;
        match *command {
            KillJob { job } => done(tables.job(job).job.kill()),
            ExitProcess { process, code } => done(tables.process(process).process.exit(code)),
            KillProcess { process } => done(tables.process(process).process.kill()),
            SetCritical { process, job, flag } => {
                let job = &tables.job(job).job;
                number(tables.process(process).process.set_critical_at_job(job, flag == 1))
            }
            KillThread { thread } => done(tables.thread(thread).thread.kill()),
            ExitThread { thread } => match &tables.thread(thread).doing {
                Doing::Running(current) => done(current.exit()),
                _ => unreachable!("105"),
            },
            CheckPolicy { process, condition } => {
                number(tables.process(process).process.check_policy(front::condition(condition)))
            }
            SetState { thread, state } => number(self.held(thread).set_state(state)),
            SetStrategy { thread, strategy } => number(self.held(thread).set_strategy(strategy)),
            GetProcess { thread } => number(self.held(thread).get_process_handle()),
            Suspend { kind, name } => done(self.task(kind, name).suspend()),
            Resume { kind, name } => done(self.task(kind, name).resume()),
            _ => unreachable!("performed before"),
        }
    }

    // -- Making and starting -------------------------------------------------------------------

    fn create_child(&mut self, parent: u8, new: u8) -> i64 {
        let made = self.tables.job(parent).job.create_child();
        number(made.map(|job| {
            let slot = JobSlot { job, parent: Some(parent), handler: None, debugger: None };
            self.tables.jobs[new as usize] = Some(slot);
        }))
    }

    fn create_process(&mut self, job: u8, new: u8) -> i64 {
        let made = Process::create_with_ext(&self.tables.job(job).job, "", ());
        number(made.map(|process| {
            let slot = ProcessSlot { process, job, handler: None, debugger: None };
            self.tables.processes[new as usize] = Some(slot);
        }))
    }

    fn create_thread(&mut self, process: u8, new: u8) -> i64 {
        let made = Thread::create_with_ext(&self.tables.process(process).process, "", ());
        number(made.map(|thread| {
            let slot = ThreadSlot { thread, process, handler: None, doing: Doing::Unstarted };
            self.tables.threads[new as usize] = Some(slot);
        }))
    }

    fn start_process(&mut self, process: u8, thread: u8) -> i64 {
        let first = &self.tables.thread(thread).thread;
        let result = self.tables.process(process).process.start(first, 0, 0, None, 0, keep_current);
        self.take_started(thread);
        number(result)
    }

    fn start_thread(&mut self, thread: u8) -> i64 {
        let result = self.tables.thread(thread).thread.start(keep_current);
        self.take_started(thread);
        number(result)
    }

    fn take_started(&mut self, thread: u8) {
        if let Some(current) = STARTED.with(Cell::take) {
            self.tables.thread_mut(thread).doing = Doing::Running(current);
        }
    }

    /// The drop of `CurrentThread` ends the thread.
    fn finish_thread(&mut self, thread: u8) -> i64 {
        done(drop(self.tables.thread_mut(thread).take_current()))
    }

    // -- Suspending ----------------------------------------------------------------------------

    /// A process or thread as a task.
    fn task(&self, kind: u8, name: u8) -> Arc<dyn Task> {
        match Table::of_kind(kind) {
            Table::Processes => self.tables.process(name).process.clone(),
            _ => self.tables.thread(name).thread.clone(),
        }
    }

    fn make_token(&mut self, new: u8, kind: u8, name: u8) -> i64 {
        let token = SuspendToken::create(&self.task(kind, name));
        self.tables.tokens[new as usize] = Some(TokenSlot::Held { token, kind, name });
        0
    }

    fn drop_token(&mut self, token: u8) -> i64 {
        let held = self.tables.tokens[token as usize].replace(TokenSlot::Dropped);
        done(drop(held))
    }

    // -- Policies ------------------------------------------------------------------------------

    fn set_policy(&mut self, job: u8, option: u8, pairs: &[(u8, u8)]) -> i64 {
        let mut list =
            [BasicPolicy { condition: front::condition(0), action: PolicyAction::Allow }; 4];
        for (entry, (condition, action)) in list.iter_mut().zip(pairs) {
            *entry = BasicPolicy {
                condition: front::condition(*condition),
                action: policy_action(*action),
            };
        }
        let options = [SetPolicyOptions::Absolute, SetPolicyOptions::Relative];
        number(
            self.tables
                .job(job)
                .job
                .set_policy_basic(options[option as usize], &list[..pairs.len()]),
        )
    }

    fn set_slack(&mut self, job: u8, amount: i64, mode: u8) -> i64 {
        let modes = [Slack::Center, Slack::Early, Slack::Late];
        let policy = TimerSlackPolicy::new(amount, modes[mode as usize]);
        number(self.tables.job(job).job.set_policy_timer_slack(policy))
    }

    // -- Exception channels --------------------------------------------------------------------

    fn bind(&mut self, level: u8, owner: u8) -> i64 {
        let bound = self.tables.exceptionate(level, owner).create_channel(Rights::all());
        number(bound.map(|channel| *self.tables.handler(level, owner) = Some(channel)))
    }

    fn hang_up(&mut self, level: u8, owner: u8) -> i64 {
        done(drop(self.tables.handler(level, owner).take()))
    }

    // -- Plain waits ---------------------------------------------------------------------------

    fn begin_wait(&mut self, thread: u8, state: u16) -> i64 {
        let slot = self.tables.thread_mut(thread);
        let current = slot.take_current();
        let (cancel, cancelled) = oneshot::channel();
        let blocked = front::wait_state(state).expect("104");
        let future = Box::pin(async move {
            let own =
                poll_fn(|_| if DONE.with(Cell::get) { Poll::Ready(()) } else { Poll::Pending });
            let result = current.blocking_run(own, blocked, Duration::MAX, Some(cancelled)).await;
            (current, result)
        });
        slot.doing = Doing::Waiting(Wait { future, cancel: Some(cancel), state });
        // Begun at once: pending, or -60 by a Dying thread.
        match self.poll_wait(thread, 0) {
            SHOULD_WAIT => 0,
            ended => ended,
        }
    }

    /// The bits of `ready` hold for this poll.
    fn poll_wait(&mut self, thread: u8, ready: u8) -> i64 {
        let slot = self.tables.thread_mut(thread);
        let wait = match &mut slot.doing {
            Doing::Waiting(wait) => wait,
            _ => unreachable!("105"),
        };
        if ready & 4 != 0 {
            wait.cancel.take().map(|cancel| cancel.send(()));
        }
        DONE.with(|cell| cell.set(ready & 1 != 0));
        set_deadline_passed(ready & 2 != 0);
        let polled = wait.future.as_mut().poll(&mut Context::from_waker(&self.waker));
        DONE.with(|cell| cell.set(false));
        set_deadline_passed(false);
        match polled {
            Poll::Pending => SHOULD_WAIT,
            Poll::Ready((current, result)) => {
                slot.doing = Doing::Running(current);
                number(result)
            }
        }
    }

    // -- Information ---------------------------------------------------------------------------

    fn job_info(&self, job: u8) -> Reply {
        let record = self.job(job).expect("103");
        let policy = crate::reading::policy(self.tables.job(job).job.policy());
        let fields = Fields::Job {
            killed: record.killed,
            terminated: record.terminated,
            amount: record.slack_amount,
            mode: record.slack_mode,
            policy,
        };
        Reply { answer: 0, fields }
    }

    fn process_info(&self, process: u8) -> Reply {
        let process = &self.tables.process(process).process;
        let info = process.get_info();
        let fields = Fields::Process {
            code: info.return_code,
            started: info.started,
            exited: info.has_exited,
            debugger: info.debugger_attached,
            terminated: crate::reading::terminated(&**process),
        };
        Reply { answer: 0, fields }
    }

    fn thread_info(&self, thread: u8) -> Reply {
        let thread = &self.tables.thread(thread).thread;
        let (shown, waiting) = thread.get_thread_info().shown();
        let fields = Fields::Thread {
            shown: shown as u16,
            waiting: waiting as u8,
            suspends: thread.suspends() as u32,
        };
        Reply { answer: 0, fields }
    }
}

const SHOULD_WAIT: i64 = zircon_object::ZxError::SHOULD_WAIT as i32 as i64;

/// The answer of a call that gives nothing.
fn done(_nothing: ()) -> i64 {
    0
}

/// The body of every started thread: it leaves its `CurrentThread` to the harness, which acts in
/// its place.
fn keep_current(current: CurrentThread) -> std::pin::Pin<Box<dyn Future<Output = ()> + Send>> {
    STARTED.with(|started| started.set(Some(current)));
    Box::pin(std::future::ready(()))
}

fn policy_action(number: u8) -> PolicyAction {
    use PolicyAction::*;
    [Allow, Deny, AllowException, DenyException, Kill][number as usize]
}
