//! The refusals above 100: document 01's table, row by row, over all operands of a call. They are
//! decided in front and touch nothing of the Rust; what they ask of it is only read.

use crate::commands::Command::{self, *};
use crate::tables::{Doing, Table, Tables, TokenSlot};
use zircon_object::shown::ChannelShown;
use zircon_object::task::{PolicyAction, PolicyCondition};

const PAST_ITS_TABLE: i64 = 101;
const ALREADY_USED: i64 = 102;
const NEVER_MADE: i64 = 103;
const BAD_FIELD: i64 = 104;
const OUT_OF_TURN: i64 = 105;
const WOULD_PANIC: i64 = 106;
const COUNT_FULL: i64 = 107;

/// The highest suspend count.
const MOST_SUSPENDS: usize = 65_535;

/// The first row of the table that turns `command` back, if any.
pub fn refusal(tables: &Tables, command: &Command) -> Option<i64> {
    if bad_field(command) {
        return Some(BAD_FIELD);
    }
    if let Some(refused) = bad_name(tables, command) {
        return Some(refused);
    }
    if out_of_turn(tables, command) {
        return Some(OUT_OF_TURN);
    }
    if would_panic(tables, command) {
        return Some(WOULD_PANIC);
    }
    if count_full(tables, command) {
        return Some(COUNT_FULL);
    }
    None
}

// -- Fields ------------------------------------------------------------------------------------

fn bad_field(command: &Command) -> bool {
    match *command {
        SetCritical { flag, .. } => flag > 1,
        MakeToken { kind, .. } | Suspend { kind, .. } | Resume { kind, .. } => kind > 2,
        SetPolicy { option, count, pairs, .. } => {
            option > 1
                || pairs[..count as usize]
                    .iter()
                    .any(|(condition, action)| *condition > 14 || *action > 4)
        }
        SetSlack { mode, .. } => mode > 2,
        CheckPolicy { condition, .. } => condition > 14,
        Bind { level, .. } | HangUp { level, .. } => level < 1 || level > 5,
        Raise { kind, .. } => exception_type(kind).is_none(),
        BeginWait { state, .. } => wait_state(state).is_none(),
        PollWait { ready, .. } => ready > 7,
        _ => false,
    }
}

/// The eleven exception types by number.
pub fn exception_type(number: u16) -> Option<zircon_object::task::ExceptionType> {
    use zircon_object::task::ExceptionType::*;
    let types = [
        General,
        FatalPageFault,
        UndefinedInstruction,
        SoftwareBreakpoint,
        HardwareBreakpoint,
        UnalignedAccess,
        Synth,
        ThreadStarting,
        ThreadExiting,
        PolicyError,
        ProcessStarting,
    ];
    types.iter().copied().find(|kind| *kind as u32 == number.into())
}

/// The states of a plain wait by number: Blocked, and the blocked ones from Sleeping to Pager.
pub fn wait_state(number: u16) -> Option<zircon_object::task::ThreadState> {
    use zircon_object::task::ThreadState::*;
    let states = [
        Blocked,
        BlockedSleeping,
        BlockedFutex,
        BlockedPort,
        BlockedChannel,
        BlockedWaitOne,
        BlockedWaitMany,
        BlockedInterrupt,
        BlockedPager,
    ];
    states.iter().copied().find(|state| *state as u32 == number.into())
}

/// The fifteen conditions by number.
pub fn condition(number: u8) -> PolicyCondition {
    use PolicyCondition::*;
    let conditions = [
        BadHandle,
        WrongObject,
        VmarWx,
        NewAny,
        NewVMO,
        NewChannel,
        NewEvent,
        NewEventPair,
        NewPort,
        NewSocket,
        NewFIFO,
        NewTimer,
        NewProcess,
        NewProfile,
        AmbientMarkVMOExec,
    ];
    conditions[number as usize]
}

// -- Names -------------------------------------------------------------------------------------

/// The names of a command: at most two old ones and a new one.
struct Names {
    old: [Option<(Table, u8)>; 2],
    new: Option<(Table, u8)>,
}

fn bad_name(tables: &Tables, command: &Command) -> Option<i64> {
    let names = names(command);
    let past = |(table, name): &(Table, u8)| *name >= table.size();
    if names.old.iter().flatten().any(past) || names.new.iter().any(past) {
        return Some(PAST_ITS_TABLE);
    }
    if names.old.iter().flatten().any(|(table, name)| !tables.present(*table, *name)) {
        return Some(NEVER_MADE);
    }
    if names.new.iter().any(|(table, name)| tables.used(*table, *name)) {
        return Some(ALREADY_USED);
    }
    None
}

fn names(command: &Command) -> Names {
    use Table::*;
    let one = |table, name| Names { old: [Some((table, name)), None], new: None };
    let two = |a, b| Names { old: [Some(a), Some(b)], new: None };
    let make = |old, table, name| Names { old: [Some(old), None], new: Some((table, name)) };
    match *command {
        CreateChild { job, new } => make((Jobs, job), Jobs, new),
        CreateProcess { job, new } => make((Jobs, job), Processes, new),
        CreateThread { process, new } => make((Processes, process), Threads, new),
        MakeToken { new, kind, name } => make((Table::of_kind(kind), name), Tokens, new),
        StartProcess { process, thread } => two((Processes, process), (Threads, thread)),
        SetCritical { process, job, .. } => two((Processes, process), (Jobs, job)),
        KillJob { job } | SetPolicy { job, .. } | SetSlack { job, .. } | JobInfo { job } => {
            one(Jobs, job)
        }
        ExitProcess { process, .. }
        | KillProcess { process }
        | CheckPolicy { process, .. }
        | ProcessInfo { process } => one(Processes, process),
        StartThread { thread }
        | KillThread { thread }
        | ExitThread { thread }
        | FinishThread { thread }
        | Raise { thread, .. }
        | Close { thread }
        | SetState { thread, .. }
        | SetStrategy { thread, .. }
        | GetProcess { thread }
        | BeginWait { thread, .. }
        | PollWait { thread, .. }
        | ThreadInfo { thread } => one(Threads, thread),
        DropToken { token } => one(Tokens, token),
        Bind { level, owner } | HangUp { level, owner } => one(Table::of_level(level), owner),
        Suspend { kind, name } | Resume { kind, name } => one(Table::of_kind(kind), name),
    }
}

// -- Turn --------------------------------------------------------------------------------------

fn out_of_turn(tables: &Tables, command: &Command) -> bool {
    let doing = |thread| &tables.thread(thread).doing;
    match *command {
        StartProcess { thread, .. } | StartThread { thread } => {
            !matches!(doing(thread), Doing::Unstarted)
        }
        ExitThread { thread }
        | FinishThread { thread }
        | Raise { thread, .. }
        | BeginWait { thread, .. } => !matches!(doing(thread), Doing::Running(_)),
        Close { thread }
        | SetState { thread, .. }
        | SetStrategy { thread, .. }
        | GetProcess { thread } => !matches!(doing(thread), Doing::Raised(_)),
        PollWait { thread, .. } => !matches!(doing(thread), Doing::Waiting(_)),
        HangUp { level, owner } => tables.exceptionate(level, owner).shown() != ChannelShown::Bound,
        _ => false,
    }
}

// -- Panics and counts -------------------------------------------------------------------------

fn would_panic(tables: &Tables, command: &Command) -> bool {
    match *command {
        MakeToken { kind, .. } | Suspend { kind, .. } => kind == 0,
        Resume { kind, name } => kind == 0 || lacks_count(tables, kind, name),
        DropToken { token } => match tables.tokens[token as usize] {
            Some(TokenSlot::Held { kind, name, .. }) => lacks_count(tables, kind, name),
            _ => false,
        },
        CheckPolicy { process, condition: number } => {
            use PolicyAction::*;
            let action = tables.process(process).process.fixed().get_action(condition(number));
            matches!(action, Some(AllowException) | Some(DenyException) | Some(Kill))
        }
        _ => false,
    }
}

/// Whether a thread concerned by a resume has no count left.
fn lacks_count(tables: &Tables, kind: u8, name: u8) -> bool {
    tables.any_concerned(kind, name, |thread| thread.suspends() == 0)
}

fn count_full(tables: &Tables, command: &Command) -> bool {
    match *command {
        MakeToken { kind, name, .. } | Suspend { kind, name } => {
            tables.any_concerned(kind, name, |thread| thread.suspends() >= MOST_SUSPENDS)
        }
        _ => false,
    }
}
