//! The commands of the recorder (document 01): one variant a command byte, with its operands as
//! they stand in the input. Nothing is judged here but `stop`: an unknown command, a policy count
//! above 4 or a cut operand.

/// The calls 01 to 1f in document 01's order.
#[derive(Copy, Clone, Debug, Eq, PartialEq)]
pub enum Command {
    CreateChild {
        job: u8,
        new: u8,
    }, // 01
    KillJob {
        job: u8,
    }, // 02
    CreateProcess {
        job: u8,
        new: u8,
    }, // 03
    StartProcess {
        process: u8,
        thread: u8,
    }, // 04
    ExitProcess {
        process: u8,
        code: i64,
    }, // 05
    KillProcess {
        process: u8,
    }, // 06
    SetCritical {
        process: u8,
        job: u8,
        flag: u8,
    }, // 07
    CreateThread {
        process: u8,
        new: u8,
    }, // 08
    StartThread {
        thread: u8,
    }, // 09
    KillThread {
        thread: u8,
    }, // 0a
    ExitThread {
        thread: u8,
    }, // 0b
    FinishThread {
        thread: u8,
    }, // 0c
    MakeToken {
        new: u8,
        kind: u8,
        name: u8,
    }, // 0d
    DropToken {
        token: u8,
    }, // 0e
    /// The pairs are of condition and action.
    SetPolicy {
        job: u8,
        option: u8,
        count: u8,
        pairs: [(u8, u8); 4],
    }, // 0f
    SetSlack {
        job: u8,
        amount: i64,
        mode: u8,
    }, // 10
    CheckPolicy {
        process: u8,
        condition: u8,
    }, // 11
    Bind {
        level: u8,
        owner: u8,
    }, // 12
    HangUp {
        level: u8,
        owner: u8,
    }, // 13
    Raise {
        thread: u8,
        kind: u16,
    }, // 14
    Close {
        thread: u8,
    }, // 15
    SetState {
        thread: u8,
        state: u32,
    }, // 16
    SetStrategy {
        thread: u8,
        strategy: u32,
    }, // 17
    GetProcess {
        thread: u8,
    }, // 18
    BeginWait {
        thread: u8,
        state: u16,
    }, // 19
    PollWait {
        thread: u8,
        ready: u8,
    }, // 1a
    JobInfo {
        job: u8,
    }, // 1b
    ProcessInfo {
        process: u8,
    }, // 1c
    ThreadInfo {
        thread: u8,
    }, // 1d
    Suspend {
        kind: u8,
        name: u8,
    }, // 1e
    Resume {
        kind: u8,
        name: u8,
    }, // 1f
}

/// What the front of the input holds.
#[derive(Copy, Clone, Debug, Eq, PartialEq)]
pub enum Decoded {
    /// A command and the number of bytes it takes, its own byte included.
    Whole(Command, usize),
    /// No call: the input is over with a `stop` line.
    Stop,
    /// No byte is left.
    End,
}

/// Operand bytes after each command byte, 00 to 1f; 00 is no command.
const OPERANDS: [usize; 32] = [
    0, 2, 1, 2, 2, 9, 1, 3, 2, 1, 1, 1, 1, 3, 1, 11, // 00 to 0f
    10, 2, 2, 2, 3, 1, 5, 5, 1, 3, 2, 1, 1, 1, 2, 2, // 10 to 1f
];

/// Reads the command at the front of `input`.
pub fn decode(input: &[u8]) -> Decoded {
    let (byte, rest) = match input.split_first() {
        Some((byte, rest)) => (*byte, rest),
        None => return Decoded::End,
    };
    if byte == 0 || byte > 0x1f {
        return Decoded::Stop;
    }
    let length = OPERANDS[byte as usize];
    if rest.len() < length || (byte == 0x0f && rest[2] > 4) {
        return Decoded::Stop;
    }
    Decoded::Whole(command(byte, &rest[..length]), 1 + length)
}

fn command(byte: u8, o: &[u8]) -> Command {
    use Command::*;
    match byte {
        0x01 => CreateChild { job: o[0], new: o[1] },
        0x02 => KillJob { job: o[0] },
        0x03 => CreateProcess { job: o[0], new: o[1] },
        0x04 => StartProcess { process: o[0], thread: o[1] },
        0x05 => ExitProcess { process: o[0], code: number(&o[1..]) },
        0x06 => KillProcess { process: o[0] },
        0x07 => SetCritical { process: o[0], job: o[1], flag: o[2] },
        0x08 => CreateThread { process: o[0], new: o[1] },
        0x09 => StartThread { thread: o[0] },
        0x0a => KillThread { thread: o[0] },
        0x0b => ExitThread { thread: o[0] },
        0x0c => FinishThread { thread: o[0] },
        0x0d => MakeToken { new: o[0], kind: o[1], name: o[2] },
        0x0e => DropToken { token: o[0] },
        0x0f => SetPolicy { job: o[0], option: o[1], count: o[2], pairs: pairs(&o[3..]) },
        0x10 => SetSlack { job: o[0], amount: number(&o[1..9]), mode: o[9] },
        0x11 => CheckPolicy { process: o[0], condition: o[1] },
        0x12 => Bind { level: o[0], owner: o[1] },
        0x13 => HangUp { level: o[0], owner: o[1] },
        0x14 => Raise { thread: o[0], kind: number(&o[1..]) as u16 },
        0x15 => Close { thread: o[0] },
        0x16 => SetState { thread: o[0], state: number(&o[1..]) as u32 },
        0x17 => SetStrategy { thread: o[0], strategy: number(&o[1..]) as u32 },
        0x18 => GetProcess { thread: o[0] },
        0x19 => BeginWait { thread: o[0], state: number(&o[1..]) as u16 },
        0x1a => PollWait { thread: o[0], ready: o[1] },
        0x1b => JobInfo { job: o[0] },
        0x1c => ProcessInfo { process: o[0] },
        0x1d => ThreadInfo { thread: o[0] },
        0x1e => Suspend { kind: o[0], name: o[1] },
        _ => Resume { kind: o[0], name: o[1] },
    }
}

/// A little-endian number of up to eight bytes; eight are two's complement.
fn number(bytes: &[u8]) -> i64 {
    let mut whole = [0; 8];
    whole[..bytes.len()].copy_from_slice(bytes);
    i64::from_le_bytes(whole)
}

fn pairs(bytes: &[u8]) -> [(u8, u8); 4] {
    let pair = |i: usize| (bytes[2 * i], bytes[2 * i + 1]);
    [pair(0), pair(1), pair(2), pair(3)]
}

/// Appends the bytes that `decode` reads as `command`.
pub fn encode(command: &Command, out: &mut Vec<u8>) {
    use Command::*;
    out.push(command.byte());
    match *command {
        KillJob { job: n }
        | KillProcess { process: n }
        | StartThread { thread: n }
        | KillThread { thread: n }
        | ExitThread { thread: n }
        | FinishThread { thread: n }
        | DropToken { token: n }
        | Close { thread: n }
        | GetProcess { thread: n }
        | JobInfo { job: n }
        | ProcessInfo { process: n }
        | ThreadInfo { thread: n } => out.push(n),
        CreateChild { job: a, new: b }
        | CreateProcess { job: a, new: b }
        | StartProcess { process: a, thread: b }
        | CreateThread { process: a, new: b }
        | CheckPolicy { process: a, condition: b }
        | Bind { level: a, owner: b }
        | HangUp { level: a, owner: b }
        | PollWait { thread: a, ready: b }
        | Suspend { kind: a, name: b }
        | Resume { kind: a, name: b } => out.extend([a, b]),
        SetCritical { process, job, flag } => out.extend([process, job, flag]),
        MakeToken { new, kind, name } => out.extend([new, kind, name]),
        _ => encode_long(command, out),
    }
}

/// The operands of the commands that hold a number or a policy list.
fn encode_long(command: &Command, out: &mut Vec<u8>) {
    use Command::*;
    match *command {
        ExitProcess { process, code } => {
            out.push(process);
            out.extend(code.to_le_bytes());
        }
        SetPolicy { job, option, count, pairs } => {
            out.extend([job, option, count]);
            pairs.iter().for_each(|(condition, action)| out.extend([*condition, *action]));
        }
        SetSlack { job, amount, mode } => {
            out.push(job);
            out.extend(amount.to_le_bytes());
            out.push(mode);
        }
        Raise { thread, kind: number } | BeginWait { thread, state: number } => {
            out.push(thread);
            out.extend(number.to_le_bytes());
        }
        SetState { thread, state: number } | SetStrategy { thread, strategy: number } => {
            out.push(thread);
            out.extend(number.to_le_bytes());
        }
        _ => unreachable!("encoded by `encode`"),
    }
}

impl Command {
    /// The command byte.
    pub fn byte(&self) -> u8 {
        use Command::*;
        match self {
            CreateChild { .. } => 0x01,
            KillJob { .. } => 0x02,
            CreateProcess { .. } => 0x03,
            StartProcess { .. } => 0x04,
            ExitProcess { .. } => 0x05,
            KillProcess { .. } => 0x06,
            SetCritical { .. } => 0x07,
            CreateThread { .. } => 0x08,
            StartThread { .. } => 0x09,
            KillThread { .. } => 0x0a,
            ExitThread { .. } => 0x0b,
            FinishThread { .. } => 0x0c,
            MakeToken { .. } => 0x0d,
            DropToken { .. } => 0x0e,
            SetPolicy { .. } => 0x0f,
            SetSlack { .. } => 0x10,
            CheckPolicy { .. } => 0x11,
            Bind { .. } => 0x12,
            HangUp { .. } => 0x13,
            Raise { .. } => 0x14,
            Close { .. } => 0x15,
            SetState { .. } => 0x16,
            SetStrategy { .. } => 0x17,
            GetProcess { .. } => 0x18,
            BeginWait { .. } => 0x19,
            PollWait { .. } => 0x1a,
            JobInfo { .. } => 0x1b,
            ProcessInfo { .. } => 0x1c,
            ThreadInfo { .. } => 0x1d,
            Suspend { .. } => 0x1e,
            Resume { .. } => 0x1f,
        }
    }
}
