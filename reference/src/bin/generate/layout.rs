//! What stands where in a command: the operands of 01 to 1f in order, as document 01 lists them.
//! The generator uses it to spoil an operand and to cut a list at a command's edge.

#[derive(Copy, Clone, Debug, Eq, PartialEq)]
pub enum Operand {
    Job,
    NewJob,
    Process,
    NewProcess,
    Thread,
    NewThread,
    Token,
    NewToken,
    /// A kind or a level; the next operand is the name it picks the table for.
    Kind,
    KindName,
    Level,
    LevelOwner,
    Flag,
    Choice,
    Count,
    Condition,
    Action,
    Mode,
    Ready,
    Type,
    WaitState,
    Word,
    Value,
}

use Operand::*;

impl Operand {
    pub fn width(self) -> usize {
        match self {
            Type | WaitState => 2,
            Word => 4,
            Value => 8,
            _ => 1,
        }
    }
}

pub const EXCEPTION_TYPES: [u16; 11] = [
    0x008, 0x108, 0x208, 0x308, 0x408, 0x508, 0x8000, 0x8008, 0x8108, 0x8208, 0x8308,
];
pub const THREAD_STARTING: u16 = 0x8008;
pub const THREAD_EXITING: u16 = 0x8108;
pub const PROCESS_STARTING: u16 = 0x8308;

pub const WAIT_STATES: [u16; 9] = [
    0x003, 0x203, 0x303, 0x403, 0x503, 0x603, 0x703, 0x803, 0x903,
];

pub const DYING: u16 = 4;

/// The operands of a command byte; `None` if it is unknown.
pub fn operands(command: u8) -> Option<&'static [Operand]> {
    Some(match command {
        0x01 => &[Job, NewJob],
        0x02 | 0x1b => &[Job],
        0x03 => &[Job, NewProcess],
        0x04 => &[Process, Thread],
        0x05 => &[Process, Value],
        0x06 | 0x1c => &[Process],
        0x07 => &[Process, Job, Flag],
        0x08 => &[Process, NewThread],
        0x09..=0x0c | 0x15 | 0x18 | 0x1d => &[Thread],
        0x0d => &[NewToken, Kind, KindName],
        0x0e => &[Token],
        0x0f => &[
            Job, Choice, Count, Condition, Action, Condition, Action, Condition, Action, Condition,
            Action,
        ],
        0x10 => &[Job, Value, Mode],
        0x11 => &[Process, Condition],
        0x12 | 0x13 => &[Level, LevelOwner],
        0x14 => &[Thread, Type],
        0x16 | 0x17 => &[Thread, Word],
        0x19 => &[Thread, WaitState],
        0x1a => &[Thread, Ready],
        0x1e | 0x1f => &[Kind, KindName],
        _ => return None,
    })
}

/// The bytes of a whole command, its command byte included; `None` if it is unknown.
pub fn length(command: u8) -> Option<usize> {
    let widths = operands(command)?.iter().map(|operand| operand.width());
    Some(1 + widths.sum::<usize>())
}
