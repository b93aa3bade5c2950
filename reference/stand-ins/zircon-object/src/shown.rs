//! What the listed patches show of the sources: plain copies of hidden fields, and how an exception
//! ended.

use crate::task::{JobPolicy, ThreadState};
use crate::{ZxError, ZxResult};
use core::cell::Cell;

/// An exception channel as its kernel end knows it.
#[derive(Copy, Clone, Debug, Eq, PartialEq)]
pub enum ChannelShown {
    Unbound,
    Bound,
    HungUp,
    Shut,
}

#[derive(Copy, Clone)]
pub struct ExceptionShown {
    pub kind: u32,
    pub current: u32,
    pub handled: bool,
    pub second_chance: bool,
}

pub struct ThreadShown {
    pub stored: ThreadState,
    pub suspends: usize,
    pub killed: bool,
    pub exception: Option<ExceptionShown>,
}

pub struct JobShown {
    pub killed: bool,
    pub slack_amount: i64,
    pub slack_mode: u32,
    pub own: JobPolicy,
    pub inherited: JobPolicy,
}

// -- How an exception ended ------------------------------------------------------------------

thread_local! {
    /// Set where the source learns it; the source itself drops the value.
    static OUTCOME: Cell<Option<ZxResult>> = const { Cell::new(None) };
}

/// Takes what the last poll of an exception noted.
pub fn take_outcome() -> Option<ZxResult> {
    OUTCOME.with(Cell::take)
}

/// In `Exception::handle`: what the handlers made of it.
pub fn note(result: ZxResult) {
    OUTCOME.with(|outcome| outcome.set(Some(result)));
}

/// In `handle_exception`: a kill ended the wait, or kept it from beginning.
pub fn stopped(error: ZxError) -> ZxError {
    note(Err(error));
    error
}

/// In `handle_exception`: whether ThreadExiting was sent.
pub fn sent<T>(result: ZxResult<T>) -> ZxResult<T> {
    result.map_err(stopped)
}

/// In `handle_exception`: how the wait in ThreadExiting ended.
pub fn closed<T>(result: ZxResult<T>) -> ZxResult<T> {
    note(result.as_ref().map(|_| ()).map_err(|error| *error));
    result
}
