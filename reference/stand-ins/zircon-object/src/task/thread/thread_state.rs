//! Stand-in for the register sets of a thread, which are left out.

use crate::ZxResult;
use kernel_hal::context::UserContext;

pub enum ThreadStateKind {}

pub trait ContextAccessState {
    fn read_state(&self, kind: ThreadStateKind, buffer: &mut [u8]) -> ZxResult<usize>;
    fn write_state(&mut self, kind: ThreadStateKind, buffer: &[u8]) -> ZxResult;
}

impl ContextAccessState for UserContext {
    fn read_state(&self, kind: ThreadStateKind, _buffer: &mut [u8]) -> ZxResult<usize> {
        match kind {}
    }

    fn write_state(&mut self, kind: ThreadStateKind, _buffer: &[u8]) -> ZxResult {
        match kind {}
    }
}
