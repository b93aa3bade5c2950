//! Stand-in for a thread's registers: nothing of them is looked at, and they are never taken away.

#[derive(Copy, Clone, Debug, Default)]
pub struct UserContext;

/// Why user code stopped; only a page fault is told apart by the sources.
pub enum TrapReason {
    PageFault(usize, ()),
    Other,
}

impl UserContext {
    pub fn new() -> Self {
        UserContext
    }

    pub fn setup_uspace(&mut self, _entry: usize, _stack: usize, _arguments: &[usize; 3]) {}

    pub fn enable_extended_state(&mut self) {}

    pub fn trap_reason(&self) -> TrapReason {
        TrapReason::Other
    }

    pub fn raw_trap_reason(&self) -> usize {
        0
    }

    pub fn error_code(&self) -> usize {
        0
    }
}
