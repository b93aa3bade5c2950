//! Stand-in for zCore's hardware layer: what the task sources name of it, for one thread and
//! without a clock.

pub mod context;
pub mod sync;
pub mod thread;

pub mod vm {
    //! Page tables are left out.

    pub fn activate_paging(_table: usize) {}
}

pub mod timer {
    //! No clock runs; the timer object is compiled for its slack modes only.

    use std::time::Duration;

    pub fn timer_now() -> Duration {
        Duration::ZERO
    }

    pub fn timer_set(_deadline: Duration, _callback: Box<dyn FnOnce(Duration) + Send + Sync>) {}
}

pub mod user {
    //! Errors of user pointers, which error.rs turns into its own.

    #[derive(Copy, Clone, Debug)]
    pub enum Error {
        InvalidUtf8,
        InvalidPointer,
        BufferTooSmall,
        InvalidLength,
        InvalidVectorAddress,
    }
}
