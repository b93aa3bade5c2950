//! Stand-in for object signals: the ones the sources name, with the numbers of the public Zircon
//! pages.

use bitflags::bitflags;

bitflags! {
    #[derive(Default)]
    pub struct Signal: u32 {
        const READABLE = 1 << 0;
        const WRITABLE = 1 << 1;
        const PEER_CLOSED = 1 << 2;
        const SIGNALED = 1 << 3;
        const JOB_TERMINATED = 1 << 3;
        const PROCESS_TERMINATED = 1 << 3;
        const THREAD_TERMINATED = 1 << 3;
        const THREAD_RUNNING = 1 << 4;
        const THREAD_SUSPENDED = 1 << 5;
        const USER_ALL = 0xff << 24;
    }
}
