//! Stand-in for handle rights. Handles are left out, so one bit is enough for every set that the
//! sources name.

use bitflags::bitflags;

bitflags! {
    #[derive(Default)]
    pub struct Rights: u32 {
        const WAIT = 1 << 14;
        const DEFAULT_THREAD = 1 << 14;
        const DEFAULT_PROCESS = 1 << 14;
        const DEFAULT_EXCEPTION = 1 << 14;
    }
}
