//! Stand-in for the list of signalling objects: the copied timer gives the slack modes; futexes and
//! ports are left out.

use super::*;

mod timer;

pub use self::timer::*;

use crate::object::{KernelObject, Signal};
use alloc::sync::Arc;
use core::sync::atomic::AtomicI32;

/// Named by a process's table of futexes, which stays empty.
pub struct Futex;

impl Futex {
    pub fn new(_value: &'static AtomicI32) -> Arc<Self> {
        Arc::new(Futex)
    }
}

/// Named by object/mod.rs; no object ever waits on a port.
pub struct Port;

impl Port {
    pub fn wait_async(
        &self,
        _object: &Arc<dyn KernelObject>,
        _handle: (usize, usize),
        _key: u64,
        _signal: Signal,
        _options: WaitAsyncOptions,
        _unused: Option<()>,
    ) {
    }
}

pub struct WaitAsyncOptions;

impl WaitAsyncOptions {
    pub fn empty() -> Self {
        WaitAsyncOptions
    }
}
