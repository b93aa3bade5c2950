//! Stand-in for the kernel's mutex, for one thread: a lock taken twice would hang the kernel, here
//! it panics with a payload of its own.

use std::cell::{Cell, UnsafeCell};
use std::ops::{Deref, DerefMut};

/// The payload of the panic.
pub struct LockTaken;

#[derive(Default)]
pub struct Mutex<T: ?Sized> {
    taken: Cell<bool>,
    value: UnsafeCell<T>,
}

// The program has a single thread; the sources ask for these bounds.
unsafe impl<T: ?Sized + Send> Send for Mutex<T> {}
unsafe impl<T: ?Sized + Send> Sync for Mutex<T> {}

impl<T> Mutex<T> {
    pub fn new(value: T) -> Self {
        Mutex { taken: Cell::new(false), value: UnsafeCell::new(value) }
    }
}

impl<T: ?Sized> Mutex<T> {
    pub fn lock(&self) -> MutexGuard<'_, T> {
        // While a panic unwinds, what it drops may lock again: the first report is the one that
        // counts.
        if self.taken.replace(true) && !std::thread::panicking() {
            std::panic::panic_any(LockTaken);
        }
        MutexGuard { mutex: self }
    }
}

pub struct MutexGuard<'a, T: ?Sized> {
    mutex: &'a Mutex<T>,
}

impl<T: ?Sized> Deref for MutexGuard<'_, T> {
    type Target = T;
    fn deref(&self) -> &T {
        // Safety: `taken` admits one guard at a time, on one thread.
        unsafe { &*self.mutex.value.get() }
    }
}

impl<T: ?Sized> DerefMut for MutexGuard<'_, T> {
    fn deref_mut(&mut self) -> &mut T {
        // Safety: as above.
        unsafe { &mut *self.mutex.value.get() }
    }
}

impl<T: ?Sized> Drop for MutexGuard<'_, T> {
    fn drop(&mut self) {
        self.mutex.taken.set(false);
    }
}
