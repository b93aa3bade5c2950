
// -- Appended by reference/build.sh: shows what is private above ------------------------------

impl Thread {
    /// The fields behind the lock.
    pub fn shown(&self) -> crate::shown::ThreadShown {
        let inner = self.inner.lock();
        crate::shown::ThreadShown {
            stored: inner.state,
            suspends: inner.suspend_count,
            killed: inner.killed,
            exception: inner.exception.as_ref().map(|exception| exception.shown()),
        }
    }

    /// The suspend count alone.
    pub fn suspends(&self) -> usize {
        self.inner.lock().suspend_count
    }

    /// After a list: drops the exception, which holds the thread.
    pub fn let_go(&self) {
        let exception = self.inner.lock().exception.take();
        drop(exception);
    }
}

impl ThreadInfo {
    /// State and waiting level.
    pub fn shown(&self) -> (u32, u32) {
        (self.state, self.wait_exception_channel_type)
    }
}
