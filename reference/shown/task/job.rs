
// -- Appended by reference/build.sh: shows what is private above ------------------------------

impl Job {
    /// The fields behind the lock, and the inherited policy.
    pub fn shown(&self) -> crate::shown::JobShown {
        let inner = self.inner.lock();
        let (slack_amount, slack_mode) = inner.timer_policy.shown();
        crate::shown::JobShown {
            killed: inner.killed,
            slack_amount,
            slack_mode,
            own: inner.policy,
            inherited: self.parent_policy,
        }
    }

    /// After a list: drops the processes, which hold the job.
    pub fn let_go(&self) {
        let processes = core::mem::take(&mut self.inner.lock().processes);
        drop(processes);
    }
}
