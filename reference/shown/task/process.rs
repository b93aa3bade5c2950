
// -- Appended by reference/build.sh: shows what is private above ------------------------------

impl Process {
    /// The policy fixed at creation.
    pub fn fixed(&self) -> JobPolicy {
        self.policy
    }

    /// The bound job, and whether only nonzero codes count.
    pub fn critical(&self) -> Option<(KoID, bool)> {
        let inner = self.inner.lock();
        let bound = inner.critical_to_job.as_ref();
        bound.map(|(job, nonzero)| (job.id(), *nonzero))
    }

    /// Whether some listed thread is as `asked`.
    pub fn any_listed(&self, asked: impl Fn(&Thread) -> bool) -> bool {
        self.inner.lock().threads.iter().any(|thread| asked(thread))
    }

    /// After a list: drops the threads and the binding, which hold the process and its jobs.
    pub fn let_go(&self) {
        let mut inner = self.inner.lock();
        let held = (core::mem::take(&mut inner.threads), inner.critical_to_job.take());
        drop(inner);
        drop(held);
    }
}
