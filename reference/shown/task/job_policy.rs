
// -- Appended by reference/build.sh: shows what is private above ------------------------------

impl TimerSlackPolicy {
    /// The source reads this record from user memory.
    pub fn new(min_slack: i64, default_mode: Slack) -> Self {
        TimerSlackPolicy {
            min_slack,
            default_mode,
        }
    }
}

impl TimerSlack {
    /// Amount and mode.
    pub(super) fn shown(&self) -> (i64, u32) {
        (self.amount, self.mode as u32)
    }
}
