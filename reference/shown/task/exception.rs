
// -- Appended by reference/build.sh: shows what is private above ------------------------------

impl Exceptionate {
    /// Whether the channel is bound, and then whether its user end is alive.
    pub fn shown(&self) -> crate::shown::ChannelShown {
        use crate::shown::ChannelShown;
        match &*self.inner.lock() {
            ExceptionateInner::Init => ChannelShown::Unbound,
            ExceptionateInner::Bind { channel, .. } => match channel.peer() {
                Ok(_) => ChannelShown::Bound,
                Err(_) => ChannelShown::HungUp,
            },
            ExceptionateInner::Shutdown => ChannelShown::Shut,
        }
    }
}

impl Exception {
    /// The type and the fields behind the lock.
    pub(super) fn shown(&self) -> crate::shown::ExceptionShown {
        let inner = self.inner.lock();
        crate::shown::ExceptionShown {
            kind: self.type_ as u32,
            current: inner.current_channel_type as u32,
            handled: inner.handled,
            second_chance: inner.second_chance,
        }
    }
}
