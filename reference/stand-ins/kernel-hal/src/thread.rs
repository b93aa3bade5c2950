//! Stand-in for the scheduler. Nothing runs by itself: the harness polls. A deadline has passed
//! when the harness says so.

use std::any::Any;
use std::cell::Cell;
use std::future::Future;
use std::pin::Pin;
use std::sync::Arc;
use std::task::{Context, Poll};
use std::time::Duration;

thread_local! {
    static PASSED: Cell<bool> = const { Cell::new(false) };
}

/// Says whether deadlines count as passed in the polls to come.
pub fn set_deadline_passed(passed: bool) {
    PASSED.with(|cell| cell.set(passed));
}

/// The new thread's own future is never polled: the harness acts in its place.
pub fn spawn(future: impl Future<Output = ()> + Send + 'static) {
    drop(future);
}

pub fn set_current_thread(_thread: Option<Arc<dyn Any + Send + Sync>>) {}

pub fn sleep_until(_deadline: Duration) -> Sleep {
    Sleep
}

pub struct Sleep;

impl Future for Sleep {
    type Output = ();
    fn poll(self: Pin<&mut Self>, _cx: &mut Context<'_>) -> Poll<()> {
        if PASSED.with(Cell::get) {
            Poll::Ready(())
        } else {
            Poll::Pending
        }
    }
}
