//! Raising and closing: `handle_exception` polled by hand. A delivered exception is read at once
//! and its object kept by the handler until a close drops it, or a kill ends the wait.

use crate::front;
use crate::harness::{number, Harness};
use crate::reply::{Fields, Reply};
use crate::tables::*;
use std::sync::Arc;
use std::task::{Context, Poll};
use zircon_object::shown::take_outcome;
use zircon_object::task::ExceptionObject;

impl Harness {
    /// 14: begins the exception and polls it to its first delivery or its end.
    pub(crate) fn raise(&mut self, thread: u8, kind: u16) -> Reply {
        let kind = front::exception_type(kind).expect("104");
        let slot = self.tables.thread_mut(thread);
        let current = slot.take_current();
        let future = Box::pin(async move {
            current.handle_exception(kind).await;
            current
        });
        slot.doing = Doing::Raised(Raised { future, delivered: None });
        self.raised.push(thread);
        self.go_on(thread)
    }

    /// 15: drops the handler's object and polls to the next delivery or the end.
    pub(crate) fn close(&mut self, thread: u8) -> Reply {
        match &mut self.tables.thread_mut(thread).doing {
            Doing::Raised(raised) => drop(raised.delivered.take()),
            _ => unreachable!("105"),
        }
        self.go_on(thread)
    }

    /// What the handler of this thread's exception holds.
    fn delivered(&self, thread: u8) -> &Delivered {
        match &self.tables.thread(thread).doing {
            Doing::Raised(Raised { delivered: Some(delivered), .. }) => delivered,
            _ => unreachable!("an exception that waits is held by a handler"),
        }
    }

    /// The object on which 16 to 18 are called.
    pub(crate) fn held(&self, thread: u8) -> &ExceptionObject {
        &self.delivered(thread).object
    }

    /// Polls after a raise or a close, and tells what came of it.
    fn go_on(&mut self, thread: u8) -> Reply {
        let (answer, owner) = match self.poll_raised(thread) {
            Some(outcome) => {
                self.raised.retain(|name| *name != thread);
                (outcome, 0)
            }
            None => {
                let delivered = self.delivered(thread);
                (delivered.level.into(), delivered.owner)
            }
        };
        Reply { answer, fields: Fields::Owner(owner) }
    }

    /// Polls every waiting exception until a round ends none. A wait that ends lets go of the
    /// handler's object.
    pub(crate) fn poll_to_rest(&mut self) {
        let mut ended = true;
        while ended {
            ended = false;
            let mut at = 0;
            while at < self.raised.len() {
                if self.poll_raised(self.raised[at]).is_some() {
                    self.raised.swap_remove(at);
                    ended = true;
                } else {
                    at += 1;
                }
            }
        }
    }

    /// One poll: the outcome if the exception is over, else it lies with a handler.
    fn poll_raised(&mut self, thread: u8) -> Option<i64> {
        let slot = self.tables.threads[thread as usize].as_mut().expect("a raising thread");
        let raised = match &mut slot.doing {
            Doing::Raised(raised) => raised,
            _ => unreachable!("only raising threads are polled"),
        };
        match raised.future.as_mut().poll(&mut Context::from_waker(&self.waker)) {
            Poll::Ready(current) => {
                slot.doing = Doing::Running(current);
                self.read_unheld(thread);
                Some(number(take_outcome().expect("the outcome of an exception that is over")))
            }
            Poll::Pending => {
                if raised.delivered.is_none() {
                    let delivered = self.read_delivered(thread);
                    self.hand_over(thread, delivered.expect("a message in the handler's channel"));
                }
                None
            }
        }
    }

    /// A killed thread sends ThreadExiting and does not wait: the debugger reads it, and its
    /// closing changes nothing.
    fn read_unheld(&self, thread: u8) {
        let process = self.tables.thread(thread).process;
        drop(read(&self.tables.process(process).debugger, 1, process));
    }

    fn hand_over(&mut self, thread: u8, delivered: Delivered) {
        if let Doing::Raised(raised) = &mut self.tables.thread_mut(thread).doing {
            raised.delivered = Some(delivered);
        }
    }

    /// The handler reads its channel. ThreadExiting has no current level and lies with the process
    /// debugger.
    fn read_delivered(&self, thread: u8) -> Option<Delivered> {
        let slot = self.tables.thread(thread);
        let (_, current) = slot.thread.get_thread_info().shown();
        let process = self.tables.process(slot.process);
        match current {
            0 | 1 => read(&process.debugger, 1, slot.process),
            2 => read(&slot.handler, 2, thread),
            3 => read(&process.handler, 3, slot.process),
            level => self.read_from_jobs(process.job, level as u8),
        }
    }

    /// The job at or above `job` whose channel holds the message.
    fn read_from_jobs(&self, job: u8, level: u8) -> Option<Delivered> {
        let mut next = Some(job);
        while let Some(name) = next {
            let slot = self.tables.job(name);
            let handler = if level == 4 { &slot.handler } else { &slot.debugger };
            let delivered = read(handler, level, name);
            if delivered.is_some() {
                return delivered;
            }
            next = slot.parent;
        }
        None
    }
}

fn read(handler: &Handler, level: u8, owner: u8) -> Option<Delivered> {
    let message = handler.as_ref()?.read().ok()?;
    let handle = message.handles.into_iter().next()?;
    let object: Arc<ExceptionObject> = handle.object.downcast_arc().ok()?;
    Some(Delivered { object, level, owner })
}
