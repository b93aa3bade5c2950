//! Builds one list of calls: each call is chosen, performed on a harness, and the next choice
//! looks at the records that it left.

use crate::choose::{next_call, Chosen, Task};
use crate::layout::{operands, DYING};
use crate::profile::Profile;
use crate::rng::Rng;
use crate::view::{has_exited, is_able, View};
use reference::commands::{decode, Decoded};
use reference::harness::Harness;
use reference::records::Records;
use std::panic::{catch_unwind, AssertUnwindSafe};
use std::process::exit;

/// A list under way.
pub struct Builder {
    harness: Harness,
    pub list: Vec<u8>,
    recent: Option<Task>,
    /// A long list: the root is not killed, and the last threads that can act are kept.
    steady: bool,
}

/// Calls that follow the root's end.
const AFTERMATH: usize = 8;

/// Below this many threads that can act a steady list kills nothing.
const KEPT: usize = 16;

impl Builder {
    pub fn new(steady: bool) -> Self {
        Builder { harness: Harness::fresh(), list: Vec::new(), recent: None, steady }
    }

    /// Adds `calls` calls; after the root's end only a few.
    pub fn add(&mut self, rng: &mut Rng, profile: &Profile, calls: usize) {
        let mut left = calls;
        while left > 0 {
            let records = self.harness.records();
            if records.jobs[0].map_or(false, |root| root.killed) {
                left = left.min(AFTERMATH);
            }
            let (bytes, about) = self.choose(rng, &records, profile);
            self.list.extend(&bytes);
            perform(&mut self.harness, &bytes, &self.list);
            self.recent = about.or(self.recent);
            left -= 1;
        }
    }

    /// A chain of `depth` jobs below the root, their names in no order; most have a process that
    /// is critical to a job a little above. Gives the number of calls.
    fn add_chain(&mut self, rng: &mut Rng, depth: usize) -> usize {
        let mut jobs = shuffled(rng, 1, 31);
        let mut processes = shuffled(rng, 0, 63);
        let mut path = vec![0];
        let mut calls = Vec::new();
        for _ in 0..depth {
            let (parent, job) = (path[path.len() - 1], jobs.pop().unwrap_or(0));
            calls.push(vec![0x01, parent, job]);
            path.push(job);
            if rng.chance(70) {
                let process = processes.pop().unwrap_or(0);
                let above = path[path.len() - rng.between(1, 3).min(path.len())];
                calls.push(vec![0x03, job, process]);
                calls.push(vec![0x07, process, above, rng.below(2) as u8]);
            }
        }
        for call in &calls {
            self.list.extend(call);
            perform(&mut self.harness, call, &self.list);
        }
        calls.len()
    }

    fn choose(&self, rng: &mut Rng, records: &Records, profile: &Profile) -> Chosen {
        loop {
            let chosen = next_call(rng, records, profile, self.recent);
            if !self.steady || is_steady(&chosen.0, records) {
                return chosen;
            }
        }
    }
}

/// Whether a long list may go on with this call.
fn is_steady(call: &[u8], records: &Records) -> bool {
    let acting = View(records).threads(|thread| is_able(thread) && thread.stored != DYING).len();
    match call[0] {
        0x02 if call[1] == 0 => false,
        0x07 if call[2] == 0 => false,
        0x02 | 0x05 | 0x06 | 0x0a if is_over(call, records) => true,
        0x02 | 0x05 | 0x06 | 0x0a | 0x0b | 0x0c => acting > KEPT,
        // An ordinary exception that nobody handles exits the process.
        0x14 if call[3] < 0x80 => acting > KEPT,
        _ => true,
    }
}

/// Whether a kill or an exit comes too late to change anything.
fn is_over(call: &[u8], records: &Records) -> bool {
    let (view, name) = (View(records), call[1]);
    match call[0] {
        0x02 => view.job(name).map_or(false, |job| job.killed),
        0x0a => view.thread(name).map_or(false, |thread| thread.killed || thread.finished),
        _ => view.process(name).map_or(false, has_exited),
    }
}

/// The names from `first` to `last` in no order.
fn shuffled(rng: &mut Rng, first: u8, last: u8) -> Vec<u8> {
    let mut names: Vec<u8> = (first..=last).collect();
    for place in (1..names.len()).rev() {
        names.swap(place, rng.below(place + 1));
    }
    names
}

/// The bytes of a list of `calls` calls.
pub fn build(rng: &mut Rng, profile: &Profile, calls: usize) -> Vec<u8> {
    let mut builder = Builder::new(false);
    let mut left = calls;
    if calls >= 12 && rng.chance(profile.chained) {
        let depth = rng.between(3, (calls / 4).min(31));
        left -= builder.add_chain(rng, depth).min(calls);
    }
    builder.add(rng, profile, left);
    builder.list
}

/// Makes the call. If it panics (the Rust, a lock taken twice or the harness itself), the list so
/// far is shown and the program ends with 4.
fn perform(harness: &mut Harness, bytes: &[u8], list: &[u8]) {
    let command = match decode(bytes) {
        Decoded::Whole(command, _) => command,
        _ => return,
    };
    let call = AssertUnwindSafe(|| harness.call(&command));
    if catch_unwind(call).is_err() {
        let hexes: Vec<String> = list.iter().map(|byte| format!("{byte:02x}")).collect();
        eprintln!("generate: the last call of this list panicked: {}", hexes.join(" "));
        exit(4);
    }
}

/// A tail that is no call: an unknown command, a count above 4 or a cut operand; the first two
/// have a call behind them that must not be reached.
pub fn stop_tail(rng: &mut Rng) -> Vec<u8> {
    let mut tail = Vec::new();
    match rng.below(3) {
        0 => {
            tail.push(rng.pick(&[0x00, 0x30, 0x7f, 0x80, 0xff]).unwrap_or(0));
            tail.extend([0x1b, 0]);
        }
        1 => {
            tail.extend([0x0f, 0, 0, rng.between(5, 255) as u8]);
            tail.extend([0; 8]);
            tail.extend([0x1b, 0]);
        }
        _ => {
            let command = rng.between(1, 0x1f) as u8;
            let whole: usize = operands(command).unwrap_or(&[]).iter().map(|o| o.width()).sum();
            tail.push(command);
            tail.resize(1 + rng.below(whole), 0);
        }
    }
    tail
}
